/* Each exported call by the header alone, mostly on the worked case of a single bright pixel. Prints nothing where all is well. */
#include "vokhsaot.h"

#include <stdio.h>
#include <stdlib.h>
#include <string.h>

/* Limits, layout and version are numbers for the preprocessor too. */
#if VOKHSAOT_VERSION_MAJOR != 0 || VOKHSAOT_VERSION_MINOR < 6 || VOKHSAOT_VERSION_PATCH < 0
#error "the version"
#endif
#if VOKHSAOT_LARGEST_PIXEL != 65535 || VOKHSAOT_MOST_STEPS != 64 || VOKHSAOT_LONGEST_SIDE != 1024 \
    || VOKHSAOT_UNITS_PER_SQUARE_PIXEL != 4096 || VOKHSAOT_LARGEST_VARIANCE != 64
#error "limits of pictures and shapes"
#endif
#if VOKHSAOT_SEATS != 8 || VOKHSAOT_BUFFERS != 2 * VOKHSAOT_SEATS || VOKHSAOT_BUFFER_PIXELS != 1024 \
    || VOKHSAOT_STORE_PIXELS != VOKHSAOT_BUFFERS * VOKHSAOT_BUFFER_PIXELS
#error "limits of the service"
#endif
#if VOKHSAOT_COVARIANCE_ENTRIES != 3 || VOKHSAOT_KERNEL_NUMBERS != 10 || VOKHSAOT_ANSWER_BYTES != 49240
#error "lengths of lent slices"
#endif
#if VOKHSAOT_TEXT_BYTES != 16386 || VOKHSAOT_ARCHIVED_TEXT_BYTES != 16384 || VOKHSAOT_CHOICE_BYTES != 2
#error "lengths of texts"
#endif
#if VOKHSAOT_SEAT_WORDS != 9 || VOKHSAOT_SEAT_F != 8 || VOKHSAOT_WORD_LAST_NUMBER != VOKHSAOT_SEATS * VOKHSAOT_SEAT_WORDS \
    || VOKHSAOT_WORD_LAST_FILLED != 73 || VOKHSAOT_WORD_LAST_SERVED != 74 || VOKHSAOT_WORDS != VOKHSAOT_WORD_LAST_SERVED + 1
#error "the record's layout"
#endif
#if VOKHSAOT_OLD_SEAT_WORDS != VOKHSAOT_SEAT_F || VOKHSAOT_OLD_WORDS != VOKHSAOT_SEATS * VOKHSAOT_OLD_SEAT_WORDS + 3
#error "the layout of a record from before the change-over"
#endif

static void expect(int holds, const char *what) {
    if (!holds) {
        fprintf(stderr, "not so: %s\n", what);
        exit(1);
    }
}

/* Case a's picture, and what a step makes of it by each choice. */
static const uint16_t picture[9] = {0, 0, 0, 0, 1600, 0, 0, 0, 0};
static const uint16_t filled[9] = {100, 200, 100, 200, 400, 200, 100, 200, 100};
static const uint16_t hollow[9] = {0, 400, 0, 400, 0, 400, 0, 400, 0};

/* Case a's kernel by each choice: the sum and nine weights. */
static const uint64_t filled_kernel[10] = {16384, 1024, 2048, 1024, 2048, 4096, 2048, 1024, 2048, 1024};
static const uint64_t hollow_kernel[10] = {16384, 0, 4096, 0, 4096, 0, 4096, 0, 4096, 0};

static void shapes(void) {
    int32_t entries[VOKHSAOT_COVARIANCE_ENTRIES] = {0};

    expect(vokhsaot_covariance_round(0.5, entries, 3) == 0 && entries[0] == 2048 && entries[1] == 0 && entries[2] == 2048,
           "the covariance of a round shape");
    expect(vokhsaot_covariance_oval(0.25, 0.5, 0.0, 1.0, entries, 3) == 0 && entries[0] == 2048 && entries[1] == 0
               && entries[2] == 1024, "the covariance of an oval shape");
    expect(vokhsaot_covariance_round(65.0, entries, 3) == VOKHSAOT_VARIANCE_OUT_OF_RANGE && entries[2] == 1024,
           "a refusal changes nothing");
}

static void kernel_is(uint32_t code, uint64_t *numbers, const uint64_t *expected, const char *what) {
    expect(code == 0 && memcmp(numbers, expected, 10 * sizeof *numbers) == 0, what);
    memset(numbers, 0, 10 * sizeof *numbers);
}

static void kernels(void) {
    uint64_t n[VOKHSAOT_KERNEL_NUMBERS] = {0};

    kernel_is(vokhsaot_kernel_matrix(2048, 0, 2048, 1, n, 10), n, filled_kernel, "a matrix without a choice");
    kernel_is(vokhsaot_kernel_round(0.5, 1, n, 10), n, filled_kernel, "a round shape without a choice");
    kernel_is(vokhsaot_kernel_oval(0.5, 0.5, 1.0, 0.0, 1, n, 10), n, filled_kernel, "an oval without a choice");

    kernel_is(vokhsaot_kernel_matrix_by(VOKHSAOT_BINOMIAL, 2048, 0, 2048, 1, n, 10), n, filled_kernel, "a matrix, binomial");
    kernel_is(vokhsaot_kernel_round_by(VOKHSAOT_BINOMIAL, 0.5, 1, n, 10), n, filled_kernel, "a round shape, binomial");
    kernel_is(vokhsaot_kernel_oval_by(VOKHSAOT_BINOMIAL, 0.5, 0.5, 1.0, 0.0, 1, n, 10), n, filled_kernel, "an oval, binomial");

    kernel_is(vokhsaot_kernel_matrix_by(VOKHSAOT_SMALLEST, 2048, 0, 2048, 1, n, 10), n, hollow_kernel, "a matrix, smallest");
    kernel_is(vokhsaot_kernel_round_by(VOKHSAOT_SMALLEST, 0.5, 1, n, 10), n, hollow_kernel, "a round shape, smallest");
    kernel_is(vokhsaot_kernel_oval_by(VOKHSAOT_SMALLEST, 0.5, 0.5, 1.0, 0.0, 1, n, 10), n, hollow_kernel, "an oval, smallest");

    kernel_is(vokhsaot_kernel_matrix_by(2, 2048, 0, 2048, 1, n, 10), n, filled_kernel, "the choice 2 is none of its own");
    kernel_is(vokhsaot_kernel_round_by(UINT32_MAX, 0.5, 1, n, 10), n, filled_kernel, "nor is the largest number");
}

/* The order of the arguments and of the weights, by shapes that are no mirror images of themselves. */
static void unequal_kernels(void) {
    static const uint64_t lean[10] = {16384, 2000, 0, 0, 0, 12384, 0, 0, 0, 2000};
    static const uint64_t wide[10] = {16384, 512, 1024, 512, 3072, 6144, 3072, 512, 1024, 512};
    static const uint64_t wide_smallest[10] = {16384, 0, 2048, 0, 4096, 4096, 4096, 0, 2048, 0};
    uint64_t n[VOKHSAOT_KERNEL_NUMBERS] = {0};

    kernel_is(vokhsaot_kernel_matrix(1000, 1000, 1000, 1, n, 10), n, lean, "a leaning matrix");
    kernel_is(vokhsaot_kernel_matrix_by(VOKHSAOT_SMALLEST, 1000, 1000, 1000, 1, n, 10), n, lean, "the same, smallest");
    kernel_is(vokhsaot_kernel_matrix(2048, 0, 1024, 1, n, 10), n, wide, "a wide matrix");
    kernel_is(vokhsaot_kernel_oval(0.5, 0.25, 1.0, 0.0, 1, n, 10), n, wide, "a wide oval");
    kernel_is(vokhsaot_kernel_oval_by(VOKHSAOT_SMALLEST, 0.5, 0.25, 1.0, 0.0, 1, n, 10), n, wide_smallest, "the same, smallest");
}

static void refused_kernels(void) {
    static const uint64_t kept[10] = {1, 2, 3, 4, 5, 6, 7, 8, 9, 10};
    uint64_t n[VOKHSAOT_KERNEL_NUMBERS];

    memcpy(n, kept, sizeof n);
    expect(vokhsaot_kernel_matrix(4097, 0, 4096, 1, n, 10) == VOKHSAOT_NO_KERNEL, "no kernel");
    expect(vokhsaot_kernel_round(-1.0, 1, n, 10) == VOKHSAOT_VARIANCE_OUT_OF_RANGE, "no variance");
    expect(vokhsaot_kernel_oval(0.5, 0.5, 2.0, 0.0, 1, n, 10) == VOKHSAOT_NOT_A_DIRECTION, "no direction");
    for (uint32_t choice = VOKHSAOT_BINOMIAL; choice <= VOKHSAOT_SMALLEST; choice++) {
        expect(vokhsaot_kernel_matrix_by(choice, 4097, 0, 4096, 1, n, 10) == VOKHSAOT_NO_KERNEL, "no kernel by either choice");
        expect(vokhsaot_kernel_round_by(choice, 0.5, 1, n, 9) == VOKHSAOT_WRONG_LENGTH, "a short buffer");
        expect(vokhsaot_kernel_oval_by(choice, 0.5, 0.5, 1.0, 0.0, 65, n, 10) == VOKHSAOT_STEPS_OUT_OF_RANGE, "many steps");
    }
    expect(memcmp(n, kept, sizeof n) == 0, "a refusal changes nothing");
}

/* A run of one step that leaves its first picture as it was and writes the expected one into the second. */
static void run_is(uint32_t code, const uint16_t *first, uint16_t *second, const uint16_t *expected, const char *what) {
    expect(code == 0 && memcmp(first, picture, sizeof picture) == 0, what);
    expect(memcmp(second, expected, sizeof picture) == 0, what);
    memset(second, 0, sizeof picture);
}

static void runs(void) {
    uint16_t a[9], b[9] = {0}, pixel = 0;
    const uint32_t binomial = VOKHSAOT_BINOMIAL, smallest = VOKHSAOT_SMALLEST;

    memcpy(a, picture, sizeof a);
    run_is(vokhsaot_run_matrix(2048, 0, 2048, 1, 3, 3, a, 9, b, 9), a, b, filled, "a matrix without a choice");
    run_is(vokhsaot_run_round(0.5, 1, 3, 3, a, 9, b, 9), a, b, filled, "a round run without a choice");
    run_is(vokhsaot_run_oval(0.5, 0.5, 1.0, 0.0, 1, 3, 3, a, 9, b, 9), a, b, filled, "an oval run without a choice");

    run_is(vokhsaot_run_matrix_by(binomial, 2048, 0, 2048, 1, 3, 3, a, 9, b, 9), a, b, filled, "a matrix, binomial");
    run_is(vokhsaot_run_round_by(binomial, 0.5, 1, 3, 3, a, 9, b, 9), a, b, filled, "a round run, binomial");
    run_is(vokhsaot_run_oval_by(binomial, 0.5, 0.5, 1.0, 0.0, 1, 3, 3, a, 9, b, 9), a, b, filled, "an oval run, binomial");

    run_is(vokhsaot_run_matrix_by(smallest, 2048, 0, 2048, 1, 3, 3, a, 9, b, 9), a, b, hollow, "a matrix, smallest");
    run_is(vokhsaot_run_round_by(smallest, 0.5, 1, 3, 3, a, 9, b, 9), a, b, hollow, "a round run, smallest");
    run_is(vokhsaot_run_oval_by(smallest, 0.5, 0.5, 1.0, 0.0, 1, 3, 3, a, 9, b, 9), a, b, hollow, "an oval run, smallest");

    run_is(vokhsaot_run_matrix_by(7, 2048, 0, 2048, 1, 3, 3, a, 9, b, 9), a, b, filled, "the choice 7 is none of its own");
    expect(vokhsaot_pixel(picture, 9, 3, 3, 1, 1, &pixel) == 0 && pixel == 1600, "a pixel");
    expect(vokhsaot_pixel(filled, 9, 3, 3, 1, -5, &pixel) == 0 && pixel == 200, "the nearest pixel");
}

static void refused_runs(void) {
    uint16_t a[9], b[9];

    memcpy(a, picture, sizeof a);
    memcpy(b, hollow, sizeof b);
    expect(vokhsaot_run_matrix(0, 1, 0, 1, 3, 3, a, 9, b, 9) == VOKHSAOT_NO_KERNEL, "no kernel");
    expect(vokhsaot_run_round(0.5, 65, 3, 3, a, 9, b, 9) == VOKHSAOT_STEPS_OUT_OF_RANGE, "too many steps");
    expect(vokhsaot_run_oval(0.5, 0.5, 1.0, 1.0, 1, 3, 3, a, 9, b, 9) == VOKHSAOT_NOT_A_DIRECTION, "no direction");
    for (uint32_t choice = VOKHSAOT_BINOMIAL; choice <= VOKHSAOT_SMALLEST; choice++) {
        expect(vokhsaot_run_matrix_by(choice, 0, 1, 0, 1, 3, 3, a, 9, b, 9) == VOKHSAOT_NO_KERNEL, "no kernel");
        expect(vokhsaot_run_round_by(choice, 65.0, 0, 0, 0, a, 9, b, 9) == VOKHSAOT_VARIANCE_OUT_OF_RANGE, "no variance");
        expect(vokhsaot_run_oval_by(choice, 0.5, 0.5, 1.0, 0.0, 1, 0, 3, a, 9, b, 9) == VOKHSAOT_SIDE_OUT_OF_RANGE, "no side");
        expect(vokhsaot_run_matrix_by(choice, 2048, 0, 2048, 1, 3, 3, a, 9, b, 8) == VOKHSAOT_WRONG_LENGTH, "a short picture");
    }
    expect(memcmp(a, picture, sizeof a) == 0 && memcmp(b, hollow, sizeof b) == 0, "a refusal changes nothing");
}

/* Case a's picture in the middle of others' pixels, for a run within it. */
static uint16_t lent_one[11];

static uint16_t *one_picture(void) {
    lent_one[0] = lent_one[10] = 4711;
    memcpy(lent_one + 1, picture, sizeof picture);
    return lent_one + 1;
}

/* A run of one step within that picture that leaves the expected one there, and others' pixels as they are. */
static void in_place_is(uint32_t code, const uint16_t *expected, const char *what) {
    expect(code == 0 && memcmp(lent_one + 1, expected, sizeof picture) == 0, what);
    expect(lent_one[0] == 4711 && lent_one[10] == 4711, "the pixels beside the picture");
}

static void runs_in_place(void) {
    const uint32_t binomial = VOKHSAOT_BINOMIAL, smallest = VOKHSAOT_SMALLEST;

    in_place_is(vokhsaot_run_in_place_matrix(2048, 0, 2048, 1, 3, 3, one_picture(), 9), filled, "a matrix without a choice");
    in_place_is(vokhsaot_run_in_place_round(0.5, 1, 3, 3, one_picture(), 9), filled, "a round run without a choice");
    in_place_is(vokhsaot_run_in_place_oval(0.5, 0.5, 1.0, 0.0, 1, 3, 3, one_picture(), 9), filled, "an oval run without a choice");

    in_place_is(vokhsaot_run_in_place_matrix_by(binomial, 2048, 0, 2048, 1, 3, 3, one_picture(), 9), filled, "a matrix, binomial");
    in_place_is(vokhsaot_run_in_place_round_by(binomial, 0.5, 1, 3, 3, one_picture(), 9), filled, "a round run, binomial");
    in_place_is(vokhsaot_run_in_place_oval_by(binomial, 0.5, 0.5, 1.0, 0.0, 1, 3, 3, one_picture(), 9), filled,
                "an oval, binomial");

    in_place_is(vokhsaot_run_in_place_matrix_by(smallest, 2048, 0, 2048, 1, 3, 3, one_picture(), 9), hollow, "a matrix, smallest");
    in_place_is(vokhsaot_run_in_place_round_by(smallest, 0.5, 1, 3, 3, one_picture(), 9), hollow, "a round run, smallest");
    in_place_is(vokhsaot_run_in_place_oval_by(smallest, 0.5, 0.5, 1.0, 0.0, 1, 3, 3, one_picture(), 9), hollow,
                "an oval, smallest");

    in_place_is(vokhsaot_run_in_place_matrix_by(7, 2048, 0, 2048, 1, 3, 3, one_picture(), 9), filled,
                "the choice 7 is none of its own");
    in_place_is(vokhsaot_run_in_place_round_by(UINT32_MAX, 0.5, 1, 3, 3, one_picture(), 9), filled, "nor is the largest number");
}

/* Whether both runs, by one of the three forms of a shape, end with the same pixels. What they are lent begins with the same ones. */
static int same_runs(int form, uint32_t choice, uint32_t steps, uint32_t width, uint32_t height, uint16_t *pictures[3]) {
    const size_t pixels = (size_t)width * height;
    uint16_t *first = pictures[0], *second = pictures[1], *one = pictures[2];
    uint32_t between, within, shown = 0;

    if (form == 0) {
        between = vokhsaot_run_matrix_by(choice, 4000, -900, 2000, steps, width, height, first, pixels, second, pixels);
        within = vokhsaot_run_in_place_matrix_by(choice, 4000, -900, 2000, steps, width, height, one, pixels);
    } else if (form == 1) {
        between = vokhsaot_run_round_by(choice, 0.7, steps, width, height, first, pixels, second, pixels);
        within = vokhsaot_run_in_place_round_by(choice, 0.7, steps, width, height, one, pixels);
    } else {
        between = vokhsaot_run_oval_by(choice, 0.9, 0.4, 0.8, 0.6, steps, width, height, first, pixels, second, pixels);
        within = vokhsaot_run_in_place_oval_by(choice, 0.9, 0.4, 0.8, 0.6, steps, width, height, one, pixels);
    }
    expect(between == 0 && within == 0 && vokhsaot_shown(steps, &shown) == 0, "both runs");
    return memcmp(one, shown == 0 ? first : second, pixels * sizeof *one) == 0;
}

/*
 * The pixels of the run between two pictures, at sides of one band and of several; the order of the arguments, by shapes that are no
 * mirror images of themselves. The one picture has memory of its own, so that valgrind sees a pixel beside it read or written.
 */
static void one_picture_and_two(void) {
    static const uint32_t sides[][2] = {{1, 1},    {1, 7},    {7, 1},   {2, 1024}, {1024, 1},
                                        {1024, 2}, {1023, 3}, {33, 31}, {40, 60},  {513, 4}};
    uint32_t state = 1;

    for (size_t i = 0; i < sizeof sides / sizeof *sides; i++) {
        const size_t pixels = (size_t)sides[i][0] * sides[i][1];
        uint16_t *pictures[3];
        for (int which = 0; which < 3; which++) {
            pictures[which] = malloc(pixels * sizeof *pictures[which]);
            expect(pictures[which] != NULL, "memory");
        }
        for (uint32_t run = 0; run < 24; run++) {
            for (size_t place = 0; place < pixels; place++) {
                state = state * 1664525u + 1013904223u;
                pictures[0][place] = pictures[2][place] = (uint16_t)(state >> 16);
            }
            expect(same_runs((int)(run % 3), run / 3 % 2, 1 + run / 6, sides[i][0], sides[i][1], pictures), "one picture as two");
        }
        for (int which = 0; which < 3; which++) {
            free(pictures[which]);
        }
    }
}

/* A run within one picture that is refused by this number leaves the picture as it was, and others' pixels too. */
static void refused_in_place(uint32_t code, uint32_t refusal, const char *what) {
    expect(code == refusal, what);
    expect(memcmp(lent_one + 1, picture, sizeof picture) == 0, "a refusal changes nothing");
    expect(lent_one[0] == 4711 && lent_one[10] == 4711, "the pixels beside the picture");
}

static void refused_runs_in_place(void) {
    uint16_t *a = one_picture();

    refused_in_place(vokhsaot_run_in_place_matrix(0, 1, 0, 1, 3, 3, a, 9), VOKHSAOT_NO_KERNEL, "no kernel");
    refused_in_place(vokhsaot_run_in_place_round(0.5, 65, 3, 3, a, 9), VOKHSAOT_STEPS_OUT_OF_RANGE, "too many steps");
    refused_in_place(vokhsaot_run_in_place_oval(0.5, 0.5, 1.0, 1.0, 1, 3, 3, a, 9), VOKHSAOT_NOT_A_DIRECTION, "no direction");
    for (uint32_t choice = VOKHSAOT_BINOMIAL; choice <= VOKHSAOT_SMALLEST; choice++) {
        /* each by itself, and then each with all that come after it: 3, 4, 5, 6, 9, 11 */
        refused_in_place(vokhsaot_run_in_place_round_by(choice, -0.5, 1, 3, 3, a, 9),
                         VOKHSAOT_VARIANCE_OUT_OF_RANGE, "no variance");
        refused_in_place(vokhsaot_run_in_place_matrix_by(choice, 2048, 0, 2048, 0, 3, 3, a, 9),
                         VOKHSAOT_STEPS_OUT_OF_RANGE, "no steps");
        refused_in_place(vokhsaot_run_in_place_matrix_by(choice, 2048, 0, 2048, 1, 9, 1025, a, 9),
                         VOKHSAOT_SIDE_OUT_OF_RANGE, "a long side");
        refused_in_place(vokhsaot_run_in_place_matrix_by(choice, 2048, 0, 2048, 1, 0, 9, a, 0),
                         VOKHSAOT_SIDE_OUT_OF_RANGE, "no side");
        refused_in_place(vokhsaot_run_in_place_matrix_by(choice, 2048, 0, 2048, 1, 3, 3, a, 8),
                         VOKHSAOT_WRONG_LENGTH, "a short picture");
        refused_in_place(vokhsaot_run_in_place_matrix_by(choice, 2048, 0, 2048, 1, 2, 4, a, 9),
                         VOKHSAOT_WRONG_LENGTH, "a long picture");
        refused_in_place(vokhsaot_run_in_place_matrix_by(choice, 2048, 0, 2048, 1, 3, 3, a, 0), VOKHSAOT_WRONG_LENGTH, "no pixels");
        refused_in_place(vokhsaot_run_in_place_oval_by(choice, 65.0, 0.5, 2.0, 0.0, 0, 0, 0, a, 8),
                         VOKHSAOT_VARIANCE_OUT_OF_RANGE, "3 first");
        refused_in_place(vokhsaot_run_in_place_oval_by(choice, 0.5, 0.5, 2.0, 0.0, 0, 0, 0, a, 8),
                         VOKHSAOT_NOT_A_DIRECTION, "then 4");
        refused_in_place(vokhsaot_run_in_place_oval_by(choice, 64.0, 0.5, 1.0, 0.0, 0, 0, 0, a, 8),
                         VOKHSAOT_STEPS_OUT_OF_RANGE, "then 5");
        refused_in_place(vokhsaot_run_in_place_oval_by(choice, 64.0, 0.5, 1.0, 0.0, 1, 0, 3, a, 8),
                         VOKHSAOT_SIDE_OUT_OF_RANGE, "then 6");
        refused_in_place(vokhsaot_run_in_place_oval_by(choice, 64.0, 0.5, 1.0, 0.0, 1, 3, 3, a, 8),
                         VOKHSAOT_WRONG_LENGTH, "then 9");
        refused_in_place(vokhsaot_run_in_place_oval_by(choice, 64.0, 0.5, 1.0, 0.0, 1, 3, 3, a, 9), VOKHSAOT_NO_KERNEL, "then 11");
    }
}

/* One step by the weights of the kernel for so many steps, computed here, from one picture of 3 x 3 to another. */
static void one_step(uint32_t choice, uint32_t steps, const uint16_t *from, uint16_t *to) {
    uint64_t n[VOKHSAOT_KERNEL_NUMBERS];

    expect(vokhsaot_kernel_matrix_by(choice, 2048, 0, 2048, steps, n, 10) == 0 && n[0] == 16384 * (uint64_t)steps,
           "a kernel and its sum");
    for (int32_t y = 0; y < 3; y++) {
        for (int32_t x = 0; x < 3; x++) {
            uint64_t sum = 0;
            for (int32_t dy = -1; dy <= 1; dy++) {
                for (int32_t dx = -1; dx <= 1; dx++) {
                    uint16_t pixel = 0;
                    expect(vokhsaot_pixel(from, 9, 3, 3, x + dx, y + dy, &pixel) == 0, "a pixel");
                    sum += n[5 + 3 * dy + dx] * pixel;
                }
            }
            to[3 * y + x] = (uint16_t)((2 * sum + n[0]) / (2 * n[0]));
        }
    }
}

/* Which picture of a run holds its last step: told by the call, and true of the run. */
static void shown_pictures(void) {
    uint16_t pictures[2][9];
    uint32_t picture_shown = 99;

    for (uint32_t steps = 1; steps <= VOKHSAOT_MOST_STEPS; steps++) {
        expect(vokhsaot_shown(steps, &picture_shown) == 0 && picture_shown == steps % 2, "even in the first, odd in the second");
    }
    for (uint32_t steps = 1; steps <= 4; steps++) {
        uint16_t alone[2][9];
        memcpy(pictures[0], picture, sizeof picture);
        memcpy(alone[0], picture, sizeof picture);
        expect(vokhsaot_run_matrix(2048, 0, 2048, steps, 3, 3, pictures[0], 9, pictures[1], 9) == 0, "a run");
        for (uint32_t step = 1; step <= steps; step++) {
            one_step(VOKHSAOT_BINOMIAL, steps, alone[0], alone[1]);
            memcpy(alone[0], alone[1], sizeof alone[0]);
        }
        expect(vokhsaot_shown(steps, &picture_shown) == 0, "shown");
        expect(memcmp(pictures[picture_shown], alone[0], sizeof picture) == 0, "the picture shown holds the last step");
    }
    picture_shown = 99;
    expect(vokhsaot_shown(0, &picture_shown) == VOKHSAOT_STEPS_OUT_OF_RANGE, "no steps");
    expect(vokhsaot_shown(VOKHSAOT_MOST_STEPS + 1, &picture_shown) == VOKHSAOT_STEPS_OUT_OF_RANGE, "too many steps");
    expect(vokhsaot_shown(UINT32_MAX, &picture_shown) == VOKHSAOT_STEPS_OUT_OF_RANGE, "the most steps");
    expect(picture_shown == 99, "a refusal changes nothing");
}

static void differences(void) {
    const uint16_t steep[4] = {1, 2, 4, 9};
    int32_t result[4] = {0};
    double directional[4] = {0};

    expect(vokhsaot_first_x(steep, 4, 2, 2, result, 4) == 0 && result[0] == 1 && result[3] == 5, "first x");
    expect(vokhsaot_first_y(steep, 4, 2, 2, result, 4) == 0 && result[0] == 3 && result[3] == 7, "first y");
    expect(vokhsaot_second_x(steep, 4, 2, 2, result, 4) == 0 && result[0] == 1 && result[3] == -5, "second x");
    expect(vokhsaot_second_y(steep, 4, 2, 2, result, 4) == 0 && result[0] == 3 && result[3] == -7, "second y");
    expect(vokhsaot_mixed(steep, 4, 2, 2, result, 4) == 0 && result[0] == 4, "mixed");
    expect(vokhsaot_directional(0.0, -1.0, steep, 4, 2, 2, directional, 4) == 0 && directional[3] == -7.0, "directional");
    expect(vokhsaot_mixed(steep, 4, 2, 2, result, 3) == VOKHSAOT_WRONG_LENGTH && result[0] == 4, "a short result");
}

/* Case a's texts: line one in each format and by each choice, and the pixel lines. */
#define CASE_A "\t2048\t0\t2048\t1\t3\t3"
#define SPOT "\n0\t0\t0\n0\t1600\t0\n0\t0\t0\n"

static void answer_is(const char *text, size_t text_len, const char *answer, const char *what) {
    uint8_t *out = malloc(VOKHSAOT_ANSWER_BYTES);
    size_t length = 0;

    expect(out != NULL, "memory");
    memset(out, 0xAB, VOKHSAOT_ANSWER_BYTES);
    expect(vokhsaot_answer_text((const uint8_t *)text, text_len, out, VOKHSAOT_ANSWER_BYTES, &length) == 0
               && length == strlen(answer) && memcmp(out, answer, length) == 0, what);
    for (size_t i = length; i < VOKHSAOT_ANSWER_BYTES; i++) {
        expect(out[i] == 0xAB, "the bytes behind the answer");
    }
    free(out);
}

static void texts(void) {
    static const char text[] = "N" CASE_A "\tb" SPOT, smallest[] = "N" CASE_A "\ts" SPOT, archived[] = "J" CASE_A SPOT;
    uint8_t out[VOKHSAOT_ANSWER_BYTES - 1] = {0};
    size_t length = 99;

    answer_is(text, strlen(text), "K\t16\t1\t2\t1\t2\t4\t2\t1\t2\t1\nP\t3\t3\n100\t200\t100\n200\t400\t200\n100\t200\t100\n",
              "the listing");
    answer_is(smallest, strlen(smallest), "K\t4\t0\t1\t0\t1\t0\t1\t0\t1\t0\nP\t3\t3\n0\t400\t0\n400\t0\t400\n0\t400\t0\n",
              "the same, smallest");
    answer_is(archived, strlen(archived), "R\t1\n", "an archived text is no job");
    answer_is(text, 5, "R\t1\n", "no job");
    answer_is(text, 0, "R\t1\n", "no text");
    answer_is("N\t0\t0\t0\t65\t1\t1\ts\n7\n", 19, "R\t5\n", "too many steps");
    answer_is("N\t0\t0\t0\t1\t0\t7\tb\n", 16, "R\t6\n", "no width");
    answer_is("N\t0\t1\t0\t1\t1\t1\ts\n7\n", 18, "R\t11\n", "no kernel");
    expect(vokhsaot_answer_text((const uint8_t *)text, 5, out, sizeof out, &length) == VOKHSAOT_WRONG_LENGTH && length == 99
               && out[0] == 0, "a short buffer");
}

enum { J_TO_N, N_TO_J };

/*
 * The converter, one way or the other, from a text to an output of so many bytes, with others on both sides: what it returns and, where
 * that is 0, what it writes. It writes nothing else.
 */
static void conversion_is(int way, const char *text, size_t text_len, size_t out_len, uint32_t code, const char *expected) {
    uint8_t *lent = malloc(out_len + 16), *kept = malloc(text_len + 1);
    uint32_t returned;

    expect(lent != NULL && kept != NULL, "memory");
    memset(lent, 0xAB, out_len + 16);
    memcpy(kept, text, text_len);
    returned = way == J_TO_N ? vokhsaot_convert_j_to_n(kept, text_len, lent + 8, out_len)
                             : vokhsaot_convert_n_to_j(kept, text_len, lent + 8, out_len);
    expect(returned == code, "what the converter returns");
    expect(memcmp(kept, text, text_len) == 0, "the text is only read");
    expect(code != 0 || memcmp(lent + 8, expected, out_len) == 0, "what the converter writes");
    for (size_t i = 0; i < out_len + 16; i++) {
        expect(lent[i] == 0xAB || (code == 0 && i >= 8 && i < out_len + 8), "it writes nothing else");
    }
    free(kept);
    free(lent);
}

/* A job in both formats: each converts to the other, into an output of one length. */
static void converted(const char *j, const char *n) {
    const size_t j_len = strlen(j), n_len = strlen(n);

    expect(n_len == j_len + VOKHSAOT_CHOICE_BYTES, "two bytes more");
    for (size_t out_len = 0; out_len <= n_len + 5; out_len++) {
        conversion_is(J_TO_N, j, j_len, out_len, out_len == n_len ? 0 : VOKHSAOT_WRONG_LENGTH, n);
        conversion_is(N_TO_J, n, n_len, out_len, out_len == j_len ? 0 : VOKHSAOT_WRONG_LENGTH, j);
        conversion_is(J_TO_N, n, n_len, out_len, VOKHSAOT_TEXT_IS_NO_JOB, NULL);
        conversion_is(N_TO_J, j, j_len, out_len, VOKHSAOT_TEXT_IS_NO_JOB, NULL);
    }
}

static void converter(void) {
    static const char rule[] = "N" CASE_A "\tb" SPOT;
    static const char *const no_jobs[] = {
        "", "N", "J\n", "N\t0\t0\t0\t1\t1\t1\n7\n", "J\t0\t0\t0\t1\t1\t1\ts\n7\n", "N\t0\t0\t0\t1\t1\t1\tsb\n7\n",
        "N\t0\t0\t0\t1\t1\t1\tS\n7\n", "N\t0\t0\t0\t1\t1\t1\t\n7\n", "N\t0\t0\t0\t1\t1\t1\tb\n7", "J\t0\t0\t0\t1\t1\t1\n07\n",
    };

    converted("J" CASE_A SPOT, "N" CASE_A "\ts" SPOT);
    converted("J\t0\t0\t0\t0\t0\t0\n", "N\t0\t0\t0\t0\t0\t0\ts\n");
    converted("J\t0\t0\t0\t1\t4000000000\t0\n", "N\t0\t0\t0\t1\t4000000000\t0\ts\n");
    converted("J\t4097\t-5000\t4096\t99\t1\t2\n7\n65535\n", "N\t4097\t-5000\t4096\t99\t1\t2\ts\n7\n65535\n");
    for (size_t out_len = 0; out_len <= sizeof rule + 5; out_len++) {
        conversion_is(N_TO_J, rule, strlen(rule), out_len, VOKHSAOT_CANNOT_GO_BACK, NULL);
    }
    for (size_t i = 0; i < sizeof no_jobs / sizeof *no_jobs; i++) {
        for (size_t out_len = 0; out_len <= strlen(no_jobs[i]) + 5; out_len++) {
            conversion_is(J_TO_N, no_jobs[i], strlen(no_jobs[i]), out_len, VOKHSAOT_TEXT_IS_NO_JOB, NULL);
            conversion_is(N_TO_J, no_jobs[i], strlen(no_jobs[i]), out_len, VOKHSAOT_TEXT_IS_NO_JOB, NULL);
        }
    }
}

/*
 * A job's text with this line one and 93 x 88 pixels, of one digit but for the first. With one digit there it is as long as a text may
 * be. Returns its length.
 */
static size_t longest_text(const char *line_one, size_t digits, char *text) {
    size_t length = strlen(line_one);

    memcpy(text, line_one, length);
    for (size_t pixel = 0; pixel < 93 * 88; pixel++) {
        memset(text + length, '1', pixel == 0 ? digits : 1);
        length += pixel == 0 ? digits : 1;
        text[length++] = pixel % 93 == 92 ? '\n' : '\t';
    }
    return length;
}

static void longest_texts(void) {
    enum { MOST = VOKHSAOT_TEXT_BYTES + 5 };
    static char j[MOST], n[MOST];
    const char *j_line = "J\t0\t0\t0\t1\t93\t88\n", *n_line = "N\t0\t0\t0\t1\t93\t88\ts\n";

    expect(longest_text(j_line, 1, j) == VOKHSAOT_ARCHIVED_TEXT_BYTES, "the longest J text");
    expect(longest_text(n_line, 1, n) == VOKHSAOT_TEXT_BYTES, "the longest N text");
    conversion_is(J_TO_N, j, VOKHSAOT_ARCHIVED_TEXT_BYTES, VOKHSAOT_TEXT_BYTES, 0, n);
    conversion_is(N_TO_J, n, VOKHSAOT_TEXT_BYTES, VOKHSAOT_ARCHIVED_TEXT_BYTES, 0, j);
    for (size_t digits = 2; digits <= 4; digits++) {
        const size_t j_len = longest_text(j_line, digits, j), n_len = longest_text(n_line, digits, n);
        conversion_is(J_TO_N, j, j_len, j_len + VOKHSAOT_CHOICE_BYTES, VOKHSAOT_TEXT_IS_NO_JOB, NULL);
        conversion_is(N_TO_J, n, n_len, n_len - VOKHSAOT_CHOICE_BYTES, VOKHSAOT_TEXT_IS_NO_JOB, NULL);
    }
}

static void service(void) {
    uint64_t words[VOKHSAOT_WORDS];
    uint16_t *store = calloc(VOKHSAOT_STORE_PIXELS, sizeof *store);
    uint16_t lent[9] = {0};
    uint64_t number = 99;
    uint32_t free_buffers = 99;

    expect(store != NULL, "memory");
    expect(vokhsaot_opening(words, VOKHSAOT_WORDS - 1) == VOKHSAOT_WRONG_LENGTH, "short words are refused");
    expect(vokhsaot_opening(words, VOKHSAOT_OLD_WORDS) == VOKHSAOT_WRONG_LENGTH, "so are as many as an old record has");
    expect(vokhsaot_opening(words, VOKHSAOT_WORDS) == 0, "opening");
    expect(vokhsaot_tick(words, VOKHSAOT_WORDS, store, VOKHSAOT_STORE_PIXELS, &number) == 0 && number == 0, "idle");
    expect(vokhsaot_submit_matrix(words, VOKHSAOT_WORDS, store, VOKHSAOT_STORE_PIXELS, 4097, 0, 4096, 1, 3, 3, picture, 9, &number)
               == VOKHSAOT_NO_KERNEL, "no kernel");
    expect(vokhsaot_submit_matrix(words, VOKHSAOT_WORDS, store, VOKHSAOT_STORE_PIXELS, 2048, 0, 2048, 1, 3, 3, picture, 9, &number)
               == 0 && number == 1, "submit a matrix");
    expect(vokhsaot_submit_round(words, VOKHSAOT_WORDS, store, VOKHSAOT_STORE_PIXELS, 0.5, 1, 3, 3, picture, 9, &number) == 0
               && number == 2, "submit a round shape");
    expect(vokhsaot_submit_oval(words, VOKHSAOT_WORDS, store, VOKHSAOT_STORE_PIXELS, 0.5, 0.5, 1.0, 0.0, 1, 3, 3, picture, 9,
                                &number) == 0 && number == 3, "submit an oval shape");
    expect(vokhsaot_free_count(words, VOKHSAOT_WORDS, &free_buffers) == 0 && free_buffers == 10, "free count");
    expect(vokhsaot_collect(words, VOKHSAOT_WORDS, store, VOKHSAOT_STORE_PIXELS, 1, lent, 9, &number) == VOKHSAOT_STEPS_ARE_LEFT,
           "not finished");
    for (uint64_t job = 1; job <= 3; job++) {
        expect(vokhsaot_tick(words, VOKHSAOT_WORDS, store, VOKHSAOT_STORE_PIXELS, &number) == 0 && number == job, "tick");
    }
    for (uint64_t job = 1; job <= 2; job++) {
        memset(lent, 0, sizeof lent);
        expect(vokhsaot_collect(words, VOKHSAOT_WORDS, store, VOKHSAOT_STORE_PIXELS, job, lent, 9, &number) == 0 && number == job,
               "collect");
        expect(memcmp(lent, filled, sizeof lent) == 0, "the picture, by the choice of a caller who names none");
    }
    expect(vokhsaot_withdraw(words, VOKHSAOT_WORDS, 3, &number) == 0 && number == 3, "withdraw");
    expect(vokhsaot_withdraw(words, VOKHSAOT_WORDS, 3, &number) == VOKHSAOT_NO_SUCH_JOB, "withdraw again");
    expect(vokhsaot_free_count(words, VOKHSAOT_WORDS, &free_buffers) == 0 && free_buffers == 16, "all free");
    free(store);
}

/* What the record holds after a few calls, read by the layout's names. */
static void layout(void) {
    uint64_t words[VOKHSAOT_WORDS], number = 0;
    uint16_t *store = calloc(VOKHSAOT_STORE_PIXELS, sizeof *store);
    const uint64_t *seat = words + VOKHSAOT_SEAT_WORDS;

    expect(store != NULL, "memory");
    expect(vokhsaot_opening(words, VOKHSAOT_WORDS) == 0, "opening");
    expect(words[VOKHSAOT_WORD_LAST_NUMBER] == 0 && words[VOKHSAOT_WORD_LAST_FILLED] == 7
               && words[VOKHSAOT_WORD_LAST_SERVED] == 7, "an opening's last words");
    expect(vokhsaot_submit_matrix(words, VOKHSAOT_WORDS, store, VOKHSAOT_STORE_PIXELS, 2048, 0, 2048, 1, 3, 3, picture, 9, &number)
               == 0, "the first job");
    expect(vokhsaot_submit_matrix(words, VOKHSAOT_WORDS, store, VOKHSAOT_STORE_PIXELS, 5000, -900, 1000, 5, 9, 1, picture, 9,
                                  &number) == 0, "the second job");
    for (int ticks = 0; ticks < 2; ticks++) {
        expect(vokhsaot_tick(words, VOKHSAOT_WORDS, store, VOKHSAOT_STORE_PIXELS, &number) == 0, "tick");
    }
    expect(seat[VOKHSAOT_SEAT_JOB] == 2 && vokhsaot_signed_word(seat[VOKHSAOT_SEAT_XX]) == 5000
               && vokhsaot_signed_word(seat[VOKHSAOT_SEAT_XY]) == -900 && vokhsaot_signed_word(seat[VOKHSAOT_SEAT_YY]) == 1000,
           "number and covariance of a seat");
    expect(seat[VOKHSAOT_SEAT_STEPS] == 5 && seat[VOKHSAOT_SEAT_STEPS_LEFT] == 4 && seat[VOKHSAOT_SEAT_WIDTH] == 9
               && seat[VOKHSAOT_SEAT_HEIGHT] == 1, "steps and sides of a seat");
    expect(seat[VOKHSAOT_SEAT_F] == 900 && words[VOKHSAOT_SEAT_F] == 1024, "f of two seats");
    expect(words[2 * VOKHSAOT_SEAT_WORDS + VOKHSAOT_SEAT_F] == 0, "f of an empty seat");
    expect(words[VOKHSAOT_WORD_LAST_NUMBER] == 2 && words[VOKHSAOT_WORD_LAST_FILLED] == 1
               && words[VOKHSAOT_WORD_LAST_SERVED] == 1, "the last words");

    expect(vokhsaot_seat_of(words, VOKHSAOT_WORDS, 1) == 0 && vokhsaot_seat_of(words, VOKHSAOT_WORDS, 2) == 1, "seats of jobs");
    expect(vokhsaot_seat_of(words, VOKHSAOT_WORDS, 3) == VOKHSAOT_SEATS, "no seat of another job");
    expect(vokhsaot_seat_of(words, VOKHSAOT_WORDS, 0) == VOKHSAOT_SEATS, "0 is no job, and empty seats are none of it");
    expect(vokhsaot_seat_of(words, VOKHSAOT_WORDS - 1, 1) == VOKHSAOT_SEATS && vokhsaot_seat_of(words, 0, 1) == VOKHSAOT_SEATS,
           "short words are no record");
    words[7 * VOKHSAOT_SEAT_WORDS] = UINT64_MAX;
    expect(vokhsaot_seat_of(words, VOKHSAOT_WORDS, UINT64_MAX) == 7, "the last seat, the largest number");
    free(store);
}

/* A new service: writes its record to words, and returns its store. */
static uint16_t *opened(uint64_t *words) {
    uint16_t *store = calloc(VOKHSAOT_STORE_PIXELS, sizeof *store);

    expect(store != NULL, "memory");
    expect(vokhsaot_opening(words, VOKHSAOT_WORDS) == 0, "opening");
    return store;
}

/* The number of a new job with case a's picture and so many steps. What was lent is written over at once. */
static uint64_t submitted(uint64_t *words, uint16_t *store, uint32_t steps) {
    uint16_t lent[9];
    uint64_t number = 0;

    memcpy(lent, picture, sizeof lent);
    expect(vokhsaot_submit_matrix(words, VOKHSAOT_WORDS, store, VOKHSAOT_STORE_PIXELS, 2048, 0, 2048, steps, 3, 3, lent, 9,
                                  &number) == 0, "submit");
    memset(lent, 0xAB, sizeof lent);
    return number;
}

static uint64_t ticked(uint64_t *words, uint16_t *store) {
    uint64_t number = 0;

    expect(vokhsaot_tick(words, VOKHSAOT_WORDS, store, VOKHSAOT_STORE_PIXELS, &number) == 0, "tick");
    return number;
}

static void withdrawn(uint64_t *words, uint64_t job) {
    uint64_t number = 0;

    expect(vokhsaot_withdraw(words, VOKHSAOT_WORDS, job, &number) == 0 && number == job, "withdraw");
}

/* A seat that got empty is filled again when its turn comes round, and numbers go on. */
static void seats_in_turn(void) {
    static const size_t seats[9] = {0, 1, 2, 3, 4, 5, 6, 7, 1};
    uint64_t words[VOKHSAOT_WORDS];
    uint16_t *store = opened(words);

    for (uint64_t job = 1; job <= 9; job++) {
        expect(submitted(words, store, 1) == job && vokhsaot_seat_of(words, VOKHSAOT_WORDS, job) == seats[job - 1],
               "the first empty seat after the one last filled");
        if (job == 3) {
            withdrawn(words, 2);
        }
    }
    expect(vokhsaot_seat_of(words, VOKHSAOT_WORDS, 2) == VOKHSAOT_SEATS, "the job withdrawn");
    free(store);
}

/* The current picture stands in the first buffer of its seat after an even number of steps, else in the second. */
static void pictures_in_the_store(void) {
    uint64_t words[VOKHSAOT_WORDS];
    uint16_t *store = opened(words), expected[2][9];
    const uint16_t *buffers = store + 2 * 1 * VOKHSAOT_BUFFER_PIXELS;

    submitted(words, store, 64);
    memcpy(expected[0], picture, sizeof picture);
    expect(submitted(words, store, 3) == 2 && memcmp(buffers, picture, sizeof picture) == 0, "the picture that was lent");
    for (size_t done = 1; done <= 3; done++) {
        one_step(VOKHSAOT_BINOMIAL, 3, expected[(done + 1) % 2], expected[done % 2]);
        expect(ticked(words, store) == 1 && ticked(words, store) == 2, "turns");
        expect(memcmp(buffers + done % 2 * VOKHSAOT_BUFFER_PIXELS, expected[done % 2], sizeof picture) == 0, "the last step");
    }
    free(store);
}

/* All seats are filled, and each job but the last is replaced once it is served: the last one still gets every eighth tick. */
static void the_wait(void) {
    uint64_t words[VOKHSAOT_WORDS];
    uint16_t *store = opened(words);
    const uint64_t *left = words + 7 * VOKHSAOT_SEAT_WORDS + VOKHSAOT_SEAT_STEPS_LEFT;

    for (uint64_t job = 1; job <= VOKHSAOT_SEATS; job++) {
        expect(submitted(words, store, 3) == job, "all seats");
    }
    for (int ticks = 1; ticks <= 8 * 3; ticks++) {
        uint64_t served;
        expect(words[7 * VOKHSAOT_SEAT_WORDS] == 8 && *left > 0, "not finished before");
        served = ticked(words, store);
        if (served != 8) {
            withdrawn(words, served);
            submitted(words, store, 64);
        }
    }
    expect(words[7 * VOKHSAOT_SEAT_WORDS] == 8 && *left == 0, "finished after 8 x 3 ticks");
    free(store);
}

/* Whether a record is in order with one of its words changed. */
static int in_order_with(const uint64_t *words, size_t place, uint64_t word) {
    uint64_t changed[VOKHSAOT_WORDS];
    uint32_t count = 99, code;

    memcpy(changed, words, sizeof changed);
    changed[place] = word;
    code = vokhsaot_free_count(changed, VOKHSAOT_WORDS, &count);
    expect(code == 0 ? count == 12 : code == VOKHSAOT_RECORD_OUT_OF_ORDER && count == 99, "in order or not");
    return code == 0;
}

/* Each condition of a record in order, at its bounds: with 5 steps, 4 of them left, in seat 0, and 9 x 1 pixels in seat 1. */
static void records_in_order(void) {
    enum { SECOND = VOKHSAOT_SEAT_WORDS };
    static const struct {
        size_t place;
        uint64_t in_order, not_in_order;
    } bounds[] = {
        {VOKHSAOT_SEAT_STEPS, 4, 3}, {VOKHSAOT_SEAT_STEPS, 64, 65},
        {VOKHSAOT_SEAT_STEPS_LEFT, 0, 6}, {VOKHSAOT_SEAT_STEPS_LEFT, 5, UINT32_MAX},
        {VOKHSAOT_SEAT_WIDTH, 1, 0}, {VOKHSAOT_SEAT_HEIGHT, 1, 0}, {VOKHSAOT_SEAT_WIDTH, 341, 342},
        {SECOND + VOKHSAOT_SEAT_WIDTH, 1024, 1025}, {SECOND + VOKHSAOT_SEAT_HEIGHT, 113, 114},
        {VOKHSAOT_SEAT_XX, 900, 899}, {VOKHSAOT_SEAT_XX, 4096 * 5 - 1148, 4096 * 5 - 1147}, {VOKHSAOT_SEAT_YY, 900, 0xFFFFFFFF},
        {VOKHSAOT_SEAT_XY, 900, 901}, {VOKHSAOT_SEAT_XY, 0xFFFFFC7C, 0xFFFFFC7B},
        {VOKHSAOT_SEAT_XY, 0xFFFFFFFF, UINT64_MAX},
        {VOKHSAOT_SEAT_F, 900, 899}, {VOKHSAOT_SEAT_F, 2048, 2049}, {VOKHSAOT_SEAT_F, 1500, 0xFFFFFFFF},
        {VOKHSAOT_SEAT_F, 901, 0}, {SECOND + VOKHSAOT_SEAT_F, 0, 0xFFFFFFFF}, {SECOND + VOKHSAOT_SEAT_F, 2048, 2049},
        {VOKHSAOT_SEAT_JOB, 1, 0}, {SECOND + VOKHSAOT_SEAT_JOB, 2, 1}, {SECOND + VOKHSAOT_SEAT_JOB, 2, 3},
        {VOKHSAOT_WORD_LAST_NUMBER, 2, 1}, {VOKHSAOT_WORD_LAST_NUMBER, UINT64_MAX, 0},
        {VOKHSAOT_WORD_LAST_FILLED, 7, 8}, {VOKHSAOT_WORD_LAST_SERVED, 7, 8},
    };
    uint64_t words[VOKHSAOT_WORDS], number;
    uint16_t *store = opened(words);

    expect(vokhsaot_submit_matrix(words, VOKHSAOT_WORDS, store, VOKHSAOT_STORE_PIXELS, 2048, -900, 2048, 5, 3, 3, picture, 9,
                                  &number) == 0, "the first job");
    expect(vokhsaot_submit_matrix(words, VOKHSAOT_WORDS, store, VOKHSAOT_STORE_PIXELS, 2048, 0, 2048, 1, 9, 1, picture, 9, &number)
               == 0, "the second job");
    expect(ticked(words, store) == 1, "a step of the first");
    for (size_t i = 0; i < sizeof bounds / sizeof *bounds; i++) {
        expect(in_order_with(words, bounds[i].place, bounds[i].in_order), "a word within its bounds");
        expect(!in_order_with(words, bounds[i].place, bounds[i].not_in_order), "a word out of its bounds");
    }
    for (size_t place = 0; place < VOKHSAOT_WORDS; place++) {
        expect(in_order_with(words, place, words[place]), "no word changed");
        expect(place % VOKHSAOT_SEAT_WORDS == 0 || !in_order_with(words, place, words[place] + ((uint64_t)1 << 32)),
               "a word of more than 32 bits");
        expect(place / VOKHSAOT_SEAT_WORDS < 2 || place / VOKHSAOT_SEAT_WORDS > 7 || !in_order_with(words, place, 1),
               "an empty seat that is not all 0");
    }
    /* With the largest f the kernel's own bounds are left. */
    words[VOKHSAOT_SEAT_F] = 2048;
    expect(in_order_with(words, VOKHSAOT_SEAT_XX, 4096 * 5) && !in_order_with(words, VOKHSAOT_SEAT_XX, 4096 * 5 + 1), "steps enough");
    expect(in_order_with(words, VOKHSAOT_SEAT_XY, 2048) && !in_order_with(words, VOKHSAOT_SEAT_XY, 2049), "a lean");
    expect(in_order_with(words, VOKHSAOT_SEAT_XY, 0xFFFFF800) && !in_order_with(words, VOKHSAOT_SEAT_XY, 0xFFFFF7FF),
           "the other lean");
    free(store);
}

/* An f out of its bounds is refused with 2 by every call, and nothing changes. */
static void refused_f(void) {
    uint64_t words[VOKHSAOT_WORDS], kept[VOKHSAOT_WORDS], number = 99;
    uint16_t *store = opened(words), lent[9] = {0};
    uint32_t count = 99;

    expect(submitted(words, store, 1) == 1, "a job");
    words[VOKHSAOT_SEAT_F] = 2049;
    memcpy(kept, words, sizeof kept);
    expect(vokhsaot_submit_matrix_by(words, VOKHSAOT_WORDS, store, VOKHSAOT_STORE_PIXELS, VOKHSAOT_SMALLEST, 0, 0, 0, 1, 3, 3, picture,
                                     9, &number) == VOKHSAOT_RECORD_OUT_OF_ORDER, "submit of a matrix");
    expect(vokhsaot_submit_round_by(words, VOKHSAOT_WORDS, store, VOKHSAOT_STORE_PIXELS, VOKHSAOT_SMALLEST, 0.5, 1, 3, 3, picture, 9,
                                    &number) == VOKHSAOT_RECORD_OUT_OF_ORDER, "submit of a round shape");
    expect(vokhsaot_submit_oval_by(words, VOKHSAOT_WORDS, store, VOKHSAOT_STORE_PIXELS, VOKHSAOT_BINOMIAL, 0.5, 0.5, 1.0, 0.0, 1, 3, 3,
                                   picture, 9, &number) == VOKHSAOT_RECORD_OUT_OF_ORDER, "submit of an oval shape");
    expect(vokhsaot_tick(words, VOKHSAOT_WORDS, store, VOKHSAOT_STORE_PIXELS, &number) == VOKHSAOT_RECORD_OUT_OF_ORDER, "tick");
    expect(vokhsaot_collect(words, VOKHSAOT_WORDS, store, VOKHSAOT_STORE_PIXELS, 1, lent, 9, &number) == VOKHSAOT_RECORD_OUT_OF_ORDER,
           "collect");
    expect(vokhsaot_withdraw(words, VOKHSAOT_WORDS, 1, &number) == VOKHSAOT_RECORD_OUT_OF_ORDER, "withdraw");
    expect(vokhsaot_free_count(words, VOKHSAOT_WORDS, &count) == VOKHSAOT_RECORD_OUT_OF_ORDER, "free count");
    expect(memcmp(words, kept, sizeof kept) == 0 && memcmp(store, picture, sizeof picture) == 0 && lent[4] == 0 && number == 99
               && count == 99, "a refusal changes nothing");
    free(store);
}

/* Case a as three jobs, of a matrix, a round shape and an oval, by one number for the choice. */
static void choice_is(uint32_t choice, uint64_t f, const uint16_t *expected) {
    uint64_t words[VOKHSAOT_WORDS], number = 0;
    uint16_t *store = opened(words), lent[9];

    expect(vokhsaot_submit_matrix_by(words, VOKHSAOT_WORDS, store, VOKHSAOT_STORE_PIXELS, choice, 2048, 0, 2048, 1, 3, 3, picture, 9,
                                     &number) == 0 && number == 1, "a matrix by a choice");
    expect(vokhsaot_submit_round_by(words, VOKHSAOT_WORDS, store, VOKHSAOT_STORE_PIXELS, choice, 0.5, 1, 3, 3, picture, 9, &number)
               == 0 && number == 2, "a round shape by a choice");
    expect(vokhsaot_submit_oval_by(words, VOKHSAOT_WORDS, store, VOKHSAOT_STORE_PIXELS, choice, 0.5, 0.5, 1.0, 0.0, 1, 3, 3, picture, 9,
                                   &number) == 0 && number == 3, "an oval by a choice");
    for (uint64_t job = 1; job <= 3; job++) {
        expect(words[(job - 1) * VOKHSAOT_SEAT_WORDS + VOKHSAOT_SEAT_F] == f, "the f of the choice");
        expect(ticked(words, store) == job, "a step of each");
        expect(vokhsaot_collect(words, VOKHSAOT_WORDS, store, VOKHSAOT_STORE_PIXELS, job, lent, 9, &number) == 0
                   && memcmp(lent, expected, sizeof lent) == 0, "the picture of the choice");
        expect(words[(job - 1) * VOKHSAOT_SEAT_WORDS + VOKHSAOT_SEAT_F] == 0, "f of a seat that got empty");
    }
    free(store);
}

static void choices_of_jobs(void) {
    choice_is(VOKHSAOT_BINOMIAL, 1024, filled);
    choice_is(VOKHSAOT_SMALLEST, 0, hollow);
    choice_is(2, 1024, filled);
    choice_is(UINT32_MAX, 1024, filled);
}

/* A tick goes by the seat's f, which may be one of neither choice. */
static void f_of_no_choice(void) {
    static const uint16_t between[9] = {50, 300, 50, 300, 200, 300, 50, 300, 50};
    uint64_t words[VOKHSAOT_WORDS];
    uint16_t *store = opened(words);

    expect(submitted(words, store, 1) == 1, "a job");
    words[VOKHSAOT_SEAT_F] = 512;
    expect(ticked(words, store) == 1 && memcmp(store + VOKHSAOT_BUFFER_PIXELS, between, sizeof between) == 0, "the step of its f");
    free(store);
}

/*
 * What the release before left: job 4 in seat 1 with one of its three steps done, case a's shape and picture; job 6 in seat 2, a lean
 * shape of 9 x 1 pixels with both its steps left; job 5 in seat 7, finished. The store's pixels are those of the jobs' pictures, and
 * step is the one that job 4 has done.
 */
static void left_before(uint64_t *old, uint16_t *store, uint16_t *step) {
    static const uint64_t jobs[3][VOKHSAOT_OLD_SEAT_WORDS] = {
        {4, 2048, 0, 2048, 3, 2, 3, 3}, {6, 5000, 0xFFFFFC7C, 5500, 2, 2, 9, 1}, {5, 4096, 0, 4096, 1, 0, 3, 3}};
    static const size_t seats[3] = {1, 2, 7};

    memset(old, 0, VOKHSAOT_OLD_WORDS * sizeof *old);
    for (size_t i = 0; i < 3; i++) {
        memcpy(old + seats[i] * VOKHSAOT_OLD_SEAT_WORDS, jobs[i], sizeof jobs[i]);
    }
    old[64] = 9;
    old[65] = 2;
    old[66] = 1;
    one_step(VOKHSAOT_SMALLEST, 3, picture, step);
    memcpy(store + 3 * VOKHSAOT_BUFFER_PIXELS, step, sizeof picture);
    memcpy(store + 4 * VOKHSAOT_BUFFER_PIXELS, picture, sizeof picture);
    memcpy(store + 15 * VOKHSAOT_BUFFER_PIXELS, filled, sizeof picture);
}

/* The change-over as the header has it checked: every field is kept, f is the smallest where there is a job and 0 elsewhere. */
static void carried_over(const uint64_t *old, const uint64_t *words) {
    static const uint64_t f[VOKHSAOT_SEATS] = {0, 0, 2308, 0, 0, 0, 0, 4096};
    uint32_t count = 99;

    expect(vokhsaot_free_count(words, VOKHSAOT_WORDS, &count) == 0 && count == 10, "the free count");
    for (size_t seat = 0; seat < VOKHSAOT_SEATS; seat++) {
        expect(memcmp(words + seat * VOKHSAOT_SEAT_WORDS, old + seat * VOKHSAOT_OLD_SEAT_WORDS,
                      VOKHSAOT_OLD_SEAT_WORDS * sizeof *old) == 0, "the eight words of a seat");
        expect(words[seat * VOKHSAOT_SEAT_WORDS + VOKHSAOT_SEAT_F] == f[seat], "the smallest f");
    }
    expect(words[VOKHSAOT_WORD_LAST_NUMBER] == old[64] && words[VOKHSAOT_WORD_LAST_FILLED] == old[65]
               && words[VOKHSAOT_WORD_LAST_SERVED] == old[66], "the last words");
}

/* A running unit changes over, and its jobs end with the pixels of their time; turns and numbers carry on. */
static void change_over(void) {
    uint64_t old[VOKHSAOT_OLD_WORDS], kept[VOKHSAOT_OLD_WORDS], words[VOKHSAOT_WORDS], number = 0;
    uint16_t *store = calloc(VOKHSAOT_STORE_PIXELS, sizeof *store), steps[2][9], lent[9];

    expect(store != NULL, "memory");
    left_before(old, store, steps[0]);
    memcpy(kept, old, sizeof kept);
    memset(words, 0xAB, sizeof words);
    expect(vokhsaot_change_over(old, VOKHSAOT_OLD_WORDS, words, VOKHSAOT_WORDS) == 0, "the change-over");
    expect(memcmp(old, kept, sizeof old) == 0, "the old words are only read");
    carried_over(old, words);

    expect(submitted(words, store, 3) == 10 && vokhsaot_seat_of(words, VOKHSAOT_WORDS, 10) == 3, "numbers and seats go on");
    expect(words[3 * VOKHSAOT_SEAT_WORDS + VOKHSAOT_SEAT_F] == 0, "f of a job whose two choices are one");
    expect(ticked(words, store) == 6 && ticked(words, store) == 10 && ticked(words, store) == 4, "turns go on");
    expect(ticked(words, store) == 6 && ticked(words, store) == 10 && ticked(words, store) == 4, "round by round");
    one_step(VOKHSAOT_SMALLEST, 3, steps[0], steps[1]);
    one_step(VOKHSAOT_SMALLEST, 3, steps[1], steps[0]);
    expect(vokhsaot_collect(words, VOKHSAOT_WORDS, store, VOKHSAOT_STORE_PIXELS, 4, lent, 9, &number) == 0
               && memcmp(lent, steps[0], sizeof lent) == 0, "the job that was half done");
    expect(vokhsaot_collect(words, VOKHSAOT_WORDS, store, VOKHSAOT_STORE_PIXELS, 5, lent, 9, &number) == 0
               && memcmp(lent, filled, sizeof lent) == 0, "the job that was finished");
    free(store);
}

/* A change-over that is refused by this number, with words of this length lent: it writes nothing. */
static void refused_change_over(const uint64_t *old, size_t old_len, size_t words_len, uint32_t refusal, const char *what) {
    uint64_t old_kept[VOKHSAOT_WORDS + 1], words[VOKHSAOT_WORDS + 1], kept[VOKHSAOT_WORDS + 1];

    memset(words, 0xAB, sizeof words);
    memcpy(kept, words, sizeof kept);
    memcpy(old_kept, old, old_len * sizeof *old);
    expect(vokhsaot_change_over(old, old_len, words, words_len) == refusal, what);
    expect(memcmp(words, kept, sizeof words) == 0, "a refusal writes nothing");
    expect(memcmp(old, old_kept, old_len * sizeof *old) == 0, "the old words are only read");
}

static void refused_change_overs(void) {
    static const struct {
        size_t place;
        uint64_t word;
    } damages[] = {
        {8, 0}, {8, 5}, {8, 10}, {9, 0xFFFFFFFF}, {9, 4096 * 3 + 1}, {10, 2049}, {10, 0xFFFFF7FF}, {10, UINT64_MAX}, {11, 0x80000000},
        {12, 0}, {12, 65}, {12, 1}, {13, 4}, {14, 0}, {14, 342}, {15, 1025}, {64, 5}, {65, 8}, {66, 8}, {66, UINT64_MAX},
    };
    static const size_t lengths[] = {0, 1, 8, 64, VOKHSAOT_OLD_WORDS - 1, VOKHSAOT_OLD_WORDS + 1, VOKHSAOT_WORDS, VOKHSAOT_WORDS + 1};
    static const size_t new_lengths[] = {0, 1, VOKHSAOT_OLD_WORDS, VOKHSAOT_WORDS - 1, VOKHSAOT_WORDS + 1};
    uint64_t old[VOKHSAOT_WORDS + 1] = {0}, words[VOKHSAOT_WORDS];
    uint16_t *store = calloc(VOKHSAOT_STORE_PIXELS, sizeof *store), step[9];

    expect(store != NULL, "memory");
    left_before(old, store, step);
    for (size_t i = 0; i < sizeof lengths / sizeof *lengths; i++) {
        refused_change_over(old, lengths[i], VOKHSAOT_WORDS, VOKHSAOT_RECORD_OUT_OF_ORDER, "old words of another number");
        refused_change_over(old, lengths[i], 1, VOKHSAOT_RECORD_OUT_OF_ORDER, "2 comes before 9");
    }
    for (size_t i = 0; i < sizeof new_lengths / sizeof *new_lengths; i++) {
        refused_change_over(old, VOKHSAOT_OLD_WORDS, new_lengths[i], VOKHSAOT_WRONG_LENGTH, "new words of another number");
    }
    for (size_t i = 0; i < sizeof damages / sizeof *damages; i++) {
        const uint64_t word = old[damages[i].place];
        old[damages[i].place] = damages[i].word;
        refused_change_over(old, VOKHSAOT_OLD_WORDS, VOKHSAOT_WORDS, VOKHSAOT_RECORD_OUT_OF_ORDER, "a damaged word");
        refused_change_over(old, VOKHSAOT_OLD_WORDS, 0, VOKHSAOT_RECORD_OUT_OF_ORDER, "2 comes before 9");
        old[damages[i].place] = word;
    }
    for (size_t place = 0; place < VOKHSAOT_OLD_WORDS; place++) {
        const uint64_t word = old[place];
        const int empty = place < 64 && old[place / 8 * 8] == 0;
        old[place] = word + ((uint64_t)1 << 32);
        if (place != 64) { /* a job's number then is above the last number given */
            refused_change_over(old, VOKHSAOT_OLD_WORDS, VOKHSAOT_WORDS, VOKHSAOT_RECORD_OUT_OF_ORDER, "a word of more than 32 bits");
        }
        old[place] = 1;
        if (empty) {
            refused_change_over(old, VOKHSAOT_OLD_WORDS, VOKHSAOT_WORDS, VOKHSAOT_RECORD_OUT_OF_ORDER, "an empty seat, not all 0");
        }
        old[place] = word;
    }
    expect(vokhsaot_change_over(old, VOKHSAOT_OLD_WORDS, words, VOKHSAOT_WORDS) == 0, "repaired, it changes over");
    refused_change_over(words, VOKHSAOT_WORDS, VOKHSAOT_WORDS, VOKHSAOT_RECORD_OUT_OF_ORDER, "there is no second change-over");
    free(store);
}

/* An empty service changes over to an empty one. */
static void change_over_of_an_opening(void) {
    uint64_t old[VOKHSAOT_OLD_WORDS] = {0}, words[VOKHSAOT_WORDS], opening[VOKHSAOT_WORDS];

    old[65] = old[66] = 7;
    expect(vokhsaot_opening(opening, VOKHSAOT_WORDS) == 0, "opening");
    expect(vokhsaot_change_over(old, VOKHSAOT_OLD_WORDS, words, VOKHSAOT_WORDS) == 0 && memcmp(words, opening, sizeof words) == 0,
           "an opening's change-over");
}

static void signed_words(void) {
    expect(vokhsaot_signed_word(0) == 0 && vokhsaot_signed_word(1) == 1 && vokhsaot_signed_word(INT32_MAX) == INT32_MAX,
           "words that are not negative");
    expect(vokhsaot_signed_word(0xFFFFFFFFu) == -1 && vokhsaot_signed_word(0x80000000u) == INT32_MIN
               && vokhsaot_signed_word(0x80000001u) == -INT32_MAX, "negative words");
    expect(vokhsaot_signed_word(UINT64_MAX - 899) == -900 && vokhsaot_signed_word((uint64_t)5 << 32) == 0, "the low 32 bits");
}

static void sentences(void) {
    expect(strcmp(vokhsaot_refusal_text(0), "Not refused.") == 0, "the sentence of 0");
    for (uint32_t number = 1; number <= VOKHSAOT_CANNOT_GO_BACK; number++) {
        for (uint32_t other = 0; other <= VOKHSAOT_CANNOT_GO_BACK + 1; other++) {
            expect((strcmp(vokhsaot_refusal_text(number), vokhsaot_refusal_text(other)) == 0) == (number == other),
                   "a sentence for each refusal");
        }
    }
    expect(strcmp(vokhsaot_refusal_text(15), "Not the number of a refusal.") == 0, "the sentence of 15");
    expect(strcmp(vokhsaot_refusal_text(UINT32_MAX), "Not the number of a refusal.") == 0, "the sentence of the largest number");
}

int main(void) {
    shapes();
    kernels();
    unequal_kernels();
    refused_kernels();
    runs();
    refused_runs();
    runs_in_place();
    one_picture_and_two();
    refused_runs_in_place();
    shown_pictures();
    differences();
    texts();
    converter();
    longest_texts();
    service();
    layout();
    seats_in_turn();
    pictures_in_the_store();
    the_wait();
    records_in_order();
    refused_f();
    choices_of_jobs();
    f_of_no_choice();
    change_over();
    refused_change_overs();
    change_over_of_an_opening();
    signed_words();
    sentences();
    return 0;
}
