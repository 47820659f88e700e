/*
 * How much stack each exported call takes as it runs: prints the call's name and the bytes, the most of several calls of it, from the
 * stack pointer where the call is made down to the lowest byte that it changed. object_code.py holds this against what it reads in the
 * object code. Compile it so that the stack pointer stays where it is between calls: gcc -O1 -maccumulate-outgoing-args -fno-builtin.
 */
#include "vokhsaot.h"

#include <stdio.h>
#include <stdlib.h>

/* More than any call takes. */
#define DEPTH 65536
#define UNTOUCHED 0xA5

/* The C library's two with no stack of their own, so that nothing but their return address counts, whatever the machine. */
void *memcpy(void *restrict to, const void *restrict from, size_t n) {
    unsigned char *t = to;
    const unsigned char *f = from;
    for (size_t i = 0; i < n; i++) {
        t[i] = f[i];
    }
    return to;
}

void *memset(void *to, int byte, size_t n) {
    unsigned char *t = to;
    for (size_t i = 0; i < n; i++) {
        t[i] = (unsigned char)byte;
    }
    return to;
}

static uintptr_t stack_pointer(void) __attribute__((always_inline));
static inline uintptr_t stack_pointer(void) {
    uintptr_t here;
    __asm__ volatile("mov %%rsp, %0" : "=r"(here));
    return here;
}

static void paint(uintptr_t here) __attribute__((always_inline));
static inline void paint(uintptr_t here) {
    for (uintptr_t at = here - DEPTH; at < here; at++) {
        *(volatile unsigned char *)at = UNTOUCHED;
    }
}

static size_t taken_below(uintptr_t here) __attribute__((always_inline));
static inline size_t taken_below(uintptr_t here) {
    uintptr_t at = here - DEPTH;
    while (at < here && *(volatile unsigned char *)at == UNTOUCHED) {
        at++;
    }
    return here - at;
}

static size_t most;

static void counted(size_t taken, uint32_t answer, uint32_t expected, const char *call) {
    if (answer != expected) {
        fprintf(stderr, "%s answers %u, not %u\n", call, answer, expected);
        exit(1);
    }
    if (taken > most) {
        most = taken;
    }
}

/* Makes a call whose answer is known. */
#define ANSWERS(expected, call)                                       \
    do {                                                              \
        const uintptr_t here = stack_pointer();                       \
        paint(here);                                                  \
        const uint32_t answer = (call);                               \
        counted(taken_below(here), answer, expected, #call);          \
    } while (0)

static void printed(const char *name) {
    printf("vokhsaot_%s %zu\n", name, most);
    most = 0;
}

/* The sides that a run is measured with: one pixel, a row, a buffer's picture, one that passes through lines, the largest. */
static const uint32_t sides[][2] = {{1, 1}, {2, 1}, {1024, 1}, {1, 1024}, {32, 32}, {33, 40}, {1024, 3}, {1024, 1024}};
#define SIDES (sizeof sides / sizeof *sides)
/* Matrices of kernels of several kinds, each with its choice, in 3 steps. */
static const int32_t shapes[][4] = {
    {VOKHSAOT_BINOMIAL, 6144, 512, 4096}, {VOKHSAOT_BINOMIAL, 6144, 0, 6144}, {VOKHSAOT_SMALLEST, 6144, 0, 6144},
    {VOKHSAOT_SMALLEST, 3000, 3000, 3000}, {VOKHSAOT_SMALLEST, 3000, -3000, 3000}, {VOKHSAOT_BINOMIAL, 6144, 0, 4096},
    {VOKHSAOT_BINOMIAL, 4096, 0, 6144}, {VOKHSAOT_SMALLEST, 4096, 0, 2048}, {VOKHSAOT_BINOMIAL, 0, 0, 0},
    {VOKHSAOT_BINOMIAL, 12288, 0, 12288}, {VOKHSAOT_BINOMIAL, 12288, 0, 0},
};
#define SHAPES (sizeof shapes / sizeof *shapes)
#define STEPS 3

static uint16_t first[1024 * 1024], second[1024 * 1024];
static int32_t result[1024 * 1024];
static double floats[1024 * 1024];

static void covariances(void) {
    int32_t entries[3];
    ANSWERS(0, vokhsaot_covariance_round(0.5, entries, 3));
    ANSWERS(3, vokhsaot_covariance_round(65.0, entries, 3));
    ANSWERS(9, vokhsaot_covariance_round(0.5, entries, 2));
    printed("covariance_round");
    ANSWERS(0, vokhsaot_covariance_oval(0.5, 0.25, 0.6, 0.8, entries, 3));
    ANSWERS(4, vokhsaot_covariance_oval(0.5, 0.25, 0.6, 0.9, entries, 3));
    ANSWERS(9, vokhsaot_covariance_oval(0.5, 0.25, 0.6, 0.8, entries, 2));
    printed("covariance_oval");
}

static void kernels(void) {
    uint64_t numbers[10];
    for (size_t s = 0; s < SHAPES; s++) {
        const int32_t xx = shapes[s][1], xy = shapes[s][2], yy = shapes[s][3];
        ANSWERS(0, vokhsaot_kernel_matrix_by((uint32_t)shapes[s][0], xx, xy, yy, STEPS, numbers, 10));
    }
    ANSWERS(11, vokhsaot_kernel_matrix_by(0, -1, 0, 0, STEPS, numbers, 10));
    printed("kernel_matrix_by");
    ANSWERS(0, vokhsaot_kernel_round_by(0, 0.5, STEPS, numbers, 10));
    ANSWERS(0, vokhsaot_kernel_round_by(1, 0.5, STEPS, numbers, 10));
    ANSWERS(3, vokhsaot_kernel_round_by(0, -0.5, STEPS, numbers, 10));
    printed("kernel_round_by");
    ANSWERS(0, vokhsaot_kernel_oval_by(0, 0.5, 0.25, 0.6, 0.8, STEPS, numbers, 10));
    ANSWERS(0, vokhsaot_kernel_oval_by(1, 0.5, 0.25, 0.6, 0.8, STEPS, numbers, 10));
    ANSWERS(4, vokhsaot_kernel_oval_by(0, 0.5, 0.25, 0.6, 0.9, STEPS, numbers, 10));
    printed("kernel_oval_by");
}

static void runs(void) {
    for (size_t i = 0; i < SIDES; i++) {
        const uint32_t w = sides[i][0], h = sides[i][1];
        const size_t n = (size_t)w * h;
        for (size_t s = 0; s < SHAPES; s++) {
            const uint32_t choice = (uint32_t)shapes[s][0];
            const int32_t xx = shapes[s][1], xy = shapes[s][2], yy = shapes[s][3];
            ANSWERS(0, vokhsaot_run_matrix_by(choice, xx, xy, yy, STEPS, w, h, first, n, second, n));
        }
    }
    ANSWERS(6, vokhsaot_run_matrix_by(0, 0, 0, 0, STEPS, 0, 1, first, 1, second, 1));
    printed("run_matrix_by");
    for (size_t i = 0; i < SIDES; i++) {
        const uint32_t w = sides[i][0], h = sides[i][1];
        const size_t n = (size_t)w * h;
        ANSWERS(0, vokhsaot_run_round_by(0, 0.5, STEPS, w, h, first, n, second, n));
        ANSWERS(0, vokhsaot_run_round_by(1, 2.5, STEPS, w, h, first, n, second, n));
    }
    printed("run_round_by");
    for (size_t i = 0; i < SIDES; i++) {
        const uint32_t w = sides[i][0], h = sides[i][1];
        const size_t n = (size_t)w * h;
        ANSWERS(0, vokhsaot_run_oval_by(0, 0.5, 0.25, 0.6, 0.8, STEPS, w, h, first, n, second, n));
        ANSWERS(0, vokhsaot_run_oval_by(1, 0.5, 0.25, 0.6, 0.8, STEPS, w, h, first, n, second, n));
    }
    printed("run_oval_by");
}

static void runs_in_place(void) {
    for (size_t i = 0; i < SIDES; i++) {
        const uint32_t w = sides[i][0], h = sides[i][1];
        for (size_t s = 0; s < SHAPES; s++) {
            const uint32_t choice = (uint32_t)shapes[s][0];
            const int32_t xx = shapes[s][1], xy = shapes[s][2], yy = shapes[s][3];
            ANSWERS(0, vokhsaot_run_in_place_matrix_by(choice, xx, xy, yy, STEPS, w, h, first, (size_t)w * h));
        }
    }
    printed("run_in_place_matrix_by");
    for (size_t i = 0; i < SIDES; i++) {
        const uint32_t w = sides[i][0], h = sides[i][1];
        ANSWERS(0, vokhsaot_run_in_place_round_by(0, 0.5, STEPS, w, h, first, (size_t)w * h));
        ANSWERS(0, vokhsaot_run_in_place_round_by(1, 2.5, STEPS, w, h, first, (size_t)w * h));
    }
    printed("run_in_place_round_by");
    for (size_t i = 0; i < SIDES; i++) {
        const uint32_t w = sides[i][0], h = sides[i][1];
        ANSWERS(0, vokhsaot_run_in_place_oval_by(0, 0.5, 0.25, 0.6, 0.8, STEPS, w, h, first, (size_t)w * h));
        ANSWERS(0, vokhsaot_run_in_place_oval_by(1, 0.5, 0.25, 0.6, 0.8, STEPS, w, h, first, (size_t)w * h));
    }
    printed("run_in_place_oval_by");
}

#define DIFFERENCE(name)                                                                              \
    do {                                                                                              \
        for (size_t i = 0; i < SIDES; i++) {                                                          \
            const uint32_t w = sides[i][0], h = sides[i][1];                                          \
            ANSWERS(0, vokhsaot_##name(first, (size_t)w * h, w, h, result, (size_t)w * h));           \
        }                                                                                             \
        ANSWERS(9, vokhsaot_##name(first, 3, 2, 2, result, 4));                                       \
        printed(#name);                                                                               \
    } while (0)

static void readings(void) {
    uint16_t pixel;
    uint32_t picture;
    ANSWERS(0, vokhsaot_pixel(first, 1024, 32, 32, 7, -1, &pixel));
    ANSWERS(9, vokhsaot_pixel(first, 1023, 32, 32, 7, 40, &pixel));
    printed("pixel");
    ANSWERS(0, vokhsaot_shown(STEPS, &picture));
    ANSWERS(5, vokhsaot_shown(0, &picture));
    printed("shown");
    DIFFERENCE(first_x);
    DIFFERENCE(first_y);
    DIFFERENCE(second_x);
    DIFFERENCE(second_y);
    DIFFERENCE(mixed);
    for (size_t i = 0; i < SIDES; i++) {
        const uint32_t w = sides[i][0], h = sides[i][1];
        ANSWERS(0, vokhsaot_directional(0.6, 0.8, first, (size_t)w * h, w, h, floats, (size_t)w * h));
    }
    ANSWERS(4, vokhsaot_directional(0.6, 0.9, first, 1, 1, 1, floats, 1));
    printed("directional");
}

/* A text without its 0 byte. */
#define TEXT(text) (const uint8_t *)(text), sizeof(text) - 1

static void texts(void) {
    static uint8_t out[VOKHSAOT_ANSWER_BYTES];
    static uint8_t large[VOKHSAOT_TEXT_BYTES];
    size_t length;
    const int begun = snprintf((char *)large, sizeof large, "N\t6144\t512\t4096\t3\t1\t1024\tb\n");
    size_t end = (size_t)begun;
    for (int row = 0; row < 1024; row++) {
        end += (size_t)snprintf((char *)large + end, sizeof large - end, "%d\n", 60000 + row);
    }
    ANSWERS(0, vokhsaot_answer_text(large, end, out, sizeof out, &length));
    ANSWERS(0, vokhsaot_answer_text(TEXT("N\t2048\t0\t2048\t1\t3\t1\tb\n0\t1600\t0\n"), out, sizeof out, &length));
    ANSWERS(0, vokhsaot_answer_text(TEXT("N\t6144\t512\t4096\t3\t2\t1\ts\n0\t65535\n"), out, sizeof out, &length));
    ANSWERS(0, vokhsaot_answer_text(TEXT("N\t-1\t0\t0\t1\t1\t1\tb\n7\n"), out, sizeof out, &length));
    ANSWERS(0, vokhsaot_answer_text(TEXT("no job"), out, sizeof out, &length));
    ANSWERS(9, vokhsaot_answer_text(TEXT("no job"), out, sizeof out - 1, &length));
    printed("answer_text");
    ANSWERS(0, vokhsaot_convert_j_to_n(TEXT("J\t-1\t0\t0\t1\t2\t1\n0\t7\n"), out, 21));
    ANSWERS(1, vokhsaot_convert_j_to_n(TEXT("no job"), out, 8));
    printed("convert_j_to_n");
    ANSWERS(0, vokhsaot_convert_n_to_j(TEXT("N\t-1\t0\t0\t1\t2\t1\ts\n0\t7\n"), out, 19));
    ANSWERS(14, vokhsaot_convert_n_to_j(TEXT("N\t-1\t0\t0\t1\t2\t1\tb\n0\t7\n"), out, 19));
    printed("convert_n_to_j");
}

static uint64_t words[VOKHSAOT_WORDS];
static uint16_t store[VOKHSAOT_STORE_PIXELS];
#define SERVICE words, VOKHSAOT_WORDS, store, VOKHSAOT_STORE_PIXELS

static void submits(void) {
    uint64_t number;
    ANSWERS(0, vokhsaot_opening(words, VOKHSAOT_WORDS));
    ANSWERS(9, vokhsaot_opening(words, 3));
    printed("opening");
    for (int job = 0; job < 6; job++) {
        ANSWERS(0, vokhsaot_submit_matrix_by(SERVICE, 0, 6144, 512, 4096, STEPS, 32, 32, first, 1024, &number));
    }
    ANSWERS(11, vokhsaot_submit_matrix_by(SERVICE, 0, -1, 0, 0, STEPS, 32, 32, first, 1024, &number));
    printed("submit_matrix_by");
    ANSWERS(0, vokhsaot_submit_round_by(SERVICE, 0, 0.5, STEPS, 32, 32, first, 1024, &number));
    printed("submit_round_by");
    ANSWERS(0, vokhsaot_submit_oval_by(SERVICE, 1, 0.5, 0.25, 0.6, 0.8, STEPS, 1024, 1, first, 1024, &number));
    ANSWERS(12, vokhsaot_submit_oval_by(SERVICE, 1, 0.5, 0.25, 0.6, 0.8, STEPS, 1024, 1, first, 1024, &number));
    printed("submit_oval_by");
}

static void jobs(void) {
    uint64_t number;
    uint32_t count;
    for (int ticks = 0; ticks < 8 * STEPS + 1; ticks++) {
        ANSWERS(0, vokhsaot_tick(SERVICE, &number));
    }
    ANSWERS(2, vokhsaot_tick(words, 3, store, VOKHSAOT_STORE_PIXELS, &number));
    printed("tick");
    ANSWERS(0, vokhsaot_free_count(words, VOKHSAOT_WORDS, &count));
    printed("free_count");
    ANSWERS(0, vokhsaot_collect(SERVICE, 1, first, 1024, &number));
    ANSWERS(7, vokhsaot_collect(SERVICE, 1, first, 1024, &number));
    printed("collect");
    ANSWERS(0, vokhsaot_withdraw(words, VOKHSAOT_WORDS, 8, &number));
    ANSWERS(7, vokhsaot_withdraw(words, VOKHSAOT_WORDS, 8, &number));
    printed("withdraw");
}

/* Eight jobs by the old rules, finished and unfinished ones. */
static void change_over(void) {
    static uint64_t old_words[VOKHSAOT_OLD_WORDS];
    for (uint64_t seat = 0; seat < VOKHSAOT_SEATS; seat++) {
        const uint64_t fields[] = {seat + 1, 6144, 512, 4096, STEPS, seat % 4, 32, 32};
        memcpy(old_words + VOKHSAOT_OLD_SEAT_WORDS * seat, fields, sizeof fields);
    }
    old_words[VOKHSAOT_OLD_WORDS - 3] = 8;
    ANSWERS(0, vokhsaot_change_over(old_words, VOKHSAOT_OLD_WORDS, words, VOKHSAOT_WORDS));
    ANSWERS(2, vokhsaot_change_over(old_words, VOKHSAOT_WORDS, words, VOKHSAOT_WORDS));
    printed("change_over");
}

int main(void) {
    covariances();
    kernels();
    runs();
    runs_in_place();
    readings();
    texts();
    submits();
    jobs();
    change_over();
    return 0;
}
