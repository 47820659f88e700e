/* What benchmarks/run.sh measures: calls of the proved library by the header, and the same smoothing in C in three forms. Each
 * function repeats its work, so that one call from the measuring program takes long enough to time. The kernel's nine weights
 * over their sum come from the library; opposite ones are equal, so that five multiplications serve, and fewer where weights are 0
 * or equal; the sum is 8192 x (2 x steps), so that its division is a shift and a multiplication by a reciprocal of 32 binary places. */
#include "vokhsaot.h"

struct coefficients {
    uint32_t diagonal, down, across, along, centre, reciprocal;
    uint64_t half;
};

static struct coefficients coefficients_of(const uint64_t *numbers)
{
    uint64_t halves = numbers[0] / 8192;
    return (struct coefficients){
        numbers[1], numbers[2], numbers[3], numbers[4], numbers[5], (4294967296 + (halves - 1)) / halves, numbers[0] / 2,
    };
}

/* The definition as it is read: nine multiplications, the nearest pixel outside, a division for each pixel. */
static void plain_step(const uint16_t *source, uint16_t *target, size_t width, size_t height, const uint64_t *numbers)
{
    for (size_t y = 0; y < height; y++)
        for (size_t x = 0; x < width; x++) {
            uint64_t total = 0;
            for (int dy = -1; dy <= 1; dy++)
                for (int dx = -1; dx <= 1; dx++) {
                    size_t row = dy < 0 ? (y ? y - 1 : 0) : dy > 0 ? (y + 1 < height ? y + 1 : y) : y;
                    size_t column = dx < 0 ? (x ? x - 1 : 0) : dx > 0 ? (x + 1 < width ? x + 1 : x) : x;
                    total += numbers[1 + 3 * (dy + 1) + dx + 1] * source[row * width + column];
                }
            target[y * width + x] = (2 * total + numbers[0]) / (2 * numbers[0]);
        }
}

/* Each pixel by the indices of its neighbours in the rows of the source. */
static inline uint16_t pixel(const uint16_t *up, const uint16_t *mid, const uint16_t *down, size_t l, size_t x, size_t r,
                             struct coefficients c)
{
    uint64_t total = (uint64_t)c.diagonal * ((uint32_t)up[l] + down[r]) + (uint64_t)c.down * ((uint32_t)up[x] + down[x]) +
                     (uint64_t)c.across * ((uint32_t)up[r] + down[l]) + (uint64_t)c.along * ((uint32_t)mid[l] + mid[r]) +
                     (uint64_t)c.centre * mid[x];
    return (uint64_t)(uint32_t)((total + c.half) / 8192) * c.reciprocal / 4294967296;
}

static void indexed_step(const uint16_t *restrict source, uint16_t *restrict target, size_t width, size_t height,
                         const uint64_t *numbers)
{
    struct coefficients c = coefficients_of(numbers);
    for (size_t y = 0; y < height; y++) {
        const uint16_t *mid = source + y * width;
        const uint16_t *up = y ? mid - width : mid;
        const uint16_t *down = y + 1 < height ? mid + width : mid;
        uint16_t *out = target + y * width;
        size_t last = width - 1;
        out[0] = pixel(up, mid, down, 0, 0, last ? 1 : 0, c);
        for (size_t x = 1; x < last; x++)
            out[x] = pixel(up, mid, down, x - 1, x, x + 1, c);
        out[last] = pixel(up, mid, down, last ? last - 1 : 0, last, last, c);
    }
}

/* Through line buffers of widened and padded rows, as the proved step does it. */
static void pad(const uint16_t *restrict row, uint32_t *restrict line, size_t width)
{
    line[0] = row[0];
    for (size_t i = 0; i < width; i++)
        line[i + 1] = row[i];
    line[width + 1] = row[width - 1];
}

/* The products of a pixel, as the proved step sorts them: a constant 0 leaves one out. */
struct products {
    uint32_t diagonal, down, across, along, corners, sides, centre, centre_in_row, centre_in_column;
};

static inline __attribute__((always_inline)) void smooth_row_with(const uint32_t *restrict up, const uint32_t *restrict mid,
                                                                  const uint32_t *restrict down, uint16_t *restrict out,
                                                                  size_t width, struct coefficients c, struct products p)
{
    for (size_t x = 0; x < width; x++) {
        uint32_t falling = up[x] + down[x + 2], rising = up[x + 2] + down[x], column = up[x + 1] + down[x + 1];
        uint32_t row = mid[x] + mid[x + 2] + p.centre_in_row * mid[x + 1];
        uint64_t total = (uint64_t)p.diagonal * falling + (uint64_t)p.across * rising + (uint64_t)p.corners * (falling + rising) +
                         (uint64_t)p.down * (column + p.centre_in_column * mid[x + 1]) + (uint64_t)p.along * row +
                         (uint64_t)p.sides * (column + row) + (uint64_t)p.centre * mid[x + 1];
        out[x] = (uint64_t)(uint32_t)((total + c.half) / 8192) * c.reciprocal / 4294967296;
    }
}

static void smooth_row(const uint32_t *up, const uint32_t *mid, const uint32_t *down, uint16_t *out, size_t width,
                       struct coefficients c)
{
#define BY(...) smooth_row_with(up, mid, down, out, width, c, (struct products){__VA_ARGS__})
    int wide = c.centre == 2 * c.along, tall = c.centre == 2 * c.down;
    if (c.diagonal == c.across && c.along == c.down) {
        if (c.diagonal == 0)
            BY(.sides = c.down, .centre = c.centre);
        else if (wide)
            BY(.corners = c.diagonal, .sides = c.down, .centre_in_row = 2);
        else
            BY(.corners = c.diagonal, .sides = c.down, .centre = c.centre);
    } else if (c.diagonal == c.across) {
        if (c.diagonal == 0)
            BY(.down = c.down, .along = c.along, .centre = c.centre);
        else if (wide)
            BY(.corners = c.diagonal, .down = c.down, .along = c.along, .centre_in_row = 2);
        else if (tall)
            BY(.corners = c.diagonal, .down = c.down, .along = c.along, .centre_in_column = 2);
        else
            BY(.corners = c.diagonal, .down = c.down, .along = c.along, .centre = c.centre);
    } else if (c.across == 0)
        BY(.diagonal = c.diagonal, .down = c.down, .along = c.along, .centre = c.centre);
    else if (c.diagonal == 0)
        BY(.across = c.across, .down = c.down, .along = c.along, .centre = c.centre);
    else if (c.centre == 0)
        BY(.diagonal = c.diagonal, .down = c.down, .across = c.across, .along = c.along);
    else if (wide)
        BY(.diagonal = c.diagonal, .down = c.down, .across = c.across, .along = c.along, .centre_in_row = 2);
    else if (tall)
        BY(.diagonal = c.diagonal, .down = c.down, .across = c.across, .along = c.along, .centre_in_column = 2);
    else
        BY(.diagonal = c.diagonal, .down = c.down, .across = c.across, .along = c.along, .centre = c.centre);
#undef BY
}

static void buffered_step(const uint16_t *source, uint16_t *target, size_t width, size_t height, const uint64_t *numbers)
{
    struct coefficients c = coefficients_of(numbers);
    uint32_t lines[3][1026];
    uint32_t *above = lines[0], *at = lines[1], *below = lines[2];
    pad(source, above, width);
    pad(source, at, width);
    for (size_t y = 0; y + 1 < height; y++) {
        pad(source + (y + 1) * width, below, width);
        smooth_row(above, at, below, target + y * width, width, c);
        uint32_t *unused = above;
        above = at;
        at = below;
        below = unused;
    }
    smooth_row(above, at, at, target + (height - 1) * width, width, c);
}

typedef void step(const uint16_t *source, uint16_t *target, size_t width, size_t height, const uint64_t *numbers);

/* A run between two pictures, as the proved one: starts in the first, steps to and fro. */
static uint32_t run(step *one, uint32_t choice, const int32_t *shape, uint32_t steps, uint32_t width, uint32_t height,
                    uint16_t *first, uint16_t *second, size_t repeats)
{
    uint64_t numbers[VOKHSAOT_KERNEL_NUMBERS];
    uint32_t code = 0;
    for (size_t n = 0; n < repeats; n++) {
        code |= vokhsaot_kernel_matrix_by(choice, shape[0], shape[1], shape[2], steps, numbers, VOKHSAOT_KERNEL_NUMBERS);
        for (uint32_t j = 0; j < steps; j++)
            one(j % 2 ? second : first, j % 2 ? first : second, width, height, numbers);
    }
    return code;
}

uint32_t plain(uint32_t choice, const int32_t *shape, uint32_t steps, uint32_t width, uint32_t height, uint16_t *first,
               uint16_t *second, size_t repeats)
{
    return run(plain_step, choice, shape, steps, width, height, first, second, repeats);
}

uint32_t indexed(uint32_t choice, const int32_t *shape, uint32_t steps, uint32_t width, uint32_t height, uint16_t *first,
                 uint16_t *second, size_t repeats)
{
    return run(indexed_step, choice, shape, steps, width, height, first, second, repeats);
}

uint32_t buffered(uint32_t choice, const int32_t *shape, uint32_t steps, uint32_t width, uint32_t height, uint16_t *first,
                  uint16_t *second, size_t repeats)
{
    return run(buffered_step, choice, shape, steps, width, height, first, second, repeats);
}

uint32_t proved(uint32_t choice, const int32_t *shape, uint32_t steps, uint32_t width, uint32_t height, uint16_t *first,
                uint16_t *second, size_t repeats)
{
    size_t size = (size_t)width * height;
    uint32_t code = 0;
    for (size_t n = 0; n < repeats; n++)
        code |= vokhsaot_run_matrix_by(choice, shape[0], shape[1], shape[2], steps, width, height, first, size, second, size);
    return code;
}

/* The same within one picture, the first; the second is not lent. A version from before 0.6.0 has no such run. */
#ifndef BEFORE_IN_PLACE
uint32_t in_place(uint32_t choice, const int32_t *shape, uint32_t steps, uint32_t width, uint32_t height, uint16_t *first,
                  uint16_t *second, size_t repeats)
{
    size_t size = (size_t)width * height;
    uint32_t code = 0;
    (void)second;
    for (size_t n = 0; n < repeats; n++)
        code |= vokhsaot_run_in_place_matrix_by(choice, shape[0], shape[1], shape[2], steps, width, height, first, size);
    return code;
}
#endif

/* Kernels alone: what a run works out once before its steps. */
uint32_t kernels(uint32_t choice, const int32_t *shape, uint32_t steps, size_t repeats)
{
    uint64_t numbers[VOKHSAOT_KERNEL_NUMBERS];
    uint32_t code = 0;
    for (size_t n = 0; n < repeats; n++)
        code |= vokhsaot_kernel_matrix_by(choice, shape[0], shape[1], shape[2], steps, numbers, VOKHSAOT_KERNEL_NUMBERS);
    return code;
}

/*
 * Ticks until idle of a service with so many equal jobs. The jobs are submitted and withdrawn outside the timed part. They go by the
 * smallest choice, so that they compare with a version from before 0.4.0, whose jobs know no other and whose record has fewer words.
 */
#ifdef BEFORE_CHANGE_OVER
enum { WORDS = VOKHSAOT_OLD_WORDS };
uint32_t submit_smallest(uint64_t *words, size_t words_len, uint16_t *store, size_t store_len, int32_t xx, int32_t xy, int32_t yy,
                         uint32_t steps, uint32_t width, uint32_t height, const uint16_t *pixels, size_t pixels_len, uint64_t *number)
    __asm__("vokhsaot_submit_matrix");
#else
enum { WORDS = VOKHSAOT_WORDS };
static uint32_t submit_smallest(uint64_t *words, size_t words_len, uint16_t *store, size_t store_len, int32_t xx, int32_t xy, int32_t yy,
                                uint32_t steps, uint32_t width, uint32_t height, const uint16_t *pixels, size_t pixels_len,
                                uint64_t *number)
{
    return vokhsaot_submit_matrix_by(words, words_len, store, store_len, VOKHSAOT_SMALLEST, xx, xy, yy, steps, width, height, pixels,
                                     pixels_len, number);
}
#endif
static uint64_t words[WORDS];
static uint16_t store[VOKHSAOT_STORE_PIXELS];

uint32_t fill(uint32_t jobs, const int32_t *shape, uint32_t steps, uint32_t width, uint32_t height, const uint16_t *pixels)
{
    uint64_t number;
    uint32_t code = vokhsaot_opening(words, WORDS);
    for (uint32_t job = 0; job < jobs; job++)
        code |= submit_smallest(words, WORDS, store, VOKHSAOT_STORE_PIXELS, shape[0], shape[1], shape[2], steps, width, height, pixels,
                                (size_t)width * height, &number);
    return code;
}

uint32_t ticks(void)
{
    uint64_t number = 1;
    uint32_t count = 0;
    while (vokhsaot_tick(words, WORDS, store, VOKHSAOT_STORE_PIXELS, &number) == 0 && number != 0)
        count++;
    return count;
}

uint32_t texts(const uint8_t *text, size_t length, uint8_t *out, size_t repeats)
{
    size_t written = 0;
    uint32_t code = 0;
    for (size_t n = 0; n < repeats; n++)
        code |= vokhsaot_answer_text(text, length, out, VOKHSAOT_ANSWER_BYTES, &written);
    return code;
}
