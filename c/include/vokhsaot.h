/*
 * Vokhsaot, the proved picture smoother: its calls for C11 and C++17 on x86-64 Linux.
 *
 * Link the shared library with "pkg-config --cflags --libs vokhsaot"; or the static one, which is then inside the program, with
 * "pkg-config --cflags --libs vokhsaot-static". With CMake it is find_package(vokhsaot) and the target vokhsaot::shared or
 * vokhsaot::static. c/examples of the repository has small programs. What is promised stands in docs/REFERENCE.md, sentence
 * by sentence, each with an id such as V15; docs/CLAIMS.md leads from there to the proofs.
 *
 * ANSWERS. A call returns 0, or the number of its refusal. A call makes its checks in the order in which its comment lists
 * them, and answers the first that fails. A refused call changes nothing: the record, the store and every lent slice keep their
 * contents, and no result is written. There is one exception: of an entry of vokhsaot_directional()'s result that is not a
 * number (NaN) the bits are not promised; see its comment. vokhsaot_refusal_text() has a sentence for each number.
 *
 * SLICES. A slice that is lent is a pointer and, right after it, its length in entries (not in bytes). No pointer is null, also
 * where the length is 0. Each is aligned for its entries, as an array of that type is. What one call is lent does not overlap,
 * the number that a call writes included. No call keeps a pointer. These are the caller's to keep: a call cannot check them.
 *
 * NUMBERS. No call asks anything else of its arguments: every number, shape, text and record has an answer or a refusal.
 *
 * FLOATS. Calls marked "Floats" take or write doubles. What is promised of them holds where the caller's thread rounds to
 * nearest, ties to even, and keeps subnormal numbers, which is how a program starts. After fesetround() with another mode, or
 * with subnormals flushed to zero (FTZ, DAZ; some compilers set them for -ffast-math), these calls can answer otherwise. Calls
 * marked "Whole numbers" do not depend on it.
 *
 * THREADS. The library has no variables, takes no locks, allocates nothing, opens no files and raises no signals: all that a
 * call reads and writes is what it is lent, its own stack, and constants. So calls may run at the same time in any threads,
 * also in a signal handler, where they are lent different records, stores and pictures. Two calls that are lent the same one
 * need a lock of the caller's, unless both only read it (a parameter that points to const).
 *
 * NEEDS. Of the C library memcpy and memset, and nothing else.
 * Every call ends: a run takes time in proportion to steps x width x height, a tick to width x height, a conversion to the
 * text's length.
 *
 * STACK. In bytes, the most that a call of this release takes with all that it calls, its return address included, whatever it is
 * lent. What a caller puts there for its arguments is not counted, nor what memcpy and memset take but their return address. No
 * function of the library calls itself, directly or through others (S6.1).
 *   46224  vokhsaot_answer_text
 *   16632  vokhsaot_convert_j_to_n, vokhsaot_convert_n_to_j
 *   13184  vokhsaot_run_matrix_by
 *   13168  vokhsaot_run_oval_by, vokhsaot_run_round_by
 *   12832  vokhsaot_tick
 *    5024  vokhsaot_run_in_place_matrix_by
 *    5008  vokhsaot_run_in_place_oval_by, vokhsaot_run_in_place_round_by
 *    2608  vokhsaot_change_over
 *     960  vokhsaot_submit_matrix_by
 *     944  vokhsaot_submit_round_by
 *     928  vokhsaot_submit_oval_by
 *     640  vokhsaot_collect
 *     624  vokhsaot_withdraw
 *     560  vokhsaot_free_count
 *     376  vokhsaot_opening
 *     152  vokhsaot_kernel_matrix_by, vokhsaot_kernel_oval_by, vokhsaot_kernel_round_by
 *     120  vokhsaot_covariance_oval, vokhsaot_covariance_round
 *      56  vokhsaot_directional
 *      48  vokhsaot_mixed, vokhsaot_second_y
 *      40  vokhsaot_first_y
 *      32  vokhsaot_first_x, vokhsaot_second_x
 *      16  vokhsaot_pixel
 *       8  vokhsaot_shown
 */
#ifndef VOKHSAOT_H
#define VOKHSAOT_H

#include <stddef.h>
#include <stdint.h>

#ifdef __cplusplus
extern "C" {
#endif

/* ---- Version. The library has the soname libvokhsaot.so.MAJOR.MINOR: with another of these, compile again. */

#define VOKHSAOT_VERSION "0.6.1"
#define VOKHSAOT_VERSION_MAJOR 0
#define VOKHSAOT_VERSION_MINOR 6
#define VOKHSAOT_VERSION_PATCH 1

/* ---- Limits. Whole numbers, for #if too. */

/* The largest pixel; the smallest is 0. */
#define VOKHSAOT_LARGEST_PIXEL 65535
/* The most steps of a run or of a job; the fewest are 1. */
#define VOKHSAOT_MOST_STEPS 64
/* The longest side of a picture in pixels; the shortest is 1. */
#define VOKHSAOT_LONGEST_SIDE 1024
/* A covariance is counted in units of 1/4096 square pixel: so many of them are one square pixel. */
#define VOKHSAOT_UNITS_PER_SQUARE_PIXEL 4096
/* The largest variance of a round or an oval shape in square pixels; the smallest is 0. */
#define VOKHSAOT_LARGEST_VARIANCE 64
/* Seats of the service: the most jobs that it holds at a time. */
#define VOKHSAOT_SEATS 8
/* Buffers of the store, two for each seat. */
#define VOKHSAOT_BUFFERS 16
/* Pixels of a buffer, and so the most pixels (width x height) of a job's picture. */
#define VOKHSAOT_BUFFER_PIXELS 1024
/* Pixels of the store: all its buffers. */
#define VOKHSAOT_STORE_PIXELS 16384
/* Words of the service's record. */
#define VOKHSAOT_WORDS 75
/* Words of a record from before 0.4.0, which vokhsaot_change_over() reads. */
#define VOKHSAOT_OLD_WORDS 67
/* Entries of a covariance matrix: xx, xy, yy. */
#define VOKHSAOT_COVARIANCE_ENTRIES 3
/* Numbers of a kernel: the sum and nine weights. */
#define VOKHSAOT_KERNEL_NUMBERS 10
/* Bytes of the longest job text, which begins with N; a longer one is no job. */
#define VOKHSAOT_TEXT_BYTES 16386
/* Bytes of the longest archived text, which begins with J; a longer one is no job. */
#define VOKHSAOT_ARCHIVED_TEXT_BYTES 16384
/* Bytes by which an N text is longer than the J text of the same job: the tab and the letter of its choice. */
#define VOKHSAOT_CHOICE_BYTES 2
/* Bytes of a buffer that has room for the answer to any text. */
#define VOKHSAOT_ANSWER_BYTES 49240

/* ---- Refusals: what a call returns where it does not return 0. */

enum {
    /*
     * The text is no job in the format that the call takes. The converter returns it; of vokhsaot_answer_text() it stands in the
     * text that it writes.
     */
    VOKHSAOT_TEXT_IS_NO_JOB = 1,
    /*
     * The words are no record in order, or not VOKHSAOT_WORDS of them, or the store's length is not VOKHSAOT_STORE_PIXELS. Of
     * vokhsaot_change_over(): the old words are no record in order by the old rule, or not VOKHSAOT_OLD_WORDS of them.
     */
    VOKHSAOT_RECORD_OUT_OF_ORDER = 2,
    /* A variance of a round or an oval shape is not a number, or lies outside 0 to VOKHSAOT_LARGEST_VARIANCE. */
    VOKHSAOT_VARIANCE_OUT_OF_RANGE = 3,
    /*
     * A cosine or sine is not a number or lies outside -1 to 1, or the sum of their squares lies outside 1023/1024 to 1025/1024.
     * The sum is made in doubles, each operation rounded once.
     */
    VOKHSAOT_NOT_A_DIRECTION = 4,
    /* The steps are not 1 to VOKHSAOT_MOST_STEPS. */
    VOKHSAOT_STEPS_OUT_OF_RANGE = 5,
    /* The width or the height is not 1 to VOKHSAOT_LONGEST_SIDE. */
    VOKHSAOT_SIDE_OUT_OF_RANGE = 6,
    /* No seat has this job number: never given, collected or withdrawn already, or 0. */
    VOKHSAOT_NO_SUCH_JOB = 7,
    /* The job that is collected has steps left: more ticks are needed. */
    VOKHSAOT_STEPS_ARE_LEFT = 8,
    /* A lent slice has a wrong length: a picture or result not width x height entries, or another slice not its own size. */
    VOKHSAOT_WRONG_LENGTH = 9,
    /* The picture that is submitted has more than VOKHSAOT_BUFFER_PIXELS pixels. */
    VOKHSAOT_TOO_MANY_PIXELS = 10,
    /* No kernel exists: |xy| is more than the smaller of xx and yy, or the larger of them is more than 4096 x steps. */
    VOKHSAOT_NO_KERNEL = 11,
    /* Fewer than two buffers are free: every seat has a job. Collect or withdraw one. */
    VOKHSAOT_NO_FREE_BUFFERS = 12,
    /* The last number given is 2^64 - 1: only a new opening gives numbers again. */
    VOKHSAOT_NUMBERS_USED_UP = 13,
    /* The N text's choice is b, which a J text cannot name. It is checked right after 1. */
    VOKHSAOT_CANNOT_GO_BACK = 14
};

/*
 * The sentence of a refusal, in UTF-8, for messages to people. 0 has the sentence "Not refused.", a number above 14 the
 * sentence "Not the number of a refusal.". The text is a constant: it is never null and needs no freeing.
 */
static inline const char *vokhsaot_refusal_text(uint32_t number) {
    switch (number) {
    case 0:
        return "Not refused.";
    case VOKHSAOT_TEXT_IS_NO_JOB:
        return "The text is not a job.";
    case VOKHSAOT_RECORD_OUT_OF_ORDER:
        return "The service record is not in order, or the store's length is not 16,384.";
    case VOKHSAOT_VARIANCE_OUT_OF_RANGE:
        return "A variance of a Round or an Oval is not a number or lies outside 0 to 64.";
    case VOKHSAOT_NOT_A_DIRECTION:
        return "A cosine or sine is not a number or lies outside −1 to 1, or (c·c) + (s·s) lies outside 1023/1024 to 1025/1024.";
    case VOKHSAOT_STEPS_OUT_OF_RANGE:
        return "Steps are not 1 to 64.";
    case VOKHSAOT_SIDE_OUT_OF_RANGE:
        return "A width or height is not 1 to 1024.";
    case VOKHSAOT_NO_SUCH_JOB:
        return "No seat has this job number.";
    case VOKHSAOT_STEPS_ARE_LEFT:
        return "The job has steps left.";
    case VOKHSAOT_WRONG_LENGTH:
        return "A lent picture's length is not w × h, or another lent slice has a wrong length.";
    case VOKHSAOT_TOO_MANY_PIXELS:
        return "A submitted picture has more than 1024 pixels.";
    case VOKHSAOT_NO_KERNEL:
        return "No kernel exists.";
    case VOKHSAOT_NO_FREE_BUFFERS:
        return "Fewer than two buffers are free.";
    case VOKHSAOT_NUMBERS_USED_UP:
        return "The last number given is 2^64 − 1.";
    case VOKHSAOT_CANNOT_GO_BACK:
        return "An N text with b cannot go back to J.";
    default:
        return "Not the number of a refusal.";
    }
}

/* ---- Shapes and kernels. */

/*
 * A shape says how far a run spreads each pixel: the covariance of the whole run, of all steps together. It is given as
 *   matrix: xx, xy and yy in units of 1/4096 square pixel, signed; y grows with the row number
 *   round:  one variance in square pixels, the same in every direction
 *   oval:   the variance along a direction (long_variance) and across it (short_variance), in square pixels, and the direction's
 *           cosine and sine. Neither variance has to be the larger. The squares of cosine and sine have to add up to about 1:
 *           see VOKHSAOT_NOT_A_DIRECTION.
 *
 * A kernel is nine weights of a pixel and its eight neighbours, which one step averages by. It depends on the shape and on the
 * steps.
 *
 * The choice of a kernel is a parameter of every call whose name ends in _by: the first one, and in the submits the one right
 * after the store. The weights' formulas leave one number f free between two bounds, the larger of |xy| and xx + yy - M, and the
 * smaller of xx and yy, where M is 4096 x steps.
 * VOKHSAOT_BINOMIAL takes the largest of |xy|, xx + yy - M and half of (xx + yy + max(xx, yy) - M) rounded up, but never more
 * than the upper bound, so that the centre has at least twice the weight of each of its four nearest neighbours wherever some f
 * gives it that. VOKHSAOT_SMALLEST takes the lower bound; such a kernel can have the weight 0 in the centre. Kernels exist for
 * the same shapes and the refusals are the same. A number other than these two is read as VOKHSAOT_BINOMIAL.
 *
 * The calls of the same names without _by take no choice and go by VOKHSAOT_BINOMIAL. They are defined in this header, over the
 * calls with one; the library does not export them. An object that was compiled with the header from before the choice
 * therefore does not link, where it would otherwise pass its arguments one place off. Compiled again, its source as it is goes
 * by VOKHSAOT_BINOMIAL. Kernels and runs have had the choice since 0.2.0, submits since 0.4.0; until then all jobs went by
 * VOKHSAOT_SMALLEST, which a source that must keep a job's pixels as they were has to name now. Runs within one picture, which
 * came with 0.6.0, have had it from their beginning.
 */
enum { VOKHSAOT_BINOMIAL = 0, VOKHSAOT_SMALLEST = 1 };

/*
 * Floats. The covariance of a round shape: writes xx, xy and yy to entries[0], [1] and [2], in 1/4096 square pixel. xx and yy
 * are the variance to the nearest unit, halves upward; xy is 0. entries has VOKHSAOT_COVARIANCE_ENTRIES entries.
 * Refusals:
 *   3  variance is not a number or lies outside 0 to 64
 *   9  entries_len is not VOKHSAOT_COVARIANCE_ENTRIES
 */
uint32_t vokhsaot_covariance_round(double variance, int32_t *entries, size_t entries_len);

/*
 * Floats. The covariance of an oval shape: writes xx, xy and yy to entries[0], [1] and [2], in 1/4096 square pixel, each to the
 * nearest unit, halves upward. Before that, with c and s for cosine and sine, xx is long_variance (c c) + short_variance (s s),
 * xy is (long_variance - short_variance) (c s), yy is long_variance (s s) + short_variance (c c), each operation rounded once.
 * entries has VOKHSAOT_COVARIANCE_ENTRIES entries.
 * Refusals:
 *   3  long_variance or short_variance is not a number or lies outside 0 to 64
 *   4  cosine or sine is not a number or lies outside -1 to 1, or the sum of their squares, made in doubles, each operation
 *      rounded once, lies outside 1023/1024 to 1025/1024
 *   9  entries_len is not VOKHSAOT_COVARIANCE_ENTRIES
 */
uint32_t vokhsaot_covariance_oval(double long_variance, double short_variance, double cosine, double sine, int32_t *entries,
                                  size_t entries_len);

/*
 * Whole numbers. The kernel of a matrix and a step count, by a choice. Writes the sum of the weights to numbers[0], and the
 * weight of the pixel dx columns to the right and dy rows below, each of them -1, 0 or 1, to numbers[5 + 3 * dy + dx]. The sum
 * is 16384 x steps; the weights are not reduced. numbers has VOKHSAOT_KERNEL_NUMBERS entries.
 * Refusals:
 *   5  steps are not 1 to 64
 *   9  numbers_len is not VOKHSAOT_KERNEL_NUMBERS
 *   11 the shape has no kernel with so many steps: |xy| is more than the smaller of xx and yy (so also where one of them is
 *      negative), or the larger of them is more than 4096 x steps
 */
uint32_t vokhsaot_kernel_matrix_by(uint32_t choice, int32_t xx, int32_t xy, int32_t yy, uint32_t steps, uint64_t *numbers,
                                   size_t numbers_len);

/*
 * Floats. The kernel of a round shape and a step count, by a choice; the covariance is the one that vokhsaot_covariance_round()
 * writes. Writes the sum of the weights to numbers[0], and the weight of the pixel dx columns to the right and dy rows below,
 * each of them -1, 0 or 1, to numbers[5 + 3 * dy + dx]. The sum is 16384 x steps; the weights are not reduced. numbers has
 * VOKHSAOT_KERNEL_NUMBERS entries.
 * Refusals:
 *   3  variance is not a number or lies outside 0 to 64
 *   5  steps are not 1 to 64
 *   9  numbers_len is not VOKHSAOT_KERNEL_NUMBERS
 *   11 the shape has no kernel with so many steps: the variance, to the nearest 1/4096, is more than the steps
 */
uint32_t vokhsaot_kernel_round_by(uint32_t choice, double variance, uint32_t steps, uint64_t *numbers, size_t numbers_len);

/*
 * Floats. The kernel of an oval shape and a step count, by a choice; the covariance is the one that vokhsaot_covariance_oval()
 * writes. Writes the sum of the weights to numbers[0], and the weight of the pixel dx columns to the right and dy rows below,
 * each of them -1, 0 or 1, to numbers[5 + 3 * dy + dx]. The sum is 16384 x steps; the weights are not reduced. numbers has
 * VOKHSAOT_KERNEL_NUMBERS entries.
 * Refusals:
 *   3  long_variance or short_variance is not a number or lies outside 0 to 64
 *   4  cosine or sine is not a number or lies outside -1 to 1, or the sum of their squares, made in doubles, each operation
 *      rounded once, lies outside 1023/1024 to 1025/1024
 *   5  steps are not 1 to 64
 *   9  numbers_len is not VOKHSAOT_KERNEL_NUMBERS
 *   11 the shape has no kernel with so many steps: of xx, xy and yy as vokhsaot_covariance_oval() writes them |xy| is more than
 *      the smaller of xx and yy, or the larger of them is more than 4096 x steps
 */
uint32_t vokhsaot_kernel_oval_by(uint32_t choice, double long_variance, double short_variance, double cosine, double sine,
                                 uint32_t steps, uint64_t *numbers, size_t numbers_len);

/* Whole numbers. vokhsaot_kernel_matrix_by() by VOKHSAOT_BINOMIAL: writes the same, and has the same refusals 5, 9, 11. */
static inline uint32_t vokhsaot_kernel_matrix(int32_t xx, int32_t xy, int32_t yy, uint32_t steps, uint64_t *numbers,
                                              size_t numbers_len) {
    return vokhsaot_kernel_matrix_by(VOKHSAOT_BINOMIAL, xx, xy, yy, steps, numbers, numbers_len);
}

/* Floats. vokhsaot_kernel_round_by() by VOKHSAOT_BINOMIAL: writes the same, and has the same refusals 3, 5, 9, 11. */
static inline uint32_t vokhsaot_kernel_round(double variance, uint32_t steps, uint64_t *numbers, size_t numbers_len) {
    return vokhsaot_kernel_round_by(VOKHSAOT_BINOMIAL, variance, steps, numbers, numbers_len);
}

/* Floats. vokhsaot_kernel_oval_by() by VOKHSAOT_BINOMIAL: writes the same, and has the same refusals 3, 4, 5, 9, 11. */
static inline uint32_t vokhsaot_kernel_oval(double long_variance, double short_variance, double cosine, double sine,
                                            uint32_t steps, uint64_t *numbers, size_t numbers_len) {
    return vokhsaot_kernel_oval_by(VOKHSAOT_BINOMIAL, long_variance, short_variance, cosine, sine, steps, numbers, numbers_len);
}

/* ---- Pictures: width x height pixels, row after row, so that column x of row y stands at y * width + x. */

/*
 * Whole numbers. Writes the pixel at a column and a row to *pixel; outside the picture that is the nearest one, on each axis by
 * itself, so that every column and row has a pixel. pixels is the picture, of width x height entries.
 * Refusals:
 *   6  the width or the height is not 1 to 1024
 *   9  pixels_len is not width x height
 */
uint32_t vokhsaot_pixel(const uint16_t *pixels, size_t pixels_len, uint32_t width, uint32_t height, int32_t column,
                        int32_t row, uint16_t *pixel);

/*
 * Whole numbers. A run of so many steps by a matrix and a choice, between two pictures of width x height pixels. It starts from
 * what the first holds; what the second holds counts for nothing. Afterwards one of them holds the last step and the other the
 * step before it: vokhsaot_shown() tells which. Each step is rounded to the nearest whole number, halves upward (R1 to R5).
 *
 * In each step a pixel that is at least as large as each of its up to eight neighbours inside the picture does not rise, and
 * one that is at most as large does not fall. Two pictures of equal sides that differ by at most d at each pixel still do after
 * runs of one shape, step count and choice (S1.1 to S1.7).
 * Refusals:
 *   5  steps are not 1 to 64
 *   6  the width or the height is not 1 to 1024
 *   9  first_len or second_len is not width x height
 *   11 the shape has no kernel with so many steps: |xy| is more than the smaller of xx and yy (so also where one of them is
 *      negative), or the larger of them is more than 4096 x steps
 */
uint32_t vokhsaot_run_matrix_by(uint32_t choice, int32_t xx, int32_t xy, int32_t yy, uint32_t steps, uint32_t width,
                                uint32_t height, uint16_t *first, size_t first_len, uint16_t *second, size_t second_len);

/*
 * Floats. A run of so many steps by a round shape and a choice, between two pictures of width x height pixels; the covariance is
 * the one that vokhsaot_covariance_round() writes. It starts from what the first holds; what the second holds counts for
 * nothing. Afterwards one of them holds the last step and the other the step before it: vokhsaot_shown() tells which. Each step
 * is rounded to the nearest whole number, halves upward (R1 to R5).
 *
 * In each step a pixel that is at least as large as each of its up to eight neighbours inside the picture does not rise, and
 * one that is at most as large does not fall. Two pictures of equal sides that differ by at most d at each pixel still do after
 * runs of one shape, step count and choice (S1.1 to S1.7).
 * Refusals:
 *   3  variance is not a number or lies outside 0 to 64
 *   5  steps are not 1 to 64
 *   6  the width or the height is not 1 to 1024
 *   9  first_len or second_len is not width x height
 *   11 the shape has no kernel with so many steps: the variance, to the nearest 1/4096, is more than the steps
 */
uint32_t vokhsaot_run_round_by(uint32_t choice, double variance, uint32_t steps, uint32_t width, uint32_t height,
                               uint16_t *first, size_t first_len, uint16_t *second, size_t second_len);

/*
 * Floats. A run of so many steps by an oval shape and a choice, between two pictures of width x height pixels; the covariance is
 * the one that vokhsaot_covariance_oval() writes. It starts from what the first holds; what the second holds counts for
 * nothing. Afterwards one of them holds the last step and the other the step before it: vokhsaot_shown() tells which. Each step
 * is rounded to the nearest whole number, halves upward (R1 to R5).
 *
 * In each step a pixel that is at least as large as each of its up to eight neighbours inside the picture does not rise, and
 * one that is at most as large does not fall. Two pictures of equal sides that differ by at most d at each pixel still do after
 * runs of one shape, step count and choice (S1.1 to S1.7).
 * Refusals:
 *   3  long_variance or short_variance is not a number or lies outside 0 to 64
 *   4  cosine or sine is not a number or lies outside -1 to 1, or the sum of their squares, made in doubles, each operation
 *      rounded once, lies outside 1023/1024 to 1025/1024
 *   5  steps are not 1 to 64
 *   6  the width or the height is not 1 to 1024
 *   9  first_len or second_len is not width x height
 *   11 the shape has no kernel with so many steps: of xx, xy and yy as vokhsaot_covariance_oval() writes them |xy| is more than
 *      the smaller of xx and yy, or the larger of them is more than 4096 x steps
 */
uint32_t vokhsaot_run_oval_by(uint32_t choice, double long_variance, double short_variance, double cosine, double sine,
                              uint32_t steps, uint32_t width, uint32_t height, uint16_t *first, size_t first_len,
                              uint16_t *second, size_t second_len);

/* Whole numbers. vokhsaot_run_matrix_by() by VOKHSAOT_BINOMIAL: writes the same, and has the same refusals 5, 6, 9, 11. */
static inline uint32_t vokhsaot_run_matrix(int32_t xx, int32_t xy, int32_t yy, uint32_t steps, uint32_t width, uint32_t height,
                                           uint16_t *first, size_t first_len, uint16_t *second, size_t second_len) {
    return vokhsaot_run_matrix_by(VOKHSAOT_BINOMIAL, xx, xy, yy, steps, width, height, first, first_len, second, second_len);
}

/* Floats. vokhsaot_run_round_by() by VOKHSAOT_BINOMIAL: writes the same, and has the same refusals 3, 5, 6, 9, 11. */
static inline uint32_t vokhsaot_run_round(double variance, uint32_t steps, uint32_t width, uint32_t height, uint16_t *first,
                                          size_t first_len, uint16_t *second, size_t second_len) {
    return vokhsaot_run_round_by(VOKHSAOT_BINOMIAL, variance, steps, width, height, first, first_len, second, second_len);
}

/* Floats. vokhsaot_run_oval_by() by VOKHSAOT_BINOMIAL: writes the same, and has the same refusals 3, 4, 5, 6, 9, 11. */
static inline uint32_t vokhsaot_run_oval(double long_variance, double short_variance, double cosine, double sine, uint32_t steps,
                                         uint32_t width, uint32_t height, uint16_t *first, size_t first_len, uint16_t *second,
                                         size_t second_len) {
    return vokhsaot_run_oval_by(VOKHSAOT_BINOMIAL, long_variance, short_variance, cosine, sine, steps, width, height, first,
                                first_len, second, second_len);
}

/*
 * Whole numbers. Writes to *picture which of the two pictures of an accepted run of so many steps holds the last step: 0 the
 * first (steps are even), 1 the second (odd).
 * Refusals:
 *   5  steps are not 1 to 64
 */
uint32_t vokhsaot_shown(uint32_t steps, uint32_t *picture);

/*
 * Runs within one picture: the calls vokhsaot_run_in_place_.. below. Which run to use:
 *   - A run within one picture, where there is memory for one only, or where the step before the last is not wanted. Beside the
 *     picture it keeps two lines of 1024 pixels on its stack (see NEEDS), whatever the picture's size, and the last step is
 *     always in that picture.
 *   - A run between two pictures, by the calls above, where the step before the last is wanted too (or, of a run of one step, the
 *     picture as it was).
 * The last step has exactly the same pixels by both (S5.1).
 *
 * A step reads rows as they were before it, so no new row can stand in its place before the row below it is made. New rows are
 * made in bands of whole rows, of at most 1024 pixels. A new band waits in one of the two lines until the band below it is made,
 * and is then put in its place. So while the call works, the picture holds rows of two steps: nobody else may read it before
 * the call returns, and one who must be able to begin again after a loss of power keeps a copy elsewhere.
 */

/*
 * Whole numbers. A run of so many steps by a matrix and a choice, within one picture of width x height pixels. It starts from
 * what the picture holds, and leaves the last step there: exactly the pixels of vokhsaot_run_matrix_by() in the picture that
 * vokhsaot_shown() tells. Each step is rounded to the nearest whole number, halves upward (R1, R2). A refused run leaves the
 * picture as it was, whole (S5.1 to S5.4).
 *
 * In each step a pixel that is at least as large as each of its up to eight neighbours inside the picture does not rise, and
 * one that is at most as large does not fall. Two pictures of equal sides that differ by at most d at each pixel still do after
 * runs of one shape, step count and choice (S1.1 to S1.7).
 * Refusals:
 *   5  steps are not 1 to 64
 *   6  the width or the height is not 1 to 1024
 *   9  picture_len is not width x height: be it longer or shorter
 *   11 the shape has no kernel with so many steps: |xy| is more than the smaller of xx and yy (so also where one of them is
 *      negative), or the larger of them is more than 4096 x steps
 */
uint32_t vokhsaot_run_in_place_matrix_by(uint32_t choice, int32_t xx, int32_t xy, int32_t yy, uint32_t steps, uint32_t width,
                                         uint32_t height, uint16_t *picture, size_t picture_len);

/*
 * Floats. A run of so many steps by a round shape and a choice, within one picture of width x height pixels; the covariance is
 * the one that vokhsaot_covariance_round() writes. It starts from what the picture holds, and leaves the last step there:
 * exactly the pixels of vokhsaot_run_round_by() in the picture that vokhsaot_shown() tells. Each step is rounded to the nearest
 * whole number, halves upward (R1, R2). A refused run leaves the picture as it was, whole (S5.1 to S5.4).
 *
 * In each step a pixel that is at least as large as each of its up to eight neighbours inside the picture does not rise, and
 * one that is at most as large does not fall. Two pictures of equal sides that differ by at most d at each pixel still do after
 * runs of one shape, step count and choice (S1.1 to S1.7).
 * Refusals:
 *   3  variance is not a number or lies outside 0 to 64
 *   5  steps are not 1 to 64
 *   6  the width or the height is not 1 to 1024
 *   9  picture_len is not width x height: be it longer or shorter
 *   11 the shape has no kernel with so many steps: the variance, to the nearest 1/4096, is more than the steps
 */
uint32_t vokhsaot_run_in_place_round_by(uint32_t choice, double variance, uint32_t steps, uint32_t width, uint32_t height,
                                        uint16_t *picture, size_t picture_len);

/*
 * Floats. A run of so many steps by an oval shape and a choice, within one picture of width x height pixels; the covariance is
 * the one that vokhsaot_covariance_oval() writes. It starts from what the picture holds, and leaves the last step there:
 * exactly the pixels of vokhsaot_run_oval_by() in the picture that vokhsaot_shown() tells. Each step is rounded to the nearest
 * whole number, halves upward (R1, R2). A refused run leaves the picture as it was, whole (S5.1 to S5.4).
 *
 * In each step a pixel that is at least as large as each of its up to eight neighbours inside the picture does not rise, and
 * one that is at most as large does not fall. Two pictures of equal sides that differ by at most d at each pixel still do after
 * runs of one shape, step count and choice (S1.1 to S1.7).
 * Refusals:
 *   3  long_variance or short_variance is not a number or lies outside 0 to 64
 *   4  cosine or sine is not a number or lies outside -1 to 1, or the sum of their squares, made in doubles, each operation
 *      rounded once, lies outside 1023/1024 to 1025/1024
 *   5  steps are not 1 to 64
 *   6  the width or the height is not 1 to 1024
 *   9  picture_len is not width x height: be it longer or shorter
 *   11 the shape has no kernel with so many steps: of xx, xy and yy as vokhsaot_covariance_oval() writes them |xy| is more than
 *      the smaller of xx and yy, or the larger of them is more than 4096 x steps
 */
uint32_t vokhsaot_run_in_place_oval_by(uint32_t choice, double long_variance, double short_variance, double cosine, double sine,
                                       uint32_t steps, uint32_t width, uint32_t height, uint16_t *picture, size_t picture_len);

/* Whole numbers. vokhsaot_run_in_place_matrix_by() by VOKHSAOT_BINOMIAL: leaves the same, has the same refusals 5, 6, 9, 11. */
static inline uint32_t vokhsaot_run_in_place_matrix(int32_t xx, int32_t xy, int32_t yy, uint32_t steps, uint32_t width,
                                                    uint32_t height, uint16_t *picture, size_t picture_len) {
    return vokhsaot_run_in_place_matrix_by(VOKHSAOT_BINOMIAL, xx, xy, yy, steps, width, height, picture, picture_len);
}

/* Floats. vokhsaot_run_in_place_round_by() by VOKHSAOT_BINOMIAL: leaves the same, has the same refusals 3, 5, 6, 9, 11. */
static inline uint32_t vokhsaot_run_in_place_round(double variance, uint32_t steps, uint32_t width, uint32_t height,
                                                   uint16_t *picture, size_t picture_len) {
    return vokhsaot_run_in_place_round_by(VOKHSAOT_BINOMIAL, variance, steps, width, height, picture, picture_len);
}

/* Floats. vokhsaot_run_in_place_oval_by() by VOKHSAOT_BINOMIAL: leaves the same, has the same refusals 3, 4, 5, 6, 9, 11. */
static inline uint32_t vokhsaot_run_in_place_oval(double long_variance, double short_variance, double cosine, double sine,
                                                  uint32_t steps, uint32_t width, uint32_t height, uint16_t *picture,
                                                  size_t picture_len) {
    return vokhsaot_run_in_place_oval_by(VOKHSAOT_BINOMIAL, long_variance, short_variance, cosine, sine, steps, width, height,
                                         picture, picture_len);
}

/*
 * Whole numbers. The first difference in x, L(x+1, y) - L(x-1, y), undivided, of the picture L at each of its places: writes
 * width x height entries to result, row after row. Outside L stands its nearest pixel.
 * Refusals:
 *   6  the width or the height is not 1 to 1024
 *   9  pixels_len or result_len is not width x height
 */
uint32_t vokhsaot_first_x(const uint16_t *pixels, size_t pixels_len, uint32_t width, uint32_t height, int32_t *result,
                          size_t result_len);

/*
 * Whole numbers. The first difference in y, L(x, y+1) - L(x, y-1), undivided, of the picture L at each of its places: writes
 * width x height entries to result, row after row. Outside L stands its nearest pixel.
 * Refusals:
 *   6  the width or the height is not 1 to 1024
 *   9  pixels_len or result_len is not width x height
 */
uint32_t vokhsaot_first_y(const uint16_t *pixels, size_t pixels_len, uint32_t width, uint32_t height, int32_t *result,
                          size_t result_len);

/*
 * Whole numbers. The second difference in x, L(x+1, y) - 2 L(x, y) + L(x-1, y), undivided, of the picture L at each of its
 * places: writes width x height entries to result, row after row. Outside L stands its nearest pixel.
 * Refusals:
 *   6  the width or the height is not 1 to 1024
 *   9  pixels_len or result_len is not width x height
 */
uint32_t vokhsaot_second_x(const uint16_t *pixels, size_t pixels_len, uint32_t width, uint32_t height, int32_t *result,
                           size_t result_len);

/*
 * Whole numbers. The second difference in y, L(x, y+1) - 2 L(x, y) + L(x, y-1), undivided, of the picture L at each of its
 * places: writes width x height entries to result, row after row. Outside L stands its nearest pixel.
 * Refusals:
 *   6  the width or the height is not 1 to 1024
 *   9  pixels_len or result_len is not width x height
 */
uint32_t vokhsaot_second_y(const uint16_t *pixels, size_t pixels_len, uint32_t width, uint32_t height, int32_t *result,
                           size_t result_len);

/*
 * Whole numbers. The mixed difference, L(x+1, y+1) - L(x-1, y+1) - L(x+1, y-1) + L(x-1, y-1), undivided, of the picture L at
 * each of its places: writes width x height entries to result, row after row. Outside L stands its nearest pixel.
 * Refusals:
 *   6  the width or the height is not 1 to 1024
 *   9  pixels_len or result_len is not width x height
 */
uint32_t vokhsaot_mixed(const uint16_t *pixels, size_t pixels_len, uint32_t width, uint32_t height, int32_t *result,
                        size_t result_len);

/*
 * Floats. The directional difference of the picture L at each of its places: cosine times the first difference in x, plus sine
 * times the one in y, each operation rounded once. The first difference in x is L(x+1, y) - L(x-1, y), the one in y
 * L(x, y+1) - L(x, y-1); outside L stands its nearest pixel. Writes width x height entries to result, row after row. Where the
 * call is refused, the entries of result are kept. Of one that is not a number (NaN) it is proved that it still is none, and
 * nothing of the bits that tell such entries apart (sign and payload).
 * Refusals:
 *   4  cosine or sine is not a number or lies outside -1 to 1, or the sum of their squares, made in doubles, each operation
 *      rounded once, lies outside 1023/1024 to 1025/1024
 *   6  the width or the height is not 1 to 1024
 *   9  pixels_len or result_len is not width x height
 */
uint32_t vokhsaot_directional(double cosine, double sine, const uint16_t *pixels, size_t pixels_len, uint32_t width,
                              uint32_t height, double *result, size_t result_len);

/* ---- Job texts: N texts, which name the choice, and archived J texts, which do not. */

/*
 * A job text is line one and the pixel lines. Fields are parted by one tab, and each line, the last one too, ends with a newline:
 *   N <tab> xx <tab> xy <tab> yy <tab> steps <tab> width <tab> height <tab> choice <newline>
 *   pixel <tab> pixel <tab> .. (width of them) <newline>
 *   .. (height such lines, and none where width or height is 0)
 * The choice is one byte: s for VOKHSAOT_SMALLEST, b for VOKHSAOT_BINOMIAL. xx, xy and yy fit signed 32 bits; steps, width and
 * height unsigned 32 bits; a pixel is 0 to 65535. Numbers are decimal, with no plus, no leading zero and no minus before a 0. So
 * a job has one spelling. There is no other byte: no blank, no carriage return, no tab at a line's end, nothing after the last
 * line, no 0 byte. A job text has at most VOKHSAOT_TEXT_BYTES bytes.
 *
 * An archived text, from before kernels had a choice, begins with J and has no eighth field:
 *   J <tab> xx <tab> xy <tab> yy <tab> steps <tab> width <tab> height <newline>
 * The rest is the same. It has at most VOKHSAOT_ARCHIVED_TEXT_BYTES bytes, and its job went by VOKHSAOT_SMALLEST.
 *
 * The releases 0.2.0 to 0.4.0 took J texts, and answered them by VOKHSAOT_BINOMIAL. A text that was written for these is none from
 * the archives: it has N at its front and b at the end of line one now, which its writer has to put there.
 *
 * All else is no job (B3 to B12, S4.1, S4.5). The calls may be lent any bytes, of any length.
 */

/*
 * Whole numbers. The bench program's answer to an N text: writes it to the start of out, which keeps the bytes behind it, and how
 * many bytes it has to *length. There is no 0 byte at its end. The kernel and the pixels are those of the text's choice. A text
 * that is no job and a job that is refused have an answer too, the line of the refusal, R, tab, number; the call then returns 0.
 * The number is, in checking order:
 *   1  the text is no N text, or has more than VOKHSAOT_TEXT_BYTES bytes; so also a J text, which vokhsaot_convert_j_to_n()
 *      makes an N text of
 *   5  its steps are not 1 to 64
 *   6  its width or its height is not 1 to 1024
 *   11 its shape has no kernel with so many steps
 * Refusals:
 *   9  out_len is less than VOKHSAOT_ANSWER_BYTES
 */
uint32_t vokhsaot_answer_text(const uint8_t *text, size_t text_len, uint8_t *out, size_t out_len, size_t *length);

/*
 * Whole numbers. Converts an archived J text to the N text of the same job with the choice s: writes N, line one from its second
 * byte on, a tab and s, and all that follows from line one's newline on, each byte as it was. That fills out, of text_len +
 * VOKHSAOT_CHOICE_BYTES bytes. vokhsaot_convert_n_to_j() goes back to the same bytes. Nothing else is checked: steps, sides and
 * shapes that a run would refuse convert too.
 * Refusals:
 *   1  the text is no J text, or has more than VOKHSAOT_ARCHIVED_TEXT_BYTES bytes; so also an N text
 *   9  out_len is not text_len + VOKHSAOT_CHOICE_BYTES
 */
uint32_t vokhsaot_convert_j_to_n(const uint8_t *text, size_t text_len, uint8_t *out, size_t out_len);

/*
 * Whole numbers. Converts an N text with the choice s back to the J text of the same job: writes J, line one from its second byte
 * on without its last field and the tab before it, and all that follows from line one's newline on, each byte as it was. That
 * fills out, of text_len - VOKHSAOT_CHOICE_BYTES bytes. vokhsaot_convert_j_to_n() goes back to the same bytes. Nothing else is
 * checked: steps, sides and shapes that a run would refuse convert too.
 * Refusals:
 *   1  the text is no N text, or has more than VOKHSAOT_TEXT_BYTES bytes; so also a J text
 *   14 the text's choice is b; also where out_len is wrong
 *   9  out_len is not text_len - VOKHSAOT_CHOICE_BYTES
 */
uint32_t vokhsaot_convert_n_to_j(const uint8_t *text, size_t text_len, uint8_t *out, size_t out_len);

/* ---- The service: up to eight jobs, whose steps are done in turn, one step a tick. */

/*
 * The caller keeps the service: a record of VOKHSAOT_WORDS words and a store of VOKHSAOT_STORE_PIXELS pixels, and lends both to
 * the calls. Keep the two together, one store for each record, from the opening on, and let nobody else write them: what is
 * promised of lists of calls (demand 3 in docs/REFERENCE.md) is promised of a record and a store that these calls alone have
 * changed. Reading them is fine. The store may hold anything at the opening. Both may be saved and restored byte for byte,
 * always the two together. Records and stores may be as many as wanted; they know nothing of each other.
 *
 * No call trusts the words: what is not a record in order is refused with 2, as is a length other than VOKHSAOT_WORDS. Only the
 * opening and the change-over, which would write a record there, refuse that with 9. A record that was changed by others and is
 * in order is served.
 *
 * A unit that runs with a release before 0.4.0 has a record of VOKHSAOT_OLD_WORDS words, which these calls refuse with 2. It
 * goes on through vokhsaot_change_over(), whose comment says how it is done.
 *
 * A record is in order exactly where all of this holds (V3 to V8, W2, S3.1, S3.2):
 *   - Every word but the job numbers and the last number given fits 32 bits. xx, xy and yy stand as their two's complement in 32
 *     bits: -1 is 0xFFFFFFFF. A negative number that was extended to 64 bits with its sign does not fit.
 *   - Every empty seat, one whose job number is 0, is all 0.
 *   - Every filled seat has steps of 1 to 64, steps left of at most its steps, a width and a height of 1 to 1024, and at most
 *     1024 pixels (width x height).
 *   - Every filled seat has a kernel: |xy| is at most the smaller of xx and yy, and the larger of them at most 4096 x steps.
 *   - Every filled seat has an f between the two bounds with which no weight of its kernel is negative: at least the larger of
 *     |xy| and xx + yy - 4096 x steps, and at most the smaller of xx and yy. It may be any such f, not only one of the two
 *     choices'.
 *   - Every filled seat has a job number from 1 to the last number given, and no other seat has the same.
 *   - The seat last filled and the seat last served are 0 to 7.
 *
 * The store's layout. Seat i, 0 to 7, has the buffers 2 i and 2 i + 1; buffer b is the VOKHSAOT_BUFFER_PIXELS pixels from
 * store[b * VOKHSAOT_BUFFER_PIXELS] on. The current picture of the seat's job stands at the start of a buffer, row after row:
 * of buffer 2 i where the steps done (its steps less its steps left) are even, so also right after the submit, and of 2 i + 1
 * where they are odd. No call reads or writes the pixels of a buffer behind width x height.
 *
 * The record's layout. Seat i has VOKHSAOT_SEAT_WORDS words from words[i * VOKHSAOT_SEAT_WORDS] on, in this order. The steps
 * left of its job, say, are words[i * VOKHSAOT_SEAT_WORDS + VOKHSAOT_SEAT_STEPS_LEFT].
 */
#define VOKHSAOT_SEAT_WORDS 9
/* The job's number, 64 bits; 0 where the seat is empty. */
#define VOKHSAOT_SEAT_JOB 0
/* The covariance of the job's shape: read these three by vokhsaot_signed_word(). */
#define VOKHSAOT_SEAT_XX 1
#define VOKHSAOT_SEAT_XY 2
#define VOKHSAOT_SEAT_YY 3
/* The job's steps in all, and those that are left; it is finished where none are. */
#define VOKHSAOT_SEAT_STEPS 4
#define VOKHSAOT_SEAT_STEPS_LEFT 5
/* The sides of the job's picture: what a collect is lent has width x height pixels. */
#define VOKHSAOT_SEAT_WIDTH 6
#define VOKHSAOT_SEAT_HEIGHT 7
/* The number f of the job's kernel, by which its ticks go; never negative. The choice of its submit gave it. */
#define VOKHSAOT_SEAT_F 8
/* After the seats, by their place in words: the last number given, 64 bits; 0 where none was. */
#define VOKHSAOT_WORD_LAST_NUMBER 72
/* The seat last filled and the seat last served; both are 7 at the opening. */
#define VOKHSAOT_WORD_LAST_FILLED 73
#define VOKHSAOT_WORD_LAST_SERVED 74
/*
 * A record from before 0.4.0 has so many words a seat: the same without the last, f. The last number given, the seat last filled
 * and the seat last served follow as its words 64, 65 and 66.
 */
#define VOKHSAOT_OLD_SEAT_WORDS 8

/*
 * The seat that has this job number, 0 to 7, or VOKHSAOT_SEATS where none has: also where the job is 0, which is the number of
 * no job, and where words_len is not VOKHSAOT_WORDS.
 */
static inline size_t vokhsaot_seat_of(const uint64_t *words, size_t words_len, uint64_t job) {
    size_t seat = 0;
    if (job == 0 || words_len != VOKHSAOT_WORDS) {
        return VOKHSAOT_SEATS;
    }
    while (seat < VOKHSAOT_SEATS && words[seat * VOKHSAOT_SEAT_WORDS + VOKHSAOT_SEAT_JOB] != job) {
        seat++;
    }
    return seat;
}

/*
 * The signed number that a word of the record holds as its two's complement in 32 bits: xx, xy and yy of a seat. It reads only
 * the low 32 bits; in a record in order the other 32 are 0. So it reads a number that was extended to 64 bits with its sign, too,
 * though a record with such a word is not in order.
 */
static inline int32_t vokhsaot_signed_word(uint64_t word) {
    const int32_t low_31_bits = word & INT32_MAX;
    return (word & 0x80000000u) == 0 ? low_31_bits : low_31_bits + INT32_MIN;
}

/*
 * Whole numbers. Opening: writes the record of an empty service to words, of VOKHSAOT_WORDS entries, whatever they hold. The
 * store needs no opening.
 * Refusals:
 *   9  words_len is not VOKHSAOT_WORDS
 */
uint32_t vokhsaot_opening(uint64_t *words, size_t words_len);

/*
 * Whole numbers. Submit of a job with a matrix, by a choice: copies the picture, of width x height pixels, into the store, so
 * that pixels may be reused at once. The job gets the first empty seat, counted on cyclically (0 comes after 7) from the one
 * after the seat last filled, with all its steps left and the f of the choice, by which its steps go. Writes the new job's
 * number to *number: the submits accepted since the opening get 1, 2, 3 and so on, also across a change-over.
 * Refusals:
 *   2  the words are no record in order, or store_len is not VOKHSAOT_STORE_PIXELS
 *   5  steps are not 1 to 64
 *   6  the width or the height is not 1 to 1024
 *   9  pixels_len is not width x height
 *   10 width x height is more than VOKHSAOT_BUFFER_PIXELS
 *   11 the shape has no kernel with so many steps: |xy| is more than the smaller of xx and yy (so also where one of them is
 *      negative), or the larger of them is more than 4096 x steps
 *   12 all eight seats have a job
 *   13 the last number given is 2^64 - 1
 */
uint32_t vokhsaot_submit_matrix_by(uint64_t *words, size_t words_len, uint16_t *store, size_t store_len, uint32_t choice,
                                   int32_t xx, int32_t xy, int32_t yy, uint32_t steps, uint32_t width, uint32_t height,
                                   const uint16_t *pixels, size_t pixels_len, uint64_t *number);

/*
 * Floats. Submit of a job with a round shape, by a choice: copies the picture, of width x height pixels, into the store, so that
 * pixels may be reused at once. The job gets the first empty seat, counted on cyclically (0 comes after 7) from the one after
 * the seat last filled, with all its steps left and the f of the choice, by which its steps go. Writes the new job's number to
 * *number: the submits accepted since the opening get 1, 2, 3 and so on, also across a change-over. The covariance is the one
 * that vokhsaot_covariance_round() writes.
 * Refusals:
 *   2  the words are no record in order, or store_len is not VOKHSAOT_STORE_PIXELS
 *   3  variance is not a number or lies outside 0 to 64
 *   5  steps are not 1 to 64
 *   6  the width or the height is not 1 to 1024
 *   9  pixels_len is not width x height
 *   10 width x height is more than VOKHSAOT_BUFFER_PIXELS
 *   11 the shape has no kernel with so many steps: the variance, to the nearest 1/4096, is more than the steps
 *   12 all eight seats have a job
 *   13 the last number given is 2^64 - 1
 */
uint32_t vokhsaot_submit_round_by(uint64_t *words, size_t words_len, uint16_t *store, size_t store_len, uint32_t choice,
                                  double variance, uint32_t steps, uint32_t width, uint32_t height, const uint16_t *pixels,
                                  size_t pixels_len, uint64_t *number);

/*
 * Floats. Submit of a job with an oval shape, by a choice: copies the picture, of width x height pixels, into the store, so that
 * pixels may be reused at once. The job gets the first empty seat, counted on cyclically (0 comes after 7) from the one after
 * the seat last filled, with all its steps left and the f of the choice, by which its steps go. Writes the new job's number to
 * *number: the submits accepted since the opening get 1, 2, 3 and so on, also across a change-over. The covariance is the one
 * that vokhsaot_covariance_oval() writes.
 * Refusals:
 *   2  the words are no record in order, or store_len is not VOKHSAOT_STORE_PIXELS
 *   3  long_variance or short_variance is not a number or lies outside 0 to 64
 *   4  cosine or sine is not a number or lies outside -1 to 1, or the sum of their squares, made in doubles, each operation
 *      rounded once, lies outside 1023/1024 to 1025/1024
 *   5  steps are not 1 to 64
 *   6  the width or the height is not 1 to 1024
 *   9  pixels_len is not width x height
 *   10 width x height is more than VOKHSAOT_BUFFER_PIXELS
 *   11 the shape has no kernel with so many steps: of xx, xy and yy as vokhsaot_covariance_oval() writes them |xy| is more than
 *      the smaller of xx and yy, or the larger of them is more than 4096 x steps
 *   12 all eight seats have a job
 *   13 the last number given is 2^64 - 1
 */
uint32_t vokhsaot_submit_oval_by(uint64_t *words, size_t words_len, uint16_t *store, size_t store_len, uint32_t choice,
                                 double long_variance, double short_variance, double cosine, double sine, uint32_t steps,
                                 uint32_t width, uint32_t height, const uint16_t *pixels, size_t pixels_len, uint64_t *number);

/*
 * Whole numbers. vokhsaot_submit_matrix_by() by VOKHSAOT_BINOMIAL: does the same, and has the same refusals 2, 5, 6, 9, 10, 11,
 * 12, 13.
 */
static inline uint32_t vokhsaot_submit_matrix(uint64_t *words, size_t words_len, uint16_t *store, size_t store_len, int32_t xx,
                                              int32_t xy, int32_t yy, uint32_t steps, uint32_t width, uint32_t height,
                                              const uint16_t *pixels, size_t pixels_len, uint64_t *number) {
    return vokhsaot_submit_matrix_by(words, words_len, store, store_len, VOKHSAOT_BINOMIAL, xx, xy, yy, steps, width, height,
                                     pixels, pixels_len, number);
}

/*
 * Floats. vokhsaot_submit_round_by() by VOKHSAOT_BINOMIAL: does the same, and has the same refusals 2, 3, 5, 6, 9, 10, 11, 12,
 * 13.
 */
static inline uint32_t vokhsaot_submit_round(uint64_t *words, size_t words_len, uint16_t *store, size_t store_len,
                                             double variance, uint32_t steps, uint32_t width, uint32_t height,
                                             const uint16_t *pixels, size_t pixels_len, uint64_t *number) {
    return vokhsaot_submit_round_by(words, words_len, store, store_len, VOKHSAOT_BINOMIAL, variance, steps, width, height, pixels,
                                    pixels_len, number);
}

/*
 * Floats. vokhsaot_submit_oval_by() by VOKHSAOT_BINOMIAL: does the same, and has the same refusals 2, 3, 4, 5, 6, 9, 10, 11, 12,
 * 13.
 */
static inline uint32_t vokhsaot_submit_oval(uint64_t *words, size_t words_len, uint16_t *store, size_t store_len,
                                            double long_variance, double short_variance, double cosine, double sine,
                                            uint32_t steps, uint32_t width, uint32_t height, const uint16_t *pixels,
                                            size_t pixels_len, uint64_t *number) {
    return vokhsaot_submit_oval_by(words, words_len, store, store_len, VOKHSAOT_BINOMIAL, long_variance, short_variance, cosine,
                                   sine, steps, width, height, pixels, pixels_len, number);
}

/*
 * Whole numbers. Tick: does one step of one job, by the f of its seat, and writes the job's number to *number. The turn is that
 * of the first seat with steps left, counted on cyclically (0 comes after 7) from the one after the seat last served. Where no
 * job has steps left it writes 0, and then nothing else changes. The wait: a job with r steps left is finished after at most
 * 8 x r more ticks, whatever other jobs come and go, unless it is withdrawn.
 * Refusals:
 *   2  the words are no record in order, or store_len is not VOKHSAOT_STORE_PIXELS
 */
uint32_t vokhsaot_tick(uint64_t *words, size_t words_len, uint16_t *store, size_t store_len, uint64_t *number);

/*
 * Whole numbers. Collect: writes the picture of a finished job to picture, of as many pixels as the job's width x height,
 * empties its seat, and writes the job's number to *number. The store does not change.
 * Refusals:
 *   2  the words are no record in order, or store_len is not VOKHSAOT_STORE_PIXELS
 *   7  no seat has this job number
 *   8  the job has steps left
 *   9  picture_len is not the job's width x height
 */
uint32_t vokhsaot_collect(uint64_t *words, size_t words_len, const uint16_t *store, size_t store_len, uint64_t job,
                          uint16_t *picture, size_t picture_len, uint64_t *number);

/*
 * Whole numbers. Withdraw: empties the seat of a job, finished or not, and writes the job's number to *number. Its picture is
 * lost. It is lent no store, and the store does not change.
 * Refusals:
 *   2  the words are no record in order
 *   7  no seat has this job number
 */
uint32_t vokhsaot_withdraw(uint64_t *words, size_t words_len, uint64_t job, uint64_t *number);

/*
 * Whole numbers. Free count: writes how many buffers are free to *count, VOKHSAOT_BUFFERS less 2 for each job held. A submit
 * needs two.
 * Refusals:
 *   2  the words are no record in order
 */
uint32_t vokhsaot_free_count(const uint64_t *words, size_t words_len, uint32_t *count);

/*
 * Whole numbers. Change-over of a running unit from a release before 0.4.0: reads its record, old_words, of VOKHSAOT_OLD_WORDS
 * entries, and writes the record with which this release goes on to words, of VOKHSAOT_WORDS entries, whatever they hold. Every
 * field is kept: each job has its seat, number, shape, steps, steps left and sides, and the last number given, the seat last
 * filled and the seat last served are the same. Each filled seat gets the smallest f of its shape and steps, which its job went
 * by before, and each empty one 0. The store is not lent: it stays, as it is, the store of the new record.
 *
 * So the jobs finish with the pixels that they would have had, turns and job numbers carry on, and the wait counts across it: a
 * job with r steps left is finished after at most 8 x r ticks, those of the earlier release and of this one together. A submit
 * from then on can name either choice.
 *
 * How a running unit changes over:
 *   1. Stop calling the earlier release, between two of its calls, and keep its VOKHSAOT_OLD_WORDS words and its store as they
 *      are. Open nothing: an opening would make the record of an empty service.
 *   2. Call vokhsaot_change_over() once, from the old words into VOKHSAOT_WORDS fresh ones.
 *   3. If it returns 0, go on with the new words and the same store, and throw the old words away: from the next call on they do
 *      not belong to the store any more, and must not be changed over again.
 *   4. If it returns a refusal, nothing was written. The old words are only read, so they and the store are as they were, and
 *      the earlier release can go on with them.
 *
 * How to check that it worked, before the next call:
 *   - vokhsaot_free_count() of the new words writes the count that the earlier release writes of the old ones.
 *   - words[72], [73] and [74] are equal to old_words[64], [65] and [66].
 *   - Of each seat i the eight words from words[9 * i] on are equal to those from old_words[8 * i] on.
 *   - Of each empty seat i the f, words[9 * i + 8], is 0.
 *
 * A record is in order by the old rule exactly where all that is said above of a record in order holds of its words, without what
 * is said of f.
 * Refusals:
 *   2  the old words are no record in order by the old rule, or old_words_len is not VOKHSAOT_OLD_WORDS; so also where they are
 *      the words of this release, which a change-over wrote
 *   9  words_len is not VOKHSAOT_WORDS
 */
uint32_t vokhsaot_change_over(const uint64_t *old_words, size_t old_words_len, uint64_t *words, size_t words_len);

#ifdef __cplusplus
}
#endif

#endif
