/* The exported calls of a faulty service, around the proved ones: the number in VOKHSAOT_FAULT says what is wrong. */

#include "vokhsaot.h"
#include <stdlib.h>
#include <string.h>

uint32_t proved_opening(uint64_t *words, size_t words_len);
uint32_t proved_tick(uint64_t *words, size_t words_len, uint16_t *store, size_t store_len, uint64_t *number);
uint32_t proved_collect(uint64_t *words, size_t words_len, const uint16_t *store, size_t store_len, uint64_t job,
                        uint16_t *picture, size_t picture_len, uint64_t *number);
uint32_t proved_withdraw(uint64_t *words, size_t words_len, uint64_t job, uint64_t *number);
uint32_t proved_free_count(const uint64_t *words, size_t words_len, uint32_t *count);
uint32_t proved_change_over(const uint64_t *old_words, size_t old_words_len, uint64_t *words, size_t words_len);
uint32_t proved_run_matrix_by(uint32_t choice, int32_t xx, int32_t xy, int32_t yy, uint32_t steps, uint32_t width,
                              uint32_t height, uint16_t *first, size_t first_len, uint16_t *second, size_t second_len);
uint32_t proved_run_in_place_matrix_by(uint32_t choice, int32_t xx, int32_t xy, int32_t yy, uint32_t steps, uint32_t width,
                                       uint32_t height, uint16_t *picture, size_t picture_len);
uint32_t proved_convert_j_to_n(const uint8_t *text, size_t text_len, uint8_t *out, size_t out_len);
uint32_t proved_convert_n_to_j(const uint8_t *text, size_t text_len, uint8_t *out, size_t out_len);

static int fault(void) {
    const char *number = getenv("VOKHSAOT_FAULT");
    return number == NULL ? 0 : atoi(number);
}

/* 1: all buffers are always free. 9: a free count that is no answer. */
uint32_t vokhsaot_free_count(const uint64_t *words, size_t words_len, uint32_t *count) {
    uint32_t code = proved_free_count(words, words_len, count);
    if (fault() == 1 && code == 0) {
        *count = 16;
    }
    return fault() == 9 ? 77 : code;
}

/* Does the only step of a job of one step again, by the smallest f, whatever its seat has: the job is the one in the first seat. */
static void step_by_the_smallest(const uint64_t *words, uint16_t *store) {
    uint16_t before[VOKHSAOT_BUFFER_PIXELS];
    size_t pixels = (size_t)(words[6] * words[7]);
    memcpy(before, store, sizeof before);
    proved_run_matrix_by(VOKHSAOT_SMALLEST, (int32_t)words[1], (int32_t)words[2], (int32_t)words[3], 1, (uint32_t)words[6],
                         (uint32_t)words[7], before, pixels, store + VOKHSAOT_BUFFER_PIXELS, pixels);
}

/* 2: every third tick is idle, whatever is left. 5: a step leaves the first pixel of the store's first odd buffer one too large.
   12: the step of a job of one step is by the smallest f, whatever its choice. */
uint32_t vokhsaot_tick(uint64_t *words, size_t words_len, uint16_t *store, size_t store_len, uint64_t *number) {
    static unsigned calls = 0;
    calls += 1;
    if (fault() == 2 && calls % 3 == 0) {
        *number = 0;
        return 0;
    }
    uint32_t code = proved_tick(words, words_len, store, store_len, number);
    if (fault() == 5 && code == 0 && *number != 0) {
        store[VOKHSAOT_BUFFER_PIXELS] += 1;
    }
    if (fault() == 12 && code == 0 && *number != 0 && words[0] == *number && words[4] == 1) {
        step_by_the_smallest(words, store);
    }
    return code;
}

/* 11: a run that does not heed the choice it is told. */
uint32_t vokhsaot_run_matrix_by(uint32_t choice, int32_t xx, int32_t xy, int32_t yy, uint32_t steps, uint32_t width,
                                uint32_t height, uint16_t *first, size_t first_len, uint16_t *second, size_t second_len) {
    return proved_run_matrix_by(fault() == 11 ? VOKHSAOT_BINOMIAL : choice, xx, xy, yy, steps, width, height, first, first_len, second,
                                second_len);
}

/* A run of one step that puts each new row in its place at once, so that the row below reads it. */
static uint32_t step_over_old_rows(uint32_t choice, int32_t xx, int32_t xy, int32_t yy, uint32_t width, uint32_t height,
                                   uint16_t *picture) {
    static uint16_t three[3 * VOKHSAOT_LONGEST_SIDE], made[3 * VOKHSAOT_LONGEST_SIDE];
    uint32_t code = 0;
    size_t row = width * sizeof *picture;
    /* Above the first row it reads that one as it was, as it should. */
    memcpy(three, picture, row);
    for (uint32_t y = 0; y < height && code == 0; y += 1) {
        uint16_t *here = picture + (size_t)y * width;
        memcpy(three + width, here, row);
        memcpy(three + 2 * (size_t)width, y + 1 < height ? here + width : here, row);
        code = proved_run_matrix_by(choice, xx, xy, yy, 1, width, 3, three, 3 * (size_t)width, made, 3 * (size_t)width);
        memcpy(here, made + width, row);
        memcpy(three, here, row);
    }
    return code;
}

/* Within one picture. 20: a run of one step writes each new row over the old one. 21: the choice is not heeded. 22: nothing is
   done. */
uint32_t vokhsaot_run_in_place_matrix_by(uint32_t choice, int32_t xx, int32_t xy, int32_t yy, uint32_t steps, uint32_t width,
                                         uint32_t height, uint16_t *picture, size_t picture_len) {
    if (fault() == 20 && steps == 1 && picture_len == (size_t)width * height) {
        return step_over_old_rows(choice, xx, xy, yy, width, height, picture);
    }
    if (fault() == 22) {
        return 0;
    }
    return proved_run_in_place_matrix_by(fault() == 21 ? VOKHSAOT_BINOMIAL : choice, xx, xy, yy, steps, width, height, picture,
                                         picture_len);
}

/* 3: no job is ever handed over. 4: the last pixel handed over is one too small. */
uint32_t vokhsaot_collect(uint64_t *words, size_t words_len, const uint16_t *store, size_t store_len, uint64_t job,
                          uint16_t *picture, size_t picture_len, uint64_t *number) {
    if (fault() == 3) {
        return 7;
    }
    uint32_t code = proved_collect(words, words_len, store, store_len, job, picture, picture_len, number);
    if (fault() == 4 && code == 0) {
        picture[picture_len - 1] -= 1;
    }
    return code;
}

/* 6: a number that is no refusal. 10: it never comes back. */
uint32_t vokhsaot_withdraw(uint64_t *words, size_t words_len, uint64_t job, uint64_t *number) {
    static volatile int forever = 1;
    while (fault() == 10 && forever) {
    }
    return fault() == 6 ? 99 : proved_withdraw(words, words_len, job, number);
}

/* 7: an opening that refuses. 8: one whose seat last served is another. */
uint32_t vokhsaot_opening(uint64_t *words, size_t words_len) {
    uint32_t code = proved_opening(words, words_len);
    if (fault() == 8 && code == 0) {
        words[VOKHSAOT_WORDS - 1] = 3;
    }
    return fault() == 7 ? 2 : code;
}

/* 13: the seat last served is forgotten. 14: it refuses every record. 15: a number that is no refusal. 16: every f is one more. */
uint32_t vokhsaot_change_over(const uint64_t *old_words, size_t old_words_len, uint64_t *words, size_t words_len) {
    if (fault() == 14) {
        return VOKHSAOT_RECORD_OUT_OF_ORDER;
    }
    uint32_t code = proved_change_over(old_words, old_words_len, words, words_len);
    if (fault() == 13 && code == 0) {
        words[VOKHSAOT_WORD_LAST_SERVED] = 7;
    }
    for (size_t seat = 0; fault() == 16 && code == 0 && seat < VOKHSAOT_SEATS; seat += 1) {
        words[seat * VOKHSAOT_SEAT_WORDS + VOKHSAOT_SEAT_F] += words[seat * VOKHSAOT_SEAT_WORDS] != 0;
    }
    return fault() == 15 ? 99 : code;
}

/* 17: the choice that is written down is b. 18: no text is a job. */
uint32_t vokhsaot_convert_j_to_n(const uint8_t *text, size_t text_len, uint8_t *out, size_t out_len) {
    if (fault() == 18) {
        return VOKHSAOT_TEXT_IS_NO_JOB;
    }
    uint32_t code = proved_convert_j_to_n(text, text_len, out, out_len);
    if (fault() == 17 && code == 0) {
        ((uint8_t *)memchr(out, '\n', out_len))[-1] = 'b';
    }
    return code;
}

/* 19: on the way back the text's last digit becomes a newline. */
uint32_t vokhsaot_convert_n_to_j(const uint8_t *text, size_t text_len, uint8_t *out, size_t out_len) {
    uint32_t code = proved_convert_n_to_j(text, text_len, out, out_len);
    if (fault() == 19 && code == 0) {
        out[out_len - 2] = '\n';
    }
    return code;
}
