/*
 * A running unit changes over from a release before 0.4.0, whose records hold no f: its job that is half done goes on, with the pixels
 * that it would have had, beside new ones. The words and the store that the earlier release left are written out here; in a unit they
 * are the ones that it keeps.
 *
 * Build it with the installed library:
 *   gcc -std=c11 change_over.c $(pkg-config --cflags --libs vokhsaot) -o change_over
 */
#include <vokhsaot.h>

#include <inttypes.h>
#include <stdio.h>
#include <stdlib.h>
#include <string.h>

static uint64_t old_words[VOKHSAOT_OLD_WORDS];
static uint64_t words[VOKHSAOT_WORDS];
/* The store stays the same: the change-over is not lent it. */
static uint16_t store[VOKHSAOT_STORE_PIXELS];

/* Ends the program where a call was refused that must not be. */
static void accept(const char *what, uint32_t number) {
    if (number != 0) {
        fprintf(stderr, "%s: refusal %" PRIu32 ": %s\n", what, number, vokhsaot_refusal_text(number));
        exit(1);
    }
}

/*
 * What the earlier release left: job 5 in seat 1 has 3 x 3 pixels, 1600 in the middle at first, and one of its two steps is done. So its
 * current picture stands in the second buffer of its seat.
 */
static void leave_a_running_unit(void) {
    static const uint64_t job[VOKHSAOT_OLD_SEAT_WORDS] = {5, 4096, 0, 4096, 2, 1, 3, 3};
    static const uint64_t last_number_filled_served[3] = {6, 2, 1};
    static const uint16_t first_step[9] = {0, 400, 0, 400, 0, 400, 0, 400, 0};

    memcpy(old_words + 1 * VOKHSAOT_OLD_SEAT_WORDS, job, sizeof job);
    memcpy(old_words + VOKHSAOT_SEATS * VOKHSAOT_OLD_SEAT_WORDS, last_number_filled_served, sizeof last_number_filled_served);
    memcpy(store + 3 * VOKHSAOT_BUFFER_PIXELS, first_step, sizeof first_step);
}

/* Whether the new words have all that the old ones have, and f 0 in every empty seat. */
static int is_carried_over(uint32_t old_free_buffers) {
    uint32_t free_buffers;

    accept("free count", vokhsaot_free_count(words, VOKHSAOT_WORDS, &free_buffers));
    for (size_t seat = 0; seat < VOKHSAOT_SEATS; seat++) {
        const uint64_t *now = words + seat * VOKHSAOT_SEAT_WORDS;
        if (memcmp(now, old_words + seat * VOKHSAOT_OLD_SEAT_WORDS, VOKHSAOT_OLD_SEAT_WORDS * sizeof *now) != 0
            || (now[VOKHSAOT_SEAT_JOB] == 0 && now[VOKHSAOT_SEAT_F] != 0)) {
            return 0;
        }
    }
    return free_buffers == old_free_buffers
           && memcmp(words + VOKHSAOT_WORD_LAST_NUMBER, old_words + VOKHSAOT_SEATS * VOKHSAOT_OLD_SEAT_WORDS, 3 * sizeof *words) == 0;
}

/* A new job with the shape and the picture of job 5, by a choice. */
static void submit_by(uint32_t choice, const char *name) {
    static const uint16_t spot[9] = {0, 0, 0, 0, 1600, 0, 0, 0, 0};
    uint64_t job;

    accept("submit", vokhsaot_submit_matrix_by(words, VOKHSAOT_WORDS, store, VOKHSAOT_STORE_PIXELS, choice, 4096, 0, 4096, 2, 3, 3, spot,
                                               9, &job));
    printf("submitted job %" PRIu64 ", %s\n", job, name);
}

/* Collects the finished job of a seat and prints its picture in one line. */
static void collect_and_print(size_t seat) {
    const uint64_t *now = words + seat * VOKHSAOT_SEAT_WORDS;
    const uint64_t f = now[VOKHSAOT_SEAT_F];
    uint16_t picture[9];
    uint64_t job;

    accept("collect", vokhsaot_collect(words, VOKHSAOT_WORDS, store, VOKHSAOT_STORE_PIXELS, now[VOKHSAOT_SEAT_JOB], picture, 9, &job));
    printf("job %" PRIu64 ", f %" PRIu64 ":", job, f);
    for (size_t place = 0; place < 9; place++) {
        printf(" %u", (unsigned)picture[place]);
    }
    printf("\n");
}

int main(void) {
    uint64_t served;
    uint32_t number;

    leave_a_running_unit();
    /* Damaged words are refused, and nothing is written: the earlier release could go on. */
    old_words[64] = 4;
    number = vokhsaot_change_over(old_words, VOKHSAOT_OLD_WORDS, words, VOKHSAOT_WORDS);
    printf("last number 4: refusal %" PRIu32 ": %s\n", number, vokhsaot_refusal_text(number));
    old_words[64] = 6;

    accept("change-over", vokhsaot_change_over(old_words, VOKHSAOT_OLD_WORDS, words, VOKHSAOT_WORDS));
    /* The earlier release has 14 free buffers with one job held. */
    printf("changed over, every field is as it was: %s\n", is_carried_over(14) ? "yes" : "no");

    submit_by(VOKHSAOT_BINOMIAL, "binomial");
    submit_by(VOKHSAOT_SMALLEST, "smallest");
    do {
        accept("tick", vokhsaot_tick(words, VOKHSAOT_WORDS, store, VOKHSAOT_STORE_PIXELS, &served));
        if (served != 0) {
            printf("tick: a step of job %" PRIu64 "\n", served);
        }
    } while (served != 0);
    collect_and_print(1);
    collect_and_print(3);
    collect_and_print(4);
    return 0;
}
