/*
 * The service: opens it, submits two jobs, ticks until no job has steps left, and collects both pictures. On the way it collects too
 * early, and goes on after the refusal.
 *
 * Build it with the installed library:
 *   gcc -std=c11 service.c $(pkg-config --cflags --libs vokhsaot) -o service
 */
#include <vokhsaot.h>

#include <inttypes.h>
#include <stdio.h>
#include <stdlib.h>

/* The service is these two, kept together and lent to each call. The store may hold anything at the opening. */
static uint64_t words[VOKHSAOT_WORDS];
static uint16_t store[VOKHSAOT_STORE_PIXELS];

/* Ends the program where a call was refused that must not be. */
static void accept(const char *what, uint32_t number) {
    if (number != 0) {
        fprintf(stderr, "%s: refusal %" PRIu32 ": %s\n", what, number, vokhsaot_refusal_text(number));
        exit(1);
    }
}

/* One of the words of a seat: VOKHSAOT_SEAT_STEPS_LEFT or another. */
static uint64_t seat_word(size_t seat, size_t which) {
    return words[seat * VOKHSAOT_SEAT_WORDS + which];
}

static void print_jobs(void) {
    for (size_t seat = 0; seat < VOKHSAOT_SEATS; seat++) {
        const uint64_t job = seat_word(seat, VOKHSAOT_SEAT_JOB);
        if (job != 0) {
            printf("  seat %zu: job %" PRIu64 ", %" PRIu64 " x %" PRIu64 " pixels, xy %" PRId32 ", %" PRIu64 " of %" PRIu64
                   " steps left\n",
                   seat, job, seat_word(seat, VOKHSAOT_SEAT_WIDTH), seat_word(seat, VOKHSAOT_SEAT_HEIGHT),
                   vokhsaot_signed_word(seat_word(seat, VOKHSAOT_SEAT_XY)), seat_word(seat, VOKHSAOT_SEAT_STEPS_LEFT),
                   seat_word(seat, VOKHSAOT_SEAT_STEPS));
        }
    }
}

/* Collects a finished job and prints its picture. How large it is stands in the record. */
static void collect_and_print(uint64_t job) {
    static uint16_t picture[VOKHSAOT_BUFFER_PIXELS];
    const size_t seat = vokhsaot_seat_of(words, VOKHSAOT_WORDS, job);
    uint64_t number;
    size_t width, height;

    if (seat == VOKHSAOT_SEATS) {
        fprintf(stderr, "no seat has job %" PRIu64 "\n", job);
        exit(1);
    }
    width = (size_t)seat_word(seat, VOKHSAOT_SEAT_WIDTH);
    height = (size_t)seat_word(seat, VOKHSAOT_SEAT_HEIGHT);
    accept("collect", vokhsaot_collect(words, VOKHSAOT_WORDS, store, VOKHSAOT_STORE_PIXELS, job, picture, width * height,
                                       &number));
    printf("job %" PRIu64 ":\n", number);
    for (size_t place = 0; place < width * height; place++) {
        printf("%5u%s", (unsigned)picture[place], place % width == width - 1 ? "\n" : "");
    }
}

int main(void) {
    const uint16_t spot[9] = {0, 0, 0, 0, 1600, 0, 0, 0, 0};
    const uint16_t edge[8] = {0, 0, 800, 800, 0, 0, 800, 800};
    uint16_t picture[9];
    uint64_t job_of_spot, job_of_edge, served;
    uint32_t number, free_buffers;

    accept("opening", vokhsaot_opening(words, VOKHSAOT_WORDS));
    /* A round shape of 1 square pixel in 3 steps; and a matrix that leans, in 2 steps. */
    accept("submit", vokhsaot_submit_round(words, VOKHSAOT_WORDS, store, VOKHSAOT_STORE_PIXELS, 1.0, 3, 3, 3, spot, 9,
                                           &job_of_spot));
    accept("submit", vokhsaot_submit_matrix(words, VOKHSAOT_WORDS, store, VOKHSAOT_STORE_PIXELS, 2048, -1024, 2048, 2, 4, 2,
                                            edge, 8, &job_of_edge));
    accept("free count", vokhsaot_free_count(words, VOKHSAOT_WORDS, &free_buffers));
    printf("submitted jobs %" PRIu64 " and %" PRIu64 ", %" PRIu32 " buffers are free\n", job_of_spot, job_of_edge, free_buffers);
    print_jobs();

    /* Too early: the refusal changes nothing, and the service goes on. */
    number = vokhsaot_collect(words, VOKHSAOT_WORDS, store, VOKHSAOT_STORE_PIXELS, job_of_spot, picture, 9, &served);
    if (number != VOKHSAOT_STEPS_ARE_LEFT) {
        fprintf(stderr, "a collect of a job with steps left is not refused\n");
        return 1;
    }
    printf("collect of job %" PRIu64 ": refusal %" PRIu32 ": %s\n", job_of_spot, number, vokhsaot_refusal_text(number));

    /* Each tick does one step of one job, in turn, and says whose; 0 where no job has steps left. */
    do {
        accept("tick", vokhsaot_tick(words, VOKHSAOT_WORDS, store, VOKHSAOT_STORE_PIXELS, &served));
        if (served != 0) {
            printf("tick: a step of job %" PRIu64 "\n", served);
        }
    } while (served != 0);
    print_jobs();

    collect_and_print(job_of_spot);
    collect_and_print(job_of_edge);
    return 0;
}
