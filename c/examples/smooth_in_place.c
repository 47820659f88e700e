/*
 * Smooths a small picture where it stands, as on a board that holds one picture only: prints what the run leaves in it. At the end it
 * lends a picture of a wrong length, and prints the refusal and that nothing has changed.
 *
 * Build it with the installed library:
 *   gcc -std=c11 smooth_in_place.c $(pkg-config --cflags --libs vokhsaot) -o smooth_in_place
 */
#include <vokhsaot.h>

#include <inttypes.h>
#include <stdio.h>

#define WIDTH 5
#define HEIGHT 4
#define PIXELS (WIDTH * HEIGHT)

/* How far a pixel is spread, in square pixels, and in how many steps. */
#define VARIANCE 1.0
#define STEPS 3

/* The one picture of the board. A run keeps two lines of 1024 pixels on its stack, and needs no other memory. */
static uint16_t picture[PIXELS] = {
    0, 0,    0, 0, 0,
    0, 0, 9000, 0, 0,
    0, 0,    0, 0, 0,
    0, 0,    0, 0, 0,
};

static void print_picture(void) {
    for (int row = 0; row < HEIGHT; row++) {
        for (int column = 0; column < WIDTH; column++) {
            printf("%6u", (unsigned)picture[row * WIDTH + column]);
        }
        printf("\n");
    }
}

int main(void) {
    printf("before:\n");
    print_picture();

    uint32_t number = vokhsaot_run_in_place_round(VARIANCE, STEPS, WIDTH, HEIGHT, picture, PIXELS);
    if (number != 0) {
        fprintf(stderr, "run: refusal %" PRIu32 ": %s\n", number, vokhsaot_refusal_text(number));
        return 1;
    }
    /* For any number of steps the last one stands here: there is no other picture to ask vokhsaot_shown() about. */
    printf("after %d steps, in the same picture:\n", STEPS);
    print_picture();

    /* A row too few is said to be lent: this is refused, and the picture stays as it is. */
    number = vokhsaot_run_in_place_round(VARIANCE, STEPS, WIDTH, HEIGHT, picture, PIXELS - WIDTH);
    printf("a length of %d pixels: refusal %" PRIu32 ": %s\n", PIXELS - WIDTH, number, vokhsaot_refusal_text(number));
    printf("after the refusal:\n");
    print_picture();
    return number == VOKHSAOT_WRONG_LENGTH ? 0 : 1;
}
