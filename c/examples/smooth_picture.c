/*
 * Smooths a small picture by two steps of a round shape: prints the kernel, and the picture that the run leaves. At the end it asks for
 * more than so many steps can do, and prints the refusal.
 *
 * Build it with the installed library:
 *   gcc -std=c11 smooth_picture.c $(pkg-config --cflags --libs vokhsaot) -o smooth_picture
 */
#include <vokhsaot.h>

#include <inttypes.h>
#include <stdio.h>

#define WIDTH 5
#define HEIGHT 4
#define PIXELS (WIDTH * HEIGHT)

/* How far a pixel is spread, in square pixels, and in how many steps. */
#define VARIANCE 1.0
#define STEPS 2

/* Prints what was refused and why. Returns the program's exit status. */
static int refused(const char *what, uint32_t number) {
    fprintf(stderr, "%s: refusal %" PRIu32 ": %s\n", what, number, vokhsaot_refusal_text(number));
    return 1;
}

static void print_kernel(const uint64_t *numbers) {
    printf("kernel, of %" PRIu64 ":\n", numbers[0]);
    for (int row = 0; row < 3; row++) {
        const uint64_t *weights = numbers + 1 + 3 * row;
        printf("%6" PRIu64 "%6" PRIu64 "%6" PRIu64 "\n", weights[0], weights[1], weights[2]);
    }
}

static void print_picture(const uint16_t *pixels) {
    for (int row = 0; row < HEIGHT; row++) {
        for (int column = 0; column < WIDTH; column++) {
            printf("%6u", (unsigned)pixels[row * WIDTH + column]);
        }
        printf("\n");
    }
}

int main(void) {
    uint16_t first[PIXELS] = {
        0, 0,    0, 0, 0,
        0, 0, 9000, 0, 0,
        0, 0,    0, 0, 0,
        0, 0,    0, 0, 0,
    };
    /* A run goes to and fro between two pictures; what the second holds before does not matter. */
    uint16_t second[PIXELS];
    uint64_t numbers[VOKHSAOT_KERNEL_NUMBERS];
    uint32_t shown;

    uint32_t number = vokhsaot_kernel_round(VARIANCE, STEPS, numbers, VOKHSAOT_KERNEL_NUMBERS);
    if (number != 0) {
        return refused("kernel", number);
    }
    print_kernel(numbers);

    number = vokhsaot_run_round(VARIANCE, STEPS, WIDTH, HEIGHT, first, PIXELS, second, PIXELS);
    if (number != 0) {
        return refused("run", number);
    }
    /* The last step stands in the first picture or in the second. */
    number = vokhsaot_shown(STEPS, &shown);
    if (number != 0) {
        return refused("shown", number);
    }
    printf("after %d steps, in the %s picture:\n", STEPS, shown == 0 ? "first" : "second");
    print_picture(shown == 0 ? first : second);

    /* One step spreads by at most one square pixel: this is refused, and both pictures stay as they are. */
    number = vokhsaot_run_round(2.5, STEPS, WIDTH, HEIGHT, first, PIXELS, second, PIXELS);
    printf("a variance of 2.5 in %d steps: refusal %" PRIu32 ": %s\n", STEPS, number, vokhsaot_refusal_text(number));
    return number == VOKHSAOT_NO_KERNEL ? 0 : 1;
}
