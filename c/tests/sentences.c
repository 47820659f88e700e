/* Prints the sentence of each refusal, a line each: run.sh compares them with those of the Rust crate. */
#include "vokhsaot.h"

#include <stdio.h>

int main(void) {
    for (uint32_t number = 1; number <= VOKHSAOT_CANNOT_GO_BACK; number++) {
        puts(vokhsaot_refusal_text(number));
    }
    return 0;
}
