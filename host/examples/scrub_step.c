/* Scrubs the STEP frame on standard input, a logon say: user name, password and the like become
 * spaces. */
#include "rietknoest.h"
#include <stdio.h>

int main(void) {
    uint8_t frame[8192];
    uint64_t told;
    uint32_t answer = rk_step_scrub(frame, fread(frame, 1, sizeof frame, stdin), &told);
    if (answer != RK_DONE) return fprintf(stderr, "refused: %u\n", answer), 1;
    return fwrite(frame, 1, told, stdout) != told;
}
