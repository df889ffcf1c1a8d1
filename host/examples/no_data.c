/* The exchange has no data: what a reply of status 4 gives up, and what is then to be delivered. */
#include "rietknoest.h"
#include <inttypes.h>
#include <stdio.h>

static void tell(const char *what, uint64_t first, const uint64_t set[4]) {
    printf("%s:", what);
    for (uint64_t n = first; n < first + 256; n++)
        if (RK_IN(set, n)) printf(" %" PRIu64, n);
    printf("\n");
}

int main(void) {
    rk_ledger ledger = {0};
    rk_passed passed;
    rk_request asked;
    rk_settled settled;
    if (rk_ledger_open(100, &ledger) != RK_DONE) return 1;
    if (rk_ledger_tick(&ledger, 100, 1, &passed) != RK_DONE) return 1;
    if (rk_ledger_tick(&ledger, 100, 4, &passed) != RK_DONE) return 1;
    if (rk_ledger_request(&ledger, 100, &asked) != RK_DONE) return 1;
    if (rk_ledger_reply(&ledger, 100, asked.first, 4, &settled) != RK_DONE) return 1;
    tell("given up", settled.first, settled.given_up);
    tell("deliver", settled.first, settled.passed);
    return 0;
}
