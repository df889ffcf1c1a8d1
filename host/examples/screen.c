/* For a screen: how many of 1 to 1000 are missing, once 1 and 4 came and 6 was announced. */
#include "rietknoest.h"
#include <inttypes.h>
#include <stdio.h>

int main(void) {
    rk_ledger ledger = {0};
    rk_passed passed;
    uint64_t count;
    if (rk_ledger_open(100, &ledger) != RK_DONE) return 1;
    if (rk_ledger_tick(&ledger, 100, 1, &passed) != RK_DONE) return 1;
    if (rk_ledger_tick(&ledger, 100, 4, &passed) != RK_DONE) return 1;
    if (rk_ledger_announce(&ledger, 100, 6) != RK_DONE) return 1;
    if (rk_ledger_missing(&ledger, 100, 1, 1000, &count) != RK_DONE) return 1;
    return printf("%" PRIu64 " of 1 to 1000 are missing\n", count) < 0;
}
