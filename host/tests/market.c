/* Calls the functions for market files as C does: on the file of standard input it prints the
 * check's number and place; of a sound one then the values' number and count, and the number and
 * length of what is written from them, and whether that is the file. */
#include "rietknoest.h"
#include <inttypes.h>
#include <stdio.h>
#include <string.h>

static uint8_t file[1 << 17], values[1 << 17], again[1 << 17];

static void print(rk_finding f) { printf("%" PRIu64 " %" PRIu64 "\n", f.number, f.place); }

int main(void) {
    size_t len = fread(file, 1, sizeof file, stdin);
    rk_finding checked = rk_market_check(file, len);
    print(checked);
    if (checked.number != RK_DONE) return 0;
    rk_finding taken = rk_market_values(file, len, values, len);
    print(taken);
    rk_finding written = rk_market_write(values, taken.place, again, len);
    print(written);
    puts(written.place == len && memcmp(file, again, len) == 0 ? "same" : "other");
    return 0;
}
