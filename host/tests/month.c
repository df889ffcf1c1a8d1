/* Calls both functions of the header's page over a month, as the lines on standard input ask, and
 * prints each answer, then what was told and the page. A line is `start` and channels, how many of
 * them first; or `add` and bytes, how many of them first. Page and told row are lent with known
 * numbers around them; one that changes, and a page or a row that a refusal changes, end the
 * program with status 3. */
#include "rietknoest.h"
#include <inttypes.h>
#include <stdio.h>
#include <stdlib.h>
#include <string.h>

static void insist(int holds, const char *what) {
    if (holds) return;
    fprintf(stderr, "%s\n", what);
    exit(3);
}

static uint64_t number(void) {
    uint64_t n;
    insist(scanf("%" SCNu64, &n) == 1, "a number is missing");
    return n;
}

static struct {
    uint64_t before;
    rk_month row;
    uint64_t between;
    rk_month_figures told;
    uint64_t after;
} lent;

static void shown(const rk_figures *f) {
    printf(" %" PRIu64 " %" PRIu64 " %" PRIu64 " %" PRIu64 " %" PRIu64 " %" PRIu64, f->received, f->repeated, f->far, f->missing, f->asked,
           f->unavailable);
}

int main(void) {
    const uint64_t known = UINT64_C(0xA5A5A5A5A5A5A5A5);
    char name[8];
    memset(&lent, 0xA5, sizeof lent);
    while (scanf("%7s", name) == 1) {
        size_t count = (size_t)number();
        rk_month was = lent.row;
        memset(&lent.told, 0xA5, sizeof lent.told);
        rk_month_figures untold = lent.told;
        uint32_t answer;
        if (strcmp(name, "start") == 0) {
            uint16_t channels[64];
            insist(count <= 64, "too many channels");
            for (size_t i = 0; i < count; i++) channels[i] = (uint16_t)number();
            answer = rk_month_start(channels, count, &lent.row);
            insist(memcmp(&untold, &lent.told, sizeof untold) == 0, "a start told figures");
        } else {
            uint8_t *capture = malloc(count + 1);
            insist(capture != NULL, "no memory");
            for (size_t i = 0; i < count; i++) capture[i] = (uint8_t)number();
            answer = rk_month_add(&lent.row, capture, count, &lent.told);
            free(capture);
            insist(answer == RK_DONE || memcmp(&untold, &lent.told, sizeof untold) == 0, "figures beside a refusal");
        }
        insist(lent.before == known && lent.between == known && lent.after == known, "numbers around the page written");
        insist(answer == RK_DONE || memcmp(&was, &lent.row, sizeof was) == 0, "a refusal changed the page");
        printf("%" PRIu32 " :", answer);
        if (answer == RK_DONE && strcmp(name, "add") == 0)
            for (uint64_t i = 0; i < lent.row.named; i++) shown(&lent.told.rows[i]);
        printf(" : %" PRIu64 " %" PRIu64, lent.row.named, lent.row.taken);
        for (uint64_t i = 0; i < lent.row.named && i < 32; i++) {
            printf(" %" PRIu64, lent.row.channels[i]);
            shown(&lent.row.sums[i]);
        }
        printf("\n");
    }
    return 0;
}
