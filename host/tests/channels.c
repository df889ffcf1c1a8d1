/* Calls every name of the header's table of channels, as the lines on standard input ask, and
 * prints each answer with what was told, then the table. Each line is a name and its numbers. The
 * table is lent with known numbers around it; one that changes, a told row that is written beside a
 * refusal, a table that a refusal changes (12 may change it), and a row that tells something else
 * when it is lent as a ledger end the program with status 3. */
#include "rietknoest.h"
#include <inttypes.h>
#include <stdio.h>
#include <stdlib.h>
#include <string.h>

static char name[32];

static void insist(int holds, const char *what) {
    if (holds) return;
    fprintf(stderr, "%s: %s\n", name, what);
    exit(3);
}

static uint64_t number(void) {
    uint64_t n;
    insist(scanf("%" SCNu64, &n) == 1, "a number is missing");
    return n;
}

static struct {
    uint64_t before;
    rk_table row;
    uint64_t after;
} table;

/* What a call tells, with known bytes in it. */
static union {
    rk_passed passed;
    rk_channel_request request;
    rk_settled settled;
    rk_told told;
    uint64_t count;
    uint64_t numbers[9];
} told;

/* Prints the answer, and so many numbers that were told beside 0. */
static void answered(uint32_t answer, int numbers) {
    printf("%" PRIu32, answer);
    for (int i = 0; i < 9; i++) {
        if (answer == RK_DONE && i < numbers) printf(" %" PRIu64, told.numbers[i]);
        else insist(told.numbers[i] == UINT64_C(0xA5A5A5A5A5A5A5A5), "a row written that should be kept");
    }
}

/* Whether the row of an open channel, lent as a ledger, tells what the table told of it. */
static int row_tells(uint64_t channel) {
    int rows = 0, same = 0;
    for (int i = 0; i < 32; i++) {
        rk_told beside;
        if ((table.row.used >> i & 1) == 0 || table.row.channels[i] != channel) continue;
        rows++;
        same += rk_ledger_told(&table.row.rows[i], &beside) == RK_DONE && memcmp(&beside, &told.told, sizeof beside) == 0;
    }
    return rows == 1 && same == 1;
}

int main(void) {
    memset(&table, 0xA5, sizeof table);
    while (scanf("%31s", name) == 1) {
        static rk_table was;
        uint32_t answer = RK_DONE;
        was = table.row;
        memset(&told, 0xA5, sizeof told);
        if (strcmp(name, "none") == 0) {
            rk_channels_none(&table.row);
        } else if (strcmp(name, "numbers") == 0) {
            uint64_t all[334];
            for (int i = 0; i < 334; i++) all[i] = number();
            memcpy(&table.row, all, sizeof all);
        } else if (strcmp(name, "open") == 0) {
            answered(answer = rk_channels_open(&table.row, (uint16_t)number()), 0);
        } else if (strcmp(name, "close") == 0) {
            answered(answer = rk_channels_close(&table.row, (uint16_t)number()), 0);
        } else if (strcmp(name, "tick") == 0) {
            uint16_t channel = (uint16_t)number();
            answered(answer = rk_channels_tick(&table.row, channel, number(), &told.passed), 2);
        } else if (strcmp(name, "announce") == 0) {
            uint16_t channel = (uint16_t)number();
            answered(answer = rk_channels_announce(&table.row, channel, number()), 0);
        } else if (strcmp(name, "request") == 0) {
            answered(answer = rk_channels_request(&table.row, &told.request), 3);
        } else if (strcmp(name, "reply") == 0) {
            uint16_t channel = (uint16_t)number();
            uint64_t first = number();
            answered(answer = rk_channels_reply(&table.row, channel, first, (uint8_t)number(), &told.settled), 9);
        } else if (strcmp(name, "missing") == 0) {
            uint16_t channel = (uint16_t)number();
            uint64_t a = number();
            answered(answer = rk_channels_missing(&table.row, channel, a, number(), &told.count), 1);
        } else if (strcmp(name, "renew") == 0) {
            answered(answer = rk_channels_renew(&table.row), 0);
        } else if (strcmp(name, "told") == 0) {
            uint16_t channel = (uint16_t)number();
            answered(answer = rk_channels_told(&table.row, channel, &told.told), 7);
            insist(memcmp(&was, &table.row, sizeof was) == 0, "the table changed");
            if (answer == RK_DONE) insist(row_tells(channel), "the channel's row tells something else");
        } else {
            insist(0, "no such name");
        }
        insist(table.before == UINT64_C(0xA5A5A5A5A5A5A5A5) && table.after == table.before, "numbers around the table written");
        insist(answer == RK_DONE || answer == RK_FAR || memcmp(&was, &table.row, sizeof was) == 0, "a refusal changed the table");
        uint64_t all[334];
        memcpy(all, &table.row, sizeof all);
        printf(" :");
        for (int i = 0; i < 334; i++) printf(" %" PRIu64, all[i]);
        printf("\n");
    }
    return 0;
}
