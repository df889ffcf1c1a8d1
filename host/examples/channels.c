/* Two channels on one line: what each is to be asked for, in turn. */
#include "rietknoest.h"
#include <inttypes.h>
#include <stdio.h>

int main(void) {
    rk_table table;
    rk_channel_request r;
    rk_settled s;
    rk_channels_none(&table);
    if (rk_channels_open(&table, 100) || rk_channels_open(&table, 101)) return 1;
    if (rk_channels_announce(&table, 100, 3) || rk_channels_announce(&table, 101, 5)) return 1;
    for (int i = 0; i < 3 && rk_channels_request(&table, &r) == RK_DONE; i++) {
        printf("ask channel %" PRIu64 " for %" PRIu64 " to %" PRIu64 "\n", r.channel, r.first, r.last);
        if (rk_channels_reply(&table, (uint16_t)r.channel, r.first, 1, &s) != RK_DONE) return 1;
    }
    return 0;
}
