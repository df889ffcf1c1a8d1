/* How much stack each call takes, in bytes, over the capture on standard input: the bytes below the
 * caller's frame are painted, and those that the call has changed are counted. A call that takes
 * more or less by its input is made over the sample, which has every kind of frame and damage. */
#include "rietknoest.h"
#include <pthread.h>
#include <stdio.h>
#include <stdlib.h>
#include <string.h>

enum { STACK = 1 << 20, OWN = 256, PAINT = 0xA5 };

static uint8_t capture[1 << 16], out[1 << 16], records[RK_RECORDS_ROOM(1 << 16)], text[1 << 20];
static uint8_t *stack;
static size_t len;

/* The bytes below this frame, but for some of its own: less than these is not told apart. */
__attribute__((noinline)) static void paint(void) {
    uint8_t *top = (uint8_t *)__builtin_frame_address(0) - OWN;
    for (volatile uint8_t *at = stack; at < top; at++) *at = PAINT;
}

__attribute__((noinline)) static void count(const char *name, uint8_t *frame) {
    uint8_t *at = stack;
    while (at < frame && *at == PAINT) at++;
    printf("%s %zu\n", name, (size_t)(frame - at) + OWN);
}

#define CALL(name, ...)                                            \
    do {                                                           \
        paint();                                                   \
        (void)name(__VA_ARGS__);                                   \
        count(#name, (uint8_t *)__builtin_frame_address(0) - OWN); \
    } while (0)

static void *calls(void *unused) {
    static rk_frame frame;
    static rk_found found;
    static rk_span span;
    static rk_field field;
    static rk_broken broken;
    static rk_reading reading;
    static rk_md_entry entry;
    static rk_ledger ledger;
    static rk_passed passed;
    static rk_request request;
    static rk_settled settled;
    static rk_told told;
    static rk_counts counts;
    static rk_cleaned cleaned;
    static rk_stream stream;
    static rk_fed fed;
    static rk_scrubbed scrubbed;
    static rk_step_frame step;
    static rk_step_field_at step_field;
    static rk_session session;
    static rk_turn turn;
    static rk_arrival arrival;
    static rk_table table;
    static rk_exchange exchange;
    static rk_month month;
    static rk_month_figures figures;
    static const uint16_t named[] = {100, 101};
    static uint64_t number;
    static const uint8_t logon[] = "8=FIXT.1.1\0019=5\00135=0\00110=161\001";
    /* the sample's M201 at 823 and M102 at 416 */
    const uint8_t *tick = capture + 823 + 24, *snapshot = capture + 416 + 24;

    CALL(rk_read, capture, len, 823, &frame);
    CALL(rk_write, RK_M201, 20260121093000000, 1, tick, 184, out, sizeof out, &number);
    CALL(rk_search, capture, len, 1, &found);
    memcpy(out, capture, len);
    CALL(rk_scrub, out, len, &number);
    CALL(rk_private, RK_M201, tick, 184, 0, &span);
    CALL(rk_tail_field, tick, 184, 3, &field);
    CALL(rk_broken_field, RK_M201, tick, 184, &broken);
    CALL(rk_broken_field, RK_M102, snapshot, 130, &broken);
    CALL(rk_entries, snapshot, 130, &number);
    CALL(rk_entry, snapshot, 130, 73, &entry);
    CALL(rk_ledger_open, 100, &ledger);
    CALL(rk_ledger_tick, &ledger, 100, 3, &passed);
    CALL(rk_ledger_announce, &ledger, 100, 9);
    CALL(rk_ledger_request, &ledger, 100, &request);
    CALL(rk_ledger_reply, &ledger, 100, 1, 4, &settled);
    CALL(rk_ledger_told, &ledger, &told);
    CALL(rk_ledger_missing, &ledger, 100, 1, 9, &number);
    CALL(rk_ledger_renew, &ledger);
    CALL(rk_walk, capture, len, records, sizeof records, &ledger, &counts);
    CALL(rk_record, records, sizeof records, &reading);
    CALL(rk_lines, records, (size_t)counts.records * 64, text, sizeof text, &number);
    CALL(rk_listing, records, (size_t)counts.records * 64, counts.frames, counts.refused, &ledger, text, sizeof text, &number);
    CALL(rk_clean, capture, len, out, sizeof out, &cleaned);
    CALL(rk_is_clean, capture, len, &found);
    CALL(rk_is_clean, out, (size_t)cleaned.bytes, &found);
    CALL(rk_stream_open, RK_STREAM(&stream));
    CALL(rk_stream_feed, RK_STREAM(&stream), capture, len, records, sizeof records, &fed);
    CALL(rk_stream_close, RK_STREAM(&stream), records, sizeof records, &fed);
    rk_stream_open(RK_STREAM(&stream));
    CALL(rk_stream_clean, RK_STREAM(&stream), capture, len, out, sizeof out, &scrubbed);
    CALL(rk_stream_clean_close, RK_STREAM(&stream), out, sizeof out, &scrubbed);
    /* a frame of 8,192 bytes, then the sample, in cuts that end within frames; each first without
     * room, so that it is counted */
    rk_write(RK_M101, 20260121093000000, 1, text, 8164, out, sizeof out, &number);
    memmove(capture + number, capture, len);
    memcpy(capture, out, (size_t)number);
    len += (size_t)number;
    rk_stream_open(RK_STREAM(&stream));
    for (size_t at = 0; at < len; at += 5000) {
        size_t cut = len - at < 5000 ? len - at : 5000;
        CALL(rk_stream_feed, RK_STREAM(&stream), capture + at, cut, records, 0, &fed);
        CALL(rk_stream_feed, RK_STREAM(&stream), capture + at, cut, records, sizeof records, &fed);
    }
    CALL(rk_stream_close, RK_STREAM(&stream), records, 0, &fed);
    CALL(rk_stream_close, RK_STREAM(&stream), records, sizeof records, &fed);
    rk_stream_open(RK_STREAM(&stream));
    for (size_t at = 0; at < len; at += 5000) {
        size_t cut = len - at < 5000 ? len - at : 5000;
        CALL(rk_stream_clean, RK_STREAM(&stream), capture + at, cut, out, 0, &scrubbed);
        CALL(rk_stream_clean, RK_STREAM(&stream), capture + at, cut, out, sizeof out, &scrubbed);
    }
    CALL(rk_stream_clean_close, RK_STREAM(&stream), out, 0, &scrubbed);
    CALL(rk_stream_clean_close, RK_STREAM(&stream), out, sizeof out, &scrubbed);
    CALL(rk_step_read, logon, sizeof logon - 1, 0, &step);
    CALL(rk_step_field, logon, sizeof logon - 1, 0, &step_field);
    CALL(rk_step_write, '0', logon, 0, out, sizeof out, &number);
    memcpy(out, logon, sizeof logon);
    CALL(rk_step_scrub, out, sizeof logon - 1, &number);
    CALL(rk_market_check, capture, len);
    CALL(rk_market_values, capture, len, out, sizeof out);
    CALL(rk_market_write, capture, len, out, sizeof out);
    CALL(rk_session_open, &session);
    CALL(rk_session_begin, &session, 1, &turn);
    CALL(rk_session_receive, &session, 2, capture, len, &arrival);
    CALL(rk_session_time, &session, 3, &turn);
    CALL(rk_session_may_send, &session, 4);
    CALL(rk_session_ask, &session, 5, &turn);
    CALL(rk_session_leave, &session, 6, &turn);
    CALL(rk_month_start, named, 2, &month);
    CALL(rk_month_add, &month, capture, len, &figures);
    rk_channels_none(&table);
    rk_channels_open(&table, 100);
    exchange.code = 2;
    exchange.channel = 100;
    exchange.number = 3;
    CALL(rk_channels, &table, &exchange);
    exchange.code = 4;
    CALL(rk_channels, &table, &exchange);
    return unused;
}

int main(void) {
    pthread_attr_t attributes;
    pthread_t thread;
    len = fread(capture, 1, sizeof capture, stdin);
    if (posix_memalign((void **)&stack, 1 << 16, STACK) != 0) return 1;
    if (pthread_attr_init(&attributes) != 0 || pthread_attr_setstack(&attributes, stack, STACK) != 0) return 1;
    if (pthread_create(&thread, &attributes, calls, NULL) != 0 || pthread_join(thread, NULL) != 0) return 1;
    return 0;
}
