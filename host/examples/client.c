/* A client on standard input and output: it logs on, beats, asks for ticks 1 and 2 of channel 100
 * again, and leaves once the gateway has answered that. Status 0 after the gateway's logout.
 *
 *     client [MS]     MS: by this client's clock, so many milliseconds from one arrival to the next
 *
 * A session has no clock: time is an argument of its calls. So beats can be seen without waiting.
 * */
#define _POSIX_C_SOURCE 200809L
#include "rietknoest.h"
#include <poll.h>
#include <stdlib.h>
#include <string.h>
#include <time.h>
#include <unistd.h>

enum { LOGON = 0x53303031, LOGOUT = 0x53303032, RESEND = 0x50303032 };

static uint64_t step; /* the MS of the command line; 0: the machine's clock */

static uint64_t clock_ms(void) {
    static uint64_t now;
    struct timespec t;
    if (step) return now += step;
    clock_gettime(CLOCK_MONOTONIC, &t);
    return (uint64_t)t.tv_sec * 1000 + (uint64_t)t.tv_nsec / 1000000;
}

/* Sends what the session says; the bodies are this client's own. */
static void send_frame(uint64_t type, uint64_t seq) {
    uint8_t body[260] = {0}, out[288];
    uint64_t len;
    if (type == LOGON) memset(body, 'x', 74), body[64] = 0, body[65] = 30;
    if (type == RESEND) body[1] = 100, body[2] = 1, body[10] = 1, body[18] = 2;
    size_t size = type == LOGON ? 74 : type == LOGOUT ? 260 : type == RESEND ? 52 : 0;
    if (type == 0 || rk_write((uint32_t)type, 20260121093000000, seq, body, size, out, sizeof out, &len) != RK_DONE) return;
    if (write(1, out, len) != (ssize_t)len) _exit(1);
}

/* Lets time pass: a heartbeat if one is due. 0 once the line is dead. */
static int pass(rk_session *s, uint64_t now) {
    rk_turn t;
    if (rk_session_time(s, now, &t) != RK_DONE || t.dead) return 0;
    send_frame(t.msg_type, t.seq);
    return 1;
}

int main(int count, char **words) {
    static uint8_t in[16384];
    size_t have = 0;
    rk_session s;
    rk_turn t;
    rk_arrival a;
    if (count > 1) step = strtoull(words[1], NULL, 10);
    rk_session_open(&s);
    if (rk_session_begin(&s, clock_ms(), &t) == RK_DONE) send_frame(t.msg_type, t.seq);
    for (;;) {
        struct pollfd ready = {0, POLLIN, 0};
        if (poll(&ready, 1, step ? -1 : 1000) > 0) {
            ssize_t n = read(0, in + have, sizeof in - have);
            if (n <= 0) return 1;
            have += (size_t)n;
        }
        uint32_t code;
        uint64_t now = clock_ms();
        while ((code = rk_session_receive(&s, now, in, have, &a)) == RK_DONE) {
            rk_frame f;
            rk_read(in, have, 0, &f);
            send_frame(a.msg_type, a.seq);
            memmove(in, in + a.len, have -= a.len);
            if (f.msg_type == LOGOUT) return 0;
            if (!pass(&s, now)) return 1;
            /* a host with a ledger calls rk_session_may_send and rk_ledger_request before this */
            if (f.msg_type == LOGON && rk_session_ask(&s, now, &t) == RK_DONE) send_frame(t.msg_type, t.seq);
            if (f.msg_type == RESEND && rk_session_leave(&s, now, &t) == RK_DONE) send_frame(t.msg_type, t.seq);
        }
        if (code != RK_MORE || !pass(&s, now)) return 1;
    }
}
