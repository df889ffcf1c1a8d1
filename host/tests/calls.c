/* Calls every function of the header, but those for market files (market.c), the table of channels
 * (channels.c) and a month (month.c), as the lines on standard input ask, and prints each answer
 * with what was told. Each line is a function's name, its numbers, and its bytes in hexadecimal (-
 * for none). Rows and buffers are lent with known bytes in them and around them; a byte that
 * changes where the header says that none does ends the program with status 3. */
#include "rietknoest.h"
#include <inttypes.h>
#include <stdio.h>
#include <stdlib.h>
#include <string.h>

enum { GUARD = 64, MOST = 1 << 20 };

static const char *call;

static void insist(int holds, const char *what) {
    if (holds) return;
    fprintf(stderr, "%s: %s\n", call, what);
    exit(3);
}

/* LENT BYTES, WITH A GUARD ON BOTH SIDES */

typedef struct {
    uint8_t all[MOST + 2 * GUARD], was[MOST + 2 * GUARD];
    size_t len;
} lent;

static lent input, output;

static uint8_t *lend(lent *l, size_t len) {
    insist(len <= MOST, "too long for this test");
    l->len = len;
    memcpy(l->was, l->all, len + 2 * GUARD);
    return l->all + GUARD;
}

/* Whether all bytes from place `from` on, and those before the buffer, are as they were. */
static void kept_from(const lent *l, size_t from) {
    insist(from <= l->len, "more bytes told than lent");
    insist(memcmp(l->all, l->was, GUARD) == 0, "bytes before a buffer written");
    insist(memcmp(l->all + GUARD + from, l->was + GUARD + from, l->len - from + GUARD) == 0, "bytes written that should be kept");
}

static uint64_t number(void) {
    uint64_t n;
    insist(scanf("%" SCNu64, &n) == 1, "a number is missing");
    return n;
}

static uint8_t *bytes(void) {
    static char text[2 * MOST + 1];
    insist(scanf("%2097152s", text) == 1, "bytes are missing");
    size_t len = text[0] == '-' ? 0 : strlen(text) / 2;
    memset(input.all, 0x5A, len + 2 * GUARD);
    for (size_t i = 0; i < len; i++) {
        unsigned byte;
        insist(sscanf(text + 2 * i, "%2x", &byte) == 1, "no byte");
        input.all[GUARD + i] = (uint8_t)byte;
    }
    return lend(&input, len);
}

static uint8_t *room(void) {
    size_t len = (size_t)number();
    for (size_t i = 0; i < len + 2 * GUARD; i++) output.all[i] = (uint8_t)(i * 7 + 3);
    return lend(&output, len);
}

static void print_bytes(const lent *l, size_t n) {
    printf(" ");
    for (size_t i = 0; i < n; i++) printf("%02x", l->all[GUARD + i]);
}

/* ROWS */

#define ROW(type, name)      \
    struct {                 \
        uint64_t before;     \
        type row;            \
        uint64_t after;      \
    } name;                  \
    memset(&name, 0xA5, sizeof name)

/* Whether a row is as it was lent, but for `written` bytes of it behind the number before it. */
static void row_kept(const void *row, size_t size, size_t written) {
    const uint8_t *b = row;
    for (size_t i = 0; i < size; i++) {
        if (i < 8 || i >= 8 + written) insist(b[i] == 0xA5, "a row written that should be kept");
    }
}

/* Prints the answer; holds the row, and says whether there is something to tell. */
#define ANSWERED(answer, name) \
    (printf("%" PRIu32, answer), row_kept(&name, sizeof name, answer == RK_DONE ? sizeof name.row : 0), answer == RK_DONE)

#define TELL(value) printf(" %" PRIu64, (uint64_t)(value))

static rk_ledger ledger;

/* Whether a call has left the ledger alone; the answer 12 may change its top. */
static void ledger_kept(const rk_ledger *was, uint32_t answer) {
    for (int i = 0; i < 9; i++) {
        if (answer == RK_DONE || (answer == RK_FAR && i == 2)) continue;
        insist(ledger.words[i] == was->words[i], "the ledger changed");
    }
    printf(" :");
    for (int i = 0; i < 9; i++) TELL(ledger.words[i]);
}

/* A stream with a number on both sides; the byte behind its kept ones is nobody's to write either.
 * */
typedef struct {
    uint64_t before;
    rk_stream row;
    uint64_t after;
} guarded;

static guarded stream;

/* Whether a call has left alone what it should. Beside 0 the stream is printed: its numbers, and
 * the bytes that wait. */
static void stream_kept(const guarded *was, uint32_t answer, uint64_t waiting) {
    if (answer != RK_DONE) {
        insist(memcmp(&stream, was, sizeof stream) == 0, "the stream changed");
        return;
    }
    size_t behind = offsetof(guarded, row.kept) + sizeof stream.row.kept;
    insist(stream.before == was->before, "bytes before a stream written");
    insist(memcmp((uint8_t *)&stream + behind, (const uint8_t *)was + behind, sizeof stream - behind) == 0, "bytes behind a stream written");
    printf(" :");
    for (int i = 0; i < 6; i++) TELL(stream.row.words[i]);
    for (int i = 0; i < 9; i++) TELL(stream.row.ledger.words[i]);
    printf(" ");
    for (size_t i = 0; i < sizeof stream.row.kept; i++) {
        if (i < waiting) printf("%02x", stream.row.kept[i]);
        else insist(stream.row.kept[i] == 0, "a byte behind those that wait");
    }
}

/* A session with a number on both sides. */
static struct {
    uint64_t before;
    rk_session row;
    uint64_t after;
} session;

/* Whether a call has left the session alone, unless it was answered 0. */
static void session_kept(const rk_session *was, uint32_t answer) {
    insist(session.before == UINT64_C(0xA5A5A5A5A5A5A5A5) && session.after == session.before, "numbers around a session written");
    insist(answer == RK_DONE || memcmp(&session.row, was, sizeof *was) == 0, "the session changed");
    printf(" :");
    for (int i = 0; i < 8; i++) TELL(session.row.words[i]);
}

/* The calls that have a time and tell a turn. */
static void turn(uint32_t (*function)(rk_session *, uint64_t, rk_turn *)) {
    rk_session was = session.row;
    ROW(rk_turn, t);
    uint32_t answer = function(&session.row, number(), &t.row);
    if (ANSWERED(answer, t)) TELL(t.row.msg_type), TELL(t.row.seq), TELL(t.row.dead);
    session_kept(&was, answer);
}

static void tell_fed(const rk_fed *fed) {
    TELL(fed->records), TELL(fed->frames), TELL(fed->refused), TELL(fed->place), TELL(fed->waiting);
    print_bytes(&output, 64 * fed->records);
}

static void tell_scrubbed(const rk_scrubbed *done) {
    TELL(done->bytes), TELL(done->frames), TELL(done->after_damage), TELL(done->unjudged), TELL(done->place), TELL(done->waiting);
    print_bytes(&output, done->bytes);
}

int main(void) {
    static char name[32];
    static guarded stream_was;
    memset(&stream, 0xA5, sizeof stream);
    memset(&session, 0xA5, sizeof session);
    call = name;
    while (scanf("%31s", name) == 1) {
        rk_ledger was = ledger;
        uint32_t answer;
        memcpy(&stream_was, &stream, sizeof stream);
        if (strcmp(name, "read") == 0) {
            size_t place = (size_t)number();
            uint8_t *b = bytes();
            ROW(rk_frame, t);
            answer = rk_read(b, input.len, place, &t.row);
            if (ANSWERED(answer, t)) {
                TELL(t.row.msg_type), TELL(t.row.sending_time), TELL(t.row.seq), TELL(t.row.body_len), TELL(t.row.channel);
                TELL(t.row.tick), TELL(t.row.first), TELL(t.row.last), TELL(t.row.status);
            }
            kept_from(&input, 0);
        } else if (strcmp(name, "write") == 0) {
            uint32_t type = (uint32_t)number();
            uint64_t time = number(), seq = number();
            uint8_t *out = room(), *b = bytes();
            ROW(uint64_t, t);
            answer = rk_write(type, time, seq, b, input.len, out, output.len, &t.row);
            if (ANSWERED(answer, t)) TELL(t.row), print_bytes(&output, t.row);
            kept_from(&output, answer == RK_DONE ? t.row : 0);
            kept_from(&input, 0);
        } else if (strcmp(name, "search") == 0) {
            size_t from = (size_t)number();
            uint8_t *b = bytes();
            ROW(rk_found, t);
            answer = rk_search(b, input.len, from, &t.row);
            if (ANSWERED(answer, t)) TELL(t.row.any), TELL(t.row.place);
            kept_from(&input, 0);
        } else if (strcmp(name, "scrub") == 0) {
            uint8_t *b = bytes();
            ROW(uint64_t, t);
            answer = rk_scrub(b, input.len, &t.row);
            if (ANSWERED(answer, t)) TELL(t.row), print_bytes(&input, t.row);
            kept_from(&input, answer == RK_DONE ? t.row : 0);
        } else if (strcmp(name, "private") == 0) {
            uint32_t type = (uint32_t)number();
            uint8_t *b = bytes();
            for (size_t i = 0;; i++) {
                ROW(rk_span, t);
                answer = rk_private(type, b, input.len, i, &t.row);
                if (!ANSWERED(answer, t) || t.row.len == 0) break;
                TELL(t.row.place), TELL(t.row.len), TELL(t.row.fill), printf(" ");
            }
            kept_from(&input, 0);
        } else if (strcmp(name, "fields") == 0) {
            uint8_t *b = bytes();
            for (size_t i = 0;; i++) {
                ROW(rk_field, t);
                answer = rk_tail_field(b, input.len, i, &t.row);
                if (!ANSWERED(answer, t) || t.row.len == 0) break;
                TELL(t.row.place), TELL(t.row.len), TELL(t.row.text), TELL(t.row.hidden), printf(" ");
            }
            kept_from(&input, 0);
        } else if (strcmp(name, "broken") == 0) {
            uint32_t type = (uint32_t)number();
            uint8_t *b = bytes();
            ROW(rk_broken, t);
            answer = rk_broken_field(type, b, input.len, &t.row);
            if (ANSWERED(answer, t)) TELL(t.row.any), TELL(t.row.place), TELL(t.row.len), TELL(t.row.index), TELL(t.row.entry);
            kept_from(&input, 0);
        } else if (strcmp(name, "entries") == 0) {
            uint8_t *b = bytes();
            ROW(uint64_t, t);
            answer = rk_entries(b, input.len, &t.row);
            if (ANSWERED(answer, t)) TELL(t.row);
            kept_from(&input, 0);
        } else if (strcmp(name, "entry") == 0) {
            size_t place = (size_t)number();
            uint8_t *b = bytes();
            ROW(rk_md_entry, t);
            answer = rk_entry(b, input.len, place, &t.row);
            if (ANSWERED(answer, t)) {
                TELL(t.row.is_short), TELL(t.row.kind), TELL(t.row.price), TELL(t.row.size), TELL(t.row.position), TELL(t.row.behind);
            }
            kept_from(&input, 0);
        } else if (strcmp(name, "words") == 0) {
            for (int i = 0; i < 9; i++) ledger.words[i] = number();
        } else if (strcmp(name, "open") == 0) {
            answer = rk_ledger_open((uint16_t)number(), &ledger);
            printf("%" PRIu32, answer);
            ledger_kept(&was, answer);
        } else if (strcmp(name, "tick") == 0) {
            uint16_t channel = (uint16_t)number();
            uint64_t n = number();
            ROW(rk_passed, t);
            answer = rk_ledger_tick(&ledger, channel, n, &t.row);
            if (ANSWERED(answer, t)) TELL(t.row.first), TELL(t.row.count);
            ledger_kept(&was, answer);
        } else if (strcmp(name, "announce") == 0) {
            uint16_t channel = (uint16_t)number();
            answer = rk_ledger_announce(&ledger, channel, number());
            printf("%" PRIu32, answer);
            ledger_kept(&was, answer);
        } else if (strcmp(name, "request") == 0) {
            ROW(rk_request, t);
            answer = rk_ledger_request(&ledger, (uint16_t)number(), &t.row);
            if (ANSWERED(answer, t)) TELL(t.row.first), TELL(t.row.last);
            ledger_kept(&was, answer);
        } else if (strcmp(name, "reply") == 0) {
            uint16_t channel = (uint16_t)number();
            uint64_t first = number();
            ROW(rk_settled, t);
            answer = rk_ledger_reply(&ledger, channel, first, (uint8_t)number(), &t.row);
            if (ANSWERED(answer, t)) {
                /* the numbers given up, a 0, and the numbers to be delivered */
                uint64_t n, end = t.row.first + 256;
                TELL(t.row.first);
                for (n = t.row.first; n < end; n++) if (RK_IN(t.row.given_up, n)) TELL(n);
                TELL(0);
                for (n = t.row.first; n < end; n++) if (RK_IN(t.row.passed, n)) TELL(n);
            }
            ledger_kept(&was, answer);
        } else if (strcmp(name, "renew") == 0) {
            answer = rk_ledger_renew(&ledger);
            printf("%" PRIu32, answer);
            ledger_kept(&was, answer);
        } else if (strcmp(name, "missing") == 0) {
            uint16_t channel = (uint16_t)number();
            uint64_t a = number(), b = number();
            ROW(uint64_t, t);
            answer = rk_ledger_missing(&ledger, channel, a, b, &t.row);
            if (ANSWERED(answer, t)) TELL(t.row);
            ledger_kept(&was, answer);
        } else if (strcmp(name, "told") == 0) {
            ROW(rk_told, t);
            answer = rk_ledger_told(&ledger, &t.row);
            if (ANSWERED(answer, t)) {
                TELL(t.row.channel), TELL(t.row.floor), TELL(t.row.top), TELL(t.row.missing), TELL(t.row.held);
                TELL(t.row.asked_first), TELL(t.row.asked_last);
            }
            ledger_kept(&was, RK_STATE);
        } else if (strcmp(name, "walk") == 0) {
            uint8_t *records = room(), *b = bytes();
            ROW(rk_counts, t);
            answer = rk_walk(b, input.len, records, output.len, &ledger, &t.row);
            if (ANSWERED(answer, t)) {
                TELL(t.row.records), TELL(t.row.frames), TELL(t.row.refused), print_bytes(&output, 64 * t.row.records);
            }
            kept_from(&output, answer == RK_DONE ? 64 * t.row.records : 0);
            kept_from(&input, 0);
            ledger_kept(&was, answer);
        } else if (strcmp(name, "record") == 0) {
            uint8_t *b = bytes();
            ROW(rk_reading, t);
            answer = rk_record(b, input.len, &t.row);
            if (ANSWERED(answer, t)) {
                TELL(t.row.place), TELL(t.row.msg_type), TELL(t.row.answer), TELL(t.row.seq), TELL(t.row.tick);
                TELL(t.row.channel), TELL(t.row.body_len), TELL(t.row.floor), TELL(t.row.top);
            }
            kept_from(&input, 0);
        } else if (strcmp(name, "lines") == 0) {
            uint8_t *text = room(), *b = bytes();
            ROW(uint64_t, t);
            answer = rk_lines(b, input.len, text, output.len, &t.row);
            if (ANSWERED(answer, t)) TELL(t.row), print_bytes(&output, t.row);
            kept_from(&output, answer == RK_DONE ? t.row : 0);
            kept_from(&input, 0);
        } else if (strcmp(name, "listing") == 0) {
            uint64_t frames = number(), refused = number();
            uint8_t *text = room(), *b = bytes();
            ROW(uint64_t, t);
            answer = rk_listing(b, input.len, frames, refused, &ledger, text, output.len, &t.row);
            if (ANSWERED(answer, t)) TELL(t.row), print_bytes(&output, t.row);
            kept_from(&output, answer == RK_DONE ? t.row : 0);
            kept_from(&input, 0);
            ledger_kept(&was, RK_STATE);
        } else if (strcmp(name, "clean") == 0) {
            uint8_t *out = room(), *b = bytes();
            ROW(rk_cleaned, t);
            answer = rk_clean(b, input.len, out, output.len, &t.row);
            if (ANSWERED(answer, t)) TELL(t.row.bytes), TELL(t.row.frames), TELL(t.row.after_damage), print_bytes(&output, t.row.bytes);
            kept_from(&output, answer == RK_DONE ? t.row.bytes : 0);
            kept_from(&input, 0);
        } else if (strcmp(name, "is_clean") == 0) {
            uint8_t *b = bytes();
            ROW(rk_found, t);
            answer = rk_is_clean(b, input.len, &t.row);
            if (ANSWERED(answer, t)) TELL(t.row.any), TELL(t.row.place);
            kept_from(&input, 0);
        } else if (strcmp(name, "stream") == 0) {
            for (int i = 0; i < 6; i++) stream.row.words[i] = number();
            for (int i = 0; i < 9; i++) stream.row.ledger.words[i] = number();
            memset(stream.row.kept, 0, sizeof stream.row.kept);
            uint8_t *b = bytes();
            memcpy(stream.row.kept, b, input.len);
        } else if (strcmp(name, "stream_open") == 0) {
            answer = rk_stream_open(RK_STREAM(&stream.row));
            printf("%" PRIu32, answer);
            stream_kept(&stream_was, answer, 0);
        } else if (strcmp(name, "feed") == 0) {
            uint8_t *records = room(), *b = bytes();
            ROW(rk_fed, t);
            answer = rk_stream_feed(RK_STREAM(&stream.row), b, input.len, records, output.len, &t.row);
            if (ANSWERED(answer, t)) tell_fed(&t.row);
            kept_from(&output, answer == RK_DONE ? 64 * t.row.records : 0);
            kept_from(&input, 0);
            stream_kept(&stream_was, answer, t.row.waiting);
        } else if (strcmp(name, "close") == 0) {
            uint8_t *records = room();
            ROW(rk_fed, t);
            answer = rk_stream_close(RK_STREAM(&stream.row), records, output.len, &t.row);
            if (ANSWERED(answer, t)) tell_fed(&t.row);
            kept_from(&output, answer == RK_DONE ? 64 * t.row.records : 0);
            stream_kept(&stream_was, answer, t.row.waiting);
        } else if (strcmp(name, "stream_clean") == 0) {
            uint8_t *out = room(), *b = bytes();
            ROW(rk_scrubbed, t);
            answer = rk_stream_clean(RK_STREAM(&stream.row), b, input.len, out, output.len, &t.row);
            if (ANSWERED(answer, t)) tell_scrubbed(&t.row);
            kept_from(&output, answer == RK_DONE ? t.row.bytes : 0);
            kept_from(&input, 0);
            stream_kept(&stream_was, answer, t.row.waiting);
        } else if (strcmp(name, "stream_clean_close") == 0) {
            uint8_t *out = room();
            ROW(rk_scrubbed, t);
            answer = rk_stream_clean_close(RK_STREAM(&stream.row), out, output.len, &t.row);
            if (ANSWERED(answer, t)) tell_scrubbed(&t.row);
            kept_from(&output, answer == RK_DONE ? t.row.bytes : 0);
            stream_kept(&stream_was, answer, t.row.waiting);
        } else if (strcmp(name, "step_read") == 0) {
            size_t place = (size_t)number();
            uint8_t *b = bytes();
            ROW(rk_step_frame, t);
            answer = rk_step_read(b, input.len, place, &t.row);
            if (ANSWERED(answer, t)) TELL(t.row.kind), TELL(t.row.fields), TELL(t.row.fields_len), TELL(t.row.len);
            kept_from(&input, 0);
        } else if (strcmp(name, "step_field") == 0) {
            size_t place = (size_t)number();
            uint8_t *b = bytes();
            ROW(rk_step_field_at, t);
            answer = rk_step_field(b, input.len, place, &t.row);
            if (ANSWERED(answer, t)) TELL(t.row.tag), TELL(t.row.value), TELL(t.row.value_len), TELL(t.row.behind);
            kept_from(&input, 0);
        } else if (strcmp(name, "step_write") == 0) {
            uint8_t kind = (uint8_t)number();
            uint8_t *out = room(), *b = bytes();
            ROW(uint64_t, t);
            answer = rk_step_write(kind, b, input.len, out, output.len, &t.row);
            if (ANSWERED(answer, t)) TELL(t.row), print_bytes(&output, t.row);
            kept_from(&output, answer == RK_DONE ? t.row : 0);
            kept_from(&input, 0);
        } else if (strcmp(name, "step_scrub") == 0) {
            uint8_t *b = bytes();
            ROW(uint64_t, t);
            answer = rk_step_scrub(b, input.len, &t.row);
            if (ANSWERED(answer, t)) TELL(t.row), print_bytes(&input, t.row);
            kept_from(&input, answer == RK_DONE ? t.row : 0);
        } else if (strcmp(name, "session") == 0) {
            for (int i = 0; i < 8; i++) session.row.words[i] = number();
        } else if (strcmp(name, "session_open") == 0) {
            answer = rk_session_open(&session.row);
            printf("%" PRIu32, answer);
            session_kept(&session.row, answer);
        } else if (strcmp(name, "session_begin") == 0) {
            turn(rk_session_begin);
        } else if (strcmp(name, "session_time") == 0) {
            turn(rk_session_time);
        } else if (strcmp(name, "session_leave") == 0) {
            turn(rk_session_leave);
        } else if (strcmp(name, "session_ask") == 0) {
            turn(rk_session_ask);
        } else if (strcmp(name, "session_receive") == 0) {
            rk_session before = session.row;
            uint64_t time = number();
            uint8_t *b = bytes();
            ROW(rk_arrival, t);
            answer = rk_session_receive(&session.row, time, b, input.len, &t.row);
            if (ANSWERED(answer, t)) TELL(t.row.msg_type), TELL(t.row.seq), TELL(t.row.dead), TELL(t.row.len);
            kept_from(&input, 0);
            session_kept(&before, answer);
        } else if (strcmp(name, "session_may_send") == 0) {
            rk_session before = session.row;
            answer = rk_session_may_send(&session.row, number());
            printf("%" PRIu32, answer);
            session_kept(&before, RK_STATE);
        } else {
            insist(0, "no such call");
        }
        printf("\n");
    }
    return 0;
}
