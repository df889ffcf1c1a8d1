/* Frames of the exchange's market data gateway: read, written, searched for, scrubbed; the gap
 * ledger of a tick channel; captures walked, listed and cleaned, whole or while they arrive; the
 * client's side of a session. The library is proved. For C11, and C++98 or later. Link
 * librietknoest (.a or .so): tools/archive builds it, tools/install installs it for pkg-config.
 *
 * Every function returns a code of the table below, 0 for success; results go to out-parameters.
 * Those for market files return a code of their own table and a place, by value. rk_channels puts
 * its code beside the call.
 * The library keeps no pointer, allocates nothing and has no state of its own. Functions may be
 * called from several threads at once. A call takes at most 2 KB of stack; where it takes more, its
 * comment says so.
 *
 * A refusal (any code but 0) writes nothing. One exception: a tick's 12 raises the ledger's
 * top, alone or in a table. Success writes all of each out-parameter, and of a buffer the bytes
 * that are counted, none beyond them.
 *
 * Numbers of sessions, ticks and channels are plain integers in C: the compiler can't tell one from
 * another. In Rust it does.
 *
 * The caller ensures: pointers are valid for their lengths, writable where not const, and not null
 * even for length 0; structs are aligned; nothing that is written overlaps another argument. */
#ifndef RIETKNOEST_H
#define RIETKNOEST_H

#include <stddef.h>
#include <stdint.h>

#if !defined(__cplusplus)
#define RK_SIZE(row, numbers) _Static_assert(sizeof(row) == 8 * (numbers), #row)
#elif __cplusplus >= 201103L
#define RK_SIZE(row, numbers) static_assert(sizeof(row) == 8 * (numbers), #row)
#else
#define RK_SIZE(row, numbers) typedef char rk_size_of_##row[sizeof(row) == 8 * (numbers) ? 1 : -1]
#endif

#ifdef __cplusplus
extern "C" {
#endif

RK_SIZE(size_t, 1);

#define RK_VERSION_MAJOR 0
#define RK_VERSION_MINOR 2
#define RK_VERSION_PATCH 0

/* CODES */

enum rk_answer {
    RK_DONE = 0,
    RK_MORE = 1,     /* fewer than 24 bytes, or fewer than the frame's length */
    RK_TYPE = 2,     /* MsgType not in the table */
    RK_LONG = 3,     /* body above 8,164 */
    RK_LENGTH = 4,   /* BodyLength doesn't suit the type */
    RK_SUM = 5,      /* CheckSum differs, all 32 bits compared */
    RK_FIELD = 6,    /* a field rule is broken */
    RK_TIME = 7,     /* SendingTime is no real time */
    RK_ROOM = 8,     /* output buffer shorter than what is to be written */
    RK_PLACE = 9,    /* search start beyond the end */
    RK_NUMBER = 10,  /* tick 0 or over 18 digits; announced top over 18; channel over 9,999 */
    RK_REPEAT = 11,  /* tick already received, or given up */
    RK_FAR = 12,     /* tick above floor + 256 and not a repeat */
    RK_STATE = 13,   /* the state breaks its rules: you see it only if other code wrote it */
    RK_BUSY = 14,    /* a request is pending */
    RK_WHOLE = 15,   /* nothing is missing */
    RK_UNASKED = 16, /* reply with none pending, another first number, or on a channel not asked */
    RK_STATUS = 17,  /* reply status not 1 to 5 or 99 */
    RK_CHANNEL = 18, /* call names another channel, or one that is not open in the table */
    RK_CLOSED = 19,  /* the stream is closed already */
    RK_ENTRIES = 20, /* body below 73 bytes, no entry at this place, or it passes the body's end */
    RK_FULL = 21,    /* all 32 places of the table are taken */
    RK_OPEN = 22,    /* the channel is open already */
    RK_BEGIN = 23,   /* STEP: not the begin string */
    RK_BODY_LENGTH = 24, /* STEP: no body length of one to nine digits stands second */
    RK_MSG_TYPE = 25,    /* STEP: none of the seven types */
    RK_FIELDS = 26,  /* STEP: a field malformed, empty, repeated, missing, or not of the type */
    RK_CAPTURES = 27, /* the page has 500 captures already */
    RK_SUMS = 28,    /* a sum of the page would not fit 64 bits */
    RK_PLACES = 29,  /* a place in the stream would not fit 64 bits */
    RK_EARLY = 30,   /* anything but logon or logout before the logon answer */
    RK_SEQUENCE = 31, /* MsgSeqNum is not the expected one */
    RK_OVER = 32,    /* the session is over, the line dead, or a counter at its last number */
    RK_AGAIN = 33    /* a second logon */
};

/* FRAMES */

/* MsgType is its four bytes as one number, high byte first: "S003" is 0x53303033. */
enum rk_msg_type {
    RK_S001 = 0x53303031, /* a logon */
    RK_S002 = 0x53303032, /* a logout */
    RK_S003 = 0x53303033, /* a heartbeat */
    RK_P001 = 0x50303031, /* an announcement of a channel's last number */
    RK_P002 = 0x50303032, /* a request to send ticks again, or a reply to one */
    RK_M101 = 0x4D313031, /* a market status: its body is not judged */
    RK_M102 = 0x4D313032, /* a snapshot */
    RK_M201 = 0x4D323031  /* a tick */
};

typedef struct {
    uint64_t msg_type;
    uint64_t sending_time;
    uint64_t seq;      /* MsgSeqNum */
    uint64_t body_len; /* BodyLength; the frame is 28 bytes longer */
    uint64_t channel;  /* P001, P002, M201; this and all below are 0 for other types */
    uint64_t tick;     /* ApplSeqNum of M201, ApplLastSeqNum of P001, ApplBegSeqNum of P002 */
    uint64_t first;    /* P002: ApplBegSeqNum, ApplEndSeqNum, ResendStatus */
    uint64_t last;
    uint64_t status;
} rk_frame;
RK_SIZE(rk_frame, 9);

/* A place; any = 0 and place = 0 if there is none. */
typedef struct {
    uint64_t any;
    uint64_t place;
} rk_found;
RK_SIZE(rk_found, 2);

typedef struct {
    uint64_t place; /* in the body */
    uint64_t len;
    uint64_t fill; /* the byte that replaces each */
} rk_span;
RK_SIZE(rk_span, 3);

typedef struct {
    uint64_t is_short; /* 1 for MD001, whose entries have no size and no position, else 0 */
    uint64_t kind;
    uint64_t price;
    uint64_t size;
    uint64_t position;
    uint64_t behind; /* the place after the entry, for the next call */
} rk_md_entry;
RK_SIZE(rk_md_entry, 6);

/* Reads the frame at a place; the bytes after it do not matter. A place beyond the end returns 1.
 * Returns 0, 1 to 7. 0 writes *told. */
uint32_t rk_read(const uint8_t *bytes, size_t len, size_t place, rk_frame *told);

/* Writes a frame to the front of out.
 * Returns 0, 2, 3, 4, 7, 6, 8. 0 writes *told, which is body_len + 28, and as many bytes of out. */
uint32_t rk_write(uint32_t msg_type, uint64_t sending_time, uint64_t seq, const uint8_t *body, size_t body_len, uint8_t *out,
                  size_t out_len, uint64_t *told);

/* Finds the lowest place, from `from` on, at which a frame reads.
 * Returns 0, 9. 0 writes *told. */
uint32_t rk_search(const uint8_t *bytes, size_t len, size_t from, rk_found *told);

/* Scrubs the frame at the front of a buffer, in place.
 * Returns 0, 1 to 7. 0 writes the frame's private bytes and CheckSum, and its length to *told. */
uint32_t rk_scrub(uint8_t *frame, size_t len, uint64_t *told);

/* Private span number i, counted from 0, of a body of that type; an empty span after the last. The
 * spans are within the body; its fields are not checked.
 * Returns 0, 2, 3, 4. 0 writes *told. */
uint32_t rk_private(uint32_t msg_type, const uint8_t *body, size_t len, size_t i, rk_span *told);

/* A field of an M201's extension. */
typedef struct {
    uint64_t place; /* in the body */
    uint64_t len;
    uint64_t text;   /* 1 for letters, 0 for a number */
    uint64_t hidden; /* 1 for a private field, else 0 */
} rk_field;
RK_SIZE(rk_field, 4);

/* Field number i, counted from 0, of the extension of an M201 body, by the layout that its stream
 * and ExecType name; an empty one after the last. A stream that is not named has one field, all of
 * it, and private.
 * Returns 0, 3, 4, 6, by the body's length. 0 writes *told. */
uint32_t rk_tail_field(const uint8_t *body, size_t len, size_t i, rk_field *told);

/* The field of a body that breaks a rule; any = 0 and zeros if every rule holds. */
typedef struct {
    uint64_t any;
    uint64_t place; /* in the body */
    uint64_t len;
    uint64_t index; /* its number in the order of the type's widths, counted from 0. An M201's extension
                     * is 9; type, price, size and position of an M102 entry are 13 to 16 */
    uint64_t entry; /* the number of that entry, counted from 1; 0 for any other field */
} rk_broken;
RK_SIZE(rk_broken, 5);

/* Why reading answers 6: the lowest field of a body of that type whose rule is broken. It is
 * found from public bytes alone.
 * Returns 0, 2, 3, 4. 0 writes *told. */
uint32_t rk_broken_field(uint32_t msg_type, const uint8_t *body, size_t len, rk_broken *told);

/* Checks that the entries of an M102 body can be read.
 * Returns 0, 3, 4, 6. 0 writes the first entry's place to *told. */
uint32_t rk_entries(const uint8_t *body, size_t len, uint64_t *told);

/* The entry at a place of a body.
 * Returns 0, 20. 0 writes *told. */
uint32_t rk_entry(const uint8_t *body, size_t len, size_t place, rk_md_entry *told);

/* THE LEDGER */

/* Keep and copy the words as you like, but do not read or make them: use rk_ledger_told. A call on
 * words that break the state rules returns 13. Saved words are for the library that made them:
 * another may take them for another ledger, and no rule can tell. Save RK_STATE_FORM with them, and
 * do not pass in words of another form (docs/STATES.md). */
#define RK_STATE_FORM 2
typedef struct {
    uint64_t words[9];
} rk_ledger;
RK_SIZE(rk_ledger, 9);

/* The numbers that the floor has just passed: the first, and how many. If none, first is
 * floor + 1. */
typedef struct {
    uint64_t first;
    uint64_t count;
} rk_passed;
RK_SIZE(rk_passed, 2);

typedef struct {
    uint64_t first;
    uint64_t last;
} rk_request;
RK_SIZE(rk_request, 2);

/* What a reply settles: two sets of numbers, both empty unless its status is 4. Given up are the
 * numbers of the pending range that were not received: they will not come. Passed are the received
 * numbers that the floor has just passed, for delivery. All of them are first to first + 255, where
 * first is the floor + 1 before the call:
 *     for (uint64_t n = s.first; n < s.first + 256; n++)
 *         if (RK_IN(s.passed, n)) deliver(n); */
typedef struct {
    uint64_t first;
    uint64_t given_up[4];
    uint64_t passed[4];
} rk_settled;
RK_SIZE(rk_settled, 9);

/* Whether a set has the number n, which is first to first + 255. Evaluates n twice. */
#define RK_IN(set, n) ((int)((set)[(n) / 64 % 4] >> ((n) % 64) & 1))

typedef struct {
    uint64_t channel;
    uint64_t floor;
    uint64_t top;
    uint64_t missing;
    uint64_t held;
    uint64_t asked_first; /* the pending request; 0 and 0 if there is none */
    uint64_t asked_last;
} rk_told;
RK_SIZE(rk_told, 7);

/* A fresh ledger for a channel.
 * Returns 0, 10. 0 writes *state. Initialise it ( = {0} ): after 10 it is what it was, and
 * uninitialised words may be any ledger. Check the code even so: nine zeros are a fresh ledger for
 * channel 0. */
uint32_t rk_ledger_open(uint16_t channel, rk_ledger *state);

/* Offers a tick.
 * Returns 0, 10 to 13, 18. 0 writes *state and *told. 12 raises a lower top in *state, and writes
 * nothing else. */
uint32_t rk_ledger_tick(rk_ledger *state, uint16_t channel, uint64_t number, rk_passed *told);

/* Announces the channel's last number.
 * Returns 0, 10, 13, 18. 0 writes *state. */
uint32_t rk_ledger_announce(rk_ledger *state, uint16_t channel, uint64_t last);

/* Asks what to request again. The range returned is pending from now on.
 * Returns 0, 13, 14, 15, 18. 0 writes *state and *told. */
uint32_t rk_ledger_request(rk_ledger *state, uint16_t channel, rk_request *told);

/* The exchange's reply to the pending request, which is then no longer pending. On status 4 the
 * numbers of the request that were not received are given up, and the floor passes them and the
 * received ones that follow; a given-up number that arrives later is a repeat (11).
 * Returns 0, 13, 16, 17, 18. 0 writes *state and *told. */
uint32_t rk_ledger_reply(rk_ledger *state, uint16_t channel, uint64_t first, uint8_t status,
                         rk_settled *told);

/* A new session of the line begins: what was requested on the old line will not be answered on the
 * new one, and is no longer pending. Nothing else changes. Not for a row of a table: its
 * rk_channels_renew does this for the whole table.
 * Returns 0, 13. 0 writes *state. */
uint32_t rk_ledger_renew(rk_ledger *state);

/* What a ledger holds.
 * Returns 0, 13. 0 writes *told. */
uint32_t rk_ledger_told(const rk_ledger *state, rk_told *told);

/* How many numbers from a to b, both included, are missing: neither received nor given up, and not
 * above the top. 0 if b is below a. No span takes longer than one of 256 numbers.
 * Returns 0, 10 (a or b is 0 or has more than 18 digits), 13, 18. 0 writes *told. */
uint32_t rk_ledger_missing(const rk_ledger *state, uint16_t channel, uint64_t a, uint64_t b,
                           uint64_t *told);

/* THIRTY-TWO CHANNELS, ONE LINE */

/* Up to 32 ledgers, one request pending for all of them. Each call updates the
 * table in place. A request goes to the first channel with something missing, counted round from
 * the place after the last one asked: a channel that stays open and keeps something missing is
 * asked within 32 granted requests.
 *
 * Begin with rk_channels_none. Keep and copy the table as you like, but do not make or change its
 * numbers. rows[i] may be passed to rk_ledger_told where i is an open place; channels[i] is its
 * channel, and bit i of `used` says that it is open. A call on a table that breaks the state rules
 * where the call looks returns 13 (docs/STATES.md). Save RK_STATE_FORM with a saved table. */
typedef struct {
    uint64_t channels[33]; /* the channel of each row, 0 where none is open */
    uint64_t used;         /* a bit for each open place */
    uint64_t lacking;      /* a bit for each open place with something missing */
    uint64_t asked;        /* the place whose request is pending, or 32 */
    uint64_t last;         /* the place last asked */
    rk_ledger rows[33];    /* the last one is never used */
} rk_table;
RK_SIZE(rk_table, 334);

enum rk_channel_code {
    RK_CHANNEL_OPEN = 0,
    RK_CHANNEL_CLOSE = 1,
    RK_CHANNEL_TICK = 2,
    RK_CHANNEL_ANNOUNCE = 3,
    RK_CHANNEL_REQUEST = 4,
    RK_CHANNEL_REPLY = 5,   /* number: its first number; second: its status */
    RK_CHANNEL_MISSING = 6, /* number: a; second: b */
    RK_CHANNEL_RENEW = 7,
    RK_CHANNEL_TOLD = 8 /* so is any other code */
};

/* A call, and what it is answered: the code, and the numbers that it tells, then zeros. */
typedef struct {
    uint64_t code;
    uint64_t channel; /* REQUEST and RENEW name none */
    uint64_t number;
    uint64_t second;
    uint64_t answer;
    uint64_t values[9];
} rk_exchange;
RK_SIZE(rk_exchange, 14);

typedef struct {
    uint64_t channel;
    uint64_t first;
    uint64_t last;
} rk_channel_request;
RK_SIZE(rk_channel_request, 3);

/* Every call on a table, by its code; the functions below have a name for each. Writes *table as
 * its answer says, and always answer and values. */
void rk_channels(rk_table *table, rk_exchange *exchange);

/* The empty table: no channel is open. */
static inline void rk_channels_none(rk_table *table) {
    static const rk_table none = {{0}, 0, 0, 32, 31, {{{0}}}};
    *table = none;
}

/* One call, made by its numbers. */
static inline rk_exchange rk_channels_call(rk_table *table, uint64_t code, uint64_t channel, uint64_t number, uint64_t second) {
    rk_exchange e = {code, channel, number, second, 0, {0}};
    rk_channels(table, &e);
    return e;
}

/* Opens a channel: the lowest free place takes a fresh ledger.
 * Returns 0, 10, 13, 21, 22. */
static inline uint32_t rk_channels_open(rk_table *table, uint16_t channel) {
    return (uint32_t)rk_channels_call(table, RK_CHANNEL_OPEN, channel, 0, 0).answer;
}

/* Closes a channel: its place is free, and its pending request with it; another's stays.
 * Returns 0, 13, 18. */
static inline uint32_t rk_channels_close(rk_table *table, uint16_t channel) {
    return (uint32_t)rk_channels_call(table, RK_CHANNEL_CLOSE, channel, 0, 0).answer;
}

/* Offers a tick. 12 raises a lower top, and changes nothing else of the ledger.
 * Returns 0, 10 to 13, 18. 0 writes *told. */
static inline uint32_t rk_channels_tick(rk_table *table, uint16_t channel, uint64_t number, rk_passed *told) {
    rk_exchange e = rk_channels_call(table, RK_CHANNEL_TICK, channel, number, 0);
    if (e.answer == RK_DONE) told->first = e.values[0], told->count = e.values[1];
    return (uint32_t)e.answer;
}

/* Announces the channel's last number.
 * Returns 0, 10, 13, 18. */
static inline uint32_t rk_channels_announce(rk_table *table, uint16_t channel, uint64_t last) {
    return (uint32_t)rk_channels_call(table, RK_CHANNEL_ANNOUNCE, channel, last, 0).answer;
}

/* Asks what to request again, and of which channel. It is pending from now on, for the whole table.
 * Returns 0, 13, 14, 15. 0 writes *told. */
static inline uint32_t rk_channels_request(rk_table *table, rk_channel_request *told) {
    rk_exchange e = rk_channels_call(table, RK_CHANNEL_REQUEST, 0, 0, 0);
    if (e.answer == RK_DONE) told->channel = e.values[0], told->first = e.values[1], told->last = e.values[2];
    return (uint32_t)e.answer;
}

/* The exchange's reply to the pending request, as rk_ledger_reply. 16 also on an open channel other
 * than the one asked.
 * Returns 0, 13, 16, 17, 18. 0 writes *told. */
static inline uint32_t rk_channels_reply(rk_table *table, uint16_t channel, uint64_t first, uint8_t status, rk_settled *told) {
    rk_exchange e = rk_channels_call(table, RK_CHANNEL_REPLY, channel, first, status);
    if (e.answer == RK_DONE) {
        told->first = e.values[0];
        for (int i = 0; i < 4; i++) told->given_up[i] = e.values[1 + i], told->passed[i] = e.values[5 + i];
    }
    return (uint32_t)e.answer;
}

/* How many numbers from a to b, both included, are missing.
 * Returns 0, 10, 13, 18. 0 writes *told. Changes nothing in *table. */
static inline uint32_t rk_channels_missing(rk_table *table, uint16_t channel, uint64_t a, uint64_t b, uint64_t *told) {
    rk_exchange e = rk_channels_call(table, RK_CHANNEL_MISSING, channel, a, b);
    if (e.answer == RK_DONE) *told = e.values[0];
    return (uint32_t)e.answer;
}

/* A new session of the line begins: what is pending no longer is. Nothing else changes; the next
 * request still goes on after the place last asked.
 * Returns 0, 13. */
static inline uint32_t rk_channels_renew(rk_table *table) {
    return (uint32_t)rk_channels_call(table, RK_CHANNEL_RENEW, 0, 0, 0).answer;
}

/* What an open channel's ledger holds.
 * Returns 0, 13, 18. 0 writes *told. Changes nothing in *table. */
static inline uint32_t rk_channels_told(rk_table *table, uint16_t channel, rk_told *told) {
    rk_exchange e = rk_channels_call(table, RK_CHANNEL_TOLD, channel, 0, 0);
    if (e.answer == RK_DONE) {
        rk_told t = {channel, e.values[0], e.values[1], e.values[2], e.values[3], e.values[4], e.values[5]};
        *told = t;
    }
    return (uint32_t)e.answer;
}

/* CAPTURES */

/* Room for the records of any capture of len bytes; room for the listing of so many records. */
#define RK_RECORDS_ROOM(len) ((2 * ((size_t)(len) / 29) + 2) * 64)
#define RK_TEXT_ROOM(records) ((size_t)(records) * 127 + 138)

typedef struct {
    uint64_t records;
    uint64_t frames;  /* readings that gave 0 */
    uint64_t refused; /* readings that were refused */
} rk_counts;
RK_SIZE(rk_counts, 3);

/* A record, 64 bytes, as a walk and a stream write them: numbers, high byte first. */
typedef struct {
    uint8_t place[8];
    uint8_t msg_type[4]; /* four spaces if the reading was refused */
    uint8_t answer[4];   /* 0, the number of a refused reading, or the ledger's */
    uint8_t seq[8];      /* MsgSeqNum; this and the next four are 0 if the reading was refused */
    uint8_t tick[8];     /* the tick number */
    uint8_t channel[2];
    uint8_t zero_2[2];
    uint8_t body_len[4]; /* BodyLength */
    uint8_t floor[8];    /* the ledger's after the reading */
    uint8_t top[8];
    uint8_t zero_8[8];
} rk_record_bytes;
RK_SIZE(rk_record_bytes, 8);

/* The same as a row of numbers. */
typedef struct {
    uint64_t place;
    uint64_t msg_type;
    uint64_t answer;
    uint64_t seq;
    uint64_t tick;
    uint64_t channel;
    uint64_t body_len;
    uint64_t floor;
    uint64_t top;
} rk_reading;
RK_SIZE(rk_reading, 9);

typedef struct {
    uint64_t bytes;
    uint64_t frames;
    uint64_t after_damage; /* frames that the search found after damage. One of these may come from
                            * private bytes of a damaged frame; so may the frames that follow it
                            * without a gap, which are not counted */
} rk_cleaned;
RK_SIZE(rk_cleaned, 3);

/* Walks a capture: a record (rk_record_bytes) for each reading, and the ledger of channel 100.
 * Returns 0, 8. 0 writes the first 64 * told->records bytes of records, *state and *told. */
uint32_t rk_walk(const uint8_t *capture, size_t len, uint8_t *records, size_t records_len, rk_ledger *state, rk_counts *told);

/* Reads the record at the front of bytes; those after its 64 do not matter.
 * Returns 0, 1 (fewer than 64 bytes). 0 writes *told. */
uint32_t rk_record(const uint8_t *bytes, size_t len, rk_reading *told);

/* The listing without its last line: a line for each whole record. RK_TEXT_ROOM is always room
 * enough.
 * Returns 0, 8. 0 writes the first *told bytes of text, and *told. */
uint32_t rk_lines(const uint8_t *records, size_t records_len, uint8_t *text, size_t text_len, uint64_t *told);

/* The listing of a walk's records: a line for each whole record, then the last line.
 * Returns 0, 8, 13. 0 writes *told, and as many bytes of text, without a terminating zero. */
uint32_t rk_listing(const uint8_t *records, size_t records_len, uint64_t frames, uint64_t refused, const rk_ledger *state, uint8_t *text,
                    size_t text_len, uint64_t *told);

/* Scrubs a capture: its accepted frames go to the front of out, stray bytes are left out. len bytes
 * are always room enough. While it runs, out briefly holds each frame unscrubbed: use memory of
 * your own, not a mapped file.
 * Returns 0, 8. 0 writes the first told->bytes bytes of out, and *told. */
uint32_t rk_clean(const uint8_t *capture, size_t len, uint8_t *out, size_t out_len, rk_cleaned *told);

/* Whether a capture is clean: the first place that rk_clean would change, or none. It takes about
 * 9 KB of stack.
 * Always returns 0, and writes *told. */
uint32_t rk_is_clean(const uint8_t *capture, size_t len, rk_found *told);

/* A CAPTURE WHILE IT ARRIVES */

/* Bytes come in cuts of any size, even empty ones; a closing call ends them. However they are cut,
 * the records of all calls, the counts and the ledger are those of rk_walk over the joined bytes of
 * the calls that were not refused. Between calls at most 8,191 bytes wait: those that may still
 * become a frame. A call takes a fraction of a microsecond even for one byte: collect bytes first.
 *
 * Keep and copy the struct as you like, but do not read or make its words and bytes. The ledger may
 * be passed to rk_listing, rk_ledger_told, rk_ledger_missing, rk_ledger_request, rk_ledger_reply
 * and rk_ledger_renew. The last three change its pending request, and a reply of status 4 its floor
 * and map too: in these it then differs from rk_walk's. A call on a stream that breaks the state
 * rules returns 13. Save RK_STATE_FORM with a saved stream: its ledger has words of that form. */
typedef struct {
    uint64_t words[6];
    rk_ledger ledger;
    uint8_t kept[8191]; /* bytes as they came, private ones included */
} rk_stream;
RK_SIZE(rk_stream, 1039);

/* A stream as the three arguments that the functions take: rk_stream_open(RK_STREAM(&stream)). The
 * macro evaluates its argument three times. */
#define RK_STREAM(stream) (stream)->words, &(stream)->ledger, (stream)->kept

typedef struct {
    uint64_t records; /* of this call */
    uint64_t frames;  /* readings so far that gave 0 */
    uint64_t refused; /* readings so far that were refused */
    uint64_t place;   /* of the first byte that waits, or of the next one to come */
    uint64_t waiting; /* how many bytes wait */
} rk_fed;
RK_SIZE(rk_fed, 5);

/* A fresh stream.
 * Always returns 0, and writes words, *ledger and kept. */
uint32_t rk_stream_open(uint64_t words[6], rk_ledger *ledger, uint8_t kept[8191]);

/* One more cut: a record of 64 bytes for each reading that it decides.
 * RK_RECORDS_ROOM(waiting + cut_len) bytes are always room enough. After 8 you may pass the same
 * cut again, with more room.
 * Returns 0, 8, 13, 19, 29. 0 writes the first 64 * told->records bytes of records, and words,
 * *ledger, kept and *told. */
uint32_t rk_stream_feed(uint64_t words[6], rk_ledger *ledger, uint8_t kept[8191], const uint8_t *cut, size_t cut_len, uint8_t *records,
                        size_t records_len, rk_fed *told);

/* Ends the stream: what waits is walked as the end of a capture. RK_RECORDS_ROOM(waiting) bytes are
 * always room enough. After 8 the stream is still open.
 * Returns 0, 8, 13, 19. 0 writes the first 64 * told->records bytes of records, and words, *ledger,
 * kept and *told. */
uint32_t rk_stream_close(uint64_t words[6], rk_ledger *ledger, uint8_t kept[8191], uint8_t *records, size_t records_len, rk_fed *told);

/* A capture that is scrubbed while it arrives: an rk_stream from rk_stream_open, and these two
 * calls in place of rk_stream_feed and rk_stream_close. However the capture is cut, the bytes of
 * all calls, one after the other, are what rk_clean writes of the whole, and the counts of all
 * calls add up to rk_clean's. Counts and ledger of the stream stay as they are. Do not mix them
 * with feed and close on one stream: each decides only what it is given. */
typedef struct {
    uint64_t bytes;        /* written by this call */
    uint64_t frames;       /* they are so many frames */
    uint64_t after_damage; /* of these, found by the search after damage: see rk_cleaned */
    uint64_t unjudged;     /* of these, M101 frames: no rule judges their bodies, and they are passed on as they are */
    uint64_t place;        /* of the first byte that waits, or of the next one to come */
    uint64_t waiting;      /* how many bytes wait */
} rk_scrubbed;
RK_SIZE(rk_scrubbed, 6);

/* One more cut: the accepted frames that it decides go to the front of out, each scrubbed; other
 * bytes are left out. waiting + cut_len bytes are always room enough. After 8 you may pass the same
 * cut again, with more room. While it runs, out briefly holds each frame unscrubbed: use memory of
 * your own, not a mapped file.
 * Returns 0, 8, 13, 19, 29. 0 writes the first told->bytes bytes of out, and words, *ledger, kept
 * and *told. */
uint32_t rk_stream_clean(uint64_t words[6], rk_ledger *ledger, uint8_t kept[8191], const uint8_t *cut, size_t cut_len, uint8_t *out,
                         size_t out_len, rk_scrubbed *told);

/* Ends the stream: what waits is cleaned as the end of a capture. waiting bytes are always room
 * enough. After 8 the stream is still open.
 * Returns 0, 8, 13, 19. 0 writes the first told->bytes bytes of out, and words, *ledger, kept and
 * *told. */
uint32_t rk_stream_clean_close(uint64_t words[6], rk_ledger *ledger, uint8_t kept[8191], uint8_t *out, size_t out_len, rk_scrubbed *told);

/* STEP FRAMES */

typedef struct {
    uint64_t kind;       /* the letter of 35: A 5 0 1 2 3 4 */
    uint64_t fields;     /* where the fields after 35 start, counted from the frame's start */
    uint64_t fields_len; /* their bytes: tag, '=', value and SOH of each, one after the other */
    uint64_t len;        /* of the frame, at most 8,192 */
} rk_step_frame;
RK_SIZE(rk_step_frame, 4);

typedef struct {
    uint64_t tag;
    uint64_t value; /* where its value starts among the fields */
    uint64_t value_len;
    uint64_t behind; /* the place after the field, for the next one */
} rk_step_field_at;
RK_SIZE(rk_step_field_at, 4);

/* Reads the STEP frame at a place; what follows the frame does not matter.
 * Returns 0, 1, 3, 5, 7, 23 to 26; a place beyond the end is 1. 0 writes *told. */
uint32_t rk_step_read(const uint8_t *bytes, size_t len, size_t place, rk_step_frame *told);

/* The field at a place among fields.
 * Returns 0, or 26 if there is none. 0 writes *told. */
uint32_t rk_step_field(const uint8_t *fields, size_t len, size_t place, rk_step_field_at *told);

/* Writes a frame at the front of out: a type, and its fields as they are to stand.
 * Returns 0, 3, 7, 8, 25, 26. 0 writes the first *told bytes of out, and *told. */
uint32_t rk_step_write(uint8_t kind, const uint8_t *fields, size_t fields_len, uint8_t *out, size_t out_len, uint64_t *told);

/* Scrubs the STEP frame at the front of a buffer: the values of 49, 56, 553, 554 and 58 become
 * spaces.
 * Returns 0, 1, 3, 5, 7, 23 to 26. 0 writes these values, the three digits of the checksum, and
 * *told: the length of the frame. */
uint32_t rk_step_scrub(uint8_t *frame, size_t len, uint64_t *told);

/* MARKET FILES: mktdth.txt, B-to-H. docs/MARKET.md has the columns and the values. */

enum rk_market {
    RK_MARKET_CUT_SHORT = 40, /* the file ends where more is due, or bytes are left over */
    RK_MARKET_HEADER = 41,    /* a column, bar or newline of the header */
    RK_MARKET_LINE_TYPE = 42, /* a line begins with none of MD401, MD404, MD405, MD406, TRAILER */
    RK_MARKET_COLUMN = 43,    /* a column, bar or newline of a line; a value that does not fit its column */
    RK_MARKET_COUNT = 44,     /* the header's count is not the number of lines */
    RK_MARKET_TRAILER = 45,   /* a byte after TRAILER */
    RK_MARKET_SUM = 46,       /* the three digits are not the sum of all bytes before them */
    RK_MARKET_LARGE = 47      /* above 65,536 bytes */
};

/* An answer: RK_DONE, a number above, or RK_ROOM. Beside RK_DONE a count: of lines, or of the bytes
 * written. Beside 40 to 43 and 45 the place of the fault, beside the others 0. */
typedef struct {
    uint64_t number;
    uint64_t place;
} rk_finding;
RK_SIZE(rk_finding, 2);

/* Whether a file is sound. 0 and its lines; 40 to 47, the lowest place first, 44 and 46 only where
 * nothing else is wrong. */
rk_finding rk_market_check(const uint8_t *file, size_t len);

/* The values of a file. As rk_market_check, then 8; len bytes are always room enough.
 * 0 writes the first .place bytes of out. */
rk_finding rk_market_values(const uint8_t *file, size_t len, uint8_t *out, size_t out_len);

/* The file that values make: count and sum are worked out. 40, 42, 43 by rising place among the
 * values, then 47, then 8; 65,536 bytes are always room enough.
 * 0 writes the first .place bytes of out. */
rk_finding rk_market_write(const uint8_t *values, size_t len, uint8_t *out, size_t out_len);

/* A MONTH OF CAPTURES */

/* What a capture has of a channel, or the sums over captures. */
typedef struct {
    uint64_t received;    /* ticks received for the first time */
    uint64_t repeated;    /* ticks received before */
    uint64_t far;         /* ticks refused as more than 256 above the floor */
    uint64_t missing;     /* numbers up to the known top that were not received */
    uint64_t asked;       /* P002 of status 0: requests */
    uint64_t unavailable; /* P002 of status 4: no data */
} rk_figures;
RK_SIZE(rk_figures, 6);

/* A capture's figures, a row for each place of the page; rows without a channel are 0. */
typedef struct {
    rk_figures rows[32];
} rk_month_figures;
RK_SIZE(rk_month_figures, 192);

/* A page over up to 500 captures. Read and copy it as you like, but do not change it: a call on a
 * page that breaks its rules (docs/STATES.md) returns 13. */
typedef struct {
    uint64_t channels[32]; /* in the order named, then 0 */
    uint64_t named;        /* how many are named */
    uint64_t taken;        /* how many captures were taken */
    rk_figures sums[32];   /* over these captures */
} rk_month;
RK_SIZE(rk_month, 226);

/* A page of these channels, with nothing taken. They are judged one by one, and the code is
 * that of the first one refused: 10 above 9,999, 22 if it was named before, 21 for a 33rd.
 * Returns 0, 10, 22, 21. 0 writes *state. */
uint32_t rk_month_start(const uint16_t *channels, size_t named, rk_month *state);

/* Takes one more capture, of any bytes: its figures for each channel, counted on a fresh ledger,
 * and the sums with them. A scrubbed capture has the figures of the original. It takes up to
 * 17 KB of stack.
 * Returns 0, 13, 27, 28. 0 writes *state and *told. */
uint32_t rk_month_add(rk_month *state, const uint8_t *capture, size_t len, rk_month_figures *told);

/* A SESSION */

/* The client's side of one line to the gateway: what to send, when, and under which number. You
 * write the frame (rk_write) with your own CompIDs and SendingTime, and send it. The table of
 * states and the order of calls are in docs/SESSION.md.
 *
 * Times are milliseconds of a clock of yours that does not go back; one before the last counts as
 * the last. Only rk_session_time sends heartbeats and calls the line dead: call it often, and after
 * each frame.
 *
 * Keep and copy the words as you like, but do not read or make them. A call on words that break the
 * state rules returns 13. A new session is rk_session_open again, and before rk_session_begin
 * rk_channels_renew for a table of channels that you keep, rk_ledger_renew for each ledger that
 * stands alone. Never rk_ledger_renew on a row of a table: the table would be broken (13). */
typedef struct {
    uint64_t words[8];
} rk_session;
RK_SIZE(rk_session, 8);

typedef struct {
    uint64_t msg_type; /* send a message of this type: S001, S002, S003 or P002; 0: send nothing */
    uint64_t seq;      /* under this MsgSeqNum; 0 if nothing is to be sent */
    uint64_t dead;     /* 1 if the line is dead: close it. The session is over */
} rk_turn;
RK_SIZE(rk_turn, 3);

typedef struct {
    uint64_t msg_type;
    uint64_t seq;
    uint64_t dead; /* 0: only rk_session_time calls a line dead */
    uint64_t len;  /* of the frame that was taken */
} rk_arrival;
RK_SIZE(rk_arrival, 4);

/* A new session: both counters at 1.
 * Always returns 0, and writes *state. */
uint32_t rk_session_open(rk_session *state);

/* Begins: send the logon.
 * Returns 0, 13, 32, 33. 0 writes *state and *told. */
uint32_t rk_session_begin(rk_session *state, uint64_t time, rk_turn *told);

/* Lets time pass: send a heartbeat if one is due; close the line if it is dead.
 * Returns 0, 13, 32. 32 only if a heartbeat is due and no number is left for it. 0 writes *state
 * and *told. */
uint32_t rk_session_time(rk_session *state, uint64_t time, rk_turn *told);

/* Leaves: send the logout, and nothing after it. The gateway answers by its own.
 * Returns 0, 13, 30, 32. 0 writes *state and *told. */
uint32_t rk_session_leave(rk_session *state, uint64_t time, rk_turn *told);

/* Asks for a resend: send the P002 of rk_ledger_request or rk_channels_request. Call
 * rk_session_may_send before that one.
 * Returns 0, 13, 30, 32. 0 writes *state and *told. */
uint32_t rk_session_ask(rk_session *state, uint64_t time, rk_turn *told);

/* The frame at the front has arrived; the bytes after it do not matter. 1 asks for more bytes.
 * After 30 to 33 the frame is not taken; rk_read has its length.
 * Returns 0, 1 to 7, 13, 30 to 33. 13 comes before all others. 0 writes *state and *told. */
uint32_t rk_session_receive(rk_session *state, uint64_t time, const uint8_t *bytes, size_t len, rk_arrival *told);

/* What rk_session_ask would return now. Nothing is sent, nothing changes.
 * Returns 0, 13, 30, 32. */
uint32_t rk_session_may_send(const rk_session *state, uint64_t time);

#undef RK_SIZE

#ifdef __cplusplus
}
#endif

#endif
