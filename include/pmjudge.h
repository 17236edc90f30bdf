/*
 * The judge of persistent-memory traces, the writer of traces, the layout of findings for print, the
 * mean exposure of traces, and the persist interval of a byte, for programs in C and C++.
 * README.md says what a trace and a finding are. `scripts/build pmjudge_c` builds the library,
 * target/staticlib/libpmjudge_c.a.
 *
 * The library keeps nothing between calls, allocates nothing and prints nothing. No pointer may be
 * null, also where its length is 0. An area, a writer and an answer share no byte with another
 * argument of the same call.
 */
#ifndef PMJUDGE_H
#define PMJUDGE_H

#include <stddef.h>
#include <stdint.h>

#ifdef __cplusplus
extern "C" {
#endif

/* Bytes of a record, of a finding and of the trailer of a trace. */
#define PMJUDGE_RECORD_SIZE 12
#define PMJUDGE_FINDING_SIZE 12
#define PMJUDGE_TRAILER_SIZE 16

/* The most bytes of a trace, and the most records. */
#define PMJUDGE_MOST_BYTES 65536
#define PMJUDGE_MOST_RECORDS 5460

/* The window: the bytes of a cache line, and the most lines. */
#define PMJUDGE_LINE_SIZE 64
#define PMJUDGE_MOST_LINES 64

/* The most transactions open at once. */
#define PMJUDGE_MOST_DEPTH 8

/* Pages for print: findings on a page, bytes of a line, the most findings, the most bytes. */
#define PMJUDGE_PAGE_FINDINGS 58
#define PMJUDGE_PAGE_LINE_SIZE 62
#define PMJUDGE_MOST_FINDINGS 65535
#define PMJUDGE_MOST_PAGE_BYTES 4203290

/* Why a call is refused: the first number of every answer. */
enum pmjudge_refusal {
    PMJUDGE_ACCEPTED = 0,
    PMJUDGE_TRACE_TOO_SHORT = 1,      /* a trace under 16 bytes */
    PMJUDGE_TRACE_TOO_LONG = 2,       /* a trace over 65,536 bytes, counting a trailer to come */
    PMJUDGE_MARK_DIFFERS = 3,         /* a trailer without the mark */
    PMJUDGE_BAD_LINES = 4,            /* lines outside 1 to 64, or the trailer's zero field set */
    PMJUDGE_LENGTH_DIFFERS = 5,       /* offset + 12 * count + 16 is not the length; bytes that are
                                         no findings */
    PMJUDGE_UNKNOWN_KIND = 6,         /* a kind of event that is not 1 to 8, of finding over 8 */
    PMJUDGE_FIELD_SET = 7,            /* a zero byte, or a field that the kind lacks, is set */
    /* 8 was a range of length 0, up to version 2 */
    PMJUDGE_PAST_WINDOW = 9,          /* a range past the window, or a byte asked for */
    PMJUDGE_EVENTS_EXHAUSTED = 10,    /* more than 65,535 events; no trace is that long */
    PMJUDGE_NO_TRANSACTION = 11,      /* a log or an end outside a transaction */
    PMJUDGE_TOO_DEEP = 12,            /* a ninth begin inside eight */
    PMJUDGE_TRANSACTION_OPEN = 13,    /* a transaction that is still open at the end */
    PMJUDGE_AREA_TOO_SHORT = 14,      /* a findings area under 12 bytes for each record */
    PMJUDGE_FILE_AREA_TOO_SHORT = 15, /* a writer's area without room for what a call puts there */
    PMJUDGE_PAGE_AREA_TOO_SHORT = 16, /* a page area shorter than the pages */
    PMJUDGE_NO_BYTE_CLOSED = 17,      /* a mean exposure where no byte is closed */
    PMJUDGE_SHARED_BYTE = 18          /* an ordered whose A and B share a byte; checked after 9 */
};

/*
 * The kinds of event, with the ranges that each has. A range of length 0 has no byte and touches no
 * line; its address is at most the window's size in bytes, 64 for each line.
 */
enum pmjudge_event {
    PMJUDGE_STORE = 1,      /* A */
    PMJUDGE_WRITE_BACK = 2, /* A: clwb of every line that it touches */
    PMJUDGE_FENCE = 3,      /* sfence */
    PMJUDGE_BEGIN = 4,      /* a transaction begins */
    PMJUDGE_LOG = 5,        /* A goes into the undo log */
    PMJUDGE_END = 6,        /* a transaction ends */
    PMJUDGE_PERSISTED = 7,  /* assert that A is durable now */
    PMJUDGE_ORDERED = 8     /* assert that A is durable before B; they share no byte */
};

/* The kinds of finding. */
enum pmjudge_finding {
    PMJUDGE_NONE = 0,
    PMJUDGE_HOLDS = 1,
    PMJUDGE_LOST = 2,
    PMJUDGE_OUT_OF_ORDER = 3,
    PMJUDGE_UNLOGGED = 4,
    PMJUDGE_CLEAN = 5,
    PMJUDGE_WRITTEN_TWICE = 6,
    PMJUDGE_LOGGED_TWICE = 7,
    PMJUDGE_EMPTY = 8
};

/*
 * Judges a trace into a findings area.
 *
 * answer[0] is the refusal, PMJUDGE_ACCEPTED if there is none, and answer[1] the number of the
 * record refused: from 1, and 0 if no record is meant. answer[2] to answer[4] are the events, the
 * fences and the findings other than PMJUDGE_NONE; all 0 for a refused trace. A trace is refused by
 * the first number that applies: 1 to 5, 14; then record by record 6, 7, 9, 18, 10 to 12; then
 * 13.
 *
 * An accepted trace puts its findings at the area's start, PMJUDGE_FINDING_SIZE bytes for each
 * record in order: the kind, a zero byte, then lost, kept, moment, store and site, 16 bits each with
 * the least significant byte first. The area's other bytes stay as they were; all of them do if the
 * trace is refused.
 *
 * A call takes about 95 KB of the caller's stack: 65,520 bytes for findings, 24,832 for tables, and
 * little more.
 */
void pmjudge_judge(const uint8_t *trace, size_t trace_length, uint8_t *area, size_t area_length,
                   uint32_t answer[5]);

/*
 * A trace is written into an area of the caller by a start, one event after another, and a closing.
 * It takes the preamble's bytes, PMJUDGE_RECORD_SIZE bytes for each event and PMJUDGE_TRAILER_SIZE
 * bytes; an area of PMJUDGE_MOST_BYTES has room for every trace. Between the calls the caller keeps
 * the area and the writer, and changes neither. The writer's numbers are the window's lines, the
 * preamble's length, the events put and the transactions open. (Of a writer that no start handed
 * over, the first number and the last are taken modulo 65,536, the length is given modulo 2^32, and
 * the judge may refuse the trace.)
 *
 * answer[0] is the refusal, PMJUDGE_ACCEPTED if there is none. answer[1] is the trace's length after
 * an accepted closing, else 0. A refused call leaves area and writer as they were; an accepted one
 * changes no byte of the area but those that it puts there.
 */

/*
 * Starts a trace: puts the preamble, bytes that the judge passes over, at the area's start, and sets
 * the writer. Refused by the first that applies: 4; 2, a preamble that with a trailer has over 65,536
 * bytes; 15, an area shorter than the preamble.
 */
void pmjudge_writer_start(uint8_t *area, size_t area_length, const uint8_t *preamble,
                          size_t preamble_length, uint16_t lines, uint32_t writer[4],
                          uint32_t answer[2]);

/*
 * Puts an event behind those before it. The kind is one of enum pmjudge_event; a and b are addresses
 * in bytes from the window's start, and 0, as their lengths, where the kind lacks the range. The
 * site is any number that tells the caller where the event comes from, for instance a source line.
 * Refused by the first that applies: 2, a trace that with this event and a trailer has over 65,536
 * bytes; 6, 7, 9, 18, 10 to 12, where the judge would refuse the record at this place; 15.
 */
void pmjudge_writer_event(uint8_t *area, size_t area_length, uint32_t writer[4], uint8_t kind,
                          uint16_t a, uint16_t a_length, uint16_t b, uint16_t b_length,
                          uint16_t site, uint32_t answer[2]);

/*
 * Closes a trace: puts the trailer behind the events. The area's first answer[1] bytes are then a
 * trace that the judge accepts. Refused by the first that applies: 13; 15. The writer does not
 * change: an event given after the closing takes the trailer's place, and the trace needs closing
 * again.
 */
void pmjudge_writer_close(uint8_t *area, size_t area_length, const uint32_t writer[4],
                          uint32_t answer[2]);

/*
 * Lays out findings on pages for print, in a page area. The findings are those of a findings area,
 * PMJUDGE_FINDING_SIZE bytes each: the first 12 * events bytes of an area that pmjudge_judge left,
 * or such bytes from a file. Shown are the findings other than PMJUDGE_NONE, in event order; an
 * event's number is its finding's position, from 1.
 *
 * answer[0] is the refusal, PMJUDGE_ACCEPTED if there is none, and answer[1] the position of the
 * finding refused: from 1, and 0 if no finding is meant. answer[2] is the length written, 0 if the
 * call is refused. It is refused by the first number that applies: 5, a length that is no multiple
 * of 12, or more than 65,535 findings; then finding by finding 6, a kind over 8, and 7, a zero byte
 * that is set; then 16, a page area shorter than the pages.
 *
 * The pages have PMJUDGE_PAGE_LINE_SIZE * (2 * pages + shown) bytes: each page has a heading, a line
 * for each of PMJUDGE_PAGE_FINDINGS findings, the last page fewer, and a foot. Where nothing is
 * shown there is one page. A page area of PMJUDGE_MOST_PAGE_BYTES has room for the pages of every
 * findings area. They are put at its start; its other bytes stay as they were, and all of them do
 * if the call is refused.
 */
void pmjudge_pages(const uint8_t *findings, size_t findings_length, uint8_t *area,
                   size_t area_length, uint32_t answer[3]);

/*
 * The mean exposure of a trace: how many epochs its bytes stay at risk. A byte is open after its last
 * store, and closed by the first fence after the first write-back of its line after that store. Its
 * exposure is the number of fences after the store, up to and with that one: each begins an epoch.
 * The exposures of all bytes of the window that are closed after the last event are summed, and the
 * sum is divided by the number of these bytes. Bytes that are open, or were never stored to, are left
 * out, and so is what happened to a byte before its last store.
 *
 * answer[0] is the refusal, PMJUDGE_ACCEPTED if there is none, and answer[1] the number of the
 * record refused: from 1, and 0 if no record is meant. answer[2] to answer[4] are quotient, remainder
 * and divisor; all 0 for a refused trace. The divisor is the number of bytes closed, and quotient *
 * divisor + remainder the sum, with the remainder below the divisor; the mean is 1 at least. A trace
 * is refused by the first number that applies: 1 to 5; then record by record 6, 7, 9, 18, 10 to 12;
 * then 13; then 17.
 *
 * A call takes about 42 KB of the caller's stack: 41,216 bytes for tables, and little more.
 */
void pmjudge_exposure(const uint8_t *trace, size_t trace_length, uint32_t answer[5]);

/* What a byte's persist interval is. */
enum pmjudge_interval_state {
    PMJUDGE_NO_INTERVAL = 0, /* the byte was never stored to */
    PMJUDGE_OPEN = 1,        /* it is at risk since its last store */
    PMJUDGE_CLOSED = 2       /* it is durable */
};

/*
 * The persist interval of a byte after all events of a trace: where the byte was last stored to, and
 * which fence made it durable. The interval opens at the last store, and the first fence after the
 * first write-back of the byte's line after that store closes it.
 *
 * answer[0] is the refusal, PMJUDGE_ACCEPTED if there is none, and answer[1] the number of the
 * record refused: from 1, and 0 if no record is meant. answer[2] is one of enum
 * pmjudge_interval_state. answer[3] is the epoch of the last store, and answer[4] the epoch that the
 * closing fence began: how many fences there are up to and with that event. answer[5] to answer[7]
 * are events, by their record's number from 1: the last store, the first write-back after it, and the
 * closing fence; answer[8] to answer[10] are the sites of these three. What an answer lacks is 0: an
 * open interval has no fence, and has no write-back where there is none yet. A trace is refused by
 * the first number that applies: 1 to 5; then record by record 6, 7, 9, 18, 10 to 12; then 13; and
 * then the byte by 9 with the record 0, where it is past the trace's window.
 *
 * A call takes about 50 KB of the caller's stack: 49,408 bytes for tables, and little more.
 */
void pmjudge_interval(const uint8_t *trace, size_t trace_length, uint16_t byte,
                      uint32_t answer[11]);

#ifdef __cplusplus
}
#endif

#endif
