/*
 * The calls of include/pmjudge.h: every refusal by its name, that a refused call changes nothing,
 * closing again, every finding by its name, pages of findings, mean exposures, and persist
 * intervals. Prints what fails and the counts.
 */
#include <stdio.h>
#include <string.h>

#include "pmjudge.h"

#define AREA (PMJUDGE_MOST_BYTES + 16)

static uint8_t preamble[AREA], area[AREA], area_before[AREA], findings[PMJUDGE_MOST_BYTES];
static uint8_t pages[PMJUDGE_MOST_PAGE_BYTES + 16], pages_before[PMJUDGE_MOST_PAGE_BYTES + 16];
static uint8_t stored[PMJUDGE_FINDING_SIZE * (PMJUDGE_MOST_FINDINGS + 1)];
static uint32_t writer[4], writer_before[4], answer[2], verdict[5], paged[3];
static uint32_t exposed[7], exposed_before[7]; /* an answer with a number before and after it */
static uint32_t asked[13], asked_before[13];
static int passed, failed;

static void expect(int line, int holds)
{
    if (holds) {
        passed++;
    } else {
        failed++;
        printf("failed: scripts/test-tracer.c:%d: answer %lu %lu, of pages %lu %lu %lu, of a mean "
               "exposure %lu %lu %lu %lu %lu\n",
               line, (unsigned long)answer[0], (unsigned long)answer[1], (unsigned long)paged[0],
               (unsigned long)paged[1], (unsigned long)paged[2], (unsigned long)exposed[1],
               (unsigned long)exposed[2], (unsigned long)exposed[3], (unsigned long)exposed[4],
               (unsigned long)exposed[5]);
    }
}

#define EXPECT(holds) expect(__LINE__, (holds))

static void remember(void)
{
    memcpy(area_before, area, sizeof area);
    memcpy(writer_before, writer, sizeof writer);
    memset(answer, 0xa5, sizeof answer);
}

/* Whether the last call gave this answer and changed the area's bytes from..to at most. */
static int answered(uint32_t number, uint32_t length, size_t from, size_t to)
{
    return answer[0] == number && answer[1] == length && memcmp(area, area_before, from) == 0 &&
           memcmp(area + to, area_before + to, sizeof area - to) == 0;
}

/* Whether the last call was refused by this number, and changed neither area nor writer. */
static int refused(enum pmjudge_refusal number)
{
    return answered((uint32_t)number, 0, 0, 0) && memcmp(writer, writer_before, sizeof writer) == 0;
}

static void start(size_t area_length, size_t preamble_length, uint16_t lines)
{
    remember();
    pmjudge_writer_start(area, area_length, preamble, preamble_length, lines, writer, answer);
}

static void event_in(size_t area_length, int kind, uint16_t a, uint16_t a_length, uint16_t b,
                     uint16_t b_length)
{
    remember();
    pmjudge_writer_event(area, area_length, writer, (uint8_t)kind, a, a_length, b, b_length, 7,
                         answer);
}

static void event(int kind, uint16_t a, uint16_t a_length)
{
    event_in(AREA, kind, a, a_length, 0, 0);
}

static void end_file(size_t area_length)
{
    remember();
    pmjudge_writer_close(area, area_length, writer, answer);
}

/* Judges the area's first bytes; whether the answer starts with these two numbers. */
static int judged(size_t length, size_t findings_length, enum pmjudge_refusal number,
                  uint32_t record)
{
    pmjudge_judge(area, length, findings, findings_length, verdict);
    return verdict[0] == (uint32_t)number && verdict[1] == record;
}

/*
 * Asks for the mean exposure of the area's first bytes; whether the answer is these five numbers,
 * and neither the area nor what stands around the answer changed.
 */
static int exposure_is(size_t length, enum pmjudge_refusal number, uint32_t record,
                       uint32_t quotient, uint32_t remainder, uint32_t divisor)
{
    memcpy(area_before, area, sizeof area);
    memset(exposed, 0xa5, sizeof exposed);
    memcpy(exposed_before, exposed, sizeof exposed);
    pmjudge_exposure(area, length, exposed + 1);
    return exposed[1] == (uint32_t)number && exposed[2] == record && exposed[3] == quotient &&
           exposed[4] == remainder && exposed[5] == divisor && exposed[0] == exposed_before[0] &&
           exposed[6] == exposed_before[6] && memcmp(area, area_before, sizeof area) == 0;
}

/* Whether a mean exposure is refused by this number at this record. */
static int unexposed(size_t length, enum pmjudge_refusal number, uint32_t record)
{
    return exposure_is(length, number, record, 0, 0, 0);
}

/*
 * Asks for the persist interval of a byte after the trace of the area's first bytes; whether the
 * answer is these eleven numbers, and neither the area nor what stands around the answer changed.
 */
static int interval_is(size_t length, uint16_t byte, const uint32_t numbers[11])
{
    memcpy(area_before, area, sizeof area);
    memset(asked, 0xa5, sizeof asked);
    memcpy(asked_before, asked, sizeof asked);
    pmjudge_interval(area, length, byte, asked + 1);
    return memcmp(asked + 1, numbers, 11 * sizeof numbers[0]) == 0 && asked[0] == asked_before[0] &&
           asked[12] == asked_before[12] && memcmp(area, area_before, sizeof area) == 0;
}

/* Whether a byte asked for is refused by this number at this record. */
static int unasked(size_t length, uint16_t byte, enum pmjudge_refusal number, uint32_t record)
{
    uint32_t numbers[11] = {0};
    numbers[0] = (uint32_t)number;
    numbers[1] = record;
    return interval_is(length, byte, numbers);
}

static int writer_is(uint32_t lines, uint32_t offset, uint32_t count, uint32_t open)
{
    return writer[0] == lines && writer[1] == offset && writer[2] == count && writer[3] == open;
}

static void starts(void)
{
    start(0, PMJUDGE_MOST_BYTES, 0);
    EXPECT(refused(PMJUDGE_BAD_LINES));
    start(AREA, 5, PMJUDGE_MOST_LINES + 1);
    EXPECT(refused(PMJUDGE_BAD_LINES));
    start(0, PMJUDGE_MOST_BYTES - PMJUDGE_TRAILER_SIZE + 1, 1);
    EXPECT(refused(PMJUDGE_TRACE_TOO_LONG));
    start(4, 5, 1);
    EXPECT(refused(PMJUDGE_FILE_AREA_TOO_SHORT));
    start(AREA, PMJUDGE_MOST_BYTES - PMJUDGE_TRAILER_SIZE, PMJUDGE_MOST_LINES);
    EXPECT(answered(PMJUDGE_ACCEPTED, 0, 0, PMJUDGE_MOST_BYTES - PMJUDGE_TRAILER_SIZE));
    start(5, 5, 2);
    EXPECT(answered(PMJUDGE_ACCEPTED, 0, 0, 5) && writer_is(2, 5, 0, 0));
    EXPECT(memcmp(area, preamble, 5) == 0);
}

static void events(void)
{
    int depth;
    start(AREA, 5, 2);
    event(PMJUDGE_STORE - 1, 0, 8);
    EXPECT(refused(PMJUDGE_UNKNOWN_KIND));
    event(PMJUDGE_ORDERED + 1, 0, 0);
    EXPECT(refused(PMJUDGE_UNKNOWN_KIND));
    event(PMJUDGE_FENCE, 0, 1);
    EXPECT(refused(PMJUDGE_FIELD_SET));
    event_in(AREA, PMJUDGE_STORE, 0, 0, 1, 0);
    EXPECT(refused(PMJUDGE_FIELD_SET));
    event_in(AREA, PMJUDGE_ORDERED, 121, 8, 0, 0);
    EXPECT(refused(PMJUDGE_PAST_WINDOW));
    event_in(AREA, PMJUDGE_ORDERED, 120, 8, 129, 0);
    EXPECT(refused(PMJUDGE_PAST_WINDOW));
    event(PMJUDGE_STORE, 129, 0);
    EXPECT(refused(PMJUDGE_PAST_WINDOW));
    event(PMJUDGE_LOG, 121, 8);
    EXPECT(refused(PMJUDGE_PAST_WINDOW));
    event_in(AREA, PMJUDGE_ORDERED, 120, 9, 120, 8); /* they share bytes too */
    EXPECT(refused(PMJUDGE_PAST_WINDOW));
    event_in(0, PMJUDGE_ORDERED, 0, 8, 0, 8); /* there is no room either */
    EXPECT(refused(PMJUDGE_SHARED_BYTE));
    event_in(AREA, PMJUDGE_ORDERED, 120, 8, 127, 1);
    EXPECT(refused(PMJUDGE_SHARED_BYTE));
    event(PMJUDGE_LOG, 120, 8);
    EXPECT(refused(PMJUDGE_NO_TRANSACTION));
    event(PMJUDGE_LOG, 128, 0);
    EXPECT(refused(PMJUDGE_NO_TRANSACTION));
    event(PMJUDGE_END, 0, 0);
    EXPECT(refused(PMJUDGE_NO_TRANSACTION));
    event_in(5 + PMJUDGE_RECORD_SIZE - 1, PMJUDGE_STORE, 120, 8, 0, 0);
    EXPECT(refused(PMJUDGE_FILE_AREA_TOO_SHORT));
    event_in(5 + PMJUDGE_RECORD_SIZE, PMJUDGE_STORE, 120, 8, 0, 0);
    EXPECT(answered(PMJUDGE_ACCEPTED, 0, 5, 5 + PMJUDGE_RECORD_SIZE) && writer_is(2, 5, 1, 0));
    for (depth = 0; depth < PMJUDGE_MOST_DEPTH; depth++)
        event(PMJUDGE_BEGIN, 0, 0);
    EXPECT(answer[0] == PMJUDGE_ACCEPTED && writer_is(2, 5, 9, 8));
    event_in(0, PMJUDGE_BEGIN, 0, 0, 0, 0);
    EXPECT(refused(PMJUDGE_TOO_DEEP));
    end_file(0);
    EXPECT(refused(PMJUDGE_TRANSACTION_OPEN));
}

static void closings(void)
{
    size_t length = 5 + PMJUDGE_RECORD_SIZE + PMJUDGE_TRAILER_SIZE;
    start(AREA, 5, 2);
    event(PMJUDGE_FENCE, 0, 0);
    end_file(length - 1);
    EXPECT(refused(PMJUDGE_FILE_AREA_TOO_SHORT));
    end_file(length);
    EXPECT(answered(PMJUDGE_ACCEPTED, (uint32_t)length, length - PMJUDGE_TRAILER_SIZE, length));
    EXPECT(writer_is(2, 5, 1, 0) && judged(length, 12, PMJUDGE_ACCEPTED, 0) && verdict[2] == 1);
    event(PMJUDGE_STORE, 0, 8);
    EXPECT(answered(PMJUDGE_ACCEPTED, 0, length - PMJUDGE_TRAILER_SIZE, length - 4));
    EXPECT(judged(length, 24, PMJUDGE_MARK_DIFFERS, 0));
    length += PMJUDGE_RECORD_SIZE;
    end_file(length);
    EXPECT(answered(PMJUDGE_ACCEPTED, (uint32_t)length, length - PMJUDGE_TRAILER_SIZE, length));
    EXPECT(judged(length, 24, PMJUDGE_ACCEPTED, 0) && verdict[2] == 2 && verdict[3] == 1);
    end_file(AREA);
    EXPECT(answered(PMJUDGE_ACCEPTED, (uint32_t)length, length - PMJUDGE_TRAILER_SIZE, length));
    EXPECT(memcmp(area, preamble, 5) == 0);
}

static void longest(void)
{
    int record;
    start(AREA, 0, 1);
    for (record = 0; record < PMJUDGE_MOST_RECORDS; record++)
        event(PMJUDGE_FENCE, 0, 0);
    EXPECT(answer[0] == PMJUDGE_ACCEPTED && writer_is(1, 0, PMJUDGE_MOST_RECORDS, 0));
    event_in(0, PMJUDGE_ORDERED + 1, 0, 0, 0, 0);
    EXPECT(refused(PMJUDGE_TRACE_TOO_LONG));
    end_file(AREA);
    EXPECT(answer[0] == PMJUDGE_ACCEPTED && answer[1] == PMJUDGE_MOST_BYTES);
    EXPECT(judged(PMJUDGE_MOST_BYTES, sizeof findings, PMJUDGE_ACCEPTED, 0));
    EXPECT(verdict[3] == PMJUDGE_MOST_RECORDS);
    EXPECT(judged(PMJUDGE_MOST_BYTES, 0, PMJUDGE_AREA_TOO_SHORT, 0));
    EXPECT(judged(PMJUDGE_MOST_BYTES + 1, 0, PMJUDGE_TRACE_TOO_LONG, 0));
    EXPECT(judged(PMJUDGE_TRAILER_SIZE - 1, 0, PMJUDGE_TRACE_TOO_SHORT, 0));
    EXPECT(unexposed(PMJUDGE_MOST_BYTES, PMJUDGE_NO_BYTE_CLOSED, 0));
    EXPECT(unexposed(PMJUDGE_MOST_BYTES + 1, PMJUDGE_TRACE_TOO_LONG, 0));
    EXPECT(unexposed(PMJUDGE_TRAILER_SIZE - 1, PMJUDGE_TRACE_TOO_SHORT, 0));
    EXPECT(unasked(PMJUDGE_MOST_BYTES + 1, 0, PMJUDGE_TRACE_TOO_LONG, 0));
    EXPECT(unasked(PMJUDGE_TRAILER_SIZE - 1, 0, PMJUDGE_TRACE_TOO_SHORT, 0));
}

/* An ordered whose B starts behind A, and then, by a changed byte, with A's last byte. */
static void shared_ranges(void)
{
    start(AREA, 0, 1);
    event(PMJUDGE_STORE, 0, 8);
    event_in(AREA, PMJUDGE_ORDERED, 0, 8, 8, 8);
    event(PMJUDGE_FENCE, 0, 0);
    end_file(AREA);
    EXPECT(judged(answer[1], sizeof findings, PMJUDGE_ACCEPTED, 0));
    area[PMJUDGE_RECORD_SIZE + 6] = 7; /* the address of B */
    EXPECT(judged(answer[1], sizeof findings, PMJUDGE_SHARED_BYTE, 2));
    EXPECT(unexposed(answer[1], PMJUDGE_SHARED_BYTE, 2));
    EXPECT(unasked(answer[1], 64, PMJUDGE_SHARED_BYTE, 2));
}

/* Refusals of a judge, a mean exposure and a byte asked for, by changed bytes of a fence's trace. */
static void changed_bytes(void)
{
    size_t length = PMJUDGE_RECORD_SIZE + PMJUDGE_TRAILER_SIZE;
    static const struct {
        size_t at;
        uint8_t byte;
        enum pmjudge_refusal number;
        uint32_t record;
    } changes[] = {
        {12, 'p', PMJUDGE_MARK_DIFFERS, 0},
        {24, 0, PMJUDGE_BAD_LINES, 0},
        {20, 2, PMJUDGE_LENGTH_DIFFERS, 0},
        {0, 9, PMJUDGE_UNKNOWN_KIND, 1},
        {1, 1, PMJUDGE_FIELD_SET, 1},
        {0, PMJUDGE_END, PMJUDGE_NO_TRANSACTION, 1},
        {0, PMJUDGE_BEGIN, PMJUDGE_TRANSACTION_OPEN, 0},
    };
    size_t change;
    for (change = 0; change < sizeof changes / sizeof changes[0]; change++) {
        start(AREA, 0, 1);
        event(PMJUDGE_FENCE, 0, 0);
        end_file(AREA);
        area[changes[change].at] = changes[change].byte;
        EXPECT(judged(length, 12, changes[change].number, changes[change].record));
        EXPECT(unexposed(length, changes[change].number, changes[change].record));
        EXPECT(unasked(length, 64, changes[change].number, changes[change].record));
    }
}

static void kinds_of_finding(void)
{
    static const struct {
        int kind;
        uint16_t a, a_length, b, b_length;
        enum pmjudge_finding finding;
    } given[] = {
        {PMJUDGE_STORE, 0, 8, 0, 0, PMJUDGE_NONE},
        {PMJUDGE_STORE, 64, 8, 0, 0, PMJUDGE_NONE},
        {PMJUDGE_PERSISTED, 0, 8, 0, 0, PMJUDGE_LOST},
        {PMJUDGE_ORDERED, 0, 8, 64, 8, PMJUDGE_OUT_OF_ORDER},
        {PMJUDGE_WRITE_BACK, 0, 72, 0, 0, PMJUDGE_NONE},
        {PMJUDGE_WRITE_BACK, 0, 8, 0, 0, PMJUDGE_WRITTEN_TWICE},
        {PMJUDGE_WRITE_BACK, 128, 8, 0, 0, PMJUDGE_CLEAN},
        {PMJUDGE_FENCE, 0, 0, 0, 0, PMJUDGE_NONE},
        {PMJUDGE_PERSISTED, 0, 72, 0, 0, PMJUDGE_HOLDS},
        {PMJUDGE_BEGIN, 0, 0, 0, 0, PMJUDGE_NONE},
        {PMJUDGE_LOG, 0, 8, 0, 0, PMJUDGE_NONE},
        {PMJUDGE_LOG, 0, 8, 0, 0, PMJUDGE_LOGGED_TWICE},
        {PMJUDGE_END, 0, 0, 0, 0, PMJUDGE_EMPTY},
        {PMJUDGE_BEGIN, 0, 0, 0, 0, PMJUDGE_NONE},
        {PMJUDGE_STORE, 0, 8, 0, 0, PMJUDGE_UNLOGGED},
        {PMJUDGE_END, 0, 0, 0, 0, PMJUDGE_LOST},
        /* ranges of no bytes; the window has 192 bytes */
        {PMJUDGE_WRITE_BACK, 128, 0, 0, 0, PMJUDGE_NONE},
        {PMJUDGE_BEGIN, 0, 0, 0, 0, PMJUDGE_NONE},
        {PMJUDGE_STORE, 192, 0, 0, 0, PMJUDGE_NONE},
        {PMJUDGE_LOG, 0, 0, 0, 0, PMJUDGE_NONE},
        {PMJUDGE_END, 0, 0, 0, 0, PMJUDGE_EMPTY},
        {PMJUDGE_PERSISTED, 0, 0, 0, 0, PMJUDGE_HOLDS},
        {PMJUDGE_ORDERED, 0, 8, 64, 8, PMJUDGE_OUT_OF_ORDER},
        {PMJUDGE_ORDERED, 0, 0, 64, 8, PMJUDGE_HOLDS},
        {PMJUDGE_ORDERED, 0, 8, 64, 0, PMJUDGE_HOLDS},
        /* ranges that touch, and one of no bytes inside the other: they share no byte */
        {PMJUDGE_ORDERED, 8, 8, 0, 8, PMJUDGE_HOLDS},
        {PMJUDGE_ORDERED, 0, 8, 4, 0, PMJUDGE_HOLDS},
    };
    size_t count = sizeof given / sizeof given[0], at;
    start(AREA, 0, 3);
    for (at = 0; at < count; at++)
        event_in(AREA, given[at].kind, given[at].a, given[at].a_length, given[at].b,
                 given[at].b_length);
    end_file(AREA);
    EXPECT(judged(answer[1], sizeof findings, PMJUDGE_ACCEPTED, 0) && verdict[2] == count);
    for (at = 0; at < count; at++)
        EXPECT(findings[at * PMJUDGE_FINDING_SIZE] == (uint8_t)given[at].finding);
}

/* Lays out stored findings in a page area of so many bytes. */
static void lay_out(size_t stored_length, size_t pages_length)
{
    memcpy(pages_before, pages, sizeof pages);
    memset(paged, 0xa5, sizeof paged);
    pmjudge_pages(stored, stored_length, pages, pages_length, paged);
}

/* Whether the pages were written with this length, and the bytes beyond did not change. */
static int written(size_t length)
{
    return paged[0] == PMJUDGE_ACCEPTED && paged[1] == 0 && paged[2] == length &&
           memcmp(pages + length, pages_before + length, sizeof pages - length) == 0;
}

/* Whether the last layout was refused by this number at this position, and changed nothing. */
static int unpaged(enum pmjudge_refusal number, uint32_t position)
{
    return paged[0] == (uint32_t)number && paged[1] == position && paged[2] == 0 &&
           memcmp(pages, pages_before, sizeof pages) == 0;
}

static const char heading[] = " event       site  finding          lost   kept moment  store\n";
static const char lost_row[] = "     2          7  lost                0      0      2      1\n";
static const char last_row[] = " 65535      65535  out-of-order    65535  65535  65535  65535\n";

/* Whether the line with this number, from 0, is this text, with blanks after a shorter one. */
static int line_is(size_t line, const char *text)
{
    char padded[PMJUDGE_PAGE_LINE_SIZE + 1];
    if (strlen(text) == PMJUDGE_PAGE_LINE_SIZE)
        memcpy(padded, text, sizeof padded);
    else
        sprintf(padded, "%-61s\n", text);
    return memcmp(pages + line * PMJUDGE_PAGE_LINE_SIZE, padded, PMJUDGE_PAGE_LINE_SIZE) == 0;
}

/* The pages of the findings that a judge left, with room for every byte and with one byte too few. */
static void pages_of_a_trace(void)
{
    size_t length = 3 * PMJUDGE_PAGE_LINE_SIZE;
    start(AREA, 0, 1);
    event(PMJUDGE_STORE, 0, 8);
    event(PMJUDGE_PERSISTED, 0, 8);
    end_file(AREA);
    EXPECT(judged(answer[1], sizeof findings, PMJUDGE_ACCEPTED, 0) && verdict[2] == 2);
    memcpy(stored, findings, verdict[2] * PMJUDGE_FINDING_SIZE);
    lay_out(verdict[2] * PMJUDGE_FINDING_SIZE, length - 1);
    EXPECT(unpaged(PMJUDGE_PAGE_AREA_TOO_SHORT, 0));
    lay_out(verdict[2] * PMJUDGE_FINDING_SIZE, length);
    EXPECT(written(length));
    EXPECT(line_is(0, heading) && line_is(1, lost_row) && line_is(2, "page 1 of 1"));
    lay_out(verdict[2] * PMJUDGE_FINDING_SIZE, sizeof pages);
    EXPECT(written(length));
}

/* An area without a finding, and one without a finding that is shown: one page. */
static void pages_of_nothing(void)
{
    size_t length = 2 * PMJUDGE_PAGE_LINE_SIZE;
    lay_out(0, length - 1);
    EXPECT(unpaged(PMJUDGE_PAGE_AREA_TOO_SHORT, 0));
    lay_out(0, length);
    EXPECT(written(length) && line_is(0, heading) && line_is(1, "page 1 of 1"));
    memset(stored, 0, sizeof stored);
    lay_out(PMJUDGE_FINDING_SIZE * PMJUDGE_MOST_FINDINGS, length);
    EXPECT(written(length) && line_is(0, heading) && line_is(1, "page 1 of 1"));
}

/* The most findings, each with the largest numbers: the pages are the longest. */
static void longest_pages(void)
{
    size_t length = PMJUDGE_MOST_PAGE_BYTES, at;
    size_t lines = length / PMJUDGE_PAGE_LINE_SIZE;
    memset(stored, 0xff, sizeof stored);
    for (at = 0; at <= PMJUDGE_MOST_FINDINGS; at++) {
        stored[at * PMJUDGE_FINDING_SIZE] = PMJUDGE_OUT_OF_ORDER;
        stored[at * PMJUDGE_FINDING_SIZE + 1] = 0;
    }
    lay_out(PMJUDGE_FINDING_SIZE * PMJUDGE_MOST_FINDINGS, length - 1);
    EXPECT(unpaged(PMJUDGE_PAGE_AREA_TOO_SHORT, 0));
    lay_out(PMJUDGE_FINDING_SIZE * PMJUDGE_MOST_FINDINGS, length);
    EXPECT(written(length));
    EXPECT(line_is(PMJUDGE_PAGE_FINDINGS + 1, "page 1 of 1130"));
    EXPECT(line_is(PMJUDGE_PAGE_FINDINGS + 2, heading) && line_is(lines - 2, last_row));
    EXPECT(line_is(lines - 1, "page 1130 of 1130"));
    lay_out(sizeof stored, sizeof pages);
    EXPECT(unpaged(PMJUDGE_LENGTH_DIFFERS, 0));
}

/* Damaged findings: the first one, its kind before its zero byte, and before a short page area. */
static void damaged_findings(void)
{
    memset(stored, 0, 3 * PMJUDGE_FINDING_SIZE);
    lay_out(3 * PMJUDGE_FINDING_SIZE - 1, 0);
    EXPECT(unpaged(PMJUDGE_LENGTH_DIFFERS, 0));
    lay_out(3 * PMJUDGE_FINDING_SIZE + 1, sizeof pages);
    EXPECT(unpaged(PMJUDGE_LENGTH_DIFFERS, 0));
    stored[2 * PMJUDGE_FINDING_SIZE] = PMJUDGE_EMPTY + 1;
    lay_out(3 * PMJUDGE_FINDING_SIZE, 0);
    EXPECT(unpaged(PMJUDGE_UNKNOWN_KIND, 3));
    stored[PMJUDGE_FINDING_SIZE + 1] = 1;
    lay_out(3 * PMJUDGE_FINDING_SIZE, sizeof pages);
    EXPECT(unpaged(PMJUDGE_FIELD_SET, 2));
    stored[PMJUDGE_FINDING_SIZE] = 255;
    lay_out(3 * PMJUDGE_FINDING_SIZE, sizeof pages);
    EXPECT(unpaged(PMJUDGE_UNKNOWN_KIND, 2));
    lay_out(PMJUDGE_FINDING_SIZE, sizeof pages);
    EXPECT(written(2 * PMJUDGE_PAGE_LINE_SIZE));
}

/* The bytes that are closed after their last store; 17 where there is none, after other refusals. */
static void exposures(void)
{
    start(AREA, 5, 3);
    end_file(AREA);
    EXPECT(unexposed(answer[1], PMJUDGE_NO_BYTE_CLOSED, 0));
    event(PMJUDGE_STORE, 128, 32);
    event(PMJUDGE_WRITE_BACK, 128, 32);
    end_file(AREA);
    EXPECT(unexposed(answer[1], PMJUDGE_NO_BYTE_CLOSED, 0));
    event(PMJUDGE_FENCE, 0, 0);
    end_file(AREA);
    EXPECT(exposure_is(answer[1], PMJUDGE_ACCEPTED, 0, 1, 0, 32));
    event(PMJUDGE_STORE, 0, 8);
    event(PMJUDGE_FENCE, 0, 0);
    event(PMJUDGE_WRITE_BACK, 0, 8);
    event(PMJUDGE_FENCE, 0, 0);
    end_file(AREA);
    EXPECT(exposure_is(answer[1], PMJUDGE_ACCEPTED, 0, 1, 8, 40));
    event(PMJUDGE_STORE, 132, 28);
    end_file(AREA);
    EXPECT(exposure_is(answer[1], PMJUDGE_ACCEPTED, 0, 1, 8, 12));
    event(PMJUDGE_STORE, 0, 192);
    end_file(AREA);
    EXPECT(unexposed(answer[1], PMJUDGE_NO_BYTE_CLOSED, 0));
    area[5 + 8 * PMJUDGE_RECORD_SIZE] = PMJUDGE_END;
    memset(area + 5 + 8 * PMJUDGE_RECORD_SIZE + 2, 0, 8);
    EXPECT(unexposed(answer[1], PMJUDGE_NO_TRANSACTION, 9));
}

/* The most bytes, each stored to first and made durable by the last of the most records. */
static void longest_exposure(void)
{
    uint16_t window = PMJUDGE_LINE_SIZE * PMJUDGE_MOST_LINES;
    int record;
    start(AREA, 0, PMJUDGE_MOST_LINES);
    event(PMJUDGE_STORE, 0, window);
    for (record = 0; record < PMJUDGE_MOST_RECORDS - 3; record++)
        event(PMJUDGE_FENCE, 0, 0);
    event(PMJUDGE_WRITE_BACK, 0, window);
    event(PMJUDGE_FENCE, 0, 0);
    end_file(AREA);
    EXPECT(answer[1] == PMJUDGE_MOST_BYTES);
    EXPECT(exposure_is(answer[1], PMJUDGE_ACCEPTED, 0, PMJUDGE_MOST_RECORDS - 2, 0, window));
}

/* A byte without an interval, open, written back and closed; its neighbour; a byte past the window. */
static void intervals(void)
{
    static const uint32_t none[11] = {0};
    static const uint32_t open[] = {0, 0, PMJUDGE_OPEN, 1, 0, 2, 0, 0, 7, 0, 0};
    static const uint32_t written_back[] = {0, 0, PMJUDGE_OPEN, 1, 0, 2, 3, 0, 7, 7, 0};
    static const uint32_t closed[] = {0, 0, PMJUDGE_CLOSED, 1, 2, 2, 3, 5, 7, 9, 7};
    static const uint32_t again[] = {0, 0, PMJUDGE_OPEN, 2, 0, 6, 0, 0, 7, 0, 0};
    start(AREA, 5, 2);
    event(PMJUDGE_FENCE, 0, 0);
    end_file(AREA);
    EXPECT(interval_is(answer[1], 64, none) && interval_is(answer[1], 127, none));
    EXPECT(unasked(answer[1], 128, PMJUDGE_PAST_WINDOW, 0));
    EXPECT(unasked(answer[1], 65535, PMJUDGE_PAST_WINDOW, 0));
    event(PMJUDGE_STORE, 64, 8);
    end_file(AREA);
    EXPECT(interval_is(answer[1], 64, open) && interval_is(answer[1], 72, none));
    event(PMJUDGE_WRITE_BACK, 64, 8);
    event(PMJUDGE_WRITE_BACK, 64, 64);
    end_file(AREA);
    EXPECT(interval_is(answer[1], 71, written_back));
    event(PMJUDGE_FENCE, 0, 0);
    end_file(AREA);
    area[5 + 2 * PMJUDGE_RECORD_SIZE + 10] = 9; /* the write-back's site */
    EXPECT(interval_is(answer[1], 64, closed));
    event(PMJUDGE_STORE, 64, 1);
    end_file(AREA);
    EXPECT(interval_is(answer[1], 64, again) && interval_is(answer[1], 65, closed));
    EXPECT(unasked(answer[1], 128, PMJUDGE_PAST_WINDOW, 0));
}

int main(void)
{
    size_t at;
    for (at = 0; at < AREA; at++)
        preamble[at] = (uint8_t)(at * 7 + 1);
    memset(area, 0x5a, sizeof area);
    memset(writer, 0x5a, sizeof writer);
    starts();
    events();
    closings();
    longest();
    changed_bytes();
    shared_ranges();
    kinds_of_finding();
    memset(pages, 0x5a, sizeof pages);
    pages_of_a_trace();
    pages_of_nothing();
    longest_pages();
    damaged_findings();
    exposures();
    longest_exposure();
    intervals();
    printf("%d passed, %d failed\n", passed, failed);
    return failed != 0;
}
