/*
 * A program that traces itself: a list in an array that stands for persistent memory. Each macro
 * does what it says to the array and gives the event to the writer, with its line in this file as
 * the site; the trace goes to the file named on the command line. The names are those of the PMTest
 * paper, whose checkers take address and size where these macros take the object.
 *
 * One mistake is deliberate: remove_first() does not write the list's length back.
 */
#include <errno.h>
#include <stdio.h>
#include <stdlib.h>
#include <string.h>

#include "pmjudge.h"

struct node {
    char name[56];
    uint64_t next; /* the number of the next node, from 1; 0 for none */
};

/* The list. Its head, its length and each node have a cache line of their own. */
static struct {
    uint64_t head;
    char rest_of_line_0[56];
    uint64_t length;
    char rest_of_line_1[56];
    struct node nodes[2];
} pm __attribute__((aligned(PMJUDGE_LINE_SIZE)));

static const char preamble[] = "tracer.c: the sites are its lines\n";
static uint8_t area[PMJUDGE_MOST_BYTES];
static uint32_t writer[4];
static uint32_t answer[2];

/* Ends the program where the call at a line was refused. */
static void check(int line)
{
    if (answer[0] != PMJUDGE_ACCEPTED) {
        fprintf(stderr, "tracer: line %d: refused by %lu\n", line, (unsigned long)answer[0]);
        exit(2);
    }
}

/* The largest stands for numbers of more than 16 bits: they are past every window alike. */
static uint16_t in_16_bits(size_t number)
{
    return (uint16_t)(number < UINT16_MAX ? number : UINT16_MAX);
}

/* Addresses count bytes from the start of the array; a range that the event lacks is NULL. */
static uint16_t address(const void *object)
{
    return object == NULL ? 0 : in_16_bits((size_t)((uintptr_t)object - (uintptr_t)&pm));
}

static void trace(enum pmjudge_event kind, const void *a, size_t a_size, const void *b,
                  size_t b_size, int line)
{
    pmjudge_writer_event(area, sizeof area, writer, (uint8_t)kind, address(a), in_16_bits(a_size),
                         address(b), in_16_bits(b_size), (uint16_t)line, answer);
    check(line);
}

/* On persistent memory clwb and sfence also run the instruction, and TX_ADD copies the object. */
#define TRACE(kind) trace(kind, NULL, 0, NULL, 0, __LINE__)
#define TRACE_A(kind, a) trace(kind, &(a), sizeof(a), NULL, 0, __LINE__)
#define STORE(object, value) ((object) = (value), TRACE_A(PMJUDGE_STORE, object))
#define clwb(object) TRACE_A(PMJUDGE_WRITE_BACK, object)
#define sfence() TRACE(PMJUDGE_FENCE)
#define TX_CHECKER_START() TRACE(PMJUDGE_BEGIN)
#define TX_ADD(object) TRACE_A(PMJUDGE_LOG, object)
#define TX_CHECKER_END() TRACE(PMJUDGE_END)
#define isPersist(object) TRACE_A(PMJUDGE_PERSISTED, object)
#define isOrderedBefore(a, b) \
    trace(PMJUDGE_ORDERED, &(a), sizeof(a), &(b), sizeof(b), __LINE__)

/* Makes node `at` the first of the list. It is durable before the head names it. */
static void insert(uint64_t at, const char *name)
{
    struct node node = {"", pm.head};
    strncpy(node.name, name, sizeof node.name - 1);
    STORE(pm.nodes[at - 1], node);
    clwb(pm.nodes[at - 1]);
    sfence();
    isPersist(pm.nodes[at - 1]);

    TX_CHECKER_START();
    TX_ADD(pm.head);
    TX_ADD(pm.length);
    STORE(pm.head, at);
    STORE(pm.length, pm.length + 1);
    clwb(pm.head);
    clwb(pm.length);
    sfence();
    TX_CHECKER_END();
    isOrderedBefore(pm.nodes[at - 1], pm.head);
}

static void remove_first(void)
{
    TX_CHECKER_START();
    TX_ADD(pm.head);
    TX_ADD(pm.length);
    STORE(pm.head, pm.nodes[pm.head - 1].next);
    STORE(pm.length, pm.length - 1);
    clwb(pm.head); /* the mistake: clwb(pm.length) is missing */
    sfence();
    TX_CHECKER_END();
}

static void start(void)
{
    uint16_t lines = sizeof pm / PMJUDGE_LINE_SIZE;
    pmjudge_writer_start(area, sizeof area, (const uint8_t *)preamble, sizeof preamble - 1, lines,
                         writer, answer);
    check(__LINE__);
}

/* Closes the trace and writes it to a file. */
static void send_trace(const char *name)
{
    FILE *file;
    size_t written;
    pmjudge_writer_close(area, sizeof area, writer, answer);
    check(__LINE__);
    file = fopen(name, "wb");
    written = file == NULL ? 0 : fwrite(area, 1, answer[1], file);
    if (file == NULL || fclose(file) != 0 || written != answer[1]) {
        fprintf(stderr, "tracer: %s: %s\n", name, strerror(errno));
        exit(2);
    }
}

int main(int argc, char **argv)
{
    if (argc != 2) {
        fprintf(stderr, "usage: tracer FILE      write the trace of a run to this file\n");
        return 2;
    }
    start();
    insert(1, "first");
    remove_first();
    send_trace(argv[1]);
    return 0;
}
