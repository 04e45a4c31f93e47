/* Measures the stack that a call needs. Each function is called on a stack of its own that is
 * filled with a pattern; what lies from the stack's top down to the deepest word that lost the
 * pattern was used, by the call and by the few words of this program that make it. The records are
 * fresh, full with 16 waiters whom one return or resize serves, full with 16 of whom one tick sends
 * some away and serves the others, nearly full, and damaged; the region that the calls name is by
 * pages, where the waiters have an alignment of three pages, and by halves. The functions come from
 * the header (calls.h, which `run` makes of it): a parameter is given the variable of its name.
 * Prints the most that each function used; fails where one needs more than SC_STACK_BYTES. */
#define _XOPEN_SOURCE 600
#include <stdio.h>
#include <string.h>
#include <ucontext.h>

#include "steepleclay.h"

#define STACK_WORDS 32768u /* of 4 bytes */
#define PATTERN 0xa5c396e1u

static uint32_t memory[SC_MEMORY_WORDS];
static sc_manager desk = {{0}, {0}, memory, SC_MEMORY_WORDS};
static uint32_t stack[STACK_WORDS];
static ucontext_t here, there;

static uint32_t held, buffer; /* the held segment of region 1, the held buffer of partition 1 */

/* The arguments, each under the name that the header gives it. */
static uint32_t name, id, address, size, alignment, wait;
static uint32_t order;
static const uint32_t start = 60004, length = 1020, page = 8;
static const uint32_t task = 16, priority = 9, ticks = 9, first = 0;
static uint32_t words[4];
static const size_t words_count = 4;
static sc_gauge gauge;
static uint32_t alarm;
static const double limit = 0.25, high = 0.75;
static const uint32_t total = 65536;

#define KINDS 7     /* of records */
#define ARGUMENTS 3 /* and of arguments */
#define ORDERS 4    /* and of region 1 */

/* An alignment for a region: three pages, or none by halves. */
static uint32_t wide(uint32_t region)
{
    return (region - 1 + order) % ORDERS >= SC_FIFO_HALVES ? 0 : 3 * 8;
}

/* 0: a new object, and an object of which nothing is held, a get on an alignment; 1: a name that is
 * there, a get that may wait, what is held of region 1; 2: what is held of partition 1, a get that
 * may wait on an alignment. */
static void choose(uint32_t arguments)
{
    name = arguments == 0 ? 9 : 8;
    id = arguments == 0 ? 8 : 1;
    address = arguments == 2 ? buffer : held;
    size = arguments == 0 ? 12 : 9;
    alignment = arguments == 1 ? 0 : wide(id);
    wait = arguments == 0 ? SC_NO_WAIT : SC_WAIT;
    alarm = arguments; /* above, below, outside */
}

/* The calls. */

#define CALL(function, ...) static void call_##function(void) { function(__VA_ARGS__); }
#include "calls.h"
#undef CALL

static const struct {
    const char *name;
    void (*make)(void);
} calls[] = {
#define CALL(function, ...) {#function, call_##function},
#include "calls.h"
#undef CALL
};

/* A segment of region 1 of so many bytes: its address. */
static uint32_t get(uint32_t bytes)
{
    scm_region_get_segment(&desk, 1, bytes, 0, SC_NO_WAIT, 0, 0, 0);
    return desk.answer[SC_ANSWER_VALUE];
}

/* Full tables, but for `room` slots of each kind, nothing of region 1 held, and a held buffer of
 * partition 1. Gives the bytes of region 1. */
static uint32_t tables(uint32_t room)
{
    memset(memory, 0, sizeof memory);
    memset(desk.record, 0, sizeof desk.record);
    for (uint32_t i = 0; i < SC_SLOTS - room; i++) {
        scm_region_create(&desk, i + 1, 4096 * i + 4, 2044, 8, (i + order) % ORDERS);
        scm_partition_create(&desk, i + 1, 4096 * i + 2048, 2048, 8);
    }
    scm_partition_get_buffer(&desk, 1);
    buffer = desk.answer[SC_ANSWER_VALUE];
    scm_region_get_information(&desk, 1);
    return desk.answer[SC_ANSWER_FREE_TOTAL];
}

/* A task that waits for some bytes of region 1. */
static void wait_for(uint32_t bytes, uint32_t boundary, uint32_t waiter, uint32_t left)
{
    scm_region_get_segment(&desk, 1, bytes, boundary, SC_WAIT, waiter, waiter, left);
}

/* The tasks from 1 on wait for a page of region 1. */
static void queue(uint32_t waiters)
{
    for (uint32_t i = 1; i <= waiters; i++)
        wait_for(8, wide(1), i, 1);
}

/* Region 1 all held by one segment, and `waiters` tasks that wait for a page of it. */
static void fill(uint32_t waiters, uint32_t room)
{
    held = get(tables(room));
    queue(waiters);
}

/* The same with 16 waiters of whom one tick sends 4 away and serves 12: those 4 are the first, wait
 * one tick and want all of the region, of which a half is free then; the others want a page
 * each. */
static void fill_for_tick(void)
{
    const uint32_t bytes = tables(0);
    uint32_t other;

    held = get(bytes / 2);
    other = get(bytes / 2);
    for (uint32_t i = 1; i <= 4; i++)
        wait_for(bytes, 0, i, 1);
    for (uint32_t i = 5; i <= SC_TASKS; i++)
        wait_for(8, wide(1), i, 9);
    scm_region_return_segment(&desk, 1, other);
}

/* Two held pages of region 1 and 16 waiters beside room, as no call leaves them: a resize that
 * keeps the pages serves them all, and by halves a return joins as often as it can. The other pages
 * are held at first, by one segment or by blocks, each as long as all that is in front of it. */
static void fill_beside_room(void)
{
    const uint32_t pages = tables(0) / 8;
    const uint32_t by_halves = order >= SC_FIFO_HALVES;

    held = get(2 * 8);
    for (uint32_t p = 2; p < pages; p = by_halves ? 2 * p : pages)
        get(8 * (by_halves ? p : pages - p));
    queue(SC_TASKS);
    for (uint32_t p = 2; p < pages; p = by_halves ? 2 * p : pages)
        memory[1 + p] -= 1; /* region 1's map: no more held */
}

/* The bytes of stack that a call uses, this program's own part included. */
static uint32_t used_by(void (*make)(void))
{
    uint32_t deepest = 0;

    for (uint32_t w = 0; w < STACK_WORDS; w++)
        stack[w] = PATTERN;
    getcontext(&there);
    there.uc_stack.ss_sp = stack;
    there.uc_stack.ss_size = sizeof stack;
    there.uc_link = &here;
    makecontext(&there, make, 0);
    swapcontext(&here, &there);
    while (deepest < STACK_WORDS && stack[deepest] == PATTERN)
        deepest++;
    return 4 * (STACK_WORDS - deepest);
}

/* The most that a call uses over the records and the arguments. */
static uint32_t most_of(void (*make)(void))
{
    uint32_t most = 0;

    for (uint32_t turn = 0; turn < KINDS * ARGUMENTS * ORDERS; turn++) {
        const uint32_t kind = turn % KINDS;
        uint32_t used;
        order = turn / KINDS / ARGUMENTS;
        fill(kind == 1 ? 15 : 16, kind == 2); /* 1: a place for one waiter more; 2: empty slots */
        if (kind == 3)
            memory[1] = 0xffffffffu; /* region 1's map */
        if (kind == 4)
            memset(desk.record, 0, sizeof desk.record);
        if (kind == 5)
            fill_for_tick();
        if (kind == 6)
            fill_beside_room();
        choose(turn / KINDS % ARGUMENTS);
        used = used_by(make);
        most = used > most ? used : most;
    }
    return most;
}

int main(void)
{
    uint32_t most = 0;

    for (size_t c = 0; c < sizeof calls / sizeof calls[0]; c++) {
        const uint32_t used = most_of(calls[c].make);
        printf("%-28s%8u bytes\n", calls[c].name, (unsigned)used);
        most = used > most ? used : most;
    }
    printf("SC_STACK_BYTES              %8u bytes: %s\n", SC_STACK_BYTES,
           most <= SC_STACK_BYTES ? "enough" : "TOO FEW");
    return most <= SC_STACK_BYTES ? 0 : 1;
}
