/*
 * Steepleclay: regions and partitions over one lent memory, proved.
 *
 * Platform: x86-64 Linux (System V calling convention). Link with libfirmware.a, made by
 * `tools/library`; it needs memcpy and memset of the C library and nothing else. No function
 * allocates, blocks, keeps state of its own or calls back. A call needs at most SC_STACK_BYTES of
 * stack.
 *
 * The caller keeps an sc_manager: the manager record, the answer of the last call, and where the
 * managed memory is. All zeros but for the memory is a fresh one:
 *
 *     static uint32_t memory[SC_MEMORY_WORDS];
 *     static sc_manager manager = {{0}, {0}, memory, SC_MEMORY_WORDS};
 *
 * Keep the record as a call left it, and pass always the same memory words. Addresses are bytes,
 * counted from the memory's first byte: word w is at 4 * w. Address 0 is NULL. Write only into
 * segments and buffers that you hold.
 *
 * An id is slot + 16 * generation. Regions have slots 1 to SC_SLOTS, and partitions have their own;
 * a slot's generation is 0 at first and rises by one whenever the object in it is deleted. So an id
 * never opens another object than the one that it was given for. A slot that is deleted at
 * generation 65,535 is spent and is not used again.
 *
 * A name is any number but 0. No two live regions have the same name, and no two live partitions; a
 * region and a partition may. The name of a deleted object is free again.
 *
 * What the functions can't tell, and the caller must see to: each pointer is valid for the length
 * passed with it (not null, unless the length is 0) and aligned to 4 bytes, a gauge's words to 8,
 * and no two buffers of one call overlap. Calls on one record must not run at the same time. Where
 * a gauge is read, the floating-point environment is the one that C programs start in: to nearest,
 * with subnormal numbers. Everything else is checked, each time: the functions are proved for every
 * content and length of the buffers and for every argument.
 *
 * Every function but the reads of a segment returns a status. With any other status than
 * SC_SUCCESSFUL and SC_WAITING no word of record and memory is changed, and the answer is all zeros
 * (but see scm_region_resize_segment). Any function that returns a status may return
 * SC_INTERNAL_ERROR: the record and memory are damaged or have the wrong lengths, the answer is too
 * short, or an argument is no choice. With words that can be no record (another length, or a
 * region's order above 3), a short answer or no choice, the answer too is left as it was.
 */
#ifndef STEEPLECLAY_H
#define STEEPLECLAY_H

#include <stddef.h>
#include <stdint.h>
#include <string.h>

#ifdef __cplusplus
extern "C" {
#endif

/* Sizes, in words and numbers of things. */
#define SC_SLOTS 8u  /* regions, and partitions, at the same time */
#define SC_TASKS 16u /* waiting tasks are numbered 1 to SC_TASKS */
#define SC_MEMORY_WORDS 16384u /* at most; at least 1 */
#define SC_RECORD_WORDS 208u
#define SC_ANSWER_WORDS 55u

/*
 * The layout of the record's words. 3: SC_SLOTS regions (name, generation, start, length, page,
 * order), then SC_SLOTS partitions (name, generation, start, length, size, front, rear, free
 * count), then SC_TASKS waiters (task, region's id, size, alignment, priority, ticks left), all
 * zeros where unused, but for the generation that an emptied slot keeps. (1 had no generations. 2
 * had no alignments: since then a waiter has one word more, and those behind stand elsewhere.) The
 * number goes up when a word changes its place or its meaning. Whoever keeps a record longer than a
 * run of the program keeps this number beside it, and hands the record to no library with another.
 * (A record of 1 or 2 has fewer words, and is refused with SC_INTERNAL_ERROR.)
 */
#define STEEPLECLAY_RECORD_VERSION 3

/*
 * The stack that a call needs, rounded up: 9 KB are measured now, and 15 KB were when this number
 * was chosen. tests/stack/run measures it: each function is called on a stack filled with a
 * pattern, with fresh, full and damaged records, and the deepest word that was written counts.
 */
#define SC_STACK_BYTES 16384u

/* Where things stand in an answer. A return, a resize and a tick have notices, of each task at most
 * one. */
#define SC_ANSWER_VALUE 0u      /* id, address or length, by the call; 0 where it has none */
#define SC_ANSWER_FREE_COUNT 1u /* scm_region_get_information: the free segments .. */
#define SC_ANSWER_FREE_LARGEST 2u
#define SC_ANSWER_FREE_TOTAL 3u
#define SC_ANSWER_HELD_COUNT 4u /* .. and the held ones; sizes in bytes */
#define SC_ANSWER_HELD_LARGEST 5u
#define SC_ANSWER_HELD_TOTAL 6u
#define SC_ANSWER_NOTICES 7u /* up to SC_TASKS notices of SC_NOTICE_WORDS words, in order; .. */
#define SC_NOTICE_WORDS 3u   /* .. unused ones are 0 */
#define SC_NOTICE_TASK 0u    /* the task that waited; 0: no more notices */
#define SC_NOTICE_STATUS 1u  /* SC_SUCCESSFUL: it holds a segment now; SC_TIMEOUT: time ran out */
#define SC_NOTICE_ADDRESS 2u /* the segment's address, or 0 */

/* Statuses: RTEMS numbers, but for SC_WAITING. */
#define SC_SUCCESSFUL 0u        /* RTEMS_SUCCESSFUL */
#define SC_INVALID_NAME 3u      /* RTEMS_INVALID_NAME: name 0, taken, or not found */
#define SC_INVALID_ID 4u        /* RTEMS_INVALID_ID: no live object has the id */
#define SC_TOO_MANY 5u          /* RTEMS_TOO_MANY: every slot of the kind is in use or spent */
#define SC_TIMEOUT 6u           /* RTEMS_TIMEOUT: in a notice */
#define SC_INVALID_SIZE 8u      /* RTEMS_INVALID_SIZE: a size, length or alignment not allowed */
#define SC_INVALID_ADDRESS 9u   /* RTEMS_INVALID_ADDRESS: area not allowed, or nothing held there */
#define SC_INVALID_NUMBER 10u   /* RTEMS_INVALID_NUMBER: waiting task not 1 to SC_TASKS; a gauge */
#define SC_NOT_DEFINED 11u      /* RTEMS_NOT_DEFINED: an alignment other than 0 by halves */
#define SC_RESOURCE_IN_USE 12u  /* RTEMS_RESOURCE_IN_USE: delete with something held */
#define SC_UNSATISFIED 13u      /* RTEMS_UNSATISFIED: no room now */
#define SC_INCORRECT_STATE 14u  /* RTEMS_INCORRECT_STATE: the task waits already */
#define SC_INVALID_PRIORITY 19u /* RTEMS_INVALID_PRIORITY: not 1 to 255 */
#define SC_INTERNAL_ERROR 25u   /* RTEMS_INTERNAL_ERROR: see above */
#define SC_WAITING 255u         /* no refusal: the task waits, and hears by a later notice */

/* Choices: how a region is cut and the order of its queue, whether a get may wait, and what an
 * alarm sounds at. Any other number is answered SC_INTERNAL_ERROR. */
#define SC_FIFO 0u            /* by pages; the queue by arrival .. */
#define SC_PRIORITY 1u        /* .. or by priority, 1 first, equal ones by arrival */
#define SC_FIFO_HALVES 2u     /* by halves; the queue by arrival .. */
#define SC_PRIORITY_HALVES 3u /* .. or by priority */
#define SC_NO_WAIT 0u
#define SC_WAIT 1u
#define SC_ABOVE 0u   /* an alarm of a gauge: above a limit, .. */
#define SC_BELOW 1u   /* .. below it, .. */
#define SC_OUTSIDE 2u /* .. or outside it and a high one */

/*
 * What is linked: the directives over three buffers, each with its length in words. scm_X, below,
 * is sc_X over the buffers of an sc_manager, and says what it does.
 */
#define SC_BUFFERS                                                                                \
    uint32_t *record, size_t record_words, uint32_t *memory, size_t memory_words,                 \
        uint32_t *answer, size_t answer_words
uint32_t sc_region_create(SC_BUFFERS, uint32_t name, uint32_t start, uint32_t length,
                          uint32_t page, uint32_t order);
uint32_t sc_region_ident(SC_BUFFERS, uint32_t name);
uint32_t sc_region_delete(SC_BUFFERS, uint32_t id);
uint32_t sc_region_get_segment(SC_BUFFERS, uint32_t id, uint32_t size, uint32_t alignment,
                               uint32_t wait, uint32_t task, uint32_t priority, uint32_t ticks);
uint32_t sc_region_return_segment(SC_BUFFERS, uint32_t id, uint32_t address);
uint32_t sc_region_get_segment_size(SC_BUFFERS, uint32_t id, uint32_t address);
uint32_t sc_region_resize_segment(SC_BUFFERS, uint32_t id, uint32_t address, uint32_t size);
uint32_t sc_region_get_information(SC_BUFFERS, uint32_t id);
uint32_t sc_partition_create(SC_BUFFERS, uint32_t name, uint32_t start, uint32_t length,
                             uint32_t size);
uint32_t sc_partition_ident(SC_BUFFERS, uint32_t name);
uint32_t sc_partition_delete(SC_BUFFERS, uint32_t id);
uint32_t sc_partition_get_buffer(SC_BUFFERS, uint32_t id);
uint32_t sc_partition_return_buffer(SC_BUFFERS, uint32_t id, uint32_t address);
uint32_t sc_clock_tick(SC_BUFFERS);
#undef SC_BUFFERS
size_t sc_segment_read(const uint32_t *record, size_t record_words, const uint32_t *memory,
                       size_t memory_words, uint32_t *words, size_t words_count, uint32_t id,
                       uint32_t address);
uint32_t sc_segment_write(const uint32_t *record, size_t record_words, uint32_t *memory,
                          size_t memory_words, const uint32_t *words, size_t words_count,
                          uint32_t id, uint32_t address, uint32_t first);

/* Over a gauge's words: SC_GAUGE_WORDS of them, the bits of its fills. The limits are bits too, and
 * one word says whether the alarm sounds, 1 or 0. */
#define SC_GAUGE_WORDS 2u
uint32_t sc_gauge_read(uint64_t *words, uint32_t *sounds, uint32_t alarm, uint64_t limit,
                       uint64_t high, uint32_t held, uint32_t total);
uint32_t sc_gauge_read_information(uint64_t *words, uint32_t *sounds, uint32_t alarm,
                                   uint64_t limit, uint64_t high, const uint32_t *answer,
                                   size_t answer_words);

/* What the caller keeps. */
typedef struct sc_manager {
    uint32_t record[SC_RECORD_WORDS]; /* kept between calls; only the functions write it */
    uint32_t answer[SC_ANSWER_WORDS]; /* what the last call answered: see SC_ANSWER_... */
    uint32_t *memory;                 /* the managed memory .. */
    size_t memory_words;              /* .. of so many words, 1 to SC_MEMORY_WORDS */
} sc_manager;

#define SC_OF(m)                                                                                  \
    (m)->record, SC_RECORD_WORDS, (m)->memory, (m)->memory_words, (m)->answer, SC_ANSWER_WORDS

/*
 * Regions: segments of whole pages. By pages (SC_FIFO, SC_PRIORITY) a segment has any number of
 * them, at the lowest fitting address that is a multiple of the alignment that was asked for; room
 * before it and behind it stays free. By halves (SC_FIFO_HALVES, SC_PRIORITY_HALVES) the region
 * has as many pages as the largest power of two that fits, and its segments are blocks: each the
 * half of a block, or all of the region. A size is rounded up to a power of two pages. The smallest
 * free block that is large enough serves, the lowest of equal ones, and is halved until it has that
 * size, the low half going on. A block that is returned joins its other half for as long as that is
 * free.
 */

/* Makes a region of `length` bytes from `start` on, with pages of `page` bytes (1 to 4096, rounded
 * up to a multiple of 8), cut and with a wait queue as `order` says. A part of the area is its map.
 * Value: the id. SC_INVALID_NAME, before the others below: `name` is 0, or a live region has it.
 * Statuses: SC_SUCCESSFUL, SC_INVALID_NAME, SC_TOO_MANY, SC_INVALID_SIZE, SC_INVALID_ADDRESS. */
static inline uint32_t scm_region_create(sc_manager *m, uint32_t name, uint32_t start,
                                         uint32_t length, uint32_t page, uint32_t order)
{
    return sc_region_create(SC_OF(m), name, start, length, page, order);
}

/* Value: the id of the live region with the name; there is at most one.
 * Statuses: SC_SUCCESSFUL, SC_INVALID_NAME. */
static inline uint32_t scm_region_ident(sc_manager *m, uint32_t name)
{
    return sc_region_ident(SC_OF(m), name);
}

/* Deletes a region of which nothing is held.
 * Statuses: SC_SUCCESSFUL, SC_INVALID_ID, SC_RESOURCE_IN_USE. */
static inline uint32_t scm_region_delete(sc_manager *m, uint32_t id)
{
    return sc_region_delete(SC_OF(m), id);
}

/* Value: the address of a segment of at least `size` bytes, held from now on. The address is a
 * multiple of `alignment`: 0 for the page size, else a multiple of the page size up to 4096; by
 * halves it must be 0, and anything else is SC_NOT_DEFINED. SC_INVALID_SIZE: `size` is 0, the
 * alignment is none of these, or the region could not serve the request with nothing held. Where
 * there is only now no room: SC_UNSATISFIED, or with SC_WAIT the task waits (SC_WAITING) in the
 * region's queue, for `ticks` ticks (0: for ever), and is served on its alignment. Without waiting,
 * task, priority and ticks aren't read.
 * Statuses: SC_SUCCESSFUL, SC_INVALID_ID, SC_INVALID_SIZE, SC_INVALID_NUMBER, SC_NOT_DEFINED,
 * SC_UNSATISFIED, SC_INCORRECT_STATE, SC_INVALID_PRIORITY, SC_WAITING. */
static inline uint32_t scm_region_get_segment(sc_manager *m, uint32_t id, uint32_t size,
                                              uint32_t alignment, uint32_t wait, uint32_t task,
                                              uint32_t priority, uint32_t ticks)
{
    return sc_region_get_segment(SC_OF(m), id, size, alignment, wait, task, priority, ticks);
}

/* Takes a held segment back and serves the queue: notices say who holds what now.
 * Statuses: SC_SUCCESSFUL, SC_INVALID_ID, SC_INVALID_ADDRESS. */
static inline uint32_t scm_region_return_segment(sc_manager *m, uint32_t id, uint32_t address)
{
    return sc_region_return_segment(SC_OF(m), id, address);
}

/* Value: the length of a held segment.
 * Statuses: SC_SUCCESSFUL, SC_INVALID_ID, SC_INVALID_ADDRESS. */
static inline uint32_t scm_region_get_segment_size(sc_manager *m, uint32_t id, uint32_t address)
{
    return sc_region_get_segment_size(SC_OF(m), id, address);
}

/* Shrinks or grows a held segment in place and then serves the queue, also where the segment keeps
 * its pages: notices say who holds what now. By halves a segment must keep its pages, the new size
 * rounded up. With SC_UNSATISFIED nobody is served. Value: the old length, with SC_UNSATISFIED too.
 * Statuses: SC_SUCCESSFUL, SC_INVALID_ID, SC_INVALID_SIZE, SC_INVALID_ADDRESS, SC_UNSATISFIED. */
static inline uint32_t scm_region_resize_segment(sc_manager *m, uint32_t id, uint32_t address,
                                                 uint32_t size)
{
    return sc_region_resize_segment(SC_OF(m), id, address, size);
}

/* The six values of SC_ANSWER_FREE_COUNT and on.
 * Statuses: SC_SUCCESSFUL, SC_INVALID_ID. */
static inline uint32_t scm_region_get_information(sc_manager *m, uint32_t id)
{
    return sc_region_get_information(SC_OF(m), id);
}

/*
 * Partitions: buffers of one size.
 */

/* Makes a partition of `length` bytes from `start` (a multiple of 4) on, with buffers of `size`
 * bytes (a multiple of 4, at least 8). Value: the id. SC_INVALID_NAME, before the others below:
 * `name` is 0, or a live partition has it.
 * Statuses: SC_SUCCESSFUL, SC_INVALID_NAME, SC_TOO_MANY, SC_INVALID_SIZE, SC_INVALID_ADDRESS. */
static inline uint32_t scm_partition_create(sc_manager *m, uint32_t name, uint32_t start,
                                            uint32_t length, uint32_t size)
{
    return sc_partition_create(SC_OF(m), name, start, length, size);
}

/* Value: the id of the live partition with the name; there is at most one.
 * Statuses: SC_SUCCESSFUL, SC_INVALID_NAME. */
static inline uint32_t scm_partition_ident(sc_manager *m, uint32_t name)
{
    return sc_partition_ident(SC_OF(m), name);
}

/* Deletes a partition of which no buffer is held.
 * Statuses: SC_SUCCESSFUL, SC_INVALID_ID, SC_RESOURCE_IN_USE. */
static inline uint32_t scm_partition_delete(sc_manager *m, uint32_t id)
{
    return sc_partition_delete(SC_OF(m), id);
}

/* Value: the address of a buffer, held from now on.
 * Statuses: SC_SUCCESSFUL, SC_INVALID_ID, SC_UNSATISFIED. */
static inline uint32_t scm_partition_get_buffer(sc_manager *m, uint32_t id)
{
    return sc_partition_get_buffer(SC_OF(m), id);
}

/* Takes a held buffer back.
 * Statuses: SC_SUCCESSFUL, SC_INVALID_ID, SC_INVALID_ADDRESS. */
static inline uint32_t scm_partition_return_buffer(sc_manager *m, uint32_t id, uint32_t address)
{
    return sc_partition_return_buffer(SC_OF(m), id, address);
}

/* The clock: each task that waits with ticks left loses one, and at 0 leaves with a notice of
 * SC_TIMEOUT. Where anyone left, the queue of every region is served then, the lowest slot first:
 * the notices of those who hold something now come behind all of SC_TIMEOUT.
 * Statuses: SC_SUCCESSFUL. */
static inline uint32_t scm_clock_tick(sc_manager *m)
{
    return sc_clock_tick(SC_OF(m));
}

/*
 * The words of a held segment. These two leave the answer as it is.
 */

/* Copies the words of the held segment at `address` to `words`, as many as `words` has room for,
 * and returns how many words the segment has, which may be more. Returns 0, and copies nothing,
 * where record, memory, id or address are refused. (The memory is the caller's own, so a segment
 * may also be read where it lies.) */
static inline size_t scm_segment_read(const sc_manager *m, uint32_t *words, size_t words_count,
                                      uint32_t id, uint32_t address)
{
    return sc_segment_read(m->record, SC_RECORD_WORDS, m->memory, m->memory_words, words,
                           words_count, id, address);
}

/* Copies `words` into the held segment at `address`, from its word `first` on (0 is the segment's
 * first): SC_INVALID_SIZE where they don't fit. Nothing else is changed.
 * Statuses: SC_SUCCESSFUL, SC_INVALID_ID, SC_INVALID_SIZE, SC_INVALID_ADDRESS. */
static inline uint32_t scm_segment_write(const sc_manager *m, const uint32_t *words,
                                         size_t words_count, uint32_t id, uint32_t address,
                                         uint32_t first)
{
    return sc_segment_write(m->record, SC_RECORD_WORDS, m->memory, m->memory_words, words,
                            words_count, id, address, first);
}

#undef SC_OF

/*
 * A gauge: how full a region is, and an alarm. It knows no manager: it is handed numbers.
 */

/* What the caller keeps of a gauge. All zeros is a fresh one. A fill goes from 0, nothing held, to
 * 1, all held. (The linked functions have the bits of these doubles in words: so what is proved of
 * them is said of every bit, those of a NaN included, and doesn't turn on how a compiler passes
 * doubles.) */
typedef struct sc_gauge {
    double last;     /* the fill at the last reading .. */
    double smoothed; /* .. and the smoothed one; both kept between readings */
    uint32_t sounds; /* 1 where the alarm sounded at the last reading, else 0 */
} sc_gauge;

static inline uint64_t sc_bits_of(double number)
{
    uint64_t bits;
    memcpy(&bits, &number, sizeof bits);
    return bits;
}

/* Reads the gauge: `held` of `total` bytes are held. The fill is held / total, and exactly 0 and 1
 * at the ends; the smoothed fill s becomes s + (fill - s) * 0.25. The alarm then sounds where the
 * smoothed fill is above `limit` (SC_ABOVE), below it (SC_BELOW), or below `limit` or above `high`
 * (SC_OUTSIDE; else `high` isn't read). At a limit it is silent. Limits may be infinite.
 * SC_INVALID_NUMBER leaves the fills as they were and the alarm silent: a limit is a NaN, `limit`
 * is above `high`, a kept fill is no number from 0 to 1, `total` is 0, or `held` is above `total`.
 * Fills that only these functions wrote are from 0 to 1. SC_INTERNAL_ERROR changes nothing.
 * Statuses: SC_SUCCESSFUL, SC_INVALID_NUMBER. */
static inline uint32_t scm_gauge_read(sc_gauge *gauge, uint32_t alarm, double limit, double high,
                                      uint32_t held, uint32_t total)
{
    uint64_t words[SC_GAUGE_WORDS] = {sc_bits_of(gauge->last), sc_bits_of(gauge->smoothed)};
    const uint32_t status = sc_gauge_read(words, &gauge->sounds, alarm, sc_bits_of(limit),
                                          sc_bits_of(high), held, total);
    memcpy(&gauge->last, &words[0], sizeof words[0]);
    memcpy(&gauge->smoothed, &words[1], sizeof words[1]);
    return status;
}

/* Reads the gauge by the manager's answer, if the call before was scm_region_get_information: the
 * held total, and the sum of both totals. The answers of other calls have totals of 0, which is
 * SC_INVALID_NUMBER.
 * Statuses: SC_SUCCESSFUL, SC_INVALID_NUMBER. */
static inline uint32_t scm_gauge_read_information(sc_gauge *gauge, uint32_t alarm, double limit,
                                                  double high, const sc_manager *m)
{
    uint64_t words[SC_GAUGE_WORDS] = {sc_bits_of(gauge->last), sc_bits_of(gauge->smoothed)};
    const uint32_t status =
        sc_gauge_read_information(words, &gauge->sounds, alarm, sc_bits_of(limit),
                                  sc_bits_of(high), m->answer, SC_ANSWER_WORDS);
    memcpy(&gauge->last, &words[0], sizeof words[0]);
    memcpy(&gauge->smoothed, &words[1], sizeof words[1]);
    return status;
}

#ifdef __cplusplus
}
#endif

#endif
