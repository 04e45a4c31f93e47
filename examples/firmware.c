/* What a firmware does with the library: a region with tasks that wait, whom a resize, a tick and a
 * return serve or whose time runs out, a partition, a name that is taken, a region by halves,
 * taking them down again, an old id that opens nothing, a gauge of a region with an alarm, and
 * segments on wider boundaries than a page. */
#include <stdio.h>
#include <stdlib.h>

#include "steepleclay.h"

static uint32_t memory[SC_MEMORY_WORDS];
static sc_manager manager = {{0}, {0}, memory, SC_MEMORY_WORDS}; /* the record all zeros: fresh */

static uint32_t answer(uint32_t word) { return manager.answer[word]; }

static void say(const char *what, uint32_t status)
{
    printf("%s: status %u, value %u\n", what, (unsigned)status, (unsigned)answer(SC_ANSWER_VALUE));
    for (uint32_t i = 0; i < SC_TASKS; i++) {
        const uint32_t *n = manager.answer + SC_ANSWER_NOTICES + i * SC_NOTICE_WORDS;
        if (n[SC_NOTICE_TASK] == 0)
            break;
        printf("  task %u: status %u, address %u\n", (unsigned)n[SC_NOTICE_TASK],
               (unsigned)n[SC_NOTICE_STATUS], (unsigned)n[SC_NOTICE_ADDRESS]);
    }
}

static void say_information(uint32_t region)
{
    say("information", scm_region_get_information(&manager, region));
    printf("  free %u segments, largest %u, total %u bytes; held %u, %u, %u\n",
           (unsigned)answer(SC_ANSWER_FREE_COUNT), (unsigned)answer(SC_ANSWER_FREE_LARGEST),
           (unsigned)answer(SC_ANSWER_FREE_TOTAL), (unsigned)answer(SC_ANSWER_HELD_COUNT),
           (unsigned)answer(SC_ANSWER_HELD_LARGEST), (unsigned)answer(SC_ANSWER_HELD_TOTAL));
}

/* A frame of 960 bytes fills the region. Task 5 gets what the frame loses by a resize. When it is
 * returned, task 7 is first and wants more; task 3 gets its part when a tick sends task 7 away, and
 * task 8 when task 5 has returned its own. */
static void segments(uint32_t region)
{
    const uint32_t pixels[3] = {11, 22, 33};
    uint32_t back[4] = {0, 0, 0, 0};
    uint32_t frame;
    size_t words;

    say("get 960 bytes", scm_region_get_segment(&manager, region, 960, 0, SC_NO_WAIT, 0, 0, 0));
    frame = answer(SC_ANSWER_VALUE);
    say("its size", scm_region_get_segment_size(&manager, region, frame));
    printf("write 3 words: status %u\n",
           (unsigned)scm_segment_write(&manager, pixels, 3, region, frame, 1));
    words = scm_segment_read(&manager, back, 4, region, frame);
    printf("read: %u words, first %u %u %u %u\n", (unsigned)words, (unsigned)back[0],
           (unsigned)back[1], (unsigned)back[2], (unsigned)back[3]);

    say("task 3 waits for 640 bytes",
        scm_region_get_segment(&manager, region, 640, 0, SC_WAIT, 3, 20, 0));
    say("task 5 waits for 64 bytes, more urgent",
        scm_region_get_segment(&manager, region, 64, 0, SC_WAIT, 5, 10, 0));
    say("task 6 waits one tick",
        scm_region_get_segment(&manager, region, 64, 0, SC_WAIT, 6, 30, 1));
    say("tick", scm_clock_tick(&manager));
    say("shrink the frame to 896 bytes", scm_region_resize_segment(&manager, region, frame, 896));
    say("task 7 waits one tick for 960 bytes, before task 3",
        scm_region_get_segment(&manager, region, 960, 0, SC_WAIT, 7, 10, 1));
    say("return the frame", scm_region_return_segment(&manager, region, frame));
    say("tick", scm_clock_tick(&manager));
    say("shrink task 3's to 100 bytes", scm_region_resize_segment(&manager, region, 64, 100));
    say_information(region);
    say("delete the region", scm_region_delete(&manager, region));
    say("task 8 waits for 832 bytes",
        scm_region_get_segment(&manager, region, 832, 0, SC_WAIT, 8, 20, 0));
    say("return task 5's", scm_region_return_segment(&manager, region, 960));
    say("return task 3's", scm_region_return_segment(&manager, region, 64));
    say("return task 8's", scm_region_return_segment(&manager, region, 192));
}

static void buffers(uint32_t partition)
{
    uint32_t tag;

    say("get a buffer", scm_partition_get_buffer(&manager, partition));
    tag = answer(SC_ANSWER_VALUE);
    say("delete the partition", scm_partition_delete(&manager, partition));
    say("return the buffer", scm_partition_return_buffer(&manager, partition, tag));
    say("return it again", scm_partition_return_buffer(&manager, partition, tag));
    say("delete the partition", scm_partition_delete(&manager, partition));
}

static void get_by_halves(const char *what, uint32_t region, uint32_t size)
{
    say(what, scm_region_get_segment(&manager, region, size, 0, SC_NO_WAIT, 0, 0, 0));
}

/* A region by halves, of 16 pages from 4224 on. Its blocks join when they have come back, and only
 * the last of them makes room for task 3. */
static void halves(void)
{
    uint32_t region;

    say("create region by halves",
        scm_region_create(&manager, 3, 4100, 1148, 64, SC_FIFO_HALVES));
    region = answer(SC_ANSWER_VALUE);
    get_by_halves("get 1 page", region, 64);
    get_by_halves("get 3 pages", region, 192);
    get_by_halves("get 2 pages", region, 128);
    say("get 1 page on a multiple of 128",
        scm_region_get_segment(&manager, region, 64, 128, SC_NO_WAIT, 0, 0, 0));
    say("the size of the second", scm_region_get_segment_size(&manager, region, 4480));
    say_information(region);
    say("resize it to 200 bytes", scm_region_resize_segment(&manager, region, 4480, 200));
    say("resize it to 128 bytes", scm_region_resize_segment(&manager, region, 4480, 128));
    say("task 3 waits for 1024 bytes",
        scm_region_get_segment(&manager, region, 1024, 0, SC_WAIT, 3, 1, 0));
    say("return the first", scm_region_return_segment(&manager, region, 4224));
    say("return the second", scm_region_return_segment(&manager, region, 4480));
    say_information(region);
    say("return the third", scm_region_return_segment(&manager, region, 4352));
    say("return task 3's", scm_region_return_segment(&manager, region, 4224));
    say("delete the region by halves", scm_region_delete(&manager, region));
}

static void say_gauge(const char *what, uint32_t status, const sc_gauge *gauge)
{
    printf("%s: status %u, fill %.4f, smoothed %.4f, %s\n", what, (unsigned)status, gauge->last,
           gauge->smoothed, gauge->sounds ? "alarm" : "silent");
}

/* Reads a gauge by a region's information, with an alarm above `limit`. */
static void read_gauge(const char *what, sc_gauge *gauge, uint32_t region, double limit)
{
    uint32_t status = scm_region_get_information(&manager, region);
    if (status == SC_SUCCESSFUL)
        status = scm_gauge_read_information(gauge, SC_ABOVE, limit, 0, &manager);
    say_gauge(what, status, gauge);
}

/* A region of 16 pages: all of them held, then a half, then none. The alarm is silent at its limit
 * and sounds above it. A limit that is no number and a total of 0 leave the gauge as it was. */
static void gauges(void)
{
    const double no_number = strtod("nan", NULL);
    sc_gauge gauge = {0, 0, 0};
    uint32_t region;

    say("create region for a gauge", scm_region_create(&manager, 4, 8192, 1088, 64, SC_FIFO));
    region = answer(SC_ANSWER_VALUE);
    say("get all of it", scm_region_get_segment(&manager, region, 1024, 0, SC_NO_WAIT, 0, 0, 0));
    read_gauge("read the gauge, alarm above 0.25", &gauge, region, 0.25);
    read_gauge("read it again", &gauge, region, 0.25);
    say("shrink to a half", scm_region_resize_segment(&manager, region, 8256, 512));
    read_gauge("read it again", &gauge, region, 0.25);
    read_gauge("with a limit that is no number", &gauge, region, no_number);
    say("return it", scm_region_return_segment(&manager, region, 8256));
    read_gauge("read it again", &gauge, region, 0.25);
    say("delete the region", scm_region_delete(&manager, region));
    read_gauge("read it by an id that is gone", &gauge, region, 0.25);
    say_gauge("read 1 of 3 bytes, alarm outside 0.25 and 0.75",
              scm_gauge_read(&gauge, SC_OUTSIDE, 0.25, 0.75, 1, 3), &gauge);
    say_gauge("read 2 of 3 bytes, alarm below 0.5",
              scm_gauge_read(&gauge, SC_BELOW, 0.5, 0, 2, 3), &gauge);
    say_gauge("read a total of 0", scm_gauge_read(&gauge, SC_BELOW, 0.5, 0, 0, 0), &gauge);
}

static void get_on(const char *what, uint32_t region, uint32_t size, uint32_t alignment)
{
    say(what, scm_region_get_segment(&manager, region, size, alignment, SC_NO_WAIT, 0, 0, 0));
}

/* A region of 15 pages of 64 bytes from 12352 on, for a link that wants multiples of 256: the first
 * is 12544. The room before it serves others. Task 4 wants 704 bytes on such a multiple: it waits
 * beside 11 free pages, since too few of them are behind 12800, and gets 12544 when that is
 * returned. */
static void alignments(void)
{
    uint32_t region, first;

    say("create region for a link", scm_region_create(&manager, 5, 12292, 1020, 64, SC_FIFO));
    region = answer(SC_ANSWER_VALUE);
    get_on("get 64 bytes on a multiple of 256", region, 64, 256);
    first = answer(SC_ANSWER_VALUE);
    say_information(region);
    get_on("get 192 bytes anywhere", region, 192, 0);
    get_on("get 64 bytes on a multiple of 100", region, 64, 100);
    get_on("get 64 bytes on a multiple of 1024, which no page is", region, 64, 1024);
    get_on("get 704 bytes on a multiple of 256", region, 704, 256);
    say("task 4 waits for them",
        scm_region_get_segment(&manager, region, 704, 256, SC_WAIT, 4, 1, 0));
    say("return the first", scm_region_return_segment(&manager, region, first));
    say("shrink task 4's to 64 bytes", scm_region_resize_segment(&manager, region, first, 64));
    say("return it", scm_region_return_segment(&manager, region, first));
    say("return the 192 bytes", scm_region_return_segment(&manager, region, 12352));
    say("delete the region for a link", scm_region_delete(&manager, region));
}

int main(void)
{
    uint32_t region;

    say("create region", scm_region_create(&manager, 1, 4, 1020, 64, SC_PRIORITY));
    say("create partition", scm_partition_create(&manager, 7, 1024, 100, 24));
    say("create another region 1", scm_region_create(&manager, 1, 2048, 1020, 64, SC_FIFO));
    say("ident region 2", scm_region_ident(&manager, 2));
    say("ident region 1", scm_region_ident(&manager, 1));
    region = answer(SC_ANSWER_VALUE);
    segments(region);
    say("ident partition 7", scm_partition_ident(&manager, 7));
    buffers(answer(SC_ANSWER_VALUE));
    halves();

    say("get with no choice", scm_region_get_segment(&manager, region, 64, 0, 2, 0, 0, 0));
    say("create with no choice", scm_region_create(&manager, 3, 4100, 1148, 64, 4));
    memory[1] = 0xffffffffu; /* the region's map, damaged */
    say("get with a damaged map",
        scm_region_get_segment(&manager, region, 64, 0, SC_NO_WAIT, 0, 0, 0));
    memory[1] = 30;
    say("delete the region, its map mended", scm_region_delete(&manager, region));
    say("create it again", scm_region_create(&manager, 1, 4, 1020, 64, SC_PRIORITY));
    say("get by the old id", scm_region_get_segment(&manager, region, 64, 0, SC_NO_WAIT, 0, 0, 0));
    gauges();
    alignments();
    return 0;
}
