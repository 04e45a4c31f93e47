/* Writes into one segment and reads it and its neighbours back: only the named words have moved. */
#include <stdio.h>

#include "steepleclay.h"

static uint32_t memory[SC_MEMORY_WORDS];
static uint32_t before[SC_MEMORY_WORDS];
static sc_manager manager = {{0}, {0}, memory, SC_MEMORY_WORDS};

static void show(const char *what, uint32_t address)
{
    uint32_t words[16];
    size_t n = scm_segment_read(&manager, words, 16, 1, address);
    printf("%s, %u words:", what, (unsigned)n);
    for (size_t i = 0; i < n && i < 16; i++)
        printf(" %u", (unsigned)words[i]);
    printf("\n");
}

static uint32_t put(uint32_t address, uint32_t first, const uint32_t *words, size_t count)
{
    return scm_segment_write(&manager, words, count, 1, address, first);
}

int main(void)
{
    const uint32_t words[3] = {901, 902, 903};
    uint32_t at[3];

    scm_region_create(&manager, 1, 4, 1020, 64, SC_FIFO);
    for (int s = 0; s < 3; s++) {
        scm_region_get_segment(&manager, 1, 64, 0, SC_NO_WAIT, 0, 0, 0);
        at[s] = manager.answer[SC_ANSWER_VALUE];
        for (uint32_t w = 0; w < 16; w++) /* the client fills what it holds */
            memory[at[s] / 4 + w] = 100 * (uint32_t)(s + 1) + w;
    }
    for (uint32_t w = 0; w < SC_MEMORY_WORDS; w++)
        before[w] = memory[w];
    printf("write 3 words at word 4 of the middle one: %u\n", (unsigned)put(at[1], 4, words, 3));
    show("low ", at[0]);
    show("mid ", at[1]);
    show("high", at[2]);
    for (uint32_t w = 0; w < SC_MEMORY_WORDS; w++)
        if (memory[w] != before[w])
            printf("word %u moved\n", (unsigned)w);
    printf("one word too far: %u\n", (unsigned)put(at[1], 14, words, 3));
    printf("up to the last word: %u\n", (unsigned)put(at[1], 13, words, 3));
    printf("no words at the very end: %u\n", (unsigned)put(at[1], 16, words, 0));
    printf("no words past the end: %u\n", (unsigned)put(at[1], 17, words, 0));
    printf("not a held segment: %u\n", (unsigned)put(at[1] + 4, 0, words, 1));
    show("none", at[1] + 4);
    return 0;
}
