/* What a manager takes of memory: idsm_init takes IDSM_CFG_MEMORY bytes, in as many blocks as BLOCKS says if it is
   defined, and none if it refuses. With a journal it takes IDSM_CFG_JOURNAL bytes more, in one block, which is room for the
   lines of each turn. No call after it asks for any or gives any back, and after the close all are given back, also if the
   manager was made of a text, whose file is the first word. And the other numbers of IdsM_Cfg.h: those of callers, classes,
   events and event buffers, and the bytes of a turn's messages. c/check links it with --wrap, so that each call of the
   allocator comes here. With STAND_IN it is for c/stand_in.c, which makes blocks of its own. */
#include "IdsM_Cfg.h"

#include <stdio.h>
#include <stdlib.h>
#include <string.h>

/* What stands before each block: its size, and as much more as keeps its alignment. */
enum { BEFORE = 16 };

void *__real_malloc(size_t size);
void *__real_realloc(void *at, size_t size);
void __real_free(void *at);
void *__wrap_malloc(size_t size);
void *__wrap_calloc(size_t count, size_t size);
void *__wrap_realloc(void *at, size_t size);
void __wrap_free(void *at);

/* The bytes and the blocks that are taken, and how often the allocator was called. */
static size_t taken, blocks, calls;

static size_t *block_of(void *at)
{
    return at == NULL ? NULL : (size_t *)(void *)((char *)at - BEFORE);
}

/* A block that had the old size and gets this one, and is so many more. */
static void *noted(size_t *block, size_t old, size_t size, size_t more)
{
    calls++;
    if (block == NULL)
        return NULL;
    *block = size;
    taken = taken - old + size;
    blocks += more;
    return (char *)block + BEFORE;
}

void *__wrap_malloc(size_t size)
{
    return noted(__real_malloc(size + BEFORE), 0, size, 1);
}

void *__wrap_calloc(size_t count, size_t size)
{
    void *at = __wrap_malloc(count * size);
    return at == NULL ? NULL : memset(at, 0, count * size);
}

void *__wrap_realloc(void *at, size_t size)
{
    size_t *block = block_of(at);
    size_t old = block == NULL ? 0 : *block;
    return noted(__real_realloc(block, size + BEFORE), old, size, block == NULL);
}

void __wrap_free(void *at)
{
    size_t *block = block_of(at);
    calls++;
    taken -= block == NULL ? 0 : *block;
    blocks -= block != NULL;
    __real_free(block);
}

static idsm_caller callers[IDSM_CFG_CALLERS];
static idsm_manager manager;
static uint8_t buffer[IDSM_CFG_BUFFER];
static idsm_sent sent;

/* Turns with more reports than there are event buffers, and each call that reads. Answers whether all was done. */
static int works(void)
{
    static const uint8_t context[2] = {1, 2};
    static idsm_row rows[256];
    static uint8_t contexts[256 * 2];
    uint64_t number;
    size_t count;
    int done = 1;
    for (uint64_t tick = 1; tick < 4; tick++) {
        for (unsigned i = 0; i <= IDSM_CFG_RING; i++)
            idsm_set_event_context(&callers[i % IDSM_CFG_CALLERS], (uint16_t)(i % IDSM_CFG_EVENTS), context, 2);
        done = done && idsm_main(&manager, tick, buffer, sizeof buffer, &sent) == IDSM_DONE;
        done = done && idsm_set_mode(&callers[0], 0, IDSM_MODE_DETAILED) == IDSM_DONE;
        done = done && idsm_set_state(&callers[0], 2) == IDSM_DONE;
        done = done && idsm_buffer_size(&manager, &number) == IDSM_DONE && idsm_rows(&manager, &number) == IDSM_DONE;
        done = done && idsm_snapshot(&manager, rows, 256, contexts, 2, &count) == IDSM_DONE && count == number;
    }
    return done;
}

/* The bytes of the largest context data buffer. */
enum { LARGEST = IDSM_CFG_LARGEST_CONTEXT > 0 ? IDSM_CFG_LARGEST_CONTEXT : 1 };

/* Turns in which each event buffer has a report with a long line: with context data of the largest class, or with one byte,
   which all classes may hold. Answers whether all lines of each turn can be read. */
static int tells_lines(void)
{
    static const uint8_t context[LARGEST] = {1};
    static uint8_t lines[IDSM_CFG_JOURNAL];
    size_t count = 0, more = 0;
    int done = 1;
    for (uint64_t tick = 4; tick < 8; tick++) {
        for (unsigned i = 0; i < IDSM_CFG_RING * IDSM_CFG_EVENTS; i++)
            idsm_set_event_at(&callers[i % IDSM_CFG_CALLERS], (uint16_t)(i % IDSM_CFG_EVENTS), 65535, UINT64_MAX, context,
                              tick % 2 == 0 ? LARGEST : 1);
        done = done && idsm_main(&manager, tick, buffer, sizeof buffer, &sent) == IDSM_DONE;
        done = done && sent.entries == IDSM_CFG_RING;
        done = done && idsm_journal(&manager, 0, lines, sizeof lines, &count) == IDSM_DONE && count > 0;
#ifndef STAND_IN
        done = done && idsm_journal(&manager, count, lines, sizeof lines, &more) == IDSM_DONE && more == 0;
#endif
    }
    return done && more == 0;
}

static int failures;

static void expect(const char *what, size_t wanted, size_t got)
{
    if (wanted != got) {
        printf("%s: %zu and not %zu\n", what, got, wanted);
        failures++;
    }
}

/* The longest context is kept, one of a byte more is not, and no message is longer than is said. */
static void contexts_of_any_length(void)
{
    static const uint8_t context[IDSM_CFG_LARGEST_CONTEXT + 1] = {1};
    uint16_t event = 0;
    size_t length = 0;
    while (idsm_set_event(&callers[0], event) == IDSM_UNKNOWN_EVENT) /* an internal one */
        event++;
    expect("a turn", IDSM_DONE, idsm_main(&manager, 0, buffer, sizeof buffer, &sent));
    expect("the longest context", IDSM_DONE,
           idsm_set_event_at(&callers[0], event, 1, UINT64_MAX, context, IDSM_CFG_LARGEST_CONTEXT));
    expect("a turn", IDSM_DONE, idsm_main(&manager, 0, buffer, sizeof buffer, &sent));
    for (size_t at = 0; idsm_message(buffer, (size_t)sent.bytes, at, &length) == IDSM_DONE; at += length)
        expect("whether a message is as long at most", 1, length <= IDSM_CFG_LONGEST_MESSAGE);
    expect("a context of a byte more", IDSM_WITHOUT_CONTEXT,
           idsm_set_event_context(&callers[0], event, context, IDSM_CFG_LARGEST_CONTEXT + 1));
    expect("a turn", IDSM_DONE, idsm_main(&manager, 0, buffer, sizeof buffer, &sent));
}

/* The numbers of IdsM_Cfg.h, by what the library answers at and past them. idsm_init has looked at that of the callers. */
static void numbers(void)
{
    uint64_t number;
    expect("idsm_buffer_size", IDSM_DONE, idsm_buffer_size(&manager, &number));
    expect("IDSM_CFG_BUFFER", (size_t)number, IDSM_CFG_BUFFER);
    for (uint8_t i = 0; i < IDSM_CFG_CLASSES + 1; i++)
        expect("IDSM_CFG_CLASSES", i == IDSM_CFG_CLASSES ? IDSM_OUT_OF_RANGE : IDSM_DONE, idsm_late(&manager, i, &number));
    expect("IDSM_CFG_EVENTS", IDSM_UNKNOWN_EVENT, idsm_set_mode(&callers[0], IDSM_CFG_EVENTS, IDSM_MODE_DETAILED));
    expect("the last event", IDSM_DONE, idsm_set_mode(&callers[0], IDSM_CFG_EVENTS - 1, IDSM_MODE_DETAILED));
    for (unsigned i = 1; i < IDSM_CFG_RING; i++)
        expect("an event buffer", IDSM_DONE, idsm_set_state(&callers[IDSM_CFG_CALLERS - 1], 2));
    expect("IDSM_CFG_RING", IDSM_LOST, idsm_set_state(&callers[0], 2));
    expect("a turn", IDSM_DONE, idsm_main(&manager, 0, buffer, sizeof buffer, &sent));
    expect("its entries", IDSM_CFG_RING, (size_t)sent.entries);
    contexts_of_any_length();
}

static void clear_handles(void)
{
    static const idsm_caller no_caller;
    static const idsm_manager no_manager;
    for (unsigned i = 0; i < IDSM_CFG_CALLERS; i++)
        callers[i] = no_caller;
    manager = no_manager;
}

static void close_all(void)
{
    idsm_totals totals;
    expect("idsm_close", IDSM_DONE, idsm_close(&manager, 8, buffer, sizeof buffer, &sent, &totals));
    expect("the bytes that are left after the close", 0, taken + blocks);
}

/* A manager from its init to its close, with a journal or without. */
static void run(uint8_t journal)
{
    const idsm_options options = {sizeof buffer, journal};
    idsm_fault fault;
    clear_handles();
    expect("idsm_init", IDSM_DONE, idsm_init(&IdsM_Config, &options, callers, IDSM_CFG_CALLERS, &manager, &fault));
    expect("the bytes that idsm_init takes", IDSM_CFG_MEMORY + (journal ? IDSM_CFG_JOURNAL : 0), taken);
#if defined(BLOCKS) && !defined(STAND_IN)
    expect("the blocks that idsm_init takes", BLOCKS + journal, blocks);
#endif
    calls = 0;
    numbers();
    expect("whether each call does its work", 1, (size_t)works());
    if (journal)
        expect("whether all lines of each turn are told", 1, (size_t)tells_lines());
    expect("calls of the allocator before the close", 0, calls);
    close_all();
}

/* A manager of the configuration's text, which does the same, and none of half of it. */
static void run_of_text(const char *name)
{
    static uint8_t text[1 << 20];
    idsm_fault fault;
    FILE *file = fopen(name, "rb");
    size_t bytes = file == NULL ? 0 : fread(text, 1, sizeof text, file);
    if (file != NULL)
        fclose(file);
    clear_handles();
    taken = blocks = 0; /* what the C library took for the file */
    expect("an init of half a text", IDSM_CONFIGURATION,
           idsm_init_text(text, bytes / 2, NULL, callers, IDSM_CFG_CALLERS, &manager, &fault));
    expect("the bytes that are left after a refusal", 0, taken);
    expect("idsm_init_text", IDSM_DONE,
           idsm_init_text(text, bytes, NULL, callers, IDSM_CFG_CALLERS, &manager, &fault));
    calls = 0;
    numbers();
    expect("whether each call does its work", 1, (size_t)works());
    expect("calls of the allocator before the close", 0, calls);
    close_all();
}

int main(int words, char **word)
{
    idsm_fault fault;
    if (words != 2)
        return 2;
    expect("an init without its callers", IDSM_OUT_OF_RANGE, idsm_init(&IdsM_Config, NULL, NULL, 0, &manager, &fault));
    expect("the bytes that are left after a refusal", 0, taken);
    run(0);
    run(1);
    run_of_text(word[1]);
    return failures == 0 ? 0 : 1;
}
