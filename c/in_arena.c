/* Managers in arenas: IDSM_CFG_ARENA bytes are enough and one less is not, with a journal and without. They call nothing of the
   heap, and do what a manager of the heap does. An arena is used again once its manager was freed. Two tasks that fill
   arenas and one that takes from the heap get what they asked for or IDSM_BUSY. c/check links it with --wrap, so that each
   call of the allocator comes here, and makes IdsM_Cfg.h with the numbers of the same library. */
#include "IdsM_Cfg.h"

#include <pthread.h>
#include <sched.h>
#include <stdatomic.h>
#include <stdio.h>
#include <stdlib.h>
#include <string.h>

void *__real_malloc(size_t size);
void *__real_realloc(void *at, size_t size);
void __real_free(void *at);
void *__wrap_malloc(size_t size);
void *__wrap_realloc(void *at, size_t size);
void __wrap_free(void *at);

/* The calls of the heap, and its blocks. */
static atomic_size_t heap_calls, heap_blocks;

void *__wrap_malloc(size_t size)
{
    heap_calls++;
    heap_blocks++;
    return __real_malloc(size);
}

void *__wrap_realloc(void *at, size_t size)
{
    heap_calls++;
    heap_blocks += at == NULL;
    return __real_realloc(at, size);
}

void __wrap_free(void *at)
{
    heap_calls++;
    heap_blocks -= at != NULL;
    __real_free(at);
}

static int failures;

static void expect(const char *what, size_t wanted, size_t got)
{
    if (wanted != got) {
        printf("%s: %zu and not %zu\n", what, got, wanted);
        failures++;
    }
}

enum { WITH_JOURNAL = IDSM_CFG_ARENA + IDSM_CFG_ARENA_JOURNAL, BEHIND = 64, TIMES = 20 };

typedef struct {
    _Alignas(16) uint8_t bytes[WITH_JOURNAL + BEHIND];
} arena;

typedef struct {
    idsm_caller callers[IDSM_CFG_CALLERS];
    idsm_manager manager;
    idsm_fault fault;
    idsm_sent sent;
    idsm_totals totals;
    uint8_t buffer[IDSM_CFG_BUFFER];
} unit;

static arena arenas[2];
static unit units[4];

static idsm_options options_of(uint8_t journal)
{
    const idsm_options options = {IDSM_CFG_BUFFER, journal};
    return options;
}

static size_t bytes_of(uint8_t journal)
{
    return journal ? WITH_JOURNAL : IDSM_CFG_ARENA;
}

/* An arena full of bytes that are not zeros. */
static void spoil(arena *in)
{
    memset(in->bytes, 0xa5, sizeof in->bytes);
}

static void expect_behind(const arena *in, size_t bytes)
{
    for (size_t i = bytes; i < sizeof in->bytes; i++)
        expect("a byte behind an arena", 0xa5, in->bytes[i]);
}

static uint8_t init_in(unit *own, void *at, size_t bytes, uint8_t journal)
{
    const idsm_options options = options_of(journal);
    return idsm_init_in(&IdsM_Config, &options, at, bytes, own->callers, IDSM_CFG_CALLERS, &own->manager, &own->fault);
}

static uint8_t init_of_heap(unit *own, uint8_t journal)
{
    const idsm_options options = options_of(journal);
    return idsm_init(&IdsM_Config, &options, own->callers, IDSM_CFG_CALLERS, &own->manager, &own->fault);
}

static void clear(unit *own)
{
    static const unit zeros;
    *own = zeros;
}

static void expect_unset(const char *what, unit *own)
{
    uint64_t number;
    expect(what, IDSM_UNSET, idsm_buffer_size(&own->manager, &number));
    for (size_t i = 0; i < IDSM_CFG_CALLERS; i++)
        expect(what, IDSM_UNSET, idsm_calls(&own->callers[i], &number));
}

/* What is refused leaves the handles as they were. */
static void refusals(uint8_t journal)
{
    unit *own = &units[0];
    idsm_options options = options_of(journal);
    idsm_config empty = IdsM_Config;
    uint8_t *at = arenas[0].bytes;
    size_t bytes = bytes_of(journal);
    spoil(&arenas[0]);
    expect("an arena at NULL", IDSM_NULL, init_in(own, NULL, bytes, journal));
    expect("an arena that is not aligned", IDSM_OUT_OF_RANGE, init_in(own, at + 8, bytes, journal));
    for (size_t small = 0; small < 64; small++)
        expect("an arena of some bytes", IDSM_NO_MEMORY, init_in(own, at, small, journal));
    expect("an arena of half the bytes", IDSM_NO_MEMORY, init_in(own, at, bytes / 2, journal));
    expect("an arena of a byte less", IDSM_NO_MEMORY, init_in(own, at, bytes - 1, journal));
    expect("a configuration at NULL", IDSM_NULL,
           idsm_init_in(NULL, &options, at, bytes, own->callers, IDSM_CFG_CALLERS, &own->manager, &own->fault));
    expect("another number of callers", IDSM_OUT_OF_RANGE,
           idsm_init_in(&IdsM_Config, &options, at, bytes, own->callers, 0, &own->manager, &own->fault));
    options.room = 1;
    expect("a small buffer", IDSM_SMALL_BUFFER,
           idsm_init_in(&IdsM_Config, &options, at, bytes, own->callers, IDSM_CFG_CALLERS, &own->manager, &own->fault));
    empty.event_count = 0;
    expect("a configuration without events", IDSM_CONFIGURATION,
           idsm_init_in(&empty, &options, at, bytes, own->callers, IDSM_CFG_CALLERS, &own->manager, &own->fault));
    expect_unset("a handle after a refusal", own);
    expect_behind(&arenas[0], bytes);
}

/* A sum of bytes that tells them from others. */
static uint64_t sum_of(uint64_t sum, const uint8_t *bytes, size_t count)
{
    for (size_t i = 0; i < count; i++)
        sum = (sum ^ bytes[i]) * 1099511628211u;
    return sum;
}

/* Turns with more reports than there are event buffers, to a last one, and what they send and store as a sum. */
static uint64_t works(unit *own, uint8_t journal)
{
    static const uint8_t context[2] = {1, 2};
    static idsm_row rows[256];
    static uint8_t contexts[256 * 8], lines[IDSM_CFG_JOURNAL];
    uint64_t sum = 14695981039346656037u;
    size_t count = 0;
    for (uint64_t tick = 1; tick < 5; tick++) {
        for (unsigned i = 0; i <= IDSM_CFG_RING; i++)
            idsm_set_event_context(&own->callers[i % IDSM_CFG_CALLERS], (uint16_t)(i % IDSM_CFG_EVENTS), context, 2);
        while (idsm_set_state(&own->callers[0], 2) == IDSM_DONE) {
        }
        uint8_t answer = tick < 4 ? idsm_main(&own->manager, tick, own->buffer, IDSM_CFG_BUFFER, &own->sent)
                                  : idsm_last(&own->manager, tick, own->buffer, IDSM_CFG_BUFFER, &own->sent, &own->totals);
        expect("a turn", IDSM_DONE, answer);
        expect("its entries", IDSM_CFG_RING, (size_t)own->sent.entries);
        sum = sum_of(sum, own->buffer, (size_t)own->sent.bytes);
        expect("its lines", journal ? IDSM_DONE : IDSM_OUT_OF_RANGE,
               idsm_journal(&own->manager, 0, lines, sizeof lines, &count));
        sum = sum_of(sum, lines, journal ? count : 0);
    }
    expect("a turn after the last one", IDSM_CLOSED,
           idsm_main(&own->manager, 9, own->buffer, IDSM_CFG_BUFFER, &own->sent));
    expect("a report after it", IDSM_CLOSED, idsm_set_event(&own->callers[0], 0));
    expect("a snapshot after it", IDSM_DONE, idsm_snapshot(&own->manager, rows, 256, contexts, 8, &count));
    sum = sum_of(sum, (const uint8_t *)&own->totals, sizeof own->totals);
    return sum_of(sum_of(sum, contexts, count * 8), (const uint8_t *)rows, count * sizeof rows[0]);
}

/* The configuration as its text, of which a manager is to do the same. */
static uint8_t text[1 << 20];
static size_t text_bytes;

static void read_text(const char *name)
{
    FILE *file = fopen(name, "rb");
    text_bytes = file == NULL ? 0 : fread(text, 1, sizeof text, file);
    if (file != NULL)
        fclose(file);
}

static void free_unit(unit *own)
{
    uint64_t number;
    expect("idsm_free", IDSM_DONE, idsm_free(&own->manager));
    expect("a call after it", IDSM_CLOSED, idsm_rows(&own->manager, &number));
    expect("an init before zeros", IDSM_CLOSED, init_in(own, arenas[0].bytes, WITH_JOURNAL, 0));
    clear(own);
}

/* Two managers in two arenas, then a third one in the first arena, and their sums beside that of a manager of the heap. */
static void arenas_and_heap(uint8_t journal)
{
    uint64_t sums[4];
    size_t bytes = bytes_of(journal), before;
    const idsm_options options = options_of(journal);
    spoil(&arenas[0]);
    spoil(&arenas[1]);
    before = heap_calls;
    expect("an arena", IDSM_DONE, init_in(&units[0], arenas[0].bytes, bytes, journal));
    expect("another arena", IDSM_DONE, init_in(&units[1], arenas[1].bytes, bytes, journal));
    expect("a handle that has something", IDSM_OCCUPIED, init_in(&units[0], arenas[1].bytes, bytes, journal));
    sums[0] = works(&units[0], journal);
    free_unit(&units[0]);
    spoil(&arenas[0]);
    expect("the first arena again", IDSM_DONE, init_in(&units[0], arenas[0].bytes, bytes, journal));
    sums[1] = works(&units[1], journal);
    expect("calls of the heap", 0, heap_calls - before);
    expect("a manager of the heap", IDSM_DONE, init_of_heap(&units[2], journal));
    expect("whether it has blocks of it", 1, heap_blocks > 0);
    sums[2] = works(&units[0], journal);
    sums[3] = works(&units[2], journal);
    before = heap_calls;
    free_unit(&units[1]);
    free_unit(&units[0]);
    expect("calls of the heap as arenas are given back", 0, heap_calls - before);
    free_unit(&units[2]);
    expect("blocks of the heap that are left", 0, heap_blocks);
    expect("a manager of the text", IDSM_DONE,
           idsm_init_text(text, text_bytes, &options, units[3].callers, IDSM_CFG_CALLERS, &units[3].manager,
                          &units[3].fault));
    expect("whether it does what one of the tables does", 1, works(&units[3], journal) == sums[3]);
    free_unit(&units[3]);
    for (int i = 0; i < 3; i++)
        expect("whether a manager does what one of the heap does", 1, sums[i] == sums[3]);
    expect_behind(&arenas[0], bytes);
    expect_behind(&arenas[1], bytes);
}

static atomic_int wrong;

static void close_unit(unit *own)
{
    wrong += idsm_set_state(&own->callers[0], 1) != IDSM_DONE;
    wrong += idsm_close(&own->manager, 1, own->buffer, IDSM_CFG_BUFFER, &own->sent, &own->totals) != IDSM_DONE;
    wrong += own->totals.entries != 1;
    clear(own);
}

/* Makes managers and closes them, in an arena or, where it is none, from the heap. */
static void *makes(void *number)
{
    size_t own = (size_t)((unit *)number - units);
    for (int times = 0; times < TIMES;) {
        uint8_t answer = own < 2 ? init_in(&units[own], arenas[own].bytes, IDSM_CFG_ARENA, 0) : init_of_heap(&units[own], 0);
        if (answer == IDSM_DONE) {
            close_unit(&units[own]);
            times++;
        } else {
            wrong += answer != IDSM_BUSY;
            sched_yield();
        }
    }
    return NULL;
}

static void tasks(void)
{
    pthread_t threads[3];
    for (int i = 0; i < 3; i++)
        if (pthread_create(&threads[i], NULL, makes, &units[i]) != 0)
            exit(1);
    for (int i = 0; i < 3; i++)
        pthread_join(threads[i], NULL);
    expect("answers that are wrong", 0, (size_t)wrong);
    expect("blocks of the heap that tasks left", 0, heap_blocks);
    expect_behind(&arenas[0], WITH_JOURNAL);
    expect_behind(&arenas[1], WITH_JOURNAL);
}

int main(int words, char **word)
{
    if (words != 2)
        return 2;
    read_text(word[1]);
    heap_blocks = 0; /* but those of the C library */
    for (uint8_t journal = 0; journal < 2; journal++) {
        refusals(journal);
        arenas_and_heap(journal);
    }
    tasks();
    return failures == 0 ? 0 : 1;
}
