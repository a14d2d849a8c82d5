/* Prints what the library needs for a configuration: BUFFER MEMORY JOURNAL ARENA ARENA_JOURNAL, the numbers of these names in
   IdsM_Cfg.h. c/build links it as out/c/idsm_numbers, and tools/c_config calls it with the tables of the configuration on
   standard input, as numbers in the order of the structs of idsm_c.h: the top, the number of classes, the classes, the number
   of events, the events, and of each event's `block` as many as its `states` says.

   It asks the library itself. It counts what an init takes of the heap and has at its end, and tries arenas until one byte
   less is too little. What it says holds for this library alone. */
#include "inner.h"

#include <inttypes.h>
#include <stdio.h>
#include <stdlib.h>

/* The bytes of the largest arena that is tried, and of the first one. */
enum { MOST_ARENA = 1 << 30, FIRST_ARENA = 1 << 12 };
enum { MOST_CLASSES = 4, MOST_EVENTS = 256, MOST_STATES = 16 };

/* What the heap gave and was not given back. Before each block is its size, and as much more as keeps its alignment. */
enum { BEFORE = 16 };
static size_t taken;

static void *take(size_t size)
{
    size_t *block = malloc(size + BEFORE);
    if (block == NULL)
        return NULL;
    *block = size;
    taken += size;
    return (char *)block + BEFORE;
}

static void *resize(void *at, size_t size)
{
    size_t *block = (size_t *)(void *)((char *)at - BEFORE), old = *block;
    block = realloc(block, size + BEFORE);
    if (block == NULL)
        return NULL;
    *block = size;
    taken = taken - old + size;
    return (char *)block + BEFORE;
}

static void give(void *at)
{
    size_t *block = (size_t *)(void *)((char *)at - BEFORE);
    taken -= *block;
    free(block);
}

static const idsm_heap counting = {take, resize, give};

static _Noreturn void stop(const char *why, unsigned answer, const idsm_fault *fault)
{
    fprintf(stderr, "idsm_numbers: %s answers %u, fault %u in part %u at %u\n", why, answer, fault->number, fault->part,
            fault->place);
    exit(1);
}

/* The tables that are read. */
static idsm_class classes[MOST_CLASSES];
static idsm_event events[MOST_EVENTS];
static idsm_config config = {.classes = classes, .events = events};

static uint64_t number(uint64_t most)
{
    uint64_t read = 0;
    if (scanf("%" SCNu64, &read) != 1 || read > most) {
        fprintf(stderr, "idsm_numbers: standard input has no tables\n");
        exit(2);
    }
    return read;
}

static void read_window(idsm_window *window)
{
    window->interval = number(UINT64_MAX);
    window->number = (uint32_t)number(UINT32_MAX);
    window->is_set = (uint8_t)number(1);
}

static void read_top(idsm_top *top)
{
    read_window(&top->rate);
    read_window(&top->traffic);
    uint32_t *const fields[] = {&top->profile, &top->instance,    &top->callers,       &top->ring,   &top->memory,
                                &top->state,   &top->lost_events, &top->lost_contexts, &top->limited};
    for (size_t i = 0; i < sizeof fields / sizeof fields[0]; i++)
        *fields[i] = (uint32_t)number(UINT32_MAX);
}

static void read_event(idsm_event *event)
{
    event->aggregate.interval = number(UINT64_MAX);
    event->aggregate.context = (uint8_t)number(UINT8_MAX);
    event->aggregate.is_set = (uint8_t)number(1);
    read_window(&event->threshold);
    event->id = (uint32_t)number(UINT32_MAX);
    event->nth = (uint32_t)number(UINT32_MAX);
    event->sensor = (uint16_t)number(UINT16_MAX);
    event->version = (uint16_t)number(UINT16_MAX);
    event->mode = (uint8_t)number(UINT8_MAX);
    event->send = (uint8_t)number(1);
    event->store = (uint8_t)number(1);
    event->states = (uint8_t)number(MOST_STATES);
    for (uint8_t i = 0; i < event->states; i++)
        event->block[i] = (uint8_t)number(UINT8_MAX);
}

static void read_tables(void)
{
    read_top(&config.top);
    config.class_count = (uint32_t)number(MOST_CLASSES);
    for (uint32_t i = 0; i < config.class_count; i++) {
        classes[i].size = (uint32_t)number(UINT32_MAX);
        classes[i].number = (uint32_t)number(UINT32_MAX);
    }
    config.event_count = (uint32_t)number(MOST_EVENTS);
    for (uint32_t i = 0; i < config.event_count; i++)
        read_event(&events[i]);
}

/* What an init takes of the heap, and the bytes of the buffer for a turn's messages. */
static size_t memory(uint8_t journal, uint64_t *buffer)
{
    static idsm_fault fault;
    idsm_caller callers[IDSM_MOST_CALLERS] = {{NULL, 0}};
    idsm_manager manager = {.at = NULL};
    const idsm_making making = idsm_own_tables(&config);
    const idsm_options options = {0, journal};
    const idsm_source source = {&counting, NULL, 0};
    taken = 0;
    uint8_t answer = idsm_own_init(&making, &options, &source, callers, config.top.callers, &manager, &fault);
    if (answer == IDSM_DONE)
        answer = idsm_buffer_size(&manager, buffer);
    if (answer != IDSM_DONE)
        stop("idsm_init", answer, &fault);
    return taken;
}

/* The answer of an init in an arena of so many bytes. Its manager is left there: nothing is to be given back. */
static uint8_t init_in(void *arena, size_t bytes, uint8_t journal)
{
    static idsm_fault fault;
    idsm_caller callers[IDSM_MOST_CALLERS] = {{NULL, 0}};
    idsm_manager manager = {.at = NULL};
    const idsm_options options = {0, journal};
    uint8_t answer = idsm_init_in(&config, &options, arena, bytes, callers, config.top.callers, &manager, &fault);
    if (answer != IDSM_DONE && answer != IDSM_NO_MEMORY)
        stop("idsm_init_in", answer, &fault);
    return answer;
}

/* An arena that is enough, and its bytes. */
static void *some_arena(uint8_t journal, size_t *bytes)
{
    for (*bytes = FIRST_ARENA; *bytes <= MOST_ARENA; *bytes *= 2) {
        void *arena = malloc(*bytes);
        if (arena != NULL && init_in(arena, *bytes, journal) == IDSM_DONE)
            return arena;
        free(arena);
    }
    fprintf(stderr, "idsm_numbers: no arena is large enough\n");
    exit(1);
}

/* The bytes of the least arena, by halves between one that is too small and one that is enough. */
static size_t least_arena(uint8_t journal)
{
    size_t below = 0, enough;
    void *arena = some_arena(journal, &enough);
    while (enough - below > 1) {
        size_t half = below + (enough - below) / 2;
        if (init_in(arena, half, journal) == IDSM_DONE)
            enough = half;
        else
            below = half;
    }
    free(arena);
    return enough;
}

int main(void)
{
    uint64_t buffer = 0;
    read_tables();
    size_t without = memory(0, &buffer), with = memory(1, &buffer);
    size_t arena = least_arena(0), with_lines = least_arena(1);
    printf("%" PRIu64 " %zu %zu %zu %zu\n", buffer, without, with - without, arena,
           with_lines > arena ? with_lines - arena : 0);
    return 0;
}
