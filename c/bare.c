/* The library with no C library below it, and no heap: an arena for all that it takes, the four functions of memory that it
   may call, and messages written by a call of the operating system. */
#include "idsm_c.h"

enum { ARENA = 1 << 20, BUFFER = 1 << 18 };

static _Alignas(16) uint8_t arena[ARENA];
static uint8_t buffer[BUFFER];

void *memset(void *to, int byte, size_t count)
{
    uint8_t *bytes = to;
    for (size_t i = 0; i < count; i++)
        ((volatile uint8_t *)bytes)[i] = (uint8_t)byte;
    return to;
}

void *memcpy(void *to, const void *from, size_t count)
{
    const uint8_t *source = from;
    for (size_t i = 0; i < count; i++)
        ((volatile uint8_t *)to)[i] = source[i];
    return to;
}

void *memmove(void *to, const void *from, size_t count)
{
    volatile uint8_t *target = to;
    const uint8_t *source = from;
    if ((uintptr_t)to <= (uintptr_t)from)
        for (size_t i = 0; i < count; i++)
            target[i] = source[i];
    else
        for (size_t i = count; i > 0; i--)
            target[i - 1] = source[i - 1];
    return to;
}

int memcmp(const void *one, const void *other, size_t count)
{
    const uint8_t *a = one, *b = other;
    for (size_t i = 0; i < count; i++)
        if (a[i] != b[i])
            return a[i] < b[i] ? -1 : 1;
    return 0;
}

static long system_call(long number, long a, long b, long c)
{
#if defined(__x86_64__)
    long result;
    __asm__ volatile("syscall" : "=a"(result) : "a"(number), "D"(a), "S"(b), "d"(c) : "rcx", "r11", "memory");
    return result;
#else
#error "only x86-64 is known here"
#endif
}

static const idsm_class classes[] = {{.size = 8, .number = 2}};
static const idsm_event events[] = {{.id = 42, .nth = 1, .sensor = 3, .mode = IDSM_MODE_DETAILED, .send = 1},
                                    {.id = 43, .nth = 1, .sensor = 3, .mode = IDSM_MODE_DETAILED, .store = 1}};
static const idsm_config config = {
    .top = {.profile = 1, .instance = 18, .callers = 1, .ring = 8, .memory = 2,
            .lost_events = IDSM_NONE, .lost_contexts = IDSM_NONE, .limited = IDSM_NONE},
    .classes = classes, .events = events, .class_count = 1, .event_count = 2};

/* Each call but idsm_init and idsm_close, all answered as done. */
static int calls(idsm_caller *caller, idsm_manager *manager, idsm_sent *sent)
{
    static const uint8_t context[4] = {1, 2, 3, 4};
    uint8_t kept[8];
    uint64_t size, rows, late;
    size_t count;
    idsm_row row;
    uint8_t answers = idsm_set_event(caller, 0);
    answers |= idsm_set_event_count(caller, 1, 2);
    answers |= idsm_set_event_context(caller, 1, context, sizeof context);
    answers |= idsm_set_event_count_context(caller, 1, 3, context, sizeof context);
    answers |= idsm_set_event_at(caller, 1, 1, 5, context, 0);
    answers |= idsm_set_state(caller, 1);
    answers |= idsm_set_mode(caller, 1, IDSM_MODE_BRIEF);
    answers |= idsm_buffer_size(manager, &size);
    answers |= idsm_main(manager, 1, buffer, sizeof buffer, sent);
    answers |= idsm_rows(manager, &rows);
    answers |= idsm_row_at(manager, 0, kept, sizeof kept, &row);
    answers |= idsm_snapshot(manager, &row, 1, kept, sizeof kept, &count);
    answers |= idsm_late(manager, 0, &late);
    return answers == IDSM_DONE && size <= sizeof buffer && rows == 1 && count == 1 && row.occurrences == 7 && late == 0;
}

static int run(void)
{
    static idsm_caller caller;
    static idsm_manager manager;
    idsm_fault fault;
    idsm_sent sent;
    idsm_totals totals;
    if (idsm_set_event(&caller, 0) != IDSM_UNSET)
        return 1;
    static const idsm_options options = {sizeof buffer, 0};
    if (idsm_init_in(&config, &options, arena, sizeof arena, &caller, 1, &manager, &fault) != IDSM_DONE)
        return 2;
    if (!calls(&caller, &manager, &sent) || sent.messages != 1)
        return 3;
    system_call(1, 1, (long)buffer, (long)sent.bytes);
    if (idsm_close(&manager, 2, buffer, sizeof buffer, &sent, &totals) != IDSM_DONE || totals.entries != 7)
        return 5;
    return idsm_set_event(&caller, 0) == IDSM_CLOSED ? 0 : 6;
}

void begin(void);

void begin(void)
{
    system_call(60, run(), 0, 0);
    for (;;) {
    }
}

__asm__(".globl _start\n_start:\n\txor %ebp, %ebp\n\tand $-16, %rsp\n\tcall begin\n");
