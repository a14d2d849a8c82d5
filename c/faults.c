/* Each fault of a configuration that tables can have, with its number and its place, as docs/CONFIGURATION.md has them; which
   one is reported if there are two; and the ends of the ranges, which are no faults. */
#include <stdio.h>

#include "idsm_c.h"

static idsm_class classes[5];
static idsm_event events[257];
static idsm_config config;
static int failed;

/* Tables without a fault: three classes and three events. */
static void reset(void)
{
    static const idsm_event event = {.id = 42, .nth = 1, .sensor = 3, .mode = IDSM_MODE_DETAILED, .send = 1};
    static const idsm_top top = {.profile = 1, .instance = 18, .callers = 2, .ring = 8,
                                 .lost_events = IDSM_NONE, .lost_contexts = IDSM_NONE, .limited = IDSM_NONE};
    for (uint32_t i = 0; i < 5; i++)
        classes[i] = (idsm_class){8 * (i + 1), 2};
    for (size_t i = 0; i < 257; i++)
        events[i] = event;
    config = (idsm_config){top, classes, events, 3, 3, 0};
}

/* Makes a manager of the tables, and closes it. */
static idsm_answer make(idsm_fault *fault)
{
    static uint8_t buffer[40000];
    idsm_caller callers[IDSM_MOST_CALLERS] = {{NULL, 0}};
    idsm_manager manager = {.at = NULL};
    idsm_sent sent;
    idsm_totals totals;
    idsm_answer answer = idsm_init(&config, NULL, callers, config.top.callers % 33, &manager, fault);
    return answer != IDSM_DONE ? answer : idsm_close(&manager, 0, buffer, sizeof buffer, &sent, &totals);
}

/* The tables are answered so, with this fault; then they are as at first. */
static void expect(idsm_answer wanted, uint32_t number, uint32_t part, uint32_t place, int line)
{
    idsm_fault fault;
    idsm_answer answer = make(&fault);
    if (answer != wanted || fault.number != number || fault.part != part || fault.place != place) {
        printf("line %d: %u, fault %u in part %u at %u\n", line, answer, fault.number, fault.part, fault.place);
        failed = 1;
    }
    reset();
}

#define FAULT(number, part, place) expect(IDSM_CONFIGURATION, number, part, place, __LINE__)
#define NO_FAULT() expect(IDSM_DONE, 0, 0, 0, __LINE__)
enum { TOP, CLASS, EVENT };

static void tops(void)
{
    config.top.profile = 0, FAULT(25, TOP, 0);
    config.top.profile = 3, FAULT(25, TOP, 0);
    config.top.instance = 1024, FAULT(9, TOP, 0);
    config.top.callers = 0, FAULT(10, TOP, 0);
    config.top.callers = 33, FAULT(10, TOP, 0);
    config.top.ring = 0, FAULT(11, TOP, 0);
    config.top.ring = 1025, FAULT(11, TOP, 0);
    config.top.memory = 257, FAULT(12, TOP, 0);
    config.top.state = 256, FAULT(13, TOP, 0);
    config.top.rate = (idsm_window){0, 5, 1}, FAULT(18, TOP, 0);
    config.top.traffic = (idsm_window){(1ULL << 62) + 1, 5, 1}, FAULT(18, TOP, 0);
    config.top.limited = 3, FAULT(24, TOP, 0);
    config.top.lost_events = 2, config.top.lost_contexts = 2, FAULT(24, TOP, 0);
}

static void lists(void)
{
    config.class_count = 5, FAULT(14, TOP, 0);
    classes[1].size = 0, FAULT(15, CLASS, 1);
    classes[2].size = 1025, FAULT(15, CLASS, 2);
    classes[0].number = 0, FAULT(16, CLASS, 0);
    classes[2].number = 1025, FAULT(16, CLASS, 2);
    classes[1].size = 8, FAULT(17, CLASS, 1);
    config.event_count = 0, FAULT(19, TOP, 0);
    config.event_count = 257, FAULT(19, TOP, 0);
}

static void single_events(void)
{
    events[1].mode = 5, FAULT(7, EVENT, 1);
    events[2].aggregate = (idsm_aggregate){5, 2, 1}, FAULT(8, EVENT, 2);
    events[2].id = 65536, FAULT(20, EVENT, 2);
    events[0].sensor = 64, FAULT(21, EVENT, 0);
    events[0].version = 1, FAULT(26, EVENT, 0);
    config.top.profile = 2, events[1].version = 256, FAULT(26, EVENT, 1);
    events[1].states = 17, FAULT(22, EVENT, 1);
    events[1].states = 2, events[1].block[0] = 3, events[1].block[1] = 3, FAULT(22, EVENT, 1);
    events[1].nth = 0, FAULT(23, EVENT, 1);
    events[1].nth = 65536, FAULT(23, EVENT, 1);
    events[2].aggregate = (idsm_aggregate){0, 0, 1}, FAULT(23, EVENT, 2);
    events[2].threshold = (idsm_window){5, 0, 1}, FAULT(23, EVENT, 2);
    events[2].threshold = (idsm_window){5, 65536, 1}, FAULT(23, EVENT, 2);
}

/* Of two faults that of a choice comes first, and else the one that is first on the page. */
static void two_faults(void)
{
    config.top.ring = 0, events[2].mode = 5, FAULT(7, EVENT, 2);
    config.top.ring = 0, config.top.profile = 0, FAULT(25, TOP, 0);
    events[1].id = 65536, events[0].sensor = 64, FAULT(21, EVENT, 0);
    config.top.limited = 3, events[2].nth = 0, FAULT(23, EVENT, 2);
}

static void no_faults(void)
{
    NO_FAULT();
    config.top.profile = 2, config.top.instance = 1023, config.top.callers = 32, config.top.state = 255, NO_FAULT();
    config.top.rate = (idsm_window){1ULL << 62, UINT32_MAX, 1}, config.top.traffic = (idsm_window){1, 0, 1}, NO_FAULT();
    config.top.rate = (idsm_window){0, 5, 0}, events[0].aggregate = (idsm_aggregate){0, 2, 0}, NO_FAULT();
    config.class_count = 0, config.event_count = 256, events[255].id = 65535, events[255].sensor = 63, NO_FAULT();
    for (uint8_t i = 0; i < 16; i++)
        events[0].block[i] = (uint8_t)(240 + i);
    events[0].states = 16, events[1].nth = 65535, events[2].threshold = (idsm_window){1, 65535, 1}, NO_FAULT();
    events[1].block[0] = 9, events[1].block[1] = 3, events[1].states = 1, NO_FAULT();
    config.top.lost_events = 0, config.top.lost_contexts = 1, config.top.limited = 2, NO_FAULT();
}

int main(void)
{
    reset();
    tops();
    lists();
    single_events();
    two_faults();
    no_faults();
    return failed;
}
