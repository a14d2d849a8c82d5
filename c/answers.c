/* Each number of idsm_c.h, each field of its structs, each call and each mode, as the library has them, against values
   worked out by hand. It is C and C++. With STAND_IN it is for c/stand_in.c, which has no filters and no memory; with
   WITHOUT_LIMITS it leaves out the want of memory, since a sanitizer runs under no such limit.
   IDSM_SPENT would take 2^40 calls, IDSM_BUSY another thread, and IDSM_SMALL_BUFFER of idsm_journal a turn that claims a
   buffer twice: c/passing.c has them. */
#define _DEFAULT_SOURCE /* for MAP_ANONYMOUS */
#include <stddef.h>
#include <stdio.h>
#include <stdlib.h>
#include <string.h>
#include <sys/mman.h>
#include <sys/resource.h>
#include <unistd.h>

#include "IdsM.h"
#include "IdsM_Binding.h"
#include "IdsM_Cfg.h"

static idsm_caller *running;
static uint64_t tick;
static int failures, checks;

/* The CRC-32 of answers.json as form 2 prints it, by gzip: {"callers":2,"classes":[{"number":2,"size":8}],"events":[.. */
#define SUM 0xA1B85266U

idsm_caller *unit_caller(void)
{
    return running;
}

uint64_t unit_tick(void)
{
    return tick;
}

static void expect(const char *what, uint64_t wanted, uint64_t got)
{
    checks++;
    if (wanted != got) {
        printf("%s: %llu and not %llu\n", what, (unsigned long long)got, (unsigned long long)wanted);
        failures++;
    }
}

/* The messages of the last turn in hexadecimal, with a space behind each. */
static char kept[4096];

static void hex(char *to, const uint8_t *bytes, size_t count)
{
    for (size_t i = 0; i < count; i++)
        sprintf(to + 2 * i, "%02x", (unsigned)bytes[i]);
}

/* So many messages are not taken. */
static int refused;

/* While messages are handed out, nobody else makes a turn. */
int unit_send(const uint8_t *message, size_t length)
{
    static int is_nested;
    idsm_totals totals;
    if (refused > 0) {
        refused--;
        return 1;
    }
    if (!is_nested) {
        is_nested = 1;
        expect("a turn while messages are sent", 16, IdsM_MainFunction());
        expect("a close while messages are sent", 16, IdsM_DeInit(&totals));
        is_nested = 0;
    }
    hex(kept + strlen(kept), message, length);
    strcat(kept, " ");
    return 0;
}

static void expect_messages(const char *what, const char *wanted)
{
    checks++;
    if (strcmp(wanted, kept) != 0) {
        printf("%s: %s and not %s\n", what, kept, wanted);
        failures++;
    }
}

static void expect_turn(const char *what, const char *wanted)
{
    kept[0] = 0;
    tick++;
    expect(what, 0, IdsM_MainFunction());
    expect_messages(what, wanted);
}

/* The numbers that may never change, and where the fields of the structs stand. */
static void numbers(void)
{
    static const unsigned is[] = {IDSM_DONE, IDSM_UNSET, IDSM_OTHER_ROLE, IDSM_LOST, IDSM_WITHOUT_CONTEXT,
                                  IDSM_UNKNOWN_EVENT, IDSM_ZERO_COUNT, IDSM_SPENT, IDSM_TICK_BACK,
                                  IDSM_TICK_TOO_LARGE, IDSM_OUT_OF_RANGE, IDSM_NO_MEMORY, IDSM_CONFIGURATION,
                                  IDSM_SMALL_BUFFER, IDSM_OCCUPIED, IDSM_NULL, IDSM_BUSY, IDSM_CLOSED,
                                  IDSM_NOT_SENT, IDSM_OTHER_CONFIGURATION, IDSM_BAD_MESSAGE};
    static const unsigned modes[] = {IDSM_MODE_OFF, IDSM_MODE_BRIEF, IDSM_MODE_DETAILED, IDSM_MODE_BRIEF_BYPASSING,
                                     IDSM_MODE_DETAILED_BYPASSING};
    for (unsigned i = 0; i < sizeof is / sizeof is[0]; i++)
        expect("an answer's number", i, is[i]);
    for (unsigned i = 0; i < sizeof modes / sizeof modes[0]; i++)
        expect("a mode's number", i, modes[i]);
    expect("IDSM_ABI", 4, IDSM_ABI);
    expect("idsm_abi", 4, idsm_abi());
#ifdef STAND_IN
    expect("idsm_build", 0, (uint64_t)(strcmp(idsm_build(), "stand-in: nothing of it is proved") != 0));
#else
    expect("idsm_build", 0, (uint64_t)(strncmp(idsm_build(), "idsm 4, proved, logic ", 22) != 0));
    expect("its length", 22 + 16 + 10 + 16, strlen(idsm_build()));
#endif
    expect("IDSM_MOST_CALLERS", 32, IDSM_MOST_CALLERS);
    expect("IDSM_MOST_MESSAGE", 1044, IDSM_MOST_MESSAGE);
    expect("a caller", 16, sizeof(idsm_caller));
    expect("whether it is stopped", 8, offsetof(idsm_caller, stopped));
    expect("a manager", 48, sizeof(idsm_manager));
    expect("whether it is stopped", 8, offsetof(idsm_manager, stopped));
    expect("its sum", 12, offsetof(idsm_manager, sum));
    expect("a manager's callers", 16, offsetof(idsm_manager, callers));
    expect("their number", 24, offsetof(idsm_manager, count));
    expect("what is left", 32, offsetof(idsm_manager, rest));
    expect("its bytes", 40, offsetof(idsm_manager, rest_bytes));
    expect("options", 16, sizeof(idsm_options));
    expect("their journal", 8, offsetof(idsm_options, journal));
    expect("a fault", 12, sizeof(idsm_fault));
    expect("its part", 4, offsetof(idsm_fault, part));
    expect("its place", 8, offsetof(idsm_fault, place));
    expect("sent", 56, sizeof(idsm_sent));
    expect("turn", 0, offsetof(idsm_sent, turn));
    expect("bytes", 8, offsetof(idsm_sent, bytes));
    expect("entries", 16, offsetof(idsm_sent, entries));
    expect("lost_events", 24, offsetof(idsm_sent, lost_events));
    expect("lost_contexts", 32, offsetof(idsm_sent, lost_contexts));
    expect("messages", 40, offsetof(idsm_sent, messages));
    expect("quiet", 48, offsetof(idsm_sent, quiet));
    expect("a status", 64, sizeof(idsm_status));
    expect("its tick", 8, offsetof(idsm_status, tick));
    expect("its entries", 16, offsetof(idsm_status, entries));
    expect("its lost_events", 24, offsetof(idsm_status, lost_events));
    expect("its lost_contexts", 32, offsetof(idsm_status, lost_contexts));
    expect("its messages", 40, offsetof(idsm_status, messages));
    expect("its limited", 48, offsetof(idsm_status, limited));
    expect("its records", 56, offsetof(idsm_status, records));
    expect("its state", 60, offsetof(idsm_status, state));
    expect("totals", 32, sizeof(idsm_totals));
    expect("lost events of all", 8, offsetof(idsm_totals, lost_events));
    expect("lost contexts of all", 16, offsetof(idsm_totals, lost_contexts));
    expect("messages of all", 24, offsetof(idsm_totals, messages));
    expect("a row", 40, sizeof(idsm_row));
    expect("last", 8, offsetof(idsm_row, last));
    expect("stamp", 16, offsetof(idsm_row, stamp));
    expect("bytes", 24, offsetof(idsm_row, bytes));
    expect("event", 32, offsetof(idsm_row, event));
    expect("id", 34, offsetof(idsm_row, id));
    expect("occurrences", 36, offsetof(idsm_row, occurrences));
    expect("sensor", 38, offsetof(idsm_row, sensor));
    expect("has_stamp", 39, offsetof(idsm_row, has_stamp));
    expect("a sealer", 80, sizeof(idsm_sealer));
    expect("its key", 8, offsetof(idsm_sealer, key));
    expect("whether it is filled", 72, offsetof(idsm_sealer, is_set));
}

/* Where the fields of a configuration stand: the proved library reads it as it is. */
static void tables(void)
{
    expect("IDSM_NONE", UINT32_MAX, IDSM_NONE);
    expect("IDSM_FIRST and IDSM_LAST", 1, IDSM_FIRST * 2u + IDSM_LAST);
    expect("a window", 16, sizeof(idsm_window));
    expect("its number", 8, offsetof(idsm_window, number));
    expect("whether it is there", 12, offsetof(idsm_window, is_set));
    expect("an aggregation", 16, sizeof(idsm_aggregate));
    expect("its context", 8, offsetof(idsm_aggregate, context));
    expect("whether it is there", 9, offsetof(idsm_aggregate, is_set));
    expect("a class", 8, sizeof(idsm_class));
    expect("its number", 4, offsetof(idsm_class, number));
    expect("an event", 64, sizeof(idsm_event));
    expect("its threshold", 16, offsetof(idsm_event, threshold));
    expect("its id", 32, offsetof(idsm_event, id));
    expect("its nth", 36, offsetof(idsm_event, nth));
    expect("its sensor", 40, offsetof(idsm_event, sensor));
    expect("its version", 42, offsetof(idsm_event, version));
    expect("its mode", 44, offsetof(idsm_event, mode));
    expect("its send", 45, offsetof(idsm_event, send));
    expect("its store", 46, offsetof(idsm_event, store));
    expect("its states", 47, offsetof(idsm_event, states));
    expect("its block", 48, offsetof(idsm_event, block));
    expect("the top", 72, sizeof(idsm_top));
    expect("its traffic", 16, offsetof(idsm_top, traffic));
    expect("its profile", 32, offsetof(idsm_top, profile));
    expect("its instance", 36, offsetof(idsm_top, instance));
    expect("its callers", 40, offsetof(idsm_top, callers));
    expect("its ring", 44, offsetof(idsm_top, ring));
    expect("its memory", 48, offsetof(idsm_top, memory));
    expect("its state", 52, offsetof(idsm_top, state));
    expect("its lost_events", 56, offsetof(idsm_top, lost_events));
    expect("its lost_contexts", 60, offsetof(idsm_top, lost_contexts));
    expect("its limited", 64, offsetof(idsm_top, limited));
}

/* What tools/c_config made of answers.json. */
static void made_header(void)
{
    uint64_t bytes;
    expect("IDSM_CFG_CALLERS", 2, IDSM_CFG_CALLERS);
    expect("IDSM_CFG_CLASSES", 1, IDSM_CFG_CLASSES);
    expect("IDSM_CFG_EVENTS", 5, IDSM_CFG_EVENTS);
    expect("IDSM_CFG_RING", 4, IDSM_CFG_RING);
    expect("IDSM_CFG_RECORDS", 2, IDSM_CFG_RECORDS);
    expect("IDSM_CFG_LARGEST_CONTEXT", 8, IDSM_CFG_LARGEST_CONTEXT);
    expect("IDSM_CFG_LONGEST_MESSAGE", 28, IDSM_CFG_LONGEST_MESSAGE);
    /* 16 (4 + 5 + 3) + (4 + 8) (4 + 5). */
    expect("IDSM_CFG_BUFFER", 300, IDSM_CFG_BUFFER);
#ifndef STAND_IN
    /* 67 + 4 (52 + 15) + 2 * 2 * 8. */
    expect("IDSM_CFG_JOURNAL", 355, IDSM_CFG_JOURNAL);
#endif
    expect("IDSM_CFG_SUM", SUM, IDSM_CFG_SUM);
    expect("the manager's sum", SUM, idsm_sum(&IdsM_Unit.manager));
    expect("IDSM_EVENT_42", 42, IDSM_EVENT_42);
    expect("IDSM_EVENT_BAD_LOGIN", 4100, IDSM_EVENT_BAD_LOGIN);
    expect("the place of 42", 0, idsm_cfg_place(42));
    expect("the place of 4100", 1, idsm_cfg_place(IDSM_EVENT_BAD_LOGIN));
    expect("the place of 7", 2, idsm_cfg_place(IDSM_EVENT_7));
    expect("the place of 9, which two events have", 65535, idsm_cfg_place(9));
    expect("idsm_buffer_size", 0, idsm_buffer_size(&IdsM_Unit.manager, &bytes));
    expect("the buffer's size", 300, bytes);
#ifdef IDSM_EVENT_9
    expect("a name for an id of two events", 0, 1);
#endif
}

static idsm_answer make(const char *config, size_t count)
{
    return idsm_init_text((const uint8_t *)config, strlen(config), NULL, IdsM_Unit.callers, count, &IdsM_Unit.manager,
                          &IdsM_Unit.fault);
}

/* A text of one's own, of 16 (ring + 4) bytes of messages a turn, for two callers and a buffer of 300 bytes. */
static idsm_answer init_own(const char *text)
{
    static const idsm_options options = {300, 0};
    return idsm_init_text((const uint8_t *)text, strlen(text), &options, IdsM_Unit.callers, 2, &IdsM_Unit.manager,
                          &IdsM_Unit.fault);
}

static void own_configurations(void)
{
    idsm_config other = IdsM_Config;
    idsm_totals totals;
    expect("IdsM_Init of another configuration", 19, IdsM_Init(&other));
    expect("a caller after that", 1, IdsM_SetSecurityEvent(42));
    expect("other callers", 10, init_own("{\"form\":1,\"instance\":19,\"ring\":4,\"events\":[{\"id\":43,\"sensor\":3}]}"));
    expect("304 bytes of messages", 13,
           init_own("{\"form\":1,\"instance\":19,\"callers\":2,\"ring\":15,\"events\":[{\"id\":43,\"sensor\":3}]}"));
    expect("a caller after that", 1, IdsM_SetSecurityEvent(42));
    expect("288 bytes of messages", 0,
           init_own("{\"form\":2,\"instance\":19,\"callers\":2,\"ring\":14,\"events\":[{\"id\":43,\"sensor\":3}]}"));
    expect("the sum of a text", 0, idsm_sum(&IdsM_Unit.manager));
    expect("the first event of it", 0, IdsM_SetSecurityEvent(42));
    expect_turn("a message of profile 2", "2004c3002b000100 ");
    expect("a place that it lacks", 5, IdsM_SetSecurityEvent(4100));
    expect("a close of it", 0, IdsM_DeInit(&totals));
    memset(&IdsM_Unit, 0, sizeof IdsM_Unit);
    tick = 0;
}

#ifndef STAND_IN
static void expect_fault(const char *config, unsigned number, unsigned part, unsigned place)
{
    expect(config, 12, make(config, 2));
    expect("its fault", number, IdsM_Unit.fault.number);
    expect("its part", part, IdsM_Unit.fault.part);
    expect("its place", place, IdsM_Unit.fault.place);
}

static void faults(void)
{
    expect_fault("{\"form\":1,\"instance\":1024,\"events\":[{\"id\":42,\"sensor\":3}]}", 9, 0, 0);
    expect_fault("{\"form\":1,\"instance\":18,\"classes\":[{\"size\":64,\"number\":1},{\"size\":64,\"number\":1}],"
                 "\"events\":[{\"id\":42,\"sensor\":3}]}",
                 17, 1, 1);
    expect_fault("{\"form\":1,\"instance\":18,\"events\":[{\"id\":1,\"sensor\":1},{\"id\":1,\"sensor\":1},"
                 "{\"id\":42,\"sensor\":64}]}",
                 21, 2, 2);
}
#endif

static void making(void)
{
    static idsm_caller callers[33];
    static idsm_manager another;
    idsm_fault fault;
    running = &IdsM_Unit.callers[0];
    own_configurations();
    expect("an unset caller", 1, IdsM_SetSecurityEvent(42));
    expect("an unset manager", 1, IdsM_MainFunction());
    expect("no configuration", 12, make("{}", 2));
    expect("no bytes", 12, idsm_init_text(NULL, 0, NULL, callers, 1, &another, &fault));
    expect("NULL as text", 15, idsm_init_text(NULL, 1, NULL, callers, 2, &another, &fault));
#ifndef STAND_IN
    faults();
#endif
    expect("too few handles", 10, idsm_init(&IdsM_Config, NULL, callers, 1, &another, &fault));
    expect("too many handles", 10, idsm_init(&IdsM_Config, NULL, callers, 33, &another, &fault));
    expect("no handles", 10, idsm_init(&IdsM_Config, NULL, NULL, 0, &another, &fault));
    expect("NULL as configuration", 15, idsm_init(NULL, NULL, callers, 2, &another, &fault));
    expect("NULL as callers", 15, idsm_init(&IdsM_Config, NULL, NULL, 2, &another, &fault));
    expect("NULL as manager", 15, idsm_init(&IdsM_Config, NULL, callers, 2, NULL, &fault));
    expect("NULL as fault", 15, idsm_init(&IdsM_Config, NULL, callers, 2, &another, NULL));
    expect("IdsM_Init", 0, IdsM_Init(&IdsM_Config));
    expect("IdsM_Init again", 14, IdsM_Init(NULL));
    expect("init over one that is taken", 14,
           idsm_init(&IdsM_Config, NULL, IdsM_Unit.callers, 2, &another, &fault));
    expect("its fault", 0, fault.number + fault.part + fault.place);
    for (unsigned i = 0; i < 33; i++)
        expect("a handle after a refusal", 1, callers[i].at == NULL);
    expect("a manager after a refusal", 1, another.at == NULL);
}

#ifndef WITHOUT_LIMITS
static void no_memory(void)
{
    static const char LARGE[] = "{\"form\":1,\"instance\":18,\"ring\":1024,\"events\":[{\"id\":42,\"sensor\":3}]}";
    struct rlimit all, none;
    idsm_caller callers[1] = {{NULL, 0}};
    static idsm_manager another;
    idsm_fault fault;
    getrlimit(RLIMIT_AS, &all);
    none = all;
    none.rlim_cur = 0;
    setrlimit(RLIMIT_AS, &none);
    uint8_t answer = idsm_init_text((const uint8_t *)LARGE, sizeof LARGE - 1, NULL, callers, 1, &another, &fault);
    setrlimit(RLIMIT_AS, &all);
    expect("no memory", 11, answer);
}
#endif

static const uint8_t CONTEXT[9] = {0xa1, 0xb2};
static const uint64_t STAMP = 0x8000000100000a00;

/* Each report call, by the message of its report. */
static void reports(void)
{
    expect("Event", 0, IdsM_SetSecurityEvent(4100));
    expect_turn("Event", "1004851004000100 ");
    expect("WithCount", 0, IdsM_SetSecurityEventWithCount(4100, 258));
    expect_turn("WithCount", "1004851004010200 ");
    expect("WithContextData", 0, IdsM_SetSecurityEventWithContextData(4100, CONTEXT, 2));
    expect_turn("WithContextData", "110485100400010002a1b2 ");
    expect("WithCountContextData", 0, IdsM_SetSecurityEventWithCountContextData(4100, CONTEXT, 2, 3));
    expect_turn("WithCountContextData", "110485100400030002a1b2 ");
    expect("WithTimestamp", 0, IdsM_SetSecurityEventWithTimestamp(4100, STAMP));
    expect_turn("WithTimestamp", "12048510040001008000000100000a00 ");
    expect("WithTimestampCount", 0, IdsM_SetSecurityEventWithTimestampCount(4100, STAMP, 4));
    expect_turn("WithTimestampCount", "12048510040004008000000100000a00 ");
    expect("WithTimestampContextData", 0, IdsM_SetSecurityEventWithTimestampContextData(4100, STAMP, CONTEXT, 2));
    expect_turn("WithTimestampContextData", "13048510040001008000000100000a0002a1b2 ");
    expect("WithTimestampCountContextData", 0,
           IdsM_SetSecurityEventWithTimestampCountContextData(4100, STAMP, CONTEXT, 2, 5));
    expect_turn("WithTimestampCountContextData", "13048510040005008000000100000a0002a1b2 ");
    expect("no context", 0, idsm_set_event_context(running, 1, NULL, 0));
    expect("by its place", 0, idsm_set_event(running, 3));
    expect("the other caller", 0, idsm_set_event_count(&IdsM_Unit.callers[1], 4, 2));
    expect_turn("three reports", "1004851004000100 1004810009000100 1004820009000200 ");
    expect("sent.messages", 3, IdsM_Unit.sent.messages);
    expect("sent.bytes", 24, IdsM_Unit.sent.bytes);
    expect("sent.entries", 3, IdsM_Unit.sent.entries);
    expect("sent.turn", 8, IdsM_Unit.sent.turn);
}

static void refused_reports(void)
{
    expect("an event without a name", 5, IdsM_SetSecurityEvent(9));
    expect("an internal event", 5, IdsM_SetSecurityEvent(7));
    expect("no such place", 5, idsm_set_event(running, 5));
    expect("a count of 0", 6, IdsM_SetSecurityEventWithCount(42, 0));
    expect("no such mode", 10, IdsM_SetReportingMode(42, 5));
    expect("a mode of no event", 5, IdsM_SetReportingMode(9, 1));
    expect("NULL as context", 15, IdsM_SetSecurityEventWithContextData(42, NULL, 2));
    expect("NULL as stamped context", 15, idsm_set_event_at(running, 0, 1, 0, NULL, 1));
    expect("NULL as caller", 15, idsm_set_event(NULL, 0));
    expect("NULL as caller of a state", 15, idsm_set_state(NULL, 0));
    expect("NULL as caller of a mode", 15, idsm_set_mode(NULL, 0, 0));
    expect("a manager as caller", 2, idsm_set_event((idsm_caller *)(void *)&IdsM_Unit.manager, 0));
    expect("a manager's state", 2, idsm_set_state((idsm_caller *)(void *)&IdsM_Unit.manager, 0));
    expect("a manager's mode", 2, idsm_set_mode((idsm_caller *)(void *)&IdsM_Unit.manager, 0, 0));
    expect("a long context", 4, IdsM_SetSecurityEventWithContextData(4100, CONTEXT, 9));
    expect("a second report", 0, IdsM_SetSecurityEvent(4100));
    expect("a third", 0, IdsM_SetSecurityEvent(4100));
    expect("a fourth", 0, IdsM_SetSecurityEvent(4100));
    expect("a fifth", 3, IdsM_SetSecurityEvent(4100));
    expect("a lost state", 3, IdsM_BswM_StateChanged(0));
#ifdef STAND_IN
    expect_turn("losses", "1004851004000100 1004851004000100 1004851004000100 1004851004000100 ");
#else
    expect_turn("losses", "1004800007000100 1004851004000100 1004851004000100 1004851004000100 1004851004000100 ");
#endif
    expect("sent.lost_events", 1, IdsM_Unit.sent.lost_events);
    expect("sent.lost_contexts", 1, IdsM_Unit.sent.lost_contexts);
}

static void refused_turns(void)
{
    static uint8_t buffer[300];
    idsm_manager *manager = &IdsM_Unit.manager;
    static idsm_manager other;
    idsm_sent sent;
    idsm_totals totals;
    expect("a tick back", 8, idsm_main(manager, 1, buffer, sizeof buffer, &sent));
    expect("a tick too large", 9, idsm_main(manager, ((uint64_t)1 << 62) + 1, buffer, sizeof buffer, &sent));
    expect("a small buffer", 13, idsm_main(manager, tick, buffer, sizeof buffer - 1, &sent));
    expect("no buffer", 13, idsm_main(manager, tick, NULL, 0, &sent));
    expect("NULL as buffer", 15, idsm_main(manager, tick, NULL, 300, &sent));
    expect("NULL as sent", 15, idsm_main(manager, tick, buffer, sizeof buffer, NULL));
    expect("NULL as manager", 15, idsm_main(NULL, tick, buffer, sizeof buffer, &sent));
    expect("a close back", 8, idsm_close(manager, 1, buffer, sizeof buffer, &sent, &totals));
    expect("a close without room", 13, idsm_close(manager, tick, NULL, 0, &sent, &totals));
    expect("NULL as totals", 15, idsm_close(manager, tick, buffer, sizeof buffer, &sent, NULL));
    expect("NULL as a close's sent", 15, idsm_close(manager, tick, buffer, sizeof buffer, NULL, &totals));
    expect("a close of NULL", 15, idsm_close(NULL, tick, buffer, sizeof buffer, &sent, &totals));
    expect("what a refusal sent", 0, sent.bytes + sent.entries + sent.lost_events + sent.lost_contexts + sent.messages + sent.turn);
    other.at = IdsM_Unit.callers[0].at;
    expect("a caller's turn", 2, idsm_main(&other, tick, buffer, sizeof buffer, &sent));
    expect("a caller's close", 2, idsm_close(&other, tick, buffer, sizeof buffer, &sent, &totals));
    expect("a caller's last turn", 2, idsm_last(&other, tick, buffer, sizeof buffer, &sent, &totals));
    expect("a caller's stop", 2, idsm_stop(&other));
    expect("a caller freed as a manager", 2, idsm_free(&other));
    expect("a last turn back", 8, idsm_last(manager, 1, buffer, sizeof buffer, &sent, &totals));
    expect("a last turn without room", 13, idsm_last(manager, tick, NULL, 0, &sent, &totals));
    expect("a last turn without totals", 15, idsm_last(manager, tick, buffer, sizeof buffer, &sent, NULL));
    expect("a last turn of NULL", 15, idsm_last(NULL, tick, buffer, sizeof buffer, &sent, &totals));
    expect("a stop of NULL", 15, idsm_stop(NULL));
    expect("NULL freed", 15, idsm_free(NULL));
    expect("a manager freed before its last turn", 16, idsm_free(manager));
    expect("after all these", 0, IdsM_SetSecurityEvent(4100));
    expect_turn("after all these", "1004851004000100 ");
}

/* Messages that are not taken: each is sent once, in order, and no turn is made before the last of them. */
static void refused_messages(void)
{
    kept[0] = 0;
    tick++;
    expect("a report", 0, IdsM_SetSecurityEventWithCount(4100, 1));
    expect("another one", 0, IdsM_SetSecurityEventWithCount(4100, 2));
    refused = 1;
    expect("a turn of which no message is taken", 0, IdsM_MainFunction());
    expect_messages("what was sent", "");
    expect("a third report", 0, IdsM_SetSecurityEventWithCount(4100, 3));
    refused = 1;
    expect("a call that is refused again", 18, IdsM_MainFunction());
    expect("what the last turn took", 2, IdsM_Unit.sent.entries);
    expect("a turn", 0, IdsM_MainFunction());
    expect("what it took", 1, IdsM_Unit.sent.entries);
    expect_messages("all of them", "1004851004000100 1004851004000200 1004851004000300 ");
}

/* The same bytes before a page that nobody may read. */
static const uint8_t *at_end(const uint8_t *bytes, size_t count)
{
    static uint8_t *end;
    if (end == NULL) {
        size_t page = (size_t)sysconf(_SC_PAGESIZE);
        uint8_t *pages = (uint8_t *)mmap(NULL, 2 * page, PROT_READ | PROT_WRITE, MAP_PRIVATE | MAP_ANONYMOUS, -1, 0);
        if (pages == MAP_FAILED || mprotect(pages + page, page, PROT_NONE) != 0)
            exit(2);
        end = pages + page;
    }
    memcpy(end - count, bytes, count);
    return end - count;
}

/* The length of the message that begins there; 0 where none does. */
static void expect_length(const char *what, uint64_t wanted, const uint8_t *bytes, size_t count, size_t at)
{
    size_t length = 77;
    expect(what, wanted > 0 ? 0 : 10, idsm_message(at_end(bytes, count), count, at, &length));
    expect(what, wanted, length);
}

/* A message, of which no front is one. */
static void expect_whole(const char *what, const uint8_t *bytes, size_t count)
{
    expect_length(what, count, bytes, count, 0);
    for (size_t front = 1; front < count; front++)
        expect_length(what, 0, bytes, front, 0);
}

/* Three messages, of 8, 11 and 16 bytes. */
static const uint8_t three[] = {0x10, 4, 0x83, 0, 42, 0, 1, 0, 0x21, 4, 0x83, 0, 42, 0, 1, 7, 2, 0xa1, 0xb2,
                                0x12, 4, 0x83, 0, 42, 0, 1, 0, 1, 2, 3, 4, 5, 6, 7, 8};

static void walks(void)
{
    static const uint8_t large[1044] = {0x13, 4, 0x83, 0, 42, 0, 1, 0, 1, 2, 3, 4, 5, 6, 7, 8, 0x80, 0, 4, 0};
    static const uint8_t short_one[9 + 127] = {0x11, 4, 0x83, 0, 42, 0, 1, 0, 127};
    static const uint8_t empty[12] = {0x11, 4, 0x83, 0, 42, 0, 1, 0, 0x80, 0, 0, 0};
    static const uint8_t wide[12] = {0x11, 4, 0x83, 0, 42, 0, 1, 0, 0xff, 0xff, 0xff, 0xff};
    static const uint8_t huge[12] = {0x11, 4, 0x83, 0, 42, 0, 1, 0, 0x80, 1, 0, 0};
    static const uint8_t signed_one[14] = {0x15, 4, 0x83, 0, 42, 0, 1, 0, 1, 9, 0, 2};
    static const uint8_t unknown[8] = {0x18, 4, 0x83, 0, 42, 0, 1, 0};
    static const uint8_t other[8] = {0x30, 4, 0x83, 0, 42, 0, 1, 0}, older[8] = {0x00, 4, 0x83, 0, 42, 0, 1, 0};
    size_t length;
    expect_length("a message", 8, three, sizeof three, 0);
    expect_length("a message with context", 11, three, sizeof three, 8);
    expect_length("a message with timestamp", 16, three, sizeof three, 19);
    expect_length("a cut one", 0, three, sizeof three - 1, 19);
    expect_length("the end", 0, three, sizeof three, sizeof three);
    expect_length("behind the end", 0, three, sizeof three, 100);
    expect_length("no message", 0, three, sizeof three, 1);
    expect_whole("the first", three, 8);
    expect_whole("the second", three + 8, 11);
    expect_whole("the third", three + 19, 16);
    expect_whole("the longest", large, sizeof large);
    expect_whole("the longest in short form", short_one, sizeof short_one);
    expect_whole("an empty context in long form", empty, sizeof empty);
    expect_length("a context of 2^31 - 1 bytes", 0, wide, sizeof wide, 0);
    expect_length("a context of 2^16 bytes", 0, huge, sizeof huge, 0);
    expect_whole("a signed one", signed_one, sizeof signed_one);
    expect_length("one with an unknown part", 0, unknown, sizeof unknown, 0);
    expect_length("one of version 3", 0, other, sizeof other, 0);
    expect_length("one of version 0", 0, older, sizeof older, 0);
    expect("no bytes", 10, idsm_message(NULL, 0, 0, &length));
    expect("NULL as messages", 15, idsm_message(NULL, 8, 0, &length));
    expect("NULL as length", 15, idsm_message(three, sizeof three, 0, NULL));
}

/* What a call wrote to the front of a buffer of 0xa5, and nothing behind it. */
static uint8_t written[80];

static void expect_written(const char *what, const uint8_t *wanted, size_t count)
{
    size_t other = 0;
    for (size_t i = 0; i < sizeof written; i++)
        other += written[i] != (i < count ? wanted[i] : 0xa5);
    expect(what, 0, other);
    memset(written, 0xa5, sizeof written);
}

/* A unit of so many bytes that took so many of messages, whose two numbers are these; or why there is none. */
static void expect_unit(const char *what, uint8_t answer, uint16_t size, const uint8_t *from, size_t bytes, size_t room,
                        size_t unit, size_t taken, uint8_t number)
{
    uint8_t wanted[sizeof written] = {0, number, 0, (uint8_t)taken};
    size_t unit_bytes = 77, took = 77;
    expect(what, answer, idsm_unit(size, bytes == 0 ? from : at_end(from, bytes), bytes, written, room, &unit_bytes, &took));
    expect(what, unit, unit_bytes);
    expect(what, taken, took);
    memcpy(wanted + 4, from, taken);
    expect_written(what, wanted, answer == IDSM_DONE ? unit : 0);
}

static void units(void)
{
    uint8_t nine[72], bad[35];
    size_t number;
    for (size_t i = 0; i < sizeof nine; i++)
        nine[i] = three[i % 8];
    memset(written, 0xa5, sizeof written);
    expect_unit("a unit", 0, 64, three, 35, 39, 39, 35, 3);
    expect_unit("one without room", 13, 64, three, 35, 38, 39, 0, 0);
    expect_unit("one before a cut message", 0, 64, three, 34, 80, 23, 19, 2);
    expect_unit("a cut message", 20, 64, three, 7, 80, 0, 0, 0);
    expect_unit("eight of nine messages", 0, 64, nine, 72, 80, 68, 64, 8);
    expect_unit("and the ninth", 0, 64, nine + 64, 8, 80, 12, 8, 1);
    expect_unit("a size of 71", 0, 71, nine, 72, 80, 68, 64, 8);
    expect_unit("a size of 72", 0, 72, nine, 72, 80, 76, 72, 9);
    expect_unit("a size of 63", 10, 63, three, 35, 80, 0, 0, 0);
    expect_unit("no messages", 10, 64, three, 0, 80, 0, 0, 0);
    for (unsigned bit = 3; bit < 8; bit++) {
        memcpy(bad, three, sizeof bad);
        bad[8] ^= (uint8_t)(1u << bit);
        expect_unit("a unit before a turned bit", 0, 64, bad, 35, 80, 12, 8, 1);
        bad[0] = bad[8];
        expect_unit("a turned bit", 20, 64, bad, 35, 80, 0, 0, 0);
    }
    expect("NULL as messages", 15, idsm_unit(64, NULL, 1, written, 80, &number, &number));
    expect("NULL as a unit", 15, idsm_unit(64, three, 35, NULL, 1, &number, &number));
    expect("no unit", 13, idsm_unit(64, three, 35, NULL, 0, &number, &number));
    expect("NULL as its bytes", 15, idsm_unit(64, three, 35, written, 80, NULL, &number));
    expect("NULL as what it took", 15, idsm_unit(64, three, 35, written, 80, &number, NULL));
    expect_written("without a unit", written, 0);
}

/* What sealing messages into so much room answers, and tells. But for a sealed one nothing is changed. */
static void expect_seal(const char *what, uint8_t answer, idsm_sealer *sealer, const uint8_t *from, size_t bytes,
                        size_t room, size_t told)
{
    const idsm_sealer old = *sealer;
    size_t number = 77;
    expect(what, answer, idsm_seal(sealer, bytes == 0 ? from : at_end(from, bytes), bytes, written, room, &number));
    expect(what, told, number);
    if (answer != IDSM_DONE || bytes == 0) {
        expect(what, 0, (uint64_t)memcmp(sealer, &old, sizeof old));
        expect_written(what, written, 0);
    }
}

static void refused_keys(idsm_sealer *sealer)
{
    static idsm_sealer zeros;
    uint8_t key[65] = {0};
    expect("a key of no bytes", 10, idsm_sealer_init(sealer, key, 0, 5));
    expect("a key at NULL of no bytes", 10, idsm_sealer_init(sealer, NULL, 0, 5));
    expect("a key of 65 bytes", 10, idsm_sealer_init(sealer, key, 65, 5));
    expect("a start above 2^62", 10, idsm_sealer_init(sealer, key, 64, ((uint64_t)1 << 62) + 1));
    expect("NULL as a key", 15, idsm_sealer_init(sealer, NULL, 1, 5));
    expect("NULL as a sealer", 15, idsm_sealer_init(NULL, key, 1, 5));
    expect("the sealer", 0, (uint64_t)memcmp(sealer, &zeros, sizeof zeros));
}

/* The second message sealed under the key `Jefe` with the counter 5, by the hmac of Python. */
static const uint8_t sealed[53] = {
    0x25, 4, 0x83, 0, 0x2a, 0, 1, 7, 2, 0xa1, 0xb2, 0, 0x28, 0, 0, 0, 0, 0, 0, 0, 5, 0x53, 0x64, 0x46, 0xb7, 0xc5,
    0x79, 0x29, 0xd5, 0xb4, 0x88, 0x28, 0x9f, 0xed, 0x3e, 0x1f, 7, 0x55, 0xf2, 0x5f, 0x68, 0x10, 0xdc, 0x37, 0xe7,
    0x54, 0x5d, 0x79, 0x4a, 0xda, 0x6f, 0xe2, 0x47};

static void seals(void)
{
    static idsm_sealer sealer;
    uint8_t bad[35];
    size_t number;
    memset(written, 0xa5, sizeof written);
    refused_keys(&sealer);
    expect_seal("zeros as a sealer", 1, &sealer, three, 8, 80, 0);
    expect("a key", 0, idsm_sealer_init(&sealer, (const uint8_t *)"Jefe", 4, 5));
    memcpy(bad, three, sizeof bad);
    bad[8] = 0x29;
    expect_seal("a turned bit", 20, &sealer, bad, 35, 80, 8);
    expect_seal("a cut message", 20, &sealer, three, 34, 80, 19);
    expect_seal("a signed message", 20, &sealer, sealed, 53, 80, 0);
    expect_seal("one without room", 13, &sealer, three + 8, 11, 52, 53);
    expect_seal("no room", 13, &sealer, three, 35, 0, 161);
    expect_seal("no messages", 0, &sealer, three, 0, 0, 0);
    expect("NULL as messages", 15, idsm_seal(&sealer, NULL, 1, written, 80, &number));
    expect("NULL as a buffer", 15, idsm_seal(&sealer, three, 8, NULL, 1, &number));
    expect("NULL as a sealer of messages", 15, idsm_seal(NULL, three, 8, written, 80, &number));
    expect("NULL as a number", 15, idsm_seal(&sealer, three, 8, written, 80, NULL));
    expect("nothing at NULL", 0, idsm_seal(&sealer, NULL, 0, NULL, 0, &number));
    expect_seal("a message", 0, &sealer, three + 8, 11, 53, 53);
    expect_written("it, sealed", sealed, 53);
    expect("the counter that is due", 6, sealer.next);
    expect("the greatest start", 0, idsm_sealer_init(&sealer, three, 35, (uint64_t)1 << 62));
    expect_seal("the last message", 0, &sealer, three, 8, 50, 50);
    memset(written, 0xa5, sizeof written);
    expect("the counter behind it", ((uint64_t)1 << 62) + 1, sealer.next);
    expect_seal("one more", 10, &sealer, three, 8, 80, 0);
    expect_seal("no more", 10, &sealer, three, 0, 80, 0);
}

/* What two reports with context give under a mode, of an event of which every second one passes. */
static void mode(const char *name, uint8_t mode, const char *wanted)
{
    expect(name, 0, IdsM_SetReportingMode(42, mode));
    for (int i = 0; i < 2; i++)
        expect(name, 0, IdsM_SetSecurityEventWithContextData(42, CONTEXT, 2));
    expect_turn(name, wanted);
}

static void modes(void)
{
    mode("OFF", IDSM_MODE_OFF, "");
#ifdef STAND_IN
    mode("BRIEF", IDSM_MODE_BRIEF, "100483002a000100 100483002a000100 ");
#else
    mode("BRIEF", IDSM_MODE_BRIEF, "100483002a000100 ");
    mode("DETAILED", IDSM_MODE_DETAILED, "110483002a00010002a1b2 ");
#endif
    mode("BRIEF_BYPASSING", IDSM_MODE_BRIEF_BYPASSING, "100483002a000100 100483002a000100 ");
    mode("DETAILED_BYPASSING", IDSM_MODE_DETAILED_BYPASSING, "110483002a00010002a1b2 110483002a00010002a1b2 ");
    expect("a state", 0, IdsM_BswM_StateChanged(3));
    expect("a blocked report", 0, IdsM_SetSecurityEvent(4100));
    expect("another state", 0, IdsM_BswM_StateChanged(2));
#ifdef STAND_IN
    expect_turn("a blocked report", "1004851004000100 ");
#else
    expect_turn("a blocked report", "");
#endif
}

static void memory(void)
{
    idsm_manager *manager = &IdsM_Unit.manager;
    idsm_row row, rows[2];
    uint8_t context[16] = {0};
    uint64_t number;
    size_t count;
    expect("late", 0, idsm_late(manager, 0, &number));
    expect("late buffers", 0, number);
    expect("late of no class", 10, idsm_late(manager, 1, &number));
    expect("NULL as late", 15, idsm_late(manager, 0, NULL));
    expect("NULL as rows", 15, idsm_rows(manager, NULL));
    expect("NULL as size", 15, idsm_buffer_size(manager, NULL));
    expect("NULL as row", 15, idsm_row_at(manager, 0, context, 2, NULL));
    expect("NULL as a row's context", 15, idsm_row_at(manager, 0, NULL, 2, &row));
    expect("NULL as count", 15, idsm_snapshot(manager, rows, 2, context, 8, NULL));
    expect("NULL as all rows", 15, idsm_snapshot(manager, NULL, 2, context, 8, &count));
    expect("NULL as contexts", 15, idsm_snapshot(manager, rows, 2, NULL, 8, &count));
    expect("rows of NULL", 15, idsm_rows(NULL, &number));
    expect("no such row", 10, idsm_row_at(manager, 2, context, 16, &row));
#ifndef STAND_IN
    expect("a stamped report", 0, IdsM_SetSecurityEventWithTimestampContextData(4100, STAMP, CONTEXT, 2));
    expect_turn("a stamped report", "13048510040001008000000100000a0002a1b2 ");
    expect("rows", 0, idsm_rows(manager, &number));
    expect("their number", 1, number);
    expect("a row without room", 13, idsm_row_at(manager, 0, context, 1, &row));
    expect("a row", 0, idsm_row_at(manager, 0, context, 2, &row));
    expect("row.first", 2, row.first);
    expect("row.last", tick, row.last);
    expect("row.stamp", STAMP, row.stamp);
    expect("row.bytes", 2, row.bytes);
    expect("row.event", 1, row.event);
    expect("row.id", 4100, row.id);
    /* 1 + 258 + 1 + 3 + 1 + 4 + 1 + 5, one, four of five, one more, 1 + 2 + 3, and the last. */
    expect("row.occurrences", 287, row.occurrences);
    expect("row.sensor", 5, row.sensor);
    expect("row.has_stamp", 1, row.has_stamp);
    expect("its context", 0xa1b2, (unsigned)context[0] << 8 | context[1]);
    expect("a snapshot without room for a row", 13, idsm_snapshot(manager, rows, 0, context, 8, &count));
    expect("the rows that it wants", 1, count);
    expect("a snapshot without room for a context", 13, idsm_snapshot(manager, rows, 2, context, 1, &count));
    expect("a snapshot", 0, idsm_snapshot(manager, rows, 2, context, 8, &count));
    expect("its row's occurrences", 287, rows[0].occurrences);
#endif
}

/* What a status tells, with the tick of the last turn, and nothing held back. */
static void expect_status(const char *what, idsm_manager *manager, uint64_t turns, uint64_t entries, uint64_t lost_events,
                          uint64_t lost_contexts, uint64_t messages, uint64_t records, uint64_t state)
{
    idsm_status status;
    expect(what, 0, idsm_read_status(manager, &status));
    expect(what, turns, status.turns);
    expect(what, turns == 0 ? 0 : tick, status.tick);
    expect(what, entries, status.entries);
    expect(what, lost_events, status.lost_events);
    expect(what, lost_contexts, status.lost_contexts);
    expect(what, messages, status.messages);
    expect(what, 0, status.limited);
    expect(what, records, status.records);
    expect(what, state, status.state);
}

static void expect_mode(const char *what, idsm_manager *manager, uint16_t event, uint64_t wanted)
{
    uint8_t mode = 9;
    expect(what, 0, idsm_mode(manager, event, &mode));
    expect(what, wanted, mode);
}

static void expect_calls(const char *what, idsm_caller *caller, uint64_t wanted)
{
    uint64_t calls = 99;
    expect(what, 0, idsm_calls(caller, &calls));
    expect(what, wanted, calls);
}

/* The lines of the last turn, in pieces of 1 and of 7 bytes and in one, with nothing written after a piece. */
static void expect_lines(const char *what, idsm_manager *manager, const char *wanted)
{
    static const size_t pieces[] = {1, 7, 400};
    for (unsigned i = 0; i < 3; i++) {
        uint8_t text[400], piece[401];
        size_t at = 0, bytes;
        do {
            memset(piece, 0xee, sizeof piece);
            expect(what, 0, idsm_journal(manager, at, piece, pieces[i], &bytes));
            memcpy(text + at, piece, bytes);
            at += bytes;
            expect(what, 0xee, piece[bytes]);
        } while (bytes == pieces[i]);
        expect(what, strlen(wanted), at);
        expect(what, 0, at == strlen(wanted) ? (uint64_t)(memcmp(text, wanted, at) != 0) : 1);
    }
}

/* What is refused of all that reads a manager and a caller, and what it then tells. */
static void expect_no_reading(const char *what, uint8_t answer, idsm_manager *manager, idsm_caller *caller)
{
    idsm_status status = {9, 9, 9, 9, 9, 9, 9, 9, 9};
    uint8_t mode = 9, text[4];
    uint64_t calls = 9;
    size_t bytes = 9;
    expect(what, answer, idsm_read_status(manager, &status));
    expect(what, 0, status.turns + status.tick + status.entries + status.lost_events + status.lost_contexts +
           status.messages + status.limited + status.records + status.state);
    expect(what, answer, idsm_mode(manager, 0, &mode));
    expect(what, 0, mode);
    expect(what, answer, idsm_journal(manager, 0, text, sizeof text, &bytes));
    expect(what, 0, bytes);
    expect(what, answer, idsm_calls(caller, &calls));
    expect(what, 0, calls);
}

/* What is refused of the readings of a manager without a journal, and of its first caller. */
static void refused_readings(idsm_manager *manager, idsm_caller *caller)
{
    static idsm_manager other;
    uint8_t mode = 9, text[4];
    size_t bytes = 9;
    expect_no_reading("a reading of NULL", 15, NULL, NULL);
    expect_no_reading("a reading of zeros", 1, &other, (idsm_caller *)(void *)&other);
    other.at = caller->at;
    expect_no_reading("a reading in another role", 2, &other, (idsm_caller *)(void *)manager);
    expect("NULL as status", 15, idsm_read_status(manager, NULL));
    expect("NULL as mode", 15, idsm_mode(manager, 0, NULL));
    expect("NULL as calls", 15, idsm_calls(caller, NULL));
    expect("NULL as a journal's bytes", 15, idsm_journal(manager, 0, text, sizeof text, NULL));
    expect("NULL as a journal's buffer", 15, idsm_journal(manager, 0, NULL, 1, &bytes));
    expect("a mode of no event", 10, idsm_mode(manager, 5, &mode));
    expect("that mode", 0, mode);
    expect("no journal", 10, idsm_journal(manager, 0, text, sizeof text, &bytes));
    expect("its bytes", 0, bytes);
}

static void options(idsm_caller *callers, idsm_manager *manager)
{
    idsm_options asked = {299, 1};
    idsm_fault fault;
    expect("options with little room", 13, idsm_init(&IdsM_Config, &asked, callers, 2, manager, &fault));
    asked.room = 0;
    expect("options with a caller too many", 10, idsm_init(&IdsM_Config, &asked, callers, 3, manager, &fault));
    asked.room = 300;
    expect("options", 0, idsm_init(&IdsM_Config, &asked, callers, 2, manager, &fault));
    expect("options again", 14, idsm_init(&IdsM_Config, &asked, callers, 2, manager, &fault));
}

/* Two turns of a manager with a journal, each with as many calls as there are event buffers: of ids 4100 and 9. The second
   one wants three buffers of two, which the stand-in has. */
#ifdef STAND_IN
enum { TOLD = 2, TOLD_THEN = 6, STORED = 0, WITHOUT = 1 };
static const char SECOND[] = "T 9 0 1 0\nR 0 3 1 1 - !\nR 0 4 1 2 - 0:1:a1b2000000000000\nR 1 2 1 1 - 0:2:a1\n"
                             "R 0 5 1 1 - 0:3:a1b2\n";
#else
enum { TOLD = 3, TOLD_THEN = 3, STORED = 1, WITHOUT = 2 };
static const char SECOND[] = "T 9 0 2 0\nR 0 3 1 1 - !\nR 0 4 1 2 - 0:1:a1b2000000000000\nR 1 2 1 1 - 0:2:a1\n"
                             "R 0 5 1 1 - !3\n";
#endif

static void first_turn(idsm_caller *callers, idsm_manager *manager, uint8_t *buffer)
{
    idsm_sent sent;
    expect("a stamped report", 0, idsm_set_event_at(&callers[0], 1, 3, STAMP, CONTEXT, 2));
    expect("a state", 0, idsm_set_state(&callers[1], 3));
    expect("a mode", 0, idsm_set_mode(&callers[1], 0, IDSM_MODE_BRIEF_BYPASSING));
    expect("a report", 0, idsm_set_event(&callers[0], 4));
    expect("a lost report", 3, idsm_set_event(&callers[0], 1));
    expect("a report of no event", 5, idsm_set_event(&callers[0], 5));
    expect_calls("calls", &callers[0], 3);
    expect_calls("calls of the other", &callers[1], 2);
    expect_mode("a mode before its turn", manager, 0, IDSM_MODE_DETAILED);
    expect_status("nothing", manager, 0, 0, 0, 0, 0, 0, 0);
    expect_lines("no lines", manager, "");
    tick = 7;
    expect("the first turn", 0, idsm_main(manager, tick, buffer, 300, &sent));
    expect("its number", 0, sent.turn);
    expect_mode("a mode after its turn", manager, 0, IDSM_MODE_BRIEF_BYPASSING);
    expect_mode("an internal event's mode", manager, 2, IDSM_MODE_DETAILED);
    expect_status("one turn", manager, 1, 4, 1, 0, TOLD, STORED, 3);
    expect_lines("its lines", manager, "T 7 1 0 0\nR 0 0 1 3 8000000100000a00 0:0:a1b2\nC 1 0 S 3\n"
                                       "C 1 1 M 0 BRIEF_BYPASSING_FILTERS\nR 0 1 4 1 - -\n");
}

static void second_turn(idsm_caller *callers, idsm_manager *manager, uint8_t *buffer)
{
    idsm_sent sent;
    uint8_t text[9];
    size_t bytes = 9;
    expect("a long context", 4, idsm_set_event_context(&callers[0], 1, CONTEXT, 9));
    expect("a context", 0, idsm_set_event_count_context(&callers[0], 1, 2, CONTEXT, 8));
    expect("a short one", 0, idsm_set_event_context(&callers[1], 1, CONTEXT, 1));
    expect("a third", WITHOUT == 2 ? 4 : 0, idsm_set_event_context(&callers[0], 1, CONTEXT, 2));
    expect("a turn that is refused", 8, idsm_main(manager, 6, buffer, 300, &sent));
    tick = 9;
    expect("the second turn", 0, idsm_main(manager, tick, buffer, 300, &sent));
    expect("its number", 1, sent.turn);
    expect_status("two turns", manager, 2, 8, 1, WITHOUT, TOLD_THEN, STORED, 3);
    expect_lines("its lines", manager, SECOND);
    expect("lines from byte 4 on", 0, idsm_journal(manager, 4, text, 9, &bytes));
    expect("their number", 9, bytes);
    expect("what they are", 0, (uint64_t)(memcmp(text, SECOND + 4, 9) != 0));
    expect("lines from their end on", 0, idsm_journal(manager, sizeof SECOND - 1, text, 9, &bytes));
    expect("their number", 0, bytes);
    expect("lines from far after it", 0, idsm_journal(manager, SIZE_MAX, text, 9, &bytes));
    expect("their number", 0, bytes);
    expect("lines without a buffer", 0, idsm_journal(manager, 0, NULL, 0, &bytes));
    expect("their number", 0, bytes);
}

/* A manager with a journal, and all that reads it and its callers while it runs. */
static void journals(void)
{
    static idsm_caller callers[3];
    static idsm_manager manager;
    static uint8_t buffer[300];
    idsm_sent sent;
    idsm_totals totals;
    uint64_t calls;
    options(callers, &manager);
    first_turn(callers, &manager, buffer);
    second_turn(callers, &manager, buffer);
    expect("a last report", 0, idsm_set_event_count(&callers[1], 4, 65535));
    expect("the stop", 0, idsm_stop(&manager));
    expect("a stopped caller's calls", 17, idsm_calls(&callers[1], &calls));
    expect("the last turn", 0, idsm_last(&manager, tick, buffer, sizeof buffer, &sent, &totals));
    expect("its number", 2, sent.turn);
    expect("the totals' entries", 9, totals.entries);
    expect("the totals' losses", 1 + 10 * WITHOUT, totals.lost_events + 10 * totals.lost_contexts);
    expect("the totals' messages", TOLD_THEN + 1, totals.messages);
    expect_status("all turns", &manager, 3, 9, 1, WITHOUT, TOLD_THEN + 1, STORED, 3);
    expect_mode("a mode after the last turn", &manager, 0, IDSM_MODE_BRIEF_BYPASSING);
    expect_lines("the last turn's lines", &manager, "T 9 0 0 0\nR 1 3 4 65535 - -\n");
    expect("the manager freed", 0, idsm_free(&manager));
    expect_no_reading("a reading of closed handles", 17, &manager, &callers[0]);
}

#ifndef STAND_IN
static void expect_quiet(const char *what, idsm_manager *manager, uint64_t at, uint8_t is_quiet)
{
    uint8_t buffer[80];
    idsm_sent sent;
    expect(what, 0, idsm_main(manager, at, buffer, sizeof buffer, &sent));
    expect(what, is_quiet, sent.quiet);
}

/* One event buffer, windows of five ticks, and a message in a thousand. A turn is not quiet if it takes something, tells of
   a loss or of what was held back, or closes a window. */
static void quiet_turns(void)
{
    static const char CONFIG[] = "{\"form\":2,\"instance\":18,\"ring\":1,\"rate\":{\"interval\":1000,\"events\":1},"
                                 "\"events\":[{\"id\":42,\"sensor\":3,\"aggregate\":{\"interval\":5,\"context\":\"FIRST\"}}]}";
    idsm_caller caller = {NULL, 0};
    static idsm_manager manager;
    uint8_t buffer[80];
    idsm_fault fault;
    idsm_sent sent;
    idsm_totals totals;
    expect("windows", 0, idsm_init_text((const uint8_t *)CONFIG, sizeof CONFIG - 1, NULL, &caller, 1, &manager, &fault));
    expect_quiet("a first turn", &manager, 1, 1);
    expect("a report", 0, idsm_set_event(&caller, 0));
    expect("a lost report", 3, idsm_set_event(&caller, 0));
    expect_quiet("a turn with a report and a loss", &manager, 2, 0);
    expect_quiet("a turn in the window", &manager, 6, 1);
    expect_quiet("the turn that closes it", &manager, 7, 0);
    expect_quiet("a turn after it", &manager, 7, 1);
    expect("a report", 0, idsm_set_event(&caller, 0));
    expect_quiet("a turn with a report", &manager, 8, 0);
    expect_quiet("the turn that holds it back", &manager, 13, 0);
    expect_quiet("the turn that tells of it", &manager, 13, 0);
    expect_quiet("a last turn", &manager, 1000, 1);
    expect("the close", 0, idsm_close(&manager, 1000, buffer, sizeof buffer, &sent, &totals));
}
#endif

/* Callers are stopped, turns go on, a last one is made, the memory is read, and the manager is freed. */
static void stopping(void)
{
    static uint8_t buffer[300];
    idsm_manager *manager = &IdsM_Unit.manager;
    idsm_sent sent;
    idsm_totals totals;
    idsm_row row;
    uint8_t context[16] = {0};
    uint64_t rows;
    memset(&IdsM_Unit, 0, sizeof IdsM_Unit);
    tick = 1;
    expect("a stop of zeros", 1, idsm_stop(manager));
    expect("zeros freed", 1, idsm_free(manager));
    expect("the init", 0, IdsM_Init(NULL));
    running = &IdsM_Unit.callers[0];
    expect("a report", 0, IdsM_SetSecurityEvent(4100));
    expect("the stop", 0, idsm_stop(manager));
    expect("a second stop", 0, idsm_stop(manager));
    expect("a stopped caller", 17, IdsM_SetSecurityEvent(4100));
    expect("its state", 17, IdsM_BswM_StateChanged(1));
    expect("its mode", 17, IdsM_SetReportingMode(42, 1));
    expect("a turn back", 0, idsm_main(manager, 5, buffer, sizeof buffer, &sent));
    expect("what it took", 1, sent.entries);
    expect("a last turn back", 8, idsm_last(manager, 4, buffer, sizeof buffer, &sent, &totals));
    expect("a caller that is stopped still", 17, IdsM_SetSecurityEvent(4100));
    expect("the last turn", 0, idsm_last(manager, 6, buffer, sizeof buffer, &sent, &totals));
    expect("its entries", 0, sent.entries);
    expect("totals.entries", 1, totals.entries);
    expect("totals.lost_events", 0, totals.lost_events);
    expect("a caller then", 17, IdsM_SetSecurityEvent(4100));
    expect("a turn then", 17, idsm_main(manager, 7, buffer, sizeof buffer, &sent));
    expect("another last turn", 17, idsm_last(manager, 7, buffer, sizeof buffer, &sent, &totals));
    expect("a close then", 17, idsm_close(manager, 7, buffer, sizeof buffer, &sent, &totals));
    expect("a stop then", 17, idsm_stop(manager));
    expect("its records", 0, idsm_rows(manager, &rows));
#ifndef STAND_IN
    expect("their number", 1, rows);
    expect("the first", 0, idsm_row_at(manager, 0, context, sizeof context, &row));
    expect("its event", 4100, row.id);
#else
    expect("no record", 10, idsm_row_at(manager, 0, context, sizeof context, &row));
#endif
    expect("the manager freed", 0, idsm_free(manager));
    expect("a freed manager", 17, idsm_rows(manager, &rows));
    expect("freed again", 17, idsm_free(manager));
    memset(&IdsM_Unit, 0, sizeof IdsM_Unit);
}

static void closing(void)
{
    IdsM_VersionInfoType info;
    idsm_totals totals;
    idsm_row row = {9, 9, 9, 9, 9, 9, 9, 9, 9};
    size_t count = 9;
    uint64_t number;
    expect("the version", 0, IdsM_GetVersionInfo(&info));
    expect("its numbers", 10020400, info.vendorID * 10000000u + info.moduleID * 10000u + info.sw_major_version * 100u +
           info.sw_minor_version + info.sw_patch_version);
    expect("the version at NULL", 15, IdsM_GetVersionInfo(NULL));
    expect("a last report", 0, IdsM_SetSecurityEvent(4100));
    kept[0] = 0;
    tick++;
    expect("the close", 0, IdsM_DeInit(&totals));
    expect_messages("the last turn", "1004851004000100 ");
#ifdef STAND_IN
    expect("totals.entries", 35, totals.entries);
    expect("totals.messages", 27, totals.messages);
#else
    expect("totals.entries", 39, totals.entries);
    expect("totals.messages", 28, totals.messages);
#endif
    expect("totals.lost_events", 1, totals.lost_events);
    expect("totals.lost_contexts", 1, totals.lost_contexts);
    expect("a closed caller", 17, IdsM_SetSecurityEvent(42));
    expect("a closed caller's state", 17, IdsM_BswM_StateChanged(1));
    expect("a closed caller's mode", 17, IdsM_SetReportingMode(42, 1));
    expect("a closed manager", 17, IdsM_MainFunction());
    number = 9;
    expect("a closed manager's rows", 17, idsm_rows(&IdsM_Unit.manager, &number));
    expect("their number", 0, number);
    number = 9;
    expect("a closed manager's late", 17, idsm_late(&IdsM_Unit.manager, 0, &number));
    expect("their number", 0, number);
    expect("a closed manager's row", 17, idsm_row_at(&IdsM_Unit.manager, 0, NULL, 0, &row));
    expect("its occurrences", 0, row.occurrences);
    expect("a closed manager's snapshot", 17, idsm_snapshot(&IdsM_Unit.manager, NULL, 0, NULL, 0, &count));
    expect("its records", 0, count);
    expect("a second close", 17, IdsM_DeInit(&totals));
    expect("init of closed handles", 17, IdsM_Init(NULL));
    memset(&IdsM_Unit, 0, sizeof IdsM_Unit);
    tick = 0;
    expect("init after zeros", 0, IdsM_Init(NULL));
    expect("a close at once", 0, IdsM_DeInit(&totals));
    expect("totals of nothing", 0, totals.entries + totals.lost_events + totals.lost_contexts + totals.messages);
    expect("a caller that was closed at once", 17, IdsM_SetSecurityEvent(42));
}

int main(void)
{
    numbers();
    tables();
    making();
    made_header();
#ifndef WITHOUT_LIMITS
    no_memory();
#endif
    tick = 1;
    reports();
    refused_reports();
    refused_turns();
    walks();
    units();
    seals();
    refused_messages();
    modes();
    memory();
    refused_readings(&IdsM_Unit.manager, &IdsM_Unit.callers[0]);
    closing();
    stopping();
    journals();
#ifndef STAND_IN
    quiet_turns();
#endif
    printf("%d checks, %d failed\n", checks, failures);
    return failures == 0 ? 0 : 1;
}
