/* What the C of the library hands to the proved library and takes from it, over a library that only notes its arguments: each
   argument and each field arrives unchanged, no pointer is NULL, each number of an answer is passed on, and a call on a
   handle that works already is answered. */
#include <stdio.h>
#include <string.h>

#include "IdsM.h"
#include "IdsM_Binding.h"
#include "inner.h"

static int failures, checks;

static void expect(const char *what, uint64_t wanted, uint64_t got)
{
    checks++;
    if (wanted != got) {
        printf("%s: %llu and not %llu\n", what, (unsigned long long)got, (unsigned long long)wanted);
        failures++;
    }
}

/* What the next call of the library answers, what it was given, and what is called while it works. Before a turn's
   answer are its messages: so many bytes of them. */
static uint8_t answer;
static uint64_t sent_bytes = 1;
static uint64_t given[4];
static const uint8_t *bytes_at;
static size_t bytes_given, handles_given;
static uint8_t journal_given;
static idsm_config tables_given;
static int is_text, closed, in_snapshot, turns_made;
static void (*meanwhile)(void);
static char caller_part, other_part, manager_part;
/* What a size and the first record are answered, where it is another answer. */
static uint8_t size_answer, row_answer;

/* Bytes as the proved library may be given them: at some address, also where there are none. */
static void expect_bytes(const uint8_t *at, size_t bytes)
{
    expect("bytes at an address", 1, at != NULL);
    bytes_at = at;
    bytes_given = bytes;
}

static uint8_t answers(void)
{
    if (meanwhile != NULL)
        meanwhile();
    return answer;
}

uint32_t idsm_raw_abi(void)
{
    return 77;
}

/* What an init is given beside a configuration, and what it fills. */
static uint8_t fills(uint8_t journal, idsm_word *callers, size_t count, idsm_word *manager, idsm_fault *fault)
{
    idsm_fault found = {11, 12, 13};
    journal_given = journal;
    handles_given = count;
    expect("a fault at first", 0, fault->number + fault->part + fault->place);
    *fault = found;
    expect("callers at an address", 1, callers != NULL);
    expect("a manager's handle of an init", 1, manager->at == NULL);
    for (size_t i = 0; i < count; i++)
        expect("a handle of an init", 1, callers[i].at == NULL);
    if (answer == IDSM_DONE) {
        callers[0].at = &caller_part;
        callers[1].at = &other_part;
        manager->at = &manager_part;
    }
    return answers();
}

uint8_t idsm_raw_init(const uint8_t *text, size_t bytes, uint8_t journal, idsm_word *callers, size_t count,
                      idsm_word *manager, idsm_fault *fault)
{
    is_text = 1;
    expect_bytes(text, bytes);
    return fills(journal, callers, count, manager, fault);
}

uint8_t idsm_raw_init_tables(const idsm_top *top, const idsm_class *classes, size_t class_count,
                             const idsm_event *events, size_t event_count, uint8_t journal, idsm_word *callers,
                             size_t count, idsm_word *manager, idsm_fault *fault)
{
    is_text = 0;
    expect("classes at an address", 1, classes != NULL);
    expect("events at an address", 1, events != NULL);
    tables_given.top = *top;
    tables_given.classes = classes;
    tables_given.events = events;
    tables_given.class_count = (uint32_t)class_count;
    tables_given.event_count = (uint32_t)event_count;
    return fills(journal, callers, count, manager, fault);
}

/* A report of one of the five calls: each has a number, and what it does not carry is noted as this. */
enum { NOT_CARRIED = 99 };

static uint8_t reported(const idsm_word *caller, uint64_t call, uint16_t event, uint64_t count, uint64_t stamp)
{
    expect("a reporting caller", 1, caller->at == (event == 500 ? &other_part : &caller_part));
    given[0] = event;
    given[1] = count;
    given[2] = call;
    given[3] = stamp;
    return answers();
}

uint8_t idsm_raw_set_event(idsm_word *caller, uint16_t event)
{
    bytes_given = NOT_CARRIED;
    return reported(caller, 1, event, NOT_CARRIED, NOT_CARRIED);
}

uint8_t idsm_raw_set_event_count(idsm_word *caller, uint16_t event, uint16_t count)
{
    bytes_given = NOT_CARRIED;
    return reported(caller, 2, event, count, NOT_CARRIED);
}

uint8_t idsm_raw_set_event_context(idsm_word *caller, uint16_t event, const uint8_t *context, size_t bytes)
{
    expect_bytes(context, bytes);
    return reported(caller, 3, event, NOT_CARRIED, NOT_CARRIED);
}

uint8_t idsm_raw_set_event_count_context(idsm_word *caller, uint16_t event, uint16_t count, const uint8_t *context,
                                         size_t bytes)
{
    expect_bytes(context, bytes);
    return reported(caller, 4, event, count, NOT_CARRIED);
}

uint8_t idsm_raw_set_event_at(idsm_word *caller, uint16_t event, uint16_t count, uint64_t stamp,
                              const uint8_t *context, size_t bytes)
{
    expect_bytes(context, bytes);
    return reported(caller, 5, event, count, stamp);
}

uint8_t idsm_raw_set_state(idsm_word *caller, uint8_t state)
{
    expect("a caller that sets a state", 1, caller->at == &caller_part);
    given[0] = state;
    return answers();
}

uint8_t idsm_raw_set_mode(idsm_word *caller, uint16_t event, uint8_t mode)
{
    expect("a caller that sets a mode", 1, caller->at == &caller_part);
    given[0] = event;
    given[1] = mode;
    return answers();
}

uint8_t idsm_raw_buffer_size(idsm_word *manager, uint64_t *bytes)
{
    expect("a manager with a size", 1, manager->at == &manager_part);
    *bytes = 21;
    return size_answer;
}

uint8_t idsm_raw_main(idsm_word *manager, uint64_t tick, uint8_t *buffer, size_t bytes, idsm_sent *sent)
{
    idsm_sent told = {6, sent_bytes, 2, 3, 4, 5, 1};
    expect("a manager with a turn", 1, manager->at == &manager_part);
    expect("what is sent at first", 0,
           sent->turn + sent->bytes + sent->entries + sent->lost_events + sent->lost_contexts + sent->messages + sent->quiet);
    given[0] = tick;
    expect_bytes(buffer, bytes);
    turns_made += answer == IDSM_DONE;
    if (answer == IDSM_DONE)
        *sent = told;
    return answers();
}

uint8_t idsm_raw_rows(idsm_word *manager, uint64_t *rows)
{
    expect("a manager with rows", 1, manager->at == &manager_part);
    *rows = 2;
    return answers();
}

uint8_t idsm_raw_row_at(idsm_word *manager, uint16_t i, uint8_t *context, size_t bytes, idsm_row *row)
{
    idsm_row told = {31, 32, 33, 34, 35, 36, 37, 38, 39};
    expect("a manager with a row", 1, manager->at == &manager_part);
    given[0] = i;
    expect_bytes(context, bytes);
    expect("a row at first", 0, in_snapshot ? 0 : row->first + row->last + row->stamp + row->bytes + row->event + row->id +
           row->occurrences + row->sensor + row->has_stamp);
    *row = told;
    row->first += i;
    return i == 0 && row_answer != IDSM_DONE ? row_answer : answers();
}

uint8_t idsm_raw_late(idsm_word *manager, uint8_t class_index, uint64_t *late)
{
    expect("a manager with late buffers", 1, manager->at == &manager_part);
    given[0] = class_index;
    *late = 23;
    return answers();
}

uint8_t idsm_raw_status(idsm_word *manager, idsm_status *status)
{
    idsm_status told = {41, 42, 43, 44, 45, 46, 47, 48, 49};
    expect("a manager with a status", 1, manager->at == &manager_part);
    expect("a status at first", 0, status->turns + status->tick + status->entries + status->lost_events +
           status->lost_contexts + status->messages + status->limited + status->records + status->state);
    *status = told;
    return answers();
}

uint8_t idsm_raw_totals(idsm_word *manager, idsm_totals *totals)
{
    idsm_totals told = {43, 44, 45, 46};
    expect("a manager with totals", 1, manager->at == &manager_part);
    *totals = told;
    return IDSM_DONE;
}

uint8_t idsm_raw_mode(idsm_word *manager, uint16_t event, uint8_t *mode)
{
    expect("a manager with a mode", 1, manager->at == &manager_part);
    expect("a mode at first", 0, *mode);
    given[0] = event;
    *mode = 24;
    return answers();
}

uint8_t idsm_raw_calls(idsm_word *caller, uint64_t *calls)
{
    expect("a caller with calls", 1, caller->at == &caller_part);
    expect("calls at first", 0, *calls);
    *calls = 25;
    return answers();
}

uint8_t idsm_raw_journal(idsm_word *manager, uint64_t at, uint8_t *to, size_t size, uint64_t *bytes)
{
    expect("a manager with a journal", 1, manager->at == &manager_part);
    expect("a journal's bytes at first", 0, *bytes);
    given[0] = at;
    expect_bytes(to, size);
    *bytes = 26;
    return answers();
}

uint8_t idsm_raw_close(idsm_word *handle)
{
    expect("what is freed", 1, handle->at == (closed == 0 ? &caller_part : closed == 1 ? &other_part : &manager_part));
    closed++;
    handle->at = NULL;
    return IDSM_DONE;
}

uint8_t idsm_raw_unit(uint16_t size, const uint8_t *messages, size_t bytes, uint8_t *to, size_t room,
                      uint64_t *unit_bytes, uint64_t *taken)
{
    expect("a unit's buffer at an address", 1, to != NULL);
    expect("what a unit tells at first", 0, *unit_bytes + *taken);
    expect_bytes(messages, bytes);
    given[0] = size;
    given[1] = room;
    *unit_bytes = 27;
    *taken = 28;
    return answers();
}

uint8_t idsm_raw_sealer(const uint8_t *key, size_t bytes, uint64_t start, idsm_sealer *sealer)
{
    expect_bytes(key, bytes);
    given[0] = start;
    sealer->next = 29;
    return answers();
}

uint8_t idsm_raw_seal(idsm_sealer *sealer, const uint8_t *messages, size_t bytes, uint8_t *to, size_t room,
                      uint64_t *told)
{
    expect("a buffer for seals at an address", 1, to != NULL);
    expect("what a sealing tells at first", 0, *told);
    expect_bytes(messages, bytes);
    given[0] = sealer->next;
    given[1] = room;
    *told = 30;
    return answers();
}

static idsm_caller callers[2];
static idsm_manager manager;
static uint8_t buffer[8];

idsm_caller *unit_caller(void)
{
    return &callers[0];
}

uint64_t unit_tick(void)
{
    return 1;
}

int unit_send(const uint8_t *message, size_t length)
{
    (void)message;
    (void)length;
    return 0;
}

/* Totals that the library told. */
static void expect_totals(const char *what, const idsm_totals *totals)
{
    expect(what, 1, totals->entries == 43 && totals->lost_events == 44 && totals->lost_contexts == 45 &&
           totals->messages == 46);
}

static void expect_report(const char *what, uint64_t call, uint64_t count, uint64_t stamp, const uint8_t *context,
                          size_t bytes)
{
    expect(what, 300, given[0]);
    expect(what, count, given[1]);
    expect(what, call, given[2]);
    expect(what, stamp, given[3]);
    expect(what, bytes, bytes_given);
    expect(what, 1, context == NULL || bytes_at == context);
}

static void reports(void)
{
    expect("a report", answer, idsm_set_event(callers, 300));
    expect_report("a report", 1, NOT_CARRIED, NOT_CARRIED, NULL, NOT_CARRIED);
    expect("a count", answer, idsm_set_event_count(callers, 300, 400));
    expect_report("a count", 2, 400, NOT_CARRIED, NULL, NOT_CARRIED);
    expect("a context", answer, idsm_set_event_context(callers, 300, buffer, 8));
    expect_report("a context", 3, NOT_CARRIED, NOT_CARRIED, buffer, 8);
    expect("no context", answer, idsm_set_event_context(callers, 300, NULL, 0));
    expect_report("no context", 3, NOT_CARRIED, NOT_CARRIED, NULL, 0);
    expect("a count and a context", answer, idsm_set_event_count_context(callers, 300, 400, buffer, 7));
    expect_report("a count and a context", 4, 400, NOT_CARRIED, buffer, 7);
    expect("a count and no context", answer, idsm_set_event_count_context(callers, 300, 400, NULL, 0));
    expect_report("a count and no context", 4, 400, NOT_CARRIED, NULL, 0);
    expect("a stamp", answer, idsm_set_event_at(callers, 300, 400, (uint64_t)1 << 63, buffer, 6));
    expect_report("a stamp", 5, 400, (uint64_t)1 << 63, buffer, 6);
    expect("a stamp of 0", answer, idsm_set_event_at(callers, 300, 1, 0, NULL, 0));
    expect_report("a stamp of 0", 5, 1, 0, NULL, 0);
}

/* Units and seals, of bytes and of none. */
static void messages_of(const uint8_t *bytes, size_t count, uint8_t *room_at, size_t room)
{
    idsm_sealer sealer = {0, {0}, 0};
    size_t number = 9, taken = 9;
    expect("a unit", answer, idsm_unit(1234, bytes, count, room_at, room, &number, &taken));
    expect("its size and room", 1234 + room, given[0] + given[1]);
    expect("its messages", count, bytes_given);
    expect("what it tells", 1, number == 27 && taken == 28);
    expect("a key", answer, idsm_sealer_init(&sealer, bytes, count, (uint64_t)1 << 63));
    expect("its start", (uint64_t)1 << 63, given[0]);
    expect("its bytes", count, bytes_given);
    expect("a seal", answer, idsm_seal(&sealer, bytes, count, room_at, room, &number));
    expect("its counter and room", 29 + room, given[0] + given[1]);
    expect("its messages", count, bytes_given);
    expect("what it tells", 30, number);
    expect("where they are", 1, bytes == NULL || bytes_at == bytes);
}

/* Each call with each number of an answer. */
static void calls(void)
{
    idsm_sent sent;
    idsm_row row, rows[2];
    idsm_status status = {9, 9, 9, 9, 9, 9, 9, 9, 9};
    uint64_t number;
    size_t count;
    uint8_t mode = 9;
    reports();
    messages_of(buffer, 3, buffer + 3, 5);
    messages_of(NULL, 0, NULL, 0);
    expect("a state", answer, idsm_set_state(callers, 201));
    expect("a state", 201, given[0]);
    expect("a mode", answer, idsm_set_mode(callers, 300, 3));
    expect("a mode", 303, given[0] + given[1]);
    size_answer = answer;
    expect("a size", answer, idsm_buffer_size(&manager, &number));
    expect("a size", 21, number);
    size_answer = IDSM_DONE;
    expect("rows", answer, idsm_rows(&manager, &number));
    expect("rows", 2, number);
    expect("late", answer, idsm_late(&manager, 3, &number));
    expect("late", 26, number + given[0]);
    expect("calls", answer, idsm_calls(callers, &number));
    expect("calls", 25, number);
    expect("a status", answer, idsm_read_status(&manager, &status));
    expect("its fields", 1, status.turns == 41 && status.tick == 42 && status.entries == 43 && status.lost_events == 44 &&
           status.lost_contexts == 45 && status.messages == 46 && status.limited == 47 && status.records == 48 &&
           status.state == 49);
    expect("a mode's reading", answer, idsm_mode(&manager, 300, &mode));
    expect("its event and the mode", 324, given[0] + mode);
    expect("a journal", answer, idsm_journal(&manager, (size_t)1 << 40, buffer, 5, &count));
    expect("where from", (uint64_t)1 << 40, given[0]);
    expect("its buffer and bytes", 32, bytes_given + (bytes_at == buffer) + count);
    expect("a turn", answer, idsm_main(&manager, 1234567890123, buffer, 8, &sent));
    expect("its tick", 1234567890123, given[0]);
    expect("its buffer", 9, bytes_given + (bytes_at == buffer));
    if (answer == IDSM_DONE)
        expect("what it sent", 1654321, sent.bytes + sent.entries * 10 + sent.lost_events * 100 +
               sent.lost_contexts * 1000 + sent.messages * 10000 + sent.turn * 100000 + sent.quiet * 1000000);
    else
        expect("what it sent", 0,
               sent.turn + sent.bytes + sent.entries + sent.lost_events + sent.lost_contexts + sent.messages + sent.quiet);
    expect("a row", answer, idsm_row_at(&manager, 4, buffer, 5, &row));
    expect("its arguments", 10, given[0] + bytes_given + (bytes_at == buffer));
    expect("its fields", 1, row.first == 35 && row.last == 32 && row.stamp == 33 && row.bytes == 34 && row.event == 35 &&
           row.id == 36 && row.occurrences == 37 && row.sensor == 38 && row.has_stamp == 39);
    in_snapshot = 1;
    expect("all rows", answer, idsm_snapshot(&manager, rows, 2, buffer, 4, &count));
    if (answer == IDSM_DONE) {
        expect("their number", 2, count);
        expect("the last one's context", 1, bytes_at == buffer + 4);
        expect("its room", 4, bytes_given);
        expect("their order", 1, rows[0].first == 31 && rows[1].first == 32);
    }
    in_snapshot = 0;
}

/* Each call that takes bytes, with none of them. */
static void no_bytes(void)
{
    static const idsm_row zeros;
    idsm_sent sent;
    idsm_row row, rows[2] = {zeros, zeros};
    size_t count;
    expect("a turn without a buffer", 0, idsm_main(&manager, 1, NULL, 0, &sent));
    expect("its buffer", 0, bytes_given);
    expect("a row without a context", 0, idsm_row_at(&manager, 0, NULL, 0, &row));
    expect("its context", 0, bytes_given);
    expect("a journal without a buffer", 0, idsm_journal(&manager, 1, NULL, 0, &count));
    expect("its buffer", 0, bytes_given);
    in_snapshot = 1;
    expect("a snapshot without contexts", 0, idsm_snapshot(&manager, rows, 2, NULL, 0, &count));
    expect("its contexts", 0, bytes_given);
    row_answer = IDSM_SMALL_BUFFER;
    expect("a snapshot without room for the first context", 13, idsm_snapshot(&manager, rows, 2, buffer, 4, &count));
    row_answer = IDSM_DONE;
    in_snapshot = 0;
}

/* Lets stopped callers call again, which no program may. */
static void resume(void)
{
    callers[0].stopped = callers[1].stopped = manager.stopped = 0;
}

/* What an interrupt meets on a handle whose call it interrupts, and on the others. */
static void interrupts(void)
{
    idsm_sent sent;
    idsm_totals totals;
    idsm_fault fault;
    uint64_t number;
    void (*own)(void) = meanwhile;
    meanwhile = NULL;
    expect("a report meanwhile", 16, idsm_set_event(callers, 0));
    expect("a state meanwhile", 16, idsm_set_state(callers, 0));
    expect("a mode meanwhile", 16, idsm_set_mode(callers, 0, 0));
    expect("calls meanwhile", 16, idsm_calls(callers, &number));
    expect("a close meanwhile", 16, idsm_close(&manager, 1, buffer, 8, &sent, &totals));
    expect("a report after it", 17, idsm_set_event(callers, 0));
    expect("calls after it", 17, idsm_calls(callers, &number));
    expect("a stop meanwhile", 16, idsm_stop(&manager));
    expect("a last turn meanwhile", 16, idsm_last(&manager, 1, buffer, 8, &sent, &totals));
    expect("an init meanwhile", 14, idsm_init_text(buffer, 1, NULL, callers, 2, &manager, &fault));
    expect("a number meanwhile", 0, idsm_rows(&manager, &number));
    meanwhile = own;
}

/* The first caller is taken and given back where the second one works. */
static void interrupts_other(void)
{
    idsm_sent sent;
    idsm_totals totals = {9, 9, 9, 9};
    void (*own)(void) = meanwhile;
    meanwhile = NULL;
    expect("a close while another works", 16, idsm_close(&manager, 1, buffer, 8, &sent, &totals));
    expect("its totals", 0, totals.entries + totals.lost_events + totals.lost_contexts + totals.messages);
    expect("the first caller then", 17, idsm_set_event(callers, 0));
    meanwhile = own;
}

static void interrupts_turn(void)
{
    idsm_sent sent;
    idsm_totals totals;
    idsm_fault fault;
    idsm_row row;
    idsm_status status;
    uint64_t number;
    size_t count;
    uint8_t mode;
    void (*own)(void) = meanwhile;
    meanwhile = NULL;
    expect("a turn meanwhile", 16, idsm_main(&manager, 1, buffer, 8, &sent));
    expect("a close meanwhile", 16, idsm_close(&manager, 1, buffer, 8, &sent, &totals));
    expect("a size meanwhile", 16, idsm_buffer_size(&manager, &number));
    expect("rows meanwhile", 16, idsm_rows(&manager, &number));
    expect("late meanwhile", 16, idsm_late(&manager, 0, &number));
    expect("a status meanwhile", 16, idsm_read_status(&manager, &status));
    expect("a mode meanwhile", 16, idsm_mode(&manager, 0, &mode));
    expect("a journal meanwhile", 16, idsm_journal(&manager, 0, buffer, 8, &count));
    expect("what they tell", 0, status.turns + status.state + mode + count);
    expect("a row meanwhile", 16, idsm_row_at(&manager, 0, buffer, 8, &row));
    expect("a snapshot meanwhile", 16, idsm_snapshot(&manager, NULL, 0, NULL, 0, &count));
    expect("an init meanwhile", 16, idsm_init_text(buffer, 1, NULL, callers, 2, &manager, &fault));
    expect("a report meanwhile", 0, idsm_set_event(callers, 0));
    meanwhile = own;
}

static void interrupts_init(void)
{
    idsm_sent sent;
    expect("a report in an init", 16, idsm_set_event(callers, 0));
    expect("a turn in an init", 16, idsm_main(&manager, 1, buffer, 8, &sent));
}

/* A configuration of two classes and three events, of which the library here reads nothing. */
static const idsm_class some_classes[2] = {{1, 2}, {3, 4}};
static const idsm_event some_events[3];
static const idsm_config tables = {.top = {.profile = 1, .instance = 2, .limited = 3},
                                   .classes = some_classes,
                                   .events = some_events,
                                   .class_count = 2,
                                   .event_count = 3,
                                   .sum = 0x89abcdef};

static void expect_tables(const char *what, const idsm_config *wanted, uint8_t journal)
{
    expect(what, 0, (uint64_t)is_text);
    expect(what, 0, (uint64_t)memcmp(&tables_given.top, &wanted->top, sizeof wanted->top));
    expect(what, wanted->class_count, tables_given.class_count);
    expect(what, wanted->event_count, tables_given.event_count);
    expect(what, 1, wanted->classes == NULL || tables_given.classes == wanted->classes);
    expect(what, 1, wanted->events == NULL || tables_given.events == wanted->events);
    expect(what, journal, journal_given);
}

static void clear_handles(void)
{
    memset(callers, 0, sizeof callers);
    memset(&manager, 0, sizeof manager);
}

/* An init of tables from the heap: each number of an answer, and what may be NULL. */
static void inits_of_tables(void)
{
    static const idsm_options options = {21, 1};
    idsm_config none = tables;
    idsm_fault fault;
    for (answer = 1; answer < 21; answer++) {
        expect("a refused init of tables", answer, idsm_init(&tables, &options, callers, 2, &manager, &fault));
        expect_tables("its tables", &tables, 1);
        expect("its fault", 1, fault.number == 11 && fault.part == 12 && fault.place == 13);
        expect("its handles", 1, callers[0].at == NULL && callers[1].at == NULL && manager.at == NULL);
        expect("its sum", 0, idsm_sum(&manager));
    }
    answer = IDSM_DONE;
    expect("tables at NULL", 15, idsm_init(NULL, &options, callers, 2, &manager, &fault));
    none.classes = NULL;
    expect("classes at NULL", 15, idsm_init(&none, &options, callers, 2, &manager, &fault));
    none.class_count = 0;
    none.events = NULL;
    expect("events at NULL", 15, idsm_init(&none, &options, callers, 2, &manager, &fault));
    expect("what they filled", 1, callers[0].at == NULL && manager.at == NULL);
    none.event_count = 0;
    expect("no classes and no events", 0, idsm_init(&none, NULL, callers, 2, &manager, &fault));
    expect_tables("its tables", &none, 0);
    expect("its sum", 0x89abcdef, idsm_sum(&manager));
    expect("the sum of NULL", 0, idsm_sum(NULL));
    clear_handles();
}

/* More handles than a configuration can have callers are looked at by nobody, and what is refused leaves each handle. */
static void many_handles(void)
{
    static idsm_caller many[64];
    static idsm_manager another;
    idsm_fault fault = {9, 9, 9};
    answer = IDSM_OUT_OF_RANGE;
    expect("32 handles", 10, idsm_init_text(buffer, 3, NULL, many, 32, &another, &fault));
    expect("all of them", 32, handles_given);
    handles_given = 0;
    answer = IDSM_NO_MEMORY;
    expect("33 handles", 10, idsm_init_text(buffer, 3, NULL, many, 33, &another, &fault));
    expect("64 handles", 10, idsm_init(&tables, NULL, many, 64, &another, &fault));
    expect("10 million handles", 10, idsm_init_text(buffer, 3, NULL, many, 10000000, &another, &fault));
    expect("what the library is given of them", 0, handles_given);
    expect("their fault", 0, fault.number + fault.part + fault.place);
    many[2].at = &other_part;
    fault.number = fault.part = fault.place = 9;
    expect("a taken one", 14, idsm_init_text(buffer, 3, NULL, many, 32, &another, &fault));
    expect("its fault", 0, fault.number + fault.part + fault.place);
    for (unsigned i = 0; i < 64; i++)
        expect("a handle behind a refusal", i == 2, many[i].at != NULL);
    expect("a manager behind a refusal", 1, another.at == NULL);
}

static void expect_unset(const char *what)
{
    expect(what, 1, callers[0].at == NULL && callers[1].at == NULL && manager.at == NULL);
    expect(what, 3, (uint64_t)closed);
    closed = 0;
}

/* Callers and a manager that do not fit the buffer, or that have no size, are freed again. */
static void room(void)
{
    idsm_options options = {20, 1};
    idsm_fault fault;
    answer = IDSM_DONE;
    expect("a buffer too small", 13, idsm_init_text(buffer, 3, &options, callers, 2, &manager, &fault));
    expect("its configuration", 4, bytes_given + (bytes_at == buffer));
    expect("its journal", 1, journal_given);
    expect_unset("its handles");
    size_answer = IDSM_OTHER_ROLE;
    options.room = 21;
    expect("no size", 2, idsm_init_text(buffer, 3, &options, callers, 2, &manager, &fault));
    expect_unset("the handles of no size");
    size_answer = IDSM_DONE;
}

/* An init that begins while another one fills an arena, or from the heap, on handles of its own. */
static void interrupts_arena(void)
{
    static uint8_t other[64] __attribute__((aligned(16)));
    static idsm_caller own_callers[2];
    static idsm_manager own_manager;
    idsm_fault fault;
    meanwhile = NULL;
    expect("an arena in an init", 16, idsm_init_in(&tables, NULL, other, 64, own_callers, 2, &own_manager, &fault));
    expect("its handles", 1, own_callers[0].at == NULL && own_callers[1].at == NULL && own_manager.at == NULL);
    expect("its fault", 0, fault.number + fault.part + fault.place);
}

static void interrupts_filling(void)
{
    static idsm_caller own_callers[2];
    static idsm_manager own_manager;
    idsm_fault fault;
    interrupts_arena();
    expect("an init from the heap meanwhile", 16, idsm_init_text(buffer, 3, NULL, own_callers, 2, &own_manager, &fault));
    expect("its handles", 1, own_callers[0].at == NULL && own_callers[1].at == NULL && own_manager.at == NULL);
}

/* A manager in an arena is let go of, and the library is not asked to free it; one that is refused is freed. */
static void arenas(void)
{
    static uint8_t arena[80] __attribute__((aligned(16)));
    idsm_options options = {20, 1};
    idsm_fault fault;
    idsm_sent sent;
    idsm_totals totals;
    uint64_t number;
    answer = IDSM_DONE;
    expect("no arena", 15, idsm_init_in(&tables, &options, NULL, 64, callers, 2, &manager, &fault));
    expect("one at 8", 10, idsm_init_in(&tables, &options, arena + 8, 64, callers, 2, &manager, &fault));
    expect("one at 1", 10, idsm_init_in(&tables, &options, arena + 1, 64, callers, 2, &manager, &fault));
    expect("no configuration in an arena", 15, idsm_init_in(NULL, &options, arena, 64, callers, 2, &manager, &fault));
    expect("no manager in it", 15, idsm_init_in(&tables, &options, arena, 64, callers, 2, NULL, &fault));
    expect("33 handles in it", 10, idsm_init_in(&tables, &options, arena, 64, callers, 33, &manager, &fault));
    expect("a buffer too small", 13, idsm_init_in(&tables, &options, arena, 64, callers, 2, &manager, &fault));
    expect_unset("its handles");
    meanwhile = interrupts_filling;
    options.room = 21;
    expect("an arena", 0, idsm_init_in(&tables, &options, arena, 64, callers, 2, &manager, &fault));
    expect_tables("its tables", &tables, 1);
    expect("an arena on handles that have something", 14, idsm_init_in(&tables, &options, arena, 64, callers, 2, &manager, &fault));
    expect("a stop in it", 0, idsm_stop(&manager));
    expect("a last turn in it", 0, idsm_last(&manager, 1, buffer, 8, &sent, &totals));
    expect_totals("its totals", &totals);
    expect("a turn after it", 17, idsm_main(&manager, 1, buffer, 8, &sent));
    expect("rows after it", 0, idsm_rows(&manager, &number));
    expect("that it is let go of", 0, idsm_free(&manager));
    expect("what is closed then", 17, idsm_rows(&manager, &number));
    expect("what the library was asked to free", 0, (uint64_t)closed);
    clear_handles();
    answer = IDSM_NO_MEMORY;
    expect("an arena that is too small", 11, idsm_init_in(&tables, &options, arena, 64, callers, 2, &manager, &fault));
    expect("whether it is said to be in one", 0, manager.stopped);
    answer = IDSM_DONE;
    meanwhile = interrupts_arena;
    expect("an init from the heap", 0, idsm_init_text(buffer, 3, &options, callers, 2, &manager, &fault));
    expect("its close", 0, idsm_close(&manager, 1, buffer, 8, &sent, &totals));
    expect("what that one freed", 3, (uint64_t)closed);
    closed = 0;
    clear_handles();
}

/* Where messages are sent: their bytes one after the other, with the length before each. It takes so many of them. */
struct sink {
    uint8_t bytes[64];
    size_t count;
    uint8_t report;
    int takes;
    int offered;
};

static idsm_answer keep(void *to, const uint8_t *message, size_t length)
{
    struct sink *sink = to;
    idsm_sent sent = {9, 9, 9, 9, 9, 9, 9};
    idsm_totals totals = {9, 9, 9, 9};
    uint64_t number;
    size_t count;
    sink->offered++;
    expect("a turn while messages are sent", 16, idsm_main_send(&manager, 1, buffer, 8, keep, to, &sent));
    expect("a close then", 16, idsm_close_send(&manager, 1, buffer, 8, keep, to, &sent, &totals));
    expect("what they told", 9, sent.bytes & sent.messages & totals.entries & totals.messages);
    expect("rows then", 16, idsm_rows(&manager, &number));
    expect("a journal then", 16, idsm_journal(&manager, 0, buffer, 8, &count));
    expect("a report then", sink->report, idsm_set_event(callers, 300));
    if (sink->takes-- <= 0)
        return sink->takes % 2 == 0 ? IDSM_NOT_SENT : 255;
    sink->bytes[sink->count++] = (uint8_t)length;
    memcpy(sink->bytes + sink->count, message, length);
    sink->count += length;
    return IDSM_DONE;
}

/* Two messages of a turn, and behind them one of an earlier turn. */
static const uint8_t MESSAGES[25] = {0x10, 1, 2, 3, 4, 5, 6, 7, 0x21, 1, 2, 3, 4, 5, 6, 7, 0, 0x10};
static const struct sink all = {.report = IDSM_DONE, .takes = 99}, stopped_all = {.report = IDSM_CLOSED, .takes = 99};

static void expect_sent(const char *what, const struct sink *sink)
{
    expect(what, 19, sink->count);
    expect(what, 0, (uint64_t)(sink->bytes[0] - 8 + sink->bytes[9] - 9));
    expect(what, 0, (uint64_t)memcmp(sink->bytes + 1, MESSAGES, 8) | (uint64_t)memcmp(sink->bytes + 10, MESSAGES + 8, 9));
}

static void sends_refused(uint8_t *sending)
{
    struct sink sink = all;
    idsm_sent sent = {9, 9, 9, 9, 9, 9, 9};
    idsm_totals totals = {9, 9, 9, 9};
    expect("no function", 15, idsm_main_send(&manager, 9, sending, 25, NULL, &sink, &sent));
    expect("no sent", 15, idsm_main_send(&manager, 9, sending, 25, keep, &sink, NULL));
    expect("no such buffer", 15, idsm_main_send(&manager, 9, NULL, 21, keep, &sink, &sent));
    expect("no manager", 15, idsm_main_send(NULL, 9, sending, 25, keep, &sink, &sent));
    expect("a close without a function", 15, idsm_close_send(&manager, 9, sending, 25, NULL, &sink, &sent, &totals));
    expect("a close without totals", 15, idsm_close_send(&manager, 9, sending, 25, keep, &sink, &sent, NULL));
    expect("a close without sent", 15, idsm_close_send(&manager, 9, sending, 25, keep, &sink, NULL, &totals));
    expect("a close without such a buffer", 15, idsm_close_send(&manager, 9, NULL, 21, keep, &sink, &sent, &totals));
    answer = IDSM_TICK_BACK;
    expect("a refused turn", 8, idsm_main_send(&manager, 9, sending, 25, keep, &sink, &sent));
    expect("its tick and buffer", 35, given[0] + bytes_given + (bytes_at == sending));
    expect("a refused close", 8, idsm_close_send(&manager, 9, sending, 25, keep, &sink, &sent, &totals));
    expect("what they sent", 0, sink.count);
    expect("what they told", 9, sent.bytes & sent.messages & totals.entries & totals.messages);
    answer = IDSM_DONE;
}

/* A turn of which one message is taken: the other one is offered again, before any other turn is made. */
static void sends_again(uint8_t *sending)
{
    struct sink sink = all;
    idsm_sent sent = {9, 9, 9, 9, 9, 9, 9};
    idsm_totals totals = {9, 9, 9, 9};
    sink.takes = 1;
    expect("a turn of which a message is not taken", 0, idsm_main_send(&manager, 9, sending, 25, keep, &sink, &sent));
    expect("what it told", 17, sent.bytes);
    expect("what it offered", 2, (uint64_t)sink.offered);
    sent.bytes = 77;
    turns_made = 0;
    sink.takes = 0;
    expect("the next one", 18, idsm_main_send(&manager, 10, sending, 25, keep, &sink, &sent));
    expect("what that one told", 77, sent.bytes);
    expect("what it offered", 3, (uint64_t)sink.offered);
    sink.takes = -1;
    expect("one that is refused otherwise", 18, idsm_main_send(&manager, 10, sending, 25, keep, &sink, &sent));
    expect("a last turn then", 18, idsm_last_send(&manager, 10, sending, 25, keep, &sink, &sent, &totals));
    expect("a close then", 18, idsm_close_send(&manager, 10, sending, 25, keep, &sink, &sent, &totals));
    expect("what they told", 77 + 9, sent.bytes + totals.entries);
    expect("a turn without a function", 18, idsm_main(&manager, 10, buffer, 8, &sent));
    expect("a last turn without one", 18, idsm_last(&manager, 10, buffer, 8, &sent, &totals));
    expect("a close without one", 18, idsm_close(&manager, 10, buffer, 8, &sent, &totals));
    expect("a free", 18, idsm_free(&manager));
    expect("turns that they made", 0, (uint64_t)turns_made);
    expect("a report meanwhile", 0, idsm_set_event(callers, 300));
    sink.takes = 1;
    sent_bytes = 0;
    expect("a turn after all were taken", 0, idsm_main_send(&manager, 11, sending, 25, keep, &sink, &sent));
    expect("its tick", 11, given[0]);
    expect_sent("what was sent in all", &sink);
    sent_bytes = 17;
}

/* A last turn of which no message is taken: the manager stays until both are. */
static void ends_again(uint8_t *sending)
{
    struct sink sink = stopped_all;
    idsm_sent sent = {9, 9, 9, 9, 9, 9, 9};
    idsm_totals totals = {9, 9, 9, 9};
    uint64_t number;
    sink.takes = 0;
    expect("a close whose messages are not taken", 18,
           idsm_close_send(&manager, 12, sending, 25, keep, &sink, &sent, &totals));
    expect("its tick", 12, given[0]);
    expect("what it told", 17, sent.bytes);
    expect_totals("its totals", &totals);
    expect("what it freed", 2, (uint64_t)closed);
    turns_made = 0;
    sent.bytes = 77;
    totals.entries = 77;
    expect("a turn then", 17, idsm_main_send(&manager, 13, sending, 25, keep, &sink, &sent));
    expect("a turn without a function then", 17, idsm_main(&manager, 13, buffer, 8, &sent));
    expect("a stop then", 17, idsm_stop(&manager));
    expect("a free then", 18, idsm_free(&manager));
    expect("rows then", 0, idsm_rows(&manager, &number));
    sent.bytes = 77;
    sink.takes = 1;
    expect("a second close", 18, idsm_close_send(&manager, 13, sending, 25, keep, &sink, &sent, &totals));
    expect("what that told", 77, sent.bytes);
    expect_totals("the totals again", &totals);
    sink.takes = 1;
    expect("a third close", 0, idsm_close_send(&manager, 13, sending, 25, keep, &sink, &sent, &totals));
    expect("turns that they made", 0, (uint64_t)turns_made);
    expect_sent("what all closes sent", &sink);
    expect("what they freed", 3, (uint64_t)closed);
    expect("a fourth close", 17, idsm_close_send(&manager, 13, sending, 25, keep, &sink, &sent, &totals));
    closed = 0;
}

/* A last turn whose messages are not taken at first, then a free. */
static void lasts_again(uint8_t *sending)
{
    struct sink sink = stopped_all;
    idsm_sent sent;
    idsm_totals totals;
    sink.takes = 1;
    expect("a last turn", 18, idsm_last_send(&manager, 12, sending, 25, keep, &sink, &sent, &totals));
    expect("what it told", 17, sent.bytes);
    expect_totals("its totals", &totals);
    sink.takes = 1;
    expect("its rest", 0, idsm_last_send(&manager, 12, sending, 25, keep, &sink, &sent, &totals));
    expect_sent("what it sent", &sink);
    expect("another one", 17, idsm_last_send(&manager, 12, sending, 25, keep, &sink, &sent, &totals));
    expect("the free", 0, idsm_free(&manager));
    expect("what was freed", 3, (uint64_t)closed);
    closed = 0;
}

static void begin(void)
{
    idsm_fault fault;
    clear_handles();
    expect("an init", 0, idsm_init(&tables, NULL, callers, 2, &manager, &fault));
}

static void sends(void)
{
    struct sink sink = all;
    uint8_t sending[25];
    idsm_sent sent = {9, 9, 9, 9, 9, 9, 9};
    idsm_totals totals = {9, 9, 9, 9};
    memcpy(sending, MESSAGES, sizeof sending);
    sent_bytes = 17;
    sends_refused(sending);
    expect("a turn that sends", 0, idsm_main_send(&manager, 9, sending, 25, keep, &sink, &sent));
    expect_sent("what it sent", &sink);
    expect("what it told", 17, sent.bytes);
    sends_again(sending);
    sink = stopped_all;
    sent.bytes = 9;
    expect("a close that sends", 0, idsm_close_send(&manager, 9, sending, 25, keep, &sink, &sent, &totals));
    expect_sent("what the close sent", &sink);
    expect("what the close told", 17, sent.bytes);
    expect_totals("its totals", &totals);
    expect("what it freed", 3, (uint64_t)closed);
    closed = 0;
    begin();
    ends_again(sending);
    begin();
    lasts_again(sending);
    sent_bytes = 1;
}

/* A tick of 32 bits that wraps twice. */
static void clocks(void)
{
    idsm_clock clock = {0};
    expect("the first tick", 5, idsm_widen(&clock, 5));
    expect("the same tick", 5, idsm_widen(&clock, 5));
    expect("the last one of 32 bits", UINT32_MAX, idsm_widen(&clock, UINT32_MAX));
    expect("the next one", (uint64_t)1 << 32, idsm_widen(&clock, 0));
    expect("one less than a round later", ((uint64_t)2 << 32) - 1, idsm_widen(&clock, UINT32_MAX));
    expect("the next round", ((uint64_t)2 << 32) + 7, idsm_widen(&clock, 7));
    expect("no clock", 7, idsm_widen(NULL, 7));
    expect("a stamp", 0x0000000100000a00, IDSM_STAMP(2560, 1));
    expect("the largest stamp", 0x3b9ac9ffffffffff, IDSM_STAMP(UINT32_MAX, 999999999));
    expect("a stamp of more", 0x3fffffff00000001, IDSM_STAMP((uint64_t)1 << 32 | 1, UINT64_MAX));
}

int main(void)
{
    idsm_fault fault;
    idsm_sent sent;
    idsm_totals totals;
    idsm_row rows[1];
    size_t count;
    expect("idsm_abi", 77, idsm_abi());
    expect("IdsM_Init over a library of another number", 10, IdsM_Init(NULL));
    expect("what the library is given then", 0, handles_given);
    for (answer = 1; answer < 21; answer++) {
        expect("a refused init", answer, idsm_init_text(buffer, 3, NULL, callers, 2, &manager, &fault));
        expect("its fault", 1, fault.number == 11 && fault.part == 12 && fault.place == 13);
        expect("its handles", 1, callers[0].at == NULL && callers[1].at == NULL && manager.at == NULL);
    }
    clocks();
    inits_of_tables();
    many_handles();
    room();
    arenas();
    expect("no text", 0, idsm_init_text(NULL, 0, NULL, callers, 2, &manager, &fault));
    expect("its bytes and journal", 0, bytes_given + journal_given);
    expect("its sum", 0, idsm_sum(&manager));
    sends();
    clear_handles();
    answer = 0;
    journal_given = 9;
    meanwhile = interrupts_init;
    expect("an init", 0, idsm_init_text(buffer, 3, NULL, callers, 2, &manager, &fault));
    meanwhile = NULL;
    expect("its bytes and journal", 4, bytes_given + (bytes_at == buffer) + journal_given);
    expect("its handles", 2, handles_given);
    for (answer = 0; answer < 21; answer++)
        calls();
    answer = 0;
    no_bytes();
    meanwhile = interrupts;
    expect("an interrupted report", 0, idsm_set_event(callers, 0));
    expect("the stop after it", 0, idsm_stop(&manager));
    resume();
    meanwhile = interrupts_other;
    expect("another interrupted report", 0, idsm_set_event(&callers[1], 500));
    meanwhile = NULL;
    resume();
    expect("a snapshot without room", 13, idsm_snapshot(&manager, rows, 1, buffer, 4, &count));
    expect("what it wants", 2, count);
    meanwhile = interrupts_turn;
    expect("an interrupted turn", 0, idsm_main(&manager, 5, buffer, 8, &sent));
    meanwhile = NULL;
    expect("the close", 0, idsm_close(&manager, 6, buffer, 8, &sent, &totals));
    expect("what was freed", 3, (uint64_t)closed);
    expect_totals("the totals", &totals);
    expect("what the close sent", 1, sent.bytes);
    expect("a closed caller", 17, idsm_set_event(callers, 0));
    expect("a closed manager", 17, idsm_main(&manager, 7, buffer, 8, &sent));
    printf("%d checks, %d failed\n", checks, failures);
    return failures == 0 ? 0 : 1;
}
