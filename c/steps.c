/* Two calls beside each other, step by step: one makes some of its atomic steps, then the other one makes some, then the first
   ends, then the other one, for each two numbers. Reports, stops, turns and closes meet so. Each report that was accepted is
   sent once and is in the totals, none is under way when a stop has come through, and none is answered that its own handle is
   busy. It has the files of the library that take handles, with steps of its own, over c/stand_in.c, and IdsM_Cfg.h of
   unit.json. */
#define _XOPEN_SOURCE 700 /* for makecontext */
static void between(void);
#define IDSM_LOAD(at) (between(), __atomic_load_n((at), __ATOMIC_SEQ_CST))
#define IDSM_STORE(at, value) (between(), __atomic_store_n((at), (value), __ATOMIC_RELEASE))
#define IDSM_SWAP(at, was, value) \
    (between(), __atomic_compare_exchange_n((at), (was), (value), 0, __ATOMIC_SEQ_CST, __ATOMIC_SEQ_CST))
#include "handles.c"
#include "pointers.c"
#include "making.c"
#include "reports.c"
#include "reading.c"
#include "messages.c"
#include "turning.c"
#include "closing.c"

#include "IdsM_Cfg.h"

#include <stdio.h>
#include <string.h>
#include <ucontext.h>

static int failures, checks;

/* The two calls: what each has yet to do before the other one goes on, and whether it has ended. */
enum { BYTES = 1 << 18, NOBODY = 2 };
typedef void call(void);
static ucontext_t contexts[2], all;
static char stacks[2][BYTES];
static call *calls[2];
static unsigned left[2], has_ended[2], running = NOBODY;

static void expect(const char *what, uint64_t wanted, uint64_t got)
{
    checks++;
    if (wanted != got) {
        printf("%s: %llu and not %llu, with %u and %u steps left\n", what, (unsigned long long)got,
               (unsigned long long)wanted, left[0], left[1]);
        failures++;
    }
}

static void go_on(unsigned other)
{
    unsigned own = running;
    running = other;
    swapcontext(&contexts[own], &contexts[other]);
}

static void between(void)
{
    if (running == NOBODY || left[running] == 0)
        return;
    left[running]--;
    if (left[running] == 0 && !has_ended[1 - running])
        go_on(1 - running);
}

static void run(void)
{
    unsigned own = running;
    calls[own]();
    has_ended[own] = 1;
    if (!has_ended[1 - own])
        go_on(1 - own);
    running = NOBODY;
    setcontext(&all);
}

static void prepare(unsigned own, call *made, unsigned steps)
{
    calls[own] = made;
    left[own] = steps;
    has_ended[own] = 0;
    getcontext(&contexts[own]);
    contexts[own].uc_stack.ss_sp = stacks[own];
    contexts[own].uc_stack.ss_size = sizeof stacks[own];
    makecontext(&contexts[own], run, 0);
}

/* Runs both calls, each of which makes so many steps before the other one goes on. */
static void beside(call *one, unsigned first, call *other, unsigned second)
{
    prepare(0, one, first);
    prepare(1, other, second);
    running = 0;
    swapcontext(&all, &contexts[0]);
}

static idsm_caller callers[IDSM_CFG_CALLERS];
static idsm_manager manager;
static uint8_t buffer[IDSM_CFG_BUFFER];
static idsm_sent told;
static idsm_totals totals;
static unsigned accepted, sent;
static int is_stopped, is_closed;

static idsm_answer count(void *to, const uint8_t *message, size_t length)
{
    (void)to;
    between();
    sent += length == 8 && message[4] == IDSM_EVENT_BAD_FIRMWARE;
    return IDSM_DONE;
}

static void report_of(unsigned caller)
{
    idsm_answer answer = idsm_set_event(&callers[caller], 1);
    accepted += answer == IDSM_DONE;
    expect("whether a report is accepted or closed", 1, answer == IDSM_DONE || answer == IDSM_CLOSED);
    expect("whether it was under way when all were stopped", 0, answer == IDSM_DONE && is_stopped);
}

static void report(void)
{
    report_of(0);
}

static void last_report(void)
{
    report_of(IDSM_CFG_CALLERS - 1);
}

static void stop(void)
{
    idsm_answer answer = idsm_stop(&manager);
    is_stopped = answer == IDSM_DONE;
    expect("a stop", 1, answer == IDSM_DONE || answer == IDSM_BUSY || answer == IDSM_CLOSED);
}

static void make_turn(void)
{
    idsm_answer answer = idsm_main_send(&manager, 1, buffer, sizeof buffer, count, NULL, &told);
    expect("a turn", 1, answer == IDSM_DONE || answer == IDSM_BUSY || answer == IDSM_CLOSED);
}

static void close_all(void)
{
    idsm_answer answer = idsm_close_send(&manager, 1, buffer, sizeof buffer, count, NULL, &told, &totals);
    is_closed += answer == IDSM_DONE;
    expect("a close", 1, answer == IDSM_DONE || answer == IDSM_BUSY || answer == IDSM_CLOSED);
}

static void begin(void)
{
    idsm_fault fault;
    memset(callers, 0, sizeof callers);
    memset(&manager, 0, sizeof manager);
    expect("an init", IDSM_DONE, idsm_init(&IdsM_Config, NULL, callers, IDSM_CFG_CALLERS, &manager, &fault));
    accepted = sent = 0;
    is_stopped = is_closed = 0;
    report();
}

/* One meeting, and what came of it. Returns whether both numbers of steps were made. */
static int meet(call *one, unsigned first, call *other, unsigned second)
{
    begin();
    beside(one, first, other, second);
    is_stopped = 0;
    if (!is_closed)
        close_all();
    expect("closes that came through", 1, (uint64_t)is_closed);
    expect("messages that were sent", accepted, sent);
    expect("reports in the totals", accepted, totals.entries);
    return left[0] == 0 && left[1] == 0;
}

static void meetings(call *one, call *other)
{
    unsigned first, second;
    for (first = 1; meet(one, first, other, 1); first++) {
        for (second = 2; meet(one, first, other, second); second++) {
        }
        expect("steps of the other one", 1, second > 1);
    }
    expect("steps of the first one", 1, first > 3);
}

int main(void)
{
    static call *const all_calls[] = {report, last_report, stop, make_turn, close_all};
    for (unsigned i = 0; i < sizeof all_calls / sizeof all_calls[0]; i++)
        for (unsigned k = 0; k < sizeof all_calls / sizeof all_calls[0]; k++)
            if (i != k || i > 1)
                meetings(all_calls[i], all_calls[k]);
    printf("%d checks, %d failed\n", checks, failures);
    return failures == 0 ? 0 : 1;
}
