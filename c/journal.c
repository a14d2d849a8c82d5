/* A control unit that keeps its journal: four tasks report beside the main function, which writes the lines of each turn to
   one file by pieces but for quiet turns, and its messages to another. The program idsm reads at most 16 MiB. So the manager
   is stopped if its journal has 4, and a second one, whose turns are not written, takes the rest of the million reports. It
   prints what both took, and whether that is all that was reported. IdsM_Cfg.h is made of unit.json,
   and IdsM.c is compiled with IDSM_JOURNAL 1. Usage: journal JOURNAL MESSAGES */
#include <pthread.h>
#include <sched.h>
#include <stdatomic.h>
#include <stdio.h>
#include <stdlib.h>
#include <string.h>

#include "IdsM.h"
#include "IdsM_Binding.h"
#include "IdsM_Cfg.h"

static _Thread_local idsm_caller *own_caller;

enum { TASKS = IDSM_CFG_CALLERS, REPORTS = 250000, FULL = 4 << 20 };

struct task {
    pthread_t thread;
    uint32_t made;
};

static struct task tasks[TASKS];
static _Atomic uint64_t reports[20], controls[20]; /* by what they were answered */
static atomic_int running;
static FILE *journal, *messages; /* NULL: the turns are not written */
static size_t written, turns;
static uint8_t last_messages[IDSM_CFG_BUFFER];

static void want(const char *what, int is_so)
{
    if (!is_so) {
        fprintf(stderr, "journal: %s failed\n", what);
        exit(1);
    }
}

idsm_caller *unit_caller(void)
{
    return own_caller;
}

uint64_t unit_tick(void)
{
    static uint64_t ticks;
    return ticks++;
}

int unit_send(const uint8_t *message, size_t length)
{
    want("a message", messages == NULL || fwrite(message, 1, length, messages) == length);
    return 0;
}

static idsm_answer send_last(void *to, const uint8_t *message, size_t length)
{
    (void)to;
    return unit_send(message, length) == 0 ? IDSM_DONE : IDSM_NOT_SENT;
}

/* A quiet turn is left out: the journal tells the same without it. */
static void write_last_lines(void)
{
    uint8_t piece[512];
    size_t bytes = IdsM_Unit.sent.quiet ? 0 : 1;
    turns += bytes;
    for (size_t at = 0; journal != NULL && bytes > 0; at += bytes) {
        want("a reading of lines", idsm_journal(&IdsM_Unit.manager, at, piece, sizeof piece, &bytes) == IDSM_DONE);
        want("a piece", fwrite(piece, 1, bytes, journal) == bytes);
        written += bytes;
    }
}

/* A report with a context of 0 to 9 bytes, of which a buffer holds 8, and now and then a state or a mode before it. */
static uint8_t report(uint32_t i)
{
    static const uint8_t context[9] = {0xa1, 0xb2, 0xc3, 0xd4, 0xe5, 0xf6, 0x07, 0x18, 0x29};
    IdsM_SecurityEventIdType id = i % 3 == 0 ? IDSM_EVENT_BAD_LOGIN : IDSM_EVENT_BAD_FIRMWARE;
    if (i % 16 == 0)
        controls[i % 32 == 0 ? IdsM_BswM_StateChanged((uint8_t)i) : IdsM_SetReportingMode(id, (uint8_t)(i % 5))]++;
    return i % 7 == 0 ? IdsM_SetSecurityEventWithTimestampCountContextData(id, i, context, (uint16_t)(i % 10), 65535)
                      : IdsM_SetSecurityEventWithContextData(id, context, (uint16_t)(i % 10));
}

/* Makes what is left of a task's reports, until it is stopped. */
static void *make_reports(void *arg)
{
    struct task *task = arg;
    uint8_t answer = IDSM_DONE;
    own_caller = &IdsM_Unit.callers[task - tasks];
    for (; task->made < REPORTS && answer != IDSM_CLOSED; task->made += answer != IDSM_CLOSED) {
        answer = report(task->made);
        reports[answer]++;
        if (task->made % 2048 == 0)
            sched_yield(); /* so that turns are made on one processor, too */
    }
    running--;
    return NULL;
}

/* Takes reports until all are made or the journal is full, and prints what its turns did. */
static void run(idsm_totals *totals)
{
    memset(&IdsM_Unit, 0, sizeof IdsM_Unit);
    want("the init", IdsM_Init(NULL) == IDSM_DONE);
    running = TASKS;
    for (int i = 0; i < TASKS; i++)
        want("a task", pthread_create(&tasks[i].thread, NULL, make_reports, &tasks[i]) == 0);
    while (running > 0 && written < FULL) {
        want("the main function", IdsM_MainFunction() == IDSM_DONE);
        write_last_lines();
        if (IdsM_Unit.sent.entries == 0)
            sched_yield();
    }
    while (idsm_stop(&IdsM_Unit.manager) == IDSM_BUSY)
        sched_yield();
    for (int i = 0; i < TASKS; i++)
        pthread_join(tasks[i].thread, NULL);
    want("the last turn", idsm_last_send(&IdsM_Unit.manager, unit_tick(), last_messages, sizeof last_messages, send_last,
                                         NULL, &IdsM_Unit.sent, totals) == IDSM_DONE);
    write_last_lines();
    want("the end", idsm_free(&IdsM_Unit.manager) == IDSM_DONE);
    printf("turns %zu entries %llu messages %llu\n", turns, (unsigned long long)totals->entries,
           (unsigned long long)totals->messages);
}

int main(int count, char **words)
{
    idsm_totals first, second;
    want("two files", count == 3 && (journal = fopen(words[1], "wb")) != NULL && (messages = fopen(words[2], "wb")) != NULL);
    run(&first);
    want("two ends", fclose(journal) == 0 && fclose(messages) == 0);
    journal = messages = NULL;
    written = turns = 0;
    run(&second);
    uint64_t taken = reports[IDSM_DONE] + reports[IDSM_WITHOUT_CONTEXT], lost = reports[IDSM_LOST];
    int are_all = taken + lost == (uint64_t)TASKS * REPORTS && first.entries + second.entries == taken + controls[IDSM_DONE] &&
                  first.lost_events + second.lost_events == lost &&
                  first.lost_contexts + second.lost_contexts == reports[IDSM_WITHOUT_CONTEXT];
    printf("reports %u, all accounted for: %s\n", TASKS * REPORTS, are_all ? "yes" : "no");
    return are_all ? 0 : 1;
}
