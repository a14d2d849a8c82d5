/* Four tasks that report without a pause, each on a handle of its own, beside turns; then the callers are stopped, or the
   manager is closed at once. A stop and a close come through, no report is turned away but by IDSM_CLOSED, and the totals are
   all that was reported. IdsM_Cfg.h is made of unit.json. */
#include <pthread.h>
#include <sched.h>
#include <stdatomic.h>
#include <stdio.h>
#include <string.h>

#include "IdsM_Cfg.h"

enum { TASKS = IDSM_CFG_CALLERS, ROUNDS = 200, REPORTS = 100 };

struct task {
    pthread_t thread;
    uint64_t number[20];
};

static idsm_caller callers[TASKS];
static idsm_manager manager;
static uint8_t buffer[IDSM_CFG_BUFFER];
static struct task tasks[TASKS];
static _Atomic uint64_t reported;

static void *report(void *arg)
{
    struct task *task = arg;
    static const uint8_t context[3] = {1, 2, 3};
    uint8_t answer = IDSM_DONE;
    for (size_t i = 0; answer != IDSM_CLOSED; i++) {
        answer = idsm_set_event_context(&callers[task - tasks], 1, context, i % 4);
        task->number[answer]++;
        atomic_fetch_add_explicit(&reported, 1, memory_order_relaxed);
    }
    return NULL;
}

/* Makes turns until so many reports were made. */
static uint64_t turns(void)
{
    idsm_sent sent;
    uint64_t tick = 0;
    while (atomic_load_explicit(&reported, memory_order_relaxed) < REPORTS)
        idsm_main(&manager, tick++, buffer, sizeof buffer, &sent);
    return tick;
}

/* Tries until it comes through, or far too often. */
#define TRY(call) \
    for (uint64_t tries = 0; (answer = (call)) == IDSM_BUSY && tries < 100000000; tries++) \
        ;

/* Ends by a close. */
static int closes(uint64_t tick, idsm_totals *totals)
{
    idsm_sent sent;
    uint8_t answer;
    TRY(idsm_close(&manager, tick, buffer, sizeof buffer, &sent, totals))
    return answer == IDSM_DONE;
}

/* Ends by a stop, a turn that takes all, a last one that finds nothing, a reading and a free. */
static int stops(uint64_t tick, idsm_totals *totals)
{
    idsm_sent sent;
    uint64_t rows;
    uint8_t answer;
    TRY(idsm_stop(&manager))
    if (answer != IDSM_DONE || idsm_main(&manager, tick, buffer, sizeof buffer, &sent) != IDSM_DONE)
        return 0;
    TRY(idsm_last(&manager, tick, buffer, sizeof buffer, &sent, totals))
    return answer == IDSM_DONE && sent.entries == 0 && sent.lost_events == 0 && idsm_rows(&manager, &rows) == IDSM_DONE &&
           idsm_main(&manager, tick, buffer, sizeof buffer, &sent) == IDSM_CLOSED && idsm_free(&manager) == IDSM_DONE;
}

/* One run, of which it adds up what the tasks were answered. */
static int runs(int (*ends)(uint64_t, idsm_totals *), uint64_t *all)
{
    idsm_fault fault;
    idsm_totals totals;
    uint64_t number[20] = {0}, others = 0;
    memset(callers, 0, sizeof callers);
    memset(&manager, 0, sizeof manager);
    memset(tasks, 0, sizeof tasks);
    atomic_store(&reported, 0);
    if (idsm_init(&IdsM_Config, NULL, callers, TASKS, &manager, &fault) != IDSM_DONE)
        return 0;
    for (int i = 0; i < TASKS; i++)
        if (pthread_create(&tasks[i].thread, NULL, report, &tasks[i]) != 0)
            return 0;
    int ended = ends(turns(), &totals);
    for (int i = 0; i < TASKS; i++) {
        pthread_join(tasks[i].thread, NULL);
        for (int k = 0; k < 20; k++)
            number[k] += tasks[i].number[k];
    }
    for (int k = 0; k < 20; k++) {
        all[k] += number[k];
        if (k != IDSM_DONE && k != IDSM_LOST && k != IDSM_WITHOUT_CONTEXT && k != IDSM_CLOSED)
            others += number[k];
    }
    return ended && others == 0 && number[IDSM_CLOSED] == TASKS && totals.lost_events == number[IDSM_LOST] &&
           totals.lost_contexts == number[IDSM_WITHOUT_CONTEXT] &&
           totals.entries == number[IDSM_DONE] + number[IDSM_WITHOUT_CONTEXT];
}

int main(void)
{
    uint64_t all[20] = {0};
    int right = 1;
    for (int round = 0; round < ROUNDS && right; round++)
        right = runs(round % 2 ? stops : closes, all);
    printf("reports taken %llu, lost %llu, closed %llu, busy %llu: %s\n",
           (unsigned long long)(all[IDSM_DONE] + all[IDSM_WITHOUT_CONTEXT]), (unsigned long long)all[IDSM_LOST],
           (unsigned long long)all[IDSM_CLOSED], (unsigned long long)all[IDSM_BUSY], right ? "right" : "WRONG");
    return right ? 0 : 1;
}
