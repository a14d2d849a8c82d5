/* Two tasks on one handle, and one that reads the event memory while turns are made: each call is answered, what is
   answered IDSM_BUSY is in no total, and all else is. */
#include <pthread.h>
#include <stdatomic.h>
#include <stdio.h>
#include <stdlib.h>

#include "IdsM_Cfg.h"

enum { TASKS = 2, REPORTS = 200000 };

struct task {
    pthread_t thread;
    uint64_t number[20];
};

static idsm_caller callers[IDSM_CFG_CALLERS];
static idsm_manager manager;
static uint8_t buffer[IDSM_CFG_BUFFER];
static struct task tasks[TASKS], reader;
static atomic_int running = TASKS;

static void *report(void *arg)
{
    struct task *task = arg;
    static const uint8_t context[3] = {1, 2, 3};
    for (uint32_t i = 0; i < REPORTS; i++)
        task->number[idsm_set_event_context(&callers[0], 1, context, i % 4)]++;
    atomic_fetch_sub(&running, 1);
    return NULL;
}

static void *read_memory(void *arg)
{
    struct task *task = arg;
    idsm_row rows[4];
    uint8_t contexts[4][8];
    size_t count;
    while (atomic_load(&running) > 0)
        task->number[idsm_snapshot(&manager, rows, 4, contexts[0], 8, &count)]++;
    return NULL;
}

int main(void)
{
    idsm_fault fault;
    idsm_sent sent;
    idsm_totals totals;
    uint64_t tick = 0, turns[20] = {0}, all[20] = {0}, sum = 0;
    if (idsm_init(&IdsM_Config, NULL, callers, IDSM_CFG_CALLERS, &manager, &fault) != IDSM_DONE)
        return 1;
    for (int i = 0; i < TASKS; i++)
        if (pthread_create(&tasks[i].thread, NULL, report, &tasks[i]) != 0)
            return 1;
    if (pthread_create(&reader.thread, NULL, read_memory, &reader) != 0)
        return 1;
    while (atomic_load(&running) > 0)
        turns[idsm_main(&manager, tick++, buffer, sizeof buffer, &sent)]++;
    pthread_join(reader.thread, NULL);
    for (int i = 0; i < TASKS; i++) {
        pthread_join(tasks[i].thread, NULL);
        for (int k = 0; k < 20; k++)
            all[k] += tasks[i].number[k];
    }
    if (idsm_close(&manager, tick, buffer, sizeof buffer, &sent, &totals) != IDSM_DONE)
        return 1;
    sum = all[IDSM_DONE] + all[IDSM_WITHOUT_CONTEXT] + all[IDSM_LOST] + all[IDSM_BUSY];
    int right = sum == TASKS * REPORTS && totals.entries == all[IDSM_DONE] + all[IDSM_WITHOUT_CONTEXT] &&
                totals.lost_events == all[IDSM_LOST] && totals.lost_contexts == all[IDSM_WITHOUT_CONTEXT] &&
                turns[IDSM_DONE] + turns[IDSM_BUSY] == tick;
    printf("reports taken %llu, lost %llu, busy %llu; turns %llu, busy %llu; readings %llu, busy %llu: %s\n",
           (unsigned long long)totals.entries, (unsigned long long)totals.lost_events,
           (unsigned long long)all[IDSM_BUSY], (unsigned long long)turns[IDSM_DONE], (unsigned long long)turns[IDSM_BUSY],
           (unsigned long long)reader.number[IDSM_DONE], (unsigned long long)reader.number[IDSM_BUSY],
           right ? "right" : "WRONG");
    return right ? 0 : 1;
}
