/* A control unit: four tasks report beside the main function, which prints the messages; then the event memory is read.
   IdsM_Cfg.h is made of unit.json and unit.names; the binding is that of c/binding. If IdsM.c is compiled with IDSM_ARENA 1, it
   needs no heap. */
#include <pthread.h>
#include <stdatomic.h>
#include <stdio.h>
#include <stdlib.h>

#include "IdsM.h"
#include "IdsM_Binding.h"
#include "IdsM_Cfg.h"

static _Thread_local idsm_caller *own_caller;

enum { TASKS = IDSM_CFG_CALLERS, REPORTS = 1000000 };

struct task {
    pthread_t thread;
    uint64_t accepted, without_context, lost;
};

static struct task tasks[TASKS];
static atomic_int running = TASKS;
static int is_quiet = 1;

static void print_bytes(const uint8_t *bytes, uint64_t count)
{
    for (uint64_t i = 0; i < count; i++)
        printf("%02x", bytes[i]);
    printf("\n");
}

idsm_caller *unit_caller(void)
{
    return own_caller;
}

uint64_t unit_tick(void)
{
    static uint64_t ticks;
    return ticks++;
}

int unit_send(const uint8_t *message, size_t length)
{
    if (!is_quiet)
        print_bytes(message, length);
    return 0;
}

static void *report(void *arg)
{
    struct task *task = arg;
    static const uint8_t context[4] = {1, 2, 3, 4};
    own_caller = &IdsM_Unit.callers[task - tasks];
    for (uint32_t i = 0; i < REPORTS; i++) {
        uint8_t answer = i % 16 == 0 ? IdsM_SetSecurityEventWithContextData(IDSM_EVENT_BAD_LOGIN, context, sizeof context)
                                     : IdsM_SetSecurityEvent(IDSM_EVENT_BAD_LOGIN);
        task->accepted += answer == IDSM_DONE || answer == IDSM_WITHOUT_CONTEXT;
        task->without_context += answer == IDSM_WITHOUT_CONTEXT;
        task->lost += answer == IDSM_LOST;
    }
    atomic_fetch_sub(&running, 1);
    return NULL;
}

static void want(const char *what, uint8_t answer)
{
    if (answer != IDSM_DONE) {
        fprintf(stderr, "%s answers %u\n", what, answer);
        exit(1);
    }
}

static void print_memory(void)
{
    idsm_row rows[4];
    uint8_t contexts[4][8];
    size_t count;
    want("a snapshot", idsm_snapshot(&IdsM_Unit.manager, rows, 4, contexts[0], sizeof contexts[0], &count));
    for (size_t i = 0; i < count; i++) {
        printf("memory: event %u id %u sensor %u occurrences %u context ", rows[i].event, rows[i].id, rows[i].sensor,
               rows[i].occurrences);
        print_bytes(contexts[i], rows[i].bytes);
    }
}

int main(void)
{
    static const uint8_t context[3] = {0xc0, 0xff, 0xee};
    uint64_t accepted = 0, without_context = 0, lost = 0;
    idsm_totals totals;
    want("init", IdsM_Init(NULL));
    for (int i = 0; i < TASKS; i++)
        if (pthread_create(&tasks[i].thread, NULL, report, &tasks[i]) != 0)
            return 1;
    while (atomic_load(&running) > 0)
        want("the main function", IdsM_MainFunction());
    for (int i = 0; i < TASKS; i++) {
        pthread_join(tasks[i].thread, NULL);
        accepted += tasks[i].accepted;
        without_context += tasks[i].without_context;
        lost += tasks[i].lost;
    }
    want("the main function", IdsM_MainFunction());
    is_quiet = 0;
    own_caller = &IdsM_Unit.callers[0];
    want("a report", IdsM_SetSecurityEventWithCount(IDSM_EVENT_BAD_FIRMWARE, 4));
    want("a report", IdsM_SetSecurityEventWithContextData(IDSM_EVENT_BAD_FIRMWARE, context, sizeof context));
    want("the main function", IdsM_MainFunction());
    print_memory();
    want("the close", IdsM_DeInit(&totals));
    int all = totals.entries == accepted + 2 && totals.lost_events == lost && totals.lost_contexts == without_context &&
              accepted + lost == (uint64_t)TASKS * REPORTS;
    printf("reports %u, all accounted for: %s\n", TASKS * REPORTS, all ? "yes" : "no");
    return all ? 0 : 1;
}
