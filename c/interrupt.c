/* An interrupt that reports: a timer's signal comes while the one task reports and makes turns, and reports on a handle of its
   own, twice. No call waits for what it interrupted, so the program ends, and each report is in the totals. Over c/stand_in.c
   such a report may be lost. IdsM_Cfg.h is made of unit.json. */
#define _DEFAULT_SOURCE /* for setitimer */
#include "IdsM_Cfg.h"

#include <signal.h>
#include <stdio.h>
#include <string.h>
#include <sys/time.h>
#include <unistd.h>

enum { SIGNALS = 400, SECONDS = 60 };

static idsm_caller callers[IDSM_CFG_CALLERS];
static idsm_manager manager;
static uint8_t buffer[IDSM_CFG_BUFFER];
static const uint8_t context[8] = {1, 2, 3, 4, 5, 6, 7, 8};

/* By what they were answered: the reports of the task and those of the signals. */
static uint64_t of_task[20], of_signals[20];
static volatile sig_atomic_t signals;

static void interrupt(int number)
{
    (void)number;
    of_signals[idsm_set_event_context(&callers[1], 1, context, sizeof context)]++;
    of_signals[idsm_set_event(&callers[1], 0)]++;
    signals++;
}

static int is_set_up(void)
{
    struct sigaction action;
    struct itimerval every = {{0, 100}, {0, 100}};
    memset(&action, 0, sizeof action);
    action.sa_handler = interrupt;
    alarm(SECONDS);
    return sigaction(SIGALRM, &(struct sigaction){.sa_handler = SIG_DFL}, NULL) == 0 &&
           sigaction(SIGPROF, &action, NULL) == 0 && setitimer(ITIMER_PROF, &every, NULL) == 0;
}

static int is_over(void)
{
    static const struct itimerval never;
    return setitimer(ITIMER_PROF, &never, NULL) == 0;
}

int main(void)
{
    idsm_fault fault;
    idsm_sent sent;
    idsm_totals totals;
    uint64_t tick = 0, taken = 0, without = 0, lost = 0, others = 0;
    if (idsm_init(&IdsM_Config, NULL, callers, IDSM_CFG_CALLERS, &manager, &fault) != IDSM_DONE || !is_set_up())
        return 1;
    while (signals < SIGNALS) {
        for (int i = 0; i < 50; i++)
            of_task[idsm_set_event_context(&callers[0], 1, context, sizeof context)]++;
        if (idsm_main(&manager, tick++, buffer, sizeof buffer, &sent) != IDSM_DONE)
            return 1;
    }
    if (!is_over() || idsm_close(&manager, tick, buffer, sizeof buffer, &sent, &totals) != IDSM_DONE)
        return 1;
    for (int i = 0; i < 20; i++) {
        uint64_t number = of_task[i] + of_signals[i];
        taken += i == IDSM_DONE || i == IDSM_WITHOUT_CONTEXT ? number : 0;
        without += i == IDSM_WITHOUT_CONTEXT ? number : 0;
        lost += i == IDSM_LOST ? number : 0;
        others += i == IDSM_DONE || i == IDSM_WITHOUT_CONTEXT || i == IDSM_LOST ? 0 : number;
    }
    int right = others == 0 && totals.entries == taken && totals.lost_events == lost && totals.lost_contexts == without;
    printf("reports taken %llu, lost %llu, of signals %llu: %s\n", (unsigned long long)taken, (unsigned long long)lost,
           (unsigned long long)(of_signals[IDSM_DONE] + of_signals[IDSM_WITHOUT_CONTEXT] + of_signals[IDSM_LOST]),
           right ? "right" : "WRONG");
    return right ? 0 : 1;
}
