/* Two tasks that call the main function at once, beside a task that reports and one that closes, while every third message is
   refused: each report that was accepted is sent once, as it was made, and the totals are those of all turns. IdsM_Cfg.h is
   made of unit.json. */
#include <pthread.h>
#include <sched.h>
#include <stdatomic.h>
#include <stdio.h>
#include <stdlib.h>
#include <unistd.h>

#include "IdsM.h"
#include "IdsM_Binding.h"
#include "IdsM_Cfg.h"

enum { TURNING = 2, REPORTS = 20000 };

/* How often the report with each count was accepted, and sent. The manager's handle keeps the second one from two tasks. */
static uint8_t accepted[65536], sent[65536];
static uint64_t answers[TURNING][20];

idsm_caller *unit_caller(void)
{
    return &IdsM_Unit.callers[0];
}

uint64_t unit_tick(void)
{
    return 0;
}

/* Every third message is not taken at first. */
int unit_send(const uint8_t *message, size_t length)
{
    static unsigned offered;
    sched_yield(); /* so that others come in between */
    if (offered++ % 3 == 2)
        return 1;
    if (length == 8 && message[3] * 256u + message[4] == IDSM_EVENT_BAD_FIRMWARE)
        sent[message[5] * 256 + message[6]]++;
    return 0;
}

static void *report(void *arg)
{
    (void)arg;
    for (uint32_t i = 1; i <= REPORTS; i++) {
        accepted[i] = IdsM_SetSecurityEventWithCount(IDSM_EVENT_BAD_FIRMWARE, (uint16_t)i) == IDSM_DONE;
        if (!accepted[i])
            sched_yield();
    }
    return NULL;
}

/* Makes turns until the manager is closed. */
static void *make_turns(void *arg)
{
    uint64_t *own = arg;
    uint8_t answer = IDSM_DONE;
    while (answer != IDSM_CLOSED) {
        answer = IdsM_MainFunction();
        own[answer]++;
    }
    return NULL;
}

int main(void)
{
    pthread_t reporting, turning[TURNING];
    idsm_totals totals;
    uint64_t all = 0, wrong = 0, others = 0;
    uint8_t answer;
    alarm(300); /* what loses messages may never end */
    if (IdsM_Init(NULL) != IDSM_DONE || pthread_create(&reporting, NULL, report, NULL) != 0)
        return 1;
    for (int i = 0; i < TURNING; i++)
        if (pthread_create(&turning[i], NULL, make_turns, answers[i]) != 0)
            return 1;
    pthread_join(reporting, NULL);
    do {
        sched_yield();
        answer = IdsM_DeInit(&totals);
    } while (answer == IDSM_BUSY || answer == IDSM_NOT_SENT);
    for (int i = 0; i < TURNING; i++) {
        pthread_join(turning[i], NULL);
        for (int k = 0; k < 20; k++)
            others += k == IDSM_DONE || k == IDSM_BUSY || k == IDSM_CLOSED || k == IDSM_NOT_SENT ? 0 : answers[i][k];
    }
    for (unsigned i = 0; i < 65536; i++) {
        all += accepted[i];
        wrong += accepted[i] != sent[i];
    }
    int right = answer == IDSM_DONE && wrong == 0 && others == 0 && totals.messages >= all && totals.entries == all &&
                totals.lost_events == REPORTS - all;
    printf("reports accepted %llu, entries %llu, lost %llu, sent otherwise %llu, other answers %llu: %s\n",
           (unsigned long long)all, (unsigned long long)totals.entries, (unsigned long long)totals.lost_events,
           (unsigned long long)wrong, (unsigned long long)others, right ? "right" : "WRONG");
    return right ? 0 : 1;
}
