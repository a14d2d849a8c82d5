/* The shortest program: a report, a turn, and its message printed: 100483002a000100. */
#include "idsm_c.h"
#include <stdio.h>

static const idsm_event event = {.id = 42, .nth = 1, .sensor = 3, .mode = IDSM_MODE_DETAILED, .send = 1};
static const idsm_config config = {
    .top = {.profile = 1, .instance = 18, .callers = 1, .ring = 8,
            .lost_events = IDSM_NONE, .lost_contexts = IDSM_NONE, .limited = IDSM_NONE},
    .events = &event, .event_count = 1};
static idsm_caller caller;
static idsm_manager manager;
static uint8_t messages[16 * (8 + 1 + 3)]; /* for each event buffer, each event and three more */

int main(void)
{
    idsm_fault fault;
    idsm_sent sent = {0};
    int is_done = idsm_init(&config, NULL, &caller, 1, &manager, &fault) == IDSM_DONE &&
                  idsm_set_event(&caller, 0) == IDSM_DONE &&
                  idsm_main(&manager, 1, messages, sizeof messages, &sent) == IDSM_DONE;
    for (size_t i = 0; i < sent.bytes; i++)
        printf("%02x", messages[i]);
    printf("\n");
    return !is_done;
}
