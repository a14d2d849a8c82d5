/* Turns, and their messages handed out. */
#include "handles.h"

uint64_t idsm_widen(idsm_clock *clock, uint32_t now)
{
    if (clock == NULL) {
        return now;
    }
    clock->ticks += (uint32_t)(now - (uint32_t)clock->ticks);
    return clock->ticks;
}

const idsm_route idsm_own_nowhere = {NULL, NULL};

/* Offers what is left of a turn's messages, in order, until one is not taken. IDSM_NOT_SENT if some are left then. */
static idsm_answer offer(idsm_manager *manager, const idsm_route *out)
{
    size_t length = 0U;
    while (idsm_message(manager->rest, manager->rest_bytes, 0U, &length) == IDSM_DONE) {
        if (out->send(out->to, manager->rest, length) != IDSM_DONE) {
            return IDSM_NOT_SENT;
        }
        manager->rest = &manager->rest[length];
        manager->rest_bytes -= length;
    }
    manager->rest = NULL;
    manager->rest_bytes = 0U;
    return IDSM_DONE;
}

idsm_answer idsm_own_offer_rest(idsm_manager *manager, const idsm_route *out)
{
    if (manager->rest_bytes == 0U) {
        return IDSM_DONE;
    }
    return (out->send == NULL) ? IDSM_NOT_SENT : offer(manager, out);
}

idsm_answer idsm_own_turn(idsm_manager *manager, idsm_word *own, uint64_t tick, uint8_t *buffer, size_t bytes,
                          const idsm_route *out, idsm_sent *sent)
{
    idsm_sent told = {0U, 0U, 0U, 0U, 0U, 0U, 0U};
    const idsm_answer answer = idsm_raw_main(own, tick, idsm_own_some_room(buffer), bytes, &told);
    if (answer == IDSM_DONE) {
        *sent = told;
        if (out->send != NULL) {
            manager->rest = buffer;
            manager->rest_bytes = (size_t)told.bytes;
        }
    }
    return answer;
}

/* Offers what is left, then makes a turn and offers its messages, all before the handle is given back: so no other turn writes
   over them. */
static idsm_answer main_turn(idsm_manager *manager, uint64_t tick, uint8_t *buffer, size_t bytes, const idsm_route *out,
                             idsm_sent *sent)
{
    idsm_word own;
    idsm_answer answer = idsm_own_take_with_callers(manager, &own);
    if (answer != IDSM_DONE) {
        return answer;
    }
    answer = (idsm_own_state_of(manager) == IDSM_OWN_ENDED) ? IDSM_CLOSED : idsm_own_offer_rest(manager, out);
    if (answer == IDSM_DONE) {
        answer = idsm_own_turn(manager, &own, tick, buffer, bytes, out, sent);
    }
    if (answer == IDSM_DONE) {
        (void)idsm_own_offer_rest(manager, out);
    }
    return idsm_own_give_after(&manager->at, &own, answer);
}

idsm_answer idsm_main(idsm_manager *manager, uint64_t tick, uint8_t *buffer, size_t bytes, idsm_sent *sent)
{
    if (idsm_own_is_no_memory(buffer, bytes) || (idsm_own_clear(sent, sizeof *sent) != IDSM_DONE)) {
        return IDSM_NULL;
    }
    return main_turn(manager, tick, buffer, bytes, &idsm_own_nowhere, sent);
}

idsm_answer idsm_main_send(idsm_manager *manager, uint64_t tick, uint8_t *buffer, size_t bytes, idsm_send *send,
                           void *to, idsm_sent *sent)
{
    const idsm_route out = {send, to};
    if ((sent == NULL) || (send == NULL) || idsm_own_is_no_memory(buffer, bytes)) {
        return IDSM_NULL;
    }
    return main_turn(manager, tick, buffer, bytes, &out, sent);
}
