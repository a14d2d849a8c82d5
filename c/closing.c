/* The end of a manager: its callers are stopped, its last turn is made, all is freed. */
#include "handles.h"

static void set_state(idsm_manager *manager, uint32_t state)
{
    manager->stopped = state | (manager->stopped & IDSM_OWN_IN_ARENA);
}

/* Frees what the words of a manager or of its callers have. What is in an arena is left there, and none of it is looked at
   any more: the arena is the integrator's. */
static void leave(const idsm_manager *manager, idsm_word *words, size_t count)
{
    if ((manager->stopped & IDSM_OWN_IN_ARENA) == 0U) {
        idsm_own_free_all(words, count);
    }
}

/* Gives a handle back, as closed if what it had was freed. */
static void give_or_close(void **at, idsm_word *own, bool is_freed)
{
    if (is_freed) {
        idsm_own_give_closed(at);
    } else {
        idsm_own_give(at, own->at);
    }
}

/* Stops all callers of a manager, or lets them call again. */
static void mark_callers(idsm_manager *manager, uint32_t stopped)
{
    size_t i;
    for (i = 0U; i < manager->count; i++) {
        uint32_t before = 1U - stopped;
        (void)IDSM_SWAP(&manager->callers[i].stopped, &before, stopped);
    }
}

/* Whether no call of a caller is under way. */
static bool are_all_idle(idsm_manager *manager)
{
    bool idle = true;
    size_t i;
    for (i = 0U; i < manager->count; i++) {
        idle = idle && !idsm_own_is_in_call(&manager->callers[i].at);
    }
    return idle;
}

idsm_answer idsm_stop(idsm_manager *manager)
{
    idsm_word own;
    idsm_answer answer = idsm_own_take_with_callers(manager, &own);
    if (answer != IDSM_DONE) {
        return answer;
    }
    if (idsm_own_state_of(manager) == IDSM_OWN_ENDED) {
        answer = IDSM_CLOSED;
    } else {
        set_state(manager, IDSM_OWN_STOPPED);
        mark_callers(manager, 1U);
        answer = are_all_idle(manager) ? IDSM_DONE : IDSM_BUSY;
    }
    return idsm_own_give_after(&manager->at, &own, answer);
}

/* Takes all callers of a manager, or none. */
static idsm_answer take_callers(idsm_manager *manager, idsm_word *words)
{
    size_t taken = 0U;
    idsm_answer answer = IDSM_DONE;
    while ((taken < manager->count) && (answer == IDSM_DONE)) {
        answer = idsm_own_take(&manager->callers[taken].at, &words[taken]);
        taken += (answer == IDSM_DONE) ? 1U : 0U;
    }
    while ((answer != IDSM_DONE) && (taken > 0U)) {
        taken--;
        idsm_own_give(&manager->callers[taken].at, words[taken].at);
    }
    return answer;
}

/* Gives the callers of a manager back, or frees them. */
static void leave_callers(idsm_manager *manager, idsm_word *words, bool frees)
{
    size_t i;
    if (frees) {
        leave(manager, words, manager->count);
    }
    for (i = 0U; i < manager->count; i++) {
        give_or_close(&manager->callers[i].at, &words[i], frees);
    }
}

/* Makes a last turn with all callers in hand, and frees them. They are stopped first, so that none is answered that its own
   handle is busy. */
static idsm_answer last_turn(idsm_manager *manager, idsm_word *own, uint64_t tick, uint8_t *buffer, size_t bytes,
                             const idsm_route *out, idsm_sent *sent)
{
    idsm_word words[IDSM_MOST_CALLERS];
    idsm_answer answer;
    mark_callers(manager, 1U);
    answer = take_callers(manager, words);
    if (answer != IDSM_DONE) {
        set_state(manager, IDSM_OWN_STOPPED);
        return answer;
    }
    answer = idsm_own_turn(manager, own, tick, buffer, bytes, out, sent);
    leave_callers(manager, words, answer == IDSM_DONE);
    if (answer == IDSM_DONE) {
        set_state(manager, IDSM_OWN_ENDED);
    } else if (idsm_own_state_of(manager) == IDSM_OWN_RUNNING) {
        mark_callers(manager, 0U);
    } else {
        /* They were stopped before, and stay so. */
    }
    return answer;
}

/* Offers what is left, then makes the last turn if it was not made yet, and offers its messages. */
static idsm_answer end_turns(idsm_manager *manager, idsm_word *own, uint64_t tick, uint8_t *buffer, size_t bytes,
                             const idsm_route *out, idsm_sent *sent, idsm_totals *totals)
{
    idsm_answer answer;
    if ((idsm_own_state_of(manager) == IDSM_OWN_ENDED) && (manager->rest_bytes == 0U)) {
        return IDSM_CLOSED;
    }
    answer = idsm_own_offer_rest(manager, out);
    if ((answer == IDSM_DONE) && (idsm_own_state_of(manager) != IDSM_OWN_ENDED)) {
        answer = last_turn(manager, own, tick, buffer, bytes, out, sent);
        if (answer == IDSM_DONE) {
            answer = idsm_own_offer_rest(manager, out);
        }
    }
    if (idsm_own_state_of(manager) == IDSM_OWN_ENDED) {
        (void)idsm_raw_totals(own, totals);
    }
    return answer;
}

/* Ends the turns, and then gives the manager back, or frees it. */
static idsm_answer end_manager(idsm_manager *manager, uint64_t tick, uint8_t *buffer, size_t bytes, const idsm_route *out,
                       idsm_sent *sent, idsm_totals *totals, bool frees)
{
    idsm_word own;
    bool is_freed;
    idsm_answer answer = idsm_own_take_with_callers(manager, &own);
    if (answer != IDSM_DONE) {
        return answer;
    }
    answer = end_turns(manager, &own, tick, buffer, bytes, out, sent, totals);
    is_freed = frees && (answer == IDSM_DONE);
    if (is_freed) {
        leave(manager, &own, 1U);
    }
    give_or_close(&manager->at, &own, is_freed);
    return answer;
}

/* The same, with what it told at nothing first. */
static idsm_answer end_telling(idsm_manager *manager, uint64_t tick, uint8_t *buffer, size_t bytes, idsm_sent *sent,
                               idsm_totals *totals, bool frees)
{
    if ((sent == NULL) || (totals == NULL) || idsm_own_is_no_memory(buffer, bytes)) {
        return IDSM_NULL;
    }
    (void)idsm_own_clear(sent, sizeof *sent);
    (void)idsm_own_clear(totals, sizeof *totals);
    return end_manager(manager, tick, buffer, bytes, &idsm_own_nowhere, sent, totals, frees);
}

/* The same, with its messages handed out. */
static idsm_answer end_sending(idsm_manager *manager, uint64_t tick, uint8_t *buffer, size_t bytes,
                               const idsm_route *out, idsm_sent *sent, idsm_totals *totals, bool frees)
{
    if ((sent == NULL) || (totals == NULL) || (out->send == NULL) || idsm_own_is_no_memory(buffer, bytes)) {
        return IDSM_NULL;
    }
    return end_manager(manager, tick, buffer, bytes, out, sent, totals, frees);
}

idsm_answer idsm_last(idsm_manager *manager, uint64_t tick, uint8_t *buffer, size_t bytes, idsm_sent *sent,
                      idsm_totals *totals)
{
    return end_telling(manager, tick, buffer, bytes, sent, totals, false);
}

idsm_answer idsm_last_send(idsm_manager *manager, uint64_t tick, uint8_t *buffer, size_t bytes, idsm_send *send,
                           void *to, idsm_sent *sent, idsm_totals *totals)
{
    const idsm_route out = {send, to};
    return end_sending(manager, tick, buffer, bytes, &out, sent, totals, false);
}

idsm_answer idsm_close(idsm_manager *manager, uint64_t tick, uint8_t *buffer, size_t bytes, idsm_sent *sent,
                       idsm_totals *totals)
{
    return end_telling(manager, tick, buffer, bytes, sent, totals, true);
}

idsm_answer idsm_close_send(idsm_manager *manager, uint64_t tick, uint8_t *buffer, size_t bytes, idsm_send *send,
                            void *to, idsm_sent *sent, idsm_totals *totals)
{
    const idsm_route out = {send, to};
    return end_sending(manager, tick, buffer, bytes, &out, sent, totals, true);
}

idsm_answer idsm_free(idsm_manager *manager)
{
    idsm_word own;
    idsm_answer answer = idsm_own_take_with_callers(manager, &own);
    if (answer != IDSM_DONE) {
        return answer;
    }
    if (manager->rest_bytes > 0U) {
        answer = IDSM_NOT_SENT;
    } else if (idsm_own_state_of(manager) != IDSM_OWN_ENDED) {
        answer = IDSM_BUSY;
    } else {
        leave(manager, &own, 1U);
    }
    give_or_close(&manager->at, &own, answer == IDSM_DONE);
    return answer;
}
