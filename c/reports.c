/* Reports and controls: each is a call of the proved library with the handle of its caller in hand. */
#include "handles.h"

idsm_answer idsm_set_event(idsm_caller *caller, uint16_t event)
{
    idsm_word own;
    const idsm_answer answer = idsm_own_take_caller(caller, &own);
    return (answer == IDSM_DONE) ? idsm_own_give_after(&caller->at, &own, idsm_raw_set_event(&own, event)) : answer;
}

idsm_answer idsm_set_event_count(idsm_caller *caller, uint16_t event, uint16_t count)
{
    idsm_word own;
    const idsm_answer answer = idsm_own_take_caller(caller, &own);
    return (answer == IDSM_DONE) ? idsm_own_give_after(&caller->at, &own, idsm_raw_set_event_count(&own, event, count))
                                 : answer;
}

/* Takes the handle of a caller that reports a context. */
static idsm_answer take_with_context(idsm_caller *caller, const uint8_t *context, size_t bytes, idsm_word *own)
{
    return idsm_own_is_no_memory(context, bytes) ? IDSM_NULL : idsm_own_take_caller(caller, own);
}

idsm_answer idsm_set_event_context(idsm_caller *caller, uint16_t event, const uint8_t *context, size_t bytes)
{
    idsm_word own;
    idsm_answer answer = take_with_context(caller, context, bytes, &own);
    if (answer == IDSM_DONE) {
        answer = idsm_own_give_after(&caller->at, &own,
                                     idsm_raw_set_event_context(&own, event, idsm_own_some(context), bytes));
    }
    return answer;
}

idsm_answer idsm_set_event_count_context(idsm_caller *caller, uint16_t event, uint16_t count, const uint8_t *context,
                                         size_t bytes)
{
    idsm_word own;
    idsm_answer answer = take_with_context(caller, context, bytes, &own);
    if (answer == IDSM_DONE) {
        answer = idsm_own_give_after(
            &caller->at, &own, idsm_raw_set_event_count_context(&own, event, count, idsm_own_some(context), bytes));
    }
    return answer;
}

idsm_answer idsm_set_event_at(idsm_caller *caller, uint16_t event, uint16_t count, uint64_t stamp,
                              const uint8_t *context, size_t bytes)
{
    idsm_word own;
    idsm_answer answer = take_with_context(caller, context, bytes, &own);
    if (answer == IDSM_DONE) {
        answer = idsm_own_give_after(&caller->at, &own,
                                     idsm_raw_set_event_at(&own, event, count, stamp, idsm_own_some(context), bytes));
    }
    return answer;
}

idsm_answer idsm_set_state(idsm_caller *caller, uint8_t state)
{
    idsm_word own;
    const idsm_answer answer = idsm_own_take_caller(caller, &own);
    return (answer == IDSM_DONE) ? idsm_own_give_after(&caller->at, &own, idsm_raw_set_state(&own, state)) : answer;
}

idsm_answer idsm_set_mode(idsm_caller *caller, uint16_t event, uint8_t mode)
{
    idsm_word own;
    const idsm_answer answer = idsm_own_take_caller(caller, &own);
    return (answer == IDSM_DONE) ? idsm_own_give_after(&caller->at, &own, idsm_raw_set_mode(&own, event, mode))
                                 : answer;
}
