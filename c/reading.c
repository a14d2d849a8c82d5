/* What can be read of a manager, and of a caller, between two turns. */
#include "handles.h"

/* Clears what a reading of a manager tells, and takes its handle. */
static idsm_answer begin_reading(idsm_manager *manager, void *told, size_t bytes, idsm_word *own)
{
    const idsm_answer answer = idsm_own_clear(told, bytes);
    return (answer == IDSM_DONE) ? idsm_own_take_manager(manager, own) : answer;
}

uint32_t idsm_abi(void)
{
    return idsm_raw_abi();
}

uint32_t idsm_sum(const idsm_manager *manager)
{
    return (manager == NULL) ? 0U : manager->sum;
}

idsm_answer idsm_calls(idsm_caller *caller, uint64_t *calls)
{
    idsm_word own;
    idsm_answer answer = idsm_own_clear(calls, sizeof *calls);
    if (answer == IDSM_DONE) {
        answer = idsm_own_take_caller(caller, &own);
    }
    return (answer == IDSM_DONE) ? idsm_own_give_after(&caller->at, &own, idsm_raw_calls(&own, calls)) : answer;
}

idsm_answer idsm_buffer_size(idsm_manager *manager, uint64_t *bytes)
{
    idsm_word own;
    const idsm_answer answer = begin_reading(manager, bytes, sizeof *bytes, &own);
    return (answer == IDSM_DONE) ? idsm_own_give_after(&manager->at, &own, idsm_raw_buffer_size(&own, bytes)) : answer;
}

idsm_answer idsm_rows(idsm_manager *manager, uint64_t *rows)
{
    idsm_word own;
    const idsm_answer answer = begin_reading(manager, rows, sizeof *rows, &own);
    return (answer == IDSM_DONE) ? idsm_own_give_after(&manager->at, &own, idsm_raw_rows(&own, rows)) : answer;
}

idsm_answer idsm_late(idsm_manager *manager, uint8_t class_index, uint64_t *late)
{
    idsm_word own;
    const idsm_answer answer = begin_reading(manager, late, sizeof *late, &own);
    return (answer == IDSM_DONE) ? idsm_own_give_after(&manager->at, &own, idsm_raw_late(&own, class_index, late))
                                 : answer;
}

idsm_answer idsm_read_status(idsm_manager *manager, idsm_status *status)
{
    idsm_word own;
    const idsm_answer answer = begin_reading(manager, status, sizeof *status, &own);
    return (answer == IDSM_DONE) ? idsm_own_give_after(&manager->at, &own, idsm_raw_status(&own, status)) : answer;
}

idsm_answer idsm_mode(idsm_manager *manager, uint16_t event, uint8_t *mode)
{
    idsm_word own;
    const idsm_answer answer = begin_reading(manager, mode, sizeof *mode, &own);
    return (answer == IDSM_DONE) ? idsm_own_give_after(&manager->at, &own, idsm_raw_mode(&own, event, mode)) : answer;
}

idsm_answer idsm_journal(idsm_manager *manager, size_t at, uint8_t *buffer, size_t size, size_t *bytes)
{
    idsm_word own;
    uint64_t number = 0U;
    idsm_answer answer;
    if (idsm_own_is_no_memory(buffer, size)) {
        return IDSM_NULL;
    }
    answer = begin_reading(manager, bytes, sizeof *bytes, &own);
    if (answer == IDSM_DONE) {
        answer = idsm_own_give_after(&manager->at, &own,
                                     idsm_raw_journal(&own, at, idsm_own_some_room(buffer), size, &number));
        *bytes = (size_t)number;
    }
    return answer;
}

idsm_answer idsm_row_at(idsm_manager *manager, uint16_t i, uint8_t *context, size_t bytes, idsm_row *row)
{
    idsm_word own;
    idsm_answer answer;
    if (idsm_own_is_no_memory(context, bytes)) {
        return IDSM_NULL;
    }
    answer = begin_reading(manager, row, sizeof *row, &own);
    if (answer == IDSM_DONE) {
        answer =
            idsm_own_give_after(&manager->at, &own, idsm_raw_row_at(&own, i, idsm_own_some_room(context), bytes, row));
    }
    return answer;
}

/* All records of the manager whose word this is. */
static idsm_answer all_rows(idsm_word *own, idsm_row *rows, size_t most, uint8_t *contexts, size_t each, size_t *count)
{
    uint64_t there = 0U;
    uint16_t i;
    idsm_answer answer = idsm_raw_rows(own, &there);
    if (answer != IDSM_DONE) {
        return answer;
    }
    *count = (size_t)there;
    if (there > most) {
        return IDSM_SMALL_BUFFER;
    }
    for (i = 0U; (i < there) && (answer == IDSM_DONE); i++) {
        uint8_t *context = (each == 0U) ? NULL : &contexts[(size_t)i * each];
        answer = idsm_raw_row_at(own, i, idsm_own_some_room(context), each, &rows[i]);
    }
    return answer;
}

idsm_answer idsm_snapshot(idsm_manager *manager, idsm_row *rows, size_t most, uint8_t *contexts, size_t each,
                          size_t *count)
{
    idsm_word own;
    idsm_answer answer;
    if (idsm_own_is_no_memory(rows, most) || idsm_own_is_no_memory(contexts, each)) {
        return IDSM_NULL;
    }
    answer = begin_reading(manager, count, sizeof *count, &own);
    if (answer == IDSM_DONE) {
        answer = idsm_own_give_after(&manager->at, &own, all_rows(&own, rows, most, contexts, each, count));
    }
    return answer;
}
