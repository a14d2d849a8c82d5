/* Units of messages, one at a time. */
#include "handles.h"

idsm_answer idsm_unit(uint16_t size, const uint8_t *messages, size_t bytes, uint8_t *unit, size_t room,
                      size_t *unit_bytes, size_t *taken)
{
    uint64_t told = 0U;
    uint64_t took = 0U;
    idsm_answer answer = IDSM_NULL;
    if ((unit_bytes != NULL) && (taken != NULL)) {
        if (!idsm_own_is_no_memory(messages, bytes) && !idsm_own_is_no_memory(unit, room)) {
            answer = idsm_raw_unit(size, idsm_own_some(messages), bytes, idsm_own_some_room(unit), room, &told, &took);
        }
        *unit_bytes = (size_t)told;
        *taken = (size_t)took;
    }
    return answer;
}
