/* Messages sealed under a key. What is kept of a key and its counter is the integrator's, so there is no handle to take. */
#include "handles.h"

idsm_answer idsm_sealer_init(idsm_sealer *sealer, const uint8_t *key, size_t bytes, uint64_t start)
{
    const bool is_null = (sealer == NULL) || idsm_own_is_no_memory(key, bytes);
    return is_null ? IDSM_NULL : idsm_raw_sealer(idsm_own_some(key), bytes, start, sealer);
}

idsm_answer idsm_seal(idsm_sealer *sealer, const uint8_t *messages, size_t bytes, uint8_t *out, size_t room,
                      size_t *written)
{
    uint64_t told = 0U;
    idsm_answer answer = IDSM_NULL;
    if (written != NULL) {
        if ((sealer != NULL) && !idsm_own_is_no_memory(messages, bytes) && !idsm_own_is_no_memory(out, room)) {
            answer = idsm_raw_seal(sealer, idsm_own_some(messages), bytes, idsm_own_some_room(out), room, &told);
        }
        *written = (size_t)told;
    }
    return answer;
}
