/* The messages of a turn, one by one. */
#include "handles.h"

/* How long a message is without its signature, by its first bytes (docs/FORMATS.md), of which there is one; 0 if they end too
   soon to tell or begin no message. */
static size_t plain_length(const uint8_t *at, size_t bytes)
{
    const uint8_t version = (uint8_t)(at[0] >> 4U);
    size_t length = 8U;
    if (((version != 1U) && (version != 2U)) || ((at[0] & 15U) > 7U)) {
        return 0U;
    }
    if ((at[0] & 2U) != 0U) {
        length = 16U;
    }
    if ((at[0] & 1U) == 0U) {
        return length;
    }
    if (bytes <= length) {
        return 0U;
    }
    if (at[length] < 128U) {
        return length + 1U + at[length];
    }
    if (bytes < (length + 4U)) {
        return 0U;
    }
    return length + 4U +
           (((size_t)(at[length] & 127U) << 24U) | ((size_t)at[length + 1U] << 16U) | ((size_t)at[length + 2U] << 8U) |
            at[length + 3U]);
}

/* The same with its signature. */
static size_t message_length(const uint8_t *at, size_t bytes)
{
    const size_t length = plain_length(at, bytes);
    if ((length == 0U) || ((at[0] & 4U) == 0U)) {
        return length;
    }
    return (bytes < (length + 2U)) ? 0U : (length + 2U + (((size_t)at[length] << 8U) | at[length + 1U]));
}

idsm_answer idsm_message(const uint8_t *messages, size_t bytes, size_t at, size_t *length)
{
    size_t found;
    if ((length == NULL) || idsm_own_is_no_memory(messages, bytes)) {
        return IDSM_NULL;
    }
    *length = 0U;
    if (at >= bytes) {
        return IDSM_OUT_OF_RANGE;
    }
    found = message_length(&messages[at], bytes - at);
    if ((found == 0U) || (found > (bytes - at))) {
        return IDSM_OUT_OF_RANGE;
    }
    *length = found;
    return IDSM_DONE;
}
