/* The pointers that C gives: which of them are none, what is handed on in their place, and what is told by them. */
#include "handles.h"

/* What is handed on for no bytes. */
static uint8_t no_byte;

bool idsm_own_is_no_memory(const void *at, size_t bytes)
{
    return (at == NULL) && (bytes > 0U);
}

const uint8_t *idsm_own_some(const uint8_t *at)
{
    return (at == NULL) ? &no_byte : at;
}

uint8_t *idsm_own_some_room(uint8_t *at)
{
    return (at == NULL) ? &no_byte : at;
}

idsm_answer idsm_own_clear(void *told, size_t bytes)
{
    uint8_t *at = (uint8_t *)told;
    size_t i;
    if (at == NULL) {
        return IDSM_NULL;
    }
    for (i = 0U; i < bytes; i++) {
        at[i] = 0U;
    }
    return IDSM_DONE;
}
