/* The init of a configuration's text. It is a file of its own, so that a program without it has no reader of JSON. */
#include "inner.h"

typedef struct idsm_text {
    const uint8_t *bytes;
    size_t count;
} idsm_text;

static idsm_answer fill_of_text(const void *from, uint8_t journal, idsm_word *callers, size_t count,
                                idsm_word *manager, idsm_fault *fault)
{
    const idsm_text *text = (const idsm_text *)from;
    return idsm_raw_init(text->bytes, text->count, journal, callers, count, manager, fault);
}

idsm_answer idsm_init_text(const uint8_t *text, size_t bytes, const idsm_options *options, idsm_caller *callers,
                           size_t count, idsm_manager *manager, idsm_fault *fault)
{
    static const uint8_t no_byte = 0U;
    const idsm_source source = {&idsm_own_heap, NULL, 0U};
    const idsm_text of = {(text == NULL) ? &no_byte : text, bytes};
    const idsm_making making = {fill_of_text, ((text == NULL) && (bytes > 0U)) ? NULL : &of, 0U};
    return idsm_own_init(&making, options, &source, callers, count, manager, fault);
}
