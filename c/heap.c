/* The heap, and the init that takes its memory from it. They are a file of their own, so that a program that calls idsm_init_in
   alone needs no malloc. */
#include "inner.h"

/* Those of stdlib.h, which a compiler without a C library lacks. */
void *malloc(size_t size);
void *realloc(void *at, size_t size);
void free(void *at);

const idsm_heap idsm_own_heap = {malloc, realloc, free};

idsm_answer idsm_init(const idsm_config *config, const idsm_options *options, idsm_caller *callers, size_t count,
                      idsm_manager *manager, idsm_fault *fault)
{
    const idsm_source source = {&idsm_own_heap, NULL, 0U};
    const idsm_making making = idsm_own_tables(config);
    return idsm_own_init(&making, options, &source, callers, count, manager, fault);
}
