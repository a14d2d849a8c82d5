/* What the files of the library share. It is not for its users. */
#ifndef IDSM_INNER_H
#define IDSM_INNER_H

#include "idsm_c.h"

#include <stdbool.h>

/* The three atomic steps, on a pointer or a number: a load and a compare-and-swap that are sequentially consistent, and a store
   that releases what was written before it. The swap has the arguments and the result of __atomic_compare_exchange_n. Another
   compiler than GCC and Clang defines its own by -D or by a header that is included first. */
#ifndef IDSM_LOAD
#define IDSM_LOAD(at) __atomic_load_n((at), __ATOMIC_SEQ_CST)
#endif
#ifndef IDSM_STORE
#define IDSM_STORE(at, value) __atomic_store_n((at), (value), __ATOMIC_RELEASE)
#endif
#ifndef IDSM_SWAP
#define IDSM_SWAP(at, was, value) \
    __atomic_compare_exchange_n((at), (was), (value), 0, __ATOMIC_SEQ_CST, __ATOMIC_SEQ_CST)
#endif

/* What a block of memory is aligned to. */
#define IDSM_OWN_ALIGNED 16U

/* The calls of a heap. */
typedef struct idsm_heap {
    void *(*take)(size_t size);
    void *(*resize)(void *at, size_t size);
    void (*give)(void *at);
} idsm_heap;

/* Where an init takes its memory: from a heap, or if there is none, from an arena. */
typedef struct idsm_source {
    const idsm_heap *heap;
    void *arena;
    size_t bytes;
} idsm_source;

/* Begins an init that takes memory from there, and ends it. IDSM_BUSY if another one fills an arena, or if this one is to
   fill one and another init is under way. */
idsm_answer idsm_own_open(const idsm_source *source);
void idsm_own_shut(const idsm_source *source);

/* malloc, realloc and free. */
extern const idsm_heap idsm_own_heap;

/* What a caller or a manager owns, or NULL; no other call has it. */
typedef struct idsm_word {
    void *at;
} idsm_word;

/* What handles are filled with, and how: `fill` makes them of `from`. */
typedef struct idsm_making {
    idsm_answer (*fill)(const void *from, uint8_t journal, idsm_word *callers, size_t count, idsm_word *manager,
                        idsm_fault *fault);
    const void *from;
    uint32_t sum;
} idsm_making;

/* The init, whatever the manager is made of and takes its memory from; and what it is made of if that is tables. `from`
   of the making is NULL if there are none: that is IDSM_NULL. */
idsm_answer idsm_own_init(const idsm_making *making, const idsm_options *options, const idsm_source *source,
                          idsm_caller *callers, size_t count, idsm_manager *manager, idsm_fault *fault);
idsm_making idsm_own_tables(const idsm_config *config);

/* The proved library (crates/idsm_c). No pointer that it is given is NULL. */
uint32_t idsm_raw_abi(void);
uint8_t idsm_raw_init(const uint8_t *text, size_t bytes, uint8_t journal, idsm_word *callers, size_t count,
                      idsm_word *manager, idsm_fault *fault);
uint8_t idsm_raw_init_tables(const idsm_top *top, const idsm_class *classes, size_t class_count,
                             const idsm_event *events, size_t event_count, uint8_t journal, idsm_word *callers,
                             size_t count, idsm_word *manager, idsm_fault *fault);
uint8_t idsm_raw_set_event(idsm_word *caller, uint16_t event);
uint8_t idsm_raw_set_event_count(idsm_word *caller, uint16_t event, uint16_t count);
uint8_t idsm_raw_set_event_context(idsm_word *caller, uint16_t event, const uint8_t *context, size_t bytes);
uint8_t idsm_raw_set_event_count_context(idsm_word *caller, uint16_t event, uint16_t count, const uint8_t *context,
                                         size_t bytes);
uint8_t idsm_raw_set_event_at(idsm_word *caller, uint16_t event, uint16_t count, uint64_t stamp,
                              const uint8_t *context, size_t bytes);
uint8_t idsm_raw_set_state(idsm_word *caller, uint8_t state);
uint8_t idsm_raw_set_mode(idsm_word *caller, uint16_t event, uint8_t mode);
uint8_t idsm_raw_calls(idsm_word *caller, uint64_t *calls);
uint8_t idsm_raw_buffer_size(idsm_word *manager, uint64_t *bytes);
uint8_t idsm_raw_main(idsm_word *manager, uint64_t tick, uint8_t *buffer, size_t bytes, idsm_sent *sent);
uint8_t idsm_raw_rows(idsm_word *manager, uint64_t *rows);
uint8_t idsm_raw_row_at(idsm_word *manager, uint16_t i, uint8_t *context, size_t bytes, idsm_row *row);
uint8_t idsm_raw_late(idsm_word *manager, uint8_t class_index, uint64_t *late);
uint8_t idsm_raw_status(idsm_word *manager, idsm_status *status);
uint8_t idsm_raw_totals(idsm_word *manager, idsm_totals *totals);
uint8_t idsm_raw_mode(idsm_word *manager, uint16_t event, uint8_t *mode);
uint8_t idsm_raw_journal(idsm_word *manager, uint64_t at, uint8_t *buffer, size_t size, uint64_t *bytes);
uint8_t idsm_raw_close(idsm_word *handle);
uint8_t idsm_raw_unit(uint16_t size, const uint8_t *messages, size_t bytes, uint8_t *buffer, size_t room,
                      uint64_t *unit_bytes, uint64_t *taken);
uint8_t idsm_raw_sealer(const uint8_t *key, size_t bytes, uint64_t start, idsm_sealer *sealer);
uint8_t idsm_raw_seal(idsm_sealer *sealer, const uint8_t *messages, size_t bytes, uint8_t *buffer, size_t room,
                      uint64_t *told);

/* The calls that the proved library makes for memory. `at` is never NULL, and counts if `ok` is 1. */
typedef struct idsm_block {
    bool ok;
    void *at;
} idsm_block;

idsm_block rattle_alloc(size_t size, size_t align);
idsm_block rattle_realloc(void *at, size_t kept, size_t size, size_t align);
void rattle_dealloc(void *at);

#endif
