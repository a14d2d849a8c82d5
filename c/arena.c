/* The three calls of memory below the proved library: from the heap, or while idsm_init_in runs, from its arena.

   Only an init takes memory. What it frees on its way, as a list that grew, is used again by what comes later: each block
   is put into the first free one that is long enough. So where a block is follows from what was asked for before it, not
   from how long the arena is, and an arena that is long enough stays so if it grows. A manager and callers of an arena are
   never freed block by block: the arena is given back as a whole (c/closing.c). So a block of an arena is freed only while
   that arena is filled, by who fills it. */
#include "inner.h"

/* A block begins with its bytes, a multiple of 16. What is put into it stands after them, aligned to 16; in a free one it is
   the next free one, in the order of their places. No two free ones stand side by side. */
typedef struct block {
    uint64_t bytes;
    struct block *next;
} block;

#define HEAD 8U

/* Inits under way: how many take from the heap, and how often one began or ceased to fill an arena, in steps of FILLS. So
   FILLS is in it while one is filled. */
#define FILLS ((uint32_t)1U << 16U)
static uint32_t inits;

/* The arena that is filled, from 0 to 0 if none is, and its first free block. */
static uintptr_t begin;
static uintptr_t end;
static block *unused;

/* The heap of all managers that are in one. */
static const idsm_heap *heap;

/* Makes one free block of an arena: all but what aligns it. */
static void begin_filling(char *arena, size_t bytes)
{
    const size_t steps = (bytes < HEAD) ? 0U : ((bytes - HEAD) / IDSM_OWN_ALIGNED);
    const size_t room = steps * IDSM_OWN_ALIGNED;
    unused = NULL;
    if (room > 0U) {
        unused = (block *)(void *)&arena[HEAD];
        unused->bytes = room;
        unused->next = NULL;
    }
    IDSM_STORE(&begin, (uintptr_t)arena);
    IDSM_STORE(&end, (uintptr_t)arena + bytes);
}

static void end_filling(void)
{
    IDSM_STORE(&end, (uintptr_t)0);
    IDSM_STORE(&begin, (uintptr_t)0);
}

/* Adds to the inits under way, if none of these others is. */
static idsm_answer add_inits(uint32_t others, uint32_t step)
{
    uint32_t now = IDSM_LOAD(&inits);
    do {
        if ((now & others) != 0U) {
            return IDSM_BUSY;
        }
    } while (!IDSM_SWAP(&inits, &now, now + step));
    return IDSM_DONE;
}

idsm_answer idsm_own_open(const idsm_source *source)
{
    const bool is_of_heap = (source->heap != NULL);
    const idsm_answer answer = is_of_heap ? add_inits(FILLS, 1U) : add_inits((2U * FILLS) - 1U, FILLS);
    if (answer == IDSM_DONE) {
        if (is_of_heap) {
            IDSM_STORE(&heap, source->heap);
        } else {
            begin_filling((char *)source->arena, source->bytes);
        }
    }
    return answer;
}

void idsm_own_shut(const idsm_source *source)
{
    if (source->heap != NULL) {
        (void)add_inits(0U, UINT32_MAX);
    } else {
        end_filling();
        (void)add_inits(0U, FILLS);
    }
}

/* Whether an arena is filled. Whoever takes memory meanwhile is who fills it, since no other init is under way. */
static bool is_filling(void)
{
    return (IDSM_LOAD(&inits) & FILLS) != 0U;
}

/* Whether a block is of the arena that is filled. Others may free blocks of the heap meanwhile, and see one arena follow
   another while they look: who fills an arena sees none come or go. */
static bool is_of_arena(const void *at)
{
    const uint32_t before = IDSM_LOAD(&inits);
    const uintptr_t to = IDSM_LOAD(&end);
    const uintptr_t from = IDSM_LOAD(&begin);
    const uint32_t after = IDSM_LOAD(&inits);
    const uintptr_t place = (uintptr_t)(const char *)at;
    const bool is_inside = (place >= from) && (place < to);
    return is_inside && ((before & FILLS) != 0U) && (after == before);
}

static block *block_of(void *at)
{
    return (block *)(void *)((char *)at - HEAD);
}

/* Cuts a block, if it is longer than so many bytes, and returns what is cut off; else the free one after it. */
static block *cut(block *one, size_t bytes)
{
    block *rest = one->next;
    if (one->bytes > bytes) {
        rest = (block *)(void *)&((char *)one)[bytes];
        rest->bytes = one->bytes - bytes;
        rest->next = one->next;
        one->bytes = bytes;
    }
    return rest;
}

/* The first free block that is long enough; its rest stays free. */
static void *take_block(size_t size)
{
    block **at = &unused;
    block *found;
    size_t bytes;
    if (size > (SIZE_MAX - HEAD - IDSM_OWN_ALIGNED)) {
        return NULL;
    }
    bytes = ((size + HEAD + IDSM_OWN_ALIGNED - 1U) / IDSM_OWN_ALIGNED) * IDSM_OWN_ALIGNED;
    while ((*at != NULL) && ((*at)->bytes < bytes)) {
        at = &(*at)->next;
    }
    found = *at;
    if (found == NULL) {
        return NULL;
    }
    *at = cut(found, bytes);
    return &((char *)found)[HEAD];
}

/* Makes one block of two that stand side by side. */
static void join(block *one)
{
    if (&((char *)one)[one->bytes] == (char *)one->next) {
        one->bytes += one->next->bytes;
        one->next = one->next->next;
    }
}

static void give_block(void *at)
{
    block *given = block_of(at);
    block *before = NULL;
    block **link = &unused;
    while ((*link != NULL) && ((uintptr_t)*link < (uintptr_t)given)) {
        before = *link;
        link = &before->next;
    }
    given->next = *link;
    *link = given;
    join(given);
    if (before != NULL) {
        join(before);
    }
}

/* A block that is long enough stays where it is. */
static void *resize_block(void *at, size_t size)
{
    const size_t old = block_of(at)->bytes - HEAD;
    char *to;
    size_t i;
    if (size <= old) {
        return at;
    }
    to = (char *)take_block(size);
    if (to == NULL) {
        return NULL;
    }
    for (i = 0U; i < old; i++) {
        to[i] = ((const char *)at)[i];
    }
    give_block(at);
    return to;
}

static const idsm_heap *own_heap(void)
{
    return IDSM_LOAD(&heap);
}

/* What is told of memory that was taken, or was not: then it points to nothing of use. */
static idsm_block told(void *at)
{
    static char nothing[IDSM_OWN_ALIGNED];
    const idsm_block given = {at != NULL, (at != NULL) ? at : nothing};
    return given;
}

idsm_block rattle_alloc(size_t size, size_t align)
{
    const size_t wanted = (size > 0U) ? size : align;
    if (align > IDSM_OWN_ALIGNED) {
        return told(NULL);
    }
    if (is_filling()) {
        return told(take_block(wanted));
    }
    return told((own_heap() == NULL) ? NULL : own_heap()->take(wanted));
}

idsm_block rattle_realloc(void *at, size_t kept, size_t size, size_t align)
{
    const size_t wanted = (size > 0U) ? size : align;
    (void)kept;
    if (align > IDSM_OWN_ALIGNED) {
        return told(NULL);
    }
    return told(is_of_arena(at) ? resize_block(at, wanted) : own_heap()->resize(at, wanted));
}

void rattle_dealloc(void *at)
{
    if (is_of_arena(at)) {
        give_block(at);
    } else {
        own_heap()->give(at);
    }
}
