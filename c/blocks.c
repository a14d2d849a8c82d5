/* The three calls of memory of c/arena.c by themselves: alignment, exhaustion to the byte, what is freed is used again, a block
   that grows, and a heap beside an arena. */
#include "inner.h"

#include <stdio.h>
#include <string.h>

enum { BYTES = 1024, HEAD = 8, HEAP = 64 };

static _Alignas(16) uint8_t arena[BYTES + 16];

/* The one block of the heap, right behind an arena that is so much shorter. */
static uint8_t *const heap_bytes = arena + BYTES - HEAP;

static int failures, heap_calls;
static size_t heap_size;

static void expect(const char *what, size_t wanted, size_t got)
{
    if (wanted != got) {
        printf("%s: %zu and not %zu\n", what, got, wanted);
        failures++;
    }
}

static void *heap_take(size_t size)
{
    heap_calls++;
    heap_size = size;
    return size <= HEAP ? heap_bytes : NULL;
}

static void *heap_resize(void *at, size_t size)
{
    expect("what the heap resizes", 1, at == heap_bytes);
    return heap_take(size);
}

static void heap_give(void *at)
{
    expect("what the heap is given", 1, at == heap_bytes);
    heap_calls++;
}

static const idsm_heap heap = {heap_take, heap_resize, heap_give};
static const idsm_source of_heap = {&heap, NULL, 0};

/* The place of a block of the arena; BYTES where none is given, which is told of no place that is NULL. */
static size_t place_of(idsm_block block)
{
    expect("a place that is not NULL", 1, block.at != NULL);
    if (!block.ok)
        return BYTES;
    expect("a place that is aligned", 0, (uintptr_t)block.at % 16);
    return (size_t)((uint8_t *)block.at - arena);
}

static size_t taken(size_t size)
{
    return place_of(rattle_alloc(size, 1));
}

static void give(size_t place)
{
    rattle_dealloc(arena + place);
}

static void open_arena(size_t bytes)
{
    const idsm_source source = {NULL, arena, bytes};
    memset(arena, 0xa5, sizeof arena);
    expect("an arena to fill", IDSM_DONE, idsm_own_open(&source));
}

static void shut_arena(size_t bytes)
{
    const idsm_source source = {NULL, arena, bytes};
    idsm_own_shut(&source);
    for (size_t i = bytes; i < sizeof arena; i++)
        expect("a byte behind the arena", 0xa5, arena[i]);
}

/* One block of each size in an arena of as many bytes as it needs, and none in a byte less. */
static void sizes(void)
{
    for (size_t size = 1; size < 100; size++) {
        size_t bytes = HEAD + (size + HEAD + 15) / 16 * 16;
        open_arena(bytes);
        expect("a block in an arena that is long enough", 16, taken(size));
        memset(arena + 16, 0xff, size);
        expect("a block in a full arena", BYTES, taken(1));
        give(16);
        expect("the block again", 16, taken(size));
        shut_arena(bytes);
        open_arena(bytes - 1);
        expect("a block in an arena of a byte less", BYTES, taken(size));
        shut_arena(bytes - 1);
    }
    for (size_t bytes = 0; bytes < HEAD + 16; bytes++) {
        open_arena(bytes);
        expect("a block in no room", BYTES, taken(1));
        shut_arena(bytes);
    }
}

/* What is freed is used again: the first that is long enough, with what is free behind it. */
static void places(void)
{
    open_arena(BYTES);
    for (size_t i = 0; i < 4; i++)
        expect("block after block", 16 + 32 * i, taken(24));
    give(16 + 64);
    expect("a block that is too long for what is free", 16 + 128, taken(25));
    expect("one that is as long", 80, taken(24));
    give(80);
    give(16);
    expect("the first that is free", 16, taken(8));
    expect("what that one left", 32, taken(8));
    expect("the next", 80, taken(24));
    give(80);
    give(48);
    expect("two in one", 48, taken(56));
    give(16 + 96);
    give(16 + 128);
    expect("the rest", 112, taken(BYTES - 112 - 8));
    expect("nothing", BYTES, taken(1));
    shut_arena(BYTES);
}

/* A block that grows takes its bytes along; one that does not stays, and so does one for which there is no room. */
static void resizes(void)
{
    open_arena(BYTES);
    expect("a block", 16, taken(24));
    expect("another one", 48, taken(8));
    memcpy(arena + 16, "twenty-four bytes of it", 24);
    expect("a block that shrinks", 16, place_of(rattle_realloc(arena + 16, 24, 8, 1)));
    expect("one that stays", 16, place_of(rattle_realloc(arena + 16, 8, 24, 1)));
    expect("one that grows", 64, place_of(rattle_realloc(arena + 16, 24, 25, 1)));
    expect("its bytes", 0, (size_t)memcmp(arena + 64, "twenty-four bytes of it", 24) != 0);
    expect("where it was", 16, taken(24));
    expect("one that grows too far", BYTES, place_of(rattle_realloc(arena + 64, 25, BYTES, 1)));
    expect("its bytes", 0, (size_t)memcmp(arena + 64, "twenty-four bytes of it", 24) != 0);
    expect("more than there is", BYTES, taken(SIZE_MAX));
    expect("almost as much", BYTES, taken(SIZE_MAX - 24));
    expect("an alignment that is too large", BYTES, place_of(rattle_alloc(8, 32)));
    expect("no byte", 112, taken(0));
    shut_arena(BYTES);
}

/* A heap beside an arena: a block goes where it came from, and no other init is under way. */
static void beside(void)
{
    const idsm_source other = {NULL, arena, BYTES - HEAP};
    expect("memory before there is a heap", 0, rattle_alloc(8, 8).ok);
    expect("an init from the heap", IDSM_DONE, idsm_own_open(&of_heap));
    expect("another one", IDSM_DONE, idsm_own_open(&of_heap));
    expect("an arena meanwhile", IDSM_BUSY, idsm_own_open(&other));
    idsm_own_shut(&of_heap);
    expect("an arena while one is left", IDSM_BUSY, idsm_own_open(&other));
    expect("a block of the heap", 1, rattle_alloc(8, 8).at == heap_bytes);
    expect("one of no bytes", 1, rattle_alloc(0, 8).ok);
    expect("what it asks for", 8, heap_size);
    expect("one that shrinks to none", 1, rattle_realloc(heap_bytes, 8, 0, 4).ok);
    expect("what that asks for", 4, heap_size);
    expect("one that grows", 1, rattle_realloc(heap_bytes, 8, 64, 8).at == heap_bytes);
    expect("one that grows too far", 0, rattle_realloc(heap_bytes, 64, 65, 8).ok);
    idsm_own_shut(&of_heap);
    open_arena(BYTES - HEAP);
    expect("another arena", IDSM_BUSY, idsm_own_open(&other));
    expect("a heap meanwhile", IDSM_BUSY, idsm_own_open(&of_heap));
    expect("a block of the arena", 16, taken(8));
    expect("calls of the heap", 5, (size_t)heap_calls);
    rattle_dealloc(heap_bytes);
    expect("a block of the heap that is freed", 6, (size_t)heap_calls);
    give(16);
    expect("one of the arena", 6, (size_t)heap_calls);
    shut_arena(BYTES - HEAP);
    expect("the heap again", IDSM_DONE, idsm_own_open(&of_heap));
    idsm_own_shut(&of_heap);
}

int main(void)
{
    beside();
    sizes();
    places();
    resizes();
    return failures == 0 ? 0 : 1;
}
