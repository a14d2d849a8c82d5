/* Handles that are taken and given back. Each call takes its handle by an atomic step, so that a second call on it meanwhile is
   answered. The toolchain lets no atomic word cross to C, so this part is C. */
#include "handles.h"

/* What a handle has while a call works with it, and after its manager was closed: the addresses of nothing else. They
   are of one object, since a compiler may make one object of two constants. */
static char marks[2];
#define IN_CALL ((void *)&marks[0])
#define CLOSED ((void *)&marks[1])

idsm_answer idsm_own_take(void **at, idsm_word *own)
{
    void *has = IDSM_LOAD(at);
    do {
        if (has == NULL) {
            return IDSM_UNSET;
        }
        if (has == IN_CALL) {
            return IDSM_BUSY;
        }
        if (has == CLOSED) {
            return IDSM_CLOSED;
        }
    } while (!IDSM_SWAP(at, &has, IN_CALL));
    own->at = has;
    return IDSM_DONE;
}

idsm_answer idsm_own_take_unset(void **at)
{
    void *has = NULL;
    const bool is_taken = IDSM_SWAP(at, &has, IN_CALL);
    if (is_taken) {
        return IDSM_DONE;
    }
    if (has == IN_CALL) {
        return IDSM_BUSY;
    }
    return (has == CLOSED) ? IDSM_CLOSED : IDSM_OCCUPIED;
}

void idsm_own_give(void **at, void *has)
{
    IDSM_STORE(at, has);
}

void idsm_own_give_closed(void **at)
{
    idsm_own_give(at, CLOSED);
}

idsm_answer idsm_own_give_after(void **at, idsm_word *own, idsm_answer answer)
{
    idsm_own_give(at, own->at);
    return answer;
}

bool idsm_own_is_in_call(void **at)
{
    return IDSM_LOAD(at) == IN_CALL;
}

/* A stop marks each caller and then looks at its handle; this takes the
   handle and then looks at the mark. All four steps are in one order, so one of the two sees the other. A stopped caller's
   handle is left alone by calls that begin later: so whoever wants all handles has them soon. */
idsm_answer idsm_own_take_caller(idsm_caller *caller, idsm_word *own)
{
    idsm_answer answer;
    if (caller == NULL) {
        return IDSM_NULL;
    }
    if (IDSM_LOAD(&caller->stopped) != 0U) {
        return IDSM_CLOSED;
    }
    answer = idsm_own_take(&caller->at, own);
    if (IDSM_LOAD(&caller->stopped) == 0U) {
        return answer;
    }
    if (answer == IDSM_DONE) {
        idsm_own_give(&caller->at, own->at);
    }
    return ((answer == IDSM_DONE) || (answer == IDSM_BUSY)) ? IDSM_CLOSED : answer;
}

idsm_answer idsm_own_take_manager(idsm_manager *manager, idsm_word *own)
{
    return (manager == NULL) ? IDSM_NULL : idsm_own_take(&manager->at, own);
}

idsm_answer idsm_own_take_with_callers(idsm_manager *manager, idsm_word *own)
{
    uint64_t room = 0U;
    idsm_answer answer = idsm_own_take_manager(manager, own);
    if (answer == IDSM_DONE) {
        answer = idsm_raw_buffer_size(own, &room);
        if (answer != IDSM_DONE) {
            idsm_own_give(&manager->at, own->at);
        }
    }
    return answer;
}

uint32_t idsm_own_state_of(const idsm_manager *manager)
{
    return manager->stopped & ~IDSM_OWN_IN_ARENA;
}
