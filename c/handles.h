/* What the files over the proved library share: handles that are taken and given back, the pointers of C, and turns. */
#ifndef IDSM_HANDLES_H
#define IDSM_HANDLES_H

#include "inner.h"

/* Takes what a handle has, or one that has nothing: another answer than IDSM_DONE if that cannot be, and then nothing is
   taken. What was taken is in no other call's hands until it is given back. */
idsm_answer idsm_own_take(void **at, idsm_word *own);
idsm_answer idsm_own_take_unset(void **at);

/* The same with the handle of a caller that is not stopped; with that of a manager; and with that of a manager, and not of a
   caller in its place, which has neither callers nor messages. */
idsm_answer idsm_own_take_caller(idsm_caller *caller, idsm_word *own);
idsm_answer idsm_own_take_manager(idsm_manager *manager, idsm_word *own);
idsm_answer idsm_own_take_with_callers(idsm_manager *manager, idsm_word *own);

/* Gives back what was taken, as a lock is given back: whoever takes it next sees all that was done with it. The second gives
   it back for good, and the third after a call of the proved library, whose answer it passes on. */
void idsm_own_give(void **at, void *has);
void idsm_own_give_closed(void **at);
idsm_answer idsm_own_give_after(void **at, idsm_word *own, idsm_answer answer);

/* Whether a call has the handle in hand. */
bool idsm_own_is_in_call(void **at);

/* How far a manager is: its callers may call, they are stopped, its last turn was made. Beside it in `stopped` is whether it
   is in an arena. Only who has its handle reads and writes it. */
#define IDSM_OWN_RUNNING 0U
#define IDSM_OWN_STOPPED 1U
#define IDSM_OWN_ENDED 2U
#define IDSM_OWN_IN_ARENA 4U
uint32_t idsm_own_state_of(const idsm_manager *manager);

/* Whether there is no such memory: bytes at NULL. */
bool idsm_own_is_no_memory(const void *at, size_t bytes);

/* What is handed on for bytes: some address, also if there are none. */
const uint8_t *idsm_own_some(const uint8_t *at);
uint8_t *idsm_own_some_room(uint8_t *at);

/* Makes what a call tells zeros: whoever is refused is told nothing. */
idsm_answer idsm_own_clear(void *told, size_t bytes);

/* Frees what each of the words has. */
void idsm_own_free_all(idsm_word *words, size_t count);

/* Where the messages of turns go. Without a function they stay in the buffer, and their caller walks them. */
typedef struct idsm_route {
    idsm_send *send;
    void *to;
} idsm_route;

extern const idsm_route idsm_own_nowhere;

/* Offers what is left of the turn before, if there is a function for it. */
idsm_answer idsm_own_offer_rest(idsm_manager *manager, const idsm_route *out);

/* Makes a turn of the manager whose word this is. *sent is written, and the messages are left to be offered, only if it was
   made. */
idsm_answer idsm_own_turn(idsm_manager *manager, idsm_word *own, uint64_t tick, uint8_t *buffer, size_t bytes,
                          const idsm_route *out, idsm_sent *sent);

#endif
