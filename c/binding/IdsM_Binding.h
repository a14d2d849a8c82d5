/* How IdsM.c reaches the unit that it runs in: an example, over three functions of the unit. Copy it and change it.

     IDSM_CALLER()               the idsm_caller * of the task or interrupt level that runs, as &IdsM_Unit.callers[0]
     IDSM_TICK()                 the tick, which never falls
     IDSM_SEND(message, length)  0 if the message was taken; else it is offered again, before the next turn is made

   These may be defined besides:

     IDSM_STAMP_NOW()  the timestamp of a report that has none of its own, as IDSM_STAMP(seconds, nanoseconds)
     IDSM_JOURNAL      1: idsm_journal gives the lines of each turn. idsm_stop, idsm_last_send and idsm_free then take the
                       place of IdsM_DeInit, which frees the lines of its last turn
     IDSM_ARENA        1: IdsM_Init makes the manager in a static array of IdsM.c, so no heap is needed
     IDSM_VENDOR_ID, IDSM_MODULE_ID  what IdsM_GetVersionInfo tells */
#ifndef IDSM_BINDING_H
#define IDSM_BINDING_H

#include "IdsM.h"

#ifdef __cplusplus
extern "C" {
#endif

idsm_caller *unit_caller(void);
uint64_t unit_tick(void);
int unit_send(const uint8_t *message, size_t length);

#ifdef __cplusplus
}
#endif

#define IDSM_CALLER() unit_caller()
#define IDSM_TICK() unit_tick()
#define IDSM_SEND(message, length) unit_send((message), (length))

#endif
