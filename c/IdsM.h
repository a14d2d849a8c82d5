/* The calls of idsm_c.h by the names of the AUTOSAR module IdsM, as external functions over the configuration of IdsM_Cfg.h,
   which tools/c_config makes. c/README.md has a table of what is here. It needs nothing defined before it, and knows nothing
   of the configuration: an event is named by its configured id, as IDSM_EVENT_42 of IdsM_Cfg.h. c/IdsM.c has the functions,
   and is compiled once, with IdsM_Cfg.h and IdsM_Binding.h of the unit (c/binding has an example).

   Where nothing else is said here, the answers, contexts, time and stack are those of the call of idsm_c.h that is named. */
#ifndef IDSM_AUTOSAR_H
#define IDSM_AUTOSAR_H

#include "idsm_c.h"

#ifdef __cplusplus
extern "C" {
#endif

/* E_OK is IDSM_DONE; the other answers are those of idsm_c.h. */
typedef idsm_answer IdsM_ReturnType;
typedef uint16_t IdsM_SecurityEventIdType;
typedef idsm_config IdsM_ConfigType;

#ifndef IDSM_VERSION_INFO_TYPE
typedef struct IdsM_VersionInfoType {
    uint16_t vendorID;        /* IDSM_VENDOR_ID of the binding; 0 if there is none */
    uint16_t moduleID;        /* IDSM_MODULE_ID of the binding; 0 if there is none */
    uint8_t sw_major_version; /* IDSM_ABI */
    uint8_t sw_minor_version; /* 0 */
    uint8_t sw_patch_version; /* 0 */
} IdsM_VersionInfoType;
#define IDSM_VERSION_INFO_TYPE IdsM_VersionInfoType
#endif

/* What the module keeps beside the buffer for messages. Zeros before IdsM_Init; its handles are never copied or moved. */
typedef struct IdsM_UnitType {
    idsm_manager manager;                   /* the handle of the manager, for the readings of idsm_c.h */
    idsm_fault fault;                       /* of the configuration, after IdsM_Init answered IDSM_CONFIGURATION */
    idsm_sent sent;                         /* what the last turn did */
    idsm_caller callers[IDSM_MOST_CALLERS]; /* the handles of the callers: as many as IDSM_CFG_CALLERS are filled */
} IdsM_UnitType;

extern IdsM_UnitType IdsM_Unit;

/* Makes callers and manager of IdsM_Config: idsm_init_in if the binding has IDSM_ARENA 1, else idsm_init. NULL and
   &IdsM_Config are the same. IDSM_OTHER_CONFIGURATION: it is another one, or IdsM_Cfg.c is not of the IdsM_Cfg.h that IdsM.c
   was compiled with. IDSM_OUT_OF_RANGE: the library has another IDSM_ABI. From a task, before all else. */
IdsM_ReturnType IdsM_Init(const IdsM_ConfigType *config);

/* Tells the version of this interface. IDSM_NULL: there is nothing to tell it to. From any context. */
IdsM_ReturnType IdsM_GetVersionInfo(IDSM_VERSION_INFO_TYPE *info);

/* Makes a turn with IDSM_TICK() and gives its messages to IDSM_SEND: idsm_main_send. IDSM_NOT_SENT: messages of an earlier turn
   were refused again, and no turn was made; call it again. From a task; a second one meanwhile is answered IDSM_BUSY. */
IdsM_ReturnType IdsM_MainFunction(void);

/* Stops the callers, makes a last turn, gives its messages to IDSM_SEND, and frees all: idsm_close_send. IDSM_BUSY: a call is
   still under way; IDSM_NOT_SENT: messages were refused; call it again in both cases. From a task. */
IdsM_ReturnType IdsM_DeInit(idsm_totals *totals);

/* Reports, by the caller that IDSM_CALLER() returns: idsm_set_event and so on. IDSM_UNKNOWN_EVENT: no event, or more than
   one, has the id. What has no timestamp gets IDSM_STAMP_NOW(), if the binding has that. */
IdsM_ReturnType IdsM_SetSecurityEvent(IdsM_SecurityEventIdType id);
IdsM_ReturnType IdsM_SetSecurityEventWithCount(IdsM_SecurityEventIdType id, uint16_t count);
IdsM_ReturnType IdsM_SetSecurityEventWithContextData(IdsM_SecurityEventIdType id, const uint8_t *context, uint16_t bytes);
IdsM_ReturnType IdsM_SetSecurityEventWithCountContextData(IdsM_SecurityEventIdType id, const uint8_t *context,
                                                          uint16_t bytes, uint16_t count);
IdsM_ReturnType IdsM_SetSecurityEventWithTimestamp(IdsM_SecurityEventIdType id, uint64_t stamp);
IdsM_ReturnType IdsM_SetSecurityEventWithTimestampCount(IdsM_SecurityEventIdType id, uint64_t stamp, uint16_t count);
IdsM_ReturnType IdsM_SetSecurityEventWithTimestampContextData(IdsM_SecurityEventIdType id, uint64_t stamp,
                                                              const uint8_t *context, uint16_t bytes);
IdsM_ReturnType IdsM_SetSecurityEventWithTimestampCountContextData(IdsM_SecurityEventIdType id, uint64_t stamp,
                                                                   const uint8_t *context, uint16_t bytes,
                                                                   uint16_t count);

/* Controls, by the caller that IDSM_CALLER() returns: idsm_set_state and idsm_set_mode. */
IdsM_ReturnType IdsM_BswM_StateChanged(uint8_t state);
IdsM_ReturnType IdsM_SetReportingMode(IdsM_SecurityEventIdType id, uint8_t mode);

#ifdef __cplusplus
}
#endif

#endif
