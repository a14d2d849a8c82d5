/* The functions of IdsM.h over idsm_c.h, for one configuration (IdsM_Cfg.h) and one binding (IdsM_Binding.h). */
#include "IdsM.h"

#include "IdsM_Binding.h"
#include "IdsM_Cfg.h"

#include <stdbool.h>

#ifndef IDSM_CFG_BUFFER
#error "IdsM.c: IdsM_Cfg.h has no numbers of the library: build it by c/build, and make the header anew by tools/c_config"
#endif
#if !defined(IDSM_CALLER) || !defined(IDSM_TICK) || !defined(IDSM_SEND)
#error "IdsM.c: IdsM_Binding.h has to define IDSM_CALLER(), IDSM_TICK() and IDSM_SEND(message, length)"
#endif
#ifndef IDSM_JOURNAL
#define IDSM_JOURNAL 0
#endif
#ifndef IDSM_ARENA
#define IDSM_ARENA 0
#endif
#ifndef IDSM_VENDOR_ID
#define IDSM_VENDOR_ID 0U
#endif
#ifndef IDSM_MODULE_ID
#define IDSM_MODULE_ID 0U
#endif

IdsM_UnitType IdsM_Unit;

/* The messages of a turn. */
static uint8_t messages[IDSM_CFG_BUFFER];

#if IDSM_ARENA
/* The memory of callers and manager, and what aligns it to 16. */
#define ALIGNED 16U
static uint8_t arena[IDSM_CFG_ARENA + ((IDSM_JOURNAL != 0) ? IDSM_CFG_ARENA_JOURNAL : 0U) + ALIGNED - 1U];
#endif

#ifndef IDSM_STAND_IN
/* The proved library has this, and the stand-in does not: so the linker says if that one is linked by mistake. */
extern const char idsm_is_proved;
#endif

/* Whether the library is the one that this file was compiled for. */
static bool is_own_library(void)
{
#ifdef IDSM_STAND_IN
    return idsm_abi() == IDSM_ABI;
#else
    return (idsm_abi() == IDSM_ABI) && (idsm_is_proved != '\0');
#endif
}

static IdsM_ReturnType make_manager(void)
{
    static const idsm_options options = {IDSM_CFG_BUFFER, IDSM_JOURNAL};
#if IDSM_ARENA
    const size_t skipped = (ALIGNED - ((uintptr_t)arena % ALIGNED)) % ALIGNED;
    return idsm_init_in(&IdsM_Config, &options, &arena[skipped], (sizeof arena) - skipped, IdsM_Unit.callers,
                        IDSM_CFG_CALLERS, &IdsM_Unit.manager, &IdsM_Unit.fault);
#else
    return idsm_init(&IdsM_Config, &options, IdsM_Unit.callers, IDSM_CFG_CALLERS, &IdsM_Unit.manager,
                     &IdsM_Unit.fault);
#endif
}

IdsM_ReturnType IdsM_Init(const IdsM_ConfigType *config)
{
    if (!is_own_library()) {
        return IDSM_OUT_OF_RANGE;
    }
    if (((config != NULL) && (config != &IdsM_Config)) || (IdsM_Config.sum != IDSM_CFG_SUM)) {
        return IDSM_OTHER_CONFIGURATION;
    }
    return make_manager();
}

IdsM_ReturnType IdsM_GetVersionInfo(IDSM_VERSION_INFO_TYPE *info)
{
    if (info == NULL) {
        return IDSM_NULL;
    }
    info->vendorID = IDSM_VENDOR_ID;
    info->moduleID = IDSM_MODULE_ID;
    info->sw_major_version = IDSM_ABI;
    info->sw_minor_version = 0U;
    info->sw_patch_version = 0U;
    return IDSM_DONE;
}

static idsm_answer send_message(void *to, const uint8_t *message, size_t length)
{
    (void)to;
    return (IDSM_SEND(message, length) == 0) ? IDSM_DONE : IDSM_NOT_SENT;
}

IdsM_ReturnType IdsM_MainFunction(void)
{
    return idsm_main_send(&IdsM_Unit.manager, IDSM_TICK(), messages, sizeof messages, send_message, NULL,
                          &IdsM_Unit.sent);
}

IdsM_ReturnType IdsM_DeInit(idsm_totals *totals)
{
    return idsm_close_send(&IdsM_Unit.manager, IDSM_TICK(), messages, sizeof messages, send_message, NULL,
                           &IdsM_Unit.sent, totals);
}

/* A report with its timestamp. */
static IdsM_ReturnType report_at(IdsM_SecurityEventIdType id, uint16_t count, uint64_t stamp, const uint8_t *context,
                                 uint16_t bytes)
{
    return idsm_set_event_at(IDSM_CALLER(), idsm_cfg_place(id), count, stamp, context, bytes);
}

/* A report that has no timestamp of its own. */
static IdsM_ReturnType report(IdsM_SecurityEventIdType id, uint16_t count, const uint8_t *context, uint16_t bytes)
{
#ifdef IDSM_STAMP_NOW
    return report_at(id, count, IDSM_STAMP_NOW(), context, bytes);
#else
    return idsm_set_event_count_context(IDSM_CALLER(), idsm_cfg_place(id), count, context, bytes);
#endif
}

IdsM_ReturnType IdsM_SetSecurityEvent(IdsM_SecurityEventIdType id)
{
    return report(id, 1U, NULL, 0U);
}

IdsM_ReturnType IdsM_SetSecurityEventWithCount(IdsM_SecurityEventIdType id, uint16_t count)
{
    return report(id, count, NULL, 0U);
}

IdsM_ReturnType IdsM_SetSecurityEventWithContextData(IdsM_SecurityEventIdType id, const uint8_t *context, uint16_t bytes)
{
    return report(id, 1U, context, bytes);
}

IdsM_ReturnType IdsM_SetSecurityEventWithCountContextData(IdsM_SecurityEventIdType id, const uint8_t *context,
                                                          uint16_t bytes, uint16_t count)
{
    return report(id, count, context, bytes);
}

IdsM_ReturnType IdsM_SetSecurityEventWithTimestamp(IdsM_SecurityEventIdType id, uint64_t stamp)
{
    return report_at(id, 1U, stamp, NULL, 0U);
}

IdsM_ReturnType IdsM_SetSecurityEventWithTimestampCount(IdsM_SecurityEventIdType id, uint64_t stamp, uint16_t count)
{
    return report_at(id, count, stamp, NULL, 0U);
}

IdsM_ReturnType IdsM_SetSecurityEventWithTimestampContextData(IdsM_SecurityEventIdType id, uint64_t stamp,
                                                              const uint8_t *context, uint16_t bytes)
{
    return report_at(id, 1U, stamp, context, bytes);
}

IdsM_ReturnType IdsM_SetSecurityEventWithTimestampCountContextData(IdsM_SecurityEventIdType id, uint64_t stamp,
                                                                   const uint8_t *context, uint16_t bytes,
                                                                   uint16_t count)
{
    return report_at(id, count, stamp, context, bytes);
}

IdsM_ReturnType IdsM_BswM_StateChanged(uint8_t state)
{
    return idsm_set_state(IDSM_CALLER(), state);
}

IdsM_ReturnType IdsM_SetReportingMode(IdsM_SecurityEventIdType id, uint8_t mode)
{
    return idsm_set_mode(IDSM_CALLER(), idsm_cfg_place(id), mode);
}
