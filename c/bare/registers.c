/* An interrupt that reports leaves the vector registers of what it interrupted as they were: vectors.S saves them, since proved
   code uses them. Without that a report changes some of the registers, and this program ends with status 1. */
#include "IdsM_Cfg.h"
#include "board.h"
#include "idsm_c.h"

enum { CALLER = 1, EVENT = 1, BYTES = 12, INTERVAL = 100, ROUNDS = 20, A_ROUND = 20, ALL = 32 * 16 };

static _Alignas(16) uint8_t arena[IDSM_CFG_ARENA];
static uint8_t buffer[IDSM_CFG_BUFFER];
static idsm_caller callers[IDSM_CFG_CALLERS];
static idsm_manager manager;
static volatile uint32_t reports;
static uint8_t before[ALL], after[ALL];

void board_on_timer(void)
{
    static const uint8_t context[BYTES] = {1, 2, 3};
    idsm_set_event_context(&callers[CALLER], EVENT, context, reports % (BYTES + 1));
    reports++;
}

/* Fills v0 to v31, waits until *count has come to `until`, and stores them (hold.S). */
void hold_vectors(const uint8_t *from, uint8_t *to, const volatile uint32_t *count, uint32_t until);

static uint32_t changed(void)
{
    uint32_t bytes = 0;
    for (unsigned i = 0; i < ALL; i++)
        bytes += before[i] != after[i];
    return bytes;
}

int main(void)
{
    idsm_fault fault;
    idsm_sent sent;
    uint32_t bytes = 0;
    for (unsigned i = 0; i < ALL; i++)
        before[i] = (uint8_t)(7 * i + 3);
    if (idsm_init_in(&IdsM_Config, NULL, arena, sizeof arena, callers, IDSM_CFG_CALLERS, &manager, &fault) != IDSM_DONE)
        return 2;
    board_start_timer(INTERVAL);
    for (uint64_t tick = 0; tick < ROUNDS; tick++) {
        hold_vectors(before, after, &reports, reports + A_ROUND);
        bytes += changed();
        if (idsm_main(&manager, tick, buffer, sizeof buffer, &sent) != IDSM_DONE)
            return 2;
    }
    board_print_number(bytes);
    board_print(" bytes of vector registers were changed by interrupts\n");
    return bytes == 0 ? 0 : 1;
}
