/* Mistakes of an integrator, and what tells them: an arena a byte too short, one that is not aligned, one at NULL, and an
   interrupt that reports by the caller of the main loop. None of them harms what is counted. It ends with status 0 if each
   is told. */
#include "IdsM_Cfg.h"
#include "board.h"
#include "idsm_c.h"

enum { INTERVAL = 50, REFUSALS = 100, MOST = 20000000 };

static _Alignas(16) uint8_t arena[IDSM_CFG_ARENA + 1];
static uint8_t buffer[IDSM_CFG_BUFFER];
static idsm_caller callers[IDSM_CFG_CALLERS];
static idsm_manager manager;
static volatile uint32_t refused, taken, lost;

static void expect(const char *what, uint64_t wanted, uint64_t got)
{
    board_print(what);
    board_print(": ");
    board_print_number(got);
    board_print("\n");
    if (got != wanted)
        board_exit(1);
}

static idsm_answer init(void *at, size_t bytes)
{
    idsm_fault fault;
    return idsm_init_in(&IdsM_Config, NULL, at, bytes, callers, IDSM_CFG_CALLERS, &manager, &fault);
}

/* The mistake: this is the caller of the main loop. */
void board_on_timer(void)
{
    idsm_answer answer = idsm_set_event(&callers[0], 0);
    refused += answer == IDSM_BUSY;
    taken += answer == IDSM_DONE;
    lost += answer == IDSM_LOST;
}

/* Reports until the interrupt met so many of them. An interrupt ends before the main loop goes on: so that one never meets
   it, but what both count has to be added where no interrupt comes between. */
static void report_beside_the_timer(uint64_t *own_taken, uint64_t *own_lost)
{
    idsm_sent sent;
    for (uint32_t i = 0; i < MOST && refused < REFUSALS; i++) {
        idsm_answer answer = idsm_set_event(&callers[0], 0);
        *own_taken += answer == IDSM_DONE;
        *own_lost += answer == IDSM_LOST;
        if (i % 16 == 0 && idsm_main(&manager, i, buffer, sizeof buffer, &sent) != IDSM_DONE)
            board_exit(2);
    }
}

int main(void)
{
    idsm_sent sent;
    idsm_totals totals;
    uint64_t own_taken = 0, own_lost = 0;
    expect("an arena at NULL", IDSM_NULL, init(NULL, IDSM_CFG_ARENA));
    expect("an arena that is not aligned", IDSM_OUT_OF_RANGE, init(arena + 1, IDSM_CFG_ARENA));
    expect("an arena a byte too short", IDSM_NO_MEMORY, init(arena, IDSM_CFG_ARENA - 1));
    expect("a report before an init", IDSM_UNSET, idsm_set_event(&callers[0], 0));
    expect("an arena of as many bytes as the header says", IDSM_DONE, init(arena, IDSM_CFG_ARENA));
    board_start_timer(INTERVAL);
    report_beside_the_timer(&own_taken, &own_lost);
    board_stop_timer();
    expect("an interrupt with the caller of the main loop is refused", 1, refused >= REFUSALS);
    expect("a close", IDSM_DONE, idsm_close(&manager, MOST, buffer, sizeof buffer, &sent, &totals));
    expect("reports that the turns did not take", 0, own_taken + taken - totals.entries);
    expect("reports that no total has", 0, own_lost + lost - totals.lost_events);
    expect("a report after the close", IDSM_CLOSED, idsm_set_event(&callers[0], 0));
    board_print("each mistake is told\n");
    return 0;
}
