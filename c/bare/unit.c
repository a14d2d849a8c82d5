/* A control unit without an operating system and without a C library: the main loop reports and makes the turns, an interrupt
   of a timer reports in the midst of that, and a second core reports, each with a caller of its own. All memory is an arena.
   On the serial line each message is a line `M BYTES` and a piece of the journal a line `J BYTES`; the other lines are text. It
   ends with status 0 if every report is accounted for. */
#include "IdsM_Cfg.h"
#include "board.h"
#include "idsm_c.h"

enum { LOOP, TIMER, CORE, CALLERS, ANSWERS = 32, INTERVAL = 200 };
enum { REPORTS = 3000, A_TURN = 20 };

static _Alignas(16) uint8_t arena[IDSM_CFG_ARENA + IDSM_CFG_ARENA_JOURNAL];
static uint8_t buffer[IDSM_CFG_BUFFER];
static idsm_caller callers[IDSM_CFG_CALLERS];
static idsm_manager manager;
static idsm_sent sent;

/* How often each answer was given to each caller, who alone counts there. */
static volatile uint32_t answers[CALLERS][ANSWERS];
static volatile uint32_t is_in_call, within_calls, core_is_done;
static uint64_t turns; /* those that the journal has */

static void want(const char *what, idsm_answer answer)
{
    if (answer == IDSM_DONE)
        return;
    board_print(what);
    board_print(" answers ");
    board_print_number(answer);
    board_print("\n");
    board_exit(1);
}

/* The i-th report of a caller, with a context of 0 to 13 bytes: a buffer holds 4 or 12. */
static void report(unsigned caller, uint32_t i)
{
    static const uint8_t context[13] = {0xa1, 0xb2, 0xc3, 0xd4, 0xe5, 0xf6};
    idsm_answer answer = idsm_set_event_count_context(&callers[caller], (uint16_t)caller, 1, context, i % sizeof context + i % 2);
    answers[caller][answer % ANSWERS]++;
}

static uint32_t reports_of(unsigned caller)
{
    uint32_t sum = 0;
    for (unsigned i = 0; i < ANSWERS; i++)
        sum += answers[caller][i];
    return sum;
}

/* An interrupt while the main loop is anywhere: in a report, in a turn, or between them. */
void board_on_timer(void)
{
    within_calls += is_in_call;
    report(TIMER, reports_of(TIMER));
}

static void run_second_core(void)
{
    for (uint32_t i = 0; i < REPORTS; i++) {
        report(CORE, i);
        for (volatile uint32_t pause = 0; pause < 20000; pause++) {
        }
    }
    __atomic_store_n(&core_is_done, 1, __ATOMIC_RELEASE);
}

static idsm_answer send(void *to, const uint8_t *message, size_t length)
{
    (void)to;
    board_print_bytes('M', message, length);
    return IDSM_DONE;
}

/* The lines of the last turn, if it was not a quiet one. */
static void write_journal(void)
{
    uint8_t piece[64];
    size_t bytes = sent.quiet ? 0 : 1;
    turns += bytes;
    for (size_t at = 0; bytes > 0; at += bytes) {
        want("a reading of lines", idsm_journal(&manager, at, piece, sizeof piece, &bytes));
        if (bytes > 0)
            board_print_bytes('J', piece, bytes);
    }
}

/* Reports and turns by turns, until each of the others made its reports. */
static void run_main_loop(int has_second_core)
{
    uint32_t i = 0;
    while (i < REPORTS || reports_of(TIMER) < REPORTS || (has_second_core && __atomic_load_n(&core_is_done, __ATOMIC_ACQUIRE) == 0)) {
        is_in_call = 1;
        for (int more = 0; more < A_TURN && i < REPORTS; more++)
            report(LOOP, i++);
        idsm_answer answer = idsm_main_send(&manager, board_microseconds(), buffer, sizeof buffer, send, NULL, &sent);
        is_in_call = 0;
        want("a turn", answer);
        write_journal();
    }
}

static uint64_t answered(idsm_answer answer)
{
    return (uint64_t)answers[LOOP][answer] + answers[TIMER][answer] + answers[CORE][answer];
}

static void print(const char *what, uint64_t number)
{
    board_print(what);
    board_print_number(number);
}

/* Whether what the reports were answered is what the turns told. */
static int are_all(const idsm_totals *totals, uint64_t made)
{
    uint64_t taken = answered(IDSM_DONE) + answered(IDSM_WITHOUT_CONTEXT), lost = answered(IDSM_LOST);
    print("turns ", turns);
    print(" entries ", totals->entries);
    print(" messages ", totals->messages);
    print("\nlost ", totals->lost_events);
    print(", without context ", totals->lost_contexts);
    return taken + lost == made && totals->entries == taken && totals->lost_events == lost &&
           totals->lost_contexts == answered(IDSM_WITHOUT_CONTEXT);
}

static void init(void)
{
    idsm_fault fault;
    const idsm_options options = {sizeof buffer, 1};
    want("idsm_init_in", idsm_init_in(&IdsM_Config, &options, arena, sizeof arena, callers, IDSM_CFG_CALLERS, &manager, &fault));
}

int main(void)
{
    idsm_totals totals;
    init();
    int has_second_core = board_start_second_core(run_second_core);
    board_start_timer(INTERVAL);
    run_main_loop(has_second_core);
    board_stop_timer();
    want("the stop", idsm_stop(&manager));
    want("the last turn", idsm_last_send(&manager, board_microseconds(), buffer, sizeof buffer, send, NULL, &sent, &totals));
    write_journal();
    want("the end", idsm_free(&manager));
    uint64_t made = (uint64_t)reports_of(LOOP) + reports_of(TIMER) + reports_of(CORE);
    print("reports of the main loop ", reports_of(LOOP));
    print(", of the second core ", reports_of(CORE));
    print(", of the timer ", reports_of(TIMER));
    print(", of those in the midst of a call ", within_calls);
    print("\nbytes of stack of the first core ", board_stack());
    board_print("\n");
    int is_right = are_all(&totals, made);
    board_print(is_right ? ": all accounted for\n" : ": NOT all accounted for\n");
    return is_right ? 0 : 1;
}
