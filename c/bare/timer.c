/* Interrupts of the core's own virtual timer, by a GIC of version 2. */
#include "board.h"

#define GIC(at) (*(volatile uint32_t *)(uintptr_t)(at))
#define GIC_IS_ON GIC(0x08000000)
#define GIC_ENABLES GIC(0x08000100)
#define GIC_CORE_IS_ON GIC(0x08010000)
#define GIC_CORE_TAKES GIC(0x08010004)
#define GIC_CORE_BEGIN GIC(0x0801000c)
#define GIC_CORE_END GIC(0x08010010)

enum { TIMER = 27, NUMBER_OF_INTERRUPT = 1023 };

static uint64_t interval;

static uint64_t ticks_a_second(void)
{
    uint64_t ticks;
    __asm__ volatile("mrs %0, CNTFRQ_EL0" : "=r"(ticks));
    return ticks;
}

uint64_t board_microseconds(void)
{
    uint64_t ticks;
    __asm__ volatile("isb\n\tmrs %0, CNTVCT_EL0" : "=r"(ticks) : : "memory");
    return ticks * 1000000 / ticks_a_second();
}

static void set_timer(uint64_t is_on)
{
    __asm__ volatile("msr CNTV_TVAL_EL0, %0\n\tmsr CNTV_CTL_EL0, %1\n\tisb" : : "r"(interval), "r"(is_on) : "memory");
}

void board_start_timer(uint32_t microseconds)
{
    interval = ticks_a_second() * microseconds / 1000000;
    GIC_IS_ON = 1;
    GIC_ENABLES = 1u << TIMER;
    GIC_CORE_TAKES = 255;
    GIC_CORE_IS_ON = 1;
    set_timer(1);
    __asm__ volatile("msr DAIFClr, #2" : : : "memory");
}

void board_stop_timer(void)
{
    __asm__ volatile("msr DAIFSet, #2" : : : "memory");
    set_timer(0);
}

/* Called by vectors.S, with interrupts masked. No other interrupt is enabled. */
void board_on_interrupt(void)
{
    uint32_t taken = GIC_CORE_BEGIN;
    if ((taken & NUMBER_OF_INTERRUPT) != TIMER)
        return;
    set_timer(1);
    board_on_timer();
    GIC_CORE_END = taken;
}
