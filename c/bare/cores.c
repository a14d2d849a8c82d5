/* The second core, which the firmware's interface PSCI starts, and the end of the program, which semihosting tells QEMU. */
#include "board.h"

enum { SECOND = 1 };

#define PSCI_CPU_ON 0xc4000003u
#define SEMIHOSTING_EXIT 0x18u
#define SEMIHOSTING_STATUS 0x20026u

void start_of_second_core(void);

int board_start_second_core(void (*begin)(void))
{
    register uint64_t x0 __asm__("x0") = PSCI_CPU_ON;
    register uint64_t x1 __asm__("x1") = SECOND;
    register uint64_t x2 __asm__("x2") = (uintptr_t)start_of_second_core;
    register uint64_t x3 __asm__("x3") = (uintptr_t)begin;
    __asm__ volatile("dsb sy\n\thvc #0" : "+r"(x0), "+r"(x1), "+r"(x2), "+r"(x3) : : "memory");
    return x0 == 0;
}

_Noreturn void board_exit(int status)
{
    uint64_t words[2] = {SEMIHOSTING_STATUS, (uint64_t)status};
    register uint64_t x0 __asm__("x0") = SEMIHOSTING_EXIT;
    register uint64_t *x1 __asm__("x1") = words;
    __asm__ volatile("hlt #0xf000" : : "r"(x0), "r"(x1) : "memory");
    for (;;) {
    }
}
