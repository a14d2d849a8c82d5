/* What the programs here use of the board, QEMU's `virt` with a Cortex-A53. */
#ifndef BOARD_H
#define BOARD_H

#include <stddef.h>
#include <stdint.h>

/* uart.c: text, numbers, and a line of bytes: KIND, a space, and two hexadecimal digits for each. */
void board_print(const char *text);
void board_print_number(uint64_t number);
void board_print_bytes(char kind, const uint8_t *bytes, size_t count);

/* timer.c: interrupts on this core, which call board_on_timer of the program; and the time since the core began. */
void board_start_timer(uint32_t microseconds);
void board_stop_timer(void);
void board_on_timer(void);
void board_on_interrupt(void);
uint64_t board_microseconds(void);

/* stack.c: the most bytes of its stack that the first core had in use. */
size_t board_stack(void);

/* cores.c: 1 if there is a second core, which then calls the function; and the end of all, with a status. */
int board_start_second_core(void (*begin)(void));
_Noreturn void board_exit(int status);

#endif
