/* Text on the serial line, a PL011 as QEMU leaves it: no speed is to be set. */
#include "board.h"

#define UART_DATA (*(volatile uint32_t *)0x09000000)
#define UART_FLAGS (*(volatile uint32_t *)0x09000018)
#define UART_IS_FULL (1u << 5)

static void put(char c)
{
    while ((UART_FLAGS & UART_IS_FULL) != 0) {
    }
    UART_DATA = (uint8_t)c;
}

void board_print(const char *text)
{
    for (; *text != '\0'; text++)
        put(*text);
}

void board_print_number(uint64_t number)
{
    char digits[21];
    size_t at = sizeof digits - 1;
    digits[at] = '\0';
    do {
        digits[--at] = (char)('0' + number % 10);
        number /= 10;
    } while (number > 0);
    board_print(&digits[at]);
}

void board_print_bytes(char kind, const uint8_t *bytes, size_t count)
{
    static const char digits[] = "0123456789abcdef";
    put(kind);
    put(' ');
    for (size_t i = 0; i < count; i++) {
        put(digits[bytes[i] >> 4]);
        put(digits[bytes[i] & 15]);
    }
    put('\n');
}
