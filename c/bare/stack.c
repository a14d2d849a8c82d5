/* How much of a stack was in use: start.S fills it with zeros, so the byte that is none and stands farthest from its begin tells. */
#include "board.h"

extern const uint8_t end_of_first_stack[], first_stack[];

size_t board_stack(void)
{
    const volatile uint8_t *at = end_of_first_stack;
    while (at < first_stack && *at == 0)
        at++;
    return (size_t)(first_stack - at);
}
