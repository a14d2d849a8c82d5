/* What says that a program has the proved library. c/build compiles it with the sums of what was proved. */
#include "idsm_c.h"

#ifndef IDSM_LOGIC
#error "c/build says which logic the library was proved in"
#endif
#ifndef IDSM_SOURCES
#error "c/build says which sources were proved"
#endif

/* What a linker names if the stand-in is linked where this library is wanted. */
extern const char idsm_is_proved;
const char idsm_is_proved = 1;

const char *idsm_build(void)
{
    return "idsm 4, proved, logic " IDSM_LOGIC ", sources " IDSM_SOURCES;
}
