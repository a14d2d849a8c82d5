/* The start of each core, at EL1 with the MMU off: its vectors, vector unit, memory map and stack, and then C.

   The library needs normal memory, inner shareable and cached: its atomic steps are exclusives, and proved code may read and
   write what is not aligned. With the MMU off all memory is a device's, where a real core faults at both. So a flat map of
   two blocks of 1 GiB comes first. Proved code may use vector registers, too, so both units are opened. */

/* Attributes of memory: 0 a device's, 1 normal and written back. */
#define ATTRIBUTES 0xff04
/* Addresses of 32 bits from the lower table alone, in pages of 4 KiB; walks are inner shareable and cached. */
#define TRANSLATION ((1 << 23) | (3 << 12) | (1 << 10) | (1 << 8) | 32)
/* The MMU, and the caches of data and of instructions. */
#define ON ((1 << 12) | (1 << 2) | 1)

    .section .text.start, "ax"
    .global _start
_start:
    bl set_up_core
    ldr x0, =first_stack
    mov sp, x0
    ldr x0, =bss_begin
    ldr x1, =second_stack
1:  cmp x0, x1
    b.hs 2f
    stp xzr, xzr, [x0], #16
    b 1b
2:  bl main
    b board_exit

/* x0 is the function that the core calls. */
    .global start_of_second_core
start_of_second_core:
    mov x19, x0
    bl set_up_core
    ldr x0, =second_stack
    mov sp, x0
    blr x19
3:  wfi
    b 3b

set_up_core:
    ldr x0, =vectors
    msr VBAR_EL1, x0
    mov x0, #(3 << 20)
    msr CPACR_EL1, x0
    ldr x0, =ATTRIBUTES
    msr MAIR_EL1, x0
    ldr x0, =TRANSLATION
    msr TCR_EL1, x0
    ldr x0, =memory_map
    msr TTBR0_EL1, x0
    tlbi vmalle1
    dsb sy
    isb
    mrs x0, SCTLR_EL1
    ldr x1, =ON
    orr x0, x0, x1
    msr SCTLR_EL1, x0
    isb
    ret

/* One block each: devices, of which nothing is executed; memory; and twice nothing. */
    .section .rodata.memory_map, "a"
    .balign 64
memory_map:
    .quad 0x0060000000000401
    .quad 0x0000000040000705
    .quad 0, 0
