/* Code and constants from 512 KiB of memory on, since QEMU puts the description of its board before; then data, zeros, and
   two stacks of 32 KiB. */
ENTRY(_start)
PHDRS {
    code PT_LOAD FLAGS(5);
    data PT_LOAD FLAGS(6);
}
SECTIONS {
    . = 0x40080000;
    .text : { KEEP(*(.text.start)) *(.text .text.*) } :code
    .rodata : ALIGN(16) { *(.rodata .rodata.*) } :code
    .data : ALIGN(4096) { *(.data .data.*) *(.got .got.plt) } :data
    .bss (NOLOAD) : ALIGN(16) {
        bss_begin = .;
        *(.bss .bss.*) *(COMMON)
        . = ALIGN(16);
    } :data
    .stacks (NOLOAD) : ALIGN(16) {
        end_of_first_stack = .;
        . += 0x8000;
        first_stack = .;
        . += 0x8000;
        second_stack = .;
    } :data
    /DISCARD/ : { *(.eh_frame) *(.comment) *(.note .note.*) }
}
