/* The exception vectors. An interrupt saves all that C and proved code may change: the general registers that a call does not
   keep, and each vector register, since proved code uses them. Who reports from an interrupt without the second part corrupts
   what was interrupted. Everything but an interrupt ends the program. */

    .macro push first second
    stp \first, \second, [sp, #-32]!
    .endm
    .macro pop first second
    ldp \first, \second, [sp], #32
    .endm

    .section .text.vectors, "ax"
    .balign 2048
    .global vectors
vectors:
    .rept 5
    b unexpected
    .balign 128
    .endr
    b interrupt
    .balign 128
    .rept 10
    b unexpected
    .balign 128
    .endr

unexpected:
    mov w0, #3
    b board_exit

interrupt:
    push x0, x1
    push x2, x3
    push x4, x5
    push x6, x7
    push x8, x9
    push x10, x11
    push x12, x13
    push x14, x15
    push x16, x17
    push x18, x30
    mrs x0, FPSR
    mrs x1, FPCR
    push x0, x1
    push q0, q1
    push q2, q3
    push q4, q5
    push q6, q7
    push q8, q9
    push q10, q11
    push q12, q13
    push q14, q15
    push q16, q17
    push q18, q19
    push q20, q21
    push q22, q23
    push q24, q25
    push q26, q27
    push q28, q29
    push q30, q31
    bl board_on_interrupt
    pop q30, q31
    pop q28, q29
    pop q26, q27
    pop q24, q25
    pop q22, q23
    pop q20, q21
    pop q18, q19
    pop q16, q17
    pop q14, q15
    pop q12, q13
    pop q10, q11
    pop q8, q9
    pop q6, q7
    pop q4, q5
    pop q2, q3
    pop q0, q1
    pop x0, x1
    msr FPSR, x0
    msr FPCR, x1
    pop x18, x30
    pop x16, x17
    pop x14, x15
    pop x12, x13
    pop x10, x11
    pop x8, x9
    pop x6, x7
    pop x4, x5
    pop x2, x3
    pop x0, x1
    eret
