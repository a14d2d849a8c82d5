/* hold_vectors(from, to, count, until): for registers.c. */
    .text
    .global hold_vectors
hold_vectors:
    stp d8, d9, [sp, #-64]!
    stp d10, d11, [sp, #16]
    stp d12, d13, [sp, #32]
    stp d14, d15, [sp, #48]
    ld1 {v0.16b-v3.16b}, [x0], #64
    ld1 {v4.16b-v7.16b}, [x0], #64
    ld1 {v8.16b-v11.16b}, [x0], #64
    ld1 {v12.16b-v15.16b}, [x0], #64
    ld1 {v16.16b-v19.16b}, [x0], #64
    ld1 {v20.16b-v23.16b}, [x0], #64
    ld1 {v24.16b-v27.16b}, [x0], #64
    ld1 {v28.16b-v31.16b}, [x0], #64
1:  ldr w4, [x2]
    cmp w4, w3
    b.lo 1b
    st1 {v0.16b-v3.16b}, [x1], #64
    st1 {v4.16b-v7.16b}, [x1], #64
    st1 {v8.16b-v11.16b}, [x1], #64
    st1 {v12.16b-v15.16b}, [x1], #64
    st1 {v16.16b-v19.16b}, [x1], #64
    st1 {v20.16b-v23.16b}, [x1], #64
    st1 {v24.16b-v27.16b}, [x1], #64
    st1 {v28.16b-v31.16b}, [x1], #64
    ldp d10, d11, [sp, #16]
    ldp d12, d13, [sp, #32]
    ldp d14, d15, [sp, #48]
    ldp d8, d9, [sp], #64
    ret
