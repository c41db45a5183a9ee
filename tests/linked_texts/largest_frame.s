# The function of an image with a frame of 65,536 bytes, written by hand: crates/examples has its words.
    .option push
    .option norvc
    .option norelax
    .section .text.largest_frame, "ax", @progbits
    .p2align 2
    .globl largest_frame
    .type largest_frame, @function
largest_frame:
    # room above the frame, 16 bytes, and at its end the arguments up to the array that goes back
    addi x2, x2, -16
    sw x10, 8(x2)
    sw x11, 12(x2)
    # 65,536 bytes below
    lui x5, 16
    addi x5, x5, 0
    sub x5, x2, x5
1:  addi x2, x2, -16
    sw x0, 0(x2)
    sw x0, 4(x2)
    sw x0, 8(x2)
    sw x0, 12(x2)
    bne x2, x5, 1b
    # argument 0 to 0
    sw x10, 0(x2)
    # argument 1: two words to 65,524
    addi x5, x11, 0
    lui x6, 16
    addi x6, x6, -12
    add x6, x6, x2
    lw x28, 0(x5)
    sw x28, 0(x6)
    lw x28, 4(x5)
    sw x28, 4(x6)
    # the body: element 0 becomes the number, the first word of the frame what element 0 was, and the last word their sum
    lw x5, 0(x2)
    lui x6, 16
    add x6, x6, x2
    lw x7, -12(x6)
    sw x5, -12(x6)
    sw x7, 0(x2)
    add x5, x5, x7
    sw x5, -4(x6)
    # the result, at 65,532
    lui x10, 16
    add x10, x10, x2
    lw x10, -4(x10)
    # the array back: where it goes is at 65,548
    lui x5, 16
    addi x5, x5, -12
    add x5, x5, x2
    lui x6, 16
    add x6, x6, x2
    lw x6, 12(x6)
    lw x28, 0(x5)
    sw x28, 0(x6)
    lw x28, 4(x5)
    sw x28, 4(x6)
    # the frame's end, and the caller's stack
    lui x5, 16
    addi x5, x5, 0
    add x5, x5, x2
    addi x5, x5, 16
    # blocks of 16 bytes
1:  sw x0, 0(x2)
    sw x0, 4(x2)
    sw x0, 8(x2)
    sw x0, 12(x2)
    addi x2, x2, 16
    bne x2, x5, 1b
    addi x5, x0, 0
    addi x6, x0, 0
    addi x7, x0, 0
    addi x11, x0, 0
    addi x12, x0, 0
    addi x13, x0, 0
    addi x14, x0, 0
    addi x15, x0, 0
    addi x16, x0, 0
    addi x17, x0, 0
    addi x28, x0, 0
    addi x29, x0, 0
    addi x30, x0, 0
    addi x31, x0, 0
    jalr x0, 0(x1)
    .size largest_frame, . - largest_frame
    .option pop
