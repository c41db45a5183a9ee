# mlkem_add: made by factc 1.0.0 function; 101 words, 1056 bytes of stack, profile 1
    .option push
    .option norvc
    .option norelax
    .cfi_sections .debug_frame
    .section .text.mlkem_add, "ax", @progbits
    .p2align 2
    .globl mlkem_add
    .type mlkem_add, @function
mlkem_add:
    .cfi_startproc
    # room above the frame
    .word 0xff010113  # addi x2, x2, -16
    .cfi_def_cfa_offset 16
    # the caller's registers
    # arguments that are needed behind the body
    .word 0x00a12623  # sw x10, 12(x2)
    # the frame's base
    .word 0xbf010113  # addi x2, x2, -1040
    .cfi_def_cfa 2, 1056
    # parameter 0: an array
    .word 0x00050293  # addi x5, x10, 0
    .word 0x00010313  # addi x6, x2, 0
    .word 0x20028393  # addi x7, x5, 512
    .word 0x12800f6f  # jal x30, 296
    # parameter 1: an array
    .word 0x00058293  # addi x5, x11, 0
    .word 0x20010313  # addi x6, x2, 512
    .word 0x20028393  # addi x7, x5, 512
    .word 0x11800f6f  # jal x30, 280
    # the body
    .word 0x00001537  # lui x10, 0x00001
    .word 0xd0150513  # addi x10, x10, -767
    .word 0xfff00593  # addi x11, x0, -1
    .word 0x00158593  # addi x11, x11, 1
    .word 0x00259713  # slli x14, x11, 2
    .word 0x00171793  # slli x15, x14, 1
    .word 0x002787b3  # add x15, x15, x2
    .word 0x0007d283  # lhu x5, 0(x15)
    .word 0x2007d303  # lhu x6, 512(x15)
    .word 0x006282b3  # add x5, x5, x6
    .word 0x40a28633  # sub x12, x5, x10
    .word 0x01065293  # srli x5, x12, 16
    .word 0x00a2f6b3  # and x13, x5, x10
    .word 0x00d602b3  # add x5, x12, x13
    .word 0x00579023  # sh x5, 0(x15)
    .word 0x0027d283  # lhu x5, 2(x15)
    .word 0x2027d303  # lhu x6, 514(x15)
    .word 0x006282b3  # add x5, x5, x6
    .word 0x40a28633  # sub x12, x5, x10
    .word 0x01065293  # srli x5, x12, 16
    .word 0x00a2f6b3  # and x13, x5, x10
    .word 0x00d602b3  # add x5, x12, x13
    .word 0x00579123  # sh x5, 2(x15)
    .word 0x0047d283  # lhu x5, 4(x15)
    .word 0x2047d303  # lhu x6, 516(x15)
    .word 0x006282b3  # add x5, x5, x6
    .word 0x40a28633  # sub x12, x5, x10
    .word 0x01065293  # srli x5, x12, 16
    .word 0x00a2f6b3  # and x13, x5, x10
    .word 0x00d602b3  # add x5, x12, x13
    .word 0x00579223  # sh x5, 4(x15)
    .word 0x0067d283  # lhu x5, 6(x15)
    .word 0x2067d303  # lhu x6, 518(x15)
    .word 0x006282b3  # add x5, x5, x6
    .word 0x40a28633  # sub x12, x5, x10
    .word 0x01065293  # srli x5, x12, 16
    .word 0x00a2f6b3  # and x13, x5, x10
    .word 0x00d602b3  # add x5, x12, x13
    .word 0x00579323  # sh x5, 6(x15)
    .word 0xfc158293  # addi x5, x11, -63
    .word 0xf60296e3  # bne x5, x0, -148
    # the result
    .word 0x00000513  # addi x10, x0, 0
    # parameter 0: the array, back
    .word 0x00010293  # addi x5, x2, 0
    .word 0x41c12303  # lw x6, 1052(x2)
    .word 0x20028393  # addi x7, x5, 512
    .word 0x06000f6f  # jal x30, 96
    # above the frame
    .word 0x41010293  # addi x5, x2, 1040
    # the caller's registers
    # the caller's x2
    .word 0x01028293  # addi x5, x5, 16
    .cfi_def_cfa 5, 0
    # all the room, wiped upward
    .word 0x00012023  # sw x0, 0(x2)
    .word 0x00012223  # sw x0, 4(x2)
    .word 0x00012423  # sw x0, 8(x2)
    .word 0x00012623  # sw x0, 12(x2)
    .word 0x01010113  # addi x2, x2, 16
    .word 0xfe5116e3  # bne x2, x5, -20
    .cfi_def_cfa 2, 0
    # temporaries, wiped
    .word 0x00000293  # addi x5, x0, 0
    .word 0x00000313  # addi x6, x0, 0
    .word 0x00000393  # addi x7, x0, 0
    .word 0x00000593  # addi x11, x0, 0
    .word 0x00000613  # addi x12, x0, 0
    .word 0x00000693  # addi x13, x0, 0
    .word 0x00000713  # addi x14, x0, 0
    .word 0x00000793  # addi x15, x0, 0
    .word 0x00000813  # addi x16, x0, 0
    .word 0x00000893  # addi x17, x0, 0
    .word 0x00000e13  # addi x28, x0, 0
    .word 0x00000e93  # addi x29, x0, 0
    .word 0x00000f13  # addi x30, x0, 0
    .word 0x00000f93  # addi x31, x0, 0
    # back
    .word 0x00008067  # jalr x0, 0(x1)
    # from x5 to x6 up to x7, and back
    .cfi_def_cfa 2, 1056
    .word 0x0062ee33  # or x28, x5, x6
    .word 0x003e7e13  # andi x28, x28, 3
    .word 0x000e0e63  # beq x28, x0, 28
    .word 0x0002ce03  # lbu x28, 0(x5)
    .word 0x01c30023  # sb x28, 0(x6)
    .word 0x00128293  # addi x5, x5, 1
    .word 0x00130313  # addi x6, x6, 1
    .word 0xfe7298e3  # bne x5, x7, -16
    .word 0x0300006f  # jal x0, 48
    .word 0x0002ae03  # lw x28, 0(x5)
    .word 0x01c32023  # sw x28, 0(x6)
    .word 0x0042ae03  # lw x28, 4(x5)
    .word 0x01c32223  # sw x28, 4(x6)
    .word 0x0082ae03  # lw x28, 8(x5)
    .word 0x01c32423  # sw x28, 8(x6)
    .word 0x00c2ae03  # lw x28, 12(x5)
    .word 0x01c32623  # sw x28, 12(x6)
    .word 0x01028293  # addi x5, x5, 16
    .word 0x01030313  # addi x6, x6, 16
    .word 0xfc729ce3  # bne x5, x7, -40
    .word 0x000f0067  # jalr x0, 0(x30)
    .cfi_endproc
    .size mlkem_add, . - mlkem_add
    .option pop
