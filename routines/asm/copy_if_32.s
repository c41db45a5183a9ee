# copy_if_32: made by factc 1.0.0 function; 96 words, 96 bytes of stack, profile 1
    .option push
    .option norvc
    .option norelax
    .cfi_sections .debug_frame
    .section .text.copy_if_32, "ax", @progbits
    .p2align 2
    .globl copy_if_32
    .type copy_if_32, @function
copy_if_32:
    .cfi_startproc
    # room above the frame
    .word 0xff010113  # addi x2, x2, -16
    .cfi_def_cfa_offset 16
    # the caller's registers
    # arguments that are needed behind the body
    .word 0x00a12223  # sw x10, 4(x2)
    .word 0x00b12423  # sw x11, 8(x2)
    .word 0x00c12623  # sw x12, 12(x2)
    # the frame's base
    .word 0xfb010113  # addi x2, x2, -80
    .cfi_def_cfa 2, 96
    # parameter 0: a word
    .word 0x00a03533  # sltu x10, x0, x10
    .word 0x00a12023  # sw x10, 0(x2)
    # parameter 1: an array
    .word 0x00058293  # addi x5, x11, 0
    .word 0x00410313  # addi x6, x2, 4
    .word 0x02028393  # addi x7, x5, 32
    .word 0x10400f6f  # jal x30, 260
    # parameter 2: an array
    .word 0x00060293  # addi x5, x12, 0
    .word 0x02410313  # addi x6, x2, 36
    .word 0x02028393  # addi x7, x5, 32
    .word 0x0f400f6f  # jal x30, 244
    # the body
    .word 0x00012503  # lw x10, 0(x2)
    .word 0x40a005b3  # sub x11, x0, x10
    .word 0xfff00613  # addi x12, x0, -1
    .word 0x00160613  # addi x12, x12, 1
    .word 0x00261793  # slli x15, x12, 2
    .word 0x00278833  # add x16, x15, x2
    .word 0x02484683  # lbu x13, 36(x16)
    .word 0x00484283  # lbu x5, 4(x16)
    .word 0x00d2c2b3  # xor x5, x5, x13
    .word 0x00b2f733  # and x14, x5, x11
    .word 0x00e6c2b3  # xor x5, x13, x14
    .word 0x02580223  # sb x5, 36(x16)
    .word 0x02584683  # lbu x13, 37(x16)
    .word 0x00584283  # lbu x5, 5(x16)
    .word 0x00d2c2b3  # xor x5, x5, x13
    .word 0x00b2f733  # and x14, x5, x11
    .word 0x00e6c2b3  # xor x5, x13, x14
    .word 0x025802a3  # sb x5, 37(x16)
    .word 0x02684683  # lbu x13, 38(x16)
    .word 0x00684283  # lbu x5, 6(x16)
    .word 0x00d2c2b3  # xor x5, x5, x13
    .word 0x00b2f733  # and x14, x5, x11
    .word 0x00e6c2b3  # xor x5, x13, x14
    .word 0x02580323  # sb x5, 38(x16)
    .word 0x02784683  # lbu x13, 39(x16)
    .word 0x00784283  # lbu x5, 7(x16)
    .word 0x00d2c2b3  # xor x5, x5, x13
    .word 0x00b2f733  # and x14, x5, x11
    .word 0x00e6c2b3  # xor x5, x13, x14
    .word 0x025803a3  # sb x5, 39(x16)
    .word 0xff960293  # addi x5, x12, -7
    .word 0xf80298e3  # bne x5, x0, -112
    # the result
    .word 0x00000513  # addi x10, x0, 0
    # parameter 2: the array, back
    .word 0x02410293  # addi x5, x2, 36
    .word 0x05c12303  # lw x6, 92(x2)
    .word 0x02028393  # addi x7, x5, 32
    .word 0x06000f6f  # jal x30, 96
    # above the frame
    .word 0x05010293  # addi x5, x2, 80
    # the caller's registers
    # the caller's x2
    .word 0x01028293  # addi x5, x5, 16
    .cfi_def_cfa 5, 0
    # all the room, wiped upward
    .word 0x00012023  # sw x0, 0(x2)
    .word 0x00012223  # sw x0, 4(x2)
    .word 0x00012423  # sw x0, 8(x2)
    .word 0x00012623  # sw x0, 12(x2)
    .word 0x01010113  # addi x2, x2, 16
    .word 0xfe5116e3  # bne x2, x5, -20
    .cfi_def_cfa 2, 0
    # temporaries, wiped
    .word 0x00000293  # addi x5, x0, 0
    .word 0x00000313  # addi x6, x0, 0
    .word 0x00000393  # addi x7, x0, 0
    .word 0x00000593  # addi x11, x0, 0
    .word 0x00000613  # addi x12, x0, 0
    .word 0x00000693  # addi x13, x0, 0
    .word 0x00000713  # addi x14, x0, 0
    .word 0x00000793  # addi x15, x0, 0
    .word 0x00000813  # addi x16, x0, 0
    .word 0x00000893  # addi x17, x0, 0
    .word 0x00000e13  # addi x28, x0, 0
    .word 0x00000e93  # addi x29, x0, 0
    .word 0x00000f13  # addi x30, x0, 0
    .word 0x00000f93  # addi x31, x0, 0
    # back
    .word 0x00008067  # jalr x0, 0(x1)
    # from x5 to x6 up to x7, and back
    .cfi_def_cfa 2, 96
    .word 0x0062ee33  # or x28, x5, x6
    .word 0x003e7e13  # andi x28, x28, 3
    .word 0x000e0e63  # beq x28, x0, 28
    .word 0x0002ce03  # lbu x28, 0(x5)
    .word 0x01c30023  # sb x28, 0(x6)
    .word 0x00128293  # addi x5, x5, 1
    .word 0x00130313  # addi x6, x6, 1
    .word 0xfe7298e3  # bne x5, x7, -16
    .word 0x0300006f  # jal x0, 48
    .word 0x0002ae03  # lw x28, 0(x5)
    .word 0x01c32023  # sw x28, 0(x6)
    .word 0x0042ae03  # lw x28, 4(x5)
    .word 0x01c32223  # sw x28, 4(x6)
    .word 0x0082ae03  # lw x28, 8(x5)
    .word 0x01c32423  # sw x28, 8(x6)
    .word 0x00c2ae03  # lw x28, 12(x5)
    .word 0x01c32623  # sw x28, 12(x6)
    .word 0x01028293  # addi x5, x5, 16
    .word 0x01030313  # addi x6, x6, 16
    .word 0xfc729ce3  # bne x5, x7, -40
    .word 0x000f0067  # jalr x0, 0(x30)
    .cfi_endproc
    .size copy_if_32, . - copy_if_32
    .option pop
