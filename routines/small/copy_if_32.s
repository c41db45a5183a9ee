# copy_if_32: made by factc 1.0.0 function; 48 words and 21 shared, 96 bytes of stack, profile 1
    .option push
    .option norvc
    .option norelax
    .cfi_sections .debug_frame
    .section .text.copy_if_32, "ax", @progbits
    .p2align 2
    .globl copy_if_32
    .type copy_if_32, @function
copy_if_32:
    .cfi_startproc
    # room above the frame
    .word 0xff010113  # addi x2, x2, -16
    .cfi_def_cfa_offset 16
    # the caller's registers
    # arguments that are needed behind the body
    .word 0x00a12223  # sw x10, 4(x2)
    .word 0x00b12423  # sw x11, 8(x2)
    .word 0x00c12623  # sw x12, 12(x2)
    # the frame's base
    .word 0xfb010113  # addi x2, x2, -80
    .cfi_def_cfa 2, 96
    # parameter 0: a word
    .word 0x00a03533  # sltu x10, x0, x10
    .word 0x00a12023  # sw x10, 0(x2)
    # parameter 1: an array
    .word 0x00058293  # addi x5, x11, 0
    .word 0x00410313  # addi x6, x2, 4
    .word 0x02028393  # addi x7, x5, 32
    .word 0x0002ce03  # lbu x28, 0(x5)
    .word 0x01c30023  # sb x28, 0(x6)
    .word 0x00128293  # addi x5, x5, 1
    .word 0x00130313  # addi x6, x6, 1
    .word 0xfe7298e3  # bne x5, x7, -16
    # parameter 2: an array
    .word 0x00060293  # addi x5, x12, 0
    .word 0x02410313  # addi x6, x2, 36
    .word 0x02028393  # addi x7, x5, 32
    .word 0x0002ce03  # lbu x28, 0(x5)
    .word 0x01c30023  # sb x28, 0(x6)
    .word 0x00128293  # addi x5, x5, 1
    .word 0x00130313  # addi x6, x6, 1
    .word 0xfe7298e3  # bne x5, x7, -16
    # the body
    .word 0x00012503  # lw x10, 0(x2)
    .word 0x40a005b3  # sub x11, x0, x10
    .word 0xfff00613  # addi x12, x0, -1
    .word 0x00160613  # addi x12, x12, 1
    .word 0x002607b3  # add x15, x12, x2
    .word 0x0247c683  # lbu x13, 36(x15)
    .word 0x0047c283  # lbu x5, 4(x15)
    .word 0x00d2c2b3  # xor x5, x5, x13
    .word 0x00b2f733  # and x14, x5, x11
    .word 0x00e6c2b3  # xor x5, x13, x14
    .word 0x02578223  # sb x5, 36(x15)
    .word 0xfe160293  # addi x5, x12, -31
    .word 0xfc029ee3  # bne x5, x0, -36
    # the result
    .word 0x00000513  # addi x10, x0, 0
    # parameter 2: the array, back
    .word 0x02410293  # addi x5, x2, 36
    .word 0x05c12303  # lw x6, 92(x2)
    .word 0x02028393  # addi x7, x5, 32
    .word 0x0002ce03  # lbu x28, 0(x5)
    .word 0x01c30023  # sb x28, 0(x6)
    .word 0x00128293  # addi x5, x5, 1
    .word 0x00130313  # addi x6, x6, 1
    .word 0xfe7298e3  # bne x5, x7, -16
    # above the frame
    .word 0x05010293  # addi x5, x2, 80
    # the caller's registers
    # the caller's x2
    .word 0x01028293  # addi x5, x5, 16
    .cfi_def_cfa 5, 0
    # on to the tail that functions share
    jal x0, factc.tail.1
    .cfi_endproc
    .size copy_if_32, . - copy_if_32
    .section .text.factc.tail.1, "axG", @progbits, factc.tail.1, comdat
    .p2align 2
    .globl factc.tail.1
    .hidden factc.tail.1
    .type factc.tail.1, @function
factc.tail.1:
    .cfi_startproc
    .cfi_def_cfa 5, 0
    # all the room, wiped upward
    .word 0x00012023  # sw x0, 0(x2)
    .word 0x00012223  # sw x0, 4(x2)
    .word 0x00012423  # sw x0, 8(x2)
    .word 0x00012623  # sw x0, 12(x2)
    .word 0x01010113  # addi x2, x2, 16
    .word 0xfe5116e3  # bne x2, x5, -20
    .cfi_def_cfa 2, 0
    # temporaries, wiped
    .word 0x00000293  # addi x5, x0, 0
    .word 0x00000313  # addi x6, x0, 0
    .word 0x00000393  # addi x7, x0, 0
    .word 0x00000593  # addi x11, x0, 0
    .word 0x00000613  # addi x12, x0, 0
    .word 0x00000693  # addi x13, x0, 0
    .word 0x00000713  # addi x14, x0, 0
    .word 0x00000793  # addi x15, x0, 0
    .word 0x00000813  # addi x16, x0, 0
    .word 0x00000893  # addi x17, x0, 0
    .word 0x00000e13  # addi x28, x0, 0
    .word 0x00000e93  # addi x29, x0, 0
    .word 0x00000f13  # addi x30, x0, 0
    .word 0x00000f93  # addi x31, x0, 0
    # back
    .word 0x00008067  # jalr x0, 0(x1)
    .cfi_endproc
    .size factc.tail.1, . - factc.tail.1
    .option pop
