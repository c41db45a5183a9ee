# hex_decode: made by factc 1.0.0 function; 71 words and 21 shared, 128 bytes of stack, profile 1
    .option push
    .option norvc
    .option norelax
    .cfi_sections .debug_frame
    .section .text.hex_decode, "ax", @progbits
    .p2align 2
    .globl hex_decode
    .type hex_decode, @function
hex_decode:
    .cfi_startproc
    # room above the frame
    .word 0xff010113  # addi x2, x2, -16
    .cfi_def_cfa_offset 16
    # the caller's registers
    .word 0x00812023  # sw x8, 0(x2)
    .cfi_offset 8, -16
    # arguments that are needed behind the body
    .word 0x00a12423  # sw x10, 8(x2)
    .word 0x00b12623  # sw x11, 12(x2)
    # the frame's base
    .word 0xf9010113  # addi x2, x2, -112
    .cfi_def_cfa 2, 128
    # parameter 0: an array
    .word 0x00050293  # addi x5, x10, 0
    .word 0x00010313  # addi x6, x2, 0
    .word 0x04028393  # addi x7, x5, 64
    .word 0x0002ce03  # lbu x28, 0(x5)
    .word 0x01c30023  # sb x28, 0(x6)
    .word 0x00128293  # addi x5, x5, 1
    .word 0x00130313  # addi x6, x6, 1
    .word 0xfe7298e3  # bne x5, x7, -16
    # parameter 1: an array
    .word 0x00058293  # addi x5, x11, 0
    .word 0x04010313  # addi x6, x2, 64
    .word 0x02028393  # addi x7, x5, 32
    .word 0x0002ce03  # lbu x28, 0(x5)
    .word 0x01c30023  # sb x28, 0(x6)
    .word 0x00128293  # addi x5, x5, 1
    .word 0x00130313  # addi x6, x6, 1
    .word 0xfe7298e3  # bne x5, x7, -16
    # the body
    .word 0x00100513  # addi x10, x0, 1
    .word 0x00000593  # addi x11, x0, 0
    .word 0xfff00613  # addi x12, x0, -1
    .word 0x00160613  # addi x12, x12, 1
    .word 0x002608b3  # add x17, x12, x2
    .word 0x0008c283  # lbu x5, 0(x17)
    .word 0xfd028693  # addi x13, x5, -48
    .word 0x0ff6f693  # andi x13, x13, 255
    .word 0x0008c283  # lbu x5, 0(x17)
    .word 0x0202e293  # ori x5, x5, 32
    .word 0xf9f28713  # addi x14, x5, -97
    .word 0x0ff77713  # andi x14, x14, 255
    .word 0x00a6b793  # sltiu x15, x13, 10
    .word 0x00673813  # sltiu x16, x14, 6
    .word 0x00a70413  # addi x8, x14, 10
    .word 0x0ff47413  # andi x8, x8, 255
    .word 0x410003b3  # sub x7, x0, x16
    .word 0x007473b3  # and x7, x8, x7
    .word 0x40f002b3  # sub x5, x0, x15
    .word 0x0076c333  # xor x6, x13, x7
    .word 0x00537333  # and x6, x6, x5
    .word 0x0063c6b3  # xor x13, x7, x6
    .word 0x0107e333  # or x6, x15, x16
    .word 0x00657533  # and x10, x10, x6
    .word 0x00167293  # andi x5, x12, 1
    .word 0x00100313  # addi x6, x0, 1
    .word 0x00629e63  # bne x5, x6, 28
    .word 0x00165293  # srli x5, x12, 1
    .word 0x00459313  # slli x6, x11, 4
    .word 0x0ff37313  # andi x6, x6, 255
    .word 0x00d36333  # or x6, x6, x13
    .word 0x002282b3  # add x5, x5, x2
    .word 0x04628023  # sb x6, 64(x5)
    .word 0x00068593  # addi x11, x13, 0
    .word 0xfc160293  # addi x5, x12, -63
    .word 0xf80290e3  # bne x5, x0, -128
    .word 0x06a12023  # sw x10, 96(x2)
    # the result
    .word 0x06012503  # lw x10, 96(x2)
    # parameter 1: the array, back
    .word 0x04010293  # addi x5, x2, 64
    .word 0x07c12303  # lw x6, 124(x2)
    .word 0x02028393  # addi x7, x5, 32
    .word 0x0002ce03  # lbu x28, 0(x5)
    .word 0x01c30023  # sb x28, 0(x6)
    .word 0x00128293  # addi x5, x5, 1
    .word 0x00130313  # addi x6, x6, 1
    .word 0xfe7298e3  # bne x5, x7, -16
    # above the frame
    .word 0x07010293  # addi x5, x2, 112
    # the caller's registers
    .word 0x0002a403  # lw x8, 0(x5)
    .cfi_restore 8
    # the caller's x2
    .word 0x01028293  # addi x5, x5, 16
    .cfi_def_cfa 5, 0
    # on to the tail that functions share
    jal x0, factc.tail.1
    .cfi_endproc
    .size hex_decode, . - hex_decode
    .section .text.factc.tail.1, "axG", @progbits, factc.tail.1, comdat
    .p2align 2
    .globl factc.tail.1
    .hidden factc.tail.1
    .type factc.tail.1, @function
factc.tail.1:
    .cfi_startproc
    .cfi_def_cfa 5, 0
    # all the room, wiped upward
    .word 0x00012023  # sw x0, 0(x2)
    .word 0x00012223  # sw x0, 4(x2)
    .word 0x00012423  # sw x0, 8(x2)
    .word 0x00012623  # sw x0, 12(x2)
    .word 0x01010113  # addi x2, x2, 16
    .word 0xfe5116e3  # bne x2, x5, -20
    .cfi_def_cfa 2, 0
    # temporaries, wiped
    .word 0x00000293  # addi x5, x0, 0
    .word 0x00000313  # addi x6, x0, 0
    .word 0x00000393  # addi x7, x0, 0
    .word 0x00000593  # addi x11, x0, 0
    .word 0x00000613  # addi x12, x0, 0
    .word 0x00000693  # addi x13, x0, 0
    .word 0x00000713  # addi x14, x0, 0
    .word 0x00000793  # addi x15, x0, 0
    .word 0x00000813  # addi x16, x0, 0
    .word 0x00000893  # addi x17, x0, 0
    .word 0x00000e13  # addi x28, x0, 0
    .word 0x00000e93  # addi x29, x0, 0
    .word 0x00000f13  # addi x30, x0, 0
    .word 0x00000f93  # addi x31, x0, 0
    # back
    .word 0x00008067  # jalr x0, 0(x1)
    .cfi_endproc
    .size factc.tail.1, . - factc.tail.1
    .option pop
