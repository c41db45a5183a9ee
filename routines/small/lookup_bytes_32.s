# lookup_bytes_32: made by factc 1.0.0 function; 61 words and 21 shared, 592 bytes of stack, profile 1
    .option push
    .option norvc
    .option norelax
    .cfi_sections .debug_frame
    .section .text.lookup_bytes_32, "ax", @progbits
    .p2align 2
    .globl lookup_bytes_32
    .type lookup_bytes_32, @function
lookup_bytes_32:
    .cfi_startproc
    # room above the frame
    .word 0xff010113  # addi x2, x2, -16
    .cfi_def_cfa_offset 16
    # the caller's registers
    # arguments that are needed behind the body
    .word 0x00a12223  # sw x10, 4(x2)
    .word 0x00b12423  # sw x11, 8(x2)
    .word 0x00c12623  # sw x12, 12(x2)
    # the frame's base
    .word 0xdc010113  # addi x2, x2, -576
    .cfi_def_cfa 2, 592
    # parameter 0: a word
    .word 0x0ff57513  # andi x10, x10, 255
    .word 0x00a12023  # sw x10, 0(x2)
    # parameter 1: an array
    .word 0x00058293  # addi x5, x11, 0
    .word 0x00410313  # addi x6, x2, 4
    .word 0x20028393  # addi x7, x5, 512
    .word 0x0002ce03  # lbu x28, 0(x5)
    .word 0x01c30023  # sb x28, 0(x6)
    .word 0x00128293  # addi x5, x5, 1
    .word 0x00130313  # addi x6, x6, 1
    .word 0xfe7298e3  # bne x5, x7, -16
    # the body
    .word 0x00012503  # lw x10, 0(x2)
    .word 0xfff00593  # addi x11, x0, -1
    .word 0x00158593  # addi x11, x11, 1
    .word 0x00000313  # addi x6, x0, 0
    .word 0x002582b3  # add x5, x11, x2
    .word 0x20628223  # sb x6, 516(x5)
    .word 0xfe158293  # addi x5, x11, -31
    .word 0xfe0296e3  # bne x5, x0, -20
    .word 0xfff00593  # addi x11, x0, -1
    .word 0x00158593  # addi x11, x11, 1
    .word 0x00459613  # slli x12, x11, 4
    .word 0x0015f293  # andi x5, x11, 1
    .word 0x00429693  # slli x13, x5, 4
    .word 0x0015d293  # srli x5, x11, 1
    .word 0x40a282b3  # sub x5, x5, x10
    .word 0x0012b293  # sltiu x5, x5, 1
    .word 0x40500733  # sub x14, x0, x5
    .word 0xfff00793  # addi x15, x0, -1
    .word 0x00178793  # addi x15, x15, 1
    .word 0x00f682b3  # add x5, x13, x15
    .word 0x00f68333  # add x6, x13, x15
    .word 0x00230333  # add x6, x6, x2
    .word 0x20434303  # lbu x6, 516(x6)
    .word 0x00f603b3  # add x7, x12, x15
    .word 0x002383b3  # add x7, x7, x2
    .word 0x0043c383  # lbu x7, 4(x7)
    .word 0x00e3f3b3  # and x7, x7, x14
    .word 0x00736333  # or x6, x6, x7
    .word 0x002282b3  # add x5, x5, x2
    .word 0x20628223  # sb x6, 516(x5)
    .word 0xff178293  # addi x5, x15, -15
    .word 0xfc0296e3  # bne x5, x0, -52
    .word 0xfe158293  # addi x5, x11, -31
    .word 0xfa0290e3  # bne x5, x0, -96
    # the result
    .word 0x00000513  # addi x10, x0, 0
    # parameter 2: the array, back
    .word 0x20410293  # addi x5, x2, 516
    .word 0x24c12303  # lw x6, 588(x2)
    .word 0x02028393  # addi x7, x5, 32
    .word 0x0002ce03  # lbu x28, 0(x5)
    .word 0x01c30023  # sb x28, 0(x6)
    .word 0x00128293  # addi x5, x5, 1
    .word 0x00130313  # addi x6, x6, 1
    .word 0xfe7298e3  # bne x5, x7, -16
    # above the frame
    .word 0x24010293  # addi x5, x2, 576
    # the caller's registers
    # the caller's x2
    .word 0x01028293  # addi x5, x5, 16
    .cfi_def_cfa 5, 0
    # on to the tail that functions share
    jal x0, factc.tail.1
    .cfi_endproc
    .size lookup_bytes_32, . - lookup_bytes_32
    .section .text.factc.tail.1, "axG", @progbits, factc.tail.1, comdat
    .p2align 2
    .globl factc.tail.1
    .hidden factc.tail.1
    .type factc.tail.1, @function
factc.tail.1:
    .cfi_startproc
    .cfi_def_cfa 5, 0
    # all the room, wiped upward
    .word 0x00012023  # sw x0, 0(x2)
    .word 0x00012223  # sw x0, 4(x2)
    .word 0x00012423  # sw x0, 8(x2)
    .word 0x00012623  # sw x0, 12(x2)
    .word 0x01010113  # addi x2, x2, 16
    .word 0xfe5116e3  # bne x2, x5, -20
    .cfi_def_cfa 2, 0
    # temporaries, wiped
    .word 0x00000293  # addi x5, x0, 0
    .word 0x00000313  # addi x6, x0, 0
    .word 0x00000393  # addi x7, x0, 0
    .word 0x00000593  # addi x11, x0, 0
    .word 0x00000613  # addi x12, x0, 0
    .word 0x00000693  # addi x13, x0, 0
    .word 0x00000713  # addi x14, x0, 0
    .word 0x00000793  # addi x15, x0, 0
    .word 0x00000813  # addi x16, x0, 0
    .word 0x00000893  # addi x17, x0, 0
    .word 0x00000e13  # addi x28, x0, 0
    .word 0x00000e93  # addi x29, x0, 0
    .word 0x00000f13  # addi x30, x0, 0
    .word 0x00000f93  # addi x31, x0, 0
    # back
    .word 0x00008067  # jalr x0, 0(x1)
    .cfi_endproc
    .size factc.tail.1, . - factc.tail.1
    .option pop
