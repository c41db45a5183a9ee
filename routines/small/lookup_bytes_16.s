# lookup_bytes_16: made by factc 1.0.0 function; 54 words and 21 shared, 320 bytes of stack, profile 1
    .option push
    .option norvc
    .option norelax
    .cfi_sections .debug_frame
    .section .text.lookup_bytes_16, "ax", @progbits
    .p2align 2
    .globl lookup_bytes_16
    .type lookup_bytes_16, @function
lookup_bytes_16:
    .cfi_startproc
    # room above the frame
    .word 0xff010113  # addi x2, x2, -16
    .cfi_def_cfa_offset 16
    # the caller's registers
    # arguments that are needed behind the body
    .word 0x00a12223  # sw x10, 4(x2)
    .word 0x00b12423  # sw x11, 8(x2)
    .word 0x00c12623  # sw x12, 12(x2)
    # the frame's base
    .word 0xed010113  # addi x2, x2, -304
    .cfi_def_cfa 2, 320
    # parameter 0: a word
    .word 0x0ff57513  # andi x10, x10, 255
    .word 0x00a12023  # sw x10, 0(x2)
    # parameter 1: an array
    .word 0x00058293  # addi x5, x11, 0
    .word 0x00410313  # addi x6, x2, 4
    .word 0x10028393  # addi x7, x5, 256
    .word 0x0002ce03  # lbu x28, 0(x5)
    .word 0x01c30023  # sb x28, 0(x6)
    .word 0x00128293  # addi x5, x5, 1
    .word 0x00130313  # addi x6, x6, 1
    .word 0xfe7298e3  # bne x5, x7, -16
    # the body
    .word 0x00012503  # lw x10, 0(x2)
    .word 0xfff00713  # addi x14, x0, -1
    .word 0x00170713  # addi x14, x14, 1
    .word 0x002707b3  # add x15, x14, x2
    .word 0x10078223  # sb x0, 260(x15)
    .word 0xff170293  # addi x5, x14, -15
    .word 0xfe0298e3  # bne x5, x0, -16
    .word 0xfff00593  # addi x11, x0, -1
    .word 0x00158593  # addi x11, x11, 1
    .word 0x00459613  # slli x12, x11, 4
    .word 0x40a582b3  # sub x5, x11, x10
    .word 0x0012b293  # sltiu x5, x5, 1
    .word 0x405006b3  # sub x13, x0, x5
    .word 0xfff00713  # addi x14, x0, -1
    .word 0x00170713  # addi x14, x14, 1
    .word 0x002707b3  # add x15, x14, x2
    .word 0x1047c283  # lbu x5, 260(x15)
    .word 0x00e60333  # add x6, x12, x14
    .word 0x00230333  # add x6, x6, x2
    .word 0x00434303  # lbu x6, 4(x6)
    .word 0x00d37333  # and x6, x6, x13
    .word 0x0062e2b3  # or x5, x5, x6
    .word 0x10578223  # sb x5, 260(x15)
    .word 0xff170293  # addi x5, x14, -15
    .word 0xfc029ce3  # bne x5, x0, -40
    .word 0xff158293  # addi x5, x11, -15
    .word 0xfa029ce3  # bne x5, x0, -72
    # the result
    .word 0x00000513  # addi x10, x0, 0
    # parameter 2: the array, back
    .word 0x10410293  # addi x5, x2, 260
    .word 0x13c12303  # lw x6, 316(x2)
    .word 0x01028393  # addi x7, x5, 16
    .word 0x0002ce03  # lbu x28, 0(x5)
    .word 0x01c30023  # sb x28, 0(x6)
    .word 0x00128293  # addi x5, x5, 1
    .word 0x00130313  # addi x6, x6, 1
    .word 0xfe7298e3  # bne x5, x7, -16
    # above the frame
    .word 0x13010293  # addi x5, x2, 304
    # the caller's registers
    # the caller's x2
    .word 0x01028293  # addi x5, x5, 16
    .cfi_def_cfa 5, 0
    # on to the tail that functions share
    jal x0, factc.tail.1
    .cfi_endproc
    .size lookup_bytes_16, . - lookup_bytes_16
    .section .text.factc.tail.1, "axG", @progbits, factc.tail.1, comdat
    .p2align 2
    .globl factc.tail.1
    .hidden factc.tail.1
    .type factc.tail.1, @function
factc.tail.1:
    .cfi_startproc
    .cfi_def_cfa 5, 0
    # all the room, wiped upward
    .word 0x00012023  # sw x0, 0(x2)
    .word 0x00012223  # sw x0, 4(x2)
    .word 0x00012423  # sw x0, 8(x2)
    .word 0x00012623  # sw x0, 12(x2)
    .word 0x01010113  # addi x2, x2, 16
    .word 0xfe5116e3  # bne x2, x5, -20
    .cfi_def_cfa 2, 0
    # temporaries, wiped
    .word 0x00000293  # addi x5, x0, 0
    .word 0x00000313  # addi x6, x0, 0
    .word 0x00000393  # addi x7, x0, 0
    .word 0x00000593  # addi x11, x0, 0
    .word 0x00000613  # addi x12, x0, 0
    .word 0x00000693  # addi x13, x0, 0
    .word 0x00000713  # addi x14, x0, 0
    .word 0x00000793  # addi x15, x0, 0
    .word 0x00000813  # addi x16, x0, 0
    .word 0x00000893  # addi x17, x0, 0
    .word 0x00000e13  # addi x28, x0, 0
    .word 0x00000e93  # addi x29, x0, 0
    .word 0x00000f13  # addi x30, x0, 0
    .word 0x00000f93  # addi x31, x0, 0
    # back
    .word 0x00008067  # jalr x0, 0(x1)
    .cfi_endproc
    .size factc.tail.1, . - factc.tail.1
    .option pop
