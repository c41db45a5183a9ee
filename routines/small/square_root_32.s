# square_root_32: made by factc 1.0.0 function; 25 words and 21 shared, 16 bytes of stack, profile 1
    .option push
    .option norvc
    .option norelax
    .cfi_sections .debug_frame
    .section .text.square_root_32, "ax", @progbits
    .p2align 2
    .globl square_root_32
    .type square_root_32, @function
square_root_32:
    .cfi_startproc
    # room above the frame
    .cfi_def_cfa_offset 0
    # the caller's registers
    # arguments that are needed behind the body
    # the frame's base
    .word 0xff010113  # addi x2, x2, -16
    .cfi_def_cfa 2, 16
    # parameter 0: a word
    .word 0x00a12023  # sw x10, 0(x2)
    # the body
    .word 0x00012503  # lw x10, 0(x2)
    .word 0x00050593  # addi x11, x10, 0
    .word 0x00000613  # addi x12, x0, 0
    .word 0x400006b7  # lui x13, 0x40000
    .word 0x00068693  # addi x13, x13, 0
    .word 0xfff00713  # addi x14, x0, -1
    .word 0x00170713  # addi x14, x14, 1
    .word 0x00d607b3  # add x15, x12, x13
    .word 0x00f5b2b3  # sltu x5, x11, x15
    .word 0xfff28813  # addi x16, x5, -1
    .word 0x0107f333  # and x6, x15, x16
    .word 0x406585b3  # sub x11, x11, x6
    .word 0x00165293  # srli x5, x12, 1
    .word 0x0106f333  # and x6, x13, x16
    .word 0x00628633  # add x12, x5, x6
    .word 0x0026d693  # srli x13, x13, 2
    .word 0xff170293  # addi x5, x14, -15
    .word 0xfc029ae3  # bne x5, x0, -44
    .word 0x00c12223  # sw x12, 4(x2)
    # the result
    .word 0x00412503  # lw x10, 4(x2)
    # above the frame
    .word 0x01010293  # addi x5, x2, 16
    # the caller's registers
    # the caller's x2
    .word 0x00028293  # addi x5, x5, 0
    .cfi_def_cfa 5, 0
    # on to the tail that functions share
    jal x0, factc.tail.1
    .cfi_endproc
    .size square_root_32, . - square_root_32
    .section .text.factc.tail.1, "axG", @progbits, factc.tail.1, comdat
    .p2align 2
    .globl factc.tail.1
    .hidden factc.tail.1
    .type factc.tail.1, @function
factc.tail.1:
    .cfi_startproc
    .cfi_def_cfa 5, 0
    # all the room, wiped upward
    .word 0x00012023  # sw x0, 0(x2)
    .word 0x00012223  # sw x0, 4(x2)
    .word 0x00012423  # sw x0, 8(x2)
    .word 0x00012623  # sw x0, 12(x2)
    .word 0x01010113  # addi x2, x2, 16
    .word 0xfe5116e3  # bne x2, x5, -20
    .cfi_def_cfa 2, 0
    # temporaries, wiped
    .word 0x00000293  # addi x5, x0, 0
    .word 0x00000313  # addi x6, x0, 0
    .word 0x00000393  # addi x7, x0, 0
    .word 0x00000593  # addi x11, x0, 0
    .word 0x00000613  # addi x12, x0, 0
    .word 0x00000693  # addi x13, x0, 0
    .word 0x00000713  # addi x14, x0, 0
    .word 0x00000793  # addi x15, x0, 0
    .word 0x00000813  # addi x16, x0, 0
    .word 0x00000893  # addi x17, x0, 0
    .word 0x00000e13  # addi x28, x0, 0
    .word 0x00000e93  # addi x29, x0, 0
    .word 0x00000f13  # addi x30, x0, 0
    .word 0x00000f93  # addi x31, x0, 0
    # back
    .word 0x00008067  # jalr x0, 0(x1)
    .cfi_endproc
    .size factc.tail.1, . - factc.tail.1
    .option pop
