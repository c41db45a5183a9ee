# leading_zeros_32: made by factc 1.0.0 function; 42 words and 21 shared, 16 bytes of stack, profile 1
    .option push
    .option norvc
    .option norelax
    .cfi_sections .debug_frame
    .section .text.leading_zeros_32, "ax", @progbits
    .p2align 2
    .globl leading_zeros_32
    .type leading_zeros_32, @function
leading_zeros_32:
    .cfi_startproc
    # room above the frame
    .cfi_def_cfa_offset 0
    # the caller's registers
    # arguments that are needed behind the body
    # the frame's base
    .word 0xff010113  # addi x2, x2, -16
    .cfi_def_cfa 2, 16
    # parameter 0: a word
    .word 0x00a12023  # sw x10, 0(x2)
    # the body
    .word 0x00012503  # lw x10, 0(x2)
    .word 0x00155313  # srli x6, x10, 1
    .word 0x006565b3  # or x11, x10, x6
    .word 0x0025d313  # srli x6, x11, 2
    .word 0x0065e5b3  # or x11, x11, x6
    .word 0x0045d313  # srli x6, x11, 4
    .word 0x0065e5b3  # or x11, x11, x6
    .word 0x0085d313  # srli x6, x11, 8
    .word 0x0065e5b3  # or x11, x11, x6
    .word 0x0105d313  # srli x6, x11, 16
    .word 0x0065e5b3  # or x11, x11, x6
    .word 0xfff5c593  # xori x11, x11, -1
    .word 0x0015d313  # srli x6, x11, 1
    .word 0x555553b7  # lui x7, 0x55555
    .word 0x55538393  # addi x7, x7, 1365
    .word 0x00737333  # and x6, x6, x7
    .word 0x406585b3  # sub x11, x11, x6
    .word 0x33333337  # lui x6, 0x33333
    .word 0x33330313  # addi x6, x6, 819
    .word 0x0065f2b3  # and x5, x11, x6
    .word 0x0025d313  # srli x6, x11, 2
    .word 0x333333b7  # lui x7, 0x33333
    .word 0x33338393  # addi x7, x7, 819
    .word 0x00737333  # and x6, x6, x7
    .word 0x006285b3  # add x11, x5, x6
    .word 0x0045d313  # srli x6, x11, 4
    .word 0x006582b3  # add x5, x11, x6
    .word 0x0f0f1337  # lui x6, 0x0f0f1
    .word 0xf0f30313  # addi x6, x6, -241
    .word 0x0062f5b3  # and x11, x5, x6
    .word 0x0085d313  # srli x6, x11, 8
    .word 0x006585b3  # add x11, x11, x6
    .word 0x0105d313  # srli x6, x11, 16
    .word 0x006582b3  # add x5, x11, x6
    .word 0x03f2f293  # andi x5, x5, 63
    .word 0x00512223  # sw x5, 4(x2)
    # the result
    .word 0x00412503  # lw x10, 4(x2)
    # above the frame
    .word 0x01010293  # addi x5, x2, 16
    # the caller's registers
    # the caller's x2
    .word 0x00028293  # addi x5, x5, 0
    .cfi_def_cfa 5, 0
    # on to the tail that functions share
    jal x0, factc.tail.1
    .cfi_endproc
    .size leading_zeros_32, . - leading_zeros_32
    .section .text.factc.tail.1, "axG", @progbits, factc.tail.1, comdat
    .p2align 2
    .globl factc.tail.1
    .hidden factc.tail.1
    .type factc.tail.1, @function
factc.tail.1:
    .cfi_startproc
    .cfi_def_cfa 5, 0
    # all the room, wiped upward
    .word 0x00012023  # sw x0, 0(x2)
    .word 0x00012223  # sw x0, 4(x2)
    .word 0x00012423  # sw x0, 8(x2)
    .word 0x00012623  # sw x0, 12(x2)
    .word 0x01010113  # addi x2, x2, 16
    .word 0xfe5116e3  # bne x2, x5, -20
    .cfi_def_cfa 2, 0
    # temporaries, wiped
    .word 0x00000293  # addi x5, x0, 0
    .word 0x00000313  # addi x6, x0, 0
    .word 0x00000393  # addi x7, x0, 0
    .word 0x00000593  # addi x11, x0, 0
    .word 0x00000613  # addi x12, x0, 0
    .word 0x00000693  # addi x13, x0, 0
    .word 0x00000713  # addi x14, x0, 0
    .word 0x00000793  # addi x15, x0, 0
    .word 0x00000813  # addi x16, x0, 0
    .word 0x00000893  # addi x17, x0, 0
    .word 0x00000e13  # addi x28, x0, 0
    .word 0x00000e93  # addi x29, x0, 0
    .word 0x00000f13  # addi x30, x0, 0
    .word 0x00000f93  # addi x31, x0, 0
    # back
    .word 0x00008067  # jalr x0, 0(x1)
    .cfi_endproc
    .size factc.tail.1, . - factc.tail.1
    .option pop
