# shift_left_64: made by factc 1.0.0 function; 42 words and 21 shared, 32 bytes of stack, profile 1
    .option push
    .option norvc
    .option norelax
    .cfi_sections .debug_frame
    .section .text.shift_left_64, "ax", @progbits
    .p2align 2
    .globl shift_left_64
    .type shift_left_64, @function
shift_left_64:
    .cfi_startproc
    # room above the frame
    .word 0xff010113  # addi x2, x2, -16
    .cfi_def_cfa_offset 16
    # the caller's registers
    # arguments that are needed behind the body
    .word 0x00a12623  # sw x10, 12(x2)
    # the frame's base
    .word 0xff010113  # addi x2, x2, -16
    .cfi_def_cfa 2, 32
    # parameter 0: an array
    .word 0x00050293  # addi x5, x10, 0
    .word 0x00010313  # addi x6, x2, 0
    .word 0x0002ae03  # lw x28, 0(x5)
    .word 0x01c32023  # sw x28, 0(x6)
    .word 0x0042ae03  # lw x28, 4(x5)
    .word 0x01c32223  # sw x28, 4(x6)
    # parameter 1: a word
    .word 0x00b12423  # sw x11, 8(x2)
    # the body
    .word 0x00812583  # lw x11, 8(x2)
    .word 0x00012283  # lw x5, 0(x2)
    .word 0x00b29633  # sll x12, x5, x11
    .word 0x00412283  # lw x5, 4(x2)
    .word 0x00b292b3  # sll x5, x5, x11
    .word 0x00012303  # lw x6, 0(x2)
    .word 0x00135313  # srli x6, x6, 1
    .word 0xfff5c393  # xori x7, x11, -1
    .word 0x00735333  # srl x6, x6, x7
    .word 0x0062e6b3  # or x13, x5, x6
    .word 0x0205b713  # sltiu x14, x11, 32
    .word 0x40e002b3  # sub x5, x0, x14
    .word 0x005672b3  # and x5, x12, x5
    .word 0x00512023  # sw x5, 0(x2)
    .word 0x0405b393  # sltiu x7, x11, 64
    .word 0x407003b3  # sub x7, x0, x7
    .word 0x007673b3  # and x7, x12, x7
    .word 0x40e002b3  # sub x5, x0, x14
    .word 0x0076c333  # xor x6, x13, x7
    .word 0x00537333  # and x6, x6, x5
    .word 0x0063c2b3  # xor x5, x7, x6
    .word 0x00512223  # sw x5, 4(x2)
    # the result
    .word 0x00000513  # addi x10, x0, 0
    # parameter 0: the array, back
    .word 0x00010293  # addi x5, x2, 0
    .word 0x01c12303  # lw x6, 28(x2)
    .word 0x0002ae03  # lw x28, 0(x5)
    .word 0x01c32023  # sw x28, 0(x6)
    .word 0x0042ae03  # lw x28, 4(x5)
    .word 0x01c32223  # sw x28, 4(x6)
    # above the frame
    .word 0x01010293  # addi x5, x2, 16
    # the caller's registers
    # the caller's x2
    .word 0x01028293  # addi x5, x5, 16
    .cfi_def_cfa 5, 0
    # on to the tail that functions share
    jal x0, factc.tail.1
    .cfi_endproc
    .size shift_left_64, . - shift_left_64
    .section .text.factc.tail.1, "axG", @progbits, factc.tail.1, comdat
    .p2align 2
    .globl factc.tail.1
    .hidden factc.tail.1
    .type factc.tail.1, @function
factc.tail.1:
    .cfi_startproc
    .cfi_def_cfa 5, 0
    # all the room, wiped upward
    .word 0x00012023  # sw x0, 0(x2)
    .word 0x00012223  # sw x0, 4(x2)
    .word 0x00012423  # sw x0, 8(x2)
    .word 0x00012623  # sw x0, 12(x2)
    .word 0x01010113  # addi x2, x2, 16
    .word 0xfe5116e3  # bne x2, x5, -20
    .cfi_def_cfa 2, 0
    # temporaries, wiped
    .word 0x00000293  # addi x5, x0, 0
    .word 0x00000313  # addi x6, x0, 0
    .word 0x00000393  # addi x7, x0, 0
    .word 0x00000593  # addi x11, x0, 0
    .word 0x00000613  # addi x12, x0, 0
    .word 0x00000693  # addi x13, x0, 0
    .word 0x00000713  # addi x14, x0, 0
    .word 0x00000793  # addi x15, x0, 0
    .word 0x00000813  # addi x16, x0, 0
    .word 0x00000893  # addi x17, x0, 0
    .word 0x00000e13  # addi x28, x0, 0
    .word 0x00000e93  # addi x29, x0, 0
    .word 0x00000f13  # addi x30, x0, 0
    .word 0x00000f93  # addi x31, x0, 0
    # back
    .word 0x00008067  # jalr x0, 0(x1)
    .cfi_endproc
    .size factc.tail.1, . - factc.tail.1
    .option pop
