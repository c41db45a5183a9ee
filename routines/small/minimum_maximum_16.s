# minimum_maximum_16: made by factc 1.0.0 function; 43 words and 21 shared, 112 bytes of stack, profile 1
    .option push
    .option norvc
    .option norelax
    .cfi_sections .debug_frame
    .section .text.minimum_maximum_16, "ax", @progbits
    .p2align 2
    .globl minimum_maximum_16
    .type minimum_maximum_16, @function
minimum_maximum_16:
    .cfi_startproc
    # room above the frame
    .word 0xff010113  # addi x2, x2, -16
    .cfi_def_cfa_offset 16
    # the caller's registers
    # arguments that are needed behind the body
    .word 0x00a12423  # sw x10, 8(x2)
    .word 0x00b12623  # sw x11, 12(x2)
    # the frame's base
    .word 0xfa010113  # addi x2, x2, -96
    .cfi_def_cfa 2, 112
    # parameter 0: an array
    .word 0x00050293  # addi x5, x10, 0
    .word 0x00010313  # addi x6, x2, 0
    .word 0x04028393  # addi x7, x5, 64
    .word 0x0002ae03  # lw x28, 0(x5)
    .word 0x01c32023  # sw x28, 0(x6)
    .word 0x00428293  # addi x5, x5, 4
    .word 0x00430313  # addi x6, x6, 4
    .word 0xfe7298e3  # bne x5, x7, -16
    # the body
    .word 0x00012503  # lw x10, 0(x2)
    .word 0x00050593  # addi x11, x10, 0
    .word 0xfff00613  # addi x12, x0, -1
    .word 0x00160613  # addi x12, x12, 1
    .word 0x00261693  # slli x13, x12, 2
    .word 0x002686b3  # add x13, x13, x2
    .word 0x0006a683  # lw x13, 0(x13)
    .word 0x00a6b2b3  # sltu x5, x13, x10
    .word 0x405002b3  # sub x5, x0, x5
    .word 0x00a6c333  # xor x6, x13, x10
    .word 0x00537333  # and x6, x6, x5
    .word 0x00654533  # xor x10, x10, x6
    .word 0x00d5b2b3  # sltu x5, x11, x13
    .word 0x405002b3  # sub x5, x0, x5
    .word 0x00b6c333  # xor x6, x13, x11
    .word 0x00537333  # and x6, x6, x5
    .word 0x0065c5b3  # xor x11, x11, x6
    .word 0xff160293  # addi x5, x12, -15
    .word 0xfc0292e3  # bne x5, x0, -60
    .word 0x04a12023  # sw x10, 64(x2)
    .word 0x04b12223  # sw x11, 68(x2)
    # the result
    .word 0x00000513  # addi x10, x0, 0
    # parameter 1: the array, back
    .word 0x04010293  # addi x5, x2, 64
    .word 0x06c12303  # lw x6, 108(x2)
    .word 0x0002ae03  # lw x28, 0(x5)
    .word 0x01c32023  # sw x28, 0(x6)
    .word 0x0042ae03  # lw x28, 4(x5)
    .word 0x01c32223  # sw x28, 4(x6)
    # above the frame
    .word 0x06010293  # addi x5, x2, 96
    # the caller's registers
    # the caller's x2
    .word 0x01028293  # addi x5, x5, 16
    .cfi_def_cfa 5, 0
    # on to the tail that functions share
    jal x0, factc.tail.1
    .cfi_endproc
    .size minimum_maximum_16, . - minimum_maximum_16
    .section .text.factc.tail.1, "axG", @progbits, factc.tail.1, comdat
    .p2align 2
    .globl factc.tail.1
    .hidden factc.tail.1
    .type factc.tail.1, @function
factc.tail.1:
    .cfi_startproc
    .cfi_def_cfa 5, 0
    # all the room, wiped upward
    .word 0x00012023  # sw x0, 0(x2)
    .word 0x00012223  # sw x0, 4(x2)
    .word 0x00012423  # sw x0, 8(x2)
    .word 0x00012623  # sw x0, 12(x2)
    .word 0x01010113  # addi x2, x2, 16
    .word 0xfe5116e3  # bne x2, x5, -20
    .cfi_def_cfa 2, 0
    # temporaries, wiped
    .word 0x00000293  # addi x5, x0, 0
    .word 0x00000313  # addi x6, x0, 0
    .word 0x00000393  # addi x7, x0, 0
    .word 0x00000593  # addi x11, x0, 0
    .word 0x00000613  # addi x12, x0, 0
    .word 0x00000693  # addi x13, x0, 0
    .word 0x00000713  # addi x14, x0, 0
    .word 0x00000793  # addi x15, x0, 0
    .word 0x00000813  # addi x16, x0, 0
    .word 0x00000893  # addi x17, x0, 0
    .word 0x00000e13  # addi x28, x0, 0
    .word 0x00000e93  # addi x29, x0, 0
    .word 0x00000f13  # addi x30, x0, 0
    .word 0x00000f93  # addi x31, x0, 0
    # back
    .word 0x00008067  # jalr x0, 0(x1)
    .cfi_endproc
    .size factc.tail.1, . - factc.tail.1
    .option pop
