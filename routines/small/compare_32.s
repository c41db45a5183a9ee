# compare_32: made by factc 1.0.0 function; 53 words and 21 shared, 96 bytes of stack, profile 1
    .option push
    .option norvc
    .option norelax
    .cfi_sections .debug_frame
    .section .text.compare_32, "ax", @progbits
    .p2align 2
    .globl compare_32
    .type compare_32, @function
compare_32:
    .cfi_startproc
    # room above the frame
    .cfi_def_cfa_offset 0
    # the caller's registers
    # arguments that are needed behind the body
    # the frame's base
    .word 0xfa010113  # addi x2, x2, -96
    .cfi_def_cfa 2, 96
    # parameter 0: an array
    .word 0x00050293  # addi x5, x10, 0
    .word 0x00010313  # addi x6, x2, 0
    .word 0x02028393  # addi x7, x5, 32
    .word 0x0002ce03  # lbu x28, 0(x5)
    .word 0x01c30023  # sb x28, 0(x6)
    .word 0x00128293  # addi x5, x5, 1
    .word 0x00130313  # addi x6, x6, 1
    .word 0xfe7298e3  # bne x5, x7, -16
    # parameter 1: an array
    .word 0x00058293  # addi x5, x11, 0
    .word 0x02010313  # addi x6, x2, 32
    .word 0x02028393  # addi x7, x5, 32
    .word 0x0002ce03  # lbu x28, 0(x5)
    .word 0x01c30023  # sb x28, 0(x6)
    .word 0x00128293  # addi x5, x5, 1
    .word 0x00130313  # addi x6, x6, 1
    .word 0xfe7298e3  # bne x5, x7, -16
    # the body
    .word 0x00000513  # addi x10, x0, 0
    .word 0x00000593  # addi x11, x0, 0
    .word 0xfff00613  # addi x12, x0, -1
    .word 0x00160613  # addi x12, x12, 1
    .word 0x01800293  # addi x5, x0, 24
    .word 0x00361313  # slli x6, x12, 3
    .word 0x406286b3  # sub x13, x5, x6
    .word 0xfff00713  # addi x14, x0, -1
    .word 0x00170713  # addi x14, x14, 1
    .word 0x00700313  # addi x6, x0, 7
    .word 0x40e30333  # sub x6, x6, x14
    .word 0x006682b3  # add x5, x13, x6
    .word 0x002282b3  # add x5, x5, x2
    .word 0x0002c283  # lbu x5, 0(x5)
    .word 0x00700393  # addi x7, x0, 7
    .word 0x40e383b3  # sub x7, x7, x14
    .word 0x00768333  # add x6, x13, x7
    .word 0x00230333  # add x6, x6, x2
    .word 0x02034303  # lbu x6, 32(x6)
    .word 0x406282b3  # sub x5, x5, x6
    .word 0x40a287b3  # sub x15, x5, x10
    .word 0x01f7d513  # srli x10, x15, 31
    .word 0x00f5e5b3  # or x11, x11, x15
    .word 0xff970293  # addi x5, x14, -7
    .word 0xfc0290e3  # bne x5, x0, -64
    .word 0xffd60293  # addi x5, x12, -3
    .word 0xfa0292e3  # bne x5, x0, -92
    .word 0x00b037b3  # sltu x15, x0, x11
    .word 0x00f782b3  # add x5, x15, x15
    .word 0x40a282b3  # sub x5, x5, x10
    .word 0x0ff2f293  # andi x5, x5, 255
    .word 0x04512023  # sw x5, 64(x2)
    # the result
    .word 0x04012503  # lw x10, 64(x2)
    # above the frame
    .word 0x06010293  # addi x5, x2, 96
    # the caller's registers
    # the caller's x2
    .word 0x00028293  # addi x5, x5, 0
    .cfi_def_cfa 5, 0
    # on to the tail that functions share
    jal x0, factc.tail.1
    .cfi_endproc
    .size compare_32, . - compare_32
    .section .text.factc.tail.1, "axG", @progbits, factc.tail.1, comdat
    .p2align 2
    .globl factc.tail.1
    .hidden factc.tail.1
    .type factc.tail.1, @function
factc.tail.1:
    .cfi_startproc
    .cfi_def_cfa 5, 0
    # all the room, wiped upward
    .word 0x00012023  # sw x0, 0(x2)
    .word 0x00012223  # sw x0, 4(x2)
    .word 0x00012423  # sw x0, 8(x2)
    .word 0x00012623  # sw x0, 12(x2)
    .word 0x01010113  # addi x2, x2, 16
    .word 0xfe5116e3  # bne x2, x5, -20
    .cfi_def_cfa 2, 0
    # temporaries, wiped
    .word 0x00000293  # addi x5, x0, 0
    .word 0x00000313  # addi x6, x0, 0
    .word 0x00000393  # addi x7, x0, 0
    .word 0x00000593  # addi x11, x0, 0
    .word 0x00000613  # addi x12, x0, 0
    .word 0x00000693  # addi x13, x0, 0
    .word 0x00000713  # addi x14, x0, 0
    .word 0x00000793  # addi x15, x0, 0
    .word 0x00000813  # addi x16, x0, 0
    .word 0x00000893  # addi x17, x0, 0
    .word 0x00000e13  # addi x28, x0, 0
    .word 0x00000e93  # addi x29, x0, 0
    .word 0x00000f13  # addi x30, x0, 0
    .word 0x00000f93  # addi x31, x0, 0
    # back
    .word 0x00008067  # jalr x0, 0(x1)
    .cfi_endproc
    .size factc.tail.1, . - factc.tail.1
    .option pop
