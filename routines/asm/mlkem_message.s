# mlkem_message: made by factc 1.0.0 function; 109 words, 576 bytes of stack, profile 1
    .option push
    .option norvc
    .option norelax
    .cfi_sections .debug_frame
    .section .text.mlkem_message, "ax", @progbits
    .p2align 2
    .globl mlkem_message
    .type mlkem_message, @function
mlkem_message:
    .cfi_startproc
    # room above the frame
    .word 0xff010113  # addi x2, x2, -16
    .cfi_def_cfa_offset 16
    # the caller's registers
    # arguments that are needed behind the body
    .word 0x00a12423  # sw x10, 8(x2)
    .word 0x00b12623  # sw x11, 12(x2)
    # the frame's base
    .word 0xdd010113  # addi x2, x2, -560
    .cfi_def_cfa 2, 576
    # parameter 0: an array
    .word 0x00050293  # addi x5, x10, 0
    .word 0x00010313  # addi x6, x2, 0
    .word 0x02028393  # addi x7, x5, 32
    .word 0x14400f6f  # jal x30, 324
    # parameter 1: an array
    .word 0x00058293  # addi x5, x11, 0
    .word 0x02010313  # addi x6, x2, 32
    .word 0x20028393  # addi x7, x5, 512
    .word 0x13400f6f  # jal x30, 308
    # the body
    .word 0xfff00513  # addi x10, x0, -1
    .word 0x00150513  # addi x10, x10, 1
    .word 0x00351593  # slli x11, x10, 3
    .word 0x00159693  # slli x13, x11, 1
    .word 0x002686b3  # add x13, x13, x2
    .word 0x00250633  # add x12, x10, x2
    .word 0x00064603  # lbu x12, 0(x12)
    .word 0x00167293  # andi x5, x12, 1
    .word 0x405002b3  # sub x5, x0, x5
    .word 0x6812f293  # andi x5, x5, 1665
    .word 0x02569023  # sh x5, 32(x13)
    .word 0x00165293  # srli x5, x12, 1
    .word 0x0012f293  # andi x5, x5, 1
    .word 0x405002b3  # sub x5, x0, x5
    .word 0x6812f293  # andi x5, x5, 1665
    .word 0x02569123  # sh x5, 34(x13)
    .word 0x00265293  # srli x5, x12, 2
    .word 0x0012f293  # andi x5, x5, 1
    .word 0x405002b3  # sub x5, x0, x5
    .word 0x6812f293  # andi x5, x5, 1665
    .word 0x02569223  # sh x5, 36(x13)
    .word 0x00365293  # srli x5, x12, 3
    .word 0x0012f293  # andi x5, x5, 1
    .word 0x405002b3  # sub x5, x0, x5
    .word 0x6812f293  # andi x5, x5, 1665
    .word 0x02569323  # sh x5, 38(x13)
    .word 0x00465293  # srli x5, x12, 4
    .word 0x0012f293  # andi x5, x5, 1
    .word 0x405002b3  # sub x5, x0, x5
    .word 0x6812f293  # andi x5, x5, 1665
    .word 0x02569423  # sh x5, 40(x13)
    .word 0x00565293  # srli x5, x12, 5
    .word 0x0012f293  # andi x5, x5, 1
    .word 0x405002b3  # sub x5, x0, x5
    .word 0x6812f293  # andi x5, x5, 1665
    .word 0x02569523  # sh x5, 42(x13)
    .word 0x00665293  # srli x5, x12, 6
    .word 0x0012f293  # andi x5, x5, 1
    .word 0x405002b3  # sub x5, x0, x5
    .word 0x6812f293  # andi x5, x5, 1665
    .word 0x02569623  # sh x5, 44(x13)
    .word 0x00765293  # srli x5, x12, 7
    .word 0x0012f293  # andi x5, x5, 1
    .word 0x405002b3  # sub x5, x0, x5
    .word 0x6812f293  # andi x5, x5, 1665
    .word 0x02569723  # sh x5, 46(x13)
    .word 0xfe150293  # addi x5, x10, -31
    .word 0xf40294e3  # bne x5, x0, -184
    # the result
    .word 0x00000513  # addi x10, x0, 0
    # parameter 1: the array, back
    .word 0x02010293  # addi x5, x2, 32
    .word 0x23c12303  # lw x6, 572(x2)
    .word 0x20028393  # addi x7, x5, 512
    .word 0x06000f6f  # jal x30, 96
    # above the frame
    .word 0x23010293  # addi x5, x2, 560
    # the caller's registers
    # the caller's x2
    .word 0x01028293  # addi x5, x5, 16
    .cfi_def_cfa 5, 0
    # all the room, wiped upward
    .word 0x00012023  # sw x0, 0(x2)
    .word 0x00012223  # sw x0, 4(x2)
    .word 0x00012423  # sw x0, 8(x2)
    .word 0x00012623  # sw x0, 12(x2)
    .word 0x01010113  # addi x2, x2, 16
    .word 0xfe5116e3  # bne x2, x5, -20
    .cfi_def_cfa 2, 0
    # temporaries, wiped
    .word 0x00000293  # addi x5, x0, 0
    .word 0x00000313  # addi x6, x0, 0
    .word 0x00000393  # addi x7, x0, 0
    .word 0x00000593  # addi x11, x0, 0
    .word 0x00000613  # addi x12, x0, 0
    .word 0x00000693  # addi x13, x0, 0
    .word 0x00000713  # addi x14, x0, 0
    .word 0x00000793  # addi x15, x0, 0
    .word 0x00000813  # addi x16, x0, 0
    .word 0x00000893  # addi x17, x0, 0
    .word 0x00000e13  # addi x28, x0, 0
    .word 0x00000e93  # addi x29, x0, 0
    .word 0x00000f13  # addi x30, x0, 0
    .word 0x00000f93  # addi x31, x0, 0
    # back
    .word 0x00008067  # jalr x0, 0(x1)
    # from x5 to x6 up to x7, and back
    .cfi_def_cfa 2, 576
    .word 0x0062ee33  # or x28, x5, x6
    .word 0x003e7e13  # andi x28, x28, 3
    .word 0x000e0e63  # beq x28, x0, 28
    .word 0x0002ce03  # lbu x28, 0(x5)
    .word 0x01c30023  # sb x28, 0(x6)
    .word 0x00128293  # addi x5, x5, 1
    .word 0x00130313  # addi x6, x6, 1
    .word 0xfe7298e3  # bne x5, x7, -16
    .word 0x0300006f  # jal x0, 48
    .word 0x0002ae03  # lw x28, 0(x5)
    .word 0x01c32023  # sw x28, 0(x6)
    .word 0x0042ae03  # lw x28, 4(x5)
    .word 0x01c32223  # sw x28, 4(x6)
    .word 0x0082ae03  # lw x28, 8(x5)
    .word 0x01c32423  # sw x28, 8(x6)
    .word 0x00c2ae03  # lw x28, 12(x5)
    .word 0x01c32623  # sw x28, 12(x6)
    .word 0x01028293  # addi x5, x5, 16
    .word 0x01030313  # addi x6, x6, 16
    .word 0xfc729ce3  # bne x5, x7, -40
    .word 0x000f0067  # jalr x0, 0(x30)
    .cfi_endproc
    .size mlkem_message, . - mlkem_message
    .option pop
