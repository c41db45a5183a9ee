# less_32: made by factc 1.0.0 function; 106 words, 80 bytes of stack, profile 1
    .option push
    .option norvc
    .option norelax
    .cfi_sections .debug_frame
    .section .text.less_32, "ax", @progbits
    .p2align 2
    .globl less_32
    .type less_32, @function
less_32:
    .cfi_startproc
    # room above the frame
    .cfi_def_cfa_offset 0
    # the caller's registers
    # arguments that are needed behind the body
    # the frame's base
    .word 0xfb010113  # addi x2, x2, -80
    .cfi_def_cfa 2, 80
    # parameter 0: an array
    .word 0x00050293  # addi x5, x10, 0
    .word 0x00010313  # addi x6, x2, 0
    .word 0x02028393  # addi x7, x5, 32
    .word 0x14400f6f  # jal x30, 324
    # parameter 1: an array
    .word 0x00058293  # addi x5, x11, 0
    .word 0x02010313  # addi x6, x2, 32
    .word 0x02028393  # addi x7, x5, 32
    .word 0x13400f6f  # jal x30, 308
    # the body
    .word 0x00000513  # addi x10, x0, 0
    .word 0xfff00613  # addi x12, x0, -1
    .word 0x00160613  # addi x12, x12, 1
    .word 0x01800293  # addi x5, x0, 24
    .word 0x00361313  # slli x6, x12, 3
    .word 0x406285b3  # sub x11, x5, x6
    .word 0x002586b3  # add x13, x11, x2
    .word 0x0076c283  # lbu x5, 7(x13)
    .word 0x0276c303  # lbu x6, 39(x13)
    .word 0x406282b3  # sub x5, x5, x6
    .word 0x40a282b3  # sub x5, x5, x10
    .word 0x01f2d513  # srli x10, x5, 31
    .word 0x0066c283  # lbu x5, 6(x13)
    .word 0x0266c303  # lbu x6, 38(x13)
    .word 0x406282b3  # sub x5, x5, x6
    .word 0x40a282b3  # sub x5, x5, x10
    .word 0x01f2d513  # srli x10, x5, 31
    .word 0x0056c283  # lbu x5, 5(x13)
    .word 0x0256c303  # lbu x6, 37(x13)
    .word 0x406282b3  # sub x5, x5, x6
    .word 0x40a282b3  # sub x5, x5, x10
    .word 0x01f2d513  # srli x10, x5, 31
    .word 0x0046c283  # lbu x5, 4(x13)
    .word 0x0246c303  # lbu x6, 36(x13)
    .word 0x406282b3  # sub x5, x5, x6
    .word 0x40a282b3  # sub x5, x5, x10
    .word 0x01f2d513  # srli x10, x5, 31
    .word 0x0036c283  # lbu x5, 3(x13)
    .word 0x0236c303  # lbu x6, 35(x13)
    .word 0x406282b3  # sub x5, x5, x6
    .word 0x40a282b3  # sub x5, x5, x10
    .word 0x01f2d513  # srli x10, x5, 31
    .word 0x0026c283  # lbu x5, 2(x13)
    .word 0x0226c303  # lbu x6, 34(x13)
    .word 0x406282b3  # sub x5, x5, x6
    .word 0x40a282b3  # sub x5, x5, x10
    .word 0x01f2d513  # srli x10, x5, 31
    .word 0x0016c283  # lbu x5, 1(x13)
    .word 0x0216c303  # lbu x6, 33(x13)
    .word 0x406282b3  # sub x5, x5, x6
    .word 0x40a282b3  # sub x5, x5, x10
    .word 0x01f2d513  # srli x10, x5, 31
    .word 0x0006c283  # lbu x5, 0(x13)
    .word 0x0206c303  # lbu x6, 32(x13)
    .word 0x406282b3  # sub x5, x5, x6
    .word 0x40a282b3  # sub x5, x5, x10
    .word 0x01f2d513  # srli x10, x5, 31
    .word 0xffd60293  # addi x5, x12, -3
    .word 0xf40294e3  # bne x5, x0, -184
    .word 0xfff50293  # addi x5, x10, -1
    .word 0x0012b293  # sltiu x5, x5, 1
    .word 0x04512023  # sw x5, 64(x2)
    # the result
    .word 0x04012503  # lw x10, 64(x2)
    # above the frame
    .word 0x05010293  # addi x5, x2, 80
    # the caller's registers
    # the caller's x2
    .word 0x00028293  # addi x5, x5, 0
    .cfi_def_cfa 5, 0
    # all the room, wiped upward
    .word 0x00012023  # sw x0, 0(x2)
    .word 0x00012223  # sw x0, 4(x2)
    .word 0x00012423  # sw x0, 8(x2)
    .word 0x00012623  # sw x0, 12(x2)
    .word 0x01010113  # addi x2, x2, 16
    .word 0xfe5116e3  # bne x2, x5, -20
    .cfi_def_cfa 2, 0
    # temporaries, wiped
    .word 0x00000293  # addi x5, x0, 0
    .word 0x00000313  # addi x6, x0, 0
    .word 0x00000393  # addi x7, x0, 0
    .word 0x00000593  # addi x11, x0, 0
    .word 0x00000613  # addi x12, x0, 0
    .word 0x00000693  # addi x13, x0, 0
    .word 0x00000713  # addi x14, x0, 0
    .word 0x00000793  # addi x15, x0, 0
    .word 0x00000813  # addi x16, x0, 0
    .word 0x00000893  # addi x17, x0, 0
    .word 0x00000e13  # addi x28, x0, 0
    .word 0x00000e93  # addi x29, x0, 0
    .word 0x00000f13  # addi x30, x0, 0
    .word 0x00000f93  # addi x31, x0, 0
    # back
    .word 0x00008067  # jalr x0, 0(x1)
    # from x5 to x6 up to x7, and back
    .cfi_def_cfa 2, 80
    .word 0x0062ee33  # or x28, x5, x6
    .word 0x003e7e13  # andi x28, x28, 3
    .word 0x000e0e63  # beq x28, x0, 28
    .word 0x0002ce03  # lbu x28, 0(x5)
    .word 0x01c30023  # sb x28, 0(x6)
    .word 0x00128293  # addi x5, x5, 1
    .word 0x00130313  # addi x6, x6, 1
    .word 0xfe7298e3  # bne x5, x7, -16
    .word 0x0300006f  # jal x0, 48
    .word 0x0002ae03  # lw x28, 0(x5)
    .word 0x01c32023  # sw x28, 0(x6)
    .word 0x0042ae03  # lw x28, 4(x5)
    .word 0x01c32223  # sw x28, 4(x6)
    .word 0x0082ae03  # lw x28, 8(x5)
    .word 0x01c32423  # sw x28, 8(x6)
    .word 0x00c2ae03  # lw x28, 12(x5)
    .word 0x01c32623  # sw x28, 12(x6)
    .word 0x01028293  # addi x5, x5, 16
    .word 0x01030313  # addi x6, x6, 16
    .word 0xfc729ce3  # bne x5, x7, -40
    .word 0x000f0067  # jalr x0, 0(x30)
    .cfi_endproc
    .size less_32, . - less_32
    .option pop
