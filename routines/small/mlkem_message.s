# mlkem_message: made by factc 1.0.0 function; 51 words and 21 shared, 592 bytes of stack, profile 1
    .option push
    .option norvc
    .option norelax
    .cfi_sections .debug_frame
    .section .text.mlkem_message, "ax", @progbits
    .p2align 2
    .globl mlkem_message
    .type mlkem_message, @function
mlkem_message:
    .cfi_startproc
    # room above the frame
    .word 0xff010113  # addi x2, x2, -16
    .cfi_def_cfa_offset 16
    # the caller's registers
    # arguments that are needed behind the body
    .word 0x00a12423  # sw x10, 8(x2)
    .word 0x00b12623  # sw x11, 12(x2)
    # the frame's base
    .word 0xdc010113  # addi x2, x2, -576
    .cfi_def_cfa 2, 592
    # parameter 0: an array
    .word 0x00050293  # addi x5, x10, 0
    .word 0x00010313  # addi x6, x2, 0
    .word 0x02028393  # addi x7, x5, 32
    .word 0x0002ce03  # lbu x28, 0(x5)
    .word 0x01c30023  # sb x28, 0(x6)
    .word 0x00128293  # addi x5, x5, 1
    .word 0x00130313  # addi x6, x6, 1
    .word 0xfe7298e3  # bne x5, x7, -16
    # parameter 1: an array
    .word 0x00058293  # addi x5, x11, 0
    .word 0x02010313  # addi x6, x2, 32
    .word 0x20028393  # addi x7, x5, 512
    .word 0x0002de03  # lhu x28, 0(x5)
    .word 0x01c31023  # sh x28, 0(x6)
    .word 0x00228293  # addi x5, x5, 2
    .word 0x00230313  # addi x6, x6, 2
    .word 0xfe7298e3  # bne x5, x7, -16
    # the body
    .word 0xfff00513  # addi x10, x0, -1
    .word 0x00150513  # addi x10, x10, 1
    .word 0x00351593  # slli x11, x10, 3
    .word 0x00250633  # add x12, x10, x2
    .word 0x00064603  # lbu x12, 0(x12)
    .word 0xfff00693  # addi x13, x0, -1
    .word 0x00168693  # addi x13, x13, 1
    .word 0x00d582b3  # add x5, x11, x13
    .word 0x00d65333  # srl x6, x12, x13
    .word 0x00137313  # andi x6, x6, 1
    .word 0x40600333  # sub x6, x0, x6
    .word 0x68137313  # andi x6, x6, 1665
    .word 0x00129293  # slli x5, x5, 1
    .word 0x002282b3  # add x5, x5, x2
    .word 0x02629023  # sh x6, 32(x5)
    .word 0xff968293  # addi x5, x13, -7
    .word 0xfc029ce3  # bne x5, x0, -40
    .word 0xfe150293  # addi x5, x10, -31
    .word 0xfa029ee3  # bne x5, x0, -68
    # the result
    .word 0x00000513  # addi x10, x0, 0
    # parameter 1: the array, back
    .word 0x02010293  # addi x5, x2, 32
    .word 0x24c12303  # lw x6, 588(x2)
    .word 0x20028393  # addi x7, x5, 512
    .word 0x0002de03  # lhu x28, 0(x5)
    .word 0x01c31023  # sh x28, 0(x6)
    .word 0x00228293  # addi x5, x5, 2
    .word 0x00230313  # addi x6, x6, 2
    .word 0xfe7298e3  # bne x5, x7, -16
    # above the frame
    .word 0x24010293  # addi x5, x2, 576
    # the caller's registers
    # the caller's x2
    .word 0x01028293  # addi x5, x5, 16
    .cfi_def_cfa 5, 0
    # on to the tail that functions share
    jal x0, factc.tail.1
    .cfi_endproc
    .size mlkem_message, . - mlkem_message
    .section .text.factc.tail.1, "axG", @progbits, factc.tail.1, comdat
    .p2align 2
    .globl factc.tail.1
    .hidden factc.tail.1
    .type factc.tail.1, @function
factc.tail.1:
    .cfi_startproc
    .cfi_def_cfa 5, 0
    # all the room, wiped upward
    .word 0x00012023  # sw x0, 0(x2)
    .word 0x00012223  # sw x0, 4(x2)
    .word 0x00012423  # sw x0, 8(x2)
    .word 0x00012623  # sw x0, 12(x2)
    .word 0x01010113  # addi x2, x2, 16
    .word 0xfe5116e3  # bne x2, x5, -20
    .cfi_def_cfa 2, 0
    # temporaries, wiped
    .word 0x00000293  # addi x5, x0, 0
    .word 0x00000313  # addi x6, x0, 0
    .word 0x00000393  # addi x7, x0, 0
    .word 0x00000593  # addi x11, x0, 0
    .word 0x00000613  # addi x12, x0, 0
    .word 0x00000693  # addi x13, x0, 0
    .word 0x00000713  # addi x14, x0, 0
    .word 0x00000793  # addi x15, x0, 0
    .word 0x00000813  # addi x16, x0, 0
    .word 0x00000893  # addi x17, x0, 0
    .word 0x00000e13  # addi x28, x0, 0
    .word 0x00000e93  # addi x29, x0, 0
    .word 0x00000f13  # addi x30, x0, 0
    .word 0x00000f93  # addi x31, x0, 0
    # back
    .word 0x00008067  # jalr x0, 0(x1)
    .cfi_endproc
    .size factc.tail.1, . - factc.tail.1
    .option pop
