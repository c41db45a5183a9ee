# mlkem_encode_12: made by factc 1.0.0 function; 93 words, 928 bytes of stack, profile 1
    .option push
    .option norvc
    .option norelax
    .cfi_sections .debug_frame
    .section .text.mlkem_encode_12, "ax", @progbits
    .p2align 2
    .globl mlkem_encode_12
    .type mlkem_encode_12, @function
mlkem_encode_12:
    .cfi_startproc
    # room above the frame
    .word 0xff010113  # addi x2, x2, -16
    .cfi_def_cfa_offset 16
    # the caller's registers
    .word 0x01212023  # sw x18, 0(x2)
    .cfi_offset 18, -16
    # arguments that are needed behind the body
    .word 0x00a12423  # sw x10, 8(x2)
    .word 0x00b12623  # sw x11, 12(x2)
    # the frame's base
    .word 0xc7010113  # addi x2, x2, -912
    .cfi_def_cfa 2, 928
    # parameter 0: an array
    .word 0x00050293  # addi x5, x10, 0
    .word 0x00010313  # addi x6, x2, 0
    .word 0x20028393  # addi x7, x5, 512
    .word 0x10000f6f  # jal x30, 256
    # parameter 1: an array
    .word 0x00058293  # addi x5, x11, 0
    .word 0x20010313  # addi x6, x2, 512
    .word 0x18028393  # addi x7, x5, 384
    .word 0x0f000f6f  # jal x30, 240
    # the body
    .word 0xfff00513  # addi x10, x0, -1
    .word 0x00150513  # addi x10, x10, 1
    .word 0x00251593  # slli x11, x10, 2
    .word 0x00159893  # slli x17, x11, 1
    .word 0x002888b3  # add x17, x17, x2
    .word 0x00600293  # addi x5, x0, 6
    .word 0x02a28633  # mul x12, x5, x10
    .word 0x00260933  # add x18, x12, x2
    .word 0x0008d683  # lhu x13, 0(x17)
    .word 0x0028d703  # lhu x14, 2(x17)
    .word 0x0048d783  # lhu x15, 4(x17)
    .word 0x0068d803  # lhu x16, 6(x17)
    .word 0x20d90023  # sb x13, 512(x18)
    .word 0x0086d293  # srli x5, x13, 8
    .word 0x00f2f293  # andi x5, x5, 15
    .word 0x00471313  # slli x6, x14, 4
    .word 0x0062e2b3  # or x5, x5, x6
    .word 0x205900a3  # sb x5, 513(x18)
    .word 0x00475293  # srli x5, x14, 4
    .word 0x20590123  # sb x5, 514(x18)
    .word 0x20f901a3  # sb x15, 515(x18)
    .word 0x0087d293  # srli x5, x15, 8
    .word 0x00f2f293  # andi x5, x5, 15
    .word 0x00481313  # slli x6, x16, 4
    .word 0x0062e2b3  # or x5, x5, x6
    .word 0x20590223  # sb x5, 516(x18)
    .word 0x00485293  # srli x5, x16, 4
    .word 0x205902a3  # sb x5, 517(x18)
    .word 0xfc150293  # addi x5, x10, -63
    .word 0xf80298e3  # bne x5, x0, -112
    # the result
    .word 0x00000513  # addi x10, x0, 0
    # parameter 1: the array, back
    .word 0x20010293  # addi x5, x2, 512
    .word 0x39c12303  # lw x6, 924(x2)
    .word 0x18028393  # addi x7, x5, 384
    .word 0x06400f6f  # jal x30, 100
    # above the frame
    .word 0x39010293  # addi x5, x2, 912
    # the caller's registers
    .word 0x0002a903  # lw x18, 0(x5)
    .cfi_restore 18
    # the caller's x2
    .word 0x01028293  # addi x5, x5, 16
    .cfi_def_cfa 5, 0
    # all the room, wiped upward
    .word 0x00012023  # sw x0, 0(x2)
    .word 0x00012223  # sw x0, 4(x2)
    .word 0x00012423  # sw x0, 8(x2)
    .word 0x00012623  # sw x0, 12(x2)
    .word 0x01010113  # addi x2, x2, 16
    .word 0xfe5116e3  # bne x2, x5, -20
    .cfi_def_cfa 2, 0
    # temporaries, wiped
    .word 0x00000293  # addi x5, x0, 0
    .word 0x00000313  # addi x6, x0, 0
    .word 0x00000393  # addi x7, x0, 0
    .word 0x00000593  # addi x11, x0, 0
    .word 0x00000613  # addi x12, x0, 0
    .word 0x00000693  # addi x13, x0, 0
    .word 0x00000713  # addi x14, x0, 0
    .word 0x00000793  # addi x15, x0, 0
    .word 0x00000813  # addi x16, x0, 0
    .word 0x00000893  # addi x17, x0, 0
    .word 0x00000e13  # addi x28, x0, 0
    .word 0x00000e93  # addi x29, x0, 0
    .word 0x00000f13  # addi x30, x0, 0
    .word 0x00000f93  # addi x31, x0, 0
    # back
    .word 0x00008067  # jalr x0, 0(x1)
    # from x5 to x6 up to x7, and back
    .cfi_def_cfa 2, 928
    .cfi_offset 18, -16
    .word 0x0062ee33  # or x28, x5, x6
    .word 0x003e7e13  # andi x28, x28, 3
    .word 0x000e0e63  # beq x28, x0, 28
    .word 0x0002ce03  # lbu x28, 0(x5)
    .word 0x01c30023  # sb x28, 0(x6)
    .word 0x00128293  # addi x5, x5, 1
    .word 0x00130313  # addi x6, x6, 1
    .word 0xfe7298e3  # bne x5, x7, -16
    .word 0x0300006f  # jal x0, 48
    .word 0x0002ae03  # lw x28, 0(x5)
    .word 0x01c32023  # sw x28, 0(x6)
    .word 0x0042ae03  # lw x28, 4(x5)
    .word 0x01c32223  # sw x28, 4(x6)
    .word 0x0082ae03  # lw x28, 8(x5)
    .word 0x01c32423  # sw x28, 8(x6)
    .word 0x00c2ae03  # lw x28, 12(x5)
    .word 0x01c32623  # sw x28, 12(x6)
    .word 0x01028293  # addi x5, x5, 16
    .word 0x01030313  # addi x6, x6, 16
    .word 0xfc729ce3  # bne x5, x7, -40
    .word 0x000f0067  # jalr x0, 0(x30)
    .cfi_endproc
    .size mlkem_encode_12, . - mlkem_encode_12
    .option pop
