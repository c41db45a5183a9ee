# gf256_multiply: made by factc 1.0.0 function; 130 words, 112 bytes of stack, profile 1
    .option push
    .option norvc
    .option norelax
    .cfi_sections .debug_frame
    .section .text.gf256_multiply, "ax", @progbits
    .p2align 2
    .globl gf256_multiply
    .type gf256_multiply, @function
gf256_multiply:
    .cfi_startproc
    # room above the frame
    .word 0xfe010113  # addi x2, x2, -32
    .cfi_def_cfa_offset 32
    # the caller's registers
    .word 0x01212023  # sw x18, 0(x2)
    .cfi_offset 18, -32
    .word 0x01312223  # sw x19, 4(x2)
    .cfi_offset 19, -28
    .word 0x01412423  # sw x20, 8(x2)
    .cfi_offset 20, -24
    # arguments that are needed behind the body
    .word 0x00a12a23  # sw x10, 20(x2)
    .word 0x00b12c23  # sw x11, 24(x2)
    .word 0x00c12e23  # sw x12, 28(x2)
    # the frame's base
    .word 0xfb010113  # addi x2, x2, -80
    .cfi_def_cfa 2, 112
    # parameter 0: an array
    .word 0x00050293  # addi x5, x10, 0
    .word 0x00010313  # addi x6, x2, 0
    .word 0x01028393  # addi x7, x5, 16
    .word 0x18800f6f  # jal x30, 392
    # parameter 1: an array
    .word 0x00058293  # addi x5, x11, 0
    .word 0x01010313  # addi x6, x2, 16
    .word 0x01028393  # addi x7, x5, 16
    .word 0x17800f6f  # jal x30, 376
    # parameter 2: an array
    .word 0x00060293  # addi x5, x12, 0
    .word 0x02010313  # addi x6, x2, 32
    .word 0x01028393  # addi x7, x5, 16
    .word 0x16800f6f  # jal x30, 360
    # the body
    .word 0x01010537  # lui x10, 0x01010
    .word 0x10150513  # addi x10, x10, 257
    .word 0x1b1b25b7  # lui x11, 0x1b1b2
    .word 0xb1b58593  # addi x11, x11, -1253
    .word 0xfeff0637  # lui x12, 0xfeff0
    .word 0xefe60613  # addi x12, x12, -258
    .word 0xfff00693  # addi x13, x0, -1
    .word 0x00168693  # addi x13, x13, 1
    .word 0x00269713  # slli x14, x13, 2
    .word 0x00270a33  # add x20, x14, x2
    .word 0x00000793  # addi x15, x0, 0
    .word 0x000a4283  # lbu x5, 0(x20)
    .word 0x001a4303  # lbu x6, 1(x20)
    .word 0x00831313  # slli x6, x6, 8
    .word 0x0062e2b3  # or x5, x5, x6
    .word 0x002a4303  # lbu x6, 2(x20)
    .word 0x01031313  # slli x6, x6, 16
    .word 0x0062e2b3  # or x5, x5, x6
    .word 0x003a4303  # lbu x6, 3(x20)
    .word 0x01831313  # slli x6, x6, 24
    .word 0x0062e833  # or x16, x5, x6
    .word 0x010a4283  # lbu x5, 16(x20)
    .word 0x011a4303  # lbu x6, 17(x20)
    .word 0x00831313  # slli x6, x6, 8
    .word 0x0062e2b3  # or x5, x5, x6
    .word 0x012a4303  # lbu x6, 18(x20)
    .word 0x01031313  # slli x6, x6, 16
    .word 0x0062e2b3  # or x5, x5, x6
    .word 0x013a4303  # lbu x6, 19(x20)
    .word 0x01831313  # slli x6, x6, 24
    .word 0x0062e8b3  # or x17, x5, x6
    .word 0xfff00913  # addi x18, x0, -1
    .word 0x00190913  # addi x18, x18, 1
    .word 0x00a8f9b3  # and x19, x17, x10
    .word 0x00899293  # slli x5, x19, 8
    .word 0x413282b3  # sub x5, x5, x19
    .word 0x0102f2b3  # and x5, x5, x16
    .word 0x00f2c7b3  # xor x15, x5, x15
    .word 0x0018d893  # srli x17, x17, 1
    .word 0x00785293  # srli x5, x16, 7
    .word 0x00a2f9b3  # and x19, x5, x10
    .word 0x00181293  # slli x5, x16, 1
    .word 0x00c2f2b3  # and x5, x5, x12
    .word 0x00899313  # slli x6, x19, 8
    .word 0x41330333  # sub x6, x6, x19
    .word 0x00b37333  # and x6, x6, x11
    .word 0x0062c833  # xor x16, x5, x6
    .word 0xff990293  # addi x5, x18, -7
    .word 0xfc0290e3  # bne x5, x0, -64
    .word 0x02fa0023  # sb x15, 32(x20)
    .word 0x0087d293  # srli x5, x15, 8
    .word 0x025a00a3  # sb x5, 33(x20)
    .word 0x0107d293  # srli x5, x15, 16
    .word 0x025a0123  # sb x5, 34(x20)
    .word 0x0187d293  # srli x5, x15, 24
    .word 0x025a01a3  # sb x5, 35(x20)
    .word 0xffd68293  # addi x5, x13, -3
    .word 0xf2029ce3  # bne x5, x0, -200
    # the result
    .word 0x00000513  # addi x10, x0, 0
    # parameter 2: the array, back
    .word 0x02010293  # addi x5, x2, 32
    .word 0x06c12303  # lw x6, 108(x2)
    .word 0x01028393  # addi x7, x5, 16
    .word 0x06c00f6f  # jal x30, 108
    # above the frame
    .word 0x05010293  # addi x5, x2, 80
    # the caller's registers
    .word 0x0002a903  # lw x18, 0(x5)
    .cfi_restore 18
    .word 0x0042a983  # lw x19, 4(x5)
    .cfi_restore 19
    .word 0x0082aa03  # lw x20, 8(x5)
    .cfi_restore 20
    # the caller's x2
    .word 0x02028293  # addi x5, x5, 32
    .cfi_def_cfa 5, 0
    # all the room, wiped upward
    .word 0x00012023  # sw x0, 0(x2)
    .word 0x00012223  # sw x0, 4(x2)
    .word 0x00012423  # sw x0, 8(x2)
    .word 0x00012623  # sw x0, 12(x2)
    .word 0x01010113  # addi x2, x2, 16
    .word 0xfe5116e3  # bne x2, x5, -20
    .cfi_def_cfa 2, 0
    # temporaries, wiped
    .word 0x00000293  # addi x5, x0, 0
    .word 0x00000313  # addi x6, x0, 0
    .word 0x00000393  # addi x7, x0, 0
    .word 0x00000593  # addi x11, x0, 0
    .word 0x00000613  # addi x12, x0, 0
    .word 0x00000693  # addi x13, x0, 0
    .word 0x00000713  # addi x14, x0, 0
    .word 0x00000793  # addi x15, x0, 0
    .word 0x00000813  # addi x16, x0, 0
    .word 0x00000893  # addi x17, x0, 0
    .word 0x00000e13  # addi x28, x0, 0
    .word 0x00000e93  # addi x29, x0, 0
    .word 0x00000f13  # addi x30, x0, 0
    .word 0x00000f93  # addi x31, x0, 0
    # back
    .word 0x00008067  # jalr x0, 0(x1)
    # from x5 to x6 up to x7, and back
    .cfi_def_cfa 2, 112
    .cfi_offset 18, -32
    .cfi_offset 19, -28
    .cfi_offset 20, -24
    .word 0x0062ee33  # or x28, x5, x6
    .word 0x003e7e13  # andi x28, x28, 3
    .word 0x000e0e63  # beq x28, x0, 28
    .word 0x0002ce03  # lbu x28, 0(x5)
    .word 0x01c30023  # sb x28, 0(x6)
    .word 0x00128293  # addi x5, x5, 1
    .word 0x00130313  # addi x6, x6, 1
    .word 0xfe7298e3  # bne x5, x7, -16
    .word 0x0300006f  # jal x0, 48
    .word 0x0002ae03  # lw x28, 0(x5)
    .word 0x01c32023  # sw x28, 0(x6)
    .word 0x0042ae03  # lw x28, 4(x5)
    .word 0x01c32223  # sw x28, 4(x6)
    .word 0x0082ae03  # lw x28, 8(x5)
    .word 0x01c32423  # sw x28, 8(x6)
    .word 0x00c2ae03  # lw x28, 12(x5)
    .word 0x01c32623  # sw x28, 12(x6)
    .word 0x01028293  # addi x5, x5, 16
    .word 0x01030313  # addi x6, x6, 16
    .word 0xfc729ce3  # bne x5, x7, -40
    .word 0x000f0067  # jalr x0, 0(x30)
    .cfi_endproc
    .size gf256_multiply, . - gf256_multiply
    .option pop
