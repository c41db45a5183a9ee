# p256_add: made by factc 1.0.0 function; 139 words and 21 shared, 160 bytes of stack, profile 1
    .option push
    .option norvc
    .option norelax
    .cfi_sections .debug_frame
    .section .text.p256_add, "ax", @progbits
    .p2align 2
    .globl p256_add
    .type p256_add, @function
p256_add:
    .cfi_startproc
    # room above the frame
    .word 0xff010113  # addi x2, x2, -16
    .cfi_def_cfa_offset 16
    # the caller's registers
    # arguments that are needed behind the body
    .word 0x00a12223  # sw x10, 4(x2)
    .word 0x00b12423  # sw x11, 8(x2)
    .word 0x00c12623  # sw x12, 12(x2)
    # the frame's base
    .word 0xf7010113  # addi x2, x2, -144
    .cfi_def_cfa 2, 160
    # parameter 0: an array
    .word 0x00050293  # addi x5, x10, 0
    .word 0x00010313  # addi x6, x2, 0
    .word 0x02028393  # addi x7, x5, 32
    .word 0x0002ae03  # lw x28, 0(x5)
    .word 0x01c32023  # sw x28, 0(x6)
    .word 0x00428293  # addi x5, x5, 4
    .word 0x00430313  # addi x6, x6, 4
    .word 0xfe7298e3  # bne x5, x7, -16
    # parameter 1: an array
    .word 0x00058293  # addi x5, x11, 0
    .word 0x02010313  # addi x6, x2, 32
    .word 0x02028393  # addi x7, x5, 32
    .word 0x0002ae03  # lw x28, 0(x5)
    .word 0x01c32023  # sw x28, 0(x6)
    .word 0x00428293  # addi x5, x5, 4
    .word 0x00430313  # addi x6, x6, 4
    .word 0xfe7298e3  # bne x5, x7, -16
    # the body
    .word 0x06000313  # addi x6, x0, 96
    .word 0x00230333  # add x6, x6, x2
    .word 0x02000393  # addi x7, x0, 32
    .word 0x006383b3  # add x7, x7, x6
    .word 0x406382b3  # sub x5, x7, x6
    .word 0x00029463  # bne x5, x0, 8
    .word 0x0100006f  # jal x0, 16
    .word 0x00032023  # sw x0, 0(x6)
    .word 0x00430313  # addi x6, x6, 4
    .word 0xfedff06f  # jal x0, -20
    .word 0x00000513  # addi x10, x0, 0
    .word 0xfff00593  # addi x11, x0, -1
    .word 0x00158593  # addi x11, x11, 1
    .word 0x00259713  # slli x14, x11, 2
    .word 0x00270733  # add x14, x14, x2
    .word 0x00072683  # lw x13, 0(x14)
    .word 0x02072303  # lw x6, 32(x14)
    .word 0x00668633  # add x12, x13, x6
    .word 0x00a602b3  # add x5, x12, x10
    .word 0x06572023  # sw x5, 96(x14)
    .word 0x00d632b3  # sltu x5, x12, x13
    .word 0x06072303  # lw x6, 96(x14)
    .word 0x00a33333  # sltu x6, x6, x10
    .word 0x00628533  # add x10, x5, x6
    .word 0xff958293  # addi x5, x11, -7
    .word 0xfc0296e3  # bne x5, x0, -52
    .word 0x00100693  # addi x13, x0, 1
    .word 0xfff00593  # addi x11, x0, -1
    .word 0x00158593  # addi x11, x11, 1
    .word 0x00259713  # slli x14, x11, 2
    .word 0x00270733  # add x14, x14, x2
    .word 0x06072283  # lw x5, 96(x14)
    .word 0x00d282b3  # add x5, x5, x13
    .word 0x06572023  # sw x5, 96(x14)
    .word 0x06072283  # lw x5, 96(x14)
    .word 0x00d2b6b3  # sltu x13, x5, x13
    .word 0xffe58293  # addi x5, x11, -2
    .word 0xfc029ee3  # bne x5, x0, -36
    .word 0x00100293  # addi x5, x0, 1
    .word 0x40d286b3  # sub x13, x5, x13
    .word 0x00200593  # addi x11, x0, 2
    .word 0x00158593  # addi x11, x11, 1
    .word 0x00259713  # slli x14, x11, 2
    .word 0x00270733  # add x14, x14, x2
    .word 0x06072603  # lw x12, 96(x14)
    .word 0x40d602b3  # sub x5, x12, x13
    .word 0x06572023  # sw x5, 96(x14)
    .word 0x00d636b3  # sltu x13, x12, x13
    .word 0xffb58293  # addi x5, x11, -5
    .word 0xfe0290e3  # bne x5, x0, -32
    .word 0x00168693  # addi x13, x13, 1
    .word 0x07812603  # lw x12, 120(x2)
    .word 0x40d602b3  # sub x5, x12, x13
    .word 0x06512c23  # sw x5, 120(x2)
    .word 0x00100293  # addi x5, x0, 1
    .word 0x00d63333  # sltu x6, x12, x13
    .word 0x406286b3  # sub x13, x5, x6
    .word 0x07c12283  # lw x5, 124(x2)
    .word 0x00d282b3  # add x5, x5, x13
    .word 0x06512e23  # sw x5, 124(x2)
    .word 0x07c12283  # lw x5, 124(x2)
    .word 0x00d2b6b3  # sltu x13, x5, x13
    .word 0x00100293  # addi x5, x0, 1
    .word 0x40a282b3  # sub x5, x5, x10
    .word 0x40d28633  # sub x12, x5, x13
    .word 0x00060693  # addi x13, x12, 0
    .word 0xfff00593  # addi x11, x0, -1
    .word 0x00158593  # addi x11, x11, 1
    .word 0x00259713  # slli x14, x11, 2
    .word 0x00270733  # add x14, x14, x2
    .word 0x06072503  # lw x10, 96(x14)
    .word 0x40d502b3  # sub x5, x10, x13
    .word 0x06572023  # sw x5, 96(x14)
    .word 0x00d536b3  # sltu x13, x10, x13
    .word 0xffe58293  # addi x5, x11, -2
    .word 0xfe0290e3  # bne x5, x0, -32
    .word 0x40d606b3  # sub x13, x12, x13
    .word 0x00200593  # addi x11, x0, 2
    .word 0x00158593  # addi x11, x11, 1
    .word 0x00259713  # slli x14, x11, 2
    .word 0x00270733  # add x14, x14, x2
    .word 0x06072283  # lw x5, 96(x14)
    .word 0x00d282b3  # add x5, x5, x13
    .word 0x06572023  # sw x5, 96(x14)
    .word 0x06072283  # lw x5, 96(x14)
    .word 0x00d2b6b3  # sltu x13, x5, x13
    .word 0xffb58293  # addi x5, x11, -5
    .word 0xfc029ee3  # bne x5, x0, -36
    .word 0x00c686b3  # add x13, x13, x12
    .word 0x07812283  # lw x5, 120(x2)
    .word 0x00d282b3  # add x5, x5, x13
    .word 0x06512c23  # sw x5, 120(x2)
    .word 0x07812283  # lw x5, 120(x2)
    .word 0x00d2b6b3  # sltu x13, x5, x13
    .word 0x07c12283  # lw x5, 124(x2)
    .word 0x00d282b3  # add x5, x5, x13
    .word 0x40c282b3  # sub x5, x5, x12
    .word 0x06512e23  # sw x5, 124(x2)
    .word 0xfff00593  # addi x11, x0, -1
    .word 0x00158593  # addi x11, x11, 1
    .word 0x00259713  # slli x14, x11, 2
    .word 0x00270733  # add x14, x14, x2
    .word 0x06072283  # lw x5, 96(x14)
    .word 0x04572023  # sw x5, 64(x14)
    .word 0xff958293  # addi x5, x11, -7
    .word 0xfe0294e3  # bne x5, x0, -24
    # the result
    .word 0x00000513  # addi x10, x0, 0
    # parameter 2: the array, back
    .word 0x04010293  # addi x5, x2, 64
    .word 0x09c12303  # lw x6, 156(x2)
    .word 0x02028393  # addi x7, x5, 32
    .word 0x0002ae03  # lw x28, 0(x5)
    .word 0x01c32023  # sw x28, 0(x6)
    .word 0x00428293  # addi x5, x5, 4
    .word 0x00430313  # addi x6, x6, 4
    .word 0xfe7298e3  # bne x5, x7, -16
    # above the frame
    .word 0x09010293  # addi x5, x2, 144
    # the caller's registers
    # the caller's x2
    .word 0x01028293  # addi x5, x5, 16
    .cfi_def_cfa 5, 0
    # on to the tail that functions share
    jal x0, factc.tail.1
    .cfi_endproc
    .size p256_add, . - p256_add
    .section .text.factc.tail.1, "axG", @progbits, factc.tail.1, comdat
    .p2align 2
    .globl factc.tail.1
    .hidden factc.tail.1
    .type factc.tail.1, @function
factc.tail.1:
    .cfi_startproc
    .cfi_def_cfa 5, 0
    # all the room, wiped upward
    .word 0x00012023  # sw x0, 0(x2)
    .word 0x00012223  # sw x0, 4(x2)
    .word 0x00012423  # sw x0, 8(x2)
    .word 0x00012623  # sw x0, 12(x2)
    .word 0x01010113  # addi x2, x2, 16
    .word 0xfe5116e3  # bne x2, x5, -20
    .cfi_def_cfa 2, 0
    # temporaries, wiped
    .word 0x00000293  # addi x5, x0, 0
    .word 0x00000313  # addi x6, x0, 0
    .word 0x00000393  # addi x7, x0, 0
    .word 0x00000593  # addi x11, x0, 0
    .word 0x00000613  # addi x12, x0, 0
    .word 0x00000693  # addi x13, x0, 0
    .word 0x00000713  # addi x14, x0, 0
    .word 0x00000793  # addi x15, x0, 0
    .word 0x00000813  # addi x16, x0, 0
    .word 0x00000893  # addi x17, x0, 0
    .word 0x00000e13  # addi x28, x0, 0
    .word 0x00000e93  # addi x29, x0, 0
    .word 0x00000f13  # addi x30, x0, 0
    .word 0x00000f93  # addi x31, x0, 0
    # back
    .word 0x00008067  # jalr x0, 0(x1)
    .cfi_endproc
    .size factc.tail.1, . - factc.tail.1
    .option pop
