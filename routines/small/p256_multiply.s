# p256_multiply: made by factc 1.0.0 function; 312 words and 21 shared, 784 bytes of stack, profile 1
    .option push
    .option norvc
    .option norelax
    .cfi_sections .debug_frame
    .section .text.p256_multiply, "ax", @progbits
    .p2align 2
    .globl p256_multiply
    .type p256_multiply, @function
p256_multiply:
    .cfi_startproc
    # room above the frame
    .word 0xff010113  # addi x2, x2, -16
    .cfi_def_cfa_offset 16
    # the caller's registers
    .word 0x01212023  # sw x18, 0(x2)
    .cfi_offset 18, -16
    # arguments that are needed behind the body
    .word 0x00a12223  # sw x10, 4(x2)
    .word 0x00b12423  # sw x11, 8(x2)
    .word 0x00c12623  # sw x12, 12(x2)
    # the frame's base
    .word 0xd0010113  # addi x2, x2, -768
    .cfi_def_cfa 2, 784
    # parameter 0: an array
    .word 0x00050293  # addi x5, x10, 0
    .word 0x00010313  # addi x6, x2, 0
    .word 0x02028393  # addi x7, x5, 32
    .word 0x0002ae03  # lw x28, 0(x5)
    .word 0x01c32023  # sw x28, 0(x6)
    .word 0x00428293  # addi x5, x5, 4
    .word 0x00430313  # addi x6, x6, 4
    .word 0xfe7298e3  # bne x5, x7, -16
    # parameter 1: an array
    .word 0x00058293  # addi x5, x11, 0
    .word 0x02010313  # addi x6, x2, 32
    .word 0x02028393  # addi x7, x5, 32
    .word 0x0002ae03  # lw x28, 0(x5)
    .word 0x01c32023  # sw x28, 0(x6)
    .word 0x00428293  # addi x5, x5, 4
    .word 0x00430313  # addi x6, x6, 4
    .word 0xfe7298e3  # bne x5, x7, -16
    # the body
    .word 0x06000313  # addi x6, x0, 96
    .word 0x00230333  # add x6, x6, x2
    .word 0x20000393  # addi x7, x0, 512
    .word 0x006383b3  # add x7, x7, x6
    .word 0x406382b3  # sub x5, x7, x6
    .word 0x00029463  # bne x5, x0, 8
    .word 0x0100006f  # jal x0, 16
    .word 0x00032023  # sw x0, 0(x6)
    .word 0x00430313  # addi x6, x6, 4
    .word 0xfedff06f  # jal x0, -20
    .word 0x26000313  # addi x6, x0, 608
    .word 0x00230333  # add x6, x6, x2
    .word 0x02000393  # addi x7, x0, 32
    .word 0x006383b3  # add x7, x7, x6
    .word 0x406382b3  # sub x5, x7, x6
    .word 0x00029463  # bne x5, x0, 8
    .word 0x0100006f  # jal x0, 16
    .word 0x00032023  # sw x0, 0(x6)
    .word 0x00430313  # addi x6, x6, 4
    .word 0xfedff06f  # jal x0, -20
    .word 0xfff00613  # addi x12, x0, -1
    .word 0x00160613  # addi x12, x12, 1
    .word 0x00261893  # slli x17, x12, 2
    .word 0x002888b3  # add x17, x17, x2
    .word 0x0008a283  # lw x5, 0(x17)
    .word 0x0658a023  # sw x5, 96(x17)
    .word 0x0208a283  # lw x5, 32(x17)
    .word 0x0858a023  # sw x5, 128(x17)
    .word 0xff960293  # addi x5, x12, -7
    .word 0xfe0290e3  # bne x5, x0, -32
    .word 0x28000313  # addi x6, x0, 640
    .word 0x00230333  # add x6, x6, x2
    .word 0x02400393  # addi x7, x0, 36
    .word 0x006383b3  # add x7, x7, x6
    .word 0x406382b3  # sub x5, x7, x6
    .word 0x00029463  # bne x5, x0, 8
    .word 0x0100006f  # jal x0, 16
    .word 0x00032023  # sw x0, 0(x6)
    .word 0x00430313  # addi x6, x6, 4
    .word 0xfedff06f  # jal x0, -20
    .word 0x2a400313  # addi x6, x0, 676
    .word 0x00230333  # add x6, x6, x2
    .word 0x02000393  # addi x7, x0, 32
    .word 0x006383b3  # add x7, x7, x6
    .word 0x406382b3  # sub x5, x7, x6
    .word 0x00029463  # bne x5, x0, 8
    .word 0x0100006f  # jal x0, 16
    .word 0x00032023  # sw x0, 0(x6)
    .word 0x00430313  # addi x6, x6, 4
    .word 0xfedff06f  # jal x0, -20
    .word 0xfff00613  # addi x12, x0, -1
    .word 0x00160613  # addi x12, x12, 1
    .word 0x00261893  # slli x17, x12, 2
    .word 0x002888b3  # add x17, x17, x2
    .word 0x0608a283  # lw x5, 96(x17)
    .word 0x2658a023  # sw x5, 608(x17)
    .word 0xff960293  # addi x5, x12, -7
    .word 0xfe0294e3  # bne x5, x0, -24
    .word 0xfff00813  # addi x16, x0, -1
    .word 0x00180813  # addi x16, x16, 1
    .word 0x00281913  # slli x18, x16, 2
    .word 0x00290933  # add x18, x18, x2
    .word 0x26092503  # lw x10, 608(x18)
    .word 0x00000593  # addi x11, x0, 0
    .word 0xfff00613  # addi x12, x0, -1
    .word 0x00160613  # addi x12, x12, 1
    .word 0x00261893  # slli x17, x12, 2
    .word 0x002888b3  # add x17, x17, x2
    .word 0x00860293  # addi x5, x12, 8
    .word 0x00229793  # slli x15, x5, 2
    .word 0x002787b3  # add x15, x15, x2
    .word 0x0607a783  # lw x15, 96(x15)
    .word 0x02f506b3  # mul x13, x10, x15
    .word 0x02f53733  # mulhu x14, x10, x15
    .word 0x2848a283  # lw x5, 644(x17)
    .word 0x00d287b3  # add x15, x5, x13
    .word 0x00061a63  # bne x12, x0, 20
    .word 0x26f92023  # sw x15, 608(x18)
    .word 0x00d7b333  # sltu x6, x15, x13
    .word 0x006705b3  # add x11, x14, x6
    .word 0x0200006f  # jal x0, 32
    .word 0x00b782b3  # add x5, x15, x11
    .word 0x2858a023  # sw x5, 640(x17)
    .word 0x00d7b333  # sltu x6, x15, x13
    .word 0x006702b3  # add x5, x14, x6
    .word 0x2808a303  # lw x6, 640(x17)
    .word 0x00b33333  # sltu x6, x6, x11
    .word 0x006285b3  # add x11, x5, x6
    .word 0xff960293  # addi x5, x12, -7
    .word 0xfa0290e3  # bne x5, x0, -96
    .word 0x2ab12023  # sw x11, 672(x2)
    .word 0xff980293  # addi x5, x16, -7
    .word 0xf6029ee3  # bne x5, x0, -132
    .word 0x2c400313  # addi x6, x0, 708
    .word 0x00230333  # add x6, x6, x2
    .word 0x02000393  # addi x7, x0, 32
    .word 0x006383b3  # add x7, x7, x6
    .word 0x406382b3  # sub x5, x7, x6
    .word 0x00029463  # bne x5, x0, 8
    .word 0x0100006f  # jal x0, 16
    .word 0x00032023  # sw x0, 0(x6)
    .word 0x00430313  # addi x6, x6, 4
    .word 0xfedff06f  # jal x0, -20
    .word 0x00000593  # addi x11, x0, 0
    .word 0xfff00813  # addi x16, x0, -1
    .word 0x00180813  # addi x16, x16, 1
    .word 0x00281913  # slli x18, x16, 2
    .word 0x00290933  # add x18, x18, x2
    .word 0x00883293  # sltiu x5, x16, 8
    .word 0x00787313  # andi x6, x16, 7
    .word 0x00231313  # slli x6, x6, 2
    .word 0x00230333  # add x6, x6, x2
    .word 0x26032303  # lw x6, 608(x6)
    .word 0x00787393  # andi x7, x16, 7
    .word 0x00239393  # slli x7, x7, 2
    .word 0x002383b3  # add x7, x7, x2
    .word 0x2843a383  # lw x7, 644(x7)
    .word 0x405002b3  # sub x5, x0, x5
    .word 0x00734333  # xor x6, x6, x7
    .word 0x00537333  # and x6, x6, x5
    .word 0x0063c2b3  # xor x5, x7, x6
    .word 0x00b287b3  # add x15, x5, x11
    .word 0x00b7b5b3  # sltu x11, x15, x11
    .word 0xffd80293  # addi x5, x16, -3
    .word 0x00800313  # addi x6, x0, 8
    .word 0x0262f263  # bgeu x5, x6, 36
    .word 0xffd80293  # addi x5, x16, -3
    .word 0x0072f293  # andi x5, x5, 7
    .word 0x00229693  # slli x13, x5, 2
    .word 0x002686b3  # add x13, x13, x2
    .word 0x2c46a683  # lw x13, 708(x13)
    .word 0x00d787b3  # add x15, x15, x13
    .word 0x00d7b333  # sltu x6, x15, x13
    .word 0x006585b3  # add x11, x11, x6
    .word 0xffa80293  # addi x5, x16, -6
    .word 0x00800313  # addi x6, x0, 8
    .word 0x0262f263  # bgeu x5, x6, 36
    .word 0xffa80293  # addi x5, x16, -6
    .word 0x0072f293  # andi x5, x5, 7
    .word 0x00229693  # slli x13, x5, 2
    .word 0x002686b3  # add x13, x13, x2
    .word 0x2c46a683  # lw x13, 708(x13)
    .word 0x00d787b3  # add x15, x15, x13
    .word 0x00d7b333  # sltu x6, x15, x13
    .word 0x006585b3  # add x11, x11, x6
    .word 0xff980293  # addi x5, x16, -7
    .word 0x00800313  # addi x6, x0, 8
    .word 0x0262f463  # bgeu x5, x6, 40
    .word 0xff980293  # addi x5, x16, -7
    .word 0x0072f293  # andi x5, x5, 7
    .word 0x00229293  # slli x5, x5, 2
    .word 0x002282b3  # add x5, x5, x2
    .word 0x2c42a283  # lw x5, 708(x5)
    .word 0x405006b3  # sub x13, x0, x5
    .word 0x00d787b3  # add x15, x15, x13
    .word 0x00d7b333  # sltu x6, x15, x13
    .word 0x006585b3  # add x11, x11, x6
    .word 0x00800313  # addi x6, x0, 8
    .word 0x02686663  # bltu x16, x6, 44
    .word 0xff880293  # addi x5, x16, -8
    .word 0x0072f293  # andi x5, x5, 7
    .word 0x00229693  # slli x13, x5, 2
    .word 0x002686b3  # add x13, x13, x2
    .word 0x2c46a683  # lw x13, 708(x13)
    .word 0x00d03333  # sltu x6, x0, x13
    .word 0x406686b3  # sub x13, x13, x6
    .word 0x00d787b3  # add x15, x15, x13
    .word 0x00d7b333  # sltu x6, x15, x13
    .word 0x006585b3  # add x11, x11, x6
    .word 0x00800313  # addi x6, x0, 8
    .word 0x00687c63  # bgeu x16, x6, 24
    .word 0x00787293  # andi x5, x16, 7
    .word 0x00229293  # slli x5, x5, 2
    .word 0x002282b3  # add x5, x5, x2
    .word 0x2cf2a223  # sw x15, 708(x5)
    .word 0x0180006f  # jal x0, 24
    .word 0xff880293  # addi x5, x16, -8
    .word 0x0072f293  # andi x5, x5, 7
    .word 0x00229293  # slli x5, x5, 2
    .word 0x002282b3  # add x5, x5, x2
    .word 0x2af2a223  # sw x15, 676(x5)
    .word 0xff180293  # addi x5, x16, -15
    .word 0xec0296e3  # bne x5, x0, -308
    .word 0x00100793  # addi x15, x0, 1
    .word 0xfff00613  # addi x12, x0, -1
    .word 0x00160613  # addi x12, x12, 1
    .word 0x00261893  # slli x17, x12, 2
    .word 0x002888b3  # add x17, x17, x2
    .word 0x2a48a283  # lw x5, 676(x17)
    .word 0x00f282b3  # add x5, x5, x15
    .word 0x2a58a223  # sw x5, 676(x17)
    .word 0x2a48a283  # lw x5, 676(x17)
    .word 0x00f2b7b3  # sltu x15, x5, x15
    .word 0xffe60293  # addi x5, x12, -2
    .word 0xfc029ee3  # bne x5, x0, -36
    .word 0x00100293  # addi x5, x0, 1
    .word 0x40f287b3  # sub x15, x5, x15
    .word 0x00200613  # addi x12, x0, 2
    .word 0x00160613  # addi x12, x12, 1
    .word 0x00261893  # slli x17, x12, 2
    .word 0x002888b3  # add x17, x17, x2
    .word 0x2a48a683  # lw x13, 676(x17)
    .word 0x40f682b3  # sub x5, x13, x15
    .word 0x2a58a223  # sw x5, 676(x17)
    .word 0x00f6b7b3  # sltu x15, x13, x15
    .word 0xffb60293  # addi x5, x12, -5
    .word 0xfe0290e3  # bne x5, x0, -32
    .word 0x00178793  # addi x15, x15, 1
    .word 0x2bc12683  # lw x13, 700(x2)
    .word 0x40f682b3  # sub x5, x13, x15
    .word 0x2a512e23  # sw x5, 700(x2)
    .word 0x00100293  # addi x5, x0, 1
    .word 0x00f6b333  # sltu x6, x13, x15
    .word 0x406287b3  # sub x15, x5, x6
    .word 0x2c012283  # lw x5, 704(x2)
    .word 0x00f282b3  # add x5, x5, x15
    .word 0x2c512023  # sw x5, 704(x2)
    .word 0x2c012283  # lw x5, 704(x2)
    .word 0x00f2b7b3  # sltu x15, x5, x15
    .word 0x00100293  # addi x5, x0, 1
    .word 0x40b282b3  # sub x5, x5, x11
    .word 0x40f286b3  # sub x13, x5, x15
    .word 0x00068793  # addi x15, x13, 0
    .word 0xfff00613  # addi x12, x0, -1
    .word 0x00160613  # addi x12, x12, 1
    .word 0x00261893  # slli x17, x12, 2
    .word 0x002888b3  # add x17, x17, x2
    .word 0x2a48a583  # lw x11, 676(x17)
    .word 0x40f582b3  # sub x5, x11, x15
    .word 0x2a58a223  # sw x5, 676(x17)
    .word 0x00f5b7b3  # sltu x15, x11, x15
    .word 0xffe60293  # addi x5, x12, -2
    .word 0xfe0290e3  # bne x5, x0, -32
    .word 0x40f687b3  # sub x15, x13, x15
    .word 0x00200613  # addi x12, x0, 2
    .word 0x00160613  # addi x12, x12, 1
    .word 0x00261893  # slli x17, x12, 2
    .word 0x002888b3  # add x17, x17, x2
    .word 0x2a48a283  # lw x5, 676(x17)
    .word 0x00f282b3  # add x5, x5, x15
    .word 0x2a58a223  # sw x5, 676(x17)
    .word 0x2a48a283  # lw x5, 676(x17)
    .word 0x00f2b7b3  # sltu x15, x5, x15
    .word 0xffb60293  # addi x5, x12, -5
    .word 0xfc029ee3  # bne x5, x0, -36
    .word 0x00d787b3  # add x15, x15, x13
    .word 0x2bc12283  # lw x5, 700(x2)
    .word 0x00f282b3  # add x5, x5, x15
    .word 0x2a512e23  # sw x5, 700(x2)
    .word 0x2bc12283  # lw x5, 700(x2)
    .word 0x00f2b7b3  # sltu x15, x5, x15
    .word 0x2c012283  # lw x5, 704(x2)
    .word 0x00f282b3  # add x5, x5, x15
    .word 0x40d282b3  # sub x5, x5, x13
    .word 0x2c512023  # sw x5, 704(x2)
    .word 0xfff00613  # addi x12, x0, -1
    .word 0x00160613  # addi x12, x12, 1
    .word 0x00261893  # slli x17, x12, 2
    .word 0x002888b3  # add x17, x17, x2
    .word 0x01060293  # addi x5, x12, 16
    .word 0x2a48a303  # lw x6, 676(x17)
    .word 0x00229293  # slli x5, x5, 2
    .word 0x002282b3  # add x5, x5, x2
    .word 0x0662a023  # sw x6, 96(x5)
    .word 0xff960293  # addi x5, x12, -7
    .word 0xfc029ee3  # bne x5, x0, -36
    .word 0xfff00613  # addi x12, x0, -1
    .word 0x00160613  # addi x12, x12, 1
    .word 0x00261893  # slli x17, x12, 2
    .word 0x002888b3  # add x17, x17, x2
    .word 0x01060293  # addi x5, x12, 16
    .word 0x00229293  # slli x5, x5, 2
    .word 0x002282b3  # add x5, x5, x2
    .word 0x0602a283  # lw x5, 96(x5)
    .word 0x0458a023  # sw x5, 64(x17)
    .word 0xff960293  # addi x5, x12, -7
    .word 0xfc029ee3  # bne x5, x0, -36
    # the result
    .word 0x00000513  # addi x10, x0, 0
    # parameter 2: the array, back
    .word 0x04010293  # addi x5, x2, 64
    .word 0x30c12303  # lw x6, 780(x2)
    .word 0x02028393  # addi x7, x5, 32
    .word 0x0002ae03  # lw x28, 0(x5)
    .word 0x01c32023  # sw x28, 0(x6)
    .word 0x00428293  # addi x5, x5, 4
    .word 0x00430313  # addi x6, x6, 4
    .word 0xfe7298e3  # bne x5, x7, -16
    # above the frame
    .word 0x30010293  # addi x5, x2, 768
    # the caller's registers
    .word 0x0002a903  # lw x18, 0(x5)
    .cfi_restore 18
    # the caller's x2
    .word 0x01028293  # addi x5, x5, 16
    .cfi_def_cfa 5, 0
    # on to the tail that functions share
    jal x0, factc.tail.1
    .cfi_endproc
    .size p256_multiply, . - p256_multiply
    .section .text.factc.tail.1, "axG", @progbits, factc.tail.1, comdat
    .p2align 2
    .globl factc.tail.1
    .hidden factc.tail.1
    .type factc.tail.1, @function
factc.tail.1:
    .cfi_startproc
    .cfi_def_cfa 5, 0
    # all the room, wiped upward
    .word 0x00012023  # sw x0, 0(x2)
    .word 0x00012223  # sw x0, 4(x2)
    .word 0x00012423  # sw x0, 8(x2)
    .word 0x00012623  # sw x0, 12(x2)
    .word 0x01010113  # addi x2, x2, 16
    .word 0xfe5116e3  # bne x2, x5, -20
    .cfi_def_cfa 2, 0
    # temporaries, wiped
    .word 0x00000293  # addi x5, x0, 0
    .word 0x00000313  # addi x6, x0, 0
    .word 0x00000393  # addi x7, x0, 0
    .word 0x00000593  # addi x11, x0, 0
    .word 0x00000613  # addi x12, x0, 0
    .word 0x00000693  # addi x13, x0, 0
    .word 0x00000713  # addi x14, x0, 0
    .word 0x00000793  # addi x15, x0, 0
    .word 0x00000813  # addi x16, x0, 0
    .word 0x00000893  # addi x17, x0, 0
    .word 0x00000e13  # addi x28, x0, 0
    .word 0x00000e93  # addi x29, x0, 0
    .word 0x00000f13  # addi x30, x0, 0
    .word 0x00000f93  # addi x31, x0, 0
    # back
    .word 0x00008067  # jalr x0, 0(x1)
    .cfi_endproc
    .size factc.tail.1, . - factc.tail.1
    .option pop
