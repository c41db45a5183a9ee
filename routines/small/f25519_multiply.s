# f25519_multiply: made by factc 1.0.0 function; 241 words and 21 shared, 752 bytes of stack, profile 1
    .option push
    .option norvc
    .option norelax
    .cfi_sections .debug_frame
    .section .text.f25519_multiply, "ax", @progbits
    .p2align 2
    .globl f25519_multiply
    .type f25519_multiply, @function
f25519_multiply:
    .cfi_startproc
    # room above the frame
    .word 0xff010113  # addi x2, x2, -16
    .cfi_def_cfa_offset 16
    # the caller's registers
    .word 0x01212023  # sw x18, 0(x2)
    .cfi_offset 18, -16
    # arguments that are needed behind the body
    .word 0x00a12223  # sw x10, 4(x2)
    .word 0x00b12423  # sw x11, 8(x2)
    .word 0x00c12623  # sw x12, 12(x2)
    # the frame's base
    .word 0xd2010113  # addi x2, x2, -736
    .cfi_def_cfa 2, 752
    # parameter 0: an array
    .word 0x00050293  # addi x5, x10, 0
    .word 0x00010313  # addi x6, x2, 0
    .word 0x02028393  # addi x7, x5, 32
    .word 0x0002ae03  # lw x28, 0(x5)
    .word 0x01c32023  # sw x28, 0(x6)
    .word 0x00428293  # addi x5, x5, 4
    .word 0x00430313  # addi x6, x6, 4
    .word 0xfe7298e3  # bne x5, x7, -16
    # parameter 1: an array
    .word 0x00058293  # addi x5, x11, 0
    .word 0x02010313  # addi x6, x2, 32
    .word 0x02028393  # addi x7, x5, 32
    .word 0x0002ae03  # lw x28, 0(x5)
    .word 0x01c32023  # sw x28, 0(x6)
    .word 0x00428293  # addi x5, x5, 4
    .word 0x00430313  # addi x6, x6, 4
    .word 0xfe7298e3  # bne x5, x7, -16
    # the body
    .word 0x06000313  # addi x6, x0, 96
    .word 0x00230333  # add x6, x6, x2
    .word 0x20000393  # addi x7, x0, 512
    .word 0x006383b3  # add x7, x7, x6
    .word 0x406382b3  # sub x5, x7, x6
    .word 0x00029463  # bne x5, x0, 8
    .word 0x0100006f  # jal x0, 16
    .word 0x00032023  # sw x0, 0(x6)
    .word 0x00430313  # addi x6, x6, 4
    .word 0xfedff06f  # jal x0, -20
    .word 0x26000313  # addi x6, x0, 608
    .word 0x00230333  # add x6, x6, x2
    .word 0x02000393  # addi x7, x0, 32
    .word 0x006383b3  # add x7, x7, x6
    .word 0x406382b3  # sub x5, x7, x6
    .word 0x00029463  # bne x5, x0, 8
    .word 0x0100006f  # jal x0, 16
    .word 0x00032023  # sw x0, 0(x6)
    .word 0x00430313  # addi x6, x6, 4
    .word 0xfedff06f  # jal x0, -20
    .word 0xfff00693  # addi x13, x0, -1
    .word 0x00168693  # addi x13, x13, 1
    .word 0x00269913  # slli x18, x13, 2
    .word 0x00290933  # add x18, x18, x2
    .word 0x00092283  # lw x5, 0(x18)
    .word 0x06592023  # sw x5, 96(x18)
    .word 0x02092283  # lw x5, 32(x18)
    .word 0x08592023  # sw x5, 128(x18)
    .word 0xff968293  # addi x5, x13, -7
    .word 0xfe0290e3  # bne x5, x0, -32
    .word 0x28000313  # addi x6, x0, 640
    .word 0x00230333  # add x6, x6, x2
    .word 0x02400393  # addi x7, x0, 36
    .word 0x006383b3  # add x7, x7, x6
    .word 0x406382b3  # sub x5, x7, x6
    .word 0x00029463  # bne x5, x0, 8
    .word 0x0100006f  # jal x0, 16
    .word 0x00032023  # sw x0, 0(x6)
    .word 0x00430313  # addi x6, x6, 4
    .word 0xfedff06f  # jal x0, -20
    .word 0x2a400313  # addi x6, x0, 676
    .word 0x00230333  # add x6, x6, x2
    .word 0x02000393  # addi x7, x0, 32
    .word 0x006383b3  # add x7, x7, x6
    .word 0x406382b3  # sub x5, x7, x6
    .word 0x00029463  # bne x5, x0, 8
    .word 0x0100006f  # jal x0, 16
    .word 0x00032023  # sw x0, 0(x6)
    .word 0x00430313  # addi x6, x6, 4
    .word 0xfedff06f  # jal x0, -20
    .word 0xfff00693  # addi x13, x0, -1
    .word 0x00168693  # addi x13, x13, 1
    .word 0x00269913  # slli x18, x13, 2
    .word 0x00290933  # add x18, x18, x2
    .word 0x06092283  # lw x5, 96(x18)
    .word 0x26592023  # sw x5, 608(x18)
    .word 0xff968293  # addi x5, x13, -7
    .word 0xfe0294e3  # bne x5, x0, -24
    .word 0xfff00513  # addi x10, x0, -1
    .word 0x00150513  # addi x10, x10, 1
    .word 0x00251893  # slli x17, x10, 2
    .word 0x002888b3  # add x17, x17, x2
    .word 0x2608a583  # lw x11, 608(x17)
    .word 0x00000613  # addi x12, x0, 0
    .word 0xfff00693  # addi x13, x0, -1
    .word 0x00168693  # addi x13, x13, 1
    .word 0x00269913  # slli x18, x13, 2
    .word 0x00290933  # add x18, x18, x2
    .word 0x00868293  # addi x5, x13, 8
    .word 0x00229813  # slli x16, x5, 2
    .word 0x00280833  # add x16, x16, x2
    .word 0x06082803  # lw x16, 96(x16)
    .word 0x03058733  # mul x14, x11, x16
    .word 0x0305b7b3  # mulhu x15, x11, x16
    .word 0x28492283  # lw x5, 644(x18)
    .word 0x00e28833  # add x16, x5, x14
    .word 0x00069a63  # bne x13, x0, 20
    .word 0x2708a023  # sw x16, 608(x17)
    .word 0x00e83333  # sltu x6, x16, x14
    .word 0x00678633  # add x12, x15, x6
    .word 0x0200006f  # jal x0, 32
    .word 0x00c802b3  # add x5, x16, x12
    .word 0x28592023  # sw x5, 640(x18)
    .word 0x00e83333  # sltu x6, x16, x14
    .word 0x006782b3  # add x5, x15, x6
    .word 0x28092303  # lw x6, 640(x18)
    .word 0x00c33333  # sltu x6, x6, x12
    .word 0x00628633  # add x12, x5, x6
    .word 0xff968293  # addi x5, x13, -7
    .word 0xfa0290e3  # bne x5, x0, -96
    .word 0x2ac12023  # sw x12, 672(x2)
    .word 0xff950293  # addi x5, x10, -7
    .word 0xf6029ee3  # bne x5, x0, -132
    .word 0x00000813  # addi x16, x0, 0
    .word 0xfff00693  # addi x13, x0, -1
    .word 0x00168693  # addi x13, x13, 1
    .word 0x00269913  # slli x18, x13, 2
    .word 0x00290933  # add x18, x18, x2
    .word 0x28492283  # lw x5, 644(x18)
    .word 0x02600313  # addi x6, x0, 38
    .word 0x02628633  # mul x12, x5, x6
    .word 0x28492703  # lw x14, 644(x18)
    .word 0x02600313  # addi x6, x0, 38
    .word 0x026735b3  # mulhu x11, x14, x6
    .word 0x26092283  # lw x5, 608(x18)
    .word 0x00c28733  # add x14, x5, x12
    .word 0x010702b3  # add x5, x14, x16
    .word 0x2a592223  # sw x5, 676(x18)
    .word 0x00c73333  # sltu x6, x14, x12
    .word 0x006582b3  # add x5, x11, x6
    .word 0x2a492303  # lw x6, 676(x18)
    .word 0x01033333  # sltu x6, x6, x16
    .word 0x00628833  # add x16, x5, x6
    .word 0xff968293  # addi x5, x13, -7
    .word 0xfa029ae3  # bne x5, x0, -76
    .word 0x01300293  # addi x5, x0, 19
    .word 0x00181313  # slli x6, x16, 1
    .word 0x2c012383  # lw x7, 704(x2)
    .word 0x01f3d393  # srli x7, x7, 31
    .word 0x00736333  # or x6, x6, x7
    .word 0x02628833  # mul x16, x5, x6
    .word 0x2c012283  # lw x5, 704(x2)
    .word 0x00129293  # slli x5, x5, 1
    .word 0x0012d293  # srli x5, x5, 1
    .word 0x2c512023  # sw x5, 704(x2)
    .word 0xfff00693  # addi x13, x0, -1
    .word 0x00168693  # addi x13, x13, 1
    .word 0x00269913  # slli x18, x13, 2
    .word 0x00290933  # add x18, x18, x2
    .word 0x2a492283  # lw x5, 676(x18)
    .word 0x010282b3  # add x5, x5, x16
    .word 0x2a592223  # sw x5, 676(x18)
    .word 0x2a492283  # lw x5, 676(x18)
    .word 0x0102b833  # sltu x16, x5, x16
    .word 0xff968293  # addi x5, x13, -7
    .word 0xfc029ee3  # bne x5, x0, -36
    .word 0x2a412283  # lw x5, 676(x2)
    .word 0x01300313  # addi x6, x0, 19
    .word 0x2c012383  # lw x7, 704(x2)
    .word 0x01f3d393  # srli x7, x7, 31
    .word 0x02730333  # mul x6, x6, x7
    .word 0x006282b3  # add x5, x5, x6
    .word 0x2a512223  # sw x5, 676(x2)
    .word 0x2c012283  # lw x5, 704(x2)
    .word 0x00129293  # slli x5, x5, 1
    .word 0x0012d293  # srli x5, x5, 1
    .word 0x2c512023  # sw x5, 704(x2)
    .word 0xfff00693  # addi x13, x0, -1
    .word 0x00168693  # addi x13, x13, 1
    .word 0x00269913  # slli x18, x13, 2
    .word 0x00290933  # add x18, x18, x2
    .word 0x01068293  # addi x5, x13, 16
    .word 0x2a492303  # lw x6, 676(x18)
    .word 0x00229293  # slli x5, x5, 2
    .word 0x002282b3  # add x5, x5, x2
    .word 0x0662a023  # sw x6, 96(x5)
    .word 0xff968293  # addi x5, x13, -7
    .word 0xfc029ee3  # bne x5, x0, -36
    .word 0x01300813  # addi x16, x0, 19
    .word 0xfff00693  # addi x13, x0, -1
    .word 0x00168693  # addi x13, x13, 1
    .word 0x00269913  # slli x18, x13, 2
    .word 0x00290933  # add x18, x18, x2
    .word 0x01068293  # addi x5, x13, 16
    .word 0x00229293  # slli x5, x5, 2
    .word 0x002282b3  # add x5, x5, x2
    .word 0x0602a283  # lw x5, 96(x5)
    .word 0x010282b3  # add x5, x5, x16
    .word 0x0102b833  # sltu x16, x5, x16
    .word 0xffa68293  # addi x5, x13, -6
    .word 0xfc029ce3  # bne x5, x0, -40
    .word 0x0bc12283  # lw x5, 188(x2)
    .word 0x010282b3  # add x5, x5, x16
    .word 0x41f2d293  # srai x5, x5, 31
    .word 0x0132f813  # andi x16, x5, 19
    .word 0xfff00693  # addi x13, x0, -1
    .word 0x00168693  # addi x13, x13, 1
    .word 0x00269913  # slli x18, x13, 2
    .word 0x00290933  # add x18, x18, x2
    .word 0x01068293  # addi x5, x13, 16
    .word 0x00229293  # slli x5, x5, 2
    .word 0x002282b3  # add x5, x5, x2
    .word 0x0602a283  # lw x5, 96(x5)
    .word 0x01028633  # add x12, x5, x16
    .word 0x01063833  # sltu x16, x12, x16
    .word 0x01068293  # addi x5, x13, 16
    .word 0x00229293  # slli x5, x5, 2
    .word 0x002282b3  # add x5, x5, x2
    .word 0x06c2a023  # sw x12, 96(x5)
    .word 0xff968293  # addi x5, x13, -7
    .word 0xfc0294e3  # bne x5, x0, -56
    .word 0x0bc12283  # lw x5, 188(x2)
    .word 0x00129293  # slli x5, x5, 1
    .word 0x0012d293  # srli x5, x5, 1
    .word 0x0a512e23  # sw x5, 188(x2)
    .word 0xfff00693  # addi x13, x0, -1
    .word 0x00168693  # addi x13, x13, 1
    .word 0x00269913  # slli x18, x13, 2
    .word 0x00290933  # add x18, x18, x2
    .word 0x01068293  # addi x5, x13, 16
    .word 0x00229293  # slli x5, x5, 2
    .word 0x002282b3  # add x5, x5, x2
    .word 0x0602a283  # lw x5, 96(x5)
    .word 0x04592023  # sw x5, 64(x18)
    .word 0xff968293  # addi x5, x13, -7
    .word 0xfc029ee3  # bne x5, x0, -36
    # the result
    .word 0x00000513  # addi x10, x0, 0
    # parameter 2: the array, back
    .word 0x04010293  # addi x5, x2, 64
    .word 0x2ec12303  # lw x6, 748(x2)
    .word 0x02028393  # addi x7, x5, 32
    .word 0x0002ae03  # lw x28, 0(x5)
    .word 0x01c32023  # sw x28, 0(x6)
    .word 0x00428293  # addi x5, x5, 4
    .word 0x00430313  # addi x6, x6, 4
    .word 0xfe7298e3  # bne x5, x7, -16
    # above the frame
    .word 0x2e010293  # addi x5, x2, 736
    # the caller's registers
    .word 0x0002a903  # lw x18, 0(x5)
    .cfi_restore 18
    # the caller's x2
    .word 0x01028293  # addi x5, x5, 16
    .cfi_def_cfa 5, 0
    # on to the tail that functions share
    jal x0, factc.tail.1
    .cfi_endproc
    .size f25519_multiply, . - f25519_multiply
    .section .text.factc.tail.1, "axG", @progbits, factc.tail.1, comdat
    .p2align 2
    .globl factc.tail.1
    .hidden factc.tail.1
    .type factc.tail.1, @function
factc.tail.1:
    .cfi_startproc
    .cfi_def_cfa 5, 0
    # all the room, wiped upward
    .word 0x00012023  # sw x0, 0(x2)
    .word 0x00012223  # sw x0, 4(x2)
    .word 0x00012423  # sw x0, 8(x2)
    .word 0x00012623  # sw x0, 12(x2)
    .word 0x01010113  # addi x2, x2, 16
    .word 0xfe5116e3  # bne x2, x5, -20
    .cfi_def_cfa 2, 0
    # temporaries, wiped
    .word 0x00000293  # addi x5, x0, 0
    .word 0x00000313  # addi x6, x0, 0
    .word 0x00000393  # addi x7, x0, 0
    .word 0x00000593  # addi x11, x0, 0
    .word 0x00000613  # addi x12, x0, 0
    .word 0x00000693  # addi x13, x0, 0
    .word 0x00000713  # addi x14, x0, 0
    .word 0x00000793  # addi x15, x0, 0
    .word 0x00000813  # addi x16, x0, 0
    .word 0x00000893  # addi x17, x0, 0
    .word 0x00000e13  # addi x28, x0, 0
    .word 0x00000e93  # addi x29, x0, 0
    .word 0x00000f13  # addi x30, x0, 0
    .word 0x00000f93  # addi x31, x0, 0
    # back
    .word 0x00008067  # jalr x0, 0(x1)
    .cfi_endproc
    .size factc.tail.1, . - factc.tail.1
    .option pop
