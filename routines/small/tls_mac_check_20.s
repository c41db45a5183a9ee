# tls_mac_check_20: made by factc 1.0.0 function; 216 words and 21 shared, 416 bytes of stack, profile 1
    .option push
    .option norvc
    .option norelax
    .cfi_sections .debug_frame
    .section .text.tls_mac_check_20, "ax", @progbits
    .p2align 2
    .globl tls_mac_check_20
    .type tls_mac_check_20, @function
tls_mac_check_20:
    .cfi_startproc
    # room above the frame
    .word 0xfe010113  # addi x2, x2, -32
    .cfi_def_cfa_offset 32
    # the caller's registers
    .word 0x01212023  # sw x18, 0(x2)
    .cfi_offset 18, -32
    .word 0x01312223  # sw x19, 4(x2)
    .cfi_offset 19, -28
    .word 0x01412423  # sw x20, 8(x2)
    .cfi_offset 20, -24
    .word 0x01512623  # sw x21, 12(x2)
    .cfi_offset 21, -20
    .word 0x01612823  # sw x22, 16(x2)
    .cfi_offset 22, -16
    .word 0x01712a23  # sw x23, 20(x2)
    .cfi_offset 23, -12
    # arguments that are needed behind the body
    # the frame's base
    .word 0xe8010113  # addi x2, x2, -384
    .cfi_def_cfa 2, 416
    # parameter 0: an array
    .word 0x00050293  # addi x5, x10, 0
    .word 0x00010313  # addi x6, x2, 0
    .word 0x11828393  # addi x7, x5, 280
    .word 0x0002ce03  # lbu x28, 0(x5)
    .word 0x01c30023  # sb x28, 0(x6)
    .word 0x00128293  # addi x5, x5, 1
    .word 0x00130313  # addi x6, x6, 1
    .word 0xfe7298e3  # bne x5, x7, -16
    # parameter 1: a word
    .word 0x10b12c23  # sw x11, 280(x2)
    # parameter 2: an array
    .word 0x00060293  # addi x5, x12, 0
    .word 0x11c10313  # addi x6, x2, 284
    .word 0x01428393  # addi x7, x5, 20
    .word 0x0002ce03  # lbu x28, 0(x5)
    .word 0x01c30023  # sb x28, 0(x6)
    .word 0x00128293  # addi x5, x5, 1
    .word 0x00130313  # addi x6, x6, 1
    .word 0xfe7298e3  # bne x5, x7, -16
    # the body
    .word 0x11812503  # lw x10, 280(x2)
    .word 0x10400293  # addi x5, x0, 260
    .word 0x40a285b3  # sub x11, x5, x10
    .word 0x0025d613  # srli x12, x11, 2
    .word 0x13000313  # addi x6, x0, 304
    .word 0x00230333  # add x6, x6, x2
    .word 0x01c00393  # addi x7, x0, 28
    .word 0x006383b3  # add x7, x7, x6
    .word 0x406382b3  # sub x5, x7, x6
    .word 0x00029463  # bne x5, x0, 8
    .word 0x0100006f  # jal x0, 16
    .word 0x00032023  # sw x0, 0(x6)
    .word 0x00430313  # addi x6, x6, 4
    .word 0xfedff06f  # jal x0, -20
    .word 0xfff00693  # addi x13, x0, -1
    .word 0x00168693  # addi x13, x13, 1
    .word 0x03800293  # addi x5, x0, 56
    .word 0x02d289b3  # mul x19, x5, x13
    .word 0x00299b13  # slli x22, x19, 2
    .word 0x002b0b33  # add x22, x22, x2
    .word 0x00e00293  # addi x5, x0, 14
    .word 0x02d282b3  # mul x5, x5, x13
    .word 0x40c28733  # sub x14, x5, x12
    .word 0xfff00793  # addi x15, x0, -1
    .word 0x00178793  # addi x15, x15, 1
    .word 0x00279a13  # slli x20, x15, 2
    .word 0x002a1b93  # slli x23, x20, 2
    .word 0x002b8bb3  # add x23, x23, x2
    .word 0x00700313  # addi x6, x0, 7
    .word 0x0267f833  # remu x16, x15, x6
    .word 0x00281a93  # slli x21, x16, 2
    .word 0x002a8ab3  # add x21, x21, x2
    .word 0x014982b3  # add x5, x19, x20
    .word 0x002282b3  # add x5, x5, x2
    .word 0x0002c283  # lbu x5, 0(x5)
    .word 0x001a0393  # addi x7, x20, 1
    .word 0x00798333  # add x6, x19, x7
    .word 0x00230333  # add x6, x6, x2
    .word 0x00034303  # lbu x6, 0(x6)
    .word 0x00831313  # slli x6, x6, 8
    .word 0x0062e8b3  # or x17, x5, x6
    .word 0x002a0313  # addi x6, x20, 2
    .word 0x006982b3  # add x5, x19, x6
    .word 0x002282b3  # add x5, x5, x2
    .word 0x0002c283  # lbu x5, 0(x5)
    .word 0x003a0393  # addi x7, x20, 3
    .word 0x00798333  # add x6, x19, x7
    .word 0x00230333  # add x6, x6, x2
    .word 0x00034303  # lbu x6, 0(x6)
    .word 0x00831313  # slli x6, x6, 8
    .word 0x0062e933  # or x18, x5, x6
    .word 0x130aa283  # lw x5, 304(x21)
    .word 0x01091313  # slli x6, x18, 16
    .word 0x01136333  # or x6, x6, x17
    .word 0x00f703b3  # add x7, x14, x15
    .word 0x0063b393  # sltiu x7, x7, 6
    .word 0x407003b3  # sub x7, x0, x7
    .word 0x00737333  # and x6, x6, x7
    .word 0x0062e2b3  # or x5, x5, x6
    .word 0x125aa823  # sw x5, 304(x21)
    .word 0xff378293  # addi x5, x15, -13
    .word 0xf60296e3  # bne x5, x0, -148
    .word 0xffc68293  # addi x5, x13, -4
    .word 0xf40290e3  # bne x5, x0, -192
    .word 0x00767293  # andi x5, x12, 7
    .word 0x00365313  # srli x6, x12, 3
    .word 0x006288b3  # add x17, x5, x6
    .word 0x0078f293  # andi x5, x17, 7
    .word 0x0038d313  # srli x6, x17, 3
    .word 0x00628733  # add x14, x5, x6
    .word 0xfff00a13  # addi x20, x0, -1
    .word 0x001a0a13  # addi x20, x20, 1
    .word 0x002a1b93  # slli x23, x20, 2
    .word 0x002b8bb3  # add x23, x23, x2
    .word 0x014752b3  # srl x5, x14, x20
    .word 0x0012f293  # andi x5, x5, 1
    .word 0x40500933  # sub x18, x0, x5
    .word 0x14c00313  # addi x6, x0, 332
    .word 0x00230333  # add x6, x6, x2
    .word 0x01c00393  # addi x7, x0, 28
    .word 0x006383b3  # add x7, x7, x6
    .word 0x406382b3  # sub x5, x7, x6
    .word 0x00029463  # bne x5, x0, 8
    .word 0x0100006f  # jal x0, 16
    .word 0x00032023  # sw x0, 0(x6)
    .word 0x00430313  # addi x6, x6, 4
    .word 0xfedff06f  # jal x0, -20
    .word 0xfff00993  # addi x19, x0, -1
    .word 0x00198993  # addi x19, x19, 1
    .word 0x00299b13  # slli x22, x19, 2
    .word 0x002b0b33  # add x22, x22, x2
    .word 0x130b2283  # lw x5, 304(x22)
    .word 0x145b2623  # sw x5, 332(x22)
    .word 0xffa98293  # addi x5, x19, -6
    .word 0xfe0294e3  # bne x5, x0, -24
    .word 0xfff00993  # addi x19, x0, -1
    .word 0x00198993  # addi x19, x19, 1
    .word 0x00299b13  # slli x22, x19, 2
    .word 0x002b0b33  # add x22, x22, x2
    .word 0x00100313  # addi x6, x0, 1
    .word 0x01431333  # sll x6, x6, x20
    .word 0x006982b3  # add x5, x19, x6
    .word 0x00700313  # addi x6, x0, 7
    .word 0x0262f2b3  # remu x5, x5, x6
    .word 0x00229293  # slli x5, x5, 2
    .word 0x002282b3  # add x5, x5, x2
    .word 0x14c2a283  # lw x5, 332(x5)
    .word 0x14cb2303  # lw x6, 332(x22)
    .word 0x0062c2b3  # xor x5, x5, x6
    .word 0x0122f8b3  # and x17, x5, x18
    .word 0x14cb2283  # lw x5, 332(x22)
    .word 0x0112c2b3  # xor x5, x5, x17
    .word 0x125b2823  # sw x5, 304(x22)
    .word 0xffa98293  # addi x5, x19, -6
    .word 0xfa029ce3  # bne x5, x0, -72
    .word 0xffea0293  # addi x5, x20, -2
    .word 0xf40296e3  # bne x5, x0, -180
    .word 0xfff00793  # addi x15, x0, -1
    .word 0x00178793  # addi x15, x15, 1
    .word 0x01000293  # addi x5, x0, 16
    .word 0x00f2d9b3  # srl x19, x5, x15
    .word 0x00299b13  # slli x22, x19, 2
    .word 0x002b0b33  # add x22, x22, x2
    .word 0x00100313  # addi x6, x0, 1
    .word 0x40f30333  # sub x6, x6, x15
    .word 0x0065d2b3  # srl x5, x11, x6
    .word 0x0012f293  # andi x5, x5, 1
    .word 0x40500933  # sub x18, x0, x5
    .word 0xfff00a13  # addi x20, x0, -1
    .word 0x001a0a13  # addi x20, x20, 1
    .word 0x002a1b93  # slli x23, x20, 2
    .word 0x002b8bb3  # add x23, x23, x2
    .word 0x130ba283  # lw x5, 304(x23)
    .word 0x0132d2b3  # srl x5, x5, x19
    .word 0x134ba303  # lw x6, 308(x23)
    .word 0x02000393  # addi x7, x0, 32
    .word 0x413383b3  # sub x7, x7, x19
    .word 0x00731333  # sll x6, x6, x7
    .word 0x0062c2b3  # xor x5, x5, x6
    .word 0x130ba303  # lw x6, 304(x23)
    .word 0x0062c2b3  # xor x5, x5, x6
    .word 0x0122f8b3  # and x17, x5, x18
    .word 0x130ba283  # lw x5, 304(x23)
    .word 0x0112c2b3  # xor x5, x5, x17
    .word 0x125ba823  # sw x5, 304(x23)
    .word 0xffba0293  # addi x5, x20, -5
    .word 0xfa029ee3  # bne x5, x0, -68
    .word 0xfff78293  # addi x5, x15, -1
    .word 0xf80294e3  # bne x5, x0, -120
    .word 0x00000893  # addi x17, x0, 0
    .word 0xfff00993  # addi x19, x0, -1
    .word 0x00198993  # addi x19, x19, 1
    .word 0x00299b13  # slli x22, x19, 2
    .word 0x002b0b33  # add x22, x22, x2
    .word 0x00299a13  # slli x20, x19, 2
    .word 0x002a1b93  # slli x23, x20, 2
    .word 0x002b8bb3  # add x23, x23, x2
    .word 0x002a02b3  # add x5, x20, x2
    .word 0x11c2c283  # lbu x5, 284(x5)
    .word 0x002a0333  # add x6, x20, x2
    .word 0x11d34303  # lbu x6, 285(x6)
    .word 0x00831313  # slli x6, x6, 8
    .word 0x0062e2b3  # or x5, x5, x6
    .word 0x002a0333  # add x6, x20, x2
    .word 0x11e34303  # lbu x6, 286(x6)
    .word 0x01031313  # slli x6, x6, 16
    .word 0x0062e2b3  # or x5, x5, x6
    .word 0x002a0333  # add x6, x20, x2
    .word 0x11f34303  # lbu x6, 287(x6)
    .word 0x01831313  # slli x6, x6, 24
    .word 0x0062e933  # or x18, x5, x6
    .word 0x130b2303  # lw x6, 304(x22)
    .word 0x01234333  # xor x6, x6, x18
    .word 0x0068e8b3  # or x17, x17, x6
    .word 0xffc98293  # addi x5, x19, -4
    .word 0xfa0290e3  # bne x5, x0, -96
    .word 0x0018b293  # sltiu x5, x17, 1
    .word 0xfff50313  # addi x6, x10, -1
    .word 0x10033313  # sltiu x6, x6, 256
    .word 0x0062f2b3  # and x5, x5, x6
    .word 0x16512423  # sw x5, 360(x2)
    # the result
    .word 0x16812503  # lw x10, 360(x2)
    # above the frame
    .word 0x18010293  # addi x5, x2, 384
    # the caller's registers
    .word 0x0002a903  # lw x18, 0(x5)
    .cfi_restore 18
    .word 0x0042a983  # lw x19, 4(x5)
    .cfi_restore 19
    .word 0x0082aa03  # lw x20, 8(x5)
    .cfi_restore 20
    .word 0x00c2aa83  # lw x21, 12(x5)
    .cfi_restore 21
    .word 0x0102ab03  # lw x22, 16(x5)
    .cfi_restore 22
    .word 0x0142ab83  # lw x23, 20(x5)
    .cfi_restore 23
    # the caller's x2
    .word 0x02028293  # addi x5, x5, 32
    .cfi_def_cfa 5, 0
    # on to the tail that functions share
    jal x0, factc.tail.1
    .cfi_endproc
    .size tls_mac_check_20, . - tls_mac_check_20
    .section .text.factc.tail.1, "axG", @progbits, factc.tail.1, comdat
    .p2align 2
    .globl factc.tail.1
    .hidden factc.tail.1
    .type factc.tail.1, @function
factc.tail.1:
    .cfi_startproc
    .cfi_def_cfa 5, 0
    # all the room, wiped upward
    .word 0x00012023  # sw x0, 0(x2)
    .word 0x00012223  # sw x0, 4(x2)
    .word 0x00012423  # sw x0, 8(x2)
    .word 0x00012623  # sw x0, 12(x2)
    .word 0x01010113  # addi x2, x2, 16
    .word 0xfe5116e3  # bne x2, x5, -20
    .cfi_def_cfa 2, 0
    # temporaries, wiped
    .word 0x00000293  # addi x5, x0, 0
    .word 0x00000313  # addi x6, x0, 0
    .word 0x00000393  # addi x7, x0, 0
    .word 0x00000593  # addi x11, x0, 0
    .word 0x00000613  # addi x12, x0, 0
    .word 0x00000693  # addi x13, x0, 0
    .word 0x00000713  # addi x14, x0, 0
    .word 0x00000793  # addi x15, x0, 0
    .word 0x00000813  # addi x16, x0, 0
    .word 0x00000893  # addi x17, x0, 0
    .word 0x00000e13  # addi x28, x0, 0
    .word 0x00000e93  # addi x29, x0, 0
    .word 0x00000f13  # addi x30, x0, 0
    .word 0x00000f93  # addi x31, x0, 0
    # back
    .word 0x00008067  # jalr x0, 0(x1)
    .cfi_endproc
    .size factc.tail.1, . - factc.tail.1
    .option pop
