# tls_mac_check_32: made by factc 1.0.0 function; 213 words and 21 shared, 432 bytes of stack, profile 1
    .option push
    .option norvc
    .option norelax
    .cfi_sections .debug_frame
    .section .text.tls_mac_check_32, "ax", @progbits
    .p2align 2
    .globl tls_mac_check_32
    .type tls_mac_check_32, @function
tls_mac_check_32:
    .cfi_startproc
    # room above the frame
    .word 0xff010113  # addi x2, x2, -16
    .cfi_def_cfa_offset 16
    # the caller's registers
    .word 0x01212023  # sw x18, 0(x2)
    .cfi_offset 18, -16
    .word 0x01312223  # sw x19, 4(x2)
    .cfi_offset 19, -12
    .word 0x01412423  # sw x20, 8(x2)
    .cfi_offset 20, -8
    .word 0x01512623  # sw x21, 12(x2)
    .cfi_offset 21, -4
    # arguments that are needed behind the body
    # the frame's base
    .word 0xe6010113  # addi x2, x2, -416
    .cfi_def_cfa 2, 432
    # parameter 0: an array
    .word 0x00050293  # addi x5, x10, 0
    .word 0x00010313  # addi x6, x2, 0
    .word 0x12028393  # addi x7, x5, 288
    .word 0x0002ce03  # lbu x28, 0(x5)
    .word 0x01c30023  # sb x28, 0(x6)
    .word 0x00128293  # addi x5, x5, 1
    .word 0x00130313  # addi x6, x6, 1
    .word 0xfe7298e3  # bne x5, x7, -16
    # parameter 1: a word
    .word 0x12b12023  # sw x11, 288(x2)
    # parameter 2: an array
    .word 0x00060293  # addi x5, x12, 0
    .word 0x12410313  # addi x6, x2, 292
    .word 0x02028393  # addi x7, x5, 32
    .word 0x0002ce03  # lbu x28, 0(x5)
    .word 0x01c30023  # sb x28, 0(x6)
    .word 0x00128293  # addi x5, x5, 1
    .word 0x00130313  # addi x6, x6, 1
    .word 0xfe7298e3  # bne x5, x7, -16
    # the body
    .word 0x12012503  # lw x10, 288(x2)
    .word 0x10000293  # addi x5, x0, 256
    .word 0x40a285b3  # sub x11, x5, x10
    .word 0x0025d613  # srli x12, x11, 2
    .word 0x14400313  # addi x6, x0, 324
    .word 0x00230333  # add x6, x6, x2
    .word 0x02400393  # addi x7, x0, 36
    .word 0x006383b3  # add x7, x7, x6
    .word 0x406382b3  # sub x5, x7, x6
    .word 0x00029463  # bne x5, x0, 8
    .word 0x0100006f  # jal x0, 16
    .word 0x00032023  # sw x0, 0(x6)
    .word 0x00430313  # addi x6, x6, 4
    .word 0xfedff06f  # jal x0, -20
    .word 0xfff00693  # addi x13, x0, -1
    .word 0x00168693  # addi x13, x13, 1
    .word 0x02400293  # addi x5, x0, 36
    .word 0x0076f313  # andi x6, x13, 7
    .word 0x02628733  # mul x14, x5, x6
    .word 0x00900293  # addi x5, x0, 9
    .word 0x02d282b3  # mul x5, x5, x13
    .word 0x40c287b3  # sub x15, x5, x12
    .word 0xfff00a13  # addi x20, x0, -1
    .word 0x001a0a13  # addi x20, x20, 1
    .word 0x002a1a93  # slli x21, x20, 2
    .word 0x002a8ab3  # add x21, x21, x2
    .word 0x002a1813  # slli x16, x20, 2
    .word 0x010702b3  # add x5, x14, x16
    .word 0x002282b3  # add x5, x5, x2
    .word 0x0002c283  # lbu x5, 0(x5)
    .word 0x00180393  # addi x7, x16, 1
    .word 0x00770333  # add x6, x14, x7
    .word 0x00230333  # add x6, x6, x2
    .word 0x00034303  # lbu x6, 0(x6)
    .word 0x00831313  # slli x6, x6, 8
    .word 0x0062e8b3  # or x17, x5, x6
    .word 0x00280313  # addi x6, x16, 2
    .word 0x006702b3  # add x5, x14, x6
    .word 0x002282b3  # add x5, x5, x2
    .word 0x0002c283  # lbu x5, 0(x5)
    .word 0x00380393  # addi x7, x16, 3
    .word 0x00770333  # add x6, x14, x7
    .word 0x00230333  # add x6, x6, x2
    .word 0x00034303  # lbu x6, 0(x6)
    .word 0x00831313  # slli x6, x6, 8
    .word 0x0062e933  # or x18, x5, x6
    .word 0x144aa283  # lw x5, 324(x21)
    .word 0x01091313  # slli x6, x18, 16
    .word 0x01136333  # or x6, x6, x17
    .word 0x014783b3  # add x7, x15, x20
    .word 0x0093b393  # sltiu x7, x7, 9
    .word 0x407003b3  # sub x7, x0, x7
    .word 0x00737333  # and x6, x6, x7
    .word 0x0062e2b3  # or x5, x5, x6
    .word 0x145aa223  # sw x5, 324(x21)
    .word 0xff8a0293  # addi x5, x20, -8
    .word 0xf6029ee3  # bne x5, x0, -132
    .word 0xff968293  # addi x5, x13, -7
    .word 0xf4029ae3  # bne x5, x0, -172
    .word 0x00767893  # andi x17, x12, 7
    .word 0x00365913  # srli x18, x12, 3
    .word 0x412882b3  # sub x5, x17, x18
    .word 0x0128b333  # sltu x6, x17, x18
    .word 0x00900393  # addi x7, x0, 9
    .word 0x40600333  # sub x6, x0, x6
    .word 0x0063f333  # and x6, x7, x6
    .word 0x006287b3  # add x15, x5, x6
    .word 0xfff00993  # addi x19, x0, -1
    .word 0x00198993  # addi x19, x19, 1
    .word 0x0137d2b3  # srl x5, x15, x19
    .word 0x0012f293  # andi x5, x5, 1
    .word 0x40500933  # sub x18, x0, x5
    .word 0x16800313  # addi x6, x0, 360
    .word 0x00230333  # add x6, x6, x2
    .word 0x02400393  # addi x7, x0, 36
    .word 0x006383b3  # add x7, x7, x6
    .word 0x406382b3  # sub x5, x7, x6
    .word 0x00029463  # bne x5, x0, 8
    .word 0x0100006f  # jal x0, 16
    .word 0x00032023  # sw x0, 0(x6)
    .word 0x00430313  # addi x6, x6, 4
    .word 0xfedff06f  # jal x0, -20
    .word 0xfff00a13  # addi x20, x0, -1
    .word 0x001a0a13  # addi x20, x20, 1
    .word 0x002a1a93  # slli x21, x20, 2
    .word 0x002a8ab3  # add x21, x21, x2
    .word 0x144aa283  # lw x5, 324(x21)
    .word 0x165aa423  # sw x5, 360(x21)
    .word 0xff8a0293  # addi x5, x20, -8
    .word 0xfe0294e3  # bne x5, x0, -24
    .word 0xfff00a13  # addi x20, x0, -1
    .word 0x001a0a13  # addi x20, x20, 1
    .word 0x002a1a93  # slli x21, x20, 2
    .word 0x002a8ab3  # add x21, x21, x2
    .word 0x00100313  # addi x6, x0, 1
    .word 0x01331333  # sll x6, x6, x19
    .word 0x006a02b3  # add x5, x20, x6
    .word 0x00900313  # addi x6, x0, 9
    .word 0x0262f2b3  # remu x5, x5, x6
    .word 0x00229293  # slli x5, x5, 2
    .word 0x002282b3  # add x5, x5, x2
    .word 0x1682a283  # lw x5, 360(x5)
    .word 0x168aa303  # lw x6, 360(x21)
    .word 0x0062c2b3  # xor x5, x5, x6
    .word 0x0122f8b3  # and x17, x5, x18
    .word 0x168aa283  # lw x5, 360(x21)
    .word 0x0112c2b3  # xor x5, x5, x17
    .word 0x145aa223  # sw x5, 324(x21)
    .word 0xff8a0293  # addi x5, x20, -8
    .word 0xfa029ce3  # bne x5, x0, -72
    .word 0xffd98293  # addi x5, x19, -3
    .word 0xf4029ae3  # bne x5, x0, -172
    .word 0xfff00693  # addi x13, x0, -1
    .word 0x00168693  # addi x13, x13, 1
    .word 0x0016fa13  # andi x20, x13, 1
    .word 0x002a1a93  # slli x21, x20, 2
    .word 0x002a8ab3  # add x21, x21, x2
    .word 0x01000293  # addi x5, x0, 16
    .word 0x0142d833  # srl x16, x5, x20
    .word 0x00100313  # addi x6, x0, 1
    .word 0x41430333  # sub x6, x6, x20
    .word 0x0065d2b3  # srl x5, x11, x6
    .word 0x0012f293  # andi x5, x5, 1
    .word 0x40500933  # sub x18, x0, x5
    .word 0xfff00a13  # addi x20, x0, -1
    .word 0x001a0a13  # addi x20, x20, 1
    .word 0x002a1a93  # slli x21, x20, 2
    .word 0x002a8ab3  # add x21, x21, x2
    .word 0x144aa283  # lw x5, 324(x21)
    .word 0x0102d2b3  # srl x5, x5, x16
    .word 0x001a0313  # addi x6, x20, 1
    .word 0x00900393  # addi x7, x0, 9
    .word 0x02737333  # remu x6, x6, x7
    .word 0x00231313  # slli x6, x6, 2
    .word 0x00230333  # add x6, x6, x2
    .word 0x14432303  # lw x6, 324(x6)
    .word 0x02000393  # addi x7, x0, 32
    .word 0x410383b3  # sub x7, x7, x16
    .word 0x00731333  # sll x6, x6, x7
    .word 0x0062c2b3  # xor x5, x5, x6
    .word 0x144aa303  # lw x6, 324(x21)
    .word 0x0062c2b3  # xor x5, x5, x6
    .word 0x0122f8b3  # and x17, x5, x18
    .word 0x144aa283  # lw x5, 324(x21)
    .word 0x0112c2b3  # xor x5, x5, x17
    .word 0x145aa223  # sw x5, 324(x21)
    .word 0xff8a0293  # addi x5, x20, -8
    .word 0xfa0294e3  # bne x5, x0, -88
    .word 0xfff68293  # addi x5, x13, -1
    .word 0xf60298e3  # bne x5, x0, -144
    .word 0x00000893  # addi x17, x0, 0
    .word 0xfff00693  # addi x13, x0, -1
    .word 0x00168693  # addi x13, x13, 1
    .word 0x00269a13  # slli x20, x13, 2
    .word 0x002a1a93  # slli x21, x20, 2
    .word 0x002a8ab3  # add x21, x21, x2
    .word 0x002a02b3  # add x5, x20, x2
    .word 0x1242c283  # lbu x5, 292(x5)
    .word 0x002a0333  # add x6, x20, x2
    .word 0x12534303  # lbu x6, 293(x6)
    .word 0x00831313  # slli x6, x6, 8
    .word 0x0062e2b3  # or x5, x5, x6
    .word 0x002a0333  # add x6, x20, x2
    .word 0x12634303  # lbu x6, 294(x6)
    .word 0x01031313  # slli x6, x6, 16
    .word 0x0062e2b3  # or x5, x5, x6
    .word 0x002a0333  # add x6, x20, x2
    .word 0x12734303  # lbu x6, 295(x6)
    .word 0x01831313  # slli x6, x6, 24
    .word 0x0062e933  # or x18, x5, x6
    .word 0x00269313  # slli x6, x13, 2
    .word 0x00230333  # add x6, x6, x2
    .word 0x14432303  # lw x6, 324(x6)
    .word 0x01234333  # xor x6, x6, x18
    .word 0x0068e8b3  # or x17, x17, x6
    .word 0xff968293  # addi x5, x13, -7
    .word 0xfa0290e3  # bne x5, x0, -96
    .word 0x0018b293  # sltiu x5, x17, 1
    .word 0xfff50313  # addi x6, x10, -1
    .word 0x10033313  # sltiu x6, x6, 256
    .word 0x0062f2b3  # and x5, x5, x6
    .word 0x18512623  # sw x5, 396(x2)
    # the result
    .word 0x18c12503  # lw x10, 396(x2)
    # above the frame
    .word 0x1a010293  # addi x5, x2, 416
    # the caller's registers
    .word 0x0002a903  # lw x18, 0(x5)
    .cfi_restore 18
    .word 0x0042a983  # lw x19, 4(x5)
    .cfi_restore 19
    .word 0x0082aa03  # lw x20, 8(x5)
    .cfi_restore 20
    .word 0x00c2aa83  # lw x21, 12(x5)
    .cfi_restore 21
    # the caller's x2
    .word 0x01028293  # addi x5, x5, 16
    .cfi_def_cfa 5, 0
    # on to the tail that functions share
    jal x0, factc.tail.1
    .cfi_endproc
    .size tls_mac_check_32, . - tls_mac_check_32
    .section .text.factc.tail.1, "axG", @progbits, factc.tail.1, comdat
    .p2align 2
    .globl factc.tail.1
    .hidden factc.tail.1
    .type factc.tail.1, @function
factc.tail.1:
    .cfi_startproc
    .cfi_def_cfa 5, 0
    # all the room, wiped upward
    .word 0x00012023  # sw x0, 0(x2)
    .word 0x00012223  # sw x0, 4(x2)
    .word 0x00012423  # sw x0, 8(x2)
    .word 0x00012623  # sw x0, 12(x2)
    .word 0x01010113  # addi x2, x2, 16
    .word 0xfe5116e3  # bne x2, x5, -20
    .cfi_def_cfa 2, 0
    # temporaries, wiped
    .word 0x00000293  # addi x5, x0, 0
    .word 0x00000313  # addi x6, x0, 0
    .word 0x00000393  # addi x7, x0, 0
    .word 0x00000593  # addi x11, x0, 0
    .word 0x00000613  # addi x12, x0, 0
    .word 0x00000693  # addi x13, x0, 0
    .word 0x00000713  # addi x14, x0, 0
    .word 0x00000793  # addi x15, x0, 0
    .word 0x00000813  # addi x16, x0, 0
    .word 0x00000893  # addi x17, x0, 0
    .word 0x00000e13  # addi x28, x0, 0
    .word 0x00000e93  # addi x29, x0, 0
    .word 0x00000f13  # addi x30, x0, 0
    .word 0x00000f93  # addi x31, x0, 0
    # back
    .word 0x00008067  # jalr x0, 0(x1)
    .cfi_endproc
    .size factc.tail.1, . - factc.tail.1
    .option pop
