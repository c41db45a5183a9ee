# siphash24_blocks: made by factc 1.0.0 function; 177 words and 21 shared, 160 bytes of stack, profile 1
    .option push
    .option norvc
    .option norelax
    .cfi_sections .debug_frame
    .section .text.siphash24_blocks, "ax", @progbits
    .p2align 2
    .globl siphash24_blocks
    .type siphash24_blocks, @function
siphash24_blocks:
    .cfi_startproc
    # room above the frame
    .word 0xfe010113  # addi x2, x2, -32
    .cfi_def_cfa_offset 32
    # the caller's registers
    .word 0x01212023  # sw x18, 0(x2)
    .cfi_offset 18, -32
    .word 0x01312223  # sw x19, 4(x2)
    .cfi_offset 19, -28
    .word 0x01412423  # sw x20, 8(x2)
    .cfi_offset 20, -24
    .word 0x01512623  # sw x21, 12(x2)
    .cfi_offset 21, -20
    .word 0x01612823  # sw x22, 16(x2)
    .cfi_offset 22, -16
    .word 0x01712a23  # sw x23, 20(x2)
    .cfi_offset 23, -12
    # arguments that are needed behind the body
    .word 0x00a12e23  # sw x10, 28(x2)
    # the frame's base
    .word 0xf8010113  # addi x2, x2, -128
    .cfi_def_cfa 2, 160
    # parameter 0: an array
    .word 0x00050293  # addi x5, x10, 0
    .word 0x00010313  # addi x6, x2, 0
    .word 0x02028393  # addi x7, x5, 32
    .word 0x0002ae03  # lw x28, 0(x5)
    .word 0x01c32023  # sw x28, 0(x6)
    .word 0x00428293  # addi x5, x5, 4
    .word 0x00430313  # addi x6, x6, 4
    .word 0xfe7298e3  # bne x5, x7, -16
    # parameter 1: an array
    .word 0x00058293  # addi x5, x11, 0
    .word 0x02010313  # addi x6, x2, 32
    .word 0x04028393  # addi x7, x5, 64
    .word 0x0002ce03  # lbu x28, 0(x5)
    .word 0x01c30023  # sb x28, 0(x6)
    .word 0x00128293  # addi x5, x5, 1
    .word 0x00130313  # addi x6, x6, 1
    .word 0xfe7298e3  # bne x5, x7, -16
    # parameter 2: a word
    .word 0x06c12023  # sw x12, 96(x2)
    # the body
    .word 0x06012503  # lw x10, 96(x2)
    .word 0x00000a13  # addi x20, x0, 0
    .word 0x00012583  # lw x11, 0(x2)
    .word 0x00412603  # lw x12, 4(x2)
    .word 0x00812683  # lw x13, 8(x2)
    .word 0x00c12703  # lw x14, 12(x2)
    .word 0x01012783  # lw x15, 16(x2)
    .word 0x01412803  # lw x16, 20(x2)
    .word 0x01812883  # lw x17, 24(x2)
    .word 0x01c12903  # lw x18, 28(x2)
    .word 0x06012423  # sw x0, 104(x2)
    .word 0x00853293  # sltiu x5, x10, 8
    .word 0x00800393  # addi x7, x0, 8
    .word 0x405002b3  # sub x5, x0, x5
    .word 0x00754333  # xor x6, x10, x7
    .word 0x00537333  # and x6, x6, x5
    .word 0x0063c2b3  # xor x5, x7, x6
    .word 0x00900313  # addi x6, x0, 9
    .word 0x0262f2b3  # remu x5, x5, x6
    .word 0x06512623  # sw x5, 108(x2)
    .word 0x06812303  # lw x6, 104(x2)
    .word 0x06c12283  # lw x5, 108(x2)
    .word 0x005332b3  # sltu x5, x6, x5
    .word 0x00029463  # bne x5, x0, 8
    .word 0x1940006f  # jal x0, 404
    .word 0x00030a13  # addi x20, x6, 0
    .word 0x003a1b93  # slli x23, x20, 3
    .word 0x002b82b3  # add x5, x23, x2
    .word 0x0202c283  # lbu x5, 32(x5)
    .word 0x002b8333  # add x6, x23, x2
    .word 0x02134303  # lbu x6, 33(x6)
    .word 0x00831313  # slli x6, x6, 8
    .word 0x0062e2b3  # or x5, x5, x6
    .word 0x002b8333  # add x6, x23, x2
    .word 0x02234303  # lbu x6, 34(x6)
    .word 0x01031313  # slli x6, x6, 16
    .word 0x0062e2b3  # or x5, x5, x6
    .word 0x002b8333  # add x6, x23, x2
    .word 0x02334303  # lbu x6, 35(x6)
    .word 0x01831313  # slli x6, x6, 24
    .word 0x0062eab3  # or x21, x5, x6
    .word 0x003a1293  # slli x5, x20, 3
    .word 0x00428b93  # addi x23, x5, 4
    .word 0x002b82b3  # add x5, x23, x2
    .word 0x0202c283  # lbu x5, 32(x5)
    .word 0x002b8333  # add x6, x23, x2
    .word 0x02134303  # lbu x6, 33(x6)
    .word 0x00831313  # slli x6, x6, 8
    .word 0x0062e2b3  # or x5, x5, x6
    .word 0x002b8333  # add x6, x23, x2
    .word 0x02234303  # lbu x6, 34(x6)
    .word 0x01031313  # slli x6, x6, 16
    .word 0x0062e2b3  # or x5, x5, x6
    .word 0x002b8333  # add x6, x23, x2
    .word 0x02334303  # lbu x6, 35(x6)
    .word 0x01831313  # slli x6, x6, 24
    .word 0x0062eb33  # or x22, x5, x6
    .word 0x0158c8b3  # xor x17, x17, x21
    .word 0x01694933  # xor x18, x18, x22
    .word 0xfff00b93  # addi x23, x0, -1
    .word 0x001b8b93  # addi x23, x23, 1
    .word 0x00d585b3  # add x11, x11, x13
    .word 0x00e602b3  # add x5, x12, x14
    .word 0x00d5b333  # sltu x6, x11, x13
    .word 0x00628633  # add x12, x5, x6
    .word 0x00d69293  # slli x5, x13, 13
    .word 0x01375313  # srli x6, x14, 19
    .word 0x0062e9b3  # or x19, x5, x6
    .word 0x00d71293  # slli x5, x14, 13
    .word 0x0136d313  # srli x6, x13, 19
    .word 0x0062e733  # or x14, x5, x6
    .word 0x00b9c6b3  # xor x13, x19, x11
    .word 0x00c74733  # xor x14, x14, x12
    .word 0x00058993  # addi x19, x11, 0
    .word 0x00060593  # addi x11, x12, 0
    .word 0x00098613  # addi x12, x19, 0
    .word 0x011787b3  # add x15, x15, x17
    .word 0x012802b3  # add x5, x16, x18
    .word 0x0117b333  # sltu x6, x15, x17
    .word 0x00628833  # add x16, x5, x6
    .word 0x01089293  # slli x5, x17, 16
    .word 0x01095313  # srli x6, x18, 16
    .word 0x0062e9b3  # or x19, x5, x6
    .word 0x01091293  # slli x5, x18, 16
    .word 0x0108d313  # srli x6, x17, 16
    .word 0x0062e933  # or x18, x5, x6
    .word 0x00f9c8b3  # xor x17, x19, x15
    .word 0x01094933  # xor x18, x18, x16
    .word 0x011585b3  # add x11, x11, x17
    .word 0x012602b3  # add x5, x12, x18
    .word 0x0115b333  # sltu x6, x11, x17
    .word 0x00628633  # add x12, x5, x6
    .word 0x01589293  # slli x5, x17, 21
    .word 0x00b95313  # srli x6, x18, 11
    .word 0x0062e9b3  # or x19, x5, x6
    .word 0x01591293  # slli x5, x18, 21
    .word 0x00b8d313  # srli x6, x17, 11
    .word 0x0062e933  # or x18, x5, x6
    .word 0x00b9c8b3  # xor x17, x19, x11
    .word 0x00c94933  # xor x18, x18, x12
    .word 0x00d787b3  # add x15, x15, x13
    .word 0x00e802b3  # add x5, x16, x14
    .word 0x00d7b333  # sltu x6, x15, x13
    .word 0x00628833  # add x16, x5, x6
    .word 0x01169293  # slli x5, x13, 17
    .word 0x00f75313  # srli x6, x14, 15
    .word 0x0062e9b3  # or x19, x5, x6
    .word 0x01171293  # slli x5, x14, 17
    .word 0x00f6d313  # srli x6, x13, 15
    .word 0x0062e733  # or x14, x5, x6
    .word 0x00f9c6b3  # xor x13, x19, x15
    .word 0x01074733  # xor x14, x14, x16
    .word 0x00078993  # addi x19, x15, 0
    .word 0x00080793  # addi x15, x16, 0
    .word 0x00098813  # addi x16, x19, 0
    .word 0xfffb8293  # addi x5, x23, -1
    .word 0xf20290e3  # bne x5, x0, -224
    .word 0x0155c5b3  # xor x11, x11, x21
    .word 0x01664633  # xor x12, x12, x22
    .word 0x001a0a13  # addi x20, x20, 1
    .word 0x06c12283  # lw x5, 108(x2)
    .word 0x005a32b3  # sltu x5, x20, x5
    .word 0xe80290e3  # bne x5, x0, -384
    .word 0xfffa0a13  # addi x20, x20, -1
    .word 0x0040006f  # jal x0, 4
    .word 0x00b12023  # sw x11, 0(x2)
    .word 0x00c12223  # sw x12, 4(x2)
    .word 0x00d12423  # sw x13, 8(x2)
    .word 0x00e12623  # sw x14, 12(x2)
    .word 0x00f12823  # sw x15, 16(x2)
    .word 0x01012a23  # sw x16, 20(x2)
    .word 0x01112c23  # sw x17, 24(x2)
    .word 0x01212e23  # sw x18, 28(x2)
    # the result
    .word 0x00000513  # addi x10, x0, 0
    # parameter 0: the array, back
    .word 0x00010293  # addi x5, x2, 0
    .word 0x09c12303  # lw x6, 156(x2)
    .word 0x02028393  # addi x7, x5, 32
    .word 0x0002ae03  # lw x28, 0(x5)
    .word 0x01c32023  # sw x28, 0(x6)
    .word 0x00428293  # addi x5, x5, 4
    .word 0x00430313  # addi x6, x6, 4
    .word 0xfe7298e3  # bne x5, x7, -16
    # above the frame
    .word 0x08010293  # addi x5, x2, 128
    # the caller's registers
    .word 0x0002a903  # lw x18, 0(x5)
    .cfi_restore 18
    .word 0x0042a983  # lw x19, 4(x5)
    .cfi_restore 19
    .word 0x0082aa03  # lw x20, 8(x5)
    .cfi_restore 20
    .word 0x00c2aa83  # lw x21, 12(x5)
    .cfi_restore 21
    .word 0x0102ab03  # lw x22, 16(x5)
    .cfi_restore 22
    .word 0x0142ab83  # lw x23, 20(x5)
    .cfi_restore 23
    # the caller's x2
    .word 0x02028293  # addi x5, x5, 32
    .cfi_def_cfa 5, 0
    # on to the tail that functions share
    jal x0, factc.tail.1
    .cfi_endproc
    .size siphash24_blocks, . - siphash24_blocks
    .section .text.factc.tail.1, "axG", @progbits, factc.tail.1, comdat
    .p2align 2
    .globl factc.tail.1
    .hidden factc.tail.1
    .type factc.tail.1, @function
factc.tail.1:
    .cfi_startproc
    .cfi_def_cfa 5, 0
    # all the room, wiped upward
    .word 0x00012023  # sw x0, 0(x2)
    .word 0x00012223  # sw x0, 4(x2)
    .word 0x00012423  # sw x0, 8(x2)
    .word 0x00012623  # sw x0, 12(x2)
    .word 0x01010113  # addi x2, x2, 16
    .word 0xfe5116e3  # bne x2, x5, -20
    .cfi_def_cfa 2, 0
    # temporaries, wiped
    .word 0x00000293  # addi x5, x0, 0
    .word 0x00000313  # addi x6, x0, 0
    .word 0x00000393  # addi x7, x0, 0
    .word 0x00000593  # addi x11, x0, 0
    .word 0x00000613  # addi x12, x0, 0
    .word 0x00000693  # addi x13, x0, 0
    .word 0x00000713  # addi x14, x0, 0
    .word 0x00000793  # addi x15, x0, 0
    .word 0x00000813  # addi x16, x0, 0
    .word 0x00000893  # addi x17, x0, 0
    .word 0x00000e13  # addi x28, x0, 0
    .word 0x00000e93  # addi x29, x0, 0
    .word 0x00000f13  # addi x30, x0, 0
    .word 0x00000f93  # addi x31, x0, 0
    # back
    .word 0x00008067  # jalr x0, 0(x1)
    .cfi_endproc
    .size factc.tail.1, . - factc.tail.1
    .option pop
