# hchacha20: made by factc 1.0.0 function; 272 words, 144 bytes of stack, profile 1
    .option push
    .option norvc
    .option norelax
    .cfi_sections .debug_frame
    .section .text.hchacha20, "ax", @progbits
    .p2align 2
    .globl hchacha20
    .type hchacha20, @function
hchacha20:
    .cfi_startproc
    # room above the frame
    .word 0xfd010113  # addi x2, x2, -48
    .cfi_def_cfa_offset 48
    # the caller's registers
    .word 0x01212023  # sw x18, 0(x2)
    .cfi_offset 18, -48
    .word 0x01312223  # sw x19, 4(x2)
    .cfi_offset 19, -44
    .word 0x01412423  # sw x20, 8(x2)
    .cfi_offset 20, -40
    .word 0x01512623  # sw x21, 12(x2)
    .cfi_offset 21, -36
    .word 0x01612823  # sw x22, 16(x2)
    .cfi_offset 22, -32
    .word 0x01712a23  # sw x23, 20(x2)
    .cfi_offset 23, -28
    .word 0x01812c23  # sw x24, 24(x2)
    .cfi_offset 24, -24
    .word 0x01912e23  # sw x25, 28(x2)
    .cfi_offset 25, -20
    .word 0x03a12023  # sw x26, 32(x2)
    .cfi_offset 26, -16
    # arguments that are needed behind the body
    .word 0x02a12223  # sw x10, 36(x2)
    .word 0x02b12423  # sw x11, 40(x2)
    .word 0x02c12623  # sw x12, 44(x2)
    # the frame's base
    .word 0xfa010113  # addi x2, x2, -96
    .cfi_def_cfa 2, 144
    # parameter 0: an array
    .word 0x00050293  # addi x5, x10, 0
    .word 0x00010313  # addi x6, x2, 0
    .word 0x02028393  # addi x7, x5, 32
    .word 0x3a800f6f  # jal x30, 936
    # parameter 1: an array
    .word 0x00058293  # addi x5, x11, 0
    .word 0x02010313  # addi x6, x2, 32
    .word 0x01028393  # addi x7, x5, 16
    .word 0x39800f6f  # jal x30, 920
    # the body
    .word 0x61708537  # lui x10, 0x61708
    .word 0x86550513  # addi x10, x10, -1947
    .word 0x332065b7  # lui x11, 0x33206
    .word 0x46e58593  # addi x11, x11, 1134
    .word 0x79623637  # lui x12, 0x79623
    .word 0xd3260613  # addi x12, x12, -718
    .word 0x6b2066b7  # lui x13, 0x6b206
    .word 0x57468693  # addi x13, x13, 1396
    .word 0x00012703  # lw x14, 0(x2)
    .word 0x00412783  # lw x15, 4(x2)
    .word 0x00812803  # lw x16, 8(x2)
    .word 0x00c12883  # lw x17, 12(x2)
    .word 0x01012903  # lw x18, 16(x2)
    .word 0x01412983  # lw x19, 20(x2)
    .word 0x01812a03  # lw x20, 24(x2)
    .word 0x01c12a83  # lw x21, 28(x2)
    .word 0x02012b03  # lw x22, 32(x2)
    .word 0x02412b83  # lw x23, 36(x2)
    .word 0x02812c03  # lw x24, 40(x2)
    .word 0x02c12c83  # lw x25, 44(x2)
    .word 0xfff00d13  # addi x26, x0, -1
    .word 0x001d0d13  # addi x26, x26, 1
    .word 0x00e50533  # add x10, x10, x14
    .word 0x00ab4b33  # xor x22, x22, x10
    .word 0x010b1f13  # slli x30, x22, 16
    .word 0x010b5b13  # srli x22, x22, 16
    .word 0x016f0b33  # add x22, x30, x22
    .word 0x01690933  # add x18, x18, x22
    .word 0x01274733  # xor x14, x14, x18
    .word 0x00c71f13  # slli x30, x14, 12
    .word 0x01475713  # srli x14, x14, 20
    .word 0x00ef0733  # add x14, x30, x14
    .word 0x00e50533  # add x10, x10, x14
    .word 0x00ab4b33  # xor x22, x22, x10
    .word 0x008b1f13  # slli x30, x22, 8
    .word 0x018b5b13  # srli x22, x22, 24
    .word 0x016f0b33  # add x22, x30, x22
    .word 0x01690933  # add x18, x18, x22
    .word 0x01274733  # xor x14, x14, x18
    .word 0x00771f13  # slli x30, x14, 7
    .word 0x01975713  # srli x14, x14, 25
    .word 0x00ef0733  # add x14, x30, x14
    .word 0x00f585b3  # add x11, x11, x15
    .word 0x00bbcbb3  # xor x23, x23, x11
    .word 0x010b9f13  # slli x30, x23, 16
    .word 0x010bdb93  # srli x23, x23, 16
    .word 0x017f0bb3  # add x23, x30, x23
    .word 0x017989b3  # add x19, x19, x23
    .word 0x0137c7b3  # xor x15, x15, x19
    .word 0x00c79f13  # slli x30, x15, 12
    .word 0x0147d793  # srli x15, x15, 20
    .word 0x00ff07b3  # add x15, x30, x15
    .word 0x00f585b3  # add x11, x11, x15
    .word 0x00bbcbb3  # xor x23, x23, x11
    .word 0x008b9f13  # slli x30, x23, 8
    .word 0x018bdb93  # srli x23, x23, 24
    .word 0x017f0bb3  # add x23, x30, x23
    .word 0x017989b3  # add x19, x19, x23
    .word 0x0137c7b3  # xor x15, x15, x19
    .word 0x00779f13  # slli x30, x15, 7
    .word 0x0197d793  # srli x15, x15, 25
    .word 0x00ff07b3  # add x15, x30, x15
    .word 0x01060633  # add x12, x12, x16
    .word 0x00cc4c33  # xor x24, x24, x12
    .word 0x010c1f13  # slli x30, x24, 16
    .word 0x010c5c13  # srli x24, x24, 16
    .word 0x018f0c33  # add x24, x30, x24
    .word 0x018a0a33  # add x20, x20, x24
    .word 0x01484833  # xor x16, x16, x20
    .word 0x00c81f13  # slli x30, x16, 12
    .word 0x01485813  # srli x16, x16, 20
    .word 0x010f0833  # add x16, x30, x16
    .word 0x01060633  # add x12, x12, x16
    .word 0x00cc4c33  # xor x24, x24, x12
    .word 0x008c1f13  # slli x30, x24, 8
    .word 0x018c5c13  # srli x24, x24, 24
    .word 0x018f0c33  # add x24, x30, x24
    .word 0x018a0a33  # add x20, x20, x24
    .word 0x01484833  # xor x16, x16, x20
    .word 0x00781f13  # slli x30, x16, 7
    .word 0x01985813  # srli x16, x16, 25
    .word 0x010f0833  # add x16, x30, x16
    .word 0x011686b3  # add x13, x13, x17
    .word 0x00dcccb3  # xor x25, x25, x13
    .word 0x010c9f13  # slli x30, x25, 16
    .word 0x010cdc93  # srli x25, x25, 16
    .word 0x019f0cb3  # add x25, x30, x25
    .word 0x019a8ab3  # add x21, x21, x25
    .word 0x0158c8b3  # xor x17, x17, x21
    .word 0x00c89f13  # slli x30, x17, 12
    .word 0x0148d893  # srli x17, x17, 20
    .word 0x011f08b3  # add x17, x30, x17
    .word 0x011686b3  # add x13, x13, x17
    .word 0x00dcccb3  # xor x25, x25, x13
    .word 0x008c9f13  # slli x30, x25, 8
    .word 0x018cdc93  # srli x25, x25, 24
    .word 0x019f0cb3  # add x25, x30, x25
    .word 0x019a8ab3  # add x21, x21, x25
    .word 0x0158c8b3  # xor x17, x17, x21
    .word 0x00789f13  # slli x30, x17, 7
    .word 0x0198d893  # srli x17, x17, 25
    .word 0x011f08b3  # add x17, x30, x17
    .word 0x00f50533  # add x10, x10, x15
    .word 0x00acccb3  # xor x25, x25, x10
    .word 0x010c9f13  # slli x30, x25, 16
    .word 0x010cdc93  # srli x25, x25, 16
    .word 0x019f0cb3  # add x25, x30, x25
    .word 0x019a0a33  # add x20, x20, x25
    .word 0x0147c7b3  # xor x15, x15, x20
    .word 0x00c79f13  # slli x30, x15, 12
    .word 0x0147d793  # srli x15, x15, 20
    .word 0x00ff07b3  # add x15, x30, x15
    .word 0x00f50533  # add x10, x10, x15
    .word 0x00acccb3  # xor x25, x25, x10
    .word 0x008c9f13  # slli x30, x25, 8
    .word 0x018cdc93  # srli x25, x25, 24
    .word 0x019f0cb3  # add x25, x30, x25
    .word 0x019a0a33  # add x20, x20, x25
    .word 0x0147c7b3  # xor x15, x15, x20
    .word 0x00779f13  # slli x30, x15, 7
    .word 0x0197d793  # srli x15, x15, 25
    .word 0x00ff07b3  # add x15, x30, x15
    .word 0x010585b3  # add x11, x11, x16
    .word 0x00bb4b33  # xor x22, x22, x11
    .word 0x010b1f13  # slli x30, x22, 16
    .word 0x010b5b13  # srli x22, x22, 16
    .word 0x016f0b33  # add x22, x30, x22
    .word 0x016a8ab3  # add x21, x21, x22
    .word 0x01584833  # xor x16, x16, x21
    .word 0x00c81f13  # slli x30, x16, 12
    .word 0x01485813  # srli x16, x16, 20
    .word 0x010f0833  # add x16, x30, x16
    .word 0x010585b3  # add x11, x11, x16
    .word 0x00bb4b33  # xor x22, x22, x11
    .word 0x008b1f13  # slli x30, x22, 8
    .word 0x018b5b13  # srli x22, x22, 24
    .word 0x016f0b33  # add x22, x30, x22
    .word 0x016a8ab3  # add x21, x21, x22
    .word 0x01584833  # xor x16, x16, x21
    .word 0x00781f13  # slli x30, x16, 7
    .word 0x01985813  # srli x16, x16, 25
    .word 0x010f0833  # add x16, x30, x16
    .word 0x01160633  # add x12, x12, x17
    .word 0x00cbcbb3  # xor x23, x23, x12
    .word 0x010b9f13  # slli x30, x23, 16
    .word 0x010bdb93  # srli x23, x23, 16
    .word 0x017f0bb3  # add x23, x30, x23
    .word 0x01790933  # add x18, x18, x23
    .word 0x0128c8b3  # xor x17, x17, x18
    .word 0x00c89f13  # slli x30, x17, 12
    .word 0x0148d893  # srli x17, x17, 20
    .word 0x011f08b3  # add x17, x30, x17
    .word 0x01160633  # add x12, x12, x17
    .word 0x00cbcbb3  # xor x23, x23, x12
    .word 0x008b9f13  # slli x30, x23, 8
    .word 0x018bdb93  # srli x23, x23, 24
    .word 0x017f0bb3  # add x23, x30, x23
    .word 0x01790933  # add x18, x18, x23
    .word 0x0128c8b3  # xor x17, x17, x18
    .word 0x00789f13  # slli x30, x17, 7
    .word 0x0198d893  # srli x17, x17, 25
    .word 0x011f08b3  # add x17, x30, x17
    .word 0x00e686b3  # add x13, x13, x14
    .word 0x00dc4c33  # xor x24, x24, x13
    .word 0x010c1f13  # slli x30, x24, 16
    .word 0x010c5c13  # srli x24, x24, 16
    .word 0x018f0c33  # add x24, x30, x24
    .word 0x018989b3  # add x19, x19, x24
    .word 0x01374733  # xor x14, x14, x19
    .word 0x00c71f13  # slli x30, x14, 12
    .word 0x01475713  # srli x14, x14, 20
    .word 0x00ef0733  # add x14, x30, x14
    .word 0x00e686b3  # add x13, x13, x14
    .word 0x00dc4c33  # xor x24, x24, x13
    .word 0x008c1f13  # slli x30, x24, 8
    .word 0x018c5c13  # srli x24, x24, 24
    .word 0x018f0c33  # add x24, x30, x24
    .word 0x018989b3  # add x19, x19, x24
    .word 0x01374733  # xor x14, x14, x19
    .word 0x00771f13  # slli x30, x14, 7
    .word 0x01975713  # srli x14, x14, 25
    .word 0x00ef0733  # add x14, x30, x14
    .word 0xff7d0293  # addi x5, x26, -9
    .word 0xd6029ce3  # bne x5, x0, -648
    .word 0x02a12823  # sw x10, 48(x2)
    .word 0x02b12a23  # sw x11, 52(x2)
    .word 0x02c12c23  # sw x12, 56(x2)
    .word 0x02d12e23  # sw x13, 60(x2)
    .word 0x05612023  # sw x22, 64(x2)
    .word 0x05712223  # sw x23, 68(x2)
    .word 0x05812423  # sw x24, 72(x2)
    .word 0x05912623  # sw x25, 76(x2)
    # the result
    .word 0x00000513  # addi x10, x0, 0
    # parameter 2: the array, back
    .word 0x03010293  # addi x5, x2, 48
    .word 0x08c12303  # lw x6, 140(x2)
    .word 0x02028393  # addi x7, x5, 32
    .word 0x08400f6f  # jal x30, 132
    # above the frame
    .word 0x06010293  # addi x5, x2, 96
    # the caller's registers
    .word 0x0002a903  # lw x18, 0(x5)
    .cfi_restore 18
    .word 0x0042a983  # lw x19, 4(x5)
    .cfi_restore 19
    .word 0x0082aa03  # lw x20, 8(x5)
    .cfi_restore 20
    .word 0x00c2aa83  # lw x21, 12(x5)
    .cfi_restore 21
    .word 0x0102ab03  # lw x22, 16(x5)
    .cfi_restore 22
    .word 0x0142ab83  # lw x23, 20(x5)
    .cfi_restore 23
    .word 0x0182ac03  # lw x24, 24(x5)
    .cfi_restore 24
    .word 0x01c2ac83  # lw x25, 28(x5)
    .cfi_restore 25
    .word 0x0202ad03  # lw x26, 32(x5)
    .cfi_restore 26
    # the caller's x2
    .word 0x03028293  # addi x5, x5, 48
    .cfi_def_cfa 5, 0
    # all the room, wiped upward
    .word 0x00012023  # sw x0, 0(x2)
    .word 0x00012223  # sw x0, 4(x2)
    .word 0x00012423  # sw x0, 8(x2)
    .word 0x00012623  # sw x0, 12(x2)
    .word 0x01010113  # addi x2, x2, 16
    .word 0xfe5116e3  # bne x2, x5, -20
    .cfi_def_cfa 2, 0
    # temporaries, wiped
    .word 0x00000293  # addi x5, x0, 0
    .word 0x00000313  # addi x6, x0, 0
    .word 0x00000393  # addi x7, x0, 0
    .word 0x00000593  # addi x11, x0, 0
    .word 0x00000613  # addi x12, x0, 0
    .word 0x00000693  # addi x13, x0, 0
    .word 0x00000713  # addi x14, x0, 0
    .word 0x00000793  # addi x15, x0, 0
    .word 0x00000813  # addi x16, x0, 0
    .word 0x00000893  # addi x17, x0, 0
    .word 0x00000e13  # addi x28, x0, 0
    .word 0x00000e93  # addi x29, x0, 0
    .word 0x00000f13  # addi x30, x0, 0
    .word 0x00000f93  # addi x31, x0, 0
    # back
    .word 0x00008067  # jalr x0, 0(x1)
    # from x5 to x6 up to x7, and back
    .cfi_def_cfa 2, 144
    .cfi_offset 18, -48
    .cfi_offset 19, -44
    .cfi_offset 20, -40
    .cfi_offset 21, -36
    .cfi_offset 22, -32
    .cfi_offset 23, -28
    .cfi_offset 24, -24
    .cfi_offset 25, -20
    .cfi_offset 26, -16
    .word 0x0062ee33  # or x28, x5, x6
    .word 0x003e7e13  # andi x28, x28, 3
    .word 0x000e0e63  # beq x28, x0, 28
    .word 0x0002ce03  # lbu x28, 0(x5)
    .word 0x01c30023  # sb x28, 0(x6)
    .word 0x00128293  # addi x5, x5, 1
    .word 0x00130313  # addi x6, x6, 1
    .word 0xfe7298e3  # bne x5, x7, -16
    .word 0x0300006f  # jal x0, 48
    .word 0x0002ae03  # lw x28, 0(x5)
    .word 0x01c32023  # sw x28, 0(x6)
    .word 0x0042ae03  # lw x28, 4(x5)
    .word 0x01c32223  # sw x28, 4(x6)
    .word 0x0082ae03  # lw x28, 8(x5)
    .word 0x01c32423  # sw x28, 8(x6)
    .word 0x00c2ae03  # lw x28, 12(x5)
    .word 0x01c32623  # sw x28, 12(x6)
    .word 0x01028293  # addi x5, x5, 16
    .word 0x01030313  # addi x6, x6, 16
    .word 0xfc729ce3  # bne x5, x7, -40
    .word 0x000f0067  # jalr x0, 0(x30)
    .cfi_endproc
    .size hchacha20, . - hchacha20
    .option pop
