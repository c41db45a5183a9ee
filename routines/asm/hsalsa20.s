# hsalsa20: made by factc 1.0.0 function; 274 words, 160 bytes of stack, profile 1
    .option push
    .option norvc
    .option norelax
    .cfi_sections .debug_frame
    .section .text.hsalsa20, "ax", @progbits
    .p2align 2
    .globl hsalsa20
    .type hsalsa20, @function
hsalsa20:
    .cfi_startproc
    # room above the frame
    .word 0xfc010113  # addi x2, x2, -64
    .cfi_def_cfa_offset 64
    # the caller's registers
    .word 0x01212023  # sw x18, 0(x2)
    .cfi_offset 18, -64
    .word 0x01312223  # sw x19, 4(x2)
    .cfi_offset 19, -60
    .word 0x01412423  # sw x20, 8(x2)
    .cfi_offset 20, -56
    .word 0x01512623  # sw x21, 12(x2)
    .cfi_offset 21, -52
    .word 0x01612823  # sw x22, 16(x2)
    .cfi_offset 22, -48
    .word 0x01712a23  # sw x23, 20(x2)
    .cfi_offset 23, -44
    .word 0x01812c23  # sw x24, 24(x2)
    .cfi_offset 24, -40
    .word 0x01912e23  # sw x25, 28(x2)
    .cfi_offset 25, -36
    .word 0x03a12023  # sw x26, 32(x2)
    .cfi_offset 26, -32
    .word 0x03b12223  # sw x27, 36(x2)
    .cfi_offset 27, -28
    # arguments that are needed behind the body
    .word 0x02a12a23  # sw x10, 52(x2)
    .word 0x02b12c23  # sw x11, 56(x2)
    .word 0x02c12e23  # sw x12, 60(x2)
    # the frame's base
    .word 0xfa010113  # addi x2, x2, -96
    .cfi_def_cfa 2, 160
    # parameter 0: an array
    .word 0x00050293  # addi x5, x10, 0
    .word 0x00010313  # addi x6, x2, 0
    .word 0x02028393  # addi x7, x5, 32
    .word 0x3ac00f6f  # jal x30, 940
    # parameter 1: an array
    .word 0x00058293  # addi x5, x11, 0
    .word 0x02010313  # addi x6, x2, 32
    .word 0x01028393  # addi x7, x5, 16
    .word 0x39c00f6f  # jal x30, 924
    # the body
    .word 0x61708537  # lui x10, 0x61708
    .word 0x86550513  # addi x10, x10, -1947
    .word 0x00012583  # lw x11, 0(x2)
    .word 0x00412603  # lw x12, 4(x2)
    .word 0x00812683  # lw x13, 8(x2)
    .word 0x00c12703  # lw x14, 12(x2)
    .word 0x332067b7  # lui x15, 0x33206
    .word 0x46e78793  # addi x15, x15, 1134
    .word 0x02012803  # lw x16, 32(x2)
    .word 0x02412883  # lw x17, 36(x2)
    .word 0x02812903  # lw x18, 40(x2)
    .word 0x02c12983  # lw x19, 44(x2)
    .word 0x79623a37  # lui x20, 0x79623
    .word 0xd32a0a13  # addi x20, x20, -718
    .word 0x01012a83  # lw x21, 16(x2)
    .word 0x01412b03  # lw x22, 20(x2)
    .word 0x01812b83  # lw x23, 24(x2)
    .word 0x01c12c03  # lw x24, 28(x2)
    .word 0x6b206cb7  # lui x25, 0x6b206
    .word 0x574c8c93  # addi x25, x25, 1396
    .word 0xfff00d93  # addi x27, x0, -1
    .word 0x001d8d93  # addi x27, x27, 1
    .word 0x01650d33  # add x26, x10, x22
    .word 0x007d1f13  # slli x30, x26, 7
    .word 0x019d5313  # srli x6, x26, 25
    .word 0x006f0333  # add x6, x30, x6
    .word 0x00674733  # xor x14, x14, x6
    .word 0x00a70d33  # add x26, x14, x10
    .word 0x009d1f13  # slli x30, x26, 9
    .word 0x017d5313  # srli x6, x26, 23
    .word 0x006f0333  # add x6, x30, x6
    .word 0x00694933  # xor x18, x18, x6
    .word 0x00e90d33  # add x26, x18, x14
    .word 0x00dd1f13  # slli x30, x26, 13
    .word 0x013d5313  # srli x6, x26, 19
    .word 0x006f0333  # add x6, x30, x6
    .word 0x006b4b33  # xor x22, x22, x6
    .word 0x012b0d33  # add x26, x22, x18
    .word 0x012d1f13  # slli x30, x26, 18
    .word 0x00ed5313  # srli x6, x26, 14
    .word 0x006f0333  # add x6, x30, x6
    .word 0x00654533  # xor x10, x10, x6
    .word 0x00b78d33  # add x26, x15, x11
    .word 0x007d1f13  # slli x30, x26, 7
    .word 0x019d5313  # srli x6, x26, 25
    .word 0x006f0333  # add x6, x30, x6
    .word 0x0069c9b3  # xor x19, x19, x6
    .word 0x00f98d33  # add x26, x19, x15
    .word 0x009d1f13  # slli x30, x26, 9
    .word 0x017d5313  # srli x6, x26, 23
    .word 0x006f0333  # add x6, x30, x6
    .word 0x006bcbb3  # xor x23, x23, x6
    .word 0x013b8d33  # add x26, x23, x19
    .word 0x00dd1f13  # slli x30, x26, 13
    .word 0x013d5313  # srli x6, x26, 19
    .word 0x006f0333  # add x6, x30, x6
    .word 0x0065c5b3  # xor x11, x11, x6
    .word 0x01758d33  # add x26, x11, x23
    .word 0x012d1f13  # slli x30, x26, 18
    .word 0x00ed5313  # srli x6, x26, 14
    .word 0x006f0333  # add x6, x30, x6
    .word 0x0067c7b3  # xor x15, x15, x6
    .word 0x010a0d33  # add x26, x20, x16
    .word 0x007d1f13  # slli x30, x26, 7
    .word 0x019d5313  # srli x6, x26, 25
    .word 0x006f0333  # add x6, x30, x6
    .word 0x006c4c33  # xor x24, x24, x6
    .word 0x014c0d33  # add x26, x24, x20
    .word 0x009d1f13  # slli x30, x26, 9
    .word 0x017d5313  # srli x6, x26, 23
    .word 0x006f0333  # add x6, x30, x6
    .word 0x00664633  # xor x12, x12, x6
    .word 0x01860d33  # add x26, x12, x24
    .word 0x00dd1f13  # slli x30, x26, 13
    .word 0x013d5313  # srli x6, x26, 19
    .word 0x006f0333  # add x6, x30, x6
    .word 0x00684833  # xor x16, x16, x6
    .word 0x00c80d33  # add x26, x16, x12
    .word 0x012d1f13  # slli x30, x26, 18
    .word 0x00ed5313  # srli x6, x26, 14
    .word 0x006f0333  # add x6, x30, x6
    .word 0x006a4a33  # xor x20, x20, x6
    .word 0x015c8d33  # add x26, x25, x21
    .word 0x007d1f13  # slli x30, x26, 7
    .word 0x019d5313  # srli x6, x26, 25
    .word 0x006f0333  # add x6, x30, x6
    .word 0x0066c6b3  # xor x13, x13, x6
    .word 0x01968d33  # add x26, x13, x25
    .word 0x009d1f13  # slli x30, x26, 9
    .word 0x017d5313  # srli x6, x26, 23
    .word 0x006f0333  # add x6, x30, x6
    .word 0x0068c8b3  # xor x17, x17, x6
    .word 0x00d88d33  # add x26, x17, x13
    .word 0x00dd1f13  # slli x30, x26, 13
    .word 0x013d5313  # srli x6, x26, 19
    .word 0x006f0333  # add x6, x30, x6
    .word 0x006acab3  # xor x21, x21, x6
    .word 0x011a8d33  # add x26, x21, x17
    .word 0x012d1f13  # slli x30, x26, 18
    .word 0x00ed5313  # srli x6, x26, 14
    .word 0x006f0333  # add x6, x30, x6
    .word 0x006cccb3  # xor x25, x25, x6
    .word 0x00d50d33  # add x26, x10, x13
    .word 0x007d1f13  # slli x30, x26, 7
    .word 0x019d5313  # srli x6, x26, 25
    .word 0x006f0333  # add x6, x30, x6
    .word 0x0065c5b3  # xor x11, x11, x6
    .word 0x00a58d33  # add x26, x11, x10
    .word 0x009d1f13  # slli x30, x26, 9
    .word 0x017d5313  # srli x6, x26, 23
    .word 0x006f0333  # add x6, x30, x6
    .word 0x00664633  # xor x12, x12, x6
    .word 0x00b60d33  # add x26, x12, x11
    .word 0x00dd1f13  # slli x30, x26, 13
    .word 0x013d5313  # srli x6, x26, 19
    .word 0x006f0333  # add x6, x30, x6
    .word 0x0066c6b3  # xor x13, x13, x6
    .word 0x00c68d33  # add x26, x13, x12
    .word 0x012d1f13  # slli x30, x26, 18
    .word 0x00ed5313  # srli x6, x26, 14
    .word 0x006f0333  # add x6, x30, x6
    .word 0x00654533  # xor x10, x10, x6
    .word 0x00e78d33  # add x26, x15, x14
    .word 0x007d1f13  # slli x30, x26, 7
    .word 0x019d5313  # srli x6, x26, 25
    .word 0x006f0333  # add x6, x30, x6
    .word 0x00684833  # xor x16, x16, x6
    .word 0x00f80d33  # add x26, x16, x15
    .word 0x009d1f13  # slli x30, x26, 9
    .word 0x017d5313  # srli x6, x26, 23
    .word 0x006f0333  # add x6, x30, x6
    .word 0x0068c8b3  # xor x17, x17, x6
    .word 0x01088d33  # add x26, x17, x16
    .word 0x00dd1f13  # slli x30, x26, 13
    .word 0x013d5313  # srli x6, x26, 19
    .word 0x006f0333  # add x6, x30, x6
    .word 0x00674733  # xor x14, x14, x6
    .word 0x01170d33  # add x26, x14, x17
    .word 0x012d1f13  # slli x30, x26, 18
    .word 0x00ed5313  # srli x6, x26, 14
    .word 0x006f0333  # add x6, x30, x6
    .word 0x0067c7b3  # xor x15, x15, x6
    .word 0x013a0d33  # add x26, x20, x19
    .word 0x007d1f13  # slli x30, x26, 7
    .word 0x019d5313  # srli x6, x26, 25
    .word 0x006f0333  # add x6, x30, x6
    .word 0x006acab3  # xor x21, x21, x6
    .word 0x014a8d33  # add x26, x21, x20
    .word 0x009d1f13  # slli x30, x26, 9
    .word 0x017d5313  # srli x6, x26, 23
    .word 0x006f0333  # add x6, x30, x6
    .word 0x00694933  # xor x18, x18, x6
    .word 0x01590d33  # add x26, x18, x21
    .word 0x00dd1f13  # slli x30, x26, 13
    .word 0x013d5313  # srli x6, x26, 19
    .word 0x006f0333  # add x6, x30, x6
    .word 0x0069c9b3  # xor x19, x19, x6
    .word 0x01298d33  # add x26, x19, x18
    .word 0x012d1f13  # slli x30, x26, 18
    .word 0x00ed5313  # srli x6, x26, 14
    .word 0x006f0333  # add x6, x30, x6
    .word 0x006a4a33  # xor x20, x20, x6
    .word 0x018c8d33  # add x26, x25, x24
    .word 0x007d1f13  # slli x30, x26, 7
    .word 0x019d5313  # srli x6, x26, 25
    .word 0x006f0333  # add x6, x30, x6
    .word 0x006b4b33  # xor x22, x22, x6
    .word 0x019b0d33  # add x26, x22, x25
    .word 0x009d1f13  # slli x30, x26, 9
    .word 0x017d5313  # srli x6, x26, 23
    .word 0x006f0333  # add x6, x30, x6
    .word 0x006bcbb3  # xor x23, x23, x6
    .word 0x016b8d33  # add x26, x23, x22
    .word 0x00dd1f13  # slli x30, x26, 13
    .word 0x013d5313  # srli x6, x26, 19
    .word 0x006f0333  # add x6, x30, x6
    .word 0x006c4c33  # xor x24, x24, x6
    .word 0x017c0d33  # add x26, x24, x23
    .word 0x012d1f13  # slli x30, x26, 18
    .word 0x00ed5313  # srli x6, x26, 14
    .word 0x006f0333  # add x6, x30, x6
    .word 0x006cccb3  # xor x25, x25, x6
    .word 0xff7d8293  # addi x5, x27, -9
    .word 0xd6029ce3  # bne x5, x0, -648
    .word 0x02a12823  # sw x10, 48(x2)
    .word 0x02f12a23  # sw x15, 52(x2)
    .word 0x03412c23  # sw x20, 56(x2)
    .word 0x03912e23  # sw x25, 60(x2)
    .word 0x05012023  # sw x16, 64(x2)
    .word 0x05112223  # sw x17, 68(x2)
    .word 0x05212423  # sw x18, 72(x2)
    .word 0x05312623  # sw x19, 76(x2)
    # the result
    .word 0x00000513  # addi x10, x0, 0
    # parameter 2: the array, back
    .word 0x03010293  # addi x5, x2, 48
    .word 0x09c12303  # lw x6, 156(x2)
    .word 0x02028393  # addi x7, x5, 32
    .word 0x08800f6f  # jal x30, 136
    # above the frame
    .word 0x06010293  # addi x5, x2, 96
    # the caller's registers
    .word 0x0002a903  # lw x18, 0(x5)
    .cfi_restore 18
    .word 0x0042a983  # lw x19, 4(x5)
    .cfi_restore 19
    .word 0x0082aa03  # lw x20, 8(x5)
    .cfi_restore 20
    .word 0x00c2aa83  # lw x21, 12(x5)
    .cfi_restore 21
    .word 0x0102ab03  # lw x22, 16(x5)
    .cfi_restore 22
    .word 0x0142ab83  # lw x23, 20(x5)
    .cfi_restore 23
    .word 0x0182ac03  # lw x24, 24(x5)
    .cfi_restore 24
    .word 0x01c2ac83  # lw x25, 28(x5)
    .cfi_restore 25
    .word 0x0202ad03  # lw x26, 32(x5)
    .cfi_restore 26
    .word 0x0242ad83  # lw x27, 36(x5)
    .cfi_restore 27
    # the caller's x2
    .word 0x04028293  # addi x5, x5, 64
    .cfi_def_cfa 5, 0
    # all the room, wiped upward
    .word 0x00012023  # sw x0, 0(x2)
    .word 0x00012223  # sw x0, 4(x2)
    .word 0x00012423  # sw x0, 8(x2)
    .word 0x00012623  # sw x0, 12(x2)
    .word 0x01010113  # addi x2, x2, 16
    .word 0xfe5116e3  # bne x2, x5, -20
    .cfi_def_cfa 2, 0
    # temporaries, wiped
    .word 0x00000293  # addi x5, x0, 0
    .word 0x00000313  # addi x6, x0, 0
    .word 0x00000393  # addi x7, x0, 0
    .word 0x00000593  # addi x11, x0, 0
    .word 0x00000613  # addi x12, x0, 0
    .word 0x00000693  # addi x13, x0, 0
    .word 0x00000713  # addi x14, x0, 0
    .word 0x00000793  # addi x15, x0, 0
    .word 0x00000813  # addi x16, x0, 0
    .word 0x00000893  # addi x17, x0, 0
    .word 0x00000e13  # addi x28, x0, 0
    .word 0x00000e93  # addi x29, x0, 0
    .word 0x00000f13  # addi x30, x0, 0
    .word 0x00000f93  # addi x31, x0, 0
    # back
    .word 0x00008067  # jalr x0, 0(x1)
    # from x5 to x6 up to x7, and back
    .cfi_def_cfa 2, 160
    .cfi_offset 18, -64
    .cfi_offset 19, -60
    .cfi_offset 20, -56
    .cfi_offset 21, -52
    .cfi_offset 22, -48
    .cfi_offset 23, -44
    .cfi_offset 24, -40
    .cfi_offset 25, -36
    .cfi_offset 26, -32
    .cfi_offset 27, -28
    .word 0x0062ee33  # or x28, x5, x6
    .word 0x003e7e13  # andi x28, x28, 3
    .word 0x000e0e63  # beq x28, x0, 28
    .word 0x0002ce03  # lbu x28, 0(x5)
    .word 0x01c30023  # sb x28, 0(x6)
    .word 0x00128293  # addi x5, x5, 1
    .word 0x00130313  # addi x6, x6, 1
    .word 0xfe7298e3  # bne x5, x7, -16
    .word 0x0300006f  # jal x0, 48
    .word 0x0002ae03  # lw x28, 0(x5)
    .word 0x01c32023  # sw x28, 0(x6)
    .word 0x0042ae03  # lw x28, 4(x5)
    .word 0x01c32223  # sw x28, 4(x6)
    .word 0x0082ae03  # lw x28, 8(x5)
    .word 0x01c32423  # sw x28, 8(x6)
    .word 0x00c2ae03  # lw x28, 12(x5)
    .word 0x01c32623  # sw x28, 12(x6)
    .word 0x01028293  # addi x5, x5, 16
    .word 0x01030313  # addi x6, x6, 16
    .word 0xfc729ce3  # bne x5, x7, -40
    .word 0x000f0067  # jalr x0, 0(x30)
    .cfi_endproc
    .size hsalsa20, . - hsalsa20
    .option pop
