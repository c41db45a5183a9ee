# chacha20_block: made by factc 1.0.0 function; 304 words and 21 shared, 224 bytes of stack, profile 1
    .option push
    .option norvc
    .option norelax
    .cfi_sections .debug_frame
    .section .text.chacha20_block, "ax", @progbits
    .p2align 2
    .globl chacha20_block
    .type chacha20_block, @function
chacha20_block:
    .cfi_startproc
    # room above the frame
    .word 0xfc010113  # addi x2, x2, -64
    .cfi_def_cfa_offset 64
    # the caller's registers
    .word 0x00812023  # sw x8, 0(x2)
    .cfi_offset 8, -64
    .word 0x00912223  # sw x9, 4(x2)
    .cfi_offset 9, -60
    .word 0x01212423  # sw x18, 8(x2)
    .cfi_offset 18, -56
    .word 0x01312623  # sw x19, 12(x2)
    .cfi_offset 19, -52
    .word 0x01412823  # sw x20, 16(x2)
    .cfi_offset 20, -48
    .word 0x01512a23  # sw x21, 20(x2)
    .cfi_offset 21, -44
    .word 0x01612c23  # sw x22, 24(x2)
    .cfi_offset 22, -40
    .word 0x01712e23  # sw x23, 28(x2)
    .cfi_offset 23, -36
    .word 0x03812023  # sw x24, 32(x2)
    .cfi_offset 24, -32
    .word 0x03912223  # sw x25, 36(x2)
    .cfi_offset 25, -28
    .word 0x03a12423  # sw x26, 40(x2)
    .cfi_offset 26, -24
    .word 0x03b12623  # sw x27, 44(x2)
    .cfi_offset 27, -20
    # arguments that are needed behind the body
    .word 0x02a12823  # sw x10, 48(x2)
    .word 0x02b12a23  # sw x11, 52(x2)
    .word 0x02c12c23  # sw x12, 56(x2)
    .word 0x02d12e23  # sw x13, 60(x2)
    # the frame's base
    .word 0xf6010113  # addi x2, x2, -160
    .cfi_def_cfa 2, 224
    # parameter 0: an array
    .word 0x00050293  # addi x5, x10, 0
    .word 0x00010313  # addi x6, x2, 0
    .word 0x02028393  # addi x7, x5, 32
    .word 0x0002ce03  # lbu x28, 0(x5)
    .word 0x01c30023  # sb x28, 0(x6)
    .word 0x00128293  # addi x5, x5, 1
    .word 0x00130313  # addi x6, x6, 1
    .word 0xfe7298e3  # bne x5, x7, -16
    # parameter 1: a word
    .word 0x02b12023  # sw x11, 32(x2)
    # parameter 2: an array
    .word 0x00060293  # addi x5, x12, 0
    .word 0x02410313  # addi x6, x2, 36
    .word 0x00c28393  # addi x7, x5, 12
    .word 0x0002ce03  # lbu x28, 0(x5)
    .word 0x01c30023  # sb x28, 0(x6)
    .word 0x00128293  # addi x5, x5, 1
    .word 0x00130313  # addi x6, x6, 1
    .word 0xfe7298e3  # bne x5, x7, -16
    # the body
    .word 0x02012503  # lw x10, 32(x2)
    .word 0x617085b7  # lui x11, 0x61708
    .word 0x86558593  # addi x11, x11, -1947
    .word 0x33206637  # lui x12, 0x33206
    .word 0x46e60613  # addi x12, x12, 1134
    .word 0x796236b7  # lui x13, 0x79623
    .word 0xd3268693  # addi x13, x13, -718
    .word 0x6b206737  # lui x14, 0x6b206
    .word 0x57470713  # addi x14, x14, 1396
    .word 0x00012783  # lw x15, 0(x2)
    .word 0x00412803  # lw x16, 4(x2)
    .word 0x00812883  # lw x17, 8(x2)
    .word 0x00c12903  # lw x18, 12(x2)
    .word 0x01012983  # lw x19, 16(x2)
    .word 0x01412a03  # lw x20, 20(x2)
    .word 0x01812a83  # lw x21, 24(x2)
    .word 0x01c12b03  # lw x22, 28(x2)
    .word 0x00050b93  # addi x23, x10, 0
    .word 0x02412c03  # lw x24, 36(x2)
    .word 0x02812c83  # lw x25, 40(x2)
    .word 0x02c12d03  # lw x26, 44(x2)
    .word 0x00078d93  # addi x27, x15, 0
    .word 0x00080413  # addi x8, x16, 0
    .word 0x07112823  # sw x17, 112(x2)
    .word 0x07212a23  # sw x18, 116(x2)
    .word 0x07312c23  # sw x19, 120(x2)
    .word 0x07412e23  # sw x20, 124(x2)
    .word 0x09512023  # sw x21, 128(x2)
    .word 0x09612223  # sw x22, 132(x2)
    .word 0x09812423  # sw x24, 136(x2)
    .word 0x09912623  # sw x25, 140(x2)
    .word 0x09a12823  # sw x26, 144(x2)
    .word 0xfff00493  # addi x9, x0, -1
    .word 0x00148493  # addi x9, x9, 1
    .word 0x00f585b3  # add x11, x11, x15
    .word 0x00bbcbb3  # xor x23, x23, x11
    .word 0x010b9f13  # slli x30, x23, 16
    .word 0x010bdb93  # srli x23, x23, 16
    .word 0x017f0bb3  # add x23, x30, x23
    .word 0x017989b3  # add x19, x19, x23
    .word 0x0137c7b3  # xor x15, x15, x19
    .word 0x00c79f13  # slli x30, x15, 12
    .word 0x0147d793  # srli x15, x15, 20
    .word 0x00ff07b3  # add x15, x30, x15
    .word 0x00f585b3  # add x11, x11, x15
    .word 0x00bbcbb3  # xor x23, x23, x11
    .word 0x008b9f13  # slli x30, x23, 8
    .word 0x018bdb93  # srli x23, x23, 24
    .word 0x017f0bb3  # add x23, x30, x23
    .word 0x017989b3  # add x19, x19, x23
    .word 0x0137c7b3  # xor x15, x15, x19
    .word 0x00779f13  # slli x30, x15, 7
    .word 0x0197d793  # srli x15, x15, 25
    .word 0x00ff07b3  # add x15, x30, x15
    .word 0x01060633  # add x12, x12, x16
    .word 0x00cc4c33  # xor x24, x24, x12
    .word 0x010c1f13  # slli x30, x24, 16
    .word 0x010c5c13  # srli x24, x24, 16
    .word 0x018f0c33  # add x24, x30, x24
    .word 0x018a0a33  # add x20, x20, x24
    .word 0x01484833  # xor x16, x16, x20
    .word 0x00c81f13  # slli x30, x16, 12
    .word 0x01485813  # srli x16, x16, 20
    .word 0x010f0833  # add x16, x30, x16
    .word 0x01060633  # add x12, x12, x16
    .word 0x00cc4c33  # xor x24, x24, x12
    .word 0x008c1f13  # slli x30, x24, 8
    .word 0x018c5c13  # srli x24, x24, 24
    .word 0x018f0c33  # add x24, x30, x24
    .word 0x018a0a33  # add x20, x20, x24
    .word 0x01484833  # xor x16, x16, x20
    .word 0x00781f13  # slli x30, x16, 7
    .word 0x01985813  # srli x16, x16, 25
    .word 0x010f0833  # add x16, x30, x16
    .word 0x011686b3  # add x13, x13, x17
    .word 0x00dcccb3  # xor x25, x25, x13
    .word 0x010c9f13  # slli x30, x25, 16
    .word 0x010cdc93  # srli x25, x25, 16
    .word 0x019f0cb3  # add x25, x30, x25
    .word 0x019a8ab3  # add x21, x21, x25
    .word 0x0158c8b3  # xor x17, x17, x21
    .word 0x00c89f13  # slli x30, x17, 12
    .word 0x0148d893  # srli x17, x17, 20
    .word 0x011f08b3  # add x17, x30, x17
    .word 0x011686b3  # add x13, x13, x17
    .word 0x00dcccb3  # xor x25, x25, x13
    .word 0x008c9f13  # slli x30, x25, 8
    .word 0x018cdc93  # srli x25, x25, 24
    .word 0x019f0cb3  # add x25, x30, x25
    .word 0x019a8ab3  # add x21, x21, x25
    .word 0x0158c8b3  # xor x17, x17, x21
    .word 0x00789f13  # slli x30, x17, 7
    .word 0x0198d893  # srli x17, x17, 25
    .word 0x011f08b3  # add x17, x30, x17
    .word 0x01270733  # add x14, x14, x18
    .word 0x00ed4d33  # xor x26, x26, x14
    .word 0x010d1f13  # slli x30, x26, 16
    .word 0x010d5d13  # srli x26, x26, 16
    .word 0x01af0d33  # add x26, x30, x26
    .word 0x01ab0b33  # add x22, x22, x26
    .word 0x01694933  # xor x18, x18, x22
    .word 0x00c91f13  # slli x30, x18, 12
    .word 0x01495913  # srli x18, x18, 20
    .word 0x012f0933  # add x18, x30, x18
    .word 0x01270733  # add x14, x14, x18
    .word 0x00ed4d33  # xor x26, x26, x14
    .word 0x008d1f13  # slli x30, x26, 8
    .word 0x018d5d13  # srli x26, x26, 24
    .word 0x01af0d33  # add x26, x30, x26
    .word 0x01ab0b33  # add x22, x22, x26
    .word 0x01694933  # xor x18, x18, x22
    .word 0x00791f13  # slli x30, x18, 7
    .word 0x01995913  # srli x18, x18, 25
    .word 0x012f0933  # add x18, x30, x18
    .word 0x010585b3  # add x11, x11, x16
    .word 0x00bd4d33  # xor x26, x26, x11
    .word 0x010d1f13  # slli x30, x26, 16
    .word 0x010d5d13  # srli x26, x26, 16
    .word 0x01af0d33  # add x26, x30, x26
    .word 0x01aa8ab3  # add x21, x21, x26
    .word 0x01584833  # xor x16, x16, x21
    .word 0x00c81f13  # slli x30, x16, 12
    .word 0x01485813  # srli x16, x16, 20
    .word 0x010f0833  # add x16, x30, x16
    .word 0x010585b3  # add x11, x11, x16
    .word 0x00bd4d33  # xor x26, x26, x11
    .word 0x008d1f13  # slli x30, x26, 8
    .word 0x018d5d13  # srli x26, x26, 24
    .word 0x01af0d33  # add x26, x30, x26
    .word 0x01aa8ab3  # add x21, x21, x26
    .word 0x01584833  # xor x16, x16, x21
    .word 0x00781f13  # slli x30, x16, 7
    .word 0x01985813  # srli x16, x16, 25
    .word 0x010f0833  # add x16, x30, x16
    .word 0x01160633  # add x12, x12, x17
    .word 0x00cbcbb3  # xor x23, x23, x12
    .word 0x010b9f13  # slli x30, x23, 16
    .word 0x010bdb93  # srli x23, x23, 16
    .word 0x017f0bb3  # add x23, x30, x23
    .word 0x017b0b33  # add x22, x22, x23
    .word 0x0168c8b3  # xor x17, x17, x22
    .word 0x00c89f13  # slli x30, x17, 12
    .word 0x0148d893  # srli x17, x17, 20
    .word 0x011f08b3  # add x17, x30, x17
    .word 0x01160633  # add x12, x12, x17
    .word 0x00cbcbb3  # xor x23, x23, x12
    .word 0x008b9f13  # slli x30, x23, 8
    .word 0x018bdb93  # srli x23, x23, 24
    .word 0x017f0bb3  # add x23, x30, x23
    .word 0x017b0b33  # add x22, x22, x23
    .word 0x0168c8b3  # xor x17, x17, x22
    .word 0x00789f13  # slli x30, x17, 7
    .word 0x0198d893  # srli x17, x17, 25
    .word 0x011f08b3  # add x17, x30, x17
    .word 0x012686b3  # add x13, x13, x18
    .word 0x00dc4c33  # xor x24, x24, x13
    .word 0x010c1f13  # slli x30, x24, 16
    .word 0x010c5c13  # srli x24, x24, 16
    .word 0x018f0c33  # add x24, x30, x24
    .word 0x018989b3  # add x19, x19, x24
    .word 0x01394933  # xor x18, x18, x19
    .word 0x00c91f13  # slli x30, x18, 12
    .word 0x01495913  # srli x18, x18, 20
    .word 0x012f0933  # add x18, x30, x18
    .word 0x012686b3  # add x13, x13, x18
    .word 0x00dc4c33  # xor x24, x24, x13
    .word 0x008c1f13  # slli x30, x24, 8
    .word 0x018c5c13  # srli x24, x24, 24
    .word 0x018f0c33  # add x24, x30, x24
    .word 0x018989b3  # add x19, x19, x24
    .word 0x01394933  # xor x18, x18, x19
    .word 0x00791f13  # slli x30, x18, 7
    .word 0x01995913  # srli x18, x18, 25
    .word 0x012f0933  # add x18, x30, x18
    .word 0x00f70733  # add x14, x14, x15
    .word 0x00ecccb3  # xor x25, x25, x14
    .word 0x010c9f13  # slli x30, x25, 16
    .word 0x010cdc93  # srli x25, x25, 16
    .word 0x019f0cb3  # add x25, x30, x25
    .word 0x019a0a33  # add x20, x20, x25
    .word 0x0147c7b3  # xor x15, x15, x20
    .word 0x00c79f13  # slli x30, x15, 12
    .word 0x0147d793  # srli x15, x15, 20
    .word 0x00ff07b3  # add x15, x30, x15
    .word 0x00f70733  # add x14, x14, x15
    .word 0x00ecccb3  # xor x25, x25, x14
    .word 0x008c9f13  # slli x30, x25, 8
    .word 0x018cdc93  # srli x25, x25, 24
    .word 0x019f0cb3  # add x25, x30, x25
    .word 0x019a0a33  # add x20, x20, x25
    .word 0x0147c7b3  # xor x15, x15, x20
    .word 0x00779f13  # slli x30, x15, 7
    .word 0x0197d793  # srli x15, x15, 25
    .word 0x00ff07b3  # add x15, x30, x15
    .word 0xff748293  # addi x5, x9, -9
    .word 0xd6029ce3  # bne x5, x0, -648
    .word 0x61708337  # lui x6, 0x61708
    .word 0x86530313  # addi x6, x6, -1947
    .word 0x006585b3  # add x11, x11, x6
    .word 0x02b12823  # sw x11, 48(x2)
    .word 0x33206337  # lui x6, 0x33206
    .word 0x46e30313  # addi x6, x6, 1134
    .word 0x006605b3  # add x11, x12, x6
    .word 0x02b12a23  # sw x11, 52(x2)
    .word 0x79623337  # lui x6, 0x79623
    .word 0xd3230313  # addi x6, x6, -718
    .word 0x006685b3  # add x11, x13, x6
    .word 0x02b12c23  # sw x11, 56(x2)
    .word 0x6b206337  # lui x6, 0x6b206
    .word 0x57430313  # addi x6, x6, 1396
    .word 0x006705b3  # add x11, x14, x6
    .word 0x02b12e23  # sw x11, 60(x2)
    .word 0x01b787b3  # add x15, x15, x27
    .word 0x04f12023  # sw x15, 64(x2)
    .word 0x008807b3  # add x15, x16, x8
    .word 0x04f12223  # sw x15, 68(x2)
    .word 0x07012303  # lw x6, 112(x2)
    .word 0x006887b3  # add x15, x17, x6
    .word 0x04f12423  # sw x15, 72(x2)
    .word 0x07412303  # lw x6, 116(x2)
    .word 0x006907b3  # add x15, x18, x6
    .word 0x04f12623  # sw x15, 76(x2)
    .word 0x07812303  # lw x6, 120(x2)
    .word 0x006987b3  # add x15, x19, x6
    .word 0x04f12823  # sw x15, 80(x2)
    .word 0x07c12303  # lw x6, 124(x2)
    .word 0x006a07b3  # add x15, x20, x6
    .word 0x04f12a23  # sw x15, 84(x2)
    .word 0x08012303  # lw x6, 128(x2)
    .word 0x006a87b3  # add x15, x21, x6
    .word 0x04f12c23  # sw x15, 88(x2)
    .word 0x08412303  # lw x6, 132(x2)
    .word 0x006b07b3  # add x15, x22, x6
    .word 0x04f12e23  # sw x15, 92(x2)
    .word 0x00ab87b3  # add x15, x23, x10
    .word 0x06f12023  # sw x15, 96(x2)
    .word 0x08812303  # lw x6, 136(x2)
    .word 0x006c07b3  # add x15, x24, x6
    .word 0x06f12223  # sw x15, 100(x2)
    .word 0x08c12303  # lw x6, 140(x2)
    .word 0x006c87b3  # add x15, x25, x6
    .word 0x06f12423  # sw x15, 104(x2)
    .word 0x09012303  # lw x6, 144(x2)
    .word 0x006d07b3  # add x15, x26, x6
    .word 0x06f12623  # sw x15, 108(x2)
    # the result
    .word 0x00000513  # addi x10, x0, 0
    # parameter 3: the array, back
    .word 0x03010293  # addi x5, x2, 48
    .word 0x0dc12303  # lw x6, 220(x2)
    .word 0x04028393  # addi x7, x5, 64
    .word 0x0002ce03  # lbu x28, 0(x5)
    .word 0x01c30023  # sb x28, 0(x6)
    .word 0x00128293  # addi x5, x5, 1
    .word 0x00130313  # addi x6, x6, 1
    .word 0xfe7298e3  # bne x5, x7, -16
    # above the frame
    .word 0x0a010293  # addi x5, x2, 160
    # the caller's registers
    .word 0x0002a403  # lw x8, 0(x5)
    .cfi_restore 8
    .word 0x0042a483  # lw x9, 4(x5)
    .cfi_restore 9
    .word 0x0082a903  # lw x18, 8(x5)
    .cfi_restore 18
    .word 0x00c2a983  # lw x19, 12(x5)
    .cfi_restore 19
    .word 0x0102aa03  # lw x20, 16(x5)
    .cfi_restore 20
    .word 0x0142aa83  # lw x21, 20(x5)
    .cfi_restore 21
    .word 0x0182ab03  # lw x22, 24(x5)
    .cfi_restore 22
    .word 0x01c2ab83  # lw x23, 28(x5)
    .cfi_restore 23
    .word 0x0202ac03  # lw x24, 32(x5)
    .cfi_restore 24
    .word 0x0242ac83  # lw x25, 36(x5)
    .cfi_restore 25
    .word 0x0282ad03  # lw x26, 40(x5)
    .cfi_restore 26
    .word 0x02c2ad83  # lw x27, 44(x5)
    .cfi_restore 27
    # the caller's x2
    .word 0x04028293  # addi x5, x5, 64
    .cfi_def_cfa 5, 0
    # on to the tail that functions share
    jal x0, factc.tail.1
    .cfi_endproc
    .size chacha20_block, . - chacha20_block
    .section .text.factc.tail.1, "axG", @progbits, factc.tail.1, comdat
    .p2align 2
    .globl factc.tail.1
    .hidden factc.tail.1
    .type factc.tail.1, @function
factc.tail.1:
    .cfi_startproc
    .cfi_def_cfa 5, 0
    # all the room, wiped upward
    .word 0x00012023  # sw x0, 0(x2)
    .word 0x00012223  # sw x0, 4(x2)
    .word 0x00012423  # sw x0, 8(x2)
    .word 0x00012623  # sw x0, 12(x2)
    .word 0x01010113  # addi x2, x2, 16
    .word 0xfe5116e3  # bne x2, x5, -20
    .cfi_def_cfa 2, 0
    # temporaries, wiped
    .word 0x00000293  # addi x5, x0, 0
    .word 0x00000313  # addi x6, x0, 0
    .word 0x00000393  # addi x7, x0, 0
    .word 0x00000593  # addi x11, x0, 0
    .word 0x00000613  # addi x12, x0, 0
    .word 0x00000693  # addi x13, x0, 0
    .word 0x00000713  # addi x14, x0, 0
    .word 0x00000793  # addi x15, x0, 0
    .word 0x00000813  # addi x16, x0, 0
    .word 0x00000893  # addi x17, x0, 0
    .word 0x00000e13  # addi x28, x0, 0
    .word 0x00000e93  # addi x29, x0, 0
    .word 0x00000f13  # addi x30, x0, 0
    .word 0x00000f93  # addi x31, x0, 0
    # back
    .word 0x00008067  # jalr x0, 0(x1)
    .cfi_endproc
    .size factc.tail.1, . - factc.tail.1
    .option pop
