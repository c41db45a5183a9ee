# chacha20_xor: made by factc 1.0.0 function; 336 words and 21 shared, 320 bytes of stack, profile 1
    .option push
    .option norvc
    .option norelax
    .cfi_sections .debug_frame
    .section .text.chacha20_xor, "ax", @progbits
    .p2align 2
    .globl chacha20_xor
    .type chacha20_xor, @function
chacha20_xor:
    .cfi_startproc
    # room above the frame
    .word 0xfc010113  # addi x2, x2, -64
    .cfi_def_cfa_offset 64
    # the caller's registers
    .word 0x00812023  # sw x8, 0(x2)
    .cfi_offset 8, -64
    .word 0x00912223  # sw x9, 4(x2)
    .cfi_offset 9, -60
    .word 0x01212423  # sw x18, 8(x2)
    .cfi_offset 18, -56
    .word 0x01312623  # sw x19, 12(x2)
    .cfi_offset 19, -52
    .word 0x01412823  # sw x20, 16(x2)
    .cfi_offset 20, -48
    .word 0x01512a23  # sw x21, 20(x2)
    .cfi_offset 21, -44
    .word 0x01612c23  # sw x22, 24(x2)
    .cfi_offset 22, -40
    .word 0x01712e23  # sw x23, 28(x2)
    .cfi_offset 23, -36
    .word 0x03812023  # sw x24, 32(x2)
    .cfi_offset 24, -32
    .word 0x03912223  # sw x25, 36(x2)
    .cfi_offset 25, -28
    .word 0x03a12423  # sw x26, 40(x2)
    .cfi_offset 26, -24
    .word 0x03b12623  # sw x27, 44(x2)
    .cfi_offset 27, -20
    # arguments that are needed behind the body
    .word 0x02a12823  # sw x10, 48(x2)
    .word 0x02b12a23  # sw x11, 52(x2)
    .word 0x02c12c23  # sw x12, 56(x2)
    .word 0x02d12e23  # sw x13, 60(x2)
    # the frame's base
    .word 0xf0010113  # addi x2, x2, -256
    .cfi_def_cfa 2, 320
    # parameter 0: an array
    .word 0x00050293  # addi x5, x10, 0
    .word 0x00010313  # addi x6, x2, 0
    .word 0x02028393  # addi x7, x5, 32
    .word 0x0002ce03  # lbu x28, 0(x5)
    .word 0x01c30023  # sb x28, 0(x6)
    .word 0x00128293  # addi x5, x5, 1
    .word 0x00130313  # addi x6, x6, 1
    .word 0xfe7298e3  # bne x5, x7, -16
    # parameter 1: a word
    .word 0x02b12023  # sw x11, 32(x2)
    # parameter 2: an array
    .word 0x00060293  # addi x5, x12, 0
    .word 0x02410313  # addi x6, x2, 36
    .word 0x00c28393  # addi x7, x5, 12
    .word 0x0002ce03  # lbu x28, 0(x5)
    .word 0x01c30023  # sb x28, 0(x6)
    .word 0x00128293  # addi x5, x5, 1
    .word 0x00130313  # addi x6, x6, 1
    .word 0xfe7298e3  # bne x5, x7, -16
    # parameter 3: an array
    .word 0x00068293  # addi x5, x13, 0
    .word 0x03010313  # addi x6, x2, 48
    .word 0x04028393  # addi x7, x5, 64
    .word 0x0002ce03  # lbu x28, 0(x5)
    .word 0x01c30023  # sb x28, 0(x6)
    .word 0x00128293  # addi x5, x5, 1
    .word 0x00130313  # addi x6, x6, 1
    .word 0xfe7298e3  # bne x5, x7, -16
    # parameter 4: a word
    .word 0x06e12823  # sw x14, 112(x2)
    # the body
    .word 0x07012503  # lw x10, 112(x2)
    .word 0x617085b7  # lui x11, 0x61708
    .word 0x86558593  # addi x11, x11, -1947
    .word 0x33206637  # lui x12, 0x33206
    .word 0x46e60613  # addi x12, x12, 1134
    .word 0x796236b7  # lui x13, 0x79623
    .word 0xd3268693  # addi x13, x13, -718
    .word 0x6b206737  # lui x14, 0x6b206
    .word 0x57470713  # addi x14, x14, 1396
    .word 0x00012d83  # lw x27, 0(x2)
    .word 0x00412783  # lw x15, 4(x2)
    .word 0x00812803  # lw x16, 8(x2)
    .word 0x00c12883  # lw x17, 12(x2)
    .word 0x01012903  # lw x18, 16(x2)
    .word 0x01412983  # lw x19, 20(x2)
    .word 0x01812a03  # lw x20, 24(x2)
    .word 0x01c12a83  # lw x21, 28(x2)
    .word 0x02012b03  # lw x22, 32(x2)
    .word 0x02412b83  # lw x23, 36(x2)
    .word 0x02812c03  # lw x24, 40(x2)
    .word 0x02c12c83  # lw x25, 44(x2)
    .word 0x07b12a23  # sw x27, 116(x2)
    .word 0x06f12c23  # sw x15, 120(x2)
    .word 0x07012e23  # sw x16, 124(x2)
    .word 0x09112023  # sw x17, 128(x2)
    .word 0x09212223  # sw x18, 132(x2)
    .word 0x09312423  # sw x19, 136(x2)
    .word 0x09412623  # sw x20, 140(x2)
    .word 0x09512823  # sw x21, 144(x2)
    .word 0x09712a23  # sw x23, 148(x2)
    .word 0x09812c23  # sw x24, 152(x2)
    .word 0x09912e23  # sw x25, 156(x2)
    .word 0xfff00d13  # addi x26, x0, -1
    .word 0x001d0d13  # addi x26, x26, 1
    .word 0x01b585b3  # add x11, x11, x27
    .word 0x00bb4b33  # xor x22, x22, x11
    .word 0x010b1f13  # slli x30, x22, 16
    .word 0x010b5b13  # srli x22, x22, 16
    .word 0x016f0b33  # add x22, x30, x22
    .word 0x01690933  # add x18, x18, x22
    .word 0x012dcdb3  # xor x27, x27, x18
    .word 0x00cd9f13  # slli x30, x27, 12
    .word 0x014ddd93  # srli x27, x27, 20
    .word 0x01bf0db3  # add x27, x30, x27
    .word 0x01b585b3  # add x11, x11, x27
    .word 0x00bb4b33  # xor x22, x22, x11
    .word 0x008b1f13  # slli x30, x22, 8
    .word 0x018b5b13  # srli x22, x22, 24
    .word 0x016f0b33  # add x22, x30, x22
    .word 0x01690933  # add x18, x18, x22
    .word 0x012dcdb3  # xor x27, x27, x18
    .word 0x007d9f13  # slli x30, x27, 7
    .word 0x019ddd93  # srli x27, x27, 25
    .word 0x01bf0db3  # add x27, x30, x27
    .word 0x00f60633  # add x12, x12, x15
    .word 0x00cbcbb3  # xor x23, x23, x12
    .word 0x010b9f13  # slli x30, x23, 16
    .word 0x010bdb93  # srli x23, x23, 16
    .word 0x017f0bb3  # add x23, x30, x23
    .word 0x017989b3  # add x19, x19, x23
    .word 0x0137c7b3  # xor x15, x15, x19
    .word 0x00c79f13  # slli x30, x15, 12
    .word 0x0147d793  # srli x15, x15, 20
    .word 0x00ff07b3  # add x15, x30, x15
    .word 0x00f60633  # add x12, x12, x15
    .word 0x00cbcbb3  # xor x23, x23, x12
    .word 0x008b9f13  # slli x30, x23, 8
    .word 0x018bdb93  # srli x23, x23, 24
    .word 0x017f0bb3  # add x23, x30, x23
    .word 0x017989b3  # add x19, x19, x23
    .word 0x0137c7b3  # xor x15, x15, x19
    .word 0x00779f13  # slli x30, x15, 7
    .word 0x0197d793  # srli x15, x15, 25
    .word 0x00ff07b3  # add x15, x30, x15
    .word 0x010686b3  # add x13, x13, x16
    .word 0x00dc4c33  # xor x24, x24, x13
    .word 0x010c1f13  # slli x30, x24, 16
    .word 0x010c5c13  # srli x24, x24, 16
    .word 0x018f0c33  # add x24, x30, x24
    .word 0x018a0a33  # add x20, x20, x24
    .word 0x01484833  # xor x16, x16, x20
    .word 0x00c81f13  # slli x30, x16, 12
    .word 0x01485813  # srli x16, x16, 20
    .word 0x010f0833  # add x16, x30, x16
    .word 0x010686b3  # add x13, x13, x16
    .word 0x00dc4c33  # xor x24, x24, x13
    .word 0x008c1f13  # slli x30, x24, 8
    .word 0x018c5c13  # srli x24, x24, 24
    .word 0x018f0c33  # add x24, x30, x24
    .word 0x018a0a33  # add x20, x20, x24
    .word 0x01484833  # xor x16, x16, x20
    .word 0x00781f13  # slli x30, x16, 7
    .word 0x01985813  # srli x16, x16, 25
    .word 0x010f0833  # add x16, x30, x16
    .word 0x01170733  # add x14, x14, x17
    .word 0x00ecccb3  # xor x25, x25, x14
    .word 0x010c9f13  # slli x30, x25, 16
    .word 0x010cdc93  # srli x25, x25, 16
    .word 0x019f0cb3  # add x25, x30, x25
    .word 0x019a8ab3  # add x21, x21, x25
    .word 0x0158c8b3  # xor x17, x17, x21
    .word 0x00c89f13  # slli x30, x17, 12
    .word 0x0148d893  # srli x17, x17, 20
    .word 0x011f08b3  # add x17, x30, x17
    .word 0x01170733  # add x14, x14, x17
    .word 0x00ecccb3  # xor x25, x25, x14
    .word 0x008c9f13  # slli x30, x25, 8
    .word 0x018cdc93  # srli x25, x25, 24
    .word 0x019f0cb3  # add x25, x30, x25
    .word 0x019a8ab3  # add x21, x21, x25
    .word 0x0158c8b3  # xor x17, x17, x21
    .word 0x00789f13  # slli x30, x17, 7
    .word 0x0198d893  # srli x17, x17, 25
    .word 0x011f08b3  # add x17, x30, x17
    .word 0x00f585b3  # add x11, x11, x15
    .word 0x00bcccb3  # xor x25, x25, x11
    .word 0x010c9f13  # slli x30, x25, 16
    .word 0x010cdc93  # srli x25, x25, 16
    .word 0x019f0cb3  # add x25, x30, x25
    .word 0x019a0a33  # add x20, x20, x25
    .word 0x0147c7b3  # xor x15, x15, x20
    .word 0x00c79f13  # slli x30, x15, 12
    .word 0x0147d793  # srli x15, x15, 20
    .word 0x00ff07b3  # add x15, x30, x15
    .word 0x00f585b3  # add x11, x11, x15
    .word 0x00bcccb3  # xor x25, x25, x11
    .word 0x008c9f13  # slli x30, x25, 8
    .word 0x018cdc93  # srli x25, x25, 24
    .word 0x019f0cb3  # add x25, x30, x25
    .word 0x019a0a33  # add x20, x20, x25
    .word 0x0147c7b3  # xor x15, x15, x20
    .word 0x00779f13  # slli x30, x15, 7
    .word 0x0197d793  # srli x15, x15, 25
    .word 0x00ff07b3  # add x15, x30, x15
    .word 0x01060633  # add x12, x12, x16
    .word 0x00cb4b33  # xor x22, x22, x12
    .word 0x010b1f13  # slli x30, x22, 16
    .word 0x010b5b13  # srli x22, x22, 16
    .word 0x016f0b33  # add x22, x30, x22
    .word 0x016a8ab3  # add x21, x21, x22
    .word 0x01584833  # xor x16, x16, x21
    .word 0x00c81f13  # slli x30, x16, 12
    .word 0x01485813  # srli x16, x16, 20
    .word 0x010f0833  # add x16, x30, x16
    .word 0x01060633  # add x12, x12, x16
    .word 0x00cb4b33  # xor x22, x22, x12
    .word 0x008b1f13  # slli x30, x22, 8
    .word 0x018b5b13  # srli x22, x22, 24
    .word 0x016f0b33  # add x22, x30, x22
    .word 0x016a8ab3  # add x21, x21, x22
    .word 0x01584833  # xor x16, x16, x21
    .word 0x00781f13  # slli x30, x16, 7
    .word 0x01985813  # srli x16, x16, 25
    .word 0x010f0833  # add x16, x30, x16
    .word 0x011686b3  # add x13, x13, x17
    .word 0x00dbcbb3  # xor x23, x23, x13
    .word 0x010b9f13  # slli x30, x23, 16
    .word 0x010bdb93  # srli x23, x23, 16
    .word 0x017f0bb3  # add x23, x30, x23
    .word 0x01790933  # add x18, x18, x23
    .word 0x0128c8b3  # xor x17, x17, x18
    .word 0x00c89f13  # slli x30, x17, 12
    .word 0x0148d893  # srli x17, x17, 20
    .word 0x011f08b3  # add x17, x30, x17
    .word 0x011686b3  # add x13, x13, x17
    .word 0x00dbcbb3  # xor x23, x23, x13
    .word 0x008b9f13  # slli x30, x23, 8
    .word 0x018bdb93  # srli x23, x23, 24
    .word 0x017f0bb3  # add x23, x30, x23
    .word 0x01790933  # add x18, x18, x23
    .word 0x0128c8b3  # xor x17, x17, x18
    .word 0x00789f13  # slli x30, x17, 7
    .word 0x0198d893  # srli x17, x17, 25
    .word 0x011f08b3  # add x17, x30, x17
    .word 0x01b70733  # add x14, x14, x27
    .word 0x00ec4c33  # xor x24, x24, x14
    .word 0x010c1f13  # slli x30, x24, 16
    .word 0x010c5c13  # srli x24, x24, 16
    .word 0x018f0c33  # add x24, x30, x24
    .word 0x018989b3  # add x19, x19, x24
    .word 0x013dcdb3  # xor x27, x27, x19
    .word 0x00cd9f13  # slli x30, x27, 12
    .word 0x014ddd93  # srli x27, x27, 20
    .word 0x01bf0db3  # add x27, x30, x27
    .word 0x01b70733  # add x14, x14, x27
    .word 0x00ec4c33  # xor x24, x24, x14
    .word 0x008c1f13  # slli x30, x24, 8
    .word 0x018c5c13  # srli x24, x24, 24
    .word 0x018f0c33  # add x24, x30, x24
    .word 0x018989b3  # add x19, x19, x24
    .word 0x013dcdb3  # xor x27, x27, x19
    .word 0x007d9f13  # slli x30, x27, 7
    .word 0x019ddd93  # srli x27, x27, 25
    .word 0x01bf0db3  # add x27, x30, x27
    .word 0xff7d0293  # addi x5, x26, -9
    .word 0xd6029ce3  # bne x5, x0, -648
    .word 0x61708337  # lui x6, 0x61708
    .word 0x86530313  # addi x6, x6, -1947
    .word 0x006582b3  # add x5, x11, x6
    .word 0x0a512023  # sw x5, 160(x2)
    .word 0x33206337  # lui x6, 0x33206
    .word 0x46e30313  # addi x6, x6, 1134
    .word 0x006602b3  # add x5, x12, x6
    .word 0x0a512223  # sw x5, 164(x2)
    .word 0x79623337  # lui x6, 0x79623
    .word 0xd3230313  # addi x6, x6, -718
    .word 0x006682b3  # add x5, x13, x6
    .word 0x0a512423  # sw x5, 168(x2)
    .word 0x6b206337  # lui x6, 0x6b206
    .word 0x57430313  # addi x6, x6, 1396
    .word 0x006702b3  # add x5, x14, x6
    .word 0x0a512623  # sw x5, 172(x2)
    .word 0x07412303  # lw x6, 116(x2)
    .word 0x006d82b3  # add x5, x27, x6
    .word 0x0a512823  # sw x5, 176(x2)
    .word 0x07812303  # lw x6, 120(x2)
    .word 0x006782b3  # add x5, x15, x6
    .word 0x0a512a23  # sw x5, 180(x2)
    .word 0x07c12303  # lw x6, 124(x2)
    .word 0x006802b3  # add x5, x16, x6
    .word 0x0a512c23  # sw x5, 184(x2)
    .word 0x08012303  # lw x6, 128(x2)
    .word 0x006882b3  # add x5, x17, x6
    .word 0x0a512e23  # sw x5, 188(x2)
    .word 0x08412303  # lw x6, 132(x2)
    .word 0x006902b3  # add x5, x18, x6
    .word 0x0c512023  # sw x5, 192(x2)
    .word 0x08812303  # lw x6, 136(x2)
    .word 0x006982b3  # add x5, x19, x6
    .word 0x0c512223  # sw x5, 196(x2)
    .word 0x08c12303  # lw x6, 140(x2)
    .word 0x006a02b3  # add x5, x20, x6
    .word 0x0c512423  # sw x5, 200(x2)
    .word 0x09012303  # lw x6, 144(x2)
    .word 0x006a82b3  # add x5, x21, x6
    .word 0x0c512623  # sw x5, 204(x2)
    .word 0x02012303  # lw x6, 32(x2)
    .word 0x006b02b3  # add x5, x22, x6
    .word 0x0c512823  # sw x5, 208(x2)
    .word 0x09412303  # lw x6, 148(x2)
    .word 0x006b82b3  # add x5, x23, x6
    .word 0x0c512a23  # sw x5, 212(x2)
    .word 0x09812303  # lw x6, 152(x2)
    .word 0x006c02b3  # add x5, x24, x6
    .word 0x0c512c23  # sw x5, 216(x2)
    .word 0x09c12303  # lw x6, 156(x2)
    .word 0x006c82b3  # add x5, x25, x6
    .word 0x0c512e23  # sw x5, 220(x2)
    .word 0xfff00d13  # addi x26, x0, -1
    .word 0x001d0d13  # addi x26, x26, 1
    .word 0x002d1d93  # slli x27, x26, 2
    .word 0x002d8db3  # add x27, x27, x2
    .word 0x0a0dad83  # lw x27, 160(x27)
    .word 0xfff00413  # addi x8, x0, -1
    .word 0x00140413  # addi x8, x8, 1
    .word 0x002d1293  # slli x5, x26, 2
    .word 0x008284b3  # add x9, x5, x8
    .word 0x00a4fc63  # bgeu x9, x10, 24
    .word 0x00248333  # add x6, x9, x2
    .word 0x03034303  # lbu x6, 48(x6)
    .word 0x01b34333  # xor x6, x6, x27
    .word 0x002482b3  # add x5, x9, x2
    .word 0x02628823  # sb x6, 48(x5)
    .word 0x008ddd93  # srli x27, x27, 8
    .word 0xffd40293  # addi x5, x8, -3
    .word 0xfc029ae3  # bne x5, x0, -44
    .word 0xff1d0293  # addi x5, x26, -15
    .word 0xfa029ce3  # bne x5, x0, -72
    # the result
    .word 0x00000513  # addi x10, x0, 0
    # parameter 3: the array, back
    .word 0x03010293  # addi x5, x2, 48
    .word 0x13c12303  # lw x6, 316(x2)
    .word 0x04028393  # addi x7, x5, 64
    .word 0x0002ce03  # lbu x28, 0(x5)
    .word 0x01c30023  # sb x28, 0(x6)
    .word 0x00128293  # addi x5, x5, 1
    .word 0x00130313  # addi x6, x6, 1
    .word 0xfe7298e3  # bne x5, x7, -16
    # above the frame
    .word 0x10010293  # addi x5, x2, 256
    # the caller's registers
    .word 0x0002a403  # lw x8, 0(x5)
    .cfi_restore 8
    .word 0x0042a483  # lw x9, 4(x5)
    .cfi_restore 9
    .word 0x0082a903  # lw x18, 8(x5)
    .cfi_restore 18
    .word 0x00c2a983  # lw x19, 12(x5)
    .cfi_restore 19
    .word 0x0102aa03  # lw x20, 16(x5)
    .cfi_restore 20
    .word 0x0142aa83  # lw x21, 20(x5)
    .cfi_restore 21
    .word 0x0182ab03  # lw x22, 24(x5)
    .cfi_restore 22
    .word 0x01c2ab83  # lw x23, 28(x5)
    .cfi_restore 23
    .word 0x0202ac03  # lw x24, 32(x5)
    .cfi_restore 24
    .word 0x0242ac83  # lw x25, 36(x5)
    .cfi_restore 25
    .word 0x0282ad03  # lw x26, 40(x5)
    .cfi_restore 26
    .word 0x02c2ad83  # lw x27, 44(x5)
    .cfi_restore 27
    # the caller's x2
    .word 0x04028293  # addi x5, x5, 64
    .cfi_def_cfa 5, 0
    # on to the tail that functions share
    jal x0, factc.tail.1
    .cfi_endproc
    .size chacha20_xor, . - chacha20_xor
    .section .text.factc.tail.1, "axG", @progbits, factc.tail.1, comdat
    .p2align 2
    .globl factc.tail.1
    .hidden factc.tail.1
    .type factc.tail.1, @function
factc.tail.1:
    .cfi_startproc
    .cfi_def_cfa 5, 0
    # all the room, wiped upward
    .word 0x00012023  # sw x0, 0(x2)
    .word 0x00012223  # sw x0, 4(x2)
    .word 0x00012423  # sw x0, 8(x2)
    .word 0x00012623  # sw x0, 12(x2)
    .word 0x01010113  # addi x2, x2, 16
    .word 0xfe5116e3  # bne x2, x5, -20
    .cfi_def_cfa 2, 0
    # temporaries, wiped
    .word 0x00000293  # addi x5, x0, 0
    .word 0x00000313  # addi x6, x0, 0
    .word 0x00000393  # addi x7, x0, 0
    .word 0x00000593  # addi x11, x0, 0
    .word 0x00000613  # addi x12, x0, 0
    .word 0x00000693  # addi x13, x0, 0
    .word 0x00000713  # addi x14, x0, 0
    .word 0x00000793  # addi x15, x0, 0
    .word 0x00000813  # addi x16, x0, 0
    .word 0x00000893  # addi x17, x0, 0
    .word 0x00000e13  # addi x28, x0, 0
    .word 0x00000e93  # addi x29, x0, 0
    .word 0x00000f13  # addi x30, x0, 0
    .word 0x00000f93  # addi x31, x0, 0
    # back
    .word 0x00008067  # jalr x0, 0(x1)
    .cfi_endproc
    .size factc.tail.1, . - factc.tail.1
    .option pop
