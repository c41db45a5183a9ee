# chacha20_blocks: made by factc 1.0.0 function; 457 words and 21 shared, 624 bytes of stack, profile 1
    .option push
    .option norvc
    .option norelax
    .cfi_sections .debug_frame
    .section .text.chacha20_blocks, "ax", @progbits
    .p2align 2
    .globl chacha20_blocks
    .type chacha20_blocks, @function
chacha20_blocks:
    .cfi_startproc
    # room above the frame
    .word 0xfc010113  # addi x2, x2, -64
    .cfi_def_cfa_offset 64
    # the caller's registers
    .word 0x00812023  # sw x8, 0(x2)
    .cfi_offset 8, -64
    .word 0x01212223  # sw x18, 4(x2)
    .cfi_offset 18, -60
    .word 0x01312423  # sw x19, 8(x2)
    .cfi_offset 19, -56
    .word 0x01412623  # sw x20, 12(x2)
    .cfi_offset 20, -52
    .word 0x01512823  # sw x21, 16(x2)
    .cfi_offset 21, -48
    .word 0x01612a23  # sw x22, 20(x2)
    .cfi_offset 22, -44
    .word 0x01712c23  # sw x23, 24(x2)
    .cfi_offset 23, -40
    .word 0x01812e23  # sw x24, 28(x2)
    .cfi_offset 24, -36
    .word 0x03912023  # sw x25, 32(x2)
    .cfi_offset 25, -32
    .word 0x03a12223  # sw x26, 36(x2)
    .cfi_offset 26, -28
    .word 0x03b12423  # sw x27, 40(x2)
    .cfi_offset 27, -24
    # arguments that are needed behind the body
    .word 0x02a12823  # sw x10, 48(x2)
    .word 0x02b12a23  # sw x11, 52(x2)
    .word 0x02c12c23  # sw x12, 56(x2)
    .word 0x02d12e23  # sw x13, 60(x2)
    # the frame's base
    .word 0xdd010113  # addi x2, x2, -560
    .cfi_def_cfa 2, 624
    # parameter 0: an array
    .word 0x00050293  # addi x5, x10, 0
    .word 0x00010313  # addi x6, x2, 0
    .word 0x02028393  # addi x7, x5, 32
    .word 0x0002ce03  # lbu x28, 0(x5)
    .word 0x01c30023  # sb x28, 0(x6)
    .word 0x00128293  # addi x5, x5, 1
    .word 0x00130313  # addi x6, x6, 1
    .word 0xfe7298e3  # bne x5, x7, -16
    # parameter 1: a word
    .word 0x02b12023  # sw x11, 32(x2)
    # parameter 2: an array
    .word 0x00060293  # addi x5, x12, 0
    .word 0x02410313  # addi x6, x2, 36
    .word 0x00c28393  # addi x7, x5, 12
    .word 0x0002ce03  # lbu x28, 0(x5)
    .word 0x01c30023  # sb x28, 0(x6)
    .word 0x00128293  # addi x5, x5, 1
    .word 0x00130313  # addi x6, x6, 1
    .word 0xfe7298e3  # bne x5, x7, -16
    # parameter 3: an array
    .word 0x00068293  # addi x5, x13, 0
    .word 0x03010313  # addi x6, x2, 48
    .word 0x10028393  # addi x7, x5, 256
    .word 0x0002ce03  # lbu x28, 0(x5)
    .word 0x01c30023  # sb x28, 0(x6)
    .word 0x00128293  # addi x5, x5, 1
    .word 0x00130313  # addi x6, x6, 1
    .word 0xfe7298e3  # bne x5, x7, -16
    # parameter 4: a word
    .word 0x12e12823  # sw x14, 304(x2)
    # the body
    .word 0x00012283  # lw x5, 0(x2)
    .word 0x12512a23  # sw x5, 308(x2)
    .word 0x00412283  # lw x5, 4(x2)
    .word 0x12512c23  # sw x5, 312(x2)
    .word 0x00812283  # lw x5, 8(x2)
    .word 0x12512e23  # sw x5, 316(x2)
    .word 0x00c12283  # lw x5, 12(x2)
    .word 0x14512023  # sw x5, 320(x2)
    .word 0x01012283  # lw x5, 16(x2)
    .word 0x14512223  # sw x5, 324(x2)
    .word 0x01412283  # lw x5, 20(x2)
    .word 0x14512423  # sw x5, 328(x2)
    .word 0x01812283  # lw x5, 24(x2)
    .word 0x14512623  # sw x5, 332(x2)
    .word 0x01c12283  # lw x5, 28(x2)
    .word 0x14512823  # sw x5, 336(x2)
    .word 0x02412d03  # lw x26, 36(x2)
    .word 0x02812d83  # lw x27, 40(x2)
    .word 0x02c12283  # lw x5, 44(x2)
    .word 0x14512c23  # sw x5, 344(x2)
    .word 0x617082b7  # lui x5, 0x61708
    .word 0x86528293  # addi x5, x5, -1947
    .word 0x1c512e23  # sw x5, 476(x2)
    .word 0x332062b7  # lui x5, 0x33206
    .word 0x46e28293  # addi x5, x5, 1134
    .word 0x1e512023  # sw x5, 480(x2)
    .word 0x796232b7  # lui x5, 0x79623
    .word 0xd3228293  # addi x5, x5, -718
    .word 0x1e512223  # sw x5, 484(x2)
    .word 0x6b2062b7  # lui x5, 0x6b206
    .word 0x57428293  # addi x5, x5, 1396
    .word 0x1e512423  # sw x5, 488(x2)
    .word 0x13412283  # lw x5, 308(x2)
    .word 0x1e512623  # sw x5, 492(x2)
    .word 0x13812283  # lw x5, 312(x2)
    .word 0x1e512823  # sw x5, 496(x2)
    .word 0x13c12283  # lw x5, 316(x2)
    .word 0x1e512a23  # sw x5, 500(x2)
    .word 0x14012283  # lw x5, 320(x2)
    .word 0x1e512c23  # sw x5, 504(x2)
    .word 0x14412283  # lw x5, 324(x2)
    .word 0x1e512e23  # sw x5, 508(x2)
    .word 0x14812283  # lw x5, 328(x2)
    .word 0x20512023  # sw x5, 512(x2)
    .word 0x14c12283  # lw x5, 332(x2)
    .word 0x20512223  # sw x5, 516(x2)
    .word 0x15012283  # lw x5, 336(x2)
    .word 0x20512423  # sw x5, 520(x2)
    .word 0x21a12823  # sw x26, 528(x2)
    .word 0x21b12a23  # sw x27, 532(x2)
    .word 0x15812283  # lw x5, 344(x2)
    .word 0x20512c23  # sw x5, 536(x2)
    .word 0x13012283  # lw x5, 304(x2)
    .word 0x1002b293  # sltiu x5, x5, 256
    .word 0x13012303  # lw x6, 304(x2)
    .word 0x10000393  # addi x7, x0, 256
    .word 0x405002b3  # sub x5, x0, x5
    .word 0x00734333  # xor x6, x6, x7
    .word 0x00537333  # and x6, x6, x5
    .word 0x0063c2b3  # xor x5, x7, x6
    .word 0x10100313  # addi x6, x0, 257
    .word 0x0262f2b3  # remu x5, x5, x6
    .word 0x14512a23  # sw x5, 340(x2)
    .word 0x22012023  # sw x0, 544(x2)
    .word 0x15412283  # lw x5, 340(x2)
    .word 0x03f28293  # addi x5, x5, 63
    .word 0x0062d293  # srli x5, x5, 6
    .word 0x22512223  # sw x5, 548(x2)
    .word 0x22012303  # lw x6, 544(x2)
    .word 0x22412283  # lw x5, 548(x2)
    .word 0x005332b3  # sltu x5, x6, x5
    .word 0x00029463  # bne x5, x0, 8
    .word 0x4fc0006f  # jal x0, 1276
    .word 0x14612c23  # sw x6, 344(x2)
    .word 0x00130313  # addi x6, x6, 1
    .word 0x22612023  # sw x6, 544(x2)
    .word 0x02012283  # lw x5, 32(x2)
    .word 0x15812303  # lw x6, 344(x2)
    .word 0x006282b3  # add x5, x5, x6
    .word 0x20512623  # sw x5, 524(x2)
    .word 0x15c00313  # addi x6, x0, 348
    .word 0x00230333  # add x6, x6, x2
    .word 0x04000393  # addi x7, x0, 64
    .word 0x006383b3  # add x7, x7, x6
    .word 0x406382b3  # sub x5, x7, x6
    .word 0x00029463  # bne x5, x0, 8
    .word 0x0100006f  # jal x0, 16
    .word 0x00032023  # sw x0, 0(x6)
    .word 0x00430313  # addi x6, x6, 4
    .word 0xfedff06f  # jal x0, -20
    .word 0x1dc12503  # lw x10, 476(x2)
    .word 0x1e012583  # lw x11, 480(x2)
    .word 0x1e412603  # lw x12, 484(x2)
    .word 0x1e812683  # lw x13, 488(x2)
    .word 0x13412703  # lw x14, 308(x2)
    .word 0x13812783  # lw x15, 312(x2)
    .word 0x13c12803  # lw x16, 316(x2)
    .word 0x14012883  # lw x17, 320(x2)
    .word 0x14412903  # lw x18, 324(x2)
    .word 0x14812983  # lw x19, 328(x2)
    .word 0x14c12a03  # lw x20, 332(x2)
    .word 0x15012a83  # lw x21, 336(x2)
    .word 0x20c12b03  # lw x22, 524(x2)
    .word 0x21012b83  # lw x23, 528(x2)
    .word 0x21412c03  # lw x24, 532(x2)
    .word 0x21812c83  # lw x25, 536(x2)
    .word 0xfff00d13  # addi x26, x0, -1
    .word 0x001d0d13  # addi x26, x26, 1
    .word 0x00e50533  # add x10, x10, x14
    .word 0x00ab4b33  # xor x22, x22, x10
    .word 0x010b1f13  # slli x30, x22, 16
    .word 0x010b5b13  # srli x22, x22, 16
    .word 0x016f0b33  # add x22, x30, x22
    .word 0x01690933  # add x18, x18, x22
    .word 0x01274733  # xor x14, x14, x18
    .word 0x00c71f13  # slli x30, x14, 12
    .word 0x01475713  # srli x14, x14, 20
    .word 0x00ef0733  # add x14, x30, x14
    .word 0x00e50533  # add x10, x10, x14
    .word 0x00ab4b33  # xor x22, x22, x10
    .word 0x008b1f13  # slli x30, x22, 8
    .word 0x018b5b13  # srli x22, x22, 24
    .word 0x016f0b33  # add x22, x30, x22
    .word 0x01690933  # add x18, x18, x22
    .word 0x01274733  # xor x14, x14, x18
    .word 0x00771f13  # slli x30, x14, 7
    .word 0x01975713  # srli x14, x14, 25
    .word 0x00ef0733  # add x14, x30, x14
    .word 0x00f585b3  # add x11, x11, x15
    .word 0x00bbcbb3  # xor x23, x23, x11
    .word 0x010b9f13  # slli x30, x23, 16
    .word 0x010bdb93  # srli x23, x23, 16
    .word 0x017f0bb3  # add x23, x30, x23
    .word 0x017989b3  # add x19, x19, x23
    .word 0x0137c7b3  # xor x15, x15, x19
    .word 0x00c79f13  # slli x30, x15, 12
    .word 0x0147d793  # srli x15, x15, 20
    .word 0x00ff07b3  # add x15, x30, x15
    .word 0x00f585b3  # add x11, x11, x15
    .word 0x00bbcbb3  # xor x23, x23, x11
    .word 0x008b9f13  # slli x30, x23, 8
    .word 0x018bdb93  # srli x23, x23, 24
    .word 0x017f0bb3  # add x23, x30, x23
    .word 0x017989b3  # add x19, x19, x23
    .word 0x0137c7b3  # xor x15, x15, x19
    .word 0x00779f13  # slli x30, x15, 7
    .word 0x0197d793  # srli x15, x15, 25
    .word 0x00ff07b3  # add x15, x30, x15
    .word 0x01060633  # add x12, x12, x16
    .word 0x00cc4c33  # xor x24, x24, x12
    .word 0x010c1f13  # slli x30, x24, 16
    .word 0x010c5c13  # srli x24, x24, 16
    .word 0x018f0c33  # add x24, x30, x24
    .word 0x018a0a33  # add x20, x20, x24
    .word 0x01484833  # xor x16, x16, x20
    .word 0x00c81f13  # slli x30, x16, 12
    .word 0x01485813  # srli x16, x16, 20
    .word 0x010f0833  # add x16, x30, x16
    .word 0x01060633  # add x12, x12, x16
    .word 0x00cc4c33  # xor x24, x24, x12
    .word 0x008c1f13  # slli x30, x24, 8
    .word 0x018c5c13  # srli x24, x24, 24
    .word 0x018f0c33  # add x24, x30, x24
    .word 0x018a0a33  # add x20, x20, x24
    .word 0x01484833  # xor x16, x16, x20
    .word 0x00781f13  # slli x30, x16, 7
    .word 0x01985813  # srli x16, x16, 25
    .word 0x010f0833  # add x16, x30, x16
    .word 0x011686b3  # add x13, x13, x17
    .word 0x00dcccb3  # xor x25, x25, x13
    .word 0x010c9f13  # slli x30, x25, 16
    .word 0x010cdc93  # srli x25, x25, 16
    .word 0x019f0cb3  # add x25, x30, x25
    .word 0x019a8ab3  # add x21, x21, x25
    .word 0x0158c8b3  # xor x17, x17, x21
    .word 0x00c89f13  # slli x30, x17, 12
    .word 0x0148d893  # srli x17, x17, 20
    .word 0x011f08b3  # add x17, x30, x17
    .word 0x011686b3  # add x13, x13, x17
    .word 0x00dcccb3  # xor x25, x25, x13
    .word 0x008c9f13  # slli x30, x25, 8
    .word 0x018cdc93  # srli x25, x25, 24
    .word 0x019f0cb3  # add x25, x30, x25
    .word 0x019a8ab3  # add x21, x21, x25
    .word 0x0158c8b3  # xor x17, x17, x21
    .word 0x00789f13  # slli x30, x17, 7
    .word 0x0198d893  # srli x17, x17, 25
    .word 0x011f08b3  # add x17, x30, x17
    .word 0x00f50533  # add x10, x10, x15
    .word 0x00acccb3  # xor x25, x25, x10
    .word 0x010c9f13  # slli x30, x25, 16
    .word 0x010cdc93  # srli x25, x25, 16
    .word 0x019f0cb3  # add x25, x30, x25
    .word 0x019a0a33  # add x20, x20, x25
    .word 0x0147c7b3  # xor x15, x15, x20
    .word 0x00c79f13  # slli x30, x15, 12
    .word 0x0147d793  # srli x15, x15, 20
    .word 0x00ff07b3  # add x15, x30, x15
    .word 0x00f50533  # add x10, x10, x15
    .word 0x00acccb3  # xor x25, x25, x10
    .word 0x008c9f13  # slli x30, x25, 8
    .word 0x018cdc93  # srli x25, x25, 24
    .word 0x019f0cb3  # add x25, x30, x25
    .word 0x019a0a33  # add x20, x20, x25
    .word 0x0147c7b3  # xor x15, x15, x20
    .word 0x00779f13  # slli x30, x15, 7
    .word 0x0197d793  # srli x15, x15, 25
    .word 0x00ff07b3  # add x15, x30, x15
    .word 0x010585b3  # add x11, x11, x16
    .word 0x00bb4b33  # xor x22, x22, x11
    .word 0x010b1f13  # slli x30, x22, 16
    .word 0x010b5b13  # srli x22, x22, 16
    .word 0x016f0b33  # add x22, x30, x22
    .word 0x016a8ab3  # add x21, x21, x22
    .word 0x01584833  # xor x16, x16, x21
    .word 0x00c81f13  # slli x30, x16, 12
    .word 0x01485813  # srli x16, x16, 20
    .word 0x010f0833  # add x16, x30, x16
    .word 0x010585b3  # add x11, x11, x16
    .word 0x00bb4b33  # xor x22, x22, x11
    .word 0x008b1f13  # slli x30, x22, 8
    .word 0x018b5b13  # srli x22, x22, 24
    .word 0x016f0b33  # add x22, x30, x22
    .word 0x016a8ab3  # add x21, x21, x22
    .word 0x01584833  # xor x16, x16, x21
    .word 0x00781f13  # slli x30, x16, 7
    .word 0x01985813  # srli x16, x16, 25
    .word 0x010f0833  # add x16, x30, x16
    .word 0x01160633  # add x12, x12, x17
    .word 0x00cbcbb3  # xor x23, x23, x12
    .word 0x010b9f13  # slli x30, x23, 16
    .word 0x010bdb93  # srli x23, x23, 16
    .word 0x017f0bb3  # add x23, x30, x23
    .word 0x01790933  # add x18, x18, x23
    .word 0x0128c8b3  # xor x17, x17, x18
    .word 0x00c89f13  # slli x30, x17, 12
    .word 0x0148d893  # srli x17, x17, 20
    .word 0x011f08b3  # add x17, x30, x17
    .word 0x01160633  # add x12, x12, x17
    .word 0x00cbcbb3  # xor x23, x23, x12
    .word 0x008b9f13  # slli x30, x23, 8
    .word 0x018bdb93  # srli x23, x23, 24
    .word 0x017f0bb3  # add x23, x30, x23
    .word 0x01790933  # add x18, x18, x23
    .word 0x0128c8b3  # xor x17, x17, x18
    .word 0x00789f13  # slli x30, x17, 7
    .word 0x0198d893  # srli x17, x17, 25
    .word 0x011f08b3  # add x17, x30, x17
    .word 0x00e686b3  # add x13, x13, x14
    .word 0x00dc4c33  # xor x24, x24, x13
    .word 0x010c1f13  # slli x30, x24, 16
    .word 0x010c5c13  # srli x24, x24, 16
    .word 0x018f0c33  # add x24, x30, x24
    .word 0x018989b3  # add x19, x19, x24
    .word 0x01374733  # xor x14, x14, x19
    .word 0x00c71f13  # slli x30, x14, 12
    .word 0x01475713  # srli x14, x14, 20
    .word 0x00ef0733  # add x14, x30, x14
    .word 0x00e686b3  # add x13, x13, x14
    .word 0x00dc4c33  # xor x24, x24, x13
    .word 0x008c1f13  # slli x30, x24, 8
    .word 0x018c5c13  # srli x24, x24, 24
    .word 0x018f0c33  # add x24, x30, x24
    .word 0x018989b3  # add x19, x19, x24
    .word 0x01374733  # xor x14, x14, x19
    .word 0x00771f13  # slli x30, x14, 7
    .word 0x01975713  # srli x14, x14, 25
    .word 0x00ef0733  # add x14, x30, x14
    .word 0xff7d0293  # addi x5, x26, -9
    .word 0xd6029ce3  # bne x5, x0, -648
    .word 0x1dc12303  # lw x6, 476(x2)
    .word 0x006502b3  # add x5, x10, x6
    .word 0x14512e23  # sw x5, 348(x2)
    .word 0x1e012303  # lw x6, 480(x2)
    .word 0x006582b3  # add x5, x11, x6
    .word 0x16512023  # sw x5, 352(x2)
    .word 0x1e412303  # lw x6, 484(x2)
    .word 0x006602b3  # add x5, x12, x6
    .word 0x16512223  # sw x5, 356(x2)
    .word 0x1e812303  # lw x6, 488(x2)
    .word 0x006682b3  # add x5, x13, x6
    .word 0x16512423  # sw x5, 360(x2)
    .word 0x1ec12303  # lw x6, 492(x2)
    .word 0x006702b3  # add x5, x14, x6
    .word 0x16512623  # sw x5, 364(x2)
    .word 0x1f012303  # lw x6, 496(x2)
    .word 0x006782b3  # add x5, x15, x6
    .word 0x16512823  # sw x5, 368(x2)
    .word 0x1f412303  # lw x6, 500(x2)
    .word 0x006802b3  # add x5, x16, x6
    .word 0x16512a23  # sw x5, 372(x2)
    .word 0x1f812303  # lw x6, 504(x2)
    .word 0x006882b3  # add x5, x17, x6
    .word 0x16512c23  # sw x5, 376(x2)
    .word 0x1fc12303  # lw x6, 508(x2)
    .word 0x006902b3  # add x5, x18, x6
    .word 0x16512e23  # sw x5, 380(x2)
    .word 0x20012303  # lw x6, 512(x2)
    .word 0x006982b3  # add x5, x19, x6
    .word 0x18512023  # sw x5, 384(x2)
    .word 0x20412303  # lw x6, 516(x2)
    .word 0x006a02b3  # add x5, x20, x6
    .word 0x18512223  # sw x5, 388(x2)
    .word 0x20812303  # lw x6, 520(x2)
    .word 0x006a82b3  # add x5, x21, x6
    .word 0x18512423  # sw x5, 392(x2)
    .word 0x20c12303  # lw x6, 524(x2)
    .word 0x006b02b3  # add x5, x22, x6
    .word 0x18512623  # sw x5, 396(x2)
    .word 0x21012303  # lw x6, 528(x2)
    .word 0x006b82b3  # add x5, x23, x6
    .word 0x18512823  # sw x5, 400(x2)
    .word 0x21412303  # lw x6, 532(x2)
    .word 0x006c02b3  # add x5, x24, x6
    .word 0x18512a23  # sw x5, 404(x2)
    .word 0x21812303  # lw x6, 536(x2)
    .word 0x006c82b3  # add x5, x25, x6
    .word 0x18512c23  # sw x5, 408(x2)
    .word 0x15812283  # lw x5, 344(x2)
    .word 0x00629d93  # slli x27, x5, 6
    .word 0x040d8293  # addi x5, x27, 64
    .word 0x15412303  # lw x6, 340(x2)
    .word 0x04536863  # bltu x6, x5, 80
    .word 0xfff00d13  # addi x26, x0, -1
    .word 0x001d0d13  # addi x26, x26, 1
    .word 0x01ad82b3  # add x5, x27, x26
    .word 0x01ad8333  # add x6, x27, x26
    .word 0x00230333  # add x6, x6, x2
    .word 0x03034303  # lbu x6, 48(x6)
    .word 0x002d5393  # srli x7, x26, 2
    .word 0x00239393  # slli x7, x7, 2
    .word 0x002383b3  # add x7, x7, x2
    .word 0x15c3a383  # lw x7, 348(x7)
    .word 0x003d7413  # andi x8, x26, 3
    .word 0x00341413  # slli x8, x8, 3
    .word 0x0083d3b3  # srl x7, x7, x8
    .word 0x00734333  # xor x6, x6, x7
    .word 0x002282b3  # add x5, x5, x2
    .word 0x02628823  # sb x6, 48(x5)
    .word 0xfc1d0293  # addi x5, x26, -63
    .word 0xfc0290e3  # bne x5, x0, -64
    .word 0x0c40006f  # jal x0, 196
    .word 0x19c00313  # addi x6, x0, 412
    .word 0x00230333  # add x6, x6, x2
    .word 0x04000393  # addi x7, x0, 64
    .word 0x006383b3  # add x7, x7, x6
    .word 0x406382b3  # sub x5, x7, x6
    .word 0x00029463  # bne x5, x0, 8
    .word 0x0100006f  # jal x0, 16
    .word 0x00032023  # sw x0, 0(x6)
    .word 0x00430313  # addi x6, x6, 4
    .word 0xfedff06f  # jal x0, -20
    .word 0xfff00d13  # addi x26, x0, -1
    .word 0x001d0d13  # addi x26, x26, 1
    .word 0x002d1313  # slli x6, x26, 2
    .word 0x00230333  # add x6, x6, x2
    .word 0x15c32303  # lw x6, 348(x6)
    .word 0x002d1293  # slli x5, x26, 2
    .word 0x002282b3  # add x5, x5, x2
    .word 0x1862ae23  # sw x6, 412(x5)
    .word 0xff1d0293  # addi x5, x26, -15
    .word 0xfe0290e3  # bne x5, x0, -32
    .word 0x23b12423  # sw x27, 552(x2)
    .word 0x15412283  # lw x5, 340(x2)
    .word 0x22512623  # sw x5, 556(x2)
    .word 0x22812303  # lw x6, 552(x2)
    .word 0x22c12283  # lw x5, 556(x2)
    .word 0x005332b3  # sltu x5, x6, x5
    .word 0x00029463  # bne x5, x0, 8
    .word 0x0540006f  # jal x0, 84
    .word 0x00030d93  # addi x27, x6, 0
    .word 0x002d8333  # add x6, x27, x2
    .word 0x03034303  # lbu x6, 48(x6)
    .word 0x03fdf393  # andi x7, x27, 63
    .word 0x0023d393  # srli x7, x7, 2
    .word 0x00239393  # slli x7, x7, 2
    .word 0x002383b3  # add x7, x7, x2
    .word 0x19c3a383  # lw x7, 412(x7)
    .word 0x003df413  # andi x8, x27, 3
    .word 0x00341413  # slli x8, x8, 3
    .word 0x0083d3b3  # srl x7, x7, x8
    .word 0x00734333  # xor x6, x6, x7
    .word 0x002d82b3  # add x5, x27, x2
    .word 0x02628823  # sb x6, 48(x5)
    .word 0x001d8d93  # addi x27, x27, 1
    .word 0x22c12283  # lw x5, 556(x2)
    .word 0x005db2b3  # sltu x5, x27, x5
    .word 0xfc0290e3  # bne x5, x0, -64
    .word 0xfffd8d93  # addi x27, x27, -1
    .word 0x0040006f  # jal x0, 4
    .word 0xaf9ff06f  # jal x0, -1288
    # the result
    .word 0x00000513  # addi x10, x0, 0
    # parameter 3: the array, back
    .word 0x03010293  # addi x5, x2, 48
    .word 0x26c12303  # lw x6, 620(x2)
    .word 0x10028393  # addi x7, x5, 256
    .word 0x0002ce03  # lbu x28, 0(x5)
    .word 0x01c30023  # sb x28, 0(x6)
    .word 0x00128293  # addi x5, x5, 1
    .word 0x00130313  # addi x6, x6, 1
    .word 0xfe7298e3  # bne x5, x7, -16
    # above the frame
    .word 0x23010293  # addi x5, x2, 560
    # the caller's registers
    .word 0x0002a403  # lw x8, 0(x5)
    .cfi_restore 8
    .word 0x0042a903  # lw x18, 4(x5)
    .cfi_restore 18
    .word 0x0082a983  # lw x19, 8(x5)
    .cfi_restore 19
    .word 0x00c2aa03  # lw x20, 12(x5)
    .cfi_restore 20
    .word 0x0102aa83  # lw x21, 16(x5)
    .cfi_restore 21
    .word 0x0142ab03  # lw x22, 20(x5)
    .cfi_restore 22
    .word 0x0182ab83  # lw x23, 24(x5)
    .cfi_restore 23
    .word 0x01c2ac03  # lw x24, 28(x5)
    .cfi_restore 24
    .word 0x0202ac83  # lw x25, 32(x5)
    .cfi_restore 25
    .word 0x0242ad03  # lw x26, 36(x5)
    .cfi_restore 26
    .word 0x0282ad83  # lw x27, 40(x5)
    .cfi_restore 27
    # the caller's x2
    .word 0x04028293  # addi x5, x5, 64
    .cfi_def_cfa 5, 0
    # on to the tail that functions share
    jal x0, factc.tail.1
    .cfi_endproc
    .size chacha20_blocks, . - chacha20_blocks
    .section .text.factc.tail.1, "axG", @progbits, factc.tail.1, comdat
    .p2align 2
    .globl factc.tail.1
    .hidden factc.tail.1
    .type factc.tail.1, @function
factc.tail.1:
    .cfi_startproc
    .cfi_def_cfa 5, 0
    # all the room, wiped upward
    .word 0x00012023  # sw x0, 0(x2)
    .word 0x00012223  # sw x0, 4(x2)
    .word 0x00012423  # sw x0, 8(x2)
    .word 0x00012623  # sw x0, 12(x2)
    .word 0x01010113  # addi x2, x2, 16
    .word 0xfe5116e3  # bne x2, x5, -20
    .cfi_def_cfa 2, 0
    # temporaries, wiped
    .word 0x00000293  # addi x5, x0, 0
    .word 0x00000313  # addi x6, x0, 0
    .word 0x00000393  # addi x7, x0, 0
    .word 0x00000593  # addi x11, x0, 0
    .word 0x00000613  # addi x12, x0, 0
    .word 0x00000693  # addi x13, x0, 0
    .word 0x00000713  # addi x14, x0, 0
    .word 0x00000793  # addi x15, x0, 0
    .word 0x00000813  # addi x16, x0, 0
    .word 0x00000893  # addi x17, x0, 0
    .word 0x00000e13  # addi x28, x0, 0
    .word 0x00000e93  # addi x29, x0, 0
    .word 0x00000f13  # addi x30, x0, 0
    .word 0x00000f93  # addi x31, x0, 0
    # back
    .word 0x00008067  # jalr x0, 0(x1)
    .cfi_endproc
    .size factc.tail.1, . - factc.tail.1
    .option pop
