# chacha20_blocks: made by factc 1.0.0 function; 691 words, 576 bytes of stack, profile 1
    .option push
    .option norvc
    .option norelax
    .cfi_sections .debug_frame
    .section .text.chacha20_blocks, "ax", @progbits
    .p2align 2
    .globl chacha20_blocks
    .type chacha20_blocks, @function
chacha20_blocks:
    .cfi_startproc
    # room above the frame
    .word 0xfc010113  # addi x2, x2, -64
    .cfi_def_cfa_offset 64
    # the caller's registers
    .word 0x00812023  # sw x8, 0(x2)
    .cfi_offset 8, -64
    .word 0x01212223  # sw x18, 4(x2)
    .cfi_offset 18, -60
    .word 0x01312423  # sw x19, 8(x2)
    .cfi_offset 19, -56
    .word 0x01412623  # sw x20, 12(x2)
    .cfi_offset 20, -52
    .word 0x01512823  # sw x21, 16(x2)
    .cfi_offset 21, -48
    .word 0x01612a23  # sw x22, 20(x2)
    .cfi_offset 22, -44
    .word 0x01712c23  # sw x23, 24(x2)
    .cfi_offset 23, -40
    .word 0x01812e23  # sw x24, 28(x2)
    .cfi_offset 24, -36
    .word 0x03912023  # sw x25, 32(x2)
    .cfi_offset 25, -32
    .word 0x03a12223  # sw x26, 36(x2)
    .cfi_offset 26, -28
    .word 0x03b12423  # sw x27, 40(x2)
    .cfi_offset 27, -24
    # arguments that are needed behind the body
    .word 0x02a12823  # sw x10, 48(x2)
    .word 0x02b12a23  # sw x11, 52(x2)
    .word 0x02c12c23  # sw x12, 56(x2)
    .word 0x02d12e23  # sw x13, 60(x2)
    # the frame's base
    .word 0xe0010113  # addi x2, x2, -512
    .cfi_def_cfa 2, 576
    # parameter 0: an array
    .word 0x00050293  # addi x5, x10, 0
    .word 0x00010313  # addi x6, x2, 0
    .word 0x02028393  # addi x7, x5, 32
    .word 0x24100f6f  # jal x30, 2624
    # parameter 1: a word
    .word 0x02b12023  # sw x11, 32(x2)
    # parameter 2: an array
    .word 0x00060293  # addi x5, x12, 0
    .word 0x02410313  # addi x6, x2, 36
    .word 0x00c28393  # addi x7, x5, 12
    .word 0x22d00f6f  # jal x30, 2604
    # parameter 3: an array
    .word 0x00068293  # addi x5, x13, 0
    .word 0x03010313  # addi x6, x2, 48
    .word 0x10028393  # addi x7, x5, 256
    .word 0x21d00f6f  # jal x30, 2588
    # parameter 4: a word
    .word 0x12e12823  # sw x14, 304(x2)
    # the body
    .word 0x00012283  # lw x5, 0(x2)
    .word 0x12512a23  # sw x5, 308(x2)
    .word 0x00412283  # lw x5, 4(x2)
    .word 0x12512c23  # sw x5, 312(x2)
    .word 0x00812283  # lw x5, 8(x2)
    .word 0x12512e23  # sw x5, 316(x2)
    .word 0x00c12283  # lw x5, 12(x2)
    .word 0x14512023  # sw x5, 320(x2)
    .word 0x01012283  # lw x5, 16(x2)
    .word 0x14512223  # sw x5, 324(x2)
    .word 0x01412283  # lw x5, 20(x2)
    .word 0x14512423  # sw x5, 328(x2)
    .word 0x01812283  # lw x5, 24(x2)
    .word 0x14512623  # sw x5, 332(x2)
    .word 0x01c12283  # lw x5, 28(x2)
    .word 0x14512823  # sw x5, 336(x2)
    .word 0x02412d03  # lw x26, 36(x2)
    .word 0x002d0db3  # add x27, x26, x2
    .word 0x02812283  # lw x5, 40(x2)
    .word 0x14512e23  # sw x5, 348(x2)
    .word 0x02c12283  # lw x5, 44(x2)
    .word 0x1a512023  # sw x5, 416(x2)
    .word 0x617082b7  # lui x5, 0x61708
    .word 0x86528293  # addi x5, x5, -1947
    .word 0x1a512223  # sw x5, 420(x2)
    .word 0x332062b7  # lui x5, 0x33206
    .word 0x46e28293  # addi x5, x5, 1134
    .word 0x1a512423  # sw x5, 424(x2)
    .word 0x796232b7  # lui x5, 0x79623
    .word 0xd3228293  # addi x5, x5, -718
    .word 0x1a512623  # sw x5, 428(x2)
    .word 0x6b2062b7  # lui x5, 0x6b206
    .word 0x57428293  # addi x5, x5, 1396
    .word 0x1a512823  # sw x5, 432(x2)
    .word 0x13412283  # lw x5, 308(x2)
    .word 0x1a512a23  # sw x5, 436(x2)
    .word 0x13812283  # lw x5, 312(x2)
    .word 0x1a512c23  # sw x5, 440(x2)
    .word 0x13c12283  # lw x5, 316(x2)
    .word 0x1a512e23  # sw x5, 444(x2)
    .word 0x14012283  # lw x5, 320(x2)
    .word 0x1c512023  # sw x5, 448(x2)
    .word 0x14412283  # lw x5, 324(x2)
    .word 0x1c512223  # sw x5, 452(x2)
    .word 0x14812283  # lw x5, 328(x2)
    .word 0x1c512423  # sw x5, 456(x2)
    .word 0x14c12283  # lw x5, 332(x2)
    .word 0x1c512623  # sw x5, 460(x2)
    .word 0x15012283  # lw x5, 336(x2)
    .word 0x1c512823  # sw x5, 464(x2)
    .word 0x1da12c23  # sw x26, 472(x2)
    .word 0x15c12283  # lw x5, 348(x2)
    .word 0x1c512e23  # sw x5, 476(x2)
    .word 0x1a012283  # lw x5, 416(x2)
    .word 0x1e512023  # sw x5, 480(x2)
    .word 0x13012283  # lw x5, 304(x2)
    .word 0x1002b293  # sltiu x5, x5, 256
    .word 0x13012303  # lw x6, 304(x2)
    .word 0x10000393  # addi x7, x0, 256
    .word 0x405002b3  # sub x5, x0, x5
    .word 0x00734333  # xor x6, x6, x7
    .word 0x00537333  # and x6, x6, x5
    .word 0x0063c2b3  # xor x5, x7, x6
    .word 0x10100313  # addi x6, x0, 257
    .word 0x0262f2b3  # remu x5, x5, x6
    .word 0x14512a23  # sw x5, 340(x2)
    .word 0x1e012423  # sw x0, 488(x2)
    .word 0x15412283  # lw x5, 340(x2)
    .word 0x03f28293  # addi x5, x5, 63
    .word 0x0062d293  # srli x5, x5, 6
    .word 0x1e512623  # sw x5, 492(x2)
    .word 0x1e812303  # lw x6, 488(x2)
    .word 0x1ec12283  # lw x5, 492(x2)
    .word 0x005332b3  # sltu x5, x6, x5
    .word 0x00029463  # bne x5, x0, 8
    .word 0x04d0006f  # jal x0, 2124
    .word 0x14612c23  # sw x6, 344(x2)
    .word 0x00130313  # addi x6, x6, 1
    .word 0x1e612423  # sw x6, 488(x2)
    .word 0x02012283  # lw x5, 32(x2)
    .word 0x15812303  # lw x6, 344(x2)
    .word 0x006282b3  # add x5, x5, x6
    .word 0x1c512a23  # sw x5, 468(x2)
    .word 0x1a412503  # lw x10, 420(x2)
    .word 0x1a812583  # lw x11, 424(x2)
    .word 0x1ac12603  # lw x12, 428(x2)
    .word 0x1b012683  # lw x13, 432(x2)
    .word 0x13412703  # lw x14, 308(x2)
    .word 0x13812783  # lw x15, 312(x2)
    .word 0x13c12803  # lw x16, 316(x2)
    .word 0x14012883  # lw x17, 320(x2)
    .word 0x14412903  # lw x18, 324(x2)
    .word 0x14812983  # lw x19, 328(x2)
    .word 0x14c12a03  # lw x20, 332(x2)
    .word 0x15012a83  # lw x21, 336(x2)
    .word 0x1d412b03  # lw x22, 468(x2)
    .word 0x1d812b83  # lw x23, 472(x2)
    .word 0x1dc12c03  # lw x24, 476(x2)
    .word 0x1e012c83  # lw x25, 480(x2)
    .word 0x1e012823  # sw x0, 496(x2)
    .word 0x00a00293  # addi x5, x0, 10
    .word 0x1e512a23  # sw x5, 500(x2)
    .word 0x1f012303  # lw x6, 496(x2)
    .word 0x1f412283  # lw x5, 500(x2)
    .word 0x005332b3  # sltu x5, x6, x5
    .word 0x00029463  # bne x5, x0, 8
    .word 0x2940006f  # jal x0, 660
    .word 0x14612e23  # sw x6, 348(x2)
    .word 0x00130313  # addi x6, x6, 1
    .word 0x1e612823  # sw x6, 496(x2)
    .word 0x00e50533  # add x10, x10, x14
    .word 0x00ab4b33  # xor x22, x22, x10
    .word 0x010b1f13  # slli x30, x22, 16
    .word 0x010b5b13  # srli x22, x22, 16
    .word 0x016f0b33  # add x22, x30, x22
    .word 0x01690933  # add x18, x18, x22
    .word 0x01274733  # xor x14, x14, x18
    .word 0x00c71f13  # slli x30, x14, 12
    .word 0x01475713  # srli x14, x14, 20
    .word 0x00ef0733  # add x14, x30, x14
    .word 0x00e50533  # add x10, x10, x14
    .word 0x00ab4b33  # xor x22, x22, x10
    .word 0x008b1f13  # slli x30, x22, 8
    .word 0x018b5b13  # srli x22, x22, 24
    .word 0x016f0b33  # add x22, x30, x22
    .word 0x01690933  # add x18, x18, x22
    .word 0x01274733  # xor x14, x14, x18
    .word 0x00771f13  # slli x30, x14, 7
    .word 0x01975713  # srli x14, x14, 25
    .word 0x00ef0733  # add x14, x30, x14
    .word 0x00f585b3  # add x11, x11, x15
    .word 0x00bbcbb3  # xor x23, x23, x11
    .word 0x010b9f13  # slli x30, x23, 16
    .word 0x010bdb93  # srli x23, x23, 16
    .word 0x017f0bb3  # add x23, x30, x23
    .word 0x017989b3  # add x19, x19, x23
    .word 0x0137c7b3  # xor x15, x15, x19
    .word 0x00c79f13  # slli x30, x15, 12
    .word 0x0147d793  # srli x15, x15, 20
    .word 0x00ff07b3  # add x15, x30, x15
    .word 0x00f585b3  # add x11, x11, x15
    .word 0x00bbcbb3  # xor x23, x23, x11
    .word 0x008b9f13  # slli x30, x23, 8
    .word 0x018bdb93  # srli x23, x23, 24
    .word 0x017f0bb3  # add x23, x30, x23
    .word 0x017989b3  # add x19, x19, x23
    .word 0x0137c7b3  # xor x15, x15, x19
    .word 0x00779f13  # slli x30, x15, 7
    .word 0x0197d793  # srli x15, x15, 25
    .word 0x00ff07b3  # add x15, x30, x15
    .word 0x01060633  # add x12, x12, x16
    .word 0x00cc4c33  # xor x24, x24, x12
    .word 0x010c1f13  # slli x30, x24, 16
    .word 0x010c5c13  # srli x24, x24, 16
    .word 0x018f0c33  # add x24, x30, x24
    .word 0x018a0a33  # add x20, x20, x24
    .word 0x01484833  # xor x16, x16, x20
    .word 0x00c81f13  # slli x30, x16, 12
    .word 0x01485813  # srli x16, x16, 20
    .word 0x010f0833  # add x16, x30, x16
    .word 0x01060633  # add x12, x12, x16
    .word 0x00cc4c33  # xor x24, x24, x12
    .word 0x008c1f13  # slli x30, x24, 8
    .word 0x018c5c13  # srli x24, x24, 24
    .word 0x018f0c33  # add x24, x30, x24
    .word 0x018a0a33  # add x20, x20, x24
    .word 0x01484833  # xor x16, x16, x20
    .word 0x00781f13  # slli x30, x16, 7
    .word 0x01985813  # srli x16, x16, 25
    .word 0x010f0833  # add x16, x30, x16
    .word 0x011686b3  # add x13, x13, x17
    .word 0x00dcccb3  # xor x25, x25, x13
    .word 0x010c9f13  # slli x30, x25, 16
    .word 0x010cdc93  # srli x25, x25, 16
    .word 0x019f0cb3  # add x25, x30, x25
    .word 0x019a8ab3  # add x21, x21, x25
    .word 0x0158c8b3  # xor x17, x17, x21
    .word 0x00c89f13  # slli x30, x17, 12
    .word 0x0148d893  # srli x17, x17, 20
    .word 0x011f08b3  # add x17, x30, x17
    .word 0x011686b3  # add x13, x13, x17
    .word 0x00dcccb3  # xor x25, x25, x13
    .word 0x008c9f13  # slli x30, x25, 8
    .word 0x018cdc93  # srli x25, x25, 24
    .word 0x019f0cb3  # add x25, x30, x25
    .word 0x019a8ab3  # add x21, x21, x25
    .word 0x0158c8b3  # xor x17, x17, x21
    .word 0x00789f13  # slli x30, x17, 7
    .word 0x0198d893  # srli x17, x17, 25
    .word 0x011f08b3  # add x17, x30, x17
    .word 0x00f50533  # add x10, x10, x15
    .word 0x00acccb3  # xor x25, x25, x10
    .word 0x010c9f13  # slli x30, x25, 16
    .word 0x010cdc93  # srli x25, x25, 16
    .word 0x019f0cb3  # add x25, x30, x25
    .word 0x019a0a33  # add x20, x20, x25
    .word 0x0147c7b3  # xor x15, x15, x20
    .word 0x00c79f13  # slli x30, x15, 12
    .word 0x0147d793  # srli x15, x15, 20
    .word 0x00ff07b3  # add x15, x30, x15
    .word 0x00f50533  # add x10, x10, x15
    .word 0x00acccb3  # xor x25, x25, x10
    .word 0x008c9f13  # slli x30, x25, 8
    .word 0x018cdc93  # srli x25, x25, 24
    .word 0x019f0cb3  # add x25, x30, x25
    .word 0x019a0a33  # add x20, x20, x25
    .word 0x0147c7b3  # xor x15, x15, x20
    .word 0x00779f13  # slli x30, x15, 7
    .word 0x0197d793  # srli x15, x15, 25
    .word 0x00ff07b3  # add x15, x30, x15
    .word 0x010585b3  # add x11, x11, x16
    .word 0x00bb4b33  # xor x22, x22, x11
    .word 0x010b1f13  # slli x30, x22, 16
    .word 0x010b5b13  # srli x22, x22, 16
    .word 0x016f0b33  # add x22, x30, x22
    .word 0x016a8ab3  # add x21, x21, x22
    .word 0x01584833  # xor x16, x16, x21
    .word 0x00c81f13  # slli x30, x16, 12
    .word 0x01485813  # srli x16, x16, 20
    .word 0x010f0833  # add x16, x30, x16
    .word 0x010585b3  # add x11, x11, x16
    .word 0x00bb4b33  # xor x22, x22, x11
    .word 0x008b1f13  # slli x30, x22, 8
    .word 0x018b5b13  # srli x22, x22, 24
    .word 0x016f0b33  # add x22, x30, x22
    .word 0x016a8ab3  # add x21, x21, x22
    .word 0x01584833  # xor x16, x16, x21
    .word 0x00781f13  # slli x30, x16, 7
    .word 0x01985813  # srli x16, x16, 25
    .word 0x010f0833  # add x16, x30, x16
    .word 0x01160633  # add x12, x12, x17
    .word 0x00cbcbb3  # xor x23, x23, x12
    .word 0x010b9f13  # slli x30, x23, 16
    .word 0x010bdb93  # srli x23, x23, 16
    .word 0x017f0bb3  # add x23, x30, x23
    .word 0x01790933  # add x18, x18, x23
    .word 0x0128c8b3  # xor x17, x17, x18
    .word 0x00c89f13  # slli x30, x17, 12
    .word 0x0148d893  # srli x17, x17, 20
    .word 0x011f08b3  # add x17, x30, x17
    .word 0x01160633  # add x12, x12, x17
    .word 0x00cbcbb3  # xor x23, x23, x12
    .word 0x008b9f13  # slli x30, x23, 8
    .word 0x018bdb93  # srli x23, x23, 24
    .word 0x017f0bb3  # add x23, x30, x23
    .word 0x01790933  # add x18, x18, x23
    .word 0x0128c8b3  # xor x17, x17, x18
    .word 0x00789f13  # slli x30, x17, 7
    .word 0x0198d893  # srli x17, x17, 25
    .word 0x011f08b3  # add x17, x30, x17
    .word 0x00e686b3  # add x13, x13, x14
    .word 0x00dc4c33  # xor x24, x24, x13
    .word 0x010c1f13  # slli x30, x24, 16
    .word 0x010c5c13  # srli x24, x24, 16
    .word 0x018f0c33  # add x24, x30, x24
    .word 0x018989b3  # add x19, x19, x24
    .word 0x01374733  # xor x14, x14, x19
    .word 0x00c71f13  # slli x30, x14, 12
    .word 0x01475713  # srli x14, x14, 20
    .word 0x00ef0733  # add x14, x30, x14
    .word 0x00e686b3  # add x13, x13, x14
    .word 0x00dc4c33  # xor x24, x24, x13
    .word 0x008c1f13  # slli x30, x24, 8
    .word 0x018c5c13  # srli x24, x24, 24
    .word 0x018f0c33  # add x24, x30, x24
    .word 0x018989b3  # add x19, x19, x24
    .word 0x01374733  # xor x14, x14, x19
    .word 0x00771f13  # slli x30, x14, 7
    .word 0x01975713  # srli x14, x14, 25
    .word 0x00ef0733  # add x14, x30, x14
    .word 0xd61ff06f  # jal x0, -672
    .word 0x1a412303  # lw x6, 420(x2)
    .word 0x00650533  # add x10, x10, x6
    .word 0x1a812303  # lw x6, 424(x2)
    .word 0x006585b3  # add x11, x11, x6
    .word 0x1ac12303  # lw x6, 428(x2)
    .word 0x00660633  # add x12, x12, x6
    .word 0x1b012303  # lw x6, 432(x2)
    .word 0x006686b3  # add x13, x13, x6
    .word 0x1b412303  # lw x6, 436(x2)
    .word 0x00670733  # add x14, x14, x6
    .word 0x1b812303  # lw x6, 440(x2)
    .word 0x006787b3  # add x15, x15, x6
    .word 0x1bc12303  # lw x6, 444(x2)
    .word 0x00680833  # add x16, x16, x6
    .word 0x1c012303  # lw x6, 448(x2)
    .word 0x006888b3  # add x17, x17, x6
    .word 0x1c412303  # lw x6, 452(x2)
    .word 0x00690933  # add x18, x18, x6
    .word 0x1c812303  # lw x6, 456(x2)
    .word 0x006989b3  # add x19, x19, x6
    .word 0x1cc12303  # lw x6, 460(x2)
    .word 0x006a0a33  # add x20, x20, x6
    .word 0x1d012303  # lw x6, 464(x2)
    .word 0x006a8ab3  # add x21, x21, x6
    .word 0x1d412303  # lw x6, 468(x2)
    .word 0x006b0b33  # add x22, x22, x6
    .word 0x1d812303  # lw x6, 472(x2)
    .word 0x006b8bb3  # add x23, x23, x6
    .word 0x1dc12303  # lw x6, 476(x2)
    .word 0x006c0c33  # add x24, x24, x6
    .word 0x1e012303  # lw x6, 480(x2)
    .word 0x006c8cb3  # add x25, x25, x6
    .word 0x15812283  # lw x5, 344(x2)
    .word 0x00629d13  # slli x26, x5, 6
    .word 0x002d0db3  # add x27, x26, x2
    .word 0x040d0293  # addi x5, x26, 64
    .word 0x15412303  # lw x6, 340(x2)
    .word 0x3c536463  # bltu x6, x5, 968
    .word 0x030dc283  # lbu x5, 48(x27)
    .word 0x00a2c2b3  # xor x5, x5, x10
    .word 0x025d8823  # sb x5, 48(x27)
    .word 0x031dc283  # lbu x5, 49(x27)
    .word 0x00855313  # srli x6, x10, 8
    .word 0x0062c2b3  # xor x5, x5, x6
    .word 0x025d88a3  # sb x5, 49(x27)
    .word 0x032dc283  # lbu x5, 50(x27)
    .word 0x01055313  # srli x6, x10, 16
    .word 0x0062c2b3  # xor x5, x5, x6
    .word 0x025d8923  # sb x5, 50(x27)
    .word 0x033dc283  # lbu x5, 51(x27)
    .word 0x01855313  # srli x6, x10, 24
    .word 0x0062c2b3  # xor x5, x5, x6
    .word 0x025d89a3  # sb x5, 51(x27)
    .word 0x034dc283  # lbu x5, 52(x27)
    .word 0x00b2c2b3  # xor x5, x5, x11
    .word 0x025d8a23  # sb x5, 52(x27)
    .word 0x035dc283  # lbu x5, 53(x27)
    .word 0x0085d313  # srli x6, x11, 8
    .word 0x0062c2b3  # xor x5, x5, x6
    .word 0x025d8aa3  # sb x5, 53(x27)
    .word 0x036dc283  # lbu x5, 54(x27)
    .word 0x0105d313  # srli x6, x11, 16
    .word 0x0062c2b3  # xor x5, x5, x6
    .word 0x025d8b23  # sb x5, 54(x27)
    .word 0x037dc283  # lbu x5, 55(x27)
    .word 0x0185d313  # srli x6, x11, 24
    .word 0x0062c2b3  # xor x5, x5, x6
    .word 0x025d8ba3  # sb x5, 55(x27)
    .word 0x038dc283  # lbu x5, 56(x27)
    .word 0x00c2c2b3  # xor x5, x5, x12
    .word 0x025d8c23  # sb x5, 56(x27)
    .word 0x039dc283  # lbu x5, 57(x27)
    .word 0x00865313  # srli x6, x12, 8
    .word 0x0062c2b3  # xor x5, x5, x6
    .word 0x025d8ca3  # sb x5, 57(x27)
    .word 0x03adc283  # lbu x5, 58(x27)
    .word 0x01065313  # srli x6, x12, 16
    .word 0x0062c2b3  # xor x5, x5, x6
    .word 0x025d8d23  # sb x5, 58(x27)
    .word 0x03bdc283  # lbu x5, 59(x27)
    .word 0x01865313  # srli x6, x12, 24
    .word 0x0062c2b3  # xor x5, x5, x6
    .word 0x025d8da3  # sb x5, 59(x27)
    .word 0x03cdc283  # lbu x5, 60(x27)
    .word 0x00d2c2b3  # xor x5, x5, x13
    .word 0x025d8e23  # sb x5, 60(x27)
    .word 0x03ddc283  # lbu x5, 61(x27)
    .word 0x0086d313  # srli x6, x13, 8
    .word 0x0062c2b3  # xor x5, x5, x6
    .word 0x025d8ea3  # sb x5, 61(x27)
    .word 0x03edc283  # lbu x5, 62(x27)
    .word 0x0106d313  # srli x6, x13, 16
    .word 0x0062c2b3  # xor x5, x5, x6
    .word 0x025d8f23  # sb x5, 62(x27)
    .word 0x03fdc283  # lbu x5, 63(x27)
    .word 0x0186d313  # srli x6, x13, 24
    .word 0x0062c2b3  # xor x5, x5, x6
    .word 0x025d8fa3  # sb x5, 63(x27)
    .word 0x040dc283  # lbu x5, 64(x27)
    .word 0x00e2c2b3  # xor x5, x5, x14
    .word 0x045d8023  # sb x5, 64(x27)
    .word 0x041dc283  # lbu x5, 65(x27)
    .word 0x00875313  # srli x6, x14, 8
    .word 0x0062c2b3  # xor x5, x5, x6
    .word 0x045d80a3  # sb x5, 65(x27)
    .word 0x042dc283  # lbu x5, 66(x27)
    .word 0x01075313  # srli x6, x14, 16
    .word 0x0062c2b3  # xor x5, x5, x6
    .word 0x045d8123  # sb x5, 66(x27)
    .word 0x043dc283  # lbu x5, 67(x27)
    .word 0x01875313  # srli x6, x14, 24
    .word 0x0062c2b3  # xor x5, x5, x6
    .word 0x045d81a3  # sb x5, 67(x27)
    .word 0x044dc283  # lbu x5, 68(x27)
    .word 0x00f2c2b3  # xor x5, x5, x15
    .word 0x045d8223  # sb x5, 68(x27)
    .word 0x045dc283  # lbu x5, 69(x27)
    .word 0x0087d313  # srli x6, x15, 8
    .word 0x0062c2b3  # xor x5, x5, x6
    .word 0x045d82a3  # sb x5, 69(x27)
    .word 0x046dc283  # lbu x5, 70(x27)
    .word 0x0107d313  # srli x6, x15, 16
    .word 0x0062c2b3  # xor x5, x5, x6
    .word 0x045d8323  # sb x5, 70(x27)
    .word 0x047dc283  # lbu x5, 71(x27)
    .word 0x0187d313  # srli x6, x15, 24
    .word 0x0062c2b3  # xor x5, x5, x6
    .word 0x045d83a3  # sb x5, 71(x27)
    .word 0x048dc283  # lbu x5, 72(x27)
    .word 0x0102c2b3  # xor x5, x5, x16
    .word 0x045d8423  # sb x5, 72(x27)
    .word 0x049dc283  # lbu x5, 73(x27)
    .word 0x00885313  # srli x6, x16, 8
    .word 0x0062c2b3  # xor x5, x5, x6
    .word 0x045d84a3  # sb x5, 73(x27)
    .word 0x04adc283  # lbu x5, 74(x27)
    .word 0x01085313  # srli x6, x16, 16
    .word 0x0062c2b3  # xor x5, x5, x6
    .word 0x045d8523  # sb x5, 74(x27)
    .word 0x04bdc283  # lbu x5, 75(x27)
    .word 0x01885313  # srli x6, x16, 24
    .word 0x0062c2b3  # xor x5, x5, x6
    .word 0x045d85a3  # sb x5, 75(x27)
    .word 0x04cdc283  # lbu x5, 76(x27)
    .word 0x0112c2b3  # xor x5, x5, x17
    .word 0x045d8623  # sb x5, 76(x27)
    .word 0x04ddc283  # lbu x5, 77(x27)
    .word 0x0088d313  # srli x6, x17, 8
    .word 0x0062c2b3  # xor x5, x5, x6
    .word 0x045d86a3  # sb x5, 77(x27)
    .word 0x04edc283  # lbu x5, 78(x27)
    .word 0x0108d313  # srli x6, x17, 16
    .word 0x0062c2b3  # xor x5, x5, x6
    .word 0x045d8723  # sb x5, 78(x27)
    .word 0x04fdc283  # lbu x5, 79(x27)
    .word 0x0188d313  # srli x6, x17, 24
    .word 0x0062c2b3  # xor x5, x5, x6
    .word 0x045d87a3  # sb x5, 79(x27)
    .word 0x050dc283  # lbu x5, 80(x27)
    .word 0x0122c2b3  # xor x5, x5, x18
    .word 0x045d8823  # sb x5, 80(x27)
    .word 0x051dc283  # lbu x5, 81(x27)
    .word 0x00895313  # srli x6, x18, 8
    .word 0x0062c2b3  # xor x5, x5, x6
    .word 0x045d88a3  # sb x5, 81(x27)
    .word 0x052dc283  # lbu x5, 82(x27)
    .word 0x01095313  # srli x6, x18, 16
    .word 0x0062c2b3  # xor x5, x5, x6
    .word 0x045d8923  # sb x5, 82(x27)
    .word 0x053dc283  # lbu x5, 83(x27)
    .word 0x01895313  # srli x6, x18, 24
    .word 0x0062c2b3  # xor x5, x5, x6
    .word 0x045d89a3  # sb x5, 83(x27)
    .word 0x054dc283  # lbu x5, 84(x27)
    .word 0x0132c2b3  # xor x5, x5, x19
    .word 0x045d8a23  # sb x5, 84(x27)
    .word 0x055dc283  # lbu x5, 85(x27)
    .word 0x0089d313  # srli x6, x19, 8
    .word 0x0062c2b3  # xor x5, x5, x6
    .word 0x045d8aa3  # sb x5, 85(x27)
    .word 0x056dc283  # lbu x5, 86(x27)
    .word 0x0109d313  # srli x6, x19, 16
    .word 0x0062c2b3  # xor x5, x5, x6
    .word 0x045d8b23  # sb x5, 86(x27)
    .word 0x057dc283  # lbu x5, 87(x27)
    .word 0x0189d313  # srli x6, x19, 24
    .word 0x0062c2b3  # xor x5, x5, x6
    .word 0x045d8ba3  # sb x5, 87(x27)
    .word 0x058dc283  # lbu x5, 88(x27)
    .word 0x0142c2b3  # xor x5, x5, x20
    .word 0x045d8c23  # sb x5, 88(x27)
    .word 0x059dc283  # lbu x5, 89(x27)
    .word 0x008a5313  # srli x6, x20, 8
    .word 0x0062c2b3  # xor x5, x5, x6
    .word 0x045d8ca3  # sb x5, 89(x27)
    .word 0x05adc283  # lbu x5, 90(x27)
    .word 0x010a5313  # srli x6, x20, 16
    .word 0x0062c2b3  # xor x5, x5, x6
    .word 0x045d8d23  # sb x5, 90(x27)
    .word 0x05bdc283  # lbu x5, 91(x27)
    .word 0x018a5313  # srli x6, x20, 24
    .word 0x0062c2b3  # xor x5, x5, x6
    .word 0x045d8da3  # sb x5, 91(x27)
    .word 0x05cdc283  # lbu x5, 92(x27)
    .word 0x0152c2b3  # xor x5, x5, x21
    .word 0x045d8e23  # sb x5, 92(x27)
    .word 0x05ddc283  # lbu x5, 93(x27)
    .word 0x008ad313  # srli x6, x21, 8
    .word 0x0062c2b3  # xor x5, x5, x6
    .word 0x045d8ea3  # sb x5, 93(x27)
    .word 0x05edc283  # lbu x5, 94(x27)
    .word 0x010ad313  # srli x6, x21, 16
    .word 0x0062c2b3  # xor x5, x5, x6
    .word 0x045d8f23  # sb x5, 94(x27)
    .word 0x05fdc283  # lbu x5, 95(x27)
    .word 0x018ad313  # srli x6, x21, 24
    .word 0x0062c2b3  # xor x5, x5, x6
    .word 0x045d8fa3  # sb x5, 95(x27)
    .word 0x060dc283  # lbu x5, 96(x27)
    .word 0x0162c2b3  # xor x5, x5, x22
    .word 0x065d8023  # sb x5, 96(x27)
    .word 0x061dc283  # lbu x5, 97(x27)
    .word 0x008b5313  # srli x6, x22, 8
    .word 0x0062c2b3  # xor x5, x5, x6
    .word 0x065d80a3  # sb x5, 97(x27)
    .word 0x062dc283  # lbu x5, 98(x27)
    .word 0x010b5313  # srli x6, x22, 16
    .word 0x0062c2b3  # xor x5, x5, x6
    .word 0x065d8123  # sb x5, 98(x27)
    .word 0x063dc283  # lbu x5, 99(x27)
    .word 0x018b5313  # srli x6, x22, 24
    .word 0x0062c2b3  # xor x5, x5, x6
    .word 0x065d81a3  # sb x5, 99(x27)
    .word 0x064dc283  # lbu x5, 100(x27)
    .word 0x0172c2b3  # xor x5, x5, x23
    .word 0x065d8223  # sb x5, 100(x27)
    .word 0x065dc283  # lbu x5, 101(x27)
    .word 0x008bd313  # srli x6, x23, 8
    .word 0x0062c2b3  # xor x5, x5, x6
    .word 0x065d82a3  # sb x5, 101(x27)
    .word 0x066dc283  # lbu x5, 102(x27)
    .word 0x010bd313  # srli x6, x23, 16
    .word 0x0062c2b3  # xor x5, x5, x6
    .word 0x065d8323  # sb x5, 102(x27)
    .word 0x067dc283  # lbu x5, 103(x27)
    .word 0x018bd313  # srli x6, x23, 24
    .word 0x0062c2b3  # xor x5, x5, x6
    .word 0x065d83a3  # sb x5, 103(x27)
    .word 0x068dc283  # lbu x5, 104(x27)
    .word 0x0182c2b3  # xor x5, x5, x24
    .word 0x065d8423  # sb x5, 104(x27)
    .word 0x069dc283  # lbu x5, 105(x27)
    .word 0x008c5313  # srli x6, x24, 8
    .word 0x0062c2b3  # xor x5, x5, x6
    .word 0x065d84a3  # sb x5, 105(x27)
    .word 0x06adc283  # lbu x5, 106(x27)
    .word 0x010c5313  # srli x6, x24, 16
    .word 0x0062c2b3  # xor x5, x5, x6
    .word 0x065d8523  # sb x5, 106(x27)
    .word 0x06bdc283  # lbu x5, 107(x27)
    .word 0x018c5313  # srli x6, x24, 24
    .word 0x0062c2b3  # xor x5, x5, x6
    .word 0x065d85a3  # sb x5, 107(x27)
    .word 0x06cdc283  # lbu x5, 108(x27)
    .word 0x0192c2b3  # xor x5, x5, x25
    .word 0x065d8623  # sb x5, 108(x27)
    .word 0x06ddc283  # lbu x5, 109(x27)
    .word 0x008cd313  # srli x6, x25, 8
    .word 0x0062c2b3  # xor x5, x5, x6
    .word 0x065d86a3  # sb x5, 109(x27)
    .word 0x06edc283  # lbu x5, 110(x27)
    .word 0x010cd313  # srli x6, x25, 16
    .word 0x0062c2b3  # xor x5, x5, x6
    .word 0x065d8723  # sb x5, 110(x27)
    .word 0x06fdc283  # lbu x5, 111(x27)
    .word 0x018cd313  # srli x6, x25, 24
    .word 0x0062c2b3  # xor x5, x5, x6
    .word 0x065d87a3  # sb x5, 111(x27)
    .word 0x0e00006f  # jal x0, 224
    .word 0x16000313  # addi x6, x0, 352
    .word 0x00230333  # add x6, x6, x2
    .word 0x04000393  # addi x7, x0, 64
    .word 0x006383b3  # add x7, x7, x6
    .word 0x406382b3  # sub x5, x7, x6
    .word 0x00029463  # bne x5, x0, 8
    .word 0x0100006f  # jal x0, 16
    .word 0x00032023  # sw x0, 0(x6)
    .word 0x00430313  # addi x6, x6, 4
    .word 0xfedff06f  # jal x0, -20
    .word 0x16a12023  # sw x10, 352(x2)
    .word 0x16b12223  # sw x11, 356(x2)
    .word 0x16c12423  # sw x12, 360(x2)
    .word 0x16d12623  # sw x13, 364(x2)
    .word 0x16e12823  # sw x14, 368(x2)
    .word 0x16f12a23  # sw x15, 372(x2)
    .word 0x17012c23  # sw x16, 376(x2)
    .word 0x17112e23  # sw x17, 380(x2)
    .word 0x19212023  # sw x18, 384(x2)
    .word 0x19312223  # sw x19, 388(x2)
    .word 0x19412423  # sw x20, 392(x2)
    .word 0x19512623  # sw x21, 396(x2)
    .word 0x19612823  # sw x22, 400(x2)
    .word 0x19712a23  # sw x23, 404(x2)
    .word 0x19812c23  # sw x24, 408(x2)
    .word 0x19912e23  # sw x25, 412(x2)
    .word 0x1fa12823  # sw x26, 496(x2)
    .word 0x15412283  # lw x5, 340(x2)
    .word 0x1e512a23  # sw x5, 500(x2)
    .word 0x1f012303  # lw x6, 496(x2)
    .word 0x1f412283  # lw x5, 500(x2)
    .word 0x005332b3  # sltu x5, x6, x5
    .word 0x00029463  # bne x5, x0, 8
    .word 0x0580006f  # jal x0, 88
    .word 0x1a612023  # sw x6, 416(x2)
    .word 0x00130313  # addi x6, x6, 1
    .word 0x1e612823  # sw x6, 496(x2)
    .word 0x1a012283  # lw x5, 416(x2)
    .word 0x1a012303  # lw x6, 416(x2)
    .word 0x00230333  # add x6, x6, x2
    .word 0x03034303  # lbu x6, 48(x6)
    .word 0x1a012383  # lw x7, 416(x2)
    .word 0x03f3f393  # andi x7, x7, 63
    .word 0x0023d393  # srli x7, x7, 2
    .word 0x00239393  # slli x7, x7, 2
    .word 0x002383b3  # add x7, x7, x2
    .word 0x1603a383  # lw x7, 352(x7)
    .word 0x1a012403  # lw x8, 416(x2)
    .word 0x00347413  # andi x8, x8, 3
    .word 0x00341413  # slli x8, x8, 3
    .word 0x0083d3b3  # srl x7, x7, x8
    .word 0x00734333  # xor x6, x6, x7
    .word 0x002282b3  # add x5, x5, x2
    .word 0x02628823  # sb x6, 48(x5)
    .word 0xf9dff06f  # jal x0, -100
    .word 0xfa8ff06f  # jal x0, -2136
    # the result
    .word 0x00000513  # addi x10, x0, 0
    # parameter 3: the array, back
    .word 0x03010293  # addi x5, x2, 48
    .word 0x23c12303  # lw x6, 572(x2)
    .word 0x10028393  # addi x7, x5, 256
    .word 0x08c00f6f  # jal x30, 140
    # above the frame
    .word 0x20010293  # addi x5, x2, 512
    # the caller's registers
    .word 0x0002a403  # lw x8, 0(x5)
    .cfi_restore 8
    .word 0x0042a903  # lw x18, 4(x5)
    .cfi_restore 18
    .word 0x0082a983  # lw x19, 8(x5)
    .cfi_restore 19
    .word 0x00c2aa03  # lw x20, 12(x5)
    .cfi_restore 20
    .word 0x0102aa83  # lw x21, 16(x5)
    .cfi_restore 21
    .word 0x0142ab03  # lw x22, 20(x5)
    .cfi_restore 22
    .word 0x0182ab83  # lw x23, 24(x5)
    .cfi_restore 23
    .word 0x01c2ac03  # lw x24, 28(x5)
    .cfi_restore 24
    .word 0x0202ac83  # lw x25, 32(x5)
    .cfi_restore 25
    .word 0x0242ad03  # lw x26, 36(x5)
    .cfi_restore 26
    .word 0x0282ad83  # lw x27, 40(x5)
    .cfi_restore 27
    # the caller's x2
    .word 0x04028293  # addi x5, x5, 64
    .cfi_def_cfa 5, 0
    # all the room, wiped upward
    .word 0x00012023  # sw x0, 0(x2)
    .word 0x00012223  # sw x0, 4(x2)
    .word 0x00012423  # sw x0, 8(x2)
    .word 0x00012623  # sw x0, 12(x2)
    .word 0x01010113  # addi x2, x2, 16
    .word 0xfe5116e3  # bne x2, x5, -20
    .cfi_def_cfa 2, 0
    # temporaries, wiped
    .word 0x00000293  # addi x5, x0, 0
    .word 0x00000313  # addi x6, x0, 0
    .word 0x00000393  # addi x7, x0, 0
    .word 0x00000593  # addi x11, x0, 0
    .word 0x00000613  # addi x12, x0, 0
    .word 0x00000693  # addi x13, x0, 0
    .word 0x00000713  # addi x14, x0, 0
    .word 0x00000793  # addi x15, x0, 0
    .word 0x00000813  # addi x16, x0, 0
    .word 0x00000893  # addi x17, x0, 0
    .word 0x00000e13  # addi x28, x0, 0
    .word 0x00000e93  # addi x29, x0, 0
    .word 0x00000f13  # addi x30, x0, 0
    .word 0x00000f93  # addi x31, x0, 0
    # back
    .word 0x00008067  # jalr x0, 0(x1)
    # from x5 to x6 up to x7, and back
    .cfi_def_cfa 2, 576
    .cfi_offset 8, -64
    .cfi_offset 18, -60
    .cfi_offset 19, -56
    .cfi_offset 20, -52
    .cfi_offset 21, -48
    .cfi_offset 22, -44
    .cfi_offset 23, -40
    .cfi_offset 24, -36
    .cfi_offset 25, -32
    .cfi_offset 26, -28
    .cfi_offset 27, -24
    .word 0x0062ee33  # or x28, x5, x6
    .word 0x003e7e13  # andi x28, x28, 3
    .word 0x000e0e63  # beq x28, x0, 28
    .word 0x0002ce03  # lbu x28, 0(x5)
    .word 0x01c30023  # sb x28, 0(x6)
    .word 0x00128293  # addi x5, x5, 1
    .word 0x00130313  # addi x6, x6, 1
    .word 0xfe7298e3  # bne x5, x7, -16
    .word 0x0180006f  # jal x0, 24
    .word 0x0002ae03  # lw x28, 0(x5)
    .word 0x01c32023  # sw x28, 0(x6)
    .word 0x00428293  # addi x5, x5, 4
    .word 0x00430313  # addi x6, x6, 4
    .word 0xfe7298e3  # bne x5, x7, -16
    .word 0x000f0067  # jalr x0, 0(x30)
    .cfi_endproc
    .size chacha20_blocks, . - chacha20_blocks
    .option pop
