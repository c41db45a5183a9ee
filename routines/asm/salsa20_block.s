# salsa20_block: made by factc 1.0.0 function; 333 words, 224 bytes of stack, profile 1
    .option push
    .option norvc
    .option norelax
    .cfi_sections .debug_frame
    .section .text.salsa20_block, "ax", @progbits
    .p2align 2
    .globl salsa20_block
    .type salsa20_block, @function
salsa20_block:
    .cfi_startproc
    # room above the frame
    .word 0xfc010113  # addi x2, x2, -64
    .cfi_def_cfa_offset 64
    # the caller's registers
    .word 0x00812023  # sw x8, 0(x2)
    .cfi_offset 8, -64
    .word 0x00912223  # sw x9, 4(x2)
    .cfi_offset 9, -60
    .word 0x01212423  # sw x18, 8(x2)
    .cfi_offset 18, -56
    .word 0x01312623  # sw x19, 12(x2)
    .cfi_offset 19, -52
    .word 0x01412823  # sw x20, 16(x2)
    .cfi_offset 20, -48
    .word 0x01512a23  # sw x21, 20(x2)
    .cfi_offset 21, -44
    .word 0x01612c23  # sw x22, 24(x2)
    .cfi_offset 22, -40
    .word 0x01712e23  # sw x23, 28(x2)
    .cfi_offset 23, -36
    .word 0x03812023  # sw x24, 32(x2)
    .cfi_offset 24, -32
    .word 0x03912223  # sw x25, 36(x2)
    .cfi_offset 25, -28
    .word 0x03a12423  # sw x26, 40(x2)
    .cfi_offset 26, -24
    .word 0x03b12623  # sw x27, 44(x2)
    .cfi_offset 27, -20
    # arguments that are needed behind the body
    .word 0x02a12823  # sw x10, 48(x2)
    .word 0x02b12a23  # sw x11, 52(x2)
    .word 0x02c12c23  # sw x12, 56(x2)
    .word 0x02d12e23  # sw x13, 60(x2)
    # the frame's base
    .word 0xf6010113  # addi x2, x2, -160
    .cfi_def_cfa 2, 224
    # parameter 0: an array
    .word 0x00050293  # addi x5, x10, 0
    .word 0x00010313  # addi x6, x2, 0
    .word 0x02028393  # addi x7, x5, 32
    .word 0x49c00f6f  # jal x30, 1180
    # parameter 1: an array
    .word 0x00058293  # addi x5, x11, 0
    .word 0x02010313  # addi x6, x2, 32
    .word 0x00828393  # addi x7, x5, 8
    .word 0x48c00f6f  # jal x30, 1164
    # parameter 2: an array
    .word 0x00060293  # addi x5, x12, 0
    .word 0x02810313  # addi x6, x2, 40
    .word 0x0002ae03  # lw x28, 0(x5)
    .word 0x01c32023  # sw x28, 0(x6)
    .word 0x0042ae03  # lw x28, 4(x5)
    .word 0x01c32223  # sw x28, 4(x6)
    # the body
    .word 0x61708537  # lui x10, 0x61708
    .word 0x86550513  # addi x10, x10, -1947
    .word 0x00012583  # lw x11, 0(x2)
    .word 0x00412603  # lw x12, 4(x2)
    .word 0x00812683  # lw x13, 8(x2)
    .word 0x00c12703  # lw x14, 12(x2)
    .word 0x332067b7  # lui x15, 0x33206
    .word 0x46e78793  # addi x15, x15, 1134
    .word 0x02012803  # lw x16, 32(x2)
    .word 0x02412883  # lw x17, 36(x2)
    .word 0x02812903  # lw x18, 40(x2)
    .word 0x02c12983  # lw x19, 44(x2)
    .word 0x79623a37  # lui x20, 0x79623
    .word 0xd32a0a13  # addi x20, x20, -718
    .word 0x01012a83  # lw x21, 16(x2)
    .word 0x01412b03  # lw x22, 20(x2)
    .word 0x01812b83  # lw x23, 24(x2)
    .word 0x01c12c03  # lw x24, 28(x2)
    .word 0x6b206cb7  # lui x25, 0x6b206
    .word 0x574c8c93  # addi x25, x25, 1396
    .word 0x00058d13  # addi x26, x11, 0
    .word 0x00060d93  # addi x27, x12, 0
    .word 0x06d12823  # sw x13, 112(x2)
    .word 0x06e12a23  # sw x14, 116(x2)
    .word 0x07012c23  # sw x16, 120(x2)
    .word 0x07112e23  # sw x17, 124(x2)
    .word 0x09512023  # sw x21, 128(x2)
    .word 0x09612223  # sw x22, 132(x2)
    .word 0x09712423  # sw x23, 136(x2)
    .word 0x09812623  # sw x24, 140(x2)
    .word 0xfff00493  # addi x9, x0, -1
    .word 0x00148493  # addi x9, x9, 1
    .word 0x01650433  # add x8, x10, x22
    .word 0x00741f13  # slli x30, x8, 7
    .word 0x01945313  # srli x6, x8, 25
    .word 0x006f0333  # add x6, x30, x6
    .word 0x00674733  # xor x14, x14, x6
    .word 0x00a70433  # add x8, x14, x10
    .word 0x00941f13  # slli x30, x8, 9
    .word 0x01745313  # srli x6, x8, 23
    .word 0x006f0333  # add x6, x30, x6
    .word 0x00694933  # xor x18, x18, x6
    .word 0x00e90433  # add x8, x18, x14
    .word 0x00d41f13  # slli x30, x8, 13
    .word 0x01345313  # srli x6, x8, 19
    .word 0x006f0333  # add x6, x30, x6
    .word 0x006b4b33  # xor x22, x22, x6
    .word 0x012b0433  # add x8, x22, x18
    .word 0x01241f13  # slli x30, x8, 18
    .word 0x00e45313  # srli x6, x8, 14
    .word 0x006f0333  # add x6, x30, x6
    .word 0x00654533  # xor x10, x10, x6
    .word 0x00b78433  # add x8, x15, x11
    .word 0x00741f13  # slli x30, x8, 7
    .word 0x01945313  # srli x6, x8, 25
    .word 0x006f0333  # add x6, x30, x6
    .word 0x0069c9b3  # xor x19, x19, x6
    .word 0x00f98433  # add x8, x19, x15
    .word 0x00941f13  # slli x30, x8, 9
    .word 0x01745313  # srli x6, x8, 23
    .word 0x006f0333  # add x6, x30, x6
    .word 0x006bcbb3  # xor x23, x23, x6
    .word 0x013b8433  # add x8, x23, x19
    .word 0x00d41f13  # slli x30, x8, 13
    .word 0x01345313  # srli x6, x8, 19
    .word 0x006f0333  # add x6, x30, x6
    .word 0x0065c5b3  # xor x11, x11, x6
    .word 0x01758433  # add x8, x11, x23
    .word 0x01241f13  # slli x30, x8, 18
    .word 0x00e45313  # srli x6, x8, 14
    .word 0x006f0333  # add x6, x30, x6
    .word 0x0067c7b3  # xor x15, x15, x6
    .word 0x010a0433  # add x8, x20, x16
    .word 0x00741f13  # slli x30, x8, 7
    .word 0x01945313  # srli x6, x8, 25
    .word 0x006f0333  # add x6, x30, x6
    .word 0x006c4c33  # xor x24, x24, x6
    .word 0x014c0433  # add x8, x24, x20
    .word 0x00941f13  # slli x30, x8, 9
    .word 0x01745313  # srli x6, x8, 23
    .word 0x006f0333  # add x6, x30, x6
    .word 0x00664633  # xor x12, x12, x6
    .word 0x01860433  # add x8, x12, x24
    .word 0x00d41f13  # slli x30, x8, 13
    .word 0x01345313  # srli x6, x8, 19
    .word 0x006f0333  # add x6, x30, x6
    .word 0x00684833  # xor x16, x16, x6
    .word 0x00c80433  # add x8, x16, x12
    .word 0x01241f13  # slli x30, x8, 18
    .word 0x00e45313  # srli x6, x8, 14
    .word 0x006f0333  # add x6, x30, x6
    .word 0x006a4a33  # xor x20, x20, x6
    .word 0x015c8433  # add x8, x25, x21
    .word 0x00741f13  # slli x30, x8, 7
    .word 0x01945313  # srli x6, x8, 25
    .word 0x006f0333  # add x6, x30, x6
    .word 0x0066c6b3  # xor x13, x13, x6
    .word 0x01968433  # add x8, x13, x25
    .word 0x00941f13  # slli x30, x8, 9
    .word 0x01745313  # srli x6, x8, 23
    .word 0x006f0333  # add x6, x30, x6
    .word 0x0068c8b3  # xor x17, x17, x6
    .word 0x00d88433  # add x8, x17, x13
    .word 0x00d41f13  # slli x30, x8, 13
    .word 0x01345313  # srli x6, x8, 19
    .word 0x006f0333  # add x6, x30, x6
    .word 0x006acab3  # xor x21, x21, x6
    .word 0x011a8433  # add x8, x21, x17
    .word 0x01241f13  # slli x30, x8, 18
    .word 0x00e45313  # srli x6, x8, 14
    .word 0x006f0333  # add x6, x30, x6
    .word 0x006cccb3  # xor x25, x25, x6
    .word 0x00d50433  # add x8, x10, x13
    .word 0x00741f13  # slli x30, x8, 7
    .word 0x01945313  # srli x6, x8, 25
    .word 0x006f0333  # add x6, x30, x6
    .word 0x0065c5b3  # xor x11, x11, x6
    .word 0x00a58433  # add x8, x11, x10
    .word 0x00941f13  # slli x30, x8, 9
    .word 0x01745313  # srli x6, x8, 23
    .word 0x006f0333  # add x6, x30, x6
    .word 0x00664633  # xor x12, x12, x6
    .word 0x00b60433  # add x8, x12, x11
    .word 0x00d41f13  # slli x30, x8, 13
    .word 0x01345313  # srli x6, x8, 19
    .word 0x006f0333  # add x6, x30, x6
    .word 0x0066c6b3  # xor x13, x13, x6
    .word 0x00c68433  # add x8, x13, x12
    .word 0x01241f13  # slli x30, x8, 18
    .word 0x00e45313  # srli x6, x8, 14
    .word 0x006f0333  # add x6, x30, x6
    .word 0x00654533  # xor x10, x10, x6
    .word 0x00e78433  # add x8, x15, x14
    .word 0x00741f13  # slli x30, x8, 7
    .word 0x01945313  # srli x6, x8, 25
    .word 0x006f0333  # add x6, x30, x6
    .word 0x00684833  # xor x16, x16, x6
    .word 0x00f80433  # add x8, x16, x15
    .word 0x00941f13  # slli x30, x8, 9
    .word 0x01745313  # srli x6, x8, 23
    .word 0x006f0333  # add x6, x30, x6
    .word 0x0068c8b3  # xor x17, x17, x6
    .word 0x01088433  # add x8, x17, x16
    .word 0x00d41f13  # slli x30, x8, 13
    .word 0x01345313  # srli x6, x8, 19
    .word 0x006f0333  # add x6, x30, x6
    .word 0x00674733  # xor x14, x14, x6
    .word 0x01170433  # add x8, x14, x17
    .word 0x01241f13  # slli x30, x8, 18
    .word 0x00e45313  # srli x6, x8, 14
    .word 0x006f0333  # add x6, x30, x6
    .word 0x0067c7b3  # xor x15, x15, x6
    .word 0x013a0433  # add x8, x20, x19
    .word 0x00741f13  # slli x30, x8, 7
    .word 0x01945313  # srli x6, x8, 25
    .word 0x006f0333  # add x6, x30, x6
    .word 0x006acab3  # xor x21, x21, x6
    .word 0x014a8433  # add x8, x21, x20
    .word 0x00941f13  # slli x30, x8, 9
    .word 0x01745313  # srli x6, x8, 23
    .word 0x006f0333  # add x6, x30, x6
    .word 0x00694933  # xor x18, x18, x6
    .word 0x01590433  # add x8, x18, x21
    .word 0x00d41f13  # slli x30, x8, 13
    .word 0x01345313  # srli x6, x8, 19
    .word 0x006f0333  # add x6, x30, x6
    .word 0x0069c9b3  # xor x19, x19, x6
    .word 0x01298433  # add x8, x19, x18
    .word 0x01241f13  # slli x30, x8, 18
    .word 0x00e45313  # srli x6, x8, 14
    .word 0x006f0333  # add x6, x30, x6
    .word 0x006a4a33  # xor x20, x20, x6
    .word 0x018c8433  # add x8, x25, x24
    .word 0x00741f13  # slli x30, x8, 7
    .word 0x01945313  # srli x6, x8, 25
    .word 0x006f0333  # add x6, x30, x6
    .word 0x006b4b33  # xor x22, x22, x6
    .word 0x019b0433  # add x8, x22, x25
    .word 0x00941f13  # slli x30, x8, 9
    .word 0x01745313  # srli x6, x8, 23
    .word 0x006f0333  # add x6, x30, x6
    .word 0x006bcbb3  # xor x23, x23, x6
    .word 0x016b8433  # add x8, x23, x22
    .word 0x00d41f13  # slli x30, x8, 13
    .word 0x01345313  # srli x6, x8, 19
    .word 0x006f0333  # add x6, x30, x6
    .word 0x006c4c33  # xor x24, x24, x6
    .word 0x017c0433  # add x8, x24, x23
    .word 0x01241f13  # slli x30, x8, 18
    .word 0x00e45313  # srli x6, x8, 14
    .word 0x006f0333  # add x6, x30, x6
    .word 0x006cccb3  # xor x25, x25, x6
    .word 0xff748293  # addi x5, x9, -9
    .word 0xd6029ce3  # bne x5, x0, -648
    .word 0x61708337  # lui x6, 0x61708
    .word 0x86530313  # addi x6, x6, -1947
    .word 0x00650433  # add x8, x10, x6
    .word 0x02812823  # sw x8, 48(x2)
    .word 0x01a58433  # add x8, x11, x26
    .word 0x02812a23  # sw x8, 52(x2)
    .word 0x01b60433  # add x8, x12, x27
    .word 0x02812c23  # sw x8, 56(x2)
    .word 0x07012303  # lw x6, 112(x2)
    .word 0x00668433  # add x8, x13, x6
    .word 0x02812e23  # sw x8, 60(x2)
    .word 0x07412303  # lw x6, 116(x2)
    .word 0x00670433  # add x8, x14, x6
    .word 0x04812023  # sw x8, 64(x2)
    .word 0x33206337  # lui x6, 0x33206
    .word 0x46e30313  # addi x6, x6, 1134
    .word 0x00678433  # add x8, x15, x6
    .word 0x04812223  # sw x8, 68(x2)
    .word 0x07812303  # lw x6, 120(x2)
    .word 0x00680433  # add x8, x16, x6
    .word 0x04812423  # sw x8, 72(x2)
    .word 0x07c12303  # lw x6, 124(x2)
    .word 0x00688433  # add x8, x17, x6
    .word 0x04812623  # sw x8, 76(x2)
    .word 0x02812303  # lw x6, 40(x2)
    .word 0x00690433  # add x8, x18, x6
    .word 0x04812823  # sw x8, 80(x2)
    .word 0x02c12303  # lw x6, 44(x2)
    .word 0x00698433  # add x8, x19, x6
    .word 0x04812a23  # sw x8, 84(x2)
    .word 0x79623337  # lui x6, 0x79623
    .word 0xd3230313  # addi x6, x6, -718
    .word 0x006a0433  # add x8, x20, x6
    .word 0x04812c23  # sw x8, 88(x2)
    .word 0x08012303  # lw x6, 128(x2)
    .word 0x006a8433  # add x8, x21, x6
    .word 0x04812e23  # sw x8, 92(x2)
    .word 0x08412303  # lw x6, 132(x2)
    .word 0x006b0433  # add x8, x22, x6
    .word 0x06812023  # sw x8, 96(x2)
    .word 0x08812303  # lw x6, 136(x2)
    .word 0x006b8433  # add x8, x23, x6
    .word 0x06812223  # sw x8, 100(x2)
    .word 0x08c12303  # lw x6, 140(x2)
    .word 0x006c0433  # add x8, x24, x6
    .word 0x06812423  # sw x8, 104(x2)
    .word 0x6b206337  # lui x6, 0x6b206
    .word 0x57430313  # addi x6, x6, 1396
    .word 0x006c8433  # add x8, x25, x6
    .word 0x06812623  # sw x8, 108(x2)
    # the result
    .word 0x00000513  # addi x10, x0, 0
    # parameter 3: the array, back
    .word 0x03010293  # addi x5, x2, 48
    .word 0x0dc12303  # lw x6, 220(x2)
    .word 0x04028393  # addi x7, x5, 64
    .word 0x09000f6f  # jal x30, 144
    # above the frame
    .word 0x0a010293  # addi x5, x2, 160
    # the caller's registers
    .word 0x0002a403  # lw x8, 0(x5)
    .cfi_restore 8
    .word 0x0042a483  # lw x9, 4(x5)
    .cfi_restore 9
    .word 0x0082a903  # lw x18, 8(x5)
    .cfi_restore 18
    .word 0x00c2a983  # lw x19, 12(x5)
    .cfi_restore 19
    .word 0x0102aa03  # lw x20, 16(x5)
    .cfi_restore 20
    .word 0x0142aa83  # lw x21, 20(x5)
    .cfi_restore 21
    .word 0x0182ab03  # lw x22, 24(x5)
    .cfi_restore 22
    .word 0x01c2ab83  # lw x23, 28(x5)
    .cfi_restore 23
    .word 0x0202ac03  # lw x24, 32(x5)
    .cfi_restore 24
    .word 0x0242ac83  # lw x25, 36(x5)
    .cfi_restore 25
    .word 0x0282ad03  # lw x26, 40(x5)
    .cfi_restore 26
    .word 0x02c2ad83  # lw x27, 44(x5)
    .cfi_restore 27
    # the caller's x2
    .word 0x04028293  # addi x5, x5, 64
    .cfi_def_cfa 5, 0
    # all the room, wiped upward
    .word 0x00012023  # sw x0, 0(x2)
    .word 0x00012223  # sw x0, 4(x2)
    .word 0x00012423  # sw x0, 8(x2)
    .word 0x00012623  # sw x0, 12(x2)
    .word 0x01010113  # addi x2, x2, 16
    .word 0xfe5116e3  # bne x2, x5, -20
    .cfi_def_cfa 2, 0
    # temporaries, wiped
    .word 0x00000293  # addi x5, x0, 0
    .word 0x00000313  # addi x6, x0, 0
    .word 0x00000393  # addi x7, x0, 0
    .word 0x00000593  # addi x11, x0, 0
    .word 0x00000613  # addi x12, x0, 0
    .word 0x00000693  # addi x13, x0, 0
    .word 0x00000713  # addi x14, x0, 0
    .word 0x00000793  # addi x15, x0, 0
    .word 0x00000813  # addi x16, x0, 0
    .word 0x00000893  # addi x17, x0, 0
    .word 0x00000e13  # addi x28, x0, 0
    .word 0x00000e93  # addi x29, x0, 0
    .word 0x00000f13  # addi x30, x0, 0
    .word 0x00000f93  # addi x31, x0, 0
    # back
    .word 0x00008067  # jalr x0, 0(x1)
    # from x5 to x6 up to x7, and back
    .cfi_def_cfa 2, 224
    .cfi_offset 8, -64
    .cfi_offset 9, -60
    .cfi_offset 18, -56
    .cfi_offset 19, -52
    .cfi_offset 20, -48
    .cfi_offset 21, -44
    .cfi_offset 22, -40
    .cfi_offset 23, -36
    .cfi_offset 24, -32
    .cfi_offset 25, -28
    .cfi_offset 26, -24
    .cfi_offset 27, -20
    .word 0x0062ee33  # or x28, x5, x6
    .word 0x003e7e13  # andi x28, x28, 3
    .word 0x000e0e63  # beq x28, x0, 28
    .word 0x0002ce03  # lbu x28, 0(x5)
    .word 0x01c30023  # sb x28, 0(x6)
    .word 0x00128293  # addi x5, x5, 1
    .word 0x00130313  # addi x6, x6, 1
    .word 0xfe7298e3  # bne x5, x7, -16
    .word 0x0200006f  # jal x0, 32
    .word 0x0002ae03  # lw x28, 0(x5)
    .word 0x01c32023  # sw x28, 0(x6)
    .word 0x0042ae03  # lw x28, 4(x5)
    .word 0x01c32223  # sw x28, 4(x6)
    .word 0x00828293  # addi x5, x5, 8
    .word 0x00830313  # addi x6, x6, 8
    .word 0xfe7294e3  # bne x5, x7, -24
    .word 0x000f0067  # jalr x0, 0(x30)
    .cfi_endproc
    .size salsa20_block, . - salsa20_block
    .option pop
