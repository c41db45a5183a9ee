# blake2s_block: made by factc 1.0.0 function; 566 words and 21 shared, 336 bytes of stack, profile 1
    .option push
    .option norvc
    .option norelax
    .cfi_sections .debug_frame
    .section .text.blake2s_block, "ax", @progbits
    .p2align 2
    .globl blake2s_block
    .type blake2s_block, @function
blake2s_block:
    .cfi_startproc
    # room above the frame
    .word 0xfd010113  # addi x2, x2, -48
    .cfi_def_cfa_offset 48
    # the caller's registers
    .word 0x00912023  # sw x9, 0(x2)
    .cfi_offset 9, -48
    .word 0x01212223  # sw x18, 4(x2)
    .cfi_offset 18, -44
    .word 0x01312423  # sw x19, 8(x2)
    .cfi_offset 19, -40
    .word 0x01412623  # sw x20, 12(x2)
    .cfi_offset 20, -36
    .word 0x01512823  # sw x21, 16(x2)
    .cfi_offset 21, -32
    .word 0x01612a23  # sw x22, 20(x2)
    .cfi_offset 22, -28
    .word 0x01712c23  # sw x23, 24(x2)
    .cfi_offset 23, -24
    .word 0x01812e23  # sw x24, 28(x2)
    .cfi_offset 24, -20
    .word 0x03912023  # sw x25, 32(x2)
    .cfi_offset 25, -16
    .word 0x03a12223  # sw x26, 36(x2)
    .cfi_offset 26, -12
    .word 0x03b12423  # sw x27, 40(x2)
    .cfi_offset 27, -8
    # arguments that are needed behind the body
    .word 0x02a12623  # sw x10, 44(x2)
    # the frame's base
    .word 0xee010113  # addi x2, x2, -288
    .cfi_def_cfa 2, 336
    # parameter 0: an array
    .word 0x00050293  # addi x5, x10, 0
    .word 0x00010313  # addi x6, x2, 0
    .word 0x02028393  # addi x7, x5, 32
    .word 0x0002ae03  # lw x28, 0(x5)
    .word 0x01c32023  # sw x28, 0(x6)
    .word 0x00428293  # addi x5, x5, 4
    .word 0x00430313  # addi x6, x6, 4
    .word 0xfe7298e3  # bne x5, x7, -16
    # parameter 1: an array
    .word 0x00058293  # addi x5, x11, 0
    .word 0x02010313  # addi x6, x2, 32
    .word 0x04028393  # addi x7, x5, 64
    .word 0x0002ce03  # lbu x28, 0(x5)
    .word 0x01c30023  # sb x28, 0(x6)
    .word 0x00128293  # addi x5, x5, 1
    .word 0x00130313  # addi x6, x6, 1
    .word 0xfe7298e3  # bne x5, x7, -16
    # parameter 2: an array
    .word 0x00060293  # addi x5, x12, 0
    .word 0x06010313  # addi x6, x2, 96
    .word 0x0002ae03  # lw x28, 0(x5)
    .word 0x01c32023  # sw x28, 0(x6)
    .word 0x0042ae03  # lw x28, 4(x5)
    .word 0x01c32223  # sw x28, 4(x6)
    # parameter 3: a word
    .word 0x00d036b3  # sltu x13, x0, x13
    .word 0x06d12423  # sw x13, 104(x2)
    # the body
    .word 0x6df982b7  # lui x5, 0x6df98
    .word 0x4ae28293  # addi x5, x5, 1198
    .word 0x0a512c23  # sw x5, 184(x2)
    .word 0x357b22b7  # lui x5, 0x357b2
    .word 0x0c128293  # addi x5, x5, 193
    .word 0x0a512e23  # sw x5, 188(x2)
    .word 0xdf2512b7  # lui x5, 0xdf251
    .word 0xc8b28293  # addi x5, x5, -885
    .word 0x0c512023  # sw x5, 192(x2)
    .word 0x491762b7  # lui x5, 0x49176
    .word 0x3ea28293  # addi x5, x5, 1002
    .word 0x0c512223  # sw x5, 196(x2)
    .word 0xebcd12b7  # lui x5, 0xebcd1
    .word 0x39728293  # addi x5, x5, 919
    .word 0x0c512423  # sw x5, 200(x2)
    .word 0x8f04a2b7  # lui x5, 0x8f04a
    .word 0x56228293  # addi x5, x5, 1378
    .word 0x0c512623  # sw x5, 204(x2)
    .word 0xfa4272b7  # lui x5, 0xfa427
    .word 0x50928293  # addi x5, x5, 1289
    .word 0x0c512823  # sw x5, 208(x2)
    .word 0xd386d2b7  # lui x5, 0xd386d
    .word 0xb1e28293  # addi x5, x5, -1250
    .word 0x0c512a23  # sw x5, 212(x2)
    .word 0x38b0a2b7  # lui x5, 0x38b0a
    .word 0x6c228293  # addi x5, x5, 1730
    .word 0x0c512c23  # sw x5, 216(x2)
    .word 0x91ef52b7  # lui x5, 0x91ef5
    .word 0x7d428293  # addi x5, x5, 2004
    .word 0x0c512e23  # sw x5, 220(x2)
    .word 0xa4def2b7  # lui x5, 0xa4def
    .word 0x15c28293  # addi x5, x5, 348
    .word 0x0e512023  # sw x5, 224(x2)
    .word 0xb82932b7  # lui x5, 0xb8293
    .word 0x67028293  # addi x5, x5, 1648
    .word 0x0e512223  # sw x5, 228(x2)
    .word 0x931ce2b7  # lui x5, 0x931ce
    .word 0x7bd28293  # addi x5, x5, 1981
    .word 0x0e512423  # sw x5, 232(x2)
    .word 0xa26852b7  # lui x5, 0xa2685
    .word 0xf0528293  # addi x5, x5, -251
    .word 0x0e512623  # sw x5, 236(x2)
    .word 0x803ba2b7  # lui x5, 0x803ba
    .word 0xef628293  # addi x5, x5, -266
    .word 0x0e512823  # sw x5, 240(x2)
    .word 0x5a4182b7  # lui x5, 0x5a418
    .word 0xd2c28293  # addi x5, x5, -724
    .word 0x0e512a23  # sw x5, 244(x2)
    .word 0x516752b7  # lui x5, 0x51675
    .word 0x82a28293  # addi x5, x5, -2006
    .word 0x0e512c23  # sw x5, 248(x2)
    .word 0x0dc3f2b7  # lui x5, 0x0dc3f
    .word 0x9bf28293  # addi x5, x5, -1601
    .word 0x0e512e23  # sw x5, 252(x2)
    .word 0x06012623  # sw x0, 108(x2)
    .word 0x06012823  # sw x0, 112(x2)
    .word 0x06012a23  # sw x0, 116(x2)
    .word 0x06012c23  # sw x0, 120(x2)
    .word 0x06012e23  # sw x0, 124(x2)
    .word 0x08012023  # sw x0, 128(x2)
    .word 0x08012223  # sw x0, 132(x2)
    .word 0x08012423  # sw x0, 136(x2)
    .word 0x08012623  # sw x0, 140(x2)
    .word 0x08012823  # sw x0, 144(x2)
    .word 0x08012a23  # sw x0, 148(x2)
    .word 0x08012c23  # sw x0, 152(x2)
    .word 0x08012e23  # sw x0, 156(x2)
    .word 0x0a012023  # sw x0, 160(x2)
    .word 0x0a012223  # sw x0, 164(x2)
    .word 0x0a012423  # sw x0, 168(x2)
    .word 0x10012223  # sw x0, 260(x2)
    .word 0x01000293  # addi x5, x0, 16
    .word 0x10512423  # sw x5, 264(x2)
    .word 0x10412303  # lw x6, 260(x2)
    .word 0x10812283  # lw x5, 264(x2)
    .word 0x005332b3  # sltu x5, x6, x5
    .word 0x00029463  # bne x5, x0, 8
    .word 0x0640006f  # jal x0, 100
    .word 0x0a612623  # sw x6, 172(x2)
    .word 0x00130313  # addi x6, x6, 1
    .word 0x10612223  # sw x6, 260(x2)
    .word 0x0ac12283  # lw x5, 172(x2)
    .word 0x00229d93  # slli x27, x5, 2
    .word 0x0ac12283  # lw x5, 172(x2)
    .word 0x002d8333  # add x6, x27, x2
    .word 0x02034303  # lbu x6, 32(x6)
    .word 0x002d83b3  # add x7, x27, x2
    .word 0x0213c383  # lbu x7, 33(x7)
    .word 0x00839393  # slli x7, x7, 8
    .word 0x00736333  # or x6, x6, x7
    .word 0x002d83b3  # add x7, x27, x2
    .word 0x0223c383  # lbu x7, 34(x7)
    .word 0x01039393  # slli x7, x7, 16
    .word 0x00736333  # or x6, x6, x7
    .word 0x002d83b3  # add x7, x27, x2
    .word 0x0233c383  # lbu x7, 35(x7)
    .word 0x01839393  # slli x7, x7, 24
    .word 0x00736333  # or x6, x6, x7
    .word 0x00229293  # slli x5, x5, 2
    .word 0x002282b3  # add x5, x5, x2
    .word 0x0662a623  # sw x6, 108(x5)
    .word 0xf91ff06f  # jal x0, -112
    .word 0x00012503  # lw x10, 0(x2)
    .word 0x00412583  # lw x11, 4(x2)
    .word 0x00812603  # lw x12, 8(x2)
    .word 0x00c12683  # lw x13, 12(x2)
    .word 0x01012703  # lw x14, 16(x2)
    .word 0x01412783  # lw x15, 20(x2)
    .word 0x01812803  # lw x16, 24(x2)
    .word 0x01c12883  # lw x17, 28(x2)
    .word 0x6a09e937  # lui x18, 0x6a09e
    .word 0x66790913  # addi x18, x18, 1639
    .word 0xbb67b9b7  # lui x19, 0xbb67b
    .word 0xe8598993  # addi x19, x19, -379
    .word 0x3c6efa37  # lui x20, 0x3c6ef
    .word 0x372a0a13  # addi x20, x20, 882
    .word 0xa54ffab7  # lui x21, 0xa54ff
    .word 0x53aa8a93  # addi x21, x21, 1338
    .word 0x510e52b7  # lui x5, 0x510e5
    .word 0x27f28293  # addi x5, x5, 639
    .word 0x06012303  # lw x6, 96(x2)
    .word 0x0062cb33  # xor x22, x5, x6
    .word 0x9b0572b7  # lui x5, 0x9b057
    .word 0x88c28293  # addi x5, x5, -1908
    .word 0x06412303  # lw x6, 100(x2)
    .word 0x0062cbb3  # xor x23, x5, x6
    .word 0x1f83e2b7  # lui x5, 0x1f83e
    .word 0x9ab28293  # addi x5, x5, -1621
    .word 0x06812303  # lw x6, 104(x2)
    .word 0x40600333  # sub x6, x0, x6
    .word 0x0062cc33  # xor x24, x5, x6
    .word 0x5be0dcb7  # lui x25, 0x5be0d
    .word 0xd19c8c93  # addi x25, x25, -743
    .word 0x00000d13  # addi x26, x0, 0
    .word 0x76543db7  # lui x27, 0x76543
    .word 0x210d8d93  # addi x27, x27, 528
    .word 0xfedcc4b7  # lui x9, 0xfedcc
    .word 0xa9848493  # addi x9, x9, -1384
    .word 0x10012223  # sw x0, 260(x2)
    .word 0x00200293  # addi x5, x0, 2
    .word 0x10512423  # sw x5, 264(x2)
    .word 0x10412303  # lw x6, 260(x2)
    .word 0x10812283  # lw x5, 264(x2)
    .word 0x005332b3  # sltu x5, x6, x5
    .word 0x00029463  # bne x5, x0, 8
    .word 0x5200006f  # jal x0, 1312
    .word 0x0a612623  # sw x6, 172(x2)
    .word 0x00130313  # addi x6, x6, 1
    .word 0x10612223  # sw x6, 260(x2)
    .word 0x10012623  # sw x0, 268(x2)
    .word 0x00200293  # addi x5, x0, 2
    .word 0x10512823  # sw x5, 272(x2)
    .word 0x10c12303  # lw x6, 268(x2)
    .word 0x11012283  # lw x5, 272(x2)
    .word 0x005332b3  # sltu x5, x6, x5
    .word 0x00029463  # bne x5, x0, 8
    .word 0x4f00006f  # jal x0, 1264
    .word 0x0a612823  # sw x6, 176(x2)
    .word 0x00130313  # addi x6, x6, 1
    .word 0x10612623  # sw x6, 268(x2)
    .word 0x10012a23  # sw x0, 276(x2)
    .word 0x00300293  # addi x5, x0, 3
    .word 0x10512c23  # sw x5, 280(x2)
    .word 0x11412303  # lw x6, 276(x2)
    .word 0x11812283  # lw x5, 280(x2)
    .word 0x005332b3  # sltu x5, x6, x5
    .word 0x00029463  # bne x5, x0, 8
    .word 0x4c00006f  # jal x0, 1216
    .word 0x0a612a23  # sw x6, 180(x2)
    .word 0x00130313  # addi x6, x6, 1
    .word 0x10612a23  # sw x6, 276(x2)
    .word 0x00a00313  # addi x6, x0, 10
    .word 0x4a6d7463  # bgeu x26, x6, 1192
    .word 0x00100313  # addi x6, x0, 1
    .word 0x006d1863  # bne x26, x6, 16
    .word 0x0b812d83  # lw x27, 184(x2)
    .word 0x0bc12483  # lw x9, 188(x2)
    .word 0x0a00006f  # jal x0, 160
    .word 0x00200313  # addi x6, x0, 2
    .word 0x006d1863  # bne x26, x6, 16
    .word 0x0c012d83  # lw x27, 192(x2)
    .word 0x0c412483  # lw x9, 196(x2)
    .word 0x08c0006f  # jal x0, 140
    .word 0x00300313  # addi x6, x0, 3
    .word 0x006d1863  # bne x26, x6, 16
    .word 0x0c812d83  # lw x27, 200(x2)
    .word 0x0cc12483  # lw x9, 204(x2)
    .word 0x0780006f  # jal x0, 120
    .word 0x00400313  # addi x6, x0, 4
    .word 0x006d1863  # bne x26, x6, 16
    .word 0x0d012d83  # lw x27, 208(x2)
    .word 0x0d412483  # lw x9, 212(x2)
    .word 0x0640006f  # jal x0, 100
    .word 0x00500313  # addi x6, x0, 5
    .word 0x006d1863  # bne x26, x6, 16
    .word 0x0d812d83  # lw x27, 216(x2)
    .word 0x0dc12483  # lw x9, 220(x2)
    .word 0x0500006f  # jal x0, 80
    .word 0x00600313  # addi x6, x0, 6
    .word 0x006d1863  # bne x26, x6, 16
    .word 0x0e012d83  # lw x27, 224(x2)
    .word 0x0e412483  # lw x9, 228(x2)
    .word 0x03c0006f  # jal x0, 60
    .word 0x00700313  # addi x6, x0, 7
    .word 0x006d1863  # bne x26, x6, 16
    .word 0x0e812d83  # lw x27, 232(x2)
    .word 0x0ec12483  # lw x9, 236(x2)
    .word 0x0280006f  # jal x0, 40
    .word 0x00800313  # addi x6, x0, 8
    .word 0x006d1863  # bne x26, x6, 16
    .word 0x0f012d83  # lw x27, 240(x2)
    .word 0x0f412483  # lw x9, 244(x2)
    .word 0x0140006f  # jal x0, 20
    .word 0x00900313  # addi x6, x0, 9
    .word 0x006d1663  # bne x26, x6, 12
    .word 0x0f812d83  # lw x27, 248(x2)
    .word 0x0fc12483  # lw x9, 252(x2)
    .word 0x00e502b3  # add x5, x10, x14
    .word 0x00fdf313  # andi x6, x27, 15
    .word 0x00231313  # slli x6, x6, 2
    .word 0x00230333  # add x6, x6, x2
    .word 0x06c32303  # lw x6, 108(x6)
    .word 0x00628533  # add x10, x5, x6
    .word 0x00ab42b3  # xor x5, x22, x10
    .word 0x01029f13  # slli x30, x5, 16
    .word 0x0102db13  # srli x22, x5, 16
    .word 0x016f0b33  # add x22, x30, x22
    .word 0x01690933  # add x18, x18, x22
    .word 0x012742b3  # xor x5, x14, x18
    .word 0x01429f13  # slli x30, x5, 20
    .word 0x00c2d713  # srli x14, x5, 12
    .word 0x00ef0733  # add x14, x30, x14
    .word 0x00e502b3  # add x5, x10, x14
    .word 0x004dd313  # srli x6, x27, 4
    .word 0x00f37313  # andi x6, x6, 15
    .word 0x00231313  # slli x6, x6, 2
    .word 0x00230333  # add x6, x6, x2
    .word 0x06c32303  # lw x6, 108(x6)
    .word 0x00628533  # add x10, x5, x6
    .word 0x00ab42b3  # xor x5, x22, x10
    .word 0x01829f13  # slli x30, x5, 24
    .word 0x0082db13  # srli x22, x5, 8
    .word 0x016f0b33  # add x22, x30, x22
    .word 0x01690933  # add x18, x18, x22
    .word 0x012742b3  # xor x5, x14, x18
    .word 0x01929f13  # slli x30, x5, 25
    .word 0x0072d713  # srli x14, x5, 7
    .word 0x00ef0733  # add x14, x30, x14
    .word 0x00f582b3  # add x5, x11, x15
    .word 0x008dd313  # srli x6, x27, 8
    .word 0x00f37313  # andi x6, x6, 15
    .word 0x00231313  # slli x6, x6, 2
    .word 0x00230333  # add x6, x6, x2
    .word 0x06c32303  # lw x6, 108(x6)
    .word 0x006285b3  # add x11, x5, x6
    .word 0x00bbc2b3  # xor x5, x23, x11
    .word 0x01029f13  # slli x30, x5, 16
    .word 0x0102db93  # srli x23, x5, 16
    .word 0x017f0bb3  # add x23, x30, x23
    .word 0x017989b3  # add x19, x19, x23
    .word 0x0137c2b3  # xor x5, x15, x19
    .word 0x01429f13  # slli x30, x5, 20
    .word 0x00c2d793  # srli x15, x5, 12
    .word 0x00ff07b3  # add x15, x30, x15
    .word 0x00f582b3  # add x5, x11, x15
    .word 0x00cdd313  # srli x6, x27, 12
    .word 0x00f37313  # andi x6, x6, 15
    .word 0x00231313  # slli x6, x6, 2
    .word 0x00230333  # add x6, x6, x2
    .word 0x06c32303  # lw x6, 108(x6)
    .word 0x006285b3  # add x11, x5, x6
    .word 0x00bbc2b3  # xor x5, x23, x11
    .word 0x01829f13  # slli x30, x5, 24
    .word 0x0082db93  # srli x23, x5, 8
    .word 0x017f0bb3  # add x23, x30, x23
    .word 0x017989b3  # add x19, x19, x23
    .word 0x0137c2b3  # xor x5, x15, x19
    .word 0x01929f13  # slli x30, x5, 25
    .word 0x0072d793  # srli x15, x5, 7
    .word 0x00ff07b3  # add x15, x30, x15
    .word 0x010602b3  # add x5, x12, x16
    .word 0x010dd313  # srli x6, x27, 16
    .word 0x00f37313  # andi x6, x6, 15
    .word 0x00231313  # slli x6, x6, 2
    .word 0x00230333  # add x6, x6, x2
    .word 0x06c32303  # lw x6, 108(x6)
    .word 0x00628633  # add x12, x5, x6
    .word 0x00cc42b3  # xor x5, x24, x12
    .word 0x01029f13  # slli x30, x5, 16
    .word 0x0102dc13  # srli x24, x5, 16
    .word 0x018f0c33  # add x24, x30, x24
    .word 0x018a0a33  # add x20, x20, x24
    .word 0x014842b3  # xor x5, x16, x20
    .word 0x01429f13  # slli x30, x5, 20
    .word 0x00c2d813  # srli x16, x5, 12
    .word 0x010f0833  # add x16, x30, x16
    .word 0x010602b3  # add x5, x12, x16
    .word 0x014dd313  # srli x6, x27, 20
    .word 0x00f37313  # andi x6, x6, 15
    .word 0x00231313  # slli x6, x6, 2
    .word 0x00230333  # add x6, x6, x2
    .word 0x06c32303  # lw x6, 108(x6)
    .word 0x00628633  # add x12, x5, x6
    .word 0x00cc42b3  # xor x5, x24, x12
    .word 0x01829f13  # slli x30, x5, 24
    .word 0x0082dc13  # srli x24, x5, 8
    .word 0x018f0c33  # add x24, x30, x24
    .word 0x018a0a33  # add x20, x20, x24
    .word 0x014842b3  # xor x5, x16, x20
    .word 0x01929f13  # slli x30, x5, 25
    .word 0x0072d813  # srli x16, x5, 7
    .word 0x010f0833  # add x16, x30, x16
    .word 0x011682b3  # add x5, x13, x17
    .word 0x018dd313  # srli x6, x27, 24
    .word 0x00f37313  # andi x6, x6, 15
    .word 0x00231313  # slli x6, x6, 2
    .word 0x00230333  # add x6, x6, x2
    .word 0x06c32303  # lw x6, 108(x6)
    .word 0x006286b3  # add x13, x5, x6
    .word 0x00dcc2b3  # xor x5, x25, x13
    .word 0x01029f13  # slli x30, x5, 16
    .word 0x0102dc93  # srli x25, x5, 16
    .word 0x019f0cb3  # add x25, x30, x25
    .word 0x019a8ab3  # add x21, x21, x25
    .word 0x0158c2b3  # xor x5, x17, x21
    .word 0x01429f13  # slli x30, x5, 20
    .word 0x00c2d893  # srli x17, x5, 12
    .word 0x011f08b3  # add x17, x30, x17
    .word 0x011682b3  # add x5, x13, x17
    .word 0x01cdd313  # srli x6, x27, 28
    .word 0x00231313  # slli x6, x6, 2
    .word 0x00230333  # add x6, x6, x2
    .word 0x06c32303  # lw x6, 108(x6)
    .word 0x006286b3  # add x13, x5, x6
    .word 0x00dcc2b3  # xor x5, x25, x13
    .word 0x01829f13  # slli x30, x5, 24
    .word 0x0082dc93  # srli x25, x5, 8
    .word 0x019f0cb3  # add x25, x30, x25
    .word 0x019a8ab3  # add x21, x21, x25
    .word 0x0158c2b3  # xor x5, x17, x21
    .word 0x01929f13  # slli x30, x5, 25
    .word 0x0072d893  # srli x17, x5, 7
    .word 0x011f08b3  # add x17, x30, x17
    .word 0x00f502b3  # add x5, x10, x15
    .word 0x00f4f313  # andi x6, x9, 15
    .word 0x00231313  # slli x6, x6, 2
    .word 0x00230333  # add x6, x6, x2
    .word 0x06c32303  # lw x6, 108(x6)
    .word 0x00628533  # add x10, x5, x6
    .word 0x00acc2b3  # xor x5, x25, x10
    .word 0x01029f13  # slli x30, x5, 16
    .word 0x0102dc93  # srli x25, x5, 16
    .word 0x019f0cb3  # add x25, x30, x25
    .word 0x019a0a33  # add x20, x20, x25
    .word 0x0147c2b3  # xor x5, x15, x20
    .word 0x01429f13  # slli x30, x5, 20
    .word 0x00c2d793  # srli x15, x5, 12
    .word 0x00ff07b3  # add x15, x30, x15
    .word 0x00f502b3  # add x5, x10, x15
    .word 0x0044d313  # srli x6, x9, 4
    .word 0x00f37313  # andi x6, x6, 15
    .word 0x00231313  # slli x6, x6, 2
    .word 0x00230333  # add x6, x6, x2
    .word 0x06c32303  # lw x6, 108(x6)
    .word 0x00628533  # add x10, x5, x6
    .word 0x00acc2b3  # xor x5, x25, x10
    .word 0x01829f13  # slli x30, x5, 24
    .word 0x0082dc93  # srli x25, x5, 8
    .word 0x019f0cb3  # add x25, x30, x25
    .word 0x019a0a33  # add x20, x20, x25
    .word 0x0147c2b3  # xor x5, x15, x20
    .word 0x01929f13  # slli x30, x5, 25
    .word 0x0072d793  # srli x15, x5, 7
    .word 0x00ff07b3  # add x15, x30, x15
    .word 0x010582b3  # add x5, x11, x16
    .word 0x0084d313  # srli x6, x9, 8
    .word 0x00f37313  # andi x6, x6, 15
    .word 0x00231313  # slli x6, x6, 2
    .word 0x00230333  # add x6, x6, x2
    .word 0x06c32303  # lw x6, 108(x6)
    .word 0x006285b3  # add x11, x5, x6
    .word 0x00bb42b3  # xor x5, x22, x11
    .word 0x01029f13  # slli x30, x5, 16
    .word 0x0102db13  # srli x22, x5, 16
    .word 0x016f0b33  # add x22, x30, x22
    .word 0x016a8ab3  # add x21, x21, x22
    .word 0x015842b3  # xor x5, x16, x21
    .word 0x01429f13  # slli x30, x5, 20
    .word 0x00c2d813  # srli x16, x5, 12
    .word 0x010f0833  # add x16, x30, x16
    .word 0x010582b3  # add x5, x11, x16
    .word 0x00c4d313  # srli x6, x9, 12
    .word 0x00f37313  # andi x6, x6, 15
    .word 0x00231313  # slli x6, x6, 2
    .word 0x00230333  # add x6, x6, x2
    .word 0x06c32303  # lw x6, 108(x6)
    .word 0x006285b3  # add x11, x5, x6
    .word 0x00bb42b3  # xor x5, x22, x11
    .word 0x01829f13  # slli x30, x5, 24
    .word 0x0082db13  # srli x22, x5, 8
    .word 0x016f0b33  # add x22, x30, x22
    .word 0x016a8ab3  # add x21, x21, x22
    .word 0x015842b3  # xor x5, x16, x21
    .word 0x01929f13  # slli x30, x5, 25
    .word 0x0072d813  # srli x16, x5, 7
    .word 0x010f0833  # add x16, x30, x16
    .word 0x011602b3  # add x5, x12, x17
    .word 0x0104d313  # srli x6, x9, 16
    .word 0x00f37313  # andi x6, x6, 15
    .word 0x00231313  # slli x6, x6, 2
    .word 0x00230333  # add x6, x6, x2
    .word 0x06c32303  # lw x6, 108(x6)
    .word 0x00628633  # add x12, x5, x6
    .word 0x00cbc2b3  # xor x5, x23, x12
    .word 0x01029f13  # slli x30, x5, 16
    .word 0x0102db93  # srli x23, x5, 16
    .word 0x017f0bb3  # add x23, x30, x23
    .word 0x01790933  # add x18, x18, x23
    .word 0x0128c2b3  # xor x5, x17, x18
    .word 0x01429f13  # slli x30, x5, 20
    .word 0x00c2d893  # srli x17, x5, 12
    .word 0x011f08b3  # add x17, x30, x17
    .word 0x011602b3  # add x5, x12, x17
    .word 0x0144d313  # srli x6, x9, 20
    .word 0x00f37313  # andi x6, x6, 15
    .word 0x00231313  # slli x6, x6, 2
    .word 0x00230333  # add x6, x6, x2
    .word 0x06c32303  # lw x6, 108(x6)
    .word 0x00628633  # add x12, x5, x6
    .word 0x00cbc2b3  # xor x5, x23, x12
    .word 0x01829f13  # slli x30, x5, 24
    .word 0x0082db93  # srli x23, x5, 8
    .word 0x017f0bb3  # add x23, x30, x23
    .word 0x01790933  # add x18, x18, x23
    .word 0x0128c2b3  # xor x5, x17, x18
    .word 0x01929f13  # slli x30, x5, 25
    .word 0x0072d893  # srli x17, x5, 7
    .word 0x011f08b3  # add x17, x30, x17
    .word 0x00e682b3  # add x5, x13, x14
    .word 0x0184d313  # srli x6, x9, 24
    .word 0x00f37313  # andi x6, x6, 15
    .word 0x00231313  # slli x6, x6, 2
    .word 0x00230333  # add x6, x6, x2
    .word 0x06c32303  # lw x6, 108(x6)
    .word 0x006286b3  # add x13, x5, x6
    .word 0x00dc42b3  # xor x5, x24, x13
    .word 0x01029f13  # slli x30, x5, 16
    .word 0x0102dc13  # srli x24, x5, 16
    .word 0x018f0c33  # add x24, x30, x24
    .word 0x018989b3  # add x19, x19, x24
    .word 0x013742b3  # xor x5, x14, x19
    .word 0x01429f13  # slli x30, x5, 20
    .word 0x00c2d713  # srli x14, x5, 12
    .word 0x00ef0733  # add x14, x30, x14
    .word 0x00e682b3  # add x5, x13, x14
    .word 0x01c4d313  # srli x6, x9, 28
    .word 0x00231313  # slli x6, x6, 2
    .word 0x00230333  # add x6, x6, x2
    .word 0x06c32303  # lw x6, 108(x6)
    .word 0x006286b3  # add x13, x5, x6
    .word 0x00dc42b3  # xor x5, x24, x13
    .word 0x01829f13  # slli x30, x5, 24
    .word 0x0082dc13  # srli x24, x5, 8
    .word 0x018f0c33  # add x24, x30, x24
    .word 0x018989b3  # add x19, x19, x24
    .word 0x013742b3  # xor x5, x14, x19
    .word 0x01929f13  # slli x30, x5, 25
    .word 0x0072d713  # srli x14, x5, 7
    .word 0x00ef0733  # add x14, x30, x14
    .word 0x001d0d13  # addi x26, x26, 1
    .word 0xb35ff06f  # jal x0, -1228
    .word 0xb05ff06f  # jal x0, -1276
    .word 0xad5ff06f  # jal x0, -1324
    .word 0x00012283  # lw x5, 0(x2)
    .word 0x00a2c2b3  # xor x5, x5, x10
    .word 0x0122c2b3  # xor x5, x5, x18
    .word 0x00512023  # sw x5, 0(x2)
    .word 0x00412283  # lw x5, 4(x2)
    .word 0x00b2c2b3  # xor x5, x5, x11
    .word 0x0132c2b3  # xor x5, x5, x19
    .word 0x00512223  # sw x5, 4(x2)
    .word 0x00812283  # lw x5, 8(x2)
    .word 0x00c2c2b3  # xor x5, x5, x12
    .word 0x0142c2b3  # xor x5, x5, x20
    .word 0x00512423  # sw x5, 8(x2)
    .word 0x00c12283  # lw x5, 12(x2)
    .word 0x00d2c2b3  # xor x5, x5, x13
    .word 0x0152c2b3  # xor x5, x5, x21
    .word 0x00512623  # sw x5, 12(x2)
    .word 0x01012283  # lw x5, 16(x2)
    .word 0x00e2c2b3  # xor x5, x5, x14
    .word 0x0162c2b3  # xor x5, x5, x22
    .word 0x00512823  # sw x5, 16(x2)
    .word 0x01412283  # lw x5, 20(x2)
    .word 0x00f2c2b3  # xor x5, x5, x15
    .word 0x0172c2b3  # xor x5, x5, x23
    .word 0x00512a23  # sw x5, 20(x2)
    .word 0x01812283  # lw x5, 24(x2)
    .word 0x0102c2b3  # xor x5, x5, x16
    .word 0x0182c2b3  # xor x5, x5, x24
    .word 0x00512c23  # sw x5, 24(x2)
    .word 0x01c12283  # lw x5, 28(x2)
    .word 0x0112c2b3  # xor x5, x5, x17
    .word 0x0192c2b3  # xor x5, x5, x25
    .word 0x00512e23  # sw x5, 28(x2)
    # the result
    .word 0x00000513  # addi x10, x0, 0
    # parameter 0: the array, back
    .word 0x00010293  # addi x5, x2, 0
    .word 0x14c12303  # lw x6, 332(x2)
    .word 0x02028393  # addi x7, x5, 32
    .word 0x0002ae03  # lw x28, 0(x5)
    .word 0x01c32023  # sw x28, 0(x6)
    .word 0x00428293  # addi x5, x5, 4
    .word 0x00430313  # addi x6, x6, 4
    .word 0xfe7298e3  # bne x5, x7, -16
    # above the frame
    .word 0x12010293  # addi x5, x2, 288
    # the caller's registers
    .word 0x0002a483  # lw x9, 0(x5)
    .cfi_restore 9
    .word 0x0042a903  # lw x18, 4(x5)
    .cfi_restore 18
    .word 0x0082a983  # lw x19, 8(x5)
    .cfi_restore 19
    .word 0x00c2aa03  # lw x20, 12(x5)
    .cfi_restore 20
    .word 0x0102aa83  # lw x21, 16(x5)
    .cfi_restore 21
    .word 0x0142ab03  # lw x22, 20(x5)
    .cfi_restore 22
    .word 0x0182ab83  # lw x23, 24(x5)
    .cfi_restore 23
    .word 0x01c2ac03  # lw x24, 28(x5)
    .cfi_restore 24
    .word 0x0202ac83  # lw x25, 32(x5)
    .cfi_restore 25
    .word 0x0242ad03  # lw x26, 36(x5)
    .cfi_restore 26
    .word 0x0282ad83  # lw x27, 40(x5)
    .cfi_restore 27
    # the caller's x2
    .word 0x03028293  # addi x5, x5, 48
    .cfi_def_cfa 5, 0
    # on to the tail that functions share
    jal x0, factc.tail.1
    .cfi_endproc
    .size blake2s_block, . - blake2s_block
    .section .text.factc.tail.1, "axG", @progbits, factc.tail.1, comdat
    .p2align 2
    .globl factc.tail.1
    .hidden factc.tail.1
    .type factc.tail.1, @function
factc.tail.1:
    .cfi_startproc
    .cfi_def_cfa 5, 0
    # all the room, wiped upward
    .word 0x00012023  # sw x0, 0(x2)
    .word 0x00012223  # sw x0, 4(x2)
    .word 0x00012423  # sw x0, 8(x2)
    .word 0x00012623  # sw x0, 12(x2)
    .word 0x01010113  # addi x2, x2, 16
    .word 0xfe5116e3  # bne x2, x5, -20
    .cfi_def_cfa 2, 0
    # temporaries, wiped
    .word 0x00000293  # addi x5, x0, 0
    .word 0x00000313  # addi x6, x0, 0
    .word 0x00000393  # addi x7, x0, 0
    .word 0x00000593  # addi x11, x0, 0
    .word 0x00000613  # addi x12, x0, 0
    .word 0x00000693  # addi x13, x0, 0
    .word 0x00000713  # addi x14, x0, 0
    .word 0x00000793  # addi x15, x0, 0
    .word 0x00000813  # addi x16, x0, 0
    .word 0x00000893  # addi x17, x0, 0
    .word 0x00000e13  # addi x28, x0, 0
    .word 0x00000e93  # addi x29, x0, 0
    .word 0x00000f13  # addi x30, x0, 0
    .word 0x00000f93  # addi x31, x0, 0
    # back
    .word 0x00008067  # jalr x0, 0(x1)
    .cfi_endproc
    .size factc.tail.1, . - factc.tail.1
    .option pop
