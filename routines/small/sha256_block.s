# sha256_block: made by factc 1.0.0 function; 829 words and 21 shared, 496 bytes of stack, profile 1
    .option push
    .option norvc
    .option norelax
    .cfi_sections .debug_frame
    .section .text.sha256_block, "ax", @progbits
    .p2align 2
    .globl sha256_block
    .type sha256_block, @function
sha256_block:
    .cfi_startproc
    # room above the frame
    .word 0xfd010113  # addi x2, x2, -48
    .cfi_def_cfa_offset 48
    # the caller's registers
    .word 0x00912023  # sw x9, 0(x2)
    .cfi_offset 9, -48
    .word 0x01212223  # sw x18, 4(x2)
    .cfi_offset 18, -44
    .word 0x01312423  # sw x19, 8(x2)
    .cfi_offset 19, -40
    .word 0x01412623  # sw x20, 12(x2)
    .cfi_offset 20, -36
    .word 0x01512823  # sw x21, 16(x2)
    .cfi_offset 21, -32
    .word 0x01612a23  # sw x22, 20(x2)
    .cfi_offset 22, -28
    .word 0x01712c23  # sw x23, 24(x2)
    .cfi_offset 23, -24
    .word 0x01812e23  # sw x24, 28(x2)
    .cfi_offset 24, -20
    .word 0x03912023  # sw x25, 32(x2)
    .cfi_offset 25, -16
    .word 0x03a12223  # sw x26, 36(x2)
    .cfi_offset 26, -12
    .word 0x03b12423  # sw x27, 40(x2)
    .cfi_offset 27, -8
    # arguments that are needed behind the body
    .word 0x02a12623  # sw x10, 44(x2)
    # the frame's base
    .word 0xe4010113  # addi x2, x2, -448
    .cfi_def_cfa 2, 496
    # parameter 0: an array
    .word 0x00050293  # addi x5, x10, 0
    .word 0x00010313  # addi x6, x2, 0
    .word 0x02028393  # addi x7, x5, 32
    .word 0x0002ae03  # lw x28, 0(x5)
    .word 0x01c32023  # sw x28, 0(x6)
    .word 0x00428293  # addi x5, x5, 4
    .word 0x00430313  # addi x6, x6, 4
    .word 0xfe7298e3  # bne x5, x7, -16
    # parameter 1: an array
    .word 0x00058293  # addi x5, x11, 0
    .word 0x02010313  # addi x6, x2, 32
    .word 0x04028393  # addi x7, x5, 64
    .word 0x0002ce03  # lbu x28, 0(x5)
    .word 0x01c30023  # sb x28, 0(x6)
    .word 0x00128293  # addi x5, x5, 1
    .word 0x00130313  # addi x6, x6, 1
    .word 0xfe7298e3  # bne x5, x7, -16
    # the body
    .word 0x06012023  # sw x0, 96(x2)
    .word 0x06012223  # sw x0, 100(x2)
    .word 0x06012423  # sw x0, 104(x2)
    .word 0x06012623  # sw x0, 108(x2)
    .word 0x06012823  # sw x0, 112(x2)
    .word 0x06012a23  # sw x0, 116(x2)
    .word 0x06012c23  # sw x0, 120(x2)
    .word 0x06012e23  # sw x0, 124(x2)
    .word 0x08012023  # sw x0, 128(x2)
    .word 0x08012223  # sw x0, 132(x2)
    .word 0x08012423  # sw x0, 136(x2)
    .word 0x08012623  # sw x0, 140(x2)
    .word 0x08012823  # sw x0, 144(x2)
    .word 0x08012a23  # sw x0, 148(x2)
    .word 0x08012c23  # sw x0, 152(x2)
    .word 0x08012e23  # sw x0, 156(x2)
    .word 0x428a32b7  # lui x5, 0x428a3
    .word 0xf9828293  # addi x5, x5, -104
    .word 0x0a512023  # sw x5, 160(x2)
    .word 0xe49b72b7  # lui x5, 0xe49b7
    .word 0x9c128293  # addi x5, x5, -1599
    .word 0x0a512223  # sw x5, 164(x2)
    .word 0x27b712b7  # lui x5, 0x27b71
    .word 0xa8528293  # addi x5, x5, -1403
    .word 0x0a512423  # sw x5, 168(x2)
    .word 0x19a4c2b7  # lui x5, 0x19a4c
    .word 0x11628293  # addi x5, x5, 278
    .word 0x0a512623  # sw x5, 172(x2)
    .word 0x713742b7  # lui x5, 0x71374
    .word 0x49128293  # addi x5, x5, 1169
    .word 0x0a512823  # sw x5, 176(x2)
    .word 0xefbe42b7  # lui x5, 0xefbe4
    .word 0x78628293  # addi x5, x5, 1926
    .word 0x0a512a23  # sw x5, 180(x2)
    .word 0x2e1b22b7  # lui x5, 0x2e1b2
    .word 0x13828293  # addi x5, x5, 312
    .word 0x0a512c23  # sw x5, 184(x2)
    .word 0x1e3772b7  # lui x5, 0x1e377
    .word 0xc0828293  # addi x5, x5, -1016
    .word 0x0a512e23  # sw x5, 188(x2)
    .word 0xb5c102b7  # lui x5, 0xb5c10
    .word 0xbcf28293  # addi x5, x5, -1073
    .word 0x0c512023  # sw x5, 192(x2)
    .word 0x0fc1a2b7  # lui x5, 0x0fc1a
    .word 0xdc628293  # addi x5, x5, -570
    .word 0x0c512223  # sw x5, 196(x2)
    .word 0x4d2c72b7  # lui x5, 0x4d2c7
    .word 0xdfc28293  # addi x5, x5, -516
    .word 0x0c512423  # sw x5, 200(x2)
    .word 0x274872b7  # lui x5, 0x27487
    .word 0x74c28293  # addi x5, x5, 1868
    .word 0x0c512623  # sw x5, 204(x2)
    .word 0xe9b5e2b7  # lui x5, 0xe9b5e
    .word 0xba528293  # addi x5, x5, -1115
    .word 0x0c512823  # sw x5, 208(x2)
    .word 0x240ca2b7  # lui x5, 0x240ca
    .word 0x1cc28293  # addi x5, x5, 460
    .word 0x0c512a23  # sw x5, 212(x2)
    .word 0x533812b7  # lui x5, 0x53381
    .word 0xd1328293  # addi x5, x5, -749
    .word 0x0c512c23  # sw x5, 216(x2)
    .word 0x34b0c2b7  # lui x5, 0x34b0c
    .word 0xcb528293  # addi x5, x5, -843
    .word 0x0c512e23  # sw x5, 220(x2)
    .word 0x3956c2b7  # lui x5, 0x3956c
    .word 0x25b28293  # addi x5, x5, 603
    .word 0x0e512023  # sw x5, 224(x2)
    .word 0x2de932b7  # lui x5, 0x2de93
    .word 0xc6f28293  # addi x5, x5, -913
    .word 0x0e512223  # sw x5, 228(x2)
    .word 0x650a72b7  # lui x5, 0x650a7
    .word 0x35428293  # addi x5, x5, 852
    .word 0x0e512423  # sw x5, 232(x2)
    .word 0x391c12b7  # lui x5, 0x391c1
    .word 0xcb328293  # addi x5, x5, -845
    .word 0x0e512623  # sw x5, 236(x2)
    .word 0x59f112b7  # lui x5, 0x59f11
    .word 0x1f128293  # addi x5, x5, 497
    .word 0x0e512823  # sw x5, 240(x2)
    .word 0x4a7482b7  # lui x5, 0x4a748
    .word 0x4aa28293  # addi x5, x5, 1194
    .word 0x0e512a23  # sw x5, 244(x2)
    .word 0x766a12b7  # lui x5, 0x766a1
    .word 0xabb28293  # addi x5, x5, -1349
    .word 0x0e512c23  # sw x5, 248(x2)
    .word 0x4ed8b2b7  # lui x5, 0x4ed8b
    .word 0xa4a28293  # addi x5, x5, -1462
    .word 0x0e512e23  # sw x5, 252(x2)
    .word 0x923f82b7  # lui x5, 0x923f8
    .word 0x2a428293  # addi x5, x5, 676
    .word 0x10512023  # sw x5, 256(x2)
    .word 0x5cb0b2b7  # lui x5, 0x5cb0b
    .word 0x9dc28293  # addi x5, x5, -1572
    .word 0x10512223  # sw x5, 260(x2)
    .word 0x81c2d2b7  # lui x5, 0x81c2d
    .word 0x92e28293  # addi x5, x5, -1746
    .word 0x10512423  # sw x5, 264(x2)
    .word 0x5b9cd2b7  # lui x5, 0x5b9cd
    .word 0xa4f28293  # addi x5, x5, -1457
    .word 0x10512623  # sw x5, 268(x2)
    .word 0xab1c62b7  # lui x5, 0xab1c6
    .word 0xed528293  # addi x5, x5, -299
    .word 0x10512823  # sw x5, 272(x2)
    .word 0x76f992b7  # lui x5, 0x76f99
    .word 0x8da28293  # addi x5, x5, -1830
    .word 0x10512a23  # sw x5, 276(x2)
    .word 0x927232b7  # lui x5, 0x92723
    .word 0xc8528293  # addi x5, x5, -891
    .word 0x10512c23  # sw x5, 280(x2)
    .word 0x682e72b7  # lui x5, 0x682e7
    .word 0xff328293  # addi x5, x5, -13
    .word 0x10512e23  # sw x5, 284(x2)
    .word 0xd807b2b7  # lui x5, 0xd807b
    .word 0xa9828293  # addi x5, x5, -1384
    .word 0x12512023  # sw x5, 288(x2)
    .word 0x983e52b7  # lui x5, 0x983e5
    .word 0x15228293  # addi x5, x5, 338
    .word 0x12512223  # sw x5, 292(x2)
    .word 0xa2bff2b7  # lui x5, 0xa2bff
    .word 0x8a128293  # addi x5, x5, -1887
    .word 0x12512423  # sw x5, 296(x2)
    .word 0x748f82b7  # lui x5, 0x748f8
    .word 0x2ee28293  # addi x5, x5, 750
    .word 0x12512623  # sw x5, 300(x2)
    .word 0x128362b7  # lui x5, 0x12836
    .word 0xb0128293  # addi x5, x5, -1279
    .word 0x12512823  # sw x5, 304(x2)
    .word 0xa831c2b7  # lui x5, 0xa831c
    .word 0x66d28293  # addi x5, x5, 1645
    .word 0x12512a23  # sw x5, 308(x2)
    .word 0xa81a62b7  # lui x5, 0xa81a6
    .word 0x64b28293  # addi x5, x5, 1611
    .word 0x12512c23  # sw x5, 312(x2)
    .word 0x78a562b7  # lui x5, 0x78a56
    .word 0x36f28293  # addi x5, x5, 879
    .word 0x12512e23  # sw x5, 316(x2)
    .word 0x243182b7  # lui x5, 0x24318
    .word 0x5be28293  # addi x5, x5, 1470
    .word 0x14512023  # sw x5, 320(x2)
    .word 0xb00322b7  # lui x5, 0xb0032
    .word 0x7c828293  # addi x5, x5, 1992
    .word 0x14512223  # sw x5, 324(x2)
    .word 0xc24b92b7  # lui x5, 0xc24b9
    .word 0xb7028293  # addi x5, x5, -1168
    .word 0x14512423  # sw x5, 328(x2)
    .word 0x84c882b7  # lui x5, 0x84c88
    .word 0x81428293  # addi x5, x5, -2028
    .word 0x14512623  # sw x5, 332(x2)
    .word 0x550c82b7  # lui x5, 0x550c8
    .word 0xdc328293  # addi x5, x5, -573
    .word 0x14512823  # sw x5, 336(x2)
    .word 0xbf5982b7  # lui x5, 0xbf598
    .word 0xfc728293  # addi x5, x5, -57
    .word 0x14512a23  # sw x5, 340(x2)
    .word 0xc76c52b7  # lui x5, 0xc76c5
    .word 0x1a328293  # addi x5, x5, 419
    .word 0x14512c23  # sw x5, 344(x2)
    .word 0x8cc702b7  # lui x5, 0x8cc70
    .word 0x20828293  # addi x5, x5, 520
    .word 0x14512e23  # sw x5, 348(x2)
    .word 0x72be62b7  # lui x5, 0x72be6
    .word 0xd7428293  # addi x5, x5, -652
    .word 0x16512023  # sw x5, 352(x2)
    .word 0xc6e012b7  # lui x5, 0xc6e01
    .word 0xbf328293  # addi x5, x5, -1037
    .word 0x16512223  # sw x5, 356(x2)
    .word 0xd192f2b7  # lui x5, 0xd192f
    .word 0x81928293  # addi x5, x5, -2023
    .word 0x16512423  # sw x5, 360(x2)
    .word 0x90bf02b7  # lui x5, 0x90bf0
    .word 0xffa28293  # addi x5, x5, -6
    .word 0x16512623  # sw x5, 364(x2)
    .word 0x80deb2b7  # lui x5, 0x80deb
    .word 0x1fe28293  # addi x5, x5, 510
    .word 0x16512823  # sw x5, 368(x2)
    .word 0xd5a792b7  # lui x5, 0xd5a79
    .word 0x14728293  # addi x5, x5, 327
    .word 0x16512a23  # sw x5, 372(x2)
    .word 0xd69902b7  # lui x5, 0xd6990
    .word 0x62428293  # addi x5, x5, 1572
    .word 0x16512c23  # sw x5, 376(x2)
    .word 0xa45072b7  # lui x5, 0xa4507
    .word 0xceb28293  # addi x5, x5, -789
    .word 0x16512e23  # sw x5, 380(x2)
    .word 0x9bdc02b7  # lui x5, 0x9bdc0
    .word 0x6a728293  # addi x5, x5, 1703
    .word 0x18512023  # sw x5, 384(x2)
    .word 0x06ca62b7  # lui x5, 0x06ca6
    .word 0x35128293  # addi x5, x5, 849
    .word 0x18512223  # sw x5, 388(x2)
    .word 0xf40e32b7  # lui x5, 0xf40e3
    .word 0x58528293  # addi x5, x5, 1413
    .word 0x18512423  # sw x5, 392(x2)
    .word 0xbef9a2b7  # lui x5, 0xbef9a
    .word 0x3f728293  # addi x5, x5, 1015
    .word 0x18512623  # sw x5, 396(x2)
    .word 0xc19bf2b7  # lui x5, 0xc19bf
    .word 0x17428293  # addi x5, x5, 372
    .word 0x18512823  # sw x5, 400(x2)
    .word 0x142932b7  # lui x5, 0x14293
    .word 0x96728293  # addi x5, x5, -1689
    .word 0x18512a23  # sw x5, 404(x2)
    .word 0x106aa2b7  # lui x5, 0x106aa
    .word 0x07028293  # addi x5, x5, 112
    .word 0x18512c23  # sw x5, 408(x2)
    .word 0xc67182b7  # lui x5, 0xc6718
    .word 0x8f228293  # addi x5, x5, -1806
    .word 0x18512e23  # sw x5, 412(x2)
    .word 0xfff00513  # addi x10, x0, -1
    .word 0x00150513  # addi x10, x10, 1
    .word 0x00251d13  # slli x26, x10, 2
    .word 0x002d1493  # slli x9, x26, 2
    .word 0x002484b3  # add x9, x9, x2
    .word 0x002d02b3  # add x5, x26, x2
    .word 0x0202c283  # lbu x5, 32(x5)
    .word 0x01829293  # slli x5, x5, 24
    .word 0x002d0333  # add x6, x26, x2
    .word 0x02134303  # lbu x6, 33(x6)
    .word 0x01031313  # slli x6, x6, 16
    .word 0x0062e7b3  # or x15, x5, x6
    .word 0x002d02b3  # add x5, x26, x2
    .word 0x0222c283  # lbu x5, 34(x5)
    .word 0x00829293  # slli x5, x5, 8
    .word 0x002d0333  # add x6, x26, x2
    .word 0x02334303  # lbu x6, 35(x6)
    .word 0x0062e833  # or x16, x5, x6
    .word 0x0107e333  # or x6, x15, x16
    .word 0x00251293  # slli x5, x10, 2
    .word 0x002282b3  # add x5, x5, x2
    .word 0x0662a023  # sw x6, 96(x5)
    .word 0xff150293  # addi x5, x10, -15
    .word 0xfa0294e3  # bne x5, x0, -88
    .word 0x00012583  # lw x11, 0(x2)
    .word 0x00412603  # lw x12, 4(x2)
    .word 0x00812683  # lw x13, 8(x2)
    .word 0x00c12703  # lw x14, 12(x2)
    .word 0x01012783  # lw x15, 16(x2)
    .word 0x01412803  # lw x16, 20(x2)
    .word 0x01812883  # lw x17, 24(x2)
    .word 0x01c12903  # lw x18, 28(x2)
    .word 0x00d649b3  # xor x19, x12, x13
    .word 0xfff00a93  # addi x21, x0, -1
    .word 0x001a8a93  # addi x21, x21, 1
    .word 0x29507663  # bgeu x0, x21, 652
    .word 0x00078a13  # addi x20, x15, 0
    .word 0x00080b13  # addi x22, x16, 0
    .word 0x00088b93  # addi x23, x17, 0
    .word 0x00090c13  # addi x24, x18, 0
    .word 0xfff00c93  # addi x25, x0, -1
    .word 0x001c8c93  # addi x25, x25, 1
    .word 0x002c9d93  # slli x27, x25, 2
    .word 0x002d8db3  # add x27, x27, x2
    .word 0x064da783  # lw x15, 100(x27)
    .word 0x00ec8293  # addi x5, x25, 14
    .word 0x00f2f293  # andi x5, x5, 15
    .word 0x00229813  # slli x16, x5, 2
    .word 0x00280833  # add x16, x16, x2
    .word 0x06082803  # lw x16, 96(x16)
    .word 0x01979f13  # slli x30, x15, 25
    .word 0x0077d293  # srli x5, x15, 7
    .word 0x005f02b3  # add x5, x30, x5
    .word 0x00e79f13  # slli x30, x15, 14
    .word 0x0127d313  # srli x6, x15, 18
    .word 0x006f0333  # add x6, x30, x6
    .word 0x0062c2b3  # xor x5, x5, x6
    .word 0x0037d313  # srli x6, x15, 3
    .word 0x0062c2b3  # xor x5, x5, x6
    .word 0x060da303  # lw x6, 96(x27)
    .word 0x006282b3  # add x5, x5, x6
    .word 0x009c8313  # addi x6, x25, 9
    .word 0x00f37313  # andi x6, x6, 15
    .word 0x00231313  # slli x6, x6, 2
    .word 0x00230333  # add x6, x6, x2
    .word 0x06032303  # lw x6, 96(x6)
    .word 0x006282b3  # add x5, x5, x6
    .word 0x065da023  # sw x5, 96(x27)
    .word 0x00f81f13  # slli x30, x16, 15
    .word 0x01185293  # srli x5, x16, 17
    .word 0x005f02b3  # add x5, x30, x5
    .word 0x00d81f13  # slli x30, x16, 13
    .word 0x01385313  # srli x6, x16, 19
    .word 0x006f0333  # add x6, x30, x6
    .word 0x0062c2b3  # xor x5, x5, x6
    .word 0x00a85313  # srli x6, x16, 10
    .word 0x0062c2b3  # xor x5, x5, x6
    .word 0x060da303  # lw x6, 96(x27)
    .word 0x006282b3  # add x5, x5, x6
    .word 0x065da023  # sw x5, 96(x27)
    .word 0xff9c8293  # addi x5, x25, -7
    .word 0xf60290e3  # bne x5, x0, -160
    .word 0x08012783  # lw x15, 128(x2)
    .word 0x07812883  # lw x17, 120(x2)
    .word 0x07c12903  # lw x18, 124(x2)
    .word 0xfff00c93  # addi x25, x0, -1
    .word 0x001c8c93  # addi x25, x25, 1
    .word 0x002c9d93  # slli x27, x25, 2
    .word 0x002d8db3  # add x27, x27, x2
    .word 0x002c9d13  # slli x26, x25, 2
    .word 0x002d1493  # slli x9, x26, 2
    .word 0x002484b3  # add x9, x9, x2
    .word 0x0844a803  # lw x16, 132(x9)
    .word 0x01981f13  # slli x30, x16, 25
    .word 0x00785293  # srli x5, x16, 7
    .word 0x005f02b3  # add x5, x30, x5
    .word 0x00e81f13  # slli x30, x16, 14
    .word 0x01285313  # srli x6, x16, 18
    .word 0x006f0333  # add x6, x30, x6
    .word 0x0062c2b3  # xor x5, x5, x6
    .word 0x00385313  # srli x6, x16, 3
    .word 0x0062c2b3  # xor x5, x5, x6
    .word 0x00f282b3  # add x5, x5, x15
    .word 0x0644a303  # lw x6, 100(x9)
    .word 0x006287b3  # add x15, x5, x6
    .word 0x00f89f13  # slli x30, x17, 15
    .word 0x0118d293  # srli x5, x17, 17
    .word 0x005f02b3  # add x5, x30, x5
    .word 0x00d89f13  # slli x30, x17, 13
    .word 0x0138d313  # srli x6, x17, 19
    .word 0x006f0333  # add x6, x30, x6
    .word 0x0062c2b3  # xor x5, x5, x6
    .word 0x00a8d313  # srli x6, x17, 10
    .word 0x0062c2b3  # xor x5, x5, x6
    .word 0x00f287b3  # add x15, x5, x15
    .word 0x08f4a023  # sw x15, 128(x9)
    .word 0x0884a883  # lw x17, 136(x9)
    .word 0x01989f13  # slli x30, x17, 25
    .word 0x0078d293  # srli x5, x17, 7
    .word 0x005f02b3  # add x5, x30, x5
    .word 0x00e89f13  # slli x30, x17, 14
    .word 0x0128d313  # srli x6, x17, 18
    .word 0x006f0333  # add x6, x30, x6
    .word 0x0062c2b3  # xor x5, x5, x6
    .word 0x0038d313  # srli x6, x17, 3
    .word 0x0062c2b3  # xor x5, x5, x6
    .word 0x010282b3  # add x5, x5, x16
    .word 0x0684a303  # lw x6, 104(x9)
    .word 0x00628833  # add x16, x5, x6
    .word 0x00f91f13  # slli x30, x18, 15
    .word 0x01195293  # srli x5, x18, 17
    .word 0x005f02b3  # add x5, x30, x5
    .word 0x00d91f13  # slli x30, x18, 13
    .word 0x01395313  # srli x6, x18, 19
    .word 0x006f0333  # add x6, x30, x6
    .word 0x0062c2b3  # xor x5, x5, x6
    .word 0x00a95313  # srli x6, x18, 10
    .word 0x0062c2b3  # xor x5, x5, x6
    .word 0x01028833  # add x16, x5, x16
    .word 0x0904a223  # sw x16, 132(x9)
    .word 0x08c4a903  # lw x18, 140(x9)
    .word 0x01991f13  # slli x30, x18, 25
    .word 0x00795293  # srli x5, x18, 7
    .word 0x005f02b3  # add x5, x30, x5
    .word 0x00e91f13  # slli x30, x18, 14
    .word 0x01295313  # srli x6, x18, 18
    .word 0x006f0333  # add x6, x30, x6
    .word 0x0062c2b3  # xor x5, x5, x6
    .word 0x00395313  # srli x6, x18, 3
    .word 0x0062c2b3  # xor x5, x5, x6
    .word 0x011282b3  # add x5, x5, x17
    .word 0x06c4a303  # lw x6, 108(x9)
    .word 0x006288b3  # add x17, x5, x6
    .word 0x00f79f13  # slli x30, x15, 15
    .word 0x0117d293  # srli x5, x15, 17
    .word 0x005f02b3  # add x5, x30, x5
    .word 0x00d79f13  # slli x30, x15, 13
    .word 0x0137d313  # srli x6, x15, 19
    .word 0x006f0333  # add x6, x30, x6
    .word 0x0062c2b3  # xor x5, x5, x6
    .word 0x00a7d313  # srli x6, x15, 10
    .word 0x0062c2b3  # xor x5, x5, x6
    .word 0x011288b3  # add x17, x5, x17
    .word 0x0914a423  # sw x17, 136(x9)
    .word 0x00cd0293  # addi x5, x26, 12
    .word 0x00f2f293  # andi x5, x5, 15
    .word 0x00229793  # slli x15, x5, 2
    .word 0x002787b3  # add x15, x15, x2
    .word 0x0607a783  # lw x15, 96(x15)
    .word 0x01979f13  # slli x30, x15, 25
    .word 0x0077d293  # srli x5, x15, 7
    .word 0x005f02b3  # add x5, x30, x5
    .word 0x00e79f13  # slli x30, x15, 14
    .word 0x0127d313  # srli x6, x15, 18
    .word 0x006f0333  # add x6, x30, x6
    .word 0x0062c2b3  # xor x5, x5, x6
    .word 0x0037d313  # srli x6, x15, 3
    .word 0x0062c2b3  # xor x5, x5, x6
    .word 0x012282b3  # add x5, x5, x18
    .word 0x0704a303  # lw x6, 112(x9)
    .word 0x00628933  # add x18, x5, x6
    .word 0x00f81f13  # slli x30, x16, 15
    .word 0x01185293  # srli x5, x16, 17
    .word 0x005f02b3  # add x5, x30, x5
    .word 0x00d81f13  # slli x30, x16, 13
    .word 0x01385313  # srli x6, x16, 19
    .word 0x006f0333  # add x6, x30, x6
    .word 0x0062c2b3  # xor x5, x5, x6
    .word 0x00a85313  # srli x6, x16, 10
    .word 0x0062c2b3  # xor x5, x5, x6
    .word 0x01228933  # add x18, x5, x18
    .word 0x0924a623  # sw x18, 140(x9)
    .word 0xfffc8293  # addi x5, x25, -1
    .word 0xe4029ae3  # bne x5, x0, -428
    .word 0x000a0793  # addi x15, x20, 0
    .word 0x000b0813  # addi x16, x22, 0
    .word 0x000b8893  # addi x17, x23, 0
    .word 0x000c0913  # addi x18, x24, 0
    .word 0xfff00c93  # addi x25, x0, -1
    .word 0x001c8c93  # addi x25, x25, 1
    .word 0x002c9d93  # slli x27, x25, 2
    .word 0x002d8db3  # add x27, x27, x2
    .word 0x003c9d13  # slli x26, x25, 3
    .word 0x002d1493  # slli x9, x26, 2
    .word 0x002484b3  # add x9, x9, x2
    .word 0x01a79f13  # slli x30, x15, 26
    .word 0x0067d313  # srli x6, x15, 6
    .word 0x006f0333  # add x6, x30, x6
    .word 0x01579f13  # slli x30, x15, 21
    .word 0x00b7d393  # srli x7, x15, 11
    .word 0x007f03b3  # add x7, x30, x7
    .word 0x00734333  # xor x6, x6, x7
    .word 0x00779f13  # slli x30, x15, 7
    .word 0x0197d393  # srli x7, x15, 25
    .word 0x007f03b3  # add x7, x30, x7
    .word 0x00734333  # xor x6, x6, x7
    .word 0x006902b3  # add x5, x18, x6
    .word 0x01184333  # xor x6, x16, x17
    .word 0x00f37333  # and x6, x6, x15
    .word 0x01134333  # xor x6, x6, x17
    .word 0x006282b3  # add x5, x5, x6
    .word 0x0604a303  # lw x6, 96(x9)
    .word 0x006282b3  # add x5, x5, x6
    .word 0x002d1393  # slli x7, x26, 2
    .word 0x007a8333  # add x6, x21, x7
    .word 0x00231313  # slli x6, x6, 2
    .word 0x00230333  # add x6, x6, x2
    .word 0x0a032303  # lw x6, 160(x6)
    .word 0x00628933  # add x18, x5, x6
    .word 0x01270733  # add x14, x14, x18
    .word 0x00c5ca33  # xor x20, x11, x12
    .word 0x0149f2b3  # and x5, x19, x20
    .word 0x00c2c9b3  # xor x19, x5, x12
    .word 0x01e59f13  # slli x30, x11, 30
    .word 0x0025d313  # srli x6, x11, 2
    .word 0x006f0333  # add x6, x30, x6
    .word 0x01359f13  # slli x30, x11, 19
    .word 0x00d5d393  # srli x7, x11, 13
    .word 0x007f03b3  # add x7, x30, x7
    .word 0x00734333  # xor x6, x6, x7
    .word 0x00a59f13  # slli x30, x11, 10
    .word 0x0165d393  # srli x7, x11, 22
    .word 0x007f03b3  # add x7, x30, x7
    .word 0x00734333  # xor x6, x6, x7
    .word 0x006902b3  # add x5, x18, x6
    .word 0x01328933  # add x18, x5, x19
    .word 0x01a71f13  # slli x30, x14, 26
    .word 0x00675313  # srli x6, x14, 6
    .word 0x006f0333  # add x6, x30, x6
    .word 0x01571f13  # slli x30, x14, 21
    .word 0x00b75393  # srli x7, x14, 11
    .word 0x007f03b3  # add x7, x30, x7
    .word 0x00734333  # xor x6, x6, x7
    .word 0x00771f13  # slli x30, x14, 7
    .word 0x01975393  # srli x7, x14, 25
    .word 0x007f03b3  # add x7, x30, x7
    .word 0x00734333  # xor x6, x6, x7
    .word 0x006882b3  # add x5, x17, x6
    .word 0x0107c333  # xor x6, x15, x16
    .word 0x00e37333  # and x6, x6, x14
    .word 0x01034333  # xor x6, x6, x16
    .word 0x006282b3  # add x5, x5, x6
    .word 0x0644a303  # lw x6, 100(x9)
    .word 0x006282b3  # add x5, x5, x6
    .word 0x001d0393  # addi x7, x26, 1
    .word 0x00239393  # slli x7, x7, 2
    .word 0x007a8333  # add x6, x21, x7
    .word 0x00231313  # slli x6, x6, 2
    .word 0x00230333  # add x6, x6, x2
    .word 0x0a032303  # lw x6, 160(x6)
    .word 0x006288b3  # add x17, x5, x6
    .word 0x011686b3  # add x13, x13, x17
    .word 0x00b949b3  # xor x19, x18, x11
    .word 0x013a72b3  # and x5, x20, x19
    .word 0x00b2ca33  # xor x20, x5, x11
    .word 0x01e91f13  # slli x30, x18, 30
    .word 0x00295313  # srli x6, x18, 2
    .word 0x006f0333  # add x6, x30, x6
    .word 0x01391f13  # slli x30, x18, 19
    .word 0x00d95393  # srli x7, x18, 13
    .word 0x007f03b3  # add x7, x30, x7
    .word 0x00734333  # xor x6, x6, x7
    .word 0x00a91f13  # slli x30, x18, 10
    .word 0x01695393  # srli x7, x18, 22
    .word 0x007f03b3  # add x7, x30, x7
    .word 0x00734333  # xor x6, x6, x7
    .word 0x006882b3  # add x5, x17, x6
    .word 0x014288b3  # add x17, x5, x20
    .word 0x01a69f13  # slli x30, x13, 26
    .word 0x0066d313  # srli x6, x13, 6
    .word 0x006f0333  # add x6, x30, x6
    .word 0x01569f13  # slli x30, x13, 21
    .word 0x00b6d393  # srli x7, x13, 11
    .word 0x007f03b3  # add x7, x30, x7
    .word 0x00734333  # xor x6, x6, x7
    .word 0x00769f13  # slli x30, x13, 7
    .word 0x0196d393  # srli x7, x13, 25
    .word 0x007f03b3  # add x7, x30, x7
    .word 0x00734333  # xor x6, x6, x7
    .word 0x006802b3  # add x5, x16, x6
    .word 0x00f74333  # xor x6, x14, x15
    .word 0x00d37333  # and x6, x6, x13
    .word 0x00f34333  # xor x6, x6, x15
    .word 0x006282b3  # add x5, x5, x6
    .word 0x0684a303  # lw x6, 104(x9)
    .word 0x006282b3  # add x5, x5, x6
    .word 0x002d0393  # addi x7, x26, 2
    .word 0x00239393  # slli x7, x7, 2
    .word 0x007a8333  # add x6, x21, x7
    .word 0x00231313  # slli x6, x6, 2
    .word 0x00230333  # add x6, x6, x2
    .word 0x0a032303  # lw x6, 160(x6)
    .word 0x00628833  # add x16, x5, x6
    .word 0x01060633  # add x12, x12, x16
    .word 0x0128ca33  # xor x20, x17, x18
    .word 0x0149f2b3  # and x5, x19, x20
    .word 0x0122c9b3  # xor x19, x5, x18
    .word 0x01e89f13  # slli x30, x17, 30
    .word 0x0028d313  # srli x6, x17, 2
    .word 0x006f0333  # add x6, x30, x6
    .word 0x01389f13  # slli x30, x17, 19
    .word 0x00d8d393  # srli x7, x17, 13
    .word 0x007f03b3  # add x7, x30, x7
    .word 0x00734333  # xor x6, x6, x7
    .word 0x00a89f13  # slli x30, x17, 10
    .word 0x0168d393  # srli x7, x17, 22
    .word 0x007f03b3  # add x7, x30, x7
    .word 0x00734333  # xor x6, x6, x7
    .word 0x006802b3  # add x5, x16, x6
    .word 0x01328833  # add x16, x5, x19
    .word 0x01a61f13  # slli x30, x12, 26
    .word 0x00665313  # srli x6, x12, 6
    .word 0x006f0333  # add x6, x30, x6
    .word 0x01561f13  # slli x30, x12, 21
    .word 0x00b65393  # srli x7, x12, 11
    .word 0x007f03b3  # add x7, x30, x7
    .word 0x00734333  # xor x6, x6, x7
    .word 0x00761f13  # slli x30, x12, 7
    .word 0x01965393  # srli x7, x12, 25
    .word 0x007f03b3  # add x7, x30, x7
    .word 0x00734333  # xor x6, x6, x7
    .word 0x006782b3  # add x5, x15, x6
    .word 0x00e6c333  # xor x6, x13, x14
    .word 0x00c37333  # and x6, x6, x12
    .word 0x00e34333  # xor x6, x6, x14
    .word 0x006282b3  # add x5, x5, x6
    .word 0x06c4a303  # lw x6, 108(x9)
    .word 0x006282b3  # add x5, x5, x6
    .word 0x003d0393  # addi x7, x26, 3
    .word 0x00239393  # slli x7, x7, 2
    .word 0x007a8333  # add x6, x21, x7
    .word 0x00231313  # slli x6, x6, 2
    .word 0x00230333  # add x6, x6, x2
    .word 0x0a032303  # lw x6, 160(x6)
    .word 0x006287b3  # add x15, x5, x6
    .word 0x00f585b3  # add x11, x11, x15
    .word 0x011849b3  # xor x19, x16, x17
    .word 0x013a72b3  # and x5, x20, x19
    .word 0x0112ca33  # xor x20, x5, x17
    .word 0x01e81f13  # slli x30, x16, 30
    .word 0x00285313  # srli x6, x16, 2
    .word 0x006f0333  # add x6, x30, x6
    .word 0x01381f13  # slli x30, x16, 19
    .word 0x00d85393  # srli x7, x16, 13
    .word 0x007f03b3  # add x7, x30, x7
    .word 0x00734333  # xor x6, x6, x7
    .word 0x00a81f13  # slli x30, x16, 10
    .word 0x01685393  # srli x7, x16, 22
    .word 0x007f03b3  # add x7, x30, x7
    .word 0x00734333  # xor x6, x6, x7
    .word 0x006782b3  # add x5, x15, x6
    .word 0x014287b3  # add x15, x5, x20
    .word 0x01a59f13  # slli x30, x11, 26
    .word 0x0065d313  # srli x6, x11, 6
    .word 0x006f0333  # add x6, x30, x6
    .word 0x01559f13  # slli x30, x11, 21
    .word 0x00b5d393  # srli x7, x11, 11
    .word 0x007f03b3  # add x7, x30, x7
    .word 0x00734333  # xor x6, x6, x7
    .word 0x00759f13  # slli x30, x11, 7
    .word 0x0195d393  # srli x7, x11, 25
    .word 0x007f03b3  # add x7, x30, x7
    .word 0x00734333  # xor x6, x6, x7
    .word 0x006702b3  # add x5, x14, x6
    .word 0x00d64333  # xor x6, x12, x13
    .word 0x00b37333  # and x6, x6, x11
    .word 0x00d34333  # xor x6, x6, x13
    .word 0x006282b3  # add x5, x5, x6
    .word 0x0704a303  # lw x6, 112(x9)
    .word 0x006282b3  # add x5, x5, x6
    .word 0x004d0393  # addi x7, x26, 4
    .word 0x00239393  # slli x7, x7, 2
    .word 0x007a8333  # add x6, x21, x7
    .word 0x00231313  # slli x6, x6, 2
    .word 0x00230333  # add x6, x6, x2
    .word 0x0a032303  # lw x6, 160(x6)
    .word 0x00628733  # add x14, x5, x6
    .word 0x00e90933  # add x18, x18, x14
    .word 0x0107ca33  # xor x20, x15, x16
    .word 0x0149f2b3  # and x5, x19, x20
    .word 0x0102c9b3  # xor x19, x5, x16
    .word 0x01e79f13  # slli x30, x15, 30
    .word 0x0027d313  # srli x6, x15, 2
    .word 0x006f0333  # add x6, x30, x6
    .word 0x01379f13  # slli x30, x15, 19
    .word 0x00d7d393  # srli x7, x15, 13
    .word 0x007f03b3  # add x7, x30, x7
    .word 0x00734333  # xor x6, x6, x7
    .word 0x00a79f13  # slli x30, x15, 10
    .word 0x0167d393  # srli x7, x15, 22
    .word 0x007f03b3  # add x7, x30, x7
    .word 0x00734333  # xor x6, x6, x7
    .word 0x006702b3  # add x5, x14, x6
    .word 0x01328733  # add x14, x5, x19
    .word 0x01a91f13  # slli x30, x18, 26
    .word 0x00695313  # srli x6, x18, 6
    .word 0x006f0333  # add x6, x30, x6
    .word 0x01591f13  # slli x30, x18, 21
    .word 0x00b95393  # srli x7, x18, 11
    .word 0x007f03b3  # add x7, x30, x7
    .word 0x00734333  # xor x6, x6, x7
    .word 0x00791f13  # slli x30, x18, 7
    .word 0x01995393  # srli x7, x18, 25
    .word 0x007f03b3  # add x7, x30, x7
    .word 0x00734333  # xor x6, x6, x7
    .word 0x006682b3  # add x5, x13, x6
    .word 0x00c5c333  # xor x6, x11, x12
    .word 0x01237333  # and x6, x6, x18
    .word 0x00c34333  # xor x6, x6, x12
    .word 0x006282b3  # add x5, x5, x6
    .word 0x0744a303  # lw x6, 116(x9)
    .word 0x006282b3  # add x5, x5, x6
    .word 0x005d0393  # addi x7, x26, 5
    .word 0x00239393  # slli x7, x7, 2
    .word 0x007a8333  # add x6, x21, x7
    .word 0x00231313  # slli x6, x6, 2
    .word 0x00230333  # add x6, x6, x2
    .word 0x0a032303  # lw x6, 160(x6)
    .word 0x006286b3  # add x13, x5, x6
    .word 0x00d888b3  # add x17, x17, x13
    .word 0x00f749b3  # xor x19, x14, x15
    .word 0x013a72b3  # and x5, x20, x19
    .word 0x00f2ca33  # xor x20, x5, x15
    .word 0x01e71f13  # slli x30, x14, 30
    .word 0x00275313  # srli x6, x14, 2
    .word 0x006f0333  # add x6, x30, x6
    .word 0x01371f13  # slli x30, x14, 19
    .word 0x00d75393  # srli x7, x14, 13
    .word 0x007f03b3  # add x7, x30, x7
    .word 0x00734333  # xor x6, x6, x7
    .word 0x00a71f13  # slli x30, x14, 10
    .word 0x01675393  # srli x7, x14, 22
    .word 0x007f03b3  # add x7, x30, x7
    .word 0x00734333  # xor x6, x6, x7
    .word 0x006682b3  # add x5, x13, x6
    .word 0x014286b3  # add x13, x5, x20
    .word 0x01a89f13  # slli x30, x17, 26
    .word 0x0068d313  # srli x6, x17, 6
    .word 0x006f0333  # add x6, x30, x6
    .word 0x01589f13  # slli x30, x17, 21
    .word 0x00b8d393  # srli x7, x17, 11
    .word 0x007f03b3  # add x7, x30, x7
    .word 0x00734333  # xor x6, x6, x7
    .word 0x00789f13  # slli x30, x17, 7
    .word 0x0198d393  # srli x7, x17, 25
    .word 0x007f03b3  # add x7, x30, x7
    .word 0x00734333  # xor x6, x6, x7
    .word 0x006602b3  # add x5, x12, x6
    .word 0x00b94333  # xor x6, x18, x11
    .word 0x01137333  # and x6, x6, x17
    .word 0x00b34333  # xor x6, x6, x11
    .word 0x006282b3  # add x5, x5, x6
    .word 0x0784a303  # lw x6, 120(x9)
    .word 0x006282b3  # add x5, x5, x6
    .word 0x006d0393  # addi x7, x26, 6
    .word 0x00239393  # slli x7, x7, 2
    .word 0x007a8333  # add x6, x21, x7
    .word 0x00231313  # slli x6, x6, 2
    .word 0x00230333  # add x6, x6, x2
    .word 0x0a032303  # lw x6, 160(x6)
    .word 0x00628633  # add x12, x5, x6
    .word 0x00c80833  # add x16, x16, x12
    .word 0x00e6ca33  # xor x20, x13, x14
    .word 0x0149f2b3  # and x5, x19, x20
    .word 0x00e2c9b3  # xor x19, x5, x14
    .word 0x01e69f13  # slli x30, x13, 30
    .word 0x0026d313  # srli x6, x13, 2
    .word 0x006f0333  # add x6, x30, x6
    .word 0x01369f13  # slli x30, x13, 19
    .word 0x00d6d393  # srli x7, x13, 13
    .word 0x007f03b3  # add x7, x30, x7
    .word 0x00734333  # xor x6, x6, x7
    .word 0x00a69f13  # slli x30, x13, 10
    .word 0x0166d393  # srli x7, x13, 22
    .word 0x007f03b3  # add x7, x30, x7
    .word 0x00734333  # xor x6, x6, x7
    .word 0x006602b3  # add x5, x12, x6
    .word 0x01328633  # add x12, x5, x19
    .word 0x01a81f13  # slli x30, x16, 26
    .word 0x00685313  # srli x6, x16, 6
    .word 0x006f0333  # add x6, x30, x6
    .word 0x01581f13  # slli x30, x16, 21
    .word 0x00b85393  # srli x7, x16, 11
    .word 0x007f03b3  # add x7, x30, x7
    .word 0x00734333  # xor x6, x6, x7
    .word 0x00781f13  # slli x30, x16, 7
    .word 0x01985393  # srli x7, x16, 25
    .word 0x007f03b3  # add x7, x30, x7
    .word 0x00734333  # xor x6, x6, x7
    .word 0x006582b3  # add x5, x11, x6
    .word 0x0128c333  # xor x6, x17, x18
    .word 0x01037333  # and x6, x6, x16
    .word 0x01234333  # xor x6, x6, x18
    .word 0x006282b3  # add x5, x5, x6
    .word 0x07c4a303  # lw x6, 124(x9)
    .word 0x006282b3  # add x5, x5, x6
    .word 0x007d0393  # addi x7, x26, 7
    .word 0x00239393  # slli x7, x7, 2
    .word 0x007a8333  # add x6, x21, x7
    .word 0x00231313  # slli x6, x6, 2
    .word 0x00230333  # add x6, x6, x2
    .word 0x0a032303  # lw x6, 160(x6)
    .word 0x006285b3  # add x11, x5, x6
    .word 0x00b787b3  # add x15, x15, x11
    .word 0x00d649b3  # xor x19, x12, x13
    .word 0x013a72b3  # and x5, x20, x19
    .word 0x00d2ca33  # xor x20, x5, x13
    .word 0x01e61f13  # slli x30, x12, 30
    .word 0x00265313  # srli x6, x12, 2
    .word 0x006f0333  # add x6, x30, x6
    .word 0x01361f13  # slli x30, x12, 19
    .word 0x00d65393  # srli x7, x12, 13
    .word 0x007f03b3  # add x7, x30, x7
    .word 0x00734333  # xor x6, x6, x7
    .word 0x00a61f13  # slli x30, x12, 10
    .word 0x01665393  # srli x7, x12, 22
    .word 0x007f03b3  # add x7, x30, x7
    .word 0x00734333  # xor x6, x6, x7
    .word 0x006582b3  # add x5, x11, x6
    .word 0x014285b3  # add x11, x5, x20
    .word 0xfffc8293  # addi x5, x25, -1
    .word 0xaa0294e3  # bne x5, x0, -1368
    .word 0xffda8293  # addi x5, x21, -3
    .word 0x800296e3  # bne x5, x0, -2036
    .word 0x00012283  # lw x5, 0(x2)
    .word 0x00b282b3  # add x5, x5, x11
    .word 0x00512023  # sw x5, 0(x2)
    .word 0x00412283  # lw x5, 4(x2)
    .word 0x00c282b3  # add x5, x5, x12
    .word 0x00512223  # sw x5, 4(x2)
    .word 0x00812283  # lw x5, 8(x2)
    .word 0x00d282b3  # add x5, x5, x13
    .word 0x00512423  # sw x5, 8(x2)
    .word 0x00c12283  # lw x5, 12(x2)
    .word 0x00e282b3  # add x5, x5, x14
    .word 0x00512623  # sw x5, 12(x2)
    .word 0x01012283  # lw x5, 16(x2)
    .word 0x00f282b3  # add x5, x5, x15
    .word 0x00512823  # sw x5, 16(x2)
    .word 0x01412283  # lw x5, 20(x2)
    .word 0x010282b3  # add x5, x5, x16
    .word 0x00512a23  # sw x5, 20(x2)
    .word 0x01812283  # lw x5, 24(x2)
    .word 0x011282b3  # add x5, x5, x17
    .word 0x00512c23  # sw x5, 24(x2)
    .word 0x01c12283  # lw x5, 28(x2)
    .word 0x012282b3  # add x5, x5, x18
    .word 0x00512e23  # sw x5, 28(x2)
    # the result
    .word 0x00000513  # addi x10, x0, 0
    # parameter 0: the array, back
    .word 0x00010293  # addi x5, x2, 0
    .word 0x1ec12303  # lw x6, 492(x2)
    .word 0x02028393  # addi x7, x5, 32
    .word 0x0002ae03  # lw x28, 0(x5)
    .word 0x01c32023  # sw x28, 0(x6)
    .word 0x00428293  # addi x5, x5, 4
    .word 0x00430313  # addi x6, x6, 4
    .word 0xfe7298e3  # bne x5, x7, -16
    # above the frame
    .word 0x1c010293  # addi x5, x2, 448
    # the caller's registers
    .word 0x0002a483  # lw x9, 0(x5)
    .cfi_restore 9
    .word 0x0042a903  # lw x18, 4(x5)
    .cfi_restore 18
    .word 0x0082a983  # lw x19, 8(x5)
    .cfi_restore 19
    .word 0x00c2aa03  # lw x20, 12(x5)
    .cfi_restore 20
    .word 0x0102aa83  # lw x21, 16(x5)
    .cfi_restore 21
    .word 0x0142ab03  # lw x22, 20(x5)
    .cfi_restore 22
    .word 0x0182ab83  # lw x23, 24(x5)
    .cfi_restore 23
    .word 0x01c2ac03  # lw x24, 28(x5)
    .cfi_restore 24
    .word 0x0202ac83  # lw x25, 32(x5)
    .cfi_restore 25
    .word 0x0242ad03  # lw x26, 36(x5)
    .cfi_restore 26
    .word 0x0282ad83  # lw x27, 40(x5)
    .cfi_restore 27
    # the caller's x2
    .word 0x03028293  # addi x5, x5, 48
    .cfi_def_cfa 5, 0
    # on to the tail that functions share
    jal x0, factc.tail.1
    .cfi_endproc
    .size sha256_block, . - sha256_block
    .section .text.factc.tail.1, "axG", @progbits, factc.tail.1, comdat
    .p2align 2
    .globl factc.tail.1
    .hidden factc.tail.1
    .type factc.tail.1, @function
factc.tail.1:
    .cfi_startproc
    .cfi_def_cfa 5, 0
    # all the room, wiped upward
    .word 0x00012023  # sw x0, 0(x2)
    .word 0x00012223  # sw x0, 4(x2)
    .word 0x00012423  # sw x0, 8(x2)
    .word 0x00012623  # sw x0, 12(x2)
    .word 0x01010113  # addi x2, x2, 16
    .word 0xfe5116e3  # bne x2, x5, -20
    .cfi_def_cfa 2, 0
    # temporaries, wiped
    .word 0x00000293  # addi x5, x0, 0
    .word 0x00000313  # addi x6, x0, 0
    .word 0x00000393  # addi x7, x0, 0
    .word 0x00000593  # addi x11, x0, 0
    .word 0x00000613  # addi x12, x0, 0
    .word 0x00000693  # addi x13, x0, 0
    .word 0x00000713  # addi x14, x0, 0
    .word 0x00000793  # addi x15, x0, 0
    .word 0x00000813  # addi x16, x0, 0
    .word 0x00000893  # addi x17, x0, 0
    .word 0x00000e13  # addi x28, x0, 0
    .word 0x00000e93  # addi x29, x0, 0
    .word 0x00000f13  # addi x30, x0, 0
    .word 0x00000f93  # addi x31, x0, 0
    # back
    .word 0x00008067  # jalr x0, 0(x1)
    .cfi_endproc
    .size factc.tail.1, . - factc.tail.1
    .option pop
