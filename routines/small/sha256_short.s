# sha256_short: made by factc 1.0.0 function; 846 words and 21 shared, 736 bytes of stack, profile 1
    .option push
    .option norvc
    .option norelax
    .cfi_sections .debug_frame
    .section .text.sha256_short, "ax", @progbits
    .p2align 2
    .globl sha256_short
    .type sha256_short, @function
sha256_short:
    .cfi_startproc
    # room above the frame
    .word 0xfc010113  # addi x2, x2, -64
    .cfi_def_cfa_offset 64
    # the caller's registers
    .word 0x00812023  # sw x8, 0(x2)
    .cfi_offset 8, -64
    .word 0x01212223  # sw x18, 4(x2)
    .cfi_offset 18, -60
    .word 0x01312423  # sw x19, 8(x2)
    .cfi_offset 19, -56
    .word 0x01412623  # sw x20, 12(x2)
    .cfi_offset 20, -52
    .word 0x01512823  # sw x21, 16(x2)
    .cfi_offset 21, -48
    .word 0x01612a23  # sw x22, 20(x2)
    .cfi_offset 22, -44
    .word 0x01712c23  # sw x23, 24(x2)
    .cfi_offset 23, -40
    .word 0x01812e23  # sw x24, 28(x2)
    .cfi_offset 24, -36
    .word 0x03912023  # sw x25, 32(x2)
    .cfi_offset 25, -32
    .word 0x03a12223  # sw x26, 36(x2)
    .cfi_offset 26, -28
    .word 0x03b12423  # sw x27, 40(x2)
    .cfi_offset 27, -24
    # arguments that are needed behind the body
    .word 0x02a12a23  # sw x10, 52(x2)
    .word 0x02b12c23  # sw x11, 56(x2)
    .word 0x02c12e23  # sw x12, 60(x2)
    # the frame's base
    .word 0xd6010113  # addi x2, x2, -672
    .cfi_def_cfa 2, 736
    # parameter 0: an array
    .word 0x00050293  # addi x5, x10, 0
    .word 0x00010313  # addi x6, x2, 0
    .word 0x07728393  # addi x7, x5, 119
    .word 0x0002ce03  # lbu x28, 0(x5)
    .word 0x01c30023  # sb x28, 0(x6)
    .word 0x00128293  # addi x5, x5, 1
    .word 0x00130313  # addi x6, x6, 1
    .word 0xfe7298e3  # bne x5, x7, -16
    # parameter 1: a word
    .word 0x06b12c23  # sw x11, 120(x2)
    # parameter 2: an array
    .word 0x00060293  # addi x5, x12, 0
    .word 0x07c10313  # addi x6, x2, 124
    .word 0x02028393  # addi x7, x5, 32
    .word 0x0002ce03  # lbu x28, 0(x5)
    .word 0x01c30023  # sb x28, 0(x6)
    .word 0x00128293  # addi x5, x5, 1
    .word 0x00130313  # addi x6, x6, 1
    .word 0xfe7298e3  # bne x5, x7, -16
    # the body
    .word 0x00000513  # addi x10, x0, 0
    .word 0x6a09e2b7  # lui x5, 0x6a09e
    .word 0x66728293  # addi x5, x5, 1639
    .word 0x08512e23  # sw x5, 156(x2)
    .word 0xbb67b2b7  # lui x5, 0xbb67b
    .word 0xe8528293  # addi x5, x5, -379
    .word 0x0a512023  # sw x5, 160(x2)
    .word 0x3c6ef2b7  # lui x5, 0x3c6ef
    .word 0x37228293  # addi x5, x5, 882
    .word 0x0a512223  # sw x5, 164(x2)
    .word 0xa54ff2b7  # lui x5, 0xa54ff
    .word 0x53a28293  # addi x5, x5, 1338
    .word 0x0a512423  # sw x5, 168(x2)
    .word 0x510e52b7  # lui x5, 0x510e5
    .word 0x27f28293  # addi x5, x5, 639
    .word 0x0a512623  # sw x5, 172(x2)
    .word 0x9b0572b7  # lui x5, 0x9b057
    .word 0x88c28293  # addi x5, x5, -1908
    .word 0x0a512823  # sw x5, 176(x2)
    .word 0x1f83e2b7  # lui x5, 0x1f83e
    .word 0x9ab28293  # addi x5, x5, -1621
    .word 0x0a512a23  # sw x5, 180(x2)
    .word 0x5be0d2b7  # lui x5, 0x5be0d
    .word 0xd1928293  # addi x5, x5, -743
    .word 0x0a512c23  # sw x5, 184(x2)
    .word 0x0bc00313  # addi x6, x0, 188
    .word 0x00230333  # add x6, x6, x2
    .word 0x04000393  # addi x7, x0, 64
    .word 0x006383b3  # add x7, x7, x6
    .word 0x406382b3  # sub x5, x7, x6
    .word 0x00029463  # bne x5, x0, 8
    .word 0x0100006f  # jal x0, 16
    .word 0x00032023  # sw x0, 0(x6)
    .word 0x00430313  # addi x6, x6, 4
    .word 0xfedff06f  # jal x0, -20
    .word 0x07812283  # lw x5, 120(x2)
    .word 0x0772b293  # sltiu x5, x5, 119
    .word 0x07812303  # lw x6, 120(x2)
    .word 0x07700393  # addi x7, x0, 119
    .word 0x405002b3  # sub x5, x0, x5
    .word 0x00734333  # xor x6, x6, x7
    .word 0x00537333  # and x6, x6, x5
    .word 0x0063c2b3  # xor x5, x7, x6
    .word 0x07800313  # addi x6, x0, 120
    .word 0x0262fbb3  # remu x23, x5, x6
    .word 0x002b9d93  # slli x27, x23, 2
    .word 0x002d8db3  # add x27, x27, x2
    .word 0x428a32b7  # lui x5, 0x428a3
    .word 0xf9828293  # addi x5, x5, -104
    .word 0x0e512e23  # sw x5, 252(x2)
    .word 0x713742b7  # lui x5, 0x71374
    .word 0x49128293  # addi x5, x5, 1169
    .word 0x10512023  # sw x5, 256(x2)
    .word 0xb5c102b7  # lui x5, 0xb5c10
    .word 0xbcf28293  # addi x5, x5, -1073
    .word 0x10512223  # sw x5, 260(x2)
    .word 0xe9b5e2b7  # lui x5, 0xe9b5e
    .word 0xba528293  # addi x5, x5, -1115
    .word 0x10512423  # sw x5, 264(x2)
    .word 0x3956c2b7  # lui x5, 0x3956c
    .word 0x25b28293  # addi x5, x5, 603
    .word 0x10512623  # sw x5, 268(x2)
    .word 0x59f112b7  # lui x5, 0x59f11
    .word 0x1f128293  # addi x5, x5, 497
    .word 0x10512823  # sw x5, 272(x2)
    .word 0x923f82b7  # lui x5, 0x923f8
    .word 0x2a428293  # addi x5, x5, 676
    .word 0x10512a23  # sw x5, 276(x2)
    .word 0xab1c62b7  # lui x5, 0xab1c6
    .word 0xed528293  # addi x5, x5, -299
    .word 0x10512c23  # sw x5, 280(x2)
    .word 0xd807b2b7  # lui x5, 0xd807b
    .word 0xa9828293  # addi x5, x5, -1384
    .word 0x10512e23  # sw x5, 284(x2)
    .word 0x128362b7  # lui x5, 0x12836
    .word 0xb0128293  # addi x5, x5, -1279
    .word 0x12512023  # sw x5, 288(x2)
    .word 0x243182b7  # lui x5, 0x24318
    .word 0x5be28293  # addi x5, x5, 1470
    .word 0x12512223  # sw x5, 292(x2)
    .word 0x550c82b7  # lui x5, 0x550c8
    .word 0xdc328293  # addi x5, x5, -573
    .word 0x12512423  # sw x5, 296(x2)
    .word 0x72be62b7  # lui x5, 0x72be6
    .word 0xd7428293  # addi x5, x5, -652
    .word 0x12512623  # sw x5, 300(x2)
    .word 0x80deb2b7  # lui x5, 0x80deb
    .word 0x1fe28293  # addi x5, x5, 510
    .word 0x12512823  # sw x5, 304(x2)
    .word 0x9bdc02b7  # lui x5, 0x9bdc0
    .word 0x6a728293  # addi x5, x5, 1703
    .word 0x12512a23  # sw x5, 308(x2)
    .word 0xc19bf2b7  # lui x5, 0xc19bf
    .word 0x17428293  # addi x5, x5, 372
    .word 0x12512c23  # sw x5, 312(x2)
    .word 0xe49b72b7  # lui x5, 0xe49b7
    .word 0x9c128293  # addi x5, x5, -1599
    .word 0x12512e23  # sw x5, 316(x2)
    .word 0xefbe42b7  # lui x5, 0xefbe4
    .word 0x78628293  # addi x5, x5, 1926
    .word 0x14512023  # sw x5, 320(x2)
    .word 0x0fc1a2b7  # lui x5, 0x0fc1a
    .word 0xdc628293  # addi x5, x5, -570
    .word 0x14512223  # sw x5, 324(x2)
    .word 0x240ca2b7  # lui x5, 0x240ca
    .word 0x1cc28293  # addi x5, x5, 460
    .word 0x14512423  # sw x5, 328(x2)
    .word 0x2de932b7  # lui x5, 0x2de93
    .word 0xc6f28293  # addi x5, x5, -913
    .word 0x14512623  # sw x5, 332(x2)
    .word 0x4a7482b7  # lui x5, 0x4a748
    .word 0x4aa28293  # addi x5, x5, 1194
    .word 0x14512823  # sw x5, 336(x2)
    .word 0x5cb0b2b7  # lui x5, 0x5cb0b
    .word 0x9dc28293  # addi x5, x5, -1572
    .word 0x14512a23  # sw x5, 340(x2)
    .word 0x76f992b7  # lui x5, 0x76f99
    .word 0x8da28293  # addi x5, x5, -1830
    .word 0x14512c23  # sw x5, 344(x2)
    .word 0x983e52b7  # lui x5, 0x983e5
    .word 0x15228293  # addi x5, x5, 338
    .word 0x14512e23  # sw x5, 348(x2)
    .word 0xa831c2b7  # lui x5, 0xa831c
    .word 0x66d28293  # addi x5, x5, 1645
    .word 0x16512023  # sw x5, 352(x2)
    .word 0xb00322b7  # lui x5, 0xb0032
    .word 0x7c828293  # addi x5, x5, 1992
    .word 0x16512223  # sw x5, 356(x2)
    .word 0xbf5982b7  # lui x5, 0xbf598
    .word 0xfc728293  # addi x5, x5, -57
    .word 0x16512423  # sw x5, 360(x2)
    .word 0xc6e012b7  # lui x5, 0xc6e01
    .word 0xbf328293  # addi x5, x5, -1037
    .word 0x16512623  # sw x5, 364(x2)
    .word 0xd5a792b7  # lui x5, 0xd5a79
    .word 0x14728293  # addi x5, x5, 327
    .word 0x16512823  # sw x5, 368(x2)
    .word 0x06ca62b7  # lui x5, 0x06ca6
    .word 0x35128293  # addi x5, x5, 849
    .word 0x16512a23  # sw x5, 372(x2)
    .word 0x142932b7  # lui x5, 0x14293
    .word 0x96728293  # addi x5, x5, -1689
    .word 0x16512c23  # sw x5, 376(x2)
    .word 0x27b712b7  # lui x5, 0x27b71
    .word 0xa8528293  # addi x5, x5, -1403
    .word 0x16512e23  # sw x5, 380(x2)
    .word 0x2e1b22b7  # lui x5, 0x2e1b2
    .word 0x13828293  # addi x5, x5, 312
    .word 0x18512023  # sw x5, 384(x2)
    .word 0x4d2c72b7  # lui x5, 0x4d2c7
    .word 0xdfc28293  # addi x5, x5, -516
    .word 0x18512223  # sw x5, 388(x2)
    .word 0x533812b7  # lui x5, 0x53381
    .word 0xd1328293  # addi x5, x5, -749
    .word 0x18512423  # sw x5, 392(x2)
    .word 0x650a72b7  # lui x5, 0x650a7
    .word 0x35428293  # addi x5, x5, 852
    .word 0x18512623  # sw x5, 396(x2)
    .word 0x766a12b7  # lui x5, 0x766a1
    .word 0xabb28293  # addi x5, x5, -1349
    .word 0x18512823  # sw x5, 400(x2)
    .word 0x81c2d2b7  # lui x5, 0x81c2d
    .word 0x92e28293  # addi x5, x5, -1746
    .word 0x18512a23  # sw x5, 404(x2)
    .word 0x927232b7  # lui x5, 0x92723
    .word 0xc8528293  # addi x5, x5, -891
    .word 0x18512c23  # sw x5, 408(x2)
    .word 0xa2bff2b7  # lui x5, 0xa2bff
    .word 0x8a128293  # addi x5, x5, -1887
    .word 0x18512e23  # sw x5, 412(x2)
    .word 0xa81a62b7  # lui x5, 0xa81a6
    .word 0x64b28293  # addi x5, x5, 1611
    .word 0x1a512023  # sw x5, 416(x2)
    .word 0xc24b92b7  # lui x5, 0xc24b9
    .word 0xb7028293  # addi x5, x5, -1168
    .word 0x1a512223  # sw x5, 420(x2)
    .word 0xc76c52b7  # lui x5, 0xc76c5
    .word 0x1a328293  # addi x5, x5, 419
    .word 0x1a512423  # sw x5, 424(x2)
    .word 0xd192f2b7  # lui x5, 0xd192f
    .word 0x81928293  # addi x5, x5, -2023
    .word 0x1a512623  # sw x5, 428(x2)
    .word 0xd69902b7  # lui x5, 0xd6990
    .word 0x62428293  # addi x5, x5, 1572
    .word 0x1a512823  # sw x5, 432(x2)
    .word 0xf40e32b7  # lui x5, 0xf40e3
    .word 0x58528293  # addi x5, x5, 1413
    .word 0x1a512a23  # sw x5, 436(x2)
    .word 0x106aa2b7  # lui x5, 0x106aa
    .word 0x07028293  # addi x5, x5, 112
    .word 0x1a512c23  # sw x5, 440(x2)
    .word 0x19a4c2b7  # lui x5, 0x19a4c
    .word 0x11628293  # addi x5, x5, 278
    .word 0x1a512e23  # sw x5, 444(x2)
    .word 0x1e3772b7  # lui x5, 0x1e377
    .word 0xc0828293  # addi x5, x5, -1016
    .word 0x1c512023  # sw x5, 448(x2)
    .word 0x274872b7  # lui x5, 0x27487
    .word 0x74c28293  # addi x5, x5, 1868
    .word 0x1c512223  # sw x5, 452(x2)
    .word 0x34b0c2b7  # lui x5, 0x34b0c
    .word 0xcb528293  # addi x5, x5, -843
    .word 0x1c512423  # sw x5, 456(x2)
    .word 0x391c12b7  # lui x5, 0x391c1
    .word 0xcb328293  # addi x5, x5, -845
    .word 0x1c512623  # sw x5, 460(x2)
    .word 0x4ed8b2b7  # lui x5, 0x4ed8b
    .word 0xa4a28293  # addi x5, x5, -1462
    .word 0x1c512823  # sw x5, 464(x2)
    .word 0x5b9cd2b7  # lui x5, 0x5b9cd
    .word 0xa4f28293  # addi x5, x5, -1457
    .word 0x1c512a23  # sw x5, 468(x2)
    .word 0x682e72b7  # lui x5, 0x682e7
    .word 0xff328293  # addi x5, x5, -13
    .word 0x1c512c23  # sw x5, 472(x2)
    .word 0x748f82b7  # lui x5, 0x748f8
    .word 0x2ee28293  # addi x5, x5, 750
    .word 0x1c512e23  # sw x5, 476(x2)
    .word 0x78a562b7  # lui x5, 0x78a56
    .word 0x36f28293  # addi x5, x5, 879
    .word 0x1e512023  # sw x5, 480(x2)
    .word 0x84c882b7  # lui x5, 0x84c88
    .word 0x81428293  # addi x5, x5, -2028
    .word 0x1e512223  # sw x5, 484(x2)
    .word 0x8cc702b7  # lui x5, 0x8cc70
    .word 0x20828293  # addi x5, x5, 520
    .word 0x1e512423  # sw x5, 488(x2)
    .word 0x90bf02b7  # lui x5, 0x90bf0
    .word 0xffa28293  # addi x5, x5, -6
    .word 0x1e512623  # sw x5, 492(x2)
    .word 0xa45072b7  # lui x5, 0xa4507
    .word 0xceb28293  # addi x5, x5, -789
    .word 0x1e512823  # sw x5, 496(x2)
    .word 0xbef9a2b7  # lui x5, 0xbef9a
    .word 0x3f728293  # addi x5, x5, 1015
    .word 0x1e512a23  # sw x5, 500(x2)
    .word 0xc67182b7  # lui x5, 0xc6718
    .word 0x8f228293  # addi x5, x5, -1806
    .word 0x1e512c23  # sw x5, 504(x2)
    .word 0x1e012e23  # sw x0, 508(x2)
    .word 0x20012023  # sw x0, 512(x2)
    .word 0x20012223  # sw x0, 516(x2)
    .word 0x20012423  # sw x0, 520(x2)
    .word 0x20012623  # sw x0, 524(x2)
    .word 0x20012823  # sw x0, 528(x2)
    .word 0x20012a23  # sw x0, 532(x2)
    .word 0x20012c23  # sw x0, 536(x2)
    .word 0x20012e23  # sw x0, 540(x2)
    .word 0x22012023  # sw x0, 544(x2)
    .word 0x22012223  # sw x0, 548(x2)
    .word 0x22012423  # sw x0, 552(x2)
    .word 0x22012623  # sw x0, 556(x2)
    .word 0x22012823  # sw x0, 560(x2)
    .word 0x22012a23  # sw x0, 564(x2)
    .word 0x22012c23  # sw x0, 568(x2)
    .word 0x22012e23  # sw x0, 572(x2)
    .word 0x24012023  # sw x0, 576(x2)
    .word 0x24012223  # sw x0, 580(x2)
    .word 0x24012423  # sw x0, 584(x2)
    .word 0x24012623  # sw x0, 588(x2)
    .word 0x24012823  # sw x0, 592(x2)
    .word 0x24012a23  # sw x0, 596(x2)
    .word 0x24012c23  # sw x0, 600(x2)
    .word 0x24012e23  # sw x0, 604(x2)
    .word 0x26012023  # sw x0, 608(x2)
    .word 0x26012223  # sw x0, 612(x2)
    .word 0x26012423  # sw x0, 616(x2)
    .word 0x26012623  # sw x0, 620(x2)
    .word 0x26012823  # sw x0, 624(x2)
    .word 0x26012a23  # sw x0, 628(x2)
    .word 0x26012c23  # sw x0, 632(x2)
    .word 0x28012423  # sw x0, 648(x2)
    .word 0x002bd293  # srli x5, x23, 2
    .word 0x28512623  # sw x5, 652(x2)
    .word 0x28812303  # lw x6, 648(x2)
    .word 0x28c12283  # lw x5, 652(x2)
    .word 0x005332b3  # sltu x5, x6, x5
    .word 0x00029463  # bne x5, x0, 8
    .word 0x0700006f  # jal x0, 112
    .word 0x00030513  # addi x10, x6, 0
    .word 0x00251b13  # slli x22, x10, 2
    .word 0x002b1d13  # slli x26, x22, 2
    .word 0x002d0d33  # add x26, x26, x2
    .word 0x002b02b3  # add x5, x22, x2
    .word 0x0002c283  # lbu x5, 0(x5)
    .word 0x01829293  # slli x5, x5, 24
    .word 0x002b0333  # add x6, x22, x2
    .word 0x00134303  # lbu x6, 1(x6)
    .word 0x01031313  # slli x6, x6, 16
    .word 0x0062e633  # or x12, x5, x6
    .word 0x002b02b3  # add x5, x22, x2
    .word 0x0022c283  # lbu x5, 2(x5)
    .word 0x00829293  # slli x5, x5, 8
    .word 0x002b0333  # add x6, x22, x2
    .word 0x00334303  # lbu x6, 3(x6)
    .word 0x0062e6b3  # or x13, x5, x6
    .word 0x00d66333  # or x6, x12, x13
    .word 0x00251293  # slli x5, x10, 2
    .word 0x002282b3  # add x5, x5, x2
    .word 0x1e62ae23  # sw x6, 508(x5)
    .word 0x00150513  # addi x10, x10, 1
    .word 0x28c12283  # lw x5, 652(x2)
    .word 0x005532b3  # sltu x5, x10, x5
    .word 0xfa0292e3  # bne x5, x0, -92
    .word 0xfff50513  # addi x10, x10, -1
    .word 0x0040006f  # jal x0, 4
    .word 0x800002b7  # lui x5, 0x80000
    .word 0x00028293  # addi x5, x5, 0
    .word 0x003bf313  # andi x6, x23, 3
    .word 0x00331313  # slli x6, x6, 3
    .word 0x0062d633  # srl x12, x5, x6
    .word 0x002bd293  # srli x5, x23, 2
    .word 0x00229293  # slli x5, x5, 2
    .word 0x28512423  # sw x5, 648(x2)
    .word 0x29712623  # sw x23, 652(x2)
    .word 0x28812303  # lw x6, 648(x2)
    .word 0x28c12283  # lw x5, 652(x2)
    .word 0x005332b3  # sltu x5, x6, x5
    .word 0x00029463  # bne x5, x0, 8
    .word 0x03c0006f  # jal x0, 60
    .word 0x26612e23  # sw x6, 636(x2)
    .word 0x00130313  # addi x6, x6, 1
    .word 0x28612423  # sw x6, 648(x2)
    .word 0x27c12303  # lw x6, 636(x2)
    .word 0x00230333  # add x6, x6, x2
    .word 0x00034303  # lbu x6, 0(x6)
    .word 0x01800393  # addi x7, x0, 24
    .word 0x27c12403  # lw x8, 636(x2)
    .word 0x00347413  # andi x8, x8, 3
    .word 0x00341413  # slli x8, x8, 3
    .word 0x408383b3  # sub x7, x7, x8
    .word 0x00731333  # sll x6, x6, x7
    .word 0x00666633  # or x12, x12, x6
    .word 0xfb9ff06f  # jal x0, -72
    .word 0x002bd293  # srli x5, x23, 2
    .word 0x00229293  # slli x5, x5, 2
    .word 0x002282b3  # add x5, x5, x2
    .word 0x1ec2ae23  # sw x12, 508(x5)
    .word 0x038bb293  # sltiu x5, x23, 56
    .word 0x00f00313  # addi x6, x0, 15
    .word 0x01f00393  # addi x7, x0, 31
    .word 0x405002b3  # sub x5, x0, x5
    .word 0x00734333  # xor x6, x6, x7
    .word 0x00537333  # and x6, x6, x5
    .word 0x0063c2b3  # xor x5, x7, x6
    .word 0x003b9313  # slli x6, x23, 3
    .word 0x00229293  # slli x5, x5, 2
    .word 0x002282b3  # add x5, x5, x2
    .word 0x1e62ae23  # sw x6, 508(x5)
    .word 0x28012423  # sw x0, 648(x2)
    .word 0x048b8293  # addi x5, x23, 72
    .word 0x0062d293  # srli x5, x5, 6
    .word 0x28512623  # sw x5, 652(x2)
    .word 0x28812303  # lw x6, 648(x2)
    .word 0x28c12283  # lw x5, 652(x2)
    .word 0x005332b3  # sltu x5, x6, x5
    .word 0x00029463  # bne x5, x0, 8
    .word 0x6700006f  # jal x0, 1648
    .word 0x28612023  # sw x6, 640(x2)
    .word 0x00130313  # addi x6, x6, 1
    .word 0x28612423  # sw x6, 648(x2)
    .word 0x28012283  # lw x5, 640(x2)
    .word 0x00429b13  # slli x22, x5, 4
    .word 0x002b1d13  # slli x26, x22, 2
    .word 0x002d0d33  # add x26, x26, x2
    .word 0xfff00c13  # addi x24, x0, -1
    .word 0x001c0c13  # addi x24, x24, 1
    .word 0x018b0333  # add x6, x22, x24
    .word 0x00231313  # slli x6, x6, 2
    .word 0x00230333  # add x6, x6, x2
    .word 0x1fc32303  # lw x6, 508(x6)
    .word 0x002c1293  # slli x5, x24, 2
    .word 0x002282b3  # add x5, x5, x2
    .word 0x0a62ae23  # sw x6, 188(x5)
    .word 0xff1c0293  # addi x5, x24, -15
    .word 0xfc029ee3  # bne x5, x0, -36
    .word 0x09c12583  # lw x11, 156(x2)
    .word 0x0a012603  # lw x12, 160(x2)
    .word 0x0a412683  # lw x13, 164(x2)
    .word 0x0a812703  # lw x14, 168(x2)
    .word 0x0ac12783  # lw x15, 172(x2)
    .word 0x0b012803  # lw x16, 176(x2)
    .word 0x0b412883  # lw x17, 180(x2)
    .word 0x0b812903  # lw x18, 184(x2)
    .word 0x00d649b3  # xor x19, x12, x13
    .word 0xfff00a93  # addi x21, x0, -1
    .word 0x001a8a93  # addi x21, x21, 1
    .word 0xfff00c13  # addi x24, x0, -1
    .word 0x001c0c13  # addi x24, x24, 1
    .word 0x003c1b13  # slli x22, x24, 3
    .word 0x002b1d13  # slli x26, x22, 2
    .word 0x002d0d33  # add x26, x26, x2
    .word 0x004a9293  # slli x5, x21, 4
    .word 0x01628bb3  # add x23, x5, x22
    .word 0x002b9d93  # slli x27, x23, 2
    .word 0x002d8db3  # add x27, x27, x2
    .word 0x01a79f13  # slli x30, x15, 26
    .word 0x0067d313  # srli x6, x15, 6
    .word 0x006f0333  # add x6, x30, x6
    .word 0x01579f13  # slli x30, x15, 21
    .word 0x00b7d393  # srli x7, x15, 11
    .word 0x007f03b3  # add x7, x30, x7
    .word 0x00734333  # xor x6, x6, x7
    .word 0x00779f13  # slli x30, x15, 7
    .word 0x0197d393  # srli x7, x15, 25
    .word 0x007f03b3  # add x7, x30, x7
    .word 0x00734333  # xor x6, x6, x7
    .word 0x006902b3  # add x5, x18, x6
    .word 0x01184333  # xor x6, x16, x17
    .word 0x00f37333  # and x6, x6, x15
    .word 0x01134333  # xor x6, x6, x17
    .word 0x006282b3  # add x5, x5, x6
    .word 0x0bcd2303  # lw x6, 188(x26)
    .word 0x006282b3  # add x5, x5, x6
    .word 0x0fcda303  # lw x6, 252(x27)
    .word 0x00628933  # add x18, x5, x6
    .word 0x01270733  # add x14, x14, x18
    .word 0x00c5ca33  # xor x20, x11, x12
    .word 0x0149f2b3  # and x5, x19, x20
    .word 0x00c2c9b3  # xor x19, x5, x12
    .word 0x01e59f13  # slli x30, x11, 30
    .word 0x0025d313  # srli x6, x11, 2
    .word 0x006f0333  # add x6, x30, x6
    .word 0x01359f13  # slli x30, x11, 19
    .word 0x00d5d393  # srli x7, x11, 13
    .word 0x007f03b3  # add x7, x30, x7
    .word 0x00734333  # xor x6, x6, x7
    .word 0x00a59f13  # slli x30, x11, 10
    .word 0x0165d393  # srli x7, x11, 22
    .word 0x007f03b3  # add x7, x30, x7
    .word 0x00734333  # xor x6, x6, x7
    .word 0x006902b3  # add x5, x18, x6
    .word 0x01328933  # add x18, x5, x19
    .word 0x01a71f13  # slli x30, x14, 26
    .word 0x00675313  # srli x6, x14, 6
    .word 0x006f0333  # add x6, x30, x6
    .word 0x01571f13  # slli x30, x14, 21
    .word 0x00b75393  # srli x7, x14, 11
    .word 0x007f03b3  # add x7, x30, x7
    .word 0x00734333  # xor x6, x6, x7
    .word 0x00771f13  # slli x30, x14, 7
    .word 0x01975393  # srli x7, x14, 25
    .word 0x007f03b3  # add x7, x30, x7
    .word 0x00734333  # xor x6, x6, x7
    .word 0x006882b3  # add x5, x17, x6
    .word 0x0107c333  # xor x6, x15, x16
    .word 0x00e37333  # and x6, x6, x14
    .word 0x01034333  # xor x6, x6, x16
    .word 0x006282b3  # add x5, x5, x6
    .word 0x0c0d2303  # lw x6, 192(x26)
    .word 0x006282b3  # add x5, x5, x6
    .word 0x100da303  # lw x6, 256(x27)
    .word 0x006288b3  # add x17, x5, x6
    .word 0x011686b3  # add x13, x13, x17
    .word 0x00b949b3  # xor x19, x18, x11
    .word 0x013a72b3  # and x5, x20, x19
    .word 0x00b2ca33  # xor x20, x5, x11
    .word 0x01e91f13  # slli x30, x18, 30
    .word 0x00295313  # srli x6, x18, 2
    .word 0x006f0333  # add x6, x30, x6
    .word 0x01391f13  # slli x30, x18, 19
    .word 0x00d95393  # srli x7, x18, 13
    .word 0x007f03b3  # add x7, x30, x7
    .word 0x00734333  # xor x6, x6, x7
    .word 0x00a91f13  # slli x30, x18, 10
    .word 0x01695393  # srli x7, x18, 22
    .word 0x007f03b3  # add x7, x30, x7
    .word 0x00734333  # xor x6, x6, x7
    .word 0x006882b3  # add x5, x17, x6
    .word 0x014288b3  # add x17, x5, x20
    .word 0x01a69f13  # slli x30, x13, 26
    .word 0x0066d313  # srli x6, x13, 6
    .word 0x006f0333  # add x6, x30, x6
    .word 0x01569f13  # slli x30, x13, 21
    .word 0x00b6d393  # srli x7, x13, 11
    .word 0x007f03b3  # add x7, x30, x7
    .word 0x00734333  # xor x6, x6, x7
    .word 0x00769f13  # slli x30, x13, 7
    .word 0x0196d393  # srli x7, x13, 25
    .word 0x007f03b3  # add x7, x30, x7
    .word 0x00734333  # xor x6, x6, x7
    .word 0x006802b3  # add x5, x16, x6
    .word 0x00f74333  # xor x6, x14, x15
    .word 0x00d37333  # and x6, x6, x13
    .word 0x00f34333  # xor x6, x6, x15
    .word 0x006282b3  # add x5, x5, x6
    .word 0x0c4d2303  # lw x6, 196(x26)
    .word 0x006282b3  # add x5, x5, x6
    .word 0x104da303  # lw x6, 260(x27)
    .word 0x00628833  # add x16, x5, x6
    .word 0x01060633  # add x12, x12, x16
    .word 0x0128ca33  # xor x20, x17, x18
    .word 0x0149f2b3  # and x5, x19, x20
    .word 0x0122c9b3  # xor x19, x5, x18
    .word 0x01e89f13  # slli x30, x17, 30
    .word 0x0028d313  # srli x6, x17, 2
    .word 0x006f0333  # add x6, x30, x6
    .word 0x01389f13  # slli x30, x17, 19
    .word 0x00d8d393  # srli x7, x17, 13
    .word 0x007f03b3  # add x7, x30, x7
    .word 0x00734333  # xor x6, x6, x7
    .word 0x00a89f13  # slli x30, x17, 10
    .word 0x0168d393  # srli x7, x17, 22
    .word 0x007f03b3  # add x7, x30, x7
    .word 0x00734333  # xor x6, x6, x7
    .word 0x006802b3  # add x5, x16, x6
    .word 0x01328833  # add x16, x5, x19
    .word 0x01a61f13  # slli x30, x12, 26
    .word 0x00665313  # srli x6, x12, 6
    .word 0x006f0333  # add x6, x30, x6
    .word 0x01561f13  # slli x30, x12, 21
    .word 0x00b65393  # srli x7, x12, 11
    .word 0x007f03b3  # add x7, x30, x7
    .word 0x00734333  # xor x6, x6, x7
    .word 0x00761f13  # slli x30, x12, 7
    .word 0x01965393  # srli x7, x12, 25
    .word 0x007f03b3  # add x7, x30, x7
    .word 0x00734333  # xor x6, x6, x7
    .word 0x006782b3  # add x5, x15, x6
    .word 0x00e6c333  # xor x6, x13, x14
    .word 0x00c37333  # and x6, x6, x12
    .word 0x00e34333  # xor x6, x6, x14
    .word 0x006282b3  # add x5, x5, x6
    .word 0x0c8d2303  # lw x6, 200(x26)
    .word 0x006282b3  # add x5, x5, x6
    .word 0x108da303  # lw x6, 264(x27)
    .word 0x006287b3  # add x15, x5, x6
    .word 0x00f585b3  # add x11, x11, x15
    .word 0x011849b3  # xor x19, x16, x17
    .word 0x013a72b3  # and x5, x20, x19
    .word 0x0112ca33  # xor x20, x5, x17
    .word 0x01e81f13  # slli x30, x16, 30
    .word 0x00285313  # srli x6, x16, 2
    .word 0x006f0333  # add x6, x30, x6
    .word 0x01381f13  # slli x30, x16, 19
    .word 0x00d85393  # srli x7, x16, 13
    .word 0x007f03b3  # add x7, x30, x7
    .word 0x00734333  # xor x6, x6, x7
    .word 0x00a81f13  # slli x30, x16, 10
    .word 0x01685393  # srli x7, x16, 22
    .word 0x007f03b3  # add x7, x30, x7
    .word 0x00734333  # xor x6, x6, x7
    .word 0x006782b3  # add x5, x15, x6
    .word 0x014287b3  # add x15, x5, x20
    .word 0x01a59f13  # slli x30, x11, 26
    .word 0x0065d313  # srli x6, x11, 6
    .word 0x006f0333  # add x6, x30, x6
    .word 0x01559f13  # slli x30, x11, 21
    .word 0x00b5d393  # srli x7, x11, 11
    .word 0x007f03b3  # add x7, x30, x7
    .word 0x00734333  # xor x6, x6, x7
    .word 0x00759f13  # slli x30, x11, 7
    .word 0x0195d393  # srli x7, x11, 25
    .word 0x007f03b3  # add x7, x30, x7
    .word 0x00734333  # xor x6, x6, x7
    .word 0x006702b3  # add x5, x14, x6
    .word 0x00d64333  # xor x6, x12, x13
    .word 0x00b37333  # and x6, x6, x11
    .word 0x00d34333  # xor x6, x6, x13
    .word 0x006282b3  # add x5, x5, x6
    .word 0x0ccd2303  # lw x6, 204(x26)
    .word 0x006282b3  # add x5, x5, x6
    .word 0x10cda303  # lw x6, 268(x27)
    .word 0x00628733  # add x14, x5, x6
    .word 0x00e90933  # add x18, x18, x14
    .word 0x0107ca33  # xor x20, x15, x16
    .word 0x0149f2b3  # and x5, x19, x20
    .word 0x0102c9b3  # xor x19, x5, x16
    .word 0x01e79f13  # slli x30, x15, 30
    .word 0x0027d313  # srli x6, x15, 2
    .word 0x006f0333  # add x6, x30, x6
    .word 0x01379f13  # slli x30, x15, 19
    .word 0x00d7d393  # srli x7, x15, 13
    .word 0x007f03b3  # add x7, x30, x7
    .word 0x00734333  # xor x6, x6, x7
    .word 0x00a79f13  # slli x30, x15, 10
    .word 0x0167d393  # srli x7, x15, 22
    .word 0x007f03b3  # add x7, x30, x7
    .word 0x00734333  # xor x6, x6, x7
    .word 0x006702b3  # add x5, x14, x6
    .word 0x01328733  # add x14, x5, x19
    .word 0x01a91f13  # slli x30, x18, 26
    .word 0x00695313  # srli x6, x18, 6
    .word 0x006f0333  # add x6, x30, x6
    .word 0x01591f13  # slli x30, x18, 21
    .word 0x00b95393  # srli x7, x18, 11
    .word 0x007f03b3  # add x7, x30, x7
    .word 0x00734333  # xor x6, x6, x7
    .word 0x00791f13  # slli x30, x18, 7
    .word 0x01995393  # srli x7, x18, 25
    .word 0x007f03b3  # add x7, x30, x7
    .word 0x00734333  # xor x6, x6, x7
    .word 0x006682b3  # add x5, x13, x6
    .word 0x00c5c333  # xor x6, x11, x12
    .word 0x01237333  # and x6, x6, x18
    .word 0x00c34333  # xor x6, x6, x12
    .word 0x006282b3  # add x5, x5, x6
    .word 0x0d0d2303  # lw x6, 208(x26)
    .word 0x006282b3  # add x5, x5, x6
    .word 0x110da303  # lw x6, 272(x27)
    .word 0x006286b3  # add x13, x5, x6
    .word 0x00d888b3  # add x17, x17, x13
    .word 0x00f749b3  # xor x19, x14, x15
    .word 0x013a72b3  # and x5, x20, x19
    .word 0x00f2ca33  # xor x20, x5, x15
    .word 0x01e71f13  # slli x30, x14, 30
    .word 0x00275313  # srli x6, x14, 2
    .word 0x006f0333  # add x6, x30, x6
    .word 0x01371f13  # slli x30, x14, 19
    .word 0x00d75393  # srli x7, x14, 13
    .word 0x007f03b3  # add x7, x30, x7
    .word 0x00734333  # xor x6, x6, x7
    .word 0x00a71f13  # slli x30, x14, 10
    .word 0x01675393  # srli x7, x14, 22
    .word 0x007f03b3  # add x7, x30, x7
    .word 0x00734333  # xor x6, x6, x7
    .word 0x006682b3  # add x5, x13, x6
    .word 0x014286b3  # add x13, x5, x20
    .word 0x01a89f13  # slli x30, x17, 26
    .word 0x0068d313  # srli x6, x17, 6
    .word 0x006f0333  # add x6, x30, x6
    .word 0x01589f13  # slli x30, x17, 21
    .word 0x00b8d393  # srli x7, x17, 11
    .word 0x007f03b3  # add x7, x30, x7
    .word 0x00734333  # xor x6, x6, x7
    .word 0x00789f13  # slli x30, x17, 7
    .word 0x0198d393  # srli x7, x17, 25
    .word 0x007f03b3  # add x7, x30, x7
    .word 0x00734333  # xor x6, x6, x7
    .word 0x006602b3  # add x5, x12, x6
    .word 0x00b94333  # xor x6, x18, x11
    .word 0x01137333  # and x6, x6, x17
    .word 0x00b34333  # xor x6, x6, x11
    .word 0x006282b3  # add x5, x5, x6
    .word 0x0d4d2303  # lw x6, 212(x26)
    .word 0x006282b3  # add x5, x5, x6
    .word 0x114da303  # lw x6, 276(x27)
    .word 0x00628633  # add x12, x5, x6
    .word 0x00c80833  # add x16, x16, x12
    .word 0x00e6ca33  # xor x20, x13, x14
    .word 0x0149f2b3  # and x5, x19, x20
    .word 0x00e2c9b3  # xor x19, x5, x14
    .word 0x01e69f13  # slli x30, x13, 30
    .word 0x0026d313  # srli x6, x13, 2
    .word 0x006f0333  # add x6, x30, x6
    .word 0x01369f13  # slli x30, x13, 19
    .word 0x00d6d393  # srli x7, x13, 13
    .word 0x007f03b3  # add x7, x30, x7
    .word 0x00734333  # xor x6, x6, x7
    .word 0x00a69f13  # slli x30, x13, 10
    .word 0x0166d393  # srli x7, x13, 22
    .word 0x007f03b3  # add x7, x30, x7
    .word 0x00734333  # xor x6, x6, x7
    .word 0x006602b3  # add x5, x12, x6
    .word 0x01328633  # add x12, x5, x19
    .word 0x01a81f13  # slli x30, x16, 26
    .word 0x00685313  # srli x6, x16, 6
    .word 0x006f0333  # add x6, x30, x6
    .word 0x01581f13  # slli x30, x16, 21
    .word 0x00b85393  # srli x7, x16, 11
    .word 0x007f03b3  # add x7, x30, x7
    .word 0x00734333  # xor x6, x6, x7
    .word 0x00781f13  # slli x30, x16, 7
    .word 0x01985393  # srli x7, x16, 25
    .word 0x007f03b3  # add x7, x30, x7
    .word 0x00734333  # xor x6, x6, x7
    .word 0x006582b3  # add x5, x11, x6
    .word 0x0128c333  # xor x6, x17, x18
    .word 0x01037333  # and x6, x6, x16
    .word 0x01234333  # xor x6, x6, x18
    .word 0x006282b3  # add x5, x5, x6
    .word 0x0d8d2303  # lw x6, 216(x26)
    .word 0x006282b3  # add x5, x5, x6
    .word 0x118da303  # lw x6, 280(x27)
    .word 0x006285b3  # add x11, x5, x6
    .word 0x00b787b3  # add x15, x15, x11
    .word 0x00d649b3  # xor x19, x12, x13
    .word 0x013a72b3  # and x5, x20, x19
    .word 0x00d2ca33  # xor x20, x5, x13
    .word 0x01e61f13  # slli x30, x12, 30
    .word 0x00265313  # srli x6, x12, 2
    .word 0x006f0333  # add x6, x30, x6
    .word 0x01361f13  # slli x30, x12, 19
    .word 0x00d65393  # srli x7, x12, 13
    .word 0x007f03b3  # add x7, x30, x7
    .word 0x00734333  # xor x6, x6, x7
    .word 0x00a61f13  # slli x30, x12, 10
    .word 0x01665393  # srli x7, x12, 22
    .word 0x007f03b3  # add x7, x30, x7
    .word 0x00734333  # xor x6, x6, x7
    .word 0x006582b3  # add x5, x11, x6
    .word 0x014285b3  # add x11, x5, x20
    .word 0xfffc0293  # addi x5, x24, -1
    .word 0xb2029ee3  # bne x5, x0, -1220
    .word 0x00300313  # addi x6, x0, 3
    .word 0x0a6afe63  # bgeu x21, x6, 188
    .word 0xfff00c13  # addi x24, x0, -1
    .word 0x001c0c13  # addi x24, x24, 1
    .word 0x001c0293  # addi x5, x24, 1
    .word 0x00f2f293  # andi x5, x5, 15
    .word 0x00229a13  # slli x20, x5, 2
    .word 0x002a0a33  # add x20, x20, x2
    .word 0x0bca2a03  # lw x20, 188(x20)
    .word 0x00ec0293  # addi x5, x24, 14
    .word 0x00f2f293  # andi x5, x5, 15
    .word 0x00229c93  # slli x25, x5, 2
    .word 0x002c8cb3  # add x25, x25, x2
    .word 0x0bccac83  # lw x25, 188(x25)
    .word 0x019a1f13  # slli x30, x20, 25
    .word 0x007a5293  # srli x5, x20, 7
    .word 0x005f02b3  # add x5, x30, x5
    .word 0x00ea1f13  # slli x30, x20, 14
    .word 0x012a5313  # srli x6, x20, 18
    .word 0x006f0333  # add x6, x30, x6
    .word 0x0062c2b3  # xor x5, x5, x6
    .word 0x003a5313  # srli x6, x20, 3
    .word 0x0062ca33  # xor x20, x5, x6
    .word 0x00fc9f13  # slli x30, x25, 15
    .word 0x011cd293  # srli x5, x25, 17
    .word 0x005f02b3  # add x5, x30, x5
    .word 0x00dc9f13  # slli x30, x25, 13
    .word 0x013cd313  # srli x6, x25, 19
    .word 0x006f0333  # add x6, x30, x6
    .word 0x0062c2b3  # xor x5, x5, x6
    .word 0x00acd313  # srli x6, x25, 10
    .word 0x0062ccb3  # xor x25, x5, x6
    .word 0x002c1293  # slli x5, x24, 2
    .word 0x002282b3  # add x5, x5, x2
    .word 0x0bc2a283  # lw x5, 188(x5)
    .word 0x009c0313  # addi x6, x24, 9
    .word 0x00f37313  # andi x6, x6, 15
    .word 0x00231313  # slli x6, x6, 2
    .word 0x00230333  # add x6, x6, x2
    .word 0x0bc32303  # lw x6, 188(x6)
    .word 0x006282b3  # add x5, x5, x6
    .word 0x01428a33  # add x20, x5, x20
    .word 0x019a0333  # add x6, x20, x25
    .word 0x002c1293  # slli x5, x24, 2
    .word 0x002282b3  # add x5, x5, x2
    .word 0x0a62ae23  # sw x6, 188(x5)
    .word 0xff1c0293  # addi x5, x24, -15
    .word 0xf40298e3  # bne x5, x0, -176
    .word 0xffda8293  # addi x5, x21, -3
    .word 0xa60296e3  # bne x5, x0, -1428
    .word 0x09c12283  # lw x5, 156(x2)
    .word 0x00b282b3  # add x5, x5, x11
    .word 0x08512e23  # sw x5, 156(x2)
    .word 0x0a012283  # lw x5, 160(x2)
    .word 0x00c282b3  # add x5, x5, x12
    .word 0x0a512023  # sw x5, 160(x2)
    .word 0x0a412283  # lw x5, 164(x2)
    .word 0x00d282b3  # add x5, x5, x13
    .word 0x0a512223  # sw x5, 164(x2)
    .word 0x0a812283  # lw x5, 168(x2)
    .word 0x00e282b3  # add x5, x5, x14
    .word 0x0a512423  # sw x5, 168(x2)
    .word 0x0ac12283  # lw x5, 172(x2)
    .word 0x00f282b3  # add x5, x5, x15
    .word 0x0a512623  # sw x5, 172(x2)
    .word 0x0b012283  # lw x5, 176(x2)
    .word 0x010282b3  # add x5, x5, x16
    .word 0x0a512823  # sw x5, 176(x2)
    .word 0x0b412283  # lw x5, 180(x2)
    .word 0x011282b3  # add x5, x5, x17
    .word 0x0a512a23  # sw x5, 180(x2)
    .word 0x0b812283  # lw x5, 184(x2)
    .word 0x012282b3  # add x5, x5, x18
    .word 0x0a512c23  # sw x5, 184(x2)
    .word 0x985ff06f  # jal x0, -1660
    .word 0xfff00c13  # addi x24, x0, -1
    .word 0x001c0c13  # addi x24, x24, 1
    .word 0x002c1b13  # slli x22, x24, 2
    .word 0x002b1d13  # slli x26, x22, 2
    .word 0x002d0d33  # add x26, x26, x2
    .word 0x002c1613  # slli x12, x24, 2
    .word 0x00260633  # add x12, x12, x2
    .word 0x09c62603  # lw x12, 156(x12)
    .word 0x01865313  # srli x6, x12, 24
    .word 0x002b02b3  # add x5, x22, x2
    .word 0x06628e23  # sb x6, 124(x5)
    .word 0x01065313  # srli x6, x12, 16
    .word 0x002b02b3  # add x5, x22, x2
    .word 0x06628ea3  # sb x6, 125(x5)
    .word 0x00865313  # srli x6, x12, 8
    .word 0x002b02b3  # add x5, x22, x2
    .word 0x06628f23  # sb x6, 126(x5)
    .word 0x002b02b3  # add x5, x22, x2
    .word 0x06c28fa3  # sb x12, 127(x5)
    .word 0xff9c0293  # addi x5, x24, -7
    .word 0xfa029ae3  # bne x5, x0, -76
    # the result
    .word 0x00000513  # addi x10, x0, 0
    # parameter 2: the array, back
    .word 0x07c10293  # addi x5, x2, 124
    .word 0x2dc12303  # lw x6, 732(x2)
    .word 0x02028393  # addi x7, x5, 32
    .word 0x0002ce03  # lbu x28, 0(x5)
    .word 0x01c30023  # sb x28, 0(x6)
    .word 0x00128293  # addi x5, x5, 1
    .word 0x00130313  # addi x6, x6, 1
    .word 0xfe7298e3  # bne x5, x7, -16
    # above the frame
    .word 0x2a010293  # addi x5, x2, 672
    # the caller's registers
    .word 0x0002a403  # lw x8, 0(x5)
    .cfi_restore 8
    .word 0x0042a903  # lw x18, 4(x5)
    .cfi_restore 18
    .word 0x0082a983  # lw x19, 8(x5)
    .cfi_restore 19
    .word 0x00c2aa03  # lw x20, 12(x5)
    .cfi_restore 20
    .word 0x0102aa83  # lw x21, 16(x5)
    .cfi_restore 21
    .word 0x0142ab03  # lw x22, 20(x5)
    .cfi_restore 22
    .word 0x0182ab83  # lw x23, 24(x5)
    .cfi_restore 23
    .word 0x01c2ac03  # lw x24, 28(x5)
    .cfi_restore 24
    .word 0x0202ac83  # lw x25, 32(x5)
    .cfi_restore 25
    .word 0x0242ad03  # lw x26, 36(x5)
    .cfi_restore 26
    .word 0x0282ad83  # lw x27, 40(x5)
    .cfi_restore 27
    # the caller's x2
    .word 0x04028293  # addi x5, x5, 64
    .cfi_def_cfa 5, 0
    # on to the tail that functions share
    jal x0, factc.tail.1
    .cfi_endproc
    .size sha256_short, . - sha256_short
    .section .text.factc.tail.1, "axG", @progbits, factc.tail.1, comdat
    .p2align 2
    .globl factc.tail.1
    .hidden factc.tail.1
    .type factc.tail.1, @function
factc.tail.1:
    .cfi_startproc
    .cfi_def_cfa 5, 0
    # all the room, wiped upward
    .word 0x00012023  # sw x0, 0(x2)
    .word 0x00012223  # sw x0, 4(x2)
    .word 0x00012423  # sw x0, 8(x2)
    .word 0x00012623  # sw x0, 12(x2)
    .word 0x01010113  # addi x2, x2, 16
    .word 0xfe5116e3  # bne x2, x5, -20
    .cfi_def_cfa 2, 0
    # temporaries, wiped
    .word 0x00000293  # addi x5, x0, 0
    .word 0x00000313  # addi x6, x0, 0
    .word 0x00000393  # addi x7, x0, 0
    .word 0x00000593  # addi x11, x0, 0
    .word 0x00000613  # addi x12, x0, 0
    .word 0x00000693  # addi x13, x0, 0
    .word 0x00000713  # addi x14, x0, 0
    .word 0x00000793  # addi x15, x0, 0
    .word 0x00000813  # addi x16, x0, 0
    .word 0x00000893  # addi x17, x0, 0
    .word 0x00000e13  # addi x28, x0, 0
    .word 0x00000e93  # addi x29, x0, 0
    .word 0x00000f13  # addi x30, x0, 0
    .word 0x00000f93  # addi x31, x0, 0
    # back
    .word 0x00008067  # jalr x0, 0(x1)
    .cfi_endproc
    .size factc.tail.1, . - factc.tail.1
    .option pop
