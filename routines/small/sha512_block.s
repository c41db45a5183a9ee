# sha512_block: made by factc 1.0.0 function; 2176 words and 21 shared, 880 bytes of stack, profile 1
    .option push
    .option norvc
    .option norelax
    .cfi_sections .debug_frame
    .section .text.sha512_block, "ax", @progbits
    .p2align 2
    .globl sha512_block
    .type sha512_block, @function
sha512_block:
    .cfi_startproc
    # room above the frame
    .word 0xfc010113  # addi x2, x2, -64
    .cfi_def_cfa_offset 64
    # the caller's registers
    .word 0x00812023  # sw x8, 0(x2)
    .cfi_offset 8, -64
    .word 0x00912223  # sw x9, 4(x2)
    .cfi_offset 9, -60
    .word 0x01212423  # sw x18, 8(x2)
    .cfi_offset 18, -56
    .word 0x01312623  # sw x19, 12(x2)
    .cfi_offset 19, -52
    .word 0x01412823  # sw x20, 16(x2)
    .cfi_offset 20, -48
    .word 0x01512a23  # sw x21, 20(x2)
    .cfi_offset 21, -44
    .word 0x01612c23  # sw x22, 24(x2)
    .cfi_offset 22, -40
    .word 0x01712e23  # sw x23, 28(x2)
    .cfi_offset 23, -36
    .word 0x03812023  # sw x24, 32(x2)
    .cfi_offset 24, -32
    .word 0x03912223  # sw x25, 36(x2)
    .cfi_offset 25, -28
    .word 0x03a12423  # sw x26, 40(x2)
    .cfi_offset 26, -24
    .word 0x03b12623  # sw x27, 44(x2)
    .cfi_offset 27, -20
    # arguments that are needed behind the body
    .word 0x02a12e23  # sw x10, 60(x2)
    # the frame's base
    .word 0xcd010113  # addi x2, x2, -816
    .cfi_def_cfa 2, 880
    # parameter 0: an array
    .word 0x00050293  # addi x5, x10, 0
    .word 0x00010313  # addi x6, x2, 0
    .word 0x04028393  # addi x7, x5, 64
    .word 0x0002ae03  # lw x28, 0(x5)
    .word 0x01c32023  # sw x28, 0(x6)
    .word 0x00428293  # addi x5, x5, 4
    .word 0x00430313  # addi x6, x6, 4
    .word 0xfe7298e3  # bne x5, x7, -16
    # parameter 1: an array
    .word 0x00058293  # addi x5, x11, 0
    .word 0x04010313  # addi x6, x2, 64
    .word 0x08028393  # addi x7, x5, 128
    .word 0x0002ce03  # lbu x28, 0(x5)
    .word 0x01c30023  # sb x28, 0(x6)
    .word 0x00128293  # addi x5, x5, 1
    .word 0x00130313  # addi x6, x6, 1
    .word 0xfe7298e3  # bne x5, x7, -16
    # the body
    .word 0xe49b72b7  # lui x5, 0xe49b7
    .word 0x9c128293  # addi x5, x5, -1599
    .word 0x20512423  # sw x5, 520(x2)
    .word 0x9ef152b7  # lui x5, 0x9ef15
    .word 0xad228293  # addi x5, x5, -1326
    .word 0x20512623  # sw x5, 524(x2)
    .word 0xefbe42b7  # lui x5, 0xefbe4
    .word 0x78628293  # addi x5, x5, 1926
    .word 0x20512823  # sw x5, 528(x2)
    .word 0x384f22b7  # lui x5, 0x384f2
    .word 0x5e328293  # addi x5, x5, 1507
    .word 0x20512a23  # sw x5, 532(x2)
    .word 0x0fc1a2b7  # lui x5, 0x0fc1a
    .word 0xdc628293  # addi x5, x5, -570
    .word 0x20512c23  # sw x5, 536(x2)
    .word 0x8b8cd2b7  # lui x5, 0x8b8cd
    .word 0x5b528293  # addi x5, x5, 1461
    .word 0x20512e23  # sw x5, 540(x2)
    .word 0x240ca2b7  # lui x5, 0x240ca
    .word 0x1cc28293  # addi x5, x5, 460
    .word 0x22512023  # sw x5, 544(x2)
    .word 0x77aca2b7  # lui x5, 0x77aca
    .word 0xc6528293  # addi x5, x5, -923
    .word 0x22512223  # sw x5, 548(x2)
    .word 0x2de932b7  # lui x5, 0x2de93
    .word 0xc6f28293  # addi x5, x5, -913
    .word 0x22512423  # sw x5, 552(x2)
    .word 0x592b02b7  # lui x5, 0x592b0
    .word 0x27528293  # addi x5, x5, 629
    .word 0x22512623  # sw x5, 556(x2)
    .word 0x4a7482b7  # lui x5, 0x4a748
    .word 0x4aa28293  # addi x5, x5, 1194
    .word 0x22512823  # sw x5, 560(x2)
    .word 0x6ea6e2b7  # lui x5, 0x6ea6e
    .word 0x48328293  # addi x5, x5, 1155
    .word 0x22512a23  # sw x5, 564(x2)
    .word 0x5cb0b2b7  # lui x5, 0x5cb0b
    .word 0x9dc28293  # addi x5, x5, -1572
    .word 0x22512c23  # sw x5, 568(x2)
    .word 0xbd4202b7  # lui x5, 0xbd420
    .word 0xbd428293  # addi x5, x5, -1068
    .word 0x22512e23  # sw x5, 572(x2)
    .word 0x76f992b7  # lui x5, 0x76f99
    .word 0x8da28293  # addi x5, x5, -1830
    .word 0x24512023  # sw x5, 576(x2)
    .word 0x831152b7  # lui x5, 0x83115
    .word 0x3b528293  # addi x5, x5, 949
    .word 0x24512223  # sw x5, 580(x2)
    .word 0x983e52b7  # lui x5, 0x983e5
    .word 0x15228293  # addi x5, x5, 338
    .word 0x24512423  # sw x5, 584(x2)
    .word 0xee66e2b7  # lui x5, 0xee66e
    .word 0xfab28293  # addi x5, x5, -85
    .word 0x24512623  # sw x5, 588(x2)
    .word 0xa831c2b7  # lui x5, 0xa831c
    .word 0x66d28293  # addi x5, x5, 1645
    .word 0x24512823  # sw x5, 592(x2)
    .word 0x2db432b7  # lui x5, 0x2db43
    .word 0x21028293  # addi x5, x5, 528
    .word 0x24512a23  # sw x5, 596(x2)
    .word 0xb00322b7  # lui x5, 0xb0032
    .word 0x7c828293  # addi x5, x5, 1992
    .word 0x24512c23  # sw x5, 600(x2)
    .word 0x98fb22b7  # lui x5, 0x98fb2
    .word 0x13f28293  # addi x5, x5, 319
    .word 0x24512e23  # sw x5, 604(x2)
    .word 0xbf5982b7  # lui x5, 0xbf598
    .word 0xfc728293  # addi x5, x5, -57
    .word 0x26512023  # sw x5, 608(x2)
    .word 0xbeef12b7  # lui x5, 0xbeef1
    .word 0xee428293  # addi x5, x5, -284
    .word 0x26512223  # sw x5, 612(x2)
    .word 0xc6e012b7  # lui x5, 0xc6e01
    .word 0xbf328293  # addi x5, x5, -1037
    .word 0x26512423  # sw x5, 616(x2)
    .word 0x3da892b7  # lui x5, 0x3da89
    .word 0xfc228293  # addi x5, x5, -62
    .word 0x26512623  # sw x5, 620(x2)
    .word 0xd5a792b7  # lui x5, 0xd5a79
    .word 0x14728293  # addi x5, x5, 327
    .word 0x26512823  # sw x5, 624(x2)
    .word 0x930aa2b7  # lui x5, 0x930aa
    .word 0x72528293  # addi x5, x5, 1829
    .word 0x26512a23  # sw x5, 628(x2)
    .word 0x06ca62b7  # lui x5, 0x06ca6
    .word 0x35128293  # addi x5, x5, 849
    .word 0x26512c23  # sw x5, 632(x2)
    .word 0xe00382b7  # lui x5, 0xe0038
    .word 0x26f28293  # addi x5, x5, 623
    .word 0x26512e23  # sw x5, 636(x2)
    .word 0x142932b7  # lui x5, 0x14293
    .word 0x96728293  # addi x5, x5, -1689
    .word 0x28512023  # sw x5, 640(x2)
    .word 0x0a0e72b7  # lui x5, 0x0a0e7
    .word 0xe7028293  # addi x5, x5, -400
    .word 0x28512223  # sw x5, 644(x2)
    .word 0x27b712b7  # lui x5, 0x27b71
    .word 0xa8528293  # addi x5, x5, -1403
    .word 0x28512423  # sw x5, 648(x2)
    .word 0x46d232b7  # lui x5, 0x46d23
    .word 0xffc28293  # addi x5, x5, -4
    .word 0x28512623  # sw x5, 652(x2)
    .word 0x2e1b22b7  # lui x5, 0x2e1b2
    .word 0x13828293  # addi x5, x5, 312
    .word 0x28512823  # sw x5, 656(x2)
    .word 0x5c26d2b7  # lui x5, 0x5c26d
    .word 0x92628293  # addi x5, x5, -1754
    .word 0x28512a23  # sw x5, 660(x2)
    .word 0x4d2c72b7  # lui x5, 0x4d2c7
    .word 0xdfc28293  # addi x5, x5, -516
    .word 0x28512c23  # sw x5, 664(x2)
    .word 0x5ac432b7  # lui x5, 0x5ac43
    .word 0xaed28293  # addi x5, x5, -1299
    .word 0x28512e23  # sw x5, 668(x2)
    .word 0x533812b7  # lui x5, 0x53381
    .word 0xd1328293  # addi x5, x5, -749
    .word 0x2a512023  # sw x5, 672(x2)
    .word 0x9d95b2b7  # lui x5, 0x9d95b
    .word 0x3df28293  # addi x5, x5, 991
    .word 0x2a512223  # sw x5, 676(x2)
    .word 0x650a72b7  # lui x5, 0x650a7
    .word 0x35428293  # addi x5, x5, 852
    .word 0x2a512423  # sw x5, 680(x2)
    .word 0x8baf62b7  # lui x5, 0x8baf6
    .word 0x3de28293  # addi x5, x5, 990
    .word 0x2a512623  # sw x5, 684(x2)
    .word 0x766a12b7  # lui x5, 0x766a1
    .word 0xabb28293  # addi x5, x5, -1349
    .word 0x2a512823  # sw x5, 688(x2)
    .word 0x3c77b2b7  # lui x5, 0x3c77b
    .word 0x2a828293  # addi x5, x5, 680
    .word 0x2a512a23  # sw x5, 692(x2)
    .word 0x81c2d2b7  # lui x5, 0x81c2d
    .word 0x92e28293  # addi x5, x5, -1746
    .word 0x2a512c23  # sw x5, 696(x2)
    .word 0x47edb2b7  # lui x5, 0x47edb
    .word 0xee628293  # addi x5, x5, -282
    .word 0x2a512e23  # sw x5, 700(x2)
    .word 0x927232b7  # lui x5, 0x92723
    .word 0xc8528293  # addi x5, x5, -891
    .word 0x2c512023  # sw x5, 704(x2)
    .word 0x148232b7  # lui x5, 0x14823
    .word 0x53b28293  # addi x5, x5, 1339
    .word 0x2c512223  # sw x5, 708(x2)
    .word 0xa2bff2b7  # lui x5, 0xa2bff
    .word 0x8a128293  # addi x5, x5, -1887
    .word 0x2c512423  # sw x5, 712(x2)
    .word 0x4cf102b7  # lui x5, 0x4cf10
    .word 0x36428293  # addi x5, x5, 868
    .word 0x2c512623  # sw x5, 716(x2)
    .word 0xa81a62b7  # lui x5, 0xa81a6
    .word 0x64b28293  # addi x5, x5, 1611
    .word 0x2c512823  # sw x5, 720(x2)
    .word 0xbc4232b7  # lui x5, 0xbc423
    .word 0x00128293  # addi x5, x5, 1
    .word 0x2c512a23  # sw x5, 724(x2)
    .word 0xc24b92b7  # lui x5, 0xc24b9
    .word 0xb7028293  # addi x5, x5, -1168
    .word 0x2c512c23  # sw x5, 728(x2)
    .word 0xd0f892b7  # lui x5, 0xd0f89
    .word 0x79128293  # addi x5, x5, 1937
    .word 0x2c512e23  # sw x5, 732(x2)
    .word 0xc76c52b7  # lui x5, 0xc76c5
    .word 0x1a328293  # addi x5, x5, 419
    .word 0x2e512023  # sw x5, 736(x2)
    .word 0x0654c2b7  # lui x5, 0x0654c
    .word 0xe3028293  # addi x5, x5, -464
    .word 0x2e512223  # sw x5, 740(x2)
    .word 0xd192f2b7  # lui x5, 0xd192f
    .word 0x81928293  # addi x5, x5, -2023
    .word 0x2e512423  # sw x5, 744(x2)
    .word 0xd6ef52b7  # lui x5, 0xd6ef5
    .word 0x21828293  # addi x5, x5, 536
    .word 0x2e512623  # sw x5, 748(x2)
    .word 0xd69902b7  # lui x5, 0xd6990
    .word 0x62428293  # addi x5, x5, 1572
    .word 0x2e512823  # sw x5, 752(x2)
    .word 0x5565b2b7  # lui x5, 0x5565b
    .word 0x91028293  # addi x5, x5, -1776
    .word 0x2e512a23  # sw x5, 756(x2)
    .word 0xf40e32b7  # lui x5, 0xf40e3
    .word 0x58528293  # addi x5, x5, 1413
    .word 0x2e512c23  # sw x5, 760(x2)
    .word 0x577122b7  # lui x5, 0x57712
    .word 0x02a28293  # addi x5, x5, 42
    .word 0x2e512e23  # sw x5, 764(x2)
    .word 0x106aa2b7  # lui x5, 0x106aa
    .word 0x07028293  # addi x5, x5, 112
    .word 0x30512023  # sw x5, 768(x2)
    .word 0x32bbd2b7  # lui x5, 0x32bbd
    .word 0x1b828293  # addi x5, x5, 440
    .word 0x30512223  # sw x5, 772(x2)
    .word 0x0c012023  # sw x0, 192(x2)
    .word 0x0c012223  # sw x0, 196(x2)
    .word 0x0c012423  # sw x0, 200(x2)
    .word 0x0c012623  # sw x0, 204(x2)
    .word 0x0c012823  # sw x0, 208(x2)
    .word 0x0c012a23  # sw x0, 212(x2)
    .word 0x0c012c23  # sw x0, 216(x2)
    .word 0x0c012e23  # sw x0, 220(x2)
    .word 0x0e012023  # sw x0, 224(x2)
    .word 0x0e012223  # sw x0, 228(x2)
    .word 0x0e012423  # sw x0, 232(x2)
    .word 0x0e012623  # sw x0, 236(x2)
    .word 0x0e012823  # sw x0, 240(x2)
    .word 0x0e012a23  # sw x0, 244(x2)
    .word 0x0e012c23  # sw x0, 248(x2)
    .word 0x0e012e23  # sw x0, 252(x2)
    .word 0x10012023  # sw x0, 256(x2)
    .word 0x10012223  # sw x0, 260(x2)
    .word 0x10012423  # sw x0, 264(x2)
    .word 0x10012623  # sw x0, 268(x2)
    .word 0x10012823  # sw x0, 272(x2)
    .word 0x10012a23  # sw x0, 276(x2)
    .word 0x10012c23  # sw x0, 280(x2)
    .word 0x10012e23  # sw x0, 284(x2)
    .word 0x12012023  # sw x0, 288(x2)
    .word 0x12012223  # sw x0, 292(x2)
    .word 0x12012423  # sw x0, 296(x2)
    .word 0x12012623  # sw x0, 300(x2)
    .word 0x12012823  # sw x0, 304(x2)
    .word 0x12012a23  # sw x0, 308(x2)
    .word 0x12012c23  # sw x0, 312(x2)
    .word 0x12012e23  # sw x0, 316(x2)
    .word 0x30012623  # sw x0, 780(x2)
    .word 0x01000293  # addi x5, x0, 16
    .word 0x30512823  # sw x5, 784(x2)
    .word 0x30c12303  # lw x6, 780(x2)
    .word 0x31012283  # lw x5, 784(x2)
    .word 0x005332b3  # sltu x5, x6, x5
    .word 0x00029463  # bne x5, x0, 8
    .word 0x0c00006f  # jal x0, 192
    .word 0x14612023  # sw x6, 320(x2)
    .word 0x00130313  # addi x6, x6, 1
    .word 0x30612623  # sw x6, 780(x2)
    .word 0x14012283  # lw x5, 320(x2)
    .word 0x00329593  # slli x11, x5, 3
    .word 0x00259d93  # slli x27, x11, 2
    .word 0x002d8db3  # add x27, x27, x2
    .word 0x002582b3  # add x5, x11, x2
    .word 0x0402c283  # lbu x5, 64(x5)
    .word 0x01829293  # slli x5, x5, 24
    .word 0x00258333  # add x6, x11, x2
    .word 0x04134303  # lbu x6, 65(x6)
    .word 0x01031313  # slli x6, x6, 16
    .word 0x0062ea33  # or x20, x5, x6
    .word 0x00258333  # add x6, x11, x2
    .word 0x04234303  # lbu x6, 66(x6)
    .word 0x00831313  # slli x6, x6, 8
    .word 0x006a62b3  # or x5, x20, x6
    .word 0x00258333  # add x6, x11, x2
    .word 0x04334303  # lbu x6, 67(x6)
    .word 0x0062ea33  # or x20, x5, x6
    .word 0x00458593  # addi x11, x11, 4
    .word 0x00259d93  # slli x27, x11, 2
    .word 0x002d8db3  # add x27, x27, x2
    .word 0x002582b3  # add x5, x11, x2
    .word 0x0402c283  # lbu x5, 64(x5)
    .word 0x01829293  # slli x5, x5, 24
    .word 0x00258333  # add x6, x11, x2
    .word 0x04134303  # lbu x6, 65(x6)
    .word 0x01031313  # slli x6, x6, 16
    .word 0x0062eb33  # or x22, x5, x6
    .word 0x00258333  # add x6, x11, x2
    .word 0x04234303  # lbu x6, 66(x6)
    .word 0x00831313  # slli x6, x6, 8
    .word 0x006b62b3  # or x5, x22, x6
    .word 0x00258333  # add x6, x11, x2
    .word 0x04334303  # lbu x6, 67(x6)
    .word 0x0062eb33  # or x22, x5, x6
    .word 0x14012283  # lw x5, 320(x2)
    .word 0x00229293  # slli x5, x5, 2
    .word 0x002282b3  # add x5, x5, x2
    .word 0x0d42a023  # sw x20, 192(x5)
    .word 0x14012283  # lw x5, 320(x2)
    .word 0x00229293  # slli x5, x5, 2
    .word 0x002282b3  # add x5, x5, x2
    .word 0x1162a023  # sw x22, 256(x5)
    .word 0xf35ff06f  # jal x0, -204
    .word 0x428a32b7  # lui x5, 0x428a3
    .word 0xf9828293  # addi x5, x5, -104
    .word 0x14512223  # sw x5, 324(x2)
    .word 0x713742b7  # lui x5, 0x71374
    .word 0x49128293  # addi x5, x5, 1169
    .word 0x14512423  # sw x5, 328(x2)
    .word 0xb5c102b7  # lui x5, 0xb5c10
    .word 0xbcf28293  # addi x5, x5, -1073
    .word 0x14512623  # sw x5, 332(x2)
    .word 0xe9b5e2b7  # lui x5, 0xe9b5e
    .word 0xba528293  # addi x5, x5, -1115
    .word 0x14512823  # sw x5, 336(x2)
    .word 0x3956c2b7  # lui x5, 0x3956c
    .word 0x25b28293  # addi x5, x5, 603
    .word 0x14512a23  # sw x5, 340(x2)
    .word 0x59f112b7  # lui x5, 0x59f11
    .word 0x1f128293  # addi x5, x5, 497
    .word 0x14512c23  # sw x5, 344(x2)
    .word 0x923f82b7  # lui x5, 0x923f8
    .word 0x2a428293  # addi x5, x5, 676
    .word 0x14512e23  # sw x5, 348(x2)
    .word 0xab1c62b7  # lui x5, 0xab1c6
    .word 0xed528293  # addi x5, x5, -299
    .word 0x16512023  # sw x5, 352(x2)
    .word 0xd807b2b7  # lui x5, 0xd807b
    .word 0xa9828293  # addi x5, x5, -1384
    .word 0x16512223  # sw x5, 356(x2)
    .word 0x128362b7  # lui x5, 0x12836
    .word 0xb0128293  # addi x5, x5, -1279
    .word 0x16512423  # sw x5, 360(x2)
    .word 0x243182b7  # lui x5, 0x24318
    .word 0x5be28293  # addi x5, x5, 1470
    .word 0x16512623  # sw x5, 364(x2)
    .word 0x550c82b7  # lui x5, 0x550c8
    .word 0xdc328293  # addi x5, x5, -573
    .word 0x16512823  # sw x5, 368(x2)
    .word 0x72be62b7  # lui x5, 0x72be6
    .word 0xd7428293  # addi x5, x5, -652
    .word 0x16512a23  # sw x5, 372(x2)
    .word 0x80deb2b7  # lui x5, 0x80deb
    .word 0x1fe28293  # addi x5, x5, 510
    .word 0x16512c23  # sw x5, 376(x2)
    .word 0x9bdc02b7  # lui x5, 0x9bdc0
    .word 0x6a728293  # addi x5, x5, 1703
    .word 0x16512e23  # sw x5, 380(x2)
    .word 0xc19bf2b7  # lui x5, 0xc19bf
    .word 0x17428293  # addi x5, x5, 372
    .word 0x18512023  # sw x5, 384(x2)
    .word 0xd728b2b7  # lui x5, 0xd728b
    .word 0xe2228293  # addi x5, x5, -478
    .word 0x18512223  # sw x5, 388(x2)
    .word 0x23ef62b7  # lui x5, 0x23ef6
    .word 0x5cd28293  # addi x5, x5, 1485
    .word 0x18512423  # sw x5, 392(x2)
    .word 0xec4d42b7  # lui x5, 0xec4d4
    .word 0xb2f28293  # addi x5, x5, -1233
    .word 0x18512623  # sw x5, 396(x2)
    .word 0x8189e2b7  # lui x5, 0x8189e
    .word 0xbbc28293  # addi x5, x5, -1092
    .word 0x18512823  # sw x5, 400(x2)
    .word 0xf348b2b7  # lui x5, 0xf348b
    .word 0x53828293  # addi x5, x5, 1336
    .word 0x18512a23  # sw x5, 404(x2)
    .word 0xb605d2b7  # lui x5, 0xb605d
    .word 0x01928293  # addi x5, x5, 25
    .word 0x18512c23  # sw x5, 408(x2)
    .word 0xaf1952b7  # lui x5, 0xaf195
    .word 0xf9b28293  # addi x5, x5, -101
    .word 0x18512e23  # sw x5, 412(x2)
    .word 0xda6d82b7  # lui x5, 0xda6d8
    .word 0x11828293  # addi x5, x5, 280
    .word 0x1a512023  # sw x5, 416(x2)
    .word 0xa30302b7  # lui x5, 0xa3030
    .word 0x24228293  # addi x5, x5, 578
    .word 0x1a512223  # sw x5, 420(x2)
    .word 0x457072b7  # lui x5, 0x45707
    .word 0xfbe28293  # addi x5, x5, -66
    .word 0x1a512423  # sw x5, 424(x2)
    .word 0x4ee4b2b7  # lui x5, 0x4ee4b
    .word 0x28c28293  # addi x5, x5, 652
    .word 0x1a512623  # sw x5, 428(x2)
    .word 0xd5ffb2b7  # lui x5, 0xd5ffb
    .word 0x4e228293  # addi x5, x5, 1250
    .word 0x1a512823  # sw x5, 432(x2)
    .word 0xf27b92b7  # lui x5, 0xf27b9
    .word 0x96f28293  # addi x5, x5, -1681
    .word 0x1a512a23  # sw x5, 436(x2)
    .word 0x3b1692b7  # lui x5, 0x3b169
    .word 0x6b128293  # addi x5, x5, 1713
    .word 0x1a512c23  # sw x5, 440(x2)
    .word 0x25c712b7  # lui x5, 0x25c71
    .word 0x23528293  # addi x5, x5, 565
    .word 0x1a512e23  # sw x5, 444(x2)
    .word 0xcf6922b7  # lui x5, 0xcf692
    .word 0x69428293  # addi x5, x5, 1684
    .word 0x1c512023  # sw x5, 448(x2)
    .word 0x00012283  # lw x5, 0(x2)
    .word 0x1c512223  # sw x5, 452(x2)
    .word 0x00412283  # lw x5, 4(x2)
    .word 0x1c512423  # sw x5, 456(x2)
    .word 0x00812283  # lw x5, 8(x2)
    .word 0x1c512623  # sw x5, 460(x2)
    .word 0x00c12503  # lw x10, 12(x2)
    .word 0x01012283  # lw x5, 16(x2)
    .word 0x1c512823  # sw x5, 464(x2)
    .word 0x01412283  # lw x5, 20(x2)
    .word 0x1c512a23  # sw x5, 468(x2)
    .word 0x01812283  # lw x5, 24(x2)
    .word 0x1c512c23  # sw x5, 472(x2)
    .word 0x01c12283  # lw x5, 28(x2)
    .word 0x1c512e23  # sw x5, 476(x2)
    .word 0x02012b83  # lw x23, 32(x2)
    .word 0x02412c03  # lw x24, 36(x2)
    .word 0x02812c83  # lw x25, 40(x2)
    .word 0x02c12d03  # lw x26, 44(x2)
    .word 0x03012703  # lw x14, 48(x2)
    .word 0x03412983  # lw x19, 52(x2)
    .word 0x03812683  # lw x13, 56(x2)
    .word 0x03c12a83  # lw x21, 60(x2)
    .word 0x30012623  # sw x0, 780(x2)
    .word 0x00500293  # addi x5, x0, 5
    .word 0x30512823  # sw x5, 784(x2)
    .word 0x30c12303  # lw x6, 780(x2)
    .word 0x31012283  # lw x5, 784(x2)
    .word 0x005332b3  # sltu x5, x6, x5
    .word 0x00029463  # bne x5, x0, 8
    .word 0x1a90106f  # jal x0, 6568
    .word 0x14612023  # sw x6, 320(x2)
    .word 0x00130313  # addi x6, x6, 1
    .word 0x30612623  # sw x6, 780(x2)
    .word 0x1cc12283  # lw x5, 460(x2)
    .word 0x1d012303  # lw x6, 464(x2)
    .word 0x0062c7b3  # xor x15, x5, x6
    .word 0x1d412303  # lw x6, 468(x2)
    .word 0x00654a33  # xor x20, x10, x6
    .word 0x30012a23  # sw x0, 788(x2)
    .word 0x00200293  # addi x5, x0, 2
    .word 0x30512c23  # sw x5, 792(x2)
    .word 0x31412303  # lw x6, 788(x2)
    .word 0x31812283  # lw x5, 792(x2)
    .word 0x005332b3  # sltu x5, x6, x5
    .word 0x00029463  # bne x5, x0, 8
    .word 0x73d0006f  # jal x0, 3900
    .word 0x20612223  # sw x6, 516(x2)
    .word 0x00130313  # addi x6, x6, 1
    .word 0x30612a23  # sw x6, 788(x2)
    .word 0x20412283  # lw x5, 516(x2)
    .word 0x00329593  # slli x11, x5, 3
    .word 0x00259d93  # slli x27, x11, 2
    .word 0x002d8db3  # add x27, x27, x2
    .word 0x00ec5293  # srli x5, x24, 14
    .word 0x012b9313  # slli x6, x23, 18
    .word 0x0062c2b3  # xor x5, x5, x6
    .word 0x012c5313  # srli x6, x24, 18
    .word 0x0062c2b3  # xor x5, x5, x6
    .word 0x00eb9313  # slli x6, x23, 14
    .word 0x0062c2b3  # xor x5, x5, x6
    .word 0x009bd313  # srli x6, x23, 9
    .word 0x0062c2b3  # xor x5, x5, x6
    .word 0x017c1313  # slli x6, x24, 23
    .word 0x0062cb33  # xor x22, x5, x6
    .word 0x016a8ab3  # add x21, x21, x22
    .word 0x00ebd293  # srli x5, x23, 14
    .word 0x012c1313  # slli x6, x24, 18
    .word 0x0062c2b3  # xor x5, x5, x6
    .word 0x012bd313  # srli x6, x23, 18
    .word 0x0062c2b3  # xor x5, x5, x6
    .word 0x00ec1313  # slli x6, x24, 14
    .word 0x0062c2b3  # xor x5, x5, x6
    .word 0x009c5313  # srli x6, x24, 9
    .word 0x0062c2b3  # xor x5, x5, x6
    .word 0x017b9313  # slli x6, x23, 23
    .word 0x0062c2b3  # xor x5, x5, x6
    .word 0x00d282b3  # add x5, x5, x13
    .word 0x016ab333  # sltu x6, x21, x22
    .word 0x006286b3  # add x13, x5, x6
    .word 0x013d42b3  # xor x5, x26, x19
    .word 0x0182f2b3  # and x5, x5, x24
    .word 0x0132cb33  # xor x22, x5, x19
    .word 0x016a8ab3  # add x21, x21, x22
    .word 0x00ecc2b3  # xor x5, x25, x14
    .word 0x0172f2b3  # and x5, x5, x23
    .word 0x00e2c2b3  # xor x5, x5, x14
    .word 0x00d282b3  # add x5, x5, x13
    .word 0x016ab333  # sltu x6, x21, x22
    .word 0x006286b3  # add x13, x5, x6
    .word 0x100dab03  # lw x22, 256(x27)
    .word 0x016a8ab3  # add x21, x21, x22
    .word 0x0c0da303  # lw x6, 192(x27)
    .word 0x006682b3  # add x5, x13, x6
    .word 0x016ab333  # sltu x6, x21, x22
    .word 0x006286b3  # add x13, x5, x6
    .word 0x184dab03  # lw x22, 388(x27)
    .word 0x016a8ab3  # add x21, x21, x22
    .word 0x144da303  # lw x6, 324(x27)
    .word 0x006682b3  # add x5, x13, x6
    .word 0x016ab333  # sltu x6, x21, x22
    .word 0x006286b3  # add x13, x5, x6
    .word 0x1dc12283  # lw x5, 476(x2)
    .word 0x015282b3  # add x5, x5, x21
    .word 0x1c512e23  # sw x5, 476(x2)
    .word 0x1d812283  # lw x5, 472(x2)
    .word 0x00d282b3  # add x5, x5, x13
    .word 0x1dc12303  # lw x6, 476(x2)
    .word 0x01533333  # sltu x6, x6, x21
    .word 0x006282b3  # add x5, x5, x6
    .word 0x1c512c23  # sw x5, 472(x2)
    .word 0x1c812283  # lw x5, 456(x2)
    .word 0x01c2d293  # srli x5, x5, 28
    .word 0x1c412303  # lw x6, 452(x2)
    .word 0x00431313  # slli x6, x6, 4
    .word 0x0062c2b3  # xor x5, x5, x6
    .word 0x1c412303  # lw x6, 452(x2)
    .word 0x00235313  # srli x6, x6, 2
    .word 0x0062c2b3  # xor x5, x5, x6
    .word 0x1c812303  # lw x6, 456(x2)
    .word 0x01e31313  # slli x6, x6, 30
    .word 0x0062c2b3  # xor x5, x5, x6
    .word 0x1c412303  # lw x6, 452(x2)
    .word 0x00735313  # srli x6, x6, 7
    .word 0x0062c2b3  # xor x5, x5, x6
    .word 0x1c812303  # lw x6, 456(x2)
    .word 0x01931313  # slli x6, x6, 25
    .word 0x0062cb33  # xor x22, x5, x6
    .word 0x016a8ab3  # add x21, x21, x22
    .word 0x1c412283  # lw x5, 452(x2)
    .word 0x01c2d293  # srli x5, x5, 28
    .word 0x1c812303  # lw x6, 456(x2)
    .word 0x00431313  # slli x6, x6, 4
    .word 0x0062c2b3  # xor x5, x5, x6
    .word 0x1c812303  # lw x6, 456(x2)
    .word 0x00235313  # srli x6, x6, 2
    .word 0x0062c2b3  # xor x5, x5, x6
    .word 0x1c412303  # lw x6, 452(x2)
    .word 0x01e31313  # slli x6, x6, 30
    .word 0x0062c2b3  # xor x5, x5, x6
    .word 0x1c812303  # lw x6, 456(x2)
    .word 0x00735313  # srli x6, x6, 7
    .word 0x0062c2b3  # xor x5, x5, x6
    .word 0x1c412303  # lw x6, 452(x2)
    .word 0x01931313  # slli x6, x6, 25
    .word 0x0062c2b3  # xor x5, x5, x6
    .word 0x00d282b3  # add x5, x5, x13
    .word 0x016ab333  # sltu x6, x21, x22
    .word 0x006286b3  # add x13, x5, x6
    .word 0x1c812283  # lw x5, 456(x2)
    .word 0x00a2cb33  # xor x22, x5, x10
    .word 0x016a72b3  # and x5, x20, x22
    .word 0x00a2ca33  # xor x20, x5, x10
    .word 0x014a8ab3  # add x21, x21, x20
    .word 0x1c412283  # lw x5, 452(x2)
    .word 0x1cc12303  # lw x6, 460(x2)
    .word 0x0062c833  # xor x16, x5, x6
    .word 0x0107f2b3  # and x5, x15, x16
    .word 0x1cc12303  # lw x6, 460(x2)
    .word 0x0062c7b3  # xor x15, x5, x6
    .word 0x00f682b3  # add x5, x13, x15
    .word 0x014ab333  # sltu x6, x21, x20
    .word 0x006286b3  # add x13, x5, x6
    .word 0x1dc12283  # lw x5, 476(x2)
    .word 0x00e2d293  # srli x5, x5, 14
    .word 0x1d812303  # lw x6, 472(x2)
    .word 0x01231313  # slli x6, x6, 18
    .word 0x0062c2b3  # xor x5, x5, x6
    .word 0x1dc12303  # lw x6, 476(x2)
    .word 0x01235313  # srli x6, x6, 18
    .word 0x0062c2b3  # xor x5, x5, x6
    .word 0x1d812303  # lw x6, 472(x2)
    .word 0x00e31313  # slli x6, x6, 14
    .word 0x0062c2b3  # xor x5, x5, x6
    .word 0x1d812303  # lw x6, 472(x2)
    .word 0x00935313  # srli x6, x6, 9
    .word 0x0062c2b3  # xor x5, x5, x6
    .word 0x1dc12303  # lw x6, 476(x2)
    .word 0x01731313  # slli x6, x6, 23
    .word 0x0062ca33  # xor x20, x5, x6
    .word 0x014989b3  # add x19, x19, x20
    .word 0x1d812283  # lw x5, 472(x2)
    .word 0x00e2d293  # srli x5, x5, 14
    .word 0x1dc12303  # lw x6, 476(x2)
    .word 0x01231313  # slli x6, x6, 18
    .word 0x0062c2b3  # xor x5, x5, x6
    .word 0x1d812303  # lw x6, 472(x2)
    .word 0x01235313  # srli x6, x6, 18
    .word 0x0062c2b3  # xor x5, x5, x6
    .word 0x1dc12303  # lw x6, 476(x2)
    .word 0x00e31313  # slli x6, x6, 14
    .word 0x0062c2b3  # xor x5, x5, x6
    .word 0x1dc12303  # lw x6, 476(x2)
    .word 0x00935313  # srli x6, x6, 9
    .word 0x0062c2b3  # xor x5, x5, x6
    .word 0x1d812303  # lw x6, 472(x2)
    .word 0x01731313  # slli x6, x6, 23
    .word 0x0062c2b3  # xor x5, x5, x6
    .word 0x00e282b3  # add x5, x5, x14
    .word 0x0149b333  # sltu x6, x19, x20
    .word 0x00628733  # add x14, x5, x6
    .word 0x01ac42b3  # xor x5, x24, x26
    .word 0x1dc12303  # lw x6, 476(x2)
    .word 0x0062f2b3  # and x5, x5, x6
    .word 0x01a2ca33  # xor x20, x5, x26
    .word 0x014989b3  # add x19, x19, x20
    .word 0x019bc2b3  # xor x5, x23, x25
    .word 0x1d812303  # lw x6, 472(x2)
    .word 0x0062f2b3  # and x5, x5, x6
    .word 0x0192c2b3  # xor x5, x5, x25
    .word 0x00e282b3  # add x5, x5, x14
    .word 0x0149b333  # sltu x6, x19, x20
    .word 0x00628733  # add x14, x5, x6
    .word 0x104daa03  # lw x20, 260(x27)
    .word 0x014989b3  # add x19, x19, x20
    .word 0x0c4da303  # lw x6, 196(x27)
    .word 0x006702b3  # add x5, x14, x6
    .word 0x0149b333  # sltu x6, x19, x20
    .word 0x00628733  # add x14, x5, x6
    .word 0x188daa03  # lw x20, 392(x27)
    .word 0x014989b3  # add x19, x19, x20
    .word 0x148da303  # lw x6, 328(x27)
    .word 0x006702b3  # add x5, x14, x6
    .word 0x0149b333  # sltu x6, x19, x20
    .word 0x00628733  # add x14, x5, x6
    .word 0x1d412283  # lw x5, 468(x2)
    .word 0x013282b3  # add x5, x5, x19
    .word 0x1c512a23  # sw x5, 468(x2)
    .word 0x1d012283  # lw x5, 464(x2)
    .word 0x00e282b3  # add x5, x5, x14
    .word 0x1d412303  # lw x6, 468(x2)
    .word 0x01333333  # sltu x6, x6, x19
    .word 0x006282b3  # add x5, x5, x6
    .word 0x1c512823  # sw x5, 464(x2)
    .word 0x01cad293  # srli x5, x21, 28
    .word 0x00469313  # slli x6, x13, 4
    .word 0x0062c2b3  # xor x5, x5, x6
    .word 0x0026d313  # srli x6, x13, 2
    .word 0x0062c2b3  # xor x5, x5, x6
    .word 0x01ea9313  # slli x6, x21, 30
    .word 0x0062c2b3  # xor x5, x5, x6
    .word 0x0076d313  # srli x6, x13, 7
    .word 0x0062c2b3  # xor x5, x5, x6
    .word 0x019a9313  # slli x6, x21, 25
    .word 0x0062ca33  # xor x20, x5, x6
    .word 0x014989b3  # add x19, x19, x20
    .word 0x01c6d293  # srli x5, x13, 28
    .word 0x004a9313  # slli x6, x21, 4
    .word 0x0062c2b3  # xor x5, x5, x6
    .word 0x002ad313  # srli x6, x21, 2
    .word 0x0062c2b3  # xor x5, x5, x6
    .word 0x01e69313  # slli x6, x13, 30
    .word 0x0062c2b3  # xor x5, x5, x6
    .word 0x007ad313  # srli x6, x21, 7
    .word 0x0062c2b3  # xor x5, x5, x6
    .word 0x01969313  # slli x6, x13, 25
    .word 0x0062c2b3  # xor x5, x5, x6
    .word 0x00e282b3  # add x5, x5, x14
    .word 0x0149b333  # sltu x6, x19, x20
    .word 0x00628733  # add x14, x5, x6
    .word 0x1c812303  # lw x6, 456(x2)
    .word 0x006aca33  # xor x20, x21, x6
    .word 0x014b72b3  # and x5, x22, x20
    .word 0x1c812303  # lw x6, 456(x2)
    .word 0x0062cb33  # xor x22, x5, x6
    .word 0x016989b3  # add x19, x19, x22
    .word 0x1c412303  # lw x6, 452(x2)
    .word 0x0066c7b3  # xor x15, x13, x6
    .word 0x00f872b3  # and x5, x16, x15
    .word 0x1c412303  # lw x6, 452(x2)
    .word 0x0062c833  # xor x16, x5, x6
    .word 0x010702b3  # add x5, x14, x16
    .word 0x0169b333  # sltu x6, x19, x22
    .word 0x00628733  # add x14, x5, x6
    .word 0x1d412283  # lw x5, 468(x2)
    .word 0x00e2d293  # srli x5, x5, 14
    .word 0x1d012303  # lw x6, 464(x2)
    .word 0x01231313  # slli x6, x6, 18
    .word 0x0062c2b3  # xor x5, x5, x6
    .word 0x1d412303  # lw x6, 468(x2)
    .word 0x01235313  # srli x6, x6, 18
    .word 0x0062c2b3  # xor x5, x5, x6
    .word 0x1d012303  # lw x6, 464(x2)
    .word 0x00e31313  # slli x6, x6, 14
    .word 0x0062c2b3  # xor x5, x5, x6
    .word 0x1d012303  # lw x6, 464(x2)
    .word 0x00935313  # srli x6, x6, 9
    .word 0x0062c2b3  # xor x5, x5, x6
    .word 0x1d412303  # lw x6, 468(x2)
    .word 0x01731313  # slli x6, x6, 23
    .word 0x0062cb33  # xor x22, x5, x6
    .word 0x016d0d33  # add x26, x26, x22
    .word 0x1d012283  # lw x5, 464(x2)
    .word 0x00e2d293  # srli x5, x5, 14
    .word 0x1d412303  # lw x6, 468(x2)
    .word 0x01231313  # slli x6, x6, 18
    .word 0x0062c2b3  # xor x5, x5, x6
    .word 0x1d012303  # lw x6, 464(x2)
    .word 0x01235313  # srli x6, x6, 18
    .word 0x0062c2b3  # xor x5, x5, x6
    .word 0x1d412303  # lw x6, 468(x2)
    .word 0x00e31313  # slli x6, x6, 14
    .word 0x0062c2b3  # xor x5, x5, x6
    .word 0x1d412303  # lw x6, 468(x2)
    .word 0x00935313  # srli x6, x6, 9
    .word 0x0062c2b3  # xor x5, x5, x6
    .word 0x1d012303  # lw x6, 464(x2)
    .word 0x01731313  # slli x6, x6, 23
    .word 0x0062c2b3  # xor x5, x5, x6
    .word 0x019282b3  # add x5, x5, x25
    .word 0x016d3333  # sltu x6, x26, x22
    .word 0x00628cb3  # add x25, x5, x6
    .word 0x1dc12283  # lw x5, 476(x2)
    .word 0x0182c2b3  # xor x5, x5, x24
    .word 0x1d412303  # lw x6, 468(x2)
    .word 0x0062f2b3  # and x5, x5, x6
    .word 0x0182cb33  # xor x22, x5, x24
    .word 0x016d0d33  # add x26, x26, x22
    .word 0x1d812283  # lw x5, 472(x2)
    .word 0x0172c2b3  # xor x5, x5, x23
    .word 0x1d012303  # lw x6, 464(x2)
    .word 0x0062f2b3  # and x5, x5, x6
    .word 0x0172c2b3  # xor x5, x5, x23
    .word 0x019282b3  # add x5, x5, x25
    .word 0x016d3333  # sltu x6, x26, x22
    .word 0x00628cb3  # add x25, x5, x6
    .word 0x108dab03  # lw x22, 264(x27)
    .word 0x016d0d33  # add x26, x26, x22
    .word 0x0c8da303  # lw x6, 200(x27)
    .word 0x006c82b3  # add x5, x25, x6
    .word 0x016d3333  # sltu x6, x26, x22
    .word 0x00628cb3  # add x25, x5, x6
    .word 0x18cdab03  # lw x22, 396(x27)
    .word 0x016d0d33  # add x26, x26, x22
    .word 0x14cda303  # lw x6, 332(x27)
    .word 0x006c82b3  # add x5, x25, x6
    .word 0x016d3333  # sltu x6, x26, x22
    .word 0x00628cb3  # add x25, x5, x6
    .word 0x01a50533  # add x10, x10, x26
    .word 0x1cc12283  # lw x5, 460(x2)
    .word 0x019282b3  # add x5, x5, x25
    .word 0x01a53333  # sltu x6, x10, x26
    .word 0x006282b3  # add x5, x5, x6
    .word 0x1c512623  # sw x5, 460(x2)
    .word 0x01c9d293  # srli x5, x19, 28
    .word 0x00471313  # slli x6, x14, 4
    .word 0x0062c2b3  # xor x5, x5, x6
    .word 0x00275313  # srli x6, x14, 2
    .word 0x0062c2b3  # xor x5, x5, x6
    .word 0x01e99313  # slli x6, x19, 30
    .word 0x0062c2b3  # xor x5, x5, x6
    .word 0x00775313  # srli x6, x14, 7
    .word 0x0062c2b3  # xor x5, x5, x6
    .word 0x01999313  # slli x6, x19, 25
    .word 0x0062cb33  # xor x22, x5, x6
    .word 0x016d0d33  # add x26, x26, x22
    .word 0x01c75293  # srli x5, x14, 28
    .word 0x00499313  # slli x6, x19, 4
    .word 0x0062c2b3  # xor x5, x5, x6
    .word 0x0029d313  # srli x6, x19, 2
    .word 0x0062c2b3  # xor x5, x5, x6
    .word 0x01e71313  # slli x6, x14, 30
    .word 0x0062c2b3  # xor x5, x5, x6
    .word 0x0079d313  # srli x6, x19, 7
    .word 0x0062c2b3  # xor x5, x5, x6
    .word 0x01971313  # slli x6, x14, 25
    .word 0x0062c2b3  # xor x5, x5, x6
    .word 0x019282b3  # add x5, x5, x25
    .word 0x016d3333  # sltu x6, x26, x22
    .word 0x00628cb3  # add x25, x5, x6
    .word 0x0159cb33  # xor x22, x19, x21
    .word 0x016a72b3  # and x5, x20, x22
    .word 0x0152ca33  # xor x20, x5, x21
    .word 0x014d0d33  # add x26, x26, x20
    .word 0x00d74833  # xor x16, x14, x13
    .word 0x0107f2b3  # and x5, x15, x16
    .word 0x00d2c7b3  # xor x15, x5, x13
    .word 0x00fc82b3  # add x5, x25, x15
    .word 0x014d3333  # sltu x6, x26, x20
    .word 0x00628cb3  # add x25, x5, x6
    .word 0x00e55293  # srli x5, x10, 14
    .word 0x1cc12303  # lw x6, 460(x2)
    .word 0x01231313  # slli x6, x6, 18
    .word 0x0062c2b3  # xor x5, x5, x6
    .word 0x01255313  # srli x6, x10, 18
    .word 0x0062c2b3  # xor x5, x5, x6
    .word 0x1cc12303  # lw x6, 460(x2)
    .word 0x00e31313  # slli x6, x6, 14
    .word 0x0062c2b3  # xor x5, x5, x6
    .word 0x1cc12303  # lw x6, 460(x2)
    .word 0x00935313  # srli x6, x6, 9
    .word 0x0062c2b3  # xor x5, x5, x6
    .word 0x01751313  # slli x6, x10, 23
    .word 0x0062ca33  # xor x20, x5, x6
    .word 0x014c0c33  # add x24, x24, x20
    .word 0x1cc12283  # lw x5, 460(x2)
    .word 0x00e2d293  # srli x5, x5, 14
    .word 0x01251313  # slli x6, x10, 18
    .word 0x0062c2b3  # xor x5, x5, x6
    .word 0x1cc12303  # lw x6, 460(x2)
    .word 0x01235313  # srli x6, x6, 18
    .word 0x0062c2b3  # xor x5, x5, x6
    .word 0x00e51313  # slli x6, x10, 14
    .word 0x0062c2b3  # xor x5, x5, x6
    .word 0x00955313  # srli x6, x10, 9
    .word 0x0062c2b3  # xor x5, x5, x6
    .word 0x1cc12303  # lw x6, 460(x2)
    .word 0x01731313  # slli x6, x6, 23
    .word 0x0062c2b3  # xor x5, x5, x6
    .word 0x017282b3  # add x5, x5, x23
    .word 0x014c3333  # sltu x6, x24, x20
    .word 0x00628bb3  # add x23, x5, x6
    .word 0x1d412283  # lw x5, 468(x2)
    .word 0x1dc12303  # lw x6, 476(x2)
    .word 0x0062c2b3  # xor x5, x5, x6
    .word 0x00a2f2b3  # and x5, x5, x10
    .word 0x1dc12303  # lw x6, 476(x2)
    .word 0x0062ca33  # xor x20, x5, x6
    .word 0x014c0c33  # add x24, x24, x20
    .word 0x1d012283  # lw x5, 464(x2)
    .word 0x1d812303  # lw x6, 472(x2)
    .word 0x0062c2b3  # xor x5, x5, x6
    .word 0x1cc12303  # lw x6, 460(x2)
    .word 0x0062f2b3  # and x5, x5, x6
    .word 0x1d812303  # lw x6, 472(x2)
    .word 0x0062c2b3  # xor x5, x5, x6
    .word 0x017282b3  # add x5, x5, x23
    .word 0x014c3333  # sltu x6, x24, x20
    .word 0x00628bb3  # add x23, x5, x6
    .word 0x10cdaa03  # lw x20, 268(x27)
    .word 0x014c0c33  # add x24, x24, x20
    .word 0x0ccda303  # lw x6, 204(x27)
    .word 0x006b82b3  # add x5, x23, x6
    .word 0x014c3333  # sltu x6, x24, x20
    .word 0x00628bb3  # add x23, x5, x6
    .word 0x190daa03  # lw x20, 400(x27)
    .word 0x014c0c33  # add x24, x24, x20
    .word 0x150da303  # lw x6, 336(x27)
    .word 0x006b82b3  # add x5, x23, x6
    .word 0x014c3333  # sltu x6, x24, x20
    .word 0x00628bb3  # add x23, x5, x6
    .word 0x1c812283  # lw x5, 456(x2)
    .word 0x018282b3  # add x5, x5, x24
    .word 0x1c512423  # sw x5, 456(x2)
    .word 0x1c412283  # lw x5, 452(x2)
    .word 0x017282b3  # add x5, x5, x23
    .word 0x1c812303  # lw x6, 456(x2)
    .word 0x01833333  # sltu x6, x6, x24
    .word 0x006282b3  # add x5, x5, x6
    .word 0x1c512223  # sw x5, 452(x2)
    .word 0x01cd5293  # srli x5, x26, 28
    .word 0x004c9313  # slli x6, x25, 4
    .word 0x0062c2b3  # xor x5, x5, x6
    .word 0x002cd313  # srli x6, x25, 2
    .word 0x0062c2b3  # xor x5, x5, x6
    .word 0x01ed1313  # slli x6, x26, 30
    .word 0x0062c2b3  # xor x5, x5, x6
    .word 0x007cd313  # srli x6, x25, 7
    .word 0x0062c2b3  # xor x5, x5, x6
    .word 0x019d1313  # slli x6, x26, 25
    .word 0x0062ca33  # xor x20, x5, x6
    .word 0x014c0c33  # add x24, x24, x20
    .word 0x01ccd293  # srli x5, x25, 28
    .word 0x004d1313  # slli x6, x26, 4
    .word 0x0062c2b3  # xor x5, x5, x6
    .word 0x002d5313  # srli x6, x26, 2
    .word 0x0062c2b3  # xor x5, x5, x6
    .word 0x01ec9313  # slli x6, x25, 30
    .word 0x0062c2b3  # xor x5, x5, x6
    .word 0x007d5313  # srli x6, x26, 7
    .word 0x0062c2b3  # xor x5, x5, x6
    .word 0x019c9313  # slli x6, x25, 25
    .word 0x0062c2b3  # xor x5, x5, x6
    .word 0x017282b3  # add x5, x5, x23
    .word 0x014c3333  # sltu x6, x24, x20
    .word 0x00628bb3  # add x23, x5, x6
    .word 0x013d4a33  # xor x20, x26, x19
    .word 0x014b72b3  # and x5, x22, x20
    .word 0x0132cb33  # xor x22, x5, x19
    .word 0x016c0c33  # add x24, x24, x22
    .word 0x00ecc7b3  # xor x15, x25, x14
    .word 0x00f872b3  # and x5, x16, x15
    .word 0x00e2c833  # xor x16, x5, x14
    .word 0x010b82b3  # add x5, x23, x16
    .word 0x016c3333  # sltu x6, x24, x22
    .word 0x00628bb3  # add x23, x5, x6
    .word 0x1c812283  # lw x5, 456(x2)
    .word 0x00e2d293  # srli x5, x5, 14
    .word 0x1c412303  # lw x6, 452(x2)
    .word 0x01231313  # slli x6, x6, 18
    .word 0x0062c2b3  # xor x5, x5, x6
    .word 0x1c812303  # lw x6, 456(x2)
    .word 0x01235313  # srli x6, x6, 18
    .word 0x0062c2b3  # xor x5, x5, x6
    .word 0x1c412303  # lw x6, 452(x2)
    .word 0x00e31313  # slli x6, x6, 14
    .word 0x0062c2b3  # xor x5, x5, x6
    .word 0x1c412303  # lw x6, 452(x2)
    .word 0x00935313  # srli x6, x6, 9
    .word 0x0062c2b3  # xor x5, x5, x6
    .word 0x1c812303  # lw x6, 456(x2)
    .word 0x01731313  # slli x6, x6, 23
    .word 0x0062cb33  # xor x22, x5, x6
    .word 0x1dc12283  # lw x5, 476(x2)
    .word 0x016282b3  # add x5, x5, x22
    .word 0x1c512e23  # sw x5, 476(x2)
    .word 0x1c412283  # lw x5, 452(x2)
    .word 0x00e2d293  # srli x5, x5, 14
    .word 0x1c812303  # lw x6, 456(x2)
    .word 0x01231313  # slli x6, x6, 18
    .word 0x0062c2b3  # xor x5, x5, x6
    .word 0x1c412303  # lw x6, 452(x2)
    .word 0x01235313  # srli x6, x6, 18
    .word 0x0062c2b3  # xor x5, x5, x6
    .word 0x1c812303  # lw x6, 456(x2)
    .word 0x00e31313  # slli x6, x6, 14
    .word 0x0062c2b3  # xor x5, x5, x6
    .word 0x1c812303  # lw x6, 456(x2)
    .word 0x00935313  # srli x6, x6, 9
    .word 0x0062c2b3  # xor x5, x5, x6
    .word 0x1c412303  # lw x6, 452(x2)
    .word 0x01731313  # slli x6, x6, 23
    .word 0x0062c2b3  # xor x5, x5, x6
    .word 0x1d812303  # lw x6, 472(x2)
    .word 0x006282b3  # add x5, x5, x6
    .word 0x1dc12303  # lw x6, 476(x2)
    .word 0x01633333  # sltu x6, x6, x22
    .word 0x006282b3  # add x5, x5, x6
    .word 0x1c512c23  # sw x5, 472(x2)
    .word 0x1d412303  # lw x6, 468(x2)
    .word 0x006542b3  # xor x5, x10, x6
    .word 0x1c812303  # lw x6, 456(x2)
    .word 0x0062f2b3  # and x5, x5, x6
    .word 0x1d412303  # lw x6, 468(x2)
    .word 0x0062cb33  # xor x22, x5, x6
    .word 0x1dc12283  # lw x5, 476(x2)
    .word 0x016282b3  # add x5, x5, x22
    .word 0x1c512e23  # sw x5, 476(x2)
    .word 0x1cc12283  # lw x5, 460(x2)
    .word 0x1d012303  # lw x6, 464(x2)
    .word 0x0062c2b3  # xor x5, x5, x6
    .word 0x1c412303  # lw x6, 452(x2)
    .word 0x0062f2b3  # and x5, x5, x6
    .word 0x1d012303  # lw x6, 464(x2)
    .word 0x0062c2b3  # xor x5, x5, x6
    .word 0x1d812303  # lw x6, 472(x2)
    .word 0x006282b3  # add x5, x5, x6
    .word 0x1dc12303  # lw x6, 476(x2)
    .word 0x01633333  # sltu x6, x6, x22
    .word 0x006282b3  # add x5, x5, x6
    .word 0x1c512c23  # sw x5, 472(x2)
    .word 0x110dab03  # lw x22, 272(x27)
    .word 0x1dc12283  # lw x5, 476(x2)
    .word 0x016282b3  # add x5, x5, x22
    .word 0x1c512e23  # sw x5, 476(x2)
    .word 0x1d812283  # lw x5, 472(x2)
    .word 0x0d0da303  # lw x6, 208(x27)
    .word 0x006282b3  # add x5, x5, x6
    .word 0x1dc12303  # lw x6, 476(x2)
    .word 0x01633333  # sltu x6, x6, x22
    .word 0x006282b3  # add x5, x5, x6
    .word 0x1c512c23  # sw x5, 472(x2)
    .word 0x194dab03  # lw x22, 404(x27)
    .word 0x1dc12283  # lw x5, 476(x2)
    .word 0x016282b3  # add x5, x5, x22
    .word 0x1c512e23  # sw x5, 476(x2)
    .word 0x1d812283  # lw x5, 472(x2)
    .word 0x154da303  # lw x6, 340(x27)
    .word 0x006282b3  # add x5, x5, x6
    .word 0x1dc12303  # lw x6, 476(x2)
    .word 0x01633333  # sltu x6, x6, x22
    .word 0x006282b3  # add x5, x5, x6
    .word 0x1c512c23  # sw x5, 472(x2)
    .word 0x1dc12303  # lw x6, 476(x2)
    .word 0x006a8ab3  # add x21, x21, x6
    .word 0x1d812303  # lw x6, 472(x2)
    .word 0x006682b3  # add x5, x13, x6
    .word 0x1dc12383  # lw x7, 476(x2)
    .word 0x007ab333  # sltu x6, x21, x7
    .word 0x006286b3  # add x13, x5, x6
    .word 0x01cc5293  # srli x5, x24, 28
    .word 0x004b9313  # slli x6, x23, 4
    .word 0x0062c2b3  # xor x5, x5, x6
    .word 0x002bd313  # srli x6, x23, 2
    .word 0x0062c2b3  # xor x5, x5, x6
    .word 0x01ec1313  # slli x6, x24, 30
    .word 0x0062c2b3  # xor x5, x5, x6
    .word 0x007bd313  # srli x6, x23, 7
    .word 0x0062c2b3  # xor x5, x5, x6
    .word 0x019c1313  # slli x6, x24, 25
    .word 0x0062cb33  # xor x22, x5, x6
    .word 0x1dc12283  # lw x5, 476(x2)
    .word 0x016282b3  # add x5, x5, x22
    .word 0x1c512e23  # sw x5, 476(x2)
    .word 0x01cbd293  # srli x5, x23, 28
    .word 0x004c1313  # slli x6, x24, 4
    .word 0x0062c2b3  # xor x5, x5, x6
    .word 0x002c5313  # srli x6, x24, 2
    .word 0x0062c2b3  # xor x5, x5, x6
    .word 0x01eb9313  # slli x6, x23, 30
    .word 0x0062c2b3  # xor x5, x5, x6
    .word 0x007c5313  # srli x6, x24, 7
    .word 0x0062c2b3  # xor x5, x5, x6
    .word 0x019b9313  # slli x6, x23, 25
    .word 0x0062c2b3  # xor x5, x5, x6
    .word 0x1d812303  # lw x6, 472(x2)
    .word 0x006282b3  # add x5, x5, x6
    .word 0x1dc12303  # lw x6, 476(x2)
    .word 0x01633333  # sltu x6, x6, x22
    .word 0x006282b3  # add x5, x5, x6
    .word 0x1c512c23  # sw x5, 472(x2)
    .word 0x01ac4b33  # xor x22, x24, x26
    .word 0x016a72b3  # and x5, x20, x22
    .word 0x01a2ca33  # xor x20, x5, x26
    .word 0x1dc12283  # lw x5, 476(x2)
    .word 0x014282b3  # add x5, x5, x20
    .word 0x1c512e23  # sw x5, 476(x2)
    .word 0x019bc833  # xor x16, x23, x25
    .word 0x0107f2b3  # and x5, x15, x16
    .word 0x0192c7b3  # xor x15, x5, x25
    .word 0x1d812283  # lw x5, 472(x2)
    .word 0x00f282b3  # add x5, x5, x15
    .word 0x1dc12303  # lw x6, 476(x2)
    .word 0x01433333  # sltu x6, x6, x20
    .word 0x006282b3  # add x5, x5, x6
    .word 0x1c512c23  # sw x5, 472(x2)
    .word 0x00ead293  # srli x5, x21, 14
    .word 0x01269313  # slli x6, x13, 18
    .word 0x0062c2b3  # xor x5, x5, x6
    .word 0x012ad313  # srli x6, x21, 18
    .word 0x0062c2b3  # xor x5, x5, x6
    .word 0x00e69313  # slli x6, x13, 14
    .word 0x0062c2b3  # xor x5, x5, x6
    .word 0x0096d313  # srli x6, x13, 9
    .word 0x0062c2b3  # xor x5, x5, x6
    .word 0x017a9313  # slli x6, x21, 23
    .word 0x0062ca33  # xor x20, x5, x6
    .word 0x1d412283  # lw x5, 468(x2)
    .word 0x014282b3  # add x5, x5, x20
    .word 0x1c512a23  # sw x5, 468(x2)
    .word 0x00e6d293  # srli x5, x13, 14
    .word 0x012a9313  # slli x6, x21, 18
    .word 0x0062c2b3  # xor x5, x5, x6
    .word 0x0126d313  # srli x6, x13, 18
    .word 0x0062c2b3  # xor x5, x5, x6
    .word 0x00ea9313  # slli x6, x21, 14
    .word 0x0062c2b3  # xor x5, x5, x6
    .word 0x009ad313  # srli x6, x21, 9
    .word 0x0062c2b3  # xor x5, x5, x6
    .word 0x01769313  # slli x6, x13, 23
    .word 0x0062c2b3  # xor x5, x5, x6
    .word 0x1d012303  # lw x6, 464(x2)
    .word 0x006282b3  # add x5, x5, x6
    .word 0x1d412303  # lw x6, 468(x2)
    .word 0x01433333  # sltu x6, x6, x20
    .word 0x006282b3  # add x5, x5, x6
    .word 0x1c512823  # sw x5, 464(x2)
    .word 0x1c812283  # lw x5, 456(x2)
    .word 0x00a2c2b3  # xor x5, x5, x10
    .word 0x0152f2b3  # and x5, x5, x21
    .word 0x00a2ca33  # xor x20, x5, x10
    .word 0x1d412283  # lw x5, 468(x2)
    .word 0x014282b3  # add x5, x5, x20
    .word 0x1c512a23  # sw x5, 468(x2)
    .word 0x1c412283  # lw x5, 452(x2)
    .word 0x1cc12303  # lw x6, 460(x2)
    .word 0x0062c2b3  # xor x5, x5, x6
    .word 0x00d2f2b3  # and x5, x5, x13
    .word 0x1cc12303  # lw x6, 460(x2)
    .word 0x0062c2b3  # xor x5, x5, x6
    .word 0x1d012303  # lw x6, 464(x2)
    .word 0x006282b3  # add x5, x5, x6
    .word 0x1d412303  # lw x6, 468(x2)
    .word 0x01433333  # sltu x6, x6, x20
    .word 0x006282b3  # add x5, x5, x6
    .word 0x1c512823  # sw x5, 464(x2)
    .word 0x114daa03  # lw x20, 276(x27)
    .word 0x1d412283  # lw x5, 468(x2)
    .word 0x014282b3  # add x5, x5, x20
    .word 0x1c512a23  # sw x5, 468(x2)
    .word 0x1d012283  # lw x5, 464(x2)
    .word 0x0d4da303  # lw x6, 212(x27)
    .word 0x006282b3  # add x5, x5, x6
    .word 0x1d412303  # lw x6, 468(x2)
    .word 0x01433333  # sltu x6, x6, x20
    .word 0x006282b3  # add x5, x5, x6
    .word 0x1c512823  # sw x5, 464(x2)
    .word 0x198daa03  # lw x20, 408(x27)
    .word 0x1d412283  # lw x5, 468(x2)
    .word 0x014282b3  # add x5, x5, x20
    .word 0x1c512a23  # sw x5, 468(x2)
    .word 0x1d012283  # lw x5, 464(x2)
    .word 0x158da303  # lw x6, 344(x27)
    .word 0x006282b3  # add x5, x5, x6
    .word 0x1d412303  # lw x6, 468(x2)
    .word 0x01433333  # sltu x6, x6, x20
    .word 0x006282b3  # add x5, x5, x6
    .word 0x1c512823  # sw x5, 464(x2)
    .word 0x1d412303  # lw x6, 468(x2)
    .word 0x006989b3  # add x19, x19, x6
    .word 0x1d012303  # lw x6, 464(x2)
    .word 0x006702b3  # add x5, x14, x6
    .word 0x1d412383  # lw x7, 468(x2)
    .word 0x0079b333  # sltu x6, x19, x7
    .word 0x00628733  # add x14, x5, x6
    .word 0x1dc12283  # lw x5, 476(x2)
    .word 0x01c2d293  # srli x5, x5, 28
    .word 0x1d812303  # lw x6, 472(x2)
    .word 0x00431313  # slli x6, x6, 4
    .word 0x0062c2b3  # xor x5, x5, x6
    .word 0x1d812303  # lw x6, 472(x2)
    .word 0x00235313  # srli x6, x6, 2
    .word 0x0062c2b3  # xor x5, x5, x6
    .word 0x1dc12303  # lw x6, 476(x2)
    .word 0x01e31313  # slli x6, x6, 30
    .word 0x0062c2b3  # xor x5, x5, x6
    .word 0x1d812303  # lw x6, 472(x2)
    .word 0x00735313  # srli x6, x6, 7
    .word 0x0062c2b3  # xor x5, x5, x6
    .word 0x1dc12303  # lw x6, 476(x2)
    .word 0x01931313  # slli x6, x6, 25
    .word 0x0062ca33  # xor x20, x5, x6
    .word 0x1d412283  # lw x5, 468(x2)
    .word 0x014282b3  # add x5, x5, x20
    .word 0x1c512a23  # sw x5, 468(x2)
    .word 0x1d812283  # lw x5, 472(x2)
    .word 0x01c2d293  # srli x5, x5, 28
    .word 0x1dc12303  # lw x6, 476(x2)
    .word 0x00431313  # slli x6, x6, 4
    .word 0x0062c2b3  # xor x5, x5, x6
    .word 0x1dc12303  # lw x6, 476(x2)
    .word 0x00235313  # srli x6, x6, 2
    .word 0x0062c2b3  # xor x5, x5, x6
    .word 0x1d812303  # lw x6, 472(x2)
    .word 0x01e31313  # slli x6, x6, 30
    .word 0x0062c2b3  # xor x5, x5, x6
    .word 0x1dc12303  # lw x6, 476(x2)
    .word 0x00735313  # srli x6, x6, 7
    .word 0x0062c2b3  # xor x5, x5, x6
    .word 0x1d812303  # lw x6, 472(x2)
    .word 0x01931313  # slli x6, x6, 25
    .word 0x0062c2b3  # xor x5, x5, x6
    .word 0x1d012303  # lw x6, 464(x2)
    .word 0x006282b3  # add x5, x5, x6
    .word 0x1d412303  # lw x6, 468(x2)
    .word 0x01433333  # sltu x6, x6, x20
    .word 0x006282b3  # add x5, x5, x6
    .word 0x1c512823  # sw x5, 464(x2)
    .word 0x1dc12283  # lw x5, 476(x2)
    .word 0x0182ca33  # xor x20, x5, x24
    .word 0x014b72b3  # and x5, x22, x20
    .word 0x0182cb33  # xor x22, x5, x24
    .word 0x1d412283  # lw x5, 468(x2)
    .word 0x016282b3  # add x5, x5, x22
    .word 0x1c512a23  # sw x5, 468(x2)
    .word 0x1d812283  # lw x5, 472(x2)
    .word 0x0172c7b3  # xor x15, x5, x23
    .word 0x00f872b3  # and x5, x16, x15
    .word 0x0172c833  # xor x16, x5, x23
    .word 0x1d012283  # lw x5, 464(x2)
    .word 0x010282b3  # add x5, x5, x16
    .word 0x1d412303  # lw x6, 468(x2)
    .word 0x01633333  # sltu x6, x6, x22
    .word 0x006282b3  # add x5, x5, x6
    .word 0x1c512823  # sw x5, 464(x2)
    .word 0x00e9d293  # srli x5, x19, 14
    .word 0x01271313  # slli x6, x14, 18
    .word 0x0062c2b3  # xor x5, x5, x6
    .word 0x0129d313  # srli x6, x19, 18
    .word 0x0062c2b3  # xor x5, x5, x6
    .word 0x00e71313  # slli x6, x14, 14
    .word 0x0062c2b3  # xor x5, x5, x6
    .word 0x00975313  # srli x6, x14, 9
    .word 0x0062c2b3  # xor x5, x5, x6
    .word 0x01799313  # slli x6, x19, 23
    .word 0x0062cb33  # xor x22, x5, x6
    .word 0x01650533  # add x10, x10, x22
    .word 0x00e75293  # srli x5, x14, 14
    .word 0x01299313  # slli x6, x19, 18
    .word 0x0062c2b3  # xor x5, x5, x6
    .word 0x01275313  # srli x6, x14, 18
    .word 0x0062c2b3  # xor x5, x5, x6
    .word 0x00e99313  # slli x6, x19, 14
    .word 0x0062c2b3  # xor x5, x5, x6
    .word 0x0099d313  # srli x6, x19, 9
    .word 0x0062c2b3  # xor x5, x5, x6
    .word 0x01771313  # slli x6, x14, 23
    .word 0x0062c2b3  # xor x5, x5, x6
    .word 0x1cc12303  # lw x6, 460(x2)
    .word 0x006282b3  # add x5, x5, x6
    .word 0x01653333  # sltu x6, x10, x22
    .word 0x006282b3  # add x5, x5, x6
    .word 0x1c512623  # sw x5, 460(x2)
    .word 0x1c812303  # lw x6, 456(x2)
    .word 0x006ac2b3  # xor x5, x21, x6
    .word 0x0132f2b3  # and x5, x5, x19
    .word 0x1c812303  # lw x6, 456(x2)
    .word 0x0062cb33  # xor x22, x5, x6
    .word 0x01650533  # add x10, x10, x22
    .word 0x1c412303  # lw x6, 452(x2)
    .word 0x0066c2b3  # xor x5, x13, x6
    .word 0x00e2f2b3  # and x5, x5, x14
    .word 0x1c412303  # lw x6, 452(x2)
    .word 0x0062c2b3  # xor x5, x5, x6
    .word 0x1cc12303  # lw x6, 460(x2)
    .word 0x006282b3  # add x5, x5, x6
    .word 0x01653333  # sltu x6, x10, x22
    .word 0x006282b3  # add x5, x5, x6
    .word 0x1c512623  # sw x5, 460(x2)
    .word 0x118dab03  # lw x22, 280(x27)
    .word 0x01650533  # add x10, x10, x22
    .word 0x1cc12283  # lw x5, 460(x2)
    .word 0x0d8da303  # lw x6, 216(x27)
    .word 0x006282b3  # add x5, x5, x6
    .word 0x01653333  # sltu x6, x10, x22
    .word 0x006282b3  # add x5, x5, x6
    .word 0x1c512623  # sw x5, 460(x2)
    .word 0x19cdab03  # lw x22, 412(x27)
    .word 0x01650533  # add x10, x10, x22
    .word 0x1cc12283  # lw x5, 460(x2)
    .word 0x15cda303  # lw x6, 348(x27)
    .word 0x006282b3  # add x5, x5, x6
    .word 0x01653333  # sltu x6, x10, x22
    .word 0x006282b3  # add x5, x5, x6
    .word 0x1c512623  # sw x5, 460(x2)
    .word 0x00ad0d33  # add x26, x26, x10
    .word 0x1cc12303  # lw x6, 460(x2)
    .word 0x006c82b3  # add x5, x25, x6
    .word 0x00ad3333  # sltu x6, x26, x10
    .word 0x00628cb3  # add x25, x5, x6
    .word 0x1d412283  # lw x5, 468(x2)
    .word 0x01c2d293  # srli x5, x5, 28
    .word 0x1d012303  # lw x6, 464(x2)
    .word 0x00431313  # slli x6, x6, 4
    .word 0x0062c2b3  # xor x5, x5, x6
    .word 0x1d012303  # lw x6, 464(x2)
    .word 0x00235313  # srli x6, x6, 2
    .word 0x0062c2b3  # xor x5, x5, x6
    .word 0x1d412303  # lw x6, 468(x2)
    .word 0x01e31313  # slli x6, x6, 30
    .word 0x0062c2b3  # xor x5, x5, x6
    .word 0x1d012303  # lw x6, 464(x2)
    .word 0x00735313  # srli x6, x6, 7
    .word 0x0062c2b3  # xor x5, x5, x6
    .word 0x1d412303  # lw x6, 468(x2)
    .word 0x01931313  # slli x6, x6, 25
    .word 0x0062cb33  # xor x22, x5, x6
    .word 0x01650533  # add x10, x10, x22
    .word 0x1d012283  # lw x5, 464(x2)
    .word 0x01c2d293  # srli x5, x5, 28
    .word 0x1d412303  # lw x6, 468(x2)
    .word 0x00431313  # slli x6, x6, 4
    .word 0x0062c2b3  # xor x5, x5, x6
    .word 0x1d412303  # lw x6, 468(x2)
    .word 0x00235313  # srli x6, x6, 2
    .word 0x0062c2b3  # xor x5, x5, x6
    .word 0x1d012303  # lw x6, 464(x2)
    .word 0x01e31313  # slli x6, x6, 30
    .word 0x0062c2b3  # xor x5, x5, x6
    .word 0x1d412303  # lw x6, 468(x2)
    .word 0x00735313  # srli x6, x6, 7
    .word 0x0062c2b3  # xor x5, x5, x6
    .word 0x1d012303  # lw x6, 464(x2)
    .word 0x01931313  # slli x6, x6, 25
    .word 0x0062c2b3  # xor x5, x5, x6
    .word 0x1cc12303  # lw x6, 460(x2)
    .word 0x006282b3  # add x5, x5, x6
    .word 0x01653333  # sltu x6, x10, x22
    .word 0x006282b3  # add x5, x5, x6
    .word 0x1c512623  # sw x5, 460(x2)
    .word 0x1d412283  # lw x5, 468(x2)
    .word 0x1dc12303  # lw x6, 476(x2)
    .word 0x0062cb33  # xor x22, x5, x6
    .word 0x016a72b3  # and x5, x20, x22
    .word 0x1dc12303  # lw x6, 476(x2)
    .word 0x0062ca33  # xor x20, x5, x6
    .word 0x01450533  # add x10, x10, x20
    .word 0x1d012283  # lw x5, 464(x2)
    .word 0x1d812303  # lw x6, 472(x2)
    .word 0x0062c833  # xor x16, x5, x6
    .word 0x0107f2b3  # and x5, x15, x16
    .word 0x1d812303  # lw x6, 472(x2)
    .word 0x0062c7b3  # xor x15, x5, x6
    .word 0x1cc12283  # lw x5, 460(x2)
    .word 0x00f282b3  # add x5, x5, x15
    .word 0x01453333  # sltu x6, x10, x20
    .word 0x006282b3  # add x5, x5, x6
    .word 0x1c512623  # sw x5, 460(x2)
    .word 0x00ed5293  # srli x5, x26, 14
    .word 0x012c9313  # slli x6, x25, 18
    .word 0x0062c2b3  # xor x5, x5, x6
    .word 0x012d5313  # srli x6, x26, 18
    .word 0x0062c2b3  # xor x5, x5, x6
    .word 0x00ec9313  # slli x6, x25, 14
    .word 0x0062c2b3  # xor x5, x5, x6
    .word 0x009cd313  # srli x6, x25, 9
    .word 0x0062c2b3  # xor x5, x5, x6
    .word 0x017d1313  # slli x6, x26, 23
    .word 0x0062ca33  # xor x20, x5, x6
    .word 0x1c812283  # lw x5, 456(x2)
    .word 0x014282b3  # add x5, x5, x20
    .word 0x1c512423  # sw x5, 456(x2)
    .word 0x00ecd293  # srli x5, x25, 14
    .word 0x012d1313  # slli x6, x26, 18
    .word 0x0062c2b3  # xor x5, x5, x6
    .word 0x012cd313  # srli x6, x25, 18
    .word 0x0062c2b3  # xor x5, x5, x6
    .word 0x00ed1313  # slli x6, x26, 14
    .word 0x0062c2b3  # xor x5, x5, x6
    .word 0x009d5313  # srli x6, x26, 9
    .word 0x0062c2b3  # xor x5, x5, x6
    .word 0x017c9313  # slli x6, x25, 23
    .word 0x0062c2b3  # xor x5, x5, x6
    .word 0x1c412303  # lw x6, 452(x2)
    .word 0x006282b3  # add x5, x5, x6
    .word 0x1c812303  # lw x6, 456(x2)
    .word 0x01433333  # sltu x6, x6, x20
    .word 0x006282b3  # add x5, x5, x6
    .word 0x1c512223  # sw x5, 452(x2)
    .word 0x0159c2b3  # xor x5, x19, x21
    .word 0x01a2f2b3  # and x5, x5, x26
    .word 0x0152ca33  # xor x20, x5, x21
    .word 0x1c812283  # lw x5, 456(x2)
    .word 0x014282b3  # add x5, x5, x20
    .word 0x1c512423  # sw x5, 456(x2)
    .word 0x00d742b3  # xor x5, x14, x13
    .word 0x0192f2b3  # and x5, x5, x25
    .word 0x00d2c2b3  # xor x5, x5, x13
    .word 0x1c412303  # lw x6, 452(x2)
    .word 0x006282b3  # add x5, x5, x6
    .word 0x1c812303  # lw x6, 456(x2)
    .word 0x01433333  # sltu x6, x6, x20
    .word 0x006282b3  # add x5, x5, x6
    .word 0x1c512223  # sw x5, 452(x2)
    .word 0x11cdaa03  # lw x20, 284(x27)
    .word 0x1c812283  # lw x5, 456(x2)
    .word 0x014282b3  # add x5, x5, x20
    .word 0x1c512423  # sw x5, 456(x2)
    .word 0x1c412283  # lw x5, 452(x2)
    .word 0x0dcda303  # lw x6, 220(x27)
    .word 0x006282b3  # add x5, x5, x6
    .word 0x1c812303  # lw x6, 456(x2)
    .word 0x01433333  # sltu x6, x6, x20
    .word 0x006282b3  # add x5, x5, x6
    .word 0x1c512223  # sw x5, 452(x2)
    .word 0x1a0daa03  # lw x20, 416(x27)
    .word 0x1c812283  # lw x5, 456(x2)
    .word 0x014282b3  # add x5, x5, x20
    .word 0x1c512423  # sw x5, 456(x2)
    .word 0x1c412283  # lw x5, 452(x2)
    .word 0x160da303  # lw x6, 352(x27)
    .word 0x006282b3  # add x5, x5, x6
    .word 0x1c812303  # lw x6, 456(x2)
    .word 0x01433333  # sltu x6, x6, x20
    .word 0x006282b3  # add x5, x5, x6
    .word 0x1c512223  # sw x5, 452(x2)
    .word 0x1c812303  # lw x6, 456(x2)
    .word 0x006c0c33  # add x24, x24, x6
    .word 0x1c412303  # lw x6, 452(x2)
    .word 0x006b82b3  # add x5, x23, x6
    .word 0x1c812383  # lw x7, 456(x2)
    .word 0x007c3333  # sltu x6, x24, x7
    .word 0x00628bb3  # add x23, x5, x6
    .word 0x01c55293  # srli x5, x10, 28
    .word 0x1cc12303  # lw x6, 460(x2)
    .word 0x00431313  # slli x6, x6, 4
    .word 0x0062c2b3  # xor x5, x5, x6
    .word 0x1cc12303  # lw x6, 460(x2)
    .word 0x00235313  # srli x6, x6, 2
    .word 0x0062c2b3  # xor x5, x5, x6
    .word 0x01e51313  # slli x6, x10, 30
    .word 0x0062c2b3  # xor x5, x5, x6
    .word 0x1cc12303  # lw x6, 460(x2)
    .word 0x00735313  # srli x6, x6, 7
    .word 0x0062c2b3  # xor x5, x5, x6
    .word 0x01951313  # slli x6, x10, 25
    .word 0x0062ca33  # xor x20, x5, x6
    .word 0x1c812283  # lw x5, 456(x2)
    .word 0x014282b3  # add x5, x5, x20
    .word 0x1c512423  # sw x5, 456(x2)
    .word 0x1cc12283  # lw x5, 460(x2)
    .word 0x01c2d293  # srli x5, x5, 28
    .word 0x00451313  # slli x6, x10, 4
    .word 0x0062c2b3  # xor x5, x5, x6
    .word 0x00255313  # srli x6, x10, 2
    .word 0x0062c2b3  # xor x5, x5, x6
    .word 0x1cc12303  # lw x6, 460(x2)
    .word 0x01e31313  # slli x6, x6, 30
    .word 0x0062c2b3  # xor x5, x5, x6
    .word 0x00755313  # srli x6, x10, 7
    .word 0x0062c2b3  # xor x5, x5, x6
    .word 0x1cc12303  # lw x6, 460(x2)
    .word 0x01931313  # slli x6, x6, 25
    .word 0x0062c2b3  # xor x5, x5, x6
    .word 0x1c412303  # lw x6, 452(x2)
    .word 0x006282b3  # add x5, x5, x6
    .word 0x1c812303  # lw x6, 456(x2)
    .word 0x01433333  # sltu x6, x6, x20
    .word 0x006282b3  # add x5, x5, x6
    .word 0x1c512223  # sw x5, 452(x2)
    .word 0x1d412303  # lw x6, 468(x2)
    .word 0x00654a33  # xor x20, x10, x6
    .word 0x014b72b3  # and x5, x22, x20
    .word 0x1d412303  # lw x6, 468(x2)
    .word 0x0062cb33  # xor x22, x5, x6
    .word 0x1c812283  # lw x5, 456(x2)
    .word 0x016282b3  # add x5, x5, x22
    .word 0x1c512423  # sw x5, 456(x2)
    .word 0x1cc12283  # lw x5, 460(x2)
    .word 0x1d012303  # lw x6, 464(x2)
    .word 0x0062c7b3  # xor x15, x5, x6
    .word 0x00f872b3  # and x5, x16, x15
    .word 0x1d012303  # lw x6, 464(x2)
    .word 0x0062c833  # xor x16, x5, x6
    .word 0x1c412283  # lw x5, 452(x2)
    .word 0x010282b3  # add x5, x5, x16
    .word 0x1c812303  # lw x6, 456(x2)
    .word 0x01633333  # sltu x6, x6, x22
    .word 0x006282b3  # add x5, x5, x6
    .word 0x1c512223  # sw x5, 452(x2)
    .word 0x8b8ff06f  # jal x0, -3912
    .word 0x14012283  # lw x5, 320(x2)
    .word 0x00400313  # addi x6, x0, 4
    .word 0x2262f0e3  # bgeu x5, x6, 2592
    .word 0x1f712023  # sw x23, 480(x2)
    .word 0x1f812223  # sw x24, 484(x2)
    .word 0x1f912423  # sw x25, 488(x2)
    .word 0x1fa12623  # sw x26, 492(x2)
    .word 0x1ee12823  # sw x14, 496(x2)
    .word 0x1f312a23  # sw x19, 500(x2)
    .word 0x1ed12c23  # sw x13, 504(x2)
    .word 0x1f512e23  # sw x21, 508(x2)
    .word 0x0c012983  # lw x19, 192(x2)
    .word 0x10012a03  # lw x20, 256(x2)
    .word 0x0f812b83  # lw x23, 248(x2)
    .word 0x13812c03  # lw x24, 312(x2)
    .word 0x0fc12c83  # lw x25, 252(x2)
    .word 0x13c12d03  # lw x26, 316(x2)
    .word 0x30012a23  # sw x0, 788(x2)
    .word 0x00200293  # addi x5, x0, 2
    .word 0x30512c23  # sw x5, 792(x2)
    .word 0x31412303  # lw x6, 788(x2)
    .word 0x31812283  # lw x5, 792(x2)
    .word 0x005332b3  # sltu x5, x6, x5
    .word 0x00029463  # bne x5, x0, 8
    .word 0x4740006f  # jal x0, 1140
    .word 0x20612023  # sw x6, 512(x2)
    .word 0x00130313  # addi x6, x6, 1
    .word 0x30612a23  # sw x6, 788(x2)
    .word 0x30012e23  # sw x0, 796(x2)
    .word 0x00200293  # addi x5, x0, 2
    .word 0x32512023  # sw x5, 800(x2)
    .word 0x31c12303  # lw x6, 796(x2)
    .word 0x32012283  # lw x5, 800(x2)
    .word 0x005332b3  # sltu x5, x6, x5
    .word 0x00029463  # bne x5, x0, 8
    .word 0x4440006f  # jal x0, 1092
    .word 0x20612223  # sw x6, 516(x2)
    .word 0x00130313  # addi x6, x6, 1
    .word 0x30612e23  # sw x6, 796(x2)
    .word 0x20012283  # lw x5, 512(x2)
    .word 0x00329293  # slli x5, x5, 3
    .word 0x20412303  # lw x6, 516(x2)
    .word 0x00231313  # slli x6, x6, 2
    .word 0x006285b3  # add x11, x5, x6
    .word 0x00259d93  # slli x27, x11, 2
    .word 0x002d8db3  # add x27, x27, x2
    .word 0x00158293  # addi x5, x11, 1
    .word 0x00f2f893  # andi x17, x5, 15
    .word 0x00289493  # slli x9, x17, 2
    .word 0x002484b3  # add x9, x9, x2
    .word 0x00958293  # addi x5, x11, 9
    .word 0x00f2f613  # andi x12, x5, 15
    .word 0x00261413  # slli x8, x12, 2
    .word 0x00240433  # add x8, x8, x2
    .word 0x0c04aa83  # lw x21, 192(x9)
    .word 0x1004ab03  # lw x22, 256(x9)
    .word 0x001ad293  # srli x5, x21, 1
    .word 0x01fb1313  # slli x6, x22, 31
    .word 0x0062e6b3  # or x13, x5, x6
    .word 0x001b5293  # srli x5, x22, 1
    .word 0x01fa9313  # slli x6, x21, 31
    .word 0x0062e733  # or x14, x5, x6
    .word 0x00dac7b3  # xor x15, x21, x13
    .word 0x00eb4833  # xor x16, x22, x14
    .word 0x0077d293  # srli x5, x15, 7
    .word 0x01971313  # slli x6, x14, 25
    .word 0x0062c2b3  # xor x5, x5, x6
    .word 0x00d2c6b3  # xor x13, x5, x13
    .word 0x00785293  # srli x5, x16, 7
    .word 0x01979313  # slli x6, x15, 25
    .word 0x0062c2b3  # xor x5, x5, x6
    .word 0x00e2c733  # xor x14, x5, x14
    .word 0x00ea0a33  # add x20, x20, x14
    .word 0x00d982b3  # add x5, x19, x13
    .word 0x00ea3333  # sltu x6, x20, x14
    .word 0x006289b3  # add x19, x5, x6
    .word 0x10042703  # lw x14, 256(x8)
    .word 0x00ea0a33  # add x20, x20, x14
    .word 0x0c042303  # lw x6, 192(x8)
    .word 0x006982b3  # add x5, x19, x6
    .word 0x00ea3333  # sltu x6, x20, x14
    .word 0x006289b3  # add x19, x5, x6
    .word 0x013c5293  # srli x5, x24, 19
    .word 0x00db9313  # slli x6, x23, 13
    .word 0x0062c2b3  # xor x5, x5, x6
    .word 0x01dbd313  # srli x6, x23, 29
    .word 0x0062c2b3  # xor x5, x5, x6
    .word 0x003c1313  # slli x6, x24, 3
    .word 0x0062c2b3  # xor x5, x5, x6
    .word 0x006c5313  # srli x6, x24, 6
    .word 0x0062c2b3  # xor x5, x5, x6
    .word 0x01ab9313  # slli x6, x23, 26
    .word 0x0062c733  # xor x14, x5, x6
    .word 0x00ea0a33  # add x20, x20, x14
    .word 0x013bd293  # srli x5, x23, 19
    .word 0x00dc1313  # slli x6, x24, 13
    .word 0x0062c2b3  # xor x5, x5, x6
    .word 0x01dc5313  # srli x6, x24, 29
    .word 0x0062c2b3  # xor x5, x5, x6
    .word 0x003b9313  # slli x6, x23, 3
    .word 0x0062c2b3  # xor x5, x5, x6
    .word 0x006bd313  # srli x6, x23, 6
    .word 0x0062c2b3  # xor x5, x5, x6
    .word 0x013282b3  # add x5, x5, x19
    .word 0x00ea3333  # sltu x6, x20, x14
    .word 0x006289b3  # add x19, x5, x6
    .word 0x0d3da023  # sw x19, 192(x27)
    .word 0x114da023  # sw x20, 256(x27)
    .word 0x00158893  # addi x17, x11, 1
    .word 0x00289493  # slli x9, x17, 2
    .word 0x002484b3  # add x9, x9, x2
    .word 0x00188293  # addi x5, x17, 1
    .word 0x00f2f613  # andi x12, x5, 15
    .word 0x00261413  # slli x8, x12, 2
    .word 0x00240433  # add x8, x8, x2
    .word 0x00988293  # addi x5, x17, 9
    .word 0x00f2f913  # andi x18, x5, 15
    .word 0x0c042b83  # lw x23, 192(x8)
    .word 0x10042c03  # lw x24, 256(x8)
    .word 0x001bd293  # srli x5, x23, 1
    .word 0x01fc1313  # slli x6, x24, 31
    .word 0x0062e6b3  # or x13, x5, x6
    .word 0x001c5293  # srli x5, x24, 1
    .word 0x01fb9313  # slli x6, x23, 31
    .word 0x0062e733  # or x14, x5, x6
    .word 0x00dbc7b3  # xor x15, x23, x13
    .word 0x00ec4833  # xor x16, x24, x14
    .word 0x0077d293  # srli x5, x15, 7
    .word 0x01971313  # slli x6, x14, 25
    .word 0x0062c2b3  # xor x5, x5, x6
    .word 0x00d2c6b3  # xor x13, x5, x13
    .word 0x00785293  # srli x5, x16, 7
    .word 0x01979313  # slli x6, x15, 25
    .word 0x0062c2b3  # xor x5, x5, x6
    .word 0x00e2c733  # xor x14, x5, x14
    .word 0x00eb0b33  # add x22, x22, x14
    .word 0x00da82b3  # add x5, x21, x13
    .word 0x00eb3333  # sltu x6, x22, x14
    .word 0x00628ab3  # add x21, x5, x6
    .word 0x00291713  # slli x14, x18, 2
    .word 0x00270733  # add x14, x14, x2
    .word 0x10072703  # lw x14, 256(x14)
    .word 0x00eb0b33  # add x22, x22, x14
    .word 0x00291313  # slli x6, x18, 2
    .word 0x00230333  # add x6, x6, x2
    .word 0x0c032303  # lw x6, 192(x6)
    .word 0x006a82b3  # add x5, x21, x6
    .word 0x00eb3333  # sltu x6, x22, x14
    .word 0x00628ab3  # add x21, x5, x6
    .word 0x013d5293  # srli x5, x26, 19
    .word 0x00dc9313  # slli x6, x25, 13
    .word 0x0062c2b3  # xor x5, x5, x6
    .word 0x01dcd313  # srli x6, x25, 29
    .word 0x0062c2b3  # xor x5, x5, x6
    .word 0x003d1313  # slli x6, x26, 3
    .word 0x0062c2b3  # xor x5, x5, x6
    .word 0x006d5313  # srli x6, x26, 6
    .word 0x0062c2b3  # xor x5, x5, x6
    .word 0x01ac9313  # slli x6, x25, 26
    .word 0x0062c733  # xor x14, x5, x6
    .word 0x00eb0b33  # add x22, x22, x14
    .word 0x013cd293  # srli x5, x25, 19
    .word 0x00dd1313  # slli x6, x26, 13
    .word 0x0062c2b3  # xor x5, x5, x6
    .word 0x01dd5313  # srli x6, x26, 29
    .word 0x0062c2b3  # xor x5, x5, x6
    .word 0x003c9313  # slli x6, x25, 3
    .word 0x0062c2b3  # xor x5, x5, x6
    .word 0x006cd313  # srli x6, x25, 6
    .word 0x0062c2b3  # xor x5, x5, x6
    .word 0x015282b3  # add x5, x5, x21
    .word 0x00eb3333  # sltu x6, x22, x14
    .word 0x00628ab3  # add x21, x5, x6
    .word 0x0d54a023  # sw x21, 192(x9)
    .word 0x1164a023  # sw x22, 256(x9)
    .word 0x00258893  # addi x17, x11, 2
    .word 0x00289493  # slli x9, x17, 2
    .word 0x002484b3  # add x9, x9, x2
    .word 0x00188293  # addi x5, x17, 1
    .word 0x00f2f613  # andi x12, x5, 15
    .word 0x00261413  # slli x8, x12, 2
    .word 0x00240433  # add x8, x8, x2
    .word 0x00988293  # addi x5, x17, 9
    .word 0x00f2f913  # andi x18, x5, 15
    .word 0x0c042c83  # lw x25, 192(x8)
    .word 0x10042d03  # lw x26, 256(x8)
    .word 0x001cd293  # srli x5, x25, 1
    .word 0x01fd1313  # slli x6, x26, 31
    .word 0x0062e6b3  # or x13, x5, x6
    .word 0x001d5293  # srli x5, x26, 1
    .word 0x01fc9313  # slli x6, x25, 31
    .word 0x0062e733  # or x14, x5, x6
    .word 0x00dcc7b3  # xor x15, x25, x13
    .word 0x00ed4833  # xor x16, x26, x14
    .word 0x0077d293  # srli x5, x15, 7
    .word 0x01971313  # slli x6, x14, 25
    .word 0x0062c2b3  # xor x5, x5, x6
    .word 0x00d2c6b3  # xor x13, x5, x13
    .word 0x00785293  # srli x5, x16, 7
    .word 0x01979313  # slli x6, x15, 25
    .word 0x0062c2b3  # xor x5, x5, x6
    .word 0x00e2c733  # xor x14, x5, x14
    .word 0x00ec0c33  # add x24, x24, x14
    .word 0x00db82b3  # add x5, x23, x13
    .word 0x00ec3333  # sltu x6, x24, x14
    .word 0x00628bb3  # add x23, x5, x6
    .word 0x00291713  # slli x14, x18, 2
    .word 0x00270733  # add x14, x14, x2
    .word 0x10072703  # lw x14, 256(x14)
    .word 0x00ec0c33  # add x24, x24, x14
    .word 0x00291313  # slli x6, x18, 2
    .word 0x00230333  # add x6, x6, x2
    .word 0x0c032303  # lw x6, 192(x6)
    .word 0x006b82b3  # add x5, x23, x6
    .word 0x00ec3333  # sltu x6, x24, x14
    .word 0x00628bb3  # add x23, x5, x6
    .word 0x013a5293  # srli x5, x20, 19
    .word 0x00d99313  # slli x6, x19, 13
    .word 0x0062c2b3  # xor x5, x5, x6
    .word 0x01d9d313  # srli x6, x19, 29
    .word 0x0062c2b3  # xor x5, x5, x6
    .word 0x003a1313  # slli x6, x20, 3
    .word 0x0062c2b3  # xor x5, x5, x6
    .word 0x006a5313  # srli x6, x20, 6
    .word 0x0062c2b3  # xor x5, x5, x6
    .word 0x01a99313  # slli x6, x19, 26
    .word 0x0062c733  # xor x14, x5, x6
    .word 0x00ec0c33  # add x24, x24, x14
    .word 0x0139d293  # srli x5, x19, 19
    .word 0x00da1313  # slli x6, x20, 13
    .word 0x0062c2b3  # xor x5, x5, x6
    .word 0x01da5313  # srli x6, x20, 29
    .word 0x0062c2b3  # xor x5, x5, x6
    .word 0x00399313  # slli x6, x19, 3
    .word 0x0062c2b3  # xor x5, x5, x6
    .word 0x0069d313  # srli x6, x19, 6
    .word 0x0062c2b3  # xor x5, x5, x6
    .word 0x017282b3  # add x5, x5, x23
    .word 0x00ec3333  # sltu x6, x24, x14
    .word 0x00628bb3  # add x23, x5, x6
    .word 0x0d74a023  # sw x23, 192(x9)
    .word 0x1184a023  # sw x24, 256(x9)
    .word 0x00358593  # addi x11, x11, 3
    .word 0x00259d93  # slli x27, x11, 2
    .word 0x002d8db3  # add x27, x27, x2
    .word 0x00158293  # addi x5, x11, 1
    .word 0x00f2f893  # andi x17, x5, 15
    .word 0x00289493  # slli x9, x17, 2
    .word 0x002484b3  # add x9, x9, x2
    .word 0x00958293  # addi x5, x11, 9
    .word 0x00f2f613  # andi x12, x5, 15
    .word 0x00261413  # slli x8, x12, 2
    .word 0x00240433  # add x8, x8, x2
    .word 0x0c04a983  # lw x19, 192(x9)
    .word 0x1004aa03  # lw x20, 256(x9)
    .word 0x0019d293  # srli x5, x19, 1
    .word 0x01fa1313  # slli x6, x20, 31
    .word 0x0062e6b3  # or x13, x5, x6
    .word 0x001a5293  # srli x5, x20, 1
    .word 0x01f99313  # slli x6, x19, 31
    .word 0x0062e733  # or x14, x5, x6
    .word 0x00d9c7b3  # xor x15, x19, x13
    .word 0x00ea4833  # xor x16, x20, x14
    .word 0x0077d293  # srli x5, x15, 7
    .word 0x01971313  # slli x6, x14, 25
    .word 0x0062c2b3  # xor x5, x5, x6
    .word 0x00d2c6b3  # xor x13, x5, x13
    .word 0x00785293  # srli x5, x16, 7
    .word 0x01979313  # slli x6, x15, 25
    .word 0x0062c2b3  # xor x5, x5, x6
    .word 0x00e2c733  # xor x14, x5, x14
    .word 0x00ed0d33  # add x26, x26, x14
    .word 0x00dc82b3  # add x5, x25, x13
    .word 0x00ed3333  # sltu x6, x26, x14
    .word 0x00628cb3  # add x25, x5, x6
    .word 0x10042703  # lw x14, 256(x8)
    .word 0x00ed0d33  # add x26, x26, x14
    .word 0x0c042303  # lw x6, 192(x8)
    .word 0x006c82b3  # add x5, x25, x6
    .word 0x00ed3333  # sltu x6, x26, x14
    .word 0x00628cb3  # add x25, x5, x6
    .word 0x013b5293  # srli x5, x22, 19
    .word 0x00da9313  # slli x6, x21, 13
    .word 0x0062c2b3  # xor x5, x5, x6
    .word 0x01dad313  # srli x6, x21, 29
    .word 0x0062c2b3  # xor x5, x5, x6
    .word 0x003b1313  # slli x6, x22, 3
    .word 0x0062c2b3  # xor x5, x5, x6
    .word 0x006b5313  # srli x6, x22, 6
    .word 0x0062c2b3  # xor x5, x5, x6
    .word 0x01aa9313  # slli x6, x21, 26
    .word 0x0062c733  # xor x14, x5, x6
    .word 0x00ed0d33  # add x26, x26, x14
    .word 0x013ad293  # srli x5, x21, 19
    .word 0x00db1313  # slli x6, x22, 13
    .word 0x0062c2b3  # xor x5, x5, x6
    .word 0x01db5313  # srli x6, x22, 29
    .word 0x0062c2b3  # xor x5, x5, x6
    .word 0x003a9313  # slli x6, x21, 3
    .word 0x0062c2b3  # xor x5, x5, x6
    .word 0x006ad313  # srli x6, x21, 6
    .word 0x0062c2b3  # xor x5, x5, x6
    .word 0x019282b3  # add x5, x5, x25
    .word 0x00ed3333  # sltu x6, x26, x14
    .word 0x00628cb3  # add x25, x5, x6
    .word 0x0d9da023  # sw x25, 192(x27)
    .word 0x11ada023  # sw x26, 256(x27)
    .word 0xbb1ff06f  # jal x0, -1104
    .word 0xb81ff06f  # jal x0, -1152
    .word 0x1e012b83  # lw x23, 480(x2)
    .word 0x1e412c03  # lw x24, 484(x2)
    .word 0x1e812c83  # lw x25, 488(x2)
    .word 0x1ec12d03  # lw x26, 492(x2)
    .word 0x1f012703  # lw x14, 496(x2)
    .word 0x1f412983  # lw x19, 500(x2)
    .word 0x1f812683  # lw x13, 504(x2)
    .word 0x1fc12a83  # lw x21, 508(x2)
    .word 0x14012283  # lw x5, 320(x2)
    .word 0x00128593  # addi x11, x5, 1
    .word 0x00259d93  # slli x27, x11, 2
    .word 0x002d8db3  # add x27, x27, x2
    .word 0x00100313  # addi x6, x0, 1
    .word 0x10659463  # bne x11, x6, 264
    .word 0x20812283  # lw x5, 520(x2)
    .word 0x14512223  # sw x5, 324(x2)
    .word 0x20c12283  # lw x5, 524(x2)
    .word 0x18512223  # sw x5, 388(x2)
    .word 0x21012283  # lw x5, 528(x2)
    .word 0x14512423  # sw x5, 328(x2)
    .word 0x21412283  # lw x5, 532(x2)
    .word 0x18512423  # sw x5, 392(x2)
    .word 0x21812283  # lw x5, 536(x2)
    .word 0x14512623  # sw x5, 332(x2)
    .word 0x21c12283  # lw x5, 540(x2)
    .word 0x18512623  # sw x5, 396(x2)
    .word 0x22012283  # lw x5, 544(x2)
    .word 0x14512823  # sw x5, 336(x2)
    .word 0x22412283  # lw x5, 548(x2)
    .word 0x18512823  # sw x5, 400(x2)
    .word 0x22812283  # lw x5, 552(x2)
    .word 0x14512a23  # sw x5, 340(x2)
    .word 0x22c12283  # lw x5, 556(x2)
    .word 0x18512a23  # sw x5, 404(x2)
    .word 0x23012283  # lw x5, 560(x2)
    .word 0x14512c23  # sw x5, 344(x2)
    .word 0x23412283  # lw x5, 564(x2)
    .word 0x18512c23  # sw x5, 408(x2)
    .word 0x23812283  # lw x5, 568(x2)
    .word 0x14512e23  # sw x5, 348(x2)
    .word 0x23c12283  # lw x5, 572(x2)
    .word 0x18512e23  # sw x5, 412(x2)
    .word 0x24012283  # lw x5, 576(x2)
    .word 0x16512023  # sw x5, 352(x2)
    .word 0x24412283  # lw x5, 580(x2)
    .word 0x1a512023  # sw x5, 416(x2)
    .word 0x24812283  # lw x5, 584(x2)
    .word 0x16512223  # sw x5, 356(x2)
    .word 0x24c12283  # lw x5, 588(x2)
    .word 0x1a512223  # sw x5, 420(x2)
    .word 0x25012283  # lw x5, 592(x2)
    .word 0x16512423  # sw x5, 360(x2)
    .word 0x25412283  # lw x5, 596(x2)
    .word 0x1a512423  # sw x5, 424(x2)
    .word 0x25812283  # lw x5, 600(x2)
    .word 0x16512623  # sw x5, 364(x2)
    .word 0x25c12283  # lw x5, 604(x2)
    .word 0x1a512623  # sw x5, 428(x2)
    .word 0x26012283  # lw x5, 608(x2)
    .word 0x16512823  # sw x5, 368(x2)
    .word 0x26412283  # lw x5, 612(x2)
    .word 0x1a512823  # sw x5, 432(x2)
    .word 0x26812283  # lw x5, 616(x2)
    .word 0x16512a23  # sw x5, 372(x2)
    .word 0x26c12283  # lw x5, 620(x2)
    .word 0x1a512a23  # sw x5, 436(x2)
    .word 0x27012283  # lw x5, 624(x2)
    .word 0x16512c23  # sw x5, 376(x2)
    .word 0x27412283  # lw x5, 628(x2)
    .word 0x1a512c23  # sw x5, 440(x2)
    .word 0x27812283  # lw x5, 632(x2)
    .word 0x16512e23  # sw x5, 380(x2)
    .word 0x27c12283  # lw x5, 636(x2)
    .word 0x1a512e23  # sw x5, 444(x2)
    .word 0x28012283  # lw x5, 640(x2)
    .word 0x18512023  # sw x5, 384(x2)
    .word 0x28412283  # lw x5, 644(x2)
    .word 0x1c512023  # sw x5, 448(x2)
    .word 0x41c0006f  # jal x0, 1052
    .word 0x00200313  # addi x6, x0, 2
    .word 0x10659463  # bne x11, x6, 264
    .word 0x28812283  # lw x5, 648(x2)
    .word 0x14512223  # sw x5, 324(x2)
    .word 0x28c12283  # lw x5, 652(x2)
    .word 0x18512223  # sw x5, 388(x2)
    .word 0x29012283  # lw x5, 656(x2)
    .word 0x14512423  # sw x5, 328(x2)
    .word 0x29412283  # lw x5, 660(x2)
    .word 0x18512423  # sw x5, 392(x2)
    .word 0x29812283  # lw x5, 664(x2)
    .word 0x14512623  # sw x5, 332(x2)
    .word 0x29c12283  # lw x5, 668(x2)
    .word 0x18512623  # sw x5, 396(x2)
    .word 0x2a012283  # lw x5, 672(x2)
    .word 0x14512823  # sw x5, 336(x2)
    .word 0x2a412283  # lw x5, 676(x2)
    .word 0x18512823  # sw x5, 400(x2)
    .word 0x2a812283  # lw x5, 680(x2)
    .word 0x14512a23  # sw x5, 340(x2)
    .word 0x2ac12283  # lw x5, 684(x2)
    .word 0x18512a23  # sw x5, 404(x2)
    .word 0x2b012283  # lw x5, 688(x2)
    .word 0x14512c23  # sw x5, 344(x2)
    .word 0x2b412283  # lw x5, 692(x2)
    .word 0x18512c23  # sw x5, 408(x2)
    .word 0x2b812283  # lw x5, 696(x2)
    .word 0x14512e23  # sw x5, 348(x2)
    .word 0x2bc12283  # lw x5, 700(x2)
    .word 0x18512e23  # sw x5, 412(x2)
    .word 0x2c012283  # lw x5, 704(x2)
    .word 0x16512023  # sw x5, 352(x2)
    .word 0x2c412283  # lw x5, 708(x2)
    .word 0x1a512023  # sw x5, 416(x2)
    .word 0x2c812283  # lw x5, 712(x2)
    .word 0x16512223  # sw x5, 356(x2)
    .word 0x2cc12283  # lw x5, 716(x2)
    .word 0x1a512223  # sw x5, 420(x2)
    .word 0x2d012283  # lw x5, 720(x2)
    .word 0x16512423  # sw x5, 360(x2)
    .word 0x2d412283  # lw x5, 724(x2)
    .word 0x1a512423  # sw x5, 424(x2)
    .word 0x2d812283  # lw x5, 728(x2)
    .word 0x16512623  # sw x5, 364(x2)
    .word 0x2dc12283  # lw x5, 732(x2)
    .word 0x1a512623  # sw x5, 428(x2)
    .word 0x2e012283  # lw x5, 736(x2)
    .word 0x16512823  # sw x5, 368(x2)
    .word 0x2e412283  # lw x5, 740(x2)
    .word 0x1a512823  # sw x5, 432(x2)
    .word 0x2e812283  # lw x5, 744(x2)
    .word 0x16512a23  # sw x5, 372(x2)
    .word 0x2ec12283  # lw x5, 748(x2)
    .word 0x1a512a23  # sw x5, 436(x2)
    .word 0x2f012283  # lw x5, 752(x2)
    .word 0x16512c23  # sw x5, 376(x2)
    .word 0x2f412283  # lw x5, 756(x2)
    .word 0x1a512c23  # sw x5, 440(x2)
    .word 0x2f812283  # lw x5, 760(x2)
    .word 0x16512e23  # sw x5, 380(x2)
    .word 0x2fc12283  # lw x5, 764(x2)
    .word 0x1a512e23  # sw x5, 444(x2)
    .word 0x30012283  # lw x5, 768(x2)
    .word 0x18512023  # sw x5, 384(x2)
    .word 0x30412283  # lw x5, 772(x2)
    .word 0x1c512023  # sw x5, 448(x2)
    .word 0x3100006f  # jal x0, 784
    .word 0x00300313  # addi x6, x0, 3
    .word 0x18659463  # bne x11, x6, 392
    .word 0x19a4c2b7  # lui x5, 0x19a4c
    .word 0x11628293  # addi x5, x5, 278
    .word 0x14512223  # sw x5, 324(x2)
    .word 0xb8d2d2b7  # lui x5, 0xb8d2d
    .word 0x0c828293  # addi x5, x5, 200
    .word 0x18512223  # sw x5, 388(x2)
    .word 0x1e3772b7  # lui x5, 0x1e377
    .word 0xc0828293  # addi x5, x5, -1016
    .word 0x14512423  # sw x5, 328(x2)
    .word 0x5141b2b7  # lui x5, 0x5141b
    .word 0xb5328293  # addi x5, x5, -1197
    .word 0x18512423  # sw x5, 392(x2)
    .word 0x274872b7  # lui x5, 0x27487
    .word 0x74c28293  # addi x5, x5, 1868
    .word 0x14512623  # sw x5, 332(x2)
    .word 0xdf8ef2b7  # lui x5, 0xdf8ef
    .word 0xb9928293  # addi x5, x5, -1127
    .word 0x18512623  # sw x5, 396(x2)
    .word 0x34b0c2b7  # lui x5, 0x34b0c
    .word 0xcb528293  # addi x5, x5, -843
    .word 0x14512823  # sw x5, 336(x2)
    .word 0xe19b52b7  # lui x5, 0xe19b5
    .word 0x8a828293  # addi x5, x5, -1880
    .word 0x18512823  # sw x5, 400(x2)
    .word 0x391c12b7  # lui x5, 0x391c1
    .word 0xcb328293  # addi x5, x5, -845
    .word 0x14512a23  # sw x5, 340(x2)
    .word 0xc5c962b7  # lui x5, 0xc5c96
    .word 0xa6328293  # addi x5, x5, -1437
    .word 0x18512a23  # sw x5, 404(x2)
    .word 0x4ed8b2b7  # lui x5, 0x4ed8b
    .word 0xa4a28293  # addi x5, x5, -1462
    .word 0x14512c23  # sw x5, 344(x2)
    .word 0xe34192b7  # lui x5, 0xe3419
    .word 0xacb28293  # addi x5, x5, -1333
    .word 0x18512c23  # sw x5, 408(x2)
    .word 0x5b9cd2b7  # lui x5, 0x5b9cd
    .word 0xa4f28293  # addi x5, x5, -1457
    .word 0x14512e23  # sw x5, 348(x2)
    .word 0x7763e2b7  # lui x5, 0x7763e
    .word 0x37328293  # addi x5, x5, 883
    .word 0x18512e23  # sw x5, 412(x2)
    .word 0x682e72b7  # lui x5, 0x682e7
    .word 0xff328293  # addi x5, x5, -13
    .word 0x16512023  # sw x5, 352(x2)
    .word 0xd6b2c2b7  # lui x5, 0xd6b2c
    .word 0x8a328293  # addi x5, x5, -1885
    .word 0x1a512023  # sw x5, 416(x2)
    .word 0x748f82b7  # lui x5, 0x748f8
    .word 0x2ee28293  # addi x5, x5, 750
    .word 0x16512223  # sw x5, 356(x2)
    .word 0x5defb2b7  # lui x5, 0x5defb
    .word 0x2fc28293  # addi x5, x5, 764
    .word 0x1a512223  # sw x5, 420(x2)
    .word 0x78a562b7  # lui x5, 0x78a56
    .word 0x36f28293  # addi x5, x5, 879
    .word 0x16512423  # sw x5, 360(x2)
    .word 0x431732b7  # lui x5, 0x43173
    .word 0xf6028293  # addi x5, x5, -160
    .word 0x1a512423  # sw x5, 424(x2)
    .word 0x84c882b7  # lui x5, 0x84c88
    .word 0x81428293  # addi x5, x5, -2028
    .word 0x16512623  # sw x5, 364(x2)
    .word 0xa1f0b2b7  # lui x5, 0xa1f0b
    .word 0xb7228293  # addi x5, x5, -1166
    .word 0x1a512623  # sw x5, 428(x2)
    .word 0x8cc702b7  # lui x5, 0x8cc70
    .word 0x20828293  # addi x5, x5, 520
    .word 0x16512823  # sw x5, 368(x2)
    .word 0x1a6442b7  # lui x5, 0x1a644
    .word 0x9ec28293  # addi x5, x5, -1556
    .word 0x1a512823  # sw x5, 432(x2)
    .word 0x90bf02b7  # lui x5, 0x90bf0
    .word 0xffa28293  # addi x5, x5, -6
    .word 0x16512a23  # sw x5, 372(x2)
    .word 0x236322b7  # lui x5, 0x23632
    .word 0xe2828293  # addi x5, x5, -472
    .word 0x1a512a23  # sw x5, 436(x2)
    .word 0xa45072b7  # lui x5, 0xa4507
    .word 0xceb28293  # addi x5, x5, -789
    .word 0x16512c23  # sw x5, 376(x2)
    .word 0xde82c2b7  # lui x5, 0xde82c
    .word 0xde928293  # addi x5, x5, -535
    .word 0x1a512c23  # sw x5, 440(x2)
    .word 0xbef9a2b7  # lui x5, 0xbef9a
    .word 0x3f728293  # addi x5, x5, 1015
    .word 0x16512e23  # sw x5, 380(x2)
    .word 0xb2c682b7  # lui x5, 0xb2c68
    .word 0x91528293  # addi x5, x5, -1771
    .word 0x1a512e23  # sw x5, 444(x2)
    .word 0xc67182b7  # lui x5, 0xc6718
    .word 0x8f228293  # addi x5, x5, -1806
    .word 0x18512023  # sw x5, 384(x2)
    .word 0xe37252b7  # lui x5, 0xe3725
    .word 0x32b28293  # addi x5, x5, 811
    .word 0x1c512023  # sw x5, 448(x2)
    .word 0x1840006f  # jal x0, 388
    .word 0xca2742b7  # lui x5, 0xca274
    .word 0xece28293  # addi x5, x5, -306
    .word 0x14512223  # sw x5, 324(x2)
    .word 0xea2662b7  # lui x5, 0xea266
    .word 0x19c28293  # addi x5, x5, 412
    .word 0x18512223  # sw x5, 388(x2)
    .word 0xd186c2b7  # lui x5, 0xd186c
    .word 0x8c728293  # addi x5, x5, -1849
    .word 0x14512423  # sw x5, 328(x2)
    .word 0x21c0c2b7  # lui x5, 0x21c0c
    .word 0x20728293  # addi x5, x5, 519
    .word 0x18512423  # sw x5, 392(x2)
    .word 0xeada82b7  # lui x5, 0xeada8
    .word 0xdd628293  # addi x5, x5, -554
    .word 0x14512623  # sw x5, 332(x2)
    .word 0xcde0f2b7  # lui x5, 0xcde0f
    .word 0xb1e28293  # addi x5, x5, -1250
    .word 0x18512623  # sw x5, 396(x2)
    .word 0xf57d52b7  # lui x5, 0xf57d5
    .word 0xf7f28293  # addi x5, x5, -129
    .word 0x14512823  # sw x5, 336(x2)
    .word 0xee6ed2b7  # lui x5, 0xee6ed
    .word 0x17828293  # addi x5, x5, 376
    .word 0x18512823  # sw x5, 400(x2)
    .word 0x06f062b7  # lui x5, 0x06f06
    .word 0x7aa28293  # addi x5, x5, 1962
    .word 0x14512a23  # sw x5, 340(x2)
    .word 0x721772b7  # lui x5, 0x72177
    .word 0xfba28293  # addi x5, x5, -70
    .word 0x18512a23  # sw x5, 404(x2)
    .word 0x0a6382b7  # lui x5, 0x0a638
    .word 0xdc528293  # addi x5, x5, -571
    .word 0x14512c23  # sw x5, 344(x2)
    .word 0xa2c8a2b7  # lui x5, 0xa2c8a
    .word 0x8a628293  # addi x5, x5, -1882
    .word 0x18512c23  # sw x5, 408(x2)
    .word 0x113fa2b7  # lui x5, 0x113fa
    .word 0x80428293  # addi x5, x5, -2044
    .word 0x14512e23  # sw x5, 348(x2)
    .word 0xbef912b7  # lui x5, 0xbef91
    .word 0xdae28293  # addi x5, x5, -594
    .word 0x18512e23  # sw x5, 412(x2)
    .word 0x1b7112b7  # lui x5, 0x1b711
    .word 0xb3528293  # addi x5, x5, -1227
    .word 0x16512023  # sw x5, 352(x2)
    .word 0x131c42b7  # lui x5, 0x131c4
    .word 0x71b28293  # addi x5, x5, 1819
    .word 0x1a512023  # sw x5, 416(x2)
    .word 0x28db72b7  # lui x5, 0x28db7
    .word 0x7f528293  # addi x5, x5, 2037
    .word 0x16512223  # sw x5, 356(x2)
    .word 0x230482b7  # lui x5, 0x23048
    .word 0xd8428293  # addi x5, x5, -636
    .word 0x1a512223  # sw x5, 420(x2)
    .word 0x32cab2b7  # lui x5, 0x32cab
    .word 0xb7b28293  # addi x5, x5, -1157
    .word 0x16512423  # sw x5, 360(x2)
    .word 0x40c722b7  # lui x5, 0x40c72
    .word 0x49328293  # addi x5, x5, 1171
    .word 0x1a512423  # sw x5, 424(x2)
    .word 0x3c9ec2b7  # lui x5, 0x3c9ec
    .word 0xe0a28293  # addi x5, x5, -502
    .word 0x16512623  # sw x5, 364(x2)
    .word 0x15c9c2b7  # lui x5, 0x15c9c
    .word 0xebc28293  # addi x5, x5, -324
    .word 0x1a512623  # sw x5, 428(x2)
    .word 0x431d62b7  # lui x5, 0x431d6
    .word 0x7c428293  # addi x5, x5, 1988
    .word 0x16512823  # sw x5, 368(x2)
    .word 0x9c1012b7  # lui x5, 0x9c101
    .word 0xd4c28293  # addi x5, x5, -692
    .word 0x1a512823  # sw x5, 432(x2)
    .word 0x4cc5d2b7  # lui x5, 0x4cc5d
    .word 0x4be28293  # addi x5, x5, 1214
    .word 0x16512a23  # sw x5, 372(x2)
    .word 0xcb3e42b7  # lui x5, 0xcb3e4
    .word 0x2b628293  # addi x5, x5, 694
    .word 0x1a512a23  # sw x5, 436(x2)
    .word 0x597f32b7  # lui x5, 0x597f3
    .word 0x99c28293  # addi x5, x5, -1636
    .word 0x16512c23  # sw x5, 376(x2)
    .word 0xfc6582b7  # lui x5, 0xfc658
    .word 0xe2a28293  # addi x5, x5, -470
    .word 0x1a512c23  # sw x5, 440(x2)
    .word 0x5fcb72b7  # lui x5, 0x5fcb7
    .word 0xfab28293  # addi x5, x5, -85
    .word 0x16512e23  # sw x5, 380(x2)
    .word 0x3ad702b7  # lui x5, 0x3ad70
    .word 0xaec28293  # addi x5, x5, -1300
    .word 0x1a512e23  # sw x5, 444(x2)
    .word 0x6c4422b7  # lui x5, 0x6c442
    .word 0x98c28293  # addi x5, x5, -1652
    .word 0x18512023  # sw x5, 384(x2)
    .word 0x4a4762b7  # lui x5, 0x4a476
    .word 0x81728293  # addi x5, x5, -2025
    .word 0x1c512023  # sw x5, 448(x2)
    .word 0xe4cfe06f  # jal x0, -6580
    .word 0x00412283  # lw x5, 4(x2)
    .word 0x1c812303  # lw x6, 456(x2)
    .word 0x00628a33  # add x20, x5, x6
    .word 0x00012283  # lw x5, 0(x2)
    .word 0x1c412303  # lw x6, 452(x2)
    .word 0x006282b3  # add x5, x5, x6
    .word 0x1c812383  # lw x7, 456(x2)
    .word 0x007a3333  # sltu x6, x20, x7
    .word 0x00628b33  # add x22, x5, x6
    .word 0x01612023  # sw x22, 0(x2)
    .word 0x01412223  # sw x20, 4(x2)
    .word 0x00c12283  # lw x5, 12(x2)
    .word 0x00a28a33  # add x20, x5, x10
    .word 0x00812283  # lw x5, 8(x2)
    .word 0x1cc12303  # lw x6, 460(x2)
    .word 0x006282b3  # add x5, x5, x6
    .word 0x00aa3333  # sltu x6, x20, x10
    .word 0x00628b33  # add x22, x5, x6
    .word 0x01612423  # sw x22, 8(x2)
    .word 0x01412623  # sw x20, 12(x2)
    .word 0x01412283  # lw x5, 20(x2)
    .word 0x1d412303  # lw x6, 468(x2)
    .word 0x00628a33  # add x20, x5, x6
    .word 0x01012283  # lw x5, 16(x2)
    .word 0x1d012303  # lw x6, 464(x2)
    .word 0x006282b3  # add x5, x5, x6
    .word 0x1d412383  # lw x7, 468(x2)
    .word 0x007a3333  # sltu x6, x20, x7
    .word 0x00628b33  # add x22, x5, x6
    .word 0x01612823  # sw x22, 16(x2)
    .word 0x01412a23  # sw x20, 20(x2)
    .word 0x01c12283  # lw x5, 28(x2)
    .word 0x1dc12303  # lw x6, 476(x2)
    .word 0x00628a33  # add x20, x5, x6
    .word 0x01812283  # lw x5, 24(x2)
    .word 0x1d812303  # lw x6, 472(x2)
    .word 0x006282b3  # add x5, x5, x6
    .word 0x1dc12383  # lw x7, 476(x2)
    .word 0x007a3333  # sltu x6, x20, x7
    .word 0x00628b33  # add x22, x5, x6
    .word 0x01612c23  # sw x22, 24(x2)
    .word 0x01412e23  # sw x20, 28(x2)
    .word 0x02412283  # lw x5, 36(x2)
    .word 0x01828a33  # add x20, x5, x24
    .word 0x02012283  # lw x5, 32(x2)
    .word 0x017282b3  # add x5, x5, x23
    .word 0x018a3333  # sltu x6, x20, x24
    .word 0x00628b33  # add x22, x5, x6
    .word 0x03612023  # sw x22, 32(x2)
    .word 0x03412223  # sw x20, 36(x2)
    .word 0x02c12283  # lw x5, 44(x2)
    .word 0x01a28a33  # add x20, x5, x26
    .word 0x02812283  # lw x5, 40(x2)
    .word 0x019282b3  # add x5, x5, x25
    .word 0x01aa3333  # sltu x6, x20, x26
    .word 0x00628b33  # add x22, x5, x6
    .word 0x03612423  # sw x22, 40(x2)
    .word 0x03412623  # sw x20, 44(x2)
    .word 0x03412283  # lw x5, 52(x2)
    .word 0x01328a33  # add x20, x5, x19
    .word 0x03012283  # lw x5, 48(x2)
    .word 0x00e282b3  # add x5, x5, x14
    .word 0x013a3333  # sltu x6, x20, x19
    .word 0x00628b33  # add x22, x5, x6
    .word 0x03612823  # sw x22, 48(x2)
    .word 0x03412a23  # sw x20, 52(x2)
    .word 0x03c12283  # lw x5, 60(x2)
    .word 0x01528a33  # add x20, x5, x21
    .word 0x03812283  # lw x5, 56(x2)
    .word 0x00d282b3  # add x5, x5, x13
    .word 0x015a3333  # sltu x6, x20, x21
    .word 0x00628b33  # add x22, x5, x6
    .word 0x03612c23  # sw x22, 56(x2)
    .word 0x03412e23  # sw x20, 60(x2)
    # the result
    .word 0x00000513  # addi x10, x0, 0
    # parameter 0: the array, back
    .word 0x00010293  # addi x5, x2, 0
    .word 0x36c12303  # lw x6, 876(x2)
    .word 0x04028393  # addi x7, x5, 64
    .word 0x0002ae03  # lw x28, 0(x5)
    .word 0x01c32023  # sw x28, 0(x6)
    .word 0x00428293  # addi x5, x5, 4
    .word 0x00430313  # addi x6, x6, 4
    .word 0xfe7298e3  # bne x5, x7, -16
    # above the frame
    .word 0x33010293  # addi x5, x2, 816
    # the caller's registers
    .word 0x0002a403  # lw x8, 0(x5)
    .cfi_restore 8
    .word 0x0042a483  # lw x9, 4(x5)
    .cfi_restore 9
    .word 0x0082a903  # lw x18, 8(x5)
    .cfi_restore 18
    .word 0x00c2a983  # lw x19, 12(x5)
    .cfi_restore 19
    .word 0x0102aa03  # lw x20, 16(x5)
    .cfi_restore 20
    .word 0x0142aa83  # lw x21, 20(x5)
    .cfi_restore 21
    .word 0x0182ab03  # lw x22, 24(x5)
    .cfi_restore 22
    .word 0x01c2ab83  # lw x23, 28(x5)
    .cfi_restore 23
    .word 0x0202ac03  # lw x24, 32(x5)
    .cfi_restore 24
    .word 0x0242ac83  # lw x25, 36(x5)
    .cfi_restore 25
    .word 0x0282ad03  # lw x26, 40(x5)
    .cfi_restore 26
    .word 0x02c2ad83  # lw x27, 44(x5)
    .cfi_restore 27
    # the caller's x2
    .word 0x04028293  # addi x5, x5, 64
    .cfi_def_cfa 5, 0
    # on to the tail that functions share
    jal x0, factc.tail.1
    .cfi_endproc
    .size sha512_block, . - sha512_block
    .section .text.factc.tail.1, "axG", @progbits, factc.tail.1, comdat
    .p2align 2
    .globl factc.tail.1
    .hidden factc.tail.1
    .type factc.tail.1, @function
factc.tail.1:
    .cfi_startproc
    .cfi_def_cfa 5, 0
    # all the room, wiped upward
    .word 0x00012023  # sw x0, 0(x2)
    .word 0x00012223  # sw x0, 4(x2)
    .word 0x00012423  # sw x0, 8(x2)
    .word 0x00012623  # sw x0, 12(x2)
    .word 0x01010113  # addi x2, x2, 16
    .word 0xfe5116e3  # bne x2, x5, -20
    .cfi_def_cfa 2, 0
    # temporaries, wiped
    .word 0x00000293  # addi x5, x0, 0
    .word 0x00000313  # addi x6, x0, 0
    .word 0x00000393  # addi x7, x0, 0
    .word 0x00000593  # addi x11, x0, 0
    .word 0x00000613  # addi x12, x0, 0
    .word 0x00000693  # addi x13, x0, 0
    .word 0x00000713  # addi x14, x0, 0
    .word 0x00000793  # addi x15, x0, 0
    .word 0x00000813  # addi x16, x0, 0
    .word 0x00000893  # addi x17, x0, 0
    .word 0x00000e13  # addi x28, x0, 0
    .word 0x00000e93  # addi x29, x0, 0
    .word 0x00000f13  # addi x30, x0, 0
    .word 0x00000f93  # addi x31, x0, 0
    # back
    .word 0x00008067  # jalr x0, 0(x1)
    .cfi_endproc
    .size factc.tail.1, . - factc.tail.1
    .option pop
