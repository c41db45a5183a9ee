# sha512_block: made by factc 1.0.0 function; 3452 words, 816 bytes of stack, profile 1
    .option push
    .option norvc
    .option norelax
    .cfi_sections .debug_frame
    .section .text.sha512_block, "ax", @progbits
    .p2align 2
    .globl sha512_block
    .type sha512_block, @function
sha512_block:
    .cfi_startproc
    # room above the frame
    .word 0xfc010113  # addi x2, x2, -64
    .cfi_def_cfa_offset 64
    # the caller's registers
    .word 0x00812023  # sw x8, 0(x2)
    .cfi_offset 8, -64
    .word 0x00912223  # sw x9, 4(x2)
    .cfi_offset 9, -60
    .word 0x01212423  # sw x18, 8(x2)
    .cfi_offset 18, -56
    .word 0x01312623  # sw x19, 12(x2)
    .cfi_offset 19, -52
    .word 0x01412823  # sw x20, 16(x2)
    .cfi_offset 20, -48
    .word 0x01512a23  # sw x21, 20(x2)
    .cfi_offset 21, -44
    .word 0x01612c23  # sw x22, 24(x2)
    .cfi_offset 22, -40
    .word 0x01712e23  # sw x23, 28(x2)
    .cfi_offset 23, -36
    .word 0x03812023  # sw x24, 32(x2)
    .cfi_offset 24, -32
    .word 0x03912223  # sw x25, 36(x2)
    .cfi_offset 25, -28
    .word 0x03a12423  # sw x26, 40(x2)
    .cfi_offset 26, -24
    .word 0x03b12623  # sw x27, 44(x2)
    .cfi_offset 27, -20
    # arguments that are needed behind the body
    .word 0x02a12e23  # sw x10, 60(x2)
    # the frame's base
    .word 0xd1010113  # addi x2, x2, -752
    .cfi_def_cfa 2, 816
    # parameter 0: an array
    .word 0x00050293  # addi x5, x10, 0
    .word 0x00010313  # addi x6, x2, 0
    .word 0x04028393  # addi x7, x5, 64
    .word 0x55403f6f  # jal x30, 13652
    # parameter 1: an array
    .word 0x00058293  # addi x5, x11, 0
    .word 0x04010313  # addi x6, x2, 64
    .word 0x08028393  # addi x7, x5, 128
    .word 0x54403f6f  # jal x30, 13636
    # the body
    .word 0xe49b72b7  # lui x5, 0xe49b7
    .word 0x9c128293  # addi x5, x5, -1599
    .word 0x1e512223  # sw x5, 484(x2)
    .word 0x9ef152b7  # lui x5, 0x9ef15
    .word 0xad228293  # addi x5, x5, -1326
    .word 0x1e512423  # sw x5, 488(x2)
    .word 0xefbe42b7  # lui x5, 0xefbe4
    .word 0x78628293  # addi x5, x5, 1926
    .word 0x1e512623  # sw x5, 492(x2)
    .word 0x384f22b7  # lui x5, 0x384f2
    .word 0x5e328293  # addi x5, x5, 1507
    .word 0x1e512823  # sw x5, 496(x2)
    .word 0x0fc1a2b7  # lui x5, 0x0fc1a
    .word 0xdc628293  # addi x5, x5, -570
    .word 0x1e512a23  # sw x5, 500(x2)
    .word 0x8b8cd2b7  # lui x5, 0x8b8cd
    .word 0x5b528293  # addi x5, x5, 1461
    .word 0x1e512c23  # sw x5, 504(x2)
    .word 0x240ca2b7  # lui x5, 0x240ca
    .word 0x1cc28293  # addi x5, x5, 460
    .word 0x1e512e23  # sw x5, 508(x2)
    .word 0x77aca2b7  # lui x5, 0x77aca
    .word 0xc6528293  # addi x5, x5, -923
    .word 0x20512023  # sw x5, 512(x2)
    .word 0x2de932b7  # lui x5, 0x2de93
    .word 0xc6f28293  # addi x5, x5, -913
    .word 0x20512223  # sw x5, 516(x2)
    .word 0x592b02b7  # lui x5, 0x592b0
    .word 0x27528293  # addi x5, x5, 629
    .word 0x20512423  # sw x5, 520(x2)
    .word 0x4a7482b7  # lui x5, 0x4a748
    .word 0x4aa28293  # addi x5, x5, 1194
    .word 0x20512623  # sw x5, 524(x2)
    .word 0x6ea6e2b7  # lui x5, 0x6ea6e
    .word 0x48328293  # addi x5, x5, 1155
    .word 0x20512823  # sw x5, 528(x2)
    .word 0x5cb0b2b7  # lui x5, 0x5cb0b
    .word 0x9dc28293  # addi x5, x5, -1572
    .word 0x20512a23  # sw x5, 532(x2)
    .word 0xbd4202b7  # lui x5, 0xbd420
    .word 0xbd428293  # addi x5, x5, -1068
    .word 0x20512c23  # sw x5, 536(x2)
    .word 0x76f992b7  # lui x5, 0x76f99
    .word 0x8da28293  # addi x5, x5, -1830
    .word 0x20512e23  # sw x5, 540(x2)
    .word 0x831152b7  # lui x5, 0x83115
    .word 0x3b528293  # addi x5, x5, 949
    .word 0x22512023  # sw x5, 544(x2)
    .word 0x983e52b7  # lui x5, 0x983e5
    .word 0x15228293  # addi x5, x5, 338
    .word 0x22512223  # sw x5, 548(x2)
    .word 0xee66e2b7  # lui x5, 0xee66e
    .word 0xfab28293  # addi x5, x5, -85
    .word 0x22512423  # sw x5, 552(x2)
    .word 0xa831c2b7  # lui x5, 0xa831c
    .word 0x66d28293  # addi x5, x5, 1645
    .word 0x22512623  # sw x5, 556(x2)
    .word 0x2db432b7  # lui x5, 0x2db43
    .word 0x21028293  # addi x5, x5, 528
    .word 0x22512823  # sw x5, 560(x2)
    .word 0xb00322b7  # lui x5, 0xb0032
    .word 0x7c828293  # addi x5, x5, 1992
    .word 0x22512a23  # sw x5, 564(x2)
    .word 0x98fb22b7  # lui x5, 0x98fb2
    .word 0x13f28293  # addi x5, x5, 319
    .word 0x22512c23  # sw x5, 568(x2)
    .word 0xbf5982b7  # lui x5, 0xbf598
    .word 0xfc728293  # addi x5, x5, -57
    .word 0x22512e23  # sw x5, 572(x2)
    .word 0xbeef12b7  # lui x5, 0xbeef1
    .word 0xee428293  # addi x5, x5, -284
    .word 0x24512023  # sw x5, 576(x2)
    .word 0xc6e012b7  # lui x5, 0xc6e01
    .word 0xbf328293  # addi x5, x5, -1037
    .word 0x24512223  # sw x5, 580(x2)
    .word 0x3da892b7  # lui x5, 0x3da89
    .word 0xfc228293  # addi x5, x5, -62
    .word 0x24512423  # sw x5, 584(x2)
    .word 0xd5a792b7  # lui x5, 0xd5a79
    .word 0x14728293  # addi x5, x5, 327
    .word 0x24512623  # sw x5, 588(x2)
    .word 0x930aa2b7  # lui x5, 0x930aa
    .word 0x72528293  # addi x5, x5, 1829
    .word 0x24512823  # sw x5, 592(x2)
    .word 0x06ca62b7  # lui x5, 0x06ca6
    .word 0x35128293  # addi x5, x5, 849
    .word 0x24512a23  # sw x5, 596(x2)
    .word 0xe00382b7  # lui x5, 0xe0038
    .word 0x26f28293  # addi x5, x5, 623
    .word 0x24512c23  # sw x5, 600(x2)
    .word 0x142932b7  # lui x5, 0x14293
    .word 0x96728293  # addi x5, x5, -1689
    .word 0x24512e23  # sw x5, 604(x2)
    .word 0x0a0e72b7  # lui x5, 0x0a0e7
    .word 0xe7028293  # addi x5, x5, -400
    .word 0x26512023  # sw x5, 608(x2)
    .word 0x27b712b7  # lui x5, 0x27b71
    .word 0xa8528293  # addi x5, x5, -1403
    .word 0x26512223  # sw x5, 612(x2)
    .word 0x46d232b7  # lui x5, 0x46d23
    .word 0xffc28293  # addi x5, x5, -4
    .word 0x26512423  # sw x5, 616(x2)
    .word 0x2e1b22b7  # lui x5, 0x2e1b2
    .word 0x13828293  # addi x5, x5, 312
    .word 0x26512623  # sw x5, 620(x2)
    .word 0x5c26d2b7  # lui x5, 0x5c26d
    .word 0x92628293  # addi x5, x5, -1754
    .word 0x26512823  # sw x5, 624(x2)
    .word 0x4d2c72b7  # lui x5, 0x4d2c7
    .word 0xdfc28293  # addi x5, x5, -516
    .word 0x26512a23  # sw x5, 628(x2)
    .word 0x5ac432b7  # lui x5, 0x5ac43
    .word 0xaed28293  # addi x5, x5, -1299
    .word 0x26512c23  # sw x5, 632(x2)
    .word 0x533812b7  # lui x5, 0x53381
    .word 0xd1328293  # addi x5, x5, -749
    .word 0x26512e23  # sw x5, 636(x2)
    .word 0x9d95b2b7  # lui x5, 0x9d95b
    .word 0x3df28293  # addi x5, x5, 991
    .word 0x28512023  # sw x5, 640(x2)
    .word 0x650a72b7  # lui x5, 0x650a7
    .word 0x35428293  # addi x5, x5, 852
    .word 0x28512223  # sw x5, 644(x2)
    .word 0x8baf62b7  # lui x5, 0x8baf6
    .word 0x3de28293  # addi x5, x5, 990
    .word 0x28512423  # sw x5, 648(x2)
    .word 0x766a12b7  # lui x5, 0x766a1
    .word 0xabb28293  # addi x5, x5, -1349
    .word 0x28512623  # sw x5, 652(x2)
    .word 0x3c77b2b7  # lui x5, 0x3c77b
    .word 0x2a828293  # addi x5, x5, 680
    .word 0x28512823  # sw x5, 656(x2)
    .word 0x81c2d2b7  # lui x5, 0x81c2d
    .word 0x92e28293  # addi x5, x5, -1746
    .word 0x28512a23  # sw x5, 660(x2)
    .word 0x47edb2b7  # lui x5, 0x47edb
    .word 0xee628293  # addi x5, x5, -282
    .word 0x28512c23  # sw x5, 664(x2)
    .word 0x927232b7  # lui x5, 0x92723
    .word 0xc8528293  # addi x5, x5, -891
    .word 0x28512e23  # sw x5, 668(x2)
    .word 0x148232b7  # lui x5, 0x14823
    .word 0x53b28293  # addi x5, x5, 1339
    .word 0x2a512023  # sw x5, 672(x2)
    .word 0xa2bff2b7  # lui x5, 0xa2bff
    .word 0x8a128293  # addi x5, x5, -1887
    .word 0x2a512223  # sw x5, 676(x2)
    .word 0x4cf102b7  # lui x5, 0x4cf10
    .word 0x36428293  # addi x5, x5, 868
    .word 0x2a512423  # sw x5, 680(x2)
    .word 0xa81a62b7  # lui x5, 0xa81a6
    .word 0x64b28293  # addi x5, x5, 1611
    .word 0x2a512623  # sw x5, 684(x2)
    .word 0xbc4232b7  # lui x5, 0xbc423
    .word 0x00128293  # addi x5, x5, 1
    .word 0x2a512823  # sw x5, 688(x2)
    .word 0xc24b92b7  # lui x5, 0xc24b9
    .word 0xb7028293  # addi x5, x5, -1168
    .word 0x2a512a23  # sw x5, 692(x2)
    .word 0xd0f892b7  # lui x5, 0xd0f89
    .word 0x79128293  # addi x5, x5, 1937
    .word 0x2a512c23  # sw x5, 696(x2)
    .word 0xc76c52b7  # lui x5, 0xc76c5
    .word 0x1a328293  # addi x5, x5, 419
    .word 0x2a512e23  # sw x5, 700(x2)
    .word 0x0654c2b7  # lui x5, 0x0654c
    .word 0xe3028293  # addi x5, x5, -464
    .word 0x2c512023  # sw x5, 704(x2)
    .word 0xd192f2b7  # lui x5, 0xd192f
    .word 0x81928293  # addi x5, x5, -2023
    .word 0x2c512223  # sw x5, 708(x2)
    .word 0xd6ef52b7  # lui x5, 0xd6ef5
    .word 0x21828293  # addi x5, x5, 536
    .word 0x2c512423  # sw x5, 712(x2)
    .word 0xd69902b7  # lui x5, 0xd6990
    .word 0x62428293  # addi x5, x5, 1572
    .word 0x2c512623  # sw x5, 716(x2)
    .word 0x5565b2b7  # lui x5, 0x5565b
    .word 0x91028293  # addi x5, x5, -1776
    .word 0x2c512823  # sw x5, 720(x2)
    .word 0xf40e32b7  # lui x5, 0xf40e3
    .word 0x58528293  # addi x5, x5, 1413
    .word 0x2c512a23  # sw x5, 724(x2)
    .word 0x577122b7  # lui x5, 0x57712
    .word 0x02a28293  # addi x5, x5, 42
    .word 0x2c512c23  # sw x5, 728(x2)
    .word 0x106aa2b7  # lui x5, 0x106aa
    .word 0x07028293  # addi x5, x5, 112
    .word 0x2c512e23  # sw x5, 732(x2)
    .word 0x32bbd2b7  # lui x5, 0x32bbd
    .word 0x1b828293  # addi x5, x5, 440
    .word 0x2e512023  # sw x5, 736(x2)
    .word 0x04014283  # lbu x5, 64(x2)
    .word 0x01829293  # slli x5, x5, 24
    .word 0x04114303  # lbu x6, 65(x2)
    .word 0x01031313  # slli x6, x6, 16
    .word 0x0062e5b3  # or x11, x5, x6
    .word 0x04214303  # lbu x6, 66(x2)
    .word 0x00831313  # slli x6, x6, 8
    .word 0x0065e2b3  # or x5, x11, x6
    .word 0x04314303  # lbu x6, 67(x2)
    .word 0x0062e5b3  # or x11, x5, x6
    .word 0x04414283  # lbu x5, 68(x2)
    .word 0x01829293  # slli x5, x5, 24
    .word 0x04514303  # lbu x6, 69(x2)
    .word 0x01031313  # slli x6, x6, 16
    .word 0x0062e6b3  # or x13, x5, x6
    .word 0x04614303  # lbu x6, 70(x2)
    .word 0x00831313  # slli x6, x6, 8
    .word 0x0066e2b3  # or x5, x13, x6
    .word 0x04714303  # lbu x6, 71(x2)
    .word 0x0062e6b3  # or x13, x5, x6
    .word 0x0eb12223  # sw x11, 228(x2)
    .word 0x12d12223  # sw x13, 292(x2)
    .word 0x04814283  # lbu x5, 72(x2)
    .word 0x01829293  # slli x5, x5, 24
    .word 0x04914303  # lbu x6, 73(x2)
    .word 0x01031313  # slli x6, x6, 16
    .word 0x0062e5b3  # or x11, x5, x6
    .word 0x04a14303  # lbu x6, 74(x2)
    .word 0x00831313  # slli x6, x6, 8
    .word 0x0065e2b3  # or x5, x11, x6
    .word 0x04b14303  # lbu x6, 75(x2)
    .word 0x0062e5b3  # or x11, x5, x6
    .word 0x04c14283  # lbu x5, 76(x2)
    .word 0x01829293  # slli x5, x5, 24
    .word 0x04d14303  # lbu x6, 77(x2)
    .word 0x01031313  # slli x6, x6, 16
    .word 0x0062e6b3  # or x13, x5, x6
    .word 0x04e14303  # lbu x6, 78(x2)
    .word 0x00831313  # slli x6, x6, 8
    .word 0x0066e2b3  # or x5, x13, x6
    .word 0x04f14303  # lbu x6, 79(x2)
    .word 0x0062e6b3  # or x13, x5, x6
    .word 0x0eb12423  # sw x11, 232(x2)
    .word 0x12d12423  # sw x13, 296(x2)
    .word 0x05014283  # lbu x5, 80(x2)
    .word 0x01829293  # slli x5, x5, 24
    .word 0x05114303  # lbu x6, 81(x2)
    .word 0x01031313  # slli x6, x6, 16
    .word 0x0062e5b3  # or x11, x5, x6
    .word 0x05214303  # lbu x6, 82(x2)
    .word 0x00831313  # slli x6, x6, 8
    .word 0x0065e2b3  # or x5, x11, x6
    .word 0x05314303  # lbu x6, 83(x2)
    .word 0x0062e5b3  # or x11, x5, x6
    .word 0x05414283  # lbu x5, 84(x2)
    .word 0x01829293  # slli x5, x5, 24
    .word 0x05514303  # lbu x6, 85(x2)
    .word 0x01031313  # slli x6, x6, 16
    .word 0x0062e6b3  # or x13, x5, x6
    .word 0x05614303  # lbu x6, 86(x2)
    .word 0x00831313  # slli x6, x6, 8
    .word 0x0066e2b3  # or x5, x13, x6
    .word 0x05714303  # lbu x6, 87(x2)
    .word 0x0062e6b3  # or x13, x5, x6
    .word 0x0eb12623  # sw x11, 236(x2)
    .word 0x12d12623  # sw x13, 300(x2)
    .word 0x05814283  # lbu x5, 88(x2)
    .word 0x01829293  # slli x5, x5, 24
    .word 0x05914303  # lbu x6, 89(x2)
    .word 0x01031313  # slli x6, x6, 16
    .word 0x0062e5b3  # or x11, x5, x6
    .word 0x05a14303  # lbu x6, 90(x2)
    .word 0x00831313  # slli x6, x6, 8
    .word 0x0065e2b3  # or x5, x11, x6
    .word 0x05b14303  # lbu x6, 91(x2)
    .word 0x0062e5b3  # or x11, x5, x6
    .word 0x05c14283  # lbu x5, 92(x2)
    .word 0x01829293  # slli x5, x5, 24
    .word 0x05d14303  # lbu x6, 93(x2)
    .word 0x01031313  # slli x6, x6, 16
    .word 0x0062e6b3  # or x13, x5, x6
    .word 0x05e14303  # lbu x6, 94(x2)
    .word 0x00831313  # slli x6, x6, 8
    .word 0x0066e2b3  # or x5, x13, x6
    .word 0x05f14303  # lbu x6, 95(x2)
    .word 0x0062e6b3  # or x13, x5, x6
    .word 0x0eb12823  # sw x11, 240(x2)
    .word 0x12d12823  # sw x13, 304(x2)
    .word 0x06014283  # lbu x5, 96(x2)
    .word 0x01829293  # slli x5, x5, 24
    .word 0x06114303  # lbu x6, 97(x2)
    .word 0x01031313  # slli x6, x6, 16
    .word 0x0062e5b3  # or x11, x5, x6
    .word 0x06214303  # lbu x6, 98(x2)
    .word 0x00831313  # slli x6, x6, 8
    .word 0x0065e2b3  # or x5, x11, x6
    .word 0x06314303  # lbu x6, 99(x2)
    .word 0x0062e5b3  # or x11, x5, x6
    .word 0x06414283  # lbu x5, 100(x2)
    .word 0x01829293  # slli x5, x5, 24
    .word 0x06514303  # lbu x6, 101(x2)
    .word 0x01031313  # slli x6, x6, 16
    .word 0x0062e6b3  # or x13, x5, x6
    .word 0x06614303  # lbu x6, 102(x2)
    .word 0x00831313  # slli x6, x6, 8
    .word 0x0066e2b3  # or x5, x13, x6
    .word 0x06714303  # lbu x6, 103(x2)
    .word 0x0062e6b3  # or x13, x5, x6
    .word 0x0eb12a23  # sw x11, 244(x2)
    .word 0x12d12a23  # sw x13, 308(x2)
    .word 0x06814283  # lbu x5, 104(x2)
    .word 0x01829293  # slli x5, x5, 24
    .word 0x06914303  # lbu x6, 105(x2)
    .word 0x01031313  # slli x6, x6, 16
    .word 0x0062e5b3  # or x11, x5, x6
    .word 0x06a14303  # lbu x6, 106(x2)
    .word 0x00831313  # slli x6, x6, 8
    .word 0x0065e2b3  # or x5, x11, x6
    .word 0x06b14303  # lbu x6, 107(x2)
    .word 0x0062e5b3  # or x11, x5, x6
    .word 0x06c14283  # lbu x5, 108(x2)
    .word 0x01829293  # slli x5, x5, 24
    .word 0x06d14303  # lbu x6, 109(x2)
    .word 0x01031313  # slli x6, x6, 16
    .word 0x0062e6b3  # or x13, x5, x6
    .word 0x06e14303  # lbu x6, 110(x2)
    .word 0x00831313  # slli x6, x6, 8
    .word 0x0066e2b3  # or x5, x13, x6
    .word 0x06f14303  # lbu x6, 111(x2)
    .word 0x0062e6b3  # or x13, x5, x6
    .word 0x0eb12c23  # sw x11, 248(x2)
    .word 0x12d12c23  # sw x13, 312(x2)
    .word 0x07014283  # lbu x5, 112(x2)
    .word 0x01829293  # slli x5, x5, 24
    .word 0x07114303  # lbu x6, 113(x2)
    .word 0x01031313  # slli x6, x6, 16
    .word 0x0062e5b3  # or x11, x5, x6
    .word 0x07214303  # lbu x6, 114(x2)
    .word 0x00831313  # slli x6, x6, 8
    .word 0x0065e2b3  # or x5, x11, x6
    .word 0x07314303  # lbu x6, 115(x2)
    .word 0x0062e5b3  # or x11, x5, x6
    .word 0x07414283  # lbu x5, 116(x2)
    .word 0x01829293  # slli x5, x5, 24
    .word 0x07514303  # lbu x6, 117(x2)
    .word 0x01031313  # slli x6, x6, 16
    .word 0x0062e6b3  # or x13, x5, x6
    .word 0x07614303  # lbu x6, 118(x2)
    .word 0x00831313  # slli x6, x6, 8
    .word 0x0066e2b3  # or x5, x13, x6
    .word 0x07714303  # lbu x6, 119(x2)
    .word 0x0062e6b3  # or x13, x5, x6
    .word 0x0eb12e23  # sw x11, 252(x2)
    .word 0x12d12e23  # sw x13, 316(x2)
    .word 0x07814283  # lbu x5, 120(x2)
    .word 0x01829293  # slli x5, x5, 24
    .word 0x07914303  # lbu x6, 121(x2)
    .word 0x01031313  # slli x6, x6, 16
    .word 0x0062e5b3  # or x11, x5, x6
    .word 0x07a14303  # lbu x6, 122(x2)
    .word 0x00831313  # slli x6, x6, 8
    .word 0x0065e2b3  # or x5, x11, x6
    .word 0x07b14303  # lbu x6, 123(x2)
    .word 0x0062e5b3  # or x11, x5, x6
    .word 0x07c14283  # lbu x5, 124(x2)
    .word 0x01829293  # slli x5, x5, 24
    .word 0x07d14303  # lbu x6, 125(x2)
    .word 0x01031313  # slli x6, x6, 16
    .word 0x0062e6b3  # or x13, x5, x6
    .word 0x07e14303  # lbu x6, 126(x2)
    .word 0x00831313  # slli x6, x6, 8
    .word 0x0066e2b3  # or x5, x13, x6
    .word 0x07f14303  # lbu x6, 127(x2)
    .word 0x0062e6b3  # or x13, x5, x6
    .word 0x10b12023  # sw x11, 256(x2)
    .word 0x14d12023  # sw x13, 320(x2)
    .word 0x08014283  # lbu x5, 128(x2)
    .word 0x01829293  # slli x5, x5, 24
    .word 0x08114303  # lbu x6, 129(x2)
    .word 0x01031313  # slli x6, x6, 16
    .word 0x0062e5b3  # or x11, x5, x6
    .word 0x08214303  # lbu x6, 130(x2)
    .word 0x00831313  # slli x6, x6, 8
    .word 0x0065e2b3  # or x5, x11, x6
    .word 0x08314303  # lbu x6, 131(x2)
    .word 0x0062e5b3  # or x11, x5, x6
    .word 0x08414283  # lbu x5, 132(x2)
    .word 0x01829293  # slli x5, x5, 24
    .word 0x08514303  # lbu x6, 133(x2)
    .word 0x01031313  # slli x6, x6, 16
    .word 0x0062e6b3  # or x13, x5, x6
    .word 0x08614303  # lbu x6, 134(x2)
    .word 0x00831313  # slli x6, x6, 8
    .word 0x0066e2b3  # or x5, x13, x6
    .word 0x08714303  # lbu x6, 135(x2)
    .word 0x0062e6b3  # or x13, x5, x6
    .word 0x10b12223  # sw x11, 260(x2)
    .word 0x14d12223  # sw x13, 324(x2)
    .word 0x08814283  # lbu x5, 136(x2)
    .word 0x01829293  # slli x5, x5, 24
    .word 0x08914303  # lbu x6, 137(x2)
    .word 0x01031313  # slli x6, x6, 16
    .word 0x0062e5b3  # or x11, x5, x6
    .word 0x08a14303  # lbu x6, 138(x2)
    .word 0x00831313  # slli x6, x6, 8
    .word 0x0065e2b3  # or x5, x11, x6
    .word 0x08b14303  # lbu x6, 139(x2)
    .word 0x0062e5b3  # or x11, x5, x6
    .word 0x08c14283  # lbu x5, 140(x2)
    .word 0x01829293  # slli x5, x5, 24
    .word 0x08d14303  # lbu x6, 141(x2)
    .word 0x01031313  # slli x6, x6, 16
    .word 0x0062e6b3  # or x13, x5, x6
    .word 0x08e14303  # lbu x6, 142(x2)
    .word 0x00831313  # slli x6, x6, 8
    .word 0x0066e2b3  # or x5, x13, x6
    .word 0x08f14303  # lbu x6, 143(x2)
    .word 0x0062e6b3  # or x13, x5, x6
    .word 0x10b12423  # sw x11, 264(x2)
    .word 0x14d12423  # sw x13, 328(x2)
    .word 0x09014283  # lbu x5, 144(x2)
    .word 0x01829293  # slli x5, x5, 24
    .word 0x09114303  # lbu x6, 145(x2)
    .word 0x01031313  # slli x6, x6, 16
    .word 0x0062e5b3  # or x11, x5, x6
    .word 0x09214303  # lbu x6, 146(x2)
    .word 0x00831313  # slli x6, x6, 8
    .word 0x0065e2b3  # or x5, x11, x6
    .word 0x09314303  # lbu x6, 147(x2)
    .word 0x0062e5b3  # or x11, x5, x6
    .word 0x09414283  # lbu x5, 148(x2)
    .word 0x01829293  # slli x5, x5, 24
    .word 0x09514303  # lbu x6, 149(x2)
    .word 0x01031313  # slli x6, x6, 16
    .word 0x0062e6b3  # or x13, x5, x6
    .word 0x09614303  # lbu x6, 150(x2)
    .word 0x00831313  # slli x6, x6, 8
    .word 0x0066e2b3  # or x5, x13, x6
    .word 0x09714303  # lbu x6, 151(x2)
    .word 0x0062e6b3  # or x13, x5, x6
    .word 0x10b12623  # sw x11, 268(x2)
    .word 0x14d12623  # sw x13, 332(x2)
    .word 0x09814283  # lbu x5, 152(x2)
    .word 0x01829293  # slli x5, x5, 24
    .word 0x09914303  # lbu x6, 153(x2)
    .word 0x01031313  # slli x6, x6, 16
    .word 0x0062e5b3  # or x11, x5, x6
    .word 0x09a14303  # lbu x6, 154(x2)
    .word 0x00831313  # slli x6, x6, 8
    .word 0x0065e2b3  # or x5, x11, x6
    .word 0x09b14303  # lbu x6, 155(x2)
    .word 0x0062e5b3  # or x11, x5, x6
    .word 0x09c14283  # lbu x5, 156(x2)
    .word 0x01829293  # slli x5, x5, 24
    .word 0x09d14303  # lbu x6, 157(x2)
    .word 0x01031313  # slli x6, x6, 16
    .word 0x0062e6b3  # or x13, x5, x6
    .word 0x09e14303  # lbu x6, 158(x2)
    .word 0x00831313  # slli x6, x6, 8
    .word 0x0066e2b3  # or x5, x13, x6
    .word 0x09f14303  # lbu x6, 159(x2)
    .word 0x0062e6b3  # or x13, x5, x6
    .word 0x10b12823  # sw x11, 272(x2)
    .word 0x14d12823  # sw x13, 336(x2)
    .word 0x0a014283  # lbu x5, 160(x2)
    .word 0x01829293  # slli x5, x5, 24
    .word 0x0a114303  # lbu x6, 161(x2)
    .word 0x01031313  # slli x6, x6, 16
    .word 0x0062e5b3  # or x11, x5, x6
    .word 0x0a214303  # lbu x6, 162(x2)
    .word 0x00831313  # slli x6, x6, 8
    .word 0x0065e2b3  # or x5, x11, x6
    .word 0x0a314303  # lbu x6, 163(x2)
    .word 0x0062e5b3  # or x11, x5, x6
    .word 0x0a414283  # lbu x5, 164(x2)
    .word 0x01829293  # slli x5, x5, 24
    .word 0x0a514303  # lbu x6, 165(x2)
    .word 0x01031313  # slli x6, x6, 16
    .word 0x0062e6b3  # or x13, x5, x6
    .word 0x0a614303  # lbu x6, 166(x2)
    .word 0x00831313  # slli x6, x6, 8
    .word 0x0066e2b3  # or x5, x13, x6
    .word 0x0a714303  # lbu x6, 167(x2)
    .word 0x0062e6b3  # or x13, x5, x6
    .word 0x10b12a23  # sw x11, 276(x2)
    .word 0x14d12a23  # sw x13, 340(x2)
    .word 0x0a814283  # lbu x5, 168(x2)
    .word 0x01829293  # slli x5, x5, 24
    .word 0x0a914303  # lbu x6, 169(x2)
    .word 0x01031313  # slli x6, x6, 16
    .word 0x0062e5b3  # or x11, x5, x6
    .word 0x0aa14303  # lbu x6, 170(x2)
    .word 0x00831313  # slli x6, x6, 8
    .word 0x0065e2b3  # or x5, x11, x6
    .word 0x0ab14303  # lbu x6, 171(x2)
    .word 0x0062e5b3  # or x11, x5, x6
    .word 0x0ac14283  # lbu x5, 172(x2)
    .word 0x01829293  # slli x5, x5, 24
    .word 0x0ad14303  # lbu x6, 173(x2)
    .word 0x01031313  # slli x6, x6, 16
    .word 0x0062e6b3  # or x13, x5, x6
    .word 0x0ae14303  # lbu x6, 174(x2)
    .word 0x00831313  # slli x6, x6, 8
    .word 0x0066e2b3  # or x5, x13, x6
    .word 0x0af14303  # lbu x6, 175(x2)
    .word 0x0062e6b3  # or x13, x5, x6
    .word 0x10b12c23  # sw x11, 280(x2)
    .word 0x14d12c23  # sw x13, 344(x2)
    .word 0x0b014283  # lbu x5, 176(x2)
    .word 0x01829293  # slli x5, x5, 24
    .word 0x0b114303  # lbu x6, 177(x2)
    .word 0x01031313  # slli x6, x6, 16
    .word 0x0062e5b3  # or x11, x5, x6
    .word 0x0b214303  # lbu x6, 178(x2)
    .word 0x00831313  # slli x6, x6, 8
    .word 0x0065e2b3  # or x5, x11, x6
    .word 0x0b314303  # lbu x6, 179(x2)
    .word 0x0062e5b3  # or x11, x5, x6
    .word 0x0b414283  # lbu x5, 180(x2)
    .word 0x01829293  # slli x5, x5, 24
    .word 0x0b514303  # lbu x6, 181(x2)
    .word 0x01031313  # slli x6, x6, 16
    .word 0x0062e6b3  # or x13, x5, x6
    .word 0x0b614303  # lbu x6, 182(x2)
    .word 0x00831313  # slli x6, x6, 8
    .word 0x0066e2b3  # or x5, x13, x6
    .word 0x0b714303  # lbu x6, 183(x2)
    .word 0x0062e6b3  # or x13, x5, x6
    .word 0x10b12e23  # sw x11, 284(x2)
    .word 0x14d12e23  # sw x13, 348(x2)
    .word 0x0b814283  # lbu x5, 184(x2)
    .word 0x01829293  # slli x5, x5, 24
    .word 0x0b914303  # lbu x6, 185(x2)
    .word 0x01031313  # slli x6, x6, 16
    .word 0x0062e5b3  # or x11, x5, x6
    .word 0x0ba14303  # lbu x6, 186(x2)
    .word 0x00831313  # slli x6, x6, 8
    .word 0x0065e2b3  # or x5, x11, x6
    .word 0x0bb14303  # lbu x6, 187(x2)
    .word 0x0062e5b3  # or x11, x5, x6
    .word 0x0bc14283  # lbu x5, 188(x2)
    .word 0x01829293  # slli x5, x5, 24
    .word 0x0bd14303  # lbu x6, 189(x2)
    .word 0x01031313  # slli x6, x6, 16
    .word 0x0062e6b3  # or x13, x5, x6
    .word 0x0be14303  # lbu x6, 190(x2)
    .word 0x00831313  # slli x6, x6, 8
    .word 0x0066e2b3  # or x5, x13, x6
    .word 0x0bf14303  # lbu x6, 191(x2)
    .word 0x0062e6b3  # or x13, x5, x6
    .word 0x12b12023  # sw x11, 288(x2)
    .word 0x16d12023  # sw x13, 352(x2)
    .word 0x428a32b7  # lui x5, 0x428a3
    .word 0xf9828293  # addi x5, x5, -104
    .word 0x16512223  # sw x5, 356(x2)
    .word 0x713742b7  # lui x5, 0x71374
    .word 0x49128293  # addi x5, x5, 1169
    .word 0x16512423  # sw x5, 360(x2)
    .word 0xb5c102b7  # lui x5, 0xb5c10
    .word 0xbcf28293  # addi x5, x5, -1073
    .word 0x16512623  # sw x5, 364(x2)
    .word 0xe9b5e2b7  # lui x5, 0xe9b5e
    .word 0xba528293  # addi x5, x5, -1115
    .word 0x16512823  # sw x5, 368(x2)
    .word 0x3956c2b7  # lui x5, 0x3956c
    .word 0x25b28293  # addi x5, x5, 603
    .word 0x16512a23  # sw x5, 372(x2)
    .word 0x59f112b7  # lui x5, 0x59f11
    .word 0x1f128293  # addi x5, x5, 497
    .word 0x16512c23  # sw x5, 376(x2)
    .word 0x923f82b7  # lui x5, 0x923f8
    .word 0x2a428293  # addi x5, x5, 676
    .word 0x16512e23  # sw x5, 380(x2)
    .word 0xab1c62b7  # lui x5, 0xab1c6
    .word 0xed528293  # addi x5, x5, -299
    .word 0x18512023  # sw x5, 384(x2)
    .word 0xd807b2b7  # lui x5, 0xd807b
    .word 0xa9828293  # addi x5, x5, -1384
    .word 0x18512223  # sw x5, 388(x2)
    .word 0x128362b7  # lui x5, 0x12836
    .word 0xb0128293  # addi x5, x5, -1279
    .word 0x18512423  # sw x5, 392(x2)
    .word 0x243182b7  # lui x5, 0x24318
    .word 0x5be28293  # addi x5, x5, 1470
    .word 0x18512623  # sw x5, 396(x2)
    .word 0x550c82b7  # lui x5, 0x550c8
    .word 0xdc328293  # addi x5, x5, -573
    .word 0x18512823  # sw x5, 400(x2)
    .word 0x72be62b7  # lui x5, 0x72be6
    .word 0xd7428293  # addi x5, x5, -652
    .word 0x18512a23  # sw x5, 404(x2)
    .word 0x80deb2b7  # lui x5, 0x80deb
    .word 0x1fe28293  # addi x5, x5, 510
    .word 0x18512c23  # sw x5, 408(x2)
    .word 0x9bdc02b7  # lui x5, 0x9bdc0
    .word 0x6a728293  # addi x5, x5, 1703
    .word 0x18512e23  # sw x5, 412(x2)
    .word 0xc19bf2b7  # lui x5, 0xc19bf
    .word 0x17428293  # addi x5, x5, 372
    .word 0x1a512023  # sw x5, 416(x2)
    .word 0xd728b2b7  # lui x5, 0xd728b
    .word 0xe2228293  # addi x5, x5, -478
    .word 0x1a512223  # sw x5, 420(x2)
    .word 0x23ef62b7  # lui x5, 0x23ef6
    .word 0x5cd28293  # addi x5, x5, 1485
    .word 0x1a512423  # sw x5, 424(x2)
    .word 0xec4d42b7  # lui x5, 0xec4d4
    .word 0xb2f28293  # addi x5, x5, -1233
    .word 0x1a512623  # sw x5, 428(x2)
    .word 0x8189e2b7  # lui x5, 0x8189e
    .word 0xbbc28293  # addi x5, x5, -1092
    .word 0x1a512823  # sw x5, 432(x2)
    .word 0xf348b2b7  # lui x5, 0xf348b
    .word 0x53828293  # addi x5, x5, 1336
    .word 0x1a512a23  # sw x5, 436(x2)
    .word 0xb605d2b7  # lui x5, 0xb605d
    .word 0x01928293  # addi x5, x5, 25
    .word 0x1a512c23  # sw x5, 440(x2)
    .word 0xaf1952b7  # lui x5, 0xaf195
    .word 0xf9b28293  # addi x5, x5, -101
    .word 0x1a512e23  # sw x5, 444(x2)
    .word 0xda6d82b7  # lui x5, 0xda6d8
    .word 0x11828293  # addi x5, x5, 280
    .word 0x1c512023  # sw x5, 448(x2)
    .word 0xa30302b7  # lui x5, 0xa3030
    .word 0x24228293  # addi x5, x5, 578
    .word 0x1c512223  # sw x5, 452(x2)
    .word 0x457072b7  # lui x5, 0x45707
    .word 0xfbe28293  # addi x5, x5, -66
    .word 0x1c512423  # sw x5, 456(x2)
    .word 0x4ee4b2b7  # lui x5, 0x4ee4b
    .word 0x28c28293  # addi x5, x5, 652
    .word 0x1c512623  # sw x5, 460(x2)
    .word 0xd5ffb2b7  # lui x5, 0xd5ffb
    .word 0x4e228293  # addi x5, x5, 1250
    .word 0x1c512823  # sw x5, 464(x2)
    .word 0xf27b92b7  # lui x5, 0xf27b9
    .word 0x96f28293  # addi x5, x5, -1681
    .word 0x1c512a23  # sw x5, 468(x2)
    .word 0x3b1692b7  # lui x5, 0x3b169
    .word 0x6b128293  # addi x5, x5, 1713
    .word 0x1c512c23  # sw x5, 472(x2)
    .word 0x25c712b7  # lui x5, 0x25c71
    .word 0x23528293  # addi x5, x5, 565
    .word 0x1c512e23  # sw x5, 476(x2)
    .word 0xcf6922b7  # lui x5, 0xcf692
    .word 0x69428293  # addi x5, x5, 1684
    .word 0x1e512023  # sw x5, 480(x2)
    .word 0x00012703  # lw x14, 0(x2)
    .word 0x00412783  # lw x15, 4(x2)
    .word 0x00812803  # lw x16, 8(x2)
    .word 0x00c12883  # lw x17, 12(x2)
    .word 0x01012903  # lw x18, 16(x2)
    .word 0x01412983  # lw x19, 20(x2)
    .word 0x01812a03  # lw x20, 24(x2)
    .word 0x01c12a83  # lw x21, 28(x2)
    .word 0x02012403  # lw x8, 32(x2)
    .word 0x02412b03  # lw x22, 36(x2)
    .word 0x02812483  # lw x9, 40(x2)
    .word 0x02c12b83  # lw x23, 44(x2)
    .word 0x03012c03  # lw x24, 48(x2)
    .word 0x03412c83  # lw x25, 52(x2)
    .word 0x03812d03  # lw x26, 56(x2)
    .word 0x03c12d83  # lw x27, 60(x2)
    .word 0x2e012423  # sw x0, 744(x2)
    .word 0x00500293  # addi x5, x0, 5
    .word 0x2e512623  # sw x5, 748(x2)
    .word 0x2e812303  # lw x6, 744(x2)
    .word 0x2ec12283  # lw x5, 748(x2)
    .word 0x005332b3  # sltu x5, x6, x5
    .word 0x00029463  # bne x5, x0, 8
    .word 0x1450206f  # jal x0, 10564
    .word 0x0c612023  # sw x6, 192(x2)
    .word 0x00130313  # addi x6, x6, 1
    .word 0x2e612423  # sw x6, 744(x2)
    .word 0x01284533  # xor x10, x16, x18
    .word 0x0138c5b3  # xor x11, x17, x19
    .word 0x00eb5293  # srli x5, x22, 14
    .word 0x01241313  # slli x6, x8, 18
    .word 0x0062c2b3  # xor x5, x5, x6
    .word 0x012b5313  # srli x6, x22, 18
    .word 0x0062c2b3  # xor x5, x5, x6
    .word 0x00e41313  # slli x6, x8, 14
    .word 0x0062c2b3  # xor x5, x5, x6
    .word 0x00945313  # srli x6, x8, 9
    .word 0x0062c2b3  # xor x5, x5, x6
    .word 0x017b1313  # slli x6, x22, 23
    .word 0x0062c6b3  # xor x13, x5, x6
    .word 0x00dd8db3  # add x27, x27, x13
    .word 0x00e45293  # srli x5, x8, 14
    .word 0x012b1313  # slli x6, x22, 18
    .word 0x0062c2b3  # xor x5, x5, x6
    .word 0x01245313  # srli x6, x8, 18
    .word 0x0062c2b3  # xor x5, x5, x6
    .word 0x00eb1313  # slli x6, x22, 14
    .word 0x0062c2b3  # xor x5, x5, x6
    .word 0x009b5313  # srli x6, x22, 9
    .word 0x0062c2b3  # xor x5, x5, x6
    .word 0x01741313  # slli x6, x8, 23
    .word 0x0062c2b3  # xor x5, x5, x6
    .word 0x01a282b3  # add x5, x5, x26
    .word 0x00ddb333  # sltu x6, x27, x13
    .word 0x00628d33  # add x26, x5, x6
    .word 0x019bc2b3  # xor x5, x23, x25
    .word 0x0162f2b3  # and x5, x5, x22
    .word 0x0192c6b3  # xor x13, x5, x25
    .word 0x00dd8db3  # add x27, x27, x13
    .word 0x0184c2b3  # xor x5, x9, x24
    .word 0x0082f2b3  # and x5, x5, x8
    .word 0x0182c2b3  # xor x5, x5, x24
    .word 0x01a282b3  # add x5, x5, x26
    .word 0x00ddb333  # sltu x6, x27, x13
    .word 0x00628d33  # add x26, x5, x6
    .word 0x12412683  # lw x13, 292(x2)
    .word 0x00dd8db3  # add x27, x27, x13
    .word 0x0e412303  # lw x6, 228(x2)
    .word 0x006d02b3  # add x5, x26, x6
    .word 0x00ddb333  # sltu x6, x27, x13
    .word 0x00628d33  # add x26, x5, x6
    .word 0x1a412683  # lw x13, 420(x2)
    .word 0x00dd8db3  # add x27, x27, x13
    .word 0x16412303  # lw x6, 356(x2)
    .word 0x006d02b3  # add x5, x26, x6
    .word 0x00ddb333  # sltu x6, x27, x13
    .word 0x00628d33  # add x26, x5, x6
    .word 0x01ba8ab3  # add x21, x21, x27
    .word 0x01aa02b3  # add x5, x20, x26
    .word 0x01bab333  # sltu x6, x21, x27
    .word 0x00628a33  # add x20, x5, x6
    .word 0x01c7d293  # srli x5, x15, 28
    .word 0x00471313  # slli x6, x14, 4
    .word 0x0062c2b3  # xor x5, x5, x6
    .word 0x00275313  # srli x6, x14, 2
    .word 0x0062c2b3  # xor x5, x5, x6
    .word 0x01e79313  # slli x6, x15, 30
    .word 0x0062c2b3  # xor x5, x5, x6
    .word 0x00775313  # srli x6, x14, 7
    .word 0x0062c2b3  # xor x5, x5, x6
    .word 0x01979313  # slli x6, x15, 25
    .word 0x0062c6b3  # xor x13, x5, x6
    .word 0x00dd8db3  # add x27, x27, x13
    .word 0x01c75293  # srli x5, x14, 28
    .word 0x00479313  # slli x6, x15, 4
    .word 0x0062c2b3  # xor x5, x5, x6
    .word 0x0027d313  # srli x6, x15, 2
    .word 0x0062c2b3  # xor x5, x5, x6
    .word 0x01e71313  # slli x6, x14, 30
    .word 0x0062c2b3  # xor x5, x5, x6
    .word 0x0077d313  # srli x6, x15, 7
    .word 0x0062c2b3  # xor x5, x5, x6
    .word 0x01971313  # slli x6, x14, 25
    .word 0x0062c2b3  # xor x5, x5, x6
    .word 0x01a282b3  # add x5, x5, x26
    .word 0x00ddb333  # sltu x6, x27, x13
    .word 0x00628d33  # add x26, x5, x6
    .word 0x0117c6b3  # xor x13, x15, x17
    .word 0x00d5f2b3  # and x5, x11, x13
    .word 0x0112c5b3  # xor x11, x5, x17
    .word 0x00bd8db3  # add x27, x27, x11
    .word 0x01074633  # xor x12, x14, x16
    .word 0x00c572b3  # and x5, x10, x12
    .word 0x0102c533  # xor x10, x5, x16
    .word 0x00ad02b3  # add x5, x26, x10
    .word 0x00bdb333  # sltu x6, x27, x11
    .word 0x00628d33  # add x26, x5, x6
    .word 0x00ead293  # srli x5, x21, 14
    .word 0x012a1313  # slli x6, x20, 18
    .word 0x0062c2b3  # xor x5, x5, x6
    .word 0x012ad313  # srli x6, x21, 18
    .word 0x0062c2b3  # xor x5, x5, x6
    .word 0x00ea1313  # slli x6, x20, 14
    .word 0x0062c2b3  # xor x5, x5, x6
    .word 0x009a5313  # srli x6, x20, 9
    .word 0x0062c2b3  # xor x5, x5, x6
    .word 0x017a9313  # slli x6, x21, 23
    .word 0x0062c5b3  # xor x11, x5, x6
    .word 0x00bc8cb3  # add x25, x25, x11
    .word 0x00ea5293  # srli x5, x20, 14
    .word 0x012a9313  # slli x6, x21, 18
    .word 0x0062c2b3  # xor x5, x5, x6
    .word 0x012a5313  # srli x6, x20, 18
    .word 0x0062c2b3  # xor x5, x5, x6
    .word 0x00ea9313  # slli x6, x21, 14
    .word 0x0062c2b3  # xor x5, x5, x6
    .word 0x009ad313  # srli x6, x21, 9
    .word 0x0062c2b3  # xor x5, x5, x6
    .word 0x017a1313  # slli x6, x20, 23
    .word 0x0062c2b3  # xor x5, x5, x6
    .word 0x018282b3  # add x5, x5, x24
    .word 0x00bcb333  # sltu x6, x25, x11
    .word 0x00628c33  # add x24, x5, x6
    .word 0x017b42b3  # xor x5, x22, x23
    .word 0x0152f2b3  # and x5, x5, x21
    .word 0x0172c5b3  # xor x11, x5, x23
    .word 0x00bc8cb3  # add x25, x25, x11
    .word 0x009442b3  # xor x5, x8, x9
    .word 0x0142f2b3  # and x5, x5, x20
    .word 0x0092c2b3  # xor x5, x5, x9
    .word 0x018282b3  # add x5, x5, x24
    .word 0x00bcb333  # sltu x6, x25, x11
    .word 0x00628c33  # add x24, x5, x6
    .word 0x12812583  # lw x11, 296(x2)
    .word 0x00bc8cb3  # add x25, x25, x11
    .word 0x0e812303  # lw x6, 232(x2)
    .word 0x006c02b3  # add x5, x24, x6
    .word 0x00bcb333  # sltu x6, x25, x11
    .word 0x00628c33  # add x24, x5, x6
    .word 0x1a812583  # lw x11, 424(x2)
    .word 0x00bc8cb3  # add x25, x25, x11
    .word 0x16812303  # lw x6, 360(x2)
    .word 0x006c02b3  # add x5, x24, x6
    .word 0x00bcb333  # sltu x6, x25, x11
    .word 0x00628c33  # add x24, x5, x6
    .word 0x019989b3  # add x19, x19, x25
    .word 0x018902b3  # add x5, x18, x24
    .word 0x0199b333  # sltu x6, x19, x25
    .word 0x00628933  # add x18, x5, x6
    .word 0x01cdd293  # srli x5, x27, 28
    .word 0x004d1313  # slli x6, x26, 4
    .word 0x0062c2b3  # xor x5, x5, x6
    .word 0x002d5313  # srli x6, x26, 2
    .word 0x0062c2b3  # xor x5, x5, x6
    .word 0x01ed9313  # slli x6, x27, 30
    .word 0x0062c2b3  # xor x5, x5, x6
    .word 0x007d5313  # srli x6, x26, 7
    .word 0x0062c2b3  # xor x5, x5, x6
    .word 0x019d9313  # slli x6, x27, 25
    .word 0x0062c5b3  # xor x11, x5, x6
    .word 0x00bc8cb3  # add x25, x25, x11
    .word 0x01cd5293  # srli x5, x26, 28
    .word 0x004d9313  # slli x6, x27, 4
    .word 0x0062c2b3  # xor x5, x5, x6
    .word 0x002dd313  # srli x6, x27, 2
    .word 0x0062c2b3  # xor x5, x5, x6
    .word 0x01ed1313  # slli x6, x26, 30
    .word 0x0062c2b3  # xor x5, x5, x6
    .word 0x007dd313  # srli x6, x27, 7
    .word 0x0062c2b3  # xor x5, x5, x6
    .word 0x019d1313  # slli x6, x26, 25
    .word 0x0062c2b3  # xor x5, x5, x6
    .word 0x018282b3  # add x5, x5, x24
    .word 0x00bcb333  # sltu x6, x25, x11
    .word 0x00628c33  # add x24, x5, x6
    .word 0x00fdc5b3  # xor x11, x27, x15
    .word 0x00b6f2b3  # and x5, x13, x11
    .word 0x00f2c6b3  # xor x13, x5, x15
    .word 0x00dc8cb3  # add x25, x25, x13
    .word 0x00ed4533  # xor x10, x26, x14
    .word 0x00a672b3  # and x5, x12, x10
    .word 0x00e2c633  # xor x12, x5, x14
    .word 0x00cc02b3  # add x5, x24, x12
    .word 0x00dcb333  # sltu x6, x25, x13
    .word 0x00628c33  # add x24, x5, x6
    .word 0x00e9d293  # srli x5, x19, 14
    .word 0x01291313  # slli x6, x18, 18
    .word 0x0062c2b3  # xor x5, x5, x6
    .word 0x0129d313  # srli x6, x19, 18
    .word 0x0062c2b3  # xor x5, x5, x6
    .word 0x00e91313  # slli x6, x18, 14
    .word 0x0062c2b3  # xor x5, x5, x6
    .word 0x00995313  # srli x6, x18, 9
    .word 0x0062c2b3  # xor x5, x5, x6
    .word 0x01799313  # slli x6, x19, 23
    .word 0x0062c6b3  # xor x13, x5, x6
    .word 0x00db8bb3  # add x23, x23, x13
    .word 0x00e95293  # srli x5, x18, 14
    .word 0x01299313  # slli x6, x19, 18
    .word 0x0062c2b3  # xor x5, x5, x6
    .word 0x01295313  # srli x6, x18, 18
    .word 0x0062c2b3  # xor x5, x5, x6
    .word 0x00e99313  # slli x6, x19, 14
    .word 0x0062c2b3  # xor x5, x5, x6
    .word 0x0099d313  # srli x6, x19, 9
    .word 0x0062c2b3  # xor x5, x5, x6
    .word 0x01791313  # slli x6, x18, 23
    .word 0x0062c2b3  # xor x5, x5, x6
    .word 0x009282b3  # add x5, x5, x9
    .word 0x00dbb333  # sltu x6, x23, x13
    .word 0x006284b3  # add x9, x5, x6
    .word 0x016ac2b3  # xor x5, x21, x22
    .word 0x0132f2b3  # and x5, x5, x19
    .word 0x0162c6b3  # xor x13, x5, x22
    .word 0x00db8bb3  # add x23, x23, x13
    .word 0x008a42b3  # xor x5, x20, x8
    .word 0x0122f2b3  # and x5, x5, x18
    .word 0x0082c2b3  # xor x5, x5, x8
    .word 0x009282b3  # add x5, x5, x9
    .word 0x00dbb333  # sltu x6, x23, x13
    .word 0x006284b3  # add x9, x5, x6
    .word 0x12c12683  # lw x13, 300(x2)
    .word 0x00db8bb3  # add x23, x23, x13
    .word 0x0ec12303  # lw x6, 236(x2)
    .word 0x006482b3  # add x5, x9, x6
    .word 0x00dbb333  # sltu x6, x23, x13
    .word 0x006284b3  # add x9, x5, x6
    .word 0x1ac12683  # lw x13, 428(x2)
    .word 0x00db8bb3  # add x23, x23, x13
    .word 0x16c12303  # lw x6, 364(x2)
    .word 0x006482b3  # add x5, x9, x6
    .word 0x00dbb333  # sltu x6, x23, x13
    .word 0x006284b3  # add x9, x5, x6
    .word 0x017888b3  # add x17, x17, x23
    .word 0x009802b3  # add x5, x16, x9
    .word 0x0178b333  # sltu x6, x17, x23
    .word 0x00628833  # add x16, x5, x6
    .word 0x01ccd293  # srli x5, x25, 28
    .word 0x004c1313  # slli x6, x24, 4
    .word 0x0062c2b3  # xor x5, x5, x6
    .word 0x002c5313  # srli x6, x24, 2
    .word 0x0062c2b3  # xor x5, x5, x6
    .word 0x01ec9313  # slli x6, x25, 30
    .word 0x0062c2b3  # xor x5, x5, x6
    .word 0x007c5313  # srli x6, x24, 7
    .word 0x0062c2b3  # xor x5, x5, x6
    .word 0x019c9313  # slli x6, x25, 25
    .word 0x0062c6b3  # xor x13, x5, x6
    .word 0x00db8bb3  # add x23, x23, x13
    .word 0x01cc5293  # srli x5, x24, 28
    .word 0x004c9313  # slli x6, x25, 4
    .word 0x0062c2b3  # xor x5, x5, x6
    .word 0x002cd313  # srli x6, x25, 2
    .word 0x0062c2b3  # xor x5, x5, x6
    .word 0x01ec1313  # slli x6, x24, 30
    .word 0x0062c2b3  # xor x5, x5, x6
    .word 0x007cd313  # srli x6, x25, 7
    .word 0x0062c2b3  # xor x5, x5, x6
    .word 0x019c1313  # slli x6, x24, 25
    .word 0x0062c2b3  # xor x5, x5, x6
    .word 0x009282b3  # add x5, x5, x9
    .word 0x00dbb333  # sltu x6, x23, x13
    .word 0x006284b3  # add x9, x5, x6
    .word 0x01bcc6b3  # xor x13, x25, x27
    .word 0x00d5f2b3  # and x5, x11, x13
    .word 0x01b2c5b3  # xor x11, x5, x27
    .word 0x00bb8bb3  # add x23, x23, x11
    .word 0x01ac4633  # xor x12, x24, x26
    .word 0x00c572b3  # and x5, x10, x12
    .word 0x01a2c533  # xor x10, x5, x26
    .word 0x00a482b3  # add x5, x9, x10
    .word 0x00bbb333  # sltu x6, x23, x11
    .word 0x006284b3  # add x9, x5, x6
    .word 0x00e8d293  # srli x5, x17, 14
    .word 0x01281313  # slli x6, x16, 18
    .word 0x0062c2b3  # xor x5, x5, x6
    .word 0x0128d313  # srli x6, x17, 18
    .word 0x0062c2b3  # xor x5, x5, x6
    .word 0x00e81313  # slli x6, x16, 14
    .word 0x0062c2b3  # xor x5, x5, x6
    .word 0x00985313  # srli x6, x16, 9
    .word 0x0062c2b3  # xor x5, x5, x6
    .word 0x01789313  # slli x6, x17, 23
    .word 0x0062c5b3  # xor x11, x5, x6
    .word 0x00bb0b33  # add x22, x22, x11
    .word 0x00e85293  # srli x5, x16, 14
    .word 0x01289313  # slli x6, x17, 18
    .word 0x0062c2b3  # xor x5, x5, x6
    .word 0x01285313  # srli x6, x16, 18
    .word 0x0062c2b3  # xor x5, x5, x6
    .word 0x00e89313  # slli x6, x17, 14
    .word 0x0062c2b3  # xor x5, x5, x6
    .word 0x0098d313  # srli x6, x17, 9
    .word 0x0062c2b3  # xor x5, x5, x6
    .word 0x01781313  # slli x6, x16, 23
    .word 0x0062c2b3  # xor x5, x5, x6
    .word 0x008282b3  # add x5, x5, x8
    .word 0x00bb3333  # sltu x6, x22, x11
    .word 0x00628433  # add x8, x5, x6
    .word 0x0159c2b3  # xor x5, x19, x21
    .word 0x0112f2b3  # and x5, x5, x17
    .word 0x0152c5b3  # xor x11, x5, x21
    .word 0x00bb0b33  # add x22, x22, x11
    .word 0x014942b3  # xor x5, x18, x20
    .word 0x0102f2b3  # and x5, x5, x16
    .word 0x0142c2b3  # xor x5, x5, x20
    .word 0x008282b3  # add x5, x5, x8
    .word 0x00bb3333  # sltu x6, x22, x11
    .word 0x00628433  # add x8, x5, x6
    .word 0x13012583  # lw x11, 304(x2)
    .word 0x00bb0b33  # add x22, x22, x11
    .word 0x0f012303  # lw x6, 240(x2)
    .word 0x006402b3  # add x5, x8, x6
    .word 0x00bb3333  # sltu x6, x22, x11
    .word 0x00628433  # add x8, x5, x6
    .word 0x1b012583  # lw x11, 432(x2)
    .word 0x00bb0b33  # add x22, x22, x11
    .word 0x17012303  # lw x6, 368(x2)
    .word 0x006402b3  # add x5, x8, x6
    .word 0x00bb3333  # sltu x6, x22, x11
    .word 0x00628433  # add x8, x5, x6
    .word 0x016787b3  # add x15, x15, x22
    .word 0x008702b3  # add x5, x14, x8
    .word 0x0167b333  # sltu x6, x15, x22
    .word 0x00628733  # add x14, x5, x6
    .word 0x01cbd293  # srli x5, x23, 28
    .word 0x00449313  # slli x6, x9, 4
    .word 0x0062c2b3  # xor x5, x5, x6
    .word 0x0024d313  # srli x6, x9, 2
    .word 0x0062c2b3  # xor x5, x5, x6
    .word 0x01eb9313  # slli x6, x23, 30
    .word 0x0062c2b3  # xor x5, x5, x6
    .word 0x0074d313  # srli x6, x9, 7
    .word 0x0062c2b3  # xor x5, x5, x6
    .word 0x019b9313  # slli x6, x23, 25
    .word 0x0062c5b3  # xor x11, x5, x6
    .word 0x00bb0b33  # add x22, x22, x11
    .word 0x01c4d293  # srli x5, x9, 28
    .word 0x004b9313  # slli x6, x23, 4
    .word 0x0062c2b3  # xor x5, x5, x6
    .word 0x002bd313  # srli x6, x23, 2
    .word 0x0062c2b3  # xor x5, x5, x6
    .word 0x01e49313  # slli x6, x9, 30
    .word 0x0062c2b3  # xor x5, x5, x6
    .word 0x007bd313  # srli x6, x23, 7
    .word 0x0062c2b3  # xor x5, x5, x6
    .word 0x01949313  # slli x6, x9, 25
    .word 0x0062c2b3  # xor x5, x5, x6
    .word 0x008282b3  # add x5, x5, x8
    .word 0x00bb3333  # sltu x6, x22, x11
    .word 0x00628433  # add x8, x5, x6
    .word 0x019bc5b3  # xor x11, x23, x25
    .word 0x00b6f2b3  # and x5, x13, x11
    .word 0x0192c6b3  # xor x13, x5, x25
    .word 0x00db0b33  # add x22, x22, x13
    .word 0x0184c533  # xor x10, x9, x24
    .word 0x00a672b3  # and x5, x12, x10
    .word 0x0182c633  # xor x12, x5, x24
    .word 0x00c402b3  # add x5, x8, x12
    .word 0x00db3333  # sltu x6, x22, x13
    .word 0x00628433  # add x8, x5, x6
    .word 0x00e7d293  # srli x5, x15, 14
    .word 0x01271313  # slli x6, x14, 18
    .word 0x0062c2b3  # xor x5, x5, x6
    .word 0x0127d313  # srli x6, x15, 18
    .word 0x0062c2b3  # xor x5, x5, x6
    .word 0x00e71313  # slli x6, x14, 14
    .word 0x0062c2b3  # xor x5, x5, x6
    .word 0x00975313  # srli x6, x14, 9
    .word 0x0062c2b3  # xor x5, x5, x6
    .word 0x01779313  # slli x6, x15, 23
    .word 0x0062c6b3  # xor x13, x5, x6
    .word 0x00da8ab3  # add x21, x21, x13
    .word 0x00e75293  # srli x5, x14, 14
    .word 0x01279313  # slli x6, x15, 18
    .word 0x0062c2b3  # xor x5, x5, x6
    .word 0x01275313  # srli x6, x14, 18
    .word 0x0062c2b3  # xor x5, x5, x6
    .word 0x00e79313  # slli x6, x15, 14
    .word 0x0062c2b3  # xor x5, x5, x6
    .word 0x0097d313  # srli x6, x15, 9
    .word 0x0062c2b3  # xor x5, x5, x6
    .word 0x01771313  # slli x6, x14, 23
    .word 0x0062c2b3  # xor x5, x5, x6
    .word 0x014282b3  # add x5, x5, x20
    .word 0x00dab333  # sltu x6, x21, x13
    .word 0x00628a33  # add x20, x5, x6
    .word 0x0138c2b3  # xor x5, x17, x19
    .word 0x00f2f2b3  # and x5, x5, x15
    .word 0x0132c6b3  # xor x13, x5, x19
    .word 0x00da8ab3  # add x21, x21, x13
    .word 0x012842b3  # xor x5, x16, x18
    .word 0x00e2f2b3  # and x5, x5, x14
    .word 0x0122c2b3  # xor x5, x5, x18
    .word 0x014282b3  # add x5, x5, x20
    .word 0x00dab333  # sltu x6, x21, x13
    .word 0x00628a33  # add x20, x5, x6
    .word 0x13412683  # lw x13, 308(x2)
    .word 0x00da8ab3  # add x21, x21, x13
    .word 0x0f412303  # lw x6, 244(x2)
    .word 0x006a02b3  # add x5, x20, x6
    .word 0x00dab333  # sltu x6, x21, x13
    .word 0x00628a33  # add x20, x5, x6
    .word 0x1b412683  # lw x13, 436(x2)
    .word 0x00da8ab3  # add x21, x21, x13
    .word 0x17412303  # lw x6, 372(x2)
    .word 0x006a02b3  # add x5, x20, x6
    .word 0x00dab333  # sltu x6, x21, x13
    .word 0x00628a33  # add x20, x5, x6
    .word 0x015d8db3  # add x27, x27, x21
    .word 0x014d02b3  # add x5, x26, x20
    .word 0x015db333  # sltu x6, x27, x21
    .word 0x00628d33  # add x26, x5, x6
    .word 0x01cb5293  # srli x5, x22, 28
    .word 0x00441313  # slli x6, x8, 4
    .word 0x0062c2b3  # xor x5, x5, x6
    .word 0x00245313  # srli x6, x8, 2
    .word 0x0062c2b3  # xor x5, x5, x6
    .word 0x01eb1313  # slli x6, x22, 30
    .word 0x0062c2b3  # xor x5, x5, x6
    .word 0x00745313  # srli x6, x8, 7
    .word 0x0062c2b3  # xor x5, x5, x6
    .word 0x019b1313  # slli x6, x22, 25
    .word 0x0062c6b3  # xor x13, x5, x6
    .word 0x00da8ab3  # add x21, x21, x13
    .word 0x01c45293  # srli x5, x8, 28
    .word 0x004b1313  # slli x6, x22, 4
    .word 0x0062c2b3  # xor x5, x5, x6
    .word 0x002b5313  # srli x6, x22, 2
    .word 0x0062c2b3  # xor x5, x5, x6
    .word 0x01e41313  # slli x6, x8, 30
    .word 0x0062c2b3  # xor x5, x5, x6
    .word 0x007b5313  # srli x6, x22, 7
    .word 0x0062c2b3  # xor x5, x5, x6
    .word 0x01941313  # slli x6, x8, 25
    .word 0x0062c2b3  # xor x5, x5, x6
    .word 0x014282b3  # add x5, x5, x20
    .word 0x00dab333  # sltu x6, x21, x13
    .word 0x00628a33  # add x20, x5, x6
    .word 0x017b46b3  # xor x13, x22, x23
    .word 0x00d5f2b3  # and x5, x11, x13
    .word 0x0172c5b3  # xor x11, x5, x23
    .word 0x00ba8ab3  # add x21, x21, x11
    .word 0x00944633  # xor x12, x8, x9
    .word 0x00c572b3  # and x5, x10, x12
    .word 0x0092c533  # xor x10, x5, x9
    .word 0x00aa02b3  # add x5, x20, x10
    .word 0x00bab333  # sltu x6, x21, x11
    .word 0x00628a33  # add x20, x5, x6
    .word 0x00edd293  # srli x5, x27, 14
    .word 0x012d1313  # slli x6, x26, 18
    .word 0x0062c2b3  # xor x5, x5, x6
    .word 0x012dd313  # srli x6, x27, 18
    .word 0x0062c2b3  # xor x5, x5, x6
    .word 0x00ed1313  # slli x6, x26, 14
    .word 0x0062c2b3  # xor x5, x5, x6
    .word 0x009d5313  # srli x6, x26, 9
    .word 0x0062c2b3  # xor x5, x5, x6
    .word 0x017d9313  # slli x6, x27, 23
    .word 0x0062c5b3  # xor x11, x5, x6
    .word 0x00b989b3  # add x19, x19, x11
    .word 0x00ed5293  # srli x5, x26, 14
    .word 0x012d9313  # slli x6, x27, 18
    .word 0x0062c2b3  # xor x5, x5, x6
    .word 0x012d5313  # srli x6, x26, 18
    .word 0x0062c2b3  # xor x5, x5, x6
    .word 0x00ed9313  # slli x6, x27, 14
    .word 0x0062c2b3  # xor x5, x5, x6
    .word 0x009dd313  # srli x6, x27, 9
    .word 0x0062c2b3  # xor x5, x5, x6
    .word 0x017d1313  # slli x6, x26, 23
    .word 0x0062c2b3  # xor x5, x5, x6
    .word 0x012282b3  # add x5, x5, x18
    .word 0x00b9b333  # sltu x6, x19, x11
    .word 0x00628933  # add x18, x5, x6
    .word 0x0117c2b3  # xor x5, x15, x17
    .word 0x01b2f2b3  # and x5, x5, x27
    .word 0x0112c5b3  # xor x11, x5, x17
    .word 0x00b989b3  # add x19, x19, x11
    .word 0x010742b3  # xor x5, x14, x16
    .word 0x01a2f2b3  # and x5, x5, x26
    .word 0x0102c2b3  # xor x5, x5, x16
    .word 0x012282b3  # add x5, x5, x18
    .word 0x00b9b333  # sltu x6, x19, x11
    .word 0x00628933  # add x18, x5, x6
    .word 0x13812583  # lw x11, 312(x2)
    .word 0x00b989b3  # add x19, x19, x11
    .word 0x0f812303  # lw x6, 248(x2)
    .word 0x006902b3  # add x5, x18, x6
    .word 0x00b9b333  # sltu x6, x19, x11
    .word 0x00628933  # add x18, x5, x6
    .word 0x1b812583  # lw x11, 440(x2)
    .word 0x00b989b3  # add x19, x19, x11
    .word 0x17812303  # lw x6, 376(x2)
    .word 0x006902b3  # add x5, x18, x6
    .word 0x00b9b333  # sltu x6, x19, x11
    .word 0x00628933  # add x18, x5, x6
    .word 0x013c8cb3  # add x25, x25, x19
    .word 0x012c02b3  # add x5, x24, x18
    .word 0x013cb333  # sltu x6, x25, x19
    .word 0x00628c33  # add x24, x5, x6
    .word 0x01cad293  # srli x5, x21, 28
    .word 0x004a1313  # slli x6, x20, 4
    .word 0x0062c2b3  # xor x5, x5, x6
    .word 0x002a5313  # srli x6, x20, 2
    .word 0x0062c2b3  # xor x5, x5, x6
    .word 0x01ea9313  # slli x6, x21, 30
    .word 0x0062c2b3  # xor x5, x5, x6
    .word 0x007a5313  # srli x6, x20, 7
    .word 0x0062c2b3  # xor x5, x5, x6
    .word 0x019a9313  # slli x6, x21, 25
    .word 0x0062c5b3  # xor x11, x5, x6
    .word 0x00b989b3  # add x19, x19, x11
    .word 0x01ca5293  # srli x5, x20, 28
    .word 0x004a9313  # slli x6, x21, 4
    .word 0x0062c2b3  # xor x5, x5, x6
    .word 0x002ad313  # srli x6, x21, 2
    .word 0x0062c2b3  # xor x5, x5, x6
    .word 0x01ea1313  # slli x6, x20, 30
    .word 0x0062c2b3  # xor x5, x5, x6
    .word 0x007ad313  # srli x6, x21, 7
    .word 0x0062c2b3  # xor x5, x5, x6
    .word 0x019a1313  # slli x6, x20, 25
    .word 0x0062c2b3  # xor x5, x5, x6
    .word 0x012282b3  # add x5, x5, x18
    .word 0x00b9b333  # sltu x6, x19, x11
    .word 0x00628933  # add x18, x5, x6
    .word 0x016ac5b3  # xor x11, x21, x22
    .word 0x00b6f2b3  # and x5, x13, x11
    .word 0x0162c6b3  # xor x13, x5, x22
    .word 0x00d989b3  # add x19, x19, x13
    .word 0x008a4533  # xor x10, x20, x8
    .word 0x00a672b3  # and x5, x12, x10
    .word 0x0082c633  # xor x12, x5, x8
    .word 0x00c902b3  # add x5, x18, x12
    .word 0x00d9b333  # sltu x6, x19, x13
    .word 0x00628933  # add x18, x5, x6
    .word 0x00ecd293  # srli x5, x25, 14
    .word 0x012c1313  # slli x6, x24, 18
    .word 0x0062c2b3  # xor x5, x5, x6
    .word 0x012cd313  # srli x6, x25, 18
    .word 0x0062c2b3  # xor x5, x5, x6
    .word 0x00ec1313  # slli x6, x24, 14
    .word 0x0062c2b3  # xor x5, x5, x6
    .word 0x009c5313  # srli x6, x24, 9
    .word 0x0062c2b3  # xor x5, x5, x6
    .word 0x017c9313  # slli x6, x25, 23
    .word 0x0062c6b3  # xor x13, x5, x6
    .word 0x00d888b3  # add x17, x17, x13
    .word 0x00ec5293  # srli x5, x24, 14
    .word 0x012c9313  # slli x6, x25, 18
    .word 0x0062c2b3  # xor x5, x5, x6
    .word 0x012c5313  # srli x6, x24, 18
    .word 0x0062c2b3  # xor x5, x5, x6
    .word 0x00ec9313  # slli x6, x25, 14
    .word 0x0062c2b3  # xor x5, x5, x6
    .word 0x009cd313  # srli x6, x25, 9
    .word 0x0062c2b3  # xor x5, x5, x6
    .word 0x017c1313  # slli x6, x24, 23
    .word 0x0062c2b3  # xor x5, x5, x6
    .word 0x010282b3  # add x5, x5, x16
    .word 0x00d8b333  # sltu x6, x17, x13
    .word 0x00628833  # add x16, x5, x6
    .word 0x00fdc2b3  # xor x5, x27, x15
    .word 0x0192f2b3  # and x5, x5, x25
    .word 0x00f2c6b3  # xor x13, x5, x15
    .word 0x00d888b3  # add x17, x17, x13
    .word 0x00ed42b3  # xor x5, x26, x14
    .word 0x0182f2b3  # and x5, x5, x24
    .word 0x00e2c2b3  # xor x5, x5, x14
    .word 0x010282b3  # add x5, x5, x16
    .word 0x00d8b333  # sltu x6, x17, x13
    .word 0x00628833  # add x16, x5, x6
    .word 0x13c12683  # lw x13, 316(x2)
    .word 0x00d888b3  # add x17, x17, x13
    .word 0x0fc12303  # lw x6, 252(x2)
    .word 0x006802b3  # add x5, x16, x6
    .word 0x00d8b333  # sltu x6, x17, x13
    .word 0x00628833  # add x16, x5, x6
    .word 0x1bc12683  # lw x13, 444(x2)
    .word 0x00d888b3  # add x17, x17, x13
    .word 0x17c12303  # lw x6, 380(x2)
    .word 0x006802b3  # add x5, x16, x6
    .word 0x00d8b333  # sltu x6, x17, x13
    .word 0x00628833  # add x16, x5, x6
    .word 0x011b8bb3  # add x23, x23, x17
    .word 0x010482b3  # add x5, x9, x16
    .word 0x011bb333  # sltu x6, x23, x17
    .word 0x006284b3  # add x9, x5, x6
    .word 0x01c9d293  # srli x5, x19, 28
    .word 0x00491313  # slli x6, x18, 4
    .word 0x0062c2b3  # xor x5, x5, x6
    .word 0x00295313  # srli x6, x18, 2
    .word 0x0062c2b3  # xor x5, x5, x6
    .word 0x01e99313  # slli x6, x19, 30
    .word 0x0062c2b3  # xor x5, x5, x6
    .word 0x00795313  # srli x6, x18, 7
    .word 0x0062c2b3  # xor x5, x5, x6
    .word 0x01999313  # slli x6, x19, 25
    .word 0x0062c6b3  # xor x13, x5, x6
    .word 0x00d888b3  # add x17, x17, x13
    .word 0x01c95293  # srli x5, x18, 28
    .word 0x00499313  # slli x6, x19, 4
    .word 0x0062c2b3  # xor x5, x5, x6
    .word 0x0029d313  # srli x6, x19, 2
    .word 0x0062c2b3  # xor x5, x5, x6
    .word 0x01e91313  # slli x6, x18, 30
    .word 0x0062c2b3  # xor x5, x5, x6
    .word 0x0079d313  # srli x6, x19, 7
    .word 0x0062c2b3  # xor x5, x5, x6
    .word 0x01991313  # slli x6, x18, 25
    .word 0x0062c2b3  # xor x5, x5, x6
    .word 0x010282b3  # add x5, x5, x16
    .word 0x00d8b333  # sltu x6, x17, x13
    .word 0x00628833  # add x16, x5, x6
    .word 0x0159c6b3  # xor x13, x19, x21
    .word 0x00d5f2b3  # and x5, x11, x13
    .word 0x0152c5b3  # xor x11, x5, x21
    .word 0x00b888b3  # add x17, x17, x11
    .word 0x01494633  # xor x12, x18, x20
    .word 0x00c572b3  # and x5, x10, x12
    .word 0x0142c533  # xor x10, x5, x20
    .word 0x00a802b3  # add x5, x16, x10
    .word 0x00b8b333  # sltu x6, x17, x11
    .word 0x00628833  # add x16, x5, x6
    .word 0x00ebd293  # srli x5, x23, 14
    .word 0x01249313  # slli x6, x9, 18
    .word 0x0062c2b3  # xor x5, x5, x6
    .word 0x012bd313  # srli x6, x23, 18
    .word 0x0062c2b3  # xor x5, x5, x6
    .word 0x00e49313  # slli x6, x9, 14
    .word 0x0062c2b3  # xor x5, x5, x6
    .word 0x0094d313  # srli x6, x9, 9
    .word 0x0062c2b3  # xor x5, x5, x6
    .word 0x017b9313  # slli x6, x23, 23
    .word 0x0062c5b3  # xor x11, x5, x6
    .word 0x00b787b3  # add x15, x15, x11
    .word 0x00e4d293  # srli x5, x9, 14
    .word 0x012b9313  # slli x6, x23, 18
    .word 0x0062c2b3  # xor x5, x5, x6
    .word 0x0124d313  # srli x6, x9, 18
    .word 0x0062c2b3  # xor x5, x5, x6
    .word 0x00eb9313  # slli x6, x23, 14
    .word 0x0062c2b3  # xor x5, x5, x6
    .word 0x009bd313  # srli x6, x23, 9
    .word 0x0062c2b3  # xor x5, x5, x6
    .word 0x01749313  # slli x6, x9, 23
    .word 0x0062c2b3  # xor x5, x5, x6
    .word 0x00e282b3  # add x5, x5, x14
    .word 0x00b7b333  # sltu x6, x15, x11
    .word 0x00628733  # add x14, x5, x6
    .word 0x01bcc2b3  # xor x5, x25, x27
    .word 0x0172f2b3  # and x5, x5, x23
    .word 0x01b2c5b3  # xor x11, x5, x27
    .word 0x00b787b3  # add x15, x15, x11
    .word 0x01ac42b3  # xor x5, x24, x26
    .word 0x0092f2b3  # and x5, x5, x9
    .word 0x01a2c2b3  # xor x5, x5, x26
    .word 0x00e282b3  # add x5, x5, x14
    .word 0x00b7b333  # sltu x6, x15, x11
    .word 0x00628733  # add x14, x5, x6
    .word 0x14012583  # lw x11, 320(x2)
    .word 0x00b787b3  # add x15, x15, x11
    .word 0x10012303  # lw x6, 256(x2)
    .word 0x006702b3  # add x5, x14, x6
    .word 0x00b7b333  # sltu x6, x15, x11
    .word 0x00628733  # add x14, x5, x6
    .word 0x1c012583  # lw x11, 448(x2)
    .word 0x00b787b3  # add x15, x15, x11
    .word 0x18012303  # lw x6, 384(x2)
    .word 0x006702b3  # add x5, x14, x6
    .word 0x00b7b333  # sltu x6, x15, x11
    .word 0x00628733  # add x14, x5, x6
    .word 0x00fb0b33  # add x22, x22, x15
    .word 0x00e402b3  # add x5, x8, x14
    .word 0x00fb3333  # sltu x6, x22, x15
    .word 0x00628433  # add x8, x5, x6
    .word 0x01c8d293  # srli x5, x17, 28
    .word 0x00481313  # slli x6, x16, 4
    .word 0x0062c2b3  # xor x5, x5, x6
    .word 0x00285313  # srli x6, x16, 2
    .word 0x0062c2b3  # xor x5, x5, x6
    .word 0x01e89313  # slli x6, x17, 30
    .word 0x0062c2b3  # xor x5, x5, x6
    .word 0x00785313  # srli x6, x16, 7
    .word 0x0062c2b3  # xor x5, x5, x6
    .word 0x01989313  # slli x6, x17, 25
    .word 0x0062c5b3  # xor x11, x5, x6
    .word 0x00b787b3  # add x15, x15, x11
    .word 0x01c85293  # srli x5, x16, 28
    .word 0x00489313  # slli x6, x17, 4
    .word 0x0062c2b3  # xor x5, x5, x6
    .word 0x0028d313  # srli x6, x17, 2
    .word 0x0062c2b3  # xor x5, x5, x6
    .word 0x01e81313  # slli x6, x16, 30
    .word 0x0062c2b3  # xor x5, x5, x6
    .word 0x0078d313  # srli x6, x17, 7
    .word 0x0062c2b3  # xor x5, x5, x6
    .word 0x01981313  # slli x6, x16, 25
    .word 0x0062c2b3  # xor x5, x5, x6
    .word 0x00e282b3  # add x5, x5, x14
    .word 0x00b7b333  # sltu x6, x15, x11
    .word 0x00628733  # add x14, x5, x6
    .word 0x0138c5b3  # xor x11, x17, x19
    .word 0x00b6f2b3  # and x5, x13, x11
    .word 0x0132c6b3  # xor x13, x5, x19
    .word 0x00d787b3  # add x15, x15, x13
    .word 0x01284533  # xor x10, x16, x18
    .word 0x00a672b3  # and x5, x12, x10
    .word 0x0122c633  # xor x12, x5, x18
    .word 0x00c702b3  # add x5, x14, x12
    .word 0x00d7b333  # sltu x6, x15, x13
    .word 0x00628733  # add x14, x5, x6
    .word 0x00eb5293  # srli x5, x22, 14
    .word 0x01241313  # slli x6, x8, 18
    .word 0x0062c2b3  # xor x5, x5, x6
    .word 0x012b5313  # srli x6, x22, 18
    .word 0x0062c2b3  # xor x5, x5, x6
    .word 0x00e41313  # slli x6, x8, 14
    .word 0x0062c2b3  # xor x5, x5, x6
    .word 0x00945313  # srli x6, x8, 9
    .word 0x0062c2b3  # xor x5, x5, x6
    .word 0x017b1313  # slli x6, x22, 23
    .word 0x0062c6b3  # xor x13, x5, x6
    .word 0x00dd8db3  # add x27, x27, x13
    .word 0x00e45293  # srli x5, x8, 14
    .word 0x012b1313  # slli x6, x22, 18
    .word 0x0062c2b3  # xor x5, x5, x6
    .word 0x01245313  # srli x6, x8, 18
    .word 0x0062c2b3  # xor x5, x5, x6
    .word 0x00eb1313  # slli x6, x22, 14
    .word 0x0062c2b3  # xor x5, x5, x6
    .word 0x009b5313  # srli x6, x22, 9
    .word 0x0062c2b3  # xor x5, x5, x6
    .word 0x01741313  # slli x6, x8, 23
    .word 0x0062c2b3  # xor x5, x5, x6
    .word 0x01a282b3  # add x5, x5, x26
    .word 0x00ddb333  # sltu x6, x27, x13
    .word 0x00628d33  # add x26, x5, x6
    .word 0x019bc2b3  # xor x5, x23, x25
    .word 0x0162f2b3  # and x5, x5, x22
    .word 0x0192c6b3  # xor x13, x5, x25
    .word 0x00dd8db3  # add x27, x27, x13
    .word 0x0184c2b3  # xor x5, x9, x24
    .word 0x0082f2b3  # and x5, x5, x8
    .word 0x0182c2b3  # xor x5, x5, x24
    .word 0x01a282b3  # add x5, x5, x26
    .word 0x00ddb333  # sltu x6, x27, x13
    .word 0x00628d33  # add x26, x5, x6
    .word 0x14412683  # lw x13, 324(x2)
    .word 0x00dd8db3  # add x27, x27, x13
    .word 0x10412303  # lw x6, 260(x2)
    .word 0x006d02b3  # add x5, x26, x6
    .word 0x00ddb333  # sltu x6, x27, x13
    .word 0x00628d33  # add x26, x5, x6
    .word 0x1c412683  # lw x13, 452(x2)
    .word 0x00dd8db3  # add x27, x27, x13
    .word 0x18412303  # lw x6, 388(x2)
    .word 0x006d02b3  # add x5, x26, x6
    .word 0x00ddb333  # sltu x6, x27, x13
    .word 0x00628d33  # add x26, x5, x6
    .word 0x01ba8ab3  # add x21, x21, x27
    .word 0x01aa02b3  # add x5, x20, x26
    .word 0x01bab333  # sltu x6, x21, x27
    .word 0x00628a33  # add x20, x5, x6
    .word 0x01c7d293  # srli x5, x15, 28
    .word 0x00471313  # slli x6, x14, 4
    .word 0x0062c2b3  # xor x5, x5, x6
    .word 0x00275313  # srli x6, x14, 2
    .word 0x0062c2b3  # xor x5, x5, x6
    .word 0x01e79313  # slli x6, x15, 30
    .word 0x0062c2b3  # xor x5, x5, x6
    .word 0x00775313  # srli x6, x14, 7
    .word 0x0062c2b3  # xor x5, x5, x6
    .word 0x01979313  # slli x6, x15, 25
    .word 0x0062c6b3  # xor x13, x5, x6
    .word 0x00dd8db3  # add x27, x27, x13
    .word 0x01c75293  # srli x5, x14, 28
    .word 0x00479313  # slli x6, x15, 4
    .word 0x0062c2b3  # xor x5, x5, x6
    .word 0x0027d313  # srli x6, x15, 2
    .word 0x0062c2b3  # xor x5, x5, x6
    .word 0x01e71313  # slli x6, x14, 30
    .word 0x0062c2b3  # xor x5, x5, x6
    .word 0x0077d313  # srli x6, x15, 7
    .word 0x0062c2b3  # xor x5, x5, x6
    .word 0x01971313  # slli x6, x14, 25
    .word 0x0062c2b3  # xor x5, x5, x6
    .word 0x01a282b3  # add x5, x5, x26
    .word 0x00ddb333  # sltu x6, x27, x13
    .word 0x00628d33  # add x26, x5, x6
    .word 0x0117c6b3  # xor x13, x15, x17
    .word 0x00d5f2b3  # and x5, x11, x13
    .word 0x0112c5b3  # xor x11, x5, x17
    .word 0x00bd8db3  # add x27, x27, x11
    .word 0x01074633  # xor x12, x14, x16
    .word 0x00c572b3  # and x5, x10, x12
    .word 0x0102c533  # xor x10, x5, x16
    .word 0x00ad02b3  # add x5, x26, x10
    .word 0x00bdb333  # sltu x6, x27, x11
    .word 0x00628d33  # add x26, x5, x6
    .word 0x00ead293  # srli x5, x21, 14
    .word 0x012a1313  # slli x6, x20, 18
    .word 0x0062c2b3  # xor x5, x5, x6
    .word 0x012ad313  # srli x6, x21, 18
    .word 0x0062c2b3  # xor x5, x5, x6
    .word 0x00ea1313  # slli x6, x20, 14
    .word 0x0062c2b3  # xor x5, x5, x6
    .word 0x009a5313  # srli x6, x20, 9
    .word 0x0062c2b3  # xor x5, x5, x6
    .word 0x017a9313  # slli x6, x21, 23
    .word 0x0062c5b3  # xor x11, x5, x6
    .word 0x00bc8cb3  # add x25, x25, x11
    .word 0x00ea5293  # srli x5, x20, 14
    .word 0x012a9313  # slli x6, x21, 18
    .word 0x0062c2b3  # xor x5, x5, x6
    .word 0x012a5313  # srli x6, x20, 18
    .word 0x0062c2b3  # xor x5, x5, x6
    .word 0x00ea9313  # slli x6, x21, 14
    .word 0x0062c2b3  # xor x5, x5, x6
    .word 0x009ad313  # srli x6, x21, 9
    .word 0x0062c2b3  # xor x5, x5, x6
    .word 0x017a1313  # slli x6, x20, 23
    .word 0x0062c2b3  # xor x5, x5, x6
    .word 0x018282b3  # add x5, x5, x24
    .word 0x00bcb333  # sltu x6, x25, x11
    .word 0x00628c33  # add x24, x5, x6
    .word 0x017b42b3  # xor x5, x22, x23
    .word 0x0152f2b3  # and x5, x5, x21
    .word 0x0172c5b3  # xor x11, x5, x23
    .word 0x00bc8cb3  # add x25, x25, x11
    .word 0x009442b3  # xor x5, x8, x9
    .word 0x0142f2b3  # and x5, x5, x20
    .word 0x0092c2b3  # xor x5, x5, x9
    .word 0x018282b3  # add x5, x5, x24
    .word 0x00bcb333  # sltu x6, x25, x11
    .word 0x00628c33  # add x24, x5, x6
    .word 0x14812583  # lw x11, 328(x2)
    .word 0x00bc8cb3  # add x25, x25, x11
    .word 0x10812303  # lw x6, 264(x2)
    .word 0x006c02b3  # add x5, x24, x6
    .word 0x00bcb333  # sltu x6, x25, x11
    .word 0x00628c33  # add x24, x5, x6
    .word 0x1c812583  # lw x11, 456(x2)
    .word 0x00bc8cb3  # add x25, x25, x11
    .word 0x18812303  # lw x6, 392(x2)
    .word 0x006c02b3  # add x5, x24, x6
    .word 0x00bcb333  # sltu x6, x25, x11
    .word 0x00628c33  # add x24, x5, x6
    .word 0x019989b3  # add x19, x19, x25
    .word 0x018902b3  # add x5, x18, x24
    .word 0x0199b333  # sltu x6, x19, x25
    .word 0x00628933  # add x18, x5, x6
    .word 0x01cdd293  # srli x5, x27, 28
    .word 0x004d1313  # slli x6, x26, 4
    .word 0x0062c2b3  # xor x5, x5, x6
    .word 0x002d5313  # srli x6, x26, 2
    .word 0x0062c2b3  # xor x5, x5, x6
    .word 0x01ed9313  # slli x6, x27, 30
    .word 0x0062c2b3  # xor x5, x5, x6
    .word 0x007d5313  # srli x6, x26, 7
    .word 0x0062c2b3  # xor x5, x5, x6
    .word 0x019d9313  # slli x6, x27, 25
    .word 0x0062c5b3  # xor x11, x5, x6
    .word 0x00bc8cb3  # add x25, x25, x11
    .word 0x01cd5293  # srli x5, x26, 28
    .word 0x004d9313  # slli x6, x27, 4
    .word 0x0062c2b3  # xor x5, x5, x6
    .word 0x002dd313  # srli x6, x27, 2
    .word 0x0062c2b3  # xor x5, x5, x6
    .word 0x01ed1313  # slli x6, x26, 30
    .word 0x0062c2b3  # xor x5, x5, x6
    .word 0x007dd313  # srli x6, x27, 7
    .word 0x0062c2b3  # xor x5, x5, x6
    .word 0x019d1313  # slli x6, x26, 25
    .word 0x0062c2b3  # xor x5, x5, x6
    .word 0x018282b3  # add x5, x5, x24
    .word 0x00bcb333  # sltu x6, x25, x11
    .word 0x00628c33  # add x24, x5, x6
    .word 0x00fdc5b3  # xor x11, x27, x15
    .word 0x00b6f2b3  # and x5, x13, x11
    .word 0x00f2c6b3  # xor x13, x5, x15
    .word 0x00dc8cb3  # add x25, x25, x13
    .word 0x00ed4533  # xor x10, x26, x14
    .word 0x00a672b3  # and x5, x12, x10
    .word 0x00e2c633  # xor x12, x5, x14
    .word 0x00cc02b3  # add x5, x24, x12
    .word 0x00dcb333  # sltu x6, x25, x13
    .word 0x00628c33  # add x24, x5, x6
    .word 0x00e9d293  # srli x5, x19, 14
    .word 0x01291313  # slli x6, x18, 18
    .word 0x0062c2b3  # xor x5, x5, x6
    .word 0x0129d313  # srli x6, x19, 18
    .word 0x0062c2b3  # xor x5, x5, x6
    .word 0x00e91313  # slli x6, x18, 14
    .word 0x0062c2b3  # xor x5, x5, x6
    .word 0x00995313  # srli x6, x18, 9
    .word 0x0062c2b3  # xor x5, x5, x6
    .word 0x01799313  # slli x6, x19, 23
    .word 0x0062c6b3  # xor x13, x5, x6
    .word 0x00db8bb3  # add x23, x23, x13
    .word 0x00e95293  # srli x5, x18, 14
    .word 0x01299313  # slli x6, x19, 18
    .word 0x0062c2b3  # xor x5, x5, x6
    .word 0x01295313  # srli x6, x18, 18
    .word 0x0062c2b3  # xor x5, x5, x6
    .word 0x00e99313  # slli x6, x19, 14
    .word 0x0062c2b3  # xor x5, x5, x6
    .word 0x0099d313  # srli x6, x19, 9
    .word 0x0062c2b3  # xor x5, x5, x6
    .word 0x01791313  # slli x6, x18, 23
    .word 0x0062c2b3  # xor x5, x5, x6
    .word 0x009282b3  # add x5, x5, x9
    .word 0x00dbb333  # sltu x6, x23, x13
    .word 0x006284b3  # add x9, x5, x6
    .word 0x016ac2b3  # xor x5, x21, x22
    .word 0x0132f2b3  # and x5, x5, x19
    .word 0x0162c6b3  # xor x13, x5, x22
    .word 0x00db8bb3  # add x23, x23, x13
    .word 0x008a42b3  # xor x5, x20, x8
    .word 0x0122f2b3  # and x5, x5, x18
    .word 0x0082c2b3  # xor x5, x5, x8
    .word 0x009282b3  # add x5, x5, x9
    .word 0x00dbb333  # sltu x6, x23, x13
    .word 0x006284b3  # add x9, x5, x6
    .word 0x14c12683  # lw x13, 332(x2)
    .word 0x00db8bb3  # add x23, x23, x13
    .word 0x10c12303  # lw x6, 268(x2)
    .word 0x006482b3  # add x5, x9, x6
    .word 0x00dbb333  # sltu x6, x23, x13
    .word 0x006284b3  # add x9, x5, x6
    .word 0x1cc12683  # lw x13, 460(x2)
    .word 0x00db8bb3  # add x23, x23, x13
    .word 0x18c12303  # lw x6, 396(x2)
    .word 0x006482b3  # add x5, x9, x6
    .word 0x00dbb333  # sltu x6, x23, x13
    .word 0x006284b3  # add x9, x5, x6
    .word 0x017888b3  # add x17, x17, x23
    .word 0x009802b3  # add x5, x16, x9
    .word 0x0178b333  # sltu x6, x17, x23
    .word 0x00628833  # add x16, x5, x6
    .word 0x01ccd293  # srli x5, x25, 28
    .word 0x004c1313  # slli x6, x24, 4
    .word 0x0062c2b3  # xor x5, x5, x6
    .word 0x002c5313  # srli x6, x24, 2
    .word 0x0062c2b3  # xor x5, x5, x6
    .word 0x01ec9313  # slli x6, x25, 30
    .word 0x0062c2b3  # xor x5, x5, x6
    .word 0x007c5313  # srli x6, x24, 7
    .word 0x0062c2b3  # xor x5, x5, x6
    .word 0x019c9313  # slli x6, x25, 25
    .word 0x0062c6b3  # xor x13, x5, x6
    .word 0x00db8bb3  # add x23, x23, x13
    .word 0x01cc5293  # srli x5, x24, 28
    .word 0x004c9313  # slli x6, x25, 4
    .word 0x0062c2b3  # xor x5, x5, x6
    .word 0x002cd313  # srli x6, x25, 2
    .word 0x0062c2b3  # xor x5, x5, x6
    .word 0x01ec1313  # slli x6, x24, 30
    .word 0x0062c2b3  # xor x5, x5, x6
    .word 0x007cd313  # srli x6, x25, 7
    .word 0x0062c2b3  # xor x5, x5, x6
    .word 0x019c1313  # slli x6, x24, 25
    .word 0x0062c2b3  # xor x5, x5, x6
    .word 0x009282b3  # add x5, x5, x9
    .word 0x00dbb333  # sltu x6, x23, x13
    .word 0x006284b3  # add x9, x5, x6
    .word 0x01bcc6b3  # xor x13, x25, x27
    .word 0x00d5f2b3  # and x5, x11, x13
    .word 0x01b2c5b3  # xor x11, x5, x27
    .word 0x00bb8bb3  # add x23, x23, x11
    .word 0x01ac4633  # xor x12, x24, x26
    .word 0x00c572b3  # and x5, x10, x12
    .word 0x01a2c533  # xor x10, x5, x26
    .word 0x00a482b3  # add x5, x9, x10
    .word 0x00bbb333  # sltu x6, x23, x11
    .word 0x006284b3  # add x9, x5, x6
    .word 0x00e8d293  # srli x5, x17, 14
    .word 0x01281313  # slli x6, x16, 18
    .word 0x0062c2b3  # xor x5, x5, x6
    .word 0x0128d313  # srli x6, x17, 18
    .word 0x0062c2b3  # xor x5, x5, x6
    .word 0x00e81313  # slli x6, x16, 14
    .word 0x0062c2b3  # xor x5, x5, x6
    .word 0x00985313  # srli x6, x16, 9
    .word 0x0062c2b3  # xor x5, x5, x6
    .word 0x01789313  # slli x6, x17, 23
    .word 0x0062c5b3  # xor x11, x5, x6
    .word 0x00bb0b33  # add x22, x22, x11
    .word 0x00e85293  # srli x5, x16, 14
    .word 0x01289313  # slli x6, x17, 18
    .word 0x0062c2b3  # xor x5, x5, x6
    .word 0x01285313  # srli x6, x16, 18
    .word 0x0062c2b3  # xor x5, x5, x6
    .word 0x00e89313  # slli x6, x17, 14
    .word 0x0062c2b3  # xor x5, x5, x6
    .word 0x0098d313  # srli x6, x17, 9
    .word 0x0062c2b3  # xor x5, x5, x6
    .word 0x01781313  # slli x6, x16, 23
    .word 0x0062c2b3  # xor x5, x5, x6
    .word 0x008282b3  # add x5, x5, x8
    .word 0x00bb3333  # sltu x6, x22, x11
    .word 0x00628433  # add x8, x5, x6
    .word 0x0159c2b3  # xor x5, x19, x21
    .word 0x0112f2b3  # and x5, x5, x17
    .word 0x0152c5b3  # xor x11, x5, x21
    .word 0x00bb0b33  # add x22, x22, x11
    .word 0x014942b3  # xor x5, x18, x20
    .word 0x0102f2b3  # and x5, x5, x16
    .word 0x0142c2b3  # xor x5, x5, x20
    .word 0x008282b3  # add x5, x5, x8
    .word 0x00bb3333  # sltu x6, x22, x11
    .word 0x00628433  # add x8, x5, x6
    .word 0x15012583  # lw x11, 336(x2)
    .word 0x00bb0b33  # add x22, x22, x11
    .word 0x11012303  # lw x6, 272(x2)
    .word 0x006402b3  # add x5, x8, x6
    .word 0x00bb3333  # sltu x6, x22, x11
    .word 0x00628433  # add x8, x5, x6
    .word 0x1d012583  # lw x11, 464(x2)
    .word 0x00bb0b33  # add x22, x22, x11
    .word 0x19012303  # lw x6, 400(x2)
    .word 0x006402b3  # add x5, x8, x6
    .word 0x00bb3333  # sltu x6, x22, x11
    .word 0x00628433  # add x8, x5, x6
    .word 0x016787b3  # add x15, x15, x22
    .word 0x008702b3  # add x5, x14, x8
    .word 0x0167b333  # sltu x6, x15, x22
    .word 0x00628733  # add x14, x5, x6
    .word 0x01cbd293  # srli x5, x23, 28
    .word 0x00449313  # slli x6, x9, 4
    .word 0x0062c2b3  # xor x5, x5, x6
    .word 0x0024d313  # srli x6, x9, 2
    .word 0x0062c2b3  # xor x5, x5, x6
    .word 0x01eb9313  # slli x6, x23, 30
    .word 0x0062c2b3  # xor x5, x5, x6
    .word 0x0074d313  # srli x6, x9, 7
    .word 0x0062c2b3  # xor x5, x5, x6
    .word 0x019b9313  # slli x6, x23, 25
    .word 0x0062c5b3  # xor x11, x5, x6
    .word 0x00bb0b33  # add x22, x22, x11
    .word 0x01c4d293  # srli x5, x9, 28
    .word 0x004b9313  # slli x6, x23, 4
    .word 0x0062c2b3  # xor x5, x5, x6
    .word 0x002bd313  # srli x6, x23, 2
    .word 0x0062c2b3  # xor x5, x5, x6
    .word 0x01e49313  # slli x6, x9, 30
    .word 0x0062c2b3  # xor x5, x5, x6
    .word 0x007bd313  # srli x6, x23, 7
    .word 0x0062c2b3  # xor x5, x5, x6
    .word 0x01949313  # slli x6, x9, 25
    .word 0x0062c2b3  # xor x5, x5, x6
    .word 0x008282b3  # add x5, x5, x8
    .word 0x00bb3333  # sltu x6, x22, x11
    .word 0x00628433  # add x8, x5, x6
    .word 0x019bc5b3  # xor x11, x23, x25
    .word 0x00b6f2b3  # and x5, x13, x11
    .word 0x0192c6b3  # xor x13, x5, x25
    .word 0x00db0b33  # add x22, x22, x13
    .word 0x0184c533  # xor x10, x9, x24
    .word 0x00a672b3  # and x5, x12, x10
    .word 0x0182c633  # xor x12, x5, x24
    .word 0x00c402b3  # add x5, x8, x12
    .word 0x00db3333  # sltu x6, x22, x13
    .word 0x00628433  # add x8, x5, x6
    .word 0x00e7d293  # srli x5, x15, 14
    .word 0x01271313  # slli x6, x14, 18
    .word 0x0062c2b3  # xor x5, x5, x6
    .word 0x0127d313  # srli x6, x15, 18
    .word 0x0062c2b3  # xor x5, x5, x6
    .word 0x00e71313  # slli x6, x14, 14
    .word 0x0062c2b3  # xor x5, x5, x6
    .word 0x00975313  # srli x6, x14, 9
    .word 0x0062c2b3  # xor x5, x5, x6
    .word 0x01779313  # slli x6, x15, 23
    .word 0x0062c6b3  # xor x13, x5, x6
    .word 0x00da8ab3  # add x21, x21, x13
    .word 0x00e75293  # srli x5, x14, 14
    .word 0x01279313  # slli x6, x15, 18
    .word 0x0062c2b3  # xor x5, x5, x6
    .word 0x01275313  # srli x6, x14, 18
    .word 0x0062c2b3  # xor x5, x5, x6
    .word 0x00e79313  # slli x6, x15, 14
    .word 0x0062c2b3  # xor x5, x5, x6
    .word 0x0097d313  # srli x6, x15, 9
    .word 0x0062c2b3  # xor x5, x5, x6
    .word 0x01771313  # slli x6, x14, 23
    .word 0x0062c2b3  # xor x5, x5, x6
    .word 0x014282b3  # add x5, x5, x20
    .word 0x00dab333  # sltu x6, x21, x13
    .word 0x00628a33  # add x20, x5, x6
    .word 0x0138c2b3  # xor x5, x17, x19
    .word 0x00f2f2b3  # and x5, x5, x15
    .word 0x0132c6b3  # xor x13, x5, x19
    .word 0x00da8ab3  # add x21, x21, x13
    .word 0x012842b3  # xor x5, x16, x18
    .word 0x00e2f2b3  # and x5, x5, x14
    .word 0x0122c2b3  # xor x5, x5, x18
    .word 0x014282b3  # add x5, x5, x20
    .word 0x00dab333  # sltu x6, x21, x13
    .word 0x00628a33  # add x20, x5, x6
    .word 0x15412683  # lw x13, 340(x2)
    .word 0x00da8ab3  # add x21, x21, x13
    .word 0x11412303  # lw x6, 276(x2)
    .word 0x006a02b3  # add x5, x20, x6
    .word 0x00dab333  # sltu x6, x21, x13
    .word 0x00628a33  # add x20, x5, x6
    .word 0x1d412683  # lw x13, 468(x2)
    .word 0x00da8ab3  # add x21, x21, x13
    .word 0x19412303  # lw x6, 404(x2)
    .word 0x006a02b3  # add x5, x20, x6
    .word 0x00dab333  # sltu x6, x21, x13
    .word 0x00628a33  # add x20, x5, x6
    .word 0x015d8db3  # add x27, x27, x21
    .word 0x014d02b3  # add x5, x26, x20
    .word 0x015db333  # sltu x6, x27, x21
    .word 0x00628d33  # add x26, x5, x6
    .word 0x01cb5293  # srli x5, x22, 28
    .word 0x00441313  # slli x6, x8, 4
    .word 0x0062c2b3  # xor x5, x5, x6
    .word 0x00245313  # srli x6, x8, 2
    .word 0x0062c2b3  # xor x5, x5, x6
    .word 0x01eb1313  # slli x6, x22, 30
    .word 0x0062c2b3  # xor x5, x5, x6
    .word 0x00745313  # srli x6, x8, 7
    .word 0x0062c2b3  # xor x5, x5, x6
    .word 0x019b1313  # slli x6, x22, 25
    .word 0x0062c6b3  # xor x13, x5, x6
    .word 0x00da8ab3  # add x21, x21, x13
    .word 0x01c45293  # srli x5, x8, 28
    .word 0x004b1313  # slli x6, x22, 4
    .word 0x0062c2b3  # xor x5, x5, x6
    .word 0x002b5313  # srli x6, x22, 2
    .word 0x0062c2b3  # xor x5, x5, x6
    .word 0x01e41313  # slli x6, x8, 30
    .word 0x0062c2b3  # xor x5, x5, x6
    .word 0x007b5313  # srli x6, x22, 7
    .word 0x0062c2b3  # xor x5, x5, x6
    .word 0x01941313  # slli x6, x8, 25
    .word 0x0062c2b3  # xor x5, x5, x6
    .word 0x014282b3  # add x5, x5, x20
    .word 0x00dab333  # sltu x6, x21, x13
    .word 0x00628a33  # add x20, x5, x6
    .word 0x017b46b3  # xor x13, x22, x23
    .word 0x00d5f2b3  # and x5, x11, x13
    .word 0x0172c5b3  # xor x11, x5, x23
    .word 0x00ba8ab3  # add x21, x21, x11
    .word 0x00944633  # xor x12, x8, x9
    .word 0x00c572b3  # and x5, x10, x12
    .word 0x0092c533  # xor x10, x5, x9
    .word 0x00aa02b3  # add x5, x20, x10
    .word 0x00bab333  # sltu x6, x21, x11
    .word 0x00628a33  # add x20, x5, x6
    .word 0x00edd293  # srli x5, x27, 14
    .word 0x012d1313  # slli x6, x26, 18
    .word 0x0062c2b3  # xor x5, x5, x6
    .word 0x012dd313  # srli x6, x27, 18
    .word 0x0062c2b3  # xor x5, x5, x6
    .word 0x00ed1313  # slli x6, x26, 14
    .word 0x0062c2b3  # xor x5, x5, x6
    .word 0x009d5313  # srli x6, x26, 9
    .word 0x0062c2b3  # xor x5, x5, x6
    .word 0x017d9313  # slli x6, x27, 23
    .word 0x0062c5b3  # xor x11, x5, x6
    .word 0x00b989b3  # add x19, x19, x11
    .word 0x00ed5293  # srli x5, x26, 14
    .word 0x012d9313  # slli x6, x27, 18
    .word 0x0062c2b3  # xor x5, x5, x6
    .word 0x012d5313  # srli x6, x26, 18
    .word 0x0062c2b3  # xor x5, x5, x6
    .word 0x00ed9313  # slli x6, x27, 14
    .word 0x0062c2b3  # xor x5, x5, x6
    .word 0x009dd313  # srli x6, x27, 9
    .word 0x0062c2b3  # xor x5, x5, x6
    .word 0x017d1313  # slli x6, x26, 23
    .word 0x0062c2b3  # xor x5, x5, x6
    .word 0x012282b3  # add x5, x5, x18
    .word 0x00b9b333  # sltu x6, x19, x11
    .word 0x00628933  # add x18, x5, x6
    .word 0x0117c2b3  # xor x5, x15, x17
    .word 0x01b2f2b3  # and x5, x5, x27
    .word 0x0112c5b3  # xor x11, x5, x17
    .word 0x00b989b3  # add x19, x19, x11
    .word 0x010742b3  # xor x5, x14, x16
    .word 0x01a2f2b3  # and x5, x5, x26
    .word 0x0102c2b3  # xor x5, x5, x16
    .word 0x012282b3  # add x5, x5, x18
    .word 0x00b9b333  # sltu x6, x19, x11
    .word 0x00628933  # add x18, x5, x6
    .word 0x15812583  # lw x11, 344(x2)
    .word 0x00b989b3  # add x19, x19, x11
    .word 0x11812303  # lw x6, 280(x2)
    .word 0x006902b3  # add x5, x18, x6
    .word 0x00b9b333  # sltu x6, x19, x11
    .word 0x00628933  # add x18, x5, x6
    .word 0x1d812583  # lw x11, 472(x2)
    .word 0x00b989b3  # add x19, x19, x11
    .word 0x19812303  # lw x6, 408(x2)
    .word 0x006902b3  # add x5, x18, x6
    .word 0x00b9b333  # sltu x6, x19, x11
    .word 0x00628933  # add x18, x5, x6
    .word 0x013c8cb3  # add x25, x25, x19
    .word 0x012c02b3  # add x5, x24, x18
    .word 0x013cb333  # sltu x6, x25, x19
    .word 0x00628c33  # add x24, x5, x6
    .word 0x01cad293  # srli x5, x21, 28
    .word 0x004a1313  # slli x6, x20, 4
    .word 0x0062c2b3  # xor x5, x5, x6
    .word 0x002a5313  # srli x6, x20, 2
    .word 0x0062c2b3  # xor x5, x5, x6
    .word 0x01ea9313  # slli x6, x21, 30
    .word 0x0062c2b3  # xor x5, x5, x6
    .word 0x007a5313  # srli x6, x20, 7
    .word 0x0062c2b3  # xor x5, x5, x6
    .word 0x019a9313  # slli x6, x21, 25
    .word 0x0062c5b3  # xor x11, x5, x6
    .word 0x00b989b3  # add x19, x19, x11
    .word 0x01ca5293  # srli x5, x20, 28
    .word 0x004a9313  # slli x6, x21, 4
    .word 0x0062c2b3  # xor x5, x5, x6
    .word 0x002ad313  # srli x6, x21, 2
    .word 0x0062c2b3  # xor x5, x5, x6
    .word 0x01ea1313  # slli x6, x20, 30
    .word 0x0062c2b3  # xor x5, x5, x6
    .word 0x007ad313  # srli x6, x21, 7
    .word 0x0062c2b3  # xor x5, x5, x6
    .word 0x019a1313  # slli x6, x20, 25
    .word 0x0062c2b3  # xor x5, x5, x6
    .word 0x012282b3  # add x5, x5, x18
    .word 0x00b9b333  # sltu x6, x19, x11
    .word 0x00628933  # add x18, x5, x6
    .word 0x016ac5b3  # xor x11, x21, x22
    .word 0x00b6f2b3  # and x5, x13, x11
    .word 0x0162c6b3  # xor x13, x5, x22
    .word 0x00d989b3  # add x19, x19, x13
    .word 0x008a4533  # xor x10, x20, x8
    .word 0x00a672b3  # and x5, x12, x10
    .word 0x0082c633  # xor x12, x5, x8
    .word 0x00c902b3  # add x5, x18, x12
    .word 0x00d9b333  # sltu x6, x19, x13
    .word 0x00628933  # add x18, x5, x6
    .word 0x00ecd293  # srli x5, x25, 14
    .word 0x012c1313  # slli x6, x24, 18
    .word 0x0062c2b3  # xor x5, x5, x6
    .word 0x012cd313  # srli x6, x25, 18
    .word 0x0062c2b3  # xor x5, x5, x6
    .word 0x00ec1313  # slli x6, x24, 14
    .word 0x0062c2b3  # xor x5, x5, x6
    .word 0x009c5313  # srli x6, x24, 9
    .word 0x0062c2b3  # xor x5, x5, x6
    .word 0x017c9313  # slli x6, x25, 23
    .word 0x0062c6b3  # xor x13, x5, x6
    .word 0x00d888b3  # add x17, x17, x13
    .word 0x00ec5293  # srli x5, x24, 14
    .word 0x012c9313  # slli x6, x25, 18
    .word 0x0062c2b3  # xor x5, x5, x6
    .word 0x012c5313  # srli x6, x24, 18
    .word 0x0062c2b3  # xor x5, x5, x6
    .word 0x00ec9313  # slli x6, x25, 14
    .word 0x0062c2b3  # xor x5, x5, x6
    .word 0x009cd313  # srli x6, x25, 9
    .word 0x0062c2b3  # xor x5, x5, x6
    .word 0x017c1313  # slli x6, x24, 23
    .word 0x0062c2b3  # xor x5, x5, x6
    .word 0x010282b3  # add x5, x5, x16
    .word 0x00d8b333  # sltu x6, x17, x13
    .word 0x00628833  # add x16, x5, x6
    .word 0x00fdc2b3  # xor x5, x27, x15
    .word 0x0192f2b3  # and x5, x5, x25
    .word 0x00f2c6b3  # xor x13, x5, x15
    .word 0x00d888b3  # add x17, x17, x13
    .word 0x00ed42b3  # xor x5, x26, x14
    .word 0x0182f2b3  # and x5, x5, x24
    .word 0x00e2c2b3  # xor x5, x5, x14
    .word 0x010282b3  # add x5, x5, x16
    .word 0x00d8b333  # sltu x6, x17, x13
    .word 0x00628833  # add x16, x5, x6
    .word 0x15c12683  # lw x13, 348(x2)
    .word 0x00d888b3  # add x17, x17, x13
    .word 0x11c12303  # lw x6, 284(x2)
    .word 0x006802b3  # add x5, x16, x6
    .word 0x00d8b333  # sltu x6, x17, x13
    .word 0x00628833  # add x16, x5, x6
    .word 0x1dc12683  # lw x13, 476(x2)
    .word 0x00d888b3  # add x17, x17, x13
    .word 0x19c12303  # lw x6, 412(x2)
    .word 0x006802b3  # add x5, x16, x6
    .word 0x00d8b333  # sltu x6, x17, x13
    .word 0x00628833  # add x16, x5, x6
    .word 0x011b8bb3  # add x23, x23, x17
    .word 0x010482b3  # add x5, x9, x16
    .word 0x011bb333  # sltu x6, x23, x17
    .word 0x006284b3  # add x9, x5, x6
    .word 0x01c9d293  # srli x5, x19, 28
    .word 0x00491313  # slli x6, x18, 4
    .word 0x0062c2b3  # xor x5, x5, x6
    .word 0x00295313  # srli x6, x18, 2
    .word 0x0062c2b3  # xor x5, x5, x6
    .word 0x01e99313  # slli x6, x19, 30
    .word 0x0062c2b3  # xor x5, x5, x6
    .word 0x00795313  # srli x6, x18, 7
    .word 0x0062c2b3  # xor x5, x5, x6
    .word 0x01999313  # slli x6, x19, 25
    .word 0x0062c6b3  # xor x13, x5, x6
    .word 0x00d888b3  # add x17, x17, x13
    .word 0x01c95293  # srli x5, x18, 28
    .word 0x00499313  # slli x6, x19, 4
    .word 0x0062c2b3  # xor x5, x5, x6
    .word 0x0029d313  # srli x6, x19, 2
    .word 0x0062c2b3  # xor x5, x5, x6
    .word 0x01e91313  # slli x6, x18, 30
    .word 0x0062c2b3  # xor x5, x5, x6
    .word 0x0079d313  # srli x6, x19, 7
    .word 0x0062c2b3  # xor x5, x5, x6
    .word 0x01991313  # slli x6, x18, 25
    .word 0x0062c2b3  # xor x5, x5, x6
    .word 0x010282b3  # add x5, x5, x16
    .word 0x00d8b333  # sltu x6, x17, x13
    .word 0x00628833  # add x16, x5, x6
    .word 0x0159c6b3  # xor x13, x19, x21
    .word 0x00d5f2b3  # and x5, x11, x13
    .word 0x0152c5b3  # xor x11, x5, x21
    .word 0x00b888b3  # add x17, x17, x11
    .word 0x01494633  # xor x12, x18, x20
    .word 0x00c572b3  # and x5, x10, x12
    .word 0x0142c533  # xor x10, x5, x20
    .word 0x00a802b3  # add x5, x16, x10
    .word 0x00b8b333  # sltu x6, x17, x11
    .word 0x00628833  # add x16, x5, x6
    .word 0x00ebd293  # srli x5, x23, 14
    .word 0x01249313  # slli x6, x9, 18
    .word 0x0062c2b3  # xor x5, x5, x6
    .word 0x012bd313  # srli x6, x23, 18
    .word 0x0062c2b3  # xor x5, x5, x6
    .word 0x00e49313  # slli x6, x9, 14
    .word 0x0062c2b3  # xor x5, x5, x6
    .word 0x0094d313  # srli x6, x9, 9
    .word 0x0062c2b3  # xor x5, x5, x6
    .word 0x017b9313  # slli x6, x23, 23
    .word 0x0062c5b3  # xor x11, x5, x6
    .word 0x00b787b3  # add x15, x15, x11
    .word 0x00e4d293  # srli x5, x9, 14
    .word 0x012b9313  # slli x6, x23, 18
    .word 0x0062c2b3  # xor x5, x5, x6
    .word 0x0124d313  # srli x6, x9, 18
    .word 0x0062c2b3  # xor x5, x5, x6
    .word 0x00eb9313  # slli x6, x23, 14
    .word 0x0062c2b3  # xor x5, x5, x6
    .word 0x009bd313  # srli x6, x23, 9
    .word 0x0062c2b3  # xor x5, x5, x6
    .word 0x01749313  # slli x6, x9, 23
    .word 0x0062c2b3  # xor x5, x5, x6
    .word 0x00e282b3  # add x5, x5, x14
    .word 0x00b7b333  # sltu x6, x15, x11
    .word 0x00628733  # add x14, x5, x6
    .word 0x01bcc2b3  # xor x5, x25, x27
    .word 0x0172f2b3  # and x5, x5, x23
    .word 0x01b2c5b3  # xor x11, x5, x27
    .word 0x00b787b3  # add x15, x15, x11
    .word 0x01ac42b3  # xor x5, x24, x26
    .word 0x0092f2b3  # and x5, x5, x9
    .word 0x01a2c2b3  # xor x5, x5, x26
    .word 0x00e282b3  # add x5, x5, x14
    .word 0x00b7b333  # sltu x6, x15, x11
    .word 0x00628733  # add x14, x5, x6
    .word 0x16012583  # lw x11, 352(x2)
    .word 0x00b787b3  # add x15, x15, x11
    .word 0x12012303  # lw x6, 288(x2)
    .word 0x006702b3  # add x5, x14, x6
    .word 0x00b7b333  # sltu x6, x15, x11
    .word 0x00628733  # add x14, x5, x6
    .word 0x1e012583  # lw x11, 480(x2)
    .word 0x00b787b3  # add x15, x15, x11
    .word 0x1a012303  # lw x6, 416(x2)
    .word 0x006702b3  # add x5, x14, x6
    .word 0x00b7b333  # sltu x6, x15, x11
    .word 0x00628733  # add x14, x5, x6
    .word 0x00fb0b33  # add x22, x22, x15
    .word 0x00e402b3  # add x5, x8, x14
    .word 0x00fb3333  # sltu x6, x22, x15
    .word 0x00628433  # add x8, x5, x6
    .word 0x01c8d293  # srli x5, x17, 28
    .word 0x00481313  # slli x6, x16, 4
    .word 0x0062c2b3  # xor x5, x5, x6
    .word 0x00285313  # srli x6, x16, 2
    .word 0x0062c2b3  # xor x5, x5, x6
    .word 0x01e89313  # slli x6, x17, 30
    .word 0x0062c2b3  # xor x5, x5, x6
    .word 0x00785313  # srli x6, x16, 7
    .word 0x0062c2b3  # xor x5, x5, x6
    .word 0x01989313  # slli x6, x17, 25
    .word 0x0062c5b3  # xor x11, x5, x6
    .word 0x00b787b3  # add x15, x15, x11
    .word 0x01c85293  # srli x5, x16, 28
    .word 0x00489313  # slli x6, x17, 4
    .word 0x0062c2b3  # xor x5, x5, x6
    .word 0x0028d313  # srli x6, x17, 2
    .word 0x0062c2b3  # xor x5, x5, x6
    .word 0x01e81313  # slli x6, x16, 30
    .word 0x0062c2b3  # xor x5, x5, x6
    .word 0x0078d313  # srli x6, x17, 7
    .word 0x0062c2b3  # xor x5, x5, x6
    .word 0x01981313  # slli x6, x16, 25
    .word 0x0062c2b3  # xor x5, x5, x6
    .word 0x00e282b3  # add x5, x5, x14
    .word 0x00b7b333  # sltu x6, x15, x11
    .word 0x00628733  # add x14, x5, x6
    .word 0x0138c5b3  # xor x11, x17, x19
    .word 0x00b6f2b3  # and x5, x13, x11
    .word 0x0132c6b3  # xor x13, x5, x19
    .word 0x00d787b3  # add x15, x15, x13
    .word 0x01284533  # xor x10, x16, x18
    .word 0x00a672b3  # and x5, x12, x10
    .word 0x0122c633  # xor x12, x5, x18
    .word 0x00c702b3  # add x5, x14, x12
    .word 0x00d7b333  # sltu x6, x15, x13
    .word 0x00628733  # add x14, x5, x6
    .word 0x0c012283  # lw x5, 192(x2)
    .word 0x0042b293  # sltiu x5, x5, 4
    .word 0x00029463  # bne x5, x0, 8
    .word 0x31c0106f  # jal x0, 4892
    .word 0x0c812223  # sw x8, 196(x2)
    .word 0x0d612423  # sw x22, 200(x2)
    .word 0x0c912623  # sw x9, 204(x2)
    .word 0x0d712823  # sw x23, 208(x2)
    .word 0x0d812a23  # sw x24, 212(x2)
    .word 0x0d912c23  # sw x25, 216(x2)
    .word 0x0da12e23  # sw x26, 220(x2)
    .word 0x0fb12023  # sw x27, 224(x2)
    .word 0x0e412c83  # lw x25, 228(x2)
    .word 0x12412583  # lw x11, 292(x2)
    .word 0x11c12403  # lw x8, 284(x2)
    .word 0x15c12b03  # lw x22, 348(x2)
    .word 0x12012483  # lw x9, 288(x2)
    .word 0x16012b83  # lw x23, 352(x2)
    .word 0x0e812d83  # lw x27, 232(x2)
    .word 0x12812683  # lw x13, 296(x2)
    .word 0x001dd293  # srli x5, x27, 1
    .word 0x01f69313  # slli x6, x13, 31
    .word 0x0062ed33  # or x26, x5, x6
    .word 0x0016d293  # srli x5, x13, 1
    .word 0x01fd9313  # slli x6, x27, 31
    .word 0x0062ec33  # or x24, x5, x6
    .word 0x01adc533  # xor x10, x27, x26
    .word 0x0186c633  # xor x12, x13, x24
    .word 0x00755293  # srli x5, x10, 7
    .word 0x019c1313  # slli x6, x24, 25
    .word 0x0062c2b3  # xor x5, x5, x6
    .word 0x01a2cd33  # xor x26, x5, x26
    .word 0x00765293  # srli x5, x12, 7
    .word 0x01951313  # slli x6, x10, 25
    .word 0x0062c2b3  # xor x5, x5, x6
    .word 0x0182cc33  # xor x24, x5, x24
    .word 0x018585b3  # add x11, x11, x24
    .word 0x01ac82b3  # add x5, x25, x26
    .word 0x0185b333  # sltu x6, x11, x24
    .word 0x00628cb3  # add x25, x5, x6
    .word 0x14812c03  # lw x24, 328(x2)
    .word 0x018585b3  # add x11, x11, x24
    .word 0x10812303  # lw x6, 264(x2)
    .word 0x006c82b3  # add x5, x25, x6
    .word 0x0185b333  # sltu x6, x11, x24
    .word 0x00628cb3  # add x25, x5, x6
    .word 0x013b5293  # srli x5, x22, 19
    .word 0x00d41313  # slli x6, x8, 13
    .word 0x0062c2b3  # xor x5, x5, x6
    .word 0x01d45313  # srli x6, x8, 29
    .word 0x0062c2b3  # xor x5, x5, x6
    .word 0x003b1313  # slli x6, x22, 3
    .word 0x0062c2b3  # xor x5, x5, x6
    .word 0x006b5313  # srli x6, x22, 6
    .word 0x0062c2b3  # xor x5, x5, x6
    .word 0x01a41313  # slli x6, x8, 26
    .word 0x0062cc33  # xor x24, x5, x6
    .word 0x018585b3  # add x11, x11, x24
    .word 0x01345293  # srli x5, x8, 19
    .word 0x00db1313  # slli x6, x22, 13
    .word 0x0062c2b3  # xor x5, x5, x6
    .word 0x01db5313  # srli x6, x22, 29
    .word 0x0062c2b3  # xor x5, x5, x6
    .word 0x00341313  # slli x6, x8, 3
    .word 0x0062c2b3  # xor x5, x5, x6
    .word 0x00645313  # srli x6, x8, 6
    .word 0x0062c2b3  # xor x5, x5, x6
    .word 0x019282b3  # add x5, x5, x25
    .word 0x0185b333  # sltu x6, x11, x24
    .word 0x00628cb3  # add x25, x5, x6
    .word 0x0f912223  # sw x25, 228(x2)
    .word 0x12b12223  # sw x11, 292(x2)
    .word 0x0ec12403  # lw x8, 236(x2)
    .word 0x12c12b03  # lw x22, 300(x2)
    .word 0x00145293  # srli x5, x8, 1
    .word 0x01fb1313  # slli x6, x22, 31
    .word 0x0062ed33  # or x26, x5, x6
    .word 0x001b5293  # srli x5, x22, 1
    .word 0x01f41313  # slli x6, x8, 31
    .word 0x0062ec33  # or x24, x5, x6
    .word 0x01a44533  # xor x10, x8, x26
    .word 0x018b4633  # xor x12, x22, x24
    .word 0x00755293  # srli x5, x10, 7
    .word 0x019c1313  # slli x6, x24, 25
    .word 0x0062c2b3  # xor x5, x5, x6
    .word 0x01a2cd33  # xor x26, x5, x26
    .word 0x00765293  # srli x5, x12, 7
    .word 0x01951313  # slli x6, x10, 25
    .word 0x0062c2b3  # xor x5, x5, x6
    .word 0x0182cc33  # xor x24, x5, x24
    .word 0x018686b3  # add x13, x13, x24
    .word 0x01ad82b3  # add x5, x27, x26
    .word 0x0186b333  # sltu x6, x13, x24
    .word 0x00628db3  # add x27, x5, x6
    .word 0x14c12c03  # lw x24, 332(x2)
    .word 0x018686b3  # add x13, x13, x24
    .word 0x10c12303  # lw x6, 268(x2)
    .word 0x006d82b3  # add x5, x27, x6
    .word 0x0186b333  # sltu x6, x13, x24
    .word 0x00628db3  # add x27, x5, x6
    .word 0x013bd293  # srli x5, x23, 19
    .word 0x00d49313  # slli x6, x9, 13
    .word 0x0062c2b3  # xor x5, x5, x6
    .word 0x01d4d313  # srli x6, x9, 29
    .word 0x0062c2b3  # xor x5, x5, x6
    .word 0x003b9313  # slli x6, x23, 3
    .word 0x0062c2b3  # xor x5, x5, x6
    .word 0x006bd313  # srli x6, x23, 6
    .word 0x0062c2b3  # xor x5, x5, x6
    .word 0x01a49313  # slli x6, x9, 26
    .word 0x0062cc33  # xor x24, x5, x6
    .word 0x018686b3  # add x13, x13, x24
    .word 0x0134d293  # srli x5, x9, 19
    .word 0x00db9313  # slli x6, x23, 13
    .word 0x0062c2b3  # xor x5, x5, x6
    .word 0x01dbd313  # srli x6, x23, 29
    .word 0x0062c2b3  # xor x5, x5, x6
    .word 0x00349313  # slli x6, x9, 3
    .word 0x0062c2b3  # xor x5, x5, x6
    .word 0x0064d313  # srli x6, x9, 6
    .word 0x0062c2b3  # xor x5, x5, x6
    .word 0x01b282b3  # add x5, x5, x27
    .word 0x0186b333  # sltu x6, x13, x24
    .word 0x00628db3  # add x27, x5, x6
    .word 0x0fb12423  # sw x27, 232(x2)
    .word 0x12d12423  # sw x13, 296(x2)
    .word 0x0f012483  # lw x9, 240(x2)
    .word 0x13012b83  # lw x23, 304(x2)
    .word 0x0014d293  # srli x5, x9, 1
    .word 0x01fb9313  # slli x6, x23, 31
    .word 0x0062ed33  # or x26, x5, x6
    .word 0x001bd293  # srli x5, x23, 1
    .word 0x01f49313  # slli x6, x9, 31
    .word 0x0062ec33  # or x24, x5, x6
    .word 0x01a4c533  # xor x10, x9, x26
    .word 0x018bc633  # xor x12, x23, x24
    .word 0x00755293  # srli x5, x10, 7
    .word 0x019c1313  # slli x6, x24, 25
    .word 0x0062c2b3  # xor x5, x5, x6
    .word 0x01a2cd33  # xor x26, x5, x26
    .word 0x00765293  # srli x5, x12, 7
    .word 0x01951313  # slli x6, x10, 25
    .word 0x0062c2b3  # xor x5, x5, x6
    .word 0x0182cc33  # xor x24, x5, x24
    .word 0x018b0b33  # add x22, x22, x24
    .word 0x01a402b3  # add x5, x8, x26
    .word 0x018b3333  # sltu x6, x22, x24
    .word 0x00628433  # add x8, x5, x6
    .word 0x15012c03  # lw x24, 336(x2)
    .word 0x018b0b33  # add x22, x22, x24
    .word 0x11012303  # lw x6, 272(x2)
    .word 0x006402b3  # add x5, x8, x6
    .word 0x018b3333  # sltu x6, x22, x24
    .word 0x00628433  # add x8, x5, x6
    .word 0x0135d293  # srli x5, x11, 19
    .word 0x00dc9313  # slli x6, x25, 13
    .word 0x0062c2b3  # xor x5, x5, x6
    .word 0x01dcd313  # srli x6, x25, 29
    .word 0x0062c2b3  # xor x5, x5, x6
    .word 0x00359313  # slli x6, x11, 3
    .word 0x0062c2b3  # xor x5, x5, x6
    .word 0x0065d313  # srli x6, x11, 6
    .word 0x0062c2b3  # xor x5, x5, x6
    .word 0x01ac9313  # slli x6, x25, 26
    .word 0x0062cc33  # xor x24, x5, x6
    .word 0x018b0b33  # add x22, x22, x24
    .word 0x013cd293  # srli x5, x25, 19
    .word 0x00d59313  # slli x6, x11, 13
    .word 0x0062c2b3  # xor x5, x5, x6
    .word 0x01d5d313  # srli x6, x11, 29
    .word 0x0062c2b3  # xor x5, x5, x6
    .word 0x003c9313  # slli x6, x25, 3
    .word 0x0062c2b3  # xor x5, x5, x6
    .word 0x006cd313  # srli x6, x25, 6
    .word 0x0062c2b3  # xor x5, x5, x6
    .word 0x008282b3  # add x5, x5, x8
    .word 0x018b3333  # sltu x6, x22, x24
    .word 0x00628433  # add x8, x5, x6
    .word 0x0e812623  # sw x8, 236(x2)
    .word 0x13612623  # sw x22, 300(x2)
    .word 0x0f412c83  # lw x25, 244(x2)
    .word 0x13412583  # lw x11, 308(x2)
    .word 0x001cd293  # srli x5, x25, 1
    .word 0x01f59313  # slli x6, x11, 31
    .word 0x0062ed33  # or x26, x5, x6
    .word 0x0015d293  # srli x5, x11, 1
    .word 0x01fc9313  # slli x6, x25, 31
    .word 0x0062ec33  # or x24, x5, x6
    .word 0x01acc533  # xor x10, x25, x26
    .word 0x0185c633  # xor x12, x11, x24
    .word 0x00755293  # srli x5, x10, 7
    .word 0x019c1313  # slli x6, x24, 25
    .word 0x0062c2b3  # xor x5, x5, x6
    .word 0x01a2cd33  # xor x26, x5, x26
    .word 0x00765293  # srli x5, x12, 7
    .word 0x01951313  # slli x6, x10, 25
    .word 0x0062c2b3  # xor x5, x5, x6
    .word 0x0182cc33  # xor x24, x5, x24
    .word 0x018b8bb3  # add x23, x23, x24
    .word 0x01a482b3  # add x5, x9, x26
    .word 0x018bb333  # sltu x6, x23, x24
    .word 0x006284b3  # add x9, x5, x6
    .word 0x15412c03  # lw x24, 340(x2)
    .word 0x018b8bb3  # add x23, x23, x24
    .word 0x11412303  # lw x6, 276(x2)
    .word 0x006482b3  # add x5, x9, x6
    .word 0x018bb333  # sltu x6, x23, x24
    .word 0x006284b3  # add x9, x5, x6
    .word 0x0136d293  # srli x5, x13, 19
    .word 0x00dd9313  # slli x6, x27, 13
    .word 0x0062c2b3  # xor x5, x5, x6
    .word 0x01ddd313  # srli x6, x27, 29
    .word 0x0062c2b3  # xor x5, x5, x6
    .word 0x00369313  # slli x6, x13, 3
    .word 0x0062c2b3  # xor x5, x5, x6
    .word 0x0066d313  # srli x6, x13, 6
    .word 0x0062c2b3  # xor x5, x5, x6
    .word 0x01ad9313  # slli x6, x27, 26
    .word 0x0062cc33  # xor x24, x5, x6
    .word 0x018b8bb3  # add x23, x23, x24
    .word 0x013dd293  # srli x5, x27, 19
    .word 0x00d69313  # slli x6, x13, 13
    .word 0x0062c2b3  # xor x5, x5, x6
    .word 0x01d6d313  # srli x6, x13, 29
    .word 0x0062c2b3  # xor x5, x5, x6
    .word 0x003d9313  # slli x6, x27, 3
    .word 0x0062c2b3  # xor x5, x5, x6
    .word 0x006dd313  # srli x6, x27, 6
    .word 0x0062c2b3  # xor x5, x5, x6
    .word 0x009282b3  # add x5, x5, x9
    .word 0x018bb333  # sltu x6, x23, x24
    .word 0x006284b3  # add x9, x5, x6
    .word 0x0e912823  # sw x9, 240(x2)
    .word 0x13712823  # sw x23, 304(x2)
    .word 0x0f812d83  # lw x27, 248(x2)
    .word 0x13812683  # lw x13, 312(x2)
    .word 0x001dd293  # srli x5, x27, 1
    .word 0x01f69313  # slli x6, x13, 31
    .word 0x0062ed33  # or x26, x5, x6
    .word 0x0016d293  # srli x5, x13, 1
    .word 0x01fd9313  # slli x6, x27, 31
    .word 0x0062ec33  # or x24, x5, x6
    .word 0x01adc533  # xor x10, x27, x26
    .word 0x0186c633  # xor x12, x13, x24
    .word 0x00755293  # srli x5, x10, 7
    .word 0x019c1313  # slli x6, x24, 25
    .word 0x0062c2b3  # xor x5, x5, x6
    .word 0x01a2cd33  # xor x26, x5, x26
    .word 0x00765293  # srli x5, x12, 7
    .word 0x01951313  # slli x6, x10, 25
    .word 0x0062c2b3  # xor x5, x5, x6
    .word 0x0182cc33  # xor x24, x5, x24
    .word 0x018585b3  # add x11, x11, x24
    .word 0x01ac82b3  # add x5, x25, x26
    .word 0x0185b333  # sltu x6, x11, x24
    .word 0x00628cb3  # add x25, x5, x6
    .word 0x15812c03  # lw x24, 344(x2)
    .word 0x018585b3  # add x11, x11, x24
    .word 0x11812303  # lw x6, 280(x2)
    .word 0x006c82b3  # add x5, x25, x6
    .word 0x0185b333  # sltu x6, x11, x24
    .word 0x00628cb3  # add x25, x5, x6
    .word 0x013b5293  # srli x5, x22, 19
    .word 0x00d41313  # slli x6, x8, 13
    .word 0x0062c2b3  # xor x5, x5, x6
    .word 0x01d45313  # srli x6, x8, 29
    .word 0x0062c2b3  # xor x5, x5, x6
    .word 0x003b1313  # slli x6, x22, 3
    .word 0x0062c2b3  # xor x5, x5, x6
    .word 0x006b5313  # srli x6, x22, 6
    .word 0x0062c2b3  # xor x5, x5, x6
    .word 0x01a41313  # slli x6, x8, 26
    .word 0x0062cc33  # xor x24, x5, x6
    .word 0x018585b3  # add x11, x11, x24
    .word 0x01345293  # srli x5, x8, 19
    .word 0x00db1313  # slli x6, x22, 13
    .word 0x0062c2b3  # xor x5, x5, x6
    .word 0x01db5313  # srli x6, x22, 29
    .word 0x0062c2b3  # xor x5, x5, x6
    .word 0x00341313  # slli x6, x8, 3
    .word 0x0062c2b3  # xor x5, x5, x6
    .word 0x00645313  # srli x6, x8, 6
    .word 0x0062c2b3  # xor x5, x5, x6
    .word 0x019282b3  # add x5, x5, x25
    .word 0x0185b333  # sltu x6, x11, x24
    .word 0x00628cb3  # add x25, x5, x6
    .word 0x0f912a23  # sw x25, 244(x2)
    .word 0x12b12a23  # sw x11, 308(x2)
    .word 0x0fc12403  # lw x8, 252(x2)
    .word 0x13c12b03  # lw x22, 316(x2)
    .word 0x00145293  # srli x5, x8, 1
    .word 0x01fb1313  # slli x6, x22, 31
    .word 0x0062ed33  # or x26, x5, x6
    .word 0x001b5293  # srli x5, x22, 1
    .word 0x01f41313  # slli x6, x8, 31
    .word 0x0062ec33  # or x24, x5, x6
    .word 0x01a44533  # xor x10, x8, x26
    .word 0x018b4633  # xor x12, x22, x24
    .word 0x00755293  # srli x5, x10, 7
    .word 0x019c1313  # slli x6, x24, 25
    .word 0x0062c2b3  # xor x5, x5, x6
    .word 0x01a2cd33  # xor x26, x5, x26
    .word 0x00765293  # srli x5, x12, 7
    .word 0x01951313  # slli x6, x10, 25
    .word 0x0062c2b3  # xor x5, x5, x6
    .word 0x0182cc33  # xor x24, x5, x24
    .word 0x018686b3  # add x13, x13, x24
    .word 0x01ad82b3  # add x5, x27, x26
    .word 0x0186b333  # sltu x6, x13, x24
    .word 0x00628db3  # add x27, x5, x6
    .word 0x15c12c03  # lw x24, 348(x2)
    .word 0x018686b3  # add x13, x13, x24
    .word 0x11c12303  # lw x6, 284(x2)
    .word 0x006d82b3  # add x5, x27, x6
    .word 0x0186b333  # sltu x6, x13, x24
    .word 0x00628db3  # add x27, x5, x6
    .word 0x013bd293  # srli x5, x23, 19
    .word 0x00d49313  # slli x6, x9, 13
    .word 0x0062c2b3  # xor x5, x5, x6
    .word 0x01d4d313  # srli x6, x9, 29
    .word 0x0062c2b3  # xor x5, x5, x6
    .word 0x003b9313  # slli x6, x23, 3
    .word 0x0062c2b3  # xor x5, x5, x6
    .word 0x006bd313  # srli x6, x23, 6
    .word 0x0062c2b3  # xor x5, x5, x6
    .word 0x01a49313  # slli x6, x9, 26
    .word 0x0062cc33  # xor x24, x5, x6
    .word 0x018686b3  # add x13, x13, x24
    .word 0x0134d293  # srli x5, x9, 19
    .word 0x00db9313  # slli x6, x23, 13
    .word 0x0062c2b3  # xor x5, x5, x6
    .word 0x01dbd313  # srli x6, x23, 29
    .word 0x0062c2b3  # xor x5, x5, x6
    .word 0x00349313  # slli x6, x9, 3
    .word 0x0062c2b3  # xor x5, x5, x6
    .word 0x0064d313  # srli x6, x9, 6
    .word 0x0062c2b3  # xor x5, x5, x6
    .word 0x01b282b3  # add x5, x5, x27
    .word 0x0186b333  # sltu x6, x13, x24
    .word 0x00628db3  # add x27, x5, x6
    .word 0x0fb12c23  # sw x27, 248(x2)
    .word 0x12d12c23  # sw x13, 312(x2)
    .word 0x10012483  # lw x9, 256(x2)
    .word 0x14012b83  # lw x23, 320(x2)
    .word 0x0014d293  # srli x5, x9, 1
    .word 0x01fb9313  # slli x6, x23, 31
    .word 0x0062ed33  # or x26, x5, x6
    .word 0x001bd293  # srli x5, x23, 1
    .word 0x01f49313  # slli x6, x9, 31
    .word 0x0062ec33  # or x24, x5, x6
    .word 0x01a4c533  # xor x10, x9, x26
    .word 0x018bc633  # xor x12, x23, x24
    .word 0x00755293  # srli x5, x10, 7
    .word 0x019c1313  # slli x6, x24, 25
    .word 0x0062c2b3  # xor x5, x5, x6
    .word 0x01a2cd33  # xor x26, x5, x26
    .word 0x00765293  # srli x5, x12, 7
    .word 0x01951313  # slli x6, x10, 25
    .word 0x0062c2b3  # xor x5, x5, x6
    .word 0x0182cc33  # xor x24, x5, x24
    .word 0x018b0b33  # add x22, x22, x24
    .word 0x01a402b3  # add x5, x8, x26
    .word 0x018b3333  # sltu x6, x22, x24
    .word 0x00628433  # add x8, x5, x6
    .word 0x16012c03  # lw x24, 352(x2)
    .word 0x018b0b33  # add x22, x22, x24
    .word 0x12012303  # lw x6, 288(x2)
    .word 0x006402b3  # add x5, x8, x6
    .word 0x018b3333  # sltu x6, x22, x24
    .word 0x00628433  # add x8, x5, x6
    .word 0x0135d293  # srli x5, x11, 19
    .word 0x00dc9313  # slli x6, x25, 13
    .word 0x0062c2b3  # xor x5, x5, x6
    .word 0x01dcd313  # srli x6, x25, 29
    .word 0x0062c2b3  # xor x5, x5, x6
    .word 0x00359313  # slli x6, x11, 3
    .word 0x0062c2b3  # xor x5, x5, x6
    .word 0x0065d313  # srli x6, x11, 6
    .word 0x0062c2b3  # xor x5, x5, x6
    .word 0x01ac9313  # slli x6, x25, 26
    .word 0x0062cc33  # xor x24, x5, x6
    .word 0x018b0b33  # add x22, x22, x24
    .word 0x013cd293  # srli x5, x25, 19
    .word 0x00d59313  # slli x6, x11, 13
    .word 0x0062c2b3  # xor x5, x5, x6
    .word 0x01d5d313  # srli x6, x11, 29
    .word 0x0062c2b3  # xor x5, x5, x6
    .word 0x003c9313  # slli x6, x25, 3
    .word 0x0062c2b3  # xor x5, x5, x6
    .word 0x006cd313  # srli x6, x25, 6
    .word 0x0062c2b3  # xor x5, x5, x6
    .word 0x008282b3  # add x5, x5, x8
    .word 0x018b3333  # sltu x6, x22, x24
    .word 0x00628433  # add x8, x5, x6
    .word 0x0e812e23  # sw x8, 252(x2)
    .word 0x13612e23  # sw x22, 316(x2)
    .word 0x10412c83  # lw x25, 260(x2)
    .word 0x14412583  # lw x11, 324(x2)
    .word 0x001cd293  # srli x5, x25, 1
    .word 0x01f59313  # slli x6, x11, 31
    .word 0x0062ed33  # or x26, x5, x6
    .word 0x0015d293  # srli x5, x11, 1
    .word 0x01fc9313  # slli x6, x25, 31
    .word 0x0062ec33  # or x24, x5, x6
    .word 0x01acc533  # xor x10, x25, x26
    .word 0x0185c633  # xor x12, x11, x24
    .word 0x00755293  # srli x5, x10, 7
    .word 0x019c1313  # slli x6, x24, 25
    .word 0x0062c2b3  # xor x5, x5, x6
    .word 0x01a2cd33  # xor x26, x5, x26
    .word 0x00765293  # srli x5, x12, 7
    .word 0x01951313  # slli x6, x10, 25
    .word 0x0062c2b3  # xor x5, x5, x6
    .word 0x0182cc33  # xor x24, x5, x24
    .word 0x018b8bb3  # add x23, x23, x24
    .word 0x01a482b3  # add x5, x9, x26
    .word 0x018bb333  # sltu x6, x23, x24
    .word 0x006284b3  # add x9, x5, x6
    .word 0x12412c03  # lw x24, 292(x2)
    .word 0x018b8bb3  # add x23, x23, x24
    .word 0x0e412303  # lw x6, 228(x2)
    .word 0x006482b3  # add x5, x9, x6
    .word 0x018bb333  # sltu x6, x23, x24
    .word 0x006284b3  # add x9, x5, x6
    .word 0x0136d293  # srli x5, x13, 19
    .word 0x00dd9313  # slli x6, x27, 13
    .word 0x0062c2b3  # xor x5, x5, x6
    .word 0x01ddd313  # srli x6, x27, 29
    .word 0x0062c2b3  # xor x5, x5, x6
    .word 0x00369313  # slli x6, x13, 3
    .word 0x0062c2b3  # xor x5, x5, x6
    .word 0x0066d313  # srli x6, x13, 6
    .word 0x0062c2b3  # xor x5, x5, x6
    .word 0x01ad9313  # slli x6, x27, 26
    .word 0x0062cc33  # xor x24, x5, x6
    .word 0x018b8bb3  # add x23, x23, x24
    .word 0x013dd293  # srli x5, x27, 19
    .word 0x00d69313  # slli x6, x13, 13
    .word 0x0062c2b3  # xor x5, x5, x6
    .word 0x01d6d313  # srli x6, x13, 29
    .word 0x0062c2b3  # xor x5, x5, x6
    .word 0x003d9313  # slli x6, x27, 3
    .word 0x0062c2b3  # xor x5, x5, x6
    .word 0x006dd313  # srli x6, x27, 6
    .word 0x0062c2b3  # xor x5, x5, x6
    .word 0x009282b3  # add x5, x5, x9
    .word 0x018bb333  # sltu x6, x23, x24
    .word 0x006284b3  # add x9, x5, x6
    .word 0x10912023  # sw x9, 256(x2)
    .word 0x15712023  # sw x23, 320(x2)
    .word 0x10812d83  # lw x27, 264(x2)
    .word 0x14812683  # lw x13, 328(x2)
    .word 0x001dd293  # srli x5, x27, 1
    .word 0x01f69313  # slli x6, x13, 31
    .word 0x0062ed33  # or x26, x5, x6
    .word 0x0016d293  # srli x5, x13, 1
    .word 0x01fd9313  # slli x6, x27, 31
    .word 0x0062ec33  # or x24, x5, x6
    .word 0x01adc533  # xor x10, x27, x26
    .word 0x0186c633  # xor x12, x13, x24
    .word 0x00755293  # srli x5, x10, 7
    .word 0x019c1313  # slli x6, x24, 25
    .word 0x0062c2b3  # xor x5, x5, x6
    .word 0x01a2cd33  # xor x26, x5, x26
    .word 0x00765293  # srli x5, x12, 7
    .word 0x01951313  # slli x6, x10, 25
    .word 0x0062c2b3  # xor x5, x5, x6
    .word 0x0182cc33  # xor x24, x5, x24
    .word 0x018585b3  # add x11, x11, x24
    .word 0x01ac82b3  # add x5, x25, x26
    .word 0x0185b333  # sltu x6, x11, x24
    .word 0x00628cb3  # add x25, x5, x6
    .word 0x12812c03  # lw x24, 296(x2)
    .word 0x018585b3  # add x11, x11, x24
    .word 0x0e812303  # lw x6, 232(x2)
    .word 0x006c82b3  # add x5, x25, x6
    .word 0x0185b333  # sltu x6, x11, x24
    .word 0x00628cb3  # add x25, x5, x6
    .word 0x013b5293  # srli x5, x22, 19
    .word 0x00d41313  # slli x6, x8, 13
    .word 0x0062c2b3  # xor x5, x5, x6
    .word 0x01d45313  # srli x6, x8, 29
    .word 0x0062c2b3  # xor x5, x5, x6
    .word 0x003b1313  # slli x6, x22, 3
    .word 0x0062c2b3  # xor x5, x5, x6
    .word 0x006b5313  # srli x6, x22, 6
    .word 0x0062c2b3  # xor x5, x5, x6
    .word 0x01a41313  # slli x6, x8, 26
    .word 0x0062cc33  # xor x24, x5, x6
    .word 0x018585b3  # add x11, x11, x24
    .word 0x01345293  # srli x5, x8, 19
    .word 0x00db1313  # slli x6, x22, 13
    .word 0x0062c2b3  # xor x5, x5, x6
    .word 0x01db5313  # srli x6, x22, 29
    .word 0x0062c2b3  # xor x5, x5, x6
    .word 0x00341313  # slli x6, x8, 3
    .word 0x0062c2b3  # xor x5, x5, x6
    .word 0x00645313  # srli x6, x8, 6
    .word 0x0062c2b3  # xor x5, x5, x6
    .word 0x019282b3  # add x5, x5, x25
    .word 0x0185b333  # sltu x6, x11, x24
    .word 0x00628cb3  # add x25, x5, x6
    .word 0x11912223  # sw x25, 260(x2)
    .word 0x14b12223  # sw x11, 324(x2)
    .word 0x10c12403  # lw x8, 268(x2)
    .word 0x14c12b03  # lw x22, 332(x2)
    .word 0x00145293  # srli x5, x8, 1
    .word 0x01fb1313  # slli x6, x22, 31
    .word 0x0062ed33  # or x26, x5, x6
    .word 0x001b5293  # srli x5, x22, 1
    .word 0x01f41313  # slli x6, x8, 31
    .word 0x0062ec33  # or x24, x5, x6
    .word 0x01a44533  # xor x10, x8, x26
    .word 0x018b4633  # xor x12, x22, x24
    .word 0x00755293  # srli x5, x10, 7
    .word 0x019c1313  # slli x6, x24, 25
    .word 0x0062c2b3  # xor x5, x5, x6
    .word 0x01a2cd33  # xor x26, x5, x26
    .word 0x00765293  # srli x5, x12, 7
    .word 0x01951313  # slli x6, x10, 25
    .word 0x0062c2b3  # xor x5, x5, x6
    .word 0x0182cc33  # xor x24, x5, x24
    .word 0x018686b3  # add x13, x13, x24
    .word 0x01ad82b3  # add x5, x27, x26
    .word 0x0186b333  # sltu x6, x13, x24
    .word 0x00628db3  # add x27, x5, x6
    .word 0x12c12c03  # lw x24, 300(x2)
    .word 0x018686b3  # add x13, x13, x24
    .word 0x0ec12303  # lw x6, 236(x2)
    .word 0x006d82b3  # add x5, x27, x6
    .word 0x0186b333  # sltu x6, x13, x24
    .word 0x00628db3  # add x27, x5, x6
    .word 0x013bd293  # srli x5, x23, 19
    .word 0x00d49313  # slli x6, x9, 13
    .word 0x0062c2b3  # xor x5, x5, x6
    .word 0x01d4d313  # srli x6, x9, 29
    .word 0x0062c2b3  # xor x5, x5, x6
    .word 0x003b9313  # slli x6, x23, 3
    .word 0x0062c2b3  # xor x5, x5, x6
    .word 0x006bd313  # srli x6, x23, 6
    .word 0x0062c2b3  # xor x5, x5, x6
    .word 0x01a49313  # slli x6, x9, 26
    .word 0x0062cc33  # xor x24, x5, x6
    .word 0x018686b3  # add x13, x13, x24
    .word 0x0134d293  # srli x5, x9, 19
    .word 0x00db9313  # slli x6, x23, 13
    .word 0x0062c2b3  # xor x5, x5, x6
    .word 0x01dbd313  # srli x6, x23, 29
    .word 0x0062c2b3  # xor x5, x5, x6
    .word 0x00349313  # slli x6, x9, 3
    .word 0x0062c2b3  # xor x5, x5, x6
    .word 0x0064d313  # srli x6, x9, 6
    .word 0x0062c2b3  # xor x5, x5, x6
    .word 0x01b282b3  # add x5, x5, x27
    .word 0x0186b333  # sltu x6, x13, x24
    .word 0x00628db3  # add x27, x5, x6
    .word 0x11b12423  # sw x27, 264(x2)
    .word 0x14d12423  # sw x13, 328(x2)
    .word 0x11012483  # lw x9, 272(x2)
    .word 0x15012b83  # lw x23, 336(x2)
    .word 0x0014d293  # srli x5, x9, 1
    .word 0x01fb9313  # slli x6, x23, 31
    .word 0x0062ed33  # or x26, x5, x6
    .word 0x001bd293  # srli x5, x23, 1
    .word 0x01f49313  # slli x6, x9, 31
    .word 0x0062ec33  # or x24, x5, x6
    .word 0x01a4c533  # xor x10, x9, x26
    .word 0x018bc633  # xor x12, x23, x24
    .word 0x00755293  # srli x5, x10, 7
    .word 0x019c1313  # slli x6, x24, 25
    .word 0x0062c2b3  # xor x5, x5, x6
    .word 0x01a2cd33  # xor x26, x5, x26
    .word 0x00765293  # srli x5, x12, 7
    .word 0x01951313  # slli x6, x10, 25
    .word 0x0062c2b3  # xor x5, x5, x6
    .word 0x0182cc33  # xor x24, x5, x24
    .word 0x018b0b33  # add x22, x22, x24
    .word 0x01a402b3  # add x5, x8, x26
    .word 0x018b3333  # sltu x6, x22, x24
    .word 0x00628433  # add x8, x5, x6
    .word 0x13012c03  # lw x24, 304(x2)
    .word 0x018b0b33  # add x22, x22, x24
    .word 0x0f012303  # lw x6, 240(x2)
    .word 0x006402b3  # add x5, x8, x6
    .word 0x018b3333  # sltu x6, x22, x24
    .word 0x00628433  # add x8, x5, x6
    .word 0x0135d293  # srli x5, x11, 19
    .word 0x00dc9313  # slli x6, x25, 13
    .word 0x0062c2b3  # xor x5, x5, x6
    .word 0x01dcd313  # srli x6, x25, 29
    .word 0x0062c2b3  # xor x5, x5, x6
    .word 0x00359313  # slli x6, x11, 3
    .word 0x0062c2b3  # xor x5, x5, x6
    .word 0x0065d313  # srli x6, x11, 6
    .word 0x0062c2b3  # xor x5, x5, x6
    .word 0x01ac9313  # slli x6, x25, 26
    .word 0x0062cc33  # xor x24, x5, x6
    .word 0x018b0b33  # add x22, x22, x24
    .word 0x013cd293  # srli x5, x25, 19
    .word 0x00d59313  # slli x6, x11, 13
    .word 0x0062c2b3  # xor x5, x5, x6
    .word 0x01d5d313  # srli x6, x11, 29
    .word 0x0062c2b3  # xor x5, x5, x6
    .word 0x003c9313  # slli x6, x25, 3
    .word 0x0062c2b3  # xor x5, x5, x6
    .word 0x006cd313  # srli x6, x25, 6
    .word 0x0062c2b3  # xor x5, x5, x6
    .word 0x008282b3  # add x5, x5, x8
    .word 0x018b3333  # sltu x6, x22, x24
    .word 0x00628433  # add x8, x5, x6
    .word 0x10812623  # sw x8, 268(x2)
    .word 0x15612623  # sw x22, 332(x2)
    .word 0x11412c83  # lw x25, 276(x2)
    .word 0x15412583  # lw x11, 340(x2)
    .word 0x001cd293  # srli x5, x25, 1
    .word 0x01f59313  # slli x6, x11, 31
    .word 0x0062ed33  # or x26, x5, x6
    .word 0x0015d293  # srli x5, x11, 1
    .word 0x01fc9313  # slli x6, x25, 31
    .word 0x0062ec33  # or x24, x5, x6
    .word 0x01acc533  # xor x10, x25, x26
    .word 0x0185c633  # xor x12, x11, x24
    .word 0x00755293  # srli x5, x10, 7
    .word 0x019c1313  # slli x6, x24, 25
    .word 0x0062c2b3  # xor x5, x5, x6
    .word 0x01a2cd33  # xor x26, x5, x26
    .word 0x00765293  # srli x5, x12, 7
    .word 0x01951313  # slli x6, x10, 25
    .word 0x0062c2b3  # xor x5, x5, x6
    .word 0x0182cc33  # xor x24, x5, x24
    .word 0x018b8bb3  # add x23, x23, x24
    .word 0x01a482b3  # add x5, x9, x26
    .word 0x018bb333  # sltu x6, x23, x24
    .word 0x006284b3  # add x9, x5, x6
    .word 0x13412c03  # lw x24, 308(x2)
    .word 0x018b8bb3  # add x23, x23, x24
    .word 0x0f412303  # lw x6, 244(x2)
    .word 0x006482b3  # add x5, x9, x6
    .word 0x018bb333  # sltu x6, x23, x24
    .word 0x006284b3  # add x9, x5, x6
    .word 0x0136d293  # srli x5, x13, 19
    .word 0x00dd9313  # slli x6, x27, 13
    .word 0x0062c2b3  # xor x5, x5, x6
    .word 0x01ddd313  # srli x6, x27, 29
    .word 0x0062c2b3  # xor x5, x5, x6
    .word 0x00369313  # slli x6, x13, 3
    .word 0x0062c2b3  # xor x5, x5, x6
    .word 0x0066d313  # srli x6, x13, 6
    .word 0x0062c2b3  # xor x5, x5, x6
    .word 0x01ad9313  # slli x6, x27, 26
    .word 0x0062cc33  # xor x24, x5, x6
    .word 0x018b8bb3  # add x23, x23, x24
    .word 0x013dd293  # srli x5, x27, 19
    .word 0x00d69313  # slli x6, x13, 13
    .word 0x0062c2b3  # xor x5, x5, x6
    .word 0x01d6d313  # srli x6, x13, 29
    .word 0x0062c2b3  # xor x5, x5, x6
    .word 0x003d9313  # slli x6, x27, 3
    .word 0x0062c2b3  # xor x5, x5, x6
    .word 0x006dd313  # srli x6, x27, 6
    .word 0x0062c2b3  # xor x5, x5, x6
    .word 0x009282b3  # add x5, x5, x9
    .word 0x018bb333  # sltu x6, x23, x24
    .word 0x006284b3  # add x9, x5, x6
    .word 0x10912823  # sw x9, 272(x2)
    .word 0x15712823  # sw x23, 336(x2)
    .word 0x11812d83  # lw x27, 280(x2)
    .word 0x15812683  # lw x13, 344(x2)
    .word 0x001dd293  # srli x5, x27, 1
    .word 0x01f69313  # slli x6, x13, 31
    .word 0x0062ed33  # or x26, x5, x6
    .word 0x0016d293  # srli x5, x13, 1
    .word 0x01fd9313  # slli x6, x27, 31
    .word 0x0062ec33  # or x24, x5, x6
    .word 0x01adc533  # xor x10, x27, x26
    .word 0x0186c633  # xor x12, x13, x24
    .word 0x00755293  # srli x5, x10, 7
    .word 0x019c1313  # slli x6, x24, 25
    .word 0x0062c2b3  # xor x5, x5, x6
    .word 0x01a2cd33  # xor x26, x5, x26
    .word 0x00765293  # srli x5, x12, 7
    .word 0x01951313  # slli x6, x10, 25
    .word 0x0062c2b3  # xor x5, x5, x6
    .word 0x0182cc33  # xor x24, x5, x24
    .word 0x018585b3  # add x11, x11, x24
    .word 0x01ac82b3  # add x5, x25, x26
    .word 0x0185b333  # sltu x6, x11, x24
    .word 0x00628cb3  # add x25, x5, x6
    .word 0x13812c03  # lw x24, 312(x2)
    .word 0x018585b3  # add x11, x11, x24
    .word 0x0f812303  # lw x6, 248(x2)
    .word 0x006c82b3  # add x5, x25, x6
    .word 0x0185b333  # sltu x6, x11, x24
    .word 0x00628cb3  # add x25, x5, x6
    .word 0x013b5293  # srli x5, x22, 19
    .word 0x00d41313  # slli x6, x8, 13
    .word 0x0062c2b3  # xor x5, x5, x6
    .word 0x01d45313  # srli x6, x8, 29
    .word 0x0062c2b3  # xor x5, x5, x6
    .word 0x003b1313  # slli x6, x22, 3
    .word 0x0062c2b3  # xor x5, x5, x6
    .word 0x006b5313  # srli x6, x22, 6
    .word 0x0062c2b3  # xor x5, x5, x6
    .word 0x01a41313  # slli x6, x8, 26
    .word 0x0062cc33  # xor x24, x5, x6
    .word 0x018585b3  # add x11, x11, x24
    .word 0x01345293  # srli x5, x8, 19
    .word 0x00db1313  # slli x6, x22, 13
    .word 0x0062c2b3  # xor x5, x5, x6
    .word 0x01db5313  # srli x6, x22, 29
    .word 0x0062c2b3  # xor x5, x5, x6
    .word 0x00341313  # slli x6, x8, 3
    .word 0x0062c2b3  # xor x5, x5, x6
    .word 0x00645313  # srli x6, x8, 6
    .word 0x0062c2b3  # xor x5, x5, x6
    .word 0x019282b3  # add x5, x5, x25
    .word 0x0185b333  # sltu x6, x11, x24
    .word 0x00628cb3  # add x25, x5, x6
    .word 0x11912a23  # sw x25, 276(x2)
    .word 0x14b12a23  # sw x11, 340(x2)
    .word 0x11c12403  # lw x8, 284(x2)
    .word 0x15c12b03  # lw x22, 348(x2)
    .word 0x00145293  # srli x5, x8, 1
    .word 0x01fb1313  # slli x6, x22, 31
    .word 0x0062ed33  # or x26, x5, x6
    .word 0x001b5293  # srli x5, x22, 1
    .word 0x01f41313  # slli x6, x8, 31
    .word 0x0062ec33  # or x24, x5, x6
    .word 0x01a44533  # xor x10, x8, x26
    .word 0x018b4633  # xor x12, x22, x24
    .word 0x00755293  # srli x5, x10, 7
    .word 0x019c1313  # slli x6, x24, 25
    .word 0x0062c2b3  # xor x5, x5, x6
    .word 0x01a2cd33  # xor x26, x5, x26
    .word 0x00765293  # srli x5, x12, 7
    .word 0x01951313  # slli x6, x10, 25
    .word 0x0062c2b3  # xor x5, x5, x6
    .word 0x0182cc33  # xor x24, x5, x24
    .word 0x018686b3  # add x13, x13, x24
    .word 0x01ad82b3  # add x5, x27, x26
    .word 0x0186b333  # sltu x6, x13, x24
    .word 0x00628db3  # add x27, x5, x6
    .word 0x13c12c03  # lw x24, 316(x2)
    .word 0x018686b3  # add x13, x13, x24
    .word 0x0fc12303  # lw x6, 252(x2)
    .word 0x006d82b3  # add x5, x27, x6
    .word 0x0186b333  # sltu x6, x13, x24
    .word 0x00628db3  # add x27, x5, x6
    .word 0x013bd293  # srli x5, x23, 19
    .word 0x00d49313  # slli x6, x9, 13
    .word 0x0062c2b3  # xor x5, x5, x6
    .word 0x01d4d313  # srli x6, x9, 29
    .word 0x0062c2b3  # xor x5, x5, x6
    .word 0x003b9313  # slli x6, x23, 3
    .word 0x0062c2b3  # xor x5, x5, x6
    .word 0x006bd313  # srli x6, x23, 6
    .word 0x0062c2b3  # xor x5, x5, x6
    .word 0x01a49313  # slli x6, x9, 26
    .word 0x0062cc33  # xor x24, x5, x6
    .word 0x018686b3  # add x13, x13, x24
    .word 0x0134d293  # srli x5, x9, 19
    .word 0x00db9313  # slli x6, x23, 13
    .word 0x0062c2b3  # xor x5, x5, x6
    .word 0x01dbd313  # srli x6, x23, 29
    .word 0x0062c2b3  # xor x5, x5, x6
    .word 0x00349313  # slli x6, x9, 3
    .word 0x0062c2b3  # xor x5, x5, x6
    .word 0x0064d313  # srli x6, x9, 6
    .word 0x0062c2b3  # xor x5, x5, x6
    .word 0x01b282b3  # add x5, x5, x27
    .word 0x0186b333  # sltu x6, x13, x24
    .word 0x00628db3  # add x27, x5, x6
    .word 0x11b12c23  # sw x27, 280(x2)
    .word 0x14d12c23  # sw x13, 344(x2)
    .word 0x12012483  # lw x9, 288(x2)
    .word 0x16012b83  # lw x23, 352(x2)
    .word 0x0014d293  # srli x5, x9, 1
    .word 0x01fb9313  # slli x6, x23, 31
    .word 0x0062ed33  # or x26, x5, x6
    .word 0x001bd293  # srli x5, x23, 1
    .word 0x01f49313  # slli x6, x9, 31
    .word 0x0062ec33  # or x24, x5, x6
    .word 0x01a4c533  # xor x10, x9, x26
    .word 0x018bc633  # xor x12, x23, x24
    .word 0x00755293  # srli x5, x10, 7
    .word 0x019c1313  # slli x6, x24, 25
    .word 0x0062c2b3  # xor x5, x5, x6
    .word 0x01a2cd33  # xor x26, x5, x26
    .word 0x00765293  # srli x5, x12, 7
    .word 0x01951313  # slli x6, x10, 25
    .word 0x0062c2b3  # xor x5, x5, x6
    .word 0x0182cc33  # xor x24, x5, x24
    .word 0x018b0b33  # add x22, x22, x24
    .word 0x01a402b3  # add x5, x8, x26
    .word 0x018b3333  # sltu x6, x22, x24
    .word 0x00628433  # add x8, x5, x6
    .word 0x14012c03  # lw x24, 320(x2)
    .word 0x018b0b33  # add x22, x22, x24
    .word 0x10012303  # lw x6, 256(x2)
    .word 0x006402b3  # add x5, x8, x6
    .word 0x018b3333  # sltu x6, x22, x24
    .word 0x00628433  # add x8, x5, x6
    .word 0x0135d293  # srli x5, x11, 19
    .word 0x00dc9313  # slli x6, x25, 13
    .word 0x0062c2b3  # xor x5, x5, x6
    .word 0x01dcd313  # srli x6, x25, 29
    .word 0x0062c2b3  # xor x5, x5, x6
    .word 0x00359313  # slli x6, x11, 3
    .word 0x0062c2b3  # xor x5, x5, x6
    .word 0x0065d313  # srli x6, x11, 6
    .word 0x0062c2b3  # xor x5, x5, x6
    .word 0x01ac9313  # slli x6, x25, 26
    .word 0x0062cc33  # xor x24, x5, x6
    .word 0x018b0b33  # add x22, x22, x24
    .word 0x013cd293  # srli x5, x25, 19
    .word 0x00d59313  # slli x6, x11, 13
    .word 0x0062c2b3  # xor x5, x5, x6
    .word 0x01d5d313  # srli x6, x11, 29
    .word 0x0062c2b3  # xor x5, x5, x6
    .word 0x003c9313  # slli x6, x25, 3
    .word 0x0062c2b3  # xor x5, x5, x6
    .word 0x006cd313  # srli x6, x25, 6
    .word 0x0062c2b3  # xor x5, x5, x6
    .word 0x008282b3  # add x5, x5, x8
    .word 0x018b3333  # sltu x6, x22, x24
    .word 0x00628433  # add x8, x5, x6
    .word 0x10812e23  # sw x8, 284(x2)
    .word 0x15612e23  # sw x22, 348(x2)
    .word 0x0e412c83  # lw x25, 228(x2)
    .word 0x12412583  # lw x11, 292(x2)
    .word 0x001cd293  # srli x5, x25, 1
    .word 0x01f59313  # slli x6, x11, 31
    .word 0x0062ed33  # or x26, x5, x6
    .word 0x0015d293  # srli x5, x11, 1
    .word 0x01fc9313  # slli x6, x25, 31
    .word 0x0062ec33  # or x24, x5, x6
    .word 0x01acc533  # xor x10, x25, x26
    .word 0x0185c633  # xor x12, x11, x24
    .word 0x00755293  # srli x5, x10, 7
    .word 0x019c1313  # slli x6, x24, 25
    .word 0x0062c2b3  # xor x5, x5, x6
    .word 0x01a2cd33  # xor x26, x5, x26
    .word 0x00765293  # srli x5, x12, 7
    .word 0x01951313  # slli x6, x10, 25
    .word 0x0062c2b3  # xor x5, x5, x6
    .word 0x0182cc33  # xor x24, x5, x24
    .word 0x018b8bb3  # add x23, x23, x24
    .word 0x01a482b3  # add x5, x9, x26
    .word 0x018bb333  # sltu x6, x23, x24
    .word 0x006284b3  # add x9, x5, x6
    .word 0x14412c03  # lw x24, 324(x2)
    .word 0x018b8bb3  # add x23, x23, x24
    .word 0x10412303  # lw x6, 260(x2)
    .word 0x006482b3  # add x5, x9, x6
    .word 0x018bb333  # sltu x6, x23, x24
    .word 0x006284b3  # add x9, x5, x6
    .word 0x0136d293  # srli x5, x13, 19
    .word 0x00dd9313  # slli x6, x27, 13
    .word 0x0062c2b3  # xor x5, x5, x6
    .word 0x01ddd313  # srli x6, x27, 29
    .word 0x0062c2b3  # xor x5, x5, x6
    .word 0x00369313  # slli x6, x13, 3
    .word 0x0062c2b3  # xor x5, x5, x6
    .word 0x0066d313  # srli x6, x13, 6
    .word 0x0062c2b3  # xor x5, x5, x6
    .word 0x01ad9313  # slli x6, x27, 26
    .word 0x0062cc33  # xor x24, x5, x6
    .word 0x018b8bb3  # add x23, x23, x24
    .word 0x013dd293  # srli x5, x27, 19
    .word 0x00d69313  # slli x6, x13, 13
    .word 0x0062c2b3  # xor x5, x5, x6
    .word 0x01d6d313  # srli x6, x13, 29
    .word 0x0062c2b3  # xor x5, x5, x6
    .word 0x003d9313  # slli x6, x27, 3
    .word 0x0062c2b3  # xor x5, x5, x6
    .word 0x006dd313  # srli x6, x27, 6
    .word 0x0062c2b3  # xor x5, x5, x6
    .word 0x009282b3  # add x5, x5, x9
    .word 0x018bb333  # sltu x6, x23, x24
    .word 0x006284b3  # add x9, x5, x6
    .word 0x12912023  # sw x9, 288(x2)
    .word 0x17712023  # sw x23, 352(x2)
    .word 0x0c412403  # lw x8, 196(x2)
    .word 0x0c812b03  # lw x22, 200(x2)
    .word 0x0cc12483  # lw x9, 204(x2)
    .word 0x0d012b83  # lw x23, 208(x2)
    .word 0x0d412c03  # lw x24, 212(x2)
    .word 0x0d812c83  # lw x25, 216(x2)
    .word 0x0dc12d03  # lw x26, 220(x2)
    .word 0x0e012d83  # lw x27, 224(x2)
    .word 0x0c012283  # lw x5, 192(x2)
    .word 0x00128293  # addi x5, x5, 1
    .word 0x16512223  # sw x5, 356(x2)
    .word 0x16412283  # lw x5, 356(x2)
    .word 0x00100313  # addi x6, x0, 1
    .word 0x10629463  # bne x5, x6, 264
    .word 0x1e412283  # lw x5, 484(x2)
    .word 0x16512223  # sw x5, 356(x2)
    .word 0x1e812283  # lw x5, 488(x2)
    .word 0x1a512223  # sw x5, 420(x2)
    .word 0x1ec12283  # lw x5, 492(x2)
    .word 0x16512423  # sw x5, 360(x2)
    .word 0x1f012283  # lw x5, 496(x2)
    .word 0x1a512423  # sw x5, 424(x2)
    .word 0x1f412283  # lw x5, 500(x2)
    .word 0x16512623  # sw x5, 364(x2)
    .word 0x1f812283  # lw x5, 504(x2)
    .word 0x1a512623  # sw x5, 428(x2)
    .word 0x1fc12283  # lw x5, 508(x2)
    .word 0x16512823  # sw x5, 368(x2)
    .word 0x20012283  # lw x5, 512(x2)
    .word 0x1a512823  # sw x5, 432(x2)
    .word 0x20412283  # lw x5, 516(x2)
    .word 0x16512a23  # sw x5, 372(x2)
    .word 0x20812283  # lw x5, 520(x2)
    .word 0x1a512a23  # sw x5, 436(x2)
    .word 0x20c12283  # lw x5, 524(x2)
    .word 0x16512c23  # sw x5, 376(x2)
    .word 0x21012283  # lw x5, 528(x2)
    .word 0x1a512c23  # sw x5, 440(x2)
    .word 0x21412283  # lw x5, 532(x2)
    .word 0x16512e23  # sw x5, 380(x2)
    .word 0x21812283  # lw x5, 536(x2)
    .word 0x1a512e23  # sw x5, 444(x2)
    .word 0x21c12283  # lw x5, 540(x2)
    .word 0x18512023  # sw x5, 384(x2)
    .word 0x22012283  # lw x5, 544(x2)
    .word 0x1c512023  # sw x5, 448(x2)
    .word 0x22412283  # lw x5, 548(x2)
    .word 0x18512223  # sw x5, 388(x2)
    .word 0x22812283  # lw x5, 552(x2)
    .word 0x1c512223  # sw x5, 452(x2)
    .word 0x22c12283  # lw x5, 556(x2)
    .word 0x18512423  # sw x5, 392(x2)
    .word 0x23012283  # lw x5, 560(x2)
    .word 0x1c512423  # sw x5, 456(x2)
    .word 0x23412283  # lw x5, 564(x2)
    .word 0x18512623  # sw x5, 396(x2)
    .word 0x23812283  # lw x5, 568(x2)
    .word 0x1c512623  # sw x5, 460(x2)
    .word 0x23c12283  # lw x5, 572(x2)
    .word 0x18512823  # sw x5, 400(x2)
    .word 0x24012283  # lw x5, 576(x2)
    .word 0x1c512823  # sw x5, 464(x2)
    .word 0x24412283  # lw x5, 580(x2)
    .word 0x18512a23  # sw x5, 404(x2)
    .word 0x24812283  # lw x5, 584(x2)
    .word 0x1c512a23  # sw x5, 468(x2)
    .word 0x24c12283  # lw x5, 588(x2)
    .word 0x18512c23  # sw x5, 408(x2)
    .word 0x25012283  # lw x5, 592(x2)
    .word 0x1c512c23  # sw x5, 472(x2)
    .word 0x25412283  # lw x5, 596(x2)
    .word 0x18512e23  # sw x5, 412(x2)
    .word 0x25812283  # lw x5, 600(x2)
    .word 0x1c512e23  # sw x5, 476(x2)
    .word 0x25c12283  # lw x5, 604(x2)
    .word 0x1a512023  # sw x5, 416(x2)
    .word 0x26012283  # lw x5, 608(x2)
    .word 0x1e512023  # sw x5, 480(x2)
    .word 0x4240006f  # jal x0, 1060
    .word 0x16412283  # lw x5, 356(x2)
    .word 0x00200313  # addi x6, x0, 2
    .word 0x10629463  # bne x5, x6, 264
    .word 0x26412283  # lw x5, 612(x2)
    .word 0x16512223  # sw x5, 356(x2)
    .word 0x26812283  # lw x5, 616(x2)
    .word 0x1a512223  # sw x5, 420(x2)
    .word 0x26c12283  # lw x5, 620(x2)
    .word 0x16512423  # sw x5, 360(x2)
    .word 0x27012283  # lw x5, 624(x2)
    .word 0x1a512423  # sw x5, 424(x2)
    .word 0x27412283  # lw x5, 628(x2)
    .word 0x16512623  # sw x5, 364(x2)
    .word 0x27812283  # lw x5, 632(x2)
    .word 0x1a512623  # sw x5, 428(x2)
    .word 0x27c12283  # lw x5, 636(x2)
    .word 0x16512823  # sw x5, 368(x2)
    .word 0x28012283  # lw x5, 640(x2)
    .word 0x1a512823  # sw x5, 432(x2)
    .word 0x28412283  # lw x5, 644(x2)
    .word 0x16512a23  # sw x5, 372(x2)
    .word 0x28812283  # lw x5, 648(x2)
    .word 0x1a512a23  # sw x5, 436(x2)
    .word 0x28c12283  # lw x5, 652(x2)
    .word 0x16512c23  # sw x5, 376(x2)
    .word 0x29012283  # lw x5, 656(x2)
    .word 0x1a512c23  # sw x5, 440(x2)
    .word 0x29412283  # lw x5, 660(x2)
    .word 0x16512e23  # sw x5, 380(x2)
    .word 0x29812283  # lw x5, 664(x2)
    .word 0x1a512e23  # sw x5, 444(x2)
    .word 0x29c12283  # lw x5, 668(x2)
    .word 0x18512023  # sw x5, 384(x2)
    .word 0x2a012283  # lw x5, 672(x2)
    .word 0x1c512023  # sw x5, 448(x2)
    .word 0x2a412283  # lw x5, 676(x2)
    .word 0x18512223  # sw x5, 388(x2)
    .word 0x2a812283  # lw x5, 680(x2)
    .word 0x1c512223  # sw x5, 452(x2)
    .word 0x2ac12283  # lw x5, 684(x2)
    .word 0x18512423  # sw x5, 392(x2)
    .word 0x2b012283  # lw x5, 688(x2)
    .word 0x1c512423  # sw x5, 456(x2)
    .word 0x2b412283  # lw x5, 692(x2)
    .word 0x18512623  # sw x5, 396(x2)
    .word 0x2b812283  # lw x5, 696(x2)
    .word 0x1c512623  # sw x5, 460(x2)
    .word 0x2bc12283  # lw x5, 700(x2)
    .word 0x18512823  # sw x5, 400(x2)
    .word 0x2c012283  # lw x5, 704(x2)
    .word 0x1c512823  # sw x5, 464(x2)
    .word 0x2c412283  # lw x5, 708(x2)
    .word 0x18512a23  # sw x5, 404(x2)
    .word 0x2c812283  # lw x5, 712(x2)
    .word 0x1c512a23  # sw x5, 468(x2)
    .word 0x2cc12283  # lw x5, 716(x2)
    .word 0x18512c23  # sw x5, 408(x2)
    .word 0x2d012283  # lw x5, 720(x2)
    .word 0x1c512c23  # sw x5, 472(x2)
    .word 0x2d412283  # lw x5, 724(x2)
    .word 0x18512e23  # sw x5, 412(x2)
    .word 0x2d812283  # lw x5, 728(x2)
    .word 0x1c512e23  # sw x5, 476(x2)
    .word 0x2dc12283  # lw x5, 732(x2)
    .word 0x1a512023  # sw x5, 416(x2)
    .word 0x2e012283  # lw x5, 736(x2)
    .word 0x1e512023  # sw x5, 480(x2)
    .word 0x3140006f  # jal x0, 788
    .word 0x16412283  # lw x5, 356(x2)
    .word 0x00300313  # addi x6, x0, 3
    .word 0x18629463  # bne x5, x6, 392
    .word 0x19a4c2b7  # lui x5, 0x19a4c
    .word 0x11628293  # addi x5, x5, 278
    .word 0x16512223  # sw x5, 356(x2)
    .word 0xb8d2d2b7  # lui x5, 0xb8d2d
    .word 0x0c828293  # addi x5, x5, 200
    .word 0x1a512223  # sw x5, 420(x2)
    .word 0x1e3772b7  # lui x5, 0x1e377
    .word 0xc0828293  # addi x5, x5, -1016
    .word 0x16512423  # sw x5, 360(x2)
    .word 0x5141b2b7  # lui x5, 0x5141b
    .word 0xb5328293  # addi x5, x5, -1197
    .word 0x1a512423  # sw x5, 424(x2)
    .word 0x274872b7  # lui x5, 0x27487
    .word 0x74c28293  # addi x5, x5, 1868
    .word 0x16512623  # sw x5, 364(x2)
    .word 0xdf8ef2b7  # lui x5, 0xdf8ef
    .word 0xb9928293  # addi x5, x5, -1127
    .word 0x1a512623  # sw x5, 428(x2)
    .word 0x34b0c2b7  # lui x5, 0x34b0c
    .word 0xcb528293  # addi x5, x5, -843
    .word 0x16512823  # sw x5, 368(x2)
    .word 0xe19b52b7  # lui x5, 0xe19b5
    .word 0x8a828293  # addi x5, x5, -1880
    .word 0x1a512823  # sw x5, 432(x2)
    .word 0x391c12b7  # lui x5, 0x391c1
    .word 0xcb328293  # addi x5, x5, -845
    .word 0x16512a23  # sw x5, 372(x2)
    .word 0xc5c962b7  # lui x5, 0xc5c96
    .word 0xa6328293  # addi x5, x5, -1437
    .word 0x1a512a23  # sw x5, 436(x2)
    .word 0x4ed8b2b7  # lui x5, 0x4ed8b
    .word 0xa4a28293  # addi x5, x5, -1462
    .word 0x16512c23  # sw x5, 376(x2)
    .word 0xe34192b7  # lui x5, 0xe3419
    .word 0xacb28293  # addi x5, x5, -1333
    .word 0x1a512c23  # sw x5, 440(x2)
    .word 0x5b9cd2b7  # lui x5, 0x5b9cd
    .word 0xa4f28293  # addi x5, x5, -1457
    .word 0x16512e23  # sw x5, 380(x2)
    .word 0x7763e2b7  # lui x5, 0x7763e
    .word 0x37328293  # addi x5, x5, 883
    .word 0x1a512e23  # sw x5, 444(x2)
    .word 0x682e72b7  # lui x5, 0x682e7
    .word 0xff328293  # addi x5, x5, -13
    .word 0x18512023  # sw x5, 384(x2)
    .word 0xd6b2c2b7  # lui x5, 0xd6b2c
    .word 0x8a328293  # addi x5, x5, -1885
    .word 0x1c512023  # sw x5, 448(x2)
    .word 0x748f82b7  # lui x5, 0x748f8
    .word 0x2ee28293  # addi x5, x5, 750
    .word 0x18512223  # sw x5, 388(x2)
    .word 0x5defb2b7  # lui x5, 0x5defb
    .word 0x2fc28293  # addi x5, x5, 764
    .word 0x1c512223  # sw x5, 452(x2)
    .word 0x78a562b7  # lui x5, 0x78a56
    .word 0x36f28293  # addi x5, x5, 879
    .word 0x18512423  # sw x5, 392(x2)
    .word 0x431732b7  # lui x5, 0x43173
    .word 0xf6028293  # addi x5, x5, -160
    .word 0x1c512423  # sw x5, 456(x2)
    .word 0x84c882b7  # lui x5, 0x84c88
    .word 0x81428293  # addi x5, x5, -2028
    .word 0x18512623  # sw x5, 396(x2)
    .word 0xa1f0b2b7  # lui x5, 0xa1f0b
    .word 0xb7228293  # addi x5, x5, -1166
    .word 0x1c512623  # sw x5, 460(x2)
    .word 0x8cc702b7  # lui x5, 0x8cc70
    .word 0x20828293  # addi x5, x5, 520
    .word 0x18512823  # sw x5, 400(x2)
    .word 0x1a6442b7  # lui x5, 0x1a644
    .word 0x9ec28293  # addi x5, x5, -1556
    .word 0x1c512823  # sw x5, 464(x2)
    .word 0x90bf02b7  # lui x5, 0x90bf0
    .word 0xffa28293  # addi x5, x5, -6
    .word 0x18512a23  # sw x5, 404(x2)
    .word 0x236322b7  # lui x5, 0x23632
    .word 0xe2828293  # addi x5, x5, -472
    .word 0x1c512a23  # sw x5, 468(x2)
    .word 0xa45072b7  # lui x5, 0xa4507
    .word 0xceb28293  # addi x5, x5, -789
    .word 0x18512c23  # sw x5, 408(x2)
    .word 0xde82c2b7  # lui x5, 0xde82c
    .word 0xde928293  # addi x5, x5, -535
    .word 0x1c512c23  # sw x5, 472(x2)
    .word 0xbef9a2b7  # lui x5, 0xbef9a
    .word 0x3f728293  # addi x5, x5, 1015
    .word 0x18512e23  # sw x5, 412(x2)
    .word 0xb2c682b7  # lui x5, 0xb2c68
    .word 0x91528293  # addi x5, x5, -1771
    .word 0x1c512e23  # sw x5, 476(x2)
    .word 0xc67182b7  # lui x5, 0xc6718
    .word 0x8f228293  # addi x5, x5, -1806
    .word 0x1a512023  # sw x5, 416(x2)
    .word 0xe37252b7  # lui x5, 0xe3725
    .word 0x32b28293  # addi x5, x5, 811
    .word 0x1e512023  # sw x5, 480(x2)
    .word 0x1840006f  # jal x0, 388
    .word 0xca2742b7  # lui x5, 0xca274
    .word 0xece28293  # addi x5, x5, -306
    .word 0x16512223  # sw x5, 356(x2)
    .word 0xea2662b7  # lui x5, 0xea266
    .word 0x19c28293  # addi x5, x5, 412
    .word 0x1a512223  # sw x5, 420(x2)
    .word 0xd186c2b7  # lui x5, 0xd186c
    .word 0x8c728293  # addi x5, x5, -1849
    .word 0x16512423  # sw x5, 360(x2)
    .word 0x21c0c2b7  # lui x5, 0x21c0c
    .word 0x20728293  # addi x5, x5, 519
    .word 0x1a512423  # sw x5, 424(x2)
    .word 0xeada82b7  # lui x5, 0xeada8
    .word 0xdd628293  # addi x5, x5, -554
    .word 0x16512623  # sw x5, 364(x2)
    .word 0xcde0f2b7  # lui x5, 0xcde0f
    .word 0xb1e28293  # addi x5, x5, -1250
    .word 0x1a512623  # sw x5, 428(x2)
    .word 0xf57d52b7  # lui x5, 0xf57d5
    .word 0xf7f28293  # addi x5, x5, -129
    .word 0x16512823  # sw x5, 368(x2)
    .word 0xee6ed2b7  # lui x5, 0xee6ed
    .word 0x17828293  # addi x5, x5, 376
    .word 0x1a512823  # sw x5, 432(x2)
    .word 0x06f062b7  # lui x5, 0x06f06
    .word 0x7aa28293  # addi x5, x5, 1962
    .word 0x16512a23  # sw x5, 372(x2)
    .word 0x721772b7  # lui x5, 0x72177
    .word 0xfba28293  # addi x5, x5, -70
    .word 0x1a512a23  # sw x5, 436(x2)
    .word 0x0a6382b7  # lui x5, 0x0a638
    .word 0xdc528293  # addi x5, x5, -571
    .word 0x16512c23  # sw x5, 376(x2)
    .word 0xa2c8a2b7  # lui x5, 0xa2c8a
    .word 0x8a628293  # addi x5, x5, -1882
    .word 0x1a512c23  # sw x5, 440(x2)
    .word 0x113fa2b7  # lui x5, 0x113fa
    .word 0x80428293  # addi x5, x5, -2044
    .word 0x16512e23  # sw x5, 380(x2)
    .word 0xbef912b7  # lui x5, 0xbef91
    .word 0xdae28293  # addi x5, x5, -594
    .word 0x1a512e23  # sw x5, 444(x2)
    .word 0x1b7112b7  # lui x5, 0x1b711
    .word 0xb3528293  # addi x5, x5, -1227
    .word 0x18512023  # sw x5, 384(x2)
    .word 0x131c42b7  # lui x5, 0x131c4
    .word 0x71b28293  # addi x5, x5, 1819
    .word 0x1c512023  # sw x5, 448(x2)
    .word 0x28db72b7  # lui x5, 0x28db7
    .word 0x7f528293  # addi x5, x5, 2037
    .word 0x18512223  # sw x5, 388(x2)
    .word 0x230482b7  # lui x5, 0x23048
    .word 0xd8428293  # addi x5, x5, -636
    .word 0x1c512223  # sw x5, 452(x2)
    .word 0x32cab2b7  # lui x5, 0x32cab
    .word 0xb7b28293  # addi x5, x5, -1157
    .word 0x18512423  # sw x5, 392(x2)
    .word 0x40c722b7  # lui x5, 0x40c72
    .word 0x49328293  # addi x5, x5, 1171
    .word 0x1c512423  # sw x5, 456(x2)
    .word 0x3c9ec2b7  # lui x5, 0x3c9ec
    .word 0xe0a28293  # addi x5, x5, -502
    .word 0x18512623  # sw x5, 396(x2)
    .word 0x15c9c2b7  # lui x5, 0x15c9c
    .word 0xebc28293  # addi x5, x5, -324
    .word 0x1c512623  # sw x5, 460(x2)
    .word 0x431d62b7  # lui x5, 0x431d6
    .word 0x7c428293  # addi x5, x5, 1988
    .word 0x18512823  # sw x5, 400(x2)
    .word 0x9c1012b7  # lui x5, 0x9c101
    .word 0xd4c28293  # addi x5, x5, -692
    .word 0x1c512823  # sw x5, 464(x2)
    .word 0x4cc5d2b7  # lui x5, 0x4cc5d
    .word 0x4be28293  # addi x5, x5, 1214
    .word 0x18512a23  # sw x5, 404(x2)
    .word 0xcb3e42b7  # lui x5, 0xcb3e4
    .word 0x2b628293  # addi x5, x5, 694
    .word 0x1c512a23  # sw x5, 468(x2)
    .word 0x597f32b7  # lui x5, 0x597f3
    .word 0x99c28293  # addi x5, x5, -1636
    .word 0x18512c23  # sw x5, 408(x2)
    .word 0xfc6582b7  # lui x5, 0xfc658
    .word 0xe2a28293  # addi x5, x5, -470
    .word 0x1c512c23  # sw x5, 472(x2)
    .word 0x5fcb72b7  # lui x5, 0x5fcb7
    .word 0xfab28293  # addi x5, x5, -85
    .word 0x18512e23  # sw x5, 412(x2)
    .word 0x3ad702b7  # lui x5, 0x3ad70
    .word 0xaec28293  # addi x5, x5, -1300
    .word 0x1c512e23  # sw x5, 476(x2)
    .word 0x6c4422b7  # lui x5, 0x6c442
    .word 0x98c28293  # addi x5, x5, -1652
    .word 0x1a512023  # sw x5, 416(x2)
    .word 0x4a4762b7  # lui x5, 0x4a476
    .word 0x81728293  # addi x5, x5, -2025
    .word 0x1e512023  # sw x5, 480(x2)
    .word 0x0040006f  # jal x0, 4
    .word 0xeb0fd06f  # jal x0, -10576
    .word 0x00412283  # lw x5, 4(x2)
    .word 0x00f285b3  # add x11, x5, x15
    .word 0x00012283  # lw x5, 0(x2)
    .word 0x00e282b3  # add x5, x5, x14
    .word 0x00f5b333  # sltu x6, x11, x15
    .word 0x006286b3  # add x13, x5, x6
    .word 0x00d12023  # sw x13, 0(x2)
    .word 0x00b12223  # sw x11, 4(x2)
    .word 0x00c12283  # lw x5, 12(x2)
    .word 0x011285b3  # add x11, x5, x17
    .word 0x00812283  # lw x5, 8(x2)
    .word 0x010282b3  # add x5, x5, x16
    .word 0x0115b333  # sltu x6, x11, x17
    .word 0x006286b3  # add x13, x5, x6
    .word 0x00d12423  # sw x13, 8(x2)
    .word 0x00b12623  # sw x11, 12(x2)
    .word 0x01412283  # lw x5, 20(x2)
    .word 0x013285b3  # add x11, x5, x19
    .word 0x01012283  # lw x5, 16(x2)
    .word 0x012282b3  # add x5, x5, x18
    .word 0x0135b333  # sltu x6, x11, x19
    .word 0x006286b3  # add x13, x5, x6
    .word 0x00d12823  # sw x13, 16(x2)
    .word 0x00b12a23  # sw x11, 20(x2)
    .word 0x01c12283  # lw x5, 28(x2)
    .word 0x015285b3  # add x11, x5, x21
    .word 0x01812283  # lw x5, 24(x2)
    .word 0x014282b3  # add x5, x5, x20
    .word 0x0155b333  # sltu x6, x11, x21
    .word 0x006286b3  # add x13, x5, x6
    .word 0x00d12c23  # sw x13, 24(x2)
    .word 0x00b12e23  # sw x11, 28(x2)
    .word 0x02412283  # lw x5, 36(x2)
    .word 0x016285b3  # add x11, x5, x22
    .word 0x02012283  # lw x5, 32(x2)
    .word 0x008282b3  # add x5, x5, x8
    .word 0x0165b333  # sltu x6, x11, x22
    .word 0x006286b3  # add x13, x5, x6
    .word 0x02d12023  # sw x13, 32(x2)
    .word 0x02b12223  # sw x11, 36(x2)
    .word 0x02c12283  # lw x5, 44(x2)
    .word 0x017285b3  # add x11, x5, x23
    .word 0x02812283  # lw x5, 40(x2)
    .word 0x009282b3  # add x5, x5, x9
    .word 0x0175b333  # sltu x6, x11, x23
    .word 0x006286b3  # add x13, x5, x6
    .word 0x02d12423  # sw x13, 40(x2)
    .word 0x02b12623  # sw x11, 44(x2)
    .word 0x03412283  # lw x5, 52(x2)
    .word 0x019285b3  # add x11, x5, x25
    .word 0x03012283  # lw x5, 48(x2)
    .word 0x018282b3  # add x5, x5, x24
    .word 0x0195b333  # sltu x6, x11, x25
    .word 0x006286b3  # add x13, x5, x6
    .word 0x02d12823  # sw x13, 48(x2)
    .word 0x02b12a23  # sw x11, 52(x2)
    .word 0x03c12283  # lw x5, 60(x2)
    .word 0x01b285b3  # add x11, x5, x27
    .word 0x03812283  # lw x5, 56(x2)
    .word 0x01a282b3  # add x5, x5, x26
    .word 0x01b5b333  # sltu x6, x11, x27
    .word 0x006286b3  # add x13, x5, x6
    .word 0x02d12c23  # sw x13, 56(x2)
    .word 0x02b12e23  # sw x11, 60(x2)
    # the result
    .word 0x00000513  # addi x10, x0, 0
    # parameter 0: the array, back
    .word 0x00010293  # addi x5, x2, 0
    .word 0x32c12303  # lw x6, 812(x2)
    .word 0x04028393  # addi x7, x5, 64
    .word 0x09000f6f  # jal x30, 144
    # above the frame
    .word 0x2f010293  # addi x5, x2, 752
    # the caller's registers
    .word 0x0002a403  # lw x8, 0(x5)
    .cfi_restore 8
    .word 0x0042a483  # lw x9, 4(x5)
    .cfi_restore 9
    .word 0x0082a903  # lw x18, 8(x5)
    .cfi_restore 18
    .word 0x00c2a983  # lw x19, 12(x5)
    .cfi_restore 19
    .word 0x0102aa03  # lw x20, 16(x5)
    .cfi_restore 20
    .word 0x0142aa83  # lw x21, 20(x5)
    .cfi_restore 21
    .word 0x0182ab03  # lw x22, 24(x5)
    .cfi_restore 22
    .word 0x01c2ab83  # lw x23, 28(x5)
    .cfi_restore 23
    .word 0x0202ac03  # lw x24, 32(x5)
    .cfi_restore 24
    .word 0x0242ac83  # lw x25, 36(x5)
    .cfi_restore 25
    .word 0x0282ad03  # lw x26, 40(x5)
    .cfi_restore 26
    .word 0x02c2ad83  # lw x27, 44(x5)
    .cfi_restore 27
    # the caller's x2
    .word 0x04028293  # addi x5, x5, 64
    .cfi_def_cfa 5, 0
    # all the room, wiped upward
    .word 0x00012023  # sw x0, 0(x2)
    .word 0x00012223  # sw x0, 4(x2)
    .word 0x00012423  # sw x0, 8(x2)
    .word 0x00012623  # sw x0, 12(x2)
    .word 0x01010113  # addi x2, x2, 16
    .word 0xfe5116e3  # bne x2, x5, -20
    .cfi_def_cfa 2, 0
    # temporaries, wiped
    .word 0x00000293  # addi x5, x0, 0
    .word 0x00000313  # addi x6, x0, 0
    .word 0x00000393  # addi x7, x0, 0
    .word 0x00000593  # addi x11, x0, 0
    .word 0x00000613  # addi x12, x0, 0
    .word 0x00000693  # addi x13, x0, 0
    .word 0x00000713  # addi x14, x0, 0
    .word 0x00000793  # addi x15, x0, 0
    .word 0x00000813  # addi x16, x0, 0
    .word 0x00000893  # addi x17, x0, 0
    .word 0x00000e13  # addi x28, x0, 0
    .word 0x00000e93  # addi x29, x0, 0
    .word 0x00000f13  # addi x30, x0, 0
    .word 0x00000f93  # addi x31, x0, 0
    # back
    .word 0x00008067  # jalr x0, 0(x1)
    # from x5 to x6 up to x7, and back
    .cfi_def_cfa 2, 816
    .cfi_offset 8, -64
    .cfi_offset 9, -60
    .cfi_offset 18, -56
    .cfi_offset 19, -52
    .cfi_offset 20, -48
    .cfi_offset 21, -44
    .cfi_offset 22, -40
    .cfi_offset 23, -36
    .cfi_offset 24, -32
    .cfi_offset 25, -28
    .cfi_offset 26, -24
    .cfi_offset 27, -20
    .word 0x0062ee33  # or x28, x5, x6
    .word 0x003e7e13  # andi x28, x28, 3
    .word 0x000e0e63  # beq x28, x0, 28
    .word 0x0002ce03  # lbu x28, 0(x5)
    .word 0x01c30023  # sb x28, 0(x6)
    .word 0x00128293  # addi x5, x5, 1
    .word 0x00130313  # addi x6, x6, 1
    .word 0xfe7298e3  # bne x5, x7, -16
    .word 0x0300006f  # jal x0, 48
    .word 0x0002ae03  # lw x28, 0(x5)
    .word 0x01c32023  # sw x28, 0(x6)
    .word 0x0042ae03  # lw x28, 4(x5)
    .word 0x01c32223  # sw x28, 4(x6)
    .word 0x0082ae03  # lw x28, 8(x5)
    .word 0x01c32423  # sw x28, 8(x6)
    .word 0x00c2ae03  # lw x28, 12(x5)
    .word 0x01c32623  # sw x28, 12(x6)
    .word 0x01028293  # addi x5, x5, 16
    .word 0x01030313  # addi x6, x6, 16
    .word 0xfc729ce3  # bne x5, x7, -40
    .word 0x000f0067  # jalr x0, 0(x30)
    .cfi_endproc
    .size sha512_block, . - sha512_block
    .option pop
