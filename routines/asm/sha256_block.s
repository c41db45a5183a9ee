# sha256_block: made by factc 1.0.0 function; 1446 words, 480 bytes of stack, profile 1
    .option push
    .option norvc
    .option norelax
    .cfi_sections .debug_frame
    .section .text.sha256_block, "ax", @progbits
    .p2align 2
    .globl sha256_block
    .type sha256_block, @function
sha256_block:
    .cfi_startproc
    # room above the frame
    .word 0xfc010113  # addi x2, x2, -64
    .cfi_def_cfa_offset 64
    # the caller's registers
    .word 0x00812023  # sw x8, 0(x2)
    .cfi_offset 8, -64
    .word 0x00912223  # sw x9, 4(x2)
    .cfi_offset 9, -60
    .word 0x01212423  # sw x18, 8(x2)
    .cfi_offset 18, -56
    .word 0x01312623  # sw x19, 12(x2)
    .cfi_offset 19, -52
    .word 0x01412823  # sw x20, 16(x2)
    .cfi_offset 20, -48
    .word 0x01512a23  # sw x21, 20(x2)
    .cfi_offset 21, -44
    .word 0x01612c23  # sw x22, 24(x2)
    .cfi_offset 22, -40
    .word 0x01712e23  # sw x23, 28(x2)
    .cfi_offset 23, -36
    .word 0x03812023  # sw x24, 32(x2)
    .cfi_offset 24, -32
    .word 0x03912223  # sw x25, 36(x2)
    .cfi_offset 25, -28
    .word 0x03a12423  # sw x26, 40(x2)
    .cfi_offset 26, -24
    .word 0x03b12623  # sw x27, 44(x2)
    .cfi_offset 27, -20
    # arguments that are needed behind the body
    .word 0x02a12e23  # sw x10, 60(x2)
    # the frame's base
    .word 0xe6010113  # addi x2, x2, -416
    .cfi_def_cfa 2, 480
    # parameter 0: an array
    .word 0x00050293  # addi x5, x10, 0
    .word 0x00010313  # addi x6, x2, 0
    .word 0x02028393  # addi x7, x5, 32
    .word 0x5fc01f6f  # jal x30, 5628
    # parameter 1: an array
    .word 0x00058293  # addi x5, x11, 0
    .word 0x02010313  # addi x6, x2, 32
    .word 0x04028393  # addi x7, x5, 64
    .word 0x5ec01f6f  # jal x30, 5612
    # the body
    .word 0x428a32b7  # lui x5, 0x428a3
    .word 0xf9828293  # addi x5, x5, -104
    .word 0x06512023  # sw x5, 96(x2)
    .word 0xe49b72b7  # lui x5, 0xe49b7
    .word 0x9c128293  # addi x5, x5, -1599
    .word 0x06512223  # sw x5, 100(x2)
    .word 0x27b712b7  # lui x5, 0x27b71
    .word 0xa8528293  # addi x5, x5, -1403
    .word 0x06512423  # sw x5, 104(x2)
    .word 0x19a4c2b7  # lui x5, 0x19a4c
    .word 0x11628293  # addi x5, x5, 278
    .word 0x06512623  # sw x5, 108(x2)
    .word 0x713742b7  # lui x5, 0x71374
    .word 0x49128293  # addi x5, x5, 1169
    .word 0x06512823  # sw x5, 112(x2)
    .word 0xefbe42b7  # lui x5, 0xefbe4
    .word 0x78628293  # addi x5, x5, 1926
    .word 0x06512a23  # sw x5, 116(x2)
    .word 0x2e1b22b7  # lui x5, 0x2e1b2
    .word 0x13828293  # addi x5, x5, 312
    .word 0x06512c23  # sw x5, 120(x2)
    .word 0x1e3772b7  # lui x5, 0x1e377
    .word 0xc0828293  # addi x5, x5, -1016
    .word 0x06512e23  # sw x5, 124(x2)
    .word 0xb5c102b7  # lui x5, 0xb5c10
    .word 0xbcf28293  # addi x5, x5, -1073
    .word 0x08512023  # sw x5, 128(x2)
    .word 0x0fc1a2b7  # lui x5, 0x0fc1a
    .word 0xdc628293  # addi x5, x5, -570
    .word 0x08512223  # sw x5, 132(x2)
    .word 0x4d2c72b7  # lui x5, 0x4d2c7
    .word 0xdfc28293  # addi x5, x5, -516
    .word 0x08512423  # sw x5, 136(x2)
    .word 0x274872b7  # lui x5, 0x27487
    .word 0x74c28293  # addi x5, x5, 1868
    .word 0x08512623  # sw x5, 140(x2)
    .word 0xe9b5e2b7  # lui x5, 0xe9b5e
    .word 0xba528293  # addi x5, x5, -1115
    .word 0x08512823  # sw x5, 144(x2)
    .word 0x240ca2b7  # lui x5, 0x240ca
    .word 0x1cc28293  # addi x5, x5, 460
    .word 0x08512a23  # sw x5, 148(x2)
    .word 0x533812b7  # lui x5, 0x53381
    .word 0xd1328293  # addi x5, x5, -749
    .word 0x08512c23  # sw x5, 152(x2)
    .word 0x34b0c2b7  # lui x5, 0x34b0c
    .word 0xcb528293  # addi x5, x5, -843
    .word 0x08512e23  # sw x5, 156(x2)
    .word 0x3956c2b7  # lui x5, 0x3956c
    .word 0x25b28293  # addi x5, x5, 603
    .word 0x0a512023  # sw x5, 160(x2)
    .word 0x2de932b7  # lui x5, 0x2de93
    .word 0xc6f28293  # addi x5, x5, -913
    .word 0x0a512223  # sw x5, 164(x2)
    .word 0x650a72b7  # lui x5, 0x650a7
    .word 0x35428293  # addi x5, x5, 852
    .word 0x0a512423  # sw x5, 168(x2)
    .word 0x391c12b7  # lui x5, 0x391c1
    .word 0xcb328293  # addi x5, x5, -845
    .word 0x0a512623  # sw x5, 172(x2)
    .word 0x59f112b7  # lui x5, 0x59f11
    .word 0x1f128293  # addi x5, x5, 497
    .word 0x0a512823  # sw x5, 176(x2)
    .word 0x4a7482b7  # lui x5, 0x4a748
    .word 0x4aa28293  # addi x5, x5, 1194
    .word 0x0a512a23  # sw x5, 180(x2)
    .word 0x766a12b7  # lui x5, 0x766a1
    .word 0xabb28293  # addi x5, x5, -1349
    .word 0x0a512c23  # sw x5, 184(x2)
    .word 0x4ed8b2b7  # lui x5, 0x4ed8b
    .word 0xa4a28293  # addi x5, x5, -1462
    .word 0x0a512e23  # sw x5, 188(x2)
    .word 0x923f82b7  # lui x5, 0x923f8
    .word 0x2a428293  # addi x5, x5, 676
    .word 0x0c512023  # sw x5, 192(x2)
    .word 0x5cb0b2b7  # lui x5, 0x5cb0b
    .word 0x9dc28293  # addi x5, x5, -1572
    .word 0x0c512223  # sw x5, 196(x2)
    .word 0x81c2d2b7  # lui x5, 0x81c2d
    .word 0x92e28293  # addi x5, x5, -1746
    .word 0x0c512423  # sw x5, 200(x2)
    .word 0x5b9cd2b7  # lui x5, 0x5b9cd
    .word 0xa4f28293  # addi x5, x5, -1457
    .word 0x0c512623  # sw x5, 204(x2)
    .word 0xab1c62b7  # lui x5, 0xab1c6
    .word 0xed528293  # addi x5, x5, -299
    .word 0x0c512823  # sw x5, 208(x2)
    .word 0x76f992b7  # lui x5, 0x76f99
    .word 0x8da28293  # addi x5, x5, -1830
    .word 0x0c512a23  # sw x5, 212(x2)
    .word 0x927232b7  # lui x5, 0x92723
    .word 0xc8528293  # addi x5, x5, -891
    .word 0x0c512c23  # sw x5, 216(x2)
    .word 0x682e72b7  # lui x5, 0x682e7
    .word 0xff328293  # addi x5, x5, -13
    .word 0x0c512e23  # sw x5, 220(x2)
    .word 0xd807b2b7  # lui x5, 0xd807b
    .word 0xa9828293  # addi x5, x5, -1384
    .word 0x0e512023  # sw x5, 224(x2)
    .word 0x983e52b7  # lui x5, 0x983e5
    .word 0x15228293  # addi x5, x5, 338
    .word 0x0e512223  # sw x5, 228(x2)
    .word 0xa2bff2b7  # lui x5, 0xa2bff
    .word 0x8a128293  # addi x5, x5, -1887
    .word 0x0e512423  # sw x5, 232(x2)
    .word 0x748f82b7  # lui x5, 0x748f8
    .word 0x2ee28293  # addi x5, x5, 750
    .word 0x0e512623  # sw x5, 236(x2)
    .word 0x128362b7  # lui x5, 0x12836
    .word 0xb0128293  # addi x5, x5, -1279
    .word 0x0e512823  # sw x5, 240(x2)
    .word 0xa831c2b7  # lui x5, 0xa831c
    .word 0x66d28293  # addi x5, x5, 1645
    .word 0x0e512a23  # sw x5, 244(x2)
    .word 0xa81a62b7  # lui x5, 0xa81a6
    .word 0x64b28293  # addi x5, x5, 1611
    .word 0x0e512c23  # sw x5, 248(x2)
    .word 0x78a562b7  # lui x5, 0x78a56
    .word 0x36f28293  # addi x5, x5, 879
    .word 0x0e512e23  # sw x5, 252(x2)
    .word 0x243182b7  # lui x5, 0x24318
    .word 0x5be28293  # addi x5, x5, 1470
    .word 0x10512023  # sw x5, 256(x2)
    .word 0xb00322b7  # lui x5, 0xb0032
    .word 0x7c828293  # addi x5, x5, 1992
    .word 0x10512223  # sw x5, 260(x2)
    .word 0xc24b92b7  # lui x5, 0xc24b9
    .word 0xb7028293  # addi x5, x5, -1168
    .word 0x10512423  # sw x5, 264(x2)
    .word 0x84c882b7  # lui x5, 0x84c88
    .word 0x81428293  # addi x5, x5, -2028
    .word 0x10512623  # sw x5, 268(x2)
    .word 0x550c82b7  # lui x5, 0x550c8
    .word 0xdc328293  # addi x5, x5, -573
    .word 0x10512823  # sw x5, 272(x2)
    .word 0xbf5982b7  # lui x5, 0xbf598
    .word 0xfc728293  # addi x5, x5, -57
    .word 0x10512a23  # sw x5, 276(x2)
    .word 0xc76c52b7  # lui x5, 0xc76c5
    .word 0x1a328293  # addi x5, x5, 419
    .word 0x10512c23  # sw x5, 280(x2)
    .word 0x8cc702b7  # lui x5, 0x8cc70
    .word 0x20828293  # addi x5, x5, 520
    .word 0x10512e23  # sw x5, 284(x2)
    .word 0x72be62b7  # lui x5, 0x72be6
    .word 0xd7428293  # addi x5, x5, -652
    .word 0x12512023  # sw x5, 288(x2)
    .word 0xc6e012b7  # lui x5, 0xc6e01
    .word 0xbf328293  # addi x5, x5, -1037
    .word 0x12512223  # sw x5, 292(x2)
    .word 0xd192f2b7  # lui x5, 0xd192f
    .word 0x81928293  # addi x5, x5, -2023
    .word 0x12512423  # sw x5, 296(x2)
    .word 0x90bf02b7  # lui x5, 0x90bf0
    .word 0xffa28293  # addi x5, x5, -6
    .word 0x12512623  # sw x5, 300(x2)
    .word 0x80deb2b7  # lui x5, 0x80deb
    .word 0x1fe28293  # addi x5, x5, 510
    .word 0x12512823  # sw x5, 304(x2)
    .word 0xd5a792b7  # lui x5, 0xd5a79
    .word 0x14728293  # addi x5, x5, 327
    .word 0x12512a23  # sw x5, 308(x2)
    .word 0xd69902b7  # lui x5, 0xd6990
    .word 0x62428293  # addi x5, x5, 1572
    .word 0x12512c23  # sw x5, 312(x2)
    .word 0xa45072b7  # lui x5, 0xa4507
    .word 0xceb28293  # addi x5, x5, -789
    .word 0x12512e23  # sw x5, 316(x2)
    .word 0x9bdc02b7  # lui x5, 0x9bdc0
    .word 0x6a728293  # addi x5, x5, 1703
    .word 0x14512023  # sw x5, 320(x2)
    .word 0x06ca62b7  # lui x5, 0x06ca6
    .word 0x35128293  # addi x5, x5, 849
    .word 0x14512223  # sw x5, 324(x2)
    .word 0xf40e32b7  # lui x5, 0xf40e3
    .word 0x58528293  # addi x5, x5, 1413
    .word 0x14512423  # sw x5, 328(x2)
    .word 0xbef9a2b7  # lui x5, 0xbef9a
    .word 0x3f728293  # addi x5, x5, 1015
    .word 0x14512623  # sw x5, 332(x2)
    .word 0xc19bf2b7  # lui x5, 0xc19bf
    .word 0x17428293  # addi x5, x5, 372
    .word 0x14512823  # sw x5, 336(x2)
    .word 0x142932b7  # lui x5, 0x14293
    .word 0x96728293  # addi x5, x5, -1689
    .word 0x14512a23  # sw x5, 340(x2)
    .word 0x106aa2b7  # lui x5, 0x106aa
    .word 0x07028293  # addi x5, x5, 112
    .word 0x14512c23  # sw x5, 344(x2)
    .word 0xc67182b7  # lui x5, 0xc6718
    .word 0x8f228293  # addi x5, x5, -1806
    .word 0x14512e23  # sw x5, 348(x2)
    .word 0x02014283  # lbu x5, 32(x2)
    .word 0x01829293  # slli x5, x5, 24
    .word 0x02114303  # lbu x6, 33(x2)
    .word 0x01031313  # slli x6, x6, 16
    .word 0x0062e733  # or x14, x5, x6
    .word 0x02214283  # lbu x5, 34(x2)
    .word 0x00829293  # slli x5, x5, 8
    .word 0x02314303  # lbu x6, 35(x2)
    .word 0x0062e7b3  # or x15, x5, x6
    .word 0x00f76ab3  # or x21, x14, x15
    .word 0x02414283  # lbu x5, 36(x2)
    .word 0x01829293  # slli x5, x5, 24
    .word 0x02514303  # lbu x6, 37(x2)
    .word 0x01031313  # slli x6, x6, 16
    .word 0x0062e733  # or x14, x5, x6
    .word 0x02614283  # lbu x5, 38(x2)
    .word 0x00829293  # slli x5, x5, 8
    .word 0x02714303  # lbu x6, 39(x2)
    .word 0x0062e7b3  # or x15, x5, x6
    .word 0x00f76b33  # or x22, x14, x15
    .word 0x02814283  # lbu x5, 40(x2)
    .word 0x01829293  # slli x5, x5, 24
    .word 0x02914303  # lbu x6, 41(x2)
    .word 0x01031313  # slli x6, x6, 16
    .word 0x0062e733  # or x14, x5, x6
    .word 0x02a14283  # lbu x5, 42(x2)
    .word 0x00829293  # slli x5, x5, 8
    .word 0x02b14303  # lbu x6, 43(x2)
    .word 0x0062e7b3  # or x15, x5, x6
    .word 0x00f76bb3  # or x23, x14, x15
    .word 0x02c14283  # lbu x5, 44(x2)
    .word 0x01829293  # slli x5, x5, 24
    .word 0x02d14303  # lbu x6, 45(x2)
    .word 0x01031313  # slli x6, x6, 16
    .word 0x0062e733  # or x14, x5, x6
    .word 0x02e14283  # lbu x5, 46(x2)
    .word 0x00829293  # slli x5, x5, 8
    .word 0x02f14303  # lbu x6, 47(x2)
    .word 0x0062e7b3  # or x15, x5, x6
    .word 0x00f76c33  # or x24, x14, x15
    .word 0x03014283  # lbu x5, 48(x2)
    .word 0x01829293  # slli x5, x5, 24
    .word 0x03114303  # lbu x6, 49(x2)
    .word 0x01031313  # slli x6, x6, 16
    .word 0x0062e733  # or x14, x5, x6
    .word 0x03214283  # lbu x5, 50(x2)
    .word 0x00829293  # slli x5, x5, 8
    .word 0x03314303  # lbu x6, 51(x2)
    .word 0x0062e7b3  # or x15, x5, x6
    .word 0x00f76cb3  # or x25, x14, x15
    .word 0x03414283  # lbu x5, 52(x2)
    .word 0x01829293  # slli x5, x5, 24
    .word 0x03514303  # lbu x6, 53(x2)
    .word 0x01031313  # slli x6, x6, 16
    .word 0x0062e733  # or x14, x5, x6
    .word 0x03614283  # lbu x5, 54(x2)
    .word 0x00829293  # slli x5, x5, 8
    .word 0x03714303  # lbu x6, 55(x2)
    .word 0x0062e7b3  # or x15, x5, x6
    .word 0x00f76d33  # or x26, x14, x15
    .word 0x03814283  # lbu x5, 56(x2)
    .word 0x01829293  # slli x5, x5, 24
    .word 0x03914303  # lbu x6, 57(x2)
    .word 0x01031313  # slli x6, x6, 16
    .word 0x0062e733  # or x14, x5, x6
    .word 0x03a14283  # lbu x5, 58(x2)
    .word 0x00829293  # slli x5, x5, 8
    .word 0x03b14303  # lbu x6, 59(x2)
    .word 0x0062e7b3  # or x15, x5, x6
    .word 0x00f76db3  # or x27, x14, x15
    .word 0x03c14283  # lbu x5, 60(x2)
    .word 0x01829293  # slli x5, x5, 24
    .word 0x03d14303  # lbu x6, 61(x2)
    .word 0x01031313  # slli x6, x6, 16
    .word 0x0062e733  # or x14, x5, x6
    .word 0x03e14283  # lbu x5, 62(x2)
    .word 0x00829293  # slli x5, x5, 8
    .word 0x03f14303  # lbu x6, 63(x2)
    .word 0x0062e7b3  # or x15, x5, x6
    .word 0x00f76433  # or x8, x14, x15
    .word 0x04014283  # lbu x5, 64(x2)
    .word 0x01829293  # slli x5, x5, 24
    .word 0x04114303  # lbu x6, 65(x2)
    .word 0x01031313  # slli x6, x6, 16
    .word 0x0062e733  # or x14, x5, x6
    .word 0x04214283  # lbu x5, 66(x2)
    .word 0x00829293  # slli x5, x5, 8
    .word 0x04314303  # lbu x6, 67(x2)
    .word 0x0062e7b3  # or x15, x5, x6
    .word 0x00f762b3  # or x5, x14, x15
    .word 0x16512623  # sw x5, 364(x2)
    .word 0x04414283  # lbu x5, 68(x2)
    .word 0x01829293  # slli x5, x5, 24
    .word 0x04514303  # lbu x6, 69(x2)
    .word 0x01031313  # slli x6, x6, 16
    .word 0x0062e733  # or x14, x5, x6
    .word 0x04614283  # lbu x5, 70(x2)
    .word 0x00829293  # slli x5, x5, 8
    .word 0x04714303  # lbu x6, 71(x2)
    .word 0x0062e7b3  # or x15, x5, x6
    .word 0x00f762b3  # or x5, x14, x15
    .word 0x16512823  # sw x5, 368(x2)
    .word 0x04814283  # lbu x5, 72(x2)
    .word 0x01829293  # slli x5, x5, 24
    .word 0x04914303  # lbu x6, 73(x2)
    .word 0x01031313  # slli x6, x6, 16
    .word 0x0062e733  # or x14, x5, x6
    .word 0x04a14283  # lbu x5, 74(x2)
    .word 0x00829293  # slli x5, x5, 8
    .word 0x04b14303  # lbu x6, 75(x2)
    .word 0x0062e7b3  # or x15, x5, x6
    .word 0x00f762b3  # or x5, x14, x15
    .word 0x16512a23  # sw x5, 372(x2)
    .word 0x04c14283  # lbu x5, 76(x2)
    .word 0x01829293  # slli x5, x5, 24
    .word 0x04d14303  # lbu x6, 77(x2)
    .word 0x01031313  # slli x6, x6, 16
    .word 0x0062e733  # or x14, x5, x6
    .word 0x04e14283  # lbu x5, 78(x2)
    .word 0x00829293  # slli x5, x5, 8
    .word 0x04f14303  # lbu x6, 79(x2)
    .word 0x0062e7b3  # or x15, x5, x6
    .word 0x00f762b3  # or x5, x14, x15
    .word 0x16512c23  # sw x5, 376(x2)
    .word 0x05014283  # lbu x5, 80(x2)
    .word 0x01829293  # slli x5, x5, 24
    .word 0x05114303  # lbu x6, 81(x2)
    .word 0x01031313  # slli x6, x6, 16
    .word 0x0062e733  # or x14, x5, x6
    .word 0x05214283  # lbu x5, 82(x2)
    .word 0x00829293  # slli x5, x5, 8
    .word 0x05314303  # lbu x6, 83(x2)
    .word 0x0062e7b3  # or x15, x5, x6
    .word 0x00f762b3  # or x5, x14, x15
    .word 0x16512e23  # sw x5, 380(x2)
    .word 0x05414283  # lbu x5, 84(x2)
    .word 0x01829293  # slli x5, x5, 24
    .word 0x05514303  # lbu x6, 85(x2)
    .word 0x01031313  # slli x6, x6, 16
    .word 0x0062e733  # or x14, x5, x6
    .word 0x05614283  # lbu x5, 86(x2)
    .word 0x00829293  # slli x5, x5, 8
    .word 0x05714303  # lbu x6, 87(x2)
    .word 0x0062e7b3  # or x15, x5, x6
    .word 0x00f762b3  # or x5, x14, x15
    .word 0x18512023  # sw x5, 384(x2)
    .word 0x05814283  # lbu x5, 88(x2)
    .word 0x01829293  # slli x5, x5, 24
    .word 0x05914303  # lbu x6, 89(x2)
    .word 0x01031313  # slli x6, x6, 16
    .word 0x0062e733  # or x14, x5, x6
    .word 0x05a14283  # lbu x5, 90(x2)
    .word 0x00829293  # slli x5, x5, 8
    .word 0x05b14303  # lbu x6, 91(x2)
    .word 0x0062e7b3  # or x15, x5, x6
    .word 0x00f762b3  # or x5, x14, x15
    .word 0x18512223  # sw x5, 388(x2)
    .word 0x05c14283  # lbu x5, 92(x2)
    .word 0x01829293  # slli x5, x5, 24
    .word 0x05d14303  # lbu x6, 93(x2)
    .word 0x01031313  # slli x6, x6, 16
    .word 0x0062e733  # or x14, x5, x6
    .word 0x05e14283  # lbu x5, 94(x2)
    .word 0x00829293  # slli x5, x5, 8
    .word 0x05f14303  # lbu x6, 95(x2)
    .word 0x0062e7b3  # or x15, x5, x6
    .word 0x00f762b3  # or x5, x14, x15
    .word 0x18512423  # sw x5, 392(x2)
    .word 0x00012503  # lw x10, 0(x2)
    .word 0x00412583  # lw x11, 4(x2)
    .word 0x00812603  # lw x12, 8(x2)
    .word 0x00c12683  # lw x13, 12(x2)
    .word 0x01012703  # lw x14, 16(x2)
    .word 0x01412783  # lw x15, 20(x2)
    .word 0x01812803  # lw x16, 24(x2)
    .word 0x01c12883  # lw x17, 28(x2)
    .word 0x00c5c933  # xor x18, x11, x12
    .word 0xfff00a13  # addi x20, x0, -1
    .word 0x001a0a13  # addi x20, x20, 1
    .word 0x002a1493  # slli x9, x20, 2
    .word 0x002484b3  # add x9, x9, x2
    .word 0x5f407663  # bgeu x0, x20, 1516
    .word 0x00070993  # addi x19, x14, 0
    .word 0x16f12023  # sw x15, 352(x2)
    .word 0x17012223  # sw x16, 356(x2)
    .word 0x17112423  # sw x17, 360(x2)
    .word 0x019b1f13  # slli x30, x22, 25
    .word 0x007b5293  # srli x5, x22, 7
    .word 0x005f02b3  # add x5, x30, x5
    .word 0x00eb1f13  # slli x30, x22, 14
    .word 0x012b5313  # srli x6, x22, 18
    .word 0x006f0333  # add x6, x30, x6
    .word 0x0062c2b3  # xor x5, x5, x6
    .word 0x003b5313  # srli x6, x22, 3
    .word 0x0062c2b3  # xor x5, x5, x6
    .word 0x015282b3  # add x5, x5, x21
    .word 0x17012303  # lw x6, 368(x2)
    .word 0x00628ab3  # add x21, x5, x6
    .word 0x18412283  # lw x5, 388(x2)
    .word 0x00f29f13  # slli x30, x5, 15
    .word 0x0112d293  # srli x5, x5, 17
    .word 0x005f02b3  # add x5, x30, x5
    .word 0x18412303  # lw x6, 388(x2)
    .word 0x00d31f13  # slli x30, x6, 13
    .word 0x01335313  # srli x6, x6, 19
    .word 0x006f0333  # add x6, x30, x6
    .word 0x0062c2b3  # xor x5, x5, x6
    .word 0x18412303  # lw x6, 388(x2)
    .word 0x00a35313  # srli x6, x6, 10
    .word 0x0062c2b3  # xor x5, x5, x6
    .word 0x01528ab3  # add x21, x5, x21
    .word 0x019b9f13  # slli x30, x23, 25
    .word 0x007bd293  # srli x5, x23, 7
    .word 0x005f02b3  # add x5, x30, x5
    .word 0x00eb9f13  # slli x30, x23, 14
    .word 0x012bd313  # srli x6, x23, 18
    .word 0x006f0333  # add x6, x30, x6
    .word 0x0062c2b3  # xor x5, x5, x6
    .word 0x003bd313  # srli x6, x23, 3
    .word 0x0062c2b3  # xor x5, x5, x6
    .word 0x016282b3  # add x5, x5, x22
    .word 0x17412303  # lw x6, 372(x2)
    .word 0x00628b33  # add x22, x5, x6
    .word 0x18812283  # lw x5, 392(x2)
    .word 0x00f29f13  # slli x30, x5, 15
    .word 0x0112d293  # srli x5, x5, 17
    .word 0x005f02b3  # add x5, x30, x5
    .word 0x18812303  # lw x6, 392(x2)
    .word 0x00d31f13  # slli x30, x6, 13
    .word 0x01335313  # srli x6, x6, 19
    .word 0x006f0333  # add x6, x30, x6
    .word 0x0062c2b3  # xor x5, x5, x6
    .word 0x18812303  # lw x6, 392(x2)
    .word 0x00a35313  # srli x6, x6, 10
    .word 0x0062c2b3  # xor x5, x5, x6
    .word 0x01628b33  # add x22, x5, x22
    .word 0x019c1f13  # slli x30, x24, 25
    .word 0x007c5293  # srli x5, x24, 7
    .word 0x005f02b3  # add x5, x30, x5
    .word 0x00ec1f13  # slli x30, x24, 14
    .word 0x012c5313  # srli x6, x24, 18
    .word 0x006f0333  # add x6, x30, x6
    .word 0x0062c2b3  # xor x5, x5, x6
    .word 0x003c5313  # srli x6, x24, 3
    .word 0x0062c2b3  # xor x5, x5, x6
    .word 0x017282b3  # add x5, x5, x23
    .word 0x17812303  # lw x6, 376(x2)
    .word 0x00628bb3  # add x23, x5, x6
    .word 0x00fa9f13  # slli x30, x21, 15
    .word 0x011ad293  # srli x5, x21, 17
    .word 0x005f02b3  # add x5, x30, x5
    .word 0x00da9f13  # slli x30, x21, 13
    .word 0x013ad313  # srli x6, x21, 19
    .word 0x006f0333  # add x6, x30, x6
    .word 0x0062c2b3  # xor x5, x5, x6
    .word 0x00aad313  # srli x6, x21, 10
    .word 0x0062c2b3  # xor x5, x5, x6
    .word 0x01728bb3  # add x23, x5, x23
    .word 0x019c9f13  # slli x30, x25, 25
    .word 0x007cd293  # srli x5, x25, 7
    .word 0x005f02b3  # add x5, x30, x5
    .word 0x00ec9f13  # slli x30, x25, 14
    .word 0x012cd313  # srli x6, x25, 18
    .word 0x006f0333  # add x6, x30, x6
    .word 0x0062c2b3  # xor x5, x5, x6
    .word 0x003cd313  # srli x6, x25, 3
    .word 0x0062c2b3  # xor x5, x5, x6
    .word 0x018282b3  # add x5, x5, x24
    .word 0x17c12303  # lw x6, 380(x2)
    .word 0x00628c33  # add x24, x5, x6
    .word 0x00fb1f13  # slli x30, x22, 15
    .word 0x011b5293  # srli x5, x22, 17
    .word 0x005f02b3  # add x5, x30, x5
    .word 0x00db1f13  # slli x30, x22, 13
    .word 0x013b5313  # srli x6, x22, 19
    .word 0x006f0333  # add x6, x30, x6
    .word 0x0062c2b3  # xor x5, x5, x6
    .word 0x00ab5313  # srli x6, x22, 10
    .word 0x0062c2b3  # xor x5, x5, x6
    .word 0x01828c33  # add x24, x5, x24
    .word 0x019d1f13  # slli x30, x26, 25
    .word 0x007d5293  # srli x5, x26, 7
    .word 0x005f02b3  # add x5, x30, x5
    .word 0x00ed1f13  # slli x30, x26, 14
    .word 0x012d5313  # srli x6, x26, 18
    .word 0x006f0333  # add x6, x30, x6
    .word 0x0062c2b3  # xor x5, x5, x6
    .word 0x003d5313  # srli x6, x26, 3
    .word 0x0062c2b3  # xor x5, x5, x6
    .word 0x019282b3  # add x5, x5, x25
    .word 0x18012303  # lw x6, 384(x2)
    .word 0x00628cb3  # add x25, x5, x6
    .word 0x00fb9f13  # slli x30, x23, 15
    .word 0x011bd293  # srli x5, x23, 17
    .word 0x005f02b3  # add x5, x30, x5
    .word 0x00db9f13  # slli x30, x23, 13
    .word 0x013bd313  # srli x6, x23, 19
    .word 0x006f0333  # add x6, x30, x6
    .word 0x0062c2b3  # xor x5, x5, x6
    .word 0x00abd313  # srli x6, x23, 10
    .word 0x0062c2b3  # xor x5, x5, x6
    .word 0x01928cb3  # add x25, x5, x25
    .word 0x019d9f13  # slli x30, x27, 25
    .word 0x007dd293  # srli x5, x27, 7
    .word 0x005f02b3  # add x5, x30, x5
    .word 0x00ed9f13  # slli x30, x27, 14
    .word 0x012dd313  # srli x6, x27, 18
    .word 0x006f0333  # add x6, x30, x6
    .word 0x0062c2b3  # xor x5, x5, x6
    .word 0x003dd313  # srli x6, x27, 3
    .word 0x0062c2b3  # xor x5, x5, x6
    .word 0x01a282b3  # add x5, x5, x26
    .word 0x18412303  # lw x6, 388(x2)
    .word 0x00628d33  # add x26, x5, x6
    .word 0x00fc1f13  # slli x30, x24, 15
    .word 0x011c5293  # srli x5, x24, 17
    .word 0x005f02b3  # add x5, x30, x5
    .word 0x00dc1f13  # slli x30, x24, 13
    .word 0x013c5313  # srli x6, x24, 19
    .word 0x006f0333  # add x6, x30, x6
    .word 0x0062c2b3  # xor x5, x5, x6
    .word 0x00ac5313  # srli x6, x24, 10
    .word 0x0062c2b3  # xor x5, x5, x6
    .word 0x01a28d33  # add x26, x5, x26
    .word 0x01941f13  # slli x30, x8, 25
    .word 0x00745293  # srli x5, x8, 7
    .word 0x005f02b3  # add x5, x30, x5
    .word 0x00e41f13  # slli x30, x8, 14
    .word 0x01245313  # srli x6, x8, 18
    .word 0x006f0333  # add x6, x30, x6
    .word 0x0062c2b3  # xor x5, x5, x6
    .word 0x00345313  # srli x6, x8, 3
    .word 0x0062c2b3  # xor x5, x5, x6
    .word 0x01b282b3  # add x5, x5, x27
    .word 0x18812303  # lw x6, 392(x2)
    .word 0x00628db3  # add x27, x5, x6
    .word 0x00fc9f13  # slli x30, x25, 15
    .word 0x011cd293  # srli x5, x25, 17
    .word 0x005f02b3  # add x5, x30, x5
    .word 0x00dc9f13  # slli x30, x25, 13
    .word 0x013cd313  # srli x6, x25, 19
    .word 0x006f0333  # add x6, x30, x6
    .word 0x0062c2b3  # xor x5, x5, x6
    .word 0x00acd313  # srli x6, x25, 10
    .word 0x0062c2b3  # xor x5, x5, x6
    .word 0x01b28db3  # add x27, x5, x27
    .word 0x16c12283  # lw x5, 364(x2)
    .word 0x01929f13  # slli x30, x5, 25
    .word 0x0072d293  # srli x5, x5, 7
    .word 0x005f02b3  # add x5, x30, x5
    .word 0x16c12303  # lw x6, 364(x2)
    .word 0x00e31f13  # slli x30, x6, 14
    .word 0x01235313  # srli x6, x6, 18
    .word 0x006f0333  # add x6, x30, x6
    .word 0x0062c2b3  # xor x5, x5, x6
    .word 0x16c12303  # lw x6, 364(x2)
    .word 0x00335313  # srli x6, x6, 3
    .word 0x0062c2b3  # xor x5, x5, x6
    .word 0x008282b3  # add x5, x5, x8
    .word 0x01528433  # add x8, x5, x21
    .word 0x00fd1f13  # slli x30, x26, 15
    .word 0x011d5293  # srli x5, x26, 17
    .word 0x005f02b3  # add x5, x30, x5
    .word 0x00dd1f13  # slli x30, x26, 13
    .word 0x013d5313  # srli x6, x26, 19
    .word 0x006f0333  # add x6, x30, x6
    .word 0x0062c2b3  # xor x5, x5, x6
    .word 0x00ad5313  # srli x6, x26, 10
    .word 0x0062c2b3  # xor x5, x5, x6
    .word 0x00828433  # add x8, x5, x8
    .word 0x16c12703  # lw x14, 364(x2)
    .word 0x17012783  # lw x15, 368(x2)
    .word 0x01979f13  # slli x30, x15, 25
    .word 0x0077d293  # srli x5, x15, 7
    .word 0x005f02b3  # add x5, x30, x5
    .word 0x00e79f13  # slli x30, x15, 14
    .word 0x0127d313  # srli x6, x15, 18
    .word 0x006f0333  # add x6, x30, x6
    .word 0x0062c2b3  # xor x5, x5, x6
    .word 0x0037d313  # srli x6, x15, 3
    .word 0x0062c2b3  # xor x5, x5, x6
    .word 0x00e282b3  # add x5, x5, x14
    .word 0x01628733  # add x14, x5, x22
    .word 0x00fd9f13  # slli x30, x27, 15
    .word 0x011dd293  # srli x5, x27, 17
    .word 0x005f02b3  # add x5, x30, x5
    .word 0x00dd9f13  # slli x30, x27, 13
    .word 0x013dd313  # srli x6, x27, 19
    .word 0x006f0333  # add x6, x30, x6
    .word 0x0062c2b3  # xor x5, x5, x6
    .word 0x00add313  # srli x6, x27, 10
    .word 0x0062c2b3  # xor x5, x5, x6
    .word 0x00e28733  # add x14, x5, x14
    .word 0x16e12623  # sw x14, 364(x2)
    .word 0x17412803  # lw x16, 372(x2)
    .word 0x01981f13  # slli x30, x16, 25
    .word 0x00785293  # srli x5, x16, 7
    .word 0x005f02b3  # add x5, x30, x5
    .word 0x00e81f13  # slli x30, x16, 14
    .word 0x01285313  # srli x6, x16, 18
    .word 0x006f0333  # add x6, x30, x6
    .word 0x0062c2b3  # xor x5, x5, x6
    .word 0x00385313  # srli x6, x16, 3
    .word 0x0062c2b3  # xor x5, x5, x6
    .word 0x00f282b3  # add x5, x5, x15
    .word 0x017287b3  # add x15, x5, x23
    .word 0x00f41f13  # slli x30, x8, 15
    .word 0x01145293  # srli x5, x8, 17
    .word 0x005f02b3  # add x5, x30, x5
    .word 0x00d41f13  # slli x30, x8, 13
    .word 0x01345313  # srli x6, x8, 19
    .word 0x006f0333  # add x6, x30, x6
    .word 0x0062c2b3  # xor x5, x5, x6
    .word 0x00a45313  # srli x6, x8, 10
    .word 0x0062c2b3  # xor x5, x5, x6
    .word 0x00f287b3  # add x15, x5, x15
    .word 0x16f12823  # sw x15, 368(x2)
    .word 0x17812883  # lw x17, 376(x2)
    .word 0x01989f13  # slli x30, x17, 25
    .word 0x0078d293  # srli x5, x17, 7
    .word 0x005f02b3  # add x5, x30, x5
    .word 0x00e89f13  # slli x30, x17, 14
    .word 0x0128d313  # srli x6, x17, 18
    .word 0x006f0333  # add x6, x30, x6
    .word 0x0062c2b3  # xor x5, x5, x6
    .word 0x0038d313  # srli x6, x17, 3
    .word 0x0062c2b3  # xor x5, x5, x6
    .word 0x010282b3  # add x5, x5, x16
    .word 0x01828833  # add x16, x5, x24
    .word 0x00f71f13  # slli x30, x14, 15
    .word 0x01175293  # srli x5, x14, 17
    .word 0x005f02b3  # add x5, x30, x5
    .word 0x00d71f13  # slli x30, x14, 13
    .word 0x01375313  # srli x6, x14, 19
    .word 0x006f0333  # add x6, x30, x6
    .word 0x0062c2b3  # xor x5, x5, x6
    .word 0x00a75313  # srli x6, x14, 10
    .word 0x0062c2b3  # xor x5, x5, x6
    .word 0x01028833  # add x16, x5, x16
    .word 0x17012a23  # sw x16, 372(x2)
    .word 0x17c12703  # lw x14, 380(x2)
    .word 0x01971f13  # slli x30, x14, 25
    .word 0x00775293  # srli x5, x14, 7
    .word 0x005f02b3  # add x5, x30, x5
    .word 0x00e71f13  # slli x30, x14, 14
    .word 0x01275313  # srli x6, x14, 18
    .word 0x006f0333  # add x6, x30, x6
    .word 0x0062c2b3  # xor x5, x5, x6
    .word 0x00375313  # srli x6, x14, 3
    .word 0x0062c2b3  # xor x5, x5, x6
    .word 0x011282b3  # add x5, x5, x17
    .word 0x019288b3  # add x17, x5, x25
    .word 0x00f79f13  # slli x30, x15, 15
    .word 0x0117d293  # srli x5, x15, 17
    .word 0x005f02b3  # add x5, x30, x5
    .word 0x00d79f13  # slli x30, x15, 13
    .word 0x0137d313  # srli x6, x15, 19
    .word 0x006f0333  # add x6, x30, x6
    .word 0x0062c2b3  # xor x5, x5, x6
    .word 0x00a7d313  # srli x6, x15, 10
    .word 0x0062c2b3  # xor x5, x5, x6
    .word 0x011288b3  # add x17, x5, x17
    .word 0x17112c23  # sw x17, 376(x2)
    .word 0x18012783  # lw x15, 384(x2)
    .word 0x01979f13  # slli x30, x15, 25
    .word 0x0077d293  # srli x5, x15, 7
    .word 0x005f02b3  # add x5, x30, x5
    .word 0x00e79f13  # slli x30, x15, 14
    .word 0x0127d313  # srli x6, x15, 18
    .word 0x006f0333  # add x6, x30, x6
    .word 0x0062c2b3  # xor x5, x5, x6
    .word 0x0037d313  # srli x6, x15, 3
    .word 0x0062c2b3  # xor x5, x5, x6
    .word 0x00e282b3  # add x5, x5, x14
    .word 0x01a28733  # add x14, x5, x26
    .word 0x00f81f13  # slli x30, x16, 15
    .word 0x01185293  # srli x5, x16, 17
    .word 0x005f02b3  # add x5, x30, x5
    .word 0x00d81f13  # slli x30, x16, 13
    .word 0x01385313  # srli x6, x16, 19
    .word 0x006f0333  # add x6, x30, x6
    .word 0x0062c2b3  # xor x5, x5, x6
    .word 0x00a85313  # srli x6, x16, 10
    .word 0x0062c2b3  # xor x5, x5, x6
    .word 0x00e28733  # add x14, x5, x14
    .word 0x16e12e23  # sw x14, 380(x2)
    .word 0x18412803  # lw x16, 388(x2)
    .word 0x01981f13  # slli x30, x16, 25
    .word 0x00785293  # srli x5, x16, 7
    .word 0x005f02b3  # add x5, x30, x5
    .word 0x00e81f13  # slli x30, x16, 14
    .word 0x01285313  # srli x6, x16, 18
    .word 0x006f0333  # add x6, x30, x6
    .word 0x0062c2b3  # xor x5, x5, x6
    .word 0x00385313  # srli x6, x16, 3
    .word 0x0062c2b3  # xor x5, x5, x6
    .word 0x00f282b3  # add x5, x5, x15
    .word 0x01b287b3  # add x15, x5, x27
    .word 0x00f89f13  # slli x30, x17, 15
    .word 0x0118d293  # srli x5, x17, 17
    .word 0x005f02b3  # add x5, x30, x5
    .word 0x00d89f13  # slli x30, x17, 13
    .word 0x0138d313  # srli x6, x17, 19
    .word 0x006f0333  # add x6, x30, x6
    .word 0x0062c2b3  # xor x5, x5, x6
    .word 0x00a8d313  # srli x6, x17, 10
    .word 0x0062c2b3  # xor x5, x5, x6
    .word 0x00f287b3  # add x15, x5, x15
    .word 0x18f12023  # sw x15, 384(x2)
    .word 0x18812883  # lw x17, 392(x2)
    .word 0x01989f13  # slli x30, x17, 25
    .word 0x0078d293  # srli x5, x17, 7
    .word 0x005f02b3  # add x5, x30, x5
    .word 0x00e89f13  # slli x30, x17, 14
    .word 0x0128d313  # srli x6, x17, 18
    .word 0x006f0333  # add x6, x30, x6
    .word 0x0062c2b3  # xor x5, x5, x6
    .word 0x0038d313  # srli x6, x17, 3
    .word 0x0062c2b3  # xor x5, x5, x6
    .word 0x010282b3  # add x5, x5, x16
    .word 0x00828833  # add x16, x5, x8
    .word 0x00f71f13  # slli x30, x14, 15
    .word 0x01175293  # srli x5, x14, 17
    .word 0x005f02b3  # add x5, x30, x5
    .word 0x00d71f13  # slli x30, x14, 13
    .word 0x01375313  # srli x6, x14, 19
    .word 0x006f0333  # add x6, x30, x6
    .word 0x0062c2b3  # xor x5, x5, x6
    .word 0x00a75313  # srli x6, x14, 10
    .word 0x0062c2b3  # xor x5, x5, x6
    .word 0x01028833  # add x16, x5, x16
    .word 0x19012223  # sw x16, 388(x2)
    .word 0x000a8713  # addi x14, x21, 0
    .word 0x01971f13  # slli x30, x14, 25
    .word 0x00775293  # srli x5, x14, 7
    .word 0x005f02b3  # add x5, x30, x5
    .word 0x00e71f13  # slli x30, x14, 14
    .word 0x01275313  # srli x6, x14, 18
    .word 0x006f0333  # add x6, x30, x6
    .word 0x0062c2b3  # xor x5, x5, x6
    .word 0x00375313  # srli x6, x14, 3
    .word 0x0062c2b3  # xor x5, x5, x6
    .word 0x011282b3  # add x5, x5, x17
    .word 0x16c12303  # lw x6, 364(x2)
    .word 0x006288b3  # add x17, x5, x6
    .word 0x00f79f13  # slli x30, x15, 15
    .word 0x0117d293  # srli x5, x15, 17
    .word 0x005f02b3  # add x5, x30, x5
    .word 0x00d79f13  # slli x30, x15, 13
    .word 0x0137d313  # srli x6, x15, 19
    .word 0x006f0333  # add x6, x30, x6
    .word 0x0062c2b3  # xor x5, x5, x6
    .word 0x00a7d313  # srli x6, x15, 10
    .word 0x0062c2b3  # xor x5, x5, x6
    .word 0x011288b3  # add x17, x5, x17
    .word 0x19112423  # sw x17, 392(x2)
    .word 0x00098713  # addi x14, x19, 0
    .word 0x16012783  # lw x15, 352(x2)
    .word 0x16412803  # lw x16, 356(x2)
    .word 0x16812883  # lw x17, 360(x2)
    .word 0x01a71f13  # slli x30, x14, 26
    .word 0x00675313  # srli x6, x14, 6
    .word 0x006f0333  # add x6, x30, x6
    .word 0x01571f13  # slli x30, x14, 21
    .word 0x00b75393  # srli x7, x14, 11
    .word 0x007f03b3  # add x7, x30, x7
    .word 0x00734333  # xor x6, x6, x7
    .word 0x00771f13  # slli x30, x14, 7
    .word 0x01975393  # srli x7, x14, 25
    .word 0x007f03b3  # add x7, x30, x7
    .word 0x00734333  # xor x6, x6, x7
    .word 0x006882b3  # add x5, x17, x6
    .word 0x0107c333  # xor x6, x15, x16
    .word 0x00e37333  # and x6, x6, x14
    .word 0x01034333  # xor x6, x6, x16
    .word 0x006282b3  # add x5, x5, x6
    .word 0x015282b3  # add x5, x5, x21
    .word 0x0604a303  # lw x6, 96(x9)
    .word 0x006288b3  # add x17, x5, x6
    .word 0x011686b3  # add x13, x13, x17
    .word 0x00b549b3  # xor x19, x10, x11
    .word 0x013972b3  # and x5, x18, x19
    .word 0x00b2c933  # xor x18, x5, x11
    .word 0x01e51f13  # slli x30, x10, 30
    .word 0x00255313  # srli x6, x10, 2
    .word 0x006f0333  # add x6, x30, x6
    .word 0x01351f13  # slli x30, x10, 19
    .word 0x00d55393  # srli x7, x10, 13
    .word 0x007f03b3  # add x7, x30, x7
    .word 0x00734333  # xor x6, x6, x7
    .word 0x00a51f13  # slli x30, x10, 10
    .word 0x01655393  # srli x7, x10, 22
    .word 0x007f03b3  # add x7, x30, x7
    .word 0x00734333  # xor x6, x6, x7
    .word 0x006882b3  # add x5, x17, x6
    .word 0x012288b3  # add x17, x5, x18
    .word 0x01a69f13  # slli x30, x13, 26
    .word 0x0066d313  # srli x6, x13, 6
    .word 0x006f0333  # add x6, x30, x6
    .word 0x01569f13  # slli x30, x13, 21
    .word 0x00b6d393  # srli x7, x13, 11
    .word 0x007f03b3  # add x7, x30, x7
    .word 0x00734333  # xor x6, x6, x7
    .word 0x00769f13  # slli x30, x13, 7
    .word 0x0196d393  # srli x7, x13, 25
    .word 0x007f03b3  # add x7, x30, x7
    .word 0x00734333  # xor x6, x6, x7
    .word 0x006802b3  # add x5, x16, x6
    .word 0x00f74333  # xor x6, x14, x15
    .word 0x00d37333  # and x6, x6, x13
    .word 0x00f34333  # xor x6, x6, x15
    .word 0x006282b3  # add x5, x5, x6
    .word 0x016282b3  # add x5, x5, x22
    .word 0x0704a303  # lw x6, 112(x9)
    .word 0x00628833  # add x16, x5, x6
    .word 0x01060633  # add x12, x12, x16
    .word 0x00a8c933  # xor x18, x17, x10
    .word 0x0129f2b3  # and x5, x19, x18
    .word 0x00a2c9b3  # xor x19, x5, x10
    .word 0x01e89f13  # slli x30, x17, 30
    .word 0x0028d313  # srli x6, x17, 2
    .word 0x006f0333  # add x6, x30, x6
    .word 0x01389f13  # slli x30, x17, 19
    .word 0x00d8d393  # srli x7, x17, 13
    .word 0x007f03b3  # add x7, x30, x7
    .word 0x00734333  # xor x6, x6, x7
    .word 0x00a89f13  # slli x30, x17, 10
    .word 0x0168d393  # srli x7, x17, 22
    .word 0x007f03b3  # add x7, x30, x7
    .word 0x00734333  # xor x6, x6, x7
    .word 0x006802b3  # add x5, x16, x6
    .word 0x01328833  # add x16, x5, x19
    .word 0x01a61f13  # slli x30, x12, 26
    .word 0x00665313  # srli x6, x12, 6
    .word 0x006f0333  # add x6, x30, x6
    .word 0x01561f13  # slli x30, x12, 21
    .word 0x00b65393  # srli x7, x12, 11
    .word 0x007f03b3  # add x7, x30, x7
    .word 0x00734333  # xor x6, x6, x7
    .word 0x00761f13  # slli x30, x12, 7
    .word 0x01965393  # srli x7, x12, 25
    .word 0x007f03b3  # add x7, x30, x7
    .word 0x00734333  # xor x6, x6, x7
    .word 0x006782b3  # add x5, x15, x6
    .word 0x00e6c333  # xor x6, x13, x14
    .word 0x00c37333  # and x6, x6, x12
    .word 0x00e34333  # xor x6, x6, x14
    .word 0x006282b3  # add x5, x5, x6
    .word 0x017282b3  # add x5, x5, x23
    .word 0x0804a303  # lw x6, 128(x9)
    .word 0x006287b3  # add x15, x5, x6
    .word 0x00f585b3  # add x11, x11, x15
    .word 0x011849b3  # xor x19, x16, x17
    .word 0x013972b3  # and x5, x18, x19
    .word 0x0112c933  # xor x18, x5, x17
    .word 0x01e81f13  # slli x30, x16, 30
    .word 0x00285313  # srli x6, x16, 2
    .word 0x006f0333  # add x6, x30, x6
    .word 0x01381f13  # slli x30, x16, 19
    .word 0x00d85393  # srli x7, x16, 13
    .word 0x007f03b3  # add x7, x30, x7
    .word 0x00734333  # xor x6, x6, x7
    .word 0x00a81f13  # slli x30, x16, 10
    .word 0x01685393  # srli x7, x16, 22
    .word 0x007f03b3  # add x7, x30, x7
    .word 0x00734333  # xor x6, x6, x7
    .word 0x006782b3  # add x5, x15, x6
    .word 0x012287b3  # add x15, x5, x18
    .word 0x01a59f13  # slli x30, x11, 26
    .word 0x0065d313  # srli x6, x11, 6
    .word 0x006f0333  # add x6, x30, x6
    .word 0x01559f13  # slli x30, x11, 21
    .word 0x00b5d393  # srli x7, x11, 11
    .word 0x007f03b3  # add x7, x30, x7
    .word 0x00734333  # xor x6, x6, x7
    .word 0x00759f13  # slli x30, x11, 7
    .word 0x0195d393  # srli x7, x11, 25
    .word 0x007f03b3  # add x7, x30, x7
    .word 0x00734333  # xor x6, x6, x7
    .word 0x006702b3  # add x5, x14, x6
    .word 0x00d64333  # xor x6, x12, x13
    .word 0x00b37333  # and x6, x6, x11
    .word 0x00d34333  # xor x6, x6, x13
    .word 0x006282b3  # add x5, x5, x6
    .word 0x018282b3  # add x5, x5, x24
    .word 0x0904a303  # lw x6, 144(x9)
    .word 0x00628733  # add x14, x5, x6
    .word 0x00e50533  # add x10, x10, x14
    .word 0x0107c933  # xor x18, x15, x16
    .word 0x0129f2b3  # and x5, x19, x18
    .word 0x0102c9b3  # xor x19, x5, x16
    .word 0x01e79f13  # slli x30, x15, 30
    .word 0x0027d313  # srli x6, x15, 2
    .word 0x006f0333  # add x6, x30, x6
    .word 0x01379f13  # slli x30, x15, 19
    .word 0x00d7d393  # srli x7, x15, 13
    .word 0x007f03b3  # add x7, x30, x7
    .word 0x00734333  # xor x6, x6, x7
    .word 0x00a79f13  # slli x30, x15, 10
    .word 0x0167d393  # srli x7, x15, 22
    .word 0x007f03b3  # add x7, x30, x7
    .word 0x00734333  # xor x6, x6, x7
    .word 0x006702b3  # add x5, x14, x6
    .word 0x01328733  # add x14, x5, x19
    .word 0x01a51f13  # slli x30, x10, 26
    .word 0x00655313  # srli x6, x10, 6
    .word 0x006f0333  # add x6, x30, x6
    .word 0x01551f13  # slli x30, x10, 21
    .word 0x00b55393  # srli x7, x10, 11
    .word 0x007f03b3  # add x7, x30, x7
    .word 0x00734333  # xor x6, x6, x7
    .word 0x00751f13  # slli x30, x10, 7
    .word 0x01955393  # srli x7, x10, 25
    .word 0x007f03b3  # add x7, x30, x7
    .word 0x00734333  # xor x6, x6, x7
    .word 0x006682b3  # add x5, x13, x6
    .word 0x00c5c333  # xor x6, x11, x12
    .word 0x00a37333  # and x6, x6, x10
    .word 0x00c34333  # xor x6, x6, x12
    .word 0x006282b3  # add x5, x5, x6
    .word 0x019282b3  # add x5, x5, x25
    .word 0x0a04a303  # lw x6, 160(x9)
    .word 0x006286b3  # add x13, x5, x6
    .word 0x00d888b3  # add x17, x17, x13
    .word 0x00f749b3  # xor x19, x14, x15
    .word 0x013972b3  # and x5, x18, x19
    .word 0x00f2c933  # xor x18, x5, x15
    .word 0x01e71f13  # slli x30, x14, 30
    .word 0x00275313  # srli x6, x14, 2
    .word 0x006f0333  # add x6, x30, x6
    .word 0x01371f13  # slli x30, x14, 19
    .word 0x00d75393  # srli x7, x14, 13
    .word 0x007f03b3  # add x7, x30, x7
    .word 0x00734333  # xor x6, x6, x7
    .word 0x00a71f13  # slli x30, x14, 10
    .word 0x01675393  # srli x7, x14, 22
    .word 0x007f03b3  # add x7, x30, x7
    .word 0x00734333  # xor x6, x6, x7
    .word 0x006682b3  # add x5, x13, x6
    .word 0x012286b3  # add x13, x5, x18
    .word 0x01a89f13  # slli x30, x17, 26
    .word 0x0068d313  # srli x6, x17, 6
    .word 0x006f0333  # add x6, x30, x6
    .word 0x01589f13  # slli x30, x17, 21
    .word 0x00b8d393  # srli x7, x17, 11
    .word 0x007f03b3  # add x7, x30, x7
    .word 0x00734333  # xor x6, x6, x7
    .word 0x00789f13  # slli x30, x17, 7
    .word 0x0198d393  # srli x7, x17, 25
    .word 0x007f03b3  # add x7, x30, x7
    .word 0x00734333  # xor x6, x6, x7
    .word 0x006602b3  # add x5, x12, x6
    .word 0x00b54333  # xor x6, x10, x11
    .word 0x01137333  # and x6, x6, x17
    .word 0x00b34333  # xor x6, x6, x11
    .word 0x006282b3  # add x5, x5, x6
    .word 0x01a282b3  # add x5, x5, x26
    .word 0x0b04a303  # lw x6, 176(x9)
    .word 0x00628633  # add x12, x5, x6
    .word 0x00c80833  # add x16, x16, x12
    .word 0x00e6c933  # xor x18, x13, x14
    .word 0x0129f2b3  # and x5, x19, x18
    .word 0x00e2c9b3  # xor x19, x5, x14
    .word 0x01e69f13  # slli x30, x13, 30
    .word 0x0026d313  # srli x6, x13, 2
    .word 0x006f0333  # add x6, x30, x6
    .word 0x01369f13  # slli x30, x13, 19
    .word 0x00d6d393  # srli x7, x13, 13
    .word 0x007f03b3  # add x7, x30, x7
    .word 0x00734333  # xor x6, x6, x7
    .word 0x00a69f13  # slli x30, x13, 10
    .word 0x0166d393  # srli x7, x13, 22
    .word 0x007f03b3  # add x7, x30, x7
    .word 0x00734333  # xor x6, x6, x7
    .word 0x006602b3  # add x5, x12, x6
    .word 0x01328633  # add x12, x5, x19
    .word 0x01a81f13  # slli x30, x16, 26
    .word 0x00685313  # srli x6, x16, 6
    .word 0x006f0333  # add x6, x30, x6
    .word 0x01581f13  # slli x30, x16, 21
    .word 0x00b85393  # srli x7, x16, 11
    .word 0x007f03b3  # add x7, x30, x7
    .word 0x00734333  # xor x6, x6, x7
    .word 0x00781f13  # slli x30, x16, 7
    .word 0x01985393  # srli x7, x16, 25
    .word 0x007f03b3  # add x7, x30, x7
    .word 0x00734333  # xor x6, x6, x7
    .word 0x006582b3  # add x5, x11, x6
    .word 0x00a8c333  # xor x6, x17, x10
    .word 0x01037333  # and x6, x6, x16
    .word 0x00a34333  # xor x6, x6, x10
    .word 0x006282b3  # add x5, x5, x6
    .word 0x01b282b3  # add x5, x5, x27
    .word 0x0c04a303  # lw x6, 192(x9)
    .word 0x006285b3  # add x11, x5, x6
    .word 0x00b787b3  # add x15, x15, x11
    .word 0x00d649b3  # xor x19, x12, x13
    .word 0x013972b3  # and x5, x18, x19
    .word 0x00d2c933  # xor x18, x5, x13
    .word 0x01e61f13  # slli x30, x12, 30
    .word 0x00265313  # srli x6, x12, 2
    .word 0x006f0333  # add x6, x30, x6
    .word 0x01361f13  # slli x30, x12, 19
    .word 0x00d65393  # srli x7, x12, 13
    .word 0x007f03b3  # add x7, x30, x7
    .word 0x00734333  # xor x6, x6, x7
    .word 0x00a61f13  # slli x30, x12, 10
    .word 0x01665393  # srli x7, x12, 22
    .word 0x007f03b3  # add x7, x30, x7
    .word 0x00734333  # xor x6, x6, x7
    .word 0x006582b3  # add x5, x11, x6
    .word 0x012285b3  # add x11, x5, x18
    .word 0x01a79f13  # slli x30, x15, 26
    .word 0x0067d313  # srli x6, x15, 6
    .word 0x006f0333  # add x6, x30, x6
    .word 0x01579f13  # slli x30, x15, 21
    .word 0x00b7d393  # srli x7, x15, 11
    .word 0x007f03b3  # add x7, x30, x7
    .word 0x00734333  # xor x6, x6, x7
    .word 0x00779f13  # slli x30, x15, 7
    .word 0x0197d393  # srli x7, x15, 25
    .word 0x007f03b3  # add x7, x30, x7
    .word 0x00734333  # xor x6, x6, x7
    .word 0x006502b3  # add x5, x10, x6
    .word 0x01184333  # xor x6, x16, x17
    .word 0x00f37333  # and x6, x6, x15
    .word 0x01134333  # xor x6, x6, x17
    .word 0x006282b3  # add x5, x5, x6
    .word 0x008282b3  # add x5, x5, x8
    .word 0x0d04a303  # lw x6, 208(x9)
    .word 0x00628533  # add x10, x5, x6
    .word 0x00a70733  # add x14, x14, x10
    .word 0x00c5c933  # xor x18, x11, x12
    .word 0x0129f2b3  # and x5, x19, x18
    .word 0x00c2c9b3  # xor x19, x5, x12
    .word 0x01e59f13  # slli x30, x11, 30
    .word 0x0025d313  # srli x6, x11, 2
    .word 0x006f0333  # add x6, x30, x6
    .word 0x01359f13  # slli x30, x11, 19
    .word 0x00d5d393  # srli x7, x11, 13
    .word 0x007f03b3  # add x7, x30, x7
    .word 0x00734333  # xor x6, x6, x7
    .word 0x00a59f13  # slli x30, x11, 10
    .word 0x0165d393  # srli x7, x11, 22
    .word 0x007f03b3  # add x7, x30, x7
    .word 0x00734333  # xor x6, x6, x7
    .word 0x006502b3  # add x5, x10, x6
    .word 0x01328533  # add x10, x5, x19
    .word 0x01a71f13  # slli x30, x14, 26
    .word 0x00675313  # srli x6, x14, 6
    .word 0x006f0333  # add x6, x30, x6
    .word 0x01571f13  # slli x30, x14, 21
    .word 0x00b75393  # srli x7, x14, 11
    .word 0x007f03b3  # add x7, x30, x7
    .word 0x00734333  # xor x6, x6, x7
    .word 0x00771f13  # slli x30, x14, 7
    .word 0x01975393  # srli x7, x14, 25
    .word 0x007f03b3  # add x7, x30, x7
    .word 0x00734333  # xor x6, x6, x7
    .word 0x006882b3  # add x5, x17, x6
    .word 0x0107c333  # xor x6, x15, x16
    .word 0x00e37333  # and x6, x6, x14
    .word 0x01034333  # xor x6, x6, x16
    .word 0x006282b3  # add x5, x5, x6
    .word 0x16c12303  # lw x6, 364(x2)
    .word 0x006282b3  # add x5, x5, x6
    .word 0x0e04a303  # lw x6, 224(x9)
    .word 0x006288b3  # add x17, x5, x6
    .word 0x011686b3  # add x13, x13, x17
    .word 0x00b549b3  # xor x19, x10, x11
    .word 0x013972b3  # and x5, x18, x19
    .word 0x00b2c933  # xor x18, x5, x11
    .word 0x01e51f13  # slli x30, x10, 30
    .word 0x00255313  # srli x6, x10, 2
    .word 0x006f0333  # add x6, x30, x6
    .word 0x01351f13  # slli x30, x10, 19
    .word 0x00d55393  # srli x7, x10, 13
    .word 0x007f03b3  # add x7, x30, x7
    .word 0x00734333  # xor x6, x6, x7
    .word 0x00a51f13  # slli x30, x10, 10
    .word 0x01655393  # srli x7, x10, 22
    .word 0x007f03b3  # add x7, x30, x7
    .word 0x00734333  # xor x6, x6, x7
    .word 0x006882b3  # add x5, x17, x6
    .word 0x012288b3  # add x17, x5, x18
    .word 0x01a69f13  # slli x30, x13, 26
    .word 0x0066d313  # srli x6, x13, 6
    .word 0x006f0333  # add x6, x30, x6
    .word 0x01569f13  # slli x30, x13, 21
    .word 0x00b6d393  # srli x7, x13, 11
    .word 0x007f03b3  # add x7, x30, x7
    .word 0x00734333  # xor x6, x6, x7
    .word 0x00769f13  # slli x30, x13, 7
    .word 0x0196d393  # srli x7, x13, 25
    .word 0x007f03b3  # add x7, x30, x7
    .word 0x00734333  # xor x6, x6, x7
    .word 0x006802b3  # add x5, x16, x6
    .word 0x00f74333  # xor x6, x14, x15
    .word 0x00d37333  # and x6, x6, x13
    .word 0x00f34333  # xor x6, x6, x15
    .word 0x006282b3  # add x5, x5, x6
    .word 0x17012303  # lw x6, 368(x2)
    .word 0x006282b3  # add x5, x5, x6
    .word 0x0f04a303  # lw x6, 240(x9)
    .word 0x00628833  # add x16, x5, x6
    .word 0x01060633  # add x12, x12, x16
    .word 0x00a8c933  # xor x18, x17, x10
    .word 0x0129f2b3  # and x5, x19, x18
    .word 0x00a2c9b3  # xor x19, x5, x10
    .word 0x01e89f13  # slli x30, x17, 30
    .word 0x0028d313  # srli x6, x17, 2
    .word 0x006f0333  # add x6, x30, x6
    .word 0x01389f13  # slli x30, x17, 19
    .word 0x00d8d393  # srli x7, x17, 13
    .word 0x007f03b3  # add x7, x30, x7
    .word 0x00734333  # xor x6, x6, x7
    .word 0x00a89f13  # slli x30, x17, 10
    .word 0x0168d393  # srli x7, x17, 22
    .word 0x007f03b3  # add x7, x30, x7
    .word 0x00734333  # xor x6, x6, x7
    .word 0x006802b3  # add x5, x16, x6
    .word 0x01328833  # add x16, x5, x19
    .word 0x01a61f13  # slli x30, x12, 26
    .word 0x00665313  # srli x6, x12, 6
    .word 0x006f0333  # add x6, x30, x6
    .word 0x01561f13  # slli x30, x12, 21
    .word 0x00b65393  # srli x7, x12, 11
    .word 0x007f03b3  # add x7, x30, x7
    .word 0x00734333  # xor x6, x6, x7
    .word 0x00761f13  # slli x30, x12, 7
    .word 0x01965393  # srli x7, x12, 25
    .word 0x007f03b3  # add x7, x30, x7
    .word 0x00734333  # xor x6, x6, x7
    .word 0x006782b3  # add x5, x15, x6
    .word 0x00e6c333  # xor x6, x13, x14
    .word 0x00c37333  # and x6, x6, x12
    .word 0x00e34333  # xor x6, x6, x14
    .word 0x006282b3  # add x5, x5, x6
    .word 0x17412303  # lw x6, 372(x2)
    .word 0x006282b3  # add x5, x5, x6
    .word 0x1004a303  # lw x6, 256(x9)
    .word 0x006287b3  # add x15, x5, x6
    .word 0x00f585b3  # add x11, x11, x15
    .word 0x011849b3  # xor x19, x16, x17
    .word 0x013972b3  # and x5, x18, x19
    .word 0x0112c933  # xor x18, x5, x17
    .word 0x01e81f13  # slli x30, x16, 30
    .word 0x00285313  # srli x6, x16, 2
    .word 0x006f0333  # add x6, x30, x6
    .word 0x01381f13  # slli x30, x16, 19
    .word 0x00d85393  # srli x7, x16, 13
    .word 0x007f03b3  # add x7, x30, x7
    .word 0x00734333  # xor x6, x6, x7
    .word 0x00a81f13  # slli x30, x16, 10
    .word 0x01685393  # srli x7, x16, 22
    .word 0x007f03b3  # add x7, x30, x7
    .word 0x00734333  # xor x6, x6, x7
    .word 0x006782b3  # add x5, x15, x6
    .word 0x012287b3  # add x15, x5, x18
    .word 0x01a59f13  # slli x30, x11, 26
    .word 0x0065d313  # srli x6, x11, 6
    .word 0x006f0333  # add x6, x30, x6
    .word 0x01559f13  # slli x30, x11, 21
    .word 0x00b5d393  # srli x7, x11, 11
    .word 0x007f03b3  # add x7, x30, x7
    .word 0x00734333  # xor x6, x6, x7
    .word 0x00759f13  # slli x30, x11, 7
    .word 0x0195d393  # srli x7, x11, 25
    .word 0x007f03b3  # add x7, x30, x7
    .word 0x00734333  # xor x6, x6, x7
    .word 0x006702b3  # add x5, x14, x6
    .word 0x00d64333  # xor x6, x12, x13
    .word 0x00b37333  # and x6, x6, x11
    .word 0x00d34333  # xor x6, x6, x13
    .word 0x006282b3  # add x5, x5, x6
    .word 0x17812303  # lw x6, 376(x2)
    .word 0x006282b3  # add x5, x5, x6
    .word 0x1104a303  # lw x6, 272(x9)
    .word 0x00628733  # add x14, x5, x6
    .word 0x00e50533  # add x10, x10, x14
    .word 0x0107c933  # xor x18, x15, x16
    .word 0x0129f2b3  # and x5, x19, x18
    .word 0x0102c9b3  # xor x19, x5, x16
    .word 0x01e79f13  # slli x30, x15, 30
    .word 0x0027d313  # srli x6, x15, 2
    .word 0x006f0333  # add x6, x30, x6
    .word 0x01379f13  # slli x30, x15, 19
    .word 0x00d7d393  # srli x7, x15, 13
    .word 0x007f03b3  # add x7, x30, x7
    .word 0x00734333  # xor x6, x6, x7
    .word 0x00a79f13  # slli x30, x15, 10
    .word 0x0167d393  # srli x7, x15, 22
    .word 0x007f03b3  # add x7, x30, x7
    .word 0x00734333  # xor x6, x6, x7
    .word 0x006702b3  # add x5, x14, x6
    .word 0x01328733  # add x14, x5, x19
    .word 0x01a51f13  # slli x30, x10, 26
    .word 0x00655313  # srli x6, x10, 6
    .word 0x006f0333  # add x6, x30, x6
    .word 0x01551f13  # slli x30, x10, 21
    .word 0x00b55393  # srli x7, x10, 11
    .word 0x007f03b3  # add x7, x30, x7
    .word 0x00734333  # xor x6, x6, x7
    .word 0x00751f13  # slli x30, x10, 7
    .word 0x01955393  # srli x7, x10, 25
    .word 0x007f03b3  # add x7, x30, x7
    .word 0x00734333  # xor x6, x6, x7
    .word 0x006682b3  # add x5, x13, x6
    .word 0x00c5c333  # xor x6, x11, x12
    .word 0x00a37333  # and x6, x6, x10
    .word 0x00c34333  # xor x6, x6, x12
    .word 0x006282b3  # add x5, x5, x6
    .word 0x17c12303  # lw x6, 380(x2)
    .word 0x006282b3  # add x5, x5, x6
    .word 0x1204a303  # lw x6, 288(x9)
    .word 0x006286b3  # add x13, x5, x6
    .word 0x00d888b3  # add x17, x17, x13
    .word 0x00f749b3  # xor x19, x14, x15
    .word 0x013972b3  # and x5, x18, x19
    .word 0x00f2c933  # xor x18, x5, x15
    .word 0x01e71f13  # slli x30, x14, 30
    .word 0x00275313  # srli x6, x14, 2
    .word 0x006f0333  # add x6, x30, x6
    .word 0x01371f13  # slli x30, x14, 19
    .word 0x00d75393  # srli x7, x14, 13
    .word 0x007f03b3  # add x7, x30, x7
    .word 0x00734333  # xor x6, x6, x7
    .word 0x00a71f13  # slli x30, x14, 10
    .word 0x01675393  # srli x7, x14, 22
    .word 0x007f03b3  # add x7, x30, x7
    .word 0x00734333  # xor x6, x6, x7
    .word 0x006682b3  # add x5, x13, x6
    .word 0x012286b3  # add x13, x5, x18
    .word 0x01a89f13  # slli x30, x17, 26
    .word 0x0068d313  # srli x6, x17, 6
    .word 0x006f0333  # add x6, x30, x6
    .word 0x01589f13  # slli x30, x17, 21
    .word 0x00b8d393  # srli x7, x17, 11
    .word 0x007f03b3  # add x7, x30, x7
    .word 0x00734333  # xor x6, x6, x7
    .word 0x00789f13  # slli x30, x17, 7
    .word 0x0198d393  # srli x7, x17, 25
    .word 0x007f03b3  # add x7, x30, x7
    .word 0x00734333  # xor x6, x6, x7
    .word 0x006602b3  # add x5, x12, x6
    .word 0x00b54333  # xor x6, x10, x11
    .word 0x01137333  # and x6, x6, x17
    .word 0x00b34333  # xor x6, x6, x11
    .word 0x006282b3  # add x5, x5, x6
    .word 0x18012303  # lw x6, 384(x2)
    .word 0x006282b3  # add x5, x5, x6
    .word 0x1304a303  # lw x6, 304(x9)
    .word 0x00628633  # add x12, x5, x6
    .word 0x00c80833  # add x16, x16, x12
    .word 0x00e6c933  # xor x18, x13, x14
    .word 0x0129f2b3  # and x5, x19, x18
    .word 0x00e2c9b3  # xor x19, x5, x14
    .word 0x01e69f13  # slli x30, x13, 30
    .word 0x0026d313  # srli x6, x13, 2
    .word 0x006f0333  # add x6, x30, x6
    .word 0x01369f13  # slli x30, x13, 19
    .word 0x00d6d393  # srli x7, x13, 13
    .word 0x007f03b3  # add x7, x30, x7
    .word 0x00734333  # xor x6, x6, x7
    .word 0x00a69f13  # slli x30, x13, 10
    .word 0x0166d393  # srli x7, x13, 22
    .word 0x007f03b3  # add x7, x30, x7
    .word 0x00734333  # xor x6, x6, x7
    .word 0x006602b3  # add x5, x12, x6
    .word 0x01328633  # add x12, x5, x19
    .word 0x01a81f13  # slli x30, x16, 26
    .word 0x00685313  # srli x6, x16, 6
    .word 0x006f0333  # add x6, x30, x6
    .word 0x01581f13  # slli x30, x16, 21
    .word 0x00b85393  # srli x7, x16, 11
    .word 0x007f03b3  # add x7, x30, x7
    .word 0x00734333  # xor x6, x6, x7
    .word 0x00781f13  # slli x30, x16, 7
    .word 0x01985393  # srli x7, x16, 25
    .word 0x007f03b3  # add x7, x30, x7
    .word 0x00734333  # xor x6, x6, x7
    .word 0x006582b3  # add x5, x11, x6
    .word 0x00a8c333  # xor x6, x17, x10
    .word 0x01037333  # and x6, x6, x16
    .word 0x00a34333  # xor x6, x6, x10
    .word 0x006282b3  # add x5, x5, x6
    .word 0x18412303  # lw x6, 388(x2)
    .word 0x006282b3  # add x5, x5, x6
    .word 0x1404a303  # lw x6, 320(x9)
    .word 0x006285b3  # add x11, x5, x6
    .word 0x00b787b3  # add x15, x15, x11
    .word 0x00d649b3  # xor x19, x12, x13
    .word 0x013972b3  # and x5, x18, x19
    .word 0x00d2c933  # xor x18, x5, x13
    .word 0x01e61f13  # slli x30, x12, 30
    .word 0x00265313  # srli x6, x12, 2
    .word 0x006f0333  # add x6, x30, x6
    .word 0x01361f13  # slli x30, x12, 19
    .word 0x00d65393  # srli x7, x12, 13
    .word 0x007f03b3  # add x7, x30, x7
    .word 0x00734333  # xor x6, x6, x7
    .word 0x00a61f13  # slli x30, x12, 10
    .word 0x01665393  # srli x7, x12, 22
    .word 0x007f03b3  # add x7, x30, x7
    .word 0x00734333  # xor x6, x6, x7
    .word 0x006582b3  # add x5, x11, x6
    .word 0x012285b3  # add x11, x5, x18
    .word 0x01a79f13  # slli x30, x15, 26
    .word 0x0067d313  # srli x6, x15, 6
    .word 0x006f0333  # add x6, x30, x6
    .word 0x01579f13  # slli x30, x15, 21
    .word 0x00b7d393  # srli x7, x15, 11
    .word 0x007f03b3  # add x7, x30, x7
    .word 0x00734333  # xor x6, x6, x7
    .word 0x00779f13  # slli x30, x15, 7
    .word 0x0197d393  # srli x7, x15, 25
    .word 0x007f03b3  # add x7, x30, x7
    .word 0x00734333  # xor x6, x6, x7
    .word 0x006502b3  # add x5, x10, x6
    .word 0x01184333  # xor x6, x16, x17
    .word 0x00f37333  # and x6, x6, x15
    .word 0x01134333  # xor x6, x6, x17
    .word 0x006282b3  # add x5, x5, x6
    .word 0x18812303  # lw x6, 392(x2)
    .word 0x006282b3  # add x5, x5, x6
    .word 0x1504a303  # lw x6, 336(x9)
    .word 0x00628533  # add x10, x5, x6
    .word 0x00a70733  # add x14, x14, x10
    .word 0x00c5c933  # xor x18, x11, x12
    .word 0x0129f2b3  # and x5, x19, x18
    .word 0x00c2c9b3  # xor x19, x5, x12
    .word 0x01e59f13  # slli x30, x11, 30
    .word 0x0025d313  # srli x6, x11, 2
    .word 0x006f0333  # add x6, x30, x6
    .word 0x01359f13  # slli x30, x11, 19
    .word 0x00d5d393  # srli x7, x11, 13
    .word 0x007f03b3  # add x7, x30, x7
    .word 0x00734333  # xor x6, x6, x7
    .word 0x00a59f13  # slli x30, x11, 10
    .word 0x0165d393  # srli x7, x11, 22
    .word 0x007f03b3  # add x7, x30, x7
    .word 0x00734333  # xor x6, x6, x7
    .word 0x006502b3  # add x5, x10, x6
    .word 0x01328533  # add x10, x5, x19
    .word 0xffda0293  # addi x5, x20, -3
    .word 0x8e029263  # bne x5, x0, -3868
    .word 0x00012283  # lw x5, 0(x2)
    .word 0x00a282b3  # add x5, x5, x10
    .word 0x00512023  # sw x5, 0(x2)
    .word 0x00412283  # lw x5, 4(x2)
    .word 0x00b282b3  # add x5, x5, x11
    .word 0x00512223  # sw x5, 4(x2)
    .word 0x00812283  # lw x5, 8(x2)
    .word 0x00c282b3  # add x5, x5, x12
    .word 0x00512423  # sw x5, 8(x2)
    .word 0x00c12283  # lw x5, 12(x2)
    .word 0x00d282b3  # add x5, x5, x13
    .word 0x00512623  # sw x5, 12(x2)
    .word 0x01012283  # lw x5, 16(x2)
    .word 0x00e282b3  # add x5, x5, x14
    .word 0x00512823  # sw x5, 16(x2)
    .word 0x01412283  # lw x5, 20(x2)
    .word 0x00f282b3  # add x5, x5, x15
    .word 0x00512a23  # sw x5, 20(x2)
    .word 0x01812283  # lw x5, 24(x2)
    .word 0x010282b3  # add x5, x5, x16
    .word 0x00512c23  # sw x5, 24(x2)
    .word 0x01c12283  # lw x5, 28(x2)
    .word 0x011282b3  # add x5, x5, x17
    .word 0x00512e23  # sw x5, 28(x2)
    # the result
    .word 0x00000513  # addi x10, x0, 0
    # parameter 0: the array, back
    .word 0x00010293  # addi x5, x2, 0
    .word 0x1dc12303  # lw x6, 476(x2)
    .word 0x02028393  # addi x7, x5, 32
    .word 0x09000f6f  # jal x30, 144
    # above the frame
    .word 0x1a010293  # addi x5, x2, 416
    # the caller's registers
    .word 0x0002a403  # lw x8, 0(x5)
    .cfi_restore 8
    .word 0x0042a483  # lw x9, 4(x5)
    .cfi_restore 9
    .word 0x0082a903  # lw x18, 8(x5)
    .cfi_restore 18
    .word 0x00c2a983  # lw x19, 12(x5)
    .cfi_restore 19
    .word 0x0102aa03  # lw x20, 16(x5)
    .cfi_restore 20
    .word 0x0142aa83  # lw x21, 20(x5)
    .cfi_restore 21
    .word 0x0182ab03  # lw x22, 24(x5)
    .cfi_restore 22
    .word 0x01c2ab83  # lw x23, 28(x5)
    .cfi_restore 23
    .word 0x0202ac03  # lw x24, 32(x5)
    .cfi_restore 24
    .word 0x0242ac83  # lw x25, 36(x5)
    .cfi_restore 25
    .word 0x0282ad03  # lw x26, 40(x5)
    .cfi_restore 26
    .word 0x02c2ad83  # lw x27, 44(x5)
    .cfi_restore 27
    # the caller's x2
    .word 0x04028293  # addi x5, x5, 64
    .cfi_def_cfa 5, 0
    # all the room, wiped upward
    .word 0x00012023  # sw x0, 0(x2)
    .word 0x00012223  # sw x0, 4(x2)
    .word 0x00012423  # sw x0, 8(x2)
    .word 0x00012623  # sw x0, 12(x2)
    .word 0x01010113  # addi x2, x2, 16
    .word 0xfe5116e3  # bne x2, x5, -20
    .cfi_def_cfa 2, 0
    # temporaries, wiped
    .word 0x00000293  # addi x5, x0, 0
    .word 0x00000313  # addi x6, x0, 0
    .word 0x00000393  # addi x7, x0, 0
    .word 0x00000593  # addi x11, x0, 0
    .word 0x00000613  # addi x12, x0, 0
    .word 0x00000693  # addi x13, x0, 0
    .word 0x00000713  # addi x14, x0, 0
    .word 0x00000793  # addi x15, x0, 0
    .word 0x00000813  # addi x16, x0, 0
    .word 0x00000893  # addi x17, x0, 0
    .word 0x00000e13  # addi x28, x0, 0
    .word 0x00000e93  # addi x29, x0, 0
    .word 0x00000f13  # addi x30, x0, 0
    .word 0x00000f93  # addi x31, x0, 0
    # back
    .word 0x00008067  # jalr x0, 0(x1)
    # from x5 to x6 up to x7, and back
    .cfi_def_cfa 2, 480
    .cfi_offset 8, -64
    .cfi_offset 9, -60
    .cfi_offset 18, -56
    .cfi_offset 19, -52
    .cfi_offset 20, -48
    .cfi_offset 21, -44
    .cfi_offset 22, -40
    .cfi_offset 23, -36
    .cfi_offset 24, -32
    .cfi_offset 25, -28
    .cfi_offset 26, -24
    .cfi_offset 27, -20
    .word 0x0062ee33  # or x28, x5, x6
    .word 0x003e7e13  # andi x28, x28, 3
    .word 0x000e0e63  # beq x28, x0, 28
    .word 0x0002ce03  # lbu x28, 0(x5)
    .word 0x01c30023  # sb x28, 0(x6)
    .word 0x00128293  # addi x5, x5, 1
    .word 0x00130313  # addi x6, x6, 1
    .word 0xfe7298e3  # bne x5, x7, -16
    .word 0x0300006f  # jal x0, 48
    .word 0x0002ae03  # lw x28, 0(x5)
    .word 0x01c32023  # sw x28, 0(x6)
    .word 0x0042ae03  # lw x28, 4(x5)
    .word 0x01c32223  # sw x28, 4(x6)
    .word 0x0082ae03  # lw x28, 8(x5)
    .word 0x01c32423  # sw x28, 8(x6)
    .word 0x00c2ae03  # lw x28, 12(x5)
    .word 0x01c32623  # sw x28, 12(x6)
    .word 0x01028293  # addi x5, x5, 16
    .word 0x01030313  # addi x6, x6, 16
    .word 0xfc729ce3  # bne x5, x7, -40
    .word 0x000f0067  # jalr x0, 0(x30)
    .cfi_endproc
    .size sha256_block, . - sha256_block
    .option pop
