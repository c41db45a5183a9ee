# mlkem_inverse_ntt: made by factc 1.0.0 function; 982 words, 1136 bytes of stack, profile 1
    .option push
    .option norvc
    .option norelax
    .cfi_sections .debug_frame
    .section .text.mlkem_inverse_ntt, "ax", @progbits
    .p2align 2
    .globl mlkem_inverse_ntt
    .type mlkem_inverse_ntt, @function
mlkem_inverse_ntt:
    .cfi_startproc
    # room above the frame
    .word 0xfc010113  # addi x2, x2, -64
    .cfi_def_cfa_offset 64
    # the caller's registers
    .word 0x00812023  # sw x8, 0(x2)
    .cfi_offset 8, -64
    .word 0x00912223  # sw x9, 4(x2)
    .cfi_offset 9, -60
    .word 0x01212423  # sw x18, 8(x2)
    .cfi_offset 18, -56
    .word 0x01312623  # sw x19, 12(x2)
    .cfi_offset 19, -52
    .word 0x01412823  # sw x20, 16(x2)
    .cfi_offset 20, -48
    .word 0x01512a23  # sw x21, 20(x2)
    .cfi_offset 21, -44
    .word 0x01612c23  # sw x22, 24(x2)
    .cfi_offset 22, -40
    .word 0x01712e23  # sw x23, 28(x2)
    .cfi_offset 23, -36
    .word 0x03812023  # sw x24, 32(x2)
    .cfi_offset 24, -32
    .word 0x03912223  # sw x25, 36(x2)
    .cfi_offset 25, -28
    .word 0x03a12423  # sw x26, 40(x2)
    .cfi_offset 26, -24
    .word 0x03b12623  # sw x27, 44(x2)
    .cfi_offset 27, -20
    # arguments that are needed behind the body
    .word 0x02a12e23  # sw x10, 60(x2)
    # the frame's base
    .word 0xbd010113  # addi x2, x2, -1072
    .cfi_def_cfa 2, 1136
    # parameter 0: an array
    .word 0x00050293  # addi x5, x10, 0
    .word 0x00010313  # addi x6, x2, 0
    .word 0x20028393  # addi x7, x5, 512
    .word 0x6bd00f6f  # jal x30, 3772
    # the body
    .word 0x00007db7  # lui x27, 0x00007
    .word 0x808d8d93  # addi x27, x27, -2040
    .word 0x00001437  # lui x8, 0x00001
    .word 0xd0140413  # addi x8, x8, -767
    .word 0x0013b2b7  # lui x5, 0x0013b
    .word 0xfb828293  # addi x5, x5, -72
    .word 0x20512023  # sw x5, 512(x2)
    .word 0x7f09f2b7  # lui x5, 0x7f09f
    .word 0xb8c28293  # addi x5, x5, -1140
    .word 0x20512223  # sw x5, 516(x2)
    .word 0xc666e2b7  # lui x5, 0xc666e
    .word 0x46528293  # addi x5, x5, 1125
    .word 0x20512423  # sw x5, 520(x2)
    .word 0xfcec92b7  # lui x5, 0xfcec9
    .word 0xb5828293  # addi x5, x5, -1192
    .word 0x20512623  # sw x5, 524(x2)
    .word 0xcb2b72b7  # lui x5, 0xcb2b7
    .word 0x2d028293  # addi x5, x5, 720
    .word 0x20512823  # sw x5, 528(x2)
    .word 0x307272b7  # lui x5, 0x30727
    .word 0xd5b28293  # addi x5, x5, -677
    .word 0x20512a23  # sw x5, 532(x2)
    .word 0x91e112b7  # lui x5, 0x91e11
    .word 0x61228293  # addi x5, x5, 1554
    .word 0x20512c23  # sw x5, 536(x2)
    .word 0x413612b7  # lui x5, 0x41361
    .word 0xf8928293  # addi x5, x5, -119
    .word 0x20512e23  # sw x5, 540(x2)
    .word 0x51aaf2b7  # lui x5, 0x51aaf
    .word 0x2da28293  # addi x5, x5, 730
    .word 0x22512023  # sw x5, 544(x2)
    .word 0x939232b7  # lui x5, 0x93923
    .word 0xfd528293  # addi x5, x5, -43
    .word 0x22512223  # sw x5, 548(x2)
    .word 0x0ed782b7  # lui x5, 0x0ed78
    .word 0x94628293  # addi x5, x5, -1722
    .word 0x22512423  # sw x5, 552(x2)
    .word 0x3d4a12b7  # lui x5, 0x3d4a1
    .word 0xdff28293  # addi x5, x5, -513
    .word 0x22512623  # sw x5, 556(x2)
    .word 0xd63e52b7  # lui x5, 0xd63e5
    .word 0x9fb28293  # addi x5, x5, -1541
    .word 0x22512823  # sw x5, 560(x2)
    .word 0xfab1a2b7  # lui x5, 0xfab1a
    .word 0x39128293  # addi x5, x5, 913
    .word 0x22512a23  # sw x5, 564(x2)
    .word 0x2bc192b7  # lui x5, 0x2bc19
    .word 0xea728293  # addi x5, x5, -345
    .word 0x22512c23  # sw x5, 568(x2)
    .word 0x864472b7  # lui x5, 0x86447
    .word 0x0e428293  # addi x5, x5, 228
    .word 0x22512e23  # sw x5, 572(x2)
    .word 0x16c332b7  # lui x5, 0x16c33
    .word 0xc1128293  # addi x5, x5, -1007
    .word 0x24512023  # sw x5, 576(x2)
    .word 0xbc2ca2b7  # lui x5, 0xbc2ca
    .word 0xa1c28293  # addi x5, x5, -1508
    .word 0x24512223  # sw x5, 580(x2)
    .word 0x66f812b7  # lui x5, 0x66f81
    .word 0x44e28293  # addi x5, x5, 1102
    .word 0x24512423  # sw x5, 584(x2)
    .word 0x718122b7  # lui x5, 0x71812
    .word 0xd7428293  # addi x5, x5, -652
    .word 0x24512623  # sw x5, 588(x2)
    .word 0xea3cc2b7  # lui x5, 0xea3cc
    .word 0x04028293  # addi x5, x5, 64
    .word 0x24512823  # sw x5, 592(x2)
    .word 0x044e72b7  # lui x5, 0x044e7
    .word 0x01f28293  # addi x5, x5, 31
    .word 0x24512a23  # sw x5, 596(x2)
    .word 0xac4182b7  # lui x5, 0xac418
    .word 0x4cf28293  # addi x5, x5, 1231
    .word 0x24512c23  # sw x5, 600(x2)
    .word 0x6681f2b7  # lui x5, 0x6681f
    .word 0x60128293  # addi x5, x5, 1537
    .word 0x24512e23  # sw x5, 604(x2)
    .word 0x6da8d2b7  # lui x5, 0x6da8d
    .word 0xba228293  # addi x5, x5, -1118
    .word 0x26512023  # sw x5, 608(x2)
    .word 0xa10752b7  # lui x5, 0xa1075
    .word 0xe3628293  # addi x5, x5, -458
    .word 0x26512223  # sw x5, 612(x2)
    .word 0x292442b7  # lui x5, 0x29244
    .word 0x84b28293  # addi x5, x5, -1973
    .word 0x26512423  # sw x5, 616(x2)
    .word 0xdda032b7  # lui x5, 0xdda03
    .word 0xec228293  # addi x5, x5, -318
    .word 0x26512623  # sw x5, 620(x2)
    .word 0xb80592b7  # lui x5, 0xb8059
    .word 0x96c28293  # addi x5, x5, -1684
    .word 0x26512823  # sw x5, 624(x2)
    .word 0xdd6522b7  # lui x5, 0xdd652
    .word 0xf9c28293  # addi x5, x5, -100
    .word 0x26512a23  # sw x5, 628(x2)
    .word 0x97ccf2b7  # lui x5, 0x97ccf
    .word 0x03d28293  # addi x5, x5, 61
    .word 0x26512c23  # sw x5, 632(x2)
    .word 0x3f2282b7  # lui x5, 0x3f228
    .word 0x73128293  # addi x5, x5, 1841
    .word 0x26512e23  # sw x5, 636(x2)
    .word 0x163962b7  # lui x5, 0x16396
    .word 0xe0d28293  # addi x5, x5, -499
    .word 0x28512023  # sw x5, 640(x2)
    .word 0x197432b7  # lui x5, 0x19743
    .word 0x22428293  # addi x5, x5, 548
    .word 0x28512223  # sw x5, 644(x2)
    .word 0xfa27d2b7  # lui x5, 0xfa27d
    .word 0x58e28293  # addi x5, x5, 1422
    .word 0x28512423  # sw x5, 648(x2)
    .word 0x870952b7  # lui x5, 0x87095
    .word 0xe0e28293  # addi x5, x5, -498
    .word 0x28512623  # sw x5, 652(x2)
    .word 0x5c0ca2b7  # lui x5, 0x5c0ca
    .word 0xc9228293  # addi x5, x5, -878
    .word 0x28512823  # sw x5, 656(x2)
    .word 0xb12d72b7  # lui x5, 0xb12d7
    .word 0x2a928293  # addi x5, x5, 681
    .word 0x28512a23  # sw x5, 660(x2)
    .word 0xaf19f2b7  # lui x5, 0xaf19f
    .word 0xa5128293  # addi x5, x5, -1455
    .word 0x28512c23  # sw x5, 664(x2)
    .word 0x9e0792b7  # lui x5, 0x9e079
    .word 0x94528293  # addi x5, x5, -1723
    .word 0x28512e23  # sw x5, 668(x2)
    .word 0x31fc22b7  # lui x5, 0x31fc2
    .word 0x7af28293  # addi x5, x5, 1967
    .word 0x2a512023  # sw x5, 672(x2)
    .word 0x980802b7  # lui x5, 0x98080
    .word 0xf6328293  # addi x5, x5, -157
    .word 0x2a512223  # sw x5, 676(x2)
    .word 0xc13fe2b7  # lui x5, 0xc13fe
    .word 0x76528293  # addi x5, x5, 1893
    .word 0x2a512423  # sw x5, 680(x2)
    .word 0x3099d2b7  # lui x5, 0x3099d
    .word 0xcc928293  # addi x5, x5, -823
    .word 0x2a512623  # sw x5, 684(x2)
    .word 0xdc5182b7  # lui x5, 0xdc518
    .word 0x39428293  # addi x5, x5, 916
    .word 0x2a512823  # sw x5, 688(x2)
    .word 0x0289a2b7  # lui x5, 0x0289a
    .word 0x6a528293  # addi x5, x5, 1701
    .word 0x2a512a23  # sw x5, 692(x2)
    .word 0x658212b7  # lui x5, 0x65821
    .word 0x9b128293  # addi x5, x5, -1615
    .word 0x2a512c23  # sw x5, 696(x2)
    .word 0x934372b7  # lui x5, 0x93437
    .word 0x0f828293  # addi x5, x5, 248
    .word 0x2a512e23  # sw x5, 700(x2)
    .word 0xb254c2b7  # lui x5, 0xb254c
    .word 0xe6828293  # addi x5, x5, -408
    .word 0x2c512023  # sw x5, 704(x2)
    .word 0x6e5a02b7  # lui x5, 0x6e5a0
    .word 0x91528293  # addi x5, x5, -1771
    .word 0x2c512223  # sw x5, 708(x2)
    .word 0x3e0ef2b7  # lui x5, 0x3e0ef
    .word 0xb2928293  # addi x5, x5, -1239
    .word 0x2c512423  # sw x5, 712(x2)
    .word 0x22c242b7  # lui x5, 0x22c24
    .word 0xfd428293  # addi x5, x5, -44
    .word 0x2c512623  # sw x5, 716(x2)
    .word 0x6e9512b7  # lui x5, 0x6e951
    .word 0x83b28293  # addi x5, x5, -1989
    .word 0x2c512823  # sw x5, 720(x2)
    .word 0xdc8c92b7  # lui x5, 0xdc8c9
    .word 0x2ba28293  # addi x5, x5, 698
    .word 0x2c512a23  # sw x5, 724(x2)
    .word 0x75f6f2b7  # lui x5, 0x75f6f
    .word 0xd0228293  # addi x5, x5, -766
    .word 0x2c512c23  # sw x5, 728(x2)
    .word 0xb8b6b2b7  # lui x5, 0xb8b6b
    .word 0x6df28293  # addi x5, x5, 1759
    .word 0x2c512e23  # sw x5, 732(x2)
    .word 0xcb8de2b7  # lui x5, 0xcb8de
    .word 0x16528293  # addi x5, x5, 357
    .word 0x2e512023  # sw x5, 736(x2)
    .word 0xc93f52b7  # lui x5, 0xc93f5
    .word 0x9e728293  # addi x5, x5, -1561
    .word 0x2e512223  # sw x5, 740(x2)
    .word 0x71e392b7  # lui x5, 0x71e39
    .word 0xc0928293  # addi x5, x5, -1015
    .word 0x2e512423  # sw x5, 744(x2)
    .word 0x31d4d2b7  # lui x5, 0x31d4d
    .word 0x84028293  # addi x5, x5, -1984
    .word 0x2e512623  # sw x5, 748(x2)
    .word 0xbe4022b7  # lui x5, 0xbe402
    .word 0x27428293  # addi x5, x5, 628
    .word 0x2e512823  # sw x5, 752(x2)
    .word 0xef28b2b7  # lui x5, 0xef28b
    .word 0xe1a28293  # addi x5, x5, -486
    .word 0x2e512a23  # sw x5, 756(x2)
    .word 0x5e5b32b7  # lui x5, 0x5e5b3
    .word 0x41028293  # addi x5, x5, 1040
    .word 0x2e512c23  # sw x5, 760(x2)
    .word 0x45faa2b7  # lui x5, 0x45faa
    .word 0xdf428293  # addi x5, x5, -524
    .word 0x2e512e23  # sw x5, 764(x2)
    .word 0x014eb2b7  # lui x5, 0x014eb
    .word 0xb2e28293  # addi x5, x5, -1234
    .word 0x30512023  # sw x5, 768(x2)
    .word 0xd45222b7  # lui x5, 0xd4522
    .word 0x11228293  # addi x5, x5, 274
    .word 0x30512223  # sw x5, 772(x2)
    .word 0x2cd532b7  # lui x5, 0x2cd53
    .word 0xaae28293  # addi x5, x5, -1362
    .word 0x30512423  # sw x5, 776(x2)
    .word 0xcbb542b7  # lui x5, 0xcbb54
    .word 0x0d428293  # addi x5, x5, 212
    .word 0x30512623  # sw x5, 780(x2)
    .word 0x7de2a2b7  # lui x5, 0x7de2a
    .word 0xfcd28293  # addi x5, x5, -51
    .word 0x30512823  # sw x5, 784(x2)
    .word 0x379942b7  # lui x5, 0x37994
    .word 0x2fb28293  # addi x5, x5, 763
    .word 0x30512a23  # sw x5, 788(x2)
    .word 0xaff272b7  # lui x5, 0xaff27
    .word 0x73228293  # addi x5, x5, 1842
    .word 0x30512c23  # sw x5, 792(x2)
    .word 0x549712b7  # lui x5, 0x54971
    .word 0x81428293  # addi x5, x5, -2028
    .word 0x30512e23  # sw x5, 796(x2)
    .word 0x6c5a22b7  # lui x5, 0x6c5a2
    .word 0x07428293  # addi x5, x5, 116
    .word 0x32512023  # sw x5, 800(x2)
    .word 0xccb532b7  # lui x5, 0xccb53
    .word 0xd2428293  # addi x5, x5, -732
    .word 0x32512223  # sw x5, 804(x2)
    .word 0xfc4f12b7  # lui x5, 0xfc4f1
    .word 0xd9d28293  # addi x5, x5, -611
    .word 0x32512423  # sw x5, 808(x2)
    .word 0x11eaf2b7  # lui x5, 0x11eaf
    .word 0xdee28293  # addi x5, x5, -530
    .word 0x32512623  # sw x5, 812(x2)
    .word 0x3a22f2b7  # lui x5, 0x3a22f
    .word 0x9a028293  # addi x5, x5, -1632
    .word 0x32512823  # sw x5, 816(x2)
    .word 0xa5cbe2b7  # lui x5, 0xa5cbe
    .word 0xca128293  # addi x5, x5, -863
    .word 0x32512a23  # sw x5, 820(x2)
    .word 0xe7da82b7  # lui x5, 0xe7da8
    .word 0x90b28293  # addi x5, x5, -1781
    .word 0x32512c23  # sw x5, 824(x2)
    .word 0xea8b82b7  # lui x5, 0xea8b8
    .word 0xf1e28293  # addi x5, x5, -226
    .word 0x32512e23  # sw x5, 828(x2)
    .word 0x82f5f2b7  # lui x5, 0x82f5f
    .word 0xd1628293  # addi x5, x5, -746
    .word 0x34512023  # sw x5, 832(x2)
    .word 0x7ef642b7  # lui x5, 0x7ef64
    .word 0xbd528293  # addi x5, x5, -1067
    .word 0x34512223  # sw x5, 836(x2)
    .word 0xd67962b7  # lui x5, 0xd6796
    .word 0x92128293  # addi x5, x5, -1759
    .word 0x34512423  # sw x5, 840(x2)
    .word 0x8992f2b7  # lui x5, 0x8992f
    .word 0x4b328293  # addi x5, x5, 1203
    .word 0x34512623  # sw x5, 844(x2)
    .word 0x8e08c2b7  # lui x5, 0x8e08c
    .word 0x44028293  # addi x5, x5, 1088
    .word 0x34512823  # sw x5, 848(x2)
    .word 0x493572b7  # lui x5, 0x49357
    .word 0x20b28293  # addi x5, x5, 523
    .word 0x34512a23  # sw x5, 852(x2)
    .word 0x7059d2b7  # lui x5, 0x7059d
    .word 0x1b528293  # addi x5, x5, 437
    .word 0x34512c23  # sw x5, 856(x2)
    .word 0xcea152b7  # lui x5, 0xcea15
    .word 0x60e28293  # addi x5, x5, 1550
    .word 0x34512e23  # sw x5, 860(x2)
    .word 0x483582b7  # lui x5, 0x48358
    .word 0x5bb28293  # addi x5, x5, 1467
    .word 0x36512023  # sw x5, 864(x2)
    .word 0xb17c32b7  # lui x5, 0xb17c3
    .word 0x18728293  # addi x5, x5, 391
    .word 0x36512223  # sw x5, 868(x2)
    .word 0xbb67c2b7  # lui x5, 0xbb67c
    .word 0xcf228293  # addi x5, x5, -782
    .word 0x36512423  # sw x5, 872(x2)
    .word 0xb7a322b7  # lui x5, 0xb7a32
    .word 0xad728293  # addi x5, x5, -1321
    .word 0x36512623  # sw x5, 876(x2)
    .word 0x385e22b7  # lui x5, 0x385e2
    .word 0x02528293  # addi x5, x5, 37
    .word 0x36512823  # sw x5, 880(x2)
    .word 0xb3b722b7  # lui x5, 0xb3b72
    .word 0x94d28293  # addi x5, x5, -1715
    .word 0x36512a23  # sw x5, 884(x2)
    .word 0x149bf2b7  # lui x5, 0x149bf
    .word 0x40128293  # addi x5, x5, 1025
    .word 0x36512c23  # sw x5, 888(x2)
    .word 0x314b02b7  # lui x5, 0x314b0
    .word 0xa3c28293  # addi x5, x5, -1476
    .word 0x36512e23  # sw x5, 892(x2)
    .word 0x79cf42b7  # lui x5, 0x79cf4
    .word 0xed428293  # addi x5, x5, -300
    .word 0x38512023  # sw x5, 896(x2)
    .word 0xb0b752b7  # lui x5, 0xb0b75
    .word 0x45c28293  # addi x5, x5, 1116
    .word 0x38512223  # sw x5, 900(x2)
    .word 0x9ca532b7  # lui x5, 0x9ca53
    .word 0xe5f28293  # addi x5, x5, -417
    .word 0x38512423  # sw x5, 904(x2)
    .word 0xf79e32b7  # lui x5, 0xf79e3
    .word 0xee928293  # addi x5, x5, -279
    .word 0x38512623  # sw x5, 908(x2)
    .word 0x1cd662b7  # lui x5, 0x1cd66
    .word 0x5aa28293  # addi x5, x5, 1450
    .word 0x38512823  # sw x5, 912(x2)
    .word 0xc404a2b7  # lui x5, 0xc404a
    .word 0xd2f28293  # addi x5, x5, -721
    .word 0x38512a23  # sw x5, 916(x2)
    .word 0xa0b892b7  # lui x5, 0xa0b89
    .word 0xf5828293  # addi x5, x5, -168
    .word 0x38512c23  # sw x5, 920(x2)
    .word 0x7e8022b7  # lui x5, 0x7e802
    .word 0xd8828293  # addi x5, x5, -632
    .word 0x38512e23  # sw x5, 924(x2)
    .word 0x51bea2b7  # lui x5, 0x51bea
    .word 0x29228293  # addi x5, x5, 658
    .word 0x3a512023  # sw x5, 928(x2)
    .word 0x1887f2b7  # lui x5, 0x1887f
    .word 0x58b28293  # addi x5, x5, 1419
    .word 0x3a512223  # sw x5, 932(x2)
    .word 0xd53e62b7  # lui x5, 0xd53e6
    .word 0xdab28293  # addi x5, x5, -597
    .word 0x3a512423  # sw x5, 936(x2)
    .word 0x3a36a2b7  # lui x5, 0x3a36a
    .word 0x95728293  # addi x5, x5, -1705
    .word 0x3a512623  # sw x5, 940(x2)
    .word 0xa169c2b7  # lui x5, 0xa169c
    .word 0xccb28293  # addi x5, x5, -821
    .word 0x3a512823  # sw x5, 944(x2)
    .word 0x2b2412b7  # lui x5, 0x2b241
    .word 0x0ec28293  # addi x5, x5, 236
    .word 0x3a512a23  # sw x5, 948(x2)
    .word 0xbda2a2b7  # lui x5, 0xbda2a
    .word 0x4b928293  # addi x5, x5, 1209
    .word 0x3a512c23  # sw x5, 952(x2)
    .word 0xc77a82b7  # lui x5, 0xc77a8
    .word 0x06d28293  # addi x5, x5, 109
    .word 0x3a512e23  # sw x5, 956(x2)
    .word 0xd7a0a2b7  # lui x5, 0xd7a0a
    .word 0x4e028293  # addi x5, x5, 1248
    .word 0x3c512023  # sw x5, 960(x2)
    .word 0x53f992b7  # lui x5, 0x53f99
    .word 0xa5828293  # addi x5, x5, -1448
    .word 0x3c512223  # sw x5, 964(x2)
    .word 0x1efda2b7  # lui x5, 0x1efda
    .word 0xdb928293  # addi x5, x5, -583
    .word 0x3c512423  # sw x5, 968(x2)
    .word 0x4ee642b7  # lui x5, 0x4ee64
    .word 0xd0f28293  # addi x5, x5, -753
    .word 0x3c512623  # sw x5, 972(x2)
    .word 0x57e592b7  # lui x5, 0x57e59
    .word 0xbe228293  # addi x5, x5, -1054
    .word 0x3c512823  # sw x5, 976(x2)
    .word 0xa555c2b7  # lui x5, 0xa555c
    .word 0xe5428293  # addi x5, x5, -428
    .word 0x3c512a23  # sw x5, 980(x2)
    .word 0xd565c2b7  # lui x5, 0xd565c
    .word 0xd1928293  # addi x5, x5, -743
    .word 0x3c512c23  # sw x5, 984(x2)
    .word 0x442222b7  # lui x5, 0x44222
    .word 0x4c328293  # addi x5, x5, 1219
    .word 0x3c512e23  # sw x5, 988(x2)
    .word 0x846bf2b7  # lui x5, 0x846bf
    .word 0x7b228293  # addi x5, x5, 1970
    .word 0x3e512023  # sw x5, 992(x2)
    .word 0x5d33f2b7  # lui x5, 0x5d33f
    .word 0x85128293  # addi x5, x5, -1967
    .word 0x3e512223  # sw x5, 996(x2)
    .word 0x901c52b7  # lui x5, 0x901c5
    .word 0xc9828293  # addi x5, x5, -872
    .word 0x3e512423  # sw x5, 1000(x2)
    .word 0x4f2152b7  # lui x5, 0x4f215
    .word 0xc3628293  # addi x5, x5, -970
    .word 0x3e512623  # sw x5, 1004(x2)
    .word 0xa24252b7  # lui x5, 0xa2425
    .word 0x9ac28293  # addi x5, x5, -1620
    .word 0x3e512823  # sw x5, 1008(x2)
    .word 0xe1b392b7  # lui x5, 0xe1b39
    .word 0xfba28293  # addi x5, x5, -70
    .word 0x3e512a23  # sw x5, 1012(x2)
    .word 0x440e72b7  # lui x5, 0x440e7
    .word 0x50b28293  # addi x5, x5, 1291
    .word 0x3e512c23  # sw x5, 1016(x2)
    .word 0xa5a482b7  # lui x5, 0xa5a48
    .word 0xd3228293  # addi x5, x5, -718
    .word 0x3e512e23  # sw x5, 1020(x2)
    .word 0xfff00513  # addi x10, x0, -1
    .word 0x00150513  # addi x10, x10, 1
    .word 0x07f00293  # addi x5, x0, 127
    .word 0x00351313  # slli x6, x10, 3
    .word 0x406282b3  # sub x5, x5, x6
    .word 0x00229613  # slli x12, x5, 2
    .word 0x00260633  # add x12, x12, x2
    .word 0x20062603  # lw x12, 512(x12)
    .word 0x00551893  # slli x17, x10, 5
    .word 0x00189493  # slli x9, x17, 1
    .word 0x002484b3  # add x9, x9, x2
    .word 0x0004d903  # lhu x18, 0(x9)
    .word 0x0024da03  # lhu x20, 2(x9)
    .word 0x0044d983  # lhu x19, 4(x9)
    .word 0x0064db03  # lhu x22, 6(x9)
    .word 0x01b982b3  # add x5, x19, x27
    .word 0x41228d33  # sub x26, x5, x18
    .word 0x01390933  # add x18, x18, x19
    .word 0x02cd0d33  # mul x26, x26, x12
    .word 0x028d39b3  # mulhu x19, x26, x8
    .word 0x01bb02b3  # add x5, x22, x27
    .word 0x41428d33  # sub x26, x5, x20
    .word 0x016a0a33  # add x20, x20, x22
    .word 0x02cd0d33  # mul x26, x26, x12
    .word 0x028d3d33  # mulhu x26, x26, x8
    .word 0x01249023  # sh x18, 0(x9)
    .word 0x01449123  # sh x20, 2(x9)
    .word 0x01349223  # sh x19, 4(x9)
    .word 0x01a49323  # sh x26, 6(x9)
    .word 0x07f00293  # addi x5, x0, 127
    .word 0x00351313  # slli x6, x10, 3
    .word 0x406282b3  # sub x5, x5, x6
    .word 0x00229613  # slli x12, x5, 2
    .word 0x00260633  # add x12, x12, x2
    .word 0x1fc62603  # lw x12, 508(x12)
    .word 0x00551293  # slli x5, x10, 5
    .word 0x00428893  # addi x17, x5, 4
    .word 0x00189493  # slli x9, x17, 1
    .word 0x002484b3  # add x9, x9, x2
    .word 0x0004d903  # lhu x18, 0(x9)
    .word 0x0024da03  # lhu x20, 2(x9)
    .word 0x0044d983  # lhu x19, 4(x9)
    .word 0x0064db03  # lhu x22, 6(x9)
    .word 0x01b982b3  # add x5, x19, x27
    .word 0x41228d33  # sub x26, x5, x18
    .word 0x01390933  # add x18, x18, x19
    .word 0x02cd0d33  # mul x26, x26, x12
    .word 0x028d39b3  # mulhu x19, x26, x8
    .word 0x01bb02b3  # add x5, x22, x27
    .word 0x41428d33  # sub x26, x5, x20
    .word 0x016a0a33  # add x20, x20, x22
    .word 0x02cd0d33  # mul x26, x26, x12
    .word 0x028d3d33  # mulhu x26, x26, x8
    .word 0x01249023  # sh x18, 0(x9)
    .word 0x01449123  # sh x20, 2(x9)
    .word 0x01349223  # sh x19, 4(x9)
    .word 0x01a49323  # sh x26, 6(x9)
    .word 0x07f00293  # addi x5, x0, 127
    .word 0x00351313  # slli x6, x10, 3
    .word 0x406282b3  # sub x5, x5, x6
    .word 0x00229613  # slli x12, x5, 2
    .word 0x00260633  # add x12, x12, x2
    .word 0x1f862603  # lw x12, 504(x12)
    .word 0x00551293  # slli x5, x10, 5
    .word 0x00828893  # addi x17, x5, 8
    .word 0x00189493  # slli x9, x17, 1
    .word 0x002484b3  # add x9, x9, x2
    .word 0x0004d903  # lhu x18, 0(x9)
    .word 0x0024da03  # lhu x20, 2(x9)
    .word 0x0044d983  # lhu x19, 4(x9)
    .word 0x0064db03  # lhu x22, 6(x9)
    .word 0x01b982b3  # add x5, x19, x27
    .word 0x41228d33  # sub x26, x5, x18
    .word 0x01390933  # add x18, x18, x19
    .word 0x02cd0d33  # mul x26, x26, x12
    .word 0x028d39b3  # mulhu x19, x26, x8
    .word 0x01bb02b3  # add x5, x22, x27
    .word 0x41428d33  # sub x26, x5, x20
    .word 0x016a0a33  # add x20, x20, x22
    .word 0x02cd0d33  # mul x26, x26, x12
    .word 0x028d3d33  # mulhu x26, x26, x8
    .word 0x01249023  # sh x18, 0(x9)
    .word 0x01449123  # sh x20, 2(x9)
    .word 0x01349223  # sh x19, 4(x9)
    .word 0x01a49323  # sh x26, 6(x9)
    .word 0x07f00293  # addi x5, x0, 127
    .word 0x00351313  # slli x6, x10, 3
    .word 0x406282b3  # sub x5, x5, x6
    .word 0x00229613  # slli x12, x5, 2
    .word 0x00260633  # add x12, x12, x2
    .word 0x1f462603  # lw x12, 500(x12)
    .word 0x00551293  # slli x5, x10, 5
    .word 0x00c28893  # addi x17, x5, 12
    .word 0x00189493  # slli x9, x17, 1
    .word 0x002484b3  # add x9, x9, x2
    .word 0x0004d903  # lhu x18, 0(x9)
    .word 0x0024da03  # lhu x20, 2(x9)
    .word 0x0044d983  # lhu x19, 4(x9)
    .word 0x0064db03  # lhu x22, 6(x9)
    .word 0x01b982b3  # add x5, x19, x27
    .word 0x41228d33  # sub x26, x5, x18
    .word 0x01390933  # add x18, x18, x19
    .word 0x02cd0d33  # mul x26, x26, x12
    .word 0x028d39b3  # mulhu x19, x26, x8
    .word 0x01bb02b3  # add x5, x22, x27
    .word 0x41428d33  # sub x26, x5, x20
    .word 0x016a0a33  # add x20, x20, x22
    .word 0x02cd0d33  # mul x26, x26, x12
    .word 0x028d3d33  # mulhu x26, x26, x8
    .word 0x01249023  # sh x18, 0(x9)
    .word 0x01449123  # sh x20, 2(x9)
    .word 0x01349223  # sh x19, 4(x9)
    .word 0x01a49323  # sh x26, 6(x9)
    .word 0x07f00293  # addi x5, x0, 127
    .word 0x00351313  # slli x6, x10, 3
    .word 0x406282b3  # sub x5, x5, x6
    .word 0x00229613  # slli x12, x5, 2
    .word 0x00260633  # add x12, x12, x2
    .word 0x1f062603  # lw x12, 496(x12)
    .word 0x00551293  # slli x5, x10, 5
    .word 0x01028893  # addi x17, x5, 16
    .word 0x00189493  # slli x9, x17, 1
    .word 0x002484b3  # add x9, x9, x2
    .word 0x0004d903  # lhu x18, 0(x9)
    .word 0x0024da03  # lhu x20, 2(x9)
    .word 0x0044d983  # lhu x19, 4(x9)
    .word 0x0064db03  # lhu x22, 6(x9)
    .word 0x01b982b3  # add x5, x19, x27
    .word 0x41228d33  # sub x26, x5, x18
    .word 0x01390933  # add x18, x18, x19
    .word 0x02cd0d33  # mul x26, x26, x12
    .word 0x028d39b3  # mulhu x19, x26, x8
    .word 0x01bb02b3  # add x5, x22, x27
    .word 0x41428d33  # sub x26, x5, x20
    .word 0x016a0a33  # add x20, x20, x22
    .word 0x02cd0d33  # mul x26, x26, x12
    .word 0x028d3d33  # mulhu x26, x26, x8
    .word 0x01249023  # sh x18, 0(x9)
    .word 0x01449123  # sh x20, 2(x9)
    .word 0x01349223  # sh x19, 4(x9)
    .word 0x01a49323  # sh x26, 6(x9)
    .word 0x07f00293  # addi x5, x0, 127
    .word 0x00351313  # slli x6, x10, 3
    .word 0x406282b3  # sub x5, x5, x6
    .word 0x00229613  # slli x12, x5, 2
    .word 0x00260633  # add x12, x12, x2
    .word 0x1ec62603  # lw x12, 492(x12)
    .word 0x00551293  # slli x5, x10, 5
    .word 0x01428893  # addi x17, x5, 20
    .word 0x00189493  # slli x9, x17, 1
    .word 0x002484b3  # add x9, x9, x2
    .word 0x0004d903  # lhu x18, 0(x9)
    .word 0x0024da03  # lhu x20, 2(x9)
    .word 0x0044d983  # lhu x19, 4(x9)
    .word 0x0064db03  # lhu x22, 6(x9)
    .word 0x01b982b3  # add x5, x19, x27
    .word 0x41228d33  # sub x26, x5, x18
    .word 0x01390933  # add x18, x18, x19
    .word 0x02cd0d33  # mul x26, x26, x12
    .word 0x028d39b3  # mulhu x19, x26, x8
    .word 0x01bb02b3  # add x5, x22, x27
    .word 0x41428d33  # sub x26, x5, x20
    .word 0x016a0a33  # add x20, x20, x22
    .word 0x02cd0d33  # mul x26, x26, x12
    .word 0x028d3d33  # mulhu x26, x26, x8
    .word 0x01249023  # sh x18, 0(x9)
    .word 0x01449123  # sh x20, 2(x9)
    .word 0x01349223  # sh x19, 4(x9)
    .word 0x01a49323  # sh x26, 6(x9)
    .word 0x07f00293  # addi x5, x0, 127
    .word 0x00351313  # slli x6, x10, 3
    .word 0x406282b3  # sub x5, x5, x6
    .word 0x00229613  # slli x12, x5, 2
    .word 0x00260633  # add x12, x12, x2
    .word 0x1e862603  # lw x12, 488(x12)
    .word 0x00551293  # slli x5, x10, 5
    .word 0x01828893  # addi x17, x5, 24
    .word 0x00189493  # slli x9, x17, 1
    .word 0x002484b3  # add x9, x9, x2
    .word 0x0004d903  # lhu x18, 0(x9)
    .word 0x0024da03  # lhu x20, 2(x9)
    .word 0x0044d983  # lhu x19, 4(x9)
    .word 0x0064db03  # lhu x22, 6(x9)
    .word 0x01b982b3  # add x5, x19, x27
    .word 0x41228d33  # sub x26, x5, x18
    .word 0x01390933  # add x18, x18, x19
    .word 0x02cd0d33  # mul x26, x26, x12
    .word 0x028d39b3  # mulhu x19, x26, x8
    .word 0x01bb02b3  # add x5, x22, x27
    .word 0x41428d33  # sub x26, x5, x20
    .word 0x016a0a33  # add x20, x20, x22
    .word 0x02cd0d33  # mul x26, x26, x12
    .word 0x028d3d33  # mulhu x26, x26, x8
    .word 0x01249023  # sh x18, 0(x9)
    .word 0x01449123  # sh x20, 2(x9)
    .word 0x01349223  # sh x19, 4(x9)
    .word 0x01a49323  # sh x26, 6(x9)
    .word 0x07f00293  # addi x5, x0, 127
    .word 0x00351313  # slli x6, x10, 3
    .word 0x406282b3  # sub x5, x5, x6
    .word 0x00229613  # slli x12, x5, 2
    .word 0x00260633  # add x12, x12, x2
    .word 0x1e462603  # lw x12, 484(x12)
    .word 0x00551293  # slli x5, x10, 5
    .word 0x01c28893  # addi x17, x5, 28
    .word 0x00189493  # slli x9, x17, 1
    .word 0x002484b3  # add x9, x9, x2
    .word 0x0004d903  # lhu x18, 0(x9)
    .word 0x0024da03  # lhu x20, 2(x9)
    .word 0x0044d983  # lhu x19, 4(x9)
    .word 0x0064db03  # lhu x22, 6(x9)
    .word 0x01b982b3  # add x5, x19, x27
    .word 0x41228d33  # sub x26, x5, x18
    .word 0x01390933  # add x18, x18, x19
    .word 0x02cd0d33  # mul x26, x26, x12
    .word 0x028d39b3  # mulhu x19, x26, x8
    .word 0x01bb02b3  # add x5, x22, x27
    .word 0x41428d33  # sub x26, x5, x20
    .word 0x016a0a33  # add x20, x20, x22
    .word 0x02cd0d33  # mul x26, x26, x12
    .word 0x028d3d33  # mulhu x26, x26, x8
    .word 0x01249023  # sh x18, 0(x9)
    .word 0x01449123  # sh x20, 2(x9)
    .word 0x01349223  # sh x19, 4(x9)
    .word 0x01a49323  # sh x26, 6(x9)
    .word 0xff950293  # addi x5, x10, -7
    .word 0xc6029ee3  # bne x5, x0, -900
    .word 0x0013b5b7  # lui x11, 0x0013b
    .word 0xfb858593  # addi x11, x11, -72
    .word 0x40012a23  # sw x0, 1044(x2)
    .word 0x00800293  # addi x5, x0, 8
    .word 0x40512c23  # sw x5, 1048(x2)
    .word 0x41412303  # lw x6, 1044(x2)
    .word 0x41812283  # lw x5, 1048(x2)
    .word 0x005332b3  # sltu x5, x6, x5
    .word 0x00029463  # bne x5, x0, 8
    .word 0x2280006f  # jal x0, 552
    .word 0x40612023  # sw x6, 1024(x2)
    .word 0x00130313  # addi x6, x6, 1
    .word 0x40612a23  # sw x6, 1044(x2)
    .word 0x00f00293  # addi x5, x0, 15
    .word 0x40012303  # lw x6, 1024(x2)
    .word 0x406288b3  # sub x17, x5, x6
    .word 0x00189493  # slli x9, x17, 1
    .word 0x002484b3  # add x9, x9, x2
    .word 0x00289613  # slli x12, x17, 2
    .word 0x00260633  # add x12, x12, x2
    .word 0x20062603  # lw x12, 512(x12)
    .word 0x00189293  # slli x5, x17, 1
    .word 0x00229693  # slli x13, x5, 2
    .word 0x002686b3  # add x13, x13, x2
    .word 0x2046a683  # lw x13, 516(x13)
    .word 0x00189293  # slli x5, x17, 1
    .word 0x00229713  # slli x14, x5, 2
    .word 0x00270733  # add x14, x14, x2
    .word 0x20072703  # lw x14, 512(x14)
    .word 0x00289293  # slli x5, x17, 2
    .word 0x00229513  # slli x10, x5, 2
    .word 0x00250533  # add x10, x10, x2
    .word 0x20c52503  # lw x10, 524(x10)
    .word 0x00289293  # slli x5, x17, 2
    .word 0x00229793  # slli x15, x5, 2
    .word 0x002787b3  # add x15, x15, x2
    .word 0x2087a783  # lw x15, 520(x15)
    .word 0x00289293  # slli x5, x17, 2
    .word 0x00229293  # slli x5, x5, 2
    .word 0x002282b3  # add x5, x5, x2
    .word 0x2042a283  # lw x5, 516(x5)
    .word 0x40512223  # sw x5, 1028(x2)
    .word 0x00289293  # slli x5, x17, 2
    .word 0x00229293  # slli x5, x5, 2
    .word 0x002282b3  # add x5, x5, x2
    .word 0x2002a283  # lw x5, 512(x5)
    .word 0x40512423  # sw x5, 1032(x2)
    .word 0xfff00813  # addi x16, x0, -1
    .word 0x00180813  # addi x16, x16, 1
    .word 0x40012283  # lw x5, 1024(x2)
    .word 0x00529293  # slli x5, x5, 5
    .word 0x010288b3  # add x17, x5, x16
    .word 0x00189493  # slli x9, x17, 1
    .word 0x002484b3  # add x9, x9, x2
    .word 0x0004d903  # lhu x18, 0(x9)
    .word 0x0084d983  # lhu x19, 8(x9)
    .word 0x0104da03  # lhu x20, 16(x9)
    .word 0x0184da83  # lhu x21, 24(x9)
    .word 0x0204db03  # lhu x22, 32(x9)
    .word 0x0284db83  # lhu x23, 40(x9)
    .word 0x0304dc03  # lhu x24, 48(x9)
    .word 0x0384dc83  # lhu x25, 56(x9)
    .word 0x01b982b3  # add x5, x19, x27
    .word 0x41228d33  # sub x26, x5, x18
    .word 0x01390933  # add x18, x18, x19
    .word 0x02ad0d33  # mul x26, x26, x10
    .word 0x028d39b3  # mulhu x19, x26, x8
    .word 0x01ba82b3  # add x5, x21, x27
    .word 0x41428d33  # sub x26, x5, x20
    .word 0x015a0a33  # add x20, x20, x21
    .word 0x02fd0d33  # mul x26, x26, x15
    .word 0x028d3ab3  # mulhu x21, x26, x8
    .word 0x01bb82b3  # add x5, x23, x27
    .word 0x41628d33  # sub x26, x5, x22
    .word 0x017b0b33  # add x22, x22, x23
    .word 0x40412303  # lw x6, 1028(x2)
    .word 0x026d0d33  # mul x26, x26, x6
    .word 0x028d3bb3  # mulhu x23, x26, x8
    .word 0x01bc82b3  # add x5, x25, x27
    .word 0x41828d33  # sub x26, x5, x24
    .word 0x019c0c33  # add x24, x24, x25
    .word 0x40812303  # lw x6, 1032(x2)
    .word 0x026d0d33  # mul x26, x26, x6
    .word 0x028d3cb3  # mulhu x25, x26, x8
    .word 0x01ba02b3  # add x5, x20, x27
    .word 0x41228d33  # sub x26, x5, x18
    .word 0x01490933  # add x18, x18, x20
    .word 0x02dd0d33  # mul x26, x26, x13
    .word 0x028d3d33  # mulhu x26, x26, x8
    .word 0x000d0a13  # addi x20, x26, 0
    .word 0x01ba82b3  # add x5, x21, x27
    .word 0x41328d33  # sub x26, x5, x19
    .word 0x015989b3  # add x19, x19, x21
    .word 0x02dd0d33  # mul x26, x26, x13
    .word 0x028d3ab3  # mulhu x21, x26, x8
    .word 0x01bc02b3  # add x5, x24, x27
    .word 0x41628d33  # sub x26, x5, x22
    .word 0x018b0b33  # add x22, x22, x24
    .word 0x02ed0d33  # mul x26, x26, x14
    .word 0x028d3c33  # mulhu x24, x26, x8
    .word 0x01bc82b3  # add x5, x25, x27
    .word 0x41728d33  # sub x26, x5, x23
    .word 0x019b8bb3  # add x23, x23, x25
    .word 0x02ed0d33  # mul x26, x26, x14
    .word 0x028d3cb3  # mulhu x25, x26, x8
    .word 0x01bb02b3  # add x5, x22, x27
    .word 0x41228d33  # sub x26, x5, x18
    .word 0x01690933  # add x18, x18, x22
    .word 0x02cd0d33  # mul x26, x26, x12
    .word 0x028d3d33  # mulhu x26, x26, x8
    .word 0x000d0b13  # addi x22, x26, 0
    .word 0x01bb82b3  # add x5, x23, x27
    .word 0x41328d33  # sub x26, x5, x19
    .word 0x017989b3  # add x19, x19, x23
    .word 0x02cd0d33  # mul x26, x26, x12
    .word 0x028d3d33  # mulhu x26, x26, x8
    .word 0x000d0b93  # addi x23, x26, 0
    .word 0x01bc02b3  # add x5, x24, x27
    .word 0x41428d33  # sub x26, x5, x20
    .word 0x018a0a33  # add x20, x20, x24
    .word 0x02cd0d33  # mul x26, x26, x12
    .word 0x028d3d33  # mulhu x26, x26, x8
    .word 0x000d0c13  # addi x24, x26, 0
    .word 0x01bc82b3  # add x5, x25, x27
    .word 0x41528d33  # sub x26, x5, x21
    .word 0x019a8ab3  # add x21, x21, x25
    .word 0x02cd0d33  # mul x26, x26, x12
    .word 0x028d3d33  # mulhu x26, x26, x8
    .word 0x02b90933  # mul x18, x18, x11
    .word 0x02893933  # mulhu x18, x18, x8
    .word 0x02b989b3  # mul x19, x19, x11
    .word 0x0289b9b3  # mulhu x19, x19, x8
    .word 0x02ba0a33  # mul x20, x20, x11
    .word 0x028a3a33  # mulhu x20, x20, x8
    .word 0x02ba8ab3  # mul x21, x21, x11
    .word 0x028abab3  # mulhu x21, x21, x8
    .word 0x01249023  # sh x18, 0(x9)
    .word 0x01349423  # sh x19, 8(x9)
    .word 0x01449823  # sh x20, 16(x9)
    .word 0x01549c23  # sh x21, 24(x9)
    .word 0x03649023  # sh x22, 32(x9)
    .word 0x03749423  # sh x23, 40(x9)
    .word 0x03849823  # sh x24, 48(x9)
    .word 0x03a49c23  # sh x26, 56(x9)
    .word 0xffd80293  # addi x5, x16, -3
    .word 0xe6029ee3  # bne x5, x0, -388
    .word 0xdcdff06f  # jal x0, -564
    .word 0xfe002637  # lui x12, 0xfe002
    .word 0x76060613  # addi x12, x12, 1888
    .word 0x20412583  # lw x11, 516(x2)
    .word 0x20c12683  # lw x13, 524(x2)
    .word 0x20812703  # lw x14, 520(x2)
    .word 0x21c12503  # lw x10, 540(x2)
    .word 0x21812783  # lw x15, 536(x2)
    .word 0x21412283  # lw x5, 532(x2)
    .word 0x40512223  # sw x5, 1028(x2)
    .word 0x21012283  # lw x5, 528(x2)
    .word 0x40512423  # sw x5, 1032(x2)
    .word 0x40012a23  # sw x0, 1044(x2)
    .word 0x02000293  # addi x5, x0, 32
    .word 0x40512c23  # sw x5, 1048(x2)
    .word 0x41412303  # lw x6, 1044(x2)
    .word 0x41812283  # lw x5, 1048(x2)
    .word 0x005332b3  # sltu x5, x6, x5
    .word 0x00029463  # bne x5, x0, 8
    .word 0x1e80006f  # jal x0, 488
    .word 0x40612623  # sw x6, 1036(x2)
    .word 0x00130313  # addi x6, x6, 1
    .word 0x40612a23  # sw x6, 1044(x2)
    .word 0x40c12883  # lw x17, 1036(x2)
    .word 0x00189493  # slli x9, x17, 1
    .word 0x002484b3  # add x9, x9, x2
    .word 0x40c12283  # lw x5, 1036(x2)
    .word 0x00129913  # slli x18, x5, 1
    .word 0x00290933  # add x18, x18, x2
    .word 0x00095903  # lhu x18, 0(x18)
    .word 0x40c12283  # lw x5, 1036(x2)
    .word 0x00129993  # slli x19, x5, 1
    .word 0x002989b3  # add x19, x19, x2
    .word 0x0409d983  # lhu x19, 64(x19)
    .word 0x40c12283  # lw x5, 1036(x2)
    .word 0x00129a13  # slli x20, x5, 1
    .word 0x002a0a33  # add x20, x20, x2
    .word 0x080a5a03  # lhu x20, 128(x20)
    .word 0x40c12283  # lw x5, 1036(x2)
    .word 0x00129a93  # slli x21, x5, 1
    .word 0x002a8ab3  # add x21, x21, x2
    .word 0x0c0ada83  # lhu x21, 192(x21)
    .word 0x40c12283  # lw x5, 1036(x2)
    .word 0x00129b13  # slli x22, x5, 1
    .word 0x002b0b33  # add x22, x22, x2
    .word 0x100b5b03  # lhu x22, 256(x22)
    .word 0x40c12283  # lw x5, 1036(x2)
    .word 0x00129b93  # slli x23, x5, 1
    .word 0x002b8bb3  # add x23, x23, x2
    .word 0x140bdb83  # lhu x23, 320(x23)
    .word 0x40c12283  # lw x5, 1036(x2)
    .word 0x00129c13  # slli x24, x5, 1
    .word 0x002c0c33  # add x24, x24, x2
    .word 0x180c5c03  # lhu x24, 384(x24)
    .word 0x40c12283  # lw x5, 1036(x2)
    .word 0x00129c93  # slli x25, x5, 1
    .word 0x002c8cb3  # add x25, x25, x2
    .word 0x1c0cdc83  # lhu x25, 448(x25)
    .word 0x01b982b3  # add x5, x19, x27
    .word 0x41228d33  # sub x26, x5, x18
    .word 0x01390933  # add x18, x18, x19
    .word 0x02ad0d33  # mul x26, x26, x10
    .word 0x028d39b3  # mulhu x19, x26, x8
    .word 0x01ba82b3  # add x5, x21, x27
    .word 0x41428d33  # sub x26, x5, x20
    .word 0x015a0a33  # add x20, x20, x21
    .word 0x02fd0d33  # mul x26, x26, x15
    .word 0x028d3ab3  # mulhu x21, x26, x8
    .word 0x01bb82b3  # add x5, x23, x27
    .word 0x41628d33  # sub x26, x5, x22
    .word 0x017b0b33  # add x22, x22, x23
    .word 0x40412303  # lw x6, 1028(x2)
    .word 0x026d0d33  # mul x26, x26, x6
    .word 0x028d3bb3  # mulhu x23, x26, x8
    .word 0x01bc82b3  # add x5, x25, x27
    .word 0x41828d33  # sub x26, x5, x24
    .word 0x019c0c33  # add x24, x24, x25
    .word 0x40812303  # lw x6, 1032(x2)
    .word 0x026d0d33  # mul x26, x26, x6
    .word 0x028d3cb3  # mulhu x25, x26, x8
    .word 0x01ba02b3  # add x5, x20, x27
    .word 0x41228d33  # sub x26, x5, x18
    .word 0x01490933  # add x18, x18, x20
    .word 0x02dd0d33  # mul x26, x26, x13
    .word 0x028d3d33  # mulhu x26, x26, x8
    .word 0x000d0a13  # addi x20, x26, 0
    .word 0x01ba82b3  # add x5, x21, x27
    .word 0x41328d33  # sub x26, x5, x19
    .word 0x015989b3  # add x19, x19, x21
    .word 0x02dd0d33  # mul x26, x26, x13
    .word 0x028d3ab3  # mulhu x21, x26, x8
    .word 0x01bc02b3  # add x5, x24, x27
    .word 0x41628d33  # sub x26, x5, x22
    .word 0x018b0b33  # add x22, x22, x24
    .word 0x02ed0d33  # mul x26, x26, x14
    .word 0x028d3c33  # mulhu x24, x26, x8
    .word 0x01bc82b3  # add x5, x25, x27
    .word 0x41728d33  # sub x26, x5, x23
    .word 0x019b8bb3  # add x23, x23, x25
    .word 0x02ed0d33  # mul x26, x26, x14
    .word 0x028d3cb3  # mulhu x25, x26, x8
    .word 0x01bb02b3  # add x5, x22, x27
    .word 0x41228d33  # sub x26, x5, x18
    .word 0x01690933  # add x18, x18, x22
    .word 0x02bd0d33  # mul x26, x26, x11
    .word 0x028d3d33  # mulhu x26, x26, x8
    .word 0x000d0b13  # addi x22, x26, 0
    .word 0x01bb82b3  # add x5, x23, x27
    .word 0x41328d33  # sub x26, x5, x19
    .word 0x017989b3  # add x19, x19, x23
    .word 0x02bd0d33  # mul x26, x26, x11
    .word 0x028d3d33  # mulhu x26, x26, x8
    .word 0x000d0b93  # addi x23, x26, 0
    .word 0x01bc02b3  # add x5, x24, x27
    .word 0x41428d33  # sub x26, x5, x20
    .word 0x018a0a33  # add x20, x20, x24
    .word 0x02bd0d33  # mul x26, x26, x11
    .word 0x028d3d33  # mulhu x26, x26, x8
    .word 0x000d0c13  # addi x24, x26, 0
    .word 0x01bc82b3  # add x5, x25, x27
    .word 0x41528d33  # sub x26, x5, x21
    .word 0x019a8ab3  # add x21, x21, x25
    .word 0x02bd0d33  # mul x26, x26, x11
    .word 0x028d3d33  # mulhu x26, x26, x8
    .word 0x02c90933  # mul x18, x18, x12
    .word 0x02893933  # mulhu x18, x18, x8
    .word 0x02c989b3  # mul x19, x19, x12
    .word 0x0289b9b3  # mulhu x19, x19, x8
    .word 0x02ca0a33  # mul x20, x20, x12
    .word 0x028a3a33  # mulhu x20, x20, x8
    .word 0x02ca8ab3  # mul x21, x21, x12
    .word 0x028abab3  # mulhu x21, x21, x8
    .word 0x01249023  # sh x18, 0(x9)
    .word 0x05349023  # sh x19, 64(x9)
    .word 0x09449023  # sh x20, 128(x9)
    .word 0x0d549023  # sh x21, 192(x9)
    .word 0x11649023  # sh x22, 256(x9)
    .word 0x15749023  # sh x23, 320(x9)
    .word 0x19849023  # sh x24, 384(x9)
    .word 0x1da49023  # sh x26, 448(x9)
    .word 0xe0dff06f  # jal x0, -500
    # the result
    .word 0x00000513  # addi x10, x0, 0
    # parameter 0: the array, back
    .word 0x00010293  # addi x5, x2, 0
    .word 0x46c12303  # lw x6, 1132(x2)
    .word 0x20028393  # addi x7, x5, 512
    .word 0x09000f6f  # jal x30, 144
    # above the frame
    .word 0x43010293  # addi x5, x2, 1072
    # the caller's registers
    .word 0x0002a403  # lw x8, 0(x5)
    .cfi_restore 8
    .word 0x0042a483  # lw x9, 4(x5)
    .cfi_restore 9
    .word 0x0082a903  # lw x18, 8(x5)
    .cfi_restore 18
    .word 0x00c2a983  # lw x19, 12(x5)
    .cfi_restore 19
    .word 0x0102aa03  # lw x20, 16(x5)
    .cfi_restore 20
    .word 0x0142aa83  # lw x21, 20(x5)
    .cfi_restore 21
    .word 0x0182ab03  # lw x22, 24(x5)
    .cfi_restore 22
    .word 0x01c2ab83  # lw x23, 28(x5)
    .cfi_restore 23
    .word 0x0202ac03  # lw x24, 32(x5)
    .cfi_restore 24
    .word 0x0242ac83  # lw x25, 36(x5)
    .cfi_restore 25
    .word 0x0282ad03  # lw x26, 40(x5)
    .cfi_restore 26
    .word 0x02c2ad83  # lw x27, 44(x5)
    .cfi_restore 27
    # the caller's x2
    .word 0x04028293  # addi x5, x5, 64
    .cfi_def_cfa 5, 0
    # all the room, wiped upward
    .word 0x00012023  # sw x0, 0(x2)
    .word 0x00012223  # sw x0, 4(x2)
    .word 0x00012423  # sw x0, 8(x2)
    .word 0x00012623  # sw x0, 12(x2)
    .word 0x01010113  # addi x2, x2, 16
    .word 0xfe5116e3  # bne x2, x5, -20
    .cfi_def_cfa 2, 0
    # temporaries, wiped
    .word 0x00000293  # addi x5, x0, 0
    .word 0x00000313  # addi x6, x0, 0
    .word 0x00000393  # addi x7, x0, 0
    .word 0x00000593  # addi x11, x0, 0
    .word 0x00000613  # addi x12, x0, 0
    .word 0x00000693  # addi x13, x0, 0
    .word 0x00000713  # addi x14, x0, 0
    .word 0x00000793  # addi x15, x0, 0
    .word 0x00000813  # addi x16, x0, 0
    .word 0x00000893  # addi x17, x0, 0
    .word 0x00000e13  # addi x28, x0, 0
    .word 0x00000e93  # addi x29, x0, 0
    .word 0x00000f13  # addi x30, x0, 0
    .word 0x00000f93  # addi x31, x0, 0
    # back
    .word 0x00008067  # jalr x0, 0(x1)
    # from x5 to x6 up to x7, and back
    .cfi_def_cfa 2, 1136
    .cfi_offset 8, -64
    .cfi_offset 9, -60
    .cfi_offset 18, -56
    .cfi_offset 19, -52
    .cfi_offset 20, -48
    .cfi_offset 21, -44
    .cfi_offset 22, -40
    .cfi_offset 23, -36
    .cfi_offset 24, -32
    .cfi_offset 25, -28
    .cfi_offset 26, -24
    .cfi_offset 27, -20
    .word 0x0062ee33  # or x28, x5, x6
    .word 0x003e7e13  # andi x28, x28, 3
    .word 0x000e0e63  # beq x28, x0, 28
    .word 0x0002ce03  # lbu x28, 0(x5)
    .word 0x01c30023  # sb x28, 0(x6)
    .word 0x00128293  # addi x5, x5, 1
    .word 0x00130313  # addi x6, x6, 1
    .word 0xfe7298e3  # bne x5, x7, -16
    .word 0x0300006f  # jal x0, 48
    .word 0x0002ae03  # lw x28, 0(x5)
    .word 0x01c32023  # sw x28, 0(x6)
    .word 0x0042ae03  # lw x28, 4(x5)
    .word 0x01c32223  # sw x28, 4(x6)
    .word 0x0082ae03  # lw x28, 8(x5)
    .word 0x01c32423  # sw x28, 8(x6)
    .word 0x00c2ae03  # lw x28, 12(x5)
    .word 0x01c32623  # sw x28, 12(x6)
    .word 0x01028293  # addi x5, x5, 16
    .word 0x01030313  # addi x6, x6, 16
    .word 0xfc729ce3  # bne x5, x7, -40
    .word 0x000f0067  # jalr x0, 0(x30)
    .cfi_endproc
    .size mlkem_inverse_ntt, . - mlkem_inverse_ntt
    .option pop
