# p256_sign: made by factc 1.0.0 function; 2135 words, 800 bytes of stack, profile 1
    .option push
    .option norvc
    .option norelax
    .cfi_sections .debug_frame
    .section .text.p256_sign, "ax", @progbits
    .p2align 2
    .globl p256_sign
    .type p256_sign, @function
p256_sign:
    .cfi_startproc
    # room above the frame
    .word 0xfb010113  # addi x2, x2, -80
    .cfi_def_cfa_offset 80
    # the caller's registers
    .word 0x00812023  # sw x8, 0(x2)
    .cfi_offset 8, -80
    .word 0x00912223  # sw x9, 4(x2)
    .cfi_offset 9, -76
    .word 0x01212423  # sw x18, 8(x2)
    .cfi_offset 18, -72
    .word 0x01312623  # sw x19, 12(x2)
    .cfi_offset 19, -68
    .word 0x01412823  # sw x20, 16(x2)
    .cfi_offset 20, -64
    .word 0x01512a23  # sw x21, 20(x2)
    .cfi_offset 21, -60
    .word 0x01612c23  # sw x22, 24(x2)
    .cfi_offset 22, -56
    .word 0x01712e23  # sw x23, 28(x2)
    .cfi_offset 23, -52
    .word 0x03812023  # sw x24, 32(x2)
    .cfi_offset 24, -48
    .word 0x03912223  # sw x25, 36(x2)
    .cfi_offset 25, -44
    .word 0x03a12423  # sw x26, 40(x2)
    .cfi_offset 26, -40
    .word 0x03b12623  # sw x27, 44(x2)
    .cfi_offset 27, -36
    # arguments that are needed behind the body
    .word 0x02a12e23  # sw x10, 60(x2)
    .word 0x04b12023  # sw x11, 64(x2)
    .word 0x04c12223  # sw x12, 68(x2)
    .word 0x04d12423  # sw x13, 72(x2)
    .word 0x04e12623  # sw x14, 76(x2)
    # the frame's base
    .word 0xd3010113  # addi x2, x2, -720
    .cfi_def_cfa 2, 800
    # the frame's word at 608, zeroed
    .word 0x26012023  # sw x0, 608(x2)
    # the frame's word at 620, zeroed
    .word 0x26012623  # sw x0, 620(x2)
    # parameter 0: an array
    .word 0x00050293  # addi x5, x10, 0
    .word 0x00010313  # addi x6, x2, 0
    .word 0x02028393  # addi x7, x5, 32
    .word 0x0a802f6f  # jal x30, 8360
    # parameter 1: an array
    .word 0x00058293  # addi x5, x11, 0
    .word 0x02010313  # addi x6, x2, 32
    .word 0x02028393  # addi x7, x5, 32
    .word 0x09802f6f  # jal x30, 8344
    # parameter 2: an array
    .word 0x00060293  # addi x5, x12, 0
    .word 0x04010313  # addi x6, x2, 64
    .word 0x02028393  # addi x7, x5, 32
    .word 0x08802f6f  # jal x30, 8328
    # parameter 3: an array
    .word 0x00068293  # addi x5, x13, 0
    .word 0x06010313  # addi x6, x2, 96
    .word 0x02028393  # addi x7, x5, 32
    .word 0x07802f6f  # jal x30, 8312
    # parameter 4: an array
    .word 0x00070293  # addi x5, x14, 0
    .word 0x08010313  # addi x6, x2, 128
    .word 0x04028393  # addi x7, x5, 64
    .word 0x06802f6f  # jal x30, 8296
    # the body
    .word 0xfc6322b7  # lui x5, 0xfc632
    .word 0x54f28293  # addi x5, x5, 1359
    .word 0x2a512423  # sw x5, 680(x2)
    .word 0xee00c2b7  # lui x5, 0xee00c
    .word 0xc4f28293  # addi x5, x5, -945
    .word 0x2a512623  # sw x5, 684(x2)
    .word 0x0c000313  # addi x6, x0, 192
    .word 0x00230333  # add x6, x6, x2
    .word 0x10000393  # addi x7, x0, 256
    .word 0x006383b3  # add x7, x7, x6
    .word 0x406382b3  # sub x5, x7, x6
    .word 0x00029463  # bne x5, x0, 8
    .word 0x0100006f  # jal x0, 16
    .word 0x00032023  # sw x0, 0(x6)
    .word 0x00430313  # addi x6, x6, 4
    .word 0xfedff06f  # jal x0, -20
    .word 0xfc6322b7  # lui x5, 0xfc632
    .word 0x55128293  # addi x5, x5, 1361
    .word 0x1c512023  # sw x5, 448(x2)
    .word 0xf3b9d2b7  # lui x5, 0xf3b9d
    .word 0xac228293  # addi x5, x5, -1342
    .word 0x1c512223  # sw x5, 452(x2)
    .word 0xa717a2b7  # lui x5, 0xa717a
    .word 0xe8428293  # addi x5, x5, -380
    .word 0x1c512423  # sw x5, 456(x2)
    .word 0xbce702b7  # lui x5, 0xbce70
    .word 0xaad28293  # addi x5, x5, -1363
    .word 0x1c512623  # sw x5, 460(x2)
    .word 0x000002b7  # lui x5, 0x00000
    .word 0xfff28293  # addi x5, x5, -1
    .word 0x1c512823  # sw x5, 464(x2)
    .word 0x000002b7  # lui x5, 0x00000
    .word 0xfff28293  # addi x5, x5, -1
    .word 0x1c512a23  # sw x5, 468(x2)
    .word 0x1c012c23  # sw x0, 472(x2)
    .word 0x000002b7  # lui x5, 0x00000
    .word 0xfff28293  # addi x5, x5, -1
    .word 0x1c512e23  # sw x5, 476(x2)
    .word 0x1e000313  # addi x6, x0, 480
    .word 0x00230333  # add x6, x6, x2
    .word 0x04000393  # addi x7, x0, 64
    .word 0x006383b3  # add x7, x7, x6
    .word 0x406382b3  # sub x5, x7, x6
    .word 0x00029463  # bne x5, x0, 8
    .word 0x0100006f  # jal x0, 16
    .word 0x00032023  # sw x0, 0(x6)
    .word 0x00430313  # addi x6, x6, 4
    .word 0xfedff06f  # jal x0, -20
    .word 0x22000313  # addi x6, x0, 544
    .word 0x00230333  # add x6, x6, x2
    .word 0x04000393  # addi x7, x0, 64
    .word 0x006383b3  # add x7, x7, x6
    .word 0x406382b3  # sub x5, x7, x6
    .word 0x00029463  # bne x5, x0, 8
    .word 0x0100006f  # jal x0, 16
    .word 0x00032023  # sw x0, 0(x6)
    .word 0x00430313  # addi x6, x6, 4
    .word 0xfedff06f  # jal x0, -20
    .word 0x02014283  # lbu x5, 32(x2)
    .word 0x1e510023  # sb x5, 480(x2)
    .word 0x00014283  # lbu x5, 0(x2)
    .word 0x20510023  # sb x5, 512(x2)
    .word 0x04014283  # lbu x5, 64(x2)
    .word 0x22510023  # sb x5, 544(x2)
    .word 0x06014283  # lbu x5, 96(x2)
    .word 0x24510023  # sb x5, 576(x2)
    .word 0x02114283  # lbu x5, 33(x2)
    .word 0x1e5100a3  # sb x5, 481(x2)
    .word 0x00114283  # lbu x5, 1(x2)
    .word 0x205100a3  # sb x5, 513(x2)
    .word 0x04114283  # lbu x5, 65(x2)
    .word 0x225100a3  # sb x5, 545(x2)
    .word 0x06114283  # lbu x5, 97(x2)
    .word 0x245100a3  # sb x5, 577(x2)
    .word 0x02214283  # lbu x5, 34(x2)
    .word 0x1e510123  # sb x5, 482(x2)
    .word 0x00214283  # lbu x5, 2(x2)
    .word 0x20510123  # sb x5, 514(x2)
    .word 0x04214283  # lbu x5, 66(x2)
    .word 0x22510123  # sb x5, 546(x2)
    .word 0x06214283  # lbu x5, 98(x2)
    .word 0x24510123  # sb x5, 578(x2)
    .word 0x02314283  # lbu x5, 35(x2)
    .word 0x1e5101a3  # sb x5, 483(x2)
    .word 0x00314283  # lbu x5, 3(x2)
    .word 0x205101a3  # sb x5, 515(x2)
    .word 0x04314283  # lbu x5, 67(x2)
    .word 0x225101a3  # sb x5, 547(x2)
    .word 0x06314283  # lbu x5, 99(x2)
    .word 0x245101a3  # sb x5, 579(x2)
    .word 0x02414283  # lbu x5, 36(x2)
    .word 0x1e510223  # sb x5, 484(x2)
    .word 0x00414283  # lbu x5, 4(x2)
    .word 0x20510223  # sb x5, 516(x2)
    .word 0x04414283  # lbu x5, 68(x2)
    .word 0x22510223  # sb x5, 548(x2)
    .word 0x06414283  # lbu x5, 100(x2)
    .word 0x24510223  # sb x5, 580(x2)
    .word 0x02514283  # lbu x5, 37(x2)
    .word 0x1e5102a3  # sb x5, 485(x2)
    .word 0x00514283  # lbu x5, 5(x2)
    .word 0x205102a3  # sb x5, 517(x2)
    .word 0x04514283  # lbu x5, 69(x2)
    .word 0x225102a3  # sb x5, 549(x2)
    .word 0x06514283  # lbu x5, 101(x2)
    .word 0x245102a3  # sb x5, 581(x2)
    .word 0x02614283  # lbu x5, 38(x2)
    .word 0x1e510323  # sb x5, 486(x2)
    .word 0x00614283  # lbu x5, 6(x2)
    .word 0x20510323  # sb x5, 518(x2)
    .word 0x04614283  # lbu x5, 70(x2)
    .word 0x22510323  # sb x5, 550(x2)
    .word 0x06614283  # lbu x5, 102(x2)
    .word 0x24510323  # sb x5, 582(x2)
    .word 0x02714283  # lbu x5, 39(x2)
    .word 0x1e5103a3  # sb x5, 487(x2)
    .word 0x00714283  # lbu x5, 7(x2)
    .word 0x205103a3  # sb x5, 519(x2)
    .word 0x04714283  # lbu x5, 71(x2)
    .word 0x225103a3  # sb x5, 551(x2)
    .word 0x06714283  # lbu x5, 103(x2)
    .word 0x245103a3  # sb x5, 583(x2)
    .word 0x02814283  # lbu x5, 40(x2)
    .word 0x1e510423  # sb x5, 488(x2)
    .word 0x00814283  # lbu x5, 8(x2)
    .word 0x20510423  # sb x5, 520(x2)
    .word 0x04814283  # lbu x5, 72(x2)
    .word 0x22510423  # sb x5, 552(x2)
    .word 0x06814283  # lbu x5, 104(x2)
    .word 0x24510423  # sb x5, 584(x2)
    .word 0x02914283  # lbu x5, 41(x2)
    .word 0x1e5104a3  # sb x5, 489(x2)
    .word 0x00914283  # lbu x5, 9(x2)
    .word 0x205104a3  # sb x5, 521(x2)
    .word 0x04914283  # lbu x5, 73(x2)
    .word 0x225104a3  # sb x5, 553(x2)
    .word 0x06914283  # lbu x5, 105(x2)
    .word 0x245104a3  # sb x5, 585(x2)
    .word 0x02a14283  # lbu x5, 42(x2)
    .word 0x1e510523  # sb x5, 490(x2)
    .word 0x00a14283  # lbu x5, 10(x2)
    .word 0x20510523  # sb x5, 522(x2)
    .word 0x04a14283  # lbu x5, 74(x2)
    .word 0x22510523  # sb x5, 554(x2)
    .word 0x06a14283  # lbu x5, 106(x2)
    .word 0x24510523  # sb x5, 586(x2)
    .word 0x02b14283  # lbu x5, 43(x2)
    .word 0x1e5105a3  # sb x5, 491(x2)
    .word 0x00b14283  # lbu x5, 11(x2)
    .word 0x205105a3  # sb x5, 523(x2)
    .word 0x04b14283  # lbu x5, 75(x2)
    .word 0x225105a3  # sb x5, 555(x2)
    .word 0x06b14283  # lbu x5, 107(x2)
    .word 0x245105a3  # sb x5, 587(x2)
    .word 0x02c14283  # lbu x5, 44(x2)
    .word 0x1e510623  # sb x5, 492(x2)
    .word 0x00c14283  # lbu x5, 12(x2)
    .word 0x20510623  # sb x5, 524(x2)
    .word 0x04c14283  # lbu x5, 76(x2)
    .word 0x22510623  # sb x5, 556(x2)
    .word 0x06c14283  # lbu x5, 108(x2)
    .word 0x24510623  # sb x5, 588(x2)
    .word 0x02d14283  # lbu x5, 45(x2)
    .word 0x1e5106a3  # sb x5, 493(x2)
    .word 0x00d14283  # lbu x5, 13(x2)
    .word 0x205106a3  # sb x5, 525(x2)
    .word 0x04d14283  # lbu x5, 77(x2)
    .word 0x225106a3  # sb x5, 557(x2)
    .word 0x06d14283  # lbu x5, 109(x2)
    .word 0x245106a3  # sb x5, 589(x2)
    .word 0x02e14283  # lbu x5, 46(x2)
    .word 0x1e510723  # sb x5, 494(x2)
    .word 0x00e14283  # lbu x5, 14(x2)
    .word 0x20510723  # sb x5, 526(x2)
    .word 0x04e14283  # lbu x5, 78(x2)
    .word 0x22510723  # sb x5, 558(x2)
    .word 0x06e14283  # lbu x5, 110(x2)
    .word 0x24510723  # sb x5, 590(x2)
    .word 0x02f14283  # lbu x5, 47(x2)
    .word 0x1e5107a3  # sb x5, 495(x2)
    .word 0x00f14283  # lbu x5, 15(x2)
    .word 0x205107a3  # sb x5, 527(x2)
    .word 0x04f14283  # lbu x5, 79(x2)
    .word 0x225107a3  # sb x5, 559(x2)
    .word 0x06f14283  # lbu x5, 111(x2)
    .word 0x245107a3  # sb x5, 591(x2)
    .word 0x03014283  # lbu x5, 48(x2)
    .word 0x1e510823  # sb x5, 496(x2)
    .word 0x01014283  # lbu x5, 16(x2)
    .word 0x20510823  # sb x5, 528(x2)
    .word 0x05014283  # lbu x5, 80(x2)
    .word 0x22510823  # sb x5, 560(x2)
    .word 0x07014283  # lbu x5, 112(x2)
    .word 0x24510823  # sb x5, 592(x2)
    .word 0x03114283  # lbu x5, 49(x2)
    .word 0x1e5108a3  # sb x5, 497(x2)
    .word 0x01114283  # lbu x5, 17(x2)
    .word 0x205108a3  # sb x5, 529(x2)
    .word 0x05114283  # lbu x5, 81(x2)
    .word 0x225108a3  # sb x5, 561(x2)
    .word 0x07114283  # lbu x5, 113(x2)
    .word 0x245108a3  # sb x5, 593(x2)
    .word 0x03214283  # lbu x5, 50(x2)
    .word 0x1e510923  # sb x5, 498(x2)
    .word 0x01214283  # lbu x5, 18(x2)
    .word 0x20510923  # sb x5, 530(x2)
    .word 0x05214283  # lbu x5, 82(x2)
    .word 0x22510923  # sb x5, 562(x2)
    .word 0x07214283  # lbu x5, 114(x2)
    .word 0x24510923  # sb x5, 594(x2)
    .word 0x03314283  # lbu x5, 51(x2)
    .word 0x1e5109a3  # sb x5, 499(x2)
    .word 0x01314283  # lbu x5, 19(x2)
    .word 0x205109a3  # sb x5, 531(x2)
    .word 0x05314283  # lbu x5, 83(x2)
    .word 0x225109a3  # sb x5, 563(x2)
    .word 0x07314283  # lbu x5, 115(x2)
    .word 0x245109a3  # sb x5, 595(x2)
    .word 0x03414283  # lbu x5, 52(x2)
    .word 0x1e510a23  # sb x5, 500(x2)
    .word 0x01414283  # lbu x5, 20(x2)
    .word 0x20510a23  # sb x5, 532(x2)
    .word 0x05414283  # lbu x5, 84(x2)
    .word 0x22510a23  # sb x5, 564(x2)
    .word 0x07414283  # lbu x5, 116(x2)
    .word 0x24510a23  # sb x5, 596(x2)
    .word 0x03514283  # lbu x5, 53(x2)
    .word 0x1e510aa3  # sb x5, 501(x2)
    .word 0x01514283  # lbu x5, 21(x2)
    .word 0x20510aa3  # sb x5, 533(x2)
    .word 0x05514283  # lbu x5, 85(x2)
    .word 0x22510aa3  # sb x5, 565(x2)
    .word 0x07514283  # lbu x5, 117(x2)
    .word 0x24510aa3  # sb x5, 597(x2)
    .word 0x03614283  # lbu x5, 54(x2)
    .word 0x1e510b23  # sb x5, 502(x2)
    .word 0x01614283  # lbu x5, 22(x2)
    .word 0x20510b23  # sb x5, 534(x2)
    .word 0x05614283  # lbu x5, 86(x2)
    .word 0x22510b23  # sb x5, 566(x2)
    .word 0x07614283  # lbu x5, 118(x2)
    .word 0x24510b23  # sb x5, 598(x2)
    .word 0x03714283  # lbu x5, 55(x2)
    .word 0x1e510ba3  # sb x5, 503(x2)
    .word 0x01714283  # lbu x5, 23(x2)
    .word 0x20510ba3  # sb x5, 535(x2)
    .word 0x05714283  # lbu x5, 87(x2)
    .word 0x22510ba3  # sb x5, 567(x2)
    .word 0x07714283  # lbu x5, 119(x2)
    .word 0x24510ba3  # sb x5, 599(x2)
    .word 0x03814283  # lbu x5, 56(x2)
    .word 0x1e510c23  # sb x5, 504(x2)
    .word 0x01814283  # lbu x5, 24(x2)
    .word 0x20510c23  # sb x5, 536(x2)
    .word 0x05814283  # lbu x5, 88(x2)
    .word 0x22510c23  # sb x5, 568(x2)
    .word 0x07814283  # lbu x5, 120(x2)
    .word 0x24510c23  # sb x5, 600(x2)
    .word 0x03914283  # lbu x5, 57(x2)
    .word 0x1e510ca3  # sb x5, 505(x2)
    .word 0x01914283  # lbu x5, 25(x2)
    .word 0x20510ca3  # sb x5, 537(x2)
    .word 0x05914283  # lbu x5, 89(x2)
    .word 0x22510ca3  # sb x5, 569(x2)
    .word 0x07914283  # lbu x5, 121(x2)
    .word 0x24510ca3  # sb x5, 601(x2)
    .word 0x03a14283  # lbu x5, 58(x2)
    .word 0x1e510d23  # sb x5, 506(x2)
    .word 0x01a14283  # lbu x5, 26(x2)
    .word 0x20510d23  # sb x5, 538(x2)
    .word 0x05a14283  # lbu x5, 90(x2)
    .word 0x22510d23  # sb x5, 570(x2)
    .word 0x07a14283  # lbu x5, 122(x2)
    .word 0x24510d23  # sb x5, 602(x2)
    .word 0x03b14283  # lbu x5, 59(x2)
    .word 0x1e510da3  # sb x5, 507(x2)
    .word 0x01b14283  # lbu x5, 27(x2)
    .word 0x20510da3  # sb x5, 539(x2)
    .word 0x05b14283  # lbu x5, 91(x2)
    .word 0x22510da3  # sb x5, 571(x2)
    .word 0x07b14283  # lbu x5, 123(x2)
    .word 0x24510da3  # sb x5, 603(x2)
    .word 0x03c14283  # lbu x5, 60(x2)
    .word 0x1e510e23  # sb x5, 508(x2)
    .word 0x01c14283  # lbu x5, 28(x2)
    .word 0x20510e23  # sb x5, 540(x2)
    .word 0x05c14283  # lbu x5, 92(x2)
    .word 0x22510e23  # sb x5, 572(x2)
    .word 0x07c14283  # lbu x5, 124(x2)
    .word 0x24510e23  # sb x5, 604(x2)
    .word 0x03d14283  # lbu x5, 61(x2)
    .word 0x1e510ea3  # sb x5, 509(x2)
    .word 0x01d14283  # lbu x5, 29(x2)
    .word 0x20510ea3  # sb x5, 541(x2)
    .word 0x05d14283  # lbu x5, 93(x2)
    .word 0x22510ea3  # sb x5, 573(x2)
    .word 0x07d14283  # lbu x5, 125(x2)
    .word 0x24510ea3  # sb x5, 605(x2)
    .word 0x03e14283  # lbu x5, 62(x2)
    .word 0x1e510f23  # sb x5, 510(x2)
    .word 0x01e14283  # lbu x5, 30(x2)
    .word 0x20510f23  # sb x5, 542(x2)
    .word 0x05e14283  # lbu x5, 94(x2)
    .word 0x22510f23  # sb x5, 574(x2)
    .word 0x07e14283  # lbu x5, 126(x2)
    .word 0x24510f23  # sb x5, 606(x2)
    .word 0x03f14283  # lbu x5, 63(x2)
    .word 0x1e510fa3  # sb x5, 511(x2)
    .word 0x01f14283  # lbu x5, 31(x2)
    .word 0x20510fa3  # sb x5, 543(x2)
    .word 0x05f14283  # lbu x5, 95(x2)
    .word 0x22510fa3  # sb x5, 575(x2)
    .word 0x07f14283  # lbu x5, 127(x2)
    .word 0x24510fa3  # sb x5, 607(x2)
    .word 0xbe79f2b7  # lui x5, 0xbe79f
    .word 0xea228293  # addi x5, x5, -350
    .word 0x16512023  # sw x5, 352(x2)
    .word 0x832452b7  # lui x5, 0x83245
    .word 0xc9528293  # addi x5, x5, -875
    .word 0x16512223  # sw x5, 356(x2)
    .word 0x49bd72b7  # lui x5, 0x49bd7
    .word 0xfa628293  # addi x5, x5, -90
    .word 0x16512423  # sw x5, 360(x2)
    .word 0x469982b7  # lui x5, 0x46998
    .word 0x99c28293  # addi x5, x5, -1636
    .word 0x16512623  # sw x5, 364(x2)
    .word 0x2b6bf2b7  # lui x5, 0x2b6bf
    .word 0xc5928293  # addi x5, x5, -935
    .word 0x16512823  # sw x5, 368(x2)
    .word 0x2845b2b7  # lui x5, 0x2845b
    .word 0x23928293  # addi x5, x5, 569
    .word 0x16512a23  # sw x5, 372(x2)
    .word 0xf3d952b7  # lui x5, 0xf3d95
    .word 0x62028293  # addi x5, x5, 1568
    .word 0x16512c23  # sw x5, 376(x2)
    .word 0x66e132b7  # lui x5, 0x66e13
    .word 0xd9428293  # addi x5, x5, -620
    .word 0x16512e23  # sw x5, 380(x2)
    .word 0x00100293  # addi x5, x0, 1
    .word 0x26512023  # sw x5, 608(x2)
    .word 0x2a012a23  # sw x0, 692(x2)
    .word 0x00200293  # addi x5, x0, 2
    .word 0x2a512c23  # sw x5, 696(x2)
    .word 0x2b412303  # lw x6, 692(x2)
    .word 0x2b812283  # lw x5, 696(x2)
    .word 0x005332b3  # sltu x5, x6, x5
    .word 0x00029463  # bne x5, x0, 8
    .word 0x1290006f  # jal x0, 2344
    .word 0x26612223  # sw x6, 612(x2)
    .word 0x00130313  # addi x6, x6, 1
    .word 0x2a612a23  # sw x6, 692(x2)
    .word 0x26412283  # lw x5, 612(x2)
    .word 0x0012f293  # andi x5, x5, 1
    .word 0x26512a23  # sw x5, 628(x2)
    .word 0x27412283  # lw x5, 628(x2)
    .word 0x00429693  # slli x13, x5, 4
    .word 0x27412283  # lw x5, 628(x2)
    .word 0x00529293  # slli x5, x5, 5
    .word 0x26512823  # sw x5, 624(x2)
    .word 0x27012283  # lw x5, 624(x2)
    .word 0x01c28513  # addi x10, x5, 28
    .word 0x00251493  # slli x9, x10, 2
    .word 0x002484b3  # add x9, x9, x2
    .word 0x002502b3  # add x5, x10, x2
    .word 0x1e02c283  # lbu x5, 480(x5)
    .word 0x01829293  # slli x5, x5, 24
    .word 0x00250333  # add x6, x10, x2
    .word 0x1e134303  # lbu x6, 481(x6)
    .word 0x01031313  # slli x6, x6, 16
    .word 0x0062e633  # or x12, x5, x6
    .word 0x00250333  # add x6, x10, x2
    .word 0x1e234303  # lbu x6, 482(x6)
    .word 0x00831313  # slli x6, x6, 8
    .word 0x006662b3  # or x5, x12, x6
    .word 0x00250333  # add x6, x10, x2
    .word 0x1e334303  # lbu x6, 483(x6)
    .word 0x0062e633  # or x12, x5, x6
    .word 0x1c012303  # lw x6, 448(x2)
    .word 0x00663733  # sltu x14, x12, x6
    .word 0x00060593  # addi x11, x12, 0
    .word 0x00269293  # slli x5, x13, 2
    .word 0x002282b3  # add x5, x5, x2
    .word 0x0cc2a023  # sw x12, 192(x5)
    .word 0x27012283  # lw x5, 624(x2)
    .word 0x01c28293  # addi x5, x5, 28
    .word 0xffc28513  # addi x10, x5, -4
    .word 0x00251493  # slli x9, x10, 2
    .word 0x002484b3  # add x9, x9, x2
    .word 0x002502b3  # add x5, x10, x2
    .word 0x1e02c283  # lbu x5, 480(x5)
    .word 0x01829293  # slli x5, x5, 24
    .word 0x00250333  # add x6, x10, x2
    .word 0x1e134303  # lbu x6, 481(x6)
    .word 0x01031313  # slli x6, x6, 16
    .word 0x0062e633  # or x12, x5, x6
    .word 0x00250333  # add x6, x10, x2
    .word 0x1e234303  # lbu x6, 482(x6)
    .word 0x00831313  # slli x6, x6, 8
    .word 0x006662b3  # or x5, x12, x6
    .word 0x00250333  # add x6, x10, x2
    .word 0x1e334303  # lbu x6, 483(x6)
    .word 0x0062e633  # or x12, x5, x6
    .word 0x1c412303  # lw x6, 452(x2)
    .word 0x006632b3  # sltu x5, x12, x6
    .word 0x1c412383  # lw x7, 452(x2)
    .word 0x40760333  # sub x6, x12, x7
    .word 0x00e33333  # sltu x6, x6, x14
    .word 0x00628733  # add x14, x5, x6
    .word 0x00c5e5b3  # or x11, x11, x12
    .word 0x00269293  # slli x5, x13, 2
    .word 0x002282b3  # add x5, x5, x2
    .word 0x0cc2a223  # sw x12, 196(x5)
    .word 0x27012283  # lw x5, 624(x2)
    .word 0x01c28293  # addi x5, x5, 28
    .word 0xff828513  # addi x10, x5, -8
    .word 0x00251493  # slli x9, x10, 2
    .word 0x002484b3  # add x9, x9, x2
    .word 0x002502b3  # add x5, x10, x2
    .word 0x1e02c283  # lbu x5, 480(x5)
    .word 0x01829293  # slli x5, x5, 24
    .word 0x00250333  # add x6, x10, x2
    .word 0x1e134303  # lbu x6, 481(x6)
    .word 0x01031313  # slli x6, x6, 16
    .word 0x0062e633  # or x12, x5, x6
    .word 0x00250333  # add x6, x10, x2
    .word 0x1e234303  # lbu x6, 482(x6)
    .word 0x00831313  # slli x6, x6, 8
    .word 0x006662b3  # or x5, x12, x6
    .word 0x00250333  # add x6, x10, x2
    .word 0x1e334303  # lbu x6, 483(x6)
    .word 0x0062e633  # or x12, x5, x6
    .word 0x1c812303  # lw x6, 456(x2)
    .word 0x006632b3  # sltu x5, x12, x6
    .word 0x1c812383  # lw x7, 456(x2)
    .word 0x40760333  # sub x6, x12, x7
    .word 0x00e33333  # sltu x6, x6, x14
    .word 0x00628733  # add x14, x5, x6
    .word 0x00c5e5b3  # or x11, x11, x12
    .word 0x00269293  # slli x5, x13, 2
    .word 0x002282b3  # add x5, x5, x2
    .word 0x0cc2a423  # sw x12, 200(x5)
    .word 0x27012283  # lw x5, 624(x2)
    .word 0x01c28293  # addi x5, x5, 28
    .word 0xff428513  # addi x10, x5, -12
    .word 0x00251493  # slli x9, x10, 2
    .word 0x002484b3  # add x9, x9, x2
    .word 0x002502b3  # add x5, x10, x2
    .word 0x1e02c283  # lbu x5, 480(x5)
    .word 0x01829293  # slli x5, x5, 24
    .word 0x00250333  # add x6, x10, x2
    .word 0x1e134303  # lbu x6, 481(x6)
    .word 0x01031313  # slli x6, x6, 16
    .word 0x0062e633  # or x12, x5, x6
    .word 0x00250333  # add x6, x10, x2
    .word 0x1e234303  # lbu x6, 482(x6)
    .word 0x00831313  # slli x6, x6, 8
    .word 0x006662b3  # or x5, x12, x6
    .word 0x00250333  # add x6, x10, x2
    .word 0x1e334303  # lbu x6, 483(x6)
    .word 0x0062e633  # or x12, x5, x6
    .word 0x1cc12303  # lw x6, 460(x2)
    .word 0x006632b3  # sltu x5, x12, x6
    .word 0x1cc12383  # lw x7, 460(x2)
    .word 0x40760333  # sub x6, x12, x7
    .word 0x00e33333  # sltu x6, x6, x14
    .word 0x00628733  # add x14, x5, x6
    .word 0x00c5e5b3  # or x11, x11, x12
    .word 0x00269293  # slli x5, x13, 2
    .word 0x002282b3  # add x5, x5, x2
    .word 0x0cc2a623  # sw x12, 204(x5)
    .word 0x27012283  # lw x5, 624(x2)
    .word 0x01c28293  # addi x5, x5, 28
    .word 0xff028513  # addi x10, x5, -16
    .word 0x00251493  # slli x9, x10, 2
    .word 0x002484b3  # add x9, x9, x2
    .word 0x002502b3  # add x5, x10, x2
    .word 0x1e02c283  # lbu x5, 480(x5)
    .word 0x01829293  # slli x5, x5, 24
    .word 0x00250333  # add x6, x10, x2
    .word 0x1e134303  # lbu x6, 481(x6)
    .word 0x01031313  # slli x6, x6, 16
    .word 0x0062e633  # or x12, x5, x6
    .word 0x00250333  # add x6, x10, x2
    .word 0x1e234303  # lbu x6, 482(x6)
    .word 0x00831313  # slli x6, x6, 8
    .word 0x006662b3  # or x5, x12, x6
    .word 0x00250333  # add x6, x10, x2
    .word 0x1e334303  # lbu x6, 483(x6)
    .word 0x0062e633  # or x12, x5, x6
    .word 0x1d012303  # lw x6, 464(x2)
    .word 0x006632b3  # sltu x5, x12, x6
    .word 0x1d012383  # lw x7, 464(x2)
    .word 0x40760333  # sub x6, x12, x7
    .word 0x00e33333  # sltu x6, x6, x14
    .word 0x00628733  # add x14, x5, x6
    .word 0x00c5e5b3  # or x11, x11, x12
    .word 0x00269293  # slli x5, x13, 2
    .word 0x002282b3  # add x5, x5, x2
    .word 0x0cc2a823  # sw x12, 208(x5)
    .word 0x27012283  # lw x5, 624(x2)
    .word 0x01c28293  # addi x5, x5, 28
    .word 0xfec28513  # addi x10, x5, -20
    .word 0x00251493  # slli x9, x10, 2
    .word 0x002484b3  # add x9, x9, x2
    .word 0x002502b3  # add x5, x10, x2
    .word 0x1e02c283  # lbu x5, 480(x5)
    .word 0x01829293  # slli x5, x5, 24
    .word 0x00250333  # add x6, x10, x2
    .word 0x1e134303  # lbu x6, 481(x6)
    .word 0x01031313  # slli x6, x6, 16
    .word 0x0062e633  # or x12, x5, x6
    .word 0x00250333  # add x6, x10, x2
    .word 0x1e234303  # lbu x6, 482(x6)
    .word 0x00831313  # slli x6, x6, 8
    .word 0x006662b3  # or x5, x12, x6
    .word 0x00250333  # add x6, x10, x2
    .word 0x1e334303  # lbu x6, 483(x6)
    .word 0x0062e633  # or x12, x5, x6
    .word 0x1d412303  # lw x6, 468(x2)
    .word 0x006632b3  # sltu x5, x12, x6
    .word 0x1d412383  # lw x7, 468(x2)
    .word 0x40760333  # sub x6, x12, x7
    .word 0x00e33333  # sltu x6, x6, x14
    .word 0x00628733  # add x14, x5, x6
    .word 0x00c5e5b3  # or x11, x11, x12
    .word 0x00269293  # slli x5, x13, 2
    .word 0x002282b3  # add x5, x5, x2
    .word 0x0cc2aa23  # sw x12, 212(x5)
    .word 0x27012283  # lw x5, 624(x2)
    .word 0x01c28293  # addi x5, x5, 28
    .word 0xfe828513  # addi x10, x5, -24
    .word 0x00251493  # slli x9, x10, 2
    .word 0x002484b3  # add x9, x9, x2
    .word 0x002502b3  # add x5, x10, x2
    .word 0x1e02c283  # lbu x5, 480(x5)
    .word 0x01829293  # slli x5, x5, 24
    .word 0x00250333  # add x6, x10, x2
    .word 0x1e134303  # lbu x6, 481(x6)
    .word 0x01031313  # slli x6, x6, 16
    .word 0x0062e633  # or x12, x5, x6
    .word 0x00250333  # add x6, x10, x2
    .word 0x1e234303  # lbu x6, 482(x6)
    .word 0x00831313  # slli x6, x6, 8
    .word 0x006662b3  # or x5, x12, x6
    .word 0x00250333  # add x6, x10, x2
    .word 0x1e334303  # lbu x6, 483(x6)
    .word 0x0062e633  # or x12, x5, x6
    .word 0x1d812303  # lw x6, 472(x2)
    .word 0x006632b3  # sltu x5, x12, x6
    .word 0x1d812383  # lw x7, 472(x2)
    .word 0x40760333  # sub x6, x12, x7
    .word 0x00e33333  # sltu x6, x6, x14
    .word 0x00628733  # add x14, x5, x6
    .word 0x00c5e5b3  # or x11, x11, x12
    .word 0x00269293  # slli x5, x13, 2
    .word 0x002282b3  # add x5, x5, x2
    .word 0x0cc2ac23  # sw x12, 216(x5)
    .word 0x27012283  # lw x5, 624(x2)
    .word 0x01c28293  # addi x5, x5, 28
    .word 0xfe428513  # addi x10, x5, -28
    .word 0x00251493  # slli x9, x10, 2
    .word 0x002484b3  # add x9, x9, x2
    .word 0x002502b3  # add x5, x10, x2
    .word 0x1e02c283  # lbu x5, 480(x5)
    .word 0x01829293  # slli x5, x5, 24
    .word 0x00250333  # add x6, x10, x2
    .word 0x1e134303  # lbu x6, 481(x6)
    .word 0x01031313  # slli x6, x6, 16
    .word 0x0062e633  # or x12, x5, x6
    .word 0x00250333  # add x6, x10, x2
    .word 0x1e234303  # lbu x6, 482(x6)
    .word 0x00831313  # slli x6, x6, 8
    .word 0x006662b3  # or x5, x12, x6
    .word 0x00250333  # add x6, x10, x2
    .word 0x1e334303  # lbu x6, 483(x6)
    .word 0x0062e633  # or x12, x5, x6
    .word 0x1dc12303  # lw x6, 476(x2)
    .word 0x006632b3  # sltu x5, x12, x6
    .word 0x1dc12383  # lw x7, 476(x2)
    .word 0x40760333  # sub x6, x12, x7
    .word 0x00e33333  # sltu x6, x6, x14
    .word 0x00628733  # add x14, x5, x6
    .word 0x00c5e5b3  # or x11, x11, x12
    .word 0x00269293  # slli x5, x13, 2
    .word 0x002282b3  # add x5, x5, x2
    .word 0x0cc2ae23  # sw x12, 220(x5)
    .word 0xfff70293  # addi x5, x14, -1
    .word 0x0012b293  # sltiu x5, x5, 1
    .word 0x00b03333  # sltu x6, x0, x11
    .word 0x0062f933  # and x18, x5, x6
    .word 0x27412283  # lw x5, 628(x2)
    .word 0x00329293  # slli x5, x5, 3
    .word 0x01828693  # addi x13, x5, 24
    .word 0x27412283  # lw x5, 628(x2)
    .word 0x00529293  # slli x5, x5, 5
    .word 0x26512823  # sw x5, 624(x2)
    .word 0x27012283  # lw x5, 624(x2)
    .word 0x01c28513  # addi x10, x5, 28
    .word 0x00251493  # slli x9, x10, 2
    .word 0x002484b3  # add x9, x9, x2
    .word 0x002502b3  # add x5, x10, x2
    .word 0x2202c283  # lbu x5, 544(x5)
    .word 0x01829293  # slli x5, x5, 24
    .word 0x00250333  # add x6, x10, x2
    .word 0x22134303  # lbu x6, 545(x6)
    .word 0x01031313  # slli x6, x6, 16
    .word 0x0062e633  # or x12, x5, x6
    .word 0x00250333  # add x6, x10, x2
    .word 0x22234303  # lbu x6, 546(x6)
    .word 0x00831313  # slli x6, x6, 8
    .word 0x006662b3  # or x5, x12, x6
    .word 0x00250333  # add x6, x10, x2
    .word 0x22334303  # lbu x6, 547(x6)
    .word 0x0062e633  # or x12, x5, x6
    .word 0x1c012303  # lw x6, 448(x2)
    .word 0x00663733  # sltu x14, x12, x6
    .word 0x00269293  # slli x5, x13, 2
    .word 0x002282b3  # add x5, x5, x2
    .word 0x0cc2a023  # sw x12, 192(x5)
    .word 0x27012283  # lw x5, 624(x2)
    .word 0x01c28293  # addi x5, x5, 28
    .word 0xffc28513  # addi x10, x5, -4
    .word 0x00251493  # slli x9, x10, 2
    .word 0x002484b3  # add x9, x9, x2
    .word 0x002502b3  # add x5, x10, x2
    .word 0x2202c283  # lbu x5, 544(x5)
    .word 0x01829293  # slli x5, x5, 24
    .word 0x00250333  # add x6, x10, x2
    .word 0x22134303  # lbu x6, 545(x6)
    .word 0x01031313  # slli x6, x6, 16
    .word 0x0062e633  # or x12, x5, x6
    .word 0x00250333  # add x6, x10, x2
    .word 0x22234303  # lbu x6, 546(x6)
    .word 0x00831313  # slli x6, x6, 8
    .word 0x006662b3  # or x5, x12, x6
    .word 0x00250333  # add x6, x10, x2
    .word 0x22334303  # lbu x6, 547(x6)
    .word 0x0062e633  # or x12, x5, x6
    .word 0x1c412303  # lw x6, 452(x2)
    .word 0x006632b3  # sltu x5, x12, x6
    .word 0x1c412383  # lw x7, 452(x2)
    .word 0x40760333  # sub x6, x12, x7
    .word 0x00e33333  # sltu x6, x6, x14
    .word 0x00628733  # add x14, x5, x6
    .word 0x00269293  # slli x5, x13, 2
    .word 0x002282b3  # add x5, x5, x2
    .word 0x0cc2a223  # sw x12, 196(x5)
    .word 0x27012283  # lw x5, 624(x2)
    .word 0x01c28293  # addi x5, x5, 28
    .word 0xff828513  # addi x10, x5, -8
    .word 0x00251493  # slli x9, x10, 2
    .word 0x002484b3  # add x9, x9, x2
    .word 0x002502b3  # add x5, x10, x2
    .word 0x2202c283  # lbu x5, 544(x5)
    .word 0x01829293  # slli x5, x5, 24
    .word 0x00250333  # add x6, x10, x2
    .word 0x22134303  # lbu x6, 545(x6)
    .word 0x01031313  # slli x6, x6, 16
    .word 0x0062e633  # or x12, x5, x6
    .word 0x00250333  # add x6, x10, x2
    .word 0x22234303  # lbu x6, 546(x6)
    .word 0x00831313  # slli x6, x6, 8
    .word 0x006662b3  # or x5, x12, x6
    .word 0x00250333  # add x6, x10, x2
    .word 0x22334303  # lbu x6, 547(x6)
    .word 0x0062e633  # or x12, x5, x6
    .word 0x1c812303  # lw x6, 456(x2)
    .word 0x006632b3  # sltu x5, x12, x6
    .word 0x1c812383  # lw x7, 456(x2)
    .word 0x40760333  # sub x6, x12, x7
    .word 0x00e33333  # sltu x6, x6, x14
    .word 0x00628733  # add x14, x5, x6
    .word 0x00269293  # slli x5, x13, 2
    .word 0x002282b3  # add x5, x5, x2
    .word 0x0cc2a423  # sw x12, 200(x5)
    .word 0x27012283  # lw x5, 624(x2)
    .word 0x01c28293  # addi x5, x5, 28
    .word 0xff428513  # addi x10, x5, -12
    .word 0x00251493  # slli x9, x10, 2
    .word 0x002484b3  # add x9, x9, x2
    .word 0x002502b3  # add x5, x10, x2
    .word 0x2202c283  # lbu x5, 544(x5)
    .word 0x01829293  # slli x5, x5, 24
    .word 0x00250333  # add x6, x10, x2
    .word 0x22134303  # lbu x6, 545(x6)
    .word 0x01031313  # slli x6, x6, 16
    .word 0x0062e633  # or x12, x5, x6
    .word 0x00250333  # add x6, x10, x2
    .word 0x22234303  # lbu x6, 546(x6)
    .word 0x00831313  # slli x6, x6, 8
    .word 0x006662b3  # or x5, x12, x6
    .word 0x00250333  # add x6, x10, x2
    .word 0x22334303  # lbu x6, 547(x6)
    .word 0x0062e633  # or x12, x5, x6
    .word 0x1cc12303  # lw x6, 460(x2)
    .word 0x006632b3  # sltu x5, x12, x6
    .word 0x1cc12383  # lw x7, 460(x2)
    .word 0x40760333  # sub x6, x12, x7
    .word 0x00e33333  # sltu x6, x6, x14
    .word 0x00628733  # add x14, x5, x6
    .word 0x00269293  # slli x5, x13, 2
    .word 0x002282b3  # add x5, x5, x2
    .word 0x0cc2a623  # sw x12, 204(x5)
    .word 0x27012283  # lw x5, 624(x2)
    .word 0x01c28293  # addi x5, x5, 28
    .word 0xff028513  # addi x10, x5, -16
    .word 0x00251493  # slli x9, x10, 2
    .word 0x002484b3  # add x9, x9, x2
    .word 0x002502b3  # add x5, x10, x2
    .word 0x2202c283  # lbu x5, 544(x5)
    .word 0x01829293  # slli x5, x5, 24
    .word 0x00250333  # add x6, x10, x2
    .word 0x22134303  # lbu x6, 545(x6)
    .word 0x01031313  # slli x6, x6, 16
    .word 0x0062e633  # or x12, x5, x6
    .word 0x00250333  # add x6, x10, x2
    .word 0x22234303  # lbu x6, 546(x6)
    .word 0x00831313  # slli x6, x6, 8
    .word 0x006662b3  # or x5, x12, x6
    .word 0x00250333  # add x6, x10, x2
    .word 0x22334303  # lbu x6, 547(x6)
    .word 0x0062e633  # or x12, x5, x6
    .word 0x1d012303  # lw x6, 464(x2)
    .word 0x006632b3  # sltu x5, x12, x6
    .word 0x1d012383  # lw x7, 464(x2)
    .word 0x40760333  # sub x6, x12, x7
    .word 0x00e33333  # sltu x6, x6, x14
    .word 0x00628733  # add x14, x5, x6
    .word 0x00269293  # slli x5, x13, 2
    .word 0x002282b3  # add x5, x5, x2
    .word 0x0cc2a823  # sw x12, 208(x5)
    .word 0x27012283  # lw x5, 624(x2)
    .word 0x01c28293  # addi x5, x5, 28
    .word 0xfec28513  # addi x10, x5, -20
    .word 0x00251493  # slli x9, x10, 2
    .word 0x002484b3  # add x9, x9, x2
    .word 0x002502b3  # add x5, x10, x2
    .word 0x2202c283  # lbu x5, 544(x5)
    .word 0x01829293  # slli x5, x5, 24
    .word 0x00250333  # add x6, x10, x2
    .word 0x22134303  # lbu x6, 545(x6)
    .word 0x01031313  # slli x6, x6, 16
    .word 0x0062e633  # or x12, x5, x6
    .word 0x00250333  # add x6, x10, x2
    .word 0x22234303  # lbu x6, 546(x6)
    .word 0x00831313  # slli x6, x6, 8
    .word 0x006662b3  # or x5, x12, x6
    .word 0x00250333  # add x6, x10, x2
    .word 0x22334303  # lbu x6, 547(x6)
    .word 0x0062e633  # or x12, x5, x6
    .word 0x1d412303  # lw x6, 468(x2)
    .word 0x006632b3  # sltu x5, x12, x6
    .word 0x1d412383  # lw x7, 468(x2)
    .word 0x40760333  # sub x6, x12, x7
    .word 0x00e33333  # sltu x6, x6, x14
    .word 0x00628733  # add x14, x5, x6
    .word 0x00269293  # slli x5, x13, 2
    .word 0x002282b3  # add x5, x5, x2
    .word 0x0cc2aa23  # sw x12, 212(x5)
    .word 0x27012283  # lw x5, 624(x2)
    .word 0x01c28293  # addi x5, x5, 28
    .word 0xfe828513  # addi x10, x5, -24
    .word 0x00251493  # slli x9, x10, 2
    .word 0x002484b3  # add x9, x9, x2
    .word 0x002502b3  # add x5, x10, x2
    .word 0x2202c283  # lbu x5, 544(x5)
    .word 0x01829293  # slli x5, x5, 24
    .word 0x00250333  # add x6, x10, x2
    .word 0x22134303  # lbu x6, 545(x6)
    .word 0x01031313  # slli x6, x6, 16
    .word 0x0062e633  # or x12, x5, x6
    .word 0x00250333  # add x6, x10, x2
    .word 0x22234303  # lbu x6, 546(x6)
    .word 0x00831313  # slli x6, x6, 8
    .word 0x006662b3  # or x5, x12, x6
    .word 0x00250333  # add x6, x10, x2
    .word 0x22334303  # lbu x6, 547(x6)
    .word 0x0062e633  # or x12, x5, x6
    .word 0x1d812303  # lw x6, 472(x2)
    .word 0x006632b3  # sltu x5, x12, x6
    .word 0x1d812383  # lw x7, 472(x2)
    .word 0x40760333  # sub x6, x12, x7
    .word 0x00e33333  # sltu x6, x6, x14
    .word 0x00628733  # add x14, x5, x6
    .word 0x00269293  # slli x5, x13, 2
    .word 0x002282b3  # add x5, x5, x2
    .word 0x0cc2ac23  # sw x12, 216(x5)
    .word 0x27012283  # lw x5, 624(x2)
    .word 0x01c28293  # addi x5, x5, 28
    .word 0xfe428513  # addi x10, x5, -28
    .word 0x00251493  # slli x9, x10, 2
    .word 0x002484b3  # add x9, x9, x2
    .word 0x002502b3  # add x5, x10, x2
    .word 0x2202c283  # lbu x5, 544(x5)
    .word 0x01829293  # slli x5, x5, 24
    .word 0x00250333  # add x6, x10, x2
    .word 0x22134303  # lbu x6, 545(x6)
    .word 0x01031313  # slli x6, x6, 16
    .word 0x0062e633  # or x12, x5, x6
    .word 0x00250333  # add x6, x10, x2
    .word 0x22234303  # lbu x6, 546(x6)
    .word 0x00831313  # slli x6, x6, 8
    .word 0x006662b3  # or x5, x12, x6
    .word 0x00250333  # add x6, x10, x2
    .word 0x22334303  # lbu x6, 547(x6)
    .word 0x0062e633  # or x12, x5, x6
    .word 0x1dc12303  # lw x6, 476(x2)
    .word 0x006632b3  # sltu x5, x12, x6
    .word 0x1dc12383  # lw x7, 476(x2)
    .word 0x40760333  # sub x6, x12, x7
    .word 0x00e33333  # sltu x6, x6, x14
    .word 0x00628733  # add x14, x5, x6
    .word 0x00269293  # slli x5, x13, 2
    .word 0x002282b3  # add x5, x5, x2
    .word 0x0cc2ae23  # sw x12, 220(x5)
    .word 0x26012283  # lw x5, 608(x2)
    .word 0x0122f2b3  # and x5, x5, x18
    .word 0x26512023  # sw x5, 608(x2)
    .word 0x27412283  # lw x5, 628(x2)
    .word 0x00329293  # slli x5, x5, 3
    .word 0x01828513  # addi x10, x5, 24
    .word 0x00251493  # slli x9, x10, 2
    .word 0x002484b3  # add x9, x9, x2
    .word 0x0c04a583  # lw x11, 192(x9)
    .word 0x0c44a783  # lw x15, 196(x9)
    .word 0x0c84a803  # lw x16, 200(x9)
    .word 0x0cc4a983  # lw x19, 204(x9)
    .word 0x0d04aa03  # lw x20, 208(x9)
    .word 0x0d44aa83  # lw x21, 212(x9)
    .word 0x0d84ab03  # lw x22, 216(x9)
    .word 0x0dc4ab83  # lw x23, 220(x9)
    .word 0x1c012303  # lw x6, 448(x2)
    .word 0x40658733  # sub x14, x11, x6
    .word 0x00070c13  # addi x24, x14, 0
    .word 0x1c012303  # lw x6, 448(x2)
    .word 0x0065b633  # sltu x12, x11, x6
    .word 0x1c412303  # lw x6, 452(x2)
    .word 0x40678733  # sub x14, x15, x6
    .word 0x40c70cb3  # sub x25, x14, x12
    .word 0x1c412303  # lw x6, 452(x2)
    .word 0x0067b2b3  # sltu x5, x15, x6
    .word 0x00c73333  # sltu x6, x14, x12
    .word 0x00628633  # add x12, x5, x6
    .word 0x1c812303  # lw x6, 456(x2)
    .word 0x40680733  # sub x14, x16, x6
    .word 0x40c70d33  # sub x26, x14, x12
    .word 0x1c812303  # lw x6, 456(x2)
    .word 0x006832b3  # sltu x5, x16, x6
    .word 0x00c73333  # sltu x6, x14, x12
    .word 0x00628633  # add x12, x5, x6
    .word 0x1cc12303  # lw x6, 460(x2)
    .word 0x40698733  # sub x14, x19, x6
    .word 0x40c70db3  # sub x27, x14, x12
    .word 0x1cc12303  # lw x6, 460(x2)
    .word 0x0069b2b3  # sltu x5, x19, x6
    .word 0x00c73333  # sltu x6, x14, x12
    .word 0x00628633  # add x12, x5, x6
    .word 0x1d012303  # lw x6, 464(x2)
    .word 0x406a0733  # sub x14, x20, x6
    .word 0x40c708b3  # sub x17, x14, x12
    .word 0x1d012303  # lw x6, 464(x2)
    .word 0x006a32b3  # sltu x5, x20, x6
    .word 0x00c73333  # sltu x6, x14, x12
    .word 0x00628633  # add x12, x5, x6
    .word 0x1d412303  # lw x6, 468(x2)
    .word 0x406a8733  # sub x14, x21, x6
    .word 0x40c702b3  # sub x5, x14, x12
    .word 0x28512c23  # sw x5, 664(x2)
    .word 0x1d412303  # lw x6, 468(x2)
    .word 0x006ab2b3  # sltu x5, x21, x6
    .word 0x00c73333  # sltu x6, x14, x12
    .word 0x00628633  # add x12, x5, x6
    .word 0x1d812303  # lw x6, 472(x2)
    .word 0x406b0733  # sub x14, x22, x6
    .word 0x40c702b3  # sub x5, x14, x12
    .word 0x28512e23  # sw x5, 668(x2)
    .word 0x1d812303  # lw x6, 472(x2)
    .word 0x006b32b3  # sltu x5, x22, x6
    .word 0x00c73333  # sltu x6, x14, x12
    .word 0x00628633  # add x12, x5, x6
    .word 0x1dc12303  # lw x6, 476(x2)
    .word 0x406b8733  # sub x14, x23, x6
    .word 0x40c702b3  # sub x5, x14, x12
    .word 0x2a512023  # sw x5, 672(x2)
    .word 0x1dc12303  # lw x6, 476(x2)
    .word 0x006bb2b3  # sltu x5, x23, x6
    .word 0x00c73333  # sltu x6, x14, x12
    .word 0x00628633  # add x12, x5, x6
    .word 0x00c03933  # sltu x18, x0, x12
    .word 0x412002b3  # sub x5, x0, x18
    .word 0x0185c333  # xor x6, x11, x24
    .word 0x00537333  # and x6, x6, x5
    .word 0x006c42b3  # xor x5, x24, x6
    .word 0x0c54a023  # sw x5, 192(x9)
    .word 0x412002b3  # sub x5, x0, x18
    .word 0x0197c333  # xor x6, x15, x25
    .word 0x00537333  # and x6, x6, x5
    .word 0x006cc2b3  # xor x5, x25, x6
    .word 0x0c54a223  # sw x5, 196(x9)
    .word 0x412002b3  # sub x5, x0, x18
    .word 0x01a84333  # xor x6, x16, x26
    .word 0x00537333  # and x6, x6, x5
    .word 0x006d42b3  # xor x5, x26, x6
    .word 0x0c54a423  # sw x5, 200(x9)
    .word 0x412002b3  # sub x5, x0, x18
    .word 0x01b9c333  # xor x6, x19, x27
    .word 0x00537333  # and x6, x6, x5
    .word 0x006dc2b3  # xor x5, x27, x6
    .word 0x0c54a623  # sw x5, 204(x9)
    .word 0x412002b3  # sub x5, x0, x18
    .word 0x011a4333  # xor x6, x20, x17
    .word 0x00537333  # and x6, x6, x5
    .word 0x0068c2b3  # xor x5, x17, x6
    .word 0x0c54a823  # sw x5, 208(x9)
    .word 0x29812383  # lw x7, 664(x2)
    .word 0x412002b3  # sub x5, x0, x18
    .word 0x007ac333  # xor x6, x21, x7
    .word 0x00537333  # and x6, x6, x5
    .word 0x0063c2b3  # xor x5, x7, x6
    .word 0x0c54aa23  # sw x5, 212(x9)
    .word 0x29c12383  # lw x7, 668(x2)
    .word 0x412002b3  # sub x5, x0, x18
    .word 0x007b4333  # xor x6, x22, x7
    .word 0x00537333  # and x6, x6, x5
    .word 0x0063c2b3  # xor x5, x7, x6
    .word 0x0c54ac23  # sw x5, 216(x9)
    .word 0x2a012383  # lw x7, 672(x2)
    .word 0x412002b3  # sub x5, x0, x18
    .word 0x007bc333  # xor x6, x23, x7
    .word 0x00537333  # and x6, x6, x5
    .word 0x0063c2b3  # xor x5, x7, x6
    .word 0x0c54ae23  # sw x5, 220(x9)
    .word 0xeccff06f  # jal x0, -2356
    .word 0x2a012a23  # sw x0, 692(x2)
    .word 0x10300293  # addi x5, x0, 259
    .word 0x2a512c23  # sw x5, 696(x2)
    .word 0x2b412303  # lw x6, 692(x2)
    .word 0x2b812283  # lw x5, 696(x2)
    .word 0x005332b3  # sltu x5, x6, x5
    .word 0x00029463  # bne x5, x0, 8
    .word 0x6a50006f  # jal x0, 3748
    .word 0x26612223  # sw x6, 612(x2)
    .word 0x00130313  # addi x6, x6, 1
    .word 0x2a612a23  # sw x6, 692(x2)
    .word 0x0ff00293  # addi x5, x0, 255
    .word 0x26412303  # lw x6, 612(x2)
    .word 0x406282b3  # sub x5, x5, x6
    .word 0x0ff2f513  # andi x10, x5, 255
    .word 0x00251493  # slli x9, x10, 2
    .word 0x002484b3  # add x9, x9, x2
    .word 0x02053293  # sltiu x5, x10, 32
    .word 0x2a812303  # lw x6, 680(x2)
    .word 0x00555393  # srli x7, x10, 5
    .word 0x00239393  # slli x7, x7, 2
    .word 0x002383b3  # add x7, x7, x2
    .word 0x1c03a383  # lw x7, 448(x7)
    .word 0x405002b3  # sub x5, x0, x5
    .word 0x00734333  # xor x6, x6, x7
    .word 0x00537333  # and x6, x6, x5
    .word 0x0063c2b3  # xor x5, x7, x6
    .word 0x01f57313  # andi x6, x10, 31
    .word 0x0062d2b3  # srl x5, x5, x6
    .word 0x0012f293  # andi x5, x5, 1
    .word 0x26512423  # sw x5, 616(x2)
    .word 0x00800693  # addi x13, x0, 8
    .word 0x00800293  # addi x5, x0, 8
    .word 0x26512a23  # sw x5, 628(x2)
    .word 0x00100293  # addi x5, x0, 1
    .word 0x26512623  # sw x5, 620(x2)
    .word 0x26412283  # lw x5, 612(x2)
    .word 0x02029263  # bne x5, x0, 36
    .word 0x00000693  # addi x13, x0, 0
    .word 0x26012a23  # sw x0, 628(x2)
    .word 0x02800513  # addi x10, x0, 40
    .word 0x00251493  # slli x9, x10, 2
    .word 0x002484b3  # add x9, x9, x2
    .word 0x00100293  # addi x5, x0, 1
    .word 0x26512623  # sw x5, 620(x2)
    .word 0x0780006f  # jal x0, 120
    .word 0x26412283  # lw x5, 612(x2)
    .word 0x10000313  # addi x6, x0, 256
    .word 0x0062fe63  # bgeu x5, x6, 28
    .word 0x00800513  # addi x10, x0, 8
    .word 0x00251493  # slli x9, x10, 2
    .word 0x002484b3  # add x9, x9, x2
    .word 0x00100293  # addi x5, x0, 1
    .word 0x26512623  # sw x5, 620(x2)
    .word 0x0540006f  # jal x0, 84
    .word 0x26412283  # lw x5, 612(x2)
    .word 0x10000313  # addi x6, x0, 256
    .word 0x02629063  # bne x5, x6, 32
    .word 0x03000693  # addi x13, x0, 48
    .word 0x01000293  # addi x5, x0, 16
    .word 0x26512a23  # sw x5, 628(x2)
    .word 0x02800513  # addi x10, x0, 40
    .word 0x00251493  # slli x9, x10, 2
    .word 0x002484b3  # add x9, x9, x2
    .word 0x02c0006f  # jal x0, 44
    .word 0x03000693  # addi x13, x0, 48
    .word 0x03000293  # addi x5, x0, 48
    .word 0x26512a23  # sw x5, 628(x2)
    .word 0x00800513  # addi x10, x0, 8
    .word 0x00251493  # slli x9, x10, 2
    .word 0x002484b3  # add x9, x9, x2
    .word 0x26412283  # lw x5, 612(x2)
    .word 0xefe28293  # addi x5, x5, -258
    .word 0x0012b293  # sltiu x5, x5, 1
    .word 0x26512623  # sw x5, 620(x2)
    .word 0x26c12283  # lw x5, 620(x2)
    .word 0x4e028863  # beq x5, x0, 1264
    .word 0x0386f293  # andi x5, x13, 56
    .word 0x26512823  # sw x5, 624(x2)
    .word 0x27412283  # lw x5, 628(x2)
    .word 0x0382f293  # andi x5, x5, 56
    .word 0x26512a23  # sw x5, 628(x2)
    .word 0x03857513  # andi x10, x10, 56
    .word 0x00251493  # slli x9, x10, 2
    .word 0x002484b3  # add x9, x9, x2
    .word 0x1c012283  # lw x5, 448(x2)
    .word 0x26512c23  # sw x5, 632(x2)
    .word 0x1c412283  # lw x5, 452(x2)
    .word 0x26512e23  # sw x5, 636(x2)
    .word 0x1c812283  # lw x5, 456(x2)
    .word 0x28512023  # sw x5, 640(x2)
    .word 0x1cc12283  # lw x5, 460(x2)
    .word 0x28512223  # sw x5, 644(x2)
    .word 0x1d012283  # lw x5, 464(x2)
    .word 0x28512423  # sw x5, 648(x2)
    .word 0x1d412283  # lw x5, 468(x2)
    .word 0x28512623  # sw x5, 652(x2)
    .word 0x1d812283  # lw x5, 472(x2)
    .word 0x28512823  # sw x5, 656(x2)
    .word 0x1dc12283  # lw x5, 476(x2)
    .word 0x28512a23  # sw x5, 660(x2)
    .word 0x00000993  # addi x19, x0, 0
    .word 0x00000a13  # addi x20, x0, 0
    .word 0x00000a93  # addi x21, x0, 0
    .word 0x00000b13  # addi x22, x0, 0
    .word 0x00000b93  # addi x23, x0, 0
    .word 0x00000c13  # addi x24, x0, 0
    .word 0x00000c93  # addi x25, x0, 0
    .word 0x00000d13  # addi x26, x0, 0
    .word 0x00000d93  # addi x27, x0, 0
    .word 0xfff00693  # addi x13, x0, -1
    .word 0x00168693  # addi x13, x13, 1
    .word 0x27412283  # lw x5, 628(x2)
    .word 0x00d282b3  # add x5, x5, x13
    .word 0x00229593  # slli x11, x5, 2
    .word 0x002585b3  # add x11, x11, x2
    .word 0x0c05a583  # lw x11, 192(x11)
    .word 0x0c04a703  # lw x14, 192(x9)
    .word 0x02e587b3  # mul x15, x11, x14
    .word 0x02e5b833  # mulhu x16, x11, x14
    .word 0x00f98733  # add x14, x19, x15
    .word 0x00070993  # addi x19, x14, 0
    .word 0x00f73333  # sltu x6, x14, x15
    .word 0x00680633  # add x12, x16, x6
    .word 0x0c44a703  # lw x14, 196(x9)
    .word 0x02e587b3  # mul x15, x11, x14
    .word 0x02e5b833  # mulhu x16, x11, x14
    .word 0x00fa0733  # add x14, x20, x15
    .word 0x00c70a33  # add x20, x14, x12
    .word 0x00f73333  # sltu x6, x14, x15
    .word 0x006802b3  # add x5, x16, x6
    .word 0x00ca3333  # sltu x6, x20, x12
    .word 0x00628633  # add x12, x5, x6
    .word 0x0c84a703  # lw x14, 200(x9)
    .word 0x02e587b3  # mul x15, x11, x14
    .word 0x02e5b833  # mulhu x16, x11, x14
    .word 0x00fa8733  # add x14, x21, x15
    .word 0x00c70ab3  # add x21, x14, x12
    .word 0x00f73333  # sltu x6, x14, x15
    .word 0x006802b3  # add x5, x16, x6
    .word 0x00cab333  # sltu x6, x21, x12
    .word 0x00628633  # add x12, x5, x6
    .word 0x0cc4a703  # lw x14, 204(x9)
    .word 0x02e587b3  # mul x15, x11, x14
    .word 0x02e5b833  # mulhu x16, x11, x14
    .word 0x00fb0733  # add x14, x22, x15
    .word 0x00c70b33  # add x22, x14, x12
    .word 0x00f73333  # sltu x6, x14, x15
    .word 0x006802b3  # add x5, x16, x6
    .word 0x00cb3333  # sltu x6, x22, x12
    .word 0x00628633  # add x12, x5, x6
    .word 0x0d04a703  # lw x14, 208(x9)
    .word 0x02e587b3  # mul x15, x11, x14
    .word 0x02e5b833  # mulhu x16, x11, x14
    .word 0x00fb8733  # add x14, x23, x15
    .word 0x00c70bb3  # add x23, x14, x12
    .word 0x00f73333  # sltu x6, x14, x15
    .word 0x006802b3  # add x5, x16, x6
    .word 0x00cbb333  # sltu x6, x23, x12
    .word 0x00628633  # add x12, x5, x6
    .word 0x0d44a703  # lw x14, 212(x9)
    .word 0x02e587b3  # mul x15, x11, x14
    .word 0x02e5b833  # mulhu x16, x11, x14
    .word 0x00fc0733  # add x14, x24, x15
    .word 0x00c70c33  # add x24, x14, x12
    .word 0x00f73333  # sltu x6, x14, x15
    .word 0x006802b3  # add x5, x16, x6
    .word 0x00cc3333  # sltu x6, x24, x12
    .word 0x00628633  # add x12, x5, x6
    .word 0x0d84a703  # lw x14, 216(x9)
    .word 0x02e587b3  # mul x15, x11, x14
    .word 0x02e5b833  # mulhu x16, x11, x14
    .word 0x00fc8733  # add x14, x25, x15
    .word 0x00c70cb3  # add x25, x14, x12
    .word 0x00f73333  # sltu x6, x14, x15
    .word 0x006802b3  # add x5, x16, x6
    .word 0x00ccb333  # sltu x6, x25, x12
    .word 0x00628633  # add x12, x5, x6
    .word 0x0dc4a703  # lw x14, 220(x9)
    .word 0x02e587b3  # mul x15, x11, x14
    .word 0x02e5b833  # mulhu x16, x11, x14
    .word 0x00fd0733  # add x14, x26, x15
    .word 0x00c70d33  # add x26, x14, x12
    .word 0x00f73333  # sltu x6, x14, x15
    .word 0x006802b3  # add x5, x16, x6
    .word 0x00cd3333  # sltu x6, x26, x12
    .word 0x00628633  # add x12, x5, x6
    .word 0x00cd88b3  # add x17, x27, x12
    .word 0x00c8bdb3  # sltu x27, x17, x12
    .word 0x2ac12303  # lw x6, 684(x2)
    .word 0x026985b3  # mul x11, x19, x6
    .word 0x27812703  # lw x14, 632(x2)
    .word 0x02e587b3  # mul x15, x11, x14
    .word 0x02e5b833  # mulhu x16, x11, x14
    .word 0x00f98733  # add x14, x19, x15
    .word 0x00f73333  # sltu x6, x14, x15
    .word 0x00680633  # add x12, x16, x6
    .word 0x27c12703  # lw x14, 636(x2)
    .word 0x02e587b3  # mul x15, x11, x14
    .word 0x02e5b833  # mulhu x16, x11, x14
    .word 0x00fa0733  # add x14, x20, x15
    .word 0x00c709b3  # add x19, x14, x12
    .word 0x00f73333  # sltu x6, x14, x15
    .word 0x006802b3  # add x5, x16, x6
    .word 0x00c9b333  # sltu x6, x19, x12
    .word 0x00628633  # add x12, x5, x6
    .word 0x28012703  # lw x14, 640(x2)
    .word 0x02e587b3  # mul x15, x11, x14
    .word 0x02e5b833  # mulhu x16, x11, x14
    .word 0x00fa8733  # add x14, x21, x15
    .word 0x00c70a33  # add x20, x14, x12
    .word 0x00f73333  # sltu x6, x14, x15
    .word 0x006802b3  # add x5, x16, x6
    .word 0x00ca3333  # sltu x6, x20, x12
    .word 0x00628633  # add x12, x5, x6
    .word 0x28412703  # lw x14, 644(x2)
    .word 0x02e587b3  # mul x15, x11, x14
    .word 0x02e5b833  # mulhu x16, x11, x14
    .word 0x00fb0733  # add x14, x22, x15
    .word 0x00c70ab3  # add x21, x14, x12
    .word 0x00f73333  # sltu x6, x14, x15
    .word 0x006802b3  # add x5, x16, x6
    .word 0x00cab333  # sltu x6, x21, x12
    .word 0x00628633  # add x12, x5, x6
    .word 0x28812703  # lw x14, 648(x2)
    .word 0x02e587b3  # mul x15, x11, x14
    .word 0x02e5b833  # mulhu x16, x11, x14
    .word 0x00fb8733  # add x14, x23, x15
    .word 0x00c70b33  # add x22, x14, x12
    .word 0x00f73333  # sltu x6, x14, x15
    .word 0x006802b3  # add x5, x16, x6
    .word 0x00cb3333  # sltu x6, x22, x12
    .word 0x00628633  # add x12, x5, x6
    .word 0x28c12703  # lw x14, 652(x2)
    .word 0x02e587b3  # mul x15, x11, x14
    .word 0x02e5b833  # mulhu x16, x11, x14
    .word 0x00fc0733  # add x14, x24, x15
    .word 0x00c70bb3  # add x23, x14, x12
    .word 0x00f73333  # sltu x6, x14, x15
    .word 0x006802b3  # add x5, x16, x6
    .word 0x00cbb333  # sltu x6, x23, x12
    .word 0x00628633  # add x12, x5, x6
    .word 0x29012703  # lw x14, 656(x2)
    .word 0x02e587b3  # mul x15, x11, x14
    .word 0x02e5b833  # mulhu x16, x11, x14
    .word 0x00fc8733  # add x14, x25, x15
    .word 0x00c70c33  # add x24, x14, x12
    .word 0x00f73333  # sltu x6, x14, x15
    .word 0x006802b3  # add x5, x16, x6
    .word 0x00cc3333  # sltu x6, x24, x12
    .word 0x00628633  # add x12, x5, x6
    .word 0x29412703  # lw x14, 660(x2)
    .word 0x02e587b3  # mul x15, x11, x14
    .word 0x02e5b833  # mulhu x16, x11, x14
    .word 0x00fd0733  # add x14, x26, x15
    .word 0x00c70cb3  # add x25, x14, x12
    .word 0x00f73333  # sltu x6, x14, x15
    .word 0x006802b3  # add x5, x16, x6
    .word 0x00ccb333  # sltu x6, x25, x12
    .word 0x00628633  # add x12, x5, x6
    .word 0x00c88d33  # add x26, x17, x12
    .word 0x00cd3333  # sltu x6, x26, x12
    .word 0x006d8db3  # add x27, x27, x6
    .word 0xff968293  # addi x5, x13, -7
    .word 0xd8029ee3  # bne x5, x0, -612
    .word 0x1c012303  # lw x6, 448(x2)
    .word 0x40698733  # sub x14, x19, x6
    .word 0x00070593  # addi x11, x14, 0
    .word 0x1c012303  # lw x6, 448(x2)
    .word 0x0069b633  # sltu x12, x19, x6
    .word 0x1c412303  # lw x6, 452(x2)
    .word 0x406a0733  # sub x14, x20, x6
    .word 0x40c707b3  # sub x15, x14, x12
    .word 0x1c412303  # lw x6, 452(x2)
    .word 0x006a32b3  # sltu x5, x20, x6
    .word 0x00c73333  # sltu x6, x14, x12
    .word 0x00628633  # add x12, x5, x6
    .word 0x1c812303  # lw x6, 456(x2)
    .word 0x406a8733  # sub x14, x21, x6
    .word 0x40c70833  # sub x16, x14, x12
    .word 0x1c812303  # lw x6, 456(x2)
    .word 0x006ab2b3  # sltu x5, x21, x6
    .word 0x00c73333  # sltu x6, x14, x12
    .word 0x00628633  # add x12, x5, x6
    .word 0x1cc12303  # lw x6, 460(x2)
    .word 0x406b0733  # sub x14, x22, x6
    .word 0x40c708b3  # sub x17, x14, x12
    .word 0x1cc12303  # lw x6, 460(x2)
    .word 0x006b32b3  # sltu x5, x22, x6
    .word 0x00c73333  # sltu x6, x14, x12
    .word 0x00628633  # add x12, x5, x6
    .word 0x1d012303  # lw x6, 464(x2)
    .word 0x406b8733  # sub x14, x23, x6
    .word 0x40c702b3  # sub x5, x14, x12
    .word 0x28512c23  # sw x5, 664(x2)
    .word 0x1d012303  # lw x6, 464(x2)
    .word 0x006bb2b3  # sltu x5, x23, x6
    .word 0x00c73333  # sltu x6, x14, x12
    .word 0x00628633  # add x12, x5, x6
    .word 0x1d412303  # lw x6, 468(x2)
    .word 0x406c0733  # sub x14, x24, x6
    .word 0x40c702b3  # sub x5, x14, x12
    .word 0x28512e23  # sw x5, 668(x2)
    .word 0x1d412303  # lw x6, 468(x2)
    .word 0x006c32b3  # sltu x5, x24, x6
    .word 0x00c73333  # sltu x6, x14, x12
    .word 0x00628633  # add x12, x5, x6
    .word 0x1d812303  # lw x6, 472(x2)
    .word 0x406c8733  # sub x14, x25, x6
    .word 0x40c702b3  # sub x5, x14, x12
    .word 0x2a512023  # sw x5, 672(x2)
    .word 0x1d812303  # lw x6, 472(x2)
    .word 0x006cb2b3  # sltu x5, x25, x6
    .word 0x00c73333  # sltu x6, x14, x12
    .word 0x00628633  # add x12, x5, x6
    .word 0x1dc12303  # lw x6, 476(x2)
    .word 0x406d0733  # sub x14, x26, x6
    .word 0x40c702b3  # sub x5, x14, x12
    .word 0x2a512223  # sw x5, 676(x2)
    .word 0x1dc12303  # lw x6, 476(x2)
    .word 0x006d32b3  # sltu x5, x26, x6
    .word 0x00c73333  # sltu x6, x14, x12
    .word 0x00628633  # add x12, x5, x6
    .word 0x00cdb933  # sltu x18, x27, x12
    .word 0x27012283  # lw x5, 624(x2)
    .word 0x41200333  # sub x6, x0, x18
    .word 0x00b9c3b3  # xor x7, x19, x11
    .word 0x0063f3b3  # and x7, x7, x6
    .word 0x0075c333  # xor x6, x11, x7
    .word 0x00229293  # slli x5, x5, 2
    .word 0x002282b3  # add x5, x5, x2
    .word 0x0c62a023  # sw x6, 192(x5)
    .word 0x27012283  # lw x5, 624(x2)
    .word 0x41200333  # sub x6, x0, x18
    .word 0x00fa43b3  # xor x7, x20, x15
    .word 0x0063f3b3  # and x7, x7, x6
    .word 0x0077c333  # xor x6, x15, x7
    .word 0x00229293  # slli x5, x5, 2
    .word 0x002282b3  # add x5, x5, x2
    .word 0x0c62a223  # sw x6, 196(x5)
    .word 0x27012283  # lw x5, 624(x2)
    .word 0x41200333  # sub x6, x0, x18
    .word 0x010ac3b3  # xor x7, x21, x16
    .word 0x0063f3b3  # and x7, x7, x6
    .word 0x00784333  # xor x6, x16, x7
    .word 0x00229293  # slli x5, x5, 2
    .word 0x002282b3  # add x5, x5, x2
    .word 0x0c62a423  # sw x6, 200(x5)
    .word 0x27012283  # lw x5, 624(x2)
    .word 0x41200333  # sub x6, x0, x18
    .word 0x011b43b3  # xor x7, x22, x17
    .word 0x0063f3b3  # and x7, x7, x6
    .word 0x0078c333  # xor x6, x17, x7
    .word 0x00229293  # slli x5, x5, 2
    .word 0x002282b3  # add x5, x5, x2
    .word 0x0c62a623  # sw x6, 204(x5)
    .word 0x27012283  # lw x5, 624(x2)
    .word 0x29812403  # lw x8, 664(x2)
    .word 0x41200333  # sub x6, x0, x18
    .word 0x008bc3b3  # xor x7, x23, x8
    .word 0x0063f3b3  # and x7, x7, x6
    .word 0x00744333  # xor x6, x8, x7
    .word 0x00229293  # slli x5, x5, 2
    .word 0x002282b3  # add x5, x5, x2
    .word 0x0c62a823  # sw x6, 208(x5)
    .word 0x27012283  # lw x5, 624(x2)
    .word 0x29c12403  # lw x8, 668(x2)
    .word 0x41200333  # sub x6, x0, x18
    .word 0x008c43b3  # xor x7, x24, x8
    .word 0x0063f3b3  # and x7, x7, x6
    .word 0x00744333  # xor x6, x8, x7
    .word 0x00229293  # slli x5, x5, 2
    .word 0x002282b3  # add x5, x5, x2
    .word 0x0c62aa23  # sw x6, 212(x5)
    .word 0x27012283  # lw x5, 624(x2)
    .word 0x2a012403  # lw x8, 672(x2)
    .word 0x41200333  # sub x6, x0, x18
    .word 0x008cc3b3  # xor x7, x25, x8
    .word 0x0063f3b3  # and x7, x7, x6
    .word 0x00744333  # xor x6, x8, x7
    .word 0x00229293  # slli x5, x5, 2
    .word 0x002282b3  # add x5, x5, x2
    .word 0x0c62ac23  # sw x6, 216(x5)
    .word 0x27012283  # lw x5, 624(x2)
    .word 0x2a412403  # lw x8, 676(x2)
    .word 0x41200333  # sub x6, x0, x18
    .word 0x008d43b3  # xor x7, x26, x8
    .word 0x0063f3b3  # and x7, x7, x6
    .word 0x00744333  # xor x6, x8, x7
    .word 0x00229293  # slli x5, x5, 2
    .word 0x002282b3  # add x5, x5, x2
    .word 0x0c62ae23  # sw x6, 220(x5)
    .word 0x00800693  # addi x13, x0, 8
    .word 0x00800293  # addi x5, x0, 8
    .word 0x26512a23  # sw x5, 628(x2)
    .word 0x00100293  # addi x5, x0, 1
    .word 0x26512623  # sw x5, 620(x2)
    .word 0x26412283  # lw x5, 612(x2)
    .word 0x02029063  # bne x5, x0, 32
    .word 0x00000693  # addi x13, x0, 0
    .word 0x26012a23  # sw x0, 628(x2)
    .word 0x02800513  # addi x10, x0, 40
    .word 0x00251493  # slli x9, x10, 2
    .word 0x002484b3  # add x9, x9, x2
    .word 0x26012623  # sw x0, 620(x2)
    .word 0x0740006f  # jal x0, 116
    .word 0x26412283  # lw x5, 612(x2)
    .word 0x10000313  # addi x6, x0, 256
    .word 0x0262f263  # bgeu x5, x6, 36
    .word 0x00000513  # addi x10, x0, 0
    .word 0x00251493  # slli x9, x10, 2
    .word 0x002484b3  # add x9, x9, x2
    .word 0x26812283  # lw x5, 616(x2)
    .word 0xfff28293  # addi x5, x5, -1
    .word 0x0012b293  # sltiu x5, x5, 1
    .word 0x26512623  # sw x5, 620(x2)
    .word 0x0480006f  # jal x0, 72
    .word 0x26412283  # lw x5, 612(x2)
    .word 0x10000313  # addi x6, x0, 256
    .word 0x02629063  # bne x5, x6, 32
    .word 0x03000693  # addi x13, x0, 48
    .word 0x03000293  # addi x5, x0, 48
    .word 0x26512a23  # sw x5, 628(x2)
    .word 0x02000513  # addi x10, x0, 32
    .word 0x00251493  # slli x9, x10, 2
    .word 0x002484b3  # add x9, x9, x2
    .word 0x0200006f  # jal x0, 32
    .word 0x03000693  # addi x13, x0, 48
    .word 0x03000293  # addi x5, x0, 48
    .word 0x26512a23  # sw x5, 628(x2)
    .word 0x00800513  # addi x10, x0, 8
    .word 0x00251493  # slli x9, x10, 2
    .word 0x002484b3  # add x9, x9, x2
    .word 0x26012623  # sw x0, 620(x2)
    .word 0x26c12283  # lw x5, 620(x2)
    .word 0x4e028863  # beq x5, x0, 1264
    .word 0x0386f293  # andi x5, x13, 56
    .word 0x26512823  # sw x5, 624(x2)
    .word 0x27412283  # lw x5, 628(x2)
    .word 0x0382f293  # andi x5, x5, 56
    .word 0x26512a23  # sw x5, 628(x2)
    .word 0x03857513  # andi x10, x10, 56
    .word 0x00251493  # slli x9, x10, 2
    .word 0x002484b3  # add x9, x9, x2
    .word 0x1c012283  # lw x5, 448(x2)
    .word 0x26512c23  # sw x5, 632(x2)
    .word 0x1c412283  # lw x5, 452(x2)
    .word 0x26512e23  # sw x5, 636(x2)
    .word 0x1c812283  # lw x5, 456(x2)
    .word 0x28512023  # sw x5, 640(x2)
    .word 0x1cc12283  # lw x5, 460(x2)
    .word 0x28512223  # sw x5, 644(x2)
    .word 0x1d012283  # lw x5, 464(x2)
    .word 0x28512423  # sw x5, 648(x2)
    .word 0x1d412283  # lw x5, 468(x2)
    .word 0x28512623  # sw x5, 652(x2)
    .word 0x1d812283  # lw x5, 472(x2)
    .word 0x28512823  # sw x5, 656(x2)
    .word 0x1dc12283  # lw x5, 476(x2)
    .word 0x28512a23  # sw x5, 660(x2)
    .word 0x00000993  # addi x19, x0, 0
    .word 0x00000a13  # addi x20, x0, 0
    .word 0x00000a93  # addi x21, x0, 0
    .word 0x00000b13  # addi x22, x0, 0
    .word 0x00000b93  # addi x23, x0, 0
    .word 0x00000c13  # addi x24, x0, 0
    .word 0x00000c93  # addi x25, x0, 0
    .word 0x00000d13  # addi x26, x0, 0
    .word 0x00000d93  # addi x27, x0, 0
    .word 0xfff00693  # addi x13, x0, -1
    .word 0x00168693  # addi x13, x13, 1
    .word 0x27412283  # lw x5, 628(x2)
    .word 0x00d282b3  # add x5, x5, x13
    .word 0x00229593  # slli x11, x5, 2
    .word 0x002585b3  # add x11, x11, x2
    .word 0x0c05a583  # lw x11, 192(x11)
    .word 0x0c04a703  # lw x14, 192(x9)
    .word 0x02e587b3  # mul x15, x11, x14
    .word 0x02e5b833  # mulhu x16, x11, x14
    .word 0x00f98733  # add x14, x19, x15
    .word 0x00070993  # addi x19, x14, 0
    .word 0x00f73333  # sltu x6, x14, x15
    .word 0x00680633  # add x12, x16, x6
    .word 0x0c44a703  # lw x14, 196(x9)
    .word 0x02e587b3  # mul x15, x11, x14
    .word 0x02e5b833  # mulhu x16, x11, x14
    .word 0x00fa0733  # add x14, x20, x15
    .word 0x00c70a33  # add x20, x14, x12
    .word 0x00f73333  # sltu x6, x14, x15
    .word 0x006802b3  # add x5, x16, x6
    .word 0x00ca3333  # sltu x6, x20, x12
    .word 0x00628633  # add x12, x5, x6
    .word 0x0c84a703  # lw x14, 200(x9)
    .word 0x02e587b3  # mul x15, x11, x14
    .word 0x02e5b833  # mulhu x16, x11, x14
    .word 0x00fa8733  # add x14, x21, x15
    .word 0x00c70ab3  # add x21, x14, x12
    .word 0x00f73333  # sltu x6, x14, x15
    .word 0x006802b3  # add x5, x16, x6
    .word 0x00cab333  # sltu x6, x21, x12
    .word 0x00628633  # add x12, x5, x6
    .word 0x0cc4a703  # lw x14, 204(x9)
    .word 0x02e587b3  # mul x15, x11, x14
    .word 0x02e5b833  # mulhu x16, x11, x14
    .word 0x00fb0733  # add x14, x22, x15
    .word 0x00c70b33  # add x22, x14, x12
    .word 0x00f73333  # sltu x6, x14, x15
    .word 0x006802b3  # add x5, x16, x6
    .word 0x00cb3333  # sltu x6, x22, x12
    .word 0x00628633  # add x12, x5, x6
    .word 0x0d04a703  # lw x14, 208(x9)
    .word 0x02e587b3  # mul x15, x11, x14
    .word 0x02e5b833  # mulhu x16, x11, x14
    .word 0x00fb8733  # add x14, x23, x15
    .word 0x00c70bb3  # add x23, x14, x12
    .word 0x00f73333  # sltu x6, x14, x15
    .word 0x006802b3  # add x5, x16, x6
    .word 0x00cbb333  # sltu x6, x23, x12
    .word 0x00628633  # add x12, x5, x6
    .word 0x0d44a703  # lw x14, 212(x9)
    .word 0x02e587b3  # mul x15, x11, x14
    .word 0x02e5b833  # mulhu x16, x11, x14
    .word 0x00fc0733  # add x14, x24, x15
    .word 0x00c70c33  # add x24, x14, x12
    .word 0x00f73333  # sltu x6, x14, x15
    .word 0x006802b3  # add x5, x16, x6
    .word 0x00cc3333  # sltu x6, x24, x12
    .word 0x00628633  # add x12, x5, x6
    .word 0x0d84a703  # lw x14, 216(x9)
    .word 0x02e587b3  # mul x15, x11, x14
    .word 0x02e5b833  # mulhu x16, x11, x14
    .word 0x00fc8733  # add x14, x25, x15
    .word 0x00c70cb3  # add x25, x14, x12
    .word 0x00f73333  # sltu x6, x14, x15
    .word 0x006802b3  # add x5, x16, x6
    .word 0x00ccb333  # sltu x6, x25, x12
    .word 0x00628633  # add x12, x5, x6
    .word 0x0dc4a703  # lw x14, 220(x9)
    .word 0x02e587b3  # mul x15, x11, x14
    .word 0x02e5b833  # mulhu x16, x11, x14
    .word 0x00fd0733  # add x14, x26, x15
    .word 0x00c70d33  # add x26, x14, x12
    .word 0x00f73333  # sltu x6, x14, x15
    .word 0x006802b3  # add x5, x16, x6
    .word 0x00cd3333  # sltu x6, x26, x12
    .word 0x00628633  # add x12, x5, x6
    .word 0x00cd88b3  # add x17, x27, x12
    .word 0x00c8bdb3  # sltu x27, x17, x12
    .word 0x2ac12303  # lw x6, 684(x2)
    .word 0x026985b3  # mul x11, x19, x6
    .word 0x27812703  # lw x14, 632(x2)
    .word 0x02e587b3  # mul x15, x11, x14
    .word 0x02e5b833  # mulhu x16, x11, x14
    .word 0x00f98733  # add x14, x19, x15
    .word 0x00f73333  # sltu x6, x14, x15
    .word 0x00680633  # add x12, x16, x6
    .word 0x27c12703  # lw x14, 636(x2)
    .word 0x02e587b3  # mul x15, x11, x14
    .word 0x02e5b833  # mulhu x16, x11, x14
    .word 0x00fa0733  # add x14, x20, x15
    .word 0x00c709b3  # add x19, x14, x12
    .word 0x00f73333  # sltu x6, x14, x15
    .word 0x006802b3  # add x5, x16, x6
    .word 0x00c9b333  # sltu x6, x19, x12
    .word 0x00628633  # add x12, x5, x6
    .word 0x28012703  # lw x14, 640(x2)
    .word 0x02e587b3  # mul x15, x11, x14
    .word 0x02e5b833  # mulhu x16, x11, x14
    .word 0x00fa8733  # add x14, x21, x15
    .word 0x00c70a33  # add x20, x14, x12
    .word 0x00f73333  # sltu x6, x14, x15
    .word 0x006802b3  # add x5, x16, x6
    .word 0x00ca3333  # sltu x6, x20, x12
    .word 0x00628633  # add x12, x5, x6
    .word 0x28412703  # lw x14, 644(x2)
    .word 0x02e587b3  # mul x15, x11, x14
    .word 0x02e5b833  # mulhu x16, x11, x14
    .word 0x00fb0733  # add x14, x22, x15
    .word 0x00c70ab3  # add x21, x14, x12
    .word 0x00f73333  # sltu x6, x14, x15
    .word 0x006802b3  # add x5, x16, x6
    .word 0x00cab333  # sltu x6, x21, x12
    .word 0x00628633  # add x12, x5, x6
    .word 0x28812703  # lw x14, 648(x2)
    .word 0x02e587b3  # mul x15, x11, x14
    .word 0x02e5b833  # mulhu x16, x11, x14
    .word 0x00fb8733  # add x14, x23, x15
    .word 0x00c70b33  # add x22, x14, x12
    .word 0x00f73333  # sltu x6, x14, x15
    .word 0x006802b3  # add x5, x16, x6
    .word 0x00cb3333  # sltu x6, x22, x12
    .word 0x00628633  # add x12, x5, x6
    .word 0x28c12703  # lw x14, 652(x2)
    .word 0x02e587b3  # mul x15, x11, x14
    .word 0x02e5b833  # mulhu x16, x11, x14
    .word 0x00fc0733  # add x14, x24, x15
    .word 0x00c70bb3  # add x23, x14, x12
    .word 0x00f73333  # sltu x6, x14, x15
    .word 0x006802b3  # add x5, x16, x6
    .word 0x00cbb333  # sltu x6, x23, x12
    .word 0x00628633  # add x12, x5, x6
    .word 0x29012703  # lw x14, 656(x2)
    .word 0x02e587b3  # mul x15, x11, x14
    .word 0x02e5b833  # mulhu x16, x11, x14
    .word 0x00fc8733  # add x14, x25, x15
    .word 0x00c70c33  # add x24, x14, x12
    .word 0x00f73333  # sltu x6, x14, x15
    .word 0x006802b3  # add x5, x16, x6
    .word 0x00cc3333  # sltu x6, x24, x12
    .word 0x00628633  # add x12, x5, x6
    .word 0x29412703  # lw x14, 660(x2)
    .word 0x02e587b3  # mul x15, x11, x14
    .word 0x02e5b833  # mulhu x16, x11, x14
    .word 0x00fd0733  # add x14, x26, x15
    .word 0x00c70cb3  # add x25, x14, x12
    .word 0x00f73333  # sltu x6, x14, x15
    .word 0x006802b3  # add x5, x16, x6
    .word 0x00ccb333  # sltu x6, x25, x12
    .word 0x00628633  # add x12, x5, x6
    .word 0x00c88d33  # add x26, x17, x12
    .word 0x00cd3333  # sltu x6, x26, x12
    .word 0x006d8db3  # add x27, x27, x6
    .word 0xff968293  # addi x5, x13, -7
    .word 0xd8029ee3  # bne x5, x0, -612
    .word 0x1c012303  # lw x6, 448(x2)
    .word 0x40698733  # sub x14, x19, x6
    .word 0x00070593  # addi x11, x14, 0
    .word 0x1c012303  # lw x6, 448(x2)
    .word 0x0069b633  # sltu x12, x19, x6
    .word 0x1c412303  # lw x6, 452(x2)
    .word 0x406a0733  # sub x14, x20, x6
    .word 0x40c707b3  # sub x15, x14, x12
    .word 0x1c412303  # lw x6, 452(x2)
    .word 0x006a32b3  # sltu x5, x20, x6
    .word 0x00c73333  # sltu x6, x14, x12
    .word 0x00628633  # add x12, x5, x6
    .word 0x1c812303  # lw x6, 456(x2)
    .word 0x406a8733  # sub x14, x21, x6
    .word 0x40c70833  # sub x16, x14, x12
    .word 0x1c812303  # lw x6, 456(x2)
    .word 0x006ab2b3  # sltu x5, x21, x6
    .word 0x00c73333  # sltu x6, x14, x12
    .word 0x00628633  # add x12, x5, x6
    .word 0x1cc12303  # lw x6, 460(x2)
    .word 0x406b0733  # sub x14, x22, x6
    .word 0x40c708b3  # sub x17, x14, x12
    .word 0x1cc12303  # lw x6, 460(x2)
    .word 0x006b32b3  # sltu x5, x22, x6
    .word 0x00c73333  # sltu x6, x14, x12
    .word 0x00628633  # add x12, x5, x6
    .word 0x1d012303  # lw x6, 464(x2)
    .word 0x406b8733  # sub x14, x23, x6
    .word 0x40c702b3  # sub x5, x14, x12
    .word 0x28512c23  # sw x5, 664(x2)
    .word 0x1d012303  # lw x6, 464(x2)
    .word 0x006bb2b3  # sltu x5, x23, x6
    .word 0x00c73333  # sltu x6, x14, x12
    .word 0x00628633  # add x12, x5, x6
    .word 0x1d412303  # lw x6, 468(x2)
    .word 0x406c0733  # sub x14, x24, x6
    .word 0x40c702b3  # sub x5, x14, x12
    .word 0x28512e23  # sw x5, 668(x2)
    .word 0x1d412303  # lw x6, 468(x2)
    .word 0x006c32b3  # sltu x5, x24, x6
    .word 0x00c73333  # sltu x6, x14, x12
    .word 0x00628633  # add x12, x5, x6
    .word 0x1d812303  # lw x6, 472(x2)
    .word 0x406c8733  # sub x14, x25, x6
    .word 0x40c702b3  # sub x5, x14, x12
    .word 0x2a512023  # sw x5, 672(x2)
    .word 0x1d812303  # lw x6, 472(x2)
    .word 0x006cb2b3  # sltu x5, x25, x6
    .word 0x00c73333  # sltu x6, x14, x12
    .word 0x00628633  # add x12, x5, x6
    .word 0x1dc12303  # lw x6, 476(x2)
    .word 0x406d0733  # sub x14, x26, x6
    .word 0x40c702b3  # sub x5, x14, x12
    .word 0x2a512223  # sw x5, 676(x2)
    .word 0x1dc12303  # lw x6, 476(x2)
    .word 0x006d32b3  # sltu x5, x26, x6
    .word 0x00c73333  # sltu x6, x14, x12
    .word 0x00628633  # add x12, x5, x6
    .word 0x00cdb933  # sltu x18, x27, x12
    .word 0x27012283  # lw x5, 624(x2)
    .word 0x41200333  # sub x6, x0, x18
    .word 0x00b9c3b3  # xor x7, x19, x11
    .word 0x0063f3b3  # and x7, x7, x6
    .word 0x0075c333  # xor x6, x11, x7
    .word 0x00229293  # slli x5, x5, 2
    .word 0x002282b3  # add x5, x5, x2
    .word 0x0c62a023  # sw x6, 192(x5)
    .word 0x27012283  # lw x5, 624(x2)
    .word 0x41200333  # sub x6, x0, x18
    .word 0x00fa43b3  # xor x7, x20, x15
    .word 0x0063f3b3  # and x7, x7, x6
    .word 0x0077c333  # xor x6, x15, x7
    .word 0x00229293  # slli x5, x5, 2
    .word 0x002282b3  # add x5, x5, x2
    .word 0x0c62a223  # sw x6, 196(x5)
    .word 0x27012283  # lw x5, 624(x2)
    .word 0x41200333  # sub x6, x0, x18
    .word 0x010ac3b3  # xor x7, x21, x16
    .word 0x0063f3b3  # and x7, x7, x6
    .word 0x00784333  # xor x6, x16, x7
    .word 0x00229293  # slli x5, x5, 2
    .word 0x002282b3  # add x5, x5, x2
    .word 0x0c62a423  # sw x6, 200(x5)
    .word 0x27012283  # lw x5, 624(x2)
    .word 0x41200333  # sub x6, x0, x18
    .word 0x011b43b3  # xor x7, x22, x17
    .word 0x0063f3b3  # and x7, x7, x6
    .word 0x0078c333  # xor x6, x17, x7
    .word 0x00229293  # slli x5, x5, 2
    .word 0x002282b3  # add x5, x5, x2
    .word 0x0c62a623  # sw x6, 204(x5)
    .word 0x27012283  # lw x5, 624(x2)
    .word 0x29812403  # lw x8, 664(x2)
    .word 0x41200333  # sub x6, x0, x18
    .word 0x008bc3b3  # xor x7, x23, x8
    .word 0x0063f3b3  # and x7, x7, x6
    .word 0x00744333  # xor x6, x8, x7
    .word 0x00229293  # slli x5, x5, 2
    .word 0x002282b3  # add x5, x5, x2
    .word 0x0c62a823  # sw x6, 208(x5)
    .word 0x27012283  # lw x5, 624(x2)
    .word 0x29c12403  # lw x8, 668(x2)
    .word 0x41200333  # sub x6, x0, x18
    .word 0x008c43b3  # xor x7, x24, x8
    .word 0x0063f3b3  # and x7, x7, x6
    .word 0x00744333  # xor x6, x8, x7
    .word 0x00229293  # slli x5, x5, 2
    .word 0x002282b3  # add x5, x5, x2
    .word 0x0c62aa23  # sw x6, 212(x5)
    .word 0x27012283  # lw x5, 624(x2)
    .word 0x2a012403  # lw x8, 672(x2)
    .word 0x41200333  # sub x6, x0, x18
    .word 0x008cc3b3  # xor x7, x25, x8
    .word 0x0063f3b3  # and x7, x7, x6
    .word 0x00744333  # xor x6, x8, x7
    .word 0x00229293  # slli x5, x5, 2
    .word 0x002282b3  # add x5, x5, x2
    .word 0x0c62ac23  # sw x6, 216(x5)
    .word 0x27012283  # lw x5, 624(x2)
    .word 0x2a412403  # lw x8, 676(x2)
    .word 0x41200333  # sub x6, x0, x18
    .word 0x008d43b3  # xor x7, x26, x8
    .word 0x0063f3b3  # and x7, x7, x6
    .word 0x00744333  # xor x6, x8, x7
    .word 0x00229293  # slli x5, x5, 2
    .word 0x002282b3  # add x5, x5, x2
    .word 0x0c62ae23  # sw x6, 220(x5)
    .word 0x26412283  # lw x5, 612(x2)
    .word 0x04029263  # bne x5, x0, 68
    .word 0x0c012283  # lw x5, 192(x2)
    .word 0x0e512023  # sw x5, 224(x2)
    .word 0x0c412283  # lw x5, 196(x2)
    .word 0x0e512223  # sw x5, 228(x2)
    .word 0x0c812283  # lw x5, 200(x2)
    .word 0x0e512423  # sw x5, 232(x2)
    .word 0x0cc12283  # lw x5, 204(x2)
    .word 0x0e512623  # sw x5, 236(x2)
    .word 0x0d012283  # lw x5, 208(x2)
    .word 0x0e512823  # sw x5, 240(x2)
    .word 0x0d412283  # lw x5, 212(x2)
    .word 0x0e512a23  # sw x5, 244(x2)
    .word 0x0d812283  # lw x5, 216(x2)
    .word 0x0e512c23  # sw x5, 248(x2)
    .word 0x0dc12283  # lw x5, 220(x2)
    .word 0x0e512e23  # sw x5, 252(x2)
    .word 0x26412283  # lw x5, 612(x2)
    .word 0x10100313  # addi x6, x0, 257
    .word 0x2a629863  # bne x5, x6, 688
    .word 0x18012283  # lw x5, 384(x2)
    .word 0x12012303  # lw x6, 288(x2)
    .word 0x00628733  # add x14, x5, x6
    .word 0x18012303  # lw x6, 384(x2)
    .word 0x00673633  # sltu x12, x14, x6
    .word 0x00070813  # addi x16, x14, 0
    .word 0x18412283  # lw x5, 388(x2)
    .word 0x12412303  # lw x6, 292(x2)
    .word 0x00628733  # add x14, x5, x6
    .word 0x00c705b3  # add x11, x14, x12
    .word 0x18412303  # lw x6, 388(x2)
    .word 0x006732b3  # sltu x5, x14, x6
    .word 0x00c5b333  # sltu x6, x11, x12
    .word 0x00628633  # add x12, x5, x6
    .word 0x00058993  # addi x19, x11, 0
    .word 0x18812283  # lw x5, 392(x2)
    .word 0x12812303  # lw x6, 296(x2)
    .word 0x00628733  # add x14, x5, x6
    .word 0x00c705b3  # add x11, x14, x12
    .word 0x18812303  # lw x6, 392(x2)
    .word 0x006732b3  # sltu x5, x14, x6
    .word 0x00c5b333  # sltu x6, x11, x12
    .word 0x00628633  # add x12, x5, x6
    .word 0x00058a13  # addi x20, x11, 0
    .word 0x18c12283  # lw x5, 396(x2)
    .word 0x12c12303  # lw x6, 300(x2)
    .word 0x00628733  # add x14, x5, x6
    .word 0x00c705b3  # add x11, x14, x12
    .word 0x18c12303  # lw x6, 396(x2)
    .word 0x006732b3  # sltu x5, x14, x6
    .word 0x00c5b333  # sltu x6, x11, x12
    .word 0x00628633  # add x12, x5, x6
    .word 0x00058a93  # addi x21, x11, 0
    .word 0x19012283  # lw x5, 400(x2)
    .word 0x13012303  # lw x6, 304(x2)
    .word 0x00628733  # add x14, x5, x6
    .word 0x00c705b3  # add x11, x14, x12
    .word 0x19012303  # lw x6, 400(x2)
    .word 0x006732b3  # sltu x5, x14, x6
    .word 0x00c5b333  # sltu x6, x11, x12
    .word 0x00628633  # add x12, x5, x6
    .word 0x00058b13  # addi x22, x11, 0
    .word 0x19412283  # lw x5, 404(x2)
    .word 0x13412303  # lw x6, 308(x2)
    .word 0x00628733  # add x14, x5, x6
    .word 0x00c705b3  # add x11, x14, x12
    .word 0x19412303  # lw x6, 404(x2)
    .word 0x006732b3  # sltu x5, x14, x6
    .word 0x00c5b333  # sltu x6, x11, x12
    .word 0x00628633  # add x12, x5, x6
    .word 0x00058b93  # addi x23, x11, 0
    .word 0x19812283  # lw x5, 408(x2)
    .word 0x13812303  # lw x6, 312(x2)
    .word 0x00628733  # add x14, x5, x6
    .word 0x00c705b3  # add x11, x14, x12
    .word 0x19812303  # lw x6, 408(x2)
    .word 0x006732b3  # sltu x5, x14, x6
    .word 0x00c5b333  # sltu x6, x11, x12
    .word 0x00628633  # add x12, x5, x6
    .word 0x00058c13  # addi x24, x11, 0
    .word 0x19c12283  # lw x5, 412(x2)
    .word 0x13c12303  # lw x6, 316(x2)
    .word 0x00628733  # add x14, x5, x6
    .word 0x00c705b3  # add x11, x14, x12
    .word 0x19c12303  # lw x6, 412(x2)
    .word 0x006732b3  # sltu x5, x14, x6
    .word 0x00c5b333  # sltu x6, x11, x12
    .word 0x00628633  # add x12, x5, x6
    .word 0x1c012303  # lw x6, 448(x2)
    .word 0x406807b3  # sub x15, x16, x6
    .word 0x00078c93  # addi x25, x15, 0
    .word 0x1c012303  # lw x6, 448(x2)
    .word 0x00683733  # sltu x14, x16, x6
    .word 0x1c412303  # lw x6, 452(x2)
    .word 0x406987b3  # sub x15, x19, x6
    .word 0x40e78d33  # sub x26, x15, x14
    .word 0x1c412303  # lw x6, 452(x2)
    .word 0x0069b2b3  # sltu x5, x19, x6
    .word 0x00e7b333  # sltu x6, x15, x14
    .word 0x00628733  # add x14, x5, x6
    .word 0x1c812303  # lw x6, 456(x2)
    .word 0x406a07b3  # sub x15, x20, x6
    .word 0x40e78db3  # sub x27, x15, x14
    .word 0x1c812303  # lw x6, 456(x2)
    .word 0x006a32b3  # sltu x5, x20, x6
    .word 0x00e7b333  # sltu x6, x15, x14
    .word 0x00628733  # add x14, x5, x6
    .word 0x1cc12303  # lw x6, 460(x2)
    .word 0x406a87b3  # sub x15, x21, x6
    .word 0x40e788b3  # sub x17, x15, x14
    .word 0x1cc12303  # lw x6, 460(x2)
    .word 0x006ab2b3  # sltu x5, x21, x6
    .word 0x00e7b333  # sltu x6, x15, x14
    .word 0x00628733  # add x14, x5, x6
    .word 0x1d012303  # lw x6, 464(x2)
    .word 0x406b07b3  # sub x15, x22, x6
    .word 0x40e782b3  # sub x5, x15, x14
    .word 0x28512c23  # sw x5, 664(x2)
    .word 0x1d012303  # lw x6, 464(x2)
    .word 0x006b32b3  # sltu x5, x22, x6
    .word 0x00e7b333  # sltu x6, x15, x14
    .word 0x00628733  # add x14, x5, x6
    .word 0x1d412303  # lw x6, 468(x2)
    .word 0x406b87b3  # sub x15, x23, x6
    .word 0x40e782b3  # sub x5, x15, x14
    .word 0x28512e23  # sw x5, 668(x2)
    .word 0x1d412303  # lw x6, 468(x2)
    .word 0x006bb2b3  # sltu x5, x23, x6
    .word 0x00e7b333  # sltu x6, x15, x14
    .word 0x00628733  # add x14, x5, x6
    .word 0x1d812303  # lw x6, 472(x2)
    .word 0x406c07b3  # sub x15, x24, x6
    .word 0x40e782b3  # sub x5, x15, x14
    .word 0x2a512023  # sw x5, 672(x2)
    .word 0x1d812303  # lw x6, 472(x2)
    .word 0x006c32b3  # sltu x5, x24, x6
    .word 0x00e7b333  # sltu x6, x15, x14
    .word 0x00628733  # add x14, x5, x6
    .word 0x1dc12303  # lw x6, 476(x2)
    .word 0x406587b3  # sub x15, x11, x6
    .word 0x40e782b3  # sub x5, x15, x14
    .word 0x2a512223  # sw x5, 676(x2)
    .word 0x1dc12303  # lw x6, 476(x2)
    .word 0x0065b2b3  # sltu x5, x11, x6
    .word 0x00e7b333  # sltu x6, x15, x14
    .word 0x00628733  # add x14, x5, x6
    .word 0x00e63933  # sltu x18, x12, x14
    .word 0x412002b3  # sub x5, x0, x18
    .word 0x01984333  # xor x6, x16, x25
    .word 0x00537333  # and x6, x6, x5
    .word 0x006cc2b3  # xor x5, x25, x6
    .word 0x18512023  # sw x5, 384(x2)
    .word 0x412002b3  # sub x5, x0, x18
    .word 0x01a9c333  # xor x6, x19, x26
    .word 0x00537333  # and x6, x6, x5
    .word 0x006d42b3  # xor x5, x26, x6
    .word 0x18512223  # sw x5, 388(x2)
    .word 0x412002b3  # sub x5, x0, x18
    .word 0x01ba4333  # xor x6, x20, x27
    .word 0x00537333  # and x6, x6, x5
    .word 0x006dc2b3  # xor x5, x27, x6
    .word 0x18512423  # sw x5, 392(x2)
    .word 0x412002b3  # sub x5, x0, x18
    .word 0x011ac333  # xor x6, x21, x17
    .word 0x00537333  # and x6, x6, x5
    .word 0x0068c2b3  # xor x5, x17, x6
    .word 0x18512623  # sw x5, 396(x2)
    .word 0x29812383  # lw x7, 664(x2)
    .word 0x412002b3  # sub x5, x0, x18
    .word 0x007b4333  # xor x6, x22, x7
    .word 0x00537333  # and x6, x6, x5
    .word 0x0063c2b3  # xor x5, x7, x6
    .word 0x18512823  # sw x5, 400(x2)
    .word 0x29c12383  # lw x7, 668(x2)
    .word 0x412002b3  # sub x5, x0, x18
    .word 0x007bc333  # xor x6, x23, x7
    .word 0x00537333  # and x6, x6, x5
    .word 0x0063c2b3  # xor x5, x7, x6
    .word 0x18512a23  # sw x5, 404(x2)
    .word 0x2a012383  # lw x7, 672(x2)
    .word 0x412002b3  # sub x5, x0, x18
    .word 0x007c4333  # xor x6, x24, x7
    .word 0x00537333  # and x6, x6, x5
    .word 0x0063c2b3  # xor x5, x7, x6
    .word 0x18512c23  # sw x5, 408(x2)
    .word 0x2a412383  # lw x7, 676(x2)
    .word 0x412002b3  # sub x5, x0, x18
    .word 0x0075c333  # xor x6, x11, x7
    .word 0x00537333  # and x6, x6, x5
    .word 0x0063c2b3  # xor x5, x7, x6
    .word 0x18512e23  # sw x5, 412(x2)
    .word 0x950ff06f  # jal x0, -3760
    .word 0x14012603  # lw x12, 320(x2)
    .word 0x18012703  # lw x14, 384(x2)
    .word 0x14412303  # lw x6, 324(x2)
    .word 0x00666633  # or x12, x12, x6
    .word 0x18412303  # lw x6, 388(x2)
    .word 0x00676733  # or x14, x14, x6
    .word 0x14812303  # lw x6, 328(x2)
    .word 0x00666633  # or x12, x12, x6
    .word 0x18812303  # lw x6, 392(x2)
    .word 0x00676733  # or x14, x14, x6
    .word 0x14c12303  # lw x6, 332(x2)
    .word 0x00666633  # or x12, x12, x6
    .word 0x18c12303  # lw x6, 396(x2)
    .word 0x00676733  # or x14, x14, x6
    .word 0x15012303  # lw x6, 336(x2)
    .word 0x00666633  # or x12, x12, x6
    .word 0x19012303  # lw x6, 400(x2)
    .word 0x00676733  # or x14, x14, x6
    .word 0x15412303  # lw x6, 340(x2)
    .word 0x00666633  # or x12, x12, x6
    .word 0x19412303  # lw x6, 404(x2)
    .word 0x00676733  # or x14, x14, x6
    .word 0x15812303  # lw x6, 344(x2)
    .word 0x00666633  # or x12, x12, x6
    .word 0x19812303  # lw x6, 408(x2)
    .word 0x00676733  # or x14, x14, x6
    .word 0x15c12303  # lw x6, 348(x2)
    .word 0x00666633  # or x12, x12, x6
    .word 0x19c12303  # lw x6, 412(x2)
    .word 0x00676733  # or x14, x14, x6
    .word 0x26012283  # lw x5, 608(x2)
    .word 0x00c03333  # sltu x6, x0, x12
    .word 0x0062f2b3  # and x5, x5, x6
    .word 0x00e03333  # sltu x6, x0, x14
    .word 0x0062f2b3  # and x5, x5, x6
    .word 0x26512023  # sw x5, 608(x2)
    .word 0x2a012a23  # sw x0, 692(x2)
    .word 0x00800293  # addi x5, x0, 8
    .word 0x2a512c23  # sw x5, 696(x2)
    .word 0x2b412303  # lw x6, 692(x2)
    .word 0x2b812283  # lw x5, 696(x2)
    .word 0x005332b3  # sltu x5, x6, x5
    .word 0x00029463  # bne x5, x0, 8
    .word 0x1bc0006f  # jal x0, 444
    .word 0x26612223  # sw x6, 612(x2)
    .word 0x00130313  # addi x6, x6, 1
    .word 0x2a612a23  # sw x6, 692(x2)
    .word 0x26412283  # lw x5, 612(x2)
    .word 0x0072f513  # andi x10, x5, 7
    .word 0x00251493  # slli x9, x10, 2
    .word 0x002484b3  # add x9, x9, x2
    .word 0x01f00293  # addi x5, x0, 31
    .word 0x00251313  # slli x6, x10, 2
    .word 0x406282b3  # sub x5, x5, x6
    .word 0x26012303  # lw x6, 608(x2)
    .word 0x02050393  # addi x7, x10, 32
    .word 0x00239393  # slli x7, x7, 2
    .word 0x002383b3  # add x7, x7, x2
    .word 0x0c03a383  # lw x7, 192(x7)
    .word 0x40600333  # sub x6, x0, x6
    .word 0x0063f333  # and x6, x7, x6
    .word 0x002282b3  # add x5, x5, x2
    .word 0x08628023  # sb x6, 128(x5)
    .word 0x03f00293  # addi x5, x0, 63
    .word 0x00251313  # slli x6, x10, 2
    .word 0x406282b3  # sub x5, x5, x6
    .word 0x26012303  # lw x6, 608(x2)
    .word 0x03050393  # addi x7, x10, 48
    .word 0x00239393  # slli x7, x7, 2
    .word 0x002383b3  # add x7, x7, x2
    .word 0x0c03a383  # lw x7, 192(x7)
    .word 0x40600333  # sub x6, x0, x6
    .word 0x0063f333  # and x6, x7, x6
    .word 0x002282b3  # add x5, x5, x2
    .word 0x08628023  # sb x6, 128(x5)
    .word 0x01f00293  # addi x5, x0, 31
    .word 0x00251313  # slli x6, x10, 2
    .word 0x406282b3  # sub x5, x5, x6
    .word 0x26012303  # lw x6, 608(x2)
    .word 0x02050393  # addi x7, x10, 32
    .word 0x00239393  # slli x7, x7, 2
    .word 0x002383b3  # add x7, x7, x2
    .word 0x0c03a383  # lw x7, 192(x7)
    .word 0x40600333  # sub x6, x0, x6
    .word 0x0063f333  # and x6, x7, x6
    .word 0x00835313  # srli x6, x6, 8
    .word 0x002282b3  # add x5, x5, x2
    .word 0x06628fa3  # sb x6, 127(x5)
    .word 0x03f00293  # addi x5, x0, 63
    .word 0x00251313  # slli x6, x10, 2
    .word 0x406282b3  # sub x5, x5, x6
    .word 0x26012303  # lw x6, 608(x2)
    .word 0x03050393  # addi x7, x10, 48
    .word 0x00239393  # slli x7, x7, 2
    .word 0x002383b3  # add x7, x7, x2
    .word 0x0c03a383  # lw x7, 192(x7)
    .word 0x40600333  # sub x6, x0, x6
    .word 0x0063f333  # and x6, x7, x6
    .word 0x00835313  # srli x6, x6, 8
    .word 0x002282b3  # add x5, x5, x2
    .word 0x06628fa3  # sb x6, 127(x5)
    .word 0x01f00293  # addi x5, x0, 31
    .word 0x00251313  # slli x6, x10, 2
    .word 0x406282b3  # sub x5, x5, x6
    .word 0x26012303  # lw x6, 608(x2)
    .word 0x02050393  # addi x7, x10, 32
    .word 0x00239393  # slli x7, x7, 2
    .word 0x002383b3  # add x7, x7, x2
    .word 0x0c03a383  # lw x7, 192(x7)
    .word 0x40600333  # sub x6, x0, x6
    .word 0x0063f333  # and x6, x7, x6
    .word 0x01035313  # srli x6, x6, 16
    .word 0x002282b3  # add x5, x5, x2
    .word 0x06628f23  # sb x6, 126(x5)
    .word 0x03f00293  # addi x5, x0, 63
    .word 0x00251313  # slli x6, x10, 2
    .word 0x406282b3  # sub x5, x5, x6
    .word 0x26012303  # lw x6, 608(x2)
    .word 0x03050393  # addi x7, x10, 48
    .word 0x00239393  # slli x7, x7, 2
    .word 0x002383b3  # add x7, x7, x2
    .word 0x0c03a383  # lw x7, 192(x7)
    .word 0x40600333  # sub x6, x0, x6
    .word 0x0063f333  # and x6, x7, x6
    .word 0x01035313  # srli x6, x6, 16
    .word 0x002282b3  # add x5, x5, x2
    .word 0x06628f23  # sb x6, 126(x5)
    .word 0x01f00293  # addi x5, x0, 31
    .word 0x00251313  # slli x6, x10, 2
    .word 0x406282b3  # sub x5, x5, x6
    .word 0x26012303  # lw x6, 608(x2)
    .word 0x02050393  # addi x7, x10, 32
    .word 0x00239393  # slli x7, x7, 2
    .word 0x002383b3  # add x7, x7, x2
    .word 0x0c03a383  # lw x7, 192(x7)
    .word 0x40600333  # sub x6, x0, x6
    .word 0x0063f333  # and x6, x7, x6
    .word 0x01835313  # srli x6, x6, 24
    .word 0x002282b3  # add x5, x5, x2
    .word 0x06628ea3  # sb x6, 125(x5)
    .word 0x03f00293  # addi x5, x0, 63
    .word 0x00251313  # slli x6, x10, 2
    .word 0x406282b3  # sub x5, x5, x6
    .word 0x26012303  # lw x6, 608(x2)
    .word 0x03050393  # addi x7, x10, 48
    .word 0x00239393  # slli x7, x7, 2
    .word 0x002383b3  # add x7, x7, x2
    .word 0x0c03a383  # lw x7, 192(x7)
    .word 0x40600333  # sub x6, x0, x6
    .word 0x0063f333  # and x6, x7, x6
    .word 0x01835313  # srli x6, x6, 24
    .word 0x002282b3  # add x5, x5, x2
    .word 0x06628ea3  # sb x6, 125(x5)
    .word 0xe39ff06f  # jal x0, -456
    .word 0x26012283  # lw x5, 608(x2)
    .word 0x2a512823  # sw x5, 688(x2)
    # the result
    .word 0x2b012503  # lw x10, 688(x2)
    # parameter 4: the array, back
    .word 0x08010293  # addi x5, x2, 128
    .word 0x31c12303  # lw x6, 796(x2)
    .word 0x04028393  # addi x7, x5, 64
    .word 0x09000f6f  # jal x30, 144
    # above the frame
    .word 0x2d010293  # addi x5, x2, 720
    # the caller's registers
    .word 0x0002a403  # lw x8, 0(x5)
    .cfi_restore 8
    .word 0x0042a483  # lw x9, 4(x5)
    .cfi_restore 9
    .word 0x0082a903  # lw x18, 8(x5)
    .cfi_restore 18
    .word 0x00c2a983  # lw x19, 12(x5)
    .cfi_restore 19
    .word 0x0102aa03  # lw x20, 16(x5)
    .cfi_restore 20
    .word 0x0142aa83  # lw x21, 20(x5)
    .cfi_restore 21
    .word 0x0182ab03  # lw x22, 24(x5)
    .cfi_restore 22
    .word 0x01c2ab83  # lw x23, 28(x5)
    .cfi_restore 23
    .word 0x0202ac03  # lw x24, 32(x5)
    .cfi_restore 24
    .word 0x0242ac83  # lw x25, 36(x5)
    .cfi_restore 25
    .word 0x0282ad03  # lw x26, 40(x5)
    .cfi_restore 26
    .word 0x02c2ad83  # lw x27, 44(x5)
    .cfi_restore 27
    # the caller's x2
    .word 0x05028293  # addi x5, x5, 80
    .cfi_def_cfa 5, 0
    # all the room, wiped upward
    .word 0x00012023  # sw x0, 0(x2)
    .word 0x00012223  # sw x0, 4(x2)
    .word 0x00012423  # sw x0, 8(x2)
    .word 0x00012623  # sw x0, 12(x2)
    .word 0x01010113  # addi x2, x2, 16
    .word 0xfe5116e3  # bne x2, x5, -20
    .cfi_def_cfa 2, 0
    # temporaries, wiped
    .word 0x00000293  # addi x5, x0, 0
    .word 0x00000313  # addi x6, x0, 0
    .word 0x00000393  # addi x7, x0, 0
    .word 0x00000593  # addi x11, x0, 0
    .word 0x00000613  # addi x12, x0, 0
    .word 0x00000693  # addi x13, x0, 0
    .word 0x00000713  # addi x14, x0, 0
    .word 0x00000793  # addi x15, x0, 0
    .word 0x00000813  # addi x16, x0, 0
    .word 0x00000893  # addi x17, x0, 0
    .word 0x00000e13  # addi x28, x0, 0
    .word 0x00000e93  # addi x29, x0, 0
    .word 0x00000f13  # addi x30, x0, 0
    .word 0x00000f93  # addi x31, x0, 0
    # back
    .word 0x00008067  # jalr x0, 0(x1)
    # from x5 to x6 up to x7, and back
    .cfi_def_cfa 2, 800
    .cfi_offset 8, -80
    .cfi_offset 9, -76
    .cfi_offset 18, -72
    .cfi_offset 19, -68
    .cfi_offset 20, -64
    .cfi_offset 21, -60
    .cfi_offset 22, -56
    .cfi_offset 23, -52
    .cfi_offset 24, -48
    .cfi_offset 25, -44
    .cfi_offset 26, -40
    .cfi_offset 27, -36
    .word 0x0062ee33  # or x28, x5, x6
    .word 0x003e7e13  # andi x28, x28, 3
    .word 0x000e0e63  # beq x28, x0, 28
    .word 0x0002ce03  # lbu x28, 0(x5)
    .word 0x01c30023  # sb x28, 0(x6)
    .word 0x00128293  # addi x5, x5, 1
    .word 0x00130313  # addi x6, x6, 1
    .word 0xfe7298e3  # bne x5, x7, -16
    .word 0x0300006f  # jal x0, 48
    .word 0x0002ae03  # lw x28, 0(x5)
    .word 0x01c32023  # sw x28, 0(x6)
    .word 0x0042ae03  # lw x28, 4(x5)
    .word 0x01c32223  # sw x28, 4(x6)
    .word 0x0082ae03  # lw x28, 8(x5)
    .word 0x01c32423  # sw x28, 8(x6)
    .word 0x00c2ae03  # lw x28, 12(x5)
    .word 0x01c32623  # sw x28, 12(x6)
    .word 0x01028293  # addi x5, x5, 16
    .word 0x01030313  # addi x6, x6, 16
    .word 0xfc729ce3  # bne x5, x7, -40
    .word 0x000f0067  # jalr x0, 0(x30)
    .cfi_endproc
    .size p256_sign, . - p256_sign
    .option pop
