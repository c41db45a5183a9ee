# p256_verify_scalars: made by factc 1.0.0 function; 1554 words, 688 bytes of stack, profile 1
    .option push
    .option norvc
    .option norelax
    .cfi_sections .debug_frame
    .section .text.p256_verify_scalars, "ax", @progbits
    .p2align 2
    .globl p256_verify_scalars
    .type p256_verify_scalars, @function
p256_verify_scalars:
    .cfi_startproc
    # room above the frame
    .word 0xfc010113  # addi x2, x2, -64
    .cfi_def_cfa_offset 64
    # the caller's registers
    .word 0x00812023  # sw x8, 0(x2)
    .cfi_offset 8, -64
    .word 0x00912223  # sw x9, 4(x2)
    .cfi_offset 9, -60
    .word 0x01212423  # sw x18, 8(x2)
    .cfi_offset 18, -56
    .word 0x01312623  # sw x19, 12(x2)
    .cfi_offset 19, -52
    .word 0x01412823  # sw x20, 16(x2)
    .cfi_offset 20, -48
    .word 0x01512a23  # sw x21, 20(x2)
    .cfi_offset 21, -44
    .word 0x01612c23  # sw x22, 24(x2)
    .cfi_offset 22, -40
    .word 0x01712e23  # sw x23, 28(x2)
    .cfi_offset 23, -36
    .word 0x03812023  # sw x24, 32(x2)
    .cfi_offset 24, -32
    .word 0x03912223  # sw x25, 36(x2)
    .cfi_offset 25, -28
    .word 0x03a12423  # sw x26, 40(x2)
    .cfi_offset 26, -24
    .word 0x03b12623  # sw x27, 44(x2)
    .cfi_offset 27, -20
    # arguments that are needed behind the body
    .word 0x02a12a23  # sw x10, 52(x2)
    .word 0x02b12c23  # sw x11, 56(x2)
    .word 0x02c12e23  # sw x12, 60(x2)
    # the frame's base
    .word 0xd9010113  # addi x2, x2, -624
    .cfi_def_cfa 2, 688
    # the frame's word at 512, zeroed
    .word 0x20012023  # sw x0, 512(x2)
    # the frame's word at 524, zeroed
    .word 0x20012623  # sw x0, 524(x2)
    # parameter 0: an array
    .word 0x00050293  # addi x5, x10, 0
    .word 0x00010313  # addi x6, x2, 0
    .word 0x04028393  # addi x7, x5, 64
    .word 0x79c01f6f  # jal x30, 6044
    # parameter 1: an array
    .word 0x00058293  # addi x5, x11, 0
    .word 0x04010313  # addi x6, x2, 64
    .word 0x02028393  # addi x7, x5, 32
    .word 0x78c01f6f  # jal x30, 6028
    # parameter 2: an array
    .word 0x00060293  # addi x5, x12, 0
    .word 0x06010313  # addi x6, x2, 96
    .word 0x04028393  # addi x7, x5, 64
    .word 0x77c01f6f  # jal x30, 6012
    # the body
    .word 0xfc6322b7  # lui x5, 0xfc632
    .word 0x54f28293  # addi x5, x5, 1359
    .word 0x24512423  # sw x5, 584(x2)
    .word 0xee00c2b7  # lui x5, 0xee00c
    .word 0xc4f28293  # addi x5, x5, -945
    .word 0x24512623  # sw x5, 588(x2)
    .word 0x0a000313  # addi x6, x0, 160
    .word 0x00230333  # add x6, x6, x2
    .word 0x10000393  # addi x7, x0, 256
    .word 0x006383b3  # add x7, x7, x6
    .word 0x406382b3  # sub x5, x7, x6
    .word 0x00029463  # bne x5, x0, 8
    .word 0x0100006f  # jal x0, 16
    .word 0x00032023  # sw x0, 0(x6)
    .word 0x00430313  # addi x6, x6, 4
    .word 0xfedff06f  # jal x0, -20
    .word 0xfc6322b7  # lui x5, 0xfc632
    .word 0x55128293  # addi x5, x5, 1361
    .word 0x1a512023  # sw x5, 416(x2)
    .word 0xf3b9d2b7  # lui x5, 0xf3b9d
    .word 0xac228293  # addi x5, x5, -1342
    .word 0x1a512223  # sw x5, 420(x2)
    .word 0xa717a2b7  # lui x5, 0xa717a
    .word 0xe8428293  # addi x5, x5, -380
    .word 0x1a512423  # sw x5, 424(x2)
    .word 0xbce702b7  # lui x5, 0xbce70
    .word 0xaad28293  # addi x5, x5, -1363
    .word 0x1a512623  # sw x5, 428(x2)
    .word 0x000002b7  # lui x5, 0x00000
    .word 0xfff28293  # addi x5, x5, -1
    .word 0x1a512823  # sw x5, 432(x2)
    .word 0x000002b7  # lui x5, 0x00000
    .word 0xfff28293  # addi x5, x5, -1
    .word 0x1a512a23  # sw x5, 436(x2)
    .word 0x1a012c23  # sw x0, 440(x2)
    .word 0x000002b7  # lui x5, 0x00000
    .word 0xfff28293  # addi x5, x5, -1
    .word 0x1a512e23  # sw x5, 444(x2)
    .word 0x1c000313  # addi x6, x0, 448
    .word 0x00230333  # add x6, x6, x2
    .word 0x04000393  # addi x7, x0, 64
    .word 0x006383b3  # add x7, x7, x6
    .word 0x406382b3  # sub x5, x7, x6
    .word 0x00029463  # bne x5, x0, 8
    .word 0x0100006f  # jal x0, 16
    .word 0x00032023  # sw x0, 0(x6)
    .word 0x00430313  # addi x6, x6, 4
    .word 0xfedff06f  # jal x0, -20
    .word 0x04014283  # lbu x5, 64(x2)
    .word 0x1c510023  # sb x5, 448(x2)
    .word 0x00014283  # lbu x5, 0(x2)
    .word 0x1e510023  # sb x5, 480(x2)
    .word 0x04114283  # lbu x5, 65(x2)
    .word 0x1c5100a3  # sb x5, 449(x2)
    .word 0x00114283  # lbu x5, 1(x2)
    .word 0x1e5100a3  # sb x5, 481(x2)
    .word 0x04214283  # lbu x5, 66(x2)
    .word 0x1c510123  # sb x5, 450(x2)
    .word 0x00214283  # lbu x5, 2(x2)
    .word 0x1e510123  # sb x5, 482(x2)
    .word 0x04314283  # lbu x5, 67(x2)
    .word 0x1c5101a3  # sb x5, 451(x2)
    .word 0x00314283  # lbu x5, 3(x2)
    .word 0x1e5101a3  # sb x5, 483(x2)
    .word 0x04414283  # lbu x5, 68(x2)
    .word 0x1c510223  # sb x5, 452(x2)
    .word 0x00414283  # lbu x5, 4(x2)
    .word 0x1e510223  # sb x5, 484(x2)
    .word 0x04514283  # lbu x5, 69(x2)
    .word 0x1c5102a3  # sb x5, 453(x2)
    .word 0x00514283  # lbu x5, 5(x2)
    .word 0x1e5102a3  # sb x5, 485(x2)
    .word 0x04614283  # lbu x5, 70(x2)
    .word 0x1c510323  # sb x5, 454(x2)
    .word 0x00614283  # lbu x5, 6(x2)
    .word 0x1e510323  # sb x5, 486(x2)
    .word 0x04714283  # lbu x5, 71(x2)
    .word 0x1c5103a3  # sb x5, 455(x2)
    .word 0x00714283  # lbu x5, 7(x2)
    .word 0x1e5103a3  # sb x5, 487(x2)
    .word 0x04814283  # lbu x5, 72(x2)
    .word 0x1c510423  # sb x5, 456(x2)
    .word 0x00814283  # lbu x5, 8(x2)
    .word 0x1e510423  # sb x5, 488(x2)
    .word 0x04914283  # lbu x5, 73(x2)
    .word 0x1c5104a3  # sb x5, 457(x2)
    .word 0x00914283  # lbu x5, 9(x2)
    .word 0x1e5104a3  # sb x5, 489(x2)
    .word 0x04a14283  # lbu x5, 74(x2)
    .word 0x1c510523  # sb x5, 458(x2)
    .word 0x00a14283  # lbu x5, 10(x2)
    .word 0x1e510523  # sb x5, 490(x2)
    .word 0x04b14283  # lbu x5, 75(x2)
    .word 0x1c5105a3  # sb x5, 459(x2)
    .word 0x00b14283  # lbu x5, 11(x2)
    .word 0x1e5105a3  # sb x5, 491(x2)
    .word 0x04c14283  # lbu x5, 76(x2)
    .word 0x1c510623  # sb x5, 460(x2)
    .word 0x00c14283  # lbu x5, 12(x2)
    .word 0x1e510623  # sb x5, 492(x2)
    .word 0x04d14283  # lbu x5, 77(x2)
    .word 0x1c5106a3  # sb x5, 461(x2)
    .word 0x00d14283  # lbu x5, 13(x2)
    .word 0x1e5106a3  # sb x5, 493(x2)
    .word 0x04e14283  # lbu x5, 78(x2)
    .word 0x1c510723  # sb x5, 462(x2)
    .word 0x00e14283  # lbu x5, 14(x2)
    .word 0x1e510723  # sb x5, 494(x2)
    .word 0x04f14283  # lbu x5, 79(x2)
    .word 0x1c5107a3  # sb x5, 463(x2)
    .word 0x00f14283  # lbu x5, 15(x2)
    .word 0x1e5107a3  # sb x5, 495(x2)
    .word 0x05014283  # lbu x5, 80(x2)
    .word 0x1c510823  # sb x5, 464(x2)
    .word 0x01014283  # lbu x5, 16(x2)
    .word 0x1e510823  # sb x5, 496(x2)
    .word 0x05114283  # lbu x5, 81(x2)
    .word 0x1c5108a3  # sb x5, 465(x2)
    .word 0x01114283  # lbu x5, 17(x2)
    .word 0x1e5108a3  # sb x5, 497(x2)
    .word 0x05214283  # lbu x5, 82(x2)
    .word 0x1c510923  # sb x5, 466(x2)
    .word 0x01214283  # lbu x5, 18(x2)
    .word 0x1e510923  # sb x5, 498(x2)
    .word 0x05314283  # lbu x5, 83(x2)
    .word 0x1c5109a3  # sb x5, 467(x2)
    .word 0x01314283  # lbu x5, 19(x2)
    .word 0x1e5109a3  # sb x5, 499(x2)
    .word 0x05414283  # lbu x5, 84(x2)
    .word 0x1c510a23  # sb x5, 468(x2)
    .word 0x01414283  # lbu x5, 20(x2)
    .word 0x1e510a23  # sb x5, 500(x2)
    .word 0x05514283  # lbu x5, 85(x2)
    .word 0x1c510aa3  # sb x5, 469(x2)
    .word 0x01514283  # lbu x5, 21(x2)
    .word 0x1e510aa3  # sb x5, 501(x2)
    .word 0x05614283  # lbu x5, 86(x2)
    .word 0x1c510b23  # sb x5, 470(x2)
    .word 0x01614283  # lbu x5, 22(x2)
    .word 0x1e510b23  # sb x5, 502(x2)
    .word 0x05714283  # lbu x5, 87(x2)
    .word 0x1c510ba3  # sb x5, 471(x2)
    .word 0x01714283  # lbu x5, 23(x2)
    .word 0x1e510ba3  # sb x5, 503(x2)
    .word 0x05814283  # lbu x5, 88(x2)
    .word 0x1c510c23  # sb x5, 472(x2)
    .word 0x01814283  # lbu x5, 24(x2)
    .word 0x1e510c23  # sb x5, 504(x2)
    .word 0x05914283  # lbu x5, 89(x2)
    .word 0x1c510ca3  # sb x5, 473(x2)
    .word 0x01914283  # lbu x5, 25(x2)
    .word 0x1e510ca3  # sb x5, 505(x2)
    .word 0x05a14283  # lbu x5, 90(x2)
    .word 0x1c510d23  # sb x5, 474(x2)
    .word 0x01a14283  # lbu x5, 26(x2)
    .word 0x1e510d23  # sb x5, 506(x2)
    .word 0x05b14283  # lbu x5, 91(x2)
    .word 0x1c510da3  # sb x5, 475(x2)
    .word 0x01b14283  # lbu x5, 27(x2)
    .word 0x1e510da3  # sb x5, 507(x2)
    .word 0x05c14283  # lbu x5, 92(x2)
    .word 0x1c510e23  # sb x5, 476(x2)
    .word 0x01c14283  # lbu x5, 28(x2)
    .word 0x1e510e23  # sb x5, 508(x2)
    .word 0x05d14283  # lbu x5, 93(x2)
    .word 0x1c510ea3  # sb x5, 477(x2)
    .word 0x01d14283  # lbu x5, 29(x2)
    .word 0x1e510ea3  # sb x5, 509(x2)
    .word 0x05e14283  # lbu x5, 94(x2)
    .word 0x1c510f23  # sb x5, 478(x2)
    .word 0x01e14283  # lbu x5, 30(x2)
    .word 0x1e510f23  # sb x5, 510(x2)
    .word 0x05f14283  # lbu x5, 95(x2)
    .word 0x1c510fa3  # sb x5, 479(x2)
    .word 0x01f14283  # lbu x5, 31(x2)
    .word 0x1e510fa3  # sb x5, 511(x2)
    .word 0xbe79f2b7  # lui x5, 0xbe79f
    .word 0xea228293  # addi x5, x5, -350
    .word 0x14512023  # sw x5, 320(x2)
    .word 0x832452b7  # lui x5, 0x83245
    .word 0xc9528293  # addi x5, x5, -875
    .word 0x14512223  # sw x5, 324(x2)
    .word 0x49bd72b7  # lui x5, 0x49bd7
    .word 0xfa628293  # addi x5, x5, -90
    .word 0x14512423  # sw x5, 328(x2)
    .word 0x469982b7  # lui x5, 0x46998
    .word 0x99c28293  # addi x5, x5, -1636
    .word 0x14512623  # sw x5, 332(x2)
    .word 0x2b6bf2b7  # lui x5, 0x2b6bf
    .word 0xc5928293  # addi x5, x5, -935
    .word 0x14512823  # sw x5, 336(x2)
    .word 0x2845b2b7  # lui x5, 0x2845b
    .word 0x23928293  # addi x5, x5, 569
    .word 0x14512a23  # sw x5, 340(x2)
    .word 0xf3d952b7  # lui x5, 0xf3d95
    .word 0x62028293  # addi x5, x5, 1568
    .word 0x14512c23  # sw x5, 344(x2)
    .word 0x66e132b7  # lui x5, 0x66e13
    .word 0xd9428293  # addi x5, x5, -620
    .word 0x14512e23  # sw x5, 348(x2)
    .word 0x00000713  # addi x14, x0, 0
    .word 0x00000593  # addi x11, x0, 0
    .word 0x24012a23  # sw x0, 596(x2)
    .word 0x00800293  # addi x5, x0, 8
    .word 0x24512c23  # sw x5, 600(x2)
    .word 0x25412303  # lw x6, 596(x2)
    .word 0x25812283  # lw x5, 600(x2)
    .word 0x005332b3  # sltu x5, x6, x5
    .word 0x00029463  # bne x5, x0, 8
    .word 0x0880006f  # jal x0, 136
    .word 0x20612223  # sw x6, 516(x2)
    .word 0x00130313  # addi x6, x6, 1
    .word 0x24612a23  # sw x6, 596(x2)
    .word 0x20412283  # lw x5, 516(x2)
    .word 0x0072f513  # andi x10, x5, 7
    .word 0x00251493  # slli x9, x10, 2
    .word 0x002484b3  # add x9, x9, x2
    .word 0x03c00293  # addi x5, x0, 60
    .word 0x00251313  # slli x6, x10, 2
    .word 0x406286b3  # sub x13, x5, x6
    .word 0x002682b3  # add x5, x13, x2
    .word 0x0002c283  # lbu x5, 0(x5)
    .word 0x01829293  # slli x5, x5, 24
    .word 0x00268333  # add x6, x13, x2
    .word 0x00134303  # lbu x6, 1(x6)
    .word 0x01031313  # slli x6, x6, 16
    .word 0x0062e633  # or x12, x5, x6
    .word 0x00268333  # add x6, x13, x2
    .word 0x00234303  # lbu x6, 2(x6)
    .word 0x00831313  # slli x6, x6, 8
    .word 0x006662b3  # or x5, x12, x6
    .word 0x00268333  # add x6, x13, x2
    .word 0x00334303  # lbu x6, 3(x6)
    .word 0x0062e633  # or x12, x5, x6
    .word 0x1a04a303  # lw x6, 416(x9)
    .word 0x006632b3  # sltu x5, x12, x6
    .word 0x1a04a383  # lw x7, 416(x9)
    .word 0x40760333  # sub x6, x12, x7
    .word 0x00e33333  # sltu x6, x6, x14
    .word 0x00628733  # add x14, x5, x6
    .word 0x00c5e5b3  # or x11, x11, x12
    .word 0x0ac4a023  # sw x12, 160(x9)
    .word 0xf6dff06f  # jal x0, -148
    .word 0xfff70293  # addi x5, x14, -1
    .word 0x0012b293  # sltiu x5, x5, 1
    .word 0x00b03333  # sltu x6, x0, x11
    .word 0x0062f2b3  # and x5, x5, x6
    .word 0x20512023  # sw x5, 512(x2)
    .word 0x24012a23  # sw x0, 596(x2)
    .word 0x00200293  # addi x5, x0, 2
    .word 0x24512c23  # sw x5, 600(x2)
    .word 0x25412303  # lw x6, 596(x2)
    .word 0x25812283  # lw x5, 600(x2)
    .word 0x005332b3  # sltu x5, x6, x5
    .word 0x00029463  # bne x5, x0, 8
    .word 0x5b40006f  # jal x0, 1460
    .word 0x20612223  # sw x6, 516(x2)
    .word 0x00130313  # addi x6, x6, 1
    .word 0x24612a23  # sw x6, 596(x2)
    .word 0x20412283  # lw x5, 516(x2)
    .word 0x0012f293  # andi x5, x5, 1
    .word 0x20512a23  # sw x5, 532(x2)
    .word 0x21412283  # lw x5, 532(x2)
    .word 0x00329293  # slli x5, x5, 3
    .word 0x01028693  # addi x13, x5, 16
    .word 0x21412283  # lw x5, 532(x2)
    .word 0x00529293  # slli x5, x5, 5
    .word 0x20512823  # sw x5, 528(x2)
    .word 0x21012283  # lw x5, 528(x2)
    .word 0x01c28513  # addi x10, x5, 28
    .word 0x00251493  # slli x9, x10, 2
    .word 0x002484b3  # add x9, x9, x2
    .word 0x002502b3  # add x5, x10, x2
    .word 0x1c02c283  # lbu x5, 448(x5)
    .word 0x01829293  # slli x5, x5, 24
    .word 0x00250333  # add x6, x10, x2
    .word 0x1c134303  # lbu x6, 449(x6)
    .word 0x01031313  # slli x6, x6, 16
    .word 0x0062e633  # or x12, x5, x6
    .word 0x00250333  # add x6, x10, x2
    .word 0x1c234303  # lbu x6, 450(x6)
    .word 0x00831313  # slli x6, x6, 8
    .word 0x006662b3  # or x5, x12, x6
    .word 0x00250333  # add x6, x10, x2
    .word 0x1c334303  # lbu x6, 451(x6)
    .word 0x0062e633  # or x12, x5, x6
    .word 0x1a012303  # lw x6, 416(x2)
    .word 0x00663733  # sltu x14, x12, x6
    .word 0x00060593  # addi x11, x12, 0
    .word 0x00269293  # slli x5, x13, 2
    .word 0x002282b3  # add x5, x5, x2
    .word 0x0ac2a023  # sw x12, 160(x5)
    .word 0x21012283  # lw x5, 528(x2)
    .word 0x01c28293  # addi x5, x5, 28
    .word 0xffc28513  # addi x10, x5, -4
    .word 0x00251493  # slli x9, x10, 2
    .word 0x002484b3  # add x9, x9, x2
    .word 0x002502b3  # add x5, x10, x2
    .word 0x1c02c283  # lbu x5, 448(x5)
    .word 0x01829293  # slli x5, x5, 24
    .word 0x00250333  # add x6, x10, x2
    .word 0x1c134303  # lbu x6, 449(x6)
    .word 0x01031313  # slli x6, x6, 16
    .word 0x0062e633  # or x12, x5, x6
    .word 0x00250333  # add x6, x10, x2
    .word 0x1c234303  # lbu x6, 450(x6)
    .word 0x00831313  # slli x6, x6, 8
    .word 0x006662b3  # or x5, x12, x6
    .word 0x00250333  # add x6, x10, x2
    .word 0x1c334303  # lbu x6, 451(x6)
    .word 0x0062e633  # or x12, x5, x6
    .word 0x1a412303  # lw x6, 420(x2)
    .word 0x006632b3  # sltu x5, x12, x6
    .word 0x1a412383  # lw x7, 420(x2)
    .word 0x40760333  # sub x6, x12, x7
    .word 0x00e33333  # sltu x6, x6, x14
    .word 0x00628733  # add x14, x5, x6
    .word 0x00c5e5b3  # or x11, x11, x12
    .word 0x00269293  # slli x5, x13, 2
    .word 0x002282b3  # add x5, x5, x2
    .word 0x0ac2a223  # sw x12, 164(x5)
    .word 0x21012283  # lw x5, 528(x2)
    .word 0x01c28293  # addi x5, x5, 28
    .word 0xff828513  # addi x10, x5, -8
    .word 0x00251493  # slli x9, x10, 2
    .word 0x002484b3  # add x9, x9, x2
    .word 0x002502b3  # add x5, x10, x2
    .word 0x1c02c283  # lbu x5, 448(x5)
    .word 0x01829293  # slli x5, x5, 24
    .word 0x00250333  # add x6, x10, x2
    .word 0x1c134303  # lbu x6, 449(x6)
    .word 0x01031313  # slli x6, x6, 16
    .word 0x0062e633  # or x12, x5, x6
    .word 0x00250333  # add x6, x10, x2
    .word 0x1c234303  # lbu x6, 450(x6)
    .word 0x00831313  # slli x6, x6, 8
    .word 0x006662b3  # or x5, x12, x6
    .word 0x00250333  # add x6, x10, x2
    .word 0x1c334303  # lbu x6, 451(x6)
    .word 0x0062e633  # or x12, x5, x6
    .word 0x1a812303  # lw x6, 424(x2)
    .word 0x006632b3  # sltu x5, x12, x6
    .word 0x1a812383  # lw x7, 424(x2)
    .word 0x40760333  # sub x6, x12, x7
    .word 0x00e33333  # sltu x6, x6, x14
    .word 0x00628733  # add x14, x5, x6
    .word 0x00c5e5b3  # or x11, x11, x12
    .word 0x00269293  # slli x5, x13, 2
    .word 0x002282b3  # add x5, x5, x2
    .word 0x0ac2a423  # sw x12, 168(x5)
    .word 0x21012283  # lw x5, 528(x2)
    .word 0x01c28293  # addi x5, x5, 28
    .word 0xff428513  # addi x10, x5, -12
    .word 0x00251493  # slli x9, x10, 2
    .word 0x002484b3  # add x9, x9, x2
    .word 0x002502b3  # add x5, x10, x2
    .word 0x1c02c283  # lbu x5, 448(x5)
    .word 0x01829293  # slli x5, x5, 24
    .word 0x00250333  # add x6, x10, x2
    .word 0x1c134303  # lbu x6, 449(x6)
    .word 0x01031313  # slli x6, x6, 16
    .word 0x0062e633  # or x12, x5, x6
    .word 0x00250333  # add x6, x10, x2
    .word 0x1c234303  # lbu x6, 450(x6)
    .word 0x00831313  # slli x6, x6, 8
    .word 0x006662b3  # or x5, x12, x6
    .word 0x00250333  # add x6, x10, x2
    .word 0x1c334303  # lbu x6, 451(x6)
    .word 0x0062e633  # or x12, x5, x6
    .word 0x1ac12303  # lw x6, 428(x2)
    .word 0x006632b3  # sltu x5, x12, x6
    .word 0x1ac12383  # lw x7, 428(x2)
    .word 0x40760333  # sub x6, x12, x7
    .word 0x00e33333  # sltu x6, x6, x14
    .word 0x00628733  # add x14, x5, x6
    .word 0x00c5e5b3  # or x11, x11, x12
    .word 0x00269293  # slli x5, x13, 2
    .word 0x002282b3  # add x5, x5, x2
    .word 0x0ac2a623  # sw x12, 172(x5)
    .word 0x21012283  # lw x5, 528(x2)
    .word 0x01c28293  # addi x5, x5, 28
    .word 0xff028513  # addi x10, x5, -16
    .word 0x00251493  # slli x9, x10, 2
    .word 0x002484b3  # add x9, x9, x2
    .word 0x002502b3  # add x5, x10, x2
    .word 0x1c02c283  # lbu x5, 448(x5)
    .word 0x01829293  # slli x5, x5, 24
    .word 0x00250333  # add x6, x10, x2
    .word 0x1c134303  # lbu x6, 449(x6)
    .word 0x01031313  # slli x6, x6, 16
    .word 0x0062e633  # or x12, x5, x6
    .word 0x00250333  # add x6, x10, x2
    .word 0x1c234303  # lbu x6, 450(x6)
    .word 0x00831313  # slli x6, x6, 8
    .word 0x006662b3  # or x5, x12, x6
    .word 0x00250333  # add x6, x10, x2
    .word 0x1c334303  # lbu x6, 451(x6)
    .word 0x0062e633  # or x12, x5, x6
    .word 0x1b012303  # lw x6, 432(x2)
    .word 0x006632b3  # sltu x5, x12, x6
    .word 0x1b012383  # lw x7, 432(x2)
    .word 0x40760333  # sub x6, x12, x7
    .word 0x00e33333  # sltu x6, x6, x14
    .word 0x00628733  # add x14, x5, x6
    .word 0x00c5e5b3  # or x11, x11, x12
    .word 0x00269293  # slli x5, x13, 2
    .word 0x002282b3  # add x5, x5, x2
    .word 0x0ac2a823  # sw x12, 176(x5)
    .word 0x21012283  # lw x5, 528(x2)
    .word 0x01c28293  # addi x5, x5, 28
    .word 0xfec28513  # addi x10, x5, -20
    .word 0x00251493  # slli x9, x10, 2
    .word 0x002484b3  # add x9, x9, x2
    .word 0x002502b3  # add x5, x10, x2
    .word 0x1c02c283  # lbu x5, 448(x5)
    .word 0x01829293  # slli x5, x5, 24
    .word 0x00250333  # add x6, x10, x2
    .word 0x1c134303  # lbu x6, 449(x6)
    .word 0x01031313  # slli x6, x6, 16
    .word 0x0062e633  # or x12, x5, x6
    .word 0x00250333  # add x6, x10, x2
    .word 0x1c234303  # lbu x6, 450(x6)
    .word 0x00831313  # slli x6, x6, 8
    .word 0x006662b3  # or x5, x12, x6
    .word 0x00250333  # add x6, x10, x2
    .word 0x1c334303  # lbu x6, 451(x6)
    .word 0x0062e633  # or x12, x5, x6
    .word 0x1b412303  # lw x6, 436(x2)
    .word 0x006632b3  # sltu x5, x12, x6
    .word 0x1b412383  # lw x7, 436(x2)
    .word 0x40760333  # sub x6, x12, x7
    .word 0x00e33333  # sltu x6, x6, x14
    .word 0x00628733  # add x14, x5, x6
    .word 0x00c5e5b3  # or x11, x11, x12
    .word 0x00269293  # slli x5, x13, 2
    .word 0x002282b3  # add x5, x5, x2
    .word 0x0ac2aa23  # sw x12, 180(x5)
    .word 0x21012283  # lw x5, 528(x2)
    .word 0x01c28293  # addi x5, x5, 28
    .word 0xfe828513  # addi x10, x5, -24
    .word 0x00251493  # slli x9, x10, 2
    .word 0x002484b3  # add x9, x9, x2
    .word 0x002502b3  # add x5, x10, x2
    .word 0x1c02c283  # lbu x5, 448(x5)
    .word 0x01829293  # slli x5, x5, 24
    .word 0x00250333  # add x6, x10, x2
    .word 0x1c134303  # lbu x6, 449(x6)
    .word 0x01031313  # slli x6, x6, 16
    .word 0x0062e633  # or x12, x5, x6
    .word 0x00250333  # add x6, x10, x2
    .word 0x1c234303  # lbu x6, 450(x6)
    .word 0x00831313  # slli x6, x6, 8
    .word 0x006662b3  # or x5, x12, x6
    .word 0x00250333  # add x6, x10, x2
    .word 0x1c334303  # lbu x6, 451(x6)
    .word 0x0062e633  # or x12, x5, x6
    .word 0x1b812303  # lw x6, 440(x2)
    .word 0x006632b3  # sltu x5, x12, x6
    .word 0x1b812383  # lw x7, 440(x2)
    .word 0x40760333  # sub x6, x12, x7
    .word 0x00e33333  # sltu x6, x6, x14
    .word 0x00628733  # add x14, x5, x6
    .word 0x00c5e5b3  # or x11, x11, x12
    .word 0x00269293  # slli x5, x13, 2
    .word 0x002282b3  # add x5, x5, x2
    .word 0x0ac2ac23  # sw x12, 184(x5)
    .word 0x21012283  # lw x5, 528(x2)
    .word 0x01c28293  # addi x5, x5, 28
    .word 0xfe428513  # addi x10, x5, -28
    .word 0x00251493  # slli x9, x10, 2
    .word 0x002484b3  # add x9, x9, x2
    .word 0x002502b3  # add x5, x10, x2
    .word 0x1c02c283  # lbu x5, 448(x5)
    .word 0x01829293  # slli x5, x5, 24
    .word 0x00250333  # add x6, x10, x2
    .word 0x1c134303  # lbu x6, 449(x6)
    .word 0x01031313  # slli x6, x6, 16
    .word 0x0062e633  # or x12, x5, x6
    .word 0x00250333  # add x6, x10, x2
    .word 0x1c234303  # lbu x6, 450(x6)
    .word 0x00831313  # slli x6, x6, 8
    .word 0x006662b3  # or x5, x12, x6
    .word 0x00250333  # add x6, x10, x2
    .word 0x1c334303  # lbu x6, 451(x6)
    .word 0x0062e633  # or x12, x5, x6
    .word 0x1bc12303  # lw x6, 444(x2)
    .word 0x006632b3  # sltu x5, x12, x6
    .word 0x1bc12383  # lw x7, 444(x2)
    .word 0x40760333  # sub x6, x12, x7
    .word 0x00e33333  # sltu x6, x6, x14
    .word 0x00628733  # add x14, x5, x6
    .word 0x00c5e5b3  # or x11, x11, x12
    .word 0x00269293  # slli x5, x13, 2
    .word 0x002282b3  # add x5, x5, x2
    .word 0x0ac2ae23  # sw x12, 188(x5)
    .word 0xfff70293  # addi x5, x14, -1
    .word 0x0012b293  # sltiu x5, x5, 1
    .word 0x00b03333  # sltu x6, x0, x11
    .word 0x0062f933  # and x18, x5, x6
    .word 0x20012283  # lw x5, 512(x2)
    .word 0x21412303  # lw x6, 532(x2)
    .word 0x00133313  # sltiu x6, x6, 1
    .word 0x01236333  # or x6, x6, x18
    .word 0x0062f2b3  # and x5, x5, x6
    .word 0x20512023  # sw x5, 512(x2)
    .word 0x21412283  # lw x5, 532(x2)
    .word 0x00329293  # slli x5, x5, 3
    .word 0x01028513  # addi x10, x5, 16
    .word 0x00251493  # slli x9, x10, 2
    .word 0x002484b3  # add x9, x9, x2
    .word 0x0a04a583  # lw x11, 160(x9)
    .word 0x0a44a783  # lw x15, 164(x9)
    .word 0x0a84a803  # lw x16, 168(x9)
    .word 0x0ac4a983  # lw x19, 172(x9)
    .word 0x0b04aa03  # lw x20, 176(x9)
    .word 0x0b44aa83  # lw x21, 180(x9)
    .word 0x0b84ab03  # lw x22, 184(x9)
    .word 0x0bc4ab83  # lw x23, 188(x9)
    .word 0x1a012303  # lw x6, 416(x2)
    .word 0x40658733  # sub x14, x11, x6
    .word 0x00070c13  # addi x24, x14, 0
    .word 0x1a012303  # lw x6, 416(x2)
    .word 0x0065b633  # sltu x12, x11, x6
    .word 0x1a412303  # lw x6, 420(x2)
    .word 0x40678733  # sub x14, x15, x6
    .word 0x40c70cb3  # sub x25, x14, x12
    .word 0x1a412303  # lw x6, 420(x2)
    .word 0x0067b2b3  # sltu x5, x15, x6
    .word 0x00c73333  # sltu x6, x14, x12
    .word 0x00628633  # add x12, x5, x6
    .word 0x1a812303  # lw x6, 424(x2)
    .word 0x40680733  # sub x14, x16, x6
    .word 0x40c70d33  # sub x26, x14, x12
    .word 0x1a812303  # lw x6, 424(x2)
    .word 0x006832b3  # sltu x5, x16, x6
    .word 0x00c73333  # sltu x6, x14, x12
    .word 0x00628633  # add x12, x5, x6
    .word 0x1ac12303  # lw x6, 428(x2)
    .word 0x40698733  # sub x14, x19, x6
    .word 0x40c70db3  # sub x27, x14, x12
    .word 0x1ac12303  # lw x6, 428(x2)
    .word 0x0069b2b3  # sltu x5, x19, x6
    .word 0x00c73333  # sltu x6, x14, x12
    .word 0x00628633  # add x12, x5, x6
    .word 0x1b012303  # lw x6, 432(x2)
    .word 0x406a0733  # sub x14, x20, x6
    .word 0x40c708b3  # sub x17, x14, x12
    .word 0x1b012303  # lw x6, 432(x2)
    .word 0x006a32b3  # sltu x5, x20, x6
    .word 0x00c73333  # sltu x6, x14, x12
    .word 0x00628633  # add x12, x5, x6
    .word 0x1b412303  # lw x6, 436(x2)
    .word 0x406a8733  # sub x14, x21, x6
    .word 0x40c702b3  # sub x5, x14, x12
    .word 0x22512c23  # sw x5, 568(x2)
    .word 0x1b412303  # lw x6, 436(x2)
    .word 0x006ab2b3  # sltu x5, x21, x6
    .word 0x00c73333  # sltu x6, x14, x12
    .word 0x00628633  # add x12, x5, x6
    .word 0x1b812303  # lw x6, 440(x2)
    .word 0x406b0733  # sub x14, x22, x6
    .word 0x40c702b3  # sub x5, x14, x12
    .word 0x22512e23  # sw x5, 572(x2)
    .word 0x1b812303  # lw x6, 440(x2)
    .word 0x006b32b3  # sltu x5, x22, x6
    .word 0x00c73333  # sltu x6, x14, x12
    .word 0x00628633  # add x12, x5, x6
    .word 0x1bc12303  # lw x6, 444(x2)
    .word 0x406b8733  # sub x14, x23, x6
    .word 0x40c702b3  # sub x5, x14, x12
    .word 0x24512023  # sw x5, 576(x2)
    .word 0x1bc12303  # lw x6, 444(x2)
    .word 0x006bb2b3  # sltu x5, x23, x6
    .word 0x00c73333  # sltu x6, x14, x12
    .word 0x00628633  # add x12, x5, x6
    .word 0x00c03933  # sltu x18, x0, x12
    .word 0x412002b3  # sub x5, x0, x18
    .word 0x0185c333  # xor x6, x11, x24
    .word 0x00537333  # and x6, x6, x5
    .word 0x006c42b3  # xor x5, x24, x6
    .word 0x0a54a023  # sw x5, 160(x9)
    .word 0x412002b3  # sub x5, x0, x18
    .word 0x0197c333  # xor x6, x15, x25
    .word 0x00537333  # and x6, x6, x5
    .word 0x006cc2b3  # xor x5, x25, x6
    .word 0x0a54a223  # sw x5, 164(x9)
    .word 0x412002b3  # sub x5, x0, x18
    .word 0x01a84333  # xor x6, x16, x26
    .word 0x00537333  # and x6, x6, x5
    .word 0x006d42b3  # xor x5, x26, x6
    .word 0x0a54a423  # sw x5, 168(x9)
    .word 0x412002b3  # sub x5, x0, x18
    .word 0x01b9c333  # xor x6, x19, x27
    .word 0x00537333  # and x6, x6, x5
    .word 0x006dc2b3  # xor x5, x27, x6
    .word 0x0a54a623  # sw x5, 172(x9)
    .word 0x412002b3  # sub x5, x0, x18
    .word 0x011a4333  # xor x6, x20, x17
    .word 0x00537333  # and x6, x6, x5
    .word 0x0068c2b3  # xor x5, x17, x6
    .word 0x0a54a823  # sw x5, 176(x9)
    .word 0x23812383  # lw x7, 568(x2)
    .word 0x412002b3  # sub x5, x0, x18
    .word 0x007ac333  # xor x6, x21, x7
    .word 0x00537333  # and x6, x6, x5
    .word 0x0063c2b3  # xor x5, x7, x6
    .word 0x0a54aa23  # sw x5, 180(x9)
    .word 0x23c12383  # lw x7, 572(x2)
    .word 0x412002b3  # sub x5, x0, x18
    .word 0x007b4333  # xor x6, x22, x7
    .word 0x00537333  # and x6, x6, x5
    .word 0x0063c2b3  # xor x5, x7, x6
    .word 0x0a54ac23  # sw x5, 184(x9)
    .word 0x24012383  # lw x7, 576(x2)
    .word 0x412002b3  # sub x5, x0, x18
    .word 0x007bc333  # xor x6, x23, x7
    .word 0x00537333  # and x6, x6, x5
    .word 0x0063c2b3  # xor x5, x7, x6
    .word 0x0a54ae23  # sw x5, 188(x9)
    .word 0xa41ff06f  # jal x0, -1472
    .word 0x24012a23  # sw x0, 596(x2)
    .word 0x10100293  # addi x5, x0, 257
    .word 0x24512c23  # sw x5, 600(x2)
    .word 0x25412303  # lw x6, 596(x2)
    .word 0x25812283  # lw x5, 600(x2)
    .word 0x005332b3  # sltu x5, x6, x5
    .word 0x00029463  # bne x5, x0, 8
    .word 0x38d0006f  # jal x0, 2956
    .word 0x20612423  # sw x6, 520(x2)
    .word 0x00130313  # addi x6, x6, 1
    .word 0x24612a23  # sw x6, 596(x2)
    .word 0x0ff00293  # addi x5, x0, 255
    .word 0x20812303  # lw x6, 520(x2)
    .word 0x406282b3  # sub x5, x5, x6
    .word 0x0ff2f513  # andi x10, x5, 255
    .word 0x00251493  # slli x9, x10, 2
    .word 0x002484b3  # add x9, x9, x2
    .word 0x02053293  # sltiu x5, x10, 32
    .word 0x24812303  # lw x6, 584(x2)
    .word 0x00555393  # srli x7, x10, 5
    .word 0x00239393  # slli x7, x7, 2
    .word 0x002383b3  # add x7, x7, x2
    .word 0x1a03a383  # lw x7, 416(x7)
    .word 0x405002b3  # sub x5, x0, x5
    .word 0x00734333  # xor x6, x6, x7
    .word 0x00537333  # and x6, x6, x5
    .word 0x0063c2b3  # xor x5, x7, x6
    .word 0x01f57313  # andi x6, x10, 31
    .word 0x0062d2b3  # srl x5, x5, x6
    .word 0x0012f293  # andi x5, x5, 1
    .word 0x20512223  # sw x5, 516(x2)
    .word 0x00800513  # addi x10, x0, 8
    .word 0x00251493  # slli x9, x10, 2
    .word 0x002484b3  # add x9, x9, x2
    .word 0x00800693  # addi x13, x0, 8
    .word 0x00800293  # addi x5, x0, 8
    .word 0x20512c23  # sw x5, 536(x2)
    .word 0x00100293  # addi x5, x0, 1
    .word 0x20512623  # sw x5, 524(x2)
    .word 0x20812283  # lw x5, 520(x2)
    .word 0x02029463  # bne x5, x0, 40
    .word 0x00000513  # addi x10, x0, 0
    .word 0x00251493  # slli x9, x10, 2
    .word 0x002484b3  # add x9, x9, x2
    .word 0x00000693  # addi x13, x0, 0
    .word 0x02800293  # addi x5, x0, 40
    .word 0x20512c23  # sw x5, 536(x2)
    .word 0x00100293  # addi x5, x0, 1
    .word 0x20512623  # sw x5, 524(x2)
    .word 0x0340006f  # jal x0, 52
    .word 0x20812283  # lw x5, 520(x2)
    .word 0x10000313  # addi x6, x0, 256
    .word 0x0062fc63  # bgeu x5, x6, 24
    .word 0x00800293  # addi x5, x0, 8
    .word 0x20512c23  # sw x5, 536(x2)
    .word 0x00100293  # addi x5, x0, 1
    .word 0x20512623  # sw x5, 524(x2)
    .word 0x0140006f  # jal x0, 20
    .word 0x01000513  # addi x10, x0, 16
    .word 0x00251493  # slli x9, x10, 2
    .word 0x002484b3  # add x9, x9, x2
    .word 0x01000693  # addi x13, x0, 16
    .word 0x20c12283  # lw x5, 524(x2)
    .word 0x4e028863  # beq x5, x0, 1264
    .word 0x03857293  # andi x5, x10, 56
    .word 0x20512823  # sw x5, 528(x2)
    .word 0x0386f293  # andi x5, x13, 56
    .word 0x20512a23  # sw x5, 532(x2)
    .word 0x21812283  # lw x5, 536(x2)
    .word 0x0382f513  # andi x10, x5, 56
    .word 0x00251493  # slli x9, x10, 2
    .word 0x002484b3  # add x9, x9, x2
    .word 0x1a012283  # lw x5, 416(x2)
    .word 0x20512c23  # sw x5, 536(x2)
    .word 0x1a412283  # lw x5, 420(x2)
    .word 0x20512e23  # sw x5, 540(x2)
    .word 0x1a812283  # lw x5, 424(x2)
    .word 0x22512023  # sw x5, 544(x2)
    .word 0x1ac12283  # lw x5, 428(x2)
    .word 0x22512223  # sw x5, 548(x2)
    .word 0x1b012283  # lw x5, 432(x2)
    .word 0x22512423  # sw x5, 552(x2)
    .word 0x1b412283  # lw x5, 436(x2)
    .word 0x22512623  # sw x5, 556(x2)
    .word 0x1b812283  # lw x5, 440(x2)
    .word 0x22512823  # sw x5, 560(x2)
    .word 0x1bc12283  # lw x5, 444(x2)
    .word 0x22512a23  # sw x5, 564(x2)
    .word 0x00000993  # addi x19, x0, 0
    .word 0x00000a13  # addi x20, x0, 0
    .word 0x00000a93  # addi x21, x0, 0
    .word 0x00000b13  # addi x22, x0, 0
    .word 0x00000b93  # addi x23, x0, 0
    .word 0x00000c13  # addi x24, x0, 0
    .word 0x00000c93  # addi x25, x0, 0
    .word 0x00000d13  # addi x26, x0, 0
    .word 0x00000d93  # addi x27, x0, 0
    .word 0xfff00693  # addi x13, x0, -1
    .word 0x00168693  # addi x13, x13, 1
    .word 0x21412283  # lw x5, 532(x2)
    .word 0x00d282b3  # add x5, x5, x13
    .word 0x00229593  # slli x11, x5, 2
    .word 0x002585b3  # add x11, x11, x2
    .word 0x0a05a583  # lw x11, 160(x11)
    .word 0x0a04a703  # lw x14, 160(x9)
    .word 0x02e587b3  # mul x15, x11, x14
    .word 0x02e5b833  # mulhu x16, x11, x14
    .word 0x00f98733  # add x14, x19, x15
    .word 0x00070993  # addi x19, x14, 0
    .word 0x00f73333  # sltu x6, x14, x15
    .word 0x00680633  # add x12, x16, x6
    .word 0x0a44a703  # lw x14, 164(x9)
    .word 0x02e587b3  # mul x15, x11, x14
    .word 0x02e5b833  # mulhu x16, x11, x14
    .word 0x00fa0733  # add x14, x20, x15
    .word 0x00c70a33  # add x20, x14, x12
    .word 0x00f73333  # sltu x6, x14, x15
    .word 0x006802b3  # add x5, x16, x6
    .word 0x00ca3333  # sltu x6, x20, x12
    .word 0x00628633  # add x12, x5, x6
    .word 0x0a84a703  # lw x14, 168(x9)
    .word 0x02e587b3  # mul x15, x11, x14
    .word 0x02e5b833  # mulhu x16, x11, x14
    .word 0x00fa8733  # add x14, x21, x15
    .word 0x00c70ab3  # add x21, x14, x12
    .word 0x00f73333  # sltu x6, x14, x15
    .word 0x006802b3  # add x5, x16, x6
    .word 0x00cab333  # sltu x6, x21, x12
    .word 0x00628633  # add x12, x5, x6
    .word 0x0ac4a703  # lw x14, 172(x9)
    .word 0x02e587b3  # mul x15, x11, x14
    .word 0x02e5b833  # mulhu x16, x11, x14
    .word 0x00fb0733  # add x14, x22, x15
    .word 0x00c70b33  # add x22, x14, x12
    .word 0x00f73333  # sltu x6, x14, x15
    .word 0x006802b3  # add x5, x16, x6
    .word 0x00cb3333  # sltu x6, x22, x12
    .word 0x00628633  # add x12, x5, x6
    .word 0x0b04a703  # lw x14, 176(x9)
    .word 0x02e587b3  # mul x15, x11, x14
    .word 0x02e5b833  # mulhu x16, x11, x14
    .word 0x00fb8733  # add x14, x23, x15
    .word 0x00c70bb3  # add x23, x14, x12
    .word 0x00f73333  # sltu x6, x14, x15
    .word 0x006802b3  # add x5, x16, x6
    .word 0x00cbb333  # sltu x6, x23, x12
    .word 0x00628633  # add x12, x5, x6
    .word 0x0b44a703  # lw x14, 180(x9)
    .word 0x02e587b3  # mul x15, x11, x14
    .word 0x02e5b833  # mulhu x16, x11, x14
    .word 0x00fc0733  # add x14, x24, x15
    .word 0x00c70c33  # add x24, x14, x12
    .word 0x00f73333  # sltu x6, x14, x15
    .word 0x006802b3  # add x5, x16, x6
    .word 0x00cc3333  # sltu x6, x24, x12
    .word 0x00628633  # add x12, x5, x6
    .word 0x0b84a703  # lw x14, 184(x9)
    .word 0x02e587b3  # mul x15, x11, x14
    .word 0x02e5b833  # mulhu x16, x11, x14
    .word 0x00fc8733  # add x14, x25, x15
    .word 0x00c70cb3  # add x25, x14, x12
    .word 0x00f73333  # sltu x6, x14, x15
    .word 0x006802b3  # add x5, x16, x6
    .word 0x00ccb333  # sltu x6, x25, x12
    .word 0x00628633  # add x12, x5, x6
    .word 0x0bc4a703  # lw x14, 188(x9)
    .word 0x02e587b3  # mul x15, x11, x14
    .word 0x02e5b833  # mulhu x16, x11, x14
    .word 0x00fd0733  # add x14, x26, x15
    .word 0x00c70d33  # add x26, x14, x12
    .word 0x00f73333  # sltu x6, x14, x15
    .word 0x006802b3  # add x5, x16, x6
    .word 0x00cd3333  # sltu x6, x26, x12
    .word 0x00628633  # add x12, x5, x6
    .word 0x00cd88b3  # add x17, x27, x12
    .word 0x00c8bdb3  # sltu x27, x17, x12
    .word 0x24c12303  # lw x6, 588(x2)
    .word 0x026985b3  # mul x11, x19, x6
    .word 0x21812703  # lw x14, 536(x2)
    .word 0x02e587b3  # mul x15, x11, x14
    .word 0x02e5b833  # mulhu x16, x11, x14
    .word 0x00f98733  # add x14, x19, x15
    .word 0x00f73333  # sltu x6, x14, x15
    .word 0x00680633  # add x12, x16, x6
    .word 0x21c12703  # lw x14, 540(x2)
    .word 0x02e587b3  # mul x15, x11, x14
    .word 0x02e5b833  # mulhu x16, x11, x14
    .word 0x00fa0733  # add x14, x20, x15
    .word 0x00c709b3  # add x19, x14, x12
    .word 0x00f73333  # sltu x6, x14, x15
    .word 0x006802b3  # add x5, x16, x6
    .word 0x00c9b333  # sltu x6, x19, x12
    .word 0x00628633  # add x12, x5, x6
    .word 0x22012703  # lw x14, 544(x2)
    .word 0x02e587b3  # mul x15, x11, x14
    .word 0x02e5b833  # mulhu x16, x11, x14
    .word 0x00fa8733  # add x14, x21, x15
    .word 0x00c70a33  # add x20, x14, x12
    .word 0x00f73333  # sltu x6, x14, x15
    .word 0x006802b3  # add x5, x16, x6
    .word 0x00ca3333  # sltu x6, x20, x12
    .word 0x00628633  # add x12, x5, x6
    .word 0x22412703  # lw x14, 548(x2)
    .word 0x02e587b3  # mul x15, x11, x14
    .word 0x02e5b833  # mulhu x16, x11, x14
    .word 0x00fb0733  # add x14, x22, x15
    .word 0x00c70ab3  # add x21, x14, x12
    .word 0x00f73333  # sltu x6, x14, x15
    .word 0x006802b3  # add x5, x16, x6
    .word 0x00cab333  # sltu x6, x21, x12
    .word 0x00628633  # add x12, x5, x6
    .word 0x22812703  # lw x14, 552(x2)
    .word 0x02e587b3  # mul x15, x11, x14
    .word 0x02e5b833  # mulhu x16, x11, x14
    .word 0x00fb8733  # add x14, x23, x15
    .word 0x00c70b33  # add x22, x14, x12
    .word 0x00f73333  # sltu x6, x14, x15
    .word 0x006802b3  # add x5, x16, x6
    .word 0x00cb3333  # sltu x6, x22, x12
    .word 0x00628633  # add x12, x5, x6
    .word 0x22c12703  # lw x14, 556(x2)
    .word 0x02e587b3  # mul x15, x11, x14
    .word 0x02e5b833  # mulhu x16, x11, x14
    .word 0x00fc0733  # add x14, x24, x15
    .word 0x00c70bb3  # add x23, x14, x12
    .word 0x00f73333  # sltu x6, x14, x15
    .word 0x006802b3  # add x5, x16, x6
    .word 0x00cbb333  # sltu x6, x23, x12
    .word 0x00628633  # add x12, x5, x6
    .word 0x23012703  # lw x14, 560(x2)
    .word 0x02e587b3  # mul x15, x11, x14
    .word 0x02e5b833  # mulhu x16, x11, x14
    .word 0x00fc8733  # add x14, x25, x15
    .word 0x00c70c33  # add x24, x14, x12
    .word 0x00f73333  # sltu x6, x14, x15
    .word 0x006802b3  # add x5, x16, x6
    .word 0x00cc3333  # sltu x6, x24, x12
    .word 0x00628633  # add x12, x5, x6
    .word 0x23412703  # lw x14, 564(x2)
    .word 0x02e587b3  # mul x15, x11, x14
    .word 0x02e5b833  # mulhu x16, x11, x14
    .word 0x00fd0733  # add x14, x26, x15
    .word 0x00c70cb3  # add x25, x14, x12
    .word 0x00f73333  # sltu x6, x14, x15
    .word 0x006802b3  # add x5, x16, x6
    .word 0x00ccb333  # sltu x6, x25, x12
    .word 0x00628633  # add x12, x5, x6
    .word 0x00c88d33  # add x26, x17, x12
    .word 0x00cd3333  # sltu x6, x26, x12
    .word 0x006d8db3  # add x27, x27, x6
    .word 0xff968293  # addi x5, x13, -7
    .word 0xd8029ee3  # bne x5, x0, -612
    .word 0x1a012303  # lw x6, 416(x2)
    .word 0x40698733  # sub x14, x19, x6
    .word 0x00070593  # addi x11, x14, 0
    .word 0x1a012303  # lw x6, 416(x2)
    .word 0x0069b633  # sltu x12, x19, x6
    .word 0x1a412303  # lw x6, 420(x2)
    .word 0x406a0733  # sub x14, x20, x6
    .word 0x40c707b3  # sub x15, x14, x12
    .word 0x1a412303  # lw x6, 420(x2)
    .word 0x006a32b3  # sltu x5, x20, x6
    .word 0x00c73333  # sltu x6, x14, x12
    .word 0x00628633  # add x12, x5, x6
    .word 0x1a812303  # lw x6, 424(x2)
    .word 0x406a8733  # sub x14, x21, x6
    .word 0x40c70833  # sub x16, x14, x12
    .word 0x1a812303  # lw x6, 424(x2)
    .word 0x006ab2b3  # sltu x5, x21, x6
    .word 0x00c73333  # sltu x6, x14, x12
    .word 0x00628633  # add x12, x5, x6
    .word 0x1ac12303  # lw x6, 428(x2)
    .word 0x406b0733  # sub x14, x22, x6
    .word 0x40c708b3  # sub x17, x14, x12
    .word 0x1ac12303  # lw x6, 428(x2)
    .word 0x006b32b3  # sltu x5, x22, x6
    .word 0x00c73333  # sltu x6, x14, x12
    .word 0x00628633  # add x12, x5, x6
    .word 0x1b012303  # lw x6, 432(x2)
    .word 0x406b8733  # sub x14, x23, x6
    .word 0x40c702b3  # sub x5, x14, x12
    .word 0x22512c23  # sw x5, 568(x2)
    .word 0x1b012303  # lw x6, 432(x2)
    .word 0x006bb2b3  # sltu x5, x23, x6
    .word 0x00c73333  # sltu x6, x14, x12
    .word 0x00628633  # add x12, x5, x6
    .word 0x1b412303  # lw x6, 436(x2)
    .word 0x406c0733  # sub x14, x24, x6
    .word 0x40c702b3  # sub x5, x14, x12
    .word 0x22512e23  # sw x5, 572(x2)
    .word 0x1b412303  # lw x6, 436(x2)
    .word 0x006c32b3  # sltu x5, x24, x6
    .word 0x00c73333  # sltu x6, x14, x12
    .word 0x00628633  # add x12, x5, x6
    .word 0x1b812303  # lw x6, 440(x2)
    .word 0x406c8733  # sub x14, x25, x6
    .word 0x40c702b3  # sub x5, x14, x12
    .word 0x24512023  # sw x5, 576(x2)
    .word 0x1b812303  # lw x6, 440(x2)
    .word 0x006cb2b3  # sltu x5, x25, x6
    .word 0x00c73333  # sltu x6, x14, x12
    .word 0x00628633  # add x12, x5, x6
    .word 0x1bc12303  # lw x6, 444(x2)
    .word 0x406d0733  # sub x14, x26, x6
    .word 0x40c702b3  # sub x5, x14, x12
    .word 0x24512223  # sw x5, 580(x2)
    .word 0x1bc12303  # lw x6, 444(x2)
    .word 0x006d32b3  # sltu x5, x26, x6
    .word 0x00c73333  # sltu x6, x14, x12
    .word 0x00628633  # add x12, x5, x6
    .word 0x00cdb933  # sltu x18, x27, x12
    .word 0x21012283  # lw x5, 528(x2)
    .word 0x41200333  # sub x6, x0, x18
    .word 0x00b9c3b3  # xor x7, x19, x11
    .word 0x0063f3b3  # and x7, x7, x6
    .word 0x0075c333  # xor x6, x11, x7
    .word 0x00229293  # slli x5, x5, 2
    .word 0x002282b3  # add x5, x5, x2
    .word 0x0a62a023  # sw x6, 160(x5)
    .word 0x21012283  # lw x5, 528(x2)
    .word 0x41200333  # sub x6, x0, x18
    .word 0x00fa43b3  # xor x7, x20, x15
    .word 0x0063f3b3  # and x7, x7, x6
    .word 0x0077c333  # xor x6, x15, x7
    .word 0x00229293  # slli x5, x5, 2
    .word 0x002282b3  # add x5, x5, x2
    .word 0x0a62a223  # sw x6, 164(x5)
    .word 0x21012283  # lw x5, 528(x2)
    .word 0x41200333  # sub x6, x0, x18
    .word 0x010ac3b3  # xor x7, x21, x16
    .word 0x0063f3b3  # and x7, x7, x6
    .word 0x00784333  # xor x6, x16, x7
    .word 0x00229293  # slli x5, x5, 2
    .word 0x002282b3  # add x5, x5, x2
    .word 0x0a62a423  # sw x6, 168(x5)
    .word 0x21012283  # lw x5, 528(x2)
    .word 0x41200333  # sub x6, x0, x18
    .word 0x011b43b3  # xor x7, x22, x17
    .word 0x0063f3b3  # and x7, x7, x6
    .word 0x0078c333  # xor x6, x17, x7
    .word 0x00229293  # slli x5, x5, 2
    .word 0x002282b3  # add x5, x5, x2
    .word 0x0a62a623  # sw x6, 172(x5)
    .word 0x21012283  # lw x5, 528(x2)
    .word 0x23812403  # lw x8, 568(x2)
    .word 0x41200333  # sub x6, x0, x18
    .word 0x008bc3b3  # xor x7, x23, x8
    .word 0x0063f3b3  # and x7, x7, x6
    .word 0x00744333  # xor x6, x8, x7
    .word 0x00229293  # slli x5, x5, 2
    .word 0x002282b3  # add x5, x5, x2
    .word 0x0a62a823  # sw x6, 176(x5)
    .word 0x21012283  # lw x5, 528(x2)
    .word 0x23c12403  # lw x8, 572(x2)
    .word 0x41200333  # sub x6, x0, x18
    .word 0x008c43b3  # xor x7, x24, x8
    .word 0x0063f3b3  # and x7, x7, x6
    .word 0x00744333  # xor x6, x8, x7
    .word 0x00229293  # slli x5, x5, 2
    .word 0x002282b3  # add x5, x5, x2
    .word 0x0a62aa23  # sw x6, 180(x5)
    .word 0x21012283  # lw x5, 528(x2)
    .word 0x24012403  # lw x8, 576(x2)
    .word 0x41200333  # sub x6, x0, x18
    .word 0x008cc3b3  # xor x7, x25, x8
    .word 0x0063f3b3  # and x7, x7, x6
    .word 0x00744333  # xor x6, x8, x7
    .word 0x00229293  # slli x5, x5, 2
    .word 0x002282b3  # add x5, x5, x2
    .word 0x0a62ac23  # sw x6, 184(x5)
    .word 0x21012283  # lw x5, 528(x2)
    .word 0x24412403  # lw x8, 580(x2)
    .word 0x41200333  # sub x6, x0, x18
    .word 0x008d43b3  # xor x7, x26, x8
    .word 0x0063f3b3  # and x7, x7, x6
    .word 0x00744333  # xor x6, x8, x7
    .word 0x00229293  # slli x5, x5, 2
    .word 0x002282b3  # add x5, x5, x2
    .word 0x0a62ae23  # sw x6, 188(x5)
    .word 0x00800513  # addi x10, x0, 8
    .word 0x00251493  # slli x9, x10, 2
    .word 0x002484b3  # add x9, x9, x2
    .word 0x00800693  # addi x13, x0, 8
    .word 0x00800293  # addi x5, x0, 8
    .word 0x20512c23  # sw x5, 536(x2)
    .word 0x00100293  # addi x5, x0, 1
    .word 0x20512623  # sw x5, 524(x2)
    .word 0x20812283  # lw x5, 520(x2)
    .word 0x02029263  # bne x5, x0, 36
    .word 0x00000513  # addi x10, x0, 0
    .word 0x00251493  # slli x9, x10, 2
    .word 0x002484b3  # add x9, x9, x2
    .word 0x00000693  # addi x13, x0, 0
    .word 0x02800293  # addi x5, x0, 40
    .word 0x20512c23  # sw x5, 536(x2)
    .word 0x20012623  # sw x0, 524(x2)
    .word 0x0380006f  # jal x0, 56
    .word 0x20812283  # lw x5, 520(x2)
    .word 0x10000313  # addi x6, x0, 256
    .word 0x0062fe63  # bgeu x5, x6, 28
    .word 0x20012c23  # sw x0, 536(x2)
    .word 0x20412283  # lw x5, 516(x2)
    .word 0xfff28293  # addi x5, x5, -1
    .word 0x0012b293  # sltiu x5, x5, 1
    .word 0x20512623  # sw x5, 524(x2)
    .word 0x0140006f  # jal x0, 20
    .word 0x01800513  # addi x10, x0, 24
    .word 0x00251493  # slli x9, x10, 2
    .word 0x002484b3  # add x9, x9, x2
    .word 0x01800693  # addi x13, x0, 24
    .word 0x20c12283  # lw x5, 524(x2)
    .word 0x4e028863  # beq x5, x0, 1264
    .word 0x03857293  # andi x5, x10, 56
    .word 0x20512823  # sw x5, 528(x2)
    .word 0x0386f293  # andi x5, x13, 56
    .word 0x20512a23  # sw x5, 532(x2)
    .word 0x21812283  # lw x5, 536(x2)
    .word 0x0382f513  # andi x10, x5, 56
    .word 0x00251493  # slli x9, x10, 2
    .word 0x002484b3  # add x9, x9, x2
    .word 0x1a012283  # lw x5, 416(x2)
    .word 0x20512c23  # sw x5, 536(x2)
    .word 0x1a412283  # lw x5, 420(x2)
    .word 0x20512e23  # sw x5, 540(x2)
    .word 0x1a812283  # lw x5, 424(x2)
    .word 0x22512023  # sw x5, 544(x2)
    .word 0x1ac12283  # lw x5, 428(x2)
    .word 0x22512223  # sw x5, 548(x2)
    .word 0x1b012283  # lw x5, 432(x2)
    .word 0x22512423  # sw x5, 552(x2)
    .word 0x1b412283  # lw x5, 436(x2)
    .word 0x22512623  # sw x5, 556(x2)
    .word 0x1b812283  # lw x5, 440(x2)
    .word 0x22512823  # sw x5, 560(x2)
    .word 0x1bc12283  # lw x5, 444(x2)
    .word 0x22512a23  # sw x5, 564(x2)
    .word 0x00000993  # addi x19, x0, 0
    .word 0x00000a13  # addi x20, x0, 0
    .word 0x00000a93  # addi x21, x0, 0
    .word 0x00000b13  # addi x22, x0, 0
    .word 0x00000b93  # addi x23, x0, 0
    .word 0x00000c13  # addi x24, x0, 0
    .word 0x00000c93  # addi x25, x0, 0
    .word 0x00000d13  # addi x26, x0, 0
    .word 0x00000d93  # addi x27, x0, 0
    .word 0xfff00693  # addi x13, x0, -1
    .word 0x00168693  # addi x13, x13, 1
    .word 0x21412283  # lw x5, 532(x2)
    .word 0x00d282b3  # add x5, x5, x13
    .word 0x00229593  # slli x11, x5, 2
    .word 0x002585b3  # add x11, x11, x2
    .word 0x0a05a583  # lw x11, 160(x11)
    .word 0x0a04a703  # lw x14, 160(x9)
    .word 0x02e587b3  # mul x15, x11, x14
    .word 0x02e5b833  # mulhu x16, x11, x14
    .word 0x00f98733  # add x14, x19, x15
    .word 0x00070993  # addi x19, x14, 0
    .word 0x00f73333  # sltu x6, x14, x15
    .word 0x00680633  # add x12, x16, x6
    .word 0x0a44a703  # lw x14, 164(x9)
    .word 0x02e587b3  # mul x15, x11, x14
    .word 0x02e5b833  # mulhu x16, x11, x14
    .word 0x00fa0733  # add x14, x20, x15
    .word 0x00c70a33  # add x20, x14, x12
    .word 0x00f73333  # sltu x6, x14, x15
    .word 0x006802b3  # add x5, x16, x6
    .word 0x00ca3333  # sltu x6, x20, x12
    .word 0x00628633  # add x12, x5, x6
    .word 0x0a84a703  # lw x14, 168(x9)
    .word 0x02e587b3  # mul x15, x11, x14
    .word 0x02e5b833  # mulhu x16, x11, x14
    .word 0x00fa8733  # add x14, x21, x15
    .word 0x00c70ab3  # add x21, x14, x12
    .word 0x00f73333  # sltu x6, x14, x15
    .word 0x006802b3  # add x5, x16, x6
    .word 0x00cab333  # sltu x6, x21, x12
    .word 0x00628633  # add x12, x5, x6
    .word 0x0ac4a703  # lw x14, 172(x9)
    .word 0x02e587b3  # mul x15, x11, x14
    .word 0x02e5b833  # mulhu x16, x11, x14
    .word 0x00fb0733  # add x14, x22, x15
    .word 0x00c70b33  # add x22, x14, x12
    .word 0x00f73333  # sltu x6, x14, x15
    .word 0x006802b3  # add x5, x16, x6
    .word 0x00cb3333  # sltu x6, x22, x12
    .word 0x00628633  # add x12, x5, x6
    .word 0x0b04a703  # lw x14, 176(x9)
    .word 0x02e587b3  # mul x15, x11, x14
    .word 0x02e5b833  # mulhu x16, x11, x14
    .word 0x00fb8733  # add x14, x23, x15
    .word 0x00c70bb3  # add x23, x14, x12
    .word 0x00f73333  # sltu x6, x14, x15
    .word 0x006802b3  # add x5, x16, x6
    .word 0x00cbb333  # sltu x6, x23, x12
    .word 0x00628633  # add x12, x5, x6
    .word 0x0b44a703  # lw x14, 180(x9)
    .word 0x02e587b3  # mul x15, x11, x14
    .word 0x02e5b833  # mulhu x16, x11, x14
    .word 0x00fc0733  # add x14, x24, x15
    .word 0x00c70c33  # add x24, x14, x12
    .word 0x00f73333  # sltu x6, x14, x15
    .word 0x006802b3  # add x5, x16, x6
    .word 0x00cc3333  # sltu x6, x24, x12
    .word 0x00628633  # add x12, x5, x6
    .word 0x0b84a703  # lw x14, 184(x9)
    .word 0x02e587b3  # mul x15, x11, x14
    .word 0x02e5b833  # mulhu x16, x11, x14
    .word 0x00fc8733  # add x14, x25, x15
    .word 0x00c70cb3  # add x25, x14, x12
    .word 0x00f73333  # sltu x6, x14, x15
    .word 0x006802b3  # add x5, x16, x6
    .word 0x00ccb333  # sltu x6, x25, x12
    .word 0x00628633  # add x12, x5, x6
    .word 0x0bc4a703  # lw x14, 188(x9)
    .word 0x02e587b3  # mul x15, x11, x14
    .word 0x02e5b833  # mulhu x16, x11, x14
    .word 0x00fd0733  # add x14, x26, x15
    .word 0x00c70d33  # add x26, x14, x12
    .word 0x00f73333  # sltu x6, x14, x15
    .word 0x006802b3  # add x5, x16, x6
    .word 0x00cd3333  # sltu x6, x26, x12
    .word 0x00628633  # add x12, x5, x6
    .word 0x00cd88b3  # add x17, x27, x12
    .word 0x00c8bdb3  # sltu x27, x17, x12
    .word 0x24c12303  # lw x6, 588(x2)
    .word 0x026985b3  # mul x11, x19, x6
    .word 0x21812703  # lw x14, 536(x2)
    .word 0x02e587b3  # mul x15, x11, x14
    .word 0x02e5b833  # mulhu x16, x11, x14
    .word 0x00f98733  # add x14, x19, x15
    .word 0x00f73333  # sltu x6, x14, x15
    .word 0x00680633  # add x12, x16, x6
    .word 0x21c12703  # lw x14, 540(x2)
    .word 0x02e587b3  # mul x15, x11, x14
    .word 0x02e5b833  # mulhu x16, x11, x14
    .word 0x00fa0733  # add x14, x20, x15
    .word 0x00c709b3  # add x19, x14, x12
    .word 0x00f73333  # sltu x6, x14, x15
    .word 0x006802b3  # add x5, x16, x6
    .word 0x00c9b333  # sltu x6, x19, x12
    .word 0x00628633  # add x12, x5, x6
    .word 0x22012703  # lw x14, 544(x2)
    .word 0x02e587b3  # mul x15, x11, x14
    .word 0x02e5b833  # mulhu x16, x11, x14
    .word 0x00fa8733  # add x14, x21, x15
    .word 0x00c70a33  # add x20, x14, x12
    .word 0x00f73333  # sltu x6, x14, x15
    .word 0x006802b3  # add x5, x16, x6
    .word 0x00ca3333  # sltu x6, x20, x12
    .word 0x00628633  # add x12, x5, x6
    .word 0x22412703  # lw x14, 548(x2)
    .word 0x02e587b3  # mul x15, x11, x14
    .word 0x02e5b833  # mulhu x16, x11, x14
    .word 0x00fb0733  # add x14, x22, x15
    .word 0x00c70ab3  # add x21, x14, x12
    .word 0x00f73333  # sltu x6, x14, x15
    .word 0x006802b3  # add x5, x16, x6
    .word 0x00cab333  # sltu x6, x21, x12
    .word 0x00628633  # add x12, x5, x6
    .word 0x22812703  # lw x14, 552(x2)
    .word 0x02e587b3  # mul x15, x11, x14
    .word 0x02e5b833  # mulhu x16, x11, x14
    .word 0x00fb8733  # add x14, x23, x15
    .word 0x00c70b33  # add x22, x14, x12
    .word 0x00f73333  # sltu x6, x14, x15
    .word 0x006802b3  # add x5, x16, x6
    .word 0x00cb3333  # sltu x6, x22, x12
    .word 0x00628633  # add x12, x5, x6
    .word 0x22c12703  # lw x14, 556(x2)
    .word 0x02e587b3  # mul x15, x11, x14
    .word 0x02e5b833  # mulhu x16, x11, x14
    .word 0x00fc0733  # add x14, x24, x15
    .word 0x00c70bb3  # add x23, x14, x12
    .word 0x00f73333  # sltu x6, x14, x15
    .word 0x006802b3  # add x5, x16, x6
    .word 0x00cbb333  # sltu x6, x23, x12
    .word 0x00628633  # add x12, x5, x6
    .word 0x23012703  # lw x14, 560(x2)
    .word 0x02e587b3  # mul x15, x11, x14
    .word 0x02e5b833  # mulhu x16, x11, x14
    .word 0x00fc8733  # add x14, x25, x15
    .word 0x00c70c33  # add x24, x14, x12
    .word 0x00f73333  # sltu x6, x14, x15
    .word 0x006802b3  # add x5, x16, x6
    .word 0x00cc3333  # sltu x6, x24, x12
    .word 0x00628633  # add x12, x5, x6
    .word 0x23412703  # lw x14, 564(x2)
    .word 0x02e587b3  # mul x15, x11, x14
    .word 0x02e5b833  # mulhu x16, x11, x14
    .word 0x00fd0733  # add x14, x26, x15
    .word 0x00c70cb3  # add x25, x14, x12
    .word 0x00f73333  # sltu x6, x14, x15
    .word 0x006802b3  # add x5, x16, x6
    .word 0x00ccb333  # sltu x6, x25, x12
    .word 0x00628633  # add x12, x5, x6
    .word 0x00c88d33  # add x26, x17, x12
    .word 0x00cd3333  # sltu x6, x26, x12
    .word 0x006d8db3  # add x27, x27, x6
    .word 0xff968293  # addi x5, x13, -7
    .word 0xd8029ee3  # bne x5, x0, -612
    .word 0x1a012303  # lw x6, 416(x2)
    .word 0x40698733  # sub x14, x19, x6
    .word 0x00070593  # addi x11, x14, 0
    .word 0x1a012303  # lw x6, 416(x2)
    .word 0x0069b633  # sltu x12, x19, x6
    .word 0x1a412303  # lw x6, 420(x2)
    .word 0x406a0733  # sub x14, x20, x6
    .word 0x40c707b3  # sub x15, x14, x12
    .word 0x1a412303  # lw x6, 420(x2)
    .word 0x006a32b3  # sltu x5, x20, x6
    .word 0x00c73333  # sltu x6, x14, x12
    .word 0x00628633  # add x12, x5, x6
    .word 0x1a812303  # lw x6, 424(x2)
    .word 0x406a8733  # sub x14, x21, x6
    .word 0x40c70833  # sub x16, x14, x12
    .word 0x1a812303  # lw x6, 424(x2)
    .word 0x006ab2b3  # sltu x5, x21, x6
    .word 0x00c73333  # sltu x6, x14, x12
    .word 0x00628633  # add x12, x5, x6
    .word 0x1ac12303  # lw x6, 428(x2)
    .word 0x406b0733  # sub x14, x22, x6
    .word 0x40c708b3  # sub x17, x14, x12
    .word 0x1ac12303  # lw x6, 428(x2)
    .word 0x006b32b3  # sltu x5, x22, x6
    .word 0x00c73333  # sltu x6, x14, x12
    .word 0x00628633  # add x12, x5, x6
    .word 0x1b012303  # lw x6, 432(x2)
    .word 0x406b8733  # sub x14, x23, x6
    .word 0x40c702b3  # sub x5, x14, x12
    .word 0x22512c23  # sw x5, 568(x2)
    .word 0x1b012303  # lw x6, 432(x2)
    .word 0x006bb2b3  # sltu x5, x23, x6
    .word 0x00c73333  # sltu x6, x14, x12
    .word 0x00628633  # add x12, x5, x6
    .word 0x1b412303  # lw x6, 436(x2)
    .word 0x406c0733  # sub x14, x24, x6
    .word 0x40c702b3  # sub x5, x14, x12
    .word 0x22512e23  # sw x5, 572(x2)
    .word 0x1b412303  # lw x6, 436(x2)
    .word 0x006c32b3  # sltu x5, x24, x6
    .word 0x00c73333  # sltu x6, x14, x12
    .word 0x00628633  # add x12, x5, x6
    .word 0x1b812303  # lw x6, 440(x2)
    .word 0x406c8733  # sub x14, x25, x6
    .word 0x40c702b3  # sub x5, x14, x12
    .word 0x24512023  # sw x5, 576(x2)
    .word 0x1b812303  # lw x6, 440(x2)
    .word 0x006cb2b3  # sltu x5, x25, x6
    .word 0x00c73333  # sltu x6, x14, x12
    .word 0x00628633  # add x12, x5, x6
    .word 0x1bc12303  # lw x6, 444(x2)
    .word 0x406d0733  # sub x14, x26, x6
    .word 0x40c702b3  # sub x5, x14, x12
    .word 0x24512223  # sw x5, 580(x2)
    .word 0x1bc12303  # lw x6, 444(x2)
    .word 0x006d32b3  # sltu x5, x26, x6
    .word 0x00c73333  # sltu x6, x14, x12
    .word 0x00628633  # add x12, x5, x6
    .word 0x00cdb933  # sltu x18, x27, x12
    .word 0x21012283  # lw x5, 528(x2)
    .word 0x41200333  # sub x6, x0, x18
    .word 0x00b9c3b3  # xor x7, x19, x11
    .word 0x0063f3b3  # and x7, x7, x6
    .word 0x0075c333  # xor x6, x11, x7
    .word 0x00229293  # slli x5, x5, 2
    .word 0x002282b3  # add x5, x5, x2
    .word 0x0a62a023  # sw x6, 160(x5)
    .word 0x21012283  # lw x5, 528(x2)
    .word 0x41200333  # sub x6, x0, x18
    .word 0x00fa43b3  # xor x7, x20, x15
    .word 0x0063f3b3  # and x7, x7, x6
    .word 0x0077c333  # xor x6, x15, x7
    .word 0x00229293  # slli x5, x5, 2
    .word 0x002282b3  # add x5, x5, x2
    .word 0x0a62a223  # sw x6, 164(x5)
    .word 0x21012283  # lw x5, 528(x2)
    .word 0x41200333  # sub x6, x0, x18
    .word 0x010ac3b3  # xor x7, x21, x16
    .word 0x0063f3b3  # and x7, x7, x6
    .word 0x00784333  # xor x6, x16, x7
    .word 0x00229293  # slli x5, x5, 2
    .word 0x002282b3  # add x5, x5, x2
    .word 0x0a62a423  # sw x6, 168(x5)
    .word 0x21012283  # lw x5, 528(x2)
    .word 0x41200333  # sub x6, x0, x18
    .word 0x011b43b3  # xor x7, x22, x17
    .word 0x0063f3b3  # and x7, x7, x6
    .word 0x0078c333  # xor x6, x17, x7
    .word 0x00229293  # slli x5, x5, 2
    .word 0x002282b3  # add x5, x5, x2
    .word 0x0a62a623  # sw x6, 172(x5)
    .word 0x21012283  # lw x5, 528(x2)
    .word 0x23812403  # lw x8, 568(x2)
    .word 0x41200333  # sub x6, x0, x18
    .word 0x008bc3b3  # xor x7, x23, x8
    .word 0x0063f3b3  # and x7, x7, x6
    .word 0x00744333  # xor x6, x8, x7
    .word 0x00229293  # slli x5, x5, 2
    .word 0x002282b3  # add x5, x5, x2
    .word 0x0a62a823  # sw x6, 176(x5)
    .word 0x21012283  # lw x5, 528(x2)
    .word 0x23c12403  # lw x8, 572(x2)
    .word 0x41200333  # sub x6, x0, x18
    .word 0x008c43b3  # xor x7, x24, x8
    .word 0x0063f3b3  # and x7, x7, x6
    .word 0x00744333  # xor x6, x8, x7
    .word 0x00229293  # slli x5, x5, 2
    .word 0x002282b3  # add x5, x5, x2
    .word 0x0a62aa23  # sw x6, 180(x5)
    .word 0x21012283  # lw x5, 528(x2)
    .word 0x24012403  # lw x8, 576(x2)
    .word 0x41200333  # sub x6, x0, x18
    .word 0x008cc3b3  # xor x7, x25, x8
    .word 0x0063f3b3  # and x7, x7, x6
    .word 0x00744333  # xor x6, x8, x7
    .word 0x00229293  # slli x5, x5, 2
    .word 0x002282b3  # add x5, x5, x2
    .word 0x0a62ac23  # sw x6, 184(x5)
    .word 0x21012283  # lw x5, 528(x2)
    .word 0x24412403  # lw x8, 580(x2)
    .word 0x41200333  # sub x6, x0, x18
    .word 0x008d43b3  # xor x7, x26, x8
    .word 0x0063f3b3  # and x7, x7, x6
    .word 0x00744333  # xor x6, x8, x7
    .word 0x00229293  # slli x5, x5, 2
    .word 0x002282b3  # add x5, x5, x2
    .word 0x0a62ae23  # sw x6, 188(x5)
    .word 0x20812283  # lw x5, 520(x2)
    .word 0x04029263  # bne x5, x0, 68
    .word 0x0a012283  # lw x5, 160(x2)
    .word 0x0c512023  # sw x5, 192(x2)
    .word 0x0a412283  # lw x5, 164(x2)
    .word 0x0c512223  # sw x5, 196(x2)
    .word 0x0a812283  # lw x5, 168(x2)
    .word 0x0c512423  # sw x5, 200(x2)
    .word 0x0ac12283  # lw x5, 172(x2)
    .word 0x0c512623  # sw x5, 204(x2)
    .word 0x0b012283  # lw x5, 176(x2)
    .word 0x0c512823  # sw x5, 208(x2)
    .word 0x0b412283  # lw x5, 180(x2)
    .word 0x0c512a23  # sw x5, 212(x2)
    .word 0x0b812283  # lw x5, 184(x2)
    .word 0x0c512c23  # sw x5, 216(x2)
    .word 0x0bc12283  # lw x5, 188(x2)
    .word 0x0c512e23  # sw x5, 220(x2)
    .word 0xc68ff06f  # jal x0, -2968
    .word 0x24012a23  # sw x0, 596(x2)
    .word 0x00800293  # addi x5, x0, 8
    .word 0x24512c23  # sw x5, 600(x2)
    .word 0x25412303  # lw x6, 596(x2)
    .word 0x25812283  # lw x5, 600(x2)
    .word 0x005332b3  # sltu x5, x6, x5
    .word 0x00029463  # bne x5, x0, 8
    .word 0x15c0006f  # jal x0, 348
    .word 0x20612223  # sw x6, 516(x2)
    .word 0x00130313  # addi x6, x6, 1
    .word 0x24612a23  # sw x6, 596(x2)
    .word 0x20412283  # lw x5, 516(x2)
    .word 0x0072f513  # andi x10, x5, 7
    .word 0x00251493  # slli x9, x10, 2
    .word 0x002484b3  # add x9, x9, x2
    .word 0x01f00293  # addi x5, x0, 31
    .word 0x00251313  # slli x6, x10, 2
    .word 0x406282b3  # sub x5, x5, x6
    .word 0x01050313  # addi x6, x10, 16
    .word 0x00231313  # slli x6, x6, 2
    .word 0x00230333  # add x6, x6, x2
    .word 0x0a032303  # lw x6, 160(x6)
    .word 0x002282b3  # add x5, x5, x2
    .word 0x06628023  # sb x6, 96(x5)
    .word 0x03f00293  # addi x5, x0, 63
    .word 0x00251313  # slli x6, x10, 2
    .word 0x406282b3  # sub x5, x5, x6
    .word 0x01850313  # addi x6, x10, 24
    .word 0x00231313  # slli x6, x6, 2
    .word 0x00230333  # add x6, x6, x2
    .word 0x0a032303  # lw x6, 160(x6)
    .word 0x002282b3  # add x5, x5, x2
    .word 0x06628023  # sb x6, 96(x5)
    .word 0x01f00293  # addi x5, x0, 31
    .word 0x00251313  # slli x6, x10, 2
    .word 0x406282b3  # sub x5, x5, x6
    .word 0x01050313  # addi x6, x10, 16
    .word 0x00231313  # slli x6, x6, 2
    .word 0x00230333  # add x6, x6, x2
    .word 0x0a032303  # lw x6, 160(x6)
    .word 0x00835313  # srli x6, x6, 8
    .word 0x002282b3  # add x5, x5, x2
    .word 0x04628fa3  # sb x6, 95(x5)
    .word 0x03f00293  # addi x5, x0, 63
    .word 0x00251313  # slli x6, x10, 2
    .word 0x406282b3  # sub x5, x5, x6
    .word 0x01850313  # addi x6, x10, 24
    .word 0x00231313  # slli x6, x6, 2
    .word 0x00230333  # add x6, x6, x2
    .word 0x0a032303  # lw x6, 160(x6)
    .word 0x00835313  # srli x6, x6, 8
    .word 0x002282b3  # add x5, x5, x2
    .word 0x04628fa3  # sb x6, 95(x5)
    .word 0x01f00293  # addi x5, x0, 31
    .word 0x00251313  # slli x6, x10, 2
    .word 0x406282b3  # sub x5, x5, x6
    .word 0x01050313  # addi x6, x10, 16
    .word 0x00231313  # slli x6, x6, 2
    .word 0x00230333  # add x6, x6, x2
    .word 0x0a032303  # lw x6, 160(x6)
    .word 0x01035313  # srli x6, x6, 16
    .word 0x002282b3  # add x5, x5, x2
    .word 0x04628f23  # sb x6, 94(x5)
    .word 0x03f00293  # addi x5, x0, 63
    .word 0x00251313  # slli x6, x10, 2
    .word 0x406282b3  # sub x5, x5, x6
    .word 0x01850313  # addi x6, x10, 24
    .word 0x00231313  # slli x6, x6, 2
    .word 0x00230333  # add x6, x6, x2
    .word 0x0a032303  # lw x6, 160(x6)
    .word 0x01035313  # srli x6, x6, 16
    .word 0x002282b3  # add x5, x5, x2
    .word 0x04628f23  # sb x6, 94(x5)
    .word 0x01f00293  # addi x5, x0, 31
    .word 0x00251313  # slli x6, x10, 2
    .word 0x406282b3  # sub x5, x5, x6
    .word 0x01050313  # addi x6, x10, 16
    .word 0x00231313  # slli x6, x6, 2
    .word 0x00230333  # add x6, x6, x2
    .word 0x0a032303  # lw x6, 160(x6)
    .word 0x01835313  # srli x6, x6, 24
    .word 0x002282b3  # add x5, x5, x2
    .word 0x04628ea3  # sb x6, 93(x5)
    .word 0x03f00293  # addi x5, x0, 63
    .word 0x00251313  # slli x6, x10, 2
    .word 0x406282b3  # sub x5, x5, x6
    .word 0x01850313  # addi x6, x10, 24
    .word 0x00231313  # slli x6, x6, 2
    .word 0x00230333  # add x6, x6, x2
    .word 0x0a032303  # lw x6, 160(x6)
    .word 0x01835313  # srli x6, x6, 24
    .word 0x002282b3  # add x5, x5, x2
    .word 0x04628ea3  # sb x6, 93(x5)
    .word 0xe99ff06f  # jal x0, -360
    .word 0x20012283  # lw x5, 512(x2)
    .word 0x24512823  # sw x5, 592(x2)
    # the result
    .word 0x25012503  # lw x10, 592(x2)
    # parameter 2: the array, back
    .word 0x06010293  # addi x5, x2, 96
    .word 0x2ac12303  # lw x6, 684(x2)
    .word 0x04028393  # addi x7, x5, 64
    .word 0x09000f6f  # jal x30, 144
    # above the frame
    .word 0x27010293  # addi x5, x2, 624
    # the caller's registers
    .word 0x0002a403  # lw x8, 0(x5)
    .cfi_restore 8
    .word 0x0042a483  # lw x9, 4(x5)
    .cfi_restore 9
    .word 0x0082a903  # lw x18, 8(x5)
    .cfi_restore 18
    .word 0x00c2a983  # lw x19, 12(x5)
    .cfi_restore 19
    .word 0x0102aa03  # lw x20, 16(x5)
    .cfi_restore 20
    .word 0x0142aa83  # lw x21, 20(x5)
    .cfi_restore 21
    .word 0x0182ab03  # lw x22, 24(x5)
    .cfi_restore 22
    .word 0x01c2ab83  # lw x23, 28(x5)
    .cfi_restore 23
    .word 0x0202ac03  # lw x24, 32(x5)
    .cfi_restore 24
    .word 0x0242ac83  # lw x25, 36(x5)
    .cfi_restore 25
    .word 0x0282ad03  # lw x26, 40(x5)
    .cfi_restore 26
    .word 0x02c2ad83  # lw x27, 44(x5)
    .cfi_restore 27
    # the caller's x2
    .word 0x04028293  # addi x5, x5, 64
    .cfi_def_cfa 5, 0
    # all the room, wiped upward
    .word 0x00012023  # sw x0, 0(x2)
    .word 0x00012223  # sw x0, 4(x2)
    .word 0x00012423  # sw x0, 8(x2)
    .word 0x00012623  # sw x0, 12(x2)
    .word 0x01010113  # addi x2, x2, 16
    .word 0xfe5116e3  # bne x2, x5, -20
    .cfi_def_cfa 2, 0
    # temporaries, wiped
    .word 0x00000293  # addi x5, x0, 0
    .word 0x00000313  # addi x6, x0, 0
    .word 0x00000393  # addi x7, x0, 0
    .word 0x00000593  # addi x11, x0, 0
    .word 0x00000613  # addi x12, x0, 0
    .word 0x00000693  # addi x13, x0, 0
    .word 0x00000713  # addi x14, x0, 0
    .word 0x00000793  # addi x15, x0, 0
    .word 0x00000813  # addi x16, x0, 0
    .word 0x00000893  # addi x17, x0, 0
    .word 0x00000e13  # addi x28, x0, 0
    .word 0x00000e93  # addi x29, x0, 0
    .word 0x00000f13  # addi x30, x0, 0
    .word 0x00000f93  # addi x31, x0, 0
    # back
    .word 0x00008067  # jalr x0, 0(x1)
    # from x5 to x6 up to x7, and back
    .cfi_def_cfa 2, 688
    .cfi_offset 8, -64
    .cfi_offset 9, -60
    .cfi_offset 18, -56
    .cfi_offset 19, -52
    .cfi_offset 20, -48
    .cfi_offset 21, -44
    .cfi_offset 22, -40
    .cfi_offset 23, -36
    .cfi_offset 24, -32
    .cfi_offset 25, -28
    .cfi_offset 26, -24
    .cfi_offset 27, -20
    .word 0x0062ee33  # or x28, x5, x6
    .word 0x003e7e13  # andi x28, x28, 3
    .word 0x000e0e63  # beq x28, x0, 28
    .word 0x0002ce03  # lbu x28, 0(x5)
    .word 0x01c30023  # sb x28, 0(x6)
    .word 0x00128293  # addi x5, x5, 1
    .word 0x00130313  # addi x6, x6, 1
    .word 0xfe7298e3  # bne x5, x7, -16
    .word 0x0300006f  # jal x0, 48
    .word 0x0002ae03  # lw x28, 0(x5)
    .word 0x01c32023  # sw x28, 0(x6)
    .word 0x0042ae03  # lw x28, 4(x5)
    .word 0x01c32223  # sw x28, 4(x6)
    .word 0x0082ae03  # lw x28, 8(x5)
    .word 0x01c32423  # sw x28, 8(x6)
    .word 0x00c2ae03  # lw x28, 12(x5)
    .word 0x01c32623  # sw x28, 12(x6)
    .word 0x01028293  # addi x5, x5, 16
    .word 0x01030313  # addi x6, x6, 16
    .word 0xfc729ce3  # bne x5, x7, -40
    .word 0x000f0067  # jalr x0, 0(x30)
    .cfi_endproc
    .size p256_verify_scalars, . - p256_verify_scalars
    .option pop
