# p256_sign: made by factc 1.0.0 function; 759 words and 21 shared, 1024 bytes of stack, profile 1
    .option push
    .option norvc
    .option norelax
    .cfi_sections .debug_frame
    .section .text.p256_sign, "ax", @progbits
    .p2align 2
    .globl p256_sign
    .type p256_sign, @function
p256_sign:
    .cfi_startproc
    # room above the frame
    .word 0xfb010113  # addi x2, x2, -80
    .cfi_def_cfa_offset 80
    # the caller's registers
    .word 0x00812023  # sw x8, 0(x2)
    .cfi_offset 8, -80
    .word 0x00912223  # sw x9, 4(x2)
    .cfi_offset 9, -76
    .word 0x01212423  # sw x18, 8(x2)
    .cfi_offset 18, -72
    .word 0x01312623  # sw x19, 12(x2)
    .cfi_offset 19, -68
    .word 0x01412823  # sw x20, 16(x2)
    .cfi_offset 20, -64
    .word 0x01512a23  # sw x21, 20(x2)
    .cfi_offset 21, -60
    .word 0x01612c23  # sw x22, 24(x2)
    .cfi_offset 22, -56
    .word 0x01712e23  # sw x23, 28(x2)
    .cfi_offset 23, -52
    .word 0x03812023  # sw x24, 32(x2)
    .cfi_offset 24, -48
    .word 0x03912223  # sw x25, 36(x2)
    .cfi_offset 25, -44
    .word 0x03a12423  # sw x26, 40(x2)
    .cfi_offset 26, -40
    .word 0x03b12623  # sw x27, 44(x2)
    .cfi_offset 27, -36
    # arguments that are needed behind the body
    .word 0x02a12e23  # sw x10, 60(x2)
    .word 0x04b12023  # sw x11, 64(x2)
    .word 0x04c12223  # sw x12, 68(x2)
    .word 0x04d12423  # sw x13, 72(x2)
    .word 0x04e12623  # sw x14, 76(x2)
    # the frame's base
    .word 0xc5010113  # addi x2, x2, -944
    .cfi_def_cfa 2, 1024
    # parameter 0: an array
    .word 0x00050293  # addi x5, x10, 0
    .word 0x00010313  # addi x6, x2, 0
    .word 0x02028393  # addi x7, x5, 32
    .word 0x0002ce03  # lbu x28, 0(x5)
    .word 0x01c30023  # sb x28, 0(x6)
    .word 0x00128293  # addi x5, x5, 1
    .word 0x00130313  # addi x6, x6, 1
    .word 0xfe7298e3  # bne x5, x7, -16
    # parameter 1: an array
    .word 0x00058293  # addi x5, x11, 0
    .word 0x02010313  # addi x6, x2, 32
    .word 0x02028393  # addi x7, x5, 32
    .word 0x0002ce03  # lbu x28, 0(x5)
    .word 0x01c30023  # sb x28, 0(x6)
    .word 0x00128293  # addi x5, x5, 1
    .word 0x00130313  # addi x6, x6, 1
    .word 0xfe7298e3  # bne x5, x7, -16
    # parameter 2: an array
    .word 0x00060293  # addi x5, x12, 0
    .word 0x04010313  # addi x6, x2, 64
    .word 0x02028393  # addi x7, x5, 32
    .word 0x0002ce03  # lbu x28, 0(x5)
    .word 0x01c30023  # sb x28, 0(x6)
    .word 0x00128293  # addi x5, x5, 1
    .word 0x00130313  # addi x6, x6, 1
    .word 0xfe7298e3  # bne x5, x7, -16
    # parameter 3: an array
    .word 0x00068293  # addi x5, x13, 0
    .word 0x06010313  # addi x6, x2, 96
    .word 0x02028393  # addi x7, x5, 32
    .word 0x0002ce03  # lbu x28, 0(x5)
    .word 0x01c30023  # sb x28, 0(x6)
    .word 0x00128293  # addi x5, x5, 1
    .word 0x00130313  # addi x6, x6, 1
    .word 0xfe7298e3  # bne x5, x7, -16
    # parameter 4: an array
    .word 0x00070293  # addi x5, x14, 0
    .word 0x08010313  # addi x6, x2, 128
    .word 0x04028393  # addi x7, x5, 64
    .word 0x0002ce03  # lbu x28, 0(x5)
    .word 0x01c30023  # sb x28, 0(x6)
    .word 0x00128293  # addi x5, x5, 1
    .word 0x00130313  # addi x6, x6, 1
    .word 0xfe7298e3  # bne x5, x7, -16
    # the body
    .word 0xfc6322b7  # lui x5, 0xfc632
    .word 0x54f28293  # addi x5, x5, 1359
    .word 0x38512423  # sw x5, 904(x2)
    .word 0xee00cdb7  # lui x27, 0xee00c
    .word 0xc4fd8d93  # addi x27, x27, -945
    .word 0x0c000313  # addi x6, x0, 192
    .word 0x00230333  # add x6, x6, x2
    .word 0x10000393  # addi x7, x0, 256
    .word 0x006383b3  # add x7, x7, x6
    .word 0x406382b3  # sub x5, x7, x6
    .word 0x00029463  # bne x5, x0, 8
    .word 0x0100006f  # jal x0, 16
    .word 0x00032023  # sw x0, 0(x6)
    .word 0x00430313  # addi x6, x6, 4
    .word 0xfedff06f  # jal x0, -20
    .word 0xfc6322b7  # lui x5, 0xfc632
    .word 0x55128293  # addi x5, x5, 1361
    .word 0x1c512023  # sw x5, 448(x2)
    .word 0xf3b9d2b7  # lui x5, 0xf3b9d
    .word 0xac228293  # addi x5, x5, -1342
    .word 0x1c512223  # sw x5, 452(x2)
    .word 0xa717a2b7  # lui x5, 0xa717a
    .word 0xe8428293  # addi x5, x5, -380
    .word 0x1c512423  # sw x5, 456(x2)
    .word 0xbce702b7  # lui x5, 0xbce70
    .word 0xaad28293  # addi x5, x5, -1363
    .word 0x1c512623  # sw x5, 460(x2)
    .word 0x000002b7  # lui x5, 0x00000
    .word 0xfff28293  # addi x5, x5, -1
    .word 0x1c512823  # sw x5, 464(x2)
    .word 0x000002b7  # lui x5, 0x00000
    .word 0xfff28293  # addi x5, x5, -1
    .word 0x1c512a23  # sw x5, 468(x2)
    .word 0x1c012c23  # sw x0, 472(x2)
    .word 0x000002b7  # lui x5, 0x00000
    .word 0xfff28293  # addi x5, x5, -1
    .word 0x1c512e23  # sw x5, 476(x2)
    .word 0xbe79f2b7  # lui x5, 0xbe79f
    .word 0xea228293  # addi x5, x5, -350
    .word 0x1e512023  # sw x5, 480(x2)
    .word 0x832452b7  # lui x5, 0x83245
    .word 0xc9528293  # addi x5, x5, -875
    .word 0x1e512223  # sw x5, 484(x2)
    .word 0x49bd72b7  # lui x5, 0x49bd7
    .word 0xfa628293  # addi x5, x5, -90
    .word 0x1e512423  # sw x5, 488(x2)
    .word 0x469982b7  # lui x5, 0x46998
    .word 0x99c28293  # addi x5, x5, -1636
    .word 0x1e512623  # sw x5, 492(x2)
    .word 0x2b6bf2b7  # lui x5, 0x2b6bf
    .word 0xc5928293  # addi x5, x5, -935
    .word 0x1e512823  # sw x5, 496(x2)
    .word 0x2845b2b7  # lui x5, 0x2845b
    .word 0x23928293  # addi x5, x5, 569
    .word 0x1e512a23  # sw x5, 500(x2)
    .word 0xf3d952b7  # lui x5, 0xf3d95
    .word 0x62028293  # addi x5, x5, 1568
    .word 0x1e512c23  # sw x5, 504(x2)
    .word 0x66e132b7  # lui x5, 0x66e13
    .word 0xd9428293  # addi x5, x5, -620
    .word 0x1e512e23  # sw x5, 508(x2)
    .word 0x20000313  # addi x6, x0, 512
    .word 0x00230333  # add x6, x6, x2
    .word 0x04000393  # addi x7, x0, 64
    .word 0x006383b3  # add x7, x7, x6
    .word 0x406382b3  # sub x5, x7, x6
    .word 0x00029463  # bne x5, x0, 8
    .word 0x0100006f  # jal x0, 16
    .word 0x00032023  # sw x0, 0(x6)
    .word 0x00430313  # addi x6, x6, 4
    .word 0xfedff06f  # jal x0, -20
    .word 0x24000313  # addi x6, x0, 576
    .word 0x00230333  # add x6, x6, x2
    .word 0x04000393  # addi x7, x0, 64
    .word 0x006383b3  # add x7, x7, x6
    .word 0x406382b3  # sub x5, x7, x6
    .word 0x00029463  # bne x5, x0, 8
    .word 0x0100006f  # jal x0, 16
    .word 0x00032023  # sw x0, 0(x6)
    .word 0x00430313  # addi x6, x6, 4
    .word 0xfedff06f  # jal x0, -20
    .word 0xfff00593  # addi x11, x0, -1
    .word 0x00158593  # addi x11, x11, 1
    .word 0x00258333  # add x6, x11, x2
    .word 0x02034303  # lbu x6, 32(x6)
    .word 0x002582b3  # add x5, x11, x2
    .word 0x20628023  # sb x6, 512(x5)
    .word 0x00258333  # add x6, x11, x2
    .word 0x00034303  # lbu x6, 0(x6)
    .word 0x002582b3  # add x5, x11, x2
    .word 0x22628023  # sb x6, 544(x5)
    .word 0x00258333  # add x6, x11, x2
    .word 0x04034303  # lbu x6, 64(x6)
    .word 0x002582b3  # add x5, x11, x2
    .word 0x24628023  # sb x6, 576(x5)
    .word 0x00258333  # add x6, x11, x2
    .word 0x06034303  # lbu x6, 96(x6)
    .word 0x002582b3  # add x5, x11, x2
    .word 0x26628023  # sb x6, 608(x5)
    .word 0xfe158293  # addi x5, x11, -31
    .word 0xfa029ce3  # bne x5, x0, -72
    .word 0xfff00b93  # addi x23, x0, -1
    .word 0x001b8b93  # addi x23, x23, 1
    .word 0x002b9493  # slli x9, x23, 2
    .word 0x002484b3  # add x9, x9, x2
    .word 0x1e04a283  # lw x5, 480(x9)
    .word 0x1654a023  # sw x5, 352(x9)
    .word 0xff9b8293  # addi x5, x23, -7
    .word 0xfe0294e3  # bne x5, x0, -24
    .word 0x00100513  # addi x10, x0, 1
    .word 0x38012823  # sw x0, 912(x2)
    .word 0x00200293  # addi x5, x0, 2
    .word 0x38512a23  # sw x5, 916(x2)
    .word 0x39012303  # lw x6, 912(x2)
    .word 0x39412283  # lw x5, 916(x2)
    .word 0x005332b3  # sltu x5, x6, x5
    .word 0x00029463  # bne x5, x0, 8
    .word 0x2780006f  # jal x0, 632
    .word 0x28612023  # sw x6, 640(x2)
    .word 0x00130313  # addi x6, x6, 1
    .word 0x38612823  # sw x6, 912(x2)
    .word 0x28012283  # lw x5, 640(x2)
    .word 0x0012f813  # andi x16, x5, 1
    .word 0x00481913  # slli x18, x16, 4
    .word 0x00581793  # slli x15, x16, 5
    .word 0x00000a13  # addi x20, x0, 0
    .word 0x00000c13  # addi x24, x0, 0
    .word 0xfff00593  # addi x11, x0, -1
    .word 0x00158593  # addi x11, x11, 1
    .word 0x0075fb93  # andi x23, x11, 7
    .word 0x002b9493  # slli x9, x23, 2
    .word 0x002484b3  # add x9, x9, x2
    .word 0x01c78293  # addi x5, x15, 28
    .word 0x002b9313  # slli x6, x23, 2
    .word 0x406288b3  # sub x17, x5, x6
    .word 0x002882b3  # add x5, x17, x2
    .word 0x2002c283  # lbu x5, 512(x5)
    .word 0x01829293  # slli x5, x5, 24
    .word 0x00288333  # add x6, x17, x2
    .word 0x20134303  # lbu x6, 513(x6)
    .word 0x01031313  # slli x6, x6, 16
    .word 0x0062e9b3  # or x19, x5, x6
    .word 0x00288333  # add x6, x17, x2
    .word 0x20234303  # lbu x6, 514(x6)
    .word 0x00831313  # slli x6, x6, 8
    .word 0x0069e2b3  # or x5, x19, x6
    .word 0x00288333  # add x6, x17, x2
    .word 0x20334303  # lbu x6, 515(x6)
    .word 0x0062e9b3  # or x19, x5, x6
    .word 0x1c04a303  # lw x6, 448(x9)
    .word 0x0069b2b3  # sltu x5, x19, x6
    .word 0x1c04a383  # lw x7, 448(x9)
    .word 0x40798333  # sub x6, x19, x7
    .word 0x01433333  # sltu x6, x6, x20
    .word 0x00628a33  # add x20, x5, x6
    .word 0x013c6c33  # or x24, x24, x19
    .word 0x017902b3  # add x5, x18, x23
    .word 0x00229293  # slli x5, x5, 2
    .word 0x002282b3  # add x5, x5, x2
    .word 0x0d32a023  # sw x19, 192(x5)
    .word 0xff958293  # addi x5, x11, -7
    .word 0xf6029ee3  # bne x5, x0, -132
    .word 0xfffa0293  # addi x5, x20, -1
    .word 0x0012b293  # sltiu x5, x5, 1
    .word 0x01803333  # sltu x6, x0, x24
    .word 0x0062fd33  # and x26, x5, x6
    .word 0x00381293  # slli x5, x16, 3
    .word 0x01828913  # addi x18, x5, 24
    .word 0x00581793  # slli x15, x16, 5
    .word 0x00000a13  # addi x20, x0, 0
    .word 0x00000c13  # addi x24, x0, 0
    .word 0xfff00593  # addi x11, x0, -1
    .word 0x00158593  # addi x11, x11, 1
    .word 0x0075fb93  # andi x23, x11, 7
    .word 0x002b9493  # slli x9, x23, 2
    .word 0x002484b3  # add x9, x9, x2
    .word 0x01c78293  # addi x5, x15, 28
    .word 0x002b9313  # slli x6, x23, 2
    .word 0x406288b3  # sub x17, x5, x6
    .word 0x002882b3  # add x5, x17, x2
    .word 0x2402c283  # lbu x5, 576(x5)
    .word 0x01829293  # slli x5, x5, 24
    .word 0x00288333  # add x6, x17, x2
    .word 0x24134303  # lbu x6, 577(x6)
    .word 0x01031313  # slli x6, x6, 16
    .word 0x0062e9b3  # or x19, x5, x6
    .word 0x00288333  # add x6, x17, x2
    .word 0x24234303  # lbu x6, 578(x6)
    .word 0x00831313  # slli x6, x6, 8
    .word 0x0069e2b3  # or x5, x19, x6
    .word 0x00288333  # add x6, x17, x2
    .word 0x24334303  # lbu x6, 579(x6)
    .word 0x0062e9b3  # or x19, x5, x6
    .word 0x1c04a303  # lw x6, 448(x9)
    .word 0x0069b2b3  # sltu x5, x19, x6
    .word 0x1c04a383  # lw x7, 448(x9)
    .word 0x40798333  # sub x6, x19, x7
    .word 0x01433333  # sltu x6, x6, x20
    .word 0x00628a33  # add x20, x5, x6
    .word 0x013c6c33  # or x24, x24, x19
    .word 0x017902b3  # add x5, x18, x23
    .word 0x00229293  # slli x5, x5, 2
    .word 0x002282b3  # add x5, x5, x2
    .word 0x0d32a023  # sw x19, 192(x5)
    .word 0xff958293  # addi x5, x11, -7
    .word 0xf6029ee3  # bne x5, x0, -132
    .word 0x01a57533  # and x10, x10, x26
    .word 0x00381293  # slli x5, x16, 3
    .word 0x01828893  # addi x17, x5, 24
    .word 0x28400313  # addi x6, x0, 644
    .word 0x00230333  # add x6, x6, x2
    .word 0x02000393  # addi x7, x0, 32
    .word 0x006383b3  # add x7, x7, x6
    .word 0x406382b3  # sub x5, x7, x6
    .word 0x00029463  # bne x5, x0, 8
    .word 0x0100006f  # jal x0, 16
    .word 0x00032023  # sw x0, 0(x6)
    .word 0x00430313  # addi x6, x6, 4
    .word 0xfedff06f  # jal x0, -20
    .word 0xfff00b93  # addi x23, x0, -1
    .word 0x001b8b93  # addi x23, x23, 1
    .word 0x002b9493  # slli x9, x23, 2
    .word 0x002484b3  # add x9, x9, x2
    .word 0x017882b3  # add x5, x17, x23
    .word 0x00229293  # slli x5, x5, 2
    .word 0x002282b3  # add x5, x5, x2
    .word 0x0c02a283  # lw x5, 192(x5)
    .word 0x2854a223  # sw x5, 644(x9)
    .word 0xff9b8293  # addi x5, x23, -7
    .word 0xfc029ee3  # bne x5, x0, -36
    .word 0x2a400313  # addi x6, x0, 676
    .word 0x00230333  # add x6, x6, x2
    .word 0x02000393  # addi x7, x0, 32
    .word 0x006383b3  # add x7, x7, x6
    .word 0x406382b3  # sub x5, x7, x6
    .word 0x00029463  # bne x5, x0, 8
    .word 0x0100006f  # jal x0, 16
    .word 0x00032023  # sw x0, 0(x6)
    .word 0x00430313  # addi x6, x6, 4
    .word 0xfedff06f  # jal x0, -20
    .word 0x00000993  # addi x19, x0, 0
    .word 0xfff00b93  # addi x23, x0, -1
    .word 0x001b8b93  # addi x23, x23, 1
    .word 0x002b9493  # slli x9, x23, 2
    .word 0x002484b3  # add x9, x9, x2
    .word 0x2844a283  # lw x5, 644(x9)
    .word 0x1c04a303  # lw x6, 448(x9)
    .word 0x40628a33  # sub x20, x5, x6
    .word 0x413a02b3  # sub x5, x20, x19
    .word 0x2a54a223  # sw x5, 676(x9)
    .word 0x2844a283  # lw x5, 644(x9)
    .word 0x1c04a303  # lw x6, 448(x9)
    .word 0x0062b2b3  # sltu x5, x5, x6
    .word 0x013a3333  # sltu x6, x20, x19
    .word 0x006289b3  # add x19, x5, x6
    .word 0xff9b8293  # addi x5, x23, -7
    .word 0xfc0294e3  # bne x5, x0, -56
    .word 0x01303d33  # sltu x26, x0, x19
    .word 0xfff00b93  # addi x23, x0, -1
    .word 0x001b8b93  # addi x23, x23, 1
    .word 0x002b9493  # slli x9, x23, 2
    .word 0x002484b3  # add x9, x9, x2
    .word 0x017882b3  # add x5, x17, x23
    .word 0x2844a383  # lw x7, 644(x9)
    .word 0x2a44a403  # lw x8, 676(x9)
    .word 0x41a00333  # sub x6, x0, x26
    .word 0x0083c3b3  # xor x7, x7, x8
    .word 0x0063f3b3  # and x7, x7, x6
    .word 0x00744333  # xor x6, x8, x7
    .word 0x00229293  # slli x5, x5, 2
    .word 0x002282b3  # add x5, x5, x2
    .word 0x0c62a023  # sw x6, 192(x5)
    .word 0xff9b8293  # addi x5, x23, -7
    .word 0xfc0294e3  # bne x5, x0, -56
    .word 0xd7dff06f  # jal x0, -644
    .word 0xfff00593  # addi x11, x0, -1
    .word 0x00158593  # addi x11, x11, 1
    .word 0x0ff00293  # addi x5, x0, 255
    .word 0x40b282b3  # sub x5, x5, x11
    .word 0x0ff2fb93  # andi x23, x5, 255
    .word 0x002b9493  # slli x9, x23, 2
    .word 0x002484b3  # add x9, x9, x2
    .word 0x020bb293  # sltiu x5, x23, 32
    .word 0x38812303  # lw x6, 904(x2)
    .word 0x005bd393  # srli x7, x23, 5
    .word 0x00239393  # slli x7, x7, 2
    .word 0x002383b3  # add x7, x7, x2
    .word 0x1c03a383  # lw x7, 448(x7)
    .word 0x405002b3  # sub x5, x0, x5
    .word 0x00734333  # xor x6, x6, x7
    .word 0x00537333  # and x6, x6, x5
    .word 0x0063c2b3  # xor x5, x7, x6
    .word 0x01fbf313  # andi x6, x23, 31
    .word 0x0062d2b3  # srl x5, x5, x6
    .word 0x0012f613  # andi x12, x5, 1
    .word 0xfff00693  # addi x13, x0, -1
    .word 0x00168693  # addi x13, x13, 1
    .word 0x00800893  # addi x17, x0, 8
    .word 0x00800913  # addi x18, x0, 8
    .word 0x00100713  # addi x14, x0, 1
    .word 0x02059063  # bne x11, x0, 32
    .word 0x00000893  # addi x17, x0, 0
    .word 0x00000913  # addi x18, x0, 0
    .word 0x02800b93  # addi x23, x0, 40
    .word 0x002b9493  # slli x9, x23, 2
    .word 0x002484b3  # add x9, x9, x2
    .word 0x0016b713  # sltiu x14, x13, 1
    .word 0x0ac0006f  # jal x0, 172
    .word 0x10000313  # addi x6, x0, 256
    .word 0x0265f863  # bgeu x11, x6, 48
    .word 0x0016b293  # sltiu x5, x13, 1
    .word 0x00800313  # addi x6, x0, 8
    .word 0x405002b3  # sub x5, x0, x5
    .word 0x00537bb3  # and x23, x6, x5
    .word 0x002b9493  # slli x9, x23, 2
    .word 0x002484b3  # add x9, x9, x2
    .word 0x0016b293  # sltiu x5, x13, 1
    .word 0xfff60313  # addi x6, x12, -1
    .word 0x00133313  # sltiu x6, x6, 1
    .word 0x0062e733  # or x14, x5, x6
    .word 0x0780006f  # jal x0, 120
    .word 0x10000313  # addi x6, x0, 256
    .word 0x04659663  # bne x11, x6, 76
    .word 0x03000893  # addi x17, x0, 48
    .word 0x0016b293  # sltiu x5, x13, 1
    .word 0x01000313  # addi x6, x0, 16
    .word 0x03000393  # addi x7, x0, 48
    .word 0x405002b3  # sub x5, x0, x5
    .word 0x00734333  # xor x6, x6, x7
    .word 0x00537333  # and x6, x6, x5
    .word 0x0063c933  # xor x18, x7, x6
    .word 0x0016b293  # sltiu x5, x13, 1
    .word 0x02800313  # addi x6, x0, 40
    .word 0x02000393  # addi x7, x0, 32
    .word 0x405002b3  # sub x5, x0, x5
    .word 0x00734333  # xor x6, x6, x7
    .word 0x00537333  # and x6, x6, x5
    .word 0x0063cbb3  # xor x23, x7, x6
    .word 0x002b9493  # slli x9, x23, 2
    .word 0x002484b3  # add x9, x9, x2
    .word 0x0280006f  # jal x0, 40
    .word 0x03000893  # addi x17, x0, 48
    .word 0x03000913  # addi x18, x0, 48
    .word 0x00800b93  # addi x23, x0, 8
    .word 0x002b9493  # slli x9, x23, 2
    .word 0x002484b3  # add x9, x9, x2
    .word 0xefe58293  # addi x5, x11, -258
    .word 0x0012b293  # sltiu x5, x5, 1
    .word 0x0016b313  # sltiu x6, x13, 1
    .word 0x0062f733  # and x14, x5, x6
    .word 0x28070e63  # beq x14, x0, 668
    .word 0x0388f793  # andi x15, x17, 56
    .word 0x03897813  # andi x16, x18, 56
    .word 0x038bf893  # andi x17, x23, 56
    .word 0x1c012283  # lw x5, 448(x2)
    .word 0x2c512223  # sw x5, 708(x2)
    .word 0x1c412283  # lw x5, 452(x2)
    .word 0x2c512423  # sw x5, 712(x2)
    .word 0x1c812283  # lw x5, 456(x2)
    .word 0x2c512623  # sw x5, 716(x2)
    .word 0x1cc12283  # lw x5, 460(x2)
    .word 0x2c512823  # sw x5, 720(x2)
    .word 0x1d012283  # lw x5, 464(x2)
    .word 0x2c512a23  # sw x5, 724(x2)
    .word 0x1d412283  # lw x5, 468(x2)
    .word 0x2c512c23  # sw x5, 728(x2)
    .word 0x1d812283  # lw x5, 472(x2)
    .word 0x2c512e23  # sw x5, 732(x2)
    .word 0x1dc12283  # lw x5, 476(x2)
    .word 0x2e512023  # sw x5, 736(x2)
    .word 0x2e400313  # addi x6, x0, 740
    .word 0x00230333  # add x6, x6, x2
    .word 0x02400393  # addi x7, x0, 36
    .word 0x006383b3  # add x7, x7, x6
    .word 0x406382b3  # sub x5, x7, x6
    .word 0x00029463  # bne x5, x0, 8
    .word 0x0100006f  # jal x0, 16
    .word 0x00032023  # sw x0, 0(x6)
    .word 0x00430313  # addi x6, x6, 4
    .word 0xfedff06f  # jal x0, -20
    .word 0xfff00913  # addi x18, x0, -1
    .word 0x00190913  # addi x18, x18, 1
    .word 0x012802b3  # add x5, x16, x18
    .word 0x00229c13  # slli x24, x5, 2
    .word 0x002c0c33  # add x24, x24, x2
    .word 0x0c0c2c03  # lw x24, 192(x24)
    .word 0x00000993  # addi x19, x0, 0
    .word 0xfff00b93  # addi x23, x0, -1
    .word 0x001b8b93  # addi x23, x23, 1
    .word 0x002b9493  # slli x9, x23, 2
    .word 0x002484b3  # add x9, x9, x2
    .word 0x017882b3  # add x5, x17, x23
    .word 0x00229a13  # slli x20, x5, 2
    .word 0x002a0a33  # add x20, x20, x2
    .word 0x0c0a2a03  # lw x20, 192(x20)
    .word 0x034c0b33  # mul x22, x24, x20
    .word 0x034c3cb3  # mulhu x25, x24, x20
    .word 0x2e44a283  # lw x5, 740(x9)
    .word 0x01628a33  # add x20, x5, x22
    .word 0x013a02b3  # add x5, x20, x19
    .word 0x2e54a223  # sw x5, 740(x9)
    .word 0x016a3333  # sltu x6, x20, x22
    .word 0x006c82b3  # add x5, x25, x6
    .word 0x2e44a303  # lw x6, 740(x9)
    .word 0x01333333  # sltu x6, x6, x19
    .word 0x006289b3  # add x19, x5, x6
    .word 0xff9b8293  # addi x5, x23, -7
    .word 0xfa029ae3  # bne x5, x0, -76
    .word 0x30412283  # lw x5, 772(x2)
    .word 0x01328ab3  # add x21, x5, x19
    .word 0x013ab2b3  # sltu x5, x21, x19
    .word 0x30512223  # sw x5, 772(x2)
    .word 0x2e412283  # lw x5, 740(x2)
    .word 0x03b28b33  # mul x22, x5, x27
    .word 0x00000993  # addi x19, x0, 0
    .word 0xfff00b93  # addi x23, x0, -1
    .word 0x001b8b93  # addi x23, x23, 1
    .word 0x002b9493  # slli x9, x23, 2
    .word 0x002484b3  # add x9, x9, x2
    .word 0x2c44aa03  # lw x20, 708(x9)
    .word 0x034b0c33  # mul x24, x22, x20
    .word 0x034b3cb3  # mulhu x25, x22, x20
    .word 0x2e44a283  # lw x5, 740(x9)
    .word 0x01828a33  # add x20, x5, x24
    .word 0x000b9863  # bne x23, x0, 16
    .word 0x018a3333  # sltu x6, x20, x24
    .word 0x006c89b3  # add x19, x25, x6
    .word 0x0400006f  # jal x0, 64
    .word 0xfffb8293  # addi x5, x23, -1
    .word 0x0072f293  # andi x5, x5, 7
    .word 0x013a0333  # add x6, x20, x19
    .word 0x00229293  # slli x5, x5, 2
    .word 0x002282b3  # add x5, x5, x2
    .word 0x2e62a223  # sw x6, 740(x5)
    .word 0x018a3333  # sltu x6, x20, x24
    .word 0x006c82b3  # add x5, x25, x6
    .word 0xfffb8313  # addi x6, x23, -1
    .word 0x00737313  # andi x6, x6, 7
    .word 0x00231313  # slli x6, x6, 2
    .word 0x00230333  # add x6, x6, x2
    .word 0x2e432303  # lw x6, 740(x6)
    .word 0x01333333  # sltu x6, x6, x19
    .word 0x006289b3  # add x19, x5, x6
    .word 0xff9b8293  # addi x5, x23, -7
    .word 0xf80298e3  # bne x5, x0, -112
    .word 0x013a82b3  # add x5, x21, x19
    .word 0x30512023  # sw x5, 768(x2)
    .word 0x30412283  # lw x5, 772(x2)
    .word 0x30012303  # lw x6, 768(x2)
    .word 0x01333333  # sltu x6, x6, x19
    .word 0x006282b3  # add x5, x5, x6
    .word 0x30512223  # sw x5, 772(x2)
    .word 0xff990293  # addi x5, x18, -7
    .word 0xee0290e3  # bne x5, x0, -288
    .word 0x30800313  # addi x6, x0, 776
    .word 0x00230333  # add x6, x6, x2
    .word 0x02000393  # addi x7, x0, 32
    .word 0x006383b3  # add x7, x7, x6
    .word 0x406382b3  # sub x5, x7, x6
    .word 0x00029463  # bne x5, x0, 8
    .word 0x0100006f  # jal x0, 16
    .word 0x00032023  # sw x0, 0(x6)
    .word 0x00430313  # addi x6, x6, 4
    .word 0xfedff06f  # jal x0, -20
    .word 0xfff00b93  # addi x23, x0, -1
    .word 0x001b8b93  # addi x23, x23, 1
    .word 0x002b9493  # slli x9, x23, 2
    .word 0x002484b3  # add x9, x9, x2
    .word 0x2e44a283  # lw x5, 740(x9)
    .word 0x3054a423  # sw x5, 776(x9)
    .word 0xff9b8293  # addi x5, x23, -7
    .word 0xfe0294e3  # bne x5, x0, -24
    .word 0x30412c03  # lw x24, 772(x2)
    .word 0x32800313  # addi x6, x0, 808
    .word 0x00230333  # add x6, x6, x2
    .word 0x02000393  # addi x7, x0, 32
    .word 0x006383b3  # add x7, x7, x6
    .word 0x406382b3  # sub x5, x7, x6
    .word 0x00029463  # bne x5, x0, 8
    .word 0x0100006f  # jal x0, 16
    .word 0x00032023  # sw x0, 0(x6)
    .word 0x00430313  # addi x6, x6, 4
    .word 0xfedff06f  # jal x0, -20
    .word 0x00000993  # addi x19, x0, 0
    .word 0xfff00b93  # addi x23, x0, -1
    .word 0x001b8b93  # addi x23, x23, 1
    .word 0x002b9493  # slli x9, x23, 2
    .word 0x002484b3  # add x9, x9, x2
    .word 0x3084a283  # lw x5, 776(x9)
    .word 0x1c04a303  # lw x6, 448(x9)
    .word 0x40628a33  # sub x20, x5, x6
    .word 0x413a02b3  # sub x5, x20, x19
    .word 0x3254a423  # sw x5, 808(x9)
    .word 0x3084a283  # lw x5, 776(x9)
    .word 0x1c04a303  # lw x6, 448(x9)
    .word 0x0062b2b3  # sltu x5, x5, x6
    .word 0x013a3333  # sltu x6, x20, x19
    .word 0x006289b3  # add x19, x5, x6
    .word 0xff9b8293  # addi x5, x23, -7
    .word 0xfc0294e3  # bne x5, x0, -56
    .word 0x013c3d33  # sltu x26, x24, x19
    .word 0xfff00b93  # addi x23, x0, -1
    .word 0x001b8b93  # addi x23, x23, 1
    .word 0x002b9493  # slli x9, x23, 2
    .word 0x002484b3  # add x9, x9, x2
    .word 0x017782b3  # add x5, x15, x23
    .word 0x3084a383  # lw x7, 776(x9)
    .word 0x3284a403  # lw x8, 808(x9)
    .word 0x41a00333  # sub x6, x0, x26
    .word 0x0083c3b3  # xor x7, x7, x8
    .word 0x0063f3b3  # and x7, x7, x6
    .word 0x00744333  # xor x6, x8, x7
    .word 0x00229293  # slli x5, x5, 2
    .word 0x002282b3  # add x5, x5, x2
    .word 0x0c62a023  # sw x6, 192(x5)
    .word 0xff9b8293  # addi x5, x23, -7
    .word 0xfc0294e3  # bne x5, x0, -56
    .word 0xfff68293  # addi x5, x13, -1
    .word 0xc80294e3  # bne x5, x0, -888
    .word 0x02059863  # bne x11, x0, 48
    .word 0xfff00b93  # addi x23, x0, -1
    .word 0x001b8b93  # addi x23, x23, 1
    .word 0x002b9493  # slli x9, x23, 2
    .word 0x002484b3  # add x9, x9, x2
    .word 0x008b8293  # addi x5, x23, 8
    .word 0x0c04a303  # lw x6, 192(x9)
    .word 0x00229293  # slli x5, x5, 2
    .word 0x002282b3  # add x5, x5, x2
    .word 0x0c62a023  # sw x6, 192(x5)
    .word 0xff9b8293  # addi x5, x23, -7
    .word 0xfc029ee3  # bne x5, x0, -36
    .word 0x10100313  # addi x6, x0, 257
    .word 0x14659063  # bne x11, x6, 320
    .word 0x34800313  # addi x6, x0, 840
    .word 0x00230333  # add x6, x6, x2
    .word 0x02000393  # addi x7, x0, 32
    .word 0x006383b3  # add x7, x7, x6
    .word 0x406382b3  # sub x5, x7, x6
    .word 0x00029463  # bne x5, x0, 8
    .word 0x0100006f  # jal x0, 16
    .word 0x00032023  # sw x0, 0(x6)
    .word 0x00430313  # addi x6, x6, 4
    .word 0xfedff06f  # jal x0, -20
    .word 0x00000993  # addi x19, x0, 0
    .word 0xfff00b93  # addi x23, x0, -1
    .word 0x001b8b93  # addi x23, x23, 1
    .word 0x002b9493  # slli x9, x23, 2
    .word 0x002484b3  # add x9, x9, x2
    .word 0x030b8293  # addi x5, x23, 48
    .word 0x00229293  # slli x5, x5, 2
    .word 0x002282b3  # add x5, x5, x2
    .word 0x0c02a283  # lw x5, 192(x5)
    .word 0x018b8313  # addi x6, x23, 24
    .word 0x00231313  # slli x6, x6, 2
    .word 0x00230333  # add x6, x6, x2
    .word 0x0c032303  # lw x6, 192(x6)
    .word 0x00628a33  # add x20, x5, x6
    .word 0x013a0c33  # add x24, x20, x19
    .word 0x030b8313  # addi x6, x23, 48
    .word 0x00231313  # slli x6, x6, 2
    .word 0x00230333  # add x6, x6, x2
    .word 0x0c032303  # lw x6, 192(x6)
    .word 0x006a32b3  # sltu x5, x20, x6
    .word 0x013c3333  # sltu x6, x24, x19
    .word 0x006289b3  # add x19, x5, x6
    .word 0x3584a423  # sw x24, 840(x9)
    .word 0xff9b8293  # addi x5, x23, -7
    .word 0xfa0294e3  # bne x5, x0, -88
    .word 0x36800313  # addi x6, x0, 872
    .word 0x00230333  # add x6, x6, x2
    .word 0x02000393  # addi x7, x0, 32
    .word 0x006383b3  # add x7, x7, x6
    .word 0x406382b3  # sub x5, x7, x6
    .word 0x00029463  # bne x5, x0, 8
    .word 0x0100006f  # jal x0, 16
    .word 0x00032023  # sw x0, 0(x6)
    .word 0x00430313  # addi x6, x6, 4
    .word 0xfedff06f  # jal x0, -20
    .word 0x00000a13  # addi x20, x0, 0
    .word 0xfff00b93  # addi x23, x0, -1
    .word 0x001b8b93  # addi x23, x23, 1
    .word 0x002b9493  # slli x9, x23, 2
    .word 0x002484b3  # add x9, x9, x2
    .word 0x3484a283  # lw x5, 840(x9)
    .word 0x1c04a303  # lw x6, 448(x9)
    .word 0x40628c33  # sub x24, x5, x6
    .word 0x414c02b3  # sub x5, x24, x20
    .word 0x3654a423  # sw x5, 872(x9)
    .word 0x3484a283  # lw x5, 840(x9)
    .word 0x1c04a303  # lw x6, 448(x9)
    .word 0x0062b2b3  # sltu x5, x5, x6
    .word 0x014c3333  # sltu x6, x24, x20
    .word 0x00628a33  # add x20, x5, x6
    .word 0xff9b8293  # addi x5, x23, -7
    .word 0xfc0294e3  # bne x5, x0, -56
    .word 0x0149bd33  # sltu x26, x19, x20
    .word 0xfff00b93  # addi x23, x0, -1
    .word 0x001b8b93  # addi x23, x23, 1
    .word 0x002b9493  # slli x9, x23, 2
    .word 0x002484b3  # add x9, x9, x2
    .word 0x030b8293  # addi x5, x23, 48
    .word 0x3484a383  # lw x7, 840(x9)
    .word 0x3684a403  # lw x8, 872(x9)
    .word 0x41a00333  # sub x6, x0, x26
    .word 0x0083c3b3  # xor x7, x7, x8
    .word 0x0063f3b3  # and x7, x7, x6
    .word 0x00744333  # xor x6, x8, x7
    .word 0x00229293  # slli x5, x5, 2
    .word 0x002282b3  # add x5, x5, x2
    .word 0x0c62a023  # sw x6, 192(x5)
    .word 0xff9b8293  # addi x5, x23, -7
    .word 0xfc0294e3  # bne x5, x0, -56
    .word 0xefe58293  # addi x5, x11, -258
    .word 0xaa029ee3  # bne x5, x0, -1348
    .word 0x00000993  # addi x19, x0, 0
    .word 0x00000a13  # addi x20, x0, 0
    .word 0xfff00b93  # addi x23, x0, -1
    .word 0x001b8b93  # addi x23, x23, 1
    .word 0x002b9493  # slli x9, x23, 2
    .word 0x002484b3  # add x9, x9, x2
    .word 0x020b8313  # addi x6, x23, 32
    .word 0x00231313  # slli x6, x6, 2
    .word 0x00230333  # add x6, x6, x2
    .word 0x0c032303  # lw x6, 192(x6)
    .word 0x0069e9b3  # or x19, x19, x6
    .word 0x030b8313  # addi x6, x23, 48
    .word 0x00231313  # slli x6, x6, 2
    .word 0x00230333  # add x6, x6, x2
    .word 0x0c032303  # lw x6, 192(x6)
    .word 0x006a6a33  # or x20, x20, x6
    .word 0xff9b8293  # addi x5, x23, -7
    .word 0xfc0294e3  # bne x5, x0, -56
    .word 0x01303333  # sltu x6, x0, x19
    .word 0x006572b3  # and x5, x10, x6
    .word 0x01403333  # sltu x6, x0, x20
    .word 0x0062f533  # and x10, x5, x6
    .word 0xfff00593  # addi x11, x0, -1
    .word 0x00158593  # addi x11, x11, 1
    .word 0x0075f893  # andi x17, x11, 7
    .word 0xfff00b93  # addi x23, x0, -1
    .word 0x001b8b93  # addi x23, x23, 1
    .word 0x002b9493  # slli x9, x23, 2
    .word 0x002484b3  # add x9, x9, x2
    .word 0x01f00293  # addi x5, x0, 31
    .word 0x00289313  # slli x6, x17, 2
    .word 0x406282b3  # sub x5, x5, x6
    .word 0x417282b3  # sub x5, x5, x23
    .word 0x02088393  # addi x7, x17, 32
    .word 0x00239393  # slli x7, x7, 2
    .word 0x002383b3  # add x7, x7, x2
    .word 0x0c03a383  # lw x7, 192(x7)
    .word 0x40a00333  # sub x6, x0, x10
    .word 0x0063f333  # and x6, x7, x6
    .word 0x003b9393  # slli x7, x23, 3
    .word 0x00735333  # srl x6, x6, x7
    .word 0x002282b3  # add x5, x5, x2
    .word 0x08628023  # sb x6, 128(x5)
    .word 0x03f00293  # addi x5, x0, 63
    .word 0x00289313  # slli x6, x17, 2
    .word 0x406282b3  # sub x5, x5, x6
    .word 0x417282b3  # sub x5, x5, x23
    .word 0x03088393  # addi x7, x17, 48
    .word 0x00239393  # slli x7, x7, 2
    .word 0x002383b3  # add x7, x7, x2
    .word 0x0c03a383  # lw x7, 192(x7)
    .word 0x40a00333  # sub x6, x0, x10
    .word 0x0063f333  # and x6, x7, x6
    .word 0x003b9393  # slli x7, x23, 3
    .word 0x00735333  # srl x6, x6, x7
    .word 0x002282b3  # add x5, x5, x2
    .word 0x08628023  # sb x6, 128(x5)
    .word 0xffdb8293  # addi x5, x23, -3
    .word 0xf80290e3  # bne x5, x0, -128
    .word 0xff958293  # addi x5, x11, -7
    .word 0xf60296e3  # bne x5, x0, -148
    .word 0x38a12623  # sw x10, 908(x2)
    # the result
    .word 0x38c12503  # lw x10, 908(x2)
    # parameter 4: the array, back
    .word 0x08010293  # addi x5, x2, 128
    .word 0x3fc12303  # lw x6, 1020(x2)
    .word 0x04028393  # addi x7, x5, 64
    .word 0x0002ce03  # lbu x28, 0(x5)
    .word 0x01c30023  # sb x28, 0(x6)
    .word 0x00128293  # addi x5, x5, 1
    .word 0x00130313  # addi x6, x6, 1
    .word 0xfe7298e3  # bne x5, x7, -16
    # above the frame
    .word 0x3b010293  # addi x5, x2, 944
    # the caller's registers
    .word 0x0002a403  # lw x8, 0(x5)
    .cfi_restore 8
    .word 0x0042a483  # lw x9, 4(x5)
    .cfi_restore 9
    .word 0x0082a903  # lw x18, 8(x5)
    .cfi_restore 18
    .word 0x00c2a983  # lw x19, 12(x5)
    .cfi_restore 19
    .word 0x0102aa03  # lw x20, 16(x5)
    .cfi_restore 20
    .word 0x0142aa83  # lw x21, 20(x5)
    .cfi_restore 21
    .word 0x0182ab03  # lw x22, 24(x5)
    .cfi_restore 22
    .word 0x01c2ab83  # lw x23, 28(x5)
    .cfi_restore 23
    .word 0x0202ac03  # lw x24, 32(x5)
    .cfi_restore 24
    .word 0x0242ac83  # lw x25, 36(x5)
    .cfi_restore 25
    .word 0x0282ad03  # lw x26, 40(x5)
    .cfi_restore 26
    .word 0x02c2ad83  # lw x27, 44(x5)
    .cfi_restore 27
    # the caller's x2
    .word 0x05028293  # addi x5, x5, 80
    .cfi_def_cfa 5, 0
    # on to the tail that functions share
    jal x0, factc.tail.1
    .cfi_endproc
    .size p256_sign, . - p256_sign
    .section .text.factc.tail.1, "axG", @progbits, factc.tail.1, comdat
    .p2align 2
    .globl factc.tail.1
    .hidden factc.tail.1
    .type factc.tail.1, @function
factc.tail.1:
    .cfi_startproc
    .cfi_def_cfa 5, 0
    # all the room, wiped upward
    .word 0x00012023  # sw x0, 0(x2)
    .word 0x00012223  # sw x0, 4(x2)
    .word 0x00012423  # sw x0, 8(x2)
    .word 0x00012623  # sw x0, 12(x2)
    .word 0x01010113  # addi x2, x2, 16
    .word 0xfe5116e3  # bne x2, x5, -20
    .cfi_def_cfa 2, 0
    # temporaries, wiped
    .word 0x00000293  # addi x5, x0, 0
    .word 0x00000313  # addi x6, x0, 0
    .word 0x00000393  # addi x7, x0, 0
    .word 0x00000593  # addi x11, x0, 0
    .word 0x00000613  # addi x12, x0, 0
    .word 0x00000693  # addi x13, x0, 0
    .word 0x00000713  # addi x14, x0, 0
    .word 0x00000793  # addi x15, x0, 0
    .word 0x00000813  # addi x16, x0, 0
    .word 0x00000893  # addi x17, x0, 0
    .word 0x00000e13  # addi x28, x0, 0
    .word 0x00000e93  # addi x29, x0, 0
    .word 0x00000f13  # addi x30, x0, 0
    .word 0x00000f93  # addi x31, x0, 0
    # back
    .word 0x00008067  # jalr x0, 0(x1)
    .cfi_endproc
    .size factc.tail.1, . - factc.tail.1
    .option pop
