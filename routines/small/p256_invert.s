# p256_invert: made by factc 1.0.0 function; 404 words and 21 shared, 848 bytes of stack, profile 1
    .option push
    .option norvc
    .option norelax
    .cfi_sections .debug_frame
    .section .text.p256_invert, "ax", @progbits
    .p2align 2
    .globl p256_invert
    .type p256_invert, @function
p256_invert:
    .cfi_startproc
    # room above the frame
    .word 0xfd010113  # addi x2, x2, -48
    .cfi_def_cfa_offset 48
    # the caller's registers
    .word 0x01212023  # sw x18, 0(x2)
    .cfi_offset 18, -48
    .word 0x01312223  # sw x19, 4(x2)
    .cfi_offset 19, -44
    .word 0x01412423  # sw x20, 8(x2)
    .cfi_offset 20, -40
    .word 0x01512623  # sw x21, 12(x2)
    .cfi_offset 21, -36
    .word 0x01612823  # sw x22, 16(x2)
    .cfi_offset 22, -32
    .word 0x01712a23  # sw x23, 20(x2)
    .cfi_offset 23, -28
    .word 0x01812c23  # sw x24, 24(x2)
    .cfi_offset 24, -24
    # arguments that are needed behind the body
    .word 0x02a12423  # sw x10, 40(x2)
    .word 0x02b12623  # sw x11, 44(x2)
    # the frame's base
    .word 0xce010113  # addi x2, x2, -800
    .cfi_def_cfa 2, 848
    # parameter 0: an array
    .word 0x00050293  # addi x5, x10, 0
    .word 0x00010313  # addi x6, x2, 0
    .word 0x02028393  # addi x7, x5, 32
    .word 0x0002ae03  # lw x28, 0(x5)
    .word 0x01c32023  # sw x28, 0(x6)
    .word 0x00428293  # addi x5, x5, 4
    .word 0x00430313  # addi x6, x6, 4
    .word 0xfe7298e3  # bne x5, x7, -16
    # the body
    .word 0x00000693  # addi x13, x0, 0
    .word 0x04000313  # addi x6, x0, 64
    .word 0x00230333  # add x6, x6, x2
    .word 0x20000393  # addi x7, x0, 512
    .word 0x006383b3  # add x7, x7, x6
    .word 0x406382b3  # sub x5, x7, x6
    .word 0x00029463  # bne x5, x0, 8
    .word 0x0100006f  # jal x0, 16
    .word 0x00032023  # sw x0, 0(x6)
    .word 0x00430313  # addi x6, x6, 4
    .word 0xfedff06f  # jal x0, -20
    .word 0x24000313  # addi x6, x0, 576
    .word 0x00230333  # add x6, x6, x2
    .word 0x02000393  # addi x7, x0, 32
    .word 0x006383b3  # add x7, x7, x6
    .word 0x406382b3  # sub x5, x7, x6
    .word 0x00029463  # bne x5, x0, 8
    .word 0x0100006f  # jal x0, 16
    .word 0x00032023  # sw x0, 0(x6)
    .word 0x00430313  # addi x6, x6, 4
    .word 0xfedff06f  # jal x0, -20
    .word 0x000012b7  # lui x5, 0x00001
    .word 0x10028293  # addi x5, x5, 256
    .word 0x26512023  # sw x5, 608(x2)
    .word 0x000012b7  # lui x5, 0x00001
    .word 0x21028293  # addi x5, x5, 528
    .word 0x26512223  # sw x5, 612(x2)
    .word 0x000032b7  # lui x5, 0x00003
    .word 0x32228293  # addi x5, x5, 802
    .word 0x26512423  # sw x5, 616(x2)
    .word 0x000062b7  # lui x5, 0x00006
    .word 0x43328293  # addi x5, x5, 1075
    .word 0x26512623  # sw x5, 620(x2)
    .word 0x000032b7  # lui x5, 0x00003
    .word 0x34228293  # addi x5, x5, 834
    .word 0x26512823  # sw x5, 624(x2)
    .word 0x0000f2b7  # lui x5, 0x0000f
    .word 0x43328293  # addi x5, x5, 1075
    .word 0x26512a23  # sw x5, 628(x2)
    .word 0x000022b7  # lui x5, 0x00002
    .word 0x54128293  # addi x5, x5, 1345
    .word 0x26512c23  # sw x5, 632(x2)
    .word 0x000202b7  # lui x5, 0x00020
    .word 0x65028293  # addi x5, x5, 1616
    .word 0x26512e23  # sw x5, 636(x2)
    .word 0x000802b7  # lui x5, 0x00080
    .word 0x66528293  # addi x5, x5, 1637
    .word 0x28512023  # sw x5, 640(x2)
    .word 0x000202b7  # lui x5, 0x00020
    .word 0x66528293  # addi x5, x5, 1637
    .word 0x28512223  # sw x5, 644(x2)
    .word 0x0001e2b7  # lui x5, 0x0001e
    .word 0x66428293  # addi x5, x5, 1636
    .word 0x28512423  # sw x5, 648(x2)
    .word 0x000022b7  # lui x5, 0x00002
    .word 0x66028293  # addi x5, x5, 1632
    .word 0x28512623  # sw x5, 652(x2)
    .word 0xfff00913  # addi x18, x0, -1
    .word 0x00190913  # addi x18, x18, 1
    .word 0x00291b93  # slli x23, x18, 2
    .word 0x002b8bb3  # add x23, x23, x2
    .word 0x000ba283  # lw x5, 0(x23)
    .word 0x045ba023  # sw x5, 64(x23)
    .word 0xff990293  # addi x5, x18, -7
    .word 0xfe0294e3  # bne x5, x0, -24
    .word 0xfff00513  # addi x10, x0, -1
    .word 0x00150513  # addi x10, x10, 1
    .word 0x00251593  # slli x11, x10, 2
    .word 0x002585b3  # add x11, x11, x2
    .word 0x2605a583  # lw x11, 608(x11)
    .word 0x00c5d293  # srli x5, x11, 12
    .word 0x0ff2f613  # andi x12, x5, 255
    .word 0x30012023  # sw x0, 768(x2)
    .word 0x00160293  # addi x5, x12, 1
    .word 0x30512223  # sw x5, 772(x2)
    .word 0x30012303  # lw x6, 768(x2)
    .word 0x30412283  # lw x5, 772(x2)
    .word 0x005332b3  # sltu x5, x6, x5
    .word 0x00029463  # bne x5, x0, 8
    .word 0x4480006f  # jal x0, 1096
    .word 0x00030693  # addi x13, x6, 0
    .word 0x0016b293  # sltiu x5, x13, 1
    .word 0x0015d313  # srli x6, x11, 1
    .word 0x07800393  # addi x7, x0, 120
    .word 0x405002b3  # sub x5, x0, x5
    .word 0x00734333  # xor x6, x6, x7
    .word 0x00537333  # and x6, x6, x5
    .word 0x0063c2b3  # xor x5, x7, x6
    .word 0x0782fb13  # andi x22, x5, 120
    .word 0x002b1c13  # slli x24, x22, 2
    .word 0x002c0c33  # add x24, x24, x2
    .word 0x40c682b3  # sub x5, x13, x12
    .word 0x005032b3  # sltu x5, x0, x5
    .word 0x00359313  # slli x6, x11, 3
    .word 0xfff28293  # addi x5, x5, -1
    .word 0x01634333  # xor x6, x6, x22
    .word 0x00537333  # and x6, x6, x5
    .word 0x006b42b3  # xor x5, x22, x6
    .word 0x0782f713  # andi x14, x5, 120
    .word 0x40c682b3  # sub x5, x13, x12
    .word 0x005032b3  # sltu x5, x0, x5
    .word 0x0055d313  # srli x6, x11, 5
    .word 0x07800393  # addi x7, x0, 120
    .word 0xfff28293  # addi x5, x5, -1
    .word 0x00734333  # xor x6, x6, x7
    .word 0x00537333  # and x6, x6, x5
    .word 0x0063c2b3  # xor x5, x7, x6
    .word 0x0782f793  # andi x15, x5, 120
    .word 0x29000313  # addi x6, x0, 656
    .word 0x00230333  # add x6, x6, x2
    .word 0x02400393  # addi x7, x0, 36
    .word 0x006383b3  # add x7, x7, x6
    .word 0x406382b3  # sub x5, x7, x6
    .word 0x00029463  # bne x5, x0, 8
    .word 0x0100006f  # jal x0, 16
    .word 0x00032023  # sw x0, 0(x6)
    .word 0x00430313  # addi x6, x6, 4
    .word 0xfedff06f  # jal x0, -20
    .word 0x2b400313  # addi x6, x0, 692
    .word 0x00230333  # add x6, x6, x2
    .word 0x02000393  # addi x7, x0, 32
    .word 0x006383b3  # add x7, x7, x6
    .word 0x406382b3  # sub x5, x7, x6
    .word 0x00029463  # bne x5, x0, 8
    .word 0x0100006f  # jal x0, 16
    .word 0x00032023  # sw x0, 0(x6)
    .word 0x00430313  # addi x6, x6, 4
    .word 0xfedff06f  # jal x0, -20
    .word 0xfff00913  # addi x18, x0, -1
    .word 0x00190913  # addi x18, x18, 1
    .word 0x00291b93  # slli x23, x18, 2
    .word 0x002b8bb3  # add x23, x23, x2
    .word 0x012b02b3  # add x5, x22, x18
    .word 0x00229293  # slli x5, x5, 2
    .word 0x002282b3  # add x5, x5, x2
    .word 0x0402a283  # lw x5, 64(x5)
    .word 0x245ba023  # sw x5, 576(x23)
    .word 0xff990293  # addi x5, x18, -7
    .word 0xfc029ee3  # bne x5, x0, -36
    .word 0xfff00b13  # addi x22, x0, -1
    .word 0x001b0b13  # addi x22, x22, 1
    .word 0x002b1c13  # slli x24, x22, 2
    .word 0x002c0c33  # add x24, x24, x2
    .word 0x240c2803  # lw x16, 576(x24)
    .word 0x00000893  # addi x17, x0, 0
    .word 0xfff00913  # addi x18, x0, -1
    .word 0x00190913  # addi x18, x18, 1
    .word 0x00291b93  # slli x23, x18, 2
    .word 0x002b8bb3  # add x23, x23, x2
    .word 0x012702b3  # add x5, x14, x18
    .word 0x00229a93  # slli x21, x5, 2
    .word 0x002a8ab3  # add x21, x21, x2
    .word 0x040aaa83  # lw x21, 64(x21)
    .word 0x035809b3  # mul x19, x16, x21
    .word 0x03583a33  # mulhu x20, x16, x21
    .word 0x294ba283  # lw x5, 660(x23)
    .word 0x01328ab3  # add x21, x5, x19
    .word 0x00091a63  # bne x18, x0, 20
    .word 0x255c2023  # sw x21, 576(x24)
    .word 0x013ab333  # sltu x6, x21, x19
    .word 0x006a08b3  # add x17, x20, x6
    .word 0x0200006f  # jal x0, 32
    .word 0x011a82b3  # add x5, x21, x17
    .word 0x285ba823  # sw x5, 656(x23)
    .word 0x013ab333  # sltu x6, x21, x19
    .word 0x006a02b3  # add x5, x20, x6
    .word 0x290ba303  # lw x6, 656(x23)
    .word 0x01133333  # sltu x6, x6, x17
    .word 0x006288b3  # add x17, x5, x6
    .word 0xff990293  # addi x5, x18, -7
    .word 0xfa0290e3  # bne x5, x0, -96
    .word 0x2b112823  # sw x17, 688(x2)
    .word 0xff9b0293  # addi x5, x22, -7
    .word 0xf6029ee3  # bne x5, x0, -132
    .word 0x2d400313  # addi x6, x0, 724
    .word 0x00230333  # add x6, x6, x2
    .word 0x02000393  # addi x7, x0, 32
    .word 0x006383b3  # add x7, x7, x6
    .word 0x406382b3  # sub x5, x7, x6
    .word 0x00029463  # bne x5, x0, 8
    .word 0x0100006f  # jal x0, 16
    .word 0x00032023  # sw x0, 0(x6)
    .word 0x00430313  # addi x6, x6, 4
    .word 0xfedff06f  # jal x0, -20
    .word 0x00000893  # addi x17, x0, 0
    .word 0xfff00b13  # addi x22, x0, -1
    .word 0x001b0b13  # addi x22, x22, 1
    .word 0x002b1c13  # slli x24, x22, 2
    .word 0x002c0c33  # add x24, x24, x2
    .word 0x008b3293  # sltiu x5, x22, 8
    .word 0x007b7313  # andi x6, x22, 7
    .word 0x00231313  # slli x6, x6, 2
    .word 0x00230333  # add x6, x6, x2
    .word 0x24032303  # lw x6, 576(x6)
    .word 0x007b7393  # andi x7, x22, 7
    .word 0x00239393  # slli x7, x7, 2
    .word 0x002383b3  # add x7, x7, x2
    .word 0x2943a383  # lw x7, 660(x7)
    .word 0x405002b3  # sub x5, x0, x5
    .word 0x00734333  # xor x6, x6, x7
    .word 0x00537333  # and x6, x6, x5
    .word 0x0063c2b3  # xor x5, x7, x6
    .word 0x01128ab3  # add x21, x5, x17
    .word 0x011ab8b3  # sltu x17, x21, x17
    .word 0xffdb0293  # addi x5, x22, -3
    .word 0x00800313  # addi x6, x0, 8
    .word 0x0262f263  # bgeu x5, x6, 36
    .word 0xffdb0293  # addi x5, x22, -3
    .word 0x0072f293  # andi x5, x5, 7
    .word 0x00229993  # slli x19, x5, 2
    .word 0x002989b3  # add x19, x19, x2
    .word 0x2d49a983  # lw x19, 724(x19)
    .word 0x013a8ab3  # add x21, x21, x19
    .word 0x013ab333  # sltu x6, x21, x19
    .word 0x006888b3  # add x17, x17, x6
    .word 0xffab0293  # addi x5, x22, -6
    .word 0x00800313  # addi x6, x0, 8
    .word 0x0262f263  # bgeu x5, x6, 36
    .word 0xffab0293  # addi x5, x22, -6
    .word 0x0072f293  # andi x5, x5, 7
    .word 0x00229993  # slli x19, x5, 2
    .word 0x002989b3  # add x19, x19, x2
    .word 0x2d49a983  # lw x19, 724(x19)
    .word 0x013a8ab3  # add x21, x21, x19
    .word 0x013ab333  # sltu x6, x21, x19
    .word 0x006888b3  # add x17, x17, x6
    .word 0xff9b0293  # addi x5, x22, -7
    .word 0x00800313  # addi x6, x0, 8
    .word 0x0262f463  # bgeu x5, x6, 40
    .word 0xff9b0293  # addi x5, x22, -7
    .word 0x0072f293  # andi x5, x5, 7
    .word 0x00229293  # slli x5, x5, 2
    .word 0x002282b3  # add x5, x5, x2
    .word 0x2d42a283  # lw x5, 724(x5)
    .word 0x405009b3  # sub x19, x0, x5
    .word 0x013a8ab3  # add x21, x21, x19
    .word 0x013ab333  # sltu x6, x21, x19
    .word 0x006888b3  # add x17, x17, x6
    .word 0x00800313  # addi x6, x0, 8
    .word 0x026b6663  # bltu x22, x6, 44
    .word 0xff8b0293  # addi x5, x22, -8
    .word 0x0072f293  # andi x5, x5, 7
    .word 0x00229993  # slli x19, x5, 2
    .word 0x002989b3  # add x19, x19, x2
    .word 0x2d49a983  # lw x19, 724(x19)
    .word 0x01303333  # sltu x6, x0, x19
    .word 0x406989b3  # sub x19, x19, x6
    .word 0x013a8ab3  # add x21, x21, x19
    .word 0x013ab333  # sltu x6, x21, x19
    .word 0x006888b3  # add x17, x17, x6
    .word 0x00800313  # addi x6, x0, 8
    .word 0x006b7c63  # bgeu x22, x6, 24
    .word 0x007b7293  # andi x5, x22, 7
    .word 0x00229293  # slli x5, x5, 2
    .word 0x002282b3  # add x5, x5, x2
    .word 0x2d52aa23  # sw x21, 724(x5)
    .word 0x0180006f  # jal x0, 24
    .word 0xff8b0293  # addi x5, x22, -8
    .word 0x0072f293  # andi x5, x5, 7
    .word 0x00229293  # slli x5, x5, 2
    .word 0x002282b3  # add x5, x5, x2
    .word 0x2b52aa23  # sw x21, 692(x5)
    .word 0xff1b0293  # addi x5, x22, -15
    .word 0xec0296e3  # bne x5, x0, -308
    .word 0x00100a93  # addi x21, x0, 1
    .word 0xfff00913  # addi x18, x0, -1
    .word 0x00190913  # addi x18, x18, 1
    .word 0x00291b93  # slli x23, x18, 2
    .word 0x002b8bb3  # add x23, x23, x2
    .word 0x2b4ba283  # lw x5, 692(x23)
    .word 0x015282b3  # add x5, x5, x21
    .word 0x2a5baa23  # sw x5, 692(x23)
    .word 0x2b4ba283  # lw x5, 692(x23)
    .word 0x0152bab3  # sltu x21, x5, x21
    .word 0xffe90293  # addi x5, x18, -2
    .word 0xfc029ee3  # bne x5, x0, -36
    .word 0x00100293  # addi x5, x0, 1
    .word 0x41528ab3  # sub x21, x5, x21
    .word 0x00200913  # addi x18, x0, 2
    .word 0x00190913  # addi x18, x18, 1
    .word 0x00291b93  # slli x23, x18, 2
    .word 0x002b8bb3  # add x23, x23, x2
    .word 0x2b4ba983  # lw x19, 692(x23)
    .word 0x415982b3  # sub x5, x19, x21
    .word 0x2a5baa23  # sw x5, 692(x23)
    .word 0x0159bab3  # sltu x21, x19, x21
    .word 0xffb90293  # addi x5, x18, -5
    .word 0xfe0290e3  # bne x5, x0, -32
    .word 0x001a8a93  # addi x21, x21, 1
    .word 0x2cc12983  # lw x19, 716(x2)
    .word 0x415982b3  # sub x5, x19, x21
    .word 0x2c512623  # sw x5, 716(x2)
    .word 0x00100293  # addi x5, x0, 1
    .word 0x0159b333  # sltu x6, x19, x21
    .word 0x40628ab3  # sub x21, x5, x6
    .word 0x2d012283  # lw x5, 720(x2)
    .word 0x015282b3  # add x5, x5, x21
    .word 0x2c512823  # sw x5, 720(x2)
    .word 0x2d012283  # lw x5, 720(x2)
    .word 0x0152bab3  # sltu x21, x5, x21
    .word 0x00100293  # addi x5, x0, 1
    .word 0x411282b3  # sub x5, x5, x17
    .word 0x415289b3  # sub x19, x5, x21
    .word 0x00098a93  # addi x21, x19, 0
    .word 0xfff00913  # addi x18, x0, -1
    .word 0x00190913  # addi x18, x18, 1
    .word 0x00291b93  # slli x23, x18, 2
    .word 0x002b8bb3  # add x23, x23, x2
    .word 0x2b4ba883  # lw x17, 692(x23)
    .word 0x415882b3  # sub x5, x17, x21
    .word 0x2a5baa23  # sw x5, 692(x23)
    .word 0x0158bab3  # sltu x21, x17, x21
    .word 0xffe90293  # addi x5, x18, -2
    .word 0xfe0290e3  # bne x5, x0, -32
    .word 0x41598ab3  # sub x21, x19, x21
    .word 0x00200913  # addi x18, x0, 2
    .word 0x00190913  # addi x18, x18, 1
    .word 0x00291b93  # slli x23, x18, 2
    .word 0x002b8bb3  # add x23, x23, x2
    .word 0x2b4ba283  # lw x5, 692(x23)
    .word 0x015282b3  # add x5, x5, x21
    .word 0x2a5baa23  # sw x5, 692(x23)
    .word 0x2b4ba283  # lw x5, 692(x23)
    .word 0x0152bab3  # sltu x21, x5, x21
    .word 0xffb90293  # addi x5, x18, -5
    .word 0xfc029ee3  # bne x5, x0, -36
    .word 0x013a8ab3  # add x21, x21, x19
    .word 0x2cc12283  # lw x5, 716(x2)
    .word 0x015282b3  # add x5, x5, x21
    .word 0x2c512623  # sw x5, 716(x2)
    .word 0x2cc12283  # lw x5, 716(x2)
    .word 0x0152bab3  # sltu x21, x5, x21
    .word 0x2d012283  # lw x5, 720(x2)
    .word 0x015282b3  # add x5, x5, x21
    .word 0x413282b3  # sub x5, x5, x19
    .word 0x2c512823  # sw x5, 720(x2)
    .word 0xfff00913  # addi x18, x0, -1
    .word 0x00190913  # addi x18, x18, 1
    .word 0x00291b93  # slli x23, x18, 2
    .word 0x002b8bb3  # add x23, x23, x2
    .word 0x012782b3  # add x5, x15, x18
    .word 0x2b4ba303  # lw x6, 692(x23)
    .word 0x00229293  # slli x5, x5, 2
    .word 0x002282b3  # add x5, x5, x2
    .word 0x0462a023  # sw x6, 64(x5)
    .word 0xff990293  # addi x5, x18, -7
    .word 0xfc029ee3  # bne x5, x0, -36
    .word 0x00168693  # addi x13, x13, 1
    .word 0x30412283  # lw x5, 772(x2)
    .word 0x0056b2b3  # sltu x5, x13, x5
    .word 0xbc0296e3  # bne x5, x0, -1076
    .word 0xfff68693  # addi x13, x13, -1
    .word 0x0040006f  # jal x0, 4
    .word 0xff550293  # addi x5, x10, -11
    .word 0xb80290e3  # bne x5, x0, -1152
    .word 0xfff00913  # addi x18, x0, -1
    .word 0x00190913  # addi x18, x18, 1
    .word 0x00291b93  # slli x23, x18, 2
    .word 0x002b8bb3  # add x23, x23, x2
    .word 0x03090293  # addi x5, x18, 48
    .word 0x00229293  # slli x5, x5, 2
    .word 0x002282b3  # add x5, x5, x2
    .word 0x0402a283  # lw x5, 64(x5)
    .word 0x025ba023  # sw x5, 32(x23)
    .word 0xff990293  # addi x5, x18, -7
    .word 0xfc029ee3  # bne x5, x0, -36
    # the result
    .word 0x00000513  # addi x10, x0, 0
    # parameter 1: the array, back
    .word 0x02010293  # addi x5, x2, 32
    .word 0x34c12303  # lw x6, 844(x2)
    .word 0x02028393  # addi x7, x5, 32
    .word 0x0002ae03  # lw x28, 0(x5)
    .word 0x01c32023  # sw x28, 0(x6)
    .word 0x00428293  # addi x5, x5, 4
    .word 0x00430313  # addi x6, x6, 4
    .word 0xfe7298e3  # bne x5, x7, -16
    # above the frame
    .word 0x32010293  # addi x5, x2, 800
    # the caller's registers
    .word 0x0002a903  # lw x18, 0(x5)
    .cfi_restore 18
    .word 0x0042a983  # lw x19, 4(x5)
    .cfi_restore 19
    .word 0x0082aa03  # lw x20, 8(x5)
    .cfi_restore 20
    .word 0x00c2aa83  # lw x21, 12(x5)
    .cfi_restore 21
    .word 0x0102ab03  # lw x22, 16(x5)
    .cfi_restore 22
    .word 0x0142ab83  # lw x23, 20(x5)
    .cfi_restore 23
    .word 0x0182ac03  # lw x24, 24(x5)
    .cfi_restore 24
    # the caller's x2
    .word 0x03028293  # addi x5, x5, 48
    .cfi_def_cfa 5, 0
    # on to the tail that functions share
    jal x0, factc.tail.1
    .cfi_endproc
    .size p256_invert, . - p256_invert
    .section .text.factc.tail.1, "axG", @progbits, factc.tail.1, comdat
    .p2align 2
    .globl factc.tail.1
    .hidden factc.tail.1
    .type factc.tail.1, @function
factc.tail.1:
    .cfi_startproc
    .cfi_def_cfa 5, 0
    # all the room, wiped upward
    .word 0x00012023  # sw x0, 0(x2)
    .word 0x00012223  # sw x0, 4(x2)
    .word 0x00012423  # sw x0, 8(x2)
    .word 0x00012623  # sw x0, 12(x2)
    .word 0x01010113  # addi x2, x2, 16
    .word 0xfe5116e3  # bne x2, x5, -20
    .cfi_def_cfa 2, 0
    # temporaries, wiped
    .word 0x00000293  # addi x5, x0, 0
    .word 0x00000313  # addi x6, x0, 0
    .word 0x00000393  # addi x7, x0, 0
    .word 0x00000593  # addi x11, x0, 0
    .word 0x00000613  # addi x12, x0, 0
    .word 0x00000693  # addi x13, x0, 0
    .word 0x00000713  # addi x14, x0, 0
    .word 0x00000793  # addi x15, x0, 0
    .word 0x00000813  # addi x16, x0, 0
    .word 0x00000893  # addi x17, x0, 0
    .word 0x00000e13  # addi x28, x0, 0
    .word 0x00000e93  # addi x29, x0, 0
    .word 0x00000f13  # addi x30, x0, 0
    .word 0x00000f93  # addi x31, x0, 0
    # back
    .word 0x00008067  # jalr x0, 0(x1)
    .cfi_endproc
    .size factc.tail.1, . - factc.tail.1
    .option pop
