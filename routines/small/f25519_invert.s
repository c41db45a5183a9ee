# f25519_invert: made by factc 1.0.0 function; 440 words and 21 shared, 848 bytes of stack, profile 1
    .option push
    .option norvc
    .option norelax
    .cfi_sections .debug_frame
    .section .text.f25519_invert, "ax", @progbits
    .p2align 2
    .globl f25519_invert
    .type f25519_invert, @function
f25519_invert:
    .cfi_startproc
    # room above the frame
    .word 0xfd010113  # addi x2, x2, -48
    .cfi_def_cfa_offset 48
    # the caller's registers
    .word 0x01212023  # sw x18, 0(x2)
    .cfi_offset 18, -48
    .word 0x01312223  # sw x19, 4(x2)
    .cfi_offset 19, -44
    .word 0x01412423  # sw x20, 8(x2)
    .cfi_offset 20, -40
    .word 0x01512623  # sw x21, 12(x2)
    .cfi_offset 21, -36
    .word 0x01612823  # sw x22, 16(x2)
    .cfi_offset 22, -32
    .word 0x01712a23  # sw x23, 20(x2)
    .cfi_offset 23, -28
    .word 0x01812c23  # sw x24, 24(x2)
    .cfi_offset 24, -24
    .word 0x01912e23  # sw x25, 28(x2)
    .cfi_offset 25, -20
    .word 0x03a12023  # sw x26, 32(x2)
    .cfi_offset 26, -16
    # arguments that are needed behind the body
    .word 0x02a12423  # sw x10, 40(x2)
    .word 0x02b12623  # sw x11, 44(x2)
    # the frame's base
    .word 0xce010113  # addi x2, x2, -800
    .cfi_def_cfa 2, 848
    # parameter 0: an array
    .word 0x00050293  # addi x5, x10, 0
    .word 0x00010313  # addi x6, x2, 0
    .word 0x02028393  # addi x7, x5, 32
    .word 0x0002ae03  # lw x28, 0(x5)
    .word 0x01c32023  # sw x28, 0(x6)
    .word 0x00428293  # addi x5, x5, 4
    .word 0x00430313  # addi x6, x6, 4
    .word 0xfe7298e3  # bne x5, x7, -16
    # the body
    .word 0x00000713  # addi x14, x0, 0
    .word 0x80000c37  # lui x24, 0x80000
    .word 0xfffc0c13  # addi x24, x24, -1
    .word 0x04000313  # addi x6, x0, 64
    .word 0x00230333  # add x6, x6, x2
    .word 0x20000393  # addi x7, x0, 512
    .word 0x006383b3  # add x7, x7, x6
    .word 0x406382b3  # sub x5, x7, x6
    .word 0x00029463  # bne x5, x0, 8
    .word 0x0100006f  # jal x0, 16
    .word 0x00032023  # sw x0, 0(x6)
    .word 0x00430313  # addi x6, x6, 4
    .word 0xfedff06f  # jal x0, -20
    .word 0x24000313  # addi x6, x0, 576
    .word 0x00230333  # add x6, x6, x2
    .word 0x02000393  # addi x7, x0, 32
    .word 0x006383b3  # add x7, x7, x6
    .word 0x406382b3  # sub x5, x7, x6
    .word 0x00029463  # bne x5, x0, 8
    .word 0x0100006f  # jal x0, 16
    .word 0x00032023  # sw x0, 0(x6)
    .word 0x00430313  # addi x6, x6, 4
    .word 0xfedff06f  # jal x0, -20
    .word 0x000032b7  # lui x5, 0x00003
    .word 0x10028293  # addi x5, x5, 256
    .word 0x26512023  # sw x5, 608(x2)
    .word 0x000012b7  # lui x5, 0x00001
    .word 0x20128293  # addi x5, x5, 513
    .word 0x26512223  # sw x5, 612(x2)
    .word 0x000012b7  # lui x5, 0x00001
    .word 0x52128293  # addi x5, x5, 1313
    .word 0x26512423  # sw x5, 616(x2)
    .word 0x000052b7  # lui x5, 0x00005
    .word 0x35528293  # addi x5, x5, 853
    .word 0x26512623  # sw x5, 620(x2)
    .word 0x0000a2b7  # lui x5, 0x0000a
    .word 0x53328293  # addi x5, x5, 1331
    .word 0x26512823  # sw x5, 624(x2)
    .word 0x000142b7  # lui x5, 0x00014
    .word 0x55528293  # addi x5, x5, 1365
    .word 0x26512a23  # sw x5, 628(x2)
    .word 0x0000a2b7  # lui x5, 0x0000a
    .word 0x45328293  # addi x5, x5, 1107
    .word 0x26512c23  # sw x5, 632(x2)
    .word 0x000322b7  # lui x5, 0x00032
    .word 0x54428293  # addi x5, x5, 1348
    .word 0x26512e23  # sw x5, 636(x2)
    .word 0x000642b7  # lui x5, 0x00064
    .word 0x55528293  # addi x5, x5, 1365
    .word 0x28512023  # sw x5, 640(x2)
    .word 0x000322b7  # lui x5, 0x00032
    .word 0x55428293  # addi x5, x5, 1364
    .word 0x28512223  # sw x5, 644(x2)
    .word 0x000052b7  # lui x5, 0x00005
    .word 0x55228293  # addi x5, x5, 1362
    .word 0x28512423  # sw x5, 648(x2)
    .word 0xfff00b13  # addi x22, x0, -1
    .word 0x001b0b13  # addi x22, x22, 1
    .word 0x002b1d13  # slli x26, x22, 2
    .word 0x002d0d33  # add x26, x26, x2
    .word 0x000d2283  # lw x5, 0(x26)
    .word 0x045d2023  # sw x5, 64(x26)
    .word 0xff9b0293  # addi x5, x22, -7
    .word 0xfe0294e3  # bne x5, x0, -24
    .word 0xfff00513  # addi x10, x0, -1
    .word 0x00150513  # addi x10, x10, 1
    .word 0x00251b13  # slli x22, x10, 2
    .word 0x002b0b33  # add x22, x22, x2
    .word 0x260b2b03  # lw x22, 608(x22)
    .word 0x002b1d13  # slli x26, x22, 2
    .word 0x002d0d33  # add x26, x26, x2
    .word 0x005b5293  # srli x5, x22, 5
    .word 0x0782f593  # andi x11, x5, 120
    .word 0x001b5293  # srli x5, x22, 1
    .word 0x0782f913  # andi x18, x5, 120
    .word 0x00cb5293  # srli x5, x22, 12
    .word 0x07f2f613  # andi x12, x5, 127
    .word 0x003b1293  # slli x5, x22, 3
    .word 0x0782f693  # andi x13, x5, 120
    .word 0x28c00313  # addi x6, x0, 652
    .word 0x00230333  # add x6, x6, x2
    .word 0x02000393  # addi x7, x0, 32
    .word 0x006383b3  # add x7, x7, x6
    .word 0x406382b3  # sub x5, x7, x6
    .word 0x00029463  # bne x5, x0, 8
    .word 0x0100006f  # jal x0, 16
    .word 0x00032023  # sw x0, 0(x6)
    .word 0x00430313  # addi x6, x6, 4
    .word 0xfedff06f  # jal x0, -20
    .word 0xfff00b13  # addi x22, x0, -1
    .word 0x001b0b13  # addi x22, x22, 1
    .word 0x002b1d13  # slli x26, x22, 2
    .word 0x002d0d33  # add x26, x26, x2
    .word 0x016902b3  # add x5, x18, x22
    .word 0x00229293  # slli x5, x5, 2
    .word 0x002282b3  # add x5, x5, x2
    .word 0x0402a283  # lw x5, 64(x5)
    .word 0x285d2623  # sw x5, 652(x26)
    .word 0xff9b0293  # addi x5, x22, -7
    .word 0xfc029ee3  # bne x5, x0, -36
    .word 0x01300293  # addi x5, x0, 19
    .word 0x2a812303  # lw x6, 680(x2)
    .word 0x01f35313  # srli x6, x6, 31
    .word 0x02628a33  # mul x20, x5, x6
    .word 0x2a812283  # lw x5, 680(x2)
    .word 0x0182f2b3  # and x5, x5, x24
    .word 0x2a512423  # sw x5, 680(x2)
    .word 0xfff00b13  # addi x22, x0, -1
    .word 0x001b0b13  # addi x22, x22, 1
    .word 0x002b1d13  # slli x26, x22, 2
    .word 0x002d0d33  # add x26, x26, x2
    .word 0x28cd2283  # lw x5, 652(x26)
    .word 0x014282b3  # add x5, x5, x20
    .word 0x285d2623  # sw x5, 652(x26)
    .word 0x28cd2283  # lw x5, 652(x26)
    .word 0x0142ba33  # sltu x20, x5, x20
    .word 0xff9b0293  # addi x5, x22, -7
    .word 0xfc029ee3  # bne x5, x0, -36
    .word 0x28c12283  # lw x5, 652(x2)
    .word 0x01300313  # addi x6, x0, 19
    .word 0x2a812383  # lw x7, 680(x2)
    .word 0x01f3d393  # srli x7, x7, 31
    .word 0x02730333  # mul x6, x6, x7
    .word 0x006282b3  # add x5, x5, x6
    .word 0x28512623  # sw x5, 652(x2)
    .word 0x2a812283  # lw x5, 680(x2)
    .word 0x0182f2b3  # and x5, x5, x24
    .word 0x2a512423  # sw x5, 680(x2)
    .word 0x2e012e23  # sw x0, 764(x2)
    .word 0x00160293  # addi x5, x12, 1
    .word 0x30512023  # sw x5, 768(x2)
    .word 0x2fc12303  # lw x6, 764(x2)
    .word 0x30012283  # lw x5, 768(x2)
    .word 0x005332b3  # sltu x5, x6, x5
    .word 0x00029463  # bne x5, x0, 8
    .word 0x32c0006f  # jal x0, 812
    .word 0x00030713  # addi x14, x6, 0
    .word 0x2ac00313  # addi x6, x0, 684
    .word 0x00230333  # add x6, x6, x2
    .word 0x02400393  # addi x7, x0, 36
    .word 0x006383b3  # add x7, x7, x6
    .word 0x406382b3  # sub x5, x7, x6
    .word 0x00029463  # bne x5, x0, 8
    .word 0x0100006f  # jal x0, 16
    .word 0x00032023  # sw x0, 0(x6)
    .word 0x00430313  # addi x6, x6, 4
    .word 0xfedff06f  # jal x0, -20
    .word 0x16c77463  # bgeu x14, x12, 360
    .word 0x2d000313  # addi x6, x0, 720
    .word 0x00230333  # add x6, x6, x2
    .word 0x02000393  # addi x7, x0, 32
    .word 0x006383b3  # add x7, x7, x6
    .word 0x406382b3  # sub x5, x7, x6
    .word 0x00029463  # bne x5, x0, 8
    .word 0x0100006f  # jal x0, 16
    .word 0x00032023  # sw x0, 0(x6)
    .word 0x00430313  # addi x6, x6, 4
    .word 0xfedff06f  # jal x0, -20
    .word 0x00000b13  # addi x22, x0, 0
    .word 0x001b0b13  # addi x22, x22, 1
    .word 0x002b1d13  # slli x26, x22, 2
    .word 0x002d0d33  # add x26, x26, x2
    .word 0x28cd2283  # lw x5, 652(x26)
    .word 0x00129293  # slli x5, x5, 1
    .word 0x288d2303  # lw x6, 648(x26)
    .word 0x01f35313  # srli x6, x6, 31
    .word 0x0062e2b3  # or x5, x5, x6
    .word 0x2c5d2823  # sw x5, 720(x26)
    .word 0xff9b0293  # addi x5, x22, -7
    .word 0xfc029ce3  # bne x5, x0, -40
    .word 0x00000b93  # addi x23, x0, 0
    .word 0x00000793  # addi x15, x0, 0
    .word 0x00000813  # addi x16, x0, 0
    .word 0xfff00893  # addi x17, x0, -1
    .word 0x00188893  # addi x17, x17, 1
    .word 0x00289c93  # slli x25, x17, 2
    .word 0x002c8cb3  # add x25, x25, x2
    .word 0xfff00b13  # addi x22, x0, -1
    .word 0x001b0b13  # addi x22, x22, 1
    .word 0x002b1d13  # slli x26, x22, 2
    .word 0x002d0d33  # add x26, x26, x2
    .word 0x0018d293  # srli x5, x17, 1
    .word 0x41628933  # sub x18, x5, x22
    .word 0x00893293  # sltiu x5, x18, 8
    .word 0x41288333  # sub x6, x17, x18
    .word 0x00833313  # sltiu x6, x6, 8
    .word 0x0062f2b3  # and x5, x5, x6
    .word 0x06028c63  # beq x5, x0, 120
    .word 0x00797293  # andi x5, x18, 7
    .word 0x00229a13  # slli x20, x5, 2
    .word 0x002a0a33  # add x20, x20, x2
    .word 0x28ca2a03  # lw x20, 652(x20)
    .word 0x001b3293  # sltiu x5, x22, 1
    .word 0x41288333  # sub x6, x17, x18
    .word 0x00737313  # andi x6, x6, 7
    .word 0x00231313  # slli x6, x6, 2
    .word 0x00230333  # add x6, x6, x2
    .word 0x28c32303  # lw x6, 652(x6)
    .word 0x0018f393  # andi x7, x17, 1
    .word 0x00731333  # sll x6, x6, x7
    .word 0x412883b3  # sub x7, x17, x18
    .word 0x0073f393  # andi x7, x7, 7
    .word 0x00239393  # slli x7, x7, 2
    .word 0x002383b3  # add x7, x7, x2
    .word 0x2d03a383  # lw x7, 720(x7)
    .word 0x405002b3  # sub x5, x0, x5
    .word 0x00734333  # xor x6, x6, x7
    .word 0x00537333  # and x6, x6, x5
    .word 0x0063cab3  # xor x21, x7, x6
    .word 0x035a09b3  # mul x19, x20, x21
    .word 0x035a3a33  # mulhu x20, x20, x21
    .word 0x013b8bb3  # add x23, x23, x19
    .word 0x013bb333  # sltu x6, x23, x19
    .word 0x006a0a33  # add x20, x20, x6
    .word 0x014787b3  # add x15, x15, x20
    .word 0x0147b333  # sltu x6, x15, x20
    .word 0x00680833  # add x16, x16, x6
    .word 0xffdb0293  # addi x5, x22, -3
    .word 0xf60290e3  # bne x5, x0, -160
    .word 0x00800313  # addi x6, x0, 8
    .word 0x0068fc63  # bgeu x17, x6, 24
    .word 0x0078f293  # andi x5, x17, 7
    .word 0x00229293  # slli x5, x5, 2
    .word 0x002282b3  # add x5, x5, x2
    .word 0x2572a023  # sw x23, 576(x5)
    .word 0x0140006f  # jal x0, 20
    .word 0x0078f293  # andi x5, x17, 7
    .word 0x00229293  # slli x5, x5, 2
    .word 0x002282b3  # add x5, x5, x2
    .word 0x2b72a823  # sw x23, 688(x5)
    .word 0x00078b93  # addi x23, x15, 0
    .word 0x00080793  # addi x15, x16, 0
    .word 0x00000813  # addi x16, x0, 0
    .word 0xff288293  # addi x5, x17, -14
    .word 0xf00298e3  # bne x5, x0, -240
    .word 0x2d712623  # sw x23, 716(x2)
    .word 0x0b00006f  # jal x0, 176
    .word 0xfff00b13  # addi x22, x0, -1
    .word 0x001b0b13  # addi x22, x22, 1
    .word 0x002b1d13  # slli x26, x22, 2
    .word 0x002d0d33  # add x26, x26, x2
    .word 0x28cd2283  # lw x5, 652(x26)
    .word 0x245d2023  # sw x5, 576(x26)
    .word 0xff9b0293  # addi x5, x22, -7
    .word 0xfe0294e3  # bne x5, x0, -24
    .word 0xfff00893  # addi x17, x0, -1
    .word 0x00188893  # addi x17, x17, 1
    .word 0x00289c93  # slli x25, x17, 2
    .word 0x002c8cb3  # add x25, x25, x2
    .word 0x240ca783  # lw x15, 576(x25)
    .word 0x00000a93  # addi x21, x0, 0
    .word 0xfff00b13  # addi x22, x0, -1
    .word 0x001b0b13  # addi x22, x22, 1
    .word 0x002b1d13  # slli x26, x22, 2
    .word 0x002d0d33  # add x26, x26, x2
    .word 0x016682b3  # add x5, x13, x22
    .word 0x00229a13  # slli x20, x5, 2
    .word 0x002a0a33  # add x20, x20, x2
    .word 0x040a2a03  # lw x20, 64(x20)
    .word 0x03478bb3  # mul x23, x15, x20
    .word 0x0347b9b3  # mulhu x19, x15, x20
    .word 0x2b0d2283  # lw x5, 688(x26)
    .word 0x01728a33  # add x20, x5, x23
    .word 0x000b1a63  # bne x22, x0, 20
    .word 0x254ca023  # sw x20, 576(x25)
    .word 0x017a3333  # sltu x6, x20, x23
    .word 0x00698ab3  # add x21, x19, x6
    .word 0x0200006f  # jal x0, 32
    .word 0x015a02b3  # add x5, x20, x21
    .word 0x2a5d2623  # sw x5, 684(x26)
    .word 0x017a3333  # sltu x6, x20, x23
    .word 0x006982b3  # add x5, x19, x6
    .word 0x2acd2303  # lw x6, 684(x26)
    .word 0x01533333  # sltu x6, x6, x21
    .word 0x00628ab3  # add x21, x5, x6
    .word 0xff9b0293  # addi x5, x22, -7
    .word 0xfa0290e3  # bne x5, x0, -96
    .word 0x2d512623  # sw x21, 716(x2)
    .word 0xff988293  # addi x5, x17, -7
    .word 0xf6029ee3  # bne x5, x0, -132
    .word 0x00000a13  # addi x20, x0, 0
    .word 0xfff00b13  # addi x22, x0, -1
    .word 0x001b0b13  # addi x22, x22, 1
    .word 0x002b1d13  # slli x26, x22, 2
    .word 0x002d0d33  # add x26, x26, x2
    .word 0x2b0d2283  # lw x5, 688(x26)
    .word 0x02600313  # addi x6, x0, 38
    .word 0x02628ab3  # mul x21, x5, x6
    .word 0x2b0d2b83  # lw x23, 688(x26)
    .word 0x02600313  # addi x6, x0, 38
    .word 0x026bb7b3  # mulhu x15, x23, x6
    .word 0x240d2283  # lw x5, 576(x26)
    .word 0x01528bb3  # add x23, x5, x21
    .word 0x014b82b3  # add x5, x23, x20
    .word 0x285d2623  # sw x5, 652(x26)
    .word 0x015bb333  # sltu x6, x23, x21
    .word 0x006782b3  # add x5, x15, x6
    .word 0x28cd2303  # lw x6, 652(x26)
    .word 0x01433333  # sltu x6, x6, x20
    .word 0x00628a33  # add x20, x5, x6
    .word 0xff9b0293  # addi x5, x22, -7
    .word 0xfa029ae3  # bne x5, x0, -76
    .word 0x01300293  # addi x5, x0, 19
    .word 0x001a1313  # slli x6, x20, 1
    .word 0x2a812383  # lw x7, 680(x2)
    .word 0x01f3d393  # srli x7, x7, 31
    .word 0x00736333  # or x6, x6, x7
    .word 0x02628a33  # mul x20, x5, x6
    .word 0x2a812283  # lw x5, 680(x2)
    .word 0x0182f2b3  # and x5, x5, x24
    .word 0x2a512423  # sw x5, 680(x2)
    .word 0xfff00b13  # addi x22, x0, -1
    .word 0x001b0b13  # addi x22, x22, 1
    .word 0x002b1d13  # slli x26, x22, 2
    .word 0x002d0d33  # add x26, x26, x2
    .word 0x28cd2283  # lw x5, 652(x26)
    .word 0x014282b3  # add x5, x5, x20
    .word 0x285d2623  # sw x5, 652(x26)
    .word 0x28cd2283  # lw x5, 652(x26)
    .word 0x0142ba33  # sltu x20, x5, x20
    .word 0xff9b0293  # addi x5, x22, -7
    .word 0xfc029ee3  # bne x5, x0, -36
    .word 0x28c12283  # lw x5, 652(x2)
    .word 0x01300313  # addi x6, x0, 19
    .word 0x2a812383  # lw x7, 680(x2)
    .word 0x01f3d393  # srli x7, x7, 31
    .word 0x02730333  # mul x6, x6, x7
    .word 0x006282b3  # add x5, x5, x6
    .word 0x28512623  # sw x5, 652(x2)
    .word 0x2a812283  # lw x5, 680(x2)
    .word 0x0182f2b3  # and x5, x5, x24
    .word 0x2a512423  # sw x5, 680(x2)
    .word 0x00170713  # addi x14, x14, 1
    .word 0x30012283  # lw x5, 768(x2)
    .word 0x005732b3  # sltu x5, x14, x5
    .word 0xce0294e3  # bne x5, x0, -792
    .word 0xfff70713  # addi x14, x14, -1
    .word 0x0040006f  # jal x0, 4
    .word 0xfff00b13  # addi x22, x0, -1
    .word 0x001b0b13  # addi x22, x22, 1
    .word 0x002b1d13  # slli x26, x22, 2
    .word 0x002d0d33  # add x26, x26, x2
    .word 0x016582b3  # add x5, x11, x22
    .word 0x28cd2303  # lw x6, 652(x26)
    .word 0x00229293  # slli x5, x5, 2
    .word 0x002282b3  # add x5, x5, x2
    .word 0x0462a023  # sw x6, 64(x5)
    .word 0xff9b0293  # addi x5, x22, -7
    .word 0xfc029ee3  # bne x5, x0, -36
    .word 0xff650293  # addi x5, x10, -10
    .word 0xb80296e3  # bne x5, x0, -1140
    .word 0x01300a13  # addi x20, x0, 19
    .word 0xfff00b13  # addi x22, x0, -1
    .word 0x001b0b13  # addi x22, x22, 1
    .word 0x002b1d13  # slli x26, x22, 2
    .word 0x002d0d33  # add x26, x26, x2
    .word 0x028b0293  # addi x5, x22, 40
    .word 0x00229293  # slli x5, x5, 2
    .word 0x002282b3  # add x5, x5, x2
    .word 0x0402a283  # lw x5, 64(x5)
    .word 0x014282b3  # add x5, x5, x20
    .word 0x0142ba33  # sltu x20, x5, x20
    .word 0xffab0293  # addi x5, x22, -6
    .word 0xfc029ce3  # bne x5, x0, -40
    .word 0x0fc12283  # lw x5, 252(x2)
    .word 0x014282b3  # add x5, x5, x20
    .word 0x41f2d293  # srai x5, x5, 31
    .word 0x0132fa13  # andi x20, x5, 19
    .word 0xfff00b13  # addi x22, x0, -1
    .word 0x001b0b13  # addi x22, x22, 1
    .word 0x002b1d13  # slli x26, x22, 2
    .word 0x002d0d33  # add x26, x26, x2
    .word 0x028b0293  # addi x5, x22, 40
    .word 0x00229293  # slli x5, x5, 2
    .word 0x002282b3  # add x5, x5, x2
    .word 0x0402a283  # lw x5, 64(x5)
    .word 0x01428ab3  # add x21, x5, x20
    .word 0x014aba33  # sltu x20, x21, x20
    .word 0x028b0293  # addi x5, x22, 40
    .word 0x00229293  # slli x5, x5, 2
    .word 0x002282b3  # add x5, x5, x2
    .word 0x0552a023  # sw x21, 64(x5)
    .word 0xff9b0293  # addi x5, x22, -7
    .word 0xfc0294e3  # bne x5, x0, -56
    .word 0x0fc12283  # lw x5, 252(x2)
    .word 0x0182f2b3  # and x5, x5, x24
    .word 0x0e512e23  # sw x5, 252(x2)
    .word 0xfff00b13  # addi x22, x0, -1
    .word 0x001b0b13  # addi x22, x22, 1
    .word 0x002b1d13  # slli x26, x22, 2
    .word 0x002d0d33  # add x26, x26, x2
    .word 0x028b0293  # addi x5, x22, 40
    .word 0x00229293  # slli x5, x5, 2
    .word 0x002282b3  # add x5, x5, x2
    .word 0x0402a283  # lw x5, 64(x5)
    .word 0x025d2023  # sw x5, 32(x26)
    .word 0xff9b0293  # addi x5, x22, -7
    .word 0xfc029ee3  # bne x5, x0, -36
    # the result
    .word 0x00000513  # addi x10, x0, 0
    # parameter 1: the array, back
    .word 0x02010293  # addi x5, x2, 32
    .word 0x34c12303  # lw x6, 844(x2)
    .word 0x02028393  # addi x7, x5, 32
    .word 0x0002ae03  # lw x28, 0(x5)
    .word 0x01c32023  # sw x28, 0(x6)
    .word 0x00428293  # addi x5, x5, 4
    .word 0x00430313  # addi x6, x6, 4
    .word 0xfe7298e3  # bne x5, x7, -16
    # above the frame
    .word 0x32010293  # addi x5, x2, 800
    # the caller's registers
    .word 0x0002a903  # lw x18, 0(x5)
    .cfi_restore 18
    .word 0x0042a983  # lw x19, 4(x5)
    .cfi_restore 19
    .word 0x0082aa03  # lw x20, 8(x5)
    .cfi_restore 20
    .word 0x00c2aa83  # lw x21, 12(x5)
    .cfi_restore 21
    .word 0x0102ab03  # lw x22, 16(x5)
    .cfi_restore 22
    .word 0x0142ab83  # lw x23, 20(x5)
    .cfi_restore 23
    .word 0x0182ac03  # lw x24, 24(x5)
    .cfi_restore 24
    .word 0x01c2ac83  # lw x25, 28(x5)
    .cfi_restore 25
    .word 0x0202ad03  # lw x26, 32(x5)
    .cfi_restore 26
    # the caller's x2
    .word 0x03028293  # addi x5, x5, 48
    .cfi_def_cfa 5, 0
    # on to the tail that functions share
    jal x0, factc.tail.1
    .cfi_endproc
    .size f25519_invert, . - f25519_invert
    .section .text.factc.tail.1, "axG", @progbits, factc.tail.1, comdat
    .p2align 2
    .globl factc.tail.1
    .hidden factc.tail.1
    .type factc.tail.1, @function
factc.tail.1:
    .cfi_startproc
    .cfi_def_cfa 5, 0
    # all the room, wiped upward
    .word 0x00012023  # sw x0, 0(x2)
    .word 0x00012223  # sw x0, 4(x2)
    .word 0x00012423  # sw x0, 8(x2)
    .word 0x00012623  # sw x0, 12(x2)
    .word 0x01010113  # addi x2, x2, 16
    .word 0xfe5116e3  # bne x2, x5, -20
    .cfi_def_cfa 2, 0
    # temporaries, wiped
    .word 0x00000293  # addi x5, x0, 0
    .word 0x00000313  # addi x6, x0, 0
    .word 0x00000393  # addi x7, x0, 0
    .word 0x00000593  # addi x11, x0, 0
    .word 0x00000613  # addi x12, x0, 0
    .word 0x00000693  # addi x13, x0, 0
    .word 0x00000713  # addi x14, x0, 0
    .word 0x00000793  # addi x15, x0, 0
    .word 0x00000813  # addi x16, x0, 0
    .word 0x00000893  # addi x17, x0, 0
    .word 0x00000e13  # addi x28, x0, 0
    .word 0x00000e93  # addi x29, x0, 0
    .word 0x00000f13  # addi x30, x0, 0
    .word 0x00000f93  # addi x31, x0, 0
    # back
    .word 0x00008067  # jalr x0, 0(x1)
    .cfi_endproc
    .size factc.tail.1, . - factc.tail.1
    .option pop
