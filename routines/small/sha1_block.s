# sha1_block: made by factc 1.0.0 function; 457 words and 21 shared, 240 bytes of stack, profile 1
    .option push
    .option norvc
    .option norelax
    .cfi_sections .debug_frame
    .section .text.sha1_block, "ax", @progbits
    .p2align 2
    .globl sha1_block
    .type sha1_block, @function
sha1_block:
    .cfi_startproc
    # room above the frame
    .word 0xfd010113  # addi x2, x2, -48
    .cfi_def_cfa_offset 48
    # the caller's registers
    .word 0x01212023  # sw x18, 0(x2)
    .cfi_offset 18, -48
    .word 0x01312223  # sw x19, 4(x2)
    .cfi_offset 19, -44
    .word 0x01412423  # sw x20, 8(x2)
    .cfi_offset 20, -40
    .word 0x01512623  # sw x21, 12(x2)
    .cfi_offset 21, -36
    .word 0x01612823  # sw x22, 16(x2)
    .cfi_offset 22, -32
    .word 0x01712a23  # sw x23, 20(x2)
    .cfi_offset 23, -28
    .word 0x01812c23  # sw x24, 24(x2)
    .cfi_offset 24, -24
    .word 0x01912e23  # sw x25, 28(x2)
    .cfi_offset 25, -20
    .word 0x03a12023  # sw x26, 32(x2)
    .cfi_offset 26, -16
    # arguments that are needed behind the body
    .word 0x02a12623  # sw x10, 44(x2)
    # the frame's base
    .word 0xf4010113  # addi x2, x2, -192
    .cfi_def_cfa 2, 240
    # parameter 0: an array
    .word 0x00050293  # addi x5, x10, 0
    .word 0x00010313  # addi x6, x2, 0
    .word 0x01428393  # addi x7, x5, 20
    .word 0x0002ae03  # lw x28, 0(x5)
    .word 0x01c32023  # sw x28, 0(x6)
    .word 0x00428293  # addi x5, x5, 4
    .word 0x00430313  # addi x6, x6, 4
    .word 0xfe7298e3  # bne x5, x7, -16
    # parameter 1: an array
    .word 0x00058293  # addi x5, x11, 0
    .word 0x01410313  # addi x6, x2, 20
    .word 0x04028393  # addi x7, x5, 64
    .word 0x0002ce03  # lbu x28, 0(x5)
    .word 0x01c30023  # sb x28, 0(x6)
    .word 0x00128293  # addi x5, x5, 1
    .word 0x00130313  # addi x6, x6, 1
    .word 0xfe7298e3  # bne x5, x7, -16
    # the body
    .word 0x6ed9fab7  # lui x21, 0x6ed9f
    .word 0xba1a8a93  # addi x21, x21, -1119
    .word 0xca62cb37  # lui x22, 0xca62c
    .word 0x1d6b0b13  # addi x22, x22, 470
    .word 0x8f1bcbb7  # lui x23, 0x8f1bc
    .word 0xcdcb8b93  # addi x23, x23, -804
    .word 0x04012a23  # sw x0, 84(x2)
    .word 0x04012c23  # sw x0, 88(x2)
    .word 0x04012e23  # sw x0, 92(x2)
    .word 0x06012023  # sw x0, 96(x2)
    .word 0x06012223  # sw x0, 100(x2)
    .word 0x06012423  # sw x0, 104(x2)
    .word 0x06012623  # sw x0, 108(x2)
    .word 0x06012823  # sw x0, 112(x2)
    .word 0x06012a23  # sw x0, 116(x2)
    .word 0x06012c23  # sw x0, 120(x2)
    .word 0x06012e23  # sw x0, 124(x2)
    .word 0x08012023  # sw x0, 128(x2)
    .word 0x08012223  # sw x0, 132(x2)
    .word 0x08012423  # sw x0, 136(x2)
    .word 0x08012623  # sw x0, 140(x2)
    .word 0x08012823  # sw x0, 144(x2)
    .word 0x08012a23  # sw x0, 148(x2)
    .word 0x08012c23  # sw x0, 152(x2)
    .word 0x08012e23  # sw x0, 156(x2)
    .word 0x0a012023  # sw x0, 160(x2)
    .word 0xfff00513  # addi x10, x0, -1
    .word 0x00150513  # addi x10, x10, 1
    .word 0x00251813  # slli x16, x10, 2
    .word 0x002802b3  # add x5, x16, x2
    .word 0x0142c283  # lbu x5, 20(x5)
    .word 0x01829293  # slli x5, x5, 24
    .word 0x00280333  # add x6, x16, x2
    .word 0x01534303  # lbu x6, 21(x6)
    .word 0x01031313  # slli x6, x6, 16
    .word 0x0062e5b3  # or x11, x5, x6
    .word 0x002802b3  # add x5, x16, x2
    .word 0x0162c283  # lbu x5, 22(x5)
    .word 0x00829293  # slli x5, x5, 8
    .word 0x00280333  # add x6, x16, x2
    .word 0x01734303  # lbu x6, 23(x6)
    .word 0x0062e633  # or x12, x5, x6
    .word 0x00c5e333  # or x6, x11, x12
    .word 0x00251293  # slli x5, x10, 2
    .word 0x002282b3  # add x5, x5, x2
    .word 0x0462aa23  # sw x6, 84(x5)
    .word 0xff150293  # addi x5, x10, -15
    .word 0xfa0298e3  # bne x5, x0, -80
    .word 0x00012583  # lw x11, 0(x2)
    .word 0x00412603  # lw x12, 4(x2)
    .word 0x00812683  # lw x13, 8(x2)
    .word 0x00c12703  # lw x14, 12(x2)
    .word 0x01012783  # lw x15, 16(x2)
    .word 0x5a828837  # lui x16, 0x5a828
    .word 0x99980813  # addi x16, x16, -1639
    .word 0xfff00893  # addi x17, x0, -1
    .word 0x00188893  # addi x17, x17, 1
    .word 0x11107a63  # bgeu x0, x17, 276
    .word 0xfff00913  # addi x18, x0, -1
    .word 0x00190913  # addi x18, x18, 1
    .word 0x00291c13  # slli x24, x18, 2
    .word 0x002c0c33  # add x24, x24, x2
    .word 0x098c2283  # lw x5, 152(x24)
    .word 0x084c2303  # lw x6, 132(x24)
    .word 0x0062c2b3  # xor x5, x5, x6
    .word 0x06cc2303  # lw x6, 108(x24)
    .word 0x0062c2b3  # xor x5, x5, x6
    .word 0x064c2303  # lw x6, 100(x24)
    .word 0x0062c2b3  # xor x5, x5, x6
    .word 0x00129f13  # slli x30, x5, 1
    .word 0x01f2d293  # srli x5, x5, 31
    .word 0x005f02b3  # add x5, x30, x5
    .word 0x045c2a23  # sw x5, 84(x24)
    .word 0xffe90293  # addi x5, x18, -2
    .word 0xfc0292e3  # bne x5, x0, -60
    .word 0xfff00993  # addi x19, x0, -1
    .word 0x00198993  # addi x19, x19, 1
    .word 0x00299c93  # slli x25, x19, 2
    .word 0x002c8cb3  # add x25, x25, x2
    .word 0x054ca283  # lw x5, 84(x25)
    .word 0x090ca303  # lw x6, 144(x25)
    .word 0x0062c2b3  # xor x5, x5, x6
    .word 0x078ca303  # lw x6, 120(x25)
    .word 0x0062c2b3  # xor x5, x5, x6
    .word 0x070ca303  # lw x6, 112(x25)
    .word 0x0062c2b3  # xor x5, x5, x6
    .word 0x00129f13  # slli x30, x5, 1
    .word 0x01f2d293  # srli x5, x5, 31
    .word 0x005f02b3  # add x5, x30, x5
    .word 0x065ca023  # sw x5, 96(x25)
    .word 0xffc98293  # addi x5, x19, -4
    .word 0xfc0292e3  # bne x5, x0, -60
    .word 0xfff00a13  # addi x20, x0, -1
    .word 0x001a0a13  # addi x20, x20, 1
    .word 0x002a1d13  # slli x26, x20, 2
    .word 0x002d0d33  # add x26, x26, x2
    .word 0x068d2283  # lw x5, 104(x26)
    .word 0x054d2303  # lw x6, 84(x26)
    .word 0x0062c2b3  # xor x5, x5, x6
    .word 0x08cd2303  # lw x6, 140(x26)
    .word 0x0062c2b3  # xor x5, x5, x6
    .word 0x084d2303  # lw x6, 132(x26)
    .word 0x0062c2b3  # xor x5, x5, x6
    .word 0x00129f13  # slli x30, x5, 1
    .word 0x01f2d293  # srli x5, x5, 31
    .word 0x005f02b3  # add x5, x30, x5
    .word 0x065d2a23  # sw x5, 116(x26)
    .word 0xffba0293  # addi x5, x20, -5
    .word 0xfc0292e3  # bne x5, x0, -60
    .word 0xfff00913  # addi x18, x0, -1
    .word 0x00190913  # addi x18, x18, 1
    .word 0x00291c13  # slli x24, x18, 2
    .word 0x002c0c33  # add x24, x24, x2
    .word 0x080c2283  # lw x5, 128(x24)
    .word 0x06cc2303  # lw x6, 108(x24)
    .word 0x0062c2b3  # xor x5, x5, x6
    .word 0x054c2303  # lw x6, 84(x24)
    .word 0x0062c2b3  # xor x5, x5, x6
    .word 0x09cc2303  # lw x6, 156(x24)
    .word 0x0062c2b3  # xor x5, x5, x6
    .word 0x00129f13  # slli x30, x5, 1
    .word 0x01f2d293  # srli x5, x5, 31
    .word 0x005f02b3  # add x5, x30, x5
    .word 0x085c2623  # sw x5, 140(x24)
    .word 0xfff90293  # addi x5, x18, -1
    .word 0xfc0292e3  # bne x5, x0, -60
    .word 0xfff00993  # addi x19, x0, -1
    .word 0x00198993  # addi x19, x19, 1
    .word 0x00299c93  # slli x25, x19, 2
    .word 0x002c8cb3  # add x25, x25, x2
    .word 0x088ca283  # lw x5, 136(x25)
    .word 0x074ca303  # lw x6, 116(x25)
    .word 0x0062c2b3  # xor x5, x5, x6
    .word 0x05cca303  # lw x6, 92(x25)
    .word 0x0062c2b3  # xor x5, x5, x6
    .word 0x054ca303  # lw x6, 84(x25)
    .word 0x0062c2b3  # xor x5, x5, x6
    .word 0x00129f13  # slli x30, x5, 1
    .word 0x01f2d293  # srli x5, x5, 31
    .word 0x005f02b3  # add x5, x30, x5
    .word 0x085caa23  # sw x5, 148(x25)
    .word 0xffd98293  # addi x5, x19, -3
    .word 0xfc0292e3  # bne x5, x0, -60
    .word 0x14089663  # bne x17, x0, 332
    .word 0xfff00993  # addi x19, x0, -1
    .word 0x00198993  # addi x19, x19, 1
    .word 0x00299c93  # slli x25, x19, 2
    .word 0x002c8cb3  # add x25, x25, x2
    .word 0x00500293  # addi x5, x0, 5
    .word 0x03328933  # mul x18, x5, x19
    .word 0x00291c13  # slli x24, x18, 2
    .word 0x002c0c33  # add x24, x24, x2
    .word 0x00e6c2b3  # xor x5, x13, x14
    .word 0x00c2f2b3  # and x5, x5, x12
    .word 0x00e2c2b3  # xor x5, x5, x14
    .word 0x00f282b3  # add x5, x5, x15
    .word 0x00559f13  # slli x30, x11, 5
    .word 0x01b5d313  # srli x6, x11, 27
    .word 0x006f0333  # add x6, x30, x6
    .word 0x006282b3  # add x5, x5, x6
    .word 0x010282b3  # add x5, x5, x16
    .word 0x054c2303  # lw x6, 84(x24)
    .word 0x006287b3  # add x15, x5, x6
    .word 0x01e61f13  # slli x30, x12, 30
    .word 0x00265613  # srli x12, x12, 2
    .word 0x00cf0633  # add x12, x30, x12
    .word 0x00d642b3  # xor x5, x12, x13
    .word 0x00b2f2b3  # and x5, x5, x11
    .word 0x00d2c2b3  # xor x5, x5, x13
    .word 0x00e282b3  # add x5, x5, x14
    .word 0x00579f13  # slli x30, x15, 5
    .word 0x01b7d313  # srli x6, x15, 27
    .word 0x006f0333  # add x6, x30, x6
    .word 0x006282b3  # add x5, x5, x6
    .word 0x010282b3  # add x5, x5, x16
    .word 0x058c2303  # lw x6, 88(x24)
    .word 0x00628733  # add x14, x5, x6
    .word 0x01e59f13  # slli x30, x11, 30
    .word 0x0025d593  # srli x11, x11, 2
    .word 0x00bf05b3  # add x11, x30, x11
    .word 0x00c5c2b3  # xor x5, x11, x12
    .word 0x00f2f2b3  # and x5, x5, x15
    .word 0x00c2c2b3  # xor x5, x5, x12
    .word 0x00d282b3  # add x5, x5, x13
    .word 0x00571f13  # slli x30, x14, 5
    .word 0x01b75313  # srli x6, x14, 27
    .word 0x006f0333  # add x6, x30, x6
    .word 0x006282b3  # add x5, x5, x6
    .word 0x010282b3  # add x5, x5, x16
    .word 0x05cc2303  # lw x6, 92(x24)
    .word 0x006286b3  # add x13, x5, x6
    .word 0x01e79f13  # slli x30, x15, 30
    .word 0x0027d793  # srli x15, x15, 2
    .word 0x00ff07b3  # add x15, x30, x15
    .word 0x00b7c2b3  # xor x5, x15, x11
    .word 0x00e2f2b3  # and x5, x5, x14
    .word 0x00b2c2b3  # xor x5, x5, x11
    .word 0x00c282b3  # add x5, x5, x12
    .word 0x00569f13  # slli x30, x13, 5
    .word 0x01b6d313  # srli x6, x13, 27
    .word 0x006f0333  # add x6, x30, x6
    .word 0x006282b3  # add x5, x5, x6
    .word 0x010282b3  # add x5, x5, x16
    .word 0x060c2303  # lw x6, 96(x24)
    .word 0x00628633  # add x12, x5, x6
    .word 0x01e71f13  # slli x30, x14, 30
    .word 0x00275713  # srli x14, x14, 2
    .word 0x00ef0733  # add x14, x30, x14
    .word 0x00f742b3  # xor x5, x14, x15
    .word 0x00d2f2b3  # and x5, x5, x13
    .word 0x00f2c2b3  # xor x5, x5, x15
    .word 0x00b282b3  # add x5, x5, x11
    .word 0x00561f13  # slli x30, x12, 5
    .word 0x01b65313  # srli x6, x12, 27
    .word 0x006f0333  # add x6, x30, x6
    .word 0x006282b3  # add x5, x5, x6
    .word 0x010282b3  # add x5, x5, x16
    .word 0x064c2303  # lw x6, 100(x24)
    .word 0x006285b3  # add x11, x5, x6
    .word 0x01e69f13  # slli x30, x13, 30
    .word 0x0026d693  # srli x13, x13, 2
    .word 0x00df06b3  # add x13, x30, x13
    .word 0xffd98293  # addi x5, x19, -3
    .word 0xec0294e3  # bne x5, x0, -312
    .word 0x000a8813  # addi x16, x21, 0
    .word 0x2980006f  # jal x0, 664
    .word 0x00200313  # addi x6, x0, 2
    .word 0x16689063  # bne x17, x6, 352
    .word 0xfff00993  # addi x19, x0, -1
    .word 0x00198993  # addi x19, x19, 1
    .word 0x00299c93  # slli x25, x19, 2
    .word 0x002c8cb3  # add x25, x25, x2
    .word 0x00500293  # addi x5, x0, 5
    .word 0x03328933  # mul x18, x5, x19
    .word 0x00291c13  # slli x24, x18, 2
    .word 0x002c0c33  # add x24, x24, x2
    .word 0x00d662b3  # or x5, x12, x13
    .word 0x00e2f2b3  # and x5, x5, x14
    .word 0x00d67333  # and x6, x12, x13
    .word 0x0062e2b3  # or x5, x5, x6
    .word 0x00f282b3  # add x5, x5, x15
    .word 0x00559f13  # slli x30, x11, 5
    .word 0x01b5d313  # srli x6, x11, 27
    .word 0x006f0333  # add x6, x30, x6
    .word 0x006282b3  # add x5, x5, x6
    .word 0x010282b3  # add x5, x5, x16
    .word 0x054c2303  # lw x6, 84(x24)
    .word 0x006287b3  # add x15, x5, x6
    .word 0x01e61f13  # slli x30, x12, 30
    .word 0x00265613  # srli x12, x12, 2
    .word 0x00cf0633  # add x12, x30, x12
    .word 0x00c5e2b3  # or x5, x11, x12
    .word 0x00d2f2b3  # and x5, x5, x13
    .word 0x00c5f333  # and x6, x11, x12
    .word 0x0062e2b3  # or x5, x5, x6
    .word 0x00e282b3  # add x5, x5, x14
    .word 0x00579f13  # slli x30, x15, 5
    .word 0x01b7d313  # srli x6, x15, 27
    .word 0x006f0333  # add x6, x30, x6
    .word 0x006282b3  # add x5, x5, x6
    .word 0x010282b3  # add x5, x5, x16
    .word 0x058c2303  # lw x6, 88(x24)
    .word 0x00628733  # add x14, x5, x6
    .word 0x01e59f13  # slli x30, x11, 30
    .word 0x0025d593  # srli x11, x11, 2
    .word 0x00bf05b3  # add x11, x30, x11
    .word 0x00b7e2b3  # or x5, x15, x11
    .word 0x00c2f2b3  # and x5, x5, x12
    .word 0x00b7f333  # and x6, x15, x11
    .word 0x0062e2b3  # or x5, x5, x6
    .word 0x00d282b3  # add x5, x5, x13
    .word 0x00571f13  # slli x30, x14, 5
    .word 0x01b75313  # srli x6, x14, 27
    .word 0x006f0333  # add x6, x30, x6
    .word 0x006282b3  # add x5, x5, x6
    .word 0x010282b3  # add x5, x5, x16
    .word 0x05cc2303  # lw x6, 92(x24)
    .word 0x006286b3  # add x13, x5, x6
    .word 0x01e79f13  # slli x30, x15, 30
    .word 0x0027d793  # srli x15, x15, 2
    .word 0x00ff07b3  # add x15, x30, x15
    .word 0x00f762b3  # or x5, x14, x15
    .word 0x00b2f2b3  # and x5, x5, x11
    .word 0x00f77333  # and x6, x14, x15
    .word 0x0062e2b3  # or x5, x5, x6
    .word 0x00c282b3  # add x5, x5, x12
    .word 0x00569f13  # slli x30, x13, 5
    .word 0x01b6d313  # srli x6, x13, 27
    .word 0x006f0333  # add x6, x30, x6
    .word 0x006282b3  # add x5, x5, x6
    .word 0x010282b3  # add x5, x5, x16
    .word 0x060c2303  # lw x6, 96(x24)
    .word 0x00628633  # add x12, x5, x6
    .word 0x01e71f13  # slli x30, x14, 30
    .word 0x00275713  # srli x14, x14, 2
    .word 0x00ef0733  # add x14, x30, x14
    .word 0x00e6e2b3  # or x5, x13, x14
    .word 0x00f2f2b3  # and x5, x5, x15
    .word 0x00e6f333  # and x6, x13, x14
    .word 0x0062e2b3  # or x5, x5, x6
    .word 0x00b282b3  # add x5, x5, x11
    .word 0x00561f13  # slli x30, x12, 5
    .word 0x01b65313  # srli x6, x12, 27
    .word 0x006f0333  # add x6, x30, x6
    .word 0x006282b3  # add x5, x5, x6
    .word 0x010282b3  # add x5, x5, x16
    .word 0x064c2303  # lw x6, 100(x24)
    .word 0x006285b3  # add x11, x5, x6
    .word 0x01e69f13  # slli x30, x13, 30
    .word 0x0026d693  # srli x13, x13, 2
    .word 0x00df06b3  # add x13, x30, x13
    .word 0xffd98293  # addi x5, x19, -3
    .word 0xea029ae3  # bne x5, x0, -332
    .word 0x000b0813  # addi x16, x22, 0
    .word 0x1340006f  # jal x0, 308
    .word 0xfff00993  # addi x19, x0, -1
    .word 0x00198993  # addi x19, x19, 1
    .word 0x00299c93  # slli x25, x19, 2
    .word 0x002c8cb3  # add x25, x25, x2
    .word 0x00500293  # addi x5, x0, 5
    .word 0x03328933  # mul x18, x5, x19
    .word 0x00291c13  # slli x24, x18, 2
    .word 0x002c0c33  # add x24, x24, x2
    .word 0x00d642b3  # xor x5, x12, x13
    .word 0x00e2c2b3  # xor x5, x5, x14
    .word 0x00f282b3  # add x5, x5, x15
    .word 0x00559f13  # slli x30, x11, 5
    .word 0x01b5d313  # srli x6, x11, 27
    .word 0x006f0333  # add x6, x30, x6
    .word 0x006282b3  # add x5, x5, x6
    .word 0x010282b3  # add x5, x5, x16
    .word 0x054c2303  # lw x6, 84(x24)
    .word 0x006287b3  # add x15, x5, x6
    .word 0x01e61f13  # slli x30, x12, 30
    .word 0x00265613  # srli x12, x12, 2
    .word 0x00cf0633  # add x12, x30, x12
    .word 0x00c5c2b3  # xor x5, x11, x12
    .word 0x00d2c2b3  # xor x5, x5, x13
    .word 0x00e282b3  # add x5, x5, x14
    .word 0x00579f13  # slli x30, x15, 5
    .word 0x01b7d313  # srli x6, x15, 27
    .word 0x006f0333  # add x6, x30, x6
    .word 0x006282b3  # add x5, x5, x6
    .word 0x010282b3  # add x5, x5, x16
    .word 0x058c2303  # lw x6, 88(x24)
    .word 0x00628733  # add x14, x5, x6
    .word 0x01e59f13  # slli x30, x11, 30
    .word 0x0025d593  # srli x11, x11, 2
    .word 0x00bf05b3  # add x11, x30, x11
    .word 0x00b7c2b3  # xor x5, x15, x11
    .word 0x00c2c2b3  # xor x5, x5, x12
    .word 0x00d282b3  # add x5, x5, x13
    .word 0x00571f13  # slli x30, x14, 5
    .word 0x01b75313  # srli x6, x14, 27
    .word 0x006f0333  # add x6, x30, x6
    .word 0x006282b3  # add x5, x5, x6
    .word 0x010282b3  # add x5, x5, x16
    .word 0x05cc2303  # lw x6, 92(x24)
    .word 0x006286b3  # add x13, x5, x6
    .word 0x01e79f13  # slli x30, x15, 30
    .word 0x0027d793  # srli x15, x15, 2
    .word 0x00ff07b3  # add x15, x30, x15
    .word 0x00f742b3  # xor x5, x14, x15
    .word 0x00b2c2b3  # xor x5, x5, x11
    .word 0x00c282b3  # add x5, x5, x12
    .word 0x00569f13  # slli x30, x13, 5
    .word 0x01b6d313  # srli x6, x13, 27
    .word 0x006f0333  # add x6, x30, x6
    .word 0x006282b3  # add x5, x5, x6
    .word 0x010282b3  # add x5, x5, x16
    .word 0x060c2303  # lw x6, 96(x24)
    .word 0x00628633  # add x12, x5, x6
    .word 0x01e71f13  # slli x30, x14, 30
    .word 0x00275713  # srli x14, x14, 2
    .word 0x00ef0733  # add x14, x30, x14
    .word 0x00e6c2b3  # xor x5, x13, x14
    .word 0x00f2c2b3  # xor x5, x5, x15
    .word 0x00b282b3  # add x5, x5, x11
    .word 0x00561f13  # slli x30, x12, 5
    .word 0x01b65313  # srli x6, x12, 27
    .word 0x006f0333  # add x6, x30, x6
    .word 0x006282b3  # add x5, x5, x6
    .word 0x010282b3  # add x5, x5, x16
    .word 0x064c2303  # lw x6, 100(x24)
    .word 0x006285b3  # add x11, x5, x6
    .word 0x01e69f13  # slli x30, x13, 30
    .word 0x0026d693  # srli x13, x13, 2
    .word 0x00df06b3  # add x13, x30, x13
    .word 0xffd98293  # addi x5, x19, -3
    .word 0xec029ee3  # bne x5, x0, -292
    .word 0x000b8813  # addi x16, x23, 0
    .word 0xffd88293  # addi x5, x17, -3
    .word 0xac0290e3  # bne x5, x0, -1344
    .word 0x00012283  # lw x5, 0(x2)
    .word 0x00b282b3  # add x5, x5, x11
    .word 0x00512023  # sw x5, 0(x2)
    .word 0x00412283  # lw x5, 4(x2)
    .word 0x00c282b3  # add x5, x5, x12
    .word 0x00512223  # sw x5, 4(x2)
    .word 0x00812283  # lw x5, 8(x2)
    .word 0x00d282b3  # add x5, x5, x13
    .word 0x00512423  # sw x5, 8(x2)
    .word 0x00c12283  # lw x5, 12(x2)
    .word 0x00e282b3  # add x5, x5, x14
    .word 0x00512623  # sw x5, 12(x2)
    .word 0x01012283  # lw x5, 16(x2)
    .word 0x00f282b3  # add x5, x5, x15
    .word 0x00512823  # sw x5, 16(x2)
    # the result
    .word 0x00000513  # addi x10, x0, 0
    # parameter 0: the array, back
    .word 0x00010293  # addi x5, x2, 0
    .word 0x0ec12303  # lw x6, 236(x2)
    .word 0x01428393  # addi x7, x5, 20
    .word 0x0002ae03  # lw x28, 0(x5)
    .word 0x01c32023  # sw x28, 0(x6)
    .word 0x00428293  # addi x5, x5, 4
    .word 0x00430313  # addi x6, x6, 4
    .word 0xfe7298e3  # bne x5, x7, -16
    # above the frame
    .word 0x0c010293  # addi x5, x2, 192
    # the caller's registers
    .word 0x0002a903  # lw x18, 0(x5)
    .cfi_restore 18
    .word 0x0042a983  # lw x19, 4(x5)
    .cfi_restore 19
    .word 0x0082aa03  # lw x20, 8(x5)
    .cfi_restore 20
    .word 0x00c2aa83  # lw x21, 12(x5)
    .cfi_restore 21
    .word 0x0102ab03  # lw x22, 16(x5)
    .cfi_restore 22
    .word 0x0142ab83  # lw x23, 20(x5)
    .cfi_restore 23
    .word 0x0182ac03  # lw x24, 24(x5)
    .cfi_restore 24
    .word 0x01c2ac83  # lw x25, 28(x5)
    .cfi_restore 25
    .word 0x0202ad03  # lw x26, 32(x5)
    .cfi_restore 26
    # the caller's x2
    .word 0x03028293  # addi x5, x5, 48
    .cfi_def_cfa 5, 0
    # on to the tail that functions share
    jal x0, factc.tail.1
    .cfi_endproc
    .size sha1_block, . - sha1_block
    .section .text.factc.tail.1, "axG", @progbits, factc.tail.1, comdat
    .p2align 2
    .globl factc.tail.1
    .hidden factc.tail.1
    .type factc.tail.1, @function
factc.tail.1:
    .cfi_startproc
    .cfi_def_cfa 5, 0
    # all the room, wiped upward
    .word 0x00012023  # sw x0, 0(x2)
    .word 0x00012223  # sw x0, 4(x2)
    .word 0x00012423  # sw x0, 8(x2)
    .word 0x00012623  # sw x0, 12(x2)
    .word 0x01010113  # addi x2, x2, 16
    .word 0xfe5116e3  # bne x2, x5, -20
    .cfi_def_cfa 2, 0
    # temporaries, wiped
    .word 0x00000293  # addi x5, x0, 0
    .word 0x00000313  # addi x6, x0, 0
    .word 0x00000393  # addi x7, x0, 0
    .word 0x00000593  # addi x11, x0, 0
    .word 0x00000613  # addi x12, x0, 0
    .word 0x00000693  # addi x13, x0, 0
    .word 0x00000713  # addi x14, x0, 0
    .word 0x00000793  # addi x15, x0, 0
    .word 0x00000813  # addi x16, x0, 0
    .word 0x00000893  # addi x17, x0, 0
    .word 0x00000e13  # addi x28, x0, 0
    .word 0x00000e93  # addi x29, x0, 0
    .word 0x00000f13  # addi x30, x0, 0
    .word 0x00000f93  # addi x31, x0, 0
    # back
    .word 0x00008067  # jalr x0, 0(x1)
    .cfi_endproc
    .size factc.tail.1, . - factc.tail.1
    .option pop
