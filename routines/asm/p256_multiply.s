# p256_multiply: made by factc 1.0.0 function; 435 words, 224 bytes of stack, profile 1
    .option push
    .option norvc
    .option norelax
    .cfi_sections .debug_frame
    .section .text.p256_multiply, "ax", @progbits
    .p2align 2
    .globl p256_multiply
    .type p256_multiply, @function
p256_multiply:
    .cfi_startproc
    # room above the frame
    .word 0xfc010113  # addi x2, x2, -64
    .cfi_def_cfa_offset 64
    # the caller's registers
    .word 0x00812023  # sw x8, 0(x2)
    .cfi_offset 8, -64
    .word 0x00912223  # sw x9, 4(x2)
    .cfi_offset 9, -60
    .word 0x01212423  # sw x18, 8(x2)
    .cfi_offset 18, -56
    .word 0x01312623  # sw x19, 12(x2)
    .cfi_offset 19, -52
    .word 0x01412823  # sw x20, 16(x2)
    .cfi_offset 20, -48
    .word 0x01512a23  # sw x21, 20(x2)
    .cfi_offset 21, -44
    .word 0x01612c23  # sw x22, 24(x2)
    .cfi_offset 22, -40
    .word 0x01712e23  # sw x23, 28(x2)
    .cfi_offset 23, -36
    .word 0x03812023  # sw x24, 32(x2)
    .cfi_offset 24, -32
    .word 0x03912223  # sw x25, 36(x2)
    .cfi_offset 25, -28
    .word 0x03a12423  # sw x26, 40(x2)
    .cfi_offset 26, -24
    .word 0x03b12623  # sw x27, 44(x2)
    .cfi_offset 27, -20
    # arguments that are needed behind the body
    .word 0x02a12a23  # sw x10, 52(x2)
    .word 0x02b12c23  # sw x11, 56(x2)
    .word 0x02c12e23  # sw x12, 60(x2)
    # the frame's base
    .word 0xf6010113  # addi x2, x2, -160
    .cfi_def_cfa 2, 224
    # parameter 0: an array
    .word 0x00050293  # addi x5, x10, 0
    .word 0x00010313  # addi x6, x2, 0
    .word 0x02028393  # addi x7, x5, 32
    .word 0x62800f6f  # jal x30, 1576
    # parameter 1: an array
    .word 0x00058293  # addi x5, x11, 0
    .word 0x02010313  # addi x6, x2, 32
    .word 0x02028393  # addi x7, x5, 32
    .word 0x61800f6f  # jal x30, 1560
    # the body
    .word 0x06000313  # addi x6, x0, 96
    .word 0x00230333  # add x6, x6, x2
    .word 0x02000393  # addi x7, x0, 32
    .word 0x006383b3  # add x7, x7, x6
    .word 0x406382b3  # sub x5, x7, x6
    .word 0x00029463  # bne x5, x0, 8
    .word 0x0100006f  # jal x0, 16
    .word 0x00032023  # sw x0, 0(x6)
    .word 0x00430313  # addi x6, x6, 4
    .word 0xfedff06f  # jal x0, -20
    .word 0x00012503  # lw x10, 0(x2)
    .word 0x02012803  # lw x16, 32(x2)
    .word 0x00412583  # lw x11, 4(x2)
    .word 0x02412883  # lw x17, 36(x2)
    .word 0x00812683  # lw x13, 8(x2)
    .word 0x02812903  # lw x18, 40(x2)
    .word 0x00c12783  # lw x15, 12(x2)
    .word 0x02c12983  # lw x19, 44(x2)
    .word 0x01012703  # lw x14, 16(x2)
    .word 0x03012a03  # lw x20, 48(x2)
    .word 0x01412283  # lw x5, 20(x2)
    .word 0x08512023  # sw x5, 128(x2)
    .word 0x03412a83  # lw x21, 52(x2)
    .word 0x01812283  # lw x5, 24(x2)
    .word 0x08512223  # sw x5, 132(x2)
    .word 0x03812283  # lw x5, 56(x2)
    .word 0x08512623  # sw x5, 140(x2)
    .word 0x01c12283  # lw x5, 28(x2)
    .word 0x08512423  # sw x5, 136(x2)
    .word 0x03c12283  # lw x5, 60(x2)
    .word 0x08512823  # sw x5, 144(x2)
    .word 0x00000b13  # addi x22, x0, 0
    .word 0x00000b93  # addi x23, x0, 0
    .word 0x00000c13  # addi x24, x0, 0
    .word 0x00000c93  # addi x25, x0, 0
    .word 0x00000d13  # addi x26, x0, 0
    .word 0x00000d93  # addi x27, x0, 0
    .word 0x00000413  # addi x8, x0, 0
    .word 0x00000493  # addi x9, x0, 0
    .word 0x06a12023  # sw x10, 96(x2)
    .word 0x06b12223  # sw x11, 100(x2)
    .word 0x06d12423  # sw x13, 104(x2)
    .word 0x06f12623  # sw x15, 108(x2)
    .word 0x06e12823  # sw x14, 112(x2)
    .word 0x08012283  # lw x5, 128(x2)
    .word 0x06512a23  # sw x5, 116(x2)
    .word 0x08412283  # lw x5, 132(x2)
    .word 0x06512c23  # sw x5, 120(x2)
    .word 0x08812283  # lw x5, 136(x2)
    .word 0x06512e23  # sw x5, 124(x2)
    .word 0xfff00613  # addi x12, x0, -1
    .word 0x00160613  # addi x12, x12, 1
    .word 0x00261513  # slli x10, x12, 2
    .word 0x00250533  # add x10, x10, x2
    .word 0x06052503  # lw x10, 96(x10)
    .word 0x030506b3  # mul x13, x10, x16
    .word 0x03053733  # mulhu x14, x10, x16
    .word 0x00db07b3  # add x15, x22, x13
    .word 0x00261293  # slli x5, x12, 2
    .word 0x002282b3  # add x5, x5, x2
    .word 0x06f2a023  # sw x15, 96(x5)
    .word 0x00d7b333  # sltu x6, x15, x13
    .word 0x006705b3  # add x11, x14, x6
    .word 0x031506b3  # mul x13, x10, x17
    .word 0x03153733  # mulhu x14, x10, x17
    .word 0x00db87b3  # add x15, x23, x13
    .word 0x00b78b33  # add x22, x15, x11
    .word 0x00d7b333  # sltu x6, x15, x13
    .word 0x006702b3  # add x5, x14, x6
    .word 0x00bb3333  # sltu x6, x22, x11
    .word 0x006285b3  # add x11, x5, x6
    .word 0x032506b3  # mul x13, x10, x18
    .word 0x03253733  # mulhu x14, x10, x18
    .word 0x00dc07b3  # add x15, x24, x13
    .word 0x00b78bb3  # add x23, x15, x11
    .word 0x00d7b333  # sltu x6, x15, x13
    .word 0x006702b3  # add x5, x14, x6
    .word 0x00bbb333  # sltu x6, x23, x11
    .word 0x006285b3  # add x11, x5, x6
    .word 0x033506b3  # mul x13, x10, x19
    .word 0x03353733  # mulhu x14, x10, x19
    .word 0x00dc87b3  # add x15, x25, x13
    .word 0x00b78c33  # add x24, x15, x11
    .word 0x00d7b333  # sltu x6, x15, x13
    .word 0x006702b3  # add x5, x14, x6
    .word 0x00bc3333  # sltu x6, x24, x11
    .word 0x006285b3  # add x11, x5, x6
    .word 0x034506b3  # mul x13, x10, x20
    .word 0x03453733  # mulhu x14, x10, x20
    .word 0x00dd07b3  # add x15, x26, x13
    .word 0x00b78cb3  # add x25, x15, x11
    .word 0x00d7b333  # sltu x6, x15, x13
    .word 0x006702b3  # add x5, x14, x6
    .word 0x00bcb333  # sltu x6, x25, x11
    .word 0x006285b3  # add x11, x5, x6
    .word 0x035506b3  # mul x13, x10, x21
    .word 0x03553733  # mulhu x14, x10, x21
    .word 0x00dd87b3  # add x15, x27, x13
    .word 0x00b78d33  # add x26, x15, x11
    .word 0x00d7b333  # sltu x6, x15, x13
    .word 0x006702b3  # add x5, x14, x6
    .word 0x00bd3333  # sltu x6, x26, x11
    .word 0x006285b3  # add x11, x5, x6
    .word 0x08c12303  # lw x6, 140(x2)
    .word 0x026506b3  # mul x13, x10, x6
    .word 0x08c12303  # lw x6, 140(x2)
    .word 0x02653733  # mulhu x14, x10, x6
    .word 0x00d407b3  # add x15, x8, x13
    .word 0x00b78db3  # add x27, x15, x11
    .word 0x00d7b333  # sltu x6, x15, x13
    .word 0x006702b3  # add x5, x14, x6
    .word 0x00bdb333  # sltu x6, x27, x11
    .word 0x006285b3  # add x11, x5, x6
    .word 0x09012303  # lw x6, 144(x2)
    .word 0x026506b3  # mul x13, x10, x6
    .word 0x09012303  # lw x6, 144(x2)
    .word 0x02653733  # mulhu x14, x10, x6
    .word 0x00d487b3  # add x15, x9, x13
    .word 0x00b78433  # add x8, x15, x11
    .word 0x00d7b333  # sltu x6, x15, x13
    .word 0x006702b3  # add x5, x14, x6
    .word 0x00b43333  # sltu x6, x8, x11
    .word 0x006285b3  # add x11, x5, x6
    .word 0x00058493  # addi x9, x11, 0
    .word 0xff960293  # addi x5, x12, -7
    .word 0xec029ce3  # bne x5, x0, -296
    .word 0x06012503  # lw x10, 96(x2)
    .word 0x00050793  # addi x15, x10, 0
    .word 0x06412503  # lw x10, 100(x2)
    .word 0x00050713  # addi x14, x10, 0
    .word 0x06812503  # lw x10, 104(x2)
    .word 0x00050813  # addi x16, x10, 0
    .word 0x06c12503  # lw x10, 108(x2)
    .word 0x00f50533  # add x10, x10, x15
    .word 0x00f535b3  # sltu x11, x10, x15
    .word 0x00050893  # addi x17, x10, 0
    .word 0x07012283  # lw x5, 112(x2)
    .word 0x00b28533  # add x10, x5, x11
    .word 0x00b535b3  # sltu x11, x10, x11
    .word 0x00e50533  # add x10, x10, x14
    .word 0x00e53333  # sltu x6, x10, x14
    .word 0x006585b3  # add x11, x11, x6
    .word 0x00050913  # addi x18, x10, 0
    .word 0x07412283  # lw x5, 116(x2)
    .word 0x00b28533  # add x10, x5, x11
    .word 0x00b535b3  # sltu x11, x10, x11
    .word 0x01050533  # add x10, x10, x16
    .word 0x01053333  # sltu x6, x10, x16
    .word 0x006585b3  # add x11, x11, x6
    .word 0x00050993  # addi x19, x10, 0
    .word 0x07812283  # lw x5, 120(x2)
    .word 0x00b28533  # add x10, x5, x11
    .word 0x00b535b3  # sltu x11, x10, x11
    .word 0x01150533  # add x10, x10, x17
    .word 0x01153333  # sltu x6, x10, x17
    .word 0x006585b3  # add x11, x11, x6
    .word 0x00f50533  # add x10, x10, x15
    .word 0x00f53333  # sltu x6, x10, x15
    .word 0x006585b3  # add x11, x11, x6
    .word 0x00050a13  # addi x20, x10, 0
    .word 0x07c12283  # lw x5, 124(x2)
    .word 0x00b28533  # add x10, x5, x11
    .word 0x00b535b3  # sltu x11, x10, x11
    .word 0x01250533  # add x10, x10, x18
    .word 0x01253333  # sltu x6, x10, x18
    .word 0x006585b3  # add x11, x11, x6
    .word 0x00e50533  # add x10, x10, x14
    .word 0x00e53333  # sltu x6, x10, x14
    .word 0x006585b3  # add x11, x11, x6
    .word 0x40f006b3  # sub x13, x0, x15
    .word 0x00d50533  # add x10, x10, x13
    .word 0x00d53333  # sltu x6, x10, x13
    .word 0x006585b3  # add x11, x11, x6
    .word 0x00050a93  # addi x21, x10, 0
    .word 0x00bb0533  # add x10, x22, x11
    .word 0x00b535b3  # sltu x11, x10, x11
    .word 0x01350533  # add x10, x10, x19
    .word 0x01353333  # sltu x6, x10, x19
    .word 0x006585b3  # add x11, x11, x6
    .word 0x01050533  # add x10, x10, x16
    .word 0x01053333  # sltu x6, x10, x16
    .word 0x006585b3  # add x11, x11, x6
    .word 0x40e006b3  # sub x13, x0, x14
    .word 0x00d50533  # add x10, x10, x13
    .word 0x00d53333  # sltu x6, x10, x13
    .word 0x006585b3  # add x11, x11, x6
    .word 0x00f03333  # sltu x6, x0, x15
    .word 0x406786b3  # sub x13, x15, x6
    .word 0x00d50533  # add x10, x10, x13
    .word 0x00d53333  # sltu x6, x10, x13
    .word 0x006585b3  # add x11, x11, x6
    .word 0x00050793  # addi x15, x10, 0
    .word 0x00bb8533  # add x10, x23, x11
    .word 0x00b535b3  # sltu x11, x10, x11
    .word 0x01450533  # add x10, x10, x20
    .word 0x01453333  # sltu x6, x10, x20
    .word 0x006585b3  # add x11, x11, x6
    .word 0x01150533  # add x10, x10, x17
    .word 0x01153333  # sltu x6, x10, x17
    .word 0x006585b3  # add x11, x11, x6
    .word 0x410006b3  # sub x13, x0, x16
    .word 0x00d50533  # add x10, x10, x13
    .word 0x00d53333  # sltu x6, x10, x13
    .word 0x006585b3  # add x11, x11, x6
    .word 0x00e03333  # sltu x6, x0, x14
    .word 0x406706b3  # sub x13, x14, x6
    .word 0x00d50533  # add x10, x10, x13
    .word 0x00d53333  # sltu x6, x10, x13
    .word 0x006585b3  # add x11, x11, x6
    .word 0x00050713  # addi x14, x10, 0
    .word 0x00bc0533  # add x10, x24, x11
    .word 0x00b535b3  # sltu x11, x10, x11
    .word 0x01550533  # add x10, x10, x21
    .word 0x01553333  # sltu x6, x10, x21
    .word 0x006585b3  # add x11, x11, x6
    .word 0x01250533  # add x10, x10, x18
    .word 0x01253333  # sltu x6, x10, x18
    .word 0x006585b3  # add x11, x11, x6
    .word 0x411006b3  # sub x13, x0, x17
    .word 0x00d50533  # add x10, x10, x13
    .word 0x00d53333  # sltu x6, x10, x13
    .word 0x006585b3  # add x11, x11, x6
    .word 0x01003333  # sltu x6, x0, x16
    .word 0x406806b3  # sub x13, x16, x6
    .word 0x00d50533  # add x10, x10, x13
    .word 0x00d53333  # sltu x6, x10, x13
    .word 0x006585b3  # add x11, x11, x6
    .word 0x00050813  # addi x16, x10, 0
    .word 0x00bc8533  # add x10, x25, x11
    .word 0x00b535b3  # sltu x11, x10, x11
    .word 0x01350533  # add x10, x10, x19
    .word 0x01353333  # sltu x6, x10, x19
    .word 0x006585b3  # add x11, x11, x6
    .word 0x412006b3  # sub x13, x0, x18
    .word 0x00d50533  # add x10, x10, x13
    .word 0x00d53333  # sltu x6, x10, x13
    .word 0x006585b3  # add x11, x11, x6
    .word 0x01103333  # sltu x6, x0, x17
    .word 0x406886b3  # sub x13, x17, x6
    .word 0x00d50533  # add x10, x10, x13
    .word 0x00d53333  # sltu x6, x10, x13
    .word 0x006585b3  # add x11, x11, x6
    .word 0x00050893  # addi x17, x10, 0
    .word 0x00bd0533  # add x10, x26, x11
    .word 0x00b535b3  # sltu x11, x10, x11
    .word 0x01450533  # add x10, x10, x20
    .word 0x01453333  # sltu x6, x10, x20
    .word 0x006585b3  # add x11, x11, x6
    .word 0x413006b3  # sub x13, x0, x19
    .word 0x00d50533  # add x10, x10, x13
    .word 0x00d53333  # sltu x6, x10, x13
    .word 0x006585b3  # add x11, x11, x6
    .word 0x01203333  # sltu x6, x0, x18
    .word 0x406906b3  # sub x13, x18, x6
    .word 0x00d50533  # add x10, x10, x13
    .word 0x00d53333  # sltu x6, x10, x13
    .word 0x006585b3  # add x11, x11, x6
    .word 0x00050913  # addi x18, x10, 0
    .word 0x00bd8533  # add x10, x27, x11
    .word 0x00b535b3  # sltu x11, x10, x11
    .word 0x01550533  # add x10, x10, x21
    .word 0x01553333  # sltu x6, x10, x21
    .word 0x006585b3  # add x11, x11, x6
    .word 0x414006b3  # sub x13, x0, x20
    .word 0x00d50533  # add x10, x10, x13
    .word 0x00d53333  # sltu x6, x10, x13
    .word 0x006585b3  # add x11, x11, x6
    .word 0x01303333  # sltu x6, x0, x19
    .word 0x406986b3  # sub x13, x19, x6
    .word 0x00d50533  # add x10, x10, x13
    .word 0x00d53333  # sltu x6, x10, x13
    .word 0x006585b3  # add x11, x11, x6
    .word 0x00050993  # addi x19, x10, 0
    .word 0x00b40533  # add x10, x8, x11
    .word 0x00b535b3  # sltu x11, x10, x11
    .word 0x415006b3  # sub x13, x0, x21
    .word 0x00d50533  # add x10, x10, x13
    .word 0x00d53333  # sltu x6, x10, x13
    .word 0x006585b3  # add x11, x11, x6
    .word 0x01403333  # sltu x6, x0, x20
    .word 0x406a06b3  # sub x13, x20, x6
    .word 0x00d50533  # add x10, x10, x13
    .word 0x00d53333  # sltu x6, x10, x13
    .word 0x006585b3  # add x11, x11, x6
    .word 0x00050a13  # addi x20, x10, 0
    .word 0x00b48533  # add x10, x9, x11
    .word 0x00b535b3  # sltu x11, x10, x11
    .word 0x01503333  # sltu x6, x0, x21
    .word 0x406a86b3  # sub x13, x21, x6
    .word 0x00d50533  # add x10, x10, x13
    .word 0x00d53333  # sltu x6, x10, x13
    .word 0x006585b3  # add x11, x11, x6
    .word 0x00178793  # addi x15, x15, 1
    .word 0x0017b693  # sltiu x13, x15, 1
    .word 0x00d70733  # add x14, x14, x13
    .word 0x00d736b3  # sltu x13, x14, x13
    .word 0x00d80833  # add x16, x16, x13
    .word 0x00d836b3  # sltu x13, x16, x13
    .word 0x00100293  # addi x5, x0, 1
    .word 0x40d286b3  # sub x13, x5, x13
    .word 0x00088a93  # addi x21, x17, 0
    .word 0x40d888b3  # sub x17, x17, x13
    .word 0x00dab6b3  # sltu x13, x21, x13
    .word 0x00090a93  # addi x21, x18, 0
    .word 0x40d90933  # sub x18, x18, x13
    .word 0x00dab6b3  # sltu x13, x21, x13
    .word 0x00098a93  # addi x21, x19, 0
    .word 0x40d989b3  # sub x19, x19, x13
    .word 0x00dab6b3  # sltu x13, x21, x13
    .word 0x00168693  # addi x13, x13, 1
    .word 0x000a0a93  # addi x21, x20, 0
    .word 0x40da0a33  # sub x20, x20, x13
    .word 0x00100293  # addi x5, x0, 1
    .word 0x00dab333  # sltu x6, x21, x13
    .word 0x406286b3  # sub x13, x5, x6
    .word 0x00d50ab3  # add x21, x10, x13
    .word 0x00dab6b3  # sltu x13, x21, x13
    .word 0x00100293  # addi x5, x0, 1
    .word 0x40b282b3  # sub x5, x5, x11
    .word 0x40d285b3  # sub x11, x5, x13
    .word 0x00078693  # addi x13, x15, 0
    .word 0x40b787b3  # sub x15, x15, x11
    .word 0x00b6b533  # sltu x10, x13, x11
    .word 0x00070693  # addi x13, x14, 0
    .word 0x40a70733  # sub x14, x14, x10
    .word 0x00a6b533  # sltu x10, x13, x10
    .word 0x00080693  # addi x13, x16, 0
    .word 0x40a80833  # sub x16, x16, x10
    .word 0x00a6b533  # sltu x10, x13, x10
    .word 0x40a58533  # sub x10, x11, x10
    .word 0x00a888b3  # add x17, x17, x10
    .word 0x00a8b533  # sltu x10, x17, x10
    .word 0x00a90933  # add x18, x18, x10
    .word 0x00a93533  # sltu x10, x18, x10
    .word 0x00a989b3  # add x19, x19, x10
    .word 0x00a9b533  # sltu x10, x19, x10
    .word 0x00b50533  # add x10, x10, x11
    .word 0x00aa0a33  # add x20, x20, x10
    .word 0x00aa3533  # sltu x10, x20, x10
    .word 0x00aa82b3  # add x5, x21, x10
    .word 0x40b28ab3  # sub x21, x5, x11
    .word 0x04f12023  # sw x15, 64(x2)
    .word 0x04e12223  # sw x14, 68(x2)
    .word 0x05012423  # sw x16, 72(x2)
    .word 0x05112623  # sw x17, 76(x2)
    .word 0x05212823  # sw x18, 80(x2)
    .word 0x05312a23  # sw x19, 84(x2)
    .word 0x05412c23  # sw x20, 88(x2)
    .word 0x05512e23  # sw x21, 92(x2)
    # the result
    .word 0x00000513  # addi x10, x0, 0
    # parameter 2: the array, back
    .word 0x04010293  # addi x5, x2, 64
    .word 0x0dc12303  # lw x6, 220(x2)
    .word 0x02028393  # addi x7, x5, 32
    .word 0x09000f6f  # jal x30, 144
    # above the frame
    .word 0x0a010293  # addi x5, x2, 160
    # the caller's registers
    .word 0x0002a403  # lw x8, 0(x5)
    .cfi_restore 8
    .word 0x0042a483  # lw x9, 4(x5)
    .cfi_restore 9
    .word 0x0082a903  # lw x18, 8(x5)
    .cfi_restore 18
    .word 0x00c2a983  # lw x19, 12(x5)
    .cfi_restore 19
    .word 0x0102aa03  # lw x20, 16(x5)
    .cfi_restore 20
    .word 0x0142aa83  # lw x21, 20(x5)
    .cfi_restore 21
    .word 0x0182ab03  # lw x22, 24(x5)
    .cfi_restore 22
    .word 0x01c2ab83  # lw x23, 28(x5)
    .cfi_restore 23
    .word 0x0202ac03  # lw x24, 32(x5)
    .cfi_restore 24
    .word 0x0242ac83  # lw x25, 36(x5)
    .cfi_restore 25
    .word 0x0282ad03  # lw x26, 40(x5)
    .cfi_restore 26
    .word 0x02c2ad83  # lw x27, 44(x5)
    .cfi_restore 27
    # the caller's x2
    .word 0x04028293  # addi x5, x5, 64
    .cfi_def_cfa 5, 0
    # all the room, wiped upward
    .word 0x00012023  # sw x0, 0(x2)
    .word 0x00012223  # sw x0, 4(x2)
    .word 0x00012423  # sw x0, 8(x2)
    .word 0x00012623  # sw x0, 12(x2)
    .word 0x01010113  # addi x2, x2, 16
    .word 0xfe5116e3  # bne x2, x5, -20
    .cfi_def_cfa 2, 0
    # temporaries, wiped
    .word 0x00000293  # addi x5, x0, 0
    .word 0x00000313  # addi x6, x0, 0
    .word 0x00000393  # addi x7, x0, 0
    .word 0x00000593  # addi x11, x0, 0
    .word 0x00000613  # addi x12, x0, 0
    .word 0x00000693  # addi x13, x0, 0
    .word 0x00000713  # addi x14, x0, 0
    .word 0x00000793  # addi x15, x0, 0
    .word 0x00000813  # addi x16, x0, 0
    .word 0x00000893  # addi x17, x0, 0
    .word 0x00000e13  # addi x28, x0, 0
    .word 0x00000e93  # addi x29, x0, 0
    .word 0x00000f13  # addi x30, x0, 0
    .word 0x00000f93  # addi x31, x0, 0
    # back
    .word 0x00008067  # jalr x0, 0(x1)
    # from x5 to x6 up to x7, and back
    .cfi_def_cfa 2, 224
    .cfi_offset 8, -64
    .cfi_offset 9, -60
    .cfi_offset 18, -56
    .cfi_offset 19, -52
    .cfi_offset 20, -48
    .cfi_offset 21, -44
    .cfi_offset 22, -40
    .cfi_offset 23, -36
    .cfi_offset 24, -32
    .cfi_offset 25, -28
    .cfi_offset 26, -24
    .cfi_offset 27, -20
    .word 0x0062ee33  # or x28, x5, x6
    .word 0x003e7e13  # andi x28, x28, 3
    .word 0x000e0e63  # beq x28, x0, 28
    .word 0x0002ce03  # lbu x28, 0(x5)
    .word 0x01c30023  # sb x28, 0(x6)
    .word 0x00128293  # addi x5, x5, 1
    .word 0x00130313  # addi x6, x6, 1
    .word 0xfe7298e3  # bne x5, x7, -16
    .word 0x0300006f  # jal x0, 48
    .word 0x0002ae03  # lw x28, 0(x5)
    .word 0x01c32023  # sw x28, 0(x6)
    .word 0x0042ae03  # lw x28, 4(x5)
    .word 0x01c32223  # sw x28, 4(x6)
    .word 0x0082ae03  # lw x28, 8(x5)
    .word 0x01c32423  # sw x28, 8(x6)
    .word 0x00c2ae03  # lw x28, 12(x5)
    .word 0x01c32623  # sw x28, 12(x6)
    .word 0x01028293  # addi x5, x5, 16
    .word 0x01030313  # addi x6, x6, 16
    .word 0xfc729ce3  # bne x5, x7, -40
    .word 0x000f0067  # jalr x0, 0(x30)
    .cfi_endproc
    .size p256_multiply, . - p256_multiply
    .option pop
