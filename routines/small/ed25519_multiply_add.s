# ed25519_multiply_add: made by factc 1.0.0 function; 599 words and 21 shared, 1344 bytes of stack, profile 1
    .option push
    .option norvc
    .option norelax
    .cfi_sections .debug_frame
    .section .text.ed25519_multiply_add, "ax", @progbits
    .p2align 2
    .globl ed25519_multiply_add
    .type ed25519_multiply_add, @function
ed25519_multiply_add:
    .cfi_startproc
    # room above the frame
    .word 0xfc010113  # addi x2, x2, -64
    .cfi_def_cfa_offset 64
    # the caller's registers
    .word 0x01212023  # sw x18, 0(x2)
    .cfi_offset 18, -64
    .word 0x01312223  # sw x19, 4(x2)
    .cfi_offset 19, -60
    .word 0x01412423  # sw x20, 8(x2)
    .cfi_offset 20, -56
    .word 0x01512623  # sw x21, 12(x2)
    .cfi_offset 21, -52
    .word 0x01612823  # sw x22, 16(x2)
    .cfi_offset 22, -48
    .word 0x01712a23  # sw x23, 20(x2)
    .cfi_offset 23, -44
    .word 0x01812c23  # sw x24, 24(x2)
    .cfi_offset 24, -40
    .word 0x01912e23  # sw x25, 28(x2)
    .cfi_offset 25, -36
    .word 0x03a12023  # sw x26, 32(x2)
    .cfi_offset 26, -32
    .word 0x03b12223  # sw x27, 36(x2)
    .cfi_offset 27, -28
    # arguments that are needed behind the body
    .word 0x02a12823  # sw x10, 48(x2)
    .word 0x02b12a23  # sw x11, 52(x2)
    .word 0x02c12c23  # sw x12, 56(x2)
    .word 0x02d12e23  # sw x13, 60(x2)
    # the frame's base
    .word 0xb0010113  # addi x2, x2, -1280
    .cfi_def_cfa 2, 1344
    # parameter 0: an array
    .word 0x00050293  # addi x5, x10, 0
    .word 0x00010313  # addi x6, x2, 0
    .word 0x02028393  # addi x7, x5, 32
    .word 0x0002ce03  # lbu x28, 0(x5)
    .word 0x01c30023  # sb x28, 0(x6)
    .word 0x00128293  # addi x5, x5, 1
    .word 0x00130313  # addi x6, x6, 1
    .word 0xfe7298e3  # bne x5, x7, -16
    # parameter 1: an array
    .word 0x00058293  # addi x5, x11, 0
    .word 0x02010313  # addi x6, x2, 32
    .word 0x02028393  # addi x7, x5, 32
    .word 0x0002ce03  # lbu x28, 0(x5)
    .word 0x01c30023  # sb x28, 0(x6)
    .word 0x00128293  # addi x5, x5, 1
    .word 0x00130313  # addi x6, x6, 1
    .word 0xfe7298e3  # bne x5, x7, -16
    # parameter 2: an array
    .word 0x00060293  # addi x5, x12, 0
    .word 0x04010313  # addi x6, x2, 64
    .word 0x02028393  # addi x7, x5, 32
    .word 0x0002ce03  # lbu x28, 0(x5)
    .word 0x01c30023  # sb x28, 0(x6)
    .word 0x00128293  # addi x5, x5, 1
    .word 0x00130313  # addi x6, x6, 1
    .word 0xfe7298e3  # bne x5, x7, -16
    # the body
    .word 0x5cf5dab7  # lui x21, 0x5cf5d
    .word 0x3eda8a93  # addi x21, x21, 1005
    .word 0x58126b37  # lui x22, 0x58126
    .word 0x31ab0b13  # addi x22, x22, 794
    .word 0xa2f7abb7  # lui x23, 0xa2f7a
    .word 0xcd6b8b93  # addi x23, x23, -810
    .word 0x14df02b7  # lui x5, 0x14df0
    .word 0x9de28293  # addi x5, x5, -1570
    .word 0x4e512023  # sw x5, 1248(x2)
    .word 0x10000c37  # lui x24, 0x10000
    .word 0xfffc0c13  # addi x24, x24, -1
    .word 0x08000313  # addi x6, x0, 128
    .word 0x00230333  # add x6, x6, x2
    .word 0x02000393  # addi x7, x0, 32
    .word 0x006383b3  # add x7, x7, x6
    .word 0x406382b3  # sub x5, x7, x6
    .word 0x00029463  # bne x5, x0, 8
    .word 0x0100006f  # jal x0, 16
    .word 0x00032023  # sw x0, 0(x6)
    .word 0x00430313  # addi x6, x6, 4
    .word 0xfedff06f  # jal x0, -20
    .word 0x0a000313  # addi x6, x0, 160
    .word 0x00230333  # add x6, x6, x2
    .word 0x02400393  # addi x7, x0, 36
    .word 0x006383b3  # add x7, x7, x6
    .word 0x406382b3  # sub x5, x7, x6
    .word 0x00029463  # bne x5, x0, 8
    .word 0x0100006f  # jal x0, 16
    .word 0x00032023  # sw x0, 0(x6)
    .word 0x00430313  # addi x6, x6, 4
    .word 0xfedff06f  # jal x0, -20
    .word 0x0c400313  # addi x6, x0, 196
    .word 0x00230333  # add x6, x6, x2
    .word 0x20000393  # addi x7, x0, 512
    .word 0x006383b3  # add x7, x7, x6
    .word 0x406382b3  # sub x5, x7, x6
    .word 0x00029463  # bne x5, x0, 8
    .word 0x0100006f  # jal x0, 16
    .word 0x00032023  # sw x0, 0(x6)
    .word 0x00430313  # addi x6, x6, 4
    .word 0xfedff06f  # jal x0, -20
    .word 0x2c400313  # addi x6, x0, 708
    .word 0x00230333  # add x6, x6, x2
    .word 0x04000393  # addi x7, x0, 64
    .word 0x006383b3  # add x7, x7, x6
    .word 0x406382b3  # sub x5, x7, x6
    .word 0x00029463  # bne x5, x0, 8
    .word 0x0100006f  # jal x0, 16
    .word 0x00032023  # sw x0, 0(x6)
    .word 0x00430313  # addi x6, x6, 4
    .word 0xfedff06f  # jal x0, -20
    .word 0x30400313  # addi x6, x0, 772
    .word 0x00230333  # add x6, x6, x2
    .word 0x02000393  # addi x7, x0, 32
    .word 0x006383b3  # add x7, x7, x6
    .word 0x406382b3  # sub x5, x7, x6
    .word 0x00029463  # bne x5, x0, 8
    .word 0x0100006f  # jal x0, 16
    .word 0x00032023  # sw x0, 0(x6)
    .word 0x00430313  # addi x6, x6, 4
    .word 0xfedff06f  # jal x0, -20
    .word 0xfff00593  # addi x11, x0, -1
    .word 0x00158593  # addi x11, x11, 1
    .word 0x00259c93  # slli x25, x11, 2
    .word 0x002c8cb3  # add x25, x25, x2
    .word 0x00259293  # slli x5, x11, 2
    .word 0x002282b3  # add x5, x5, x2
    .word 0x0002c283  # lbu x5, 0(x5)
    .word 0x00259313  # slli x6, x11, 2
    .word 0x00230333  # add x6, x6, x2
    .word 0x00134303  # lbu x6, 1(x6)
    .word 0x00831313  # slli x6, x6, 8
    .word 0x0062e2b3  # or x5, x5, x6
    .word 0x00259313  # slli x6, x11, 2
    .word 0x00230333  # add x6, x6, x2
    .word 0x00234303  # lbu x6, 2(x6)
    .word 0x01031313  # slli x6, x6, 16
    .word 0x0062e2b3  # or x5, x5, x6
    .word 0x00259313  # slli x6, x11, 2
    .word 0x00230333  # add x6, x6, x2
    .word 0x00334303  # lbu x6, 3(x6)
    .word 0x01831313  # slli x6, x6, 24
    .word 0x0062e2b3  # or x5, x5, x6
    .word 0x085ca023  # sw x5, 128(x25)
    .word 0x00259293  # slli x5, x11, 2
    .word 0x002282b3  # add x5, x5, x2
    .word 0x0202c283  # lbu x5, 32(x5)
    .word 0x00259313  # slli x6, x11, 2
    .word 0x00230333  # add x6, x6, x2
    .word 0x02134303  # lbu x6, 33(x6)
    .word 0x00831313  # slli x6, x6, 8
    .word 0x0062e2b3  # or x5, x5, x6
    .word 0x00259313  # slli x6, x11, 2
    .word 0x00230333  # add x6, x6, x2
    .word 0x02234303  # lbu x6, 34(x6)
    .word 0x01031313  # slli x6, x6, 16
    .word 0x0062e2b3  # or x5, x5, x6
    .word 0x00259313  # slli x6, x11, 2
    .word 0x00230333  # add x6, x6, x2
    .word 0x02334303  # lbu x6, 35(x6)
    .word 0x01831313  # slli x6, x6, 24
    .word 0x0062e2b3  # or x5, x5, x6
    .word 0x0c5ca223  # sw x5, 196(x25)
    .word 0xff958293  # addi x5, x11, -7
    .word 0xf4029ce3  # bne x5, x0, -168
    .word 0xfff00a13  # addi x20, x0, -1
    .word 0x001a0a13  # addi x20, x20, 1
    .word 0x002a1d93  # slli x27, x20, 2
    .word 0x002d8db3  # add x27, x27, x2
    .word 0x080da783  # lw x15, 128(x27)
    .word 0x00000513  # addi x10, x0, 0
    .word 0xfff00593  # addi x11, x0, -1
    .word 0x00158593  # addi x11, x11, 1
    .word 0x00259c93  # slli x25, x11, 2
    .word 0x002c8cb3  # add x25, x25, x2
    .word 0x0c4ca703  # lw x14, 196(x25)
    .word 0x02e78633  # mul x12, x15, x14
    .word 0x02e7b6b3  # mulhu x13, x15, x14
    .word 0x0a4ca283  # lw x5, 164(x25)
    .word 0x00c28733  # add x14, x5, x12
    .word 0x00059a63  # bne x11, x0, 20
    .word 0x08eda023  # sw x14, 128(x27)
    .word 0x00c73333  # sltu x6, x14, x12
    .word 0x00668533  # add x10, x13, x6
    .word 0x0200006f  # jal x0, 32
    .word 0x00a702b3  # add x5, x14, x10
    .word 0x0a5ca023  # sw x5, 160(x25)
    .word 0x00c73333  # sltu x6, x14, x12
    .word 0x006682b3  # add x5, x13, x6
    .word 0x0a0ca303  # lw x6, 160(x25)
    .word 0x00a33333  # sltu x6, x6, x10
    .word 0x00628533  # add x10, x5, x6
    .word 0xff958293  # addi x5, x11, -7
    .word 0xfa0296e3  # bne x5, x0, -84
    .word 0x0ca12023  # sw x10, 192(x2)
    .word 0xff9a0293  # addi x5, x20, -7
    .word 0xf80294e3  # bne x5, x0, -120
    .word 0x00000713  # addi x14, x0, 0
    .word 0xfff00593  # addi x11, x0, -1
    .word 0x00158593  # addi x11, x11, 1
    .word 0x00259c93  # slli x25, x11, 2
    .word 0x002c8cb3  # add x25, x25, x2
    .word 0x00259293  # slli x5, x11, 2
    .word 0x002282b3  # add x5, x5, x2
    .word 0x0402c283  # lbu x5, 64(x5)
    .word 0x00259313  # slli x6, x11, 2
    .word 0x00230333  # add x6, x6, x2
    .word 0x04134303  # lbu x6, 65(x6)
    .word 0x00831313  # slli x6, x6, 8
    .word 0x0062e2b3  # or x5, x5, x6
    .word 0x00259313  # slli x6, x11, 2
    .word 0x00230333  # add x6, x6, x2
    .word 0x04234303  # lbu x6, 66(x6)
    .word 0x01031313  # slli x6, x6, 16
    .word 0x0062e2b3  # or x5, x5, x6
    .word 0x00259313  # slli x6, x11, 2
    .word 0x00230333  # add x6, x6, x2
    .word 0x04334303  # lbu x6, 67(x6)
    .word 0x01831313  # slli x6, x6, 24
    .word 0x0062e533  # or x10, x5, x6
    .word 0x080ca283  # lw x5, 128(x25)
    .word 0x00a28633  # add x12, x5, x10
    .word 0x00e602b3  # add x5, x12, x14
    .word 0x2c5ca223  # sw x5, 708(x25)
    .word 0x00a632b3  # sltu x5, x12, x10
    .word 0x2c4ca303  # lw x6, 708(x25)
    .word 0x00e33333  # sltu x6, x6, x14
    .word 0x00628733  # add x14, x5, x6
    .word 0xff958293  # addi x5, x11, -7
    .word 0xf80294e3  # bne x5, x0, -120
    .word 0x00700593  # addi x11, x0, 7
    .word 0x00158593  # addi x11, x11, 1
    .word 0x00259c93  # slli x25, x11, 2
    .word 0x002c8cb3  # add x25, x25, x2
    .word 0x084ca283  # lw x5, 132(x25)
    .word 0x00e282b3  # add x5, x5, x14
    .word 0x2c5ca223  # sw x5, 708(x25)
    .word 0x2c4ca283  # lw x5, 708(x25)
    .word 0x00e2b733  # sltu x14, x5, x14
    .word 0xff158293  # addi x5, x11, -15
    .word 0xfc029ee3  # bne x5, x0, -36
    .word 0x33512223  # sw x21, 804(x2)
    .word 0x33612423  # sw x22, 808(x2)
    .word 0x33712623  # sw x23, 812(x2)
    .word 0x4e012283  # lw x5, 1248(x2)
    .word 0x32512823  # sw x5, 816(x2)
    .word 0x32012a23  # sw x0, 820(x2)
    .word 0x32012c23  # sw x0, 824(x2)
    .word 0x32012e23  # sw x0, 828(x2)
    .word 0x100002b7  # lui x5, 0x10000
    .word 0x00028293  # addi x5, x5, 0
    .word 0x34512023  # sw x5, 832(x2)
    .word 0x34400313  # addi x6, x0, 836
    .word 0x00230333  # add x6, x6, x2
    .word 0x04000393  # addi x7, x0, 64
    .word 0x006383b3  # add x7, x7, x6
    .word 0x406382b3  # sub x5, x7, x6
    .word 0x00029463  # bne x5, x0, 8
    .word 0x0100006f  # jal x0, 16
    .word 0x00032023  # sw x0, 0(x6)
    .word 0x00430313  # addi x6, x6, 4
    .word 0xfedff06f  # jal x0, -20
    .word 0x38400313  # addi x6, x0, 900
    .word 0x00230333  # add x6, x6, x2
    .word 0x04000393  # addi x7, x0, 64
    .word 0x006383b3  # add x7, x7, x6
    .word 0x406382b3  # sub x5, x7, x6
    .word 0x00029463  # bne x5, x0, 8
    .word 0x0100006f  # jal x0, 16
    .word 0x00032023  # sw x0, 0(x6)
    .word 0x00430313  # addi x6, x6, 4
    .word 0xfedff06f  # jal x0, -20
    .word 0x3d512223  # sw x21, 964(x2)
    .word 0x3d612423  # sw x22, 968(x2)
    .word 0x3d712623  # sw x23, 972(x2)
    .word 0x4e012283  # lw x5, 1248(x2)
    .word 0x3c512823  # sw x5, 976(x2)
    .word 0x3d400313  # addi x6, x0, 980
    .word 0x00230333  # add x6, x6, x2
    .word 0x02400393  # addi x7, x0, 36
    .word 0x006383b3  # add x7, x7, x6
    .word 0x406382b3  # sub x5, x7, x6
    .word 0x00029463  # bne x5, x0, 8
    .word 0x0100006f  # jal x0, 16
    .word 0x00032023  # sw x0, 0(x6)
    .word 0x00430313  # addi x6, x6, 4
    .word 0xfedff06f  # jal x0, -20
    .word 0xfff00893  # addi x17, x0, -1
    .word 0x00188893  # addi x17, x17, 1
    .word 0x00289d13  # slli x26, x17, 2
    .word 0x002d0d33  # add x26, x26, x2
    .word 0x2e0d2283  # lw x5, 736(x26)
    .word 0x01c2d293  # srli x5, x5, 28
    .word 0x0088b313  # sltiu x6, x17, 8
    .word 0x00888393  # addi x7, x17, 8
    .word 0x00f3f393  # andi x7, x7, 15
    .word 0x00239393  # slli x7, x7, 2
    .word 0x002383b3  # add x7, x7, x2
    .word 0x2c43a383  # lw x7, 708(x7)
    .word 0x00439393  # slli x7, x7, 4
    .word 0x40600333  # sub x6, x0, x6
    .word 0x0063f333  # and x6, x7, x6
    .word 0x0062e2b3  # or x5, x5, x6
    .word 0x3c5d2a23  # sw x5, 980(x26)
    .word 0xff888293  # addi x5, x17, -8
    .word 0xfa029ee3  # bne x5, x0, -68
    .word 0x00000613  # addi x12, x0, 0
    .word 0x00000793  # addi x15, x0, 0
    .word 0x00000813  # addi x16, x0, 0
    .word 0xfff00893  # addi x17, x0, -1
    .word 0x00188893  # addi x17, x17, 1
    .word 0x00289d13  # slli x26, x17, 2
    .word 0x002d0d33  # add x26, x26, x2
    .word 0xfff00593  # addi x11, x0, -1
    .word 0x00158593  # addi x11, x11, 1
    .word 0x00259c93  # slli x25, x11, 2
    .word 0x002c8cb3  # add x25, x25, x2
    .word 0x40b88933  # sub x18, x17, x11
    .word 0x00900313  # addi x6, x0, 9
    .word 0x02697a63  # bgeu x18, x6, 52
    .word 0x00291713  # slli x14, x18, 2
    .word 0x00270733  # add x14, x14, x2
    .word 0x3d472703  # lw x14, 980(x14)
    .word 0x3c4ca503  # lw x10, 964(x25)
    .word 0x02a706b3  # mul x13, x14, x10
    .word 0x02a73733  # mulhu x14, x14, x10
    .word 0x00d60633  # add x12, x12, x13
    .word 0x00d63333  # sltu x6, x12, x13
    .word 0x00670733  # add x14, x14, x6
    .word 0x00e787b3  # add x15, x15, x14
    .word 0x00e7b333  # sltu x6, x15, x14
    .word 0x00680833  # add x16, x16, x6
    .word 0xffd58293  # addi x5, x11, -3
    .word 0xfa029ae3  # bne x5, x0, -76
    .word 0x34cd2223  # sw x12, 836(x26)
    .word 0x00078613  # addi x12, x15, 0
    .word 0x00080793  # addi x15, x16, 0
    .word 0x00000813  # addi x16, x0, 0
    .word 0xff488293  # addi x5, x17, -12
    .word 0xf80296e3  # bne x5, x0, -116
    .word 0x3f512c23  # sw x21, 1016(x2)
    .word 0x3f612e23  # sw x22, 1020(x2)
    .word 0x41712023  # sw x23, 1024(x2)
    .word 0x4e012283  # lw x5, 1248(x2)
    .word 0x40512223  # sw x5, 1028(x2)
    .word 0x40800313  # addi x6, x0, 1032
    .word 0x00230333  # add x6, x6, x2
    .word 0x02400393  # addi x7, x0, 36
    .word 0x006383b3  # add x7, x7, x6
    .word 0x406382b3  # sub x5, x7, x6
    .word 0x00029463  # bne x5, x0, 8
    .word 0x0100006f  # jal x0, 16
    .word 0x00032023  # sw x0, 0(x6)
    .word 0x00430313  # addi x6, x6, 4
    .word 0xfedff06f  # jal x0, -20
    .word 0xfff00593  # addi x11, x0, -1
    .word 0x00158593  # addi x11, x11, 1
    .word 0x00259c93  # slli x25, x11, 2
    .word 0x002c8cb3  # add x25, x25, x2
    .word 0x360ca283  # lw x5, 864(x25)
    .word 0x01c2d293  # srli x5, x5, 28
    .word 0x0085b313  # sltiu x6, x11, 8
    .word 0x00858393  # addi x7, x11, 8
    .word 0x00f3f393  # andi x7, x7, 15
    .word 0x00239393  # slli x7, x7, 2
    .word 0x002383b3  # add x7, x7, x2
    .word 0x3443a383  # lw x7, 836(x7)
    .word 0x00439393  # slli x7, x7, 4
    .word 0x40600333  # sub x6, x0, x6
    .word 0x0063f333  # and x6, x7, x6
    .word 0x0062e2b3  # or x5, x5, x6
    .word 0x405ca423  # sw x5, 1032(x25)
    .word 0xffc58293  # addi x5, x11, -4
    .word 0xfa029ee3  # bne x5, x0, -68
    .word 0x00000613  # addi x12, x0, 0
    .word 0x00000793  # addi x15, x0, 0
    .word 0x00000813  # addi x16, x0, 0
    .word 0xfff00893  # addi x17, x0, -1
    .word 0x00188893  # addi x17, x17, 1
    .word 0x00289d13  # slli x26, x17, 2
    .word 0x002d0d33  # add x26, x26, x2
    .word 0xfff00593  # addi x11, x0, -1
    .word 0x00158593  # addi x11, x11, 1
    .word 0x00259c93  # slli x25, x11, 2
    .word 0x002c8cb3  # add x25, x25, x2
    .word 0x40b88933  # sub x18, x17, x11
    .word 0x00500313  # addi x6, x0, 5
    .word 0x02697a63  # bgeu x18, x6, 52
    .word 0x00291713  # slli x14, x18, 2
    .word 0x00270733  # add x14, x14, x2
    .word 0x40872703  # lw x14, 1032(x14)
    .word 0x3f8ca503  # lw x10, 1016(x25)
    .word 0x02a706b3  # mul x13, x14, x10
    .word 0x02a73733  # mulhu x14, x14, x10
    .word 0x00d60633  # add x12, x12, x13
    .word 0x00d63333  # sltu x6, x12, x13
    .word 0x00670733  # add x14, x14, x6
    .word 0x00e787b3  # add x15, x15, x14
    .word 0x00e7b333  # sltu x6, x15, x14
    .word 0x00680833  # add x16, x16, x6
    .word 0xffd58293  # addi x5, x11, -3
    .word 0xfa029ae3  # bne x5, x0, -76
    .word 0x38cd2223  # sw x12, 900(x26)
    .word 0x00078613  # addi x12, x15, 0
    .word 0x00080793  # addi x15, x16, 0
    .word 0x00000813  # addi x16, x0, 0
    .word 0xff888293  # addi x5, x17, -8
    .word 0xf80296e3  # bne x5, x0, -116
    .word 0x42c00313  # addi x6, x0, 1068
    .word 0x00230333  # add x6, x6, x2
    .word 0x04000393  # addi x7, x0, 64
    .word 0x006383b3  # add x7, x7, x6
    .word 0x406382b3  # sub x5, x7, x6
    .word 0x00029463  # bne x5, x0, 8
    .word 0x0100006f  # jal x0, 16
    .word 0x00032023  # sw x0, 0(x6)
    .word 0x00430313  # addi x6, x6, 4
    .word 0xfedff06f  # jal x0, -20
    .word 0x00000513  # addi x10, x0, 0
    .word 0x00000713  # addi x14, x0, 0
    .word 0xfff00593  # addi x11, x0, -1
    .word 0x00158593  # addi x11, x11, 1
    .word 0x00259c93  # slli x25, x11, 2
    .word 0x002c8cb3  # add x25, x25, x2
    .word 0x0075b293  # sltiu x5, x11, 7
    .word 0x00000337  # lui x6, 0x00000
    .word 0xfff30313  # addi x6, x6, -1
    .word 0x405002b3  # sub x5, x0, x5
    .word 0x01834333  # xor x6, x6, x24
    .word 0x00537333  # and x6, x6, x5
    .word 0x006c4933  # xor x18, x24, x6
    .word 0x2c4ca283  # lw x5, 708(x25)
    .word 0x0122f7b3  # and x15, x5, x18
    .word 0x344ca283  # lw x5, 836(x25)
    .word 0x0122f6b3  # and x13, x5, x18
    .word 0x384ca283  # lw x5, 900(x25)
    .word 0x324ca303  # lw x6, 804(x25)
    .word 0x00628833  # add x16, x5, x6
    .word 0x00f809b3  # add x19, x16, x15
    .word 0x00a98633  # add x12, x19, x10
    .word 0x324ca303  # lw x6, 804(x25)
    .word 0x006832b3  # sltu x5, x16, x6
    .word 0x00f9b333  # sltu x6, x19, x15
    .word 0x006282b3  # add x5, x5, x6
    .word 0x00a63333  # sltu x6, x12, x10
    .word 0x00628533  # add x10, x5, x6
    .word 0x40d607b3  # sub x15, x12, x13
    .word 0x40e782b3  # sub x5, x15, x14
    .word 0x425ca623  # sw x5, 1068(x25)
    .word 0x00d632b3  # sltu x5, x12, x13
    .word 0x00e7b333  # sltu x6, x15, x14
    .word 0x00628733  # add x14, x5, x6
    .word 0xff958293  # addi x5, x11, -7
    .word 0xf80290e3  # bne x5, x0, -128
    .word 0x3a412283  # lw x5, 932(x2)
    .word 0x00a282b3  # add x5, x5, x10
    .word 0x40e282b3  # sub x5, x5, x14
    .word 0x44512623  # sw x5, 1100(x2)
    .word 0x46c00313  # addi x6, x0, 1132
    .word 0x00230333  # add x6, x6, x2
    .word 0x04000393  # addi x7, x0, 64
    .word 0x006383b3  # add x7, x7, x6
    .word 0x406382b3  # sub x5, x7, x6
    .word 0x00029463  # bne x5, x0, 8
    .word 0x0100006f  # jal x0, 16
    .word 0x00032023  # sw x0, 0(x6)
    .word 0x00430313  # addi x6, x6, 4
    .word 0xfedff06f  # jal x0, -20
    .word 0x4b512623  # sw x21, 1196(x2)
    .word 0x4b612823  # sw x22, 1200(x2)
    .word 0x4b712a23  # sw x23, 1204(x2)
    .word 0x4e012283  # lw x5, 1248(x2)
    .word 0x4a512c23  # sw x5, 1208(x2)
    .word 0x4bc00313  # addi x6, x0, 1212
    .word 0x00230333  # add x6, x6, x2
    .word 0x02400393  # addi x7, x0, 36
    .word 0x006383b3  # add x7, x7, x6
    .word 0x406382b3  # sub x5, x7, x6
    .word 0x00029463  # bne x5, x0, 8
    .word 0x0100006f  # jal x0, 16
    .word 0x00032023  # sw x0, 0(x6)
    .word 0x00430313  # addi x6, x6, 4
    .word 0xfedff06f  # jal x0, -20
    .word 0xfff00593  # addi x11, x0, -1
    .word 0x00158593  # addi x11, x11, 1
    .word 0x00259c93  # slli x25, x11, 2
    .word 0x002c8cb3  # add x25, x25, x2
    .word 0x448ca283  # lw x5, 1096(x25)
    .word 0x01c2d293  # srli x5, x5, 28
    .word 0x0085b313  # sltiu x6, x11, 8
    .word 0x00858393  # addi x7, x11, 8
    .word 0x00f3f393  # andi x7, x7, 15
    .word 0x00239393  # slli x7, x7, 2
    .word 0x002383b3  # add x7, x7, x2
    .word 0x42c3a383  # lw x7, 1068(x7)
    .word 0x00439393  # slli x7, x7, 4
    .word 0x40600333  # sub x6, x0, x6
    .word 0x0063f333  # and x6, x7, x6
    .word 0x0062e2b3  # or x5, x5, x6
    .word 0x4a5cae23  # sw x5, 1212(x25)
    .word 0x00058293  # addi x5, x11, 0
    .word 0xfa029ee3  # bne x5, x0, -68
    .word 0x00000613  # addi x12, x0, 0
    .word 0x00000793  # addi x15, x0, 0
    .word 0x00000813  # addi x16, x0, 0
    .word 0xfff00a13  # addi x20, x0, -1
    .word 0x001a0a13  # addi x20, x20, 1
    .word 0x002a1d93  # slli x27, x20, 2
    .word 0x002d8db3  # add x27, x27, x2
    .word 0xfff00593  # addi x11, x0, -1
    .word 0x00158593  # addi x11, x11, 1
    .word 0x00259c93  # slli x25, x11, 2
    .word 0x002c8cb3  # add x25, x25, x2
    .word 0x40ba0933  # sub x18, x20, x11
    .word 0x00100313  # addi x6, x0, 1
    .word 0x02697a63  # bgeu x18, x6, 52
    .word 0x00291713  # slli x14, x18, 2
    .word 0x00270733  # add x14, x14, x2
    .word 0x4bc72703  # lw x14, 1212(x14)
    .word 0x4acca503  # lw x10, 1196(x25)
    .word 0x02a706b3  # mul x13, x14, x10
    .word 0x02a73733  # mulhu x14, x14, x10
    .word 0x00d60633  # add x12, x12, x13
    .word 0x00d63333  # sltu x6, x12, x13
    .word 0x00670733  # add x14, x14, x6
    .word 0x00e787b3  # add x15, x15, x14
    .word 0x00e7b333  # sltu x6, x15, x14
    .word 0x00680833  # add x16, x16, x6
    .word 0xffd58293  # addi x5, x11, -3
    .word 0xfa029ae3  # bne x5, x0, -76
    .word 0x46cda623  # sw x12, 1132(x27)
    .word 0x00078613  # addi x12, x15, 0
    .word 0x00080793  # addi x15, x16, 0
    .word 0x00000813  # addi x16, x0, 0
    .word 0xffca0293  # addi x5, x20, -4
    .word 0xf80296e3  # bne x5, x0, -116
    .word 0x00000713  # addi x14, x0, 0
    .word 0xfff00593  # addi x11, x0, -1
    .word 0x00158593  # addi x11, x11, 1
    .word 0x00259c93  # slli x25, x11, 2
    .word 0x002c8cb3  # add x25, x25, x2
    .word 0x42cca283  # lw x5, 1068(x25)
    .word 0x0075b313  # sltiu x6, x11, 7
    .word 0x000003b7  # lui x7, 0x00000
    .word 0xfff38393  # addi x7, x7, -1
    .word 0x40600333  # sub x6, x0, x6
    .word 0x0183c3b3  # xor x7, x7, x24
    .word 0x0063f3b3  # and x7, x7, x6
    .word 0x007c4333  # xor x6, x24, x7
    .word 0x0062f533  # and x10, x5, x6
    .word 0x46cca303  # lw x6, 1132(x25)
    .word 0x40650633  # sub x12, x10, x6
    .word 0x40e602b3  # sub x5, x12, x14
    .word 0x305ca223  # sw x5, 772(x25)
    .word 0x46cca303  # lw x6, 1132(x25)
    .word 0x006532b3  # sltu x5, x10, x6
    .word 0x00e63333  # sltu x6, x12, x14
    .word 0x00628733  # add x14, x5, x6
    .word 0xff958293  # addi x5, x11, -7
    .word 0xfa0296e3  # bne x5, x0, -84
    .word 0x40e007b3  # sub x15, x0, x14
    .word 0x00000513  # addi x10, x0, 0
    .word 0xfff00593  # addi x11, x0, -1
    .word 0x00158593  # addi x11, x11, 1
    .word 0x00259c93  # slli x25, x11, 2
    .word 0x002c8cb3  # add x25, x25, x2
    .word 0x324ca283  # lw x5, 804(x25)
    .word 0x00f2f733  # and x14, x5, x15
    .word 0x304ca283  # lw x5, 772(x25)
    .word 0x00e28633  # add x12, x5, x14
    .word 0x00a602b3  # add x5, x12, x10
    .word 0x305ca223  # sw x5, 772(x25)
    .word 0x00e632b3  # sltu x5, x12, x14
    .word 0x304ca303  # lw x6, 772(x25)
    .word 0x00a33333  # sltu x6, x6, x10
    .word 0x00628533  # add x10, x5, x6
    .word 0xff958293  # addi x5, x11, -7
    .word 0xfc0294e3  # bne x5, x0, -56
    .word 0xfff00a13  # addi x20, x0, -1
    .word 0x001a0a13  # addi x20, x20, 1
    .word 0x002a1d93  # slli x27, x20, 2
    .word 0x002d8db3  # add x27, x27, x2
    .word 0xfff00593  # addi x11, x0, -1
    .word 0x00158593  # addi x11, x11, 1
    .word 0x00259c93  # slli x25, x11, 2
    .word 0x002c8cb3  # add x25, x25, x2
    .word 0x002a1293  # slli x5, x20, 2
    .word 0x00b282b3  # add x5, x5, x11
    .word 0x304da303  # lw x6, 772(x27)
    .word 0x00359393  # slli x7, x11, 3
    .word 0x00735333  # srl x6, x6, x7
    .word 0x002282b3  # add x5, x5, x2
    .word 0x06628023  # sb x6, 96(x5)
    .word 0xffd58293  # addi x5, x11, -3
    .word 0xfc029ae3  # bne x5, x0, -44
    .word 0xff9a0293  # addi x5, x20, -7
    .word 0xfa029ee3  # bne x5, x0, -68
    # the result
    .word 0x00000513  # addi x10, x0, 0
    # parameter 3: the array, back
    .word 0x06010293  # addi x5, x2, 96
    .word 0x53c12303  # lw x6, 1340(x2)
    .word 0x02028393  # addi x7, x5, 32
    .word 0x0002ce03  # lbu x28, 0(x5)
    .word 0x01c30023  # sb x28, 0(x6)
    .word 0x00128293  # addi x5, x5, 1
    .word 0x00130313  # addi x6, x6, 1
    .word 0xfe7298e3  # bne x5, x7, -16
    # above the frame
    .word 0x50010293  # addi x5, x2, 1280
    # the caller's registers
    .word 0x0002a903  # lw x18, 0(x5)
    .cfi_restore 18
    .word 0x0042a983  # lw x19, 4(x5)
    .cfi_restore 19
    .word 0x0082aa03  # lw x20, 8(x5)
    .cfi_restore 20
    .word 0x00c2aa83  # lw x21, 12(x5)
    .cfi_restore 21
    .word 0x0102ab03  # lw x22, 16(x5)
    .cfi_restore 22
    .word 0x0142ab83  # lw x23, 20(x5)
    .cfi_restore 23
    .word 0x0182ac03  # lw x24, 24(x5)
    .cfi_restore 24
    .word 0x01c2ac83  # lw x25, 28(x5)
    .cfi_restore 25
    .word 0x0202ad03  # lw x26, 32(x5)
    .cfi_restore 26
    .word 0x0242ad83  # lw x27, 36(x5)
    .cfi_restore 27
    # the caller's x2
    .word 0x04028293  # addi x5, x5, 64
    .cfi_def_cfa 5, 0
    # on to the tail that functions share
    jal x0, factc.tail.1
    .cfi_endproc
    .size ed25519_multiply_add, . - ed25519_multiply_add
    .section .text.factc.tail.1, "axG", @progbits, factc.tail.1, comdat
    .p2align 2
    .globl factc.tail.1
    .hidden factc.tail.1
    .type factc.tail.1, @function
factc.tail.1:
    .cfi_startproc
    .cfi_def_cfa 5, 0
    # all the room, wiped upward
    .word 0x00012023  # sw x0, 0(x2)
    .word 0x00012223  # sw x0, 4(x2)
    .word 0x00012423  # sw x0, 8(x2)
    .word 0x00012623  # sw x0, 12(x2)
    .word 0x01010113  # addi x2, x2, 16
    .word 0xfe5116e3  # bne x2, x5, -20
    .cfi_def_cfa 2, 0
    # temporaries, wiped
    .word 0x00000293  # addi x5, x0, 0
    .word 0x00000313  # addi x6, x0, 0
    .word 0x00000393  # addi x7, x0, 0
    .word 0x00000593  # addi x11, x0, 0
    .word 0x00000613  # addi x12, x0, 0
    .word 0x00000693  # addi x13, x0, 0
    .word 0x00000713  # addi x14, x0, 0
    .word 0x00000793  # addi x15, x0, 0
    .word 0x00000813  # addi x16, x0, 0
    .word 0x00000893  # addi x17, x0, 0
    .word 0x00000e13  # addi x28, x0, 0
    .word 0x00000e93  # addi x29, x0, 0
    .word 0x00000f13  # addi x30, x0, 0
    .word 0x00000f93  # addi x31, x0, 0
    # back
    .word 0x00008067  # jalr x0, 0(x1)
    .cfi_endproc
    .size factc.tail.1, . - factc.tail.1
    .option pop
