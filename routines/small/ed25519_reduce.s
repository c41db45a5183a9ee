# ed25519_reduce: made by factc 1.0.0 function; 458 words and 21 shared, 736 bytes of stack, profile 1
    .option push
    .option norvc
    .option norelax
    .cfi_sections .debug_frame
    .section .text.ed25519_reduce, "ax", @progbits
    .p2align 2
    .globl ed25519_reduce
    .type ed25519_reduce, @function
ed25519_reduce:
    .cfi_startproc
    # room above the frame
    .word 0xfc010113  # addi x2, x2, -64
    .cfi_def_cfa_offset 64
    # the caller's registers
    .word 0x00812023  # sw x8, 0(x2)
    .cfi_offset 8, -64
    .word 0x01212223  # sw x18, 4(x2)
    .cfi_offset 18, -60
    .word 0x01312423  # sw x19, 8(x2)
    .cfi_offset 19, -56
    .word 0x01412623  # sw x20, 12(x2)
    .cfi_offset 20, -52
    .word 0x01512823  # sw x21, 16(x2)
    .cfi_offset 21, -48
    .word 0x01612a23  # sw x22, 20(x2)
    .cfi_offset 22, -44
    .word 0x01712c23  # sw x23, 24(x2)
    .cfi_offset 23, -40
    .word 0x01812e23  # sw x24, 28(x2)
    .cfi_offset 24, -36
    .word 0x03912023  # sw x25, 32(x2)
    .cfi_offset 25, -32
    .word 0x03a12223  # sw x26, 36(x2)
    .cfi_offset 26, -28
    .word 0x03b12423  # sw x27, 40(x2)
    .cfi_offset 27, -24
    # arguments that are needed behind the body
    .word 0x02a12c23  # sw x10, 56(x2)
    .word 0x02b12e23  # sw x11, 60(x2)
    # the frame's base
    .word 0xd6010113  # addi x2, x2, -672
    .cfi_def_cfa 2, 736
    # parameter 0: an array
    .word 0x00050293  # addi x5, x10, 0
    .word 0x00010313  # addi x6, x2, 0
    .word 0x04028393  # addi x7, x5, 64
    .word 0x0002ce03  # lbu x28, 0(x5)
    .word 0x01c30023  # sb x28, 0(x6)
    .word 0x00128293  # addi x5, x5, 1
    .word 0x00130313  # addi x6, x6, 1
    .word 0xfe7298e3  # bne x5, x7, -16
    # the body
    .word 0x5cf5db37  # lui x22, 0x5cf5d
    .word 0x3edb0b13  # addi x22, x22, 1005
    .word 0x58126bb7  # lui x23, 0x58126
    .word 0x31ab8b93  # addi x23, x23, 794
    .word 0xa2f7ac37  # lui x24, 0xa2f7a
    .word 0xcd6c0c13  # addi x24, x24, -810
    .word 0x14df02b7  # lui x5, 0x14df0
    .word 0x9de28293  # addi x5, x5, -1570
    .word 0x26512e23  # sw x5, 636(x2)
    .word 0x10000cb7  # lui x25, 0x10000
    .word 0xfffc8c93  # addi x25, x25, -1
    .word 0x06000313  # addi x6, x0, 96
    .word 0x00230333  # add x6, x6, x2
    .word 0x04000393  # addi x7, x0, 64
    .word 0x006383b3  # add x7, x7, x6
    .word 0x406382b3  # sub x5, x7, x6
    .word 0x00029463  # bne x5, x0, 8
    .word 0x0100006f  # jal x0, 16
    .word 0x00032023  # sw x0, 0(x6)
    .word 0x00430313  # addi x6, x6, 4
    .word 0xfedff06f  # jal x0, -20
    .word 0x0a000313  # addi x6, x0, 160
    .word 0x00230333  # add x6, x6, x2
    .word 0x02000393  # addi x7, x0, 32
    .word 0x006383b3  # add x7, x7, x6
    .word 0x406382b3  # sub x5, x7, x6
    .word 0x00029463  # bne x5, x0, 8
    .word 0x0100006f  # jal x0, 16
    .word 0x00032023  # sw x0, 0(x6)
    .word 0x00430313  # addi x6, x6, 4
    .word 0xfedff06f  # jal x0, -20
    .word 0xfff00513  # addi x10, x0, -1
    .word 0x00150513  # addi x10, x10, 1
    .word 0x00251313  # slli x6, x10, 2
    .word 0x00230333  # add x6, x6, x2
    .word 0x00034303  # lbu x6, 0(x6)
    .word 0x00251393  # slli x7, x10, 2
    .word 0x002383b3  # add x7, x7, x2
    .word 0x0013c383  # lbu x7, 1(x7)
    .word 0x00839393  # slli x7, x7, 8
    .word 0x00736333  # or x6, x6, x7
    .word 0x00251393  # slli x7, x10, 2
    .word 0x002383b3  # add x7, x7, x2
    .word 0x0023c383  # lbu x7, 2(x7)
    .word 0x01039393  # slli x7, x7, 16
    .word 0x00736333  # or x6, x6, x7
    .word 0x00251393  # slli x7, x10, 2
    .word 0x002383b3  # add x7, x7, x2
    .word 0x0033c383  # lbu x7, 3(x7)
    .word 0x01839393  # slli x7, x7, 24
    .word 0x00736333  # or x6, x6, x7
    .word 0x00251293  # slli x5, x10, 2
    .word 0x002282b3  # add x5, x5, x2
    .word 0x0662a023  # sw x6, 96(x5)
    .word 0xff150293  # addi x5, x10, -15
    .word 0xfa0292e3  # bne x5, x0, -92
    .word 0x0d612023  # sw x22, 192(x2)
    .word 0x0d712223  # sw x23, 196(x2)
    .word 0x0d812423  # sw x24, 200(x2)
    .word 0x27c12283  # lw x5, 636(x2)
    .word 0x0c512623  # sw x5, 204(x2)
    .word 0x0c012823  # sw x0, 208(x2)
    .word 0x0c012a23  # sw x0, 212(x2)
    .word 0x0c012c23  # sw x0, 216(x2)
    .word 0x100002b7  # lui x5, 0x10000
    .word 0x00028293  # addi x5, x5, 0
    .word 0x0c512e23  # sw x5, 220(x2)
    .word 0x0e000313  # addi x6, x0, 224
    .word 0x00230333  # add x6, x6, x2
    .word 0x04000393  # addi x7, x0, 64
    .word 0x006383b3  # add x7, x7, x6
    .word 0x406382b3  # sub x5, x7, x6
    .word 0x00029463  # bne x5, x0, 8
    .word 0x0100006f  # jal x0, 16
    .word 0x00032023  # sw x0, 0(x6)
    .word 0x00430313  # addi x6, x6, 4
    .word 0xfedff06f  # jal x0, -20
    .word 0x12000313  # addi x6, x0, 288
    .word 0x00230333  # add x6, x6, x2
    .word 0x04000393  # addi x7, x0, 64
    .word 0x006383b3  # add x7, x7, x6
    .word 0x406382b3  # sub x5, x7, x6
    .word 0x00029463  # bne x5, x0, 8
    .word 0x0100006f  # jal x0, 16
    .word 0x00032023  # sw x0, 0(x6)
    .word 0x00430313  # addi x6, x6, 4
    .word 0xfedff06f  # jal x0, -20
    .word 0x17612023  # sw x22, 352(x2)
    .word 0x17712223  # sw x23, 356(x2)
    .word 0x17812423  # sw x24, 360(x2)
    .word 0x27c12283  # lw x5, 636(x2)
    .word 0x16512623  # sw x5, 364(x2)
    .word 0x17000313  # addi x6, x0, 368
    .word 0x00230333  # add x6, x6, x2
    .word 0x02400393  # addi x7, x0, 36
    .word 0x006383b3  # add x7, x7, x6
    .word 0x406382b3  # sub x5, x7, x6
    .word 0x00029463  # bne x5, x0, 8
    .word 0x0100006f  # jal x0, 16
    .word 0x00032023  # sw x0, 0(x6)
    .word 0x00430313  # addi x6, x6, 4
    .word 0xfedff06f  # jal x0, -20
    .word 0xfff00713  # addi x14, x0, -1
    .word 0x00170713  # addi x14, x14, 1
    .word 0x00271d13  # slli x26, x14, 2
    .word 0x002d0d33  # add x26, x26, x2
    .word 0x07cd2283  # lw x5, 124(x26)
    .word 0x01c2d293  # srli x5, x5, 28
    .word 0x00873313  # sltiu x6, x14, 8
    .word 0x00870393  # addi x7, x14, 8
    .word 0x00f3f393  # andi x7, x7, 15
    .word 0x00239393  # slli x7, x7, 2
    .word 0x002383b3  # add x7, x7, x2
    .word 0x0603a383  # lw x7, 96(x7)
    .word 0x00439393  # slli x7, x7, 4
    .word 0x40600333  # sub x6, x0, x6
    .word 0x0063f333  # and x6, x7, x6
    .word 0x0062e2b3  # or x5, x5, x6
    .word 0x165d2823  # sw x5, 368(x26)
    .word 0xff870293  # addi x5, x14, -8
    .word 0xfa029ee3  # bne x5, x0, -68
    .word 0x00000593  # addi x11, x0, 0
    .word 0x00000613  # addi x12, x0, 0
    .word 0x00000693  # addi x13, x0, 0
    .word 0xfff00713  # addi x14, x0, -1
    .word 0x00170713  # addi x14, x14, 1
    .word 0x00271d13  # slli x26, x14, 2
    .word 0x002d0d33  # add x26, x26, x2
    .word 0xfff00793  # addi x15, x0, -1
    .word 0x00178793  # addi x15, x15, 1
    .word 0x40f70833  # sub x16, x14, x15
    .word 0x00900313  # addi x6, x0, 9
    .word 0x02687e63  # bgeu x16, x6, 60
    .word 0x00281993  # slli x19, x16, 2
    .word 0x002989b3  # add x19, x19, x2
    .word 0x1709a983  # lw x19, 368(x19)
    .word 0x00279893  # slli x17, x15, 2
    .word 0x002888b3  # add x17, x17, x2
    .word 0x1608a883  # lw x17, 352(x17)
    .word 0x03198933  # mul x18, x19, x17
    .word 0x0319b9b3  # mulhu x19, x19, x17
    .word 0x012585b3  # add x11, x11, x18
    .word 0x0125b333  # sltu x6, x11, x18
    .word 0x006989b3  # add x19, x19, x6
    .word 0x01360633  # add x12, x12, x19
    .word 0x01363333  # sltu x6, x12, x19
    .word 0x006686b3  # add x13, x13, x6
    .word 0xffd78293  # addi x5, x15, -3
    .word 0xfa029ae3  # bne x5, x0, -76
    .word 0x0ebd2023  # sw x11, 224(x26)
    .word 0x00060593  # addi x11, x12, 0
    .word 0x00068613  # addi x12, x13, 0
    .word 0x00000693  # addi x13, x0, 0
    .word 0xff470293  # addi x5, x14, -12
    .word 0xf80296e3  # bne x5, x0, -116
    .word 0x19612a23  # sw x22, 404(x2)
    .word 0x19712c23  # sw x23, 408(x2)
    .word 0x19812e23  # sw x24, 412(x2)
    .word 0x27c12283  # lw x5, 636(x2)
    .word 0x1a512023  # sw x5, 416(x2)
    .word 0x1a400313  # addi x6, x0, 420
    .word 0x00230333  # add x6, x6, x2
    .word 0x02400393  # addi x7, x0, 36
    .word 0x006383b3  # add x7, x7, x6
    .word 0x406382b3  # sub x5, x7, x6
    .word 0x00029463  # bne x5, x0, 8
    .word 0x0100006f  # jal x0, 16
    .word 0x00032023  # sw x0, 0(x6)
    .word 0x00430313  # addi x6, x6, 4
    .word 0xfedff06f  # jal x0, -20
    .word 0xfff00a93  # addi x21, x0, -1
    .word 0x001a8a93  # addi x21, x21, 1
    .word 0x002a9d93  # slli x27, x21, 2
    .word 0x002d8db3  # add x27, x27, x2
    .word 0x0fcda283  # lw x5, 252(x27)
    .word 0x01c2d293  # srli x5, x5, 28
    .word 0x008ab313  # sltiu x6, x21, 8
    .word 0x008a8393  # addi x7, x21, 8
    .word 0x00f3f393  # andi x7, x7, 15
    .word 0x00239393  # slli x7, x7, 2
    .word 0x002383b3  # add x7, x7, x2
    .word 0x0e03a383  # lw x7, 224(x7)
    .word 0x00439393  # slli x7, x7, 4
    .word 0x40600333  # sub x6, x0, x6
    .word 0x0063f333  # and x6, x7, x6
    .word 0x0062e2b3  # or x5, x5, x6
    .word 0x1a5da223  # sw x5, 420(x27)
    .word 0xffca8293  # addi x5, x21, -4
    .word 0xfa029ee3  # bne x5, x0, -68
    .word 0x00000593  # addi x11, x0, 0
    .word 0x00000613  # addi x12, x0, 0
    .word 0x00000693  # addi x13, x0, 0
    .word 0xfff00713  # addi x14, x0, -1
    .word 0x00170713  # addi x14, x14, 1
    .word 0x00271d13  # slli x26, x14, 2
    .word 0x002d0d33  # add x26, x26, x2
    .word 0xfff00793  # addi x15, x0, -1
    .word 0x00178793  # addi x15, x15, 1
    .word 0x40f70833  # sub x16, x14, x15
    .word 0x00500313  # addi x6, x0, 5
    .word 0x02687e63  # bgeu x16, x6, 60
    .word 0x00281993  # slli x19, x16, 2
    .word 0x002989b3  # add x19, x19, x2
    .word 0x1a49a983  # lw x19, 420(x19)
    .word 0x00279893  # slli x17, x15, 2
    .word 0x002888b3  # add x17, x17, x2
    .word 0x1948a883  # lw x17, 404(x17)
    .word 0x03198933  # mul x18, x19, x17
    .word 0x0319b9b3  # mulhu x19, x19, x17
    .word 0x012585b3  # add x11, x11, x18
    .word 0x0125b333  # sltu x6, x11, x18
    .word 0x006989b3  # add x19, x19, x6
    .word 0x01360633  # add x12, x12, x19
    .word 0x01363333  # sltu x6, x12, x19
    .word 0x006686b3  # add x13, x13, x6
    .word 0xffd78293  # addi x5, x15, -3
    .word 0xfa029ae3  # bne x5, x0, -76
    .word 0x12bd2023  # sw x11, 288(x26)
    .word 0x00060593  # addi x11, x12, 0
    .word 0x00068613  # addi x12, x13, 0
    .word 0x00000693  # addi x13, x0, 0
    .word 0xff870293  # addi x5, x14, -8
    .word 0xf80296e3  # bne x5, x0, -116
    .word 0x1c800313  # addi x6, x0, 456
    .word 0x00230333  # add x6, x6, x2
    .word 0x04000393  # addi x7, x0, 64
    .word 0x006383b3  # add x7, x7, x6
    .word 0x406382b3  # sub x5, x7, x6
    .word 0x00029463  # bne x5, x0, 8
    .word 0x0100006f  # jal x0, 16
    .word 0x00032023  # sw x0, 0(x6)
    .word 0x00430313  # addi x6, x6, 4
    .word 0xfedff06f  # jal x0, -20
    .word 0x00000893  # addi x17, x0, 0
    .word 0x00000993  # addi x19, x0, 0
    .word 0xfff00a93  # addi x21, x0, -1
    .word 0x001a8a93  # addi x21, x21, 1
    .word 0x002a9d93  # slli x27, x21, 2
    .word 0x002d8db3  # add x27, x27, x2
    .word 0x007ab293  # sltiu x5, x21, 7
    .word 0x00000337  # lui x6, 0x00000
    .word 0xfff30313  # addi x6, x6, -1
    .word 0x405002b3  # sub x5, x0, x5
    .word 0x01934333  # xor x6, x6, x25
    .word 0x00537333  # and x6, x6, x5
    .word 0x006cc7b3  # xor x15, x25, x6
    .word 0x060da283  # lw x5, 96(x27)
    .word 0x00f2f633  # and x12, x5, x15
    .word 0x0e0da283  # lw x5, 224(x27)
    .word 0x00f2f933  # and x18, x5, x15
    .word 0x120da283  # lw x5, 288(x27)
    .word 0x0c0da303  # lw x6, 192(x27)
    .word 0x006286b3  # add x13, x5, x6
    .word 0x00c68a33  # add x20, x13, x12
    .word 0x011a05b3  # add x11, x20, x17
    .word 0x0c0da303  # lw x6, 192(x27)
    .word 0x0066b2b3  # sltu x5, x13, x6
    .word 0x00ca3333  # sltu x6, x20, x12
    .word 0x006282b3  # add x5, x5, x6
    .word 0x0115b333  # sltu x6, x11, x17
    .word 0x006288b3  # add x17, x5, x6
    .word 0x41258633  # sub x12, x11, x18
    .word 0x413602b3  # sub x5, x12, x19
    .word 0x1c5da423  # sw x5, 456(x27)
    .word 0x0125b2b3  # sltu x5, x11, x18
    .word 0x01363333  # sltu x6, x12, x19
    .word 0x006289b3  # add x19, x5, x6
    .word 0xff9a8293  # addi x5, x21, -7
    .word 0xf80290e3  # bne x5, x0, -128
    .word 0x14012283  # lw x5, 320(x2)
    .word 0x011282b3  # add x5, x5, x17
    .word 0x413282b3  # sub x5, x5, x19
    .word 0x1e512423  # sw x5, 488(x2)
    .word 0x20800313  # addi x6, x0, 520
    .word 0x00230333  # add x6, x6, x2
    .word 0x04000393  # addi x7, x0, 64
    .word 0x006383b3  # add x7, x7, x6
    .word 0x406382b3  # sub x5, x7, x6
    .word 0x00029463  # bne x5, x0, 8
    .word 0x0100006f  # jal x0, 16
    .word 0x00032023  # sw x0, 0(x6)
    .word 0x00430313  # addi x6, x6, 4
    .word 0xfedff06f  # jal x0, -20
    .word 0x25612423  # sw x22, 584(x2)
    .word 0x25712623  # sw x23, 588(x2)
    .word 0x25812823  # sw x24, 592(x2)
    .word 0x27c12283  # lw x5, 636(x2)
    .word 0x24512a23  # sw x5, 596(x2)
    .word 0x25800313  # addi x6, x0, 600
    .word 0x00230333  # add x6, x6, x2
    .word 0x02400393  # addi x7, x0, 36
    .word 0x006383b3  # add x7, x7, x6
    .word 0x406382b3  # sub x5, x7, x6
    .word 0x00029463  # bne x5, x0, 8
    .word 0x0100006f  # jal x0, 16
    .word 0x00032023  # sw x0, 0(x6)
    .word 0x00430313  # addi x6, x6, 4
    .word 0xfedff06f  # jal x0, -20
    .word 0xfff00793  # addi x15, x0, -1
    .word 0x00178793  # addi x15, x15, 1
    .word 0x00279313  # slli x6, x15, 2
    .word 0x00230333  # add x6, x6, x2
    .word 0x1e432303  # lw x6, 484(x6)
    .word 0x01c35313  # srli x6, x6, 28
    .word 0x0087b393  # sltiu x7, x15, 8
    .word 0x00878413  # addi x8, x15, 8
    .word 0x00f47413  # andi x8, x8, 15
    .word 0x00241413  # slli x8, x8, 2
    .word 0x00240433  # add x8, x8, x2
    .word 0x1c842403  # lw x8, 456(x8)
    .word 0x00441413  # slli x8, x8, 4
    .word 0x407003b3  # sub x7, x0, x7
    .word 0x007473b3  # and x7, x8, x7
    .word 0x00736333  # or x6, x6, x7
    .word 0x00279293  # slli x5, x15, 2
    .word 0x002282b3  # add x5, x5, x2
    .word 0x2462ac23  # sw x6, 600(x5)
    .word 0x00078293  # addi x5, x15, 0
    .word 0xfa029ae3  # bne x5, x0, -76
    .word 0x00000593  # addi x11, x0, 0
    .word 0x00000613  # addi x12, x0, 0
    .word 0x00000693  # addi x13, x0, 0
    .word 0xfff00a93  # addi x21, x0, -1
    .word 0x001a8a93  # addi x21, x21, 1
    .word 0x002a9d93  # slli x27, x21, 2
    .word 0x002d8db3  # add x27, x27, x2
    .word 0xfff00793  # addi x15, x0, -1
    .word 0x00178793  # addi x15, x15, 1
    .word 0x40fa8833  # sub x16, x21, x15
    .word 0x00100313  # addi x6, x0, 1
    .word 0x02687e63  # bgeu x16, x6, 60
    .word 0x00281993  # slli x19, x16, 2
    .word 0x002989b3  # add x19, x19, x2
    .word 0x2589a983  # lw x19, 600(x19)
    .word 0x00279893  # slli x17, x15, 2
    .word 0x002888b3  # add x17, x17, x2
    .word 0x2488a883  # lw x17, 584(x17)
    .word 0x03198933  # mul x18, x19, x17
    .word 0x0319b9b3  # mulhu x19, x19, x17
    .word 0x012585b3  # add x11, x11, x18
    .word 0x0125b333  # sltu x6, x11, x18
    .word 0x006989b3  # add x19, x19, x6
    .word 0x01360633  # add x12, x12, x19
    .word 0x01363333  # sltu x6, x12, x19
    .word 0x006686b3  # add x13, x13, x6
    .word 0xffd78293  # addi x5, x15, -3
    .word 0xfa029ae3  # bne x5, x0, -76
    .word 0x20bda423  # sw x11, 520(x27)
    .word 0x00060593  # addi x11, x12, 0
    .word 0x00068613  # addi x12, x13, 0
    .word 0x00000693  # addi x13, x0, 0
    .word 0xffca8293  # addi x5, x21, -4
    .word 0xf80296e3  # bne x5, x0, -116
    .word 0x00000993  # addi x19, x0, 0
    .word 0xfff00a93  # addi x21, x0, -1
    .word 0x001a8a93  # addi x21, x21, 1
    .word 0x002a9d93  # slli x27, x21, 2
    .word 0x002d8db3  # add x27, x27, x2
    .word 0x1c8da283  # lw x5, 456(x27)
    .word 0x007ab313  # sltiu x6, x21, 7
    .word 0x000003b7  # lui x7, 0x00000
    .word 0xfff38393  # addi x7, x7, -1
    .word 0x40600333  # sub x6, x0, x6
    .word 0x0193c3b3  # xor x7, x7, x25
    .word 0x0063f3b3  # and x7, x7, x6
    .word 0x007cc333  # xor x6, x25, x7
    .word 0x0062f8b3  # and x17, x5, x6
    .word 0x208da303  # lw x6, 520(x27)
    .word 0x406885b3  # sub x11, x17, x6
    .word 0x413582b3  # sub x5, x11, x19
    .word 0x0a5da023  # sw x5, 160(x27)
    .word 0x208da303  # lw x6, 520(x27)
    .word 0x0068b2b3  # sltu x5, x17, x6
    .word 0x0135b333  # sltu x6, x11, x19
    .word 0x006289b3  # add x19, x5, x6
    .word 0xff9a8293  # addi x5, x21, -7
    .word 0xfa0296e3  # bne x5, x0, -84
    .word 0x41300633  # sub x12, x0, x19
    .word 0x00000893  # addi x17, x0, 0
    .word 0xfff00a93  # addi x21, x0, -1
    .word 0x001a8a93  # addi x21, x21, 1
    .word 0x002a9d93  # slli x27, x21, 2
    .word 0x002d8db3  # add x27, x27, x2
    .word 0x0c0da283  # lw x5, 192(x27)
    .word 0x00c2f9b3  # and x19, x5, x12
    .word 0x0a0da283  # lw x5, 160(x27)
    .word 0x013285b3  # add x11, x5, x19
    .word 0x011582b3  # add x5, x11, x17
    .word 0x0a5da023  # sw x5, 160(x27)
    .word 0x0135b2b3  # sltu x5, x11, x19
    .word 0x0a0da303  # lw x6, 160(x27)
    .word 0x01133333  # sltu x6, x6, x17
    .word 0x006288b3  # add x17, x5, x6
    .word 0xff9a8293  # addi x5, x21, -7
    .word 0xfc0294e3  # bne x5, x0, -56
    .word 0xfff00a93  # addi x21, x0, -1
    .word 0x001a8a93  # addi x21, x21, 1
    .word 0x002a9d93  # slli x27, x21, 2
    .word 0x002d8db3  # add x27, x27, x2
    .word 0xfff00793  # addi x15, x0, -1
    .word 0x00178793  # addi x15, x15, 1
    .word 0x002a9293  # slli x5, x21, 2
    .word 0x00f282b3  # add x5, x5, x15
    .word 0x0a0da303  # lw x6, 160(x27)
    .word 0x00379393  # slli x7, x15, 3
    .word 0x00735333  # srl x6, x6, x7
    .word 0x002282b3  # add x5, x5, x2
    .word 0x04628023  # sb x6, 64(x5)
    .word 0xffd78293  # addi x5, x15, -3
    .word 0xfc029ee3  # bne x5, x0, -36
    .word 0xff9a8293  # addi x5, x21, -7
    .word 0xfc0292e3  # bne x5, x0, -60
    # the result
    .word 0x00000513  # addi x10, x0, 0
    # parameter 1: the array, back
    .word 0x04010293  # addi x5, x2, 64
    .word 0x2dc12303  # lw x6, 732(x2)
    .word 0x02028393  # addi x7, x5, 32
    .word 0x0002ce03  # lbu x28, 0(x5)
    .word 0x01c30023  # sb x28, 0(x6)
    .word 0x00128293  # addi x5, x5, 1
    .word 0x00130313  # addi x6, x6, 1
    .word 0xfe7298e3  # bne x5, x7, -16
    # above the frame
    .word 0x2a010293  # addi x5, x2, 672
    # the caller's registers
    .word 0x0002a403  # lw x8, 0(x5)
    .cfi_restore 8
    .word 0x0042a903  # lw x18, 4(x5)
    .cfi_restore 18
    .word 0x0082a983  # lw x19, 8(x5)
    .cfi_restore 19
    .word 0x00c2aa03  # lw x20, 12(x5)
    .cfi_restore 20
    .word 0x0102aa83  # lw x21, 16(x5)
    .cfi_restore 21
    .word 0x0142ab03  # lw x22, 20(x5)
    .cfi_restore 22
    .word 0x0182ab83  # lw x23, 24(x5)
    .cfi_restore 23
    .word 0x01c2ac03  # lw x24, 28(x5)
    .cfi_restore 24
    .word 0x0202ac83  # lw x25, 32(x5)
    .cfi_restore 25
    .word 0x0242ad03  # lw x26, 36(x5)
    .cfi_restore 26
    .word 0x0282ad83  # lw x27, 40(x5)
    .cfi_restore 27
    # the caller's x2
    .word 0x04028293  # addi x5, x5, 64
    .cfi_def_cfa 5, 0
    # on to the tail that functions share
    jal x0, factc.tail.1
    .cfi_endproc
    .size ed25519_reduce, . - ed25519_reduce
    .section .text.factc.tail.1, "axG", @progbits, factc.tail.1, comdat
    .p2align 2
    .globl factc.tail.1
    .hidden factc.tail.1
    .type factc.tail.1, @function
factc.tail.1:
    .cfi_startproc
    .cfi_def_cfa 5, 0
    # all the room, wiped upward
    .word 0x00012023  # sw x0, 0(x2)
    .word 0x00012223  # sw x0, 4(x2)
    .word 0x00012423  # sw x0, 8(x2)
    .word 0x00012623  # sw x0, 12(x2)
    .word 0x01010113  # addi x2, x2, 16
    .word 0xfe5116e3  # bne x2, x5, -20
    .cfi_def_cfa 2, 0
    # temporaries, wiped
    .word 0x00000293  # addi x5, x0, 0
    .word 0x00000313  # addi x6, x0, 0
    .word 0x00000393  # addi x7, x0, 0
    .word 0x00000593  # addi x11, x0, 0
    .word 0x00000613  # addi x12, x0, 0
    .word 0x00000693  # addi x13, x0, 0
    .word 0x00000713  # addi x14, x0, 0
    .word 0x00000793  # addi x15, x0, 0
    .word 0x00000813  # addi x16, x0, 0
    .word 0x00000893  # addi x17, x0, 0
    .word 0x00000e13  # addi x28, x0, 0
    .word 0x00000e93  # addi x29, x0, 0
    .word 0x00000f13  # addi x30, x0, 0
    .word 0x00000f93  # addi x31, x0, 0
    # back
    .word 0x00008067  # jalr x0, 0(x1)
    .cfi_endproc
    .size factc.tail.1, . - factc.tail.1
    .option pop
