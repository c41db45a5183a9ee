# poly1305_blocks: made by factc 1.0.0 function; 668 words, 448 bytes of stack, profile 1
    .option push
    .option norvc
    .option norelax
    .cfi_sections .debug_frame
    .section .text.poly1305_blocks, "ax", @progbits
    .p2align 2
    .globl poly1305_blocks
    .type poly1305_blocks, @function
poly1305_blocks:
    .cfi_startproc
    # room above the frame
    .word 0xfc010113  # addi x2, x2, -64
    .cfi_def_cfa_offset 64
    # the caller's registers
    .word 0x00812023  # sw x8, 0(x2)
    .cfi_offset 8, -64
    .word 0x00912223  # sw x9, 4(x2)
    .cfi_offset 9, -60
    .word 0x01212423  # sw x18, 8(x2)
    .cfi_offset 18, -56
    .word 0x01312623  # sw x19, 12(x2)
    .cfi_offset 19, -52
    .word 0x01412823  # sw x20, 16(x2)
    .cfi_offset 20, -48
    .word 0x01512a23  # sw x21, 20(x2)
    .cfi_offset 21, -44
    .word 0x01612c23  # sw x22, 24(x2)
    .cfi_offset 22, -40
    .word 0x01712e23  # sw x23, 28(x2)
    .cfi_offset 23, -36
    .word 0x03812023  # sw x24, 32(x2)
    .cfi_offset 24, -32
    .word 0x03912223  # sw x25, 36(x2)
    .cfi_offset 25, -28
    .word 0x03a12423  # sw x26, 40(x2)
    .cfi_offset 26, -24
    .word 0x03b12623  # sw x27, 44(x2)
    .cfi_offset 27, -20
    # arguments that are needed behind the body
    .word 0x02a12823  # sw x10, 48(x2)
    .word 0x02b12a23  # sw x11, 52(x2)
    .word 0x02c12c23  # sw x12, 56(x2)
    .word 0x02d12e23  # sw x13, 60(x2)
    # the frame's base
    .word 0xe8010113  # addi x2, x2, -384
    .cfi_def_cfa 2, 448
    # parameter 0: an array
    .word 0x00050293  # addi x5, x10, 0
    .word 0x00010313  # addi x6, x2, 0
    .word 0x02028393  # addi x7, x5, 32
    .word 0x1c900f6f  # jal x30, 2504
    # parameter 1: an array
    .word 0x00058293  # addi x5, x11, 0
    .word 0x02010313  # addi x6, x2, 32
    .word 0x10028393  # addi x7, x5, 256
    .word 0x1b900f6f  # jal x30, 2488
    # parameter 2: a word
    .word 0x12c12023  # sw x12, 288(x2)
    # parameter 3: an array
    .word 0x00068293  # addi x5, x13, 0
    .word 0x12410313  # addi x6, x2, 292
    .word 0x02028393  # addi x7, x5, 32
    .word 0x1a500f6f  # jal x30, 2468
    .word 0x0002ae03  # lw x28, 0(x5)
    .word 0x01c32023  # sw x28, 0(x6)
    .word 0x0042ae03  # lw x28, 4(x5)
    .word 0x01c32223  # sw x28, 4(x6)
    # the body
    .word 0x040002b7  # lui x5, 0x04000
    .word 0xfff28293  # addi x5, x5, -1
    .word 0x16512423  # sw x5, 360(x2)
    .word 0x000022b7  # lui x5, 0x00002
    .word 0xfff28293  # addi x5, x5, -1
    .word 0x16512623  # sw x5, 364(x2)
    .word 0x00014603  # lbu x12, 0(x2)
    .word 0x00114683  # lbu x13, 1(x2)
    .word 0x00214703  # lbu x14, 2(x2)
    .word 0x00314783  # lbu x15, 3(x2)
    .word 0x00869313  # slli x6, x13, 8
    .word 0x006662b3  # or x5, x12, x6
    .word 0x01071313  # slli x6, x14, 16
    .word 0x0062e2b3  # or x5, x5, x6
    .word 0x01879313  # slli x6, x15, 24
    .word 0x0062edb3  # or x27, x5, x6
    .word 0x004d9913  # slli x18, x27, 4
    .word 0x00495913  # srli x18, x18, 4
    .word 0x00414603  # lbu x12, 4(x2)
    .word 0x00514683  # lbu x13, 5(x2)
    .word 0x00614703  # lbu x14, 6(x2)
    .word 0x00714783  # lbu x15, 7(x2)
    .word 0x00869313  # slli x6, x13, 8
    .word 0x006662b3  # or x5, x12, x6
    .word 0x01071313  # slli x6, x14, 16
    .word 0x0062e2b3  # or x5, x5, x6
    .word 0x01879313  # slli x6, x15, 24
    .word 0x0062edb3  # or x27, x5, x6
    .word 0x10000337  # lui x6, 0x10000
    .word 0xffc30313  # addi x6, x6, -4
    .word 0x006df2b3  # and x5, x27, x6
    .word 0x14512e23  # sw x5, 348(x2)
    .word 0x15c12283  # lw x5, 348(x2)
    .word 0x15c12303  # lw x6, 348(x2)
    .word 0x00235313  # srli x6, x6, 2
    .word 0x006282b3  # add x5, x5, x6
    .word 0x14512823  # sw x5, 336(x2)
    .word 0x00814603  # lbu x12, 8(x2)
    .word 0x00914683  # lbu x13, 9(x2)
    .word 0x00a14703  # lbu x14, 10(x2)
    .word 0x00b14783  # lbu x15, 11(x2)
    .word 0x00869313  # slli x6, x13, 8
    .word 0x006662b3  # or x5, x12, x6
    .word 0x01071313  # slli x6, x14, 16
    .word 0x0062e2b3  # or x5, x5, x6
    .word 0x01879313  # slli x6, x15, 24
    .word 0x0062edb3  # or x27, x5, x6
    .word 0x10000337  # lui x6, 0x10000
    .word 0xffc30313  # addi x6, x6, -4
    .word 0x006df2b3  # and x5, x27, x6
    .word 0x16512023  # sw x5, 352(x2)
    .word 0x16012283  # lw x5, 352(x2)
    .word 0x16012303  # lw x6, 352(x2)
    .word 0x00235313  # srli x6, x6, 2
    .word 0x006282b3  # add x5, x5, x6
    .word 0x14512a23  # sw x5, 340(x2)
    .word 0x00c14603  # lbu x12, 12(x2)
    .word 0x00d14683  # lbu x13, 13(x2)
    .word 0x00e14703  # lbu x14, 14(x2)
    .word 0x00f14783  # lbu x15, 15(x2)
    .word 0x00869313  # slli x6, x13, 8
    .word 0x006662b3  # or x5, x12, x6
    .word 0x01071313  # slli x6, x14, 16
    .word 0x0062e2b3  # or x5, x5, x6
    .word 0x01879313  # slli x6, x15, 24
    .word 0x0062edb3  # or x27, x5, x6
    .word 0x10000337  # lui x6, 0x10000
    .word 0xffc30313  # addi x6, x6, -4
    .word 0x006df2b3  # and x5, x27, x6
    .word 0x16512223  # sw x5, 356(x2)
    .word 0x16412283  # lw x5, 356(x2)
    .word 0x16412303  # lw x6, 356(x2)
    .word 0x00235313  # srli x6, x6, 2
    .word 0x006282b3  # add x5, x5, x6
    .word 0x14512c23  # sw x5, 344(x2)
    .word 0x12412283  # lw x5, 292(x2)
    .word 0x12812303  # lw x6, 296(x2)
    .word 0x00d31313  # slli x6, x6, 13
    .word 0x00628db3  # add x27, x5, x6
    .word 0x16812303  # lw x6, 360(x2)
    .word 0x006df433  # and x8, x27, x6
    .word 0x01addd93  # srli x27, x27, 26
    .word 0x00040993  # addi x19, x8, 0
    .word 0x12c12283  # lw x5, 300(x2)
    .word 0x13012303  # lw x6, 304(x2)
    .word 0x00d31313  # slli x6, x6, 13
    .word 0x006282b3  # add x5, x5, x6
    .word 0x01b28db3  # add x27, x5, x27
    .word 0x16812303  # lw x6, 360(x2)
    .word 0x006df433  # and x8, x27, x6
    .word 0x01addd93  # srli x27, x27, 26
    .word 0x01a41313  # slli x6, x8, 26
    .word 0x0069e9b3  # or x19, x19, x6
    .word 0x00645a13  # srli x20, x8, 6
    .word 0x13412283  # lw x5, 308(x2)
    .word 0x13812303  # lw x6, 312(x2)
    .word 0x00d31313  # slli x6, x6, 13
    .word 0x006282b3  # add x5, x5, x6
    .word 0x01b28db3  # add x27, x5, x27
    .word 0x16812303  # lw x6, 360(x2)
    .word 0x006df433  # and x8, x27, x6
    .word 0x01addd93  # srli x27, x27, 26
    .word 0x01441313  # slli x6, x8, 20
    .word 0x006a6a33  # or x20, x20, x6
    .word 0x00c45a93  # srli x21, x8, 12
    .word 0x13c12283  # lw x5, 316(x2)
    .word 0x14012303  # lw x6, 320(x2)
    .word 0x00d31313  # slli x6, x6, 13
    .word 0x006282b3  # add x5, x5, x6
    .word 0x01b28db3  # add x27, x5, x27
    .word 0x16812303  # lw x6, 360(x2)
    .word 0x006df433  # and x8, x27, x6
    .word 0x01addd93  # srli x27, x27, 26
    .word 0x00e41313  # slli x6, x8, 14
    .word 0x006aeab3  # or x21, x21, x6
    .word 0x01245b13  # srli x22, x8, 18
    .word 0x14412283  # lw x5, 324(x2)
    .word 0x14812303  # lw x6, 328(x2)
    .word 0x00d31313  # slli x6, x6, 13
    .word 0x006282b3  # add x5, x5, x6
    .word 0x01b28db3  # add x27, x5, x27
    .word 0x008d9313  # slli x6, x27, 8
    .word 0x006b6b33  # or x22, x22, x6
    .word 0x018ddb93  # srli x23, x27, 24
    .word 0x12012283  # lw x5, 288(x2)
    .word 0x1002b293  # sltiu x5, x5, 256
    .word 0x12012303  # lw x6, 288(x2)
    .word 0x10000393  # addi x7, x0, 256
    .word 0x405002b3  # sub x5, x0, x5
    .word 0x00734333  # xor x6, x6, x7
    .word 0x00537333  # and x6, x6, x5
    .word 0x0063c2b3  # xor x5, x7, x6
    .word 0x10100313  # addi x6, x0, 257
    .word 0x0262f533  # remu x10, x5, x6
    .word 0x16012a23  # sw x0, 372(x2)
    .word 0x00f50293  # addi x5, x10, 15
    .word 0x0042d293  # srli x5, x5, 4
    .word 0x16512c23  # sw x5, 376(x2)
    .word 0x17412303  # lw x6, 372(x2)
    .word 0x17812283  # lw x5, 376(x2)
    .word 0x005332b3  # sltu x5, x6, x5
    .word 0x00029463  # bne x5, x0, 8
    .word 0x5ec0006f  # jal x0, 1516
    .word 0x14612623  # sw x6, 332(x2)
    .word 0x00130313  # addi x6, x6, 1
    .word 0x16612a23  # sw x6, 372(x2)
    .word 0x14c12283  # lw x5, 332(x2)
    .word 0x00429593  # slli x11, x5, 4
    .word 0x002584b3  # add x9, x11, x2
    .word 0x00000893  # addi x17, x0, 0
    .word 0x00000c13  # addi x24, x0, 0
    .word 0x00000c93  # addi x25, x0, 0
    .word 0x00000d13  # addi x26, x0, 0
    .word 0x01058293  # addi x5, x11, 16
    .word 0x0a556463  # bltu x10, x5, 168
    .word 0x0204c603  # lbu x12, 32(x9)
    .word 0x0214c683  # lbu x13, 33(x9)
    .word 0x0224c703  # lbu x14, 34(x9)
    .word 0x0234c783  # lbu x15, 35(x9)
    .word 0x00869313  # slli x6, x13, 8
    .word 0x006662b3  # or x5, x12, x6
    .word 0x01071313  # slli x6, x14, 16
    .word 0x0062e2b3  # or x5, x5, x6
    .word 0x01879313  # slli x6, x15, 24
    .word 0x0062e8b3  # or x17, x5, x6
    .word 0x0244c603  # lbu x12, 36(x9)
    .word 0x0254c683  # lbu x13, 37(x9)
    .word 0x0264c703  # lbu x14, 38(x9)
    .word 0x0274c783  # lbu x15, 39(x9)
    .word 0x00869313  # slli x6, x13, 8
    .word 0x006662b3  # or x5, x12, x6
    .word 0x01071313  # slli x6, x14, 16
    .word 0x0062e2b3  # or x5, x5, x6
    .word 0x01879313  # slli x6, x15, 24
    .word 0x0062ec33  # or x24, x5, x6
    .word 0x0284c603  # lbu x12, 40(x9)
    .word 0x0294c683  # lbu x13, 41(x9)
    .word 0x02a4c703  # lbu x14, 42(x9)
    .word 0x02b4c783  # lbu x15, 43(x9)
    .word 0x00869313  # slli x6, x13, 8
    .word 0x006662b3  # or x5, x12, x6
    .word 0x01071313  # slli x6, x14, 16
    .word 0x0062e2b3  # or x5, x5, x6
    .word 0x01879313  # slli x6, x15, 24
    .word 0x0062ecb3  # or x25, x5, x6
    .word 0x02c4c603  # lbu x12, 44(x9)
    .word 0x02d4c683  # lbu x13, 45(x9)
    .word 0x02e4c703  # lbu x14, 46(x9)
    .word 0x02f4c783  # lbu x15, 47(x9)
    .word 0x00869313  # slli x6, x13, 8
    .word 0x006662b3  # or x5, x12, x6
    .word 0x01071313  # slli x6, x14, 16
    .word 0x0062e2b3  # or x5, x5, x6
    .word 0x01879313  # slli x6, x15, 24
    .word 0x0062ed33  # or x26, x5, x6
    .word 0x1ec0006f  # jal x0, 492
    .word 0x40a58db3  # sub x27, x11, x10
    .word 0x001dbd93  # sltiu x27, x27, 1
    .word 0x00a5f463  # bgeu x11, x10, 8
    .word 0x0204cd83  # lbu x27, 32(x9)
    .word 0x01b8e8b3  # or x17, x17, x27
    .word 0x00158813  # addi x16, x11, 1
    .word 0x40a80db3  # sub x27, x16, x10
    .word 0x001dbd93  # sltiu x27, x27, 1
    .word 0x00a87663  # bgeu x16, x10, 12
    .word 0x00280db3  # add x27, x16, x2
    .word 0x020dcd83  # lbu x27, 32(x27)
    .word 0x008d9313  # slli x6, x27, 8
    .word 0x0068e8b3  # or x17, x17, x6
    .word 0x00258813  # addi x16, x11, 2
    .word 0x40a80db3  # sub x27, x16, x10
    .word 0x001dbd93  # sltiu x27, x27, 1
    .word 0x00a87663  # bgeu x16, x10, 12
    .word 0x00280db3  # add x27, x16, x2
    .word 0x020dcd83  # lbu x27, 32(x27)
    .word 0x010d9313  # slli x6, x27, 16
    .word 0x0068e8b3  # or x17, x17, x6
    .word 0x00358813  # addi x16, x11, 3
    .word 0x40a80db3  # sub x27, x16, x10
    .word 0x001dbd93  # sltiu x27, x27, 1
    .word 0x00a87663  # bgeu x16, x10, 12
    .word 0x00280db3  # add x27, x16, x2
    .word 0x020dcd83  # lbu x27, 32(x27)
    .word 0x018d9313  # slli x6, x27, 24
    .word 0x0068e8b3  # or x17, x17, x6
    .word 0x00458813  # addi x16, x11, 4
    .word 0x40a80db3  # sub x27, x16, x10
    .word 0x001dbd93  # sltiu x27, x27, 1
    .word 0x00a87663  # bgeu x16, x10, 12
    .word 0x00280db3  # add x27, x16, x2
    .word 0x020dcd83  # lbu x27, 32(x27)
    .word 0x01bc6c33  # or x24, x24, x27
    .word 0x00558813  # addi x16, x11, 5
    .word 0x40a80db3  # sub x27, x16, x10
    .word 0x001dbd93  # sltiu x27, x27, 1
    .word 0x00a87663  # bgeu x16, x10, 12
    .word 0x00280db3  # add x27, x16, x2
    .word 0x020dcd83  # lbu x27, 32(x27)
    .word 0x008d9313  # slli x6, x27, 8
    .word 0x006c6c33  # or x24, x24, x6
    .word 0x00658813  # addi x16, x11, 6
    .word 0x40a80db3  # sub x27, x16, x10
    .word 0x001dbd93  # sltiu x27, x27, 1
    .word 0x00a87663  # bgeu x16, x10, 12
    .word 0x00280db3  # add x27, x16, x2
    .word 0x020dcd83  # lbu x27, 32(x27)
    .word 0x010d9313  # slli x6, x27, 16
    .word 0x006c6c33  # or x24, x24, x6
    .word 0x00758813  # addi x16, x11, 7
    .word 0x40a80db3  # sub x27, x16, x10
    .word 0x001dbd93  # sltiu x27, x27, 1
    .word 0x00a87663  # bgeu x16, x10, 12
    .word 0x00280db3  # add x27, x16, x2
    .word 0x020dcd83  # lbu x27, 32(x27)
    .word 0x018d9313  # slli x6, x27, 24
    .word 0x006c6c33  # or x24, x24, x6
    .word 0x00858813  # addi x16, x11, 8
    .word 0x40a80db3  # sub x27, x16, x10
    .word 0x001dbd93  # sltiu x27, x27, 1
    .word 0x00a87663  # bgeu x16, x10, 12
    .word 0x00280db3  # add x27, x16, x2
    .word 0x020dcd83  # lbu x27, 32(x27)
    .word 0x01bcecb3  # or x25, x25, x27
    .word 0x00958813  # addi x16, x11, 9
    .word 0x40a80db3  # sub x27, x16, x10
    .word 0x001dbd93  # sltiu x27, x27, 1
    .word 0x00a87663  # bgeu x16, x10, 12
    .word 0x00280db3  # add x27, x16, x2
    .word 0x020dcd83  # lbu x27, 32(x27)
    .word 0x008d9313  # slli x6, x27, 8
    .word 0x006cecb3  # or x25, x25, x6
    .word 0x00a58813  # addi x16, x11, 10
    .word 0x40a80db3  # sub x27, x16, x10
    .word 0x001dbd93  # sltiu x27, x27, 1
    .word 0x00a87663  # bgeu x16, x10, 12
    .word 0x00280db3  # add x27, x16, x2
    .word 0x020dcd83  # lbu x27, 32(x27)
    .word 0x010d9313  # slli x6, x27, 16
    .word 0x006cecb3  # or x25, x25, x6
    .word 0x00b58813  # addi x16, x11, 11
    .word 0x40a80db3  # sub x27, x16, x10
    .word 0x001dbd93  # sltiu x27, x27, 1
    .word 0x00a87663  # bgeu x16, x10, 12
    .word 0x00280db3  # add x27, x16, x2
    .word 0x020dcd83  # lbu x27, 32(x27)
    .word 0x018d9313  # slli x6, x27, 24
    .word 0x006cecb3  # or x25, x25, x6
    .word 0x00c58813  # addi x16, x11, 12
    .word 0x40a80db3  # sub x27, x16, x10
    .word 0x001dbd93  # sltiu x27, x27, 1
    .word 0x00a87663  # bgeu x16, x10, 12
    .word 0x00280db3  # add x27, x16, x2
    .word 0x020dcd83  # lbu x27, 32(x27)
    .word 0x01bd6d33  # or x26, x26, x27
    .word 0x00d58813  # addi x16, x11, 13
    .word 0x40a80db3  # sub x27, x16, x10
    .word 0x001dbd93  # sltiu x27, x27, 1
    .word 0x00a87663  # bgeu x16, x10, 12
    .word 0x00280db3  # add x27, x16, x2
    .word 0x020dcd83  # lbu x27, 32(x27)
    .word 0x008d9313  # slli x6, x27, 8
    .word 0x006d6d33  # or x26, x26, x6
    .word 0x00e58813  # addi x16, x11, 14
    .word 0x40a80db3  # sub x27, x16, x10
    .word 0x001dbd93  # sltiu x27, x27, 1
    .word 0x00a87663  # bgeu x16, x10, 12
    .word 0x00280db3  # add x27, x16, x2
    .word 0x020dcd83  # lbu x27, 32(x27)
    .word 0x010d9313  # slli x6, x27, 16
    .word 0x006d6d33  # or x26, x26, x6
    .word 0x00f58813  # addi x16, x11, 15
    .word 0x40a80db3  # sub x27, x16, x10
    .word 0x001dbd93  # sltiu x27, x27, 1
    .word 0x00a87663  # bgeu x16, x10, 12
    .word 0x00280db3  # add x27, x16, x2
    .word 0x020dcd83  # lbu x27, 32(x27)
    .word 0x018d9313  # slli x6, x27, 24
    .word 0x006d6d33  # or x26, x26, x6
    .word 0x01058293  # addi x5, x11, 16
    .word 0x00553833  # sltu x16, x10, x5
    .word 0x00183813  # sltiu x16, x16, 1
    .word 0x0139b433  # sltu x8, x19, x19
    .word 0x01198db3  # add x27, x19, x17
    .word 0x011db333  # sltu x6, x27, x17
    .word 0x00640433  # add x8, x8, x6
    .word 0x000d8993  # addi x19, x27, 0
    .word 0x00040d93  # addi x27, x8, 0
    .word 0x014d8db3  # add x27, x27, x20
    .word 0x014db433  # sltu x8, x27, x20
    .word 0x018d8db3  # add x27, x27, x24
    .word 0x018db333  # sltu x6, x27, x24
    .word 0x00640433  # add x8, x8, x6
    .word 0x000d8a13  # addi x20, x27, 0
    .word 0x00040d93  # addi x27, x8, 0
    .word 0x015d8db3  # add x27, x27, x21
    .word 0x015db433  # sltu x8, x27, x21
    .word 0x019d8db3  # add x27, x27, x25
    .word 0x019db333  # sltu x6, x27, x25
    .word 0x00640433  # add x8, x8, x6
    .word 0x000d8a93  # addi x21, x27, 0
    .word 0x00040d93  # addi x27, x8, 0
    .word 0x016d8db3  # add x27, x27, x22
    .word 0x016db433  # sltu x8, x27, x22
    .word 0x01ad8db3  # add x27, x27, x26
    .word 0x01adb333  # sltu x6, x27, x26
    .word 0x00640433  # add x8, x8, x6
    .word 0x000d8b13  # addi x22, x27, 0
    .word 0x00040d93  # addi x27, x8, 0
    .word 0x01bb82b3  # add x5, x23, x27
    .word 0x01028bb3  # add x23, x5, x16
    .word 0x00098c13  # addi x24, x19, 0
    .word 0x000a0c93  # addi x25, x20, 0
    .word 0x000a8d13  # addi x26, x21, 0
    .word 0x032988b3  # mul x17, x19, x18
    .word 0x00088d93  # addi x27, x17, 0
    .word 0x0118b433  # sltu x8, x17, x17
    .word 0x0329b8b3  # mulhu x17, x19, x18
    .word 0x01140433  # add x8, x8, x17
    .word 0x15812303  # lw x6, 344(x2)
    .word 0x026a08b3  # mul x17, x20, x6
    .word 0x011d8db3  # add x27, x27, x17
    .word 0x011db333  # sltu x6, x27, x17
    .word 0x00640433  # add x8, x8, x6
    .word 0x15812303  # lw x6, 344(x2)
    .word 0x026a38b3  # mulhu x17, x20, x6
    .word 0x01140433  # add x8, x8, x17
    .word 0x15412303  # lw x6, 340(x2)
    .word 0x026a88b3  # mul x17, x21, x6
    .word 0x011d8db3  # add x27, x27, x17
    .word 0x011db333  # sltu x6, x27, x17
    .word 0x00640433  # add x8, x8, x6
    .word 0x15412303  # lw x6, 340(x2)
    .word 0x026ab8b3  # mulhu x17, x21, x6
    .word 0x01140433  # add x8, x8, x17
    .word 0x15012303  # lw x6, 336(x2)
    .word 0x026b08b3  # mul x17, x22, x6
    .word 0x011d8db3  # add x27, x27, x17
    .word 0x011db333  # sltu x6, x27, x17
    .word 0x00640433  # add x8, x8, x6
    .word 0x15012303  # lw x6, 336(x2)
    .word 0x026b38b3  # mulhu x17, x22, x6
    .word 0x01140433  # add x8, x8, x17
    .word 0x00000313  # addi x6, x0, 0
    .word 0x026b88b3  # mul x17, x23, x6
    .word 0x011d8db3  # add x27, x27, x17
    .word 0x011db333  # sltu x6, x27, x17
    .word 0x00640433  # add x8, x8, x6
    .word 0x000d8993  # addi x19, x27, 0
    .word 0x00040d93  # addi x27, x8, 0
    .word 0x15c12303  # lw x6, 348(x2)
    .word 0x026c08b3  # mul x17, x24, x6
    .word 0x011d8db3  # add x27, x27, x17
    .word 0x011db433  # sltu x8, x27, x17
    .word 0x15c12303  # lw x6, 348(x2)
    .word 0x026c38b3  # mulhu x17, x24, x6
    .word 0x01140433  # add x8, x8, x17
    .word 0x032a08b3  # mul x17, x20, x18
    .word 0x011d8db3  # add x27, x27, x17
    .word 0x011db333  # sltu x6, x27, x17
    .word 0x00640433  # add x8, x8, x6
    .word 0x032a38b3  # mulhu x17, x20, x18
    .word 0x01140433  # add x8, x8, x17
    .word 0x15812303  # lw x6, 344(x2)
    .word 0x026a88b3  # mul x17, x21, x6
    .word 0x011d8db3  # add x27, x27, x17
    .word 0x011db333  # sltu x6, x27, x17
    .word 0x00640433  # add x8, x8, x6
    .word 0x15812303  # lw x6, 344(x2)
    .word 0x026ab8b3  # mulhu x17, x21, x6
    .word 0x01140433  # add x8, x8, x17
    .word 0x15412303  # lw x6, 340(x2)
    .word 0x026b08b3  # mul x17, x22, x6
    .word 0x011d8db3  # add x27, x27, x17
    .word 0x011db333  # sltu x6, x27, x17
    .word 0x00640433  # add x8, x8, x6
    .word 0x15412303  # lw x6, 340(x2)
    .word 0x026b38b3  # mulhu x17, x22, x6
    .word 0x01140433  # add x8, x8, x17
    .word 0x15012303  # lw x6, 336(x2)
    .word 0x026b88b3  # mul x17, x23, x6
    .word 0x011d8db3  # add x27, x27, x17
    .word 0x011db333  # sltu x6, x27, x17
    .word 0x00640433  # add x8, x8, x6
    .word 0x000d8a13  # addi x20, x27, 0
    .word 0x00040d93  # addi x27, x8, 0
    .word 0x16012303  # lw x6, 352(x2)
    .word 0x026c08b3  # mul x17, x24, x6
    .word 0x011d8db3  # add x27, x27, x17
    .word 0x011db433  # sltu x8, x27, x17
    .word 0x16012303  # lw x6, 352(x2)
    .word 0x026c38b3  # mulhu x17, x24, x6
    .word 0x01140433  # add x8, x8, x17
    .word 0x15c12303  # lw x6, 348(x2)
    .word 0x026c88b3  # mul x17, x25, x6
    .word 0x011d8db3  # add x27, x27, x17
    .word 0x011db333  # sltu x6, x27, x17
    .word 0x00640433  # add x8, x8, x6
    .word 0x15c12303  # lw x6, 348(x2)
    .word 0x026cb8b3  # mulhu x17, x25, x6
    .word 0x01140433  # add x8, x8, x17
    .word 0x032a88b3  # mul x17, x21, x18
    .word 0x011d8db3  # add x27, x27, x17
    .word 0x011db333  # sltu x6, x27, x17
    .word 0x00640433  # add x8, x8, x6
    .word 0x032ab8b3  # mulhu x17, x21, x18
    .word 0x01140433  # add x8, x8, x17
    .word 0x15812303  # lw x6, 344(x2)
    .word 0x026b08b3  # mul x17, x22, x6
    .word 0x011d8db3  # add x27, x27, x17
    .word 0x011db333  # sltu x6, x27, x17
    .word 0x00640433  # add x8, x8, x6
    .word 0x15812303  # lw x6, 344(x2)
    .word 0x026b38b3  # mulhu x17, x22, x6
    .word 0x01140433  # add x8, x8, x17
    .word 0x15412303  # lw x6, 340(x2)
    .word 0x026b88b3  # mul x17, x23, x6
    .word 0x011d8db3  # add x27, x27, x17
    .word 0x011db333  # sltu x6, x27, x17
    .word 0x00640433  # add x8, x8, x6
    .word 0x000d8a93  # addi x21, x27, 0
    .word 0x00040d93  # addi x27, x8, 0
    .word 0x16412303  # lw x6, 356(x2)
    .word 0x026c08b3  # mul x17, x24, x6
    .word 0x011d8db3  # add x27, x27, x17
    .word 0x011db433  # sltu x8, x27, x17
    .word 0x16412303  # lw x6, 356(x2)
    .word 0x026c38b3  # mulhu x17, x24, x6
    .word 0x01140433  # add x8, x8, x17
    .word 0x16012303  # lw x6, 352(x2)
    .word 0x026c88b3  # mul x17, x25, x6
    .word 0x011d8db3  # add x27, x27, x17
    .word 0x011db333  # sltu x6, x27, x17
    .word 0x00640433  # add x8, x8, x6
    .word 0x16012303  # lw x6, 352(x2)
    .word 0x026cb8b3  # mulhu x17, x25, x6
    .word 0x01140433  # add x8, x8, x17
    .word 0x15c12303  # lw x6, 348(x2)
    .word 0x026d08b3  # mul x17, x26, x6
    .word 0x011d8db3  # add x27, x27, x17
    .word 0x011db333  # sltu x6, x27, x17
    .word 0x00640433  # add x8, x8, x6
    .word 0x15c12303  # lw x6, 348(x2)
    .word 0x026d38b3  # mulhu x17, x26, x6
    .word 0x01140433  # add x8, x8, x17
    .word 0x032b08b3  # mul x17, x22, x18
    .word 0x011d8db3  # add x27, x27, x17
    .word 0x011db333  # sltu x6, x27, x17
    .word 0x00640433  # add x8, x8, x6
    .word 0x032b38b3  # mulhu x17, x22, x18
    .word 0x01140433  # add x8, x8, x17
    .word 0x15812303  # lw x6, 344(x2)
    .word 0x026b88b3  # mul x17, x23, x6
    .word 0x011d8db3  # add x27, x27, x17
    .word 0x011db333  # sltu x6, x27, x17
    .word 0x00640433  # add x8, x8, x6
    .word 0x000d8b13  # addi x22, x27, 0
    .word 0x00040d93  # addi x27, x8, 0
    .word 0x032b8333  # mul x6, x23, x18
    .word 0x006d88b3  # add x17, x27, x6
    .word 0xffc8f293  # andi x5, x17, -4
    .word 0x0028d313  # srli x6, x17, 2
    .word 0x00628db3  # add x27, x5, x6
    .word 0x013d8db3  # add x27, x27, x19
    .word 0x013db433  # sltu x8, x27, x19
    .word 0x000d8993  # addi x19, x27, 0
    .word 0x00040d93  # addi x27, x8, 0
    .word 0x014d8db3  # add x27, x27, x20
    .word 0x014db433  # sltu x8, x27, x20
    .word 0x000d8a13  # addi x20, x27, 0
    .word 0x00040d93  # addi x27, x8, 0
    .word 0x015d8db3  # add x27, x27, x21
    .word 0x015db433  # sltu x8, x27, x21
    .word 0x000d8a93  # addi x21, x27, 0
    .word 0x00040d93  # addi x27, x8, 0
    .word 0x016d8db3  # add x27, x27, x22
    .word 0x016db433  # sltu x8, x27, x22
    .word 0x000d8b13  # addi x22, x27, 0
    .word 0x00040d93  # addi x27, x8, 0
    .word 0x0038f293  # andi x5, x17, 3
    .word 0x01b28bb3  # add x23, x5, x27
    .word 0xa09ff06f  # jal x0, -1528
    .word 0x16c12303  # lw x6, 364(x2)
    .word 0x0069f2b3  # and x5, x19, x6
    .word 0x12512223  # sw x5, 292(x2)
    .word 0x00d9dd93  # srli x27, x19, 13
    .word 0x16c12303  # lw x6, 364(x2)
    .word 0x006df2b3  # and x5, x27, x6
    .word 0x12512423  # sw x5, 296(x2)
    .word 0x01a9dd93  # srli x27, x19, 26
    .word 0x006a1313  # slli x6, x20, 6
    .word 0x006dedb3  # or x27, x27, x6
    .word 0x16c12303  # lw x6, 364(x2)
    .word 0x006df2b3  # and x5, x27, x6
    .word 0x12512623  # sw x5, 300(x2)
    .word 0x007a5d93  # srli x27, x20, 7
    .word 0x16c12303  # lw x6, 364(x2)
    .word 0x006df2b3  # and x5, x27, x6
    .word 0x12512823  # sw x5, 304(x2)
    .word 0x014a5d93  # srli x27, x20, 20
    .word 0x00ca9313  # slli x6, x21, 12
    .word 0x006dedb3  # or x27, x27, x6
    .word 0x16c12303  # lw x6, 364(x2)
    .word 0x006df2b3  # and x5, x27, x6
    .word 0x12512a23  # sw x5, 308(x2)
    .word 0x001add93  # srli x27, x21, 1
    .word 0x16c12303  # lw x6, 364(x2)
    .word 0x006df2b3  # and x5, x27, x6
    .word 0x12512c23  # sw x5, 312(x2)
    .word 0x00eadd93  # srli x27, x21, 14
    .word 0x16c12303  # lw x6, 364(x2)
    .word 0x006df2b3  # and x5, x27, x6
    .word 0x12512e23  # sw x5, 316(x2)
    .word 0x01badd93  # srli x27, x21, 27
    .word 0x005b1313  # slli x6, x22, 5
    .word 0x006dedb3  # or x27, x27, x6
    .word 0x16c12303  # lw x6, 364(x2)
    .word 0x006df2b3  # and x5, x27, x6
    .word 0x14512023  # sw x5, 320(x2)
    .word 0x008b5d93  # srli x27, x22, 8
    .word 0x16c12303  # lw x6, 364(x2)
    .word 0x006df2b3  # and x5, x27, x6
    .word 0x14512223  # sw x5, 324(x2)
    .word 0x015b5d93  # srli x27, x22, 21
    .word 0x00bb9313  # slli x6, x23, 11
    .word 0x006dedb3  # or x27, x27, x6
    .word 0x012d9293  # slli x5, x27, 18
    .word 0x0122d293  # srli x5, x5, 18
    .word 0x14512423  # sw x5, 328(x2)
    # the result
    .word 0x00000513  # addi x10, x0, 0
    # parameter 3: the array, back
    .word 0x12410293  # addi x5, x2, 292
    .word 0x1bc12303  # lw x6, 444(x2)
    .word 0x02028393  # addi x7, x5, 32
    .word 0x0a000f6f  # jal x30, 160
    .word 0x0002ae03  # lw x28, 0(x5)
    .word 0x01c32023  # sw x28, 0(x6)
    .word 0x0042ae03  # lw x28, 4(x5)
    .word 0x01c32223  # sw x28, 4(x6)
    # above the frame
    .word 0x18010293  # addi x5, x2, 384
    # the caller's registers
    .word 0x0002a403  # lw x8, 0(x5)
    .cfi_restore 8
    .word 0x0042a483  # lw x9, 4(x5)
    .cfi_restore 9
    .word 0x0082a903  # lw x18, 8(x5)
    .cfi_restore 18
    .word 0x00c2a983  # lw x19, 12(x5)
    .cfi_restore 19
    .word 0x0102aa03  # lw x20, 16(x5)
    .cfi_restore 20
    .word 0x0142aa83  # lw x21, 20(x5)
    .cfi_restore 21
    .word 0x0182ab03  # lw x22, 24(x5)
    .cfi_restore 22
    .word 0x01c2ab83  # lw x23, 28(x5)
    .cfi_restore 23
    .word 0x0202ac03  # lw x24, 32(x5)
    .cfi_restore 24
    .word 0x0242ac83  # lw x25, 36(x5)
    .cfi_restore 25
    .word 0x0282ad03  # lw x26, 40(x5)
    .cfi_restore 26
    .word 0x02c2ad83  # lw x27, 44(x5)
    .cfi_restore 27
    # the caller's x2
    .word 0x04028293  # addi x5, x5, 64
    .cfi_def_cfa 5, 0
    # all the room, wiped upward
    .word 0x00012023  # sw x0, 0(x2)
    .word 0x00012223  # sw x0, 4(x2)
    .word 0x00012423  # sw x0, 8(x2)
    .word 0x00012623  # sw x0, 12(x2)
    .word 0x01010113  # addi x2, x2, 16
    .word 0xfe5116e3  # bne x2, x5, -20
    .cfi_def_cfa 2, 0
    # temporaries, wiped
    .word 0x00000293  # addi x5, x0, 0
    .word 0x00000313  # addi x6, x0, 0
    .word 0x00000393  # addi x7, x0, 0
    .word 0x00000593  # addi x11, x0, 0
    .word 0x00000613  # addi x12, x0, 0
    .word 0x00000693  # addi x13, x0, 0
    .word 0x00000713  # addi x14, x0, 0
    .word 0x00000793  # addi x15, x0, 0
    .word 0x00000813  # addi x16, x0, 0
    .word 0x00000893  # addi x17, x0, 0
    .word 0x00000e13  # addi x28, x0, 0
    .word 0x00000e93  # addi x29, x0, 0
    .word 0x00000f13  # addi x30, x0, 0
    .word 0x00000f93  # addi x31, x0, 0
    # back
    .word 0x00008067  # jalr x0, 0(x1)
    # from x5 to x6 up to x7, and back
    .cfi_def_cfa 2, 448
    .cfi_offset 8, -64
    .cfi_offset 9, -60
    .cfi_offset 18, -56
    .cfi_offset 19, -52
    .cfi_offset 20, -48
    .cfi_offset 21, -44
    .cfi_offset 22, -40
    .cfi_offset 23, -36
    .cfi_offset 24, -32
    .cfi_offset 25, -28
    .cfi_offset 26, -24
    .cfi_offset 27, -20
    .word 0x0062ee33  # or x28, x5, x6
    .word 0x003e7e13  # andi x28, x28, 3
    .word 0x000e0e63  # beq x28, x0, 28
    .word 0x0002ce03  # lbu x28, 0(x5)
    .word 0x01c30023  # sb x28, 0(x6)
    .word 0x00128293  # addi x5, x5, 1
    .word 0x00130313  # addi x6, x6, 1
    .word 0xfe7298e3  # bne x5, x7, -16
    .word 0x0300006f  # jal x0, 48
    .word 0x0002ae03  # lw x28, 0(x5)
    .word 0x01c32023  # sw x28, 0(x6)
    .word 0x0042ae03  # lw x28, 4(x5)
    .word 0x01c32223  # sw x28, 4(x6)
    .word 0x0082ae03  # lw x28, 8(x5)
    .word 0x01c32423  # sw x28, 8(x6)
    .word 0x00c2ae03  # lw x28, 12(x5)
    .word 0x01c32623  # sw x28, 12(x6)
    .word 0x01028293  # addi x5, x5, 16
    .word 0x01030313  # addi x6, x6, 16
    .word 0xfc729ce3  # bne x5, x7, -40
    .word 0x000f0067  # jalr x0, 0(x30)
    .cfi_endproc
    .size poly1305_blocks, . - poly1305_blocks
    .option pop
