# poly1305_block: made by factc 1.0.0 function; 503 words and 21 shared, 224 bytes of stack, profile 1
    .option push
    .option norvc
    .option norelax
    .cfi_sections .debug_frame
    .section .text.poly1305_block, "ax", @progbits
    .p2align 2
    .globl poly1305_block
    .type poly1305_block, @function
poly1305_block:
    .cfi_startproc
    # room above the frame
    .word 0xfc010113  # addi x2, x2, -64
    .cfi_def_cfa_offset 64
    # the caller's registers
    .word 0x00912023  # sw x9, 0(x2)
    .cfi_offset 9, -64
    .word 0x01212223  # sw x18, 4(x2)
    .cfi_offset 18, -60
    .word 0x01312423  # sw x19, 8(x2)
    .cfi_offset 19, -56
    .word 0x01412623  # sw x20, 12(x2)
    .cfi_offset 20, -52
    .word 0x01512823  # sw x21, 16(x2)
    .cfi_offset 21, -48
    .word 0x01612a23  # sw x22, 20(x2)
    .cfi_offset 22, -44
    .word 0x01712c23  # sw x23, 24(x2)
    .cfi_offset 23, -40
    .word 0x01812e23  # sw x24, 28(x2)
    .cfi_offset 24, -36
    .word 0x03912023  # sw x25, 32(x2)
    .cfi_offset 25, -32
    .word 0x03a12223  # sw x26, 36(x2)
    .cfi_offset 26, -28
    .word 0x03b12423  # sw x27, 40(x2)
    .cfi_offset 27, -24
    # arguments that are needed behind the body
    .word 0x02a12823  # sw x10, 48(x2)
    .word 0x02b12a23  # sw x11, 52(x2)
    .word 0x02c12c23  # sw x12, 56(x2)
    .word 0x02d12e23  # sw x13, 60(x2)
    # the frame's base
    .word 0xf6010113  # addi x2, x2, -160
    .cfi_def_cfa 2, 224
    # parameter 0: an array
    .word 0x00050293  # addi x5, x10, 0
    .word 0x00010313  # addi x6, x2, 0
    .word 0x02028393  # addi x7, x5, 32
    .word 0x0002ce03  # lbu x28, 0(x5)
    .word 0x01c30023  # sb x28, 0(x6)
    .word 0x00128293  # addi x5, x5, 1
    .word 0x00130313  # addi x6, x6, 1
    .word 0xfe7298e3  # bne x5, x7, -16
    # parameter 1: an array
    .word 0x00058293  # addi x5, x11, 0
    .word 0x02010313  # addi x6, x2, 32
    .word 0x01028393  # addi x7, x5, 16
    .word 0x0002ce03  # lbu x28, 0(x5)
    .word 0x01c30023  # sb x28, 0(x6)
    .word 0x00128293  # addi x5, x5, 1
    .word 0x00130313  # addi x6, x6, 1
    .word 0xfe7298e3  # bne x5, x7, -16
    # parameter 2: a word
    .word 0x02c12823  # sw x12, 48(x2)
    # parameter 3: an array
    .word 0x00068293  # addi x5, x13, 0
    .word 0x03410313  # addi x6, x2, 52
    .word 0x02828393  # addi x7, x5, 40
    .word 0x0002ae03  # lw x28, 0(x5)
    .word 0x01c32023  # sw x28, 0(x6)
    .word 0x00428293  # addi x5, x5, 4
    .word 0x00430313  # addi x6, x6, 4
    .word 0xfe7298e3  # bne x5, x7, -16
    # the body
    .word 0x03012503  # lw x10, 48(x2)
    .word 0x040002b7  # lui x5, 0x04000
    .word 0xfff28293  # addi x5, x5, -1
    .word 0x08512423  # sw x5, 136(x2)
    .word 0x000024b7  # lui x9, 0x00002
    .word 0xfff48493  # addi x9, x9, -1
    .word 0x04012e23  # sw x0, 92(x2)
    .word 0x06012023  # sw x0, 96(x2)
    .word 0x06012223  # sw x0, 100(x2)
    .word 0x06012423  # sw x0, 104(x2)
    .word 0x00400313  # addi x6, x0, 4
    .word 0x02656863  # bltu x10, x6, 48
    .word 0x02014583  # lbu x11, 32(x2)
    .word 0x02114603  # lbu x12, 33(x2)
    .word 0x02214683  # lbu x13, 34(x2)
    .word 0x02314703  # lbu x14, 35(x2)
    .word 0x00861313  # slli x6, x12, 8
    .word 0x0065e2b3  # or x5, x11, x6
    .word 0x01069313  # slli x6, x13, 16
    .word 0x0062e2b3  # or x5, x5, x6
    .word 0x01871313  # slli x6, x14, 24
    .word 0x0062e2b3  # or x5, x5, x6
    .word 0x04512e23  # sw x5, 92(x2)
    .word 0x00800313  # addi x6, x0, 8
    .word 0x02656863  # bltu x10, x6, 48
    .word 0x02414583  # lbu x11, 36(x2)
    .word 0x02514603  # lbu x12, 37(x2)
    .word 0x02614683  # lbu x13, 38(x2)
    .word 0x02714703  # lbu x14, 39(x2)
    .word 0x00861313  # slli x6, x12, 8
    .word 0x0065e2b3  # or x5, x11, x6
    .word 0x01069313  # slli x6, x13, 16
    .word 0x0062e2b3  # or x5, x5, x6
    .word 0x01871313  # slli x6, x14, 24
    .word 0x0062e2b3  # or x5, x5, x6
    .word 0x06512023  # sw x5, 96(x2)
    .word 0x00c00313  # addi x6, x0, 12
    .word 0x02656863  # bltu x10, x6, 48
    .word 0x02814583  # lbu x11, 40(x2)
    .word 0x02914603  # lbu x12, 41(x2)
    .word 0x02a14683  # lbu x13, 42(x2)
    .word 0x02b14703  # lbu x14, 43(x2)
    .word 0x00861313  # slli x6, x12, 8
    .word 0x0065e2b3  # or x5, x11, x6
    .word 0x01069313  # slli x6, x13, 16
    .word 0x0062e2b3  # or x5, x5, x6
    .word 0x01871313  # slli x6, x14, 24
    .word 0x0062e2b3  # or x5, x5, x6
    .word 0x06512223  # sw x5, 100(x2)
    .word 0x01000313  # addi x6, x0, 16
    .word 0x02656863  # bltu x10, x6, 48
    .word 0x02c14583  # lbu x11, 44(x2)
    .word 0x02d14603  # lbu x12, 45(x2)
    .word 0x02e14683  # lbu x13, 46(x2)
    .word 0x02f14703  # lbu x14, 47(x2)
    .word 0x00861313  # slli x6, x12, 8
    .word 0x0065e2b3  # or x5, x11, x6
    .word 0x01069313  # slli x6, x13, 16
    .word 0x0062e2b3  # or x5, x5, x6
    .word 0x01871313  # slli x6, x14, 24
    .word 0x0062e2b3  # or x5, x5, x6
    .word 0x06512423  # sw x5, 104(x2)
    .word 0x01000313  # addi x6, x0, 16
    .word 0x04657663  # bgeu x10, x6, 76
    .word 0x00100d13  # addi x26, x0, 1
    .word 0xfff00793  # addi x15, x0, -1
    .word 0x00178793  # addi x15, x15, 1
    .word 0x00357313  # andi x6, x10, 3
    .word 0x0267f063  # bgeu x15, x6, 32
    .word 0x008d1293  # slli x5, x26, 8
    .word 0x40f50333  # sub x6, x10, x15
    .word 0xfff30313  # addi x6, x6, -1
    .word 0x00f37313  # andi x6, x6, 15
    .word 0x00230333  # add x6, x6, x2
    .word 0x02034303  # lbu x6, 32(x6)
    .word 0x0062ed33  # or x26, x5, x6
    .word 0xffe78293  # addi x5, x15, -2
    .word 0xfc029ae3  # bne x5, x0, -44
    .word 0x00255293  # srli x5, x10, 2
    .word 0x00229293  # slli x5, x5, 2
    .word 0x002282b3  # add x5, x5, x2
    .word 0x05a2ae23  # sw x26, 92(x5)
    .word 0x00014583  # lbu x11, 0(x2)
    .word 0x00114603  # lbu x12, 1(x2)
    .word 0x00214683  # lbu x13, 2(x2)
    .word 0x00314703  # lbu x14, 3(x2)
    .word 0x00861313  # slli x6, x12, 8
    .word 0x0065e2b3  # or x5, x11, x6
    .word 0x01069313  # slli x6, x13, 16
    .word 0x0062e2b3  # or x5, x5, x6
    .word 0x01871313  # slli x6, x14, 24
    .word 0x0062ed33  # or x26, x5, x6
    .word 0x004d1293  # slli x5, x26, 4
    .word 0x0042d293  # srli x5, x5, 4
    .word 0x06512623  # sw x5, 108(x2)
    .word 0x06c12883  # lw x17, 108(x2)
    .word 0x00414583  # lbu x11, 4(x2)
    .word 0x00514603  # lbu x12, 5(x2)
    .word 0x00614683  # lbu x13, 6(x2)
    .word 0x00714703  # lbu x14, 7(x2)
    .word 0x00861313  # slli x6, x12, 8
    .word 0x0065e2b3  # or x5, x11, x6
    .word 0x01069313  # slli x6, x13, 16
    .word 0x0062e2b3  # or x5, x5, x6
    .word 0x01871313  # slli x6, x14, 24
    .word 0x0062ed33  # or x26, x5, x6
    .word 0x10000337  # lui x6, 0x10000
    .word 0xffc30313  # addi x6, x6, -4
    .word 0x006d7d33  # and x26, x26, x6
    .word 0x000d0913  # addi x18, x26, 0
    .word 0x002d5313  # srli x6, x26, 2
    .word 0x006d02b3  # add x5, x26, x6
    .word 0x06512823  # sw x5, 112(x2)
    .word 0x00814583  # lbu x11, 8(x2)
    .word 0x00914603  # lbu x12, 9(x2)
    .word 0x00a14683  # lbu x13, 10(x2)
    .word 0x00b14703  # lbu x14, 11(x2)
    .word 0x00861313  # slli x6, x12, 8
    .word 0x0065e2b3  # or x5, x11, x6
    .word 0x01069313  # slli x6, x13, 16
    .word 0x0062e2b3  # or x5, x5, x6
    .word 0x01871313  # slli x6, x14, 24
    .word 0x0062ed33  # or x26, x5, x6
    .word 0x10000337  # lui x6, 0x10000
    .word 0xffc30313  # addi x6, x6, -4
    .word 0x006d7d33  # and x26, x26, x6
    .word 0x07a12c23  # sw x26, 120(x2)
    .word 0x002d5313  # srli x6, x26, 2
    .word 0x006d02b3  # add x5, x26, x6
    .word 0x06512a23  # sw x5, 116(x2)
    .word 0x00c14583  # lbu x11, 12(x2)
    .word 0x00d14603  # lbu x12, 13(x2)
    .word 0x00e14683  # lbu x13, 14(x2)
    .word 0x00f14703  # lbu x14, 15(x2)
    .word 0x00861313  # slli x6, x12, 8
    .word 0x0065e2b3  # or x5, x11, x6
    .word 0x01069313  # slli x6, x13, 16
    .word 0x0062e2b3  # or x5, x5, x6
    .word 0x01871313  # slli x6, x14, 24
    .word 0x0062ed33  # or x26, x5, x6
    .word 0x10000337  # lui x6, 0x10000
    .word 0xffc30313  # addi x6, x6, -4
    .word 0x006d7d33  # and x26, x26, x6
    .word 0x07a12e23  # sw x26, 124(x2)
    .word 0x002d5313  # srli x6, x26, 2
    .word 0x006d0833  # add x16, x26, x6
    .word 0x03412283  # lw x5, 52(x2)
    .word 0x03812303  # lw x6, 56(x2)
    .word 0x00d31313  # slli x6, x6, 13
    .word 0x00628d33  # add x26, x5, x6
    .word 0x08812303  # lw x6, 136(x2)
    .word 0x006d7db3  # and x27, x26, x6
    .word 0x01ad5d13  # srli x26, x26, 26
    .word 0x03c12283  # lw x5, 60(x2)
    .word 0x04012303  # lw x6, 64(x2)
    .word 0x00d31313  # slli x6, x6, 13
    .word 0x006282b3  # add x5, x5, x6
    .word 0x01a28d33  # add x26, x5, x26
    .word 0x08812303  # lw x6, 136(x2)
    .word 0x006d7ab3  # and x21, x26, x6
    .word 0x01ad5d13  # srli x26, x26, 26
    .word 0x01aa9313  # slli x6, x21, 26
    .word 0x006de9b3  # or x19, x27, x6
    .word 0x006ada13  # srli x20, x21, 6
    .word 0x04412283  # lw x5, 68(x2)
    .word 0x04812303  # lw x6, 72(x2)
    .word 0x00d31313  # slli x6, x6, 13
    .word 0x006282b3  # add x5, x5, x6
    .word 0x01a28d33  # add x26, x5, x26
    .word 0x08812303  # lw x6, 136(x2)
    .word 0x006d7db3  # and x27, x26, x6
    .word 0x01ad5d13  # srli x26, x26, 26
    .word 0x014d9313  # slli x6, x27, 20
    .word 0x006a6a33  # or x20, x20, x6
    .word 0x00cdda93  # srli x21, x27, 12
    .word 0x04c12283  # lw x5, 76(x2)
    .word 0x05012303  # lw x6, 80(x2)
    .word 0x00d31313  # slli x6, x6, 13
    .word 0x006282b3  # add x5, x5, x6
    .word 0x01a28d33  # add x26, x5, x26
    .word 0x08812303  # lw x6, 136(x2)
    .word 0x006d7db3  # and x27, x26, x6
    .word 0x01ad5d13  # srli x26, x26, 26
    .word 0x00ed9313  # slli x6, x27, 14
    .word 0x006aeab3  # or x21, x21, x6
    .word 0x012ddb13  # srli x22, x27, 18
    .word 0x05412283  # lw x5, 84(x2)
    .word 0x05812303  # lw x6, 88(x2)
    .word 0x00d31313  # slli x6, x6, 13
    .word 0x006282b3  # add x5, x5, x6
    .word 0x01a28d33  # add x26, x5, x26
    .word 0x008d1313  # slli x6, x26, 8
    .word 0x006b6b33  # or x22, x22, x6
    .word 0x018d5b93  # srli x23, x26, 24
    .word 0x01053793  # sltiu x15, x10, 16
    .word 0x0017b793  # sltiu x15, x15, 1
    .word 0x05c12d03  # lw x26, 92(x2)
    .word 0x01ad3db3  # sltu x27, x26, x26
    .word 0x013d0d33  # add x26, x26, x19
    .word 0x013d3333  # sltu x6, x26, x19
    .word 0x006d8db3  # add x27, x27, x6
    .word 0x000d0993  # addi x19, x26, 0
    .word 0x000d8d13  # addi x26, x27, 0
    .word 0x06012d83  # lw x27, 96(x2)
    .word 0x01bd0d33  # add x26, x26, x27
    .word 0x01bd3db3  # sltu x27, x26, x27
    .word 0x014d0d33  # add x26, x26, x20
    .word 0x014d3333  # sltu x6, x26, x20
    .word 0x006d8db3  # add x27, x27, x6
    .word 0x000d0a13  # addi x20, x26, 0
    .word 0x000d8d13  # addi x26, x27, 0
    .word 0x06412d83  # lw x27, 100(x2)
    .word 0x01bd0d33  # add x26, x26, x27
    .word 0x01bd3db3  # sltu x27, x26, x27
    .word 0x015d0d33  # add x26, x26, x21
    .word 0x015d3333  # sltu x6, x26, x21
    .word 0x006d8db3  # add x27, x27, x6
    .word 0x000d0a93  # addi x21, x26, 0
    .word 0x000d8d13  # addi x26, x27, 0
    .word 0x06812d83  # lw x27, 104(x2)
    .word 0x01bd0d33  # add x26, x26, x27
    .word 0x01bd3db3  # sltu x27, x26, x27
    .word 0x016d0d33  # add x26, x26, x22
    .word 0x016d3333  # sltu x6, x26, x22
    .word 0x006d8db3  # add x27, x27, x6
    .word 0x000d0b13  # addi x22, x26, 0
    .word 0x000d8d13  # addi x26, x27, 0
    .word 0x01ab82b3  # add x5, x23, x26
    .word 0x00f28bb3  # add x23, x5, x15
    .word 0x00098c13  # addi x24, x19, 0
    .word 0x000a0c93  # addi x25, x20, 0
    .word 0x09512023  # sw x21, 128(x2)
    .word 0x09612223  # sw x22, 132(x2)
    .word 0x06c12303  # lw x6, 108(x2)
    .word 0x02698d33  # mul x26, x19, x6
    .word 0x01ad3db3  # sltu x27, x26, x26
    .word 0x06c12303  # lw x6, 108(x2)
    .word 0x0269b9b3  # mulhu x19, x19, x6
    .word 0x013d8db3  # add x27, x27, x19
    .word 0x030a09b3  # mul x19, x20, x16
    .word 0x013d0d33  # add x26, x26, x19
    .word 0x013d3333  # sltu x6, x26, x19
    .word 0x006d8db3  # add x27, x27, x6
    .word 0x030a39b3  # mulhu x19, x20, x16
    .word 0x013d8db3  # add x27, x27, x19
    .word 0x07412303  # lw x6, 116(x2)
    .word 0x026a89b3  # mul x19, x21, x6
    .word 0x013d0d33  # add x26, x26, x19
    .word 0x013d3333  # sltu x6, x26, x19
    .word 0x006d8db3  # add x27, x27, x6
    .word 0x07412303  # lw x6, 116(x2)
    .word 0x026abab3  # mulhu x21, x21, x6
    .word 0x015d8db3  # add x27, x27, x21
    .word 0x07012303  # lw x6, 112(x2)
    .word 0x026b0ab3  # mul x21, x22, x6
    .word 0x015d0d33  # add x26, x26, x21
    .word 0x015d3333  # sltu x6, x26, x21
    .word 0x006d8db3  # add x27, x27, x6
    .word 0x07012303  # lw x6, 112(x2)
    .word 0x026b3ab3  # mulhu x21, x22, x6
    .word 0x015d8db3  # add x27, x27, x21
    .word 0x00000313  # addi x6, x0, 0
    .word 0x026b8ab3  # mul x21, x23, x6
    .word 0x015d0d33  # add x26, x26, x21
    .word 0x015d3333  # sltu x6, x26, x21
    .word 0x006d8db3  # add x27, x27, x6
    .word 0x000d0993  # addi x19, x26, 0
    .word 0x000d8d13  # addi x26, x27, 0
    .word 0x032c0db3  # mul x27, x24, x18
    .word 0x01bd0d33  # add x26, x26, x27
    .word 0x01bd3db3  # sltu x27, x26, x27
    .word 0x032c3ab3  # mulhu x21, x24, x18
    .word 0x015d8db3  # add x27, x27, x21
    .word 0x031c8ab3  # mul x21, x25, x17
    .word 0x015d0d33  # add x26, x26, x21
    .word 0x015d3333  # sltu x6, x26, x21
    .word 0x006d8db3  # add x27, x27, x6
    .word 0x031cbab3  # mulhu x21, x25, x17
    .word 0x015d8db3  # add x27, x27, x21
    .word 0x08012283  # lw x5, 128(x2)
    .word 0x03028ab3  # mul x21, x5, x16
    .word 0x015d0d33  # add x26, x26, x21
    .word 0x015d3333  # sltu x6, x26, x21
    .word 0x006d8db3  # add x27, x27, x6
    .word 0x08012283  # lw x5, 128(x2)
    .word 0x0302bab3  # mulhu x21, x5, x16
    .word 0x015d8db3  # add x27, x27, x21
    .word 0x08412283  # lw x5, 132(x2)
    .word 0x07412303  # lw x6, 116(x2)
    .word 0x02628ab3  # mul x21, x5, x6
    .word 0x015d0d33  # add x26, x26, x21
    .word 0x015d3333  # sltu x6, x26, x21
    .word 0x006d8db3  # add x27, x27, x6
    .word 0x08412283  # lw x5, 132(x2)
    .word 0x07412303  # lw x6, 116(x2)
    .word 0x0262bab3  # mulhu x21, x5, x6
    .word 0x015d8db3  # add x27, x27, x21
    .word 0x07012303  # lw x6, 112(x2)
    .word 0x026b8ab3  # mul x21, x23, x6
    .word 0x015d0d33  # add x26, x26, x21
    .word 0x015d3333  # sltu x6, x26, x21
    .word 0x006d8db3  # add x27, x27, x6
    .word 0x000d0a13  # addi x20, x26, 0
    .word 0x000d8d13  # addi x26, x27, 0
    .word 0x07812303  # lw x6, 120(x2)
    .word 0x026c0db3  # mul x27, x24, x6
    .word 0x01bd0d33  # add x26, x26, x27
    .word 0x01bd3db3  # sltu x27, x26, x27
    .word 0x07812303  # lw x6, 120(x2)
    .word 0x026c3ab3  # mulhu x21, x24, x6
    .word 0x015d8db3  # add x27, x27, x21
    .word 0x032c8ab3  # mul x21, x25, x18
    .word 0x015d0d33  # add x26, x26, x21
    .word 0x015d3333  # sltu x6, x26, x21
    .word 0x006d8db3  # add x27, x27, x6
    .word 0x032cbab3  # mulhu x21, x25, x18
    .word 0x015d8db3  # add x27, x27, x21
    .word 0x08012283  # lw x5, 128(x2)
    .word 0x03128ab3  # mul x21, x5, x17
    .word 0x015d0d33  # add x26, x26, x21
    .word 0x015d3333  # sltu x6, x26, x21
    .word 0x006d8db3  # add x27, x27, x6
    .word 0x08012283  # lw x5, 128(x2)
    .word 0x0312bab3  # mulhu x21, x5, x17
    .word 0x015d8db3  # add x27, x27, x21
    .word 0x08412283  # lw x5, 132(x2)
    .word 0x03028ab3  # mul x21, x5, x16
    .word 0x015d0d33  # add x26, x26, x21
    .word 0x015d3333  # sltu x6, x26, x21
    .word 0x006d8db3  # add x27, x27, x6
    .word 0x08412283  # lw x5, 132(x2)
    .word 0x0302bab3  # mulhu x21, x5, x16
    .word 0x015d8db3  # add x27, x27, x21
    .word 0x07412303  # lw x6, 116(x2)
    .word 0x026b8ab3  # mul x21, x23, x6
    .word 0x015d0d33  # add x26, x26, x21
    .word 0x015d3333  # sltu x6, x26, x21
    .word 0x006d8db3  # add x27, x27, x6
    .word 0x000d0a93  # addi x21, x26, 0
    .word 0x000d8d13  # addi x26, x27, 0
    .word 0x07c12303  # lw x6, 124(x2)
    .word 0x026c0db3  # mul x27, x24, x6
    .word 0x01bd0d33  # add x26, x26, x27
    .word 0x01bd3db3  # sltu x27, x26, x27
    .word 0x07c12303  # lw x6, 124(x2)
    .word 0x026c3b33  # mulhu x22, x24, x6
    .word 0x016d8db3  # add x27, x27, x22
    .word 0x07812303  # lw x6, 120(x2)
    .word 0x026c8b33  # mul x22, x25, x6
    .word 0x016d0d33  # add x26, x26, x22
    .word 0x016d3333  # sltu x6, x26, x22
    .word 0x006d8db3  # add x27, x27, x6
    .word 0x07812303  # lw x6, 120(x2)
    .word 0x026cbb33  # mulhu x22, x25, x6
    .word 0x016d8db3  # add x27, x27, x22
    .word 0x08012283  # lw x5, 128(x2)
    .word 0x03228b33  # mul x22, x5, x18
    .word 0x016d0d33  # add x26, x26, x22
    .word 0x016d3333  # sltu x6, x26, x22
    .word 0x006d8db3  # add x27, x27, x6
    .word 0x08012283  # lw x5, 128(x2)
    .word 0x0322bb33  # mulhu x22, x5, x18
    .word 0x016d8db3  # add x27, x27, x22
    .word 0x08412283  # lw x5, 132(x2)
    .word 0x03128b33  # mul x22, x5, x17
    .word 0x016d0d33  # add x26, x26, x22
    .word 0x016d3333  # sltu x6, x26, x22
    .word 0x006d8db3  # add x27, x27, x6
    .word 0x08412283  # lw x5, 132(x2)
    .word 0x0312bb33  # mulhu x22, x5, x17
    .word 0x016d8db3  # add x27, x27, x22
    .word 0x030b8b33  # mul x22, x23, x16
    .word 0x016d0d33  # add x26, x26, x22
    .word 0x016d3333  # sltu x6, x26, x22
    .word 0x006d8db3  # add x27, x27, x6
    .word 0x000d0b13  # addi x22, x26, 0
    .word 0x000d8d13  # addi x26, x27, 0
    .word 0x031b8333  # mul x6, x23, x17
    .word 0x006d0833  # add x16, x26, x6
    .word 0xffc87293  # andi x5, x16, -4
    .word 0x00285313  # srli x6, x16, 2
    .word 0x00628d33  # add x26, x5, x6
    .word 0x013d0d33  # add x26, x26, x19
    .word 0x013d3db3  # sltu x27, x26, x19
    .word 0x000d0993  # addi x19, x26, 0
    .word 0x000d8d13  # addi x26, x27, 0
    .word 0x014d0d33  # add x26, x26, x20
    .word 0x014d3db3  # sltu x27, x26, x20
    .word 0x000d0a13  # addi x20, x26, 0
    .word 0x000d8d13  # addi x26, x27, 0
    .word 0x015d0d33  # add x26, x26, x21
    .word 0x015d3db3  # sltu x27, x26, x21
    .word 0x000d0a93  # addi x21, x26, 0
    .word 0x000d8d13  # addi x26, x27, 0
    .word 0x016d0d33  # add x26, x26, x22
    .word 0x016d3db3  # sltu x27, x26, x22
    .word 0x000d0b13  # addi x22, x26, 0
    .word 0x000d8d13  # addi x26, x27, 0
    .word 0x00387293  # andi x5, x16, 3
    .word 0x01a28bb3  # add x23, x5, x26
    .word 0x0099f2b3  # and x5, x19, x9
    .word 0x02512a23  # sw x5, 52(x2)
    .word 0x00d9dd13  # srli x26, x19, 13
    .word 0x009d72b3  # and x5, x26, x9
    .word 0x02512c23  # sw x5, 56(x2)
    .word 0x01a9dd13  # srli x26, x19, 26
    .word 0x006a1313  # slli x6, x20, 6
    .word 0x006d6d33  # or x26, x26, x6
    .word 0x009d72b3  # and x5, x26, x9
    .word 0x02512e23  # sw x5, 60(x2)
    .word 0x007a5d13  # srli x26, x20, 7
    .word 0x009d72b3  # and x5, x26, x9
    .word 0x04512023  # sw x5, 64(x2)
    .word 0x014a5d13  # srli x26, x20, 20
    .word 0x00ca9313  # slli x6, x21, 12
    .word 0x006d6d33  # or x26, x26, x6
    .word 0x009d72b3  # and x5, x26, x9
    .word 0x04512223  # sw x5, 68(x2)
    .word 0x001add13  # srli x26, x21, 1
    .word 0x009d72b3  # and x5, x26, x9
    .word 0x04512423  # sw x5, 72(x2)
    .word 0x00eadd13  # srli x26, x21, 14
    .word 0x009d72b3  # and x5, x26, x9
    .word 0x04512623  # sw x5, 76(x2)
    .word 0x01badd13  # srli x26, x21, 27
    .word 0x005b1313  # slli x6, x22, 5
    .word 0x006d6d33  # or x26, x26, x6
    .word 0x009d72b3  # and x5, x26, x9
    .word 0x04512823  # sw x5, 80(x2)
    .word 0x008b5d13  # srli x26, x22, 8
    .word 0x009d72b3  # and x5, x26, x9
    .word 0x04512a23  # sw x5, 84(x2)
    .word 0x015b5d13  # srli x26, x22, 21
    .word 0x00bb9313  # slli x6, x23, 11
    .word 0x006d6d33  # or x26, x26, x6
    .word 0x012d1293  # slli x5, x26, 18
    .word 0x0122d293  # srli x5, x5, 18
    .word 0x04512c23  # sw x5, 88(x2)
    # the result
    .word 0x00000513  # addi x10, x0, 0
    # parameter 3: the array, back
    .word 0x03410293  # addi x5, x2, 52
    .word 0x0dc12303  # lw x6, 220(x2)
    .word 0x02828393  # addi x7, x5, 40
    .word 0x0002ae03  # lw x28, 0(x5)
    .word 0x01c32023  # sw x28, 0(x6)
    .word 0x00428293  # addi x5, x5, 4
    .word 0x00430313  # addi x6, x6, 4
    .word 0xfe7298e3  # bne x5, x7, -16
    # above the frame
    .word 0x0a010293  # addi x5, x2, 160
    # the caller's registers
    .word 0x0002a483  # lw x9, 0(x5)
    .cfi_restore 9
    .word 0x0042a903  # lw x18, 4(x5)
    .cfi_restore 18
    .word 0x0082a983  # lw x19, 8(x5)
    .cfi_restore 19
    .word 0x00c2aa03  # lw x20, 12(x5)
    .cfi_restore 20
    .word 0x0102aa83  # lw x21, 16(x5)
    .cfi_restore 21
    .word 0x0142ab03  # lw x22, 20(x5)
    .cfi_restore 22
    .word 0x0182ab83  # lw x23, 24(x5)
    .cfi_restore 23
    .word 0x01c2ac03  # lw x24, 28(x5)
    .cfi_restore 24
    .word 0x0202ac83  # lw x25, 32(x5)
    .cfi_restore 25
    .word 0x0242ad03  # lw x26, 36(x5)
    .cfi_restore 26
    .word 0x0282ad83  # lw x27, 40(x5)
    .cfi_restore 27
    # the caller's x2
    .word 0x04028293  # addi x5, x5, 64
    .cfi_def_cfa 5, 0
    # on to the tail that functions share
    jal x0, factc.tail.1
    .cfi_endproc
    .size poly1305_block, . - poly1305_block
    .section .text.factc.tail.1, "axG", @progbits, factc.tail.1, comdat
    .p2align 2
    .globl factc.tail.1
    .hidden factc.tail.1
    .type factc.tail.1, @function
factc.tail.1:
    .cfi_startproc
    .cfi_def_cfa 5, 0
    # all the room, wiped upward
    .word 0x00012023  # sw x0, 0(x2)
    .word 0x00012223  # sw x0, 4(x2)
    .word 0x00012423  # sw x0, 8(x2)
    .word 0x00012623  # sw x0, 12(x2)
    .word 0x01010113  # addi x2, x2, 16
    .word 0xfe5116e3  # bne x2, x5, -20
    .cfi_def_cfa 2, 0
    # temporaries, wiped
    .word 0x00000293  # addi x5, x0, 0
    .word 0x00000313  # addi x6, x0, 0
    .word 0x00000393  # addi x7, x0, 0
    .word 0x00000593  # addi x11, x0, 0
    .word 0x00000613  # addi x12, x0, 0
    .word 0x00000693  # addi x13, x0, 0
    .word 0x00000713  # addi x14, x0, 0
    .word 0x00000793  # addi x15, x0, 0
    .word 0x00000813  # addi x16, x0, 0
    .word 0x00000893  # addi x17, x0, 0
    .word 0x00000e13  # addi x28, x0, 0
    .word 0x00000e93  # addi x29, x0, 0
    .word 0x00000f13  # addi x30, x0, 0
    .word 0x00000f93  # addi x31, x0, 0
    # back
    .word 0x00008067  # jalr x0, 0(x1)
    .cfi_endproc
    .size factc.tail.1, . - factc.tail.1
    .option pop
