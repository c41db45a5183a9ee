# poly1305: made by factc 1.0.0 function; 564 words and 21 shared, 304 bytes of stack, profile 1
    .option push
    .option norvc
    .option norelax
    .cfi_sections .debug_frame
    .section .text.poly1305, "ax", @progbits
    .p2align 2
    .globl poly1305
    .type poly1305, @function
poly1305:
    .cfi_startproc
    # room above the frame
    .word 0xfc010113  # addi x2, x2, -64
    .cfi_def_cfa_offset 64
    # the caller's registers
    .word 0x00912023  # sw x9, 0(x2)
    .cfi_offset 9, -64
    .word 0x01212223  # sw x18, 4(x2)
    .cfi_offset 18, -60
    .word 0x01312423  # sw x19, 8(x2)
    .cfi_offset 19, -56
    .word 0x01412623  # sw x20, 12(x2)
    .cfi_offset 20, -52
    .word 0x01512823  # sw x21, 16(x2)
    .cfi_offset 21, -48
    .word 0x01612a23  # sw x22, 20(x2)
    .cfi_offset 22, -44
    .word 0x01712c23  # sw x23, 24(x2)
    .cfi_offset 23, -40
    .word 0x01812e23  # sw x24, 28(x2)
    .cfi_offset 24, -36
    .word 0x03912023  # sw x25, 32(x2)
    .cfi_offset 25, -32
    .word 0x03a12223  # sw x26, 36(x2)
    .cfi_offset 26, -28
    .word 0x03b12423  # sw x27, 40(x2)
    .cfi_offset 27, -24
    # arguments that are needed behind the body
    .word 0x02a12823  # sw x10, 48(x2)
    .word 0x02b12a23  # sw x11, 52(x2)
    .word 0x02c12c23  # sw x12, 56(x2)
    .word 0x02d12e23  # sw x13, 60(x2)
    # the frame's base
    .word 0xf1010113  # addi x2, x2, -240
    .cfi_def_cfa 2, 304
    # the frame's word at 184, zeroed
    .word 0x0a012c23  # sw x0, 184(x2)
    # the frame's word at 188, zeroed
    .word 0x0a012e23  # sw x0, 188(x2)
    # the frame's word at 192, zeroed
    .word 0x0c012023  # sw x0, 192(x2)
    # the frame's word at 216, zeroed
    .word 0x0c012c23  # sw x0, 216(x2)
    # the frame's word at 220, zeroed
    .word 0x0c012e23  # sw x0, 220(x2)
    # parameter 0: an array
    .word 0x00050293  # addi x5, x10, 0
    .word 0x00010313  # addi x6, x2, 0
    .word 0x02028393  # addi x7, x5, 32
    .word 0x0002ce03  # lbu x28, 0(x5)
    .word 0x01c30023  # sb x28, 0(x6)
    .word 0x00128293  # addi x5, x5, 1
    .word 0x00130313  # addi x6, x6, 1
    .word 0xfe7298e3  # bne x5, x7, -16
    # parameter 1: an array
    .word 0x00058293  # addi x5, x11, 0
    .word 0x02010313  # addi x6, x2, 32
    .word 0x04028393  # addi x7, x5, 64
    .word 0x0002ce03  # lbu x28, 0(x5)
    .word 0x01c30023  # sb x28, 0(x6)
    .word 0x00128293  # addi x5, x5, 1
    .word 0x00130313  # addi x6, x6, 1
    .word 0xfe7298e3  # bne x5, x7, -16
    # parameter 2: a word
    .word 0x06c12023  # sw x12, 96(x2)
    # the body
    .word 0x06012283  # lw x5, 96(x2)
    .word 0x0402b293  # sltiu x5, x5, 64
    .word 0x06012303  # lw x6, 96(x2)
    .word 0x04000393  # addi x7, x0, 64
    .word 0x405002b3  # sub x5, x0, x5
    .word 0x00734333  # xor x6, x6, x7
    .word 0x00537333  # and x6, x6, x5
    .word 0x0063c533  # xor x10, x7, x6
    .word 0x06012a23  # sw x0, 116(x2)
    .word 0x06012c23  # sw x0, 120(x2)
    .word 0x06012e23  # sw x0, 124(x2)
    .word 0x08012023  # sw x0, 128(x2)
    .word 0x08012223  # sw x0, 132(x2)
    .word 0x08012423  # sw x0, 136(x2)
    .word 0x08012623  # sw x0, 140(x2)
    .word 0x08012823  # sw x0, 144(x2)
    .word 0x08012a23  # sw x0, 148(x2)
    .word 0x08012c23  # sw x0, 152(x2)
    .word 0x08012e23  # sw x0, 156(x2)
    .word 0x0a012023  # sw x0, 160(x2)
    .word 0x0a012223  # sw x0, 164(x2)
    .word 0x0a012423  # sw x0, 168(x2)
    .word 0x0a012623  # sw x0, 172(x2)
    .word 0x0a012823  # sw x0, 176(x2)
    .word 0x0a012a23  # sw x0, 180(x2)
    .word 0xfff00593  # addi x11, x0, -1
    .word 0x00158593  # addi x11, x11, 1
    .word 0x00259293  # slli x5, x11, 2
    .word 0x00428293  # addi x5, x5, 4
    .word 0x06556863  # bltu x10, x5, 112
    .word 0x00259293  # slli x5, x11, 2
    .word 0x00228633  # add x12, x5, x2
    .word 0x02064603  # lbu x12, 32(x12)
    .word 0x00259293  # slli x5, x11, 2
    .word 0x002282b3  # add x5, x5, x2
    .word 0x0212c283  # lbu x5, 33(x5)
    .word 0x0a512c23  # sw x5, 184(x2)
    .word 0x00259293  # slli x5, x11, 2
    .word 0x002282b3  # add x5, x5, x2
    .word 0x0222c283  # lbu x5, 34(x5)
    .word 0x0a512e23  # sw x5, 188(x2)
    .word 0x00259293  # slli x5, x11, 2
    .word 0x002282b3  # add x5, x5, x2
    .word 0x0232c283  # lbu x5, 35(x5)
    .word 0x0c512023  # sw x5, 192(x2)
    .word 0x0b812383  # lw x7, 184(x2)
    .word 0x00839393  # slli x7, x7, 8
    .word 0x00766333  # or x6, x12, x7
    .word 0x0bc12383  # lw x7, 188(x2)
    .word 0x01039393  # slli x7, x7, 16
    .word 0x00736333  # or x6, x6, x7
    .word 0x0c012383  # lw x7, 192(x2)
    .word 0x01839393  # slli x7, x7, 24
    .word 0x00736333  # or x6, x6, x7
    .word 0x00259293  # slli x5, x11, 2
    .word 0x002282b3  # add x5, x5, x2
    .word 0x0662aa23  # sw x6, 116(x5)
    .word 0xff158293  # addi x5, x11, -15
    .word 0xf80290e3  # bne x5, x0, -128
    .word 0x00100d93  # addi x27, x0, 1
    .word 0xfff00593  # addi x11, x0, -1
    .word 0x00158593  # addi x11, x11, 1
    .word 0x00357313  # andi x6, x10, 3
    .word 0x0265f063  # bgeu x11, x6, 32
    .word 0x008d9293  # slli x5, x27, 8
    .word 0x40b50333  # sub x6, x10, x11
    .word 0xfff30313  # addi x6, x6, -1
    .word 0x03f37313  # andi x6, x6, 63
    .word 0x00230333  # add x6, x6, x2
    .word 0x02034303  # lbu x6, 32(x6)
    .word 0x0062edb3  # or x27, x5, x6
    .word 0xffe58293  # addi x5, x11, -2
    .word 0xfc029ae3  # bne x5, x0, -44
    .word 0x00255293  # srli x5, x10, 2
    .word 0x01100313  # addi x6, x0, 17
    .word 0x0262f2b3  # remu x5, x5, x6
    .word 0x00229293  # slli x5, x5, 2
    .word 0x002282b3  # add x5, x5, x2
    .word 0x07b2aa23  # sw x27, 116(x5)
    .word 0x00014603  # lbu x12, 0(x2)
    .word 0x00114283  # lbu x5, 1(x2)
    .word 0x0a512c23  # sw x5, 184(x2)
    .word 0x00214283  # lbu x5, 2(x2)
    .word 0x0a512e23  # sw x5, 188(x2)
    .word 0x00314283  # lbu x5, 3(x2)
    .word 0x0c512023  # sw x5, 192(x2)
    .word 0x0b812303  # lw x6, 184(x2)
    .word 0x00831313  # slli x6, x6, 8
    .word 0x006662b3  # or x5, x12, x6
    .word 0x0bc12303  # lw x6, 188(x2)
    .word 0x01031313  # slli x6, x6, 16
    .word 0x0062e2b3  # or x5, x5, x6
    .word 0x0c012303  # lw x6, 192(x2)
    .word 0x01831313  # slli x6, x6, 24
    .word 0x0062edb3  # or x27, x5, x6
    .word 0x004d9293  # slli x5, x27, 4
    .word 0x0042d293  # srli x5, x5, 4
    .word 0x0c512223  # sw x5, 196(x2)
    .word 0x0c412783  # lw x15, 196(x2)
    .word 0x00414603  # lbu x12, 4(x2)
    .word 0x00514283  # lbu x5, 5(x2)
    .word 0x0a512c23  # sw x5, 184(x2)
    .word 0x00614283  # lbu x5, 6(x2)
    .word 0x0a512e23  # sw x5, 188(x2)
    .word 0x00714283  # lbu x5, 7(x2)
    .word 0x0c512023  # sw x5, 192(x2)
    .word 0x0b812303  # lw x6, 184(x2)
    .word 0x00831313  # slli x6, x6, 8
    .word 0x006662b3  # or x5, x12, x6
    .word 0x0bc12303  # lw x6, 188(x2)
    .word 0x01031313  # slli x6, x6, 16
    .word 0x0062e2b3  # or x5, x5, x6
    .word 0x0c012303  # lw x6, 192(x2)
    .word 0x01831313  # slli x6, x6, 24
    .word 0x0062edb3  # or x27, x5, x6
    .word 0x10000337  # lui x6, 0x10000
    .word 0xffc30313  # addi x6, x6, -4
    .word 0x006dfdb3  # and x27, x27, x6
    .word 0x000d8813  # addi x16, x27, 0
    .word 0x002dd313  # srli x6, x27, 2
    .word 0x006d82b3  # add x5, x27, x6
    .word 0x0c512623  # sw x5, 204(x2)
    .word 0x00814603  # lbu x12, 8(x2)
    .word 0x00914283  # lbu x5, 9(x2)
    .word 0x0a512c23  # sw x5, 184(x2)
    .word 0x00a14283  # lbu x5, 10(x2)
    .word 0x0a512e23  # sw x5, 188(x2)
    .word 0x00b14283  # lbu x5, 11(x2)
    .word 0x0c512023  # sw x5, 192(x2)
    .word 0x0b812303  # lw x6, 184(x2)
    .word 0x00831313  # slli x6, x6, 8
    .word 0x006662b3  # or x5, x12, x6
    .word 0x0bc12303  # lw x6, 188(x2)
    .word 0x01031313  # slli x6, x6, 16
    .word 0x0062e2b3  # or x5, x5, x6
    .word 0x0c012303  # lw x6, 192(x2)
    .word 0x01831313  # slli x6, x6, 24
    .word 0x0062edb3  # or x27, x5, x6
    .word 0x10000337  # lui x6, 0x10000
    .word 0xffc30313  # addi x6, x6, -4
    .word 0x006dfdb3  # and x27, x27, x6
    .word 0x000d8893  # addi x17, x27, 0
    .word 0x002dd313  # srli x6, x27, 2
    .word 0x006d86b3  # add x13, x27, x6
    .word 0x00c14603  # lbu x12, 12(x2)
    .word 0x00d14283  # lbu x5, 13(x2)
    .word 0x0a512c23  # sw x5, 184(x2)
    .word 0x00e14283  # lbu x5, 14(x2)
    .word 0x0a512e23  # sw x5, 188(x2)
    .word 0x00f14283  # lbu x5, 15(x2)
    .word 0x0c512023  # sw x5, 192(x2)
    .word 0x0b812303  # lw x6, 184(x2)
    .word 0x00831313  # slli x6, x6, 8
    .word 0x006662b3  # or x5, x12, x6
    .word 0x0bc12303  # lw x6, 188(x2)
    .word 0x01031313  # slli x6, x6, 16
    .word 0x0062e2b3  # or x5, x5, x6
    .word 0x0c012303  # lw x6, 192(x2)
    .word 0x01831313  # slli x6, x6, 24
    .word 0x0062edb3  # or x27, x5, x6
    .word 0x10000337  # lui x6, 0x10000
    .word 0xffc30313  # addi x6, x6, -4
    .word 0x006dfdb3  # and x27, x27, x6
    .word 0x0db12823  # sw x27, 208(x2)
    .word 0x002dd313  # srli x6, x27, 2
    .word 0x006d8733  # add x14, x27, x6
    .word 0x00000913  # addi x18, x0, 0
    .word 0x00000993  # addi x19, x0, 0
    .word 0x00000a13  # addi x20, x0, 0
    .word 0x00000a93  # addi x21, x0, 0
    .word 0x00000d13  # addi x26, x0, 0
    .word 0xfff00593  # addi x11, x0, -1
    .word 0x00158593  # addi x11, x11, 1
    .word 0x00459293  # slli x5, x11, 4
    .word 0x32a2f463  # bgeu x5, x10, 808
    .word 0x00459293  # slli x5, x11, 4
    .word 0x01028293  # addi x5, x5, 16
    .word 0x005532b3  # sltu x5, x10, x5
    .word 0x0012b293  # sltiu x5, x5, 1
    .word 0x0c512423  # sw x5, 200(x2)
    .word 0x00259293  # slli x5, x11, 2
    .word 0x00229d93  # slli x27, x5, 2
    .word 0x002d8db3  # add x27, x27, x2
    .word 0x074dad83  # lw x27, 116(x27)
    .word 0x01bdb4b3  # sltu x9, x27, x27
    .word 0x012d8db3  # add x27, x27, x18
    .word 0x012db333  # sltu x6, x27, x18
    .word 0x006484b3  # add x9, x9, x6
    .word 0x000d8913  # addi x18, x27, 0
    .word 0x00048d93  # addi x27, x9, 0
    .word 0x00259293  # slli x5, x11, 2
    .word 0x00229493  # slli x9, x5, 2
    .word 0x002484b3  # add x9, x9, x2
    .word 0x0784a483  # lw x9, 120(x9)
    .word 0x009d8db3  # add x27, x27, x9
    .word 0x009db4b3  # sltu x9, x27, x9
    .word 0x013d8db3  # add x27, x27, x19
    .word 0x013db333  # sltu x6, x27, x19
    .word 0x006484b3  # add x9, x9, x6
    .word 0x000d8993  # addi x19, x27, 0
    .word 0x00048d93  # addi x27, x9, 0
    .word 0x00259293  # slli x5, x11, 2
    .word 0x00229493  # slli x9, x5, 2
    .word 0x002484b3  # add x9, x9, x2
    .word 0x07c4a483  # lw x9, 124(x9)
    .word 0x009d8db3  # add x27, x27, x9
    .word 0x009db4b3  # sltu x9, x27, x9
    .word 0x014d8db3  # add x27, x27, x20
    .word 0x014db333  # sltu x6, x27, x20
    .word 0x006484b3  # add x9, x9, x6
    .word 0x000d8a13  # addi x20, x27, 0
    .word 0x00048d93  # addi x27, x9, 0
    .word 0x00259293  # slli x5, x11, 2
    .word 0x00229493  # slli x9, x5, 2
    .word 0x002484b3  # add x9, x9, x2
    .word 0x0804a483  # lw x9, 128(x9)
    .word 0x009d8db3  # add x27, x27, x9
    .word 0x009db4b3  # sltu x9, x27, x9
    .word 0x015d8db3  # add x27, x27, x21
    .word 0x015db333  # sltu x6, x27, x21
    .word 0x006484b3  # add x9, x9, x6
    .word 0x000d8a93  # addi x21, x27, 0
    .word 0x00048d93  # addi x27, x9, 0
    .word 0x01bd02b3  # add x5, x26, x27
    .word 0x0c812303  # lw x6, 200(x2)
    .word 0x00628d33  # add x26, x5, x6
    .word 0x00090b13  # addi x22, x18, 0
    .word 0x00098b93  # addi x23, x19, 0
    .word 0x000a0c13  # addi x24, x20, 0
    .word 0x000a8c93  # addi x25, x21, 0
    .word 0x0c412303  # lw x6, 196(x2)
    .word 0x02690db3  # mul x27, x18, x6
    .word 0x01bdb4b3  # sltu x9, x27, x27
    .word 0x0c412303  # lw x6, 196(x2)
    .word 0x02693933  # mulhu x18, x18, x6
    .word 0x012484b3  # add x9, x9, x18
    .word 0x02e98933  # mul x18, x19, x14
    .word 0x012d8db3  # add x27, x27, x18
    .word 0x012db333  # sltu x6, x27, x18
    .word 0x006484b3  # add x9, x9, x6
    .word 0x02e9b933  # mulhu x18, x19, x14
    .word 0x012484b3  # add x9, x9, x18
    .word 0x02da0933  # mul x18, x20, x13
    .word 0x012d8db3  # add x27, x27, x18
    .word 0x012db333  # sltu x6, x27, x18
    .word 0x006484b3  # add x9, x9, x6
    .word 0x02da3933  # mulhu x18, x20, x13
    .word 0x012484b3  # add x9, x9, x18
    .word 0x0cc12303  # lw x6, 204(x2)
    .word 0x026a8933  # mul x18, x21, x6
    .word 0x012d8db3  # add x27, x27, x18
    .word 0x012db333  # sltu x6, x27, x18
    .word 0x006484b3  # add x9, x9, x6
    .word 0x0cc12303  # lw x6, 204(x2)
    .word 0x026ab933  # mulhu x18, x21, x6
    .word 0x012484b3  # add x9, x9, x18
    .word 0x00000313  # addi x6, x0, 0
    .word 0x026d0933  # mul x18, x26, x6
    .word 0x012d8db3  # add x27, x27, x18
    .word 0x012db333  # sltu x6, x27, x18
    .word 0x006484b3  # add x9, x9, x6
    .word 0x000d8913  # addi x18, x27, 0
    .word 0x00048d93  # addi x27, x9, 0
    .word 0x030b04b3  # mul x9, x22, x16
    .word 0x009d8db3  # add x27, x27, x9
    .word 0x009db4b3  # sltu x9, x27, x9
    .word 0x030b39b3  # mulhu x19, x22, x16
    .word 0x013484b3  # add x9, x9, x19
    .word 0x02fb89b3  # mul x19, x23, x15
    .word 0x013d8db3  # add x27, x27, x19
    .word 0x013db333  # sltu x6, x27, x19
    .word 0x006484b3  # add x9, x9, x6
    .word 0x02fbb9b3  # mulhu x19, x23, x15
    .word 0x013484b3  # add x9, x9, x19
    .word 0x02ec09b3  # mul x19, x24, x14
    .word 0x013d8db3  # add x27, x27, x19
    .word 0x013db333  # sltu x6, x27, x19
    .word 0x006484b3  # add x9, x9, x6
    .word 0x02ec39b3  # mulhu x19, x24, x14
    .word 0x013484b3  # add x9, x9, x19
    .word 0x02dc89b3  # mul x19, x25, x13
    .word 0x013d8db3  # add x27, x27, x19
    .word 0x013db333  # sltu x6, x27, x19
    .word 0x006484b3  # add x9, x9, x6
    .word 0x02dcb9b3  # mulhu x19, x25, x13
    .word 0x013484b3  # add x9, x9, x19
    .word 0x0cc12303  # lw x6, 204(x2)
    .word 0x026d09b3  # mul x19, x26, x6
    .word 0x013d8db3  # add x27, x27, x19
    .word 0x013db333  # sltu x6, x27, x19
    .word 0x006484b3  # add x9, x9, x6
    .word 0x000d8993  # addi x19, x27, 0
    .word 0x00048d93  # addi x27, x9, 0
    .word 0x031b04b3  # mul x9, x22, x17
    .word 0x009d8db3  # add x27, x27, x9
    .word 0x009db4b3  # sltu x9, x27, x9
    .word 0x031b3a33  # mulhu x20, x22, x17
    .word 0x014484b3  # add x9, x9, x20
    .word 0x030b8a33  # mul x20, x23, x16
    .word 0x014d8db3  # add x27, x27, x20
    .word 0x014db333  # sltu x6, x27, x20
    .word 0x006484b3  # add x9, x9, x6
    .word 0x030bba33  # mulhu x20, x23, x16
    .word 0x014484b3  # add x9, x9, x20
    .word 0x02fc0a33  # mul x20, x24, x15
    .word 0x014d8db3  # add x27, x27, x20
    .word 0x014db333  # sltu x6, x27, x20
    .word 0x006484b3  # add x9, x9, x6
    .word 0x02fc3a33  # mulhu x20, x24, x15
    .word 0x014484b3  # add x9, x9, x20
    .word 0x02ec8a33  # mul x20, x25, x14
    .word 0x014d8db3  # add x27, x27, x20
    .word 0x014db333  # sltu x6, x27, x20
    .word 0x006484b3  # add x9, x9, x6
    .word 0x02ecba33  # mulhu x20, x25, x14
    .word 0x014484b3  # add x9, x9, x20
    .word 0x02dd0a33  # mul x20, x26, x13
    .word 0x014d8db3  # add x27, x27, x20
    .word 0x014db333  # sltu x6, x27, x20
    .word 0x006484b3  # add x9, x9, x6
    .word 0x000d8a13  # addi x20, x27, 0
    .word 0x00048d93  # addi x27, x9, 0
    .word 0x0d012303  # lw x6, 208(x2)
    .word 0x026b04b3  # mul x9, x22, x6
    .word 0x009d8db3  # add x27, x27, x9
    .word 0x009db4b3  # sltu x9, x27, x9
    .word 0x0d012303  # lw x6, 208(x2)
    .word 0x026b3ab3  # mulhu x21, x22, x6
    .word 0x015484b3  # add x9, x9, x21
    .word 0x031b8ab3  # mul x21, x23, x17
    .word 0x015d8db3  # add x27, x27, x21
    .word 0x015db333  # sltu x6, x27, x21
    .word 0x006484b3  # add x9, x9, x6
    .word 0x031bbab3  # mulhu x21, x23, x17
    .word 0x015484b3  # add x9, x9, x21
    .word 0x030c0ab3  # mul x21, x24, x16
    .word 0x015d8db3  # add x27, x27, x21
    .word 0x015db333  # sltu x6, x27, x21
    .word 0x006484b3  # add x9, x9, x6
    .word 0x030c3ab3  # mulhu x21, x24, x16
    .word 0x015484b3  # add x9, x9, x21
    .word 0x02fc8ab3  # mul x21, x25, x15
    .word 0x015d8db3  # add x27, x27, x21
    .word 0x015db333  # sltu x6, x27, x21
    .word 0x006484b3  # add x9, x9, x6
    .word 0x02fcbab3  # mulhu x21, x25, x15
    .word 0x015484b3  # add x9, x9, x21
    .word 0x02ed0ab3  # mul x21, x26, x14
    .word 0x015d8db3  # add x27, x27, x21
    .word 0x015db333  # sltu x6, x27, x21
    .word 0x006484b3  # add x9, x9, x6
    .word 0x000d8a93  # addi x21, x27, 0
    .word 0x00048d93  # addi x27, x9, 0
    .word 0x02fd0333  # mul x6, x26, x15
    .word 0x006d8b33  # add x22, x27, x6
    .word 0xffcb7293  # andi x5, x22, -4
    .word 0x002b5313  # srli x6, x22, 2
    .word 0x00628db3  # add x27, x5, x6
    .word 0x012d8db3  # add x27, x27, x18
    .word 0x012db4b3  # sltu x9, x27, x18
    .word 0x000d8913  # addi x18, x27, 0
    .word 0x00048d93  # addi x27, x9, 0
    .word 0x013d8db3  # add x27, x27, x19
    .word 0x013db4b3  # sltu x9, x27, x19
    .word 0x000d8993  # addi x19, x27, 0
    .word 0x00048d93  # addi x27, x9, 0
    .word 0x014d8db3  # add x27, x27, x20
    .word 0x014db4b3  # sltu x9, x27, x20
    .word 0x000d8a13  # addi x20, x27, 0
    .word 0x00048d93  # addi x27, x9, 0
    .word 0x015d8db3  # add x27, x27, x21
    .word 0x015db4b3  # sltu x9, x27, x21
    .word 0x000d8a93  # addi x21, x27, 0
    .word 0x00048d93  # addi x27, x9, 0
    .word 0x003b7293  # andi x5, x22, 3
    .word 0x01b28d33  # add x26, x5, x27
    .word 0xffd58293  # addi x5, x11, -3
    .word 0xcc0296e3  # bne x5, x0, -820
    .word 0x00590d93  # addi x27, x18, 5
    .word 0x012db4b3  # sltu x9, x27, x18
    .word 0x000d8713  # addi x14, x27, 0
    .word 0x00048d93  # addi x27, x9, 0
    .word 0x013d8db3  # add x27, x27, x19
    .word 0x013db4b3  # sltu x9, x27, x19
    .word 0x000d8793  # addi x15, x27, 0
    .word 0x00048d93  # addi x27, x9, 0
    .word 0x014d8db3  # add x27, x27, x20
    .word 0x014db4b3  # sltu x9, x27, x20
    .word 0x000d8b13  # addi x22, x27, 0
    .word 0x00048d93  # addi x27, x9, 0
    .word 0x015d8db3  # add x27, x27, x21
    .word 0x015db4b3  # sltu x9, x27, x21
    .word 0x000d8b93  # addi x23, x27, 0
    .word 0x00048d93  # addi x27, x9, 0
    .word 0x01bd02b3  # add x5, x26, x27
    .word 0x0042b293  # sltiu x5, x5, 4
    .word 0x0012b293  # sltiu x5, x5, 1
    .word 0x405003b3  # sub x7, x0, x5
    .word 0x0c712c23  # sw x7, 216(x2)
    .word 0x0d812383  # lw x7, 216(x2)
    .word 0x012742b3  # xor x5, x14, x18
    .word 0x0072f2b3  # and x5, x5, x7
    .word 0x00594933  # xor x18, x18, x5
    .word 0x0d812383  # lw x7, 216(x2)
    .word 0x0137c2b3  # xor x5, x15, x19
    .word 0x0072f2b3  # and x5, x5, x7
    .word 0x0059c9b3  # xor x19, x19, x5
    .word 0x0d812383  # lw x7, 216(x2)
    .word 0x014b42b3  # xor x5, x22, x20
    .word 0x0072f2b3  # and x5, x5, x7
    .word 0x005a4a33  # xor x20, x20, x5
    .word 0x0d812383  # lw x7, 216(x2)
    .word 0x015bc2b3  # xor x5, x23, x21
    .word 0x0072f2b3  # and x5, x5, x7
    .word 0x005acab3  # xor x21, x21, x5
    .word 0x01014603  # lbu x12, 16(x2)
    .word 0x01114283  # lbu x5, 17(x2)
    .word 0x0a512c23  # sw x5, 184(x2)
    .word 0x01214283  # lbu x5, 18(x2)
    .word 0x0a512e23  # sw x5, 188(x2)
    .word 0x01314283  # lbu x5, 19(x2)
    .word 0x0c512023  # sw x5, 192(x2)
    .word 0x0b812303  # lw x6, 184(x2)
    .word 0x00831313  # slli x6, x6, 8
    .word 0x006662b3  # or x5, x12, x6
    .word 0x0bc12303  # lw x6, 188(x2)
    .word 0x01031313  # slli x6, x6, 16
    .word 0x0062e2b3  # or x5, x5, x6
    .word 0x0c012303  # lw x6, 192(x2)
    .word 0x01831313  # slli x6, x6, 24
    .word 0x0062e733  # or x14, x5, x6
    .word 0x012934b3  # sltu x9, x18, x18
    .word 0x00e90db3  # add x27, x18, x14
    .word 0x00edb333  # sltu x6, x27, x14
    .word 0x006484b3  # add x9, x9, x6
    .word 0x07b12223  # sw x27, 100(x2)
    .word 0x00048d93  # addi x27, x9, 0
    .word 0x01414603  # lbu x12, 20(x2)
    .word 0x01514283  # lbu x5, 21(x2)
    .word 0x0a512c23  # sw x5, 184(x2)
    .word 0x01614283  # lbu x5, 22(x2)
    .word 0x0a512e23  # sw x5, 188(x2)
    .word 0x01714283  # lbu x5, 23(x2)
    .word 0x0c512023  # sw x5, 192(x2)
    .word 0x0b812303  # lw x6, 184(x2)
    .word 0x00831313  # slli x6, x6, 8
    .word 0x006662b3  # or x5, x12, x6
    .word 0x0bc12303  # lw x6, 188(x2)
    .word 0x01031313  # slli x6, x6, 16
    .word 0x0062e2b3  # or x5, x5, x6
    .word 0x0c012303  # lw x6, 192(x2)
    .word 0x01831313  # slli x6, x6, 24
    .word 0x0062e933  # or x18, x5, x6
    .word 0x013d8db3  # add x27, x27, x19
    .word 0x013db4b3  # sltu x9, x27, x19
    .word 0x012d8db3  # add x27, x27, x18
    .word 0x012db333  # sltu x6, x27, x18
    .word 0x006484b3  # add x9, x9, x6
    .word 0x07b12423  # sw x27, 104(x2)
    .word 0x00048d93  # addi x27, x9, 0
    .word 0x01814603  # lbu x12, 24(x2)
    .word 0x01914283  # lbu x5, 25(x2)
    .word 0x0a512c23  # sw x5, 184(x2)
    .word 0x01a14283  # lbu x5, 26(x2)
    .word 0x0a512e23  # sw x5, 188(x2)
    .word 0x01b14283  # lbu x5, 27(x2)
    .word 0x0c512023  # sw x5, 192(x2)
    .word 0x0b812303  # lw x6, 184(x2)
    .word 0x00831313  # slli x6, x6, 8
    .word 0x006662b3  # or x5, x12, x6
    .word 0x0bc12303  # lw x6, 188(x2)
    .word 0x01031313  # slli x6, x6, 16
    .word 0x0062e2b3  # or x5, x5, x6
    .word 0x0c012303  # lw x6, 192(x2)
    .word 0x01831313  # slli x6, x6, 24
    .word 0x0062e933  # or x18, x5, x6
    .word 0x014d8db3  # add x27, x27, x20
    .word 0x014db4b3  # sltu x9, x27, x20
    .word 0x012d8db3  # add x27, x27, x18
    .word 0x012db333  # sltu x6, x27, x18
    .word 0x006484b3  # add x9, x9, x6
    .word 0x07b12623  # sw x27, 108(x2)
    .word 0x00048d93  # addi x27, x9, 0
    .word 0x01c14603  # lbu x12, 28(x2)
    .word 0x01d14283  # lbu x5, 29(x2)
    .word 0x0a512c23  # sw x5, 184(x2)
    .word 0x01e14283  # lbu x5, 30(x2)
    .word 0x0a512e23  # sw x5, 188(x2)
    .word 0x01f14283  # lbu x5, 31(x2)
    .word 0x0c512023  # sw x5, 192(x2)
    .word 0x0b812303  # lw x6, 184(x2)
    .word 0x00831313  # slli x6, x6, 8
    .word 0x006662b3  # or x5, x12, x6
    .word 0x0bc12303  # lw x6, 188(x2)
    .word 0x01031313  # slli x6, x6, 16
    .word 0x0062e2b3  # or x5, x5, x6
    .word 0x0c012303  # lw x6, 192(x2)
    .word 0x01831313  # slli x6, x6, 24
    .word 0x0062e4b3  # or x9, x5, x6
    .word 0x015d8db3  # add x27, x27, x21
    .word 0x009d8db3  # add x27, x27, x9
    .word 0x07b12823  # sw x27, 112(x2)
    # the result
    .word 0x00000513  # addi x10, x0, 0
    # parameter 3: the array, back
    .word 0x06410293  # addi x5, x2, 100
    .word 0x12c12303  # lw x6, 300(x2)
    .word 0x01028393  # addi x7, x5, 16
    .word 0x0002ce03  # lbu x28, 0(x5)
    .word 0x01c30023  # sb x28, 0(x6)
    .word 0x00128293  # addi x5, x5, 1
    .word 0x00130313  # addi x6, x6, 1
    .word 0xfe7298e3  # bne x5, x7, -16
    # above the frame
    .word 0x0f010293  # addi x5, x2, 240
    # the caller's registers
    .word 0x0002a483  # lw x9, 0(x5)
    .cfi_restore 9
    .word 0x0042a903  # lw x18, 4(x5)
    .cfi_restore 18
    .word 0x0082a983  # lw x19, 8(x5)
    .cfi_restore 19
    .word 0x00c2aa03  # lw x20, 12(x5)
    .cfi_restore 20
    .word 0x0102aa83  # lw x21, 16(x5)
    .cfi_restore 21
    .word 0x0142ab03  # lw x22, 20(x5)
    .cfi_restore 22
    .word 0x0182ab83  # lw x23, 24(x5)
    .cfi_restore 23
    .word 0x01c2ac03  # lw x24, 28(x5)
    .cfi_restore 24
    .word 0x0202ac83  # lw x25, 32(x5)
    .cfi_restore 25
    .word 0x0242ad03  # lw x26, 36(x5)
    .cfi_restore 26
    .word 0x0282ad83  # lw x27, 40(x5)
    .cfi_restore 27
    # the caller's x2
    .word 0x04028293  # addi x5, x5, 64
    .cfi_def_cfa 5, 0
    # on to the tail that functions share
    jal x0, factc.tail.1
    .cfi_endproc
    .size poly1305, . - poly1305
    .section .text.factc.tail.1, "axG", @progbits, factc.tail.1, comdat
    .p2align 2
    .globl factc.tail.1
    .hidden factc.tail.1
    .type factc.tail.1, @function
factc.tail.1:
    .cfi_startproc
    .cfi_def_cfa 5, 0
    # all the room, wiped upward
    .word 0x00012023  # sw x0, 0(x2)
    .word 0x00012223  # sw x0, 4(x2)
    .word 0x00012423  # sw x0, 8(x2)
    .word 0x00012623  # sw x0, 12(x2)
    .word 0x01010113  # addi x2, x2, 16
    .word 0xfe5116e3  # bne x2, x5, -20
    .cfi_def_cfa 2, 0
    # temporaries, wiped
    .word 0x00000293  # addi x5, x0, 0
    .word 0x00000313  # addi x6, x0, 0
    .word 0x00000393  # addi x7, x0, 0
    .word 0x00000593  # addi x11, x0, 0
    .word 0x00000613  # addi x12, x0, 0
    .word 0x00000693  # addi x13, x0, 0
    .word 0x00000713  # addi x14, x0, 0
    .word 0x00000793  # addi x15, x0, 0
    .word 0x00000813  # addi x16, x0, 0
    .word 0x00000893  # addi x17, x0, 0
    .word 0x00000e13  # addi x28, x0, 0
    .word 0x00000e93  # addi x29, x0, 0
    .word 0x00000f13  # addi x30, x0, 0
    .word 0x00000f93  # addi x31, x0, 0
    # back
    .word 0x00008067  # jalr x0, 0(x1)
    .cfi_endproc
    .size factc.tail.1, . - factc.tail.1
    .option pop
