# aes128_decrypt: made by factc 1.0.0 function; 1009 words and 21 shared, 672 bytes of stack, profile 1
    .option push
    .option norvc
    .option norelax
    .cfi_sections .debug_frame
    .section .text.aes128_decrypt, "ax", @progbits
    .p2align 2
    .globl aes128_decrypt
    .type aes128_decrypt, @function
aes128_decrypt:
    .cfi_startproc
    # room above the frame
    .word 0xfc010113  # addi x2, x2, -64
    .cfi_def_cfa_offset 64
    # the caller's registers
    .word 0x00912023  # sw x9, 0(x2)
    .cfi_offset 9, -64
    .word 0x01212223  # sw x18, 4(x2)
    .cfi_offset 18, -60
    .word 0x01312423  # sw x19, 8(x2)
    .cfi_offset 19, -56
    .word 0x01412623  # sw x20, 12(x2)
    .cfi_offset 20, -52
    .word 0x01512823  # sw x21, 16(x2)
    .cfi_offset 21, -48
    .word 0x01612a23  # sw x22, 20(x2)
    .cfi_offset 22, -44
    .word 0x01712c23  # sw x23, 24(x2)
    .cfi_offset 23, -40
    .word 0x01812e23  # sw x24, 28(x2)
    .cfi_offset 24, -36
    .word 0x03912023  # sw x25, 32(x2)
    .cfi_offset 25, -32
    .word 0x03a12223  # sw x26, 36(x2)
    .cfi_offset 26, -28
    .word 0x03b12423  # sw x27, 40(x2)
    .cfi_offset 27, -24
    # arguments that are needed behind the body
    .word 0x02a12c23  # sw x10, 56(x2)
    .word 0x02b12e23  # sw x11, 60(x2)
    # the frame's base
    .word 0xda010113  # addi x2, x2, -608
    .cfi_def_cfa 2, 672
    # parameter 0: an array
    .word 0x00050293  # addi x5, x10, 0
    .word 0x00010313  # addi x6, x2, 0
    .word 0x01028393  # addi x7, x5, 16
    .word 0x0002ce03  # lbu x28, 0(x5)
    .word 0x01c30023  # sb x28, 0(x6)
    .word 0x00128293  # addi x5, x5, 1
    .word 0x00130313  # addi x6, x6, 1
    .word 0xfe7298e3  # bne x5, x7, -16
    # parameter 1: an array
    .word 0x00058293  # addi x5, x11, 0
    .word 0x01010313  # addi x6, x2, 16
    .word 0x01028393  # addi x7, x5, 16
    .word 0x0002ce03  # lbu x28, 0(x5)
    .word 0x01c30023  # sb x28, 0(x6)
    .word 0x00128293  # addi x5, x5, 1
    .word 0x00130313  # addi x6, x6, 1
    .word 0xfe7298e3  # bne x5, x7, -16
    # the body
    .word 0x555552b7  # lui x5, 0x55555
    .word 0x55528293  # addi x5, x5, 1365
    .word 0x22512a23  # sw x5, 564(x2)
    .word 0x333332b7  # lui x5, 0x33333
    .word 0x33328293  # addi x5, x5, 819
    .word 0x22512c23  # sw x5, 568(x2)
    .word 0x0f0f12b7  # lui x5, 0x0f0f1
    .word 0xf0f28293  # addi x5, x5, -241
    .word 0x22512e23  # sw x5, 572(x2)
    .word 0x00001b37  # lui x22, 0x00001
    .word 0x111b0b13  # addi x22, x22, 273
    .word 0x00002bb7  # lui x23, 0x00002
    .word 0x222b8b93  # addi x23, x23, 546
    .word 0x00004c37  # lui x24, 0x00004
    .word 0x444c0c13  # addi x24, x24, 1092
    .word 0x00009cb7  # lui x25, 0x00009
    .word 0x888c8c93  # addi x25, x25, -1912
    .word 0x00010d37  # lui x26, 0x00010
    .word 0xfffd0d13  # addi x26, x26, -1
    .word 0x00003db7  # lui x27, 0x00003
    .word 0x333d8d93  # addi x27, x27, 819
    .word 0x02012023  # sw x0, 32(x2)
    .word 0x02012223  # sw x0, 36(x2)
    .word 0x02012423  # sw x0, 40(x2)
    .word 0x02012623  # sw x0, 44(x2)
    .word 0x02012823  # sw x0, 48(x2)
    .word 0x02012a23  # sw x0, 52(x2)
    .word 0x02012c23  # sw x0, 56(x2)
    .word 0x02012e23  # sw x0, 60(x2)
    .word 0x04012023  # sw x0, 64(x2)
    .word 0x04012223  # sw x0, 68(x2)
    .word 0x04012423  # sw x0, 72(x2)
    .word 0x04012623  # sw x0, 76(x2)
    .word 0x04012823  # sw x0, 80(x2)
    .word 0x04012a23  # sw x0, 84(x2)
    .word 0x04012c23  # sw x0, 88(x2)
    .word 0x04012e23  # sw x0, 92(x2)
    .word 0x06012023  # sw x0, 96(x2)
    .word 0x06012223  # sw x0, 100(x2)
    .word 0x06012423  # sw x0, 104(x2)
    .word 0x06012623  # sw x0, 108(x2)
    .word 0x06012823  # sw x0, 112(x2)
    .word 0x06012a23  # sw x0, 116(x2)
    .word 0x06012c23  # sw x0, 120(x2)
    .word 0x06012e23  # sw x0, 124(x2)
    .word 0x08000313  # addi x6, x0, 128
    .word 0x00230333  # add x6, x6, x2
    .word 0x16000393  # addi x7, x0, 352
    .word 0x006383b3  # add x7, x7, x6
    .word 0x406382b3  # sub x5, x7, x6
    .word 0x00029463  # bne x5, x0, 8
    .word 0x0100006f  # jal x0, 16
    .word 0x00032023  # sw x0, 0(x6)
    .word 0x00430313  # addi x6, x6, 4
    .word 0xfedff06f  # jal x0, -20
    .word 0x00100293  # addi x5, x0, 1
    .word 0x1e512023  # sw x5, 480(x2)
    .word 0xfff00513  # addi x10, x0, -1
    .word 0x00150513  # addi x10, x10, 1
    .word 0x00251493  # slli x9, x10, 2
    .word 0x002484b3  # add x9, x9, x2
    .word 0x002502b3  # add x5, x10, x2
    .word 0x0102c283  # lbu x5, 16(x5)
    .word 0x00250333  # add x6, x10, x2
    .word 0x01834303  # lbu x6, 24(x6)
    .word 0x00831313  # slli x6, x6, 8
    .word 0x0062e5b3  # or x11, x5, x6
    .word 0x002502b3  # add x5, x10, x2
    .word 0x0002c283  # lbu x5, 0(x5)
    .word 0x01029293  # slli x5, x5, 16
    .word 0x00250333  # add x6, x10, x2
    .word 0x00834303  # lbu x6, 8(x6)
    .word 0x01831313  # slli x6, x6, 24
    .word 0x0062e8b3  # or x17, x5, x6
    .word 0x0115e2b3  # or x5, x11, x17
    .word 0x0454a023  # sw x5, 64(x9)
    .word 0xff950293  # addi x5, x10, -7
    .word 0xfa029ae3  # bne x5, x0, -76
    .word 0x04012283  # lw x5, 64(x2)
    .word 0x0012d293  # srli x5, x5, 1
    .word 0x04412303  # lw x6, 68(x2)
    .word 0x0062c2b3  # xor x5, x5, x6
    .word 0x23412303  # lw x6, 564(x2)
    .word 0x0062f5b3  # and x11, x5, x6
    .word 0x04412283  # lw x5, 68(x2)
    .word 0x00b2c2b3  # xor x5, x5, x11
    .word 0x04512223  # sw x5, 68(x2)
    .word 0x04012283  # lw x5, 64(x2)
    .word 0x00159313  # slli x6, x11, 1
    .word 0x0062c5b3  # xor x11, x5, x6
    .word 0x04b12023  # sw x11, 64(x2)
    .word 0x04812283  # lw x5, 72(x2)
    .word 0x0012d293  # srli x5, x5, 1
    .word 0x04c12303  # lw x6, 76(x2)
    .word 0x0062c2b3  # xor x5, x5, x6
    .word 0x23412303  # lw x6, 564(x2)
    .word 0x0062f5b3  # and x11, x5, x6
    .word 0x04c12283  # lw x5, 76(x2)
    .word 0x00b2c2b3  # xor x5, x5, x11
    .word 0x04512623  # sw x5, 76(x2)
    .word 0x04812283  # lw x5, 72(x2)
    .word 0x00159313  # slli x6, x11, 1
    .word 0x0062c5b3  # xor x11, x5, x6
    .word 0x04b12423  # sw x11, 72(x2)
    .word 0x05012283  # lw x5, 80(x2)
    .word 0x0012d293  # srli x5, x5, 1
    .word 0x05412303  # lw x6, 84(x2)
    .word 0x0062c2b3  # xor x5, x5, x6
    .word 0x23412303  # lw x6, 564(x2)
    .word 0x0062f5b3  # and x11, x5, x6
    .word 0x05412283  # lw x5, 84(x2)
    .word 0x00b2c2b3  # xor x5, x5, x11
    .word 0x04512a23  # sw x5, 84(x2)
    .word 0x05012283  # lw x5, 80(x2)
    .word 0x00159313  # slli x6, x11, 1
    .word 0x0062c5b3  # xor x11, x5, x6
    .word 0x04b12823  # sw x11, 80(x2)
    .word 0x05812283  # lw x5, 88(x2)
    .word 0x0012d293  # srli x5, x5, 1
    .word 0x05c12303  # lw x6, 92(x2)
    .word 0x0062c2b3  # xor x5, x5, x6
    .word 0x23412303  # lw x6, 564(x2)
    .word 0x0062f5b3  # and x11, x5, x6
    .word 0x05c12283  # lw x5, 92(x2)
    .word 0x00b2c2b3  # xor x5, x5, x11
    .word 0x04512e23  # sw x5, 92(x2)
    .word 0x05812283  # lw x5, 88(x2)
    .word 0x00159313  # slli x6, x11, 1
    .word 0x0062c5b3  # xor x11, x5, x6
    .word 0x04b12c23  # sw x11, 88(x2)
    .word 0x04012283  # lw x5, 64(x2)
    .word 0x0022d293  # srli x5, x5, 2
    .word 0x04812303  # lw x6, 72(x2)
    .word 0x0062c2b3  # xor x5, x5, x6
    .word 0x23812303  # lw x6, 568(x2)
    .word 0x0062f5b3  # and x11, x5, x6
    .word 0x04812283  # lw x5, 72(x2)
    .word 0x00b2c2b3  # xor x5, x5, x11
    .word 0x04512423  # sw x5, 72(x2)
    .word 0x04012283  # lw x5, 64(x2)
    .word 0x00259313  # slli x6, x11, 2
    .word 0x0062c5b3  # xor x11, x5, x6
    .word 0x04b12023  # sw x11, 64(x2)
    .word 0x04412283  # lw x5, 68(x2)
    .word 0x0022d293  # srli x5, x5, 2
    .word 0x04c12303  # lw x6, 76(x2)
    .word 0x0062c2b3  # xor x5, x5, x6
    .word 0x23812303  # lw x6, 568(x2)
    .word 0x0062f5b3  # and x11, x5, x6
    .word 0x04c12283  # lw x5, 76(x2)
    .word 0x00b2c2b3  # xor x5, x5, x11
    .word 0x04512623  # sw x5, 76(x2)
    .word 0x04412283  # lw x5, 68(x2)
    .word 0x00259313  # slli x6, x11, 2
    .word 0x0062c5b3  # xor x11, x5, x6
    .word 0x04b12223  # sw x11, 68(x2)
    .word 0x05012283  # lw x5, 80(x2)
    .word 0x0022d293  # srli x5, x5, 2
    .word 0x05812303  # lw x6, 88(x2)
    .word 0x0062c2b3  # xor x5, x5, x6
    .word 0x23812303  # lw x6, 568(x2)
    .word 0x0062f5b3  # and x11, x5, x6
    .word 0x05812283  # lw x5, 88(x2)
    .word 0x00b2c2b3  # xor x5, x5, x11
    .word 0x04512c23  # sw x5, 88(x2)
    .word 0x05012283  # lw x5, 80(x2)
    .word 0x00259313  # slli x6, x11, 2
    .word 0x0062c5b3  # xor x11, x5, x6
    .word 0x04b12823  # sw x11, 80(x2)
    .word 0x05412283  # lw x5, 84(x2)
    .word 0x0022d293  # srli x5, x5, 2
    .word 0x05c12303  # lw x6, 92(x2)
    .word 0x0062c2b3  # xor x5, x5, x6
    .word 0x23812303  # lw x6, 568(x2)
    .word 0x0062f5b3  # and x11, x5, x6
    .word 0x05c12283  # lw x5, 92(x2)
    .word 0x00b2c2b3  # xor x5, x5, x11
    .word 0x04512e23  # sw x5, 92(x2)
    .word 0x05412283  # lw x5, 84(x2)
    .word 0x00259313  # slli x6, x11, 2
    .word 0x0062c5b3  # xor x11, x5, x6
    .word 0x04b12a23  # sw x11, 84(x2)
    .word 0x04012283  # lw x5, 64(x2)
    .word 0x0042d293  # srli x5, x5, 4
    .word 0x05012303  # lw x6, 80(x2)
    .word 0x0062c2b3  # xor x5, x5, x6
    .word 0x23c12303  # lw x6, 572(x2)
    .word 0x0062f5b3  # and x11, x5, x6
    .word 0x05012283  # lw x5, 80(x2)
    .word 0x00b2c2b3  # xor x5, x5, x11
    .word 0x04512823  # sw x5, 80(x2)
    .word 0x04012283  # lw x5, 64(x2)
    .word 0x00459313  # slli x6, x11, 4
    .word 0x0062c5b3  # xor x11, x5, x6
    .word 0x04b12023  # sw x11, 64(x2)
    .word 0x04412283  # lw x5, 68(x2)
    .word 0x0042d293  # srli x5, x5, 4
    .word 0x05412303  # lw x6, 84(x2)
    .word 0x0062c2b3  # xor x5, x5, x6
    .word 0x23c12303  # lw x6, 572(x2)
    .word 0x0062f5b3  # and x11, x5, x6
    .word 0x05412283  # lw x5, 84(x2)
    .word 0x00b2c2b3  # xor x5, x5, x11
    .word 0x04512a23  # sw x5, 84(x2)
    .word 0x04412283  # lw x5, 68(x2)
    .word 0x00459313  # slli x6, x11, 4
    .word 0x0062c5b3  # xor x11, x5, x6
    .word 0x04b12223  # sw x11, 68(x2)
    .word 0x04812283  # lw x5, 72(x2)
    .word 0x0042d293  # srli x5, x5, 4
    .word 0x05812303  # lw x6, 88(x2)
    .word 0x0062c2b3  # xor x5, x5, x6
    .word 0x23c12303  # lw x6, 572(x2)
    .word 0x0062f5b3  # and x11, x5, x6
    .word 0x05812283  # lw x5, 88(x2)
    .word 0x00b2c2b3  # xor x5, x5, x11
    .word 0x04512c23  # sw x5, 88(x2)
    .word 0x04812283  # lw x5, 72(x2)
    .word 0x00459313  # slli x6, x11, 4
    .word 0x0062c5b3  # xor x11, x5, x6
    .word 0x04b12423  # sw x11, 72(x2)
    .word 0x04c12283  # lw x5, 76(x2)
    .word 0x0042d293  # srli x5, x5, 4
    .word 0x05c12303  # lw x6, 92(x2)
    .word 0x0062c2b3  # xor x5, x5, x6
    .word 0x23c12303  # lw x6, 572(x2)
    .word 0x0062f5b3  # and x11, x5, x6
    .word 0x05c12283  # lw x5, 92(x2)
    .word 0x00b2c2b3  # xor x5, x5, x11
    .word 0x04512e23  # sw x5, 92(x2)
    .word 0x04c12283  # lw x5, 76(x2)
    .word 0x00459313  # slli x6, x11, 4
    .word 0x0062c5b3  # xor x11, x5, x6
    .word 0x04b12623  # sw x11, 76(x2)
    .word 0xfff00513  # addi x10, x0, -1
    .word 0x00150513  # addi x10, x10, 1
    .word 0x00251493  # slli x9, x10, 2
    .word 0x002484b3  # add x9, x9, x2
    .word 0x0404a283  # lw x5, 64(x9)
    .word 0x0102d593  # srli x11, x5, 16
    .word 0x08b4a023  # sw x11, 128(x9)
    .word 0x02b4a023  # sw x11, 32(x9)
    .word 0xff950293  # addi x5, x10, -7
    .word 0xfe0290e3  # bne x5, x0, -32
    .word 0x24012223  # sw x0, 580(x2)
    .word 0x01400293  # addi x5, x0, 20
    .word 0x24512423  # sw x5, 584(x2)
    .word 0x24412303  # lw x6, 580(x2)
    .word 0x24812283  # lw x5, 584(x2)
    .word 0x005332b3  # sltu x5, x6, x5
    .word 0x00029463  # bne x5, x0, 8
    .word 0x0610006f  # jal x0, 2144
    .word 0x1e612223  # sw x6, 484(x2)
    .word 0x00130313  # addi x6, x6, 1
    .word 0x24612223  # sw x6, 580(x2)
    .word 0x1e412283  # lw x5, 484(x2)
    .word 0x00a00313  # addi x6, x0, 10
    .word 0x06629663  # bne x5, x6, 108
    .word 0xfff00513  # addi x10, x0, -1
    .word 0x00150513  # addi x10, x10, 1
    .word 0x00251493  # slli x9, x10, 2
    .word 0x002484b3  # add x9, x9, x2
    .word 0x05050293  # addi x5, x10, 80
    .word 0x00229293  # slli x5, x5, 2
    .word 0x002282b3  # add x5, x5, x2
    .word 0x0802a283  # lw x5, 128(x5)
    .word 0x0404a303  # lw x6, 64(x9)
    .word 0x0062c5b3  # xor x11, x5, x6
    .word 0x01059593  # slli x11, x11, 16
    .word 0x0105d313  # srli x6, x11, 16
    .word 0x0065e5b3  # or x11, x11, x6
    .word 0x0165f2b3  # and x5, x11, x22
    .word 0x00c5d313  # srli x6, x11, 12
    .word 0x01737333  # and x6, x6, x23
    .word 0x0062e2b3  # or x5, x5, x6
    .word 0x0085d313  # srli x6, x11, 8
    .word 0x01837333  # and x6, x6, x24
    .word 0x0062e8b3  # or x17, x5, x6
    .word 0x0045d293  # srli x5, x11, 4
    .word 0x0192f5b3  # and x11, x5, x25
    .word 0x00b8e2b3  # or x5, x17, x11
    .word 0x0254a023  # sw x5, 32(x9)
    .word 0xff950293  # addi x5, x10, -7
    .word 0xfa0290e3  # bne x5, x0, -96
    .word 0x1e412283  # lw x5, 484(x2)
    .word 0x00900313  # addi x6, x0, 9
    .word 0x08537663  # bgeu x6, x5, 140
    .word 0x02012583  # lw x11, 32(x2)
    .word 0x02412883  # lw x17, 36(x2)
    .word 0x02812a03  # lw x20, 40(x2)
    .word 0x02c12983  # lw x19, 44(x2)
    .word 0x03012a83  # lw x21, 48(x2)
    .word 0x03412903  # lw x18, 52(x2)
    .word 0x03812603  # lw x12, 56(x2)
    .word 0x03c12683  # lw x13, 60(x2)
    .word 0x0158c2b3  # xor x5, x17, x21
    .word 0x00c2c2b3  # xor x5, x5, x12
    .word 0x02512e23  # sw x5, 60(x2)
    .word 0x0135c2b3  # xor x5, x11, x19
    .word 0x0122c2b3  # xor x5, x5, x18
    .word 0x02512c23  # sw x5, 56(x2)
    .word 0x0146c2b3  # xor x5, x13, x20
    .word 0x0152c2b3  # xor x5, x5, x21
    .word 0x02512a23  # sw x5, 52(x2)
    .word 0x011642b3  # xor x5, x12, x17
    .word 0x0132c2b3  # xor x5, x5, x19
    .word 0x02512823  # sw x5, 48(x2)
    .word 0x00b942b3  # xor x5, x18, x11
    .word 0x0142c2b3  # xor x5, x5, x20
    .word 0x02512623  # sw x5, 44(x2)
    .word 0x00dac2b3  # xor x5, x21, x13
    .word 0x0112c2b3  # xor x5, x5, x17
    .word 0xfff2c293  # xori x5, x5, -1
    .word 0x02512423  # sw x5, 40(x2)
    .word 0x00c9c2b3  # xor x5, x19, x12
    .word 0x00b2c2b3  # xor x5, x5, x11
    .word 0x02512223  # sw x5, 36(x2)
    .word 0x012a42b3  # xor x5, x20, x18
    .word 0x00d2c2b3  # xor x5, x5, x13
    .word 0xfff2c293  # xori x5, x5, -1
    .word 0x02512023  # sw x5, 32(x2)
    .word 0x03c12583  # lw x11, 60(x2)
    .word 0x03812283  # lw x5, 56(x2)
    .word 0x20512423  # sw x5, 520(x2)
    .word 0x03412a03  # lw x20, 52(x2)
    .word 0x03012983  # lw x19, 48(x2)
    .word 0x02c12703  # lw x14, 44(x2)
    .word 0x02812a83  # lw x21, 40(x2)
    .word 0x02412683  # lw x13, 36(x2)
    .word 0x02012883  # lw x17, 32(x2)
    .word 0x0159c2b3  # xor x5, x19, x21
    .word 0x1e512423  # sw x5, 488(x2)
    .word 0x00d5c933  # xor x18, x11, x13
    .word 0x0135c2b3  # xor x5, x11, x19
    .word 0x1e512623  # sw x5, 492(x2)
    .word 0x0155c633  # xor x12, x11, x21
    .word 0x20812283  # lw x5, 520(x2)
    .word 0x0142c2b3  # xor x5, x5, x20
    .word 0x20512a23  # sw x5, 532(x2)
    .word 0x21412283  # lw x5, 532(x2)
    .word 0x0112ca33  # xor x20, x5, x17
    .word 0x013a42b3  # xor x5, x20, x19
    .word 0x1e512823  # sw x5, 496(x2)
    .word 0x1e812303  # lw x6, 488(x2)
    .word 0x006942b3  # xor x5, x18, x6
    .word 0x1e512a23  # sw x5, 500(x2)
    .word 0x00ba42b3  # xor x5, x20, x11
    .word 0x1e512c23  # sw x5, 504(x2)
    .word 0x00da42b3  # xor x5, x20, x13
    .word 0x1e512e23  # sw x5, 508(x2)
    .word 0x1fc12283  # lw x5, 508(x2)
    .word 0x00c2c2b3  # xor x5, x5, x12
    .word 0x20512023  # sw x5, 512(x2)
    .word 0x1f412303  # lw x6, 500(x2)
    .word 0x006749b3  # xor x19, x14, x6
    .word 0x0159c6b3  # xor x13, x19, x21
    .word 0x20812303  # lw x6, 520(x2)
    .word 0x0069cab3  # xor x21, x19, x6
    .word 0x0116c2b3  # xor x5, x13, x17
    .word 0x20512223  # sw x5, 516(x2)
    .word 0x21412303  # lw x6, 532(x2)
    .word 0x0066c2b3  # xor x5, x13, x6
    .word 0x20512423  # sw x5, 520(x2)
    .word 0x1ec12303  # lw x6, 492(x2)
    .word 0x006ac9b3  # xor x19, x21, x6
    .word 0x0138c2b3  # xor x5, x17, x19
    .word 0x20512623  # sw x5, 524(x2)
    .word 0x20812283  # lw x5, 520(x2)
    .word 0x0132c2b3  # xor x5, x5, x19
    .word 0x20512823  # sw x5, 528(x2)
    .word 0x20812283  # lw x5, 520(x2)
    .word 0x00c2c7b3  # xor x15, x5, x12
    .word 0x21412283  # lw x5, 532(x2)
    .word 0x0132c2b3  # xor x5, x5, x19
    .word 0x20512a23  # sw x5, 532(x2)
    .word 0x21412303  # lw x6, 532(x2)
    .word 0x006942b3  # xor x5, x18, x6
    .word 0x22512223  # sw x5, 548(x2)
    .word 0x21412303  # lw x6, 532(x2)
    .word 0x0065c2b3  # xor x5, x11, x6
    .word 0x22512423  # sw x5, 552(x2)
    .word 0x1f412283  # lw x5, 500(x2)
    .word 0x00d2f5b3  # and x11, x5, x13
    .word 0x20012283  # lw x5, 512(x2)
    .word 0x20412303  # lw x6, 516(x2)
    .word 0x0062f733  # and x14, x5, x6
    .word 0x00b742b3  # xor x5, x14, x11
    .word 0x22512023  # sw x5, 544(x2)
    .word 0x1f012283  # lw x5, 496(x2)
    .word 0x0112f733  # and x14, x5, x17
    .word 0x00b742b3  # xor x5, x14, x11
    .word 0x22512623  # sw x5, 556(x2)
    .word 0x21412303  # lw x6, 532(x2)
    .word 0x006975b3  # and x11, x18, x6
    .word 0x1fc12283  # lw x5, 508(x2)
    .word 0x0142f733  # and x14, x5, x20
    .word 0x00b742b3  # xor x5, x14, x11
    .word 0x22512823  # sw x5, 560(x2)
    .word 0x1f812283  # lw x5, 504(x2)
    .word 0x20c12303  # lw x6, 524(x2)
    .word 0x0062f733  # and x14, x5, x6
    .word 0x00b742b3  # xor x5, x14, x11
    .word 0x20512c23  # sw x5, 536(x2)
    .word 0x1ec12283  # lw x5, 492(x2)
    .word 0x0132f5b3  # and x11, x5, x19
    .word 0x1e812283  # lw x5, 488(x2)
    .word 0x21012303  # lw x6, 528(x2)
    .word 0x0062f733  # and x14, x5, x6
    .word 0x00b74733  # xor x14, x14, x11
    .word 0x20812303  # lw x6, 520(x2)
    .word 0x006672b3  # and x5, x12, x6
    .word 0x20512e23  # sw x5, 540(x2)
    .word 0x21c12283  # lw x5, 540(x2)
    .word 0x00b2c5b3  # xor x11, x5, x11
    .word 0x22012283  # lw x5, 544(x2)
    .word 0x00e2c2b3  # xor x5, x5, x14
    .word 0x22512023  # sw x5, 544(x2)
    .word 0x22c12283  # lw x5, 556(x2)
    .word 0x00b2c2b3  # xor x5, x5, x11
    .word 0x22512623  # sw x5, 556(x2)
    .word 0x23012283  # lw x5, 560(x2)
    .word 0x00e2c733  # xor x14, x5, x14
    .word 0x21812283  # lw x5, 536(x2)
    .word 0x00b2c2b3  # xor x5, x5, x11
    .word 0x22512823  # sw x5, 560(x2)
    .word 0x22012283  # lw x5, 544(x2)
    .word 0x0152cab3  # xor x21, x5, x21
    .word 0x22c12283  # lw x5, 556(x2)
    .word 0x00f2c5b3  # xor x11, x5, x15
    .word 0x22412303  # lw x6, 548(x2)
    .word 0x006747b3  # xor x15, x14, x6
    .word 0x23012283  # lw x5, 560(x2)
    .word 0x22812303  # lw x6, 552(x2)
    .word 0x0062c733  # xor x14, x5, x6
    .word 0x00bac2b3  # xor x5, x21, x11
    .word 0x22512423  # sw x5, 552(x2)
    .word 0x00faf2b3  # and x5, x21, x15
    .word 0x22512023  # sw x5, 544(x2)
    .word 0x22012303  # lw x6, 544(x2)
    .word 0x006742b3  # xor x5, x14, x6
    .word 0x22512223  # sw x5, 548(x2)
    .word 0x22812283  # lw x5, 552(x2)
    .word 0x22412303  # lw x6, 548(x2)
    .word 0x0062fab3  # and x21, x5, x6
    .word 0x00bacab3  # xor x21, x21, x11
    .word 0x00e7c2b3  # xor x5, x15, x14
    .word 0x22512623  # sw x5, 556(x2)
    .word 0x22012303  # lw x6, 544(x2)
    .word 0x0065c5b3  # xor x11, x11, x6
    .word 0x22c12303  # lw x6, 556(x2)
    .word 0x0065f5b3  # and x11, x11, x6
    .word 0x00e5c5b3  # xor x11, x11, x14
    .word 0x00b7c2b3  # xor x5, x15, x11
    .word 0x22512023  # sw x5, 544(x2)
    .word 0x22412283  # lw x5, 548(x2)
    .word 0x00b2c7b3  # xor x15, x5, x11
    .word 0x00f777b3  # and x15, x14, x15
    .word 0x22012303  # lw x6, 544(x2)
    .word 0x0067c733  # xor x14, x15, x6
    .word 0x22412283  # lw x5, 548(x2)
    .word 0x00f2c7b3  # xor x15, x5, x15
    .word 0x00faf7b3  # and x15, x21, x15
    .word 0x22812283  # lw x5, 552(x2)
    .word 0x00f2c7b3  # xor x15, x5, x15
    .word 0x00e7c2b3  # xor x5, x15, x14
    .word 0x22512223  # sw x5, 548(x2)
    .word 0x00bac2b3  # xor x5, x21, x11
    .word 0x22512423  # sw x5, 552(x2)
    .word 0x00fac2b3  # xor x5, x21, x15
    .word 0x22512023  # sw x5, 544(x2)
    .word 0x00e5c2b3  # xor x5, x11, x14
    .word 0x22512623  # sw x5, 556(x2)
    .word 0x22812283  # lw x5, 552(x2)
    .word 0x22412303  # lw x6, 548(x2)
    .word 0x0062c2b3  # xor x5, x5, x6
    .word 0x22512823  # sw x5, 560(x2)
    .word 0x22c12283  # lw x5, 556(x2)
    .word 0x00d2f2b3  # and x5, x5, x13
    .word 0x20512c23  # sw x5, 536(x2)
    .word 0x20412303  # lw x6, 516(x2)
    .word 0x006772b3  # and x5, x14, x6
    .word 0x20512223  # sw x5, 516(x2)
    .word 0x0115f8b3  # and x17, x11, x17
    .word 0x22012283  # lw x5, 544(x2)
    .word 0x21412303  # lw x6, 532(x2)
    .word 0x0062f6b3  # and x13, x5, x6
    .word 0x0147fa33  # and x20, x15, x20
    .word 0x20c12303  # lw x6, 524(x2)
    .word 0x006af2b3  # and x5, x21, x6
    .word 0x20512a23  # sw x5, 532(x2)
    .word 0x22812283  # lw x5, 552(x2)
    .word 0x0132f2b3  # and x5, x5, x19
    .word 0x20512623  # sw x5, 524(x2)
    .word 0x23012283  # lw x5, 560(x2)
    .word 0x21012303  # lw x6, 528(x2)
    .word 0x0062f9b3  # and x19, x5, x6
    .word 0x22412283  # lw x5, 548(x2)
    .word 0x20812303  # lw x6, 520(x2)
    .word 0x0062f2b3  # and x5, x5, x6
    .word 0x20512823  # sw x5, 528(x2)
    .word 0x22c12283  # lw x5, 556(x2)
    .word 0x1f412303  # lw x6, 500(x2)
    .word 0x0062f2b3  # and x5, x5, x6
    .word 0x1e512a23  # sw x5, 500(x2)
    .word 0x20012303  # lw x6, 512(x2)
    .word 0x006772b3  # and x5, x14, x6
    .word 0x20512423  # sw x5, 520(x2)
    .word 0x1f012303  # lw x6, 496(x2)
    .word 0x0065f733  # and x14, x11, x6
    .word 0x22012283  # lw x5, 544(x2)
    .word 0x0122f5b3  # and x11, x5, x18
    .word 0x1fc12303  # lw x6, 508(x2)
    .word 0x0067f7b3  # and x15, x15, x6
    .word 0x1f812303  # lw x6, 504(x2)
    .word 0x006af2b3  # and x5, x21, x6
    .word 0x1e512e23  # sw x5, 508(x2)
    .word 0x22812283  # lw x5, 552(x2)
    .word 0x1ec12303  # lw x6, 492(x2)
    .word 0x0062f933  # and x18, x5, x6
    .word 0x23012283  # lw x5, 560(x2)
    .word 0x1e812303  # lw x6, 488(x2)
    .word 0x0062fab3  # and x21, x5, x6
    .word 0x22412283  # lw x5, 548(x2)
    .word 0x00c2f2b3  # and x5, x5, x12
    .word 0x1e512423  # sw x5, 488(x2)
    .word 0x01594933  # xor x18, x18, x21
    .word 0x20812283  # lw x5, 520(x2)
    .word 0x00e2c733  # xor x14, x5, x14
    .word 0x21412283  # lw x5, 532(x2)
    .word 0x00f2c633  # xor x12, x5, x15
    .word 0x1f412283  # lw x5, 500(x2)
    .word 0x20812303  # lw x6, 520(x2)
    .word 0x0062c2b3  # xor x5, x5, x6
    .word 0x20512423  # sw x5, 520(x2)
    .word 0x00b8c7b3  # xor x15, x17, x11
    .word 0x21412303  # lw x6, 532(x2)
    .word 0x0068c2b3  # xor x5, x17, x6
    .word 0x20512a23  # sw x5, 532(x2)
    .word 0x21012303  # lw x6, 528(x2)
    .word 0x0069c2b3  # xor x5, x19, x6
    .word 0x1e512623  # sw x5, 492(x2)
    .word 0x21812283  # lw x5, 536(x2)
    .word 0x00d2c8b3  # xor x17, x5, x13
    .word 0x20c12283  # lw x5, 524(x2)
    .word 0x0132c2b3  # xor x5, x5, x19
    .word 0x1e512a23  # sw x5, 500(x2)
    .word 0x1e812303  # lw x6, 488(x2)
    .word 0x006ac2b3  # xor x5, x21, x6
    .word 0x1e512423  # sw x5, 488(x2)
    .word 0x00c5c2b3  # xor x5, x11, x12
    .word 0x22512223  # sw x5, 548(x2)
    .word 0x0117c5b3  # xor x11, x15, x17
    .word 0x012a49b3  # xor x19, x20, x18
    .word 0x1f412303  # lw x6, 500(x2)
    .word 0x0066cab3  # xor x21, x13, x6
    .word 0x00b947b3  # xor x15, x18, x11
    .word 0x1fc12283  # lw x5, 508(x2)
    .word 0x00b2c933  # xor x18, x5, x11
    .word 0x1ec12283  # lw x5, 492(x2)
    .word 0x0132c5b3  # xor x11, x5, x19
    .word 0x20812283  # lw x5, 520(x2)
    .word 0x0132c9b3  # xor x19, x5, x19
    .word 0x015a4a33  # xor x20, x20, x21
    .word 0x00b94933  # xor x18, x18, x11
    .word 0x20412283  # lw x5, 516(x2)
    .word 0x0132c6b3  # xor x13, x5, x19
    .word 0x013ac9b3  # xor x19, x21, x19
    .word 0x22412283  # lw x5, 548(x2)
    .word 0x00b2c2b3  # xor x5, x5, x11
    .word 0xfff2ca93  # xori x21, x5, -1
    .word 0x00f642b3  # xor x5, x12, x15
    .word 0xfff2c613  # xori x12, x5, -1
    .word 0x012a42b3  # xor x5, x20, x18
    .word 0x20512423  # sw x5, 520(x2)
    .word 0x00d8c5b3  # xor x11, x17, x13
    .word 0x21412283  # lw x5, 532(x2)
    .word 0x00d2c8b3  # xor x17, x5, x13
    .word 0x01274933  # xor x18, x14, x18
    .word 0x00ba42b3  # xor x5, x20, x11
    .word 0xfff2ca13  # xori x20, x5, -1
    .word 0x1e812283  # lw x5, 488(x2)
    .word 0x20812303  # lw x6, 520(x2)
    .word 0x0062c2b3  # xor x5, x5, x6
    .word 0xfff2c693  # xori x13, x5, -1
    .word 0x03312e23  # sw x19, 60(x2)
    .word 0x03412c23  # sw x20, 56(x2)
    .word 0x02d12a23  # sw x13, 52(x2)
    .word 0x02b12823  # sw x11, 48(x2)
    .word 0x03112623  # sw x17, 44(x2)
    .word 0x03212423  # sw x18, 40(x2)
    .word 0x03512223  # sw x21, 36(x2)
    .word 0x02c12023  # sw x12, 32(x2)
    .word 0x1e412283  # lw x5, 484(x2)
    .word 0x00a00313  # addi x6, x0, 10
    .word 0x0a62f863  # bgeu x5, x6, 176
    .word 0xfff00513  # addi x10, x0, -1
    .word 0x00150513  # addi x10, x10, 1
    .word 0x00251493  # slli x9, x10, 2
    .word 0x002484b3  # add x9, x9, x2
    .word 0x1e412283  # lw x5, 484(x2)
    .word 0x00329293  # slli x5, x5, 3
    .word 0x00a28833  # add x16, x5, x10
    .word 0x0204a283  # lw x5, 32(x9)
    .word 0x00c2d293  # srli x5, x5, 12
    .word 0x00f2f593  # andi x11, x5, 15
    .word 0x0015d293  # srli x5, x11, 1
    .word 0x00359313  # slli x6, x11, 3
    .word 0x0062e2b3  # or x5, x5, x6
    .word 0x00f2f293  # andi x5, x5, 15
    .word 0x1e012303  # lw x6, 480(x2)
    .word 0x00a35333  # srl x6, x6, x10
    .word 0x00137313  # andi x6, x6, 1
    .word 0x0062c5b3  # xor x11, x5, x6
    .word 0x00281293  # slli x5, x16, 2
    .word 0x002282b3  # add x5, x5, x2
    .word 0x0802a283  # lw x5, 128(x5)
    .word 0x00b2c5b3  # xor x11, x5, x11
    .word 0x00459313  # slli x6, x11, 4
    .word 0x0065c5b3  # xor x11, x11, x6
    .word 0x00859313  # slli x6, x11, 8
    .word 0x0065c2b3  # xor x5, x11, x6
    .word 0x01a2f5b3  # and x11, x5, x26
    .word 0x00281293  # slli x5, x16, 2
    .word 0x002282b3  # add x5, x5, x2
    .word 0x0ab2a023  # sw x11, 160(x5)
    .word 0x02b4a023  # sw x11, 32(x9)
    .word 0xff950293  # addi x5, x10, -7
    .word 0xf80292e3  # bne x5, x0, -124
    .word 0x1e012283  # lw x5, 480(x2)
    .word 0x00129293  # slli x5, x5, 1
    .word 0x1e012303  # lw x6, 480(x2)
    .word 0x08033313  # sltiu x6, x6, 128
    .word 0x11b00393  # addi x7, x0, 283
    .word 0xfff30313  # addi x6, x6, -1
    .word 0x0063f333  # and x6, x7, x6
    .word 0x0062c2b3  # xor x5, x5, x6
    .word 0x1e512023  # sw x5, 480(x2)
    .word 0x2540006f  # jal x0, 596
    .word 0x02012583  # lw x11, 32(x2)
    .word 0x02412883  # lw x17, 36(x2)
    .word 0x02812a03  # lw x20, 40(x2)
    .word 0x02c12983  # lw x19, 44(x2)
    .word 0x03012a83  # lw x21, 48(x2)
    .word 0x03412903  # lw x18, 52(x2)
    .word 0x03812603  # lw x12, 56(x2)
    .word 0x03c12683  # lw x13, 60(x2)
    .word 0x0158c2b3  # xor x5, x17, x21
    .word 0x00c2c2b3  # xor x5, x5, x12
    .word 0x02512e23  # sw x5, 60(x2)
    .word 0x0135c2b3  # xor x5, x11, x19
    .word 0x0122c2b3  # xor x5, x5, x18
    .word 0x02512c23  # sw x5, 56(x2)
    .word 0x0146c2b3  # xor x5, x13, x20
    .word 0x0152c2b3  # xor x5, x5, x21
    .word 0x02512a23  # sw x5, 52(x2)
    .word 0x011642b3  # xor x5, x12, x17
    .word 0x0132c2b3  # xor x5, x5, x19
    .word 0x02512823  # sw x5, 48(x2)
    .word 0x00b942b3  # xor x5, x18, x11
    .word 0x0142c2b3  # xor x5, x5, x20
    .word 0x02512623  # sw x5, 44(x2)
    .word 0x00dac2b3  # xor x5, x21, x13
    .word 0x0112c2b3  # xor x5, x5, x17
    .word 0xfff2c293  # xori x5, x5, -1
    .word 0x02512423  # sw x5, 40(x2)
    .word 0x00c9c2b3  # xor x5, x19, x12
    .word 0x00b2c2b3  # xor x5, x5, x11
    .word 0x02512223  # sw x5, 36(x2)
    .word 0x012a42b3  # xor x5, x20, x18
    .word 0x00d2c2b3  # xor x5, x5, x13
    .word 0xfff2c293  # xori x5, x5, -1
    .word 0x02512023  # sw x5, 32(x2)
    .word 0x01300293  # addi x5, x0, 19
    .word 0x1e412303  # lw x6, 484(x2)
    .word 0x406282b3  # sub x5, x5, x6
    .word 0x00329813  # slli x16, x5, 3
    .word 0xfff00513  # addi x10, x0, -1
    .word 0x00150513  # addi x10, x10, 1
    .word 0x00251493  # slli x9, x10, 2
    .word 0x002484b3  # add x9, x9, x2
    .word 0x0204a283  # lw x5, 32(x9)
    .word 0x00a80333  # add x6, x16, x10
    .word 0x00231313  # slli x6, x6, 2
    .word 0x00230333  # add x6, x6, x2
    .word 0x08032303  # lw x6, 128(x6)
    .word 0x0062c2b3  # xor x5, x5, x6
    .word 0x01a2f5b3  # and x11, x5, x26
    .word 0x01b5f8b3  # and x17, x11, x27
    .word 0x0115c2b3  # xor x5, x11, x17
    .word 0x0022d293  # srli x5, x5, 2
    .word 0x00b2ca33  # xor x20, x5, x11
    .word 0x00289893  # slli x17, x17, 2
    .word 0x011a42b3  # xor x5, x20, x17
    .word 0x0654a023  # sw x5, 96(x9)
    .word 0x02b4a023  # sw x11, 32(x9)
    .word 0xff950293  # addi x5, x10, -7
    .word 0xfa029ae3  # bne x5, x0, -76
    .word 0x1e412283  # lw x5, 484(x2)
    .word 0x01300313  # addi x6, x0, 19
    .word 0x1462fe63  # bgeu x5, x6, 348
    .word 0x07812583  # lw x11, 120(x2)
    .word 0x07c12883  # lw x17, 124(x2)
    .word 0x02012283  # lw x5, 32(x2)
    .word 0x00b2c2b3  # xor x5, x5, x11
    .word 0x02512023  # sw x5, 32(x2)
    .word 0x02412283  # lw x5, 36(x2)
    .word 0x00b2c2b3  # xor x5, x5, x11
    .word 0x0112c2b3  # xor x5, x5, x17
    .word 0x02512223  # sw x5, 36(x2)
    .word 0x02812283  # lw x5, 40(x2)
    .word 0x06012303  # lw x6, 96(x2)
    .word 0x0062c2b3  # xor x5, x5, x6
    .word 0x0112c2b3  # xor x5, x5, x17
    .word 0x02512423  # sw x5, 40(x2)
    .word 0x02c12283  # lw x5, 44(x2)
    .word 0x06412303  # lw x6, 100(x2)
    .word 0x0062c2b3  # xor x5, x5, x6
    .word 0x00b2c2b3  # xor x5, x5, x11
    .word 0x02512623  # sw x5, 44(x2)
    .word 0x03012283  # lw x5, 48(x2)
    .word 0x06812303  # lw x6, 104(x2)
    .word 0x0062c2b3  # xor x5, x5, x6
    .word 0x00b2c2b3  # xor x5, x5, x11
    .word 0x0112c2b3  # xor x5, x5, x17
    .word 0x02512823  # sw x5, 48(x2)
    .word 0x03412283  # lw x5, 52(x2)
    .word 0x06c12303  # lw x6, 108(x2)
    .word 0x0062c2b3  # xor x5, x5, x6
    .word 0x0112c2b3  # xor x5, x5, x17
    .word 0x02512a23  # sw x5, 52(x2)
    .word 0x03812283  # lw x5, 56(x2)
    .word 0x07012303  # lw x6, 112(x2)
    .word 0x0062c2b3  # xor x5, x5, x6
    .word 0x02512c23  # sw x5, 56(x2)
    .word 0x03c12283  # lw x5, 60(x2)
    .word 0x07412303  # lw x6, 116(x2)
    .word 0x0062c5b3  # xor x11, x5, x6
    .word 0x02b12e23  # sw x11, 60(x2)
    .word 0x0165f8b3  # and x17, x11, x22
    .word 0x0115c2b3  # xor x5, x11, x17
    .word 0x0012d293  # srli x5, x5, 1
    .word 0x00389313  # slli x6, x17, 3
    .word 0x0062c2b3  # xor x5, x5, x6
    .word 0x00b2c933  # xor x18, x5, x11
    .word 0x00090993  # addi x19, x18, 0
    .word 0xfff00513  # addi x10, x0, -1
    .word 0x00150513  # addi x10, x10, 1
    .word 0x00251493  # slli x9, x10, 2
    .word 0x002484b3  # add x9, x9, x2
    .word 0x0204a583  # lw x11, 32(x9)
    .word 0x0165f8b3  # and x17, x11, x22
    .word 0x0115c2b3  # xor x5, x11, x17
    .word 0x0012d293  # srli x5, x5, 1
    .word 0x00389313  # slli x6, x17, 3
    .word 0x0062e8b3  # or x17, x5, x6
    .word 0x0115c5b3  # xor x11, x11, x17
    .word 0x01b5fa33  # and x20, x11, x27
    .word 0x01a00313  # addi x6, x0, 26
    .word 0x00a35333  # srl x6, x6, x10
    .word 0x00137313  # andi x6, x6, 1
    .word 0x40600333  # sub x6, x0, x6
    .word 0x00697ab3  # and x21, x18, x6
    .word 0x0145c333  # xor x6, x11, x20
    .word 0x00235313  # srli x6, x6, 2
    .word 0x0068c2b3  # xor x5, x17, x6
    .word 0x002a1313  # slli x6, x20, 2
    .word 0x0062c2b3  # xor x5, x5, x6
    .word 0x0132c2b3  # xor x5, x5, x19
    .word 0x0152c8b3  # xor x17, x5, x21
    .word 0x00058993  # addi x19, x11, 0
    .word 0x01089593  # slli x11, x17, 16
    .word 0x0105d313  # srli x6, x11, 16
    .word 0x0065e5b3  # or x11, x11, x6
    .word 0x0165f2b3  # and x5, x11, x22
    .word 0x00c5d313  # srli x6, x11, 12
    .word 0x01737333  # and x6, x6, x23
    .word 0x0062e2b3  # or x5, x5, x6
    .word 0x0085d313  # srli x6, x11, 8
    .word 0x01837333  # and x6, x6, x24
    .word 0x0062e8b3  # or x17, x5, x6
    .word 0x0045d293  # srli x5, x11, 4
    .word 0x0192f5b3  # and x11, x5, x25
    .word 0x00b8e2b3  # or x5, x17, x11
    .word 0x0254a023  # sw x5, 32(x9)
    .word 0xff950293  # addi x5, x10, -7
    .word 0xf60292e3  # bne x5, x0, -156
    .word 0xf94ff06f  # jal x0, -2156
    .word 0x02012283  # lw x5, 32(x2)
    .word 0x0012d293  # srli x5, x5, 1
    .word 0x02412303  # lw x6, 36(x2)
    .word 0x0062c2b3  # xor x5, x5, x6
    .word 0x23412303  # lw x6, 564(x2)
    .word 0x0062f5b3  # and x11, x5, x6
    .word 0x02412283  # lw x5, 36(x2)
    .word 0x00b2c2b3  # xor x5, x5, x11
    .word 0x02512223  # sw x5, 36(x2)
    .word 0x02012283  # lw x5, 32(x2)
    .word 0x00159313  # slli x6, x11, 1
    .word 0x0062c5b3  # xor x11, x5, x6
    .word 0x02b12023  # sw x11, 32(x2)
    .word 0x02812283  # lw x5, 40(x2)
    .word 0x0012d293  # srli x5, x5, 1
    .word 0x02c12303  # lw x6, 44(x2)
    .word 0x0062c2b3  # xor x5, x5, x6
    .word 0x23412303  # lw x6, 564(x2)
    .word 0x0062f5b3  # and x11, x5, x6
    .word 0x02c12283  # lw x5, 44(x2)
    .word 0x00b2c2b3  # xor x5, x5, x11
    .word 0x02512623  # sw x5, 44(x2)
    .word 0x02812283  # lw x5, 40(x2)
    .word 0x00159313  # slli x6, x11, 1
    .word 0x0062c5b3  # xor x11, x5, x6
    .word 0x02b12423  # sw x11, 40(x2)
    .word 0x03012283  # lw x5, 48(x2)
    .word 0x0012d293  # srli x5, x5, 1
    .word 0x03412303  # lw x6, 52(x2)
    .word 0x0062c2b3  # xor x5, x5, x6
    .word 0x23412303  # lw x6, 564(x2)
    .word 0x0062f5b3  # and x11, x5, x6
    .word 0x03412283  # lw x5, 52(x2)
    .word 0x00b2c2b3  # xor x5, x5, x11
    .word 0x02512a23  # sw x5, 52(x2)
    .word 0x03012283  # lw x5, 48(x2)
    .word 0x00159313  # slli x6, x11, 1
    .word 0x0062c5b3  # xor x11, x5, x6
    .word 0x02b12823  # sw x11, 48(x2)
    .word 0x03812283  # lw x5, 56(x2)
    .word 0x0012d293  # srli x5, x5, 1
    .word 0x03c12303  # lw x6, 60(x2)
    .word 0x0062c2b3  # xor x5, x5, x6
    .word 0x23412303  # lw x6, 564(x2)
    .word 0x0062f5b3  # and x11, x5, x6
    .word 0x03c12283  # lw x5, 60(x2)
    .word 0x00b2c2b3  # xor x5, x5, x11
    .word 0x02512e23  # sw x5, 60(x2)
    .word 0x03812283  # lw x5, 56(x2)
    .word 0x00159313  # slli x6, x11, 1
    .word 0x0062c5b3  # xor x11, x5, x6
    .word 0x02b12c23  # sw x11, 56(x2)
    .word 0x02012283  # lw x5, 32(x2)
    .word 0x0022d293  # srli x5, x5, 2
    .word 0x02812303  # lw x6, 40(x2)
    .word 0x0062c2b3  # xor x5, x5, x6
    .word 0x23812303  # lw x6, 568(x2)
    .word 0x0062f5b3  # and x11, x5, x6
    .word 0x02812283  # lw x5, 40(x2)
    .word 0x00b2c2b3  # xor x5, x5, x11
    .word 0x02512423  # sw x5, 40(x2)
    .word 0x02012283  # lw x5, 32(x2)
    .word 0x00259313  # slli x6, x11, 2
    .word 0x0062c5b3  # xor x11, x5, x6
    .word 0x02b12023  # sw x11, 32(x2)
    .word 0x02412283  # lw x5, 36(x2)
    .word 0x0022d293  # srli x5, x5, 2
    .word 0x02c12303  # lw x6, 44(x2)
    .word 0x0062c2b3  # xor x5, x5, x6
    .word 0x23812303  # lw x6, 568(x2)
    .word 0x0062f5b3  # and x11, x5, x6
    .word 0x02c12283  # lw x5, 44(x2)
    .word 0x00b2c2b3  # xor x5, x5, x11
    .word 0x02512623  # sw x5, 44(x2)
    .word 0x02412283  # lw x5, 36(x2)
    .word 0x00259313  # slli x6, x11, 2
    .word 0x0062c5b3  # xor x11, x5, x6
    .word 0x02b12223  # sw x11, 36(x2)
    .word 0x03012283  # lw x5, 48(x2)
    .word 0x0022d293  # srli x5, x5, 2
    .word 0x03812303  # lw x6, 56(x2)
    .word 0x0062c2b3  # xor x5, x5, x6
    .word 0x23812303  # lw x6, 568(x2)
    .word 0x0062f5b3  # and x11, x5, x6
    .word 0x03812283  # lw x5, 56(x2)
    .word 0x00b2c2b3  # xor x5, x5, x11
    .word 0x02512c23  # sw x5, 56(x2)
    .word 0x03012283  # lw x5, 48(x2)
    .word 0x00259313  # slli x6, x11, 2
    .word 0x0062c5b3  # xor x11, x5, x6
    .word 0x02b12823  # sw x11, 48(x2)
    .word 0x03412283  # lw x5, 52(x2)
    .word 0x0022d293  # srli x5, x5, 2
    .word 0x03c12303  # lw x6, 60(x2)
    .word 0x0062c2b3  # xor x5, x5, x6
    .word 0x23812303  # lw x6, 568(x2)
    .word 0x0062f5b3  # and x11, x5, x6
    .word 0x03c12283  # lw x5, 60(x2)
    .word 0x00b2c2b3  # xor x5, x5, x11
    .word 0x02512e23  # sw x5, 60(x2)
    .word 0x03412283  # lw x5, 52(x2)
    .word 0x00259313  # slli x6, x11, 2
    .word 0x0062c5b3  # xor x11, x5, x6
    .word 0x02b12a23  # sw x11, 52(x2)
    .word 0x02012283  # lw x5, 32(x2)
    .word 0x0042d293  # srli x5, x5, 4
    .word 0x03012303  # lw x6, 48(x2)
    .word 0x0062c2b3  # xor x5, x5, x6
    .word 0x23c12303  # lw x6, 572(x2)
    .word 0x0062f5b3  # and x11, x5, x6
    .word 0x03012283  # lw x5, 48(x2)
    .word 0x00b2c2b3  # xor x5, x5, x11
    .word 0x02512823  # sw x5, 48(x2)
    .word 0x02012283  # lw x5, 32(x2)
    .word 0x00459313  # slli x6, x11, 4
    .word 0x0062c5b3  # xor x11, x5, x6
    .word 0x02b12023  # sw x11, 32(x2)
    .word 0x02412283  # lw x5, 36(x2)
    .word 0x0042d293  # srli x5, x5, 4
    .word 0x03412303  # lw x6, 52(x2)
    .word 0x0062c2b3  # xor x5, x5, x6
    .word 0x23c12303  # lw x6, 572(x2)
    .word 0x0062f5b3  # and x11, x5, x6
    .word 0x03412283  # lw x5, 52(x2)
    .word 0x00b2c2b3  # xor x5, x5, x11
    .word 0x02512a23  # sw x5, 52(x2)
    .word 0x02412283  # lw x5, 36(x2)
    .word 0x00459313  # slli x6, x11, 4
    .word 0x0062c5b3  # xor x11, x5, x6
    .word 0x02b12223  # sw x11, 36(x2)
    .word 0x02812283  # lw x5, 40(x2)
    .word 0x0042d293  # srli x5, x5, 4
    .word 0x03812303  # lw x6, 56(x2)
    .word 0x0062c2b3  # xor x5, x5, x6
    .word 0x23c12303  # lw x6, 572(x2)
    .word 0x0062f5b3  # and x11, x5, x6
    .word 0x03812283  # lw x5, 56(x2)
    .word 0x00b2c2b3  # xor x5, x5, x11
    .word 0x02512c23  # sw x5, 56(x2)
    .word 0x02812283  # lw x5, 40(x2)
    .word 0x00459313  # slli x6, x11, 4
    .word 0x0062c5b3  # xor x11, x5, x6
    .word 0x02b12423  # sw x11, 40(x2)
    .word 0x02c12283  # lw x5, 44(x2)
    .word 0x0042d293  # srli x5, x5, 4
    .word 0x03c12303  # lw x6, 60(x2)
    .word 0x0062c2b3  # xor x5, x5, x6
    .word 0x23c12303  # lw x6, 572(x2)
    .word 0x0062f5b3  # and x11, x5, x6
    .word 0x03c12283  # lw x5, 60(x2)
    .word 0x00b2c2b3  # xor x5, x5, x11
    .word 0x02512e23  # sw x5, 60(x2)
    .word 0x02c12283  # lw x5, 44(x2)
    .word 0x00459313  # slli x6, x11, 4
    .word 0x0062c5b3  # xor x11, x5, x6
    .word 0x02b12623  # sw x11, 44(x2)
    .word 0xfff00513  # addi x10, x0, -1
    .word 0x00150513  # addi x10, x10, 1
    .word 0x00251493  # slli x9, x10, 2
    .word 0x002484b3  # add x9, x9, x2
    .word 0x0204a583  # lw x11, 32(x9)
    .word 0x002502b3  # add x5, x10, x2
    .word 0x00b28823  # sb x11, 16(x5)
    .word 0x0085d313  # srli x6, x11, 8
    .word 0x002502b3  # add x5, x10, x2
    .word 0x00628c23  # sb x6, 24(x5)
    .word 0xff950293  # addi x5, x10, -7
    .word 0xfc029ce3  # bne x5, x0, -40
    # the result
    .word 0x00000513  # addi x10, x0, 0
    # parameter 1: the array, back
    .word 0x01010293  # addi x5, x2, 16
    .word 0x29c12303  # lw x6, 668(x2)
    .word 0x01028393  # addi x7, x5, 16
    .word 0x0002ce03  # lbu x28, 0(x5)
    .word 0x01c30023  # sb x28, 0(x6)
    .word 0x00128293  # addi x5, x5, 1
    .word 0x00130313  # addi x6, x6, 1
    .word 0xfe7298e3  # bne x5, x7, -16
    # above the frame
    .word 0x26010293  # addi x5, x2, 608
    # the caller's registers
    .word 0x0002a483  # lw x9, 0(x5)
    .cfi_restore 9
    .word 0x0042a903  # lw x18, 4(x5)
    .cfi_restore 18
    .word 0x0082a983  # lw x19, 8(x5)
    .cfi_restore 19
    .word 0x00c2aa03  # lw x20, 12(x5)
    .cfi_restore 20
    .word 0x0102aa83  # lw x21, 16(x5)
    .cfi_restore 21
    .word 0x0142ab03  # lw x22, 20(x5)
    .cfi_restore 22
    .word 0x0182ab83  # lw x23, 24(x5)
    .cfi_restore 23
    .word 0x01c2ac03  # lw x24, 28(x5)
    .cfi_restore 24
    .word 0x0202ac83  # lw x25, 32(x5)
    .cfi_restore 25
    .word 0x0242ad03  # lw x26, 36(x5)
    .cfi_restore 26
    .word 0x0282ad83  # lw x27, 40(x5)
    .cfi_restore 27
    # the caller's x2
    .word 0x04028293  # addi x5, x5, 64
    .cfi_def_cfa 5, 0
    # on to the tail that functions share
    jal x0, factc.tail.1
    .cfi_endproc
    .size aes128_decrypt, . - aes128_decrypt
    .section .text.factc.tail.1, "axG", @progbits, factc.tail.1, comdat
    .p2align 2
    .globl factc.tail.1
    .hidden factc.tail.1
    .type factc.tail.1, @function
factc.tail.1:
    .cfi_startproc
    .cfi_def_cfa 5, 0
    # all the room, wiped upward
    .word 0x00012023  # sw x0, 0(x2)
    .word 0x00012223  # sw x0, 4(x2)
    .word 0x00012423  # sw x0, 8(x2)
    .word 0x00012623  # sw x0, 12(x2)
    .word 0x01010113  # addi x2, x2, 16
    .word 0xfe5116e3  # bne x2, x5, -20
    .cfi_def_cfa 2, 0
    # temporaries, wiped
    .word 0x00000293  # addi x5, x0, 0
    .word 0x00000313  # addi x6, x0, 0
    .word 0x00000393  # addi x7, x0, 0
    .word 0x00000593  # addi x11, x0, 0
    .word 0x00000613  # addi x12, x0, 0
    .word 0x00000693  # addi x13, x0, 0
    .word 0x00000713  # addi x14, x0, 0
    .word 0x00000793  # addi x15, x0, 0
    .word 0x00000813  # addi x16, x0, 0
    .word 0x00000893  # addi x17, x0, 0
    .word 0x00000e13  # addi x28, x0, 0
    .word 0x00000e93  # addi x29, x0, 0
    .word 0x00000f13  # addi x30, x0, 0
    .word 0x00000f93  # addi x31, x0, 0
    # back
    .word 0x00008067  # jalr x0, 0(x1)
    .cfi_endproc
    .size factc.tail.1, . - factc.tail.1
    .option pop
