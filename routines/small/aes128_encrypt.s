# aes128_encrypt: made by factc 1.0.0 function; 794 words and 21 shared, 304 bytes of stack, profile 1
    .option push
    .option norvc
    .option norelax
    .cfi_sections .debug_frame
    .section .text.aes128_encrypt, "ax", @progbits
    .p2align 2
    .globl aes128_encrypt
    .type aes128_encrypt, @function
aes128_encrypt:
    .cfi_startproc
    # room above the frame
    .word 0xfc010113  # addi x2, x2, -64
    .cfi_def_cfa_offset 64
    # the caller's registers
    .word 0x00912023  # sw x9, 0(x2)
    .cfi_offset 9, -64
    .word 0x01212223  # sw x18, 4(x2)
    .cfi_offset 18, -60
    .word 0x01312423  # sw x19, 8(x2)
    .cfi_offset 19, -56
    .word 0x01412623  # sw x20, 12(x2)
    .cfi_offset 20, -52
    .word 0x01512823  # sw x21, 16(x2)
    .cfi_offset 21, -48
    .word 0x01612a23  # sw x22, 20(x2)
    .cfi_offset 22, -44
    .word 0x01712c23  # sw x23, 24(x2)
    .cfi_offset 23, -40
    .word 0x01812e23  # sw x24, 28(x2)
    .cfi_offset 24, -36
    .word 0x03912023  # sw x25, 32(x2)
    .cfi_offset 25, -32
    .word 0x03a12223  # sw x26, 36(x2)
    .cfi_offset 26, -28
    .word 0x03b12423  # sw x27, 40(x2)
    .cfi_offset 27, -24
    # arguments that are needed behind the body
    .word 0x02a12c23  # sw x10, 56(x2)
    .word 0x02b12e23  # sw x11, 60(x2)
    # the frame's base
    .word 0xf1010113  # addi x2, x2, -240
    .cfi_def_cfa 2, 304
    # parameter 0: an array
    .word 0x00050293  # addi x5, x10, 0
    .word 0x00010313  # addi x6, x2, 0
    .word 0x01028393  # addi x7, x5, 16
    .word 0x0002ce03  # lbu x28, 0(x5)
    .word 0x01c30023  # sb x28, 0(x6)
    .word 0x00128293  # addi x5, x5, 1
    .word 0x00130313  # addi x6, x6, 1
    .word 0xfe7298e3  # bne x5, x7, -16
    # parameter 1: an array
    .word 0x00058293  # addi x5, x11, 0
    .word 0x01010313  # addi x6, x2, 16
    .word 0x01028393  # addi x7, x5, 16
    .word 0x0002ce03  # lbu x28, 0(x5)
    .word 0x01c30023  # sb x28, 0(x6)
    .word 0x00128293  # addi x5, x5, 1
    .word 0x00130313  # addi x6, x6, 1
    .word 0xfe7298e3  # bne x5, x7, -16
    # the body
    .word 0x555552b7  # lui x5, 0x55555
    .word 0x55528293  # addi x5, x5, 1365
    .word 0x0c512023  # sw x5, 192(x2)
    .word 0x333332b7  # lui x5, 0x33333
    .word 0x33328293  # addi x5, x5, 819
    .word 0x0c512223  # sw x5, 196(x2)
    .word 0x0f0f12b7  # lui x5, 0x0f0f1
    .word 0xf0f28293  # addi x5, x5, -241
    .word 0x0c512423  # sw x5, 200(x2)
    .word 0x00001db7  # lui x27, 0x00001
    .word 0x111d8d93  # addi x27, x27, 273
    .word 0x000022b7  # lui x5, 0x00002
    .word 0x22228293  # addi x5, x5, 546
    .word 0x0c512623  # sw x5, 204(x2)
    .word 0x000042b7  # lui x5, 0x00004
    .word 0x44428293  # addi x5, x5, 1092
    .word 0x0c512823  # sw x5, 208(x2)
    .word 0x000092b7  # lui x5, 0x00009
    .word 0x88828293  # addi x5, x5, -1912
    .word 0x0c512a23  # sw x5, 212(x2)
    .word 0x000032b7  # lui x5, 0x00003
    .word 0x33328293  # addi x5, x5, 819
    .word 0x0c512c23  # sw x5, 216(x2)
    .word 0x02012023  # sw x0, 32(x2)
    .word 0x02012223  # sw x0, 36(x2)
    .word 0x02012423  # sw x0, 40(x2)
    .word 0x02012623  # sw x0, 44(x2)
    .word 0x02012823  # sw x0, 48(x2)
    .word 0x02012a23  # sw x0, 52(x2)
    .word 0x02012c23  # sw x0, 56(x2)
    .word 0x02012e23  # sw x0, 60(x2)
    .word 0x04012023  # sw x0, 64(x2)
    .word 0x04012223  # sw x0, 68(x2)
    .word 0x04012423  # sw x0, 72(x2)
    .word 0x04012623  # sw x0, 76(x2)
    .word 0x04012823  # sw x0, 80(x2)
    .word 0x04012a23  # sw x0, 84(x2)
    .word 0x04012c23  # sw x0, 88(x2)
    .word 0x04012e23  # sw x0, 92(x2)
    .word 0x06012023  # sw x0, 96(x2)
    .word 0x06012223  # sw x0, 100(x2)
    .word 0x06012423  # sw x0, 104(x2)
    .word 0x06012623  # sw x0, 108(x2)
    .word 0x06012823  # sw x0, 112(x2)
    .word 0x06012a23  # sw x0, 116(x2)
    .word 0x06012c23  # sw x0, 120(x2)
    .word 0x06012e23  # sw x0, 124(x2)
    .word 0x00100513  # addi x10, x0, 1
    .word 0xfff00b13  # addi x22, x0, -1
    .word 0x001b0b13  # addi x22, x22, 1
    .word 0x002b1493  # slli x9, x22, 2
    .word 0x002484b3  # add x9, x9, x2
    .word 0x002b02b3  # add x5, x22, x2
    .word 0x0102c283  # lbu x5, 16(x5)
    .word 0x002b0333  # add x6, x22, x2
    .word 0x01834303  # lbu x6, 24(x6)
    .word 0x00831313  # slli x6, x6, 8
    .word 0x0062ecb3  # or x25, x5, x6
    .word 0x002b02b3  # add x5, x22, x2
    .word 0x0002c283  # lbu x5, 0(x5)
    .word 0x01029293  # slli x5, x5, 16
    .word 0x002b0333  # add x6, x22, x2
    .word 0x00834303  # lbu x6, 8(x6)
    .word 0x01831313  # slli x6, x6, 24
    .word 0x0062ec33  # or x24, x5, x6
    .word 0x018ce2b3  # or x5, x25, x24
    .word 0x0254a023  # sw x5, 32(x9)
    .word 0xff9b0293  # addi x5, x22, -7
    .word 0xfa029ae3  # bne x5, x0, -76
    .word 0x02012283  # lw x5, 32(x2)
    .word 0x0012d293  # srli x5, x5, 1
    .word 0x02412303  # lw x6, 36(x2)
    .word 0x0062c2b3  # xor x5, x5, x6
    .word 0x0c012303  # lw x6, 192(x2)
    .word 0x0062fcb3  # and x25, x5, x6
    .word 0x02412283  # lw x5, 36(x2)
    .word 0x0192c2b3  # xor x5, x5, x25
    .word 0x02512223  # sw x5, 36(x2)
    .word 0x02012283  # lw x5, 32(x2)
    .word 0x001c9313  # slli x6, x25, 1
    .word 0x0062ccb3  # xor x25, x5, x6
    .word 0x03912023  # sw x25, 32(x2)
    .word 0x02812283  # lw x5, 40(x2)
    .word 0x0012d293  # srli x5, x5, 1
    .word 0x02c12303  # lw x6, 44(x2)
    .word 0x0062c2b3  # xor x5, x5, x6
    .word 0x0c012303  # lw x6, 192(x2)
    .word 0x0062fcb3  # and x25, x5, x6
    .word 0x02c12283  # lw x5, 44(x2)
    .word 0x0192c2b3  # xor x5, x5, x25
    .word 0x02512623  # sw x5, 44(x2)
    .word 0x02812283  # lw x5, 40(x2)
    .word 0x001c9313  # slli x6, x25, 1
    .word 0x0062ccb3  # xor x25, x5, x6
    .word 0x03912423  # sw x25, 40(x2)
    .word 0x03012283  # lw x5, 48(x2)
    .word 0x0012d293  # srli x5, x5, 1
    .word 0x03412303  # lw x6, 52(x2)
    .word 0x0062c2b3  # xor x5, x5, x6
    .word 0x0c012303  # lw x6, 192(x2)
    .word 0x0062fcb3  # and x25, x5, x6
    .word 0x03412283  # lw x5, 52(x2)
    .word 0x0192c2b3  # xor x5, x5, x25
    .word 0x02512a23  # sw x5, 52(x2)
    .word 0x03012283  # lw x5, 48(x2)
    .word 0x001c9313  # slli x6, x25, 1
    .word 0x0062ccb3  # xor x25, x5, x6
    .word 0x03912823  # sw x25, 48(x2)
    .word 0x03812283  # lw x5, 56(x2)
    .word 0x0012d293  # srli x5, x5, 1
    .word 0x03c12303  # lw x6, 60(x2)
    .word 0x0062c2b3  # xor x5, x5, x6
    .word 0x0c012303  # lw x6, 192(x2)
    .word 0x0062fcb3  # and x25, x5, x6
    .word 0x03c12283  # lw x5, 60(x2)
    .word 0x0192c2b3  # xor x5, x5, x25
    .word 0x02512e23  # sw x5, 60(x2)
    .word 0x03812283  # lw x5, 56(x2)
    .word 0x001c9313  # slli x6, x25, 1
    .word 0x0062ccb3  # xor x25, x5, x6
    .word 0x03912c23  # sw x25, 56(x2)
    .word 0x02012283  # lw x5, 32(x2)
    .word 0x0022d293  # srli x5, x5, 2
    .word 0x02812303  # lw x6, 40(x2)
    .word 0x0062c2b3  # xor x5, x5, x6
    .word 0x0c412303  # lw x6, 196(x2)
    .word 0x0062fcb3  # and x25, x5, x6
    .word 0x02812283  # lw x5, 40(x2)
    .word 0x0192c2b3  # xor x5, x5, x25
    .word 0x02512423  # sw x5, 40(x2)
    .word 0x02012283  # lw x5, 32(x2)
    .word 0x002c9313  # slli x6, x25, 2
    .word 0x0062ccb3  # xor x25, x5, x6
    .word 0x03912023  # sw x25, 32(x2)
    .word 0x02412283  # lw x5, 36(x2)
    .word 0x0022d293  # srli x5, x5, 2
    .word 0x02c12303  # lw x6, 44(x2)
    .word 0x0062c2b3  # xor x5, x5, x6
    .word 0x0c412303  # lw x6, 196(x2)
    .word 0x0062fcb3  # and x25, x5, x6
    .word 0x02c12283  # lw x5, 44(x2)
    .word 0x0192c2b3  # xor x5, x5, x25
    .word 0x02512623  # sw x5, 44(x2)
    .word 0x02412283  # lw x5, 36(x2)
    .word 0x002c9313  # slli x6, x25, 2
    .word 0x0062ccb3  # xor x25, x5, x6
    .word 0x03912223  # sw x25, 36(x2)
    .word 0x03012283  # lw x5, 48(x2)
    .word 0x0022d293  # srli x5, x5, 2
    .word 0x03812303  # lw x6, 56(x2)
    .word 0x0062c2b3  # xor x5, x5, x6
    .word 0x0c412303  # lw x6, 196(x2)
    .word 0x0062fcb3  # and x25, x5, x6
    .word 0x03812283  # lw x5, 56(x2)
    .word 0x0192c2b3  # xor x5, x5, x25
    .word 0x02512c23  # sw x5, 56(x2)
    .word 0x03012283  # lw x5, 48(x2)
    .word 0x002c9313  # slli x6, x25, 2
    .word 0x0062ccb3  # xor x25, x5, x6
    .word 0x03912823  # sw x25, 48(x2)
    .word 0x03412283  # lw x5, 52(x2)
    .word 0x0022d293  # srli x5, x5, 2
    .word 0x03c12303  # lw x6, 60(x2)
    .word 0x0062c2b3  # xor x5, x5, x6
    .word 0x0c412303  # lw x6, 196(x2)
    .word 0x0062fcb3  # and x25, x5, x6
    .word 0x03c12283  # lw x5, 60(x2)
    .word 0x0192c2b3  # xor x5, x5, x25
    .word 0x02512e23  # sw x5, 60(x2)
    .word 0x03412283  # lw x5, 52(x2)
    .word 0x002c9313  # slli x6, x25, 2
    .word 0x0062ccb3  # xor x25, x5, x6
    .word 0x03912a23  # sw x25, 52(x2)
    .word 0x02012283  # lw x5, 32(x2)
    .word 0x0042d293  # srli x5, x5, 4
    .word 0x03012303  # lw x6, 48(x2)
    .word 0x0062c2b3  # xor x5, x5, x6
    .word 0x0c812303  # lw x6, 200(x2)
    .word 0x0062fcb3  # and x25, x5, x6
    .word 0x03012283  # lw x5, 48(x2)
    .word 0x0192c2b3  # xor x5, x5, x25
    .word 0x02512823  # sw x5, 48(x2)
    .word 0x02012283  # lw x5, 32(x2)
    .word 0x004c9313  # slli x6, x25, 4
    .word 0x0062ccb3  # xor x25, x5, x6
    .word 0x03912023  # sw x25, 32(x2)
    .word 0x02412283  # lw x5, 36(x2)
    .word 0x0042d293  # srli x5, x5, 4
    .word 0x03412303  # lw x6, 52(x2)
    .word 0x0062c2b3  # xor x5, x5, x6
    .word 0x0c812303  # lw x6, 200(x2)
    .word 0x0062fcb3  # and x25, x5, x6
    .word 0x03412283  # lw x5, 52(x2)
    .word 0x0192c2b3  # xor x5, x5, x25
    .word 0x02512a23  # sw x5, 52(x2)
    .word 0x02412283  # lw x5, 36(x2)
    .word 0x004c9313  # slli x6, x25, 4
    .word 0x0062ccb3  # xor x25, x5, x6
    .word 0x03912223  # sw x25, 36(x2)
    .word 0x02812283  # lw x5, 40(x2)
    .word 0x0042d293  # srli x5, x5, 4
    .word 0x03812303  # lw x6, 56(x2)
    .word 0x0062c2b3  # xor x5, x5, x6
    .word 0x0c812303  # lw x6, 200(x2)
    .word 0x0062fcb3  # and x25, x5, x6
    .word 0x03812283  # lw x5, 56(x2)
    .word 0x0192c2b3  # xor x5, x5, x25
    .word 0x02512c23  # sw x5, 56(x2)
    .word 0x02812283  # lw x5, 40(x2)
    .word 0x004c9313  # slli x6, x25, 4
    .word 0x0062ccb3  # xor x25, x5, x6
    .word 0x03912423  # sw x25, 40(x2)
    .word 0x02c12283  # lw x5, 44(x2)
    .word 0x0042d293  # srli x5, x5, 4
    .word 0x03c12303  # lw x6, 60(x2)
    .word 0x0062c2b3  # xor x5, x5, x6
    .word 0x0c812303  # lw x6, 200(x2)
    .word 0x0062fcb3  # and x25, x5, x6
    .word 0x03c12283  # lw x5, 60(x2)
    .word 0x0192c2b3  # xor x5, x5, x25
    .word 0x02512e23  # sw x5, 60(x2)
    .word 0x02c12283  # lw x5, 44(x2)
    .word 0x004c9313  # slli x6, x25, 4
    .word 0x0062ccb3  # xor x25, x5, x6
    .word 0x03912623  # sw x25, 44(x2)
    .word 0xfff00b13  # addi x22, x0, -1
    .word 0x001b0b13  # addi x22, x22, 1
    .word 0x002b1493  # slli x9, x22, 2
    .word 0x002484b3  # add x9, x9, x2
    .word 0x0204ac83  # lw x25, 32(x9)
    .word 0x010cdc13  # srli x24, x25, 16
    .word 0x010c1293  # slli x5, x24, 16
    .word 0x0454a023  # sw x5, 64(x9)
    .word 0x018cc2b3  # xor x5, x25, x24
    .word 0x0254a023  # sw x5, 32(x9)
    .word 0xff9b0293  # addi x5, x22, -7
    .word 0xfc029ce3  # bne x5, x0, -40
    .word 0x00100293  # addi x5, x0, 1
    .word 0x0e512023  # sw x5, 224(x2)
    .word 0x00b00293  # addi x5, x0, 11
    .word 0x0e512223  # sw x5, 228(x2)
    .word 0x0e012303  # lw x6, 224(x2)
    .word 0x0e412283  # lw x5, 228(x2)
    .word 0x005332b3  # sltu x5, x6, x5
    .word 0x00029463  # bne x5, x0, 8
    .word 0x51c0006f  # jal x0, 1308
    .word 0x08612023  # sw x6, 128(x2)
    .word 0x00130313  # addi x6, x6, 1
    .word 0x0e612023  # sw x6, 224(x2)
    .word 0x03c12c83  # lw x25, 60(x2)
    .word 0x03812703  # lw x14, 56(x2)
    .word 0x03412b83  # lw x23, 52(x2)
    .word 0x03012d03  # lw x26, 48(x2)
    .word 0x02c12803  # lw x16, 44(x2)
    .word 0x02812983  # lw x19, 40(x2)
    .word 0x02412683  # lw x13, 36(x2)
    .word 0x02012c03  # lw x24, 32(x2)
    .word 0x013d42b3  # xor x5, x26, x19
    .word 0x08512223  # sw x5, 132(x2)
    .word 0x00dcc5b3  # xor x11, x25, x13
    .word 0x01acc2b3  # xor x5, x25, x26
    .word 0x08512423  # sw x5, 136(x2)
    .word 0x013cc633  # xor x12, x25, x19
    .word 0x017747b3  # xor x15, x14, x23
    .word 0x0187cbb3  # xor x23, x15, x24
    .word 0x01abc2b3  # xor x5, x23, x26
    .word 0x08512623  # sw x5, 140(x2)
    .word 0x08412303  # lw x6, 132(x2)
    .word 0x0065c2b3  # xor x5, x11, x6
    .word 0x08512823  # sw x5, 144(x2)
    .word 0x019bc2b3  # xor x5, x23, x25
    .word 0x08512a23  # sw x5, 148(x2)
    .word 0x00dbc2b3  # xor x5, x23, x13
    .word 0x08512c23  # sw x5, 152(x2)
    .word 0x09812283  # lw x5, 152(x2)
    .word 0x00c2c2b3  # xor x5, x5, x12
    .word 0x08512e23  # sw x5, 156(x2)
    .word 0x09012303  # lw x6, 144(x2)
    .word 0x00684d33  # xor x26, x16, x6
    .word 0x013d46b3  # xor x13, x26, x19
    .word 0x00ed49b3  # xor x19, x26, x14
    .word 0x0186c2b3  # xor x5, x13, x24
    .word 0x0a512023  # sw x5, 160(x2)
    .word 0x00f6c733  # xor x14, x13, x15
    .word 0x08812303  # lw x6, 136(x2)
    .word 0x0069cd33  # xor x26, x19, x6
    .word 0x01ac42b3  # xor x5, x24, x26
    .word 0x0a512223  # sw x5, 164(x2)
    .word 0x01a742b3  # xor x5, x14, x26
    .word 0x0a512423  # sw x5, 168(x2)
    .word 0x00c74a33  # xor x20, x14, x12
    .word 0x01a7c7b3  # xor x15, x15, x26
    .word 0x00f5c933  # xor x18, x11, x15
    .word 0x00fcc2b3  # xor x5, x25, x15
    .word 0x0a512a23  # sw x5, 180(x2)
    .word 0x09012283  # lw x5, 144(x2)
    .word 0x00d2fcb3  # and x25, x5, x13
    .word 0x09c12283  # lw x5, 156(x2)
    .word 0x0a012303  # lw x6, 160(x2)
    .word 0x0062f833  # and x16, x5, x6
    .word 0x019848b3  # xor x17, x16, x25
    .word 0x08c12283  # lw x5, 140(x2)
    .word 0x0182f833  # and x16, x5, x24
    .word 0x019842b3  # xor x5, x16, x25
    .word 0x0a512c23  # sw x5, 184(x2)
    .word 0x00f5fcb3  # and x25, x11, x15
    .word 0x09812283  # lw x5, 152(x2)
    .word 0x0172f833  # and x16, x5, x23
    .word 0x019842b3  # xor x5, x16, x25
    .word 0x0a512e23  # sw x5, 188(x2)
    .word 0x09412283  # lw x5, 148(x2)
    .word 0x0a412303  # lw x6, 164(x2)
    .word 0x0062f833  # and x16, x5, x6
    .word 0x019842b3  # xor x5, x16, x25
    .word 0x0a512623  # sw x5, 172(x2)
    .word 0x08812283  # lw x5, 136(x2)
    .word 0x01a2fcb3  # and x25, x5, x26
    .word 0x08412283  # lw x5, 132(x2)
    .word 0x0a812303  # lw x6, 168(x2)
    .word 0x0062f833  # and x16, x5, x6
    .word 0x01984833  # xor x16, x16, x25
    .word 0x00e672b3  # and x5, x12, x14
    .word 0x0a512823  # sw x5, 176(x2)
    .word 0x0b012283  # lw x5, 176(x2)
    .word 0x0192ccb3  # xor x25, x5, x25
    .word 0x0108c8b3  # xor x17, x17, x16
    .word 0x0b812283  # lw x5, 184(x2)
    .word 0x0192c2b3  # xor x5, x5, x25
    .word 0x0a512c23  # sw x5, 184(x2)
    .word 0x0bc12283  # lw x5, 188(x2)
    .word 0x0102c833  # xor x16, x5, x16
    .word 0x0ac12283  # lw x5, 172(x2)
    .word 0x0192c2b3  # xor x5, x5, x25
    .word 0x0a512e23  # sw x5, 188(x2)
    .word 0x0138c9b3  # xor x19, x17, x19
    .word 0x0b812283  # lw x5, 184(x2)
    .word 0x0142ccb3  # xor x25, x5, x20
    .word 0x01284a33  # xor x20, x16, x18
    .word 0x0bc12283  # lw x5, 188(x2)
    .word 0x0b412303  # lw x6, 180(x2)
    .word 0x0062c833  # xor x16, x5, x6
    .word 0x0199c2b3  # xor x5, x19, x25
    .word 0x0a512a23  # sw x5, 180(x2)
    .word 0x0149f8b3  # and x17, x19, x20
    .word 0x01184933  # xor x18, x16, x17
    .word 0x0b412283  # lw x5, 180(x2)
    .word 0x0122f9b3  # and x19, x5, x18
    .word 0x0199c9b3  # xor x19, x19, x25
    .word 0x010a42b3  # xor x5, x20, x16
    .word 0x0a512c23  # sw x5, 184(x2)
    .word 0x011cccb3  # xor x25, x25, x17
    .word 0x0b812303  # lw x6, 184(x2)
    .word 0x006cfcb3  # and x25, x25, x6
    .word 0x010cccb3  # xor x25, x25, x16
    .word 0x019a48b3  # xor x17, x20, x25
    .word 0x01994a33  # xor x20, x18, x25
    .word 0x01487a33  # and x20, x16, x20
    .word 0x011a4833  # xor x16, x20, x17
    .word 0x01494a33  # xor x20, x18, x20
    .word 0x0149fa33  # and x20, x19, x20
    .word 0x0b412283  # lw x5, 180(x2)
    .word 0x0142ca33  # xor x20, x5, x20
    .word 0x010a4933  # xor x18, x20, x16
    .word 0x0199c2b3  # xor x5, x19, x25
    .word 0x0a512a23  # sw x5, 180(x2)
    .word 0x0149c8b3  # xor x17, x19, x20
    .word 0x010cc2b3  # xor x5, x25, x16
    .word 0x0a512c23  # sw x5, 184(x2)
    .word 0x0b412283  # lw x5, 180(x2)
    .word 0x0122c2b3  # xor x5, x5, x18
    .word 0x0a512e23  # sw x5, 188(x2)
    .word 0x0b812283  # lw x5, 184(x2)
    .word 0x00d2f2b3  # and x5, x5, x13
    .word 0x0a512623  # sw x5, 172(x2)
    .word 0x0a012303  # lw x6, 160(x2)
    .word 0x006872b3  # and x5, x16, x6
    .word 0x0a512023  # sw x5, 160(x2)
    .word 0x018cfc33  # and x24, x25, x24
    .word 0x00f8f6b3  # and x13, x17, x15
    .word 0x017a7bb3  # and x23, x20, x23
    .word 0x0a412303  # lw x6, 164(x2)
    .word 0x0069f7b3  # and x15, x19, x6
    .word 0x0b412283  # lw x5, 180(x2)
    .word 0x01a2f2b3  # and x5, x5, x26
    .word 0x0a512223  # sw x5, 164(x2)
    .word 0x0bc12283  # lw x5, 188(x2)
    .word 0x0a812303  # lw x6, 168(x2)
    .word 0x0062fd33  # and x26, x5, x6
    .word 0x00e972b3  # and x5, x18, x14
    .word 0x0a512423  # sw x5, 168(x2)
    .word 0x0b812283  # lw x5, 184(x2)
    .word 0x09012303  # lw x6, 144(x2)
    .word 0x0062f2b3  # and x5, x5, x6
    .word 0x08512823  # sw x5, 144(x2)
    .word 0x09c12303  # lw x6, 156(x2)
    .word 0x00687733  # and x14, x16, x6
    .word 0x08c12303  # lw x6, 140(x2)
    .word 0x006cf833  # and x16, x25, x6
    .word 0x00b8fcb3  # and x25, x17, x11
    .word 0x09812303  # lw x6, 152(x2)
    .word 0x006a7a33  # and x20, x20, x6
    .word 0x09412303  # lw x6, 148(x2)
    .word 0x0069f2b3  # and x5, x19, x6
    .word 0x08512c23  # sw x5, 152(x2)
    .word 0x0b412283  # lw x5, 180(x2)
    .word 0x08812303  # lw x6, 136(x2)
    .word 0x0062f5b3  # and x11, x5, x6
    .word 0x0bc12283  # lw x5, 188(x2)
    .word 0x08412303  # lw x6, 132(x2)
    .word 0x0062f9b3  # and x19, x5, x6
    .word 0x00c972b3  # and x5, x18, x12
    .word 0x08512223  # sw x5, 132(x2)
    .word 0x0135c5b3  # xor x11, x11, x19
    .word 0x01074833  # xor x16, x14, x16
    .word 0x0147c633  # xor x12, x15, x20
    .word 0x09012283  # lw x5, 144(x2)
    .word 0x00e2c733  # xor x14, x5, x14
    .word 0x019c4a33  # xor x20, x24, x25
    .word 0x00fc47b3  # xor x15, x24, x15
    .word 0x0a812303  # lw x6, 168(x2)
    .word 0x006d42b3  # xor x5, x26, x6
    .word 0x08512423  # sw x5, 136(x2)
    .word 0x0ac12283  # lw x5, 172(x2)
    .word 0x00d2cc33  # xor x24, x5, x13
    .word 0x0a412283  # lw x5, 164(x2)
    .word 0x01a2c2b3  # xor x5, x5, x26
    .word 0x08512823  # sw x5, 144(x2)
    .word 0x08412303  # lw x6, 132(x2)
    .word 0x0069c2b3  # xor x5, x19, x6
    .word 0x08512223  # sw x5, 132(x2)
    .word 0x00ccc933  # xor x18, x25, x12
    .word 0x018a4cb3  # xor x25, x20, x24
    .word 0x00bbcd33  # xor x26, x23, x11
    .word 0x09012303  # lw x6, 144(x2)
    .word 0x0066c9b3  # xor x19, x13, x6
    .word 0x0195ca33  # xor x20, x11, x25
    .word 0x09812283  # lw x5, 152(x2)
    .word 0x0192c5b3  # xor x11, x5, x25
    .word 0x08812283  # lw x5, 136(x2)
    .word 0x01a2ccb3  # xor x25, x5, x26
    .word 0x01a74d33  # xor x26, x14, x26
    .word 0x013bcbb3  # xor x23, x23, x19
    .word 0x0195c5b3  # xor x11, x11, x25
    .word 0x0a012283  # lw x5, 160(x2)
    .word 0x01a2c6b3  # xor x13, x5, x26
    .word 0x01a9cd33  # xor x26, x19, x26
    .word 0x019942b3  # xor x5, x18, x25
    .word 0xfff2c993  # xori x19, x5, -1
    .word 0x014642b3  # xor x5, x12, x20
    .word 0xfff2c613  # xori x12, x5, -1
    .word 0x00bbc733  # xor x14, x23, x11
    .word 0x00dc4cb3  # xor x25, x24, x13
    .word 0x00d7cc33  # xor x24, x15, x13
    .word 0x00b845b3  # xor x11, x16, x11
    .word 0x019bc2b3  # xor x5, x23, x25
    .word 0xfff2cb93  # xori x23, x5, -1
    .word 0x08412283  # lw x5, 132(x2)
    .word 0x00e2c2b3  # xor x5, x5, x14
    .word 0xfff2c693  # xori x13, x5, -1
    .word 0x03a12e23  # sw x26, 60(x2)
    .word 0x03712c23  # sw x23, 56(x2)
    .word 0x02d12a23  # sw x13, 52(x2)
    .word 0x03912823  # sw x25, 48(x2)
    .word 0x03812623  # sw x24, 44(x2)
    .word 0x02b12423  # sw x11, 40(x2)
    .word 0x03312223  # sw x19, 36(x2)
    .word 0x02c12023  # sw x12, 32(x2)
    .word 0x08012283  # lw x5, 128(x2)
    .word 0x00a2ba93  # sltiu x21, x5, 10
    .word 0xfff00b13  # addi x22, x0, -1
    .word 0x001b0b13  # addi x22, x22, 1
    .word 0x002b1493  # slli x9, x22, 2
    .word 0x002484b3  # add x9, x9, x2
    .word 0x0204ac83  # lw x25, 32(x9)
    .word 0x01ccdc13  # srli x24, x25, 28
    .word 0x001c5293  # srli x5, x24, 1
    .word 0x003c1313  # slli x6, x24, 3
    .word 0x0062e2b3  # or x5, x5, x6
    .word 0x00f2f293  # andi x5, x5, 15
    .word 0x01655333  # srl x6, x10, x22
    .word 0x00137313  # andi x6, x6, 1
    .word 0x0062cc33  # xor x24, x5, x6
    .word 0x010c1293  # slli x5, x24, 16
    .word 0x0404a303  # lw x6, 64(x9)
    .word 0x0062cc33  # xor x24, x5, x6
    .word 0x004c1313  # slli x6, x24, 4
    .word 0x006c4c33  # xor x24, x24, x6
    .word 0x008c1313  # slli x6, x24, 8
    .word 0x006c4bb3  # xor x23, x24, x6
    .word 0x0574a023  # sw x23, 64(x9)
    .word 0x010c9c93  # slli x25, x25, 16
    .word 0x010cd313  # srli x6, x25, 16
    .word 0x006cecb3  # or x25, x25, x6
    .word 0x01bcf2b3  # and x5, x25, x27
    .word 0x004cd313  # srli x6, x25, 4
    .word 0x0cc12383  # lw x7, 204(x2)
    .word 0x00737333  # and x6, x6, x7
    .word 0x0062e2b3  # or x5, x5, x6
    .word 0x008cd313  # srli x6, x25, 8
    .word 0x0d012383  # lw x7, 208(x2)
    .word 0x00737333  # and x6, x6, x7
    .word 0x0062e2b3  # or x5, x5, x6
    .word 0x00ccd313  # srli x6, x25, 12
    .word 0x0d412383  # lw x7, 212(x2)
    .word 0x00737333  # and x6, x6, x7
    .word 0x0062ec33  # or x24, x5, x6
    .word 0x010bd293  # srli x5, x23, 16
    .word 0x0172ccb3  # xor x25, x5, x23
    .word 0x040a8263  # beq x21, x0, 68
    .word 0x01bc7bb3  # and x23, x24, x27
    .word 0x017c42b3  # xor x5, x24, x23
    .word 0x0012d293  # srli x5, x5, 1
    .word 0x003b9313  # slli x6, x23, 3
    .word 0x0062ebb3  # or x23, x5, x6
    .word 0x017c4c33  # xor x24, x24, x23
    .word 0x0d812303  # lw x6, 216(x2)
    .word 0x006c7d33  # and x26, x24, x6
    .word 0x0784a023  # sw x24, 96(x9)
    .word 0x017cc2b3  # xor x5, x25, x23
    .word 0x01ac4333  # xor x6, x24, x26
    .word 0x00235313  # srli x6, x6, 2
    .word 0x0062c2b3  # xor x5, x5, x6
    .word 0x002d1313  # slli x6, x26, 2
    .word 0x0062ccb3  # xor x25, x5, x6
    .word 0x0080006f  # jal x0, 8
    .word 0x018cccb3  # xor x25, x25, x24
    .word 0x0394a023  # sw x25, 32(x9)
    .word 0xff9b0293  # addi x5, x22, -7
    .word 0xf0029ce3  # bne x5, x0, -232
    .word 0x080a8863  # beq x21, x0, 144
    .word 0x07c12c83  # lw x25, 124(x2)
    .word 0x02012283  # lw x5, 32(x2)
    .word 0x0192c2b3  # xor x5, x5, x25
    .word 0x02512023  # sw x5, 32(x2)
    .word 0x02412283  # lw x5, 36(x2)
    .word 0x06012303  # lw x6, 96(x2)
    .word 0x0062c2b3  # xor x5, x5, x6
    .word 0x0192c2b3  # xor x5, x5, x25
    .word 0x02512223  # sw x5, 36(x2)
    .word 0x02812283  # lw x5, 40(x2)
    .word 0x06412303  # lw x6, 100(x2)
    .word 0x0062c2b3  # xor x5, x5, x6
    .word 0x02512423  # sw x5, 40(x2)
    .word 0x02c12283  # lw x5, 44(x2)
    .word 0x06812303  # lw x6, 104(x2)
    .word 0x0062c2b3  # xor x5, x5, x6
    .word 0x0192c2b3  # xor x5, x5, x25
    .word 0x02512623  # sw x5, 44(x2)
    .word 0x03012283  # lw x5, 48(x2)
    .word 0x06c12303  # lw x6, 108(x2)
    .word 0x0062c2b3  # xor x5, x5, x6
    .word 0x0192c2b3  # xor x5, x5, x25
    .word 0x02512823  # sw x5, 48(x2)
    .word 0x03412283  # lw x5, 52(x2)
    .word 0x07012303  # lw x6, 112(x2)
    .word 0x0062c2b3  # xor x5, x5, x6
    .word 0x02512a23  # sw x5, 52(x2)
    .word 0x03812283  # lw x5, 56(x2)
    .word 0x07412303  # lw x6, 116(x2)
    .word 0x0062c2b3  # xor x5, x5, x6
    .word 0x02512c23  # sw x5, 56(x2)
    .word 0x03c12283  # lw x5, 60(x2)
    .word 0x07812303  # lw x6, 120(x2)
    .word 0x0062c2b3  # xor x5, x5, x6
    .word 0x02512e23  # sw x5, 60(x2)
    .word 0x00151293  # slli x5, x10, 1
    .word 0x08053313  # sltiu x6, x10, 128
    .word 0x11b00393  # addi x7, x0, 283
    .word 0xfff30313  # addi x6, x6, -1
    .word 0x0063f333  # and x6, x7, x6
    .word 0x0062c533  # xor x10, x5, x6
    .word 0xad9ff06f  # jal x0, -1320
    .word 0x02012283  # lw x5, 32(x2)
    .word 0x0012d293  # srli x5, x5, 1
    .word 0x02412303  # lw x6, 36(x2)
    .word 0x0062c2b3  # xor x5, x5, x6
    .word 0x0c012303  # lw x6, 192(x2)
    .word 0x0062fcb3  # and x25, x5, x6
    .word 0x02412283  # lw x5, 36(x2)
    .word 0x0192c2b3  # xor x5, x5, x25
    .word 0x02512223  # sw x5, 36(x2)
    .word 0x02012283  # lw x5, 32(x2)
    .word 0x001c9313  # slli x6, x25, 1
    .word 0x0062ccb3  # xor x25, x5, x6
    .word 0x03912023  # sw x25, 32(x2)
    .word 0x02812283  # lw x5, 40(x2)
    .word 0x0012d293  # srli x5, x5, 1
    .word 0x02c12303  # lw x6, 44(x2)
    .word 0x0062c2b3  # xor x5, x5, x6
    .word 0x0c012303  # lw x6, 192(x2)
    .word 0x0062fcb3  # and x25, x5, x6
    .word 0x02c12283  # lw x5, 44(x2)
    .word 0x0192c2b3  # xor x5, x5, x25
    .word 0x02512623  # sw x5, 44(x2)
    .word 0x02812283  # lw x5, 40(x2)
    .word 0x001c9313  # slli x6, x25, 1
    .word 0x0062ccb3  # xor x25, x5, x6
    .word 0x03912423  # sw x25, 40(x2)
    .word 0x03012283  # lw x5, 48(x2)
    .word 0x0012d293  # srli x5, x5, 1
    .word 0x03412303  # lw x6, 52(x2)
    .word 0x0062c2b3  # xor x5, x5, x6
    .word 0x0c012303  # lw x6, 192(x2)
    .word 0x0062fcb3  # and x25, x5, x6
    .word 0x03412283  # lw x5, 52(x2)
    .word 0x0192c2b3  # xor x5, x5, x25
    .word 0x02512a23  # sw x5, 52(x2)
    .word 0x03012283  # lw x5, 48(x2)
    .word 0x001c9313  # slli x6, x25, 1
    .word 0x0062ccb3  # xor x25, x5, x6
    .word 0x03912823  # sw x25, 48(x2)
    .word 0x03812283  # lw x5, 56(x2)
    .word 0x0012d293  # srli x5, x5, 1
    .word 0x03c12303  # lw x6, 60(x2)
    .word 0x0062c2b3  # xor x5, x5, x6
    .word 0x0c012303  # lw x6, 192(x2)
    .word 0x0062fcb3  # and x25, x5, x6
    .word 0x03c12283  # lw x5, 60(x2)
    .word 0x0192c2b3  # xor x5, x5, x25
    .word 0x02512e23  # sw x5, 60(x2)
    .word 0x03812283  # lw x5, 56(x2)
    .word 0x001c9313  # slli x6, x25, 1
    .word 0x0062ccb3  # xor x25, x5, x6
    .word 0x03912c23  # sw x25, 56(x2)
    .word 0x02012283  # lw x5, 32(x2)
    .word 0x0022d293  # srli x5, x5, 2
    .word 0x02812303  # lw x6, 40(x2)
    .word 0x0062c2b3  # xor x5, x5, x6
    .word 0x0c412303  # lw x6, 196(x2)
    .word 0x0062fcb3  # and x25, x5, x6
    .word 0x02812283  # lw x5, 40(x2)
    .word 0x0192c2b3  # xor x5, x5, x25
    .word 0x02512423  # sw x5, 40(x2)
    .word 0x02012283  # lw x5, 32(x2)
    .word 0x002c9313  # slli x6, x25, 2
    .word 0x0062ccb3  # xor x25, x5, x6
    .word 0x03912023  # sw x25, 32(x2)
    .word 0x02412283  # lw x5, 36(x2)
    .word 0x0022d293  # srli x5, x5, 2
    .word 0x02c12303  # lw x6, 44(x2)
    .word 0x0062c2b3  # xor x5, x5, x6
    .word 0x0c412303  # lw x6, 196(x2)
    .word 0x0062fcb3  # and x25, x5, x6
    .word 0x02c12283  # lw x5, 44(x2)
    .word 0x0192c2b3  # xor x5, x5, x25
    .word 0x02512623  # sw x5, 44(x2)
    .word 0x02412283  # lw x5, 36(x2)
    .word 0x002c9313  # slli x6, x25, 2
    .word 0x0062ccb3  # xor x25, x5, x6
    .word 0x03912223  # sw x25, 36(x2)
    .word 0x03012283  # lw x5, 48(x2)
    .word 0x0022d293  # srli x5, x5, 2
    .word 0x03812303  # lw x6, 56(x2)
    .word 0x0062c2b3  # xor x5, x5, x6
    .word 0x0c412303  # lw x6, 196(x2)
    .word 0x0062fcb3  # and x25, x5, x6
    .word 0x03812283  # lw x5, 56(x2)
    .word 0x0192c2b3  # xor x5, x5, x25
    .word 0x02512c23  # sw x5, 56(x2)
    .word 0x03012283  # lw x5, 48(x2)
    .word 0x002c9313  # slli x6, x25, 2
    .word 0x0062ccb3  # xor x25, x5, x6
    .word 0x03912823  # sw x25, 48(x2)
    .word 0x03412283  # lw x5, 52(x2)
    .word 0x0022d293  # srli x5, x5, 2
    .word 0x03c12303  # lw x6, 60(x2)
    .word 0x0062c2b3  # xor x5, x5, x6
    .word 0x0c412303  # lw x6, 196(x2)
    .word 0x0062fcb3  # and x25, x5, x6
    .word 0x03c12283  # lw x5, 60(x2)
    .word 0x0192c2b3  # xor x5, x5, x25
    .word 0x02512e23  # sw x5, 60(x2)
    .word 0x03412283  # lw x5, 52(x2)
    .word 0x002c9313  # slli x6, x25, 2
    .word 0x0062ccb3  # xor x25, x5, x6
    .word 0x03912a23  # sw x25, 52(x2)
    .word 0x02012283  # lw x5, 32(x2)
    .word 0x0042d293  # srli x5, x5, 4
    .word 0x03012303  # lw x6, 48(x2)
    .word 0x0062c2b3  # xor x5, x5, x6
    .word 0x0c812303  # lw x6, 200(x2)
    .word 0x0062fcb3  # and x25, x5, x6
    .word 0x03012283  # lw x5, 48(x2)
    .word 0x0192c2b3  # xor x5, x5, x25
    .word 0x02512823  # sw x5, 48(x2)
    .word 0x02012283  # lw x5, 32(x2)
    .word 0x004c9313  # slli x6, x25, 4
    .word 0x0062ccb3  # xor x25, x5, x6
    .word 0x03912023  # sw x25, 32(x2)
    .word 0x02412283  # lw x5, 36(x2)
    .word 0x0042d293  # srli x5, x5, 4
    .word 0x03412303  # lw x6, 52(x2)
    .word 0x0062c2b3  # xor x5, x5, x6
    .word 0x0c812303  # lw x6, 200(x2)
    .word 0x0062fcb3  # and x25, x5, x6
    .word 0x03412283  # lw x5, 52(x2)
    .word 0x0192c2b3  # xor x5, x5, x25
    .word 0x02512a23  # sw x5, 52(x2)
    .word 0x02412283  # lw x5, 36(x2)
    .word 0x004c9313  # slli x6, x25, 4
    .word 0x0062ccb3  # xor x25, x5, x6
    .word 0x03912223  # sw x25, 36(x2)
    .word 0x02812283  # lw x5, 40(x2)
    .word 0x0042d293  # srli x5, x5, 4
    .word 0x03812303  # lw x6, 56(x2)
    .word 0x0062c2b3  # xor x5, x5, x6
    .word 0x0c812303  # lw x6, 200(x2)
    .word 0x0062fcb3  # and x25, x5, x6
    .word 0x03812283  # lw x5, 56(x2)
    .word 0x0192c2b3  # xor x5, x5, x25
    .word 0x02512c23  # sw x5, 56(x2)
    .word 0x02812283  # lw x5, 40(x2)
    .word 0x004c9313  # slli x6, x25, 4
    .word 0x0062ccb3  # xor x25, x5, x6
    .word 0x03912423  # sw x25, 40(x2)
    .word 0x02c12283  # lw x5, 44(x2)
    .word 0x0042d293  # srli x5, x5, 4
    .word 0x03c12303  # lw x6, 60(x2)
    .word 0x0062c2b3  # xor x5, x5, x6
    .word 0x0c812303  # lw x6, 200(x2)
    .word 0x0062fcb3  # and x25, x5, x6
    .word 0x03c12283  # lw x5, 60(x2)
    .word 0x0192c2b3  # xor x5, x5, x25
    .word 0x02512e23  # sw x5, 60(x2)
    .word 0x02c12283  # lw x5, 44(x2)
    .word 0x004c9313  # slli x6, x25, 4
    .word 0x0062ccb3  # xor x25, x5, x6
    .word 0x03912623  # sw x25, 44(x2)
    .word 0xfff00b13  # addi x22, x0, -1
    .word 0x001b0b13  # addi x22, x22, 1
    .word 0x002b1493  # slli x9, x22, 2
    .word 0x002484b3  # add x9, x9, x2
    .word 0x0204ac83  # lw x25, 32(x9)
    .word 0x002b02b3  # add x5, x22, x2
    .word 0x01928823  # sb x25, 16(x5)
    .word 0x008cd313  # srli x6, x25, 8
    .word 0x002b02b3  # add x5, x22, x2
    .word 0x00628c23  # sb x6, 24(x5)
    .word 0xff9b0293  # addi x5, x22, -7
    .word 0xfc029ce3  # bne x5, x0, -40
    # the result
    .word 0x00000513  # addi x10, x0, 0
    # parameter 1: the array, back
    .word 0x01010293  # addi x5, x2, 16
    .word 0x12c12303  # lw x6, 300(x2)
    .word 0x01028393  # addi x7, x5, 16
    .word 0x0002ce03  # lbu x28, 0(x5)
    .word 0x01c30023  # sb x28, 0(x6)
    .word 0x00128293  # addi x5, x5, 1
    .word 0x00130313  # addi x6, x6, 1
    .word 0xfe7298e3  # bne x5, x7, -16
    # above the frame
    .word 0x0f010293  # addi x5, x2, 240
    # the caller's registers
    .word 0x0002a483  # lw x9, 0(x5)
    .cfi_restore 9
    .word 0x0042a903  # lw x18, 4(x5)
    .cfi_restore 18
    .word 0x0082a983  # lw x19, 8(x5)
    .cfi_restore 19
    .word 0x00c2aa03  # lw x20, 12(x5)
    .cfi_restore 20
    .word 0x0102aa83  # lw x21, 16(x5)
    .cfi_restore 21
    .word 0x0142ab03  # lw x22, 20(x5)
    .cfi_restore 22
    .word 0x0182ab83  # lw x23, 24(x5)
    .cfi_restore 23
    .word 0x01c2ac03  # lw x24, 28(x5)
    .cfi_restore 24
    .word 0x0202ac83  # lw x25, 32(x5)
    .cfi_restore 25
    .word 0x0242ad03  # lw x26, 36(x5)
    .cfi_restore 26
    .word 0x0282ad83  # lw x27, 40(x5)
    .cfi_restore 27
    # the caller's x2
    .word 0x04028293  # addi x5, x5, 64
    .cfi_def_cfa 5, 0
    # on to the tail that functions share
    jal x0, factc.tail.1
    .cfi_endproc
    .size aes128_encrypt, . - aes128_encrypt
    .section .text.factc.tail.1, "axG", @progbits, factc.tail.1, comdat
    .p2align 2
    .globl factc.tail.1
    .hidden factc.tail.1
    .type factc.tail.1, @function
factc.tail.1:
    .cfi_startproc
    .cfi_def_cfa 5, 0
    # all the room, wiped upward
    .word 0x00012023  # sw x0, 0(x2)
    .word 0x00012223  # sw x0, 4(x2)
    .word 0x00012423  # sw x0, 8(x2)
    .word 0x00012623  # sw x0, 12(x2)
    .word 0x01010113  # addi x2, x2, 16
    .word 0xfe5116e3  # bne x2, x5, -20
    .cfi_def_cfa 2, 0
    # temporaries, wiped
    .word 0x00000293  # addi x5, x0, 0
    .word 0x00000313  # addi x6, x0, 0
    .word 0x00000393  # addi x7, x0, 0
    .word 0x00000593  # addi x11, x0, 0
    .word 0x00000613  # addi x12, x0, 0
    .word 0x00000693  # addi x13, x0, 0
    .word 0x00000713  # addi x14, x0, 0
    .word 0x00000793  # addi x15, x0, 0
    .word 0x00000813  # addi x16, x0, 0
    .word 0x00000893  # addi x17, x0, 0
    .word 0x00000e13  # addi x28, x0, 0
    .word 0x00000e93  # addi x29, x0, 0
    .word 0x00000f13  # addi x30, x0, 0
    .word 0x00000f93  # addi x31, x0, 0
    # back
    .word 0x00008067  # jalr x0, 0(x1)
    .cfi_endproc
    .size factc.tail.1, . - factc.tail.1
    .option pop
