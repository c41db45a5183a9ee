# aes256_encrypt: made by factc 1.0.0 function; 963 words and 21 shared, 352 bytes of stack, profile 1
    .option push
    .option norvc
    .option norelax
    .cfi_sections .debug_frame
    .section .text.aes256_encrypt, "ax", @progbits
    .p2align 2
    .globl aes256_encrypt
    .type aes256_encrypt, @function
aes256_encrypt:
    .cfi_startproc
    # room above the frame
    .word 0xfc010113  # addi x2, x2, -64
    .cfi_def_cfa_offset 64
    # the caller's registers
    .word 0x00912023  # sw x9, 0(x2)
    .cfi_offset 9, -64
    .word 0x01212223  # sw x18, 4(x2)
    .cfi_offset 18, -60
    .word 0x01312423  # sw x19, 8(x2)
    .cfi_offset 19, -56
    .word 0x01412623  # sw x20, 12(x2)
    .cfi_offset 20, -52
    .word 0x01512823  # sw x21, 16(x2)
    .cfi_offset 21, -48
    .word 0x01612a23  # sw x22, 20(x2)
    .cfi_offset 22, -44
    .word 0x01712c23  # sw x23, 24(x2)
    .cfi_offset 23, -40
    .word 0x01812e23  # sw x24, 28(x2)
    .cfi_offset 24, -36
    .word 0x03912023  # sw x25, 32(x2)
    .cfi_offset 25, -32
    .word 0x03a12223  # sw x26, 36(x2)
    .cfi_offset 26, -28
    .word 0x03b12423  # sw x27, 40(x2)
    .cfi_offset 27, -24
    # arguments that are needed behind the body
    .word 0x02a12c23  # sw x10, 56(x2)
    .word 0x02b12e23  # sw x11, 60(x2)
    # the frame's base
    .word 0xee010113  # addi x2, x2, -288
    .cfi_def_cfa 2, 352
    # the frame's word at 236, zeroed
    .word 0x0e012623  # sw x0, 236(x2)
    # parameter 0: an array
    .word 0x00050293  # addi x5, x10, 0
    .word 0x00010313  # addi x6, x2, 0
    .word 0x02028393  # addi x7, x5, 32
    .word 0x0002ce03  # lbu x28, 0(x5)
    .word 0x01c30023  # sb x28, 0(x6)
    .word 0x00128293  # addi x5, x5, 1
    .word 0x00130313  # addi x6, x6, 1
    .word 0xfe7298e3  # bne x5, x7, -16
    # parameter 1: an array
    .word 0x00058293  # addi x5, x11, 0
    .word 0x02010313  # addi x6, x2, 32
    .word 0x01028393  # addi x7, x5, 16
    .word 0x0002ce03  # lbu x28, 0(x5)
    .word 0x01c30023  # sb x28, 0(x6)
    .word 0x00128293  # addi x5, x5, 1
    .word 0x00130313  # addi x6, x6, 1
    .word 0xfe7298e3  # bne x5, x7, -16
    # the body
    .word 0x555552b7  # lui x5, 0x55555
    .word 0x55528293  # addi x5, x5, 1365
    .word 0x0e512823  # sw x5, 240(x2)
    .word 0x333332b7  # lui x5, 0x33333
    .word 0x33328293  # addi x5, x5, 819
    .word 0x0e512a23  # sw x5, 244(x2)
    .word 0x0f0f12b7  # lui x5, 0x0f0f1
    .word 0xf0f28293  # addi x5, x5, -241
    .word 0x0e512c23  # sw x5, 248(x2)
    .word 0x00001db7  # lui x27, 0x00001
    .word 0x111d8d93  # addi x27, x27, 273
    .word 0x000022b7  # lui x5, 0x00002
    .word 0x22228293  # addi x5, x5, 546
    .word 0x0e512e23  # sw x5, 252(x2)
    .word 0x000042b7  # lui x5, 0x00004
    .word 0x44428293  # addi x5, x5, 1092
    .word 0x10512023  # sw x5, 256(x2)
    .word 0x000092b7  # lui x5, 0x00009
    .word 0x88828293  # addi x5, x5, -1912
    .word 0x10512223  # sw x5, 260(x2)
    .word 0x000032b7  # lui x5, 0x00003
    .word 0x33328293  # addi x5, x5, 819
    .word 0x10512423  # sw x5, 264(x2)
    .word 0x02012823  # sw x0, 48(x2)
    .word 0x02012a23  # sw x0, 52(x2)
    .word 0x02012c23  # sw x0, 56(x2)
    .word 0x02012e23  # sw x0, 60(x2)
    .word 0x04012023  # sw x0, 64(x2)
    .word 0x04012223  # sw x0, 68(x2)
    .word 0x04012423  # sw x0, 72(x2)
    .word 0x04012623  # sw x0, 76(x2)
    .word 0x04012823  # sw x0, 80(x2)
    .word 0x04012a23  # sw x0, 84(x2)
    .word 0x04012c23  # sw x0, 88(x2)
    .word 0x04012e23  # sw x0, 92(x2)
    .word 0x06012023  # sw x0, 96(x2)
    .word 0x06012223  # sw x0, 100(x2)
    .word 0x06012423  # sw x0, 104(x2)
    .word 0x06012623  # sw x0, 108(x2)
    .word 0x06012823  # sw x0, 112(x2)
    .word 0x06012a23  # sw x0, 116(x2)
    .word 0x06012c23  # sw x0, 120(x2)
    .word 0x06012e23  # sw x0, 124(x2)
    .word 0x08012023  # sw x0, 128(x2)
    .word 0x08012223  # sw x0, 132(x2)
    .word 0x08012423  # sw x0, 136(x2)
    .word 0x08012623  # sw x0, 140(x2)
    .word 0x08012823  # sw x0, 144(x2)
    .word 0x08012a23  # sw x0, 148(x2)
    .word 0x08012c23  # sw x0, 152(x2)
    .word 0x08012e23  # sw x0, 156(x2)
    .word 0x0a012023  # sw x0, 160(x2)
    .word 0x0a012223  # sw x0, 164(x2)
    .word 0x0a012423  # sw x0, 168(x2)
    .word 0x0a012623  # sw x0, 172(x2)
    .word 0x00100513  # addi x10, x0, 1
    .word 0xfff00b13  # addi x22, x0, -1
    .word 0x001b0b13  # addi x22, x22, 1
    .word 0x002b1493  # slli x9, x22, 2
    .word 0x002484b3  # add x9, x9, x2
    .word 0x002b02b3  # add x5, x22, x2
    .word 0x0202c283  # lbu x5, 32(x5)
    .word 0x002b0333  # add x6, x22, x2
    .word 0x02834303  # lbu x6, 40(x6)
    .word 0x00831313  # slli x6, x6, 8
    .word 0x0062ec33  # or x24, x5, x6
    .word 0x002b02b3  # add x5, x22, x2
    .word 0x0002c283  # lbu x5, 0(x5)
    .word 0x01029293  # slli x5, x5, 16
    .word 0x002b0333  # add x6, x22, x2
    .word 0x00834303  # lbu x6, 8(x6)
    .word 0x01831313  # slli x6, x6, 24
    .word 0x0062ecb3  # or x25, x5, x6
    .word 0x019c62b3  # or x5, x24, x25
    .word 0x0254a823  # sw x5, 48(x9)
    .word 0x002b02b3  # add x5, x22, x2
    .word 0x0102c283  # lbu x5, 16(x5)
    .word 0x01029293  # slli x5, x5, 16
    .word 0x002b0333  # add x6, x22, x2
    .word 0x01834303  # lbu x6, 24(x6)
    .word 0x01831313  # slli x6, x6, 24
    .word 0x0062e2b3  # or x5, x5, x6
    .word 0x0654a823  # sw x5, 112(x9)
    .word 0xff9b0293  # addi x5, x22, -7
    .word 0xf8029ae3  # bne x5, x0, -108
    .word 0x03012283  # lw x5, 48(x2)
    .word 0x0012d293  # srli x5, x5, 1
    .word 0x03412303  # lw x6, 52(x2)
    .word 0x0062c2b3  # xor x5, x5, x6
    .word 0x0f012303  # lw x6, 240(x2)
    .word 0x0062fc33  # and x24, x5, x6
    .word 0x03412283  # lw x5, 52(x2)
    .word 0x0182c2b3  # xor x5, x5, x24
    .word 0x02512a23  # sw x5, 52(x2)
    .word 0x03012283  # lw x5, 48(x2)
    .word 0x001c1313  # slli x6, x24, 1
    .word 0x0062cc33  # xor x24, x5, x6
    .word 0x03812823  # sw x24, 48(x2)
    .word 0x03812283  # lw x5, 56(x2)
    .word 0x0012d293  # srli x5, x5, 1
    .word 0x03c12303  # lw x6, 60(x2)
    .word 0x0062c2b3  # xor x5, x5, x6
    .word 0x0f012303  # lw x6, 240(x2)
    .word 0x0062fc33  # and x24, x5, x6
    .word 0x03c12283  # lw x5, 60(x2)
    .word 0x0182c2b3  # xor x5, x5, x24
    .word 0x02512e23  # sw x5, 60(x2)
    .word 0x03812283  # lw x5, 56(x2)
    .word 0x001c1313  # slli x6, x24, 1
    .word 0x0062cc33  # xor x24, x5, x6
    .word 0x03812c23  # sw x24, 56(x2)
    .word 0x04012283  # lw x5, 64(x2)
    .word 0x0012d293  # srli x5, x5, 1
    .word 0x04412303  # lw x6, 68(x2)
    .word 0x0062c2b3  # xor x5, x5, x6
    .word 0x0f012303  # lw x6, 240(x2)
    .word 0x0062fc33  # and x24, x5, x6
    .word 0x04412283  # lw x5, 68(x2)
    .word 0x0182c2b3  # xor x5, x5, x24
    .word 0x04512223  # sw x5, 68(x2)
    .word 0x04012283  # lw x5, 64(x2)
    .word 0x001c1313  # slli x6, x24, 1
    .word 0x0062cc33  # xor x24, x5, x6
    .word 0x05812023  # sw x24, 64(x2)
    .word 0x04812283  # lw x5, 72(x2)
    .word 0x0012d293  # srli x5, x5, 1
    .word 0x04c12303  # lw x6, 76(x2)
    .word 0x0062c2b3  # xor x5, x5, x6
    .word 0x0f012303  # lw x6, 240(x2)
    .word 0x0062fc33  # and x24, x5, x6
    .word 0x04c12283  # lw x5, 76(x2)
    .word 0x0182c2b3  # xor x5, x5, x24
    .word 0x04512623  # sw x5, 76(x2)
    .word 0x04812283  # lw x5, 72(x2)
    .word 0x001c1313  # slli x6, x24, 1
    .word 0x0062cc33  # xor x24, x5, x6
    .word 0x05812423  # sw x24, 72(x2)
    .word 0x03012283  # lw x5, 48(x2)
    .word 0x0022d293  # srli x5, x5, 2
    .word 0x03812303  # lw x6, 56(x2)
    .word 0x0062c2b3  # xor x5, x5, x6
    .word 0x0f412303  # lw x6, 244(x2)
    .word 0x0062fc33  # and x24, x5, x6
    .word 0x03812283  # lw x5, 56(x2)
    .word 0x0182c2b3  # xor x5, x5, x24
    .word 0x02512c23  # sw x5, 56(x2)
    .word 0x03012283  # lw x5, 48(x2)
    .word 0x002c1313  # slli x6, x24, 2
    .word 0x0062cc33  # xor x24, x5, x6
    .word 0x03812823  # sw x24, 48(x2)
    .word 0x03412283  # lw x5, 52(x2)
    .word 0x0022d293  # srli x5, x5, 2
    .word 0x03c12303  # lw x6, 60(x2)
    .word 0x0062c2b3  # xor x5, x5, x6
    .word 0x0f412303  # lw x6, 244(x2)
    .word 0x0062fc33  # and x24, x5, x6
    .word 0x03c12283  # lw x5, 60(x2)
    .word 0x0182c2b3  # xor x5, x5, x24
    .word 0x02512e23  # sw x5, 60(x2)
    .word 0x03412283  # lw x5, 52(x2)
    .word 0x002c1313  # slli x6, x24, 2
    .word 0x0062cc33  # xor x24, x5, x6
    .word 0x03812a23  # sw x24, 52(x2)
    .word 0x04012283  # lw x5, 64(x2)
    .word 0x0022d293  # srli x5, x5, 2
    .word 0x04812303  # lw x6, 72(x2)
    .word 0x0062c2b3  # xor x5, x5, x6
    .word 0x0f412303  # lw x6, 244(x2)
    .word 0x0062fc33  # and x24, x5, x6
    .word 0x04812283  # lw x5, 72(x2)
    .word 0x0182c2b3  # xor x5, x5, x24
    .word 0x04512423  # sw x5, 72(x2)
    .word 0x04012283  # lw x5, 64(x2)
    .word 0x002c1313  # slli x6, x24, 2
    .word 0x0062cc33  # xor x24, x5, x6
    .word 0x05812023  # sw x24, 64(x2)
    .word 0x04412283  # lw x5, 68(x2)
    .word 0x0022d293  # srli x5, x5, 2
    .word 0x04c12303  # lw x6, 76(x2)
    .word 0x0062c2b3  # xor x5, x5, x6
    .word 0x0f412303  # lw x6, 244(x2)
    .word 0x0062fc33  # and x24, x5, x6
    .word 0x04c12283  # lw x5, 76(x2)
    .word 0x0182c2b3  # xor x5, x5, x24
    .word 0x04512623  # sw x5, 76(x2)
    .word 0x04412283  # lw x5, 68(x2)
    .word 0x002c1313  # slli x6, x24, 2
    .word 0x0062cc33  # xor x24, x5, x6
    .word 0x05812223  # sw x24, 68(x2)
    .word 0x03012283  # lw x5, 48(x2)
    .word 0x0042d293  # srli x5, x5, 4
    .word 0x04012303  # lw x6, 64(x2)
    .word 0x0062c2b3  # xor x5, x5, x6
    .word 0x0f812303  # lw x6, 248(x2)
    .word 0x0062fc33  # and x24, x5, x6
    .word 0x04012283  # lw x5, 64(x2)
    .word 0x0182c2b3  # xor x5, x5, x24
    .word 0x04512023  # sw x5, 64(x2)
    .word 0x03012283  # lw x5, 48(x2)
    .word 0x004c1313  # slli x6, x24, 4
    .word 0x0062cc33  # xor x24, x5, x6
    .word 0x03812823  # sw x24, 48(x2)
    .word 0x03412283  # lw x5, 52(x2)
    .word 0x0042d293  # srli x5, x5, 4
    .word 0x04412303  # lw x6, 68(x2)
    .word 0x0062c2b3  # xor x5, x5, x6
    .word 0x0f812303  # lw x6, 248(x2)
    .word 0x0062fc33  # and x24, x5, x6
    .word 0x04412283  # lw x5, 68(x2)
    .word 0x0182c2b3  # xor x5, x5, x24
    .word 0x04512223  # sw x5, 68(x2)
    .word 0x03412283  # lw x5, 52(x2)
    .word 0x004c1313  # slli x6, x24, 4
    .word 0x0062cc33  # xor x24, x5, x6
    .word 0x03812a23  # sw x24, 52(x2)
    .word 0x03812283  # lw x5, 56(x2)
    .word 0x0042d293  # srli x5, x5, 4
    .word 0x04812303  # lw x6, 72(x2)
    .word 0x0062c2b3  # xor x5, x5, x6
    .word 0x0f812303  # lw x6, 248(x2)
    .word 0x0062fc33  # and x24, x5, x6
    .word 0x04812283  # lw x5, 72(x2)
    .word 0x0182c2b3  # xor x5, x5, x24
    .word 0x04512423  # sw x5, 72(x2)
    .word 0x03812283  # lw x5, 56(x2)
    .word 0x004c1313  # slli x6, x24, 4
    .word 0x0062cc33  # xor x24, x5, x6
    .word 0x03812c23  # sw x24, 56(x2)
    .word 0x03c12283  # lw x5, 60(x2)
    .word 0x0042d293  # srli x5, x5, 4
    .word 0x04c12303  # lw x6, 76(x2)
    .word 0x0062c2b3  # xor x5, x5, x6
    .word 0x0f812303  # lw x6, 248(x2)
    .word 0x0062fc33  # and x24, x5, x6
    .word 0x04c12283  # lw x5, 76(x2)
    .word 0x0182c2b3  # xor x5, x5, x24
    .word 0x04512623  # sw x5, 76(x2)
    .word 0x03c12283  # lw x5, 60(x2)
    .word 0x004c1313  # slli x6, x24, 4
    .word 0x0062cc33  # xor x24, x5, x6
    .word 0x03812e23  # sw x24, 60(x2)
    .word 0x07012283  # lw x5, 112(x2)
    .word 0x0012d293  # srli x5, x5, 1
    .word 0x07412303  # lw x6, 116(x2)
    .word 0x0062c2b3  # xor x5, x5, x6
    .word 0x0f012303  # lw x6, 240(x2)
    .word 0x0062fc33  # and x24, x5, x6
    .word 0x07412283  # lw x5, 116(x2)
    .word 0x0182c2b3  # xor x5, x5, x24
    .word 0x06512a23  # sw x5, 116(x2)
    .word 0x07012283  # lw x5, 112(x2)
    .word 0x001c1313  # slli x6, x24, 1
    .word 0x0062cc33  # xor x24, x5, x6
    .word 0x07812823  # sw x24, 112(x2)
    .word 0x07812283  # lw x5, 120(x2)
    .word 0x0012d293  # srli x5, x5, 1
    .word 0x07c12303  # lw x6, 124(x2)
    .word 0x0062c2b3  # xor x5, x5, x6
    .word 0x0f012303  # lw x6, 240(x2)
    .word 0x0062fc33  # and x24, x5, x6
    .word 0x07c12283  # lw x5, 124(x2)
    .word 0x0182c2b3  # xor x5, x5, x24
    .word 0x06512e23  # sw x5, 124(x2)
    .word 0x07812283  # lw x5, 120(x2)
    .word 0x001c1313  # slli x6, x24, 1
    .word 0x0062cc33  # xor x24, x5, x6
    .word 0x07812c23  # sw x24, 120(x2)
    .word 0x08012283  # lw x5, 128(x2)
    .word 0x0012d293  # srli x5, x5, 1
    .word 0x08412303  # lw x6, 132(x2)
    .word 0x0062c2b3  # xor x5, x5, x6
    .word 0x0f012303  # lw x6, 240(x2)
    .word 0x0062fc33  # and x24, x5, x6
    .word 0x08412283  # lw x5, 132(x2)
    .word 0x0182c2b3  # xor x5, x5, x24
    .word 0x08512223  # sw x5, 132(x2)
    .word 0x08012283  # lw x5, 128(x2)
    .word 0x001c1313  # slli x6, x24, 1
    .word 0x0062cc33  # xor x24, x5, x6
    .word 0x09812023  # sw x24, 128(x2)
    .word 0x08812283  # lw x5, 136(x2)
    .word 0x0012d293  # srli x5, x5, 1
    .word 0x08c12303  # lw x6, 140(x2)
    .word 0x0062c2b3  # xor x5, x5, x6
    .word 0x0f012303  # lw x6, 240(x2)
    .word 0x0062fc33  # and x24, x5, x6
    .word 0x08c12283  # lw x5, 140(x2)
    .word 0x0182c2b3  # xor x5, x5, x24
    .word 0x08512623  # sw x5, 140(x2)
    .word 0x08812283  # lw x5, 136(x2)
    .word 0x001c1313  # slli x6, x24, 1
    .word 0x0062cc33  # xor x24, x5, x6
    .word 0x09812423  # sw x24, 136(x2)
    .word 0x07012283  # lw x5, 112(x2)
    .word 0x0022d293  # srli x5, x5, 2
    .word 0x07812303  # lw x6, 120(x2)
    .word 0x0062c2b3  # xor x5, x5, x6
    .word 0x0f412303  # lw x6, 244(x2)
    .word 0x0062fc33  # and x24, x5, x6
    .word 0x07812283  # lw x5, 120(x2)
    .word 0x0182c2b3  # xor x5, x5, x24
    .word 0x06512c23  # sw x5, 120(x2)
    .word 0x07012283  # lw x5, 112(x2)
    .word 0x002c1313  # slli x6, x24, 2
    .word 0x0062cc33  # xor x24, x5, x6
    .word 0x07812823  # sw x24, 112(x2)
    .word 0x07412283  # lw x5, 116(x2)
    .word 0x0022d293  # srli x5, x5, 2
    .word 0x07c12303  # lw x6, 124(x2)
    .word 0x0062c2b3  # xor x5, x5, x6
    .word 0x0f412303  # lw x6, 244(x2)
    .word 0x0062fc33  # and x24, x5, x6
    .word 0x07c12283  # lw x5, 124(x2)
    .word 0x0182c2b3  # xor x5, x5, x24
    .word 0x06512e23  # sw x5, 124(x2)
    .word 0x07412283  # lw x5, 116(x2)
    .word 0x002c1313  # slli x6, x24, 2
    .word 0x0062cc33  # xor x24, x5, x6
    .word 0x07812a23  # sw x24, 116(x2)
    .word 0x08012283  # lw x5, 128(x2)
    .word 0x0022d293  # srli x5, x5, 2
    .word 0x08812303  # lw x6, 136(x2)
    .word 0x0062c2b3  # xor x5, x5, x6
    .word 0x0f412303  # lw x6, 244(x2)
    .word 0x0062fc33  # and x24, x5, x6
    .word 0x08812283  # lw x5, 136(x2)
    .word 0x0182c2b3  # xor x5, x5, x24
    .word 0x08512423  # sw x5, 136(x2)
    .word 0x08012283  # lw x5, 128(x2)
    .word 0x002c1313  # slli x6, x24, 2
    .word 0x0062cc33  # xor x24, x5, x6
    .word 0x09812023  # sw x24, 128(x2)
    .word 0x08412283  # lw x5, 132(x2)
    .word 0x0022d293  # srli x5, x5, 2
    .word 0x08c12303  # lw x6, 140(x2)
    .word 0x0062c2b3  # xor x5, x5, x6
    .word 0x0f412303  # lw x6, 244(x2)
    .word 0x0062fc33  # and x24, x5, x6
    .word 0x08c12283  # lw x5, 140(x2)
    .word 0x0182c2b3  # xor x5, x5, x24
    .word 0x08512623  # sw x5, 140(x2)
    .word 0x08412283  # lw x5, 132(x2)
    .word 0x002c1313  # slli x6, x24, 2
    .word 0x0062cc33  # xor x24, x5, x6
    .word 0x09812223  # sw x24, 132(x2)
    .word 0x07012283  # lw x5, 112(x2)
    .word 0x0042d293  # srli x5, x5, 4
    .word 0x08012303  # lw x6, 128(x2)
    .word 0x0062c2b3  # xor x5, x5, x6
    .word 0x0f812303  # lw x6, 248(x2)
    .word 0x0062fc33  # and x24, x5, x6
    .word 0x08012283  # lw x5, 128(x2)
    .word 0x0182c2b3  # xor x5, x5, x24
    .word 0x08512023  # sw x5, 128(x2)
    .word 0x07012283  # lw x5, 112(x2)
    .word 0x004c1313  # slli x6, x24, 4
    .word 0x0062cc33  # xor x24, x5, x6
    .word 0x07812823  # sw x24, 112(x2)
    .word 0x07412283  # lw x5, 116(x2)
    .word 0x0042d293  # srli x5, x5, 4
    .word 0x08412303  # lw x6, 132(x2)
    .word 0x0062c2b3  # xor x5, x5, x6
    .word 0x0f812303  # lw x6, 248(x2)
    .word 0x0062fc33  # and x24, x5, x6
    .word 0x08412283  # lw x5, 132(x2)
    .word 0x0182c2b3  # xor x5, x5, x24
    .word 0x08512223  # sw x5, 132(x2)
    .word 0x07412283  # lw x5, 116(x2)
    .word 0x004c1313  # slli x6, x24, 4
    .word 0x0062cc33  # xor x24, x5, x6
    .word 0x07812a23  # sw x24, 116(x2)
    .word 0x07812283  # lw x5, 120(x2)
    .word 0x0042d293  # srli x5, x5, 4
    .word 0x08812303  # lw x6, 136(x2)
    .word 0x0062c2b3  # xor x5, x5, x6
    .word 0x0f812303  # lw x6, 248(x2)
    .word 0x0062fc33  # and x24, x5, x6
    .word 0x08812283  # lw x5, 136(x2)
    .word 0x0182c2b3  # xor x5, x5, x24
    .word 0x08512423  # sw x5, 136(x2)
    .word 0x07812283  # lw x5, 120(x2)
    .word 0x004c1313  # slli x6, x24, 4
    .word 0x0062cc33  # xor x24, x5, x6
    .word 0x07812c23  # sw x24, 120(x2)
    .word 0x07c12283  # lw x5, 124(x2)
    .word 0x0042d293  # srli x5, x5, 4
    .word 0x08c12303  # lw x6, 140(x2)
    .word 0x0062c2b3  # xor x5, x5, x6
    .word 0x0f812303  # lw x6, 248(x2)
    .word 0x0062fc33  # and x24, x5, x6
    .word 0x08c12283  # lw x5, 140(x2)
    .word 0x0182c2b3  # xor x5, x5, x24
    .word 0x08512623  # sw x5, 140(x2)
    .word 0x07c12283  # lw x5, 124(x2)
    .word 0x004c1313  # slli x6, x24, 4
    .word 0x0062cc33  # xor x24, x5, x6
    .word 0x07812e23  # sw x24, 124(x2)
    .word 0xfff00b13  # addi x22, x0, -1
    .word 0x001b0b13  # addi x22, x22, 1
    .word 0x002b1493  # slli x9, x22, 2
    .word 0x002484b3  # add x9, x9, x2
    .word 0x0304ac03  # lw x24, 48(x9)
    .word 0x010c5c93  # srli x25, x24, 16
    .word 0x010c9293  # slli x5, x25, 16
    .word 0x0454a823  # sw x5, 80(x9)
    .word 0x019c42b3  # xor x5, x24, x25
    .word 0x0254a823  # sw x5, 48(x9)
    .word 0xff9b0293  # addi x5, x22, -7
    .word 0xfc029ce3  # bne x5, x0, -40
    .word 0x00000593  # addi x11, x0, 0
    .word 0x00158593  # addi x11, x11, 1
    .word 0x04c12c03  # lw x24, 76(x2)
    .word 0x04812783  # lw x15, 72(x2)
    .word 0x04412b83  # lw x23, 68(x2)
    .word 0x04012d03  # lw x26, 64(x2)
    .word 0x03c12883  # lw x17, 60(x2)
    .word 0x03812a03  # lw x20, 56(x2)
    .word 0x03412703  # lw x14, 52(x2)
    .word 0x03012c83  # lw x25, 48(x2)
    .word 0x014d42b3  # xor x5, x26, x20
    .word 0x0a512823  # sw x5, 176(x2)
    .word 0x00ec4633  # xor x12, x24, x14
    .word 0x01ac42b3  # xor x5, x24, x26
    .word 0x0a512a23  # sw x5, 180(x2)
    .word 0x014c46b3  # xor x13, x24, x20
    .word 0x0177c833  # xor x16, x15, x23
    .word 0x01984bb3  # xor x23, x16, x25
    .word 0x01abc2b3  # xor x5, x23, x26
    .word 0x0a512c23  # sw x5, 184(x2)
    .word 0x0b012303  # lw x6, 176(x2)
    .word 0x006642b3  # xor x5, x12, x6
    .word 0x0a512e23  # sw x5, 188(x2)
    .word 0x018bc2b3  # xor x5, x23, x24
    .word 0x0c512023  # sw x5, 192(x2)
    .word 0x00ebc2b3  # xor x5, x23, x14
    .word 0x0c512223  # sw x5, 196(x2)
    .word 0x0c412283  # lw x5, 196(x2)
    .word 0x00d2c2b3  # xor x5, x5, x13
    .word 0x0c512423  # sw x5, 200(x2)
    .word 0x0bc12303  # lw x6, 188(x2)
    .word 0x0068cd33  # xor x26, x17, x6
    .word 0x014d4733  # xor x14, x26, x20
    .word 0x00fd4a33  # xor x20, x26, x15
    .word 0x019742b3  # xor x5, x14, x25
    .word 0x0c512623  # sw x5, 204(x2)
    .word 0x010747b3  # xor x15, x14, x16
    .word 0x0b412303  # lw x6, 180(x2)
    .word 0x006a4d33  # xor x26, x20, x6
    .word 0x01acc2b3  # xor x5, x25, x26
    .word 0x0c512823  # sw x5, 208(x2)
    .word 0x01a7c2b3  # xor x5, x15, x26
    .word 0x0c512a23  # sw x5, 212(x2)
    .word 0x00d7cab3  # xor x21, x15, x13
    .word 0x01a84833  # xor x16, x16, x26
    .word 0x010649b3  # xor x19, x12, x16
    .word 0x010c42b3  # xor x5, x24, x16
    .word 0x0e512023  # sw x5, 224(x2)
    .word 0x0bc12283  # lw x5, 188(x2)
    .word 0x00e2fc33  # and x24, x5, x14
    .word 0x0c812283  # lw x5, 200(x2)
    .word 0x0cc12303  # lw x6, 204(x2)
    .word 0x0062f8b3  # and x17, x5, x6
    .word 0x0188c933  # xor x18, x17, x24
    .word 0x0b812283  # lw x5, 184(x2)
    .word 0x0192f8b3  # and x17, x5, x25
    .word 0x0188c2b3  # xor x5, x17, x24
    .word 0x0e512223  # sw x5, 228(x2)
    .word 0x01067c33  # and x24, x12, x16
    .word 0x0c412283  # lw x5, 196(x2)
    .word 0x0172f8b3  # and x17, x5, x23
    .word 0x0188c2b3  # xor x5, x17, x24
    .word 0x0e512423  # sw x5, 232(x2)
    .word 0x0c012283  # lw x5, 192(x2)
    .word 0x0d012303  # lw x6, 208(x2)
    .word 0x0062f8b3  # and x17, x5, x6
    .word 0x0188c2b3  # xor x5, x17, x24
    .word 0x0c512c23  # sw x5, 216(x2)
    .word 0x0b412283  # lw x5, 180(x2)
    .word 0x01a2fc33  # and x24, x5, x26
    .word 0x0b012283  # lw x5, 176(x2)
    .word 0x0d412303  # lw x6, 212(x2)
    .word 0x0062f8b3  # and x17, x5, x6
    .word 0x0188c8b3  # xor x17, x17, x24
    .word 0x00f6f2b3  # and x5, x13, x15
    .word 0x0c512e23  # sw x5, 220(x2)
    .word 0x0dc12283  # lw x5, 220(x2)
    .word 0x0182cc33  # xor x24, x5, x24
    .word 0x01194933  # xor x18, x18, x17
    .word 0x0e412283  # lw x5, 228(x2)
    .word 0x0182c2b3  # xor x5, x5, x24
    .word 0x0e512223  # sw x5, 228(x2)
    .word 0x0e812283  # lw x5, 232(x2)
    .word 0x0112c8b3  # xor x17, x5, x17
    .word 0x0d812283  # lw x5, 216(x2)
    .word 0x0182c2b3  # xor x5, x5, x24
    .word 0x0e512423  # sw x5, 232(x2)
    .word 0x01494a33  # xor x20, x18, x20
    .word 0x0e412283  # lw x5, 228(x2)
    .word 0x0152cc33  # xor x24, x5, x21
    .word 0x0138cab3  # xor x21, x17, x19
    .word 0x0e812283  # lw x5, 232(x2)
    .word 0x0e012303  # lw x6, 224(x2)
    .word 0x0062c8b3  # xor x17, x5, x6
    .word 0x018a42b3  # xor x5, x20, x24
    .word 0x0e512023  # sw x5, 224(x2)
    .word 0x015a7933  # and x18, x20, x21
    .word 0x0128c9b3  # xor x19, x17, x18
    .word 0x0e012283  # lw x5, 224(x2)
    .word 0x0132fa33  # and x20, x5, x19
    .word 0x018a4a33  # xor x20, x20, x24
    .word 0x011ac2b3  # xor x5, x21, x17
    .word 0x0e512223  # sw x5, 228(x2)
    .word 0x012c4c33  # xor x24, x24, x18
    .word 0x0e412303  # lw x6, 228(x2)
    .word 0x006c7c33  # and x24, x24, x6
    .word 0x011c4c33  # xor x24, x24, x17
    .word 0x018ac933  # xor x18, x21, x24
    .word 0x0189cab3  # xor x21, x19, x24
    .word 0x0158fab3  # and x21, x17, x21
    .word 0x012ac8b3  # xor x17, x21, x18
    .word 0x0159cab3  # xor x21, x19, x21
    .word 0x015a7ab3  # and x21, x20, x21
    .word 0x0e012283  # lw x5, 224(x2)
    .word 0x0152cab3  # xor x21, x5, x21
    .word 0x011ac9b3  # xor x19, x21, x17
    .word 0x018a42b3  # xor x5, x20, x24
    .word 0x0e512023  # sw x5, 224(x2)
    .word 0x015a4933  # xor x18, x20, x21
    .word 0x011c42b3  # xor x5, x24, x17
    .word 0x0e512223  # sw x5, 228(x2)
    .word 0x0e012283  # lw x5, 224(x2)
    .word 0x0132c2b3  # xor x5, x5, x19
    .word 0x0e512423  # sw x5, 232(x2)
    .word 0x0e412283  # lw x5, 228(x2)
    .word 0x00e2f2b3  # and x5, x5, x14
    .word 0x0c512c23  # sw x5, 216(x2)
    .word 0x0cc12303  # lw x6, 204(x2)
    .word 0x0068f2b3  # and x5, x17, x6
    .word 0x0c512623  # sw x5, 204(x2)
    .word 0x019c7cb3  # and x25, x24, x25
    .word 0x01097733  # and x14, x18, x16
    .word 0x017afbb3  # and x23, x21, x23
    .word 0x0d012303  # lw x6, 208(x2)
    .word 0x006a7833  # and x16, x20, x6
    .word 0x0e012283  # lw x5, 224(x2)
    .word 0x01a2f2b3  # and x5, x5, x26
    .word 0x0c512823  # sw x5, 208(x2)
    .word 0x0e812283  # lw x5, 232(x2)
    .word 0x0d412303  # lw x6, 212(x2)
    .word 0x0062fd33  # and x26, x5, x6
    .word 0x00f9f2b3  # and x5, x19, x15
    .word 0x0c512a23  # sw x5, 212(x2)
    .word 0x0e412283  # lw x5, 228(x2)
    .word 0x0bc12303  # lw x6, 188(x2)
    .word 0x0062f2b3  # and x5, x5, x6
    .word 0x0a512e23  # sw x5, 188(x2)
    .word 0x0c812303  # lw x6, 200(x2)
    .word 0x0068f7b3  # and x15, x17, x6
    .word 0x0b812303  # lw x6, 184(x2)
    .word 0x006c78b3  # and x17, x24, x6
    .word 0x00c97c33  # and x24, x18, x12
    .word 0x0c412303  # lw x6, 196(x2)
    .word 0x006afab3  # and x21, x21, x6
    .word 0x0c012303  # lw x6, 192(x2)
    .word 0x006a72b3  # and x5, x20, x6
    .word 0x0c512223  # sw x5, 196(x2)
    .word 0x0e012283  # lw x5, 224(x2)
    .word 0x0b412303  # lw x6, 180(x2)
    .word 0x0062f633  # and x12, x5, x6
    .word 0x0e812283  # lw x5, 232(x2)
    .word 0x0b012303  # lw x6, 176(x2)
    .word 0x0062fa33  # and x20, x5, x6
    .word 0x00d9f2b3  # and x5, x19, x13
    .word 0x0a512823  # sw x5, 176(x2)
    .word 0x01464633  # xor x12, x12, x20
    .word 0x0117c8b3  # xor x17, x15, x17
    .word 0x015846b3  # xor x13, x16, x21
    .word 0x0bc12283  # lw x5, 188(x2)
    .word 0x00f2c7b3  # xor x15, x5, x15
    .word 0x018ccab3  # xor x21, x25, x24
    .word 0x010cc833  # xor x16, x25, x16
    .word 0x0d412303  # lw x6, 212(x2)
    .word 0x006d42b3  # xor x5, x26, x6
    .word 0x0a512a23  # sw x5, 180(x2)
    .word 0x0d812283  # lw x5, 216(x2)
    .word 0x00e2ccb3  # xor x25, x5, x14
    .word 0x0d012283  # lw x5, 208(x2)
    .word 0x01a2c2b3  # xor x5, x5, x26
    .word 0x0a512e23  # sw x5, 188(x2)
    .word 0x0b012303  # lw x6, 176(x2)
    .word 0x006a42b3  # xor x5, x20, x6
    .word 0x0a512823  # sw x5, 176(x2)
    .word 0x00dc49b3  # xor x19, x24, x13
    .word 0x019acc33  # xor x24, x21, x25
    .word 0x00cbcd33  # xor x26, x23, x12
    .word 0x0bc12303  # lw x6, 188(x2)
    .word 0x00674a33  # xor x20, x14, x6
    .word 0x01864ab3  # xor x21, x12, x24
    .word 0x0c412283  # lw x5, 196(x2)
    .word 0x0182c633  # xor x12, x5, x24
    .word 0x0b412283  # lw x5, 180(x2)
    .word 0x01a2cc33  # xor x24, x5, x26
    .word 0x01a7cd33  # xor x26, x15, x26
    .word 0x014bcbb3  # xor x23, x23, x20
    .word 0x01864633  # xor x12, x12, x24
    .word 0x0cc12283  # lw x5, 204(x2)
    .word 0x01a2c733  # xor x14, x5, x26
    .word 0x01aa4d33  # xor x26, x20, x26
    .word 0x0189c2b3  # xor x5, x19, x24
    .word 0xfff2ca13  # xori x20, x5, -1
    .word 0x0156c2b3  # xor x5, x13, x21
    .word 0xfff2c693  # xori x13, x5, -1
    .word 0x00cbc7b3  # xor x15, x23, x12
    .word 0x00eccc33  # xor x24, x25, x14
    .word 0x00e84cb3  # xor x25, x16, x14
    .word 0x00c8c633  # xor x12, x17, x12
    .word 0x018bc2b3  # xor x5, x23, x24
    .word 0xfff2cb93  # xori x23, x5, -1
    .word 0x0b012283  # lw x5, 176(x2)
    .word 0x00f2c2b3  # xor x5, x5, x15
    .word 0xfff2c713  # xori x14, x5, -1
    .word 0x05a12623  # sw x26, 76(x2)
    .word 0x05712423  # sw x23, 72(x2)
    .word 0x04e12223  # sw x14, 68(x2)
    .word 0x05812023  # sw x24, 64(x2)
    .word 0x03912e23  # sw x25, 60(x2)
    .word 0x02c12c23  # sw x12, 56(x2)
    .word 0x03412a23  # sw x20, 52(x2)
    .word 0x02d12823  # sw x13, 48(x2)
    .word 0x00e5b293  # sltiu x5, x11, 14
    .word 0x0e512623  # sw x5, 236(x2)
    .word 0xfff00b13  # addi x22, x0, -1
    .word 0x001b0b13  # addi x22, x22, 1
    .word 0x002b1493  # slli x9, x22, 2
    .word 0x002484b3  # add x9, x9, x2
    .word 0x0304ab83  # lw x23, 48(x9)
    .word 0x0704ac03  # lw x24, 112(x9)
    .word 0x00100313  # addi x6, x0, 1
    .word 0x04b37863  # bgeu x6, x11, 80
    .word 0x01cbdc93  # srli x25, x23, 28
    .word 0x0015f293  # andi x5, x11, 1
    .word 0x02029063  # bne x5, x0, 32
    .word 0x001cd293  # srli x5, x25, 1
    .word 0x003c9313  # slli x6, x25, 3
    .word 0x0062e2b3  # or x5, x5, x6
    .word 0x00f2f293  # andi x5, x5, 15
    .word 0x01655333  # srl x6, x10, x22
    .word 0x00137313  # andi x6, x6, 1
    .word 0x0062ccb3  # xor x25, x5, x6
    .word 0x010c9293  # slli x5, x25, 16
    .word 0x0504a303  # lw x6, 80(x9)
    .word 0x0062ccb3  # xor x25, x5, x6
    .word 0x004c9313  # slli x6, x25, 4
    .word 0x006cccb3  # xor x25, x25, x6
    .word 0x0584a823  # sw x24, 80(x9)
    .word 0x008c9313  # slli x6, x25, 8
    .word 0x006ccc33  # xor x24, x25, x6
    .word 0x0784a823  # sw x24, 112(x9)
    .word 0x010b9c93  # slli x25, x23, 16
    .word 0x010cd313  # srli x6, x25, 16
    .word 0x006cecb3  # or x25, x25, x6
    .word 0x01bcf2b3  # and x5, x25, x27
    .word 0x004cd313  # srli x6, x25, 4
    .word 0x0fc12383  # lw x7, 252(x2)
    .word 0x00737333  # and x6, x6, x7
    .word 0x0062e2b3  # or x5, x5, x6
    .word 0x008cd313  # srli x6, x25, 8
    .word 0x10012383  # lw x7, 256(x2)
    .word 0x00737333  # and x6, x6, x7
    .word 0x0062e2b3  # or x5, x5, x6
    .word 0x00ccd313  # srli x6, x25, 12
    .word 0x10412383  # lw x7, 260(x2)
    .word 0x00737333  # and x6, x6, x7
    .word 0x0062ecb3  # or x25, x5, x6
    .word 0x010c5293  # srli x5, x24, 16
    .word 0x0182cc33  # xor x24, x5, x24
    .word 0x0ec12283  # lw x5, 236(x2)
    .word 0x04028263  # beq x5, x0, 68
    .word 0x01bcfbb3  # and x23, x25, x27
    .word 0x017cc2b3  # xor x5, x25, x23
    .word 0x0012d293  # srli x5, x5, 1
    .word 0x003b9313  # slli x6, x23, 3
    .word 0x0062ebb3  # or x23, x5, x6
    .word 0x017cccb3  # xor x25, x25, x23
    .word 0x10812303  # lw x6, 264(x2)
    .word 0x006cfd33  # and x26, x25, x6
    .word 0x0994a823  # sw x25, 144(x9)
    .word 0x017c42b3  # xor x5, x24, x23
    .word 0x01acc333  # xor x6, x25, x26
    .word 0x00235313  # srli x6, x6, 2
    .word 0x0062c2b3  # xor x5, x5, x6
    .word 0x002d1313  # slli x6, x26, 2
    .word 0x0062cc33  # xor x24, x5, x6
    .word 0x0080006f  # jal x0, 8
    .word 0x019c4c33  # xor x24, x24, x25
    .word 0x0384a823  # sw x24, 48(x9)
    .word 0xff9b0293  # addi x5, x22, -7
    .word 0xee029ee3  # bne x5, x0, -260
    .word 0x0ec12283  # lw x5, 236(x2)
    .word 0x08028863  # beq x5, x0, 144
    .word 0x0ac12c03  # lw x24, 172(x2)
    .word 0x03012283  # lw x5, 48(x2)
    .word 0x0182c2b3  # xor x5, x5, x24
    .word 0x02512823  # sw x5, 48(x2)
    .word 0x03412283  # lw x5, 52(x2)
    .word 0x09012303  # lw x6, 144(x2)
    .word 0x0062c2b3  # xor x5, x5, x6
    .word 0x0182c2b3  # xor x5, x5, x24
    .word 0x02512a23  # sw x5, 52(x2)
    .word 0x03812283  # lw x5, 56(x2)
    .word 0x09412303  # lw x6, 148(x2)
    .word 0x0062c2b3  # xor x5, x5, x6
    .word 0x02512c23  # sw x5, 56(x2)
    .word 0x03c12283  # lw x5, 60(x2)
    .word 0x09812303  # lw x6, 152(x2)
    .word 0x0062c2b3  # xor x5, x5, x6
    .word 0x0182c2b3  # xor x5, x5, x24
    .word 0x02512e23  # sw x5, 60(x2)
    .word 0x04012283  # lw x5, 64(x2)
    .word 0x09c12303  # lw x6, 156(x2)
    .word 0x0062c2b3  # xor x5, x5, x6
    .word 0x0182c2b3  # xor x5, x5, x24
    .word 0x04512023  # sw x5, 64(x2)
    .word 0x04412283  # lw x5, 68(x2)
    .word 0x0a012303  # lw x6, 160(x2)
    .word 0x0062c2b3  # xor x5, x5, x6
    .word 0x04512223  # sw x5, 68(x2)
    .word 0x04812283  # lw x5, 72(x2)
    .word 0x0a412303  # lw x6, 164(x2)
    .word 0x0062c2b3  # xor x5, x5, x6
    .word 0x04512423  # sw x5, 72(x2)
    .word 0x04c12283  # lw x5, 76(x2)
    .word 0x0a812303  # lw x6, 168(x2)
    .word 0x0062c2b3  # xor x5, x5, x6
    .word 0x04512623  # sw x5, 76(x2)
    .word 0x0015f293  # andi x5, x11, 1
    .word 0x00029463  # bne x5, x0, 8
    .word 0x00151513  # slli x10, x10, 1
    .word 0xff258293  # addi x5, x11, -14
    .word 0xac029ee3  # bne x5, x0, -1316
    .word 0x03012283  # lw x5, 48(x2)
    .word 0x0012d293  # srli x5, x5, 1
    .word 0x03412303  # lw x6, 52(x2)
    .word 0x0062c2b3  # xor x5, x5, x6
    .word 0x0f012303  # lw x6, 240(x2)
    .word 0x0062fc33  # and x24, x5, x6
    .word 0x03412283  # lw x5, 52(x2)
    .word 0x0182c2b3  # xor x5, x5, x24
    .word 0x02512a23  # sw x5, 52(x2)
    .word 0x03012283  # lw x5, 48(x2)
    .word 0x001c1313  # slli x6, x24, 1
    .word 0x0062cc33  # xor x24, x5, x6
    .word 0x03812823  # sw x24, 48(x2)
    .word 0x03812283  # lw x5, 56(x2)
    .word 0x0012d293  # srli x5, x5, 1
    .word 0x03c12303  # lw x6, 60(x2)
    .word 0x0062c2b3  # xor x5, x5, x6
    .word 0x0f012303  # lw x6, 240(x2)
    .word 0x0062fc33  # and x24, x5, x6
    .word 0x03c12283  # lw x5, 60(x2)
    .word 0x0182c2b3  # xor x5, x5, x24
    .word 0x02512e23  # sw x5, 60(x2)
    .word 0x03812283  # lw x5, 56(x2)
    .word 0x001c1313  # slli x6, x24, 1
    .word 0x0062cc33  # xor x24, x5, x6
    .word 0x03812c23  # sw x24, 56(x2)
    .word 0x04012283  # lw x5, 64(x2)
    .word 0x0012d293  # srli x5, x5, 1
    .word 0x04412303  # lw x6, 68(x2)
    .word 0x0062c2b3  # xor x5, x5, x6
    .word 0x0f012303  # lw x6, 240(x2)
    .word 0x0062fc33  # and x24, x5, x6
    .word 0x04412283  # lw x5, 68(x2)
    .word 0x0182c2b3  # xor x5, x5, x24
    .word 0x04512223  # sw x5, 68(x2)
    .word 0x04012283  # lw x5, 64(x2)
    .word 0x001c1313  # slli x6, x24, 1
    .word 0x0062cc33  # xor x24, x5, x6
    .word 0x05812023  # sw x24, 64(x2)
    .word 0x04812283  # lw x5, 72(x2)
    .word 0x0012d293  # srli x5, x5, 1
    .word 0x04c12303  # lw x6, 76(x2)
    .word 0x0062c2b3  # xor x5, x5, x6
    .word 0x0f012303  # lw x6, 240(x2)
    .word 0x0062fc33  # and x24, x5, x6
    .word 0x04c12283  # lw x5, 76(x2)
    .word 0x0182c2b3  # xor x5, x5, x24
    .word 0x04512623  # sw x5, 76(x2)
    .word 0x04812283  # lw x5, 72(x2)
    .word 0x001c1313  # slli x6, x24, 1
    .word 0x0062cc33  # xor x24, x5, x6
    .word 0x05812423  # sw x24, 72(x2)
    .word 0x03012283  # lw x5, 48(x2)
    .word 0x0022d293  # srli x5, x5, 2
    .word 0x03812303  # lw x6, 56(x2)
    .word 0x0062c2b3  # xor x5, x5, x6
    .word 0x0f412303  # lw x6, 244(x2)
    .word 0x0062fc33  # and x24, x5, x6
    .word 0x03812283  # lw x5, 56(x2)
    .word 0x0182c2b3  # xor x5, x5, x24
    .word 0x02512c23  # sw x5, 56(x2)
    .word 0x03012283  # lw x5, 48(x2)
    .word 0x002c1313  # slli x6, x24, 2
    .word 0x0062cc33  # xor x24, x5, x6
    .word 0x03812823  # sw x24, 48(x2)
    .word 0x03412283  # lw x5, 52(x2)
    .word 0x0022d293  # srli x5, x5, 2
    .word 0x03c12303  # lw x6, 60(x2)
    .word 0x0062c2b3  # xor x5, x5, x6
    .word 0x0f412303  # lw x6, 244(x2)
    .word 0x0062fc33  # and x24, x5, x6
    .word 0x03c12283  # lw x5, 60(x2)
    .word 0x0182c2b3  # xor x5, x5, x24
    .word 0x02512e23  # sw x5, 60(x2)
    .word 0x03412283  # lw x5, 52(x2)
    .word 0x002c1313  # slli x6, x24, 2
    .word 0x0062cc33  # xor x24, x5, x6
    .word 0x03812a23  # sw x24, 52(x2)
    .word 0x04012283  # lw x5, 64(x2)
    .word 0x0022d293  # srli x5, x5, 2
    .word 0x04812303  # lw x6, 72(x2)
    .word 0x0062c2b3  # xor x5, x5, x6
    .word 0x0f412303  # lw x6, 244(x2)
    .word 0x0062fc33  # and x24, x5, x6
    .word 0x04812283  # lw x5, 72(x2)
    .word 0x0182c2b3  # xor x5, x5, x24
    .word 0x04512423  # sw x5, 72(x2)
    .word 0x04012283  # lw x5, 64(x2)
    .word 0x002c1313  # slli x6, x24, 2
    .word 0x0062cc33  # xor x24, x5, x6
    .word 0x05812023  # sw x24, 64(x2)
    .word 0x04412283  # lw x5, 68(x2)
    .word 0x0022d293  # srli x5, x5, 2
    .word 0x04c12303  # lw x6, 76(x2)
    .word 0x0062c2b3  # xor x5, x5, x6
    .word 0x0f412303  # lw x6, 244(x2)
    .word 0x0062fc33  # and x24, x5, x6
    .word 0x04c12283  # lw x5, 76(x2)
    .word 0x0182c2b3  # xor x5, x5, x24
    .word 0x04512623  # sw x5, 76(x2)
    .word 0x04412283  # lw x5, 68(x2)
    .word 0x002c1313  # slli x6, x24, 2
    .word 0x0062cc33  # xor x24, x5, x6
    .word 0x05812223  # sw x24, 68(x2)
    .word 0x03012283  # lw x5, 48(x2)
    .word 0x0042d293  # srli x5, x5, 4
    .word 0x04012303  # lw x6, 64(x2)
    .word 0x0062c2b3  # xor x5, x5, x6
    .word 0x0f812303  # lw x6, 248(x2)
    .word 0x0062fc33  # and x24, x5, x6
    .word 0x04012283  # lw x5, 64(x2)
    .word 0x0182c2b3  # xor x5, x5, x24
    .word 0x04512023  # sw x5, 64(x2)
    .word 0x03012283  # lw x5, 48(x2)
    .word 0x004c1313  # slli x6, x24, 4
    .word 0x0062cc33  # xor x24, x5, x6
    .word 0x03812823  # sw x24, 48(x2)
    .word 0x03412283  # lw x5, 52(x2)
    .word 0x0042d293  # srli x5, x5, 4
    .word 0x04412303  # lw x6, 68(x2)
    .word 0x0062c2b3  # xor x5, x5, x6
    .word 0x0f812303  # lw x6, 248(x2)
    .word 0x0062fc33  # and x24, x5, x6
    .word 0x04412283  # lw x5, 68(x2)
    .word 0x0182c2b3  # xor x5, x5, x24
    .word 0x04512223  # sw x5, 68(x2)
    .word 0x03412283  # lw x5, 52(x2)
    .word 0x004c1313  # slli x6, x24, 4
    .word 0x0062cc33  # xor x24, x5, x6
    .word 0x03812a23  # sw x24, 52(x2)
    .word 0x03812283  # lw x5, 56(x2)
    .word 0x0042d293  # srli x5, x5, 4
    .word 0x04812303  # lw x6, 72(x2)
    .word 0x0062c2b3  # xor x5, x5, x6
    .word 0x0f812303  # lw x6, 248(x2)
    .word 0x0062fc33  # and x24, x5, x6
    .word 0x04812283  # lw x5, 72(x2)
    .word 0x0182c2b3  # xor x5, x5, x24
    .word 0x04512423  # sw x5, 72(x2)
    .word 0x03812283  # lw x5, 56(x2)
    .word 0x004c1313  # slli x6, x24, 4
    .word 0x0062cc33  # xor x24, x5, x6
    .word 0x03812c23  # sw x24, 56(x2)
    .word 0x03c12283  # lw x5, 60(x2)
    .word 0x0042d293  # srli x5, x5, 4
    .word 0x04c12303  # lw x6, 76(x2)
    .word 0x0062c2b3  # xor x5, x5, x6
    .word 0x0f812303  # lw x6, 248(x2)
    .word 0x0062fc33  # and x24, x5, x6
    .word 0x04c12283  # lw x5, 76(x2)
    .word 0x0182c2b3  # xor x5, x5, x24
    .word 0x04512623  # sw x5, 76(x2)
    .word 0x03c12283  # lw x5, 60(x2)
    .word 0x004c1313  # slli x6, x24, 4
    .word 0x0062cc33  # xor x24, x5, x6
    .word 0x03812e23  # sw x24, 60(x2)
    .word 0xfff00b13  # addi x22, x0, -1
    .word 0x001b0b13  # addi x22, x22, 1
    .word 0x002b1493  # slli x9, x22, 2
    .word 0x002484b3  # add x9, x9, x2
    .word 0x0304ac03  # lw x24, 48(x9)
    .word 0x002b02b3  # add x5, x22, x2
    .word 0x03828023  # sb x24, 32(x5)
    .word 0x008c5313  # srli x6, x24, 8
    .word 0x002b02b3  # add x5, x22, x2
    .word 0x02628423  # sb x6, 40(x5)
    .word 0xff9b0293  # addi x5, x22, -7
    .word 0xfc029ce3  # bne x5, x0, -40
    # the result
    .word 0x00000513  # addi x10, x0, 0
    # parameter 1: the array, back
    .word 0x02010293  # addi x5, x2, 32
    .word 0x15c12303  # lw x6, 348(x2)
    .word 0x01028393  # addi x7, x5, 16
    .word 0x0002ce03  # lbu x28, 0(x5)
    .word 0x01c30023  # sb x28, 0(x6)
    .word 0x00128293  # addi x5, x5, 1
    .word 0x00130313  # addi x6, x6, 1
    .word 0xfe7298e3  # bne x5, x7, -16
    # above the frame
    .word 0x12010293  # addi x5, x2, 288
    # the caller's registers
    .word 0x0002a483  # lw x9, 0(x5)
    .cfi_restore 9
    .word 0x0042a903  # lw x18, 4(x5)
    .cfi_restore 18
    .word 0x0082a983  # lw x19, 8(x5)
    .cfi_restore 19
    .word 0x00c2aa03  # lw x20, 12(x5)
    .cfi_restore 20
    .word 0x0102aa83  # lw x21, 16(x5)
    .cfi_restore 21
    .word 0x0142ab03  # lw x22, 20(x5)
    .cfi_restore 22
    .word 0x0182ab83  # lw x23, 24(x5)
    .cfi_restore 23
    .word 0x01c2ac03  # lw x24, 28(x5)
    .cfi_restore 24
    .word 0x0202ac83  # lw x25, 32(x5)
    .cfi_restore 25
    .word 0x0242ad03  # lw x26, 36(x5)
    .cfi_restore 26
    .word 0x0282ad83  # lw x27, 40(x5)
    .cfi_restore 27
    # the caller's x2
    .word 0x04028293  # addi x5, x5, 64
    .cfi_def_cfa 5, 0
    # on to the tail that functions share
    jal x0, factc.tail.1
    .cfi_endproc
    .size aes256_encrypt, . - aes256_encrypt
    .section .text.factc.tail.1, "axG", @progbits, factc.tail.1, comdat
    .p2align 2
    .globl factc.tail.1
    .hidden factc.tail.1
    .type factc.tail.1, @function
factc.tail.1:
    .cfi_startproc
    .cfi_def_cfa 5, 0
    # all the room, wiped upward
    .word 0x00012023  # sw x0, 0(x2)
    .word 0x00012223  # sw x0, 4(x2)
    .word 0x00012423  # sw x0, 8(x2)
    .word 0x00012623  # sw x0, 12(x2)
    .word 0x01010113  # addi x2, x2, 16
    .word 0xfe5116e3  # bne x2, x5, -20
    .cfi_def_cfa 2, 0
    # temporaries, wiped
    .word 0x00000293  # addi x5, x0, 0
    .word 0x00000313  # addi x6, x0, 0
    .word 0x00000393  # addi x7, x0, 0
    .word 0x00000593  # addi x11, x0, 0
    .word 0x00000613  # addi x12, x0, 0
    .word 0x00000693  # addi x13, x0, 0
    .word 0x00000713  # addi x14, x0, 0
    .word 0x00000793  # addi x15, x0, 0
    .word 0x00000813  # addi x16, x0, 0
    .word 0x00000893  # addi x17, x0, 0
    .word 0x00000e13  # addi x28, x0, 0
    .word 0x00000e93  # addi x29, x0, 0
    .word 0x00000f13  # addi x30, x0, 0
    .word 0x00000f93  # addi x31, x0, 0
    # back
    .word 0x00008067  # jalr x0, 0(x1)
    .cfi_endproc
    .size factc.tail.1, . - factc.tail.1
    .option pop
