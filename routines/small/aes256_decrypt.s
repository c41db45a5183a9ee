# aes256_decrypt: made by factc 1.0.0 function; 1161 words and 21 shared, 816 bytes of stack, profile 1
    .option push
    .option norvc
    .option norelax
    .cfi_sections .debug_frame
    .section .text.aes256_decrypt, "ax", @progbits
    .p2align 2
    .globl aes256_decrypt
    .type aes256_decrypt, @function
aes256_decrypt:
    .cfi_startproc
    # room above the frame
    .word 0xfc010113  # addi x2, x2, -64
    .cfi_def_cfa_offset 64
    # the caller's registers
    .word 0x00912023  # sw x9, 0(x2)
    .cfi_offset 9, -64
    .word 0x01212223  # sw x18, 4(x2)
    .cfi_offset 18, -60
    .word 0x01312423  # sw x19, 8(x2)
    .cfi_offset 19, -56
    .word 0x01412623  # sw x20, 12(x2)
    .cfi_offset 20, -52
    .word 0x01512823  # sw x21, 16(x2)
    .cfi_offset 21, -48
    .word 0x01612a23  # sw x22, 20(x2)
    .cfi_offset 22, -44
    .word 0x01712c23  # sw x23, 24(x2)
    .cfi_offset 23, -40
    .word 0x01812e23  # sw x24, 28(x2)
    .cfi_offset 24, -36
    .word 0x03912023  # sw x25, 32(x2)
    .cfi_offset 25, -32
    .word 0x03a12223  # sw x26, 36(x2)
    .cfi_offset 26, -28
    .word 0x03b12423  # sw x27, 40(x2)
    .cfi_offset 27, -24
    # arguments that are needed behind the body
    .word 0x02a12c23  # sw x10, 56(x2)
    .word 0x02b12e23  # sw x11, 60(x2)
    # the frame's base
    .word 0xd1010113  # addi x2, x2, -752
    .cfi_def_cfa 2, 816
    # parameter 0: an array
    .word 0x00050293  # addi x5, x10, 0
    .word 0x00010313  # addi x6, x2, 0
    .word 0x02028393  # addi x7, x5, 32
    .word 0x0002ce03  # lbu x28, 0(x5)
    .word 0x01c30023  # sb x28, 0(x6)
    .word 0x00128293  # addi x5, x5, 1
    .word 0x00130313  # addi x6, x6, 1
    .word 0xfe7298e3  # bne x5, x7, -16
    # parameter 1: an array
    .word 0x00058293  # addi x5, x11, 0
    .word 0x02010313  # addi x6, x2, 32
    .word 0x01028393  # addi x7, x5, 16
    .word 0x0002ce03  # lbu x28, 0(x5)
    .word 0x01c30023  # sb x28, 0(x6)
    .word 0x00128293  # addi x5, x5, 1
    .word 0x00130313  # addi x6, x6, 1
    .word 0xfe7298e3  # bne x5, x7, -16
    # the body
    .word 0x555552b7  # lui x5, 0x55555
    .word 0x55528293  # addi x5, x5, 1365
    .word 0x2c512023  # sw x5, 704(x2)
    .word 0x333332b7  # lui x5, 0x33333
    .word 0x33328293  # addi x5, x5, 819
    .word 0x2c512223  # sw x5, 708(x2)
    .word 0x0f0f12b7  # lui x5, 0x0f0f1
    .word 0xf0f28293  # addi x5, x5, -241
    .word 0x2c512423  # sw x5, 712(x2)
    .word 0x00001bb7  # lui x23, 0x00001
    .word 0x111b8b93  # addi x23, x23, 273
    .word 0x00002c37  # lui x24, 0x00002
    .word 0x222c0c13  # addi x24, x24, 546
    .word 0x00004cb7  # lui x25, 0x00004
    .word 0x444c8c93  # addi x25, x25, 1092
    .word 0x00009d37  # lui x26, 0x00009
    .word 0x888d0d13  # addi x26, x26, -1912
    .word 0x00010db7  # lui x27, 0x00010
    .word 0xfffd8d93  # addi x27, x27, -1
    .word 0x000032b7  # lui x5, 0x00003
    .word 0x33328293  # addi x5, x5, 819
    .word 0x2c512623  # sw x5, 716(x2)
    .word 0x02012823  # sw x0, 48(x2)
    .word 0x02012a23  # sw x0, 52(x2)
    .word 0x02012c23  # sw x0, 56(x2)
    .word 0x02012e23  # sw x0, 60(x2)
    .word 0x04012023  # sw x0, 64(x2)
    .word 0x04012223  # sw x0, 68(x2)
    .word 0x04012423  # sw x0, 72(x2)
    .word 0x04012623  # sw x0, 76(x2)
    .word 0x04012823  # sw x0, 80(x2)
    .word 0x04012a23  # sw x0, 84(x2)
    .word 0x04012c23  # sw x0, 88(x2)
    .word 0x04012e23  # sw x0, 92(x2)
    .word 0x06012023  # sw x0, 96(x2)
    .word 0x06012223  # sw x0, 100(x2)
    .word 0x06012423  # sw x0, 104(x2)
    .word 0x06012623  # sw x0, 108(x2)
    .word 0x06012823  # sw x0, 112(x2)
    .word 0x06012a23  # sw x0, 116(x2)
    .word 0x06012c23  # sw x0, 120(x2)
    .word 0x06012e23  # sw x0, 124(x2)
    .word 0x08012023  # sw x0, 128(x2)
    .word 0x08012223  # sw x0, 132(x2)
    .word 0x08012423  # sw x0, 136(x2)
    .word 0x08012623  # sw x0, 140(x2)
    .word 0x09000313  # addi x6, x0, 144
    .word 0x00230333  # add x6, x6, x2
    .word 0x1e000393  # addi x7, x0, 480
    .word 0x006383b3  # add x7, x7, x6
    .word 0x406382b3  # sub x5, x7, x6
    .word 0x00029463  # bne x5, x0, 8
    .word 0x0100006f  # jal x0, 16
    .word 0x00032023  # sw x0, 0(x6)
    .word 0x00430313  # addi x6, x6, 4
    .word 0xfedff06f  # jal x0, -20
    .word 0x00100293  # addi x5, x0, 1
    .word 0x26512823  # sw x5, 624(x2)
    .word 0xfff00593  # addi x11, x0, -1
    .word 0x00158593  # addi x11, x11, 1
    .word 0x00259493  # slli x9, x11, 2
    .word 0x002484b3  # add x9, x9, x2
    .word 0x002582b3  # add x5, x11, x2
    .word 0x0202c283  # lbu x5, 32(x5)
    .word 0x00258333  # add x6, x11, x2
    .word 0x02834303  # lbu x6, 40(x6)
    .word 0x00831313  # slli x6, x6, 8
    .word 0x0062e633  # or x12, x5, x6
    .word 0x002582b3  # add x5, x11, x2
    .word 0x0002c283  # lbu x5, 0(x5)
    .word 0x01029293  # slli x5, x5, 16
    .word 0x00258333  # add x6, x11, x2
    .word 0x00834303  # lbu x6, 8(x6)
    .word 0x01831313  # slli x6, x6, 24
    .word 0x0062e933  # or x18, x5, x6
    .word 0x012662b3  # or x5, x12, x18
    .word 0x0454a823  # sw x5, 80(x9)
    .word 0x002582b3  # add x5, x11, x2
    .word 0x0102c283  # lbu x5, 16(x5)
    .word 0x00258333  # add x6, x11, x2
    .word 0x01834303  # lbu x6, 24(x6)
    .word 0x00831313  # slli x6, x6, 8
    .word 0x0062e2b3  # or x5, x5, x6
    .word 0x0254a823  # sw x5, 48(x9)
    .word 0xff958293  # addi x5, x11, -7
    .word 0xf8029ce3  # bne x5, x0, -104
    .word 0x05012283  # lw x5, 80(x2)
    .word 0x0012d293  # srli x5, x5, 1
    .word 0x05412303  # lw x6, 84(x2)
    .word 0x0062c2b3  # xor x5, x5, x6
    .word 0x2c012303  # lw x6, 704(x2)
    .word 0x0062f633  # and x12, x5, x6
    .word 0x05412283  # lw x5, 84(x2)
    .word 0x00c2c2b3  # xor x5, x5, x12
    .word 0x04512a23  # sw x5, 84(x2)
    .word 0x05012283  # lw x5, 80(x2)
    .word 0x00161313  # slli x6, x12, 1
    .word 0x0062c633  # xor x12, x5, x6
    .word 0x04c12823  # sw x12, 80(x2)
    .word 0x05812283  # lw x5, 88(x2)
    .word 0x0012d293  # srli x5, x5, 1
    .word 0x05c12303  # lw x6, 92(x2)
    .word 0x0062c2b3  # xor x5, x5, x6
    .word 0x2c012303  # lw x6, 704(x2)
    .word 0x0062f633  # and x12, x5, x6
    .word 0x05c12283  # lw x5, 92(x2)
    .word 0x00c2c2b3  # xor x5, x5, x12
    .word 0x04512e23  # sw x5, 92(x2)
    .word 0x05812283  # lw x5, 88(x2)
    .word 0x00161313  # slli x6, x12, 1
    .word 0x0062c633  # xor x12, x5, x6
    .word 0x04c12c23  # sw x12, 88(x2)
    .word 0x06012283  # lw x5, 96(x2)
    .word 0x0012d293  # srli x5, x5, 1
    .word 0x06412303  # lw x6, 100(x2)
    .word 0x0062c2b3  # xor x5, x5, x6
    .word 0x2c012303  # lw x6, 704(x2)
    .word 0x0062f633  # and x12, x5, x6
    .word 0x06412283  # lw x5, 100(x2)
    .word 0x00c2c2b3  # xor x5, x5, x12
    .word 0x06512223  # sw x5, 100(x2)
    .word 0x06012283  # lw x5, 96(x2)
    .word 0x00161313  # slli x6, x12, 1
    .word 0x0062c633  # xor x12, x5, x6
    .word 0x06c12023  # sw x12, 96(x2)
    .word 0x06812283  # lw x5, 104(x2)
    .word 0x0012d293  # srli x5, x5, 1
    .word 0x06c12303  # lw x6, 108(x2)
    .word 0x0062c2b3  # xor x5, x5, x6
    .word 0x2c012303  # lw x6, 704(x2)
    .word 0x0062f633  # and x12, x5, x6
    .word 0x06c12283  # lw x5, 108(x2)
    .word 0x00c2c2b3  # xor x5, x5, x12
    .word 0x06512623  # sw x5, 108(x2)
    .word 0x06812283  # lw x5, 104(x2)
    .word 0x00161313  # slli x6, x12, 1
    .word 0x0062c633  # xor x12, x5, x6
    .word 0x06c12423  # sw x12, 104(x2)
    .word 0x05012283  # lw x5, 80(x2)
    .word 0x0022d293  # srli x5, x5, 2
    .word 0x05812303  # lw x6, 88(x2)
    .word 0x0062c2b3  # xor x5, x5, x6
    .word 0x2c412303  # lw x6, 708(x2)
    .word 0x0062f633  # and x12, x5, x6
    .word 0x05812283  # lw x5, 88(x2)
    .word 0x00c2c2b3  # xor x5, x5, x12
    .word 0x04512c23  # sw x5, 88(x2)
    .word 0x05012283  # lw x5, 80(x2)
    .word 0x00261313  # slli x6, x12, 2
    .word 0x0062c633  # xor x12, x5, x6
    .word 0x04c12823  # sw x12, 80(x2)
    .word 0x05412283  # lw x5, 84(x2)
    .word 0x0022d293  # srli x5, x5, 2
    .word 0x05c12303  # lw x6, 92(x2)
    .word 0x0062c2b3  # xor x5, x5, x6
    .word 0x2c412303  # lw x6, 708(x2)
    .word 0x0062f633  # and x12, x5, x6
    .word 0x05c12283  # lw x5, 92(x2)
    .word 0x00c2c2b3  # xor x5, x5, x12
    .word 0x04512e23  # sw x5, 92(x2)
    .word 0x05412283  # lw x5, 84(x2)
    .word 0x00261313  # slli x6, x12, 2
    .word 0x0062c633  # xor x12, x5, x6
    .word 0x04c12a23  # sw x12, 84(x2)
    .word 0x06012283  # lw x5, 96(x2)
    .word 0x0022d293  # srli x5, x5, 2
    .word 0x06812303  # lw x6, 104(x2)
    .word 0x0062c2b3  # xor x5, x5, x6
    .word 0x2c412303  # lw x6, 708(x2)
    .word 0x0062f633  # and x12, x5, x6
    .word 0x06812283  # lw x5, 104(x2)
    .word 0x00c2c2b3  # xor x5, x5, x12
    .word 0x06512423  # sw x5, 104(x2)
    .word 0x06012283  # lw x5, 96(x2)
    .word 0x00261313  # slli x6, x12, 2
    .word 0x0062c633  # xor x12, x5, x6
    .word 0x06c12023  # sw x12, 96(x2)
    .word 0x06412283  # lw x5, 100(x2)
    .word 0x0022d293  # srli x5, x5, 2
    .word 0x06c12303  # lw x6, 108(x2)
    .word 0x0062c2b3  # xor x5, x5, x6
    .word 0x2c412303  # lw x6, 708(x2)
    .word 0x0062f633  # and x12, x5, x6
    .word 0x06c12283  # lw x5, 108(x2)
    .word 0x00c2c2b3  # xor x5, x5, x12
    .word 0x06512623  # sw x5, 108(x2)
    .word 0x06412283  # lw x5, 100(x2)
    .word 0x00261313  # slli x6, x12, 2
    .word 0x0062c633  # xor x12, x5, x6
    .word 0x06c12223  # sw x12, 100(x2)
    .word 0x05012283  # lw x5, 80(x2)
    .word 0x0042d293  # srli x5, x5, 4
    .word 0x06012303  # lw x6, 96(x2)
    .word 0x0062c2b3  # xor x5, x5, x6
    .word 0x2c812303  # lw x6, 712(x2)
    .word 0x0062f633  # and x12, x5, x6
    .word 0x06012283  # lw x5, 96(x2)
    .word 0x00c2c2b3  # xor x5, x5, x12
    .word 0x06512023  # sw x5, 96(x2)
    .word 0x05012283  # lw x5, 80(x2)
    .word 0x00461313  # slli x6, x12, 4
    .word 0x0062c633  # xor x12, x5, x6
    .word 0x04c12823  # sw x12, 80(x2)
    .word 0x05412283  # lw x5, 84(x2)
    .word 0x0042d293  # srli x5, x5, 4
    .word 0x06412303  # lw x6, 100(x2)
    .word 0x0062c2b3  # xor x5, x5, x6
    .word 0x2c812303  # lw x6, 712(x2)
    .word 0x0062f633  # and x12, x5, x6
    .word 0x06412283  # lw x5, 100(x2)
    .word 0x00c2c2b3  # xor x5, x5, x12
    .word 0x06512223  # sw x5, 100(x2)
    .word 0x05412283  # lw x5, 84(x2)
    .word 0x00461313  # slli x6, x12, 4
    .word 0x0062c633  # xor x12, x5, x6
    .word 0x04c12a23  # sw x12, 84(x2)
    .word 0x05812283  # lw x5, 88(x2)
    .word 0x0042d293  # srli x5, x5, 4
    .word 0x06812303  # lw x6, 104(x2)
    .word 0x0062c2b3  # xor x5, x5, x6
    .word 0x2c812303  # lw x6, 712(x2)
    .word 0x0062f633  # and x12, x5, x6
    .word 0x06812283  # lw x5, 104(x2)
    .word 0x00c2c2b3  # xor x5, x5, x12
    .word 0x06512423  # sw x5, 104(x2)
    .word 0x05812283  # lw x5, 88(x2)
    .word 0x00461313  # slli x6, x12, 4
    .word 0x0062c633  # xor x12, x5, x6
    .word 0x04c12c23  # sw x12, 88(x2)
    .word 0x05c12283  # lw x5, 92(x2)
    .word 0x0042d293  # srli x5, x5, 4
    .word 0x06c12303  # lw x6, 108(x2)
    .word 0x0062c2b3  # xor x5, x5, x6
    .word 0x2c812303  # lw x6, 712(x2)
    .word 0x0062f633  # and x12, x5, x6
    .word 0x06c12283  # lw x5, 108(x2)
    .word 0x00c2c2b3  # xor x5, x5, x12
    .word 0x06512623  # sw x5, 108(x2)
    .word 0x05c12283  # lw x5, 92(x2)
    .word 0x00461313  # slli x6, x12, 4
    .word 0x0062c633  # xor x12, x5, x6
    .word 0x04c12e23  # sw x12, 92(x2)
    .word 0x03012283  # lw x5, 48(x2)
    .word 0x0012d293  # srli x5, x5, 1
    .word 0x03412303  # lw x6, 52(x2)
    .word 0x0062c2b3  # xor x5, x5, x6
    .word 0x2c012303  # lw x6, 704(x2)
    .word 0x0062f633  # and x12, x5, x6
    .word 0x03412283  # lw x5, 52(x2)
    .word 0x00c2c2b3  # xor x5, x5, x12
    .word 0x02512a23  # sw x5, 52(x2)
    .word 0x03012283  # lw x5, 48(x2)
    .word 0x00161313  # slli x6, x12, 1
    .word 0x0062c633  # xor x12, x5, x6
    .word 0x02c12823  # sw x12, 48(x2)
    .word 0x03812283  # lw x5, 56(x2)
    .word 0x0012d293  # srli x5, x5, 1
    .word 0x03c12303  # lw x6, 60(x2)
    .word 0x0062c2b3  # xor x5, x5, x6
    .word 0x2c012303  # lw x6, 704(x2)
    .word 0x0062f633  # and x12, x5, x6
    .word 0x03c12283  # lw x5, 60(x2)
    .word 0x00c2c2b3  # xor x5, x5, x12
    .word 0x02512e23  # sw x5, 60(x2)
    .word 0x03812283  # lw x5, 56(x2)
    .word 0x00161313  # slli x6, x12, 1
    .word 0x0062c633  # xor x12, x5, x6
    .word 0x02c12c23  # sw x12, 56(x2)
    .word 0x04012283  # lw x5, 64(x2)
    .word 0x0012d293  # srli x5, x5, 1
    .word 0x04412303  # lw x6, 68(x2)
    .word 0x0062c2b3  # xor x5, x5, x6
    .word 0x2c012303  # lw x6, 704(x2)
    .word 0x0062f633  # and x12, x5, x6
    .word 0x04412283  # lw x5, 68(x2)
    .word 0x00c2c2b3  # xor x5, x5, x12
    .word 0x04512223  # sw x5, 68(x2)
    .word 0x04012283  # lw x5, 64(x2)
    .word 0x00161313  # slli x6, x12, 1
    .word 0x0062c633  # xor x12, x5, x6
    .word 0x04c12023  # sw x12, 64(x2)
    .word 0x04812283  # lw x5, 72(x2)
    .word 0x0012d293  # srli x5, x5, 1
    .word 0x04c12303  # lw x6, 76(x2)
    .word 0x0062c2b3  # xor x5, x5, x6
    .word 0x2c012303  # lw x6, 704(x2)
    .word 0x0062f633  # and x12, x5, x6
    .word 0x04c12283  # lw x5, 76(x2)
    .word 0x00c2c2b3  # xor x5, x5, x12
    .word 0x04512623  # sw x5, 76(x2)
    .word 0x04812283  # lw x5, 72(x2)
    .word 0x00161313  # slli x6, x12, 1
    .word 0x0062c633  # xor x12, x5, x6
    .word 0x04c12423  # sw x12, 72(x2)
    .word 0x03012283  # lw x5, 48(x2)
    .word 0x0022d293  # srli x5, x5, 2
    .word 0x03812303  # lw x6, 56(x2)
    .word 0x0062c2b3  # xor x5, x5, x6
    .word 0x2c412303  # lw x6, 708(x2)
    .word 0x0062f633  # and x12, x5, x6
    .word 0x03812283  # lw x5, 56(x2)
    .word 0x00c2c2b3  # xor x5, x5, x12
    .word 0x02512c23  # sw x5, 56(x2)
    .word 0x03012283  # lw x5, 48(x2)
    .word 0x00261313  # slli x6, x12, 2
    .word 0x0062c633  # xor x12, x5, x6
    .word 0x02c12823  # sw x12, 48(x2)
    .word 0x03412283  # lw x5, 52(x2)
    .word 0x0022d293  # srli x5, x5, 2
    .word 0x03c12303  # lw x6, 60(x2)
    .word 0x0062c2b3  # xor x5, x5, x6
    .word 0x2c412303  # lw x6, 708(x2)
    .word 0x0062f633  # and x12, x5, x6
    .word 0x03c12283  # lw x5, 60(x2)
    .word 0x00c2c2b3  # xor x5, x5, x12
    .word 0x02512e23  # sw x5, 60(x2)
    .word 0x03412283  # lw x5, 52(x2)
    .word 0x00261313  # slli x6, x12, 2
    .word 0x0062c633  # xor x12, x5, x6
    .word 0x02c12a23  # sw x12, 52(x2)
    .word 0x04012283  # lw x5, 64(x2)
    .word 0x0022d293  # srli x5, x5, 2
    .word 0x04812303  # lw x6, 72(x2)
    .word 0x0062c2b3  # xor x5, x5, x6
    .word 0x2c412303  # lw x6, 708(x2)
    .word 0x0062f633  # and x12, x5, x6
    .word 0x04812283  # lw x5, 72(x2)
    .word 0x00c2c2b3  # xor x5, x5, x12
    .word 0x04512423  # sw x5, 72(x2)
    .word 0x04012283  # lw x5, 64(x2)
    .word 0x00261313  # slli x6, x12, 2
    .word 0x0062c633  # xor x12, x5, x6
    .word 0x04c12023  # sw x12, 64(x2)
    .word 0x04412283  # lw x5, 68(x2)
    .word 0x0022d293  # srli x5, x5, 2
    .word 0x04c12303  # lw x6, 76(x2)
    .word 0x0062c2b3  # xor x5, x5, x6
    .word 0x2c412303  # lw x6, 708(x2)
    .word 0x0062f633  # and x12, x5, x6
    .word 0x04c12283  # lw x5, 76(x2)
    .word 0x00c2c2b3  # xor x5, x5, x12
    .word 0x04512623  # sw x5, 76(x2)
    .word 0x04412283  # lw x5, 68(x2)
    .word 0x00261313  # slli x6, x12, 2
    .word 0x0062c633  # xor x12, x5, x6
    .word 0x04c12223  # sw x12, 68(x2)
    .word 0x03012283  # lw x5, 48(x2)
    .word 0x0042d293  # srli x5, x5, 4
    .word 0x04012303  # lw x6, 64(x2)
    .word 0x0062c2b3  # xor x5, x5, x6
    .word 0x2c812303  # lw x6, 712(x2)
    .word 0x0062f633  # and x12, x5, x6
    .word 0x04012283  # lw x5, 64(x2)
    .word 0x00c2c2b3  # xor x5, x5, x12
    .word 0x04512023  # sw x5, 64(x2)
    .word 0x03012283  # lw x5, 48(x2)
    .word 0x00461313  # slli x6, x12, 4
    .word 0x0062c633  # xor x12, x5, x6
    .word 0x02c12823  # sw x12, 48(x2)
    .word 0x03412283  # lw x5, 52(x2)
    .word 0x0042d293  # srli x5, x5, 4
    .word 0x04412303  # lw x6, 68(x2)
    .word 0x0062c2b3  # xor x5, x5, x6
    .word 0x2c812303  # lw x6, 712(x2)
    .word 0x0062f633  # and x12, x5, x6
    .word 0x04412283  # lw x5, 68(x2)
    .word 0x00c2c2b3  # xor x5, x5, x12
    .word 0x04512223  # sw x5, 68(x2)
    .word 0x03412283  # lw x5, 52(x2)
    .word 0x00461313  # slli x6, x12, 4
    .word 0x0062c633  # xor x12, x5, x6
    .word 0x02c12a23  # sw x12, 52(x2)
    .word 0x03812283  # lw x5, 56(x2)
    .word 0x0042d293  # srli x5, x5, 4
    .word 0x04812303  # lw x6, 72(x2)
    .word 0x0062c2b3  # xor x5, x5, x6
    .word 0x2c812303  # lw x6, 712(x2)
    .word 0x0062f633  # and x12, x5, x6
    .word 0x04812283  # lw x5, 72(x2)
    .word 0x00c2c2b3  # xor x5, x5, x12
    .word 0x04512423  # sw x5, 72(x2)
    .word 0x03812283  # lw x5, 56(x2)
    .word 0x00461313  # slli x6, x12, 4
    .word 0x0062c633  # xor x12, x5, x6
    .word 0x02c12c23  # sw x12, 56(x2)
    .word 0x03c12283  # lw x5, 60(x2)
    .word 0x0042d293  # srli x5, x5, 4
    .word 0x04c12303  # lw x6, 76(x2)
    .word 0x0062c2b3  # xor x5, x5, x6
    .word 0x2c812303  # lw x6, 712(x2)
    .word 0x0062f633  # and x12, x5, x6
    .word 0x04c12283  # lw x5, 76(x2)
    .word 0x00c2c2b3  # xor x5, x5, x12
    .word 0x04512623  # sw x5, 76(x2)
    .word 0x03c12283  # lw x5, 60(x2)
    .word 0x00461313  # slli x6, x12, 4
    .word 0x0062c633  # xor x12, x5, x6
    .word 0x02c12e23  # sw x12, 60(x2)
    .word 0xfff00593  # addi x11, x0, -1
    .word 0x00158593  # addi x11, x11, 1
    .word 0x00259493  # slli x9, x11, 2
    .word 0x002484b3  # add x9, x9, x2
    .word 0x0504a283  # lw x5, 80(x9)
    .word 0x0102d613  # srli x12, x5, 16
    .word 0x08c4a823  # sw x12, 144(x9)
    .word 0x0304a283  # lw x5, 48(x9)
    .word 0x0a54a823  # sw x5, 176(x9)
    .word 0xff958293  # addi x5, x11, -7
    .word 0xfc029ee3  # bne x5, x0, -36
    .word 0xfff00513  # addi x10, x0, -1
    .word 0x00150513  # addi x10, x10, 1
    .word 0x00d00313  # addi x6, x0, 13
    .word 0x06651663  # bne x10, x6, 108
    .word 0xfff00593  # addi x11, x0, -1
    .word 0x00158593  # addi x11, x11, 1
    .word 0x00259493  # slli x9, x11, 2
    .word 0x002484b3  # add x9, x9, x2
    .word 0x07058293  # addi x5, x11, 112
    .word 0x00229293  # slli x5, x5, 2
    .word 0x002282b3  # add x5, x5, x2
    .word 0x0902a283  # lw x5, 144(x5)
    .word 0x0504a303  # lw x6, 80(x9)
    .word 0x0062c633  # xor x12, x5, x6
    .word 0x01061613  # slli x12, x12, 16
    .word 0x01065313  # srli x6, x12, 16
    .word 0x00666633  # or x12, x12, x6
    .word 0x017672b3  # and x5, x12, x23
    .word 0x00c65313  # srli x6, x12, 12
    .word 0x01837333  # and x6, x6, x24
    .word 0x0062e2b3  # or x5, x5, x6
    .word 0x00865313  # srli x6, x12, 8
    .word 0x01937333  # and x6, x6, x25
    .word 0x0062e933  # or x18, x5, x6
    .word 0x00465293  # srli x5, x12, 4
    .word 0x01a2f633  # and x12, x5, x26
    .word 0x00c962b3  # or x5, x18, x12
    .word 0x0254a823  # sw x5, 48(x9)
    .word 0xff958293  # addi x5, x11, -7
    .word 0xfa0290e3  # bne x5, x0, -96
    .word 0x00c00313  # addi x6, x0, 12
    .word 0x08a37663  # bgeu x6, x10, 140
    .word 0x03012603  # lw x12, 48(x2)
    .word 0x03412903  # lw x18, 52(x2)
    .word 0x03812a83  # lw x21, 56(x2)
    .word 0x03c12a03  # lw x20, 60(x2)
    .word 0x04012b03  # lw x22, 64(x2)
    .word 0x04412983  # lw x19, 68(x2)
    .word 0x04812683  # lw x13, 72(x2)
    .word 0x04c12703  # lw x14, 76(x2)
    .word 0x016942b3  # xor x5, x18, x22
    .word 0x00d2c2b3  # xor x5, x5, x13
    .word 0x04512623  # sw x5, 76(x2)
    .word 0x014642b3  # xor x5, x12, x20
    .word 0x0132c2b3  # xor x5, x5, x19
    .word 0x04512423  # sw x5, 72(x2)
    .word 0x015742b3  # xor x5, x14, x21
    .word 0x0162c2b3  # xor x5, x5, x22
    .word 0x04512223  # sw x5, 68(x2)
    .word 0x0126c2b3  # xor x5, x13, x18
    .word 0x0142c2b3  # xor x5, x5, x20
    .word 0x04512023  # sw x5, 64(x2)
    .word 0x00c9c2b3  # xor x5, x19, x12
    .word 0x0152c2b3  # xor x5, x5, x21
    .word 0x02512e23  # sw x5, 60(x2)
    .word 0x00eb42b3  # xor x5, x22, x14
    .word 0x0122c2b3  # xor x5, x5, x18
    .word 0xfff2c293  # xori x5, x5, -1
    .word 0x02512c23  # sw x5, 56(x2)
    .word 0x00da42b3  # xor x5, x20, x13
    .word 0x00c2c2b3  # xor x5, x5, x12
    .word 0x02512a23  # sw x5, 52(x2)
    .word 0x013ac2b3  # xor x5, x21, x19
    .word 0x00e2c2b3  # xor x5, x5, x14
    .word 0xfff2c293  # xori x5, x5, -1
    .word 0x02512823  # sw x5, 48(x2)
    .word 0x04c12603  # lw x12, 76(x2)
    .word 0x04812283  # lw x5, 72(x2)
    .word 0x28512a23  # sw x5, 660(x2)
    .word 0x04412a83  # lw x21, 68(x2)
    .word 0x04012a03  # lw x20, 64(x2)
    .word 0x03c12783  # lw x15, 60(x2)
    .word 0x03812b03  # lw x22, 56(x2)
    .word 0x03412703  # lw x14, 52(x2)
    .word 0x03012903  # lw x18, 48(x2)
    .word 0x016a42b3  # xor x5, x20, x22
    .word 0x26512a23  # sw x5, 628(x2)
    .word 0x00e649b3  # xor x19, x12, x14
    .word 0x014642b3  # xor x5, x12, x20
    .word 0x26512c23  # sw x5, 632(x2)
    .word 0x016646b3  # xor x13, x12, x22
    .word 0x29412283  # lw x5, 660(x2)
    .word 0x0152c2b3  # xor x5, x5, x21
    .word 0x2a512023  # sw x5, 672(x2)
    .word 0x2a012283  # lw x5, 672(x2)
    .word 0x0122cab3  # xor x21, x5, x18
    .word 0x014ac2b3  # xor x5, x21, x20
    .word 0x26512e23  # sw x5, 636(x2)
    .word 0x27412303  # lw x6, 628(x2)
    .word 0x0069c2b3  # xor x5, x19, x6
    .word 0x28512023  # sw x5, 640(x2)
    .word 0x00cac2b3  # xor x5, x21, x12
    .word 0x28512223  # sw x5, 644(x2)
    .word 0x00eac2b3  # xor x5, x21, x14
    .word 0x28512423  # sw x5, 648(x2)
    .word 0x28812283  # lw x5, 648(x2)
    .word 0x00d2c2b3  # xor x5, x5, x13
    .word 0x28512623  # sw x5, 652(x2)
    .word 0x28012303  # lw x6, 640(x2)
    .word 0x0067ca33  # xor x20, x15, x6
    .word 0x016a4733  # xor x14, x20, x22
    .word 0x29412303  # lw x6, 660(x2)
    .word 0x006a4b33  # xor x22, x20, x6
    .word 0x012742b3  # xor x5, x14, x18
    .word 0x28512823  # sw x5, 656(x2)
    .word 0x2a012303  # lw x6, 672(x2)
    .word 0x006742b3  # xor x5, x14, x6
    .word 0x28512a23  # sw x5, 660(x2)
    .word 0x27812303  # lw x6, 632(x2)
    .word 0x006b4a33  # xor x20, x22, x6
    .word 0x014942b3  # xor x5, x18, x20
    .word 0x28512c23  # sw x5, 664(x2)
    .word 0x29412283  # lw x5, 660(x2)
    .word 0x0142c2b3  # xor x5, x5, x20
    .word 0x28512e23  # sw x5, 668(x2)
    .word 0x29412283  # lw x5, 660(x2)
    .word 0x00d2c833  # xor x16, x5, x13
    .word 0x2a012283  # lw x5, 672(x2)
    .word 0x0142c2b3  # xor x5, x5, x20
    .word 0x2a512023  # sw x5, 672(x2)
    .word 0x2a012303  # lw x6, 672(x2)
    .word 0x0069c2b3  # xor x5, x19, x6
    .word 0x2a512823  # sw x5, 688(x2)
    .word 0x2a012303  # lw x6, 672(x2)
    .word 0x006642b3  # xor x5, x12, x6
    .word 0x2a512a23  # sw x5, 692(x2)
    .word 0x28012283  # lw x5, 640(x2)
    .word 0x00e2f633  # and x12, x5, x14
    .word 0x28c12283  # lw x5, 652(x2)
    .word 0x29012303  # lw x6, 656(x2)
    .word 0x0062f7b3  # and x15, x5, x6
    .word 0x00c7c2b3  # xor x5, x15, x12
    .word 0x2a512623  # sw x5, 684(x2)
    .word 0x27c12283  # lw x5, 636(x2)
    .word 0x0122f7b3  # and x15, x5, x18
    .word 0x00c7c2b3  # xor x5, x15, x12
    .word 0x2a512c23  # sw x5, 696(x2)
    .word 0x2a012303  # lw x6, 672(x2)
    .word 0x0069f633  # and x12, x19, x6
    .word 0x28812283  # lw x5, 648(x2)
    .word 0x0152f7b3  # and x15, x5, x21
    .word 0x00c7c2b3  # xor x5, x15, x12
    .word 0x2a512e23  # sw x5, 700(x2)
    .word 0x28412283  # lw x5, 644(x2)
    .word 0x29812303  # lw x6, 664(x2)
    .word 0x0062f7b3  # and x15, x5, x6
    .word 0x00c7c2b3  # xor x5, x15, x12
    .word 0x2a512223  # sw x5, 676(x2)
    .word 0x27812283  # lw x5, 632(x2)
    .word 0x0142f633  # and x12, x5, x20
    .word 0x27412283  # lw x5, 628(x2)
    .word 0x29c12303  # lw x6, 668(x2)
    .word 0x0062f7b3  # and x15, x5, x6
    .word 0x00c7c7b3  # xor x15, x15, x12
    .word 0x29412303  # lw x6, 660(x2)
    .word 0x0066f2b3  # and x5, x13, x6
    .word 0x2a512423  # sw x5, 680(x2)
    .word 0x2a812283  # lw x5, 680(x2)
    .word 0x00c2c633  # xor x12, x5, x12
    .word 0x2ac12283  # lw x5, 684(x2)
    .word 0x00f2c2b3  # xor x5, x5, x15
    .word 0x2a512623  # sw x5, 684(x2)
    .word 0x2b812283  # lw x5, 696(x2)
    .word 0x00c2c2b3  # xor x5, x5, x12
    .word 0x2a512c23  # sw x5, 696(x2)
    .word 0x2bc12283  # lw x5, 700(x2)
    .word 0x00f2c7b3  # xor x15, x5, x15
    .word 0x2a412283  # lw x5, 676(x2)
    .word 0x00c2c2b3  # xor x5, x5, x12
    .word 0x2a512e23  # sw x5, 700(x2)
    .word 0x2ac12283  # lw x5, 684(x2)
    .word 0x0162cb33  # xor x22, x5, x22
    .word 0x2b812283  # lw x5, 696(x2)
    .word 0x0102c633  # xor x12, x5, x16
    .word 0x2b012303  # lw x6, 688(x2)
    .word 0x0067c833  # xor x16, x15, x6
    .word 0x2bc12283  # lw x5, 700(x2)
    .word 0x2b412303  # lw x6, 692(x2)
    .word 0x0062c7b3  # xor x15, x5, x6
    .word 0x00cb42b3  # xor x5, x22, x12
    .word 0x2a512a23  # sw x5, 692(x2)
    .word 0x010b72b3  # and x5, x22, x16
    .word 0x2a512623  # sw x5, 684(x2)
    .word 0x2ac12303  # lw x6, 684(x2)
    .word 0x0067c2b3  # xor x5, x15, x6
    .word 0x2a512823  # sw x5, 688(x2)
    .word 0x2b412283  # lw x5, 692(x2)
    .word 0x2b012303  # lw x6, 688(x2)
    .word 0x0062fb33  # and x22, x5, x6
    .word 0x00cb4b33  # xor x22, x22, x12
    .word 0x00f842b3  # xor x5, x16, x15
    .word 0x2a512c23  # sw x5, 696(x2)
    .word 0x2ac12303  # lw x6, 684(x2)
    .word 0x00664633  # xor x12, x12, x6
    .word 0x2b812303  # lw x6, 696(x2)
    .word 0x00667633  # and x12, x12, x6
    .word 0x00f64633  # xor x12, x12, x15
    .word 0x00c842b3  # xor x5, x16, x12
    .word 0x2a512623  # sw x5, 684(x2)
    .word 0x2b012283  # lw x5, 688(x2)
    .word 0x00c2c833  # xor x16, x5, x12
    .word 0x0107f833  # and x16, x15, x16
    .word 0x2ac12303  # lw x6, 684(x2)
    .word 0x006847b3  # xor x15, x16, x6
    .word 0x2b012283  # lw x5, 688(x2)
    .word 0x0102c833  # xor x16, x5, x16
    .word 0x010b7833  # and x16, x22, x16
    .word 0x2b412283  # lw x5, 692(x2)
    .word 0x0102c833  # xor x16, x5, x16
    .word 0x00f842b3  # xor x5, x16, x15
    .word 0x2a512823  # sw x5, 688(x2)
    .word 0x00cb42b3  # xor x5, x22, x12
    .word 0x2a512a23  # sw x5, 692(x2)
    .word 0x010b42b3  # xor x5, x22, x16
    .word 0x2a512623  # sw x5, 684(x2)
    .word 0x00f642b3  # xor x5, x12, x15
    .word 0x2a512c23  # sw x5, 696(x2)
    .word 0x2b412283  # lw x5, 692(x2)
    .word 0x2b012303  # lw x6, 688(x2)
    .word 0x0062c2b3  # xor x5, x5, x6
    .word 0x2a512e23  # sw x5, 700(x2)
    .word 0x2b812283  # lw x5, 696(x2)
    .word 0x00e2f2b3  # and x5, x5, x14
    .word 0x2a512223  # sw x5, 676(x2)
    .word 0x29012303  # lw x6, 656(x2)
    .word 0x0067f2b3  # and x5, x15, x6
    .word 0x28512823  # sw x5, 656(x2)
    .word 0x01267933  # and x18, x12, x18
    .word 0x2ac12283  # lw x5, 684(x2)
    .word 0x2a012303  # lw x6, 672(x2)
    .word 0x0062f733  # and x14, x5, x6
    .word 0x01587ab3  # and x21, x16, x21
    .word 0x29812303  # lw x6, 664(x2)
    .word 0x006b72b3  # and x5, x22, x6
    .word 0x2a512023  # sw x5, 672(x2)
    .word 0x2b412283  # lw x5, 692(x2)
    .word 0x0142f2b3  # and x5, x5, x20
    .word 0x28512c23  # sw x5, 664(x2)
    .word 0x2bc12283  # lw x5, 700(x2)
    .word 0x29c12303  # lw x6, 668(x2)
    .word 0x0062fa33  # and x20, x5, x6
    .word 0x2b012283  # lw x5, 688(x2)
    .word 0x29412303  # lw x6, 660(x2)
    .word 0x0062f2b3  # and x5, x5, x6
    .word 0x28512e23  # sw x5, 668(x2)
    .word 0x2b812283  # lw x5, 696(x2)
    .word 0x28012303  # lw x6, 640(x2)
    .word 0x0062f2b3  # and x5, x5, x6
    .word 0x28512023  # sw x5, 640(x2)
    .word 0x28c12303  # lw x6, 652(x2)
    .word 0x0067f2b3  # and x5, x15, x6
    .word 0x28512a23  # sw x5, 660(x2)
    .word 0x27c12303  # lw x6, 636(x2)
    .word 0x006677b3  # and x15, x12, x6
    .word 0x2ac12283  # lw x5, 684(x2)
    .word 0x0132f633  # and x12, x5, x19
    .word 0x28812303  # lw x6, 648(x2)
    .word 0x00687833  # and x16, x16, x6
    .word 0x28412303  # lw x6, 644(x2)
    .word 0x006b72b3  # and x5, x22, x6
    .word 0x28512423  # sw x5, 648(x2)
    .word 0x2b412283  # lw x5, 692(x2)
    .word 0x27812303  # lw x6, 632(x2)
    .word 0x0062f9b3  # and x19, x5, x6
    .word 0x2bc12283  # lw x5, 700(x2)
    .word 0x27412303  # lw x6, 628(x2)
    .word 0x0062fb33  # and x22, x5, x6
    .word 0x2b012283  # lw x5, 688(x2)
    .word 0x00d2f2b3  # and x5, x5, x13
    .word 0x26512a23  # sw x5, 628(x2)
    .word 0x0169c9b3  # xor x19, x19, x22
    .word 0x29412283  # lw x5, 660(x2)
    .word 0x00f2c7b3  # xor x15, x5, x15
    .word 0x2a012283  # lw x5, 672(x2)
    .word 0x0102c6b3  # xor x13, x5, x16
    .word 0x28012283  # lw x5, 640(x2)
    .word 0x29412303  # lw x6, 660(x2)
    .word 0x0062c2b3  # xor x5, x5, x6
    .word 0x28512a23  # sw x5, 660(x2)
    .word 0x00c94833  # xor x16, x18, x12
    .word 0x2a012303  # lw x6, 672(x2)
    .word 0x006942b3  # xor x5, x18, x6
    .word 0x2a512023  # sw x5, 672(x2)
    .word 0x29c12303  # lw x6, 668(x2)
    .word 0x006a42b3  # xor x5, x20, x6
    .word 0x26512c23  # sw x5, 632(x2)
    .word 0x2a412283  # lw x5, 676(x2)
    .word 0x00e2c933  # xor x18, x5, x14
    .word 0x29812283  # lw x5, 664(x2)
    .word 0x0142c2b3  # xor x5, x5, x20
    .word 0x28512023  # sw x5, 640(x2)
    .word 0x27412303  # lw x6, 628(x2)
    .word 0x006b42b3  # xor x5, x22, x6
    .word 0x26512a23  # sw x5, 628(x2)
    .word 0x00d642b3  # xor x5, x12, x13
    .word 0x2a512823  # sw x5, 688(x2)
    .word 0x01284633  # xor x12, x16, x18
    .word 0x013aca33  # xor x20, x21, x19
    .word 0x28012303  # lw x6, 640(x2)
    .word 0x00674b33  # xor x22, x14, x6
    .word 0x00c9c833  # xor x16, x19, x12
    .word 0x28812283  # lw x5, 648(x2)
    .word 0x00c2c9b3  # xor x19, x5, x12
    .word 0x27812283  # lw x5, 632(x2)
    .word 0x0142c633  # xor x12, x5, x20
    .word 0x29412283  # lw x5, 660(x2)
    .word 0x0142ca33  # xor x20, x5, x20
    .word 0x016acab3  # xor x21, x21, x22
    .word 0x00c9c9b3  # xor x19, x19, x12
    .word 0x29012283  # lw x5, 656(x2)
    .word 0x0142c733  # xor x14, x5, x20
    .word 0x014b4a33  # xor x20, x22, x20
    .word 0x2b012283  # lw x5, 688(x2)
    .word 0x00c2c2b3  # xor x5, x5, x12
    .word 0xfff2cb13  # xori x22, x5, -1
    .word 0x0106c2b3  # xor x5, x13, x16
    .word 0xfff2c693  # xori x13, x5, -1
    .word 0x013ac2b3  # xor x5, x21, x19
    .word 0x28512a23  # sw x5, 660(x2)
    .word 0x00e94633  # xor x12, x18, x14
    .word 0x2a012283  # lw x5, 672(x2)
    .word 0x00e2c933  # xor x18, x5, x14
    .word 0x0137c9b3  # xor x19, x15, x19
    .word 0x00cac2b3  # xor x5, x21, x12
    .word 0xfff2ca93  # xori x21, x5, -1
    .word 0x27412283  # lw x5, 628(x2)
    .word 0x29412303  # lw x6, 660(x2)
    .word 0x0062c2b3  # xor x5, x5, x6
    .word 0xfff2c713  # xori x14, x5, -1
    .word 0x05412623  # sw x20, 76(x2)
    .word 0x05512423  # sw x21, 72(x2)
    .word 0x04e12223  # sw x14, 68(x2)
    .word 0x04c12023  # sw x12, 64(x2)
    .word 0x03212e23  # sw x18, 60(x2)
    .word 0x03312c23  # sw x19, 56(x2)
    .word 0x03612a23  # sw x22, 52(x2)
    .word 0x02d12823  # sw x13, 48(x2)
    .word 0x00d00313  # addi x6, x0, 13
    .word 0x0a657463  # bgeu x10, x6, 168
    .word 0xfff00593  # addi x11, x0, -1
    .word 0x00158593  # addi x11, x11, 1
    .word 0x00259493  # slli x9, x11, 2
    .word 0x002484b3  # add x9, x9, x2
    .word 0x00351293  # slli x5, x10, 3
    .word 0x00b288b3  # add x17, x5, x11
    .word 0x0304a283  # lw x5, 48(x9)
    .word 0x00c2d293  # srli x5, x5, 12
    .word 0x00f2f613  # andi x12, x5, 15
    .word 0x00157293  # andi x5, x10, 1
    .word 0x02029263  # bne x5, x0, 36
    .word 0x00165293  # srli x5, x12, 1
    .word 0x00361313  # slli x6, x12, 3
    .word 0x0062e2b3  # or x5, x5, x6
    .word 0x00f2f293  # andi x5, x5, 15
    .word 0x27012303  # lw x6, 624(x2)
    .word 0x00b35333  # srl x6, x6, x11
    .word 0x00137313  # andi x6, x6, 1
    .word 0x0062c633  # xor x12, x5, x6
    .word 0x00289293  # slli x5, x17, 2
    .word 0x002282b3  # add x5, x5, x2
    .word 0x0902a283  # lw x5, 144(x5)
    .word 0x00c2c633  # xor x12, x5, x12
    .word 0x00461313  # slli x6, x12, 4
    .word 0x00664633  # xor x12, x12, x6
    .word 0x00861313  # slli x6, x12, 8
    .word 0x006642b3  # xor x5, x12, x6
    .word 0x01b2f633  # and x12, x5, x27
    .word 0x00289293  # slli x5, x17, 2
    .word 0x002282b3  # add x5, x5, x2
    .word 0x0cc2a823  # sw x12, 208(x5)
    .word 0x02c4a823  # sw x12, 48(x9)
    .word 0xff958293  # addi x5, x11, -7
    .word 0xf80290e3  # bne x5, x0, -128
    .word 0x00157293  # andi x5, x10, 1
    .word 0x00100313  # addi x6, x0, 1
    .word 0x00629863  # bne x5, x6, 16
    .word 0x27012283  # lw x5, 624(x2)
    .word 0x00129293  # slli x5, x5, 1
    .word 0x26512823  # sw x5, 624(x2)
    .word 0x2540006f  # jal x0, 596
    .word 0x03012603  # lw x12, 48(x2)
    .word 0x03412903  # lw x18, 52(x2)
    .word 0x03812a83  # lw x21, 56(x2)
    .word 0x03c12a03  # lw x20, 60(x2)
    .word 0x04012b03  # lw x22, 64(x2)
    .word 0x04412983  # lw x19, 68(x2)
    .word 0x04812683  # lw x13, 72(x2)
    .word 0x04c12703  # lw x14, 76(x2)
    .word 0x016942b3  # xor x5, x18, x22
    .word 0x00d2c2b3  # xor x5, x5, x13
    .word 0x04512623  # sw x5, 76(x2)
    .word 0x014642b3  # xor x5, x12, x20
    .word 0x0132c2b3  # xor x5, x5, x19
    .word 0x04512423  # sw x5, 72(x2)
    .word 0x015742b3  # xor x5, x14, x21
    .word 0x0162c2b3  # xor x5, x5, x22
    .word 0x04512223  # sw x5, 68(x2)
    .word 0x0126c2b3  # xor x5, x13, x18
    .word 0x0142c2b3  # xor x5, x5, x20
    .word 0x04512023  # sw x5, 64(x2)
    .word 0x00c9c2b3  # xor x5, x19, x12
    .word 0x0152c2b3  # xor x5, x5, x21
    .word 0x02512e23  # sw x5, 60(x2)
    .word 0x00eb42b3  # xor x5, x22, x14
    .word 0x0122c2b3  # xor x5, x5, x18
    .word 0xfff2c293  # xori x5, x5, -1
    .word 0x02512c23  # sw x5, 56(x2)
    .word 0x00da42b3  # xor x5, x20, x13
    .word 0x00c2c2b3  # xor x5, x5, x12
    .word 0x02512a23  # sw x5, 52(x2)
    .word 0x013ac2b3  # xor x5, x21, x19
    .word 0x00e2c2b3  # xor x5, x5, x14
    .word 0xfff2c293  # xori x5, x5, -1
    .word 0x02512823  # sw x5, 48(x2)
    .word 0x01a00293  # addi x5, x0, 26
    .word 0x40a282b3  # sub x5, x5, x10
    .word 0x00329893  # slli x17, x5, 3
    .word 0xfff00593  # addi x11, x0, -1
    .word 0x00158593  # addi x11, x11, 1
    .word 0x00259493  # slli x9, x11, 2
    .word 0x002484b3  # add x9, x9, x2
    .word 0x0304a283  # lw x5, 48(x9)
    .word 0x00b88333  # add x6, x17, x11
    .word 0x00231313  # slli x6, x6, 2
    .word 0x00230333  # add x6, x6, x2
    .word 0x09032303  # lw x6, 144(x6)
    .word 0x0062c2b3  # xor x5, x5, x6
    .word 0x01b2f633  # and x12, x5, x27
    .word 0x2cc12303  # lw x6, 716(x2)
    .word 0x00667933  # and x18, x12, x6
    .word 0x012642b3  # xor x5, x12, x18
    .word 0x0022d293  # srli x5, x5, 2
    .word 0x00c2cab3  # xor x21, x5, x12
    .word 0x00291913  # slli x18, x18, 2
    .word 0x012ac2b3  # xor x5, x21, x18
    .word 0x0654a823  # sw x5, 112(x9)
    .word 0x02c4a823  # sw x12, 48(x9)
    .word 0xff958293  # addi x5, x11, -7
    .word 0xfa0298e3  # bne x5, x0, -80
    .word 0x01a00313  # addi x6, x0, 26
    .word 0x16657063  # bgeu x10, x6, 352
    .word 0x08812603  # lw x12, 136(x2)
    .word 0x08c12903  # lw x18, 140(x2)
    .word 0x03012283  # lw x5, 48(x2)
    .word 0x00c2c2b3  # xor x5, x5, x12
    .word 0x02512823  # sw x5, 48(x2)
    .word 0x03412283  # lw x5, 52(x2)
    .word 0x00c2c2b3  # xor x5, x5, x12
    .word 0x0122c2b3  # xor x5, x5, x18
    .word 0x02512a23  # sw x5, 52(x2)
    .word 0x03812283  # lw x5, 56(x2)
    .word 0x07012303  # lw x6, 112(x2)
    .word 0x0062c2b3  # xor x5, x5, x6
    .word 0x0122c2b3  # xor x5, x5, x18
    .word 0x02512c23  # sw x5, 56(x2)
    .word 0x03c12283  # lw x5, 60(x2)
    .word 0x07412303  # lw x6, 116(x2)
    .word 0x0062c2b3  # xor x5, x5, x6
    .word 0x00c2c2b3  # xor x5, x5, x12
    .word 0x02512e23  # sw x5, 60(x2)
    .word 0x04012283  # lw x5, 64(x2)
    .word 0x07812303  # lw x6, 120(x2)
    .word 0x0062c2b3  # xor x5, x5, x6
    .word 0x00c2c2b3  # xor x5, x5, x12
    .word 0x0122c2b3  # xor x5, x5, x18
    .word 0x04512023  # sw x5, 64(x2)
    .word 0x04412283  # lw x5, 68(x2)
    .word 0x07c12303  # lw x6, 124(x2)
    .word 0x0062c2b3  # xor x5, x5, x6
    .word 0x0122c2b3  # xor x5, x5, x18
    .word 0x04512223  # sw x5, 68(x2)
    .word 0x04812283  # lw x5, 72(x2)
    .word 0x08012303  # lw x6, 128(x2)
    .word 0x0062c2b3  # xor x5, x5, x6
    .word 0x04512423  # sw x5, 72(x2)
    .word 0x04c12283  # lw x5, 76(x2)
    .word 0x08412303  # lw x6, 132(x2)
    .word 0x0062c633  # xor x12, x5, x6
    .word 0x04c12623  # sw x12, 76(x2)
    .word 0x01767933  # and x18, x12, x23
    .word 0x012642b3  # xor x5, x12, x18
    .word 0x0012d293  # srli x5, x5, 1
    .word 0x00391313  # slli x6, x18, 3
    .word 0x0062c2b3  # xor x5, x5, x6
    .word 0x00c2c9b3  # xor x19, x5, x12
    .word 0x00098a13  # addi x20, x19, 0
    .word 0xfff00593  # addi x11, x0, -1
    .word 0x00158593  # addi x11, x11, 1
    .word 0x00259493  # slli x9, x11, 2
    .word 0x002484b3  # add x9, x9, x2
    .word 0x0304a603  # lw x12, 48(x9)
    .word 0x01767933  # and x18, x12, x23
    .word 0x012642b3  # xor x5, x12, x18
    .word 0x0012d293  # srli x5, x5, 1
    .word 0x00391313  # slli x6, x18, 3
    .word 0x0062e933  # or x18, x5, x6
    .word 0x01264633  # xor x12, x12, x18
    .word 0x2cc12303  # lw x6, 716(x2)
    .word 0x00667ab3  # and x21, x12, x6
    .word 0x01a00313  # addi x6, x0, 26
    .word 0x00b35333  # srl x6, x6, x11
    .word 0x00137313  # andi x6, x6, 1
    .word 0x40600333  # sub x6, x0, x6
    .word 0x0069fb33  # and x22, x19, x6
    .word 0x01564333  # xor x6, x12, x21
    .word 0x00235313  # srli x6, x6, 2
    .word 0x006942b3  # xor x5, x18, x6
    .word 0x002a9313  # slli x6, x21, 2
    .word 0x0062c2b3  # xor x5, x5, x6
    .word 0x0142c2b3  # xor x5, x5, x20
    .word 0x0162c933  # xor x18, x5, x22
    .word 0x00060a13  # addi x20, x12, 0
    .word 0x01091613  # slli x12, x18, 16
    .word 0x01065313  # srli x6, x12, 16
    .word 0x00666633  # or x12, x12, x6
    .word 0x017672b3  # and x5, x12, x23
    .word 0x00c65313  # srli x6, x12, 12
    .word 0x01837333  # and x6, x6, x24
    .word 0x0062e2b3  # or x5, x5, x6
    .word 0x00865313  # srli x6, x12, 8
    .word 0x01937333  # and x6, x6, x25
    .word 0x0062e933  # or x18, x5, x6
    .word 0x00465293  # srli x5, x12, 4
    .word 0x01a2f633  # and x12, x5, x26
    .word 0x00c962b3  # or x5, x18, x12
    .word 0x0254a823  # sw x5, 48(x9)
    .word 0xff958293  # addi x5, x11, -7
    .word 0xf60290e3  # bne x5, x0, -160
    .word 0xfe650293  # addi x5, x10, -26
    .word 0xfc029063  # bne x5, x0, -2112
    .word 0x03012283  # lw x5, 48(x2)
    .word 0x0012d293  # srli x5, x5, 1
    .word 0x03412303  # lw x6, 52(x2)
    .word 0x0062c2b3  # xor x5, x5, x6
    .word 0x2c012303  # lw x6, 704(x2)
    .word 0x0062f633  # and x12, x5, x6
    .word 0x03412283  # lw x5, 52(x2)
    .word 0x00c2c2b3  # xor x5, x5, x12
    .word 0x02512a23  # sw x5, 52(x2)
    .word 0x03012283  # lw x5, 48(x2)
    .word 0x00161313  # slli x6, x12, 1
    .word 0x0062c633  # xor x12, x5, x6
    .word 0x02c12823  # sw x12, 48(x2)
    .word 0x03812283  # lw x5, 56(x2)
    .word 0x0012d293  # srli x5, x5, 1
    .word 0x03c12303  # lw x6, 60(x2)
    .word 0x0062c2b3  # xor x5, x5, x6
    .word 0x2c012303  # lw x6, 704(x2)
    .word 0x0062f633  # and x12, x5, x6
    .word 0x03c12283  # lw x5, 60(x2)
    .word 0x00c2c2b3  # xor x5, x5, x12
    .word 0x02512e23  # sw x5, 60(x2)
    .word 0x03812283  # lw x5, 56(x2)
    .word 0x00161313  # slli x6, x12, 1
    .word 0x0062c633  # xor x12, x5, x6
    .word 0x02c12c23  # sw x12, 56(x2)
    .word 0x04012283  # lw x5, 64(x2)
    .word 0x0012d293  # srli x5, x5, 1
    .word 0x04412303  # lw x6, 68(x2)
    .word 0x0062c2b3  # xor x5, x5, x6
    .word 0x2c012303  # lw x6, 704(x2)
    .word 0x0062f633  # and x12, x5, x6
    .word 0x04412283  # lw x5, 68(x2)
    .word 0x00c2c2b3  # xor x5, x5, x12
    .word 0x04512223  # sw x5, 68(x2)
    .word 0x04012283  # lw x5, 64(x2)
    .word 0x00161313  # slli x6, x12, 1
    .word 0x0062c633  # xor x12, x5, x6
    .word 0x04c12023  # sw x12, 64(x2)
    .word 0x04812283  # lw x5, 72(x2)
    .word 0x0012d293  # srli x5, x5, 1
    .word 0x04c12303  # lw x6, 76(x2)
    .word 0x0062c2b3  # xor x5, x5, x6
    .word 0x2c012303  # lw x6, 704(x2)
    .word 0x0062f633  # and x12, x5, x6
    .word 0x04c12283  # lw x5, 76(x2)
    .word 0x00c2c2b3  # xor x5, x5, x12
    .word 0x04512623  # sw x5, 76(x2)
    .word 0x04812283  # lw x5, 72(x2)
    .word 0x00161313  # slli x6, x12, 1
    .word 0x0062c633  # xor x12, x5, x6
    .word 0x04c12423  # sw x12, 72(x2)
    .word 0x03012283  # lw x5, 48(x2)
    .word 0x0022d293  # srli x5, x5, 2
    .word 0x03812303  # lw x6, 56(x2)
    .word 0x0062c2b3  # xor x5, x5, x6
    .word 0x2c412303  # lw x6, 708(x2)
    .word 0x0062f633  # and x12, x5, x6
    .word 0x03812283  # lw x5, 56(x2)
    .word 0x00c2c2b3  # xor x5, x5, x12
    .word 0x02512c23  # sw x5, 56(x2)
    .word 0x03012283  # lw x5, 48(x2)
    .word 0x00261313  # slli x6, x12, 2
    .word 0x0062c633  # xor x12, x5, x6
    .word 0x02c12823  # sw x12, 48(x2)
    .word 0x03412283  # lw x5, 52(x2)
    .word 0x0022d293  # srli x5, x5, 2
    .word 0x03c12303  # lw x6, 60(x2)
    .word 0x0062c2b3  # xor x5, x5, x6
    .word 0x2c412303  # lw x6, 708(x2)
    .word 0x0062f633  # and x12, x5, x6
    .word 0x03c12283  # lw x5, 60(x2)
    .word 0x00c2c2b3  # xor x5, x5, x12
    .word 0x02512e23  # sw x5, 60(x2)
    .word 0x03412283  # lw x5, 52(x2)
    .word 0x00261313  # slli x6, x12, 2
    .word 0x0062c633  # xor x12, x5, x6
    .word 0x02c12a23  # sw x12, 52(x2)
    .word 0x04012283  # lw x5, 64(x2)
    .word 0x0022d293  # srli x5, x5, 2
    .word 0x04812303  # lw x6, 72(x2)
    .word 0x0062c2b3  # xor x5, x5, x6
    .word 0x2c412303  # lw x6, 708(x2)
    .word 0x0062f633  # and x12, x5, x6
    .word 0x04812283  # lw x5, 72(x2)
    .word 0x00c2c2b3  # xor x5, x5, x12
    .word 0x04512423  # sw x5, 72(x2)
    .word 0x04012283  # lw x5, 64(x2)
    .word 0x00261313  # slli x6, x12, 2
    .word 0x0062c633  # xor x12, x5, x6
    .word 0x04c12023  # sw x12, 64(x2)
    .word 0x04412283  # lw x5, 68(x2)
    .word 0x0022d293  # srli x5, x5, 2
    .word 0x04c12303  # lw x6, 76(x2)
    .word 0x0062c2b3  # xor x5, x5, x6
    .word 0x2c412303  # lw x6, 708(x2)
    .word 0x0062f633  # and x12, x5, x6
    .word 0x04c12283  # lw x5, 76(x2)
    .word 0x00c2c2b3  # xor x5, x5, x12
    .word 0x04512623  # sw x5, 76(x2)
    .word 0x04412283  # lw x5, 68(x2)
    .word 0x00261313  # slli x6, x12, 2
    .word 0x0062c633  # xor x12, x5, x6
    .word 0x04c12223  # sw x12, 68(x2)
    .word 0x03012283  # lw x5, 48(x2)
    .word 0x0042d293  # srli x5, x5, 4
    .word 0x04012303  # lw x6, 64(x2)
    .word 0x0062c2b3  # xor x5, x5, x6
    .word 0x2c812303  # lw x6, 712(x2)
    .word 0x0062f633  # and x12, x5, x6
    .word 0x04012283  # lw x5, 64(x2)
    .word 0x00c2c2b3  # xor x5, x5, x12
    .word 0x04512023  # sw x5, 64(x2)
    .word 0x03012283  # lw x5, 48(x2)
    .word 0x00461313  # slli x6, x12, 4
    .word 0x0062c633  # xor x12, x5, x6
    .word 0x02c12823  # sw x12, 48(x2)
    .word 0x03412283  # lw x5, 52(x2)
    .word 0x0042d293  # srli x5, x5, 4
    .word 0x04412303  # lw x6, 68(x2)
    .word 0x0062c2b3  # xor x5, x5, x6
    .word 0x2c812303  # lw x6, 712(x2)
    .word 0x0062f633  # and x12, x5, x6
    .word 0x04412283  # lw x5, 68(x2)
    .word 0x00c2c2b3  # xor x5, x5, x12
    .word 0x04512223  # sw x5, 68(x2)
    .word 0x03412283  # lw x5, 52(x2)
    .word 0x00461313  # slli x6, x12, 4
    .word 0x0062c633  # xor x12, x5, x6
    .word 0x02c12a23  # sw x12, 52(x2)
    .word 0x03812283  # lw x5, 56(x2)
    .word 0x0042d293  # srli x5, x5, 4
    .word 0x04812303  # lw x6, 72(x2)
    .word 0x0062c2b3  # xor x5, x5, x6
    .word 0x2c812303  # lw x6, 712(x2)
    .word 0x0062f633  # and x12, x5, x6
    .word 0x04812283  # lw x5, 72(x2)
    .word 0x00c2c2b3  # xor x5, x5, x12
    .word 0x04512423  # sw x5, 72(x2)
    .word 0x03812283  # lw x5, 56(x2)
    .word 0x00461313  # slli x6, x12, 4
    .word 0x0062c633  # xor x12, x5, x6
    .word 0x02c12c23  # sw x12, 56(x2)
    .word 0x03c12283  # lw x5, 60(x2)
    .word 0x0042d293  # srli x5, x5, 4
    .word 0x04c12303  # lw x6, 76(x2)
    .word 0x0062c2b3  # xor x5, x5, x6
    .word 0x2c812303  # lw x6, 712(x2)
    .word 0x0062f633  # and x12, x5, x6
    .word 0x04c12283  # lw x5, 76(x2)
    .word 0x00c2c2b3  # xor x5, x5, x12
    .word 0x04512623  # sw x5, 76(x2)
    .word 0x03c12283  # lw x5, 60(x2)
    .word 0x00461313  # slli x6, x12, 4
    .word 0x0062c633  # xor x12, x5, x6
    .word 0x02c12e23  # sw x12, 60(x2)
    .word 0xfff00593  # addi x11, x0, -1
    .word 0x00158593  # addi x11, x11, 1
    .word 0x00259493  # slli x9, x11, 2
    .word 0x002484b3  # add x9, x9, x2
    .word 0x0304a603  # lw x12, 48(x9)
    .word 0x002582b3  # add x5, x11, x2
    .word 0x02c28023  # sb x12, 32(x5)
    .word 0x00865313  # srli x6, x12, 8
    .word 0x002582b3  # add x5, x11, x2
    .word 0x02628423  # sb x6, 40(x5)
    .word 0xff958293  # addi x5, x11, -7
    .word 0xfc029ce3  # bne x5, x0, -40
    # the result
    .word 0x00000513  # addi x10, x0, 0
    # parameter 1: the array, back
    .word 0x02010293  # addi x5, x2, 32
    .word 0x32c12303  # lw x6, 812(x2)
    .word 0x01028393  # addi x7, x5, 16
    .word 0x0002ce03  # lbu x28, 0(x5)
    .word 0x01c30023  # sb x28, 0(x6)
    .word 0x00128293  # addi x5, x5, 1
    .word 0x00130313  # addi x6, x6, 1
    .word 0xfe7298e3  # bne x5, x7, -16
    # above the frame
    .word 0x2f010293  # addi x5, x2, 752
    # the caller's registers
    .word 0x0002a483  # lw x9, 0(x5)
    .cfi_restore 9
    .word 0x0042a903  # lw x18, 4(x5)
    .cfi_restore 18
    .word 0x0082a983  # lw x19, 8(x5)
    .cfi_restore 19
    .word 0x00c2aa03  # lw x20, 12(x5)
    .cfi_restore 20
    .word 0x0102aa83  # lw x21, 16(x5)
    .cfi_restore 21
    .word 0x0142ab03  # lw x22, 20(x5)
    .cfi_restore 22
    .word 0x0182ab83  # lw x23, 24(x5)
    .cfi_restore 23
    .word 0x01c2ac03  # lw x24, 28(x5)
    .cfi_restore 24
    .word 0x0202ac83  # lw x25, 32(x5)
    .cfi_restore 25
    .word 0x0242ad03  # lw x26, 36(x5)
    .cfi_restore 26
    .word 0x0282ad83  # lw x27, 40(x5)
    .cfi_restore 27
    # the caller's x2
    .word 0x04028293  # addi x5, x5, 64
    .cfi_def_cfa 5, 0
    # on to the tail that functions share
    jal x0, factc.tail.1
    .cfi_endproc
    .size aes256_decrypt, . - aes256_decrypt
    .section .text.factc.tail.1, "axG", @progbits, factc.tail.1, comdat
    .p2align 2
    .globl factc.tail.1
    .hidden factc.tail.1
    .type factc.tail.1, @function
factc.tail.1:
    .cfi_startproc
    .cfi_def_cfa 5, 0
    # all the room, wiped upward
    .word 0x00012023  # sw x0, 0(x2)
    .word 0x00012223  # sw x0, 4(x2)
    .word 0x00012423  # sw x0, 8(x2)
    .word 0x00012623  # sw x0, 12(x2)
    .word 0x01010113  # addi x2, x2, 16
    .word 0xfe5116e3  # bne x2, x5, -20
    .cfi_def_cfa 2, 0
    # temporaries, wiped
    .word 0x00000293  # addi x5, x0, 0
    .word 0x00000313  # addi x6, x0, 0
    .word 0x00000393  # addi x7, x0, 0
    .word 0x00000593  # addi x11, x0, 0
    .word 0x00000613  # addi x12, x0, 0
    .word 0x00000693  # addi x13, x0, 0
    .word 0x00000713  # addi x14, x0, 0
    .word 0x00000793  # addi x15, x0, 0
    .word 0x00000813  # addi x16, x0, 0
    .word 0x00000893  # addi x17, x0, 0
    .word 0x00000e13  # addi x28, x0, 0
    .word 0x00000e93  # addi x29, x0, 0
    .word 0x00000f13  # addi x30, x0, 0
    .word 0x00000f93  # addi x31, x0, 0
    # back
    .word 0x00008067  # jalr x0, 0(x1)
    .cfi_endproc
    .size factc.tail.1, . - factc.tail.1
    .option pop
