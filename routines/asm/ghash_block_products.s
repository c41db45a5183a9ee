# ghash_block_products: made by factc 1.0.0 function; 1305 words, 176 bytes of stack, profile 1
    .option push
    .option norvc
    .option norelax
    .cfi_sections .debug_frame
    .section .text.ghash_block_products, "ax", @progbits
    .p2align 2
    .globl ghash_block_products
    .type ghash_block_products, @function
ghash_block_products:
    .cfi_startproc
    # room above the frame
    .word 0xfc010113  # addi x2, x2, -64
    .cfi_def_cfa_offset 64
    # the caller's registers
    .word 0x00812023  # sw x8, 0(x2)
    .cfi_offset 8, -64
    .word 0x00912223  # sw x9, 4(x2)
    .cfi_offset 9, -60
    .word 0x01212423  # sw x18, 8(x2)
    .cfi_offset 18, -56
    .word 0x01312623  # sw x19, 12(x2)
    .cfi_offset 19, -52
    .word 0x01412823  # sw x20, 16(x2)
    .cfi_offset 20, -48
    .word 0x01512a23  # sw x21, 20(x2)
    .cfi_offset 21, -44
    .word 0x01612c23  # sw x22, 24(x2)
    .cfi_offset 22, -40
    .word 0x01712e23  # sw x23, 28(x2)
    .cfi_offset 23, -36
    .word 0x03812023  # sw x24, 32(x2)
    .cfi_offset 24, -32
    .word 0x03912223  # sw x25, 36(x2)
    .cfi_offset 25, -28
    .word 0x03a12423  # sw x26, 40(x2)
    .cfi_offset 26, -24
    .word 0x03b12623  # sw x27, 44(x2)
    .cfi_offset 27, -20
    # arguments that are needed behind the body
    .word 0x02a12a23  # sw x10, 52(x2)
    .word 0x02b12c23  # sw x11, 56(x2)
    .word 0x02c12e23  # sw x12, 60(x2)
    # the frame's base
    .word 0xf9010113  # addi x2, x2, -112
    .cfi_def_cfa 2, 176
    # parameter 0: an array
    .word 0x00050293  # addi x5, x10, 0
    .word 0x00010313  # addi x6, x2, 0
    .word 0x01028393  # addi x7, x5, 16
    .word 0x3c001f6f  # jal x30, 5056
    # parameter 1: an array
    .word 0x00058293  # addi x5, x11, 0
    .word 0x01010313  # addi x6, x2, 16
    .word 0x01028393  # addi x7, x5, 16
    .word 0x3b001f6f  # jal x30, 5040
    # parameter 2: an array
    .word 0x00060293  # addi x5, x12, 0
    .word 0x02010313  # addi x6, x2, 32
    .word 0x01028393  # addi x7, x5, 16
    .word 0x3a001f6f  # jal x30, 5024
    # the body
    .word 0x00010d37  # lui x26, 0x00010
    .word 0xfffd0d13  # addi x26, x26, -1
    .word 0x49249db7  # lui x27, 0x49249
    .word 0x249d8d93  # addi x27, x27, 585
    .word 0x92492437  # lui x8, 0x92492
    .word 0x49240413  # addi x8, x8, 1170
    .word 0x249254b7  # lui x9, 0x24925
    .word 0x92448493  # addi x9, x9, -1756
    .word 0x00c14283  # lbu x5, 12(x2)
    .word 0x01829293  # slli x5, x5, 24
    .word 0x00d14303  # lbu x6, 13(x2)
    .word 0x01031313  # slli x6, x6, 16
    .word 0x0062e533  # or x10, x5, x6
    .word 0x00e14303  # lbu x6, 14(x2)
    .word 0x00831313  # slli x6, x6, 8
    .word 0x006562b3  # or x5, x10, x6
    .word 0x00f14303  # lbu x6, 15(x2)
    .word 0x0062e9b3  # or x19, x5, x6
    .word 0x02c14283  # lbu x5, 44(x2)
    .word 0x01829293  # slli x5, x5, 24
    .word 0x02d14303  # lbu x6, 45(x2)
    .word 0x01031313  # slli x6, x6, 16
    .word 0x0062e533  # or x10, x5, x6
    .word 0x02e14303  # lbu x6, 46(x2)
    .word 0x00831313  # slli x6, x6, 8
    .word 0x006562b3  # or x5, x10, x6
    .word 0x02f14303  # lbu x6, 47(x2)
    .word 0x0062e533  # or x10, x5, x6
    .word 0x01c14283  # lbu x5, 28(x2)
    .word 0x01829293  # slli x5, x5, 24
    .word 0x01d14303  # lbu x6, 29(x2)
    .word 0x01031313  # slli x6, x6, 16
    .word 0x0062e5b3  # or x11, x5, x6
    .word 0x01e14303  # lbu x6, 30(x2)
    .word 0x00831313  # slli x6, x6, 8
    .word 0x0065e2b3  # or x5, x11, x6
    .word 0x01f14303  # lbu x6, 31(x2)
    .word 0x0062e5b3  # or x11, x5, x6
    .word 0x00b54bb3  # xor x23, x10, x11
    .word 0x00814283  # lbu x5, 8(x2)
    .word 0x01829293  # slli x5, x5, 24
    .word 0x00914303  # lbu x6, 9(x2)
    .word 0x01031313  # slli x6, x6, 16
    .word 0x0062e533  # or x10, x5, x6
    .word 0x00a14303  # lbu x6, 10(x2)
    .word 0x00831313  # slli x6, x6, 8
    .word 0x006562b3  # or x5, x10, x6
    .word 0x00b14303  # lbu x6, 11(x2)
    .word 0x0062ea33  # or x20, x5, x6
    .word 0x02814283  # lbu x5, 40(x2)
    .word 0x01829293  # slli x5, x5, 24
    .word 0x02914303  # lbu x6, 41(x2)
    .word 0x01031313  # slli x6, x6, 16
    .word 0x0062e533  # or x10, x5, x6
    .word 0x02a14303  # lbu x6, 42(x2)
    .word 0x00831313  # slli x6, x6, 8
    .word 0x006562b3  # or x5, x10, x6
    .word 0x02b14303  # lbu x6, 43(x2)
    .word 0x0062e533  # or x10, x5, x6
    .word 0x01814283  # lbu x5, 24(x2)
    .word 0x01829293  # slli x5, x5, 24
    .word 0x01914303  # lbu x6, 25(x2)
    .word 0x01031313  # slli x6, x6, 16
    .word 0x0062e5b3  # or x11, x5, x6
    .word 0x01a14303  # lbu x6, 26(x2)
    .word 0x00831313  # slli x6, x6, 8
    .word 0x0065e2b3  # or x5, x11, x6
    .word 0x01b14303  # lbu x6, 27(x2)
    .word 0x0062e5b3  # or x11, x5, x6
    .word 0x00b54c33  # xor x24, x10, x11
    .word 0x00414283  # lbu x5, 4(x2)
    .word 0x01829293  # slli x5, x5, 24
    .word 0x00514303  # lbu x6, 5(x2)
    .word 0x01031313  # slli x6, x6, 16
    .word 0x0062e533  # or x10, x5, x6
    .word 0x00614303  # lbu x6, 6(x2)
    .word 0x00831313  # slli x6, x6, 8
    .word 0x006562b3  # or x5, x10, x6
    .word 0x00714303  # lbu x6, 7(x2)
    .word 0x0062eab3  # or x21, x5, x6
    .word 0x02414283  # lbu x5, 36(x2)
    .word 0x01829293  # slli x5, x5, 24
    .word 0x02514303  # lbu x6, 37(x2)
    .word 0x01031313  # slli x6, x6, 16
    .word 0x0062e533  # or x10, x5, x6
    .word 0x02614303  # lbu x6, 38(x2)
    .word 0x00831313  # slli x6, x6, 8
    .word 0x006562b3  # or x5, x10, x6
    .word 0x02714303  # lbu x6, 39(x2)
    .word 0x0062e533  # or x10, x5, x6
    .word 0x01414283  # lbu x5, 20(x2)
    .word 0x01829293  # slli x5, x5, 24
    .word 0x01514303  # lbu x6, 21(x2)
    .word 0x01031313  # slli x6, x6, 16
    .word 0x0062e5b3  # or x11, x5, x6
    .word 0x01614303  # lbu x6, 22(x2)
    .word 0x00831313  # slli x6, x6, 8
    .word 0x0065e2b3  # or x5, x11, x6
    .word 0x01714303  # lbu x6, 23(x2)
    .word 0x0062e5b3  # or x11, x5, x6
    .word 0x00b54cb3  # xor x25, x10, x11
    .word 0x00014283  # lbu x5, 0(x2)
    .word 0x01829293  # slli x5, x5, 24
    .word 0x00114303  # lbu x6, 1(x2)
    .word 0x01031313  # slli x6, x6, 16
    .word 0x0062e533  # or x10, x5, x6
    .word 0x00214303  # lbu x6, 2(x2)
    .word 0x00831313  # slli x6, x6, 8
    .word 0x006562b3  # or x5, x10, x6
    .word 0x00314303  # lbu x6, 3(x2)
    .word 0x0062eb33  # or x22, x5, x6
    .word 0x02014283  # lbu x5, 32(x2)
    .word 0x01829293  # slli x5, x5, 24
    .word 0x02114303  # lbu x6, 33(x2)
    .word 0x01031313  # slli x6, x6, 16
    .word 0x0062e533  # or x10, x5, x6
    .word 0x02214303  # lbu x6, 34(x2)
    .word 0x00831313  # slli x6, x6, 8
    .word 0x006562b3  # or x5, x10, x6
    .word 0x02314303  # lbu x6, 35(x2)
    .word 0x0062e533  # or x10, x5, x6
    .word 0x01014283  # lbu x5, 16(x2)
    .word 0x01829293  # slli x5, x5, 24
    .word 0x01114303  # lbu x6, 17(x2)
    .word 0x01031313  # slli x6, x6, 16
    .word 0x0062e5b3  # or x11, x5, x6
    .word 0x01214303  # lbu x6, 18(x2)
    .word 0x00831313  # slli x6, x6, 8
    .word 0x0065e2b3  # or x5, x11, x6
    .word 0x01314303  # lbu x6, 19(x2)
    .word 0x0062e5b3  # or x11, x5, x6
    .word 0x00b542b3  # xor x5, x10, x11
    .word 0x02512823  # sw x5, 48(x2)
    .word 0x0149c2b3  # xor x5, x19, x20
    .word 0x02512a23  # sw x5, 52(x2)
    .word 0x016ac2b3  # xor x5, x21, x22
    .word 0x02512c23  # sw x5, 56(x2)
    .word 0x0159c2b3  # xor x5, x19, x21
    .word 0x02512e23  # sw x5, 60(x2)
    .word 0x016a42b3  # xor x5, x20, x22
    .word 0x04512023  # sw x5, 64(x2)
    .word 0x03412283  # lw x5, 52(x2)
    .word 0x03812303  # lw x6, 56(x2)
    .word 0x0062c2b3  # xor x5, x5, x6
    .word 0x04512223  # sw x5, 68(x2)
    .word 0x018bc2b3  # xor x5, x23, x24
    .word 0x04512423  # sw x5, 72(x2)
    .word 0x03012303  # lw x6, 48(x2)
    .word 0x006cc2b3  # xor x5, x25, x6
    .word 0x04512623  # sw x5, 76(x2)
    .word 0x019bc2b3  # xor x5, x23, x25
    .word 0x04512823  # sw x5, 80(x2)
    .word 0x03012303  # lw x6, 48(x2)
    .word 0x006c42b3  # xor x5, x24, x6
    .word 0x04512a23  # sw x5, 84(x2)
    .word 0x04812283  # lw x5, 72(x2)
    .word 0x04c12303  # lw x6, 76(x2)
    .word 0x0062c2b3  # xor x5, x5, x6
    .word 0x04512c23  # sw x5, 88(x2)
    .word 0x01a9f533  # and x10, x19, x26
    .word 0x01abf5b3  # and x11, x23, x26
    .word 0x01b57633  # and x12, x10, x27
    .word 0x008576b3  # and x13, x10, x8
    .word 0x00957533  # and x10, x10, x9
    .word 0x01b5f733  # and x14, x11, x27
    .word 0x0085f7b3  # and x15, x11, x8
    .word 0x0095f5b3  # and x11, x11, x9
    .word 0x02e602b3  # mul x5, x12, x14
    .word 0x02b68333  # mul x6, x13, x11
    .word 0x0062c2b3  # xor x5, x5, x6
    .word 0x02f50333  # mul x6, x10, x15
    .word 0x0062c2b3  # xor x5, x5, x6
    .word 0x01b2f833  # and x16, x5, x27
    .word 0x02f602b3  # mul x5, x12, x15
    .word 0x02e68333  # mul x6, x13, x14
    .word 0x0062c2b3  # xor x5, x5, x6
    .word 0x02b50333  # mul x6, x10, x11
    .word 0x0062c2b3  # xor x5, x5, x6
    .word 0x0082f933  # and x18, x5, x8
    .word 0x02b602b3  # mul x5, x12, x11
    .word 0x02f68333  # mul x6, x13, x15
    .word 0x0062c2b3  # xor x5, x5, x6
    .word 0x02e50333  # mul x6, x10, x14
    .word 0x0062c2b3  # xor x5, x5, x6
    .word 0x0092f533  # and x10, x5, x9
    .word 0x012862b3  # or x5, x16, x18
    .word 0x00a2e833  # or x16, x5, x10
    .word 0x0109d513  # srli x10, x19, 16
    .word 0x010bd593  # srli x11, x23, 16
    .word 0x01b57633  # and x12, x10, x27
    .word 0x008576b3  # and x13, x10, x8
    .word 0x00957533  # and x10, x10, x9
    .word 0x01b5f733  # and x14, x11, x27
    .word 0x0085f7b3  # and x15, x11, x8
    .word 0x0095f5b3  # and x11, x11, x9
    .word 0x02e602b3  # mul x5, x12, x14
    .word 0x02b68333  # mul x6, x13, x11
    .word 0x0062c2b3  # xor x5, x5, x6
    .word 0x02f50333  # mul x6, x10, x15
    .word 0x0062c2b3  # xor x5, x5, x6
    .word 0x01b2f933  # and x18, x5, x27
    .word 0x02f602b3  # mul x5, x12, x15
    .word 0x02e68333  # mul x6, x13, x14
    .word 0x0062c2b3  # xor x5, x5, x6
    .word 0x02b50333  # mul x6, x10, x11
    .word 0x0062c2b3  # xor x5, x5, x6
    .word 0x0082f8b3  # and x17, x5, x8
    .word 0x02b602b3  # mul x5, x12, x11
    .word 0x02f68333  # mul x6, x13, x15
    .word 0x0062c2b3  # xor x5, x5, x6
    .word 0x02e50333  # mul x6, x10, x14
    .word 0x0062c2b3  # xor x5, x5, x6
    .word 0x0092f533  # and x10, x5, x9
    .word 0x011962b3  # or x5, x18, x17
    .word 0x00a2e933  # or x18, x5, x10
    .word 0x0109d313  # srli x6, x19, 16
    .word 0x0069c2b3  # xor x5, x19, x6
    .word 0x01a2f533  # and x10, x5, x26
    .word 0x010bd313  # srli x6, x23, 16
    .word 0x006bc2b3  # xor x5, x23, x6
    .word 0x01a2f5b3  # and x11, x5, x26
    .word 0x01b57633  # and x12, x10, x27
    .word 0x008576b3  # and x13, x10, x8
    .word 0x00957533  # and x10, x10, x9
    .word 0x01b5f733  # and x14, x11, x27
    .word 0x0085f7b3  # and x15, x11, x8
    .word 0x0095f5b3  # and x11, x11, x9
    .word 0x02e602b3  # mul x5, x12, x14
    .word 0x02b68333  # mul x6, x13, x11
    .word 0x0062c2b3  # xor x5, x5, x6
    .word 0x02f50333  # mul x6, x10, x15
    .word 0x0062c2b3  # xor x5, x5, x6
    .word 0x01b2f8b3  # and x17, x5, x27
    .word 0x02f602b3  # mul x5, x12, x15
    .word 0x02e68333  # mul x6, x13, x14
    .word 0x0062c2b3  # xor x5, x5, x6
    .word 0x02b50333  # mul x6, x10, x11
    .word 0x0062c2b3  # xor x5, x5, x6
    .word 0x0082f9b3  # and x19, x5, x8
    .word 0x02b602b3  # mul x5, x12, x11
    .word 0x02f68333  # mul x6, x13, x15
    .word 0x0062c2b3  # xor x5, x5, x6
    .word 0x02e50333  # mul x6, x10, x14
    .word 0x0062c2b3  # xor x5, x5, x6
    .word 0x0092f533  # and x10, x5, x9
    .word 0x0138e2b3  # or x5, x17, x19
    .word 0x00a2e533  # or x10, x5, x10
    .word 0x010542b3  # xor x5, x10, x16
    .word 0x0122c533  # xor x10, x5, x18
    .word 0x01051313  # slli x6, x10, 16
    .word 0x00684bb3  # xor x23, x16, x6
    .word 0x01055313  # srli x6, x10, 16
    .word 0x006942b3  # xor x5, x18, x6
    .word 0x04512e23  # sw x5, 92(x2)
    .word 0x01aa7533  # and x10, x20, x26
    .word 0x01ac75b3  # and x11, x24, x26
    .word 0x01b57633  # and x12, x10, x27
    .word 0x008576b3  # and x13, x10, x8
    .word 0x00957533  # and x10, x10, x9
    .word 0x01b5f733  # and x14, x11, x27
    .word 0x0085f7b3  # and x15, x11, x8
    .word 0x0095f5b3  # and x11, x11, x9
    .word 0x02e602b3  # mul x5, x12, x14
    .word 0x02b68333  # mul x6, x13, x11
    .word 0x0062c2b3  # xor x5, x5, x6
    .word 0x02f50333  # mul x6, x10, x15
    .word 0x0062c2b3  # xor x5, x5, x6
    .word 0x01b2f833  # and x16, x5, x27
    .word 0x02f602b3  # mul x5, x12, x15
    .word 0x02e68333  # mul x6, x13, x14
    .word 0x0062c2b3  # xor x5, x5, x6
    .word 0x02b50333  # mul x6, x10, x11
    .word 0x0062c2b3  # xor x5, x5, x6
    .word 0x0082f933  # and x18, x5, x8
    .word 0x02b602b3  # mul x5, x12, x11
    .word 0x02f68333  # mul x6, x13, x15
    .word 0x0062c2b3  # xor x5, x5, x6
    .word 0x02e50333  # mul x6, x10, x14
    .word 0x0062c2b3  # xor x5, x5, x6
    .word 0x0092f533  # and x10, x5, x9
    .word 0x012862b3  # or x5, x16, x18
    .word 0x00a2e833  # or x16, x5, x10
    .word 0x010a5513  # srli x10, x20, 16
    .word 0x010c5593  # srli x11, x24, 16
    .word 0x01b57633  # and x12, x10, x27
    .word 0x008576b3  # and x13, x10, x8
    .word 0x00957533  # and x10, x10, x9
    .word 0x01b5f733  # and x14, x11, x27
    .word 0x0085f7b3  # and x15, x11, x8
    .word 0x0095f5b3  # and x11, x11, x9
    .word 0x02e602b3  # mul x5, x12, x14
    .word 0x02b68333  # mul x6, x13, x11
    .word 0x0062c2b3  # xor x5, x5, x6
    .word 0x02f50333  # mul x6, x10, x15
    .word 0x0062c2b3  # xor x5, x5, x6
    .word 0x01b2f933  # and x18, x5, x27
    .word 0x02f602b3  # mul x5, x12, x15
    .word 0x02e68333  # mul x6, x13, x14
    .word 0x0062c2b3  # xor x5, x5, x6
    .word 0x02b50333  # mul x6, x10, x11
    .word 0x0062c2b3  # xor x5, x5, x6
    .word 0x0082f8b3  # and x17, x5, x8
    .word 0x02b602b3  # mul x5, x12, x11
    .word 0x02f68333  # mul x6, x13, x15
    .word 0x0062c2b3  # xor x5, x5, x6
    .word 0x02e50333  # mul x6, x10, x14
    .word 0x0062c2b3  # xor x5, x5, x6
    .word 0x0092f533  # and x10, x5, x9
    .word 0x011962b3  # or x5, x18, x17
    .word 0x00a2e933  # or x18, x5, x10
    .word 0x010a5313  # srli x6, x20, 16
    .word 0x006a42b3  # xor x5, x20, x6
    .word 0x01a2f533  # and x10, x5, x26
    .word 0x010c5313  # srli x6, x24, 16
    .word 0x006c42b3  # xor x5, x24, x6
    .word 0x01a2f5b3  # and x11, x5, x26
    .word 0x01b57633  # and x12, x10, x27
    .word 0x008576b3  # and x13, x10, x8
    .word 0x00957533  # and x10, x10, x9
    .word 0x01b5f733  # and x14, x11, x27
    .word 0x0085f7b3  # and x15, x11, x8
    .word 0x0095f5b3  # and x11, x11, x9
    .word 0x02e602b3  # mul x5, x12, x14
    .word 0x02b68333  # mul x6, x13, x11
    .word 0x0062c2b3  # xor x5, x5, x6
    .word 0x02f50333  # mul x6, x10, x15
    .word 0x0062c2b3  # xor x5, x5, x6
    .word 0x01b2f8b3  # and x17, x5, x27
    .word 0x02f602b3  # mul x5, x12, x15
    .word 0x02e68333  # mul x6, x13, x14
    .word 0x0062c2b3  # xor x5, x5, x6
    .word 0x02b50333  # mul x6, x10, x11
    .word 0x0062c2b3  # xor x5, x5, x6
    .word 0x0082f9b3  # and x19, x5, x8
    .word 0x02b602b3  # mul x5, x12, x11
    .word 0x02f68333  # mul x6, x13, x15
    .word 0x0062c2b3  # xor x5, x5, x6
    .word 0x02e50333  # mul x6, x10, x14
    .word 0x0062c2b3  # xor x5, x5, x6
    .word 0x0092f533  # and x10, x5, x9
    .word 0x0138e2b3  # or x5, x17, x19
    .word 0x00a2e533  # or x10, x5, x10
    .word 0x010542b3  # xor x5, x10, x16
    .word 0x0122c533  # xor x10, x5, x18
    .word 0x01051313  # slli x6, x10, 16
    .word 0x00684c33  # xor x24, x16, x6
    .word 0x01055313  # srli x6, x10, 16
    .word 0x006942b3  # xor x5, x18, x6
    .word 0x06512023  # sw x5, 96(x2)
    .word 0x01aaf533  # and x10, x21, x26
    .word 0x01acf5b3  # and x11, x25, x26
    .word 0x01b57633  # and x12, x10, x27
    .word 0x008576b3  # and x13, x10, x8
    .word 0x00957533  # and x10, x10, x9
    .word 0x01b5f733  # and x14, x11, x27
    .word 0x0085f7b3  # and x15, x11, x8
    .word 0x0095f5b3  # and x11, x11, x9
    .word 0x02e602b3  # mul x5, x12, x14
    .word 0x02b68333  # mul x6, x13, x11
    .word 0x0062c2b3  # xor x5, x5, x6
    .word 0x02f50333  # mul x6, x10, x15
    .word 0x0062c2b3  # xor x5, x5, x6
    .word 0x01b2f833  # and x16, x5, x27
    .word 0x02f602b3  # mul x5, x12, x15
    .word 0x02e68333  # mul x6, x13, x14
    .word 0x0062c2b3  # xor x5, x5, x6
    .word 0x02b50333  # mul x6, x10, x11
    .word 0x0062c2b3  # xor x5, x5, x6
    .word 0x0082f933  # and x18, x5, x8
    .word 0x02b602b3  # mul x5, x12, x11
    .word 0x02f68333  # mul x6, x13, x15
    .word 0x0062c2b3  # xor x5, x5, x6
    .word 0x02e50333  # mul x6, x10, x14
    .word 0x0062c2b3  # xor x5, x5, x6
    .word 0x0092f533  # and x10, x5, x9
    .word 0x012862b3  # or x5, x16, x18
    .word 0x00a2e833  # or x16, x5, x10
    .word 0x010ad513  # srli x10, x21, 16
    .word 0x010cd593  # srli x11, x25, 16
    .word 0x01b57633  # and x12, x10, x27
    .word 0x008576b3  # and x13, x10, x8
    .word 0x00957533  # and x10, x10, x9
    .word 0x01b5f733  # and x14, x11, x27
    .word 0x0085f7b3  # and x15, x11, x8
    .word 0x0095f5b3  # and x11, x11, x9
    .word 0x02e602b3  # mul x5, x12, x14
    .word 0x02b68333  # mul x6, x13, x11
    .word 0x0062c2b3  # xor x5, x5, x6
    .word 0x02f50333  # mul x6, x10, x15
    .word 0x0062c2b3  # xor x5, x5, x6
    .word 0x01b2f933  # and x18, x5, x27
    .word 0x02f602b3  # mul x5, x12, x15
    .word 0x02e68333  # mul x6, x13, x14
    .word 0x0062c2b3  # xor x5, x5, x6
    .word 0x02b50333  # mul x6, x10, x11
    .word 0x0062c2b3  # xor x5, x5, x6
    .word 0x0082f8b3  # and x17, x5, x8
    .word 0x02b602b3  # mul x5, x12, x11
    .word 0x02f68333  # mul x6, x13, x15
    .word 0x0062c2b3  # xor x5, x5, x6
    .word 0x02e50333  # mul x6, x10, x14
    .word 0x0062c2b3  # xor x5, x5, x6
    .word 0x0092f533  # and x10, x5, x9
    .word 0x011962b3  # or x5, x18, x17
    .word 0x00a2e933  # or x18, x5, x10
    .word 0x010ad313  # srli x6, x21, 16
    .word 0x006ac2b3  # xor x5, x21, x6
    .word 0x01a2f533  # and x10, x5, x26
    .word 0x010cd313  # srli x6, x25, 16
    .word 0x006cc2b3  # xor x5, x25, x6
    .word 0x01a2f5b3  # and x11, x5, x26
    .word 0x01b57633  # and x12, x10, x27
    .word 0x008576b3  # and x13, x10, x8
    .word 0x00957533  # and x10, x10, x9
    .word 0x01b5f733  # and x14, x11, x27
    .word 0x0085f7b3  # and x15, x11, x8
    .word 0x0095f5b3  # and x11, x11, x9
    .word 0x02e602b3  # mul x5, x12, x14
    .word 0x02b68333  # mul x6, x13, x11
    .word 0x0062c2b3  # xor x5, x5, x6
    .word 0x02f50333  # mul x6, x10, x15
    .word 0x0062c2b3  # xor x5, x5, x6
    .word 0x01b2f8b3  # and x17, x5, x27
    .word 0x02f602b3  # mul x5, x12, x15
    .word 0x02e68333  # mul x6, x13, x14
    .word 0x0062c2b3  # xor x5, x5, x6
    .word 0x02b50333  # mul x6, x10, x11
    .word 0x0062c2b3  # xor x5, x5, x6
    .word 0x0082f9b3  # and x19, x5, x8
    .word 0x02b602b3  # mul x5, x12, x11
    .word 0x02f68333  # mul x6, x13, x15
    .word 0x0062c2b3  # xor x5, x5, x6
    .word 0x02e50333  # mul x6, x10, x14
    .word 0x0062c2b3  # xor x5, x5, x6
    .word 0x0092f533  # and x10, x5, x9
    .word 0x0138e2b3  # or x5, x17, x19
    .word 0x00a2e533  # or x10, x5, x10
    .word 0x010542b3  # xor x5, x10, x16
    .word 0x0122c533  # xor x10, x5, x18
    .word 0x01051313  # slli x6, x10, 16
    .word 0x00684cb3  # xor x25, x16, x6
    .word 0x01055313  # srli x6, x10, 16
    .word 0x006942b3  # xor x5, x18, x6
    .word 0x06512223  # sw x5, 100(x2)
    .word 0x01ab7533  # and x10, x22, x26
    .word 0x03012283  # lw x5, 48(x2)
    .word 0x01a2f5b3  # and x11, x5, x26
    .word 0x01b57633  # and x12, x10, x27
    .word 0x008576b3  # and x13, x10, x8
    .word 0x00957533  # and x10, x10, x9
    .word 0x01b5f733  # and x14, x11, x27
    .word 0x0085f7b3  # and x15, x11, x8
    .word 0x0095f5b3  # and x11, x11, x9
    .word 0x02e602b3  # mul x5, x12, x14
    .word 0x02b68333  # mul x6, x13, x11
    .word 0x0062c2b3  # xor x5, x5, x6
    .word 0x02f50333  # mul x6, x10, x15
    .word 0x0062c2b3  # xor x5, x5, x6
    .word 0x01b2f833  # and x16, x5, x27
    .word 0x02f602b3  # mul x5, x12, x15
    .word 0x02e68333  # mul x6, x13, x14
    .word 0x0062c2b3  # xor x5, x5, x6
    .word 0x02b50333  # mul x6, x10, x11
    .word 0x0062c2b3  # xor x5, x5, x6
    .word 0x0082f933  # and x18, x5, x8
    .word 0x02b602b3  # mul x5, x12, x11
    .word 0x02f68333  # mul x6, x13, x15
    .word 0x0062c2b3  # xor x5, x5, x6
    .word 0x02e50333  # mul x6, x10, x14
    .word 0x0062c2b3  # xor x5, x5, x6
    .word 0x0092f533  # and x10, x5, x9
    .word 0x012862b3  # or x5, x16, x18
    .word 0x00a2e833  # or x16, x5, x10
    .word 0x010b5513  # srli x10, x22, 16
    .word 0x03012283  # lw x5, 48(x2)
    .word 0x0102d593  # srli x11, x5, 16
    .word 0x01b57633  # and x12, x10, x27
    .word 0x008576b3  # and x13, x10, x8
    .word 0x00957533  # and x10, x10, x9
    .word 0x01b5f733  # and x14, x11, x27
    .word 0x0085f7b3  # and x15, x11, x8
    .word 0x0095f5b3  # and x11, x11, x9
    .word 0x02e602b3  # mul x5, x12, x14
    .word 0x02b68333  # mul x6, x13, x11
    .word 0x0062c2b3  # xor x5, x5, x6
    .word 0x02f50333  # mul x6, x10, x15
    .word 0x0062c2b3  # xor x5, x5, x6
    .word 0x01b2f933  # and x18, x5, x27
    .word 0x02f602b3  # mul x5, x12, x15
    .word 0x02e68333  # mul x6, x13, x14
    .word 0x0062c2b3  # xor x5, x5, x6
    .word 0x02b50333  # mul x6, x10, x11
    .word 0x0062c2b3  # xor x5, x5, x6
    .word 0x0082f8b3  # and x17, x5, x8
    .word 0x02b602b3  # mul x5, x12, x11
    .word 0x02f68333  # mul x6, x13, x15
    .word 0x0062c2b3  # xor x5, x5, x6
    .word 0x02e50333  # mul x6, x10, x14
    .word 0x0062c2b3  # xor x5, x5, x6
    .word 0x0092f533  # and x10, x5, x9
    .word 0x011962b3  # or x5, x18, x17
    .word 0x00a2e933  # or x18, x5, x10
    .word 0x010b5313  # srli x6, x22, 16
    .word 0x006b42b3  # xor x5, x22, x6
    .word 0x01a2f533  # and x10, x5, x26
    .word 0x03012283  # lw x5, 48(x2)
    .word 0x03012303  # lw x6, 48(x2)
    .word 0x01035313  # srli x6, x6, 16
    .word 0x0062c2b3  # xor x5, x5, x6
    .word 0x01a2f5b3  # and x11, x5, x26
    .word 0x01b57633  # and x12, x10, x27
    .word 0x008576b3  # and x13, x10, x8
    .word 0x00957533  # and x10, x10, x9
    .word 0x01b5f733  # and x14, x11, x27
    .word 0x0085f7b3  # and x15, x11, x8
    .word 0x0095f5b3  # and x11, x11, x9
    .word 0x02e602b3  # mul x5, x12, x14
    .word 0x02b68333  # mul x6, x13, x11
    .word 0x0062c2b3  # xor x5, x5, x6
    .word 0x02f50333  # mul x6, x10, x15
    .word 0x0062c2b3  # xor x5, x5, x6
    .word 0x01b2f8b3  # and x17, x5, x27
    .word 0x02f602b3  # mul x5, x12, x15
    .word 0x02e68333  # mul x6, x13, x14
    .word 0x0062c2b3  # xor x5, x5, x6
    .word 0x02b50333  # mul x6, x10, x11
    .word 0x0062c2b3  # xor x5, x5, x6
    .word 0x0082f9b3  # and x19, x5, x8
    .word 0x02b602b3  # mul x5, x12, x11
    .word 0x02f68333  # mul x6, x13, x15
    .word 0x0062c2b3  # xor x5, x5, x6
    .word 0x02e50333  # mul x6, x10, x14
    .word 0x0062c2b3  # xor x5, x5, x6
    .word 0x0092f533  # and x10, x5, x9
    .word 0x0138e2b3  # or x5, x17, x19
    .word 0x00a2e533  # or x10, x5, x10
    .word 0x010542b3  # xor x5, x10, x16
    .word 0x0122c533  # xor x10, x5, x18
    .word 0x01051313  # slli x6, x10, 16
    .word 0x00684a33  # xor x20, x16, x6
    .word 0x01055313  # srli x6, x10, 16
    .word 0x00694ab3  # xor x21, x18, x6
    .word 0x03412283  # lw x5, 52(x2)
    .word 0x01a2f533  # and x10, x5, x26
    .word 0x04812283  # lw x5, 72(x2)
    .word 0x01a2f5b3  # and x11, x5, x26
    .word 0x01b57633  # and x12, x10, x27
    .word 0x008576b3  # and x13, x10, x8
    .word 0x00957533  # and x10, x10, x9
    .word 0x01b5f733  # and x14, x11, x27
    .word 0x0085f7b3  # and x15, x11, x8
    .word 0x0095f5b3  # and x11, x11, x9
    .word 0x02e602b3  # mul x5, x12, x14
    .word 0x02b68333  # mul x6, x13, x11
    .word 0x0062c2b3  # xor x5, x5, x6
    .word 0x02f50333  # mul x6, x10, x15
    .word 0x0062c2b3  # xor x5, x5, x6
    .word 0x01b2f833  # and x16, x5, x27
    .word 0x02f602b3  # mul x5, x12, x15
    .word 0x02e68333  # mul x6, x13, x14
    .word 0x0062c2b3  # xor x5, x5, x6
    .word 0x02b50333  # mul x6, x10, x11
    .word 0x0062c2b3  # xor x5, x5, x6
    .word 0x0082f933  # and x18, x5, x8
    .word 0x02b602b3  # mul x5, x12, x11
    .word 0x02f68333  # mul x6, x13, x15
    .word 0x0062c2b3  # xor x5, x5, x6
    .word 0x02e50333  # mul x6, x10, x14
    .word 0x0062c2b3  # xor x5, x5, x6
    .word 0x0092f533  # and x10, x5, x9
    .word 0x012862b3  # or x5, x16, x18
    .word 0x00a2e833  # or x16, x5, x10
    .word 0x03412283  # lw x5, 52(x2)
    .word 0x0102d513  # srli x10, x5, 16
    .word 0x04812283  # lw x5, 72(x2)
    .word 0x0102d593  # srli x11, x5, 16
    .word 0x01b57633  # and x12, x10, x27
    .word 0x008576b3  # and x13, x10, x8
    .word 0x00957533  # and x10, x10, x9
    .word 0x01b5f733  # and x14, x11, x27
    .word 0x0085f7b3  # and x15, x11, x8
    .word 0x0095f5b3  # and x11, x11, x9
    .word 0x02e602b3  # mul x5, x12, x14
    .word 0x02b68333  # mul x6, x13, x11
    .word 0x0062c2b3  # xor x5, x5, x6
    .word 0x02f50333  # mul x6, x10, x15
    .word 0x0062c2b3  # xor x5, x5, x6
    .word 0x01b2f933  # and x18, x5, x27
    .word 0x02f602b3  # mul x5, x12, x15
    .word 0x02e68333  # mul x6, x13, x14
    .word 0x0062c2b3  # xor x5, x5, x6
    .word 0x02b50333  # mul x6, x10, x11
    .word 0x0062c2b3  # xor x5, x5, x6
    .word 0x0082f8b3  # and x17, x5, x8
    .word 0x02b602b3  # mul x5, x12, x11
    .word 0x02f68333  # mul x6, x13, x15
    .word 0x0062c2b3  # xor x5, x5, x6
    .word 0x02e50333  # mul x6, x10, x14
    .word 0x0062c2b3  # xor x5, x5, x6
    .word 0x0092f533  # and x10, x5, x9
    .word 0x011962b3  # or x5, x18, x17
    .word 0x00a2e933  # or x18, x5, x10
    .word 0x03412283  # lw x5, 52(x2)
    .word 0x03412303  # lw x6, 52(x2)
    .word 0x01035313  # srli x6, x6, 16
    .word 0x0062c2b3  # xor x5, x5, x6
    .word 0x01a2f533  # and x10, x5, x26
    .word 0x04812283  # lw x5, 72(x2)
    .word 0x04812303  # lw x6, 72(x2)
    .word 0x01035313  # srli x6, x6, 16
    .word 0x0062c2b3  # xor x5, x5, x6
    .word 0x01a2f5b3  # and x11, x5, x26
    .word 0x01b57633  # and x12, x10, x27
    .word 0x008576b3  # and x13, x10, x8
    .word 0x00957533  # and x10, x10, x9
    .word 0x01b5f733  # and x14, x11, x27
    .word 0x0085f7b3  # and x15, x11, x8
    .word 0x0095f5b3  # and x11, x11, x9
    .word 0x02e602b3  # mul x5, x12, x14
    .word 0x02b68333  # mul x6, x13, x11
    .word 0x0062c2b3  # xor x5, x5, x6
    .word 0x02f50333  # mul x6, x10, x15
    .word 0x0062c2b3  # xor x5, x5, x6
    .word 0x01b2f8b3  # and x17, x5, x27
    .word 0x02f602b3  # mul x5, x12, x15
    .word 0x02e68333  # mul x6, x13, x14
    .word 0x0062c2b3  # xor x5, x5, x6
    .word 0x02b50333  # mul x6, x10, x11
    .word 0x0062c2b3  # xor x5, x5, x6
    .word 0x0082f9b3  # and x19, x5, x8
    .word 0x02b602b3  # mul x5, x12, x11
    .word 0x02f68333  # mul x6, x13, x15
    .word 0x0062c2b3  # xor x5, x5, x6
    .word 0x02e50333  # mul x6, x10, x14
    .word 0x0062c2b3  # xor x5, x5, x6
    .word 0x0092f533  # and x10, x5, x9
    .word 0x0138e2b3  # or x5, x17, x19
    .word 0x00a2e533  # or x10, x5, x10
    .word 0x010542b3  # xor x5, x10, x16
    .word 0x0122c533  # xor x10, x5, x18
    .word 0x01051313  # slli x6, x10, 16
    .word 0x00684b33  # xor x22, x16, x6
    .word 0x01055313  # srli x6, x10, 16
    .word 0x006942b3  # xor x5, x18, x6
    .word 0x04512423  # sw x5, 72(x2)
    .word 0x03812283  # lw x5, 56(x2)
    .word 0x01a2f533  # and x10, x5, x26
    .word 0x04c12283  # lw x5, 76(x2)
    .word 0x01a2f5b3  # and x11, x5, x26
    .word 0x01b57633  # and x12, x10, x27
    .word 0x008576b3  # and x13, x10, x8
    .word 0x00957533  # and x10, x10, x9
    .word 0x01b5f733  # and x14, x11, x27
    .word 0x0085f7b3  # and x15, x11, x8
    .word 0x0095f5b3  # and x11, x11, x9
    .word 0x02e602b3  # mul x5, x12, x14
    .word 0x02b68333  # mul x6, x13, x11
    .word 0x0062c2b3  # xor x5, x5, x6
    .word 0x02f50333  # mul x6, x10, x15
    .word 0x0062c2b3  # xor x5, x5, x6
    .word 0x01b2f833  # and x16, x5, x27
    .word 0x02f602b3  # mul x5, x12, x15
    .word 0x02e68333  # mul x6, x13, x14
    .word 0x0062c2b3  # xor x5, x5, x6
    .word 0x02b50333  # mul x6, x10, x11
    .word 0x0062c2b3  # xor x5, x5, x6
    .word 0x0082f933  # and x18, x5, x8
    .word 0x02b602b3  # mul x5, x12, x11
    .word 0x02f68333  # mul x6, x13, x15
    .word 0x0062c2b3  # xor x5, x5, x6
    .word 0x02e50333  # mul x6, x10, x14
    .word 0x0062c2b3  # xor x5, x5, x6
    .word 0x0092f533  # and x10, x5, x9
    .word 0x012862b3  # or x5, x16, x18
    .word 0x00a2e833  # or x16, x5, x10
    .word 0x03812283  # lw x5, 56(x2)
    .word 0x0102d513  # srli x10, x5, 16
    .word 0x04c12283  # lw x5, 76(x2)
    .word 0x0102d593  # srli x11, x5, 16
    .word 0x01b57633  # and x12, x10, x27
    .word 0x008576b3  # and x13, x10, x8
    .word 0x00957533  # and x10, x10, x9
    .word 0x01b5f733  # and x14, x11, x27
    .word 0x0085f7b3  # and x15, x11, x8
    .word 0x0095f5b3  # and x11, x11, x9
    .word 0x02e602b3  # mul x5, x12, x14
    .word 0x02b68333  # mul x6, x13, x11
    .word 0x0062c2b3  # xor x5, x5, x6
    .word 0x02f50333  # mul x6, x10, x15
    .word 0x0062c2b3  # xor x5, x5, x6
    .word 0x01b2f933  # and x18, x5, x27
    .word 0x02f602b3  # mul x5, x12, x15
    .word 0x02e68333  # mul x6, x13, x14
    .word 0x0062c2b3  # xor x5, x5, x6
    .word 0x02b50333  # mul x6, x10, x11
    .word 0x0062c2b3  # xor x5, x5, x6
    .word 0x0082f8b3  # and x17, x5, x8
    .word 0x02b602b3  # mul x5, x12, x11
    .word 0x02f68333  # mul x6, x13, x15
    .word 0x0062c2b3  # xor x5, x5, x6
    .word 0x02e50333  # mul x6, x10, x14
    .word 0x0062c2b3  # xor x5, x5, x6
    .word 0x0092f533  # and x10, x5, x9
    .word 0x011962b3  # or x5, x18, x17
    .word 0x00a2e933  # or x18, x5, x10
    .word 0x03812283  # lw x5, 56(x2)
    .word 0x03812303  # lw x6, 56(x2)
    .word 0x01035313  # srli x6, x6, 16
    .word 0x0062c2b3  # xor x5, x5, x6
    .word 0x01a2f533  # and x10, x5, x26
    .word 0x04c12283  # lw x5, 76(x2)
    .word 0x04c12303  # lw x6, 76(x2)
    .word 0x01035313  # srli x6, x6, 16
    .word 0x0062c2b3  # xor x5, x5, x6
    .word 0x01a2f5b3  # and x11, x5, x26
    .word 0x01b57633  # and x12, x10, x27
    .word 0x008576b3  # and x13, x10, x8
    .word 0x00957533  # and x10, x10, x9
    .word 0x01b5f733  # and x14, x11, x27
    .word 0x0085f7b3  # and x15, x11, x8
    .word 0x0095f5b3  # and x11, x11, x9
    .word 0x02e602b3  # mul x5, x12, x14
    .word 0x02b68333  # mul x6, x13, x11
    .word 0x0062c2b3  # xor x5, x5, x6
    .word 0x02f50333  # mul x6, x10, x15
    .word 0x0062c2b3  # xor x5, x5, x6
    .word 0x01b2f8b3  # and x17, x5, x27
    .word 0x02f602b3  # mul x5, x12, x15
    .word 0x02e68333  # mul x6, x13, x14
    .word 0x0062c2b3  # xor x5, x5, x6
    .word 0x02b50333  # mul x6, x10, x11
    .word 0x0062c2b3  # xor x5, x5, x6
    .word 0x0082f9b3  # and x19, x5, x8
    .word 0x02b602b3  # mul x5, x12, x11
    .word 0x02f68333  # mul x6, x13, x15
    .word 0x0062c2b3  # xor x5, x5, x6
    .word 0x02e50333  # mul x6, x10, x14
    .word 0x0062c2b3  # xor x5, x5, x6
    .word 0x0092f533  # and x10, x5, x9
    .word 0x0138e2b3  # or x5, x17, x19
    .word 0x00a2e533  # or x10, x5, x10
    .word 0x010542b3  # xor x5, x10, x16
    .word 0x0122c533  # xor x10, x5, x18
    .word 0x01051313  # slli x6, x10, 16
    .word 0x006842b3  # xor x5, x16, x6
    .word 0x02512823  # sw x5, 48(x2)
    .word 0x01055313  # srli x6, x10, 16
    .word 0x006942b3  # xor x5, x18, x6
    .word 0x04512623  # sw x5, 76(x2)
    .word 0x03c12283  # lw x5, 60(x2)
    .word 0x01a2f533  # and x10, x5, x26
    .word 0x05012283  # lw x5, 80(x2)
    .word 0x01a2f5b3  # and x11, x5, x26
    .word 0x01b57633  # and x12, x10, x27
    .word 0x008576b3  # and x13, x10, x8
    .word 0x00957533  # and x10, x10, x9
    .word 0x01b5f733  # and x14, x11, x27
    .word 0x0085f7b3  # and x15, x11, x8
    .word 0x0095f5b3  # and x11, x11, x9
    .word 0x02e602b3  # mul x5, x12, x14
    .word 0x02b68333  # mul x6, x13, x11
    .word 0x0062c2b3  # xor x5, x5, x6
    .word 0x02f50333  # mul x6, x10, x15
    .word 0x0062c2b3  # xor x5, x5, x6
    .word 0x01b2f833  # and x16, x5, x27
    .word 0x02f602b3  # mul x5, x12, x15
    .word 0x02e68333  # mul x6, x13, x14
    .word 0x0062c2b3  # xor x5, x5, x6
    .word 0x02b50333  # mul x6, x10, x11
    .word 0x0062c2b3  # xor x5, x5, x6
    .word 0x0082f933  # and x18, x5, x8
    .word 0x02b602b3  # mul x5, x12, x11
    .word 0x02f68333  # mul x6, x13, x15
    .word 0x0062c2b3  # xor x5, x5, x6
    .word 0x02e50333  # mul x6, x10, x14
    .word 0x0062c2b3  # xor x5, x5, x6
    .word 0x0092f533  # and x10, x5, x9
    .word 0x012862b3  # or x5, x16, x18
    .word 0x00a2e833  # or x16, x5, x10
    .word 0x03c12283  # lw x5, 60(x2)
    .word 0x0102d513  # srli x10, x5, 16
    .word 0x05012283  # lw x5, 80(x2)
    .word 0x0102d593  # srli x11, x5, 16
    .word 0x01b57633  # and x12, x10, x27
    .word 0x008576b3  # and x13, x10, x8
    .word 0x00957533  # and x10, x10, x9
    .word 0x01b5f733  # and x14, x11, x27
    .word 0x0085f7b3  # and x15, x11, x8
    .word 0x0095f5b3  # and x11, x11, x9
    .word 0x02e602b3  # mul x5, x12, x14
    .word 0x02b68333  # mul x6, x13, x11
    .word 0x0062c2b3  # xor x5, x5, x6
    .word 0x02f50333  # mul x6, x10, x15
    .word 0x0062c2b3  # xor x5, x5, x6
    .word 0x01b2f933  # and x18, x5, x27
    .word 0x02f602b3  # mul x5, x12, x15
    .word 0x02e68333  # mul x6, x13, x14
    .word 0x0062c2b3  # xor x5, x5, x6
    .word 0x02b50333  # mul x6, x10, x11
    .word 0x0062c2b3  # xor x5, x5, x6
    .word 0x0082f8b3  # and x17, x5, x8
    .word 0x02b602b3  # mul x5, x12, x11
    .word 0x02f68333  # mul x6, x13, x15
    .word 0x0062c2b3  # xor x5, x5, x6
    .word 0x02e50333  # mul x6, x10, x14
    .word 0x0062c2b3  # xor x5, x5, x6
    .word 0x0092f533  # and x10, x5, x9
    .word 0x011962b3  # or x5, x18, x17
    .word 0x00a2e933  # or x18, x5, x10
    .word 0x03c12283  # lw x5, 60(x2)
    .word 0x03c12303  # lw x6, 60(x2)
    .word 0x01035313  # srli x6, x6, 16
    .word 0x0062c2b3  # xor x5, x5, x6
    .word 0x01a2f533  # and x10, x5, x26
    .word 0x05012283  # lw x5, 80(x2)
    .word 0x05012303  # lw x6, 80(x2)
    .word 0x01035313  # srli x6, x6, 16
    .word 0x0062c2b3  # xor x5, x5, x6
    .word 0x01a2f5b3  # and x11, x5, x26
    .word 0x01b57633  # and x12, x10, x27
    .word 0x008576b3  # and x13, x10, x8
    .word 0x00957533  # and x10, x10, x9
    .word 0x01b5f733  # and x14, x11, x27
    .word 0x0085f7b3  # and x15, x11, x8
    .word 0x0095f5b3  # and x11, x11, x9
    .word 0x02e602b3  # mul x5, x12, x14
    .word 0x02b68333  # mul x6, x13, x11
    .word 0x0062c2b3  # xor x5, x5, x6
    .word 0x02f50333  # mul x6, x10, x15
    .word 0x0062c2b3  # xor x5, x5, x6
    .word 0x01b2f8b3  # and x17, x5, x27
    .word 0x02f602b3  # mul x5, x12, x15
    .word 0x02e68333  # mul x6, x13, x14
    .word 0x0062c2b3  # xor x5, x5, x6
    .word 0x02b50333  # mul x6, x10, x11
    .word 0x0062c2b3  # xor x5, x5, x6
    .word 0x0082f9b3  # and x19, x5, x8
    .word 0x02b602b3  # mul x5, x12, x11
    .word 0x02f68333  # mul x6, x13, x15
    .word 0x0062c2b3  # xor x5, x5, x6
    .word 0x02e50333  # mul x6, x10, x14
    .word 0x0062c2b3  # xor x5, x5, x6
    .word 0x0092f533  # and x10, x5, x9
    .word 0x0138e2b3  # or x5, x17, x19
    .word 0x00a2e533  # or x10, x5, x10
    .word 0x010542b3  # xor x5, x10, x16
    .word 0x0122c533  # xor x10, x5, x18
    .word 0x01051313  # slli x6, x10, 16
    .word 0x006842b3  # xor x5, x16, x6
    .word 0x02512a23  # sw x5, 52(x2)
    .word 0x01055313  # srli x6, x10, 16
    .word 0x006942b3  # xor x5, x18, x6
    .word 0x02512e23  # sw x5, 60(x2)
    .word 0x04012283  # lw x5, 64(x2)
    .word 0x01a2f533  # and x10, x5, x26
    .word 0x05412283  # lw x5, 84(x2)
    .word 0x01a2f5b3  # and x11, x5, x26
    .word 0x01b57633  # and x12, x10, x27
    .word 0x008576b3  # and x13, x10, x8
    .word 0x00957533  # and x10, x10, x9
    .word 0x01b5f733  # and x14, x11, x27
    .word 0x0085f7b3  # and x15, x11, x8
    .word 0x0095f5b3  # and x11, x11, x9
    .word 0x02e602b3  # mul x5, x12, x14
    .word 0x02b68333  # mul x6, x13, x11
    .word 0x0062c2b3  # xor x5, x5, x6
    .word 0x02f50333  # mul x6, x10, x15
    .word 0x0062c2b3  # xor x5, x5, x6
    .word 0x01b2f833  # and x16, x5, x27
    .word 0x02f602b3  # mul x5, x12, x15
    .word 0x02e68333  # mul x6, x13, x14
    .word 0x0062c2b3  # xor x5, x5, x6
    .word 0x02b50333  # mul x6, x10, x11
    .word 0x0062c2b3  # xor x5, x5, x6
    .word 0x0082f933  # and x18, x5, x8
    .word 0x02b602b3  # mul x5, x12, x11
    .word 0x02f68333  # mul x6, x13, x15
    .word 0x0062c2b3  # xor x5, x5, x6
    .word 0x02e50333  # mul x6, x10, x14
    .word 0x0062c2b3  # xor x5, x5, x6
    .word 0x0092f533  # and x10, x5, x9
    .word 0x012862b3  # or x5, x16, x18
    .word 0x00a2e833  # or x16, x5, x10
    .word 0x04012283  # lw x5, 64(x2)
    .word 0x0102d513  # srli x10, x5, 16
    .word 0x05412283  # lw x5, 84(x2)
    .word 0x0102d593  # srli x11, x5, 16
    .word 0x01b57633  # and x12, x10, x27
    .word 0x008576b3  # and x13, x10, x8
    .word 0x00957533  # and x10, x10, x9
    .word 0x01b5f733  # and x14, x11, x27
    .word 0x0085f7b3  # and x15, x11, x8
    .word 0x0095f5b3  # and x11, x11, x9
    .word 0x02e602b3  # mul x5, x12, x14
    .word 0x02b68333  # mul x6, x13, x11
    .word 0x0062c2b3  # xor x5, x5, x6
    .word 0x02f50333  # mul x6, x10, x15
    .word 0x0062c2b3  # xor x5, x5, x6
    .word 0x01b2f933  # and x18, x5, x27
    .word 0x02f602b3  # mul x5, x12, x15
    .word 0x02e68333  # mul x6, x13, x14
    .word 0x0062c2b3  # xor x5, x5, x6
    .word 0x02b50333  # mul x6, x10, x11
    .word 0x0062c2b3  # xor x5, x5, x6
    .word 0x0082f8b3  # and x17, x5, x8
    .word 0x02b602b3  # mul x5, x12, x11
    .word 0x02f68333  # mul x6, x13, x15
    .word 0x0062c2b3  # xor x5, x5, x6
    .word 0x02e50333  # mul x6, x10, x14
    .word 0x0062c2b3  # xor x5, x5, x6
    .word 0x0092f533  # and x10, x5, x9
    .word 0x011962b3  # or x5, x18, x17
    .word 0x00a2e933  # or x18, x5, x10
    .word 0x04012283  # lw x5, 64(x2)
    .word 0x04012303  # lw x6, 64(x2)
    .word 0x01035313  # srli x6, x6, 16
    .word 0x0062c2b3  # xor x5, x5, x6
    .word 0x01a2f533  # and x10, x5, x26
    .word 0x05412283  # lw x5, 84(x2)
    .word 0x05412303  # lw x6, 84(x2)
    .word 0x01035313  # srli x6, x6, 16
    .word 0x0062c2b3  # xor x5, x5, x6
    .word 0x01a2f5b3  # and x11, x5, x26
    .word 0x01b57633  # and x12, x10, x27
    .word 0x008576b3  # and x13, x10, x8
    .word 0x00957533  # and x10, x10, x9
    .word 0x01b5f733  # and x14, x11, x27
    .word 0x0085f7b3  # and x15, x11, x8
    .word 0x0095f5b3  # and x11, x11, x9
    .word 0x02e602b3  # mul x5, x12, x14
    .word 0x02b68333  # mul x6, x13, x11
    .word 0x0062c2b3  # xor x5, x5, x6
    .word 0x02f50333  # mul x6, x10, x15
    .word 0x0062c2b3  # xor x5, x5, x6
    .word 0x01b2f8b3  # and x17, x5, x27
    .word 0x02f602b3  # mul x5, x12, x15
    .word 0x02e68333  # mul x6, x13, x14
    .word 0x0062c2b3  # xor x5, x5, x6
    .word 0x02b50333  # mul x6, x10, x11
    .word 0x0062c2b3  # xor x5, x5, x6
    .word 0x0082f9b3  # and x19, x5, x8
    .word 0x02b602b3  # mul x5, x12, x11
    .word 0x02f68333  # mul x6, x13, x15
    .word 0x0062c2b3  # xor x5, x5, x6
    .word 0x02e50333  # mul x6, x10, x14
    .word 0x0062c2b3  # xor x5, x5, x6
    .word 0x0092f533  # and x10, x5, x9
    .word 0x0138e2b3  # or x5, x17, x19
    .word 0x00a2e533  # or x10, x5, x10
    .word 0x010542b3  # xor x5, x10, x16
    .word 0x0122c533  # xor x10, x5, x18
    .word 0x01051313  # slli x6, x10, 16
    .word 0x006842b3  # xor x5, x16, x6
    .word 0x02512c23  # sw x5, 56(x2)
    .word 0x01055313  # srli x6, x10, 16
    .word 0x006942b3  # xor x5, x18, x6
    .word 0x04512023  # sw x5, 64(x2)
    .word 0x04412283  # lw x5, 68(x2)
    .word 0x01a2f533  # and x10, x5, x26
    .word 0x05812283  # lw x5, 88(x2)
    .word 0x01a2f5b3  # and x11, x5, x26
    .word 0x01b57633  # and x12, x10, x27
    .word 0x008576b3  # and x13, x10, x8
    .word 0x00957533  # and x10, x10, x9
    .word 0x01b5f733  # and x14, x11, x27
    .word 0x0085f7b3  # and x15, x11, x8
    .word 0x0095f5b3  # and x11, x11, x9
    .word 0x02e602b3  # mul x5, x12, x14
    .word 0x02b68333  # mul x6, x13, x11
    .word 0x0062c2b3  # xor x5, x5, x6
    .word 0x02f50333  # mul x6, x10, x15
    .word 0x0062c2b3  # xor x5, x5, x6
    .word 0x01b2f833  # and x16, x5, x27
    .word 0x02f602b3  # mul x5, x12, x15
    .word 0x02e68333  # mul x6, x13, x14
    .word 0x0062c2b3  # xor x5, x5, x6
    .word 0x02b50333  # mul x6, x10, x11
    .word 0x0062c2b3  # xor x5, x5, x6
    .word 0x0082f933  # and x18, x5, x8
    .word 0x02b602b3  # mul x5, x12, x11
    .word 0x02f68333  # mul x6, x13, x15
    .word 0x0062c2b3  # xor x5, x5, x6
    .word 0x02e50333  # mul x6, x10, x14
    .word 0x0062c2b3  # xor x5, x5, x6
    .word 0x0092f533  # and x10, x5, x9
    .word 0x012862b3  # or x5, x16, x18
    .word 0x00a2e833  # or x16, x5, x10
    .word 0x04412283  # lw x5, 68(x2)
    .word 0x0102d513  # srli x10, x5, 16
    .word 0x05812283  # lw x5, 88(x2)
    .word 0x0102d593  # srli x11, x5, 16
    .word 0x01b57633  # and x12, x10, x27
    .word 0x008576b3  # and x13, x10, x8
    .word 0x00957533  # and x10, x10, x9
    .word 0x01b5f733  # and x14, x11, x27
    .word 0x0085f7b3  # and x15, x11, x8
    .word 0x0095f5b3  # and x11, x11, x9
    .word 0x02e602b3  # mul x5, x12, x14
    .word 0x02b68333  # mul x6, x13, x11
    .word 0x0062c2b3  # xor x5, x5, x6
    .word 0x02f50333  # mul x6, x10, x15
    .word 0x0062c2b3  # xor x5, x5, x6
    .word 0x01b2f933  # and x18, x5, x27
    .word 0x02f602b3  # mul x5, x12, x15
    .word 0x02e68333  # mul x6, x13, x14
    .word 0x0062c2b3  # xor x5, x5, x6
    .word 0x02b50333  # mul x6, x10, x11
    .word 0x0062c2b3  # xor x5, x5, x6
    .word 0x0082f8b3  # and x17, x5, x8
    .word 0x02b602b3  # mul x5, x12, x11
    .word 0x02f68333  # mul x6, x13, x15
    .word 0x0062c2b3  # xor x5, x5, x6
    .word 0x02e50333  # mul x6, x10, x14
    .word 0x0062c2b3  # xor x5, x5, x6
    .word 0x0092f533  # and x10, x5, x9
    .word 0x011962b3  # or x5, x18, x17
    .word 0x00a2e933  # or x18, x5, x10
    .word 0x04412283  # lw x5, 68(x2)
    .word 0x04412303  # lw x6, 68(x2)
    .word 0x01035313  # srli x6, x6, 16
    .word 0x0062c2b3  # xor x5, x5, x6
    .word 0x01a2f533  # and x10, x5, x26
    .word 0x05812283  # lw x5, 88(x2)
    .word 0x05812303  # lw x6, 88(x2)
    .word 0x01035313  # srli x6, x6, 16
    .word 0x0062c2b3  # xor x5, x5, x6
    .word 0x01a2f5b3  # and x11, x5, x26
    .word 0x01b57633  # and x12, x10, x27
    .word 0x008576b3  # and x13, x10, x8
    .word 0x00957533  # and x10, x10, x9
    .word 0x01b5f733  # and x14, x11, x27
    .word 0x0085f7b3  # and x15, x11, x8
    .word 0x0095f5b3  # and x11, x11, x9
    .word 0x02e602b3  # mul x5, x12, x14
    .word 0x02b68333  # mul x6, x13, x11
    .word 0x0062c2b3  # xor x5, x5, x6
    .word 0x02f50333  # mul x6, x10, x15
    .word 0x0062c2b3  # xor x5, x5, x6
    .word 0x01b2f8b3  # and x17, x5, x27
    .word 0x02f602b3  # mul x5, x12, x15
    .word 0x02e68333  # mul x6, x13, x14
    .word 0x0062c2b3  # xor x5, x5, x6
    .word 0x02b50333  # mul x6, x10, x11
    .word 0x0062c2b3  # xor x5, x5, x6
    .word 0x0082f9b3  # and x19, x5, x8
    .word 0x02b602b3  # mul x5, x12, x11
    .word 0x02f68333  # mul x6, x13, x15
    .word 0x0062c2b3  # xor x5, x5, x6
    .word 0x02e50333  # mul x6, x10, x14
    .word 0x0062c2b3  # xor x5, x5, x6
    .word 0x0092f533  # and x10, x5, x9
    .word 0x0138e2b3  # or x5, x17, x19
    .word 0x00a2e533  # or x10, x5, x10
    .word 0x010542b3  # xor x5, x10, x16
    .word 0x0122c533  # xor x10, x5, x18
    .word 0x01051313  # slli x6, x10, 16
    .word 0x006846b3  # xor x13, x16, x6
    .word 0x01055313  # srli x6, x10, 16
    .word 0x00694933  # xor x18, x18, x6
    .word 0x018bc533  # xor x10, x23, x24
    .word 0x014cc733  # xor x14, x25, x20
    .word 0x016545b3  # xor x11, x10, x22
    .word 0x019542b3  # xor x5, x10, x25
    .word 0x03412303  # lw x6, 52(x2)
    .word 0x0062c633  # xor x12, x5, x6
    .word 0x00e542b3  # xor x5, x10, x14
    .word 0x0162c2b3  # xor x5, x5, x22
    .word 0x03012303  # lw x6, 48(x2)
    .word 0x0062c2b3  # xor x5, x5, x6
    .word 0x03412303  # lw x6, 52(x2)
    .word 0x0062c2b3  # xor x5, x5, x6
    .word 0x03812303  # lw x6, 56(x2)
    .word 0x0062c2b3  # xor x5, x5, x6
    .word 0x00d2c533  # xor x10, x5, x13
    .word 0x018742b3  # xor x5, x14, x24
    .word 0x03812303  # lw x6, 56(x2)
    .word 0x0062c6b3  # xor x13, x5, x6
    .word 0x03012303  # lw x6, 48(x2)
    .word 0x00674733  # xor x14, x14, x6
    .word 0x05c12283  # lw x5, 92(x2)
    .word 0x06012303  # lw x6, 96(x2)
    .word 0x0062c7b3  # xor x15, x5, x6
    .word 0x06412283  # lw x5, 100(x2)
    .word 0x0152c833  # xor x16, x5, x21
    .word 0x05c12303  # lw x6, 92(x2)
    .word 0x0065c5b3  # xor x11, x11, x6
    .word 0x00f642b3  # xor x5, x12, x15
    .word 0x04812303  # lw x6, 72(x2)
    .word 0x0062c633  # xor x12, x5, x6
    .word 0x00f542b3  # xor x5, x10, x15
    .word 0x06412303  # lw x6, 100(x2)
    .word 0x0062c2b3  # xor x5, x5, x6
    .word 0x03c12303  # lw x6, 60(x2)
    .word 0x0062c533  # xor x10, x5, x6
    .word 0x00f6c2b3  # xor x5, x13, x15
    .word 0x0102c2b3  # xor x5, x5, x16
    .word 0x04812303  # lw x6, 72(x2)
    .word 0x0062c2b3  # xor x5, x5, x6
    .word 0x04c12303  # lw x6, 76(x2)
    .word 0x0062c2b3  # xor x5, x5, x6
    .word 0x03c12303  # lw x6, 60(x2)
    .word 0x0062c2b3  # xor x5, x5, x6
    .word 0x04012303  # lw x6, 64(x2)
    .word 0x0062c2b3  # xor x5, x5, x6
    .word 0x0122c6b3  # xor x13, x5, x18
    .word 0x010742b3  # xor x5, x14, x16
    .word 0x06012303  # lw x6, 96(x2)
    .word 0x0062c2b3  # xor x5, x5, x6
    .word 0x04012303  # lw x6, 64(x2)
    .word 0x0062c733  # xor x14, x5, x6
    .word 0x010a42b3  # xor x5, x20, x16
    .word 0x04c12303  # lw x6, 76(x2)
    .word 0x0062c7b3  # xor x15, x5, x6
    .word 0x001a9293  # slli x5, x21, 1
    .word 0x01f7d313  # srli x6, x15, 31
    .word 0x0062e933  # or x18, x5, x6
    .word 0x00179293  # slli x5, x15, 1
    .word 0x01f75313  # srli x6, x14, 31
    .word 0x0062e7b3  # or x15, x5, x6
    .word 0x00171293  # slli x5, x14, 1
    .word 0x01f6d313  # srli x6, x13, 31
    .word 0x0062e733  # or x14, x5, x6
    .word 0x00169293  # slli x5, x13, 1
    .word 0x01f55313  # srli x6, x10, 31
    .word 0x0062e6b3  # or x13, x5, x6
    .word 0x00151293  # slli x5, x10, 1
    .word 0x01f65313  # srli x6, x12, 31
    .word 0x0062e533  # or x10, x5, x6
    .word 0x00161293  # slli x5, x12, 1
    .word 0x01f5d313  # srli x6, x11, 31
    .word 0x0062e633  # or x12, x5, x6
    .word 0x00159293  # slli x5, x11, 1
    .word 0x01fbd313  # srli x6, x23, 31
    .word 0x0062e5b3  # or x11, x5, x6
    .word 0x001b9813  # slli x16, x23, 1
    .word 0x0106c2b3  # xor x5, x13, x16
    .word 0x00185313  # srli x6, x16, 1
    .word 0x0062c2b3  # xor x5, x5, x6
    .word 0x00285313  # srli x6, x16, 2
    .word 0x0062c2b3  # xor x5, x5, x6
    .word 0x00785313  # srli x6, x16, 7
    .word 0x0062c6b3  # xor x13, x5, x6
    .word 0x01f81313  # slli x6, x16, 31
    .word 0x006542b3  # xor x5, x10, x6
    .word 0x01e81313  # slli x6, x16, 30
    .word 0x0062c2b3  # xor x5, x5, x6
    .word 0x01981313  # slli x6, x16, 25
    .word 0x0062c533  # xor x10, x5, x6
    .word 0x00b742b3  # xor x5, x14, x11
    .word 0x0015d313  # srli x6, x11, 1
    .word 0x0062c2b3  # xor x5, x5, x6
    .word 0x0025d313  # srli x6, x11, 2
    .word 0x0062c2b3  # xor x5, x5, x6
    .word 0x0075d313  # srli x6, x11, 7
    .word 0x0062c733  # xor x14, x5, x6
    .word 0x01f59313  # slli x6, x11, 31
    .word 0x0066c2b3  # xor x5, x13, x6
    .word 0x01e59313  # slli x6, x11, 30
    .word 0x0062c2b3  # xor x5, x5, x6
    .word 0x01959313  # slli x6, x11, 25
    .word 0x0062c6b3  # xor x13, x5, x6
    .word 0x00c7c2b3  # xor x5, x15, x12
    .word 0x00165313  # srli x6, x12, 1
    .word 0x0062c2b3  # xor x5, x5, x6
    .word 0x00265313  # srli x6, x12, 2
    .word 0x0062c2b3  # xor x5, x5, x6
    .word 0x00765313  # srli x6, x12, 7
    .word 0x0062c7b3  # xor x15, x5, x6
    .word 0x01f61313  # slli x6, x12, 31
    .word 0x006742b3  # xor x5, x14, x6
    .word 0x01e61313  # slli x6, x12, 30
    .word 0x0062c2b3  # xor x5, x5, x6
    .word 0x01961313  # slli x6, x12, 25
    .word 0x0062c733  # xor x14, x5, x6
    .word 0x00a942b3  # xor x5, x18, x10
    .word 0x00155313  # srli x6, x10, 1
    .word 0x0062c2b3  # xor x5, x5, x6
    .word 0x00255313  # srli x6, x10, 2
    .word 0x0062c2b3  # xor x5, x5, x6
    .word 0x00755313  # srli x6, x10, 7
    .word 0x0062c933  # xor x18, x5, x6
    .word 0x01f51313  # slli x6, x10, 31
    .word 0x0067c2b3  # xor x5, x15, x6
    .word 0x01e51313  # slli x6, x10, 30
    .word 0x0062c2b3  # xor x5, x5, x6
    .word 0x01951313  # slli x6, x10, 25
    .word 0x0062c7b3  # xor x15, x5, x6
    .word 0x01895293  # srli x5, x18, 24
    .word 0x02510023  # sb x5, 32(x2)
    .word 0x01095293  # srli x5, x18, 16
    .word 0x025100a3  # sb x5, 33(x2)
    .word 0x00895293  # srli x5, x18, 8
    .word 0x02510123  # sb x5, 34(x2)
    .word 0x032101a3  # sb x18, 35(x2)
    .word 0x0187d293  # srli x5, x15, 24
    .word 0x02510223  # sb x5, 36(x2)
    .word 0x0107d293  # srli x5, x15, 16
    .word 0x025102a3  # sb x5, 37(x2)
    .word 0x0087d293  # srli x5, x15, 8
    .word 0x02510323  # sb x5, 38(x2)
    .word 0x02f103a3  # sb x15, 39(x2)
    .word 0x01875293  # srli x5, x14, 24
    .word 0x02510423  # sb x5, 40(x2)
    .word 0x01075293  # srli x5, x14, 16
    .word 0x025104a3  # sb x5, 41(x2)
    .word 0x00875293  # srli x5, x14, 8
    .word 0x02510523  # sb x5, 42(x2)
    .word 0x02e105a3  # sb x14, 43(x2)
    .word 0x0186d293  # srli x5, x13, 24
    .word 0x02510623  # sb x5, 44(x2)
    .word 0x0106d293  # srli x5, x13, 16
    .word 0x025106a3  # sb x5, 45(x2)
    .word 0x0086d293  # srli x5, x13, 8
    .word 0x02510723  # sb x5, 46(x2)
    .word 0x02d107a3  # sb x13, 47(x2)
    # the result
    .word 0x00000513  # addi x10, x0, 0
    # parameter 2: the array, back
    .word 0x02010293  # addi x5, x2, 32
    .word 0x0ac12303  # lw x6, 172(x2)
    .word 0x01028393  # addi x7, x5, 16
    .word 0x09000f6f  # jal x30, 144
    # above the frame
    .word 0x07010293  # addi x5, x2, 112
    # the caller's registers
    .word 0x0002a403  # lw x8, 0(x5)
    .cfi_restore 8
    .word 0x0042a483  # lw x9, 4(x5)
    .cfi_restore 9
    .word 0x0082a903  # lw x18, 8(x5)
    .cfi_restore 18
    .word 0x00c2a983  # lw x19, 12(x5)
    .cfi_restore 19
    .word 0x0102aa03  # lw x20, 16(x5)
    .cfi_restore 20
    .word 0x0142aa83  # lw x21, 20(x5)
    .cfi_restore 21
    .word 0x0182ab03  # lw x22, 24(x5)
    .cfi_restore 22
    .word 0x01c2ab83  # lw x23, 28(x5)
    .cfi_restore 23
    .word 0x0202ac03  # lw x24, 32(x5)
    .cfi_restore 24
    .word 0x0242ac83  # lw x25, 36(x5)
    .cfi_restore 25
    .word 0x0282ad03  # lw x26, 40(x5)
    .cfi_restore 26
    .word 0x02c2ad83  # lw x27, 44(x5)
    .cfi_restore 27
    # the caller's x2
    .word 0x04028293  # addi x5, x5, 64
    .cfi_def_cfa 5, 0
    # all the room, wiped upward
    .word 0x00012023  # sw x0, 0(x2)
    .word 0x00012223  # sw x0, 4(x2)
    .word 0x00012423  # sw x0, 8(x2)
    .word 0x00012623  # sw x0, 12(x2)
    .word 0x01010113  # addi x2, x2, 16
    .word 0xfe5116e3  # bne x2, x5, -20
    .cfi_def_cfa 2, 0
    # temporaries, wiped
    .word 0x00000293  # addi x5, x0, 0
    .word 0x00000313  # addi x6, x0, 0
    .word 0x00000393  # addi x7, x0, 0
    .word 0x00000593  # addi x11, x0, 0
    .word 0x00000613  # addi x12, x0, 0
    .word 0x00000693  # addi x13, x0, 0
    .word 0x00000713  # addi x14, x0, 0
    .word 0x00000793  # addi x15, x0, 0
    .word 0x00000813  # addi x16, x0, 0
    .word 0x00000893  # addi x17, x0, 0
    .word 0x00000e13  # addi x28, x0, 0
    .word 0x00000e93  # addi x29, x0, 0
    .word 0x00000f13  # addi x30, x0, 0
    .word 0x00000f93  # addi x31, x0, 0
    # back
    .word 0x00008067  # jalr x0, 0(x1)
    # from x5 to x6 up to x7, and back
    .cfi_def_cfa 2, 176
    .cfi_offset 8, -64
    .cfi_offset 9, -60
    .cfi_offset 18, -56
    .cfi_offset 19, -52
    .cfi_offset 20, -48
    .cfi_offset 21, -44
    .cfi_offset 22, -40
    .cfi_offset 23, -36
    .cfi_offset 24, -32
    .cfi_offset 25, -28
    .cfi_offset 26, -24
    .cfi_offset 27, -20
    .word 0x0062ee33  # or x28, x5, x6
    .word 0x003e7e13  # andi x28, x28, 3
    .word 0x000e0e63  # beq x28, x0, 28
    .word 0x0002ce03  # lbu x28, 0(x5)
    .word 0x01c30023  # sb x28, 0(x6)
    .word 0x00128293  # addi x5, x5, 1
    .word 0x00130313  # addi x6, x6, 1
    .word 0xfe7298e3  # bne x5, x7, -16
    .word 0x0300006f  # jal x0, 48
    .word 0x0002ae03  # lw x28, 0(x5)
    .word 0x01c32023  # sw x28, 0(x6)
    .word 0x0042ae03  # lw x28, 4(x5)
    .word 0x01c32223  # sw x28, 4(x6)
    .word 0x0082ae03  # lw x28, 8(x5)
    .word 0x01c32423  # sw x28, 8(x6)
    .word 0x00c2ae03  # lw x28, 12(x5)
    .word 0x01c32623  # sw x28, 12(x6)
    .word 0x01028293  # addi x5, x5, 16
    .word 0x01030313  # addi x6, x6, 16
    .word 0xfc729ce3  # bne x5, x7, -40
    .word 0x000f0067  # jalr x0, 0(x30)
    .cfi_endproc
    .size ghash_block_products, . - ghash_block_products
    .option pop
