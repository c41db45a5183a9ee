# chacha20_xor: made by factc 1.0.0 function; 685 words, 240 bytes of stack, profile 1
    .option push
    .option norvc
    .option norelax
    .cfi_sections .debug_frame
    .section .text.chacha20_xor, "ax", @progbits
    .p2align 2
    .globl chacha20_xor
    .type chacha20_xor, @function
chacha20_xor:
    .cfi_startproc
    # room above the frame
    .word 0xfc010113  # addi x2, x2, -64
    .cfi_def_cfa_offset 64
    # the caller's registers
    .word 0x00812023  # sw x8, 0(x2)
    .cfi_offset 8, -64
    .word 0x00912223  # sw x9, 4(x2)
    .cfi_offset 9, -60
    .word 0x01212423  # sw x18, 8(x2)
    .cfi_offset 18, -56
    .word 0x01312623  # sw x19, 12(x2)
    .cfi_offset 19, -52
    .word 0x01412823  # sw x20, 16(x2)
    .cfi_offset 20, -48
    .word 0x01512a23  # sw x21, 20(x2)
    .cfi_offset 21, -44
    .word 0x01612c23  # sw x22, 24(x2)
    .cfi_offset 22, -40
    .word 0x01712e23  # sw x23, 28(x2)
    .cfi_offset 23, -36
    .word 0x03812023  # sw x24, 32(x2)
    .cfi_offset 24, -32
    .word 0x03912223  # sw x25, 36(x2)
    .cfi_offset 25, -28
    .word 0x03a12423  # sw x26, 40(x2)
    .cfi_offset 26, -24
    .word 0x03b12623  # sw x27, 44(x2)
    .cfi_offset 27, -20
    # arguments that are needed behind the body
    .word 0x02a12823  # sw x10, 48(x2)
    .word 0x02b12a23  # sw x11, 52(x2)
    .word 0x02c12c23  # sw x12, 56(x2)
    .word 0x02d12e23  # sw x13, 60(x2)
    # the frame's base
    .word 0xf5010113  # addi x2, x2, -176
    .cfi_def_cfa 2, 240
    # parameter 0: an array
    .word 0x00050293  # addi x5, x10, 0
    .word 0x00010313  # addi x6, x2, 0
    .word 0x02028393  # addi x7, x5, 32
    .word 0x22500f6f  # jal x30, 2596
    # parameter 1: a word
    .word 0x02b12023  # sw x11, 32(x2)
    # parameter 2: an array
    .word 0x00060293  # addi x5, x12, 0
    .word 0x02410313  # addi x6, x2, 36
    .word 0x00c28393  # addi x7, x5, 12
    .word 0x21100f6f  # jal x30, 2576
    # parameter 3: an array
    .word 0x00068293  # addi x5, x13, 0
    .word 0x03010313  # addi x6, x2, 48
    .word 0x04028393  # addi x7, x5, 64
    .word 0x20100f6f  # jal x30, 2560
    # parameter 4: a word
    .word 0x06e12823  # sw x14, 112(x2)
    # the body
    .word 0x02012503  # lw x10, 32(x2)
    .word 0x07012583  # lw x11, 112(x2)
    .word 0x61708637  # lui x12, 0x61708
    .word 0x86560613  # addi x12, x12, -1947
    .word 0x332066b7  # lui x13, 0x33206
    .word 0x46e68693  # addi x13, x13, 1134
    .word 0x79623737  # lui x14, 0x79623
    .word 0xd3270713  # addi x14, x14, -718
    .word 0x6b2067b7  # lui x15, 0x6b206
    .word 0x57478793  # addi x15, x15, 1396
    .word 0x00012403  # lw x8, 0(x2)
    .word 0x00412803  # lw x16, 4(x2)
    .word 0x00812883  # lw x17, 8(x2)
    .word 0x00c12903  # lw x18, 12(x2)
    .word 0x01012983  # lw x19, 16(x2)
    .word 0x01412a03  # lw x20, 20(x2)
    .word 0x01812a83  # lw x21, 24(x2)
    .word 0x01c12b03  # lw x22, 28(x2)
    .word 0x00050b93  # addi x23, x10, 0
    .word 0x02412c03  # lw x24, 36(x2)
    .word 0x02812c83  # lw x25, 40(x2)
    .word 0x02c12d03  # lw x26, 44(x2)
    .word 0x00040493  # addi x9, x8, 0
    .word 0x07012a23  # sw x16, 116(x2)
    .word 0x07112c23  # sw x17, 120(x2)
    .word 0x07212e23  # sw x18, 124(x2)
    .word 0x09312023  # sw x19, 128(x2)
    .word 0x09412223  # sw x20, 132(x2)
    .word 0x09512423  # sw x21, 136(x2)
    .word 0x09612623  # sw x22, 140(x2)
    .word 0x09812823  # sw x24, 144(x2)
    .word 0x09912a23  # sw x25, 148(x2)
    .word 0x09a12c23  # sw x26, 152(x2)
    .word 0xfff00d93  # addi x27, x0, -1
    .word 0x001d8d93  # addi x27, x27, 1
    .word 0x00860633  # add x12, x12, x8
    .word 0x00cbcbb3  # xor x23, x23, x12
    .word 0x010b9f13  # slli x30, x23, 16
    .word 0x010bdb93  # srli x23, x23, 16
    .word 0x017f0bb3  # add x23, x30, x23
    .word 0x017989b3  # add x19, x19, x23
    .word 0x01344433  # xor x8, x8, x19
    .word 0x00c41f13  # slli x30, x8, 12
    .word 0x01445413  # srli x8, x8, 20
    .word 0x008f0433  # add x8, x30, x8
    .word 0x00860633  # add x12, x12, x8
    .word 0x00cbcbb3  # xor x23, x23, x12
    .word 0x008b9f13  # slli x30, x23, 8
    .word 0x018bdb93  # srli x23, x23, 24
    .word 0x017f0bb3  # add x23, x30, x23
    .word 0x017989b3  # add x19, x19, x23
    .word 0x01344433  # xor x8, x8, x19
    .word 0x00741f13  # slli x30, x8, 7
    .word 0x01945413  # srli x8, x8, 25
    .word 0x008f0433  # add x8, x30, x8
    .word 0x010686b3  # add x13, x13, x16
    .word 0x00dc4c33  # xor x24, x24, x13
    .word 0x010c1f13  # slli x30, x24, 16
    .word 0x010c5c13  # srli x24, x24, 16
    .word 0x018f0c33  # add x24, x30, x24
    .word 0x018a0a33  # add x20, x20, x24
    .word 0x01484833  # xor x16, x16, x20
    .word 0x00c81f13  # slli x30, x16, 12
    .word 0x01485813  # srli x16, x16, 20
    .word 0x010f0833  # add x16, x30, x16
    .word 0x010686b3  # add x13, x13, x16
    .word 0x00dc4c33  # xor x24, x24, x13
    .word 0x008c1f13  # slli x30, x24, 8
    .word 0x018c5c13  # srli x24, x24, 24
    .word 0x018f0c33  # add x24, x30, x24
    .word 0x018a0a33  # add x20, x20, x24
    .word 0x01484833  # xor x16, x16, x20
    .word 0x00781f13  # slli x30, x16, 7
    .word 0x01985813  # srli x16, x16, 25
    .word 0x010f0833  # add x16, x30, x16
    .word 0x01170733  # add x14, x14, x17
    .word 0x00ecccb3  # xor x25, x25, x14
    .word 0x010c9f13  # slli x30, x25, 16
    .word 0x010cdc93  # srli x25, x25, 16
    .word 0x019f0cb3  # add x25, x30, x25
    .word 0x019a8ab3  # add x21, x21, x25
    .word 0x0158c8b3  # xor x17, x17, x21
    .word 0x00c89f13  # slli x30, x17, 12
    .word 0x0148d893  # srli x17, x17, 20
    .word 0x011f08b3  # add x17, x30, x17
    .word 0x01170733  # add x14, x14, x17
    .word 0x00ecccb3  # xor x25, x25, x14
    .word 0x008c9f13  # slli x30, x25, 8
    .word 0x018cdc93  # srli x25, x25, 24
    .word 0x019f0cb3  # add x25, x30, x25
    .word 0x019a8ab3  # add x21, x21, x25
    .word 0x0158c8b3  # xor x17, x17, x21
    .word 0x00789f13  # slli x30, x17, 7
    .word 0x0198d893  # srli x17, x17, 25
    .word 0x011f08b3  # add x17, x30, x17
    .word 0x012787b3  # add x15, x15, x18
    .word 0x00fd4d33  # xor x26, x26, x15
    .word 0x010d1f13  # slli x30, x26, 16
    .word 0x010d5d13  # srli x26, x26, 16
    .word 0x01af0d33  # add x26, x30, x26
    .word 0x01ab0b33  # add x22, x22, x26
    .word 0x01694933  # xor x18, x18, x22
    .word 0x00c91f13  # slli x30, x18, 12
    .word 0x01495913  # srli x18, x18, 20
    .word 0x012f0933  # add x18, x30, x18
    .word 0x012787b3  # add x15, x15, x18
    .word 0x00fd4d33  # xor x26, x26, x15
    .word 0x008d1f13  # slli x30, x26, 8
    .word 0x018d5d13  # srli x26, x26, 24
    .word 0x01af0d33  # add x26, x30, x26
    .word 0x01ab0b33  # add x22, x22, x26
    .word 0x01694933  # xor x18, x18, x22
    .word 0x00791f13  # slli x30, x18, 7
    .word 0x01995913  # srli x18, x18, 25
    .word 0x012f0933  # add x18, x30, x18
    .word 0x01060633  # add x12, x12, x16
    .word 0x00cd4d33  # xor x26, x26, x12
    .word 0x010d1f13  # slli x30, x26, 16
    .word 0x010d5d13  # srli x26, x26, 16
    .word 0x01af0d33  # add x26, x30, x26
    .word 0x01aa8ab3  # add x21, x21, x26
    .word 0x01584833  # xor x16, x16, x21
    .word 0x00c81f13  # slli x30, x16, 12
    .word 0x01485813  # srli x16, x16, 20
    .word 0x010f0833  # add x16, x30, x16
    .word 0x01060633  # add x12, x12, x16
    .word 0x00cd4d33  # xor x26, x26, x12
    .word 0x008d1f13  # slli x30, x26, 8
    .word 0x018d5d13  # srli x26, x26, 24
    .word 0x01af0d33  # add x26, x30, x26
    .word 0x01aa8ab3  # add x21, x21, x26
    .word 0x01584833  # xor x16, x16, x21
    .word 0x00781f13  # slli x30, x16, 7
    .word 0x01985813  # srli x16, x16, 25
    .word 0x010f0833  # add x16, x30, x16
    .word 0x011686b3  # add x13, x13, x17
    .word 0x00dbcbb3  # xor x23, x23, x13
    .word 0x010b9f13  # slli x30, x23, 16
    .word 0x010bdb93  # srli x23, x23, 16
    .word 0x017f0bb3  # add x23, x30, x23
    .word 0x017b0b33  # add x22, x22, x23
    .word 0x0168c8b3  # xor x17, x17, x22
    .word 0x00c89f13  # slli x30, x17, 12
    .word 0x0148d893  # srli x17, x17, 20
    .word 0x011f08b3  # add x17, x30, x17
    .word 0x011686b3  # add x13, x13, x17
    .word 0x00dbcbb3  # xor x23, x23, x13
    .word 0x008b9f13  # slli x30, x23, 8
    .word 0x018bdb93  # srli x23, x23, 24
    .word 0x017f0bb3  # add x23, x30, x23
    .word 0x017b0b33  # add x22, x22, x23
    .word 0x0168c8b3  # xor x17, x17, x22
    .word 0x00789f13  # slli x30, x17, 7
    .word 0x0198d893  # srli x17, x17, 25
    .word 0x011f08b3  # add x17, x30, x17
    .word 0x01270733  # add x14, x14, x18
    .word 0x00ec4c33  # xor x24, x24, x14
    .word 0x010c1f13  # slli x30, x24, 16
    .word 0x010c5c13  # srli x24, x24, 16
    .word 0x018f0c33  # add x24, x30, x24
    .word 0x018989b3  # add x19, x19, x24
    .word 0x01394933  # xor x18, x18, x19
    .word 0x00c91f13  # slli x30, x18, 12
    .word 0x01495913  # srli x18, x18, 20
    .word 0x012f0933  # add x18, x30, x18
    .word 0x01270733  # add x14, x14, x18
    .word 0x00ec4c33  # xor x24, x24, x14
    .word 0x008c1f13  # slli x30, x24, 8
    .word 0x018c5c13  # srli x24, x24, 24
    .word 0x018f0c33  # add x24, x30, x24
    .word 0x018989b3  # add x19, x19, x24
    .word 0x01394933  # xor x18, x18, x19
    .word 0x00791f13  # slli x30, x18, 7
    .word 0x01995913  # srli x18, x18, 25
    .word 0x012f0933  # add x18, x30, x18
    .word 0x008787b3  # add x15, x15, x8
    .word 0x00fcccb3  # xor x25, x25, x15
    .word 0x010c9f13  # slli x30, x25, 16
    .word 0x010cdc93  # srli x25, x25, 16
    .word 0x019f0cb3  # add x25, x30, x25
    .word 0x019a0a33  # add x20, x20, x25
    .word 0x01444433  # xor x8, x8, x20
    .word 0x00c41f13  # slli x30, x8, 12
    .word 0x01445413  # srli x8, x8, 20
    .word 0x008f0433  # add x8, x30, x8
    .word 0x008787b3  # add x15, x15, x8
    .word 0x00fcccb3  # xor x25, x25, x15
    .word 0x008c9f13  # slli x30, x25, 8
    .word 0x018cdc93  # srli x25, x25, 24
    .word 0x019f0cb3  # add x25, x30, x25
    .word 0x019a0a33  # add x20, x20, x25
    .word 0x01444433  # xor x8, x8, x20
    .word 0x00741f13  # slli x30, x8, 7
    .word 0x01945413  # srli x8, x8, 25
    .word 0x008f0433  # add x8, x30, x8
    .word 0xff7d8293  # addi x5, x27, -9
    .word 0xd6029ce3  # bne x5, x0, -648
    .word 0x61708337  # lui x6, 0x61708
    .word 0x86530313  # addi x6, x6, -1947
    .word 0x00660633  # add x12, x12, x6
    .word 0x33206337  # lui x6, 0x33206
    .word 0x46e30313  # addi x6, x6, 1134
    .word 0x006686b3  # add x13, x13, x6
    .word 0x79623337  # lui x6, 0x79623
    .word 0xd3230313  # addi x6, x6, -718
    .word 0x00670733  # add x14, x14, x6
    .word 0x6b206337  # lui x6, 0x6b206
    .word 0x57430313  # addi x6, x6, 1396
    .word 0x006787b3  # add x15, x15, x6
    .word 0x009404b3  # add x9, x8, x9
    .word 0x07412303  # lw x6, 116(x2)
    .word 0x00680833  # add x16, x16, x6
    .word 0x07812303  # lw x6, 120(x2)
    .word 0x006888b3  # add x17, x17, x6
    .word 0x07c12303  # lw x6, 124(x2)
    .word 0x00690933  # add x18, x18, x6
    .word 0x08012303  # lw x6, 128(x2)
    .word 0x006989b3  # add x19, x19, x6
    .word 0x08412303  # lw x6, 132(x2)
    .word 0x006a0a33  # add x20, x20, x6
    .word 0x08812303  # lw x6, 136(x2)
    .word 0x006a8ab3  # add x21, x21, x6
    .word 0x08c12303  # lw x6, 140(x2)
    .word 0x006b0b33  # add x22, x22, x6
    .word 0x00ab8bb3  # add x23, x23, x10
    .word 0x09012303  # lw x6, 144(x2)
    .word 0x006c0c33  # add x24, x24, x6
    .word 0x09412303  # lw x6, 148(x2)
    .word 0x006c8cb3  # add x25, x25, x6
    .word 0x09812303  # lw x6, 152(x2)
    .word 0x006d0d33  # add x26, x26, x6
    .word 0x00b07863  # bgeu x0, x11, 16
    .word 0x03014283  # lbu x5, 48(x2)
    .word 0x00c2c2b3  # xor x5, x5, x12
    .word 0x02510823  # sb x5, 48(x2)
    .word 0x00865413  # srli x8, x12, 8
    .word 0x00100313  # addi x6, x0, 1
    .word 0x00b37863  # bgeu x6, x11, 16
    .word 0x03114283  # lbu x5, 49(x2)
    .word 0x0082c2b3  # xor x5, x5, x8
    .word 0x025108a3  # sb x5, 49(x2)
    .word 0x00845413  # srli x8, x8, 8
    .word 0x00200313  # addi x6, x0, 2
    .word 0x00b37863  # bgeu x6, x11, 16
    .word 0x03214283  # lbu x5, 50(x2)
    .word 0x0082c2b3  # xor x5, x5, x8
    .word 0x02510923  # sb x5, 50(x2)
    .word 0x00845413  # srli x8, x8, 8
    .word 0x00300313  # addi x6, x0, 3
    .word 0x00b37863  # bgeu x6, x11, 16
    .word 0x03314283  # lbu x5, 51(x2)
    .word 0x0082c2b3  # xor x5, x5, x8
    .word 0x025109a3  # sb x5, 51(x2)
    .word 0x00400313  # addi x6, x0, 4
    .word 0x00b37863  # bgeu x6, x11, 16
    .word 0x03414283  # lbu x5, 52(x2)
    .word 0x00d2c2b3  # xor x5, x5, x13
    .word 0x02510a23  # sb x5, 52(x2)
    .word 0x0086d413  # srli x8, x13, 8
    .word 0x00500313  # addi x6, x0, 5
    .word 0x00b37863  # bgeu x6, x11, 16
    .word 0x03514283  # lbu x5, 53(x2)
    .word 0x0082c2b3  # xor x5, x5, x8
    .word 0x02510aa3  # sb x5, 53(x2)
    .word 0x00845413  # srli x8, x8, 8
    .word 0x00600313  # addi x6, x0, 6
    .word 0x00b37863  # bgeu x6, x11, 16
    .word 0x03614283  # lbu x5, 54(x2)
    .word 0x0082c2b3  # xor x5, x5, x8
    .word 0x02510b23  # sb x5, 54(x2)
    .word 0x00845413  # srli x8, x8, 8
    .word 0x00700313  # addi x6, x0, 7
    .word 0x00b37863  # bgeu x6, x11, 16
    .word 0x03714283  # lbu x5, 55(x2)
    .word 0x0082c2b3  # xor x5, x5, x8
    .word 0x02510ba3  # sb x5, 55(x2)
    .word 0x00800313  # addi x6, x0, 8
    .word 0x00b37863  # bgeu x6, x11, 16
    .word 0x03814283  # lbu x5, 56(x2)
    .word 0x00e2c2b3  # xor x5, x5, x14
    .word 0x02510c23  # sb x5, 56(x2)
    .word 0x00875413  # srli x8, x14, 8
    .word 0x00900313  # addi x6, x0, 9
    .word 0x00b37863  # bgeu x6, x11, 16
    .word 0x03914283  # lbu x5, 57(x2)
    .word 0x0082c2b3  # xor x5, x5, x8
    .word 0x02510ca3  # sb x5, 57(x2)
    .word 0x00845413  # srli x8, x8, 8
    .word 0x00a00313  # addi x6, x0, 10
    .word 0x00b37863  # bgeu x6, x11, 16
    .word 0x03a14283  # lbu x5, 58(x2)
    .word 0x0082c2b3  # xor x5, x5, x8
    .word 0x02510d23  # sb x5, 58(x2)
    .word 0x00845413  # srli x8, x8, 8
    .word 0x00b00313  # addi x6, x0, 11
    .word 0x00b37863  # bgeu x6, x11, 16
    .word 0x03b14283  # lbu x5, 59(x2)
    .word 0x0082c2b3  # xor x5, x5, x8
    .word 0x02510da3  # sb x5, 59(x2)
    .word 0x00c00313  # addi x6, x0, 12
    .word 0x00b37863  # bgeu x6, x11, 16
    .word 0x03c14283  # lbu x5, 60(x2)
    .word 0x00f2c2b3  # xor x5, x5, x15
    .word 0x02510e23  # sb x5, 60(x2)
    .word 0x0087d413  # srli x8, x15, 8
    .word 0x00d00313  # addi x6, x0, 13
    .word 0x00b37863  # bgeu x6, x11, 16
    .word 0x03d14283  # lbu x5, 61(x2)
    .word 0x0082c2b3  # xor x5, x5, x8
    .word 0x02510ea3  # sb x5, 61(x2)
    .word 0x00845413  # srli x8, x8, 8
    .word 0x00e00313  # addi x6, x0, 14
    .word 0x00b37863  # bgeu x6, x11, 16
    .word 0x03e14283  # lbu x5, 62(x2)
    .word 0x0082c2b3  # xor x5, x5, x8
    .word 0x02510f23  # sb x5, 62(x2)
    .word 0x00845413  # srli x8, x8, 8
    .word 0x00f00313  # addi x6, x0, 15
    .word 0x00b37863  # bgeu x6, x11, 16
    .word 0x03f14283  # lbu x5, 63(x2)
    .word 0x0082c2b3  # xor x5, x5, x8
    .word 0x02510fa3  # sb x5, 63(x2)
    .word 0x01000313  # addi x6, x0, 16
    .word 0x00b37863  # bgeu x6, x11, 16
    .word 0x04014283  # lbu x5, 64(x2)
    .word 0x0092c2b3  # xor x5, x5, x9
    .word 0x04510023  # sb x5, 64(x2)
    .word 0x0084d413  # srli x8, x9, 8
    .word 0x01100313  # addi x6, x0, 17
    .word 0x00b37863  # bgeu x6, x11, 16
    .word 0x04114283  # lbu x5, 65(x2)
    .word 0x0082c2b3  # xor x5, x5, x8
    .word 0x045100a3  # sb x5, 65(x2)
    .word 0x00845413  # srli x8, x8, 8
    .word 0x01200313  # addi x6, x0, 18
    .word 0x00b37863  # bgeu x6, x11, 16
    .word 0x04214283  # lbu x5, 66(x2)
    .word 0x0082c2b3  # xor x5, x5, x8
    .word 0x04510123  # sb x5, 66(x2)
    .word 0x00845413  # srli x8, x8, 8
    .word 0x01300313  # addi x6, x0, 19
    .word 0x00b37863  # bgeu x6, x11, 16
    .word 0x04314283  # lbu x5, 67(x2)
    .word 0x0082c2b3  # xor x5, x5, x8
    .word 0x045101a3  # sb x5, 67(x2)
    .word 0x01400313  # addi x6, x0, 20
    .word 0x00b37863  # bgeu x6, x11, 16
    .word 0x04414283  # lbu x5, 68(x2)
    .word 0x0102c2b3  # xor x5, x5, x16
    .word 0x04510223  # sb x5, 68(x2)
    .word 0x00885413  # srli x8, x16, 8
    .word 0x01500313  # addi x6, x0, 21
    .word 0x00b37863  # bgeu x6, x11, 16
    .word 0x04514283  # lbu x5, 69(x2)
    .word 0x0082c2b3  # xor x5, x5, x8
    .word 0x045102a3  # sb x5, 69(x2)
    .word 0x00845413  # srli x8, x8, 8
    .word 0x01600313  # addi x6, x0, 22
    .word 0x00b37863  # bgeu x6, x11, 16
    .word 0x04614283  # lbu x5, 70(x2)
    .word 0x0082c2b3  # xor x5, x5, x8
    .word 0x04510323  # sb x5, 70(x2)
    .word 0x00845413  # srli x8, x8, 8
    .word 0x01700313  # addi x6, x0, 23
    .word 0x00b37863  # bgeu x6, x11, 16
    .word 0x04714283  # lbu x5, 71(x2)
    .word 0x0082c2b3  # xor x5, x5, x8
    .word 0x045103a3  # sb x5, 71(x2)
    .word 0x01800313  # addi x6, x0, 24
    .word 0x00b37863  # bgeu x6, x11, 16
    .word 0x04814283  # lbu x5, 72(x2)
    .word 0x0112c2b3  # xor x5, x5, x17
    .word 0x04510423  # sb x5, 72(x2)
    .word 0x0088d413  # srli x8, x17, 8
    .word 0x01900313  # addi x6, x0, 25
    .word 0x00b37863  # bgeu x6, x11, 16
    .word 0x04914283  # lbu x5, 73(x2)
    .word 0x0082c2b3  # xor x5, x5, x8
    .word 0x045104a3  # sb x5, 73(x2)
    .word 0x00845413  # srli x8, x8, 8
    .word 0x01a00313  # addi x6, x0, 26
    .word 0x00b37863  # bgeu x6, x11, 16
    .word 0x04a14283  # lbu x5, 74(x2)
    .word 0x0082c2b3  # xor x5, x5, x8
    .word 0x04510523  # sb x5, 74(x2)
    .word 0x00845413  # srli x8, x8, 8
    .word 0x01b00313  # addi x6, x0, 27
    .word 0x00b37863  # bgeu x6, x11, 16
    .word 0x04b14283  # lbu x5, 75(x2)
    .word 0x0082c2b3  # xor x5, x5, x8
    .word 0x045105a3  # sb x5, 75(x2)
    .word 0x01c00313  # addi x6, x0, 28
    .word 0x00b37863  # bgeu x6, x11, 16
    .word 0x04c14283  # lbu x5, 76(x2)
    .word 0x0122c2b3  # xor x5, x5, x18
    .word 0x04510623  # sb x5, 76(x2)
    .word 0x00895413  # srli x8, x18, 8
    .word 0x01d00313  # addi x6, x0, 29
    .word 0x00b37863  # bgeu x6, x11, 16
    .word 0x04d14283  # lbu x5, 77(x2)
    .word 0x0082c2b3  # xor x5, x5, x8
    .word 0x045106a3  # sb x5, 77(x2)
    .word 0x00845413  # srli x8, x8, 8
    .word 0x01e00313  # addi x6, x0, 30
    .word 0x00b37863  # bgeu x6, x11, 16
    .word 0x04e14283  # lbu x5, 78(x2)
    .word 0x0082c2b3  # xor x5, x5, x8
    .word 0x04510723  # sb x5, 78(x2)
    .word 0x00845413  # srli x8, x8, 8
    .word 0x01f00313  # addi x6, x0, 31
    .word 0x00b37863  # bgeu x6, x11, 16
    .word 0x04f14283  # lbu x5, 79(x2)
    .word 0x0082c2b3  # xor x5, x5, x8
    .word 0x045107a3  # sb x5, 79(x2)
    .word 0x02000313  # addi x6, x0, 32
    .word 0x00b37863  # bgeu x6, x11, 16
    .word 0x05014283  # lbu x5, 80(x2)
    .word 0x0132c2b3  # xor x5, x5, x19
    .word 0x04510823  # sb x5, 80(x2)
    .word 0x0089d413  # srli x8, x19, 8
    .word 0x02100313  # addi x6, x0, 33
    .word 0x00b37863  # bgeu x6, x11, 16
    .word 0x05114283  # lbu x5, 81(x2)
    .word 0x0082c2b3  # xor x5, x5, x8
    .word 0x045108a3  # sb x5, 81(x2)
    .word 0x00845413  # srli x8, x8, 8
    .word 0x02200313  # addi x6, x0, 34
    .word 0x00b37863  # bgeu x6, x11, 16
    .word 0x05214283  # lbu x5, 82(x2)
    .word 0x0082c2b3  # xor x5, x5, x8
    .word 0x04510923  # sb x5, 82(x2)
    .word 0x00845413  # srli x8, x8, 8
    .word 0x02300313  # addi x6, x0, 35
    .word 0x00b37863  # bgeu x6, x11, 16
    .word 0x05314283  # lbu x5, 83(x2)
    .word 0x0082c2b3  # xor x5, x5, x8
    .word 0x045109a3  # sb x5, 83(x2)
    .word 0x02400313  # addi x6, x0, 36
    .word 0x00b37863  # bgeu x6, x11, 16
    .word 0x05414283  # lbu x5, 84(x2)
    .word 0x0142c2b3  # xor x5, x5, x20
    .word 0x04510a23  # sb x5, 84(x2)
    .word 0x008a5413  # srli x8, x20, 8
    .word 0x02500313  # addi x6, x0, 37
    .word 0x00b37863  # bgeu x6, x11, 16
    .word 0x05514283  # lbu x5, 85(x2)
    .word 0x0082c2b3  # xor x5, x5, x8
    .word 0x04510aa3  # sb x5, 85(x2)
    .word 0x00845413  # srli x8, x8, 8
    .word 0x02600313  # addi x6, x0, 38
    .word 0x00b37863  # bgeu x6, x11, 16
    .word 0x05614283  # lbu x5, 86(x2)
    .word 0x0082c2b3  # xor x5, x5, x8
    .word 0x04510b23  # sb x5, 86(x2)
    .word 0x00845413  # srli x8, x8, 8
    .word 0x02700313  # addi x6, x0, 39
    .word 0x00b37863  # bgeu x6, x11, 16
    .word 0x05714283  # lbu x5, 87(x2)
    .word 0x0082c2b3  # xor x5, x5, x8
    .word 0x04510ba3  # sb x5, 87(x2)
    .word 0x02800313  # addi x6, x0, 40
    .word 0x00b37863  # bgeu x6, x11, 16
    .word 0x05814283  # lbu x5, 88(x2)
    .word 0x0152c2b3  # xor x5, x5, x21
    .word 0x04510c23  # sb x5, 88(x2)
    .word 0x008ad413  # srli x8, x21, 8
    .word 0x02900313  # addi x6, x0, 41
    .word 0x00b37863  # bgeu x6, x11, 16
    .word 0x05914283  # lbu x5, 89(x2)
    .word 0x0082c2b3  # xor x5, x5, x8
    .word 0x04510ca3  # sb x5, 89(x2)
    .word 0x00845413  # srli x8, x8, 8
    .word 0x02a00313  # addi x6, x0, 42
    .word 0x00b37863  # bgeu x6, x11, 16
    .word 0x05a14283  # lbu x5, 90(x2)
    .word 0x0082c2b3  # xor x5, x5, x8
    .word 0x04510d23  # sb x5, 90(x2)
    .word 0x00845413  # srli x8, x8, 8
    .word 0x02b00313  # addi x6, x0, 43
    .word 0x00b37863  # bgeu x6, x11, 16
    .word 0x05b14283  # lbu x5, 91(x2)
    .word 0x0082c2b3  # xor x5, x5, x8
    .word 0x04510da3  # sb x5, 91(x2)
    .word 0x02c00313  # addi x6, x0, 44
    .word 0x00b37863  # bgeu x6, x11, 16
    .word 0x05c14283  # lbu x5, 92(x2)
    .word 0x0162c2b3  # xor x5, x5, x22
    .word 0x04510e23  # sb x5, 92(x2)
    .word 0x008b5413  # srli x8, x22, 8
    .word 0x02d00313  # addi x6, x0, 45
    .word 0x00b37863  # bgeu x6, x11, 16
    .word 0x05d14283  # lbu x5, 93(x2)
    .word 0x0082c2b3  # xor x5, x5, x8
    .word 0x04510ea3  # sb x5, 93(x2)
    .word 0x00845413  # srli x8, x8, 8
    .word 0x02e00313  # addi x6, x0, 46
    .word 0x00b37863  # bgeu x6, x11, 16
    .word 0x05e14283  # lbu x5, 94(x2)
    .word 0x0082c2b3  # xor x5, x5, x8
    .word 0x04510f23  # sb x5, 94(x2)
    .word 0x00845413  # srli x8, x8, 8
    .word 0x02f00313  # addi x6, x0, 47
    .word 0x00b37863  # bgeu x6, x11, 16
    .word 0x05f14283  # lbu x5, 95(x2)
    .word 0x0082c2b3  # xor x5, x5, x8
    .word 0x04510fa3  # sb x5, 95(x2)
    .word 0x03000313  # addi x6, x0, 48
    .word 0x00b37863  # bgeu x6, x11, 16
    .word 0x06014283  # lbu x5, 96(x2)
    .word 0x0172c2b3  # xor x5, x5, x23
    .word 0x06510023  # sb x5, 96(x2)
    .word 0x008bd413  # srli x8, x23, 8
    .word 0x03100313  # addi x6, x0, 49
    .word 0x00b37863  # bgeu x6, x11, 16
    .word 0x06114283  # lbu x5, 97(x2)
    .word 0x0082c2b3  # xor x5, x5, x8
    .word 0x065100a3  # sb x5, 97(x2)
    .word 0x00845413  # srli x8, x8, 8
    .word 0x03200313  # addi x6, x0, 50
    .word 0x00b37863  # bgeu x6, x11, 16
    .word 0x06214283  # lbu x5, 98(x2)
    .word 0x0082c2b3  # xor x5, x5, x8
    .word 0x06510123  # sb x5, 98(x2)
    .word 0x00845413  # srli x8, x8, 8
    .word 0x03300313  # addi x6, x0, 51
    .word 0x00b37863  # bgeu x6, x11, 16
    .word 0x06314283  # lbu x5, 99(x2)
    .word 0x0082c2b3  # xor x5, x5, x8
    .word 0x065101a3  # sb x5, 99(x2)
    .word 0x03400313  # addi x6, x0, 52
    .word 0x00b37863  # bgeu x6, x11, 16
    .word 0x06414283  # lbu x5, 100(x2)
    .word 0x0182c2b3  # xor x5, x5, x24
    .word 0x06510223  # sb x5, 100(x2)
    .word 0x008c5413  # srli x8, x24, 8
    .word 0x03500313  # addi x6, x0, 53
    .word 0x00b37863  # bgeu x6, x11, 16
    .word 0x06514283  # lbu x5, 101(x2)
    .word 0x0082c2b3  # xor x5, x5, x8
    .word 0x065102a3  # sb x5, 101(x2)
    .word 0x00845413  # srli x8, x8, 8
    .word 0x03600313  # addi x6, x0, 54
    .word 0x00b37863  # bgeu x6, x11, 16
    .word 0x06614283  # lbu x5, 102(x2)
    .word 0x0082c2b3  # xor x5, x5, x8
    .word 0x06510323  # sb x5, 102(x2)
    .word 0x00845413  # srli x8, x8, 8
    .word 0x03700313  # addi x6, x0, 55
    .word 0x00b37863  # bgeu x6, x11, 16
    .word 0x06714283  # lbu x5, 103(x2)
    .word 0x0082c2b3  # xor x5, x5, x8
    .word 0x065103a3  # sb x5, 103(x2)
    .word 0x03800313  # addi x6, x0, 56
    .word 0x00b37863  # bgeu x6, x11, 16
    .word 0x06814283  # lbu x5, 104(x2)
    .word 0x0192c2b3  # xor x5, x5, x25
    .word 0x06510423  # sb x5, 104(x2)
    .word 0x008cd413  # srli x8, x25, 8
    .word 0x03900313  # addi x6, x0, 57
    .word 0x00b37863  # bgeu x6, x11, 16
    .word 0x06914283  # lbu x5, 105(x2)
    .word 0x0082c2b3  # xor x5, x5, x8
    .word 0x065104a3  # sb x5, 105(x2)
    .word 0x00845413  # srli x8, x8, 8
    .word 0x03a00313  # addi x6, x0, 58
    .word 0x00b37863  # bgeu x6, x11, 16
    .word 0x06a14283  # lbu x5, 106(x2)
    .word 0x0082c2b3  # xor x5, x5, x8
    .word 0x06510523  # sb x5, 106(x2)
    .word 0x00845413  # srli x8, x8, 8
    .word 0x03b00313  # addi x6, x0, 59
    .word 0x00b37863  # bgeu x6, x11, 16
    .word 0x06b14283  # lbu x5, 107(x2)
    .word 0x0082c2b3  # xor x5, x5, x8
    .word 0x065105a3  # sb x5, 107(x2)
    .word 0x03c00313  # addi x6, x0, 60
    .word 0x00b37863  # bgeu x6, x11, 16
    .word 0x06c14283  # lbu x5, 108(x2)
    .word 0x01a2c2b3  # xor x5, x5, x26
    .word 0x06510623  # sb x5, 108(x2)
    .word 0x008d5413  # srli x8, x26, 8
    .word 0x03d00313  # addi x6, x0, 61
    .word 0x00b37863  # bgeu x6, x11, 16
    .word 0x06d14283  # lbu x5, 109(x2)
    .word 0x0082c2b3  # xor x5, x5, x8
    .word 0x065106a3  # sb x5, 109(x2)
    .word 0x00845413  # srli x8, x8, 8
    .word 0x03e00313  # addi x6, x0, 62
    .word 0x00b37863  # bgeu x6, x11, 16
    .word 0x06e14283  # lbu x5, 110(x2)
    .word 0x0082c2b3  # xor x5, x5, x8
    .word 0x06510723  # sb x5, 110(x2)
    .word 0x00845413  # srli x8, x8, 8
    .word 0x03f00313  # addi x6, x0, 63
    .word 0x00b37863  # bgeu x6, x11, 16
    .word 0x06f14283  # lbu x5, 111(x2)
    .word 0x0082c2b3  # xor x5, x5, x8
    .word 0x065107a3  # sb x5, 111(x2)
    # the result
    .word 0x00000513  # addi x10, x0, 0
    # parameter 3: the array, back
    .word 0x03010293  # addi x5, x2, 48
    .word 0x0ec12303  # lw x6, 236(x2)
    .word 0x04028393  # addi x7, x5, 64
    .word 0x09000f6f  # jal x30, 144
    # above the frame
    .word 0x0b010293  # addi x5, x2, 176
    # the caller's registers
    .word 0x0002a403  # lw x8, 0(x5)
    .cfi_restore 8
    .word 0x0042a483  # lw x9, 4(x5)
    .cfi_restore 9
    .word 0x0082a903  # lw x18, 8(x5)
    .cfi_restore 18
    .word 0x00c2a983  # lw x19, 12(x5)
    .cfi_restore 19
    .word 0x0102aa03  # lw x20, 16(x5)
    .cfi_restore 20
    .word 0x0142aa83  # lw x21, 20(x5)
    .cfi_restore 21
    .word 0x0182ab03  # lw x22, 24(x5)
    .cfi_restore 22
    .word 0x01c2ab83  # lw x23, 28(x5)
    .cfi_restore 23
    .word 0x0202ac03  # lw x24, 32(x5)
    .cfi_restore 24
    .word 0x0242ac83  # lw x25, 36(x5)
    .cfi_restore 25
    .word 0x0282ad03  # lw x26, 40(x5)
    .cfi_restore 26
    .word 0x02c2ad83  # lw x27, 44(x5)
    .cfi_restore 27
    # the caller's x2
    .word 0x04028293  # addi x5, x5, 64
    .cfi_def_cfa 5, 0
    # all the room, wiped upward
    .word 0x00012023  # sw x0, 0(x2)
    .word 0x00012223  # sw x0, 4(x2)
    .word 0x00012423  # sw x0, 8(x2)
    .word 0x00012623  # sw x0, 12(x2)
    .word 0x01010113  # addi x2, x2, 16
    .word 0xfe5116e3  # bne x2, x5, -20
    .cfi_def_cfa 2, 0
    # temporaries, wiped
    .word 0x00000293  # addi x5, x0, 0
    .word 0x00000313  # addi x6, x0, 0
    .word 0x00000393  # addi x7, x0, 0
    .word 0x00000593  # addi x11, x0, 0
    .word 0x00000613  # addi x12, x0, 0
    .word 0x00000693  # addi x13, x0, 0
    .word 0x00000713  # addi x14, x0, 0
    .word 0x00000793  # addi x15, x0, 0
    .word 0x00000813  # addi x16, x0, 0
    .word 0x00000893  # addi x17, x0, 0
    .word 0x00000e13  # addi x28, x0, 0
    .word 0x00000e93  # addi x29, x0, 0
    .word 0x00000f13  # addi x30, x0, 0
    .word 0x00000f93  # addi x31, x0, 0
    # back
    .word 0x00008067  # jalr x0, 0(x1)
    # from x5 to x6 up to x7, and back
    .cfi_def_cfa 2, 240
    .cfi_offset 8, -64
    .cfi_offset 9, -60
    .cfi_offset 18, -56
    .cfi_offset 19, -52
    .cfi_offset 20, -48
    .cfi_offset 21, -44
    .cfi_offset 22, -40
    .cfi_offset 23, -36
    .cfi_offset 24, -32
    .cfi_offset 25, -28
    .cfi_offset 26, -24
    .cfi_offset 27, -20
    .word 0x0062ee33  # or x28, x5, x6
    .word 0x003e7e13  # andi x28, x28, 3
    .word 0x000e0e63  # beq x28, x0, 28
    .word 0x0002ce03  # lbu x28, 0(x5)
    .word 0x01c30023  # sb x28, 0(x6)
    .word 0x00128293  # addi x5, x5, 1
    .word 0x00130313  # addi x6, x6, 1
    .word 0xfe7298e3  # bne x5, x7, -16
    .word 0x0180006f  # jal x0, 24
    .word 0x0002ae03  # lw x28, 0(x5)
    .word 0x01c32023  # sw x28, 0(x6)
    .word 0x00428293  # addi x5, x5, 4
    .word 0x00430313  # addi x6, x6, 4
    .word 0xfe7298e3  # bne x5, x7, -16
    .word 0x000f0067  # jalr x0, 0(x30)
    .cfi_endproc
    .size chacha20_xor, . - chacha20_xor
    .option pop
