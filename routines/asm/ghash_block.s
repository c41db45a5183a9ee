# ghash_block: made by factc 1.0.0 function; 354 words, 128 bytes of stack, profile 1
    .option push
    .option norvc
    .option norelax
    .cfi_sections .debug_frame
    .section .text.ghash_block, "ax", @progbits
    .p2align 2
    .globl ghash_block
    .type ghash_block, @function
ghash_block:
    .cfi_startproc
    # room above the frame
    .word 0xfc010113  # addi x2, x2, -64
    .cfi_def_cfa_offset 64
    # the caller's registers
    .word 0x00812023  # sw x8, 0(x2)
    .cfi_offset 8, -64
    .word 0x01212223  # sw x18, 4(x2)
    .cfi_offset 18, -60
    .word 0x01312423  # sw x19, 8(x2)
    .cfi_offset 19, -56
    .word 0x01412623  # sw x20, 12(x2)
    .cfi_offset 20, -52
    .word 0x01512823  # sw x21, 16(x2)
    .cfi_offset 21, -48
    .word 0x01612a23  # sw x22, 20(x2)
    .cfi_offset 22, -44
    .word 0x01712c23  # sw x23, 24(x2)
    .cfi_offset 23, -40
    .word 0x01812e23  # sw x24, 28(x2)
    .cfi_offset 24, -36
    .word 0x03912023  # sw x25, 32(x2)
    .cfi_offset 25, -32
    .word 0x03a12223  # sw x26, 36(x2)
    .cfi_offset 26, -28
    .word 0x03b12423  # sw x27, 40(x2)
    .cfi_offset 27, -24
    # arguments that are needed behind the body
    .word 0x02a12a23  # sw x10, 52(x2)
    .word 0x02b12c23  # sw x11, 56(x2)
    .word 0x02c12e23  # sw x12, 60(x2)
    # the frame's base
    .word 0xfc010113  # addi x2, x2, -64
    .cfi_def_cfa 2, 128
    # parameter 0: an array
    .word 0x00050293  # addi x5, x10, 0
    .word 0x00010313  # addi x6, x2, 0
    .word 0x01028393  # addi x7, x5, 16
    .word 0x4e800f6f  # jal x30, 1256
    # parameter 1: an array
    .word 0x00058293  # addi x5, x11, 0
    .word 0x01010313  # addi x6, x2, 16
    .word 0x01028393  # addi x7, x5, 16
    .word 0x4d800f6f  # jal x30, 1240
    # parameter 2: an array
    .word 0x00060293  # addi x5, x12, 0
    .word 0x02010313  # addi x6, x2, 32
    .word 0x01028393  # addi x7, x5, 16
    .word 0x4c800f6f  # jal x30, 1224
    # the body
    .word 0x00014283  # lbu x5, 0(x2)
    .word 0x01829293  # slli x5, x5, 24
    .word 0x00114303  # lbu x6, 1(x2)
    .word 0x01031313  # slli x6, x6, 16
    .word 0x0062e433  # or x8, x5, x6
    .word 0x00214303  # lbu x6, 2(x2)
    .word 0x00831313  # slli x6, x6, 8
    .word 0x006462b3  # or x5, x8, x6
    .word 0x00314303  # lbu x6, 3(x2)
    .word 0x0062e533  # or x10, x5, x6
    .word 0x00414283  # lbu x5, 4(x2)
    .word 0x01829293  # slli x5, x5, 24
    .word 0x00514303  # lbu x6, 5(x2)
    .word 0x01031313  # slli x6, x6, 16
    .word 0x0062e433  # or x8, x5, x6
    .word 0x00614303  # lbu x6, 6(x2)
    .word 0x00831313  # slli x6, x6, 8
    .word 0x006462b3  # or x5, x8, x6
    .word 0x00714303  # lbu x6, 7(x2)
    .word 0x0062e5b3  # or x11, x5, x6
    .word 0x00814283  # lbu x5, 8(x2)
    .word 0x01829293  # slli x5, x5, 24
    .word 0x00914303  # lbu x6, 9(x2)
    .word 0x01031313  # slli x6, x6, 16
    .word 0x0062e433  # or x8, x5, x6
    .word 0x00a14303  # lbu x6, 10(x2)
    .word 0x00831313  # slli x6, x6, 8
    .word 0x006462b3  # or x5, x8, x6
    .word 0x00b14303  # lbu x6, 11(x2)
    .word 0x0062e633  # or x12, x5, x6
    .word 0x00c14283  # lbu x5, 12(x2)
    .word 0x01829293  # slli x5, x5, 24
    .word 0x00d14303  # lbu x6, 13(x2)
    .word 0x01031313  # slli x6, x6, 16
    .word 0x0062e433  # or x8, x5, x6
    .word 0x00e14303  # lbu x6, 14(x2)
    .word 0x00831313  # slli x6, x6, 8
    .word 0x006462b3  # or x5, x8, x6
    .word 0x00f14303  # lbu x6, 15(x2)
    .word 0x0062e6b3  # or x13, x5, x6
    .word 0x00000713  # addi x14, x0, 0
    .word 0x02014283  # lbu x5, 32(x2)
    .word 0x01014303  # lbu x6, 16(x2)
    .word 0x0062c2b3  # xor x5, x5, x6
    .word 0x01829293  # slli x5, x5, 24
    .word 0x02114303  # lbu x6, 33(x2)
    .word 0x01114383  # lbu x7, 17(x2)
    .word 0x00734333  # xor x6, x6, x7
    .word 0x01031313  # slli x6, x6, 16
    .word 0x0062e433  # or x8, x5, x6
    .word 0x02214303  # lbu x6, 34(x2)
    .word 0x01214383  # lbu x7, 18(x2)
    .word 0x00734333  # xor x6, x6, x7
    .word 0x00831313  # slli x6, x6, 8
    .word 0x006462b3  # or x5, x8, x6
    .word 0x02314303  # lbu x6, 35(x2)
    .word 0x01314383  # lbu x7, 19(x2)
    .word 0x00734333  # xor x6, x6, x7
    .word 0x0062e7b3  # or x15, x5, x6
    .word 0x02414283  # lbu x5, 36(x2)
    .word 0x01414303  # lbu x6, 20(x2)
    .word 0x0062c2b3  # xor x5, x5, x6
    .word 0x01829293  # slli x5, x5, 24
    .word 0x02514303  # lbu x6, 37(x2)
    .word 0x01514383  # lbu x7, 21(x2)
    .word 0x00734333  # xor x6, x6, x7
    .word 0x01031313  # slli x6, x6, 16
    .word 0x0062e433  # or x8, x5, x6
    .word 0x02614303  # lbu x6, 38(x2)
    .word 0x01614383  # lbu x7, 22(x2)
    .word 0x00734333  # xor x6, x6, x7
    .word 0x00831313  # slli x6, x6, 8
    .word 0x006462b3  # or x5, x8, x6
    .word 0x02714303  # lbu x6, 39(x2)
    .word 0x01714383  # lbu x7, 23(x2)
    .word 0x00734333  # xor x6, x6, x7
    .word 0x0062e833  # or x16, x5, x6
    .word 0x02814283  # lbu x5, 40(x2)
    .word 0x01814303  # lbu x6, 24(x2)
    .word 0x0062c2b3  # xor x5, x5, x6
    .word 0x01829293  # slli x5, x5, 24
    .word 0x02914303  # lbu x6, 41(x2)
    .word 0x01914383  # lbu x7, 25(x2)
    .word 0x00734333  # xor x6, x6, x7
    .word 0x01031313  # slli x6, x6, 16
    .word 0x0062e433  # or x8, x5, x6
    .word 0x02a14303  # lbu x6, 42(x2)
    .word 0x01a14383  # lbu x7, 26(x2)
    .word 0x00734333  # xor x6, x6, x7
    .word 0x00831313  # slli x6, x6, 8
    .word 0x006462b3  # or x5, x8, x6
    .word 0x02b14303  # lbu x6, 43(x2)
    .word 0x01b14383  # lbu x7, 27(x2)
    .word 0x00734333  # xor x6, x6, x7
    .word 0x0062e8b3  # or x17, x5, x6
    .word 0x02c14283  # lbu x5, 44(x2)
    .word 0x01c14303  # lbu x6, 28(x2)
    .word 0x0062c2b3  # xor x5, x5, x6
    .word 0x01829293  # slli x5, x5, 24
    .word 0x02d14303  # lbu x6, 45(x2)
    .word 0x01d14383  # lbu x7, 29(x2)
    .word 0x00734333  # xor x6, x6, x7
    .word 0x01031313  # slli x6, x6, 16
    .word 0x0062e433  # or x8, x5, x6
    .word 0x02e14303  # lbu x6, 46(x2)
    .word 0x01e14383  # lbu x7, 30(x2)
    .word 0x00734333  # xor x6, x6, x7
    .word 0x00831313  # slli x6, x6, 8
    .word 0x006462b3  # or x5, x8, x6
    .word 0x02f14303  # lbu x6, 47(x2)
    .word 0x01f14383  # lbu x7, 31(x2)
    .word 0x00734333  # xor x6, x6, x7
    .word 0x0062e933  # or x18, x5, x6
    .word 0x00000993  # addi x19, x0, 0
    .word 0x00000a13  # addi x20, x0, 0
    .word 0x00000a93  # addi x21, x0, 0
    .word 0x00000b13  # addi x22, x0, 0
    .word 0x00000b93  # addi x23, x0, 0
    .word 0x00000c13  # addi x24, x0, 0
    .word 0x00000c93  # addi x25, x0, 0
    .word 0x00000d13  # addi x26, x0, 0
    .word 0xfff00d93  # addi x27, x0, -1
    .word 0x001d8d93  # addi x27, x27, 1
    .word 0x41f7d413  # srai x8, x15, 31
    .word 0x00179793  # slli x15, x15, 1
    .word 0x00857333  # and x6, x10, x8
    .word 0x0069c9b3  # xor x19, x19, x6
    .word 0x0085f333  # and x6, x11, x8
    .word 0x006a4a33  # xor x20, x20, x6
    .word 0x00867333  # and x6, x12, x8
    .word 0x006acab3  # xor x21, x21, x6
    .word 0x0086f333  # and x6, x13, x8
    .word 0x006b4b33  # xor x22, x22, x6
    .word 0x00877333  # and x6, x14, x8
    .word 0x006bcbb3  # xor x23, x23, x6
    .word 0x41f85413  # srai x8, x16, 31
    .word 0x00181813  # slli x16, x16, 1
    .word 0x00857333  # and x6, x10, x8
    .word 0x006a4a33  # xor x20, x20, x6
    .word 0x0085f333  # and x6, x11, x8
    .word 0x006acab3  # xor x21, x21, x6
    .word 0x00867333  # and x6, x12, x8
    .word 0x006b4b33  # xor x22, x22, x6
    .word 0x0086f333  # and x6, x13, x8
    .word 0x006bcbb3  # xor x23, x23, x6
    .word 0x00877333  # and x6, x14, x8
    .word 0x006c4c33  # xor x24, x24, x6
    .word 0x41f8d413  # srai x8, x17, 31
    .word 0x00189893  # slli x17, x17, 1
    .word 0x00857333  # and x6, x10, x8
    .word 0x006acab3  # xor x21, x21, x6
    .word 0x0085f333  # and x6, x11, x8
    .word 0x006b4b33  # xor x22, x22, x6
    .word 0x00867333  # and x6, x12, x8
    .word 0x006bcbb3  # xor x23, x23, x6
    .word 0x0086f333  # and x6, x13, x8
    .word 0x006c4c33  # xor x24, x24, x6
    .word 0x00877333  # and x6, x14, x8
    .word 0x006cccb3  # xor x25, x25, x6
    .word 0x41f95413  # srai x8, x18, 31
    .word 0x00191913  # slli x18, x18, 1
    .word 0x00857333  # and x6, x10, x8
    .word 0x006b4b33  # xor x22, x22, x6
    .word 0x0085f333  # and x6, x11, x8
    .word 0x006bcbb3  # xor x23, x23, x6
    .word 0x00867333  # and x6, x12, x8
    .word 0x006c4c33  # xor x24, x24, x6
    .word 0x0086f333  # and x6, x13, x8
    .word 0x006cccb3  # xor x25, x25, x6
    .word 0x00877333  # and x6, x14, x8
    .word 0x006d4d33  # xor x26, x26, x6
    .word 0x00175293  # srli x5, x14, 1
    .word 0x01f69313  # slli x6, x13, 31
    .word 0x0062e733  # or x14, x5, x6
    .word 0x0016d293  # srli x5, x13, 1
    .word 0x01f61313  # slli x6, x12, 31
    .word 0x0062e6b3  # or x13, x5, x6
    .word 0x00165293  # srli x5, x12, 1
    .word 0x01f59313  # slli x6, x11, 31
    .word 0x0062e633  # or x12, x5, x6
    .word 0x0015d293  # srli x5, x11, 1
    .word 0x01f51313  # slli x6, x10, 31
    .word 0x0062e5b3  # or x11, x5, x6
    .word 0x00155513  # srli x10, x10, 1
    .word 0xfe1d8293  # addi x5, x27, -31
    .word 0xf00292e3  # bne x5, x0, -252
    .word 0x01ab42b3  # xor x5, x22, x26
    .word 0x001d5313  # srli x6, x26, 1
    .word 0x0062c2b3  # xor x5, x5, x6
    .word 0x002d5313  # srli x6, x26, 2
    .word 0x0062c2b3  # xor x5, x5, x6
    .word 0x007d5313  # srli x6, x26, 7
    .word 0x0062cb33  # xor x22, x5, x6
    .word 0x01fd1313  # slli x6, x26, 31
    .word 0x006bc2b3  # xor x5, x23, x6
    .word 0x01ed1313  # slli x6, x26, 30
    .word 0x0062c2b3  # xor x5, x5, x6
    .word 0x019d1313  # slli x6, x26, 25
    .word 0x0062cbb3  # xor x23, x5, x6
    .word 0x019ac2b3  # xor x5, x21, x25
    .word 0x001cd313  # srli x6, x25, 1
    .word 0x0062c2b3  # xor x5, x5, x6
    .word 0x002cd313  # srli x6, x25, 2
    .word 0x0062c2b3  # xor x5, x5, x6
    .word 0x007cd313  # srli x6, x25, 7
    .word 0x0062cab3  # xor x21, x5, x6
    .word 0x01fc9313  # slli x6, x25, 31
    .word 0x006b42b3  # xor x5, x22, x6
    .word 0x01ec9313  # slli x6, x25, 30
    .word 0x0062c2b3  # xor x5, x5, x6
    .word 0x019c9313  # slli x6, x25, 25
    .word 0x0062cb33  # xor x22, x5, x6
    .word 0x018a42b3  # xor x5, x20, x24
    .word 0x001c5313  # srli x6, x24, 1
    .word 0x0062c2b3  # xor x5, x5, x6
    .word 0x002c5313  # srli x6, x24, 2
    .word 0x0062c2b3  # xor x5, x5, x6
    .word 0x007c5313  # srli x6, x24, 7
    .word 0x0062ca33  # xor x20, x5, x6
    .word 0x01fc1313  # slli x6, x24, 31
    .word 0x006ac2b3  # xor x5, x21, x6
    .word 0x01ec1313  # slli x6, x24, 30
    .word 0x0062c2b3  # xor x5, x5, x6
    .word 0x019c1313  # slli x6, x24, 25
    .word 0x0062cab3  # xor x21, x5, x6
    .word 0x0179c2b3  # xor x5, x19, x23
    .word 0x001bd313  # srli x6, x23, 1
    .word 0x0062c2b3  # xor x5, x5, x6
    .word 0x002bd313  # srli x6, x23, 2
    .word 0x0062c2b3  # xor x5, x5, x6
    .word 0x007bd313  # srli x6, x23, 7
    .word 0x0062c9b3  # xor x19, x5, x6
    .word 0x01fb9313  # slli x6, x23, 31
    .word 0x006a42b3  # xor x5, x20, x6
    .word 0x01eb9313  # slli x6, x23, 30
    .word 0x0062c2b3  # xor x5, x5, x6
    .word 0x019b9313  # slli x6, x23, 25
    .word 0x0062ca33  # xor x20, x5, x6
    .word 0x0189d293  # srli x5, x19, 24
    .word 0x02510023  # sb x5, 32(x2)
    .word 0x0109d293  # srli x5, x19, 16
    .word 0x025100a3  # sb x5, 33(x2)
    .word 0x0089d293  # srli x5, x19, 8
    .word 0x02510123  # sb x5, 34(x2)
    .word 0x033101a3  # sb x19, 35(x2)
    .word 0x018a5293  # srli x5, x20, 24
    .word 0x02510223  # sb x5, 36(x2)
    .word 0x010a5293  # srli x5, x20, 16
    .word 0x025102a3  # sb x5, 37(x2)
    .word 0x008a5293  # srli x5, x20, 8
    .word 0x02510323  # sb x5, 38(x2)
    .word 0x034103a3  # sb x20, 39(x2)
    .word 0x018ad293  # srli x5, x21, 24
    .word 0x02510423  # sb x5, 40(x2)
    .word 0x010ad293  # srli x5, x21, 16
    .word 0x025104a3  # sb x5, 41(x2)
    .word 0x008ad293  # srli x5, x21, 8
    .word 0x02510523  # sb x5, 42(x2)
    .word 0x035105a3  # sb x21, 43(x2)
    .word 0x018b5293  # srli x5, x22, 24
    .word 0x02510623  # sb x5, 44(x2)
    .word 0x010b5293  # srli x5, x22, 16
    .word 0x025106a3  # sb x5, 45(x2)
    .word 0x008b5293  # srli x5, x22, 8
    .word 0x02510723  # sb x5, 46(x2)
    .word 0x036107a3  # sb x22, 47(x2)
    # the result
    .word 0x00000513  # addi x10, x0, 0
    # parameter 2: the array, back
    .word 0x02010293  # addi x5, x2, 32
    .word 0x07c12303  # lw x6, 124(x2)
    .word 0x01028393  # addi x7, x5, 16
    .word 0x08c00f6f  # jal x30, 140
    # above the frame
    .word 0x04010293  # addi x5, x2, 64
    # the caller's registers
    .word 0x0002a403  # lw x8, 0(x5)
    .cfi_restore 8
    .word 0x0042a903  # lw x18, 4(x5)
    .cfi_restore 18
    .word 0x0082a983  # lw x19, 8(x5)
    .cfi_restore 19
    .word 0x00c2aa03  # lw x20, 12(x5)
    .cfi_restore 20
    .word 0x0102aa83  # lw x21, 16(x5)
    .cfi_restore 21
    .word 0x0142ab03  # lw x22, 20(x5)
    .cfi_restore 22
    .word 0x0182ab83  # lw x23, 24(x5)
    .cfi_restore 23
    .word 0x01c2ac03  # lw x24, 28(x5)
    .cfi_restore 24
    .word 0x0202ac83  # lw x25, 32(x5)
    .cfi_restore 25
    .word 0x0242ad03  # lw x26, 36(x5)
    .cfi_restore 26
    .word 0x0282ad83  # lw x27, 40(x5)
    .cfi_restore 27
    # the caller's x2
    .word 0x04028293  # addi x5, x5, 64
    .cfi_def_cfa 5, 0
    # all the room, wiped upward
    .word 0x00012023  # sw x0, 0(x2)
    .word 0x00012223  # sw x0, 4(x2)
    .word 0x00012423  # sw x0, 8(x2)
    .word 0x00012623  # sw x0, 12(x2)
    .word 0x01010113  # addi x2, x2, 16
    .word 0xfe5116e3  # bne x2, x5, -20
    .cfi_def_cfa 2, 0
    # temporaries, wiped
    .word 0x00000293  # addi x5, x0, 0
    .word 0x00000313  # addi x6, x0, 0
    .word 0x00000393  # addi x7, x0, 0
    .word 0x00000593  # addi x11, x0, 0
    .word 0x00000613  # addi x12, x0, 0
    .word 0x00000693  # addi x13, x0, 0
    .word 0x00000713  # addi x14, x0, 0
    .word 0x00000793  # addi x15, x0, 0
    .word 0x00000813  # addi x16, x0, 0
    .word 0x00000893  # addi x17, x0, 0
    .word 0x00000e13  # addi x28, x0, 0
    .word 0x00000e93  # addi x29, x0, 0
    .word 0x00000f13  # addi x30, x0, 0
    .word 0x00000f93  # addi x31, x0, 0
    # back
    .word 0x00008067  # jalr x0, 0(x1)
    # from x5 to x6 up to x7, and back
    .cfi_def_cfa 2, 128
    .cfi_offset 8, -64
    .cfi_offset 18, -60
    .cfi_offset 19, -56
    .cfi_offset 20, -52
    .cfi_offset 21, -48
    .cfi_offset 22, -44
    .cfi_offset 23, -40
    .cfi_offset 24, -36
    .cfi_offset 25, -32
    .cfi_offset 26, -28
    .cfi_offset 27, -24
    .word 0x0062ee33  # or x28, x5, x6
    .word 0x003e7e13  # andi x28, x28, 3
    .word 0x000e0e63  # beq x28, x0, 28
    .word 0x0002ce03  # lbu x28, 0(x5)
    .word 0x01c30023  # sb x28, 0(x6)
    .word 0x00128293  # addi x5, x5, 1
    .word 0x00130313  # addi x6, x6, 1
    .word 0xfe7298e3  # bne x5, x7, -16
    .word 0x0300006f  # jal x0, 48
    .word 0x0002ae03  # lw x28, 0(x5)
    .word 0x01c32023  # sw x28, 0(x6)
    .word 0x0042ae03  # lw x28, 4(x5)
    .word 0x01c32223  # sw x28, 4(x6)
    .word 0x0082ae03  # lw x28, 8(x5)
    .word 0x01c32423  # sw x28, 8(x6)
    .word 0x00c2ae03  # lw x28, 12(x5)
    .word 0x01c32623  # sw x28, 12(x6)
    .word 0x01028293  # addi x5, x5, 16
    .word 0x01030313  # addi x6, x6, 16
    .word 0xfc729ce3  # bne x5, x7, -40
    .word 0x000f0067  # jalr x0, 0(x30)
    .cfi_endproc
    .size ghash_block, . - ghash_block
    .option pop
