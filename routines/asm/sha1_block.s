# sha1_block: made by factc 1.0.0 function; 1257 words, 208 bytes of stack, profile 1
    .option push
    .option norvc
    .option norelax
    .cfi_sections .debug_frame
    .section .text.sha1_block, "ax", @progbits
    .p2align 2
    .globl sha1_block
    .type sha1_block, @function
sha1_block:
    .cfi_startproc
    # room above the frame
    .word 0xfc010113  # addi x2, x2, -64
    .cfi_def_cfa_offset 64
    # the caller's registers
    .word 0x00812023  # sw x8, 0(x2)
    .cfi_offset 8, -64
    .word 0x00912223  # sw x9, 4(x2)
    .cfi_offset 9, -60
    .word 0x01212423  # sw x18, 8(x2)
    .cfi_offset 18, -56
    .word 0x01312623  # sw x19, 12(x2)
    .cfi_offset 19, -52
    .word 0x01412823  # sw x20, 16(x2)
    .cfi_offset 20, -48
    .word 0x01512a23  # sw x21, 20(x2)
    .cfi_offset 21, -44
    .word 0x01612c23  # sw x22, 24(x2)
    .cfi_offset 22, -40
    .word 0x01712e23  # sw x23, 28(x2)
    .cfi_offset 23, -36
    .word 0x03812023  # sw x24, 32(x2)
    .cfi_offset 24, -32
    .word 0x03912223  # sw x25, 36(x2)
    .cfi_offset 25, -28
    .word 0x03a12423  # sw x26, 40(x2)
    .cfi_offset 26, -24
    .word 0x03b12623  # sw x27, 44(x2)
    .cfi_offset 27, -20
    # arguments that are needed behind the body
    .word 0x02a12e23  # sw x10, 60(x2)
    # the frame's base
    .word 0xf7010113  # addi x2, x2, -144
    .cfi_def_cfa 2, 208
    # parameter 0: an array
    .word 0x00050293  # addi x5, x10, 0
    .word 0x00010313  # addi x6, x2, 0
    .word 0x01028393  # addi x7, x5, 16
    .word 0x30801f6f  # jal x30, 4872
    .word 0x0002ae03  # lw x28, 0(x5)
    .word 0x01c32023  # sw x28, 0(x6)
    # parameter 1: an array
    .word 0x00058293  # addi x5, x11, 0
    .word 0x01410313  # addi x6, x2, 20
    .word 0x04028393  # addi x7, x5, 64
    .word 0x2f001f6f  # jal x30, 4848
    # the body
    .word 0x6ed9f2b7  # lui x5, 0x6ed9f
    .word 0xba128293  # addi x5, x5, -1119
    .word 0x06512823  # sw x5, 112(x2)
    .word 0xca62c2b7  # lui x5, 0xca62c
    .word 0x1d628293  # addi x5, x5, 470
    .word 0x06512a23  # sw x5, 116(x2)
    .word 0x8f1bc2b7  # lui x5, 0x8f1bc
    .word 0xcdc28293  # addi x5, x5, -804
    .word 0x06512c23  # sw x5, 120(x2)
    .word 0x06012023  # sw x0, 96(x2)
    .word 0x06012223  # sw x0, 100(x2)
    .word 0x06012423  # sw x0, 104(x2)
    .word 0x06012623  # sw x0, 108(x2)
    .word 0x01414283  # lbu x5, 20(x2)
    .word 0x01829293  # slli x5, x5, 24
    .word 0x01514303  # lbu x6, 21(x2)
    .word 0x01031313  # slli x6, x6, 16
    .word 0x0062e533  # or x10, x5, x6
    .word 0x01614283  # lbu x5, 22(x2)
    .word 0x00829293  # slli x5, x5, 8
    .word 0x01714303  # lbu x6, 23(x2)
    .word 0x0062e5b3  # or x11, x5, x6
    .word 0x00b56833  # or x16, x10, x11
    .word 0x01814283  # lbu x5, 24(x2)
    .word 0x01829293  # slli x5, x5, 24
    .word 0x01914303  # lbu x6, 25(x2)
    .word 0x01031313  # slli x6, x6, 16
    .word 0x0062e533  # or x10, x5, x6
    .word 0x01a14283  # lbu x5, 26(x2)
    .word 0x00829293  # slli x5, x5, 8
    .word 0x01b14303  # lbu x6, 27(x2)
    .word 0x0062e5b3  # or x11, x5, x6
    .word 0x00b568b3  # or x17, x10, x11
    .word 0x01c14283  # lbu x5, 28(x2)
    .word 0x01829293  # slli x5, x5, 24
    .word 0x01d14303  # lbu x6, 29(x2)
    .word 0x01031313  # slli x6, x6, 16
    .word 0x0062e533  # or x10, x5, x6
    .word 0x01e14283  # lbu x5, 30(x2)
    .word 0x00829293  # slli x5, x5, 8
    .word 0x01f14303  # lbu x6, 31(x2)
    .word 0x0062e5b3  # or x11, x5, x6
    .word 0x00b56933  # or x18, x10, x11
    .word 0x02014283  # lbu x5, 32(x2)
    .word 0x01829293  # slli x5, x5, 24
    .word 0x02114303  # lbu x6, 33(x2)
    .word 0x01031313  # slli x6, x6, 16
    .word 0x0062e533  # or x10, x5, x6
    .word 0x02214283  # lbu x5, 34(x2)
    .word 0x00829293  # slli x5, x5, 8
    .word 0x02314303  # lbu x6, 35(x2)
    .word 0x0062e5b3  # or x11, x5, x6
    .word 0x00b569b3  # or x19, x10, x11
    .word 0x02414283  # lbu x5, 36(x2)
    .word 0x01829293  # slli x5, x5, 24
    .word 0x02514303  # lbu x6, 37(x2)
    .word 0x01031313  # slli x6, x6, 16
    .word 0x0062e533  # or x10, x5, x6
    .word 0x02614283  # lbu x5, 38(x2)
    .word 0x00829293  # slli x5, x5, 8
    .word 0x02714303  # lbu x6, 39(x2)
    .word 0x0062e5b3  # or x11, x5, x6
    .word 0x00b56a33  # or x20, x10, x11
    .word 0x02814283  # lbu x5, 40(x2)
    .word 0x01829293  # slli x5, x5, 24
    .word 0x02914303  # lbu x6, 41(x2)
    .word 0x01031313  # slli x6, x6, 16
    .word 0x0062e533  # or x10, x5, x6
    .word 0x02a14283  # lbu x5, 42(x2)
    .word 0x00829293  # slli x5, x5, 8
    .word 0x02b14303  # lbu x6, 43(x2)
    .word 0x0062e5b3  # or x11, x5, x6
    .word 0x00b56ab3  # or x21, x10, x11
    .word 0x02c14283  # lbu x5, 44(x2)
    .word 0x01829293  # slli x5, x5, 24
    .word 0x02d14303  # lbu x6, 45(x2)
    .word 0x01031313  # slli x6, x6, 16
    .word 0x0062e533  # or x10, x5, x6
    .word 0x02e14283  # lbu x5, 46(x2)
    .word 0x00829293  # slli x5, x5, 8
    .word 0x02f14303  # lbu x6, 47(x2)
    .word 0x0062e5b3  # or x11, x5, x6
    .word 0x00b56b33  # or x22, x10, x11
    .word 0x03014283  # lbu x5, 48(x2)
    .word 0x01829293  # slli x5, x5, 24
    .word 0x03114303  # lbu x6, 49(x2)
    .word 0x01031313  # slli x6, x6, 16
    .word 0x0062e533  # or x10, x5, x6
    .word 0x03214283  # lbu x5, 50(x2)
    .word 0x00829293  # slli x5, x5, 8
    .word 0x03314303  # lbu x6, 51(x2)
    .word 0x0062e5b3  # or x11, x5, x6
    .word 0x00b56bb3  # or x23, x10, x11
    .word 0x03414283  # lbu x5, 52(x2)
    .word 0x01829293  # slli x5, x5, 24
    .word 0x03514303  # lbu x6, 53(x2)
    .word 0x01031313  # slli x6, x6, 16
    .word 0x0062e533  # or x10, x5, x6
    .word 0x03614283  # lbu x5, 54(x2)
    .word 0x00829293  # slli x5, x5, 8
    .word 0x03714303  # lbu x6, 55(x2)
    .word 0x0062e5b3  # or x11, x5, x6
    .word 0x00b56c33  # or x24, x10, x11
    .word 0x03814283  # lbu x5, 56(x2)
    .word 0x01829293  # slli x5, x5, 24
    .word 0x03914303  # lbu x6, 57(x2)
    .word 0x01031313  # slli x6, x6, 16
    .word 0x0062e533  # or x10, x5, x6
    .word 0x03a14283  # lbu x5, 58(x2)
    .word 0x00829293  # slli x5, x5, 8
    .word 0x03b14303  # lbu x6, 59(x2)
    .word 0x0062e5b3  # or x11, x5, x6
    .word 0x00b56cb3  # or x25, x10, x11
    .word 0x03c14283  # lbu x5, 60(x2)
    .word 0x01829293  # slli x5, x5, 24
    .word 0x03d14303  # lbu x6, 61(x2)
    .word 0x01031313  # slli x6, x6, 16
    .word 0x0062e533  # or x10, x5, x6
    .word 0x03e14283  # lbu x5, 62(x2)
    .word 0x00829293  # slli x5, x5, 8
    .word 0x03f14303  # lbu x6, 63(x2)
    .word 0x0062e5b3  # or x11, x5, x6
    .word 0x00b56d33  # or x26, x10, x11
    .word 0x04014283  # lbu x5, 64(x2)
    .word 0x01829293  # slli x5, x5, 24
    .word 0x04114303  # lbu x6, 65(x2)
    .word 0x01031313  # slli x6, x6, 16
    .word 0x0062e533  # or x10, x5, x6
    .word 0x04214283  # lbu x5, 66(x2)
    .word 0x00829293  # slli x5, x5, 8
    .word 0x04314303  # lbu x6, 67(x2)
    .word 0x0062e5b3  # or x11, x5, x6
    .word 0x00b56db3  # or x27, x10, x11
    .word 0x04414283  # lbu x5, 68(x2)
    .word 0x01829293  # slli x5, x5, 24
    .word 0x04514303  # lbu x6, 69(x2)
    .word 0x01031313  # slli x6, x6, 16
    .word 0x0062e533  # or x10, x5, x6
    .word 0x04614283  # lbu x5, 70(x2)
    .word 0x00829293  # slli x5, x5, 8
    .word 0x04714303  # lbu x6, 71(x2)
    .word 0x0062e5b3  # or x11, x5, x6
    .word 0x00b56433  # or x8, x10, x11
    .word 0x04814283  # lbu x5, 72(x2)
    .word 0x01829293  # slli x5, x5, 24
    .word 0x04914303  # lbu x6, 73(x2)
    .word 0x01031313  # slli x6, x6, 16
    .word 0x0062e533  # or x10, x5, x6
    .word 0x04a14283  # lbu x5, 74(x2)
    .word 0x00829293  # slli x5, x5, 8
    .word 0x04b14303  # lbu x6, 75(x2)
    .word 0x0062e5b3  # or x11, x5, x6
    .word 0x00b564b3  # or x9, x10, x11
    .word 0x04c14283  # lbu x5, 76(x2)
    .word 0x01829293  # slli x5, x5, 24
    .word 0x04d14303  # lbu x6, 77(x2)
    .word 0x01031313  # slli x6, x6, 16
    .word 0x0062e533  # or x10, x5, x6
    .word 0x04e14283  # lbu x5, 78(x2)
    .word 0x00829293  # slli x5, x5, 8
    .word 0x04f14303  # lbu x6, 79(x2)
    .word 0x0062e5b3  # or x11, x5, x6
    .word 0x00b562b3  # or x5, x10, x11
    .word 0x04512c23  # sw x5, 88(x2)
    .word 0x05014283  # lbu x5, 80(x2)
    .word 0x01829293  # slli x5, x5, 24
    .word 0x05114303  # lbu x6, 81(x2)
    .word 0x01031313  # slli x6, x6, 16
    .word 0x0062e533  # or x10, x5, x6
    .word 0x05214283  # lbu x5, 82(x2)
    .word 0x00829293  # slli x5, x5, 8
    .word 0x05314303  # lbu x6, 83(x2)
    .word 0x0062e5b3  # or x11, x5, x6
    .word 0x00b562b3  # or x5, x10, x11
    .word 0x04512e23  # sw x5, 92(x2)
    .word 0x00012503  # lw x10, 0(x2)
    .word 0x00412583  # lw x11, 4(x2)
    .word 0x00812603  # lw x12, 8(x2)
    .word 0x00c12683  # lw x13, 12(x2)
    .word 0x01012703  # lw x14, 16(x2)
    .word 0x5a8287b7  # lui x15, 0x5a828
    .word 0x99978793  # addi x15, x15, -1639
    .word 0x08012023  # sw x0, 128(x2)
    .word 0x00400293  # addi x5, x0, 4
    .word 0x08512223  # sw x5, 132(x2)
    .word 0x08012303  # lw x6, 128(x2)
    .word 0x08412283  # lw x5, 132(x2)
    .word 0x005332b3  # sltu x5, x6, x5
    .word 0x00029463  # bne x5, x0, 8
    .word 0x7150006f  # jal x0, 3860
    .word 0x04612a23  # sw x6, 84(x2)
    .word 0x00130313  # addi x6, x6, 1
    .word 0x08612023  # sw x6, 128(x2)
    .word 0x05412283  # lw x5, 84(x2)
    .word 0x1e507063  # bgeu x0, x5, 480
    .word 0x06412283  # lw x5, 100(x2)
    .word 0x0082c2b3  # xor x5, x5, x8
    .word 0x0162c2b3  # xor x5, x5, x22
    .word 0x0142c2b3  # xor x5, x5, x20
    .word 0x00129f13  # slli x30, x5, 1
    .word 0x01f2d813  # srli x16, x5, 31
    .word 0x010f0833  # add x16, x30, x16
    .word 0x06812283  # lw x5, 104(x2)
    .word 0x0092c2b3  # xor x5, x5, x9
    .word 0x0172c2b3  # xor x5, x5, x23
    .word 0x0152c2b3  # xor x5, x5, x21
    .word 0x00129f13  # slli x30, x5, 1
    .word 0x01f2d893  # srli x17, x5, 31
    .word 0x011f08b3  # add x17, x30, x17
    .word 0x06c12283  # lw x5, 108(x2)
    .word 0x05812303  # lw x6, 88(x2)
    .word 0x0062c2b3  # xor x5, x5, x6
    .word 0x0182c2b3  # xor x5, x5, x24
    .word 0x0162c2b3  # xor x5, x5, x22
    .word 0x00129f13  # slli x30, x5, 1
    .word 0x01f2d913  # srli x18, x5, 31
    .word 0x012f0933  # add x18, x30, x18
    .word 0x05c12303  # lw x6, 92(x2)
    .word 0x006842b3  # xor x5, x16, x6
    .word 0x0192c2b3  # xor x5, x5, x25
    .word 0x0172c2b3  # xor x5, x5, x23
    .word 0x00129f13  # slli x30, x5, 1
    .word 0x01f2d993  # srli x19, x5, 31
    .word 0x013f09b3  # add x19, x30, x19
    .word 0x06012303  # lw x6, 96(x2)
    .word 0x0068c2b3  # xor x5, x17, x6
    .word 0x01a2c2b3  # xor x5, x5, x26
    .word 0x0182c2b3  # xor x5, x5, x24
    .word 0x00129f13  # slli x30, x5, 1
    .word 0x01f2da13  # srli x20, x5, 31
    .word 0x014f0a33  # add x20, x30, x20
    .word 0x06412303  # lw x6, 100(x2)
    .word 0x006942b3  # xor x5, x18, x6
    .word 0x01b2c2b3  # xor x5, x5, x27
    .word 0x0192c2b3  # xor x5, x5, x25
    .word 0x00129f13  # slli x30, x5, 1
    .word 0x01f2da93  # srli x21, x5, 31
    .word 0x015f0ab3  # add x21, x30, x21
    .word 0x06812303  # lw x6, 104(x2)
    .word 0x0069c2b3  # xor x5, x19, x6
    .word 0x0082c2b3  # xor x5, x5, x8
    .word 0x01a2c2b3  # xor x5, x5, x26
    .word 0x00129f13  # slli x30, x5, 1
    .word 0x01f2db13  # srli x22, x5, 31
    .word 0x016f0b33  # add x22, x30, x22
    .word 0x06c12303  # lw x6, 108(x2)
    .word 0x006a42b3  # xor x5, x20, x6
    .word 0x0092c2b3  # xor x5, x5, x9
    .word 0x01b2c2b3  # xor x5, x5, x27
    .word 0x00129f13  # slli x30, x5, 1
    .word 0x01f2db93  # srli x23, x5, 31
    .word 0x017f0bb3  # add x23, x30, x23
    .word 0x010ac2b3  # xor x5, x21, x16
    .word 0x05812303  # lw x6, 88(x2)
    .word 0x0062c2b3  # xor x5, x5, x6
    .word 0x0082c2b3  # xor x5, x5, x8
    .word 0x00129f13  # slli x30, x5, 1
    .word 0x01f2dc13  # srli x24, x5, 31
    .word 0x018f0c33  # add x24, x30, x24
    .word 0x011b42b3  # xor x5, x22, x17
    .word 0x05c12303  # lw x6, 92(x2)
    .word 0x0062c2b3  # xor x5, x5, x6
    .word 0x0092c2b3  # xor x5, x5, x9
    .word 0x00129f13  # slli x30, x5, 1
    .word 0x01f2dc93  # srli x25, x5, 31
    .word 0x019f0cb3  # add x25, x30, x25
    .word 0x012bc2b3  # xor x5, x23, x18
    .word 0x06012303  # lw x6, 96(x2)
    .word 0x0062c2b3  # xor x5, x5, x6
    .word 0x05812303  # lw x6, 88(x2)
    .word 0x0062c2b3  # xor x5, x5, x6
    .word 0x00129f13  # slli x30, x5, 1
    .word 0x01f2dd13  # srli x26, x5, 31
    .word 0x01af0d33  # add x26, x30, x26
    .word 0x013c42b3  # xor x5, x24, x19
    .word 0x06412303  # lw x6, 100(x2)
    .word 0x0062c2b3  # xor x5, x5, x6
    .word 0x05c12303  # lw x6, 92(x2)
    .word 0x0062c2b3  # xor x5, x5, x6
    .word 0x00129f13  # slli x30, x5, 1
    .word 0x01f2dd93  # srli x27, x5, 31
    .word 0x01bf0db3  # add x27, x30, x27
    .word 0x014cc2b3  # xor x5, x25, x20
    .word 0x06812303  # lw x6, 104(x2)
    .word 0x0062c2b3  # xor x5, x5, x6
    .word 0x06012303  # lw x6, 96(x2)
    .word 0x0062c2b3  # xor x5, x5, x6
    .word 0x00129f13  # slli x30, x5, 1
    .word 0x01f2d413  # srli x8, x5, 31
    .word 0x008f0433  # add x8, x30, x8
    .word 0x015d42b3  # xor x5, x26, x21
    .word 0x06c12303  # lw x6, 108(x2)
    .word 0x0062c2b3  # xor x5, x5, x6
    .word 0x06412303  # lw x6, 100(x2)
    .word 0x0062c2b3  # xor x5, x5, x6
    .word 0x00129f13  # slli x30, x5, 1
    .word 0x01f2d493  # srli x9, x5, 31
    .word 0x009f04b3  # add x9, x30, x9
    .word 0x016dc2b3  # xor x5, x27, x22
    .word 0x0102c2b3  # xor x5, x5, x16
    .word 0x06812303  # lw x6, 104(x2)
    .word 0x0062c2b3  # xor x5, x5, x6
    .word 0x00129f13  # slli x30, x5, 1
    .word 0x01f2d293  # srli x5, x5, 31
    .word 0x005f02b3  # add x5, x30, x5
    .word 0x04512c23  # sw x5, 88(x2)
    .word 0x017442b3  # xor x5, x8, x23
    .word 0x0112c2b3  # xor x5, x5, x17
    .word 0x06c12303  # lw x6, 108(x2)
    .word 0x0062c2b3  # xor x5, x5, x6
    .word 0x00129f13  # slli x30, x5, 1
    .word 0x01f2d293  # srli x5, x5, 31
    .word 0x005f02b3  # add x5, x30, x5
    .word 0x04512e23  # sw x5, 92(x2)
    .word 0x0184c2b3  # xor x5, x9, x24
    .word 0x0122c2b3  # xor x5, x5, x18
    .word 0x0102c2b3  # xor x5, x5, x16
    .word 0x00129f13  # slli x30, x5, 1
    .word 0x01f2d293  # srli x5, x5, 31
    .word 0x005f02b3  # add x5, x30, x5
    .word 0x06512023  # sw x5, 96(x2)
    .word 0x05812283  # lw x5, 88(x2)
    .word 0x0192c2b3  # xor x5, x5, x25
    .word 0x0132c2b3  # xor x5, x5, x19
    .word 0x0112c2b3  # xor x5, x5, x17
    .word 0x00129f13  # slli x30, x5, 1
    .word 0x01f2d293  # srli x5, x5, 31
    .word 0x005f02b3  # add x5, x30, x5
    .word 0x06512223  # sw x5, 100(x2)
    .word 0x05c12283  # lw x5, 92(x2)
    .word 0x01a2c2b3  # xor x5, x5, x26
    .word 0x0142c2b3  # xor x5, x5, x20
    .word 0x0122c2b3  # xor x5, x5, x18
    .word 0x00129f13  # slli x30, x5, 1
    .word 0x01f2d293  # srli x5, x5, 31
    .word 0x005f02b3  # add x5, x30, x5
    .word 0x06512423  # sw x5, 104(x2)
    .word 0x06012283  # lw x5, 96(x2)
    .word 0x01b2c2b3  # xor x5, x5, x27
    .word 0x0152c2b3  # xor x5, x5, x21
    .word 0x0132c2b3  # xor x5, x5, x19
    .word 0x00129f13  # slli x30, x5, 1
    .word 0x01f2d293  # srli x5, x5, 31
    .word 0x005f02b3  # add x5, x30, x5
    .word 0x06512623  # sw x5, 108(x2)
    .word 0x05412283  # lw x5, 84(x2)
    .word 0x42029a63  # bne x5, x0, 1076
    .word 0x00d642b3  # xor x5, x12, x13
    .word 0x00b2f2b3  # and x5, x5, x11
    .word 0x00d2c2b3  # xor x5, x5, x13
    .word 0x00e282b3  # add x5, x5, x14
    .word 0x00551f13  # slli x30, x10, 5
    .word 0x01b55313  # srli x6, x10, 27
    .word 0x006f0333  # add x6, x30, x6
    .word 0x006282b3  # add x5, x5, x6
    .word 0x00f282b3  # add x5, x5, x15
    .word 0x01028733  # add x14, x5, x16
    .word 0x01e59f13  # slli x30, x11, 30
    .word 0x0025d593  # srli x11, x11, 2
    .word 0x00bf05b3  # add x11, x30, x11
    .word 0x00c5c2b3  # xor x5, x11, x12
    .word 0x00a2f2b3  # and x5, x5, x10
    .word 0x00c2c2b3  # xor x5, x5, x12
    .word 0x00d282b3  # add x5, x5, x13
    .word 0x00571f13  # slli x30, x14, 5
    .word 0x01b75313  # srli x6, x14, 27
    .word 0x006f0333  # add x6, x30, x6
    .word 0x006282b3  # add x5, x5, x6
    .word 0x00f282b3  # add x5, x5, x15
    .word 0x011286b3  # add x13, x5, x17
    .word 0x01e51f13  # slli x30, x10, 30
    .word 0x00255513  # srli x10, x10, 2
    .word 0x00af0533  # add x10, x30, x10
    .word 0x00b542b3  # xor x5, x10, x11
    .word 0x00e2f2b3  # and x5, x5, x14
    .word 0x00b2c2b3  # xor x5, x5, x11
    .word 0x00c282b3  # add x5, x5, x12
    .word 0x00569f13  # slli x30, x13, 5
    .word 0x01b6d313  # srli x6, x13, 27
    .word 0x006f0333  # add x6, x30, x6
    .word 0x006282b3  # add x5, x5, x6
    .word 0x00f282b3  # add x5, x5, x15
    .word 0x01228633  # add x12, x5, x18
    .word 0x01e71f13  # slli x30, x14, 30
    .word 0x00275713  # srli x14, x14, 2
    .word 0x00ef0733  # add x14, x30, x14
    .word 0x00a742b3  # xor x5, x14, x10
    .word 0x00d2f2b3  # and x5, x5, x13
    .word 0x00a2c2b3  # xor x5, x5, x10
    .word 0x00b282b3  # add x5, x5, x11
    .word 0x00561f13  # slli x30, x12, 5
    .word 0x01b65313  # srli x6, x12, 27
    .word 0x006f0333  # add x6, x30, x6
    .word 0x006282b3  # add x5, x5, x6
    .word 0x00f282b3  # add x5, x5, x15
    .word 0x013285b3  # add x11, x5, x19
    .word 0x01e69f13  # slli x30, x13, 30
    .word 0x0026d693  # srli x13, x13, 2
    .word 0x00df06b3  # add x13, x30, x13
    .word 0x00e6c2b3  # xor x5, x13, x14
    .word 0x00c2f2b3  # and x5, x5, x12
    .word 0x00e2c2b3  # xor x5, x5, x14
    .word 0x00a282b3  # add x5, x5, x10
    .word 0x00559f13  # slli x30, x11, 5
    .word 0x01b5d313  # srli x6, x11, 27
    .word 0x006f0333  # add x6, x30, x6
    .word 0x006282b3  # add x5, x5, x6
    .word 0x00f282b3  # add x5, x5, x15
    .word 0x01428533  # add x10, x5, x20
    .word 0x01e61f13  # slli x30, x12, 30
    .word 0x00265613  # srli x12, x12, 2
    .word 0x00cf0633  # add x12, x30, x12
    .word 0x00d642b3  # xor x5, x12, x13
    .word 0x00b2f2b3  # and x5, x5, x11
    .word 0x00d2c2b3  # xor x5, x5, x13
    .word 0x00e282b3  # add x5, x5, x14
    .word 0x00551f13  # slli x30, x10, 5
    .word 0x01b55313  # srli x6, x10, 27
    .word 0x006f0333  # add x6, x30, x6
    .word 0x006282b3  # add x5, x5, x6
    .word 0x00f282b3  # add x5, x5, x15
    .word 0x01528733  # add x14, x5, x21
    .word 0x01e59f13  # slli x30, x11, 30
    .word 0x0025d593  # srli x11, x11, 2
    .word 0x00bf05b3  # add x11, x30, x11
    .word 0x00c5c2b3  # xor x5, x11, x12
    .word 0x00a2f2b3  # and x5, x5, x10
    .word 0x00c2c2b3  # xor x5, x5, x12
    .word 0x00d282b3  # add x5, x5, x13
    .word 0x00571f13  # slli x30, x14, 5
    .word 0x01b75313  # srli x6, x14, 27
    .word 0x006f0333  # add x6, x30, x6
    .word 0x006282b3  # add x5, x5, x6
    .word 0x00f282b3  # add x5, x5, x15
    .word 0x016286b3  # add x13, x5, x22
    .word 0x01e51f13  # slli x30, x10, 30
    .word 0x00255513  # srli x10, x10, 2
    .word 0x00af0533  # add x10, x30, x10
    .word 0x00b542b3  # xor x5, x10, x11
    .word 0x00e2f2b3  # and x5, x5, x14
    .word 0x00b2c2b3  # xor x5, x5, x11
    .word 0x00c282b3  # add x5, x5, x12
    .word 0x00569f13  # slli x30, x13, 5
    .word 0x01b6d313  # srli x6, x13, 27
    .word 0x006f0333  # add x6, x30, x6
    .word 0x006282b3  # add x5, x5, x6
    .word 0x00f282b3  # add x5, x5, x15
    .word 0x01728633  # add x12, x5, x23
    .word 0x01e71f13  # slli x30, x14, 30
    .word 0x00275713  # srli x14, x14, 2
    .word 0x00ef0733  # add x14, x30, x14
    .word 0x00a742b3  # xor x5, x14, x10
    .word 0x00d2f2b3  # and x5, x5, x13
    .word 0x00a2c2b3  # xor x5, x5, x10
    .word 0x00b282b3  # add x5, x5, x11
    .word 0x00561f13  # slli x30, x12, 5
    .word 0x01b65313  # srli x6, x12, 27
    .word 0x006f0333  # add x6, x30, x6
    .word 0x006282b3  # add x5, x5, x6
    .word 0x00f282b3  # add x5, x5, x15
    .word 0x018285b3  # add x11, x5, x24
    .word 0x01e69f13  # slli x30, x13, 30
    .word 0x0026d693  # srli x13, x13, 2
    .word 0x00df06b3  # add x13, x30, x13
    .word 0x00e6c2b3  # xor x5, x13, x14
    .word 0x00c2f2b3  # and x5, x5, x12
    .word 0x00e2c2b3  # xor x5, x5, x14
    .word 0x00a282b3  # add x5, x5, x10
    .word 0x00559f13  # slli x30, x11, 5
    .word 0x01b5d313  # srli x6, x11, 27
    .word 0x006f0333  # add x6, x30, x6
    .word 0x006282b3  # add x5, x5, x6
    .word 0x00f282b3  # add x5, x5, x15
    .word 0x01928533  # add x10, x5, x25
    .word 0x01e61f13  # slli x30, x12, 30
    .word 0x00265613  # srli x12, x12, 2
    .word 0x00cf0633  # add x12, x30, x12
    .word 0x00d642b3  # xor x5, x12, x13
    .word 0x00b2f2b3  # and x5, x5, x11
    .word 0x00d2c2b3  # xor x5, x5, x13
    .word 0x00e282b3  # add x5, x5, x14
    .word 0x00551f13  # slli x30, x10, 5
    .word 0x01b55313  # srli x6, x10, 27
    .word 0x006f0333  # add x6, x30, x6
    .word 0x006282b3  # add x5, x5, x6
    .word 0x00f282b3  # add x5, x5, x15
    .word 0x01a28733  # add x14, x5, x26
    .word 0x01e59f13  # slli x30, x11, 30
    .word 0x0025d593  # srli x11, x11, 2
    .word 0x00bf05b3  # add x11, x30, x11
    .word 0x00c5c2b3  # xor x5, x11, x12
    .word 0x00a2f2b3  # and x5, x5, x10
    .word 0x00c2c2b3  # xor x5, x5, x12
    .word 0x00d282b3  # add x5, x5, x13
    .word 0x00571f13  # slli x30, x14, 5
    .word 0x01b75313  # srli x6, x14, 27
    .word 0x006f0333  # add x6, x30, x6
    .word 0x006282b3  # add x5, x5, x6
    .word 0x00f282b3  # add x5, x5, x15
    .word 0x01b286b3  # add x13, x5, x27
    .word 0x01e51f13  # slli x30, x10, 30
    .word 0x00255513  # srli x10, x10, 2
    .word 0x00af0533  # add x10, x30, x10
    .word 0x00b542b3  # xor x5, x10, x11
    .word 0x00e2f2b3  # and x5, x5, x14
    .word 0x00b2c2b3  # xor x5, x5, x11
    .word 0x00c282b3  # add x5, x5, x12
    .word 0x00569f13  # slli x30, x13, 5
    .word 0x01b6d313  # srli x6, x13, 27
    .word 0x006f0333  # add x6, x30, x6
    .word 0x006282b3  # add x5, x5, x6
    .word 0x00f282b3  # add x5, x5, x15
    .word 0x00828633  # add x12, x5, x8
    .word 0x01e71f13  # slli x30, x14, 30
    .word 0x00275713  # srli x14, x14, 2
    .word 0x00ef0733  # add x14, x30, x14
    .word 0x00a742b3  # xor x5, x14, x10
    .word 0x00d2f2b3  # and x5, x5, x13
    .word 0x00a2c2b3  # xor x5, x5, x10
    .word 0x00b282b3  # add x5, x5, x11
    .word 0x00561f13  # slli x30, x12, 5
    .word 0x01b65313  # srli x6, x12, 27
    .word 0x006f0333  # add x6, x30, x6
    .word 0x006282b3  # add x5, x5, x6
    .word 0x00f282b3  # add x5, x5, x15
    .word 0x009285b3  # add x11, x5, x9
    .word 0x01e69f13  # slli x30, x13, 30
    .word 0x0026d693  # srli x13, x13, 2
    .word 0x00df06b3  # add x13, x30, x13
    .word 0x00e6c2b3  # xor x5, x13, x14
    .word 0x00c2f2b3  # and x5, x5, x12
    .word 0x00e2c2b3  # xor x5, x5, x14
    .word 0x00a282b3  # add x5, x5, x10
    .word 0x00559f13  # slli x30, x11, 5
    .word 0x01b5d313  # srli x6, x11, 27
    .word 0x006f0333  # add x6, x30, x6
    .word 0x006282b3  # add x5, x5, x6
    .word 0x00f282b3  # add x5, x5, x15
    .word 0x05812303  # lw x6, 88(x2)
    .word 0x00628533  # add x10, x5, x6
    .word 0x01e61f13  # slli x30, x12, 30
    .word 0x00265613  # srli x12, x12, 2
    .word 0x00cf0633  # add x12, x30, x12
    .word 0x00d642b3  # xor x5, x12, x13
    .word 0x00b2f2b3  # and x5, x5, x11
    .word 0x00d2c2b3  # xor x5, x5, x13
    .word 0x00e282b3  # add x5, x5, x14
    .word 0x00551f13  # slli x30, x10, 5
    .word 0x01b55313  # srli x6, x10, 27
    .word 0x006f0333  # add x6, x30, x6
    .word 0x006282b3  # add x5, x5, x6
    .word 0x00f282b3  # add x5, x5, x15
    .word 0x05c12303  # lw x6, 92(x2)
    .word 0x00628733  # add x14, x5, x6
    .word 0x01e59f13  # slli x30, x11, 30
    .word 0x0025d593  # srli x11, x11, 2
    .word 0x00bf05b3  # add x11, x30, x11
    .word 0x00c5c2b3  # xor x5, x11, x12
    .word 0x00a2f2b3  # and x5, x5, x10
    .word 0x00c2c2b3  # xor x5, x5, x12
    .word 0x00d282b3  # add x5, x5, x13
    .word 0x00571f13  # slli x30, x14, 5
    .word 0x01b75313  # srli x6, x14, 27
    .word 0x006f0333  # add x6, x30, x6
    .word 0x006282b3  # add x5, x5, x6
    .word 0x00f282b3  # add x5, x5, x15
    .word 0x06012303  # lw x6, 96(x2)
    .word 0x006286b3  # add x13, x5, x6
    .word 0x01e51f13  # slli x30, x10, 30
    .word 0x00255513  # srli x10, x10, 2
    .word 0x00af0533  # add x10, x30, x10
    .word 0x00b542b3  # xor x5, x10, x11
    .word 0x00e2f2b3  # and x5, x5, x14
    .word 0x00b2c2b3  # xor x5, x5, x11
    .word 0x00c282b3  # add x5, x5, x12
    .word 0x00569f13  # slli x30, x13, 5
    .word 0x01b6d313  # srli x6, x13, 27
    .word 0x006f0333  # add x6, x30, x6
    .word 0x006282b3  # add x5, x5, x6
    .word 0x00f282b3  # add x5, x5, x15
    .word 0x06412303  # lw x6, 100(x2)
    .word 0x00628633  # add x12, x5, x6
    .word 0x01e71f13  # slli x30, x14, 30
    .word 0x00275713  # srli x14, x14, 2
    .word 0x00ef0733  # add x14, x30, x14
    .word 0x00a742b3  # xor x5, x14, x10
    .word 0x00d2f2b3  # and x5, x5, x13
    .word 0x00a2c2b3  # xor x5, x5, x10
    .word 0x00b282b3  # add x5, x5, x11
    .word 0x00561f13  # slli x30, x12, 5
    .word 0x01b65313  # srli x6, x12, 27
    .word 0x006f0333  # add x6, x30, x6
    .word 0x006282b3  # add x5, x5, x6
    .word 0x00f282b3  # add x5, x5, x15
    .word 0x06812303  # lw x6, 104(x2)
    .word 0x006285b3  # add x11, x5, x6
    .word 0x01e69f13  # slli x30, x13, 30
    .word 0x0026d693  # srli x13, x13, 2
    .word 0x00df06b3  # add x13, x30, x13
    .word 0x00e6c2b3  # xor x5, x13, x14
    .word 0x00c2f2b3  # and x5, x5, x12
    .word 0x00e2c2b3  # xor x5, x5, x14
    .word 0x00a282b3  # add x5, x5, x10
    .word 0x00559f13  # slli x30, x11, 5
    .word 0x01b5d313  # srli x6, x11, 27
    .word 0x006f0333  # add x6, x30, x6
    .word 0x006282b3  # add x5, x5, x6
    .word 0x00f282b3  # add x5, x5, x15
    .word 0x06c12303  # lw x6, 108(x2)
    .word 0x00628533  # add x10, x5, x6
    .word 0x01e61f13  # slli x30, x12, 30
    .word 0x00265613  # srli x12, x12, 2
    .word 0x00cf0633  # add x12, x30, x12
    .word 0x07012783  # lw x15, 112(x2)
    .word 0x06d0006f  # jal x0, 2156
    .word 0x05412283  # lw x5, 84(x2)
    .word 0x00200313  # addi x6, x0, 2
    .word 0x48629263  # bne x5, x6, 1156
    .word 0x00c5e2b3  # or x5, x11, x12
    .word 0x00d2f2b3  # and x5, x5, x13
    .word 0x00c5f333  # and x6, x11, x12
    .word 0x0062e2b3  # or x5, x5, x6
    .word 0x00e282b3  # add x5, x5, x14
    .word 0x00551f13  # slli x30, x10, 5
    .word 0x01b55313  # srli x6, x10, 27
    .word 0x006f0333  # add x6, x30, x6
    .word 0x006282b3  # add x5, x5, x6
    .word 0x00f282b3  # add x5, x5, x15
    .word 0x01028733  # add x14, x5, x16
    .word 0x01e59f13  # slli x30, x11, 30
    .word 0x0025d593  # srli x11, x11, 2
    .word 0x00bf05b3  # add x11, x30, x11
    .word 0x00b562b3  # or x5, x10, x11
    .word 0x00c2f2b3  # and x5, x5, x12
    .word 0x00b57333  # and x6, x10, x11
    .word 0x0062e2b3  # or x5, x5, x6
    .word 0x00d282b3  # add x5, x5, x13
    .word 0x00571f13  # slli x30, x14, 5
    .word 0x01b75313  # srli x6, x14, 27
    .word 0x006f0333  # add x6, x30, x6
    .word 0x006282b3  # add x5, x5, x6
    .word 0x00f282b3  # add x5, x5, x15
    .word 0x011286b3  # add x13, x5, x17
    .word 0x01e51f13  # slli x30, x10, 30
    .word 0x00255513  # srli x10, x10, 2
    .word 0x00af0533  # add x10, x30, x10
    .word 0x00a762b3  # or x5, x14, x10
    .word 0x00b2f2b3  # and x5, x5, x11
    .word 0x00a77333  # and x6, x14, x10
    .word 0x0062e2b3  # or x5, x5, x6
    .word 0x00c282b3  # add x5, x5, x12
    .word 0x00569f13  # slli x30, x13, 5
    .word 0x01b6d313  # srli x6, x13, 27
    .word 0x006f0333  # add x6, x30, x6
    .word 0x006282b3  # add x5, x5, x6
    .word 0x00f282b3  # add x5, x5, x15
    .word 0x01228633  # add x12, x5, x18
    .word 0x01e71f13  # slli x30, x14, 30
    .word 0x00275713  # srli x14, x14, 2
    .word 0x00ef0733  # add x14, x30, x14
    .word 0x00e6e2b3  # or x5, x13, x14
    .word 0x00a2f2b3  # and x5, x5, x10
    .word 0x00e6f333  # and x6, x13, x14
    .word 0x0062e2b3  # or x5, x5, x6
    .word 0x00b282b3  # add x5, x5, x11
    .word 0x00561f13  # slli x30, x12, 5
    .word 0x01b65313  # srli x6, x12, 27
    .word 0x006f0333  # add x6, x30, x6
    .word 0x006282b3  # add x5, x5, x6
    .word 0x00f282b3  # add x5, x5, x15
    .word 0x013285b3  # add x11, x5, x19
    .word 0x01e69f13  # slli x30, x13, 30
    .word 0x0026d693  # srli x13, x13, 2
    .word 0x00df06b3  # add x13, x30, x13
    .word 0x00d662b3  # or x5, x12, x13
    .word 0x00e2f2b3  # and x5, x5, x14
    .word 0x00d67333  # and x6, x12, x13
    .word 0x0062e2b3  # or x5, x5, x6
    .word 0x00a282b3  # add x5, x5, x10
    .word 0x00559f13  # slli x30, x11, 5
    .word 0x01b5d313  # srli x6, x11, 27
    .word 0x006f0333  # add x6, x30, x6
    .word 0x006282b3  # add x5, x5, x6
    .word 0x00f282b3  # add x5, x5, x15
    .word 0x01428533  # add x10, x5, x20
    .word 0x01e61f13  # slli x30, x12, 30
    .word 0x00265613  # srli x12, x12, 2
    .word 0x00cf0633  # add x12, x30, x12
    .word 0x00c5e2b3  # or x5, x11, x12
    .word 0x00d2f2b3  # and x5, x5, x13
    .word 0x00c5f333  # and x6, x11, x12
    .word 0x0062e2b3  # or x5, x5, x6
    .word 0x00e282b3  # add x5, x5, x14
    .word 0x00551f13  # slli x30, x10, 5
    .word 0x01b55313  # srli x6, x10, 27
    .word 0x006f0333  # add x6, x30, x6
    .word 0x006282b3  # add x5, x5, x6
    .word 0x00f282b3  # add x5, x5, x15
    .word 0x01528733  # add x14, x5, x21
    .word 0x01e59f13  # slli x30, x11, 30
    .word 0x0025d593  # srli x11, x11, 2
    .word 0x00bf05b3  # add x11, x30, x11
    .word 0x00b562b3  # or x5, x10, x11
    .word 0x00c2f2b3  # and x5, x5, x12
    .word 0x00b57333  # and x6, x10, x11
    .word 0x0062e2b3  # or x5, x5, x6
    .word 0x00d282b3  # add x5, x5, x13
    .word 0x00571f13  # slli x30, x14, 5
    .word 0x01b75313  # srli x6, x14, 27
    .word 0x006f0333  # add x6, x30, x6
    .word 0x006282b3  # add x5, x5, x6
    .word 0x00f282b3  # add x5, x5, x15
    .word 0x016286b3  # add x13, x5, x22
    .word 0x01e51f13  # slli x30, x10, 30
    .word 0x00255513  # srli x10, x10, 2
    .word 0x00af0533  # add x10, x30, x10
    .word 0x00a762b3  # or x5, x14, x10
    .word 0x00b2f2b3  # and x5, x5, x11
    .word 0x00a77333  # and x6, x14, x10
    .word 0x0062e2b3  # or x5, x5, x6
    .word 0x00c282b3  # add x5, x5, x12
    .word 0x00569f13  # slli x30, x13, 5
    .word 0x01b6d313  # srli x6, x13, 27
    .word 0x006f0333  # add x6, x30, x6
    .word 0x006282b3  # add x5, x5, x6
    .word 0x00f282b3  # add x5, x5, x15
    .word 0x01728633  # add x12, x5, x23
    .word 0x01e71f13  # slli x30, x14, 30
    .word 0x00275713  # srli x14, x14, 2
    .word 0x00ef0733  # add x14, x30, x14
    .word 0x00e6e2b3  # or x5, x13, x14
    .word 0x00a2f2b3  # and x5, x5, x10
    .word 0x00e6f333  # and x6, x13, x14
    .word 0x0062e2b3  # or x5, x5, x6
    .word 0x00b282b3  # add x5, x5, x11
    .word 0x00561f13  # slli x30, x12, 5
    .word 0x01b65313  # srli x6, x12, 27
    .word 0x006f0333  # add x6, x30, x6
    .word 0x006282b3  # add x5, x5, x6
    .word 0x00f282b3  # add x5, x5, x15
    .word 0x018285b3  # add x11, x5, x24
    .word 0x01e69f13  # slli x30, x13, 30
    .word 0x0026d693  # srli x13, x13, 2
    .word 0x00df06b3  # add x13, x30, x13
    .word 0x00d662b3  # or x5, x12, x13
    .word 0x00e2f2b3  # and x5, x5, x14
    .word 0x00d67333  # and x6, x12, x13
    .word 0x0062e2b3  # or x5, x5, x6
    .word 0x00a282b3  # add x5, x5, x10
    .word 0x00559f13  # slli x30, x11, 5
    .word 0x01b5d313  # srli x6, x11, 27
    .word 0x006f0333  # add x6, x30, x6
    .word 0x006282b3  # add x5, x5, x6
    .word 0x00f282b3  # add x5, x5, x15
    .word 0x01928533  # add x10, x5, x25
    .word 0x01e61f13  # slli x30, x12, 30
    .word 0x00265613  # srli x12, x12, 2
    .word 0x00cf0633  # add x12, x30, x12
    .word 0x00c5e2b3  # or x5, x11, x12
    .word 0x00d2f2b3  # and x5, x5, x13
    .word 0x00c5f333  # and x6, x11, x12
    .word 0x0062e2b3  # or x5, x5, x6
    .word 0x00e282b3  # add x5, x5, x14
    .word 0x00551f13  # slli x30, x10, 5
    .word 0x01b55313  # srli x6, x10, 27
    .word 0x006f0333  # add x6, x30, x6
    .word 0x006282b3  # add x5, x5, x6
    .word 0x00f282b3  # add x5, x5, x15
    .word 0x01a28733  # add x14, x5, x26
    .word 0x01e59f13  # slli x30, x11, 30
    .word 0x0025d593  # srli x11, x11, 2
    .word 0x00bf05b3  # add x11, x30, x11
    .word 0x00b562b3  # or x5, x10, x11
    .word 0x00c2f2b3  # and x5, x5, x12
    .word 0x00b57333  # and x6, x10, x11
    .word 0x0062e2b3  # or x5, x5, x6
    .word 0x00d282b3  # add x5, x5, x13
    .word 0x00571f13  # slli x30, x14, 5
    .word 0x01b75313  # srli x6, x14, 27
    .word 0x006f0333  # add x6, x30, x6
    .word 0x006282b3  # add x5, x5, x6
    .word 0x00f282b3  # add x5, x5, x15
    .word 0x01b286b3  # add x13, x5, x27
    .word 0x01e51f13  # slli x30, x10, 30
    .word 0x00255513  # srli x10, x10, 2
    .word 0x00af0533  # add x10, x30, x10
    .word 0x00a762b3  # or x5, x14, x10
    .word 0x00b2f2b3  # and x5, x5, x11
    .word 0x00a77333  # and x6, x14, x10
    .word 0x0062e2b3  # or x5, x5, x6
    .word 0x00c282b3  # add x5, x5, x12
    .word 0x00569f13  # slli x30, x13, 5
    .word 0x01b6d313  # srli x6, x13, 27
    .word 0x006f0333  # add x6, x30, x6
    .word 0x006282b3  # add x5, x5, x6
    .word 0x00f282b3  # add x5, x5, x15
    .word 0x00828633  # add x12, x5, x8
    .word 0x01e71f13  # slli x30, x14, 30
    .word 0x00275713  # srli x14, x14, 2
    .word 0x00ef0733  # add x14, x30, x14
    .word 0x00e6e2b3  # or x5, x13, x14
    .word 0x00a2f2b3  # and x5, x5, x10
    .word 0x00e6f333  # and x6, x13, x14
    .word 0x0062e2b3  # or x5, x5, x6
    .word 0x00b282b3  # add x5, x5, x11
    .word 0x00561f13  # slli x30, x12, 5
    .word 0x01b65313  # srli x6, x12, 27
    .word 0x006f0333  # add x6, x30, x6
    .word 0x006282b3  # add x5, x5, x6
    .word 0x00f282b3  # add x5, x5, x15
    .word 0x009285b3  # add x11, x5, x9
    .word 0x01e69f13  # slli x30, x13, 30
    .word 0x0026d693  # srli x13, x13, 2
    .word 0x00df06b3  # add x13, x30, x13
    .word 0x00d662b3  # or x5, x12, x13
    .word 0x00e2f2b3  # and x5, x5, x14
    .word 0x00d67333  # and x6, x12, x13
    .word 0x0062e2b3  # or x5, x5, x6
    .word 0x00a282b3  # add x5, x5, x10
    .word 0x00559f13  # slli x30, x11, 5
    .word 0x01b5d313  # srli x6, x11, 27
    .word 0x006f0333  # add x6, x30, x6
    .word 0x006282b3  # add x5, x5, x6
    .word 0x00f282b3  # add x5, x5, x15
    .word 0x05812303  # lw x6, 88(x2)
    .word 0x00628533  # add x10, x5, x6
    .word 0x01e61f13  # slli x30, x12, 30
    .word 0x00265613  # srli x12, x12, 2
    .word 0x00cf0633  # add x12, x30, x12
    .word 0x00c5e2b3  # or x5, x11, x12
    .word 0x00d2f2b3  # and x5, x5, x13
    .word 0x00c5f333  # and x6, x11, x12
    .word 0x0062e2b3  # or x5, x5, x6
    .word 0x00e282b3  # add x5, x5, x14
    .word 0x00551f13  # slli x30, x10, 5
    .word 0x01b55313  # srli x6, x10, 27
    .word 0x006f0333  # add x6, x30, x6
    .word 0x006282b3  # add x5, x5, x6
    .word 0x00f282b3  # add x5, x5, x15
    .word 0x05c12303  # lw x6, 92(x2)
    .word 0x00628733  # add x14, x5, x6
    .word 0x01e59f13  # slli x30, x11, 30
    .word 0x0025d593  # srli x11, x11, 2
    .word 0x00bf05b3  # add x11, x30, x11
    .word 0x00b562b3  # or x5, x10, x11
    .word 0x00c2f2b3  # and x5, x5, x12
    .word 0x00b57333  # and x6, x10, x11
    .word 0x0062e2b3  # or x5, x5, x6
    .word 0x00d282b3  # add x5, x5, x13
    .word 0x00571f13  # slli x30, x14, 5
    .word 0x01b75313  # srli x6, x14, 27
    .word 0x006f0333  # add x6, x30, x6
    .word 0x006282b3  # add x5, x5, x6
    .word 0x00f282b3  # add x5, x5, x15
    .word 0x06012303  # lw x6, 96(x2)
    .word 0x006286b3  # add x13, x5, x6
    .word 0x01e51f13  # slli x30, x10, 30
    .word 0x00255513  # srli x10, x10, 2
    .word 0x00af0533  # add x10, x30, x10
    .word 0x00a762b3  # or x5, x14, x10
    .word 0x00b2f2b3  # and x5, x5, x11
    .word 0x00a77333  # and x6, x14, x10
    .word 0x0062e2b3  # or x5, x5, x6
    .word 0x00c282b3  # add x5, x5, x12
    .word 0x00569f13  # slli x30, x13, 5
    .word 0x01b6d313  # srli x6, x13, 27
    .word 0x006f0333  # add x6, x30, x6
    .word 0x006282b3  # add x5, x5, x6
    .word 0x00f282b3  # add x5, x5, x15
    .word 0x06412303  # lw x6, 100(x2)
    .word 0x00628633  # add x12, x5, x6
    .word 0x01e71f13  # slli x30, x14, 30
    .word 0x00275713  # srli x14, x14, 2
    .word 0x00ef0733  # add x14, x30, x14
    .word 0x00e6e2b3  # or x5, x13, x14
    .word 0x00a2f2b3  # and x5, x5, x10
    .word 0x00e6f333  # and x6, x13, x14
    .word 0x0062e2b3  # or x5, x5, x6
    .word 0x00b282b3  # add x5, x5, x11
    .word 0x00561f13  # slli x30, x12, 5
    .word 0x01b65313  # srli x6, x12, 27
    .word 0x006f0333  # add x6, x30, x6
    .word 0x006282b3  # add x5, x5, x6
    .word 0x00f282b3  # add x5, x5, x15
    .word 0x06812303  # lw x6, 104(x2)
    .word 0x006285b3  # add x11, x5, x6
    .word 0x01e69f13  # slli x30, x13, 30
    .word 0x0026d693  # srli x13, x13, 2
    .word 0x00df06b3  # add x13, x30, x13
    .word 0x00d662b3  # or x5, x12, x13
    .word 0x00e2f2b3  # and x5, x5, x14
    .word 0x00d67333  # and x6, x12, x13
    .word 0x0062e2b3  # or x5, x5, x6
    .word 0x00a282b3  # add x5, x5, x10
    .word 0x00559f13  # slli x30, x11, 5
    .word 0x01b5d313  # srli x6, x11, 27
    .word 0x006f0333  # add x6, x30, x6
    .word 0x006282b3  # add x5, x5, x6
    .word 0x00f282b3  # add x5, x5, x15
    .word 0x06c12303  # lw x6, 108(x2)
    .word 0x00628533  # add x10, x5, x6
    .word 0x01e61f13  # slli x30, x12, 30
    .word 0x00265613  # srli x12, x12, 2
    .word 0x00cf0633  # add x12, x30, x12
    .word 0x07412783  # lw x15, 116(x2)
    .word 0x3e00006f  # jal x0, 992
    .word 0x00c5c2b3  # xor x5, x11, x12
    .word 0x00d2c2b3  # xor x5, x5, x13
    .word 0x00e282b3  # add x5, x5, x14
    .word 0x00551f13  # slli x30, x10, 5
    .word 0x01b55313  # srli x6, x10, 27
    .word 0x006f0333  # add x6, x30, x6
    .word 0x006282b3  # add x5, x5, x6
    .word 0x00f282b3  # add x5, x5, x15
    .word 0x01028733  # add x14, x5, x16
    .word 0x01e59f13  # slli x30, x11, 30
    .word 0x0025d593  # srli x11, x11, 2
    .word 0x00bf05b3  # add x11, x30, x11
    .word 0x00b542b3  # xor x5, x10, x11
    .word 0x00c2c2b3  # xor x5, x5, x12
    .word 0x00d282b3  # add x5, x5, x13
    .word 0x00571f13  # slli x30, x14, 5
    .word 0x01b75313  # srli x6, x14, 27
    .word 0x006f0333  # add x6, x30, x6
    .word 0x006282b3  # add x5, x5, x6
    .word 0x00f282b3  # add x5, x5, x15
    .word 0x011286b3  # add x13, x5, x17
    .word 0x01e51f13  # slli x30, x10, 30
    .word 0x00255513  # srli x10, x10, 2
    .word 0x00af0533  # add x10, x30, x10
    .word 0x00a742b3  # xor x5, x14, x10
    .word 0x00b2c2b3  # xor x5, x5, x11
    .word 0x00c282b3  # add x5, x5, x12
    .word 0x00569f13  # slli x30, x13, 5
    .word 0x01b6d313  # srli x6, x13, 27
    .word 0x006f0333  # add x6, x30, x6
    .word 0x006282b3  # add x5, x5, x6
    .word 0x00f282b3  # add x5, x5, x15
    .word 0x01228633  # add x12, x5, x18
    .word 0x01e71f13  # slli x30, x14, 30
    .word 0x00275713  # srli x14, x14, 2
    .word 0x00ef0733  # add x14, x30, x14
    .word 0x00e6c2b3  # xor x5, x13, x14
    .word 0x00a2c2b3  # xor x5, x5, x10
    .word 0x00b282b3  # add x5, x5, x11
    .word 0x00561f13  # slli x30, x12, 5
    .word 0x01b65313  # srli x6, x12, 27
    .word 0x006f0333  # add x6, x30, x6
    .word 0x006282b3  # add x5, x5, x6
    .word 0x00f282b3  # add x5, x5, x15
    .word 0x013285b3  # add x11, x5, x19
    .word 0x01e69f13  # slli x30, x13, 30
    .word 0x0026d693  # srli x13, x13, 2
    .word 0x00df06b3  # add x13, x30, x13
    .word 0x00d642b3  # xor x5, x12, x13
    .word 0x00e2c2b3  # xor x5, x5, x14
    .word 0x00a282b3  # add x5, x5, x10
    .word 0x00559f13  # slli x30, x11, 5
    .word 0x01b5d313  # srli x6, x11, 27
    .word 0x006f0333  # add x6, x30, x6
    .word 0x006282b3  # add x5, x5, x6
    .word 0x00f282b3  # add x5, x5, x15
    .word 0x01428533  # add x10, x5, x20
    .word 0x01e61f13  # slli x30, x12, 30
    .word 0x00265613  # srli x12, x12, 2
    .word 0x00cf0633  # add x12, x30, x12
    .word 0x00c5c2b3  # xor x5, x11, x12
    .word 0x00d2c2b3  # xor x5, x5, x13
    .word 0x00e282b3  # add x5, x5, x14
    .word 0x00551f13  # slli x30, x10, 5
    .word 0x01b55313  # srli x6, x10, 27
    .word 0x006f0333  # add x6, x30, x6
    .word 0x006282b3  # add x5, x5, x6
    .word 0x00f282b3  # add x5, x5, x15
    .word 0x01528733  # add x14, x5, x21
    .word 0x01e59f13  # slli x30, x11, 30
    .word 0x0025d593  # srli x11, x11, 2
    .word 0x00bf05b3  # add x11, x30, x11
    .word 0x00b542b3  # xor x5, x10, x11
    .word 0x00c2c2b3  # xor x5, x5, x12
    .word 0x00d282b3  # add x5, x5, x13
    .word 0x00571f13  # slli x30, x14, 5
    .word 0x01b75313  # srli x6, x14, 27
    .word 0x006f0333  # add x6, x30, x6
    .word 0x006282b3  # add x5, x5, x6
    .word 0x00f282b3  # add x5, x5, x15
    .word 0x016286b3  # add x13, x5, x22
    .word 0x01e51f13  # slli x30, x10, 30
    .word 0x00255513  # srli x10, x10, 2
    .word 0x00af0533  # add x10, x30, x10
    .word 0x00a742b3  # xor x5, x14, x10
    .word 0x00b2c2b3  # xor x5, x5, x11
    .word 0x00c282b3  # add x5, x5, x12
    .word 0x00569f13  # slli x30, x13, 5
    .word 0x01b6d313  # srli x6, x13, 27
    .word 0x006f0333  # add x6, x30, x6
    .word 0x006282b3  # add x5, x5, x6
    .word 0x00f282b3  # add x5, x5, x15
    .word 0x01728633  # add x12, x5, x23
    .word 0x01e71f13  # slli x30, x14, 30
    .word 0x00275713  # srli x14, x14, 2
    .word 0x00ef0733  # add x14, x30, x14
    .word 0x00e6c2b3  # xor x5, x13, x14
    .word 0x00a2c2b3  # xor x5, x5, x10
    .word 0x00b282b3  # add x5, x5, x11
    .word 0x00561f13  # slli x30, x12, 5
    .word 0x01b65313  # srli x6, x12, 27
    .word 0x006f0333  # add x6, x30, x6
    .word 0x006282b3  # add x5, x5, x6
    .word 0x00f282b3  # add x5, x5, x15
    .word 0x018285b3  # add x11, x5, x24
    .word 0x01e69f13  # slli x30, x13, 30
    .word 0x0026d693  # srli x13, x13, 2
    .word 0x00df06b3  # add x13, x30, x13
    .word 0x00d642b3  # xor x5, x12, x13
    .word 0x00e2c2b3  # xor x5, x5, x14
    .word 0x00a282b3  # add x5, x5, x10
    .word 0x00559f13  # slli x30, x11, 5
    .word 0x01b5d313  # srli x6, x11, 27
    .word 0x006f0333  # add x6, x30, x6
    .word 0x006282b3  # add x5, x5, x6
    .word 0x00f282b3  # add x5, x5, x15
    .word 0x01928533  # add x10, x5, x25
    .word 0x01e61f13  # slli x30, x12, 30
    .word 0x00265613  # srli x12, x12, 2
    .word 0x00cf0633  # add x12, x30, x12
    .word 0x00c5c2b3  # xor x5, x11, x12
    .word 0x00d2c2b3  # xor x5, x5, x13
    .word 0x00e282b3  # add x5, x5, x14
    .word 0x00551f13  # slli x30, x10, 5
    .word 0x01b55313  # srli x6, x10, 27
    .word 0x006f0333  # add x6, x30, x6
    .word 0x006282b3  # add x5, x5, x6
    .word 0x00f282b3  # add x5, x5, x15
    .word 0x01a28733  # add x14, x5, x26
    .word 0x01e59f13  # slli x30, x11, 30
    .word 0x0025d593  # srli x11, x11, 2
    .word 0x00bf05b3  # add x11, x30, x11
    .word 0x00b542b3  # xor x5, x10, x11
    .word 0x00c2c2b3  # xor x5, x5, x12
    .word 0x00d282b3  # add x5, x5, x13
    .word 0x00571f13  # slli x30, x14, 5
    .word 0x01b75313  # srli x6, x14, 27
    .word 0x006f0333  # add x6, x30, x6
    .word 0x006282b3  # add x5, x5, x6
    .word 0x00f282b3  # add x5, x5, x15
    .word 0x01b286b3  # add x13, x5, x27
    .word 0x01e51f13  # slli x30, x10, 30
    .word 0x00255513  # srli x10, x10, 2
    .word 0x00af0533  # add x10, x30, x10
    .word 0x00a742b3  # xor x5, x14, x10
    .word 0x00b2c2b3  # xor x5, x5, x11
    .word 0x00c282b3  # add x5, x5, x12
    .word 0x00569f13  # slli x30, x13, 5
    .word 0x01b6d313  # srli x6, x13, 27
    .word 0x006f0333  # add x6, x30, x6
    .word 0x006282b3  # add x5, x5, x6
    .word 0x00f282b3  # add x5, x5, x15
    .word 0x00828633  # add x12, x5, x8
    .word 0x01e71f13  # slli x30, x14, 30
    .word 0x00275713  # srli x14, x14, 2
    .word 0x00ef0733  # add x14, x30, x14
    .word 0x00e6c2b3  # xor x5, x13, x14
    .word 0x00a2c2b3  # xor x5, x5, x10
    .word 0x00b282b3  # add x5, x5, x11
    .word 0x00561f13  # slli x30, x12, 5
    .word 0x01b65313  # srli x6, x12, 27
    .word 0x006f0333  # add x6, x30, x6
    .word 0x006282b3  # add x5, x5, x6
    .word 0x00f282b3  # add x5, x5, x15
    .word 0x009285b3  # add x11, x5, x9
    .word 0x01e69f13  # slli x30, x13, 30
    .word 0x0026d693  # srli x13, x13, 2
    .word 0x00df06b3  # add x13, x30, x13
    .word 0x00d642b3  # xor x5, x12, x13
    .word 0x00e2c2b3  # xor x5, x5, x14
    .word 0x00a282b3  # add x5, x5, x10
    .word 0x00559f13  # slli x30, x11, 5
    .word 0x01b5d313  # srli x6, x11, 27
    .word 0x006f0333  # add x6, x30, x6
    .word 0x006282b3  # add x5, x5, x6
    .word 0x00f282b3  # add x5, x5, x15
    .word 0x05812303  # lw x6, 88(x2)
    .word 0x00628533  # add x10, x5, x6
    .word 0x01e61f13  # slli x30, x12, 30
    .word 0x00265613  # srli x12, x12, 2
    .word 0x00cf0633  # add x12, x30, x12
    .word 0x00c5c2b3  # xor x5, x11, x12
    .word 0x00d2c2b3  # xor x5, x5, x13
    .word 0x00e282b3  # add x5, x5, x14
    .word 0x00551f13  # slli x30, x10, 5
    .word 0x01b55313  # srli x6, x10, 27
    .word 0x006f0333  # add x6, x30, x6
    .word 0x006282b3  # add x5, x5, x6
    .word 0x00f282b3  # add x5, x5, x15
    .word 0x05c12303  # lw x6, 92(x2)
    .word 0x00628733  # add x14, x5, x6
    .word 0x01e59f13  # slli x30, x11, 30
    .word 0x0025d593  # srli x11, x11, 2
    .word 0x00bf05b3  # add x11, x30, x11
    .word 0x00b542b3  # xor x5, x10, x11
    .word 0x00c2c2b3  # xor x5, x5, x12
    .word 0x00d282b3  # add x5, x5, x13
    .word 0x00571f13  # slli x30, x14, 5
    .word 0x01b75313  # srli x6, x14, 27
    .word 0x006f0333  # add x6, x30, x6
    .word 0x006282b3  # add x5, x5, x6
    .word 0x00f282b3  # add x5, x5, x15
    .word 0x06012303  # lw x6, 96(x2)
    .word 0x006286b3  # add x13, x5, x6
    .word 0x01e51f13  # slli x30, x10, 30
    .word 0x00255513  # srli x10, x10, 2
    .word 0x00af0533  # add x10, x30, x10
    .word 0x00a742b3  # xor x5, x14, x10
    .word 0x00b2c2b3  # xor x5, x5, x11
    .word 0x00c282b3  # add x5, x5, x12
    .word 0x00569f13  # slli x30, x13, 5
    .word 0x01b6d313  # srli x6, x13, 27
    .word 0x006f0333  # add x6, x30, x6
    .word 0x006282b3  # add x5, x5, x6
    .word 0x00f282b3  # add x5, x5, x15
    .word 0x06412303  # lw x6, 100(x2)
    .word 0x00628633  # add x12, x5, x6
    .word 0x01e71f13  # slli x30, x14, 30
    .word 0x00275713  # srli x14, x14, 2
    .word 0x00ef0733  # add x14, x30, x14
    .word 0x00e6c2b3  # xor x5, x13, x14
    .word 0x00a2c2b3  # xor x5, x5, x10
    .word 0x00b282b3  # add x5, x5, x11
    .word 0x00561f13  # slli x30, x12, 5
    .word 0x01b65313  # srli x6, x12, 27
    .word 0x006f0333  # add x6, x30, x6
    .word 0x006282b3  # add x5, x5, x6
    .word 0x00f282b3  # add x5, x5, x15
    .word 0x06812303  # lw x6, 104(x2)
    .word 0x006285b3  # add x11, x5, x6
    .word 0x01e69f13  # slli x30, x13, 30
    .word 0x0026d693  # srli x13, x13, 2
    .word 0x00df06b3  # add x13, x30, x13
    .word 0x00d642b3  # xor x5, x12, x13
    .word 0x00e2c2b3  # xor x5, x5, x14
    .word 0x00a282b3  # add x5, x5, x10
    .word 0x00559f13  # slli x30, x11, 5
    .word 0x01b5d313  # srli x6, x11, 27
    .word 0x006f0333  # add x6, x30, x6
    .word 0x006282b3  # add x5, x5, x6
    .word 0x00f282b3  # add x5, x5, x15
    .word 0x06c12303  # lw x6, 108(x2)
    .word 0x00628533  # add x10, x5, x6
    .word 0x01e61f13  # slli x30, x12, 30
    .word 0x00265613  # srli x12, x12, 2
    .word 0x00cf0633  # add x12, x30, x12
    .word 0x07812783  # lw x15, 120(x2)
    .word 0x8e0ff06f  # jal x0, -3872
    .word 0x00012283  # lw x5, 0(x2)
    .word 0x00a282b3  # add x5, x5, x10
    .word 0x00512023  # sw x5, 0(x2)
    .word 0x00412283  # lw x5, 4(x2)
    .word 0x00b282b3  # add x5, x5, x11
    .word 0x00512223  # sw x5, 4(x2)
    .word 0x00812283  # lw x5, 8(x2)
    .word 0x00c282b3  # add x5, x5, x12
    .word 0x00512423  # sw x5, 8(x2)
    .word 0x00c12283  # lw x5, 12(x2)
    .word 0x00d282b3  # add x5, x5, x13
    .word 0x00512623  # sw x5, 12(x2)
    .word 0x01012283  # lw x5, 16(x2)
    .word 0x00e282b3  # add x5, x5, x14
    .word 0x00512823  # sw x5, 16(x2)
    # the result
    .word 0x00000513  # addi x10, x0, 0
    # parameter 0: the array, back
    .word 0x00010293  # addi x5, x2, 0
    .word 0x0cc12303  # lw x6, 204(x2)
    .word 0x01028393  # addi x7, x5, 16
    .word 0x09800f6f  # jal x30, 152
    .word 0x0002ae03  # lw x28, 0(x5)
    .word 0x01c32023  # sw x28, 0(x6)
    # above the frame
    .word 0x09010293  # addi x5, x2, 144
    # the caller's registers
    .word 0x0002a403  # lw x8, 0(x5)
    .cfi_restore 8
    .word 0x0042a483  # lw x9, 4(x5)
    .cfi_restore 9
    .word 0x0082a903  # lw x18, 8(x5)
    .cfi_restore 18
    .word 0x00c2a983  # lw x19, 12(x5)
    .cfi_restore 19
    .word 0x0102aa03  # lw x20, 16(x5)
    .cfi_restore 20
    .word 0x0142aa83  # lw x21, 20(x5)
    .cfi_restore 21
    .word 0x0182ab03  # lw x22, 24(x5)
    .cfi_restore 22
    .word 0x01c2ab83  # lw x23, 28(x5)
    .cfi_restore 23
    .word 0x0202ac03  # lw x24, 32(x5)
    .cfi_restore 24
    .word 0x0242ac83  # lw x25, 36(x5)
    .cfi_restore 25
    .word 0x0282ad03  # lw x26, 40(x5)
    .cfi_restore 26
    .word 0x02c2ad83  # lw x27, 44(x5)
    .cfi_restore 27
    # the caller's x2
    .word 0x04028293  # addi x5, x5, 64
    .cfi_def_cfa 5, 0
    # all the room, wiped upward
    .word 0x00012023  # sw x0, 0(x2)
    .word 0x00012223  # sw x0, 4(x2)
    .word 0x00012423  # sw x0, 8(x2)
    .word 0x00012623  # sw x0, 12(x2)
    .word 0x01010113  # addi x2, x2, 16
    .word 0xfe5116e3  # bne x2, x5, -20
    .cfi_def_cfa 2, 0
    # temporaries, wiped
    .word 0x00000293  # addi x5, x0, 0
    .word 0x00000313  # addi x6, x0, 0
    .word 0x00000393  # addi x7, x0, 0
    .word 0x00000593  # addi x11, x0, 0
    .word 0x00000613  # addi x12, x0, 0
    .word 0x00000693  # addi x13, x0, 0
    .word 0x00000713  # addi x14, x0, 0
    .word 0x00000793  # addi x15, x0, 0
    .word 0x00000813  # addi x16, x0, 0
    .word 0x00000893  # addi x17, x0, 0
    .word 0x00000e13  # addi x28, x0, 0
    .word 0x00000e93  # addi x29, x0, 0
    .word 0x00000f13  # addi x30, x0, 0
    .word 0x00000f93  # addi x31, x0, 0
    # back
    .word 0x00008067  # jalr x0, 0(x1)
    # from x5 to x6 up to x7, and back
    .cfi_def_cfa 2, 208
    .cfi_offset 8, -64
    .cfi_offset 9, -60
    .cfi_offset 18, -56
    .cfi_offset 19, -52
    .cfi_offset 20, -48
    .cfi_offset 21, -44
    .cfi_offset 22, -40
    .cfi_offset 23, -36
    .cfi_offset 24, -32
    .cfi_offset 25, -28
    .cfi_offset 26, -24
    .cfi_offset 27, -20
    .word 0x0062ee33  # or x28, x5, x6
    .word 0x003e7e13  # andi x28, x28, 3
    .word 0x000e0e63  # beq x28, x0, 28
    .word 0x0002ce03  # lbu x28, 0(x5)
    .word 0x01c30023  # sb x28, 0(x6)
    .word 0x00128293  # addi x5, x5, 1
    .word 0x00130313  # addi x6, x6, 1
    .word 0xfe7298e3  # bne x5, x7, -16
    .word 0x0300006f  # jal x0, 48
    .word 0x0002ae03  # lw x28, 0(x5)
    .word 0x01c32023  # sw x28, 0(x6)
    .word 0x0042ae03  # lw x28, 4(x5)
    .word 0x01c32223  # sw x28, 4(x6)
    .word 0x0082ae03  # lw x28, 8(x5)
    .word 0x01c32423  # sw x28, 8(x6)
    .word 0x00c2ae03  # lw x28, 12(x5)
    .word 0x01c32623  # sw x28, 12(x6)
    .word 0x01028293  # addi x5, x5, 16
    .word 0x01030313  # addi x6, x6, 16
    .word 0xfc729ce3  # bne x5, x7, -40
    .word 0x000f0067  # jalr x0, 0(x30)
    .cfi_endproc
    .size sha1_block, . - sha1_block
    .option pop
