# aes256_expand: made by factc 1.0.0 function; 460 words and 21 shared, 720 bytes of stack, profile 1
    .option push
    .option norvc
    .option norelax
    .cfi_sections .debug_frame
    .section .text.aes256_expand, "ax", @progbits
    .p2align 2
    .globl aes256_expand
    .type aes256_expand, @function
aes256_expand:
    .cfi_startproc
    # room above the frame
    .word 0xfc010113  # addi x2, x2, -64
    .cfi_def_cfa_offset 64
    # the caller's registers
    .word 0x00812023  # sw x8, 0(x2)
    .cfi_offset 8, -64
    .word 0x00912223  # sw x9, 4(x2)
    .cfi_offset 9, -60
    .word 0x01212423  # sw x18, 8(x2)
    .cfi_offset 18, -56
    .word 0x01312623  # sw x19, 12(x2)
    .cfi_offset 19, -52
    .word 0x01412823  # sw x20, 16(x2)
    .cfi_offset 20, -48
    .word 0x01512a23  # sw x21, 20(x2)
    .cfi_offset 21, -44
    .word 0x01612c23  # sw x22, 24(x2)
    .cfi_offset 22, -40
    .word 0x01712e23  # sw x23, 28(x2)
    .cfi_offset 23, -36
    .word 0x03812023  # sw x24, 32(x2)
    .cfi_offset 24, -32
    .word 0x03912223  # sw x25, 36(x2)
    .cfi_offset 25, -28
    .word 0x03a12423  # sw x26, 40(x2)
    .cfi_offset 26, -24
    .word 0x03b12623  # sw x27, 44(x2)
    .cfi_offset 27, -20
    # arguments that are needed behind the body
    .word 0x02a12c23  # sw x10, 56(x2)
    .word 0x02b12e23  # sw x11, 60(x2)
    # the frame's base
    .word 0xd7010113  # addi x2, x2, -656
    .cfi_def_cfa 2, 720
    # parameter 0: an array
    .word 0x00050293  # addi x5, x10, 0
    .word 0x00010313  # addi x6, x2, 0
    .word 0x02028393  # addi x7, x5, 32
    .word 0x0002ce03  # lbu x28, 0(x5)
    .word 0x01c30023  # sb x28, 0(x6)
    .word 0x00128293  # addi x5, x5, 1
    .word 0x00130313  # addi x6, x6, 1
    .word 0xfe7298e3  # bne x5, x7, -16
    # the body
    .word 0x555552b7  # lui x5, 0x55555
    .word 0x55528293  # addi x5, x5, 1365
    .word 0x24512e23  # sw x5, 604(x2)
    .word 0x333332b7  # lui x5, 0x33333
    .word 0x33328293  # addi x5, x5, 819
    .word 0x26512023  # sw x5, 608(x2)
    .word 0x0f0f12b7  # lui x5, 0x0f0f1
    .word 0xf0f28293  # addi x5, x5, -241
    .word 0x26512223  # sw x5, 612(x2)
    .word 0x03030db7  # lui x27, 0x03030
    .word 0x303d8d93  # addi x27, x27, 771
    .word 0xfcfd02b7  # lui x5, 0xfcfd0
    .word 0xcfc28293  # addi x5, x5, -772
    .word 0x26512423  # sw x5, 616(x2)
    .word 0xf0f0f2b7  # lui x5, 0xf0f0f
    .word 0x0f028293  # addi x5, x5, 240
    .word 0x26512623  # sw x5, 620(x2)
    .word 0x20000313  # addi x6, x0, 512
    .word 0x00230333  # add x6, x6, x2
    .word 0x02000393  # addi x7, x0, 32
    .word 0x006383b3  # add x7, x7, x6
    .word 0x406382b3  # sub x5, x7, x6
    .word 0x00029463  # bne x5, x0, 8
    .word 0x0100006f  # jal x0, 16
    .word 0x00032023  # sw x0, 0(x6)
    .word 0x00430313  # addi x6, x6, 4
    .word 0xfedff06f  # jal x0, -20
    .word 0xfff00c93  # addi x25, x0, -1
    .word 0x001c8c93  # addi x25, x25, 1
    .word 0xfff00513  # addi x10, x0, -1
    .word 0x00150513  # addi x10, x10, 1
    .word 0x00251493  # slli x9, x10, 2
    .word 0x002484b3  # add x9, x9, x2
    .word 0x004c9293  # slli x5, x25, 4
    .word 0x00251313  # slli x6, x10, 2
    .word 0x006285b3  # add x11, x5, x6
    .word 0x00151293  # slli x5, x10, 1
    .word 0x00258333  # add x6, x11, x2
    .word 0x00034303  # lbu x6, 0(x6)
    .word 0x002583b3  # add x7, x11, x2
    .word 0x0013c383  # lbu x7, 1(x7)
    .word 0x00839393  # slli x7, x7, 8
    .word 0x00736333  # or x6, x6, x7
    .word 0x002583b3  # add x7, x11, x2
    .word 0x0023c383  # lbu x7, 2(x7)
    .word 0x01039393  # slli x7, x7, 16
    .word 0x00736333  # or x6, x6, x7
    .word 0x002583b3  # add x7, x11, x2
    .word 0x0033c383  # lbu x7, 3(x7)
    .word 0x01839393  # slli x7, x7, 24
    .word 0x00736333  # or x6, x6, x7
    .word 0x00229293  # slli x5, x5, 2
    .word 0x002282b3  # add x5, x5, x2
    .word 0x2062a023  # sw x6, 512(x5)
    .word 0x00151293  # slli x5, x10, 1
    .word 0x00151313  # slli x6, x10, 1
    .word 0x00231313  # slli x6, x6, 2
    .word 0x00230333  # add x6, x6, x2
    .word 0x20032303  # lw x6, 512(x6)
    .word 0x00229293  # slli x5, x5, 2
    .word 0x002282b3  # add x5, x5, x2
    .word 0x2062a223  # sw x6, 516(x5)
    .word 0xffd50293  # addi x5, x10, -3
    .word 0xf6029ee3  # bne x5, x0, -132
    .word 0xfff00593  # addi x11, x0, -1
    .word 0x00158593  # addi x11, x11, 1
    .word 0x00159513  # slli x10, x11, 1
    .word 0x00251493  # slli x9, x10, 2
    .word 0x002484b3  # add x9, x9, x2
    .word 0x2004a283  # lw x5, 512(x9)
    .word 0x0012d293  # srli x5, x5, 1
    .word 0x2044a303  # lw x6, 516(x9)
    .word 0x0062c2b3  # xor x5, x5, x6
    .word 0x25c12303  # lw x6, 604(x2)
    .word 0x0062fd33  # and x26, x5, x6
    .word 0x2044a283  # lw x5, 516(x9)
    .word 0x01a2c2b3  # xor x5, x5, x26
    .word 0x2054a223  # sw x5, 516(x9)
    .word 0x2004a283  # lw x5, 512(x9)
    .word 0x001d1313  # slli x6, x26, 1
    .word 0x0062c2b3  # xor x5, x5, x6
    .word 0x2054a023  # sw x5, 512(x9)
    .word 0xffd58293  # addi x5, x11, -3
    .word 0xfa029ce3  # bne x5, x0, -72
    .word 0xfff00593  # addi x11, x0, -1
    .word 0x00158593  # addi x11, x11, 1
    .word 0x0025f313  # andi x6, x11, 2
    .word 0x00658533  # add x10, x11, x6
    .word 0x00251493  # slli x9, x10, 2
    .word 0x002484b3  # add x9, x9, x2
    .word 0x2004a283  # lw x5, 512(x9)
    .word 0x0022d293  # srli x5, x5, 2
    .word 0x2084a303  # lw x6, 520(x9)
    .word 0x0062c2b3  # xor x5, x5, x6
    .word 0x26012303  # lw x6, 608(x2)
    .word 0x0062fd33  # and x26, x5, x6
    .word 0x2084a283  # lw x5, 520(x9)
    .word 0x01a2c2b3  # xor x5, x5, x26
    .word 0x2054a423  # sw x5, 520(x9)
    .word 0x2004a283  # lw x5, 512(x9)
    .word 0x002d1313  # slli x6, x26, 2
    .word 0x0062c2b3  # xor x5, x5, x6
    .word 0x2054a023  # sw x5, 512(x9)
    .word 0xffd58293  # addi x5, x11, -3
    .word 0xfa029ae3  # bne x5, x0, -76
    .word 0xfff00513  # addi x10, x0, -1
    .word 0x00150513  # addi x10, x10, 1
    .word 0x00251493  # slli x9, x10, 2
    .word 0x002484b3  # add x9, x9, x2
    .word 0x2004a283  # lw x5, 512(x9)
    .word 0x0042d293  # srli x5, x5, 4
    .word 0x2104a303  # lw x6, 528(x9)
    .word 0x0062c2b3  # xor x5, x5, x6
    .word 0x26412303  # lw x6, 612(x2)
    .word 0x0062fd33  # and x26, x5, x6
    .word 0x2104a283  # lw x5, 528(x9)
    .word 0x01a2c2b3  # xor x5, x5, x26
    .word 0x2054a823  # sw x5, 528(x9)
    .word 0x2004a283  # lw x5, 512(x9)
    .word 0x004d1313  # slli x6, x26, 4
    .word 0x0062c2b3  # xor x5, x5, x6
    .word 0x2054a023  # sw x5, 512(x9)
    .word 0xffd50293  # addi x5, x10, -3
    .word 0xfa029ee3  # bne x5, x0, -68
    .word 0xfff00593  # addi x11, x0, -1
    .word 0x00158593  # addi x11, x11, 1
    .word 0x003c9293  # slli x5, x25, 3
    .word 0x00b282b3  # add x5, x5, x11
    .word 0x00259313  # slli x6, x11, 2
    .word 0x00230333  # add x6, x6, x2
    .word 0x20032303  # lw x6, 512(x6)
    .word 0x00229293  # slli x5, x5, 2
    .word 0x002282b3  # add x5, x5, x2
    .word 0x0262a023  # sw x6, 32(x5)
    .word 0xff958293  # addi x5, x11, -7
    .word 0xfc029ce3  # bne x5, x0, -40
    .word 0xfffc8293  # addi x5, x25, -1
    .word 0xe40296e3  # bne x5, x0, -436
    .word 0xfff00593  # addi x11, x0, -1
    .word 0x00158593  # addi x11, x11, 1
    .word 0xfff00c93  # addi x25, x0, -1
    .word 0x001c8c93  # addi x25, x25, 1
    .word 0x00359313  # slli x6, x11, 3
    .word 0x01930333  # add x6, x6, x25
    .word 0x00231313  # slli x6, x6, 2
    .word 0x00230333  # add x6, x6, x2
    .word 0x04032303  # lw x6, 64(x6)
    .word 0x00635313  # srli x6, x6, 6
    .word 0x01b37333  # and x6, x6, x27
    .word 0x002c9293  # slli x5, x25, 2
    .word 0x002282b3  # add x5, x5, x2
    .word 0x2062a023  # sw x6, 512(x5)
    .word 0xff9c8293  # addi x5, x25, -7
    .word 0xfc0298e3  # bne x5, x0, -48
    .word 0x21c12d03  # lw x26, 540(x2)
    .word 0x21812883  # lw x17, 536(x2)
    .word 0x21412783  # lw x15, 532(x2)
    .word 0x21012903  # lw x18, 528(x2)
    .word 0x20c12a03  # lw x20, 524(x2)
    .word 0x20812b83  # lw x23, 520(x2)
    .word 0x20412803  # lw x16, 516(x2)
    .word 0x20012603  # lw x12, 512(x2)
    .word 0x017942b3  # xor x5, x18, x23
    .word 0x22512023  # sw x5, 544(x2)
    .word 0x010d46b3  # xor x13, x26, x16
    .word 0x012d42b3  # xor x5, x26, x18
    .word 0x22512223  # sw x5, 548(x2)
    .word 0x017d4733  # xor x14, x26, x23
    .word 0x00f8c9b3  # xor x19, x17, x15
    .word 0x00c9c7b3  # xor x15, x19, x12
    .word 0x0127c2b3  # xor x5, x15, x18
    .word 0x22512423  # sw x5, 552(x2)
    .word 0x22012303  # lw x6, 544(x2)
    .word 0x0066c2b3  # xor x5, x13, x6
    .word 0x22512623  # sw x5, 556(x2)
    .word 0x01a7c2b3  # xor x5, x15, x26
    .word 0x22512823  # sw x5, 560(x2)
    .word 0x0107c2b3  # xor x5, x15, x16
    .word 0x22512a23  # sw x5, 564(x2)
    .word 0x23412283  # lw x5, 564(x2)
    .word 0x00e2c2b3  # xor x5, x5, x14
    .word 0x22512c23  # sw x5, 568(x2)
    .word 0x22c12303  # lw x6, 556(x2)
    .word 0x006a4933  # xor x18, x20, x6
    .word 0x01794833  # xor x16, x18, x23
    .word 0x01194bb3  # xor x23, x18, x17
    .word 0x00c842b3  # xor x5, x16, x12
    .word 0x22512e23  # sw x5, 572(x2)
    .word 0x013848b3  # xor x17, x16, x19
    .word 0x22412303  # lw x6, 548(x2)
    .word 0x006bc933  # xor x18, x23, x6
    .word 0x012642b3  # xor x5, x12, x18
    .word 0x24512023  # sw x5, 576(x2)
    .word 0x0128c2b3  # xor x5, x17, x18
    .word 0x24512223  # sw x5, 580(x2)
    .word 0x00e8cc33  # xor x24, x17, x14
    .word 0x0129c9b3  # xor x19, x19, x18
    .word 0x0136cb33  # xor x22, x13, x19
    .word 0x013d42b3  # xor x5, x26, x19
    .word 0x24512823  # sw x5, 592(x2)
    .word 0x22c12283  # lw x5, 556(x2)
    .word 0x0102fd33  # and x26, x5, x16
    .word 0x23812283  # lw x5, 568(x2)
    .word 0x23c12303  # lw x6, 572(x2)
    .word 0x0062fa33  # and x20, x5, x6
    .word 0x01aa4ab3  # xor x21, x20, x26
    .word 0x22812283  # lw x5, 552(x2)
    .word 0x00c2fa33  # and x20, x5, x12
    .word 0x01aa42b3  # xor x5, x20, x26
    .word 0x24512a23  # sw x5, 596(x2)
    .word 0x0136fd33  # and x26, x13, x19
    .word 0x23412283  # lw x5, 564(x2)
    .word 0x00f2fa33  # and x20, x5, x15
    .word 0x01aa42b3  # xor x5, x20, x26
    .word 0x24512c23  # sw x5, 600(x2)
    .word 0x23012283  # lw x5, 560(x2)
    .word 0x24012303  # lw x6, 576(x2)
    .word 0x0062fa33  # and x20, x5, x6
    .word 0x01aa42b3  # xor x5, x20, x26
    .word 0x24512423  # sw x5, 584(x2)
    .word 0x22412283  # lw x5, 548(x2)
    .word 0x0122fd33  # and x26, x5, x18
    .word 0x22012283  # lw x5, 544(x2)
    .word 0x24412303  # lw x6, 580(x2)
    .word 0x0062fa33  # and x20, x5, x6
    .word 0x01aa4a33  # xor x20, x20, x26
    .word 0x011772b3  # and x5, x14, x17
    .word 0x24512623  # sw x5, 588(x2)
    .word 0x24c12283  # lw x5, 588(x2)
    .word 0x01a2cd33  # xor x26, x5, x26
    .word 0x014acab3  # xor x21, x21, x20
    .word 0x25412283  # lw x5, 596(x2)
    .word 0x01a2c2b3  # xor x5, x5, x26
    .word 0x24512a23  # sw x5, 596(x2)
    .word 0x25812283  # lw x5, 600(x2)
    .word 0x0142ca33  # xor x20, x5, x20
    .word 0x24812283  # lw x5, 584(x2)
    .word 0x01a2c2b3  # xor x5, x5, x26
    .word 0x24512c23  # sw x5, 600(x2)
    .word 0x017acbb3  # xor x23, x21, x23
    .word 0x25412283  # lw x5, 596(x2)
    .word 0x0182cd33  # xor x26, x5, x24
    .word 0x016a4c33  # xor x24, x20, x22
    .word 0x25812283  # lw x5, 600(x2)
    .word 0x25012303  # lw x6, 592(x2)
    .word 0x0062ca33  # xor x20, x5, x6
    .word 0x01abc2b3  # xor x5, x23, x26
    .word 0x24512823  # sw x5, 592(x2)
    .word 0x018bfab3  # and x21, x23, x24
    .word 0x015a4b33  # xor x22, x20, x21
    .word 0x25012283  # lw x5, 592(x2)
    .word 0x0162fbb3  # and x23, x5, x22
    .word 0x01abcbb3  # xor x23, x23, x26
    .word 0x014c42b3  # xor x5, x24, x20
    .word 0x24512a23  # sw x5, 596(x2)
    .word 0x015d4d33  # xor x26, x26, x21
    .word 0x25412303  # lw x6, 596(x2)
    .word 0x006d7d33  # and x26, x26, x6
    .word 0x014d4d33  # xor x26, x26, x20
    .word 0x01ac4ab3  # xor x21, x24, x26
    .word 0x01ab4c33  # xor x24, x22, x26
    .word 0x018a7c33  # and x24, x20, x24
    .word 0x015c4a33  # xor x20, x24, x21
    .word 0x018b4c33  # xor x24, x22, x24
    .word 0x018bfc33  # and x24, x23, x24
    .word 0x25012283  # lw x5, 592(x2)
    .word 0x0182cc33  # xor x24, x5, x24
    .word 0x014c4b33  # xor x22, x24, x20
    .word 0x01abc2b3  # xor x5, x23, x26
    .word 0x24512823  # sw x5, 592(x2)
    .word 0x018bcab3  # xor x21, x23, x24
    .word 0x014d42b3  # xor x5, x26, x20
    .word 0x24512a23  # sw x5, 596(x2)
    .word 0x25012283  # lw x5, 592(x2)
    .word 0x0162c2b3  # xor x5, x5, x22
    .word 0x24512c23  # sw x5, 600(x2)
    .word 0x25412283  # lw x5, 596(x2)
    .word 0x0102f2b3  # and x5, x5, x16
    .word 0x24512423  # sw x5, 584(x2)
    .word 0x23c12303  # lw x6, 572(x2)
    .word 0x006a72b3  # and x5, x20, x6
    .word 0x22512e23  # sw x5, 572(x2)
    .word 0x00cd7633  # and x12, x26, x12
    .word 0x013af833  # and x16, x21, x19
    .word 0x00fc77b3  # and x15, x24, x15
    .word 0x24012303  # lw x6, 576(x2)
    .word 0x006bf9b3  # and x19, x23, x6
    .word 0x25012283  # lw x5, 592(x2)
    .word 0x0122f2b3  # and x5, x5, x18
    .word 0x24512023  # sw x5, 576(x2)
    .word 0x25812283  # lw x5, 600(x2)
    .word 0x24412303  # lw x6, 580(x2)
    .word 0x0062f933  # and x18, x5, x6
    .word 0x011b72b3  # and x5, x22, x17
    .word 0x24512223  # sw x5, 580(x2)
    .word 0x25412283  # lw x5, 596(x2)
    .word 0x22c12303  # lw x6, 556(x2)
    .word 0x0062f2b3  # and x5, x5, x6
    .word 0x22512623  # sw x5, 556(x2)
    .word 0x23812303  # lw x6, 568(x2)
    .word 0x006a78b3  # and x17, x20, x6
    .word 0x22812303  # lw x6, 552(x2)
    .word 0x006d7a33  # and x20, x26, x6
    .word 0x00dafd33  # and x26, x21, x13
    .word 0x23412303  # lw x6, 564(x2)
    .word 0x006c7c33  # and x24, x24, x6
    .word 0x23012303  # lw x6, 560(x2)
    .word 0x006bf2b3  # and x5, x23, x6
    .word 0x22512a23  # sw x5, 564(x2)
    .word 0x25012283  # lw x5, 592(x2)
    .word 0x22412303  # lw x6, 548(x2)
    .word 0x0062f6b3  # and x13, x5, x6
    .word 0x25812283  # lw x5, 600(x2)
    .word 0x22012303  # lw x6, 544(x2)
    .word 0x0062fbb3  # and x23, x5, x6
    .word 0x00eb72b3  # and x5, x22, x14
    .word 0x22512023  # sw x5, 544(x2)
    .word 0x0176c6b3  # xor x13, x13, x23
    .word 0x0148ca33  # xor x20, x17, x20
    .word 0x0189c733  # xor x14, x19, x24
    .word 0x22c12283  # lw x5, 556(x2)
    .word 0x0112c8b3  # xor x17, x5, x17
    .word 0x01a64c33  # xor x24, x12, x26
    .word 0x013649b3  # xor x19, x12, x19
    .word 0x24412303  # lw x6, 580(x2)
    .word 0x006942b3  # xor x5, x18, x6
    .word 0x22512223  # sw x5, 548(x2)
    .word 0x24812283  # lw x5, 584(x2)
    .word 0x0102c633  # xor x12, x5, x16
    .word 0x24012283  # lw x5, 576(x2)
    .word 0x0122c2b3  # xor x5, x5, x18
    .word 0x22512623  # sw x5, 556(x2)
    .word 0x22012303  # lw x6, 544(x2)
    .word 0x006bc2b3  # xor x5, x23, x6
    .word 0x22512023  # sw x5, 544(x2)
    .word 0x00ed4b33  # xor x22, x26, x14
    .word 0x00cc4d33  # xor x26, x24, x12
    .word 0x00d7c933  # xor x18, x15, x13
    .word 0x22c12303  # lw x6, 556(x2)
    .word 0x00684bb3  # xor x23, x16, x6
    .word 0x01a6cc33  # xor x24, x13, x26
    .word 0x23412283  # lw x5, 564(x2)
    .word 0x01a2c6b3  # xor x13, x5, x26
    .word 0x22412283  # lw x5, 548(x2)
    .word 0x0122cd33  # xor x26, x5, x18
    .word 0x0128c933  # xor x18, x17, x18
    .word 0x0177c7b3  # xor x15, x15, x23
    .word 0x01a6c6b3  # xor x13, x13, x26
    .word 0x23c12283  # lw x5, 572(x2)
    .word 0x0122c833  # xor x16, x5, x18
    .word 0x012bc933  # xor x18, x23, x18
    .word 0x01ab42b3  # xor x5, x22, x26
    .word 0xfff2cb93  # xori x23, x5, -1
    .word 0x018742b3  # xor x5, x14, x24
    .word 0xfff2c713  # xori x14, x5, -1
    .word 0x00d7c8b3  # xor x17, x15, x13
    .word 0x01064d33  # xor x26, x12, x16
    .word 0x0109c633  # xor x12, x19, x16
    .word 0x00da46b3  # xor x13, x20, x13
    .word 0x01a7c2b3  # xor x5, x15, x26
    .word 0xfff2c793  # xori x15, x5, -1
    .word 0x22012283  # lw x5, 544(x2)
    .word 0x0112c2b3  # xor x5, x5, x17
    .word 0xfff2c813  # xori x16, x5, -1
    .word 0x21212e23  # sw x18, 540(x2)
    .word 0x20f12c23  # sw x15, 536(x2)
    .word 0x21012a23  # sw x16, 532(x2)
    .word 0x21a12823  # sw x26, 528(x2)
    .word 0x20c12623  # sw x12, 524(x2)
    .word 0x20d12423  # sw x13, 520(x2)
    .word 0x21712223  # sw x23, 516(x2)
    .word 0x20e12023  # sw x14, 512(x2)
    .word 0xfff00c93  # addi x25, x0, -1
    .word 0x001c8c93  # addi x25, x25, 1
    .word 0x002c9293  # slli x5, x25, 2
    .word 0x002282b3  # add x5, x5, x2
    .word 0x2002a283  # lw x5, 512(x5)
    .word 0x01b2fd33  # and x26, x5, x27
    .word 0x0015f293  # andi x5, x11, 1
    .word 0x02029463  # bne x5, x0, 40
    .word 0x018d1f13  # slli x30, x26, 24
    .word 0x008d5293  # srli x5, x26, 8
    .word 0x005f02b3  # add x5, x30, x5
    .word 0x00300313  # addi x6, x0, 3
    .word 0x0015d393  # srli x7, x11, 1
    .word 0x419383b3  # sub x7, x7, x25
    .word 0x0013b393  # sltiu x7, x7, 1
    .word 0x02730333  # mul x6, x6, x7
    .word 0x0062cd33  # xor x26, x5, x6
    .word 0x00359293  # slli x5, x11, 3
    .word 0x019282b3  # add x5, x5, x25
    .word 0x00229293  # slli x5, x5, 2
    .word 0x002282b3  # add x5, x5, x2
    .word 0x0202a283  # lw x5, 32(x5)
    .word 0x01a2cd33  # xor x26, x5, x26
    .word 0x002d1313  # slli x6, x26, 2
    .word 0x26812383  # lw x7, 616(x2)
    .word 0x00737333  # and x6, x6, x7
    .word 0x006d4d33  # xor x26, x26, x6
    .word 0x00359293  # slli x5, x11, 3
    .word 0x019282b3  # add x5, x5, x25
    .word 0x004d1393  # slli x7, x26, 4
    .word 0x26c12403  # lw x8, 620(x2)
    .word 0x0083f3b3  # and x7, x7, x8
    .word 0x007d4333  # xor x6, x26, x7
    .word 0x00229293  # slli x5, x5, 2
    .word 0x002282b3  # add x5, x5, x2
    .word 0x0662a023  # sw x6, 96(x5)
    .word 0xff9c8293  # addi x5, x25, -7
    .word 0xf60298e3  # bne x5, x0, -144
    .word 0xff458293  # addi x5, x11, -12
    .word 0xbc0290e3  # bne x5, x0, -1088
    # the result
    .word 0x00000513  # addi x10, x0, 0
    # parameter 1: the array, back
    .word 0x02010293  # addi x5, x2, 32
    .word 0x2cc12303  # lw x6, 716(x2)
    .word 0x1e028393  # addi x7, x5, 480
    .word 0x0002ae03  # lw x28, 0(x5)
    .word 0x01c32023  # sw x28, 0(x6)
    .word 0x00428293  # addi x5, x5, 4
    .word 0x00430313  # addi x6, x6, 4
    .word 0xfe7298e3  # bne x5, x7, -16
    # above the frame
    .word 0x29010293  # addi x5, x2, 656
    # the caller's registers
    .word 0x0002a403  # lw x8, 0(x5)
    .cfi_restore 8
    .word 0x0042a483  # lw x9, 4(x5)
    .cfi_restore 9
    .word 0x0082a903  # lw x18, 8(x5)
    .cfi_restore 18
    .word 0x00c2a983  # lw x19, 12(x5)
    .cfi_restore 19
    .word 0x0102aa03  # lw x20, 16(x5)
    .cfi_restore 20
    .word 0x0142aa83  # lw x21, 20(x5)
    .cfi_restore 21
    .word 0x0182ab03  # lw x22, 24(x5)
    .cfi_restore 22
    .word 0x01c2ab83  # lw x23, 28(x5)
    .cfi_restore 23
    .word 0x0202ac03  # lw x24, 32(x5)
    .cfi_restore 24
    .word 0x0242ac83  # lw x25, 36(x5)
    .cfi_restore 25
    .word 0x0282ad03  # lw x26, 40(x5)
    .cfi_restore 26
    .word 0x02c2ad83  # lw x27, 44(x5)
    .cfi_restore 27
    # the caller's x2
    .word 0x04028293  # addi x5, x5, 64
    .cfi_def_cfa 5, 0
    # on to the tail that functions share
    jal x0, factc.tail.1
    .cfi_endproc
    .size aes256_expand, . - aes256_expand
    .section .text.factc.tail.1, "axG", @progbits, factc.tail.1, comdat
    .p2align 2
    .globl factc.tail.1
    .hidden factc.tail.1
    .type factc.tail.1, @function
factc.tail.1:
    .cfi_startproc
    .cfi_def_cfa 5, 0
    # all the room, wiped upward
    .word 0x00012023  # sw x0, 0(x2)
    .word 0x00012223  # sw x0, 4(x2)
    .word 0x00012423  # sw x0, 8(x2)
    .word 0x00012623  # sw x0, 12(x2)
    .word 0x01010113  # addi x2, x2, 16
    .word 0xfe5116e3  # bne x2, x5, -20
    .cfi_def_cfa 2, 0
    # temporaries, wiped
    .word 0x00000293  # addi x5, x0, 0
    .word 0x00000313  # addi x6, x0, 0
    .word 0x00000393  # addi x7, x0, 0
    .word 0x00000593  # addi x11, x0, 0
    .word 0x00000613  # addi x12, x0, 0
    .word 0x00000693  # addi x13, x0, 0
    .word 0x00000713  # addi x14, x0, 0
    .word 0x00000793  # addi x15, x0, 0
    .word 0x00000813  # addi x16, x0, 0
    .word 0x00000893  # addi x17, x0, 0
    .word 0x00000e13  # addi x28, x0, 0
    .word 0x00000e93  # addi x29, x0, 0
    .word 0x00000f13  # addi x30, x0, 0
    .word 0x00000f93  # addi x31, x0, 0
    # back
    .word 0x00008067  # jalr x0, 0(x1)
    .cfi_endproc
    .size factc.tail.1, . - factc.tail.1
    .option pop
