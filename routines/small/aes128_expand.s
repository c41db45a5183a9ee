# aes128_expand: made by factc 1.0.0 function; 466 words and 21 shared, 608 bytes of stack, profile 1
    .option push
    .option norvc
    .option norelax
    .cfi_sections .debug_frame
    .section .text.aes128_expand, "ax", @progbits
    .p2align 2
    .globl aes128_expand
    .type aes128_expand, @function
aes128_expand:
    .cfi_startproc
    # room above the frame
    .word 0xfc010113  # addi x2, x2, -64
    .cfi_def_cfa_offset 64
    # the caller's registers
    .word 0x00912023  # sw x9, 0(x2)
    .cfi_offset 9, -64
    .word 0x01212223  # sw x18, 4(x2)
    .cfi_offset 18, -60
    .word 0x01312423  # sw x19, 8(x2)
    .cfi_offset 19, -56
    .word 0x01412623  # sw x20, 12(x2)
    .cfi_offset 20, -52
    .word 0x01512823  # sw x21, 16(x2)
    .cfi_offset 21, -48
    .word 0x01612a23  # sw x22, 20(x2)
    .cfi_offset 22, -44
    .word 0x01712c23  # sw x23, 24(x2)
    .cfi_offset 23, -40
    .word 0x01812e23  # sw x24, 28(x2)
    .cfi_offset 24, -36
    .word 0x03912023  # sw x25, 32(x2)
    .cfi_offset 25, -32
    .word 0x03a12223  # sw x26, 36(x2)
    .cfi_offset 26, -28
    .word 0x03b12423  # sw x27, 40(x2)
    .cfi_offset 27, -24
    # arguments that are needed behind the body
    .word 0x02a12c23  # sw x10, 56(x2)
    .word 0x02b12e23  # sw x11, 60(x2)
    # the frame's base
    .word 0xde010113  # addi x2, x2, -544
    .cfi_def_cfa 2, 608
    # parameter 0: an array
    .word 0x00050293  # addi x5, x10, 0
    .word 0x00010313  # addi x6, x2, 0
    .word 0x01028393  # addi x7, x5, 16
    .word 0x0002ce03  # lbu x28, 0(x5)
    .word 0x01c30023  # sb x28, 0(x6)
    .word 0x00128293  # addi x5, x5, 1
    .word 0x00130313  # addi x6, x6, 1
    .word 0xfe7298e3  # bne x5, x7, -16
    # the body
    .word 0x555552b7  # lui x5, 0x55555
    .word 0x55528293  # addi x5, x5, 1365
    .word 0x1e512a23  # sw x5, 500(x2)
    .word 0x333332b7  # lui x5, 0x33333
    .word 0x33328293  # addi x5, x5, 819
    .word 0x1e512c23  # sw x5, 504(x2)
    .word 0x0f0f12b7  # lui x5, 0x0f0f1
    .word 0xf0f28293  # addi x5, x5, -241
    .word 0x1e512e23  # sw x5, 508(x2)
    .word 0x03030db7  # lui x27, 0x03030
    .word 0x303d8d93  # addi x27, x27, 771
    .word 0xfcfd02b7  # lui x5, 0xfcfd0
    .word 0xcfc28293  # addi x5, x5, -772
    .word 0x20512023  # sw x5, 512(x2)
    .word 0xf0f0f2b7  # lui x5, 0xf0f0f
    .word 0x0f028293  # addi x5, x5, 240
    .word 0x20512223  # sw x5, 516(x2)
    .word 0x17000313  # addi x6, x0, 368
    .word 0x00230333  # add x6, x6, x2
    .word 0x02000393  # addi x7, x0, 32
    .word 0x006383b3  # add x7, x7, x6
    .word 0x406382b3  # sub x5, x7, x6
    .word 0x00029463  # bne x5, x0, 8
    .word 0x0100006f  # jal x0, 16
    .word 0x00032023  # sw x0, 0(x6)
    .word 0x00430313  # addi x6, x6, 4
    .word 0xfedff06f  # jal x0, -20
    .word 0xfff00c93  # addi x25, x0, -1
    .word 0x001c8c93  # addi x25, x25, 1
    .word 0x002c9493  # slli x9, x25, 2
    .word 0x002484b3  # add x9, x9, x2
    .word 0x002c9513  # slli x10, x25, 2
    .word 0x001c9293  # slli x5, x25, 1
    .word 0x00250333  # add x6, x10, x2
    .word 0x00034303  # lbu x6, 0(x6)
    .word 0x002503b3  # add x7, x10, x2
    .word 0x0013c383  # lbu x7, 1(x7)
    .word 0x00839393  # slli x7, x7, 8
    .word 0x00736333  # or x6, x6, x7
    .word 0x002503b3  # add x7, x10, x2
    .word 0x0023c383  # lbu x7, 2(x7)
    .word 0x01039393  # slli x7, x7, 16
    .word 0x00736333  # or x6, x6, x7
    .word 0x002503b3  # add x7, x10, x2
    .word 0x0033c383  # lbu x7, 3(x7)
    .word 0x01839393  # slli x7, x7, 24
    .word 0x00736333  # or x6, x6, x7
    .word 0x00229293  # slli x5, x5, 2
    .word 0x002282b3  # add x5, x5, x2
    .word 0x1662a823  # sw x6, 368(x5)
    .word 0x001c9293  # slli x5, x25, 1
    .word 0x001c9313  # slli x6, x25, 1
    .word 0x00231313  # slli x6, x6, 2
    .word 0x00230333  # add x6, x6, x2
    .word 0x17032303  # lw x6, 368(x6)
    .word 0x00229293  # slli x5, x5, 2
    .word 0x002282b3  # add x5, x5, x2
    .word 0x1662aa23  # sw x6, 372(x5)
    .word 0xffdc8293  # addi x5, x25, -3
    .word 0xf80292e3  # bne x5, x0, -124
    .word 0xfff00513  # addi x10, x0, -1
    .word 0x00150513  # addi x10, x10, 1
    .word 0x00151c93  # slli x25, x10, 1
    .word 0x002c9493  # slli x9, x25, 2
    .word 0x002484b3  # add x9, x9, x2
    .word 0x1704a283  # lw x5, 368(x9)
    .word 0x0012d293  # srli x5, x5, 1
    .word 0x1744a303  # lw x6, 372(x9)
    .word 0x0062c2b3  # xor x5, x5, x6
    .word 0x1f412303  # lw x6, 500(x2)
    .word 0x0062fd33  # and x26, x5, x6
    .word 0x1744a283  # lw x5, 372(x9)
    .word 0x01a2c2b3  # xor x5, x5, x26
    .word 0x1654aa23  # sw x5, 372(x9)
    .word 0x1704a283  # lw x5, 368(x9)
    .word 0x001d1313  # slli x6, x26, 1
    .word 0x0062c2b3  # xor x5, x5, x6
    .word 0x1654a823  # sw x5, 368(x9)
    .word 0xffd50293  # addi x5, x10, -3
    .word 0xfa029ce3  # bne x5, x0, -72
    .word 0xfff00513  # addi x10, x0, -1
    .word 0x00150513  # addi x10, x10, 1
    .word 0x00257313  # andi x6, x10, 2
    .word 0x00650cb3  # add x25, x10, x6
    .word 0x002c9493  # slli x9, x25, 2
    .word 0x002484b3  # add x9, x9, x2
    .word 0x1704a283  # lw x5, 368(x9)
    .word 0x0022d293  # srli x5, x5, 2
    .word 0x1784a303  # lw x6, 376(x9)
    .word 0x0062c2b3  # xor x5, x5, x6
    .word 0x1f812303  # lw x6, 504(x2)
    .word 0x0062fd33  # and x26, x5, x6
    .word 0x1784a283  # lw x5, 376(x9)
    .word 0x01a2c2b3  # xor x5, x5, x26
    .word 0x1654ac23  # sw x5, 376(x9)
    .word 0x1704a283  # lw x5, 368(x9)
    .word 0x002d1313  # slli x6, x26, 2
    .word 0x0062c2b3  # xor x5, x5, x6
    .word 0x1654a823  # sw x5, 368(x9)
    .word 0xffd50293  # addi x5, x10, -3
    .word 0xfa029ae3  # bne x5, x0, -76
    .word 0xfff00c93  # addi x25, x0, -1
    .word 0x001c8c93  # addi x25, x25, 1
    .word 0x002c9493  # slli x9, x25, 2
    .word 0x002484b3  # add x9, x9, x2
    .word 0x1704a283  # lw x5, 368(x9)
    .word 0x0042d293  # srli x5, x5, 4
    .word 0x1804a303  # lw x6, 384(x9)
    .word 0x0062c2b3  # xor x5, x5, x6
    .word 0x1fc12303  # lw x6, 508(x2)
    .word 0x0062fd33  # and x26, x5, x6
    .word 0x1804a283  # lw x5, 384(x9)
    .word 0x01a2c2b3  # xor x5, x5, x26
    .word 0x1854a023  # sw x5, 384(x9)
    .word 0x1704a283  # lw x5, 368(x9)
    .word 0x004d1313  # slli x6, x26, 4
    .word 0x0062c2b3  # xor x5, x5, x6
    .word 0x1654a823  # sw x5, 368(x9)
    .word 0xffdc8293  # addi x5, x25, -3
    .word 0xfa029ee3  # bne x5, x0, -68
    .word 0xfff00c93  # addi x25, x0, -1
    .word 0x001c8c93  # addi x25, x25, 1
    .word 0x002c9493  # slli x9, x25, 2
    .word 0x002484b3  # add x9, x9, x2
    .word 0x1704a283  # lw x5, 368(x9)
    .word 0x0054a823  # sw x5, 16(x9)
    .word 0xff9c8293  # addi x5, x25, -7
    .word 0xfe0294e3  # bne x5, x0, -24
    .word 0x00100293  # addi x5, x0, 1
    .word 0x18512823  # sw x5, 400(x2)
    .word 0x00200293  # addi x5, x0, 2
    .word 0x18512a23  # sw x5, 404(x2)
    .word 0x00400293  # addi x5, x0, 4
    .word 0x18512c23  # sw x5, 408(x2)
    .word 0x00800293  # addi x5, x0, 8
    .word 0x18512e23  # sw x5, 412(x2)
    .word 0x01000293  # addi x5, x0, 16
    .word 0x1a512023  # sw x5, 416(x2)
    .word 0x02000293  # addi x5, x0, 32
    .word 0x1a512223  # sw x5, 420(x2)
    .word 0x04000293  # addi x5, x0, 64
    .word 0x1a512423  # sw x5, 424(x2)
    .word 0x08000293  # addi x5, x0, 128
    .word 0x1a512623  # sw x5, 428(x2)
    .word 0x01b00293  # addi x5, x0, 27
    .word 0x1a512823  # sw x5, 432(x2)
    .word 0x03600293  # addi x5, x0, 54
    .word 0x1a512a23  # sw x5, 436(x2)
    .word 0xfff00513  # addi x10, x0, -1
    .word 0x00150513  # addi x10, x10, 1
    .word 0x00251593  # slli x11, x10, 2
    .word 0x002585b3  # add x11, x11, x2
    .word 0x1905a583  # lw x11, 400(x11)
    .word 0xfff00c93  # addi x25, x0, -1
    .word 0x001c8c93  # addi x25, x25, 1
    .word 0x002c9493  # slli x9, x25, 2
    .word 0x002484b3  # add x9, x9, x2
    .word 0x1704a283  # lw x5, 368(x9)
    .word 0x0062d293  # srli x5, x5, 6
    .word 0x01b2f2b3  # and x5, x5, x27
    .word 0x1654a823  # sw x5, 368(x9)
    .word 0xff9c8293  # addi x5, x25, -7
    .word 0xfe0290e3  # bne x5, x0, -32
    .word 0x18c12d03  # lw x26, 396(x2)
    .word 0x18812883  # lw x17, 392(x2)
    .word 0x18412783  # lw x15, 388(x2)
    .word 0x18012903  # lw x18, 384(x2)
    .word 0x17c12a03  # lw x20, 380(x2)
    .word 0x17812b83  # lw x23, 376(x2)
    .word 0x17412803  # lw x16, 372(x2)
    .word 0x17012603  # lw x12, 368(x2)
    .word 0x017942b3  # xor x5, x18, x23
    .word 0x1a512c23  # sw x5, 440(x2)
    .word 0x010d46b3  # xor x13, x26, x16
    .word 0x012d42b3  # xor x5, x26, x18
    .word 0x1a512e23  # sw x5, 444(x2)
    .word 0x017d4733  # xor x14, x26, x23
    .word 0x00f8c9b3  # xor x19, x17, x15
    .word 0x00c9c7b3  # xor x15, x19, x12
    .word 0x0127c2b3  # xor x5, x15, x18
    .word 0x1c512023  # sw x5, 448(x2)
    .word 0x1b812303  # lw x6, 440(x2)
    .word 0x0066c2b3  # xor x5, x13, x6
    .word 0x1c512223  # sw x5, 452(x2)
    .word 0x01a7c2b3  # xor x5, x15, x26
    .word 0x1c512423  # sw x5, 456(x2)
    .word 0x0107c2b3  # xor x5, x15, x16
    .word 0x1c512623  # sw x5, 460(x2)
    .word 0x1cc12283  # lw x5, 460(x2)
    .word 0x00e2c2b3  # xor x5, x5, x14
    .word 0x1c512823  # sw x5, 464(x2)
    .word 0x1c412303  # lw x6, 452(x2)
    .word 0x006a4933  # xor x18, x20, x6
    .word 0x01794833  # xor x16, x18, x23
    .word 0x01194bb3  # xor x23, x18, x17
    .word 0x00c842b3  # xor x5, x16, x12
    .word 0x1c512a23  # sw x5, 468(x2)
    .word 0x013848b3  # xor x17, x16, x19
    .word 0x1bc12303  # lw x6, 444(x2)
    .word 0x006bc933  # xor x18, x23, x6
    .word 0x012642b3  # xor x5, x12, x18
    .word 0x1c512c23  # sw x5, 472(x2)
    .word 0x0128c2b3  # xor x5, x17, x18
    .word 0x1c512e23  # sw x5, 476(x2)
    .word 0x00e8cc33  # xor x24, x17, x14
    .word 0x0129c9b3  # xor x19, x19, x18
    .word 0x0136cb33  # xor x22, x13, x19
    .word 0x013d42b3  # xor x5, x26, x19
    .word 0x1e512423  # sw x5, 488(x2)
    .word 0x1c412283  # lw x5, 452(x2)
    .word 0x0102fd33  # and x26, x5, x16
    .word 0x1d012283  # lw x5, 464(x2)
    .word 0x1d412303  # lw x6, 468(x2)
    .word 0x0062fa33  # and x20, x5, x6
    .word 0x01aa4ab3  # xor x21, x20, x26
    .word 0x1c012283  # lw x5, 448(x2)
    .word 0x00c2fa33  # and x20, x5, x12
    .word 0x01aa42b3  # xor x5, x20, x26
    .word 0x1e512623  # sw x5, 492(x2)
    .word 0x0136fd33  # and x26, x13, x19
    .word 0x1cc12283  # lw x5, 460(x2)
    .word 0x00f2fa33  # and x20, x5, x15
    .word 0x01aa42b3  # xor x5, x20, x26
    .word 0x1e512823  # sw x5, 496(x2)
    .word 0x1c812283  # lw x5, 456(x2)
    .word 0x1d812303  # lw x6, 472(x2)
    .word 0x0062fa33  # and x20, x5, x6
    .word 0x01aa42b3  # xor x5, x20, x26
    .word 0x1e512023  # sw x5, 480(x2)
    .word 0x1bc12283  # lw x5, 444(x2)
    .word 0x0122fd33  # and x26, x5, x18
    .word 0x1b812283  # lw x5, 440(x2)
    .word 0x1dc12303  # lw x6, 476(x2)
    .word 0x0062fa33  # and x20, x5, x6
    .word 0x01aa4a33  # xor x20, x20, x26
    .word 0x011772b3  # and x5, x14, x17
    .word 0x1e512223  # sw x5, 484(x2)
    .word 0x1e412283  # lw x5, 484(x2)
    .word 0x01a2cd33  # xor x26, x5, x26
    .word 0x014acab3  # xor x21, x21, x20
    .word 0x1ec12283  # lw x5, 492(x2)
    .word 0x01a2c2b3  # xor x5, x5, x26
    .word 0x1e512623  # sw x5, 492(x2)
    .word 0x1f012283  # lw x5, 496(x2)
    .word 0x0142ca33  # xor x20, x5, x20
    .word 0x1e012283  # lw x5, 480(x2)
    .word 0x01a2c2b3  # xor x5, x5, x26
    .word 0x1e512823  # sw x5, 496(x2)
    .word 0x017acbb3  # xor x23, x21, x23
    .word 0x1ec12283  # lw x5, 492(x2)
    .word 0x0182cd33  # xor x26, x5, x24
    .word 0x016a4c33  # xor x24, x20, x22
    .word 0x1f012283  # lw x5, 496(x2)
    .word 0x1e812303  # lw x6, 488(x2)
    .word 0x0062ca33  # xor x20, x5, x6
    .word 0x01abc2b3  # xor x5, x23, x26
    .word 0x1e512423  # sw x5, 488(x2)
    .word 0x018bfab3  # and x21, x23, x24
    .word 0x015a4b33  # xor x22, x20, x21
    .word 0x1e812283  # lw x5, 488(x2)
    .word 0x0162fbb3  # and x23, x5, x22
    .word 0x01abcbb3  # xor x23, x23, x26
    .word 0x014c42b3  # xor x5, x24, x20
    .word 0x1e512623  # sw x5, 492(x2)
    .word 0x015d4d33  # xor x26, x26, x21
    .word 0x1ec12303  # lw x6, 492(x2)
    .word 0x006d7d33  # and x26, x26, x6
    .word 0x014d4d33  # xor x26, x26, x20
    .word 0x01ac4ab3  # xor x21, x24, x26
    .word 0x01ab4c33  # xor x24, x22, x26
    .word 0x018a7c33  # and x24, x20, x24
    .word 0x015c4a33  # xor x20, x24, x21
    .word 0x018b4c33  # xor x24, x22, x24
    .word 0x018bfc33  # and x24, x23, x24
    .word 0x1e812283  # lw x5, 488(x2)
    .word 0x0182cc33  # xor x24, x5, x24
    .word 0x014c4b33  # xor x22, x24, x20
    .word 0x01abc2b3  # xor x5, x23, x26
    .word 0x1e512423  # sw x5, 488(x2)
    .word 0x018bcab3  # xor x21, x23, x24
    .word 0x014d42b3  # xor x5, x26, x20
    .word 0x1e512623  # sw x5, 492(x2)
    .word 0x1e812283  # lw x5, 488(x2)
    .word 0x0162c2b3  # xor x5, x5, x22
    .word 0x1e512823  # sw x5, 496(x2)
    .word 0x1ec12283  # lw x5, 492(x2)
    .word 0x0102f2b3  # and x5, x5, x16
    .word 0x1e512023  # sw x5, 480(x2)
    .word 0x1d412303  # lw x6, 468(x2)
    .word 0x006a72b3  # and x5, x20, x6
    .word 0x1c512a23  # sw x5, 468(x2)
    .word 0x00cd7633  # and x12, x26, x12
    .word 0x013af833  # and x16, x21, x19
    .word 0x00fc77b3  # and x15, x24, x15
    .word 0x1d812303  # lw x6, 472(x2)
    .word 0x006bf9b3  # and x19, x23, x6
    .word 0x1e812283  # lw x5, 488(x2)
    .word 0x0122f2b3  # and x5, x5, x18
    .word 0x1c512c23  # sw x5, 472(x2)
    .word 0x1f012283  # lw x5, 496(x2)
    .word 0x1dc12303  # lw x6, 476(x2)
    .word 0x0062f933  # and x18, x5, x6
    .word 0x011b72b3  # and x5, x22, x17
    .word 0x1c512e23  # sw x5, 476(x2)
    .word 0x1ec12283  # lw x5, 492(x2)
    .word 0x1c412303  # lw x6, 452(x2)
    .word 0x0062f2b3  # and x5, x5, x6
    .word 0x1c512223  # sw x5, 452(x2)
    .word 0x1d012303  # lw x6, 464(x2)
    .word 0x006a78b3  # and x17, x20, x6
    .word 0x1c012303  # lw x6, 448(x2)
    .word 0x006d7a33  # and x20, x26, x6
    .word 0x00dafd33  # and x26, x21, x13
    .word 0x1cc12303  # lw x6, 460(x2)
    .word 0x006c7c33  # and x24, x24, x6
    .word 0x1c812303  # lw x6, 456(x2)
    .word 0x006bf2b3  # and x5, x23, x6
    .word 0x1c512623  # sw x5, 460(x2)
    .word 0x1e812283  # lw x5, 488(x2)
    .word 0x1bc12303  # lw x6, 444(x2)
    .word 0x0062f6b3  # and x13, x5, x6
    .word 0x1f012283  # lw x5, 496(x2)
    .word 0x1b812303  # lw x6, 440(x2)
    .word 0x0062fbb3  # and x23, x5, x6
    .word 0x00eb72b3  # and x5, x22, x14
    .word 0x1a512c23  # sw x5, 440(x2)
    .word 0x0176c6b3  # xor x13, x13, x23
    .word 0x0148ca33  # xor x20, x17, x20
    .word 0x0189c733  # xor x14, x19, x24
    .word 0x1c412283  # lw x5, 452(x2)
    .word 0x0112c8b3  # xor x17, x5, x17
    .word 0x01a64c33  # xor x24, x12, x26
    .word 0x013649b3  # xor x19, x12, x19
    .word 0x1dc12303  # lw x6, 476(x2)
    .word 0x006942b3  # xor x5, x18, x6
    .word 0x1a512e23  # sw x5, 444(x2)
    .word 0x1e012283  # lw x5, 480(x2)
    .word 0x0102c633  # xor x12, x5, x16
    .word 0x1d812283  # lw x5, 472(x2)
    .word 0x0122c2b3  # xor x5, x5, x18
    .word 0x1c512223  # sw x5, 452(x2)
    .word 0x1b812303  # lw x6, 440(x2)
    .word 0x006bc2b3  # xor x5, x23, x6
    .word 0x1a512c23  # sw x5, 440(x2)
    .word 0x00ed4b33  # xor x22, x26, x14
    .word 0x00cc4d33  # xor x26, x24, x12
    .word 0x00d7c933  # xor x18, x15, x13
    .word 0x1c412303  # lw x6, 452(x2)
    .word 0x00684bb3  # xor x23, x16, x6
    .word 0x01a6cc33  # xor x24, x13, x26
    .word 0x1cc12283  # lw x5, 460(x2)
    .word 0x01a2c6b3  # xor x13, x5, x26
    .word 0x1bc12283  # lw x5, 444(x2)
    .word 0x0122cd33  # xor x26, x5, x18
    .word 0x0128c933  # xor x18, x17, x18
    .word 0x0177c7b3  # xor x15, x15, x23
    .word 0x01a6c6b3  # xor x13, x13, x26
    .word 0x1d412283  # lw x5, 468(x2)
    .word 0x0122c833  # xor x16, x5, x18
    .word 0x012bc933  # xor x18, x23, x18
    .word 0x01ab42b3  # xor x5, x22, x26
    .word 0xfff2cb93  # xori x23, x5, -1
    .word 0x018742b3  # xor x5, x14, x24
    .word 0xfff2c713  # xori x14, x5, -1
    .word 0x00d7c8b3  # xor x17, x15, x13
    .word 0x01064d33  # xor x26, x12, x16
    .word 0x0109c633  # xor x12, x19, x16
    .word 0x00da46b3  # xor x13, x20, x13
    .word 0x01a7c2b3  # xor x5, x15, x26
    .word 0xfff2c793  # xori x15, x5, -1
    .word 0x1b812283  # lw x5, 440(x2)
    .word 0x0112c2b3  # xor x5, x5, x17
    .word 0xfff2c813  # xori x16, x5, -1
    .word 0x19212623  # sw x18, 396(x2)
    .word 0x18f12423  # sw x15, 392(x2)
    .word 0x19012223  # sw x16, 388(x2)
    .word 0x19a12023  # sw x26, 384(x2)
    .word 0x16c12e23  # sw x12, 380(x2)
    .word 0x16d12c23  # sw x13, 376(x2)
    .word 0x17712a23  # sw x23, 372(x2)
    .word 0x16e12823  # sw x14, 368(x2)
    .word 0xfff00c93  # addi x25, x0, -1
    .word 0x001c8c93  # addi x25, x25, 1
    .word 0x002c9493  # slli x9, x25, 2
    .word 0x002484b3  # add x9, x9, x2
    .word 0x1704a283  # lw x5, 368(x9)
    .word 0x01b2fd33  # and x26, x5, x27
    .word 0x018d1f13  # slli x30, x26, 24
    .word 0x008d5293  # srli x5, x26, 8
    .word 0x005f02b3  # add x5, x30, x5
    .word 0x00000313  # addi x6, x0, 0
    .word 0x0195d3b3  # srl x7, x11, x25
    .word 0x0013f393  # andi x7, x7, 1
    .word 0x40730333  # sub x6, x6, x7
    .word 0x00337313  # andi x6, x6, 3
    .word 0x0062cd33  # xor x26, x5, x6
    .word 0x00351293  # slli x5, x10, 3
    .word 0x019282b3  # add x5, x5, x25
    .word 0x00229293  # slli x5, x5, 2
    .word 0x002282b3  # add x5, x5, x2
    .word 0x0102a283  # lw x5, 16(x5)
    .word 0x01a2cd33  # xor x26, x5, x26
    .word 0x002d1313  # slli x6, x26, 2
    .word 0x20012383  # lw x7, 512(x2)
    .word 0x00737333  # and x6, x6, x7
    .word 0x006d4d33  # xor x26, x26, x6
    .word 0x004d1313  # slli x6, x26, 4
    .word 0x20412383  # lw x7, 516(x2)
    .word 0x00737333  # and x6, x6, x7
    .word 0x006d4d33  # xor x26, x26, x6
    .word 0x00351293  # slli x5, x10, 3
    .word 0x019282b3  # add x5, x5, x25
    .word 0x00229293  # slli x5, x5, 2
    .word 0x002282b3  # add x5, x5, x2
    .word 0x03a2a823  # sw x26, 48(x5)
    .word 0x17a4a823  # sw x26, 368(x9)
    .word 0xff9c8293  # addi x5, x25, -7
    .word 0xf6029ae3  # bne x5, x0, -140
    .word 0xff750293  # addi x5, x10, -9
    .word 0xbc0294e3  # bne x5, x0, -1080
    # the result
    .word 0x00000513  # addi x10, x0, 0
    # parameter 1: the array, back
    .word 0x01010293  # addi x5, x2, 16
    .word 0x25c12303  # lw x6, 604(x2)
    .word 0x16028393  # addi x7, x5, 352
    .word 0x0002ae03  # lw x28, 0(x5)
    .word 0x01c32023  # sw x28, 0(x6)
    .word 0x00428293  # addi x5, x5, 4
    .word 0x00430313  # addi x6, x6, 4
    .word 0xfe7298e3  # bne x5, x7, -16
    # above the frame
    .word 0x22010293  # addi x5, x2, 544
    # the caller's registers
    .word 0x0002a483  # lw x9, 0(x5)
    .cfi_restore 9
    .word 0x0042a903  # lw x18, 4(x5)
    .cfi_restore 18
    .word 0x0082a983  # lw x19, 8(x5)
    .cfi_restore 19
    .word 0x00c2aa03  # lw x20, 12(x5)
    .cfi_restore 20
    .word 0x0102aa83  # lw x21, 16(x5)
    .cfi_restore 21
    .word 0x0142ab03  # lw x22, 20(x5)
    .cfi_restore 22
    .word 0x0182ab83  # lw x23, 24(x5)
    .cfi_restore 23
    .word 0x01c2ac03  # lw x24, 28(x5)
    .cfi_restore 24
    .word 0x0202ac83  # lw x25, 32(x5)
    .cfi_restore 25
    .word 0x0242ad03  # lw x26, 36(x5)
    .cfi_restore 26
    .word 0x0282ad83  # lw x27, 40(x5)
    .cfi_restore 27
    # the caller's x2
    .word 0x04028293  # addi x5, x5, 64
    .cfi_def_cfa 5, 0
    # on to the tail that functions share
    jal x0, factc.tail.1
    .cfi_endproc
    .size aes128_expand, . - aes128_expand
    .section .text.factc.tail.1, "axG", @progbits, factc.tail.1, comdat
    .p2align 2
    .globl factc.tail.1
    .hidden factc.tail.1
    .type factc.tail.1, @function
factc.tail.1:
    .cfi_startproc
    .cfi_def_cfa 5, 0
    # all the room, wiped upward
    .word 0x00012023  # sw x0, 0(x2)
    .word 0x00012223  # sw x0, 4(x2)
    .word 0x00012423  # sw x0, 8(x2)
    .word 0x00012623  # sw x0, 12(x2)
    .word 0x01010113  # addi x2, x2, 16
    .word 0xfe5116e3  # bne x2, x5, -20
    .cfi_def_cfa 2, 0
    # temporaries, wiped
    .word 0x00000293  # addi x5, x0, 0
    .word 0x00000313  # addi x6, x0, 0
    .word 0x00000393  # addi x7, x0, 0
    .word 0x00000593  # addi x11, x0, 0
    .word 0x00000613  # addi x12, x0, 0
    .word 0x00000693  # addi x13, x0, 0
    .word 0x00000713  # addi x14, x0, 0
    .word 0x00000793  # addi x15, x0, 0
    .word 0x00000813  # addi x16, x0, 0
    .word 0x00000893  # addi x17, x0, 0
    .word 0x00000e13  # addi x28, x0, 0
    .word 0x00000e93  # addi x29, x0, 0
    .word 0x00000f13  # addi x30, x0, 0
    .word 0x00000f93  # addi x31, x0, 0
    # back
    .word 0x00008067  # jalr x0, 0(x1)
    .cfi_endproc
    .size factc.tail.1, . - factc.tail.1
    .option pop
