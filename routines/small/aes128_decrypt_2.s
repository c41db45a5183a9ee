# aes128_decrypt_2: made by factc 1.0.0 function; 716 words and 21 shared, 672 bytes of stack, profile 1
    .option push
    .option norvc
    .option norelax
    .cfi_sections .debug_frame
    .section .text.aes128_decrypt_2, "ax", @progbits
    .p2align 2
    .globl aes128_decrypt_2
    .type aes128_decrypt_2, @function
aes128_decrypt_2:
    .cfi_startproc
    # room above the frame
    .word 0xfc010113  # addi x2, x2, -64
    .cfi_def_cfa_offset 64
    # the caller's registers
    .word 0x00912023  # sw x9, 0(x2)
    .cfi_offset 9, -64
    .word 0x01212223  # sw x18, 4(x2)
    .cfi_offset 18, -60
    .word 0x01312423  # sw x19, 8(x2)
    .cfi_offset 19, -56
    .word 0x01412623  # sw x20, 12(x2)
    .cfi_offset 20, -52
    .word 0x01512823  # sw x21, 16(x2)
    .cfi_offset 21, -48
    .word 0x01612a23  # sw x22, 20(x2)
    .cfi_offset 22, -44
    .word 0x01712c23  # sw x23, 24(x2)
    .cfi_offset 23, -40
    .word 0x01812e23  # sw x24, 28(x2)
    .cfi_offset 24, -36
    .word 0x03912023  # sw x25, 32(x2)
    .cfi_offset 25, -32
    .word 0x03a12223  # sw x26, 36(x2)
    .cfi_offset 26, -28
    .word 0x03b12423  # sw x27, 40(x2)
    .cfi_offset 27, -24
    # arguments that are needed behind the body
    .word 0x02a12c23  # sw x10, 56(x2)
    .word 0x02b12e23  # sw x11, 60(x2)
    # the frame's base
    .word 0xda010113  # addi x2, x2, -608
    .cfi_def_cfa 2, 672
    # parameter 0: an array
    .word 0x00050293  # addi x5, x10, 0
    .word 0x00010313  # addi x6, x2, 0
    .word 0x16028393  # addi x7, x5, 352
    .word 0x0002ae03  # lw x28, 0(x5)
    .word 0x01c32023  # sw x28, 0(x6)
    .word 0x00428293  # addi x5, x5, 4
    .word 0x00430313  # addi x6, x6, 4
    .word 0xfe7298e3  # bne x5, x7, -16
    # parameter 1: an array
    .word 0x00058293  # addi x5, x11, 0
    .word 0x16010313  # addi x6, x2, 352
    .word 0x02028393  # addi x7, x5, 32
    .word 0x0002ce03  # lbu x28, 0(x5)
    .word 0x01c30023  # sb x28, 0(x6)
    .word 0x00128293  # addi x5, x5, 1
    .word 0x00130313  # addi x6, x6, 1
    .word 0xfe7298e3  # bne x5, x7, -16
    # the body
    .word 0x555552b7  # lui x5, 0x55555
    .word 0x55528293  # addi x5, x5, 1365
    .word 0x22512c23  # sw x5, 568(x2)
    .word 0x333332b7  # lui x5, 0x33333
    .word 0x33328293  # addi x5, x5, 819
    .word 0x22512e23  # sw x5, 572(x2)
    .word 0x0f0f12b7  # lui x5, 0x0f0f1
    .word 0xf0f28293  # addi x5, x5, -241
    .word 0x24512023  # sw x5, 576(x2)
    .word 0x030f12b7  # lui x5, 0x030f1
    .word 0xc0028293  # addi x5, x5, -1024
    .word 0x24512223  # sw x5, 580(x2)
    .word 0x330032b7  # lui x5, 0x33003
    .word 0x30028293  # addi x5, x5, 768
    .word 0x24512423  # sw x5, 584(x2)
    .word 0x18000313  # addi x6, x0, 384
    .word 0x00230333  # add x6, x6, x2
    .word 0x02000393  # addi x7, x0, 32
    .word 0x006383b3  # add x7, x7, x6
    .word 0x406382b3  # sub x5, x7, x6
    .word 0x00029463  # bne x5, x0, 8
    .word 0x0100006f  # jal x0, 16
    .word 0x00032023  # sw x0, 0(x6)
    .word 0x00430313  # addi x6, x6, 4
    .word 0xfedff06f  # jal x0, -20
    .word 0xfff00d93  # addi x27, x0, -1
    .word 0x001d8d93  # addi x27, x27, 1
    .word 0x001df293  # andi x5, x27, 1
    .word 0x00429293  # slli x5, x5, 4
    .word 0x001dd313  # srli x6, x27, 1
    .word 0x00231313  # slli x6, x6, 2
    .word 0x00628d33  # add x26, x5, x6
    .word 0x002d1493  # slli x9, x26, 2
    .word 0x002484b3  # add x9, x9, x2
    .word 0x002d0333  # add x6, x26, x2
    .word 0x16034303  # lbu x6, 352(x6)
    .word 0x002d03b3  # add x7, x26, x2
    .word 0x1613c383  # lbu x7, 353(x7)
    .word 0x00839393  # slli x7, x7, 8
    .word 0x00736333  # or x6, x6, x7
    .word 0x002d03b3  # add x7, x26, x2
    .word 0x1623c383  # lbu x7, 354(x7)
    .word 0x01039393  # slli x7, x7, 16
    .word 0x00736333  # or x6, x6, x7
    .word 0x002d03b3  # add x7, x26, x2
    .word 0x1633c383  # lbu x7, 355(x7)
    .word 0x01839393  # slli x7, x7, 24
    .word 0x00736333  # or x6, x6, x7
    .word 0x002d9293  # slli x5, x27, 2
    .word 0x002282b3  # add x5, x5, x2
    .word 0x1862a023  # sw x6, 384(x5)
    .word 0xff9d8293  # addi x5, x27, -7
    .word 0xf8029ce3  # bne x5, x0, -104
    .word 0xfff00d93  # addi x27, x0, -1
    .word 0x001d8d93  # addi x27, x27, 1
    .word 0x001d9d13  # slli x26, x27, 1
    .word 0x002d1493  # slli x9, x26, 2
    .word 0x002484b3  # add x9, x9, x2
    .word 0x1804a283  # lw x5, 384(x9)
    .word 0x0012d293  # srli x5, x5, 1
    .word 0x1844a303  # lw x6, 388(x9)
    .word 0x0062c2b3  # xor x5, x5, x6
    .word 0x23812303  # lw x6, 568(x2)
    .word 0x0062f533  # and x10, x5, x6
    .word 0x1844a283  # lw x5, 388(x9)
    .word 0x00a2c2b3  # xor x5, x5, x10
    .word 0x1854a223  # sw x5, 388(x9)
    .word 0x1804a283  # lw x5, 384(x9)
    .word 0x00151313  # slli x6, x10, 1
    .word 0x0062c2b3  # xor x5, x5, x6
    .word 0x1854a023  # sw x5, 384(x9)
    .word 0xffdd8293  # addi x5, x27, -3
    .word 0xfa029ce3  # bne x5, x0, -72
    .word 0xfff00d93  # addi x27, x0, -1
    .word 0x001d8d93  # addi x27, x27, 1
    .word 0x002df313  # andi x6, x27, 2
    .word 0x006d8d33  # add x26, x27, x6
    .word 0x002d1493  # slli x9, x26, 2
    .word 0x002484b3  # add x9, x9, x2
    .word 0x1804a283  # lw x5, 384(x9)
    .word 0x0022d293  # srli x5, x5, 2
    .word 0x1884a303  # lw x6, 392(x9)
    .word 0x0062c2b3  # xor x5, x5, x6
    .word 0x23c12303  # lw x6, 572(x2)
    .word 0x0062f533  # and x10, x5, x6
    .word 0x1884a283  # lw x5, 392(x9)
    .word 0x00a2c2b3  # xor x5, x5, x10
    .word 0x1854a423  # sw x5, 392(x9)
    .word 0x1804a283  # lw x5, 384(x9)
    .word 0x00251313  # slli x6, x10, 2
    .word 0x0062c2b3  # xor x5, x5, x6
    .word 0x1854a023  # sw x5, 384(x9)
    .word 0xffdd8293  # addi x5, x27, -3
    .word 0xfa029ae3  # bne x5, x0, -76
    .word 0xfff00d13  # addi x26, x0, -1
    .word 0x001d0d13  # addi x26, x26, 1
    .word 0x002d1493  # slli x9, x26, 2
    .word 0x002484b3  # add x9, x9, x2
    .word 0x1804a283  # lw x5, 384(x9)
    .word 0x0042d293  # srli x5, x5, 4
    .word 0x1904a303  # lw x6, 400(x9)
    .word 0x0062c2b3  # xor x5, x5, x6
    .word 0x24012303  # lw x6, 576(x2)
    .word 0x0062f533  # and x10, x5, x6
    .word 0x1904a283  # lw x5, 400(x9)
    .word 0x00a2c2b3  # xor x5, x5, x10
    .word 0x1854a823  # sw x5, 400(x9)
    .word 0x1804a283  # lw x5, 384(x9)
    .word 0x00451313  # slli x6, x10, 4
    .word 0x0062c2b3  # xor x5, x5, x6
    .word 0x1854a023  # sw x5, 384(x9)
    .word 0xffdd0293  # addi x5, x26, -3
    .word 0xfa029ee3  # bne x5, x0, -68
    .word 0xfff00d13  # addi x26, x0, -1
    .word 0x001d0d13  # addi x26, x26, 1
    .word 0x002d1493  # slli x9, x26, 2
    .word 0x002484b3  # add x9, x9, x2
    .word 0x1804a283  # lw x5, 384(x9)
    .word 0x050d0313  # addi x6, x26, 80
    .word 0x00231313  # slli x6, x6, 2
    .word 0x00230333  # add x6, x6, x2
    .word 0x00032303  # lw x6, 0(x6)
    .word 0x0062c2b3  # xor x5, x5, x6
    .word 0x1854a023  # sw x5, 384(x9)
    .word 0xff9d0293  # addi x5, x26, -7
    .word 0xfc029ae3  # bne x5, x0, -44
    .word 0xfff00d93  # addi x27, x0, -1
    .word 0x001d8d93  # addi x27, x27, 1
    .word 0xfff00d13  # addi x26, x0, -1
    .word 0x001d0d13  # addi x26, x26, 1
    .word 0x002d1493  # slli x9, x26, 2
    .word 0x002484b3  # add x9, x9, x2
    .word 0x1804a503  # lw x10, 384(x9)
    .word 0x00455313  # srli x6, x10, 4
    .word 0x006542b3  # xor x5, x10, x6
    .word 0x24412303  # lw x6, 580(x2)
    .word 0x0062f5b3  # and x11, x5, x6
    .word 0x00b542b3  # xor x5, x10, x11
    .word 0x00459313  # slli x6, x11, 4
    .word 0x0062c533  # xor x10, x5, x6
    .word 0x00255313  # srli x6, x10, 2
    .word 0x006542b3  # xor x5, x10, x6
    .word 0x24812303  # lw x6, 584(x2)
    .word 0x0062f5b3  # and x11, x5, x6
    .word 0x00b542b3  # xor x5, x10, x11
    .word 0x00259313  # slli x6, x11, 2
    .word 0x0062c2b3  # xor x5, x5, x6
    .word 0x1854a023  # sw x5, 384(x9)
    .word 0xff9d0293  # addi x5, x26, -7
    .word 0xfa0298e3  # bne x5, x0, -80
    .word 0x18012283  # lw x5, 384(x2)
    .word 0xfff2c513  # xori x10, x5, -1
    .word 0x18412283  # lw x5, 388(x2)
    .word 0xfff2c593  # xori x11, x5, -1
    .word 0x18812703  # lw x14, 392(x2)
    .word 0x18c12883  # lw x17, 396(x2)
    .word 0x19012b03  # lw x22, 400(x2)
    .word 0x19412283  # lw x5, 404(x2)
    .word 0xfff2c613  # xori x12, x5, -1
    .word 0x19812283  # lw x5, 408(x2)
    .word 0xfff2c693  # xori x13, x5, -1
    .word 0x19c12783  # lw x15, 412(x2)
    .word 0x0165c2b3  # xor x5, x11, x22
    .word 0x00d2c2b3  # xor x5, x5, x13
    .word 0x18512e23  # sw x5, 412(x2)
    .word 0x011542b3  # xor x5, x10, x17
    .word 0x00c2c2b3  # xor x5, x5, x12
    .word 0x18512c23  # sw x5, 408(x2)
    .word 0x00e7c2b3  # xor x5, x15, x14
    .word 0x0162c2b3  # xor x5, x5, x22
    .word 0x18512a23  # sw x5, 404(x2)
    .word 0x00b6c2b3  # xor x5, x13, x11
    .word 0x0112c2b3  # xor x5, x5, x17
    .word 0x18512823  # sw x5, 400(x2)
    .word 0x00a642b3  # xor x5, x12, x10
    .word 0x00e2c2b3  # xor x5, x5, x14
    .word 0x18512623  # sw x5, 396(x2)
    .word 0x00fb42b3  # xor x5, x22, x15
    .word 0x00b2c2b3  # xor x5, x5, x11
    .word 0x18512423  # sw x5, 392(x2)
    .word 0x00d8c2b3  # xor x5, x17, x13
    .word 0x00a2c2b3  # xor x5, x5, x10
    .word 0x18512223  # sw x5, 388(x2)
    .word 0x00c742b3  # xor x5, x14, x12
    .word 0x00f2c2b3  # xor x5, x5, x15
    .word 0x18512023  # sw x5, 384(x2)
    .word 0x19c12503  # lw x10, 412(x2)
    .word 0x19812803  # lw x16, 408(x2)
    .word 0x19412703  # lw x14, 404(x2)
    .word 0x19012883  # lw x17, 400(x2)
    .word 0x18c12983  # lw x19, 396(x2)
    .word 0x18812b03  # lw x22, 392(x2)
    .word 0x18412783  # lw x15, 388(x2)
    .word 0x18012583  # lw x11, 384(x2)
    .word 0x0168c2b3  # xor x5, x17, x22
    .word 0x1a512023  # sw x5, 416(x2)
    .word 0x00f54633  # xor x12, x10, x15
    .word 0x011542b3  # xor x5, x10, x17
    .word 0x1a512223  # sw x5, 420(x2)
    .word 0x016546b3  # xor x13, x10, x22
    .word 0x00e84933  # xor x18, x16, x14
    .word 0x00b94733  # xor x14, x18, x11
    .word 0x011742b3  # xor x5, x14, x17
    .word 0x1a512423  # sw x5, 424(x2)
    .word 0x1a012303  # lw x6, 416(x2)
    .word 0x006642b3  # xor x5, x12, x6
    .word 0x1a512623  # sw x5, 428(x2)
    .word 0x00a742b3  # xor x5, x14, x10
    .word 0x1a512823  # sw x5, 432(x2)
    .word 0x00f742b3  # xor x5, x14, x15
    .word 0x1a512a23  # sw x5, 436(x2)
    .word 0x1b412283  # lw x5, 436(x2)
    .word 0x00d2c2b3  # xor x5, x5, x13
    .word 0x1a512c23  # sw x5, 440(x2)
    .word 0x1ac12303  # lw x6, 428(x2)
    .word 0x0069c8b3  # xor x17, x19, x6
    .word 0x0168c7b3  # xor x15, x17, x22
    .word 0x0108cb33  # xor x22, x17, x16
    .word 0x00b7c2b3  # xor x5, x15, x11
    .word 0x1a512e23  # sw x5, 444(x2)
    .word 0x0127c833  # xor x16, x15, x18
    .word 0x1a412303  # lw x6, 420(x2)
    .word 0x006b48b3  # xor x17, x22, x6
    .word 0x0115c2b3  # xor x5, x11, x17
    .word 0x1c512023  # sw x5, 448(x2)
    .word 0x011842b3  # xor x5, x16, x17
    .word 0x1c512223  # sw x5, 452(x2)
    .word 0x00d84bb3  # xor x23, x16, x13
    .word 0x01194933  # xor x18, x18, x17
    .word 0x01264ab3  # xor x21, x12, x18
    .word 0x01254c33  # xor x24, x10, x18
    .word 0x1ac12283  # lw x5, 428(x2)
    .word 0x00f2f533  # and x10, x5, x15
    .word 0x1b812283  # lw x5, 440(x2)
    .word 0x1bc12303  # lw x6, 444(x2)
    .word 0x0062f9b3  # and x19, x5, x6
    .word 0x00a9ca33  # xor x20, x19, x10
    .word 0x1a812283  # lw x5, 424(x2)
    .word 0x00b2f9b3  # and x19, x5, x11
    .word 0x00a9ccb3  # xor x25, x19, x10
    .word 0x01267533  # and x10, x12, x18
    .word 0x1b412283  # lw x5, 436(x2)
    .word 0x00e2f9b3  # and x19, x5, x14
    .word 0x00a9c2b3  # xor x5, x19, x10
    .word 0x1c512823  # sw x5, 464(x2)
    .word 0x1b012283  # lw x5, 432(x2)
    .word 0x1c012303  # lw x6, 448(x2)
    .word 0x0062f9b3  # and x19, x5, x6
    .word 0x00a9c2b3  # xor x5, x19, x10
    .word 0x1c512423  # sw x5, 456(x2)
    .word 0x1a412283  # lw x5, 420(x2)
    .word 0x0112f533  # and x10, x5, x17
    .word 0x1a012283  # lw x5, 416(x2)
    .word 0x1c412303  # lw x6, 452(x2)
    .word 0x0062f9b3  # and x19, x5, x6
    .word 0x00a9c9b3  # xor x19, x19, x10
    .word 0x0106f2b3  # and x5, x13, x16
    .word 0x1c512623  # sw x5, 460(x2)
    .word 0x1cc12283  # lw x5, 460(x2)
    .word 0x00a2c533  # xor x10, x5, x10
    .word 0x013a4a33  # xor x20, x20, x19
    .word 0x00acccb3  # xor x25, x25, x10
    .word 0x1d012283  # lw x5, 464(x2)
    .word 0x0132c9b3  # xor x19, x5, x19
    .word 0x1c812283  # lw x5, 456(x2)
    .word 0x00a2c2b3  # xor x5, x5, x10
    .word 0x1c512823  # sw x5, 464(x2)
    .word 0x016a4b33  # xor x22, x20, x22
    .word 0x017cc533  # xor x10, x25, x23
    .word 0x0159cbb3  # xor x23, x19, x21
    .word 0x1d012283  # lw x5, 464(x2)
    .word 0x0182c9b3  # xor x19, x5, x24
    .word 0x00ab4c33  # xor x24, x22, x10
    .word 0x017b7a33  # and x20, x22, x23
    .word 0x0149cab3  # xor x21, x19, x20
    .word 0x015c7b33  # and x22, x24, x21
    .word 0x00ab4b33  # xor x22, x22, x10
    .word 0x013bccb3  # xor x25, x23, x19
    .word 0x01454533  # xor x10, x10, x20
    .word 0x01957533  # and x10, x10, x25
    .word 0x01354533  # xor x10, x10, x19
    .word 0x00abca33  # xor x20, x23, x10
    .word 0x00aacbb3  # xor x23, x21, x10
    .word 0x0179fbb3  # and x23, x19, x23
    .word 0x014bc9b3  # xor x19, x23, x20
    .word 0x017acbb3  # xor x23, x21, x23
    .word 0x017b7bb3  # and x23, x22, x23
    .word 0x017c4bb3  # xor x23, x24, x23
    .word 0x013bcab3  # xor x21, x23, x19
    .word 0x00ab4c33  # xor x24, x22, x10
    .word 0x017b4a33  # xor x20, x22, x23
    .word 0x01354cb3  # xor x25, x10, x19
    .word 0x015c42b3  # xor x5, x24, x21
    .word 0x1c512823  # sw x5, 464(x2)
    .word 0x00fcf2b3  # and x5, x25, x15
    .word 0x1c512423  # sw x5, 456(x2)
    .word 0x1bc12303  # lw x6, 444(x2)
    .word 0x0069f2b3  # and x5, x19, x6
    .word 0x1a512e23  # sw x5, 444(x2)
    .word 0x00b575b3  # and x11, x10, x11
    .word 0x012a77b3  # and x15, x20, x18
    .word 0x00ebf733  # and x14, x23, x14
    .word 0x1c012303  # lw x6, 448(x2)
    .word 0x006b7933  # and x18, x22, x6
    .word 0x011c72b3  # and x5, x24, x17
    .word 0x1c512023  # sw x5, 448(x2)
    .word 0x1d012283  # lw x5, 464(x2)
    .word 0x1c412303  # lw x6, 452(x2)
    .word 0x0062f8b3  # and x17, x5, x6
    .word 0x010af2b3  # and x5, x21, x16
    .word 0x1c512223  # sw x5, 452(x2)
    .word 0x1ac12303  # lw x6, 428(x2)
    .word 0x006cf2b3  # and x5, x25, x6
    .word 0x1a512623  # sw x5, 428(x2)
    .word 0x1b812303  # lw x6, 440(x2)
    .word 0x0069f833  # and x16, x19, x6
    .word 0x1a812303  # lw x6, 424(x2)
    .word 0x006579b3  # and x19, x10, x6
    .word 0x00ca7533  # and x10, x20, x12
    .word 0x1b412303  # lw x6, 436(x2)
    .word 0x006bfbb3  # and x23, x23, x6
    .word 0x1b012303  # lw x6, 432(x2)
    .word 0x006b72b3  # and x5, x22, x6
    .word 0x1a512a23  # sw x5, 436(x2)
    .word 0x1a412303  # lw x6, 420(x2)
    .word 0x006c7633  # and x12, x24, x6
    .word 0x1d012283  # lw x5, 464(x2)
    .word 0x1a012303  # lw x6, 416(x2)
    .word 0x0062fb33  # and x22, x5, x6
    .word 0x00daf2b3  # and x5, x21, x13
    .word 0x1a512023  # sw x5, 416(x2)
    .word 0x01664633  # xor x12, x12, x22
    .word 0x013849b3  # xor x19, x16, x19
    .word 0x017946b3  # xor x13, x18, x23
    .word 0x1ac12283  # lw x5, 428(x2)
    .word 0x0102c833  # xor x16, x5, x16
    .word 0x00a5cbb3  # xor x23, x11, x10
    .word 0x0125c933  # xor x18, x11, x18
    .word 0x1c412303  # lw x6, 452(x2)
    .word 0x0068c2b3  # xor x5, x17, x6
    .word 0x1a512223  # sw x5, 420(x2)
    .word 0x1c812283  # lw x5, 456(x2)
    .word 0x00f2c5b3  # xor x11, x5, x15
    .word 0x1c012283  # lw x5, 448(x2)
    .word 0x0112c2b3  # xor x5, x5, x17
    .word 0x1a512623  # sw x5, 428(x2)
    .word 0x1a012303  # lw x6, 416(x2)
    .word 0x006b42b3  # xor x5, x22, x6
    .word 0x1a512023  # sw x5, 416(x2)
    .word 0x00d54ab3  # xor x21, x10, x13
    .word 0x00bbc533  # xor x10, x23, x11
    .word 0x00c748b3  # xor x17, x14, x12
    .word 0x1ac12303  # lw x6, 428(x2)
    .word 0x0067cb33  # xor x22, x15, x6
    .word 0x00a64bb3  # xor x23, x12, x10
    .word 0x1b412283  # lw x5, 436(x2)
    .word 0x00a2c633  # xor x12, x5, x10
    .word 0x1a412283  # lw x5, 420(x2)
    .word 0x0112c533  # xor x10, x5, x17
    .word 0x011848b3  # xor x17, x16, x17
    .word 0x01674733  # xor x14, x14, x22
    .word 0x00a64633  # xor x12, x12, x10
    .word 0x1bc12283  # lw x5, 444(x2)
    .word 0x0112c7b3  # xor x15, x5, x17
    .word 0x011b48b3  # xor x17, x22, x17
    .word 0x00aac2b3  # xor x5, x21, x10
    .word 0xfff2cb13  # xori x22, x5, -1
    .word 0x0176c2b3  # xor x5, x13, x23
    .word 0xfff2c693  # xori x13, x5, -1
    .word 0x00c74833  # xor x16, x14, x12
    .word 0x00f5c533  # xor x10, x11, x15
    .word 0x00f945b3  # xor x11, x18, x15
    .word 0x00c9c633  # xor x12, x19, x12
    .word 0x00a742b3  # xor x5, x14, x10
    .word 0xfff2c713  # xori x14, x5, -1
    .word 0x1a012283  # lw x5, 416(x2)
    .word 0x0102c2b3  # xor x5, x5, x16
    .word 0xfff2c793  # xori x15, x5, -1
    .word 0x19112e23  # sw x17, 412(x2)
    .word 0x18e12c23  # sw x14, 408(x2)
    .word 0x18f12a23  # sw x15, 404(x2)
    .word 0x18a12823  # sw x10, 400(x2)
    .word 0x18b12623  # sw x11, 396(x2)
    .word 0x18c12423  # sw x12, 392(x2)
    .word 0x19612223  # sw x22, 388(x2)
    .word 0x18d12023  # sw x13, 384(x2)
    .word 0x18012283  # lw x5, 384(x2)
    .word 0xfff2c513  # xori x10, x5, -1
    .word 0x18412283  # lw x5, 388(x2)
    .word 0xfff2c593  # xori x11, x5, -1
    .word 0x18812703  # lw x14, 392(x2)
    .word 0x18c12883  # lw x17, 396(x2)
    .word 0x19012b03  # lw x22, 400(x2)
    .word 0x19412283  # lw x5, 404(x2)
    .word 0xfff2c613  # xori x12, x5, -1
    .word 0x19812283  # lw x5, 408(x2)
    .word 0xfff2c693  # xori x13, x5, -1
    .word 0x19c12783  # lw x15, 412(x2)
    .word 0x0165c2b3  # xor x5, x11, x22
    .word 0x00d2c2b3  # xor x5, x5, x13
    .word 0x18512e23  # sw x5, 412(x2)
    .word 0x011542b3  # xor x5, x10, x17
    .word 0x00c2c2b3  # xor x5, x5, x12
    .word 0x18512c23  # sw x5, 408(x2)
    .word 0x00e7c2b3  # xor x5, x15, x14
    .word 0x0162c2b3  # xor x5, x5, x22
    .word 0x18512a23  # sw x5, 404(x2)
    .word 0x00b6c2b3  # xor x5, x13, x11
    .word 0x0112c2b3  # xor x5, x5, x17
    .word 0x18512823  # sw x5, 400(x2)
    .word 0x00a642b3  # xor x5, x12, x10
    .word 0x00e2c2b3  # xor x5, x5, x14
    .word 0x18512623  # sw x5, 396(x2)
    .word 0x00fb42b3  # xor x5, x22, x15
    .word 0x00b2c2b3  # xor x5, x5, x11
    .word 0x18512423  # sw x5, 392(x2)
    .word 0x00d8c2b3  # xor x5, x17, x13
    .word 0x00a2c2b3  # xor x5, x5, x10
    .word 0x18512223  # sw x5, 388(x2)
    .word 0x00c742b3  # xor x5, x14, x12
    .word 0x00f2c2b3  # xor x5, x5, x15
    .word 0x18512023  # sw x5, 384(x2)
    .word 0x04800293  # addi x5, x0, 72
    .word 0x003d9313  # slli x6, x27, 3
    .word 0x406282b3  # sub x5, x5, x6
    .word 0x1c512a23  # sw x5, 468(x2)
    .word 0xfff00d13  # addi x26, x0, -1
    .word 0x001d0d13  # addi x26, x26, 1
    .word 0x002d1493  # slli x9, x26, 2
    .word 0x002484b3  # add x9, x9, x2
    .word 0x1804a283  # lw x5, 384(x9)
    .word 0x1d412303  # lw x6, 468(x2)
    .word 0x01a30333  # add x6, x6, x26
    .word 0x00231313  # slli x6, x6, 2
    .word 0x00230333  # add x6, x6, x2
    .word 0x00032303  # lw x6, 0(x6)
    .word 0x0062c2b3  # xor x5, x5, x6
    .word 0x1854a023  # sw x5, 384(x9)
    .word 0xff9d0293  # addi x5, x26, -7
    .word 0xfc0298e3  # bne x5, x0, -48
    .word 0x00900313  # addi x6, x0, 9
    .word 0x226dfc63  # bgeu x27, x6, 568
    .word 0x1d800313  # addi x6, x0, 472
    .word 0x00230333  # add x6, x6, x2
    .word 0x02000393  # addi x7, x0, 32
    .word 0x006383b3  # add x7, x7, x6
    .word 0x406382b3  # sub x5, x7, x6
    .word 0x00029463  # bne x5, x0, 8
    .word 0x0100006f  # jal x0, 16
    .word 0x00032023  # sw x0, 0(x6)
    .word 0x00430313  # addi x6, x6, 4
    .word 0xfedff06f  # jal x0, -20
    .word 0xfff00d13  # addi x26, x0, -1
    .word 0x001d0d13  # addi x26, x26, 1
    .word 0x002d1493  # slli x9, x26, 2
    .word 0x002484b3  # add x9, x9, x2
    .word 0x1804a283  # lw x5, 384(x9)
    .word 0x1804a303  # lw x6, 384(x9)
    .word 0x01031f13  # slli x30, x6, 16
    .word 0x01035313  # srli x6, x6, 16
    .word 0x006f0333  # add x6, x30, x6
    .word 0x0062c2b3  # xor x5, x5, x6
    .word 0x1c54ac23  # sw x5, 472(x9)
    .word 0xff9d0293  # addi x5, x26, -7
    .word 0xfc029ae3  # bne x5, x0, -44
    .word 0x18012283  # lw x5, 384(x2)
    .word 0x1f012303  # lw x6, 496(x2)
    .word 0x0062c2b3  # xor x5, x5, x6
    .word 0x18512023  # sw x5, 384(x2)
    .word 0x18412283  # lw x5, 388(x2)
    .word 0x1f012303  # lw x6, 496(x2)
    .word 0x0062c2b3  # xor x5, x5, x6
    .word 0x1f412303  # lw x6, 500(x2)
    .word 0x0062c2b3  # xor x5, x5, x6
    .word 0x18512223  # sw x5, 388(x2)
    .word 0x18812283  # lw x5, 392(x2)
    .word 0x1d812303  # lw x6, 472(x2)
    .word 0x0062c2b3  # xor x5, x5, x6
    .word 0x1f412303  # lw x6, 500(x2)
    .word 0x0062c2b3  # xor x5, x5, x6
    .word 0x18512423  # sw x5, 392(x2)
    .word 0x18c12283  # lw x5, 396(x2)
    .word 0x1dc12303  # lw x6, 476(x2)
    .word 0x0062c2b3  # xor x5, x5, x6
    .word 0x1f012303  # lw x6, 496(x2)
    .word 0x0062c2b3  # xor x5, x5, x6
    .word 0x18512623  # sw x5, 396(x2)
    .word 0x19012283  # lw x5, 400(x2)
    .word 0x1e012303  # lw x6, 480(x2)
    .word 0x0062c2b3  # xor x5, x5, x6
    .word 0x1f012303  # lw x6, 496(x2)
    .word 0x0062c2b3  # xor x5, x5, x6
    .word 0x1f412303  # lw x6, 500(x2)
    .word 0x0062c2b3  # xor x5, x5, x6
    .word 0x18512823  # sw x5, 400(x2)
    .word 0x19412283  # lw x5, 404(x2)
    .word 0x1e412303  # lw x6, 484(x2)
    .word 0x0062c2b3  # xor x5, x5, x6
    .word 0x1f412303  # lw x6, 500(x2)
    .word 0x0062c2b3  # xor x5, x5, x6
    .word 0x18512a23  # sw x5, 404(x2)
    .word 0x19812283  # lw x5, 408(x2)
    .word 0x1e812303  # lw x6, 488(x2)
    .word 0x0062c2b3  # xor x5, x5, x6
    .word 0x18512c23  # sw x5, 408(x2)
    .word 0x19c12283  # lw x5, 412(x2)
    .word 0x1ec12303  # lw x6, 492(x2)
    .word 0x0062c2b3  # xor x5, x5, x6
    .word 0x18512e23  # sw x5, 412(x2)
    .word 0x1f800313  # addi x6, x0, 504
    .word 0x00230333  # add x6, x6, x2
    .word 0x02000393  # addi x7, x0, 32
    .word 0x006383b3  # add x7, x7, x6
    .word 0x406382b3  # sub x5, x7, x6
    .word 0x00029463  # bne x5, x0, 8
    .word 0x0100006f  # jal x0, 16
    .word 0x00032023  # sw x0, 0(x6)
    .word 0x00430313  # addi x6, x6, 4
    .word 0xfedff06f  # jal x0, -20
    .word 0x21800313  # addi x6, x0, 536
    .word 0x00230333  # add x6, x6, x2
    .word 0x02000393  # addi x7, x0, 32
    .word 0x006383b3  # add x7, x7, x6
    .word 0x406382b3  # sub x5, x7, x6
    .word 0x00029463  # bne x5, x0, 8
    .word 0x0100006f  # jal x0, 16
    .word 0x00032023  # sw x0, 0(x6)
    .word 0x00430313  # addi x6, x6, 4
    .word 0xfedff06f  # jal x0, -20
    .word 0xfff00d13  # addi x26, x0, -1
    .word 0x001d0d13  # addi x26, x26, 1
    .word 0x002d1493  # slli x9, x26, 2
    .word 0x002484b3  # add x9, x9, x2
    .word 0x1804a283  # lw x5, 384(x9)
    .word 0x01829f13  # slli x30, x5, 24
    .word 0x0082d513  # srli x10, x5, 8
    .word 0x00af0533  # add x10, x30, x10
    .word 0x1804a283  # lw x5, 384(x9)
    .word 0x00a2c5b3  # xor x11, x5, x10
    .word 0x1eb4ac23  # sw x11, 504(x9)
    .word 0x01059f13  # slli x30, x11, 16
    .word 0x0105d313  # srli x6, x11, 16
    .word 0x006f0333  # add x6, x30, x6
    .word 0x006542b3  # xor x5, x10, x6
    .word 0x2054ac23  # sw x5, 536(x9)
    .word 0xff9d0293  # addi x5, x26, -7
    .word 0xfc0290e3  # bne x5, x0, -64
    .word 0x21812283  # lw x5, 536(x2)
    .word 0x21412303  # lw x6, 532(x2)
    .word 0x0062c2b3  # xor x5, x5, x6
    .word 0x18512023  # sw x5, 384(x2)
    .word 0x21c12283  # lw x5, 540(x2)
    .word 0x1f812303  # lw x6, 504(x2)
    .word 0x0062c2b3  # xor x5, x5, x6
    .word 0x21412303  # lw x6, 532(x2)
    .word 0x0062c2b3  # xor x5, x5, x6
    .word 0x18512223  # sw x5, 388(x2)
    .word 0x22012283  # lw x5, 544(x2)
    .word 0x1fc12303  # lw x6, 508(x2)
    .word 0x0062c2b3  # xor x5, x5, x6
    .word 0x18512423  # sw x5, 392(x2)
    .word 0x22412283  # lw x5, 548(x2)
    .word 0x20012303  # lw x6, 512(x2)
    .word 0x0062c2b3  # xor x5, x5, x6
    .word 0x21412303  # lw x6, 532(x2)
    .word 0x0062c2b3  # xor x5, x5, x6
    .word 0x18512623  # sw x5, 396(x2)
    .word 0x22812283  # lw x5, 552(x2)
    .word 0x20412303  # lw x6, 516(x2)
    .word 0x0062c2b3  # xor x5, x5, x6
    .word 0x21412303  # lw x6, 532(x2)
    .word 0x0062c2b3  # xor x5, x5, x6
    .word 0x18512823  # sw x5, 400(x2)
    .word 0x00400d13  # addi x26, x0, 4
    .word 0x001d0d13  # addi x26, x26, 1
    .word 0x002d1493  # slli x9, x26, 2
    .word 0x002484b3  # add x9, x9, x2
    .word 0x2184a283  # lw x5, 536(x9)
    .word 0x1f44a303  # lw x6, 500(x9)
    .word 0x0062c2b3  # xor x5, x5, x6
    .word 0x1854a023  # sw x5, 384(x9)
    .word 0xff9d0293  # addi x5, x26, -7
    .word 0xfe0290e3  # bne x5, x0, -32
    .word 0xff7d8293  # addi x5, x27, -9
    .word 0x8c029ee3  # bne x5, x0, -1828
    .word 0xfff00d93  # addi x27, x0, -1
    .word 0x001d8d93  # addi x27, x27, 1
    .word 0x001d9d13  # slli x26, x27, 1
    .word 0x002d1493  # slli x9, x26, 2
    .word 0x002484b3  # add x9, x9, x2
    .word 0x1804a283  # lw x5, 384(x9)
    .word 0x0012d293  # srli x5, x5, 1
    .word 0x1844a303  # lw x6, 388(x9)
    .word 0x0062c2b3  # xor x5, x5, x6
    .word 0x23812303  # lw x6, 568(x2)
    .word 0x0062f533  # and x10, x5, x6
    .word 0x1844a283  # lw x5, 388(x9)
    .word 0x00a2c2b3  # xor x5, x5, x10
    .word 0x1854a223  # sw x5, 388(x9)
    .word 0x1804a283  # lw x5, 384(x9)
    .word 0x00151313  # slli x6, x10, 1
    .word 0x0062c2b3  # xor x5, x5, x6
    .word 0x1854a023  # sw x5, 384(x9)
    .word 0xffdd8293  # addi x5, x27, -3
    .word 0xfa029ce3  # bne x5, x0, -72
    .word 0xfff00d93  # addi x27, x0, -1
    .word 0x001d8d93  # addi x27, x27, 1
    .word 0x002df313  # andi x6, x27, 2
    .word 0x006d8d33  # add x26, x27, x6
    .word 0x002d1493  # slli x9, x26, 2
    .word 0x002484b3  # add x9, x9, x2
    .word 0x1804a283  # lw x5, 384(x9)
    .word 0x0022d293  # srli x5, x5, 2
    .word 0x1884a303  # lw x6, 392(x9)
    .word 0x0062c2b3  # xor x5, x5, x6
    .word 0x23c12303  # lw x6, 572(x2)
    .word 0x0062f533  # and x10, x5, x6
    .word 0x1884a283  # lw x5, 392(x9)
    .word 0x00a2c2b3  # xor x5, x5, x10
    .word 0x1854a423  # sw x5, 392(x9)
    .word 0x1804a283  # lw x5, 384(x9)
    .word 0x00251313  # slli x6, x10, 2
    .word 0x0062c2b3  # xor x5, x5, x6
    .word 0x1854a023  # sw x5, 384(x9)
    .word 0xffdd8293  # addi x5, x27, -3
    .word 0xfa029ae3  # bne x5, x0, -76
    .word 0xfff00d13  # addi x26, x0, -1
    .word 0x001d0d13  # addi x26, x26, 1
    .word 0x002d1493  # slli x9, x26, 2
    .word 0x002484b3  # add x9, x9, x2
    .word 0x1804a283  # lw x5, 384(x9)
    .word 0x0042d293  # srli x5, x5, 4
    .word 0x1904a303  # lw x6, 400(x9)
    .word 0x0062c2b3  # xor x5, x5, x6
    .word 0x24012303  # lw x6, 576(x2)
    .word 0x0062f533  # and x10, x5, x6
    .word 0x1904a283  # lw x5, 400(x9)
    .word 0x00a2c2b3  # xor x5, x5, x10
    .word 0x1854a823  # sw x5, 400(x9)
    .word 0x1804a283  # lw x5, 384(x9)
    .word 0x00451313  # slli x6, x10, 4
    .word 0x0062c2b3  # xor x5, x5, x6
    .word 0x1854a023  # sw x5, 384(x9)
    .word 0xffdd0293  # addi x5, x26, -3
    .word 0xfa029ee3  # bne x5, x0, -68
    .word 0xfff00d93  # addi x27, x0, -1
    .word 0x001d8d93  # addi x27, x27, 1
    .word 0x004dd313  # srli x6, x27, 4
    .word 0x002dd393  # srli x7, x27, 2
    .word 0x0033f393  # andi x7, x7, 3
    .word 0x00139393  # slli x7, x7, 1
    .word 0x00730333  # add x6, x6, x7
    .word 0x00231313  # slli x6, x6, 2
    .word 0x00230333  # add x6, x6, x2
    .word 0x18032303  # lw x6, 384(x6)
    .word 0x003df393  # andi x7, x27, 3
    .word 0x00339393  # slli x7, x7, 3
    .word 0x00735333  # srl x6, x6, x7
    .word 0x002d82b3  # add x5, x27, x2
    .word 0x16628023  # sb x6, 352(x5)
    .word 0xfe1d8293  # addi x5, x27, -31
    .word 0xfc0292e3  # bne x5, x0, -60
    # the result
    .word 0x00000513  # addi x10, x0, 0
    # parameter 1: the array, back
    .word 0x16010293  # addi x5, x2, 352
    .word 0x29c12303  # lw x6, 668(x2)
    .word 0x02028393  # addi x7, x5, 32
    .word 0x0002ce03  # lbu x28, 0(x5)
    .word 0x01c30023  # sb x28, 0(x6)
    .word 0x00128293  # addi x5, x5, 1
    .word 0x00130313  # addi x6, x6, 1
    .word 0xfe7298e3  # bne x5, x7, -16
    # above the frame
    .word 0x26010293  # addi x5, x2, 608
    # the caller's registers
    .word 0x0002a483  # lw x9, 0(x5)
    .cfi_restore 9
    .word 0x0042a903  # lw x18, 4(x5)
    .cfi_restore 18
    .word 0x0082a983  # lw x19, 8(x5)
    .cfi_restore 19
    .word 0x00c2aa03  # lw x20, 12(x5)
    .cfi_restore 20
    .word 0x0102aa83  # lw x21, 16(x5)
    .cfi_restore 21
    .word 0x0142ab03  # lw x22, 20(x5)
    .cfi_restore 22
    .word 0x0182ab83  # lw x23, 24(x5)
    .cfi_restore 23
    .word 0x01c2ac03  # lw x24, 28(x5)
    .cfi_restore 24
    .word 0x0202ac83  # lw x25, 32(x5)
    .cfi_restore 25
    .word 0x0242ad03  # lw x26, 36(x5)
    .cfi_restore 26
    .word 0x0282ad83  # lw x27, 40(x5)
    .cfi_restore 27
    # the caller's x2
    .word 0x04028293  # addi x5, x5, 64
    .cfi_def_cfa 5, 0
    # on to the tail that functions share
    jal x0, factc.tail.1
    .cfi_endproc
    .size aes128_decrypt_2, . - aes128_decrypt_2
    .section .text.factc.tail.1, "axG", @progbits, factc.tail.1, comdat
    .p2align 2
    .globl factc.tail.1
    .hidden factc.tail.1
    .type factc.tail.1, @function
factc.tail.1:
    .cfi_startproc
    .cfi_def_cfa 5, 0
    # all the room, wiped upward
    .word 0x00012023  # sw x0, 0(x2)
    .word 0x00012223  # sw x0, 4(x2)
    .word 0x00012423  # sw x0, 8(x2)
    .word 0x00012623  # sw x0, 12(x2)
    .word 0x01010113  # addi x2, x2, 16
    .word 0xfe5116e3  # bne x2, x5, -20
    .cfi_def_cfa 2, 0
    # temporaries, wiped
    .word 0x00000293  # addi x5, x0, 0
    .word 0x00000313  # addi x6, x0, 0
    .word 0x00000393  # addi x7, x0, 0
    .word 0x00000593  # addi x11, x0, 0
    .word 0x00000613  # addi x12, x0, 0
    .word 0x00000693  # addi x13, x0, 0
    .word 0x00000713  # addi x14, x0, 0
    .word 0x00000793  # addi x15, x0, 0
    .word 0x00000813  # addi x16, x0, 0
    .word 0x00000893  # addi x17, x0, 0
    .word 0x00000e13  # addi x28, x0, 0
    .word 0x00000e93  # addi x29, x0, 0
    .word 0x00000f13  # addi x30, x0, 0
    .word 0x00000f93  # addi x31, x0, 0
    # back
    .word 0x00008067  # jalr x0, 0(x1)
    .cfi_endproc
    .size factc.tail.1, . - factc.tail.1
    .option pop
