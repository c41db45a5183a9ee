# aes128_ctr: made by factc 1.0.0 function; 754 words and 21 shared, 976 bytes of stack, profile 1
    .option push
    .option norvc
    .option norelax
    .cfi_sections .debug_frame
    .section .text.aes128_ctr, "ax", @progbits
    .p2align 2
    .globl aes128_ctr
    .type aes128_ctr, @function
aes128_ctr:
    .cfi_startproc
    # room above the frame
    .word 0xfc010113  # addi x2, x2, -64
    .cfi_def_cfa_offset 64
    # the caller's registers
    .word 0x00812023  # sw x8, 0(x2)
    .cfi_offset 8, -64
    .word 0x01212223  # sw x18, 4(x2)
    .cfi_offset 18, -60
    .word 0x01312423  # sw x19, 8(x2)
    .cfi_offset 19, -56
    .word 0x01412623  # sw x20, 12(x2)
    .cfi_offset 20, -52
    .word 0x01512823  # sw x21, 16(x2)
    .cfi_offset 21, -48
    .word 0x01612a23  # sw x22, 20(x2)
    .cfi_offset 22, -44
    .word 0x01712c23  # sw x23, 24(x2)
    .cfi_offset 23, -40
    .word 0x01812e23  # sw x24, 28(x2)
    .cfi_offset 24, -36
    .word 0x03912023  # sw x25, 32(x2)
    .cfi_offset 25, -32
    .word 0x03a12223  # sw x26, 36(x2)
    .cfi_offset 26, -28
    .word 0x03b12423  # sw x27, 40(x2)
    .cfi_offset 27, -24
    # arguments that are needed behind the body
    .word 0x02a12a23  # sw x10, 52(x2)
    .word 0x02b12c23  # sw x11, 56(x2)
    .word 0x02c12e23  # sw x12, 60(x2)
    # the frame's base
    .word 0xc7010113  # addi x2, x2, -912
    .cfi_def_cfa 2, 976
    # parameter 0: an array
    .word 0x00050293  # addi x5, x10, 0
    .word 0x00010313  # addi x6, x2, 0
    .word 0x16028393  # addi x7, x5, 352
    .word 0x0002ae03  # lw x28, 0(x5)
    .word 0x01c32023  # sw x28, 0(x6)
    .word 0x00428293  # addi x5, x5, 4
    .word 0x00430313  # addi x6, x6, 4
    .word 0xfe7298e3  # bne x5, x7, -16
    # parameter 1: an array
    .word 0x00058293  # addi x5, x11, 0
    .word 0x16010313  # addi x6, x2, 352
    .word 0x01028393  # addi x7, x5, 16
    .word 0x0002ce03  # lbu x28, 0(x5)
    .word 0x01c30023  # sb x28, 0(x6)
    .word 0x00128293  # addi x5, x5, 1
    .word 0x00130313  # addi x6, x6, 1
    .word 0xfe7298e3  # bne x5, x7, -16
    # parameter 2: an array
    .word 0x00060293  # addi x5, x12, 0
    .word 0x17010313  # addi x6, x2, 368
    .word 0x10028393  # addi x7, x5, 256
    .word 0x0002ce03  # lbu x28, 0(x5)
    .word 0x01c30023  # sb x28, 0(x6)
    .word 0x00128293  # addi x5, x5, 1
    .word 0x00130313  # addi x6, x6, 1
    .word 0xfe7298e3  # bne x5, x7, -16
    # parameter 3: a word
    .word 0x26d12823  # sw x13, 624(x2)
    # the body
    .word 0x000102b7  # lui x5, 0x00010
    .word 0xf0028293  # addi x5, x5, -256
    .word 0x34512623  # sw x5, 844(x2)
    .word 0x00ff02b7  # lui x5, 0x00ff0
    .word 0x00028293  # addi x5, x5, 0
    .word 0x34512823  # sw x5, 848(x2)
    .word 0x555552b7  # lui x5, 0x55555
    .word 0x55528293  # addi x5, x5, 1365
    .word 0x34512a23  # sw x5, 852(x2)
    .word 0x333332b7  # lui x5, 0x33333
    .word 0x33328293  # addi x5, x5, 819
    .word 0x34512c23  # sw x5, 856(x2)
    .word 0x0f0f12b7  # lui x5, 0x0f0f1
    .word 0xf0f28293  # addi x5, x5, -241
    .word 0x34512e23  # sw x5, 860(x2)
    .word 0x0c0f02b7  # lui x5, 0x0c0f0
    .word 0x30028293  # addi x5, x5, 768
    .word 0x36512023  # sw x5, 864(x2)
    .word 0x330032b7  # lui x5, 0x33003
    .word 0x30028293  # addi x5, x5, 768
    .word 0x36512223  # sw x5, 868(x2)
    .word 0x27400313  # addi x6, x0, 628
    .word 0x00230333  # add x6, x6, x2
    .word 0x02000393  # addi x7, x0, 32
    .word 0x006383b3  # add x7, x7, x6
    .word 0x406382b3  # sub x5, x7, x6
    .word 0x00029463  # bne x5, x0, 8
    .word 0x0100006f  # jal x0, 16
    .word 0x00032023  # sw x0, 0(x6)
    .word 0x00430313  # addi x6, x6, 4
    .word 0xfedff06f  # jal x0, -20
    .word 0x16012283  # lw x5, 352(x2)
    .word 0x28512a23  # sw x5, 660(x2)
    .word 0x16412283  # lw x5, 356(x2)
    .word 0x28512c23  # sw x5, 664(x2)
    .word 0x16812283  # lw x5, 360(x2)
    .word 0x28512e23  # sw x5, 668(x2)
    .word 0x16c12b03  # lw x22, 364(x2)
    .word 0x018b5293  # srli x5, x22, 24
    .word 0x008b5313  # srli x6, x22, 8
    .word 0x34c12383  # lw x7, 844(x2)
    .word 0x00737333  # and x6, x6, x7
    .word 0x0062e2b3  # or x5, x5, x6
    .word 0x008b1313  # slli x6, x22, 8
    .word 0x35012383  # lw x7, 848(x2)
    .word 0x00737333  # and x6, x6, x7
    .word 0x0062e2b3  # or x5, x5, x6
    .word 0x018b1313  # slli x6, x22, 24
    .word 0x0062e2b3  # or x5, x5, x6
    .word 0x2a512023  # sw x5, 672(x2)
    .word 0x27012283  # lw x5, 624(x2)
    .word 0x1002b293  # sltiu x5, x5, 256
    .word 0x27012303  # lw x6, 624(x2)
    .word 0x10000393  # addi x7, x0, 256
    .word 0x405002b3  # sub x5, x0, x5
    .word 0x00734333  # xor x6, x6, x7
    .word 0x00537333  # and x6, x6, x5
    .word 0x0063c2b3  # xor x5, x7, x6
    .word 0x10100313  # addi x6, x0, 257
    .word 0x0262f2b3  # remu x5, x5, x6
    .word 0x2a512223  # sw x5, 676(x2)
    .word 0x36012623  # sw x0, 876(x2)
    .word 0x2a412283  # lw x5, 676(x2)
    .word 0x01f28293  # addi x5, x5, 31
    .word 0x0052d293  # srli x5, x5, 5
    .word 0x36512823  # sw x5, 880(x2)
    .word 0x36c12303  # lw x6, 876(x2)
    .word 0x37012283  # lw x5, 880(x2)
    .word 0x005332b3  # sltu x5, x6, x5
    .word 0x00029463  # bne x5, x0, 8
    .word 0x1490006f  # jal x0, 2376
    .word 0x2a612423  # sw x6, 680(x2)
    .word 0x00130313  # addi x6, x6, 1
    .word 0x36612623  # sw x6, 876(x2)
    .word 0x29412283  # lw x5, 660(x2)
    .word 0x26512a23  # sw x5, 628(x2)
    .word 0x29412283  # lw x5, 660(x2)
    .word 0x26512c23  # sw x5, 632(x2)
    .word 0x29812283  # lw x5, 664(x2)
    .word 0x26512e23  # sw x5, 636(x2)
    .word 0x29812283  # lw x5, 664(x2)
    .word 0x28512023  # sw x5, 640(x2)
    .word 0x29c12283  # lw x5, 668(x2)
    .word 0x28512223  # sw x5, 644(x2)
    .word 0x29c12283  # lw x5, 668(x2)
    .word 0x28512423  # sw x5, 648(x2)
    .word 0x2a012283  # lw x5, 672(x2)
    .word 0x2a812303  # lw x6, 680(x2)
    .word 0x00131313  # slli x6, x6, 1
    .word 0x00628b33  # add x22, x5, x6
    .word 0x018b5293  # srli x5, x22, 24
    .word 0x008b5313  # srli x6, x22, 8
    .word 0x34c12383  # lw x7, 844(x2)
    .word 0x00737333  # and x6, x6, x7
    .word 0x0062e2b3  # or x5, x5, x6
    .word 0x008b1313  # slli x6, x22, 8
    .word 0x35012383  # lw x7, 848(x2)
    .word 0x00737333  # and x6, x6, x7
    .word 0x0062e2b3  # or x5, x5, x6
    .word 0x018b1313  # slli x6, x22, 24
    .word 0x0062ebb3  # or x23, x5, x6
    .word 0x2a012283  # lw x5, 672(x2)
    .word 0x2a812303  # lw x6, 680(x2)
    .word 0x00131313  # slli x6, x6, 1
    .word 0x006282b3  # add x5, x5, x6
    .word 0x00128b13  # addi x22, x5, 1
    .word 0x018b5293  # srli x5, x22, 24
    .word 0x008b5313  # srli x6, x22, 8
    .word 0x34c12383  # lw x7, 844(x2)
    .word 0x00737333  # and x6, x6, x7
    .word 0x0062e2b3  # or x5, x5, x6
    .word 0x008b1313  # slli x6, x22, 8
    .word 0x35012383  # lw x7, 848(x2)
    .word 0x00737333  # and x6, x6, x7
    .word 0x0062e2b3  # or x5, x5, x6
    .word 0x018b1313  # slli x6, x22, 24
    .word 0x0062eb33  # or x22, x5, x6
    .word 0x29712623  # sw x23, 652(x2)
    .word 0x29612823  # sw x22, 656(x2)
    .word 0xfff00d13  # addi x26, x0, -1
    .word 0x001d0d13  # addi x26, x26, 1
    .word 0x001d1c13  # slli x24, x26, 1
    .word 0x002c1d93  # slli x27, x24, 2
    .word 0x002d8db3  # add x27, x27, x2
    .word 0x274da283  # lw x5, 628(x27)
    .word 0x0012d293  # srli x5, x5, 1
    .word 0x278da303  # lw x6, 632(x27)
    .word 0x0062c2b3  # xor x5, x5, x6
    .word 0x35412303  # lw x6, 852(x2)
    .word 0x0062fb33  # and x22, x5, x6
    .word 0x278da283  # lw x5, 632(x27)
    .word 0x0162c2b3  # xor x5, x5, x22
    .word 0x265dac23  # sw x5, 632(x27)
    .word 0x274da283  # lw x5, 628(x27)
    .word 0x001b1313  # slli x6, x22, 1
    .word 0x0062c2b3  # xor x5, x5, x6
    .word 0x265daa23  # sw x5, 628(x27)
    .word 0xffdd0293  # addi x5, x26, -3
    .word 0xfa029ce3  # bne x5, x0, -72
    .word 0xfff00d13  # addi x26, x0, -1
    .word 0x001d0d13  # addi x26, x26, 1
    .word 0x002d7313  # andi x6, x26, 2
    .word 0x006d0c33  # add x24, x26, x6
    .word 0x002c1d93  # slli x27, x24, 2
    .word 0x002d8db3  # add x27, x27, x2
    .word 0x274da283  # lw x5, 628(x27)
    .word 0x0022d293  # srli x5, x5, 2
    .word 0x27cda303  # lw x6, 636(x27)
    .word 0x0062c2b3  # xor x5, x5, x6
    .word 0x35812303  # lw x6, 856(x2)
    .word 0x0062fb33  # and x22, x5, x6
    .word 0x27cda283  # lw x5, 636(x27)
    .word 0x0162c2b3  # xor x5, x5, x22
    .word 0x265dae23  # sw x5, 636(x27)
    .word 0x274da283  # lw x5, 628(x27)
    .word 0x002b1313  # slli x6, x22, 2
    .word 0x0062c2b3  # xor x5, x5, x6
    .word 0x265daa23  # sw x5, 628(x27)
    .word 0xffdd0293  # addi x5, x26, -3
    .word 0xfa029ae3  # bne x5, x0, -76
    .word 0xfff00c13  # addi x24, x0, -1
    .word 0x001c0c13  # addi x24, x24, 1
    .word 0x002c1d93  # slli x27, x24, 2
    .word 0x002d8db3  # add x27, x27, x2
    .word 0x274da283  # lw x5, 628(x27)
    .word 0x0042d293  # srli x5, x5, 4
    .word 0x284da303  # lw x6, 644(x27)
    .word 0x0062c2b3  # xor x5, x5, x6
    .word 0x35c12303  # lw x6, 860(x2)
    .word 0x0062fb33  # and x22, x5, x6
    .word 0x284da283  # lw x5, 644(x27)
    .word 0x0162c2b3  # xor x5, x5, x22
    .word 0x285da223  # sw x5, 644(x27)
    .word 0x274da283  # lw x5, 628(x27)
    .word 0x004b1313  # slli x6, x22, 4
    .word 0x0062c2b3  # xor x5, x5, x6
    .word 0x265daa23  # sw x5, 628(x27)
    .word 0xffdc0293  # addi x5, x24, -3
    .word 0xfa029ee3  # bne x5, x0, -68
    .word 0xfff00c13  # addi x24, x0, -1
    .word 0x001c0c13  # addi x24, x24, 1
    .word 0x002c1d93  # slli x27, x24, 2
    .word 0x002d8db3  # add x27, x27, x2
    .word 0x274da283  # lw x5, 628(x27)
    .word 0x000da303  # lw x6, 0(x27)
    .word 0x0062c2b3  # xor x5, x5, x6
    .word 0x265daa23  # sw x5, 628(x27)
    .word 0xff9c0293  # addi x5, x24, -7
    .word 0xfe0290e3  # bne x5, x0, -32
    .word 0x00000d13  # addi x26, x0, 0
    .word 0x001d0d13  # addi x26, x26, 1
    .word 0x29012b03  # lw x22, 656(x2)
    .word 0x28c12703  # lw x14, 652(x2)
    .word 0x28812603  # lw x12, 648(x2)
    .word 0x28412783  # lw x15, 644(x2)
    .word 0x28012883  # lw x17, 640(x2)
    .word 0x27c12a03  # lw x20, 636(x2)
    .word 0x27812683  # lw x13, 632(x2)
    .word 0x27412b83  # lw x23, 628(x2)
    .word 0x0147c2b3  # xor x5, x15, x20
    .word 0x2a512623  # sw x5, 684(x2)
    .word 0x00db4533  # xor x10, x22, x13
    .word 0x00fb42b3  # xor x5, x22, x15
    .word 0x2a512823  # sw x5, 688(x2)
    .word 0x014b45b3  # xor x11, x22, x20
    .word 0x00c74833  # xor x16, x14, x12
    .word 0x01784633  # xor x12, x16, x23
    .word 0x00f642b3  # xor x5, x12, x15
    .word 0x2a512a23  # sw x5, 692(x2)
    .word 0x2ac12303  # lw x6, 684(x2)
    .word 0x006542b3  # xor x5, x10, x6
    .word 0x2a512c23  # sw x5, 696(x2)
    .word 0x016642b3  # xor x5, x12, x22
    .word 0x2a512e23  # sw x5, 700(x2)
    .word 0x00d642b3  # xor x5, x12, x13
    .word 0x2c512023  # sw x5, 704(x2)
    .word 0x2c012283  # lw x5, 704(x2)
    .word 0x00b2c2b3  # xor x5, x5, x11
    .word 0x2c512223  # sw x5, 708(x2)
    .word 0x2b812303  # lw x6, 696(x2)
    .word 0x0068c7b3  # xor x15, x17, x6
    .word 0x0147c6b3  # xor x13, x15, x20
    .word 0x00e7ca33  # xor x20, x15, x14
    .word 0x0176c2b3  # xor x5, x13, x23
    .word 0x2c512423  # sw x5, 712(x2)
    .word 0x0106c733  # xor x14, x13, x16
    .word 0x2b012303  # lw x6, 688(x2)
    .word 0x006a47b3  # xor x15, x20, x6
    .word 0x00fbc2b3  # xor x5, x23, x15
    .word 0x2c512623  # sw x5, 716(x2)
    .word 0x00f742b3  # xor x5, x14, x15
    .word 0x2c512823  # sw x5, 720(x2)
    .word 0x00b74ab3  # xor x21, x14, x11
    .word 0x00f84833  # xor x16, x16, x15
    .word 0x010549b3  # xor x19, x10, x16
    .word 0x010b42b3  # xor x5, x22, x16
    .word 0x2c512e23  # sw x5, 732(x2)
    .word 0x2b812283  # lw x5, 696(x2)
    .word 0x00d2fb33  # and x22, x5, x13
    .word 0x2c412283  # lw x5, 708(x2)
    .word 0x2c812303  # lw x6, 712(x2)
    .word 0x0062f8b3  # and x17, x5, x6
    .word 0x0168c933  # xor x18, x17, x22
    .word 0x2b412283  # lw x5, 692(x2)
    .word 0x0172f8b3  # and x17, x5, x23
    .word 0x0168c2b3  # xor x5, x17, x22
    .word 0x2e512023  # sw x5, 736(x2)
    .word 0x01057b33  # and x22, x10, x16
    .word 0x2c012283  # lw x5, 704(x2)
    .word 0x00c2f8b3  # and x17, x5, x12
    .word 0x0168c2b3  # xor x5, x17, x22
    .word 0x2e512223  # sw x5, 740(x2)
    .word 0x2bc12283  # lw x5, 700(x2)
    .word 0x2cc12303  # lw x6, 716(x2)
    .word 0x0062f8b3  # and x17, x5, x6
    .word 0x0168c2b3  # xor x5, x17, x22
    .word 0x2c512a23  # sw x5, 724(x2)
    .word 0x2b012283  # lw x5, 688(x2)
    .word 0x00f2fb33  # and x22, x5, x15
    .word 0x2ac12283  # lw x5, 684(x2)
    .word 0x2d012303  # lw x6, 720(x2)
    .word 0x0062f8b3  # and x17, x5, x6
    .word 0x0168c8b3  # xor x17, x17, x22
    .word 0x00e5f2b3  # and x5, x11, x14
    .word 0x2c512c23  # sw x5, 728(x2)
    .word 0x2d812283  # lw x5, 728(x2)
    .word 0x0162cb33  # xor x22, x5, x22
    .word 0x01194933  # xor x18, x18, x17
    .word 0x2e012283  # lw x5, 736(x2)
    .word 0x0162c2b3  # xor x5, x5, x22
    .word 0x2e512023  # sw x5, 736(x2)
    .word 0x2e412283  # lw x5, 740(x2)
    .word 0x0112c8b3  # xor x17, x5, x17
    .word 0x2d412283  # lw x5, 724(x2)
    .word 0x0162c2b3  # xor x5, x5, x22
    .word 0x2e512223  # sw x5, 740(x2)
    .word 0x01494a33  # xor x20, x18, x20
    .word 0x2e012283  # lw x5, 736(x2)
    .word 0x0152cb33  # xor x22, x5, x21
    .word 0x0138cab3  # xor x21, x17, x19
    .word 0x2e412283  # lw x5, 740(x2)
    .word 0x2dc12303  # lw x6, 732(x2)
    .word 0x0062c8b3  # xor x17, x5, x6
    .word 0x016a42b3  # xor x5, x20, x22
    .word 0x2c512e23  # sw x5, 732(x2)
    .word 0x015a7933  # and x18, x20, x21
    .word 0x0128c9b3  # xor x19, x17, x18
    .word 0x2dc12283  # lw x5, 732(x2)
    .word 0x0132fa33  # and x20, x5, x19
    .word 0x016a4a33  # xor x20, x20, x22
    .word 0x011ac2b3  # xor x5, x21, x17
    .word 0x2e512023  # sw x5, 736(x2)
    .word 0x012b4b33  # xor x22, x22, x18
    .word 0x2e012303  # lw x6, 736(x2)
    .word 0x006b7b33  # and x22, x22, x6
    .word 0x011b4b33  # xor x22, x22, x17
    .word 0x016ac933  # xor x18, x21, x22
    .word 0x0169cab3  # xor x21, x19, x22
    .word 0x0158fab3  # and x21, x17, x21
    .word 0x012ac8b3  # xor x17, x21, x18
    .word 0x0159cab3  # xor x21, x19, x21
    .word 0x015a7ab3  # and x21, x20, x21
    .word 0x2dc12283  # lw x5, 732(x2)
    .word 0x0152cab3  # xor x21, x5, x21
    .word 0x011ac9b3  # xor x19, x21, x17
    .word 0x016a42b3  # xor x5, x20, x22
    .word 0x2c512e23  # sw x5, 732(x2)
    .word 0x015a4933  # xor x18, x20, x21
    .word 0x011b42b3  # xor x5, x22, x17
    .word 0x2e512023  # sw x5, 736(x2)
    .word 0x2dc12283  # lw x5, 732(x2)
    .word 0x0132c2b3  # xor x5, x5, x19
    .word 0x2e512223  # sw x5, 740(x2)
    .word 0x2e012283  # lw x5, 736(x2)
    .word 0x00d2f2b3  # and x5, x5, x13
    .word 0x2c512a23  # sw x5, 724(x2)
    .word 0x2c812303  # lw x6, 712(x2)
    .word 0x0068f2b3  # and x5, x17, x6
    .word 0x2c512423  # sw x5, 712(x2)
    .word 0x017b7bb3  # and x23, x22, x23
    .word 0x010976b3  # and x13, x18, x16
    .word 0x00caf633  # and x12, x21, x12
    .word 0x2cc12303  # lw x6, 716(x2)
    .word 0x006a7833  # and x16, x20, x6
    .word 0x2dc12283  # lw x5, 732(x2)
    .word 0x00f2f2b3  # and x5, x5, x15
    .word 0x2c512623  # sw x5, 716(x2)
    .word 0x2e412283  # lw x5, 740(x2)
    .word 0x2d012303  # lw x6, 720(x2)
    .word 0x0062f7b3  # and x15, x5, x6
    .word 0x00e9f2b3  # and x5, x19, x14
    .word 0x2c512823  # sw x5, 720(x2)
    .word 0x2e012283  # lw x5, 736(x2)
    .word 0x2b812303  # lw x6, 696(x2)
    .word 0x0062f2b3  # and x5, x5, x6
    .word 0x2a512c23  # sw x5, 696(x2)
    .word 0x2c412303  # lw x6, 708(x2)
    .word 0x0068f733  # and x14, x17, x6
    .word 0x2b412303  # lw x6, 692(x2)
    .word 0x006b78b3  # and x17, x22, x6
    .word 0x00a97b33  # and x22, x18, x10
    .word 0x2c012303  # lw x6, 704(x2)
    .word 0x006afab3  # and x21, x21, x6
    .word 0x2bc12303  # lw x6, 700(x2)
    .word 0x006a72b3  # and x5, x20, x6
    .word 0x2c512023  # sw x5, 704(x2)
    .word 0x2dc12283  # lw x5, 732(x2)
    .word 0x2b012303  # lw x6, 688(x2)
    .word 0x0062f533  # and x10, x5, x6
    .word 0x2e412283  # lw x5, 740(x2)
    .word 0x2ac12303  # lw x6, 684(x2)
    .word 0x0062fa33  # and x20, x5, x6
    .word 0x00b9f2b3  # and x5, x19, x11
    .word 0x2a512623  # sw x5, 684(x2)
    .word 0x01454533  # xor x10, x10, x20
    .word 0x011748b3  # xor x17, x14, x17
    .word 0x015845b3  # xor x11, x16, x21
    .word 0x2b812283  # lw x5, 696(x2)
    .word 0x00e2c733  # xor x14, x5, x14
    .word 0x016bcab3  # xor x21, x23, x22
    .word 0x010bc833  # xor x16, x23, x16
    .word 0x2d012303  # lw x6, 720(x2)
    .word 0x0067c2b3  # xor x5, x15, x6
    .word 0x2a512823  # sw x5, 688(x2)
    .word 0x2d412283  # lw x5, 724(x2)
    .word 0x00d2cbb3  # xor x23, x5, x13
    .word 0x2cc12283  # lw x5, 716(x2)
    .word 0x00f2c2b3  # xor x5, x5, x15
    .word 0x2a512c23  # sw x5, 696(x2)
    .word 0x2ac12303  # lw x6, 684(x2)
    .word 0x006a42b3  # xor x5, x20, x6
    .word 0x2a512623  # sw x5, 684(x2)
    .word 0x00bb49b3  # xor x19, x22, x11
    .word 0x017acb33  # xor x22, x21, x23
    .word 0x00a647b3  # xor x15, x12, x10
    .word 0x2b812303  # lw x6, 696(x2)
    .word 0x0066ca33  # xor x20, x13, x6
    .word 0x01654ab3  # xor x21, x10, x22
    .word 0x2c012283  # lw x5, 704(x2)
    .word 0x0162c533  # xor x10, x5, x22
    .word 0x2b012283  # lw x5, 688(x2)
    .word 0x00f2cb33  # xor x22, x5, x15
    .word 0x00f747b3  # xor x15, x14, x15
    .word 0x01464633  # xor x12, x12, x20
    .word 0x01654533  # xor x10, x10, x22
    .word 0x2c812283  # lw x5, 712(x2)
    .word 0x00f2c6b3  # xor x13, x5, x15
    .word 0x00fa47b3  # xor x15, x20, x15
    .word 0x0169c2b3  # xor x5, x19, x22
    .word 0xfff2ca13  # xori x20, x5, -1
    .word 0x0155c2b3  # xor x5, x11, x21
    .word 0xfff2c593  # xori x11, x5, -1
    .word 0x00a64733  # xor x14, x12, x10
    .word 0x00dbcb33  # xor x22, x23, x13
    .word 0x00d84bb3  # xor x23, x16, x13
    .word 0x00a8c533  # xor x10, x17, x10
    .word 0x016642b3  # xor x5, x12, x22
    .word 0xfff2c613  # xori x12, x5, -1
    .word 0x2ac12283  # lw x5, 684(x2)
    .word 0x00e2c2b3  # xor x5, x5, x14
    .word 0xfff2c693  # xori x13, x5, -1
    .word 0x28f12823  # sw x15, 656(x2)
    .word 0x28c12623  # sw x12, 652(x2)
    .word 0x28d12423  # sw x13, 648(x2)
    .word 0x29612223  # sw x22, 644(x2)
    .word 0x29712023  # sw x23, 640(x2)
    .word 0x26a12e23  # sw x10, 636(x2)
    .word 0x27412c23  # sw x20, 632(x2)
    .word 0x26b12a23  # sw x11, 628(x2)
    .word 0xfff00c13  # addi x24, x0, -1
    .word 0x001c0c13  # addi x24, x24, 1
    .word 0x002c1d93  # slli x27, x24, 2
    .word 0x002d8db3  # add x27, x27, x2
    .word 0x274dab03  # lw x22, 628(x27)
    .word 0x004b5313  # srli x6, x22, 4
    .word 0x006b42b3  # xor x5, x22, x6
    .word 0x36012303  # lw x6, 864(x2)
    .word 0x0062fbb3  # and x23, x5, x6
    .word 0x017b42b3  # xor x5, x22, x23
    .word 0x004b9313  # slli x6, x23, 4
    .word 0x0062cb33  # xor x22, x5, x6
    .word 0x002b5313  # srli x6, x22, 2
    .word 0x006b42b3  # xor x5, x22, x6
    .word 0x36412303  # lw x6, 868(x2)
    .word 0x0062fbb3  # and x23, x5, x6
    .word 0x017b42b3  # xor x5, x22, x23
    .word 0x002b9313  # slli x6, x23, 2
    .word 0x0062c2b3  # xor x5, x5, x6
    .word 0x265daa23  # sw x5, 628(x27)
    .word 0xff9c0293  # addi x5, x24, -7
    .word 0xfa0298e3  # bne x5, x0, -80
    .word 0x00a00313  # addi x6, x0, 10
    .word 0x126d7663  # bgeu x26, x6, 300
    .word 0x2e800313  # addi x6, x0, 744
    .word 0x00230333  # add x6, x6, x2
    .word 0x02000393  # addi x7, x0, 32
    .word 0x006383b3  # add x7, x7, x6
    .word 0x406382b3  # sub x5, x7, x6
    .word 0x00029463  # bne x5, x0, 8
    .word 0x0100006f  # jal x0, 16
    .word 0x00032023  # sw x0, 0(x6)
    .word 0x00430313  # addi x6, x6, 4
    .word 0xfedff06f  # jal x0, -20
    .word 0x30800313  # addi x6, x0, 776
    .word 0x00230333  # add x6, x6, x2
    .word 0x02000393  # addi x7, x0, 32
    .word 0x006383b3  # add x7, x7, x6
    .word 0x406382b3  # sub x5, x7, x6
    .word 0x00029463  # bne x5, x0, 8
    .word 0x0100006f  # jal x0, 16
    .word 0x00032023  # sw x0, 0(x6)
    .word 0x00430313  # addi x6, x6, 4
    .word 0xfedff06f  # jal x0, -20
    .word 0xfff00c13  # addi x24, x0, -1
    .word 0x001c0c13  # addi x24, x24, 1
    .word 0x002c1d93  # slli x27, x24, 2
    .word 0x002d8db3  # add x27, x27, x2
    .word 0x274da283  # lw x5, 628(x27)
    .word 0x01829f13  # slli x30, x5, 24
    .word 0x0082db13  # srli x22, x5, 8
    .word 0x016f0b33  # add x22, x30, x22
    .word 0x274da283  # lw x5, 628(x27)
    .word 0x0162cbb3  # xor x23, x5, x22
    .word 0x2f7da423  # sw x23, 744(x27)
    .word 0x010b9f13  # slli x30, x23, 16
    .word 0x010bd313  # srli x6, x23, 16
    .word 0x006f0333  # add x6, x30, x6
    .word 0x006b42b3  # xor x5, x22, x6
    .word 0x305da423  # sw x5, 776(x27)
    .word 0xff9c0293  # addi x5, x24, -7
    .word 0xfc0290e3  # bne x5, x0, -64
    .word 0x30812283  # lw x5, 776(x2)
    .word 0x30412303  # lw x6, 772(x2)
    .word 0x0062c2b3  # xor x5, x5, x6
    .word 0x26512a23  # sw x5, 628(x2)
    .word 0x30c12283  # lw x5, 780(x2)
    .word 0x2e812303  # lw x6, 744(x2)
    .word 0x0062c2b3  # xor x5, x5, x6
    .word 0x30412303  # lw x6, 772(x2)
    .word 0x0062c2b3  # xor x5, x5, x6
    .word 0x26512c23  # sw x5, 632(x2)
    .word 0x31012283  # lw x5, 784(x2)
    .word 0x2ec12303  # lw x6, 748(x2)
    .word 0x0062c2b3  # xor x5, x5, x6
    .word 0x26512e23  # sw x5, 636(x2)
    .word 0x31412283  # lw x5, 788(x2)
    .word 0x2f012303  # lw x6, 752(x2)
    .word 0x0062c2b3  # xor x5, x5, x6
    .word 0x30412303  # lw x6, 772(x2)
    .word 0x0062c2b3  # xor x5, x5, x6
    .word 0x28512023  # sw x5, 640(x2)
    .word 0x31812283  # lw x5, 792(x2)
    .word 0x2f412303  # lw x6, 756(x2)
    .word 0x0062c2b3  # xor x5, x5, x6
    .word 0x30412303  # lw x6, 772(x2)
    .word 0x0062c2b3  # xor x5, x5, x6
    .word 0x28512223  # sw x5, 644(x2)
    .word 0x00400c13  # addi x24, x0, 4
    .word 0x001c0c13  # addi x24, x24, 1
    .word 0x002c1d93  # slli x27, x24, 2
    .word 0x002d8db3  # add x27, x27, x2
    .word 0x308da283  # lw x5, 776(x27)
    .word 0x2e4da303  # lw x6, 740(x27)
    .word 0x0062c2b3  # xor x5, x5, x6
    .word 0x265daa23  # sw x5, 628(x27)
    .word 0xff9c0293  # addi x5, x24, -7
    .word 0xfe0290e3  # bne x5, x0, -32
    .word 0x003d1c93  # slli x25, x26, 3
    .word 0xfff00c13  # addi x24, x0, -1
    .word 0x001c0c13  # addi x24, x24, 1
    .word 0x002c1d93  # slli x27, x24, 2
    .word 0x002d8db3  # add x27, x27, x2
    .word 0x274da283  # lw x5, 628(x27)
    .word 0x018c8333  # add x6, x25, x24
    .word 0x00231313  # slli x6, x6, 2
    .word 0x00230333  # add x6, x6, x2
    .word 0x00032303  # lw x6, 0(x6)
    .word 0x0062c2b3  # xor x5, x5, x6
    .word 0x265daa23  # sw x5, 628(x27)
    .word 0xff9c0293  # addi x5, x24, -7
    .word 0xfc029ae3  # bne x5, x0, -44
    .word 0xff6d0293  # addi x5, x26, -10
    .word 0xac0298e3  # bne x5, x0, -1328
    .word 0xfff00d13  # addi x26, x0, -1
    .word 0x001d0d13  # addi x26, x26, 1
    .word 0x001d1c13  # slli x24, x26, 1
    .word 0x002c1d93  # slli x27, x24, 2
    .word 0x002d8db3  # add x27, x27, x2
    .word 0x274da283  # lw x5, 628(x27)
    .word 0x0012d293  # srli x5, x5, 1
    .word 0x278da303  # lw x6, 632(x27)
    .word 0x0062c2b3  # xor x5, x5, x6
    .word 0x35412303  # lw x6, 852(x2)
    .word 0x0062fb33  # and x22, x5, x6
    .word 0x278da283  # lw x5, 632(x27)
    .word 0x0162c2b3  # xor x5, x5, x22
    .word 0x265dac23  # sw x5, 632(x27)
    .word 0x274da283  # lw x5, 628(x27)
    .word 0x001b1313  # slli x6, x22, 1
    .word 0x0062c2b3  # xor x5, x5, x6
    .word 0x265daa23  # sw x5, 628(x27)
    .word 0xffdd0293  # addi x5, x26, -3
    .word 0xfa029ce3  # bne x5, x0, -72
    .word 0xfff00d13  # addi x26, x0, -1
    .word 0x001d0d13  # addi x26, x26, 1
    .word 0x002d7313  # andi x6, x26, 2
    .word 0x006d0c33  # add x24, x26, x6
    .word 0x002c1d93  # slli x27, x24, 2
    .word 0x002d8db3  # add x27, x27, x2
    .word 0x274da283  # lw x5, 628(x27)
    .word 0x0022d293  # srli x5, x5, 2
    .word 0x27cda303  # lw x6, 636(x27)
    .word 0x0062c2b3  # xor x5, x5, x6
    .word 0x35812303  # lw x6, 856(x2)
    .word 0x0062fb33  # and x22, x5, x6
    .word 0x27cda283  # lw x5, 636(x27)
    .word 0x0162c2b3  # xor x5, x5, x22
    .word 0x265dae23  # sw x5, 636(x27)
    .word 0x274da283  # lw x5, 628(x27)
    .word 0x002b1313  # slli x6, x22, 2
    .word 0x0062c2b3  # xor x5, x5, x6
    .word 0x265daa23  # sw x5, 628(x27)
    .word 0xffdd0293  # addi x5, x26, -3
    .word 0xfa029ae3  # bne x5, x0, -76
    .word 0xfff00c13  # addi x24, x0, -1
    .word 0x001c0c13  # addi x24, x24, 1
    .word 0x002c1d93  # slli x27, x24, 2
    .word 0x002d8db3  # add x27, x27, x2
    .word 0x274da283  # lw x5, 628(x27)
    .word 0x0042d293  # srli x5, x5, 4
    .word 0x284da303  # lw x6, 644(x27)
    .word 0x0062c2b3  # xor x5, x5, x6
    .word 0x35c12303  # lw x6, 860(x2)
    .word 0x0062fb33  # and x22, x5, x6
    .word 0x284da283  # lw x5, 644(x27)
    .word 0x0162c2b3  # xor x5, x5, x22
    .word 0x285da223  # sw x5, 644(x27)
    .word 0x274da283  # lw x5, 628(x27)
    .word 0x004b1313  # slli x6, x22, 4
    .word 0x0062c2b3  # xor x5, x5, x6
    .word 0x265daa23  # sw x5, 628(x27)
    .word 0xffdc0293  # addi x5, x24, -3
    .word 0xfa029ee3  # bne x5, x0, -68
    .word 0x2a812283  # lw x5, 680(x2)
    .word 0x00529c93  # slli x25, x5, 5
    .word 0x020c8293  # addi x5, x25, 32
    .word 0x2a412303  # lw x6, 676(x2)
    .word 0x06536063  # bltu x6, x5, 96
    .word 0xfff00d13  # addi x26, x0, -1
    .word 0x001d0d13  # addi x26, x26, 1
    .word 0x01ac82b3  # add x5, x25, x26
    .word 0x01ac8333  # add x6, x25, x26
    .word 0x00230333  # add x6, x6, x2
    .word 0x17034303  # lbu x6, 368(x6)
    .word 0x004d5393  # srli x7, x26, 4
    .word 0x002d5413  # srli x8, x26, 2
    .word 0x00347413  # andi x8, x8, 3
    .word 0x00141413  # slli x8, x8, 1
    .word 0x008383b3  # add x7, x7, x8
    .word 0x00239393  # slli x7, x7, 2
    .word 0x002383b3  # add x7, x7, x2
    .word 0x2743a383  # lw x7, 628(x7)
    .word 0x003d7413  # andi x8, x26, 3
    .word 0x00341413  # slli x8, x8, 3
    .word 0x0083d3b3  # srl x7, x7, x8
    .word 0x00734333  # xor x6, x6, x7
    .word 0x002282b3  # add x5, x5, x2
    .word 0x16628823  # sb x6, 368(x5)
    .word 0xfe1d0293  # addi x5, x26, -31
    .word 0xfa0298e3  # bne x5, x0, -80
    .word 0x0d40006f  # jal x0, 212
    .word 0x32800313  # addi x6, x0, 808
    .word 0x00230333  # add x6, x6, x2
    .word 0x02000393  # addi x7, x0, 32
    .word 0x006383b3  # add x7, x7, x6
    .word 0x406382b3  # sub x5, x7, x6
    .word 0x00029463  # bne x5, x0, 8
    .word 0x0100006f  # jal x0, 16
    .word 0x00032023  # sw x0, 0(x6)
    .word 0x00430313  # addi x6, x6, 4
    .word 0xfedff06f  # jal x0, -20
    .word 0xfff00c13  # addi x24, x0, -1
    .word 0x001c0c13  # addi x24, x24, 1
    .word 0x002c1d93  # slli x27, x24, 2
    .word 0x002d8db3  # add x27, x27, x2
    .word 0x274da283  # lw x5, 628(x27)
    .word 0x325da423  # sw x5, 808(x27)
    .word 0xff9c0293  # addi x5, x24, -7
    .word 0xfe0294e3  # bne x5, x0, -24
    .word 0x37912a23  # sw x25, 884(x2)
    .word 0x2a412283  # lw x5, 676(x2)
    .word 0x36512c23  # sw x5, 888(x2)
    .word 0x37412303  # lw x6, 884(x2)
    .word 0x37812283  # lw x5, 888(x2)
    .word 0x005332b3  # sltu x5, x6, x5
    .word 0x00029463  # bne x5, x0, 8
    .word 0x06c0006f  # jal x0, 108
    .word 0x34612423  # sw x6, 840(x2)
    .word 0x00130313  # addi x6, x6, 1
    .word 0x36612a23  # sw x6, 884(x2)
    .word 0x34812283  # lw x5, 840(x2)
    .word 0x0042d293  # srli x5, x5, 4
    .word 0x0012f293  # andi x5, x5, 1
    .word 0x34812303  # lw x6, 840(x2)
    .word 0x00235313  # srli x6, x6, 2
    .word 0x00337313  # andi x6, x6, 3
    .word 0x00131313  # slli x6, x6, 1
    .word 0x00628c33  # add x24, x5, x6
    .word 0x002c1d93  # slli x27, x24, 2
    .word 0x002d8db3  # add x27, x27, x2
    .word 0x34812283  # lw x5, 840(x2)
    .word 0x34812303  # lw x6, 840(x2)
    .word 0x00230333  # add x6, x6, x2
    .word 0x17034303  # lbu x6, 368(x6)
    .word 0x328da383  # lw x7, 808(x27)
    .word 0x34812403  # lw x8, 840(x2)
    .word 0x00347413  # andi x8, x8, 3
    .word 0x00341413  # slli x8, x8, 3
    .word 0x0083d3b3  # srl x7, x7, x8
    .word 0x00734333  # xor x6, x6, x7
    .word 0x002282b3  # add x5, x5, x2
    .word 0x16628823  # sb x6, 368(x5)
    .word 0xf89ff06f  # jal x0, -120
    .word 0xeacff06f  # jal x0, -2388
    .word 0x2a012283  # lw x5, 672(x2)
    .word 0x2a412303  # lw x6, 676(x2)
    .word 0x00f30313  # addi x6, x6, 15
    .word 0x00435313  # srli x6, x6, 4
    .word 0x00628b33  # add x22, x5, x6
    .word 0xfff00c13  # addi x24, x0, -1
    .word 0x001c0c13  # addi x24, x24, 1
    .word 0x002c1d93  # slli x27, x24, 2
    .word 0x002d8db3  # add x27, x27, x2
    .word 0x00cc0293  # addi x5, x24, 12
    .word 0x01800393  # addi x7, x0, 24
    .word 0x003c1413  # slli x8, x24, 3
    .word 0x408383b3  # sub x7, x7, x8
    .word 0x007b5333  # srl x6, x22, x7
    .word 0x002282b3  # add x5, x5, x2
    .word 0x16628023  # sb x6, 352(x5)
    .word 0xffdc0293  # addi x5, x24, -3
    .word 0xfc029ae3  # bne x5, x0, -44
    # the result
    .word 0x00000513  # addi x10, x0, 0
    # parameter 1: the array, back
    .word 0x16010293  # addi x5, x2, 352
    .word 0x3c812303  # lw x6, 968(x2)
    .word 0x01028393  # addi x7, x5, 16
    .word 0x0002ce03  # lbu x28, 0(x5)
    .word 0x01c30023  # sb x28, 0(x6)
    .word 0x00128293  # addi x5, x5, 1
    .word 0x00130313  # addi x6, x6, 1
    .word 0xfe7298e3  # bne x5, x7, -16
    # parameter 2: the array, back
    .word 0x17010293  # addi x5, x2, 368
    .word 0x3cc12303  # lw x6, 972(x2)
    .word 0x10028393  # addi x7, x5, 256
    .word 0x0002ce03  # lbu x28, 0(x5)
    .word 0x01c30023  # sb x28, 0(x6)
    .word 0x00128293  # addi x5, x5, 1
    .word 0x00130313  # addi x6, x6, 1
    .word 0xfe7298e3  # bne x5, x7, -16
    # above the frame
    .word 0x39010293  # addi x5, x2, 912
    # the caller's registers
    .word 0x0002a403  # lw x8, 0(x5)
    .cfi_restore 8
    .word 0x0042a903  # lw x18, 4(x5)
    .cfi_restore 18
    .word 0x0082a983  # lw x19, 8(x5)
    .cfi_restore 19
    .word 0x00c2aa03  # lw x20, 12(x5)
    .cfi_restore 20
    .word 0x0102aa83  # lw x21, 16(x5)
    .cfi_restore 21
    .word 0x0142ab03  # lw x22, 20(x5)
    .cfi_restore 22
    .word 0x0182ab83  # lw x23, 24(x5)
    .cfi_restore 23
    .word 0x01c2ac03  # lw x24, 28(x5)
    .cfi_restore 24
    .word 0x0202ac83  # lw x25, 32(x5)
    .cfi_restore 25
    .word 0x0242ad03  # lw x26, 36(x5)
    .cfi_restore 26
    .word 0x0282ad83  # lw x27, 40(x5)
    .cfi_restore 27
    # the caller's x2
    .word 0x04028293  # addi x5, x5, 64
    .cfi_def_cfa 5, 0
    # on to the tail that functions share
    jal x0, factc.tail.1
    .cfi_endproc
    .size aes128_ctr, . - aes128_ctr
    .section .text.factc.tail.1, "axG", @progbits, factc.tail.1, comdat
    .p2align 2
    .globl factc.tail.1
    .hidden factc.tail.1
    .type factc.tail.1, @function
factc.tail.1:
    .cfi_startproc
    .cfi_def_cfa 5, 0
    # all the room, wiped upward
    .word 0x00012023  # sw x0, 0(x2)
    .word 0x00012223  # sw x0, 4(x2)
    .word 0x00012423  # sw x0, 8(x2)
    .word 0x00012623  # sw x0, 12(x2)
    .word 0x01010113  # addi x2, x2, 16
    .word 0xfe5116e3  # bne x2, x5, -20
    .cfi_def_cfa 2, 0
    # temporaries, wiped
    .word 0x00000293  # addi x5, x0, 0
    .word 0x00000313  # addi x6, x0, 0
    .word 0x00000393  # addi x7, x0, 0
    .word 0x00000593  # addi x11, x0, 0
    .word 0x00000613  # addi x12, x0, 0
    .word 0x00000693  # addi x13, x0, 0
    .word 0x00000713  # addi x14, x0, 0
    .word 0x00000793  # addi x15, x0, 0
    .word 0x00000813  # addi x16, x0, 0
    .word 0x00000893  # addi x17, x0, 0
    .word 0x00000e13  # addi x28, x0, 0
    .word 0x00000e93  # addi x29, x0, 0
    .word 0x00000f13  # addi x30, x0, 0
    .word 0x00000f93  # addi x31, x0, 0
    # back
    .word 0x00008067  # jalr x0, 0(x1)
    .cfi_endproc
    .size factc.tail.1, . - factc.tail.1
    .option pop
