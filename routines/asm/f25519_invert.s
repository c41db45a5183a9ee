# f25519_invert: made by factc 1.0.0 function; 1002 words, 784 bytes of stack, profile 1
    .option push
    .option norvc
    .option norelax
    .cfi_sections .debug_frame
    .section .text.f25519_invert, "ax", @progbits
    .p2align 2
    .globl f25519_invert
    .type f25519_invert, @function
f25519_invert:
    .cfi_startproc
    # room above the frame
    .word 0xfc010113  # addi x2, x2, -64
    .cfi_def_cfa_offset 64
    # the caller's registers
    .word 0x00912023  # sw x9, 0(x2)
    .cfi_offset 9, -64
    .word 0x01212223  # sw x18, 4(x2)
    .cfi_offset 18, -60
    .word 0x01312423  # sw x19, 8(x2)
    .cfi_offset 19, -56
    .word 0x01412623  # sw x20, 12(x2)
    .cfi_offset 20, -52
    .word 0x01512823  # sw x21, 16(x2)
    .cfi_offset 21, -48
    .word 0x01612a23  # sw x22, 20(x2)
    .cfi_offset 22, -44
    .word 0x01712c23  # sw x23, 24(x2)
    .cfi_offset 23, -40
    .word 0x01812e23  # sw x24, 28(x2)
    .cfi_offset 24, -36
    .word 0x03912023  # sw x25, 32(x2)
    .cfi_offset 25, -32
    .word 0x03a12223  # sw x26, 36(x2)
    .cfi_offset 26, -28
    .word 0x03b12423  # sw x27, 40(x2)
    .cfi_offset 27, -24
    # arguments that are needed behind the body
    .word 0x02a12c23  # sw x10, 56(x2)
    .word 0x02b12e23  # sw x11, 60(x2)
    # the frame's base
    .word 0xd3010113  # addi x2, x2, -720
    .cfi_def_cfa 2, 784
    # parameter 0: an array
    .word 0x00050293  # addi x5, x10, 0
    .word 0x00010313  # addi x6, x2, 0
    .word 0x02028393  # addi x7, x5, 32
    .word 0x70d00f6f  # jal x30, 3852
    # the body
    .word 0x800002b7  # lui x5, 0x80000
    .word 0xfff28293  # addi x5, x5, -1
    .word 0x2a512823  # sw x5, 688(x2)
    .word 0x04000313  # addi x6, x0, 64
    .word 0x00230333  # add x6, x6, x2
    .word 0x20000393  # addi x7, x0, 512
    .word 0x006383b3  # add x7, x7, x6
    .word 0x406382b3  # sub x5, x7, x6
    .word 0x00029463  # bne x5, x0, 8
    .word 0x0100006f  # jal x0, 16
    .word 0x00032023  # sw x0, 0(x6)
    .word 0x00430313  # addi x6, x6, 4
    .word 0xfedff06f  # jal x0, -20
    .word 0x24000313  # addi x6, x0, 576
    .word 0x00230333  # add x6, x6, x2
    .word 0x02000393  # addi x7, x0, 32
    .word 0x006383b3  # add x7, x7, x6
    .word 0x406382b3  # sub x5, x7, x6
    .word 0x00029463  # bne x5, x0, 8
    .word 0x0100006f  # jal x0, 16
    .word 0x00032023  # sw x0, 0(x6)
    .word 0x00430313  # addi x6, x6, 4
    .word 0xfedff06f  # jal x0, -20
    .word 0x000032b7  # lui x5, 0x00003
    .word 0x10028293  # addi x5, x5, 256
    .word 0x26512023  # sw x5, 608(x2)
    .word 0x000012b7  # lui x5, 0x00001
    .word 0x20128293  # addi x5, x5, 513
    .word 0x26512223  # sw x5, 612(x2)
    .word 0x000012b7  # lui x5, 0x00001
    .word 0x52128293  # addi x5, x5, 1313
    .word 0x26512423  # sw x5, 616(x2)
    .word 0x000052b7  # lui x5, 0x00005
    .word 0x35528293  # addi x5, x5, 853
    .word 0x26512623  # sw x5, 620(x2)
    .word 0x0000a2b7  # lui x5, 0x0000a
    .word 0x53328293  # addi x5, x5, 1331
    .word 0x26512823  # sw x5, 624(x2)
    .word 0x000142b7  # lui x5, 0x00014
    .word 0x55528293  # addi x5, x5, 1365
    .word 0x26512a23  # sw x5, 628(x2)
    .word 0x0000a2b7  # lui x5, 0x0000a
    .word 0x45328293  # addi x5, x5, 1107
    .word 0x26512c23  # sw x5, 632(x2)
    .word 0x000322b7  # lui x5, 0x00032
    .word 0x54428293  # addi x5, x5, 1348
    .word 0x26512e23  # sw x5, 636(x2)
    .word 0x000642b7  # lui x5, 0x00064
    .word 0x55528293  # addi x5, x5, 1365
    .word 0x28512023  # sw x5, 640(x2)
    .word 0x000322b7  # lui x5, 0x00032
    .word 0x55428293  # addi x5, x5, 1364
    .word 0x28512223  # sw x5, 644(x2)
    .word 0x000052b7  # lui x5, 0x00005
    .word 0x55228293  # addi x5, x5, 1362
    .word 0x28512423  # sw x5, 648(x2)
    .word 0x00012283  # lw x5, 0(x2)
    .word 0x04512023  # sw x5, 64(x2)
    .word 0x00412283  # lw x5, 4(x2)
    .word 0x04512223  # sw x5, 68(x2)
    .word 0x00812283  # lw x5, 8(x2)
    .word 0x04512423  # sw x5, 72(x2)
    .word 0x00c12283  # lw x5, 12(x2)
    .word 0x04512623  # sw x5, 76(x2)
    .word 0x01012283  # lw x5, 16(x2)
    .word 0x04512823  # sw x5, 80(x2)
    .word 0x01412283  # lw x5, 20(x2)
    .word 0x04512a23  # sw x5, 84(x2)
    .word 0x01812283  # lw x5, 24(x2)
    .word 0x04512c23  # sw x5, 88(x2)
    .word 0x01c12283  # lw x5, 28(x2)
    .word 0x04512e23  # sw x5, 92(x2)
    .word 0x2a012c23  # sw x0, 696(x2)
    .word 0x00b00293  # addi x5, x0, 11
    .word 0x2a512e23  # sw x5, 700(x2)
    .word 0x2b812303  # lw x6, 696(x2)
    .word 0x2bc12283  # lw x5, 700(x2)
    .word 0x005332b3  # sltu x5, x6, x5
    .word 0x00029463  # bne x5, x0, 8
    .word 0x4010006f  # jal x0, 3072
    .word 0x28612623  # sw x6, 652(x2)
    .word 0x00130313  # addi x6, x6, 1
    .word 0x2a612c23  # sw x6, 696(x2)
    .word 0x28c12283  # lw x5, 652(x2)
    .word 0x00229513  # slli x10, x5, 2
    .word 0x00250533  # add x10, x10, x2
    .word 0x26052503  # lw x10, 608(x10)
    .word 0x00251493  # slli x9, x10, 2
    .word 0x002484b3  # add x9, x9, x2
    .word 0x00555293  # srli x5, x10, 5
    .word 0x0782f293  # andi x5, x5, 120
    .word 0x28512823  # sw x5, 656(x2)
    .word 0x00155293  # srli x5, x10, 1
    .word 0x0782f693  # andi x13, x5, 120
    .word 0x00c55293  # srli x5, x10, 12
    .word 0x07f2f293  # andi x5, x5, 127
    .word 0x28512c23  # sw x5, 664(x2)
    .word 0x00351293  # slli x5, x10, 3
    .word 0x0782f513  # andi x10, x5, 120
    .word 0x00251493  # slli x9, x10, 2
    .word 0x002484b3  # add x9, x9, x2
    .word 0x00269893  # slli x17, x13, 2
    .word 0x002888b3  # add x17, x17, x2
    .word 0x0408a883  # lw x17, 64(x17)
    .word 0x00269913  # slli x18, x13, 2
    .word 0x00290933  # add x18, x18, x2
    .word 0x04492903  # lw x18, 68(x18)
    .word 0x00269993  # slli x19, x13, 2
    .word 0x002989b3  # add x19, x19, x2
    .word 0x0489a983  # lw x19, 72(x19)
    .word 0x00269a13  # slli x20, x13, 2
    .word 0x002a0a33  # add x20, x20, x2
    .word 0x04ca2a03  # lw x20, 76(x20)
    .word 0x00269293  # slli x5, x13, 2
    .word 0x002282b3  # add x5, x5, x2
    .word 0x0502a283  # lw x5, 80(x5)
    .word 0x28512e23  # sw x5, 668(x2)
    .word 0x00269293  # slli x5, x13, 2
    .word 0x002282b3  # add x5, x5, x2
    .word 0x0542a283  # lw x5, 84(x5)
    .word 0x2a512023  # sw x5, 672(x2)
    .word 0x00269293  # slli x5, x13, 2
    .word 0x002282b3  # add x5, x5, x2
    .word 0x0582a283  # lw x5, 88(x5)
    .word 0x2a512223  # sw x5, 676(x2)
    .word 0x00269293  # slli x5, x13, 2
    .word 0x002282b3  # add x5, x5, x2
    .word 0x05c2a283  # lw x5, 92(x5)
    .word 0x2a512423  # sw x5, 680(x2)
    .word 0x01300293  # addi x5, x0, 19
    .word 0x2a812303  # lw x6, 680(x2)
    .word 0x01f35313  # srli x6, x6, 31
    .word 0x02628733  # mul x14, x5, x6
    .word 0x2a812283  # lw x5, 680(x2)
    .word 0x2b012303  # lw x6, 688(x2)
    .word 0x0062f2b3  # and x5, x5, x6
    .word 0x2a512423  # sw x5, 680(x2)
    .word 0x00e888b3  # add x17, x17, x14
    .word 0x00e8b733  # sltu x14, x17, x14
    .word 0x00e90933  # add x18, x18, x14
    .word 0x00e93733  # sltu x14, x18, x14
    .word 0x00e989b3  # add x19, x19, x14
    .word 0x00e9b733  # sltu x14, x19, x14
    .word 0x00ea0a33  # add x20, x20, x14
    .word 0x00ea3733  # sltu x14, x20, x14
    .word 0x29c12283  # lw x5, 668(x2)
    .word 0x00e282b3  # add x5, x5, x14
    .word 0x28512e23  # sw x5, 668(x2)
    .word 0x29c12283  # lw x5, 668(x2)
    .word 0x00e2b733  # sltu x14, x5, x14
    .word 0x2a012283  # lw x5, 672(x2)
    .word 0x00e282b3  # add x5, x5, x14
    .word 0x2a512023  # sw x5, 672(x2)
    .word 0x2a012283  # lw x5, 672(x2)
    .word 0x00e2b733  # sltu x14, x5, x14
    .word 0x2a412283  # lw x5, 676(x2)
    .word 0x00e282b3  # add x5, x5, x14
    .word 0x2a512223  # sw x5, 676(x2)
    .word 0x2a412283  # lw x5, 676(x2)
    .word 0x00e2b733  # sltu x14, x5, x14
    .word 0x2a812283  # lw x5, 680(x2)
    .word 0x00e282b3  # add x5, x5, x14
    .word 0x2a512423  # sw x5, 680(x2)
    .word 0x01300313  # addi x6, x0, 19
    .word 0x2a812383  # lw x7, 680(x2)
    .word 0x01f3d393  # srli x7, x7, 31
    .word 0x02730333  # mul x6, x6, x7
    .word 0x006888b3  # add x17, x17, x6
    .word 0x2a812283  # lw x5, 680(x2)
    .word 0x2b012303  # lw x6, 688(x2)
    .word 0x0062f2b3  # and x5, x5, x6
    .word 0x2a512423  # sw x5, 680(x2)
    .word 0x2c012023  # sw x0, 704(x2)
    .word 0x29812283  # lw x5, 664(x2)
    .word 0x00128293  # addi x5, x5, 1
    .word 0x2c512223  # sw x5, 708(x2)
    .word 0x2c012303  # lw x6, 704(x2)
    .word 0x2c412283  # lw x5, 708(x2)
    .word 0x005332b3  # sltu x5, x6, x5
    .word 0x00029463  # bne x5, x0, 8
    .word 0x1d90006f  # jal x0, 2520
    .word 0x28612a23  # sw x6, 660(x2)
    .word 0x00130313  # addi x6, x6, 1
    .word 0x2c612023  # sw x6, 704(x2)
    .word 0x00000a93  # addi x21, x0, 0
    .word 0x00000b13  # addi x22, x0, 0
    .word 0x00000b93  # addi x23, x0, 0
    .word 0x00000c13  # addi x24, x0, 0
    .word 0x00000c93  # addi x25, x0, 0
    .word 0x00000d13  # addi x26, x0, 0
    .word 0x00000d93  # addi x27, x0, 0
    .word 0x2a012623  # sw x0, 684(x2)
    .word 0x29412283  # lw x5, 660(x2)
    .word 0x29812303  # lw x6, 664(x2)
    .word 0x5e62fa63  # bgeu x5, x6, 1524
    .word 0x00199293  # slli x5, x19, 1
    .word 0x01f95313  # srli x6, x18, 31
    .word 0x0062ed33  # or x26, x5, x6
    .word 0x001a1293  # slli x5, x20, 1
    .word 0x01f9d313  # srli x6, x19, 31
    .word 0x0062ec33  # or x24, x5, x6
    .word 0x29c12283  # lw x5, 668(x2)
    .word 0x00129293  # slli x5, x5, 1
    .word 0x01fa5313  # srli x6, x20, 31
    .word 0x0062eb33  # or x22, x5, x6
    .word 0x2a012283  # lw x5, 672(x2)
    .word 0x00129293  # slli x5, x5, 1
    .word 0x29c12303  # lw x6, 668(x2)
    .word 0x01f35313  # srli x6, x6, 31
    .word 0x0062eab3  # or x21, x5, x6
    .word 0x2a412283  # lw x5, 676(x2)
    .word 0x00129293  # slli x5, x5, 1
    .word 0x2a012303  # lw x6, 672(x2)
    .word 0x01f35313  # srli x6, x6, 31
    .word 0x0062ebb3  # or x23, x5, x6
    .word 0x2a812283  # lw x5, 680(x2)
    .word 0x00129293  # slli x5, x5, 1
    .word 0x2a412303  # lw x6, 676(x2)
    .word 0x01f35313  # srli x6, x6, 31
    .word 0x0062ecb3  # or x25, x5, x6
    .word 0x031887b3  # mul x15, x17, x17
    .word 0x0318b733  # mulhu x14, x17, x17
    .word 0x00f7b333  # sltu x6, x15, x15
    .word 0x00670733  # add x14, x14, x6
    .word 0x00e73833  # sltu x16, x14, x14
    .word 0x24f12023  # sw x15, 576(x2)
    .word 0x00070593  # addi x11, x14, 0
    .word 0x00080613  # addi x12, x16, 0
    .word 0x00191713  # slli x14, x18, 1
    .word 0x02e887b3  # mul x15, x17, x14
    .word 0x02e8b733  # mulhu x14, x17, x14
    .word 0x00f585b3  # add x11, x11, x15
    .word 0x00f5b333  # sltu x6, x11, x15
    .word 0x00670733  # add x14, x14, x6
    .word 0x00e60633  # add x12, x12, x14
    .word 0x00e63833  # sltu x16, x12, x14
    .word 0x24b12223  # sw x11, 580(x2)
    .word 0x00060593  # addi x11, x12, 0
    .word 0x00080613  # addi x12, x16, 0
    .word 0x032907b3  # mul x15, x18, x18
    .word 0x03293733  # mulhu x14, x18, x18
    .word 0x00f585b3  # add x11, x11, x15
    .word 0x00f5b333  # sltu x6, x11, x15
    .word 0x00670733  # add x14, x14, x6
    .word 0x00e60633  # add x12, x12, x14
    .word 0x00e63833  # sltu x16, x12, x14
    .word 0x03a887b3  # mul x15, x17, x26
    .word 0x03a8b733  # mulhu x14, x17, x26
    .word 0x00f585b3  # add x11, x11, x15
    .word 0x00f5b333  # sltu x6, x11, x15
    .word 0x00670733  # add x14, x14, x6
    .word 0x00e60633  # add x12, x12, x14
    .word 0x00e63333  # sltu x6, x12, x14
    .word 0x00680833  # add x16, x16, x6
    .word 0x24b12423  # sw x11, 584(x2)
    .word 0x00060593  # addi x11, x12, 0
    .word 0x00080613  # addi x12, x16, 0
    .word 0x00199713  # slli x14, x19, 1
    .word 0x02e907b3  # mul x15, x18, x14
    .word 0x02e93733  # mulhu x14, x18, x14
    .word 0x00f585b3  # add x11, x11, x15
    .word 0x00f5b333  # sltu x6, x11, x15
    .word 0x00670733  # add x14, x14, x6
    .word 0x00e60633  # add x12, x12, x14
    .word 0x00e63833  # sltu x16, x12, x14
    .word 0x038887b3  # mul x15, x17, x24
    .word 0x0388b733  # mulhu x14, x17, x24
    .word 0x00f585b3  # add x11, x11, x15
    .word 0x00f5b333  # sltu x6, x11, x15
    .word 0x00670733  # add x14, x14, x6
    .word 0x00e60633  # add x12, x12, x14
    .word 0x00e63333  # sltu x6, x12, x14
    .word 0x00680833  # add x16, x16, x6
    .word 0x24b12623  # sw x11, 588(x2)
    .word 0x00060593  # addi x11, x12, 0
    .word 0x00080613  # addi x12, x16, 0
    .word 0x033987b3  # mul x15, x19, x19
    .word 0x0339b733  # mulhu x14, x19, x19
    .word 0x00f585b3  # add x11, x11, x15
    .word 0x00f5b333  # sltu x6, x11, x15
    .word 0x00670733  # add x14, x14, x6
    .word 0x00e60633  # add x12, x12, x14
    .word 0x00e63833  # sltu x16, x12, x14
    .word 0x038907b3  # mul x15, x18, x24
    .word 0x03893733  # mulhu x14, x18, x24
    .word 0x00f585b3  # add x11, x11, x15
    .word 0x00f5b333  # sltu x6, x11, x15
    .word 0x00670733  # add x14, x14, x6
    .word 0x00e60633  # add x12, x12, x14
    .word 0x00e63333  # sltu x6, x12, x14
    .word 0x00680833  # add x16, x16, x6
    .word 0x036887b3  # mul x15, x17, x22
    .word 0x0368b733  # mulhu x14, x17, x22
    .word 0x00f585b3  # add x11, x11, x15
    .word 0x00f5b333  # sltu x6, x11, x15
    .word 0x00670733  # add x14, x14, x6
    .word 0x00e60633  # add x12, x12, x14
    .word 0x00e63333  # sltu x6, x12, x14
    .word 0x00680833  # add x16, x16, x6
    .word 0x24b12823  # sw x11, 592(x2)
    .word 0x00060593  # addi x11, x12, 0
    .word 0x00080613  # addi x12, x16, 0
    .word 0x001a1713  # slli x14, x20, 1
    .word 0x02e987b3  # mul x15, x19, x14
    .word 0x02e9b733  # mulhu x14, x19, x14
    .word 0x00f585b3  # add x11, x11, x15
    .word 0x00f5b333  # sltu x6, x11, x15
    .word 0x00670733  # add x14, x14, x6
    .word 0x00e60633  # add x12, x12, x14
    .word 0x00e63833  # sltu x16, x12, x14
    .word 0x036907b3  # mul x15, x18, x22
    .word 0x03693733  # mulhu x14, x18, x22
    .word 0x00f585b3  # add x11, x11, x15
    .word 0x00f5b333  # sltu x6, x11, x15
    .word 0x00670733  # add x14, x14, x6
    .word 0x00e60633  # add x12, x12, x14
    .word 0x00e63333  # sltu x6, x12, x14
    .word 0x00680833  # add x16, x16, x6
    .word 0x035887b3  # mul x15, x17, x21
    .word 0x0358b733  # mulhu x14, x17, x21
    .word 0x00f585b3  # add x11, x11, x15
    .word 0x00f5b333  # sltu x6, x11, x15
    .word 0x00670733  # add x14, x14, x6
    .word 0x00e60633  # add x12, x12, x14
    .word 0x00e63333  # sltu x6, x12, x14
    .word 0x00680833  # add x16, x16, x6
    .word 0x24b12a23  # sw x11, 596(x2)
    .word 0x00060593  # addi x11, x12, 0
    .word 0x00080613  # addi x12, x16, 0
    .word 0x034a07b3  # mul x15, x20, x20
    .word 0x034a3733  # mulhu x14, x20, x20
    .word 0x00f585b3  # add x11, x11, x15
    .word 0x00f5b333  # sltu x6, x11, x15
    .word 0x00670733  # add x14, x14, x6
    .word 0x00e60633  # add x12, x12, x14
    .word 0x00e63833  # sltu x16, x12, x14
    .word 0x036987b3  # mul x15, x19, x22
    .word 0x0369b733  # mulhu x14, x19, x22
    .word 0x00f585b3  # add x11, x11, x15
    .word 0x00f5b333  # sltu x6, x11, x15
    .word 0x00670733  # add x14, x14, x6
    .word 0x00e60633  # add x12, x12, x14
    .word 0x00e63333  # sltu x6, x12, x14
    .word 0x00680833  # add x16, x16, x6
    .word 0x035907b3  # mul x15, x18, x21
    .word 0x03593733  # mulhu x14, x18, x21
    .word 0x00f585b3  # add x11, x11, x15
    .word 0x00f5b333  # sltu x6, x11, x15
    .word 0x00670733  # add x14, x14, x6
    .word 0x00e60633  # add x12, x12, x14
    .word 0x00e63333  # sltu x6, x12, x14
    .word 0x00680833  # add x16, x16, x6
    .word 0x037887b3  # mul x15, x17, x23
    .word 0x0378b733  # mulhu x14, x17, x23
    .word 0x00f585b3  # add x11, x11, x15
    .word 0x00f5b333  # sltu x6, x11, x15
    .word 0x00670733  # add x14, x14, x6
    .word 0x00e60633  # add x12, x12, x14
    .word 0x00e63333  # sltu x6, x12, x14
    .word 0x00680833  # add x16, x16, x6
    .word 0x24b12c23  # sw x11, 600(x2)
    .word 0x00060593  # addi x11, x12, 0
    .word 0x00080613  # addi x12, x16, 0
    .word 0x29c12283  # lw x5, 668(x2)
    .word 0x00129713  # slli x14, x5, 1
    .word 0x02ea07b3  # mul x15, x20, x14
    .word 0x02ea3733  # mulhu x14, x20, x14
    .word 0x00f585b3  # add x11, x11, x15
    .word 0x00f5b333  # sltu x6, x11, x15
    .word 0x00670733  # add x14, x14, x6
    .word 0x00e60633  # add x12, x12, x14
    .word 0x00e63833  # sltu x16, x12, x14
    .word 0x035987b3  # mul x15, x19, x21
    .word 0x0359b733  # mulhu x14, x19, x21
    .word 0x00f585b3  # add x11, x11, x15
    .word 0x00f5b333  # sltu x6, x11, x15
    .word 0x00670733  # add x14, x14, x6
    .word 0x00e60633  # add x12, x12, x14
    .word 0x00e63333  # sltu x6, x12, x14
    .word 0x00680833  # add x16, x16, x6
    .word 0x037907b3  # mul x15, x18, x23
    .word 0x03793733  # mulhu x14, x18, x23
    .word 0x00f585b3  # add x11, x11, x15
    .word 0x00f5b333  # sltu x6, x11, x15
    .word 0x00670733  # add x14, x14, x6
    .word 0x00e60633  # add x12, x12, x14
    .word 0x00e63333  # sltu x6, x12, x14
    .word 0x00680833  # add x16, x16, x6
    .word 0x039887b3  # mul x15, x17, x25
    .word 0x0398b733  # mulhu x14, x17, x25
    .word 0x00f585b3  # add x11, x11, x15
    .word 0x00f5b333  # sltu x6, x11, x15
    .word 0x00670733  # add x14, x14, x6
    .word 0x00e60633  # add x12, x12, x14
    .word 0x00e63333  # sltu x6, x12, x14
    .word 0x00680833  # add x16, x16, x6
    .word 0x24b12e23  # sw x11, 604(x2)
    .word 0x00060593  # addi x11, x12, 0
    .word 0x00080613  # addi x12, x16, 0
    .word 0x29c12283  # lw x5, 668(x2)
    .word 0x29c12303  # lw x6, 668(x2)
    .word 0x026287b3  # mul x15, x5, x6
    .word 0x29c12283  # lw x5, 668(x2)
    .word 0x29c12303  # lw x6, 668(x2)
    .word 0x0262b733  # mulhu x14, x5, x6
    .word 0x00f585b3  # add x11, x11, x15
    .word 0x00f5b333  # sltu x6, x11, x15
    .word 0x00670733  # add x14, x14, x6
    .word 0x00e60633  # add x12, x12, x14
    .word 0x00e63833  # sltu x16, x12, x14
    .word 0x035a07b3  # mul x15, x20, x21
    .word 0x035a3733  # mulhu x14, x20, x21
    .word 0x00f585b3  # add x11, x11, x15
    .word 0x00f5b333  # sltu x6, x11, x15
    .word 0x00670733  # add x14, x14, x6
    .word 0x00e60633  # add x12, x12, x14
    .word 0x00e63333  # sltu x6, x12, x14
    .word 0x00680833  # add x16, x16, x6
    .word 0x037987b3  # mul x15, x19, x23
    .word 0x0379b733  # mulhu x14, x19, x23
    .word 0x00f585b3  # add x11, x11, x15
    .word 0x00f5b333  # sltu x6, x11, x15
    .word 0x00670733  # add x14, x14, x6
    .word 0x00e60633  # add x12, x12, x14
    .word 0x00e63333  # sltu x6, x12, x14
    .word 0x00680833  # add x16, x16, x6
    .word 0x039907b3  # mul x15, x18, x25
    .word 0x03993733  # mulhu x14, x18, x25
    .word 0x00f585b3  # add x11, x11, x15
    .word 0x00f5b333  # sltu x6, x11, x15
    .word 0x00670733  # add x14, x14, x6
    .word 0x00e60633  # add x12, x12, x14
    .word 0x00e63333  # sltu x6, x12, x14
    .word 0x00680833  # add x16, x16, x6
    .word 0x00058a93  # addi x21, x11, 0
    .word 0x00060593  # addi x11, x12, 0
    .word 0x00080613  # addi x12, x16, 0
    .word 0x2a012283  # lw x5, 672(x2)
    .word 0x00129713  # slli x14, x5, 1
    .word 0x29c12283  # lw x5, 668(x2)
    .word 0x02e287b3  # mul x15, x5, x14
    .word 0x29c12283  # lw x5, 668(x2)
    .word 0x02e2b733  # mulhu x14, x5, x14
    .word 0x00f585b3  # add x11, x11, x15
    .word 0x00f5b333  # sltu x6, x11, x15
    .word 0x00670733  # add x14, x14, x6
    .word 0x00e60633  # add x12, x12, x14
    .word 0x00e63833  # sltu x16, x12, x14
    .word 0x037a07b3  # mul x15, x20, x23
    .word 0x037a3733  # mulhu x14, x20, x23
    .word 0x00f585b3  # add x11, x11, x15
    .word 0x00f5b333  # sltu x6, x11, x15
    .word 0x00670733  # add x14, x14, x6
    .word 0x00e60633  # add x12, x12, x14
    .word 0x00e63333  # sltu x6, x12, x14
    .word 0x00680833  # add x16, x16, x6
    .word 0x039987b3  # mul x15, x19, x25
    .word 0x0399b733  # mulhu x14, x19, x25
    .word 0x00f585b3  # add x11, x11, x15
    .word 0x00f5b333  # sltu x6, x11, x15
    .word 0x00670733  # add x14, x14, x6
    .word 0x00e60633  # add x12, x12, x14
    .word 0x00e63333  # sltu x6, x12, x14
    .word 0x00680833  # add x16, x16, x6
    .word 0x00058b13  # addi x22, x11, 0
    .word 0x00060593  # addi x11, x12, 0
    .word 0x00080613  # addi x12, x16, 0
    .word 0x2a012283  # lw x5, 672(x2)
    .word 0x2a012303  # lw x6, 672(x2)
    .word 0x026287b3  # mul x15, x5, x6
    .word 0x2a012283  # lw x5, 672(x2)
    .word 0x2a012303  # lw x6, 672(x2)
    .word 0x0262b733  # mulhu x14, x5, x6
    .word 0x00f585b3  # add x11, x11, x15
    .word 0x00f5b333  # sltu x6, x11, x15
    .word 0x00670733  # add x14, x14, x6
    .word 0x00e60633  # add x12, x12, x14
    .word 0x00e63833  # sltu x16, x12, x14
    .word 0x29c12283  # lw x5, 668(x2)
    .word 0x037287b3  # mul x15, x5, x23
    .word 0x29c12283  # lw x5, 668(x2)
    .word 0x0372b733  # mulhu x14, x5, x23
    .word 0x00f585b3  # add x11, x11, x15
    .word 0x00f5b333  # sltu x6, x11, x15
    .word 0x00670733  # add x14, x14, x6
    .word 0x00e60633  # add x12, x12, x14
    .word 0x00e63333  # sltu x6, x12, x14
    .word 0x00680833  # add x16, x16, x6
    .word 0x039a07b3  # mul x15, x20, x25
    .word 0x039a3733  # mulhu x14, x20, x25
    .word 0x00f585b3  # add x11, x11, x15
    .word 0x00f5b333  # sltu x6, x11, x15
    .word 0x00670733  # add x14, x14, x6
    .word 0x00e60633  # add x12, x12, x14
    .word 0x00e63333  # sltu x6, x12, x14
    .word 0x00680833  # add x16, x16, x6
    .word 0x00058b93  # addi x23, x11, 0
    .word 0x00060593  # addi x11, x12, 0
    .word 0x00080613  # addi x12, x16, 0
    .word 0x2a412283  # lw x5, 676(x2)
    .word 0x00129713  # slli x14, x5, 1
    .word 0x2a012283  # lw x5, 672(x2)
    .word 0x02e287b3  # mul x15, x5, x14
    .word 0x2a012283  # lw x5, 672(x2)
    .word 0x02e2b733  # mulhu x14, x5, x14
    .word 0x00f585b3  # add x11, x11, x15
    .word 0x00f5b333  # sltu x6, x11, x15
    .word 0x00670733  # add x14, x14, x6
    .word 0x00e60633  # add x12, x12, x14
    .word 0x00e63833  # sltu x16, x12, x14
    .word 0x29c12283  # lw x5, 668(x2)
    .word 0x039287b3  # mul x15, x5, x25
    .word 0x29c12283  # lw x5, 668(x2)
    .word 0x0392b733  # mulhu x14, x5, x25
    .word 0x00f585b3  # add x11, x11, x15
    .word 0x00f5b333  # sltu x6, x11, x15
    .word 0x00670733  # add x14, x14, x6
    .word 0x00e60633  # add x12, x12, x14
    .word 0x00e63333  # sltu x6, x12, x14
    .word 0x00680833  # add x16, x16, x6
    .word 0x00058c13  # addi x24, x11, 0
    .word 0x00060593  # addi x11, x12, 0
    .word 0x00080613  # addi x12, x16, 0
    .word 0x2a412283  # lw x5, 676(x2)
    .word 0x2a412303  # lw x6, 676(x2)
    .word 0x026287b3  # mul x15, x5, x6
    .word 0x2a412283  # lw x5, 676(x2)
    .word 0x2a412303  # lw x6, 676(x2)
    .word 0x0262b733  # mulhu x14, x5, x6
    .word 0x00f585b3  # add x11, x11, x15
    .word 0x00f5b333  # sltu x6, x11, x15
    .word 0x00670733  # add x14, x14, x6
    .word 0x00e60633  # add x12, x12, x14
    .word 0x00e63833  # sltu x16, x12, x14
    .word 0x2a012283  # lw x5, 672(x2)
    .word 0x039287b3  # mul x15, x5, x25
    .word 0x2a012283  # lw x5, 672(x2)
    .word 0x0392b733  # mulhu x14, x5, x25
    .word 0x00f585b3  # add x11, x11, x15
    .word 0x00f5b333  # sltu x6, x11, x15
    .word 0x00670733  # add x14, x14, x6
    .word 0x00e60633  # add x12, x12, x14
    .word 0x00e63333  # sltu x6, x12, x14
    .word 0x00680833  # add x16, x16, x6
    .word 0x00058c93  # addi x25, x11, 0
    .word 0x00060593  # addi x11, x12, 0
    .word 0x00080613  # addi x12, x16, 0
    .word 0x2a812283  # lw x5, 680(x2)
    .word 0x00129713  # slli x14, x5, 1
    .word 0x2a412283  # lw x5, 676(x2)
    .word 0x02e287b3  # mul x15, x5, x14
    .word 0x2a412283  # lw x5, 676(x2)
    .word 0x02e2b733  # mulhu x14, x5, x14
    .word 0x00f585b3  # add x11, x11, x15
    .word 0x00f5b333  # sltu x6, x11, x15
    .word 0x00670733  # add x14, x14, x6
    .word 0x00e60633  # add x12, x12, x14
    .word 0x00e63833  # sltu x16, x12, x14
    .word 0x00058d13  # addi x26, x11, 0
    .word 0x00060593  # addi x11, x12, 0
    .word 0x00080613  # addi x12, x16, 0
    .word 0x2a812283  # lw x5, 680(x2)
    .word 0x2a812303  # lw x6, 680(x2)
    .word 0x026287b3  # mul x15, x5, x6
    .word 0x2a812283  # lw x5, 680(x2)
    .word 0x2a812303  # lw x6, 680(x2)
    .word 0x0262b733  # mulhu x14, x5, x6
    .word 0x00f585b3  # add x11, x11, x15
    .word 0x00f5b333  # sltu x6, x11, x15
    .word 0x00670733  # add x14, x14, x6
    .word 0x00e60633  # add x12, x12, x14
    .word 0x00058d93  # addi x27, x11, 0
    .word 0x00060593  # addi x11, x12, 0
    .word 0x2ab12623  # sw x11, 684(x2)
    .word 0x1780006f  # jal x0, 376
    .word 0x25112023  # sw x17, 576(x2)
    .word 0x25212223  # sw x18, 580(x2)
    .word 0x25312423  # sw x19, 584(x2)
    .word 0x25412623  # sw x20, 588(x2)
    .word 0x29c12283  # lw x5, 668(x2)
    .word 0x24512823  # sw x5, 592(x2)
    .word 0x2a012283  # lw x5, 672(x2)
    .word 0x24512a23  # sw x5, 596(x2)
    .word 0x2a412283  # lw x5, 676(x2)
    .word 0x24512c23  # sw x5, 600(x2)
    .word 0x2a812283  # lw x5, 680(x2)
    .word 0x24512e23  # sw x5, 604(x2)
    .word 0xfff00693  # addi x13, x0, -1
    .word 0x00168693  # addi x13, x13, 1
    .word 0x00269593  # slli x11, x13, 2
    .word 0x002585b3  # add x11, x11, x2
    .word 0x2405a583  # lw x11, 576(x11)
    .word 0x0404a703  # lw x14, 64(x9)
    .word 0x02e587b3  # mul x15, x11, x14
    .word 0x02e5b833  # mulhu x16, x11, x14
    .word 0x00fa8733  # add x14, x21, x15
    .word 0x00269293  # slli x5, x13, 2
    .word 0x002282b3  # add x5, x5, x2
    .word 0x24e2a023  # sw x14, 576(x5)
    .word 0x00f73333  # sltu x6, x14, x15
    .word 0x00680633  # add x12, x16, x6
    .word 0x0444a703  # lw x14, 68(x9)
    .word 0x02e587b3  # mul x15, x11, x14
    .word 0x02e5b833  # mulhu x16, x11, x14
    .word 0x00fb0733  # add x14, x22, x15
    .word 0x00c70ab3  # add x21, x14, x12
    .word 0x00f73333  # sltu x6, x14, x15
    .word 0x006802b3  # add x5, x16, x6
    .word 0x00cab333  # sltu x6, x21, x12
    .word 0x00628633  # add x12, x5, x6
    .word 0x0484a703  # lw x14, 72(x9)
    .word 0x02e587b3  # mul x15, x11, x14
    .word 0x02e5b833  # mulhu x16, x11, x14
    .word 0x00fb8733  # add x14, x23, x15
    .word 0x00c70b33  # add x22, x14, x12
    .word 0x00f73333  # sltu x6, x14, x15
    .word 0x006802b3  # add x5, x16, x6
    .word 0x00cb3333  # sltu x6, x22, x12
    .word 0x00628633  # add x12, x5, x6
    .word 0x04c4a703  # lw x14, 76(x9)
    .word 0x02e587b3  # mul x15, x11, x14
    .word 0x02e5b833  # mulhu x16, x11, x14
    .word 0x00fc0733  # add x14, x24, x15
    .word 0x00c70bb3  # add x23, x14, x12
    .word 0x00f73333  # sltu x6, x14, x15
    .word 0x006802b3  # add x5, x16, x6
    .word 0x00cbb333  # sltu x6, x23, x12
    .word 0x00628633  # add x12, x5, x6
    .word 0x0504a703  # lw x14, 80(x9)
    .word 0x02e587b3  # mul x15, x11, x14
    .word 0x02e5b833  # mulhu x16, x11, x14
    .word 0x00fc8733  # add x14, x25, x15
    .word 0x00c70c33  # add x24, x14, x12
    .word 0x00f73333  # sltu x6, x14, x15
    .word 0x006802b3  # add x5, x16, x6
    .word 0x00cc3333  # sltu x6, x24, x12
    .word 0x00628633  # add x12, x5, x6
    .word 0x0544a703  # lw x14, 84(x9)
    .word 0x02e587b3  # mul x15, x11, x14
    .word 0x02e5b833  # mulhu x16, x11, x14
    .word 0x00fd0733  # add x14, x26, x15
    .word 0x00c70cb3  # add x25, x14, x12
    .word 0x00f73333  # sltu x6, x14, x15
    .word 0x006802b3  # add x5, x16, x6
    .word 0x00ccb333  # sltu x6, x25, x12
    .word 0x00628633  # add x12, x5, x6
    .word 0x0584a703  # lw x14, 88(x9)
    .word 0x02e587b3  # mul x15, x11, x14
    .word 0x02e5b833  # mulhu x16, x11, x14
    .word 0x00fd8733  # add x14, x27, x15
    .word 0x00c70d33  # add x26, x14, x12
    .word 0x00f73333  # sltu x6, x14, x15
    .word 0x006802b3  # add x5, x16, x6
    .word 0x00cd3333  # sltu x6, x26, x12
    .word 0x00628633  # add x12, x5, x6
    .word 0x05c4a703  # lw x14, 92(x9)
    .word 0x02e587b3  # mul x15, x11, x14
    .word 0x02e5b833  # mulhu x16, x11, x14
    .word 0x2ac12283  # lw x5, 684(x2)
    .word 0x00f28733  # add x14, x5, x15
    .word 0x00c70db3  # add x27, x14, x12
    .word 0x00f73333  # sltu x6, x14, x15
    .word 0x006802b3  # add x5, x16, x6
    .word 0x00cdb333  # sltu x6, x27, x12
    .word 0x00628633  # add x12, x5, x6
    .word 0x2ac12623  # sw x12, 684(x2)
    .word 0xff968293  # addi x5, x13, -7
    .word 0xec0292e3  # bne x5, x0, -316
    .word 0x02600313  # addi x6, x0, 38
    .word 0x026a85b3  # mul x11, x21, x6
    .word 0x02600313  # addi x6, x0, 38
    .word 0x026ab7b3  # mulhu x15, x21, x6
    .word 0x24012283  # lw x5, 576(x2)
    .word 0x00b28633  # add x12, x5, x11
    .word 0x00060893  # addi x17, x12, 0
    .word 0x00b63333  # sltu x6, x12, x11
    .word 0x00678733  # add x14, x15, x6
    .word 0x02600313  # addi x6, x0, 38
    .word 0x026b05b3  # mul x11, x22, x6
    .word 0x02600313  # addi x6, x0, 38
    .word 0x026b37b3  # mulhu x15, x22, x6
    .word 0x24412283  # lw x5, 580(x2)
    .word 0x00b28633  # add x12, x5, x11
    .word 0x00e60933  # add x18, x12, x14
    .word 0x00b63333  # sltu x6, x12, x11
    .word 0x006782b3  # add x5, x15, x6
    .word 0x00e93333  # sltu x6, x18, x14
    .word 0x00628733  # add x14, x5, x6
    .word 0x02600313  # addi x6, x0, 38
    .word 0x026b85b3  # mul x11, x23, x6
    .word 0x02600313  # addi x6, x0, 38
    .word 0x026bb7b3  # mulhu x15, x23, x6
    .word 0x24812283  # lw x5, 584(x2)
    .word 0x00b28633  # add x12, x5, x11
    .word 0x00e609b3  # add x19, x12, x14
    .word 0x00b63333  # sltu x6, x12, x11
    .word 0x006782b3  # add x5, x15, x6
    .word 0x00e9b333  # sltu x6, x19, x14
    .word 0x00628733  # add x14, x5, x6
    .word 0x02600313  # addi x6, x0, 38
    .word 0x026c05b3  # mul x11, x24, x6
    .word 0x02600313  # addi x6, x0, 38
    .word 0x026c37b3  # mulhu x15, x24, x6
    .word 0x24c12283  # lw x5, 588(x2)
    .word 0x00b28633  # add x12, x5, x11
    .word 0x00e60a33  # add x20, x12, x14
    .word 0x00b63333  # sltu x6, x12, x11
    .word 0x006782b3  # add x5, x15, x6
    .word 0x00ea3333  # sltu x6, x20, x14
    .word 0x00628733  # add x14, x5, x6
    .word 0x02600313  # addi x6, x0, 38
    .word 0x026c85b3  # mul x11, x25, x6
    .word 0x02600313  # addi x6, x0, 38
    .word 0x026cb7b3  # mulhu x15, x25, x6
    .word 0x25012283  # lw x5, 592(x2)
    .word 0x00b28633  # add x12, x5, x11
    .word 0x00e602b3  # add x5, x12, x14
    .word 0x28512e23  # sw x5, 668(x2)
    .word 0x00b63333  # sltu x6, x12, x11
    .word 0x006782b3  # add x5, x15, x6
    .word 0x29c12303  # lw x6, 668(x2)
    .word 0x00e33333  # sltu x6, x6, x14
    .word 0x00628733  # add x14, x5, x6
    .word 0x02600313  # addi x6, x0, 38
    .word 0x026d05b3  # mul x11, x26, x6
    .word 0x02600313  # addi x6, x0, 38
    .word 0x026d37b3  # mulhu x15, x26, x6
    .word 0x25412283  # lw x5, 596(x2)
    .word 0x00b28633  # add x12, x5, x11
    .word 0x00e602b3  # add x5, x12, x14
    .word 0x2a512023  # sw x5, 672(x2)
    .word 0x00b63333  # sltu x6, x12, x11
    .word 0x006782b3  # add x5, x15, x6
    .word 0x2a012303  # lw x6, 672(x2)
    .word 0x00e33333  # sltu x6, x6, x14
    .word 0x00628733  # add x14, x5, x6
    .word 0x02600313  # addi x6, x0, 38
    .word 0x026d85b3  # mul x11, x27, x6
    .word 0x02600313  # addi x6, x0, 38
    .word 0x026db7b3  # mulhu x15, x27, x6
    .word 0x25812283  # lw x5, 600(x2)
    .word 0x00b28633  # add x12, x5, x11
    .word 0x00e602b3  # add x5, x12, x14
    .word 0x2a512223  # sw x5, 676(x2)
    .word 0x00b63333  # sltu x6, x12, x11
    .word 0x006782b3  # add x5, x15, x6
    .word 0x2a412303  # lw x6, 676(x2)
    .word 0x00e33333  # sltu x6, x6, x14
    .word 0x00628733  # add x14, x5, x6
    .word 0x2ac12283  # lw x5, 684(x2)
    .word 0x02600313  # addi x6, x0, 38
    .word 0x026285b3  # mul x11, x5, x6
    .word 0x2ac12283  # lw x5, 684(x2)
    .word 0x02600313  # addi x6, x0, 38
    .word 0x0262b7b3  # mulhu x15, x5, x6
    .word 0x25c12283  # lw x5, 604(x2)
    .word 0x00b28633  # add x12, x5, x11
    .word 0x00e602b3  # add x5, x12, x14
    .word 0x2a512423  # sw x5, 680(x2)
    .word 0x00b63333  # sltu x6, x12, x11
    .word 0x006782b3  # add x5, x15, x6
    .word 0x2a812303  # lw x6, 680(x2)
    .word 0x00e33333  # sltu x6, x6, x14
    .word 0x00628733  # add x14, x5, x6
    .word 0x01300293  # addi x5, x0, 19
    .word 0x00171313  # slli x6, x14, 1
    .word 0x2a812383  # lw x7, 680(x2)
    .word 0x01f3d393  # srli x7, x7, 31
    .word 0x00736333  # or x6, x6, x7
    .word 0x02628733  # mul x14, x5, x6
    .word 0x2a812283  # lw x5, 680(x2)
    .word 0x2b012303  # lw x6, 688(x2)
    .word 0x0062f2b3  # and x5, x5, x6
    .word 0x2a512423  # sw x5, 680(x2)
    .word 0x00e888b3  # add x17, x17, x14
    .word 0x00e8b733  # sltu x14, x17, x14
    .word 0x00e90933  # add x18, x18, x14
    .word 0x00e93733  # sltu x14, x18, x14
    .word 0x00e989b3  # add x19, x19, x14
    .word 0x00e9b733  # sltu x14, x19, x14
    .word 0x00ea0a33  # add x20, x20, x14
    .word 0x00ea3733  # sltu x14, x20, x14
    .word 0x29c12283  # lw x5, 668(x2)
    .word 0x00e282b3  # add x5, x5, x14
    .word 0x28512e23  # sw x5, 668(x2)
    .word 0x29c12283  # lw x5, 668(x2)
    .word 0x00e2b733  # sltu x14, x5, x14
    .word 0x2a012283  # lw x5, 672(x2)
    .word 0x00e282b3  # add x5, x5, x14
    .word 0x2a512023  # sw x5, 672(x2)
    .word 0x2a012283  # lw x5, 672(x2)
    .word 0x00e2b733  # sltu x14, x5, x14
    .word 0x2a412283  # lw x5, 676(x2)
    .word 0x00e282b3  # add x5, x5, x14
    .word 0x2a512223  # sw x5, 676(x2)
    .word 0x2a412283  # lw x5, 676(x2)
    .word 0x00e2b733  # sltu x14, x5, x14
    .word 0x2a812283  # lw x5, 680(x2)
    .word 0x00e282b3  # add x5, x5, x14
    .word 0x2a512423  # sw x5, 680(x2)
    .word 0x01300313  # addi x6, x0, 19
    .word 0x2a812383  # lw x7, 680(x2)
    .word 0x01f3d393  # srli x7, x7, 31
    .word 0x02730333  # mul x6, x6, x7
    .word 0x006888b3  # add x17, x17, x6
    .word 0x2a812283  # lw x5, 680(x2)
    .word 0x2b012303  # lw x6, 688(x2)
    .word 0x0062f2b3  # and x5, x5, x6
    .word 0x2a512423  # sw x5, 680(x2)
    .word 0xe1cff06f  # jal x0, -2532
    .word 0x29012283  # lw x5, 656(x2)
    .word 0x00229293  # slli x5, x5, 2
    .word 0x002282b3  # add x5, x5, x2
    .word 0x0512a023  # sw x17, 64(x5)
    .word 0x29012283  # lw x5, 656(x2)
    .word 0x00229293  # slli x5, x5, 2
    .word 0x002282b3  # add x5, x5, x2
    .word 0x0522a223  # sw x18, 68(x5)
    .word 0x29012283  # lw x5, 656(x2)
    .word 0x00229293  # slli x5, x5, 2
    .word 0x002282b3  # add x5, x5, x2
    .word 0x0532a423  # sw x19, 72(x5)
    .word 0x29012283  # lw x5, 656(x2)
    .word 0x00229293  # slli x5, x5, 2
    .word 0x002282b3  # add x5, x5, x2
    .word 0x0542a623  # sw x20, 76(x5)
    .word 0x29012283  # lw x5, 656(x2)
    .word 0x29c12303  # lw x6, 668(x2)
    .word 0x00229293  # slli x5, x5, 2
    .word 0x002282b3  # add x5, x5, x2
    .word 0x0462a823  # sw x6, 80(x5)
    .word 0x29012283  # lw x5, 656(x2)
    .word 0x2a012303  # lw x6, 672(x2)
    .word 0x00229293  # slli x5, x5, 2
    .word 0x002282b3  # add x5, x5, x2
    .word 0x0462aa23  # sw x6, 84(x5)
    .word 0x29012283  # lw x5, 656(x2)
    .word 0x2a412303  # lw x6, 676(x2)
    .word 0x00229293  # slli x5, x5, 2
    .word 0x002282b3  # add x5, x5, x2
    .word 0x0462ac23  # sw x6, 88(x5)
    .word 0x29012283  # lw x5, 656(x2)
    .word 0x2a812303  # lw x6, 680(x2)
    .word 0x00229293  # slli x5, x5, 2
    .word 0x002282b3  # add x5, x5, x2
    .word 0x0462ae23  # sw x6, 92(x5)
    .word 0xbf4ff06f  # jal x0, -3084
    .word 0x0e012283  # lw x5, 224(x2)
    .word 0x01328293  # addi x5, x5, 19
    .word 0x0132b713  # sltiu x14, x5, 19
    .word 0x0e412283  # lw x5, 228(x2)
    .word 0x00e282b3  # add x5, x5, x14
    .word 0x00e2b733  # sltu x14, x5, x14
    .word 0x0e812283  # lw x5, 232(x2)
    .word 0x00e282b3  # add x5, x5, x14
    .word 0x00e2b733  # sltu x14, x5, x14
    .word 0x0ec12283  # lw x5, 236(x2)
    .word 0x00e282b3  # add x5, x5, x14
    .word 0x00e2b733  # sltu x14, x5, x14
    .word 0x0f012283  # lw x5, 240(x2)
    .word 0x00e282b3  # add x5, x5, x14
    .word 0x00e2b733  # sltu x14, x5, x14
    .word 0x0f412283  # lw x5, 244(x2)
    .word 0x00e282b3  # add x5, x5, x14
    .word 0x00e2b733  # sltu x14, x5, x14
    .word 0x0f812283  # lw x5, 248(x2)
    .word 0x00e282b3  # add x5, x5, x14
    .word 0x00e2b733  # sltu x14, x5, x14
    .word 0x0fc12283  # lw x5, 252(x2)
    .word 0x00e282b3  # add x5, x5, x14
    .word 0x41f2d293  # srai x5, x5, 31
    .word 0x0132f713  # andi x14, x5, 19
    .word 0x0e012283  # lw x5, 224(x2)
    .word 0x00e285b3  # add x11, x5, x14
    .word 0x00e5b733  # sltu x14, x11, x14
    .word 0x0eb12023  # sw x11, 224(x2)
    .word 0x0e412283  # lw x5, 228(x2)
    .word 0x00e285b3  # add x11, x5, x14
    .word 0x00e5b733  # sltu x14, x11, x14
    .word 0x0eb12223  # sw x11, 228(x2)
    .word 0x0e812283  # lw x5, 232(x2)
    .word 0x00e285b3  # add x11, x5, x14
    .word 0x00e5b733  # sltu x14, x11, x14
    .word 0x0eb12423  # sw x11, 232(x2)
    .word 0x0ec12283  # lw x5, 236(x2)
    .word 0x00e285b3  # add x11, x5, x14
    .word 0x00e5b733  # sltu x14, x11, x14
    .word 0x0eb12623  # sw x11, 236(x2)
    .word 0x0f012283  # lw x5, 240(x2)
    .word 0x00e285b3  # add x11, x5, x14
    .word 0x00e5b733  # sltu x14, x11, x14
    .word 0x0eb12823  # sw x11, 240(x2)
    .word 0x0f412283  # lw x5, 244(x2)
    .word 0x00e285b3  # add x11, x5, x14
    .word 0x00e5b733  # sltu x14, x11, x14
    .word 0x0eb12a23  # sw x11, 244(x2)
    .word 0x0f812283  # lw x5, 248(x2)
    .word 0x00e285b3  # add x11, x5, x14
    .word 0x00e5b733  # sltu x14, x11, x14
    .word 0x0eb12c23  # sw x11, 248(x2)
    .word 0x0fc12283  # lw x5, 252(x2)
    .word 0x00e285b3  # add x11, x5, x14
    .word 0x0eb12e23  # sw x11, 252(x2)
    .word 0x0fc12283  # lw x5, 252(x2)
    .word 0x2b012303  # lw x6, 688(x2)
    .word 0x0062f2b3  # and x5, x5, x6
    .word 0x0e512e23  # sw x5, 252(x2)
    .word 0x0e012283  # lw x5, 224(x2)
    .word 0x02512023  # sw x5, 32(x2)
    .word 0x0e412283  # lw x5, 228(x2)
    .word 0x02512223  # sw x5, 36(x2)
    .word 0x0e812283  # lw x5, 232(x2)
    .word 0x02512423  # sw x5, 40(x2)
    .word 0x0ec12283  # lw x5, 236(x2)
    .word 0x02512623  # sw x5, 44(x2)
    .word 0x0f012283  # lw x5, 240(x2)
    .word 0x02512823  # sw x5, 48(x2)
    .word 0x0f412283  # lw x5, 244(x2)
    .word 0x02512a23  # sw x5, 52(x2)
    .word 0x0f812283  # lw x5, 248(x2)
    .word 0x02512c23  # sw x5, 56(x2)
    .word 0x0fc12283  # lw x5, 252(x2)
    .word 0x02512e23  # sw x5, 60(x2)
    # the result
    .word 0x00000513  # addi x10, x0, 0
    # parameter 1: the array, back
    .word 0x02010293  # addi x5, x2, 32
    .word 0x30c12303  # lw x6, 780(x2)
    .word 0x02028393  # addi x7, x5, 32
    .word 0x08c00f6f  # jal x30, 140
    # above the frame
    .word 0x2d010293  # addi x5, x2, 720
    # the caller's registers
    .word 0x0002a483  # lw x9, 0(x5)
    .cfi_restore 9
    .word 0x0042a903  # lw x18, 4(x5)
    .cfi_restore 18
    .word 0x0082a983  # lw x19, 8(x5)
    .cfi_restore 19
    .word 0x00c2aa03  # lw x20, 12(x5)
    .cfi_restore 20
    .word 0x0102aa83  # lw x21, 16(x5)
    .cfi_restore 21
    .word 0x0142ab03  # lw x22, 20(x5)
    .cfi_restore 22
    .word 0x0182ab83  # lw x23, 24(x5)
    .cfi_restore 23
    .word 0x01c2ac03  # lw x24, 28(x5)
    .cfi_restore 24
    .word 0x0202ac83  # lw x25, 32(x5)
    .cfi_restore 25
    .word 0x0242ad03  # lw x26, 36(x5)
    .cfi_restore 26
    .word 0x0282ad83  # lw x27, 40(x5)
    .cfi_restore 27
    # the caller's x2
    .word 0x04028293  # addi x5, x5, 64
    .cfi_def_cfa 5, 0
    # all the room, wiped upward
    .word 0x00012023  # sw x0, 0(x2)
    .word 0x00012223  # sw x0, 4(x2)
    .word 0x00012423  # sw x0, 8(x2)
    .word 0x00012623  # sw x0, 12(x2)
    .word 0x01010113  # addi x2, x2, 16
    .word 0xfe5116e3  # bne x2, x5, -20
    .cfi_def_cfa 2, 0
    # temporaries, wiped
    .word 0x00000293  # addi x5, x0, 0
    .word 0x00000313  # addi x6, x0, 0
    .word 0x00000393  # addi x7, x0, 0
    .word 0x00000593  # addi x11, x0, 0
    .word 0x00000613  # addi x12, x0, 0
    .word 0x00000693  # addi x13, x0, 0
    .word 0x00000713  # addi x14, x0, 0
    .word 0x00000793  # addi x15, x0, 0
    .word 0x00000813  # addi x16, x0, 0
    .word 0x00000893  # addi x17, x0, 0
    .word 0x00000e13  # addi x28, x0, 0
    .word 0x00000e93  # addi x29, x0, 0
    .word 0x00000f13  # addi x30, x0, 0
    .word 0x00000f93  # addi x31, x0, 0
    # back
    .word 0x00008067  # jalr x0, 0(x1)
    # from x5 to x6 up to x7, and back
    .cfi_def_cfa 2, 784
    .cfi_offset 9, -64
    .cfi_offset 18, -60
    .cfi_offset 19, -56
    .cfi_offset 20, -52
    .cfi_offset 21, -48
    .cfi_offset 22, -44
    .cfi_offset 23, -40
    .cfi_offset 24, -36
    .cfi_offset 25, -32
    .cfi_offset 26, -28
    .cfi_offset 27, -24
    .word 0x0062ee33  # or x28, x5, x6
    .word 0x003e7e13  # andi x28, x28, 3
    .word 0x000e0e63  # beq x28, x0, 28
    .word 0x0002ce03  # lbu x28, 0(x5)
    .word 0x01c30023  # sb x28, 0(x6)
    .word 0x00128293  # addi x5, x5, 1
    .word 0x00130313  # addi x6, x6, 1
    .word 0xfe7298e3  # bne x5, x7, -16
    .word 0x0300006f  # jal x0, 48
    .word 0x0002ae03  # lw x28, 0(x5)
    .word 0x01c32023  # sw x28, 0(x6)
    .word 0x0042ae03  # lw x28, 4(x5)
    .word 0x01c32223  # sw x28, 4(x6)
    .word 0x0082ae03  # lw x28, 8(x5)
    .word 0x01c32423  # sw x28, 8(x6)
    .word 0x00c2ae03  # lw x28, 12(x5)
    .word 0x01c32623  # sw x28, 12(x6)
    .word 0x01028293  # addi x5, x5, 16
    .word 0x01030313  # addi x6, x6, 16
    .word 0xfc729ce3  # bne x5, x7, -40
    .word 0x000f0067  # jalr x0, 0(x30)
    .cfi_endproc
    .size f25519_invert, . - f25519_invert
    .option pop
