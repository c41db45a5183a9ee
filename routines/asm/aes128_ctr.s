# aes128_ctr: made by factc 1.0.0 function; 1075 words, 864 bytes of stack, profile 1
    .option push
    .option norvc
    .option norelax
    .cfi_sections .debug_frame
    .section .text.aes128_ctr, "ax", @progbits
    .p2align 2
    .globl aes128_ctr
    .type aes128_ctr, @function
aes128_ctr:
    .cfi_startproc
    # room above the frame
    .word 0xfc010113  # addi x2, x2, -64
    .cfi_def_cfa_offset 64
    # the caller's registers
    .word 0x00812023  # sw x8, 0(x2)
    .cfi_offset 8, -64
    .word 0x01212223  # sw x18, 4(x2)
    .cfi_offset 18, -60
    .word 0x01312423  # sw x19, 8(x2)
    .cfi_offset 19, -56
    .word 0x01412623  # sw x20, 12(x2)
    .cfi_offset 20, -52
    .word 0x01512823  # sw x21, 16(x2)
    .cfi_offset 21, -48
    .word 0x01612a23  # sw x22, 20(x2)
    .cfi_offset 22, -44
    .word 0x01712c23  # sw x23, 24(x2)
    .cfi_offset 23, -40
    .word 0x01812e23  # sw x24, 28(x2)
    .cfi_offset 24, -36
    .word 0x03912023  # sw x25, 32(x2)
    .cfi_offset 25, -32
    .word 0x03a12223  # sw x26, 36(x2)
    .cfi_offset 26, -28
    .word 0x03b12423  # sw x27, 40(x2)
    .cfi_offset 27, -24
    # arguments that are needed behind the body
    .word 0x02a12a23  # sw x10, 52(x2)
    .word 0x02b12c23  # sw x11, 56(x2)
    .word 0x02c12e23  # sw x12, 60(x2)
    # the frame's base
    .word 0xce010113  # addi x2, x2, -800
    .cfi_def_cfa 2, 864
    # parameter 0: an array
    .word 0x00050293  # addi x5, x10, 0
    .word 0x00010313  # addi x6, x2, 0
    .word 0x16028393  # addi x7, x5, 352
    .word 0x02c01f6f  # jal x30, 4140
    # parameter 1: an array
    .word 0x00058293  # addi x5, x11, 0
    .word 0x16010313  # addi x6, x2, 352
    .word 0x01028393  # addi x7, x5, 16
    .word 0x01c01f6f  # jal x30, 4124
    # parameter 2: an array
    .word 0x00060293  # addi x5, x12, 0
    .word 0x17010313  # addi x6, x2, 368
    .word 0x10028393  # addi x7, x5, 256
    .word 0x00c01f6f  # jal x30, 4108
    # parameter 3: a word
    .word 0x26d12823  # sw x13, 624(x2)
    # the body
    .word 0x000102b7  # lui x5, 0x00010
    .word 0xf0028293  # addi x5, x5, -256
    .word 0x2e512223  # sw x5, 740(x2)
    .word 0x00ff02b7  # lui x5, 0x00ff0
    .word 0x00028293  # addi x5, x5, 0
    .word 0x2e512423  # sw x5, 744(x2)
    .word 0x555552b7  # lui x5, 0x55555
    .word 0x55528293  # addi x5, x5, 1365
    .word 0x2e512623  # sw x5, 748(x2)
    .word 0x333332b7  # lui x5, 0x33333
    .word 0x33328293  # addi x5, x5, 819
    .word 0x2e512823  # sw x5, 752(x2)
    .word 0x0f0f12b7  # lui x5, 0x0f0f1
    .word 0xf0f28293  # addi x5, x5, -241
    .word 0x2e512a23  # sw x5, 756(x2)
    .word 0x0c0f02b7  # lui x5, 0x0c0f0
    .word 0x30028293  # addi x5, x5, 768
    .word 0x2e512c23  # sw x5, 760(x2)
    .word 0x330032b7  # lui x5, 0x33003
    .word 0x30028293  # addi x5, x5, 768
    .word 0x2e512e23  # sw x5, 764(x2)
    .word 0x16012283  # lw x5, 352(x2)
    .word 0x26512a23  # sw x5, 628(x2)
    .word 0x16412283  # lw x5, 356(x2)
    .word 0x26512c23  # sw x5, 632(x2)
    .word 0x16812283  # lw x5, 360(x2)
    .word 0x26512e23  # sw x5, 636(x2)
    .word 0x16c12803  # lw x16, 364(x2)
    .word 0x01885293  # srli x5, x16, 24
    .word 0x00885313  # srli x6, x16, 8
    .word 0x2e412383  # lw x7, 740(x2)
    .word 0x00737333  # and x6, x6, x7
    .word 0x0062e2b3  # or x5, x5, x6
    .word 0x00881313  # slli x6, x16, 8
    .word 0x2e812383  # lw x7, 744(x2)
    .word 0x00737333  # and x6, x6, x7
    .word 0x0062e2b3  # or x5, x5, x6
    .word 0x01881313  # slli x6, x16, 24
    .word 0x0062e2b3  # or x5, x5, x6
    .word 0x28512023  # sw x5, 640(x2)
    .word 0x27012283  # lw x5, 624(x2)
    .word 0x1002b293  # sltiu x5, x5, 256
    .word 0x27012303  # lw x6, 624(x2)
    .word 0x10000393  # addi x7, x0, 256
    .word 0x405002b3  # sub x5, x0, x5
    .word 0x00734333  # xor x6, x6, x7
    .word 0x00537333  # and x6, x6, x5
    .word 0x0063c2b3  # xor x5, x7, x6
    .word 0x10100313  # addi x6, x0, 257
    .word 0x0262f2b3  # remu x5, x5, x6
    .word 0x2a512e23  # sw x5, 700(x2)
    .word 0x30012223  # sw x0, 772(x2)
    .word 0x2bc12283  # lw x5, 700(x2)
    .word 0x01f28293  # addi x5, x5, 31
    .word 0x0052d293  # srli x5, x5, 5
    .word 0x30512423  # sw x5, 776(x2)
    .word 0x30412303  # lw x6, 772(x2)
    .word 0x30812283  # lw x5, 776(x2)
    .word 0x005332b3  # sltu x5, x6, x5
    .word 0x00029463  # bne x5, x0, 8
    .word 0x6010006f  # jal x0, 3584
    .word 0x28612223  # sw x6, 644(x2)
    .word 0x00130313  # addi x6, x6, 1
    .word 0x30612223  # sw x6, 772(x2)
    .word 0x28012283  # lw x5, 640(x2)
    .word 0x28412303  # lw x6, 644(x2)
    .word 0x00131313  # slli x6, x6, 1
    .word 0x00628833  # add x16, x5, x6
    .word 0x01885293  # srli x5, x16, 24
    .word 0x00885313  # srli x6, x16, 8
    .word 0x2e412383  # lw x7, 740(x2)
    .word 0x00737333  # and x6, x6, x7
    .word 0x0062e2b3  # or x5, x5, x6
    .word 0x00881313  # slli x6, x16, 8
    .word 0x2e812383  # lw x7, 744(x2)
    .word 0x00737333  # and x6, x6, x7
    .word 0x0062e2b3  # or x5, x5, x6
    .word 0x01881313  # slli x6, x16, 24
    .word 0x0062e8b3  # or x17, x5, x6
    .word 0x28012283  # lw x5, 640(x2)
    .word 0x28412303  # lw x6, 644(x2)
    .word 0x00131313  # slli x6, x6, 1
    .word 0x006282b3  # add x5, x5, x6
    .word 0x00128813  # addi x16, x5, 1
    .word 0x01885293  # srli x5, x16, 24
    .word 0x00885313  # srli x6, x16, 8
    .word 0x2e412383  # lw x7, 740(x2)
    .word 0x00737333  # and x6, x6, x7
    .word 0x0062e2b3  # or x5, x5, x6
    .word 0x00881313  # slli x6, x16, 8
    .word 0x2e812383  # lw x7, 744(x2)
    .word 0x00737333  # and x6, x6, x7
    .word 0x0062e2b3  # or x5, x5, x6
    .word 0x01881313  # slli x6, x16, 24
    .word 0x0062ed33  # or x26, x5, x6
    .word 0x27412283  # lw x5, 628(x2)
    .word 0x0012d293  # srli x5, x5, 1
    .word 0x27412303  # lw x6, 628(x2)
    .word 0x0062c2b3  # xor x5, x5, x6
    .word 0x2ec12303  # lw x6, 748(x2)
    .word 0x0062f833  # and x16, x5, x6
    .word 0x27412283  # lw x5, 628(x2)
    .word 0x0102ca33  # xor x20, x5, x16
    .word 0x27412283  # lw x5, 628(x2)
    .word 0x00181313  # slli x6, x16, 1
    .word 0x0062c9b3  # xor x19, x5, x6
    .word 0x27812283  # lw x5, 632(x2)
    .word 0x0012d293  # srli x5, x5, 1
    .word 0x27812303  # lw x6, 632(x2)
    .word 0x0062c2b3  # xor x5, x5, x6
    .word 0x2ec12303  # lw x6, 748(x2)
    .word 0x0062f833  # and x16, x5, x6
    .word 0x27812283  # lw x5, 632(x2)
    .word 0x0102cb33  # xor x22, x5, x16
    .word 0x27812283  # lw x5, 632(x2)
    .word 0x00181313  # slli x6, x16, 1
    .word 0x0062cab3  # xor x21, x5, x6
    .word 0x27c12283  # lw x5, 636(x2)
    .word 0x0012d293  # srli x5, x5, 1
    .word 0x27c12303  # lw x6, 636(x2)
    .word 0x0062c2b3  # xor x5, x5, x6
    .word 0x2ec12303  # lw x6, 748(x2)
    .word 0x0062f833  # and x16, x5, x6
    .word 0x27c12283  # lw x5, 636(x2)
    .word 0x0102cc33  # xor x24, x5, x16
    .word 0x27c12283  # lw x5, 636(x2)
    .word 0x00181313  # slli x6, x16, 1
    .word 0x0062cbb3  # xor x23, x5, x6
    .word 0x0018d293  # srli x5, x17, 1
    .word 0x01a2c2b3  # xor x5, x5, x26
    .word 0x2ec12303  # lw x6, 748(x2)
    .word 0x0062f833  # and x16, x5, x6
    .word 0x010d4d33  # xor x26, x26, x16
    .word 0x00181313  # slli x6, x16, 1
    .word 0x0068ccb3  # xor x25, x17, x6
    .word 0x0029d293  # srli x5, x19, 2
    .word 0x0152c2b3  # xor x5, x5, x21
    .word 0x2f012303  # lw x6, 752(x2)
    .word 0x0062f833  # and x16, x5, x6
    .word 0x010acab3  # xor x21, x21, x16
    .word 0x00281313  # slli x6, x16, 2
    .word 0x0069c9b3  # xor x19, x19, x6
    .word 0x002a5293  # srli x5, x20, 2
    .word 0x0162c2b3  # xor x5, x5, x22
    .word 0x2f012303  # lw x6, 752(x2)
    .word 0x0062f833  # and x16, x5, x6
    .word 0x010b4b33  # xor x22, x22, x16
    .word 0x00281313  # slli x6, x16, 2
    .word 0x006a4a33  # xor x20, x20, x6
    .word 0x002bd293  # srli x5, x23, 2
    .word 0x0192c2b3  # xor x5, x5, x25
    .word 0x2f012303  # lw x6, 752(x2)
    .word 0x0062f833  # and x16, x5, x6
    .word 0x010cccb3  # xor x25, x25, x16
    .word 0x00281313  # slli x6, x16, 2
    .word 0x006bcbb3  # xor x23, x23, x6
    .word 0x002c5293  # srli x5, x24, 2
    .word 0x01a2c2b3  # xor x5, x5, x26
    .word 0x2f012303  # lw x6, 752(x2)
    .word 0x0062f833  # and x16, x5, x6
    .word 0x010d4d33  # xor x26, x26, x16
    .word 0x00281313  # slli x6, x16, 2
    .word 0x006c4c33  # xor x24, x24, x6
    .word 0x0049d293  # srli x5, x19, 4
    .word 0x0172c2b3  # xor x5, x5, x23
    .word 0x2f412303  # lw x6, 756(x2)
    .word 0x0062f833  # and x16, x5, x6
    .word 0x010bcbb3  # xor x23, x23, x16
    .word 0x00481313  # slli x6, x16, 4
    .word 0x0069c9b3  # xor x19, x19, x6
    .word 0x004a5293  # srli x5, x20, 4
    .word 0x0182c2b3  # xor x5, x5, x24
    .word 0x2f412303  # lw x6, 756(x2)
    .word 0x0062f833  # and x16, x5, x6
    .word 0x010c4c33  # xor x24, x24, x16
    .word 0x00481313  # slli x6, x16, 4
    .word 0x006a4a33  # xor x20, x20, x6
    .word 0x004ad293  # srli x5, x21, 4
    .word 0x0192c2b3  # xor x5, x5, x25
    .word 0x2f412303  # lw x6, 756(x2)
    .word 0x0062f833  # and x16, x5, x6
    .word 0x010cccb3  # xor x25, x25, x16
    .word 0x00481313  # slli x6, x16, 4
    .word 0x006acab3  # xor x21, x21, x6
    .word 0x004b5293  # srli x5, x22, 4
    .word 0x01a2c2b3  # xor x5, x5, x26
    .word 0x2f412303  # lw x6, 756(x2)
    .word 0x0062f833  # and x16, x5, x6
    .word 0x010d4d33  # xor x26, x26, x16
    .word 0x00481313  # slli x6, x16, 4
    .word 0x006b4b33  # xor x22, x22, x6
    .word 0x00012303  # lw x6, 0(x2)
    .word 0x0069c9b3  # xor x19, x19, x6
    .word 0x00412303  # lw x6, 4(x2)
    .word 0x006a4a33  # xor x20, x20, x6
    .word 0x00812303  # lw x6, 8(x2)
    .word 0x006acab3  # xor x21, x21, x6
    .word 0x00c12303  # lw x6, 12(x2)
    .word 0x006b4b33  # xor x22, x22, x6
    .word 0x01012303  # lw x6, 16(x2)
    .word 0x006bcbb3  # xor x23, x23, x6
    .word 0x01412303  # lw x6, 20(x2)
    .word 0x006c4c33  # xor x24, x24, x6
    .word 0x01812303  # lw x6, 24(x2)
    .word 0x006cccb3  # xor x25, x25, x6
    .word 0x01c12303  # lw x6, 28(x2)
    .word 0x006d4d33  # xor x26, x26, x6
    .word 0x00100293  # addi x5, x0, 1
    .word 0x30512623  # sw x5, 780(x2)
    .word 0x00b00293  # addi x5, x0, 11
    .word 0x30512823  # sw x5, 784(x2)
    .word 0x30c12303  # lw x6, 780(x2)
    .word 0x31012283  # lw x5, 784(x2)
    .word 0x005332b3  # sltu x5, x6, x5
    .word 0x00029463  # bne x5, x0, 8
    .word 0x6700006f  # jal x0, 1648
    .word 0x2e612023  # sw x6, 736(x2)
    .word 0x00130313  # addi x6, x6, 1
    .word 0x30612623  # sw x6, 780(x2)
    .word 0x015bc2b3  # xor x5, x23, x21
    .word 0x28512423  # sw x5, 648(x2)
    .word 0x014d4733  # xor x14, x26, x20
    .word 0x017d42b3  # xor x5, x26, x23
    .word 0x28512623  # sw x5, 652(x2)
    .word 0x015d47b3  # xor x15, x26, x21
    .word 0x018cc833  # xor x16, x25, x24
    .word 0x013848b3  # xor x17, x16, x19
    .word 0x0178c2b3  # xor x5, x17, x23
    .word 0x28512823  # sw x5, 656(x2)
    .word 0x28812303  # lw x6, 648(x2)
    .word 0x00674533  # xor x10, x14, x6
    .word 0x01a8c2b3  # xor x5, x17, x26
    .word 0x28512a23  # sw x5, 660(x2)
    .word 0x0148c2b3  # xor x5, x17, x20
    .word 0x28512c23  # sw x5, 664(x2)
    .word 0x29812283  # lw x5, 664(x2)
    .word 0x00f2c2b3  # xor x5, x5, x15
    .word 0x28512e23  # sw x5, 668(x2)
    .word 0x00ab4a33  # xor x20, x22, x10
    .word 0x015a4bb3  # xor x23, x20, x21
    .word 0x019a4b33  # xor x22, x20, x25
    .word 0x013bc2b3  # xor x5, x23, x19
    .word 0x2a512023  # sw x5, 672(x2)
    .word 0x010bca33  # xor x20, x23, x16
    .word 0x28c12303  # lw x6, 652(x2)
    .word 0x006b4ab3  # xor x21, x22, x6
    .word 0x0159c2b3  # xor x5, x19, x21
    .word 0x2a512223  # sw x5, 676(x2)
    .word 0x015a42b3  # xor x5, x20, x21
    .word 0x2a512423  # sw x5, 680(x2)
    .word 0x00fa4c33  # xor x24, x20, x15
    .word 0x01584cb3  # xor x25, x16, x21
    .word 0x01974633  # xor x12, x14, x25
    .word 0x019d46b3  # xor x13, x26, x25
    .word 0x01757833  # and x16, x10, x23
    .word 0x29c12283  # lw x5, 668(x2)
    .word 0x2a012303  # lw x6, 672(x2)
    .word 0x0062fd33  # and x26, x5, x6
    .word 0x010d45b3  # xor x11, x26, x16
    .word 0x29012283  # lw x5, 656(x2)
    .word 0x0132fd33  # and x26, x5, x19
    .word 0x010d42b3  # xor x5, x26, x16
    .word 0x2a512a23  # sw x5, 692(x2)
    .word 0x01977833  # and x16, x14, x25
    .word 0x29812283  # lw x5, 664(x2)
    .word 0x0112fd33  # and x26, x5, x17
    .word 0x010d42b3  # xor x5, x26, x16
    .word 0x2a512c23  # sw x5, 696(x2)
    .word 0x29412283  # lw x5, 660(x2)
    .word 0x2a412303  # lw x6, 676(x2)
    .word 0x0062fd33  # and x26, x5, x6
    .word 0x010d42b3  # xor x5, x26, x16
    .word 0x2a512623  # sw x5, 684(x2)
    .word 0x28c12283  # lw x5, 652(x2)
    .word 0x0152f833  # and x16, x5, x21
    .word 0x28812283  # lw x5, 648(x2)
    .word 0x2a812303  # lw x6, 680(x2)
    .word 0x0062fd33  # and x26, x5, x6
    .word 0x010d4d33  # xor x26, x26, x16
    .word 0x0147f2b3  # and x5, x15, x20
    .word 0x2a512823  # sw x5, 688(x2)
    .word 0x2b012283  # lw x5, 688(x2)
    .word 0x0102c833  # xor x16, x5, x16
    .word 0x01a5c5b3  # xor x11, x11, x26
    .word 0x2b412283  # lw x5, 692(x2)
    .word 0x0102c2b3  # xor x5, x5, x16
    .word 0x2a512a23  # sw x5, 692(x2)
    .word 0x2b812283  # lw x5, 696(x2)
    .word 0x01a2c2b3  # xor x5, x5, x26
    .word 0x2a512c23  # sw x5, 696(x2)
    .word 0x2ac12283  # lw x5, 684(x2)
    .word 0x0102c2b3  # xor x5, x5, x16
    .word 0x2a512623  # sw x5, 684(x2)
    .word 0x0165cd33  # xor x26, x11, x22
    .word 0x2b412283  # lw x5, 692(x2)
    .word 0x0182c833  # xor x16, x5, x24
    .word 0x2b812283  # lw x5, 696(x2)
    .word 0x00c2cc33  # xor x24, x5, x12
    .word 0x2ac12283  # lw x5, 684(x2)
    .word 0x00d2cb33  # xor x22, x5, x13
    .word 0x010d46b3  # xor x13, x26, x16
    .word 0x018d75b3  # and x11, x26, x24
    .word 0x00bb4633  # xor x12, x22, x11
    .word 0x00c6fd33  # and x26, x13, x12
    .word 0x010d4d33  # xor x26, x26, x16
    .word 0x016c42b3  # xor x5, x24, x22
    .word 0x2a512a23  # sw x5, 692(x2)
    .word 0x00b84833  # xor x16, x16, x11
    .word 0x2b412303  # lw x6, 692(x2)
    .word 0x00687833  # and x16, x16, x6
    .word 0x01684833  # xor x16, x16, x22
    .word 0x010c45b3  # xor x11, x24, x16
    .word 0x01064c33  # xor x24, x12, x16
    .word 0x018b7c33  # and x24, x22, x24
    .word 0x00bc4b33  # xor x22, x24, x11
    .word 0x01864c33  # xor x24, x12, x24
    .word 0x018d7c33  # and x24, x26, x24
    .word 0x0186cc33  # xor x24, x13, x24
    .word 0x016c4633  # xor x12, x24, x22
    .word 0x010d46b3  # xor x13, x26, x16
    .word 0x018d45b3  # xor x11, x26, x24
    .word 0x016842b3  # xor x5, x16, x22
    .word 0x2a512a23  # sw x5, 692(x2)
    .word 0x00c6c2b3  # xor x5, x13, x12
    .word 0x2a512c23  # sw x5, 696(x2)
    .word 0x2b412283  # lw x5, 692(x2)
    .word 0x0172f2b3  # and x5, x5, x23
    .word 0x2a512623  # sw x5, 684(x2)
    .word 0x2a012303  # lw x6, 672(x2)
    .word 0x006b72b3  # and x5, x22, x6
    .word 0x2a512023  # sw x5, 672(x2)
    .word 0x013879b3  # and x19, x16, x19
    .word 0x0195fbb3  # and x23, x11, x25
    .word 0x011c78b3  # and x17, x24, x17
    .word 0x2a412303  # lw x6, 676(x2)
    .word 0x006d7cb3  # and x25, x26, x6
    .word 0x0156f2b3  # and x5, x13, x21
    .word 0x2a512223  # sw x5, 676(x2)
    .word 0x2b812283  # lw x5, 696(x2)
    .word 0x2a812303  # lw x6, 680(x2)
    .word 0x0062fab3  # and x21, x5, x6
    .word 0x014672b3  # and x5, x12, x20
    .word 0x2a512423  # sw x5, 680(x2)
    .word 0x2b412283  # lw x5, 692(x2)
    .word 0x00a2f533  # and x10, x5, x10
    .word 0x29c12303  # lw x6, 668(x2)
    .word 0x006b7a33  # and x20, x22, x6
    .word 0x29012303  # lw x6, 656(x2)
    .word 0x006872b3  # and x5, x16, x6
    .word 0x28512823  # sw x5, 656(x2)
    .word 0x00e5f833  # and x16, x11, x14
    .word 0x29812303  # lw x6, 664(x2)
    .word 0x006c7c33  # and x24, x24, x6
    .word 0x29412303  # lw x6, 660(x2)
    .word 0x006d7733  # and x14, x26, x6
    .word 0x28c12303  # lw x6, 652(x2)
    .word 0x0066fb33  # and x22, x13, x6
    .word 0x2b812283  # lw x5, 696(x2)
    .word 0x28812303  # lw x6, 648(x2)
    .word 0x0062fd33  # and x26, x5, x6
    .word 0x00f677b3  # and x15, x12, x15
    .word 0x01ab4b33  # xor x22, x22, x26
    .word 0x29012303  # lw x6, 656(x2)
    .word 0x006a42b3  # xor x5, x20, x6
    .word 0x28512423  # sw x5, 648(x2)
    .word 0x018ccc33  # xor x24, x25, x24
    .word 0x01454a33  # xor x20, x10, x20
    .word 0x0109c2b3  # xor x5, x19, x16
    .word 0x28512623  # sw x5, 652(x2)
    .word 0x0199c533  # xor x10, x19, x25
    .word 0x2a812303  # lw x6, 680(x2)
    .word 0x006accb3  # xor x25, x21, x6
    .word 0x2ac12283  # lw x5, 684(x2)
    .word 0x0172c9b3  # xor x19, x5, x23
    .word 0x2a412283  # lw x5, 676(x2)
    .word 0x0152cab3  # xor x21, x5, x21
    .word 0x00fd42b3  # xor x5, x26, x15
    .word 0x28512c23  # sw x5, 664(x2)
    .word 0x018847b3  # xor x15, x16, x24
    .word 0x28c12283  # lw x5, 652(x2)
    .word 0x0132c833  # xor x16, x5, x19
    .word 0x0168cd33  # xor x26, x17, x22
    .word 0x015bcab3  # xor x21, x23, x21
    .word 0x010b4b33  # xor x22, x22, x16
    .word 0x01074bb3  # xor x23, x14, x16
    .word 0x01acc833  # xor x16, x25, x26
    .word 0x01aa4d33  # xor x26, x20, x26
    .word 0x0158ca33  # xor x20, x17, x21
    .word 0x010bccb3  # xor x25, x23, x16
    .word 0x2a012283  # lw x5, 672(x2)
    .word 0x01a2cbb3  # xor x23, x5, x26
    .word 0x01aac733  # xor x14, x21, x26
    .word 0x0107c2b3  # xor x5, x15, x16
    .word 0xfff2ca93  # xori x21, x5, -1
    .word 0x016c42b3  # xor x5, x24, x22
    .word 0xfff2c893  # xori x17, x5, -1
    .word 0x019a4833  # xor x16, x20, x25
    .word 0x0179cd33  # xor x26, x19, x23
    .word 0x01754bb3  # xor x23, x10, x23
    .word 0x28812283  # lw x5, 648(x2)
    .word 0x0192ccb3  # xor x25, x5, x25
    .word 0x01aa42b3  # xor x5, x20, x26
    .word 0xfff2c793  # xori x15, x5, -1
    .word 0x29812283  # lw x5, 664(x2)
    .word 0x0102c2b3  # xor x5, x5, x16
    .word 0xfff2cc13  # xori x24, x5, -1
    .word 0x0048d313  # srli x6, x17, 4
    .word 0x0068c2b3  # xor x5, x17, x6
    .word 0x2f812303  # lw x6, 760(x2)
    .word 0x0062f833  # and x16, x5, x6
    .word 0x0108c2b3  # xor x5, x17, x16
    .word 0x00481313  # slli x6, x16, 4
    .word 0x0062c833  # xor x16, x5, x6
    .word 0x00285313  # srli x6, x16, 2
    .word 0x006842b3  # xor x5, x16, x6
    .word 0x2fc12303  # lw x6, 764(x2)
    .word 0x0062f8b3  # and x17, x5, x6
    .word 0x011842b3  # xor x5, x16, x17
    .word 0x00289313  # slli x6, x17, 2
    .word 0x0062c9b3  # xor x19, x5, x6
    .word 0x004ad313  # srli x6, x21, 4
    .word 0x006ac2b3  # xor x5, x21, x6
    .word 0x2f812303  # lw x6, 760(x2)
    .word 0x0062f833  # and x16, x5, x6
    .word 0x010ac2b3  # xor x5, x21, x16
    .word 0x00481313  # slli x6, x16, 4
    .word 0x0062c833  # xor x16, x5, x6
    .word 0x00285313  # srli x6, x16, 2
    .word 0x006842b3  # xor x5, x16, x6
    .word 0x2fc12303  # lw x6, 764(x2)
    .word 0x0062f8b3  # and x17, x5, x6
    .word 0x011842b3  # xor x5, x16, x17
    .word 0x00289313  # slli x6, x17, 2
    .word 0x0062ca33  # xor x20, x5, x6
    .word 0x004cd313  # srli x6, x25, 4
    .word 0x006cc2b3  # xor x5, x25, x6
    .word 0x2f812303  # lw x6, 760(x2)
    .word 0x0062f833  # and x16, x5, x6
    .word 0x010cc2b3  # xor x5, x25, x16
    .word 0x00481313  # slli x6, x16, 4
    .word 0x0062c833  # xor x16, x5, x6
    .word 0x00285313  # srli x6, x16, 2
    .word 0x006842b3  # xor x5, x16, x6
    .word 0x2fc12303  # lw x6, 764(x2)
    .word 0x0062f8b3  # and x17, x5, x6
    .word 0x011842b3  # xor x5, x16, x17
    .word 0x00289313  # slli x6, x17, 2
    .word 0x0062cab3  # xor x21, x5, x6
    .word 0x004bd313  # srli x6, x23, 4
    .word 0x006bc2b3  # xor x5, x23, x6
    .word 0x2f812303  # lw x6, 760(x2)
    .word 0x0062f833  # and x16, x5, x6
    .word 0x010bc2b3  # xor x5, x23, x16
    .word 0x00481313  # slli x6, x16, 4
    .word 0x0062c833  # xor x16, x5, x6
    .word 0x00285313  # srli x6, x16, 2
    .word 0x006842b3  # xor x5, x16, x6
    .word 0x2fc12303  # lw x6, 764(x2)
    .word 0x0062f8b3  # and x17, x5, x6
    .word 0x011842b3  # xor x5, x16, x17
    .word 0x00289313  # slli x6, x17, 2
    .word 0x0062cb33  # xor x22, x5, x6
    .word 0x004d5313  # srli x6, x26, 4
    .word 0x006d42b3  # xor x5, x26, x6
    .word 0x2f812303  # lw x6, 760(x2)
    .word 0x0062f833  # and x16, x5, x6
    .word 0x010d42b3  # xor x5, x26, x16
    .word 0x00481313  # slli x6, x16, 4
    .word 0x0062c833  # xor x16, x5, x6
    .word 0x00285313  # srli x6, x16, 2
    .word 0x006842b3  # xor x5, x16, x6
    .word 0x2fc12303  # lw x6, 764(x2)
    .word 0x0062f8b3  # and x17, x5, x6
    .word 0x011842b3  # xor x5, x16, x17
    .word 0x00289313  # slli x6, x17, 2
    .word 0x0062cbb3  # xor x23, x5, x6
    .word 0x004c5313  # srli x6, x24, 4
    .word 0x006c42b3  # xor x5, x24, x6
    .word 0x2f812303  # lw x6, 760(x2)
    .word 0x0062f833  # and x16, x5, x6
    .word 0x010c42b3  # xor x5, x24, x16
    .word 0x00481313  # slli x6, x16, 4
    .word 0x0062c833  # xor x16, x5, x6
    .word 0x00285313  # srli x6, x16, 2
    .word 0x006842b3  # xor x5, x16, x6
    .word 0x2fc12303  # lw x6, 764(x2)
    .word 0x0062f8b3  # and x17, x5, x6
    .word 0x011842b3  # xor x5, x16, x17
    .word 0x00289313  # slli x6, x17, 2
    .word 0x0062cc33  # xor x24, x5, x6
    .word 0x0047d313  # srli x6, x15, 4
    .word 0x0067c2b3  # xor x5, x15, x6
    .word 0x2f812303  # lw x6, 760(x2)
    .word 0x0062f833  # and x16, x5, x6
    .word 0x0107c2b3  # xor x5, x15, x16
    .word 0x00481313  # slli x6, x16, 4
    .word 0x0062c833  # xor x16, x5, x6
    .word 0x00285313  # srli x6, x16, 2
    .word 0x006842b3  # xor x5, x16, x6
    .word 0x2fc12303  # lw x6, 764(x2)
    .word 0x0062f8b3  # and x17, x5, x6
    .word 0x011842b3  # xor x5, x16, x17
    .word 0x00289313  # slli x6, x17, 2
    .word 0x0062ccb3  # xor x25, x5, x6
    .word 0x00475313  # srli x6, x14, 4
    .word 0x006742b3  # xor x5, x14, x6
    .word 0x2f812303  # lw x6, 760(x2)
    .word 0x0062f833  # and x16, x5, x6
    .word 0x010742b3  # xor x5, x14, x16
    .word 0x00481313  # slli x6, x16, 4
    .word 0x0062c833  # xor x16, x5, x6
    .word 0x00285313  # srli x6, x16, 2
    .word 0x006842b3  # xor x5, x16, x6
    .word 0x2fc12303  # lw x6, 764(x2)
    .word 0x0062f8b3  # and x17, x5, x6
    .word 0x011842b3  # xor x5, x16, x17
    .word 0x00289313  # slli x6, x17, 2
    .word 0x0062cd33  # xor x26, x5, x6
    .word 0x2e012283  # lw x5, 736(x2)
    .word 0x00a00313  # addi x6, x0, 10
    .word 0x1462fc63  # bgeu x5, x6, 344
    .word 0x01899f13  # slli x30, x19, 24
    .word 0x0089d893  # srli x17, x19, 8
    .word 0x011f08b3  # add x17, x30, x17
    .word 0x0119c833  # xor x16, x19, x17
    .word 0x00080713  # addi x14, x16, 0
    .word 0x01081f13  # slli x30, x16, 16
    .word 0x01085313  # srli x6, x16, 16
    .word 0x006f0333  # add x6, x30, x6
    .word 0x0068c9b3  # xor x19, x17, x6
    .word 0x018a1f13  # slli x30, x20, 24
    .word 0x008a5893  # srli x17, x20, 8
    .word 0x011f08b3  # add x17, x30, x17
    .word 0x011a4833  # xor x16, x20, x17
    .word 0x00080793  # addi x15, x16, 0
    .word 0x01081f13  # slli x30, x16, 16
    .word 0x01085313  # srli x6, x16, 16
    .word 0x006f0333  # add x6, x30, x6
    .word 0x0068ca33  # xor x20, x17, x6
    .word 0x018a9f13  # slli x30, x21, 24
    .word 0x008ad893  # srli x17, x21, 8
    .word 0x011f08b3  # add x17, x30, x17
    .word 0x011ac833  # xor x16, x21, x17
    .word 0x29012423  # sw x16, 648(x2)
    .word 0x01081f13  # slli x30, x16, 16
    .word 0x01085313  # srli x6, x16, 16
    .word 0x006f0333  # add x6, x30, x6
    .word 0x0068cab3  # xor x21, x17, x6
    .word 0x018b1f13  # slli x30, x22, 24
    .word 0x008b5893  # srli x17, x22, 8
    .word 0x011f08b3  # add x17, x30, x17
    .word 0x011b4833  # xor x16, x22, x17
    .word 0x29012623  # sw x16, 652(x2)
    .word 0x01081f13  # slli x30, x16, 16
    .word 0x01085313  # srli x6, x16, 16
    .word 0x006f0333  # add x6, x30, x6
    .word 0x0068cb33  # xor x22, x17, x6
    .word 0x018b9f13  # slli x30, x23, 24
    .word 0x008bd893  # srli x17, x23, 8
    .word 0x011f08b3  # add x17, x30, x17
    .word 0x011bc833  # xor x16, x23, x17
    .word 0x00080513  # addi x10, x16, 0
    .word 0x01081f13  # slli x30, x16, 16
    .word 0x01085313  # srli x6, x16, 16
    .word 0x006f0333  # add x6, x30, x6
    .word 0x0068cbb3  # xor x23, x17, x6
    .word 0x018c1f13  # slli x30, x24, 24
    .word 0x008c5893  # srli x17, x24, 8
    .word 0x011f08b3  # add x17, x30, x17
    .word 0x011c4833  # xor x16, x24, x17
    .word 0x29012c23  # sw x16, 664(x2)
    .word 0x01081f13  # slli x30, x16, 16
    .word 0x01085313  # srli x6, x16, 16
    .word 0x006f0333  # add x6, x30, x6
    .word 0x0068cc33  # xor x24, x17, x6
    .word 0x018c9f13  # slli x30, x25, 24
    .word 0x008cd893  # srli x17, x25, 8
    .word 0x011f08b3  # add x17, x30, x17
    .word 0x011cc833  # xor x16, x25, x17
    .word 0x00080613  # addi x12, x16, 0
    .word 0x01081f13  # slli x30, x16, 16
    .word 0x01085313  # srli x6, x16, 16
    .word 0x006f0333  # add x6, x30, x6
    .word 0x0068ccb3  # xor x25, x17, x6
    .word 0x018d1f13  # slli x30, x26, 24
    .word 0x008d5893  # srli x17, x26, 8
    .word 0x011f08b3  # add x17, x30, x17
    .word 0x011d4833  # xor x16, x26, x17
    .word 0x01081f13  # slli x30, x16, 16
    .word 0x01085313  # srli x6, x16, 16
    .word 0x006f0333  # add x6, x30, x6
    .word 0x0068c8b3  # xor x17, x17, x6
    .word 0x0109c9b3  # xor x19, x19, x16
    .word 0x00ea42b3  # xor x5, x20, x14
    .word 0x0102ca33  # xor x20, x5, x16
    .word 0x00facab3  # xor x21, x21, x15
    .word 0x28812303  # lw x6, 648(x2)
    .word 0x006b42b3  # xor x5, x22, x6
    .word 0x0102cb33  # xor x22, x5, x16
    .word 0x28c12303  # lw x6, 652(x2)
    .word 0x006bc2b3  # xor x5, x23, x6
    .word 0x0102cbb3  # xor x23, x5, x16
    .word 0x00ac4c33  # xor x24, x24, x10
    .word 0x29812303  # lw x6, 664(x2)
    .word 0x006cccb3  # xor x25, x25, x6
    .word 0x00c8cd33  # xor x26, x17, x12
    .word 0x2e012283  # lw x5, 736(x2)
    .word 0x00329913  # slli x18, x5, 3
    .word 0x00291d93  # slli x27, x18, 2
    .word 0x002d8db3  # add x27, x27, x2
    .word 0x000da303  # lw x6, 0(x27)
    .word 0x0069c9b3  # xor x19, x19, x6
    .word 0x004da303  # lw x6, 4(x27)
    .word 0x006a4a33  # xor x20, x20, x6
    .word 0x008da303  # lw x6, 8(x27)
    .word 0x006acab3  # xor x21, x21, x6
    .word 0x00cda303  # lw x6, 12(x27)
    .word 0x006b4b33  # xor x22, x22, x6
    .word 0x010da303  # lw x6, 16(x27)
    .word 0x006bcbb3  # xor x23, x23, x6
    .word 0x014da303  # lw x6, 20(x27)
    .word 0x006c4c33  # xor x24, x24, x6
    .word 0x018da303  # lw x6, 24(x27)
    .word 0x006cccb3  # xor x25, x25, x6
    .word 0x01cda303  # lw x6, 28(x27)
    .word 0x006d4d33  # xor x26, x26, x6
    .word 0x985ff06f  # jal x0, -1660
    .word 0x0019d293  # srli x5, x19, 1
    .word 0x0142c2b3  # xor x5, x5, x20
    .word 0x2ec12303  # lw x6, 748(x2)
    .word 0x0062f833  # and x16, x5, x6
    .word 0x010a4a33  # xor x20, x20, x16
    .word 0x00181313  # slli x6, x16, 1
    .word 0x0069c9b3  # xor x19, x19, x6
    .word 0x001ad293  # srli x5, x21, 1
    .word 0x0162c2b3  # xor x5, x5, x22
    .word 0x2ec12303  # lw x6, 748(x2)
    .word 0x0062f833  # and x16, x5, x6
    .word 0x010b4b33  # xor x22, x22, x16
    .word 0x00181313  # slli x6, x16, 1
    .word 0x006acab3  # xor x21, x21, x6
    .word 0x001bd293  # srli x5, x23, 1
    .word 0x0182c2b3  # xor x5, x5, x24
    .word 0x2ec12303  # lw x6, 748(x2)
    .word 0x0062f833  # and x16, x5, x6
    .word 0x010c4c33  # xor x24, x24, x16
    .word 0x00181313  # slli x6, x16, 1
    .word 0x006bcbb3  # xor x23, x23, x6
    .word 0x001cd293  # srli x5, x25, 1
    .word 0x01a2c2b3  # xor x5, x5, x26
    .word 0x2ec12303  # lw x6, 748(x2)
    .word 0x0062f833  # and x16, x5, x6
    .word 0x010d4d33  # xor x26, x26, x16
    .word 0x00181313  # slli x6, x16, 1
    .word 0x006cccb3  # xor x25, x25, x6
    .word 0x0029d293  # srli x5, x19, 2
    .word 0x0152c2b3  # xor x5, x5, x21
    .word 0x2f012303  # lw x6, 752(x2)
    .word 0x0062f833  # and x16, x5, x6
    .word 0x010acab3  # xor x21, x21, x16
    .word 0x00281313  # slli x6, x16, 2
    .word 0x0069c9b3  # xor x19, x19, x6
    .word 0x002a5293  # srli x5, x20, 2
    .word 0x0162c2b3  # xor x5, x5, x22
    .word 0x2f012303  # lw x6, 752(x2)
    .word 0x0062f833  # and x16, x5, x6
    .word 0x010b4b33  # xor x22, x22, x16
    .word 0x00281313  # slli x6, x16, 2
    .word 0x006a4a33  # xor x20, x20, x6
    .word 0x002bd293  # srli x5, x23, 2
    .word 0x0192c2b3  # xor x5, x5, x25
    .word 0x2f012303  # lw x6, 752(x2)
    .word 0x0062f833  # and x16, x5, x6
    .word 0x010cccb3  # xor x25, x25, x16
    .word 0x00281313  # slli x6, x16, 2
    .word 0x006bcbb3  # xor x23, x23, x6
    .word 0x002c5293  # srli x5, x24, 2
    .word 0x01a2c2b3  # xor x5, x5, x26
    .word 0x2f012303  # lw x6, 752(x2)
    .word 0x0062f833  # and x16, x5, x6
    .word 0x010d4d33  # xor x26, x26, x16
    .word 0x00281313  # slli x6, x16, 2
    .word 0x006c4c33  # xor x24, x24, x6
    .word 0x0049d293  # srli x5, x19, 4
    .word 0x0172c2b3  # xor x5, x5, x23
    .word 0x2f412303  # lw x6, 756(x2)
    .word 0x0062f833  # and x16, x5, x6
    .word 0x010bcbb3  # xor x23, x23, x16
    .word 0x00481313  # slli x6, x16, 4
    .word 0x0069c9b3  # xor x19, x19, x6
    .word 0x004a5293  # srli x5, x20, 4
    .word 0x0182c2b3  # xor x5, x5, x24
    .word 0x2f412303  # lw x6, 756(x2)
    .word 0x0062f833  # and x16, x5, x6
    .word 0x010c4c33  # xor x24, x24, x16
    .word 0x00481313  # slli x6, x16, 4
    .word 0x006a4a33  # xor x20, x20, x6
    .word 0x004ad293  # srli x5, x21, 4
    .word 0x0192c2b3  # xor x5, x5, x25
    .word 0x2f412303  # lw x6, 756(x2)
    .word 0x0062f833  # and x16, x5, x6
    .word 0x010cccb3  # xor x25, x25, x16
    .word 0x00481313  # slli x6, x16, 4
    .word 0x006acab3  # xor x21, x21, x6
    .word 0x004b5293  # srli x5, x22, 4
    .word 0x01a2c2b3  # xor x5, x5, x26
    .word 0x2f412303  # lw x6, 756(x2)
    .word 0x0062f833  # and x16, x5, x6
    .word 0x010d4d33  # xor x26, x26, x16
    .word 0x00481313  # slli x6, x16, 4
    .word 0x006b4b33  # xor x22, x22, x6
    .word 0x28412283  # lw x5, 644(x2)
    .word 0x00529913  # slli x18, x5, 5
    .word 0x00291d93  # slli x27, x18, 2
    .word 0x002d8db3  # add x27, x27, x2
    .word 0x02090293  # addi x5, x18, 32
    .word 0x2bc12303  # lw x6, 700(x2)
    .word 0x2e536463  # bltu x6, x5, 744
    .word 0x00290333  # add x6, x18, x2
    .word 0x17034303  # lbu x6, 368(x6)
    .word 0x01334333  # xor x6, x6, x19
    .word 0x002902b3  # add x5, x18, x2
    .word 0x16628823  # sb x6, 368(x5)
    .word 0x00290333  # add x6, x18, x2
    .word 0x17134303  # lbu x6, 369(x6)
    .word 0x0089d393  # srli x7, x19, 8
    .word 0x00734333  # xor x6, x6, x7
    .word 0x002902b3  # add x5, x18, x2
    .word 0x166288a3  # sb x6, 369(x5)
    .word 0x00290333  # add x6, x18, x2
    .word 0x17234303  # lbu x6, 370(x6)
    .word 0x0109d393  # srli x7, x19, 16
    .word 0x00734333  # xor x6, x6, x7
    .word 0x002902b3  # add x5, x18, x2
    .word 0x16628923  # sb x6, 370(x5)
    .word 0x00290333  # add x6, x18, x2
    .word 0x17334303  # lbu x6, 371(x6)
    .word 0x0189d393  # srli x7, x19, 24
    .word 0x00734333  # xor x6, x6, x7
    .word 0x002902b3  # add x5, x18, x2
    .word 0x166289a3  # sb x6, 371(x5)
    .word 0x00290333  # add x6, x18, x2
    .word 0x17434303  # lbu x6, 372(x6)
    .word 0x01534333  # xor x6, x6, x21
    .word 0x002902b3  # add x5, x18, x2
    .word 0x16628a23  # sb x6, 372(x5)
    .word 0x00290333  # add x6, x18, x2
    .word 0x17534303  # lbu x6, 373(x6)
    .word 0x008ad393  # srli x7, x21, 8
    .word 0x00734333  # xor x6, x6, x7
    .word 0x002902b3  # add x5, x18, x2
    .word 0x16628aa3  # sb x6, 373(x5)
    .word 0x00290333  # add x6, x18, x2
    .word 0x17634303  # lbu x6, 374(x6)
    .word 0x010ad393  # srli x7, x21, 16
    .word 0x00734333  # xor x6, x6, x7
    .word 0x002902b3  # add x5, x18, x2
    .word 0x16628b23  # sb x6, 374(x5)
    .word 0x00290333  # add x6, x18, x2
    .word 0x17734303  # lbu x6, 375(x6)
    .word 0x018ad393  # srli x7, x21, 24
    .word 0x00734333  # xor x6, x6, x7
    .word 0x002902b3  # add x5, x18, x2
    .word 0x16628ba3  # sb x6, 375(x5)
    .word 0x00290333  # add x6, x18, x2
    .word 0x17834303  # lbu x6, 376(x6)
    .word 0x01734333  # xor x6, x6, x23
    .word 0x002902b3  # add x5, x18, x2
    .word 0x16628c23  # sb x6, 376(x5)
    .word 0x00290333  # add x6, x18, x2
    .word 0x17934303  # lbu x6, 377(x6)
    .word 0x008bd393  # srli x7, x23, 8
    .word 0x00734333  # xor x6, x6, x7
    .word 0x002902b3  # add x5, x18, x2
    .word 0x16628ca3  # sb x6, 377(x5)
    .word 0x00290333  # add x6, x18, x2
    .word 0x17a34303  # lbu x6, 378(x6)
    .word 0x010bd393  # srli x7, x23, 16
    .word 0x00734333  # xor x6, x6, x7
    .word 0x002902b3  # add x5, x18, x2
    .word 0x16628d23  # sb x6, 378(x5)
    .word 0x00290333  # add x6, x18, x2
    .word 0x17b34303  # lbu x6, 379(x6)
    .word 0x018bd393  # srli x7, x23, 24
    .word 0x00734333  # xor x6, x6, x7
    .word 0x002902b3  # add x5, x18, x2
    .word 0x16628da3  # sb x6, 379(x5)
    .word 0x00290333  # add x6, x18, x2
    .word 0x17c34303  # lbu x6, 380(x6)
    .word 0x01934333  # xor x6, x6, x25
    .word 0x002902b3  # add x5, x18, x2
    .word 0x16628e23  # sb x6, 380(x5)
    .word 0x00290333  # add x6, x18, x2
    .word 0x17d34303  # lbu x6, 381(x6)
    .word 0x008cd393  # srli x7, x25, 8
    .word 0x00734333  # xor x6, x6, x7
    .word 0x002902b3  # add x5, x18, x2
    .word 0x16628ea3  # sb x6, 381(x5)
    .word 0x00290333  # add x6, x18, x2
    .word 0x17e34303  # lbu x6, 382(x6)
    .word 0x010cd393  # srli x7, x25, 16
    .word 0x00734333  # xor x6, x6, x7
    .word 0x002902b3  # add x5, x18, x2
    .word 0x16628f23  # sb x6, 382(x5)
    .word 0x00290333  # add x6, x18, x2
    .word 0x17f34303  # lbu x6, 383(x6)
    .word 0x018cd393  # srli x7, x25, 24
    .word 0x00734333  # xor x6, x6, x7
    .word 0x002902b3  # add x5, x18, x2
    .word 0x16628fa3  # sb x6, 383(x5)
    .word 0x00290333  # add x6, x18, x2
    .word 0x18034303  # lbu x6, 384(x6)
    .word 0x01434333  # xor x6, x6, x20
    .word 0x002902b3  # add x5, x18, x2
    .word 0x18628023  # sb x6, 384(x5)
    .word 0x00290333  # add x6, x18, x2
    .word 0x18134303  # lbu x6, 385(x6)
    .word 0x008a5393  # srli x7, x20, 8
    .word 0x00734333  # xor x6, x6, x7
    .word 0x002902b3  # add x5, x18, x2
    .word 0x186280a3  # sb x6, 385(x5)
    .word 0x00290333  # add x6, x18, x2
    .word 0x18234303  # lbu x6, 386(x6)
    .word 0x010a5393  # srli x7, x20, 16
    .word 0x00734333  # xor x6, x6, x7
    .word 0x002902b3  # add x5, x18, x2
    .word 0x18628123  # sb x6, 386(x5)
    .word 0x00290333  # add x6, x18, x2
    .word 0x18334303  # lbu x6, 387(x6)
    .word 0x018a5393  # srli x7, x20, 24
    .word 0x00734333  # xor x6, x6, x7
    .word 0x002902b3  # add x5, x18, x2
    .word 0x186281a3  # sb x6, 387(x5)
    .word 0x00290333  # add x6, x18, x2
    .word 0x18434303  # lbu x6, 388(x6)
    .word 0x01634333  # xor x6, x6, x22
    .word 0x002902b3  # add x5, x18, x2
    .word 0x18628223  # sb x6, 388(x5)
    .word 0x00290333  # add x6, x18, x2
    .word 0x18534303  # lbu x6, 389(x6)
    .word 0x008b5393  # srli x7, x22, 8
    .word 0x00734333  # xor x6, x6, x7
    .word 0x002902b3  # add x5, x18, x2
    .word 0x186282a3  # sb x6, 389(x5)
    .word 0x00290333  # add x6, x18, x2
    .word 0x18634303  # lbu x6, 390(x6)
    .word 0x010b5393  # srli x7, x22, 16
    .word 0x00734333  # xor x6, x6, x7
    .word 0x002902b3  # add x5, x18, x2
    .word 0x18628323  # sb x6, 390(x5)
    .word 0x00290333  # add x6, x18, x2
    .word 0x18734303  # lbu x6, 391(x6)
    .word 0x018b5393  # srli x7, x22, 24
    .word 0x00734333  # xor x6, x6, x7
    .word 0x002902b3  # add x5, x18, x2
    .word 0x186283a3  # sb x6, 391(x5)
    .word 0x00290333  # add x6, x18, x2
    .word 0x18834303  # lbu x6, 392(x6)
    .word 0x01834333  # xor x6, x6, x24
    .word 0x002902b3  # add x5, x18, x2
    .word 0x18628423  # sb x6, 392(x5)
    .word 0x00290333  # add x6, x18, x2
    .word 0x18934303  # lbu x6, 393(x6)
    .word 0x008c5393  # srli x7, x24, 8
    .word 0x00734333  # xor x6, x6, x7
    .word 0x002902b3  # add x5, x18, x2
    .word 0x186284a3  # sb x6, 393(x5)
    .word 0x00290333  # add x6, x18, x2
    .word 0x18a34303  # lbu x6, 394(x6)
    .word 0x010c5393  # srli x7, x24, 16
    .word 0x00734333  # xor x6, x6, x7
    .word 0x002902b3  # add x5, x18, x2
    .word 0x18628523  # sb x6, 394(x5)
    .word 0x00290333  # add x6, x18, x2
    .word 0x18b34303  # lbu x6, 395(x6)
    .word 0x018c5393  # srli x7, x24, 24
    .word 0x00734333  # xor x6, x6, x7
    .word 0x002902b3  # add x5, x18, x2
    .word 0x186285a3  # sb x6, 395(x5)
    .word 0x00290333  # add x6, x18, x2
    .word 0x18c34303  # lbu x6, 396(x6)
    .word 0x01a34333  # xor x6, x6, x26
    .word 0x002902b3  # add x5, x18, x2
    .word 0x18628623  # sb x6, 396(x5)
    .word 0x00290333  # add x6, x18, x2
    .word 0x18d34303  # lbu x6, 397(x6)
    .word 0x008d5393  # srli x7, x26, 8
    .word 0x00734333  # xor x6, x6, x7
    .word 0x002902b3  # add x5, x18, x2
    .word 0x186286a3  # sb x6, 397(x5)
    .word 0x00290333  # add x6, x18, x2
    .word 0x18e34303  # lbu x6, 398(x6)
    .word 0x010d5393  # srli x7, x26, 16
    .word 0x00734333  # xor x6, x6, x7
    .word 0x002902b3  # add x5, x18, x2
    .word 0x18628723  # sb x6, 398(x5)
    .word 0x00290333  # add x6, x18, x2
    .word 0x18f34303  # lbu x6, 399(x6)
    .word 0x018d5393  # srli x7, x26, 24
    .word 0x00734333  # xor x6, x6, x7
    .word 0x002902b3  # add x5, x18, x2
    .word 0x186287a3  # sb x6, 399(x5)
    .word 0x0d40006f  # jal x0, 212
    .word 0x2c000313  # addi x6, x0, 704
    .word 0x00230333  # add x6, x6, x2
    .word 0x02000393  # addi x7, x0, 32
    .word 0x006383b3  # add x7, x7, x6
    .word 0x406382b3  # sub x5, x7, x6
    .word 0x00029463  # bne x5, x0, 8
    .word 0x0100006f  # jal x0, 16
    .word 0x00032023  # sw x0, 0(x6)
    .word 0x00430313  # addi x6, x6, 4
    .word 0xfedff06f  # jal x0, -20
    .word 0x2d312023  # sw x19, 704(x2)
    .word 0x2d412223  # sw x20, 708(x2)
    .word 0x2d512423  # sw x21, 712(x2)
    .word 0x2d612623  # sw x22, 716(x2)
    .word 0x2d712823  # sw x23, 720(x2)
    .word 0x2d812a23  # sw x24, 724(x2)
    .word 0x2d912c23  # sw x25, 728(x2)
    .word 0x2da12e23  # sw x26, 732(x2)
    .word 0x31212623  # sw x18, 780(x2)
    .word 0x2bc12283  # lw x5, 700(x2)
    .word 0x30512823  # sw x5, 784(x2)
    .word 0x30c12303  # lw x6, 780(x2)
    .word 0x31012283  # lw x5, 784(x2)
    .word 0x005332b3  # sltu x5, x6, x5
    .word 0x00029463  # bne x5, x0, 8
    .word 0x06c0006f  # jal x0, 108
    .word 0x2e612023  # sw x6, 736(x2)
    .word 0x00130313  # addi x6, x6, 1
    .word 0x30612623  # sw x6, 780(x2)
    .word 0x2e012283  # lw x5, 736(x2)
    .word 0x0042d293  # srli x5, x5, 4
    .word 0x0012f293  # andi x5, x5, 1
    .word 0x2e012303  # lw x6, 736(x2)
    .word 0x00235313  # srli x6, x6, 2
    .word 0x00337313  # andi x6, x6, 3
    .word 0x00131313  # slli x6, x6, 1
    .word 0x00628933  # add x18, x5, x6
    .word 0x00291d93  # slli x27, x18, 2
    .word 0x002d8db3  # add x27, x27, x2
    .word 0x2e012283  # lw x5, 736(x2)
    .word 0x2e012303  # lw x6, 736(x2)
    .word 0x00230333  # add x6, x6, x2
    .word 0x17034303  # lbu x6, 368(x6)
    .word 0x2c0da383  # lw x7, 704(x27)
    .word 0x2e012403  # lw x8, 736(x2)
    .word 0x00347413  # andi x8, x8, 3
    .word 0x00341413  # slli x8, x8, 3
    .word 0x0083d3b3  # srl x7, x7, x8
    .word 0x00734333  # xor x6, x6, x7
    .word 0x002282b3  # add x5, x5, x2
    .word 0x16628823  # sb x6, 368(x5)
    .word 0xf89ff06f  # jal x0, -120
    .word 0x9f4ff06f  # jal x0, -3596
    .word 0x28012283  # lw x5, 640(x2)
    .word 0x2bc12303  # lw x6, 700(x2)
    .word 0x00f30313  # addi x6, x6, 15
    .word 0x00435313  # srli x6, x6, 4
    .word 0x00628833  # add x16, x5, x6
    .word 0x30012223  # sw x0, 772(x2)
    .word 0x00400293  # addi x5, x0, 4
    .word 0x30512423  # sw x5, 776(x2)
    .word 0x30412303  # lw x6, 772(x2)
    .word 0x30812283  # lw x5, 776(x2)
    .word 0x005332b3  # sltu x5, x6, x5
    .word 0x00029463  # bne x5, x0, 8
    .word 0x0380006f  # jal x0, 56
    .word 0x2a612e23  # sw x6, 700(x2)
    .word 0x00130313  # addi x6, x6, 1
    .word 0x30612223  # sw x6, 772(x2)
    .word 0x2bc12283  # lw x5, 700(x2)
    .word 0x00c28293  # addi x5, x5, 12
    .word 0x01800393  # addi x7, x0, 24
    .word 0x2bc12403  # lw x8, 700(x2)
    .word 0x00341413  # slli x8, x8, 3
    .word 0x408383b3  # sub x7, x7, x8
    .word 0x00785333  # srl x6, x16, x7
    .word 0x002282b3  # add x5, x5, x2
    .word 0x16628023  # sb x6, 352(x5)
    .word 0xfbdff06f  # jal x0, -68
    # the result
    .word 0x00000513  # addi x10, x0, 0
    # parameter 1: the array, back
    .word 0x16010293  # addi x5, x2, 352
    .word 0x35812303  # lw x6, 856(x2)
    .word 0x01028393  # addi x7, x5, 16
    .word 0x09c00f6f  # jal x30, 156
    # parameter 2: the array, back
    .word 0x17010293  # addi x5, x2, 368
    .word 0x35c12303  # lw x6, 860(x2)
    .word 0x10028393  # addi x7, x5, 256
    .word 0x08c00f6f  # jal x30, 140
    # above the frame
    .word 0x32010293  # addi x5, x2, 800
    # the caller's registers
    .word 0x0002a403  # lw x8, 0(x5)
    .cfi_restore 8
    .word 0x0042a903  # lw x18, 4(x5)
    .cfi_restore 18
    .word 0x0082a983  # lw x19, 8(x5)
    .cfi_restore 19
    .word 0x00c2aa03  # lw x20, 12(x5)
    .cfi_restore 20
    .word 0x0102aa83  # lw x21, 16(x5)
    .cfi_restore 21
    .word 0x0142ab03  # lw x22, 20(x5)
    .cfi_restore 22
    .word 0x0182ab83  # lw x23, 24(x5)
    .cfi_restore 23
    .word 0x01c2ac03  # lw x24, 28(x5)
    .cfi_restore 24
    .word 0x0202ac83  # lw x25, 32(x5)
    .cfi_restore 25
    .word 0x0242ad03  # lw x26, 36(x5)
    .cfi_restore 26
    .word 0x0282ad83  # lw x27, 40(x5)
    .cfi_restore 27
    # the caller's x2
    .word 0x04028293  # addi x5, x5, 64
    .cfi_def_cfa 5, 0
    # all the room, wiped upward
    .word 0x00012023  # sw x0, 0(x2)
    .word 0x00012223  # sw x0, 4(x2)
    .word 0x00012423  # sw x0, 8(x2)
    .word 0x00012623  # sw x0, 12(x2)
    .word 0x01010113  # addi x2, x2, 16
    .word 0xfe5116e3  # bne x2, x5, -20
    .cfi_def_cfa 2, 0
    # temporaries, wiped
    .word 0x00000293  # addi x5, x0, 0
    .word 0x00000313  # addi x6, x0, 0
    .word 0x00000393  # addi x7, x0, 0
    .word 0x00000593  # addi x11, x0, 0
    .word 0x00000613  # addi x12, x0, 0
    .word 0x00000693  # addi x13, x0, 0
    .word 0x00000713  # addi x14, x0, 0
    .word 0x00000793  # addi x15, x0, 0
    .word 0x00000813  # addi x16, x0, 0
    .word 0x00000893  # addi x17, x0, 0
    .word 0x00000e13  # addi x28, x0, 0
    .word 0x00000e93  # addi x29, x0, 0
    .word 0x00000f13  # addi x30, x0, 0
    .word 0x00000f93  # addi x31, x0, 0
    # back
    .word 0x00008067  # jalr x0, 0(x1)
    # from x5 to x6 up to x7, and back
    .cfi_def_cfa 2, 864
    .cfi_offset 8, -64
    .cfi_offset 18, -60
    .cfi_offset 19, -56
    .cfi_offset 20, -52
    .cfi_offset 21, -48
    .cfi_offset 22, -44
    .cfi_offset 23, -40
    .cfi_offset 24, -36
    .cfi_offset 25, -32
    .cfi_offset 26, -28
    .cfi_offset 27, -24
    .word 0x0062ee33  # or x28, x5, x6
    .word 0x003e7e13  # andi x28, x28, 3
    .word 0x000e0e63  # beq x28, x0, 28
    .word 0x0002ce03  # lbu x28, 0(x5)
    .word 0x01c30023  # sb x28, 0(x6)
    .word 0x00128293  # addi x5, x5, 1
    .word 0x00130313  # addi x6, x6, 1
    .word 0xfe7298e3  # bne x5, x7, -16
    .word 0x0300006f  # jal x0, 48
    .word 0x0002ae03  # lw x28, 0(x5)
    .word 0x01c32023  # sw x28, 0(x6)
    .word 0x0042ae03  # lw x28, 4(x5)
    .word 0x01c32223  # sw x28, 4(x6)
    .word 0x0082ae03  # lw x28, 8(x5)
    .word 0x01c32423  # sw x28, 8(x6)
    .word 0x00c2ae03  # lw x28, 12(x5)
    .word 0x01c32623  # sw x28, 12(x6)
    .word 0x01028293  # addi x5, x5, 16
    .word 0x01030313  # addi x6, x6, 16
    .word 0xfc729ce3  # bne x5, x7, -40
    .word 0x000f0067  # jalr x0, 0(x30)
    .cfi_endproc
    .size aes128_ctr, . - aes128_ctr
    .option pop
