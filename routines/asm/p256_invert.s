# p256_invert: made by factc 1.0.0 function; 602 words, 784 bytes of stack, profile 1
    .option push
    .option norvc
    .option norelax
    .cfi_sections .debug_frame
    .section .text.p256_invert, "ax", @progbits
    .p2align 2
    .globl p256_invert
    .type p256_invert, @function
p256_invert:
    .cfi_startproc
    # room above the frame
    .word 0xfc010113  # addi x2, x2, -64
    .cfi_def_cfa_offset 64
    # the caller's registers
    .word 0x00812023  # sw x8, 0(x2)
    .cfi_offset 8, -64
    .word 0x00912223  # sw x9, 4(x2)
    .cfi_offset 9, -60
    .word 0x01212423  # sw x18, 8(x2)
    .cfi_offset 18, -56
    .word 0x01312623  # sw x19, 12(x2)
    .cfi_offset 19, -52
    .word 0x01412823  # sw x20, 16(x2)
    .cfi_offset 20, -48
    .word 0x01512a23  # sw x21, 20(x2)
    .cfi_offset 21, -44
    .word 0x01612c23  # sw x22, 24(x2)
    .cfi_offset 22, -40
    .word 0x01712e23  # sw x23, 28(x2)
    .cfi_offset 23, -36
    .word 0x03812023  # sw x24, 32(x2)
    .cfi_offset 24, -32
    .word 0x03912223  # sw x25, 36(x2)
    .cfi_offset 25, -28
    .word 0x03a12423  # sw x26, 40(x2)
    .cfi_offset 26, -24
    .word 0x03b12623  # sw x27, 44(x2)
    .cfi_offset 27, -20
    # arguments that are needed behind the body
    .word 0x02a12c23  # sw x10, 56(x2)
    .word 0x02b12e23  # sw x11, 60(x2)
    # the frame's base
    .word 0xd3010113  # addi x2, x2, -720
    .cfi_def_cfa 2, 784
    # parameter 0: an array
    .word 0x00050293  # addi x5, x10, 0
    .word 0x00010313  # addi x6, x2, 0
    .word 0x02028393  # addi x7, x5, 32
    .word 0x0c900f6f  # jal x30, 2248
    # the body
    .word 0x04000313  # addi x6, x0, 64
    .word 0x00230333  # add x6, x6, x2
    .word 0x20000393  # addi x7, x0, 512
    .word 0x006383b3  # add x7, x7, x6
    .word 0x406382b3  # sub x5, x7, x6
    .word 0x00029463  # bne x5, x0, 8
    .word 0x0100006f  # jal x0, 16
    .word 0x00032023  # sw x0, 0(x6)
    .word 0x00430313  # addi x6, x6, 4
    .word 0xfedff06f  # jal x0, -20
    .word 0x24000313  # addi x6, x0, 576
    .word 0x00230333  # add x6, x6, x2
    .word 0x02000393  # addi x7, x0, 32
    .word 0x006383b3  # add x7, x7, x6
    .word 0x406382b3  # sub x5, x7, x6
    .word 0x00029463  # bne x5, x0, 8
    .word 0x0100006f  # jal x0, 16
    .word 0x00032023  # sw x0, 0(x6)
    .word 0x00430313  # addi x6, x6, 4
    .word 0xfedff06f  # jal x0, -20
    .word 0x000012b7  # lui x5, 0x00001
    .word 0x10028293  # addi x5, x5, 256
    .word 0x26512023  # sw x5, 608(x2)
    .word 0x000012b7  # lui x5, 0x00001
    .word 0x21028293  # addi x5, x5, 528
    .word 0x26512223  # sw x5, 612(x2)
    .word 0x000032b7  # lui x5, 0x00003
    .word 0x32228293  # addi x5, x5, 802
    .word 0x26512423  # sw x5, 616(x2)
    .word 0x000062b7  # lui x5, 0x00006
    .word 0x43328293  # addi x5, x5, 1075
    .word 0x26512623  # sw x5, 620(x2)
    .word 0x000032b7  # lui x5, 0x00003
    .word 0x34228293  # addi x5, x5, 834
    .word 0x26512823  # sw x5, 624(x2)
    .word 0x0000f2b7  # lui x5, 0x0000f
    .word 0x43328293  # addi x5, x5, 1075
    .word 0x26512a23  # sw x5, 628(x2)
    .word 0x000022b7  # lui x5, 0x00002
    .word 0x54128293  # addi x5, x5, 1345
    .word 0x26512c23  # sw x5, 632(x2)
    .word 0x000202b7  # lui x5, 0x00020
    .word 0x65028293  # addi x5, x5, 1616
    .word 0x26512e23  # sw x5, 636(x2)
    .word 0x000802b7  # lui x5, 0x00080
    .word 0x66528293  # addi x5, x5, 1637
    .word 0x28512023  # sw x5, 640(x2)
    .word 0x000202b7  # lui x5, 0x00020
    .word 0x66528293  # addi x5, x5, 1637
    .word 0x28512223  # sw x5, 644(x2)
    .word 0x0001e2b7  # lui x5, 0x0001e
    .word 0x66428293  # addi x5, x5, 1636
    .word 0x28512423  # sw x5, 648(x2)
    .word 0x000022b7  # lui x5, 0x00002
    .word 0x66028293  # addi x5, x5, 1632
    .word 0x28512623  # sw x5, 652(x2)
    .word 0x00012283  # lw x5, 0(x2)
    .word 0x04512023  # sw x5, 64(x2)
    .word 0x00412283  # lw x5, 4(x2)
    .word 0x04512223  # sw x5, 68(x2)
    .word 0x00812283  # lw x5, 8(x2)
    .word 0x04512423  # sw x5, 72(x2)
    .word 0x00c12283  # lw x5, 12(x2)
    .word 0x04512623  # sw x5, 76(x2)
    .word 0x01012283  # lw x5, 16(x2)
    .word 0x04512823  # sw x5, 80(x2)
    .word 0x01412283  # lw x5, 20(x2)
    .word 0x04512a23  # sw x5, 84(x2)
    .word 0x01812283  # lw x5, 24(x2)
    .word 0x04512c23  # sw x5, 88(x2)
    .word 0x01c12283  # lw x5, 28(x2)
    .word 0x04512e23  # sw x5, 92(x2)
    .word 0x2a012c23  # sw x0, 696(x2)
    .word 0x00c00293  # addi x5, x0, 12
    .word 0x2a512e23  # sw x5, 700(x2)
    .word 0x2b812303  # lw x6, 696(x2)
    .word 0x2bc12283  # lw x5, 700(x2)
    .word 0x005332b3  # sltu x5, x6, x5
    .word 0x00029463  # bne x5, x0, 8
    .word 0x6a80006f  # jal x0, 1704
    .word 0x28612823  # sw x6, 656(x2)
    .word 0x00130313  # addi x6, x6, 1
    .word 0x2a612c23  # sw x6, 696(x2)
    .word 0x29012283  # lw x5, 656(x2)
    .word 0x00229293  # slli x5, x5, 2
    .word 0x002282b3  # add x5, x5, x2
    .word 0x2602a283  # lw x5, 608(x5)
    .word 0x28512a23  # sw x5, 660(x2)
    .word 0x29412283  # lw x5, 660(x2)
    .word 0x00c2d293  # srli x5, x5, 12
    .word 0x0ff2f293  # andi x5, x5, 255
    .word 0x28512c23  # sw x5, 664(x2)
    .word 0x2c012023  # sw x0, 704(x2)
    .word 0x29812283  # lw x5, 664(x2)
    .word 0x00128293  # addi x5, x5, 1
    .word 0x2c512223  # sw x5, 708(x2)
    .word 0x2c012303  # lw x6, 704(x2)
    .word 0x2c412283  # lw x5, 708(x2)
    .word 0x005332b3  # sltu x5, x6, x5
    .word 0x00029463  # bne x5, x0, 8
    .word 0x6500006f  # jal x0, 1616
    .word 0x28612e23  # sw x6, 668(x2)
    .word 0x00130313  # addi x6, x6, 1
    .word 0x2c612023  # sw x6, 704(x2)
    .word 0x29c12283  # lw x5, 668(x2)
    .word 0x0012b293  # sltiu x5, x5, 1
    .word 0x29412303  # lw x6, 660(x2)
    .word 0x00135313  # srli x6, x6, 1
    .word 0x07800393  # addi x7, x0, 120
    .word 0x405002b3  # sub x5, x0, x5
    .word 0x00734333  # xor x6, x6, x7
    .word 0x00537333  # and x6, x6, x5
    .word 0x0063c2b3  # xor x5, x7, x6
    .word 0x0782f693  # andi x13, x5, 120
    .word 0x00269413  # slli x8, x13, 2
    .word 0x00240433  # add x8, x8, x2
    .word 0x29c12283  # lw x5, 668(x2)
    .word 0x29812303  # lw x6, 664(x2)
    .word 0x406282b3  # sub x5, x5, x6
    .word 0x005032b3  # sltu x5, x0, x5
    .word 0x29412303  # lw x6, 660(x2)
    .word 0x00331313  # slli x6, x6, 3
    .word 0xfff28293  # addi x5, x5, -1
    .word 0x00d34333  # xor x6, x6, x13
    .word 0x00537333  # and x6, x6, x5
    .word 0x0066c2b3  # xor x5, x13, x6
    .word 0x0782f513  # andi x10, x5, 120
    .word 0x00251d93  # slli x27, x10, 2
    .word 0x002d8db3  # add x27, x27, x2
    .word 0x29c12283  # lw x5, 668(x2)
    .word 0x29812303  # lw x6, 664(x2)
    .word 0x406282b3  # sub x5, x5, x6
    .word 0x005032b3  # sltu x5, x0, x5
    .word 0x29412303  # lw x6, 660(x2)
    .word 0x00535313  # srli x6, x6, 5
    .word 0x07800393  # addi x7, x0, 120
    .word 0xfff28293  # addi x5, x5, -1
    .word 0x00734333  # xor x6, x6, x7
    .word 0x00537333  # and x6, x6, x5
    .word 0x0063c2b3  # xor x5, x7, x6
    .word 0x0782f893  # andi x17, x5, 120
    .word 0x00289493  # slli x9, x17, 2
    .word 0x002484b3  # add x9, x9, x2
    .word 0x00000913  # addi x18, x0, 0
    .word 0x00000993  # addi x19, x0, 0
    .word 0x00000a13  # addi x20, x0, 0
    .word 0x00000a93  # addi x21, x0, 0
    .word 0x00000b13  # addi x22, x0, 0
    .word 0x00000b93  # addi x23, x0, 0
    .word 0x00000c13  # addi x24, x0, 0
    .word 0x00000c93  # addi x25, x0, 0
    .word 0x04042283  # lw x5, 64(x8)
    .word 0x24512023  # sw x5, 576(x2)
    .word 0x04442283  # lw x5, 68(x8)
    .word 0x24512223  # sw x5, 580(x2)
    .word 0x04842283  # lw x5, 72(x8)
    .word 0x24512423  # sw x5, 584(x2)
    .word 0x04c42283  # lw x5, 76(x8)
    .word 0x24512623  # sw x5, 588(x2)
    .word 0x05042283  # lw x5, 80(x8)
    .word 0x24512823  # sw x5, 592(x2)
    .word 0x05442283  # lw x5, 84(x8)
    .word 0x24512a23  # sw x5, 596(x2)
    .word 0x05842283  # lw x5, 88(x8)
    .word 0x24512c23  # sw x5, 600(x2)
    .word 0x05c42283  # lw x5, 92(x8)
    .word 0x24512e23  # sw x5, 604(x2)
    .word 0xfff00693  # addi x13, x0, -1
    .word 0x00168693  # addi x13, x13, 1
    .word 0x00269413  # slli x8, x13, 2
    .word 0x00240433  # add x8, x8, x2
    .word 0x24042583  # lw x11, 576(x8)
    .word 0x040da703  # lw x14, 64(x27)
    .word 0x02e587b3  # mul x15, x11, x14
    .word 0x02e5b833  # mulhu x16, x11, x14
    .word 0x00f90733  # add x14, x18, x15
    .word 0x24e42023  # sw x14, 576(x8)
    .word 0x00f73333  # sltu x6, x14, x15
    .word 0x00680633  # add x12, x16, x6
    .word 0x044da703  # lw x14, 68(x27)
    .word 0x02e587b3  # mul x15, x11, x14
    .word 0x02e5b833  # mulhu x16, x11, x14
    .word 0x00f98733  # add x14, x19, x15
    .word 0x00c70933  # add x18, x14, x12
    .word 0x00f73333  # sltu x6, x14, x15
    .word 0x006802b3  # add x5, x16, x6
    .word 0x00c93333  # sltu x6, x18, x12
    .word 0x00628633  # add x12, x5, x6
    .word 0x048da703  # lw x14, 72(x27)
    .word 0x02e587b3  # mul x15, x11, x14
    .word 0x02e5b833  # mulhu x16, x11, x14
    .word 0x00fa0733  # add x14, x20, x15
    .word 0x00c709b3  # add x19, x14, x12
    .word 0x00f73333  # sltu x6, x14, x15
    .word 0x006802b3  # add x5, x16, x6
    .word 0x00c9b333  # sltu x6, x19, x12
    .word 0x00628633  # add x12, x5, x6
    .word 0x04cda703  # lw x14, 76(x27)
    .word 0x02e587b3  # mul x15, x11, x14
    .word 0x02e5b833  # mulhu x16, x11, x14
    .word 0x00fa8733  # add x14, x21, x15
    .word 0x00c70a33  # add x20, x14, x12
    .word 0x00f73333  # sltu x6, x14, x15
    .word 0x006802b3  # add x5, x16, x6
    .word 0x00ca3333  # sltu x6, x20, x12
    .word 0x00628633  # add x12, x5, x6
    .word 0x050da703  # lw x14, 80(x27)
    .word 0x02e587b3  # mul x15, x11, x14
    .word 0x02e5b833  # mulhu x16, x11, x14
    .word 0x00fb0733  # add x14, x22, x15
    .word 0x00c70ab3  # add x21, x14, x12
    .word 0x00f73333  # sltu x6, x14, x15
    .word 0x006802b3  # add x5, x16, x6
    .word 0x00cab333  # sltu x6, x21, x12
    .word 0x00628633  # add x12, x5, x6
    .word 0x054da703  # lw x14, 84(x27)
    .word 0x02e587b3  # mul x15, x11, x14
    .word 0x02e5b833  # mulhu x16, x11, x14
    .word 0x00fb8733  # add x14, x23, x15
    .word 0x00c70b33  # add x22, x14, x12
    .word 0x00f73333  # sltu x6, x14, x15
    .word 0x006802b3  # add x5, x16, x6
    .word 0x00cb3333  # sltu x6, x22, x12
    .word 0x00628633  # add x12, x5, x6
    .word 0x058da703  # lw x14, 88(x27)
    .word 0x02e587b3  # mul x15, x11, x14
    .word 0x02e5b833  # mulhu x16, x11, x14
    .word 0x00fc0733  # add x14, x24, x15
    .word 0x00c70bb3  # add x23, x14, x12
    .word 0x00f73333  # sltu x6, x14, x15
    .word 0x006802b3  # add x5, x16, x6
    .word 0x00cbb333  # sltu x6, x23, x12
    .word 0x00628633  # add x12, x5, x6
    .word 0x05cda703  # lw x14, 92(x27)
    .word 0x02e587b3  # mul x15, x11, x14
    .word 0x02e5b833  # mulhu x16, x11, x14
    .word 0x00fc8733  # add x14, x25, x15
    .word 0x00c70c33  # add x24, x14, x12
    .word 0x00f73333  # sltu x6, x14, x15
    .word 0x006802b3  # add x5, x16, x6
    .word 0x00cc3333  # sltu x6, x24, x12
    .word 0x00628633  # add x12, x5, x6
    .word 0x00060c93  # addi x25, x12, 0
    .word 0xff968293  # addi x5, x13, -7
    .word 0xec0298e3  # bne x5, x0, -304
    .word 0x24012703  # lw x14, 576(x2)
    .word 0x00070793  # addi x15, x14, 0
    .word 0x24412703  # lw x14, 580(x2)
    .word 0x00070813  # addi x16, x14, 0
    .word 0x24812703  # lw x14, 584(x2)
    .word 0x00070d13  # addi x26, x14, 0
    .word 0x24c12703  # lw x14, 588(x2)
    .word 0x00f70733  # add x14, x14, x15
    .word 0x00f735b3  # sltu x11, x14, x15
    .word 0x2ae12023  # sw x14, 672(x2)
    .word 0x25012283  # lw x5, 592(x2)
    .word 0x00b28733  # add x14, x5, x11
    .word 0x00b735b3  # sltu x11, x14, x11
    .word 0x01070733  # add x14, x14, x16
    .word 0x01073333  # sltu x6, x14, x16
    .word 0x006585b3  # add x11, x11, x6
    .word 0x2ae12223  # sw x14, 676(x2)
    .word 0x25412283  # lw x5, 596(x2)
    .word 0x00b28733  # add x14, x5, x11
    .word 0x00b735b3  # sltu x11, x14, x11
    .word 0x01a70733  # add x14, x14, x26
    .word 0x01a73333  # sltu x6, x14, x26
    .word 0x006585b3  # add x11, x11, x6
    .word 0x2ae12423  # sw x14, 680(x2)
    .word 0x25812283  # lw x5, 600(x2)
    .word 0x00b28733  # add x14, x5, x11
    .word 0x00b735b3  # sltu x11, x14, x11
    .word 0x2a012303  # lw x6, 672(x2)
    .word 0x00670733  # add x14, x14, x6
    .word 0x2a012383  # lw x7, 672(x2)
    .word 0x00773333  # sltu x6, x14, x7
    .word 0x006585b3  # add x11, x11, x6
    .word 0x00f70733  # add x14, x14, x15
    .word 0x00f73333  # sltu x6, x14, x15
    .word 0x006585b3  # add x11, x11, x6
    .word 0x2ae12623  # sw x14, 684(x2)
    .word 0x25c12283  # lw x5, 604(x2)
    .word 0x00b28733  # add x14, x5, x11
    .word 0x00b735b3  # sltu x11, x14, x11
    .word 0x2a412303  # lw x6, 676(x2)
    .word 0x00670733  # add x14, x14, x6
    .word 0x2a412383  # lw x7, 676(x2)
    .word 0x00773333  # sltu x6, x14, x7
    .word 0x006585b3  # add x11, x11, x6
    .word 0x01070733  # add x14, x14, x16
    .word 0x01073333  # sltu x6, x14, x16
    .word 0x006585b3  # add x11, x11, x6
    .word 0x40f00633  # sub x12, x0, x15
    .word 0x00c70733  # add x14, x14, x12
    .word 0x00c73333  # sltu x6, x14, x12
    .word 0x006585b3  # add x11, x11, x6
    .word 0x2ae12823  # sw x14, 688(x2)
    .word 0x00b90733  # add x14, x18, x11
    .word 0x00b735b3  # sltu x11, x14, x11
    .word 0x2a812303  # lw x6, 680(x2)
    .word 0x00670733  # add x14, x14, x6
    .word 0x2a812383  # lw x7, 680(x2)
    .word 0x00773333  # sltu x6, x14, x7
    .word 0x006585b3  # add x11, x11, x6
    .word 0x01a70733  # add x14, x14, x26
    .word 0x01a73333  # sltu x6, x14, x26
    .word 0x006585b3  # add x11, x11, x6
    .word 0x41000633  # sub x12, x0, x16
    .word 0x00c70733  # add x14, x14, x12
    .word 0x00c73333  # sltu x6, x14, x12
    .word 0x006585b3  # add x11, x11, x6
    .word 0x00f03333  # sltu x6, x0, x15
    .word 0x40678633  # sub x12, x15, x6
    .word 0x00c70733  # add x14, x14, x12
    .word 0x00c73333  # sltu x6, x14, x12
    .word 0x006585b3  # add x11, x11, x6
    .word 0x00070793  # addi x15, x14, 0
    .word 0x00b98733  # add x14, x19, x11
    .word 0x00b735b3  # sltu x11, x14, x11
    .word 0x2ac12303  # lw x6, 684(x2)
    .word 0x00670733  # add x14, x14, x6
    .word 0x2ac12383  # lw x7, 684(x2)
    .word 0x00773333  # sltu x6, x14, x7
    .word 0x006585b3  # add x11, x11, x6
    .word 0x2a012303  # lw x6, 672(x2)
    .word 0x00670733  # add x14, x14, x6
    .word 0x2a012383  # lw x7, 672(x2)
    .word 0x00773333  # sltu x6, x14, x7
    .word 0x006585b3  # add x11, x11, x6
    .word 0x41a00633  # sub x12, x0, x26
    .word 0x00c70733  # add x14, x14, x12
    .word 0x00c73333  # sltu x6, x14, x12
    .word 0x006585b3  # add x11, x11, x6
    .word 0x01003333  # sltu x6, x0, x16
    .word 0x40680633  # sub x12, x16, x6
    .word 0x00c70733  # add x14, x14, x12
    .word 0x00c73333  # sltu x6, x14, x12
    .word 0x006585b3  # add x11, x11, x6
    .word 0x00070813  # addi x16, x14, 0
    .word 0x00ba0733  # add x14, x20, x11
    .word 0x00b735b3  # sltu x11, x14, x11
    .word 0x2b012303  # lw x6, 688(x2)
    .word 0x00670733  # add x14, x14, x6
    .word 0x2b012383  # lw x7, 688(x2)
    .word 0x00773333  # sltu x6, x14, x7
    .word 0x006585b3  # add x11, x11, x6
    .word 0x2a412303  # lw x6, 676(x2)
    .word 0x00670733  # add x14, x14, x6
    .word 0x2a412383  # lw x7, 676(x2)
    .word 0x00773333  # sltu x6, x14, x7
    .word 0x006585b3  # add x11, x11, x6
    .word 0x2a012283  # lw x5, 672(x2)
    .word 0x40500633  # sub x12, x0, x5
    .word 0x00c70733  # add x14, x14, x12
    .word 0x00c73333  # sltu x6, x14, x12
    .word 0x006585b3  # add x11, x11, x6
    .word 0x01a03333  # sltu x6, x0, x26
    .word 0x406d0633  # sub x12, x26, x6
    .word 0x00c70733  # add x14, x14, x12
    .word 0x00c73333  # sltu x6, x14, x12
    .word 0x006585b3  # add x11, x11, x6
    .word 0x00070913  # addi x18, x14, 0
    .word 0x00ba8733  # add x14, x21, x11
    .word 0x00b735b3  # sltu x11, x14, x11
    .word 0x2a812303  # lw x6, 680(x2)
    .word 0x00670733  # add x14, x14, x6
    .word 0x2a812383  # lw x7, 680(x2)
    .word 0x00773333  # sltu x6, x14, x7
    .word 0x006585b3  # add x11, x11, x6
    .word 0x2a412283  # lw x5, 676(x2)
    .word 0x40500633  # sub x12, x0, x5
    .word 0x00c70733  # add x14, x14, x12
    .word 0x00c73333  # sltu x6, x14, x12
    .word 0x006585b3  # add x11, x11, x6
    .word 0x2a012283  # lw x5, 672(x2)
    .word 0x2a012303  # lw x6, 672(x2)
    .word 0x00603333  # sltu x6, x0, x6
    .word 0x40628633  # sub x12, x5, x6
    .word 0x00c70733  # add x14, x14, x12
    .word 0x00c73333  # sltu x6, x14, x12
    .word 0x006585b3  # add x11, x11, x6
    .word 0x00070993  # addi x19, x14, 0
    .word 0x00bb0733  # add x14, x22, x11
    .word 0x00b735b3  # sltu x11, x14, x11
    .word 0x2ac12303  # lw x6, 684(x2)
    .word 0x00670733  # add x14, x14, x6
    .word 0x2ac12383  # lw x7, 684(x2)
    .word 0x00773333  # sltu x6, x14, x7
    .word 0x006585b3  # add x11, x11, x6
    .word 0x2a812283  # lw x5, 680(x2)
    .word 0x40500633  # sub x12, x0, x5
    .word 0x00c70733  # add x14, x14, x12
    .word 0x00c73333  # sltu x6, x14, x12
    .word 0x006585b3  # add x11, x11, x6
    .word 0x2a412283  # lw x5, 676(x2)
    .word 0x2a412303  # lw x6, 676(x2)
    .word 0x00603333  # sltu x6, x0, x6
    .word 0x40628633  # sub x12, x5, x6
    .word 0x00c70733  # add x14, x14, x12
    .word 0x00c73333  # sltu x6, x14, x12
    .word 0x006585b3  # add x11, x11, x6
    .word 0x00070a13  # addi x20, x14, 0
    .word 0x00bb8733  # add x14, x23, x11
    .word 0x00b735b3  # sltu x11, x14, x11
    .word 0x2b012303  # lw x6, 688(x2)
    .word 0x00670733  # add x14, x14, x6
    .word 0x2b012383  # lw x7, 688(x2)
    .word 0x00773333  # sltu x6, x14, x7
    .word 0x006585b3  # add x11, x11, x6
    .word 0x2ac12283  # lw x5, 684(x2)
    .word 0x40500633  # sub x12, x0, x5
    .word 0x00c70733  # add x14, x14, x12
    .word 0x00c73333  # sltu x6, x14, x12
    .word 0x006585b3  # add x11, x11, x6
    .word 0x2a812283  # lw x5, 680(x2)
    .word 0x2a812303  # lw x6, 680(x2)
    .word 0x00603333  # sltu x6, x0, x6
    .word 0x40628633  # sub x12, x5, x6
    .word 0x00c70733  # add x14, x14, x12
    .word 0x00c73333  # sltu x6, x14, x12
    .word 0x006585b3  # add x11, x11, x6
    .word 0x00070a93  # addi x21, x14, 0
    .word 0x00bc0733  # add x14, x24, x11
    .word 0x00b735b3  # sltu x11, x14, x11
    .word 0x2b012283  # lw x5, 688(x2)
    .word 0x40500633  # sub x12, x0, x5
    .word 0x00c70733  # add x14, x14, x12
    .word 0x00c73333  # sltu x6, x14, x12
    .word 0x006585b3  # add x11, x11, x6
    .word 0x2ac12283  # lw x5, 684(x2)
    .word 0x2ac12303  # lw x6, 684(x2)
    .word 0x00603333  # sltu x6, x0, x6
    .word 0x40628633  # sub x12, x5, x6
    .word 0x00c70733  # add x14, x14, x12
    .word 0x00c73333  # sltu x6, x14, x12
    .word 0x006585b3  # add x11, x11, x6
    .word 0x00070b13  # addi x22, x14, 0
    .word 0x00bc8733  # add x14, x25, x11
    .word 0x00b735b3  # sltu x11, x14, x11
    .word 0x2b012283  # lw x5, 688(x2)
    .word 0x2b012303  # lw x6, 688(x2)
    .word 0x00603333  # sltu x6, x0, x6
    .word 0x40628633  # sub x12, x5, x6
    .word 0x00c70733  # add x14, x14, x12
    .word 0x00c73333  # sltu x6, x14, x12
    .word 0x006585b3  # add x11, x11, x6
    .word 0x00178793  # addi x15, x15, 1
    .word 0x0017b613  # sltiu x12, x15, 1
    .word 0x00c80833  # add x16, x16, x12
    .word 0x00c83633  # sltu x12, x16, x12
    .word 0x00c90933  # add x18, x18, x12
    .word 0x00c93633  # sltu x12, x18, x12
    .word 0x00100293  # addi x5, x0, 1
    .word 0x40c28633  # sub x12, x5, x12
    .word 0x00098b93  # addi x23, x19, 0
    .word 0x40c989b3  # sub x19, x19, x12
    .word 0x00cbb633  # sltu x12, x23, x12
    .word 0x000a0b93  # addi x23, x20, 0
    .word 0x40ca0a33  # sub x20, x20, x12
    .word 0x00cbb633  # sltu x12, x23, x12
    .word 0x000a8b93  # addi x23, x21, 0
    .word 0x40ca8ab3  # sub x21, x21, x12
    .word 0x00cbb633  # sltu x12, x23, x12
    .word 0x00160613  # addi x12, x12, 1
    .word 0x000b0b93  # addi x23, x22, 0
    .word 0x40cb0b33  # sub x22, x22, x12
    .word 0x00100293  # addi x5, x0, 1
    .word 0x00cbb333  # sltu x6, x23, x12
    .word 0x40628633  # sub x12, x5, x6
    .word 0x00c70bb3  # add x23, x14, x12
    .word 0x00cbb633  # sltu x12, x23, x12
    .word 0x00100293  # addi x5, x0, 1
    .word 0x40b282b3  # sub x5, x5, x11
    .word 0x40c285b3  # sub x11, x5, x12
    .word 0x00078613  # addi x12, x15, 0
    .word 0x40b787b3  # sub x15, x15, x11
    .word 0x00b63733  # sltu x14, x12, x11
    .word 0x00080613  # addi x12, x16, 0
    .word 0x40e80833  # sub x16, x16, x14
    .word 0x00e63733  # sltu x14, x12, x14
    .word 0x00090613  # addi x12, x18, 0
    .word 0x40e90933  # sub x18, x18, x14
    .word 0x00e63733  # sltu x14, x12, x14
    .word 0x40e58733  # sub x14, x11, x14
    .word 0x00e989b3  # add x19, x19, x14
    .word 0x00e9b733  # sltu x14, x19, x14
    .word 0x00ea0a33  # add x20, x20, x14
    .word 0x00ea3733  # sltu x14, x20, x14
    .word 0x00ea8ab3  # add x21, x21, x14
    .word 0x00eab733  # sltu x14, x21, x14
    .word 0x00b70733  # add x14, x14, x11
    .word 0x00eb0b33  # add x22, x22, x14
    .word 0x00eb3733  # sltu x14, x22, x14
    .word 0x00eb82b3  # add x5, x23, x14
    .word 0x40b28bb3  # sub x23, x5, x11
    .word 0x04f4a023  # sw x15, 64(x9)
    .word 0x0504a223  # sw x16, 68(x9)
    .word 0x0524a423  # sw x18, 72(x9)
    .word 0x0534a623  # sw x19, 76(x9)
    .word 0x0544a823  # sw x20, 80(x9)
    .word 0x0554aa23  # sw x21, 84(x9)
    .word 0x0564ac23  # sw x22, 88(x9)
    .word 0x0574ae23  # sw x23, 92(x9)
    .word 0x9a5ff06f  # jal x0, -1628
    .word 0x94dff06f  # jal x0, -1716
    .word 0x10012283  # lw x5, 256(x2)
    .word 0x02512023  # sw x5, 32(x2)
    .word 0x10412283  # lw x5, 260(x2)
    .word 0x02512223  # sw x5, 36(x2)
    .word 0x10812283  # lw x5, 264(x2)
    .word 0x02512423  # sw x5, 40(x2)
    .word 0x10c12283  # lw x5, 268(x2)
    .word 0x02512623  # sw x5, 44(x2)
    .word 0x11012283  # lw x5, 272(x2)
    .word 0x02512823  # sw x5, 48(x2)
    .word 0x11412283  # lw x5, 276(x2)
    .word 0x02512a23  # sw x5, 52(x2)
    .word 0x11812283  # lw x5, 280(x2)
    .word 0x02512c23  # sw x5, 56(x2)
    .word 0x11c12283  # lw x5, 284(x2)
    .word 0x02512e23  # sw x5, 60(x2)
    # the result
    .word 0x00000513  # addi x10, x0, 0
    # parameter 1: the array, back
    .word 0x02010293  # addi x5, x2, 32
    .word 0x30c12303  # lw x6, 780(x2)
    .word 0x02028393  # addi x7, x5, 32
    .word 0x09000f6f  # jal x30, 144
    # above the frame
    .word 0x2d010293  # addi x5, x2, 720
    # the caller's registers
    .word 0x0002a403  # lw x8, 0(x5)
    .cfi_restore 8
    .word 0x0042a483  # lw x9, 4(x5)
    .cfi_restore 9
    .word 0x0082a903  # lw x18, 8(x5)
    .cfi_restore 18
    .word 0x00c2a983  # lw x19, 12(x5)
    .cfi_restore 19
    .word 0x0102aa03  # lw x20, 16(x5)
    .cfi_restore 20
    .word 0x0142aa83  # lw x21, 20(x5)
    .cfi_restore 21
    .word 0x0182ab03  # lw x22, 24(x5)
    .cfi_restore 22
    .word 0x01c2ab83  # lw x23, 28(x5)
    .cfi_restore 23
    .word 0x0202ac03  # lw x24, 32(x5)
    .cfi_restore 24
    .word 0x0242ac83  # lw x25, 36(x5)
    .cfi_restore 25
    .word 0x0282ad03  # lw x26, 40(x5)
    .cfi_restore 26
    .word 0x02c2ad83  # lw x27, 44(x5)
    .cfi_restore 27
    # the caller's x2
    .word 0x04028293  # addi x5, x5, 64
    .cfi_def_cfa 5, 0
    # all the room, wiped upward
    .word 0x00012023  # sw x0, 0(x2)
    .word 0x00012223  # sw x0, 4(x2)
    .word 0x00012423  # sw x0, 8(x2)
    .word 0x00012623  # sw x0, 12(x2)
    .word 0x01010113  # addi x2, x2, 16
    .word 0xfe5116e3  # bne x2, x5, -20
    .cfi_def_cfa 2, 0
    # temporaries, wiped
    .word 0x00000293  # addi x5, x0, 0
    .word 0x00000313  # addi x6, x0, 0
    .word 0x00000393  # addi x7, x0, 0
    .word 0x00000593  # addi x11, x0, 0
    .word 0x00000613  # addi x12, x0, 0
    .word 0x00000693  # addi x13, x0, 0
    .word 0x00000713  # addi x14, x0, 0
    .word 0x00000793  # addi x15, x0, 0
    .word 0x00000813  # addi x16, x0, 0
    .word 0x00000893  # addi x17, x0, 0
    .word 0x00000e13  # addi x28, x0, 0
    .word 0x00000e93  # addi x29, x0, 0
    .word 0x00000f13  # addi x30, x0, 0
    .word 0x00000f93  # addi x31, x0, 0
    # back
    .word 0x00008067  # jalr x0, 0(x1)
    # from x5 to x6 up to x7, and back
    .cfi_def_cfa 2, 784
    .cfi_offset 8, -64
    .cfi_offset 9, -60
    .cfi_offset 18, -56
    .cfi_offset 19, -52
    .cfi_offset 20, -48
    .cfi_offset 21, -44
    .cfi_offset 22, -40
    .cfi_offset 23, -36
    .cfi_offset 24, -32
    .cfi_offset 25, -28
    .cfi_offset 26, -24
    .cfi_offset 27, -20
    .word 0x0062ee33  # or x28, x5, x6
    .word 0x003e7e13  # andi x28, x28, 3
    .word 0x000e0e63  # beq x28, x0, 28
    .word 0x0002ce03  # lbu x28, 0(x5)
    .word 0x01c30023  # sb x28, 0(x6)
    .word 0x00128293  # addi x5, x5, 1
    .word 0x00130313  # addi x6, x6, 1
    .word 0xfe7298e3  # bne x5, x7, -16
    .word 0x0300006f  # jal x0, 48
    .word 0x0002ae03  # lw x28, 0(x5)
    .word 0x01c32023  # sw x28, 0(x6)
    .word 0x0042ae03  # lw x28, 4(x5)
    .word 0x01c32223  # sw x28, 4(x6)
    .word 0x0082ae03  # lw x28, 8(x5)
    .word 0x01c32423  # sw x28, 8(x6)
    .word 0x00c2ae03  # lw x28, 12(x5)
    .word 0x01c32623  # sw x28, 12(x6)
    .word 0x01028293  # addi x5, x5, 16
    .word 0x01030313  # addi x6, x6, 16
    .word 0xfc729ce3  # bne x5, x7, -40
    .word 0x000f0067  # jalr x0, 0(x30)
    .cfi_endproc
    .size p256_invert, . - p256_invert
    .option pop
