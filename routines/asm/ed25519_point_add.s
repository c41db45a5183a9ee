# ed25519_point_add: made by factc 1.0.0 function; 882 words, 1072 bytes of stack, profile 1
    .option push
    .option norvc
    .option norelax
    .cfi_sections .debug_frame
    .section .text.ed25519_point_add, "ax", @progbits
    .p2align 2
    .globl ed25519_point_add
    .type ed25519_point_add, @function
ed25519_point_add:
    .cfi_startproc
    # room above the frame
    .word 0xfc010113  # addi x2, x2, -64
    .cfi_def_cfa_offset 64
    # the caller's registers
    .word 0x00912023  # sw x9, 0(x2)
    .cfi_offset 9, -64
    .word 0x01212223  # sw x18, 4(x2)
    .cfi_offset 18, -60
    .word 0x01312423  # sw x19, 8(x2)
    .cfi_offset 19, -56
    .word 0x01412623  # sw x20, 12(x2)
    .cfi_offset 20, -52
    .word 0x01512823  # sw x21, 16(x2)
    .cfi_offset 21, -48
    .word 0x01612a23  # sw x22, 20(x2)
    .cfi_offset 22, -44
    .word 0x01712c23  # sw x23, 24(x2)
    .cfi_offset 23, -40
    .word 0x01812e23  # sw x24, 28(x2)
    .cfi_offset 24, -36
    .word 0x03912023  # sw x25, 32(x2)
    .cfi_offset 25, -32
    .word 0x03a12223  # sw x26, 36(x2)
    .cfi_offset 26, -28
    .word 0x03b12423  # sw x27, 40(x2)
    .cfi_offset 27, -24
    # arguments that are needed behind the body
    .word 0x02a12a23  # sw x10, 52(x2)
    .word 0x02b12c23  # sw x11, 56(x2)
    .word 0x02c12e23  # sw x12, 60(x2)
    # the frame's base
    .word 0xc1010113  # addi x2, x2, -1008
    .cfi_def_cfa 2, 1072
    # parameter 0: an array
    .word 0x00050293  # addi x5, x10, 0
    .word 0x00010313  # addi x6, x2, 0
    .word 0x08028393  # addi x7, x5, 128
    .word 0x52900f6f  # jal x30, 3368
    # parameter 1: an array
    .word 0x00058293  # addi x5, x11, 0
    .word 0x08010313  # addi x6, x2, 128
    .word 0x08028393  # addi x7, x5, 128
    .word 0x51900f6f  # jal x30, 3352
    # the body
    .word 0x800002b7  # lui x5, 0x80000
    .word 0xfff28293  # addi x5, x5, -1
    .word 0x3c512a23  # sw x5, 980(x2)
    .word 0x18000313  # addi x6, x0, 384
    .word 0x00230333  # add x6, x6, x2
    .word 0x20000393  # addi x7, x0, 512
    .word 0x006383b3  # add x7, x7, x6
    .word 0x406382b3  # sub x5, x7, x6
    .word 0x00029463  # bne x5, x0, 8
    .word 0x0100006f  # jal x0, 16
    .word 0x00032023  # sw x0, 0(x6)
    .word 0x00430313  # addi x6, x6, 4
    .word 0xfedff06f  # jal x0, -20
    .word 0x38000313  # addi x6, x0, 896
    .word 0x00230333  # add x6, x6, x2
    .word 0x02000393  # addi x7, x0, 32
    .word 0x006383b3  # add x7, x7, x6
    .word 0x406382b3  # sub x5, x7, x6
    .word 0x00029463  # bne x5, x0, 8
    .word 0x0100006f  # jal x0, 16
    .word 0x00032023  # sw x0, 0(x6)
    .word 0x00430313  # addi x6, x6, 4
    .word 0xfedff06f  # jal x0, -20
    .word 0x000032b7  # lui x5, 0x00003
    .word 0x91028293  # addi x5, x5, -1776
    .word 0x3a511023  # sh x5, 928(x2)
    .word 0x000032b7  # lui x5, 0x00003
    .word 0xa5428293  # addi x5, x5, -1452
    .word 0x3a511123  # sh x5, 930(x2)
    .word 0x000012b7  # lui x5, 0x00001
    .word 0x99a28293  # addi x5, x5, -1638
    .word 0x3a511223  # sh x5, 932(x2)
    .word 0x000022b7  # lui x5, 0x00002
    .word 0xa1028293  # addi x5, x5, -1520
    .word 0x3a511323  # sh x5, 934(x2)
    .word 0x000022b7  # lui x5, 0x00002
    .word 0xb5428293  # addi x5, x5, -1196
    .word 0x3a511423  # sh x5, 936(x2)
    .word 0x000012b7  # lui x5, 0x00001
    .word 0xaab28293  # addi x5, x5, -1365
    .word 0x3a511523  # sh x5, 938(x2)
    .word 0x000012b7  # lui x5, 0x00001
    .word 0xb3728293  # addi x5, x5, -1225
    .word 0x3a511623  # sh x5, 940(x2)
    .word 0x000012b7  # lui x5, 0x00001
    .word 0xbb828293  # addi x5, x5, -1096
    .word 0x3a511723  # sh x5, 942(x2)
    .word 0x000012b7  # lui x5, 0x00001
    .word 0xc2628293  # addi x5, x5, -986
    .word 0x3a511823  # sh x5, 944(x2)
    .word 0x000022b7  # lui x5, 0x00002
    .word 0xccc28293  # addi x5, x5, -820
    .word 0x3a511923  # sh x5, 946(x2)
    .word 0x000032b7  # lui x5, 0x00003
    .word 0xda928293  # addi x5, x5, -599
    .word 0x3a511a23  # sh x5, 948(x2)
    .word 0x000032b7  # lui x5, 0x00003
    .word 0xecb28293  # addi x5, x5, -309
    .word 0x3a511b23  # sh x5, 950(x2)
    .word 0x000022b7  # lui x5, 0x00002
    .word 0xccb28293  # addi x5, x5, -821
    .word 0x3a511c23  # sh x5, 952(x2)
    .word 0x000022b7  # lui x5, 0x00002
    .word 0xaa928293  # addi x5, x5, -1367
    .word 0x3a511d23  # sh x5, 954(x2)
    .word 0x0de00293  # addi x5, x0, 222
    .word 0x3a511e23  # sh x5, 956(x2)
    .word 0x1ca00293  # addi x5, x0, 458
    .word 0x3a511f23  # sh x5, 958(x2)
    .word 0x2ec00293  # addi x5, x0, 748
    .word 0x3c511023  # sh x5, 960(x2)
    .word 0x3da00293  # addi x5, x0, 986
    .word 0x3c511123  # sh x5, 962(x2)
    .word 0x000032b7  # lui x5, 0x00003
    .word 0x00028293  # addi x5, x5, 0
    .word 0x3c511223  # sh x5, 964(x2)
    .word 0x000032b7  # lui x5, 0x00003
    .word 0x10028293  # addi x5, x5, 256
    .word 0x3c511323  # sh x5, 966(x2)
    .word 0x000032b7  # lui x5, 0x00003
    .word 0x20028293  # addi x5, x5, 512
    .word 0x3c511423  # sh x5, 968(x2)
    .word 0x000032b7  # lui x5, 0x00003
    .word 0x30028293  # addi x5, x5, 768
    .word 0x3c511523  # sh x5, 970(x2)
    .word 0x00012283  # lw x5, 0(x2)
    .word 0x18512023  # sw x5, 384(x2)
    .word 0x08012283  # lw x5, 128(x2)
    .word 0x20512023  # sw x5, 512(x2)
    .word 0x00412283  # lw x5, 4(x2)
    .word 0x18512223  # sw x5, 388(x2)
    .word 0x08412283  # lw x5, 132(x2)
    .word 0x20512223  # sw x5, 516(x2)
    .word 0x00812283  # lw x5, 8(x2)
    .word 0x18512423  # sw x5, 392(x2)
    .word 0x08812283  # lw x5, 136(x2)
    .word 0x20512423  # sw x5, 520(x2)
    .word 0x00c12283  # lw x5, 12(x2)
    .word 0x18512623  # sw x5, 396(x2)
    .word 0x08c12283  # lw x5, 140(x2)
    .word 0x20512623  # sw x5, 524(x2)
    .word 0x01012283  # lw x5, 16(x2)
    .word 0x18512823  # sw x5, 400(x2)
    .word 0x09012283  # lw x5, 144(x2)
    .word 0x20512823  # sw x5, 528(x2)
    .word 0x01412283  # lw x5, 20(x2)
    .word 0x18512a23  # sw x5, 404(x2)
    .word 0x09412283  # lw x5, 148(x2)
    .word 0x20512a23  # sw x5, 532(x2)
    .word 0x01812283  # lw x5, 24(x2)
    .word 0x18512c23  # sw x5, 408(x2)
    .word 0x09812283  # lw x5, 152(x2)
    .word 0x20512c23  # sw x5, 536(x2)
    .word 0x01c12283  # lw x5, 28(x2)
    .word 0x18512e23  # sw x5, 412(x2)
    .word 0x09c12283  # lw x5, 156(x2)
    .word 0x20512e23  # sw x5, 540(x2)
    .word 0x02012283  # lw x5, 32(x2)
    .word 0x1a512023  # sw x5, 416(x2)
    .word 0x0a012283  # lw x5, 160(x2)
    .word 0x22512023  # sw x5, 544(x2)
    .word 0x02412283  # lw x5, 36(x2)
    .word 0x1a512223  # sw x5, 420(x2)
    .word 0x0a412283  # lw x5, 164(x2)
    .word 0x22512223  # sw x5, 548(x2)
    .word 0x02812283  # lw x5, 40(x2)
    .word 0x1a512423  # sw x5, 424(x2)
    .word 0x0a812283  # lw x5, 168(x2)
    .word 0x22512423  # sw x5, 552(x2)
    .word 0x02c12283  # lw x5, 44(x2)
    .word 0x1a512623  # sw x5, 428(x2)
    .word 0x0ac12283  # lw x5, 172(x2)
    .word 0x22512623  # sw x5, 556(x2)
    .word 0x03012283  # lw x5, 48(x2)
    .word 0x1a512823  # sw x5, 432(x2)
    .word 0x0b012283  # lw x5, 176(x2)
    .word 0x22512823  # sw x5, 560(x2)
    .word 0x03412283  # lw x5, 52(x2)
    .word 0x1a512a23  # sw x5, 436(x2)
    .word 0x0b412283  # lw x5, 180(x2)
    .word 0x22512a23  # sw x5, 564(x2)
    .word 0x03812283  # lw x5, 56(x2)
    .word 0x1a512c23  # sw x5, 440(x2)
    .word 0x0b812283  # lw x5, 184(x2)
    .word 0x22512c23  # sw x5, 568(x2)
    .word 0x03c12283  # lw x5, 60(x2)
    .word 0x1a512e23  # sw x5, 444(x2)
    .word 0x0bc12283  # lw x5, 188(x2)
    .word 0x22512e23  # sw x5, 572(x2)
    .word 0x04012283  # lw x5, 64(x2)
    .word 0x1c512023  # sw x5, 448(x2)
    .word 0x0c012283  # lw x5, 192(x2)
    .word 0x24512023  # sw x5, 576(x2)
    .word 0x04412283  # lw x5, 68(x2)
    .word 0x1c512223  # sw x5, 452(x2)
    .word 0x0c412283  # lw x5, 196(x2)
    .word 0x24512223  # sw x5, 580(x2)
    .word 0x04812283  # lw x5, 72(x2)
    .word 0x1c512423  # sw x5, 456(x2)
    .word 0x0c812283  # lw x5, 200(x2)
    .word 0x24512423  # sw x5, 584(x2)
    .word 0x04c12283  # lw x5, 76(x2)
    .word 0x1c512623  # sw x5, 460(x2)
    .word 0x0cc12283  # lw x5, 204(x2)
    .word 0x24512623  # sw x5, 588(x2)
    .word 0x05012283  # lw x5, 80(x2)
    .word 0x1c512823  # sw x5, 464(x2)
    .word 0x0d012283  # lw x5, 208(x2)
    .word 0x24512823  # sw x5, 592(x2)
    .word 0x05412283  # lw x5, 84(x2)
    .word 0x1c512a23  # sw x5, 468(x2)
    .word 0x0d412283  # lw x5, 212(x2)
    .word 0x24512a23  # sw x5, 596(x2)
    .word 0x05812283  # lw x5, 88(x2)
    .word 0x1c512c23  # sw x5, 472(x2)
    .word 0x0d812283  # lw x5, 216(x2)
    .word 0x24512c23  # sw x5, 600(x2)
    .word 0x05c12283  # lw x5, 92(x2)
    .word 0x1c512e23  # sw x5, 476(x2)
    .word 0x0dc12283  # lw x5, 220(x2)
    .word 0x24512e23  # sw x5, 604(x2)
    .word 0x06012283  # lw x5, 96(x2)
    .word 0x1e512023  # sw x5, 480(x2)
    .word 0x0e012283  # lw x5, 224(x2)
    .word 0x26512023  # sw x5, 608(x2)
    .word 0x06412283  # lw x5, 100(x2)
    .word 0x1e512223  # sw x5, 484(x2)
    .word 0x0e412283  # lw x5, 228(x2)
    .word 0x26512223  # sw x5, 612(x2)
    .word 0x06812283  # lw x5, 104(x2)
    .word 0x1e512423  # sw x5, 488(x2)
    .word 0x0e812283  # lw x5, 232(x2)
    .word 0x26512423  # sw x5, 616(x2)
    .word 0x06c12283  # lw x5, 108(x2)
    .word 0x1e512623  # sw x5, 492(x2)
    .word 0x0ec12283  # lw x5, 236(x2)
    .word 0x26512623  # sw x5, 620(x2)
    .word 0x07012283  # lw x5, 112(x2)
    .word 0x1e512823  # sw x5, 496(x2)
    .word 0x0f012283  # lw x5, 240(x2)
    .word 0x26512823  # sw x5, 624(x2)
    .word 0x07412283  # lw x5, 116(x2)
    .word 0x1e512a23  # sw x5, 500(x2)
    .word 0x0f412283  # lw x5, 244(x2)
    .word 0x26512a23  # sw x5, 628(x2)
    .word 0x07812283  # lw x5, 120(x2)
    .word 0x1e512c23  # sw x5, 504(x2)
    .word 0x0f812283  # lw x5, 248(x2)
    .word 0x26512c23  # sw x5, 632(x2)
    .word 0x07c12283  # lw x5, 124(x2)
    .word 0x1e512e23  # sw x5, 508(x2)
    .word 0x0fc12283  # lw x5, 252(x2)
    .word 0x26512e23  # sw x5, 636(x2)
    .word 0x26b2f2b7  # lui x5, 0x26b2f
    .word 0x15928293  # addi x5, x5, 345
    .word 0x28512023  # sw x5, 640(x2)
    .word 0xebd6a2b7  # lui x5, 0xebd6a
    .word 0xb9428293  # addi x5, x5, -1132
    .word 0x28512223  # sw x5, 644(x2)
    .word 0x8283b2b7  # lui x5, 0x8283b
    .word 0x15628293  # addi x5, x5, 342
    .word 0x28512423  # sw x5, 648(x2)
    .word 0x00e012b7  # lui x5, 0x00e01
    .word 0x49a28293  # addi x5, x5, 1178
    .word 0x28512623  # sw x5, 652(x2)
    .word 0xeef3d2b7  # lui x5, 0xeef3d
    .word 0x13028293  # addi x5, x5, 304
    .word 0x28512823  # sw x5, 656(x2)
    .word 0x198e82b7  # lui x5, 0x198e8
    .word 0x0f228293  # addi x5, x5, 242
    .word 0x28512a23  # sw x5, 660(x2)
    .word 0x56e002b7  # lui x5, 0x56e00
    .word 0xce728293  # addi x5, x5, -793
    .word 0x28512c23  # sw x5, 664(x2)
    .word 0x2406e2b7  # lui x5, 0x2406e
    .word 0x9dc28293  # addi x5, x5, -1572
    .word 0x28512e23  # sw x5, 668(x2)
    .word 0x3c012e23  # sw x0, 988(x2)
    .word 0x01600293  # addi x5, x0, 22
    .word 0x3e512023  # sw x5, 992(x2)
    .word 0x3dc12303  # lw x6, 988(x2)
    .word 0x3e012283  # lw x5, 992(x2)
    .word 0x005332b3  # sltu x5, x6, x5
    .word 0x00029463  # bne x5, x0, 8
    .word 0x7a80006f  # jal x0, 1960
    .word 0x3c612623  # sw x6, 972(x2)
    .word 0x00130313  # addi x6, x6, 1
    .word 0x3c612e23  # sw x6, 988(x2)
    .word 0x3cc12283  # lw x5, 972(x2)
    .word 0x00129593  # slli x11, x5, 1
    .word 0x002585b3  # add x11, x11, x2
    .word 0x3a05d583  # lhu x11, 928(x11)
    .word 0x00259d93  # slli x27, x11, 2
    .word 0x002d8db3  # add x27, x27, x2
    .word 0x00c5d613  # srli x12, x11, 12
    .word 0x0055d293  # srli x5, x11, 5
    .word 0x0782f793  # andi x15, x5, 120
    .word 0x00279493  # slli x9, x15, 2
    .word 0x002484b3  # add x9, x9, x2
    .word 0x0015d293  # srli x5, x11, 1
    .word 0x0782f513  # andi x10, x5, 120
    .word 0x00251d13  # slli x26, x10, 2
    .word 0x002d0d33  # add x26, x26, x2
    .word 0x00359293  # slli x5, x11, 3
    .word 0x0782f593  # andi x11, x5, 120
    .word 0x00259d93  # slli x27, x11, 2
    .word 0x002d8db3  # add x27, x27, x2
    .word 0x38061e63  # bne x12, x0, 924
    .word 0x00000993  # addi x19, x0, 0
    .word 0x00000a13  # addi x20, x0, 0
    .word 0x00000a93  # addi x21, x0, 0
    .word 0x00000b13  # addi x22, x0, 0
    .word 0x00000b93  # addi x23, x0, 0
    .word 0x00000c13  # addi x24, x0, 0
    .word 0x00000c93  # addi x25, x0, 0
    .word 0x3c012823  # sw x0, 976(x2)
    .word 0x180d2283  # lw x5, 384(x26)
    .word 0x38512023  # sw x5, 896(x2)
    .word 0x184d2283  # lw x5, 388(x26)
    .word 0x38512223  # sw x5, 900(x2)
    .word 0x188d2283  # lw x5, 392(x26)
    .word 0x38512423  # sw x5, 904(x2)
    .word 0x18cd2283  # lw x5, 396(x26)
    .word 0x38512623  # sw x5, 908(x2)
    .word 0x190d2283  # lw x5, 400(x26)
    .word 0x38512823  # sw x5, 912(x2)
    .word 0x194d2283  # lw x5, 404(x26)
    .word 0x38512a23  # sw x5, 916(x2)
    .word 0x198d2283  # lw x5, 408(x26)
    .word 0x38512c23  # sw x5, 920(x2)
    .word 0x19cd2283  # lw x5, 412(x26)
    .word 0x38512e23  # sw x5, 924(x2)
    .word 0xfff00613  # addi x12, x0, -1
    .word 0x00160613  # addi x12, x12, 1
    .word 0x00261693  # slli x13, x12, 2
    .word 0x002686b3  # add x13, x13, x2
    .word 0x3806a683  # lw x13, 896(x13)
    .word 0x180da803  # lw x16, 384(x27)
    .word 0x030688b3  # mul x17, x13, x16
    .word 0x0306b933  # mulhu x18, x13, x16
    .word 0x01198833  # add x16, x19, x17
    .word 0x00261293  # slli x5, x12, 2
    .word 0x002282b3  # add x5, x5, x2
    .word 0x3902a023  # sw x16, 896(x5)
    .word 0x01183333  # sltu x6, x16, x17
    .word 0x00690733  # add x14, x18, x6
    .word 0x184da803  # lw x16, 388(x27)
    .word 0x030688b3  # mul x17, x13, x16
    .word 0x0306b933  # mulhu x18, x13, x16
    .word 0x011a0833  # add x16, x20, x17
    .word 0x00e809b3  # add x19, x16, x14
    .word 0x01183333  # sltu x6, x16, x17
    .word 0x006902b3  # add x5, x18, x6
    .word 0x00e9b333  # sltu x6, x19, x14
    .word 0x00628733  # add x14, x5, x6
    .word 0x188da803  # lw x16, 392(x27)
    .word 0x030688b3  # mul x17, x13, x16
    .word 0x0306b933  # mulhu x18, x13, x16
    .word 0x011a8833  # add x16, x21, x17
    .word 0x00e80a33  # add x20, x16, x14
    .word 0x01183333  # sltu x6, x16, x17
    .word 0x006902b3  # add x5, x18, x6
    .word 0x00ea3333  # sltu x6, x20, x14
    .word 0x00628733  # add x14, x5, x6
    .word 0x18cda803  # lw x16, 396(x27)
    .word 0x030688b3  # mul x17, x13, x16
    .word 0x0306b933  # mulhu x18, x13, x16
    .word 0x011b0833  # add x16, x22, x17
    .word 0x00e80ab3  # add x21, x16, x14
    .word 0x01183333  # sltu x6, x16, x17
    .word 0x006902b3  # add x5, x18, x6
    .word 0x00eab333  # sltu x6, x21, x14
    .word 0x00628733  # add x14, x5, x6
    .word 0x190da803  # lw x16, 400(x27)
    .word 0x030688b3  # mul x17, x13, x16
    .word 0x0306b933  # mulhu x18, x13, x16
    .word 0x011b8833  # add x16, x23, x17
    .word 0x00e80b33  # add x22, x16, x14
    .word 0x01183333  # sltu x6, x16, x17
    .word 0x006902b3  # add x5, x18, x6
    .word 0x00eb3333  # sltu x6, x22, x14
    .word 0x00628733  # add x14, x5, x6
    .word 0x194da803  # lw x16, 404(x27)
    .word 0x030688b3  # mul x17, x13, x16
    .word 0x0306b933  # mulhu x18, x13, x16
    .word 0x011c0833  # add x16, x24, x17
    .word 0x00e80bb3  # add x23, x16, x14
    .word 0x01183333  # sltu x6, x16, x17
    .word 0x006902b3  # add x5, x18, x6
    .word 0x00ebb333  # sltu x6, x23, x14
    .word 0x00628733  # add x14, x5, x6
    .word 0x198da803  # lw x16, 408(x27)
    .word 0x030688b3  # mul x17, x13, x16
    .word 0x0306b933  # mulhu x18, x13, x16
    .word 0x011c8833  # add x16, x25, x17
    .word 0x00e80c33  # add x24, x16, x14
    .word 0x01183333  # sltu x6, x16, x17
    .word 0x006902b3  # add x5, x18, x6
    .word 0x00ec3333  # sltu x6, x24, x14
    .word 0x00628733  # add x14, x5, x6
    .word 0x19cda803  # lw x16, 412(x27)
    .word 0x030688b3  # mul x17, x13, x16
    .word 0x0306b933  # mulhu x18, x13, x16
    .word 0x3d012283  # lw x5, 976(x2)
    .word 0x01128833  # add x16, x5, x17
    .word 0x00e80cb3  # add x25, x16, x14
    .word 0x01183333  # sltu x6, x16, x17
    .word 0x006902b3  # add x5, x18, x6
    .word 0x00ecb333  # sltu x6, x25, x14
    .word 0x00628733  # add x14, x5, x6
    .word 0x3ce12823  # sw x14, 976(x2)
    .word 0xff960293  # addi x5, x12, -7
    .word 0xec0292e3  # bne x5, x0, -316
    .word 0x02600313  # addi x6, x0, 38
    .word 0x026986b3  # mul x13, x19, x6
    .word 0x02600313  # addi x6, x0, 38
    .word 0x0269b8b3  # mulhu x17, x19, x6
    .word 0x38012283  # lw x5, 896(x2)
    .word 0x00d28733  # add x14, x5, x13
    .word 0x00070993  # addi x19, x14, 0
    .word 0x00d73333  # sltu x6, x14, x13
    .word 0x00688833  # add x16, x17, x6
    .word 0x02600313  # addi x6, x0, 38
    .word 0x026a06b3  # mul x13, x20, x6
    .word 0x02600313  # addi x6, x0, 38
    .word 0x026a38b3  # mulhu x17, x20, x6
    .word 0x38412283  # lw x5, 900(x2)
    .word 0x00d28733  # add x14, x5, x13
    .word 0x01070a33  # add x20, x14, x16
    .word 0x00d73333  # sltu x6, x14, x13
    .word 0x006882b3  # add x5, x17, x6
    .word 0x010a3333  # sltu x6, x20, x16
    .word 0x00628833  # add x16, x5, x6
    .word 0x02600313  # addi x6, x0, 38
    .word 0x026a86b3  # mul x13, x21, x6
    .word 0x02600313  # addi x6, x0, 38
    .word 0x026ab8b3  # mulhu x17, x21, x6
    .word 0x38812283  # lw x5, 904(x2)
    .word 0x00d28733  # add x14, x5, x13
    .word 0x01070ab3  # add x21, x14, x16
    .word 0x00d73333  # sltu x6, x14, x13
    .word 0x006882b3  # add x5, x17, x6
    .word 0x010ab333  # sltu x6, x21, x16
    .word 0x00628833  # add x16, x5, x6
    .word 0x02600313  # addi x6, x0, 38
    .word 0x026b06b3  # mul x13, x22, x6
    .word 0x02600313  # addi x6, x0, 38
    .word 0x026b38b3  # mulhu x17, x22, x6
    .word 0x38c12283  # lw x5, 908(x2)
    .word 0x00d28733  # add x14, x5, x13
    .word 0x01070b33  # add x22, x14, x16
    .word 0x00d73333  # sltu x6, x14, x13
    .word 0x006882b3  # add x5, x17, x6
    .word 0x010b3333  # sltu x6, x22, x16
    .word 0x00628833  # add x16, x5, x6
    .word 0x02600313  # addi x6, x0, 38
    .word 0x026b86b3  # mul x13, x23, x6
    .word 0x02600313  # addi x6, x0, 38
    .word 0x026bb8b3  # mulhu x17, x23, x6
    .word 0x39012283  # lw x5, 912(x2)
    .word 0x00d28733  # add x14, x5, x13
    .word 0x01070bb3  # add x23, x14, x16
    .word 0x00d73333  # sltu x6, x14, x13
    .word 0x006882b3  # add x5, x17, x6
    .word 0x010bb333  # sltu x6, x23, x16
    .word 0x00628833  # add x16, x5, x6
    .word 0x02600313  # addi x6, x0, 38
    .word 0x026c06b3  # mul x13, x24, x6
    .word 0x02600313  # addi x6, x0, 38
    .word 0x026c38b3  # mulhu x17, x24, x6
    .word 0x39412283  # lw x5, 916(x2)
    .word 0x00d28733  # add x14, x5, x13
    .word 0x01070c33  # add x24, x14, x16
    .word 0x00d73333  # sltu x6, x14, x13
    .word 0x006882b3  # add x5, x17, x6
    .word 0x010c3333  # sltu x6, x24, x16
    .word 0x00628833  # add x16, x5, x6
    .word 0x02600313  # addi x6, x0, 38
    .word 0x026c86b3  # mul x13, x25, x6
    .word 0x02600313  # addi x6, x0, 38
    .word 0x026cb8b3  # mulhu x17, x25, x6
    .word 0x39812283  # lw x5, 920(x2)
    .word 0x00d28733  # add x14, x5, x13
    .word 0x01070cb3  # add x25, x14, x16
    .word 0x00d73333  # sltu x6, x14, x13
    .word 0x006882b3  # add x5, x17, x6
    .word 0x010cb333  # sltu x6, x25, x16
    .word 0x00628833  # add x16, x5, x6
    .word 0x3d012283  # lw x5, 976(x2)
    .word 0x02600313  # addi x6, x0, 38
    .word 0x026286b3  # mul x13, x5, x6
    .word 0x3d012283  # lw x5, 976(x2)
    .word 0x02600313  # addi x6, x0, 38
    .word 0x0262b8b3  # mulhu x17, x5, x6
    .word 0x39c12283  # lw x5, 924(x2)
    .word 0x00d28733  # add x14, x5, x13
    .word 0x01070933  # add x18, x14, x16
    .word 0x00d73333  # sltu x6, x14, x13
    .word 0x006882b3  # add x5, x17, x6
    .word 0x01093333  # sltu x6, x18, x16
    .word 0x00628833  # add x16, x5, x6
    .word 0x01300293  # addi x5, x0, 19
    .word 0x00181313  # slli x6, x16, 1
    .word 0x01f95393  # srli x7, x18, 31
    .word 0x00736333  # or x6, x6, x7
    .word 0x02628833  # mul x16, x5, x6
    .word 0x3d412303  # lw x6, 980(x2)
    .word 0x00697933  # and x18, x18, x6
    .word 0x010989b3  # add x19, x19, x16
    .word 0x0109b833  # sltu x16, x19, x16
    .word 0x010a0a33  # add x20, x20, x16
    .word 0x010a3833  # sltu x16, x20, x16
    .word 0x010a8ab3  # add x21, x21, x16
    .word 0x010ab833  # sltu x16, x21, x16
    .word 0x010b0b33  # add x22, x22, x16
    .word 0x010b3833  # sltu x16, x22, x16
    .word 0x010b8bb3  # add x23, x23, x16
    .word 0x010bb833  # sltu x16, x23, x16
    .word 0x010c0c33  # add x24, x24, x16
    .word 0x010c3833  # sltu x16, x24, x16
    .word 0x010c8cb3  # add x25, x25, x16
    .word 0x010cb833  # sltu x16, x25, x16
    .word 0x01090933  # add x18, x18, x16
    .word 0x01300313  # addi x6, x0, 19
    .word 0x01f95393  # srli x7, x18, 31
    .word 0x02730333  # mul x6, x6, x7
    .word 0x006989b3  # add x19, x19, x6
    .word 0x3d412303  # lw x6, 980(x2)
    .word 0x00697933  # and x18, x18, x6
    .word 0x1934a023  # sw x19, 384(x9)
    .word 0x1944a223  # sw x20, 388(x9)
    .word 0x1954a423  # sw x21, 392(x9)
    .word 0x1964a623  # sw x22, 396(x9)
    .word 0x1974a823  # sw x23, 400(x9)
    .word 0x1984aa23  # sw x24, 404(x9)
    .word 0x1994ac23  # sw x25, 408(x9)
    .word 0x1924ae23  # sw x18, 412(x9)
    .word 0x3b00006f  # jal x0, 944
    .word 0x00100313  # addi x6, x0, 1
    .word 0x16661863  # bne x12, x6, 368
    .word 0x180d2683  # lw x13, 384(x26)
    .word 0x180da303  # lw x6, 384(x27)
    .word 0x00668733  # add x14, x13, x6
    .word 0x00070913  # addi x18, x14, 0
    .word 0x00d73833  # sltu x16, x14, x13
    .word 0x184d2683  # lw x13, 388(x26)
    .word 0x184da303  # lw x6, 388(x27)
    .word 0x00668733  # add x14, x13, x6
    .word 0x010709b3  # add x19, x14, x16
    .word 0x00d732b3  # sltu x5, x14, x13
    .word 0x0109b333  # sltu x6, x19, x16
    .word 0x00628833  # add x16, x5, x6
    .word 0x188d2683  # lw x13, 392(x26)
    .word 0x188da303  # lw x6, 392(x27)
    .word 0x00668733  # add x14, x13, x6
    .word 0x01070a33  # add x20, x14, x16
    .word 0x00d732b3  # sltu x5, x14, x13
    .word 0x010a3333  # sltu x6, x20, x16
    .word 0x00628833  # add x16, x5, x6
    .word 0x18cd2683  # lw x13, 396(x26)
    .word 0x18cda303  # lw x6, 396(x27)
    .word 0x00668733  # add x14, x13, x6
    .word 0x01070ab3  # add x21, x14, x16
    .word 0x00d732b3  # sltu x5, x14, x13
    .word 0x010ab333  # sltu x6, x21, x16
    .word 0x00628833  # add x16, x5, x6
    .word 0x190d2683  # lw x13, 400(x26)
    .word 0x190da303  # lw x6, 400(x27)
    .word 0x00668733  # add x14, x13, x6
    .word 0x01070b33  # add x22, x14, x16
    .word 0x00d732b3  # sltu x5, x14, x13
    .word 0x010b3333  # sltu x6, x22, x16
    .word 0x00628833  # add x16, x5, x6
    .word 0x194d2683  # lw x13, 404(x26)
    .word 0x194da303  # lw x6, 404(x27)
    .word 0x00668733  # add x14, x13, x6
    .word 0x01070bb3  # add x23, x14, x16
    .word 0x00d732b3  # sltu x5, x14, x13
    .word 0x010bb333  # sltu x6, x23, x16
    .word 0x00628833  # add x16, x5, x6
    .word 0x198d2683  # lw x13, 408(x26)
    .word 0x198da303  # lw x6, 408(x27)
    .word 0x00668733  # add x14, x13, x6
    .word 0x01070c33  # add x24, x14, x16
    .word 0x00d732b3  # sltu x5, x14, x13
    .word 0x010c3333  # sltu x6, x24, x16
    .word 0x00628833  # add x16, x5, x6
    .word 0x19cd2683  # lw x13, 412(x26)
    .word 0x19cda303  # lw x6, 412(x27)
    .word 0x00668733  # add x14, x13, x6
    .word 0x010708b3  # add x17, x14, x16
    .word 0x00d732b3  # sltu x5, x14, x13
    .word 0x0108b333  # sltu x6, x17, x16
    .word 0x00628833  # add x16, x5, x6
    .word 0x01300293  # addi x5, x0, 19
    .word 0x00181313  # slli x6, x16, 1
    .word 0x01f8d393  # srli x7, x17, 31
    .word 0x00736333  # or x6, x6, x7
    .word 0x02628833  # mul x16, x5, x6
    .word 0x3d412303  # lw x6, 980(x2)
    .word 0x0068f8b3  # and x17, x17, x6
    .word 0x01090933  # add x18, x18, x16
    .word 0x01093833  # sltu x16, x18, x16
    .word 0x010989b3  # add x19, x19, x16
    .word 0x0109b833  # sltu x16, x19, x16
    .word 0x010a0a33  # add x20, x20, x16
    .word 0x010a3833  # sltu x16, x20, x16
    .word 0x010a8ab3  # add x21, x21, x16
    .word 0x010ab833  # sltu x16, x21, x16
    .word 0x010b0b33  # add x22, x22, x16
    .word 0x010b3833  # sltu x16, x22, x16
    .word 0x010b8bb3  # add x23, x23, x16
    .word 0x010bb833  # sltu x16, x23, x16
    .word 0x010c0c33  # add x24, x24, x16
    .word 0x010c3833  # sltu x16, x24, x16
    .word 0x010888b3  # add x17, x17, x16
    .word 0x01300313  # addi x6, x0, 19
    .word 0x01f8d393  # srli x7, x17, 31
    .word 0x02730333  # mul x6, x6, x7
    .word 0x00690933  # add x18, x18, x6
    .word 0x3d412303  # lw x6, 980(x2)
    .word 0x0068f8b3  # and x17, x17, x6
    .word 0x1924a023  # sw x18, 384(x9)
    .word 0x1934a223  # sw x19, 388(x9)
    .word 0x1944a423  # sw x20, 392(x9)
    .word 0x1954a623  # sw x21, 396(x9)
    .word 0x1964a823  # sw x22, 400(x9)
    .word 0x1974aa23  # sw x23, 404(x9)
    .word 0x1984ac23  # sw x24, 408(x9)
    .word 0x1914ae23  # sw x17, 412(x9)
    .word 0x23c0006f  # jal x0, 572
    .word 0x00200313  # addi x6, x0, 2
    .word 0x14661263  # bne x12, x6, 324
    .word 0x180d2683  # lw x13, 384(x26)
    .word 0x180da703  # lw x14, 384(x27)
    .word 0x40e688b3  # sub x17, x13, x14
    .word 0x00088913  # addi x18, x17, 0
    .word 0x00e6b833  # sltu x16, x13, x14
    .word 0x184d2683  # lw x13, 388(x26)
    .word 0x184da703  # lw x14, 388(x27)
    .word 0x40e688b3  # sub x17, x13, x14
    .word 0x410889b3  # sub x19, x17, x16
    .word 0x00e6b2b3  # sltu x5, x13, x14
    .word 0x0108b333  # sltu x6, x17, x16
    .word 0x00628833  # add x16, x5, x6
    .word 0x188d2683  # lw x13, 392(x26)
    .word 0x188da703  # lw x14, 392(x27)
    .word 0x40e688b3  # sub x17, x13, x14
    .word 0x41088a33  # sub x20, x17, x16
    .word 0x00e6b2b3  # sltu x5, x13, x14
    .word 0x0108b333  # sltu x6, x17, x16
    .word 0x00628833  # add x16, x5, x6
    .word 0x18cd2683  # lw x13, 396(x26)
    .word 0x18cda703  # lw x14, 396(x27)
    .word 0x40e688b3  # sub x17, x13, x14
    .word 0x41088ab3  # sub x21, x17, x16
    .word 0x00e6b2b3  # sltu x5, x13, x14
    .word 0x0108b333  # sltu x6, x17, x16
    .word 0x00628833  # add x16, x5, x6
    .word 0x190d2683  # lw x13, 400(x26)
    .word 0x190da703  # lw x14, 400(x27)
    .word 0x40e688b3  # sub x17, x13, x14
    .word 0x41088b33  # sub x22, x17, x16
    .word 0x00e6b2b3  # sltu x5, x13, x14
    .word 0x0108b333  # sltu x6, x17, x16
    .word 0x00628833  # add x16, x5, x6
    .word 0x194d2683  # lw x13, 404(x26)
    .word 0x194da703  # lw x14, 404(x27)
    .word 0x40e688b3  # sub x17, x13, x14
    .word 0x41088bb3  # sub x23, x17, x16
    .word 0x00e6b2b3  # sltu x5, x13, x14
    .word 0x0108b333  # sltu x6, x17, x16
    .word 0x00628833  # add x16, x5, x6
    .word 0x198d2683  # lw x13, 408(x26)
    .word 0x198da703  # lw x14, 408(x27)
    .word 0x40e688b3  # sub x17, x13, x14
    .word 0x41088c33  # sub x24, x17, x16
    .word 0x00e6b2b3  # sltu x5, x13, x14
    .word 0x0108b333  # sltu x6, x17, x16
    .word 0x00628833  # add x16, x5, x6
    .word 0x19cd2683  # lw x13, 412(x26)
    .word 0x19cda703  # lw x14, 412(x27)
    .word 0x40e688b3  # sub x17, x13, x14
    .word 0x41088cb3  # sub x25, x17, x16
    .word 0x00e6b2b3  # sltu x5, x13, x14
    .word 0x0108b333  # sltu x6, x17, x16
    .word 0x00628833  # add x16, x5, x6
    .word 0x02600293  # addi x5, x0, 38
    .word 0x03028833  # mul x16, x5, x16
    .word 0x410902b3  # sub x5, x18, x16
    .word 0x1854a023  # sw x5, 384(x9)
    .word 0x01093833  # sltu x16, x18, x16
    .word 0x410982b3  # sub x5, x19, x16
    .word 0x1854a223  # sw x5, 388(x9)
    .word 0x0109b833  # sltu x16, x19, x16
    .word 0x410a02b3  # sub x5, x20, x16
    .word 0x1854a423  # sw x5, 392(x9)
    .word 0x010a3833  # sltu x16, x20, x16
    .word 0x410a82b3  # sub x5, x21, x16
    .word 0x1854a623  # sw x5, 396(x9)
    .word 0x010ab833  # sltu x16, x21, x16
    .word 0x410b02b3  # sub x5, x22, x16
    .word 0x1854a823  # sw x5, 400(x9)
    .word 0x010b3833  # sltu x16, x22, x16
    .word 0x410b82b3  # sub x5, x23, x16
    .word 0x1854aa23  # sw x5, 404(x9)
    .word 0x010bb833  # sltu x16, x23, x16
    .word 0x410c02b3  # sub x5, x24, x16
    .word 0x1854ac23  # sw x5, 408(x9)
    .word 0x010c3833  # sltu x16, x24, x16
    .word 0x410c82b3  # sub x5, x25, x16
    .word 0x1854ae23  # sw x5, 412(x9)
    .word 0x0f40006f  # jal x0, 244
    .word 0x1804a283  # lw x5, 384(x9)
    .word 0x01328293  # addi x5, x5, 19
    .word 0x0132b813  # sltiu x16, x5, 19
    .word 0x1844a283  # lw x5, 388(x9)
    .word 0x010282b3  # add x5, x5, x16
    .word 0x0102b833  # sltu x16, x5, x16
    .word 0x1884a283  # lw x5, 392(x9)
    .word 0x010282b3  # add x5, x5, x16
    .word 0x0102b833  # sltu x16, x5, x16
    .word 0x18c4a283  # lw x5, 396(x9)
    .word 0x010282b3  # add x5, x5, x16
    .word 0x0102b833  # sltu x16, x5, x16
    .word 0x1904a283  # lw x5, 400(x9)
    .word 0x010282b3  # add x5, x5, x16
    .word 0x0102b833  # sltu x16, x5, x16
    .word 0x1944a283  # lw x5, 404(x9)
    .word 0x010282b3  # add x5, x5, x16
    .word 0x0102b833  # sltu x16, x5, x16
    .word 0x1984a283  # lw x5, 408(x9)
    .word 0x010282b3  # add x5, x5, x16
    .word 0x0102b833  # sltu x16, x5, x16
    .word 0x19c4a283  # lw x5, 412(x9)
    .word 0x010282b3  # add x5, x5, x16
    .word 0x41f2d293  # srai x5, x5, 31
    .word 0x0132f813  # andi x16, x5, 19
    .word 0x1804a283  # lw x5, 384(x9)
    .word 0x010286b3  # add x13, x5, x16
    .word 0x0106b833  # sltu x16, x13, x16
    .word 0x18d4a023  # sw x13, 384(x9)
    .word 0x1844a283  # lw x5, 388(x9)
    .word 0x010286b3  # add x13, x5, x16
    .word 0x0106b833  # sltu x16, x13, x16
    .word 0x18d4a223  # sw x13, 388(x9)
    .word 0x1884a283  # lw x5, 392(x9)
    .word 0x010286b3  # add x13, x5, x16
    .word 0x0106b833  # sltu x16, x13, x16
    .word 0x18d4a423  # sw x13, 392(x9)
    .word 0x18c4a283  # lw x5, 396(x9)
    .word 0x010286b3  # add x13, x5, x16
    .word 0x0106b833  # sltu x16, x13, x16
    .word 0x18d4a623  # sw x13, 396(x9)
    .word 0x1904a283  # lw x5, 400(x9)
    .word 0x010286b3  # add x13, x5, x16
    .word 0x0106b833  # sltu x16, x13, x16
    .word 0x18d4a823  # sw x13, 400(x9)
    .word 0x1944a283  # lw x5, 404(x9)
    .word 0x010286b3  # add x13, x5, x16
    .word 0x0106b833  # sltu x16, x13, x16
    .word 0x18d4aa23  # sw x13, 404(x9)
    .word 0x1984a283  # lw x5, 408(x9)
    .word 0x010286b3  # add x13, x5, x16
    .word 0x0106b833  # sltu x16, x13, x16
    .word 0x18d4ac23  # sw x13, 408(x9)
    .word 0x19c4a283  # lw x5, 412(x9)
    .word 0x010286b3  # add x13, x5, x16
    .word 0x18d4ae23  # sw x13, 412(x9)
    .word 0x19c4a283  # lw x5, 412(x9)
    .word 0x3d412303  # lw x6, 980(x2)
    .word 0x0062f2b3  # and x5, x5, x6
    .word 0x1854ae23  # sw x5, 412(x9)
    .word 0x84dff06f  # jal x0, -1972
    .word 0x18012283  # lw x5, 384(x2)
    .word 0x10512023  # sw x5, 256(x2)
    .word 0x18412283  # lw x5, 388(x2)
    .word 0x10512223  # sw x5, 260(x2)
    .word 0x18812283  # lw x5, 392(x2)
    .word 0x10512423  # sw x5, 264(x2)
    .word 0x18c12283  # lw x5, 396(x2)
    .word 0x10512623  # sw x5, 268(x2)
    .word 0x19012283  # lw x5, 400(x2)
    .word 0x10512823  # sw x5, 272(x2)
    .word 0x19412283  # lw x5, 404(x2)
    .word 0x10512a23  # sw x5, 276(x2)
    .word 0x19812283  # lw x5, 408(x2)
    .word 0x10512c23  # sw x5, 280(x2)
    .word 0x19c12283  # lw x5, 412(x2)
    .word 0x10512e23  # sw x5, 284(x2)
    .word 0x1a012283  # lw x5, 416(x2)
    .word 0x12512023  # sw x5, 288(x2)
    .word 0x1a412283  # lw x5, 420(x2)
    .word 0x12512223  # sw x5, 292(x2)
    .word 0x1a812283  # lw x5, 424(x2)
    .word 0x12512423  # sw x5, 296(x2)
    .word 0x1ac12283  # lw x5, 428(x2)
    .word 0x12512623  # sw x5, 300(x2)
    .word 0x1b012283  # lw x5, 432(x2)
    .word 0x12512823  # sw x5, 304(x2)
    .word 0x1b412283  # lw x5, 436(x2)
    .word 0x12512a23  # sw x5, 308(x2)
    .word 0x1b812283  # lw x5, 440(x2)
    .word 0x12512c23  # sw x5, 312(x2)
    .word 0x1bc12283  # lw x5, 444(x2)
    .word 0x12512e23  # sw x5, 316(x2)
    .word 0x1c012283  # lw x5, 448(x2)
    .word 0x14512023  # sw x5, 320(x2)
    .word 0x1c412283  # lw x5, 452(x2)
    .word 0x14512223  # sw x5, 324(x2)
    .word 0x1c812283  # lw x5, 456(x2)
    .word 0x14512423  # sw x5, 328(x2)
    .word 0x1cc12283  # lw x5, 460(x2)
    .word 0x14512623  # sw x5, 332(x2)
    .word 0x1d012283  # lw x5, 464(x2)
    .word 0x14512823  # sw x5, 336(x2)
    .word 0x1d412283  # lw x5, 468(x2)
    .word 0x14512a23  # sw x5, 340(x2)
    .word 0x1d812283  # lw x5, 472(x2)
    .word 0x14512c23  # sw x5, 344(x2)
    .word 0x1dc12283  # lw x5, 476(x2)
    .word 0x14512e23  # sw x5, 348(x2)
    .word 0x1e012283  # lw x5, 480(x2)
    .word 0x16512023  # sw x5, 352(x2)
    .word 0x1e412283  # lw x5, 484(x2)
    .word 0x16512223  # sw x5, 356(x2)
    .word 0x1e812283  # lw x5, 488(x2)
    .word 0x16512423  # sw x5, 360(x2)
    .word 0x1ec12283  # lw x5, 492(x2)
    .word 0x16512623  # sw x5, 364(x2)
    .word 0x1f012283  # lw x5, 496(x2)
    .word 0x16512823  # sw x5, 368(x2)
    .word 0x1f412283  # lw x5, 500(x2)
    .word 0x16512a23  # sw x5, 372(x2)
    .word 0x1f812283  # lw x5, 504(x2)
    .word 0x16512c23  # sw x5, 376(x2)
    .word 0x1fc12283  # lw x5, 508(x2)
    .word 0x16512e23  # sw x5, 380(x2)
    # the result
    .word 0x00000513  # addi x10, x0, 0
    # parameter 2: the array, back
    .word 0x10010293  # addi x5, x2, 256
    .word 0x42c12303  # lw x6, 1068(x2)
    .word 0x08028393  # addi x7, x5, 128
    .word 0x08c00f6f  # jal x30, 140
    # above the frame
    .word 0x3f010293  # addi x5, x2, 1008
    # the caller's registers
    .word 0x0002a483  # lw x9, 0(x5)
    .cfi_restore 9
    .word 0x0042a903  # lw x18, 4(x5)
    .cfi_restore 18
    .word 0x0082a983  # lw x19, 8(x5)
    .cfi_restore 19
    .word 0x00c2aa03  # lw x20, 12(x5)
    .cfi_restore 20
    .word 0x0102aa83  # lw x21, 16(x5)
    .cfi_restore 21
    .word 0x0142ab03  # lw x22, 20(x5)
    .cfi_restore 22
    .word 0x0182ab83  # lw x23, 24(x5)
    .cfi_restore 23
    .word 0x01c2ac03  # lw x24, 28(x5)
    .cfi_restore 24
    .word 0x0202ac83  # lw x25, 32(x5)
    .cfi_restore 25
    .word 0x0242ad03  # lw x26, 36(x5)
    .cfi_restore 26
    .word 0x0282ad83  # lw x27, 40(x5)
    .cfi_restore 27
    # the caller's x2
    .word 0x04028293  # addi x5, x5, 64
    .cfi_def_cfa 5, 0
    # all the room, wiped upward
    .word 0x00012023  # sw x0, 0(x2)
    .word 0x00012223  # sw x0, 4(x2)
    .word 0x00012423  # sw x0, 8(x2)
    .word 0x00012623  # sw x0, 12(x2)
    .word 0x01010113  # addi x2, x2, 16
    .word 0xfe5116e3  # bne x2, x5, -20
    .cfi_def_cfa 2, 0
    # temporaries, wiped
    .word 0x00000293  # addi x5, x0, 0
    .word 0x00000313  # addi x6, x0, 0
    .word 0x00000393  # addi x7, x0, 0
    .word 0x00000593  # addi x11, x0, 0
    .word 0x00000613  # addi x12, x0, 0
    .word 0x00000693  # addi x13, x0, 0
    .word 0x00000713  # addi x14, x0, 0
    .word 0x00000793  # addi x15, x0, 0
    .word 0x00000813  # addi x16, x0, 0
    .word 0x00000893  # addi x17, x0, 0
    .word 0x00000e13  # addi x28, x0, 0
    .word 0x00000e93  # addi x29, x0, 0
    .word 0x00000f13  # addi x30, x0, 0
    .word 0x00000f93  # addi x31, x0, 0
    # back
    .word 0x00008067  # jalr x0, 0(x1)
    # from x5 to x6 up to x7, and back
    .cfi_def_cfa 2, 1072
    .cfi_offset 9, -64
    .cfi_offset 18, -60
    .cfi_offset 19, -56
    .cfi_offset 20, -52
    .cfi_offset 21, -48
    .cfi_offset 22, -44
    .cfi_offset 23, -40
    .cfi_offset 24, -36
    .cfi_offset 25, -32
    .cfi_offset 26, -28
    .cfi_offset 27, -24
    .word 0x0062ee33  # or x28, x5, x6
    .word 0x003e7e13  # andi x28, x28, 3
    .word 0x000e0e63  # beq x28, x0, 28
    .word 0x0002ce03  # lbu x28, 0(x5)
    .word 0x01c30023  # sb x28, 0(x6)
    .word 0x00128293  # addi x5, x5, 1
    .word 0x00130313  # addi x6, x6, 1
    .word 0xfe7298e3  # bne x5, x7, -16
    .word 0x0300006f  # jal x0, 48
    .word 0x0002ae03  # lw x28, 0(x5)
    .word 0x01c32023  # sw x28, 0(x6)
    .word 0x0042ae03  # lw x28, 4(x5)
    .word 0x01c32223  # sw x28, 4(x6)
    .word 0x0082ae03  # lw x28, 8(x5)
    .word 0x01c32423  # sw x28, 8(x6)
    .word 0x00c2ae03  # lw x28, 12(x5)
    .word 0x01c32623  # sw x28, 12(x6)
    .word 0x01028293  # addi x5, x5, 16
    .word 0x01030313  # addi x6, x6, 16
    .word 0xfc729ce3  # bne x5, x7, -40
    .word 0x000f0067  # jalr x0, 0(x30)
    .cfi_endproc
    .size ed25519_point_add, . - ed25519_point_add
    .option pop
