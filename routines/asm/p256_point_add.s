# p256_point_add: made by factc 1.0.0 function; 1001 words, 1040 bytes of stack, profile 1
    .option push
    .option norvc
    .option norelax
    .cfi_sections .debug_frame
    .section .text.p256_point_add, "ax", @progbits
    .p2align 2
    .globl p256_point_add
    .type p256_point_add, @function
p256_point_add:
    .cfi_startproc
    # room above the frame
    .word 0xfc010113  # addi x2, x2, -64
    .cfi_def_cfa_offset 64
    # the caller's registers
    .word 0x00812023  # sw x8, 0(x2)
    .cfi_offset 8, -64
    .word 0x00912223  # sw x9, 4(x2)
    .cfi_offset 9, -60
    .word 0x01212423  # sw x18, 8(x2)
    .cfi_offset 18, -56
    .word 0x01312623  # sw x19, 12(x2)
    .cfi_offset 19, -52
    .word 0x01412823  # sw x20, 16(x2)
    .cfi_offset 20, -48
    .word 0x01512a23  # sw x21, 20(x2)
    .cfi_offset 21, -44
    .word 0x01612c23  # sw x22, 24(x2)
    .cfi_offset 22, -40
    .word 0x01712e23  # sw x23, 28(x2)
    .cfi_offset 23, -36
    .word 0x03812023  # sw x24, 32(x2)
    .cfi_offset 24, -32
    .word 0x03912223  # sw x25, 36(x2)
    .cfi_offset 25, -28
    .word 0x03a12423  # sw x26, 40(x2)
    .cfi_offset 26, -24
    .word 0x03b12623  # sw x27, 44(x2)
    .cfi_offset 27, -20
    # arguments that are needed behind the body
    .word 0x02a12a23  # sw x10, 52(x2)
    .word 0x02b12c23  # sw x11, 56(x2)
    .word 0x02c12e23  # sw x12, 60(x2)
    # the frame's base
    .word 0xc3010113  # addi x2, x2, -976
    .cfi_def_cfa 2, 1040
    # parameter 0: an array
    .word 0x00050293  # addi x5, x10, 0
    .word 0x00010313  # addi x6, x2, 0
    .word 0x06028393  # addi x7, x5, 96
    .word 0x70100f6f  # jal x30, 3840
    # parameter 1: an array
    .word 0x00058293  # addi x5, x11, 0
    .word 0x06010313  # addi x6, x2, 96
    .word 0x06028393  # addi x7, x5, 96
    .word 0x6f100f6f  # jal x30, 3824
    # the body
    .word 0x12000313  # addi x6, x0, 288
    .word 0x00230333  # add x6, x6, x2
    .word 0x20000393  # addi x7, x0, 512
    .word 0x006383b3  # add x7, x7, x6
    .word 0x406382b3  # sub x5, x7, x6
    .word 0x00029463  # bne x5, x0, 8
    .word 0x0100006f  # jal x0, 16
    .word 0x00032023  # sw x0, 0(x6)
    .word 0x00430313  # addi x6, x6, 4
    .word 0xfedff06f  # jal x0, -20
    .word 0x32000313  # addi x6, x0, 800
    .word 0x00230333  # add x6, x6, x2
    .word 0x02000393  # addi x7, x0, 32
    .word 0x006383b3  # add x7, x7, x6
    .word 0x406382b3  # sub x5, x7, x6
    .word 0x00029463  # bne x5, x0, 8
    .word 0x0100006f  # jal x0, 16
    .word 0x00032023  # sw x0, 0(x6)
    .word 0x00430313  # addi x6, x6, 4
    .word 0xfedff06f  # jal x0, -20
    .word 0x70300293  # addi x5, x0, 1795
    .word 0x34511023  # sh x5, 832(x2)
    .word 0x000012b7  # lui x5, 0x00001
    .word 0x81428293  # addi x5, x5, -2028
    .word 0x34511123  # sh x5, 834(x2)
    .word 0x000012b7  # lui x5, 0x00001
    .word 0x92528293  # addi x5, x5, -1755
    .word 0x34511223  # sh x5, 836(x2)
    .word 0x000022b7  # lui x5, 0x00002
    .word 0xa0128293  # addi x5, x5, -1535
    .word 0x34511323  # sh x5, 838(x2)
    .word 0x000022b7  # lui x5, 0x00002
    .word 0xb3428293  # addi x5, x5, -1228
    .word 0x34511423  # sh x5, 840(x2)
    .word 0x000012b7  # lui x5, 0x00001
    .word 0xaab28293  # addi x5, x5, -1365
    .word 0x34511523  # sh x5, 842(x2)
    .word 0x000022b7  # lui x5, 0x00002
    .word 0xb7828293  # addi x5, x5, -1160
    .word 0x34511623  # sh x5, 844(x2)
    .word 0x000032b7  # lui x5, 0x00003
    .word 0xaab28293  # addi x5, x5, -1365
    .word 0x34511723  # sh x5, 846(x2)
    .word 0x000022b7  # lui x5, 0x00002
    .word 0xb1228293  # addi x5, x5, -1262
    .word 0x34511823  # sh x5, 848(x2)
    .word 0x000022b7  # lui x5, 0x00002
    .word 0xc4528293  # addi x5, x5, -955
    .word 0x34511923  # sh x5, 850(x2)
    .word 0x000012b7  # lui x5, 0x00001
    .word 0xbbc28293  # addi x5, x5, -1092
    .word 0x34511a23  # sh x5, 852(x2)
    .word 0x000022b7  # lui x5, 0x00002
    .word 0xc8928293  # addi x5, x5, -887
    .word 0x34511b23  # sh x5, 854(x2)
    .word 0x000032b7  # lui x5, 0x00003
    .word 0xbbc28293  # addi x5, x5, -1092
    .word 0x34511c23  # sh x5, 856(x2)
    .word 0x000022b7  # lui x5, 0x00002
    .word 0xc0228293  # addi x5, x5, -1022
    .word 0x34511d23  # sh x5, 858(x2)
    .word 0x000022b7  # lui x5, 0x00002
    .word 0xd3528293  # addi x5, x5, -715
    .word 0x34511e23  # sh x5, 860(x2)
    .word 0x000012b7  # lui x5, 0x00001
    .word 0xccd28293  # addi x5, x5, -819
    .word 0x34511f23  # sh x5, 862(x2)
    .word 0x000022b7  # lui x5, 0x00002
    .word 0xd7928293  # addi x5, x5, -647
    .word 0x36511023  # sh x5, 864(x2)
    .word 0x000032b7  # lui x5, 0x00003
    .word 0xdcd28293  # addi x5, x5, -563
    .word 0x36511123  # sh x5, 866(x2)
    .word 0x000012b7  # lui x5, 0x00001
    .word 0xe6928293  # addi x5, x5, -407
    .word 0x36511223  # sh x5, 868(x2)
    .word 0x000032b7  # lui x5, 0x00003
    .word 0xcde28293  # addi x5, x5, -802
    .word 0x36511323  # sh x5, 870(x2)
    .word 0x000022b7  # lui x5, 0x00002
    .word 0xecc28293  # addi x5, x5, -308
    .word 0x36511423  # sh x5, 872(x2)
    .word 0x000022b7  # lui x5, 0x00002
    .word 0xcce28293  # addi x5, x5, -818
    .word 0x36511523  # sh x5, 874(x2)
    .word 0x000032b7  # lui x5, 0x00003
    .word 0xe8c28293  # addi x5, x5, -372
    .word 0x36511623  # sh x5, 876(x2)
    .word 0x000022b7  # lui x5, 0x00002
    .word 0xc8c28293  # addi x5, x5, -884
    .word 0x36511723  # sh x5, 878(x2)
    .word 0x000012b7  # lui x5, 0x00001
    .word 0xd6d28293  # addi x5, x5, -659
    .word 0x36511823  # sh x5, 880(x2)
    .word 0x000022b7  # lui x5, 0x00002
    .word 0x89928293  # addi x5, x5, -1895
    .word 0x36511923  # sh x5, 882(x2)
    .word 0x000022b7  # lui x5, 0x00002
    .word 0x98928293  # addi x5, x5, -1655
    .word 0x36511a23  # sh x5, 884(x2)
    .word 0x000032b7  # lui x5, 0x00003
    .word 0xdd928293  # addi x5, x5, -551
    .word 0x36511b23  # sh x5, 886(x2)
    .word 0x000032b7  # lui x5, 0x00003
    .word 0xdd728293  # addi x5, x5, -553
    .word 0x36511c23  # sh x5, 888(x2)
    .word 0x000022b7  # lui x5, 0x00002
    .word 0x8dd28293  # addi x5, x5, -1827
    .word 0x36511d23  # sh x5, 890(x2)
    .word 0x000022b7  # lui x5, 0x00002
    .word 0xd8d28293  # addi x5, x5, -627
    .word 0x36511e23  # sh x5, 892(x2)
    .word 0x000022b7  # lui x5, 0x00002
    .word 0x87728293  # addi x5, x5, -1929
    .word 0x36511f23  # sh x5, 894(x2)
    .word 0x000012b7  # lui x5, 0x00001
    .word 0x78728293  # addi x5, x5, 1927
    .word 0x38511023  # sh x5, 896(x2)
    .word 0x000022b7  # lui x5, 0x00002
    .word 0x77928293  # addi x5, x5, 1913
    .word 0x38511123  # sh x5, 898(x2)
    .word 0x000012b7  # lui x5, 0x00001
    .word 0x8bd28293  # addi x5, x5, -1859
    .word 0x38511223  # sh x5, 900(x2)
    .word 0x000012b7  # lui x5, 0x00001
    .word 0x97d28293  # addi x5, x5, -1667
    .word 0x38511323  # sh x5, 902(x2)
    .word 0x000012b7  # lui x5, 0x00001
    .word 0xdce28293  # addi x5, x5, -562
    .word 0x38511423  # sh x5, 904(x2)
    .word 0x000022b7  # lui x5, 0x00002
    .word 0xdd928293  # addi x5, x5, -551
    .word 0x38511523  # sh x5, 906(x2)
    .word 0x000012b7  # lui x5, 0x00001
    .word 0xcac28293  # addi x5, x5, -852
    .word 0x38511623  # sh x5, 908(x2)
    .word 0x000032b7  # lui x5, 0x00003
    .word 0xcc828293  # addi x5, x5, -824
    .word 0x38511723  # sh x5, 910(x2)
    .word 0x000012b7  # lui x5, 0x00001
    .word 0xebe28293  # addi x5, x5, -322
    .word 0x38511823  # sh x5, 912(x2)
    .word 0x000012b7  # lui x5, 0x00001
    .word 0x8a728293  # addi x5, x5, -1881
    .word 0x38511923  # sh x5, 914(x2)
    .word 0x000022b7  # lui x5, 0x00002
    .word 0xee828293  # addi x5, x5, -280
    .word 0x38511a23  # sh x5, 916(x2)
    .word 0x00012283  # lw x5, 0(x2)
    .word 0x12512023  # sw x5, 288(x2)
    .word 0x06012283  # lw x5, 96(x2)
    .word 0x18512023  # sw x5, 384(x2)
    .word 0x00412283  # lw x5, 4(x2)
    .word 0x12512223  # sw x5, 292(x2)
    .word 0x06412283  # lw x5, 100(x2)
    .word 0x18512223  # sw x5, 388(x2)
    .word 0x00812283  # lw x5, 8(x2)
    .word 0x12512423  # sw x5, 296(x2)
    .word 0x06812283  # lw x5, 104(x2)
    .word 0x18512423  # sw x5, 392(x2)
    .word 0x00c12283  # lw x5, 12(x2)
    .word 0x12512623  # sw x5, 300(x2)
    .word 0x06c12283  # lw x5, 108(x2)
    .word 0x18512623  # sw x5, 396(x2)
    .word 0x01012283  # lw x5, 16(x2)
    .word 0x12512823  # sw x5, 304(x2)
    .word 0x07012283  # lw x5, 112(x2)
    .word 0x18512823  # sw x5, 400(x2)
    .word 0x01412283  # lw x5, 20(x2)
    .word 0x12512a23  # sw x5, 308(x2)
    .word 0x07412283  # lw x5, 116(x2)
    .word 0x18512a23  # sw x5, 404(x2)
    .word 0x01812283  # lw x5, 24(x2)
    .word 0x12512c23  # sw x5, 312(x2)
    .word 0x07812283  # lw x5, 120(x2)
    .word 0x18512c23  # sw x5, 408(x2)
    .word 0x01c12283  # lw x5, 28(x2)
    .word 0x12512e23  # sw x5, 316(x2)
    .word 0x07c12283  # lw x5, 124(x2)
    .word 0x18512e23  # sw x5, 412(x2)
    .word 0x02012283  # lw x5, 32(x2)
    .word 0x14512023  # sw x5, 320(x2)
    .word 0x08012283  # lw x5, 128(x2)
    .word 0x1a512023  # sw x5, 416(x2)
    .word 0x02412283  # lw x5, 36(x2)
    .word 0x14512223  # sw x5, 324(x2)
    .word 0x08412283  # lw x5, 132(x2)
    .word 0x1a512223  # sw x5, 420(x2)
    .word 0x02812283  # lw x5, 40(x2)
    .word 0x14512423  # sw x5, 328(x2)
    .word 0x08812283  # lw x5, 136(x2)
    .word 0x1a512423  # sw x5, 424(x2)
    .word 0x02c12283  # lw x5, 44(x2)
    .word 0x14512623  # sw x5, 332(x2)
    .word 0x08c12283  # lw x5, 140(x2)
    .word 0x1a512623  # sw x5, 428(x2)
    .word 0x03012283  # lw x5, 48(x2)
    .word 0x14512823  # sw x5, 336(x2)
    .word 0x09012283  # lw x5, 144(x2)
    .word 0x1a512823  # sw x5, 432(x2)
    .word 0x03412283  # lw x5, 52(x2)
    .word 0x14512a23  # sw x5, 340(x2)
    .word 0x09412283  # lw x5, 148(x2)
    .word 0x1a512a23  # sw x5, 436(x2)
    .word 0x03812283  # lw x5, 56(x2)
    .word 0x14512c23  # sw x5, 344(x2)
    .word 0x09812283  # lw x5, 152(x2)
    .word 0x1a512c23  # sw x5, 440(x2)
    .word 0x03c12283  # lw x5, 60(x2)
    .word 0x14512e23  # sw x5, 348(x2)
    .word 0x09c12283  # lw x5, 156(x2)
    .word 0x1a512e23  # sw x5, 444(x2)
    .word 0x04012283  # lw x5, 64(x2)
    .word 0x16512023  # sw x5, 352(x2)
    .word 0x0a012283  # lw x5, 160(x2)
    .word 0x1c512023  # sw x5, 448(x2)
    .word 0x04412283  # lw x5, 68(x2)
    .word 0x16512223  # sw x5, 356(x2)
    .word 0x0a412283  # lw x5, 164(x2)
    .word 0x1c512223  # sw x5, 452(x2)
    .word 0x04812283  # lw x5, 72(x2)
    .word 0x16512423  # sw x5, 360(x2)
    .word 0x0a812283  # lw x5, 168(x2)
    .word 0x1c512423  # sw x5, 456(x2)
    .word 0x04c12283  # lw x5, 76(x2)
    .word 0x16512623  # sw x5, 364(x2)
    .word 0x0ac12283  # lw x5, 172(x2)
    .word 0x1c512623  # sw x5, 460(x2)
    .word 0x05012283  # lw x5, 80(x2)
    .word 0x16512823  # sw x5, 368(x2)
    .word 0x0b012283  # lw x5, 176(x2)
    .word 0x1c512823  # sw x5, 464(x2)
    .word 0x05412283  # lw x5, 84(x2)
    .word 0x16512a23  # sw x5, 372(x2)
    .word 0x0b412283  # lw x5, 180(x2)
    .word 0x1c512a23  # sw x5, 468(x2)
    .word 0x05812283  # lw x5, 88(x2)
    .word 0x16512c23  # sw x5, 376(x2)
    .word 0x0b812283  # lw x5, 184(x2)
    .word 0x1c512c23  # sw x5, 472(x2)
    .word 0x05c12283  # lw x5, 92(x2)
    .word 0x16512e23  # sw x5, 380(x2)
    .word 0x0bc12283  # lw x5, 188(x2)
    .word 0x1c512e23  # sw x5, 476(x2)
    .word 0x29c4c2b7  # lui x5, 0x29c4c
    .word 0xddf28293  # addi x5, x5, -545
    .word 0x1e512023  # sw x5, 480(x2)
    .word 0xd89ce2b7  # lui x5, 0xd89ce
    .word 0xf6228293  # addi x5, x5, -158
    .word 0x1e512223  # sw x5, 484(x2)
    .word 0x788432b7  # lui x5, 0x78843
    .word 0x09028293  # addi x5, x5, 144
    .word 0x1e512423  # sw x5, 488(x2)
    .word 0xacf002b7  # lui x5, 0xacf00
    .word 0x5cd28293  # addi x5, x5, 1485
    .word 0x1e512623  # sw x5, 492(x2)
    .word 0xf72132b7  # lui x5, 0xf7213
    .word 0xed628293  # addi x5, x5, -298
    .word 0x1e512823  # sw x5, 496(x2)
    .word 0xe5a222b7  # lui x5, 0xe5a22
    .word 0x0ab28293  # addi x5, x5, 171
    .word 0x1e512a23  # sw x5, 500(x2)
    .word 0x048752b7  # lui x5, 0x04875
    .word 0x83428293  # addi x5, x5, -1996
    .word 0x1e512c23  # sw x5, 504(x2)
    .word 0xdc3002b7  # lui x5, 0xdc300
    .word 0x61d28293  # addi x5, x5, 1565
    .word 0x1e512e23  # sw x5, 508(x2)
    .word 0x3a012c23  # sw x0, 952(x2)
    .word 0x02b00293  # addi x5, x0, 43
    .word 0x3a512e23  # sw x5, 956(x2)
    .word 0x3b812303  # lw x6, 952(x2)
    .word 0x3bc12283  # lw x5, 956(x2)
    .word 0x005332b3  # sltu x5, x6, x5
    .word 0x00029463  # bne x5, x0, 8
    .word 0x1410006f  # jal x0, 2368
    .word 0x38612c23  # sw x6, 920(x2)
    .word 0x00130313  # addi x6, x6, 1
    .word 0x3a612c23  # sw x6, 952(x2)
    .word 0x39812283  # lw x5, 920(x2)
    .word 0x00129593  # slli x11, x5, 1
    .word 0x002585b3  # add x11, x11, x2
    .word 0x3405d583  # lhu x11, 832(x11)
    .word 0x00259413  # slli x8, x11, 2
    .word 0x00240433  # add x8, x8, x2
    .word 0x00c5d613  # srli x12, x11, 12
    .word 0x0055d293  # srli x5, x11, 5
    .word 0x0782f793  # andi x15, x5, 120
    .word 0x00279493  # slli x9, x15, 2
    .word 0x002484b3  # add x9, x9, x2
    .word 0x0015d293  # srli x5, x11, 1
    .word 0x0782f513  # andi x10, x5, 120
    .word 0x00251d93  # slli x27, x10, 2
    .word 0x002d8db3  # add x27, x27, x2
    .word 0x00359293  # slli x5, x11, 3
    .word 0x0782f593  # andi x11, x5, 120
    .word 0x00259413  # slli x8, x11, 2
    .word 0x00240433  # add x8, x8, x2
    .word 0x5c061663  # bne x12, x0, 1484
    .word 0x00000993  # addi x19, x0, 0
    .word 0x00000a13  # addi x20, x0, 0
    .word 0x00000a93  # addi x21, x0, 0
    .word 0x00000b13  # addi x22, x0, 0
    .word 0x00000b93  # addi x23, x0, 0
    .word 0x00000c13  # addi x24, x0, 0
    .word 0x00000c93  # addi x25, x0, 0
    .word 0x00000d13  # addi x26, x0, 0
    .word 0x120da283  # lw x5, 288(x27)
    .word 0x32512023  # sw x5, 800(x2)
    .word 0x124da283  # lw x5, 292(x27)
    .word 0x32512223  # sw x5, 804(x2)
    .word 0x128da283  # lw x5, 296(x27)
    .word 0x32512423  # sw x5, 808(x2)
    .word 0x12cda283  # lw x5, 300(x27)
    .word 0x32512623  # sw x5, 812(x2)
    .word 0x130da283  # lw x5, 304(x27)
    .word 0x32512823  # sw x5, 816(x2)
    .word 0x134da283  # lw x5, 308(x27)
    .word 0x32512a23  # sw x5, 820(x2)
    .word 0x138da283  # lw x5, 312(x27)
    .word 0x32512c23  # sw x5, 824(x2)
    .word 0x13cda283  # lw x5, 316(x27)
    .word 0x32512e23  # sw x5, 828(x2)
    .word 0xfff00613  # addi x12, x0, -1
    .word 0x00160613  # addi x12, x12, 1
    .word 0x00261693  # slli x13, x12, 2
    .word 0x002686b3  # add x13, x13, x2
    .word 0x3206a683  # lw x13, 800(x13)
    .word 0x12042803  # lw x16, 288(x8)
    .word 0x030688b3  # mul x17, x13, x16
    .word 0x0306b933  # mulhu x18, x13, x16
    .word 0x01198833  # add x16, x19, x17
    .word 0x00261293  # slli x5, x12, 2
    .word 0x002282b3  # add x5, x5, x2
    .word 0x3302a023  # sw x16, 800(x5)
    .word 0x01183333  # sltu x6, x16, x17
    .word 0x00690733  # add x14, x18, x6
    .word 0x12442803  # lw x16, 292(x8)
    .word 0x030688b3  # mul x17, x13, x16
    .word 0x0306b933  # mulhu x18, x13, x16
    .word 0x011a0833  # add x16, x20, x17
    .word 0x00e809b3  # add x19, x16, x14
    .word 0x01183333  # sltu x6, x16, x17
    .word 0x006902b3  # add x5, x18, x6
    .word 0x00e9b333  # sltu x6, x19, x14
    .word 0x00628733  # add x14, x5, x6
    .word 0x12842803  # lw x16, 296(x8)
    .word 0x030688b3  # mul x17, x13, x16
    .word 0x0306b933  # mulhu x18, x13, x16
    .word 0x011a8833  # add x16, x21, x17
    .word 0x00e80a33  # add x20, x16, x14
    .word 0x01183333  # sltu x6, x16, x17
    .word 0x006902b3  # add x5, x18, x6
    .word 0x00ea3333  # sltu x6, x20, x14
    .word 0x00628733  # add x14, x5, x6
    .word 0x12c42803  # lw x16, 300(x8)
    .word 0x030688b3  # mul x17, x13, x16
    .word 0x0306b933  # mulhu x18, x13, x16
    .word 0x011b0833  # add x16, x22, x17
    .word 0x00e80ab3  # add x21, x16, x14
    .word 0x01183333  # sltu x6, x16, x17
    .word 0x006902b3  # add x5, x18, x6
    .word 0x00eab333  # sltu x6, x21, x14
    .word 0x00628733  # add x14, x5, x6
    .word 0x13042803  # lw x16, 304(x8)
    .word 0x030688b3  # mul x17, x13, x16
    .word 0x0306b933  # mulhu x18, x13, x16
    .word 0x011b8833  # add x16, x23, x17
    .word 0x00e80b33  # add x22, x16, x14
    .word 0x01183333  # sltu x6, x16, x17
    .word 0x006902b3  # add x5, x18, x6
    .word 0x00eb3333  # sltu x6, x22, x14
    .word 0x00628733  # add x14, x5, x6
    .word 0x13442803  # lw x16, 308(x8)
    .word 0x030688b3  # mul x17, x13, x16
    .word 0x0306b933  # mulhu x18, x13, x16
    .word 0x011c0833  # add x16, x24, x17
    .word 0x00e80bb3  # add x23, x16, x14
    .word 0x01183333  # sltu x6, x16, x17
    .word 0x006902b3  # add x5, x18, x6
    .word 0x00ebb333  # sltu x6, x23, x14
    .word 0x00628733  # add x14, x5, x6
    .word 0x13842803  # lw x16, 312(x8)
    .word 0x030688b3  # mul x17, x13, x16
    .word 0x0306b933  # mulhu x18, x13, x16
    .word 0x011c8833  # add x16, x25, x17
    .word 0x00e80c33  # add x24, x16, x14
    .word 0x01183333  # sltu x6, x16, x17
    .word 0x006902b3  # add x5, x18, x6
    .word 0x00ec3333  # sltu x6, x24, x14
    .word 0x00628733  # add x14, x5, x6
    .word 0x13c42803  # lw x16, 316(x8)
    .word 0x030688b3  # mul x17, x13, x16
    .word 0x0306b933  # mulhu x18, x13, x16
    .word 0x011d0833  # add x16, x26, x17
    .word 0x00e80cb3  # add x25, x16, x14
    .word 0x01183333  # sltu x6, x16, x17
    .word 0x006902b3  # add x5, x18, x6
    .word 0x00ecb333  # sltu x6, x25, x14
    .word 0x00628733  # add x14, x5, x6
    .word 0x00070d13  # addi x26, x14, 0
    .word 0xff960293  # addi x5, x12, -7
    .word 0xec0294e3  # bne x5, x0, -312
    .word 0x32012803  # lw x16, 800(x2)
    .word 0x00080893  # addi x17, x16, 0
    .word 0x32412803  # lw x16, 804(x2)
    .word 0x00080913  # addi x18, x16, 0
    .word 0x32812803  # lw x16, 808(x2)
    .word 0x39012e23  # sw x16, 924(x2)
    .word 0x32c12803  # lw x16, 812(x2)
    .word 0x01180833  # add x16, x16, x17
    .word 0x011836b3  # sltu x13, x16, x17
    .word 0x3b012023  # sw x16, 928(x2)
    .word 0x33012283  # lw x5, 816(x2)
    .word 0x00d28833  # add x16, x5, x13
    .word 0x00d836b3  # sltu x13, x16, x13
    .word 0x01280833  # add x16, x16, x18
    .word 0x01283333  # sltu x6, x16, x18
    .word 0x006686b3  # add x13, x13, x6
    .word 0x3b012223  # sw x16, 932(x2)
    .word 0x33412283  # lw x5, 820(x2)
    .word 0x00d28833  # add x16, x5, x13
    .word 0x00d836b3  # sltu x13, x16, x13
    .word 0x39c12303  # lw x6, 924(x2)
    .word 0x00680833  # add x16, x16, x6
    .word 0x39c12383  # lw x7, 924(x2)
    .word 0x00783333  # sltu x6, x16, x7
    .word 0x006686b3  # add x13, x13, x6
    .word 0x3b012423  # sw x16, 936(x2)
    .word 0x33812283  # lw x5, 824(x2)
    .word 0x00d28833  # add x16, x5, x13
    .word 0x00d836b3  # sltu x13, x16, x13
    .word 0x3a012303  # lw x6, 928(x2)
    .word 0x00680833  # add x16, x16, x6
    .word 0x3a012383  # lw x7, 928(x2)
    .word 0x00783333  # sltu x6, x16, x7
    .word 0x006686b3  # add x13, x13, x6
    .word 0x01180833  # add x16, x16, x17
    .word 0x01183333  # sltu x6, x16, x17
    .word 0x006686b3  # add x13, x13, x6
    .word 0x3b012623  # sw x16, 940(x2)
    .word 0x33c12283  # lw x5, 828(x2)
    .word 0x00d28833  # add x16, x5, x13
    .word 0x00d836b3  # sltu x13, x16, x13
    .word 0x3a412303  # lw x6, 932(x2)
    .word 0x00680833  # add x16, x16, x6
    .word 0x3a412383  # lw x7, 932(x2)
    .word 0x00783333  # sltu x6, x16, x7
    .word 0x006686b3  # add x13, x13, x6
    .word 0x01280833  # add x16, x16, x18
    .word 0x01283333  # sltu x6, x16, x18
    .word 0x006686b3  # add x13, x13, x6
    .word 0x41100733  # sub x14, x0, x17
    .word 0x00e80833  # add x16, x16, x14
    .word 0x00e83333  # sltu x6, x16, x14
    .word 0x006686b3  # add x13, x13, x6
    .word 0x3b012823  # sw x16, 944(x2)
    .word 0x00d98833  # add x16, x19, x13
    .word 0x00d836b3  # sltu x13, x16, x13
    .word 0x3a812303  # lw x6, 936(x2)
    .word 0x00680833  # add x16, x16, x6
    .word 0x3a812383  # lw x7, 936(x2)
    .word 0x00783333  # sltu x6, x16, x7
    .word 0x006686b3  # add x13, x13, x6
    .word 0x39c12303  # lw x6, 924(x2)
    .word 0x00680833  # add x16, x16, x6
    .word 0x39c12383  # lw x7, 924(x2)
    .word 0x00783333  # sltu x6, x16, x7
    .word 0x006686b3  # add x13, x13, x6
    .word 0x41200733  # sub x14, x0, x18
    .word 0x00e80833  # add x16, x16, x14
    .word 0x00e83333  # sltu x6, x16, x14
    .word 0x006686b3  # add x13, x13, x6
    .word 0x01103333  # sltu x6, x0, x17
    .word 0x40688733  # sub x14, x17, x6
    .word 0x00e80833  # add x16, x16, x14
    .word 0x00e83333  # sltu x6, x16, x14
    .word 0x006686b3  # add x13, x13, x6
    .word 0x00080893  # addi x17, x16, 0
    .word 0x00da0833  # add x16, x20, x13
    .word 0x00d836b3  # sltu x13, x16, x13
    .word 0x3ac12303  # lw x6, 940(x2)
    .word 0x00680833  # add x16, x16, x6
    .word 0x3ac12383  # lw x7, 940(x2)
    .word 0x00783333  # sltu x6, x16, x7
    .word 0x006686b3  # add x13, x13, x6
    .word 0x3a012303  # lw x6, 928(x2)
    .word 0x00680833  # add x16, x16, x6
    .word 0x3a012383  # lw x7, 928(x2)
    .word 0x00783333  # sltu x6, x16, x7
    .word 0x006686b3  # add x13, x13, x6
    .word 0x39c12283  # lw x5, 924(x2)
    .word 0x40500733  # sub x14, x0, x5
    .word 0x00e80833  # add x16, x16, x14
    .word 0x00e83333  # sltu x6, x16, x14
    .word 0x006686b3  # add x13, x13, x6
    .word 0x01203333  # sltu x6, x0, x18
    .word 0x40690733  # sub x14, x18, x6
    .word 0x00e80833  # add x16, x16, x14
    .word 0x00e83333  # sltu x6, x16, x14
    .word 0x006686b3  # add x13, x13, x6
    .word 0x00080913  # addi x18, x16, 0
    .word 0x00da8833  # add x16, x21, x13
    .word 0x00d836b3  # sltu x13, x16, x13
    .word 0x3b012303  # lw x6, 944(x2)
    .word 0x00680833  # add x16, x16, x6
    .word 0x3b012383  # lw x7, 944(x2)
    .word 0x00783333  # sltu x6, x16, x7
    .word 0x006686b3  # add x13, x13, x6
    .word 0x3a412303  # lw x6, 932(x2)
    .word 0x00680833  # add x16, x16, x6
    .word 0x3a412383  # lw x7, 932(x2)
    .word 0x00783333  # sltu x6, x16, x7
    .word 0x006686b3  # add x13, x13, x6
    .word 0x3a012283  # lw x5, 928(x2)
    .word 0x40500733  # sub x14, x0, x5
    .word 0x00e80833  # add x16, x16, x14
    .word 0x00e83333  # sltu x6, x16, x14
    .word 0x006686b3  # add x13, x13, x6
    .word 0x39c12283  # lw x5, 924(x2)
    .word 0x39c12303  # lw x6, 924(x2)
    .word 0x00603333  # sltu x6, x0, x6
    .word 0x40628733  # sub x14, x5, x6
    .word 0x00e80833  # add x16, x16, x14
    .word 0x00e83333  # sltu x6, x16, x14
    .word 0x006686b3  # add x13, x13, x6
    .word 0x00080993  # addi x19, x16, 0
    .word 0x00db0833  # add x16, x22, x13
    .word 0x00d836b3  # sltu x13, x16, x13
    .word 0x3a812303  # lw x6, 936(x2)
    .word 0x00680833  # add x16, x16, x6
    .word 0x3a812383  # lw x7, 936(x2)
    .word 0x00783333  # sltu x6, x16, x7
    .word 0x006686b3  # add x13, x13, x6
    .word 0x3a412283  # lw x5, 932(x2)
    .word 0x40500733  # sub x14, x0, x5
    .word 0x00e80833  # add x16, x16, x14
    .word 0x00e83333  # sltu x6, x16, x14
    .word 0x006686b3  # add x13, x13, x6
    .word 0x3a012283  # lw x5, 928(x2)
    .word 0x3a012303  # lw x6, 928(x2)
    .word 0x00603333  # sltu x6, x0, x6
    .word 0x40628733  # sub x14, x5, x6
    .word 0x00e80833  # add x16, x16, x14
    .word 0x00e83333  # sltu x6, x16, x14
    .word 0x006686b3  # add x13, x13, x6
    .word 0x00080a13  # addi x20, x16, 0
    .word 0x00db8833  # add x16, x23, x13
    .word 0x00d836b3  # sltu x13, x16, x13
    .word 0x3ac12303  # lw x6, 940(x2)
    .word 0x00680833  # add x16, x16, x6
    .word 0x3ac12383  # lw x7, 940(x2)
    .word 0x00783333  # sltu x6, x16, x7
    .word 0x006686b3  # add x13, x13, x6
    .word 0x3a812283  # lw x5, 936(x2)
    .word 0x40500733  # sub x14, x0, x5
    .word 0x00e80833  # add x16, x16, x14
    .word 0x00e83333  # sltu x6, x16, x14
    .word 0x006686b3  # add x13, x13, x6
    .word 0x3a412283  # lw x5, 932(x2)
    .word 0x3a412303  # lw x6, 932(x2)
    .word 0x00603333  # sltu x6, x0, x6
    .word 0x40628733  # sub x14, x5, x6
    .word 0x00e80833  # add x16, x16, x14
    .word 0x00e83333  # sltu x6, x16, x14
    .word 0x006686b3  # add x13, x13, x6
    .word 0x00080a93  # addi x21, x16, 0
    .word 0x00dc0833  # add x16, x24, x13
    .word 0x00d836b3  # sltu x13, x16, x13
    .word 0x3b012303  # lw x6, 944(x2)
    .word 0x00680833  # add x16, x16, x6
    .word 0x3b012383  # lw x7, 944(x2)
    .word 0x00783333  # sltu x6, x16, x7
    .word 0x006686b3  # add x13, x13, x6
    .word 0x3ac12283  # lw x5, 940(x2)
    .word 0x40500733  # sub x14, x0, x5
    .word 0x00e80833  # add x16, x16, x14
    .word 0x00e83333  # sltu x6, x16, x14
    .word 0x006686b3  # add x13, x13, x6
    .word 0x3a812283  # lw x5, 936(x2)
    .word 0x3a812303  # lw x6, 936(x2)
    .word 0x00603333  # sltu x6, x0, x6
    .word 0x40628733  # sub x14, x5, x6
    .word 0x00e80833  # add x16, x16, x14
    .word 0x00e83333  # sltu x6, x16, x14
    .word 0x006686b3  # add x13, x13, x6
    .word 0x00080b13  # addi x22, x16, 0
    .word 0x00dc8833  # add x16, x25, x13
    .word 0x00d836b3  # sltu x13, x16, x13
    .word 0x3b012283  # lw x5, 944(x2)
    .word 0x40500733  # sub x14, x0, x5
    .word 0x00e80833  # add x16, x16, x14
    .word 0x00e83333  # sltu x6, x16, x14
    .word 0x006686b3  # add x13, x13, x6
    .word 0x3ac12283  # lw x5, 940(x2)
    .word 0x3ac12303  # lw x6, 940(x2)
    .word 0x00603333  # sltu x6, x0, x6
    .word 0x40628733  # sub x14, x5, x6
    .word 0x00e80833  # add x16, x16, x14
    .word 0x00e83333  # sltu x6, x16, x14
    .word 0x006686b3  # add x13, x13, x6
    .word 0x00080b93  # addi x23, x16, 0
    .word 0x00dd0833  # add x16, x26, x13
    .word 0x00d836b3  # sltu x13, x16, x13
    .word 0x3b012283  # lw x5, 944(x2)
    .word 0x3b012303  # lw x6, 944(x2)
    .word 0x00603333  # sltu x6, x0, x6
    .word 0x40628733  # sub x14, x5, x6
    .word 0x00e80833  # add x16, x16, x14
    .word 0x00e83333  # sltu x6, x16, x14
    .word 0x006686b3  # add x13, x13, x6
    .word 0x00188893  # addi x17, x17, 1
    .word 0x0018b713  # sltiu x14, x17, 1
    .word 0x00e90933  # add x18, x18, x14
    .word 0x00e93733  # sltu x14, x18, x14
    .word 0x00e989b3  # add x19, x19, x14
    .word 0x00e9b733  # sltu x14, x19, x14
    .word 0x00100293  # addi x5, x0, 1
    .word 0x40e28733  # sub x14, x5, x14
    .word 0x000a0c13  # addi x24, x20, 0
    .word 0x40ea0a33  # sub x20, x20, x14
    .word 0x00ec3733  # sltu x14, x24, x14
    .word 0x000a8c13  # addi x24, x21, 0
    .word 0x40ea8ab3  # sub x21, x21, x14
    .word 0x00ec3733  # sltu x14, x24, x14
    .word 0x000b0c13  # addi x24, x22, 0
    .word 0x40eb0b33  # sub x22, x22, x14
    .word 0x00ec3733  # sltu x14, x24, x14
    .word 0x00170713  # addi x14, x14, 1
    .word 0x000b8c13  # addi x24, x23, 0
    .word 0x40eb8bb3  # sub x23, x23, x14
    .word 0x00100293  # addi x5, x0, 1
    .word 0x00ec3333  # sltu x6, x24, x14
    .word 0x40628733  # sub x14, x5, x6
    .word 0x00e80c33  # add x24, x16, x14
    .word 0x00ec3733  # sltu x14, x24, x14
    .word 0x00100293  # addi x5, x0, 1
    .word 0x40d282b3  # sub x5, x5, x13
    .word 0x40e286b3  # sub x13, x5, x14
    .word 0x00088713  # addi x14, x17, 0
    .word 0x40d888b3  # sub x17, x17, x13
    .word 0x00d73833  # sltu x16, x14, x13
    .word 0x00090713  # addi x14, x18, 0
    .word 0x41090933  # sub x18, x18, x16
    .word 0x01073833  # sltu x16, x14, x16
    .word 0x00098713  # addi x14, x19, 0
    .word 0x410989b3  # sub x19, x19, x16
    .word 0x01073833  # sltu x16, x14, x16
    .word 0x41068833  # sub x16, x13, x16
    .word 0x010a0a33  # add x20, x20, x16
    .word 0x010a3833  # sltu x16, x20, x16
    .word 0x010a8ab3  # add x21, x21, x16
    .word 0x010ab833  # sltu x16, x21, x16
    .word 0x010b0b33  # add x22, x22, x16
    .word 0x010b3833  # sltu x16, x22, x16
    .word 0x00d80833  # add x16, x16, x13
    .word 0x010b8bb3  # add x23, x23, x16
    .word 0x010bb833  # sltu x16, x23, x16
    .word 0x010c02b3  # add x5, x24, x16
    .word 0x40d28c33  # sub x24, x5, x13
    .word 0x1314a023  # sw x17, 288(x9)
    .word 0x1324a223  # sw x18, 292(x9)
    .word 0x1334a423  # sw x19, 296(x9)
    .word 0x1344a623  # sw x20, 300(x9)
    .word 0x1354a823  # sw x21, 304(x9)
    .word 0x1364aa23  # sw x22, 308(x9)
    .word 0x1374ac23  # sw x23, 312(x9)
    .word 0x1384ae23  # sw x24, 316(x9)
    .word 0x3180006f  # jal x0, 792
    .word 0x00100313  # addi x6, x0, 1
    .word 0x1c661263  # bne x12, x6, 452
    .word 0x120da683  # lw x13, 288(x27)
    .word 0x12042303  # lw x6, 288(x8)
    .word 0x00668733  # add x14, x13, x6
    .word 0x00070b93  # addi x23, x14, 0
    .word 0x00d73833  # sltu x16, x14, x13
    .word 0x124da683  # lw x13, 292(x27)
    .word 0x12442303  # lw x6, 292(x8)
    .word 0x00668733  # add x14, x13, x6
    .word 0x010708b3  # add x17, x14, x16
    .word 0x00d732b3  # sltu x5, x14, x13
    .word 0x0108b333  # sltu x6, x17, x16
    .word 0x00628833  # add x16, x5, x6
    .word 0x128da683  # lw x13, 296(x27)
    .word 0x12842303  # lw x6, 296(x8)
    .word 0x00668733  # add x14, x13, x6
    .word 0x01070933  # add x18, x14, x16
    .word 0x00d732b3  # sltu x5, x14, x13
    .word 0x01093333  # sltu x6, x18, x16
    .word 0x00628833  # add x16, x5, x6
    .word 0x12cda683  # lw x13, 300(x27)
    .word 0x12c42303  # lw x6, 300(x8)
    .word 0x00668733  # add x14, x13, x6
    .word 0x010709b3  # add x19, x14, x16
    .word 0x00d732b3  # sltu x5, x14, x13
    .word 0x0109b333  # sltu x6, x19, x16
    .word 0x00628833  # add x16, x5, x6
    .word 0x130da683  # lw x13, 304(x27)
    .word 0x13042303  # lw x6, 304(x8)
    .word 0x00668733  # add x14, x13, x6
    .word 0x01070a33  # add x20, x14, x16
    .word 0x00d732b3  # sltu x5, x14, x13
    .word 0x010a3333  # sltu x6, x20, x16
    .word 0x00628833  # add x16, x5, x6
    .word 0x134da683  # lw x13, 308(x27)
    .word 0x13442303  # lw x6, 308(x8)
    .word 0x00668733  # add x14, x13, x6
    .word 0x01070ab3  # add x21, x14, x16
    .word 0x00d732b3  # sltu x5, x14, x13
    .word 0x010ab333  # sltu x6, x21, x16
    .word 0x00628833  # add x16, x5, x6
    .word 0x138da683  # lw x13, 312(x27)
    .word 0x13842303  # lw x6, 312(x8)
    .word 0x00668733  # add x14, x13, x6
    .word 0x01070b33  # add x22, x14, x16
    .word 0x00d732b3  # sltu x5, x14, x13
    .word 0x010b3333  # sltu x6, x22, x16
    .word 0x00628833  # add x16, x5, x6
    .word 0x13cda683  # lw x13, 316(x27)
    .word 0x13c42303  # lw x6, 316(x8)
    .word 0x00668733  # add x14, x13, x6
    .word 0x01070c33  # add x24, x14, x16
    .word 0x00d732b3  # sltu x5, x14, x13
    .word 0x010c3333  # sltu x6, x24, x16
    .word 0x00628833  # add x16, x5, x6
    .word 0x001b8b93  # addi x23, x23, 1
    .word 0x001bb693  # sltiu x13, x23, 1
    .word 0x00d888b3  # add x17, x17, x13
    .word 0x00d8b6b3  # sltu x13, x17, x13
    .word 0x00d90933  # add x18, x18, x13
    .word 0x00d936b3  # sltu x13, x18, x13
    .word 0x00100293  # addi x5, x0, 1
    .word 0x40d286b3  # sub x13, x5, x13
    .word 0x00098713  # addi x14, x19, 0
    .word 0x40d989b3  # sub x19, x19, x13
    .word 0x00d736b3  # sltu x13, x14, x13
    .word 0x000a0713  # addi x14, x20, 0
    .word 0x40da0a33  # sub x20, x20, x13
    .word 0x00d736b3  # sltu x13, x14, x13
    .word 0x000a8713  # addi x14, x21, 0
    .word 0x40da8ab3  # sub x21, x21, x13
    .word 0x00d736b3  # sltu x13, x14, x13
    .word 0x00168693  # addi x13, x13, 1
    .word 0x000b0713  # addi x14, x22, 0
    .word 0x40db0b33  # sub x22, x22, x13
    .word 0x00100293  # addi x5, x0, 1
    .word 0x00d73333  # sltu x6, x14, x13
    .word 0x406286b3  # sub x13, x5, x6
    .word 0x00dc0c33  # add x24, x24, x13
    .word 0x00dc36b3  # sltu x13, x24, x13
    .word 0x00100293  # addi x5, x0, 1
    .word 0x410282b3  # sub x5, x5, x16
    .word 0x40d286b3  # sub x13, x5, x13
    .word 0x000b8713  # addi x14, x23, 0
    .word 0x40db8bb3  # sub x23, x23, x13
    .word 0x00d73833  # sltu x16, x14, x13
    .word 0x00088713  # addi x14, x17, 0
    .word 0x410888b3  # sub x17, x17, x16
    .word 0x01073833  # sltu x16, x14, x16
    .word 0x00090713  # addi x14, x18, 0
    .word 0x41090933  # sub x18, x18, x16
    .word 0x01073833  # sltu x16, x14, x16
    .word 0x41068833  # sub x16, x13, x16
    .word 0x010989b3  # add x19, x19, x16
    .word 0x0109b833  # sltu x16, x19, x16
    .word 0x010a0a33  # add x20, x20, x16
    .word 0x010a3833  # sltu x16, x20, x16
    .word 0x010a8ab3  # add x21, x21, x16
    .word 0x010ab833  # sltu x16, x21, x16
    .word 0x00d80833  # add x16, x16, x13
    .word 0x010b0b33  # add x22, x22, x16
    .word 0x010b3833  # sltu x16, x22, x16
    .word 0x010c02b3  # add x5, x24, x16
    .word 0x40d28c33  # sub x24, x5, x13
    .word 0x1374a023  # sw x23, 288(x9)
    .word 0x1314a223  # sw x17, 292(x9)
    .word 0x1324a423  # sw x18, 296(x9)
    .word 0x1334a623  # sw x19, 300(x9)
    .word 0x1344a823  # sw x20, 304(x9)
    .word 0x1354aa23  # sw x21, 308(x9)
    .word 0x1364ac23  # sw x22, 312(x9)
    .word 0x1384ae23  # sw x24, 316(x9)
    .word 0x1500006f  # jal x0, 336
    .word 0x120da683  # lw x13, 288(x27)
    .word 0x12042703  # lw x14, 288(x8)
    .word 0x40e688b3  # sub x17, x13, x14
    .word 0x00088913  # addi x18, x17, 0
    .word 0x00e6b833  # sltu x16, x13, x14
    .word 0x124da683  # lw x13, 292(x27)
    .word 0x12442703  # lw x14, 292(x8)
    .word 0x40e688b3  # sub x17, x13, x14
    .word 0x410889b3  # sub x19, x17, x16
    .word 0x00e6b2b3  # sltu x5, x13, x14
    .word 0x0108b333  # sltu x6, x17, x16
    .word 0x00628833  # add x16, x5, x6
    .word 0x128da683  # lw x13, 296(x27)
    .word 0x12842703  # lw x14, 296(x8)
    .word 0x40e688b3  # sub x17, x13, x14
    .word 0x41088a33  # sub x20, x17, x16
    .word 0x00e6b2b3  # sltu x5, x13, x14
    .word 0x0108b333  # sltu x6, x17, x16
    .word 0x00628833  # add x16, x5, x6
    .word 0x12cda683  # lw x13, 300(x27)
    .word 0x12c42703  # lw x14, 300(x8)
    .word 0x40e688b3  # sub x17, x13, x14
    .word 0x41088ab3  # sub x21, x17, x16
    .word 0x00e6b2b3  # sltu x5, x13, x14
    .word 0x0108b333  # sltu x6, x17, x16
    .word 0x00628833  # add x16, x5, x6
    .word 0x130da683  # lw x13, 304(x27)
    .word 0x13042703  # lw x14, 304(x8)
    .word 0x40e688b3  # sub x17, x13, x14
    .word 0x41088b33  # sub x22, x17, x16
    .word 0x00e6b2b3  # sltu x5, x13, x14
    .word 0x0108b333  # sltu x6, x17, x16
    .word 0x00628833  # add x16, x5, x6
    .word 0x134da683  # lw x13, 308(x27)
    .word 0x13442703  # lw x14, 308(x8)
    .word 0x40e688b3  # sub x17, x13, x14
    .word 0x41088bb3  # sub x23, x17, x16
    .word 0x00e6b2b3  # sltu x5, x13, x14
    .word 0x0108b333  # sltu x6, x17, x16
    .word 0x00628833  # add x16, x5, x6
    .word 0x138da683  # lw x13, 312(x27)
    .word 0x13842703  # lw x14, 312(x8)
    .word 0x40e688b3  # sub x17, x13, x14
    .word 0x41088c33  # sub x24, x17, x16
    .word 0x00e6b2b3  # sltu x5, x13, x14
    .word 0x0108b333  # sltu x6, x17, x16
    .word 0x00628833  # add x16, x5, x6
    .word 0x13cda683  # lw x13, 316(x27)
    .word 0x13c42703  # lw x14, 316(x8)
    .word 0x40e688b3  # sub x17, x13, x14
    .word 0x41088cb3  # sub x25, x17, x16
    .word 0x00e6b2b3  # sltu x5, x13, x14
    .word 0x0108b333  # sltu x6, x17, x16
    .word 0x00628833  # add x16, x5, x6
    .word 0x00090713  # addi x14, x18, 0
    .word 0x41090933  # sub x18, x18, x16
    .word 0x010736b3  # sltu x13, x14, x16
    .word 0x00098713  # addi x14, x19, 0
    .word 0x40d989b3  # sub x19, x19, x13
    .word 0x00d736b3  # sltu x13, x14, x13
    .word 0x000a0713  # addi x14, x20, 0
    .word 0x40da0a33  # sub x20, x20, x13
    .word 0x00d736b3  # sltu x13, x14, x13
    .word 0x40d806b3  # sub x13, x16, x13
    .word 0x00da8ab3  # add x21, x21, x13
    .word 0x00dab6b3  # sltu x13, x21, x13
    .word 0x00db0b33  # add x22, x22, x13
    .word 0x00db36b3  # sltu x13, x22, x13
    .word 0x00db8bb3  # add x23, x23, x13
    .word 0x00dbb6b3  # sltu x13, x23, x13
    .word 0x010686b3  # add x13, x13, x16
    .word 0x00dc0c33  # add x24, x24, x13
    .word 0x00dc36b3  # sltu x13, x24, x13
    .word 0x00dc82b3  # add x5, x25, x13
    .word 0x41028cb3  # sub x25, x5, x16
    .word 0x1324a023  # sw x18, 288(x9)
    .word 0x1334a223  # sw x19, 292(x9)
    .word 0x1344a423  # sw x20, 296(x9)
    .word 0x1354a623  # sw x21, 300(x9)
    .word 0x1364a823  # sw x22, 304(x9)
    .word 0x1374aa23  # sw x23, 308(x9)
    .word 0x1384ac23  # sw x24, 312(x9)
    .word 0x1394ae23  # sw x25, 316(x9)
    .word 0xeb4ff06f  # jal x0, -2380
    .word 0x2a012283  # lw x5, 672(x2)
    .word 0x0c512023  # sw x5, 192(x2)
    .word 0x2a412283  # lw x5, 676(x2)
    .word 0x0c512223  # sw x5, 196(x2)
    .word 0x2a812283  # lw x5, 680(x2)
    .word 0x0c512423  # sw x5, 200(x2)
    .word 0x2ac12283  # lw x5, 684(x2)
    .word 0x0c512623  # sw x5, 204(x2)
    .word 0x2b012283  # lw x5, 688(x2)
    .word 0x0c512823  # sw x5, 208(x2)
    .word 0x2b412283  # lw x5, 692(x2)
    .word 0x0c512a23  # sw x5, 212(x2)
    .word 0x2b812283  # lw x5, 696(x2)
    .word 0x0c512c23  # sw x5, 216(x2)
    .word 0x2bc12283  # lw x5, 700(x2)
    .word 0x0c512e23  # sw x5, 220(x2)
    .word 0x2c012283  # lw x5, 704(x2)
    .word 0x0e512023  # sw x5, 224(x2)
    .word 0x2c412283  # lw x5, 708(x2)
    .word 0x0e512223  # sw x5, 228(x2)
    .word 0x2c812283  # lw x5, 712(x2)
    .word 0x0e512423  # sw x5, 232(x2)
    .word 0x2cc12283  # lw x5, 716(x2)
    .word 0x0e512623  # sw x5, 236(x2)
    .word 0x2d012283  # lw x5, 720(x2)
    .word 0x0e512823  # sw x5, 240(x2)
    .word 0x2d412283  # lw x5, 724(x2)
    .word 0x0e512a23  # sw x5, 244(x2)
    .word 0x2d812283  # lw x5, 728(x2)
    .word 0x0e512c23  # sw x5, 248(x2)
    .word 0x2dc12283  # lw x5, 732(x2)
    .word 0x0e512e23  # sw x5, 252(x2)
    .word 0x2e012283  # lw x5, 736(x2)
    .word 0x10512023  # sw x5, 256(x2)
    .word 0x2e412283  # lw x5, 740(x2)
    .word 0x10512223  # sw x5, 260(x2)
    .word 0x2e812283  # lw x5, 744(x2)
    .word 0x10512423  # sw x5, 264(x2)
    .word 0x2ec12283  # lw x5, 748(x2)
    .word 0x10512623  # sw x5, 268(x2)
    .word 0x2f012283  # lw x5, 752(x2)
    .word 0x10512823  # sw x5, 272(x2)
    .word 0x2f412283  # lw x5, 756(x2)
    .word 0x10512a23  # sw x5, 276(x2)
    .word 0x2f812283  # lw x5, 760(x2)
    .word 0x10512c23  # sw x5, 280(x2)
    .word 0x2fc12283  # lw x5, 764(x2)
    .word 0x10512e23  # sw x5, 284(x2)
    # the result
    .word 0x00000513  # addi x10, x0, 0
    # parameter 2: the array, back
    .word 0x0c010293  # addi x5, x2, 192
    .word 0x40c12303  # lw x6, 1036(x2)
    .word 0x06028393  # addi x7, x5, 96
    .word 0x09000f6f  # jal x30, 144
    # above the frame
    .word 0x3d010293  # addi x5, x2, 976
    # the caller's registers
    .word 0x0002a403  # lw x8, 0(x5)
    .cfi_restore 8
    .word 0x0042a483  # lw x9, 4(x5)
    .cfi_restore 9
    .word 0x0082a903  # lw x18, 8(x5)
    .cfi_restore 18
    .word 0x00c2a983  # lw x19, 12(x5)
    .cfi_restore 19
    .word 0x0102aa03  # lw x20, 16(x5)
    .cfi_restore 20
    .word 0x0142aa83  # lw x21, 20(x5)
    .cfi_restore 21
    .word 0x0182ab03  # lw x22, 24(x5)
    .cfi_restore 22
    .word 0x01c2ab83  # lw x23, 28(x5)
    .cfi_restore 23
    .word 0x0202ac03  # lw x24, 32(x5)
    .cfi_restore 24
    .word 0x0242ac83  # lw x25, 36(x5)
    .cfi_restore 25
    .word 0x0282ad03  # lw x26, 40(x5)
    .cfi_restore 26
    .word 0x02c2ad83  # lw x27, 44(x5)
    .cfi_restore 27
    # the caller's x2
    .word 0x04028293  # addi x5, x5, 64
    .cfi_def_cfa 5, 0
    # all the room, wiped upward
    .word 0x00012023  # sw x0, 0(x2)
    .word 0x00012223  # sw x0, 4(x2)
    .word 0x00012423  # sw x0, 8(x2)
    .word 0x00012623  # sw x0, 12(x2)
    .word 0x01010113  # addi x2, x2, 16
    .word 0xfe5116e3  # bne x2, x5, -20
    .cfi_def_cfa 2, 0
    # temporaries, wiped
    .word 0x00000293  # addi x5, x0, 0
    .word 0x00000313  # addi x6, x0, 0
    .word 0x00000393  # addi x7, x0, 0
    .word 0x00000593  # addi x11, x0, 0
    .word 0x00000613  # addi x12, x0, 0
    .word 0x00000693  # addi x13, x0, 0
    .word 0x00000713  # addi x14, x0, 0
    .word 0x00000793  # addi x15, x0, 0
    .word 0x00000813  # addi x16, x0, 0
    .word 0x00000893  # addi x17, x0, 0
    .word 0x00000e13  # addi x28, x0, 0
    .word 0x00000e93  # addi x29, x0, 0
    .word 0x00000f13  # addi x30, x0, 0
    .word 0x00000f93  # addi x31, x0, 0
    # back
    .word 0x00008067  # jalr x0, 0(x1)
    # from x5 to x6 up to x7, and back
    .cfi_def_cfa 2, 1040
    .cfi_offset 8, -64
    .cfi_offset 9, -60
    .cfi_offset 18, -56
    .cfi_offset 19, -52
    .cfi_offset 20, -48
    .cfi_offset 21, -44
    .cfi_offset 22, -40
    .cfi_offset 23, -36
    .cfi_offset 24, -32
    .cfi_offset 25, -28
    .cfi_offset 26, -24
    .cfi_offset 27, -20
    .word 0x0062ee33  # or x28, x5, x6
    .word 0x003e7e13  # andi x28, x28, 3
    .word 0x000e0e63  # beq x28, x0, 28
    .word 0x0002ce03  # lbu x28, 0(x5)
    .word 0x01c30023  # sb x28, 0(x6)
    .word 0x00128293  # addi x5, x5, 1
    .word 0x00130313  # addi x6, x6, 1
    .word 0xfe7298e3  # bne x5, x7, -16
    .word 0x0300006f  # jal x0, 48
    .word 0x0002ae03  # lw x28, 0(x5)
    .word 0x01c32023  # sw x28, 0(x6)
    .word 0x0042ae03  # lw x28, 4(x5)
    .word 0x01c32223  # sw x28, 4(x6)
    .word 0x0082ae03  # lw x28, 8(x5)
    .word 0x01c32423  # sw x28, 8(x6)
    .word 0x00c2ae03  # lw x28, 12(x5)
    .word 0x01c32623  # sw x28, 12(x6)
    .word 0x01028293  # addi x5, x5, 16
    .word 0x01030313  # addi x6, x6, 16
    .word 0xfc729ce3  # bne x5, x7, -40
    .word 0x000f0067  # jalr x0, 0(x30)
    .cfi_endproc
    .size p256_point_add, . - p256_point_add
    .option pop
