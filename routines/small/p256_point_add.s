# p256_point_add: made by factc 1.0.0 function; 707 words and 21 shared, 1200 bytes of stack, profile 1
    .option push
    .option norvc
    .option norelax
    .cfi_sections .debug_frame
    .section .text.p256_point_add, "ax", @progbits
    .p2align 2
    .globl p256_point_add
    .type p256_point_add, @function
p256_point_add:
    .cfi_startproc
    # room above the frame
    .word 0xfd010113  # addi x2, x2, -48
    .cfi_def_cfa_offset 48
    # the caller's registers
    .word 0x01212023  # sw x18, 0(x2)
    .cfi_offset 18, -48
    .word 0x01312223  # sw x19, 4(x2)
    .cfi_offset 19, -44
    .word 0x01412423  # sw x20, 8(x2)
    .cfi_offset 20, -40
    .word 0x01512623  # sw x21, 12(x2)
    .cfi_offset 21, -36
    .word 0x01612823  # sw x22, 16(x2)
    .cfi_offset 22, -32
    .word 0x01712a23  # sw x23, 20(x2)
    .cfi_offset 23, -28
    .word 0x01812c23  # sw x24, 24(x2)
    .cfi_offset 24, -24
    # arguments that are needed behind the body
    .word 0x02a12223  # sw x10, 36(x2)
    .word 0x02b12423  # sw x11, 40(x2)
    .word 0x02c12623  # sw x12, 44(x2)
    # the frame's base
    .word 0xb8010113  # addi x2, x2, -1152
    .cfi_def_cfa 2, 1200
    # parameter 0: an array
    .word 0x00050293  # addi x5, x10, 0
    .word 0x00010313  # addi x6, x2, 0
    .word 0x06028393  # addi x7, x5, 96
    .word 0x0002ae03  # lw x28, 0(x5)
    .word 0x01c32023  # sw x28, 0(x6)
    .word 0x00428293  # addi x5, x5, 4
    .word 0x00430313  # addi x6, x6, 4
    .word 0xfe7298e3  # bne x5, x7, -16
    # parameter 1: an array
    .word 0x00058293  # addi x5, x11, 0
    .word 0x06010313  # addi x6, x2, 96
    .word 0x06028393  # addi x7, x5, 96
    .word 0x0002ae03  # lw x28, 0(x5)
    .word 0x01c32023  # sw x28, 0(x6)
    .word 0x00428293  # addi x5, x5, 4
    .word 0x00430313  # addi x6, x6, 4
    .word 0xfe7298e3  # bne x5, x7, -16
    # the body
    .word 0x12000313  # addi x6, x0, 288
    .word 0x00230333  # add x6, x6, x2
    .word 0x20000393  # addi x7, x0, 512
    .word 0x006383b3  # add x7, x7, x6
    .word 0x406382b3  # sub x5, x7, x6
    .word 0x00029463  # bne x5, x0, 8
    .word 0x0100006f  # jal x0, 16
    .word 0x00032023  # sw x0, 0(x6)
    .word 0x00430313  # addi x6, x6, 4
    .word 0xfedff06f  # jal x0, -20
    .word 0x32000313  # addi x6, x0, 800
    .word 0x00230333  # add x6, x6, x2
    .word 0x02000393  # addi x7, x0, 32
    .word 0x006383b3  # add x7, x7, x6
    .word 0x406382b3  # sub x5, x7, x6
    .word 0x00029463  # bne x5, x0, 8
    .word 0x0100006f  # jal x0, 16
    .word 0x00032023  # sw x0, 0(x6)
    .word 0x00430313  # addi x6, x6, 4
    .word 0xfedff06f  # jal x0, -20
    .word 0x70300293  # addi x5, x0, 1795
    .word 0x34511023  # sh x5, 832(x2)
    .word 0x000012b7  # lui x5, 0x00001
    .word 0x81428293  # addi x5, x5, -2028
    .word 0x34511123  # sh x5, 834(x2)
    .word 0x000012b7  # lui x5, 0x00001
    .word 0x92528293  # addi x5, x5, -1755
    .word 0x34511223  # sh x5, 836(x2)
    .word 0x000022b7  # lui x5, 0x00002
    .word 0xa0128293  # addi x5, x5, -1535
    .word 0x34511323  # sh x5, 838(x2)
    .word 0x000022b7  # lui x5, 0x00002
    .word 0xb3428293  # addi x5, x5, -1228
    .word 0x34511423  # sh x5, 840(x2)
    .word 0x000012b7  # lui x5, 0x00001
    .word 0xaab28293  # addi x5, x5, -1365
    .word 0x34511523  # sh x5, 842(x2)
    .word 0x000022b7  # lui x5, 0x00002
    .word 0xb7828293  # addi x5, x5, -1160
    .word 0x34511623  # sh x5, 844(x2)
    .word 0x000032b7  # lui x5, 0x00003
    .word 0xaab28293  # addi x5, x5, -1365
    .word 0x34511723  # sh x5, 846(x2)
    .word 0x000022b7  # lui x5, 0x00002
    .word 0xb1228293  # addi x5, x5, -1262
    .word 0x34511823  # sh x5, 848(x2)
    .word 0x000022b7  # lui x5, 0x00002
    .word 0xc4528293  # addi x5, x5, -955
    .word 0x34511923  # sh x5, 850(x2)
    .word 0x000012b7  # lui x5, 0x00001
    .word 0xbbc28293  # addi x5, x5, -1092
    .word 0x34511a23  # sh x5, 852(x2)
    .word 0x000022b7  # lui x5, 0x00002
    .word 0xc8928293  # addi x5, x5, -887
    .word 0x34511b23  # sh x5, 854(x2)
    .word 0x000032b7  # lui x5, 0x00003
    .word 0xbbc28293  # addi x5, x5, -1092
    .word 0x34511c23  # sh x5, 856(x2)
    .word 0x000022b7  # lui x5, 0x00002
    .word 0xc0228293  # addi x5, x5, -1022
    .word 0x34511d23  # sh x5, 858(x2)
    .word 0x000022b7  # lui x5, 0x00002
    .word 0xd3528293  # addi x5, x5, -715
    .word 0x34511e23  # sh x5, 860(x2)
    .word 0x000012b7  # lui x5, 0x00001
    .word 0xccd28293  # addi x5, x5, -819
    .word 0x34511f23  # sh x5, 862(x2)
    .word 0x000022b7  # lui x5, 0x00002
    .word 0xd7928293  # addi x5, x5, -647
    .word 0x36511023  # sh x5, 864(x2)
    .word 0x000032b7  # lui x5, 0x00003
    .word 0xdcd28293  # addi x5, x5, -563
    .word 0x36511123  # sh x5, 866(x2)
    .word 0x000012b7  # lui x5, 0x00001
    .word 0xe6928293  # addi x5, x5, -407
    .word 0x36511223  # sh x5, 868(x2)
    .word 0x000032b7  # lui x5, 0x00003
    .word 0xcde28293  # addi x5, x5, -802
    .word 0x36511323  # sh x5, 870(x2)
    .word 0x000022b7  # lui x5, 0x00002
    .word 0xecc28293  # addi x5, x5, -308
    .word 0x36511423  # sh x5, 872(x2)
    .word 0x000022b7  # lui x5, 0x00002
    .word 0xcce28293  # addi x5, x5, -818
    .word 0x36511523  # sh x5, 874(x2)
    .word 0x000032b7  # lui x5, 0x00003
    .word 0xe8c28293  # addi x5, x5, -372
    .word 0x36511623  # sh x5, 876(x2)
    .word 0x000022b7  # lui x5, 0x00002
    .word 0xc8c28293  # addi x5, x5, -884
    .word 0x36511723  # sh x5, 878(x2)
    .word 0x000012b7  # lui x5, 0x00001
    .word 0xd6d28293  # addi x5, x5, -659
    .word 0x36511823  # sh x5, 880(x2)
    .word 0x000022b7  # lui x5, 0x00002
    .word 0x89928293  # addi x5, x5, -1895
    .word 0x36511923  # sh x5, 882(x2)
    .word 0x000022b7  # lui x5, 0x00002
    .word 0x98928293  # addi x5, x5, -1655
    .word 0x36511a23  # sh x5, 884(x2)
    .word 0x000032b7  # lui x5, 0x00003
    .word 0xdd928293  # addi x5, x5, -551
    .word 0x36511b23  # sh x5, 886(x2)
    .word 0x000032b7  # lui x5, 0x00003
    .word 0xdd728293  # addi x5, x5, -553
    .word 0x36511c23  # sh x5, 888(x2)
    .word 0x000022b7  # lui x5, 0x00002
    .word 0x8dd28293  # addi x5, x5, -1827
    .word 0x36511d23  # sh x5, 890(x2)
    .word 0x000022b7  # lui x5, 0x00002
    .word 0xd8d28293  # addi x5, x5, -627
    .word 0x36511e23  # sh x5, 892(x2)
    .word 0x000022b7  # lui x5, 0x00002
    .word 0x87728293  # addi x5, x5, -1929
    .word 0x36511f23  # sh x5, 894(x2)
    .word 0x000012b7  # lui x5, 0x00001
    .word 0x78728293  # addi x5, x5, 1927
    .word 0x38511023  # sh x5, 896(x2)
    .word 0x000022b7  # lui x5, 0x00002
    .word 0x77928293  # addi x5, x5, 1913
    .word 0x38511123  # sh x5, 898(x2)
    .word 0x000012b7  # lui x5, 0x00001
    .word 0x8bd28293  # addi x5, x5, -1859
    .word 0x38511223  # sh x5, 900(x2)
    .word 0x000012b7  # lui x5, 0x00001
    .word 0x97d28293  # addi x5, x5, -1667
    .word 0x38511323  # sh x5, 902(x2)
    .word 0x000012b7  # lui x5, 0x00001
    .word 0xdce28293  # addi x5, x5, -562
    .word 0x38511423  # sh x5, 904(x2)
    .word 0x000022b7  # lui x5, 0x00002
    .word 0xdd928293  # addi x5, x5, -551
    .word 0x38511523  # sh x5, 906(x2)
    .word 0x000012b7  # lui x5, 0x00001
    .word 0xcac28293  # addi x5, x5, -852
    .word 0x38511623  # sh x5, 908(x2)
    .word 0x000032b7  # lui x5, 0x00003
    .word 0xcc828293  # addi x5, x5, -824
    .word 0x38511723  # sh x5, 910(x2)
    .word 0x000012b7  # lui x5, 0x00001
    .word 0xebe28293  # addi x5, x5, -322
    .word 0x38511823  # sh x5, 912(x2)
    .word 0x000012b7  # lui x5, 0x00001
    .word 0x8a728293  # addi x5, x5, -1881
    .word 0x38511923  # sh x5, 914(x2)
    .word 0x000022b7  # lui x5, 0x00002
    .word 0xee828293  # addi x5, x5, -280
    .word 0x38511a23  # sh x5, 916(x2)
    .word 0x29c4c2b7  # lui x5, 0x29c4c
    .word 0xddf28293  # addi x5, x5, -545
    .word 0x38512c23  # sw x5, 920(x2)
    .word 0xd89ce2b7  # lui x5, 0xd89ce
    .word 0xf6228293  # addi x5, x5, -158
    .word 0x38512e23  # sw x5, 924(x2)
    .word 0x788432b7  # lui x5, 0x78843
    .word 0x09028293  # addi x5, x5, 144
    .word 0x3a512023  # sw x5, 928(x2)
    .word 0xacf002b7  # lui x5, 0xacf00
    .word 0x5cd28293  # addi x5, x5, 1485
    .word 0x3a512223  # sw x5, 932(x2)
    .word 0xf72132b7  # lui x5, 0xf7213
    .word 0xed628293  # addi x5, x5, -298
    .word 0x3a512423  # sw x5, 936(x2)
    .word 0xe5a222b7  # lui x5, 0xe5a22
    .word 0x0ab28293  # addi x5, x5, 171
    .word 0x3a512623  # sw x5, 940(x2)
    .word 0x048752b7  # lui x5, 0x04875
    .word 0x83428293  # addi x5, x5, -1996
    .word 0x3a512823  # sw x5, 944(x2)
    .word 0xdc3002b7  # lui x5, 0xdc300
    .word 0x61d28293  # addi x5, x5, 1565
    .word 0x3a512a23  # sw x5, 948(x2)
    .word 0xfff00513  # addi x10, x0, -1
    .word 0x00150513  # addi x10, x10, 1
    .word 0x00251a93  # slli x21, x10, 2
    .word 0x002a8ab3  # add x21, x21, x2
    .word 0x000aa283  # lw x5, 0(x21)
    .word 0x125aa023  # sw x5, 288(x21)
    .word 0x060aa283  # lw x5, 96(x21)
    .word 0x185aa023  # sw x5, 384(x21)
    .word 0xfe950293  # addi x5, x10, -23
    .word 0xfe0290e3  # bne x5, x0, -32
    .word 0xfff00813  # addi x16, x0, -1
    .word 0x00180813  # addi x16, x16, 1
    .word 0x00281b93  # slli x23, x16, 2
    .word 0x002b8bb3  # add x23, x23, x2
    .word 0x03080293  # addi x5, x16, 48
    .word 0x398ba303  # lw x6, 920(x23)
    .word 0x00229293  # slli x5, x5, 2
    .word 0x002282b3  # add x5, x5, x2
    .word 0x1262a023  # sw x6, 288(x5)
    .word 0xff980293  # addi x5, x16, -7
    .word 0xfc029ee3  # bne x5, x0, -36
    .word 0xfff00593  # addi x11, x0, -1
    .word 0x00158593  # addi x11, x11, 1
    .word 0x00159813  # slli x16, x11, 1
    .word 0x00280833  # add x16, x16, x2
    .word 0x34085803  # lhu x16, 832(x16)
    .word 0x00281b93  # slli x23, x16, 2
    .word 0x002b8bb3  # add x23, x23, x2
    .word 0x00c85513  # srli x10, x16, 12
    .word 0x00251a93  # slli x21, x10, 2
    .word 0x002a8ab3  # add x21, x21, x2
    .word 0x00585293  # srli x5, x16, 5
    .word 0x0782f613  # andi x12, x5, 120
    .word 0x00185293  # srli x5, x16, 1
    .word 0x0782f693  # andi x13, x5, 120
    .word 0x00269b13  # slli x22, x13, 2
    .word 0x002b0b33  # add x22, x22, x2
    .word 0x00381293  # slli x5, x16, 3
    .word 0x0782fa13  # andi x20, x5, 120
    .word 0x002a1c13  # slli x24, x20, 2
    .word 0x002c0c33  # add x24, x24, x2
    .word 0x3c051263  # bne x10, x0, 964
    .word 0x3b800313  # addi x6, x0, 952
    .word 0x00230333  # add x6, x6, x2
    .word 0x02400393  # addi x7, x0, 36
    .word 0x006383b3  # add x7, x7, x6
    .word 0x406382b3  # sub x5, x7, x6
    .word 0x00029463  # bne x5, x0, 8
    .word 0x0100006f  # jal x0, 16
    .word 0x00032023  # sw x0, 0(x6)
    .word 0x00430313  # addi x6, x6, 4
    .word 0xfedff06f  # jal x0, -20
    .word 0x3dc00313  # addi x6, x0, 988
    .word 0x00230333  # add x6, x6, x2
    .word 0x02000393  # addi x7, x0, 32
    .word 0x006383b3  # add x7, x7, x6
    .word 0x406382b3  # sub x5, x7, x6
    .word 0x00029463  # bne x5, x0, 8
    .word 0x0100006f  # jal x0, 16
    .word 0x00032023  # sw x0, 0(x6)
    .word 0x00430313  # addi x6, x6, 4
    .word 0xfedff06f  # jal x0, -20
    .word 0xfff00813  # addi x16, x0, -1
    .word 0x00180813  # addi x16, x16, 1
    .word 0x00281b93  # slli x23, x16, 2
    .word 0x002b8bb3  # add x23, x23, x2
    .word 0x010682b3  # add x5, x13, x16
    .word 0x00229293  # slli x5, x5, 2
    .word 0x002282b3  # add x5, x5, x2
    .word 0x1202a283  # lw x5, 288(x5)
    .word 0x325ba023  # sw x5, 800(x23)
    .word 0xff980293  # addi x5, x16, -7
    .word 0xfc029ee3  # bne x5, x0, -36
    .word 0xfff00693  # addi x13, x0, -1
    .word 0x00168693  # addi x13, x13, 1
    .word 0x00269b13  # slli x22, x13, 2
    .word 0x002b0b33  # add x22, x22, x2
    .word 0x320b2703  # lw x14, 800(x22)
    .word 0x00000793  # addi x15, x0, 0
    .word 0xfff00813  # addi x16, x0, -1
    .word 0x00180813  # addi x16, x16, 1
    .word 0x00281b93  # slli x23, x16, 2
    .word 0x002b8bb3  # add x23, x23, x2
    .word 0x010a02b3  # add x5, x20, x16
    .word 0x00229993  # slli x19, x5, 2
    .word 0x002989b3  # add x19, x19, x2
    .word 0x1209a983  # lw x19, 288(x19)
    .word 0x033708b3  # mul x17, x14, x19
    .word 0x03373933  # mulhu x18, x14, x19
    .word 0x3bcba283  # lw x5, 956(x23)
    .word 0x011289b3  # add x19, x5, x17
    .word 0x00081a63  # bne x16, x0, 20
    .word 0x333b2023  # sw x19, 800(x22)
    .word 0x0119b333  # sltu x6, x19, x17
    .word 0x006907b3  # add x15, x18, x6
    .word 0x0200006f  # jal x0, 32
    .word 0x00f982b3  # add x5, x19, x15
    .word 0x3a5bac23  # sw x5, 952(x23)
    .word 0x0119b333  # sltu x6, x19, x17
    .word 0x006902b3  # add x5, x18, x6
    .word 0x3b8ba303  # lw x6, 952(x23)
    .word 0x00f33333  # sltu x6, x6, x15
    .word 0x006287b3  # add x15, x5, x6
    .word 0xff980293  # addi x5, x16, -7
    .word 0xfa0290e3  # bne x5, x0, -96
    .word 0x3cf12c23  # sw x15, 984(x2)
    .word 0xff968293  # addi x5, x13, -7
    .word 0xf6029ee3  # bne x5, x0, -132
    .word 0x3fc00313  # addi x6, x0, 1020
    .word 0x00230333  # add x6, x6, x2
    .word 0x02000393  # addi x7, x0, 32
    .word 0x006383b3  # add x7, x7, x6
    .word 0x406382b3  # sub x5, x7, x6
    .word 0x00029463  # bne x5, x0, 8
    .word 0x0100006f  # jal x0, 16
    .word 0x00032023  # sw x0, 0(x6)
    .word 0x00430313  # addi x6, x6, 4
    .word 0xfedff06f  # jal x0, -20
    .word 0x00000793  # addi x15, x0, 0
    .word 0xfff00a13  # addi x20, x0, -1
    .word 0x001a0a13  # addi x20, x20, 1
    .word 0x002a1c13  # slli x24, x20, 2
    .word 0x002c0c33  # add x24, x24, x2
    .word 0x008a3293  # sltiu x5, x20, 8
    .word 0x007a7313  # andi x6, x20, 7
    .word 0x00231313  # slli x6, x6, 2
    .word 0x00230333  # add x6, x6, x2
    .word 0x32032303  # lw x6, 800(x6)
    .word 0x007a7393  # andi x7, x20, 7
    .word 0x00239393  # slli x7, x7, 2
    .word 0x002383b3  # add x7, x7, x2
    .word 0x3bc3a383  # lw x7, 956(x7)
    .word 0x405002b3  # sub x5, x0, x5
    .word 0x00734333  # xor x6, x6, x7
    .word 0x00537333  # and x6, x6, x5
    .word 0x0063c2b3  # xor x5, x7, x6
    .word 0x00f289b3  # add x19, x5, x15
    .word 0x00f9b7b3  # sltu x15, x19, x15
    .word 0xffda0293  # addi x5, x20, -3
    .word 0x00800313  # addi x6, x0, 8
    .word 0x0262f263  # bgeu x5, x6, 36
    .word 0xffda0293  # addi x5, x20, -3
    .word 0x0072f293  # andi x5, x5, 7
    .word 0x00229893  # slli x17, x5, 2
    .word 0x002888b3  # add x17, x17, x2
    .word 0x3fc8a883  # lw x17, 1020(x17)
    .word 0x011989b3  # add x19, x19, x17
    .word 0x0119b333  # sltu x6, x19, x17
    .word 0x006787b3  # add x15, x15, x6
    .word 0xffaa0293  # addi x5, x20, -6
    .word 0x00800313  # addi x6, x0, 8
    .word 0x0262f263  # bgeu x5, x6, 36
    .word 0xffaa0293  # addi x5, x20, -6
    .word 0x0072f293  # andi x5, x5, 7
    .word 0x00229893  # slli x17, x5, 2
    .word 0x002888b3  # add x17, x17, x2
    .word 0x3fc8a883  # lw x17, 1020(x17)
    .word 0x011989b3  # add x19, x19, x17
    .word 0x0119b333  # sltu x6, x19, x17
    .word 0x006787b3  # add x15, x15, x6
    .word 0xff9a0293  # addi x5, x20, -7
    .word 0x00800313  # addi x6, x0, 8
    .word 0x0262f463  # bgeu x5, x6, 40
    .word 0xff9a0293  # addi x5, x20, -7
    .word 0x0072f293  # andi x5, x5, 7
    .word 0x00229293  # slli x5, x5, 2
    .word 0x002282b3  # add x5, x5, x2
    .word 0x3fc2a283  # lw x5, 1020(x5)
    .word 0x405008b3  # sub x17, x0, x5
    .word 0x011989b3  # add x19, x19, x17
    .word 0x0119b333  # sltu x6, x19, x17
    .word 0x006787b3  # add x15, x15, x6
    .word 0x00800313  # addi x6, x0, 8
    .word 0x026a6663  # bltu x20, x6, 44
    .word 0xff8a0293  # addi x5, x20, -8
    .word 0x0072f293  # andi x5, x5, 7
    .word 0x00229893  # slli x17, x5, 2
    .word 0x002888b3  # add x17, x17, x2
    .word 0x3fc8a883  # lw x17, 1020(x17)
    .word 0x01103333  # sltu x6, x0, x17
    .word 0x406888b3  # sub x17, x17, x6
    .word 0x011989b3  # add x19, x19, x17
    .word 0x0119b333  # sltu x6, x19, x17
    .word 0x006787b3  # add x15, x15, x6
    .word 0x00800313  # addi x6, x0, 8
    .word 0x006a7c63  # bgeu x20, x6, 24
    .word 0x007a7293  # andi x5, x20, 7
    .word 0x00229293  # slli x5, x5, 2
    .word 0x002282b3  # add x5, x5, x2
    .word 0x3f32ae23  # sw x19, 1020(x5)
    .word 0x0180006f  # jal x0, 24
    .word 0xff8a0293  # addi x5, x20, -8
    .word 0x0072f293  # andi x5, x5, 7
    .word 0x00229293  # slli x5, x5, 2
    .word 0x002282b3  # add x5, x5, x2
    .word 0x3d32ae23  # sw x19, 988(x5)
    .word 0xff1a0293  # addi x5, x20, -15
    .word 0xec0296e3  # bne x5, x0, -308
    .word 0x00100993  # addi x19, x0, 1
    .word 0xfff00813  # addi x16, x0, -1
    .word 0x00180813  # addi x16, x16, 1
    .word 0x00281b93  # slli x23, x16, 2
    .word 0x002b8bb3  # add x23, x23, x2
    .word 0x3dcba283  # lw x5, 988(x23)
    .word 0x013282b3  # add x5, x5, x19
    .word 0x3c5bae23  # sw x5, 988(x23)
    .word 0x3dcba283  # lw x5, 988(x23)
    .word 0x0132b9b3  # sltu x19, x5, x19
    .word 0xffe80293  # addi x5, x16, -2
    .word 0xfc029ee3  # bne x5, x0, -36
    .word 0x00100293  # addi x5, x0, 1
    .word 0x413289b3  # sub x19, x5, x19
    .word 0x00200813  # addi x16, x0, 2
    .word 0x00180813  # addi x16, x16, 1
    .word 0x00281b93  # slli x23, x16, 2
    .word 0x002b8bb3  # add x23, x23, x2
    .word 0x3dcba883  # lw x17, 988(x23)
    .word 0x413882b3  # sub x5, x17, x19
    .word 0x3c5bae23  # sw x5, 988(x23)
    .word 0x0138b9b3  # sltu x19, x17, x19
    .word 0xffb80293  # addi x5, x16, -5
    .word 0xfe0290e3  # bne x5, x0, -32
    .word 0x00198993  # addi x19, x19, 1
    .word 0x3f412883  # lw x17, 1012(x2)
    .word 0x413882b3  # sub x5, x17, x19
    .word 0x3e512a23  # sw x5, 1012(x2)
    .word 0x00100293  # addi x5, x0, 1
    .word 0x0138b333  # sltu x6, x17, x19
    .word 0x406289b3  # sub x19, x5, x6
    .word 0x3f812283  # lw x5, 1016(x2)
    .word 0x013282b3  # add x5, x5, x19
    .word 0x3e512c23  # sw x5, 1016(x2)
    .word 0x3f812283  # lw x5, 1016(x2)
    .word 0x0132b9b3  # sltu x19, x5, x19
    .word 0x00100293  # addi x5, x0, 1
    .word 0x40f282b3  # sub x5, x5, x15
    .word 0x413288b3  # sub x17, x5, x19
    .word 0x00088993  # addi x19, x17, 0
    .word 0xfff00813  # addi x16, x0, -1
    .word 0x00180813  # addi x16, x16, 1
    .word 0x00281b93  # slli x23, x16, 2
    .word 0x002b8bb3  # add x23, x23, x2
    .word 0x3dcba783  # lw x15, 988(x23)
    .word 0x413782b3  # sub x5, x15, x19
    .word 0x3c5bae23  # sw x5, 988(x23)
    .word 0x0137b9b3  # sltu x19, x15, x19
    .word 0xffe80293  # addi x5, x16, -2
    .word 0xfe0290e3  # bne x5, x0, -32
    .word 0x413889b3  # sub x19, x17, x19
    .word 0x00200813  # addi x16, x0, 2
    .word 0x00180813  # addi x16, x16, 1
    .word 0x00281b93  # slli x23, x16, 2
    .word 0x002b8bb3  # add x23, x23, x2
    .word 0x3dcba283  # lw x5, 988(x23)
    .word 0x013282b3  # add x5, x5, x19
    .word 0x3c5bae23  # sw x5, 988(x23)
    .word 0x3dcba283  # lw x5, 988(x23)
    .word 0x0132b9b3  # sltu x19, x5, x19
    .word 0xffb80293  # addi x5, x16, -5
    .word 0xfc029ee3  # bne x5, x0, -36
    .word 0x011989b3  # add x19, x19, x17
    .word 0x3f412283  # lw x5, 1012(x2)
    .word 0x013282b3  # add x5, x5, x19
    .word 0x3e512a23  # sw x5, 1012(x2)
    .word 0x3f412283  # lw x5, 1012(x2)
    .word 0x0132b9b3  # sltu x19, x5, x19
    .word 0x3f812283  # lw x5, 1016(x2)
    .word 0x013282b3  # add x5, x5, x19
    .word 0x411282b3  # sub x5, x5, x17
    .word 0x3e512c23  # sw x5, 1016(x2)
    .word 0xfff00813  # addi x16, x0, -1
    .word 0x00180813  # addi x16, x16, 1
    .word 0x00281b93  # slli x23, x16, 2
    .word 0x002b8bb3  # add x23, x23, x2
    .word 0x010602b3  # add x5, x12, x16
    .word 0x3dcba303  # lw x6, 988(x23)
    .word 0x00229293  # slli x5, x5, 2
    .word 0x002282b3  # add x5, x5, x2
    .word 0x1262a023  # sw x6, 288(x5)
    .word 0xff980293  # addi x5, x16, -7
    .word 0xfc029ee3  # bne x5, x0, -36
    .word 0x3080006f  # jal x0, 776
    .word 0x00100313  # addi x6, x0, 1
    .word 0x1c651a63  # bne x10, x6, 468
    .word 0x41c00313  # addi x6, x0, 1052
    .word 0x00230333  # add x6, x6, x2
    .word 0x02000393  # addi x7, x0, 32
    .word 0x006383b3  # add x7, x7, x6
    .word 0x406382b3  # sub x5, x7, x6
    .word 0x00029463  # bne x5, x0, 8
    .word 0x0100006f  # jal x0, 16
    .word 0x00032023  # sw x0, 0(x6)
    .word 0x00430313  # addi x6, x6, 4
    .word 0xfedff06f  # jal x0, -20
    .word 0x00000793  # addi x15, x0, 0
    .word 0xfff00813  # addi x16, x0, -1
    .word 0x00180813  # addi x16, x16, 1
    .word 0x00281b93  # slli x23, x16, 2
    .word 0x002b8bb3  # add x23, x23, x2
    .word 0x010682b3  # add x5, x13, x16
    .word 0x00229993  # slli x19, x5, 2
    .word 0x002989b3  # add x19, x19, x2
    .word 0x1209a983  # lw x19, 288(x19)
    .word 0x010a0333  # add x6, x20, x16
    .word 0x00231313  # slli x6, x6, 2
    .word 0x00230333  # add x6, x6, x2
    .word 0x12032303  # lw x6, 288(x6)
    .word 0x006988b3  # add x17, x19, x6
    .word 0x00f882b3  # add x5, x17, x15
    .word 0x405bae23  # sw x5, 1052(x23)
    .word 0x0138b2b3  # sltu x5, x17, x19
    .word 0x41cba303  # lw x6, 1052(x23)
    .word 0x00f33333  # sltu x6, x6, x15
    .word 0x006287b3  # add x15, x5, x6
    .word 0xff980293  # addi x5, x16, -7
    .word 0xfa029ae3  # bne x5, x0, -76
    .word 0x00100993  # addi x19, x0, 1
    .word 0xfff00813  # addi x16, x0, -1
    .word 0x00180813  # addi x16, x16, 1
    .word 0x00281b93  # slli x23, x16, 2
    .word 0x002b8bb3  # add x23, x23, x2
    .word 0x41cba283  # lw x5, 1052(x23)
    .word 0x013282b3  # add x5, x5, x19
    .word 0x405bae23  # sw x5, 1052(x23)
    .word 0x41cba283  # lw x5, 1052(x23)
    .word 0x0132b9b3  # sltu x19, x5, x19
    .word 0xffe80293  # addi x5, x16, -2
    .word 0xfc029ee3  # bne x5, x0, -36
    .word 0x00100293  # addi x5, x0, 1
    .word 0x413289b3  # sub x19, x5, x19
    .word 0x00200813  # addi x16, x0, 2
    .word 0x00180813  # addi x16, x16, 1
    .word 0x00281b93  # slli x23, x16, 2
    .word 0x002b8bb3  # add x23, x23, x2
    .word 0x41cba883  # lw x17, 1052(x23)
    .word 0x413882b3  # sub x5, x17, x19
    .word 0x405bae23  # sw x5, 1052(x23)
    .word 0x0138b9b3  # sltu x19, x17, x19
    .word 0xffb80293  # addi x5, x16, -5
    .word 0xfe0290e3  # bne x5, x0, -32
    .word 0x00198993  # addi x19, x19, 1
    .word 0x43412883  # lw x17, 1076(x2)
    .word 0x413882b3  # sub x5, x17, x19
    .word 0x42512a23  # sw x5, 1076(x2)
    .word 0x00100293  # addi x5, x0, 1
    .word 0x0138b333  # sltu x6, x17, x19
    .word 0x406289b3  # sub x19, x5, x6
    .word 0x43812283  # lw x5, 1080(x2)
    .word 0x013282b3  # add x5, x5, x19
    .word 0x42512c23  # sw x5, 1080(x2)
    .word 0x43812283  # lw x5, 1080(x2)
    .word 0x0132b9b3  # sltu x19, x5, x19
    .word 0x00100293  # addi x5, x0, 1
    .word 0x40f282b3  # sub x5, x5, x15
    .word 0x413288b3  # sub x17, x5, x19
    .word 0x00088993  # addi x19, x17, 0
    .word 0xfff00813  # addi x16, x0, -1
    .word 0x00180813  # addi x16, x16, 1
    .word 0x00281b93  # slli x23, x16, 2
    .word 0x002b8bb3  # add x23, x23, x2
    .word 0x41cba783  # lw x15, 1052(x23)
    .word 0x413782b3  # sub x5, x15, x19
    .word 0x405bae23  # sw x5, 1052(x23)
    .word 0x0137b9b3  # sltu x19, x15, x19
    .word 0xffe80293  # addi x5, x16, -2
    .word 0xfe0290e3  # bne x5, x0, -32
    .word 0x413889b3  # sub x19, x17, x19
    .word 0x00200813  # addi x16, x0, 2
    .word 0x00180813  # addi x16, x16, 1
    .word 0x00281b93  # slli x23, x16, 2
    .word 0x002b8bb3  # add x23, x23, x2
    .word 0x41cba283  # lw x5, 1052(x23)
    .word 0x013282b3  # add x5, x5, x19
    .word 0x405bae23  # sw x5, 1052(x23)
    .word 0x41cba283  # lw x5, 1052(x23)
    .word 0x0132b9b3  # sltu x19, x5, x19
    .word 0xffb80293  # addi x5, x16, -5
    .word 0xfc029ee3  # bne x5, x0, -36
    .word 0x011989b3  # add x19, x19, x17
    .word 0x43412283  # lw x5, 1076(x2)
    .word 0x013282b3  # add x5, x5, x19
    .word 0x42512a23  # sw x5, 1076(x2)
    .word 0x43412283  # lw x5, 1076(x2)
    .word 0x0132b9b3  # sltu x19, x5, x19
    .word 0x43812283  # lw x5, 1080(x2)
    .word 0x013282b3  # add x5, x5, x19
    .word 0x411282b3  # sub x5, x5, x17
    .word 0x42512c23  # sw x5, 1080(x2)
    .word 0xfff00813  # addi x16, x0, -1
    .word 0x00180813  # addi x16, x16, 1
    .word 0x00281b93  # slli x23, x16, 2
    .word 0x002b8bb3  # add x23, x23, x2
    .word 0x010602b3  # add x5, x12, x16
    .word 0x41cba303  # lw x6, 1052(x23)
    .word 0x00229293  # slli x5, x5, 2
    .word 0x002282b3  # add x5, x5, x2
    .word 0x1262a023  # sw x6, 288(x5)
    .word 0xff980293  # addi x5, x16, -7
    .word 0xfc029ee3  # bne x5, x0, -36
    .word 0x1300006f  # jal x0, 304
    .word 0x43c00313  # addi x6, x0, 1084
    .word 0x00230333  # add x6, x6, x2
    .word 0x02000393  # addi x7, x0, 32
    .word 0x006383b3  # add x7, x7, x6
    .word 0x406382b3  # sub x5, x7, x6
    .word 0x00029463  # bne x5, x0, 8
    .word 0x0100006f  # jal x0, 16
    .word 0x00032023  # sw x0, 0(x6)
    .word 0x00430313  # addi x6, x6, 4
    .word 0xfedff06f  # jal x0, -20
    .word 0x00000793  # addi x15, x0, 0
    .word 0xfff00813  # addi x16, x0, -1
    .word 0x00180813  # addi x16, x16, 1
    .word 0x00281b93  # slli x23, x16, 2
    .word 0x002b8bb3  # add x23, x23, x2
    .word 0x010682b3  # add x5, x13, x16
    .word 0x00229993  # slli x19, x5, 2
    .word 0x002989b3  # add x19, x19, x2
    .word 0x1209a983  # lw x19, 288(x19)
    .word 0x010a02b3  # add x5, x20, x16
    .word 0x00229893  # slli x17, x5, 2
    .word 0x002888b3  # add x17, x17, x2
    .word 0x1208a883  # lw x17, 288(x17)
    .word 0x41198733  # sub x14, x19, x17
    .word 0x40f702b3  # sub x5, x14, x15
    .word 0x425bae23  # sw x5, 1084(x23)
    .word 0x0119b2b3  # sltu x5, x19, x17
    .word 0x00f73333  # sltu x6, x14, x15
    .word 0x006287b3  # add x15, x5, x6
    .word 0xff980293  # addi x5, x16, -7
    .word 0xfa029ce3  # bne x5, x0, -72
    .word 0x00078993  # addi x19, x15, 0
    .word 0xfff00813  # addi x16, x0, -1
    .word 0x00180813  # addi x16, x16, 1
    .word 0x00281b93  # slli x23, x16, 2
    .word 0x002b8bb3  # add x23, x23, x2
    .word 0x43cba883  # lw x17, 1084(x23)
    .word 0x413882b3  # sub x5, x17, x19
    .word 0x425bae23  # sw x5, 1084(x23)
    .word 0x0138b9b3  # sltu x19, x17, x19
    .word 0xffe80293  # addi x5, x16, -2
    .word 0xfe0290e3  # bne x5, x0, -32
    .word 0x413789b3  # sub x19, x15, x19
    .word 0x00200813  # addi x16, x0, 2
    .word 0x00180813  # addi x16, x16, 1
    .word 0x00281b93  # slli x23, x16, 2
    .word 0x002b8bb3  # add x23, x23, x2
    .word 0x43cba283  # lw x5, 1084(x23)
    .word 0x013282b3  # add x5, x5, x19
    .word 0x425bae23  # sw x5, 1084(x23)
    .word 0x43cba283  # lw x5, 1084(x23)
    .word 0x0132b9b3  # sltu x19, x5, x19
    .word 0xffb80293  # addi x5, x16, -5
    .word 0xfc029ee3  # bne x5, x0, -36
    .word 0x00f989b3  # add x19, x19, x15
    .word 0x45412283  # lw x5, 1108(x2)
    .word 0x013282b3  # add x5, x5, x19
    .word 0x44512a23  # sw x5, 1108(x2)
    .word 0x45412283  # lw x5, 1108(x2)
    .word 0x0132b9b3  # sltu x19, x5, x19
    .word 0x45812283  # lw x5, 1112(x2)
    .word 0x013282b3  # add x5, x5, x19
    .word 0x40f282b3  # sub x5, x5, x15
    .word 0x44512c23  # sw x5, 1112(x2)
    .word 0xfff00813  # addi x16, x0, -1
    .word 0x00180813  # addi x16, x16, 1
    .word 0x00281b93  # slli x23, x16, 2
    .word 0x002b8bb3  # add x23, x23, x2
    .word 0x010602b3  # add x5, x12, x16
    .word 0x43cba303  # lw x6, 1084(x23)
    .word 0x00229293  # slli x5, x5, 2
    .word 0x002282b3  # add x5, x5, x2
    .word 0x1262a023  # sw x6, 288(x5)
    .word 0xff980293  # addi x5, x16, -7
    .word 0xfc029ee3  # bne x5, x0, -36
    .word 0xfd658293  # addi x5, x11, -42
    .word 0x8e0294e3  # bne x5, x0, -1816
    .word 0xfff00513  # addi x10, x0, -1
    .word 0x00150513  # addi x10, x10, 1
    .word 0x00251a93  # slli x21, x10, 2
    .word 0x002a8ab3  # add x21, x21, x2
    .word 0x06050293  # addi x5, x10, 96
    .word 0x00229293  # slli x5, x5, 2
    .word 0x002282b3  # add x5, x5, x2
    .word 0x1202a283  # lw x5, 288(x5)
    .word 0x0c5aa023  # sw x5, 192(x21)
    .word 0xfe950293  # addi x5, x10, -23
    .word 0xfc029ee3  # bne x5, x0, -36
    # the result
    .word 0x00000513  # addi x10, x0, 0
    # parameter 2: the array, back
    .word 0x0c010293  # addi x5, x2, 192
    .word 0x4ac12303  # lw x6, 1196(x2)
    .word 0x06028393  # addi x7, x5, 96
    .word 0x0002ae03  # lw x28, 0(x5)
    .word 0x01c32023  # sw x28, 0(x6)
    .word 0x00428293  # addi x5, x5, 4
    .word 0x00430313  # addi x6, x6, 4
    .word 0xfe7298e3  # bne x5, x7, -16
    # above the frame
    .word 0x48010293  # addi x5, x2, 1152
    # the caller's registers
    .word 0x0002a903  # lw x18, 0(x5)
    .cfi_restore 18
    .word 0x0042a983  # lw x19, 4(x5)
    .cfi_restore 19
    .word 0x0082aa03  # lw x20, 8(x5)
    .cfi_restore 20
    .word 0x00c2aa83  # lw x21, 12(x5)
    .cfi_restore 21
    .word 0x0102ab03  # lw x22, 16(x5)
    .cfi_restore 22
    .word 0x0142ab83  # lw x23, 20(x5)
    .cfi_restore 23
    .word 0x0182ac03  # lw x24, 24(x5)
    .cfi_restore 24
    # the caller's x2
    .word 0x03028293  # addi x5, x5, 48
    .cfi_def_cfa 5, 0
    # on to the tail that functions share
    jal x0, factc.tail.1
    .cfi_endproc
    .size p256_point_add, . - p256_point_add
    .section .text.factc.tail.1, "axG", @progbits, factc.tail.1, comdat
    .p2align 2
    .globl factc.tail.1
    .hidden factc.tail.1
    .type factc.tail.1, @function
factc.tail.1:
    .cfi_startproc
    .cfi_def_cfa 5, 0
    # all the room, wiped upward
    .word 0x00012023  # sw x0, 0(x2)
    .word 0x00012223  # sw x0, 4(x2)
    .word 0x00012423  # sw x0, 8(x2)
    .word 0x00012623  # sw x0, 12(x2)
    .word 0x01010113  # addi x2, x2, 16
    .word 0xfe5116e3  # bne x2, x5, -20
    .cfi_def_cfa 2, 0
    # temporaries, wiped
    .word 0x00000293  # addi x5, x0, 0
    .word 0x00000313  # addi x6, x0, 0
    .word 0x00000393  # addi x7, x0, 0
    .word 0x00000593  # addi x11, x0, 0
    .word 0x00000613  # addi x12, x0, 0
    .word 0x00000693  # addi x13, x0, 0
    .word 0x00000713  # addi x14, x0, 0
    .word 0x00000793  # addi x15, x0, 0
    .word 0x00000813  # addi x16, x0, 0
    .word 0x00000893  # addi x17, x0, 0
    .word 0x00000e13  # addi x28, x0, 0
    .word 0x00000e93  # addi x29, x0, 0
    .word 0x00000f13  # addi x30, x0, 0
    .word 0x00000f93  # addi x31, x0, 0
    # back
    .word 0x00008067  # jalr x0, 0(x1)
    .cfi_endproc
    .size factc.tail.1, . - factc.tail.1
    .option pop
