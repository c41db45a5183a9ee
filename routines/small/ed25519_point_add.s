# ed25519_point_add: made by factc 1.0.0 function; 500 words and 21 shared, 1216 bytes of stack, profile 1
    .option push
    .option norvc
    .option norelax
    .cfi_sections .debug_frame
    .section .text.ed25519_point_add, "ax", @progbits
    .p2align 2
    .globl ed25519_point_add
    .type ed25519_point_add, @function
ed25519_point_add:
    .cfi_startproc
    # room above the frame
    .word 0xfd010113  # addi x2, x2, -48
    .cfi_def_cfa_offset 48
    # the caller's registers
    .word 0x01212023  # sw x18, 0(x2)
    .cfi_offset 18, -48
    .word 0x01312223  # sw x19, 4(x2)
    .cfi_offset 19, -44
    .word 0x01412423  # sw x20, 8(x2)
    .cfi_offset 20, -40
    .word 0x01512623  # sw x21, 12(x2)
    .cfi_offset 21, -36
    .word 0x01612823  # sw x22, 16(x2)
    .cfi_offset 22, -32
    .word 0x01712a23  # sw x23, 20(x2)
    .cfi_offset 23, -28
    .word 0x01812c23  # sw x24, 24(x2)
    .cfi_offset 24, -24
    .word 0x01912e23  # sw x25, 28(x2)
    .cfi_offset 25, -20
    # arguments that are needed behind the body
    .word 0x02a12223  # sw x10, 36(x2)
    .word 0x02b12423  # sw x11, 40(x2)
    .word 0x02c12623  # sw x12, 44(x2)
    # the frame's base
    .word 0xb7010113  # addi x2, x2, -1168
    .cfi_def_cfa 2, 1216
    # parameter 0: an array
    .word 0x00050293  # addi x5, x10, 0
    .word 0x00010313  # addi x6, x2, 0
    .word 0x08028393  # addi x7, x5, 128
    .word 0x0002ae03  # lw x28, 0(x5)
    .word 0x01c32023  # sw x28, 0(x6)
    .word 0x00428293  # addi x5, x5, 4
    .word 0x00430313  # addi x6, x6, 4
    .word 0xfe7298e3  # bne x5, x7, -16
    # parameter 1: an array
    .word 0x00058293  # addi x5, x11, 0
    .word 0x08010313  # addi x6, x2, 128
    .word 0x08028393  # addi x7, x5, 128
    .word 0x0002ae03  # lw x28, 0(x5)
    .word 0x01c32023  # sw x28, 0(x6)
    .word 0x00428293  # addi x5, x5, 4
    .word 0x00430313  # addi x6, x6, 4
    .word 0xfe7298e3  # bne x5, x7, -16
    # the body
    .word 0x80000ab7  # lui x21, 0x80000
    .word 0xfffa8a93  # addi x21, x21, -1
    .word 0x18000313  # addi x6, x0, 384
    .word 0x00230333  # add x6, x6, x2
    .word 0x20000393  # addi x7, x0, 512
    .word 0x006383b3  # add x7, x7, x6
    .word 0x406382b3  # sub x5, x7, x6
    .word 0x00029463  # bne x5, x0, 8
    .word 0x0100006f  # jal x0, 16
    .word 0x00032023  # sw x0, 0(x6)
    .word 0x00430313  # addi x6, x6, 4
    .word 0xfedff06f  # jal x0, -20
    .word 0x38000313  # addi x6, x0, 896
    .word 0x00230333  # add x6, x6, x2
    .word 0x02000393  # addi x7, x0, 32
    .word 0x006383b3  # add x7, x7, x6
    .word 0x406382b3  # sub x5, x7, x6
    .word 0x00029463  # bne x5, x0, 8
    .word 0x0100006f  # jal x0, 16
    .word 0x00032023  # sw x0, 0(x6)
    .word 0x00430313  # addi x6, x6, 4
    .word 0xfedff06f  # jal x0, -20
    .word 0x000032b7  # lui x5, 0x00003
    .word 0x91028293  # addi x5, x5, -1776
    .word 0x3a511023  # sh x5, 928(x2)
    .word 0x000032b7  # lui x5, 0x00003
    .word 0xa5428293  # addi x5, x5, -1452
    .word 0x3a511123  # sh x5, 930(x2)
    .word 0x000012b7  # lui x5, 0x00001
    .word 0x99a28293  # addi x5, x5, -1638
    .word 0x3a511223  # sh x5, 932(x2)
    .word 0x000022b7  # lui x5, 0x00002
    .word 0xa1028293  # addi x5, x5, -1520
    .word 0x3a511323  # sh x5, 934(x2)
    .word 0x000022b7  # lui x5, 0x00002
    .word 0xb5428293  # addi x5, x5, -1196
    .word 0x3a511423  # sh x5, 936(x2)
    .word 0x000012b7  # lui x5, 0x00001
    .word 0xaab28293  # addi x5, x5, -1365
    .word 0x3a511523  # sh x5, 938(x2)
    .word 0x000012b7  # lui x5, 0x00001
    .word 0xb3728293  # addi x5, x5, -1225
    .word 0x3a511623  # sh x5, 940(x2)
    .word 0x000012b7  # lui x5, 0x00001
    .word 0xbb828293  # addi x5, x5, -1096
    .word 0x3a511723  # sh x5, 942(x2)
    .word 0x000012b7  # lui x5, 0x00001
    .word 0xc2628293  # addi x5, x5, -986
    .word 0x3a511823  # sh x5, 944(x2)
    .word 0x000022b7  # lui x5, 0x00002
    .word 0xccc28293  # addi x5, x5, -820
    .word 0x3a511923  # sh x5, 946(x2)
    .word 0x000032b7  # lui x5, 0x00003
    .word 0xda928293  # addi x5, x5, -599
    .word 0x3a511a23  # sh x5, 948(x2)
    .word 0x000032b7  # lui x5, 0x00003
    .word 0xecb28293  # addi x5, x5, -309
    .word 0x3a511b23  # sh x5, 950(x2)
    .word 0x000022b7  # lui x5, 0x00002
    .word 0xccb28293  # addi x5, x5, -821
    .word 0x3a511c23  # sh x5, 952(x2)
    .word 0x000022b7  # lui x5, 0x00002
    .word 0xaa928293  # addi x5, x5, -1367
    .word 0x3a511d23  # sh x5, 954(x2)
    .word 0x0de00293  # addi x5, x0, 222
    .word 0x3a511e23  # sh x5, 956(x2)
    .word 0x1ca00293  # addi x5, x0, 458
    .word 0x3a511f23  # sh x5, 958(x2)
    .word 0x2ec00293  # addi x5, x0, 748
    .word 0x3c511023  # sh x5, 960(x2)
    .word 0x3da00293  # addi x5, x0, 986
    .word 0x3c511123  # sh x5, 962(x2)
    .word 0x000032b7  # lui x5, 0x00003
    .word 0x00028293  # addi x5, x5, 0
    .word 0x3c511223  # sh x5, 964(x2)
    .word 0x000032b7  # lui x5, 0x00003
    .word 0x10028293  # addi x5, x5, 256
    .word 0x3c511323  # sh x5, 966(x2)
    .word 0x000032b7  # lui x5, 0x00003
    .word 0x20028293  # addi x5, x5, 512
    .word 0x3c511423  # sh x5, 968(x2)
    .word 0x000032b7  # lui x5, 0x00003
    .word 0x30028293  # addi x5, x5, 768
    .word 0x3c511523  # sh x5, 970(x2)
    .word 0x26b2f2b7  # lui x5, 0x26b2f
    .word 0x15928293  # addi x5, x5, 345
    .word 0x3c512623  # sw x5, 972(x2)
    .word 0xebd6a2b7  # lui x5, 0xebd6a
    .word 0xb9428293  # addi x5, x5, -1132
    .word 0x3c512823  # sw x5, 976(x2)
    .word 0x8283b2b7  # lui x5, 0x8283b
    .word 0x15628293  # addi x5, x5, 342
    .word 0x3c512a23  # sw x5, 980(x2)
    .word 0x00e012b7  # lui x5, 0x00e01
    .word 0x49a28293  # addi x5, x5, 1178
    .word 0x3c512c23  # sw x5, 984(x2)
    .word 0xeef3d2b7  # lui x5, 0xeef3d
    .word 0x13028293  # addi x5, x5, 304
    .word 0x3c512e23  # sw x5, 988(x2)
    .word 0x198e82b7  # lui x5, 0x198e8
    .word 0x0f228293  # addi x5, x5, 242
    .word 0x3e512023  # sw x5, 992(x2)
    .word 0x56e002b7  # lui x5, 0x56e00
    .word 0xce728293  # addi x5, x5, -793
    .word 0x3e512223  # sw x5, 996(x2)
    .word 0x2406e2b7  # lui x5, 0x2406e
    .word 0x9dc28293  # addi x5, x5, -1572
    .word 0x3e512423  # sw x5, 1000(x2)
    .word 0xfff00513  # addi x10, x0, -1
    .word 0x00150513  # addi x10, x10, 1
    .word 0x00251b13  # slli x22, x10, 2
    .word 0x002b0b33  # add x22, x22, x2
    .word 0x000b2283  # lw x5, 0(x22)
    .word 0x185b2023  # sw x5, 384(x22)
    .word 0x080b2283  # lw x5, 128(x22)
    .word 0x205b2023  # sw x5, 512(x22)
    .word 0xfe150293  # addi x5, x10, -31
    .word 0xfe0290e3  # bne x5, x0, -32
    .word 0xfff00893  # addi x17, x0, -1
    .word 0x00188893  # addi x17, x17, 1
    .word 0x00289c93  # slli x25, x17, 2
    .word 0x002c8cb3  # add x25, x25, x2
    .word 0x04088293  # addi x5, x17, 64
    .word 0x3ccca303  # lw x6, 972(x25)
    .word 0x00229293  # slli x5, x5, 2
    .word 0x002282b3  # add x5, x5, x2
    .word 0x1862a023  # sw x6, 384(x5)
    .word 0xff988293  # addi x5, x17, -7
    .word 0xfc029ee3  # bne x5, x0, -36
    .word 0xfff00593  # addi x11, x0, -1
    .word 0x00158593  # addi x11, x11, 1
    .word 0x00159893  # slli x17, x11, 1
    .word 0x002888b3  # add x17, x17, x2
    .word 0x3a08d883  # lhu x17, 928(x17)
    .word 0x00289c93  # slli x25, x17, 2
    .word 0x002c8cb3  # add x25, x25, x2
    .word 0x00c8d513  # srli x10, x17, 12
    .word 0x00251b13  # slli x22, x10, 2
    .word 0x002b0b33  # add x22, x22, x2
    .word 0x0058d293  # srli x5, x17, 5
    .word 0x0782f613  # andi x12, x5, 120
    .word 0x00261b93  # slli x23, x12, 2
    .word 0x002b8bb3  # add x23, x23, x2
    .word 0x0018d293  # srli x5, x17, 1
    .word 0x0782f713  # andi x14, x5, 120
    .word 0x00271c13  # slli x24, x14, 2
    .word 0x002c0c33  # add x24, x24, x2
    .word 0x00389293  # slli x5, x17, 3
    .word 0x0782f693  # andi x13, x5, 120
    .word 0x20051663  # bne x10, x0, 524
    .word 0x3ec00313  # addi x6, x0, 1004
    .word 0x00230333  # add x6, x6, x2
    .word 0x02400393  # addi x7, x0, 36
    .word 0x006383b3  # add x7, x7, x6
    .word 0x406382b3  # sub x5, x7, x6
    .word 0x00029463  # bne x5, x0, 8
    .word 0x0100006f  # jal x0, 16
    .word 0x00032023  # sw x0, 0(x6)
    .word 0x00430313  # addi x6, x6, 4
    .word 0xfedff06f  # jal x0, -20
    .word 0x41000313  # addi x6, x0, 1040
    .word 0x00230333  # add x6, x6, x2
    .word 0x02000393  # addi x7, x0, 32
    .word 0x006383b3  # add x7, x7, x6
    .word 0x406382b3  # sub x5, x7, x6
    .word 0x00029463  # bne x5, x0, 8
    .word 0x0100006f  # jal x0, 16
    .word 0x00032023  # sw x0, 0(x6)
    .word 0x00430313  # addi x6, x6, 4
    .word 0xfedff06f  # jal x0, -20
    .word 0xfff00893  # addi x17, x0, -1
    .word 0x00188893  # addi x17, x17, 1
    .word 0x00289c93  # slli x25, x17, 2
    .word 0x002c8cb3  # add x25, x25, x2
    .word 0x011702b3  # add x5, x14, x17
    .word 0x00229293  # slli x5, x5, 2
    .word 0x002282b3  # add x5, x5, x2
    .word 0x1802a283  # lw x5, 384(x5)
    .word 0x385ca023  # sw x5, 896(x25)
    .word 0xff988293  # addi x5, x17, -7
    .word 0xfc029ee3  # bne x5, x0, -36
    .word 0xfff00713  # addi x14, x0, -1
    .word 0x00170713  # addi x14, x14, 1
    .word 0x00271c13  # slli x24, x14, 2
    .word 0x002c0c33  # add x24, x24, x2
    .word 0x380c2783  # lw x15, 896(x24)
    .word 0x00000813  # addi x16, x0, 0
    .word 0xfff00893  # addi x17, x0, -1
    .word 0x00188893  # addi x17, x17, 1
    .word 0x00289c93  # slli x25, x17, 2
    .word 0x002c8cb3  # add x25, x25, x2
    .word 0x011682b3  # add x5, x13, x17
    .word 0x00229a13  # slli x20, x5, 2
    .word 0x002a0a33  # add x20, x20, x2
    .word 0x180a2a03  # lw x20, 384(x20)
    .word 0x03478933  # mul x18, x15, x20
    .word 0x0347b9b3  # mulhu x19, x15, x20
    .word 0x3f0ca283  # lw x5, 1008(x25)
    .word 0x01228a33  # add x20, x5, x18
    .word 0x00089a63  # bne x17, x0, 20
    .word 0x394c2023  # sw x20, 896(x24)
    .word 0x012a3333  # sltu x6, x20, x18
    .word 0x00698833  # add x16, x19, x6
    .word 0x0200006f  # jal x0, 32
    .word 0x010a02b3  # add x5, x20, x16
    .word 0x3e5ca623  # sw x5, 1004(x25)
    .word 0x012a3333  # sltu x6, x20, x18
    .word 0x006982b3  # add x5, x19, x6
    .word 0x3ecca303  # lw x6, 1004(x25)
    .word 0x01033333  # sltu x6, x6, x16
    .word 0x00628833  # add x16, x5, x6
    .word 0xff988293  # addi x5, x17, -7
    .word 0xfa0290e3  # bne x5, x0, -96
    .word 0x41012623  # sw x16, 1036(x2)
    .word 0xff970293  # addi x5, x14, -7
    .word 0xf6029ee3  # bne x5, x0, -132
    .word 0x00000a13  # addi x20, x0, 0
    .word 0xfff00893  # addi x17, x0, -1
    .word 0x00188893  # addi x17, x17, 1
    .word 0x00289c93  # slli x25, x17, 2
    .word 0x002c8cb3  # add x25, x25, x2
    .word 0x3f0ca283  # lw x5, 1008(x25)
    .word 0x02600313  # addi x6, x0, 38
    .word 0x02628833  # mul x16, x5, x6
    .word 0x3f0ca903  # lw x18, 1008(x25)
    .word 0x02600313  # addi x6, x0, 38
    .word 0x026937b3  # mulhu x15, x18, x6
    .word 0x380ca283  # lw x5, 896(x25)
    .word 0x01028933  # add x18, x5, x16
    .word 0x014902b3  # add x5, x18, x20
    .word 0x405ca823  # sw x5, 1040(x25)
    .word 0x01093333  # sltu x6, x18, x16
    .word 0x006782b3  # add x5, x15, x6
    .word 0x410ca303  # lw x6, 1040(x25)
    .word 0x01433333  # sltu x6, x6, x20
    .word 0x00628a33  # add x20, x5, x6
    .word 0xff988293  # addi x5, x17, -7
    .word 0xfa029ae3  # bne x5, x0, -76
    .word 0x01300293  # addi x5, x0, 19
    .word 0x001a1313  # slli x6, x20, 1
    .word 0x42c12383  # lw x7, 1068(x2)
    .word 0x01f3d393  # srli x7, x7, 31
    .word 0x00736333  # or x6, x6, x7
    .word 0x02628a33  # mul x20, x5, x6
    .word 0x42c12283  # lw x5, 1068(x2)
    .word 0x0152f2b3  # and x5, x5, x21
    .word 0x42512623  # sw x5, 1068(x2)
    .word 0xfff00893  # addi x17, x0, -1
    .word 0x00188893  # addi x17, x17, 1
    .word 0x00289c93  # slli x25, x17, 2
    .word 0x002c8cb3  # add x25, x25, x2
    .word 0x410ca283  # lw x5, 1040(x25)
    .word 0x014282b3  # add x5, x5, x20
    .word 0x405ca823  # sw x5, 1040(x25)
    .word 0x410ca283  # lw x5, 1040(x25)
    .word 0x0142ba33  # sltu x20, x5, x20
    .word 0xff988293  # addi x5, x17, -7
    .word 0xfc029ee3  # bne x5, x0, -36
    .word 0x41012283  # lw x5, 1040(x2)
    .word 0x01300313  # addi x6, x0, 19
    .word 0x42c12383  # lw x7, 1068(x2)
    .word 0x01f3d393  # srli x7, x7, 31
    .word 0x02730333  # mul x6, x6, x7
    .word 0x006282b3  # add x5, x5, x6
    .word 0x40512823  # sw x5, 1040(x2)
    .word 0x42c12283  # lw x5, 1068(x2)
    .word 0x0152f2b3  # and x5, x5, x21
    .word 0x42512623  # sw x5, 1068(x2)
    .word 0xfff00893  # addi x17, x0, -1
    .word 0x00188893  # addi x17, x17, 1
    .word 0x00289c93  # slli x25, x17, 2
    .word 0x002c8cb3  # add x25, x25, x2
    .word 0x011602b3  # add x5, x12, x17
    .word 0x410ca303  # lw x6, 1040(x25)
    .word 0x00229293  # slli x5, x5, 2
    .word 0x002282b3  # add x5, x5, x2
    .word 0x1862a023  # sw x6, 384(x5)
    .word 0xff988293  # addi x5, x17, -7
    .word 0xfc029ee3  # bne x5, x0, -36
    .word 0x2880006f  # jal x0, 648
    .word 0x00100313  # addi x6, x0, 1
    .word 0x12651663  # bne x10, x6, 300
    .word 0x00000a13  # addi x20, x0, 0
    .word 0x43000313  # addi x6, x0, 1072
    .word 0x00230333  # add x6, x6, x2
    .word 0x02000393  # addi x7, x0, 32
    .word 0x006383b3  # add x7, x7, x6
    .word 0x406382b3  # sub x5, x7, x6
    .word 0x00029463  # bne x5, x0, 8
    .word 0x0100006f  # jal x0, 16
    .word 0x00032023  # sw x0, 0(x6)
    .word 0x00430313  # addi x6, x6, 4
    .word 0xfedff06f  # jal x0, -20
    .word 0xfff00893  # addi x17, x0, -1
    .word 0x00188893  # addi x17, x17, 1
    .word 0x00289c93  # slli x25, x17, 2
    .word 0x002c8cb3  # add x25, x25, x2
    .word 0x011702b3  # add x5, x14, x17
    .word 0x00229813  # slli x16, x5, 2
    .word 0x00280833  # add x16, x16, x2
    .word 0x18082803  # lw x16, 384(x16)
    .word 0x01168333  # add x6, x13, x17
    .word 0x00231313  # slli x6, x6, 2
    .word 0x00230333  # add x6, x6, x2
    .word 0x18032303  # lw x6, 384(x6)
    .word 0x00680933  # add x18, x16, x6
    .word 0x014902b3  # add x5, x18, x20
    .word 0x425ca823  # sw x5, 1072(x25)
    .word 0x010932b3  # sltu x5, x18, x16
    .word 0x430ca303  # lw x6, 1072(x25)
    .word 0x01433333  # sltu x6, x6, x20
    .word 0x00628a33  # add x20, x5, x6
    .word 0xff988293  # addi x5, x17, -7
    .word 0xfa029ae3  # bne x5, x0, -76
    .word 0x01300293  # addi x5, x0, 19
    .word 0x001a1313  # slli x6, x20, 1
    .word 0x44c12383  # lw x7, 1100(x2)
    .word 0x01f3d393  # srli x7, x7, 31
    .word 0x00736333  # or x6, x6, x7
    .word 0x02628a33  # mul x20, x5, x6
    .word 0x44c12283  # lw x5, 1100(x2)
    .word 0x0152f2b3  # and x5, x5, x21
    .word 0x44512623  # sw x5, 1100(x2)
    .word 0xfff00893  # addi x17, x0, -1
    .word 0x00188893  # addi x17, x17, 1
    .word 0x00289c93  # slli x25, x17, 2
    .word 0x002c8cb3  # add x25, x25, x2
    .word 0x430ca283  # lw x5, 1072(x25)
    .word 0x014282b3  # add x5, x5, x20
    .word 0x425ca823  # sw x5, 1072(x25)
    .word 0x430ca283  # lw x5, 1072(x25)
    .word 0x0142ba33  # sltu x20, x5, x20
    .word 0xff988293  # addi x5, x17, -7
    .word 0xfc029ee3  # bne x5, x0, -36
    .word 0x43012283  # lw x5, 1072(x2)
    .word 0x01300313  # addi x6, x0, 19
    .word 0x44c12383  # lw x7, 1100(x2)
    .word 0x01f3d393  # srli x7, x7, 31
    .word 0x02730333  # mul x6, x6, x7
    .word 0x006282b3  # add x5, x5, x6
    .word 0x42512823  # sw x5, 1072(x2)
    .word 0x44c12283  # lw x5, 1100(x2)
    .word 0x0152f2b3  # and x5, x5, x21
    .word 0x44512623  # sw x5, 1100(x2)
    .word 0xfff00893  # addi x17, x0, -1
    .word 0x00188893  # addi x17, x17, 1
    .word 0x00289c93  # slli x25, x17, 2
    .word 0x002c8cb3  # add x25, x25, x2
    .word 0x011602b3  # add x5, x12, x17
    .word 0x430ca303  # lw x6, 1072(x25)
    .word 0x00229293  # slli x5, x5, 2
    .word 0x002282b3  # add x5, x5, x2
    .word 0x1862a023  # sw x6, 384(x5)
    .word 0xff988293  # addi x5, x17, -7
    .word 0xfc029ee3  # bne x5, x0, -36
    .word 0x1580006f  # jal x0, 344
    .word 0x00200313  # addi x6, x0, 2
    .word 0x0c651063  # bne x10, x6, 192
    .word 0x00000a13  # addi x20, x0, 0
    .word 0x45000313  # addi x6, x0, 1104
    .word 0x00230333  # add x6, x6, x2
    .word 0x02000393  # addi x7, x0, 32
    .word 0x006383b3  # add x7, x7, x6
    .word 0x406382b3  # sub x5, x7, x6
    .word 0x00029463  # bne x5, x0, 8
    .word 0x0100006f  # jal x0, 16
    .word 0x00032023  # sw x0, 0(x6)
    .word 0x00430313  # addi x6, x6, 4
    .word 0xfedff06f  # jal x0, -20
    .word 0xfff00893  # addi x17, x0, -1
    .word 0x00188893  # addi x17, x17, 1
    .word 0x00289c93  # slli x25, x17, 2
    .word 0x002c8cb3  # add x25, x25, x2
    .word 0x011702b3  # add x5, x14, x17
    .word 0x00229813  # slli x16, x5, 2
    .word 0x00280833  # add x16, x16, x2
    .word 0x18082803  # lw x16, 384(x16)
    .word 0x011682b3  # add x5, x13, x17
    .word 0x00229913  # slli x18, x5, 2
    .word 0x00290933  # add x18, x18, x2
    .word 0x18092903  # lw x18, 384(x18)
    .word 0x412807b3  # sub x15, x16, x18
    .word 0x414782b3  # sub x5, x15, x20
    .word 0x445ca823  # sw x5, 1104(x25)
    .word 0x012832b3  # sltu x5, x16, x18
    .word 0x0147b333  # sltu x6, x15, x20
    .word 0x00628a33  # add x20, x5, x6
    .word 0xff988293  # addi x5, x17, -7
    .word 0xfa029ce3  # bne x5, x0, -72
    .word 0x02600293  # addi x5, x0, 38
    .word 0x03428a33  # mul x20, x5, x20
    .word 0xfff00893  # addi x17, x0, -1
    .word 0x00188893  # addi x17, x17, 1
    .word 0x00289c93  # slli x25, x17, 2
    .word 0x002c8cb3  # add x25, x25, x2
    .word 0x450ca803  # lw x16, 1104(x25)
    .word 0x011602b3  # add x5, x12, x17
    .word 0x41480333  # sub x6, x16, x20
    .word 0x00229293  # slli x5, x5, 2
    .word 0x002282b3  # add x5, x5, x2
    .word 0x1862a023  # sw x6, 384(x5)
    .word 0x01483a33  # sltu x20, x16, x20
    .word 0xff988293  # addi x5, x17, -7
    .word 0xfc029ae3  # bne x5, x0, -44
    .word 0x0940006f  # jal x0, 148
    .word 0x01300a13  # addi x20, x0, 19
    .word 0xfff00893  # addi x17, x0, -1
    .word 0x00188893  # addi x17, x17, 1
    .word 0x00289c93  # slli x25, x17, 2
    .word 0x002c8cb3  # add x25, x25, x2
    .word 0x011602b3  # add x5, x12, x17
    .word 0x00229293  # slli x5, x5, 2
    .word 0x002282b3  # add x5, x5, x2
    .word 0x1802a283  # lw x5, 384(x5)
    .word 0x014282b3  # add x5, x5, x20
    .word 0x0142ba33  # sltu x20, x5, x20
    .word 0xffa88293  # addi x5, x17, -6
    .word 0xfc029ce3  # bne x5, x0, -40
    .word 0x19cba283  # lw x5, 412(x23)
    .word 0x014282b3  # add x5, x5, x20
    .word 0x41f2d293  # srai x5, x5, 31
    .word 0x0132fa13  # andi x20, x5, 19
    .word 0xfff00893  # addi x17, x0, -1
    .word 0x00188893  # addi x17, x17, 1
    .word 0x00289c93  # slli x25, x17, 2
    .word 0x002c8cb3  # add x25, x25, x2
    .word 0x011602b3  # add x5, x12, x17
    .word 0x00229293  # slli x5, x5, 2
    .word 0x002282b3  # add x5, x5, x2
    .word 0x1802a283  # lw x5, 384(x5)
    .word 0x01428833  # add x16, x5, x20
    .word 0x01483a33  # sltu x20, x16, x20
    .word 0x011602b3  # add x5, x12, x17
    .word 0x00229293  # slli x5, x5, 2
    .word 0x002282b3  # add x5, x5, x2
    .word 0x1902a023  # sw x16, 384(x5)
    .word 0xff988293  # addi x5, x17, -7
    .word 0xfc0294e3  # bne x5, x0, -56
    .word 0x19cba283  # lw x5, 412(x23)
    .word 0x0152f2b3  # and x5, x5, x21
    .word 0x185bae23  # sw x5, 412(x23)
    .word 0xfeb58293  # addi x5, x11, -21
    .word 0xb20290e3  # bne x5, x0, -1248
    .word 0xfff00513  # addi x10, x0, -1
    .word 0x00150513  # addi x10, x10, 1
    .word 0x00251b13  # slli x22, x10, 2
    .word 0x002b0b33  # add x22, x22, x2
    .word 0x180b2283  # lw x5, 384(x22)
    .word 0x105b2023  # sw x5, 256(x22)
    .word 0xfe150293  # addi x5, x10, -31
    .word 0xfe0294e3  # bne x5, x0, -24
    # the result
    .word 0x00000513  # addi x10, x0, 0
    # parameter 2: the array, back
    .word 0x10010293  # addi x5, x2, 256
    .word 0x4bc12303  # lw x6, 1212(x2)
    .word 0x08028393  # addi x7, x5, 128
    .word 0x0002ae03  # lw x28, 0(x5)
    .word 0x01c32023  # sw x28, 0(x6)
    .word 0x00428293  # addi x5, x5, 4
    .word 0x00430313  # addi x6, x6, 4
    .word 0xfe7298e3  # bne x5, x7, -16
    # above the frame
    .word 0x49010293  # addi x5, x2, 1168
    # the caller's registers
    .word 0x0002a903  # lw x18, 0(x5)
    .cfi_restore 18
    .word 0x0042a983  # lw x19, 4(x5)
    .cfi_restore 19
    .word 0x0082aa03  # lw x20, 8(x5)
    .cfi_restore 20
    .word 0x00c2aa83  # lw x21, 12(x5)
    .cfi_restore 21
    .word 0x0102ab03  # lw x22, 16(x5)
    .cfi_restore 22
    .word 0x0142ab83  # lw x23, 20(x5)
    .cfi_restore 23
    .word 0x0182ac03  # lw x24, 24(x5)
    .cfi_restore 24
    .word 0x01c2ac83  # lw x25, 28(x5)
    .cfi_restore 25
    # the caller's x2
    .word 0x03028293  # addi x5, x5, 48
    .cfi_def_cfa 5, 0
    # on to the tail that functions share
    jal x0, factc.tail.1
    .cfi_endproc
    .size ed25519_point_add, . - ed25519_point_add
    .section .text.factc.tail.1, "axG", @progbits, factc.tail.1, comdat
    .p2align 2
    .globl factc.tail.1
    .hidden factc.tail.1
    .type factc.tail.1, @function
factc.tail.1:
    .cfi_startproc
    .cfi_def_cfa 5, 0
    # all the room, wiped upward
    .word 0x00012023  # sw x0, 0(x2)
    .word 0x00012223  # sw x0, 4(x2)
    .word 0x00012423  # sw x0, 8(x2)
    .word 0x00012623  # sw x0, 12(x2)
    .word 0x01010113  # addi x2, x2, 16
    .word 0xfe5116e3  # bne x2, x5, -20
    .cfi_def_cfa 2, 0
    # temporaries, wiped
    .word 0x00000293  # addi x5, x0, 0
    .word 0x00000313  # addi x6, x0, 0
    .word 0x00000393  # addi x7, x0, 0
    .word 0x00000593  # addi x11, x0, 0
    .word 0x00000613  # addi x12, x0, 0
    .word 0x00000693  # addi x13, x0, 0
    .word 0x00000713  # addi x14, x0, 0
    .word 0x00000793  # addi x15, x0, 0
    .word 0x00000813  # addi x16, x0, 0
    .word 0x00000893  # addi x17, x0, 0
    .word 0x00000e13  # addi x28, x0, 0
    .word 0x00000e93  # addi x29, x0, 0
    .word 0x00000f13  # addi x30, x0, 0
    .word 0x00000f93  # addi x31, x0, 0
    # back
    .word 0x00008067  # jalr x0, 0(x1)
    .cfi_endproc
    .size factc.tail.1, . - factc.tail.1
    .option pop
