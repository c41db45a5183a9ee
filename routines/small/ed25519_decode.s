# ed25519_decode: made by factc 1.0.0 function; 887 words and 21 shared, 1120 bytes of stack, profile 1
    .option push
    .option norvc
    .option norelax
    .cfi_sections .debug_frame
    .section .text.ed25519_decode, "ax", @progbits
    .p2align 2
    .globl ed25519_decode
    .type ed25519_decode, @function
ed25519_decode:
    .cfi_startproc
    # room above the frame
    .word 0xfc010113  # addi x2, x2, -64
    .cfi_def_cfa_offset 64
    # the caller's registers
    .word 0x00812023  # sw x8, 0(x2)
    .cfi_offset 8, -64
    .word 0x00912223  # sw x9, 4(x2)
    .cfi_offset 9, -60
    .word 0x01212423  # sw x18, 8(x2)
    .cfi_offset 18, -56
    .word 0x01312623  # sw x19, 12(x2)
    .cfi_offset 19, -52
    .word 0x01412823  # sw x20, 16(x2)
    .cfi_offset 20, -48
    .word 0x01512a23  # sw x21, 20(x2)
    .cfi_offset 21, -44
    .word 0x01612c23  # sw x22, 24(x2)
    .cfi_offset 22, -40
    .word 0x01712e23  # sw x23, 28(x2)
    .cfi_offset 23, -36
    .word 0x03812023  # sw x24, 32(x2)
    .cfi_offset 24, -32
    .word 0x03912223  # sw x25, 36(x2)
    .cfi_offset 25, -28
    .word 0x03a12423  # sw x26, 40(x2)
    .cfi_offset 26, -24
    .word 0x03b12623  # sw x27, 44(x2)
    .cfi_offset 27, -20
    # arguments that are needed behind the body
    .word 0x02a12c23  # sw x10, 56(x2)
    .word 0x02b12e23  # sw x11, 60(x2)
    # the frame's base
    .word 0xbe010113  # addi x2, x2, -1056
    .cfi_def_cfa 2, 1120
    # the frame's word at 1008, zeroed
    .word 0x3e012823  # sw x0, 1008(x2)
    # the frame's word at 1012, zeroed
    .word 0x3e012a23  # sw x0, 1012(x2)
    # parameter 0: an array
    .word 0x00050293  # addi x5, x10, 0
    .word 0x00010313  # addi x6, x2, 0
    .word 0x02028393  # addi x7, x5, 32
    .word 0x0002ce03  # lbu x28, 0(x5)
    .word 0x01c30023  # sb x28, 0(x6)
    .word 0x00128293  # addi x5, x5, 1
    .word 0x00130313  # addi x6, x6, 1
    .word 0xfe7298e3  # bne x5, x7, -16
    # the body
    .word 0x00000713  # addi x14, x0, 0
    .word 0x80000c37  # lui x24, 0x80000
    .word 0xfffc0c13  # addi x24, x24, -1
    .word 0x06000313  # addi x6, x0, 96
    .word 0x00230333  # add x6, x6, x2
    .word 0x20000393  # addi x7, x0, 512
    .word 0x006383b3  # add x7, x7, x6
    .word 0x406382b3  # sub x5, x7, x6
    .word 0x00029463  # bne x5, x0, 8
    .word 0x0100006f  # jal x0, 16
    .word 0x00032023  # sw x0, 0(x6)
    .word 0x00430313  # addi x6, x6, 4
    .word 0xfedff06f  # jal x0, -20
    .word 0x26000313  # addi x6, x0, 608
    .word 0x00230333  # add x6, x6, x2
    .word 0x02000393  # addi x7, x0, 32
    .word 0x006383b3  # add x7, x7, x6
    .word 0x406382b3  # sub x5, x7, x6
    .word 0x00029463  # bne x5, x0, 8
    .word 0x0100006f  # jal x0, 16
    .word 0x00032023  # sw x0, 0(x6)
    .word 0x00430313  # addi x6, x6, 4
    .word 0xfedff06f  # jal x0, -20
    .word 0x000012b7  # lui x5, 0x00001
    .word 0x10028293  # addi x5, x5, 256
    .word 0x28512023  # sw x5, 640(x2)
    .word 0x001002b7  # lui x5, 0x00100
    .word 0x21a28293  # addi x5, x5, 538
    .word 0x28512223  # sw x5, 644(x2)
    .word 0x002002b7  # lui x5, 0x00200
    .word 0x22b28293  # addi x5, x5, 555
    .word 0x28512423  # sw x5, 648(x2)
    .word 0x003002b7  # lui x5, 0x00300
    .word 0x11b28293  # addi x5, x5, 283
    .word 0x28512623  # sw x5, 652(x2)
    .word 0x001002b7  # lui x5, 0x00100
    .word 0x11b28293  # addi x5, x5, 283
    .word 0x28512823  # sw x5, 656(x2)
    .word 0x000012b7  # lui x5, 0x00001
    .word 0x32028293  # addi x5, x5, 800
    .word 0x28512a23  # sw x5, 660(x2)
    .word 0x001002b7  # lui x5, 0x00100
    .word 0x33228293  # addi x5, x5, 818
    .word 0x28512c23  # sw x5, 664(x2)
    .word 0x000012b7  # lui x5, 0x00001
    .word 0x43028293  # addi x5, x5, 1072
    .word 0x28512e23  # sw x5, 668(x2)
    .word 0x001002b7  # lui x5, 0x00100
    .word 0x44228293  # addi x5, x5, 1090
    .word 0x2a512023  # sw x5, 672(x2)
    .word 0x001002b7  # lui x5, 0x00100
    .word 0x44128293  # addi x5, x5, 1089
    .word 0x2a512223  # sw x5, 676(x2)
    .word 0x001032b7  # lui x5, 0x00103
    .word 0x54428293  # addi x5, x5, 1348
    .word 0x2a512423  # sw x5, 680(x2)
    .word 0x001012b7  # lui x5, 0x00101
    .word 0x64528293  # addi x5, x5, 1605
    .word 0x2a512623  # sw x5, 684(x2)
    .word 0x001022b7  # lui x5, 0x00102
    .word 0xe6528293  # addi x5, x5, -411
    .word 0x2a512823  # sw x5, 688(x2)
    .word 0x001052b7  # lui x5, 0x00105
    .word 0x7ee28293  # addi x5, x5, 2030
    .word 0x2a512a23  # sw x5, 692(x2)
    .word 0x0010b2b7  # lui x5, 0x0010b
    .word 0xe7728293  # addi x5, x5, -393
    .word 0x2a512c23  # sw x5, 696(x2)
    .word 0x001152b7  # lui x5, 0x00115
    .word 0xeee28293  # addi x5, x5, -274
    .word 0x2a512e23  # sw x5, 700(x2)
    .word 0x0010b2b7  # lui x5, 0x0010b
    .word 0x8e728293  # addi x5, x5, -1817
    .word 0x2c512023  # sw x5, 704(x2)
    .word 0x001332b7  # lui x5, 0x00133
    .word 0xe8828293  # addi x5, x5, -376
    .word 0x2c512223  # sw x5, 708(x2)
    .word 0x001652b7  # lui x5, 0x00165
    .word 0xeee28293  # addi x5, x5, -274
    .word 0x2c512423  # sw x5, 712(x2)
    .word 0x001332b7  # lui x5, 0x00133
    .word 0xee828293  # addi x5, x5, -280
    .word 0x2c512623  # sw x5, 716(x2)
    .word 0x001032b7  # lui x5, 0x00103
    .word 0xee428293  # addi x5, x5, -284
    .word 0x2c512823  # sw x5, 720(x2)
    .word 0x001012b7  # lui x5, 0x00101
    .word 0x91328293  # addi x5, x5, -1773
    .word 0x2c512a23  # sw x5, 724(x2)
    .word 0x001012b7  # lui x5, 0x00101
    .word 0x99e28293  # addi x5, x5, -1634
    .word 0x2c512c23  # sw x5, 728(x2)
    .word 0x000022b7  # lui x5, 0x00002
    .word 0xc9028293  # addi x5, x5, -880
    .word 0x2c512e23  # sw x5, 732(x2)
    .word 0x001012b7  # lui x5, 0x00101
    .word 0xcc228293  # addi x5, x5, -830
    .word 0x2e512023  # sw x5, 736(x2)
    .word 0x003012b7  # lui x5, 0x00301
    .word 0xdc128293  # addi x5, x5, -575
    .word 0x2e512223  # sw x5, 740(x2)
    .word 0x002012b7  # lui x5, 0x00201
    .word 0xec128293  # addi x5, x5, -319
    .word 0x2e512423  # sw x5, 744(x2)
    .word 0x001012b7  # lui x5, 0x00101
    .word 0xddb28293  # addi x5, x5, -549
    .word 0x2e512623  # sw x5, 748(x2)
    .word 0x001012b7  # lui x5, 0x00101
    .word 0xeeb28293  # addi x5, x5, -277
    .word 0x2e512823  # sw x5, 752(x2)
    .word 0x001002b7  # lui x5, 0x00100
    .word 0x59f28293  # addi x5, x5, 1439
    .word 0x2e512a23  # sw x5, 756(x2)
    .word 0x004012b7  # lui x5, 0x00401
    .word 0x90028293  # addi x5, x5, -1792
    .word 0x2e512c23  # sw x5, 760(x2)
    .word 0x004002b7  # lui x5, 0x00400
    .word 0x50028293  # addi x5, x5, 1280
    .word 0x2e512e23  # sw x5, 764(x2)
    .word 0x004012b7  # lui x5, 0x00401
    .word 0xd0028293  # addi x5, x5, -768
    .word 0x30512023  # sw x5, 768(x2)
    .word 0x004012b7  # lui x5, 0x00401
    .word 0xe0028293  # addi x5, x5, -512
    .word 0x30512223  # sw x5, 772(x2)
    .word 0x135982b7  # lui x5, 0x13598
    .word 0x8a328293  # addi x5, x5, -1885
    .word 0x30512423  # sw x5, 776(x2)
    .word 0x75eb52b7  # lui x5, 0x75eb5
    .word 0xdca28293  # addi x5, x5, -566
    .word 0x30512623  # sw x5, 780(x2)
    .word 0x4141e2b7  # lui x5, 0x4141e
    .word 0x8ab28293  # addi x5, x5, -1877
    .word 0x30512823  # sw x5, 784(x2)
    .word 0x007012b7  # lui x5, 0x00701
    .word 0xa4d28293  # addi x5, x5, -1459
    .word 0x30512a23  # sw x5, 788(x2)
    .word 0x7779f2b7  # lui x5, 0x7779f
    .word 0x89828293  # addi x5, x5, -1896
    .word 0x30512c23  # sw x5, 792(x2)
    .word 0x8cc742b7  # lui x5, 0x8cc74
    .word 0x07928293  # addi x5, x5, 121
    .word 0x30512e23  # sw x5, 796(x2)
    .word 0x2b7002b7  # lui x5, 0x2b700
    .word 0xe7328293  # addi x5, x5, -397
    .word 0x32512023  # sw x5, 800(x2)
    .word 0x520372b7  # lui x5, 0x52037
    .word 0xcee28293  # addi x5, x5, -786
    .word 0x32512223  # sw x5, 804(x2)
    .word 0x4a0ea2b7  # lui x5, 0x4a0ea
    .word 0x0b028293  # addi x5, x5, 176
    .word 0x32512423  # sw x5, 808(x2)
    .word 0xc4ee22b7  # lui x5, 0xc4ee2
    .word 0xb2728293  # addi x5, x5, -1241
    .word 0x32512623  # sw x5, 812(x2)
    .word 0xad2fe2b7  # lui x5, 0xad2fe
    .word 0x47828293  # addi x5, x5, 1144
    .word 0x32512823  # sw x5, 816(x2)
    .word 0x2f4322b7  # lui x5, 0x2f432
    .word 0x80628293  # addi x5, x5, -2042
    .word 0x32512a23  # sw x5, 820(x2)
    .word 0x3dfbd2b7  # lui x5, 0x3dfbd
    .word 0x7a728293  # addi x5, x5, 1959
    .word 0x32512c23  # sw x5, 824(x2)
    .word 0x2b4d02b7  # lui x5, 0x2b4d0
    .word 0x09928293  # addi x5, x5, 153
    .word 0x32512e23  # sw x5, 828(x2)
    .word 0x4fc1e2b7  # lui x5, 0x4fc1e
    .word 0xf0b28293  # addi x5, x5, -245
    .word 0x34512023  # sw x5, 832(x2)
    .word 0x2b8322b7  # lui x5, 0x2b832
    .word 0x48028293  # addi x5, x5, 1152
    .word 0x34512223  # sw x5, 836(x2)
    .word 0x01f14283  # lbu x5, 31(x2)
    .word 0x0072d293  # srli x5, x5, 7
    .word 0x0ff2f293  # andi x5, x5, 255
    .word 0xfff28293  # addi x5, x5, -1
    .word 0x0012b293  # sltiu x5, x5, 1
    .word 0x3e512a23  # sw x5, 1012(x2)
    .word 0x01300513  # addi x10, x0, 19
    .word 0xfff00b13  # addi x22, x0, -1
    .word 0x001b0b13  # addi x22, x22, 1
    .word 0x002b1d93  # slli x27, x22, 2
    .word 0x002d8db3  # add x27, x27, x2
    .word 0xfff00893  # addi x17, x0, -1
    .word 0x00188893  # addi x17, x17, 1
    .word 0x00289d13  # slli x26, x17, 2
    .word 0x002d0d33  # add x26, x26, x2
    .word 0x060da283  # lw x5, 96(x27)
    .word 0x002b1313  # slli x6, x22, 2
    .word 0x01130333  # add x6, x6, x17
    .word 0x00230333  # add x6, x6, x2
    .word 0x00034303  # lbu x6, 0(x6)
    .word 0x00389393  # slli x7, x17, 3
    .word 0x00731333  # sll x6, x6, x7
    .word 0x0062e2b3  # or x5, x5, x6
    .word 0x065da023  # sw x5, 96(x27)
    .word 0xffd88293  # addi x5, x17, -3
    .word 0xfc0296e3  # bne x5, x0, -52
    .word 0xff9b0293  # addi x5, x22, -7
    .word 0x005032b3  # sltu x5, x0, x5
    .word 0x060da303  # lw x6, 96(x27)
    .word 0x01837333  # and x6, x6, x24
    .word 0x060da383  # lw x7, 96(x27)
    .word 0xfff28293  # addi x5, x5, -1
    .word 0x00734333  # xor x6, x6, x7
    .word 0x00537333  # and x6, x6, x5
    .word 0x0063c2b3  # xor x5, x7, x6
    .word 0x065da023  # sw x5, 96(x27)
    .word 0x060da283  # lw x5, 96(x27)
    .word 0x00a282b3  # add x5, x5, x10
    .word 0x00a2b2b3  # sltu x5, x5, x10
    .word 0xff9b0313  # addi x6, x22, -7
    .word 0x00603333  # sltu x6, x0, x6
    .word 0x060da383  # lw x7, 96(x27)
    .word 0x00a383b3  # add x7, x7, x10
    .word 0x01f3d393  # srli x7, x7, 31
    .word 0xfff30313  # addi x6, x6, -1
    .word 0x0063f333  # and x6, x7, x6
    .word 0x00628533  # add x10, x5, x6
    .word 0x050b0293  # addi x5, x22, 80
    .word 0x308da303  # lw x6, 776(x27)
    .word 0x00229293  # slli x5, x5, 2
    .word 0x002282b3  # add x5, x5, x2
    .word 0x0662a023  # sw x6, 96(x5)
    .word 0x078b0293  # addi x5, x22, 120
    .word 0x328da303  # lw x6, 808(x27)
    .word 0x00229293  # slli x5, x5, 2
    .word 0x002282b3  # add x5, x5, x2
    .word 0x0662a023  # sw x6, 96(x5)
    .word 0xff9b0293  # addi x5, x22, -7
    .word 0xf2029ce3  # bne x5, x0, -200
    .word 0x00100293  # addi x5, x0, 1
    .word 0x1c512023  # sw x5, 448(x2)
    .word 0x3e012e23  # sw x0, 1020(x2)
    .word 0x02200293  # addi x5, x0, 34
    .word 0x40512023  # sw x5, 1024(x2)
    .word 0x3fc12303  # lw x6, 1020(x2)
    .word 0x40012283  # lw x5, 1024(x2)
    .word 0x005332b3  # sltu x5, x6, x5
    .word 0x00029463  # bne x5, x0, 8
    .word 0x7280006f  # jal x0, 1832
    .word 0x34612423  # sw x6, 840(x2)
    .word 0x00130313  # addi x6, x6, 1
    .word 0x3e612e23  # sw x6, 1020(x2)
    .word 0x34812283  # lw x5, 840(x2)
    .word 0x00229b13  # slli x22, x5, 2
    .word 0x002b0b33  # add x22, x22, x2
    .word 0x280b2b03  # lw x22, 640(x22)
    .word 0x002b1d93  # slli x27, x22, 2
    .word 0x002d8db3  # add x27, x27, x2
    .word 0x014b5893  # srli x17, x22, 20
    .word 0x00289d13  # slli x26, x17, 2
    .word 0x002d0d33  # add x26, x26, x2
    .word 0x005b5293  # srli x5, x22, 5
    .word 0x0782f593  # andi x11, x5, 120
    .word 0x00259c93  # slli x25, x11, 2
    .word 0x002c8cb3  # add x25, x25, x2
    .word 0x001b5293  # srli x5, x22, 1
    .word 0x0782f913  # andi x18, x5, 120
    .word 0x003b1293  # slli x5, x22, 3
    .word 0x0782f613  # andi x12, x5, 120
    .word 0x00200313  # addi x6, x0, 2
    .word 0x4468f463  # bgeu x17, x6, 1096
    .word 0x00cb5293  # srli x5, x22, 12
    .word 0x07f2f693  # andi x13, x5, 127
    .word 0x34c00313  # addi x6, x0, 844
    .word 0x00230333  # add x6, x6, x2
    .word 0x02000393  # addi x7, x0, 32
    .word 0x006383b3  # add x7, x7, x6
    .word 0x406382b3  # sub x5, x7, x6
    .word 0x00029463  # bne x5, x0, 8
    .word 0x0100006f  # jal x0, 16
    .word 0x00032023  # sw x0, 0(x6)
    .word 0x00430313  # addi x6, x6, 4
    .word 0xfedff06f  # jal x0, -20
    .word 0xfff00b13  # addi x22, x0, -1
    .word 0x001b0b13  # addi x22, x22, 1
    .word 0x002b1d93  # slli x27, x22, 2
    .word 0x002d8db3  # add x27, x27, x2
    .word 0x016902b3  # add x5, x18, x22
    .word 0x00229293  # slli x5, x5, 2
    .word 0x002282b3  # add x5, x5, x2
    .word 0x0602a283  # lw x5, 96(x5)
    .word 0x345da623  # sw x5, 844(x27)
    .word 0xff9b0293  # addi x5, x22, -7
    .word 0xfc029ee3  # bne x5, x0, -36
    .word 0x01300293  # addi x5, x0, 19
    .word 0x36812303  # lw x6, 872(x2)
    .word 0x01f35313  # srli x6, x6, 31
    .word 0x02628a33  # mul x20, x5, x6
    .word 0x36812283  # lw x5, 872(x2)
    .word 0x0182f2b3  # and x5, x5, x24
    .word 0x36512423  # sw x5, 872(x2)
    .word 0xfff00b13  # addi x22, x0, -1
    .word 0x001b0b13  # addi x22, x22, 1
    .word 0x002b1d93  # slli x27, x22, 2
    .word 0x002d8db3  # add x27, x27, x2
    .word 0x34cda283  # lw x5, 844(x27)
    .word 0x014282b3  # add x5, x5, x20
    .word 0x345da623  # sw x5, 844(x27)
    .word 0x34cda283  # lw x5, 844(x27)
    .word 0x0142ba33  # sltu x20, x5, x20
    .word 0xff9b0293  # addi x5, x22, -7
    .word 0xfc029ee3  # bne x5, x0, -36
    .word 0x34c12283  # lw x5, 844(x2)
    .word 0x01300313  # addi x6, x0, 19
    .word 0x36812383  # lw x7, 872(x2)
    .word 0x01f3d393  # srli x7, x7, 31
    .word 0x02730333  # mul x6, x6, x7
    .word 0x006282b3  # add x5, x5, x6
    .word 0x34512623  # sw x5, 844(x2)
    .word 0x36812283  # lw x5, 872(x2)
    .word 0x0182f2b3  # and x5, x5, x24
    .word 0x36512423  # sw x5, 872(x2)
    .word 0x40012223  # sw x0, 1028(x2)
    .word 0x011682b3  # add x5, x13, x17
    .word 0x40512423  # sw x5, 1032(x2)
    .word 0x40412303  # lw x6, 1028(x2)
    .word 0x40812283  # lw x5, 1032(x2)
    .word 0x005332b3  # sltu x5, x6, x5
    .word 0x00029463  # bne x5, x0, 8
    .word 0x32c0006f  # jal x0, 812
    .word 0x00030713  # addi x14, x6, 0
    .word 0x36c00313  # addi x6, x0, 876
    .word 0x00230333  # add x6, x6, x2
    .word 0x02400393  # addi x7, x0, 36
    .word 0x006383b3  # add x7, x7, x6
    .word 0x406382b3  # sub x5, x7, x6
    .word 0x00029463  # bne x5, x0, 8
    .word 0x0100006f  # jal x0, 16
    .word 0x00032023  # sw x0, 0(x6)
    .word 0x00430313  # addi x6, x6, 4
    .word 0xfedff06f  # jal x0, -20
    .word 0x16d77463  # bgeu x14, x13, 360
    .word 0x39000313  # addi x6, x0, 912
    .word 0x00230333  # add x6, x6, x2
    .word 0x02000393  # addi x7, x0, 32
    .word 0x006383b3  # add x7, x7, x6
    .word 0x406382b3  # sub x5, x7, x6
    .word 0x00029463  # bne x5, x0, 8
    .word 0x0100006f  # jal x0, 16
    .word 0x00032023  # sw x0, 0(x6)
    .word 0x00430313  # addi x6, x6, 4
    .word 0xfedff06f  # jal x0, -20
    .word 0x00000b13  # addi x22, x0, 0
    .word 0x001b0b13  # addi x22, x22, 1
    .word 0x002b1d93  # slli x27, x22, 2
    .word 0x002d8db3  # add x27, x27, x2
    .word 0x34cda283  # lw x5, 844(x27)
    .word 0x00129293  # slli x5, x5, 1
    .word 0x348da303  # lw x6, 840(x27)
    .word 0x01f35313  # srli x6, x6, 31
    .word 0x0062e2b3  # or x5, x5, x6
    .word 0x385da823  # sw x5, 912(x27)
    .word 0xff9b0293  # addi x5, x22, -7
    .word 0xfc029ce3  # bne x5, x0, -40
    .word 0x00000b93  # addi x23, x0, 0
    .word 0x00000793  # addi x15, x0, 0
    .word 0x00000813  # addi x16, x0, 0
    .word 0xfff00893  # addi x17, x0, -1
    .word 0x00188893  # addi x17, x17, 1
    .word 0x00289d13  # slli x26, x17, 2
    .word 0x002d0d33  # add x26, x26, x2
    .word 0xfff00b13  # addi x22, x0, -1
    .word 0x001b0b13  # addi x22, x22, 1
    .word 0x002b1d93  # slli x27, x22, 2
    .word 0x002d8db3  # add x27, x27, x2
    .word 0x0018d293  # srli x5, x17, 1
    .word 0x41628933  # sub x18, x5, x22
    .word 0x00893293  # sltiu x5, x18, 8
    .word 0x41288333  # sub x6, x17, x18
    .word 0x00833313  # sltiu x6, x6, 8
    .word 0x0062f2b3  # and x5, x5, x6
    .word 0x06028c63  # beq x5, x0, 120
    .word 0x00797293  # andi x5, x18, 7
    .word 0x00229a13  # slli x20, x5, 2
    .word 0x002a0a33  # add x20, x20, x2
    .word 0x34ca2a03  # lw x20, 844(x20)
    .word 0x001b3293  # sltiu x5, x22, 1
    .word 0x41288333  # sub x6, x17, x18
    .word 0x00737313  # andi x6, x6, 7
    .word 0x00231313  # slli x6, x6, 2
    .word 0x00230333  # add x6, x6, x2
    .word 0x34c32303  # lw x6, 844(x6)
    .word 0x0018f393  # andi x7, x17, 1
    .word 0x00731333  # sll x6, x6, x7
    .word 0x412883b3  # sub x7, x17, x18
    .word 0x0073f393  # andi x7, x7, 7
    .word 0x00239393  # slli x7, x7, 2
    .word 0x002383b3  # add x7, x7, x2
    .word 0x3903a383  # lw x7, 912(x7)
    .word 0x405002b3  # sub x5, x0, x5
    .word 0x00734333  # xor x6, x6, x7
    .word 0x00537333  # and x6, x6, x5
    .word 0x0063cab3  # xor x21, x7, x6
    .word 0x035a09b3  # mul x19, x20, x21
    .word 0x035a3a33  # mulhu x20, x20, x21
    .word 0x013b8bb3  # add x23, x23, x19
    .word 0x013bb333  # sltu x6, x23, x19
    .word 0x006a0a33  # add x20, x20, x6
    .word 0x014787b3  # add x15, x15, x20
    .word 0x0147b333  # sltu x6, x15, x20
    .word 0x00680833  # add x16, x16, x6
    .word 0xffdb0293  # addi x5, x22, -3
    .word 0xf60290e3  # bne x5, x0, -160
    .word 0x00800313  # addi x6, x0, 8
    .word 0x0068fc63  # bgeu x17, x6, 24
    .word 0x0078f293  # andi x5, x17, 7
    .word 0x00229293  # slli x5, x5, 2
    .word 0x002282b3  # add x5, x5, x2
    .word 0x2772a023  # sw x23, 608(x5)
    .word 0x0140006f  # jal x0, 20
    .word 0x0078f293  # andi x5, x17, 7
    .word 0x00229293  # slli x5, x5, 2
    .word 0x002282b3  # add x5, x5, x2
    .word 0x3772a823  # sw x23, 880(x5)
    .word 0x00078b93  # addi x23, x15, 0
    .word 0x00080793  # addi x15, x16, 0
    .word 0x00000813  # addi x16, x0, 0
    .word 0xff288293  # addi x5, x17, -14
    .word 0xf00298e3  # bne x5, x0, -240
    .word 0x39712623  # sw x23, 908(x2)
    .word 0x0b00006f  # jal x0, 176
    .word 0xfff00b13  # addi x22, x0, -1
    .word 0x001b0b13  # addi x22, x22, 1
    .word 0x002b1d93  # slli x27, x22, 2
    .word 0x002d8db3  # add x27, x27, x2
    .word 0x34cda283  # lw x5, 844(x27)
    .word 0x265da023  # sw x5, 608(x27)
    .word 0xff9b0293  # addi x5, x22, -7
    .word 0xfe0294e3  # bne x5, x0, -24
    .word 0xfff00893  # addi x17, x0, -1
    .word 0x00188893  # addi x17, x17, 1
    .word 0x00289d13  # slli x26, x17, 2
    .word 0x002d0d33  # add x26, x26, x2
    .word 0x260d2783  # lw x15, 608(x26)
    .word 0x00000a93  # addi x21, x0, 0
    .word 0xfff00b13  # addi x22, x0, -1
    .word 0x001b0b13  # addi x22, x22, 1
    .word 0x002b1d93  # slli x27, x22, 2
    .word 0x002d8db3  # add x27, x27, x2
    .word 0x016602b3  # add x5, x12, x22
    .word 0x00229a13  # slli x20, x5, 2
    .word 0x002a0a33  # add x20, x20, x2
    .word 0x060a2a03  # lw x20, 96(x20)
    .word 0x03478bb3  # mul x23, x15, x20
    .word 0x0347b9b3  # mulhu x19, x15, x20
    .word 0x370da283  # lw x5, 880(x27)
    .word 0x01728a33  # add x20, x5, x23
    .word 0x000b1a63  # bne x22, x0, 20
    .word 0x274d2023  # sw x20, 608(x26)
    .word 0x017a3333  # sltu x6, x20, x23
    .word 0x00698ab3  # add x21, x19, x6
    .word 0x0200006f  # jal x0, 32
    .word 0x015a02b3  # add x5, x20, x21
    .word 0x365da623  # sw x5, 876(x27)
    .word 0x017a3333  # sltu x6, x20, x23
    .word 0x006982b3  # add x5, x19, x6
    .word 0x36cda303  # lw x6, 876(x27)
    .word 0x01533333  # sltu x6, x6, x21
    .word 0x00628ab3  # add x21, x5, x6
    .word 0xff9b0293  # addi x5, x22, -7
    .word 0xfa0290e3  # bne x5, x0, -96
    .word 0x39512623  # sw x21, 908(x2)
    .word 0xff988293  # addi x5, x17, -7
    .word 0xf6029ee3  # bne x5, x0, -132
    .word 0x00000a13  # addi x20, x0, 0
    .word 0xfff00b13  # addi x22, x0, -1
    .word 0x001b0b13  # addi x22, x22, 1
    .word 0x002b1d93  # slli x27, x22, 2
    .word 0x002d8db3  # add x27, x27, x2
    .word 0x370da283  # lw x5, 880(x27)
    .word 0x02600313  # addi x6, x0, 38
    .word 0x02628ab3  # mul x21, x5, x6
    .word 0x370dab83  # lw x23, 880(x27)
    .word 0x02600313  # addi x6, x0, 38
    .word 0x026bb7b3  # mulhu x15, x23, x6
    .word 0x260da283  # lw x5, 608(x27)
    .word 0x01528bb3  # add x23, x5, x21
    .word 0x014b82b3  # add x5, x23, x20
    .word 0x345da623  # sw x5, 844(x27)
    .word 0x015bb333  # sltu x6, x23, x21
    .word 0x006782b3  # add x5, x15, x6
    .word 0x34cda303  # lw x6, 844(x27)
    .word 0x01433333  # sltu x6, x6, x20
    .word 0x00628a33  # add x20, x5, x6
    .word 0xff9b0293  # addi x5, x22, -7
    .word 0xfa029ae3  # bne x5, x0, -76
    .word 0x01300293  # addi x5, x0, 19
    .word 0x001a1313  # slli x6, x20, 1
    .word 0x36812383  # lw x7, 872(x2)
    .word 0x01f3d393  # srli x7, x7, 31
    .word 0x00736333  # or x6, x6, x7
    .word 0x02628a33  # mul x20, x5, x6
    .word 0x36812283  # lw x5, 872(x2)
    .word 0x0182f2b3  # and x5, x5, x24
    .word 0x36512423  # sw x5, 872(x2)
    .word 0xfff00b13  # addi x22, x0, -1
    .word 0x001b0b13  # addi x22, x22, 1
    .word 0x002b1d93  # slli x27, x22, 2
    .word 0x002d8db3  # add x27, x27, x2
    .word 0x34cda283  # lw x5, 844(x27)
    .word 0x014282b3  # add x5, x5, x20
    .word 0x345da623  # sw x5, 844(x27)
    .word 0x34cda283  # lw x5, 844(x27)
    .word 0x0142ba33  # sltu x20, x5, x20
    .word 0xff9b0293  # addi x5, x22, -7
    .word 0xfc029ee3  # bne x5, x0, -36
    .word 0x34c12283  # lw x5, 844(x2)
    .word 0x01300313  # addi x6, x0, 19
    .word 0x36812383  # lw x7, 872(x2)
    .word 0x01f3d393  # srli x7, x7, 31
    .word 0x02730333  # mul x6, x6, x7
    .word 0x006282b3  # add x5, x5, x6
    .word 0x34512623  # sw x5, 844(x2)
    .word 0x36812283  # lw x5, 872(x2)
    .word 0x0182f2b3  # and x5, x5, x24
    .word 0x36512423  # sw x5, 872(x2)
    .word 0x00170713  # addi x14, x14, 1
    .word 0x40812283  # lw x5, 1032(x2)
    .word 0x005732b3  # sltu x5, x14, x5
    .word 0xce0294e3  # bne x5, x0, -792
    .word 0xfff70713  # addi x14, x14, -1
    .word 0x0040006f  # jal x0, 4
    .word 0xfff00b13  # addi x22, x0, -1
    .word 0x001b0b13  # addi x22, x22, 1
    .word 0x002b1d93  # slli x27, x22, 2
    .word 0x002d8db3  # add x27, x27, x2
    .word 0x016582b3  # add x5, x11, x22
    .word 0x34cda303  # lw x6, 844(x27)
    .word 0x00229293  # slli x5, x5, 2
    .word 0x002282b3  # add x5, x5, x2
    .word 0x0662a023  # sw x6, 96(x5)
    .word 0xff9b0293  # addi x5, x22, -7
    .word 0xfc029ee3  # bne x5, x0, -36
    .word 0x2880006f  # jal x0, 648
    .word 0x00200313  # addi x6, x0, 2
    .word 0x12689663  # bne x17, x6, 300
    .word 0x00000a13  # addi x20, x0, 0
    .word 0x3b000313  # addi x6, x0, 944
    .word 0x00230333  # add x6, x6, x2
    .word 0x02000393  # addi x7, x0, 32
    .word 0x006383b3  # add x7, x7, x6
    .word 0x406382b3  # sub x5, x7, x6
    .word 0x00029463  # bne x5, x0, 8
    .word 0x0100006f  # jal x0, 16
    .word 0x00032023  # sw x0, 0(x6)
    .word 0x00430313  # addi x6, x6, 4
    .word 0xfedff06f  # jal x0, -20
    .word 0xfff00b13  # addi x22, x0, -1
    .word 0x001b0b13  # addi x22, x22, 1
    .word 0x002b1d93  # slli x27, x22, 2
    .word 0x002d8db3  # add x27, x27, x2
    .word 0x016902b3  # add x5, x18, x22
    .word 0x00229a93  # slli x21, x5, 2
    .word 0x002a8ab3  # add x21, x21, x2
    .word 0x060aaa83  # lw x21, 96(x21)
    .word 0x01660333  # add x6, x12, x22
    .word 0x00231313  # slli x6, x6, 2
    .word 0x00230333  # add x6, x6, x2
    .word 0x06032303  # lw x6, 96(x6)
    .word 0x006a8bb3  # add x23, x21, x6
    .word 0x014b82b3  # add x5, x23, x20
    .word 0x3a5da823  # sw x5, 944(x27)
    .word 0x015bb2b3  # sltu x5, x23, x21
    .word 0x3b0da303  # lw x6, 944(x27)
    .word 0x01433333  # sltu x6, x6, x20
    .word 0x00628a33  # add x20, x5, x6
    .word 0xff9b0293  # addi x5, x22, -7
    .word 0xfa029ae3  # bne x5, x0, -76
    .word 0x01300293  # addi x5, x0, 19
    .word 0x001a1313  # slli x6, x20, 1
    .word 0x3cc12383  # lw x7, 972(x2)
    .word 0x01f3d393  # srli x7, x7, 31
    .word 0x00736333  # or x6, x6, x7
    .word 0x02628a33  # mul x20, x5, x6
    .word 0x3cc12283  # lw x5, 972(x2)
    .word 0x0182f2b3  # and x5, x5, x24
    .word 0x3c512623  # sw x5, 972(x2)
    .word 0xfff00b13  # addi x22, x0, -1
    .word 0x001b0b13  # addi x22, x22, 1
    .word 0x002b1d93  # slli x27, x22, 2
    .word 0x002d8db3  # add x27, x27, x2
    .word 0x3b0da283  # lw x5, 944(x27)
    .word 0x014282b3  # add x5, x5, x20
    .word 0x3a5da823  # sw x5, 944(x27)
    .word 0x3b0da283  # lw x5, 944(x27)
    .word 0x0142ba33  # sltu x20, x5, x20
    .word 0xff9b0293  # addi x5, x22, -7
    .word 0xfc029ee3  # bne x5, x0, -36
    .word 0x3b012283  # lw x5, 944(x2)
    .word 0x01300313  # addi x6, x0, 19
    .word 0x3cc12383  # lw x7, 972(x2)
    .word 0x01f3d393  # srli x7, x7, 31
    .word 0x02730333  # mul x6, x6, x7
    .word 0x006282b3  # add x5, x5, x6
    .word 0x3a512823  # sw x5, 944(x2)
    .word 0x3cc12283  # lw x5, 972(x2)
    .word 0x0182f2b3  # and x5, x5, x24
    .word 0x3c512623  # sw x5, 972(x2)
    .word 0xfff00b13  # addi x22, x0, -1
    .word 0x001b0b13  # addi x22, x22, 1
    .word 0x002b1d93  # slli x27, x22, 2
    .word 0x002d8db3  # add x27, x27, x2
    .word 0x016582b3  # add x5, x11, x22
    .word 0x3b0da303  # lw x6, 944(x27)
    .word 0x00229293  # slli x5, x5, 2
    .word 0x002282b3  # add x5, x5, x2
    .word 0x0662a023  # sw x6, 96(x5)
    .word 0xff9b0293  # addi x5, x22, -7
    .word 0xfc029ee3  # bne x5, x0, -36
    .word 0x1580006f  # jal x0, 344
    .word 0x00300313  # addi x6, x0, 3
    .word 0x0c689063  # bne x17, x6, 192
    .word 0x00000a13  # addi x20, x0, 0
    .word 0x3d000313  # addi x6, x0, 976
    .word 0x00230333  # add x6, x6, x2
    .word 0x02000393  # addi x7, x0, 32
    .word 0x006383b3  # add x7, x7, x6
    .word 0x406382b3  # sub x5, x7, x6
    .word 0x00029463  # bne x5, x0, 8
    .word 0x0100006f  # jal x0, 16
    .word 0x00032023  # sw x0, 0(x6)
    .word 0x00430313  # addi x6, x6, 4
    .word 0xfedff06f  # jal x0, -20
    .word 0xfff00b13  # addi x22, x0, -1
    .word 0x001b0b13  # addi x22, x22, 1
    .word 0x002b1d93  # slli x27, x22, 2
    .word 0x002d8db3  # add x27, x27, x2
    .word 0x016902b3  # add x5, x18, x22
    .word 0x00229a93  # slli x21, x5, 2
    .word 0x002a8ab3  # add x21, x21, x2
    .word 0x060aaa83  # lw x21, 96(x21)
    .word 0x016602b3  # add x5, x12, x22
    .word 0x00229b93  # slli x23, x5, 2
    .word 0x002b8bb3  # add x23, x23, x2
    .word 0x060bab83  # lw x23, 96(x23)
    .word 0x417a87b3  # sub x15, x21, x23
    .word 0x414782b3  # sub x5, x15, x20
    .word 0x3c5da823  # sw x5, 976(x27)
    .word 0x017ab2b3  # sltu x5, x21, x23
    .word 0x0147b333  # sltu x6, x15, x20
    .word 0x00628a33  # add x20, x5, x6
    .word 0xff9b0293  # addi x5, x22, -7
    .word 0xfa029ce3  # bne x5, x0, -72
    .word 0x02600293  # addi x5, x0, 38
    .word 0x03428a33  # mul x20, x5, x20
    .word 0xfff00b13  # addi x22, x0, -1
    .word 0x001b0b13  # addi x22, x22, 1
    .word 0x002b1d93  # slli x27, x22, 2
    .word 0x002d8db3  # add x27, x27, x2
    .word 0x3d0daa83  # lw x21, 976(x27)
    .word 0x016582b3  # add x5, x11, x22
    .word 0x414a8333  # sub x6, x21, x20
    .word 0x00229293  # slli x5, x5, 2
    .word 0x002282b3  # add x5, x5, x2
    .word 0x0662a023  # sw x6, 96(x5)
    .word 0x014aba33  # sltu x20, x21, x20
    .word 0xff9b0293  # addi x5, x22, -7
    .word 0xfc029ae3  # bne x5, x0, -44
    .word 0x0940006f  # jal x0, 148
    .word 0x01300a13  # addi x20, x0, 19
    .word 0xfff00b13  # addi x22, x0, -1
    .word 0x001b0b13  # addi x22, x22, 1
    .word 0x002b1d93  # slli x27, x22, 2
    .word 0x002d8db3  # add x27, x27, x2
    .word 0x016582b3  # add x5, x11, x22
    .word 0x00229293  # slli x5, x5, 2
    .word 0x002282b3  # add x5, x5, x2
    .word 0x0602a283  # lw x5, 96(x5)
    .word 0x014282b3  # add x5, x5, x20
    .word 0x0142ba33  # sltu x20, x5, x20
    .word 0xffab0293  # addi x5, x22, -6
    .word 0xfc029ce3  # bne x5, x0, -40
    .word 0x07cca283  # lw x5, 124(x25)
    .word 0x014282b3  # add x5, x5, x20
    .word 0x41f2d293  # srai x5, x5, 31
    .word 0x0132fa13  # andi x20, x5, 19
    .word 0xfff00b13  # addi x22, x0, -1
    .word 0x001b0b13  # addi x22, x22, 1
    .word 0x002b1d93  # slli x27, x22, 2
    .word 0x002d8db3  # add x27, x27, x2
    .word 0x016582b3  # add x5, x11, x22
    .word 0x00229293  # slli x5, x5, 2
    .word 0x002282b3  # add x5, x5, x2
    .word 0x0602a283  # lw x5, 96(x5)
    .word 0x01428ab3  # add x21, x5, x20
    .word 0x014aba33  # sltu x20, x21, x20
    .word 0x016582b3  # add x5, x11, x22
    .word 0x00229293  # slli x5, x5, 2
    .word 0x002282b3  # add x5, x5, x2
    .word 0x0752a023  # sw x21, 96(x5)
    .word 0xff9b0293  # addi x5, x22, -7
    .word 0xfc0294e3  # bne x5, x0, -56
    .word 0x07cca283  # lw x5, 124(x25)
    .word 0x0182f2b3  # and x5, x5, x24
    .word 0x065cae23  # sw x5, 124(x25)
    .word 0x8cdff06f  # jal x0, -1844
    .word 0x00000a13  # addi x20, x0, 0
    .word 0x00000a93  # addi x21, x0, 0
    .word 0xfff00b13  # addi x22, x0, -1
    .word 0x001b0b13  # addi x22, x22, 1
    .word 0x002b1d93  # slli x27, x22, 2
    .word 0x002d8db3  # add x27, x27, x2
    .word 0x068b0313  # addi x6, x22, 104
    .word 0x00231313  # slli x6, x6, 2
    .word 0x00230333  # add x6, x6, x2
    .word 0x06032303  # lw x6, 96(x6)
    .word 0x006a6a33  # or x20, x20, x6
    .word 0x070b0313  # addi x6, x22, 112
    .word 0x00231313  # slli x6, x6, 2
    .word 0x00230333  # add x6, x6, x2
    .word 0x06032303  # lw x6, 96(x6)
    .word 0x006aeab3  # or x21, x21, x6
    .word 0xff9b0293  # addi x5, x22, -7
    .word 0xfc0294e3  # bne x5, x0, -56
    .word 0x00000b93  # addi x23, x0, 0
    .word 0xfff00b13  # addi x22, x0, -1
    .word 0x001b0b13  # addi x22, x22, 1
    .word 0x002b1d93  # slli x27, x22, 2
    .word 0x002d8db3  # add x27, x27, x2
    .word 0x048b0293  # addi x5, x22, 72
    .word 0x001a3313  # sltiu x6, x20, 1
    .word 0x048b0393  # addi x7, x22, 72
    .word 0x00239393  # slli x7, x7, 2
    .word 0x002383b3  # add x7, x7, x2
    .word 0x0603a383  # lw x7, 96(x7)
    .word 0x028b0413  # addi x8, x22, 40
    .word 0x00241413  # slli x8, x8, 2
    .word 0x00240433  # add x8, x8, x2
    .word 0x06042403  # lw x8, 96(x8)
    .word 0x40600333  # sub x6, x0, x6
    .word 0x0083c3b3  # xor x7, x7, x8
    .word 0x0063f3b3  # and x7, x7, x6
    .word 0x00744333  # xor x6, x8, x7
    .word 0x00229293  # slli x5, x5, 2
    .word 0x002282b3  # add x5, x5, x2
    .word 0x0662a023  # sw x6, 96(x5)
    .word 0x048b0313  # addi x6, x22, 72
    .word 0x00231313  # slli x6, x6, 2
    .word 0x00230333  # add x6, x6, x2
    .word 0x06032303  # lw x6, 96(x6)
    .word 0x006bebb3  # or x23, x23, x6
    .word 0xff9b0293  # addi x5, x22, -7
    .word 0xf8029ce3  # bne x5, x0, -104
    .word 0x00153293  # sltiu x5, x10, 1
    .word 0x001a3313  # sltiu x6, x20, 1
    .word 0x001ab393  # sltiu x7, x21, 1
    .word 0x00736333  # or x6, x6, x7
    .word 0x0062f2b3  # and x5, x5, x6
    .word 0x01703333  # sltu x6, x0, x23
    .word 0x3f412383  # lw x7, 1012(x2)
    .word 0x0013b393  # sltiu x7, x7, 1
    .word 0x00736333  # or x6, x6, x7
    .word 0x0062f2b3  # and x5, x5, x6
    .word 0x3e512823  # sw x5, 1008(x2)
    .word 0x18012283  # lw x5, 384(x2)
    .word 0x0012f293  # andi x5, x5, 1
    .word 0xfff28293  # addi x5, x5, -1
    .word 0x0012b293  # sltiu x5, x5, 1
    .word 0x3f412303  # lw x6, 1012(x2)
    .word 0x406282b3  # sub x5, x5, x6
    .word 0x005032b3  # sltu x5, x0, x5
    .word 0x3e512a23  # sw x5, 1012(x2)
    .word 0x00000b93  # addi x23, x0, 0
    .word 0xfff00893  # addi x17, x0, -1
    .word 0x00188893  # addi x17, x17, 1
    .word 0x00289d13  # slli x26, x17, 2
    .word 0x002d0d33  # add x26, x26, x2
    .word 0x0018b293  # sltiu x5, x17, 1
    .word 0x00000337  # lui x6, 0x00000
    .word 0xfed30313  # addi x6, x6, -19
    .word 0xff988393  # addi x7, x17, -7
    .word 0x007033b3  # sltu x7, x0, x7
    .word 0x000004b7  # lui x9, 0x00000
    .word 0xfff48493  # addi x9, x9, -1
    .word 0xfff38393  # addi x7, x7, -1
    .word 0x009c4433  # xor x8, x24, x9
    .word 0x00747433  # and x8, x8, x7
    .word 0x0084c3b3  # xor x7, x9, x8
    .word 0x405002b3  # sub x5, x0, x5
    .word 0x00734333  # xor x6, x6, x7
    .word 0x00537333  # and x6, x6, x5
    .word 0x0063c933  # xor x18, x7, x6
    .word 0x04888313  # addi x6, x17, 72
    .word 0x00231313  # slli x6, x6, 2
    .word 0x00230333  # add x6, x6, x2
    .word 0x06032303  # lw x6, 96(x6)
    .word 0x40690a33  # sub x20, x18, x6
    .word 0x417a0ab3  # sub x21, x20, x23
    .word 0x04888313  # addi x6, x17, 72
    .word 0x00231313  # slli x6, x6, 2
    .word 0x00230333  # add x6, x6, x2
    .word 0x06032303  # lw x6, 96(x6)
    .word 0x006932b3  # sltu x5, x18, x6
    .word 0x017a3333  # sltu x6, x20, x23
    .word 0x00628bb3  # add x23, x5, x6
    .word 0x3f012283  # lw x5, 1008(x2)
    .word 0x3f412303  # lw x6, 1012(x2)
    .word 0x04888413  # addi x8, x17, 72
    .word 0x00241413  # slli x8, x8, 2
    .word 0x00240433  # add x8, x8, x2
    .word 0x06042403  # lw x8, 96(x8)
    .word 0x40600333  # sub x6, x0, x6
    .word 0x008ac3b3  # xor x7, x21, x8
    .word 0x0063f3b3  # and x7, x7, x6
    .word 0x00744333  # xor x6, x8, x7
    .word 0x405002b3  # sub x5, x0, x5
    .word 0x00537a33  # and x20, x6, x5
    .word 0x3f012283  # lw x5, 1008(x2)
    .word 0x060d2303  # lw x6, 96(x26)
    .word 0x405002b3  # sub x5, x0, x5
    .word 0x00537ab3  # and x21, x6, x5
    .word 0xfff00b13  # addi x22, x0, -1
    .word 0x001b0b13  # addi x22, x22, 1
    .word 0x002b1d93  # slli x27, x22, 2
    .word 0x002d8db3  # add x27, x27, x2
    .word 0x00289293  # slli x5, x17, 2
    .word 0x016282b3  # add x5, x5, x22
    .word 0x003b1393  # slli x7, x22, 3
    .word 0x007a5333  # srl x6, x20, x7
    .word 0x002282b3  # add x5, x5, x2
    .word 0x02628023  # sb x6, 32(x5)
    .word 0x00289293  # slli x5, x17, 2
    .word 0x02028293  # addi x5, x5, 32
    .word 0x016282b3  # add x5, x5, x22
    .word 0x003b1393  # slli x7, x22, 3
    .word 0x007ad333  # srl x6, x21, x7
    .word 0x002282b3  # add x5, x5, x2
    .word 0x02628023  # sb x6, 32(x5)
    .word 0xffdb0293  # addi x5, x22, -3
    .word 0xfa029ee3  # bne x5, x0, -68
    .word 0xff988293  # addi x5, x17, -7
    .word 0xee029ae3  # bne x5, x0, -268
    .word 0x3f012283  # lw x5, 1008(x2)
    .word 0x3e512c23  # sw x5, 1016(x2)
    # the result
    .word 0x3f812503  # lw x10, 1016(x2)
    # parameter 1: the array, back
    .word 0x02010293  # addi x5, x2, 32
    .word 0x45c12303  # lw x6, 1116(x2)
    .word 0x04028393  # addi x7, x5, 64
    .word 0x0002ce03  # lbu x28, 0(x5)
    .word 0x01c30023  # sb x28, 0(x6)
    .word 0x00128293  # addi x5, x5, 1
    .word 0x00130313  # addi x6, x6, 1
    .word 0xfe7298e3  # bne x5, x7, -16
    # above the frame
    .word 0x42010293  # addi x5, x2, 1056
    # the caller's registers
    .word 0x0002a403  # lw x8, 0(x5)
    .cfi_restore 8
    .word 0x0042a483  # lw x9, 4(x5)
    .cfi_restore 9
    .word 0x0082a903  # lw x18, 8(x5)
    .cfi_restore 18
    .word 0x00c2a983  # lw x19, 12(x5)
    .cfi_restore 19
    .word 0x0102aa03  # lw x20, 16(x5)
    .cfi_restore 20
    .word 0x0142aa83  # lw x21, 20(x5)
    .cfi_restore 21
    .word 0x0182ab03  # lw x22, 24(x5)
    .cfi_restore 22
    .word 0x01c2ab83  # lw x23, 28(x5)
    .cfi_restore 23
    .word 0x0202ac03  # lw x24, 32(x5)
    .cfi_restore 24
    .word 0x0242ac83  # lw x25, 36(x5)
    .cfi_restore 25
    .word 0x0282ad03  # lw x26, 40(x5)
    .cfi_restore 26
    .word 0x02c2ad83  # lw x27, 44(x5)
    .cfi_restore 27
    # the caller's x2
    .word 0x04028293  # addi x5, x5, 64
    .cfi_def_cfa 5, 0
    # on to the tail that functions share
    jal x0, factc.tail.1
    .cfi_endproc
    .size ed25519_decode, . - ed25519_decode
    .section .text.factc.tail.1, "axG", @progbits, factc.tail.1, comdat
    .p2align 2
    .globl factc.tail.1
    .hidden factc.tail.1
    .type factc.tail.1, @function
factc.tail.1:
    .cfi_startproc
    .cfi_def_cfa 5, 0
    # all the room, wiped upward
    .word 0x00012023  # sw x0, 0(x2)
    .word 0x00012223  # sw x0, 4(x2)
    .word 0x00012423  # sw x0, 8(x2)
    .word 0x00012623  # sw x0, 12(x2)
    .word 0x01010113  # addi x2, x2, 16
    .word 0xfe5116e3  # bne x2, x5, -20
    .cfi_def_cfa 2, 0
    # temporaries, wiped
    .word 0x00000293  # addi x5, x0, 0
    .word 0x00000313  # addi x6, x0, 0
    .word 0x00000393  # addi x7, x0, 0
    .word 0x00000593  # addi x11, x0, 0
    .word 0x00000613  # addi x12, x0, 0
    .word 0x00000693  # addi x13, x0, 0
    .word 0x00000713  # addi x14, x0, 0
    .word 0x00000793  # addi x15, x0, 0
    .word 0x00000813  # addi x16, x0, 0
    .word 0x00000893  # addi x17, x0, 0
    .word 0x00000e13  # addi x28, x0, 0
    .word 0x00000e93  # addi x29, x0, 0
    .word 0x00000f13  # addi x30, x0, 0
    .word 0x00000f93  # addi x31, x0, 0
    # back
    .word 0x00008067  # jalr x0, 0(x1)
    .cfi_endproc
    .size factc.tail.1, . - factc.tail.1
    .option pop
