# x25519: made by factc 1.0.0 function; 789 words and 21 shared, 1344 bytes of stack, profile 1
    .option push
    .option norvc
    .option norelax
    .cfi_sections .debug_frame
    .section .text.x25519, "ax", @progbits
    .p2align 2
    .globl x25519
    .type x25519, @function
x25519:
    .cfi_startproc
    # room above the frame
    .word 0xfc010113  # addi x2, x2, -64
    .cfi_def_cfa_offset 64
    # the caller's registers
    .word 0x00812023  # sw x8, 0(x2)
    .cfi_offset 8, -64
    .word 0x00912223  # sw x9, 4(x2)
    .cfi_offset 9, -60
    .word 0x01212423  # sw x18, 8(x2)
    .cfi_offset 18, -56
    .word 0x01312623  # sw x19, 12(x2)
    .cfi_offset 19, -52
    .word 0x01412823  # sw x20, 16(x2)
    .cfi_offset 20, -48
    .word 0x01512a23  # sw x21, 20(x2)
    .cfi_offset 21, -44
    .word 0x01612c23  # sw x22, 24(x2)
    .cfi_offset 22, -40
    .word 0x01712e23  # sw x23, 28(x2)
    .cfi_offset 23, -36
    .word 0x03812023  # sw x24, 32(x2)
    .cfi_offset 24, -32
    .word 0x03912223  # sw x25, 36(x2)
    .cfi_offset 25, -28
    .word 0x03a12423  # sw x26, 40(x2)
    .cfi_offset 26, -24
    .word 0x03b12623  # sw x27, 44(x2)
    .cfi_offset 27, -20
    # arguments that are needed behind the body
    .word 0x02a12a23  # sw x10, 52(x2)
    .word 0x02b12c23  # sw x11, 56(x2)
    .word 0x02c12e23  # sw x12, 60(x2)
    # the frame's base
    .word 0x50000293  # addi x5, x0, 1280
    .word 0x405102b3  # sub x5, x2, x5
    .cfi_def_cfa 5, 1344
    # the frame, zeroed downward
    .word 0xff010113  # addi x2, x2, -16
    .word 0x00012023  # sw x0, 0(x2)
    .word 0x00012223  # sw x0, 4(x2)
    .word 0x00012423  # sw x0, 8(x2)
    .word 0x00012623  # sw x0, 12(x2)
    .word 0xfe5116e3  # bne x2, x5, -20
    .cfi_def_cfa 2, 1344
    # parameter 0: an array
    .word 0x00050293  # addi x5, x10, 0
    .word 0x00010313  # addi x6, x2, 0
    .word 0x02028393  # addi x7, x5, 32
    .word 0x0002ce03  # lbu x28, 0(x5)
    .word 0x01c30023  # sb x28, 0(x6)
    .word 0x00128293  # addi x5, x5, 1
    .word 0x00130313  # addi x6, x6, 1
    .word 0xfe7298e3  # bne x5, x7, -16
    # parameter 1: an array
    .word 0x00058293  # addi x5, x11, 0
    .word 0x02010313  # addi x6, x2, 32
    .word 0x02028393  # addi x7, x5, 32
    .word 0x0002ce03  # lbu x28, 0(x5)
    .word 0x01c30023  # sb x28, 0(x6)
    .word 0x00128293  # addi x5, x5, 1
    .word 0x00130313  # addi x6, x6, 1
    .word 0xfe7298e3  # bne x5, x7, -16
    # the body
    .word 0x00000893  # addi x17, x0, 0
    .word 0x80000bb7  # lui x23, 0x80000
    .word 0xfffb8b93  # addi x23, x23, -1
    .word 0x000012b7  # lui x5, 0x00001
    .word 0xf0f28293  # addi x5, x5, -241
    .word 0x4c512823  # sw x5, 1232(x2)
    .word 0x000012b7  # lui x5, 0x00001
    .word 0x80028293  # addi x5, x5, -2048
    .word 0x4c512a23  # sw x5, 1236(x2)
    .word 0x0001ec37  # lui x24, 0x0001e
    .word 0xb41c0c13  # addi x24, x24, -1215
    .word 0x06000313  # addi x6, x0, 96
    .word 0x00230333  # add x6, x6, x2
    .word 0x20000393  # addi x7, x0, 512
    .word 0x006383b3  # add x7, x7, x6
    .word 0x406382b3  # sub x5, x7, x6
    .word 0x00029463  # bne x5, x0, 8
    .word 0x0100006f  # jal x0, 16
    .word 0x00032023  # sw x0, 0(x6)
    .word 0x00430313  # addi x6, x6, 4
    .word 0xfedff06f  # jal x0, -20
    .word 0x26000313  # addi x6, x0, 608
    .word 0x00230333  # add x6, x6, x2
    .word 0x02000393  # addi x7, x0, 32
    .word 0x006383b3  # add x7, x7, x6
    .word 0x406382b3  # sub x5, x7, x6
    .word 0x00029463  # bne x5, x0, 8
    .word 0x0100006f  # jal x0, 16
    .word 0x00032023  # sw x0, 0(x6)
    .word 0x00430313  # addi x6, x6, 4
    .word 0xfedff06f  # jal x0, -20
    .word 0x000012b7  # lui x5, 0x00001
    .word 0x51228293  # addi x5, x5, 1298
    .word 0x28511023  # sh x5, 640(x2)
    .word 0x000022b7  # lui x5, 0x00002
    .word 0x61228293  # addi x5, x5, 1554
    .word 0x28511123  # sh x5, 642(x2)
    .word 0x000012b7  # lui x5, 0x00001
    .word 0x73428293  # addi x5, x5, 1844
    .word 0x28511223  # sh x5, 644(x2)
    .word 0x000032b7  # lui x5, 0x00003
    .word 0x83428293  # addi x5, x5, -1996
    .word 0x28511323  # sh x5, 646(x2)
    .word 0x000012b7  # lui x5, 0x00001
    .word 0x88528293  # addi x5, x5, -1915
    .word 0x28511423  # sh x5, 648(x2)
    .word 0x77600293  # addi x5, x0, 1910
    .word 0x28511523  # sh x5, 650(x2)
    .word 0x55500293  # addi x5, x0, 1365
    .word 0x28511623  # sh x5, 652(x2)
    .word 0x66600293  # addi x5, x0, 1638
    .word 0x28511723  # sh x5, 654(x2)
    .word 0x000012b7  # lui x5, 0x00001
    .word 0x38728293  # addi x5, x5, 903
    .word 0x28511823  # sh x5, 656(x2)
    .word 0x33300293  # addi x5, x0, 819
    .word 0x28511923  # sh x5, 658(x2)
    .word 0x000022b7  # lui x5, 0x00002
    .word 0x48728293  # addi x5, x5, 1159
    .word 0x28511a23  # sh x5, 660(x2)
    .word 0x44400293  # addi x5, x0, 1092
    .word 0x28511b23  # sh x5, 662(x2)
    .word 0x40400293  # addi x5, x0, 1028
    .word 0x28511c23  # sh x5, 664(x2)
    .word 0x15600293  # addi x5, x0, 342
    .word 0x28511d23  # sh x5, 666(x2)
    .word 0x000022b7  # lui x5, 0x00002
    .word 0x25628293  # addi x5, x5, 598
    .word 0x28511e23  # sh x5, 668(x2)
    .word 0x000032b7  # lui x5, 0x00003
    .word 0x52528293  # addi x5, x5, 1317
    .word 0x28511f23  # sh x5, 670(x2)
    .word 0x22500293  # addi x5, x0, 549
    .word 0x2a511023  # sh x5, 672(x2)
    .word 0x000032b7  # lui x5, 0x00003
    .word 0x32228293  # addi x5, x5, 802
    .word 0x2a512223  # sw x5, 676(x2)
    .word 0x000012b7  # lui x5, 0x00001
    .word 0x42328293  # addi x5, x5, 1059
    .word 0x2a512423  # sw x5, 680(x2)
    .word 0x000012b7  # lui x5, 0x00001
    .word 0x74328293  # addi x5, x5, 1859
    .word 0x2a512623  # sw x5, 684(x2)
    .word 0x000052b7  # lui x5, 0x00005
    .word 0x57728293  # addi x5, x5, 1399
    .word 0x2a512823  # sw x5, 688(x2)
    .word 0x0000a2b7  # lui x5, 0x0000a
    .word 0x75528293  # addi x5, x5, 1877
    .word 0x2a512a23  # sw x5, 692(x2)
    .word 0x000142b7  # lui x5, 0x00014
    .word 0x77728293  # addi x5, x5, 1911
    .word 0x2a512c23  # sw x5, 696(x2)
    .word 0x0000a2b7  # lui x5, 0x0000a
    .word 0x67528293  # addi x5, x5, 1653
    .word 0x2a512e23  # sw x5, 700(x2)
    .word 0x000322b7  # lui x5, 0x00032
    .word 0x76628293  # addi x5, x5, 1894
    .word 0x2c512023  # sw x5, 704(x2)
    .word 0x000642b7  # lui x5, 0x00064
    .word 0x77728293  # addi x5, x5, 1911
    .word 0x2c512223  # sw x5, 708(x2)
    .word 0x000322b7  # lui x5, 0x00032
    .word 0x77628293  # addi x5, x5, 1910
    .word 0x2c512423  # sw x5, 712(x2)
    .word 0x000052b7  # lui x5, 0x00005
    .word 0x77428293  # addi x5, x5, 1908
    .word 0x2c512623  # sw x5, 716(x2)
    .word 0x17100293  # addi x5, x0, 369
    .word 0x2c512823  # sw x5, 720(x2)
    .word 0xfff00613  # addi x12, x0, -1
    .word 0x00160613  # addi x12, x12, 1
    .word 0x00265293  # srli x5, x12, 2
    .word 0x00265313  # srli x6, x12, 2
    .word 0x00231313  # slli x6, x6, 2
    .word 0x00230333  # add x6, x6, x2
    .word 0x06032303  # lw x6, 96(x6)
    .word 0x002603b3  # add x7, x12, x2
    .word 0x0203c383  # lbu x7, 32(x7)
    .word 0x00367413  # andi x8, x12, 3
    .word 0x00341413  # slli x8, x8, 3
    .word 0x008393b3  # sll x7, x7, x8
    .word 0x00736333  # or x6, x6, x7
    .word 0x00229293  # slli x5, x5, 2
    .word 0x002282b3  # add x5, x5, x2
    .word 0x0662a023  # sw x6, 96(x5)
    .word 0xfe160293  # addi x5, x12, -31
    .word 0xfc0290e3  # bne x5, x0, -64
    .word 0x07c12283  # lw x5, 124(x2)
    .word 0x0172f2b3  # and x5, x5, x23
    .word 0x06512e23  # sw x5, 124(x2)
    .word 0xfff00a93  # addi x21, x0, -1
    .word 0x001a8a93  # addi x21, x21, 1
    .word 0x002a9d93  # slli x27, x21, 2
    .word 0x002d8db3  # add x27, x27, x2
    .word 0x060da283  # lw x5, 96(x27)
    .word 0x0c5da023  # sw x5, 192(x27)
    .word 0xff9a8293  # addi x5, x21, -7
    .word 0xfe0294e3  # bne x5, x0, -24
    .word 0x00100293  # addi x5, x0, 1
    .word 0x08512023  # sw x5, 128(x2)
    .word 0x00100293  # addi x5, x0, 1
    .word 0x0e512023  # sw x5, 224(x2)
    .word 0x2c012e23  # sw x0, 732(x2)
    .word 0x4c012e23  # sw x0, 1244(x2)
    .word 0x10b00293  # addi x5, x0, 267
    .word 0x4e512023  # sw x5, 1248(x2)
    .word 0x4dc12303  # lw x6, 1244(x2)
    .word 0x4e012283  # lw x5, 1248(x2)
    .word 0x005332b3  # sltu x5, x6, x5
    .word 0x00029463  # bne x5, x0, 8
    .word 0x0650006f  # jal x0, 2148
    .word 0x2e612023  # sw x6, 736(x2)
    .word 0x00130313  # addi x6, x6, 1
    .word 0x4c612e23  # sw x6, 1244(x2)
    .word 0x2e012283  # lw x5, 736(x2)
    .word 0xf0128293  # addi x5, x5, -255
    .word 0x00c00313  # addi x6, x0, 12
    .word 0x0262f2b3  # remu x5, x5, x6
    .word 0x00229513  # slli x10, x5, 2
    .word 0x00250533  # add x10, x10, x2
    .word 0x2a452503  # lw x10, 676(x10)
    .word 0x00c55293  # srli x5, x10, 12
    .word 0x07f2f293  # andi x5, x5, 127
    .word 0x2e512223  # sw x5, 740(x2)
    .word 0x2e012283  # lw x5, 736(x2)
    .word 0x10000313  # addi x6, x0, 256
    .word 0x0c62f063  # bgeu x5, x6, 192
    .word 0x0fe00293  # addi x5, x0, 254
    .word 0x2e012303  # lw x6, 736(x2)
    .word 0x406282b3  # sub x5, x5, x6
    .word 0x0ff2f893  # andi x17, x5, 255
    .word 0x0038d293  # srli x5, x17, 3
    .word 0x002282b3  # add x5, x5, x2
    .word 0x0002c283  # lbu x5, 0(x5)
    .word 0x0078f313  # andi x6, x17, 7
    .word 0x0062d2b3  # srl x5, x5, x6
    .word 0x0ff2f293  # andi x5, x5, 255
    .word 0x0012fb13  # andi x22, x5, 1
    .word 0x0038b293  # sltiu x5, x17, 3
    .word 0xf0188313  # addi x6, x17, -255
    .word 0x00133313  # sltiu x6, x6, 1
    .word 0x0062e2b3  # or x5, x5, x6
    .word 0x00000313  # addi x6, x0, 0
    .word 0xf0288393  # addi x7, x17, -254
    .word 0x007033b3  # sltu x7, x0, x7
    .word 0x00100413  # addi x8, x0, 1
    .word 0xfff38393  # addi x7, x7, -1
    .word 0x01644433  # xor x8, x8, x22
    .word 0x00747433  # and x8, x8, x7
    .word 0x008b43b3  # xor x7, x22, x8
    .word 0x405002b3  # sub x5, x0, x5
    .word 0x00734333  # xor x6, x6, x7
    .word 0x00537333  # and x6, x6, x5
    .word 0x0063cb33  # xor x22, x7, x6
    .word 0x2dc12283  # lw x5, 732(x2)
    .word 0x0162ca33  # xor x20, x5, x22
    .word 0x00700593  # addi x11, x0, 7
    .word 0x00158593  # addi x11, x11, 1
    .word 0x00259c93  # slli x25, x11, 2
    .word 0x002c8cb3  # add x25, x25, x2
    .word 0x414002b3  # sub x5, x0, x20
    .word 0x060ca303  # lw x6, 96(x25)
    .word 0x0a0ca383  # lw x7, 160(x25)
    .word 0x00734333  # xor x6, x6, x7
    .word 0x0062f9b3  # and x19, x5, x6
    .word 0x060ca283  # lw x5, 96(x25)
    .word 0x0132c2b3  # xor x5, x5, x19
    .word 0x065ca023  # sw x5, 96(x25)
    .word 0x0a0ca283  # lw x5, 160(x25)
    .word 0x0132c2b3  # xor x5, x5, x19
    .word 0x0a5ca023  # sw x5, 160(x25)
    .word 0xfe958293  # addi x5, x11, -23
    .word 0xfc0292e3  # bne x5, x0, -60
    .word 0x2d612e23  # sw x22, 732(x2)
    .word 0x4e012223  # sw x0, 1252(x2)
    .word 0x2e012283  # lw x5, 736(x2)
    .word 0x0ff2b293  # sltiu x5, x5, 255
    .word 0x01100313  # addi x6, x0, 17
    .word 0x2e412383  # lw x7, 740(x2)
    .word 0x00138393  # addi x7, x7, 1
    .word 0x405002b3  # sub x5, x0, x5
    .word 0x00734333  # xor x6, x6, x7
    .word 0x00537333  # and x6, x6, x5
    .word 0x0063c2b3  # xor x5, x7, x6
    .word 0x4e512423  # sw x5, 1256(x2)
    .word 0x4e412303  # lw x6, 1252(x2)
    .word 0x4e812283  # lw x5, 1256(x2)
    .word 0x005332b3  # sltu x5, x6, x5
    .word 0x00029463  # bne x5, x0, 8
    .word 0x7240006f  # jal x0, 1828
    .word 0x00030613  # addi x12, x6, 0
    .word 0x2e012283  # lw x5, 736(x2)
    .word 0x0ff00313  # addi x6, x0, 255
    .word 0x0062fe63  # bgeu x5, x6, 28
    .word 0x01100313  # addi x6, x0, 17
    .word 0x026672b3  # remu x5, x12, x6
    .word 0x00129893  # slli x17, x5, 1
    .word 0x002888b3  # add x17, x17, x2
    .word 0x2808d883  # lhu x17, 640(x17)
    .word 0x0540006f  # jal x0, 84
    .word 0x00163293  # sltiu x5, x12, 1
    .word 0x0f057313  # andi x6, x10, 240
    .word 0x08000393  # addi x7, x0, 128
    .word 0x405002b3  # sub x5, x0, x5
    .word 0x00734333  # xor x6, x6, x7
    .word 0x00537333  # and x6, x6, x5
    .word 0x0063c8b3  # xor x17, x7, x6
    .word 0x2e412383  # lw x7, 740(x2)
    .word 0x40760333  # sub x6, x12, x7
    .word 0x00603333  # sltu x6, x0, x6
    .word 0x4d012403  # lw x8, 1232(x2)
    .word 0x008573b3  # and x7, x10, x8
    .word 0x0048d413  # srli x8, x17, 4
    .word 0x4d412483  # lw x9, 1236(x2)
    .word 0x00946433  # or x8, x8, x9
    .word 0xfff30313  # addi x6, x6, -1
    .word 0x0083c3b3  # xor x7, x7, x8
    .word 0x0063f3b3  # and x7, x7, x6
    .word 0x00744333  # xor x6, x8, x7
    .word 0x0068e8b3  # or x17, x17, x6
    .word 0x00c8da93  # srli x21, x17, 12
    .word 0x002a9d93  # slli x27, x21, 2
    .word 0x002d8db3  # add x27, x27, x2
    .word 0x0058d293  # srli x5, x17, 5
    .word 0x0782f693  # andi x13, x5, 120
    .word 0x0018d293  # srli x5, x17, 1
    .word 0x0782f813  # andi x16, x5, 120
    .word 0x00281d13  # slli x26, x16, 2
    .word 0x002d0d33  # add x26, x26, x2
    .word 0x00389293  # slli x5, x17, 3
    .word 0x0782f893  # andi x17, x5, 120
    .word 0x400a9263  # bne x21, x0, 1028
    .word 0x31800313  # addi x6, x0, 792
    .word 0x00230333  # add x6, x6, x2
    .word 0x02400393  # addi x7, x0, 36
    .word 0x006383b3  # add x7, x7, x6
    .word 0x406382b3  # sub x5, x7, x6
    .word 0x00029463  # bne x5, x0, 8
    .word 0x0100006f  # jal x0, 16
    .word 0x00032023  # sw x0, 0(x6)
    .word 0x00430313  # addi x6, x6, 4
    .word 0xfedff06f  # jal x0, -20
    .word 0x33c00313  # addi x6, x0, 828
    .word 0x00230333  # add x6, x6, x2
    .word 0x02000393  # addi x7, x0, 32
    .word 0x006383b3  # add x7, x7, x6
    .word 0x406382b3  # sub x5, x7, x6
    .word 0x00029463  # bne x5, x0, 8
    .word 0x0100006f  # jal x0, 16
    .word 0x00032023  # sw x0, 0(x6)
    .word 0x00430313  # addi x6, x6, 4
    .word 0xfedff06f  # jal x0, -20
    .word 0xfff00a93  # addi x21, x0, -1
    .word 0x001a8a93  # addi x21, x21, 1
    .word 0x002a9d93  # slli x27, x21, 2
    .word 0x002d8db3  # add x27, x27, x2
    .word 0x015802b3  # add x5, x16, x21
    .word 0x00229293  # slli x5, x5, 2
    .word 0x002282b3  # add x5, x5, x2
    .word 0x0602a283  # lw x5, 96(x5)
    .word 0x325dae23  # sw x5, 828(x27)
    .word 0xff9a8293  # addi x5, x21, -7
    .word 0xfc029ee3  # bne x5, x0, -36
    .word 0x1d181c63  # bne x16, x17, 472
    .word 0x01300293  # addi x5, x0, 19
    .word 0x35812303  # lw x6, 856(x2)
    .word 0x01f35313  # srli x6, x6, 31
    .word 0x026289b3  # mul x19, x5, x6
    .word 0x35812283  # lw x5, 856(x2)
    .word 0x0172f2b3  # and x5, x5, x23
    .word 0x34512c23  # sw x5, 856(x2)
    .word 0xfff00a93  # addi x21, x0, -1
    .word 0x001a8a93  # addi x21, x21, 1
    .word 0x002a9d93  # slli x27, x21, 2
    .word 0x002d8db3  # add x27, x27, x2
    .word 0x33cda283  # lw x5, 828(x27)
    .word 0x013282b3  # add x5, x5, x19
    .word 0x325dae23  # sw x5, 828(x27)
    .word 0x33cda283  # lw x5, 828(x27)
    .word 0x0132b9b3  # sltu x19, x5, x19
    .word 0xff9a8293  # addi x5, x21, -7
    .word 0xfc029ee3  # bne x5, x0, -36
    .word 0x33c12283  # lw x5, 828(x2)
    .word 0x01300313  # addi x6, x0, 19
    .word 0x35812383  # lw x7, 856(x2)
    .word 0x01f3d393  # srli x7, x7, 31
    .word 0x02730333  # mul x6, x6, x7
    .word 0x006282b3  # add x5, x5, x6
    .word 0x32512e23  # sw x5, 828(x2)
    .word 0x35812283  # lw x5, 856(x2)
    .word 0x0172f2b3  # and x5, x5, x23
    .word 0x34512c23  # sw x5, 856(x2)
    .word 0x36c00313  # addi x6, x0, 876
    .word 0x00230333  # add x6, x6, x2
    .word 0x02000393  # addi x7, x0, 32
    .word 0x006383b3  # add x7, x7, x6
    .word 0x406382b3  # sub x5, x7, x6
    .word 0x00029463  # bne x5, x0, 8
    .word 0x0100006f  # jal x0, 16
    .word 0x00032023  # sw x0, 0(x6)
    .word 0x00430313  # addi x6, x6, 4
    .word 0xfedff06f  # jal x0, -20
    .word 0x00000a93  # addi x21, x0, 0
    .word 0x001a8a93  # addi x21, x21, 1
    .word 0x002a9d93  # slli x27, x21, 2
    .word 0x002d8db3  # add x27, x27, x2
    .word 0x33cda283  # lw x5, 828(x27)
    .word 0x00129293  # slli x5, x5, 1
    .word 0x338da303  # lw x6, 824(x27)
    .word 0x01f35313  # srli x6, x6, 31
    .word 0x0062e2b3  # or x5, x5, x6
    .word 0x365da623  # sw x5, 876(x27)
    .word 0xff9a8293  # addi x5, x21, -7
    .word 0xfc029ce3  # bne x5, x0, -40
    .word 0x00000b13  # addi x22, x0, 0
    .word 0x00000713  # addi x14, x0, 0
    .word 0x00000793  # addi x15, x0, 0
    .word 0xfff00813  # addi x16, x0, -1
    .word 0x00180813  # addi x16, x16, 1
    .word 0x00281d13  # slli x26, x16, 2
    .word 0x002d0d33  # add x26, x26, x2
    .word 0xfff00a93  # addi x21, x0, -1
    .word 0x001a8a93  # addi x21, x21, 1
    .word 0x002a9d93  # slli x27, x21, 2
    .word 0x002d8db3  # add x27, x27, x2
    .word 0x00185293  # srli x5, x16, 1
    .word 0x415288b3  # sub x17, x5, x21
    .word 0x0088b293  # sltiu x5, x17, 8
    .word 0x41180333  # sub x6, x16, x17
    .word 0x00833313  # sltiu x6, x6, 8
    .word 0x0062f2b3  # and x5, x5, x6
    .word 0x06028c63  # beq x5, x0, 120
    .word 0x0078f293  # andi x5, x17, 7
    .word 0x00229993  # slli x19, x5, 2
    .word 0x002989b3  # add x19, x19, x2
    .word 0x33c9a983  # lw x19, 828(x19)
    .word 0x001ab293  # sltiu x5, x21, 1
    .word 0x41180333  # sub x6, x16, x17
    .word 0x00737313  # andi x6, x6, 7
    .word 0x00231313  # slli x6, x6, 2
    .word 0x00230333  # add x6, x6, x2
    .word 0x33c32303  # lw x6, 828(x6)
    .word 0x00187393  # andi x7, x16, 1
    .word 0x00731333  # sll x6, x6, x7
    .word 0x411803b3  # sub x7, x16, x17
    .word 0x0073f393  # andi x7, x7, 7
    .word 0x00239393  # slli x7, x7, 2
    .word 0x002383b3  # add x7, x7, x2
    .word 0x36c3a383  # lw x7, 876(x7)
    .word 0x405002b3  # sub x5, x0, x5
    .word 0x00734333  # xor x6, x6, x7
    .word 0x00537333  # and x6, x6, x5
    .word 0x0063ca33  # xor x20, x7, x6
    .word 0x03498933  # mul x18, x19, x20
    .word 0x0349b9b3  # mulhu x19, x19, x20
    .word 0x012b0b33  # add x22, x22, x18
    .word 0x012b3333  # sltu x6, x22, x18
    .word 0x006989b3  # add x19, x19, x6
    .word 0x01370733  # add x14, x14, x19
    .word 0x01373333  # sltu x6, x14, x19
    .word 0x006787b3  # add x15, x15, x6
    .word 0xffda8293  # addi x5, x21, -3
    .word 0xf60290e3  # bne x5, x0, -160
    .word 0x00800313  # addi x6, x0, 8
    .word 0x00687c63  # bgeu x16, x6, 24
    .word 0x00787293  # andi x5, x16, 7
    .word 0x00229293  # slli x5, x5, 2
    .word 0x002282b3  # add x5, x5, x2
    .word 0x2762a023  # sw x22, 608(x5)
    .word 0x0140006f  # jal x0, 20
    .word 0x00787293  # andi x5, x16, 7
    .word 0x00229293  # slli x5, x5, 2
    .word 0x002282b3  # add x5, x5, x2
    .word 0x3162ae23  # sw x22, 796(x5)
    .word 0x00070b13  # addi x22, x14, 0
    .word 0x00078713  # addi x14, x15, 0
    .word 0x00000793  # addi x15, x0, 0
    .word 0xff280293  # addi x5, x16, -14
    .word 0xf00298e3  # bne x5, x0, -240
    .word 0x33612c23  # sw x22, 824(x2)
    .word 0x0b00006f  # jal x0, 176
    .word 0xfff00a93  # addi x21, x0, -1
    .word 0x001a8a93  # addi x21, x21, 1
    .word 0x002a9d93  # slli x27, x21, 2
    .word 0x002d8db3  # add x27, x27, x2
    .word 0x33cda283  # lw x5, 828(x27)
    .word 0x265da023  # sw x5, 608(x27)
    .word 0xff9a8293  # addi x5, x21, -7
    .word 0xfe0294e3  # bne x5, x0, -24
    .word 0xfff00813  # addi x16, x0, -1
    .word 0x00180813  # addi x16, x16, 1
    .word 0x00281d13  # slli x26, x16, 2
    .word 0x002d0d33  # add x26, x26, x2
    .word 0x260d2703  # lw x14, 608(x26)
    .word 0x00000a13  # addi x20, x0, 0
    .word 0xfff00a93  # addi x21, x0, -1
    .word 0x001a8a93  # addi x21, x21, 1
    .word 0x002a9d93  # slli x27, x21, 2
    .word 0x002d8db3  # add x27, x27, x2
    .word 0x015882b3  # add x5, x17, x21
    .word 0x00229993  # slli x19, x5, 2
    .word 0x002989b3  # add x19, x19, x2
    .word 0x0609a983  # lw x19, 96(x19)
    .word 0x03370b33  # mul x22, x14, x19
    .word 0x03373933  # mulhu x18, x14, x19
    .word 0x31cda283  # lw x5, 796(x27)
    .word 0x016289b3  # add x19, x5, x22
    .word 0x000a9a63  # bne x21, x0, 20
    .word 0x273d2023  # sw x19, 608(x26)
    .word 0x0169b333  # sltu x6, x19, x22
    .word 0x00690a33  # add x20, x18, x6
    .word 0x0200006f  # jal x0, 32
    .word 0x014982b3  # add x5, x19, x20
    .word 0x305dac23  # sw x5, 792(x27)
    .word 0x0169b333  # sltu x6, x19, x22
    .word 0x006902b3  # add x5, x18, x6
    .word 0x318da303  # lw x6, 792(x27)
    .word 0x01433333  # sltu x6, x6, x20
    .word 0x00628a33  # add x20, x5, x6
    .word 0xff9a8293  # addi x5, x21, -7
    .word 0xfa0290e3  # bne x5, x0, -96
    .word 0x33412c23  # sw x20, 824(x2)
    .word 0xff980293  # addi x5, x16, -7
    .word 0xf6029ee3  # bne x5, x0, -132
    .word 0x00000993  # addi x19, x0, 0
    .word 0xfff00a93  # addi x21, x0, -1
    .word 0x001a8a93  # addi x21, x21, 1
    .word 0x002a9d93  # slli x27, x21, 2
    .word 0x002d8db3  # add x27, x27, x2
    .word 0x31cda283  # lw x5, 796(x27)
    .word 0x02600313  # addi x6, x0, 38
    .word 0x02628a33  # mul x20, x5, x6
    .word 0x31cdab03  # lw x22, 796(x27)
    .word 0x02600313  # addi x6, x0, 38
    .word 0x026b3733  # mulhu x14, x22, x6
    .word 0x260da283  # lw x5, 608(x27)
    .word 0x01428b33  # add x22, x5, x20
    .word 0x013b02b3  # add x5, x22, x19
    .word 0x325dae23  # sw x5, 828(x27)
    .word 0x014b3333  # sltu x6, x22, x20
    .word 0x006702b3  # add x5, x14, x6
    .word 0x33cda303  # lw x6, 828(x27)
    .word 0x01333333  # sltu x6, x6, x19
    .word 0x006289b3  # add x19, x5, x6
    .word 0xff9a8293  # addi x5, x21, -7
    .word 0xfa029ae3  # bne x5, x0, -76
    .word 0x01300293  # addi x5, x0, 19
    .word 0x00199313  # slli x6, x19, 1
    .word 0x35812383  # lw x7, 856(x2)
    .word 0x01f3d393  # srli x7, x7, 31
    .word 0x00736333  # or x6, x6, x7
    .word 0x026289b3  # mul x19, x5, x6
    .word 0x35812283  # lw x5, 856(x2)
    .word 0x0172f2b3  # and x5, x5, x23
    .word 0x34512c23  # sw x5, 856(x2)
    .word 0xfff00a93  # addi x21, x0, -1
    .word 0x001a8a93  # addi x21, x21, 1
    .word 0x002a9d93  # slli x27, x21, 2
    .word 0x002d8db3  # add x27, x27, x2
    .word 0x33cda283  # lw x5, 828(x27)
    .word 0x013282b3  # add x5, x5, x19
    .word 0x325dae23  # sw x5, 828(x27)
    .word 0x33cda283  # lw x5, 828(x27)
    .word 0x0132b9b3  # sltu x19, x5, x19
    .word 0xff9a8293  # addi x5, x21, -7
    .word 0xfc029ee3  # bne x5, x0, -36
    .word 0x33c12283  # lw x5, 828(x2)
    .word 0x01300313  # addi x6, x0, 19
    .word 0x35812383  # lw x7, 856(x2)
    .word 0x01f3d393  # srli x7, x7, 31
    .word 0x02730333  # mul x6, x6, x7
    .word 0x006282b3  # add x5, x5, x6
    .word 0x32512e23  # sw x5, 828(x2)
    .word 0x35812283  # lw x5, 856(x2)
    .word 0x0172f2b3  # and x5, x5, x23
    .word 0x34512c23  # sw x5, 856(x2)
    .word 0xfff00a93  # addi x21, x0, -1
    .word 0x001a8a93  # addi x21, x21, 1
    .word 0x002a9d93  # slli x27, x21, 2
    .word 0x002d8db3  # add x27, x27, x2
    .word 0x015682b3  # add x5, x13, x21
    .word 0x33cda303  # lw x6, 828(x27)
    .word 0x00229293  # slli x5, x5, 2
    .word 0x002282b3  # add x5, x5, x2
    .word 0x0662a023  # sw x6, 96(x5)
    .word 0xff9a8293  # addi x5, x21, -7
    .word 0xfc029ee3  # bne x5, x0, -36
    .word 0x2640006f  # jal x0, 612
    .word 0x00100313  # addi x6, x0, 1
    .word 0x066a9463  # bne x21, x6, 104
    .word 0x00000993  # addi x19, x0, 0
    .word 0xfff00a93  # addi x21, x0, -1
    .word 0x001a8a93  # addi x21, x21, 1
    .word 0x002a9d93  # slli x27, x21, 2
    .word 0x002d8db3  # add x27, x27, x2
    .word 0x015802b3  # add x5, x16, x21
    .word 0x00229a13  # slli x20, x5, 2
    .word 0x002a0a33  # add x20, x20, x2
    .word 0x060a2a03  # lw x20, 96(x20)
    .word 0x01588333  # add x6, x17, x21
    .word 0x00231313  # slli x6, x6, 2
    .word 0x00230333  # add x6, x6, x2
    .word 0x06032303  # lw x6, 96(x6)
    .word 0x006a0b33  # add x22, x20, x6
    .word 0x013b0733  # add x14, x22, x19
    .word 0x014b32b3  # sltu x5, x22, x20
    .word 0x01373333  # sltu x6, x14, x19
    .word 0x006289b3  # add x19, x5, x6
    .word 0x015682b3  # add x5, x13, x21
    .word 0x00229293  # slli x5, x5, 2
    .word 0x002282b3  # add x5, x5, x2
    .word 0x06e2a023  # sw x14, 96(x5)
    .word 0xff9a8293  # addi x5, x21, -7
    .word 0xfa0296e3  # bne x5, x0, -84
    .word 0x1f80006f  # jal x0, 504
    .word 0x00200313  # addi x6, x0, 2
    .word 0x0c6a9063  # bne x21, x6, 192
    .word 0x00000993  # addi x19, x0, 0
    .word 0x42800313  # addi x6, x0, 1064
    .word 0x00230333  # add x6, x6, x2
    .word 0x02000393  # addi x7, x0, 32
    .word 0x006383b3  # add x7, x7, x6
    .word 0x406382b3  # sub x5, x7, x6
    .word 0x00029463  # bne x5, x0, 8
    .word 0x0100006f  # jal x0, 16
    .word 0x00032023  # sw x0, 0(x6)
    .word 0x00430313  # addi x6, x6, 4
    .word 0xfedff06f  # jal x0, -20
    .word 0xfff00a93  # addi x21, x0, -1
    .word 0x001a8a93  # addi x21, x21, 1
    .word 0x002a9d93  # slli x27, x21, 2
    .word 0x002d8db3  # add x27, x27, x2
    .word 0x015802b3  # add x5, x16, x21
    .word 0x00229a13  # slli x20, x5, 2
    .word 0x002a0a33  # add x20, x20, x2
    .word 0x060a2a03  # lw x20, 96(x20)
    .word 0x015882b3  # add x5, x17, x21
    .word 0x00229b13  # slli x22, x5, 2
    .word 0x002b0b33  # add x22, x22, x2
    .word 0x060b2b03  # lw x22, 96(x22)
    .word 0x416a0733  # sub x14, x20, x22
    .word 0x413702b3  # sub x5, x14, x19
    .word 0x425da423  # sw x5, 1064(x27)
    .word 0x016a32b3  # sltu x5, x20, x22
    .word 0x01373333  # sltu x6, x14, x19
    .word 0x006289b3  # add x19, x5, x6
    .word 0xff9a8293  # addi x5, x21, -7
    .word 0xfa029ce3  # bne x5, x0, -72
    .word 0x02600293  # addi x5, x0, 38
    .word 0x033289b3  # mul x19, x5, x19
    .word 0xfff00a93  # addi x21, x0, -1
    .word 0x001a8a93  # addi x21, x21, 1
    .word 0x002a9d93  # slli x27, x21, 2
    .word 0x002d8db3  # add x27, x27, x2
    .word 0x428daa03  # lw x20, 1064(x27)
    .word 0x015682b3  # add x5, x13, x21
    .word 0x413a0333  # sub x6, x20, x19
    .word 0x00229293  # slli x5, x5, 2
    .word 0x002282b3  # add x5, x5, x2
    .word 0x0662a023  # sw x6, 96(x5)
    .word 0x013a39b3  # sltu x19, x20, x19
    .word 0xff9a8293  # addi x5, x21, -7
    .word 0xfc029ae3  # bne x5, x0, -44
    .word 0x1340006f  # jal x0, 308
    .word 0x00000a13  # addi x20, x0, 0
    .word 0x47000313  # addi x6, x0, 1136
    .word 0x00230333  # add x6, x6, x2
    .word 0x02000393  # addi x7, x0, 32
    .word 0x006383b3  # add x7, x7, x6
    .word 0x406382b3  # sub x5, x7, x6
    .word 0x00029463  # bne x5, x0, 8
    .word 0x0100006f  # jal x0, 16
    .word 0x00032023  # sw x0, 0(x6)
    .word 0x00430313  # addi x6, x6, 4
    .word 0xfedff06f  # jal x0, -20
    .word 0xfff00a93  # addi x21, x0, -1
    .word 0x001a8a93  # addi x21, x21, 1
    .word 0x002a9d93  # slli x27, x21, 2
    .word 0x002d8db3  # add x27, x27, x2
    .word 0x015802b3  # add x5, x16, x21
    .word 0x00229993  # slli x19, x5, 2
    .word 0x002989b3  # add x19, x19, x2
    .word 0x0609a983  # lw x19, 96(x19)
    .word 0x03898b33  # mul x22, x19, x24
    .word 0x0389b733  # mulhu x14, x19, x24
    .word 0x015882b3  # add x5, x17, x21
    .word 0x00229293  # slli x5, x5, 2
    .word 0x002282b3  # add x5, x5, x2
    .word 0x0602a283  # lw x5, 96(x5)
    .word 0x016289b3  # add x19, x5, x22
    .word 0x014982b3  # add x5, x19, x20
    .word 0x465da823  # sw x5, 1136(x27)
    .word 0x0169b333  # sltu x6, x19, x22
    .word 0x006702b3  # add x5, x14, x6
    .word 0x470da303  # lw x6, 1136(x27)
    .word 0x01433333  # sltu x6, x6, x20
    .word 0x00628a33  # add x20, x5, x6
    .word 0xff9a8293  # addi x5, x21, -7
    .word 0xfa0294e3  # bne x5, x0, -88
    .word 0x01300293  # addi x5, x0, 19
    .word 0x001a1313  # slli x6, x20, 1
    .word 0x48c12383  # lw x7, 1164(x2)
    .word 0x01f3d393  # srli x7, x7, 31
    .word 0x00736333  # or x6, x6, x7
    .word 0x026289b3  # mul x19, x5, x6
    .word 0x48c12283  # lw x5, 1164(x2)
    .word 0x0172f2b3  # and x5, x5, x23
    .word 0x48512623  # sw x5, 1164(x2)
    .word 0xfff00a93  # addi x21, x0, -1
    .word 0x001a8a93  # addi x21, x21, 1
    .word 0x002a9d93  # slli x27, x21, 2
    .word 0x002d8db3  # add x27, x27, x2
    .word 0x470da283  # lw x5, 1136(x27)
    .word 0x013282b3  # add x5, x5, x19
    .word 0x465da823  # sw x5, 1136(x27)
    .word 0x470da283  # lw x5, 1136(x27)
    .word 0x0132b9b3  # sltu x19, x5, x19
    .word 0xff9a8293  # addi x5, x21, -7
    .word 0xfc029ee3  # bne x5, x0, -36
    .word 0x47012283  # lw x5, 1136(x2)
    .word 0x01300313  # addi x6, x0, 19
    .word 0x48c12383  # lw x7, 1164(x2)
    .word 0x01f3d393  # srli x7, x7, 31
    .word 0x02730333  # mul x6, x6, x7
    .word 0x006282b3  # add x5, x5, x6
    .word 0x46512823  # sw x5, 1136(x2)
    .word 0x48c12283  # lw x5, 1164(x2)
    .word 0x0172f2b3  # and x5, x5, x23
    .word 0x48512623  # sw x5, 1164(x2)
    .word 0xfff00a93  # addi x21, x0, -1
    .word 0x001a8a93  # addi x21, x21, 1
    .word 0x002a9d93  # slli x27, x21, 2
    .word 0x002d8db3  # add x27, x27, x2
    .word 0x015682b3  # add x5, x13, x21
    .word 0x470da303  # lw x6, 1136(x27)
    .word 0x00229293  # slli x5, x5, 2
    .word 0x002282b3  # add x5, x5, x2
    .word 0x0662a023  # sw x6, 96(x5)
    .word 0xff9a8293  # addi x5, x21, -7
    .word 0xfc029ee3  # bne x5, x0, -36
    .word 0x00160613  # addi x12, x12, 1
    .word 0x4e812283  # lw x5, 1256(x2)
    .word 0x005632b3  # sltu x5, x12, x5
    .word 0x8e0298e3  # bne x5, x0, -1808
    .word 0xfff60613  # addi x12, x12, -1
    .word 0x0040006f  # jal x0, 4
    .word 0xf90ff06f  # jal x0, -2160
    .word 0x01300a13  # addi x20, x0, 19
    .word 0x00700a93  # addi x21, x0, 7
    .word 0x001a8a93  # addi x21, x21, 1
    .word 0x002a9d93  # slli x27, x21, 2
    .word 0x002d8db3  # add x27, x27, x2
    .word 0x060da283  # lw x5, 96(x27)
    .word 0x014282b3  # add x5, x5, x20
    .word 0x0142ba33  # sltu x20, x5, x20
    .word 0xff2a8293  # addi x5, x21, -14
    .word 0xfe0292e3  # bne x5, x0, -28
    .word 0x09c12283  # lw x5, 156(x2)
    .word 0x014282b3  # add x5, x5, x20
    .word 0x41f2d293  # srai x5, x5, 31
    .word 0x0132fa13  # andi x20, x5, 19
    .word 0xfff00813  # addi x16, x0, -1
    .word 0x00180813  # addi x16, x16, 1
    .word 0x00281d13  # slli x26, x16, 2
    .word 0x002d0d33  # add x26, x26, x2
    .word 0x080d2283  # lw x5, 128(x26)
    .word 0x014289b3  # add x19, x5, x20
    .word 0x0149ba33  # sltu x20, x19, x20
    .word 0xfff00a93  # addi x21, x0, -1
    .word 0x001a8a93  # addi x21, x21, 1
    .word 0x002a9d93  # slli x27, x21, 2
    .word 0x002d8db3  # add x27, x27, x2
    .word 0x00281293  # slli x5, x16, 2
    .word 0x015282b3  # add x5, x5, x21
    .word 0x003a9393  # slli x7, x21, 3
    .word 0x0079d333  # srl x6, x19, x7
    .word 0x002282b3  # add x5, x5, x2
    .word 0x04628023  # sb x6, 64(x5)
    .word 0xffda8293  # addi x5, x21, -3
    .word 0xfc029ce3  # bne x5, x0, -40
    .word 0xff980293  # addi x5, x16, -7
    .word 0xfa029ae3  # bne x5, x0, -76
    .word 0x05f14283  # lbu x5, 95(x2)
    .word 0x07f2f293  # andi x5, x5, 127
    .word 0x04510fa3  # sb x5, 95(x2)
    # the result
    .word 0x00000513  # addi x10, x0, 0
    # parameter 2: the array, back
    .word 0x04010293  # addi x5, x2, 64
    .word 0x53c12303  # lw x6, 1340(x2)
    .word 0x02028393  # addi x7, x5, 32
    .word 0x0002ce03  # lbu x28, 0(x5)
    .word 0x01c30023  # sb x28, 0(x6)
    .word 0x00128293  # addi x5, x5, 1
    .word 0x00130313  # addi x6, x6, 1
    .word 0xfe7298e3  # bne x5, x7, -16
    # above the frame
    .word 0x50010293  # addi x5, x2, 1280
    # the caller's registers
    .word 0x0002a403  # lw x8, 0(x5)
    .cfi_restore 8
    .word 0x0042a483  # lw x9, 4(x5)
    .cfi_restore 9
    .word 0x0082a903  # lw x18, 8(x5)
    .cfi_restore 18
    .word 0x00c2a983  # lw x19, 12(x5)
    .cfi_restore 19
    .word 0x0102aa03  # lw x20, 16(x5)
    .cfi_restore 20
    .word 0x0142aa83  # lw x21, 20(x5)
    .cfi_restore 21
    .word 0x0182ab03  # lw x22, 24(x5)
    .cfi_restore 22
    .word 0x01c2ab83  # lw x23, 28(x5)
    .cfi_restore 23
    .word 0x0202ac03  # lw x24, 32(x5)
    .cfi_restore 24
    .word 0x0242ac83  # lw x25, 36(x5)
    .cfi_restore 25
    .word 0x0282ad03  # lw x26, 40(x5)
    .cfi_restore 26
    .word 0x02c2ad83  # lw x27, 44(x5)
    .cfi_restore 27
    # the caller's x2
    .word 0x04028293  # addi x5, x5, 64
    .cfi_def_cfa 5, 0
    # on to the tail that functions share
    jal x0, factc.tail.1
    .cfi_endproc
    .size x25519, . - x25519
    .section .text.factc.tail.1, "axG", @progbits, factc.tail.1, comdat
    .p2align 2
    .globl factc.tail.1
    .hidden factc.tail.1
    .type factc.tail.1, @function
factc.tail.1:
    .cfi_startproc
    .cfi_def_cfa 5, 0
    # all the room, wiped upward
    .word 0x00012023  # sw x0, 0(x2)
    .word 0x00012223  # sw x0, 4(x2)
    .word 0x00012423  # sw x0, 8(x2)
    .word 0x00012623  # sw x0, 12(x2)
    .word 0x01010113  # addi x2, x2, 16
    .word 0xfe5116e3  # bne x2, x5, -20
    .cfi_def_cfa 2, 0
    # temporaries, wiped
    .word 0x00000293  # addi x5, x0, 0
    .word 0x00000313  # addi x6, x0, 0
    .word 0x00000393  # addi x7, x0, 0
    .word 0x00000593  # addi x11, x0, 0
    .word 0x00000613  # addi x12, x0, 0
    .word 0x00000693  # addi x13, x0, 0
    .word 0x00000713  # addi x14, x0, 0
    .word 0x00000793  # addi x15, x0, 0
    .word 0x00000813  # addi x16, x0, 0
    .word 0x00000893  # addi x17, x0, 0
    .word 0x00000e13  # addi x28, x0, 0
    .word 0x00000e93  # addi x29, x0, 0
    .word 0x00000f13  # addi x30, x0, 0
    .word 0x00000f93  # addi x31, x0, 0
    # back
    .word 0x00008067  # jalr x0, 0(x1)
    .cfi_endproc
    .size factc.tail.1, . - factc.tail.1
    .option pop
