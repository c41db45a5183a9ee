# x25519_step: made by factc 1.0.0 function; 692 words and 21 shared, 1040 bytes of stack, profile 1
    .option push
    .option norvc
    .option norelax
    .cfi_sections .debug_frame
    .section .text.x25519_step, "ax", @progbits
    .p2align 2
    .globl x25519_step
    .type x25519_step, @function
x25519_step:
    .cfi_startproc
    # room above the frame
    .word 0xfc010113  # addi x2, x2, -64
    .cfi_def_cfa_offset 64
    # the caller's registers
    .word 0x01212023  # sw x18, 0(x2)
    .cfi_offset 18, -64
    .word 0x01312223  # sw x19, 4(x2)
    .cfi_offset 19, -60
    .word 0x01412423  # sw x20, 8(x2)
    .cfi_offset 20, -56
    .word 0x01512623  # sw x21, 12(x2)
    .cfi_offset 21, -52
    .word 0x01612823  # sw x22, 16(x2)
    .cfi_offset 22, -48
    .word 0x01712a23  # sw x23, 20(x2)
    .cfi_offset 23, -44
    .word 0x01812c23  # sw x24, 24(x2)
    .cfi_offset 24, -40
    .word 0x01912e23  # sw x25, 28(x2)
    .cfi_offset 25, -36
    .word 0x03a12023  # sw x26, 32(x2)
    .cfi_offset 26, -32
    .word 0x03b12223  # sw x27, 36(x2)
    .cfi_offset 27, -28
    # arguments that are needed behind the body
    .word 0x02a12a23  # sw x10, 52(x2)
    .word 0x02b12c23  # sw x11, 56(x2)
    .word 0x02c12e23  # sw x12, 60(x2)
    # the frame's base
    .word 0xc3010113  # addi x2, x2, -976
    .cfi_def_cfa 2, 1040
    # parameter 0: a word
    .word 0x00a03533  # sltu x10, x0, x10
    .word 0x00a12023  # sw x10, 0(x2)
    # parameter 1: an array
    .word 0x00058293  # addi x5, x11, 0
    .word 0x00410313  # addi x6, x2, 4
    .word 0x02028393  # addi x7, x5, 32
    .word 0x0002ae03  # lw x28, 0(x5)
    .word 0x01c32023  # sw x28, 0(x6)
    .word 0x00428293  # addi x5, x5, 4
    .word 0x00430313  # addi x6, x6, 4
    .word 0xfe7298e3  # bne x5, x7, -16
    # parameter 2: an array
    .word 0x00060293  # addi x5, x12, 0
    .word 0x02410313  # addi x6, x2, 36
    .word 0x08028393  # addi x7, x5, 128
    .word 0x0002ae03  # lw x28, 0(x5)
    .word 0x01c32023  # sw x28, 0(x6)
    .word 0x00428293  # addi x5, x5, 4
    .word 0x00430313  # addi x6, x6, 4
    .word 0xfe7298e3  # bne x5, x7, -16
    # the body
    .word 0x80000b37  # lui x22, 0x80000
    .word 0xfffb0b13  # addi x22, x22, -1
    .word 0x0001ebb7  # lui x23, 0x0001e
    .word 0xb41b8b93  # addi x23, x23, -1215
    .word 0x0a400313  # addi x6, x0, 164
    .word 0x00230333  # add x6, x6, x2
    .word 0x20000393  # addi x7, x0, 512
    .word 0x006383b3  # add x7, x7, x6
    .word 0x406382b3  # sub x5, x7, x6
    .word 0x00029463  # bne x5, x0, 8
    .word 0x0100006f  # jal x0, 16
    .word 0x00032023  # sw x0, 0(x6)
    .word 0x00430313  # addi x6, x6, 4
    .word 0xfedff06f  # jal x0, -20
    .word 0x2a400313  # addi x6, x0, 676
    .word 0x00230333  # add x6, x6, x2
    .word 0x02000393  # addi x7, x0, 32
    .word 0x006383b3  # add x7, x7, x6
    .word 0x406382b3  # sub x5, x7, x6
    .word 0x00029463  # bne x5, x0, 8
    .word 0x0100006f  # jal x0, 16
    .word 0x00032023  # sw x0, 0(x6)
    .word 0x00430313  # addi x6, x6, 4
    .word 0xfedff06f  # jal x0, -20
    .word 0x000012b7  # lui x5, 0x00001
    .word 0x51228293  # addi x5, x5, 1298
    .word 0x2c511223  # sh x5, 708(x2)
    .word 0x000022b7  # lui x5, 0x00002
    .word 0x61228293  # addi x5, x5, 1554
    .word 0x2c511323  # sh x5, 710(x2)
    .word 0x000012b7  # lui x5, 0x00001
    .word 0x73428293  # addi x5, x5, 1844
    .word 0x2c511423  # sh x5, 712(x2)
    .word 0x000032b7  # lui x5, 0x00003
    .word 0x83428293  # addi x5, x5, -1996
    .word 0x2c511523  # sh x5, 714(x2)
    .word 0x000012b7  # lui x5, 0x00001
    .word 0x88528293  # addi x5, x5, -1915
    .word 0x2c511623  # sh x5, 716(x2)
    .word 0x77600293  # addi x5, x0, 1910
    .word 0x2c511723  # sh x5, 718(x2)
    .word 0x55500293  # addi x5, x0, 1365
    .word 0x2c511823  # sh x5, 720(x2)
    .word 0x66600293  # addi x5, x0, 1638
    .word 0x2c511923  # sh x5, 722(x2)
    .word 0x000012b7  # lui x5, 0x00001
    .word 0x38728293  # addi x5, x5, 903
    .word 0x2c511a23  # sh x5, 724(x2)
    .word 0x33300293  # addi x5, x0, 819
    .word 0x2c511b23  # sh x5, 726(x2)
    .word 0x000022b7  # lui x5, 0x00002
    .word 0x48728293  # addi x5, x5, 1159
    .word 0x2c511c23  # sh x5, 728(x2)
    .word 0x44400293  # addi x5, x0, 1092
    .word 0x2c511d23  # sh x5, 730(x2)
    .word 0x40400293  # addi x5, x0, 1028
    .word 0x2c511e23  # sh x5, 732(x2)
    .word 0x15600293  # addi x5, x0, 342
    .word 0x2c511f23  # sh x5, 734(x2)
    .word 0x000022b7  # lui x5, 0x00002
    .word 0x25628293  # addi x5, x5, 598
    .word 0x2e511023  # sh x5, 736(x2)
    .word 0x000032b7  # lui x5, 0x00003
    .word 0x52528293  # addi x5, x5, 1317
    .word 0x2e511123  # sh x5, 738(x2)
    .word 0x22500293  # addi x5, x0, 549
    .word 0x2e511223  # sh x5, 740(x2)
    .word 0xfff00a13  # addi x20, x0, -1
    .word 0x001a0a13  # addi x20, x20, 1
    .word 0x002a1d93  # slli x27, x20, 2
    .word 0x002d8db3  # add x27, x27, x2
    .word 0x004da283  # lw x5, 4(x27)
    .word 0x0a5da223  # sw x5, 164(x27)
    .word 0xff9a0293  # addi x5, x20, -7
    .word 0xfe0294e3  # bne x5, x0, -24
    .word 0xfff00513  # addi x10, x0, -1
    .word 0x00150513  # addi x10, x10, 1
    .word 0x00251c13  # slli x24, x10, 2
    .word 0x002c0c33  # add x24, x24, x2
    .word 0x024c2283  # lw x5, 36(x24)
    .word 0x0c5c2223  # sw x5, 196(x24)
    .word 0xfe150293  # addi x5, x10, -31
    .word 0xfe0294e3  # bne x5, x0, -24
    .word 0x00012983  # lw x19, 0(x2)
    .word 0x00700593  # addi x11, x0, 7
    .word 0x00158593  # addi x11, x11, 1
    .word 0x00259c93  # slli x25, x11, 2
    .word 0x002c8cb3  # add x25, x25, x2
    .word 0x413002b3  # sub x5, x0, x19
    .word 0x0a4ca303  # lw x6, 164(x25)
    .word 0x0e4ca383  # lw x7, 228(x25)
    .word 0x00734333  # xor x6, x6, x7
    .word 0x0062f933  # and x18, x5, x6
    .word 0x0a4ca283  # lw x5, 164(x25)
    .word 0x0122c2b3  # xor x5, x5, x18
    .word 0x0a5ca223  # sw x5, 164(x25)
    .word 0x0e4ca283  # lw x5, 228(x25)
    .word 0x0122c2b3  # xor x5, x5, x18
    .word 0x0e5ca223  # sw x5, 228(x25)
    .word 0xfe958293  # addi x5, x11, -23
    .word 0xfc0292e3  # bne x5, x0, -60
    .word 0xfff00513  # addi x10, x0, -1
    .word 0x00150513  # addi x10, x10, 1
    .word 0x00251c13  # slli x24, x10, 2
    .word 0x002c0c33  # add x24, x24, x2
    .word 0x00151813  # slli x16, x10, 1
    .word 0x00280833  # add x16, x16, x2
    .word 0x2c485803  # lhu x16, 708(x16)
    .word 0x00c85a13  # srli x20, x16, 12
    .word 0x002a1d93  # slli x27, x20, 2
    .word 0x002d8db3  # add x27, x27, x2
    .word 0x00585293  # srli x5, x16, 5
    .word 0x0782f613  # andi x12, x5, 120
    .word 0x00185293  # srli x5, x16, 1
    .word 0x0782f793  # andi x15, x5, 120
    .word 0x00279d13  # slli x26, x15, 2
    .word 0x002d0d33  # add x26, x26, x2
    .word 0x00381293  # slli x5, x16, 3
    .word 0x0782f813  # andi x16, x5, 120
    .word 0x400a1263  # bne x20, x0, 1028
    .word 0x2e800313  # addi x6, x0, 744
    .word 0x00230333  # add x6, x6, x2
    .word 0x02400393  # addi x7, x0, 36
    .word 0x006383b3  # add x7, x7, x6
    .word 0x406382b3  # sub x5, x7, x6
    .word 0x00029463  # bne x5, x0, 8
    .word 0x0100006f  # jal x0, 16
    .word 0x00032023  # sw x0, 0(x6)
    .word 0x00430313  # addi x6, x6, 4
    .word 0xfedff06f  # jal x0, -20
    .word 0x30c00313  # addi x6, x0, 780
    .word 0x00230333  # add x6, x6, x2
    .word 0x02000393  # addi x7, x0, 32
    .word 0x006383b3  # add x7, x7, x6
    .word 0x406382b3  # sub x5, x7, x6
    .word 0x00029463  # bne x5, x0, 8
    .word 0x0100006f  # jal x0, 16
    .word 0x00032023  # sw x0, 0(x6)
    .word 0x00430313  # addi x6, x6, 4
    .word 0xfedff06f  # jal x0, -20
    .word 0xfff00a13  # addi x20, x0, -1
    .word 0x001a0a13  # addi x20, x20, 1
    .word 0x002a1d93  # slli x27, x20, 2
    .word 0x002d8db3  # add x27, x27, x2
    .word 0x014782b3  # add x5, x15, x20
    .word 0x00229293  # slli x5, x5, 2
    .word 0x002282b3  # add x5, x5, x2
    .word 0x0a42a283  # lw x5, 164(x5)
    .word 0x305da623  # sw x5, 780(x27)
    .word 0xff9a0293  # addi x5, x20, -7
    .word 0xfc029ee3  # bne x5, x0, -36
    .word 0x1d079c63  # bne x15, x16, 472
    .word 0x01300293  # addi x5, x0, 19
    .word 0x32812303  # lw x6, 808(x2)
    .word 0x01f35313  # srli x6, x6, 31
    .word 0x02628933  # mul x18, x5, x6
    .word 0x32812283  # lw x5, 808(x2)
    .word 0x0162f2b3  # and x5, x5, x22
    .word 0x32512423  # sw x5, 808(x2)
    .word 0xfff00a13  # addi x20, x0, -1
    .word 0x001a0a13  # addi x20, x20, 1
    .word 0x002a1d93  # slli x27, x20, 2
    .word 0x002d8db3  # add x27, x27, x2
    .word 0x30cda283  # lw x5, 780(x27)
    .word 0x012282b3  # add x5, x5, x18
    .word 0x305da623  # sw x5, 780(x27)
    .word 0x30cda283  # lw x5, 780(x27)
    .word 0x0122b933  # sltu x18, x5, x18
    .word 0xff9a0293  # addi x5, x20, -7
    .word 0xfc029ee3  # bne x5, x0, -36
    .word 0x30c12283  # lw x5, 780(x2)
    .word 0x01300313  # addi x6, x0, 19
    .word 0x32812383  # lw x7, 808(x2)
    .word 0x01f3d393  # srli x7, x7, 31
    .word 0x02730333  # mul x6, x6, x7
    .word 0x006282b3  # add x5, x5, x6
    .word 0x30512623  # sw x5, 780(x2)
    .word 0x32812283  # lw x5, 808(x2)
    .word 0x0162f2b3  # and x5, x5, x22
    .word 0x32512423  # sw x5, 808(x2)
    .word 0x32c00313  # addi x6, x0, 812
    .word 0x00230333  # add x6, x6, x2
    .word 0x02000393  # addi x7, x0, 32
    .word 0x006383b3  # add x7, x7, x6
    .word 0x406382b3  # sub x5, x7, x6
    .word 0x00029463  # bne x5, x0, 8
    .word 0x0100006f  # jal x0, 16
    .word 0x00032023  # sw x0, 0(x6)
    .word 0x00430313  # addi x6, x6, 4
    .word 0xfedff06f  # jal x0, -20
    .word 0x00000a13  # addi x20, x0, 0
    .word 0x001a0a13  # addi x20, x20, 1
    .word 0x002a1d93  # slli x27, x20, 2
    .word 0x002d8db3  # add x27, x27, x2
    .word 0x30cda283  # lw x5, 780(x27)
    .word 0x00129293  # slli x5, x5, 1
    .word 0x308da303  # lw x6, 776(x27)
    .word 0x01f35313  # srli x6, x6, 31
    .word 0x0062e2b3  # or x5, x5, x6
    .word 0x325da623  # sw x5, 812(x27)
    .word 0xff9a0293  # addi x5, x20, -7
    .word 0xfc029ce3  # bne x5, x0, -40
    .word 0x00000a93  # addi x21, x0, 0
    .word 0x00000693  # addi x13, x0, 0
    .word 0x00000713  # addi x14, x0, 0
    .word 0xfff00793  # addi x15, x0, -1
    .word 0x00178793  # addi x15, x15, 1
    .word 0x00279d13  # slli x26, x15, 2
    .word 0x002d0d33  # add x26, x26, x2
    .word 0xfff00a13  # addi x20, x0, -1
    .word 0x001a0a13  # addi x20, x20, 1
    .word 0x002a1d93  # slli x27, x20, 2
    .word 0x002d8db3  # add x27, x27, x2
    .word 0x0017d293  # srli x5, x15, 1
    .word 0x41428833  # sub x16, x5, x20
    .word 0x00883293  # sltiu x5, x16, 8
    .word 0x41078333  # sub x6, x15, x16
    .word 0x00833313  # sltiu x6, x6, 8
    .word 0x0062f2b3  # and x5, x5, x6
    .word 0x06028c63  # beq x5, x0, 120
    .word 0x00787293  # andi x5, x16, 7
    .word 0x00229913  # slli x18, x5, 2
    .word 0x00290933  # add x18, x18, x2
    .word 0x30c92903  # lw x18, 780(x18)
    .word 0x001a3293  # sltiu x5, x20, 1
    .word 0x41078333  # sub x6, x15, x16
    .word 0x00737313  # andi x6, x6, 7
    .word 0x00231313  # slli x6, x6, 2
    .word 0x00230333  # add x6, x6, x2
    .word 0x30c32303  # lw x6, 780(x6)
    .word 0x0017f393  # andi x7, x15, 1
    .word 0x00731333  # sll x6, x6, x7
    .word 0x410783b3  # sub x7, x15, x16
    .word 0x0073f393  # andi x7, x7, 7
    .word 0x00239393  # slli x7, x7, 2
    .word 0x002383b3  # add x7, x7, x2
    .word 0x32c3a383  # lw x7, 812(x7)
    .word 0x405002b3  # sub x5, x0, x5
    .word 0x00734333  # xor x6, x6, x7
    .word 0x00537333  # and x6, x6, x5
    .word 0x0063c9b3  # xor x19, x7, x6
    .word 0x033908b3  # mul x17, x18, x19
    .word 0x03393933  # mulhu x18, x18, x19
    .word 0x011a8ab3  # add x21, x21, x17
    .word 0x011ab333  # sltu x6, x21, x17
    .word 0x00690933  # add x18, x18, x6
    .word 0x012686b3  # add x13, x13, x18
    .word 0x0126b333  # sltu x6, x13, x18
    .word 0x00670733  # add x14, x14, x6
    .word 0xffda0293  # addi x5, x20, -3
    .word 0xf60290e3  # bne x5, x0, -160
    .word 0x00800313  # addi x6, x0, 8
    .word 0x0067fc63  # bgeu x15, x6, 24
    .word 0x0077f293  # andi x5, x15, 7
    .word 0x00229293  # slli x5, x5, 2
    .word 0x002282b3  # add x5, x5, x2
    .word 0x2b52a223  # sw x21, 676(x5)
    .word 0x0140006f  # jal x0, 20
    .word 0x0077f293  # andi x5, x15, 7
    .word 0x00229293  # slli x5, x5, 2
    .word 0x002282b3  # add x5, x5, x2
    .word 0x2f52a623  # sw x21, 748(x5)
    .word 0x00068a93  # addi x21, x13, 0
    .word 0x00070693  # addi x13, x14, 0
    .word 0x00000713  # addi x14, x0, 0
    .word 0xff278293  # addi x5, x15, -14
    .word 0xf00298e3  # bne x5, x0, -240
    .word 0x31512423  # sw x21, 776(x2)
    .word 0x0b00006f  # jal x0, 176
    .word 0xfff00a13  # addi x20, x0, -1
    .word 0x001a0a13  # addi x20, x20, 1
    .word 0x002a1d93  # slli x27, x20, 2
    .word 0x002d8db3  # add x27, x27, x2
    .word 0x30cda283  # lw x5, 780(x27)
    .word 0x2a5da223  # sw x5, 676(x27)
    .word 0xff9a0293  # addi x5, x20, -7
    .word 0xfe0294e3  # bne x5, x0, -24
    .word 0xfff00793  # addi x15, x0, -1
    .word 0x00178793  # addi x15, x15, 1
    .word 0x00279d13  # slli x26, x15, 2
    .word 0x002d0d33  # add x26, x26, x2
    .word 0x2a4d2683  # lw x13, 676(x26)
    .word 0x00000993  # addi x19, x0, 0
    .word 0xfff00a13  # addi x20, x0, -1
    .word 0x001a0a13  # addi x20, x20, 1
    .word 0x002a1d93  # slli x27, x20, 2
    .word 0x002d8db3  # add x27, x27, x2
    .word 0x014802b3  # add x5, x16, x20
    .word 0x00229913  # slli x18, x5, 2
    .word 0x00290933  # add x18, x18, x2
    .word 0x0a492903  # lw x18, 164(x18)
    .word 0x03268ab3  # mul x21, x13, x18
    .word 0x0326b8b3  # mulhu x17, x13, x18
    .word 0x2ecda283  # lw x5, 748(x27)
    .word 0x01528933  # add x18, x5, x21
    .word 0x000a1a63  # bne x20, x0, 20
    .word 0x2b2d2223  # sw x18, 676(x26)
    .word 0x01593333  # sltu x6, x18, x21
    .word 0x006889b3  # add x19, x17, x6
    .word 0x0200006f  # jal x0, 32
    .word 0x013902b3  # add x5, x18, x19
    .word 0x2e5da423  # sw x5, 744(x27)
    .word 0x01593333  # sltu x6, x18, x21
    .word 0x006882b3  # add x5, x17, x6
    .word 0x2e8da303  # lw x6, 744(x27)
    .word 0x01333333  # sltu x6, x6, x19
    .word 0x006289b3  # add x19, x5, x6
    .word 0xff9a0293  # addi x5, x20, -7
    .word 0xfa0290e3  # bne x5, x0, -96
    .word 0x31312423  # sw x19, 776(x2)
    .word 0xff978293  # addi x5, x15, -7
    .word 0xf6029ee3  # bne x5, x0, -132
    .word 0x00000913  # addi x18, x0, 0
    .word 0xfff00a13  # addi x20, x0, -1
    .word 0x001a0a13  # addi x20, x20, 1
    .word 0x002a1d93  # slli x27, x20, 2
    .word 0x002d8db3  # add x27, x27, x2
    .word 0x2ecda283  # lw x5, 748(x27)
    .word 0x02600313  # addi x6, x0, 38
    .word 0x026289b3  # mul x19, x5, x6
    .word 0x2ecdaa83  # lw x21, 748(x27)
    .word 0x02600313  # addi x6, x0, 38
    .word 0x026ab6b3  # mulhu x13, x21, x6
    .word 0x2a4da283  # lw x5, 676(x27)
    .word 0x01328ab3  # add x21, x5, x19
    .word 0x012a82b3  # add x5, x21, x18
    .word 0x305da623  # sw x5, 780(x27)
    .word 0x013ab333  # sltu x6, x21, x19
    .word 0x006682b3  # add x5, x13, x6
    .word 0x30cda303  # lw x6, 780(x27)
    .word 0x01233333  # sltu x6, x6, x18
    .word 0x00628933  # add x18, x5, x6
    .word 0xff9a0293  # addi x5, x20, -7
    .word 0xfa029ae3  # bne x5, x0, -76
    .word 0x01300293  # addi x5, x0, 19
    .word 0x00191313  # slli x6, x18, 1
    .word 0x32812383  # lw x7, 808(x2)
    .word 0x01f3d393  # srli x7, x7, 31
    .word 0x00736333  # or x6, x6, x7
    .word 0x02628933  # mul x18, x5, x6
    .word 0x32812283  # lw x5, 808(x2)
    .word 0x0162f2b3  # and x5, x5, x22
    .word 0x32512423  # sw x5, 808(x2)
    .word 0xfff00a13  # addi x20, x0, -1
    .word 0x001a0a13  # addi x20, x20, 1
    .word 0x002a1d93  # slli x27, x20, 2
    .word 0x002d8db3  # add x27, x27, x2
    .word 0x30cda283  # lw x5, 780(x27)
    .word 0x012282b3  # add x5, x5, x18
    .word 0x305da623  # sw x5, 780(x27)
    .word 0x30cda283  # lw x5, 780(x27)
    .word 0x0122b933  # sltu x18, x5, x18
    .word 0xff9a0293  # addi x5, x20, -7
    .word 0xfc029ee3  # bne x5, x0, -36
    .word 0x30c12283  # lw x5, 780(x2)
    .word 0x01300313  # addi x6, x0, 19
    .word 0x32812383  # lw x7, 808(x2)
    .word 0x01f3d393  # srli x7, x7, 31
    .word 0x02730333  # mul x6, x6, x7
    .word 0x006282b3  # add x5, x5, x6
    .word 0x30512623  # sw x5, 780(x2)
    .word 0x32812283  # lw x5, 808(x2)
    .word 0x0162f2b3  # and x5, x5, x22
    .word 0x32512423  # sw x5, 808(x2)
    .word 0xfff00a13  # addi x20, x0, -1
    .word 0x001a0a13  # addi x20, x20, 1
    .word 0x002a1d93  # slli x27, x20, 2
    .word 0x002d8db3  # add x27, x27, x2
    .word 0x014602b3  # add x5, x12, x20
    .word 0x30cda303  # lw x6, 780(x27)
    .word 0x00229293  # slli x5, x5, 2
    .word 0x002282b3  # add x5, x5, x2
    .word 0x0a62a223  # sw x6, 164(x5)
    .word 0xff9a0293  # addi x5, x20, -7
    .word 0xfc029ee3  # bne x5, x0, -36
    .word 0x3280006f  # jal x0, 808
    .word 0x00100313  # addi x6, x0, 1
    .word 0x126a1663  # bne x20, x6, 300
    .word 0x00000913  # addi x18, x0, 0
    .word 0x34c00313  # addi x6, x0, 844
    .word 0x00230333  # add x6, x6, x2
    .word 0x02000393  # addi x7, x0, 32
    .word 0x006383b3  # add x7, x7, x6
    .word 0x406382b3  # sub x5, x7, x6
    .word 0x00029463  # bne x5, x0, 8
    .word 0x0100006f  # jal x0, 16
    .word 0x00032023  # sw x0, 0(x6)
    .word 0x00430313  # addi x6, x6, 4
    .word 0xfedff06f  # jal x0, -20
    .word 0xfff00a13  # addi x20, x0, -1
    .word 0x001a0a13  # addi x20, x20, 1
    .word 0x002a1d93  # slli x27, x20, 2
    .word 0x002d8db3  # add x27, x27, x2
    .word 0x014782b3  # add x5, x15, x20
    .word 0x00229993  # slli x19, x5, 2
    .word 0x002989b3  # add x19, x19, x2
    .word 0x0a49a983  # lw x19, 164(x19)
    .word 0x01480333  # add x6, x16, x20
    .word 0x00231313  # slli x6, x6, 2
    .word 0x00230333  # add x6, x6, x2
    .word 0x0a432303  # lw x6, 164(x6)
    .word 0x00698ab3  # add x21, x19, x6
    .word 0x012a82b3  # add x5, x21, x18
    .word 0x345da623  # sw x5, 844(x27)
    .word 0x013ab2b3  # sltu x5, x21, x19
    .word 0x34cda303  # lw x6, 844(x27)
    .word 0x01233333  # sltu x6, x6, x18
    .word 0x00628933  # add x18, x5, x6
    .word 0xff9a0293  # addi x5, x20, -7
    .word 0xfa029ae3  # bne x5, x0, -76
    .word 0x01300293  # addi x5, x0, 19
    .word 0x00191313  # slli x6, x18, 1
    .word 0x36812383  # lw x7, 872(x2)
    .word 0x01f3d393  # srli x7, x7, 31
    .word 0x00736333  # or x6, x6, x7
    .word 0x02628933  # mul x18, x5, x6
    .word 0x36812283  # lw x5, 872(x2)
    .word 0x0162f2b3  # and x5, x5, x22
    .word 0x36512423  # sw x5, 872(x2)
    .word 0xfff00a13  # addi x20, x0, -1
    .word 0x001a0a13  # addi x20, x20, 1
    .word 0x002a1d93  # slli x27, x20, 2
    .word 0x002d8db3  # add x27, x27, x2
    .word 0x34cda283  # lw x5, 844(x27)
    .word 0x012282b3  # add x5, x5, x18
    .word 0x345da623  # sw x5, 844(x27)
    .word 0x34cda283  # lw x5, 844(x27)
    .word 0x0122b933  # sltu x18, x5, x18
    .word 0xff9a0293  # addi x5, x20, -7
    .word 0xfc029ee3  # bne x5, x0, -36
    .word 0x34c12283  # lw x5, 844(x2)
    .word 0x01300313  # addi x6, x0, 19
    .word 0x36812383  # lw x7, 872(x2)
    .word 0x01f3d393  # srli x7, x7, 31
    .word 0x02730333  # mul x6, x6, x7
    .word 0x006282b3  # add x5, x5, x6
    .word 0x34512623  # sw x5, 844(x2)
    .word 0x36812283  # lw x5, 872(x2)
    .word 0x0162f2b3  # and x5, x5, x22
    .word 0x36512423  # sw x5, 872(x2)
    .word 0xfff00a13  # addi x20, x0, -1
    .word 0x001a0a13  # addi x20, x20, 1
    .word 0x002a1d93  # slli x27, x20, 2
    .word 0x002d8db3  # add x27, x27, x2
    .word 0x014602b3  # add x5, x12, x20
    .word 0x34cda303  # lw x6, 844(x27)
    .word 0x00229293  # slli x5, x5, 2
    .word 0x002282b3  # add x5, x5, x2
    .word 0x0a62a223  # sw x6, 164(x5)
    .word 0xff9a0293  # addi x5, x20, -7
    .word 0xfc029ee3  # bne x5, x0, -36
    .word 0x1f80006f  # jal x0, 504
    .word 0x00200313  # addi x6, x0, 2
    .word 0x0c6a1063  # bne x20, x6, 192
    .word 0x00000913  # addi x18, x0, 0
    .word 0x36c00313  # addi x6, x0, 876
    .word 0x00230333  # add x6, x6, x2
    .word 0x02000393  # addi x7, x0, 32
    .word 0x006383b3  # add x7, x7, x6
    .word 0x406382b3  # sub x5, x7, x6
    .word 0x00029463  # bne x5, x0, 8
    .word 0x0100006f  # jal x0, 16
    .word 0x00032023  # sw x0, 0(x6)
    .word 0x00430313  # addi x6, x6, 4
    .word 0xfedff06f  # jal x0, -20
    .word 0xfff00a13  # addi x20, x0, -1
    .word 0x001a0a13  # addi x20, x20, 1
    .word 0x002a1d93  # slli x27, x20, 2
    .word 0x002d8db3  # add x27, x27, x2
    .word 0x014782b3  # add x5, x15, x20
    .word 0x00229993  # slli x19, x5, 2
    .word 0x002989b3  # add x19, x19, x2
    .word 0x0a49a983  # lw x19, 164(x19)
    .word 0x014802b3  # add x5, x16, x20
    .word 0x00229a93  # slli x21, x5, 2
    .word 0x002a8ab3  # add x21, x21, x2
    .word 0x0a4aaa83  # lw x21, 164(x21)
    .word 0x415986b3  # sub x13, x19, x21
    .word 0x412682b3  # sub x5, x13, x18
    .word 0x365da623  # sw x5, 876(x27)
    .word 0x0159b2b3  # sltu x5, x19, x21
    .word 0x0126b333  # sltu x6, x13, x18
    .word 0x00628933  # add x18, x5, x6
    .word 0xff9a0293  # addi x5, x20, -7
    .word 0xfa029ce3  # bne x5, x0, -72
    .word 0x02600293  # addi x5, x0, 38
    .word 0x03228933  # mul x18, x5, x18
    .word 0xfff00a13  # addi x20, x0, -1
    .word 0x001a0a13  # addi x20, x20, 1
    .word 0x002a1d93  # slli x27, x20, 2
    .word 0x002d8db3  # add x27, x27, x2
    .word 0x36cda983  # lw x19, 876(x27)
    .word 0x014602b3  # add x5, x12, x20
    .word 0x41298333  # sub x6, x19, x18
    .word 0x00229293  # slli x5, x5, 2
    .word 0x002282b3  # add x5, x5, x2
    .word 0x0a62a223  # sw x6, 164(x5)
    .word 0x0129b933  # sltu x18, x19, x18
    .word 0xff9a0293  # addi x5, x20, -7
    .word 0xfc029ae3  # bne x5, x0, -44
    .word 0x1340006f  # jal x0, 308
    .word 0x00000993  # addi x19, x0, 0
    .word 0x38c00313  # addi x6, x0, 908
    .word 0x00230333  # add x6, x6, x2
    .word 0x02000393  # addi x7, x0, 32
    .word 0x006383b3  # add x7, x7, x6
    .word 0x406382b3  # sub x5, x7, x6
    .word 0x00029463  # bne x5, x0, 8
    .word 0x0100006f  # jal x0, 16
    .word 0x00032023  # sw x0, 0(x6)
    .word 0x00430313  # addi x6, x6, 4
    .word 0xfedff06f  # jal x0, -20
    .word 0xfff00a13  # addi x20, x0, -1
    .word 0x001a0a13  # addi x20, x20, 1
    .word 0x002a1d93  # slli x27, x20, 2
    .word 0x002d8db3  # add x27, x27, x2
    .word 0x014782b3  # add x5, x15, x20
    .word 0x00229913  # slli x18, x5, 2
    .word 0x00290933  # add x18, x18, x2
    .word 0x0a492903  # lw x18, 164(x18)
    .word 0x03790ab3  # mul x21, x18, x23
    .word 0x037936b3  # mulhu x13, x18, x23
    .word 0x014802b3  # add x5, x16, x20
    .word 0x00229293  # slli x5, x5, 2
    .word 0x002282b3  # add x5, x5, x2
    .word 0x0a42a283  # lw x5, 164(x5)
    .word 0x01528933  # add x18, x5, x21
    .word 0x013902b3  # add x5, x18, x19
    .word 0x385da623  # sw x5, 908(x27)
    .word 0x01593333  # sltu x6, x18, x21
    .word 0x006682b3  # add x5, x13, x6
    .word 0x38cda303  # lw x6, 908(x27)
    .word 0x01333333  # sltu x6, x6, x19
    .word 0x006289b3  # add x19, x5, x6
    .word 0xff9a0293  # addi x5, x20, -7
    .word 0xfa0294e3  # bne x5, x0, -88
    .word 0x01300293  # addi x5, x0, 19
    .word 0x00199313  # slli x6, x19, 1
    .word 0x3a812383  # lw x7, 936(x2)
    .word 0x01f3d393  # srli x7, x7, 31
    .word 0x00736333  # or x6, x6, x7
    .word 0x02628933  # mul x18, x5, x6
    .word 0x3a812283  # lw x5, 936(x2)
    .word 0x0162f2b3  # and x5, x5, x22
    .word 0x3a512423  # sw x5, 936(x2)
    .word 0xfff00a13  # addi x20, x0, -1
    .word 0x001a0a13  # addi x20, x20, 1
    .word 0x002a1d93  # slli x27, x20, 2
    .word 0x002d8db3  # add x27, x27, x2
    .word 0x38cda283  # lw x5, 908(x27)
    .word 0x012282b3  # add x5, x5, x18
    .word 0x385da623  # sw x5, 908(x27)
    .word 0x38cda283  # lw x5, 908(x27)
    .word 0x0122b933  # sltu x18, x5, x18
    .word 0xff9a0293  # addi x5, x20, -7
    .word 0xfc029ee3  # bne x5, x0, -36
    .word 0x38c12283  # lw x5, 908(x2)
    .word 0x01300313  # addi x6, x0, 19
    .word 0x3a812383  # lw x7, 936(x2)
    .word 0x01f3d393  # srli x7, x7, 31
    .word 0x02730333  # mul x6, x6, x7
    .word 0x006282b3  # add x5, x5, x6
    .word 0x38512623  # sw x5, 908(x2)
    .word 0x3a812283  # lw x5, 936(x2)
    .word 0x0162f2b3  # and x5, x5, x22
    .word 0x3a512423  # sw x5, 936(x2)
    .word 0xfff00a13  # addi x20, x0, -1
    .word 0x001a0a13  # addi x20, x20, 1
    .word 0x002a1d93  # slli x27, x20, 2
    .word 0x002d8db3  # add x27, x27, x2
    .word 0x014602b3  # add x5, x12, x20
    .word 0x38cda303  # lw x6, 908(x27)
    .word 0x00229293  # slli x5, x5, 2
    .word 0x002282b3  # add x5, x5, x2
    .word 0x0a62a223  # sw x6, 164(x5)
    .word 0xff9a0293  # addi x5, x20, -7
    .word 0xfc029ee3  # bne x5, x0, -36
    .word 0xff050293  # addi x5, x10, -16
    .word 0x880298e3  # bne x5, x0, -1904
    .word 0xfff00793  # addi x15, x0, -1
    .word 0x00178793  # addi x15, x15, 1
    .word 0x00279d13  # slli x26, x15, 2
    .word 0x002d0d33  # add x26, x26, x2
    .word 0x00379293  # slli x5, x15, 3
    .word 0x00828813  # addi x16, x5, 8
    .word 0x01300913  # addi x18, x0, 19
    .word 0xfff00a13  # addi x20, x0, -1
    .word 0x001a0a13  # addi x20, x20, 1
    .word 0x002a1d93  # slli x27, x20, 2
    .word 0x002d8db3  # add x27, x27, x2
    .word 0x014802b3  # add x5, x16, x20
    .word 0x00229293  # slli x5, x5, 2
    .word 0x002282b3  # add x5, x5, x2
    .word 0x0a42a283  # lw x5, 164(x5)
    .word 0x012282b3  # add x5, x5, x18
    .word 0x0122b933  # sltu x18, x5, x18
    .word 0xffaa0293  # addi x5, x20, -6
    .word 0xfc029ce3  # bne x5, x0, -40
    .word 0x00281293  # slli x5, x16, 2
    .word 0x002282b3  # add x5, x5, x2
    .word 0x0c02a283  # lw x5, 192(x5)
    .word 0x012282b3  # add x5, x5, x18
    .word 0x41f2d293  # srai x5, x5, 31
    .word 0x0132f913  # andi x18, x5, 19
    .word 0xfff00a13  # addi x20, x0, -1
    .word 0x001a0a13  # addi x20, x20, 1
    .word 0x002a1d93  # slli x27, x20, 2
    .word 0x002d8db3  # add x27, x27, x2
    .word 0x014802b3  # add x5, x16, x20
    .word 0x00229293  # slli x5, x5, 2
    .word 0x002282b3  # add x5, x5, x2
    .word 0x0a42a283  # lw x5, 164(x5)
    .word 0x012289b3  # add x19, x5, x18
    .word 0x0129b933  # sltu x18, x19, x18
    .word 0x014802b3  # add x5, x16, x20
    .word 0x00229293  # slli x5, x5, 2
    .word 0x002282b3  # add x5, x5, x2
    .word 0x0b32a223  # sw x19, 164(x5)
    .word 0xff9a0293  # addi x5, x20, -7
    .word 0xfc0294e3  # bne x5, x0, -56
    .word 0x00281313  # slli x6, x16, 2
    .word 0x00230333  # add x6, x6, x2
    .word 0x0c032303  # lw x6, 192(x6)
    .word 0x01637333  # and x6, x6, x22
    .word 0x00281293  # slli x5, x16, 2
    .word 0x002282b3  # add x5, x5, x2
    .word 0x0c62a023  # sw x6, 192(x5)
    .word 0xffd78293  # addi x5, x15, -3
    .word 0xf40290e3  # bne x5, x0, -192
    .word 0xfff00513  # addi x10, x0, -1
    .word 0x00150513  # addi x10, x10, 1
    .word 0x00251c13  # slli x24, x10, 2
    .word 0x002c0c33  # add x24, x24, x2
    .word 0x0c4c2283  # lw x5, 196(x24)
    .word 0x025c2223  # sw x5, 36(x24)
    .word 0xfe150293  # addi x5, x10, -31
    .word 0xfe0294e3  # bne x5, x0, -24
    # the result
    .word 0x00000513  # addi x10, x0, 0
    # parameter 2: the array, back
    .word 0x02410293  # addi x5, x2, 36
    .word 0x40c12303  # lw x6, 1036(x2)
    .word 0x08028393  # addi x7, x5, 128
    .word 0x0002ae03  # lw x28, 0(x5)
    .word 0x01c32023  # sw x28, 0(x6)
    .word 0x00428293  # addi x5, x5, 4
    .word 0x00430313  # addi x6, x6, 4
    .word 0xfe7298e3  # bne x5, x7, -16
    # above the frame
    .word 0x3d010293  # addi x5, x2, 976
    # the caller's registers
    .word 0x0002a903  # lw x18, 0(x5)
    .cfi_restore 18
    .word 0x0042a983  # lw x19, 4(x5)
    .cfi_restore 19
    .word 0x0082aa03  # lw x20, 8(x5)
    .cfi_restore 20
    .word 0x00c2aa83  # lw x21, 12(x5)
    .cfi_restore 21
    .word 0x0102ab03  # lw x22, 16(x5)
    .cfi_restore 22
    .word 0x0142ab83  # lw x23, 20(x5)
    .cfi_restore 23
    .word 0x0182ac03  # lw x24, 24(x5)
    .cfi_restore 24
    .word 0x01c2ac83  # lw x25, 28(x5)
    .cfi_restore 25
    .word 0x0202ad03  # lw x26, 32(x5)
    .cfi_restore 26
    .word 0x0242ad83  # lw x27, 36(x5)
    .cfi_restore 27
    # the caller's x2
    .word 0x04028293  # addi x5, x5, 64
    .cfi_def_cfa 5, 0
    # on to the tail that functions share
    jal x0, factc.tail.1
    .cfi_endproc
    .size x25519_step, . - x25519_step
    .section .text.factc.tail.1, "axG", @progbits, factc.tail.1, comdat
    .p2align 2
    .globl factc.tail.1
    .hidden factc.tail.1
    .type factc.tail.1, @function
factc.tail.1:
    .cfi_startproc
    .cfi_def_cfa 5, 0
    # all the room, wiped upward
    .word 0x00012023  # sw x0, 0(x2)
    .word 0x00012223  # sw x0, 4(x2)
    .word 0x00012423  # sw x0, 8(x2)
    .word 0x00012623  # sw x0, 12(x2)
    .word 0x01010113  # addi x2, x2, 16
    .word 0xfe5116e3  # bne x2, x5, -20
    .cfi_def_cfa 2, 0
    # temporaries, wiped
    .word 0x00000293  # addi x5, x0, 0
    .word 0x00000313  # addi x6, x0, 0
    .word 0x00000393  # addi x7, x0, 0
    .word 0x00000593  # addi x11, x0, 0
    .word 0x00000613  # addi x12, x0, 0
    .word 0x00000693  # addi x13, x0, 0
    .word 0x00000713  # addi x14, x0, 0
    .word 0x00000793  # addi x15, x0, 0
    .word 0x00000813  # addi x16, x0, 0
    .word 0x00000893  # addi x17, x0, 0
    .word 0x00000e13  # addi x28, x0, 0
    .word 0x00000e93  # addi x29, x0, 0
    .word 0x00000f13  # addi x30, x0, 0
    .word 0x00000f93  # addi x31, x0, 0
    # back
    .word 0x00008067  # jalr x0, 0(x1)
    .cfi_endproc
    .size factc.tail.1, . - factc.tail.1
    .option pop
