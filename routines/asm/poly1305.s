# poly1305: made by factc 1.0.0 function; 766 words, 304 bytes of stack, profile 1
    .option push
    .option norvc
    .option norelax
    .cfi_sections .debug_frame
    .section .text.poly1305, "ax", @progbits
    .p2align 2
    .globl poly1305
    .type poly1305, @function
poly1305:
    .cfi_startproc
    # room above the frame
    .word 0xfc010113  # addi x2, x2, -64
    .cfi_def_cfa_offset 64
    # the caller's registers
    .word 0x00912023  # sw x9, 0(x2)
    .cfi_offset 9, -64
    .word 0x01212223  # sw x18, 4(x2)
    .cfi_offset 18, -60
    .word 0x01312423  # sw x19, 8(x2)
    .cfi_offset 19, -56
    .word 0x01412623  # sw x20, 12(x2)
    .cfi_offset 20, -52
    .word 0x01512823  # sw x21, 16(x2)
    .cfi_offset 21, -48
    .word 0x01612a23  # sw x22, 20(x2)
    .cfi_offset 22, -44
    .word 0x01712c23  # sw x23, 24(x2)
    .cfi_offset 23, -40
    .word 0x01812e23  # sw x24, 28(x2)
    .cfi_offset 24, -36
    .word 0x03912023  # sw x25, 32(x2)
    .cfi_offset 25, -32
    .word 0x03a12223  # sw x26, 36(x2)
    .cfi_offset 26, -28
    .word 0x03b12423  # sw x27, 40(x2)
    .cfi_offset 27, -24
    # arguments that are needed behind the body
    .word 0x02a12823  # sw x10, 48(x2)
    .word 0x02b12a23  # sw x11, 52(x2)
    .word 0x02c12c23  # sw x12, 56(x2)
    .word 0x02d12e23  # sw x13, 60(x2)
    # the frame's base
    .word 0xf1010113  # addi x2, x2, -240
    .cfi_def_cfa 2, 304
    # the frame's word at 216, zeroed
    .word 0x0c012c23  # sw x0, 216(x2)
    # the frame's word at 220, zeroed
    .word 0x0c012e23  # sw x0, 220(x2)
    # parameter 0: an array
    .word 0x00050293  # addi x5, x10, 0
    .word 0x00010313  # addi x6, x2, 0
    .word 0x02028393  # addi x7, x5, 32
    .word 0x34d00f6f  # jal x30, 2892
    # parameter 1: an array
    .word 0x00058293  # addi x5, x11, 0
    .word 0x02010313  # addi x6, x2, 32
    .word 0x04028393  # addi x7, x5, 64
    .word 0x33d00f6f  # jal x30, 2876
    # parameter 2: a word
    .word 0x06c12023  # sw x12, 96(x2)
    # the body
    .word 0x06012283  # lw x5, 96(x2)
    .word 0x0402b293  # sltiu x5, x5, 64
    .word 0x06012303  # lw x6, 96(x2)
    .word 0x04000393  # addi x7, x0, 64
    .word 0x405002b3  # sub x5, x0, x5
    .word 0x00734333  # xor x6, x6, x7
    .word 0x00537333  # and x6, x6, x5
    .word 0x0063c2b3  # xor x5, x7, x6
    .word 0x06512a23  # sw x5, 116(x2)
    .word 0x06012c23  # sw x0, 120(x2)
    .word 0x06012e23  # sw x0, 124(x2)
    .word 0x08012023  # sw x0, 128(x2)
    .word 0x08012223  # sw x0, 132(x2)
    .word 0x08012423  # sw x0, 136(x2)
    .word 0x08012623  # sw x0, 140(x2)
    .word 0x08012823  # sw x0, 144(x2)
    .word 0x08012a23  # sw x0, 148(x2)
    .word 0x08012c23  # sw x0, 152(x2)
    .word 0x08012e23  # sw x0, 156(x2)
    .word 0x0a012023  # sw x0, 160(x2)
    .word 0x0a012223  # sw x0, 164(x2)
    .word 0x0a012423  # sw x0, 168(x2)
    .word 0x0a012623  # sw x0, 172(x2)
    .word 0x0a012823  # sw x0, 176(x2)
    .word 0x0a012a23  # sw x0, 180(x2)
    .word 0x0a012c23  # sw x0, 184(x2)
    .word 0x07412283  # lw x5, 116(x2)
    .word 0x00400313  # addi x6, x0, 4
    .word 0x0262e863  # bltu x5, x6, 48
    .word 0x02014503  # lbu x10, 32(x2)
    .word 0x02114583  # lbu x11, 33(x2)
    .word 0x02214603  # lbu x12, 34(x2)
    .word 0x02314683  # lbu x13, 35(x2)
    .word 0x00859313  # slli x6, x11, 8
    .word 0x006562b3  # or x5, x10, x6
    .word 0x01061313  # slli x6, x12, 16
    .word 0x0062e2b3  # or x5, x5, x6
    .word 0x01869313  # slli x6, x13, 24
    .word 0x0062e2b3  # or x5, x5, x6
    .word 0x06512c23  # sw x5, 120(x2)
    .word 0x07412283  # lw x5, 116(x2)
    .word 0x00800313  # addi x6, x0, 8
    .word 0x0262e863  # bltu x5, x6, 48
    .word 0x02414503  # lbu x10, 36(x2)
    .word 0x02514583  # lbu x11, 37(x2)
    .word 0x02614603  # lbu x12, 38(x2)
    .word 0x02714683  # lbu x13, 39(x2)
    .word 0x00859313  # slli x6, x11, 8
    .word 0x006562b3  # or x5, x10, x6
    .word 0x01061313  # slli x6, x12, 16
    .word 0x0062e2b3  # or x5, x5, x6
    .word 0x01869313  # slli x6, x13, 24
    .word 0x0062e2b3  # or x5, x5, x6
    .word 0x06512e23  # sw x5, 124(x2)
    .word 0x07412283  # lw x5, 116(x2)
    .word 0x00c00313  # addi x6, x0, 12
    .word 0x0262e863  # bltu x5, x6, 48
    .word 0x02814503  # lbu x10, 40(x2)
    .word 0x02914583  # lbu x11, 41(x2)
    .word 0x02a14603  # lbu x12, 42(x2)
    .word 0x02b14683  # lbu x13, 43(x2)
    .word 0x00859313  # slli x6, x11, 8
    .word 0x006562b3  # or x5, x10, x6
    .word 0x01061313  # slli x6, x12, 16
    .word 0x0062e2b3  # or x5, x5, x6
    .word 0x01869313  # slli x6, x13, 24
    .word 0x0062e2b3  # or x5, x5, x6
    .word 0x08512023  # sw x5, 128(x2)
    .word 0x07412283  # lw x5, 116(x2)
    .word 0x01000313  # addi x6, x0, 16
    .word 0x0262e863  # bltu x5, x6, 48
    .word 0x02c14503  # lbu x10, 44(x2)
    .word 0x02d14583  # lbu x11, 45(x2)
    .word 0x02e14603  # lbu x12, 46(x2)
    .word 0x02f14683  # lbu x13, 47(x2)
    .word 0x00859313  # slli x6, x11, 8
    .word 0x006562b3  # or x5, x10, x6
    .word 0x01061313  # slli x6, x12, 16
    .word 0x0062e2b3  # or x5, x5, x6
    .word 0x01869313  # slli x6, x13, 24
    .word 0x0062e2b3  # or x5, x5, x6
    .word 0x08512223  # sw x5, 132(x2)
    .word 0x07412283  # lw x5, 116(x2)
    .word 0x01400313  # addi x6, x0, 20
    .word 0x0262e863  # bltu x5, x6, 48
    .word 0x03014503  # lbu x10, 48(x2)
    .word 0x03114583  # lbu x11, 49(x2)
    .word 0x03214603  # lbu x12, 50(x2)
    .word 0x03314683  # lbu x13, 51(x2)
    .word 0x00859313  # slli x6, x11, 8
    .word 0x006562b3  # or x5, x10, x6
    .word 0x01061313  # slli x6, x12, 16
    .word 0x0062e2b3  # or x5, x5, x6
    .word 0x01869313  # slli x6, x13, 24
    .word 0x0062e2b3  # or x5, x5, x6
    .word 0x08512423  # sw x5, 136(x2)
    .word 0x07412283  # lw x5, 116(x2)
    .word 0x01800313  # addi x6, x0, 24
    .word 0x0262e863  # bltu x5, x6, 48
    .word 0x03414503  # lbu x10, 52(x2)
    .word 0x03514583  # lbu x11, 53(x2)
    .word 0x03614603  # lbu x12, 54(x2)
    .word 0x03714683  # lbu x13, 55(x2)
    .word 0x00859313  # slli x6, x11, 8
    .word 0x006562b3  # or x5, x10, x6
    .word 0x01061313  # slli x6, x12, 16
    .word 0x0062e2b3  # or x5, x5, x6
    .word 0x01869313  # slli x6, x13, 24
    .word 0x0062e2b3  # or x5, x5, x6
    .word 0x08512623  # sw x5, 140(x2)
    .word 0x07412283  # lw x5, 116(x2)
    .word 0x01c00313  # addi x6, x0, 28
    .word 0x0262e863  # bltu x5, x6, 48
    .word 0x03814503  # lbu x10, 56(x2)
    .word 0x03914583  # lbu x11, 57(x2)
    .word 0x03a14603  # lbu x12, 58(x2)
    .word 0x03b14683  # lbu x13, 59(x2)
    .word 0x00859313  # slli x6, x11, 8
    .word 0x006562b3  # or x5, x10, x6
    .word 0x01061313  # slli x6, x12, 16
    .word 0x0062e2b3  # or x5, x5, x6
    .word 0x01869313  # slli x6, x13, 24
    .word 0x0062e2b3  # or x5, x5, x6
    .word 0x08512823  # sw x5, 144(x2)
    .word 0x07412283  # lw x5, 116(x2)
    .word 0x02000313  # addi x6, x0, 32
    .word 0x0262e863  # bltu x5, x6, 48
    .word 0x03c14503  # lbu x10, 60(x2)
    .word 0x03d14583  # lbu x11, 61(x2)
    .word 0x03e14603  # lbu x12, 62(x2)
    .word 0x03f14683  # lbu x13, 63(x2)
    .word 0x00859313  # slli x6, x11, 8
    .word 0x006562b3  # or x5, x10, x6
    .word 0x01061313  # slli x6, x12, 16
    .word 0x0062e2b3  # or x5, x5, x6
    .word 0x01869313  # slli x6, x13, 24
    .word 0x0062e2b3  # or x5, x5, x6
    .word 0x08512a23  # sw x5, 148(x2)
    .word 0x07412283  # lw x5, 116(x2)
    .word 0x02400313  # addi x6, x0, 36
    .word 0x0262e863  # bltu x5, x6, 48
    .word 0x04014503  # lbu x10, 64(x2)
    .word 0x04114583  # lbu x11, 65(x2)
    .word 0x04214603  # lbu x12, 66(x2)
    .word 0x04314683  # lbu x13, 67(x2)
    .word 0x00859313  # slli x6, x11, 8
    .word 0x006562b3  # or x5, x10, x6
    .word 0x01061313  # slli x6, x12, 16
    .word 0x0062e2b3  # or x5, x5, x6
    .word 0x01869313  # slli x6, x13, 24
    .word 0x0062e2b3  # or x5, x5, x6
    .word 0x08512c23  # sw x5, 152(x2)
    .word 0x07412283  # lw x5, 116(x2)
    .word 0x02800313  # addi x6, x0, 40
    .word 0x0262e863  # bltu x5, x6, 48
    .word 0x04414503  # lbu x10, 68(x2)
    .word 0x04514583  # lbu x11, 69(x2)
    .word 0x04614603  # lbu x12, 70(x2)
    .word 0x04714683  # lbu x13, 71(x2)
    .word 0x00859313  # slli x6, x11, 8
    .word 0x006562b3  # or x5, x10, x6
    .word 0x01061313  # slli x6, x12, 16
    .word 0x0062e2b3  # or x5, x5, x6
    .word 0x01869313  # slli x6, x13, 24
    .word 0x0062e2b3  # or x5, x5, x6
    .word 0x08512e23  # sw x5, 156(x2)
    .word 0x07412283  # lw x5, 116(x2)
    .word 0x02c00313  # addi x6, x0, 44
    .word 0x0262e863  # bltu x5, x6, 48
    .word 0x04814503  # lbu x10, 72(x2)
    .word 0x04914583  # lbu x11, 73(x2)
    .word 0x04a14603  # lbu x12, 74(x2)
    .word 0x04b14683  # lbu x13, 75(x2)
    .word 0x00859313  # slli x6, x11, 8
    .word 0x006562b3  # or x5, x10, x6
    .word 0x01061313  # slli x6, x12, 16
    .word 0x0062e2b3  # or x5, x5, x6
    .word 0x01869313  # slli x6, x13, 24
    .word 0x0062e2b3  # or x5, x5, x6
    .word 0x0a512023  # sw x5, 160(x2)
    .word 0x07412283  # lw x5, 116(x2)
    .word 0x03000313  # addi x6, x0, 48
    .word 0x0262e863  # bltu x5, x6, 48
    .word 0x04c14503  # lbu x10, 76(x2)
    .word 0x04d14583  # lbu x11, 77(x2)
    .word 0x04e14603  # lbu x12, 78(x2)
    .word 0x04f14683  # lbu x13, 79(x2)
    .word 0x00859313  # slli x6, x11, 8
    .word 0x006562b3  # or x5, x10, x6
    .word 0x01061313  # slli x6, x12, 16
    .word 0x0062e2b3  # or x5, x5, x6
    .word 0x01869313  # slli x6, x13, 24
    .word 0x0062e2b3  # or x5, x5, x6
    .word 0x0a512223  # sw x5, 164(x2)
    .word 0x07412283  # lw x5, 116(x2)
    .word 0x03400313  # addi x6, x0, 52
    .word 0x0262e863  # bltu x5, x6, 48
    .word 0x05014503  # lbu x10, 80(x2)
    .word 0x05114583  # lbu x11, 81(x2)
    .word 0x05214603  # lbu x12, 82(x2)
    .word 0x05314683  # lbu x13, 83(x2)
    .word 0x00859313  # slli x6, x11, 8
    .word 0x006562b3  # or x5, x10, x6
    .word 0x01061313  # slli x6, x12, 16
    .word 0x0062e2b3  # or x5, x5, x6
    .word 0x01869313  # slli x6, x13, 24
    .word 0x0062e2b3  # or x5, x5, x6
    .word 0x0a512423  # sw x5, 168(x2)
    .word 0x07412283  # lw x5, 116(x2)
    .word 0x03800313  # addi x6, x0, 56
    .word 0x0262e863  # bltu x5, x6, 48
    .word 0x05414503  # lbu x10, 84(x2)
    .word 0x05514583  # lbu x11, 85(x2)
    .word 0x05614603  # lbu x12, 86(x2)
    .word 0x05714683  # lbu x13, 87(x2)
    .word 0x00859313  # slli x6, x11, 8
    .word 0x006562b3  # or x5, x10, x6
    .word 0x01061313  # slli x6, x12, 16
    .word 0x0062e2b3  # or x5, x5, x6
    .word 0x01869313  # slli x6, x13, 24
    .word 0x0062e2b3  # or x5, x5, x6
    .word 0x0a512623  # sw x5, 172(x2)
    .word 0x07412283  # lw x5, 116(x2)
    .word 0x03c00313  # addi x6, x0, 60
    .word 0x0262e863  # bltu x5, x6, 48
    .word 0x05814503  # lbu x10, 88(x2)
    .word 0x05914583  # lbu x11, 89(x2)
    .word 0x05a14603  # lbu x12, 90(x2)
    .word 0x05b14683  # lbu x13, 91(x2)
    .word 0x00859313  # slli x6, x11, 8
    .word 0x006562b3  # or x5, x10, x6
    .word 0x01061313  # slli x6, x12, 16
    .word 0x0062e2b3  # or x5, x5, x6
    .word 0x01869313  # slli x6, x13, 24
    .word 0x0062e2b3  # or x5, x5, x6
    .word 0x0a512823  # sw x5, 176(x2)
    .word 0x07412283  # lw x5, 116(x2)
    .word 0x04000313  # addi x6, x0, 64
    .word 0x0262e863  # bltu x5, x6, 48
    .word 0x05c14503  # lbu x10, 92(x2)
    .word 0x05d14583  # lbu x11, 93(x2)
    .word 0x05e14603  # lbu x12, 94(x2)
    .word 0x05f14683  # lbu x13, 95(x2)
    .word 0x00859313  # slli x6, x11, 8
    .word 0x006562b3  # or x5, x10, x6
    .word 0x01061313  # slli x6, x12, 16
    .word 0x0062e2b3  # or x5, x5, x6
    .word 0x01869313  # slli x6, x13, 24
    .word 0x0062e2b3  # or x5, x5, x6
    .word 0x0a512a23  # sw x5, 180(x2)
    .word 0x00100d93  # addi x27, x0, 1
    .word 0x07412283  # lw x5, 116(x2)
    .word 0x0032f293  # andi x5, x5, 3
    .word 0x00507e63  # bgeu x0, x5, 28
    .word 0x07412283  # lw x5, 116(x2)
    .word 0xfff28293  # addi x5, x5, -1
    .word 0x03f2f293  # andi x5, x5, 63
    .word 0x002282b3  # add x5, x5, x2
    .word 0x0202c283  # lbu x5, 32(x5)
    .word 0x1002ed93  # ori x27, x5, 256
    .word 0x07412283  # lw x5, 116(x2)
    .word 0x0032f293  # andi x5, x5, 3
    .word 0x00100313  # addi x6, x0, 1
    .word 0x02537263  # bgeu x6, x5, 36
    .word 0x008d9293  # slli x5, x27, 8
    .word 0x07412303  # lw x6, 116(x2)
    .word 0xfff30313  # addi x6, x6, -1
    .word 0xfff30313  # addi x6, x6, -1
    .word 0x03f37313  # andi x6, x6, 63
    .word 0x00230333  # add x6, x6, x2
    .word 0x02034303  # lbu x6, 32(x6)
    .word 0x0062edb3  # or x27, x5, x6
    .word 0x07412283  # lw x5, 116(x2)
    .word 0x0032f293  # andi x5, x5, 3
    .word 0x00200313  # addi x6, x0, 2
    .word 0x02537263  # bgeu x6, x5, 36
    .word 0x008d9293  # slli x5, x27, 8
    .word 0x07412303  # lw x6, 116(x2)
    .word 0xffe30313  # addi x6, x6, -2
    .word 0xfff30313  # addi x6, x6, -1
    .word 0x03f37313  # andi x6, x6, 63
    .word 0x00230333  # add x6, x6, x2
    .word 0x02034303  # lbu x6, 32(x6)
    .word 0x0062edb3  # or x27, x5, x6
    .word 0x07412283  # lw x5, 116(x2)
    .word 0x0022d293  # srli x5, x5, 2
    .word 0x01100313  # addi x6, x0, 17
    .word 0x0262f2b3  # remu x5, x5, x6
    .word 0x00229293  # slli x5, x5, 2
    .word 0x002282b3  # add x5, x5, x2
    .word 0x07b2ac23  # sw x27, 120(x5)
    .word 0x00014503  # lbu x10, 0(x2)
    .word 0x00114583  # lbu x11, 1(x2)
    .word 0x00214603  # lbu x12, 2(x2)
    .word 0x00314683  # lbu x13, 3(x2)
    .word 0x00859313  # slli x6, x11, 8
    .word 0x006562b3  # or x5, x10, x6
    .word 0x01061313  # slli x6, x12, 16
    .word 0x0062e2b3  # or x5, x5, x6
    .word 0x01869313  # slli x6, x13, 24
    .word 0x0062edb3  # or x27, x5, x6
    .word 0x004d9293  # slli x5, x27, 4
    .word 0x0042d293  # srli x5, x5, 4
    .word 0x0c512023  # sw x5, 192(x2)
    .word 0x0c012803  # lw x16, 192(x2)
    .word 0x00414503  # lbu x10, 4(x2)
    .word 0x00514583  # lbu x11, 5(x2)
    .word 0x00614603  # lbu x12, 6(x2)
    .word 0x00714683  # lbu x13, 7(x2)
    .word 0x00859313  # slli x6, x11, 8
    .word 0x006562b3  # or x5, x10, x6
    .word 0x01061313  # slli x6, x12, 16
    .word 0x0062e2b3  # or x5, x5, x6
    .word 0x01869313  # slli x6, x13, 24
    .word 0x0062edb3  # or x27, x5, x6
    .word 0x10000337  # lui x6, 0x10000
    .word 0xffc30313  # addi x6, x6, -4
    .word 0x006dfdb3  # and x27, x27, x6
    .word 0x000d8893  # addi x17, x27, 0
    .word 0x002dd313  # srli x6, x27, 2
    .word 0x006d82b3  # add x5, x27, x6
    .word 0x0c512223  # sw x5, 196(x2)
    .word 0x00814503  # lbu x10, 8(x2)
    .word 0x00914583  # lbu x11, 9(x2)
    .word 0x00a14603  # lbu x12, 10(x2)
    .word 0x00b14683  # lbu x13, 11(x2)
    .word 0x00859313  # slli x6, x11, 8
    .word 0x006562b3  # or x5, x10, x6
    .word 0x01061313  # slli x6, x12, 16
    .word 0x0062e2b3  # or x5, x5, x6
    .word 0x01869313  # slli x6, x13, 24
    .word 0x0062edb3  # or x27, x5, x6
    .word 0x10000337  # lui x6, 0x10000
    .word 0xffc30313  # addi x6, x6, -4
    .word 0x006dfdb3  # and x27, x27, x6
    .word 0x0db12623  # sw x27, 204(x2)
    .word 0x002dd313  # srli x6, x27, 2
    .word 0x006d82b3  # add x5, x27, x6
    .word 0x0c512423  # sw x5, 200(x2)
    .word 0x00c14503  # lbu x10, 12(x2)
    .word 0x00d14583  # lbu x11, 13(x2)
    .word 0x00e14603  # lbu x12, 14(x2)
    .word 0x00f14683  # lbu x13, 15(x2)
    .word 0x00859313  # slli x6, x11, 8
    .word 0x006562b3  # or x5, x10, x6
    .word 0x01061313  # slli x6, x12, 16
    .word 0x0062e2b3  # or x5, x5, x6
    .word 0x01869313  # slli x6, x13, 24
    .word 0x0062edb3  # or x27, x5, x6
    .word 0x10000337  # lui x6, 0x10000
    .word 0xffc30313  # addi x6, x6, -4
    .word 0x006dfdb3  # and x27, x27, x6
    .word 0x0db12823  # sw x27, 208(x2)
    .word 0x002dd313  # srli x6, x27, 2
    .word 0x006d87b3  # add x15, x27, x6
    .word 0x00000913  # addi x18, x0, 0
    .word 0x00000993  # addi x19, x0, 0
    .word 0x00000a13  # addi x20, x0, 0
    .word 0x00000a93  # addi x21, x0, 0
    .word 0x00000d13  # addi x26, x0, 0
    .word 0xfff00713  # addi x14, x0, -1
    .word 0x00170713  # addi x14, x14, 1
    .word 0x00471293  # slli x5, x14, 4
    .word 0x07412303  # lw x6, 116(x2)
    .word 0x3462f863  # bgeu x5, x6, 848
    .word 0x00471293  # slli x5, x14, 4
    .word 0x01028293  # addi x5, x5, 16
    .word 0x07412303  # lw x6, 116(x2)
    .word 0x005332b3  # sltu x5, x6, x5
    .word 0x0012b293  # sltiu x5, x5, 1
    .word 0x0a512e23  # sw x5, 188(x2)
    .word 0x00271293  # slli x5, x14, 2
    .word 0x00229d93  # slli x27, x5, 2
    .word 0x002d8db3  # add x27, x27, x2
    .word 0x078dad83  # lw x27, 120(x27)
    .word 0x01bdb4b3  # sltu x9, x27, x27
    .word 0x012d8db3  # add x27, x27, x18
    .word 0x012db333  # sltu x6, x27, x18
    .word 0x006484b3  # add x9, x9, x6
    .word 0x000d8913  # addi x18, x27, 0
    .word 0x00048d93  # addi x27, x9, 0
    .word 0x00271293  # slli x5, x14, 2
    .word 0x00229493  # slli x9, x5, 2
    .word 0x002484b3  # add x9, x9, x2
    .word 0x07c4a483  # lw x9, 124(x9)
    .word 0x009d8db3  # add x27, x27, x9
    .word 0x009db4b3  # sltu x9, x27, x9
    .word 0x013d8db3  # add x27, x27, x19
    .word 0x013db333  # sltu x6, x27, x19
    .word 0x006484b3  # add x9, x9, x6
    .word 0x000d8993  # addi x19, x27, 0
    .word 0x00048d93  # addi x27, x9, 0
    .word 0x00271293  # slli x5, x14, 2
    .word 0x00229493  # slli x9, x5, 2
    .word 0x002484b3  # add x9, x9, x2
    .word 0x0804a483  # lw x9, 128(x9)
    .word 0x009d8db3  # add x27, x27, x9
    .word 0x009db4b3  # sltu x9, x27, x9
    .word 0x014d8db3  # add x27, x27, x20
    .word 0x014db333  # sltu x6, x27, x20
    .word 0x006484b3  # add x9, x9, x6
    .word 0x000d8a13  # addi x20, x27, 0
    .word 0x00048d93  # addi x27, x9, 0
    .word 0x00271293  # slli x5, x14, 2
    .word 0x00229493  # slli x9, x5, 2
    .word 0x002484b3  # add x9, x9, x2
    .word 0x0844a483  # lw x9, 132(x9)
    .word 0x009d8db3  # add x27, x27, x9
    .word 0x009db4b3  # sltu x9, x27, x9
    .word 0x015d8db3  # add x27, x27, x21
    .word 0x015db333  # sltu x6, x27, x21
    .word 0x006484b3  # add x9, x9, x6
    .word 0x000d8a93  # addi x21, x27, 0
    .word 0x00048d93  # addi x27, x9, 0
    .word 0x01bd02b3  # add x5, x26, x27
    .word 0x0bc12303  # lw x6, 188(x2)
    .word 0x00628d33  # add x26, x5, x6
    .word 0x00090b13  # addi x22, x18, 0
    .word 0x00098b93  # addi x23, x19, 0
    .word 0x000a0c13  # addi x24, x20, 0
    .word 0x000a8c93  # addi x25, x21, 0
    .word 0x0c012303  # lw x6, 192(x2)
    .word 0x02690db3  # mul x27, x18, x6
    .word 0x01bdb4b3  # sltu x9, x27, x27
    .word 0x0c012303  # lw x6, 192(x2)
    .word 0x02693933  # mulhu x18, x18, x6
    .word 0x012484b3  # add x9, x9, x18
    .word 0x02f98933  # mul x18, x19, x15
    .word 0x012d8db3  # add x27, x27, x18
    .word 0x012db333  # sltu x6, x27, x18
    .word 0x006484b3  # add x9, x9, x6
    .word 0x02f9b933  # mulhu x18, x19, x15
    .word 0x012484b3  # add x9, x9, x18
    .word 0x0c812303  # lw x6, 200(x2)
    .word 0x026a0933  # mul x18, x20, x6
    .word 0x012d8db3  # add x27, x27, x18
    .word 0x012db333  # sltu x6, x27, x18
    .word 0x006484b3  # add x9, x9, x6
    .word 0x0c812303  # lw x6, 200(x2)
    .word 0x026a3933  # mulhu x18, x20, x6
    .word 0x012484b3  # add x9, x9, x18
    .word 0x0c412303  # lw x6, 196(x2)
    .word 0x026a8933  # mul x18, x21, x6
    .word 0x012d8db3  # add x27, x27, x18
    .word 0x012db333  # sltu x6, x27, x18
    .word 0x006484b3  # add x9, x9, x6
    .word 0x0c412303  # lw x6, 196(x2)
    .word 0x026ab933  # mulhu x18, x21, x6
    .word 0x012484b3  # add x9, x9, x18
    .word 0x00000313  # addi x6, x0, 0
    .word 0x026d0933  # mul x18, x26, x6
    .word 0x012d8db3  # add x27, x27, x18
    .word 0x012db333  # sltu x6, x27, x18
    .word 0x006484b3  # add x9, x9, x6
    .word 0x000d8913  # addi x18, x27, 0
    .word 0x00048d93  # addi x27, x9, 0
    .word 0x031b04b3  # mul x9, x22, x17
    .word 0x009d8db3  # add x27, x27, x9
    .word 0x009db4b3  # sltu x9, x27, x9
    .word 0x031b39b3  # mulhu x19, x22, x17
    .word 0x013484b3  # add x9, x9, x19
    .word 0x030b89b3  # mul x19, x23, x16
    .word 0x013d8db3  # add x27, x27, x19
    .word 0x013db333  # sltu x6, x27, x19
    .word 0x006484b3  # add x9, x9, x6
    .word 0x030bb9b3  # mulhu x19, x23, x16
    .word 0x013484b3  # add x9, x9, x19
    .word 0x02fc09b3  # mul x19, x24, x15
    .word 0x013d8db3  # add x27, x27, x19
    .word 0x013db333  # sltu x6, x27, x19
    .word 0x006484b3  # add x9, x9, x6
    .word 0x02fc39b3  # mulhu x19, x24, x15
    .word 0x013484b3  # add x9, x9, x19
    .word 0x0c812303  # lw x6, 200(x2)
    .word 0x026c89b3  # mul x19, x25, x6
    .word 0x013d8db3  # add x27, x27, x19
    .word 0x013db333  # sltu x6, x27, x19
    .word 0x006484b3  # add x9, x9, x6
    .word 0x0c812303  # lw x6, 200(x2)
    .word 0x026cb9b3  # mulhu x19, x25, x6
    .word 0x013484b3  # add x9, x9, x19
    .word 0x0c412303  # lw x6, 196(x2)
    .word 0x026d09b3  # mul x19, x26, x6
    .word 0x013d8db3  # add x27, x27, x19
    .word 0x013db333  # sltu x6, x27, x19
    .word 0x006484b3  # add x9, x9, x6
    .word 0x000d8993  # addi x19, x27, 0
    .word 0x00048d93  # addi x27, x9, 0
    .word 0x0cc12303  # lw x6, 204(x2)
    .word 0x026b04b3  # mul x9, x22, x6
    .word 0x009d8db3  # add x27, x27, x9
    .word 0x009db4b3  # sltu x9, x27, x9
    .word 0x0cc12303  # lw x6, 204(x2)
    .word 0x026b3a33  # mulhu x20, x22, x6
    .word 0x014484b3  # add x9, x9, x20
    .word 0x031b8a33  # mul x20, x23, x17
    .word 0x014d8db3  # add x27, x27, x20
    .word 0x014db333  # sltu x6, x27, x20
    .word 0x006484b3  # add x9, x9, x6
    .word 0x031bba33  # mulhu x20, x23, x17
    .word 0x014484b3  # add x9, x9, x20
    .word 0x030c0a33  # mul x20, x24, x16
    .word 0x014d8db3  # add x27, x27, x20
    .word 0x014db333  # sltu x6, x27, x20
    .word 0x006484b3  # add x9, x9, x6
    .word 0x030c3a33  # mulhu x20, x24, x16
    .word 0x014484b3  # add x9, x9, x20
    .word 0x02fc8a33  # mul x20, x25, x15
    .word 0x014d8db3  # add x27, x27, x20
    .word 0x014db333  # sltu x6, x27, x20
    .word 0x006484b3  # add x9, x9, x6
    .word 0x02fcba33  # mulhu x20, x25, x15
    .word 0x014484b3  # add x9, x9, x20
    .word 0x0c812303  # lw x6, 200(x2)
    .word 0x026d0a33  # mul x20, x26, x6
    .word 0x014d8db3  # add x27, x27, x20
    .word 0x014db333  # sltu x6, x27, x20
    .word 0x006484b3  # add x9, x9, x6
    .word 0x000d8a13  # addi x20, x27, 0
    .word 0x00048d93  # addi x27, x9, 0
    .word 0x0d012303  # lw x6, 208(x2)
    .word 0x026b04b3  # mul x9, x22, x6
    .word 0x009d8db3  # add x27, x27, x9
    .word 0x009db4b3  # sltu x9, x27, x9
    .word 0x0d012303  # lw x6, 208(x2)
    .word 0x026b3ab3  # mulhu x21, x22, x6
    .word 0x015484b3  # add x9, x9, x21
    .word 0x0cc12303  # lw x6, 204(x2)
    .word 0x026b8ab3  # mul x21, x23, x6
    .word 0x015d8db3  # add x27, x27, x21
    .word 0x015db333  # sltu x6, x27, x21
    .word 0x006484b3  # add x9, x9, x6
    .word 0x0cc12303  # lw x6, 204(x2)
    .word 0x026bbab3  # mulhu x21, x23, x6
    .word 0x015484b3  # add x9, x9, x21
    .word 0x031c0ab3  # mul x21, x24, x17
    .word 0x015d8db3  # add x27, x27, x21
    .word 0x015db333  # sltu x6, x27, x21
    .word 0x006484b3  # add x9, x9, x6
    .word 0x031c3ab3  # mulhu x21, x24, x17
    .word 0x015484b3  # add x9, x9, x21
    .word 0x030c8ab3  # mul x21, x25, x16
    .word 0x015d8db3  # add x27, x27, x21
    .word 0x015db333  # sltu x6, x27, x21
    .word 0x006484b3  # add x9, x9, x6
    .word 0x030cbab3  # mulhu x21, x25, x16
    .word 0x015484b3  # add x9, x9, x21
    .word 0x02fd0ab3  # mul x21, x26, x15
    .word 0x015d8db3  # add x27, x27, x21
    .word 0x015db333  # sltu x6, x27, x21
    .word 0x006484b3  # add x9, x9, x6
    .word 0x000d8a93  # addi x21, x27, 0
    .word 0x00048d93  # addi x27, x9, 0
    .word 0x030d0333  # mul x6, x26, x16
    .word 0x006d8b33  # add x22, x27, x6
    .word 0xffcb7293  # andi x5, x22, -4
    .word 0x002b5313  # srli x6, x22, 2
    .word 0x00628db3  # add x27, x5, x6
    .word 0x012d8db3  # add x27, x27, x18
    .word 0x012db4b3  # sltu x9, x27, x18
    .word 0x000d8913  # addi x18, x27, 0
    .word 0x00048d93  # addi x27, x9, 0
    .word 0x013d8db3  # add x27, x27, x19
    .word 0x013db4b3  # sltu x9, x27, x19
    .word 0x000d8993  # addi x19, x27, 0
    .word 0x00048d93  # addi x27, x9, 0
    .word 0x014d8db3  # add x27, x27, x20
    .word 0x014db4b3  # sltu x9, x27, x20
    .word 0x000d8a13  # addi x20, x27, 0
    .word 0x00048d93  # addi x27, x9, 0
    .word 0x015d8db3  # add x27, x27, x21
    .word 0x015db4b3  # sltu x9, x27, x21
    .word 0x000d8a93  # addi x21, x27, 0
    .word 0x00048d93  # addi x27, x9, 0
    .word 0x003b7293  # andi x5, x22, 3
    .word 0x01b28d33  # add x26, x5, x27
    .word 0xffd70293  # addi x5, x14, -3
    .word 0xca0290e3  # bne x5, x0, -864
    .word 0x00590d93  # addi x27, x18, 5
    .word 0x012db4b3  # sltu x9, x27, x18
    .word 0x000d8793  # addi x15, x27, 0
    .word 0x00048d93  # addi x27, x9, 0
    .word 0x013d8db3  # add x27, x27, x19
    .word 0x013db4b3  # sltu x9, x27, x19
    .word 0x000d8813  # addi x16, x27, 0
    .word 0x00048d93  # addi x27, x9, 0
    .word 0x014d8db3  # add x27, x27, x20
    .word 0x014db4b3  # sltu x9, x27, x20
    .word 0x000d8b13  # addi x22, x27, 0
    .word 0x00048d93  # addi x27, x9, 0
    .word 0x015d8db3  # add x27, x27, x21
    .word 0x015db4b3  # sltu x9, x27, x21
    .word 0x000d8b93  # addi x23, x27, 0
    .word 0x00048d93  # addi x27, x9, 0
    .word 0x01bd02b3  # add x5, x26, x27
    .word 0x0042b293  # sltiu x5, x5, 4
    .word 0x0012b293  # sltiu x5, x5, 1
    .word 0x405003b3  # sub x7, x0, x5
    .word 0x0c712c23  # sw x7, 216(x2)
    .word 0x0d812383  # lw x7, 216(x2)
    .word 0x0127c2b3  # xor x5, x15, x18
    .word 0x0072f2b3  # and x5, x5, x7
    .word 0x00594933  # xor x18, x18, x5
    .word 0x0d812383  # lw x7, 216(x2)
    .word 0x013842b3  # xor x5, x16, x19
    .word 0x0072f2b3  # and x5, x5, x7
    .word 0x0059c9b3  # xor x19, x19, x5
    .word 0x0d812383  # lw x7, 216(x2)
    .word 0x014b42b3  # xor x5, x22, x20
    .word 0x0072f2b3  # and x5, x5, x7
    .word 0x005a4a33  # xor x20, x20, x5
    .word 0x0d812383  # lw x7, 216(x2)
    .word 0x015bc2b3  # xor x5, x23, x21
    .word 0x0072f2b3  # and x5, x5, x7
    .word 0x005acab3  # xor x21, x21, x5
    .word 0x01014503  # lbu x10, 16(x2)
    .word 0x01114583  # lbu x11, 17(x2)
    .word 0x01214603  # lbu x12, 18(x2)
    .word 0x01314683  # lbu x13, 19(x2)
    .word 0x00859313  # slli x6, x11, 8
    .word 0x006562b3  # or x5, x10, x6
    .word 0x01061313  # slli x6, x12, 16
    .word 0x0062e2b3  # or x5, x5, x6
    .word 0x01869313  # slli x6, x13, 24
    .word 0x0062e7b3  # or x15, x5, x6
    .word 0x012934b3  # sltu x9, x18, x18
    .word 0x00f90db3  # add x27, x18, x15
    .word 0x00fdb333  # sltu x6, x27, x15
    .word 0x006484b3  # add x9, x9, x6
    .word 0x07b12223  # sw x27, 100(x2)
    .word 0x00048d93  # addi x27, x9, 0
    .word 0x01414503  # lbu x10, 20(x2)
    .word 0x01514583  # lbu x11, 21(x2)
    .word 0x01614603  # lbu x12, 22(x2)
    .word 0x01714683  # lbu x13, 23(x2)
    .word 0x00859313  # slli x6, x11, 8
    .word 0x006562b3  # or x5, x10, x6
    .word 0x01061313  # slli x6, x12, 16
    .word 0x0062e2b3  # or x5, x5, x6
    .word 0x01869313  # slli x6, x13, 24
    .word 0x0062e933  # or x18, x5, x6
    .word 0x013d8db3  # add x27, x27, x19
    .word 0x013db4b3  # sltu x9, x27, x19
    .word 0x012d8db3  # add x27, x27, x18
    .word 0x012db333  # sltu x6, x27, x18
    .word 0x006484b3  # add x9, x9, x6
    .word 0x07b12423  # sw x27, 104(x2)
    .word 0x00048d93  # addi x27, x9, 0
    .word 0x01814503  # lbu x10, 24(x2)
    .word 0x01914583  # lbu x11, 25(x2)
    .word 0x01a14603  # lbu x12, 26(x2)
    .word 0x01b14683  # lbu x13, 27(x2)
    .word 0x00859313  # slli x6, x11, 8
    .word 0x006562b3  # or x5, x10, x6
    .word 0x01061313  # slli x6, x12, 16
    .word 0x0062e2b3  # or x5, x5, x6
    .word 0x01869313  # slli x6, x13, 24
    .word 0x0062e933  # or x18, x5, x6
    .word 0x014d8db3  # add x27, x27, x20
    .word 0x014db4b3  # sltu x9, x27, x20
    .word 0x012d8db3  # add x27, x27, x18
    .word 0x012db333  # sltu x6, x27, x18
    .word 0x006484b3  # add x9, x9, x6
    .word 0x07b12623  # sw x27, 108(x2)
    .word 0x00048d93  # addi x27, x9, 0
    .word 0x01c14503  # lbu x10, 28(x2)
    .word 0x01d14583  # lbu x11, 29(x2)
    .word 0x01e14603  # lbu x12, 30(x2)
    .word 0x01f14683  # lbu x13, 31(x2)
    .word 0x00859313  # slli x6, x11, 8
    .word 0x006562b3  # or x5, x10, x6
    .word 0x01061313  # slli x6, x12, 16
    .word 0x0062e2b3  # or x5, x5, x6
    .word 0x01869313  # slli x6, x13, 24
    .word 0x0062e4b3  # or x9, x5, x6
    .word 0x015d8db3  # add x27, x27, x21
    .word 0x009d8db3  # add x27, x27, x9
    .word 0x07b12823  # sw x27, 112(x2)
    # the result
    .word 0x00000513  # addi x10, x0, 0
    # parameter 3: the array, back
    .word 0x06410293  # addi x5, x2, 100
    .word 0x12c12303  # lw x6, 300(x2)
    .word 0x01028393  # addi x7, x5, 16
    .word 0x08c00f6f  # jal x30, 140
    # above the frame
    .word 0x0f010293  # addi x5, x2, 240
    # the caller's registers
    .word 0x0002a483  # lw x9, 0(x5)
    .cfi_restore 9
    .word 0x0042a903  # lw x18, 4(x5)
    .cfi_restore 18
    .word 0x0082a983  # lw x19, 8(x5)
    .cfi_restore 19
    .word 0x00c2aa03  # lw x20, 12(x5)
    .cfi_restore 20
    .word 0x0102aa83  # lw x21, 16(x5)
    .cfi_restore 21
    .word 0x0142ab03  # lw x22, 20(x5)
    .cfi_restore 22
    .word 0x0182ab83  # lw x23, 24(x5)
    .cfi_restore 23
    .word 0x01c2ac03  # lw x24, 28(x5)
    .cfi_restore 24
    .word 0x0202ac83  # lw x25, 32(x5)
    .cfi_restore 25
    .word 0x0242ad03  # lw x26, 36(x5)
    .cfi_restore 26
    .word 0x0282ad83  # lw x27, 40(x5)
    .cfi_restore 27
    # the caller's x2
    .word 0x04028293  # addi x5, x5, 64
    .cfi_def_cfa 5, 0
    # all the room, wiped upward
    .word 0x00012023  # sw x0, 0(x2)
    .word 0x00012223  # sw x0, 4(x2)
    .word 0x00012423  # sw x0, 8(x2)
    .word 0x00012623  # sw x0, 12(x2)
    .word 0x01010113  # addi x2, x2, 16
    .word 0xfe5116e3  # bne x2, x5, -20
    .cfi_def_cfa 2, 0
    # temporaries, wiped
    .word 0x00000293  # addi x5, x0, 0
    .word 0x00000313  # addi x6, x0, 0
    .word 0x00000393  # addi x7, x0, 0
    .word 0x00000593  # addi x11, x0, 0
    .word 0x00000613  # addi x12, x0, 0
    .word 0x00000693  # addi x13, x0, 0
    .word 0x00000713  # addi x14, x0, 0
    .word 0x00000793  # addi x15, x0, 0
    .word 0x00000813  # addi x16, x0, 0
    .word 0x00000893  # addi x17, x0, 0
    .word 0x00000e13  # addi x28, x0, 0
    .word 0x00000e93  # addi x29, x0, 0
    .word 0x00000f13  # addi x30, x0, 0
    .word 0x00000f93  # addi x31, x0, 0
    # back
    .word 0x00008067  # jalr x0, 0(x1)
    # from x5 to x6 up to x7, and back
    .cfi_def_cfa 2, 304
    .cfi_offset 9, -64
    .cfi_offset 18, -60
    .cfi_offset 19, -56
    .cfi_offset 20, -52
    .cfi_offset 21, -48
    .cfi_offset 22, -44
    .cfi_offset 23, -40
    .cfi_offset 24, -36
    .cfi_offset 25, -32
    .cfi_offset 26, -28
    .cfi_offset 27, -24
    .word 0x0062ee33  # or x28, x5, x6
    .word 0x003e7e13  # andi x28, x28, 3
    .word 0x000e0e63  # beq x28, x0, 28
    .word 0x0002ce03  # lbu x28, 0(x5)
    .word 0x01c30023  # sb x28, 0(x6)
    .word 0x00128293  # addi x5, x5, 1
    .word 0x00130313  # addi x6, x6, 1
    .word 0xfe7298e3  # bne x5, x7, -16
    .word 0x0300006f  # jal x0, 48
    .word 0x0002ae03  # lw x28, 0(x5)
    .word 0x01c32023  # sw x28, 0(x6)
    .word 0x0042ae03  # lw x28, 4(x5)
    .word 0x01c32223  # sw x28, 4(x6)
    .word 0x0082ae03  # lw x28, 8(x5)
    .word 0x01c32423  # sw x28, 8(x6)
    .word 0x00c2ae03  # lw x28, 12(x5)
    .word 0x01c32623  # sw x28, 12(x6)
    .word 0x01028293  # addi x5, x5, 16
    .word 0x01030313  # addi x6, x6, 16
    .word 0xfc729ce3  # bne x5, x7, -40
    .word 0x000f0067  # jalr x0, 0(x30)
    .cfi_endproc
    .size poly1305, . - poly1305
    .option pop
