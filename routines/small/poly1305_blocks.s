# poly1305_blocks: made by factc 1.0.0 function; 425 words and 21 shared, 544 bytes of stack, profile 1
    .option push
    .option norvc
    .option norelax
    .cfi_sections .debug_frame
    .section .text.poly1305_blocks, "ax", @progbits
    .p2align 2
    .globl poly1305_blocks
    .type poly1305_blocks, @function
poly1305_blocks:
    .cfi_startproc
    # room above the frame
    .word 0xfc010113  # addi x2, x2, -64
    .cfi_def_cfa_offset 64
    # the caller's registers
    .word 0x00812023  # sw x8, 0(x2)
    .cfi_offset 8, -64
    .word 0x01212223  # sw x18, 4(x2)
    .cfi_offset 18, -60
    .word 0x01312423  # sw x19, 8(x2)
    .cfi_offset 19, -56
    .word 0x01412623  # sw x20, 12(x2)
    .cfi_offset 20, -52
    .word 0x01512823  # sw x21, 16(x2)
    .cfi_offset 21, -48
    .word 0x01612a23  # sw x22, 20(x2)
    .cfi_offset 22, -44
    .word 0x01712c23  # sw x23, 24(x2)
    .cfi_offset 23, -40
    .word 0x01812e23  # sw x24, 28(x2)
    .cfi_offset 24, -36
    .word 0x03912023  # sw x25, 32(x2)
    .cfi_offset 25, -32
    .word 0x03a12223  # sw x26, 36(x2)
    .cfi_offset 26, -28
    .word 0x03b12423  # sw x27, 40(x2)
    .cfi_offset 27, -24
    # arguments that are needed behind the body
    .word 0x02a12823  # sw x10, 48(x2)
    .word 0x02b12a23  # sw x11, 52(x2)
    .word 0x02c12c23  # sw x12, 56(x2)
    .word 0x02d12e23  # sw x13, 60(x2)
    # the frame's base
    .word 0xe2010113  # addi x2, x2, -480
    .cfi_def_cfa 2, 544
    # parameter 0: an array
    .word 0x00050293  # addi x5, x10, 0
    .word 0x00010313  # addi x6, x2, 0
    .word 0x02028393  # addi x7, x5, 32
    .word 0x0002ce03  # lbu x28, 0(x5)
    .word 0x01c30023  # sb x28, 0(x6)
    .word 0x00128293  # addi x5, x5, 1
    .word 0x00130313  # addi x6, x6, 1
    .word 0xfe7298e3  # bne x5, x7, -16
    # parameter 1: an array
    .word 0x00058293  # addi x5, x11, 0
    .word 0x02010313  # addi x6, x2, 32
    .word 0x10028393  # addi x7, x5, 256
    .word 0x0002ce03  # lbu x28, 0(x5)
    .word 0x01c30023  # sb x28, 0(x6)
    .word 0x00128293  # addi x5, x5, 1
    .word 0x00130313  # addi x6, x6, 1
    .word 0xfe7298e3  # bne x5, x7, -16
    # parameter 2: a word
    .word 0x12c12023  # sw x12, 288(x2)
    # parameter 3: an array
    .word 0x00068293  # addi x5, x13, 0
    .word 0x12410313  # addi x6, x2, 292
    .word 0x02828393  # addi x7, x5, 40
    .word 0x0002ae03  # lw x28, 0(x5)
    .word 0x01c32023  # sw x28, 0(x6)
    .word 0x00428293  # addi x5, x5, 4
    .word 0x00430313  # addi x6, x6, 4
    .word 0xfe7298e3  # bne x5, x7, -16
    # the body
    .word 0x00000613  # addi x12, x0, 0
    .word 0x100002b7  # lui x5, 0x10000
    .word 0xfff28293  # addi x5, x5, -1
    .word 0x1a512223  # sw x5, 420(x2)
    .word 0x100002b7  # lui x5, 0x10000
    .word 0xffc28293  # addi x5, x5, -4
    .word 0x1a512423  # sw x5, 424(x2)
    .word 0x040002b7  # lui x5, 0x04000
    .word 0xfff28293  # addi x5, x5, -1
    .word 0x1a512623  # sw x5, 428(x2)
    .word 0x000042b7  # lui x5, 0x00004
    .word 0xfff28293  # addi x5, x5, -1
    .word 0x1a512823  # sw x5, 432(x2)
    .word 0x000022b7  # lui x5, 0x00002
    .word 0xfff28293  # addi x5, x5, -1
    .word 0x1a512a23  # sw x5, 436(x2)
    .word 0x14c00313  # addi x6, x0, 332
    .word 0x00230333  # add x6, x6, x2
    .word 0x02000393  # addi x7, x0, 32
    .word 0x006383b3  # add x7, x7, x6
    .word 0x406382b3  # sub x5, x7, x6
    .word 0x00029463  # bne x5, x0, 8
    .word 0x0100006f  # jal x0, 16
    .word 0x00032023  # sw x0, 0(x6)
    .word 0x00430313  # addi x6, x6, 4
    .word 0xfedff06f  # jal x0, -20
    .word 0xfff00993  # addi x19, x0, -1
    .word 0x00198993  # addi x19, x19, 1
    .word 0x00299d93  # slli x27, x19, 2
    .word 0x002d8db3  # add x27, x27, x2
    .word 0x00299293  # slli x5, x19, 2
    .word 0x002286b3  # add x13, x5, x2
    .word 0x0006c683  # lbu x13, 0(x13)
    .word 0x00299293  # slli x5, x19, 2
    .word 0x00228733  # add x14, x5, x2
    .word 0x00174703  # lbu x14, 1(x14)
    .word 0x00299293  # slli x5, x19, 2
    .word 0x002287b3  # add x15, x5, x2
    .word 0x0027c783  # lbu x15, 2(x15)
    .word 0x00299293  # slli x5, x19, 2
    .word 0x00228833  # add x16, x5, x2
    .word 0x00384803  # lbu x16, 3(x16)
    .word 0x00871313  # slli x6, x14, 8
    .word 0x0066e2b3  # or x5, x13, x6
    .word 0x01079313  # slli x6, x15, 16
    .word 0x0062e2b3  # or x5, x5, x6
    .word 0x01881313  # slli x6, x16, 24
    .word 0x0062ec33  # or x24, x5, x6
    .word 0x0019b313  # sltiu x6, x19, 1
    .word 0x1a412383  # lw x7, 420(x2)
    .word 0x1a812403  # lw x8, 424(x2)
    .word 0x40600333  # sub x6, x0, x6
    .word 0x0083c3b3  # xor x7, x7, x8
    .word 0x0063f3b3  # and x7, x7, x6
    .word 0x00744333  # xor x6, x8, x7
    .word 0x006c72b3  # and x5, x24, x6
    .word 0x145dae23  # sw x5, 348(x27)
    .word 0x0019b293  # sltiu x5, x19, 1
    .word 0x00000313  # addi x6, x0, 0
    .word 0x15cda383  # lw x7, 348(x27)
    .word 0x15cda403  # lw x8, 348(x27)
    .word 0x00245413  # srli x8, x8, 2
    .word 0x008383b3  # add x7, x7, x8
    .word 0x405002b3  # sub x5, x0, x5
    .word 0x00734333  # xor x6, x6, x7
    .word 0x00537333  # and x6, x6, x5
    .word 0x0063c2b3  # xor x5, x7, x6
    .word 0x145da623  # sw x5, 332(x27)
    .word 0xffd98293  # addi x5, x19, -3
    .word 0xf4029ce3  # bne x5, x0, -168
    .word 0x16c00313  # addi x6, x0, 364
    .word 0x00230333  # add x6, x6, x2
    .word 0x01400393  # addi x7, x0, 20
    .word 0x006383b3  # add x7, x7, x6
    .word 0x406382b3  # sub x5, x7, x6
    .word 0x00029463  # bne x5, x0, 8
    .word 0x0100006f  # jal x0, 16
    .word 0x00032023  # sw x0, 0(x6)
    .word 0x00430313  # addi x6, x6, 4
    .word 0xfedff06f  # jal x0, -20
    .word 0x00000c13  # addi x24, x0, 0
    .word 0xfff00893  # addi x17, x0, -1
    .word 0x00188893  # addi x17, x17, 1
    .word 0x00289c93  # slli x25, x17, 2
    .word 0x002c8cb3  # add x25, x25, x2
    .word 0x01a00293  # addi x5, x0, 26
    .word 0x031282b3  # mul x5, x5, x17
    .word 0x0052d993  # srli x19, x5, 5
    .word 0x00299d93  # slli x27, x19, 2
    .word 0x002d8db3  # add x27, x27, x2
    .word 0x01a00293  # addi x5, x0, 26
    .word 0x031282b3  # mul x5, x5, x17
    .word 0x01f2f913  # andi x18, x5, 31
    .word 0x00291d13  # slli x26, x18, 2
    .word 0x002d0d33  # add x26, x26, x2
    .word 0x00189293  # slli x5, x17, 1
    .word 0x00229293  # slli x5, x5, 2
    .word 0x002282b3  # add x5, x5, x2
    .word 0x1242a283  # lw x5, 292(x5)
    .word 0x00189313  # slli x6, x17, 1
    .word 0x00231313  # slli x6, x6, 2
    .word 0x00230333  # add x6, x6, x2
    .word 0x12832303  # lw x6, 296(x6)
    .word 0x00d31313  # slli x6, x6, 13
    .word 0x006282b3  # add x5, x5, x6
    .word 0x01828c33  # add x24, x5, x24
    .word 0xffc88313  # addi x6, x17, -4
    .word 0x00603333  # sltu x6, x0, x6
    .word 0x000003b7  # lui x7, 0x00000
    .word 0xfff38393  # addi x7, x7, -1
    .word 0x1ac12403  # lw x8, 428(x2)
    .word 0xfff30313  # addi x6, x6, -1
    .word 0x0083c3b3  # xor x7, x7, x8
    .word 0x0063f3b3  # and x7, x7, x6
    .word 0x00744333  # xor x6, x8, x7
    .word 0x006c7bb3  # and x23, x24, x6
    .word 0x01ac5c13  # srli x24, x24, 26
    .word 0x16cda283  # lw x5, 364(x27)
    .word 0x012b9333  # sll x6, x23, x18
    .word 0x0062e2b3  # or x5, x5, x6
    .word 0x165da623  # sw x5, 364(x27)
    .word 0x00600313  # addi x6, x0, 6
    .word 0x01237a63  # bgeu x6, x18, 20
    .word 0x02000313  # addi x6, x0, 32
    .word 0x41230333  # sub x6, x6, x18
    .word 0x006bd2b3  # srl x5, x23, x6
    .word 0x165da823  # sw x5, 368(x27)
    .word 0xffc88293  # addi x5, x17, -4
    .word 0xf40294e3  # bne x5, x0, -184
    .word 0x12012283  # lw x5, 288(x2)
    .word 0x1002b293  # sltiu x5, x5, 256
    .word 0x12012303  # lw x6, 288(x2)
    .word 0x10000393  # addi x7, x0, 256
    .word 0x405002b3  # sub x5, x0, x5
    .word 0x00734333  # xor x6, x6, x7
    .word 0x00537333  # and x6, x6, x5
    .word 0x0063c2b3  # xor x5, x7, x6
    .word 0x10100313  # addi x6, x0, 257
    .word 0x0262f5b3  # remu x11, x5, x6
    .word 0x1a012e23  # sw x0, 444(x2)
    .word 0x00f58293  # addi x5, x11, 15
    .word 0x0042d293  # srli x5, x5, 4
    .word 0x1c512023  # sw x5, 448(x2)
    .word 0x1bc12303  # lw x6, 444(x2)
    .word 0x1c012283  # lw x5, 448(x2)
    .word 0x005332b3  # sltu x5, x6, x5
    .word 0x00029463  # bne x5, x0, 8
    .word 0x2c80006f  # jal x0, 712
    .word 0x00030613  # addi x12, x6, 0
    .word 0x00461913  # slli x18, x12, 4
    .word 0x00291d13  # slli x26, x18, 2
    .word 0x002d0d33  # add x26, x26, x2
    .word 0x18000313  # addi x6, x0, 384
    .word 0x00230333  # add x6, x6, x2
    .word 0x01000393  # addi x7, x0, 16
    .word 0x006383b3  # add x7, x7, x6
    .word 0x406382b3  # sub x5, x7, x6
    .word 0x00029463  # bne x5, x0, 8
    .word 0x0100006f  # jal x0, 16
    .word 0x00032023  # sw x0, 0(x6)
    .word 0x00430313  # addi x6, x6, 4
    .word 0xfedff06f  # jal x0, -20
    .word 0x01090293  # addi x5, x18, 16
    .word 0x0855e463  # bltu x11, x5, 136
    .word 0xfff00993  # addi x19, x0, -1
    .word 0x00198993  # addi x19, x19, 1
    .word 0x00299d93  # slli x27, x19, 2
    .word 0x002d8db3  # add x27, x27, x2
    .word 0x00299313  # slli x6, x19, 2
    .word 0x006902b3  # add x5, x18, x6
    .word 0x002286b3  # add x13, x5, x2
    .word 0x0206c683  # lbu x13, 32(x13)
    .word 0x00299313  # slli x6, x19, 2
    .word 0x00130313  # addi x6, x6, 1
    .word 0x006902b3  # add x5, x18, x6
    .word 0x00228733  # add x14, x5, x2
    .word 0x02074703  # lbu x14, 32(x14)
    .word 0x00299313  # slli x6, x19, 2
    .word 0x00230313  # addi x6, x6, 2
    .word 0x006902b3  # add x5, x18, x6
    .word 0x002287b3  # add x15, x5, x2
    .word 0x0207c783  # lbu x15, 32(x15)
    .word 0x00299313  # slli x6, x19, 2
    .word 0x00330313  # addi x6, x6, 3
    .word 0x006902b3  # add x5, x18, x6
    .word 0x00228833  # add x16, x5, x2
    .word 0x02084803  # lbu x16, 32(x16)
    .word 0x00871313  # slli x6, x14, 8
    .word 0x0066e2b3  # or x5, x13, x6
    .word 0x01079313  # slli x6, x15, 16
    .word 0x0062e2b3  # or x5, x5, x6
    .word 0x01881313  # slli x6, x16, 24
    .word 0x0062e2b3  # or x5, x5, x6
    .word 0x185da023  # sw x5, 384(x27)
    .word 0xffd98293  # addi x5, x19, -3
    .word 0xf80294e3  # bne x5, x0, -120
    .word 0x06c0006f  # jal x0, 108
    .word 0xfff00893  # addi x17, x0, -1
    .word 0x00188893  # addi x17, x17, 1
    .word 0x00289c93  # slli x25, x17, 2
    .word 0x002c8cb3  # add x25, x25, x2
    .word 0x011909b3  # add x19, x18, x17
    .word 0x00299d93  # slli x27, x19, 2
    .word 0x002d8db3  # add x27, x27, x2
    .word 0x40b98c33  # sub x24, x19, x11
    .word 0x001c3c13  # sltiu x24, x24, 1
    .word 0x00b9f663  # bgeu x19, x11, 12
    .word 0x00298c33  # add x24, x19, x2
    .word 0x020c4c03  # lbu x24, 32(x24)
    .word 0x0028d293  # srli x5, x17, 2
    .word 0x0028d313  # srli x6, x17, 2
    .word 0x00231313  # slli x6, x6, 2
    .word 0x00230333  # add x6, x6, x2
    .word 0x18032303  # lw x6, 384(x6)
    .word 0x0038f413  # andi x8, x17, 3
    .word 0x00341413  # slli x8, x8, 3
    .word 0x008c13b3  # sll x7, x24, x8
    .word 0x00736333  # or x6, x6, x7
    .word 0x00229293  # slli x5, x5, 2
    .word 0x002282b3  # add x5, x5, x2
    .word 0x1862a023  # sw x6, 384(x5)
    .word 0xff188293  # addi x5, x17, -15
    .word 0xfa0290e3  # bne x5, x0, -96
    .word 0x01090293  # addi x5, x18, 16
    .word 0x0055b933  # sltu x18, x11, x5
    .word 0x00193913  # sltiu x18, x18, 1
    .word 0x00291d13  # slli x26, x18, 2
    .word 0x002d0d33  # add x26, x26, x2
    .word 0x00000c13  # addi x24, x0, 0
    .word 0x00000b93  # addi x23, x0, 0
    .word 0xfff00993  # addi x19, x0, -1
    .word 0x00198993  # addi x19, x19, 1
    .word 0x00299d93  # slli x27, x19, 2
    .word 0x002d8db3  # add x27, x27, x2
    .word 0x16cdaa03  # lw x20, 364(x27)
    .word 0x014c0c33  # add x24, x24, x20
    .word 0x014c3333  # sltu x6, x24, x20
    .word 0x006b8bb3  # add x23, x23, x6
    .word 0x180daa03  # lw x20, 384(x27)
    .word 0x014c0c33  # add x24, x24, x20
    .word 0x014c3333  # sltu x6, x24, x20
    .word 0x006b8bb3  # add x23, x23, x6
    .word 0x178da623  # sw x24, 364(x27)
    .word 0x000b8c13  # addi x24, x23, 0
    .word 0x00000b93  # addi x23, x0, 0
    .word 0xffd98293  # addi x5, x19, -3
    .word 0xfc0292e3  # bne x5, x0, -60
    .word 0x17c12283  # lw x5, 380(x2)
    .word 0x018282b3  # add x5, x5, x24
    .word 0x012282b3  # add x5, x5, x18
    .word 0x16512e23  # sw x5, 380(x2)
    .word 0x16c12283  # lw x5, 364(x2)
    .word 0x18512823  # sw x5, 400(x2)
    .word 0x17012283  # lw x5, 368(x2)
    .word 0x18512a23  # sw x5, 404(x2)
    .word 0x17412283  # lw x5, 372(x2)
    .word 0x18512c23  # sw x5, 408(x2)
    .word 0x17812283  # lw x5, 376(x2)
    .word 0x18512e23  # sw x5, 412(x2)
    .word 0x17c12283  # lw x5, 380(x2)
    .word 0x1a512023  # sw x5, 416(x2)
    .word 0x00000b93  # addi x23, x0, 0
    .word 0x00000c13  # addi x24, x0, 0
    .word 0xfff00913  # addi x18, x0, -1
    .word 0x00190913  # addi x18, x18, 1
    .word 0x00291d13  # slli x26, x18, 2
    .word 0x002d0d33  # add x26, x26, x2
    .word 0xfff00993  # addi x19, x0, -1
    .word 0x00198993  # addi x19, x19, 1
    .word 0x00299d93  # slli x27, x19, 2
    .word 0x002d8db3  # add x27, x27, x2
    .word 0x190daa03  # lw x20, 400(x27)
    .word 0x00490293  # addi x5, x18, 4
    .word 0x413282b3  # sub x5, x5, x19
    .word 0x00229a93  # slli x21, x5, 2
    .word 0x002a8ab3  # add x21, x21, x2
    .word 0x14caaa83  # lw x21, 332(x21)
    .word 0x035a0b33  # mul x22, x20, x21
    .word 0x016b8bb3  # add x23, x23, x22
    .word 0x016bb333  # sltu x6, x23, x22
    .word 0x006c0c33  # add x24, x24, x6
    .word 0x035a3a33  # mulhu x20, x20, x21
    .word 0x014c0c33  # add x24, x24, x20
    .word 0xffd98293  # addi x5, x19, -3
    .word 0xfc0290e3  # bne x5, x0, -64
    .word 0x1a012283  # lw x5, 416(x2)
    .word 0x14cd2303  # lw x6, 332(x26)
    .word 0x02628a33  # mul x20, x5, x6
    .word 0x014b8bb3  # add x23, x23, x20
    .word 0x014bb333  # sltu x6, x23, x20
    .word 0x006c0c33  # add x24, x24, x6
    .word 0x177d2623  # sw x23, 364(x26)
    .word 0x000c0b93  # addi x23, x24, 0
    .word 0x00000c13  # addi x24, x0, 0
    .word 0xffd90293  # addi x5, x18, -3
    .word 0xf80292e3  # bne x5, x0, -124
    .word 0x1a012303  # lw x6, 416(x2)
    .word 0x15c12383  # lw x7, 348(x2)
    .word 0x02730333  # mul x6, x6, x7
    .word 0x006b8ab3  # add x21, x23, x6
    .word 0xffcaf293  # andi x5, x21, -4
    .word 0x002ad313  # srli x6, x21, 2
    .word 0x00628bb3  # add x23, x5, x6
    .word 0xfff00993  # addi x19, x0, -1
    .word 0x00198993  # addi x19, x19, 1
    .word 0x00299d93  # slli x27, x19, 2
    .word 0x002d8db3  # add x27, x27, x2
    .word 0x16cdaa03  # lw x20, 364(x27)
    .word 0x014b8bb3  # add x23, x23, x20
    .word 0x014bb333  # sltu x6, x23, x20
    .word 0x006c0c33  # add x24, x24, x6
    .word 0x177da623  # sw x23, 364(x27)
    .word 0x000c0b93  # addi x23, x24, 0
    .word 0x00000c13  # addi x24, x0, 0
    .word 0xffd98293  # addi x5, x19, -3
    .word 0xfc029ae3  # bne x5, x0, -44
    .word 0x003af293  # andi x5, x21, 3
    .word 0x017282b3  # add x5, x5, x23
    .word 0x16512e23  # sw x5, 380(x2)
    .word 0x00160613  # addi x12, x12, 1
    .word 0x1c012283  # lw x5, 448(x2)
    .word 0x005632b3  # sltu x5, x12, x5
    .word 0xd40296e3  # bne x5, x0, -692
    .word 0xfff60613  # addi x12, x12, -1
    .word 0x0040006f  # jal x0, 4
    .word 0xfff00893  # addi x17, x0, -1
    .word 0x00188893  # addi x17, x17, 1
    .word 0x00289c93  # slli x25, x17, 2
    .word 0x002c8cb3  # add x25, x25, x2
    .word 0x00d00293  # addi x5, x0, 13
    .word 0x031282b3  # mul x5, x5, x17
    .word 0x0052d913  # srli x18, x5, 5
    .word 0x00291d13  # slli x26, x18, 2
    .word 0x002d0d33  # add x26, x26, x2
    .word 0x00d00293  # addi x5, x0, 13
    .word 0x031282b3  # mul x5, x5, x17
    .word 0x01f2f993  # andi x19, x5, 31
    .word 0x00299d93  # slli x27, x19, 2
    .word 0x002d8db3  # add x27, x27, x2
    .word 0x16cd2283  # lw x5, 364(x26)
    .word 0x0132dc33  # srl x24, x5, x19
    .word 0x01300313  # addi x6, x0, 19
    .word 0x01337c63  # bgeu x6, x19, 24
    .word 0x170d2303  # lw x6, 368(x26)
    .word 0x02000393  # addi x7, x0, 32
    .word 0x413383b3  # sub x7, x7, x19
    .word 0x00731333  # sll x6, x6, x7
    .word 0x006c6c33  # or x24, x24, x6
    .word 0xff788313  # addi x6, x17, -9
    .word 0x00603333  # sltu x6, x0, x6
    .word 0x1b012383  # lw x7, 432(x2)
    .word 0x1b412403  # lw x8, 436(x2)
    .word 0xfff30313  # addi x6, x6, -1
    .word 0x0083c3b3  # xor x7, x7, x8
    .word 0x0063f3b3  # and x7, x7, x6
    .word 0x00744333  # xor x6, x8, x7
    .word 0x006c72b3  # and x5, x24, x6
    .word 0x125ca223  # sw x5, 292(x25)
    .word 0xff788293  # addi x5, x17, -9
    .word 0xf6029ee3  # bne x5, x0, -132
    # the result
    .word 0x00000513  # addi x10, x0, 0
    # parameter 3: the array, back
    .word 0x12410293  # addi x5, x2, 292
    .word 0x21c12303  # lw x6, 540(x2)
    .word 0x02828393  # addi x7, x5, 40
    .word 0x0002ae03  # lw x28, 0(x5)
    .word 0x01c32023  # sw x28, 0(x6)
    .word 0x00428293  # addi x5, x5, 4
    .word 0x00430313  # addi x6, x6, 4
    .word 0xfe7298e3  # bne x5, x7, -16
    # above the frame
    .word 0x1e010293  # addi x5, x2, 480
    # the caller's registers
    .word 0x0002a403  # lw x8, 0(x5)
    .cfi_restore 8
    .word 0x0042a903  # lw x18, 4(x5)
    .cfi_restore 18
    .word 0x0082a983  # lw x19, 8(x5)
    .cfi_restore 19
    .word 0x00c2aa03  # lw x20, 12(x5)
    .cfi_restore 20
    .word 0x0102aa83  # lw x21, 16(x5)
    .cfi_restore 21
    .word 0x0142ab03  # lw x22, 20(x5)
    .cfi_restore 22
    .word 0x0182ab83  # lw x23, 24(x5)
    .cfi_restore 23
    .word 0x01c2ac03  # lw x24, 28(x5)
    .cfi_restore 24
    .word 0x0202ac83  # lw x25, 32(x5)
    .cfi_restore 25
    .word 0x0242ad03  # lw x26, 36(x5)
    .cfi_restore 26
    .word 0x0282ad83  # lw x27, 40(x5)
    .cfi_restore 27
    # the caller's x2
    .word 0x04028293  # addi x5, x5, 64
    .cfi_def_cfa 5, 0
    # on to the tail that functions share
    jal x0, factc.tail.1
    .cfi_endproc
    .size poly1305_blocks, . - poly1305_blocks
    .section .text.factc.tail.1, "axG", @progbits, factc.tail.1, comdat
    .p2align 2
    .globl factc.tail.1
    .hidden factc.tail.1
    .type factc.tail.1, @function
factc.tail.1:
    .cfi_startproc
    .cfi_def_cfa 5, 0
    # all the room, wiped upward
    .word 0x00012023  # sw x0, 0(x2)
    .word 0x00012223  # sw x0, 4(x2)
    .word 0x00012423  # sw x0, 8(x2)
    .word 0x00012623  # sw x0, 12(x2)
    .word 0x01010113  # addi x2, x2, 16
    .word 0xfe5116e3  # bne x2, x5, -20
    .cfi_def_cfa 2, 0
    # temporaries, wiped
    .word 0x00000293  # addi x5, x0, 0
    .word 0x00000313  # addi x6, x0, 0
    .word 0x00000393  # addi x7, x0, 0
    .word 0x00000593  # addi x11, x0, 0
    .word 0x00000613  # addi x12, x0, 0
    .word 0x00000693  # addi x13, x0, 0
    .word 0x00000713  # addi x14, x0, 0
    .word 0x00000793  # addi x15, x0, 0
    .word 0x00000813  # addi x16, x0, 0
    .word 0x00000893  # addi x17, x0, 0
    .word 0x00000e13  # addi x28, x0, 0
    .word 0x00000e93  # addi x29, x0, 0
    .word 0x00000f13  # addi x30, x0, 0
    .word 0x00000f93  # addi x31, x0, 0
    # back
    .word 0x00008067  # jalr x0, 0(x1)
    .cfi_endproc
    .size factc.tail.1, . - factc.tail.1
    .option pop
