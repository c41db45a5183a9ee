# p256_from_bytes: made by factc 1.0.0 function; 367 words and 21 shared, 800 bytes of stack, profile 1
    .option push
    .option norvc
    .option norelax
    .cfi_sections .debug_frame
    .section .text.p256_from_bytes, "ax", @progbits
    .p2align 2
    .globl p256_from_bytes
    .type p256_from_bytes, @function
p256_from_bytes:
    .cfi_startproc
    # room above the frame
    .word 0xfe010113  # addi x2, x2, -32
    .cfi_def_cfa_offset 32
    # the caller's registers
    .word 0x00812023  # sw x8, 0(x2)
    .cfi_offset 8, -32
    .word 0x01212223  # sw x18, 4(x2)
    .cfi_offset 18, -28
    .word 0x01312423  # sw x19, 8(x2)
    .cfi_offset 19, -24
    .word 0x01412623  # sw x20, 12(x2)
    .cfi_offset 20, -20
    # arguments that are needed behind the body
    .word 0x00a12c23  # sw x10, 24(x2)
    .word 0x00b12e23  # sw x11, 28(x2)
    # the frame's base
    .word 0xd0010113  # addi x2, x2, -768
    .cfi_def_cfa 2, 800
    # parameter 0: an array
    .word 0x00050293  # addi x5, x10, 0
    .word 0x00010313  # addi x6, x2, 0
    .word 0x02028393  # addi x7, x5, 32
    .word 0x0002ce03  # lbu x28, 0(x5)
    .word 0x01c30023  # sb x28, 0(x6)
    .word 0x00128293  # addi x5, x5, 1
    .word 0x00130313  # addi x6, x6, 1
    .word 0xfe7298e3  # bne x5, x7, -16
    # the body
    .word 0x04000313  # addi x6, x0, 64
    .word 0x00230333  # add x6, x6, x2
    .word 0x20000393  # addi x7, x0, 512
    .word 0x006383b3  # add x7, x7, x6
    .word 0x406382b3  # sub x5, x7, x6
    .word 0x00029463  # bne x5, x0, 8
    .word 0x0100006f  # jal x0, 16
    .word 0x00032023  # sw x0, 0(x6)
    .word 0x00430313  # addi x6, x6, 4
    .word 0xfedff06f  # jal x0, -20
    .word 0x24000313  # addi x6, x0, 576
    .word 0x00230333  # add x6, x6, x2
    .word 0x02000393  # addi x7, x0, 32
    .word 0x006383b3  # add x7, x7, x6
    .word 0x406382b3  # sub x5, x7, x6
    .word 0x00029463  # bne x5, x0, 8
    .word 0x0100006f  # jal x0, 16
    .word 0x00032023  # sw x0, 0(x6)
    .word 0x00430313  # addi x6, x6, 4
    .word 0xfedff06f  # jal x0, -20
    .word 0x00000513  # addi x10, x0, 0
    .word 0x00300293  # addi x5, x0, 3
    .word 0x26512023  # sw x5, 608(x2)
    .word 0x26012223  # sw x0, 612(x2)
    .word 0x000002b7  # lui x5, 0x00000
    .word 0xfff28293  # addi x5, x5, -1
    .word 0x26512423  # sw x5, 616(x2)
    .word 0x000002b7  # lui x5, 0x00000
    .word 0xffb28293  # addi x5, x5, -5
    .word 0x26512623  # sw x5, 620(x2)
    .word 0x000002b7  # lui x5, 0x00000
    .word 0xffe28293  # addi x5, x5, -2
    .word 0x26512823  # sw x5, 624(x2)
    .word 0x000002b7  # lui x5, 0x00000
    .word 0xfff28293  # addi x5, x5, -1
    .word 0x26512a23  # sw x5, 628(x2)
    .word 0x000002b7  # lui x5, 0x00000
    .word 0xffd28293  # addi x5, x5, -3
    .word 0x26512c23  # sw x5, 632(x2)
    .word 0x00400293  # addi x5, x0, 4
    .word 0x26512e23  # sw x5, 636(x2)
    .word 0xfff00713  # addi x14, x0, -1
    .word 0x00170713  # addi x14, x14, 1
    .word 0x00271993  # slli x19, x14, 2
    .word 0x002989b3  # add x19, x19, x2
    .word 0xfff00593  # addi x11, x0, -1
    .word 0x00158593  # addi x11, x11, 1
    .word 0x0409a283  # lw x5, 64(x19)
    .word 0x01f00313  # addi x6, x0, 31
    .word 0x00271393  # slli x7, x14, 2
    .word 0x40730333  # sub x6, x6, x7
    .word 0x40b30333  # sub x6, x6, x11
    .word 0x00230333  # add x6, x6, x2
    .word 0x00034303  # lbu x6, 0(x6)
    .word 0x00359393  # slli x7, x11, 3
    .word 0x00731333  # sll x6, x6, x7
    .word 0x0062e2b3  # or x5, x5, x6
    .word 0x0459a023  # sw x5, 64(x19)
    .word 0xffd58293  # addi x5, x11, -3
    .word 0xfc0296e3  # bne x5, x0, -52
    .word 0x2609a283  # lw x5, 608(x19)
    .word 0x0659a023  # sw x5, 96(x19)
    .word 0x00373293  # sltiu x5, x14, 3
    .word 0xff970313  # addi x6, x14, -7
    .word 0x00133313  # sltiu x6, x6, 1
    .word 0x0062e2b3  # or x5, x5, x6
    .word 0x00000337  # lui x6, 0x00000
    .word 0xfff30313  # addi x6, x6, -1
    .word 0xffa70393  # addi x7, x14, -6
    .word 0x007033b3  # sltu x7, x0, x7
    .word 0x00100413  # addi x8, x0, 1
    .word 0xfff38393  # addi x7, x7, -1
    .word 0x007473b3  # and x7, x8, x7
    .word 0x405002b3  # sub x5, x0, x5
    .word 0x00734333  # xor x6, x6, x7
    .word 0x00537333  # and x6, x6, x5
    .word 0x0063c5b3  # xor x11, x7, x6
    .word 0x0409a283  # lw x5, 64(x19)
    .word 0x00b2b2b3  # sltu x5, x5, x11
    .word 0x0409a303  # lw x6, 64(x19)
    .word 0x40b30333  # sub x6, x6, x11
    .word 0x00a33333  # sltu x6, x6, x10
    .word 0x00628533  # add x10, x5, x6
    .word 0xff970293  # addi x5, x14, -7
    .word 0xf4029ce3  # bne x5, x0, -168
    .word 0x28000313  # addi x6, x0, 640
    .word 0x00230333  # add x6, x6, x2
    .word 0x02400393  # addi x7, x0, 36
    .word 0x006383b3  # add x7, x7, x6
    .word 0x406382b3  # sub x5, x7, x6
    .word 0x00029463  # bne x5, x0, 8
    .word 0x0100006f  # jal x0, 16
    .word 0x00032023  # sw x0, 0(x6)
    .word 0x00430313  # addi x6, x6, 4
    .word 0xfedff06f  # jal x0, -20
    .word 0x2a400313  # addi x6, x0, 676
    .word 0x00230333  # add x6, x6, x2
    .word 0x02000393  # addi x7, x0, 32
    .word 0x006383b3  # add x7, x7, x6
    .word 0x406382b3  # sub x5, x7, x6
    .word 0x00029463  # bne x5, x0, 8
    .word 0x0100006f  # jal x0, 16
    .word 0x00032023  # sw x0, 0(x6)
    .word 0x00430313  # addi x6, x6, 4
    .word 0xfedff06f  # jal x0, -20
    .word 0xfff00713  # addi x14, x0, -1
    .word 0x00170713  # addi x14, x14, 1
    .word 0x00271993  # slli x19, x14, 2
    .word 0x002989b3  # add x19, x19, x2
    .word 0x0409a283  # lw x5, 64(x19)
    .word 0x2459a023  # sw x5, 576(x19)
    .word 0xff970293  # addi x5, x14, -7
    .word 0xfe0294e3  # bne x5, x0, -24
    .word 0xfff00913  # addi x18, x0, -1
    .word 0x00190913  # addi x18, x18, 1
    .word 0x00291a13  # slli x20, x18, 2
    .word 0x002a0a33  # add x20, x20, x2
    .word 0x240a2603  # lw x12, 576(x20)
    .word 0x00000693  # addi x13, x0, 0
    .word 0xfff00713  # addi x14, x0, -1
    .word 0x00170713  # addi x14, x14, 1
    .word 0x00271993  # slli x19, x14, 2
    .word 0x002989b3  # add x19, x19, x2
    .word 0x00870293  # addi x5, x14, 8
    .word 0x00229893  # slli x17, x5, 2
    .word 0x002888b3  # add x17, x17, x2
    .word 0x0408a883  # lw x17, 64(x17)
    .word 0x031607b3  # mul x15, x12, x17
    .word 0x03163833  # mulhu x16, x12, x17
    .word 0x2849a283  # lw x5, 644(x19)
    .word 0x00f288b3  # add x17, x5, x15
    .word 0x00071a63  # bne x14, x0, 20
    .word 0x251a2023  # sw x17, 576(x20)
    .word 0x00f8b333  # sltu x6, x17, x15
    .word 0x006806b3  # add x13, x16, x6
    .word 0x0200006f  # jal x0, 32
    .word 0x00d882b3  # add x5, x17, x13
    .word 0x2859a023  # sw x5, 640(x19)
    .word 0x00f8b333  # sltu x6, x17, x15
    .word 0x006802b3  # add x5, x16, x6
    .word 0x2809a303  # lw x6, 640(x19)
    .word 0x00d33333  # sltu x6, x6, x13
    .word 0x006286b3  # add x13, x5, x6
    .word 0xff970293  # addi x5, x14, -7
    .word 0xfa0290e3  # bne x5, x0, -96
    .word 0x2ad12023  # sw x13, 672(x2)
    .word 0xff990293  # addi x5, x18, -7
    .word 0xf6029ee3  # bne x5, x0, -132
    .word 0x2c400313  # addi x6, x0, 708
    .word 0x00230333  # add x6, x6, x2
    .word 0x02000393  # addi x7, x0, 32
    .word 0x006383b3  # add x7, x7, x6
    .word 0x406382b3  # sub x5, x7, x6
    .word 0x00029463  # bne x5, x0, 8
    .word 0x0100006f  # jal x0, 16
    .word 0x00032023  # sw x0, 0(x6)
    .word 0x00430313  # addi x6, x6, 4
    .word 0xfedff06f  # jal x0, -20
    .word 0x00000693  # addi x13, x0, 0
    .word 0xfff00913  # addi x18, x0, -1
    .word 0x00190913  # addi x18, x18, 1
    .word 0x00291a13  # slli x20, x18, 2
    .word 0x002a0a33  # add x20, x20, x2
    .word 0x00893293  # sltiu x5, x18, 8
    .word 0x00797313  # andi x6, x18, 7
    .word 0x00231313  # slli x6, x6, 2
    .word 0x00230333  # add x6, x6, x2
    .word 0x24032303  # lw x6, 576(x6)
    .word 0x00797393  # andi x7, x18, 7
    .word 0x00239393  # slli x7, x7, 2
    .word 0x002383b3  # add x7, x7, x2
    .word 0x2843a383  # lw x7, 644(x7)
    .word 0x405002b3  # sub x5, x0, x5
    .word 0x00734333  # xor x6, x6, x7
    .word 0x00537333  # and x6, x6, x5
    .word 0x0063c2b3  # xor x5, x7, x6
    .word 0x00d288b3  # add x17, x5, x13
    .word 0x00d8b6b3  # sltu x13, x17, x13
    .word 0xffd90293  # addi x5, x18, -3
    .word 0x00800313  # addi x6, x0, 8
    .word 0x0262f263  # bgeu x5, x6, 36
    .word 0xffd90293  # addi x5, x18, -3
    .word 0x0072f293  # andi x5, x5, 7
    .word 0x00229793  # slli x15, x5, 2
    .word 0x002787b3  # add x15, x15, x2
    .word 0x2c47a783  # lw x15, 708(x15)
    .word 0x00f888b3  # add x17, x17, x15
    .word 0x00f8b333  # sltu x6, x17, x15
    .word 0x006686b3  # add x13, x13, x6
    .word 0xffa90293  # addi x5, x18, -6
    .word 0x00800313  # addi x6, x0, 8
    .word 0x0262f263  # bgeu x5, x6, 36
    .word 0xffa90293  # addi x5, x18, -6
    .word 0x0072f293  # andi x5, x5, 7
    .word 0x00229793  # slli x15, x5, 2
    .word 0x002787b3  # add x15, x15, x2
    .word 0x2c47a783  # lw x15, 708(x15)
    .word 0x00f888b3  # add x17, x17, x15
    .word 0x00f8b333  # sltu x6, x17, x15
    .word 0x006686b3  # add x13, x13, x6
    .word 0xff990293  # addi x5, x18, -7
    .word 0x00800313  # addi x6, x0, 8
    .word 0x0262f463  # bgeu x5, x6, 40
    .word 0xff990293  # addi x5, x18, -7
    .word 0x0072f293  # andi x5, x5, 7
    .word 0x00229293  # slli x5, x5, 2
    .word 0x002282b3  # add x5, x5, x2
    .word 0x2c42a283  # lw x5, 708(x5)
    .word 0x405007b3  # sub x15, x0, x5
    .word 0x00f888b3  # add x17, x17, x15
    .word 0x00f8b333  # sltu x6, x17, x15
    .word 0x006686b3  # add x13, x13, x6
    .word 0x00800313  # addi x6, x0, 8
    .word 0x02696663  # bltu x18, x6, 44
    .word 0xff890293  # addi x5, x18, -8
    .word 0x0072f293  # andi x5, x5, 7
    .word 0x00229793  # slli x15, x5, 2
    .word 0x002787b3  # add x15, x15, x2
    .word 0x2c47a783  # lw x15, 708(x15)
    .word 0x00f03333  # sltu x6, x0, x15
    .word 0x406787b3  # sub x15, x15, x6
    .word 0x00f888b3  # add x17, x17, x15
    .word 0x00f8b333  # sltu x6, x17, x15
    .word 0x006686b3  # add x13, x13, x6
    .word 0x00800313  # addi x6, x0, 8
    .word 0x00697c63  # bgeu x18, x6, 24
    .word 0x00797293  # andi x5, x18, 7
    .word 0x00229293  # slli x5, x5, 2
    .word 0x002282b3  # add x5, x5, x2
    .word 0x2d12a223  # sw x17, 708(x5)
    .word 0x0180006f  # jal x0, 24
    .word 0xff890293  # addi x5, x18, -8
    .word 0x0072f293  # andi x5, x5, 7
    .word 0x00229293  # slli x5, x5, 2
    .word 0x002282b3  # add x5, x5, x2
    .word 0x2b12a223  # sw x17, 676(x5)
    .word 0xff190293  # addi x5, x18, -15
    .word 0xec0296e3  # bne x5, x0, -308
    .word 0x00100893  # addi x17, x0, 1
    .word 0xfff00713  # addi x14, x0, -1
    .word 0x00170713  # addi x14, x14, 1
    .word 0x00271993  # slli x19, x14, 2
    .word 0x002989b3  # add x19, x19, x2
    .word 0x2a49a283  # lw x5, 676(x19)
    .word 0x011282b3  # add x5, x5, x17
    .word 0x2a59a223  # sw x5, 676(x19)
    .word 0x2a49a283  # lw x5, 676(x19)
    .word 0x0112b8b3  # sltu x17, x5, x17
    .word 0xffe70293  # addi x5, x14, -2
    .word 0xfc029ee3  # bne x5, x0, -36
    .word 0x00100293  # addi x5, x0, 1
    .word 0x411288b3  # sub x17, x5, x17
    .word 0x00200713  # addi x14, x0, 2
    .word 0x00170713  # addi x14, x14, 1
    .word 0x00271993  # slli x19, x14, 2
    .word 0x002989b3  # add x19, x19, x2
    .word 0x2a49a783  # lw x15, 676(x19)
    .word 0x411782b3  # sub x5, x15, x17
    .word 0x2a59a223  # sw x5, 676(x19)
    .word 0x0117b8b3  # sltu x17, x15, x17
    .word 0xffb70293  # addi x5, x14, -5
    .word 0xfe0290e3  # bne x5, x0, -32
    .word 0x00188893  # addi x17, x17, 1
    .word 0x2bc12783  # lw x15, 700(x2)
    .word 0x411782b3  # sub x5, x15, x17
    .word 0x2a512e23  # sw x5, 700(x2)
    .word 0x00100293  # addi x5, x0, 1
    .word 0x0117b333  # sltu x6, x15, x17
    .word 0x406288b3  # sub x17, x5, x6
    .word 0x2c012283  # lw x5, 704(x2)
    .word 0x011282b3  # add x5, x5, x17
    .word 0x2c512023  # sw x5, 704(x2)
    .word 0x2c012283  # lw x5, 704(x2)
    .word 0x0112b8b3  # sltu x17, x5, x17
    .word 0x00100293  # addi x5, x0, 1
    .word 0x40d282b3  # sub x5, x5, x13
    .word 0x411287b3  # sub x15, x5, x17
    .word 0x00078893  # addi x17, x15, 0
    .word 0xfff00713  # addi x14, x0, -1
    .word 0x00170713  # addi x14, x14, 1
    .word 0x00271993  # slli x19, x14, 2
    .word 0x002989b3  # add x19, x19, x2
    .word 0x2a49a683  # lw x13, 676(x19)
    .word 0x411682b3  # sub x5, x13, x17
    .word 0x2a59a223  # sw x5, 676(x19)
    .word 0x0116b8b3  # sltu x17, x13, x17
    .word 0xffe70293  # addi x5, x14, -2
    .word 0xfe0290e3  # bne x5, x0, -32
    .word 0x411788b3  # sub x17, x15, x17
    .word 0x00200713  # addi x14, x0, 2
    .word 0x00170713  # addi x14, x14, 1
    .word 0x00271993  # slli x19, x14, 2
    .word 0x002989b3  # add x19, x19, x2
    .word 0x2a49a283  # lw x5, 676(x19)
    .word 0x011282b3  # add x5, x5, x17
    .word 0x2a59a223  # sw x5, 676(x19)
    .word 0x2a49a283  # lw x5, 676(x19)
    .word 0x0112b8b3  # sltu x17, x5, x17
    .word 0xffb70293  # addi x5, x14, -5
    .word 0xfc029ee3  # bne x5, x0, -36
    .word 0x00f888b3  # add x17, x17, x15
    .word 0x2bc12283  # lw x5, 700(x2)
    .word 0x011282b3  # add x5, x5, x17
    .word 0x2a512e23  # sw x5, 700(x2)
    .word 0x2bc12283  # lw x5, 700(x2)
    .word 0x0112b8b3  # sltu x17, x5, x17
    .word 0x2c012283  # lw x5, 704(x2)
    .word 0x011282b3  # add x5, x5, x17
    .word 0x40f282b3  # sub x5, x5, x15
    .word 0x2c512023  # sw x5, 704(x2)
    .word 0xfff00713  # addi x14, x0, -1
    .word 0x00170713  # addi x14, x14, 1
    .word 0x00271993  # slli x19, x14, 2
    .word 0x002989b3  # add x19, x19, x2
    .word 0x01070293  # addi x5, x14, 16
    .word 0x2a49a303  # lw x6, 676(x19)
    .word 0x00229293  # slli x5, x5, 2
    .word 0x002282b3  # add x5, x5, x2
    .word 0x0462a023  # sw x6, 64(x5)
    .word 0xff970293  # addi x5, x14, -7
    .word 0xfc029ee3  # bne x5, x0, -36
    .word 0xfff00713  # addi x14, x0, -1
    .word 0x00170713  # addi x14, x14, 1
    .word 0x00271993  # slli x19, x14, 2
    .word 0x002989b3  # add x19, x19, x2
    .word 0x01070293  # addi x5, x14, 16
    .word 0x00229293  # slli x5, x5, 2
    .word 0x002282b3  # add x5, x5, x2
    .word 0x0402a283  # lw x5, 64(x5)
    .word 0x0259a023  # sw x5, 32(x19)
    .word 0xff970293  # addi x5, x14, -7
    .word 0xfc029ee3  # bne x5, x0, -36
    .word 0xfff50293  # addi x5, x10, -1
    .word 0x0012b293  # sltiu x5, x5, 1
    .word 0x2e512223  # sw x5, 740(x2)
    # the result
    .word 0x2e412503  # lw x10, 740(x2)
    # parameter 1: the array, back
    .word 0x02010293  # addi x5, x2, 32
    .word 0x31c12303  # lw x6, 796(x2)
    .word 0x02028393  # addi x7, x5, 32
    .word 0x0002ae03  # lw x28, 0(x5)
    .word 0x01c32023  # sw x28, 0(x6)
    .word 0x00428293  # addi x5, x5, 4
    .word 0x00430313  # addi x6, x6, 4
    .word 0xfe7298e3  # bne x5, x7, -16
    # above the frame
    .word 0x30010293  # addi x5, x2, 768
    # the caller's registers
    .word 0x0002a403  # lw x8, 0(x5)
    .cfi_restore 8
    .word 0x0042a903  # lw x18, 4(x5)
    .cfi_restore 18
    .word 0x0082a983  # lw x19, 8(x5)
    .cfi_restore 19
    .word 0x00c2aa03  # lw x20, 12(x5)
    .cfi_restore 20
    # the caller's x2
    .word 0x02028293  # addi x5, x5, 32
    .cfi_def_cfa 5, 0
    # on to the tail that functions share
    jal x0, factc.tail.1
    .cfi_endproc
    .size p256_from_bytes, . - p256_from_bytes
    .section .text.factc.tail.1, "axG", @progbits, factc.tail.1, comdat
    .p2align 2
    .globl factc.tail.1
    .hidden factc.tail.1
    .type factc.tail.1, @function
factc.tail.1:
    .cfi_startproc
    .cfi_def_cfa 5, 0
    # all the room, wiped upward
    .word 0x00012023  # sw x0, 0(x2)
    .word 0x00012223  # sw x0, 4(x2)
    .word 0x00012423  # sw x0, 8(x2)
    .word 0x00012623  # sw x0, 12(x2)
    .word 0x01010113  # addi x2, x2, 16
    .word 0xfe5116e3  # bne x2, x5, -20
    .cfi_def_cfa 2, 0
    # temporaries, wiped
    .word 0x00000293  # addi x5, x0, 0
    .word 0x00000313  # addi x6, x0, 0
    .word 0x00000393  # addi x7, x0, 0
    .word 0x00000593  # addi x11, x0, 0
    .word 0x00000613  # addi x12, x0, 0
    .word 0x00000693  # addi x13, x0, 0
    .word 0x00000713  # addi x14, x0, 0
    .word 0x00000793  # addi x15, x0, 0
    .word 0x00000813  # addi x16, x0, 0
    .word 0x00000893  # addi x17, x0, 0
    .word 0x00000e13  # addi x28, x0, 0
    .word 0x00000e93  # addi x29, x0, 0
    .word 0x00000f13  # addi x30, x0, 0
    .word 0x00000f93  # addi x31, x0, 0
    # back
    .word 0x00008067  # jalr x0, 0(x1)
    .cfi_endproc
    .size factc.tail.1, . - factc.tail.1
    .option pop
