# f25519_add: made by factc 1.0.0 function; 211 words, 160 bytes of stack, profile 1
    .option push
    .option norvc
    .option norelax
    .cfi_sections .debug_frame
    .section .text.f25519_add, "ax", @progbits
    .p2align 2
    .globl f25519_add
    .type f25519_add, @function
f25519_add:
    .cfi_startproc
    # room above the frame
    .word 0xfd010113  # addi x2, x2, -48
    .cfi_def_cfa_offset 48
    # the caller's registers
    .word 0x01212023  # sw x18, 0(x2)
    .cfi_offset 18, -48
    .word 0x01312223  # sw x19, 4(x2)
    .cfi_offset 19, -44
    .word 0x01412423  # sw x20, 8(x2)
    .cfi_offset 20, -40
    .word 0x01512623  # sw x21, 12(x2)
    .cfi_offset 21, -36
    .word 0x01612823  # sw x22, 16(x2)
    .cfi_offset 22, -32
    .word 0x01712a23  # sw x23, 20(x2)
    .cfi_offset 23, -28
    .word 0x01812c23  # sw x24, 24(x2)
    .cfi_offset 24, -24
    .word 0x01912e23  # sw x25, 28(x2)
    .cfi_offset 25, -20
    .word 0x03a12023  # sw x26, 32(x2)
    .cfi_offset 26, -16
    # arguments that are needed behind the body
    .word 0x02a12223  # sw x10, 36(x2)
    .word 0x02b12423  # sw x11, 40(x2)
    .word 0x02c12623  # sw x12, 44(x2)
    # the frame's base
    .word 0xf9010113  # addi x2, x2, -112
    .cfi_def_cfa 2, 160
    # parameter 0: an array
    .word 0x00050293  # addi x5, x10, 0
    .word 0x00010313  # addi x6, x2, 0
    .word 0x02028393  # addi x7, x5, 32
    .word 0x2b400f6f  # jal x30, 692
    # parameter 1: an array
    .word 0x00058293  # addi x5, x11, 0
    .word 0x02010313  # addi x6, x2, 32
    .word 0x02028393  # addi x7, x5, 32
    .word 0x2a400f6f  # jal x30, 676
    # the body
    .word 0x00012503  # lw x10, 0(x2)
    .word 0x02012583  # lw x11, 32(x2)
    .word 0x00412d03  # lw x26, 4(x2)
    .word 0x02412a03  # lw x20, 36(x2)
    .word 0x00812b03  # lw x22, 8(x2)
    .word 0x02812a83  # lw x21, 40(x2)
    .word 0x00c12b83  # lw x23, 12(x2)
    .word 0x02c12703  # lw x14, 44(x2)
    .word 0x01012c03  # lw x24, 16(x2)
    .word 0x03012783  # lw x15, 48(x2)
    .word 0x01412c83  # lw x25, 20(x2)
    .word 0x03412803  # lw x16, 52(x2)
    .word 0x01812603  # lw x12, 24(x2)
    .word 0x03812883  # lw x17, 56(x2)
    .word 0x01c12683  # lw x13, 28(x2)
    .word 0x03c12903  # lw x18, 60(x2)
    .word 0x00b505b3  # add x11, x10, x11
    .word 0x00058993  # addi x19, x11, 0
    .word 0x00a5b533  # sltu x10, x11, x10
    .word 0x014d05b3  # add x11, x26, x20
    .word 0x00a58a33  # add x20, x11, x10
    .word 0x01a5b2b3  # sltu x5, x11, x26
    .word 0x00aa3333  # sltu x6, x20, x10
    .word 0x00628533  # add x10, x5, x6
    .word 0x015b05b3  # add x11, x22, x21
    .word 0x00a58ab3  # add x21, x11, x10
    .word 0x0165b2b3  # sltu x5, x11, x22
    .word 0x00aab333  # sltu x6, x21, x10
    .word 0x00628533  # add x10, x5, x6
    .word 0x00eb85b3  # add x11, x23, x14
    .word 0x00a58b33  # add x22, x11, x10
    .word 0x0175b2b3  # sltu x5, x11, x23
    .word 0x00ab3333  # sltu x6, x22, x10
    .word 0x00628533  # add x10, x5, x6
    .word 0x00fc05b3  # add x11, x24, x15
    .word 0x00a58bb3  # add x23, x11, x10
    .word 0x0185b2b3  # sltu x5, x11, x24
    .word 0x00abb333  # sltu x6, x23, x10
    .word 0x00628533  # add x10, x5, x6
    .word 0x010c85b3  # add x11, x25, x16
    .word 0x00a58c33  # add x24, x11, x10
    .word 0x0195b2b3  # sltu x5, x11, x25
    .word 0x00ac3333  # sltu x6, x24, x10
    .word 0x00628533  # add x10, x5, x6
    .word 0x011605b3  # add x11, x12, x17
    .word 0x00a58cb3  # add x25, x11, x10
    .word 0x00c5b2b3  # sltu x5, x11, x12
    .word 0x00acb333  # sltu x6, x25, x10
    .word 0x00628533  # add x10, x5, x6
    .word 0x012685b3  # add x11, x13, x18
    .word 0x00a58d33  # add x26, x11, x10
    .word 0x00d5b2b3  # sltu x5, x11, x13
    .word 0x00ad3333  # sltu x6, x26, x10
    .word 0x00628533  # add x10, x5, x6
    .word 0x01300293  # addi x5, x0, 19
    .word 0x00151313  # slli x6, x10, 1
    .word 0x01fd5393  # srli x7, x26, 31
    .word 0x00736333  # or x6, x6, x7
    .word 0x02628533  # mul x10, x5, x6
    .word 0x001d1d13  # slli x26, x26, 1
    .word 0x001d5d13  # srli x26, x26, 1
    .word 0x00a989b3  # add x19, x19, x10
    .word 0x00a9b533  # sltu x10, x19, x10
    .word 0x00aa0a33  # add x20, x20, x10
    .word 0x00aa3533  # sltu x10, x20, x10
    .word 0x00aa8ab3  # add x21, x21, x10
    .word 0x00aab533  # sltu x10, x21, x10
    .word 0x00ab0b33  # add x22, x22, x10
    .word 0x00ab3533  # sltu x10, x22, x10
    .word 0x00ab8bb3  # add x23, x23, x10
    .word 0x00abb533  # sltu x10, x23, x10
    .word 0x00ac0c33  # add x24, x24, x10
    .word 0x00ac3533  # sltu x10, x24, x10
    .word 0x00ac8cb3  # add x25, x25, x10
    .word 0x00acb533  # sltu x10, x25, x10
    .word 0x00ad0d33  # add x26, x26, x10
    .word 0x01300313  # addi x6, x0, 19
    .word 0x01fd5393  # srli x7, x26, 31
    .word 0x02730333  # mul x6, x6, x7
    .word 0x006989b3  # add x19, x19, x6
    .word 0x001d1d13  # slli x26, x26, 1
    .word 0x001d5d13  # srli x26, x26, 1
    .word 0x01398293  # addi x5, x19, 19
    .word 0x0132b513  # sltiu x10, x5, 19
    .word 0x00aa02b3  # add x5, x20, x10
    .word 0x00a2b533  # sltu x10, x5, x10
    .word 0x00aa82b3  # add x5, x21, x10
    .word 0x00a2b533  # sltu x10, x5, x10
    .word 0x00ab02b3  # add x5, x22, x10
    .word 0x00a2b533  # sltu x10, x5, x10
    .word 0x00ab82b3  # add x5, x23, x10
    .word 0x00a2b533  # sltu x10, x5, x10
    .word 0x00ac02b3  # add x5, x24, x10
    .word 0x00a2b533  # sltu x10, x5, x10
    .word 0x00ac82b3  # add x5, x25, x10
    .word 0x00a2b533  # sltu x10, x5, x10
    .word 0x00ad02b3  # add x5, x26, x10
    .word 0x41f2d293  # srai x5, x5, 31
    .word 0x0132f513  # andi x10, x5, 19
    .word 0x00a985b3  # add x11, x19, x10
    .word 0x00a5b533  # sltu x10, x11, x10
    .word 0x00058993  # addi x19, x11, 0
    .word 0x00aa05b3  # add x11, x20, x10
    .word 0x00a5b533  # sltu x10, x11, x10
    .word 0x00058a13  # addi x20, x11, 0
    .word 0x00aa85b3  # add x11, x21, x10
    .word 0x00a5b533  # sltu x10, x11, x10
    .word 0x00058a93  # addi x21, x11, 0
    .word 0x00ab05b3  # add x11, x22, x10
    .word 0x00a5b533  # sltu x10, x11, x10
    .word 0x00058b13  # addi x22, x11, 0
    .word 0x00ab85b3  # add x11, x23, x10
    .word 0x00a5b533  # sltu x10, x11, x10
    .word 0x00058b93  # addi x23, x11, 0
    .word 0x00ac05b3  # add x11, x24, x10
    .word 0x00a5b533  # sltu x10, x11, x10
    .word 0x00058c13  # addi x24, x11, 0
    .word 0x00ac85b3  # add x11, x25, x10
    .word 0x00a5b533  # sltu x10, x11, x10
    .word 0x00058c93  # addi x25, x11, 0
    .word 0x00ad05b3  # add x11, x26, x10
    .word 0x00159513  # slli x10, x11, 1
    .word 0x00155513  # srli x10, x10, 1
    .word 0x05312023  # sw x19, 64(x2)
    .word 0x05412223  # sw x20, 68(x2)
    .word 0x05512423  # sw x21, 72(x2)
    .word 0x05612623  # sw x22, 76(x2)
    .word 0x05712823  # sw x23, 80(x2)
    .word 0x05812a23  # sw x24, 84(x2)
    .word 0x05912c23  # sw x25, 88(x2)
    .word 0x04a12e23  # sw x10, 92(x2)
    # the result
    .word 0x00000513  # addi x10, x0, 0
    # parameter 2: the array, back
    .word 0x04010293  # addi x5, x2, 64
    .word 0x09c12303  # lw x6, 156(x2)
    .word 0x02028393  # addi x7, x5, 32
    .word 0x08400f6f  # jal x30, 132
    # above the frame
    .word 0x07010293  # addi x5, x2, 112
    # the caller's registers
    .word 0x0002a903  # lw x18, 0(x5)
    .cfi_restore 18
    .word 0x0042a983  # lw x19, 4(x5)
    .cfi_restore 19
    .word 0x0082aa03  # lw x20, 8(x5)
    .cfi_restore 20
    .word 0x00c2aa83  # lw x21, 12(x5)
    .cfi_restore 21
    .word 0x0102ab03  # lw x22, 16(x5)
    .cfi_restore 22
    .word 0x0142ab83  # lw x23, 20(x5)
    .cfi_restore 23
    .word 0x0182ac03  # lw x24, 24(x5)
    .cfi_restore 24
    .word 0x01c2ac83  # lw x25, 28(x5)
    .cfi_restore 25
    .word 0x0202ad03  # lw x26, 32(x5)
    .cfi_restore 26
    # the caller's x2
    .word 0x03028293  # addi x5, x5, 48
    .cfi_def_cfa 5, 0
    # all the room, wiped upward
    .word 0x00012023  # sw x0, 0(x2)
    .word 0x00012223  # sw x0, 4(x2)
    .word 0x00012423  # sw x0, 8(x2)
    .word 0x00012623  # sw x0, 12(x2)
    .word 0x01010113  # addi x2, x2, 16
    .word 0xfe5116e3  # bne x2, x5, -20
    .cfi_def_cfa 2, 0
    # temporaries, wiped
    .word 0x00000293  # addi x5, x0, 0
    .word 0x00000313  # addi x6, x0, 0
    .word 0x00000393  # addi x7, x0, 0
    .word 0x00000593  # addi x11, x0, 0
    .word 0x00000613  # addi x12, x0, 0
    .word 0x00000693  # addi x13, x0, 0
    .word 0x00000713  # addi x14, x0, 0
    .word 0x00000793  # addi x15, x0, 0
    .word 0x00000813  # addi x16, x0, 0
    .word 0x00000893  # addi x17, x0, 0
    .word 0x00000e13  # addi x28, x0, 0
    .word 0x00000e93  # addi x29, x0, 0
    .word 0x00000f13  # addi x30, x0, 0
    .word 0x00000f93  # addi x31, x0, 0
    # back
    .word 0x00008067  # jalr x0, 0(x1)
    # from x5 to x6 up to x7, and back
    .cfi_def_cfa 2, 160
    .cfi_offset 18, -48
    .cfi_offset 19, -44
    .cfi_offset 20, -40
    .cfi_offset 21, -36
    .cfi_offset 22, -32
    .cfi_offset 23, -28
    .cfi_offset 24, -24
    .cfi_offset 25, -20
    .cfi_offset 26, -16
    .word 0x0062ee33  # or x28, x5, x6
    .word 0x003e7e13  # andi x28, x28, 3
    .word 0x000e0e63  # beq x28, x0, 28
    .word 0x0002ce03  # lbu x28, 0(x5)
    .word 0x01c30023  # sb x28, 0(x6)
    .word 0x00128293  # addi x5, x5, 1
    .word 0x00130313  # addi x6, x6, 1
    .word 0xfe7298e3  # bne x5, x7, -16
    .word 0x0300006f  # jal x0, 48
    .word 0x0002ae03  # lw x28, 0(x5)
    .word 0x01c32023  # sw x28, 0(x6)
    .word 0x0042ae03  # lw x28, 4(x5)
    .word 0x01c32223  # sw x28, 4(x6)
    .word 0x0082ae03  # lw x28, 8(x5)
    .word 0x01c32423  # sw x28, 8(x6)
    .word 0x00c2ae03  # lw x28, 12(x5)
    .word 0x01c32623  # sw x28, 12(x6)
    .word 0x01028293  # addi x5, x5, 16
    .word 0x01030313  # addi x6, x6, 16
    .word 0xfc729ce3  # bne x5, x7, -40
    .word 0x000f0067  # jalr x0, 0(x30)
    .cfi_endproc
    .size f25519_add, . - f25519_add
    .option pop
