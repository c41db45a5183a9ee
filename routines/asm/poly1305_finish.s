# poly1305_finish: made by factc 1.0.0 function; 249 words, 160 bytes of stack, profile 1
    .option push
    .option norvc
    .option norelax
    .cfi_sections .debug_frame
    .section .text.poly1305_finish, "ax", @progbits
    .p2align 2
    .globl poly1305_finish
    .type poly1305_finish, @function
poly1305_finish:
    .cfi_startproc
    # room above the frame
    .word 0xfd010113  # addi x2, x2, -48
    .cfi_def_cfa_offset 48
    # the caller's registers
    .word 0x01212023  # sw x18, 0(x2)
    .cfi_offset 18, -48
    .word 0x01312223  # sw x19, 4(x2)
    .cfi_offset 19, -44
    .word 0x01412423  # sw x20, 8(x2)
    .cfi_offset 20, -40
    .word 0x01512623  # sw x21, 12(x2)
    .cfi_offset 21, -36
    .word 0x01612823  # sw x22, 16(x2)
    .cfi_offset 22, -32
    .word 0x01712a23  # sw x23, 20(x2)
    .cfi_offset 23, -28
    .word 0x01812c23  # sw x24, 24(x2)
    .cfi_offset 24, -24
    .word 0x01912e23  # sw x25, 28(x2)
    .cfi_offset 25, -20
    .word 0x03a12023  # sw x26, 32(x2)
    .cfi_offset 26, -16
    # arguments that are needed behind the body
    .word 0x02a12223  # sw x10, 36(x2)
    .word 0x02b12423  # sw x11, 40(x2)
    .word 0x02c12623  # sw x12, 44(x2)
    # the frame's base
    .word 0xf9010113  # addi x2, x2, -112
    .cfi_def_cfa 2, 160
    # the frame's word at 92, zeroed
    .word 0x04012e23  # sw x0, 92(x2)
    # the frame's word at 96, zeroed
    .word 0x06012023  # sw x0, 96(x2)
    # parameter 0: an array
    .word 0x00050293  # addi x5, x10, 0
    .word 0x00010313  # addi x6, x2, 0
    .word 0x02028393  # addi x7, x5, 32
    .word 0x34400f6f  # jal x30, 836
    # parameter 1: an array
    .word 0x00058293  # addi x5, x11, 0
    .word 0x02010313  # addi x6, x2, 32
    .word 0x02028393  # addi x7, x5, 32
    .word 0x33400f6f  # jal x30, 820
    .word 0x0002ae03  # lw x28, 0(x5)
    .word 0x01c32023  # sw x28, 0(x6)
    .word 0x0042ae03  # lw x28, 4(x5)
    .word 0x01c32223  # sw x28, 4(x6)
    # the body
    .word 0x05c12d03  # lw x26, 92(x2)
    .word 0x04000cb7  # lui x25, 0x04000
    .word 0xfffc8c93  # addi x25, x25, -1
    .word 0x02012283  # lw x5, 32(x2)
    .word 0x02412303  # lw x6, 36(x2)
    .word 0x00d31313  # slli x6, x6, 13
    .word 0x00628bb3  # add x23, x5, x6
    .word 0x019bfc33  # and x24, x23, x25
    .word 0x01abdb93  # srli x23, x23, 26
    .word 0x02812283  # lw x5, 40(x2)
    .word 0x02c12303  # lw x6, 44(x2)
    .word 0x00d31313  # slli x6, x6, 13
    .word 0x006282b3  # add x5, x5, x6
    .word 0x01728bb3  # add x23, x5, x23
    .word 0x019bf7b3  # and x15, x23, x25
    .word 0x01abdb93  # srli x23, x23, 26
    .word 0x01a79313  # slli x6, x15, 26
    .word 0x006c6733  # or x14, x24, x6
    .word 0x0067d793  # srli x15, x15, 6
    .word 0x03012283  # lw x5, 48(x2)
    .word 0x03412303  # lw x6, 52(x2)
    .word 0x00d31313  # slli x6, x6, 13
    .word 0x006282b3  # add x5, x5, x6
    .word 0x01728bb3  # add x23, x5, x23
    .word 0x019bfc33  # and x24, x23, x25
    .word 0x01abdb93  # srli x23, x23, 26
    .word 0x014c1313  # slli x6, x24, 20
    .word 0x0067e7b3  # or x15, x15, x6
    .word 0x00cc5813  # srli x16, x24, 12
    .word 0x03812283  # lw x5, 56(x2)
    .word 0x03c12303  # lw x6, 60(x2)
    .word 0x00d31313  # slli x6, x6, 13
    .word 0x006282b3  # add x5, x5, x6
    .word 0x01728bb3  # add x23, x5, x23
    .word 0x019bfc33  # and x24, x23, x25
    .word 0x01abdb93  # srli x23, x23, 26
    .word 0x00ec1313  # slli x6, x24, 14
    .word 0x00686833  # or x16, x16, x6
    .word 0x012c5893  # srli x17, x24, 18
    .word 0x04012283  # lw x5, 64(x2)
    .word 0x04412303  # lw x6, 68(x2)
    .word 0x00d31313  # slli x6, x6, 13
    .word 0x006282b3  # add x5, x5, x6
    .word 0x01728bb3  # add x23, x5, x23
    .word 0x008b9313  # slli x6, x23, 8
    .word 0x0068e8b3  # or x17, x17, x6
    .word 0x018bd913  # srli x18, x23, 24
    .word 0x00295b93  # srli x23, x18, 2
    .word 0x002b9313  # slli x6, x23, 2
    .word 0x006b8bb3  # add x23, x23, x6
    .word 0x00eb8bb3  # add x23, x23, x14
    .word 0x00ebbc33  # sltu x24, x23, x14
    .word 0x000b8713  # addi x14, x23, 0
    .word 0x000c0b93  # addi x23, x24, 0
    .word 0x00fb8bb3  # add x23, x23, x15
    .word 0x00fbbc33  # sltu x24, x23, x15
    .word 0x000b8793  # addi x15, x23, 0
    .word 0x000c0b93  # addi x23, x24, 0
    .word 0x010b8bb3  # add x23, x23, x16
    .word 0x010bbc33  # sltu x24, x23, x16
    .word 0x000b8813  # addi x16, x23, 0
    .word 0x000c0b93  # addi x23, x24, 0
    .word 0x011b8bb3  # add x23, x23, x17
    .word 0x011bbc33  # sltu x24, x23, x17
    .word 0x000b8893  # addi x17, x23, 0
    .word 0x000c0b93  # addi x23, x24, 0
    .word 0x00397293  # andi x5, x18, 3
    .word 0x01728933  # add x18, x5, x23
    .word 0x00570b93  # addi x23, x14, 5
    .word 0x00ebbc33  # sltu x24, x23, x14
    .word 0x000b8993  # addi x19, x23, 0
    .word 0x000c0b93  # addi x23, x24, 0
    .word 0x00fb8bb3  # add x23, x23, x15
    .word 0x00fbbc33  # sltu x24, x23, x15
    .word 0x000b8a13  # addi x20, x23, 0
    .word 0x000c0b93  # addi x23, x24, 0
    .word 0x010b8bb3  # add x23, x23, x16
    .word 0x010bbc33  # sltu x24, x23, x16
    .word 0x000b8a93  # addi x21, x23, 0
    .word 0x000c0b93  # addi x23, x24, 0
    .word 0x011b8bb3  # add x23, x23, x17
    .word 0x011bbc33  # sltu x24, x23, x17
    .word 0x000b8b13  # addi x22, x23, 0
    .word 0x000c0b93  # addi x23, x24, 0
    .word 0x017902b3  # add x5, x18, x23
    .word 0x0042b293  # sltiu x5, x5, 4
    .word 0x0012b293  # sltiu x5, x5, 1
    .word 0x40500d33  # sub x26, x0, x5
    .word 0x00e9c2b3  # xor x5, x19, x14
    .word 0x01a2f2b3  # and x5, x5, x26
    .word 0x00574733  # xor x14, x14, x5
    .word 0x00fa42b3  # xor x5, x20, x15
    .word 0x01a2f2b3  # and x5, x5, x26
    .word 0x0057c7b3  # xor x15, x15, x5
    .word 0x010ac2b3  # xor x5, x21, x16
    .word 0x01a2f2b3  # and x5, x5, x26
    .word 0x00584833  # xor x16, x16, x5
    .word 0x011b42b3  # xor x5, x22, x17
    .word 0x01a2f2b3  # and x5, x5, x26
    .word 0x0058c8b3  # xor x17, x17, x5
    .word 0x01014503  # lbu x10, 16(x2)
    .word 0x01114583  # lbu x11, 17(x2)
    .word 0x01214603  # lbu x12, 18(x2)
    .word 0x01314683  # lbu x13, 19(x2)
    .word 0x00859313  # slli x6, x11, 8
    .word 0x006562b3  # or x5, x10, x6
    .word 0x01061313  # slli x6, x12, 16
    .word 0x0062e2b3  # or x5, x5, x6
    .word 0x01869313  # slli x6, x13, 24
    .word 0x0062e933  # or x18, x5, x6
    .word 0x00e73c33  # sltu x24, x14, x14
    .word 0x01270bb3  # add x23, x14, x18
    .word 0x012bb333  # sltu x6, x23, x18
    .word 0x006c0c33  # add x24, x24, x6
    .word 0x05712423  # sw x23, 72(x2)
    .word 0x000c0b93  # addi x23, x24, 0
    .word 0x01414503  # lbu x10, 20(x2)
    .word 0x01514583  # lbu x11, 21(x2)
    .word 0x01614603  # lbu x12, 22(x2)
    .word 0x01714683  # lbu x13, 23(x2)
    .word 0x00859313  # slli x6, x11, 8
    .word 0x006562b3  # or x5, x10, x6
    .word 0x01061313  # slli x6, x12, 16
    .word 0x0062e2b3  # or x5, x5, x6
    .word 0x01869313  # slli x6, x13, 24
    .word 0x0062e733  # or x14, x5, x6
    .word 0x00fb8bb3  # add x23, x23, x15
    .word 0x00fbbc33  # sltu x24, x23, x15
    .word 0x00eb8bb3  # add x23, x23, x14
    .word 0x00ebb333  # sltu x6, x23, x14
    .word 0x006c0c33  # add x24, x24, x6
    .word 0x05712623  # sw x23, 76(x2)
    .word 0x000c0b93  # addi x23, x24, 0
    .word 0x01814503  # lbu x10, 24(x2)
    .word 0x01914583  # lbu x11, 25(x2)
    .word 0x01a14603  # lbu x12, 26(x2)
    .word 0x01b14683  # lbu x13, 27(x2)
    .word 0x00859313  # slli x6, x11, 8
    .word 0x006562b3  # or x5, x10, x6
    .word 0x01061313  # slli x6, x12, 16
    .word 0x0062e2b3  # or x5, x5, x6
    .word 0x01869313  # slli x6, x13, 24
    .word 0x0062e733  # or x14, x5, x6
    .word 0x010b8bb3  # add x23, x23, x16
    .word 0x010bbc33  # sltu x24, x23, x16
    .word 0x00eb8bb3  # add x23, x23, x14
    .word 0x00ebb333  # sltu x6, x23, x14
    .word 0x006c0c33  # add x24, x24, x6
    .word 0x05712823  # sw x23, 80(x2)
    .word 0x000c0b93  # addi x23, x24, 0
    .word 0x01c14503  # lbu x10, 28(x2)
    .word 0x01d14583  # lbu x11, 29(x2)
    .word 0x01e14603  # lbu x12, 30(x2)
    .word 0x01f14683  # lbu x13, 31(x2)
    .word 0x00859313  # slli x6, x11, 8
    .word 0x006562b3  # or x5, x10, x6
    .word 0x01061313  # slli x6, x12, 16
    .word 0x0062e2b3  # or x5, x5, x6
    .word 0x01869313  # slli x6, x13, 24
    .word 0x0062ec33  # or x24, x5, x6
    .word 0x011b8bb3  # add x23, x23, x17
    .word 0x018b8bb3  # add x23, x23, x24
    .word 0x05712a23  # sw x23, 84(x2)
    # the result
    .word 0x00000513  # addi x10, x0, 0
    # parameter 2: the array, back
    .word 0x04810293  # addi x5, x2, 72
    .word 0x09c12303  # lw x6, 156(x2)
    .word 0x01028393  # addi x7, x5, 16
    .word 0x08400f6f  # jal x30, 132
    # above the frame
    .word 0x07010293  # addi x5, x2, 112
    # the caller's registers
    .word 0x0002a903  # lw x18, 0(x5)
    .cfi_restore 18
    .word 0x0042a983  # lw x19, 4(x5)
    .cfi_restore 19
    .word 0x0082aa03  # lw x20, 8(x5)
    .cfi_restore 20
    .word 0x00c2aa83  # lw x21, 12(x5)
    .cfi_restore 21
    .word 0x0102ab03  # lw x22, 16(x5)
    .cfi_restore 22
    .word 0x0142ab83  # lw x23, 20(x5)
    .cfi_restore 23
    .word 0x0182ac03  # lw x24, 24(x5)
    .cfi_restore 24
    .word 0x01c2ac83  # lw x25, 28(x5)
    .cfi_restore 25
    .word 0x0202ad03  # lw x26, 32(x5)
    .cfi_restore 26
    # the caller's x2
    .word 0x03028293  # addi x5, x5, 48
    .cfi_def_cfa 5, 0
    # all the room, wiped upward
    .word 0x00012023  # sw x0, 0(x2)
    .word 0x00012223  # sw x0, 4(x2)
    .word 0x00012423  # sw x0, 8(x2)
    .word 0x00012623  # sw x0, 12(x2)
    .word 0x01010113  # addi x2, x2, 16
    .word 0xfe5116e3  # bne x2, x5, -20
    .cfi_def_cfa 2, 0
    # temporaries, wiped
    .word 0x00000293  # addi x5, x0, 0
    .word 0x00000313  # addi x6, x0, 0
    .word 0x00000393  # addi x7, x0, 0
    .word 0x00000593  # addi x11, x0, 0
    .word 0x00000613  # addi x12, x0, 0
    .word 0x00000693  # addi x13, x0, 0
    .word 0x00000713  # addi x14, x0, 0
    .word 0x00000793  # addi x15, x0, 0
    .word 0x00000813  # addi x16, x0, 0
    .word 0x00000893  # addi x17, x0, 0
    .word 0x00000e13  # addi x28, x0, 0
    .word 0x00000e93  # addi x29, x0, 0
    .word 0x00000f13  # addi x30, x0, 0
    .word 0x00000f93  # addi x31, x0, 0
    # back
    .word 0x00008067  # jalr x0, 0(x1)
    # from x5 to x6 up to x7, and back
    .cfi_def_cfa 2, 160
    .cfi_offset 18, -48
    .cfi_offset 19, -44
    .cfi_offset 20, -40
    .cfi_offset 21, -36
    .cfi_offset 22, -32
    .cfi_offset 23, -28
    .cfi_offset 24, -24
    .cfi_offset 25, -20
    .cfi_offset 26, -16
    .word 0x0062ee33  # or x28, x5, x6
    .word 0x003e7e13  # andi x28, x28, 3
    .word 0x000e0e63  # beq x28, x0, 28
    .word 0x0002ce03  # lbu x28, 0(x5)
    .word 0x01c30023  # sb x28, 0(x6)
    .word 0x00128293  # addi x5, x5, 1
    .word 0x00130313  # addi x6, x6, 1
    .word 0xfe7298e3  # bne x5, x7, -16
    .word 0x0300006f  # jal x0, 48
    .word 0x0002ae03  # lw x28, 0(x5)
    .word 0x01c32023  # sw x28, 0(x6)
    .word 0x0042ae03  # lw x28, 4(x5)
    .word 0x01c32223  # sw x28, 4(x6)
    .word 0x0082ae03  # lw x28, 8(x5)
    .word 0x01c32423  # sw x28, 8(x6)
    .word 0x00c2ae03  # lw x28, 12(x5)
    .word 0x01c32623  # sw x28, 12(x6)
    .word 0x01028293  # addi x5, x5, 16
    .word 0x01030313  # addi x6, x6, 16
    .word 0xfc729ce3  # bne x5, x7, -40
    .word 0x000f0067  # jalr x0, 0(x30)
    .cfi_endproc
    .size poly1305_finish, . - poly1305_finish
    .option pop
