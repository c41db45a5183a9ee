# sort_pairs_16: made by factc 1.0.0 function; 143 words, 208 bytes of stack, profile 1
    .option push
    .option norvc
    .option norelax
    .cfi_sections .debug_frame
    .section .text.sort_pairs_16, "ax", @progbits
    .p2align 2
    .globl sort_pairs_16
    .type sort_pairs_16, @function
sort_pairs_16:
    .cfi_startproc
    # room above the frame
    .word 0xfd010113  # addi x2, x2, -48
    .cfi_def_cfa_offset 48
    # the caller's registers
    .word 0x01212023  # sw x18, 0(x2)
    .cfi_offset 18, -48
    .word 0x01312223  # sw x19, 4(x2)
    .cfi_offset 19, -44
    .word 0x01412423  # sw x20, 8(x2)
    .cfi_offset 20, -40
    .word 0x01512623  # sw x21, 12(x2)
    .cfi_offset 21, -36
    .word 0x01612823  # sw x22, 16(x2)
    .cfi_offset 22, -32
    .word 0x01712a23  # sw x23, 20(x2)
    .cfi_offset 23, -28
    .word 0x01812c23  # sw x24, 24(x2)
    .cfi_offset 24, -24
    .word 0x01912e23  # sw x25, 28(x2)
    .cfi_offset 25, -20
    .word 0x03a12023  # sw x26, 32(x2)
    .cfi_offset 26, -16
    .word 0x03b12223  # sw x27, 36(x2)
    .cfi_offset 27, -12
    # arguments that are needed behind the body
    .word 0x02a12423  # sw x10, 40(x2)
    .word 0x02b12623  # sw x11, 44(x2)
    # the frame's base
    .word 0xf6010113  # addi x2, x2, -160
    .cfi_def_cfa 2, 208
    # parameter 0: an array
    .word 0x00050293  # addi x5, x10, 0
    .word 0x00010313  # addi x6, x2, 0
    .word 0x04028393  # addi x7, x5, 64
    .word 0x1a400f6f  # jal x30, 420
    # parameter 1: an array
    .word 0x00058293  # addi x5, x11, 0
    .word 0x04010313  # addi x6, x2, 64
    .word 0x04028393  # addi x7, x5, 64
    .word 0x19400f6f  # jal x30, 404
    # the body
    .word 0x00100513  # addi x10, x0, 1
    .word 0x00000593  # addi x11, x0, 0
    .word 0xfff00613  # addi x12, x0, -1
    .word 0x00160613  # addi x12, x12, 1
    .word 0x00100293  # addi x5, x0, 1
    .word 0x00b296b3  # sll x13, x5, x11
    .word 0xfff00713  # addi x14, x0, -1
    .word 0x00170713  # addi x14, x14, 1
    .word 0x00b752b3  # srl x5, x14, x11
    .word 0x00158313  # addi x6, x11, 1
    .word 0x006292b3  # sll x5, x5, x6
    .word 0xfff68393  # addi x7, x13, -1
    .word 0x00777333  # and x6, x14, x7
    .word 0x0062e2b3  # or x5, x5, x6
    .word 0x00f2f793  # andi x15, x5, 15
    .word 0x00279d13  # slli x26, x15, 2
    .word 0x002d0d33  # add x26, x26, x2
    .word 0x00d7e2b3  # or x5, x15, x13
    .word 0x00f2f813  # andi x16, x5, 15
    .word 0x00281d93  # slli x27, x16, 2
    .word 0x002d8db3  # add x27, x27, x2
    .word 0x000d2883  # lw x17, 0(x26)
    .word 0x000da903  # lw x18, 0(x27)
    .word 0x040d2983  # lw x19, 64(x26)
    .word 0x040daa03  # lw x20, 64(x27)
    .word 0x011932b3  # sltu x5, x18, x17
    .word 0x41190333  # sub x6, x18, x17
    .word 0x00133313  # sltiu x6, x6, 1
    .word 0x013a33b3  # sltu x7, x20, x19
    .word 0x00737333  # and x6, x6, x7
    .word 0x0062eab3  # or x21, x5, x6
    .word 0x00a7d2b3  # srl x5, x15, x10
    .word 0x0012fb13  # andi x22, x5, 1
    .word 0x016ac2b3  # xor x5, x21, x22
    .word 0x40500bb3  # sub x23, x0, x5
    .word 0x0128c333  # xor x6, x17, x18
    .word 0x006bfc33  # and x24, x23, x6
    .word 0x0149c333  # xor x6, x19, x20
    .word 0x006bfbb3  # and x23, x23, x6
    .word 0x0188c2b3  # xor x5, x17, x24
    .word 0x005d2023  # sw x5, 0(x26)
    .word 0x018942b3  # xor x5, x18, x24
    .word 0x005da023  # sw x5, 0(x27)
    .word 0x0179c2b3  # xor x5, x19, x23
    .word 0x045d2023  # sw x5, 64(x26)
    .word 0x017a42b3  # xor x5, x20, x23
    .word 0x045da023  # sw x5, 64(x27)
    .word 0xff970293  # addi x5, x14, -7
    .word 0xf4029ee3  # bne x5, x0, -164
    .word 0x0015bc93  # sltiu x25, x11, 1
    .word 0xfff58393  # addi x7, x11, -1
    .word 0x419002b3  # sub x5, x0, x25
    .word 0x00754333  # xor x6, x10, x7
    .word 0x00537333  # and x6, x6, x5
    .word 0x0063c5b3  # xor x11, x7, x6
    .word 0x01950533  # add x10, x10, x25
    .word 0xff760293  # addi x5, x12, -9
    .word 0xf20294e3  # bne x5, x0, -216
    # the result
    .word 0x00000513  # addi x10, x0, 0
    # parameter 0: the array, back
    .word 0x00010293  # addi x5, x2, 0
    .word 0x0c812303  # lw x6, 200(x2)
    .word 0x04028393  # addi x7, x5, 64
    .word 0x09800f6f  # jal x30, 152
    # parameter 1: the array, back
    .word 0x04010293  # addi x5, x2, 64
    .word 0x0cc12303  # lw x6, 204(x2)
    .word 0x04028393  # addi x7, x5, 64
    .word 0x08800f6f  # jal x30, 136
    # above the frame
    .word 0x0a010293  # addi x5, x2, 160
    # the caller's registers
    .word 0x0002a903  # lw x18, 0(x5)
    .cfi_restore 18
    .word 0x0042a983  # lw x19, 4(x5)
    .cfi_restore 19
    .word 0x0082aa03  # lw x20, 8(x5)
    .cfi_restore 20
    .word 0x00c2aa83  # lw x21, 12(x5)
    .cfi_restore 21
    .word 0x0102ab03  # lw x22, 16(x5)
    .cfi_restore 22
    .word 0x0142ab83  # lw x23, 20(x5)
    .cfi_restore 23
    .word 0x0182ac03  # lw x24, 24(x5)
    .cfi_restore 24
    .word 0x01c2ac83  # lw x25, 28(x5)
    .cfi_restore 25
    .word 0x0202ad03  # lw x26, 32(x5)
    .cfi_restore 26
    .word 0x0242ad83  # lw x27, 36(x5)
    .cfi_restore 27
    # the caller's x2
    .word 0x03028293  # addi x5, x5, 48
    .cfi_def_cfa 5, 0
    # all the room, wiped upward
    .word 0x00012023  # sw x0, 0(x2)
    .word 0x00012223  # sw x0, 4(x2)
    .word 0x00012423  # sw x0, 8(x2)
    .word 0x00012623  # sw x0, 12(x2)
    .word 0x01010113  # addi x2, x2, 16
    .word 0xfe5116e3  # bne x2, x5, -20
    .cfi_def_cfa 2, 0
    # temporaries, wiped
    .word 0x00000293  # addi x5, x0, 0
    .word 0x00000313  # addi x6, x0, 0
    .word 0x00000393  # addi x7, x0, 0
    .word 0x00000593  # addi x11, x0, 0
    .word 0x00000613  # addi x12, x0, 0
    .word 0x00000693  # addi x13, x0, 0
    .word 0x00000713  # addi x14, x0, 0
    .word 0x00000793  # addi x15, x0, 0
    .word 0x00000813  # addi x16, x0, 0
    .word 0x00000893  # addi x17, x0, 0
    .word 0x00000e13  # addi x28, x0, 0
    .word 0x00000e93  # addi x29, x0, 0
    .word 0x00000f13  # addi x30, x0, 0
    .word 0x00000f93  # addi x31, x0, 0
    # back
    .word 0x00008067  # jalr x0, 0(x1)
    # from x5 to x6 up to x7, and back
    .cfi_def_cfa 2, 208
    .cfi_offset 18, -48
    .cfi_offset 19, -44
    .cfi_offset 20, -40
    .cfi_offset 21, -36
    .cfi_offset 22, -32
    .cfi_offset 23, -28
    .cfi_offset 24, -24
    .cfi_offset 25, -20
    .cfi_offset 26, -16
    .cfi_offset 27, -12
    .word 0x0062ee33  # or x28, x5, x6
    .word 0x003e7e13  # andi x28, x28, 3
    .word 0x000e0e63  # beq x28, x0, 28
    .word 0x0002ce03  # lbu x28, 0(x5)
    .word 0x01c30023  # sb x28, 0(x6)
    .word 0x00128293  # addi x5, x5, 1
    .word 0x00130313  # addi x6, x6, 1
    .word 0xfe7298e3  # bne x5, x7, -16
    .word 0x0300006f  # jal x0, 48
    .word 0x0002ae03  # lw x28, 0(x5)
    .word 0x01c32023  # sw x28, 0(x6)
    .word 0x0042ae03  # lw x28, 4(x5)
    .word 0x01c32223  # sw x28, 4(x6)
    .word 0x0082ae03  # lw x28, 8(x5)
    .word 0x01c32423  # sw x28, 8(x6)
    .word 0x00c2ae03  # lw x28, 12(x5)
    .word 0x01c32623  # sw x28, 12(x6)
    .word 0x01028293  # addi x5, x5, 16
    .word 0x01030313  # addi x6, x6, 16
    .word 0xfc729ce3  # bne x5, x7, -40
    .word 0x000f0067  # jalr x0, 0(x30)
    .cfi_endproc
    .size sort_pairs_16, . - sort_pairs_16
    .option pop
