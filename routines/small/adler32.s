# adler32: made by factc 1.0.0 function; 103 words and 21 shared, 112 bytes of stack, profile 1
    .option push
    .option norvc
    .option norelax
    .cfi_sections .debug_frame
    .section .text.adler32, "ax", @progbits
    .p2align 2
    .globl adler32
    .type adler32, @function
adler32:
    .cfi_startproc
    # room above the frame
    .word 0xff010113  # addi x2, x2, -16
    .cfi_def_cfa_offset 16
    # the caller's registers
    .word 0x01212023  # sw x18, 0(x2)
    .cfi_offset 18, -16
    .word 0x01312223  # sw x19, 4(x2)
    .cfi_offset 19, -12
    # arguments that are needed behind the body
    # the frame's base
    .word 0xfa010113  # addi x2, x2, -96
    .cfi_def_cfa 2, 112
    # parameter 0: a word
    .word 0x00a12023  # sw x10, 0(x2)
    # parameter 1: an array
    .word 0x00058293  # addi x5, x11, 0
    .word 0x00410313  # addi x6, x2, 4
    .word 0x04028393  # addi x7, x5, 64
    .word 0x0002ce03  # lbu x28, 0(x5)
    .word 0x01c30023  # sb x28, 0(x6)
    .word 0x00128293  # addi x5, x5, 1
    .word 0x00130313  # addi x6, x6, 1
    .word 0xfe7298e3  # bne x5, x7, -16
    # parameter 2: a word
    .word 0x04c12223  # sw x12, 68(x2)
    # the body
    .word 0x00012503  # lw x10, 0(x2)
    .word 0x04412583  # lw x11, 68(x2)
    .word 0x00000713  # addi x14, x0, 0
    .word 0x000109b7  # lui x19, 0x00010
    .word 0xff198993  # addi x19, x19, -15
    .word 0x01051613  # slli x12, x10, 16
    .word 0x01065613  # srli x12, x12, 16
    .word 0x01055693  # srli x13, x10, 16
    .word 0x0405b293  # sltiu x5, x11, 64
    .word 0x03f5f313  # andi x6, x11, 63
    .word 0x04000393  # addi x7, x0, 64
    .word 0x405002b3  # sub x5, x0, x5
    .word 0x00734333  # xor x6, x6, x7
    .word 0x00537333  # and x6, x6, x5
    .word 0x0063c8b3  # xor x17, x7, x6
    .word 0x04012623  # sw x0, 76(x2)
    .word 0x0038d293  # srli x5, x17, 3
    .word 0x04512823  # sw x5, 80(x2)
    .word 0x04c12303  # lw x6, 76(x2)
    .word 0x05012283  # lw x5, 80(x2)
    .word 0x005332b3  # sltu x5, x6, x5
    .word 0x00029463  # bne x5, x0, 8
    .word 0x0480006f  # jal x0, 72
    .word 0x00030713  # addi x14, x6, 0
    .word 0x00371793  # slli x15, x14, 3
    .word 0xfff00813  # addi x16, x0, -1
    .word 0x00180813  # addi x16, x16, 1
    .word 0x01078333  # add x6, x15, x16
    .word 0x00230333  # add x6, x6, x2
    .word 0x00434303  # lbu x6, 4(x6)
    .word 0x00660633  # add x12, x12, x6
    .word 0x00c686b3  # add x13, x13, x12
    .word 0xff980293  # addi x5, x16, -7
    .word 0xfe0292e3  # bne x5, x0, -28
    .word 0x00170713  # addi x14, x14, 1
    .word 0x05012283  # lw x5, 80(x2)
    .word 0x005732b3  # sltu x5, x14, x5
    .word 0xfc0296e3  # bne x5, x0, -52
    .word 0xfff70713  # addi x14, x14, -1
    .word 0x0040006f  # jal x0, 4
    .word 0x0038d293  # srli x5, x17, 3
    .word 0x00329293  # slli x5, x5, 3
    .word 0x04512623  # sw x5, 76(x2)
    .word 0x05112823  # sw x17, 80(x2)
    .word 0x04c12303  # lw x6, 76(x2)
    .word 0x05012283  # lw x5, 80(x2)
    .word 0x005332b3  # sltu x5, x6, x5
    .word 0x00029463  # bne x5, x0, 8
    .word 0x0300006f  # jal x0, 48
    .word 0x00030893  # addi x17, x6, 0
    .word 0x00288333  # add x6, x17, x2
    .word 0x00434303  # lbu x6, 4(x6)
    .word 0x00660633  # add x12, x12, x6
    .word 0x00c686b3  # add x13, x13, x12
    .word 0x00188893  # addi x17, x17, 1
    .word 0x05012283  # lw x5, 80(x2)
    .word 0x0058b2b3  # sltu x5, x17, x5
    .word 0xfe0292e3  # bne x5, x0, -28
    .word 0xfff88893  # addi x17, x17, -1
    .word 0x0040006f  # jal x0, 4
    .word 0x01065913  # srli x18, x12, 16
    .word 0x01061293  # slli x5, x12, 16
    .word 0x0102d293  # srli x5, x5, 16
    .word 0x00491313  # slli x6, x18, 4
    .word 0x006282b3  # add x5, x5, x6
    .word 0x41228633  # sub x12, x5, x18
    .word 0x01363333  # sltu x6, x12, x19
    .word 0xfff30313  # addi x6, x6, -1
    .word 0x0069f333  # and x6, x19, x6
    .word 0x40660633  # sub x12, x12, x6
    .word 0x0106d913  # srli x18, x13, 16
    .word 0x01069293  # slli x5, x13, 16
    .word 0x0102d293  # srli x5, x5, 16
    .word 0x00491313  # slli x6, x18, 4
    .word 0x006282b3  # add x5, x5, x6
    .word 0x412286b3  # sub x13, x5, x18
    .word 0x0136b333  # sltu x6, x13, x19
    .word 0xfff30313  # addi x6, x6, -1
    .word 0x0069f333  # and x6, x19, x6
    .word 0x406686b3  # sub x13, x13, x6
    .word 0x01069293  # slli x5, x13, 16
    .word 0x00c2e2b3  # or x5, x5, x12
    .word 0x04512423  # sw x5, 72(x2)
    # the result
    .word 0x04812503  # lw x10, 72(x2)
    # above the frame
    .word 0x06010293  # addi x5, x2, 96
    # the caller's registers
    .word 0x0002a903  # lw x18, 0(x5)
    .cfi_restore 18
    .word 0x0042a983  # lw x19, 4(x5)
    .cfi_restore 19
    # the caller's x2
    .word 0x01028293  # addi x5, x5, 16
    .cfi_def_cfa 5, 0
    # on to the tail that functions share
    jal x0, factc.tail.1
    .cfi_endproc
    .size adler32, . - adler32
    .section .text.factc.tail.1, "axG", @progbits, factc.tail.1, comdat
    .p2align 2
    .globl factc.tail.1
    .hidden factc.tail.1
    .type factc.tail.1, @function
factc.tail.1:
    .cfi_startproc
    .cfi_def_cfa 5, 0
    # all the room, wiped upward
    .word 0x00012023  # sw x0, 0(x2)
    .word 0x00012223  # sw x0, 4(x2)
    .word 0x00012423  # sw x0, 8(x2)
    .word 0x00012623  # sw x0, 12(x2)
    .word 0x01010113  # addi x2, x2, 16
    .word 0xfe5116e3  # bne x2, x5, -20
    .cfi_def_cfa 2, 0
    # temporaries, wiped
    .word 0x00000293  # addi x5, x0, 0
    .word 0x00000313  # addi x6, x0, 0
    .word 0x00000393  # addi x7, x0, 0
    .word 0x00000593  # addi x11, x0, 0
    .word 0x00000613  # addi x12, x0, 0
    .word 0x00000693  # addi x13, x0, 0
    .word 0x00000713  # addi x14, x0, 0
    .word 0x00000793  # addi x15, x0, 0
    .word 0x00000813  # addi x16, x0, 0
    .word 0x00000893  # addi x17, x0, 0
    .word 0x00000e13  # addi x28, x0, 0
    .word 0x00000e93  # addi x29, x0, 0
    .word 0x00000f13  # addi x30, x0, 0
    .word 0x00000f93  # addi x31, x0, 0
    # back
    .word 0x00008067  # jalr x0, 0(x1)
    .cfi_endproc
    .size factc.tail.1, . - factc.tail.1
    .option pop
