# p256_add: made by factc 1.0.0 function; 179 words, 144 bytes of stack, profile 1
    .option push
    .option norvc
    .option norelax
    .cfi_sections .debug_frame
    .section .text.p256_add, "ax", @progbits
    .p2align 2
    .globl p256_add
    .type p256_add, @function
p256_add:
    .cfi_startproc
    # room above the frame
    .word 0xfe010113  # addi x2, x2, -32
    .cfi_def_cfa_offset 32
    # the caller's registers
    .word 0x01212023  # sw x18, 0(x2)
    .cfi_offset 18, -32
    .word 0x01312223  # sw x19, 4(x2)
    .cfi_offset 19, -28
    .word 0x01412423  # sw x20, 8(x2)
    .cfi_offset 20, -24
    # arguments that are needed behind the body
    .word 0x00a12a23  # sw x10, 20(x2)
    .word 0x00b12c23  # sw x11, 24(x2)
    .word 0x00c12e23  # sw x12, 28(x2)
    # the frame's base
    .word 0xf9010113  # addi x2, x2, -112
    .cfi_def_cfa 2, 144
    # parameter 0: an array
    .word 0x00050293  # addi x5, x10, 0
    .word 0x00010313  # addi x6, x2, 0
    .word 0x02028393  # addi x7, x5, 32
    .word 0x24c00f6f  # jal x30, 588
    # parameter 1: an array
    .word 0x00058293  # addi x5, x11, 0
    .word 0x02010313  # addi x6, x2, 32
    .word 0x02028393  # addi x7, x5, 32
    .word 0x23c00f6f  # jal x30, 572
    # the body
    .word 0x00012583  # lw x11, 0(x2)
    .word 0x02012303  # lw x6, 32(x2)
    .word 0x00658633  # add x12, x11, x6
    .word 0x00060693  # addi x13, x12, 0
    .word 0x00b63533  # sltu x10, x12, x11
    .word 0x00412583  # lw x11, 4(x2)
    .word 0x02412303  # lw x6, 36(x2)
    .word 0x00658633  # add x12, x11, x6
    .word 0x00a60733  # add x14, x12, x10
    .word 0x00b632b3  # sltu x5, x12, x11
    .word 0x00a73333  # sltu x6, x14, x10
    .word 0x00628533  # add x10, x5, x6
    .word 0x00812583  # lw x11, 8(x2)
    .word 0x02812303  # lw x6, 40(x2)
    .word 0x00658633  # add x12, x11, x6
    .word 0x00a607b3  # add x15, x12, x10
    .word 0x00b632b3  # sltu x5, x12, x11
    .word 0x00a7b333  # sltu x6, x15, x10
    .word 0x00628533  # add x10, x5, x6
    .word 0x00c12583  # lw x11, 12(x2)
    .word 0x02c12303  # lw x6, 44(x2)
    .word 0x00658633  # add x12, x11, x6
    .word 0x00a60833  # add x16, x12, x10
    .word 0x00b632b3  # sltu x5, x12, x11
    .word 0x00a83333  # sltu x6, x16, x10
    .word 0x00628533  # add x10, x5, x6
    .word 0x01012583  # lw x11, 16(x2)
    .word 0x03012303  # lw x6, 48(x2)
    .word 0x00658633  # add x12, x11, x6
    .word 0x00a608b3  # add x17, x12, x10
    .word 0x00b632b3  # sltu x5, x12, x11
    .word 0x00a8b333  # sltu x6, x17, x10
    .word 0x00628533  # add x10, x5, x6
    .word 0x01412583  # lw x11, 20(x2)
    .word 0x03412303  # lw x6, 52(x2)
    .word 0x00658633  # add x12, x11, x6
    .word 0x00a60933  # add x18, x12, x10
    .word 0x00b632b3  # sltu x5, x12, x11
    .word 0x00a93333  # sltu x6, x18, x10
    .word 0x00628533  # add x10, x5, x6
    .word 0x01812583  # lw x11, 24(x2)
    .word 0x03812303  # lw x6, 56(x2)
    .word 0x00658633  # add x12, x11, x6
    .word 0x00a609b3  # add x19, x12, x10
    .word 0x00b632b3  # sltu x5, x12, x11
    .word 0x00a9b333  # sltu x6, x19, x10
    .word 0x00628533  # add x10, x5, x6
    .word 0x01c12583  # lw x11, 28(x2)
    .word 0x03c12303  # lw x6, 60(x2)
    .word 0x00658633  # add x12, x11, x6
    .word 0x00a60a33  # add x20, x12, x10
    .word 0x00b632b3  # sltu x5, x12, x11
    .word 0x00aa3333  # sltu x6, x20, x10
    .word 0x00628533  # add x10, x5, x6
    .word 0x00168693  # addi x13, x13, 1
    .word 0x0016b593  # sltiu x11, x13, 1
    .word 0x00b70733  # add x14, x14, x11
    .word 0x00b735b3  # sltu x11, x14, x11
    .word 0x00b787b3  # add x15, x15, x11
    .word 0x00b7b5b3  # sltu x11, x15, x11
    .word 0x00100293  # addi x5, x0, 1
    .word 0x40b285b3  # sub x11, x5, x11
    .word 0x00080613  # addi x12, x16, 0
    .word 0x40b80833  # sub x16, x16, x11
    .word 0x00b635b3  # sltu x11, x12, x11
    .word 0x00088613  # addi x12, x17, 0
    .word 0x40b888b3  # sub x17, x17, x11
    .word 0x00b635b3  # sltu x11, x12, x11
    .word 0x00090613  # addi x12, x18, 0
    .word 0x40b90933  # sub x18, x18, x11
    .word 0x00b635b3  # sltu x11, x12, x11
    .word 0x00158593  # addi x11, x11, 1
    .word 0x00098613  # addi x12, x19, 0
    .word 0x40b989b3  # sub x19, x19, x11
    .word 0x00100293  # addi x5, x0, 1
    .word 0x00b63333  # sltu x6, x12, x11
    .word 0x406285b3  # sub x11, x5, x6
    .word 0x00ba0a33  # add x20, x20, x11
    .word 0x00ba35b3  # sltu x11, x20, x11
    .word 0x00100293  # addi x5, x0, 1
    .word 0x40a282b3  # sub x5, x5, x10
    .word 0x40b285b3  # sub x11, x5, x11
    .word 0x00068613  # addi x12, x13, 0
    .word 0x40b686b3  # sub x13, x13, x11
    .word 0x00b63533  # sltu x10, x12, x11
    .word 0x00070613  # addi x12, x14, 0
    .word 0x40a70733  # sub x14, x14, x10
    .word 0x00a63533  # sltu x10, x12, x10
    .word 0x00078613  # addi x12, x15, 0
    .word 0x40a787b3  # sub x15, x15, x10
    .word 0x00a63533  # sltu x10, x12, x10
    .word 0x40a58533  # sub x10, x11, x10
    .word 0x00a80833  # add x16, x16, x10
    .word 0x00a83533  # sltu x10, x16, x10
    .word 0x00a888b3  # add x17, x17, x10
    .word 0x00a8b533  # sltu x10, x17, x10
    .word 0x00a90933  # add x18, x18, x10
    .word 0x00a93533  # sltu x10, x18, x10
    .word 0x00b50533  # add x10, x10, x11
    .word 0x00a989b3  # add x19, x19, x10
    .word 0x00a9b533  # sltu x10, x19, x10
    .word 0x00aa02b3  # add x5, x20, x10
    .word 0x40b28a33  # sub x20, x5, x11
    .word 0x04d12023  # sw x13, 64(x2)
    .word 0x04e12223  # sw x14, 68(x2)
    .word 0x04f12423  # sw x15, 72(x2)
    .word 0x05012623  # sw x16, 76(x2)
    .word 0x05112823  # sw x17, 80(x2)
    .word 0x05212a23  # sw x18, 84(x2)
    .word 0x05312c23  # sw x19, 88(x2)
    .word 0x05412e23  # sw x20, 92(x2)
    # the result
    .word 0x00000513  # addi x10, x0, 0
    # parameter 2: the array, back
    .word 0x04010293  # addi x5, x2, 64
    .word 0x08c12303  # lw x6, 140(x2)
    .word 0x02028393  # addi x7, x5, 32
    .word 0x06c00f6f  # jal x30, 108
    # above the frame
    .word 0x07010293  # addi x5, x2, 112
    # the caller's registers
    .word 0x0002a903  # lw x18, 0(x5)
    .cfi_restore 18
    .word 0x0042a983  # lw x19, 4(x5)
    .cfi_restore 19
    .word 0x0082aa03  # lw x20, 8(x5)
    .cfi_restore 20
    # the caller's x2
    .word 0x02028293  # addi x5, x5, 32
    .cfi_def_cfa 5, 0
    # all the room, wiped upward
    .word 0x00012023  # sw x0, 0(x2)
    .word 0x00012223  # sw x0, 4(x2)
    .word 0x00012423  # sw x0, 8(x2)
    .word 0x00012623  # sw x0, 12(x2)
    .word 0x01010113  # addi x2, x2, 16
    .word 0xfe5116e3  # bne x2, x5, -20
    .cfi_def_cfa 2, 0
    # temporaries, wiped
    .word 0x00000293  # addi x5, x0, 0
    .word 0x00000313  # addi x6, x0, 0
    .word 0x00000393  # addi x7, x0, 0
    .word 0x00000593  # addi x11, x0, 0
    .word 0x00000613  # addi x12, x0, 0
    .word 0x00000693  # addi x13, x0, 0
    .word 0x00000713  # addi x14, x0, 0
    .word 0x00000793  # addi x15, x0, 0
    .word 0x00000813  # addi x16, x0, 0
    .word 0x00000893  # addi x17, x0, 0
    .word 0x00000e13  # addi x28, x0, 0
    .word 0x00000e93  # addi x29, x0, 0
    .word 0x00000f13  # addi x30, x0, 0
    .word 0x00000f93  # addi x31, x0, 0
    # back
    .word 0x00008067  # jalr x0, 0(x1)
    # from x5 to x6 up to x7, and back
    .cfi_def_cfa 2, 144
    .cfi_offset 18, -32
    .cfi_offset 19, -28
    .cfi_offset 20, -24
    .word 0x0062ee33  # or x28, x5, x6
    .word 0x003e7e13  # andi x28, x28, 3
    .word 0x000e0e63  # beq x28, x0, 28
    .word 0x0002ce03  # lbu x28, 0(x5)
    .word 0x01c30023  # sb x28, 0(x6)
    .word 0x00128293  # addi x5, x5, 1
    .word 0x00130313  # addi x6, x6, 1
    .word 0xfe7298e3  # bne x5, x7, -16
    .word 0x0300006f  # jal x0, 48
    .word 0x0002ae03  # lw x28, 0(x5)
    .word 0x01c32023  # sw x28, 0(x6)
    .word 0x0042ae03  # lw x28, 4(x5)
    .word 0x01c32223  # sw x28, 4(x6)
    .word 0x0082ae03  # lw x28, 8(x5)
    .word 0x01c32423  # sw x28, 8(x6)
    .word 0x00c2ae03  # lw x28, 12(x5)
    .word 0x01c32623  # sw x28, 12(x6)
    .word 0x01028293  # addi x5, x5, 16
    .word 0x01030313  # addi x6, x6, 16
    .word 0xfc729ce3  # bne x5, x7, -40
    .word 0x000f0067  # jalr x0, 0(x30)
    .cfi_endproc
    .size p256_add, . - p256_add
    .option pop
