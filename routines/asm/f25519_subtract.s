# f25519_subtract: made by factc 1.0.0 function; 250 words, 144 bytes of stack, profile 1
    .option push
    .option norvc
    .option norelax
    .cfi_sections .debug_frame
    .section .text.f25519_subtract, "ax", @progbits
    .p2align 2
    .globl f25519_subtract
    .type f25519_subtract, @function
f25519_subtract:
    .cfi_startproc
    # room above the frame
    .word 0xfe010113  # addi x2, x2, -32
    .cfi_def_cfa_offset 32
    # the caller's registers
    .word 0x01212023  # sw x18, 0(x2)
    .cfi_offset 18, -32
    .word 0x01312223  # sw x19, 4(x2)
    .cfi_offset 19, -28
    .word 0x01412423  # sw x20, 8(x2)
    .cfi_offset 20, -24
    .word 0x01512623  # sw x21, 12(x2)
    .cfi_offset 21, -20
    .word 0x01612823  # sw x22, 16(x2)
    .cfi_offset 22, -16
    # arguments that are needed behind the body
    .word 0x00a12a23  # sw x10, 20(x2)
    .word 0x00b12c23  # sw x11, 24(x2)
    .word 0x00c12e23  # sw x12, 28(x2)
    # the frame's base
    .word 0xf9010113  # addi x2, x2, -112
    .cfi_def_cfa 2, 144
    # parameter 0: an array
    .word 0x00050293  # addi x5, x10, 0
    .word 0x00010313  # addi x6, x2, 0
    .word 0x02028393  # addi x7, x5, 32
    .word 0x36000f6f  # jal x30, 864
    # parameter 1: an array
    .word 0x00058293  # addi x5, x11, 0
    .word 0x02010313  # addi x6, x2, 32
    .word 0x02028393  # addi x7, x5, 32
    .word 0x35000f6f  # jal x30, 848
    # the body
    .word 0x00012283  # lw x5, 0(x2)
    .word 0xfb428613  # addi x12, x5, -76
    .word 0xfb463513  # sltiu x10, x12, -76
    .word 0x02012303  # lw x6, 32(x2)
    .word 0x406606b3  # sub x13, x12, x6
    .word 0x00068793  # addi x15, x13, 0
    .word 0x02012303  # lw x6, 32(x2)
    .word 0x006635b3  # sltu x11, x12, x6
    .word 0x00412283  # lw x5, 4(x2)
    .word 0xfff28613  # addi x12, x5, -1
    .word 0x00a60733  # add x14, x12, x10
    .word 0xfff63293  # sltiu x5, x12, -1
    .word 0x00a73333  # sltu x6, x14, x10
    .word 0x00628533  # add x10, x5, x6
    .word 0x02412303  # lw x6, 36(x2)
    .word 0x406706b3  # sub x13, x14, x6
    .word 0x40b68833  # sub x16, x13, x11
    .word 0x02412303  # lw x6, 36(x2)
    .word 0x006732b3  # sltu x5, x14, x6
    .word 0x00b6b333  # sltu x6, x13, x11
    .word 0x006285b3  # add x11, x5, x6
    .word 0x00812283  # lw x5, 8(x2)
    .word 0xfff28613  # addi x12, x5, -1
    .word 0x00a60733  # add x14, x12, x10
    .word 0xfff63293  # sltiu x5, x12, -1
    .word 0x00a73333  # sltu x6, x14, x10
    .word 0x00628533  # add x10, x5, x6
    .word 0x02812303  # lw x6, 40(x2)
    .word 0x406706b3  # sub x13, x14, x6
    .word 0x40b688b3  # sub x17, x13, x11
    .word 0x02812303  # lw x6, 40(x2)
    .word 0x006732b3  # sltu x5, x14, x6
    .word 0x00b6b333  # sltu x6, x13, x11
    .word 0x006285b3  # add x11, x5, x6
    .word 0x00c12283  # lw x5, 12(x2)
    .word 0xfff28613  # addi x12, x5, -1
    .word 0x00a60733  # add x14, x12, x10
    .word 0xfff63293  # sltiu x5, x12, -1
    .word 0x00a73333  # sltu x6, x14, x10
    .word 0x00628533  # add x10, x5, x6
    .word 0x02c12303  # lw x6, 44(x2)
    .word 0x406706b3  # sub x13, x14, x6
    .word 0x40b68933  # sub x18, x13, x11
    .word 0x02c12303  # lw x6, 44(x2)
    .word 0x006732b3  # sltu x5, x14, x6
    .word 0x00b6b333  # sltu x6, x13, x11
    .word 0x006285b3  # add x11, x5, x6
    .word 0x01012283  # lw x5, 16(x2)
    .word 0xfff28613  # addi x12, x5, -1
    .word 0x00a60733  # add x14, x12, x10
    .word 0xfff63293  # sltiu x5, x12, -1
    .word 0x00a73333  # sltu x6, x14, x10
    .word 0x00628533  # add x10, x5, x6
    .word 0x03012303  # lw x6, 48(x2)
    .word 0x406706b3  # sub x13, x14, x6
    .word 0x40b689b3  # sub x19, x13, x11
    .word 0x03012303  # lw x6, 48(x2)
    .word 0x006732b3  # sltu x5, x14, x6
    .word 0x00b6b333  # sltu x6, x13, x11
    .word 0x006285b3  # add x11, x5, x6
    .word 0x01412283  # lw x5, 20(x2)
    .word 0xfff28613  # addi x12, x5, -1
    .word 0x00a60733  # add x14, x12, x10
    .word 0xfff63293  # sltiu x5, x12, -1
    .word 0x00a73333  # sltu x6, x14, x10
    .word 0x00628533  # add x10, x5, x6
    .word 0x03412303  # lw x6, 52(x2)
    .word 0x406706b3  # sub x13, x14, x6
    .word 0x40b68a33  # sub x20, x13, x11
    .word 0x03412303  # lw x6, 52(x2)
    .word 0x006732b3  # sltu x5, x14, x6
    .word 0x00b6b333  # sltu x6, x13, x11
    .word 0x006285b3  # add x11, x5, x6
    .word 0x01812283  # lw x5, 24(x2)
    .word 0xfff28613  # addi x12, x5, -1
    .word 0x00a60733  # add x14, x12, x10
    .word 0xfff63293  # sltiu x5, x12, -1
    .word 0x00a73333  # sltu x6, x14, x10
    .word 0x00628533  # add x10, x5, x6
    .word 0x03812303  # lw x6, 56(x2)
    .word 0x406706b3  # sub x13, x14, x6
    .word 0x40b68ab3  # sub x21, x13, x11
    .word 0x03812303  # lw x6, 56(x2)
    .word 0x006732b3  # sltu x5, x14, x6
    .word 0x00b6b333  # sltu x6, x13, x11
    .word 0x006285b3  # add x11, x5, x6
    .word 0x01c12283  # lw x5, 28(x2)
    .word 0xfff28613  # addi x12, x5, -1
    .word 0x00a60733  # add x14, x12, x10
    .word 0xfff63293  # sltiu x5, x12, -1
    .word 0x00a73333  # sltu x6, x14, x10
    .word 0x00628533  # add x10, x5, x6
    .word 0x03c12303  # lw x6, 60(x2)
    .word 0x406706b3  # sub x13, x14, x6
    .word 0x40b68b33  # sub x22, x13, x11
    .word 0x03c12303  # lw x6, 60(x2)
    .word 0x006732b3  # sltu x5, x14, x6
    .word 0x00b6b333  # sltu x6, x13, x11
    .word 0x006285b3  # add x11, x5, x6
    .word 0x00150293  # addi x5, x10, 1
    .word 0x40b28733  # sub x14, x5, x11
    .word 0x01300293  # addi x5, x0, 19
    .word 0x00171313  # slli x6, x14, 1
    .word 0x01fb5393  # srli x7, x22, 31
    .word 0x00736333  # or x6, x6, x7
    .word 0x02628733  # mul x14, x5, x6
    .word 0x001b1b13  # slli x22, x22, 1
    .word 0x001b5b13  # srli x22, x22, 1
    .word 0x00e787b3  # add x15, x15, x14
    .word 0x00e7b733  # sltu x14, x15, x14
    .word 0x00e80833  # add x16, x16, x14
    .word 0x00e83733  # sltu x14, x16, x14
    .word 0x00e888b3  # add x17, x17, x14
    .word 0x00e8b733  # sltu x14, x17, x14
    .word 0x00e90933  # add x18, x18, x14
    .word 0x00e93733  # sltu x14, x18, x14
    .word 0x00e989b3  # add x19, x19, x14
    .word 0x00e9b733  # sltu x14, x19, x14
    .word 0x00ea0a33  # add x20, x20, x14
    .word 0x00ea3733  # sltu x14, x20, x14
    .word 0x00ea8ab3  # add x21, x21, x14
    .word 0x00eab733  # sltu x14, x21, x14
    .word 0x00eb0b33  # add x22, x22, x14
    .word 0x01300313  # addi x6, x0, 19
    .word 0x01fb5393  # srli x7, x22, 31
    .word 0x02730333  # mul x6, x6, x7
    .word 0x006787b3  # add x15, x15, x6
    .word 0x001b1b13  # slli x22, x22, 1
    .word 0x001b5b13  # srli x22, x22, 1
    .word 0x01378293  # addi x5, x15, 19
    .word 0x0132b713  # sltiu x14, x5, 19
    .word 0x00e802b3  # add x5, x16, x14
    .word 0x00e2b733  # sltu x14, x5, x14
    .word 0x00e882b3  # add x5, x17, x14
    .word 0x00e2b733  # sltu x14, x5, x14
    .word 0x00e902b3  # add x5, x18, x14
    .word 0x00e2b733  # sltu x14, x5, x14
    .word 0x00e982b3  # add x5, x19, x14
    .word 0x00e2b733  # sltu x14, x5, x14
    .word 0x00ea02b3  # add x5, x20, x14
    .word 0x00e2b733  # sltu x14, x5, x14
    .word 0x00ea82b3  # add x5, x21, x14
    .word 0x00e2b733  # sltu x14, x5, x14
    .word 0x00eb02b3  # add x5, x22, x14
    .word 0x41f2d293  # srai x5, x5, 31
    .word 0x0132f713  # andi x14, x5, 19
    .word 0x00e78633  # add x12, x15, x14
    .word 0x00e63733  # sltu x14, x12, x14
    .word 0x00060513  # addi x10, x12, 0
    .word 0x00e80633  # add x12, x16, x14
    .word 0x00e63733  # sltu x14, x12, x14
    .word 0x00060593  # addi x11, x12, 0
    .word 0x00e88633  # add x12, x17, x14
    .word 0x00e63733  # sltu x14, x12, x14
    .word 0x00060693  # addi x13, x12, 0
    .word 0x00e90633  # add x12, x18, x14
    .word 0x00e63733  # sltu x14, x12, x14
    .word 0x00060793  # addi x15, x12, 0
    .word 0x00e98633  # add x12, x19, x14
    .word 0x00e63733  # sltu x14, x12, x14
    .word 0x00060813  # addi x16, x12, 0
    .word 0x00ea0633  # add x12, x20, x14
    .word 0x00e63733  # sltu x14, x12, x14
    .word 0x00060893  # addi x17, x12, 0
    .word 0x00ea8633  # add x12, x21, x14
    .word 0x00e63733  # sltu x14, x12, x14
    .word 0x00060913  # addi x18, x12, 0
    .word 0x00eb0633  # add x12, x22, x14
    .word 0x00161713  # slli x14, x12, 1
    .word 0x00175713  # srli x14, x14, 1
    .word 0x04a12023  # sw x10, 64(x2)
    .word 0x04b12223  # sw x11, 68(x2)
    .word 0x04d12423  # sw x13, 72(x2)
    .word 0x04f12623  # sw x15, 76(x2)
    .word 0x05012823  # sw x16, 80(x2)
    .word 0x05112a23  # sw x17, 84(x2)
    .word 0x05212c23  # sw x18, 88(x2)
    .word 0x04e12e23  # sw x14, 92(x2)
    # the result
    .word 0x00000513  # addi x10, x0, 0
    # parameter 2: the array, back
    .word 0x04010293  # addi x5, x2, 64
    .word 0x08c12303  # lw x6, 140(x2)
    .word 0x02028393  # addi x7, x5, 32
    .word 0x07400f6f  # jal x30, 116
    # above the frame
    .word 0x07010293  # addi x5, x2, 112
    # the caller's registers
    .word 0x0002a903  # lw x18, 0(x5)
    .cfi_restore 18
    .word 0x0042a983  # lw x19, 4(x5)
    .cfi_restore 19
    .word 0x0082aa03  # lw x20, 8(x5)
    .cfi_restore 20
    .word 0x00c2aa83  # lw x21, 12(x5)
    .cfi_restore 21
    .word 0x0102ab03  # lw x22, 16(x5)
    .cfi_restore 22
    # the caller's x2
    .word 0x02028293  # addi x5, x5, 32
    .cfi_def_cfa 5, 0
    # all the room, wiped upward
    .word 0x00012023  # sw x0, 0(x2)
    .word 0x00012223  # sw x0, 4(x2)
    .word 0x00012423  # sw x0, 8(x2)
    .word 0x00012623  # sw x0, 12(x2)
    .word 0x01010113  # addi x2, x2, 16
    .word 0xfe5116e3  # bne x2, x5, -20
    .cfi_def_cfa 2, 0
    # temporaries, wiped
    .word 0x00000293  # addi x5, x0, 0
    .word 0x00000313  # addi x6, x0, 0
    .word 0x00000393  # addi x7, x0, 0
    .word 0x00000593  # addi x11, x0, 0
    .word 0x00000613  # addi x12, x0, 0
    .word 0x00000693  # addi x13, x0, 0
    .word 0x00000713  # addi x14, x0, 0
    .word 0x00000793  # addi x15, x0, 0
    .word 0x00000813  # addi x16, x0, 0
    .word 0x00000893  # addi x17, x0, 0
    .word 0x00000e13  # addi x28, x0, 0
    .word 0x00000e93  # addi x29, x0, 0
    .word 0x00000f13  # addi x30, x0, 0
    .word 0x00000f93  # addi x31, x0, 0
    # back
    .word 0x00008067  # jalr x0, 0(x1)
    # from x5 to x6 up to x7, and back
    .cfi_def_cfa 2, 144
    .cfi_offset 18, -32
    .cfi_offset 19, -28
    .cfi_offset 20, -24
    .cfi_offset 21, -20
    .cfi_offset 22, -16
    .word 0x0062ee33  # or x28, x5, x6
    .word 0x003e7e13  # andi x28, x28, 3
    .word 0x000e0e63  # beq x28, x0, 28
    .word 0x0002ce03  # lbu x28, 0(x5)
    .word 0x01c30023  # sb x28, 0(x6)
    .word 0x00128293  # addi x5, x5, 1
    .word 0x00130313  # addi x6, x6, 1
    .word 0xfe7298e3  # bne x5, x7, -16
    .word 0x0300006f  # jal x0, 48
    .word 0x0002ae03  # lw x28, 0(x5)
    .word 0x01c32023  # sw x28, 0(x6)
    .word 0x0042ae03  # lw x28, 4(x5)
    .word 0x01c32223  # sw x28, 4(x6)
    .word 0x0082ae03  # lw x28, 8(x5)
    .word 0x01c32423  # sw x28, 8(x6)
    .word 0x00c2ae03  # lw x28, 12(x5)
    .word 0x01c32623  # sw x28, 12(x6)
    .word 0x01028293  # addi x5, x5, 16
    .word 0x01030313  # addi x6, x6, 16
    .word 0xfc729ce3  # bne x5, x7, -40
    .word 0x000f0067  # jalr x0, 0(x30)
    .cfi_endproc
    .size f25519_subtract, . - f25519_subtract
    .option pop
