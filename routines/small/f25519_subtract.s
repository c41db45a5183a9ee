# f25519_subtract: made by factc 1.0.0 function; 162 words and 21 shared, 672 bytes of stack, profile 1
    .option push
    .option norvc
    .option norelax
    .cfi_sections .debug_frame
    .section .text.f25519_subtract, "ax", @progbits
    .p2align 2
    .globl f25519_subtract
    .type f25519_subtract, @function
f25519_subtract:
    .cfi_startproc
    # room above the frame
    .word 0xff010113  # addi x2, x2, -16
    .cfi_def_cfa_offset 16
    # the caller's registers
    # arguments that are needed behind the body
    .word 0x00a12223  # sw x10, 4(x2)
    .word 0x00b12423  # sw x11, 8(x2)
    .word 0x00c12623  # sw x12, 12(x2)
    # the frame's base
    .word 0xd7010113  # addi x2, x2, -656
    .cfi_def_cfa 2, 672
    # parameter 0: an array
    .word 0x00050293  # addi x5, x10, 0
    .word 0x00010313  # addi x6, x2, 0
    .word 0x02028393  # addi x7, x5, 32
    .word 0x0002ae03  # lw x28, 0(x5)
    .word 0x01c32023  # sw x28, 0(x6)
    .word 0x00428293  # addi x5, x5, 4
    .word 0x00430313  # addi x6, x6, 4
    .word 0xfe7298e3  # bne x5, x7, -16
    # parameter 1: an array
    .word 0x00058293  # addi x5, x11, 0
    .word 0x02010313  # addi x6, x2, 32
    .word 0x02028393  # addi x7, x5, 32
    .word 0x0002ae03  # lw x28, 0(x5)
    .word 0x01c32023  # sw x28, 0(x6)
    .word 0x00428293  # addi x5, x5, 4
    .word 0x00430313  # addi x6, x6, 4
    .word 0xfe7298e3  # bne x5, x7, -16
    # the body
    .word 0x06000313  # addi x6, x0, 96
    .word 0x00230333  # add x6, x6, x2
    .word 0x20000393  # addi x7, x0, 512
    .word 0x006383b3  # add x7, x7, x6
    .word 0x406382b3  # sub x5, x7, x6
    .word 0x00029463  # bne x5, x0, 8
    .word 0x0100006f  # jal x0, 16
    .word 0x00032023  # sw x0, 0(x6)
    .word 0x00430313  # addi x6, x6, 4
    .word 0xfedff06f  # jal x0, -20
    .word 0x26000313  # addi x6, x0, 608
    .word 0x00230333  # add x6, x6, x2
    .word 0x02000393  # addi x7, x0, 32
    .word 0x006383b3  # add x7, x7, x6
    .word 0x406382b3  # sub x5, x7, x6
    .word 0x00029463  # bne x5, x0, 8
    .word 0x0100006f  # jal x0, 16
    .word 0x00032023  # sw x0, 0(x6)
    .word 0x00430313  # addi x6, x6, 4
    .word 0xfedff06f  # jal x0, -20
    .word 0x00000513  # addi x10, x0, 0
    .word 0x00000593  # addi x11, x0, 0
    .word 0xfff00613  # addi x12, x0, -1
    .word 0x00160613  # addi x12, x12, 1
    .word 0x00261813  # slli x16, x12, 2
    .word 0x00280833  # add x16, x16, x2
    .word 0x00163293  # sltiu x5, x12, 1
    .word 0x00000337  # lui x6, 0x00000
    .word 0xfb430313  # addi x6, x6, -76
    .word 0x000003b7  # lui x7, 0x00000
    .word 0xfff38393  # addi x7, x7, -1
    .word 0x405002b3  # sub x5, x0, x5
    .word 0x00734333  # xor x6, x6, x7
    .word 0x00537333  # and x6, x6, x5
    .word 0x0063c6b3  # xor x13, x7, x6
    .word 0x00082283  # lw x5, 0(x16)
    .word 0x00d28733  # add x14, x5, x13
    .word 0x00a707b3  # add x15, x14, x10
    .word 0x00d732b3  # sltu x5, x14, x13
    .word 0x00a7b333  # sltu x6, x15, x10
    .word 0x00628533  # add x10, x5, x6
    .word 0x02082303  # lw x6, 32(x16)
    .word 0x406786b3  # sub x13, x15, x6
    .word 0x40b682b3  # sub x5, x13, x11
    .word 0x26582023  # sw x5, 608(x16)
    .word 0x02082303  # lw x6, 32(x16)
    .word 0x0067b2b3  # sltu x5, x15, x6
    .word 0x00b6b333  # sltu x6, x13, x11
    .word 0x006285b3  # add x11, x5, x6
    .word 0xff960293  # addi x5, x12, -7
    .word 0xf8029ae3  # bne x5, x0, -108
    .word 0x00150293  # addi x5, x10, 1
    .word 0x40b287b3  # sub x15, x5, x11
    .word 0x01300293  # addi x5, x0, 19
    .word 0x00179313  # slli x6, x15, 1
    .word 0x27c12383  # lw x7, 636(x2)
    .word 0x01f3d393  # srli x7, x7, 31
    .word 0x00736333  # or x6, x6, x7
    .word 0x026287b3  # mul x15, x5, x6
    .word 0x27c12283  # lw x5, 636(x2)
    .word 0x00129293  # slli x5, x5, 1
    .word 0x0012d293  # srli x5, x5, 1
    .word 0x26512e23  # sw x5, 636(x2)
    .word 0xfff00613  # addi x12, x0, -1
    .word 0x00160613  # addi x12, x12, 1
    .word 0x00261813  # slli x16, x12, 2
    .word 0x00280833  # add x16, x16, x2
    .word 0x26082283  # lw x5, 608(x16)
    .word 0x00f282b3  # add x5, x5, x15
    .word 0x26582023  # sw x5, 608(x16)
    .word 0x26082283  # lw x5, 608(x16)
    .word 0x00f2b7b3  # sltu x15, x5, x15
    .word 0xff960293  # addi x5, x12, -7
    .word 0xfc029ee3  # bne x5, x0, -36
    .word 0x26012283  # lw x5, 608(x2)
    .word 0x01300313  # addi x6, x0, 19
    .word 0x27c12383  # lw x7, 636(x2)
    .word 0x01f3d393  # srli x7, x7, 31
    .word 0x02730333  # mul x6, x6, x7
    .word 0x006282b3  # add x5, x5, x6
    .word 0x26512023  # sw x5, 608(x2)
    .word 0x27c12283  # lw x5, 636(x2)
    .word 0x00129293  # slli x5, x5, 1
    .word 0x0012d293  # srli x5, x5, 1
    .word 0x26512e23  # sw x5, 636(x2)
    .word 0xfff00613  # addi x12, x0, -1
    .word 0x00160613  # addi x12, x12, 1
    .word 0x00261813  # slli x16, x12, 2
    .word 0x00280833  # add x16, x16, x2
    .word 0x26082283  # lw x5, 608(x16)
    .word 0x06582023  # sw x5, 96(x16)
    .word 0xff960293  # addi x5, x12, -7
    .word 0xfe0294e3  # bne x5, x0, -24
    .word 0x01300793  # addi x15, x0, 19
    .word 0xfff00613  # addi x12, x0, -1
    .word 0x00160613  # addi x12, x12, 1
    .word 0x00261813  # slli x16, x12, 2
    .word 0x00280833  # add x16, x16, x2
    .word 0x06082283  # lw x5, 96(x16)
    .word 0x00f282b3  # add x5, x5, x15
    .word 0x00f2b7b3  # sltu x15, x5, x15
    .word 0xffa60293  # addi x5, x12, -6
    .word 0xfe0292e3  # bne x5, x0, -28
    .word 0x07c12283  # lw x5, 124(x2)
    .word 0x00f282b3  # add x5, x5, x15
    .word 0x41f2d293  # srai x5, x5, 31
    .word 0x0132f793  # andi x15, x5, 19
    .word 0xfff00613  # addi x12, x0, -1
    .word 0x00160613  # addi x12, x12, 1
    .word 0x00261813  # slli x16, x12, 2
    .word 0x00280833  # add x16, x16, x2
    .word 0x06082283  # lw x5, 96(x16)
    .word 0x00f28533  # add x10, x5, x15
    .word 0x00f537b3  # sltu x15, x10, x15
    .word 0x06a82023  # sw x10, 96(x16)
    .word 0xff960293  # addi x5, x12, -7
    .word 0xfe0290e3  # bne x5, x0, -32
    .word 0x07c12283  # lw x5, 124(x2)
    .word 0x00129293  # slli x5, x5, 1
    .word 0x0012d293  # srli x5, x5, 1
    .word 0x06512e23  # sw x5, 124(x2)
    .word 0xfff00613  # addi x12, x0, -1
    .word 0x00160613  # addi x12, x12, 1
    .word 0x00261813  # slli x16, x12, 2
    .word 0x00280833  # add x16, x16, x2
    .word 0x06082283  # lw x5, 96(x16)
    .word 0x04582023  # sw x5, 64(x16)
    .word 0xff960293  # addi x5, x12, -7
    .word 0xfe0294e3  # bne x5, x0, -24
    # the result
    .word 0x00000513  # addi x10, x0, 0
    # parameter 2: the array, back
    .word 0x04010293  # addi x5, x2, 64
    .word 0x29c12303  # lw x6, 668(x2)
    .word 0x02028393  # addi x7, x5, 32
    .word 0x0002ae03  # lw x28, 0(x5)
    .word 0x01c32023  # sw x28, 0(x6)
    .word 0x00428293  # addi x5, x5, 4
    .word 0x00430313  # addi x6, x6, 4
    .word 0xfe7298e3  # bne x5, x7, -16
    # above the frame
    .word 0x29010293  # addi x5, x2, 656
    # the caller's registers
    # the caller's x2
    .word 0x01028293  # addi x5, x5, 16
    .cfi_def_cfa 5, 0
    # on to the tail that functions share
    jal x0, factc.tail.1
    .cfi_endproc
    .size f25519_subtract, . - f25519_subtract
    .section .text.factc.tail.1, "axG", @progbits, factc.tail.1, comdat
    .p2align 2
    .globl factc.tail.1
    .hidden factc.tail.1
    .type factc.tail.1, @function
factc.tail.1:
    .cfi_startproc
    .cfi_def_cfa 5, 0
    # all the room, wiped upward
    .word 0x00012023  # sw x0, 0(x2)
    .word 0x00012223  # sw x0, 4(x2)
    .word 0x00012423  # sw x0, 8(x2)
    .word 0x00012623  # sw x0, 12(x2)
    .word 0x01010113  # addi x2, x2, 16
    .word 0xfe5116e3  # bne x2, x5, -20
    .cfi_def_cfa 2, 0
    # temporaries, wiped
    .word 0x00000293  # addi x5, x0, 0
    .word 0x00000313  # addi x6, x0, 0
    .word 0x00000393  # addi x7, x0, 0
    .word 0x00000593  # addi x11, x0, 0
    .word 0x00000613  # addi x12, x0, 0
    .word 0x00000693  # addi x13, x0, 0
    .word 0x00000713  # addi x14, x0, 0
    .word 0x00000793  # addi x15, x0, 0
    .word 0x00000813  # addi x16, x0, 0
    .word 0x00000893  # addi x17, x0, 0
    .word 0x00000e13  # addi x28, x0, 0
    .word 0x00000e93  # addi x29, x0, 0
    .word 0x00000f13  # addi x30, x0, 0
    .word 0x00000f93  # addi x31, x0, 0
    # back
    .word 0x00008067  # jalr x0, 0(x1)
    .cfi_endproc
    .size factc.tail.1, . - factc.tail.1
    .option pop
