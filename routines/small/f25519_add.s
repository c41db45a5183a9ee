# f25519_add: made by factc 1.0.0 function; 173 words and 21 shared, 672 bytes of stack, profile 1
    .option push
    .option norvc
    .option norelax
    .cfi_sections .debug_frame
    .section .text.f25519_add, "ax", @progbits
    .p2align 2
    .globl f25519_add
    .type f25519_add, @function
f25519_add:
    .cfi_startproc
    # room above the frame
    .word 0xff010113  # addi x2, x2, -16
    .cfi_def_cfa_offset 16
    # the caller's registers
    # arguments that are needed behind the body
    .word 0x00a12223  # sw x10, 4(x2)
    .word 0x00b12423  # sw x11, 8(x2)
    .word 0x00c12623  # sw x12, 12(x2)
    # the frame's base
    .word 0xd7010113  # addi x2, x2, -656
    .cfi_def_cfa 2, 672
    # parameter 0: an array
    .word 0x00050293  # addi x5, x10, 0
    .word 0x00010313  # addi x6, x2, 0
    .word 0x02028393  # addi x7, x5, 32
    .word 0x0002ae03  # lw x28, 0(x5)
    .word 0x01c32023  # sw x28, 0(x6)
    .word 0x00428293  # addi x5, x5, 4
    .word 0x00430313  # addi x6, x6, 4
    .word 0xfe7298e3  # bne x5, x7, -16
    # parameter 1: an array
    .word 0x00058293  # addi x5, x11, 0
    .word 0x02010313  # addi x6, x2, 32
    .word 0x02028393  # addi x7, x5, 32
    .word 0x0002ae03  # lw x28, 0(x5)
    .word 0x01c32023  # sw x28, 0(x6)
    .word 0x00428293  # addi x5, x5, 4
    .word 0x00430313  # addi x6, x6, 4
    .word 0xfe7298e3  # bne x5, x7, -16
    # the body
    .word 0x06000313  # addi x6, x0, 96
    .word 0x00230333  # add x6, x6, x2
    .word 0x20000393  # addi x7, x0, 512
    .word 0x006383b3  # add x7, x7, x6
    .word 0x406382b3  # sub x5, x7, x6
    .word 0x00029463  # bne x5, x0, 8
    .word 0x0100006f  # jal x0, 16
    .word 0x00032023  # sw x0, 0(x6)
    .word 0x00430313  # addi x6, x6, 4
    .word 0xfedff06f  # jal x0, -20
    .word 0xfff00513  # addi x10, x0, -1
    .word 0x00150513  # addi x10, x10, 1
    .word 0x00251713  # slli x14, x10, 2
    .word 0x00270733  # add x14, x14, x2
    .word 0x00072283  # lw x5, 0(x14)
    .word 0x06572023  # sw x5, 96(x14)
    .word 0x02072283  # lw x5, 32(x14)
    .word 0x08572023  # sw x5, 128(x14)
    .word 0xff950293  # addi x5, x10, -7
    .word 0xfe0290e3  # bne x5, x0, -32
    .word 0x00000693  # addi x13, x0, 0
    .word 0x26000313  # addi x6, x0, 608
    .word 0x00230333  # add x6, x6, x2
    .word 0x02000393  # addi x7, x0, 32
    .word 0x006383b3  # add x7, x7, x6
    .word 0x406382b3  # sub x5, x7, x6
    .word 0x00029463  # bne x5, x0, 8
    .word 0x0100006f  # jal x0, 16
    .word 0x00032023  # sw x0, 0(x6)
    .word 0x00430313  # addi x6, x6, 4
    .word 0xfedff06f  # jal x0, -20
    .word 0xfff00513  # addi x10, x0, -1
    .word 0x00150513  # addi x10, x10, 1
    .word 0x00251713  # slli x14, x10, 2
    .word 0x00270733  # add x14, x14, x2
    .word 0x06072583  # lw x11, 96(x14)
    .word 0x00850313  # addi x6, x10, 8
    .word 0x00231313  # slli x6, x6, 2
    .word 0x00230333  # add x6, x6, x2
    .word 0x06032303  # lw x6, 96(x6)
    .word 0x00658633  # add x12, x11, x6
    .word 0x00d602b3  # add x5, x12, x13
    .word 0x26572023  # sw x5, 608(x14)
    .word 0x00b632b3  # sltu x5, x12, x11
    .word 0x26072303  # lw x6, 608(x14)
    .word 0x00d33333  # sltu x6, x6, x13
    .word 0x006286b3  # add x13, x5, x6
    .word 0xff950293  # addi x5, x10, -7
    .word 0xfc0290e3  # bne x5, x0, -64
    .word 0x01300293  # addi x5, x0, 19
    .word 0x00169313  # slli x6, x13, 1
    .word 0x27c12383  # lw x7, 636(x2)
    .word 0x01f3d393  # srli x7, x7, 31
    .word 0x00736333  # or x6, x6, x7
    .word 0x026286b3  # mul x13, x5, x6
    .word 0x27c12283  # lw x5, 636(x2)
    .word 0x00129293  # slli x5, x5, 1
    .word 0x0012d293  # srli x5, x5, 1
    .word 0x26512e23  # sw x5, 636(x2)
    .word 0xfff00513  # addi x10, x0, -1
    .word 0x00150513  # addi x10, x10, 1
    .word 0x00251713  # slli x14, x10, 2
    .word 0x00270733  # add x14, x14, x2
    .word 0x26072283  # lw x5, 608(x14)
    .word 0x00d282b3  # add x5, x5, x13
    .word 0x26572023  # sw x5, 608(x14)
    .word 0x26072283  # lw x5, 608(x14)
    .word 0x00d2b6b3  # sltu x13, x5, x13
    .word 0xff950293  # addi x5, x10, -7
    .word 0xfc029ee3  # bne x5, x0, -36
    .word 0x26012283  # lw x5, 608(x2)
    .word 0x01300313  # addi x6, x0, 19
    .word 0x27c12383  # lw x7, 636(x2)
    .word 0x01f3d393  # srli x7, x7, 31
    .word 0x02730333  # mul x6, x6, x7
    .word 0x006282b3  # add x5, x5, x6
    .word 0x26512023  # sw x5, 608(x2)
    .word 0x27c12283  # lw x5, 636(x2)
    .word 0x00129293  # slli x5, x5, 1
    .word 0x0012d293  # srli x5, x5, 1
    .word 0x26512e23  # sw x5, 636(x2)
    .word 0xfff00513  # addi x10, x0, -1
    .word 0x00150513  # addi x10, x10, 1
    .word 0x00251713  # slli x14, x10, 2
    .word 0x00270733  # add x14, x14, x2
    .word 0x01050293  # addi x5, x10, 16
    .word 0x26072303  # lw x6, 608(x14)
    .word 0x00229293  # slli x5, x5, 2
    .word 0x002282b3  # add x5, x5, x2
    .word 0x0662a023  # sw x6, 96(x5)
    .word 0xff950293  # addi x5, x10, -7
    .word 0xfc029ee3  # bne x5, x0, -36
    .word 0x01300693  # addi x13, x0, 19
    .word 0xfff00513  # addi x10, x0, -1
    .word 0x00150513  # addi x10, x10, 1
    .word 0x00251713  # slli x14, x10, 2
    .word 0x00270733  # add x14, x14, x2
    .word 0x01050293  # addi x5, x10, 16
    .word 0x00229293  # slli x5, x5, 2
    .word 0x002282b3  # add x5, x5, x2
    .word 0x0602a283  # lw x5, 96(x5)
    .word 0x00d282b3  # add x5, x5, x13
    .word 0x00d2b6b3  # sltu x13, x5, x13
    .word 0xffa50293  # addi x5, x10, -6
    .word 0xfc029ce3  # bne x5, x0, -40
    .word 0x0bc12283  # lw x5, 188(x2)
    .word 0x00d282b3  # add x5, x5, x13
    .word 0x41f2d293  # srai x5, x5, 31
    .word 0x0132f693  # andi x13, x5, 19
    .word 0xfff00513  # addi x10, x0, -1
    .word 0x00150513  # addi x10, x10, 1
    .word 0x00251713  # slli x14, x10, 2
    .word 0x00270733  # add x14, x14, x2
    .word 0x01050293  # addi x5, x10, 16
    .word 0x00229293  # slli x5, x5, 2
    .word 0x002282b3  # add x5, x5, x2
    .word 0x0602a283  # lw x5, 96(x5)
    .word 0x00d285b3  # add x11, x5, x13
    .word 0x00d5b6b3  # sltu x13, x11, x13
    .word 0x01050293  # addi x5, x10, 16
    .word 0x00229293  # slli x5, x5, 2
    .word 0x002282b3  # add x5, x5, x2
    .word 0x06b2a023  # sw x11, 96(x5)
    .word 0xff950293  # addi x5, x10, -7
    .word 0xfc0294e3  # bne x5, x0, -56
    .word 0x0bc12283  # lw x5, 188(x2)
    .word 0x00129293  # slli x5, x5, 1
    .word 0x0012d293  # srli x5, x5, 1
    .word 0x0a512e23  # sw x5, 188(x2)
    .word 0xfff00513  # addi x10, x0, -1
    .word 0x00150513  # addi x10, x10, 1
    .word 0x00251713  # slli x14, x10, 2
    .word 0x00270733  # add x14, x14, x2
    .word 0x01050293  # addi x5, x10, 16
    .word 0x00229293  # slli x5, x5, 2
    .word 0x002282b3  # add x5, x5, x2
    .word 0x0602a283  # lw x5, 96(x5)
    .word 0x04572023  # sw x5, 64(x14)
    .word 0xff950293  # addi x5, x10, -7
    .word 0xfc029ee3  # bne x5, x0, -36
    # the result
    .word 0x00000513  # addi x10, x0, 0
    # parameter 2: the array, back
    .word 0x04010293  # addi x5, x2, 64
    .word 0x29c12303  # lw x6, 668(x2)
    .word 0x02028393  # addi x7, x5, 32
    .word 0x0002ae03  # lw x28, 0(x5)
    .word 0x01c32023  # sw x28, 0(x6)
    .word 0x00428293  # addi x5, x5, 4
    .word 0x00430313  # addi x6, x6, 4
    .word 0xfe7298e3  # bne x5, x7, -16
    # above the frame
    .word 0x29010293  # addi x5, x2, 656
    # the caller's registers
    # the caller's x2
    .word 0x01028293  # addi x5, x5, 16
    .cfi_def_cfa 5, 0
    # on to the tail that functions share
    jal x0, factc.tail.1
    .cfi_endproc
    .size f25519_add, . - f25519_add
    .section .text.factc.tail.1, "axG", @progbits, factc.tail.1, comdat
    .p2align 2
    .globl factc.tail.1
    .hidden factc.tail.1
    .type factc.tail.1, @function
factc.tail.1:
    .cfi_startproc
    .cfi_def_cfa 5, 0
    # all the room, wiped upward
    .word 0x00012023  # sw x0, 0(x2)
    .word 0x00012223  # sw x0, 4(x2)
    .word 0x00012423  # sw x0, 8(x2)
    .word 0x00012623  # sw x0, 12(x2)
    .word 0x01010113  # addi x2, x2, 16
    .word 0xfe5116e3  # bne x2, x5, -20
    .cfi_def_cfa 2, 0
    # temporaries, wiped
    .word 0x00000293  # addi x5, x0, 0
    .word 0x00000313  # addi x6, x0, 0
    .word 0x00000393  # addi x7, x0, 0
    .word 0x00000593  # addi x11, x0, 0
    .word 0x00000613  # addi x12, x0, 0
    .word 0x00000693  # addi x13, x0, 0
    .word 0x00000713  # addi x14, x0, 0
    .word 0x00000793  # addi x15, x0, 0
    .word 0x00000813  # addi x16, x0, 0
    .word 0x00000893  # addi x17, x0, 0
    .word 0x00000e13  # addi x28, x0, 0
    .word 0x00000e93  # addi x29, x0, 0
    .word 0x00000f13  # addi x30, x0, 0
    .word 0x00000f93  # addi x31, x0, 0
    # back
    .word 0x00008067  # jalr x0, 0(x1)
    .cfi_endproc
    .size factc.tail.1, . - factc.tail.1
    .option pop
