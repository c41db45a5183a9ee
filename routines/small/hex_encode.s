# hex_encode: made by factc 1.0.0 function; 86 words and 21 shared, 144 bytes of stack, profile 1
    .option push
    .option norvc
    .option norelax
    .cfi_sections .debug_frame
    .section .text.hex_encode, "ax", @progbits
    .p2align 2
    .globl hex_encode
    .type hex_encode, @function
hex_encode:
    .cfi_startproc
    # room above the frame
    .word 0xfe010113  # addi x2, x2, -32
    .cfi_def_cfa_offset 32
    # the caller's registers
    .word 0x01212023  # sw x18, 0(x2)
    .cfi_offset 18, -32
    .word 0x01312223  # sw x19, 4(x2)
    .cfi_offset 19, -28
    .word 0x01412423  # sw x20, 8(x2)
    .cfi_offset 20, -24
    .word 0x01512623  # sw x21, 12(x2)
    .cfi_offset 21, -20
    .word 0x01612823  # sw x22, 16(x2)
    .cfi_offset 22, -16
    # arguments that are needed behind the body
    .word 0x00a12c23  # sw x10, 24(x2)
    .word 0x00b12e23  # sw x11, 28(x2)
    # the frame's base
    .word 0xf9010113  # addi x2, x2, -112
    .cfi_def_cfa 2, 144
    # parameter 0: an array
    .word 0x00050293  # addi x5, x10, 0
    .word 0x00010313  # addi x6, x2, 0
    .word 0x02028393  # addi x7, x5, 32
    .word 0x0002ce03  # lbu x28, 0(x5)
    .word 0x01c30023  # sb x28, 0(x6)
    .word 0x00128293  # addi x5, x5, 1
    .word 0x00130313  # addi x6, x6, 1
    .word 0xfe7298e3  # bne x5, x7, -16
    # parameter 1: an array
    .word 0x00058293  # addi x5, x11, 0
    .word 0x02010313  # addi x6, x2, 32
    .word 0x04028393  # addi x7, x5, 64
    .word 0x0002ce03  # lbu x28, 0(x5)
    .word 0x01c30023  # sb x28, 0(x6)
    .word 0x00128293  # addi x5, x5, 1
    .word 0x00130313  # addi x6, x6, 1
    .word 0xfe7298e3  # bne x5, x7, -16
    # the body
    .word 0x000f07b7  # lui x15, 0x000f0
    .word 0x00f78793  # addi x15, x15, 15
    .word 0x0f001837  # lui x16, 0x0f001
    .word 0xf0080813  # addi x16, x16, -256
    .word 0x767678b7  # lui x17, 0x76767
    .word 0x67688893  # addi x17, x17, 1654
    .word 0x01010937  # lui x18, 0x01010
    .word 0x10190913  # addi x18, x18, 257
    .word 0x303039b7  # lui x19, 0x30303
    .word 0x03098993  # addi x19, x19, 48
    .word 0x27272a37  # lui x20, 0x27272
    .word 0x727a0a13  # addi x20, x20, 1831
    .word 0xfff00513  # addi x10, x0, -1
    .word 0x00150513  # addi x10, x10, 1
    .word 0x00151593  # slli x11, x10, 1
    .word 0x00258ab3  # add x21, x11, x2
    .word 0x00159613  # slli x12, x11, 1
    .word 0x00260b33  # add x22, x12, x2
    .word 0x000ac283  # lbu x5, 0(x21)
    .word 0x001ac303  # lbu x6, 1(x21)
    .word 0x01031313  # slli x6, x6, 16
    .word 0x0062e733  # or x14, x5, x6
    .word 0x00475293  # srli x5, x14, 4
    .word 0x00f2f2b3  # and x5, x5, x15
    .word 0x00871313  # slli x6, x14, 8
    .word 0x01037333  # and x6, x6, x16
    .word 0x0062e733  # or x14, x5, x6
    .word 0x011702b3  # add x5, x14, x17
    .word 0x0072d293  # srli x5, x5, 7
    .word 0x0122f6b3  # and x13, x5, x18
    .word 0x013702b3  # add x5, x14, x19
    .word 0x00869313  # slli x6, x13, 8
    .word 0x40d30333  # sub x6, x6, x13
    .word 0x01437333  # and x6, x6, x20
    .word 0x00628733  # add x14, x5, x6
    .word 0x02eb0023  # sb x14, 32(x22)
    .word 0x00875293  # srli x5, x14, 8
    .word 0x025b00a3  # sb x5, 33(x22)
    .word 0x01075293  # srli x5, x14, 16
    .word 0x025b0123  # sb x5, 34(x22)
    .word 0x01875293  # srli x5, x14, 24
    .word 0x025b01a3  # sb x5, 35(x22)
    .word 0xff150293  # addi x5, x10, -15
    .word 0xf80294e3  # bne x5, x0, -120
    # the result
    .word 0x00000513  # addi x10, x0, 0
    # parameter 1: the array, back
    .word 0x02010293  # addi x5, x2, 32
    .word 0x08c12303  # lw x6, 140(x2)
    .word 0x04028393  # addi x7, x5, 64
    .word 0x0002ce03  # lbu x28, 0(x5)
    .word 0x01c30023  # sb x28, 0(x6)
    .word 0x00128293  # addi x5, x5, 1
    .word 0x00130313  # addi x6, x6, 1
    .word 0xfe7298e3  # bne x5, x7, -16
    # above the frame
    .word 0x07010293  # addi x5, x2, 112
    # the caller's registers
    .word 0x0002a903  # lw x18, 0(x5)
    .cfi_restore 18
    .word 0x0042a983  # lw x19, 4(x5)
    .cfi_restore 19
    .word 0x0082aa03  # lw x20, 8(x5)
    .cfi_restore 20
    .word 0x00c2aa83  # lw x21, 12(x5)
    .cfi_restore 21
    .word 0x0102ab03  # lw x22, 16(x5)
    .cfi_restore 22
    # the caller's x2
    .word 0x02028293  # addi x5, x5, 32
    .cfi_def_cfa 5, 0
    # on to the tail that functions share
    jal x0, factc.tail.1
    .cfi_endproc
    .size hex_encode, . - hex_encode
    .section .text.factc.tail.1, "axG", @progbits, factc.tail.1, comdat
    .p2align 2
    .globl factc.tail.1
    .hidden factc.tail.1
    .type factc.tail.1, @function
factc.tail.1:
    .cfi_startproc
    .cfi_def_cfa 5, 0
    # all the room, wiped upward
    .word 0x00012023  # sw x0, 0(x2)
    .word 0x00012223  # sw x0, 4(x2)
    .word 0x00012423  # sw x0, 8(x2)
    .word 0x00012623  # sw x0, 12(x2)
    .word 0x01010113  # addi x2, x2, 16
    .word 0xfe5116e3  # bne x2, x5, -20
    .cfi_def_cfa 2, 0
    # temporaries, wiped
    .word 0x00000293  # addi x5, x0, 0
    .word 0x00000313  # addi x6, x0, 0
    .word 0x00000393  # addi x7, x0, 0
    .word 0x00000593  # addi x11, x0, 0
    .word 0x00000613  # addi x12, x0, 0
    .word 0x00000693  # addi x13, x0, 0
    .word 0x00000713  # addi x14, x0, 0
    .word 0x00000793  # addi x15, x0, 0
    .word 0x00000813  # addi x16, x0, 0
    .word 0x00000893  # addi x17, x0, 0
    .word 0x00000e13  # addi x28, x0, 0
    .word 0x00000e93  # addi x29, x0, 0
    .word 0x00000f13  # addi x30, x0, 0
    .word 0x00000f93  # addi x31, x0, 0
    # back
    .word 0x00008067  # jalr x0, 0(x1)
    .cfi_endproc
    .size factc.tail.1, . - factc.tail.1
    .option pop
