# xtea_decrypt: made by factc 1.0.0 function; 66 words and 21 shared, 64 bytes of stack, profile 1
    .option push
    .option norvc
    .option norelax
    .cfi_sections .debug_frame
    .section .text.xtea_decrypt, "ax", @progbits
    .p2align 2
    .globl xtea_decrypt
    .type xtea_decrypt, @function
xtea_decrypt:
    .cfi_startproc
    # room above the frame
    .word 0xff010113  # addi x2, x2, -16
    .cfi_def_cfa_offset 16
    # the caller's registers
    .word 0x00812023  # sw x8, 0(x2)
    .cfi_offset 8, -16
    # arguments that are needed behind the body
    .word 0x00a12423  # sw x10, 8(x2)
    .word 0x00b12623  # sw x11, 12(x2)
    # the frame's base
    .word 0xfd010113  # addi x2, x2, -48
    .cfi_def_cfa 2, 64
    # parameter 0: an array
    .word 0x00050293  # addi x5, x10, 0
    .word 0x00010313  # addi x6, x2, 0
    .word 0x01028393  # addi x7, x5, 16
    .word 0x0002ae03  # lw x28, 0(x5)
    .word 0x01c32023  # sw x28, 0(x6)
    .word 0x00428293  # addi x5, x5, 4
    .word 0x00430313  # addi x6, x6, 4
    .word 0xfe7298e3  # bne x5, x7, -16
    # parameter 1: an array
    .word 0x00058293  # addi x5, x11, 0
    .word 0x01010313  # addi x6, x2, 16
    .word 0x0002ae03  # lw x28, 0(x5)
    .word 0x01c32023  # sw x28, 0(x6)
    .word 0x0042ae03  # lw x28, 4(x5)
    .word 0x01c32223  # sw x28, 4(x6)
    # the body
    .word 0x9e378737  # lui x14, 0x9e378
    .word 0x9b970713  # addi x14, x14, -1607
    .word 0x01012503  # lw x10, 16(x2)
    .word 0x01412583  # lw x11, 20(x2)
    .word 0xc6ef3637  # lui x12, 0xc6ef3
    .word 0x72060613  # addi x12, x12, 1824
    .word 0xfff00693  # addi x13, x0, -1
    .word 0x00168693  # addi x13, x13, 1
    .word 0x00451313  # slli x6, x10, 4
    .word 0x00555393  # srli x7, x10, 5
    .word 0x00734333  # xor x6, x6, x7
    .word 0x00a30333  # add x6, x6, x10
    .word 0x00b65413  # srli x8, x12, 11
    .word 0x00347413  # andi x8, x8, 3
    .word 0x00241413  # slli x8, x8, 2
    .word 0x00240433  # add x8, x8, x2
    .word 0x00042403  # lw x8, 0(x8)
    .word 0x008603b3  # add x7, x12, x8
    .word 0x00734333  # xor x6, x6, x7
    .word 0x406585b3  # sub x11, x11, x6
    .word 0x40e60633  # sub x12, x12, x14
    .word 0x00459313  # slli x6, x11, 4
    .word 0x0055d393  # srli x7, x11, 5
    .word 0x00734333  # xor x6, x6, x7
    .word 0x00b30333  # add x6, x6, x11
    .word 0x00367413  # andi x8, x12, 3
    .word 0x00241413  # slli x8, x8, 2
    .word 0x00240433  # add x8, x8, x2
    .word 0x00042403  # lw x8, 0(x8)
    .word 0x008603b3  # add x7, x12, x8
    .word 0x00734333  # xor x6, x6, x7
    .word 0x40650533  # sub x10, x10, x6
    .word 0xfe168293  # addi x5, x13, -31
    .word 0xf8029ce3  # bne x5, x0, -104
    .word 0x00a12823  # sw x10, 16(x2)
    .word 0x00b12a23  # sw x11, 20(x2)
    # the result
    .word 0x00000513  # addi x10, x0, 0
    # parameter 1: the array, back
    .word 0x01010293  # addi x5, x2, 16
    .word 0x03c12303  # lw x6, 60(x2)
    .word 0x0002ae03  # lw x28, 0(x5)
    .word 0x01c32023  # sw x28, 0(x6)
    .word 0x0042ae03  # lw x28, 4(x5)
    .word 0x01c32223  # sw x28, 4(x6)
    # above the frame
    .word 0x03010293  # addi x5, x2, 48
    # the caller's registers
    .word 0x0002a403  # lw x8, 0(x5)
    .cfi_restore 8
    # the caller's x2
    .word 0x01028293  # addi x5, x5, 16
    .cfi_def_cfa 5, 0
    # on to the tail that functions share
    jal x0, factc.tail.1
    .cfi_endproc
    .size xtea_decrypt, . - xtea_decrypt
    .section .text.factc.tail.1, "axG", @progbits, factc.tail.1, comdat
    .p2align 2
    .globl factc.tail.1
    .hidden factc.tail.1
    .type factc.tail.1, @function
factc.tail.1:
    .cfi_startproc
    .cfi_def_cfa 5, 0
    # all the room, wiped upward
    .word 0x00012023  # sw x0, 0(x2)
    .word 0x00012223  # sw x0, 4(x2)
    .word 0x00012423  # sw x0, 8(x2)
    .word 0x00012623  # sw x0, 12(x2)
    .word 0x01010113  # addi x2, x2, 16
    .word 0xfe5116e3  # bne x2, x5, -20
    .cfi_def_cfa 2, 0
    # temporaries, wiped
    .word 0x00000293  # addi x5, x0, 0
    .word 0x00000313  # addi x6, x0, 0
    .word 0x00000393  # addi x7, x0, 0
    .word 0x00000593  # addi x11, x0, 0
    .word 0x00000613  # addi x12, x0, 0
    .word 0x00000693  # addi x13, x0, 0
    .word 0x00000713  # addi x14, x0, 0
    .word 0x00000793  # addi x15, x0, 0
    .word 0x00000813  # addi x16, x0, 0
    .word 0x00000893  # addi x17, x0, 0
    .word 0x00000e13  # addi x28, x0, 0
    .word 0x00000e93  # addi x29, x0, 0
    .word 0x00000f13  # addi x30, x0, 0
    .word 0x00000f93  # addi x31, x0, 0
    # back
    .word 0x00008067  # jalr x0, 0(x1)
    .cfi_endproc
    .size factc.tail.1, . - factc.tail.1
    .option pop
