# sha_pad_block: made by factc 1.0.0 function; 132 words, 128 bytes of stack, profile 1
    .option push
    .option norvc
    .option norelax
    .cfi_sections .debug_frame
    .section .text.sha_pad_block, "ax", @progbits
    .p2align 2
    .globl sha_pad_block
    .type sha_pad_block, @function
sha_pad_block:
    .cfi_startproc
    # room above the frame
    .word 0xfe010113  # addi x2, x2, -32
    .cfi_def_cfa_offset 32
    # the caller's registers
    .word 0x00812023  # sw x8, 0(x2)
    .cfi_offset 8, -32
    .word 0x00912223  # sw x9, 4(x2)
    .cfi_offset 9, -28
    .word 0x01212423  # sw x18, 8(x2)
    .cfi_offset 18, -24
    .word 0x01312623  # sw x19, 12(x2)
    .cfi_offset 19, -20
    # arguments that are needed behind the body
    .word 0x00a12e23  # sw x10, 28(x2)
    # the frame's base
    .word 0xfa010113  # addi x2, x2, -96
    .cfi_def_cfa 2, 128
    # parameter 0: an array
    .word 0x00050293  # addi x5, x10, 0
    .word 0x00010313  # addi x6, x2, 0
    .word 0x04028393  # addi x7, x5, 64
    .word 0x19400f6f  # jal x30, 404
    # parameter 1: a word
    .word 0x04b12023  # sw x11, 64(x2)
    # parameter 2: a word
    .word 0x04c12223  # sw x12, 68(x2)
    # the body
    .word 0x04012583  # lw x11, 64(x2)
    .word 0x04412603  # lw x12, 68(x2)
    .word 0x00659913  # slli x18, x11, 6
    .word 0x412606b3  # sub x13, x12, x18
    .word 0x012632b3  # sltu x5, x12, x18
    .word 0x00100313  # addi x6, x0, 1
    .word 0x0406b393  # sltiu x7, x13, 64
    .word 0x40d00433  # sub x8, x0, x13
    .word 0x000004b7  # lui x9, 0x00000
    .word 0xfc048493  # addi x9, x9, -64
    .word 0x407003b3  # sub x7, x0, x7
    .word 0x00944433  # xor x8, x8, x9
    .word 0x00747433  # and x8, x8, x7
    .word 0x0084c3b3  # xor x7, x9, x8
    .word 0x405002b3  # sub x5, x0, x5
    .word 0x00734333  # xor x6, x6, x7
    .word 0x00537333  # and x6, x6, x5
    .word 0x0063c6b3  # xor x13, x7, x6
    .word 0xfff00713  # addi x14, x0, -1
    .word 0x00170713  # addi x14, x14, 1
    .word 0x002709b3  # add x19, x14, x2
    .word 0xfff68793  # addi x15, x13, -1
    .word 0x0009c283  # lbu x5, 0(x19)
    .word 0x0086d313  # srli x6, x13, 8
    .word 0x0062f833  # and x16, x5, x6
    .word 0x00d7c2b3  # xor x5, x15, x13
    .word 0x00f2f2b3  # and x5, x5, x15
    .word 0x0802f793  # andi x15, x5, 128
    .word 0x00f862b3  # or x5, x16, x15
    .word 0x00598023  # sb x5, 0(x19)
    .word 0x00168693  # addi x13, x13, 1
    .word 0xfc170293  # addi x5, x14, -63
    .word 0xfc0296e3  # bne x5, x0, -52
    .word 0x00860293  # addi x5, x12, 8
    .word 0x0062d293  # srli x5, x5, 6
    .word 0x40b288b3  # sub x17, x5, x11
    .word 0x0018b893  # sltiu x17, x17, 1
    .word 0x01d65313  # srli x6, x12, 29
    .word 0x0ff37313  # andi x6, x6, 255
    .word 0x03b14383  # lbu x7, 59(x2)
    .word 0x411002b3  # sub x5, x0, x17
    .word 0x00734333  # xor x6, x6, x7
    .word 0x00537333  # and x6, x6, x5
    .word 0x0063c2b3  # xor x5, x7, x6
    .word 0x02510da3  # sb x5, 59(x2)
    .word 0xfff00913  # addi x18, x0, -1
    .word 0x00190913  # addi x18, x18, 1
    .word 0x03c90293  # addi x5, x18, 60
    .word 0x00361393  # slli x7, x12, 3
    .word 0x01800413  # addi x8, x0, 24
    .word 0x00391493  # slli x9, x18, 3
    .word 0x40940433  # sub x8, x8, x9
    .word 0x0083d3b3  # srl x7, x7, x8
    .word 0x0ff3f393  # andi x7, x7, 255
    .word 0x03c90413  # addi x8, x18, 60
    .word 0x00240433  # add x8, x8, x2
    .word 0x00044403  # lbu x8, 0(x8)
    .word 0x41100333  # sub x6, x0, x17
    .word 0x0083c3b3  # xor x7, x7, x8
    .word 0x0063f3b3  # and x7, x7, x6
    .word 0x00744333  # xor x6, x8, x7
    .word 0x002282b3  # add x5, x5, x2
    .word 0x00628023  # sb x6, 0(x5)
    .word 0xffd90293  # addi x5, x18, -3
    .word 0xfa029ce3  # bne x5, x0, -72
    .word 0x05112423  # sw x17, 72(x2)
    # the result
    .word 0x04812503  # lw x10, 72(x2)
    # parameter 0: the array, back
    .word 0x00010293  # addi x5, x2, 0
    .word 0x07c12303  # lw x6, 124(x2)
    .word 0x04028393  # addi x7, x5, 64
    .word 0x07000f6f  # jal x30, 112
    # above the frame
    .word 0x06010293  # addi x5, x2, 96
    # the caller's registers
    .word 0x0002a403  # lw x8, 0(x5)
    .cfi_restore 8
    .word 0x0042a483  # lw x9, 4(x5)
    .cfi_restore 9
    .word 0x0082a903  # lw x18, 8(x5)
    .cfi_restore 18
    .word 0x00c2a983  # lw x19, 12(x5)
    .cfi_restore 19
    # the caller's x2
    .word 0x02028293  # addi x5, x5, 32
    .cfi_def_cfa 5, 0
    # all the room, wiped upward
    .word 0x00012023  # sw x0, 0(x2)
    .word 0x00012223  # sw x0, 4(x2)
    .word 0x00012423  # sw x0, 8(x2)
    .word 0x00012623  # sw x0, 12(x2)
    .word 0x01010113  # addi x2, x2, 16
    .word 0xfe5116e3  # bne x2, x5, -20
    .cfi_def_cfa 2, 0
    # temporaries, wiped
    .word 0x00000293  # addi x5, x0, 0
    .word 0x00000313  # addi x6, x0, 0
    .word 0x00000393  # addi x7, x0, 0
    .word 0x00000593  # addi x11, x0, 0
    .word 0x00000613  # addi x12, x0, 0
    .word 0x00000693  # addi x13, x0, 0
    .word 0x00000713  # addi x14, x0, 0
    .word 0x00000793  # addi x15, x0, 0
    .word 0x00000813  # addi x16, x0, 0
    .word 0x00000893  # addi x17, x0, 0
    .word 0x00000e13  # addi x28, x0, 0
    .word 0x00000e93  # addi x29, x0, 0
    .word 0x00000f13  # addi x30, x0, 0
    .word 0x00000f93  # addi x31, x0, 0
    # back
    .word 0x00008067  # jalr x0, 0(x1)
    # from x5 to x6 up to x7, and back
    .cfi_def_cfa 2, 128
    .cfi_offset 8, -32
    .cfi_offset 9, -28
    .cfi_offset 18, -24
    .cfi_offset 19, -20
    .word 0x0062ee33  # or x28, x5, x6
    .word 0x003e7e13  # andi x28, x28, 3
    .word 0x000e0e63  # beq x28, x0, 28
    .word 0x0002ce03  # lbu x28, 0(x5)
    .word 0x01c30023  # sb x28, 0(x6)
    .word 0x00128293  # addi x5, x5, 1
    .word 0x00130313  # addi x6, x6, 1
    .word 0xfe7298e3  # bne x5, x7, -16
    .word 0x0300006f  # jal x0, 48
    .word 0x0002ae03  # lw x28, 0(x5)
    .word 0x01c32023  # sw x28, 0(x6)
    .word 0x0042ae03  # lw x28, 4(x5)
    .word 0x01c32223  # sw x28, 4(x6)
    .word 0x0082ae03  # lw x28, 8(x5)
    .word 0x01c32423  # sw x28, 8(x6)
    .word 0x00c2ae03  # lw x28, 12(x5)
    .word 0x01c32623  # sw x28, 12(x6)
    .word 0x01028293  # addi x5, x5, 16
    .word 0x01030313  # addi x6, x6, 16
    .word 0xfc729ce3  # bne x5, x7, -40
    .word 0x000f0067  # jalr x0, 0(x30)
    .cfi_endproc
    .size sha_pad_block, . - sha_pad_block
    .option pop
