# pkcs7_unpad: made by factc 1.0.0 function; 97 words, 32 bytes of stack, profile 1
    .option push
    .option norvc
    .option norelax
    .cfi_sections .debug_frame
    .section .text.pkcs7_unpad, "ax", @progbits
    .p2align 2
    .globl pkcs7_unpad
    .type pkcs7_unpad, @function
pkcs7_unpad:
    .cfi_startproc
    # room above the frame
    .cfi_def_cfa_offset 0
    # the caller's registers
    # arguments that are needed behind the body
    # the frame's base
    .word 0xfe010113  # addi x2, x2, -32
    .cfi_def_cfa 2, 32
    # parameter 0: an array
    .word 0x00050293  # addi x5, x10, 0
    .word 0x00010313  # addi x6, x2, 0
    .word 0x01028393  # addi x7, x5, 16
    .word 0x12000f6f  # jal x30, 288
    # the body
    .word 0x00f14503  # lbu x10, 15(x2)
    .word 0xfff50293  # addi x5, x10, -1
    .word 0x01000313  # addi x6, x0, 16
    .word 0x40a30333  # sub x6, x6, x10
    .word 0x0062e5b3  # or x11, x5, x6
    .word 0x00f00293  # addi x5, x0, 15
    .word 0x40a28633  # sub x12, x5, x10
    .word 0xfff00693  # addi x13, x0, -1
    .word 0x00168693  # addi x13, x13, 1
    .word 0x00269713  # slli x14, x13, 2
    .word 0x002707b3  # add x15, x14, x2
    .word 0x0007c303  # lbu x6, 0(x15)
    .word 0x00a34333  # xor x6, x6, x10
    .word 0x00831313  # slli x6, x6, 8
    .word 0x00c37333  # and x6, x6, x12
    .word 0x0065e5b3  # or x11, x11, x6
    .word 0xfff60613  # addi x12, x12, -1
    .word 0x0017c303  # lbu x6, 1(x15)
    .word 0x00a34333  # xor x6, x6, x10
    .word 0x00831313  # slli x6, x6, 8
    .word 0x00c37333  # and x6, x6, x12
    .word 0x0065e5b3  # or x11, x11, x6
    .word 0xfff60613  # addi x12, x12, -1
    .word 0x0027c303  # lbu x6, 2(x15)
    .word 0x00a34333  # xor x6, x6, x10
    .word 0x00831313  # slli x6, x6, 8
    .word 0x00c37333  # and x6, x6, x12
    .word 0x0065e5b3  # or x11, x11, x6
    .word 0xfff60613  # addi x12, x12, -1
    .word 0x0037c303  # lbu x6, 3(x15)
    .word 0x00a34333  # xor x6, x6, x10
    .word 0x00831313  # slli x6, x6, 8
    .word 0x00c37333  # and x6, x6, x12
    .word 0x0065e5b3  # or x11, x11, x6
    .word 0xfff60613  # addi x12, x12, -1
    .word 0xffd68293  # addi x5, x13, -3
    .word 0xf80298e3  # bne x5, x0, -112
    .word 0x1005b293  # sltiu x5, x11, 256
    .word 0x01000313  # addi x6, x0, 16
    .word 0x40a30333  # sub x6, x6, x10
    .word 0x0ff37313  # andi x6, x6, 255
    .word 0x0ff00393  # addi x7, x0, 255
    .word 0x405002b3  # sub x5, x0, x5
    .word 0x00734333  # xor x6, x6, x7
    .word 0x00537333  # and x6, x6, x5
    .word 0x0063c2b3  # xor x5, x7, x6
    .word 0x00512823  # sw x5, 16(x2)
    # the result
    .word 0x01012503  # lw x10, 16(x2)
    # above the frame
    .word 0x02010293  # addi x5, x2, 32
    # the caller's registers
    # the caller's x2
    .word 0x00028293  # addi x5, x5, 0
    .cfi_def_cfa 5, 0
    # all the room, wiped upward
    .word 0x00012023  # sw x0, 0(x2)
    .word 0x00012223  # sw x0, 4(x2)
    .word 0x00012423  # sw x0, 8(x2)
    .word 0x00012623  # sw x0, 12(x2)
    .word 0x01010113  # addi x2, x2, 16
    .word 0xfe5116e3  # bne x2, x5, -20
    .cfi_def_cfa 2, 0
    # temporaries, wiped
    .word 0x00000293  # addi x5, x0, 0
    .word 0x00000313  # addi x6, x0, 0
    .word 0x00000393  # addi x7, x0, 0
    .word 0x00000593  # addi x11, x0, 0
    .word 0x00000613  # addi x12, x0, 0
    .word 0x00000693  # addi x13, x0, 0
    .word 0x00000713  # addi x14, x0, 0
    .word 0x00000793  # addi x15, x0, 0
    .word 0x00000813  # addi x16, x0, 0
    .word 0x00000893  # addi x17, x0, 0
    .word 0x00000e13  # addi x28, x0, 0
    .word 0x00000e93  # addi x29, x0, 0
    .word 0x00000f13  # addi x30, x0, 0
    .word 0x00000f93  # addi x31, x0, 0
    # back
    .word 0x00008067  # jalr x0, 0(x1)
    # from x5 to x6 up to x7, and back
    .cfi_def_cfa 2, 32
    .word 0x0062ee33  # or x28, x5, x6
    .word 0x003e7e13  # andi x28, x28, 3
    .word 0x000e0e63  # beq x28, x0, 28
    .word 0x0002ce03  # lbu x28, 0(x5)
    .word 0x01c30023  # sb x28, 0(x6)
    .word 0x00128293  # addi x5, x5, 1
    .word 0x00130313  # addi x6, x6, 1
    .word 0xfe7298e3  # bne x5, x7, -16
    .word 0x0300006f  # jal x0, 48
    .word 0x0002ae03  # lw x28, 0(x5)
    .word 0x01c32023  # sw x28, 0(x6)
    .word 0x0042ae03  # lw x28, 4(x5)
    .word 0x01c32223  # sw x28, 4(x6)
    .word 0x0082ae03  # lw x28, 8(x5)
    .word 0x01c32423  # sw x28, 8(x6)
    .word 0x00c2ae03  # lw x28, 12(x5)
    .word 0x01c32623  # sw x28, 12(x6)
    .word 0x01028293  # addi x5, x5, 16
    .word 0x01030313  # addi x6, x6, 16
    .word 0xfc729ce3  # bne x5, x7, -40
    .word 0x000f0067  # jalr x0, 0(x30)
    .cfi_endproc
    .size pkcs7_unpad, . - pkcs7_unpad
    .option pop
