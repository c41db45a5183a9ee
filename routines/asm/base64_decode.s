# base64_decode: made by factc 1.0.0 function; 175 words, 176 bytes of stack, profile 1
    .option push
    .option norvc
    .option norelax
    .cfi_sections .debug_frame
    .section .text.base64_decode, "ax", @progbits
    .p2align 2
    .globl base64_decode
    .type base64_decode, @function
base64_decode:
    .cfi_startproc
    # room above the frame
    .word 0xfe010113  # addi x2, x2, -32
    .cfi_def_cfa_offset 32
    # the caller's registers
    .word 0x01212023  # sw x18, 0(x2)
    .cfi_offset 18, -32
    .word 0x01312223  # sw x19, 4(x2)
    .cfi_offset 19, -28
    .word 0x01412423  # sw x20, 8(x2)
    .cfi_offset 20, -24
    # arguments that are needed behind the body
    .word 0x00a12a23  # sw x10, 20(x2)
    .word 0x00b12c23  # sw x11, 24(x2)
    .word 0x00c12e23  # sw x12, 28(x2)
    # the frame's base
    .word 0xf7010113  # addi x2, x2, -144
    .cfi_def_cfa 2, 176
    # parameter 0: an array
    .word 0x00050293  # addi x5, x10, 0
    .word 0x00010313  # addi x6, x2, 0
    .word 0x04028393  # addi x7, x5, 64
    .word 0x23c00f6f  # jal x30, 572
    # parameter 1: a word
    .word 0x04b12023  # sw x11, 64(x2)
    # parameter 2: an array
    .word 0x00060293  # addi x5, x12, 0
    .word 0x04410313  # addi x6, x2, 68
    .word 0x03028393  # addi x7, x5, 48
    .word 0x22800f6f  # jal x30, 552
    # the body
    .word 0x04012503  # lw x10, 64(x2)
    .word 0x00010a37  # lui x20, 0x00010
    .word 0xf00a0a13  # addi x20, x20, -256
    .word 0x00357293  # andi x5, x10, 3
    .word 0x405005b3  # sub x11, x0, x5
    .word 0x00000613  # addi x12, x0, 0
    .word 0x00000693  # addi x13, x0, 0
    .word 0xfff00713  # addi x14, x0, -1
    .word 0x00170713  # addi x14, x14, 1
    .word 0x00271793  # slli x15, x14, 2
    .word 0x14a7fc63  # bgeu x15, x10, 344
    .word 0x40d00333  # sub x6, x0, x13
    .word 0x0065e5b3  # or x11, x11, x6
    .word 0x00000813  # addi x16, x0, 0
    .word 0xfff00893  # addi x17, x0, -1
    .word 0x00188893  # addi x17, x17, 1
    .word 0x011782b3  # add x5, x15, x17
    .word 0x00228933  # add x18, x5, x2
    .word 0x00094903  # lbu x18, 0(x18)
    .word 0xfc090293  # addi x5, x18, -64
    .word 0xfbf90313  # addi x6, x18, -65
    .word 0x01a33313  # sltiu x6, x6, 26
    .word 0x40600333  # sub x6, x0, x6
    .word 0x0062f9b3  # and x19, x5, x6
    .word 0xfba90313  # addi x6, x18, -70
    .word 0xf9f90393  # addi x7, x18, -97
    .word 0x01a3b393  # sltiu x7, x7, 26
    .word 0x407003b3  # sub x7, x0, x7
    .word 0x00737333  # and x6, x6, x7
    .word 0x0069e9b3  # or x19, x19, x6
    .word 0x00590313  # addi x6, x18, 5
    .word 0xfd090393  # addi x7, x18, -48
    .word 0x00a3b393  # sltiu x7, x7, 10
    .word 0x407003b3  # sub x7, x0, x7
    .word 0x00737333  # and x6, x6, x7
    .word 0x0069e9b3  # or x19, x19, x6
    .word 0xfd590313  # addi x6, x18, -43
    .word 0x00133313  # sltiu x6, x6, 1
    .word 0x40600333  # sub x6, x0, x6
    .word 0x03f37313  # andi x6, x6, 63
    .word 0x0069e9b3  # or x19, x19, x6
    .word 0xfd190313  # addi x6, x18, -47
    .word 0x00133313  # sltiu x6, x6, 1
    .word 0x40600333  # sub x6, x0, x6
    .word 0x04037313  # andi x6, x6, 64
    .word 0x0069e9b3  # or x19, x19, x6
    .word 0xfc390313  # addi x6, x18, -61
    .word 0x00133313  # sltiu x6, x6, 1
    .word 0x0069e9b3  # or x19, x19, x6
    .word 0xfff98993  # addi x19, x19, -1
    .word 0x0135e5b3  # or x11, x11, x19
    .word 0x00681293  # slli x5, x16, 6
    .word 0x03f9f313  # andi x6, x19, 63
    .word 0x0062e833  # or x16, x5, x6
    .word 0x00169293  # slli x5, x13, 1
    .word 0xfc390313  # addi x6, x18, -61
    .word 0x00133313  # sltiu x6, x6, 1
    .word 0x0062e6b3  # or x13, x5, x6
    .word 0xffd88293  # addi x5, x17, -3
    .word 0xf40298e3  # bne x5, x0, -176
    .word 0x00f6f693  # andi x13, x13, 15
    .word 0x0016f293  # andi x5, x13, 1
    .word 0x405002b3  # sub x5, x0, x5
    .word 0x0ff2f293  # andi x5, x5, 255
    .word 0x0016d393  # srli x7, x13, 1
    .word 0x407003b3  # sub x7, x0, x7
    .word 0x007a7333  # and x6, x20, x7
    .word 0x0062e933  # or x18, x5, x6
    .word 0x00168393  # addi x7, x13, 1
    .word 0x0076f333  # and x6, x13, x7
    .word 0x40600333  # sub x6, x0, x6
    .word 0x0065e2b3  # or x5, x11, x6
    .word 0x00300313  # addi x6, x0, 3
    .word 0x40d30333  # sub x6, x6, x13
    .word 0x0062e2b3  # or x5, x5, x6
    .word 0x01287333  # and x6, x16, x18
    .word 0x40600333  # sub x6, x0, x6
    .word 0x0062e5b3  # or x11, x5, x6
    .word 0x00360293  # addi x5, x12, 3
    .word 0x40d282b3  # sub x5, x5, x13
    .word 0x0016d313  # srli x6, x13, 1
    .word 0x00628633  # add x12, x5, x6
    .word 0x00300293  # addi x5, x0, 3
    .word 0x02e282b3  # mul x5, x5, x14
    .word 0x01085313  # srli x6, x16, 16
    .word 0x002282b3  # add x5, x5, x2
    .word 0x04628223  # sb x6, 68(x5)
    .word 0x00300293  # addi x5, x0, 3
    .word 0x02e282b3  # mul x5, x5, x14
    .word 0x00885313  # srli x6, x16, 8
    .word 0x002282b3  # add x5, x5, x2
    .word 0x046282a3  # sb x6, 69(x5)
    .word 0x00300293  # addi x5, x0, 3
    .word 0x02e282b3  # mul x5, x5, x14
    .word 0x002282b3  # add x5, x5, x2
    .word 0x05028323  # sb x16, 70(x5)
    .word 0xff170293  # addi x5, x14, -15
    .word 0xe8029ee3  # bne x5, x0, -356
    .word 0x1005b293  # sltiu x5, x11, 256
    .word 0x0ff67313  # andi x6, x12, 255
    .word 0x0ff00393  # addi x7, x0, 255
    .word 0x405002b3  # sub x5, x0, x5
    .word 0x00734333  # xor x6, x6, x7
    .word 0x00537333  # and x6, x6, x5
    .word 0x0063c2b3  # xor x5, x7, x6
    .word 0x06512a23  # sw x5, 116(x2)
    # the result
    .word 0x07412503  # lw x10, 116(x2)
    # parameter 2: the array, back
    .word 0x04410293  # addi x5, x2, 68
    .word 0x0ac12303  # lw x6, 172(x2)
    .word 0x03028393  # addi x7, x5, 48
    .word 0x06c00f6f  # jal x30, 108
    # above the frame
    .word 0x09010293  # addi x5, x2, 144
    # the caller's registers
    .word 0x0002a903  # lw x18, 0(x5)
    .cfi_restore 18
    .word 0x0042a983  # lw x19, 4(x5)
    .cfi_restore 19
    .word 0x0082aa03  # lw x20, 8(x5)
    .cfi_restore 20
    # the caller's x2
    .word 0x02028293  # addi x5, x5, 32
    .cfi_def_cfa 5, 0
    # all the room, wiped upward
    .word 0x00012023  # sw x0, 0(x2)
    .word 0x00012223  # sw x0, 4(x2)
    .word 0x00012423  # sw x0, 8(x2)
    .word 0x00012623  # sw x0, 12(x2)
    .word 0x01010113  # addi x2, x2, 16
    .word 0xfe5116e3  # bne x2, x5, -20
    .cfi_def_cfa 2, 0
    # temporaries, wiped
    .word 0x00000293  # addi x5, x0, 0
    .word 0x00000313  # addi x6, x0, 0
    .word 0x00000393  # addi x7, x0, 0
    .word 0x00000593  # addi x11, x0, 0
    .word 0x00000613  # addi x12, x0, 0
    .word 0x00000693  # addi x13, x0, 0
    .word 0x00000713  # addi x14, x0, 0
    .word 0x00000793  # addi x15, x0, 0
    .word 0x00000813  # addi x16, x0, 0
    .word 0x00000893  # addi x17, x0, 0
    .word 0x00000e13  # addi x28, x0, 0
    .word 0x00000e93  # addi x29, x0, 0
    .word 0x00000f13  # addi x30, x0, 0
    .word 0x00000f93  # addi x31, x0, 0
    # back
    .word 0x00008067  # jalr x0, 0(x1)
    # from x5 to x6 up to x7, and back
    .cfi_def_cfa 2, 176
    .cfi_offset 18, -32
    .cfi_offset 19, -28
    .cfi_offset 20, -24
    .word 0x0062ee33  # or x28, x5, x6
    .word 0x003e7e13  # andi x28, x28, 3
    .word 0x000e0e63  # beq x28, x0, 28
    .word 0x0002ce03  # lbu x28, 0(x5)
    .word 0x01c30023  # sb x28, 0(x6)
    .word 0x00128293  # addi x5, x5, 1
    .word 0x00130313  # addi x6, x6, 1
    .word 0xfe7298e3  # bne x5, x7, -16
    .word 0x0300006f  # jal x0, 48
    .word 0x0002ae03  # lw x28, 0(x5)
    .word 0x01c32023  # sw x28, 0(x6)
    .word 0x0042ae03  # lw x28, 4(x5)
    .word 0x01c32223  # sw x28, 4(x6)
    .word 0x0082ae03  # lw x28, 8(x5)
    .word 0x01c32423  # sw x28, 8(x6)
    .word 0x00c2ae03  # lw x28, 12(x5)
    .word 0x01c32623  # sw x28, 12(x6)
    .word 0x01028293  # addi x5, x5, 16
    .word 0x01030313  # addi x6, x6, 16
    .word 0xfc729ce3  # bne x5, x7, -40
    .word 0x000f0067  # jalr x0, 0(x30)
    .cfi_endproc
    .size base64_decode, . - base64_decode
    .option pop
