# base64_decode: made by factc 1.0.0 function; 147 words and 21 shared, 176 bytes of stack, profile 1
    .option push
    .option norvc
    .option norelax
    .cfi_sections .debug_frame
    .section .text.base64_decode, "ax", @progbits
    .p2align 2
    .globl base64_decode
    .type base64_decode, @function
base64_decode:
    .cfi_startproc
    # room above the frame
    .word 0xfe010113  # addi x2, x2, -32
    .cfi_def_cfa_offset 32
    # the caller's registers
    .word 0x00812023  # sw x8, 0(x2)
    .cfi_offset 8, -32
    .word 0x01212223  # sw x18, 4(x2)
    .cfi_offset 18, -28
    .word 0x01312423  # sw x19, 8(x2)
    .cfi_offset 19, -24
    .word 0x01412623  # sw x20, 12(x2)
    .cfi_offset 20, -20
    # arguments that are needed behind the body
    .word 0x00a12a23  # sw x10, 20(x2)
    .word 0x00b12c23  # sw x11, 24(x2)
    .word 0x00c12e23  # sw x12, 28(x2)
    # the frame's base
    .word 0xf7010113  # addi x2, x2, -144
    .cfi_def_cfa 2, 176
    # parameter 0: an array
    .word 0x00050293  # addi x5, x10, 0
    .word 0x00010313  # addi x6, x2, 0
    .word 0x04028393  # addi x7, x5, 64
    .word 0x0002ce03  # lbu x28, 0(x5)
    .word 0x01c30023  # sb x28, 0(x6)
    .word 0x00128293  # addi x5, x5, 1
    .word 0x00130313  # addi x6, x6, 1
    .word 0xfe7298e3  # bne x5, x7, -16
    # parameter 1: a word
    .word 0x04b12023  # sw x11, 64(x2)
    # parameter 2: an array
    .word 0x00060293  # addi x5, x12, 0
    .word 0x04410313  # addi x6, x2, 68
    .word 0x03028393  # addi x7, x5, 48
    .word 0x0002ce03  # lbu x28, 0(x5)
    .word 0x01c30023  # sb x28, 0(x6)
    .word 0x00128293  # addi x5, x5, 1
    .word 0x00130313  # addi x6, x6, 1
    .word 0xfe7298e3  # bne x5, x7, -16
    # the body
    .word 0x04012503  # lw x10, 64(x2)
    .word 0x00010a37  # lui x20, 0x00010
    .word 0xf00a0a13  # addi x20, x20, -256
    .word 0x00357293  # andi x5, x10, 3
    .word 0x405005b3  # sub x11, x0, x5
    .word 0x00000613  # addi x12, x0, 0
    .word 0x00000693  # addi x13, x0, 0
    .word 0xfff00713  # addi x14, x0, -1
    .word 0x00170713  # addi x14, x14, 1
    .word 0x00271993  # slli x19, x14, 2
    .word 0x14a9fa63  # bgeu x19, x10, 340
    .word 0x40d00333  # sub x6, x0, x13
    .word 0x0065e5b3  # or x11, x11, x6
    .word 0x00000793  # addi x15, x0, 0
    .word 0xfff00813  # addi x16, x0, -1
    .word 0x00180813  # addi x16, x16, 1
    .word 0x010982b3  # add x5, x19, x16
    .word 0x002288b3  # add x17, x5, x2
    .word 0x0008c883  # lbu x17, 0(x17)
    .word 0xfc088293  # addi x5, x17, -64
    .word 0xfbf88313  # addi x6, x17, -65
    .word 0x01a33313  # sltiu x6, x6, 26
    .word 0x40600333  # sub x6, x0, x6
    .word 0x0062f933  # and x18, x5, x6
    .word 0xfba88313  # addi x6, x17, -70
    .word 0xf9f88393  # addi x7, x17, -97
    .word 0x01a3b393  # sltiu x7, x7, 26
    .word 0x407003b3  # sub x7, x0, x7
    .word 0x00737333  # and x6, x6, x7
    .word 0x00696933  # or x18, x18, x6
    .word 0x00588313  # addi x6, x17, 5
    .word 0xfd088393  # addi x7, x17, -48
    .word 0x00a3b393  # sltiu x7, x7, 10
    .word 0x407003b3  # sub x7, x0, x7
    .word 0x00737333  # and x6, x6, x7
    .word 0x00696933  # or x18, x18, x6
    .word 0xfd588313  # addi x6, x17, -43
    .word 0x00133313  # sltiu x6, x6, 1
    .word 0x40600333  # sub x6, x0, x6
    .word 0x03f37313  # andi x6, x6, 63
    .word 0x00696933  # or x18, x18, x6
    .word 0xfd188313  # addi x6, x17, -47
    .word 0x00133313  # sltiu x6, x6, 1
    .word 0x40600333  # sub x6, x0, x6
    .word 0x04037313  # andi x6, x6, 64
    .word 0x00696933  # or x18, x18, x6
    .word 0xfc388313  # addi x6, x17, -61
    .word 0x00133313  # sltiu x6, x6, 1
    .word 0x00696933  # or x18, x18, x6
    .word 0xfff90913  # addi x18, x18, -1
    .word 0x0125e5b3  # or x11, x11, x18
    .word 0x00679293  # slli x5, x15, 6
    .word 0x03f97313  # andi x6, x18, 63
    .word 0x0062e7b3  # or x15, x5, x6
    .word 0x00169293  # slli x5, x13, 1
    .word 0xfc388313  # addi x6, x17, -61
    .word 0x00133313  # sltiu x6, x6, 1
    .word 0x0062e6b3  # or x13, x5, x6
    .word 0xffd80293  # addi x5, x16, -3
    .word 0xf40298e3  # bne x5, x0, -176
    .word 0x00f6f693  # andi x13, x13, 15
    .word 0x0016f293  # andi x5, x13, 1
    .word 0x405002b3  # sub x5, x0, x5
    .word 0x0ff2f293  # andi x5, x5, 255
    .word 0x0016d393  # srli x7, x13, 1
    .word 0x407003b3  # sub x7, x0, x7
    .word 0x007a7333  # and x6, x20, x7
    .word 0x0062e8b3  # or x17, x5, x6
    .word 0x00168393  # addi x7, x13, 1
    .word 0x0076f333  # and x6, x13, x7
    .word 0x40600333  # sub x6, x0, x6
    .word 0x0065e2b3  # or x5, x11, x6
    .word 0x00300313  # addi x6, x0, 3
    .word 0x40d30333  # sub x6, x6, x13
    .word 0x0062e2b3  # or x5, x5, x6
    .word 0x0117f333  # and x6, x15, x17
    .word 0x40600333  # sub x6, x0, x6
    .word 0x0062e5b3  # or x11, x5, x6
    .word 0x00360293  # addi x5, x12, 3
    .word 0x40d282b3  # sub x5, x5, x13
    .word 0x0016d313  # srli x6, x13, 1
    .word 0x00628633  # add x12, x5, x6
    .word 0xfff00993  # addi x19, x0, -1
    .word 0x00198993  # addi x19, x19, 1
    .word 0x00300293  # addi x5, x0, 3
    .word 0x02e282b3  # mul x5, x5, x14
    .word 0x013282b3  # add x5, x5, x19
    .word 0x01000393  # addi x7, x0, 16
    .word 0x00399413  # slli x8, x19, 3
    .word 0x408383b3  # sub x7, x7, x8
    .word 0x0077d333  # srl x6, x15, x7
    .word 0x002282b3  # add x5, x5, x2
    .word 0x04628223  # sb x6, 68(x5)
    .word 0xffe98293  # addi x5, x19, -2
    .word 0xfc029ae3  # bne x5, x0, -44
    .word 0xff170293  # addi x5, x14, -15
    .word 0xea0290e3  # bne x5, x0, -352
    .word 0x1005b293  # sltiu x5, x11, 256
    .word 0x0ff67313  # andi x6, x12, 255
    .word 0x0ff00393  # addi x7, x0, 255
    .word 0x405002b3  # sub x5, x0, x5
    .word 0x00734333  # xor x6, x6, x7
    .word 0x00537333  # and x6, x6, x5
    .word 0x0063c2b3  # xor x5, x7, x6
    .word 0x06512a23  # sw x5, 116(x2)
    # the result
    .word 0x07412503  # lw x10, 116(x2)
    # parameter 2: the array, back
    .word 0x04410293  # addi x5, x2, 68
    .word 0x0ac12303  # lw x6, 172(x2)
    .word 0x03028393  # addi x7, x5, 48
    .word 0x0002ce03  # lbu x28, 0(x5)
    .word 0x01c30023  # sb x28, 0(x6)
    .word 0x00128293  # addi x5, x5, 1
    .word 0x00130313  # addi x6, x6, 1
    .word 0xfe7298e3  # bne x5, x7, -16
    # above the frame
    .word 0x09010293  # addi x5, x2, 144
    # the caller's registers
    .word 0x0002a403  # lw x8, 0(x5)
    .cfi_restore 8
    .word 0x0042a903  # lw x18, 4(x5)
    .cfi_restore 18
    .word 0x0082a983  # lw x19, 8(x5)
    .cfi_restore 19
    .word 0x00c2aa03  # lw x20, 12(x5)
    .cfi_restore 20
    # the caller's x2
    .word 0x02028293  # addi x5, x5, 32
    .cfi_def_cfa 5, 0
    # on to the tail that functions share
    jal x0, factc.tail.1
    .cfi_endproc
    .size base64_decode, . - base64_decode
    .section .text.factc.tail.1, "axG", @progbits, factc.tail.1, comdat
    .p2align 2
    .globl factc.tail.1
    .hidden factc.tail.1
    .type factc.tail.1, @function
factc.tail.1:
    .cfi_startproc
    .cfi_def_cfa 5, 0
    # all the room, wiped upward
    .word 0x00012023  # sw x0, 0(x2)
    .word 0x00012223  # sw x0, 4(x2)
    .word 0x00012423  # sw x0, 8(x2)
    .word 0x00012623  # sw x0, 12(x2)
    .word 0x01010113  # addi x2, x2, 16
    .word 0xfe5116e3  # bne x2, x5, -20
    .cfi_def_cfa 2, 0
    # temporaries, wiped
    .word 0x00000293  # addi x5, x0, 0
    .word 0x00000313  # addi x6, x0, 0
    .word 0x00000393  # addi x7, x0, 0
    .word 0x00000593  # addi x11, x0, 0
    .word 0x00000613  # addi x12, x0, 0
    .word 0x00000693  # addi x13, x0, 0
    .word 0x00000713  # addi x14, x0, 0
    .word 0x00000793  # addi x15, x0, 0
    .word 0x00000813  # addi x16, x0, 0
    .word 0x00000893  # addi x17, x0, 0
    .word 0x00000e13  # addi x28, x0, 0
    .word 0x00000e93  # addi x29, x0, 0
    .word 0x00000f13  # addi x30, x0, 0
    .word 0x00000f93  # addi x31, x0, 0
    # back
    .word 0x00008067  # jalr x0, 0(x1)
    .cfi_endproc
    .size factc.tail.1, . - factc.tail.1
    .option pop
