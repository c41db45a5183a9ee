# siphash24_finish: made by factc 1.0.0 function; 124 words and 21 shared, 96 bytes of stack, profile 1
    .option push
    .option norvc
    .option norelax
    .cfi_sections .debug_frame
    .section .text.siphash24_finish, "ax", @progbits
    .p2align 2
    .globl siphash24_finish
    .type siphash24_finish, @function
siphash24_finish:
    .cfi_startproc
    # room above the frame
    .word 0xfe010113  # addi x2, x2, -32
    .cfi_def_cfa_offset 32
    # the caller's registers
    .word 0x01212023  # sw x18, 0(x2)
    .cfi_offset 18, -32
    .word 0x01312223  # sw x19, 4(x2)
    .cfi_offset 19, -28
    .word 0x01412423  # sw x20, 8(x2)
    .cfi_offset 20, -24
    .word 0x01512623  # sw x21, 12(x2)
    .cfi_offset 21, -20
    # arguments that are needed behind the body
    .word 0x00a12a23  # sw x10, 20(x2)
    .word 0x00b12c23  # sw x11, 24(x2)
    .word 0x00c12e23  # sw x12, 28(x2)
    # the frame's base
    .word 0xfc010113  # addi x2, x2, -64
    .cfi_def_cfa 2, 96
    # parameter 0: an array
    .word 0x00050293  # addi x5, x10, 0
    .word 0x00010313  # addi x6, x2, 0
    .word 0x02028393  # addi x7, x5, 32
    .word 0x0002ae03  # lw x28, 0(x5)
    .word 0x01c32023  # sw x28, 0(x6)
    .word 0x00428293  # addi x5, x5, 4
    .word 0x00430313  # addi x6, x6, 4
    .word 0xfe7298e3  # bne x5, x7, -16
    # parameter 1: an array
    .word 0x00058293  # addi x5, x11, 0
    .word 0x02010313  # addi x6, x2, 32
    .word 0x00828393  # addi x7, x5, 8
    .word 0x0002ce03  # lbu x28, 0(x5)
    .word 0x01c30023  # sb x28, 0(x6)
    .word 0x00128293  # addi x5, x5, 1
    .word 0x00130313  # addi x6, x6, 1
    .word 0xfe7298e3  # bne x5, x7, -16
    # the body
    .word 0x00012503  # lw x10, 0(x2)
    .word 0x00412583  # lw x11, 4(x2)
    .word 0x00812603  # lw x12, 8(x2)
    .word 0x00c12683  # lw x13, 12(x2)
    .word 0x01012703  # lw x14, 16(x2)
    .word 0x01412783  # lw x15, 20(x2)
    .word 0x01812803  # lw x16, 24(x2)
    .word 0x01c12883  # lw x17, 28(x2)
    .word 0x02012983  # lw x19, 32(x2)
    .word 0x02412a03  # lw x20, 36(x2)
    .word 0x01384833  # xor x16, x16, x19
    .word 0x0148c8b3  # xor x17, x17, x20
    .word 0xfff00a93  # addi x21, x0, -1
    .word 0x001a8a93  # addi x21, x21, 1
    .word 0x00200313  # addi x6, x0, 2
    .word 0x006a9863  # bne x21, x6, 16
    .word 0x01354533  # xor x10, x10, x19
    .word 0x0145c5b3  # xor x11, x11, x20
    .word 0x0ff74713  # xori x14, x14, 255
    .word 0x00c50533  # add x10, x10, x12
    .word 0x00d582b3  # add x5, x11, x13
    .word 0x00c53333  # sltu x6, x10, x12
    .word 0x006285b3  # add x11, x5, x6
    .word 0x00d61293  # slli x5, x12, 13
    .word 0x0136d313  # srli x6, x13, 19
    .word 0x0062e933  # or x18, x5, x6
    .word 0x00d69293  # slli x5, x13, 13
    .word 0x01365313  # srli x6, x12, 19
    .word 0x0062e6b3  # or x13, x5, x6
    .word 0x00a94633  # xor x12, x18, x10
    .word 0x00b6c6b3  # xor x13, x13, x11
    .word 0x00050913  # addi x18, x10, 0
    .word 0x00058513  # addi x10, x11, 0
    .word 0x00090593  # addi x11, x18, 0
    .word 0x01070733  # add x14, x14, x16
    .word 0x011782b3  # add x5, x15, x17
    .word 0x01073333  # sltu x6, x14, x16
    .word 0x006287b3  # add x15, x5, x6
    .word 0x01081293  # slli x5, x16, 16
    .word 0x0108d313  # srli x6, x17, 16
    .word 0x0062e933  # or x18, x5, x6
    .word 0x01089293  # slli x5, x17, 16
    .word 0x01085313  # srli x6, x16, 16
    .word 0x0062e8b3  # or x17, x5, x6
    .word 0x00e94833  # xor x16, x18, x14
    .word 0x00f8c8b3  # xor x17, x17, x15
    .word 0x01050533  # add x10, x10, x16
    .word 0x011582b3  # add x5, x11, x17
    .word 0x01053333  # sltu x6, x10, x16
    .word 0x006285b3  # add x11, x5, x6
    .word 0x01581293  # slli x5, x16, 21
    .word 0x00b8d313  # srli x6, x17, 11
    .word 0x0062e933  # or x18, x5, x6
    .word 0x01589293  # slli x5, x17, 21
    .word 0x00b85313  # srli x6, x16, 11
    .word 0x0062e8b3  # or x17, x5, x6
    .word 0x00a94833  # xor x16, x18, x10
    .word 0x00b8c8b3  # xor x17, x17, x11
    .word 0x00c70733  # add x14, x14, x12
    .word 0x00d782b3  # add x5, x15, x13
    .word 0x00c73333  # sltu x6, x14, x12
    .word 0x006287b3  # add x15, x5, x6
    .word 0x01161293  # slli x5, x12, 17
    .word 0x00f6d313  # srli x6, x13, 15
    .word 0x0062e933  # or x18, x5, x6
    .word 0x01169293  # slli x5, x13, 17
    .word 0x00f65313  # srli x6, x12, 15
    .word 0x0062e6b3  # or x13, x5, x6
    .word 0x00e94633  # xor x12, x18, x14
    .word 0x00f6c6b3  # xor x13, x13, x15
    .word 0x00070913  # addi x18, x14, 0
    .word 0x00078713  # addi x14, x15, 0
    .word 0x00090793  # addi x15, x18, 0
    .word 0xffba8293  # addi x5, x21, -5
    .word 0xf00296e3  # bne x5, x0, -244
    .word 0x00c542b3  # xor x5, x10, x12
    .word 0x00e2c2b3  # xor x5, x5, x14
    .word 0x0102c933  # xor x18, x5, x16
    .word 0x00d5c2b3  # xor x5, x11, x13
    .word 0x00f2c2b3  # xor x5, x5, x15
    .word 0x0112c833  # xor x16, x5, x17
    .word 0x03212423  # sw x18, 40(x2)
    .word 0x03012623  # sw x16, 44(x2)
    # the result
    .word 0x00000513  # addi x10, x0, 0
    # parameter 2: the array, back
    .word 0x02810293  # addi x5, x2, 40
    .word 0x05c12303  # lw x6, 92(x2)
    .word 0x00828393  # addi x7, x5, 8
    .word 0x0002ce03  # lbu x28, 0(x5)
    .word 0x01c30023  # sb x28, 0(x6)
    .word 0x00128293  # addi x5, x5, 1
    .word 0x00130313  # addi x6, x6, 1
    .word 0xfe7298e3  # bne x5, x7, -16
    # above the frame
    .word 0x04010293  # addi x5, x2, 64
    # the caller's registers
    .word 0x0002a903  # lw x18, 0(x5)
    .cfi_restore 18
    .word 0x0042a983  # lw x19, 4(x5)
    .cfi_restore 19
    .word 0x0082aa03  # lw x20, 8(x5)
    .cfi_restore 20
    .word 0x00c2aa83  # lw x21, 12(x5)
    .cfi_restore 21
    # the caller's x2
    .word 0x02028293  # addi x5, x5, 32
    .cfi_def_cfa 5, 0
    # on to the tail that functions share
    jal x0, factc.tail.1
    .cfi_endproc
    .size siphash24_finish, . - siphash24_finish
    .section .text.factc.tail.1, "axG", @progbits, factc.tail.1, comdat
    .p2align 2
    .globl factc.tail.1
    .hidden factc.tail.1
    .type factc.tail.1, @function
factc.tail.1:
    .cfi_startproc
    .cfi_def_cfa 5, 0
    # all the room, wiped upward
    .word 0x00012023  # sw x0, 0(x2)
    .word 0x00012223  # sw x0, 4(x2)
    .word 0x00012423  # sw x0, 8(x2)
    .word 0x00012623  # sw x0, 12(x2)
    .word 0x01010113  # addi x2, x2, 16
    .word 0xfe5116e3  # bne x2, x5, -20
    .cfi_def_cfa 2, 0
    # temporaries, wiped
    .word 0x00000293  # addi x5, x0, 0
    .word 0x00000313  # addi x6, x0, 0
    .word 0x00000393  # addi x7, x0, 0
    .word 0x00000593  # addi x11, x0, 0
    .word 0x00000613  # addi x12, x0, 0
    .word 0x00000693  # addi x13, x0, 0
    .word 0x00000713  # addi x14, x0, 0
    .word 0x00000793  # addi x15, x0, 0
    .word 0x00000813  # addi x16, x0, 0
    .word 0x00000893  # addi x17, x0, 0
    .word 0x00000e13  # addi x28, x0, 0
    .word 0x00000e93  # addi x29, x0, 0
    .word 0x00000f13  # addi x30, x0, 0
    .word 0x00000f93  # addi x31, x0, 0
    # back
    .word 0x00008067  # jalr x0, 0(x1)
    .cfi_endproc
    .size factc.tail.1, . - factc.tail.1
    .option pop
