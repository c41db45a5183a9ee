# salsa20_core: made by factc 1.0.0 function; 289 words and 21 shared, 208 bytes of stack, profile 1
    .option push
    .option norvc
    .option norelax
    .cfi_sections .debug_frame
    .section .text.salsa20_core, "ax", @progbits
    .p2align 2
    .globl salsa20_core
    .type salsa20_core, @function
salsa20_core:
    .cfi_startproc
    # room above the frame
    .word 0xfc010113  # addi x2, x2, -64
    .cfi_def_cfa_offset 64
    # the caller's registers
    .word 0x00812023  # sw x8, 0(x2)
    .cfi_offset 8, -64
    .word 0x00912223  # sw x9, 4(x2)
    .cfi_offset 9, -60
    .word 0x01212423  # sw x18, 8(x2)
    .cfi_offset 18, -56
    .word 0x01312623  # sw x19, 12(x2)
    .cfi_offset 19, -52
    .word 0x01412823  # sw x20, 16(x2)
    .cfi_offset 20, -48
    .word 0x01512a23  # sw x21, 20(x2)
    .cfi_offset 21, -44
    .word 0x01612c23  # sw x22, 24(x2)
    .cfi_offset 22, -40
    .word 0x01712e23  # sw x23, 28(x2)
    .cfi_offset 23, -36
    .word 0x03812023  # sw x24, 32(x2)
    .cfi_offset 24, -32
    .word 0x03912223  # sw x25, 36(x2)
    .cfi_offset 25, -28
    .word 0x03a12423  # sw x26, 40(x2)
    .cfi_offset 26, -24
    .word 0x03b12623  # sw x27, 44(x2)
    .cfi_offset 27, -20
    # arguments that are needed behind the body
    .word 0x02a12e23  # sw x10, 60(x2)
    # the frame's base
    .word 0xf7010113  # addi x2, x2, -144
    .cfi_def_cfa 2, 208
    # parameter 0: an array
    .word 0x00050293  # addi x5, x10, 0
    .word 0x00010313  # addi x6, x2, 0
    .word 0x04028393  # addi x7, x5, 64
    .word 0x0002ce03  # lbu x28, 0(x5)
    .word 0x01c30023  # sb x28, 0(x6)
    .word 0x00128293  # addi x5, x5, 1
    .word 0x00130313  # addi x6, x6, 1
    .word 0xfe7298e3  # bne x5, x7, -16
    # the body
    .word 0x00012503  # lw x10, 0(x2)
    .word 0x00412583  # lw x11, 4(x2)
    .word 0x00812603  # lw x12, 8(x2)
    .word 0x00c12683  # lw x13, 12(x2)
    .word 0x01012703  # lw x14, 16(x2)
    .word 0x01412783  # lw x15, 20(x2)
    .word 0x01812803  # lw x16, 24(x2)
    .word 0x01c12883  # lw x17, 28(x2)
    .word 0x02012903  # lw x18, 32(x2)
    .word 0x02412983  # lw x19, 36(x2)
    .word 0x02812a03  # lw x20, 40(x2)
    .word 0x02c12a83  # lw x21, 44(x2)
    .word 0x03012b03  # lw x22, 48(x2)
    .word 0x03412b83  # lw x23, 52(x2)
    .word 0x03812c03  # lw x24, 56(x2)
    .word 0x03c12c83  # lw x25, 60(x2)
    .word 0x00050d13  # addi x26, x10, 0
    .word 0x00058d93  # addi x27, x11, 0
    .word 0x04c12023  # sw x12, 64(x2)
    .word 0x04d12223  # sw x13, 68(x2)
    .word 0x04e12423  # sw x14, 72(x2)
    .word 0x04f12623  # sw x15, 76(x2)
    .word 0x05012823  # sw x16, 80(x2)
    .word 0x05112a23  # sw x17, 84(x2)
    .word 0x05212c23  # sw x18, 88(x2)
    .word 0x05312e23  # sw x19, 92(x2)
    .word 0x07412023  # sw x20, 96(x2)
    .word 0x07512223  # sw x21, 100(x2)
    .word 0x07612423  # sw x22, 104(x2)
    .word 0x07712623  # sw x23, 108(x2)
    .word 0x07812823  # sw x24, 112(x2)
    .word 0x07912a23  # sw x25, 116(x2)
    .word 0xfff00493  # addi x9, x0, -1
    .word 0x00148493  # addi x9, x9, 1
    .word 0x01650433  # add x8, x10, x22
    .word 0x00741f13  # slli x30, x8, 7
    .word 0x01945313  # srli x6, x8, 25
    .word 0x006f0333  # add x6, x30, x6
    .word 0x00674733  # xor x14, x14, x6
    .word 0x00a70433  # add x8, x14, x10
    .word 0x00941f13  # slli x30, x8, 9
    .word 0x01745313  # srli x6, x8, 23
    .word 0x006f0333  # add x6, x30, x6
    .word 0x00694933  # xor x18, x18, x6
    .word 0x00e90433  # add x8, x18, x14
    .word 0x00d41f13  # slli x30, x8, 13
    .word 0x01345313  # srli x6, x8, 19
    .word 0x006f0333  # add x6, x30, x6
    .word 0x006b4b33  # xor x22, x22, x6
    .word 0x012b0433  # add x8, x22, x18
    .word 0x01241f13  # slli x30, x8, 18
    .word 0x00e45313  # srli x6, x8, 14
    .word 0x006f0333  # add x6, x30, x6
    .word 0x00654533  # xor x10, x10, x6
    .word 0x00b78433  # add x8, x15, x11
    .word 0x00741f13  # slli x30, x8, 7
    .word 0x01945313  # srli x6, x8, 25
    .word 0x006f0333  # add x6, x30, x6
    .word 0x0069c9b3  # xor x19, x19, x6
    .word 0x00f98433  # add x8, x19, x15
    .word 0x00941f13  # slli x30, x8, 9
    .word 0x01745313  # srli x6, x8, 23
    .word 0x006f0333  # add x6, x30, x6
    .word 0x006bcbb3  # xor x23, x23, x6
    .word 0x013b8433  # add x8, x23, x19
    .word 0x00d41f13  # slli x30, x8, 13
    .word 0x01345313  # srli x6, x8, 19
    .word 0x006f0333  # add x6, x30, x6
    .word 0x0065c5b3  # xor x11, x11, x6
    .word 0x01758433  # add x8, x11, x23
    .word 0x01241f13  # slli x30, x8, 18
    .word 0x00e45313  # srli x6, x8, 14
    .word 0x006f0333  # add x6, x30, x6
    .word 0x0067c7b3  # xor x15, x15, x6
    .word 0x010a0433  # add x8, x20, x16
    .word 0x00741f13  # slli x30, x8, 7
    .word 0x01945313  # srli x6, x8, 25
    .word 0x006f0333  # add x6, x30, x6
    .word 0x006c4c33  # xor x24, x24, x6
    .word 0x014c0433  # add x8, x24, x20
    .word 0x00941f13  # slli x30, x8, 9
    .word 0x01745313  # srli x6, x8, 23
    .word 0x006f0333  # add x6, x30, x6
    .word 0x00664633  # xor x12, x12, x6
    .word 0x01860433  # add x8, x12, x24
    .word 0x00d41f13  # slli x30, x8, 13
    .word 0x01345313  # srli x6, x8, 19
    .word 0x006f0333  # add x6, x30, x6
    .word 0x00684833  # xor x16, x16, x6
    .word 0x00c80433  # add x8, x16, x12
    .word 0x01241f13  # slli x30, x8, 18
    .word 0x00e45313  # srli x6, x8, 14
    .word 0x006f0333  # add x6, x30, x6
    .word 0x006a4a33  # xor x20, x20, x6
    .word 0x015c8433  # add x8, x25, x21
    .word 0x00741f13  # slli x30, x8, 7
    .word 0x01945313  # srli x6, x8, 25
    .word 0x006f0333  # add x6, x30, x6
    .word 0x0066c6b3  # xor x13, x13, x6
    .word 0x01968433  # add x8, x13, x25
    .word 0x00941f13  # slli x30, x8, 9
    .word 0x01745313  # srli x6, x8, 23
    .word 0x006f0333  # add x6, x30, x6
    .word 0x0068c8b3  # xor x17, x17, x6
    .word 0x00d88433  # add x8, x17, x13
    .word 0x00d41f13  # slli x30, x8, 13
    .word 0x01345313  # srli x6, x8, 19
    .word 0x006f0333  # add x6, x30, x6
    .word 0x006acab3  # xor x21, x21, x6
    .word 0x011a8433  # add x8, x21, x17
    .word 0x01241f13  # slli x30, x8, 18
    .word 0x00e45313  # srli x6, x8, 14
    .word 0x006f0333  # add x6, x30, x6
    .word 0x006cccb3  # xor x25, x25, x6
    .word 0x00d50433  # add x8, x10, x13
    .word 0x00741f13  # slli x30, x8, 7
    .word 0x01945313  # srli x6, x8, 25
    .word 0x006f0333  # add x6, x30, x6
    .word 0x0065c5b3  # xor x11, x11, x6
    .word 0x00a58433  # add x8, x11, x10
    .word 0x00941f13  # slli x30, x8, 9
    .word 0x01745313  # srli x6, x8, 23
    .word 0x006f0333  # add x6, x30, x6
    .word 0x00664633  # xor x12, x12, x6
    .word 0x00b60433  # add x8, x12, x11
    .word 0x00d41f13  # slli x30, x8, 13
    .word 0x01345313  # srli x6, x8, 19
    .word 0x006f0333  # add x6, x30, x6
    .word 0x0066c6b3  # xor x13, x13, x6
    .word 0x00c68433  # add x8, x13, x12
    .word 0x01241f13  # slli x30, x8, 18
    .word 0x00e45313  # srli x6, x8, 14
    .word 0x006f0333  # add x6, x30, x6
    .word 0x00654533  # xor x10, x10, x6
    .word 0x00e78433  # add x8, x15, x14
    .word 0x00741f13  # slli x30, x8, 7
    .word 0x01945313  # srli x6, x8, 25
    .word 0x006f0333  # add x6, x30, x6
    .word 0x00684833  # xor x16, x16, x6
    .word 0x00f80433  # add x8, x16, x15
    .word 0x00941f13  # slli x30, x8, 9
    .word 0x01745313  # srli x6, x8, 23
    .word 0x006f0333  # add x6, x30, x6
    .word 0x0068c8b3  # xor x17, x17, x6
    .word 0x01088433  # add x8, x17, x16
    .word 0x00d41f13  # slli x30, x8, 13
    .word 0x01345313  # srli x6, x8, 19
    .word 0x006f0333  # add x6, x30, x6
    .word 0x00674733  # xor x14, x14, x6
    .word 0x01170433  # add x8, x14, x17
    .word 0x01241f13  # slli x30, x8, 18
    .word 0x00e45313  # srli x6, x8, 14
    .word 0x006f0333  # add x6, x30, x6
    .word 0x0067c7b3  # xor x15, x15, x6
    .word 0x013a0433  # add x8, x20, x19
    .word 0x00741f13  # slli x30, x8, 7
    .word 0x01945313  # srli x6, x8, 25
    .word 0x006f0333  # add x6, x30, x6
    .word 0x006acab3  # xor x21, x21, x6
    .word 0x014a8433  # add x8, x21, x20
    .word 0x00941f13  # slli x30, x8, 9
    .word 0x01745313  # srli x6, x8, 23
    .word 0x006f0333  # add x6, x30, x6
    .word 0x00694933  # xor x18, x18, x6
    .word 0x01590433  # add x8, x18, x21
    .word 0x00d41f13  # slli x30, x8, 13
    .word 0x01345313  # srli x6, x8, 19
    .word 0x006f0333  # add x6, x30, x6
    .word 0x0069c9b3  # xor x19, x19, x6
    .word 0x01298433  # add x8, x19, x18
    .word 0x01241f13  # slli x30, x8, 18
    .word 0x00e45313  # srli x6, x8, 14
    .word 0x006f0333  # add x6, x30, x6
    .word 0x006a4a33  # xor x20, x20, x6
    .word 0x018c8433  # add x8, x25, x24
    .word 0x00741f13  # slli x30, x8, 7
    .word 0x01945313  # srli x6, x8, 25
    .word 0x006f0333  # add x6, x30, x6
    .word 0x006b4b33  # xor x22, x22, x6
    .word 0x019b0433  # add x8, x22, x25
    .word 0x00941f13  # slli x30, x8, 9
    .word 0x01745313  # srli x6, x8, 23
    .word 0x006f0333  # add x6, x30, x6
    .word 0x006bcbb3  # xor x23, x23, x6
    .word 0x016b8433  # add x8, x23, x22
    .word 0x00d41f13  # slli x30, x8, 13
    .word 0x01345313  # srli x6, x8, 19
    .word 0x006f0333  # add x6, x30, x6
    .word 0x006c4c33  # xor x24, x24, x6
    .word 0x017c0433  # add x8, x24, x23
    .word 0x01241f13  # slli x30, x8, 18
    .word 0x00e45313  # srli x6, x8, 14
    .word 0x006f0333  # add x6, x30, x6
    .word 0x006cccb3  # xor x25, x25, x6
    .word 0xff748293  # addi x5, x9, -9
    .word 0xd6029ce3  # bne x5, x0, -648
    .word 0x01a50433  # add x8, x10, x26
    .word 0x00812023  # sw x8, 0(x2)
    .word 0x01b58433  # add x8, x11, x27
    .word 0x00812223  # sw x8, 4(x2)
    .word 0x04012303  # lw x6, 64(x2)
    .word 0x00660433  # add x8, x12, x6
    .word 0x00812423  # sw x8, 8(x2)
    .word 0x04412303  # lw x6, 68(x2)
    .word 0x00668433  # add x8, x13, x6
    .word 0x00812623  # sw x8, 12(x2)
    .word 0x04812303  # lw x6, 72(x2)
    .word 0x00670433  # add x8, x14, x6
    .word 0x00812823  # sw x8, 16(x2)
    .word 0x04c12303  # lw x6, 76(x2)
    .word 0x00678433  # add x8, x15, x6
    .word 0x00812a23  # sw x8, 20(x2)
    .word 0x05012303  # lw x6, 80(x2)
    .word 0x00680433  # add x8, x16, x6
    .word 0x00812c23  # sw x8, 24(x2)
    .word 0x05412303  # lw x6, 84(x2)
    .word 0x00688433  # add x8, x17, x6
    .word 0x00812e23  # sw x8, 28(x2)
    .word 0x05812303  # lw x6, 88(x2)
    .word 0x00690433  # add x8, x18, x6
    .word 0x02812023  # sw x8, 32(x2)
    .word 0x05c12303  # lw x6, 92(x2)
    .word 0x00698433  # add x8, x19, x6
    .word 0x02812223  # sw x8, 36(x2)
    .word 0x06012303  # lw x6, 96(x2)
    .word 0x006a0433  # add x8, x20, x6
    .word 0x02812423  # sw x8, 40(x2)
    .word 0x06412303  # lw x6, 100(x2)
    .word 0x006a8433  # add x8, x21, x6
    .word 0x02812623  # sw x8, 44(x2)
    .word 0x06812303  # lw x6, 104(x2)
    .word 0x006b0433  # add x8, x22, x6
    .word 0x02812823  # sw x8, 48(x2)
    .word 0x06c12303  # lw x6, 108(x2)
    .word 0x006b8433  # add x8, x23, x6
    .word 0x02812a23  # sw x8, 52(x2)
    .word 0x07012303  # lw x6, 112(x2)
    .word 0x006c0433  # add x8, x24, x6
    .word 0x02812c23  # sw x8, 56(x2)
    .word 0x07412303  # lw x6, 116(x2)
    .word 0x006c8433  # add x8, x25, x6
    .word 0x02812e23  # sw x8, 60(x2)
    # the result
    .word 0x00000513  # addi x10, x0, 0
    # parameter 0: the array, back
    .word 0x00010293  # addi x5, x2, 0
    .word 0x0cc12303  # lw x6, 204(x2)
    .word 0x04028393  # addi x7, x5, 64
    .word 0x0002ce03  # lbu x28, 0(x5)
    .word 0x01c30023  # sb x28, 0(x6)
    .word 0x00128293  # addi x5, x5, 1
    .word 0x00130313  # addi x6, x6, 1
    .word 0xfe7298e3  # bne x5, x7, -16
    # above the frame
    .word 0x09010293  # addi x5, x2, 144
    # the caller's registers
    .word 0x0002a403  # lw x8, 0(x5)
    .cfi_restore 8
    .word 0x0042a483  # lw x9, 4(x5)
    .cfi_restore 9
    .word 0x0082a903  # lw x18, 8(x5)
    .cfi_restore 18
    .word 0x00c2a983  # lw x19, 12(x5)
    .cfi_restore 19
    .word 0x0102aa03  # lw x20, 16(x5)
    .cfi_restore 20
    .word 0x0142aa83  # lw x21, 20(x5)
    .cfi_restore 21
    .word 0x0182ab03  # lw x22, 24(x5)
    .cfi_restore 22
    .word 0x01c2ab83  # lw x23, 28(x5)
    .cfi_restore 23
    .word 0x0202ac03  # lw x24, 32(x5)
    .cfi_restore 24
    .word 0x0242ac83  # lw x25, 36(x5)
    .cfi_restore 25
    .word 0x0282ad03  # lw x26, 40(x5)
    .cfi_restore 26
    .word 0x02c2ad83  # lw x27, 44(x5)
    .cfi_restore 27
    # the caller's x2
    .word 0x04028293  # addi x5, x5, 64
    .cfi_def_cfa 5, 0
    # on to the tail that functions share
    jal x0, factc.tail.1
    .cfi_endproc
    .size salsa20_core, . - salsa20_core
    .section .text.factc.tail.1, "axG", @progbits, factc.tail.1, comdat
    .p2align 2
    .globl factc.tail.1
    .hidden factc.tail.1
    .type factc.tail.1, @function
factc.tail.1:
    .cfi_startproc
    .cfi_def_cfa 5, 0
    # all the room, wiped upward
    .word 0x00012023  # sw x0, 0(x2)
    .word 0x00012223  # sw x0, 4(x2)
    .word 0x00012423  # sw x0, 8(x2)
    .word 0x00012623  # sw x0, 12(x2)
    .word 0x01010113  # addi x2, x2, 16
    .word 0xfe5116e3  # bne x2, x5, -20
    .cfi_def_cfa 2, 0
    # temporaries, wiped
    .word 0x00000293  # addi x5, x0, 0
    .word 0x00000313  # addi x6, x0, 0
    .word 0x00000393  # addi x7, x0, 0
    .word 0x00000593  # addi x11, x0, 0
    .word 0x00000613  # addi x12, x0, 0
    .word 0x00000693  # addi x13, x0, 0
    .word 0x00000713  # addi x14, x0, 0
    .word 0x00000793  # addi x15, x0, 0
    .word 0x00000813  # addi x16, x0, 0
    .word 0x00000893  # addi x17, x0, 0
    .word 0x00000e13  # addi x28, x0, 0
    .word 0x00000e93  # addi x29, x0, 0
    .word 0x00000f13  # addi x30, x0, 0
    .word 0x00000f93  # addi x31, x0, 0
    # back
    .word 0x00008067  # jalr x0, 0(x1)
    .cfi_endproc
    .size factc.tail.1, . - factc.tail.1
    .option pop
