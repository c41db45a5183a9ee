# ascon_permute: made by factc 1.0.0 function; 222 words and 21 shared, 112 bytes of stack, profile 1
    .option push
    .option norvc
    .option norelax
    .cfi_sections .debug_frame
    .section .text.ascon_permute, "ax", @progbits
    .p2align 2
    .globl ascon_permute
    .type ascon_permute, @function
ascon_permute:
    .cfi_startproc
    # room above the frame
    .word 0xfd010113  # addi x2, x2, -48
    .cfi_def_cfa_offset 48
    # the caller's registers
    .word 0x00812023  # sw x8, 0(x2)
    .cfi_offset 8, -48
    .word 0x01212223  # sw x18, 4(x2)
    .cfi_offset 18, -44
    .word 0x01312423  # sw x19, 8(x2)
    .cfi_offset 19, -40
    .word 0x01412623  # sw x20, 12(x2)
    .cfi_offset 20, -36
    .word 0x01512823  # sw x21, 16(x2)
    .cfi_offset 21, -32
    .word 0x01612a23  # sw x22, 20(x2)
    .cfi_offset 22, -28
    .word 0x01712c23  # sw x23, 24(x2)
    .cfi_offset 23, -24
    .word 0x01812e23  # sw x24, 28(x2)
    .cfi_offset 24, -20
    .word 0x03912023  # sw x25, 32(x2)
    .cfi_offset 25, -16
    .word 0x03a12223  # sw x26, 36(x2)
    .cfi_offset 26, -12
    # arguments that are needed behind the body
    .word 0x02a12623  # sw x10, 44(x2)
    # the frame's base
    .word 0xfc010113  # addi x2, x2, -64
    .cfi_def_cfa 2, 112
    # parameter 0: an array
    .word 0x00050293  # addi x5, x10, 0
    .word 0x00010313  # addi x6, x2, 0
    .word 0x02828393  # addi x7, x5, 40
    .word 0x0002ae03  # lw x28, 0(x5)
    .word 0x01c32023  # sw x28, 0(x6)
    .word 0x00428293  # addi x5, x5, 4
    .word 0x00430313  # addi x6, x6, 4
    .word 0xfe7298e3  # bne x5, x7, -16
    # parameter 1: a word
    .word 0x02b12423  # sw x11, 40(x2)
    # the body
    .word 0x02812503  # lw x10, 40(x2)
    .word 0x00000713  # addi x14, x0, 0
    .word 0x00012a83  # lw x21, 0(x2)
    .word 0x00412583  # lw x11, 4(x2)
    .word 0x00812283  # lw x5, 8(x2)
    .word 0xfff2c913  # xori x18, x5, -1
    .word 0x00c12283  # lw x5, 12(x2)
    .word 0xfff2cc13  # xori x24, x5, -1
    .word 0x01012283  # lw x5, 16(x2)
    .word 0xfff2c613  # xori x12, x5, -1
    .word 0x01412283  # lw x5, 20(x2)
    .word 0xfff2c693  # xori x13, x5, -1
    .word 0x01812283  # lw x5, 24(x2)
    .word 0xfff2c813  # xori x16, x5, -1
    .word 0x01c12283  # lw x5, 28(x2)
    .word 0xfff2cb13  # xori x22, x5, -1
    .word 0x02012283  # lw x5, 32(x2)
    .word 0xfff2c993  # xori x19, x5, -1
    .word 0x02412283  # lw x5, 36(x2)
    .word 0xfff2cc93  # xori x25, x5, -1
    .word 0x00c00293  # addi x5, x0, 12
    .word 0x00c53313  # sltiu x6, x10, 12
    .word 0x00c00413  # addi x8, x0, 12
    .word 0x028573b3  # remu x7, x10, x8
    .word 0x00c00413  # addi x8, x0, 12
    .word 0x40600333  # sub x6, x0, x6
    .word 0x0083c3b3  # xor x7, x7, x8
    .word 0x0063f3b3  # and x7, x7, x6
    .word 0x00744333  # xor x6, x8, x7
    .word 0x406282b3  # sub x5, x5, x6
    .word 0x00c2b313  # sltiu x6, x5, 12
    .word 0x00031463  # bne x6, x0, 8
    .word 0x2000006f  # jal x0, 512
    .word 0x00028713  # addi x14, x5, 0
    .word 0x0f000293  # addi x5, x0, 240
    .word 0x00f00313  # addi x6, x0, 15
    .word 0x02e30333  # mul x6, x6, x14
    .word 0x406287b3  # sub x15, x5, x6
    .word 0x013ac8b3  # xor x17, x21, x19
    .word 0x0109cbb3  # xor x23, x19, x16
    .word 0x012649b3  # xor x19, x12, x18
    .word 0x013972b3  # and x5, x18, x19
    .word 0x0112ca33  # xor x20, x5, x17
    .word 0x0109e2b3  # or x5, x19, x16
    .word 0x0122cd33  # xor x26, x5, x18
    .word 0x011be2b3  # or x5, x23, x17
    .word 0x0102cab3  # xor x21, x5, x16
    .word 0x017872b3  # and x5, x16, x23
    .word 0x0132c833  # xor x16, x5, x19
    .word 0xfff8c293  # xori x5, x17, -1
    .word 0x0122e2b3  # or x5, x5, x18
    .word 0x0172c8b3  # xor x17, x5, x23
    .word 0x011a4933  # xor x18, x20, x17
    .word 0x014d49b3  # xor x19, x26, x20
    .word 0x010ac2b3  # xor x5, x21, x16
    .word 0xfff2ca13  # xori x20, x5, -1
    .word 0x0195cbb3  # xor x23, x11, x25
    .word 0x016cccb3  # xor x25, x25, x22
    .word 0x0186c2b3  # xor x5, x13, x24
    .word 0x00f2cd33  # xor x26, x5, x15
    .word 0x01ac72b3  # and x5, x24, x26
    .word 0x0172cab3  # xor x21, x5, x23
    .word 0x016d62b3  # or x5, x26, x22
    .word 0x0182c5b3  # xor x11, x5, x24
    .word 0x017ce2b3  # or x5, x25, x23
    .word 0x0162c633  # xor x12, x5, x22
    .word 0x019b72b3  # and x5, x22, x25
    .word 0x01a2cb33  # xor x22, x5, x26
    .word 0xfffbc293  # xori x5, x23, -1
    .word 0x0182e2b3  # or x5, x5, x24
    .word 0x0192cbb3  # xor x23, x5, x25
    .word 0x017acc33  # xor x24, x21, x23
    .word 0x0155ccb3  # xor x25, x11, x21
    .word 0x016642b3  # xor x5, x12, x22
    .word 0xfff2cd13  # xori x26, x5, -1
    .word 0x01395313  # srli x6, x18, 19
    .word 0x00dc1393  # slli x7, x24, 13
    .word 0x00736333  # or x6, x6, x7
    .word 0x006942b3  # xor x5, x18, x6
    .word 0x01c95313  # srli x6, x18, 28
    .word 0x004c1393  # slli x7, x24, 4
    .word 0x00736333  # or x6, x6, x7
    .word 0x0062cab3  # xor x21, x5, x6
    .word 0x013c5313  # srli x6, x24, 19
    .word 0x00d91393  # slli x7, x18, 13
    .word 0x00736333  # or x6, x6, x7
    .word 0x006c42b3  # xor x5, x24, x6
    .word 0x01cc5313  # srli x6, x24, 28
    .word 0x00491393  # slli x7, x18, 4
    .word 0x00736333  # or x6, x6, x7
    .word 0x0062c5b3  # xor x11, x5, x6
    .word 0x01dcd313  # srli x6, x25, 29
    .word 0x00399393  # slli x7, x19, 3
    .word 0x00736333  # or x6, x6, x7
    .word 0x0069c2b3  # xor x5, x19, x6
    .word 0x007cd313  # srli x6, x25, 7
    .word 0x01999393  # slli x7, x19, 25
    .word 0x00736333  # or x6, x6, x7
    .word 0x0062c933  # xor x18, x5, x6
    .word 0x01d9d313  # srli x6, x19, 29
    .word 0x003c9393  # slli x7, x25, 3
    .word 0x00736333  # or x6, x6, x7
    .word 0x006cc2b3  # xor x5, x25, x6
    .word 0x0079d313  # srli x6, x19, 7
    .word 0x019c9393  # slli x7, x25, 25
    .word 0x00736333  # or x6, x6, x7
    .word 0x0062cc33  # xor x24, x5, x6
    .word 0x00185313  # srli x6, x16, 1
    .word 0x01fb1393  # slli x7, x22, 31
    .word 0x00736333  # or x6, x6, x7
    .word 0x006842b3  # xor x5, x16, x6
    .word 0x00685313  # srli x6, x16, 6
    .word 0x01ab1393  # slli x7, x22, 26
    .word 0x00736333  # or x6, x6, x7
    .word 0x0062c633  # xor x12, x5, x6
    .word 0x001b5313  # srli x6, x22, 1
    .word 0x01f81393  # slli x7, x16, 31
    .word 0x00736333  # or x6, x6, x7
    .word 0x006b42b3  # xor x5, x22, x6
    .word 0x006b5313  # srli x6, x22, 6
    .word 0x01a81393  # slli x7, x16, 26
    .word 0x00736333  # or x6, x6, x7
    .word 0x0062c6b3  # xor x13, x5, x6
    .word 0x00aa5313  # srli x6, x20, 10
    .word 0x016d1393  # slli x7, x26, 22
    .word 0x00736333  # or x6, x6, x7
    .word 0x006a42b3  # xor x5, x20, x6
    .word 0x011a5313  # srli x6, x20, 17
    .word 0x00fd1393  # slli x7, x26, 15
    .word 0x00736333  # or x6, x6, x7
    .word 0x0062c833  # xor x16, x5, x6
    .word 0x00ad5313  # srli x6, x26, 10
    .word 0x016a1393  # slli x7, x20, 22
    .word 0x00736333  # or x6, x6, x7
    .word 0x006d42b3  # xor x5, x26, x6
    .word 0x011d5313  # srli x6, x26, 17
    .word 0x00fa1393  # slli x7, x20, 15
    .word 0x00736333  # or x6, x6, x7
    .word 0x0062cb33  # xor x22, x5, x6
    .word 0x0078d313  # srli x6, x17, 7
    .word 0x019b9393  # slli x7, x23, 25
    .word 0x00736333  # or x6, x6, x7
    .word 0x0068c2b3  # xor x5, x17, x6
    .word 0x009bd313  # srli x6, x23, 9
    .word 0x01789393  # slli x7, x17, 23
    .word 0x00736333  # or x6, x6, x7
    .word 0x0062c9b3  # xor x19, x5, x6
    .word 0x007bd313  # srli x6, x23, 7
    .word 0x01989393  # slli x7, x17, 25
    .word 0x00736333  # or x6, x6, x7
    .word 0x006bc2b3  # xor x5, x23, x6
    .word 0x0098d313  # srli x6, x17, 9
    .word 0x017b9393  # slli x7, x23, 23
    .word 0x00736333  # or x6, x6, x7
    .word 0x0062ccb3  # xor x25, x5, x6
    .word 0x00170713  # addi x14, x14, 1
    .word 0x00c73293  # sltiu x5, x14, 12
    .word 0xe0029ae3  # bne x5, x0, -492
    .word 0xfff70713  # addi x14, x14, -1
    .word 0x0040006f  # jal x0, 4
    .word 0x01512023  # sw x21, 0(x2)
    .word 0x00b12223  # sw x11, 4(x2)
    .word 0xfff94293  # xori x5, x18, -1
    .word 0x00512423  # sw x5, 8(x2)
    .word 0xfffc4293  # xori x5, x24, -1
    .word 0x00512623  # sw x5, 12(x2)
    .word 0xfff64293  # xori x5, x12, -1
    .word 0x00512823  # sw x5, 16(x2)
    .word 0xfff6c293  # xori x5, x13, -1
    .word 0x00512a23  # sw x5, 20(x2)
    .word 0xfff84293  # xori x5, x16, -1
    .word 0x00512c23  # sw x5, 24(x2)
    .word 0xfffb4293  # xori x5, x22, -1
    .word 0x00512e23  # sw x5, 28(x2)
    .word 0xfff9c293  # xori x5, x19, -1
    .word 0x02512023  # sw x5, 32(x2)
    .word 0xfffcc293  # xori x5, x25, -1
    .word 0x02512223  # sw x5, 36(x2)
    # the result
    .word 0x00000513  # addi x10, x0, 0
    # parameter 0: the array, back
    .word 0x00010293  # addi x5, x2, 0
    .word 0x06c12303  # lw x6, 108(x2)
    .word 0x02828393  # addi x7, x5, 40
    .word 0x0002ae03  # lw x28, 0(x5)
    .word 0x01c32023  # sw x28, 0(x6)
    .word 0x00428293  # addi x5, x5, 4
    .word 0x00430313  # addi x6, x6, 4
    .word 0xfe7298e3  # bne x5, x7, -16
    # above the frame
    .word 0x04010293  # addi x5, x2, 64
    # the caller's registers
    .word 0x0002a403  # lw x8, 0(x5)
    .cfi_restore 8
    .word 0x0042a903  # lw x18, 4(x5)
    .cfi_restore 18
    .word 0x0082a983  # lw x19, 8(x5)
    .cfi_restore 19
    .word 0x00c2aa03  # lw x20, 12(x5)
    .cfi_restore 20
    .word 0x0102aa83  # lw x21, 16(x5)
    .cfi_restore 21
    .word 0x0142ab03  # lw x22, 20(x5)
    .cfi_restore 22
    .word 0x0182ab83  # lw x23, 24(x5)
    .cfi_restore 23
    .word 0x01c2ac03  # lw x24, 28(x5)
    .cfi_restore 24
    .word 0x0202ac83  # lw x25, 32(x5)
    .cfi_restore 25
    .word 0x0242ad03  # lw x26, 36(x5)
    .cfi_restore 26
    # the caller's x2
    .word 0x03028293  # addi x5, x5, 48
    .cfi_def_cfa 5, 0
    # on to the tail that functions share
    jal x0, factc.tail.1
    .cfi_endproc
    .size ascon_permute, . - ascon_permute
    .section .text.factc.tail.1, "axG", @progbits, factc.tail.1, comdat
    .p2align 2
    .globl factc.tail.1
    .hidden factc.tail.1
    .type factc.tail.1, @function
factc.tail.1:
    .cfi_startproc
    .cfi_def_cfa 5, 0
    # all the room, wiped upward
    .word 0x00012023  # sw x0, 0(x2)
    .word 0x00012223  # sw x0, 4(x2)
    .word 0x00012423  # sw x0, 8(x2)
    .word 0x00012623  # sw x0, 12(x2)
    .word 0x01010113  # addi x2, x2, 16
    .word 0xfe5116e3  # bne x2, x5, -20
    .cfi_def_cfa 2, 0
    # temporaries, wiped
    .word 0x00000293  # addi x5, x0, 0
    .word 0x00000313  # addi x6, x0, 0
    .word 0x00000393  # addi x7, x0, 0
    .word 0x00000593  # addi x11, x0, 0
    .word 0x00000613  # addi x12, x0, 0
    .word 0x00000693  # addi x13, x0, 0
    .word 0x00000713  # addi x14, x0, 0
    .word 0x00000793  # addi x15, x0, 0
    .word 0x00000813  # addi x16, x0, 0
    .word 0x00000893  # addi x17, x0, 0
    .word 0x00000e13  # addi x28, x0, 0
    .word 0x00000e93  # addi x29, x0, 0
    .word 0x00000f13  # addi x30, x0, 0
    .word 0x00000f93  # addi x31, x0, 0
    # back
    .word 0x00008067  # jalr x0, 0(x1)
    .cfi_endproc
    .size factc.tail.1, . - factc.tail.1
    .option pop
