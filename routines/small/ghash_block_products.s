# ghash_block_products: made by factc 1.0.0 function; 546 words and 21 shared, 352 bytes of stack, profile 1
    .option push
    .option norvc
    .option norelax
    .cfi_sections .debug_frame
    .section .text.ghash_block_products, "ax", @progbits
    .p2align 2
    .globl ghash_block_products
    .type ghash_block_products, @function
ghash_block_products:
    .cfi_startproc
    # room above the frame
    .word 0xfc010113  # addi x2, x2, -64
    .cfi_def_cfa_offset 64
    # the caller's registers
    .word 0x00812023  # sw x8, 0(x2)
    .cfi_offset 8, -64
    .word 0x01212223  # sw x18, 4(x2)
    .cfi_offset 18, -60
    .word 0x01312423  # sw x19, 8(x2)
    .cfi_offset 19, -56
    .word 0x01412623  # sw x20, 12(x2)
    .cfi_offset 20, -52
    .word 0x01512823  # sw x21, 16(x2)
    .cfi_offset 21, -48
    .word 0x01612a23  # sw x22, 20(x2)
    .cfi_offset 22, -44
    .word 0x01712c23  # sw x23, 24(x2)
    .cfi_offset 23, -40
    .word 0x01812e23  # sw x24, 28(x2)
    .cfi_offset 24, -36
    .word 0x03912023  # sw x25, 32(x2)
    .cfi_offset 25, -32
    .word 0x03a12223  # sw x26, 36(x2)
    .cfi_offset 26, -28
    .word 0x03b12423  # sw x27, 40(x2)
    .cfi_offset 27, -24
    # arguments that are needed behind the body
    .word 0x02a12a23  # sw x10, 52(x2)
    .word 0x02b12c23  # sw x11, 56(x2)
    .word 0x02c12e23  # sw x12, 60(x2)
    # the frame's base
    .word 0xee010113  # addi x2, x2, -288
    .cfi_def_cfa 2, 352
    # parameter 0: an array
    .word 0x00050293  # addi x5, x10, 0
    .word 0x00010313  # addi x6, x2, 0
    .word 0x01028393  # addi x7, x5, 16
    .word 0x0002ce03  # lbu x28, 0(x5)
    .word 0x01c30023  # sb x28, 0(x6)
    .word 0x00128293  # addi x5, x5, 1
    .word 0x00130313  # addi x6, x6, 1
    .word 0xfe7298e3  # bne x5, x7, -16
    # parameter 1: an array
    .word 0x00058293  # addi x5, x11, 0
    .word 0x01010313  # addi x6, x2, 16
    .word 0x01028393  # addi x7, x5, 16
    .word 0x0002ce03  # lbu x28, 0(x5)
    .word 0x01c30023  # sb x28, 0(x6)
    .word 0x00128293  # addi x5, x5, 1
    .word 0x00130313  # addi x6, x6, 1
    .word 0xfe7298e3  # bne x5, x7, -16
    # parameter 2: an array
    .word 0x00060293  # addi x5, x12, 0
    .word 0x02010313  # addi x6, x2, 32
    .word 0x01028393  # addi x7, x5, 16
    .word 0x0002ce03  # lbu x28, 0(x5)
    .word 0x01c30023  # sb x28, 0(x6)
    .word 0x00128293  # addi x5, x5, 1
    .word 0x00130313  # addi x6, x6, 1
    .word 0xfe7298e3  # bne x5, x7, -16
    # the body
    .word 0x000102b7  # lui x5, 0x00010
    .word 0xfff28293  # addi x5, x5, -1
    .word 0x10512423  # sw x5, 264(x2)
    .word 0x49249bb7  # lui x23, 0x49249
    .word 0x249b8b93  # addi x23, x23, 585
    .word 0x92492c37  # lui x24, 0x92492
    .word 0x492c0c13  # addi x24, x24, 1170
    .word 0x24925cb7  # lui x25, 0x24925
    .word 0x924c8c93  # addi x25, x25, -1756
    .word 0x03000313  # addi x6, x0, 48
    .word 0x00230333  # add x6, x6, x2
    .word 0x01000393  # addi x7, x0, 16
    .word 0x006383b3  # add x7, x7, x6
    .word 0x406382b3  # sub x5, x7, x6
    .word 0x00029463  # bne x5, x0, 8
    .word 0x0100006f  # jal x0, 16
    .word 0x00032023  # sw x0, 0(x6)
    .word 0x00430313  # addi x6, x6, 4
    .word 0xfedff06f  # jal x0, -20
    .word 0x04000313  # addi x6, x0, 64
    .word 0x00230333  # add x6, x6, x2
    .word 0x01000393  # addi x7, x0, 16
    .word 0x006383b3  # add x7, x7, x6
    .word 0x406382b3  # sub x5, x7, x6
    .word 0x00029463  # bne x5, x0, 8
    .word 0x0100006f  # jal x0, 16
    .word 0x00032023  # sw x0, 0(x6)
    .word 0x00430313  # addi x6, x6, 4
    .word 0xfedff06f  # jal x0, -20
    .word 0xfff00513  # addi x10, x0, -1
    .word 0x00150513  # addi x10, x10, 1
    .word 0x00251d13  # slli x26, x10, 2
    .word 0x002d0d33  # add x26, x26, x2
    .word 0x00c00293  # addi x5, x0, 12
    .word 0x00251313  # slli x6, x10, 2
    .word 0x406285b3  # sub x11, x5, x6
    .word 0x00258db3  # add x27, x11, x2
    .word 0x000dc283  # lbu x5, 0(x27)
    .word 0x01829293  # slli x5, x5, 24
    .word 0x001dc303  # lbu x6, 1(x27)
    .word 0x01031313  # slli x6, x6, 16
    .word 0x0062eb33  # or x22, x5, x6
    .word 0x002dc303  # lbu x6, 2(x27)
    .word 0x00831313  # slli x6, x6, 8
    .word 0x006b62b3  # or x5, x22, x6
    .word 0x003dc303  # lbu x6, 3(x27)
    .word 0x0062e2b3  # or x5, x5, x6
    .word 0x025d2823  # sw x5, 48(x26)
    .word 0x00c00293  # addi x5, x0, 12
    .word 0x00251313  # slli x6, x10, 2
    .word 0x406285b3  # sub x11, x5, x6
    .word 0x00258db3  # add x27, x11, x2
    .word 0x020dc283  # lbu x5, 32(x27)
    .word 0x01829293  # slli x5, x5, 24
    .word 0x021dc303  # lbu x6, 33(x27)
    .word 0x01031313  # slli x6, x6, 16
    .word 0x0062eb33  # or x22, x5, x6
    .word 0x022dc303  # lbu x6, 34(x27)
    .word 0x00831313  # slli x6, x6, 8
    .word 0x006b62b3  # or x5, x22, x6
    .word 0x023dc303  # lbu x6, 35(x27)
    .word 0x0062eb33  # or x22, x5, x6
    .word 0x00c00293  # addi x5, x0, 12
    .word 0x00251313  # slli x6, x10, 2
    .word 0x406285b3  # sub x11, x5, x6
    .word 0x00258db3  # add x27, x11, x2
    .word 0x010dc283  # lbu x5, 16(x27)
    .word 0x01829293  # slli x5, x5, 24
    .word 0x011dc303  # lbu x6, 17(x27)
    .word 0x01031313  # slli x6, x6, 16
    .word 0x0062e6b3  # or x13, x5, x6
    .word 0x012dc303  # lbu x6, 18(x27)
    .word 0x00831313  # slli x6, x6, 8
    .word 0x0066e2b3  # or x5, x13, x6
    .word 0x013dc303  # lbu x6, 19(x27)
    .word 0x0062e6b3  # or x13, x5, x6
    .word 0x00db42b3  # xor x5, x22, x13
    .word 0x045d2023  # sw x5, 64(x26)
    .word 0xffd50293  # addi x5, x10, -3
    .word 0xf2029ee3  # bne x5, x0, -196
    .word 0x05000313  # addi x6, x0, 80
    .word 0x00230333  # add x6, x6, x2
    .word 0x02400393  # addi x7, x0, 36
    .word 0x006383b3  # add x7, x7, x6
    .word 0x406382b3  # sub x5, x7, x6
    .word 0x00029463  # bne x5, x0, 8
    .word 0x0100006f  # jal x0, 16
    .word 0x00032023  # sw x0, 0(x6)
    .word 0x00430313  # addi x6, x6, 4
    .word 0xfedff06f  # jal x0, -20
    .word 0x07400313  # addi x6, x0, 116
    .word 0x00230333  # add x6, x6, x2
    .word 0x02400393  # addi x7, x0, 36
    .word 0x006383b3  # add x7, x7, x6
    .word 0x406382b3  # sub x5, x7, x6
    .word 0x00029463  # bne x5, x0, 8
    .word 0x0100006f  # jal x0, 16
    .word 0x00032023  # sw x0, 0(x6)
    .word 0x00430313  # addi x6, x6, 4
    .word 0xfedff06f  # jal x0, -20
    .word 0xfff00513  # addi x10, x0, -1
    .word 0x00150513  # addi x10, x10, 1
    .word 0x00251d13  # slli x26, x10, 2
    .word 0x002d0d33  # add x26, x26, x2
    .word 0x030d2283  # lw x5, 48(x26)
    .word 0x045d2823  # sw x5, 80(x26)
    .word 0xffd50293  # addi x5, x10, -3
    .word 0xfe0294e3  # bne x5, x0, -24
    .word 0x03012283  # lw x5, 48(x2)
    .word 0x03412303  # lw x6, 52(x2)
    .word 0x0062c2b3  # xor x5, x5, x6
    .word 0x06512023  # sw x5, 96(x2)
    .word 0x03812283  # lw x5, 56(x2)
    .word 0x03c12303  # lw x6, 60(x2)
    .word 0x0062c2b3  # xor x5, x5, x6
    .word 0x06512223  # sw x5, 100(x2)
    .word 0x03012283  # lw x5, 48(x2)
    .word 0x03812303  # lw x6, 56(x2)
    .word 0x0062c2b3  # xor x5, x5, x6
    .word 0x06512423  # sw x5, 104(x2)
    .word 0x03412283  # lw x5, 52(x2)
    .word 0x03c12303  # lw x6, 60(x2)
    .word 0x0062c2b3  # xor x5, x5, x6
    .word 0x06512623  # sw x5, 108(x2)
    .word 0x06012283  # lw x5, 96(x2)
    .word 0x06412303  # lw x6, 100(x2)
    .word 0x0062c2b3  # xor x5, x5, x6
    .word 0x06512823  # sw x5, 112(x2)
    .word 0xfff00513  # addi x10, x0, -1
    .word 0x00150513  # addi x10, x10, 1
    .word 0x00251d13  # slli x26, x10, 2
    .word 0x002d0d33  # add x26, x26, x2
    .word 0x040d2283  # lw x5, 64(x26)
    .word 0x065d2a23  # sw x5, 116(x26)
    .word 0xffd50293  # addi x5, x10, -3
    .word 0xfe0294e3  # bne x5, x0, -24
    .word 0x04012283  # lw x5, 64(x2)
    .word 0x04412303  # lw x6, 68(x2)
    .word 0x0062c2b3  # xor x5, x5, x6
    .word 0x08512223  # sw x5, 132(x2)
    .word 0x04812283  # lw x5, 72(x2)
    .word 0x04c12303  # lw x6, 76(x2)
    .word 0x0062c2b3  # xor x5, x5, x6
    .word 0x08512423  # sw x5, 136(x2)
    .word 0x04012283  # lw x5, 64(x2)
    .word 0x04812303  # lw x6, 72(x2)
    .word 0x0062c2b3  # xor x5, x5, x6
    .word 0x08512623  # sw x5, 140(x2)
    .word 0x04412283  # lw x5, 68(x2)
    .word 0x04c12303  # lw x6, 76(x2)
    .word 0x0062c2b3  # xor x5, x5, x6
    .word 0x08512823  # sw x5, 144(x2)
    .word 0x08412283  # lw x5, 132(x2)
    .word 0x08812303  # lw x6, 136(x2)
    .word 0x0062c2b3  # xor x5, x5, x6
    .word 0x08512a23  # sw x5, 148(x2)
    .word 0x09800313  # addi x6, x0, 152
    .word 0x00230333  # add x6, x6, x2
    .word 0x02400393  # addi x7, x0, 36
    .word 0x006383b3  # add x7, x7, x6
    .word 0x406382b3  # sub x5, x7, x6
    .word 0x00029463  # bne x5, x0, 8
    .word 0x0100006f  # jal x0, 16
    .word 0x00032023  # sw x0, 0(x6)
    .word 0x00430313  # addi x6, x6, 4
    .word 0xfedff06f  # jal x0, -20
    .word 0x0bc00313  # addi x6, x0, 188
    .word 0x00230333  # add x6, x6, x2
    .word 0x02400393  # addi x7, x0, 36
    .word 0x006383b3  # add x7, x7, x6
    .word 0x406382b3  # sub x5, x7, x6
    .word 0x00029463  # bne x5, x0, 8
    .word 0x0100006f  # jal x0, 16
    .word 0x00032023  # sw x0, 0(x6)
    .word 0x00430313  # addi x6, x6, 4
    .word 0xfedff06f  # jal x0, -20
    .word 0xfff00613  # addi x12, x0, -1
    .word 0x00160613  # addi x12, x12, 1
    .word 0x00261b13  # slli x22, x12, 2
    .word 0x002b0b33  # add x22, x22, x2
    .word 0x050b2b03  # lw x22, 80(x22)
    .word 0x00261693  # slli x13, x12, 2
    .word 0x002686b3  # add x13, x13, x2
    .word 0x0746a683  # lw x13, 116(x13)
    .word 0x10812303  # lw x6, 264(x2)
    .word 0x006b7733  # and x14, x22, x6
    .word 0x10812303  # lw x6, 264(x2)
    .word 0x0066f7b3  # and x15, x13, x6
    .word 0x01777833  # and x16, x14, x23
    .word 0x018778b3  # and x17, x14, x24
    .word 0x01977733  # and x14, x14, x25
    .word 0x0177f933  # and x18, x15, x23
    .word 0x0187f9b3  # and x19, x15, x24
    .word 0x0197f7b3  # and x15, x15, x25
    .word 0x032802b3  # mul x5, x16, x18
    .word 0x02f88333  # mul x6, x17, x15
    .word 0x0062c2b3  # xor x5, x5, x6
    .word 0x03370333  # mul x6, x14, x19
    .word 0x0062c2b3  # xor x5, x5, x6
    .word 0x0172fab3  # and x21, x5, x23
    .word 0x033802b3  # mul x5, x16, x19
    .word 0x03288333  # mul x6, x17, x18
    .word 0x0062c2b3  # xor x5, x5, x6
    .word 0x02f70333  # mul x6, x14, x15
    .word 0x0062c2b3  # xor x5, x5, x6
    .word 0x0182fa33  # and x20, x5, x24
    .word 0x02f802b3  # mul x5, x16, x15
    .word 0x03388333  # mul x6, x17, x19
    .word 0x0062c2b3  # xor x5, x5, x6
    .word 0x03270333  # mul x6, x14, x18
    .word 0x0062c2b3  # xor x5, x5, x6
    .word 0x0192f733  # and x14, x5, x25
    .word 0x014ae2b3  # or x5, x21, x20
    .word 0x00e2eab3  # or x21, x5, x14
    .word 0x010b5713  # srli x14, x22, 16
    .word 0x0106d793  # srli x15, x13, 16
    .word 0x01777833  # and x16, x14, x23
    .word 0x018778b3  # and x17, x14, x24
    .word 0x01977733  # and x14, x14, x25
    .word 0x0177f933  # and x18, x15, x23
    .word 0x0187f9b3  # and x19, x15, x24
    .word 0x0197f7b3  # and x15, x15, x25
    .word 0x032802b3  # mul x5, x16, x18
    .word 0x02f88333  # mul x6, x17, x15
    .word 0x0062c2b3  # xor x5, x5, x6
    .word 0x03370333  # mul x6, x14, x19
    .word 0x0062c2b3  # xor x5, x5, x6
    .word 0x0172fa33  # and x20, x5, x23
    .word 0x033802b3  # mul x5, x16, x19
    .word 0x03288333  # mul x6, x17, x18
    .word 0x0062c2b3  # xor x5, x5, x6
    .word 0x02f70333  # mul x6, x14, x15
    .word 0x0062c2b3  # xor x5, x5, x6
    .word 0x0182f2b3  # and x5, x5, x24
    .word 0x0e512023  # sw x5, 224(x2)
    .word 0x02f802b3  # mul x5, x16, x15
    .word 0x03388333  # mul x6, x17, x19
    .word 0x0062c2b3  # xor x5, x5, x6
    .word 0x03270333  # mul x6, x14, x18
    .word 0x0062c2b3  # xor x5, x5, x6
    .word 0x0192f733  # and x14, x5, x25
    .word 0x0e012303  # lw x6, 224(x2)
    .word 0x006a62b3  # or x5, x20, x6
    .word 0x00e2e933  # or x18, x5, x14
    .word 0x010b5313  # srli x6, x22, 16
    .word 0x006b42b3  # xor x5, x22, x6
    .word 0x10812303  # lw x6, 264(x2)
    .word 0x0062fb33  # and x22, x5, x6
    .word 0x0106d313  # srli x6, x13, 16
    .word 0x0066c2b3  # xor x5, x13, x6
    .word 0x10812303  # lw x6, 264(x2)
    .word 0x0062f6b3  # and x13, x5, x6
    .word 0x017b7733  # and x14, x22, x23
    .word 0x018b77b3  # and x15, x22, x24
    .word 0x019b7b33  # and x22, x22, x25
    .word 0x0176f833  # and x16, x13, x23
    .word 0x0186f8b3  # and x17, x13, x24
    .word 0x0196f6b3  # and x13, x13, x25
    .word 0x030702b3  # mul x5, x14, x16
    .word 0x02d78333  # mul x6, x15, x13
    .word 0x0062c2b3  # xor x5, x5, x6
    .word 0x031b0333  # mul x6, x22, x17
    .word 0x0062c2b3  # xor x5, x5, x6
    .word 0x0172f9b3  # and x19, x5, x23
    .word 0x031702b3  # mul x5, x14, x17
    .word 0x03078333  # mul x6, x15, x16
    .word 0x0062c2b3  # xor x5, x5, x6
    .word 0x02db0333  # mul x6, x22, x13
    .word 0x0062c2b3  # xor x5, x5, x6
    .word 0x0182fa33  # and x20, x5, x24
    .word 0x02d702b3  # mul x5, x14, x13
    .word 0x03178333  # mul x6, x15, x17
    .word 0x0062c2b3  # xor x5, x5, x6
    .word 0x030b0333  # mul x6, x22, x16
    .word 0x0062c2b3  # xor x5, x5, x6
    .word 0x0192fb33  # and x22, x5, x25
    .word 0x0149e2b3  # or x5, x19, x20
    .word 0x0162eb33  # or x22, x5, x22
    .word 0x015b42b3  # xor x5, x22, x21
    .word 0x0122cb33  # xor x22, x5, x18
    .word 0x010b1393  # slli x7, x22, 16
    .word 0x007ac333  # xor x6, x21, x7
    .word 0x00261293  # slli x5, x12, 2
    .word 0x002282b3  # add x5, x5, x2
    .word 0x0862ac23  # sw x6, 152(x5)
    .word 0x010b5393  # srli x7, x22, 16
    .word 0x00794333  # xor x6, x18, x7
    .word 0x00261293  # slli x5, x12, 2
    .word 0x002282b3  # add x5, x5, x2
    .word 0x0a62ae23  # sw x6, 188(x5)
    .word 0xff860293  # addi x5, x12, -8
    .word 0xe2029ce3  # bne x5, x0, -456
    .word 0x0e400313  # addi x6, x0, 228
    .word 0x00230333  # add x6, x6, x2
    .word 0x02000393  # addi x7, x0, 32
    .word 0x006383b3  # add x7, x7, x6
    .word 0x406382b3  # sub x5, x7, x6
    .word 0x00029463  # bne x5, x0, 8
    .word 0x0100006f  # jal x0, 16
    .word 0x00032023  # sw x0, 0(x6)
    .word 0x00430313  # addi x6, x6, 4
    .word 0xfedff06f  # jal x0, -20
    .word 0x09812283  # lw x5, 152(x2)
    .word 0x09c12303  # lw x6, 156(x2)
    .word 0x0062cb33  # xor x22, x5, x6
    .word 0x0a012283  # lw x5, 160(x2)
    .word 0x0a412303  # lw x6, 164(x2)
    .word 0x0062c6b3  # xor x13, x5, x6
    .word 0x0e412283  # lw x5, 228(x2)
    .word 0x09812303  # lw x6, 152(x2)
    .word 0x0062c2b3  # xor x5, x5, x6
    .word 0x0e512223  # sw x5, 228(x2)
    .word 0x0e812283  # lw x5, 232(x2)
    .word 0x0162c2b3  # xor x5, x5, x22
    .word 0x0a812303  # lw x6, 168(x2)
    .word 0x0062c2b3  # xor x5, x5, x6
    .word 0x0e512423  # sw x5, 232(x2)
    .word 0x0ec12283  # lw x5, 236(x2)
    .word 0x0162c2b3  # xor x5, x5, x22
    .word 0x0a012303  # lw x6, 160(x2)
    .word 0x0062c2b3  # xor x5, x5, x6
    .word 0x0b012303  # lw x6, 176(x2)
    .word 0x0062c2b3  # xor x5, x5, x6
    .word 0x0e512623  # sw x5, 236(x2)
    .word 0x0f012283  # lw x5, 240(x2)
    .word 0x0162c2b3  # xor x5, x5, x22
    .word 0x00d2c2b3  # xor x5, x5, x13
    .word 0x0a812303  # lw x6, 168(x2)
    .word 0x0062c2b3  # xor x5, x5, x6
    .word 0x0ac12303  # lw x6, 172(x2)
    .word 0x0062c2b3  # xor x5, x5, x6
    .word 0x0b012303  # lw x6, 176(x2)
    .word 0x0062c2b3  # xor x5, x5, x6
    .word 0x0b412303  # lw x6, 180(x2)
    .word 0x0062c2b3  # xor x5, x5, x6
    .word 0x0b812303  # lw x6, 184(x2)
    .word 0x0062c2b3  # xor x5, x5, x6
    .word 0x0e512823  # sw x5, 240(x2)
    .word 0x0f412283  # lw x5, 244(x2)
    .word 0x00d2c2b3  # xor x5, x5, x13
    .word 0x09c12303  # lw x6, 156(x2)
    .word 0x0062c2b3  # xor x5, x5, x6
    .word 0x0b412303  # lw x6, 180(x2)
    .word 0x0062c2b3  # xor x5, x5, x6
    .word 0x0e512a23  # sw x5, 244(x2)
    .word 0x0f812283  # lw x5, 248(x2)
    .word 0x00d2c2b3  # xor x5, x5, x13
    .word 0x0ac12303  # lw x6, 172(x2)
    .word 0x0062c2b3  # xor x5, x5, x6
    .word 0x0e512c23  # sw x5, 248(x2)
    .word 0x0fc12283  # lw x5, 252(x2)
    .word 0x0a412303  # lw x6, 164(x2)
    .word 0x0062c2b3  # xor x5, x5, x6
    .word 0x0e512e23  # sw x5, 252(x2)
    .word 0x0bc12283  # lw x5, 188(x2)
    .word 0x0c012303  # lw x6, 192(x2)
    .word 0x0062cb33  # xor x22, x5, x6
    .word 0x0c412283  # lw x5, 196(x2)
    .word 0x0c812303  # lw x6, 200(x2)
    .word 0x0062c6b3  # xor x13, x5, x6
    .word 0x0e812283  # lw x5, 232(x2)
    .word 0x0bc12303  # lw x6, 188(x2)
    .word 0x0062c2b3  # xor x5, x5, x6
    .word 0x0e512423  # sw x5, 232(x2)
    .word 0x0ec12283  # lw x5, 236(x2)
    .word 0x0162c2b3  # xor x5, x5, x22
    .word 0x0cc12303  # lw x6, 204(x2)
    .word 0x0062c2b3  # xor x5, x5, x6
    .word 0x0e512623  # sw x5, 236(x2)
    .word 0x0f012283  # lw x5, 240(x2)
    .word 0x0162c2b3  # xor x5, x5, x22
    .word 0x0c412303  # lw x6, 196(x2)
    .word 0x0062c2b3  # xor x5, x5, x6
    .word 0x0d412303  # lw x6, 212(x2)
    .word 0x0062c2b3  # xor x5, x5, x6
    .word 0x0e512823  # sw x5, 240(x2)
    .word 0x0f412283  # lw x5, 244(x2)
    .word 0x0162c2b3  # xor x5, x5, x22
    .word 0x00d2c2b3  # xor x5, x5, x13
    .word 0x0cc12303  # lw x6, 204(x2)
    .word 0x0062c2b3  # xor x5, x5, x6
    .word 0x0d012303  # lw x6, 208(x2)
    .word 0x0062c2b3  # xor x5, x5, x6
    .word 0x0d412303  # lw x6, 212(x2)
    .word 0x0062c2b3  # xor x5, x5, x6
    .word 0x0d812303  # lw x6, 216(x2)
    .word 0x0062c2b3  # xor x5, x5, x6
    .word 0x0dc12303  # lw x6, 220(x2)
    .word 0x0062c2b3  # xor x5, x5, x6
    .word 0x0e512a23  # sw x5, 244(x2)
    .word 0x0f812283  # lw x5, 248(x2)
    .word 0x00d2c2b3  # xor x5, x5, x13
    .word 0x0c012303  # lw x6, 192(x2)
    .word 0x0062c2b3  # xor x5, x5, x6
    .word 0x0d812303  # lw x6, 216(x2)
    .word 0x0062c2b3  # xor x5, x5, x6
    .word 0x0e512c23  # sw x5, 248(x2)
    .word 0x0fc12283  # lw x5, 252(x2)
    .word 0x00d2c2b3  # xor x5, x5, x13
    .word 0x0d012303  # lw x6, 208(x2)
    .word 0x0062c2b3  # xor x5, x5, x6
    .word 0x0e512e23  # sw x5, 252(x2)
    .word 0x10012283  # lw x5, 256(x2)
    .word 0x0c812303  # lw x6, 200(x2)
    .word 0x0062c2b3  # xor x5, x5, x6
    .word 0x10512023  # sw x5, 256(x2)
    .word 0xfff00613  # addi x12, x0, -1
    .word 0x00160613  # addi x12, x12, 1
    .word 0x00700293  # addi x5, x0, 7
    .word 0x40c282b3  # sub x5, x5, x12
    .word 0x00700313  # addi x6, x0, 7
    .word 0x40c30333  # sub x6, x6, x12
    .word 0x00231313  # slli x6, x6, 2
    .word 0x00230333  # add x6, x6, x2
    .word 0x0e432303  # lw x6, 228(x6)
    .word 0x00131313  # slli x6, x6, 1
    .word 0x00600393  # addi x7, x0, 6
    .word 0x40c383b3  # sub x7, x7, x12
    .word 0x00239393  # slli x7, x7, 2
    .word 0x002383b3  # add x7, x7, x2
    .word 0x0e43a383  # lw x7, 228(x7)
    .word 0x01f3d393  # srli x7, x7, 31
    .word 0x00736333  # or x6, x6, x7
    .word 0x00229293  # slli x5, x5, 2
    .word 0x002282b3  # add x5, x5, x2
    .word 0x0e62a223  # sw x6, 228(x5)
    .word 0xffa60293  # addi x5, x12, -6
    .word 0xfa0298e3  # bne x5, x0, -80
    .word 0x0e412283  # lw x5, 228(x2)
    .word 0x00129293  # slli x5, x5, 1
    .word 0x0e512223  # sw x5, 228(x2)
    .word 0xfff00513  # addi x10, x0, -1
    .word 0x00150513  # addi x10, x10, 1
    .word 0x00251d13  # slli x26, x10, 2
    .word 0x002d0d33  # add x26, x26, x2
    .word 0x0e4d2b03  # lw x22, 228(x26)
    .word 0x0f4d2283  # lw x5, 244(x26)
    .word 0x0162c2b3  # xor x5, x5, x22
    .word 0x001b5313  # srli x6, x22, 1
    .word 0x0062c2b3  # xor x5, x5, x6
    .word 0x002b5313  # srli x6, x22, 2
    .word 0x0062c2b3  # xor x5, x5, x6
    .word 0x007b5313  # srli x6, x22, 7
    .word 0x0062c2b3  # xor x5, x5, x6
    .word 0x0e5d2a23  # sw x5, 244(x26)
    .word 0x0f0d2283  # lw x5, 240(x26)
    .word 0x01fb1313  # slli x6, x22, 31
    .word 0x0062c2b3  # xor x5, x5, x6
    .word 0x01eb1313  # slli x6, x22, 30
    .word 0x0062c2b3  # xor x5, x5, x6
    .word 0x019b1313  # slli x6, x22, 25
    .word 0x0062c2b3  # xor x5, x5, x6
    .word 0x0e5d2823  # sw x5, 240(x26)
    .word 0xffd50293  # addi x5, x10, -3
    .word 0xfa0294e3  # bne x5, x0, -88
    .word 0x10012823  # sw x0, 272(x2)
    .word 0x01000293  # addi x5, x0, 16
    .word 0x10512a23  # sw x5, 276(x2)
    .word 0x11012303  # lw x6, 272(x2)
    .word 0x11412283  # lw x5, 276(x2)
    .word 0x005332b3  # sltu x5, x6, x5
    .word 0x00029463  # bne x5, x0, 8
    .word 0x0540006f  # jal x0, 84
    .word 0x10612223  # sw x6, 260(x2)
    .word 0x00130313  # addi x6, x6, 1
    .word 0x10612823  # sw x6, 272(x2)
    .word 0x10412283  # lw x5, 260(x2)
    .word 0x00700313  # addi x6, x0, 7
    .word 0x10412383  # lw x7, 260(x2)
    .word 0x0023d393  # srli x7, x7, 2
    .word 0x40730333  # sub x6, x6, x7
    .word 0x00231313  # slli x6, x6, 2
    .word 0x00230333  # add x6, x6, x2
    .word 0x0e432303  # lw x6, 228(x6)
    .word 0x01800393  # addi x7, x0, 24
    .word 0x10412403  # lw x8, 260(x2)
    .word 0x00347413  # andi x8, x8, 3
    .word 0x00341413  # slli x8, x8, 3
    .word 0x408383b3  # sub x7, x7, x8
    .word 0x00735333  # srl x6, x6, x7
    .word 0x002282b3  # add x5, x5, x2
    .word 0x02628023  # sb x6, 32(x5)
    .word 0xfa1ff06f  # jal x0, -96
    # the result
    .word 0x00000513  # addi x10, x0, 0
    # parameter 2: the array, back
    .word 0x02010293  # addi x5, x2, 32
    .word 0x15c12303  # lw x6, 348(x2)
    .word 0x01028393  # addi x7, x5, 16
    .word 0x0002ce03  # lbu x28, 0(x5)
    .word 0x01c30023  # sb x28, 0(x6)
    .word 0x00128293  # addi x5, x5, 1
    .word 0x00130313  # addi x6, x6, 1
    .word 0xfe7298e3  # bne x5, x7, -16
    # above the frame
    .word 0x12010293  # addi x5, x2, 288
    # the caller's registers
    .word 0x0002a403  # lw x8, 0(x5)
    .cfi_restore 8
    .word 0x0042a903  # lw x18, 4(x5)
    .cfi_restore 18
    .word 0x0082a983  # lw x19, 8(x5)
    .cfi_restore 19
    .word 0x00c2aa03  # lw x20, 12(x5)
    .cfi_restore 20
    .word 0x0102aa83  # lw x21, 16(x5)
    .cfi_restore 21
    .word 0x0142ab03  # lw x22, 20(x5)
    .cfi_restore 22
    .word 0x0182ab83  # lw x23, 24(x5)
    .cfi_restore 23
    .word 0x01c2ac03  # lw x24, 28(x5)
    .cfi_restore 24
    .word 0x0202ac83  # lw x25, 32(x5)
    .cfi_restore 25
    .word 0x0242ad03  # lw x26, 36(x5)
    .cfi_restore 26
    .word 0x0282ad83  # lw x27, 40(x5)
    .cfi_restore 27
    # the caller's x2
    .word 0x04028293  # addi x5, x5, 64
    .cfi_def_cfa 5, 0
    # on to the tail that functions share
    jal x0, factc.tail.1
    .cfi_endproc
    .size ghash_block_products, . - ghash_block_products
    .section .text.factc.tail.1, "axG", @progbits, factc.tail.1, comdat
    .p2align 2
    .globl factc.tail.1
    .hidden factc.tail.1
    .type factc.tail.1, @function
factc.tail.1:
    .cfi_startproc
    .cfi_def_cfa 5, 0
    # all the room, wiped upward
    .word 0x00012023  # sw x0, 0(x2)
    .word 0x00012223  # sw x0, 4(x2)
    .word 0x00012423  # sw x0, 8(x2)
    .word 0x00012623  # sw x0, 12(x2)
    .word 0x01010113  # addi x2, x2, 16
    .word 0xfe5116e3  # bne x2, x5, -20
    .cfi_def_cfa 2, 0
    # temporaries, wiped
    .word 0x00000293  # addi x5, x0, 0
    .word 0x00000313  # addi x6, x0, 0
    .word 0x00000393  # addi x7, x0, 0
    .word 0x00000593  # addi x11, x0, 0
    .word 0x00000613  # addi x12, x0, 0
    .word 0x00000693  # addi x13, x0, 0
    .word 0x00000713  # addi x14, x0, 0
    .word 0x00000793  # addi x15, x0, 0
    .word 0x00000813  # addi x16, x0, 0
    .word 0x00000893  # addi x17, x0, 0
    .word 0x00000e13  # addi x28, x0, 0
    .word 0x00000e93  # addi x29, x0, 0
    .word 0x00000f13  # addi x30, x0, 0
    .word 0x00000f93  # addi x31, x0, 0
    # back
    .word 0x00008067  # jalr x0, 0(x1)
    .cfi_endproc
    .size factc.tail.1, . - factc.tail.1
    .option pop
