# ascon_aead128_encrypt: made by factc 1.0.0 function; 555 words and 21 shared, 384 bytes of stack, profile 1
    .option push
    .option norvc
    .option norelax
    .cfi_sections .debug_frame
    .section .text.ascon_aead128_encrypt, "ax", @progbits
    .p2align 2
    .globl ascon_aead128_encrypt
    .type ascon_aead128_encrypt, @function
ascon_aead128_encrypt:
    .cfi_startproc
    # room above the frame
    .word 0xfb010113  # addi x2, x2, -80
    .cfi_def_cfa_offset 80
    # the caller's registers
    .word 0x00812023  # sw x8, 0(x2)
    .cfi_offset 8, -80
    .word 0x00912223  # sw x9, 4(x2)
    .cfi_offset 9, -76
    .word 0x01212423  # sw x18, 8(x2)
    .cfi_offset 18, -72
    .word 0x01312623  # sw x19, 12(x2)
    .cfi_offset 19, -68
    .word 0x01412823  # sw x20, 16(x2)
    .cfi_offset 20, -64
    .word 0x01512a23  # sw x21, 20(x2)
    .cfi_offset 21, -60
    .word 0x01612c23  # sw x22, 24(x2)
    .cfi_offset 22, -56
    .word 0x01712e23  # sw x23, 28(x2)
    .cfi_offset 23, -52
    .word 0x03812023  # sw x24, 32(x2)
    .cfi_offset 24, -48
    .word 0x03912223  # sw x25, 36(x2)
    .cfi_offset 25, -44
    .word 0x03a12423  # sw x26, 40(x2)
    .cfi_offset 26, -40
    .word 0x03b12623  # sw x27, 44(x2)
    .cfi_offset 27, -36
    # arguments that are needed behind the body
    .word 0x02a12a23  # sw x10, 52(x2)
    .word 0x02b12c23  # sw x11, 56(x2)
    .word 0x02c12e23  # sw x12, 60(x2)
    .word 0x04d12023  # sw x13, 64(x2)
    .word 0x04e12223  # sw x14, 68(x2)
    .word 0x04f12423  # sw x15, 72(x2)
    .word 0x05012623  # sw x16, 76(x2)
    # the frame's base
    .word 0xed010113  # addi x2, x2, -304
    .cfi_def_cfa 2, 384
    # parameter 0: an array
    .word 0x00050293  # addi x5, x10, 0
    .word 0x00010313  # addi x6, x2, 0
    .word 0x01028393  # addi x7, x5, 16
    .word 0x0002ce03  # lbu x28, 0(x5)
    .word 0x01c30023  # sb x28, 0(x6)
    .word 0x00128293  # addi x5, x5, 1
    .word 0x00130313  # addi x6, x6, 1
    .word 0xfe7298e3  # bne x5, x7, -16
    # parameter 1: an array
    .word 0x00058293  # addi x5, x11, 0
    .word 0x01010313  # addi x6, x2, 16
    .word 0x01028393  # addi x7, x5, 16
    .word 0x0002ce03  # lbu x28, 0(x5)
    .word 0x01c30023  # sb x28, 0(x6)
    .word 0x00128293  # addi x5, x5, 1
    .word 0x00130313  # addi x6, x6, 1
    .word 0xfe7298e3  # bne x5, x7, -16
    # parameter 2: an array
    .word 0x00060293  # addi x5, x12, 0
    .word 0x02010313  # addi x6, x2, 32
    .word 0x04028393  # addi x7, x5, 64
    .word 0x0002ce03  # lbu x28, 0(x5)
    .word 0x01c30023  # sb x28, 0(x6)
    .word 0x00128293  # addi x5, x5, 1
    .word 0x00130313  # addi x6, x6, 1
    .word 0xfe7298e3  # bne x5, x7, -16
    # parameter 3: a word
    .word 0x06d12023  # sw x13, 96(x2)
    # parameter 4: an array
    .word 0x00070293  # addi x5, x14, 0
    .word 0x06410313  # addi x6, x2, 100
    .word 0x04028393  # addi x7, x5, 64
    .word 0x0002ce03  # lbu x28, 0(x5)
    .word 0x01c30023  # sb x28, 0(x6)
    .word 0x00128293  # addi x5, x5, 1
    .word 0x00130313  # addi x6, x6, 1
    .word 0xfe7298e3  # bne x5, x7, -16
    # parameter 5: a word
    .word 0x0af12223  # sw x15, 164(x2)
    # the body
    .word 0x800002b7  # lui x5, 0x80000
    .word 0x00028293  # addi x5, x5, 0
    .word 0x10512623  # sw x5, 268(x2)
    .word 0x0b800313  # addi x6, x0, 184
    .word 0x00230333  # add x6, x6, x2
    .word 0x02800393  # addi x7, x0, 40
    .word 0x006383b3  # add x7, x7, x6
    .word 0x406382b3  # sub x5, x7, x6
    .word 0x00029463  # bne x5, x0, 8
    .word 0x0100006f  # jal x0, 16
    .word 0x00032023  # sw x0, 0(x6)
    .word 0x00430313  # addi x6, x6, 4
    .word 0xfedff06f  # jal x0, -20
    .word 0x0e000313  # addi x6, x0, 224
    .word 0x00230333  # add x6, x6, x2
    .word 0x01000393  # addi x7, x0, 16
    .word 0x006383b3  # add x7, x7, x6
    .word 0x406382b3  # sub x5, x7, x6
    .word 0x00029463  # bne x5, x0, 8
    .word 0x0100006f  # jal x0, 16
    .word 0x00032023  # sw x0, 0(x6)
    .word 0x00430313  # addi x6, x6, 4
    .word 0xfedff06f  # jal x0, -20
    .word 0x0a412283  # lw x5, 164(x2)
    .word 0x0402b293  # sltiu x5, x5, 64
    .word 0x0a412303  # lw x6, 164(x2)
    .word 0x04000393  # addi x7, x0, 64
    .word 0x405002b3  # sub x5, x0, x5
    .word 0x00734333  # xor x6, x6, x7
    .word 0x00537333  # and x6, x6, x5
    .word 0x0063c2b3  # xor x5, x7, x6
    .word 0x0e512823  # sw x5, 240(x2)
    .word 0x06012283  # lw x5, 96(x2)
    .word 0x0402b293  # sltiu x5, x5, 64
    .word 0x06012303  # lw x6, 96(x2)
    .word 0x04000393  # addi x7, x0, 64
    .word 0x405002b3  # sub x5, x0, x5
    .word 0x00734333  # xor x6, x6, x7
    .word 0x00537333  # and x6, x6, x5
    .word 0x0063c2b3  # xor x5, x7, x6
    .word 0x0e512a23  # sw x5, 244(x2)
    .word 0x000012b7  # lui x5, 0x00001
    .word 0x00028293  # addi x5, x5, 0
    .word 0x0a512c23  # sw x5, 184(x2)
    .word 0x808c02b7  # lui x5, 0x808c0
    .word 0x00128293  # addi x5, x5, 1
    .word 0x0a512e23  # sw x5, 188(x2)
    .word 0xfff00513  # addi x10, x0, -1
    .word 0x00150513  # addi x10, x10, 1
    .word 0x00155293  # srli x5, x10, 1
    .word 0x00329293  # slli x5, x5, 3
    .word 0x00428293  # addi x5, x5, 4
    .word 0x00157313  # andi x6, x10, 1
    .word 0x00231313  # slli x6, x6, 2
    .word 0x406285b3  # sub x11, x5, x6
    .word 0x00258333  # add x6, x11, x2
    .word 0x00034303  # lbu x6, 0(x6)
    .word 0x002583b3  # add x7, x11, x2
    .word 0x0013c383  # lbu x7, 1(x7)
    .word 0x00839393  # slli x7, x7, 8
    .word 0x00736333  # or x6, x6, x7
    .word 0x002583b3  # add x7, x11, x2
    .word 0x0023c383  # lbu x7, 2(x7)
    .word 0x01039393  # slli x7, x7, 16
    .word 0x00736333  # or x6, x6, x7
    .word 0x002583b3  # add x7, x11, x2
    .word 0x0033c383  # lbu x7, 3(x7)
    .word 0x01839393  # slli x7, x7, 24
    .word 0x00736333  # or x6, x6, x7
    .word 0x00251293  # slli x5, x10, 2
    .word 0x002282b3  # add x5, x5, x2
    .word 0x0e62a023  # sw x6, 224(x5)
    .word 0x00251313  # slli x6, x10, 2
    .word 0x00230333  # add x6, x6, x2
    .word 0x0e032303  # lw x6, 224(x6)
    .word 0x00251293  # slli x5, x10, 2
    .word 0x002282b3  # add x5, x5, x2
    .word 0x0c62a023  # sw x6, 192(x5)
    .word 0x00650613  # addi x12, x10, 6
    .word 0x00261493  # slli x9, x12, 2
    .word 0x002484b3  # add x9, x9, x2
    .word 0x002582b3  # add x5, x11, x2
    .word 0x0102c283  # lbu x5, 16(x5)
    .word 0x00258333  # add x6, x11, x2
    .word 0x01134303  # lbu x6, 17(x6)
    .word 0x00831313  # slli x6, x6, 8
    .word 0x0062e2b3  # or x5, x5, x6
    .word 0x00258333  # add x6, x11, x2
    .word 0x01234303  # lbu x6, 18(x6)
    .word 0x01031313  # slli x6, x6, 16
    .word 0x0062e2b3  # or x5, x5, x6
    .word 0x00258333  # add x6, x11, x2
    .word 0x01334303  # lbu x6, 19(x6)
    .word 0x01831313  # slli x6, x6, 24
    .word 0x0062e2b3  # or x5, x5, x6
    .word 0x0a54ac23  # sw x5, 184(x9)
    .word 0xffd50293  # addi x5, x10, -3
    .word 0xf2029ee3  # bne x5, x0, -196
    .word 0x0f412283  # lw x5, 244(x2)
    .word 0x0012b293  # sltiu x5, x5, 1
    .word 0x00000313  # addi x6, x0, 0
    .word 0x0f412383  # lw x7, 244(x2)
    .word 0x0043d393  # srli x7, x7, 4
    .word 0x00138393  # addi x7, x7, 1
    .word 0x405002b3  # sub x5, x0, x5
    .word 0x00734333  # xor x6, x6, x7
    .word 0x00537333  # and x6, x6, x5
    .word 0x0063c2b3  # xor x5, x7, x6
    .word 0x0e512c23  # sw x5, 248(x2)
    .word 0x0f812283  # lw x5, 248(x2)
    .word 0x0f012303  # lw x6, 240(x2)
    .word 0x00435313  # srli x6, x6, 4
    .word 0x006282b3  # add x5, x5, x6
    .word 0x00128293  # addi x5, x5, 1
    .word 0x0e512e23  # sw x5, 252(x2)
    .word 0x10012a23  # sw x0, 276(x2)
    .word 0x00b00293  # addi x5, x0, 11
    .word 0x10512c23  # sw x5, 280(x2)
    .word 0x11412303  # lw x6, 276(x2)
    .word 0x11812283  # lw x5, 280(x2)
    .word 0x005332b3  # sltu x5, x6, x5
    .word 0x00029463  # bne x5, x0, 8
    .word 0x51c0006f  # jal x0, 1308
    .word 0x10612023  # sw x6, 256(x2)
    .word 0x00130313  # addi x6, x6, 1
    .word 0x10612a23  # sw x6, 276(x2)
    .word 0x10012283  # lw x5, 256(x2)
    .word 0x0f812303  # lw x6, 248(x2)
    .word 0x005332b3  # sltu x5, x6, x5
    .word 0x10012303  # lw x6, 256(x2)
    .word 0xfff30313  # addi x6, x6, -1
    .word 0x10012383  # lw x7, 256(x2)
    .word 0xfff38393  # addi x7, x7, -1
    .word 0x0f812403  # lw x8, 248(x2)
    .word 0x408383b3  # sub x7, x7, x8
    .word 0xfff28293  # addi x5, x5, -1
    .word 0x00734333  # xor x6, x6, x7
    .word 0x00537333  # and x6, x6, x5
    .word 0x0063c2b3  # xor x5, x7, x6
    .word 0x0072f293  # andi x5, x5, 7
    .word 0x10512423  # sw x5, 264(x2)
    .word 0x10012283  # lw x5, 256(x2)
    .word 0x0f812303  # lw x6, 248(x2)
    .word 0x00130313  # addi x6, x6, 1
    .word 0x00629a63  # bne x5, x6, 20
    .word 0x0d812283  # lw x5, 216(x2)
    .word 0x10c12303  # lw x6, 268(x2)
    .word 0x0062c2b3  # xor x5, x5, x6
    .word 0x0c512c23  # sw x5, 216(x2)
    .word 0x10012283  # lw x5, 256(x2)
    .word 0x005032b3  # sltu x5, x0, x5
    .word 0x10012303  # lw x6, 256(x2)
    .word 0x0fc12383  # lw x7, 252(x2)
    .word 0x0063b333  # sltu x6, x7, x6
    .word 0x00133313  # sltiu x6, x6, 1
    .word 0x0062f2b3  # and x5, x5, x6
    .word 0x0e028663  # beq x5, x0, 236
    .word 0xfff00513  # addi x10, x0, -1
    .word 0x00150513  # addi x10, x10, 1
    .word 0x10812283  # lw x5, 264(x2)
    .word 0x00429293  # slli x5, x5, 4
    .word 0x00a285b3  # add x11, x5, x10
    .word 0x00355293  # srli x5, x10, 3
    .word 0x00129293  # slli x5, x5, 1
    .word 0x00128293  # addi x5, x5, 1
    .word 0x00757313  # andi x6, x10, 7
    .word 0x00235313  # srli x6, x6, 2
    .word 0x40628633  # sub x12, x5, x6
    .word 0x00261493  # slli x9, x12, 2
    .word 0x002484b3  # add x9, x9, x2
    .word 0x00357293  # andi x5, x10, 3
    .word 0x00329693  # slli x13, x5, 3
    .word 0x10012283  # lw x5, 256(x2)
    .word 0x0f812303  # lw x6, 248(x2)
    .word 0x04536263  # bltu x6, x5, 68
    .word 0x00000713  # addi x14, x0, 0
    .word 0x0f412303  # lw x6, 244(x2)
    .word 0x0065b2b3  # sltu x5, x11, x6
    .word 0x0405b313  # sltiu x6, x11, 64
    .word 0x0062f2b3  # and x5, x5, x6
    .word 0x00028663  # beq x5, x0, 12
    .word 0x00258733  # add x14, x11, x2
    .word 0x02074703  # lbu x14, 32(x14)
    .word 0x0f412303  # lw x6, 244(x2)
    .word 0x00659463  # bne x11, x6, 8
    .word 0x00100713  # addi x14, x0, 1
    .word 0x0b84a283  # lw x5, 184(x9)
    .word 0x00d71333  # sll x6, x14, x13
    .word 0x0062c2b3  # xor x5, x5, x6
    .word 0x0a54ac23  # sw x5, 184(x9)
    .word 0x05c0006f  # jal x0, 92
    .word 0x0f012303  # lw x6, 240(x2)
    .word 0x0065b2b3  # sltu x5, x11, x6
    .word 0x0405b313  # sltiu x6, x11, 64
    .word 0x0062f2b3  # and x5, x5, x6
    .word 0x02028663  # beq x5, x0, 44
    .word 0x0b84a283  # lw x5, 184(x9)
    .word 0x00258333  # add x6, x11, x2
    .word 0x06434303  # lbu x6, 100(x6)
    .word 0x00d31333  # sll x6, x6, x13
    .word 0x0062c2b3  # xor x5, x5, x6
    .word 0x0a54ac23  # sw x5, 184(x9)
    .word 0x0b84a303  # lw x6, 184(x9)
    .word 0x00d35333  # srl x6, x6, x13
    .word 0x002582b3  # add x5, x11, x2
    .word 0x06628223  # sb x6, 100(x5)
    .word 0x0f012303  # lw x6, 240(x2)
    .word 0x00659c63  # bne x11, x6, 24
    .word 0x0b84a283  # lw x5, 184(x9)
    .word 0x00100313  # addi x6, x0, 1
    .word 0x00d31333  # sll x6, x6, x13
    .word 0x0062c2b3  # xor x5, x5, x6
    .word 0x0a54ac23  # sw x5, 184(x9)
    .word 0xff150293  # addi x5, x10, -15
    .word 0xf20290e3  # bne x5, x0, -224
    .word 0x10012283  # lw x5, 256(x2)
    .word 0x0fc12303  # lw x6, 252(x2)
    .word 0x04629263  # bne x5, x6, 68
    .word 0xfff00513  # addi x10, x0, -1
    .word 0x00150513  # addi x10, x10, 1
    .word 0x00450293  # addi x5, x10, 4
    .word 0x00450313  # addi x6, x10, 4
    .word 0x00231313  # slli x6, x6, 2
    .word 0x00230333  # add x6, x6, x2
    .word 0x0b832303  # lw x6, 184(x6)
    .word 0x00251393  # slli x7, x10, 2
    .word 0x002383b3  # add x7, x7, x2
    .word 0x0e03a383  # lw x7, 224(x7)
    .word 0x00734333  # xor x6, x6, x7
    .word 0x00229293  # slli x5, x5, 2
    .word 0x002282b3  # add x5, x5, x2
    .word 0x0a62ac23  # sw x6, 184(x5)
    .word 0xffd50293  # addi x5, x10, -3
    .word 0xfc0294e3  # bne x5, x0, -56
    .word 0x10012283  # lw x5, 256(x2)
    .word 0x0fc12303  # lw x6, 252(x2)
    .word 0x2e536863  # bltu x6, x5, 752
    .word 0x10012283  # lw x5, 256(x2)
    .word 0x0012b293  # sltiu x5, x5, 1
    .word 0x10012303  # lw x6, 256(x2)
    .word 0x0fc12383  # lw x7, 252(x2)
    .word 0x40730333  # sub x6, x6, x7
    .word 0x00133313  # sltiu x6, x6, 1
    .word 0x0062e2b3  # or x5, x5, x6
    .word 0x00000313  # addi x6, x0, 0
    .word 0x00400393  # addi x7, x0, 4
    .word 0x405002b3  # sub x5, x0, x5
    .word 0x00734333  # xor x6, x6, x7
    .word 0x00537333  # and x6, x6, x5
    .word 0x0063c5b3  # xor x11, x7, x6
    .word 0x0b812b03  # lw x22, 184(x2)
    .word 0x0bc12783  # lw x15, 188(x2)
    .word 0x0c012283  # lw x5, 192(x2)
    .word 0xfff2c993  # xori x19, x5, -1
    .word 0x0c412283  # lw x5, 196(x2)
    .word 0xfff2cc93  # xori x25, x5, -1
    .word 0x0c812283  # lw x5, 200(x2)
    .word 0xfff2c813  # xori x16, x5, -1
    .word 0x0cc12283  # lw x5, 204(x2)
    .word 0xfff2c293  # xori x5, x5, -1
    .word 0x10512223  # sw x5, 260(x2)
    .word 0x0d012283  # lw x5, 208(x2)
    .word 0xfff2c893  # xori x17, x5, -1
    .word 0x0d412283  # lw x5, 212(x2)
    .word 0xfff2cb93  # xori x23, x5, -1
    .word 0x0d812283  # lw x5, 216(x2)
    .word 0xfff2ca13  # xori x20, x5, -1
    .word 0x0dc12283  # lw x5, 220(x2)
    .word 0xfff2cd13  # xori x26, x5, -1
    .word 0x10b12e23  # sw x11, 284(x2)
    .word 0x00c00293  # addi x5, x0, 12
    .word 0x12512023  # sw x5, 288(x2)
    .word 0x11c12303  # lw x6, 284(x2)
    .word 0x12012283  # lw x5, 288(x2)
    .word 0x005332b3  # sltu x5, x6, x5
    .word 0x00029463  # bne x5, x0, 8
    .word 0x2040006f  # jal x0, 516
    .word 0x10612423  # sw x6, 264(x2)
    .word 0x00130313  # addi x6, x6, 1
    .word 0x10612e23  # sw x6, 284(x2)
    .word 0x0f000293  # addi x5, x0, 240
    .word 0x00f00313  # addi x6, x0, 15
    .word 0x10812383  # lw x7, 264(x2)
    .word 0x02730333  # mul x6, x6, x7
    .word 0x406285b3  # sub x11, x5, x6
    .word 0x014b4933  # xor x18, x22, x20
    .word 0x011a4c33  # xor x24, x20, x17
    .word 0x01384a33  # xor x20, x16, x19
    .word 0x0149f2b3  # and x5, x19, x20
    .word 0x0122cab3  # xor x21, x5, x18
    .word 0x011a62b3  # or x5, x20, x17
    .word 0x0132cdb3  # xor x27, x5, x19
    .word 0x012c62b3  # or x5, x24, x18
    .word 0x0112cb33  # xor x22, x5, x17
    .word 0x0188f2b3  # and x5, x17, x24
    .word 0x0142c8b3  # xor x17, x5, x20
    .word 0xfff94293  # xori x5, x18, -1
    .word 0x0132e2b3  # or x5, x5, x19
    .word 0x0182c933  # xor x18, x5, x24
    .word 0x012ac9b3  # xor x19, x21, x18
    .word 0x015dca33  # xor x20, x27, x21
    .word 0x011b42b3  # xor x5, x22, x17
    .word 0xfff2ca93  # xori x21, x5, -1
    .word 0x01a7cc33  # xor x24, x15, x26
    .word 0x017d4d33  # xor x26, x26, x23
    .word 0x10412283  # lw x5, 260(x2)
    .word 0x0192c2b3  # xor x5, x5, x25
    .word 0x00b2cdb3  # xor x27, x5, x11
    .word 0x01bcf2b3  # and x5, x25, x27
    .word 0x0182cb33  # xor x22, x5, x24
    .word 0x017de2b3  # or x5, x27, x23
    .word 0x0192c7b3  # xor x15, x5, x25
    .word 0x018d62b3  # or x5, x26, x24
    .word 0x0172c833  # xor x16, x5, x23
    .word 0x01abf2b3  # and x5, x23, x26
    .word 0x01b2cbb3  # xor x23, x5, x27
    .word 0xfffc4293  # xori x5, x24, -1
    .word 0x0192e2b3  # or x5, x5, x25
    .word 0x01a2cc33  # xor x24, x5, x26
    .word 0x018b4cb3  # xor x25, x22, x24
    .word 0x0167cd33  # xor x26, x15, x22
    .word 0x017842b3  # xor x5, x16, x23
    .word 0xfff2cd93  # xori x27, x5, -1
    .word 0x0139d313  # srli x6, x19, 19
    .word 0x00dc9393  # slli x7, x25, 13
    .word 0x00736333  # or x6, x6, x7
    .word 0x0069c2b3  # xor x5, x19, x6
    .word 0x01c9d313  # srli x6, x19, 28
    .word 0x004c9393  # slli x7, x25, 4
    .word 0x00736333  # or x6, x6, x7
    .word 0x0062cb33  # xor x22, x5, x6
    .word 0x013cd313  # srli x6, x25, 19
    .word 0x00d99393  # slli x7, x19, 13
    .word 0x00736333  # or x6, x6, x7
    .word 0x006cc2b3  # xor x5, x25, x6
    .word 0x01ccd313  # srli x6, x25, 28
    .word 0x00499393  # slli x7, x19, 4
    .word 0x00736333  # or x6, x6, x7
    .word 0x0062c7b3  # xor x15, x5, x6
    .word 0x01dd5313  # srli x6, x26, 29
    .word 0x003a1393  # slli x7, x20, 3
    .word 0x00736333  # or x6, x6, x7
    .word 0x006a42b3  # xor x5, x20, x6
    .word 0x007d5313  # srli x6, x26, 7
    .word 0x019a1393  # slli x7, x20, 25
    .word 0x00736333  # or x6, x6, x7
    .word 0x0062c9b3  # xor x19, x5, x6
    .word 0x01da5313  # srli x6, x20, 29
    .word 0x003d1393  # slli x7, x26, 3
    .word 0x00736333  # or x6, x6, x7
    .word 0x006d42b3  # xor x5, x26, x6
    .word 0x007a5313  # srli x6, x20, 7
    .word 0x019d1393  # slli x7, x26, 25
    .word 0x00736333  # or x6, x6, x7
    .word 0x0062ccb3  # xor x25, x5, x6
    .word 0x0018d313  # srli x6, x17, 1
    .word 0x01fb9393  # slli x7, x23, 31
    .word 0x00736333  # or x6, x6, x7
    .word 0x0068c2b3  # xor x5, x17, x6
    .word 0x0068d313  # srli x6, x17, 6
    .word 0x01ab9393  # slli x7, x23, 26
    .word 0x00736333  # or x6, x6, x7
    .word 0x0062c833  # xor x16, x5, x6
    .word 0x001bd313  # srli x6, x23, 1
    .word 0x01f89393  # slli x7, x17, 31
    .word 0x00736333  # or x6, x6, x7
    .word 0x006bc2b3  # xor x5, x23, x6
    .word 0x006bd313  # srli x6, x23, 6
    .word 0x01a89393  # slli x7, x17, 26
    .word 0x00736333  # or x6, x6, x7
    .word 0x0062c2b3  # xor x5, x5, x6
    .word 0x10512223  # sw x5, 260(x2)
    .word 0x00aad313  # srli x6, x21, 10
    .word 0x016d9393  # slli x7, x27, 22
    .word 0x00736333  # or x6, x6, x7
    .word 0x006ac2b3  # xor x5, x21, x6
    .word 0x011ad313  # srli x6, x21, 17
    .word 0x00fd9393  # slli x7, x27, 15
    .word 0x00736333  # or x6, x6, x7
    .word 0x0062c8b3  # xor x17, x5, x6
    .word 0x00add313  # srli x6, x27, 10
    .word 0x016a9393  # slli x7, x21, 22
    .word 0x00736333  # or x6, x6, x7
    .word 0x006dc2b3  # xor x5, x27, x6
    .word 0x011dd313  # srli x6, x27, 17
    .word 0x00fa9393  # slli x7, x21, 15
    .word 0x00736333  # or x6, x6, x7
    .word 0x0062cbb3  # xor x23, x5, x6
    .word 0x00795313  # srli x6, x18, 7
    .word 0x019c1393  # slli x7, x24, 25
    .word 0x00736333  # or x6, x6, x7
    .word 0x006942b3  # xor x5, x18, x6
    .word 0x009c5313  # srli x6, x24, 9
    .word 0x01791393  # slli x7, x18, 23
    .word 0x00736333  # or x6, x6, x7
    .word 0x0062ca33  # xor x20, x5, x6
    .word 0x007c5313  # srli x6, x24, 7
    .word 0x01991393  # slli x7, x18, 25
    .word 0x00736333  # or x6, x6, x7
    .word 0x006c42b3  # xor x5, x24, x6
    .word 0x00995313  # srli x6, x18, 9
    .word 0x017c1393  # slli x7, x24, 23
    .word 0x00736333  # or x6, x6, x7
    .word 0x0062cd33  # xor x26, x5, x6
    .word 0xdf1ff06f  # jal x0, -528
    .word 0x0b612c23  # sw x22, 184(x2)
    .word 0x0af12e23  # sw x15, 188(x2)
    .word 0xfff9c293  # xori x5, x19, -1
    .word 0x0c512023  # sw x5, 192(x2)
    .word 0xfffcc293  # xori x5, x25, -1
    .word 0x0c512223  # sw x5, 196(x2)
    .word 0xfff84293  # xori x5, x16, -1
    .word 0x0c512423  # sw x5, 200(x2)
    .word 0x10412283  # lw x5, 260(x2)
    .word 0xfff2c293  # xori x5, x5, -1
    .word 0x0c512623  # sw x5, 204(x2)
    .word 0xfff8c293  # xori x5, x17, -1
    .word 0x0c512823  # sw x5, 208(x2)
    .word 0xfffbc293  # xori x5, x23, -1
    .word 0x0c512a23  # sw x5, 212(x2)
    .word 0xfffa4293  # xori x5, x20, -1
    .word 0x0c512c23  # sw x5, 216(x2)
    .word 0xfffd4293  # xori x5, x26, -1
    .word 0x0c512e23  # sw x5, 220(x2)
    .word 0x10012283  # lw x5, 256(x2)
    .word 0x0012b293  # sltiu x5, x5, 1
    .word 0x10012303  # lw x6, 256(x2)
    .word 0x0fc12383  # lw x7, 252(x2)
    .word 0x40730333  # sub x6, x6, x7
    .word 0x00133313  # sltiu x6, x6, 1
    .word 0x0062e2b3  # or x5, x5, x6
    .word 0x04028263  # beq x5, x0, 68
    .word 0xfff00513  # addi x10, x0, -1
    .word 0x00150513  # addi x10, x10, 1
    .word 0x00650293  # addi x5, x10, 6
    .word 0x00650313  # addi x6, x10, 6
    .word 0x00231313  # slli x6, x6, 2
    .word 0x00230333  # add x6, x6, x2
    .word 0x0b832303  # lw x6, 184(x6)
    .word 0x00251393  # slli x7, x10, 2
    .word 0x002383b3  # add x7, x7, x2
    .word 0x0e03a383  # lw x7, 224(x7)
    .word 0x00734333  # xor x6, x6, x7
    .word 0x00229293  # slli x5, x5, 2
    .word 0x002282b3  # add x5, x5, x2
    .word 0x0a62ac23  # sw x6, 184(x5)
    .word 0xffd50293  # addi x5, x10, -3
    .word 0xfc0294e3  # bne x5, x0, -56
    .word 0xad9ff06f  # jal x0, -1320
    .word 0xfff00513  # addi x10, x0, -1
    .word 0x00150513  # addi x10, x10, 1
    .word 0x00355313  # srli x6, x10, 3
    .word 0x00131313  # slli x6, x6, 1
    .word 0x00630313  # addi x6, x6, 6
    .word 0x00130313  # addi x6, x6, 1
    .word 0x00757393  # andi x7, x10, 7
    .word 0x0023d393  # srli x7, x7, 2
    .word 0x40730333  # sub x6, x6, x7
    .word 0x00231313  # slli x6, x6, 2
    .word 0x00230333  # add x6, x6, x2
    .word 0x0b832303  # lw x6, 184(x6)
    .word 0x00357393  # andi x7, x10, 3
    .word 0x00339393  # slli x7, x7, 3
    .word 0x00735333  # srl x6, x6, x7
    .word 0x002502b3  # add x5, x10, x2
    .word 0x0a628423  # sb x6, 168(x5)
    .word 0xff150293  # addi x5, x10, -15
    .word 0xfa029ee3  # bne x5, x0, -68
    # the result
    .word 0x00000513  # addi x10, x0, 0
    # parameter 4: the array, back
    .word 0x06410293  # addi x5, x2, 100
    .word 0x17412303  # lw x6, 372(x2)
    .word 0x04028393  # addi x7, x5, 64
    .word 0x0002ce03  # lbu x28, 0(x5)
    .word 0x01c30023  # sb x28, 0(x6)
    .word 0x00128293  # addi x5, x5, 1
    .word 0x00130313  # addi x6, x6, 1
    .word 0xfe7298e3  # bne x5, x7, -16
    # parameter 6: the array, back
    .word 0x0a810293  # addi x5, x2, 168
    .word 0x17c12303  # lw x6, 380(x2)
    .word 0x01028393  # addi x7, x5, 16
    .word 0x0002ce03  # lbu x28, 0(x5)
    .word 0x01c30023  # sb x28, 0(x6)
    .word 0x00128293  # addi x5, x5, 1
    .word 0x00130313  # addi x6, x6, 1
    .word 0xfe7298e3  # bne x5, x7, -16
    # above the frame
    .word 0x13010293  # addi x5, x2, 304
    # the caller's registers
    .word 0x0002a403  # lw x8, 0(x5)
    .cfi_restore 8
    .word 0x0042a483  # lw x9, 4(x5)
    .cfi_restore 9
    .word 0x0082a903  # lw x18, 8(x5)
    .cfi_restore 18
    .word 0x00c2a983  # lw x19, 12(x5)
    .cfi_restore 19
    .word 0x0102aa03  # lw x20, 16(x5)
    .cfi_restore 20
    .word 0x0142aa83  # lw x21, 20(x5)
    .cfi_restore 21
    .word 0x0182ab03  # lw x22, 24(x5)
    .cfi_restore 22
    .word 0x01c2ab83  # lw x23, 28(x5)
    .cfi_restore 23
    .word 0x0202ac03  # lw x24, 32(x5)
    .cfi_restore 24
    .word 0x0242ac83  # lw x25, 36(x5)
    .cfi_restore 25
    .word 0x0282ad03  # lw x26, 40(x5)
    .cfi_restore 26
    .word 0x02c2ad83  # lw x27, 44(x5)
    .cfi_restore 27
    # the caller's x2
    .word 0x05028293  # addi x5, x5, 80
    .cfi_def_cfa 5, 0
    # on to the tail that functions share
    jal x0, factc.tail.1
    .cfi_endproc
    .size ascon_aead128_encrypt, . - ascon_aead128_encrypt
    .section .text.factc.tail.1, "axG", @progbits, factc.tail.1, comdat
    .p2align 2
    .globl factc.tail.1
    .hidden factc.tail.1
    .type factc.tail.1, @function
factc.tail.1:
    .cfi_startproc
    .cfi_def_cfa 5, 0
    # all the room, wiped upward
    .word 0x00012023  # sw x0, 0(x2)
    .word 0x00012223  # sw x0, 4(x2)
    .word 0x00012423  # sw x0, 8(x2)
    .word 0x00012623  # sw x0, 12(x2)
    .word 0x01010113  # addi x2, x2, 16
    .word 0xfe5116e3  # bne x2, x5, -20
    .cfi_def_cfa 2, 0
    # temporaries, wiped
    .word 0x00000293  # addi x5, x0, 0
    .word 0x00000313  # addi x6, x0, 0
    .word 0x00000393  # addi x7, x0, 0
    .word 0x00000593  # addi x11, x0, 0
    .word 0x00000613  # addi x12, x0, 0
    .word 0x00000693  # addi x13, x0, 0
    .word 0x00000713  # addi x14, x0, 0
    .word 0x00000793  # addi x15, x0, 0
    .word 0x00000813  # addi x16, x0, 0
    .word 0x00000893  # addi x17, x0, 0
    .word 0x00000e13  # addi x28, x0, 0
    .word 0x00000e93  # addi x29, x0, 0
    .word 0x00000f13  # addi x30, x0, 0
    .word 0x00000f93  # addi x31, x0, 0
    # back
    .word 0x00008067  # jalr x0, 0(x1)
    .cfi_endproc
    .size factc.tail.1, . - factc.tail.1
    .option pop
