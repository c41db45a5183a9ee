# ascon_hash256_short: made by factc 1.0.0 function; 362 words and 21 shared, 384 bytes of stack, profile 1
    .option push
    .option norvc
    .option norelax
    .cfi_sections .debug_frame
    .section .text.ascon_hash256_short, "ax", @progbits
    .p2align 2
    .globl ascon_hash256_short
    .type ascon_hash256_short, @function
ascon_hash256_short:
    .cfi_startproc
    # room above the frame
    .word 0xfc010113  # addi x2, x2, -64
    .cfi_def_cfa_offset 64
    # the caller's registers
    .word 0x00912023  # sw x9, 0(x2)
    .cfi_offset 9, -64
    .word 0x01212223  # sw x18, 4(x2)
    .cfi_offset 18, -60
    .word 0x01312423  # sw x19, 8(x2)
    .cfi_offset 19, -56
    .word 0x01412623  # sw x20, 12(x2)
    .cfi_offset 20, -52
    .word 0x01512823  # sw x21, 16(x2)
    .cfi_offset 21, -48
    .word 0x01612a23  # sw x22, 20(x2)
    .cfi_offset 22, -44
    .word 0x01712c23  # sw x23, 24(x2)
    .cfi_offset 23, -40
    .word 0x01812e23  # sw x24, 28(x2)
    .cfi_offset 24, -36
    .word 0x03912023  # sw x25, 32(x2)
    .cfi_offset 25, -32
    .word 0x03a12223  # sw x26, 36(x2)
    .cfi_offset 26, -28
    .word 0x03b12423  # sw x27, 40(x2)
    .cfi_offset 27, -24
    # arguments that are needed behind the body
    .word 0x02a12a23  # sw x10, 52(x2)
    .word 0x02b12c23  # sw x11, 56(x2)
    .word 0x02c12e23  # sw x12, 60(x2)
    # the frame's base
    .word 0xec010113  # addi x2, x2, -320
    .cfi_def_cfa 2, 384
    # parameter 0: an array
    .word 0x00050293  # addi x5, x10, 0
    .word 0x00010313  # addi x6, x2, 0
    .word 0x07f28393  # addi x7, x5, 127
    .word 0x0002ce03  # lbu x28, 0(x5)
    .word 0x01c30023  # sb x28, 0(x6)
    .word 0x00128293  # addi x5, x5, 1
    .word 0x00130313  # addi x6, x6, 1
    .word 0xfe7298e3  # bne x5, x7, -16
    # parameter 1: a word
    .word 0x08b12023  # sw x11, 128(x2)
    # parameter 2: an array
    .word 0x00060293  # addi x5, x12, 0
    .word 0x08410313  # addi x6, x2, 132
    .word 0x02028393  # addi x7, x5, 32
    .word 0x0002ce03  # lbu x28, 0(x5)
    .word 0x01c30023  # sb x28, 0(x6)
    .word 0x00128293  # addi x5, x5, 1
    .word 0x00130313  # addi x6, x6, 1
    .word 0xfe7298e3  # bne x5, x7, -16
    # the body
    .word 0x00000513  # addi x10, x0, 0
    .word 0x00000a13  # addi x20, x0, 0
    .word 0x00000b13  # addi x22, x0, 0
    .word 0x00000493  # addi x9, x0, 0
    .word 0x00000793  # addi x15, x0, 0
    .word 0x12012423  # sw x0, 296(x2)
    .word 0x00000c13  # addi x24, x0, 0
    .word 0x00000a93  # addi x21, x0, 0
    .word 0x00000d93  # addi x27, x0, 0
    .word 0x08012283  # lw x5, 128(x2)
    .word 0x07f2b293  # sltiu x5, x5, 127
    .word 0x08012303  # lw x6, 128(x2)
    .word 0x07f00393  # addi x7, x0, 127
    .word 0x405002b3  # sub x5, x0, x5
    .word 0x00734333  # xor x6, x6, x7
    .word 0x00537333  # and x6, x6, x5
    .word 0x0063c2b3  # xor x5, x7, x6
    .word 0x07f2f893  # andi x17, x5, 127
    .word 0x0a400313  # addi x6, x0, 164
    .word 0x00230333  # add x6, x6, x2
    .word 0x08000393  # addi x7, x0, 128
    .word 0x006383b3  # add x7, x7, x6
    .word 0x406382b3  # sub x5, x7, x6
    .word 0x00029463  # bne x5, x0, 8
    .word 0x0100006f  # jal x0, 16
    .word 0x00032023  # sw x0, 0(x6)
    .word 0x00430313  # addi x6, x6, 4
    .word 0xfedff06f  # jal x0, -20
    .word 0x12012823  # sw x0, 304(x2)
    .word 0x0028d293  # srli x5, x17, 2
    .word 0x12512a23  # sw x5, 308(x2)
    .word 0x13012303  # lw x6, 304(x2)
    .word 0x13412283  # lw x5, 308(x2)
    .word 0x005332b3  # sltu x5, x6, x5
    .word 0x00029463  # bne x5, x0, 8
    .word 0x0680006f  # jal x0, 104
    .word 0x00030513  # addi x10, x6, 0
    .word 0x00251813  # slli x16, x10, 2
    .word 0x00280333  # add x6, x16, x2
    .word 0x00034303  # lbu x6, 0(x6)
    .word 0x002803b3  # add x7, x16, x2
    .word 0x0013c383  # lbu x7, 1(x7)
    .word 0x00839393  # slli x7, x7, 8
    .word 0x00736333  # or x6, x6, x7
    .word 0x002803b3  # add x7, x16, x2
    .word 0x0023c383  # lbu x7, 2(x7)
    .word 0x01039393  # slli x7, x7, 16
    .word 0x00736333  # or x6, x6, x7
    .word 0x002803b3  # add x7, x16, x2
    .word 0x0033c383  # lbu x7, 3(x7)
    .word 0x01839393  # slli x7, x7, 24
    .word 0x00736333  # or x6, x6, x7
    .word 0x00251293  # slli x5, x10, 2
    .word 0x002282b3  # add x5, x5, x2
    .word 0x0a62a223  # sw x6, 164(x5)
    .word 0x00150513  # addi x10, x10, 1
    .word 0x13412283  # lw x5, 308(x2)
    .word 0x005532b3  # sltu x5, x10, x5
    .word 0xfa0296e3  # bne x5, x0, -84
    .word 0xfff50513  # addi x10, x10, -1
    .word 0x0040006f  # jal x0, 4
    .word 0x00100293  # addi x5, x0, 1
    .word 0x0038f313  # andi x6, x17, 3
    .word 0x00331313  # slli x6, x6, 3
    .word 0x00629933  # sll x18, x5, x6
    .word 0x0028d293  # srli x5, x17, 2
    .word 0x00229293  # slli x5, x5, 2
    .word 0x12512823  # sw x5, 304(x2)
    .word 0x13112a23  # sw x17, 308(x2)
    .word 0x13012303  # lw x6, 304(x2)
    .word 0x13412283  # lw x5, 308(x2)
    .word 0x005332b3  # sltu x5, x6, x5
    .word 0x00029463  # bne x5, x0, 8
    .word 0x0340006f  # jal x0, 52
    .word 0x12612223  # sw x6, 292(x2)
    .word 0x00130313  # addi x6, x6, 1
    .word 0x12612823  # sw x6, 304(x2)
    .word 0x12412303  # lw x6, 292(x2)
    .word 0x00230333  # add x6, x6, x2
    .word 0x00034303  # lbu x6, 0(x6)
    .word 0x12412383  # lw x7, 292(x2)
    .word 0x0033f393  # andi x7, x7, 3
    .word 0x00339393  # slli x7, x7, 3
    .word 0x00731333  # sll x6, x6, x7
    .word 0x00696933  # or x18, x18, x6
    .word 0xfc1ff06f  # jal x0, -64
    .word 0x0028d293  # srli x5, x17, 2
    .word 0x00229293  # slli x5, x5, 2
    .word 0x002282b3  # add x5, x5, x2
    .word 0x0b22a223  # sw x18, 164(x5)
    .word 0x000019b7  # lui x19, 0x00001
    .word 0x80198993  # addi x19, x19, -2047
    .word 0x00cc0cb7  # lui x25, 0x00cc0
    .word 0x002c8c93  # addi x25, x25, 2
    .word 0x0038d293  # srli x5, x17, 3
    .word 0x00128593  # addi x11, x5, 1
    .word 0xfff00613  # addi x12, x0, -1
    .word 0x00160613  # addi x12, x12, 1
    .word 0x00c032b3  # sltu x5, x0, x12
    .word 0x00c5b333  # sltu x6, x11, x12
    .word 0x00133313  # sltiu x6, x6, 1
    .word 0x0062f2b3  # and x5, x5, x6
    .word 0x02028863  # beq x5, x0, 48
    .word 0xfff60293  # addi x5, x12, -1
    .word 0x00f2f293  # andi x5, x5, 15
    .word 0x00129813  # slli x16, x5, 1
    .word 0x00281313  # slli x6, x16, 2
    .word 0x00230333  # add x6, x6, x2
    .word 0x0a832303  # lw x6, 168(x6)
    .word 0x0069c9b3  # xor x19, x19, x6
    .word 0x00281313  # slli x6, x16, 2
    .word 0x00230333  # add x6, x6, x2
    .word 0x0a432303  # lw x6, 164(x6)
    .word 0x006cccb3  # xor x25, x25, x6
    .word 0x00458313  # addi x6, x11, 4
    .word 0x006632b3  # sltu x5, x12, x6
    .word 0x00000313  # addi x6, x0, 0
    .word 0x00c00393  # addi x7, x0, 12
    .word 0x405002b3  # sub x5, x0, x5
    .word 0x00734333  # xor x6, x6, x7
    .word 0x00537333  # and x6, x6, x5
    .word 0x0063c833  # xor x16, x7, x6
    .word 0x00098b93  # addi x23, x19, 0
    .word 0x000c8693  # addi x13, x25, 0
    .word 0xfffa4a13  # xori x20, x20, -1
    .word 0xfffb4d13  # xori x26, x22, -1
    .word 0xfff4c713  # xori x14, x9, -1
    .word 0xfff7c793  # xori x15, x15, -1
    .word 0x12812283  # lw x5, 296(x2)
    .word 0xfff2c913  # xori x18, x5, -1
    .word 0xfffc4c13  # xori x24, x24, -1
    .word 0xfffaca93  # xori x21, x21, -1
    .word 0xfffdcd93  # xori x27, x27, -1
    .word 0x00c83313  # sltiu x6, x16, 12
    .word 0x00031463  # bne x6, x0, 8
    .word 0x1fc0006f  # jal x0, 508
    .word 0x0f000293  # addi x5, x0, 240
    .word 0x00f00313  # addi x6, x0, 15
    .word 0x03030333  # mul x6, x6, x16
    .word 0x406288b3  # sub x17, x5, x6
    .word 0x015bc9b3  # xor x19, x23, x21
    .word 0x012accb3  # xor x25, x21, x18
    .word 0x01474ab3  # xor x21, x14, x20
    .word 0x015a72b3  # and x5, x20, x21
    .word 0x0132cb33  # xor x22, x5, x19
    .word 0x012ae2b3  # or x5, x21, x18
    .word 0x0142c4b3  # xor x9, x5, x20
    .word 0x013ce2b3  # or x5, x25, x19
    .word 0x0122cbb3  # xor x23, x5, x18
    .word 0x019972b3  # and x5, x18, x25
    .word 0x0152c933  # xor x18, x5, x21
    .word 0xfff9c293  # xori x5, x19, -1
    .word 0x0142e2b3  # or x5, x5, x20
    .word 0x0192c9b3  # xor x19, x5, x25
    .word 0x013b4a33  # xor x20, x22, x19
    .word 0x0164cab3  # xor x21, x9, x22
    .word 0x012bc2b3  # xor x5, x23, x18
    .word 0xfff2cb13  # xori x22, x5, -1
    .word 0x01b6ccb3  # xor x25, x13, x27
    .word 0x018dcdb3  # xor x27, x27, x24
    .word 0x01a7c2b3  # xor x5, x15, x26
    .word 0x0112c4b3  # xor x9, x5, x17
    .word 0x009d72b3  # and x5, x26, x9
    .word 0x0192cbb3  # xor x23, x5, x25
    .word 0x0184e2b3  # or x5, x9, x24
    .word 0x01a2c6b3  # xor x13, x5, x26
    .word 0x019de2b3  # or x5, x27, x25
    .word 0x0182c733  # xor x14, x5, x24
    .word 0x01bc72b3  # and x5, x24, x27
    .word 0x0092cc33  # xor x24, x5, x9
    .word 0xfffcc293  # xori x5, x25, -1
    .word 0x01a2e2b3  # or x5, x5, x26
    .word 0x01b2ccb3  # xor x25, x5, x27
    .word 0x019bcd33  # xor x26, x23, x25
    .word 0x0176cdb3  # xor x27, x13, x23
    .word 0x018742b3  # xor x5, x14, x24
    .word 0xfff2c493  # xori x9, x5, -1
    .word 0x013a5313  # srli x6, x20, 19
    .word 0x00dd1393  # slli x7, x26, 13
    .word 0x00736333  # or x6, x6, x7
    .word 0x006a42b3  # xor x5, x20, x6
    .word 0x01ca5313  # srli x6, x20, 28
    .word 0x004d1393  # slli x7, x26, 4
    .word 0x00736333  # or x6, x6, x7
    .word 0x0062cbb3  # xor x23, x5, x6
    .word 0x013d5313  # srli x6, x26, 19
    .word 0x00da1393  # slli x7, x20, 13
    .word 0x00736333  # or x6, x6, x7
    .word 0x006d42b3  # xor x5, x26, x6
    .word 0x01cd5313  # srli x6, x26, 28
    .word 0x004a1393  # slli x7, x20, 4
    .word 0x00736333  # or x6, x6, x7
    .word 0x0062c6b3  # xor x13, x5, x6
    .word 0x01ddd313  # srli x6, x27, 29
    .word 0x003a9393  # slli x7, x21, 3
    .word 0x00736333  # or x6, x6, x7
    .word 0x006ac2b3  # xor x5, x21, x6
    .word 0x007dd313  # srli x6, x27, 7
    .word 0x019a9393  # slli x7, x21, 25
    .word 0x00736333  # or x6, x6, x7
    .word 0x0062ca33  # xor x20, x5, x6
    .word 0x01dad313  # srli x6, x21, 29
    .word 0x003d9393  # slli x7, x27, 3
    .word 0x00736333  # or x6, x6, x7
    .word 0x006dc2b3  # xor x5, x27, x6
    .word 0x007ad313  # srli x6, x21, 7
    .word 0x019d9393  # slli x7, x27, 25
    .word 0x00736333  # or x6, x6, x7
    .word 0x0062cd33  # xor x26, x5, x6
    .word 0x00195313  # srli x6, x18, 1
    .word 0x01fc1393  # slli x7, x24, 31
    .word 0x00736333  # or x6, x6, x7
    .word 0x006942b3  # xor x5, x18, x6
    .word 0x00695313  # srli x6, x18, 6
    .word 0x01ac1393  # slli x7, x24, 26
    .word 0x00736333  # or x6, x6, x7
    .word 0x0062c733  # xor x14, x5, x6
    .word 0x001c5313  # srli x6, x24, 1
    .word 0x01f91393  # slli x7, x18, 31
    .word 0x00736333  # or x6, x6, x7
    .word 0x006c42b3  # xor x5, x24, x6
    .word 0x006c5313  # srli x6, x24, 6
    .word 0x01a91393  # slli x7, x18, 26
    .word 0x00736333  # or x6, x6, x7
    .word 0x0062c7b3  # xor x15, x5, x6
    .word 0x00ab5313  # srli x6, x22, 10
    .word 0x01649393  # slli x7, x9, 22
    .word 0x00736333  # or x6, x6, x7
    .word 0x006b42b3  # xor x5, x22, x6
    .word 0x011b5313  # srli x6, x22, 17
    .word 0x00f49393  # slli x7, x9, 15
    .word 0x00736333  # or x6, x6, x7
    .word 0x0062c933  # xor x18, x5, x6
    .word 0x00a4d313  # srli x6, x9, 10
    .word 0x016b1393  # slli x7, x22, 22
    .word 0x00736333  # or x6, x6, x7
    .word 0x0064c2b3  # xor x5, x9, x6
    .word 0x0114d313  # srli x6, x9, 17
    .word 0x00fb1393  # slli x7, x22, 15
    .word 0x00736333  # or x6, x6, x7
    .word 0x0062cc33  # xor x24, x5, x6
    .word 0x0079d313  # srli x6, x19, 7
    .word 0x019c9393  # slli x7, x25, 25
    .word 0x00736333  # or x6, x6, x7
    .word 0x0069c2b3  # xor x5, x19, x6
    .word 0x009cd313  # srli x6, x25, 9
    .word 0x01799393  # slli x7, x19, 23
    .word 0x00736333  # or x6, x6, x7
    .word 0x0062cab3  # xor x21, x5, x6
    .word 0x007cd313  # srli x6, x25, 7
    .word 0x01999393  # slli x7, x19, 25
    .word 0x00736333  # or x6, x6, x7
    .word 0x006cc2b3  # xor x5, x25, x6
    .word 0x0099d313  # srli x6, x19, 9
    .word 0x017c9393  # slli x7, x25, 23
    .word 0x00736333  # or x6, x6, x7
    .word 0x0062cdb3  # xor x27, x5, x6
    .word 0x00180813  # addi x16, x16, 1
    .word 0x00c83293  # sltiu x5, x16, 12
    .word 0xe0029ae3  # bne x5, x0, -492
    .word 0xfff80813  # addi x16, x16, -1
    .word 0x0040006f  # jal x0, 4
    .word 0x000b8993  # addi x19, x23, 0
    .word 0x00068c93  # addi x25, x13, 0
    .word 0xfffa4a13  # xori x20, x20, -1
    .word 0xfffd4b13  # xori x22, x26, -1
    .word 0xfff74493  # xori x9, x14, -1
    .word 0xfff7c793  # xori x15, x15, -1
    .word 0xfff94293  # xori x5, x18, -1
    .word 0x12512423  # sw x5, 296(x2)
    .word 0xfffc4c13  # xori x24, x24, -1
    .word 0xfffaca93  # xori x21, x21, -1
    .word 0xfffdcd93  # xori x27, x27, -1
    .word 0x00b632b3  # sltu x5, x12, x11
    .word 0x0012b293  # sltiu x5, x5, 1
    .word 0x00458393  # addi x7, x11, 4
    .word 0x00763333  # sltu x6, x12, x7
    .word 0x0062f2b3  # and x5, x5, x6
    .word 0x06028463  # beq x5, x0, 104
    .word 0x40b602b3  # sub x5, x12, x11
    .word 0x0032f293  # andi x5, x5, 3
    .word 0x00329813  # slli x16, x5, 3
    .word 0x002802b3  # add x5, x16, x2
    .word 0x08d28223  # sb x13, 132(x5)
    .word 0x0086d313  # srli x6, x13, 8
    .word 0x002802b3  # add x5, x16, x2
    .word 0x086282a3  # sb x6, 133(x5)
    .word 0x0106d313  # srli x6, x13, 16
    .word 0x002802b3  # add x5, x16, x2
    .word 0x08628323  # sb x6, 134(x5)
    .word 0x0186d313  # srli x6, x13, 24
    .word 0x002802b3  # add x5, x16, x2
    .word 0x086283a3  # sb x6, 135(x5)
    .word 0x002802b3  # add x5, x16, x2
    .word 0x09728423  # sb x23, 136(x5)
    .word 0x008bd313  # srli x6, x23, 8
    .word 0x002802b3  # add x5, x16, x2
    .word 0x086284a3  # sb x6, 137(x5)
    .word 0x010bd313  # srli x6, x23, 16
    .word 0x002802b3  # add x5, x16, x2
    .word 0x08628523  # sb x6, 138(x5)
    .word 0x018bd313  # srli x6, x23, 24
    .word 0x002802b3  # add x5, x16, x2
    .word 0x086285a3  # sb x6, 139(x5)
    .word 0xfed60293  # addi x5, x12, -19
    .word 0xcc0290e3  # bne x5, x0, -832
    # the result
    .word 0x00000513  # addi x10, x0, 0
    # parameter 2: the array, back
    .word 0x08410293  # addi x5, x2, 132
    .word 0x17c12303  # lw x6, 380(x2)
    .word 0x02028393  # addi x7, x5, 32
    .word 0x0002ce03  # lbu x28, 0(x5)
    .word 0x01c30023  # sb x28, 0(x6)
    .word 0x00128293  # addi x5, x5, 1
    .word 0x00130313  # addi x6, x6, 1
    .word 0xfe7298e3  # bne x5, x7, -16
    # above the frame
    .word 0x14010293  # addi x5, x2, 320
    # the caller's registers
    .word 0x0002a483  # lw x9, 0(x5)
    .cfi_restore 9
    .word 0x0042a903  # lw x18, 4(x5)
    .cfi_restore 18
    .word 0x0082a983  # lw x19, 8(x5)
    .cfi_restore 19
    .word 0x00c2aa03  # lw x20, 12(x5)
    .cfi_restore 20
    .word 0x0102aa83  # lw x21, 16(x5)
    .cfi_restore 21
    .word 0x0142ab03  # lw x22, 20(x5)
    .cfi_restore 22
    .word 0x0182ab83  # lw x23, 24(x5)
    .cfi_restore 23
    .word 0x01c2ac03  # lw x24, 28(x5)
    .cfi_restore 24
    .word 0x0202ac83  # lw x25, 32(x5)
    .cfi_restore 25
    .word 0x0242ad03  # lw x26, 36(x5)
    .cfi_restore 26
    .word 0x0282ad83  # lw x27, 40(x5)
    .cfi_restore 27
    # the caller's x2
    .word 0x04028293  # addi x5, x5, 64
    .cfi_def_cfa 5, 0
    # on to the tail that functions share
    jal x0, factc.tail.1
    .cfi_endproc
    .size ascon_hash256_short, . - ascon_hash256_short
    .section .text.factc.tail.1, "axG", @progbits, factc.tail.1, comdat
    .p2align 2
    .globl factc.tail.1
    .hidden factc.tail.1
    .type factc.tail.1, @function
factc.tail.1:
    .cfi_startproc
    .cfi_def_cfa 5, 0
    # all the room, wiped upward
    .word 0x00012023  # sw x0, 0(x2)
    .word 0x00012223  # sw x0, 4(x2)
    .word 0x00012423  # sw x0, 8(x2)
    .word 0x00012623  # sw x0, 12(x2)
    .word 0x01010113  # addi x2, x2, 16
    .word 0xfe5116e3  # bne x2, x5, -20
    .cfi_def_cfa 2, 0
    # temporaries, wiped
    .word 0x00000293  # addi x5, x0, 0
    .word 0x00000313  # addi x6, x0, 0
    .word 0x00000393  # addi x7, x0, 0
    .word 0x00000593  # addi x11, x0, 0
    .word 0x00000613  # addi x12, x0, 0
    .word 0x00000693  # addi x13, x0, 0
    .word 0x00000713  # addi x14, x0, 0
    .word 0x00000793  # addi x15, x0, 0
    .word 0x00000813  # addi x16, x0, 0
    .word 0x00000893  # addi x17, x0, 0
    .word 0x00000e13  # addi x28, x0, 0
    .word 0x00000e93  # addi x29, x0, 0
    .word 0x00000f13  # addi x30, x0, 0
    .word 0x00000f93  # addi x31, x0, 0
    # back
    .word 0x00008067  # jalr x0, 0(x1)
    .cfi_endproc
    .size factc.tail.1, . - factc.tail.1
    .option pop
