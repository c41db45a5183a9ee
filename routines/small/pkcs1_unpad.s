# pkcs1_unpad: made by factc 1.0.0 function; 208 words and 21 shared, 272 bytes of stack, profile 1
    .option push
    .option norvc
    .option norelax
    .cfi_sections .debug_frame
    .section .text.pkcs1_unpad, "ax", @progbits
    .p2align 2
    .globl pkcs1_unpad
    .type pkcs1_unpad, @function
pkcs1_unpad:
    .cfi_startproc
    # room above the frame
    .word 0xfe010113  # addi x2, x2, -32
    .cfi_def_cfa_offset 32
    # the caller's registers
    .word 0x01212023  # sw x18, 0(x2)
    .cfi_offset 18, -32
    .word 0x01312223  # sw x19, 4(x2)
    .cfi_offset 19, -28
    .word 0x01412423  # sw x20, 8(x2)
    .cfi_offset 20, -24
    .word 0x01512623  # sw x21, 12(x2)
    .cfi_offset 21, -20
    .word 0x01612823  # sw x22, 16(x2)
    .cfi_offset 22, -16
    # arguments that are needed behind the body
    .word 0x00a12c23  # sw x10, 24(x2)
    .word 0x00b12e23  # sw x11, 28(x2)
    # the frame's base
    .word 0xf1010113  # addi x2, x2, -240
    .cfi_def_cfa 2, 272
    # parameter 0: an array
    .word 0x00050293  # addi x5, x10, 0
    .word 0x00010313  # addi x6, x2, 0
    .word 0x04028393  # addi x7, x5, 64
    .word 0x0002ce03  # lbu x28, 0(x5)
    .word 0x01c30023  # sb x28, 0(x6)
    .word 0x00128293  # addi x5, x5, 1
    .word 0x00130313  # addi x6, x6, 1
    .word 0xfe7298e3  # bne x5, x7, -16
    # parameter 1: an array
    .word 0x00058293  # addi x5, x11, 0
    .word 0x04010313  # addi x6, x2, 64
    .word 0x03528393  # addi x7, x5, 53
    .word 0x0002ce03  # lbu x28, 0(x5)
    .word 0x01c30023  # sb x28, 0(x6)
    .word 0x00128293  # addi x5, x5, 1
    .word 0x00130313  # addi x6, x6, 1
    .word 0xfe7298e3  # bne x5, x7, -16
    # the body
    .word 0x00000893  # addi x17, x0, 0
    .word 0x00100a93  # addi x21, x0, 1
    .word 0x00100513  # addi x10, x0, 1
    .word 0x00150513  # addi x10, x10, 1
    .word 0x00250333  # add x6, x10, x2
    .word 0x00034303  # lbu x6, 0(x6)
    .word 0x00603333  # sltu x6, x0, x6
    .word 0x006afab3  # and x21, x21, x6
    .word 0x015888b3  # add x17, x17, x21
    .word 0xfc150293  # addi x5, x10, -63
    .word 0xfe0292e3  # bne x5, x0, -28
    .word 0x00388593  # addi x11, x17, 3
    .word 0x00014283  # lbu x5, 0(x2)
    .word 0x00114303  # lbu x6, 1(x2)
    .word 0x00234313  # xori x6, x6, 2
    .word 0x0062e2b3  # or x5, x5, x6
    .word 0x0012b613  # sltiu x12, x5, 1
    .word 0x001ab313  # sltiu x6, x21, 1
    .word 0x006672b3  # and x5, x12, x6
    .word 0x0088b313  # sltiu x6, x17, 8
    .word 0x00133313  # sltiu x6, x6, 1
    .word 0x0062f633  # and x12, x5, x6
    .word 0x0405b313  # sltiu x6, x11, 64
    .word 0x006672b3  # and x5, x12, x6
    .word 0x405008b3  # sub x17, x0, x5
    .word 0xff558693  # addi x13, x11, -11
    .word 0x06012c23  # sw x0, 120(x2)
    .word 0x06012e23  # sw x0, 124(x2)
    .word 0x08012023  # sw x0, 128(x2)
    .word 0x08012223  # sw x0, 132(x2)
    .word 0x08012423  # sw x0, 136(x2)
    .word 0x08012623  # sw x0, 140(x2)
    .word 0x08012823  # sw x0, 144(x2)
    .word 0x08012a23  # sw x0, 148(x2)
    .word 0x08012c23  # sw x0, 152(x2)
    .word 0x08012e23  # sw x0, 156(x2)
    .word 0x0a012023  # sw x0, 160(x2)
    .word 0x0a012223  # sw x0, 164(x2)
    .word 0x0a012423  # sw x0, 168(x2)
    .word 0x0a012623  # sw x0, 172(x2)
    .word 0x0a012823  # sw x0, 176(x2)
    .word 0x0a012a23  # sw x0, 180(x2)
    .word 0x0a012c23  # sw x0, 184(x2)
    .word 0x0a012e23  # sw x0, 188(x2)
    .word 0x0c012023  # sw x0, 192(x2)
    .word 0x0c012223  # sw x0, 196(x2)
    .word 0x0c012423  # sw x0, 200(x2)
    .word 0x0c012623  # sw x0, 204(x2)
    .word 0xfff00713  # addi x14, x0, -1
    .word 0x00170713  # addi x14, x14, 1
    .word 0x00271293  # slli x5, x14, 2
    .word 0x00b28813  # addi x16, x5, 11
    .word 0x00281b13  # slli x22, x16, 2
    .word 0x002b0b33  # add x22, x22, x2
    .word 0x002802b3  # add x5, x16, x2
    .word 0x0002c283  # lbu x5, 0(x5)
    .word 0x00280333  # add x6, x16, x2
    .word 0x00134303  # lbu x6, 1(x6)
    .word 0x00831313  # slli x6, x6, 8
    .word 0x0062e2b3  # or x5, x5, x6
    .word 0x00280333  # add x6, x16, x2
    .word 0x00234303  # lbu x6, 2(x6)
    .word 0x01031313  # slli x6, x6, 16
    .word 0x0062e2b3  # or x5, x5, x6
    .word 0x00280333  # add x6, x16, x2
    .word 0x00334303  # lbu x6, 3(x6)
    .word 0x01831313  # slli x6, x6, 24
    .word 0x0062eab3  # or x21, x5, x6
    .word 0x011af333  # and x6, x21, x17
    .word 0x00271293  # slli x5, x14, 2
    .word 0x002282b3  # add x5, x5, x2
    .word 0x0662ac23  # sw x6, 120(x5)
    .word 0xff470293  # addi x5, x14, -12
    .word 0xfa0290e3  # bne x5, x0, -96
    .word 0x03f14283  # lbu x5, 63(x2)
    .word 0x0112f2b3  # and x5, x5, x17
    .word 0x0a512623  # sw x5, 172(x2)
    .word 0xfff00713  # addi x14, x0, -1
    .word 0x00170713  # addi x14, x14, 1
    .word 0x00800293  # addi x5, x0, 8
    .word 0x00e2d9b3  # srl x19, x5, x14
    .word 0x00500313  # addi x6, x0, 5
    .word 0x40e30333  # sub x6, x6, x14
    .word 0x0066d2b3  # srl x5, x13, x6
    .word 0x0012f293  # andi x5, x5, 1
    .word 0x405007b3  # sub x15, x0, x5
    .word 0xfff00813  # addi x16, x0, -1
    .word 0x00180813  # addi x16, x16, 1
    .word 0x00281b13  # slli x22, x16, 2
    .word 0x002b0b33  # add x22, x22, x2
    .word 0x078b2a83  # lw x21, 120(x22)
    .word 0x013802b3  # add x5, x16, x19
    .word 0x00229293  # slli x5, x5, 2
    .word 0x002282b3  # add x5, x5, x2
    .word 0x0782a283  # lw x5, 120(x5)
    .word 0x0152c2b3  # xor x5, x5, x21
    .word 0x00f2f8b3  # and x17, x5, x15
    .word 0x011ac2b3  # xor x5, x21, x17
    .word 0x065b2c23  # sw x5, 120(x22)
    .word 0xff380293  # addi x5, x16, -13
    .word 0xfc0296e3  # bne x5, x0, -52
    .word 0xffd70293  # addi x5, x14, -3
    .word 0xfa0290e3  # bne x5, x0, -96
    .word 0xfff00913  # addi x18, x0, -1
    .word 0x00190913  # addi x18, x18, 1
    .word 0x00197813  # andi x16, x18, 1
    .word 0x00281b13  # slli x22, x16, 2
    .word 0x002b0b33  # add x22, x22, x2
    .word 0x01000293  # addi x5, x0, 16
    .word 0x0102d9b3  # srl x19, x5, x16
    .word 0x02000293  # addi x5, x0, 32
    .word 0x41328a33  # sub x20, x5, x19
    .word 0x00100313  # addi x6, x0, 1
    .word 0x41030333  # sub x6, x6, x16
    .word 0x0066d2b3  # srl x5, x13, x6
    .word 0x0012f293  # andi x5, x5, 1
    .word 0x405007b3  # sub x15, x0, x5
    .word 0xfff00813  # addi x16, x0, -1
    .word 0x00180813  # addi x16, x16, 1
    .word 0x00281b13  # slli x22, x16, 2
    .word 0x002b0b33  # add x22, x22, x2
    .word 0x078b2a83  # lw x21, 120(x22)
    .word 0x013ad2b3  # srl x5, x21, x19
    .word 0x07cb2303  # lw x6, 124(x22)
    .word 0x01431333  # sll x6, x6, x20
    .word 0x0062c2b3  # xor x5, x5, x6
    .word 0x0152c2b3  # xor x5, x5, x21
    .word 0x00f2f8b3  # and x17, x5, x15
    .word 0x011ac2b3  # xor x5, x21, x17
    .word 0x065b2c23  # sw x5, 120(x22)
    .word 0xff380293  # addi x5, x16, -13
    .word 0xfc0296e3  # bne x5, x0, -52
    .word 0xfff90293  # addi x5, x18, -1
    .word 0xf80296e3  # bne x5, x0, -116
    .word 0xfff00713  # addi x14, x0, -1
    .word 0x00170713  # addi x14, x14, 1
    .word 0x00271813  # slli x16, x14, 2
    .word 0x00281b13  # slli x22, x16, 2
    .word 0x002b0b33  # add x22, x22, x2
    .word 0x00271a93  # slli x21, x14, 2
    .word 0x002a8ab3  # add x21, x21, x2
    .word 0x078aaa83  # lw x21, 120(x21)
    .word 0x002802b3  # add x5, x16, x2
    .word 0x05528023  # sb x21, 64(x5)
    .word 0x008ad313  # srli x6, x21, 8
    .word 0x002802b3  # add x5, x16, x2
    .word 0x046280a3  # sb x6, 65(x5)
    .word 0x010ad313  # srli x6, x21, 16
    .word 0x002802b3  # add x5, x16, x2
    .word 0x04628123  # sb x6, 66(x5)
    .word 0x018ad313  # srli x6, x21, 24
    .word 0x002802b3  # add x5, x16, x2
    .word 0x046281a3  # sb x6, 67(x5)
    .word 0xff470293  # addi x5, x14, -12
    .word 0xfa029ae3  # bne x5, x0, -76
    .word 0x0ac12283  # lw x5, 172(x2)
    .word 0x06510a23  # sb x5, 116(x2)
    .word 0x04000313  # addi x6, x0, 64
    .word 0x40b30333  # sub x6, x6, x11
    .word 0x0ff37313  # andi x6, x6, 255
    .word 0x0ff00393  # addi x7, x0, 255
    .word 0x40c002b3  # sub x5, x0, x12
    .word 0x00734333  # xor x6, x6, x7
    .word 0x00537333  # and x6, x6, x5
    .word 0x0063c2b3  # xor x5, x7, x6
    .word 0x0c512823  # sw x5, 208(x2)
    # the result
    .word 0x0d012503  # lw x10, 208(x2)
    # parameter 1: the array, back
    .word 0x04010293  # addi x5, x2, 64
    .word 0x10c12303  # lw x6, 268(x2)
    .word 0x03528393  # addi x7, x5, 53
    .word 0x0002ce03  # lbu x28, 0(x5)
    .word 0x01c30023  # sb x28, 0(x6)
    .word 0x00128293  # addi x5, x5, 1
    .word 0x00130313  # addi x6, x6, 1
    .word 0xfe7298e3  # bne x5, x7, -16
    # above the frame
    .word 0x0f010293  # addi x5, x2, 240
    # the caller's registers
    .word 0x0002a903  # lw x18, 0(x5)
    .cfi_restore 18
    .word 0x0042a983  # lw x19, 4(x5)
    .cfi_restore 19
    .word 0x0082aa03  # lw x20, 8(x5)
    .cfi_restore 20
    .word 0x00c2aa83  # lw x21, 12(x5)
    .cfi_restore 21
    .word 0x0102ab03  # lw x22, 16(x5)
    .cfi_restore 22
    # the caller's x2
    .word 0x02028293  # addi x5, x5, 32
    .cfi_def_cfa 5, 0
    # on to the tail that functions share
    jal x0, factc.tail.1
    .cfi_endproc
    .size pkcs1_unpad, . - pkcs1_unpad
    .section .text.factc.tail.1, "axG", @progbits, factc.tail.1, comdat
    .p2align 2
    .globl factc.tail.1
    .hidden factc.tail.1
    .type factc.tail.1, @function
factc.tail.1:
    .cfi_startproc
    .cfi_def_cfa 5, 0
    # all the room, wiped upward
    .word 0x00012023  # sw x0, 0(x2)
    .word 0x00012223  # sw x0, 4(x2)
    .word 0x00012423  # sw x0, 8(x2)
    .word 0x00012623  # sw x0, 12(x2)
    .word 0x01010113  # addi x2, x2, 16
    .word 0xfe5116e3  # bne x2, x5, -20
    .cfi_def_cfa 2, 0
    # temporaries, wiped
    .word 0x00000293  # addi x5, x0, 0
    .word 0x00000313  # addi x6, x0, 0
    .word 0x00000393  # addi x7, x0, 0
    .word 0x00000593  # addi x11, x0, 0
    .word 0x00000613  # addi x12, x0, 0
    .word 0x00000693  # addi x13, x0, 0
    .word 0x00000713  # addi x14, x0, 0
    .word 0x00000793  # addi x15, x0, 0
    .word 0x00000813  # addi x16, x0, 0
    .word 0x00000893  # addi x17, x0, 0
    .word 0x00000e13  # addi x28, x0, 0
    .word 0x00000e93  # addi x29, x0, 0
    .word 0x00000f13  # addi x30, x0, 0
    .word 0x00000f93  # addi x31, x0, 0
    # back
    .word 0x00008067  # jalr x0, 0(x1)
    .cfi_endproc
    .size factc.tail.1, . - factc.tail.1
    .option pop
