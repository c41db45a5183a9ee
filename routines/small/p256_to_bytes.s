# p256_to_bytes: made by factc 1.0.0 function; 255 words and 21 shared, 240 bytes of stack, profile 1
    .option push
    .option norvc
    .option norelax
    .cfi_sections .debug_frame
    .section .text.p256_to_bytes, "ax", @progbits
    .p2align 2
    .globl p256_to_bytes
    .type p256_to_bytes, @function
p256_to_bytes:
    .cfi_startproc
    # room above the frame
    .word 0xff010113  # addi x2, x2, -16
    .cfi_def_cfa_offset 16
    # the caller's registers
    # arguments that are needed behind the body
    .word 0x00a12423  # sw x10, 8(x2)
    .word 0x00b12623  # sw x11, 12(x2)
    # the frame's base
    .word 0xf2010113  # addi x2, x2, -224
    .cfi_def_cfa 2, 240
    # parameter 0: an array
    .word 0x00050293  # addi x5, x10, 0
    .word 0x00010313  # addi x6, x2, 0
    .word 0x02028393  # addi x7, x5, 32
    .word 0x0002ae03  # lw x28, 0(x5)
    .word 0x01c32023  # sw x28, 0(x6)
    .word 0x00428293  # addi x5, x5, 4
    .word 0x00430313  # addi x6, x6, 4
    .word 0xfe7298e3  # bne x5, x7, -16
    # the body
    .word 0x04000313  # addi x6, x0, 64
    .word 0x00230333  # add x6, x6, x2
    .word 0x02000393  # addi x7, x0, 32
    .word 0x006383b3  # add x7, x7, x6
    .word 0x406382b3  # sub x5, x7, x6
    .word 0x00029463  # bne x5, x0, 8
    .word 0x0100006f  # jal x0, 16
    .word 0x00032023  # sw x0, 0(x6)
    .word 0x00430313  # addi x6, x6, 4
    .word 0xfedff06f  # jal x0, -20
    .word 0x06000313  # addi x6, x0, 96
    .word 0x00230333  # add x6, x6, x2
    .word 0x02400393  # addi x7, x0, 36
    .word 0x006383b3  # add x7, x7, x6
    .word 0x406382b3  # sub x5, x7, x6
    .word 0x00029463  # bne x5, x0, 8
    .word 0x0100006f  # jal x0, 16
    .word 0x00032023  # sw x0, 0(x6)
    .word 0x00430313  # addi x6, x6, 4
    .word 0xfedff06f  # jal x0, -20
    .word 0x08400313  # addi x6, x0, 132
    .word 0x00230333  # add x6, x6, x2
    .word 0x02000393  # addi x7, x0, 32
    .word 0x006383b3  # add x7, x7, x6
    .word 0x406382b3  # sub x5, x7, x6
    .word 0x00029463  # bne x5, x0, 8
    .word 0x0100006f  # jal x0, 16
    .word 0x00032023  # sw x0, 0(x6)
    .word 0x00430313  # addi x6, x6, 4
    .word 0xfedff06f  # jal x0, -20
    .word 0xfff00713  # addi x14, x0, -1
    .word 0x00170713  # addi x14, x14, 1
    .word 0x00271893  # slli x17, x14, 2
    .word 0x002888b3  # add x17, x17, x2
    .word 0x0008a283  # lw x5, 0(x17)
    .word 0x0458a023  # sw x5, 64(x17)
    .word 0xff970293  # addi x5, x14, -7
    .word 0xfe0294e3  # bne x5, x0, -24
    .word 0x0a400313  # addi x6, x0, 164
    .word 0x00230333  # add x6, x6, x2
    .word 0x02000393  # addi x7, x0, 32
    .word 0x006383b3  # add x7, x7, x6
    .word 0x406382b3  # sub x5, x7, x6
    .word 0x00029463  # bne x5, x0, 8
    .word 0x0100006f  # jal x0, 16
    .word 0x00032023  # sw x0, 0(x6)
    .word 0x00430313  # addi x6, x6, 4
    .word 0xfedff06f  # jal x0, -20
    .word 0x00000613  # addi x12, x0, 0
    .word 0xfff00513  # addi x10, x0, -1
    .word 0x00150513  # addi x10, x10, 1
    .word 0x00251813  # slli x16, x10, 2
    .word 0x00280833  # add x16, x16, x2
    .word 0x00853293  # sltiu x5, x10, 8
    .word 0x00757313  # andi x6, x10, 7
    .word 0x00231313  # slli x6, x6, 2
    .word 0x00230333  # add x6, x6, x2
    .word 0x04032303  # lw x6, 64(x6)
    .word 0x00757393  # andi x7, x10, 7
    .word 0x00239393  # slli x7, x7, 2
    .word 0x002383b3  # add x7, x7, x2
    .word 0x0643a383  # lw x7, 100(x7)
    .word 0x405002b3  # sub x5, x0, x5
    .word 0x00734333  # xor x6, x6, x7
    .word 0x00537333  # and x6, x6, x5
    .word 0x0063c2b3  # xor x5, x7, x6
    .word 0x00c285b3  # add x11, x5, x12
    .word 0x00c5b633  # sltu x12, x11, x12
    .word 0xffd50293  # addi x5, x10, -3
    .word 0x00800313  # addi x6, x0, 8
    .word 0x0262f263  # bgeu x5, x6, 36
    .word 0xffd50293  # addi x5, x10, -3
    .word 0x0072f293  # andi x5, x5, 7
    .word 0x00229693  # slli x13, x5, 2
    .word 0x002686b3  # add x13, x13, x2
    .word 0x0a46a683  # lw x13, 164(x13)
    .word 0x00d585b3  # add x11, x11, x13
    .word 0x00d5b333  # sltu x6, x11, x13
    .word 0x00660633  # add x12, x12, x6
    .word 0xffa50293  # addi x5, x10, -6
    .word 0x00800313  # addi x6, x0, 8
    .word 0x0262f263  # bgeu x5, x6, 36
    .word 0xffa50293  # addi x5, x10, -6
    .word 0x0072f293  # andi x5, x5, 7
    .word 0x00229693  # slli x13, x5, 2
    .word 0x002686b3  # add x13, x13, x2
    .word 0x0a46a683  # lw x13, 164(x13)
    .word 0x00d585b3  # add x11, x11, x13
    .word 0x00d5b333  # sltu x6, x11, x13
    .word 0x00660633  # add x12, x12, x6
    .word 0xff950293  # addi x5, x10, -7
    .word 0x00800313  # addi x6, x0, 8
    .word 0x0262f463  # bgeu x5, x6, 40
    .word 0xff950293  # addi x5, x10, -7
    .word 0x0072f293  # andi x5, x5, 7
    .word 0x00229293  # slli x5, x5, 2
    .word 0x002282b3  # add x5, x5, x2
    .word 0x0a42a283  # lw x5, 164(x5)
    .word 0x405006b3  # sub x13, x0, x5
    .word 0x00d585b3  # add x11, x11, x13
    .word 0x00d5b333  # sltu x6, x11, x13
    .word 0x00660633  # add x12, x12, x6
    .word 0x00800313  # addi x6, x0, 8
    .word 0x02656663  # bltu x10, x6, 44
    .word 0xff850293  # addi x5, x10, -8
    .word 0x0072f293  # andi x5, x5, 7
    .word 0x00229693  # slli x13, x5, 2
    .word 0x002686b3  # add x13, x13, x2
    .word 0x0a46a683  # lw x13, 164(x13)
    .word 0x00d03333  # sltu x6, x0, x13
    .word 0x406686b3  # sub x13, x13, x6
    .word 0x00d585b3  # add x11, x11, x13
    .word 0x00d5b333  # sltu x6, x11, x13
    .word 0x00660633  # add x12, x12, x6
    .word 0x00800313  # addi x6, x0, 8
    .word 0x00657c63  # bgeu x10, x6, 24
    .word 0x00757293  # andi x5, x10, 7
    .word 0x00229293  # slli x5, x5, 2
    .word 0x002282b3  # add x5, x5, x2
    .word 0x0ab2a223  # sw x11, 164(x5)
    .word 0x0180006f  # jal x0, 24
    .word 0xff850293  # addi x5, x10, -8
    .word 0x0072f293  # andi x5, x5, 7
    .word 0x00229293  # slli x5, x5, 2
    .word 0x002282b3  # add x5, x5, x2
    .word 0x08b2a223  # sw x11, 132(x5)
    .word 0xff150293  # addi x5, x10, -15
    .word 0xec0296e3  # bne x5, x0, -308
    .word 0x00100593  # addi x11, x0, 1
    .word 0xfff00793  # addi x15, x0, -1
    .word 0x00178793  # addi x15, x15, 1
    .word 0x00279313  # slli x6, x15, 2
    .word 0x00230333  # add x6, x6, x2
    .word 0x08432303  # lw x6, 132(x6)
    .word 0x00b30333  # add x6, x6, x11
    .word 0x00279293  # slli x5, x15, 2
    .word 0x002282b3  # add x5, x5, x2
    .word 0x0862a223  # sw x6, 132(x5)
    .word 0x00279293  # slli x5, x15, 2
    .word 0x002282b3  # add x5, x5, x2
    .word 0x0842a283  # lw x5, 132(x5)
    .word 0x00b2b5b3  # sltu x11, x5, x11
    .word 0xffe78293  # addi x5, x15, -2
    .word 0xfc0296e3  # bne x5, x0, -52
    .word 0x00100293  # addi x5, x0, 1
    .word 0x40b285b3  # sub x11, x5, x11
    .word 0x00200793  # addi x15, x0, 2
    .word 0x00178793  # addi x15, x15, 1
    .word 0x00279693  # slli x13, x15, 2
    .word 0x002686b3  # add x13, x13, x2
    .word 0x0846a683  # lw x13, 132(x13)
    .word 0x40b68333  # sub x6, x13, x11
    .word 0x00279293  # slli x5, x15, 2
    .word 0x002282b3  # add x5, x5, x2
    .word 0x0862a223  # sw x6, 132(x5)
    .word 0x00b6b5b3  # sltu x11, x13, x11
    .word 0xffb78293  # addi x5, x15, -5
    .word 0xfc029ce3  # bne x5, x0, -40
    .word 0x00158593  # addi x11, x11, 1
    .word 0x09c12683  # lw x13, 156(x2)
    .word 0x40b682b3  # sub x5, x13, x11
    .word 0x08512e23  # sw x5, 156(x2)
    .word 0x00100293  # addi x5, x0, 1
    .word 0x00b6b333  # sltu x6, x13, x11
    .word 0x406285b3  # sub x11, x5, x6
    .word 0x0a012283  # lw x5, 160(x2)
    .word 0x00b282b3  # add x5, x5, x11
    .word 0x0a512023  # sw x5, 160(x2)
    .word 0x0a012283  # lw x5, 160(x2)
    .word 0x00b2b5b3  # sltu x11, x5, x11
    .word 0x00100293  # addi x5, x0, 1
    .word 0x40c282b3  # sub x5, x5, x12
    .word 0x40b286b3  # sub x13, x5, x11
    .word 0x00068593  # addi x11, x13, 0
    .word 0xfff00793  # addi x15, x0, -1
    .word 0x00178793  # addi x15, x15, 1
    .word 0x00279613  # slli x12, x15, 2
    .word 0x00260633  # add x12, x12, x2
    .word 0x08462603  # lw x12, 132(x12)
    .word 0x40b60333  # sub x6, x12, x11
    .word 0x00279293  # slli x5, x15, 2
    .word 0x002282b3  # add x5, x5, x2
    .word 0x0862a223  # sw x6, 132(x5)
    .word 0x00b635b3  # sltu x11, x12, x11
    .word 0xffe78293  # addi x5, x15, -2
    .word 0xfc029ce3  # bne x5, x0, -40
    .word 0x40b685b3  # sub x11, x13, x11
    .word 0x00200793  # addi x15, x0, 2
    .word 0x00178793  # addi x15, x15, 1
    .word 0x00279313  # slli x6, x15, 2
    .word 0x00230333  # add x6, x6, x2
    .word 0x08432303  # lw x6, 132(x6)
    .word 0x00b30333  # add x6, x6, x11
    .word 0x00279293  # slli x5, x15, 2
    .word 0x002282b3  # add x5, x5, x2
    .word 0x0862a223  # sw x6, 132(x5)
    .word 0x00279293  # slli x5, x15, 2
    .word 0x002282b3  # add x5, x5, x2
    .word 0x0842a283  # lw x5, 132(x5)
    .word 0x00b2b5b3  # sltu x11, x5, x11
    .word 0xffb78293  # addi x5, x15, -5
    .word 0xfc0296e3  # bne x5, x0, -52
    .word 0x00d585b3  # add x11, x11, x13
    .word 0x09c12283  # lw x5, 156(x2)
    .word 0x00b282b3  # add x5, x5, x11
    .word 0x08512e23  # sw x5, 156(x2)
    .word 0x09c12283  # lw x5, 156(x2)
    .word 0x00b2b5b3  # sltu x11, x5, x11
    .word 0x0a012283  # lw x5, 160(x2)
    .word 0x00b282b3  # add x5, x5, x11
    .word 0x40d282b3  # sub x5, x5, x13
    .word 0x0a512023  # sw x5, 160(x2)
    .word 0xfff00713  # addi x14, x0, -1
    .word 0x00170713  # addi x14, x14, 1
    .word 0x00271893  # slli x17, x14, 2
    .word 0x002888b3  # add x17, x17, x2
    .word 0xfff00793  # addi x15, x0, -1
    .word 0x00178793  # addi x15, x15, 1
    .word 0x01f00293  # addi x5, x0, 31
    .word 0x00271313  # slli x6, x14, 2
    .word 0x406282b3  # sub x5, x5, x6
    .word 0x40f282b3  # sub x5, x5, x15
    .word 0x0848a303  # lw x6, 132(x17)
    .word 0x00379393  # slli x7, x15, 3
    .word 0x00735333  # srl x6, x6, x7
    .word 0x002282b3  # add x5, x5, x2
    .word 0x02628023  # sb x6, 32(x5)
    .word 0xffd78293  # addi x5, x15, -3
    .word 0xfc029ae3  # bne x5, x0, -44
    .word 0xff970293  # addi x5, x14, -7
    .word 0xfa029ee3  # bne x5, x0, -68
    # the result
    .word 0x00000513  # addi x10, x0, 0
    # parameter 1: the array, back
    .word 0x02010293  # addi x5, x2, 32
    .word 0x0ec12303  # lw x6, 236(x2)
    .word 0x02028393  # addi x7, x5, 32
    .word 0x0002ce03  # lbu x28, 0(x5)
    .word 0x01c30023  # sb x28, 0(x6)
    .word 0x00128293  # addi x5, x5, 1
    .word 0x00130313  # addi x6, x6, 1
    .word 0xfe7298e3  # bne x5, x7, -16
    # above the frame
    .word 0x0e010293  # addi x5, x2, 224
    # the caller's registers
    # the caller's x2
    .word 0x01028293  # addi x5, x5, 16
    .cfi_def_cfa 5, 0
    # on to the tail that functions share
    jal x0, factc.tail.1
    .cfi_endproc
    .size p256_to_bytes, . - p256_to_bytes
    .section .text.factc.tail.1, "axG", @progbits, factc.tail.1, comdat
    .p2align 2
    .globl factc.tail.1
    .hidden factc.tail.1
    .type factc.tail.1, @function
factc.tail.1:
    .cfi_startproc
    .cfi_def_cfa 5, 0
    # all the room, wiped upward
    .word 0x00012023  # sw x0, 0(x2)
    .word 0x00012223  # sw x0, 4(x2)
    .word 0x00012423  # sw x0, 8(x2)
    .word 0x00012623  # sw x0, 12(x2)
    .word 0x01010113  # addi x2, x2, 16
    .word 0xfe5116e3  # bne x2, x5, -20
    .cfi_def_cfa 2, 0
    # temporaries, wiped
    .word 0x00000293  # addi x5, x0, 0
    .word 0x00000313  # addi x6, x0, 0
    .word 0x00000393  # addi x7, x0, 0
    .word 0x00000593  # addi x11, x0, 0
    .word 0x00000613  # addi x12, x0, 0
    .word 0x00000693  # addi x13, x0, 0
    .word 0x00000713  # addi x14, x0, 0
    .word 0x00000793  # addi x15, x0, 0
    .word 0x00000813  # addi x16, x0, 0
    .word 0x00000893  # addi x17, x0, 0
    .word 0x00000e13  # addi x28, x0, 0
    .word 0x00000e93  # addi x29, x0, 0
    .word 0x00000f13  # addi x30, x0, 0
    .word 0x00000f93  # addi x31, x0, 0
    # back
    .word 0x00008067  # jalr x0, 0(x1)
    .cfi_endproc
    .size factc.tail.1, . - factc.tail.1
    .option pop
