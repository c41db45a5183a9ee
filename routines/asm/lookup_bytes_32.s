# lookup_bytes_32: made by factc 1.0.0 function; 168 words, 576 bytes of stack, profile 1
    .option push
    .option norvc
    .option norelax
    .cfi_sections .debug_frame
    .section .text.lookup_bytes_32, "ax", @progbits
    .p2align 2
    .globl lookup_bytes_32
    .type lookup_bytes_32, @function
lookup_bytes_32:
    .cfi_startproc
    # room above the frame
    .word 0xff010113  # addi x2, x2, -16
    .cfi_def_cfa_offset 16
    # the caller's registers
    # arguments that are needed behind the body
    .word 0x00a12223  # sw x10, 4(x2)
    .word 0x00b12423  # sw x11, 8(x2)
    .word 0x00c12623  # sw x12, 12(x2)
    # the frame's base
    .word 0xdd010113  # addi x2, x2, -560
    .cfi_def_cfa 2, 576
    # parameter 0: a word
    .word 0x0ff57513  # andi x10, x10, 255
    .word 0x00a12023  # sw x10, 0(x2)
    # parameter 1: an array
    .word 0x00058293  # addi x5, x11, 0
    .word 0x00410313  # addi x6, x2, 4
    .word 0x20028393  # addi x7, x5, 512
    .word 0x22400f6f  # jal x30, 548
    # parameter 2: an array
    .word 0x00060293  # addi x5, x12, 0
    .word 0x20410313  # addi x6, x2, 516
    .word 0x02028393  # addi x7, x5, 32
    .word 0x21400f6f  # jal x30, 532
    # the body
    .word 0x00012503  # lw x10, 0(x2)
    .word 0xfff00593  # addi x11, x0, -1
    .word 0x00158593  # addi x11, x11, 1
    .word 0x00259693  # slli x13, x11, 2
    .word 0x00268833  # add x16, x13, x2
    .word 0x20080223  # sb x0, 516(x16)
    .word 0x200802a3  # sb x0, 517(x16)
    .word 0x20080323  # sb x0, 518(x16)
    .word 0x200803a3  # sb x0, 519(x16)
    .word 0xff958293  # addi x5, x11, -7
    .word 0xfe0290e3  # bne x5, x0, -32
    .word 0xfff00593  # addi x11, x0, -1
    .word 0x00158593  # addi x11, x11, 1
    .word 0x00459613  # slli x12, x11, 4
    .word 0x002607b3  # add x15, x12, x2
    .word 0x0015f293  # andi x5, x11, 1
    .word 0x00429693  # slli x13, x5, 4
    .word 0x00268833  # add x16, x13, x2
    .word 0x0015d293  # srli x5, x11, 1
    .word 0x40a282b3  # sub x5, x5, x10
    .word 0x0012b293  # sltiu x5, x5, 1
    .word 0x40500733  # sub x14, x0, x5
    .word 0x20484283  # lbu x5, 516(x16)
    .word 0x0047c303  # lbu x6, 4(x15)
    .word 0x00e37333  # and x6, x6, x14
    .word 0x0062e2b3  # or x5, x5, x6
    .word 0x20580223  # sb x5, 516(x16)
    .word 0x20584283  # lbu x5, 517(x16)
    .word 0x0057c303  # lbu x6, 5(x15)
    .word 0x00e37333  # and x6, x6, x14
    .word 0x0062e2b3  # or x5, x5, x6
    .word 0x205802a3  # sb x5, 517(x16)
    .word 0x20684283  # lbu x5, 518(x16)
    .word 0x0067c303  # lbu x6, 6(x15)
    .word 0x00e37333  # and x6, x6, x14
    .word 0x0062e2b3  # or x5, x5, x6
    .word 0x20580323  # sb x5, 518(x16)
    .word 0x20784283  # lbu x5, 519(x16)
    .word 0x0077c303  # lbu x6, 7(x15)
    .word 0x00e37333  # and x6, x6, x14
    .word 0x0062e2b3  # or x5, x5, x6
    .word 0x205803a3  # sb x5, 519(x16)
    .word 0x20884283  # lbu x5, 520(x16)
    .word 0x0087c303  # lbu x6, 8(x15)
    .word 0x00e37333  # and x6, x6, x14
    .word 0x0062e2b3  # or x5, x5, x6
    .word 0x20580423  # sb x5, 520(x16)
    .word 0x20984283  # lbu x5, 521(x16)
    .word 0x0097c303  # lbu x6, 9(x15)
    .word 0x00e37333  # and x6, x6, x14
    .word 0x0062e2b3  # or x5, x5, x6
    .word 0x205804a3  # sb x5, 521(x16)
    .word 0x20a84283  # lbu x5, 522(x16)
    .word 0x00a7c303  # lbu x6, 10(x15)
    .word 0x00e37333  # and x6, x6, x14
    .word 0x0062e2b3  # or x5, x5, x6
    .word 0x20580523  # sb x5, 522(x16)
    .word 0x20b84283  # lbu x5, 523(x16)
    .word 0x00b7c303  # lbu x6, 11(x15)
    .word 0x00e37333  # and x6, x6, x14
    .word 0x0062e2b3  # or x5, x5, x6
    .word 0x205805a3  # sb x5, 523(x16)
    .word 0x20c84283  # lbu x5, 524(x16)
    .word 0x00c7c303  # lbu x6, 12(x15)
    .word 0x00e37333  # and x6, x6, x14
    .word 0x0062e2b3  # or x5, x5, x6
    .word 0x20580623  # sb x5, 524(x16)
    .word 0x20d84283  # lbu x5, 525(x16)
    .word 0x00d7c303  # lbu x6, 13(x15)
    .word 0x00e37333  # and x6, x6, x14
    .word 0x0062e2b3  # or x5, x5, x6
    .word 0x205806a3  # sb x5, 525(x16)
    .word 0x20e84283  # lbu x5, 526(x16)
    .word 0x00e7c303  # lbu x6, 14(x15)
    .word 0x00e37333  # and x6, x6, x14
    .word 0x0062e2b3  # or x5, x5, x6
    .word 0x20580723  # sb x5, 526(x16)
    .word 0x20f84283  # lbu x5, 527(x16)
    .word 0x00f7c303  # lbu x6, 15(x15)
    .word 0x00e37333  # and x6, x6, x14
    .word 0x0062e2b3  # or x5, x5, x6
    .word 0x205807a3  # sb x5, 527(x16)
    .word 0x21084283  # lbu x5, 528(x16)
    .word 0x0107c303  # lbu x6, 16(x15)
    .word 0x00e37333  # and x6, x6, x14
    .word 0x0062e2b3  # or x5, x5, x6
    .word 0x20580823  # sb x5, 528(x16)
    .word 0x21184283  # lbu x5, 529(x16)
    .word 0x0117c303  # lbu x6, 17(x15)
    .word 0x00e37333  # and x6, x6, x14
    .word 0x0062e2b3  # or x5, x5, x6
    .word 0x205808a3  # sb x5, 529(x16)
    .word 0x21284283  # lbu x5, 530(x16)
    .word 0x0127c303  # lbu x6, 18(x15)
    .word 0x00e37333  # and x6, x6, x14
    .word 0x0062e2b3  # or x5, x5, x6
    .word 0x20580923  # sb x5, 530(x16)
    .word 0x21384283  # lbu x5, 531(x16)
    .word 0x0137c303  # lbu x6, 19(x15)
    .word 0x00e37333  # and x6, x6, x14
    .word 0x0062e2b3  # or x5, x5, x6
    .word 0x205809a3  # sb x5, 531(x16)
    .word 0xfe158293  # addi x5, x11, -31
    .word 0xe8029ae3  # bne x5, x0, -364
    # the result
    .word 0x00000513  # addi x10, x0, 0
    # parameter 2: the array, back
    .word 0x20410293  # addi x5, x2, 516
    .word 0x23c12303  # lw x6, 572(x2)
    .word 0x02028393  # addi x7, x5, 32
    .word 0x06000f6f  # jal x30, 96
    # above the frame
    .word 0x23010293  # addi x5, x2, 560
    # the caller's registers
    # the caller's x2
    .word 0x01028293  # addi x5, x5, 16
    .cfi_def_cfa 5, 0
    # all the room, wiped upward
    .word 0x00012023  # sw x0, 0(x2)
    .word 0x00012223  # sw x0, 4(x2)
    .word 0x00012423  # sw x0, 8(x2)
    .word 0x00012623  # sw x0, 12(x2)
    .word 0x01010113  # addi x2, x2, 16
    .word 0xfe5116e3  # bne x2, x5, -20
    .cfi_def_cfa 2, 0
    # temporaries, wiped
    .word 0x00000293  # addi x5, x0, 0
    .word 0x00000313  # addi x6, x0, 0
    .word 0x00000393  # addi x7, x0, 0
    .word 0x00000593  # addi x11, x0, 0
    .word 0x00000613  # addi x12, x0, 0
    .word 0x00000693  # addi x13, x0, 0
    .word 0x00000713  # addi x14, x0, 0
    .word 0x00000793  # addi x15, x0, 0
    .word 0x00000813  # addi x16, x0, 0
    .word 0x00000893  # addi x17, x0, 0
    .word 0x00000e13  # addi x28, x0, 0
    .word 0x00000e93  # addi x29, x0, 0
    .word 0x00000f13  # addi x30, x0, 0
    .word 0x00000f93  # addi x31, x0, 0
    # back
    .word 0x00008067  # jalr x0, 0(x1)
    # from x5 to x6 up to x7, and back
    .cfi_def_cfa 2, 576
    .word 0x0062ee33  # or x28, x5, x6
    .word 0x003e7e13  # andi x28, x28, 3
    .word 0x000e0e63  # beq x28, x0, 28
    .word 0x0002ce03  # lbu x28, 0(x5)
    .word 0x01c30023  # sb x28, 0(x6)
    .word 0x00128293  # addi x5, x5, 1
    .word 0x00130313  # addi x6, x6, 1
    .word 0xfe7298e3  # bne x5, x7, -16
    .word 0x0300006f  # jal x0, 48
    .word 0x0002ae03  # lw x28, 0(x5)
    .word 0x01c32023  # sw x28, 0(x6)
    .word 0x0042ae03  # lw x28, 4(x5)
    .word 0x01c32223  # sw x28, 4(x6)
    .word 0x0082ae03  # lw x28, 8(x5)
    .word 0x01c32423  # sw x28, 8(x6)
    .word 0x00c2ae03  # lw x28, 12(x5)
    .word 0x01c32623  # sw x28, 12(x6)
    .word 0x01028293  # addi x5, x5, 16
    .word 0x01030313  # addi x6, x6, 16
    .word 0xfc729ce3  # bne x5, x7, -40
    .word 0x000f0067  # jalr x0, 0(x30)
    .cfi_endproc
    .size lookup_bytes_32, . - lookup_bytes_32
    .option pop
