# base64_encode: made by factc 1.0.0 function; 178 words, 160 bytes of stack, profile 1
    .option push
    .option norvc
    .option norelax
    .cfi_sections .debug_frame
    .section .text.base64_encode, "ax", @progbits
    .p2align 2
    .globl base64_encode
    .type base64_encode, @function
base64_encode:
    .cfi_startproc
    # room above the frame
    .word 0xfe010113  # addi x2, x2, -32
    .cfi_def_cfa_offset 32
    # the caller's registers
    .word 0x01212023  # sw x18, 0(x2)
    .cfi_offset 18, -32
    .word 0x01312223  # sw x19, 4(x2)
    .cfi_offset 19, -28
    # arguments that are needed behind the body
    .word 0x00a12a23  # sw x10, 20(x2)
    .word 0x00b12c23  # sw x11, 24(x2)
    .word 0x00c12e23  # sw x12, 28(x2)
    # the frame's base
    .word 0xf8010113  # addi x2, x2, -128
    .cfi_def_cfa 2, 160
    # parameter 0: an array
    .word 0x00050293  # addi x5, x10, 0
    .word 0x00010313  # addi x6, x2, 0
    .word 0x03028393  # addi x7, x5, 48
    .word 0x24c00f6f  # jal x30, 588
    # parameter 1: a word
    .word 0x02b12823  # sw x11, 48(x2)
    # parameter 2: an array
    .word 0x00060293  # addi x5, x12, 0
    .word 0x03410313  # addi x6, x2, 52
    .word 0x04028393  # addi x7, x5, 64
    .word 0x23800f6f  # jal x30, 568
    # the body
    .word 0x03012503  # lw x10, 48(x2)
    .word 0xfff00593  # addi x11, x0, -1
    .word 0x00158593  # addi x11, x11, 1
    .word 0x00259613  # slli x12, x11, 2
    .word 0x00260933  # add x18, x12, x2
    .word 0x00300293  # addi x5, x0, 3
    .word 0x02b286b3  # mul x13, x5, x11
    .word 0x002689b3  # add x19, x13, x2
    .word 0x18a6f263  # bgeu x13, x10, 388
    .word 0x0009c283  # lbu x5, 0(x19)
    .word 0x01029713  # slli x14, x5, 16
    .word 0x00168293  # addi x5, x13, 1
    .word 0x00a2f863  # bgeu x5, x10, 16
    .word 0x0019c303  # lbu x6, 1(x19)
    .word 0x00831313  # slli x6, x6, 8
    .word 0x00676733  # or x14, x14, x6
    .word 0x00268293  # addi x5, x13, 2
    .word 0x00a2f663  # bgeu x5, x10, 12
    .word 0x0029c303  # lbu x6, 2(x19)
    .word 0x00676733  # or x14, x14, x6
    .word 0x01275793  # srli x15, x14, 18
    .word 0xff078293  # addi x5, x15, -16
    .word 0xfc178313  # addi x6, x15, -63
    .word 0x00835313  # srli x6, x6, 8
    .word 0x00337313  # andi x6, x6, 3
    .word 0x406282b3  # sub x5, x5, x6
    .word 0xfc278313  # addi x6, x15, -62
    .word 0x00835313  # srli x6, x6, 8
    .word 0x00f37313  # andi x6, x6, 15
    .word 0x00628833  # add x16, x5, x6
    .word 0xfcc78313  # addi x6, x15, -52
    .word 0x00835313  # srli x6, x6, 8
    .word 0x04b37313  # andi x6, x6, 75
    .word 0x006802b3  # add x5, x16, x6
    .word 0xfe678313  # addi x6, x15, -26
    .word 0x00835313  # srli x6, x6, 8
    .word 0x00637313  # andi x6, x6, 6
    .word 0x40628833  # sub x16, x5, x6
    .word 0x00c75293  # srli x5, x14, 12
    .word 0x03f2f793  # andi x15, x5, 63
    .word 0xff078293  # addi x5, x15, -16
    .word 0xfc178313  # addi x6, x15, -63
    .word 0x00835313  # srli x6, x6, 8
    .word 0x00337313  # andi x6, x6, 3
    .word 0x406282b3  # sub x5, x5, x6
    .word 0xfc278313  # addi x6, x15, -62
    .word 0x00835313  # srli x6, x6, 8
    .word 0x00f37313  # andi x6, x6, 15
    .word 0x006288b3  # add x17, x5, x6
    .word 0xfcc78313  # addi x6, x15, -52
    .word 0x00835313  # srli x6, x6, 8
    .word 0x04b37313  # andi x6, x6, 75
    .word 0x006882b3  # add x5, x17, x6
    .word 0xfe678313  # addi x6, x15, -26
    .word 0x00835313  # srli x6, x6, 8
    .word 0x00637313  # andi x6, x6, 6
    .word 0x406287b3  # sub x15, x5, x6
    .word 0x03090a23  # sb x16, 52(x18)
    .word 0x02f90aa3  # sb x15, 53(x18)
    .word 0x00675293  # srli x5, x14, 6
    .word 0x03f2f793  # andi x15, x5, 63
    .word 0xff078293  # addi x5, x15, -16
    .word 0xfc178313  # addi x6, x15, -63
    .word 0x00835313  # srli x6, x6, 8
    .word 0x00337313  # andi x6, x6, 3
    .word 0x406282b3  # sub x5, x5, x6
    .word 0xfc278313  # addi x6, x15, -62
    .word 0x00835313  # srli x6, x6, 8
    .word 0x00f37313  # andi x6, x6, 15
    .word 0x00628833  # add x16, x5, x6
    .word 0xfcc78313  # addi x6, x15, -52
    .word 0x00835313  # srli x6, x6, 8
    .word 0x04b37313  # andi x6, x6, 75
    .word 0x006802b3  # add x5, x16, x6
    .word 0xfe678313  # addi x6, x15, -26
    .word 0x00835313  # srli x6, x6, 8
    .word 0x00637313  # andi x6, x6, 6
    .word 0x406287b3  # sub x15, x5, x6
    .word 0x00268313  # addi x6, x13, 2
    .word 0x00657463  # bgeu x10, x6, 8
    .word 0x03d00793  # addi x15, x0, 61
    .word 0x02f90b23  # sb x15, 54(x18)
    .word 0x03f77713  # andi x14, x14, 63
    .word 0xff070293  # addi x5, x14, -16
    .word 0xfc170313  # addi x6, x14, -63
    .word 0x00835313  # srli x6, x6, 8
    .word 0x00337313  # andi x6, x6, 3
    .word 0x406282b3  # sub x5, x5, x6
    .word 0xfc270313  # addi x6, x14, -62
    .word 0x00835313  # srli x6, x6, 8
    .word 0x00f37313  # andi x6, x6, 15
    .word 0x006287b3  # add x15, x5, x6
    .word 0xfcc70313  # addi x6, x14, -52
    .word 0x00835313  # srli x6, x6, 8
    .word 0x04b37313  # andi x6, x6, 75
    .word 0x006782b3  # add x5, x15, x6
    .word 0xfe670313  # addi x6, x14, -26
    .word 0x00835313  # srli x6, x6, 8
    .word 0x00637313  # andi x6, x6, 6
    .word 0x406287b3  # sub x15, x5, x6
    .word 0x00368313  # addi x6, x13, 3
    .word 0x00657463  # bgeu x10, x6, 8
    .word 0x03d00793  # addi x15, x0, 61
    .word 0x02f90ba3  # sb x15, 55(x18)
    .word 0x0140006f  # jal x0, 20
    .word 0x02090a23  # sb x0, 52(x18)
    .word 0x02090aa3  # sb x0, 53(x18)
    .word 0x02090b23  # sb x0, 54(x18)
    .word 0x02090ba3  # sb x0, 55(x18)
    .word 0xff158293  # addi x5, x11, -15
    .word 0xe40298e3  # bne x5, x0, -432
    # the result
    .word 0x00000513  # addi x10, x0, 0
    # parameter 2: the array, back
    .word 0x03410293  # addi x5, x2, 52
    .word 0x09c12303  # lw x6, 156(x2)
    .word 0x04028393  # addi x7, x5, 64
    .word 0x06800f6f  # jal x30, 104
    # above the frame
    .word 0x08010293  # addi x5, x2, 128
    # the caller's registers
    .word 0x0002a903  # lw x18, 0(x5)
    .cfi_restore 18
    .word 0x0042a983  # lw x19, 4(x5)
    .cfi_restore 19
    # the caller's x2
    .word 0x02028293  # addi x5, x5, 32
    .cfi_def_cfa 5, 0
    # all the room, wiped upward
    .word 0x00012023  # sw x0, 0(x2)
    .word 0x00012223  # sw x0, 4(x2)
    .word 0x00012423  # sw x0, 8(x2)
    .word 0x00012623  # sw x0, 12(x2)
    .word 0x01010113  # addi x2, x2, 16
    .word 0xfe5116e3  # bne x2, x5, -20
    .cfi_def_cfa 2, 0
    # temporaries, wiped
    .word 0x00000293  # addi x5, x0, 0
    .word 0x00000313  # addi x6, x0, 0
    .word 0x00000393  # addi x7, x0, 0
    .word 0x00000593  # addi x11, x0, 0
    .word 0x00000613  # addi x12, x0, 0
    .word 0x00000693  # addi x13, x0, 0
    .word 0x00000713  # addi x14, x0, 0
    .word 0x00000793  # addi x15, x0, 0
    .word 0x00000813  # addi x16, x0, 0
    .word 0x00000893  # addi x17, x0, 0
    .word 0x00000e13  # addi x28, x0, 0
    .word 0x00000e93  # addi x29, x0, 0
    .word 0x00000f13  # addi x30, x0, 0
    .word 0x00000f93  # addi x31, x0, 0
    # back
    .word 0x00008067  # jalr x0, 0(x1)
    # from x5 to x6 up to x7, and back
    .cfi_def_cfa 2, 160
    .cfi_offset 18, -32
    .cfi_offset 19, -28
    .word 0x0062ee33  # or x28, x5, x6
    .word 0x003e7e13  # andi x28, x28, 3
    .word 0x000e0e63  # beq x28, x0, 28
    .word 0x0002ce03  # lbu x28, 0(x5)
    .word 0x01c30023  # sb x28, 0(x6)
    .word 0x00128293  # addi x5, x5, 1
    .word 0x00130313  # addi x6, x6, 1
    .word 0xfe7298e3  # bne x5, x7, -16
    .word 0x0300006f  # jal x0, 48
    .word 0x0002ae03  # lw x28, 0(x5)
    .word 0x01c32023  # sw x28, 0(x6)
    .word 0x0042ae03  # lw x28, 4(x5)
    .word 0x01c32223  # sw x28, 4(x6)
    .word 0x0082ae03  # lw x28, 8(x5)
    .word 0x01c32423  # sw x28, 8(x6)
    .word 0x00c2ae03  # lw x28, 12(x5)
    .word 0x01c32623  # sw x28, 12(x6)
    .word 0x01028293  # addi x5, x5, 16
    .word 0x01030313  # addi x6, x6, 16
    .word 0xfc729ce3  # bne x5, x7, -40
    .word 0x000f0067  # jalr x0, 0(x30)
    .cfi_endproc
    .size base64_encode, . - base64_encode
    .option pop
