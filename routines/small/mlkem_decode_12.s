# mlkem_decode_12: made by factc 1.0.0 function; 88 words and 21 shared, 944 bytes of stack, profile 1
    .option push
    .option norvc
    .option norelax
    .cfi_sections .debug_frame
    .section .text.mlkem_decode_12, "ax", @progbits
    .p2align 2
    .globl mlkem_decode_12
    .type mlkem_decode_12, @function
mlkem_decode_12:
    .cfi_startproc
    # room above the frame
    .word 0xfe010113  # addi x2, x2, -32
    .cfi_def_cfa_offset 32
    # the caller's registers
    .word 0x01212023  # sw x18, 0(x2)
    .cfi_offset 18, -32
    .word 0x01312223  # sw x19, 4(x2)
    .cfi_offset 19, -28
    .word 0x01412423  # sw x20, 8(x2)
    .cfi_offset 20, -24
    # arguments that are needed behind the body
    .word 0x00a12c23  # sw x10, 24(x2)
    .word 0x00b12e23  # sw x11, 28(x2)
    # the frame's base
    .word 0xc7010113  # addi x2, x2, -912
    .cfi_def_cfa 2, 944
    # parameter 0: an array
    .word 0x00050293  # addi x5, x10, 0
    .word 0x00010313  # addi x6, x2, 0
    .word 0x18028393  # addi x7, x5, 384
    .word 0x0002ce03  # lbu x28, 0(x5)
    .word 0x01c30023  # sb x28, 0(x6)
    .word 0x00128293  # addi x5, x5, 1
    .word 0x00130313  # addi x6, x6, 1
    .word 0xfe7298e3  # bne x5, x7, -16
    # parameter 1: an array
    .word 0x00058293  # addi x5, x11, 0
    .word 0x18010313  # addi x6, x2, 384
    .word 0x20028393  # addi x7, x5, 512
    .word 0x0002de03  # lhu x28, 0(x5)
    .word 0x01c31023  # sh x28, 0(x6)
    .word 0x00228293  # addi x5, x5, 2
    .word 0x00230313  # addi x6, x6, 2
    .word 0xfe7298e3  # bne x5, x7, -16
    # the body
    .word 0x00001937  # lui x18, 0x00001
    .word 0xd0190913  # addi x18, x18, -767
    .word 0xfff00513  # addi x10, x0, -1
    .word 0x00150513  # addi x10, x10, 1
    .word 0x00600293  # addi x5, x0, 6
    .word 0x02a285b3  # mul x11, x5, x10
    .word 0x002589b3  # add x19, x11, x2
    .word 0x00251613  # slli x12, x10, 2
    .word 0x00161a13  # slli x20, x12, 1
    .word 0x002a0a33  # add x20, x20, x2
    .word 0x0019c683  # lbu x13, 1(x19)
    .word 0x0049c703  # lbu x14, 4(x19)
    .word 0x0009c283  # lbu x5, 0(x19)
    .word 0x00f6f313  # andi x6, x13, 15
    .word 0x00831313  # slli x6, x6, 8
    .word 0x0062e7b3  # or x15, x5, x6
    .word 0x412787b3  # sub x15, x15, x18
    .word 0x0107d293  # srli x5, x15, 16
    .word 0x0122f833  # and x16, x5, x18
    .word 0x010787b3  # add x15, x15, x16
    .word 0x0046d293  # srli x5, x13, 4
    .word 0x0029c303  # lbu x6, 2(x19)
    .word 0x00431313  # slli x6, x6, 4
    .word 0x0062e6b3  # or x13, x5, x6
    .word 0x412686b3  # sub x13, x13, x18
    .word 0x0106d293  # srli x5, x13, 16
    .word 0x0122f833  # and x16, x5, x18
    .word 0x01068833  # add x16, x13, x16
    .word 0x0039c283  # lbu x5, 3(x19)
    .word 0x00f77313  # andi x6, x14, 15
    .word 0x00831313  # slli x6, x6, 8
    .word 0x0062e6b3  # or x13, x5, x6
    .word 0x412686b3  # sub x13, x13, x18
    .word 0x0106d293  # srli x5, x13, 16
    .word 0x0122f8b3  # and x17, x5, x18
    .word 0x011688b3  # add x17, x13, x17
    .word 0x00475293  # srli x5, x14, 4
    .word 0x0059c303  # lbu x6, 5(x19)
    .word 0x00431313  # slli x6, x6, 4
    .word 0x0062e6b3  # or x13, x5, x6
    .word 0x412686b3  # sub x13, x13, x18
    .word 0x0106d293  # srli x5, x13, 16
    .word 0x0122f733  # and x14, x5, x18
    .word 0x00e686b3  # add x13, x13, x14
    .word 0x18fa1023  # sh x15, 384(x20)
    .word 0x190a1123  # sh x16, 386(x20)
    .word 0x191a1223  # sh x17, 388(x20)
    .word 0x18da1323  # sh x13, 390(x20)
    .word 0xfc150293  # addi x5, x10, -63
    .word 0xf40294e3  # bne x5, x0, -184
    # the result
    .word 0x00000513  # addi x10, x0, 0
    # parameter 1: the array, back
    .word 0x18010293  # addi x5, x2, 384
    .word 0x3ac12303  # lw x6, 940(x2)
    .word 0x20028393  # addi x7, x5, 512
    .word 0x0002de03  # lhu x28, 0(x5)
    .word 0x01c31023  # sh x28, 0(x6)
    .word 0x00228293  # addi x5, x5, 2
    .word 0x00230313  # addi x6, x6, 2
    .word 0xfe7298e3  # bne x5, x7, -16
    # above the frame
    .word 0x39010293  # addi x5, x2, 912
    # the caller's registers
    .word 0x0002a903  # lw x18, 0(x5)
    .cfi_restore 18
    .word 0x0042a983  # lw x19, 4(x5)
    .cfi_restore 19
    .word 0x0082aa03  # lw x20, 8(x5)
    .cfi_restore 20
    # the caller's x2
    .word 0x02028293  # addi x5, x5, 32
    .cfi_def_cfa 5, 0
    # on to the tail that functions share
    jal x0, factc.tail.1
    .cfi_endproc
    .size mlkem_decode_12, . - mlkem_decode_12
    .section .text.factc.tail.1, "axG", @progbits, factc.tail.1, comdat
    .p2align 2
    .globl factc.tail.1
    .hidden factc.tail.1
    .type factc.tail.1, @function
factc.tail.1:
    .cfi_startproc
    .cfi_def_cfa 5, 0
    # all the room, wiped upward
    .word 0x00012023  # sw x0, 0(x2)
    .word 0x00012223  # sw x0, 4(x2)
    .word 0x00012423  # sw x0, 8(x2)
    .word 0x00012623  # sw x0, 12(x2)
    .word 0x01010113  # addi x2, x2, 16
    .word 0xfe5116e3  # bne x2, x5, -20
    .cfi_def_cfa 2, 0
    # temporaries, wiped
    .word 0x00000293  # addi x5, x0, 0
    .word 0x00000313  # addi x6, x0, 0
    .word 0x00000393  # addi x7, x0, 0
    .word 0x00000593  # addi x11, x0, 0
    .word 0x00000613  # addi x12, x0, 0
    .word 0x00000693  # addi x13, x0, 0
    .word 0x00000713  # addi x14, x0, 0
    .word 0x00000793  # addi x15, x0, 0
    .word 0x00000813  # addi x16, x0, 0
    .word 0x00000893  # addi x17, x0, 0
    .word 0x00000e13  # addi x28, x0, 0
    .word 0x00000e93  # addi x29, x0, 0
    .word 0x00000f13  # addi x30, x0, 0
    .word 0x00000f93  # addi x31, x0, 0
    # back
    .word 0x00008067  # jalr x0, 0(x1)
    .cfi_endproc
    .size factc.tail.1, . - factc.tail.1
    .option pop
