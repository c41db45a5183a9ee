# mlkem_sample_cbd2: made by factc 1.0.0 function; 88 words and 21 shared, 688 bytes of stack, profile 1
    .option push
    .option norvc
    .option norelax
    .cfi_sections .debug_frame
    .section .text.mlkem_sample_cbd2, "ax", @progbits
    .p2align 2
    .globl mlkem_sample_cbd2
    .type mlkem_sample_cbd2, @function
mlkem_sample_cbd2:
    .cfi_startproc
    # room above the frame
    .word 0xff010113  # addi x2, x2, -16
    .cfi_def_cfa_offset 16
    # the caller's registers
    .word 0x01212023  # sw x18, 0(x2)
    .cfi_offset 18, -16
    .word 0x01312223  # sw x19, 4(x2)
    .cfi_offset 19, -12
    # arguments that are needed behind the body
    .word 0x00a12423  # sw x10, 8(x2)
    .word 0x00b12623  # sw x11, 12(x2)
    # the frame's base
    .word 0xd6010113  # addi x2, x2, -672
    .cfi_def_cfa 2, 688
    # parameter 0: an array
    .word 0x00050293  # addi x5, x10, 0
    .word 0x00010313  # addi x6, x2, 0
    .word 0x08028393  # addi x7, x5, 128
    .word 0x0002ce03  # lbu x28, 0(x5)
    .word 0x01c30023  # sb x28, 0(x6)
    .word 0x00128293  # addi x5, x5, 1
    .word 0x00130313  # addi x6, x6, 1
    .word 0xfe7298e3  # bne x5, x7, -16
    # parameter 1: an array
    .word 0x00058293  # addi x5, x11, 0
    .word 0x08010313  # addi x6, x2, 128
    .word 0x20028393  # addi x7, x5, 512
    .word 0x0002de03  # lhu x28, 0(x5)
    .word 0x01c31023  # sh x28, 0(x6)
    .word 0x00228293  # addi x5, x5, 2
    .word 0x00230313  # addi x6, x6, 2
    .word 0xfe7298e3  # bne x5, x7, -16
    # the body
    .word 0x555558b7  # lui x17, 0x55555
    .word 0x55588893  # addi x17, x17, 1365
    .word 0x33333937  # lui x18, 0x33333
    .word 0x33390913  # addi x18, x18, 819
    .word 0x888899b7  # lui x19, 0x88889
    .word 0x88898993  # addi x19, x19, -1912
    .word 0x00001537  # lui x10, 0x00001
    .word 0xd0150513  # addi x10, x10, -767
    .word 0xfff00593  # addi x11, x0, -1
    .word 0x00158593  # addi x11, x11, 1
    .word 0x00259713  # slli x14, x11, 2
    .word 0x00359613  # slli x12, x11, 3
    .word 0x002702b3  # add x5, x14, x2
    .word 0x0002c283  # lbu x5, 0(x5)
    .word 0x00270333  # add x6, x14, x2
    .word 0x00134303  # lbu x6, 1(x6)
    .word 0x00831313  # slli x6, x6, 8
    .word 0x0062e7b3  # or x15, x5, x6
    .word 0x002702b3  # add x5, x14, x2
    .word 0x0022c283  # lbu x5, 2(x5)
    .word 0x00270333  # add x6, x14, x2
    .word 0x00334303  # lbu x6, 3(x6)
    .word 0x00831313  # slli x6, x6, 8
    .word 0x0062e833  # or x16, x5, x6
    .word 0x01081293  # slli x5, x16, 16
    .word 0x00f2e7b3  # or x15, x5, x15
    .word 0x0117f2b3  # and x5, x15, x17
    .word 0x0017d313  # srli x6, x15, 1
    .word 0x01137333  # and x6, x6, x17
    .word 0x006287b3  # add x15, x5, x6
    .word 0x0127f2b3  # and x5, x15, x18
    .word 0x013282b3  # add x5, x5, x19
    .word 0x0027d313  # srli x6, x15, 2
    .word 0x01237333  # and x6, x6, x18
    .word 0x406286b3  # sub x13, x5, x6
    .word 0xfff00713  # addi x14, x0, -1
    .word 0x00170713  # addi x14, x14, 1
    .word 0x00271313  # slli x6, x14, 2
    .word 0x0066d2b3  # srl x5, x13, x6
    .word 0x00f2f293  # andi x5, x5, 15
    .word 0xff828793  # addi x15, x5, -8
    .word 0x0107d293  # srli x5, x15, 16
    .word 0x00a2f833  # and x16, x5, x10
    .word 0x00e602b3  # add x5, x12, x14
    .word 0x01078333  # add x6, x15, x16
    .word 0x00129293  # slli x5, x5, 1
    .word 0x002282b3  # add x5, x5, x2
    .word 0x08629023  # sh x6, 128(x5)
    .word 0xff970293  # addi x5, x14, -7
    .word 0xfc0296e3  # bne x5, x0, -52
    .word 0xfe158293  # addi x5, x11, -31
    .word 0xf4029ce3  # bne x5, x0, -168
    # the result
    .word 0x00000513  # addi x10, x0, 0
    # parameter 1: the array, back
    .word 0x08010293  # addi x5, x2, 128
    .word 0x2ac12303  # lw x6, 684(x2)
    .word 0x20028393  # addi x7, x5, 512
    .word 0x0002de03  # lhu x28, 0(x5)
    .word 0x01c31023  # sh x28, 0(x6)
    .word 0x00228293  # addi x5, x5, 2
    .word 0x00230313  # addi x6, x6, 2
    .word 0xfe7298e3  # bne x5, x7, -16
    # above the frame
    .word 0x2a010293  # addi x5, x2, 672
    # the caller's registers
    .word 0x0002a903  # lw x18, 0(x5)
    .cfi_restore 18
    .word 0x0042a983  # lw x19, 4(x5)
    .cfi_restore 19
    # the caller's x2
    .word 0x01028293  # addi x5, x5, 16
    .cfi_def_cfa 5, 0
    # on to the tail that functions share
    jal x0, factc.tail.1
    .cfi_endproc
    .size mlkem_sample_cbd2, . - mlkem_sample_cbd2
    .section .text.factc.tail.1, "axG", @progbits, factc.tail.1, comdat
    .p2align 2
    .globl factc.tail.1
    .hidden factc.tail.1
    .type factc.tail.1, @function
factc.tail.1:
    .cfi_startproc
    .cfi_def_cfa 5, 0
    # all the room, wiped upward
    .word 0x00012023  # sw x0, 0(x2)
    .word 0x00012223  # sw x0, 4(x2)
    .word 0x00012423  # sw x0, 8(x2)
    .word 0x00012623  # sw x0, 12(x2)
    .word 0x01010113  # addi x2, x2, 16
    .word 0xfe5116e3  # bne x2, x5, -20
    .cfi_def_cfa 2, 0
    # temporaries, wiped
    .word 0x00000293  # addi x5, x0, 0
    .word 0x00000313  # addi x6, x0, 0
    .word 0x00000393  # addi x7, x0, 0
    .word 0x00000593  # addi x11, x0, 0
    .word 0x00000613  # addi x12, x0, 0
    .word 0x00000693  # addi x13, x0, 0
    .word 0x00000713  # addi x14, x0, 0
    .word 0x00000793  # addi x15, x0, 0
    .word 0x00000813  # addi x16, x0, 0
    .word 0x00000893  # addi x17, x0, 0
    .word 0x00000e13  # addi x28, x0, 0
    .word 0x00000e93  # addi x29, x0, 0
    .word 0x00000f13  # addi x30, x0, 0
    .word 0x00000f93  # addi x31, x0, 0
    # back
    .word 0x00008067  # jalr x0, 0(x1)
    .cfi_endproc
    .size factc.tail.1, . - factc.tail.1
    .option pop
