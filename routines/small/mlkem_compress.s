# mlkem_compress: made by factc 1.0.0 function; 45 words and 21 shared, 544 bytes of stack, profile 1
    .option push
    .option norvc
    .option norelax
    .cfi_sections .debug_frame
    .section .text.mlkem_compress, "ax", @progbits
    .p2align 2
    .globl mlkem_compress
    .type mlkem_compress, @function
mlkem_compress:
    .cfi_startproc
    # room above the frame
    .word 0xff010113  # addi x2, x2, -16
    .cfi_def_cfa_offset 16
    # the caller's registers
    # arguments that are needed behind the body
    .word 0x00a12623  # sw x10, 12(x2)
    # the frame's base
    .word 0xdf010113  # addi x2, x2, -528
    .cfi_def_cfa 2, 544
    # parameter 0: an array
    .word 0x00050293  # addi x5, x10, 0
    .word 0x00010313  # addi x6, x2, 0
    .word 0x20028393  # addi x7, x5, 512
    .word 0x0002de03  # lhu x28, 0(x5)
    .word 0x01c31023  # sh x28, 0(x6)
    .word 0x00228293  # addi x5, x5, 2
    .word 0x00230313  # addi x6, x6, 2
    .word 0xfe7298e3  # bne x5, x7, -16
    # parameter 1: a word
    .word 0x20b12023  # sw x11, 512(x2)
    # the body
    .word 0x20012503  # lw x10, 512(x2)
    .word 0x9d7dc7b7  # lui x15, 0x9d7dc
    .word 0xb4178793  # addi x15, x15, -1215
    .word 0x00c00313  # addi x6, x0, 12
    .word 0x026575b3  # remu x11, x10, x6
    .word 0x00100293  # addi x5, x0, 1
    .word 0x00b292b3  # sll x5, x5, x11
    .word 0xfff28613  # addi x12, x5, -1
    .word 0xfff00693  # addi x13, x0, -1
    .word 0x00168693  # addi x13, x13, 1
    .word 0x00169813  # slli x16, x13, 1
    .word 0x00280833  # add x16, x16, x2
    .word 0x00085283  # lhu x5, 0(x16)
    .word 0x00b292b3  # sll x5, x5, x11
    .word 0x68028713  # addi x14, x5, 1664
    .word 0x02f73733  # mulhu x14, x14, x15
    .word 0x00b75293  # srli x5, x14, 11
    .word 0x00c2f2b3  # and x5, x5, x12
    .word 0x00581023  # sh x5, 0(x16)
    .word 0xf0168293  # addi x5, x13, -255
    .word 0xfc029ae3  # bne x5, x0, -44
    # the result
    .word 0x00000513  # addi x10, x0, 0
    # parameter 0: the array, back
    .word 0x00010293  # addi x5, x2, 0
    .word 0x21c12303  # lw x6, 540(x2)
    .word 0x20028393  # addi x7, x5, 512
    .word 0x0002de03  # lhu x28, 0(x5)
    .word 0x01c31023  # sh x28, 0(x6)
    .word 0x00228293  # addi x5, x5, 2
    .word 0x00230313  # addi x6, x6, 2
    .word 0xfe7298e3  # bne x5, x7, -16
    # above the frame
    .word 0x21010293  # addi x5, x2, 528
    # the caller's registers
    # the caller's x2
    .word 0x01028293  # addi x5, x5, 16
    .cfi_def_cfa 5, 0
    # on to the tail that functions share
    jal x0, factc.tail.1
    .cfi_endproc
    .size mlkem_compress, . - mlkem_compress
    .section .text.factc.tail.1, "axG", @progbits, factc.tail.1, comdat
    .p2align 2
    .globl factc.tail.1
    .hidden factc.tail.1
    .type factc.tail.1, @function
factc.tail.1:
    .cfi_startproc
    .cfi_def_cfa 5, 0
    # all the room, wiped upward
    .word 0x00012023  # sw x0, 0(x2)
    .word 0x00012223  # sw x0, 4(x2)
    .word 0x00012423  # sw x0, 8(x2)
    .word 0x00012623  # sw x0, 12(x2)
    .word 0x01010113  # addi x2, x2, 16
    .word 0xfe5116e3  # bne x2, x5, -20
    .cfi_def_cfa 2, 0
    # temporaries, wiped
    .word 0x00000293  # addi x5, x0, 0
    .word 0x00000313  # addi x6, x0, 0
    .word 0x00000393  # addi x7, x0, 0
    .word 0x00000593  # addi x11, x0, 0
    .word 0x00000613  # addi x12, x0, 0
    .word 0x00000693  # addi x13, x0, 0
    .word 0x00000713  # addi x14, x0, 0
    .word 0x00000793  # addi x15, x0, 0
    .word 0x00000813  # addi x16, x0, 0
    .word 0x00000893  # addi x17, x0, 0
    .word 0x00000e13  # addi x28, x0, 0
    .word 0x00000e93  # addi x29, x0, 0
    .word 0x00000f13  # addi x30, x0, 0
    .word 0x00000f93  # addi x31, x0, 0
    # back
    .word 0x00008067  # jalr x0, 0(x1)
    .cfi_endproc
    .size factc.tail.1, . - factc.tail.1
    .option pop
