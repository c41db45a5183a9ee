# tls_padding: made by factc 1.0.0 function; 47 words and 21 shared, 288 bytes of stack, profile 1
    .option push
    .option norvc
    .option norelax
    .cfi_sections .debug_frame
    .section .text.tls_padding, "ax", @progbits
    .p2align 2
    .globl tls_padding
    .type tls_padding, @function
tls_padding:
    .cfi_startproc
    # room above the frame
    .cfi_def_cfa_offset 0
    # the caller's registers
    # arguments that are needed behind the body
    # the frame's base
    .word 0xee010113  # addi x2, x2, -288
    .cfi_def_cfa 2, 288
    # parameter 0: an array
    .word 0x00050293  # addi x5, x10, 0
    .word 0x00010313  # addi x6, x2, 0
    .word 0x10028393  # addi x7, x5, 256
    .word 0x0002ce03  # lbu x28, 0(x5)
    .word 0x01c30023  # sb x28, 0(x6)
    .word 0x00128293  # addi x5, x5, 1
    .word 0x00130313  # addi x6, x6, 1
    .word 0xfe7298e3  # bne x5, x7, -16
    # parameter 1: a word
    .word 0x10b12023  # sw x11, 256(x2)
    # parameter 2: a word
    .word 0x10c12223  # sw x12, 260(x2)
    # the body
    .word 0x10012503  # lw x10, 256(x2)
    .word 0x10412583  # lw x11, 260(x2)
    .word 0x0ff14603  # lbu x12, 255(x2)
    .word 0x00160693  # addi x13, x12, 1
    .word 0x00000713  # addi x14, x0, 0
    .word 0x0ff00293  # addi x5, x0, 255
    .word 0x40d287b3  # sub x15, x5, x13
    .word 0xfff00813  # addi x16, x0, -1
    .word 0x00180813  # addi x16, x16, 1
    .word 0x00280333  # add x6, x16, x2
    .word 0x00034303  # lbu x6, 0(x6)
    .word 0x00c34333  # xor x6, x6, x12
    .word 0x0087d393  # srli x7, x15, 8
    .word 0x00737333  # and x6, x6, x7
    .word 0x00676733  # or x14, x14, x6
    .word 0xfff78793  # addi x15, x15, -1
    .word 0xf0180293  # addi x5, x16, -255
    .word 0xfc029ee3  # bne x5, x0, -36
    .word 0x00b532b3  # sltu x5, x10, x11
    .word 0x00000313  # addi x6, x0, 0
    .word 0x40b503b3  # sub x7, x10, x11
    .word 0x405002b3  # sub x5, x0, x5
    .word 0x00734333  # xor x6, x6, x7
    .word 0x00537333  # and x6, x6, x5
    .word 0x0063c833  # xor x16, x7, x6
    .word 0x00173293  # sltiu x5, x14, 1
    .word 0x00d83333  # sltu x6, x16, x13
    .word 0x00133313  # sltiu x6, x6, 1
    .word 0x0062f2b3  # and x5, x5, x6
    .word 0x405002b3  # sub x5, x0, x5
    .word 0x0056f2b3  # and x5, x13, x5
    .word 0x10512423  # sw x5, 264(x2)
    # the result
    .word 0x10812503  # lw x10, 264(x2)
    # above the frame
    .word 0x12010293  # addi x5, x2, 288
    # the caller's registers
    # the caller's x2
    .word 0x00028293  # addi x5, x5, 0
    .cfi_def_cfa 5, 0
    # on to the tail that functions share
    jal x0, factc.tail.1
    .cfi_endproc
    .size tls_padding, . - tls_padding
    .section .text.factc.tail.1, "axG", @progbits, factc.tail.1, comdat
    .p2align 2
    .globl factc.tail.1
    .hidden factc.tail.1
    .type factc.tail.1, @function
factc.tail.1:
    .cfi_startproc
    .cfi_def_cfa 5, 0
    # all the room, wiped upward
    .word 0x00012023  # sw x0, 0(x2)
    .word 0x00012223  # sw x0, 4(x2)
    .word 0x00012423  # sw x0, 8(x2)
    .word 0x00012623  # sw x0, 12(x2)
    .word 0x01010113  # addi x2, x2, 16
    .word 0xfe5116e3  # bne x2, x5, -20
    .cfi_def_cfa 2, 0
    # temporaries, wiped
    .word 0x00000293  # addi x5, x0, 0
    .word 0x00000313  # addi x6, x0, 0
    .word 0x00000393  # addi x7, x0, 0
    .word 0x00000593  # addi x11, x0, 0
    .word 0x00000613  # addi x12, x0, 0
    .word 0x00000693  # addi x13, x0, 0
    .word 0x00000713  # addi x14, x0, 0
    .word 0x00000793  # addi x15, x0, 0
    .word 0x00000813  # addi x16, x0, 0
    .word 0x00000893  # addi x17, x0, 0
    .word 0x00000e13  # addi x28, x0, 0
    .word 0x00000e93  # addi x29, x0, 0
    .word 0x00000f13  # addi x30, x0, 0
    .word 0x00000f93  # addi x31, x0, 0
    # back
    .word 0x00008067  # jalr x0, 0(x1)
    .cfi_endproc
    .size factc.tail.1, . - factc.tail.1
    .option pop
