# tls_padding: made by factc 1.0.0 function; 107 words, 304 bytes of stack, profile 1
    .option push
    .option norvc
    .option norelax
    .cfi_sections .debug_frame
    .section .text.tls_padding, "ax", @progbits
    .p2align 2
    .globl tls_padding
    .type tls_padding, @function
tls_padding:
    .cfi_startproc
    # room above the frame
    .word 0xff010113  # addi x2, x2, -16
    .cfi_def_cfa_offset 16
    # the caller's registers
    .word 0x01212023  # sw x18, 0(x2)
    .cfi_offset 18, -16
    # arguments that are needed behind the body
    # the frame's base
    .word 0xee010113  # addi x2, x2, -288
    .cfi_def_cfa 2, 304
    # parameter 0: an array
    .word 0x00050293  # addi x5, x10, 0
    .word 0x00010313  # addi x6, x2, 0
    .word 0x10028393  # addi x7, x5, 256
    .word 0x14000f6f  # jal x30, 320
    # parameter 1: a word
    .word 0x10b12023  # sw x11, 256(x2)
    # parameter 2: a word
    .word 0x10c12223  # sw x12, 260(x2)
    # the body
    .word 0x10012503  # lw x10, 256(x2)
    .word 0x10412583  # lw x11, 260(x2)
    .word 0x0ff14603  # lbu x12, 255(x2)
    .word 0x00160693  # addi x13, x12, 1
    .word 0x00000713  # addi x14, x0, 0
    .word 0x0ff00293  # addi x5, x0, 255
    .word 0x40d287b3  # sub x15, x5, x13
    .word 0xfff00813  # addi x16, x0, -1
    .word 0x00180813  # addi x16, x16, 1
    .word 0x00281893  # slli x17, x16, 2
    .word 0x00288933  # add x18, x17, x2
    .word 0x00094303  # lbu x6, 0(x18)
    .word 0x00c34333  # xor x6, x6, x12
    .word 0x0087d393  # srli x7, x15, 8
    .word 0x00737333  # and x6, x6, x7
    .word 0x00676733  # or x14, x14, x6
    .word 0xfff78793  # addi x15, x15, -1
    .word 0x00194303  # lbu x6, 1(x18)
    .word 0x00c34333  # xor x6, x6, x12
    .word 0x0087d393  # srli x7, x15, 8
    .word 0x00737333  # and x6, x6, x7
    .word 0x00676733  # or x14, x14, x6
    .word 0xfff78793  # addi x15, x15, -1
    .word 0x00294303  # lbu x6, 2(x18)
    .word 0x00c34333  # xor x6, x6, x12
    .word 0x0087d393  # srli x7, x15, 8
    .word 0x00737333  # and x6, x6, x7
    .word 0x00676733  # or x14, x14, x6
    .word 0xfff78793  # addi x15, x15, -1
    .word 0x00394303  # lbu x6, 3(x18)
    .word 0x00c34333  # xor x6, x6, x12
    .word 0x0087d393  # srli x7, x15, 8
    .word 0x00737333  # and x6, x6, x7
    .word 0x00676733  # or x14, x14, x6
    .word 0xfff78793  # addi x15, x15, -1
    .word 0xfc180293  # addi x5, x16, -63
    .word 0xf80298e3  # bne x5, x0, -112
    .word 0x00b532b3  # sltu x5, x10, x11
    .word 0x00000313  # addi x6, x0, 0
    .word 0x40b503b3  # sub x7, x10, x11
    .word 0x405002b3  # sub x5, x0, x5
    .word 0x00734333  # xor x6, x6, x7
    .word 0x00537333  # and x6, x6, x5
    .word 0x0063c8b3  # xor x17, x7, x6
    .word 0x00288933  # add x18, x17, x2
    .word 0x00173293  # sltiu x5, x14, 1
    .word 0x00d8b333  # sltu x6, x17, x13
    .word 0x00133313  # sltiu x6, x6, 1
    .word 0x0062f2b3  # and x5, x5, x6
    .word 0x405002b3  # sub x5, x0, x5
    .word 0x0056f2b3  # and x5, x13, x5
    .word 0x10512423  # sw x5, 264(x2)
    # the result
    .word 0x10812503  # lw x10, 264(x2)
    # above the frame
    .word 0x12010293  # addi x5, x2, 288
    # the caller's registers
    .word 0x0002a903  # lw x18, 0(x5)
    .cfi_restore 18
    # the caller's x2
    .word 0x01028293  # addi x5, x5, 16
    .cfi_def_cfa 5, 0
    # all the room, wiped upward
    .word 0x00012023  # sw x0, 0(x2)
    .word 0x00012223  # sw x0, 4(x2)
    .word 0x00012423  # sw x0, 8(x2)
    .word 0x00012623  # sw x0, 12(x2)
    .word 0x01010113  # addi x2, x2, 16
    .word 0xfe5116e3  # bne x2, x5, -20
    .cfi_def_cfa 2, 0
    # temporaries, wiped
    .word 0x00000293  # addi x5, x0, 0
    .word 0x00000313  # addi x6, x0, 0
    .word 0x00000393  # addi x7, x0, 0
    .word 0x00000593  # addi x11, x0, 0
    .word 0x00000613  # addi x12, x0, 0
    .word 0x00000693  # addi x13, x0, 0
    .word 0x00000713  # addi x14, x0, 0
    .word 0x00000793  # addi x15, x0, 0
    .word 0x00000813  # addi x16, x0, 0
    .word 0x00000893  # addi x17, x0, 0
    .word 0x00000e13  # addi x28, x0, 0
    .word 0x00000e93  # addi x29, x0, 0
    .word 0x00000f13  # addi x30, x0, 0
    .word 0x00000f93  # addi x31, x0, 0
    # back
    .word 0x00008067  # jalr x0, 0(x1)
    # from x5 to x6 up to x7, and back
    .cfi_def_cfa 2, 304
    .cfi_offset 18, -16
    .word 0x0062ee33  # or x28, x5, x6
    .word 0x003e7e13  # andi x28, x28, 3
    .word 0x000e0e63  # beq x28, x0, 28
    .word 0x0002ce03  # lbu x28, 0(x5)
    .word 0x01c30023  # sb x28, 0(x6)
    .word 0x00128293  # addi x5, x5, 1
    .word 0x00130313  # addi x6, x6, 1
    .word 0xfe7298e3  # bne x5, x7, -16
    .word 0x0300006f  # jal x0, 48
    .word 0x0002ae03  # lw x28, 0(x5)
    .word 0x01c32023  # sw x28, 0(x6)
    .word 0x0042ae03  # lw x28, 4(x5)
    .word 0x01c32223  # sw x28, 4(x6)
    .word 0x0082ae03  # lw x28, 8(x5)
    .word 0x01c32423  # sw x28, 8(x6)
    .word 0x00c2ae03  # lw x28, 12(x5)
    .word 0x01c32623  # sw x28, 12(x6)
    .word 0x01028293  # addi x5, x5, 16
    .word 0x01030313  # addi x6, x6, 16
    .word 0xfc729ce3  # bne x5, x7, -40
    .word 0x000f0067  # jalr x0, 0(x30)
    .cfi_endproc
    .size tls_padding, . - tls_padding
    .option pop
