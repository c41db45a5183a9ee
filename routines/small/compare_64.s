# compare_64: made by factc 1.0.0 function; 52 words and 21 shared, 48 bytes of stack, profile 1
    .option push
    .option norvc
    .option norelax
    .cfi_sections .debug_frame
    .section .text.compare_64, "ax", @progbits
    .p2align 2
    .globl compare_64
    .type compare_64, @function
compare_64:
    .cfi_startproc
    # room above the frame
    .word 0xff010113  # addi x2, x2, -16
    .cfi_def_cfa_offset 16
    # the caller's registers
    .word 0x00812023  # sw x8, 0(x2)
    .cfi_offset 8, -16
    # arguments that are needed behind the body
    # the frame's base
    .word 0xfe010113  # addi x2, x2, -32
    .cfi_def_cfa 2, 48
    # parameter 0: an array
    .word 0x00050293  # addi x5, x10, 0
    .word 0x00010313  # addi x6, x2, 0
    .word 0x0002ae03  # lw x28, 0(x5)
    .word 0x01c32023  # sw x28, 0(x6)
    .word 0x0042ae03  # lw x28, 4(x5)
    .word 0x01c32223  # sw x28, 4(x6)
    # parameter 1: an array
    .word 0x00058293  # addi x5, x11, 0
    .word 0x00810313  # addi x6, x2, 8
    .word 0x0002ae03  # lw x28, 0(x5)
    .word 0x01c32023  # sw x28, 0(x6)
    .word 0x0042ae03  # lw x28, 4(x5)
    .word 0x01c32223  # sw x28, 4(x6)
    # the body
    .word 0x00412283  # lw x5, 4(x2)
    .word 0x00c12303  # lw x6, 12(x2)
    .word 0x0062b2b3  # sltu x5, x5, x6
    .word 0x00412303  # lw x6, 4(x2)
    .word 0x00c12383  # lw x7, 12(x2)
    .word 0x40730333  # sub x6, x6, x7
    .word 0x00133313  # sltiu x6, x6, 1
    .word 0x00012383  # lw x7, 0(x2)
    .word 0x00812403  # lw x8, 8(x2)
    .word 0x0083b3b3  # sltu x7, x7, x8
    .word 0x00737333  # and x6, x6, x7
    .word 0x0062e533  # or x10, x5, x6
    .word 0x00c12283  # lw x5, 12(x2)
    .word 0x00412303  # lw x6, 4(x2)
    .word 0x0062b2b3  # sltu x5, x5, x6
    .word 0x00412303  # lw x6, 4(x2)
    .word 0x00c12383  # lw x7, 12(x2)
    .word 0x40730333  # sub x6, x6, x7
    .word 0x00133313  # sltiu x6, x6, 1
    .word 0x00812383  # lw x7, 8(x2)
    .word 0x00012403  # lw x8, 0(x2)
    .word 0x0083b3b3  # sltu x7, x7, x8
    .word 0x00737333  # and x6, x6, x7
    .word 0x0062e5b3  # or x11, x5, x6
    .word 0x0ff57293  # andi x5, x10, 255
    .word 0x0ff5f313  # andi x6, x11, 255
    .word 0x006282b3  # add x5, x5, x6
    .word 0x0ff2f293  # andi x5, x5, 255
    .word 0x0ff5f313  # andi x6, x11, 255
    .word 0x006282b3  # add x5, x5, x6
    .word 0x0ff2f293  # andi x5, x5, 255
    .word 0x00512823  # sw x5, 16(x2)
    # the result
    .word 0x01012503  # lw x10, 16(x2)
    # above the frame
    .word 0x02010293  # addi x5, x2, 32
    # the caller's registers
    .word 0x0002a403  # lw x8, 0(x5)
    .cfi_restore 8
    # the caller's x2
    .word 0x01028293  # addi x5, x5, 16
    .cfi_def_cfa 5, 0
    # on to the tail that functions share
    jal x0, factc.tail.1
    .cfi_endproc
    .size compare_64, . - compare_64
    .section .text.factc.tail.1, "axG", @progbits, factc.tail.1, comdat
    .p2align 2
    .globl factc.tail.1
    .hidden factc.tail.1
    .type factc.tail.1, @function
factc.tail.1:
    .cfi_startproc
    .cfi_def_cfa 5, 0
    # all the room, wiped upward
    .word 0x00012023  # sw x0, 0(x2)
    .word 0x00012223  # sw x0, 4(x2)
    .word 0x00012423  # sw x0, 8(x2)
    .word 0x00012623  # sw x0, 12(x2)
    .word 0x01010113  # addi x2, x2, 16
    .word 0xfe5116e3  # bne x2, x5, -20
    .cfi_def_cfa 2, 0
    # temporaries, wiped
    .word 0x00000293  # addi x5, x0, 0
    .word 0x00000313  # addi x6, x0, 0
    .word 0x00000393  # addi x7, x0, 0
    .word 0x00000593  # addi x11, x0, 0
    .word 0x00000613  # addi x12, x0, 0
    .word 0x00000693  # addi x13, x0, 0
    .word 0x00000713  # addi x14, x0, 0
    .word 0x00000793  # addi x15, x0, 0
    .word 0x00000813  # addi x16, x0, 0
    .word 0x00000893  # addi x17, x0, 0
    .word 0x00000e13  # addi x28, x0, 0
    .word 0x00000e93  # addi x29, x0, 0
    .word 0x00000f13  # addi x30, x0, 0
    .word 0x00000f93  # addi x31, x0, 0
    # back
    .word 0x00008067  # jalr x0, 0(x1)
    .cfi_endproc
    .size factc.tail.1, . - factc.tail.1
    .option pop
