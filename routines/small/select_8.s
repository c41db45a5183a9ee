# select_8: made by factc 1.0.0 function; 61 words and 21 shared, 48 bytes of stack, profile 1
    .option push
    .option norvc
    .option norelax
    .cfi_sections .debug_frame
    .section .text.select_8, "ax", @progbits
    .p2align 2
    .globl select_8
    .type select_8, @function
select_8:
    .cfi_startproc
    # room above the frame
    .cfi_def_cfa_offset 0
    # the caller's registers
    # arguments that are needed behind the body
    # the frame's base
    .word 0xfd010113  # addi x2, x2, -48
    .cfi_def_cfa 2, 48
    # parameter 0: a word
    .word 0x00a12023  # sw x10, 0(x2)
    # parameter 1: an array
    .word 0x00058293  # addi x5, x11, 0
    .word 0x00410313  # addi x6, x2, 4
    .word 0x02028393  # addi x7, x5, 32
    .word 0x0002ae03  # lw x28, 0(x5)
    .word 0x01c32023  # sw x28, 0(x6)
    .word 0x00428293  # addi x5, x5, 4
    .word 0x00430313  # addi x6, x6, 4
    .word 0xfe7298e3  # bne x5, x7, -16
    # the body
    .word 0x00012503  # lw x10, 0(x2)
    .word 0x00157293  # andi x5, x10, 1
    .word 0xfff28593  # addi x11, x5, -1
    .word 0x0015b593  # sltiu x11, x11, 1
    .word 0x00812303  # lw x6, 8(x2)
    .word 0x00412383  # lw x7, 4(x2)
    .word 0x40b002b3  # sub x5, x0, x11
    .word 0x00734333  # xor x6, x6, x7
    .word 0x00537333  # and x6, x6, x5
    .word 0x0063c633  # xor x12, x7, x6
    .word 0x01012303  # lw x6, 16(x2)
    .word 0x00c12383  # lw x7, 12(x2)
    .word 0x40b002b3  # sub x5, x0, x11
    .word 0x00734333  # xor x6, x6, x7
    .word 0x00537333  # and x6, x6, x5
    .word 0x0063c6b3  # xor x13, x7, x6
    .word 0x01812303  # lw x6, 24(x2)
    .word 0x01412383  # lw x7, 20(x2)
    .word 0x40b002b3  # sub x5, x0, x11
    .word 0x00734333  # xor x6, x6, x7
    .word 0x00537333  # and x6, x6, x5
    .word 0x0063c733  # xor x14, x7, x6
    .word 0x02012303  # lw x6, 32(x2)
    .word 0x01c12383  # lw x7, 28(x2)
    .word 0x40b002b3  # sub x5, x0, x11
    .word 0x00734333  # xor x6, x6, x7
    .word 0x00537333  # and x6, x6, x5
    .word 0x0063c7b3  # xor x15, x7, x6
    .word 0x00257293  # andi x5, x10, 2
    .word 0xffe28593  # addi x11, x5, -2
    .word 0x0015b593  # sltiu x11, x11, 1
    .word 0x40b002b3  # sub x5, x0, x11
    .word 0x00c6c333  # xor x6, x13, x12
    .word 0x00537333  # and x6, x6, x5
    .word 0x00664633  # xor x12, x12, x6
    .word 0x40b002b3  # sub x5, x0, x11
    .word 0x00e7c333  # xor x6, x15, x14
    .word 0x00537333  # and x6, x6, x5
    .word 0x006746b3  # xor x13, x14, x6
    .word 0x00457293  # andi x5, x10, 4
    .word 0xffc28293  # addi x5, x5, -4
    .word 0x005032b3  # sltu x5, x0, x5
    .word 0xfff28293  # addi x5, x5, -1
    .word 0x00c6c333  # xor x6, x13, x12
    .word 0x00537333  # and x6, x6, x5
    .word 0x006642b3  # xor x5, x12, x6
    .word 0x02512223  # sw x5, 36(x2)
    # the result
    .word 0x02412503  # lw x10, 36(x2)
    # above the frame
    .word 0x03010293  # addi x5, x2, 48
    # the caller's registers
    # the caller's x2
    .word 0x00028293  # addi x5, x5, 0
    .cfi_def_cfa 5, 0
    # on to the tail that functions share
    jal x0, factc.tail.1
    .cfi_endproc
    .size select_8, . - select_8
    .section .text.factc.tail.1, "axG", @progbits, factc.tail.1, comdat
    .p2align 2
    .globl factc.tail.1
    .hidden factc.tail.1
    .type factc.tail.1, @function
factc.tail.1:
    .cfi_startproc
    .cfi_def_cfa 5, 0
    # all the room, wiped upward
    .word 0x00012023  # sw x0, 0(x2)
    .word 0x00012223  # sw x0, 4(x2)
    .word 0x00012423  # sw x0, 8(x2)
    .word 0x00012623  # sw x0, 12(x2)
    .word 0x01010113  # addi x2, x2, 16
    .word 0xfe5116e3  # bne x2, x5, -20
    .cfi_def_cfa 2, 0
    # temporaries, wiped
    .word 0x00000293  # addi x5, x0, 0
    .word 0x00000313  # addi x6, x0, 0
    .word 0x00000393  # addi x7, x0, 0
    .word 0x00000593  # addi x11, x0, 0
    .word 0x00000613  # addi x12, x0, 0
    .word 0x00000693  # addi x13, x0, 0
    .word 0x00000713  # addi x14, x0, 0
    .word 0x00000793  # addi x15, x0, 0
    .word 0x00000813  # addi x16, x0, 0
    .word 0x00000893  # addi x17, x0, 0
    .word 0x00000e13  # addi x28, x0, 0
    .word 0x00000e93  # addi x29, x0, 0
    .word 0x00000f13  # addi x30, x0, 0
    .word 0x00000f93  # addi x31, x0, 0
    # back
    .word 0x00008067  # jalr x0, 0(x1)
    .cfi_endproc
    .size factc.tail.1, . - factc.tail.1
    .option pop
