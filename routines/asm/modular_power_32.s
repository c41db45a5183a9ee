# modular_power_32: made by factc 1.0.0 function; 101 words, 64 bytes of stack, profile 1
    .option push
    .option norvc
    .option norelax
    .cfi_sections .debug_frame
    .section .text.modular_power_32, "ax", @progbits
    .p2align 2
    .globl modular_power_32
    .type modular_power_32, @function
modular_power_32:
    .cfi_startproc
    # room above the frame
    .word 0xff010113  # addi x2, x2, -16
    .cfi_def_cfa_offset 16
    # the caller's registers
    .word 0x01212023  # sw x18, 0(x2)
    .cfi_offset 18, -16
    .word 0x01312223  # sw x19, 4(x2)
    .cfi_offset 19, -12
    # arguments that are needed behind the body
    # the frame's base
    .word 0xfd010113  # addi x2, x2, -48
    .cfi_def_cfa 2, 64
    # the frame's word at 16, zeroed
    .word 0x00012823  # sw x0, 16(x2)
    # the frame's word at 20, zeroed
    .word 0x00012a23  # sw x0, 20(x2)
    # parameter 0: a word
    .word 0x00a12023  # sw x10, 0(x2)
    # parameter 1: a word
    .word 0x00b12223  # sw x11, 4(x2)
    # parameter 2: a word
    .word 0x00c12423  # sw x12, 8(x2)
    # the body
    .word 0x00012503  # lw x10, 0(x2)
    .word 0x00412583  # lw x11, 4(x2)
    .word 0x00812603  # lw x12, 8(x2)
    .word 0x01012983  # lw x19, 16(x2)
    .word 0xfff60293  # addi x5, x12, -1
    .word 0x005032b3  # sltu x5, x0, x5
    .word 0x00000313  # addi x6, x0, 0
    .word 0x00100393  # addi x7, x0, 1
    .word 0xfff28293  # addi x5, x5, -1
    .word 0x00734333  # xor x6, x6, x7
    .word 0x00537333  # and x6, x6, x5
    .word 0x0063c6b3  # xor x13, x7, x6
    .word 0xfff00713  # addi x14, x0, -1
    .word 0x00170713  # addi x14, x14, 1
    .word 0x00000793  # addi x15, x0, 0
    .word 0x00068893  # addi x17, x13, 0
    .word 0xfff00813  # addi x16, x0, -1
    .word 0x00180813  # addi x16, x16, 1
    .word 0x00179793  # slli x15, x15, 1
    .word 0x00c7b3b3  # sltu x7, x15, x12
    .word 0xfff38393  # addi x7, x7, -1
    .word 0x00767333  # and x6, x12, x7
    .word 0x406787b3  # sub x15, x15, x6
    .word 0x41f8d393  # srai x7, x17, 31
    .word 0x0076f333  # and x6, x13, x7
    .word 0x006787b3  # add x15, x15, x6
    .word 0x00c7b3b3  # sltu x7, x15, x12
    .word 0xfff38393  # addi x7, x7, -1
    .word 0x00767333  # and x6, x12, x7
    .word 0x406787b3  # sub x15, x15, x6
    .word 0x00189893  # slli x17, x17, 1
    .word 0xfe180293  # addi x5, x16, -31
    .word 0xfc0292e3  # bne x5, x0, -60
    .word 0x00078693  # addi x13, x15, 0
    .word 0x00000893  # addi x17, x0, 0
    .word 0x00050913  # addi x18, x10, 0
    .word 0xfff00813  # addi x16, x0, -1
    .word 0x00180813  # addi x16, x16, 1
    .word 0x00189893  # slli x17, x17, 1
    .word 0x00c8b3b3  # sltu x7, x17, x12
    .word 0xfff38393  # addi x7, x7, -1
    .word 0x00767333  # and x6, x12, x7
    .word 0x406888b3  # sub x17, x17, x6
    .word 0x41f95393  # srai x7, x18, 31
    .word 0x0077f333  # and x6, x15, x7
    .word 0x006888b3  # add x17, x17, x6
    .word 0x00c8b3b3  # sltu x7, x17, x12
    .word 0xfff38393  # addi x7, x7, -1
    .word 0x00767333  # and x6, x12, x7
    .word 0x406888b3  # sub x17, x17, x6
    .word 0x00191913  # slli x18, x18, 1
    .word 0xfe180293  # addi x5, x16, -31
    .word 0xfc0292e3  # bne x5, x0, -60
    .word 0x01f00313  # addi x6, x0, 31
    .word 0x40e30333  # sub x6, x6, x14
    .word 0x0065d2b3  # srl x5, x11, x6
    .word 0x0012f293  # andi x5, x5, 1
    .word 0xfff28293  # addi x5, x5, -1
    .word 0x0012b293  # sltiu x5, x5, 1
    .word 0x405009b3  # sub x19, x0, x5
    .word 0x00d8c2b3  # xor x5, x17, x13
    .word 0x0132f2b3  # and x5, x5, x19
    .word 0x0056c6b3  # xor x13, x13, x5
    .word 0xfe170293  # addi x5, x14, -31
    .word 0xf2029ae3  # bne x5, x0, -204
    .word 0x00d12623  # sw x13, 12(x2)
    # the result
    .word 0x00c12503  # lw x10, 12(x2)
    # above the frame
    .word 0x03010293  # addi x5, x2, 48
    # the caller's registers
    .word 0x0002a903  # lw x18, 0(x5)
    .cfi_restore 18
    .word 0x0042a983  # lw x19, 4(x5)
    .cfi_restore 19
    # the caller's x2
    .word 0x01028293  # addi x5, x5, 16
    .cfi_def_cfa 5, 0
    # all the room, wiped upward
    .word 0x00012023  # sw x0, 0(x2)
    .word 0x00012223  # sw x0, 4(x2)
    .word 0x00012423  # sw x0, 8(x2)
    .word 0x00012623  # sw x0, 12(x2)
    .word 0x01010113  # addi x2, x2, 16
    .word 0xfe5116e3  # bne x2, x5, -20
    .cfi_def_cfa 2, 0
    # temporaries, wiped
    .word 0x00000293  # addi x5, x0, 0
    .word 0x00000313  # addi x6, x0, 0
    .word 0x00000393  # addi x7, x0, 0
    .word 0x00000593  # addi x11, x0, 0
    .word 0x00000613  # addi x12, x0, 0
    .word 0x00000693  # addi x13, x0, 0
    .word 0x00000713  # addi x14, x0, 0
    .word 0x00000793  # addi x15, x0, 0
    .word 0x00000813  # addi x16, x0, 0
    .word 0x00000893  # addi x17, x0, 0
    .word 0x00000e13  # addi x28, x0, 0
    .word 0x00000e93  # addi x29, x0, 0
    .word 0x00000f13  # addi x30, x0, 0
    .word 0x00000f93  # addi x31, x0, 0
    # back
    .word 0x00008067  # jalr x0, 0(x1)
    .cfi_endproc
    .size modular_power_32, . - modular_power_32
    .option pop
