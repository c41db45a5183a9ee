# sort_32: made by factc 1.0.0 function; 80 words and 21 shared, 192 bytes of stack, profile 1
    .option push
    .option norvc
    .option norelax
    .cfi_sections .debug_frame
    .section .text.sort_32, "ax", @progbits
    .p2align 2
    .globl sort_32
    .type sort_32, @function
sort_32:
    .cfi_startproc
    # room above the frame
    .word 0xfe010113  # addi x2, x2, -32
    .cfi_def_cfa_offset 32
    # the caller's registers
    .word 0x01212023  # sw x18, 0(x2)
    .cfi_offset 18, -32
    .word 0x01312223  # sw x19, 4(x2)
    .cfi_offset 19, -28
    .word 0x01412423  # sw x20, 8(x2)
    .cfi_offset 20, -24
    .word 0x01512623  # sw x21, 12(x2)
    .cfi_offset 21, -20
    .word 0x01612823  # sw x22, 16(x2)
    .cfi_offset 22, -16
    .word 0x01712a23  # sw x23, 20(x2)
    .cfi_offset 23, -12
    # arguments that are needed behind the body
    .word 0x00a12e23  # sw x10, 28(x2)
    # the frame's base
    .word 0xf6010113  # addi x2, x2, -160
    .cfi_def_cfa 2, 192
    # parameter 0: an array
    .word 0x00050293  # addi x5, x10, 0
    .word 0x00010313  # addi x6, x2, 0
    .word 0x08028393  # addi x7, x5, 128
    .word 0x0002ae03  # lw x28, 0(x5)
    .word 0x01c32023  # sw x28, 0(x6)
    .word 0x00428293  # addi x5, x5, 4
    .word 0x00430313  # addi x6, x6, 4
    .word 0xfe7298e3  # bne x5, x7, -16
    # the body
    .word 0x00100513  # addi x10, x0, 1
    .word 0x00000593  # addi x11, x0, 0
    .word 0x00000613  # addi x12, x0, 0
    .word 0x00160613  # addi x12, x12, 1
    .word 0x00100293  # addi x5, x0, 1
    .word 0x00b296b3  # sll x13, x5, x11
    .word 0xfff00713  # addi x14, x0, -1
    .word 0x00170713  # addi x14, x14, 1
    .word 0x00b752b3  # srl x5, x14, x11
    .word 0x00158313  # addi x6, x11, 1
    .word 0x006292b3  # sll x5, x5, x6
    .word 0xfff68393  # addi x7, x13, -1
    .word 0x00777333  # and x6, x14, x7
    .word 0x0062e2b3  # or x5, x5, x6
    .word 0x01f2f793  # andi x15, x5, 31
    .word 0x00279b13  # slli x22, x15, 2
    .word 0x002b0b33  # add x22, x22, x2
    .word 0x00d7e2b3  # or x5, x15, x13
    .word 0x01f2f813  # andi x16, x5, 31
    .word 0x00281b93  # slli x23, x16, 2
    .word 0x002b8bb3  # add x23, x23, x2
    .word 0x00a7d2b3  # srl x5, x15, x10
    .word 0x0012f893  # andi x17, x5, 1
    .word 0x000b2903  # lw x18, 0(x22)
    .word 0x000ba983  # lw x19, 0(x23)
    .word 0x013942b3  # xor x5, x18, x19
    .word 0x0129b333  # sltu x6, x19, x18
    .word 0x01134333  # xor x6, x6, x17
    .word 0x40600333  # sub x6, x0, x6
    .word 0x0062fa33  # and x20, x5, x6
    .word 0x014942b3  # xor x5, x18, x20
    .word 0x005b2023  # sw x5, 0(x22)
    .word 0x0149c2b3  # xor x5, x19, x20
    .word 0x005ba023  # sw x5, 0(x23)
    .word 0xff170293  # addi x5, x14, -15
    .word 0xf80298e3  # bne x5, x0, -112
    .word 0x0015ba93  # sltiu x21, x11, 1
    .word 0xfff58393  # addi x7, x11, -1
    .word 0x415002b3  # sub x5, x0, x21
    .word 0x00754333  # xor x6, x10, x7
    .word 0x00537333  # and x6, x6, x5
    .word 0x0063c5b3  # xor x11, x7, x6
    .word 0x01550533  # add x10, x10, x21
    .word 0xff160293  # addi x5, x12, -15
    .word 0xf4029ee3  # bne x5, x0, -164
    # the result
    .word 0x00000513  # addi x10, x0, 0
    # parameter 0: the array, back
    .word 0x00010293  # addi x5, x2, 0
    .word 0x0bc12303  # lw x6, 188(x2)
    .word 0x08028393  # addi x7, x5, 128
    .word 0x0002ae03  # lw x28, 0(x5)
    .word 0x01c32023  # sw x28, 0(x6)
    .word 0x00428293  # addi x5, x5, 4
    .word 0x00430313  # addi x6, x6, 4
    .word 0xfe7298e3  # bne x5, x7, -16
    # above the frame
    .word 0x0a010293  # addi x5, x2, 160
    # the caller's registers
    .word 0x0002a903  # lw x18, 0(x5)
    .cfi_restore 18
    .word 0x0042a983  # lw x19, 4(x5)
    .cfi_restore 19
    .word 0x0082aa03  # lw x20, 8(x5)
    .cfi_restore 20
    .word 0x00c2aa83  # lw x21, 12(x5)
    .cfi_restore 21
    .word 0x0102ab03  # lw x22, 16(x5)
    .cfi_restore 22
    .word 0x0142ab83  # lw x23, 20(x5)
    .cfi_restore 23
    # the caller's x2
    .word 0x02028293  # addi x5, x5, 32
    .cfi_def_cfa 5, 0
    # on to the tail that functions share
    jal x0, factc.tail.1
    .cfi_endproc
    .size sort_32, . - sort_32
    .section .text.factc.tail.1, "axG", @progbits, factc.tail.1, comdat
    .p2align 2
    .globl factc.tail.1
    .hidden factc.tail.1
    .type factc.tail.1, @function
factc.tail.1:
    .cfi_startproc
    .cfi_def_cfa 5, 0
    # all the room, wiped upward
    .word 0x00012023  # sw x0, 0(x2)
    .word 0x00012223  # sw x0, 4(x2)
    .word 0x00012423  # sw x0, 8(x2)
    .word 0x00012623  # sw x0, 12(x2)
    .word 0x01010113  # addi x2, x2, 16
    .word 0xfe5116e3  # bne x2, x5, -20
    .cfi_def_cfa 2, 0
    # temporaries, wiped
    .word 0x00000293  # addi x5, x0, 0
    .word 0x00000313  # addi x6, x0, 0
    .word 0x00000393  # addi x7, x0, 0
    .word 0x00000593  # addi x11, x0, 0
    .word 0x00000613  # addi x12, x0, 0
    .word 0x00000693  # addi x13, x0, 0
    .word 0x00000713  # addi x14, x0, 0
    .word 0x00000793  # addi x15, x0, 0
    .word 0x00000813  # addi x16, x0, 0
    .word 0x00000893  # addi x17, x0, 0
    .word 0x00000e13  # addi x28, x0, 0
    .word 0x00000e93  # addi x29, x0, 0
    .word 0x00000f13  # addi x30, x0, 0
    .word 0x00000f93  # addi x31, x0, 0
    # back
    .word 0x00008067  # jalr x0, 0(x1)
    .cfi_endproc
    .size factc.tail.1, . - factc.tail.1
    .option pop
