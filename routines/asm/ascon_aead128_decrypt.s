# ascon_aead128_decrypt: made by factc 1.0.0 function; 899 words, 352 bytes of stack, profile 1
    .option push
    .option norvc
    .option norelax
    .cfi_sections .debug_frame
    .section .text.ascon_aead128_decrypt, "ax", @progbits
    .p2align 2
    .globl ascon_aead128_decrypt
    .type ascon_aead128_decrypt, @function
ascon_aead128_decrypt:
    .cfi_startproc
    # room above the frame
    .word 0xfb010113  # addi x2, x2, -80
    .cfi_def_cfa_offset 80
    # the caller's registers
    .word 0x00812023  # sw x8, 0(x2)
    .cfi_offset 8, -80
    .word 0x00912223  # sw x9, 4(x2)
    .cfi_offset 9, -76
    .word 0x01212423  # sw x18, 8(x2)
    .cfi_offset 18, -72
    .word 0x01312623  # sw x19, 12(x2)
    .cfi_offset 19, -68
    .word 0x01412823  # sw x20, 16(x2)
    .cfi_offset 20, -64
    .word 0x01512a23  # sw x21, 20(x2)
    .cfi_offset 21, -60
    .word 0x01612c23  # sw x22, 24(x2)
    .cfi_offset 22, -56
    .word 0x01712e23  # sw x23, 28(x2)
    .cfi_offset 23, -52
    .word 0x03812023  # sw x24, 32(x2)
    .cfi_offset 24, -48
    .word 0x03912223  # sw x25, 36(x2)
    .cfi_offset 25, -44
    .word 0x03a12423  # sw x26, 40(x2)
    .cfi_offset 26, -40
    .word 0x03b12623  # sw x27, 44(x2)
    .cfi_offset 27, -36
    # arguments that are needed behind the body
    .word 0x02a12e23  # sw x10, 60(x2)
    .word 0x04b12023  # sw x11, 64(x2)
    .word 0x04c12223  # sw x12, 68(x2)
    .word 0x04d12423  # sw x13, 72(x2)
    .word 0x04e12623  # sw x14, 76(x2)
    # the frame's base
    .word 0xef010113  # addi x2, x2, -272
    .cfi_def_cfa 2, 352
    # the frame's word at 204, zeroed
    .word 0x0c012623  # sw x0, 204(x2)
    # parameter 0: an array
    .word 0x00050293  # addi x5, x10, 0
    .word 0x00010313  # addi x6, x2, 0
    .word 0x01028393  # addi x7, x5, 16
    .word 0x55d00f6f  # jal x30, 3420
    # parameter 1: an array
    .word 0x00058293  # addi x5, x11, 0
    .word 0x01010313  # addi x6, x2, 16
    .word 0x01028393  # addi x7, x5, 16
    .word 0x54d00f6f  # jal x30, 3404
    # parameter 2: an array
    .word 0x00060293  # addi x5, x12, 0
    .word 0x02010313  # addi x6, x2, 32
    .word 0x04028393  # addi x7, x5, 64
    .word 0x53d00f6f  # jal x30, 3388
    # parameter 3: a word
    .word 0x06d12023  # sw x13, 96(x2)
    # parameter 4: an array
    .word 0x00070293  # addi x5, x14, 0
    .word 0x06410313  # addi x6, x2, 100
    .word 0x04028393  # addi x7, x5, 64
    .word 0x52900f6f  # jal x30, 3368
    # parameter 5: a word
    .word 0x0af12223  # sw x15, 164(x2)
    # parameter 6: an array
    .word 0x00080293  # addi x5, x16, 0
    .word 0x0a810313  # addi x6, x2, 168
    .word 0x01028393  # addi x7, x5, 16
    .word 0x51500f6f  # jal x30, 3348
    # the body
    .word 0x800002b7  # lui x5, 0x80000
    .word 0x00028293  # addi x5, x5, 0
    .word 0x0e512223  # sw x5, 228(x2)
    .word 0x000102b7  # lui x5, 0x00010
    .word 0x00028293  # addi x5, x5, 0
    .word 0x0e512423  # sw x5, 232(x2)
    .word 0x010002b7  # lui x5, 0x01000
    .word 0x00028293  # addi x5, x5, 0
    .word 0x0e512623  # sw x5, 236(x2)
    .word 0x0a412283  # lw x5, 164(x2)
    .word 0x0402b293  # sltiu x5, x5, 64
    .word 0x0a412303  # lw x6, 164(x2)
    .word 0x04000393  # addi x7, x0, 64
    .word 0x405002b3  # sub x5, x0, x5
    .word 0x00734333  # xor x6, x6, x7
    .word 0x00537333  # and x6, x6, x5
    .word 0x0063c2b3  # xor x5, x7, x6
    .word 0x04100313  # addi x6, x0, 65
    .word 0x0262f533  # remu x10, x5, x6
    .word 0x06012283  # lw x5, 96(x2)
    .word 0x0402b293  # sltiu x5, x5, 64
    .word 0x06012303  # lw x6, 96(x2)
    .word 0x04000393  # addi x7, x0, 64
    .word 0x405002b3  # sub x5, x0, x5
    .word 0x00734333  # xor x6, x6, x7
    .word 0x00537333  # and x6, x6, x5
    .word 0x0063c5b3  # xor x11, x7, x6
    .word 0x00001937  # lui x18, 0x00001
    .word 0x00090913  # addi x18, x18, 0
    .word 0x808c0c37  # lui x24, 0x808c0
    .word 0x001c0c13  # addi x24, x24, 1
    .word 0x00412283  # lw x5, 4(x2)
    .word 0x0c512a23  # sw x5, 212(x2)
    .word 0x0d412983  # lw x19, 212(x2)
    .word 0x01412d83  # lw x27, 20(x2)
    .word 0x00012283  # lw x5, 0(x2)
    .word 0x0c512c23  # sw x5, 216(x2)
    .word 0x0d812a03  # lw x20, 216(x2)
    .word 0x01012b83  # lw x23, 16(x2)
    .word 0x00c12283  # lw x5, 12(x2)
    .word 0x0c512e23  # sw x5, 220(x2)
    .word 0x0dc12803  # lw x16, 220(x2)
    .word 0x01c12a83  # lw x21, 28(x2)
    .word 0x00812283  # lw x5, 8(x2)
    .word 0x0e512023  # sw x5, 224(x2)
    .word 0x0e012283  # lw x5, 224(x2)
    .word 0x0c512223  # sw x5, 196(x2)
    .word 0x01812d03  # lw x26, 24(x2)
    .word 0x0015b293  # sltiu x5, x11, 1
    .word 0x00000313  # addi x6, x0, 0
    .word 0x0045d393  # srli x7, x11, 4
    .word 0x00138393  # addi x7, x7, 1
    .word 0x405002b3  # sub x5, x0, x5
    .word 0x00734333  # xor x6, x6, x7
    .word 0x00537333  # and x6, x6, x5
    .word 0x0063c2b3  # xor x5, x7, x6
    .word 0x0a512c23  # sw x5, 184(x2)
    .word 0x0b812283  # lw x5, 184(x2)
    .word 0x00455313  # srli x6, x10, 4
    .word 0x006282b3  # add x5, x5, x6
    .word 0x00128293  # addi x5, x5, 1
    .word 0x0c512023  # sw x5, 192(x2)
    .word 0xfff00613  # addi x12, x0, -1
    .word 0x00160613  # addi x12, x12, 1
    .word 0x0b812303  # lw x6, 184(x2)
    .word 0x00c332b3  # sltu x5, x6, x12
    .word 0xfff60313  # addi x6, x12, -1
    .word 0xfff60393  # addi x7, x12, -1
    .word 0x0b812403  # lw x8, 184(x2)
    .word 0x408383b3  # sub x7, x7, x8
    .word 0xfff28293  # addi x5, x5, -1
    .word 0x00734333  # xor x6, x6, x7
    .word 0x00537333  # and x6, x6, x5
    .word 0x0063c2b3  # xor x5, x7, x6
    .word 0x0072f293  # andi x5, x5, 7
    .word 0x0a512e23  # sw x5, 188(x2)
    .word 0x0b812303  # lw x6, 184(x2)
    .word 0x00130313  # addi x6, x6, 1
    .word 0x00661663  # bne x12, x6, 12
    .word 0x0e412303  # lw x6, 228(x2)
    .word 0x006acab3  # xor x21, x21, x6
    .word 0x00c032b3  # sltu x5, x0, x12
    .word 0x0c012383  # lw x7, 192(x2)
    .word 0x00c3b333  # sltu x6, x7, x12
    .word 0x00133313  # sltiu x6, x6, 1
    .word 0x0062f2b3  # and x5, x5, x6
    .word 0x76028063  # beq x5, x0, 1888
    .word 0x0bc12283  # lw x5, 188(x2)
    .word 0x00429693  # slli x13, x5, 4
    .word 0x002684b3  # add x9, x13, x2
    .word 0x0b812303  # lw x6, 184(x2)
    .word 0x02c36663  # bltu x6, x12, 44
    .word 0x00000713  # addi x14, x0, 0
    .word 0x00b6b2b3  # sltu x5, x13, x11
    .word 0x0406b313  # sltiu x6, x13, 64
    .word 0x0062f2b3  # and x5, x5, x6
    .word 0x00028463  # beq x5, x0, 8
    .word 0x0204c703  # lbu x14, 32(x9)
    .word 0x00b69463  # bne x13, x11, 8
    .word 0x00100713  # addi x14, x0, 1
    .word 0x00ec4c33  # xor x24, x24, x14
    .word 0x0300006f  # jal x0, 48
    .word 0x00a6b2b3  # sltu x5, x13, x10
    .word 0x0406b313  # sltiu x6, x13, 64
    .word 0x0062f2b3  # and x5, x5, x6
    .word 0x00028c63  # beq x5, x0, 24
    .word 0x0ffc7293  # andi x5, x24, 255
    .word 0x0644c303  # lbu x6, 100(x9)
    .word 0x0062c8b3  # xor x17, x5, x6
    .word 0x011c4c33  # xor x24, x24, x17
    .word 0x07148223  # sb x17, 100(x9)
    .word 0x00a69463  # bne x13, x10, 8
    .word 0x001c4c13  # xori x24, x24, 1
    .word 0x0bc12283  # lw x5, 188(x2)
    .word 0x00429293  # slli x5, x5, 4
    .word 0x00128693  # addi x13, x5, 1
    .word 0x002684b3  # add x9, x13, x2
    .word 0x0b812303  # lw x6, 184(x2)
    .word 0x02c36863  # bltu x6, x12, 48
    .word 0x00000713  # addi x14, x0, 0
    .word 0x00b6b2b3  # sltu x5, x13, x11
    .word 0x0406b313  # sltiu x6, x13, 64
    .word 0x0062f2b3  # and x5, x5, x6
    .word 0x00028463  # beq x5, x0, 8
    .word 0x0204c703  # lbu x14, 32(x9)
    .word 0x00b69463  # bne x13, x11, 8
    .word 0x00100713  # addi x14, x0, 1
    .word 0x00871313  # slli x6, x14, 8
    .word 0x006c4c33  # xor x24, x24, x6
    .word 0x0380006f  # jal x0, 56
    .word 0x00a6b2b3  # sltu x5, x13, x10
    .word 0x0406b313  # sltiu x6, x13, 64
    .word 0x0062f2b3  # and x5, x5, x6
    .word 0x02028063  # beq x5, x0, 32
    .word 0x008c5293  # srli x5, x24, 8
    .word 0x0ff2f293  # andi x5, x5, 255
    .word 0x0644c303  # lbu x6, 100(x9)
    .word 0x0062c8b3  # xor x17, x5, x6
    .word 0x00889313  # slli x6, x17, 8
    .word 0x006c4c33  # xor x24, x24, x6
    .word 0x07148223  # sb x17, 100(x9)
    .word 0x00a69463  # bne x13, x10, 8
    .word 0x100c4c13  # xori x24, x24, 256
    .word 0x0bc12283  # lw x5, 188(x2)
    .word 0x00429293  # slli x5, x5, 4
    .word 0x00228693  # addi x13, x5, 2
    .word 0x002684b3  # add x9, x13, x2
    .word 0x0b812303  # lw x6, 184(x2)
    .word 0x02c36863  # bltu x6, x12, 48
    .word 0x00000713  # addi x14, x0, 0
    .word 0x00b6b2b3  # sltu x5, x13, x11
    .word 0x0406b313  # sltiu x6, x13, 64
    .word 0x0062f2b3  # and x5, x5, x6
    .word 0x00028463  # beq x5, x0, 8
    .word 0x0204c703  # lbu x14, 32(x9)
    .word 0x00b69463  # bne x13, x11, 8
    .word 0x00100713  # addi x14, x0, 1
    .word 0x01071313  # slli x6, x14, 16
    .word 0x006c4c33  # xor x24, x24, x6
    .word 0x03c0006f  # jal x0, 60
    .word 0x00a6b2b3  # sltu x5, x13, x10
    .word 0x0406b313  # sltiu x6, x13, 64
    .word 0x0062f2b3  # and x5, x5, x6
    .word 0x02028063  # beq x5, x0, 32
    .word 0x010c5293  # srli x5, x24, 16
    .word 0x0ff2f293  # andi x5, x5, 255
    .word 0x0644c303  # lbu x6, 100(x9)
    .word 0x0062c8b3  # xor x17, x5, x6
    .word 0x01089313  # slli x6, x17, 16
    .word 0x006c4c33  # xor x24, x24, x6
    .word 0x07148223  # sb x17, 100(x9)
    .word 0x00a69663  # bne x13, x10, 12
    .word 0x0e812303  # lw x6, 232(x2)
    .word 0x006c4c33  # xor x24, x24, x6
    .word 0x0bc12283  # lw x5, 188(x2)
    .word 0x00429293  # slli x5, x5, 4
    .word 0x00328693  # addi x13, x5, 3
    .word 0x002684b3  # add x9, x13, x2
    .word 0x0b812303  # lw x6, 184(x2)
    .word 0x02c36863  # bltu x6, x12, 48
    .word 0x00000713  # addi x14, x0, 0
    .word 0x00b6b2b3  # sltu x5, x13, x11
    .word 0x0406b313  # sltiu x6, x13, 64
    .word 0x0062f2b3  # and x5, x5, x6
    .word 0x00028463  # beq x5, x0, 8
    .word 0x0204c703  # lbu x14, 32(x9)
    .word 0x00b69463  # bne x13, x11, 8
    .word 0x00100713  # addi x14, x0, 1
    .word 0x01871313  # slli x6, x14, 24
    .word 0x006c4c33  # xor x24, x24, x6
    .word 0x0380006f  # jal x0, 56
    .word 0x00a6b2b3  # sltu x5, x13, x10
    .word 0x0406b313  # sltiu x6, x13, 64
    .word 0x0062f2b3  # and x5, x5, x6
    .word 0x00028e63  # beq x5, x0, 28
    .word 0x018c5293  # srli x5, x24, 24
    .word 0x0644c303  # lbu x6, 100(x9)
    .word 0x0062c8b3  # xor x17, x5, x6
    .word 0x01889313  # slli x6, x17, 24
    .word 0x006c4c33  # xor x24, x24, x6
    .word 0x07148223  # sb x17, 100(x9)
    .word 0x00a69663  # bne x13, x10, 12
    .word 0x0ec12303  # lw x6, 236(x2)
    .word 0x006c4c33  # xor x24, x24, x6
    .word 0x0bc12283  # lw x5, 188(x2)
    .word 0x00429293  # slli x5, x5, 4
    .word 0x00428693  # addi x13, x5, 4
    .word 0x002684b3  # add x9, x13, x2
    .word 0x0b812303  # lw x6, 184(x2)
    .word 0x02c36663  # bltu x6, x12, 44
    .word 0x00000713  # addi x14, x0, 0
    .word 0x00b6b2b3  # sltu x5, x13, x11
    .word 0x0406b313  # sltiu x6, x13, 64
    .word 0x0062f2b3  # and x5, x5, x6
    .word 0x00028463  # beq x5, x0, 8
    .word 0x0204c703  # lbu x14, 32(x9)
    .word 0x00b69463  # bne x13, x11, 8
    .word 0x00100713  # addi x14, x0, 1
    .word 0x00e94933  # xor x18, x18, x14
    .word 0x0300006f  # jal x0, 48
    .word 0x00a6b2b3  # sltu x5, x13, x10
    .word 0x0406b313  # sltiu x6, x13, 64
    .word 0x0062f2b3  # and x5, x5, x6
    .word 0x00028c63  # beq x5, x0, 24
    .word 0x0ff97293  # andi x5, x18, 255
    .word 0x0644c303  # lbu x6, 100(x9)
    .word 0x0062c8b3  # xor x17, x5, x6
    .word 0x01194933  # xor x18, x18, x17
    .word 0x07148223  # sb x17, 100(x9)
    .word 0x00a69463  # bne x13, x10, 8
    .word 0x00194913  # xori x18, x18, 1
    .word 0x0bc12283  # lw x5, 188(x2)
    .word 0x00429293  # slli x5, x5, 4
    .word 0x00528693  # addi x13, x5, 5
    .word 0x002684b3  # add x9, x13, x2
    .word 0x0b812303  # lw x6, 184(x2)
    .word 0x02c36863  # bltu x6, x12, 48
    .word 0x00000713  # addi x14, x0, 0
    .word 0x00b6b2b3  # sltu x5, x13, x11
    .word 0x0406b313  # sltiu x6, x13, 64
    .word 0x0062f2b3  # and x5, x5, x6
    .word 0x00028463  # beq x5, x0, 8
    .word 0x0204c703  # lbu x14, 32(x9)
    .word 0x00b69463  # bne x13, x11, 8
    .word 0x00100713  # addi x14, x0, 1
    .word 0x00871313  # slli x6, x14, 8
    .word 0x00694933  # xor x18, x18, x6
    .word 0x0380006f  # jal x0, 56
    .word 0x00a6b2b3  # sltu x5, x13, x10
    .word 0x0406b313  # sltiu x6, x13, 64
    .word 0x0062f2b3  # and x5, x5, x6
    .word 0x02028063  # beq x5, x0, 32
    .word 0x00895293  # srli x5, x18, 8
    .word 0x0ff2f293  # andi x5, x5, 255
    .word 0x0644c303  # lbu x6, 100(x9)
    .word 0x0062c8b3  # xor x17, x5, x6
    .word 0x00889313  # slli x6, x17, 8
    .word 0x00694933  # xor x18, x18, x6
    .word 0x07148223  # sb x17, 100(x9)
    .word 0x00a69463  # bne x13, x10, 8
    .word 0x10094913  # xori x18, x18, 256
    .word 0x0bc12283  # lw x5, 188(x2)
    .word 0x00429293  # slli x5, x5, 4
    .word 0x00628693  # addi x13, x5, 6
    .word 0x002684b3  # add x9, x13, x2
    .word 0x0b812303  # lw x6, 184(x2)
    .word 0x02c36863  # bltu x6, x12, 48
    .word 0x00000713  # addi x14, x0, 0
    .word 0x00b6b2b3  # sltu x5, x13, x11
    .word 0x0406b313  # sltiu x6, x13, 64
    .word 0x0062f2b3  # and x5, x5, x6
    .word 0x00028463  # beq x5, x0, 8
    .word 0x0204c703  # lbu x14, 32(x9)
    .word 0x00b69463  # bne x13, x11, 8
    .word 0x00100713  # addi x14, x0, 1
    .word 0x01071313  # slli x6, x14, 16
    .word 0x00694933  # xor x18, x18, x6
    .word 0x03c0006f  # jal x0, 60
    .word 0x00a6b2b3  # sltu x5, x13, x10
    .word 0x0406b313  # sltiu x6, x13, 64
    .word 0x0062f2b3  # and x5, x5, x6
    .word 0x02028063  # beq x5, x0, 32
    .word 0x01095293  # srli x5, x18, 16
    .word 0x0ff2f293  # andi x5, x5, 255
    .word 0x0644c303  # lbu x6, 100(x9)
    .word 0x0062c8b3  # xor x17, x5, x6
    .word 0x01089313  # slli x6, x17, 16
    .word 0x00694933  # xor x18, x18, x6
    .word 0x07148223  # sb x17, 100(x9)
    .word 0x00a69663  # bne x13, x10, 12
    .word 0x0e812303  # lw x6, 232(x2)
    .word 0x00694933  # xor x18, x18, x6
    .word 0x0bc12283  # lw x5, 188(x2)
    .word 0x00429293  # slli x5, x5, 4
    .word 0x00728693  # addi x13, x5, 7
    .word 0x002684b3  # add x9, x13, x2
    .word 0x0b812303  # lw x6, 184(x2)
    .word 0x02c36863  # bltu x6, x12, 48
    .word 0x00000713  # addi x14, x0, 0
    .word 0x00b6b2b3  # sltu x5, x13, x11
    .word 0x0406b313  # sltiu x6, x13, 64
    .word 0x0062f2b3  # and x5, x5, x6
    .word 0x00028463  # beq x5, x0, 8
    .word 0x0204c703  # lbu x14, 32(x9)
    .word 0x00b69463  # bne x13, x11, 8
    .word 0x00100713  # addi x14, x0, 1
    .word 0x01871313  # slli x6, x14, 24
    .word 0x00694933  # xor x18, x18, x6
    .word 0x0380006f  # jal x0, 56
    .word 0x00a6b2b3  # sltu x5, x13, x10
    .word 0x0406b313  # sltiu x6, x13, 64
    .word 0x0062f2b3  # and x5, x5, x6
    .word 0x00028e63  # beq x5, x0, 28
    .word 0x01895293  # srli x5, x18, 24
    .word 0x0644c303  # lbu x6, 100(x9)
    .word 0x0062c8b3  # xor x17, x5, x6
    .word 0x01889313  # slli x6, x17, 24
    .word 0x00694933  # xor x18, x18, x6
    .word 0x07148223  # sb x17, 100(x9)
    .word 0x00a69663  # bne x13, x10, 12
    .word 0x0ec12303  # lw x6, 236(x2)
    .word 0x00694933  # xor x18, x18, x6
    .word 0x0bc12283  # lw x5, 188(x2)
    .word 0x00429293  # slli x5, x5, 4
    .word 0x00828693  # addi x13, x5, 8
    .word 0x002684b3  # add x9, x13, x2
    .word 0x0b812303  # lw x6, 184(x2)
    .word 0x02c36663  # bltu x6, x12, 44
    .word 0x00000713  # addi x14, x0, 0
    .word 0x00b6b2b3  # sltu x5, x13, x11
    .word 0x0406b313  # sltiu x6, x13, 64
    .word 0x0062f2b3  # and x5, x5, x6
    .word 0x00028463  # beq x5, x0, 8
    .word 0x0204c703  # lbu x14, 32(x9)
    .word 0x00b69463  # bne x13, x11, 8
    .word 0x00100713  # addi x14, x0, 1
    .word 0x00ea4a33  # xor x20, x20, x14
    .word 0x0300006f  # jal x0, 48
    .word 0x00a6b2b3  # sltu x5, x13, x10
    .word 0x0406b313  # sltiu x6, x13, 64
    .word 0x0062f2b3  # and x5, x5, x6
    .word 0x00028c63  # beq x5, x0, 24
    .word 0x0ffa7293  # andi x5, x20, 255
    .word 0x0644c303  # lbu x6, 100(x9)
    .word 0x0062c8b3  # xor x17, x5, x6
    .word 0x011a4a33  # xor x20, x20, x17
    .word 0x07148223  # sb x17, 100(x9)
    .word 0x00a69463  # bne x13, x10, 8
    .word 0x001a4a13  # xori x20, x20, 1
    .word 0x0bc12283  # lw x5, 188(x2)
    .word 0x00429293  # slli x5, x5, 4
    .word 0x00928693  # addi x13, x5, 9
    .word 0x002684b3  # add x9, x13, x2
    .word 0x0b812303  # lw x6, 184(x2)
    .word 0x02c36863  # bltu x6, x12, 48
    .word 0x00000713  # addi x14, x0, 0
    .word 0x00b6b2b3  # sltu x5, x13, x11
    .word 0x0406b313  # sltiu x6, x13, 64
    .word 0x0062f2b3  # and x5, x5, x6
    .word 0x00028463  # beq x5, x0, 8
    .word 0x0204c703  # lbu x14, 32(x9)
    .word 0x00b69463  # bne x13, x11, 8
    .word 0x00100713  # addi x14, x0, 1
    .word 0x00871313  # slli x6, x14, 8
    .word 0x006a4a33  # xor x20, x20, x6
    .word 0x0380006f  # jal x0, 56
    .word 0x00a6b2b3  # sltu x5, x13, x10
    .word 0x0406b313  # sltiu x6, x13, 64
    .word 0x0062f2b3  # and x5, x5, x6
    .word 0x02028063  # beq x5, x0, 32
    .word 0x008a5293  # srli x5, x20, 8
    .word 0x0ff2f293  # andi x5, x5, 255
    .word 0x0644c303  # lbu x6, 100(x9)
    .word 0x0062c8b3  # xor x17, x5, x6
    .word 0x00889313  # slli x6, x17, 8
    .word 0x006a4a33  # xor x20, x20, x6
    .word 0x07148223  # sb x17, 100(x9)
    .word 0x00a69463  # bne x13, x10, 8
    .word 0x100a4a13  # xori x20, x20, 256
    .word 0x0bc12283  # lw x5, 188(x2)
    .word 0x00429293  # slli x5, x5, 4
    .word 0x00a28693  # addi x13, x5, 10
    .word 0x002684b3  # add x9, x13, x2
    .word 0x0b812303  # lw x6, 184(x2)
    .word 0x02c36863  # bltu x6, x12, 48
    .word 0x00000713  # addi x14, x0, 0
    .word 0x00b6b2b3  # sltu x5, x13, x11
    .word 0x0406b313  # sltiu x6, x13, 64
    .word 0x0062f2b3  # and x5, x5, x6
    .word 0x00028463  # beq x5, x0, 8
    .word 0x0204c703  # lbu x14, 32(x9)
    .word 0x00b69463  # bne x13, x11, 8
    .word 0x00100713  # addi x14, x0, 1
    .word 0x01071313  # slli x6, x14, 16
    .word 0x006a4a33  # xor x20, x20, x6
    .word 0x03c0006f  # jal x0, 60
    .word 0x00a6b2b3  # sltu x5, x13, x10
    .word 0x0406b313  # sltiu x6, x13, 64
    .word 0x0062f2b3  # and x5, x5, x6
    .word 0x02028063  # beq x5, x0, 32
    .word 0x010a5293  # srli x5, x20, 16
    .word 0x0ff2f293  # andi x5, x5, 255
    .word 0x0644c303  # lbu x6, 100(x9)
    .word 0x0062c8b3  # xor x17, x5, x6
    .word 0x01089313  # slli x6, x17, 16
    .word 0x006a4a33  # xor x20, x20, x6
    .word 0x07148223  # sb x17, 100(x9)
    .word 0x00a69663  # bne x13, x10, 12
    .word 0x0e812303  # lw x6, 232(x2)
    .word 0x006a4a33  # xor x20, x20, x6
    .word 0x0bc12283  # lw x5, 188(x2)
    .word 0x00429293  # slli x5, x5, 4
    .word 0x00b28693  # addi x13, x5, 11
    .word 0x002684b3  # add x9, x13, x2
    .word 0x0b812303  # lw x6, 184(x2)
    .word 0x02c36863  # bltu x6, x12, 48
    .word 0x00000713  # addi x14, x0, 0
    .word 0x00b6b2b3  # sltu x5, x13, x11
    .word 0x0406b313  # sltiu x6, x13, 64
    .word 0x0062f2b3  # and x5, x5, x6
    .word 0x00028463  # beq x5, x0, 8
    .word 0x0204c703  # lbu x14, 32(x9)
    .word 0x00b69463  # bne x13, x11, 8
    .word 0x00100713  # addi x14, x0, 1
    .word 0x01871313  # slli x6, x14, 24
    .word 0x006a4a33  # xor x20, x20, x6
    .word 0x0380006f  # jal x0, 56
    .word 0x00a6b2b3  # sltu x5, x13, x10
    .word 0x0406b313  # sltiu x6, x13, 64
    .word 0x0062f2b3  # and x5, x5, x6
    .word 0x00028e63  # beq x5, x0, 28
    .word 0x018a5293  # srli x5, x20, 24
    .word 0x0644c303  # lbu x6, 100(x9)
    .word 0x0062c8b3  # xor x17, x5, x6
    .word 0x01889313  # slli x6, x17, 24
    .word 0x006a4a33  # xor x20, x20, x6
    .word 0x07148223  # sb x17, 100(x9)
    .word 0x00a69663  # bne x13, x10, 12
    .word 0x0ec12303  # lw x6, 236(x2)
    .word 0x006a4a33  # xor x20, x20, x6
    .word 0x0bc12283  # lw x5, 188(x2)
    .word 0x00429293  # slli x5, x5, 4
    .word 0x00c28693  # addi x13, x5, 12
    .word 0x002684b3  # add x9, x13, x2
    .word 0x0b812303  # lw x6, 184(x2)
    .word 0x02c36663  # bltu x6, x12, 44
    .word 0x00000713  # addi x14, x0, 0
    .word 0x00b6b2b3  # sltu x5, x13, x11
    .word 0x0406b313  # sltiu x6, x13, 64
    .word 0x0062f2b3  # and x5, x5, x6
    .word 0x00028463  # beq x5, x0, 8
    .word 0x0204c703  # lbu x14, 32(x9)
    .word 0x00b69463  # bne x13, x11, 8
    .word 0x00100713  # addi x14, x0, 1
    .word 0x00e9c9b3  # xor x19, x19, x14
    .word 0x0300006f  # jal x0, 48
    .word 0x00a6b2b3  # sltu x5, x13, x10
    .word 0x0406b313  # sltiu x6, x13, 64
    .word 0x0062f2b3  # and x5, x5, x6
    .word 0x00028c63  # beq x5, x0, 24
    .word 0x0ff9f293  # andi x5, x19, 255
    .word 0x0644c303  # lbu x6, 100(x9)
    .word 0x0062c8b3  # xor x17, x5, x6
    .word 0x0119c9b3  # xor x19, x19, x17
    .word 0x07148223  # sb x17, 100(x9)
    .word 0x00a69463  # bne x13, x10, 8
    .word 0x0019c993  # xori x19, x19, 1
    .word 0x0bc12283  # lw x5, 188(x2)
    .word 0x00429293  # slli x5, x5, 4
    .word 0x00d28693  # addi x13, x5, 13
    .word 0x002684b3  # add x9, x13, x2
    .word 0x0b812303  # lw x6, 184(x2)
    .word 0x02c36863  # bltu x6, x12, 48
    .word 0x00000713  # addi x14, x0, 0
    .word 0x00b6b2b3  # sltu x5, x13, x11
    .word 0x0406b313  # sltiu x6, x13, 64
    .word 0x0062f2b3  # and x5, x5, x6
    .word 0x00028463  # beq x5, x0, 8
    .word 0x0204c703  # lbu x14, 32(x9)
    .word 0x00b69463  # bne x13, x11, 8
    .word 0x00100713  # addi x14, x0, 1
    .word 0x00871313  # slli x6, x14, 8
    .word 0x0069c9b3  # xor x19, x19, x6
    .word 0x0380006f  # jal x0, 56
    .word 0x00a6b2b3  # sltu x5, x13, x10
    .word 0x0406b313  # sltiu x6, x13, 64
    .word 0x0062f2b3  # and x5, x5, x6
    .word 0x02028063  # beq x5, x0, 32
    .word 0x0089d293  # srli x5, x19, 8
    .word 0x0ff2f293  # andi x5, x5, 255
    .word 0x0644c303  # lbu x6, 100(x9)
    .word 0x0062c8b3  # xor x17, x5, x6
    .word 0x00889313  # slli x6, x17, 8
    .word 0x0069c9b3  # xor x19, x19, x6
    .word 0x07148223  # sb x17, 100(x9)
    .word 0x00a69463  # bne x13, x10, 8
    .word 0x1009c993  # xori x19, x19, 256
    .word 0x0bc12283  # lw x5, 188(x2)
    .word 0x00429293  # slli x5, x5, 4
    .word 0x00e28693  # addi x13, x5, 14
    .word 0x002684b3  # add x9, x13, x2
    .word 0x0b812303  # lw x6, 184(x2)
    .word 0x02c36863  # bltu x6, x12, 48
    .word 0x00000713  # addi x14, x0, 0
    .word 0x00b6b2b3  # sltu x5, x13, x11
    .word 0x0406b313  # sltiu x6, x13, 64
    .word 0x0062f2b3  # and x5, x5, x6
    .word 0x00028463  # beq x5, x0, 8
    .word 0x0204c703  # lbu x14, 32(x9)
    .word 0x00b69463  # bne x13, x11, 8
    .word 0x00100713  # addi x14, x0, 1
    .word 0x01071313  # slli x6, x14, 16
    .word 0x0069c9b3  # xor x19, x19, x6
    .word 0x03c0006f  # jal x0, 60
    .word 0x00a6b2b3  # sltu x5, x13, x10
    .word 0x0406b313  # sltiu x6, x13, 64
    .word 0x0062f2b3  # and x5, x5, x6
    .word 0x02028063  # beq x5, x0, 32
    .word 0x0109d293  # srli x5, x19, 16
    .word 0x0ff2f293  # andi x5, x5, 255
    .word 0x0644c303  # lbu x6, 100(x9)
    .word 0x0062c8b3  # xor x17, x5, x6
    .word 0x01089313  # slli x6, x17, 16
    .word 0x0069c9b3  # xor x19, x19, x6
    .word 0x07148223  # sb x17, 100(x9)
    .word 0x00a69663  # bne x13, x10, 12
    .word 0x0e812303  # lw x6, 232(x2)
    .word 0x0069c9b3  # xor x19, x19, x6
    .word 0x0bc12283  # lw x5, 188(x2)
    .word 0x00429293  # slli x5, x5, 4
    .word 0x00f28693  # addi x13, x5, 15
    .word 0x002684b3  # add x9, x13, x2
    .word 0x0b812303  # lw x6, 184(x2)
    .word 0x02c36863  # bltu x6, x12, 48
    .word 0x00000713  # addi x14, x0, 0
    .word 0x00b6b2b3  # sltu x5, x13, x11
    .word 0x0406b313  # sltiu x6, x13, 64
    .word 0x0062f2b3  # and x5, x5, x6
    .word 0x00028463  # beq x5, x0, 8
    .word 0x0204c703  # lbu x14, 32(x9)
    .word 0x00b69463  # bne x13, x11, 8
    .word 0x00100713  # addi x14, x0, 1
    .word 0x01871313  # slli x6, x14, 24
    .word 0x0069c9b3  # xor x19, x19, x6
    .word 0x0380006f  # jal x0, 56
    .word 0x00a6b2b3  # sltu x5, x13, x10
    .word 0x0406b313  # sltiu x6, x13, 64
    .word 0x0062f2b3  # and x5, x5, x6
    .word 0x00028e63  # beq x5, x0, 28
    .word 0x0189d293  # srli x5, x19, 24
    .word 0x0644c303  # lbu x6, 100(x9)
    .word 0x0062c8b3  # xor x17, x5, x6
    .word 0x01889313  # slli x6, x17, 24
    .word 0x0069c9b3  # xor x19, x19, x6
    .word 0x07148223  # sb x17, 100(x9)
    .word 0x00a69663  # bne x13, x10, 12
    .word 0x0ec12303  # lw x6, 236(x2)
    .word 0x0069c9b3  # xor x19, x19, x6
    .word 0x0c012303  # lw x6, 192(x2)
    .word 0x02661663  # bne x12, x6, 44
    .word 0x0d412303  # lw x6, 212(x2)
    .word 0x00684833  # xor x16, x16, x6
    .word 0x0c412283  # lw x5, 196(x2)
    .word 0x0d812303  # lw x6, 216(x2)
    .word 0x0062c2b3  # xor x5, x5, x6
    .word 0x0c512223  # sw x5, 196(x2)
    .word 0x0dc12303  # lw x6, 220(x2)
    .word 0x006dcdb3  # xor x27, x27, x6
    .word 0x0e012303  # lw x6, 224(x2)
    .word 0x006bcbb3  # xor x23, x23, x6
    .word 0x0c012303  # lw x6, 192(x2)
    .word 0x2ac36c63  # bltu x6, x12, 696
    .word 0x00163293  # sltiu x5, x12, 1
    .word 0x0c012383  # lw x7, 192(x2)
    .word 0x40760333  # sub x6, x12, x7
    .word 0x00133313  # sltiu x6, x6, 1
    .word 0x0062e2b3  # or x5, x5, x6
    .word 0x00000313  # addi x6, x0, 0
    .word 0x00400393  # addi x7, x0, 4
    .word 0x405002b3  # sub x5, x0, x5
    .word 0x00734333  # xor x6, x6, x7
    .word 0x00537333  # and x6, x6, x5
    .word 0x0063c6b3  # xor x13, x7, x6
    .word 0x002684b3  # add x9, x13, x2
    .word 0x00090b13  # addi x22, x18, 0
    .word 0x000c0793  # addi x15, x24, 0
    .word 0xfff9c993  # xori x19, x19, -1
    .word 0xfffa4c93  # xori x25, x20, -1
    .word 0xfff84813  # xori x16, x16, -1
    .word 0x0c412283  # lw x5, 196(x2)
    .word 0xfff2c293  # xori x5, x5, -1
    .word 0x0c512223  # sw x5, 196(x2)
    .word 0xfffdc893  # xori x17, x27, -1
    .word 0xfffbcb93  # xori x23, x23, -1
    .word 0xfffaca93  # xori x21, x21, -1
    .word 0xfffd4d13  # xori x26, x26, -1
    .word 0x0ed12e23  # sw x13, 252(x2)
    .word 0x00c00293  # addi x5, x0, 12
    .word 0x10512023  # sw x5, 256(x2)
    .word 0x0fc12303  # lw x6, 252(x2)
    .word 0x10012283  # lw x5, 256(x2)
    .word 0x005332b3  # sltu x5, x6, x5
    .word 0x00029463  # bne x5, x0, 8
    .word 0x2080006f  # jal x0, 520
    .word 0x0c612423  # sw x6, 200(x2)
    .word 0x00130313  # addi x6, x6, 1
    .word 0x0e612e23  # sw x6, 252(x2)
    .word 0x0f000293  # addi x5, x0, 240
    .word 0x00f00313  # addi x6, x0, 15
    .word 0x0c812383  # lw x7, 200(x2)
    .word 0x02730333  # mul x6, x6, x7
    .word 0x406286b3  # sub x13, x5, x6
    .word 0x002684b3  # add x9, x13, x2
    .word 0x015b4933  # xor x18, x22, x21
    .word 0x011acc33  # xor x24, x21, x17
    .word 0x01384a33  # xor x20, x16, x19
    .word 0x0149f2b3  # and x5, x19, x20
    .word 0x0122cab3  # xor x21, x5, x18
    .word 0x011a62b3  # or x5, x20, x17
    .word 0x0132cdb3  # xor x27, x5, x19
    .word 0x012c62b3  # or x5, x24, x18
    .word 0x0112cb33  # xor x22, x5, x17
    .word 0x0188f2b3  # and x5, x17, x24
    .word 0x0142c8b3  # xor x17, x5, x20
    .word 0xfff94293  # xori x5, x18, -1
    .word 0x0132e2b3  # or x5, x5, x19
    .word 0x0182c933  # xor x18, x5, x24
    .word 0x012ac9b3  # xor x19, x21, x18
    .word 0x015dca33  # xor x20, x27, x21
    .word 0x011b42b3  # xor x5, x22, x17
    .word 0xfff2ca93  # xori x21, x5, -1
    .word 0x01a7cc33  # xor x24, x15, x26
    .word 0x017d4d33  # xor x26, x26, x23
    .word 0x0c412283  # lw x5, 196(x2)
    .word 0x0192c2b3  # xor x5, x5, x25
    .word 0x00d2cdb3  # xor x27, x5, x13
    .word 0x01bcf2b3  # and x5, x25, x27
    .word 0x0182cb33  # xor x22, x5, x24
    .word 0x017de2b3  # or x5, x27, x23
    .word 0x0192c7b3  # xor x15, x5, x25
    .word 0x018d62b3  # or x5, x26, x24
    .word 0x0172c833  # xor x16, x5, x23
    .word 0x01abf2b3  # and x5, x23, x26
    .word 0x01b2cbb3  # xor x23, x5, x27
    .word 0xfffc4293  # xori x5, x24, -1
    .word 0x0192e2b3  # or x5, x5, x25
    .word 0x01a2cc33  # xor x24, x5, x26
    .word 0x018b4cb3  # xor x25, x22, x24
    .word 0x0167cd33  # xor x26, x15, x22
    .word 0x017842b3  # xor x5, x16, x23
    .word 0xfff2cd93  # xori x27, x5, -1
    .word 0x0139d313  # srli x6, x19, 19
    .word 0x00dc9393  # slli x7, x25, 13
    .word 0x00736333  # or x6, x6, x7
    .word 0x0069c2b3  # xor x5, x19, x6
    .word 0x01c9d313  # srli x6, x19, 28
    .word 0x004c9393  # slli x7, x25, 4
    .word 0x00736333  # or x6, x6, x7
    .word 0x0062cb33  # xor x22, x5, x6
    .word 0x013cd313  # srli x6, x25, 19
    .word 0x00d99393  # slli x7, x19, 13
    .word 0x00736333  # or x6, x6, x7
    .word 0x006cc2b3  # xor x5, x25, x6
    .word 0x01ccd313  # srli x6, x25, 28
    .word 0x00499393  # slli x7, x19, 4
    .word 0x00736333  # or x6, x6, x7
    .word 0x0062c7b3  # xor x15, x5, x6
    .word 0x01dd5313  # srli x6, x26, 29
    .word 0x003a1393  # slli x7, x20, 3
    .word 0x00736333  # or x6, x6, x7
    .word 0x006a42b3  # xor x5, x20, x6
    .word 0x007d5313  # srli x6, x26, 7
    .word 0x019a1393  # slli x7, x20, 25
    .word 0x00736333  # or x6, x6, x7
    .word 0x0062c9b3  # xor x19, x5, x6
    .word 0x01da5313  # srli x6, x20, 29
    .word 0x003d1393  # slli x7, x26, 3
    .word 0x00736333  # or x6, x6, x7
    .word 0x006d42b3  # xor x5, x26, x6
    .word 0x007a5313  # srli x6, x20, 7
    .word 0x019d1393  # slli x7, x26, 25
    .word 0x00736333  # or x6, x6, x7
    .word 0x0062ccb3  # xor x25, x5, x6
    .word 0x0018d313  # srli x6, x17, 1
    .word 0x01fb9393  # slli x7, x23, 31
    .word 0x00736333  # or x6, x6, x7
    .word 0x0068c2b3  # xor x5, x17, x6
    .word 0x0068d313  # srli x6, x17, 6
    .word 0x01ab9393  # slli x7, x23, 26
    .word 0x00736333  # or x6, x6, x7
    .word 0x0062c833  # xor x16, x5, x6
    .word 0x001bd313  # srli x6, x23, 1
    .word 0x01f89393  # slli x7, x17, 31
    .word 0x00736333  # or x6, x6, x7
    .word 0x006bc2b3  # xor x5, x23, x6
    .word 0x006bd313  # srli x6, x23, 6
    .word 0x01a89393  # slli x7, x17, 26
    .word 0x00736333  # or x6, x6, x7
    .word 0x0062c2b3  # xor x5, x5, x6
    .word 0x0c512223  # sw x5, 196(x2)
    .word 0x00aad313  # srli x6, x21, 10
    .word 0x016d9393  # slli x7, x27, 22
    .word 0x00736333  # or x6, x6, x7
    .word 0x006ac2b3  # xor x5, x21, x6
    .word 0x011ad313  # srli x6, x21, 17
    .word 0x00fd9393  # slli x7, x27, 15
    .word 0x00736333  # or x6, x6, x7
    .word 0x0062c8b3  # xor x17, x5, x6
    .word 0x00add313  # srli x6, x27, 10
    .word 0x016a9393  # slli x7, x21, 22
    .word 0x00736333  # or x6, x6, x7
    .word 0x006dc2b3  # xor x5, x27, x6
    .word 0x011dd313  # srli x6, x27, 17
    .word 0x00fa9393  # slli x7, x21, 15
    .word 0x00736333  # or x6, x6, x7
    .word 0x0062cbb3  # xor x23, x5, x6
    .word 0x00795313  # srli x6, x18, 7
    .word 0x019c1393  # slli x7, x24, 25
    .word 0x00736333  # or x6, x6, x7
    .word 0x006942b3  # xor x5, x18, x6
    .word 0x009c5313  # srli x6, x24, 9
    .word 0x01791393  # slli x7, x18, 23
    .word 0x00736333  # or x6, x6, x7
    .word 0x0062cab3  # xor x21, x5, x6
    .word 0x007c5313  # srli x6, x24, 7
    .word 0x01991393  # slli x7, x18, 25
    .word 0x00736333  # or x6, x6, x7
    .word 0x006c42b3  # xor x5, x24, x6
    .word 0x00995313  # srli x6, x18, 9
    .word 0x017c1393  # slli x7, x24, 23
    .word 0x00736333  # or x6, x6, x7
    .word 0x0062cd33  # xor x26, x5, x6
    .word 0xdedff06f  # jal x0, -532
    .word 0x000b0913  # addi x18, x22, 0
    .word 0x00078c13  # addi x24, x15, 0
    .word 0xfff9c993  # xori x19, x19, -1
    .word 0xfffcca13  # xori x20, x25, -1
    .word 0xfff84813  # xori x16, x16, -1
    .word 0x0c412283  # lw x5, 196(x2)
    .word 0xfff2c293  # xori x5, x5, -1
    .word 0x0c512223  # sw x5, 196(x2)
    .word 0xfff8cd93  # xori x27, x17, -1
    .word 0xfffbcb93  # xori x23, x23, -1
    .word 0xfffaca93  # xori x21, x21, -1
    .word 0xfffd4d13  # xori x26, x26, -1
    .word 0x00163293  # sltiu x5, x12, 1
    .word 0x0c012383  # lw x7, 192(x2)
    .word 0x40760333  # sub x6, x12, x7
    .word 0x00133313  # sltiu x6, x6, 1
    .word 0x0062e2b3  # or x5, x5, x6
    .word 0x02028263  # beq x5, x0, 36
    .word 0x0d412303  # lw x6, 212(x2)
    .word 0x006dcdb3  # xor x27, x27, x6
    .word 0x0d812303  # lw x6, 216(x2)
    .word 0x006bcbb3  # xor x23, x23, x6
    .word 0x0dc12303  # lw x6, 220(x2)
    .word 0x006acab3  # xor x21, x21, x6
    .word 0x0e012303  # lw x6, 224(x2)
    .word 0x006d4d33  # xor x26, x26, x6
    .word 0xff660293  # addi x5, x12, -10
    .word 0xd0029e63  # bne x5, x0, -2788
    .word 0x0ac12903  # lw x18, 172(x2)
    .word 0x012dc8b3  # xor x17, x27, x18
    .word 0x0a812903  # lw x18, 168(x2)
    .word 0x012bc333  # xor x6, x23, x18
    .word 0x0068e8b3  # or x17, x17, x6
    .word 0x0b412903  # lw x18, 180(x2)
    .word 0x012ac333  # xor x6, x21, x18
    .word 0x0068e8b3  # or x17, x17, x6
    .word 0x0b012903  # lw x18, 176(x2)
    .word 0x012d4333  # xor x6, x26, x18
    .word 0x0068e8b3  # or x17, x17, x6
    .word 0x0018b293  # sltiu x5, x17, 1
    .word 0x0c512623  # sw x5, 204(x2)
    .word 0x0e012a23  # sw x0, 244(x2)
    .word 0x0ea12c23  # sw x10, 248(x2)
    .word 0x0f412303  # lw x6, 244(x2)
    .word 0x0f812283  # lw x5, 248(x2)
    .word 0x005332b3  # sltu x5, x6, x5
    .word 0x00029463  # bne x5, x0, 8
    .word 0x0380006f  # jal x0, 56
    .word 0x0c612823  # sw x6, 208(x2)
    .word 0x00130313  # addi x6, x6, 1
    .word 0x0e612a23  # sw x6, 244(x2)
    .word 0x0d012283  # lw x5, 208(x2)
    .word 0x0cc12303  # lw x6, 204(x2)
    .word 0x0d012383  # lw x7, 208(x2)
    .word 0x002383b3  # add x7, x7, x2
    .word 0x0643c383  # lbu x7, 100(x7)
    .word 0x40600333  # sub x6, x0, x6
    .word 0x0063f333  # and x6, x7, x6
    .word 0x002282b3  # add x5, x5, x2
    .word 0x06628223  # sb x6, 100(x5)
    .word 0xfbdff06f  # jal x0, -68
    .word 0x0cc12283  # lw x5, 204(x2)
    .word 0x0e512823  # sw x5, 240(x2)
    # the result
    .word 0x0f012503  # lw x10, 240(x2)
    # parameter 4: the array, back
    .word 0x06410293  # addi x5, x2, 100
    .word 0x15c12303  # lw x6, 348(x2)
    .word 0x04028393  # addi x7, x5, 64
    .word 0x09000f6f  # jal x30, 144
    # above the frame
    .word 0x11010293  # addi x5, x2, 272
    # the caller's registers
    .word 0x0002a403  # lw x8, 0(x5)
    .cfi_restore 8
    .word 0x0042a483  # lw x9, 4(x5)
    .cfi_restore 9
    .word 0x0082a903  # lw x18, 8(x5)
    .cfi_restore 18
    .word 0x00c2a983  # lw x19, 12(x5)
    .cfi_restore 19
    .word 0x0102aa03  # lw x20, 16(x5)
    .cfi_restore 20
    .word 0x0142aa83  # lw x21, 20(x5)
    .cfi_restore 21
    .word 0x0182ab03  # lw x22, 24(x5)
    .cfi_restore 22
    .word 0x01c2ab83  # lw x23, 28(x5)
    .cfi_restore 23
    .word 0x0202ac03  # lw x24, 32(x5)
    .cfi_restore 24
    .word 0x0242ac83  # lw x25, 36(x5)
    .cfi_restore 25
    .word 0x0282ad03  # lw x26, 40(x5)
    .cfi_restore 26
    .word 0x02c2ad83  # lw x27, 44(x5)
    .cfi_restore 27
    # the caller's x2
    .word 0x05028293  # addi x5, x5, 80
    .cfi_def_cfa 5, 0
    # all the room, wiped upward
    .word 0x00012023  # sw x0, 0(x2)
    .word 0x00012223  # sw x0, 4(x2)
    .word 0x00012423  # sw x0, 8(x2)
    .word 0x00012623  # sw x0, 12(x2)
    .word 0x01010113  # addi x2, x2, 16
    .word 0xfe5116e3  # bne x2, x5, -20
    .cfi_def_cfa 2, 0
    # temporaries, wiped
    .word 0x00000293  # addi x5, x0, 0
    .word 0x00000313  # addi x6, x0, 0
    .word 0x00000393  # addi x7, x0, 0
    .word 0x00000593  # addi x11, x0, 0
    .word 0x00000613  # addi x12, x0, 0
    .word 0x00000693  # addi x13, x0, 0
    .word 0x00000713  # addi x14, x0, 0
    .word 0x00000793  # addi x15, x0, 0
    .word 0x00000813  # addi x16, x0, 0
    .word 0x00000893  # addi x17, x0, 0
    .word 0x00000e13  # addi x28, x0, 0
    .word 0x00000e93  # addi x29, x0, 0
    .word 0x00000f13  # addi x30, x0, 0
    .word 0x00000f93  # addi x31, x0, 0
    # back
    .word 0x00008067  # jalr x0, 0(x1)
    # from x5 to x6 up to x7, and back
    .cfi_def_cfa 2, 352
    .cfi_offset 8, -80
    .cfi_offset 9, -76
    .cfi_offset 18, -72
    .cfi_offset 19, -68
    .cfi_offset 20, -64
    .cfi_offset 21, -60
    .cfi_offset 22, -56
    .cfi_offset 23, -52
    .cfi_offset 24, -48
    .cfi_offset 25, -44
    .cfi_offset 26, -40
    .cfi_offset 27, -36
    .word 0x0062ee33  # or x28, x5, x6
    .word 0x003e7e13  # andi x28, x28, 3
    .word 0x000e0e63  # beq x28, x0, 28
    .word 0x0002ce03  # lbu x28, 0(x5)
    .word 0x01c30023  # sb x28, 0(x6)
    .word 0x00128293  # addi x5, x5, 1
    .word 0x00130313  # addi x6, x6, 1
    .word 0xfe7298e3  # bne x5, x7, -16
    .word 0x0300006f  # jal x0, 48
    .word 0x0002ae03  # lw x28, 0(x5)
    .word 0x01c32023  # sw x28, 0(x6)
    .word 0x0042ae03  # lw x28, 4(x5)
    .word 0x01c32223  # sw x28, 4(x6)
    .word 0x0082ae03  # lw x28, 8(x5)
    .word 0x01c32423  # sw x28, 8(x6)
    .word 0x00c2ae03  # lw x28, 12(x5)
    .word 0x01c32623  # sw x28, 12(x6)
    .word 0x01028293  # addi x5, x5, 16
    .word 0x01030313  # addi x6, x6, 16
    .word 0xfc729ce3  # bne x5, x7, -40
    .word 0x000f0067  # jalr x0, 0(x30)
    .cfi_endproc
    .size ascon_aead128_decrypt, . - ascon_aead128_decrypt
    .option pop
