# speck64_decrypt: made by factc 1.0.0 function; 157 words, 64 bytes of stack, profile 1
    .option push
    .option norvc
    .option norelax
    .cfi_sections .debug_frame
    .section .text.speck64_decrypt, "ax", @progbits
    .p2align 2
    .globl speck64_decrypt
    .type speck64_decrypt, @function
speck64_decrypt:
    .cfi_startproc
    # room above the frame
    .word 0xff010113  # addi x2, x2, -16
    .cfi_def_cfa_offset 16
    # the caller's registers
    # arguments that are needed behind the body
    .word 0x00a12423  # sw x10, 8(x2)
    .word 0x00b12623  # sw x11, 12(x2)
    # the frame's base
    .word 0xfd010113  # addi x2, x2, -48
    .cfi_def_cfa 2, 64
    # parameter 0: an array
    .word 0x00050293  # addi x5, x10, 0
    .word 0x00010313  # addi x6, x2, 0
    .word 0x0002ae03  # lw x28, 0(x5)
    .word 0x01c32023  # sw x28, 0(x6)
    .word 0x0042ae03  # lw x28, 4(x5)
    .word 0x01c32223  # sw x28, 4(x6)
    .word 0x0082ae03  # lw x28, 8(x5)
    .word 0x01c32423  # sw x28, 8(x6)
    .word 0x00c2ae03  # lw x28, 12(x5)
    .word 0x01c32623  # sw x28, 12(x6)
    # parameter 1: an array
    .word 0x00058293  # addi x5, x11, 0
    .word 0x01010313  # addi x6, x2, 16
    .word 0x0002ae03  # lw x28, 0(x5)
    .word 0x01c32023  # sw x28, 0(x6)
    .word 0x0042ae03  # lw x28, 4(x5)
    .word 0x01c32223  # sw x28, 4(x6)
    # the body
    .word 0x01012503  # lw x10, 16(x2)
    .word 0x01412583  # lw x11, 20(x2)
    .word 0x00c12603  # lw x12, 12(x2)
    .word 0x00812683  # lw x13, 8(x2)
    .word 0x00412703  # lw x14, 4(x2)
    .word 0x00012783  # lw x15, 0(x2)
    .word 0xfff00813  # addi x16, x0, -1
    .word 0x00180813  # addi x16, x16, 1
    .word 0x00300293  # addi x5, x0, 3
    .word 0x030288b3  # mul x17, x5, x16
    .word 0x01869f13  # slli x30, x13, 24
    .word 0x0086d293  # srli x5, x13, 8
    .word 0x005f02b3  # add x5, x30, x5
    .word 0x00c282b3  # add x5, x5, x12
    .word 0x0112c6b3  # xor x13, x5, x17
    .word 0x00361f13  # slli x30, x12, 3
    .word 0x01d65293  # srli x5, x12, 29
    .word 0x005f02b3  # add x5, x30, x5
    .word 0x00d2c633  # xor x12, x5, x13
    .word 0x01871f13  # slli x30, x14, 24
    .word 0x00875293  # srli x5, x14, 8
    .word 0x005f02b3  # add x5, x30, x5
    .word 0x00c282b3  # add x5, x5, x12
    .word 0x00188313  # addi x6, x17, 1
    .word 0x0062c733  # xor x14, x5, x6
    .word 0x00361f13  # slli x30, x12, 3
    .word 0x01d65293  # srli x5, x12, 29
    .word 0x005f02b3  # add x5, x30, x5
    .word 0x00e2c633  # xor x12, x5, x14
    .word 0x01879f13  # slli x30, x15, 24
    .word 0x0087d293  # srli x5, x15, 8
    .word 0x005f02b3  # add x5, x30, x5
    .word 0x00c282b3  # add x5, x5, x12
    .word 0x00288313  # addi x6, x17, 2
    .word 0x0062c7b3  # xor x15, x5, x6
    .word 0x00361f13  # slli x30, x12, 3
    .word 0x01d65293  # srli x5, x12, 29
    .word 0x005f02b3  # add x5, x30, x5
    .word 0x00f2c633  # xor x12, x5, x15
    .word 0xff880293  # addi x5, x16, -8
    .word 0xf6029ee3  # bne x5, x0, -132
    .word 0xfff00813  # addi x16, x0, -1
    .word 0x00180813  # addi x16, x16, 1
    .word 0x01800293  # addi x5, x0, 24
    .word 0x00300313  # addi x6, x0, 3
    .word 0x03030333  # mul x6, x6, x16
    .word 0x406288b3  # sub x17, x5, x6
    .word 0x00f642b3  # xor x5, x12, x15
    .word 0x01d29f13  # slli x30, x5, 29
    .word 0x0032d613  # srli x12, x5, 3
    .word 0x00cf0633  # add x12, x30, x12
    .word 0x00288313  # addi x6, x17, 2
    .word 0x0067c2b3  # xor x5, x15, x6
    .word 0x40c282b3  # sub x5, x5, x12
    .word 0x00829f13  # slli x30, x5, 8
    .word 0x0182d793  # srli x15, x5, 24
    .word 0x00ff07b3  # add x15, x30, x15
    .word 0x00b542b3  # xor x5, x10, x11
    .word 0x01d29f13  # slli x30, x5, 29
    .word 0x0032d593  # srli x11, x5, 3
    .word 0x00bf05b3  # add x11, x30, x11
    .word 0x00c542b3  # xor x5, x10, x12
    .word 0x40b282b3  # sub x5, x5, x11
    .word 0x00829f13  # slli x30, x5, 8
    .word 0x0182d513  # srli x10, x5, 24
    .word 0x00af0533  # add x10, x30, x10
    .word 0x00e642b3  # xor x5, x12, x14
    .word 0x01d29f13  # slli x30, x5, 29
    .word 0x0032d613  # srli x12, x5, 3
    .word 0x00cf0633  # add x12, x30, x12
    .word 0x00188313  # addi x6, x17, 1
    .word 0x006742b3  # xor x5, x14, x6
    .word 0x40c282b3  # sub x5, x5, x12
    .word 0x00829f13  # slli x30, x5, 8
    .word 0x0182d713  # srli x14, x5, 24
    .word 0x00ef0733  # add x14, x30, x14
    .word 0x00b542b3  # xor x5, x10, x11
    .word 0x01d29f13  # slli x30, x5, 29
    .word 0x0032d593  # srli x11, x5, 3
    .word 0x00bf05b3  # add x11, x30, x11
    .word 0x00c542b3  # xor x5, x10, x12
    .word 0x40b282b3  # sub x5, x5, x11
    .word 0x00829f13  # slli x30, x5, 8
    .word 0x0182d513  # srli x10, x5, 24
    .word 0x00af0533  # add x10, x30, x10
    .word 0x00d642b3  # xor x5, x12, x13
    .word 0x01d29f13  # slli x30, x5, 29
    .word 0x0032d613  # srli x12, x5, 3
    .word 0x00cf0633  # add x12, x30, x12
    .word 0x0116c2b3  # xor x5, x13, x17
    .word 0x40c282b3  # sub x5, x5, x12
    .word 0x00829f13  # slli x30, x5, 8
    .word 0x0182d693  # srli x13, x5, 24
    .word 0x00df06b3  # add x13, x30, x13
    .word 0x00b542b3  # xor x5, x10, x11
    .word 0x01d29f13  # slli x30, x5, 29
    .word 0x0032d593  # srli x11, x5, 3
    .word 0x00bf05b3  # add x11, x30, x11
    .word 0x00c542b3  # xor x5, x10, x12
    .word 0x40b282b3  # sub x5, x5, x11
    .word 0x00829f13  # slli x30, x5, 8
    .word 0x0182d513  # srli x10, x5, 24
    .word 0x00af0533  # add x10, x30, x10
    .word 0xff880293  # addi x5, x16, -8
    .word 0xf00294e3  # bne x5, x0, -248
    .word 0x00a12823  # sw x10, 16(x2)
    .word 0x00b12a23  # sw x11, 20(x2)
    # the result
    .word 0x00000513  # addi x10, x0, 0
    # parameter 1: the array, back
    .word 0x01010293  # addi x5, x2, 16
    .word 0x03c12303  # lw x6, 60(x2)
    .word 0x0002ae03  # lw x28, 0(x5)
    .word 0x01c32023  # sw x28, 0(x6)
    .word 0x0042ae03  # lw x28, 4(x5)
    .word 0x01c32223  # sw x28, 4(x6)
    # above the frame
    .word 0x03010293  # addi x5, x2, 48
    # the caller's registers
    # the caller's x2
    .word 0x01028293  # addi x5, x5, 16
    .cfi_def_cfa 5, 0
    # all the room, wiped upward
    .word 0x00012023  # sw x0, 0(x2)
    .word 0x00012223  # sw x0, 4(x2)
    .word 0x00012423  # sw x0, 8(x2)
    .word 0x00012623  # sw x0, 12(x2)
    .word 0x01010113  # addi x2, x2, 16
    .word 0xfe5116e3  # bne x2, x5, -20
    .cfi_def_cfa 2, 0
    # temporaries, wiped
    .word 0x00000293  # addi x5, x0, 0
    .word 0x00000313  # addi x6, x0, 0
    .word 0x00000393  # addi x7, x0, 0
    .word 0x00000593  # addi x11, x0, 0
    .word 0x00000613  # addi x12, x0, 0
    .word 0x00000693  # addi x13, x0, 0
    .word 0x00000713  # addi x14, x0, 0
    .word 0x00000793  # addi x15, x0, 0
    .word 0x00000813  # addi x16, x0, 0
    .word 0x00000893  # addi x17, x0, 0
    .word 0x00000e13  # addi x28, x0, 0
    .word 0x00000e93  # addi x29, x0, 0
    .word 0x00000f13  # addi x30, x0, 0
    .word 0x00000f93  # addi x31, x0, 0
    # back
    .word 0x00008067  # jalr x0, 0(x1)
    .cfi_endproc
    .size speck64_decrypt, . - speck64_decrypt
    .option pop
