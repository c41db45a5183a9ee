# speck64_encrypt: made by factc 1.0.0 function; 120 words, 64 bytes of stack, profile 1
    .option push
    .option norvc
    .option norelax
    .cfi_sections .debug_frame
    .section .text.speck64_encrypt, "ax", @progbits
    .p2align 2
    .globl speck64_encrypt
    .type speck64_encrypt, @function
speck64_encrypt:
    .cfi_startproc
    # room above the frame
    .word 0xff010113  # addi x2, x2, -16
    .cfi_def_cfa_offset 16
    # the caller's registers
    # arguments that are needed behind the body
    .word 0x00a12423  # sw x10, 8(x2)
    .word 0x00b12623  # sw x11, 12(x2)
    # the frame's base
    .word 0xfd010113  # addi x2, x2, -48
    .cfi_def_cfa 2, 64
    # parameter 0: an array
    .word 0x00050293  # addi x5, x10, 0
    .word 0x00010313  # addi x6, x2, 0
    .word 0x0002ae03  # lw x28, 0(x5)
    .word 0x01c32023  # sw x28, 0(x6)
    .word 0x0042ae03  # lw x28, 4(x5)
    .word 0x01c32223  # sw x28, 4(x6)
    .word 0x0082ae03  # lw x28, 8(x5)
    .word 0x01c32423  # sw x28, 8(x6)
    .word 0x00c2ae03  # lw x28, 12(x5)
    .word 0x01c32623  # sw x28, 12(x6)
    # parameter 1: an array
    .word 0x00058293  # addi x5, x11, 0
    .word 0x01010313  # addi x6, x2, 16
    .word 0x0002ae03  # lw x28, 0(x5)
    .word 0x01c32023  # sw x28, 0(x6)
    .word 0x0042ae03  # lw x28, 4(x5)
    .word 0x01c32223  # sw x28, 4(x6)
    # the body
    .word 0x01012503  # lw x10, 16(x2)
    .word 0x01412583  # lw x11, 20(x2)
    .word 0x00c12603  # lw x12, 12(x2)
    .word 0x00812683  # lw x13, 8(x2)
    .word 0x00412703  # lw x14, 4(x2)
    .word 0x00012783  # lw x15, 0(x2)
    .word 0xfff00813  # addi x16, x0, -1
    .word 0x00180813  # addi x16, x16, 1
    .word 0x00300293  # addi x5, x0, 3
    .word 0x030288b3  # mul x17, x5, x16
    .word 0x01851f13  # slli x30, x10, 24
    .word 0x00855293  # srli x5, x10, 8
    .word 0x005f02b3  # add x5, x30, x5
    .word 0x00b282b3  # add x5, x5, x11
    .word 0x00c2c533  # xor x10, x5, x12
    .word 0x00359f13  # slli x30, x11, 3
    .word 0x01d5d293  # srli x5, x11, 29
    .word 0x005f02b3  # add x5, x30, x5
    .word 0x00a2c5b3  # xor x11, x5, x10
    .word 0x01869f13  # slli x30, x13, 24
    .word 0x0086d293  # srli x5, x13, 8
    .word 0x005f02b3  # add x5, x30, x5
    .word 0x00c282b3  # add x5, x5, x12
    .word 0x0112c6b3  # xor x13, x5, x17
    .word 0x00361f13  # slli x30, x12, 3
    .word 0x01d65293  # srli x5, x12, 29
    .word 0x005f02b3  # add x5, x30, x5
    .word 0x00d2c633  # xor x12, x5, x13
    .word 0x01851f13  # slli x30, x10, 24
    .word 0x00855293  # srli x5, x10, 8
    .word 0x005f02b3  # add x5, x30, x5
    .word 0x00b282b3  # add x5, x5, x11
    .word 0x00c2c533  # xor x10, x5, x12
    .word 0x00359f13  # slli x30, x11, 3
    .word 0x01d5d293  # srli x5, x11, 29
    .word 0x005f02b3  # add x5, x30, x5
    .word 0x00a2c5b3  # xor x11, x5, x10
    .word 0x01871f13  # slli x30, x14, 24
    .word 0x00875293  # srli x5, x14, 8
    .word 0x005f02b3  # add x5, x30, x5
    .word 0x00c282b3  # add x5, x5, x12
    .word 0x00188313  # addi x6, x17, 1
    .word 0x0062c733  # xor x14, x5, x6
    .word 0x00361f13  # slli x30, x12, 3
    .word 0x01d65293  # srli x5, x12, 29
    .word 0x005f02b3  # add x5, x30, x5
    .word 0x00e2c633  # xor x12, x5, x14
    .word 0x01851f13  # slli x30, x10, 24
    .word 0x00855293  # srli x5, x10, 8
    .word 0x005f02b3  # add x5, x30, x5
    .word 0x00b282b3  # add x5, x5, x11
    .word 0x00c2c533  # xor x10, x5, x12
    .word 0x00359f13  # slli x30, x11, 3
    .word 0x01d5d293  # srli x5, x11, 29
    .word 0x005f02b3  # add x5, x30, x5
    .word 0x00a2c5b3  # xor x11, x5, x10
    .word 0x01879f13  # slli x30, x15, 24
    .word 0x0087d293  # srli x5, x15, 8
    .word 0x005f02b3  # add x5, x30, x5
    .word 0x00c282b3  # add x5, x5, x12
    .word 0x00288313  # addi x6, x17, 2
    .word 0x0062c7b3  # xor x15, x5, x6
    .word 0x00361f13  # slli x30, x12, 3
    .word 0x01d65293  # srli x5, x12, 29
    .word 0x005f02b3  # add x5, x30, x5
    .word 0x00f2c633  # xor x12, x5, x15
    .word 0xff880293  # addi x5, x16, -8
    .word 0xf00298e3  # bne x5, x0, -240
    .word 0x00a12823  # sw x10, 16(x2)
    .word 0x00b12a23  # sw x11, 20(x2)
    # the result
    .word 0x00000513  # addi x10, x0, 0
    # parameter 1: the array, back
    .word 0x01010293  # addi x5, x2, 16
    .word 0x03c12303  # lw x6, 60(x2)
    .word 0x0002ae03  # lw x28, 0(x5)
    .word 0x01c32023  # sw x28, 0(x6)
    .word 0x0042ae03  # lw x28, 4(x5)
    .word 0x01c32223  # sw x28, 4(x6)
    # above the frame
    .word 0x03010293  # addi x5, x2, 48
    # the caller's registers
    # the caller's x2
    .word 0x01028293  # addi x5, x5, 16
    .cfi_def_cfa 5, 0
    # all the room, wiped upward
    .word 0x00012023  # sw x0, 0(x2)
    .word 0x00012223  # sw x0, 4(x2)
    .word 0x00012423  # sw x0, 8(x2)
    .word 0x00012623  # sw x0, 12(x2)
    .word 0x01010113  # addi x2, x2, 16
    .word 0xfe5116e3  # bne x2, x5, -20
    .cfi_def_cfa 2, 0
    # temporaries, wiped
    .word 0x00000293  # addi x5, x0, 0
    .word 0x00000313  # addi x6, x0, 0
    .word 0x00000393  # addi x7, x0, 0
    .word 0x00000593  # addi x11, x0, 0
    .word 0x00000613  # addi x12, x0, 0
    .word 0x00000693  # addi x13, x0, 0
    .word 0x00000713  # addi x14, x0, 0
    .word 0x00000793  # addi x15, x0, 0
    .word 0x00000813  # addi x16, x0, 0
    .word 0x00000893  # addi x17, x0, 0
    .word 0x00000e13  # addi x28, x0, 0
    .word 0x00000e93  # addi x29, x0, 0
    .word 0x00000f13  # addi x30, x0, 0
    .word 0x00000f93  # addi x31, x0, 0
    # back
    .word 0x00008067  # jalr x0, 0(x1)
    .cfi_endproc
    .size speck64_encrypt, . - speck64_encrypt
    .option pop
