# hotp_digits: made by factc 1.0.0 function; 50 words and 21 shared, 32 bytes of stack, profile 1
    .option push
    .option norvc
    .option norelax
    .cfi_sections .debug_frame
    .section .text.hotp_digits, "ax", @progbits
    .p2align 2
    .globl hotp_digits
    .type hotp_digits, @function
hotp_digits:
    .cfi_startproc
    # room above the frame
    .cfi_def_cfa_offset 0
    # the caller's registers
    # arguments that are needed behind the body
    # the frame's base
    .word 0xfe010113  # addi x2, x2, -32
    .cfi_def_cfa 2, 32
    # parameter 0: an array
    .word 0x00050293  # addi x5, x10, 0
    .word 0x00010313  # addi x6, x2, 0
    .word 0x01428393  # addi x7, x5, 20
    .word 0x0002ce03  # lbu x28, 0(x5)
    .word 0x01c30023  # sb x28, 0(x6)
    .word 0x00128293  # addi x5, x5, 1
    .word 0x00130313  # addi x6, x6, 1
    .word 0xfe7298e3  # bne x5, x7, -16
    # the body
    .word 0x01314283  # lbu x5, 19(x2)
    .word 0x00f2f513  # andi x10, x5, 15
    .word 0x00014283  # lbu x5, 0(x2)
    .word 0x01029293  # slli x5, x5, 16
    .word 0x00114303  # lbu x6, 1(x2)
    .word 0x00831313  # slli x6, x6, 8
    .word 0x0062e2b3  # or x5, x5, x6
    .word 0x00214303  # lbu x6, 2(x2)
    .word 0x0062e5b3  # or x11, x5, x6
    .word 0x00000613  # addi x12, x0, 0
    .word 0xfff00693  # addi x13, x0, -1
    .word 0x00168693  # addi x13, x13, 1
    .word 0x00859293  # slli x5, x11, 8
    .word 0x00268333  # add x6, x13, x2
    .word 0x00334303  # lbu x6, 3(x6)
    .word 0x0062e5b3  # or x11, x5, x6
    .word 0x00153393  # sltiu x7, x10, 1
    .word 0x407003b3  # sub x7, x0, x7
    .word 0x0075f333  # and x6, x11, x7
    .word 0x00666633  # or x12, x12, x6
    .word 0xfff50513  # addi x10, x10, -1
    .word 0xff168293  # addi x5, x13, -15
    .word 0xfc029ae3  # bne x5, x0, -44
    .word 0x00161613  # slli x12, x12, 1
    .word 0x00165613  # srli x12, x12, 1
    .word 0x7a120737  # lui x14, 0x7a120
    .word 0x00070713  # addi x14, x14, 0
    .word 0xfff00693  # addi x13, x0, -1
    .word 0x00168693  # addi x13, x13, 1
    .word 0x00e633b3  # sltu x7, x12, x14
    .word 0xfff38393  # addi x7, x7, -1
    .word 0x00777333  # and x6, x14, x7
    .word 0x40660633  # sub x12, x12, x6
    .word 0x00175713  # srli x14, x14, 1
    .word 0xff568293  # addi x5, x13, -11
    .word 0xfe0292e3  # bne x5, x0, -28
    .word 0x00c12a23  # sw x12, 20(x2)
    # the result
    .word 0x01412503  # lw x10, 20(x2)
    # above the frame
    .word 0x02010293  # addi x5, x2, 32
    # the caller's registers
    # the caller's x2
    .word 0x00028293  # addi x5, x5, 0
    .cfi_def_cfa 5, 0
    # on to the tail that functions share
    jal x0, factc.tail.1
    .cfi_endproc
    .size hotp_digits, . - hotp_digits
    .section .text.factc.tail.1, "axG", @progbits, factc.tail.1, comdat
    .p2align 2
    .globl factc.tail.1
    .hidden factc.tail.1
    .type factc.tail.1, @function
factc.tail.1:
    .cfi_startproc
    .cfi_def_cfa 5, 0
    # all the room, wiped upward
    .word 0x00012023  # sw x0, 0(x2)
    .word 0x00012223  # sw x0, 4(x2)
    .word 0x00012423  # sw x0, 8(x2)
    .word 0x00012623  # sw x0, 12(x2)
    .word 0x01010113  # addi x2, x2, 16
    .word 0xfe5116e3  # bne x2, x5, -20
    .cfi_def_cfa 2, 0
    # temporaries, wiped
    .word 0x00000293  # addi x5, x0, 0
    .word 0x00000313  # addi x6, x0, 0
    .word 0x00000393  # addi x7, x0, 0
    .word 0x00000593  # addi x11, x0, 0
    .word 0x00000613  # addi x12, x0, 0
    .word 0x00000693  # addi x13, x0, 0
    .word 0x00000713  # addi x14, x0, 0
    .word 0x00000793  # addi x15, x0, 0
    .word 0x00000813  # addi x16, x0, 0
    .word 0x00000893  # addi x17, x0, 0
    .word 0x00000e13  # addi x28, x0, 0
    .word 0x00000e93  # addi x29, x0, 0
    .word 0x00000f13  # addi x30, x0, 0
    .word 0x00000f93  # addi x31, x0, 0
    # back
    .word 0x00008067  # jalr x0, 0(x1)
    .cfi_endproc
    .size factc.tail.1, . - factc.tail.1
    .option pop
