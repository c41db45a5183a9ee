# lookup_bytes_16: made by factc 1.0.0 function; 164 words, 304 bytes of stack, profile 1
    .option push
    .option norvc
    .option norelax
    .cfi_sections .debug_frame
    .section .text.lookup_bytes_16, "ax", @progbits
    .p2align 2
    .globl lookup_bytes_16
    .type lookup_bytes_16, @function
lookup_bytes_16:
    .cfi_startproc
    # room above the frame
    .word 0xff010113  # addi x2, x2, -16
    .cfi_def_cfa_offset 16
    # the caller's registers
    # arguments that are needed behind the body
    .word 0x00a12223  # sw x10, 4(x2)
    .word 0x00b12423  # sw x11, 8(x2)
    .word 0x00c12623  # sw x12, 12(x2)
    # the frame's base
    .word 0xee010113  # addi x2, x2, -288
    .cfi_def_cfa 2, 304
    # parameter 0: a word
    .word 0x0ff57513  # andi x10, x10, 255
    .word 0x00a12023  # sw x10, 0(x2)
    # parameter 1: an array
    .word 0x00058293  # addi x5, x11, 0
    .word 0x00410313  # addi x6, x2, 4
    .word 0x10028393  # addi x7, x5, 256
    .word 0x21400f6f  # jal x30, 532
    # parameter 2: an array
    .word 0x00060293  # addi x5, x12, 0
    .word 0x10410313  # addi x6, x2, 260
    .word 0x01028393  # addi x7, x5, 16
    .word 0x20400f6f  # jal x30, 516
    # the body
    .word 0x00012503  # lw x10, 0(x2)
    .word 0xfff00693  # addi x13, x0, -1
    .word 0x00168693  # addi x13, x13, 1
    .word 0x00269593  # slli x11, x13, 2
    .word 0x00258733  # add x14, x11, x2
    .word 0x10070223  # sb x0, 260(x14)
    .word 0x100702a3  # sb x0, 261(x14)
    .word 0x10070323  # sb x0, 262(x14)
    .word 0x100703a3  # sb x0, 263(x14)
    .word 0xffd68293  # addi x5, x13, -3
    .word 0xfe0290e3  # bne x5, x0, -32
    .word 0xfff00693  # addi x13, x0, -1
    .word 0x00168693  # addi x13, x13, 1
    .word 0x00469593  # slli x11, x13, 4
    .word 0x00258733  # add x14, x11, x2
    .word 0x40a682b3  # sub x5, x13, x10
    .word 0x0012b293  # sltiu x5, x5, 1
    .word 0x40500633  # sub x12, x0, x5
    .word 0x10414283  # lbu x5, 260(x2)
    .word 0x00474303  # lbu x6, 4(x14)
    .word 0x00c37333  # and x6, x6, x12
    .word 0x0062e2b3  # or x5, x5, x6
    .word 0x10510223  # sb x5, 260(x2)
    .word 0x10514283  # lbu x5, 261(x2)
    .word 0x00574303  # lbu x6, 5(x14)
    .word 0x00c37333  # and x6, x6, x12
    .word 0x0062e2b3  # or x5, x5, x6
    .word 0x105102a3  # sb x5, 261(x2)
    .word 0x10614283  # lbu x5, 262(x2)
    .word 0x00674303  # lbu x6, 6(x14)
    .word 0x00c37333  # and x6, x6, x12
    .word 0x0062e2b3  # or x5, x5, x6
    .word 0x10510323  # sb x5, 262(x2)
    .word 0x10714283  # lbu x5, 263(x2)
    .word 0x00774303  # lbu x6, 7(x14)
    .word 0x00c37333  # and x6, x6, x12
    .word 0x0062e2b3  # or x5, x5, x6
    .word 0x105103a3  # sb x5, 263(x2)
    .word 0x10814283  # lbu x5, 264(x2)
    .word 0x00874303  # lbu x6, 8(x14)
    .word 0x00c37333  # and x6, x6, x12
    .word 0x0062e2b3  # or x5, x5, x6
    .word 0x10510423  # sb x5, 264(x2)
    .word 0x10914283  # lbu x5, 265(x2)
    .word 0x00974303  # lbu x6, 9(x14)
    .word 0x00c37333  # and x6, x6, x12
    .word 0x0062e2b3  # or x5, x5, x6
    .word 0x105104a3  # sb x5, 265(x2)
    .word 0x10a14283  # lbu x5, 266(x2)
    .word 0x00a74303  # lbu x6, 10(x14)
    .word 0x00c37333  # and x6, x6, x12
    .word 0x0062e2b3  # or x5, x5, x6
    .word 0x10510523  # sb x5, 266(x2)
    .word 0x10b14283  # lbu x5, 267(x2)
    .word 0x00b74303  # lbu x6, 11(x14)
    .word 0x00c37333  # and x6, x6, x12
    .word 0x0062e2b3  # or x5, x5, x6
    .word 0x105105a3  # sb x5, 267(x2)
    .word 0x10c14283  # lbu x5, 268(x2)
    .word 0x00c74303  # lbu x6, 12(x14)
    .word 0x00c37333  # and x6, x6, x12
    .word 0x0062e2b3  # or x5, x5, x6
    .word 0x10510623  # sb x5, 268(x2)
    .word 0x10d14283  # lbu x5, 269(x2)
    .word 0x00d74303  # lbu x6, 13(x14)
    .word 0x00c37333  # and x6, x6, x12
    .word 0x0062e2b3  # or x5, x5, x6
    .word 0x105106a3  # sb x5, 269(x2)
    .word 0x10e14283  # lbu x5, 270(x2)
    .word 0x00e74303  # lbu x6, 14(x14)
    .word 0x00c37333  # and x6, x6, x12
    .word 0x0062e2b3  # or x5, x5, x6
    .word 0x10510723  # sb x5, 270(x2)
    .word 0x10f14283  # lbu x5, 271(x2)
    .word 0x00f74303  # lbu x6, 15(x14)
    .word 0x00c37333  # and x6, x6, x12
    .word 0x0062e2b3  # or x5, x5, x6
    .word 0x105107a3  # sb x5, 271(x2)
    .word 0x11014283  # lbu x5, 272(x2)
    .word 0x01074303  # lbu x6, 16(x14)
    .word 0x00c37333  # and x6, x6, x12
    .word 0x0062e2b3  # or x5, x5, x6
    .word 0x10510823  # sb x5, 272(x2)
    .word 0x11114283  # lbu x5, 273(x2)
    .word 0x01174303  # lbu x6, 17(x14)
    .word 0x00c37333  # and x6, x6, x12
    .word 0x0062e2b3  # or x5, x5, x6
    .word 0x105108a3  # sb x5, 273(x2)
    .word 0x11214283  # lbu x5, 274(x2)
    .word 0x01274303  # lbu x6, 18(x14)
    .word 0x00c37333  # and x6, x6, x12
    .word 0x0062e2b3  # or x5, x5, x6
    .word 0x10510923  # sb x5, 274(x2)
    .word 0x11314283  # lbu x5, 275(x2)
    .word 0x01374303  # lbu x6, 19(x14)
    .word 0x00c37333  # and x6, x6, x12
    .word 0x0062e2b3  # or x5, x5, x6
    .word 0x105109a3  # sb x5, 275(x2)
    .word 0xff168293  # addi x5, x13, -15
    .word 0xea0292e3  # bne x5, x0, -348
    # the result
    .word 0x00000513  # addi x10, x0, 0
    # parameter 2: the array, back
    .word 0x10410293  # addi x5, x2, 260
    .word 0x12c12303  # lw x6, 300(x2)
    .word 0x01028393  # addi x7, x5, 16
    .word 0x06000f6f  # jal x30, 96
    # above the frame
    .word 0x12010293  # addi x5, x2, 288
    # the caller's registers
    # the caller's x2
    .word 0x01028293  # addi x5, x5, 16
    .cfi_def_cfa 5, 0
    # all the room, wiped upward
    .word 0x00012023  # sw x0, 0(x2)
    .word 0x00012223  # sw x0, 4(x2)
    .word 0x00012423  # sw x0, 8(x2)
    .word 0x00012623  # sw x0, 12(x2)
    .word 0x01010113  # addi x2, x2, 16
    .word 0xfe5116e3  # bne x2, x5, -20
    .cfi_def_cfa 2, 0
    # temporaries, wiped
    .word 0x00000293  # addi x5, x0, 0
    .word 0x00000313  # addi x6, x0, 0
    .word 0x00000393  # addi x7, x0, 0
    .word 0x00000593  # addi x11, x0, 0
    .word 0x00000613  # addi x12, x0, 0
    .word 0x00000693  # addi x13, x0, 0
    .word 0x00000713  # addi x14, x0, 0
    .word 0x00000793  # addi x15, x0, 0
    .word 0x00000813  # addi x16, x0, 0
    .word 0x00000893  # addi x17, x0, 0
    .word 0x00000e13  # addi x28, x0, 0
    .word 0x00000e93  # addi x29, x0, 0
    .word 0x00000f13  # addi x30, x0, 0
    .word 0x00000f93  # addi x31, x0, 0
    # back
    .word 0x00008067  # jalr x0, 0(x1)
    # from x5 to x6 up to x7, and back
    .cfi_def_cfa 2, 304
    .word 0x0062ee33  # or x28, x5, x6
    .word 0x003e7e13  # andi x28, x28, 3
    .word 0x000e0e63  # beq x28, x0, 28
    .word 0x0002ce03  # lbu x28, 0(x5)
    .word 0x01c30023  # sb x28, 0(x6)
    .word 0x00128293  # addi x5, x5, 1
    .word 0x00130313  # addi x6, x6, 1
    .word 0xfe7298e3  # bne x5, x7, -16
    .word 0x0300006f  # jal x0, 48
    .word 0x0002ae03  # lw x28, 0(x5)
    .word 0x01c32023  # sw x28, 0(x6)
    .word 0x0042ae03  # lw x28, 4(x5)
    .word 0x01c32223  # sw x28, 4(x6)
    .word 0x0082ae03  # lw x28, 8(x5)
    .word 0x01c32423  # sw x28, 8(x6)
    .word 0x00c2ae03  # lw x28, 12(x5)
    .word 0x01c32623  # sw x28, 12(x6)
    .word 0x01028293  # addi x5, x5, 16
    .word 0x01030313  # addi x6, x6, 16
    .word 0xfc729ce3  # bne x5, x7, -40
    .word 0x000f0067  # jalr x0, 0(x30)
    .cfi_endproc
    .size lookup_bytes_16, . - lookup_bytes_16
    .option pop
