# siphash24: made by factc 1.0.0 function; 307 words, 176 bytes of stack, profile 1
    .option push
    .option norvc
    .option norelax
    .cfi_sections .debug_frame
    .section .text.siphash24, "ax", @progbits
    .p2align 2
    .globl siphash24
    .type siphash24, @function
siphash24:
    .cfi_startproc
    # room above the frame
    .word 0xfc010113  # addi x2, x2, -64
    .cfi_def_cfa_offset 64
    # the caller's registers
    .word 0x01212023  # sw x18, 0(x2)
    .cfi_offset 18, -64
    .word 0x01312223  # sw x19, 4(x2)
    .cfi_offset 19, -60
    .word 0x01412423  # sw x20, 8(x2)
    .cfi_offset 20, -56
    .word 0x01512623  # sw x21, 12(x2)
    .cfi_offset 21, -52
    .word 0x01612823  # sw x22, 16(x2)
    .cfi_offset 22, -48
    .word 0x01712a23  # sw x23, 20(x2)
    .cfi_offset 23, -44
    .word 0x01812c23  # sw x24, 24(x2)
    .cfi_offset 24, -40
    .word 0x01912e23  # sw x25, 28(x2)
    .cfi_offset 25, -36
    .word 0x03a12023  # sw x26, 32(x2)
    .cfi_offset 26, -32
    .word 0x03b12223  # sw x27, 36(x2)
    .cfi_offset 27, -28
    # arguments that are needed behind the body
    .word 0x02a12823  # sw x10, 48(x2)
    .word 0x02b12a23  # sw x11, 52(x2)
    .word 0x02c12c23  # sw x12, 56(x2)
    .word 0x02d12e23  # sw x13, 60(x2)
    # the frame's base
    .word 0xf9010113  # addi x2, x2, -112
    .cfi_def_cfa 2, 176
    # parameter 0: an array
    .word 0x00050293  # addi x5, x10, 0
    .word 0x00010313  # addi x6, x2, 0
    .word 0x01028393  # addi x7, x5, 16
    .word 0x44400f6f  # jal x30, 1092
    # parameter 1: an array
    .word 0x00058293  # addi x5, x11, 0
    .word 0x01010313  # addi x6, x2, 16
    .word 0x03c28393  # addi x7, x5, 60
    .word 0x43400f6f  # jal x30, 1076
    .word 0x0002ce03  # lbu x28, 0(x5)
    .word 0x01c30023  # sb x28, 0(x6)
    .word 0x0012ce03  # lbu x28, 1(x5)
    .word 0x01c300a3  # sb x28, 1(x6)
    .word 0x0022ce03  # lbu x28, 2(x5)
    .word 0x01c30123  # sb x28, 2(x6)
    # parameter 2: a word
    .word 0x04c12823  # sw x12, 80(x2)
    # the body
    .word 0x05012503  # lw x10, 80(x2)
    .word 0x00000b13  # addi x22, x0, 0
    .word 0x00000d13  # addi x26, x0, 0
    .word 0x00012983  # lw x19, 0(x2)
    .word 0x00412883  # lw x17, 4(x2)
    .word 0x00812903  # lw x18, 8(x2)
    .word 0x00c12c03  # lw x24, 12(x2)
    .word 0x736f7337  # lui x6, 0x736f7
    .word 0xd6530313  # addi x6, x6, -667
    .word 0x0068c5b3  # xor x11, x17, x6
    .word 0x70736337  # lui x6, 0x70736
    .word 0x57530313  # addi x6, x6, 1397
    .word 0x0069c633  # xor x12, x19, x6
    .word 0x646f7337  # lui x6, 0x646f7
    .word 0x26130313  # addi x6, x6, 609
    .word 0x006c46b3  # xor x13, x24, x6
    .word 0x6e647337  # lui x6, 0x6e647
    .word 0xf6d30313  # addi x6, x6, -147
    .word 0x00694733  # xor x14, x18, x6
    .word 0x6c796337  # lui x6, 0x6c796
    .word 0x76530313  # addi x6, x6, 1893
    .word 0x0068c7b3  # xor x15, x17, x6
    .word 0x6e657337  # lui x6, 0x6e657
    .word 0x26130313  # addi x6, x6, 609
    .word 0x0069c833  # xor x16, x19, x6
    .word 0x74656337  # lui x6, 0x74656
    .word 0x46230313  # addi x6, x6, 1122
    .word 0x006c48b3  # xor x17, x24, x6
    .word 0x79746337  # lui x6, 0x79746
    .word 0x57330313  # addi x6, x6, 1395
    .word 0x00694933  # xor x18, x18, x6
    .word 0x03f53293  # sltiu x5, x10, 63
    .word 0x03f00393  # addi x7, x0, 63
    .word 0x405002b3  # sub x5, x0, x5
    .word 0x00754333  # xor x6, x10, x7
    .word 0x00537333  # and x6, x6, x5
    .word 0x0063ca33  # xor x20, x7, x6
    .word 0x003a5293  # srli x5, x20, 3
    .word 0x00128a93  # addi x21, x5, 1
    .word 0x06012023  # sw x0, 96(x2)
    .word 0x03fa7293  # andi x5, x20, 63
    .word 0x0032d293  # srli x5, x5, 3
    .word 0x00228293  # addi x5, x5, 2
    .word 0x06512223  # sw x5, 100(x2)
    .word 0x06012303  # lw x6, 96(x2)
    .word 0x06412283  # lw x5, 100(x2)
    .word 0x005332b3  # sltu x5, x6, x5
    .word 0x00029463  # bne x5, x0, 8
    .word 0x29c0006f  # jal x0, 668
    .word 0x00030b13  # addi x22, x6, 0
    .word 0x00000b93  # addi x23, x0, 0
    .word 0x00000c13  # addi x24, x0, 0
    .word 0x015b32b3  # sltu x5, x22, x21
    .word 0x008b3313  # sltiu x6, x22, 8
    .word 0x0062f2b3  # and x5, x5, x6
    .word 0x12028063  # beq x5, x0, 288
    .word 0x003b1c93  # slli x25, x22, 3
    .word 0x002c8db3  # add x27, x25, x2
    .word 0x014cb2b3  # sltu x5, x25, x20
    .word 0x03fcb313  # sltiu x6, x25, 63
    .word 0x0062f2b3  # and x5, x5, x6
    .word 0x00028463  # beq x5, x0, 8
    .word 0x010dcb83  # lbu x23, 16(x27)
    .word 0x004c8293  # addi x5, x25, 4
    .word 0x0142b2b3  # sltu x5, x5, x20
    .word 0x03bcb313  # sltiu x6, x25, 59
    .word 0x0062f2b3  # and x5, x5, x6
    .word 0x00028463  # beq x5, x0, 8
    .word 0x014dcc03  # lbu x24, 20(x27)
    .word 0x003b1293  # slli x5, x22, 3
    .word 0x00128c93  # addi x25, x5, 1
    .word 0x002c8db3  # add x27, x25, x2
    .word 0x014cb2b3  # sltu x5, x25, x20
    .word 0x03fcb313  # sltiu x6, x25, 63
    .word 0x0062f2b3  # and x5, x5, x6
    .word 0x00028863  # beq x5, x0, 16
    .word 0x010dc303  # lbu x6, 16(x27)
    .word 0x00831313  # slli x6, x6, 8
    .word 0x006bebb3  # or x23, x23, x6
    .word 0x004c8293  # addi x5, x25, 4
    .word 0x0142b2b3  # sltu x5, x5, x20
    .word 0x03bcb313  # sltiu x6, x25, 59
    .word 0x0062f2b3  # and x5, x5, x6
    .word 0x00028863  # beq x5, x0, 16
    .word 0x014dc303  # lbu x6, 20(x27)
    .word 0x00831313  # slli x6, x6, 8
    .word 0x006c6c33  # or x24, x24, x6
    .word 0x003b1293  # slli x5, x22, 3
    .word 0x00228c93  # addi x25, x5, 2
    .word 0x002c8db3  # add x27, x25, x2
    .word 0x014cb2b3  # sltu x5, x25, x20
    .word 0x03fcb313  # sltiu x6, x25, 63
    .word 0x0062f2b3  # and x5, x5, x6
    .word 0x00028863  # beq x5, x0, 16
    .word 0x010dc303  # lbu x6, 16(x27)
    .word 0x01031313  # slli x6, x6, 16
    .word 0x006bebb3  # or x23, x23, x6
    .word 0x004c8293  # addi x5, x25, 4
    .word 0x0142b2b3  # sltu x5, x5, x20
    .word 0x03bcb313  # sltiu x6, x25, 59
    .word 0x0062f2b3  # and x5, x5, x6
    .word 0x00028863  # beq x5, x0, 16
    .word 0x014dc303  # lbu x6, 20(x27)
    .word 0x01031313  # slli x6, x6, 16
    .word 0x006c6c33  # or x24, x24, x6
    .word 0x003b1293  # slli x5, x22, 3
    .word 0x00328c93  # addi x25, x5, 3
    .word 0x002c8db3  # add x27, x25, x2
    .word 0x014cb2b3  # sltu x5, x25, x20
    .word 0x03fcb313  # sltiu x6, x25, 63
    .word 0x0062f2b3  # and x5, x5, x6
    .word 0x00028863  # beq x5, x0, 16
    .word 0x010dc303  # lbu x6, 16(x27)
    .word 0x01831313  # slli x6, x6, 24
    .word 0x006bebb3  # or x23, x23, x6
    .word 0x004c8293  # addi x5, x25, 4
    .word 0x0142b2b3  # sltu x5, x5, x20
    .word 0x03bcb313  # sltiu x6, x25, 59
    .word 0x0062f2b3  # and x5, x5, x6
    .word 0x00028863  # beq x5, x0, 16
    .word 0x014dc303  # lbu x6, 20(x27)
    .word 0x01831313  # slli x6, x6, 24
    .word 0x006c6c33  # or x24, x24, x6
    .word 0x001b0293  # addi x5, x22, 1
    .word 0x01529663  # bne x5, x21, 12
    .word 0x018a1313  # slli x6, x20, 24
    .word 0x006c6c33  # or x24, x24, x6
    .word 0x01794933  # xor x18, x18, x23
    .word 0x0188c8b3  # xor x17, x17, x24
    .word 0x015b1463  # bne x22, x21, 8
    .word 0x0ff84813  # xori x16, x16, 255
    .word 0x06012423  # sw x0, 104(x2)
    .word 0x415b02b3  # sub x5, x22, x21
    .word 0x005032b3  # sltu x5, x0, x5
    .word 0x00400313  # addi x6, x0, 4
    .word 0x00200393  # addi x7, x0, 2
    .word 0xfff28293  # addi x5, x5, -1
    .word 0x00734333  # xor x6, x6, x7
    .word 0x00537333  # and x6, x6, x5
    .word 0x0063c2b3  # xor x5, x7, x6
    .word 0x06512623  # sw x5, 108(x2)
    .word 0x06812303  # lw x6, 104(x2)
    .word 0x06c12283  # lw x5, 108(x2)
    .word 0x005332b3  # sltu x5, x6, x5
    .word 0x00029463  # bne x5, x0, 8
    .word 0x0f80006f  # jal x0, 248
    .word 0x00030d13  # addi x26, x6, 0
    .word 0x00e60633  # add x12, x12, x14
    .word 0x00d582b3  # add x5, x11, x13
    .word 0x00e63333  # sltu x6, x12, x14
    .word 0x006285b3  # add x11, x5, x6
    .word 0x00d71293  # slli x5, x14, 13
    .word 0x0136d313  # srli x6, x13, 19
    .word 0x0062e9b3  # or x19, x5, x6
    .word 0x00d69293  # slli x5, x13, 13
    .word 0x01375313  # srli x6, x14, 19
    .word 0x0062e6b3  # or x13, x5, x6
    .word 0x00c9c733  # xor x14, x19, x12
    .word 0x00b6c6b3  # xor x13, x13, x11
    .word 0x00060993  # addi x19, x12, 0
    .word 0x00058613  # addi x12, x11, 0
    .word 0x00098593  # addi x11, x19, 0
    .word 0x01280833  # add x16, x16, x18
    .word 0x011782b3  # add x5, x15, x17
    .word 0x01283333  # sltu x6, x16, x18
    .word 0x006287b3  # add x15, x5, x6
    .word 0x01091293  # slli x5, x18, 16
    .word 0x0108d313  # srli x6, x17, 16
    .word 0x0062e9b3  # or x19, x5, x6
    .word 0x01089293  # slli x5, x17, 16
    .word 0x01095313  # srli x6, x18, 16
    .word 0x0062e8b3  # or x17, x5, x6
    .word 0x0109c933  # xor x18, x19, x16
    .word 0x00f8c8b3  # xor x17, x17, x15
    .word 0x01260633  # add x12, x12, x18
    .word 0x011582b3  # add x5, x11, x17
    .word 0x01263333  # sltu x6, x12, x18
    .word 0x006285b3  # add x11, x5, x6
    .word 0x01591293  # slli x5, x18, 21
    .word 0x00b8d313  # srli x6, x17, 11
    .word 0x0062e9b3  # or x19, x5, x6
    .word 0x01589293  # slli x5, x17, 21
    .word 0x00b95313  # srli x6, x18, 11
    .word 0x0062e8b3  # or x17, x5, x6
    .word 0x00c9c933  # xor x18, x19, x12
    .word 0x00b8c8b3  # xor x17, x17, x11
    .word 0x00e80833  # add x16, x16, x14
    .word 0x00d782b3  # add x5, x15, x13
    .word 0x00e83333  # sltu x6, x16, x14
    .word 0x006287b3  # add x15, x5, x6
    .word 0x01171293  # slli x5, x14, 17
    .word 0x00f6d313  # srli x6, x13, 15
    .word 0x0062e9b3  # or x19, x5, x6
    .word 0x01169293  # slli x5, x13, 17
    .word 0x00f75313  # srli x6, x14, 15
    .word 0x0062e6b3  # or x13, x5, x6
    .word 0x0109c733  # xor x14, x19, x16
    .word 0x00f6c6b3  # xor x13, x13, x15
    .word 0x00080993  # addi x19, x16, 0
    .word 0x00078813  # addi x16, x15, 0
    .word 0x00098793  # addi x15, x19, 0
    .word 0x001d0d13  # addi x26, x26, 1
    .word 0x06c12283  # lw x5, 108(x2)
    .word 0x005d32b3  # sltu x5, x26, x5
    .word 0xf0029ee3  # bne x5, x0, -228
    .word 0xfffd0d13  # addi x26, x26, -1
    .word 0x0040006f  # jal x0, 4
    .word 0x01764633  # xor x12, x12, x23
    .word 0x0185c5b3  # xor x11, x11, x24
    .word 0x001b0b13  # addi x22, x22, 1
    .word 0x06412283  # lw x5, 100(x2)
    .word 0x005b32b3  # sltu x5, x22, x5
    .word 0xd6029ce3  # bne x5, x0, -648
    .word 0xfffb0b13  # addi x22, x22, -1
    .word 0x0040006f  # jal x0, 4
    .word 0x00e642b3  # xor x5, x12, x14
    .word 0x0102c2b3  # xor x5, x5, x16
    .word 0x0122c9b3  # xor x19, x5, x18
    .word 0x00d5c2b3  # xor x5, x11, x13
    .word 0x00f2c2b3  # xor x5, x5, x15
    .word 0x0112c8b3  # xor x17, x5, x17
    .word 0x05312a23  # sw x19, 84(x2)
    .word 0x05112c23  # sw x17, 88(x2)
    # the result
    .word 0x00000513  # addi x10, x0, 0
    # parameter 3: the array, back
    .word 0x05410293  # addi x5, x2, 84
    .word 0x0ac12303  # lw x6, 172(x2)
    .word 0x00828393  # addi x7, x5, 8
    .word 0x08800f6f  # jal x30, 136
    # above the frame
    .word 0x07010293  # addi x5, x2, 112
    # the caller's registers
    .word 0x0002a903  # lw x18, 0(x5)
    .cfi_restore 18
    .word 0x0042a983  # lw x19, 4(x5)
    .cfi_restore 19
    .word 0x0082aa03  # lw x20, 8(x5)
    .cfi_restore 20
    .word 0x00c2aa83  # lw x21, 12(x5)
    .cfi_restore 21
    .word 0x0102ab03  # lw x22, 16(x5)
    .cfi_restore 22
    .word 0x0142ab83  # lw x23, 20(x5)
    .cfi_restore 23
    .word 0x0182ac03  # lw x24, 24(x5)
    .cfi_restore 24
    .word 0x01c2ac83  # lw x25, 28(x5)
    .cfi_restore 25
    .word 0x0202ad03  # lw x26, 32(x5)
    .cfi_restore 26
    .word 0x0242ad83  # lw x27, 36(x5)
    .cfi_restore 27
    # the caller's x2
    .word 0x04028293  # addi x5, x5, 64
    .cfi_def_cfa 5, 0
    # all the room, wiped upward
    .word 0x00012023  # sw x0, 0(x2)
    .word 0x00012223  # sw x0, 4(x2)
    .word 0x00012423  # sw x0, 8(x2)
    .word 0x00012623  # sw x0, 12(x2)
    .word 0x01010113  # addi x2, x2, 16
    .word 0xfe5116e3  # bne x2, x5, -20
    .cfi_def_cfa 2, 0
    # temporaries, wiped
    .word 0x00000293  # addi x5, x0, 0
    .word 0x00000313  # addi x6, x0, 0
    .word 0x00000393  # addi x7, x0, 0
    .word 0x00000593  # addi x11, x0, 0
    .word 0x00000613  # addi x12, x0, 0
    .word 0x00000693  # addi x13, x0, 0
    .word 0x00000713  # addi x14, x0, 0
    .word 0x00000793  # addi x15, x0, 0
    .word 0x00000813  # addi x16, x0, 0
    .word 0x00000893  # addi x17, x0, 0
    .word 0x00000e13  # addi x28, x0, 0
    .word 0x00000e93  # addi x29, x0, 0
    .word 0x00000f13  # addi x30, x0, 0
    .word 0x00000f93  # addi x31, x0, 0
    # back
    .word 0x00008067  # jalr x0, 0(x1)
    # from x5 to x6 up to x7, and back
    .cfi_def_cfa 2, 176
    .cfi_offset 18, -64
    .cfi_offset 19, -60
    .cfi_offset 20, -56
    .cfi_offset 21, -52
    .cfi_offset 22, -48
    .cfi_offset 23, -44
    .cfi_offset 24, -40
    .cfi_offset 25, -36
    .cfi_offset 26, -32
    .cfi_offset 27, -28
    .word 0x0062ee33  # or x28, x5, x6
    .word 0x003e7e13  # andi x28, x28, 3
    .word 0x000e0e63  # beq x28, x0, 28
    .word 0x0002ce03  # lbu x28, 0(x5)
    .word 0x01c30023  # sb x28, 0(x6)
    .word 0x00128293  # addi x5, x5, 1
    .word 0x00130313  # addi x6, x6, 1
    .word 0xfe7298e3  # bne x5, x7, -16
    .word 0x0180006f  # jal x0, 24
    .word 0x0002ae03  # lw x28, 0(x5)
    .word 0x01c32023  # sw x28, 0(x6)
    .word 0x00428293  # addi x5, x5, 4
    .word 0x00430313  # addi x6, x6, 4
    .word 0xfe7298e3  # bne x5, x7, -16
    .word 0x000f0067  # jalr x0, 0(x30)
    .cfi_endproc
    .size siphash24, . - siphash24
    .option pop
