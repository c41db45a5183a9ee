# p256_to_bytes: made by factc 1.0.0 function; 331 words, 112 bytes of stack, profile 1
    .option push
    .option norvc
    .option norelax
    .cfi_sections .debug_frame
    .section .text.p256_to_bytes, "ax", @progbits
    .p2align 2
    .globl p256_to_bytes
    .type p256_to_bytes, @function
p256_to_bytes:
    .cfi_startproc
    # room above the frame
    .word 0xfe010113  # addi x2, x2, -32
    .cfi_def_cfa_offset 32
    # the caller's registers
    .word 0x01212023  # sw x18, 0(x2)
    .cfi_offset 18, -32
    .word 0x01312223  # sw x19, 4(x2)
    .cfi_offset 19, -28
    .word 0x01412423  # sw x20, 8(x2)
    .cfi_offset 20, -24
    # arguments that are needed behind the body
    .word 0x00a12c23  # sw x10, 24(x2)
    .word 0x00b12e23  # sw x11, 28(x2)
    # the frame's base
    .word 0xfb010113  # addi x2, x2, -80
    .cfi_def_cfa 2, 112
    # parameter 0: an array
    .word 0x00050293  # addi x5, x10, 0
    .word 0x00010313  # addi x6, x2, 0
    .word 0x02028393  # addi x7, x5, 32
    .word 0x4b000f6f  # jal x30, 1200
    # the body
    .word 0x00012683  # lw x13, 0(x2)
    .word 0x00412703  # lw x14, 4(x2)
    .word 0x00812783  # lw x15, 8(x2)
    .word 0x00c12503  # lw x10, 12(x2)
    .word 0x01012603  # lw x12, 16(x2)
    .word 0x01412903  # lw x18, 20(x2)
    .word 0x01812983  # lw x19, 24(x2)
    .word 0x01c12a03  # lw x20, 28(x2)
    .word 0x00d50533  # add x10, x10, x13
    .word 0x00d535b3  # sltu x11, x10, x13
    .word 0x00050813  # addi x16, x10, 0
    .word 0x00b60533  # add x10, x12, x11
    .word 0x00b535b3  # sltu x11, x10, x11
    .word 0x00e50533  # add x10, x10, x14
    .word 0x00e53333  # sltu x6, x10, x14
    .word 0x006585b3  # add x11, x11, x6
    .word 0x00050893  # addi x17, x10, 0
    .word 0x00b90533  # add x10, x18, x11
    .word 0x00b535b3  # sltu x11, x10, x11
    .word 0x00f50533  # add x10, x10, x15
    .word 0x00f53333  # sltu x6, x10, x15
    .word 0x006585b3  # add x11, x11, x6
    .word 0x00050913  # addi x18, x10, 0
    .word 0x00b98533  # add x10, x19, x11
    .word 0x00b535b3  # sltu x11, x10, x11
    .word 0x01050533  # add x10, x10, x16
    .word 0x01053333  # sltu x6, x10, x16
    .word 0x006585b3  # add x11, x11, x6
    .word 0x00d50533  # add x10, x10, x13
    .word 0x00d53333  # sltu x6, x10, x13
    .word 0x006585b3  # add x11, x11, x6
    .word 0x00050993  # addi x19, x10, 0
    .word 0x00ba0533  # add x10, x20, x11
    .word 0x00b535b3  # sltu x11, x10, x11
    .word 0x01150533  # add x10, x10, x17
    .word 0x01153333  # sltu x6, x10, x17
    .word 0x006585b3  # add x11, x11, x6
    .word 0x00e50533  # add x10, x10, x14
    .word 0x00e53333  # sltu x6, x10, x14
    .word 0x006585b3  # add x11, x11, x6
    .word 0x40d00633  # sub x12, x0, x13
    .word 0x00c50533  # add x10, x10, x12
    .word 0x00c53333  # sltu x6, x10, x12
    .word 0x006585b3  # add x11, x11, x6
    .word 0x00050a13  # addi x20, x10, 0
    .word 0x00058513  # addi x10, x11, 0
    .word 0x00b5b5b3  # sltu x11, x11, x11
    .word 0x01250533  # add x10, x10, x18
    .word 0x01253333  # sltu x6, x10, x18
    .word 0x006585b3  # add x11, x11, x6
    .word 0x00f50533  # add x10, x10, x15
    .word 0x00f53333  # sltu x6, x10, x15
    .word 0x006585b3  # add x11, x11, x6
    .word 0x40e00633  # sub x12, x0, x14
    .word 0x00c50533  # add x10, x10, x12
    .word 0x00c53333  # sltu x6, x10, x12
    .word 0x006585b3  # add x11, x11, x6
    .word 0x00d03333  # sltu x6, x0, x13
    .word 0x40668633  # sub x12, x13, x6
    .word 0x00c50533  # add x10, x10, x12
    .word 0x00c53333  # sltu x6, x10, x12
    .word 0x006585b3  # add x11, x11, x6
    .word 0x00050693  # addi x13, x10, 0
    .word 0x00058513  # addi x10, x11, 0
    .word 0x00b5b5b3  # sltu x11, x11, x11
    .word 0x01350533  # add x10, x10, x19
    .word 0x01353333  # sltu x6, x10, x19
    .word 0x006585b3  # add x11, x11, x6
    .word 0x01050533  # add x10, x10, x16
    .word 0x01053333  # sltu x6, x10, x16
    .word 0x006585b3  # add x11, x11, x6
    .word 0x40f00633  # sub x12, x0, x15
    .word 0x00c50533  # add x10, x10, x12
    .word 0x00c53333  # sltu x6, x10, x12
    .word 0x006585b3  # add x11, x11, x6
    .word 0x00e03333  # sltu x6, x0, x14
    .word 0x40670633  # sub x12, x14, x6
    .word 0x00c50533  # add x10, x10, x12
    .word 0x00c53333  # sltu x6, x10, x12
    .word 0x006585b3  # add x11, x11, x6
    .word 0x00050713  # addi x14, x10, 0
    .word 0x00058513  # addi x10, x11, 0
    .word 0x00b5b5b3  # sltu x11, x11, x11
    .word 0x01450533  # add x10, x10, x20
    .word 0x01453333  # sltu x6, x10, x20
    .word 0x006585b3  # add x11, x11, x6
    .word 0x01150533  # add x10, x10, x17
    .word 0x01153333  # sltu x6, x10, x17
    .word 0x006585b3  # add x11, x11, x6
    .word 0x41000633  # sub x12, x0, x16
    .word 0x00c50533  # add x10, x10, x12
    .word 0x00c53333  # sltu x6, x10, x12
    .word 0x006585b3  # add x11, x11, x6
    .word 0x00f03333  # sltu x6, x0, x15
    .word 0x40678633  # sub x12, x15, x6
    .word 0x00c50533  # add x10, x10, x12
    .word 0x00c53333  # sltu x6, x10, x12
    .word 0x006585b3  # add x11, x11, x6
    .word 0x00050793  # addi x15, x10, 0
    .word 0x00058513  # addi x10, x11, 0
    .word 0x00b5b5b3  # sltu x11, x11, x11
    .word 0x01250533  # add x10, x10, x18
    .word 0x01253333  # sltu x6, x10, x18
    .word 0x006585b3  # add x11, x11, x6
    .word 0x41100633  # sub x12, x0, x17
    .word 0x00c50533  # add x10, x10, x12
    .word 0x00c53333  # sltu x6, x10, x12
    .word 0x006585b3  # add x11, x11, x6
    .word 0x01003333  # sltu x6, x0, x16
    .word 0x40680633  # sub x12, x16, x6
    .word 0x00c50533  # add x10, x10, x12
    .word 0x00c53333  # sltu x6, x10, x12
    .word 0x006585b3  # add x11, x11, x6
    .word 0x00050813  # addi x16, x10, 0
    .word 0x00058513  # addi x10, x11, 0
    .word 0x00b5b5b3  # sltu x11, x11, x11
    .word 0x01350533  # add x10, x10, x19
    .word 0x01353333  # sltu x6, x10, x19
    .word 0x006585b3  # add x11, x11, x6
    .word 0x41200633  # sub x12, x0, x18
    .word 0x00c50533  # add x10, x10, x12
    .word 0x00c53333  # sltu x6, x10, x12
    .word 0x006585b3  # add x11, x11, x6
    .word 0x01103333  # sltu x6, x0, x17
    .word 0x40688633  # sub x12, x17, x6
    .word 0x00c50533  # add x10, x10, x12
    .word 0x00c53333  # sltu x6, x10, x12
    .word 0x006585b3  # add x11, x11, x6
    .word 0x00050893  # addi x17, x10, 0
    .word 0x00058513  # addi x10, x11, 0
    .word 0x00b5b5b3  # sltu x11, x11, x11
    .word 0x01450533  # add x10, x10, x20
    .word 0x01453333  # sltu x6, x10, x20
    .word 0x006585b3  # add x11, x11, x6
    .word 0x41300633  # sub x12, x0, x19
    .word 0x00c50533  # add x10, x10, x12
    .word 0x00c53333  # sltu x6, x10, x12
    .word 0x006585b3  # add x11, x11, x6
    .word 0x01203333  # sltu x6, x0, x18
    .word 0x40690633  # sub x12, x18, x6
    .word 0x00c50533  # add x10, x10, x12
    .word 0x00c53333  # sltu x6, x10, x12
    .word 0x006585b3  # add x11, x11, x6
    .word 0x00050913  # addi x18, x10, 0
    .word 0x00058513  # addi x10, x11, 0
    .word 0x00b5b5b3  # sltu x11, x11, x11
    .word 0x41400633  # sub x12, x0, x20
    .word 0x00c50533  # add x10, x10, x12
    .word 0x00c53333  # sltu x6, x10, x12
    .word 0x006585b3  # add x11, x11, x6
    .word 0x01303333  # sltu x6, x0, x19
    .word 0x40698633  # sub x12, x19, x6
    .word 0x00c50533  # add x10, x10, x12
    .word 0x00c53333  # sltu x6, x10, x12
    .word 0x006585b3  # add x11, x11, x6
    .word 0x00050993  # addi x19, x10, 0
    .word 0x00058513  # addi x10, x11, 0
    .word 0x00b5b5b3  # sltu x11, x11, x11
    .word 0x01403333  # sltu x6, x0, x20
    .word 0x406a0633  # sub x12, x20, x6
    .word 0x00c50533  # add x10, x10, x12
    .word 0x00c53333  # sltu x6, x10, x12
    .word 0x006585b3  # add x11, x11, x6
    .word 0x00168693  # addi x13, x13, 1
    .word 0x0016b613  # sltiu x12, x13, 1
    .word 0x00c70733  # add x14, x14, x12
    .word 0x00c73633  # sltu x12, x14, x12
    .word 0x00c787b3  # add x15, x15, x12
    .word 0x00c7b633  # sltu x12, x15, x12
    .word 0x00100293  # addi x5, x0, 1
    .word 0x40c28633  # sub x12, x5, x12
    .word 0x00080a13  # addi x20, x16, 0
    .word 0x40c80833  # sub x16, x16, x12
    .word 0x00ca3633  # sltu x12, x20, x12
    .word 0x00088a13  # addi x20, x17, 0
    .word 0x40c888b3  # sub x17, x17, x12
    .word 0x00ca3633  # sltu x12, x20, x12
    .word 0x00090a13  # addi x20, x18, 0
    .word 0x40c90933  # sub x18, x18, x12
    .word 0x00ca3633  # sltu x12, x20, x12
    .word 0x00160613  # addi x12, x12, 1
    .word 0x00098a13  # addi x20, x19, 0
    .word 0x40c989b3  # sub x19, x19, x12
    .word 0x00100293  # addi x5, x0, 1
    .word 0x00ca3333  # sltu x6, x20, x12
    .word 0x40628633  # sub x12, x5, x6
    .word 0x00c50a33  # add x20, x10, x12
    .word 0x00ca3633  # sltu x12, x20, x12
    .word 0x00100293  # addi x5, x0, 1
    .word 0x40b282b3  # sub x5, x5, x11
    .word 0x40c285b3  # sub x11, x5, x12
    .word 0x00068613  # addi x12, x13, 0
    .word 0x40b686b3  # sub x13, x13, x11
    .word 0x00b63533  # sltu x10, x12, x11
    .word 0x00070613  # addi x12, x14, 0
    .word 0x40a70733  # sub x14, x14, x10
    .word 0x00a63533  # sltu x10, x12, x10
    .word 0x00078613  # addi x12, x15, 0
    .word 0x40a787b3  # sub x15, x15, x10
    .word 0x00a63533  # sltu x10, x12, x10
    .word 0x40a58533  # sub x10, x11, x10
    .word 0x00a80833  # add x16, x16, x10
    .word 0x00a83533  # sltu x10, x16, x10
    .word 0x00a888b3  # add x17, x17, x10
    .word 0x00a8b533  # sltu x10, x17, x10
    .word 0x00a90933  # add x18, x18, x10
    .word 0x00a93533  # sltu x10, x18, x10
    .word 0x00b50533  # add x10, x10, x11
    .word 0x00a989b3  # add x19, x19, x10
    .word 0x00a9b533  # sltu x10, x19, x10
    .word 0x00aa02b3  # add x5, x20, x10
    .word 0x40b28a33  # sub x20, x5, x11
    .word 0x02d10fa3  # sb x13, 63(x2)
    .word 0x0086d293  # srli x5, x13, 8
    .word 0x02510f23  # sb x5, 62(x2)
    .word 0x0106d293  # srli x5, x13, 16
    .word 0x02510ea3  # sb x5, 61(x2)
    .word 0x0186d293  # srli x5, x13, 24
    .word 0x02510e23  # sb x5, 60(x2)
    .word 0x02e10da3  # sb x14, 59(x2)
    .word 0x00875293  # srli x5, x14, 8
    .word 0x02510d23  # sb x5, 58(x2)
    .word 0x01075293  # srli x5, x14, 16
    .word 0x02510ca3  # sb x5, 57(x2)
    .word 0x01875293  # srli x5, x14, 24
    .word 0x02510c23  # sb x5, 56(x2)
    .word 0x02f10ba3  # sb x15, 55(x2)
    .word 0x0087d293  # srli x5, x15, 8
    .word 0x02510b23  # sb x5, 54(x2)
    .word 0x0107d293  # srli x5, x15, 16
    .word 0x02510aa3  # sb x5, 53(x2)
    .word 0x0187d293  # srli x5, x15, 24
    .word 0x02510a23  # sb x5, 52(x2)
    .word 0x030109a3  # sb x16, 51(x2)
    .word 0x00885293  # srli x5, x16, 8
    .word 0x02510923  # sb x5, 50(x2)
    .word 0x01085293  # srli x5, x16, 16
    .word 0x025108a3  # sb x5, 49(x2)
    .word 0x01885293  # srli x5, x16, 24
    .word 0x02510823  # sb x5, 48(x2)
    .word 0x031107a3  # sb x17, 47(x2)
    .word 0x0088d293  # srli x5, x17, 8
    .word 0x02510723  # sb x5, 46(x2)
    .word 0x0108d293  # srli x5, x17, 16
    .word 0x025106a3  # sb x5, 45(x2)
    .word 0x0188d293  # srli x5, x17, 24
    .word 0x02510623  # sb x5, 44(x2)
    .word 0x032105a3  # sb x18, 43(x2)
    .word 0x00895293  # srli x5, x18, 8
    .word 0x02510523  # sb x5, 42(x2)
    .word 0x01095293  # srli x5, x18, 16
    .word 0x025104a3  # sb x5, 41(x2)
    .word 0x01895293  # srli x5, x18, 24
    .word 0x02510423  # sb x5, 40(x2)
    .word 0x033103a3  # sb x19, 39(x2)
    .word 0x0089d293  # srli x5, x19, 8
    .word 0x02510323  # sb x5, 38(x2)
    .word 0x0109d293  # srli x5, x19, 16
    .word 0x025102a3  # sb x5, 37(x2)
    .word 0x0189d293  # srli x5, x19, 24
    .word 0x02510223  # sb x5, 36(x2)
    .word 0x034101a3  # sb x20, 35(x2)
    .word 0x008a5293  # srli x5, x20, 8
    .word 0x02510123  # sb x5, 34(x2)
    .word 0x010a5293  # srli x5, x20, 16
    .word 0x025100a3  # sb x5, 33(x2)
    .word 0x018a5293  # srli x5, x20, 24
    .word 0x02510023  # sb x5, 32(x2)
    # the result
    .word 0x00000513  # addi x10, x0, 0
    # parameter 1: the array, back
    .word 0x02010293  # addi x5, x2, 32
    .word 0x06c12303  # lw x6, 108(x2)
    .word 0x02028393  # addi x7, x5, 32
    .word 0x06c00f6f  # jal x30, 108
    # above the frame
    .word 0x05010293  # addi x5, x2, 80
    # the caller's registers
    .word 0x0002a903  # lw x18, 0(x5)
    .cfi_restore 18
    .word 0x0042a983  # lw x19, 4(x5)
    .cfi_restore 19
    .word 0x0082aa03  # lw x20, 8(x5)
    .cfi_restore 20
    # the caller's x2
    .word 0x02028293  # addi x5, x5, 32
    .cfi_def_cfa 5, 0
    # all the room, wiped upward
    .word 0x00012023  # sw x0, 0(x2)
    .word 0x00012223  # sw x0, 4(x2)
    .word 0x00012423  # sw x0, 8(x2)
    .word 0x00012623  # sw x0, 12(x2)
    .word 0x01010113  # addi x2, x2, 16
    .word 0xfe5116e3  # bne x2, x5, -20
    .cfi_def_cfa 2, 0
    # temporaries, wiped
    .word 0x00000293  # addi x5, x0, 0
    .word 0x00000313  # addi x6, x0, 0
    .word 0x00000393  # addi x7, x0, 0
    .word 0x00000593  # addi x11, x0, 0
    .word 0x00000613  # addi x12, x0, 0
    .word 0x00000693  # addi x13, x0, 0
    .word 0x00000713  # addi x14, x0, 0
    .word 0x00000793  # addi x15, x0, 0
    .word 0x00000813  # addi x16, x0, 0
    .word 0x00000893  # addi x17, x0, 0
    .word 0x00000e13  # addi x28, x0, 0
    .word 0x00000e93  # addi x29, x0, 0
    .word 0x00000f13  # addi x30, x0, 0
    .word 0x00000f93  # addi x31, x0, 0
    # back
    .word 0x00008067  # jalr x0, 0(x1)
    # from x5 to x6 up to x7, and back
    .cfi_def_cfa 2, 112
    .cfi_offset 18, -32
    .cfi_offset 19, -28
    .cfi_offset 20, -24
    .word 0x0062ee33  # or x28, x5, x6
    .word 0x003e7e13  # andi x28, x28, 3
    .word 0x000e0e63  # beq x28, x0, 28
    .word 0x0002ce03  # lbu x28, 0(x5)
    .word 0x01c30023  # sb x28, 0(x6)
    .word 0x00128293  # addi x5, x5, 1
    .word 0x00130313  # addi x6, x6, 1
    .word 0xfe7298e3  # bne x5, x7, -16
    .word 0x0300006f  # jal x0, 48
    .word 0x0002ae03  # lw x28, 0(x5)
    .word 0x01c32023  # sw x28, 0(x6)
    .word 0x0042ae03  # lw x28, 4(x5)
    .word 0x01c32223  # sw x28, 4(x6)
    .word 0x0082ae03  # lw x28, 8(x5)
    .word 0x01c32423  # sw x28, 8(x6)
    .word 0x00c2ae03  # lw x28, 12(x5)
    .word 0x01c32623  # sw x28, 12(x6)
    .word 0x01028293  # addi x5, x5, 16
    .word 0x01030313  # addi x6, x6, 16
    .word 0xfc729ce3  # bne x5, x7, -40
    .word 0x000f0067  # jalr x0, 0(x30)
    .cfi_endproc
    .size p256_to_bytes, . - p256_to_bytes
    .option pop
