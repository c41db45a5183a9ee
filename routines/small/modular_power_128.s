# modular_power_128: made by factc 1.0.0 function; 501 words and 21 shared, 288 bytes of stack, profile 1
    .option push
    .option norvc
    .option norelax
    .cfi_sections .debug_frame
    .section .text.modular_power_128, "ax", @progbits
    .p2align 2
    .globl modular_power_128
    .type modular_power_128, @function
modular_power_128:
    .cfi_startproc
    # room above the frame
    .word 0xfc010113  # addi x2, x2, -64
    .cfi_def_cfa_offset 64
    # the caller's registers
    .word 0x00812023  # sw x8, 0(x2)
    .cfi_offset 8, -64
    .word 0x00912223  # sw x9, 4(x2)
    .cfi_offset 9, -60
    .word 0x01212423  # sw x18, 8(x2)
    .cfi_offset 18, -56
    .word 0x01312623  # sw x19, 12(x2)
    .cfi_offset 19, -52
    .word 0x01412823  # sw x20, 16(x2)
    .cfi_offset 20, -48
    .word 0x01512a23  # sw x21, 20(x2)
    .cfi_offset 21, -44
    .word 0x01612c23  # sw x22, 24(x2)
    .cfi_offset 22, -40
    .word 0x01712e23  # sw x23, 28(x2)
    .cfi_offset 23, -36
    .word 0x03812023  # sw x24, 32(x2)
    .cfi_offset 24, -32
    .word 0x03912223  # sw x25, 36(x2)
    .cfi_offset 25, -28
    .word 0x03a12423  # sw x26, 40(x2)
    .cfi_offset 26, -24
    .word 0x03b12623  # sw x27, 44(x2)
    .cfi_offset 27, -20
    # arguments that are needed behind the body
    .word 0x02a12823  # sw x10, 48(x2)
    .word 0x02b12a23  # sw x11, 52(x2)
    .word 0x02c12c23  # sw x12, 56(x2)
    .word 0x02d12e23  # sw x13, 60(x2)
    # the frame's base
    .word 0xf2010113  # addi x2, x2, -224
    .cfi_def_cfa 2, 288
    # parameter 0: an array
    .word 0x00050293  # addi x5, x10, 0
    .word 0x00010313  # addi x6, x2, 0
    .word 0x02028393  # addi x7, x5, 32
    .word 0x0002ae03  # lw x28, 0(x5)
    .word 0x01c32023  # sw x28, 0(x6)
    .word 0x00428293  # addi x5, x5, 4
    .word 0x00430313  # addi x6, x6, 4
    .word 0xfe7298e3  # bne x5, x7, -16
    # parameter 1: an array
    .word 0x00058293  # addi x5, x11, 0
    .word 0x02010313  # addi x6, x2, 32
    .word 0x02028393  # addi x7, x5, 32
    .word 0x0002ae03  # lw x28, 0(x5)
    .word 0x01c32023  # sw x28, 0(x6)
    .word 0x00428293  # addi x5, x5, 4
    .word 0x00430313  # addi x6, x6, 4
    .word 0xfe7298e3  # bne x5, x7, -16
    # parameter 2: an array
    .word 0x00060293  # addi x5, x12, 0
    .word 0x04010313  # addi x6, x2, 64
    .word 0x02028393  # addi x7, x5, 32
    .word 0x0002ae03  # lw x28, 0(x5)
    .word 0x01c32023  # sw x28, 0(x6)
    .word 0x00428293  # addi x5, x5, 4
    .word 0x00430313  # addi x6, x6, 4
    .word 0xfe7298e3  # bne x5, x7, -16
    # the body
    .word 0x000102b7  # lui x5, 0x00010
    .word 0xfff28293  # addi x5, x5, -1
    .word 0x0a512e23  # sw x5, 188(x2)
    .word 0x04012283  # lw x5, 64(x2)
    .word 0x04412303  # lw x6, 68(x2)
    .word 0x01031313  # slli x6, x6, 16
    .word 0x0062e733  # or x14, x5, x6
    .word 0x04812283  # lw x5, 72(x2)
    .word 0x04c12303  # lw x6, 76(x2)
    .word 0x01031313  # slli x6, x6, 16
    .word 0x0062e7b3  # or x15, x5, x6
    .word 0x05012283  # lw x5, 80(x2)
    .word 0x05412303  # lw x6, 84(x2)
    .word 0x01031313  # slli x6, x6, 16
    .word 0x0062e833  # or x16, x5, x6
    .word 0x05812283  # lw x5, 88(x2)
    .word 0x05c12303  # lw x6, 92(x2)
    .word 0x01031313  # slli x6, x6, 16
    .word 0x0062e8b3  # or x17, x5, x6
    .word 0x08e12023  # sw x14, 128(x2)
    .word 0x0c012223  # sw x0, 196(x2)
    .word 0x00400293  # addi x5, x0, 4
    .word 0x0c512423  # sw x5, 200(x2)
    .word 0x0c412303  # lw x6, 196(x2)
    .word 0x0c812283  # lw x5, 200(x2)
    .word 0x005332b3  # sltu x5, x6, x5
    .word 0x00029463  # bne x5, x0, 8
    .word 0x0300006f  # jal x0, 48
    .word 0x08612c23  # sw x6, 152(x2)
    .word 0x00130313  # addi x6, x6, 1
    .word 0x0c612223  # sw x6, 196(x2)
    .word 0x08012283  # lw x5, 128(x2)
    .word 0x00200313  # addi x6, x0, 2
    .word 0x08012403  # lw x8, 128(x2)
    .word 0x028703b3  # mul x7, x14, x8
    .word 0x40730333  # sub x6, x6, x7
    .word 0x026282b3  # mul x5, x5, x6
    .word 0x08512023  # sw x5, 128(x2)
    .word 0xfc5ff06f  # jal x0, -60
    .word 0x08012283  # lw x5, 128(x2)
    .word 0x405002b3  # sub x5, x0, x5
    .word 0x08512023  # sw x5, 128(x2)
    .word 0x00100913  # addi x18, x0, 1
    .word 0x00000993  # addi x19, x0, 0
    .word 0x08012e23  # sw x0, 156(x2)
    .word 0x0a012023  # sw x0, 160(x2)
    .word 0x00012283  # lw x5, 0(x2)
    .word 0x00412303  # lw x6, 4(x2)
    .word 0x01031313  # slli x6, x6, 16
    .word 0x0062e2b3  # or x5, x5, x6
    .word 0x0a512223  # sw x5, 164(x2)
    .word 0x00812283  # lw x5, 8(x2)
    .word 0x00c12303  # lw x6, 12(x2)
    .word 0x01031313  # slli x6, x6, 16
    .word 0x0062e2b3  # or x5, x5, x6
    .word 0x0a512423  # sw x5, 168(x2)
    .word 0x01012283  # lw x5, 16(x2)
    .word 0x01412303  # lw x6, 20(x2)
    .word 0x01031313  # slli x6, x6, 16
    .word 0x0062e2b3  # or x5, x5, x6
    .word 0x0a512623  # sw x5, 172(x2)
    .word 0x01812283  # lw x5, 24(x2)
    .word 0x01c12303  # lw x6, 28(x2)
    .word 0x01031313  # slli x6, x6, 16
    .word 0x0062e2b3  # or x5, x5, x6
    .word 0x0a512823  # sw x5, 176(x2)
    .word 0x0c012223  # sw x0, 196(x2)
    .word 0x04000293  # addi x5, x0, 64
    .word 0x0c512423  # sw x5, 200(x2)
    .word 0x0c412303  # lw x6, 196(x2)
    .word 0x0c812283  # lw x5, 200(x2)
    .word 0x005332b3  # sltu x5, x6, x5
    .word 0x00029463  # bne x5, x0, 8
    .word 0x1e40006f  # jal x0, 484
    .word 0x08612a23  # sw x6, 148(x2)
    .word 0x00130313  # addi x6, x6, 1
    .word 0x0c612223  # sw x6, 196(x2)
    .word 0x0c012623  # sw x0, 204(x2)
    .word 0x00200293  # addi x5, x0, 2
    .word 0x0c512823  # sw x5, 208(x2)
    .word 0x0cc12303  # lw x6, 204(x2)
    .word 0x0d012283  # lw x5, 208(x2)
    .word 0x005332b3  # sltu x5, x6, x5
    .word 0x00029463  # bne x5, x0, 8
    .word 0x1b40006f  # jal x0, 436
    .word 0x08612c23  # sw x6, 152(x2)
    .word 0x00130313  # addi x6, x6, 1
    .word 0x0c612623  # sw x6, 204(x2)
    .word 0x00191493  # slli x9, x18, 1
    .word 0x00199293  # slli x5, x19, 1
    .word 0x01f95313  # srli x6, x18, 31
    .word 0x0062ed33  # or x26, x5, x6
    .word 0x09c12283  # lw x5, 156(x2)
    .word 0x00129293  # slli x5, x5, 1
    .word 0x01f9d313  # srli x6, x19, 31
    .word 0x0062edb3  # or x27, x5, x6
    .word 0x0a012283  # lw x5, 160(x2)
    .word 0x00129293  # slli x5, x5, 1
    .word 0x09c12303  # lw x6, 156(x2)
    .word 0x01f35313  # srli x6, x6, 31
    .word 0x0062eb33  # or x22, x5, x6
    .word 0x0a012283  # lw x5, 160(x2)
    .word 0x01f2da93  # srli x21, x5, 31
    .word 0x40e48bb3  # sub x23, x9, x14
    .word 0x00e4b533  # sltu x10, x9, x14
    .word 0x40fd0c33  # sub x24, x26, x15
    .word 0x40ac0cb3  # sub x25, x24, x10
    .word 0x00fd32b3  # sltu x5, x26, x15
    .word 0x00ac3333  # sltu x6, x24, x10
    .word 0x00628533  # add x10, x5, x6
    .word 0x410d8c33  # sub x24, x27, x16
    .word 0x40ac05b3  # sub x11, x24, x10
    .word 0x010db2b3  # sltu x5, x27, x16
    .word 0x00ac3333  # sltu x6, x24, x10
    .word 0x00628533  # add x10, x5, x6
    .word 0x411b0c33  # sub x24, x22, x17
    .word 0x40ac0a33  # sub x20, x24, x10
    .word 0x011b32b3  # sltu x5, x22, x17
    .word 0x00ac3333  # sltu x6, x24, x10
    .word 0x00628533  # add x10, x5, x6
    .word 0x00aab2b3  # sltu x5, x21, x10
    .word 0x0012b293  # sltiu x5, x5, 1
    .word 0x40500533  # sub x10, x0, x5
    .word 0x009bc2b3  # xor x5, x23, x9
    .word 0x00a2f2b3  # and x5, x5, x10
    .word 0x0092c933  # xor x18, x5, x9
    .word 0x01acc2b3  # xor x5, x25, x26
    .word 0x00a2f2b3  # and x5, x5, x10
    .word 0x01a2c9b3  # xor x19, x5, x26
    .word 0x01b5c2b3  # xor x5, x11, x27
    .word 0x00a2f2b3  # and x5, x5, x10
    .word 0x01b2c2b3  # xor x5, x5, x27
    .word 0x08512e23  # sw x5, 156(x2)
    .word 0x016a42b3  # xor x5, x20, x22
    .word 0x00a2f2b3  # and x5, x5, x10
    .word 0x0162c2b3  # xor x5, x5, x22
    .word 0x0a512023  # sw x5, 160(x2)
    .word 0x0a412283  # lw x5, 164(x2)
    .word 0x00129493  # slli x9, x5, 1
    .word 0x0a812283  # lw x5, 168(x2)
    .word 0x00129293  # slli x5, x5, 1
    .word 0x0a412303  # lw x6, 164(x2)
    .word 0x01f35313  # srli x6, x6, 31
    .word 0x0062ed33  # or x26, x5, x6
    .word 0x0ac12283  # lw x5, 172(x2)
    .word 0x00129293  # slli x5, x5, 1
    .word 0x0a812303  # lw x6, 168(x2)
    .word 0x01f35313  # srli x6, x6, 31
    .word 0x0062edb3  # or x27, x5, x6
    .word 0x0b012283  # lw x5, 176(x2)
    .word 0x00129293  # slli x5, x5, 1
    .word 0x0ac12303  # lw x6, 172(x2)
    .word 0x01f35313  # srli x6, x6, 31
    .word 0x0062eb33  # or x22, x5, x6
    .word 0x0b012283  # lw x5, 176(x2)
    .word 0x01f2da93  # srli x21, x5, 31
    .word 0x40e48bb3  # sub x23, x9, x14
    .word 0x00e4b533  # sltu x10, x9, x14
    .word 0x40fd0c33  # sub x24, x26, x15
    .word 0x40ac0cb3  # sub x25, x24, x10
    .word 0x00fd32b3  # sltu x5, x26, x15
    .word 0x00ac3333  # sltu x6, x24, x10
    .word 0x00628533  # add x10, x5, x6
    .word 0x410d8c33  # sub x24, x27, x16
    .word 0x40ac05b3  # sub x11, x24, x10
    .word 0x010db2b3  # sltu x5, x27, x16
    .word 0x00ac3333  # sltu x6, x24, x10
    .word 0x00628533  # add x10, x5, x6
    .word 0x411b0c33  # sub x24, x22, x17
    .word 0x40ac0a33  # sub x20, x24, x10
    .word 0x011b32b3  # sltu x5, x22, x17
    .word 0x00ac3333  # sltu x6, x24, x10
    .word 0x00628533  # add x10, x5, x6
    .word 0x00aab2b3  # sltu x5, x21, x10
    .word 0x0012b293  # sltiu x5, x5, 1
    .word 0x40500533  # sub x10, x0, x5
    .word 0x009bc2b3  # xor x5, x23, x9
    .word 0x00a2f2b3  # and x5, x5, x10
    .word 0x0092c2b3  # xor x5, x5, x9
    .word 0x0a512223  # sw x5, 164(x2)
    .word 0x01acc2b3  # xor x5, x25, x26
    .word 0x00a2f2b3  # and x5, x5, x10
    .word 0x01a2c2b3  # xor x5, x5, x26
    .word 0x0a512423  # sw x5, 168(x2)
    .word 0x01b5c2b3  # xor x5, x11, x27
    .word 0x00a2f2b3  # and x5, x5, x10
    .word 0x01b2c2b3  # xor x5, x5, x27
    .word 0x0a512623  # sw x5, 172(x2)
    .word 0x016a42b3  # xor x5, x20, x22
    .word 0x00a2f2b3  # and x5, x5, x10
    .word 0x0162c2b3  # xor x5, x5, x22
    .word 0x0a512823  # sw x5, 176(x2)
    .word 0xe41ff06f  # jal x0, -448
    .word 0xe11ff06f  # jal x0, -496
    .word 0x09212223  # sw x18, 132(x2)
    .word 0x09312423  # sw x19, 136(x2)
    .word 0x09c12283  # lw x5, 156(x2)
    .word 0x08512623  # sw x5, 140(x2)
    .word 0x0a012283  # lw x5, 160(x2)
    .word 0x08512823  # sw x5, 144(x2)
    .word 0x00000a13  # addi x20, x0, 0
    .word 0x00000a93  # addi x21, x0, 0
    .word 0x0a012a23  # sw x0, 180(x2)
    .word 0x0a012c23  # sw x0, 184(x2)
    .word 0x0c012223  # sw x0, 196(x2)
    .word 0x10100293  # addi x5, x0, 257
    .word 0x0c512423  # sw x5, 200(x2)
    .word 0x0c412303  # lw x6, 196(x2)
    .word 0x0c812283  # lw x5, 200(x2)
    .word 0x005332b3  # sltu x5, x6, x5
    .word 0x00029463  # bne x5, x0, 8
    .word 0x3100006f  # jal x0, 784
    .word 0x08612a23  # sw x6, 148(x2)
    .word 0x00130313  # addi x6, x6, 1
    .word 0x0c612223  # sw x6, 196(x2)
    .word 0x09412283  # lw x5, 148(x2)
    .word 0x10000313  # addi x6, x0, 256
    .word 0x00629c63  # bne x5, x6, 24
    .word 0x00100a13  # addi x20, x0, 1
    .word 0x00000a93  # addi x21, x0, 0
    .word 0x0a012a23  # sw x0, 180(x2)
    .word 0x0a012c23  # sw x0, 184(x2)
    .word 0x0c40006f  # jal x0, 196
    .word 0x09412283  # lw x5, 148(x2)
    .word 0x0012f293  # andi x5, x5, 1
    .word 0x02029063  # bne x5, x0, 32
    .word 0x08412a03  # lw x20, 132(x2)
    .word 0x08812a83  # lw x21, 136(x2)
    .word 0x08c12283  # lw x5, 140(x2)
    .word 0x0a512a23  # sw x5, 180(x2)
    .word 0x09012283  # lw x5, 144(x2)
    .word 0x0a512c23  # sw x5, 184(x2)
    .word 0x09c0006f  # jal x0, 156
    .word 0x00700293  # addi x5, x0, 7
    .word 0x09412303  # lw x6, 148(x2)
    .word 0x00535313  # srli x6, x6, 5
    .word 0x406282b3  # sub x5, x5, x6
    .word 0x0072f293  # andi x5, x5, 7
    .word 0x00229513  # slli x10, x5, 2
    .word 0x00250533  # add x10, x10, x2
    .word 0x02052503  # lw x10, 32(x10)
    .word 0x00f00313  # addi x6, x0, 15
    .word 0x09412383  # lw x7, 148(x2)
    .word 0x0013d393  # srli x7, x7, 1
    .word 0x00f3f393  # andi x7, x7, 15
    .word 0x40730333  # sub x6, x6, x7
    .word 0x006552b3  # srl x5, x10, x6
    .word 0x0012f293  # andi x5, x5, 1
    .word 0x40500533  # sub x10, x0, x5
    .word 0x0a412283  # lw x5, 164(x2)
    .word 0x0122c2b3  # xor x5, x5, x18
    .word 0x00a2f2b3  # and x5, x5, x10
    .word 0x0122ca33  # xor x20, x5, x18
    .word 0x0a812283  # lw x5, 168(x2)
    .word 0x0132c2b3  # xor x5, x5, x19
    .word 0x00a2f2b3  # and x5, x5, x10
    .word 0x0132cab3  # xor x21, x5, x19
    .word 0x0ac12283  # lw x5, 172(x2)
    .word 0x09c12303  # lw x6, 156(x2)
    .word 0x0062c2b3  # xor x5, x5, x6
    .word 0x00a2f2b3  # and x5, x5, x10
    .word 0x09c12303  # lw x6, 156(x2)
    .word 0x0062c2b3  # xor x5, x5, x6
    .word 0x0a512a23  # sw x5, 180(x2)
    .word 0x0b012283  # lw x5, 176(x2)
    .word 0x0a012303  # lw x6, 160(x2)
    .word 0x0062c2b3  # xor x5, x5, x6
    .word 0x00a2f2b3  # and x5, x5, x10
    .word 0x0a012303  # lw x6, 160(x2)
    .word 0x0062c2b3  # xor x5, x5, x6
    .word 0x0a512c23  # sw x5, 184(x2)
    .word 0x00000b13  # addi x22, x0, 0
    .word 0x00000b93  # addi x23, x0, 0
    .word 0x00000c13  # addi x24, x0, 0
    .word 0x00000c93  # addi x25, x0, 0
    .word 0x00000d13  # addi x26, x0, 0
    .word 0x00000d93  # addi x27, x0, 0
    .word 0x0c012623  # sw x0, 204(x2)
    .word 0x00400293  # addi x5, x0, 4
    .word 0x0c512823  # sw x5, 208(x2)
    .word 0x0cc12303  # lw x6, 204(x2)
    .word 0x0d012283  # lw x5, 208(x2)
    .word 0x005332b3  # sltu x5, x6, x5
    .word 0x00029463  # bne x5, x0, 8
    .word 0x1580006f  # jal x0, 344
    .word 0x08612c23  # sw x6, 152(x2)
    .word 0x00130313  # addi x6, x6, 1
    .word 0x0c612623  # sw x6, 204(x2)
    .word 0x09812283  # lw x5, 152(x2)
    .word 0x00229513  # slli x10, x5, 2
    .word 0x00250533  # add x10, x10, x2
    .word 0x08452503  # lw x10, 132(x10)
    .word 0x034506b3  # mul x13, x10, x20
    .word 0x034534b3  # mulhu x9, x10, x20
    .word 0x00db05b3  # add x11, x22, x13
    .word 0x00d5b333  # sltu x6, x11, x13
    .word 0x006484b3  # add x9, x9, x6
    .word 0x00058b13  # addi x22, x11, 0
    .word 0x03550633  # mul x12, x10, x21
    .word 0x035536b3  # mulhu x13, x10, x21
    .word 0x00cb8bb3  # add x23, x23, x12
    .word 0x00cbb333  # sltu x6, x23, x12
    .word 0x006686b3  # add x13, x13, x6
    .word 0x009b8bb3  # add x23, x23, x9
    .word 0x009bb333  # sltu x6, x23, x9
    .word 0x006684b3  # add x9, x13, x6
    .word 0x0b412303  # lw x6, 180(x2)
    .word 0x02650633  # mul x12, x10, x6
    .word 0x0b412303  # lw x6, 180(x2)
    .word 0x026536b3  # mulhu x13, x10, x6
    .word 0x00cc0c33  # add x24, x24, x12
    .word 0x00cc3333  # sltu x6, x24, x12
    .word 0x006686b3  # add x13, x13, x6
    .word 0x009c0c33  # add x24, x24, x9
    .word 0x009c3333  # sltu x6, x24, x9
    .word 0x006684b3  # add x9, x13, x6
    .word 0x0b812303  # lw x6, 184(x2)
    .word 0x026506b3  # mul x13, x10, x6
    .word 0x0b812303  # lw x6, 184(x2)
    .word 0x02653533  # mulhu x10, x10, x6
    .word 0x00dc8cb3  # add x25, x25, x13
    .word 0x00dcb333  # sltu x6, x25, x13
    .word 0x00650533  # add x10, x10, x6
    .word 0x009c8cb3  # add x25, x25, x9
    .word 0x009cb333  # sltu x6, x25, x9
    .word 0x006504b3  # add x9, x10, x6
    .word 0x009d0d33  # add x26, x26, x9
    .word 0x009d3333  # sltu x6, x26, x9
    .word 0x006d8db3  # add x27, x27, x6
    .word 0x08012303  # lw x6, 128(x2)
    .word 0x02658533  # mul x10, x11, x6
    .word 0x02e505b3  # mul x11, x10, x14
    .word 0x02e534b3  # mulhu x9, x10, x14
    .word 0x00bb0b33  # add x22, x22, x11
    .word 0x00bb3333  # sltu x6, x22, x11
    .word 0x006484b3  # add x9, x9, x6
    .word 0x02f505b3  # mul x11, x10, x15
    .word 0x02f53b33  # mulhu x22, x10, x15
    .word 0x00bb8bb3  # add x23, x23, x11
    .word 0x00bbb333  # sltu x6, x23, x11
    .word 0x006b0b33  # add x22, x22, x6
    .word 0x009b8bb3  # add x23, x23, x9
    .word 0x009bb333  # sltu x6, x23, x9
    .word 0x006b04b3  # add x9, x22, x6
    .word 0x030505b3  # mul x11, x10, x16
    .word 0x03053b33  # mulhu x22, x10, x16
    .word 0x00bc0c33  # add x24, x24, x11
    .word 0x00bc3333  # sltu x6, x24, x11
    .word 0x006b0b33  # add x22, x22, x6
    .word 0x009c0c33  # add x24, x24, x9
    .word 0x009c3333  # sltu x6, x24, x9
    .word 0x006b04b3  # add x9, x22, x6
    .word 0x03150b33  # mul x22, x10, x17
    .word 0x03153533  # mulhu x10, x10, x17
    .word 0x016c8cb3  # add x25, x25, x22
    .word 0x016cb333  # sltu x6, x25, x22
    .word 0x00650533  # add x10, x10, x6
    .word 0x009c8cb3  # add x25, x25, x9
    .word 0x009cb333  # sltu x6, x25, x9
    .word 0x006504b3  # add x9, x10, x6
    .word 0x009d0d33  # add x26, x26, x9
    .word 0x009d3333  # sltu x6, x26, x9
    .word 0x006d8db3  # add x27, x27, x6
    .word 0x000b8b13  # addi x22, x23, 0
    .word 0x000c0b93  # addi x23, x24, 0
    .word 0x000c8c13  # addi x24, x25, 0
    .word 0x000d0c93  # addi x25, x26, 0
    .word 0x000d8d13  # addi x26, x27, 0
    .word 0x00000d93  # addi x27, x0, 0
    .word 0xe9dff06f  # jal x0, -356
    .word 0x40eb04b3  # sub x9, x22, x14
    .word 0x00eb3533  # sltu x10, x22, x14
    .word 0x40fb8db3  # sub x27, x23, x15
    .word 0x40ad85b3  # sub x11, x27, x10
    .word 0x00fbb2b3  # sltu x5, x23, x15
    .word 0x00adb333  # sltu x6, x27, x10
    .word 0x00628533  # add x10, x5, x6
    .word 0x410c0db3  # sub x27, x24, x16
    .word 0x40ad86b3  # sub x13, x27, x10
    .word 0x010c32b3  # sltu x5, x24, x16
    .word 0x00adb333  # sltu x6, x27, x10
    .word 0x00628533  # add x10, x5, x6
    .word 0x411c8db3  # sub x27, x25, x17
    .word 0x40ad8633  # sub x12, x27, x10
    .word 0x011cb2b3  # sltu x5, x25, x17
    .word 0x00adb333  # sltu x6, x27, x10
    .word 0x00628533  # add x10, x5, x6
    .word 0x00ad32b3  # sltu x5, x26, x10
    .word 0x0012b293  # sltiu x5, x5, 1
    .word 0x40500533  # sub x10, x0, x5
    .word 0x0164c2b3  # xor x5, x9, x22
    .word 0x00a2f2b3  # and x5, x5, x10
    .word 0x0162c2b3  # xor x5, x5, x22
    .word 0x08512223  # sw x5, 132(x2)
    .word 0x0175c2b3  # xor x5, x11, x23
    .word 0x00a2f2b3  # and x5, x5, x10
    .word 0x0172c2b3  # xor x5, x5, x23
    .word 0x08512423  # sw x5, 136(x2)
    .word 0x0186c2b3  # xor x5, x13, x24
    .word 0x00a2f2b3  # and x5, x5, x10
    .word 0x0182c2b3  # xor x5, x5, x24
    .word 0x08512623  # sw x5, 140(x2)
    .word 0x019642b3  # xor x5, x12, x25
    .word 0x00a2f2b3  # and x5, x5, x10
    .word 0x0192c2b3  # xor x5, x5, x25
    .word 0x08512823  # sw x5, 144(x2)
    .word 0xce5ff06f  # jal x0, -796
    .word 0x08412283  # lw x5, 132(x2)
    .word 0x0bc12303  # lw x6, 188(x2)
    .word 0x0062f2b3  # and x5, x5, x6
    .word 0x06512023  # sw x5, 96(x2)
    .word 0x08412283  # lw x5, 132(x2)
    .word 0x0102d293  # srli x5, x5, 16
    .word 0x06512223  # sw x5, 100(x2)
    .word 0x08812283  # lw x5, 136(x2)
    .word 0x0bc12303  # lw x6, 188(x2)
    .word 0x0062f2b3  # and x5, x5, x6
    .word 0x06512423  # sw x5, 104(x2)
    .word 0x08812283  # lw x5, 136(x2)
    .word 0x0102d293  # srli x5, x5, 16
    .word 0x06512623  # sw x5, 108(x2)
    .word 0x08c12283  # lw x5, 140(x2)
    .word 0x0bc12303  # lw x6, 188(x2)
    .word 0x0062f2b3  # and x5, x5, x6
    .word 0x06512823  # sw x5, 112(x2)
    .word 0x08c12283  # lw x5, 140(x2)
    .word 0x0102d293  # srli x5, x5, 16
    .word 0x06512a23  # sw x5, 116(x2)
    .word 0x09012283  # lw x5, 144(x2)
    .word 0x0bc12303  # lw x6, 188(x2)
    .word 0x0062f2b3  # and x5, x5, x6
    .word 0x06512c23  # sw x5, 120(x2)
    .word 0x09012283  # lw x5, 144(x2)
    .word 0x0102d293  # srli x5, x5, 16
    .word 0x06512e23  # sw x5, 124(x2)
    # the result
    .word 0x00000513  # addi x10, x0, 0
    # parameter 3: the array, back
    .word 0x06010293  # addi x5, x2, 96
    .word 0x11c12303  # lw x6, 284(x2)
    .word 0x02028393  # addi x7, x5, 32
    .word 0x0002ae03  # lw x28, 0(x5)
    .word 0x01c32023  # sw x28, 0(x6)
    .word 0x00428293  # addi x5, x5, 4
    .word 0x00430313  # addi x6, x6, 4
    .word 0xfe7298e3  # bne x5, x7, -16
    # above the frame
    .word 0x0e010293  # addi x5, x2, 224
    # the caller's registers
    .word 0x0002a403  # lw x8, 0(x5)
    .cfi_restore 8
    .word 0x0042a483  # lw x9, 4(x5)
    .cfi_restore 9
    .word 0x0082a903  # lw x18, 8(x5)
    .cfi_restore 18
    .word 0x00c2a983  # lw x19, 12(x5)
    .cfi_restore 19
    .word 0x0102aa03  # lw x20, 16(x5)
    .cfi_restore 20
    .word 0x0142aa83  # lw x21, 20(x5)
    .cfi_restore 21
    .word 0x0182ab03  # lw x22, 24(x5)
    .cfi_restore 22
    .word 0x01c2ab83  # lw x23, 28(x5)
    .cfi_restore 23
    .word 0x0202ac03  # lw x24, 32(x5)
    .cfi_restore 24
    .word 0x0242ac83  # lw x25, 36(x5)
    .cfi_restore 25
    .word 0x0282ad03  # lw x26, 40(x5)
    .cfi_restore 26
    .word 0x02c2ad83  # lw x27, 44(x5)
    .cfi_restore 27
    # the caller's x2
    .word 0x04028293  # addi x5, x5, 64
    .cfi_def_cfa 5, 0
    # on to the tail that functions share
    jal x0, factc.tail.1
    .cfi_endproc
    .size modular_power_128, . - modular_power_128
    .section .text.factc.tail.1, "axG", @progbits, factc.tail.1, comdat
    .p2align 2
    .globl factc.tail.1
    .hidden factc.tail.1
    .type factc.tail.1, @function
factc.tail.1:
    .cfi_startproc
    .cfi_def_cfa 5, 0
    # all the room, wiped upward
    .word 0x00012023  # sw x0, 0(x2)
    .word 0x00012223  # sw x0, 4(x2)
    .word 0x00012423  # sw x0, 8(x2)
    .word 0x00012623  # sw x0, 12(x2)
    .word 0x01010113  # addi x2, x2, 16
    .word 0xfe5116e3  # bne x2, x5, -20
    .cfi_def_cfa 2, 0
    # temporaries, wiped
    .word 0x00000293  # addi x5, x0, 0
    .word 0x00000313  # addi x6, x0, 0
    .word 0x00000393  # addi x7, x0, 0
    .word 0x00000593  # addi x11, x0, 0
    .word 0x00000613  # addi x12, x0, 0
    .word 0x00000693  # addi x13, x0, 0
    .word 0x00000713  # addi x14, x0, 0
    .word 0x00000793  # addi x15, x0, 0
    .word 0x00000813  # addi x16, x0, 0
    .word 0x00000893  # addi x17, x0, 0
    .word 0x00000e13  # addi x28, x0, 0
    .word 0x00000e93  # addi x29, x0, 0
    .word 0x00000f13  # addi x30, x0, 0
    .word 0x00000f93  # addi x31, x0, 0
    # back
    .word 0x00008067  # jalr x0, 0(x1)
    .cfi_endproc
    .size factc.tail.1, . - factc.tail.1
    .option pop
