# ghash_blocks: made by factc 1.0.0 function; 736 words, 544 bytes of stack, profile 1
    .option push
    .option norvc
    .option norelax
    .cfi_sections .debug_frame
    .section .text.ghash_blocks, "ax", @progbits
    .p2align 2
    .globl ghash_blocks
    .type ghash_blocks, @function
ghash_blocks:
    .cfi_startproc
    # room above the frame
    .word 0xfc010113  # addi x2, x2, -64
    .cfi_def_cfa_offset 64
    # the caller's registers
    .word 0x00812023  # sw x8, 0(x2)
    .cfi_offset 8, -64
    .word 0x00912223  # sw x9, 4(x2)
    .cfi_offset 9, -60
    .word 0x01212423  # sw x18, 8(x2)
    .cfi_offset 18, -56
    .word 0x01312623  # sw x19, 12(x2)
    .cfi_offset 19, -52
    .word 0x01412823  # sw x20, 16(x2)
    .cfi_offset 20, -48
    .word 0x01512a23  # sw x21, 20(x2)
    .cfi_offset 21, -44
    .word 0x01612c23  # sw x22, 24(x2)
    .cfi_offset 22, -40
    .word 0x01712e23  # sw x23, 28(x2)
    .cfi_offset 23, -36
    .word 0x03812023  # sw x24, 32(x2)
    .cfi_offset 24, -32
    .word 0x03912223  # sw x25, 36(x2)
    .cfi_offset 25, -28
    .word 0x03a12423  # sw x26, 40(x2)
    .cfi_offset 26, -24
    .word 0x03b12623  # sw x27, 44(x2)
    .cfi_offset 27, -20
    # arguments that are needed behind the body
    .word 0x02a12823  # sw x10, 48(x2)
    .word 0x02b12a23  # sw x11, 52(x2)
    .word 0x02c12c23  # sw x12, 56(x2)
    .word 0x02d12e23  # sw x13, 60(x2)
    # the frame's base
    .word 0xe2010113  # addi x2, x2, -480
    .cfi_def_cfa 2, 544
    # parameter 0: an array
    .word 0x00050293  # addi x5, x10, 0
    .word 0x00010313  # addi x6, x2, 0
    .word 0x01028393  # addi x7, x5, 16
    .word 0x2d900f6f  # jal x30, 2776
    # parameter 1: an array
    .word 0x00058293  # addi x5, x11, 0
    .word 0x01010313  # addi x6, x2, 16
    .word 0x10028393  # addi x7, x5, 256
    .word 0x2c900f6f  # jal x30, 2760
    # parameter 2: a word
    .word 0x10c12823  # sw x12, 272(x2)
    # parameter 3: an array
    .word 0x00068293  # addi x5, x13, 0
    .word 0x11410313  # addi x6, x2, 276
    .word 0x01028393  # addi x7, x5, 16
    .word 0x2b500f6f  # jal x30, 2740
    # the body
    .word 0x00000593  # addi x11, x0, 0
    .word 0x00259493  # slli x9, x11, 2
    .word 0x002484b3  # add x9, x9, x2
    .word 0x11111cb7  # lui x25, 0x11111
    .word 0x111c8c93  # addi x25, x25, 273
    .word 0x22222d37  # lui x26, 0x22222
    .word 0x222d0d13  # addi x26, x26, 546
    .word 0x44444db7  # lui x27, 0x44444
    .word 0x444d8d93  # addi x27, x27, 1092
    .word 0x88889437  # lui x8, 0x88889
    .word 0x88840413  # addi x8, x8, -1912
    .word 0x00c14283  # lbu x5, 12(x2)
    .word 0x01829293  # slli x5, x5, 24
    .word 0x00d14303  # lbu x6, 13(x2)
    .word 0x01031313  # slli x6, x6, 16
    .word 0x0062e7b3  # or x15, x5, x6
    .word 0x00e14303  # lbu x6, 14(x2)
    .word 0x00831313  # slli x6, x6, 8
    .word 0x0067e2b3  # or x5, x15, x6
    .word 0x00f14303  # lbu x6, 15(x2)
    .word 0x0062e833  # or x16, x5, x6
    .word 0x12014283  # lbu x5, 288(x2)
    .word 0x01829293  # slli x5, x5, 24
    .word 0x12114303  # lbu x6, 289(x2)
    .word 0x01031313  # slli x6, x6, 16
    .word 0x0062e7b3  # or x15, x5, x6
    .word 0x12214303  # lbu x6, 290(x2)
    .word 0x00831313  # slli x6, x6, 8
    .word 0x0067e2b3  # or x5, x15, x6
    .word 0x12314303  # lbu x6, 291(x2)
    .word 0x0062e633  # or x12, x5, x6
    .word 0x00814283  # lbu x5, 8(x2)
    .word 0x01829293  # slli x5, x5, 24
    .word 0x00914303  # lbu x6, 9(x2)
    .word 0x01031313  # slli x6, x6, 16
    .word 0x0062e7b3  # or x15, x5, x6
    .word 0x00a14303  # lbu x6, 10(x2)
    .word 0x00831313  # slli x6, x6, 8
    .word 0x0067e2b3  # or x5, x15, x6
    .word 0x00b14303  # lbu x6, 11(x2)
    .word 0x0062e8b3  # or x17, x5, x6
    .word 0x11c14283  # lbu x5, 284(x2)
    .word 0x01829293  # slli x5, x5, 24
    .word 0x11d14303  # lbu x6, 285(x2)
    .word 0x01031313  # slli x6, x6, 16
    .word 0x0062e7b3  # or x15, x5, x6
    .word 0x11e14303  # lbu x6, 286(x2)
    .word 0x00831313  # slli x6, x6, 8
    .word 0x0067e2b3  # or x5, x15, x6
    .word 0x11f14303  # lbu x6, 287(x2)
    .word 0x0062e6b3  # or x13, x5, x6
    .word 0x00414283  # lbu x5, 4(x2)
    .word 0x01829293  # slli x5, x5, 24
    .word 0x00514303  # lbu x6, 5(x2)
    .word 0x01031313  # slli x6, x6, 16
    .word 0x0062e7b3  # or x15, x5, x6
    .word 0x00614303  # lbu x6, 6(x2)
    .word 0x00831313  # slli x6, x6, 8
    .word 0x0067e2b3  # or x5, x15, x6
    .word 0x00714303  # lbu x6, 7(x2)
    .word 0x0062e933  # or x18, x5, x6
    .word 0x11814283  # lbu x5, 280(x2)
    .word 0x01829293  # slli x5, x5, 24
    .word 0x11914303  # lbu x6, 281(x2)
    .word 0x01031313  # slli x6, x6, 16
    .word 0x0062e7b3  # or x15, x5, x6
    .word 0x11a14303  # lbu x6, 282(x2)
    .word 0x00831313  # slli x6, x6, 8
    .word 0x0067e2b3  # or x5, x15, x6
    .word 0x11b14303  # lbu x6, 283(x2)
    .word 0x0062e733  # or x14, x5, x6
    .word 0x00014283  # lbu x5, 0(x2)
    .word 0x01829293  # slli x5, x5, 24
    .word 0x00114303  # lbu x6, 1(x2)
    .word 0x01031313  # slli x6, x6, 16
    .word 0x0062e7b3  # or x15, x5, x6
    .word 0x00214303  # lbu x6, 2(x2)
    .word 0x00831313  # slli x6, x6, 8
    .word 0x0067e2b3  # or x5, x15, x6
    .word 0x00314303  # lbu x6, 3(x2)
    .word 0x0062e9b3  # or x19, x5, x6
    .word 0x11414283  # lbu x5, 276(x2)
    .word 0x01829293  # slli x5, x5, 24
    .word 0x11514303  # lbu x6, 277(x2)
    .word 0x01031313  # slli x6, x6, 16
    .word 0x0062e7b3  # or x15, x5, x6
    .word 0x11614303  # lbu x6, 278(x2)
    .word 0x00831313  # slli x6, x6, 8
    .word 0x0067e2b3  # or x5, x15, x6
    .word 0x11714303  # lbu x6, 279(x2)
    .word 0x0062e7b3  # or x15, x5, x6
    .word 0x12400313  # addi x6, x0, 292
    .word 0x00230333  # add x6, x6, x2
    .word 0x02400393  # addi x7, x0, 36
    .word 0x006383b3  # add x7, x7, x6
    .word 0x406382b3  # sub x5, x7, x6
    .word 0x00029463  # bne x5, x0, 8
    .word 0x0100006f  # jal x0, 16
    .word 0x00032023  # sw x0, 0(x6)
    .word 0x00430313  # addi x6, x6, 4
    .word 0xfedff06f  # jal x0, -20
    .word 0x13012223  # sw x16, 292(x2)
    .word 0x13112423  # sw x17, 296(x2)
    .word 0x13212623  # sw x18, 300(x2)
    .word 0x13312823  # sw x19, 304(x2)
    .word 0x011842b3  # xor x5, x16, x17
    .word 0x12512a23  # sw x5, 308(x2)
    .word 0x013942b3  # xor x5, x18, x19
    .word 0x12512c23  # sw x5, 312(x2)
    .word 0x012842b3  # xor x5, x16, x18
    .word 0x12512e23  # sw x5, 316(x2)
    .word 0x0138c2b3  # xor x5, x17, x19
    .word 0x14512023  # sw x5, 320(x2)
    .word 0x13412283  # lw x5, 308(x2)
    .word 0x13812303  # lw x6, 312(x2)
    .word 0x0062c2b3  # xor x5, x5, x6
    .word 0x14512223  # sw x5, 324(x2)
    .word 0x11012283  # lw x5, 272(x2)
    .word 0x1002b293  # sltiu x5, x5, 256
    .word 0x11012303  # lw x6, 272(x2)
    .word 0x10000393  # addi x7, x0, 256
    .word 0x405002b3  # sub x5, x0, x5
    .word 0x00734333  # xor x6, x6, x7
    .word 0x00537333  # and x6, x6, x5
    .word 0x0063c2b3  # xor x5, x7, x6
    .word 0x10100313  # addi x6, x0, 257
    .word 0x0262f2b3  # remu x5, x5, x6
    .word 0x14512423  # sw x5, 328(x2)
    .word 0x1c012223  # sw x0, 452(x2)
    .word 0x14812283  # lw x5, 328(x2)
    .word 0x00f28293  # addi x5, x5, 15
    .word 0x0042d293  # srli x5, x5, 4
    .word 0x1c512423  # sw x5, 456(x2)
    .word 0x1c412303  # lw x6, 452(x2)
    .word 0x1c812283  # lw x5, 456(x2)
    .word 0x005332b3  # sltu x5, x6, x5
    .word 0x00029463  # bne x5, x0, 8
    .word 0x77c0006f  # jal x0, 1916
    .word 0x14612623  # sw x6, 332(x2)
    .word 0x00130313  # addi x6, x6, 1
    .word 0x1c612223  # sw x6, 452(x2)
    .word 0x14c12283  # lw x5, 332(x2)
    .word 0x00429513  # slli x10, x5, 4
    .word 0x01050293  # addi x5, x10, 16
    .word 0x14812303  # lw x6, 328(x2)
    .word 0x0e536c63  # bltu x6, x5, 248
    .word 0x002502b3  # add x5, x10, x2
    .word 0x01c2c283  # lbu x5, 28(x5)
    .word 0x01829293  # slli x5, x5, 24
    .word 0x00250333  # add x6, x10, x2
    .word 0x01d34303  # lbu x6, 29(x6)
    .word 0x01031313  # slli x6, x6, 16
    .word 0x0062e833  # or x16, x5, x6
    .word 0x002502b3  # add x5, x10, x2
    .word 0x01e2c283  # lbu x5, 30(x5)
    .word 0x00829293  # slli x5, x5, 8
    .word 0x00250333  # add x6, x10, x2
    .word 0x01f34303  # lbu x6, 31(x6)
    .word 0x0062e8b3  # or x17, x5, x6
    .word 0x01186333  # or x6, x16, x17
    .word 0x00664633  # xor x12, x12, x6
    .word 0x002502b3  # add x5, x10, x2
    .word 0x0182c283  # lbu x5, 24(x5)
    .word 0x01829293  # slli x5, x5, 24
    .word 0x00250333  # add x6, x10, x2
    .word 0x01934303  # lbu x6, 25(x6)
    .word 0x01031313  # slli x6, x6, 16
    .word 0x0062e833  # or x16, x5, x6
    .word 0x002502b3  # add x5, x10, x2
    .word 0x01a2c283  # lbu x5, 26(x5)
    .word 0x00829293  # slli x5, x5, 8
    .word 0x00250333  # add x6, x10, x2
    .word 0x01b34303  # lbu x6, 27(x6)
    .word 0x0062e8b3  # or x17, x5, x6
    .word 0x01186333  # or x6, x16, x17
    .word 0x0066c6b3  # xor x13, x13, x6
    .word 0x002502b3  # add x5, x10, x2
    .word 0x0142c283  # lbu x5, 20(x5)
    .word 0x01829293  # slli x5, x5, 24
    .word 0x00250333  # add x6, x10, x2
    .word 0x01534303  # lbu x6, 21(x6)
    .word 0x01031313  # slli x6, x6, 16
    .word 0x0062e833  # or x16, x5, x6
    .word 0x002502b3  # add x5, x10, x2
    .word 0x0162c283  # lbu x5, 22(x5)
    .word 0x00829293  # slli x5, x5, 8
    .word 0x00250333  # add x6, x10, x2
    .word 0x01734303  # lbu x6, 23(x6)
    .word 0x0062e8b3  # or x17, x5, x6
    .word 0x01186333  # or x6, x16, x17
    .word 0x00674733  # xor x14, x14, x6
    .word 0x002502b3  # add x5, x10, x2
    .word 0x0102c283  # lbu x5, 16(x5)
    .word 0x01829293  # slli x5, x5, 24
    .word 0x00250333  # add x6, x10, x2
    .word 0x01134303  # lbu x6, 17(x6)
    .word 0x01031313  # slli x6, x6, 16
    .word 0x0062e833  # or x16, x5, x6
    .word 0x002502b3  # add x5, x10, x2
    .word 0x0122c283  # lbu x5, 18(x5)
    .word 0x00829293  # slli x5, x5, 8
    .word 0x00250333  # add x6, x10, x2
    .word 0x01334303  # lbu x6, 19(x6)
    .word 0x0062e8b3  # or x17, x5, x6
    .word 0x01186333  # or x6, x16, x17
    .word 0x0067c7b3  # xor x15, x15, x6
    .word 0x1b00006f  # jal x0, 432
    .word 0x14812303  # lw x6, 328(x2)
    .word 0x00657a63  # bgeu x10, x6, 20
    .word 0x00250333  # add x6, x10, x2
    .word 0x01034303  # lbu x6, 16(x6)
    .word 0x01831313  # slli x6, x6, 24
    .word 0x0067c7b3  # xor x15, x15, x6
    .word 0x00150293  # addi x5, x10, 1
    .word 0x14812303  # lw x6, 328(x2)
    .word 0x0062fa63  # bgeu x5, x6, 20
    .word 0x00250333  # add x6, x10, x2
    .word 0x01134303  # lbu x6, 17(x6)
    .word 0x01031313  # slli x6, x6, 16
    .word 0x0067c7b3  # xor x15, x15, x6
    .word 0x00250293  # addi x5, x10, 2
    .word 0x14812303  # lw x6, 328(x2)
    .word 0x0062fa63  # bgeu x5, x6, 20
    .word 0x00250333  # add x6, x10, x2
    .word 0x01234303  # lbu x6, 18(x6)
    .word 0x00831313  # slli x6, x6, 8
    .word 0x0067c7b3  # xor x15, x15, x6
    .word 0x00350293  # addi x5, x10, 3
    .word 0x14812303  # lw x6, 328(x2)
    .word 0x0062f863  # bgeu x5, x6, 16
    .word 0x00250333  # add x6, x10, x2
    .word 0x01334303  # lbu x6, 19(x6)
    .word 0x0067c7b3  # xor x15, x15, x6
    .word 0x00450293  # addi x5, x10, 4
    .word 0x14812303  # lw x6, 328(x2)
    .word 0x0062fa63  # bgeu x5, x6, 20
    .word 0x00250333  # add x6, x10, x2
    .word 0x01434303  # lbu x6, 20(x6)
    .word 0x01831313  # slli x6, x6, 24
    .word 0x00674733  # xor x14, x14, x6
    .word 0x00550293  # addi x5, x10, 5
    .word 0x14812303  # lw x6, 328(x2)
    .word 0x0062fa63  # bgeu x5, x6, 20
    .word 0x00250333  # add x6, x10, x2
    .word 0x01534303  # lbu x6, 21(x6)
    .word 0x01031313  # slli x6, x6, 16
    .word 0x00674733  # xor x14, x14, x6
    .word 0x00650293  # addi x5, x10, 6
    .word 0x14812303  # lw x6, 328(x2)
    .word 0x0062fa63  # bgeu x5, x6, 20
    .word 0x00250333  # add x6, x10, x2
    .word 0x01634303  # lbu x6, 22(x6)
    .word 0x00831313  # slli x6, x6, 8
    .word 0x00674733  # xor x14, x14, x6
    .word 0x00750293  # addi x5, x10, 7
    .word 0x14812303  # lw x6, 328(x2)
    .word 0x0062f863  # bgeu x5, x6, 16
    .word 0x00250333  # add x6, x10, x2
    .word 0x01734303  # lbu x6, 23(x6)
    .word 0x00674733  # xor x14, x14, x6
    .word 0x00850293  # addi x5, x10, 8
    .word 0x14812303  # lw x6, 328(x2)
    .word 0x0062fa63  # bgeu x5, x6, 20
    .word 0x00250333  # add x6, x10, x2
    .word 0x01834303  # lbu x6, 24(x6)
    .word 0x01831313  # slli x6, x6, 24
    .word 0x0066c6b3  # xor x13, x13, x6
    .word 0x00950293  # addi x5, x10, 9
    .word 0x14812303  # lw x6, 328(x2)
    .word 0x0062fa63  # bgeu x5, x6, 20
    .word 0x00250333  # add x6, x10, x2
    .word 0x01934303  # lbu x6, 25(x6)
    .word 0x01031313  # slli x6, x6, 16
    .word 0x0066c6b3  # xor x13, x13, x6
    .word 0x00a50293  # addi x5, x10, 10
    .word 0x14812303  # lw x6, 328(x2)
    .word 0x0062fa63  # bgeu x5, x6, 20
    .word 0x00250333  # add x6, x10, x2
    .word 0x01a34303  # lbu x6, 26(x6)
    .word 0x00831313  # slli x6, x6, 8
    .word 0x0066c6b3  # xor x13, x13, x6
    .word 0x00b50293  # addi x5, x10, 11
    .word 0x14812303  # lw x6, 328(x2)
    .word 0x0062f863  # bgeu x5, x6, 16
    .word 0x00250333  # add x6, x10, x2
    .word 0x01b34303  # lbu x6, 27(x6)
    .word 0x0066c6b3  # xor x13, x13, x6
    .word 0x00c50293  # addi x5, x10, 12
    .word 0x14812303  # lw x6, 328(x2)
    .word 0x0062fa63  # bgeu x5, x6, 20
    .word 0x00250333  # add x6, x10, x2
    .word 0x01c34303  # lbu x6, 28(x6)
    .word 0x01831313  # slli x6, x6, 24
    .word 0x00664633  # xor x12, x12, x6
    .word 0x00d50293  # addi x5, x10, 13
    .word 0x14812303  # lw x6, 328(x2)
    .word 0x0062fa63  # bgeu x5, x6, 20
    .word 0x00250333  # add x6, x10, x2
    .word 0x01d34303  # lbu x6, 29(x6)
    .word 0x01031313  # slli x6, x6, 16
    .word 0x00664633  # xor x12, x12, x6
    .word 0x00e50293  # addi x5, x10, 14
    .word 0x14812303  # lw x6, 328(x2)
    .word 0x0062fa63  # bgeu x5, x6, 20
    .word 0x00250333  # add x6, x10, x2
    .word 0x01e34303  # lbu x6, 30(x6)
    .word 0x00831313  # slli x6, x6, 8
    .word 0x00664633  # xor x12, x12, x6
    .word 0x00f50293  # addi x5, x10, 15
    .word 0x14812303  # lw x6, 328(x2)
    .word 0x0062f863  # bgeu x5, x6, 16
    .word 0x00250333  # add x6, x10, x2
    .word 0x01f34303  # lbu x6, 31(x6)
    .word 0x00664633  # xor x12, x12, x6
    .word 0x14812303  # lw x6, 328(x2)
    .word 0x006532b3  # sltu x5, x10, x6
    .word 0x00900313  # addi x6, x0, 9
    .word 0x405002b3  # sub x5, x0, x5
    .word 0x00537533  # and x10, x6, x5
    .word 0x14012823  # sw x0, 336(x2)
    .word 0x14012a23  # sw x0, 340(x2)
    .word 0x14012c23  # sw x0, 344(x2)
    .word 0x14012e23  # sw x0, 348(x2)
    .word 0x16012023  # sw x0, 352(x2)
    .word 0x16012223  # sw x0, 356(x2)
    .word 0x16012423  # sw x0, 360(x2)
    .word 0x16012623  # sw x0, 364(x2)
    .word 0x16012823  # sw x0, 368(x2)
    .word 0x14c12823  # sw x12, 336(x2)
    .word 0x14d12a23  # sw x13, 340(x2)
    .word 0x14e12c23  # sw x14, 344(x2)
    .word 0x14f12e23  # sw x15, 348(x2)
    .word 0x00d642b3  # xor x5, x12, x13
    .word 0x16512023  # sw x5, 352(x2)
    .word 0x00f742b3  # xor x5, x14, x15
    .word 0x16512223  # sw x5, 356(x2)
    .word 0x00e642b3  # xor x5, x12, x14
    .word 0x16512423  # sw x5, 360(x2)
    .word 0x00f6c2b3  # xor x5, x13, x15
    .word 0x16512623  # sw x5, 364(x2)
    .word 0x16012283  # lw x5, 352(x2)
    .word 0x16412303  # lw x6, 356(x2)
    .word 0x0062c2b3  # xor x5, x5, x6
    .word 0x16512823  # sw x5, 368(x2)
    .word 0x16012a23  # sw x0, 372(x2)
    .word 0x16012c23  # sw x0, 376(x2)
    .word 0x16012e23  # sw x0, 380(x2)
    .word 0x18012023  # sw x0, 384(x2)
    .word 0x18012223  # sw x0, 388(x2)
    .word 0x18012423  # sw x0, 392(x2)
    .word 0x18012623  # sw x0, 396(x2)
    .word 0x18012823  # sw x0, 400(x2)
    .word 0x18012a23  # sw x0, 404(x2)
    .word 0x18012c23  # sw x0, 408(x2)
    .word 0x18012e23  # sw x0, 412(x2)
    .word 0x1a012023  # sw x0, 416(x2)
    .word 0x1a012223  # sw x0, 420(x2)
    .word 0x1a012423  # sw x0, 424(x2)
    .word 0x1a012623  # sw x0, 428(x2)
    .word 0x1a012823  # sw x0, 432(x2)
    .word 0x1a012a23  # sw x0, 436(x2)
    .word 0x1a012c23  # sw x0, 440(x2)
    .word 0x1c012623  # sw x0, 460(x2)
    .word 0x1ca12823  # sw x10, 464(x2)
    .word 0x1cc12303  # lw x6, 460(x2)
    .word 0x1d012283  # lw x5, 464(x2)
    .word 0x005332b3  # sltu x5, x6, x5
    .word 0x00029463  # bne x5, x0, 8
    .word 0x1940006f  # jal x0, 404
    .word 0x00030593  # addi x11, x6, 0
    .word 0x00259493  # slli x9, x11, 2
    .word 0x002484b3  # add x9, x9, x2
    .word 0x00058513  # addi x10, x11, 0
    .word 0x1244a783  # lw x15, 292(x9)
    .word 0x1504a983  # lw x19, 336(x9)
    .word 0x0197f633  # and x12, x15, x25
    .word 0x01a7f6b3  # and x13, x15, x26
    .word 0x01b7f733  # and x14, x15, x27
    .word 0x0087f7b3  # and x15, x15, x8
    .word 0x0199f833  # and x16, x19, x25
    .word 0x01a9f8b3  # and x17, x19, x26
    .word 0x01b9f933  # and x18, x19, x27
    .word 0x0089f9b3  # and x19, x19, x8
    .word 0x030602b3  # mul x5, x12, x16
    .word 0x03368333  # mul x6, x13, x19
    .word 0x0062c2b3  # xor x5, x5, x6
    .word 0x03270333  # mul x6, x14, x18
    .word 0x0062c2b3  # xor x5, x5, x6
    .word 0x03178333  # mul x6, x15, x17
    .word 0x0062c2b3  # xor x5, x5, x6
    .word 0x0192fa33  # and x20, x5, x25
    .word 0x031602b3  # mul x5, x12, x17
    .word 0x03068333  # mul x6, x13, x16
    .word 0x0062c2b3  # xor x5, x5, x6
    .word 0x03370333  # mul x6, x14, x19
    .word 0x0062c2b3  # xor x5, x5, x6
    .word 0x03278333  # mul x6, x15, x18
    .word 0x0062c2b3  # xor x5, x5, x6
    .word 0x01a2fab3  # and x21, x5, x26
    .word 0x032602b3  # mul x5, x12, x18
    .word 0x03168333  # mul x6, x13, x17
    .word 0x0062c2b3  # xor x5, x5, x6
    .word 0x03070333  # mul x6, x14, x16
    .word 0x0062c2b3  # xor x5, x5, x6
    .word 0x03378333  # mul x6, x15, x19
    .word 0x0062c2b3  # xor x5, x5, x6
    .word 0x01b2fb33  # and x22, x5, x27
    .word 0x033602b3  # mul x5, x12, x19
    .word 0x03268333  # mul x6, x13, x18
    .word 0x0062c2b3  # xor x5, x5, x6
    .word 0x03170333  # mul x6, x14, x17
    .word 0x0062c2b3  # xor x5, x5, x6
    .word 0x03078333  # mul x6, x15, x16
    .word 0x0062c2b3  # xor x5, x5, x6
    .word 0x0082fbb3  # and x23, x5, x8
    .word 0x015a62b3  # or x5, x20, x21
    .word 0x0162e2b3  # or x5, x5, x22
    .word 0x0172e2b3  # or x5, x5, x23
    .word 0x1654aa23  # sw x5, 372(x9)
    .word 0x03063a33  # mulhu x20, x12, x16
    .word 0x0336bab3  # mulhu x21, x13, x19
    .word 0x03273b33  # mulhu x22, x14, x18
    .word 0x0317bbb3  # mulhu x23, x15, x17
    .word 0x015a42b3  # xor x5, x20, x21
    .word 0x0162c2b3  # xor x5, x5, x22
    .word 0x0172c2b3  # xor x5, x5, x23
    .word 0x0192fa33  # and x20, x5, x25
    .word 0x03163ab3  # mulhu x21, x12, x17
    .word 0x0306bb33  # mulhu x22, x13, x16
    .word 0x03373bb3  # mulhu x23, x14, x19
    .word 0x0327bc33  # mulhu x24, x15, x18
    .word 0x016ac2b3  # xor x5, x21, x22
    .word 0x0172c2b3  # xor x5, x5, x23
    .word 0x0182c2b3  # xor x5, x5, x24
    .word 0x01a2fab3  # and x21, x5, x26
    .word 0x03263b33  # mulhu x22, x12, x18
    .word 0x0316bbb3  # mulhu x23, x13, x17
    .word 0x03073c33  # mulhu x24, x14, x16
    .word 0x0337b2b3  # mulhu x5, x15, x19
    .word 0x1a512e23  # sw x5, 444(x2)
    .word 0x017b42b3  # xor x5, x22, x23
    .word 0x0182c2b3  # xor x5, x5, x24
    .word 0x1bc12303  # lw x6, 444(x2)
    .word 0x0062c2b3  # xor x5, x5, x6
    .word 0x01b2fb33  # and x22, x5, x27
    .word 0x03363633  # mulhu x12, x12, x19
    .word 0x0326b6b3  # mulhu x13, x13, x18
    .word 0x03173733  # mulhu x14, x14, x17
    .word 0x0307b7b3  # mulhu x15, x15, x16
    .word 0x00d642b3  # xor x5, x12, x13
    .word 0x00e2c2b3  # xor x5, x5, x14
    .word 0x00f2c2b3  # xor x5, x5, x15
    .word 0x0082f633  # and x12, x5, x8
    .word 0x015a6333  # or x6, x20, x21
    .word 0x01636333  # or x6, x6, x22
    .word 0x00c36333  # or x6, x6, x12
    .word 0x00251293  # slli x5, x10, 2
    .word 0x002282b3  # add x5, x5, x2
    .word 0x1862ac23  # sw x6, 408(x5)
    .word 0x00158593  # addi x11, x11, 1
    .word 0x00259493  # slli x9, x11, 2
    .word 0x002484b3  # add x9, x9, x2
    .word 0x1d012283  # lw x5, 464(x2)
    .word 0x0055b2b3  # sltu x5, x11, x5
    .word 0xe80298e3  # bne x5, x0, -368
    .word 0xfff58593  # addi x11, x11, -1
    .word 0x00259493  # slli x9, x11, 2
    .word 0x002484b3  # add x9, x9, x2
    .word 0x0040006f  # jal x0, 4
    .word 0x17412283  # lw x5, 372(x2)
    .word 0x17812303  # lw x6, 376(x2)
    .word 0x0062c633  # xor x12, x5, x6
    .word 0x17c12283  # lw x5, 380(x2)
    .word 0x18012303  # lw x6, 384(x2)
    .word 0x0062c8b3  # xor x17, x5, x6
    .word 0x17412783  # lw x15, 372(x2)
    .word 0x18412303  # lw x6, 388(x2)
    .word 0x006646b3  # xor x13, x12, x6
    .word 0x17c12303  # lw x6, 380(x2)
    .word 0x006642b3  # xor x5, x12, x6
    .word 0x18c12303  # lw x6, 396(x2)
    .word 0x0062c733  # xor x14, x5, x6
    .word 0x011642b3  # xor x5, x12, x17
    .word 0x18412303  # lw x6, 388(x2)
    .word 0x0062c2b3  # xor x5, x5, x6
    .word 0x18812303  # lw x6, 392(x2)
    .word 0x0062c2b3  # xor x5, x5, x6
    .word 0x18c12303  # lw x6, 396(x2)
    .word 0x0062c2b3  # xor x5, x5, x6
    .word 0x19012303  # lw x6, 400(x2)
    .word 0x0062c2b3  # xor x5, x5, x6
    .word 0x19412303  # lw x6, 404(x2)
    .word 0x0062c633  # xor x12, x5, x6
    .word 0x17812303  # lw x6, 376(x2)
    .word 0x0068c2b3  # xor x5, x17, x6
    .word 0x19012303  # lw x6, 400(x2)
    .word 0x0062c833  # xor x16, x5, x6
    .word 0x18812303  # lw x6, 392(x2)
    .word 0x0068c8b3  # xor x17, x17, x6
    .word 0x18012903  # lw x18, 384(x2)
    .word 0x19812283  # lw x5, 408(x2)
    .word 0x19c12303  # lw x6, 412(x2)
    .word 0x0062c9b3  # xor x19, x5, x6
    .word 0x1a012283  # lw x5, 416(x2)
    .word 0x1a412303  # lw x6, 420(x2)
    .word 0x0062ca33  # xor x20, x5, x6
    .word 0x19812303  # lw x6, 408(x2)
    .word 0x0066c6b3  # xor x13, x13, x6
    .word 0x013742b3  # xor x5, x14, x19
    .word 0x1a812303  # lw x6, 424(x2)
    .word 0x0062c733  # xor x14, x5, x6
    .word 0x013642b3  # xor x5, x12, x19
    .word 0x1a012303  # lw x6, 416(x2)
    .word 0x0062c2b3  # xor x5, x5, x6
    .word 0x1b012303  # lw x6, 432(x2)
    .word 0x0062c633  # xor x12, x5, x6
    .word 0x013842b3  # xor x5, x16, x19
    .word 0x0142c2b3  # xor x5, x5, x20
    .word 0x1a812303  # lw x6, 424(x2)
    .word 0x0062c2b3  # xor x5, x5, x6
    .word 0x1ac12303  # lw x6, 428(x2)
    .word 0x0062c2b3  # xor x5, x5, x6
    .word 0x1b012303  # lw x6, 432(x2)
    .word 0x0062c2b3  # xor x5, x5, x6
    .word 0x1b412303  # lw x6, 436(x2)
    .word 0x0062c2b3  # xor x5, x5, x6
    .word 0x1b812303  # lw x6, 440(x2)
    .word 0x0062c833  # xor x16, x5, x6
    .word 0x0148c2b3  # xor x5, x17, x20
    .word 0x19c12303  # lw x6, 412(x2)
    .word 0x0062c2b3  # xor x5, x5, x6
    .word 0x1b412303  # lw x6, 436(x2)
    .word 0x0062c8b3  # xor x17, x5, x6
    .word 0x014942b3  # xor x5, x18, x20
    .word 0x1ac12303  # lw x6, 428(x2)
    .word 0x0062c933  # xor x18, x5, x6
    .word 0x1a412983  # lw x19, 420(x2)
    .word 0x00199293  # slli x5, x19, 1
    .word 0x01f95313  # srli x6, x18, 31
    .word 0x0062e9b3  # or x19, x5, x6
    .word 0x00191293  # slli x5, x18, 1
    .word 0x01f8d313  # srli x6, x17, 31
    .word 0x0062e933  # or x18, x5, x6
    .word 0x00189293  # slli x5, x17, 1
    .word 0x01f85313  # srli x6, x16, 31
    .word 0x0062e8b3  # or x17, x5, x6
    .word 0x00181293  # slli x5, x16, 1
    .word 0x01f65313  # srli x6, x12, 31
    .word 0x0062e833  # or x16, x5, x6
    .word 0x00161293  # slli x5, x12, 1
    .word 0x01f75313  # srli x6, x14, 31
    .word 0x0062e633  # or x12, x5, x6
    .word 0x00171293  # slli x5, x14, 1
    .word 0x01f6d313  # srli x6, x13, 31
    .word 0x0062e733  # or x14, x5, x6
    .word 0x00169293  # slli x5, x13, 1
    .word 0x01f7d313  # srli x6, x15, 31
    .word 0x0062e6b3  # or x13, x5, x6
    .word 0x00179793  # slli x15, x15, 1
    .word 0x00f842b3  # xor x5, x16, x15
    .word 0x0017d313  # srli x6, x15, 1
    .word 0x0062c2b3  # xor x5, x5, x6
    .word 0x0027d313  # srli x6, x15, 2
    .word 0x0062c2b3  # xor x5, x5, x6
    .word 0x0077d313  # srli x6, x15, 7
    .word 0x0062c833  # xor x16, x5, x6
    .word 0x01f79313  # slli x6, x15, 31
    .word 0x006642b3  # xor x5, x12, x6
    .word 0x01e79313  # slli x6, x15, 30
    .word 0x0062c2b3  # xor x5, x5, x6
    .word 0x01979313  # slli x6, x15, 25
    .word 0x0062c633  # xor x12, x5, x6
    .word 0x00d8c2b3  # xor x5, x17, x13
    .word 0x0016d313  # srli x6, x13, 1
    .word 0x0062c2b3  # xor x5, x5, x6
    .word 0x0026d313  # srli x6, x13, 2
    .word 0x0062c2b3  # xor x5, x5, x6
    .word 0x0076d313  # srli x6, x13, 7
    .word 0x0062c8b3  # xor x17, x5, x6
    .word 0x01f69313  # slli x6, x13, 31
    .word 0x006842b3  # xor x5, x16, x6
    .word 0x01e69313  # slli x6, x13, 30
    .word 0x0062c2b3  # xor x5, x5, x6
    .word 0x01969313  # slli x6, x13, 25
    .word 0x0062c833  # xor x16, x5, x6
    .word 0x00e942b3  # xor x5, x18, x14
    .word 0x00175313  # srli x6, x14, 1
    .word 0x0062c2b3  # xor x5, x5, x6
    .word 0x00275313  # srli x6, x14, 2
    .word 0x0062c2b3  # xor x5, x5, x6
    .word 0x00775313  # srli x6, x14, 7
    .word 0x0062c933  # xor x18, x5, x6
    .word 0x01f71313  # slli x6, x14, 31
    .word 0x0068c2b3  # xor x5, x17, x6
    .word 0x01e71313  # slli x6, x14, 30
    .word 0x0062c2b3  # xor x5, x5, x6
    .word 0x01971313  # slli x6, x14, 25
    .word 0x0062c8b3  # xor x17, x5, x6
    .word 0x00c9c2b3  # xor x5, x19, x12
    .word 0x00165313  # srli x6, x12, 1
    .word 0x0062c2b3  # xor x5, x5, x6
    .word 0x00265313  # srli x6, x12, 2
    .word 0x0062c2b3  # xor x5, x5, x6
    .word 0x00765313  # srli x6, x12, 7
    .word 0x0062c9b3  # xor x19, x5, x6
    .word 0x01f61313  # slli x6, x12, 31
    .word 0x006942b3  # xor x5, x18, x6
    .word 0x01e61313  # slli x6, x12, 30
    .word 0x0062c2b3  # xor x5, x5, x6
    .word 0x01961313  # slli x6, x12, 25
    .word 0x0062c933  # xor x18, x5, x6
    .word 0x00080613  # addi x12, x16, 0
    .word 0x00088693  # addi x13, x17, 0
    .word 0x00090713  # addi x14, x18, 0
    .word 0x00098793  # addi x15, x19, 0
    .word 0x879ff06f  # jal x0, -1928
    .word 0x0187d293  # srli x5, x15, 24
    .word 0x10510a23  # sb x5, 276(x2)
    .word 0x0107d293  # srli x5, x15, 16
    .word 0x10510aa3  # sb x5, 277(x2)
    .word 0x0087d293  # srli x5, x15, 8
    .word 0x10510b23  # sb x5, 278(x2)
    .word 0x10f10ba3  # sb x15, 279(x2)
    .word 0x01875293  # srli x5, x14, 24
    .word 0x10510c23  # sb x5, 280(x2)
    .word 0x01075293  # srli x5, x14, 16
    .word 0x10510ca3  # sb x5, 281(x2)
    .word 0x00875293  # srli x5, x14, 8
    .word 0x10510d23  # sb x5, 282(x2)
    .word 0x10e10da3  # sb x14, 283(x2)
    .word 0x0186d293  # srli x5, x13, 24
    .word 0x10510e23  # sb x5, 284(x2)
    .word 0x0106d293  # srli x5, x13, 16
    .word 0x10510ea3  # sb x5, 285(x2)
    .word 0x0086d293  # srli x5, x13, 8
    .word 0x10510f23  # sb x5, 286(x2)
    .word 0x10d10fa3  # sb x13, 287(x2)
    .word 0x01865293  # srli x5, x12, 24
    .word 0x12510023  # sb x5, 288(x2)
    .word 0x01065293  # srli x5, x12, 16
    .word 0x125100a3  # sb x5, 289(x2)
    .word 0x00865293  # srli x5, x12, 8
    .word 0x12510123  # sb x5, 290(x2)
    .word 0x12c101a3  # sb x12, 291(x2)
    # the result
    .word 0x00000513  # addi x10, x0, 0
    # parameter 3: the array, back
    .word 0x11410293  # addi x5, x2, 276
    .word 0x21c12303  # lw x6, 540(x2)
    .word 0x01028393  # addi x7, x5, 16
    .word 0x09000f6f  # jal x30, 144
    # above the frame
    .word 0x1e010293  # addi x5, x2, 480
    # the caller's registers
    .word 0x0002a403  # lw x8, 0(x5)
    .cfi_restore 8
    .word 0x0042a483  # lw x9, 4(x5)
    .cfi_restore 9
    .word 0x0082a903  # lw x18, 8(x5)
    .cfi_restore 18
    .word 0x00c2a983  # lw x19, 12(x5)
    .cfi_restore 19
    .word 0x0102aa03  # lw x20, 16(x5)
    .cfi_restore 20
    .word 0x0142aa83  # lw x21, 20(x5)
    .cfi_restore 21
    .word 0x0182ab03  # lw x22, 24(x5)
    .cfi_restore 22
    .word 0x01c2ab83  # lw x23, 28(x5)
    .cfi_restore 23
    .word 0x0202ac03  # lw x24, 32(x5)
    .cfi_restore 24
    .word 0x0242ac83  # lw x25, 36(x5)
    .cfi_restore 25
    .word 0x0282ad03  # lw x26, 40(x5)
    .cfi_restore 26
    .word 0x02c2ad83  # lw x27, 44(x5)
    .cfi_restore 27
    # the caller's x2
    .word 0x04028293  # addi x5, x5, 64
    .cfi_def_cfa 5, 0
    # all the room, wiped upward
    .word 0x00012023  # sw x0, 0(x2)
    .word 0x00012223  # sw x0, 4(x2)
    .word 0x00012423  # sw x0, 8(x2)
    .word 0x00012623  # sw x0, 12(x2)
    .word 0x01010113  # addi x2, x2, 16
    .word 0xfe5116e3  # bne x2, x5, -20
    .cfi_def_cfa 2, 0
    # temporaries, wiped
    .word 0x00000293  # addi x5, x0, 0
    .word 0x00000313  # addi x6, x0, 0
    .word 0x00000393  # addi x7, x0, 0
    .word 0x00000593  # addi x11, x0, 0
    .word 0x00000613  # addi x12, x0, 0
    .word 0x00000693  # addi x13, x0, 0
    .word 0x00000713  # addi x14, x0, 0
    .word 0x00000793  # addi x15, x0, 0
    .word 0x00000813  # addi x16, x0, 0
    .word 0x00000893  # addi x17, x0, 0
    .word 0x00000e13  # addi x28, x0, 0
    .word 0x00000e93  # addi x29, x0, 0
    .word 0x00000f13  # addi x30, x0, 0
    .word 0x00000f93  # addi x31, x0, 0
    # back
    .word 0x00008067  # jalr x0, 0(x1)
    # from x5 to x6 up to x7, and back
    .cfi_def_cfa 2, 544
    .cfi_offset 8, -64
    .cfi_offset 9, -60
    .cfi_offset 18, -56
    .cfi_offset 19, -52
    .cfi_offset 20, -48
    .cfi_offset 21, -44
    .cfi_offset 22, -40
    .cfi_offset 23, -36
    .cfi_offset 24, -32
    .cfi_offset 25, -28
    .cfi_offset 26, -24
    .cfi_offset 27, -20
    .word 0x0062ee33  # or x28, x5, x6
    .word 0x003e7e13  # andi x28, x28, 3
    .word 0x000e0e63  # beq x28, x0, 28
    .word 0x0002ce03  # lbu x28, 0(x5)
    .word 0x01c30023  # sb x28, 0(x6)
    .word 0x00128293  # addi x5, x5, 1
    .word 0x00130313  # addi x6, x6, 1
    .word 0xfe7298e3  # bne x5, x7, -16
    .word 0x0300006f  # jal x0, 48
    .word 0x0002ae03  # lw x28, 0(x5)
    .word 0x01c32023  # sw x28, 0(x6)
    .word 0x0042ae03  # lw x28, 4(x5)
    .word 0x01c32223  # sw x28, 4(x6)
    .word 0x0082ae03  # lw x28, 8(x5)
    .word 0x01c32423  # sw x28, 8(x6)
    .word 0x00c2ae03  # lw x28, 12(x5)
    .word 0x01c32623  # sw x28, 12(x6)
    .word 0x01028293  # addi x5, x5, 16
    .word 0x01030313  # addi x6, x6, 16
    .word 0xfc729ce3  # bne x5, x7, -40
    .word 0x000f0067  # jalr x0, 0(x30)
    .cfi_endproc
    .size ghash_blocks, . - ghash_blocks
    .option pop
