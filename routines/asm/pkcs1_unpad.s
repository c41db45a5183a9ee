# pkcs1_unpad: made by factc 1.0.0 function; 677 words, 224 bytes of stack, profile 1
    .option push
    .option norvc
    .option norelax
    .cfi_sections .debug_frame
    .section .text.pkcs1_unpad, "ax", @progbits
    .p2align 2
    .globl pkcs1_unpad
    .type pkcs1_unpad, @function
pkcs1_unpad:
    .cfi_startproc
    # room above the frame
    .word 0xfc010113  # addi x2, x2, -64
    .cfi_def_cfa_offset 64
    # the caller's registers
    .word 0x00812023  # sw x8, 0(x2)
    .cfi_offset 8, -64
    .word 0x00912223  # sw x9, 4(x2)
    .cfi_offset 9, -60
    .word 0x01212423  # sw x18, 8(x2)
    .cfi_offset 18, -56
    .word 0x01312623  # sw x19, 12(x2)
    .cfi_offset 19, -52
    .word 0x01412823  # sw x20, 16(x2)
    .cfi_offset 20, -48
    .word 0x01512a23  # sw x21, 20(x2)
    .cfi_offset 21, -44
    .word 0x01612c23  # sw x22, 24(x2)
    .cfi_offset 22, -40
    .word 0x01712e23  # sw x23, 28(x2)
    .cfi_offset 23, -36
    .word 0x03812023  # sw x24, 32(x2)
    .cfi_offset 24, -32
    .word 0x03912223  # sw x25, 36(x2)
    .cfi_offset 25, -28
    .word 0x03a12423  # sw x26, 40(x2)
    .cfi_offset 26, -24
    .word 0x03b12623  # sw x27, 44(x2)
    .cfi_offset 27, -20
    # arguments that are needed behind the body
    .word 0x02a12c23  # sw x10, 56(x2)
    .word 0x02b12e23  # sw x11, 60(x2)
    # the frame's base
    .word 0xf6010113  # addi x2, x2, -160
    .cfi_def_cfa 2, 224
    # the frame's word at 128, zeroed
    .word 0x08012023  # sw x0, 128(x2)
    # parameter 0: an array
    .word 0x00050293  # addi x5, x10, 0
    .word 0x00010313  # addi x6, x2, 0
    .word 0x04028393  # addi x7, x5, 64
    .word 0x20900f6f  # jal x30, 2568
    # the body
    .word 0x00000793  # addi x15, x0, 0
    .word 0x00100713  # addi x14, x0, 1
    .word 0x08012823  # sw x0, 144(x2)
    .word 0x00f00293  # addi x5, x0, 15
    .word 0x08512a23  # sw x5, 148(x2)
    .word 0x09012303  # lw x6, 144(x2)
    .word 0x09412283  # lw x5, 148(x2)
    .word 0x005332b3  # sltu x5, x6, x5
    .word 0x00029463  # bne x5, x0, 8
    .word 0x0700006f  # jal x0, 112
    .word 0x06612c23  # sw x6, 120(x2)
    .word 0x00130313  # addi x6, x6, 1
    .word 0x08612823  # sw x6, 144(x2)
    .word 0x07812283  # lw x5, 120(x2)
    .word 0x00229293  # slli x5, x5, 2
    .word 0x00228513  # addi x10, x5, 2
    .word 0x00250333  # add x6, x10, x2
    .word 0x00034303  # lbu x6, 0(x6)
    .word 0x00603333  # sltu x6, x0, x6
    .word 0x00677733  # and x14, x14, x6
    .word 0x00e787b3  # add x15, x15, x14
    .word 0x00250333  # add x6, x10, x2
    .word 0x00134303  # lbu x6, 1(x6)
    .word 0x00603333  # sltu x6, x0, x6
    .word 0x00677733  # and x14, x14, x6
    .word 0x00e787b3  # add x15, x15, x14
    .word 0x00250333  # add x6, x10, x2
    .word 0x00234303  # lbu x6, 2(x6)
    .word 0x00603333  # sltu x6, x0, x6
    .word 0x00677733  # and x14, x14, x6
    .word 0x00e787b3  # add x15, x15, x14
    .word 0x00250333  # add x6, x10, x2
    .word 0x00334303  # lbu x6, 3(x6)
    .word 0x00603333  # sltu x6, x0, x6
    .word 0x00677733  # and x14, x14, x6
    .word 0x00e787b3  # add x15, x15, x14
    .word 0xf85ff06f  # jal x0, -124
    .word 0x03e14303  # lbu x6, 62(x2)
    .word 0x00603333  # sltu x6, x0, x6
    .word 0x00677733  # and x14, x14, x6
    .word 0x00e787b3  # add x15, x15, x14
    .word 0x03f14303  # lbu x6, 63(x2)
    .word 0x00603333  # sltu x6, x0, x6
    .word 0x00677733  # and x14, x14, x6
    .word 0x00e787b3  # add x15, x15, x14
    .word 0x00378293  # addi x5, x15, 3
    .word 0x06512e23  # sw x5, 124(x2)
    .word 0x00014283  # lbu x5, 0(x2)
    .word 0x00114303  # lbu x6, 1(x2)
    .word 0x00234313  # xori x6, x6, 2
    .word 0x0062e2b3  # or x5, x5, x6
    .word 0x0012b293  # sltiu x5, x5, 1
    .word 0x08512023  # sw x5, 128(x2)
    .word 0x08012283  # lw x5, 128(x2)
    .word 0x00173313  # sltiu x6, x14, 1
    .word 0x0062f2b3  # and x5, x5, x6
    .word 0x0087b313  # sltiu x6, x15, 8
    .word 0x00133313  # sltiu x6, x6, 1
    .word 0x0062f2b3  # and x5, x5, x6
    .word 0x08512023  # sw x5, 128(x2)
    .word 0x08012283  # lw x5, 128(x2)
    .word 0x07c12303  # lw x6, 124(x2)
    .word 0x04033313  # sltiu x6, x6, 64
    .word 0x0062f2b3  # and x5, x5, x6
    .word 0x405007b3  # sub x15, x0, x5
    .word 0x07c12283  # lw x5, 124(x2)
    .word 0xff528293  # addi x5, x5, -11
    .word 0x08512223  # sw x5, 132(x2)
    .word 0x00b14283  # lbu x5, 11(x2)
    .word 0x00c14303  # lbu x6, 12(x2)
    .word 0x00831313  # slli x6, x6, 8
    .word 0x0062e2b3  # or x5, x5, x6
    .word 0x00d14303  # lbu x6, 13(x2)
    .word 0x01031313  # slli x6, x6, 16
    .word 0x0062e2b3  # or x5, x5, x6
    .word 0x00e14303  # lbu x6, 14(x2)
    .word 0x01831313  # slli x6, x6, 24
    .word 0x0062e733  # or x14, x5, x6
    .word 0x00f77833  # and x16, x14, x15
    .word 0x00f14283  # lbu x5, 15(x2)
    .word 0x01014303  # lbu x6, 16(x2)
    .word 0x00831313  # slli x6, x6, 8
    .word 0x0062e2b3  # or x5, x5, x6
    .word 0x01114303  # lbu x6, 17(x2)
    .word 0x01031313  # slli x6, x6, 16
    .word 0x0062e2b3  # or x5, x5, x6
    .word 0x01214303  # lbu x6, 18(x2)
    .word 0x01831313  # slli x6, x6, 24
    .word 0x0062e733  # or x14, x5, x6
    .word 0x00f778b3  # and x17, x14, x15
    .word 0x01314283  # lbu x5, 19(x2)
    .word 0x01414303  # lbu x6, 20(x2)
    .word 0x00831313  # slli x6, x6, 8
    .word 0x0062e2b3  # or x5, x5, x6
    .word 0x01514303  # lbu x6, 21(x2)
    .word 0x01031313  # slli x6, x6, 16
    .word 0x0062e2b3  # or x5, x5, x6
    .word 0x01614303  # lbu x6, 22(x2)
    .word 0x01831313  # slli x6, x6, 24
    .word 0x0062e733  # or x14, x5, x6
    .word 0x00f77933  # and x18, x14, x15
    .word 0x01714283  # lbu x5, 23(x2)
    .word 0x01814303  # lbu x6, 24(x2)
    .word 0x00831313  # slli x6, x6, 8
    .word 0x0062e2b3  # or x5, x5, x6
    .word 0x01914303  # lbu x6, 25(x2)
    .word 0x01031313  # slli x6, x6, 16
    .word 0x0062e2b3  # or x5, x5, x6
    .word 0x01a14303  # lbu x6, 26(x2)
    .word 0x01831313  # slli x6, x6, 24
    .word 0x0062e733  # or x14, x5, x6
    .word 0x00f779b3  # and x19, x14, x15
    .word 0x01b14283  # lbu x5, 27(x2)
    .word 0x01c14303  # lbu x6, 28(x2)
    .word 0x00831313  # slli x6, x6, 8
    .word 0x0062e2b3  # or x5, x5, x6
    .word 0x01d14303  # lbu x6, 29(x2)
    .word 0x01031313  # slli x6, x6, 16
    .word 0x0062e2b3  # or x5, x5, x6
    .word 0x01e14303  # lbu x6, 30(x2)
    .word 0x01831313  # slli x6, x6, 24
    .word 0x0062e733  # or x14, x5, x6
    .word 0x00f77a33  # and x20, x14, x15
    .word 0x01f14283  # lbu x5, 31(x2)
    .word 0x02014303  # lbu x6, 32(x2)
    .word 0x00831313  # slli x6, x6, 8
    .word 0x0062e2b3  # or x5, x5, x6
    .word 0x02114303  # lbu x6, 33(x2)
    .word 0x01031313  # slli x6, x6, 16
    .word 0x0062e2b3  # or x5, x5, x6
    .word 0x02214303  # lbu x6, 34(x2)
    .word 0x01831313  # slli x6, x6, 24
    .word 0x0062e733  # or x14, x5, x6
    .word 0x00f77ab3  # and x21, x14, x15
    .word 0x02314283  # lbu x5, 35(x2)
    .word 0x02414303  # lbu x6, 36(x2)
    .word 0x00831313  # slli x6, x6, 8
    .word 0x0062e2b3  # or x5, x5, x6
    .word 0x02514303  # lbu x6, 37(x2)
    .word 0x01031313  # slli x6, x6, 16
    .word 0x0062e2b3  # or x5, x5, x6
    .word 0x02614303  # lbu x6, 38(x2)
    .word 0x01831313  # slli x6, x6, 24
    .word 0x0062e733  # or x14, x5, x6
    .word 0x00f77b33  # and x22, x14, x15
    .word 0x02714283  # lbu x5, 39(x2)
    .word 0x02814303  # lbu x6, 40(x2)
    .word 0x00831313  # slli x6, x6, 8
    .word 0x0062e2b3  # or x5, x5, x6
    .word 0x02914303  # lbu x6, 41(x2)
    .word 0x01031313  # slli x6, x6, 16
    .word 0x0062e2b3  # or x5, x5, x6
    .word 0x02a14303  # lbu x6, 42(x2)
    .word 0x01831313  # slli x6, x6, 24
    .word 0x0062e733  # or x14, x5, x6
    .word 0x00f77bb3  # and x23, x14, x15
    .word 0x02b14283  # lbu x5, 43(x2)
    .word 0x02c14303  # lbu x6, 44(x2)
    .word 0x00831313  # slli x6, x6, 8
    .word 0x0062e2b3  # or x5, x5, x6
    .word 0x02d14303  # lbu x6, 45(x2)
    .word 0x01031313  # slli x6, x6, 16
    .word 0x0062e2b3  # or x5, x5, x6
    .word 0x02e14303  # lbu x6, 46(x2)
    .word 0x01831313  # slli x6, x6, 24
    .word 0x0062e733  # or x14, x5, x6
    .word 0x00f77c33  # and x24, x14, x15
    .word 0x02f14283  # lbu x5, 47(x2)
    .word 0x03014303  # lbu x6, 48(x2)
    .word 0x00831313  # slli x6, x6, 8
    .word 0x0062e2b3  # or x5, x5, x6
    .word 0x03114303  # lbu x6, 49(x2)
    .word 0x01031313  # slli x6, x6, 16
    .word 0x0062e2b3  # or x5, x5, x6
    .word 0x03214303  # lbu x6, 50(x2)
    .word 0x01831313  # slli x6, x6, 24
    .word 0x0062e733  # or x14, x5, x6
    .word 0x00f77cb3  # and x25, x14, x15
    .word 0x03314283  # lbu x5, 51(x2)
    .word 0x03414303  # lbu x6, 52(x2)
    .word 0x00831313  # slli x6, x6, 8
    .word 0x0062e2b3  # or x5, x5, x6
    .word 0x03514303  # lbu x6, 53(x2)
    .word 0x01031313  # slli x6, x6, 16
    .word 0x0062e2b3  # or x5, x5, x6
    .word 0x03614303  # lbu x6, 54(x2)
    .word 0x01831313  # slli x6, x6, 24
    .word 0x0062e733  # or x14, x5, x6
    .word 0x00f77d33  # and x26, x14, x15
    .word 0x03714283  # lbu x5, 55(x2)
    .word 0x03814303  # lbu x6, 56(x2)
    .word 0x00831313  # slli x6, x6, 8
    .word 0x0062e2b3  # or x5, x5, x6
    .word 0x03914303  # lbu x6, 57(x2)
    .word 0x01031313  # slli x6, x6, 16
    .word 0x0062e2b3  # or x5, x5, x6
    .word 0x03a14303  # lbu x6, 58(x2)
    .word 0x01831313  # slli x6, x6, 24
    .word 0x0062e733  # or x14, x5, x6
    .word 0x00f77db3  # and x27, x14, x15
    .word 0x03b14283  # lbu x5, 59(x2)
    .word 0x03c14303  # lbu x6, 60(x2)
    .word 0x00831313  # slli x6, x6, 8
    .word 0x0062e2b3  # or x5, x5, x6
    .word 0x03d14303  # lbu x6, 61(x2)
    .word 0x01031313  # slli x6, x6, 16
    .word 0x0062e2b3  # or x5, x5, x6
    .word 0x03e14303  # lbu x6, 62(x2)
    .word 0x01831313  # slli x6, x6, 24
    .word 0x0062e733  # or x14, x5, x6
    .word 0x00f77433  # and x8, x14, x15
    .word 0x03f14283  # lbu x5, 63(x2)
    .word 0x00f2f4b3  # and x9, x5, x15
    .word 0x08412283  # lw x5, 132(x2)
    .word 0x0052d293  # srli x5, x5, 5
    .word 0x0012f293  # andi x5, x5, 1
    .word 0x40500633  # sub x12, x0, x5
    .word 0x00080713  # addi x14, x16, 0
    .word 0x00ec42b3  # xor x5, x24, x14
    .word 0x00c2f7b3  # and x15, x5, x12
    .word 0x00f74833  # xor x16, x14, x15
    .word 0x00088713  # addi x14, x17, 0
    .word 0x00ecc2b3  # xor x5, x25, x14
    .word 0x00c2f7b3  # and x15, x5, x12
    .word 0x00f748b3  # xor x17, x14, x15
    .word 0x00090713  # addi x14, x18, 0
    .word 0x00ed42b3  # xor x5, x26, x14
    .word 0x00c2f7b3  # and x15, x5, x12
    .word 0x00f74933  # xor x18, x14, x15
    .word 0x00098713  # addi x14, x19, 0
    .word 0x00edc2b3  # xor x5, x27, x14
    .word 0x00c2f7b3  # and x15, x5, x12
    .word 0x00f749b3  # xor x19, x14, x15
    .word 0x000a0713  # addi x14, x20, 0
    .word 0x00e442b3  # xor x5, x8, x14
    .word 0x00c2f7b3  # and x15, x5, x12
    .word 0x00f74a33  # xor x20, x14, x15
    .word 0x000a8713  # addi x14, x21, 0
    .word 0x00e4c2b3  # xor x5, x9, x14
    .word 0x00c2f7b3  # and x15, x5, x12
    .word 0x00f74ab3  # xor x21, x14, x15
    .word 0x000b0713  # addi x14, x22, 0
    .word 0x00c777b3  # and x15, x14, x12
    .word 0x00f74b33  # xor x22, x14, x15
    .word 0x000b8713  # addi x14, x23, 0
    .word 0x00c777b3  # and x15, x14, x12
    .word 0x00f74bb3  # xor x23, x14, x15
    .word 0x000c0713  # addi x14, x24, 0
    .word 0x00c777b3  # and x15, x14, x12
    .word 0x00f74c33  # xor x24, x14, x15
    .word 0x000c8713  # addi x14, x25, 0
    .word 0x00c777b3  # and x15, x14, x12
    .word 0x00f74cb3  # xor x25, x14, x15
    .word 0x000d0713  # addi x14, x26, 0
    .word 0x00c777b3  # and x15, x14, x12
    .word 0x00f74d33  # xor x26, x14, x15
    .word 0x000d8713  # addi x14, x27, 0
    .word 0x00c777b3  # and x15, x14, x12
    .word 0x00f74db3  # xor x27, x14, x15
    .word 0x00040713  # addi x14, x8, 0
    .word 0x00c777b3  # and x15, x14, x12
    .word 0x00f74433  # xor x8, x14, x15
    .word 0x00048713  # addi x14, x9, 0
    .word 0x00c777b3  # and x15, x14, x12
    .word 0x00f744b3  # xor x9, x14, x15
    .word 0x08412283  # lw x5, 132(x2)
    .word 0x0042d293  # srli x5, x5, 4
    .word 0x0012f293  # andi x5, x5, 1
    .word 0x40500633  # sub x12, x0, x5
    .word 0x00080713  # addi x14, x16, 0
    .word 0x00ea42b3  # xor x5, x20, x14
    .word 0x00c2f7b3  # and x15, x5, x12
    .word 0x00f74833  # xor x16, x14, x15
    .word 0x00088713  # addi x14, x17, 0
    .word 0x00eac2b3  # xor x5, x21, x14
    .word 0x00c2f7b3  # and x15, x5, x12
    .word 0x00f748b3  # xor x17, x14, x15
    .word 0x00090713  # addi x14, x18, 0
    .word 0x00eb42b3  # xor x5, x22, x14
    .word 0x00c2f7b3  # and x15, x5, x12
    .word 0x00f74933  # xor x18, x14, x15
    .word 0x00098713  # addi x14, x19, 0
    .word 0x00ebc2b3  # xor x5, x23, x14
    .word 0x00c2f7b3  # and x15, x5, x12
    .word 0x00f749b3  # xor x19, x14, x15
    .word 0x000a0713  # addi x14, x20, 0
    .word 0x00ec42b3  # xor x5, x24, x14
    .word 0x00c2f7b3  # and x15, x5, x12
    .word 0x00f74a33  # xor x20, x14, x15
    .word 0x000a8713  # addi x14, x21, 0
    .word 0x00ecc2b3  # xor x5, x25, x14
    .word 0x00c2f7b3  # and x15, x5, x12
    .word 0x00f74ab3  # xor x21, x14, x15
    .word 0x000b0713  # addi x14, x22, 0
    .word 0x00ed42b3  # xor x5, x26, x14
    .word 0x00c2f7b3  # and x15, x5, x12
    .word 0x00f74b33  # xor x22, x14, x15
    .word 0x000b8713  # addi x14, x23, 0
    .word 0x00edc2b3  # xor x5, x27, x14
    .word 0x00c2f7b3  # and x15, x5, x12
    .word 0x00f74bb3  # xor x23, x14, x15
    .word 0x000c0713  # addi x14, x24, 0
    .word 0x00e442b3  # xor x5, x8, x14
    .word 0x00c2f7b3  # and x15, x5, x12
    .word 0x00f74c33  # xor x24, x14, x15
    .word 0x000c8713  # addi x14, x25, 0
    .word 0x00e4c2b3  # xor x5, x9, x14
    .word 0x00c2f7b3  # and x15, x5, x12
    .word 0x00f74cb3  # xor x25, x14, x15
    .word 0x000d0713  # addi x14, x26, 0
    .word 0x00c777b3  # and x15, x14, x12
    .word 0x00f74d33  # xor x26, x14, x15
    .word 0x000d8713  # addi x14, x27, 0
    .word 0x00c777b3  # and x15, x14, x12
    .word 0x00f74db3  # xor x27, x14, x15
    .word 0x00040713  # addi x14, x8, 0
    .word 0x00c777b3  # and x15, x14, x12
    .word 0x00f74433  # xor x8, x14, x15
    .word 0x00048713  # addi x14, x9, 0
    .word 0x00c777b3  # and x15, x14, x12
    .word 0x00f744b3  # xor x9, x14, x15
    .word 0x08412283  # lw x5, 132(x2)
    .word 0x0032d293  # srli x5, x5, 3
    .word 0x0012f293  # andi x5, x5, 1
    .word 0x40500633  # sub x12, x0, x5
    .word 0x00080713  # addi x14, x16, 0
    .word 0x00e942b3  # xor x5, x18, x14
    .word 0x00c2f7b3  # and x15, x5, x12
    .word 0x00f74833  # xor x16, x14, x15
    .word 0x00088713  # addi x14, x17, 0
    .word 0x00e9c2b3  # xor x5, x19, x14
    .word 0x00c2f7b3  # and x15, x5, x12
    .word 0x00f748b3  # xor x17, x14, x15
    .word 0x00090713  # addi x14, x18, 0
    .word 0x00ea42b3  # xor x5, x20, x14
    .word 0x00c2f7b3  # and x15, x5, x12
    .word 0x00f74933  # xor x18, x14, x15
    .word 0x00098713  # addi x14, x19, 0
    .word 0x00eac2b3  # xor x5, x21, x14
    .word 0x00c2f7b3  # and x15, x5, x12
    .word 0x00f749b3  # xor x19, x14, x15
    .word 0x000a0713  # addi x14, x20, 0
    .word 0x00eb42b3  # xor x5, x22, x14
    .word 0x00c2f7b3  # and x15, x5, x12
    .word 0x00f74a33  # xor x20, x14, x15
    .word 0x000a8713  # addi x14, x21, 0
    .word 0x00ebc2b3  # xor x5, x23, x14
    .word 0x00c2f7b3  # and x15, x5, x12
    .word 0x00f74ab3  # xor x21, x14, x15
    .word 0x000b0713  # addi x14, x22, 0
    .word 0x00ec42b3  # xor x5, x24, x14
    .word 0x00c2f7b3  # and x15, x5, x12
    .word 0x00f74b33  # xor x22, x14, x15
    .word 0x000b8713  # addi x14, x23, 0
    .word 0x00ecc2b3  # xor x5, x25, x14
    .word 0x00c2f7b3  # and x15, x5, x12
    .word 0x00f74bb3  # xor x23, x14, x15
    .word 0x000c0713  # addi x14, x24, 0
    .word 0x00ed42b3  # xor x5, x26, x14
    .word 0x00c2f7b3  # and x15, x5, x12
    .word 0x00f74c33  # xor x24, x14, x15
    .word 0x000c8713  # addi x14, x25, 0
    .word 0x00edc2b3  # xor x5, x27, x14
    .word 0x00c2f7b3  # and x15, x5, x12
    .word 0x00f74cb3  # xor x25, x14, x15
    .word 0x000d0713  # addi x14, x26, 0
    .word 0x00e442b3  # xor x5, x8, x14
    .word 0x00c2f7b3  # and x15, x5, x12
    .word 0x00f74d33  # xor x26, x14, x15
    .word 0x000d8713  # addi x14, x27, 0
    .word 0x00e4c2b3  # xor x5, x9, x14
    .word 0x00c2f7b3  # and x15, x5, x12
    .word 0x00f74db3  # xor x27, x14, x15
    .word 0x00040713  # addi x14, x8, 0
    .word 0x00c777b3  # and x15, x14, x12
    .word 0x00f74433  # xor x8, x14, x15
    .word 0x00048713  # addi x14, x9, 0
    .word 0x00c777b3  # and x15, x14, x12
    .word 0x00f744b3  # xor x9, x14, x15
    .word 0x08412283  # lw x5, 132(x2)
    .word 0x0022d293  # srli x5, x5, 2
    .word 0x0012f293  # andi x5, x5, 1
    .word 0x40500633  # sub x12, x0, x5
    .word 0x00080713  # addi x14, x16, 0
    .word 0x00e8c2b3  # xor x5, x17, x14
    .word 0x00c2f7b3  # and x15, x5, x12
    .word 0x00f74833  # xor x16, x14, x15
    .word 0x00088713  # addi x14, x17, 0
    .word 0x00e942b3  # xor x5, x18, x14
    .word 0x00c2f7b3  # and x15, x5, x12
    .word 0x00f748b3  # xor x17, x14, x15
    .word 0x00090713  # addi x14, x18, 0
    .word 0x00e9c2b3  # xor x5, x19, x14
    .word 0x00c2f7b3  # and x15, x5, x12
    .word 0x00f74933  # xor x18, x14, x15
    .word 0x00098713  # addi x14, x19, 0
    .word 0x00ea42b3  # xor x5, x20, x14
    .word 0x00c2f7b3  # and x15, x5, x12
    .word 0x00f749b3  # xor x19, x14, x15
    .word 0x000a0713  # addi x14, x20, 0
    .word 0x00eac2b3  # xor x5, x21, x14
    .word 0x00c2f7b3  # and x15, x5, x12
    .word 0x00f74a33  # xor x20, x14, x15
    .word 0x000a8713  # addi x14, x21, 0
    .word 0x00eb42b3  # xor x5, x22, x14
    .word 0x00c2f7b3  # and x15, x5, x12
    .word 0x00f74ab3  # xor x21, x14, x15
    .word 0x000b0713  # addi x14, x22, 0
    .word 0x00ebc2b3  # xor x5, x23, x14
    .word 0x00c2f7b3  # and x15, x5, x12
    .word 0x00f74b33  # xor x22, x14, x15
    .word 0x000b8713  # addi x14, x23, 0
    .word 0x00ec42b3  # xor x5, x24, x14
    .word 0x00c2f7b3  # and x15, x5, x12
    .word 0x00f74bb3  # xor x23, x14, x15
    .word 0x000c0713  # addi x14, x24, 0
    .word 0x00ecc2b3  # xor x5, x25, x14
    .word 0x00c2f7b3  # and x15, x5, x12
    .word 0x00f74c33  # xor x24, x14, x15
    .word 0x000c8713  # addi x14, x25, 0
    .word 0x00ed42b3  # xor x5, x26, x14
    .word 0x00c2f7b3  # and x15, x5, x12
    .word 0x00f74cb3  # xor x25, x14, x15
    .word 0x000d0713  # addi x14, x26, 0
    .word 0x00edc2b3  # xor x5, x27, x14
    .word 0x00c2f7b3  # and x15, x5, x12
    .word 0x00f74d33  # xor x26, x14, x15
    .word 0x000d8713  # addi x14, x27, 0
    .word 0x00e442b3  # xor x5, x8, x14
    .word 0x00c2f7b3  # and x15, x5, x12
    .word 0x00f74db3  # xor x27, x14, x15
    .word 0x00040713  # addi x14, x8, 0
    .word 0x00e4c2b3  # xor x5, x9, x14
    .word 0x00c2f7b3  # and x15, x5, x12
    .word 0x00f74433  # xor x8, x14, x15
    .word 0x00048713  # addi x14, x9, 0
    .word 0x00c777b3  # and x15, x14, x12
    .word 0x00f744b3  # xor x9, x14, x15
    .word 0x08012823  # sw x0, 144(x2)
    .word 0x00200293  # addi x5, x0, 2
    .word 0x08512a23  # sw x5, 148(x2)
    .word 0x09012303  # lw x6, 144(x2)
    .word 0x09412283  # lw x5, 148(x2)
    .word 0x005332b3  # sltu x5, x6, x5
    .word 0x00029463  # bne x5, x0, 8
    .word 0x1d00006f  # jal x0, 464
    .word 0x08612423  # sw x6, 136(x2)
    .word 0x00130313  # addi x6, x6, 1
    .word 0x08612823  # sw x6, 144(x2)
    .word 0x08812283  # lw x5, 136(x2)
    .word 0x0012f693  # andi x13, x5, 1
    .word 0x01000293  # addi x5, x0, 16
    .word 0x00d2d533  # srl x10, x5, x13
    .word 0x02000293  # addi x5, x0, 32
    .word 0x40a285b3  # sub x11, x5, x10
    .word 0x08412283  # lw x5, 132(x2)
    .word 0x00100313  # addi x6, x0, 1
    .word 0x40d30333  # sub x6, x6, x13
    .word 0x0062d2b3  # srl x5, x5, x6
    .word 0x0012f293  # andi x5, x5, 1
    .word 0x40500633  # sub x12, x0, x5
    .word 0x00080713  # addi x14, x16, 0
    .word 0x00a752b3  # srl x5, x14, x10
    .word 0x00b89333  # sll x6, x17, x11
    .word 0x0062c2b3  # xor x5, x5, x6
    .word 0x00e2c2b3  # xor x5, x5, x14
    .word 0x00c2f7b3  # and x15, x5, x12
    .word 0x00f74833  # xor x16, x14, x15
    .word 0x00088713  # addi x14, x17, 0
    .word 0x00a752b3  # srl x5, x14, x10
    .word 0x00b91333  # sll x6, x18, x11
    .word 0x0062c2b3  # xor x5, x5, x6
    .word 0x00e2c2b3  # xor x5, x5, x14
    .word 0x00c2f7b3  # and x15, x5, x12
    .word 0x00f748b3  # xor x17, x14, x15
    .word 0x00090713  # addi x14, x18, 0
    .word 0x00a752b3  # srl x5, x14, x10
    .word 0x00b99333  # sll x6, x19, x11
    .word 0x0062c2b3  # xor x5, x5, x6
    .word 0x00e2c2b3  # xor x5, x5, x14
    .word 0x00c2f7b3  # and x15, x5, x12
    .word 0x00f74933  # xor x18, x14, x15
    .word 0x00098713  # addi x14, x19, 0
    .word 0x00a752b3  # srl x5, x14, x10
    .word 0x00ba1333  # sll x6, x20, x11
    .word 0x0062c2b3  # xor x5, x5, x6
    .word 0x00e2c2b3  # xor x5, x5, x14
    .word 0x00c2f7b3  # and x15, x5, x12
    .word 0x00f749b3  # xor x19, x14, x15
    .word 0x000a0713  # addi x14, x20, 0
    .word 0x00a752b3  # srl x5, x14, x10
    .word 0x00ba9333  # sll x6, x21, x11
    .word 0x0062c2b3  # xor x5, x5, x6
    .word 0x00e2c2b3  # xor x5, x5, x14
    .word 0x00c2f7b3  # and x15, x5, x12
    .word 0x00f74a33  # xor x20, x14, x15
    .word 0x000a8713  # addi x14, x21, 0
    .word 0x00a752b3  # srl x5, x14, x10
    .word 0x00bb1333  # sll x6, x22, x11
    .word 0x0062c2b3  # xor x5, x5, x6
    .word 0x00e2c2b3  # xor x5, x5, x14
    .word 0x00c2f7b3  # and x15, x5, x12
    .word 0x00f74ab3  # xor x21, x14, x15
    .word 0x000b0713  # addi x14, x22, 0
    .word 0x00a752b3  # srl x5, x14, x10
    .word 0x00bb9333  # sll x6, x23, x11
    .word 0x0062c2b3  # xor x5, x5, x6
    .word 0x00e2c2b3  # xor x5, x5, x14
    .word 0x00c2f7b3  # and x15, x5, x12
    .word 0x00f74b33  # xor x22, x14, x15
    .word 0x000b8713  # addi x14, x23, 0
    .word 0x00a752b3  # srl x5, x14, x10
    .word 0x00bc1333  # sll x6, x24, x11
    .word 0x0062c2b3  # xor x5, x5, x6
    .word 0x00e2c2b3  # xor x5, x5, x14
    .word 0x00c2f7b3  # and x15, x5, x12
    .word 0x00f74bb3  # xor x23, x14, x15
    .word 0x000c0713  # addi x14, x24, 0
    .word 0x00a752b3  # srl x5, x14, x10
    .word 0x00bc9333  # sll x6, x25, x11
    .word 0x0062c2b3  # xor x5, x5, x6
    .word 0x00e2c2b3  # xor x5, x5, x14
    .word 0x00c2f7b3  # and x15, x5, x12
    .word 0x00f74c33  # xor x24, x14, x15
    .word 0x000c8713  # addi x14, x25, 0
    .word 0x00a752b3  # srl x5, x14, x10
    .word 0x00bd1333  # sll x6, x26, x11
    .word 0x0062c2b3  # xor x5, x5, x6
    .word 0x00e2c2b3  # xor x5, x5, x14
    .word 0x00c2f7b3  # and x15, x5, x12
    .word 0x00f74cb3  # xor x25, x14, x15
    .word 0x000d0713  # addi x14, x26, 0
    .word 0x00a752b3  # srl x5, x14, x10
    .word 0x00bd9333  # sll x6, x27, x11
    .word 0x0062c2b3  # xor x5, x5, x6
    .word 0x00e2c2b3  # xor x5, x5, x14
    .word 0x00c2f7b3  # and x15, x5, x12
    .word 0x00f74d33  # xor x26, x14, x15
    .word 0x000d8713  # addi x14, x27, 0
    .word 0x00a752b3  # srl x5, x14, x10
    .word 0x00b41333  # sll x6, x8, x11
    .word 0x0062c2b3  # xor x5, x5, x6
    .word 0x00e2c2b3  # xor x5, x5, x14
    .word 0x00c2f7b3  # and x15, x5, x12
    .word 0x00f74db3  # xor x27, x14, x15
    .word 0x00040713  # addi x14, x8, 0
    .word 0x00a752b3  # srl x5, x14, x10
    .word 0x00b49333  # sll x6, x9, x11
    .word 0x0062c2b3  # xor x5, x5, x6
    .word 0x00e2c2b3  # xor x5, x5, x14
    .word 0x00c2f7b3  # and x15, x5, x12
    .word 0x00f74433  # xor x8, x14, x15
    .word 0x00048713  # addi x14, x9, 0
    .word 0x00a752b3  # srl x5, x14, x10
    .word 0x00000313  # addi x6, x0, 0
    .word 0x00b31333  # sll x6, x6, x11
    .word 0x0062c2b3  # xor x5, x5, x6
    .word 0x00e2c2b3  # xor x5, x5, x14
    .word 0x00c2f7b3  # and x15, x5, x12
    .word 0x00f744b3  # xor x9, x14, x15
    .word 0xe25ff06f  # jal x0, -476
    .word 0x00080713  # addi x14, x16, 0
    .word 0x04e12023  # sw x14, 64(x2)
    .word 0x00088713  # addi x14, x17, 0
    .word 0x04e12223  # sw x14, 68(x2)
    .word 0x00090713  # addi x14, x18, 0
    .word 0x04e12423  # sw x14, 72(x2)
    .word 0x00098713  # addi x14, x19, 0
    .word 0x04e12623  # sw x14, 76(x2)
    .word 0x000a0713  # addi x14, x20, 0
    .word 0x04e12823  # sw x14, 80(x2)
    .word 0x000a8713  # addi x14, x21, 0
    .word 0x04e12a23  # sw x14, 84(x2)
    .word 0x000b0713  # addi x14, x22, 0
    .word 0x04e12c23  # sw x14, 88(x2)
    .word 0x000b8713  # addi x14, x23, 0
    .word 0x04e12e23  # sw x14, 92(x2)
    .word 0x000c0713  # addi x14, x24, 0
    .word 0x06e12023  # sw x14, 96(x2)
    .word 0x000c8713  # addi x14, x25, 0
    .word 0x06e12223  # sw x14, 100(x2)
    .word 0x000d0713  # addi x14, x26, 0
    .word 0x06e12423  # sw x14, 104(x2)
    .word 0x000d8713  # addi x14, x27, 0
    .word 0x06e12623  # sw x14, 108(x2)
    .word 0x00040713  # addi x14, x8, 0
    .word 0x06e12823  # sw x14, 112(x2)
    .word 0x06910a23  # sb x9, 116(x2)
    .word 0x08012283  # lw x5, 128(x2)
    .word 0x04000313  # addi x6, x0, 64
    .word 0x07c12383  # lw x7, 124(x2)
    .word 0x40730333  # sub x6, x6, x7
    .word 0x0ff37313  # andi x6, x6, 255
    .word 0x0ff00393  # addi x7, x0, 255
    .word 0x405002b3  # sub x5, x0, x5
    .word 0x00734333  # xor x6, x6, x7
    .word 0x00537333  # and x6, x6, x5
    .word 0x0063c2b3  # xor x5, x7, x6
    .word 0x08512623  # sw x5, 140(x2)
    # the result
    .word 0x08c12503  # lw x10, 140(x2)
    # parameter 1: the array, back
    .word 0x04010293  # addi x5, x2, 64
    .word 0x0dc12303  # lw x6, 220(x2)
    .word 0x03428393  # addi x7, x5, 52
    .word 0x09800f6f  # jal x30, 152
    .word 0x0002ce03  # lbu x28, 0(x5)
    .word 0x01c30023  # sb x28, 0(x6)
    # above the frame
    .word 0x0a010293  # addi x5, x2, 160
    # the caller's registers
    .word 0x0002a403  # lw x8, 0(x5)
    .cfi_restore 8
    .word 0x0042a483  # lw x9, 4(x5)
    .cfi_restore 9
    .word 0x0082a903  # lw x18, 8(x5)
    .cfi_restore 18
    .word 0x00c2a983  # lw x19, 12(x5)
    .cfi_restore 19
    .word 0x0102aa03  # lw x20, 16(x5)
    .cfi_restore 20
    .word 0x0142aa83  # lw x21, 20(x5)
    .cfi_restore 21
    .word 0x0182ab03  # lw x22, 24(x5)
    .cfi_restore 22
    .word 0x01c2ab83  # lw x23, 28(x5)
    .cfi_restore 23
    .word 0x0202ac03  # lw x24, 32(x5)
    .cfi_restore 24
    .word 0x0242ac83  # lw x25, 36(x5)
    .cfi_restore 25
    .word 0x0282ad03  # lw x26, 40(x5)
    .cfi_restore 26
    .word 0x02c2ad83  # lw x27, 44(x5)
    .cfi_restore 27
    # the caller's x2
    .word 0x04028293  # addi x5, x5, 64
    .cfi_def_cfa 5, 0
    # all the room, wiped upward
    .word 0x00012023  # sw x0, 0(x2)
    .word 0x00012223  # sw x0, 4(x2)
    .word 0x00012423  # sw x0, 8(x2)
    .word 0x00012623  # sw x0, 12(x2)
    .word 0x01010113  # addi x2, x2, 16
    .word 0xfe5116e3  # bne x2, x5, -20
    .cfi_def_cfa 2, 0
    # temporaries, wiped
    .word 0x00000293  # addi x5, x0, 0
    .word 0x00000313  # addi x6, x0, 0
    .word 0x00000393  # addi x7, x0, 0
    .word 0x00000593  # addi x11, x0, 0
    .word 0x00000613  # addi x12, x0, 0
    .word 0x00000693  # addi x13, x0, 0
    .word 0x00000713  # addi x14, x0, 0
    .word 0x00000793  # addi x15, x0, 0
    .word 0x00000813  # addi x16, x0, 0
    .word 0x00000893  # addi x17, x0, 0
    .word 0x00000e13  # addi x28, x0, 0
    .word 0x00000e93  # addi x29, x0, 0
    .word 0x00000f13  # addi x30, x0, 0
    .word 0x00000f93  # addi x31, x0, 0
    # back
    .word 0x00008067  # jalr x0, 0(x1)
    # from x5 to x6 up to x7, and back
    .cfi_def_cfa 2, 224
    .cfi_offset 8, -64
    .cfi_offset 9, -60
    .cfi_offset 18, -56
    .cfi_offset 19, -52
    .cfi_offset 20, -48
    .cfi_offset 21, -44
    .cfi_offset 22, -40
    .cfi_offset 23, -36
    .cfi_offset 24, -32
    .cfi_offset 25, -28
    .cfi_offset 26, -24
    .cfi_offset 27, -20
    .word 0x0062ee33  # or x28, x5, x6
    .word 0x003e7e13  # andi x28, x28, 3
    .word 0x000e0e63  # beq x28, x0, 28
    .word 0x0002ce03  # lbu x28, 0(x5)
    .word 0x01c30023  # sb x28, 0(x6)
    .word 0x00128293  # addi x5, x5, 1
    .word 0x00130313  # addi x6, x6, 1
    .word 0xfe7298e3  # bne x5, x7, -16
    .word 0x0180006f  # jal x0, 24
    .word 0x0002ae03  # lw x28, 0(x5)
    .word 0x01c32023  # sw x28, 0(x6)
    .word 0x00428293  # addi x5, x5, 4
    .word 0x00430313  # addi x6, x6, 4
    .word 0xfe7298e3  # bne x5, x7, -16
    .word 0x000f0067  # jalr x0, 0(x30)
    .cfi_endproc
    .size pkcs1_unpad, . - pkcs1_unpad
    .option pop
