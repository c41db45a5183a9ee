# aes128_encrypt: made by factc 1.0.0 function; 1100 words, 256 bytes of stack, profile 1
    .option push
    .option norvc
    .option norelax
    .cfi_sections .debug_frame
    .section .text.aes128_encrypt, "ax", @progbits
    .p2align 2
    .globl aes128_encrypt
    .type aes128_encrypt, @function
aes128_encrypt:
    .cfi_startproc
    # room above the frame
    .word 0xfc010113  # addi x2, x2, -64
    .cfi_def_cfa_offset 64
    # the caller's registers
    .word 0x00912023  # sw x9, 0(x2)
    .cfi_offset 9, -64
    .word 0x01212223  # sw x18, 4(x2)
    .cfi_offset 18, -60
    .word 0x01312423  # sw x19, 8(x2)
    .cfi_offset 19, -56
    .word 0x01412623  # sw x20, 12(x2)
    .cfi_offset 20, -52
    .word 0x01512823  # sw x21, 16(x2)
    .cfi_offset 21, -48
    .word 0x01612a23  # sw x22, 20(x2)
    .cfi_offset 22, -44
    .word 0x01712c23  # sw x23, 24(x2)
    .cfi_offset 23, -40
    .word 0x01812e23  # sw x24, 28(x2)
    .cfi_offset 24, -36
    .word 0x03912023  # sw x25, 32(x2)
    .cfi_offset 25, -32
    .word 0x03a12223  # sw x26, 36(x2)
    .cfi_offset 26, -28
    .word 0x03b12423  # sw x27, 40(x2)
    .cfi_offset 27, -24
    # arguments that are needed behind the body
    .word 0x02a12c23  # sw x10, 56(x2)
    .word 0x02b12e23  # sw x11, 60(x2)
    # the frame's base
    .word 0xf4010113  # addi x2, x2, -192
    .cfi_def_cfa 2, 256
    # parameter 0: an array
    .word 0x00050293  # addi x5, x10, 0
    .word 0x00010313  # addi x6, x2, 0
    .word 0x01028393  # addi x7, x5, 16
    .word 0x09401f6f  # jal x30, 4244
    # parameter 1: an array
    .word 0x00058293  # addi x5, x11, 0
    .word 0x01010313  # addi x6, x2, 16
    .word 0x01028393  # addi x7, x5, 16
    .word 0x08401f6f  # jal x30, 4228
    # the body
    .word 0x555552b7  # lui x5, 0x55555
    .word 0x55528293  # addi x5, x5, 1365
    .word 0x08512c23  # sw x5, 152(x2)
    .word 0x333332b7  # lui x5, 0x33333
    .word 0x33328293  # addi x5, x5, 819
    .word 0x08512e23  # sw x5, 156(x2)
    .word 0x0f0f12b7  # lui x5, 0x0f0f1
    .word 0xf0f28293  # addi x5, x5, -241
    .word 0x0a512023  # sw x5, 160(x2)
    .word 0x000014b7  # lui x9, 0x00001
    .word 0x11148493  # addi x9, x9, 273
    .word 0x000022b7  # lui x5, 0x00002
    .word 0x22228293  # addi x5, x5, 546
    .word 0x0a512223  # sw x5, 164(x2)
    .word 0x000042b7  # lui x5, 0x00004
    .word 0x44428293  # addi x5, x5, 1092
    .word 0x0a512423  # sw x5, 168(x2)
    .word 0x000092b7  # lui x5, 0x00009
    .word 0x88828293  # addi x5, x5, -1912
    .word 0x0a512623  # sw x5, 172(x2)
    .word 0x000032b7  # lui x5, 0x00003
    .word 0x33328293  # addi x5, x5, 819
    .word 0x0a512823  # sw x5, 176(x2)
    .word 0x06012c23  # sw x0, 120(x2)
    .word 0x06012e23  # sw x0, 124(x2)
    .word 0x08012023  # sw x0, 128(x2)
    .word 0x08012223  # sw x0, 132(x2)
    .word 0x08012423  # sw x0, 136(x2)
    .word 0x08012623  # sw x0, 140(x2)
    .word 0x08012823  # sw x0, 144(x2)
    .word 0x08012a23  # sw x0, 148(x2)
    .word 0x00100513  # addi x10, x0, 1
    .word 0x01014283  # lbu x5, 16(x2)
    .word 0x01814303  # lbu x6, 24(x2)
    .word 0x00831313  # slli x6, x6, 8
    .word 0x0062e9b3  # or x19, x5, x6
    .word 0x00014283  # lbu x5, 0(x2)
    .word 0x01029293  # slli x5, x5, 16
    .word 0x00814303  # lbu x6, 8(x2)
    .word 0x01831313  # slli x6, x6, 24
    .word 0x0062e933  # or x18, x5, x6
    .word 0x0129eab3  # or x21, x19, x18
    .word 0x01114283  # lbu x5, 17(x2)
    .word 0x01914303  # lbu x6, 25(x2)
    .word 0x00831313  # slli x6, x6, 8
    .word 0x0062e9b3  # or x19, x5, x6
    .word 0x00114283  # lbu x5, 1(x2)
    .word 0x01029293  # slli x5, x5, 16
    .word 0x00914303  # lbu x6, 9(x2)
    .word 0x01831313  # slli x6, x6, 24
    .word 0x0062e933  # or x18, x5, x6
    .word 0x0129eb33  # or x22, x19, x18
    .word 0x01214283  # lbu x5, 18(x2)
    .word 0x01a14303  # lbu x6, 26(x2)
    .word 0x00831313  # slli x6, x6, 8
    .word 0x0062e9b3  # or x19, x5, x6
    .word 0x00214283  # lbu x5, 2(x2)
    .word 0x01029293  # slli x5, x5, 16
    .word 0x00a14303  # lbu x6, 10(x2)
    .word 0x01831313  # slli x6, x6, 24
    .word 0x0062e933  # or x18, x5, x6
    .word 0x0129ebb3  # or x23, x19, x18
    .word 0x01314283  # lbu x5, 19(x2)
    .word 0x01b14303  # lbu x6, 27(x2)
    .word 0x00831313  # slli x6, x6, 8
    .word 0x0062e9b3  # or x19, x5, x6
    .word 0x00314283  # lbu x5, 3(x2)
    .word 0x01029293  # slli x5, x5, 16
    .word 0x00b14303  # lbu x6, 11(x2)
    .word 0x01831313  # slli x6, x6, 24
    .word 0x0062e933  # or x18, x5, x6
    .word 0x0129ec33  # or x24, x19, x18
    .word 0x01414283  # lbu x5, 20(x2)
    .word 0x01c14303  # lbu x6, 28(x2)
    .word 0x00831313  # slli x6, x6, 8
    .word 0x0062e9b3  # or x19, x5, x6
    .word 0x00414283  # lbu x5, 4(x2)
    .word 0x01029293  # slli x5, x5, 16
    .word 0x00c14303  # lbu x6, 12(x2)
    .word 0x01831313  # slli x6, x6, 24
    .word 0x0062e933  # or x18, x5, x6
    .word 0x0129ecb3  # or x25, x19, x18
    .word 0x01514283  # lbu x5, 21(x2)
    .word 0x01d14303  # lbu x6, 29(x2)
    .word 0x00831313  # slli x6, x6, 8
    .word 0x0062e9b3  # or x19, x5, x6
    .word 0x00514283  # lbu x5, 5(x2)
    .word 0x01029293  # slli x5, x5, 16
    .word 0x00d14303  # lbu x6, 13(x2)
    .word 0x01831313  # slli x6, x6, 24
    .word 0x0062e933  # or x18, x5, x6
    .word 0x0129ed33  # or x26, x19, x18
    .word 0x01614283  # lbu x5, 22(x2)
    .word 0x01e14303  # lbu x6, 30(x2)
    .word 0x00831313  # slli x6, x6, 8
    .word 0x0062e9b3  # or x19, x5, x6
    .word 0x00614283  # lbu x5, 6(x2)
    .word 0x01029293  # slli x5, x5, 16
    .word 0x00e14303  # lbu x6, 14(x2)
    .word 0x01831313  # slli x6, x6, 24
    .word 0x0062e933  # or x18, x5, x6
    .word 0x0129edb3  # or x27, x19, x18
    .word 0x01714283  # lbu x5, 23(x2)
    .word 0x01f14303  # lbu x6, 31(x2)
    .word 0x00831313  # slli x6, x6, 8
    .word 0x0062e9b3  # or x19, x5, x6
    .word 0x00714283  # lbu x5, 7(x2)
    .word 0x01029293  # slli x5, x5, 16
    .word 0x00f14303  # lbu x6, 15(x2)
    .word 0x01831313  # slli x6, x6, 24
    .word 0x0062e933  # or x18, x5, x6
    .word 0x0129e933  # or x18, x19, x18
    .word 0x001ad293  # srli x5, x21, 1
    .word 0x0162c2b3  # xor x5, x5, x22
    .word 0x09812303  # lw x6, 152(x2)
    .word 0x0062f9b3  # and x19, x5, x6
    .word 0x013b4b33  # xor x22, x22, x19
    .word 0x00199313  # slli x6, x19, 1
    .word 0x006ac9b3  # xor x19, x21, x6
    .word 0x001bd293  # srli x5, x23, 1
    .word 0x0182c2b3  # xor x5, x5, x24
    .word 0x09812303  # lw x6, 152(x2)
    .word 0x0062f8b3  # and x17, x5, x6
    .word 0x011c4c33  # xor x24, x24, x17
    .word 0x00189313  # slli x6, x17, 1
    .word 0x006bc8b3  # xor x17, x23, x6
    .word 0x001cd293  # srli x5, x25, 1
    .word 0x01a2c2b3  # xor x5, x5, x26
    .word 0x09812303  # lw x6, 152(x2)
    .word 0x0062fa33  # and x20, x5, x6
    .word 0x014d4d33  # xor x26, x26, x20
    .word 0x001a1313  # slli x6, x20, 1
    .word 0x006cca33  # xor x20, x25, x6
    .word 0x001dd293  # srli x5, x27, 1
    .word 0x0122c2b3  # xor x5, x5, x18
    .word 0x09812303  # lw x6, 152(x2)
    .word 0x0062fbb3  # and x23, x5, x6
    .word 0x01794933  # xor x18, x18, x23
    .word 0x001b9313  # slli x6, x23, 1
    .word 0x006dcdb3  # xor x27, x27, x6
    .word 0x0029d293  # srli x5, x19, 2
    .word 0x0112c2b3  # xor x5, x5, x17
    .word 0x09c12303  # lw x6, 156(x2)
    .word 0x0062fcb3  # and x25, x5, x6
    .word 0x0198cbb3  # xor x23, x17, x25
    .word 0x002c9313  # slli x6, x25, 2
    .word 0x0069c9b3  # xor x19, x19, x6
    .word 0x002b5293  # srli x5, x22, 2
    .word 0x0182c2b3  # xor x5, x5, x24
    .word 0x09c12303  # lw x6, 156(x2)
    .word 0x0062f8b3  # and x17, x5, x6
    .word 0x011c4c33  # xor x24, x24, x17
    .word 0x00289313  # slli x6, x17, 2
    .word 0x006b48b3  # xor x17, x22, x6
    .word 0x002a5293  # srli x5, x20, 2
    .word 0x01b2c2b3  # xor x5, x5, x27
    .word 0x09c12303  # lw x6, 156(x2)
    .word 0x0062fb33  # and x22, x5, x6
    .word 0x016dcdb3  # xor x27, x27, x22
    .word 0x002b1313  # slli x6, x22, 2
    .word 0x006a4a33  # xor x20, x20, x6
    .word 0x002d5293  # srli x5, x26, 2
    .word 0x0122c2b3  # xor x5, x5, x18
    .word 0x09c12303  # lw x6, 156(x2)
    .word 0x0062fb33  # and x22, x5, x6
    .word 0x01694933  # xor x18, x18, x22
    .word 0x002b1313  # slli x6, x22, 2
    .word 0x006d4d33  # xor x26, x26, x6
    .word 0x0049d293  # srli x5, x19, 4
    .word 0x0142c2b3  # xor x5, x5, x20
    .word 0x0a012303  # lw x6, 160(x2)
    .word 0x0062fb33  # and x22, x5, x6
    .word 0x016a4cb3  # xor x25, x20, x22
    .word 0x004b1313  # slli x6, x22, 4
    .word 0x0069c9b3  # xor x19, x19, x6
    .word 0x0048d293  # srli x5, x17, 4
    .word 0x01a2c2b3  # xor x5, x5, x26
    .word 0x0a012303  # lw x6, 160(x2)
    .word 0x0062fa33  # and x20, x5, x6
    .word 0x014d4d33  # xor x26, x26, x20
    .word 0x004a1313  # slli x6, x20, 4
    .word 0x0068ca33  # xor x20, x17, x6
    .word 0x004bd293  # srli x5, x23, 4
    .word 0x01b2c2b3  # xor x5, x5, x27
    .word 0x0a012303  # lw x6, 160(x2)
    .word 0x0062f8b3  # and x17, x5, x6
    .word 0x011dcdb3  # xor x27, x27, x17
    .word 0x00489313  # slli x6, x17, 4
    .word 0x006bcbb3  # xor x23, x23, x6
    .word 0x004c5293  # srli x5, x24, 4
    .word 0x0122c2b3  # xor x5, x5, x18
    .word 0x0a012303  # lw x6, 160(x2)
    .word 0x0062f8b3  # and x17, x5, x6
    .word 0x01194933  # xor x18, x18, x17
    .word 0x00489313  # slli x6, x17, 4
    .word 0x006c4c33  # xor x24, x24, x6
    .word 0x0109d893  # srli x17, x19, 16
    .word 0x01089293  # slli x5, x17, 16
    .word 0x04512c23  # sw x5, 88(x2)
    .word 0x0119cab3  # xor x21, x19, x17
    .word 0x000a0993  # addi x19, x20, 0
    .word 0x0109d893  # srli x17, x19, 16
    .word 0x01089293  # slli x5, x17, 16
    .word 0x04512e23  # sw x5, 92(x2)
    .word 0x0119cb33  # xor x22, x19, x17
    .word 0x000b8993  # addi x19, x23, 0
    .word 0x0109d893  # srli x17, x19, 16
    .word 0x01089293  # slli x5, x17, 16
    .word 0x06512023  # sw x5, 96(x2)
    .word 0x0119cbb3  # xor x23, x19, x17
    .word 0x000c0993  # addi x19, x24, 0
    .word 0x0109d893  # srli x17, x19, 16
    .word 0x01089293  # slli x5, x17, 16
    .word 0x06512223  # sw x5, 100(x2)
    .word 0x0119cc33  # xor x24, x19, x17
    .word 0x000c8993  # addi x19, x25, 0
    .word 0x0109d893  # srli x17, x19, 16
    .word 0x01089293  # slli x5, x17, 16
    .word 0x06512423  # sw x5, 104(x2)
    .word 0x0119ccb3  # xor x25, x19, x17
    .word 0x000d0993  # addi x19, x26, 0
    .word 0x0109d893  # srli x17, x19, 16
    .word 0x01089293  # slli x5, x17, 16
    .word 0x06512623  # sw x5, 108(x2)
    .word 0x0119cd33  # xor x26, x19, x17
    .word 0x000d8993  # addi x19, x27, 0
    .word 0x0109d893  # srli x17, x19, 16
    .word 0x01089293  # slli x5, x17, 16
    .word 0x06512823  # sw x5, 112(x2)
    .word 0x0119cdb3  # xor x27, x19, x17
    .word 0x00090993  # addi x19, x18, 0
    .word 0x0109d893  # srli x17, x19, 16
    .word 0x01089293  # slli x5, x17, 16
    .word 0x06512a23  # sw x5, 116(x2)
    .word 0x0119c933  # xor x18, x19, x17
    .word 0x00100293  # addi x5, x0, 1
    .word 0x0a512c23  # sw x5, 184(x2)
    .word 0x00b00293  # addi x5, x0, 11
    .word 0x0a512e23  # sw x5, 188(x2)
    .word 0x0b812303  # lw x6, 184(x2)
    .word 0x0bc12283  # lw x5, 188(x2)
    .word 0x005332b3  # sltu x5, x6, x5
    .word 0x00029463  # bne x5, x0, 8
    .word 0x24d0006f  # jal x0, 2636
    .word 0x02612023  # sw x6, 32(x2)
    .word 0x00130313  # addi x6, x6, 1
    .word 0x0a612c23  # sw x6, 184(x2)
    .word 0x00090993  # addi x19, x18, 0
    .word 0x000d8713  # addi x14, x27, 0
    .word 0x000d0893  # addi x17, x26, 0
    .word 0x000c8a13  # addi x20, x25, 0
    .word 0x000c0693  # addi x13, x24, 0
    .word 0x000b8c13  # addi x24, x23, 0
    .word 0x000a8913  # addi x18, x21, 0
    .word 0x018a45b3  # xor x11, x20, x24
    .word 0x0169cd33  # xor x26, x19, x22
    .word 0x0149c2b3  # xor x5, x19, x20
    .word 0x02512223  # sw x5, 36(x2)
    .word 0x0189cdb3  # xor x27, x19, x24
    .word 0x01174cb3  # xor x25, x14, x17
    .word 0x012cc8b3  # xor x17, x25, x18
    .word 0x0148c2b3  # xor x5, x17, x20
    .word 0x02512423  # sw x5, 40(x2)
    .word 0x00bd42b3  # xor x5, x26, x11
    .word 0x02512623  # sw x5, 44(x2)
    .word 0x0138c2b3  # xor x5, x17, x19
    .word 0x02512823  # sw x5, 48(x2)
    .word 0x0168c2b3  # xor x5, x17, x22
    .word 0x02512a23  # sw x5, 52(x2)
    .word 0x03412283  # lw x5, 52(x2)
    .word 0x01b2c2b3  # xor x5, x5, x27
    .word 0x02512c23  # sw x5, 56(x2)
    .word 0x02c12303  # lw x6, 44(x2)
    .word 0x0066ca33  # xor x20, x13, x6
    .word 0x018a4b33  # xor x22, x20, x24
    .word 0x00ea4c33  # xor x24, x20, x14
    .word 0x012b42b3  # xor x5, x22, x18
    .word 0x02512e23  # sw x5, 60(x2)
    .word 0x019b4bb3  # xor x23, x22, x25
    .word 0x02412303  # lw x6, 36(x2)
    .word 0x006c4a33  # xor x20, x24, x6
    .word 0x014942b3  # xor x5, x18, x20
    .word 0x04512023  # sw x5, 64(x2)
    .word 0x014bc2b3  # xor x5, x23, x20
    .word 0x04512223  # sw x5, 68(x2)
    .word 0x01bbc733  # xor x14, x23, x27
    .word 0x014cccb3  # xor x25, x25, x20
    .word 0x019d46b3  # xor x13, x26, x25
    .word 0x0199c7b3  # xor x15, x19, x25
    .word 0x02c12283  # lw x5, 44(x2)
    .word 0x0162f9b3  # and x19, x5, x22
    .word 0x03812283  # lw x5, 56(x2)
    .word 0x03c12303  # lw x6, 60(x2)
    .word 0x0062fab3  # and x21, x5, x6
    .word 0x013ac633  # xor x12, x21, x19
    .word 0x02812283  # lw x5, 40(x2)
    .word 0x0122fab3  # and x21, x5, x18
    .word 0x013ac2b3  # xor x5, x21, x19
    .word 0x04512823  # sw x5, 80(x2)
    .word 0x019d79b3  # and x19, x26, x25
    .word 0x03412283  # lw x5, 52(x2)
    .word 0x0112fab3  # and x21, x5, x17
    .word 0x013ac2b3  # xor x5, x21, x19
    .word 0x04512a23  # sw x5, 84(x2)
    .word 0x03012283  # lw x5, 48(x2)
    .word 0x04012303  # lw x6, 64(x2)
    .word 0x0062fab3  # and x21, x5, x6
    .word 0x013ac2b3  # xor x5, x21, x19
    .word 0x04512423  # sw x5, 72(x2)
    .word 0x02412283  # lw x5, 36(x2)
    .word 0x0142f9b3  # and x19, x5, x20
    .word 0x04412303  # lw x6, 68(x2)
    .word 0x0065fab3  # and x21, x11, x6
    .word 0x013acab3  # xor x21, x21, x19
    .word 0x017df2b3  # and x5, x27, x23
    .word 0x04512623  # sw x5, 76(x2)
    .word 0x04c12283  # lw x5, 76(x2)
    .word 0x0132c9b3  # xor x19, x5, x19
    .word 0x01564633  # xor x12, x12, x21
    .word 0x05012283  # lw x5, 80(x2)
    .word 0x0132c2b3  # xor x5, x5, x19
    .word 0x04512823  # sw x5, 80(x2)
    .word 0x05412283  # lw x5, 84(x2)
    .word 0x0152cab3  # xor x21, x5, x21
    .word 0x04812283  # lw x5, 72(x2)
    .word 0x0132c2b3  # xor x5, x5, x19
    .word 0x04512a23  # sw x5, 84(x2)
    .word 0x01864c33  # xor x24, x12, x24
    .word 0x05012283  # lw x5, 80(x2)
    .word 0x00e2c9b3  # xor x19, x5, x14
    .word 0x00dac733  # xor x14, x21, x13
    .word 0x05412283  # lw x5, 84(x2)
    .word 0x00f2cab3  # xor x21, x5, x15
    .word 0x013c47b3  # xor x15, x24, x19
    .word 0x00ec7633  # and x12, x24, x14
    .word 0x00cac6b3  # xor x13, x21, x12
    .word 0x00d7fc33  # and x24, x15, x13
    .word 0x013c4c33  # xor x24, x24, x19
    .word 0x015742b3  # xor x5, x14, x21
    .word 0x04512823  # sw x5, 80(x2)
    .word 0x00c9c9b3  # xor x19, x19, x12
    .word 0x05012303  # lw x6, 80(x2)
    .word 0x0069f9b3  # and x19, x19, x6
    .word 0x0159c9b3  # xor x19, x19, x21
    .word 0x01374633  # xor x12, x14, x19
    .word 0x0136c733  # xor x14, x13, x19
    .word 0x00eaf733  # and x14, x21, x14
    .word 0x00c74ab3  # xor x21, x14, x12
    .word 0x00e6c733  # xor x14, x13, x14
    .word 0x00ec7733  # and x14, x24, x14
    .word 0x00e7c733  # xor x14, x15, x14
    .word 0x015746b3  # xor x13, x14, x21
    .word 0x013c47b3  # xor x15, x24, x19
    .word 0x00ec4633  # xor x12, x24, x14
    .word 0x0159c2b3  # xor x5, x19, x21
    .word 0x04512823  # sw x5, 80(x2)
    .word 0x00d7c2b3  # xor x5, x15, x13
    .word 0x04512a23  # sw x5, 84(x2)
    .word 0x05012283  # lw x5, 80(x2)
    .word 0x0162f2b3  # and x5, x5, x22
    .word 0x04512423  # sw x5, 72(x2)
    .word 0x03c12303  # lw x6, 60(x2)
    .word 0x006af2b3  # and x5, x21, x6
    .word 0x02512e23  # sw x5, 60(x2)
    .word 0x0129f933  # and x18, x19, x18
    .word 0x01967b33  # and x22, x12, x25
    .word 0x011778b3  # and x17, x14, x17
    .word 0x04012303  # lw x6, 64(x2)
    .word 0x006c7cb3  # and x25, x24, x6
    .word 0x0147f2b3  # and x5, x15, x20
    .word 0x04512023  # sw x5, 64(x2)
    .word 0x05412283  # lw x5, 84(x2)
    .word 0x04412303  # lw x6, 68(x2)
    .word 0x0062fa33  # and x20, x5, x6
    .word 0x0176f2b3  # and x5, x13, x23
    .word 0x04512223  # sw x5, 68(x2)
    .word 0x05012283  # lw x5, 80(x2)
    .word 0x02c12303  # lw x6, 44(x2)
    .word 0x0062f2b3  # and x5, x5, x6
    .word 0x02512623  # sw x5, 44(x2)
    .word 0x03812303  # lw x6, 56(x2)
    .word 0x006afbb3  # and x23, x21, x6
    .word 0x02812303  # lw x6, 40(x2)
    .word 0x0069fab3  # and x21, x19, x6
    .word 0x01a679b3  # and x19, x12, x26
    .word 0x03412303  # lw x6, 52(x2)
    .word 0x00677733  # and x14, x14, x6
    .word 0x03012303  # lw x6, 48(x2)
    .word 0x006c72b3  # and x5, x24, x6
    .word 0x02512a23  # sw x5, 52(x2)
    .word 0x02412303  # lw x6, 36(x2)
    .word 0x0067fd33  # and x26, x15, x6
    .word 0x05412283  # lw x5, 84(x2)
    .word 0x00b2fc33  # and x24, x5, x11
    .word 0x01b6f5b3  # and x11, x13, x27
    .word 0x018d4d33  # xor x26, x26, x24
    .word 0x015bcab3  # xor x21, x23, x21
    .word 0x00eccdb3  # xor x27, x25, x14
    .word 0x02c12283  # lw x5, 44(x2)
    .word 0x0172cbb3  # xor x23, x5, x23
    .word 0x01394733  # xor x14, x18, x19
    .word 0x01994cb3  # xor x25, x18, x25
    .word 0x04412303  # lw x6, 68(x2)
    .word 0x006a42b3  # xor x5, x20, x6
    .word 0x02512223  # sw x5, 36(x2)
    .word 0x04812283  # lw x5, 72(x2)
    .word 0x0162c933  # xor x18, x5, x22
    .word 0x04012283  # lw x5, 64(x2)
    .word 0x0142c2b3  # xor x5, x5, x20
    .word 0x02512623  # sw x5, 44(x2)
    .word 0x00bc46b3  # xor x13, x24, x11
    .word 0x01b9c5b3  # xor x11, x19, x27
    .word 0x012749b3  # xor x19, x14, x18
    .word 0x01a8ca33  # xor x20, x17, x26
    .word 0x02c12303  # lw x6, 44(x2)
    .word 0x006b4c33  # xor x24, x22, x6
    .word 0x013d4d33  # xor x26, x26, x19
    .word 0x03412283  # lw x5, 52(x2)
    .word 0x0132cb33  # xor x22, x5, x19
    .word 0x02412283  # lw x5, 36(x2)
    .word 0x0142c9b3  # xor x19, x5, x20
    .word 0x014bca33  # xor x20, x23, x20
    .word 0x0188c8b3  # xor x17, x17, x24
    .word 0x013b4b33  # xor x22, x22, x19
    .word 0x03c12283  # lw x5, 60(x2)
    .word 0x0142cbb3  # xor x23, x5, x20
    .word 0x014c4733  # xor x14, x24, x20
    .word 0x0135c2b3  # xor x5, x11, x19
    .word 0xfff2cc13  # xori x24, x5, -1
    .word 0x01adc2b3  # xor x5, x27, x26
    .word 0xfff2c993  # xori x19, x5, -1
    .word 0x0168ca33  # xor x20, x17, x22
    .word 0x01794d33  # xor x26, x18, x23
    .word 0x017ccdb3  # xor x27, x25, x23
    .word 0x016acbb3  # xor x23, x21, x22
    .word 0x01a8c2b3  # xor x5, x17, x26
    .word 0xfff2c593  # xori x11, x5, -1
    .word 0x0146c2b3  # xor x5, x13, x20
    .word 0xfff2c293  # xori x5, x5, -1
    .word 0x02512223  # sw x5, 36(x2)
    .word 0x02012283  # lw x5, 32(x2)
    .word 0x00a2b813  # sltiu x16, x5, 10
    .word 0x01c9d913  # srli x18, x19, 28
    .word 0x00195293  # srli x5, x18, 1
    .word 0x00391313  # slli x6, x18, 3
    .word 0x0062e2b3  # or x5, x5, x6
    .word 0x00f2f293  # andi x5, x5, 15
    .word 0x00157313  # andi x6, x10, 1
    .word 0x0062c933  # xor x18, x5, x6
    .word 0x01091293  # slli x5, x18, 16
    .word 0x05812303  # lw x6, 88(x2)
    .word 0x0062c933  # xor x18, x5, x6
    .word 0x00491313  # slli x6, x18, 4
    .word 0x00694933  # xor x18, x18, x6
    .word 0x00891313  # slli x6, x18, 8
    .word 0x006948b3  # xor x17, x18, x6
    .word 0x05112c23  # sw x17, 88(x2)
    .word 0x01099993  # slli x19, x19, 16
    .word 0x0109d313  # srli x6, x19, 16
    .word 0x0069e9b3  # or x19, x19, x6
    .word 0x0099f2b3  # and x5, x19, x9
    .word 0x0049d313  # srli x6, x19, 4
    .word 0x0a412383  # lw x7, 164(x2)
    .word 0x00737333  # and x6, x6, x7
    .word 0x0062e2b3  # or x5, x5, x6
    .word 0x0089d313  # srli x6, x19, 8
    .word 0x0a812383  # lw x7, 168(x2)
    .word 0x00737333  # and x6, x6, x7
    .word 0x0062e2b3  # or x5, x5, x6
    .word 0x00c9d313  # srli x6, x19, 12
    .word 0x0ac12383  # lw x7, 172(x2)
    .word 0x00737333  # and x6, x6, x7
    .word 0x0062e933  # or x18, x5, x6
    .word 0x0108d293  # srli x5, x17, 16
    .word 0x0112c9b3  # xor x19, x5, x17
    .word 0x04080263  # beq x16, x0, 68
    .word 0x009978b3  # and x17, x18, x9
    .word 0x011942b3  # xor x5, x18, x17
    .word 0x0012d293  # srli x5, x5, 1
    .word 0x00389313  # slli x6, x17, 3
    .word 0x0062e8b3  # or x17, x5, x6
    .word 0x01194933  # xor x18, x18, x17
    .word 0x0b012303  # lw x6, 176(x2)
    .word 0x00697a33  # and x20, x18, x6
    .word 0x07212c23  # sw x18, 120(x2)
    .word 0x0119c2b3  # xor x5, x19, x17
    .word 0x01494333  # xor x6, x18, x20
    .word 0x00235313  # srli x6, x6, 2
    .word 0x0062c2b3  # xor x5, x5, x6
    .word 0x002a1313  # slli x6, x20, 2
    .word 0x0062c9b3  # xor x19, x5, x6
    .word 0x0080006f  # jal x0, 8
    .word 0x0129c9b3  # xor x19, x19, x18
    .word 0x00098a93  # addi x21, x19, 0
    .word 0x000c0993  # addi x19, x24, 0
    .word 0x01c9d913  # srli x18, x19, 28
    .word 0x00195293  # srli x5, x18, 1
    .word 0x00391313  # slli x6, x18, 3
    .word 0x0062e2b3  # or x5, x5, x6
    .word 0x00f2f293  # andi x5, x5, 15
    .word 0x00155313  # srli x6, x10, 1
    .word 0x00137313  # andi x6, x6, 1
    .word 0x0062c933  # xor x18, x5, x6
    .word 0x01091293  # slli x5, x18, 16
    .word 0x05c12303  # lw x6, 92(x2)
    .word 0x0062c933  # xor x18, x5, x6
    .word 0x00491313  # slli x6, x18, 4
    .word 0x00694933  # xor x18, x18, x6
    .word 0x00891313  # slli x6, x18, 8
    .word 0x006948b3  # xor x17, x18, x6
    .word 0x05112e23  # sw x17, 92(x2)
    .word 0x01099993  # slli x19, x19, 16
    .word 0x0109d313  # srli x6, x19, 16
    .word 0x0069e9b3  # or x19, x19, x6
    .word 0x0099f2b3  # and x5, x19, x9
    .word 0x0049d313  # srli x6, x19, 4
    .word 0x0a412383  # lw x7, 164(x2)
    .word 0x00737333  # and x6, x6, x7
    .word 0x0062e2b3  # or x5, x5, x6
    .word 0x0089d313  # srli x6, x19, 8
    .word 0x0a812383  # lw x7, 168(x2)
    .word 0x00737333  # and x6, x6, x7
    .word 0x0062e2b3  # or x5, x5, x6
    .word 0x00c9d313  # srli x6, x19, 12
    .word 0x0ac12383  # lw x7, 172(x2)
    .word 0x00737333  # and x6, x6, x7
    .word 0x0062e933  # or x18, x5, x6
    .word 0x0108d293  # srli x5, x17, 16
    .word 0x0112c9b3  # xor x19, x5, x17
    .word 0x04080263  # beq x16, x0, 68
    .word 0x009978b3  # and x17, x18, x9
    .word 0x011942b3  # xor x5, x18, x17
    .word 0x0012d293  # srli x5, x5, 1
    .word 0x00389313  # slli x6, x17, 3
    .word 0x0062e8b3  # or x17, x5, x6
    .word 0x01194933  # xor x18, x18, x17
    .word 0x0b012303  # lw x6, 176(x2)
    .word 0x00697a33  # and x20, x18, x6
    .word 0x07212e23  # sw x18, 124(x2)
    .word 0x0119c2b3  # xor x5, x19, x17
    .word 0x01494333  # xor x6, x18, x20
    .word 0x00235313  # srli x6, x6, 2
    .word 0x0062c2b3  # xor x5, x5, x6
    .word 0x002a1313  # slli x6, x20, 2
    .word 0x0062c9b3  # xor x19, x5, x6
    .word 0x0080006f  # jal x0, 8
    .word 0x0129c9b3  # xor x19, x19, x18
    .word 0x00098b13  # addi x22, x19, 0
    .word 0x000b8993  # addi x19, x23, 0
    .word 0x01c9d913  # srli x18, x19, 28
    .word 0x00195293  # srli x5, x18, 1
    .word 0x00391313  # slli x6, x18, 3
    .word 0x0062e2b3  # or x5, x5, x6
    .word 0x00f2f293  # andi x5, x5, 15
    .word 0x00255313  # srli x6, x10, 2
    .word 0x00137313  # andi x6, x6, 1
    .word 0x0062c933  # xor x18, x5, x6
    .word 0x01091293  # slli x5, x18, 16
    .word 0x06012303  # lw x6, 96(x2)
    .word 0x0062c933  # xor x18, x5, x6
    .word 0x00491313  # slli x6, x18, 4
    .word 0x00694933  # xor x18, x18, x6
    .word 0x00891313  # slli x6, x18, 8
    .word 0x006948b3  # xor x17, x18, x6
    .word 0x07112023  # sw x17, 96(x2)
    .word 0x01099993  # slli x19, x19, 16
    .word 0x0109d313  # srli x6, x19, 16
    .word 0x0069e9b3  # or x19, x19, x6
    .word 0x0099f2b3  # and x5, x19, x9
    .word 0x0049d313  # srli x6, x19, 4
    .word 0x0a412383  # lw x7, 164(x2)
    .word 0x00737333  # and x6, x6, x7
    .word 0x0062e2b3  # or x5, x5, x6
    .word 0x0089d313  # srli x6, x19, 8
    .word 0x0a812383  # lw x7, 168(x2)
    .word 0x00737333  # and x6, x6, x7
    .word 0x0062e2b3  # or x5, x5, x6
    .word 0x00c9d313  # srli x6, x19, 12
    .word 0x0ac12383  # lw x7, 172(x2)
    .word 0x00737333  # and x6, x6, x7
    .word 0x0062e933  # or x18, x5, x6
    .word 0x0108d293  # srli x5, x17, 16
    .word 0x0112c9b3  # xor x19, x5, x17
    .word 0x04080263  # beq x16, x0, 68
    .word 0x009978b3  # and x17, x18, x9
    .word 0x011942b3  # xor x5, x18, x17
    .word 0x0012d293  # srli x5, x5, 1
    .word 0x00389313  # slli x6, x17, 3
    .word 0x0062e8b3  # or x17, x5, x6
    .word 0x01194933  # xor x18, x18, x17
    .word 0x0b012303  # lw x6, 176(x2)
    .word 0x00697a33  # and x20, x18, x6
    .word 0x09212023  # sw x18, 128(x2)
    .word 0x0119c2b3  # xor x5, x19, x17
    .word 0x01494333  # xor x6, x18, x20
    .word 0x00235313  # srli x6, x6, 2
    .word 0x0062c2b3  # xor x5, x5, x6
    .word 0x002a1313  # slli x6, x20, 2
    .word 0x0062c9b3  # xor x19, x5, x6
    .word 0x0080006f  # jal x0, 8
    .word 0x0129c9b3  # xor x19, x19, x18
    .word 0x00098b93  # addi x23, x19, 0
    .word 0x000d8993  # addi x19, x27, 0
    .word 0x01c9d913  # srli x18, x19, 28
    .word 0x00195293  # srli x5, x18, 1
    .word 0x00391313  # slli x6, x18, 3
    .word 0x0062e2b3  # or x5, x5, x6
    .word 0x00f2f293  # andi x5, x5, 15
    .word 0x00355313  # srli x6, x10, 3
    .word 0x00137313  # andi x6, x6, 1
    .word 0x0062c933  # xor x18, x5, x6
    .word 0x01091293  # slli x5, x18, 16
    .word 0x06412303  # lw x6, 100(x2)
    .word 0x0062c933  # xor x18, x5, x6
    .word 0x00491313  # slli x6, x18, 4
    .word 0x00694933  # xor x18, x18, x6
    .word 0x00891313  # slli x6, x18, 8
    .word 0x006948b3  # xor x17, x18, x6
    .word 0x07112223  # sw x17, 100(x2)
    .word 0x01099993  # slli x19, x19, 16
    .word 0x0109d313  # srli x6, x19, 16
    .word 0x0069e9b3  # or x19, x19, x6
    .word 0x0099f2b3  # and x5, x19, x9
    .word 0x0049d313  # srli x6, x19, 4
    .word 0x0a412383  # lw x7, 164(x2)
    .word 0x00737333  # and x6, x6, x7
    .word 0x0062e2b3  # or x5, x5, x6
    .word 0x0089d313  # srli x6, x19, 8
    .word 0x0a812383  # lw x7, 168(x2)
    .word 0x00737333  # and x6, x6, x7
    .word 0x0062e2b3  # or x5, x5, x6
    .word 0x00c9d313  # srli x6, x19, 12
    .word 0x0ac12383  # lw x7, 172(x2)
    .word 0x00737333  # and x6, x6, x7
    .word 0x0062e933  # or x18, x5, x6
    .word 0x0108d293  # srli x5, x17, 16
    .word 0x0112c9b3  # xor x19, x5, x17
    .word 0x04080263  # beq x16, x0, 68
    .word 0x009978b3  # and x17, x18, x9
    .word 0x011942b3  # xor x5, x18, x17
    .word 0x0012d293  # srli x5, x5, 1
    .word 0x00389313  # slli x6, x17, 3
    .word 0x0062e8b3  # or x17, x5, x6
    .word 0x01194933  # xor x18, x18, x17
    .word 0x0b012303  # lw x6, 176(x2)
    .word 0x00697a33  # and x20, x18, x6
    .word 0x09212223  # sw x18, 132(x2)
    .word 0x0119c2b3  # xor x5, x19, x17
    .word 0x01494333  # xor x6, x18, x20
    .word 0x00235313  # srli x6, x6, 2
    .word 0x0062c2b3  # xor x5, x5, x6
    .word 0x002a1313  # slli x6, x20, 2
    .word 0x0062c9b3  # xor x19, x5, x6
    .word 0x0080006f  # jal x0, 8
    .word 0x0129c9b3  # xor x19, x19, x18
    .word 0x00098c13  # addi x24, x19, 0
    .word 0x000d0993  # addi x19, x26, 0
    .word 0x01c9d913  # srli x18, x19, 28
    .word 0x00195293  # srli x5, x18, 1
    .word 0x00391313  # slli x6, x18, 3
    .word 0x0062e2b3  # or x5, x5, x6
    .word 0x00f2f293  # andi x5, x5, 15
    .word 0x00455313  # srli x6, x10, 4
    .word 0x00137313  # andi x6, x6, 1
    .word 0x0062c933  # xor x18, x5, x6
    .word 0x01091293  # slli x5, x18, 16
    .word 0x06812303  # lw x6, 104(x2)
    .word 0x0062c933  # xor x18, x5, x6
    .word 0x00491313  # slli x6, x18, 4
    .word 0x00694933  # xor x18, x18, x6
    .word 0x00891313  # slli x6, x18, 8
    .word 0x006948b3  # xor x17, x18, x6
    .word 0x07112423  # sw x17, 104(x2)
    .word 0x01099993  # slli x19, x19, 16
    .word 0x0109d313  # srli x6, x19, 16
    .word 0x0069e9b3  # or x19, x19, x6
    .word 0x0099f2b3  # and x5, x19, x9
    .word 0x0049d313  # srli x6, x19, 4
    .word 0x0a412383  # lw x7, 164(x2)
    .word 0x00737333  # and x6, x6, x7
    .word 0x0062e2b3  # or x5, x5, x6
    .word 0x0089d313  # srli x6, x19, 8
    .word 0x0a812383  # lw x7, 168(x2)
    .word 0x00737333  # and x6, x6, x7
    .word 0x0062e2b3  # or x5, x5, x6
    .word 0x00c9d313  # srli x6, x19, 12
    .word 0x0ac12383  # lw x7, 172(x2)
    .word 0x00737333  # and x6, x6, x7
    .word 0x0062e933  # or x18, x5, x6
    .word 0x0108d293  # srli x5, x17, 16
    .word 0x0112c9b3  # xor x19, x5, x17
    .word 0x04080263  # beq x16, x0, 68
    .word 0x009978b3  # and x17, x18, x9
    .word 0x011942b3  # xor x5, x18, x17
    .word 0x0012d293  # srli x5, x5, 1
    .word 0x00389313  # slli x6, x17, 3
    .word 0x0062e8b3  # or x17, x5, x6
    .word 0x01194933  # xor x18, x18, x17
    .word 0x0b012303  # lw x6, 176(x2)
    .word 0x00697a33  # and x20, x18, x6
    .word 0x09212423  # sw x18, 136(x2)
    .word 0x0119c2b3  # xor x5, x19, x17
    .word 0x01494333  # xor x6, x18, x20
    .word 0x00235313  # srli x6, x6, 2
    .word 0x0062c2b3  # xor x5, x5, x6
    .word 0x002a1313  # slli x6, x20, 2
    .word 0x0062c9b3  # xor x19, x5, x6
    .word 0x0080006f  # jal x0, 8
    .word 0x0129c9b3  # xor x19, x19, x18
    .word 0x00098c93  # addi x25, x19, 0
    .word 0x02412983  # lw x19, 36(x2)
    .word 0x01c9d913  # srli x18, x19, 28
    .word 0x00195293  # srli x5, x18, 1
    .word 0x00391313  # slli x6, x18, 3
    .word 0x0062e2b3  # or x5, x5, x6
    .word 0x00f2f293  # andi x5, x5, 15
    .word 0x00555313  # srli x6, x10, 5
    .word 0x00137313  # andi x6, x6, 1
    .word 0x0062c933  # xor x18, x5, x6
    .word 0x01091293  # slli x5, x18, 16
    .word 0x06c12303  # lw x6, 108(x2)
    .word 0x0062c933  # xor x18, x5, x6
    .word 0x00491313  # slli x6, x18, 4
    .word 0x00694933  # xor x18, x18, x6
    .word 0x00891313  # slli x6, x18, 8
    .word 0x006948b3  # xor x17, x18, x6
    .word 0x07112623  # sw x17, 108(x2)
    .word 0x01099993  # slli x19, x19, 16
    .word 0x0109d313  # srli x6, x19, 16
    .word 0x0069e9b3  # or x19, x19, x6
    .word 0x0099f2b3  # and x5, x19, x9
    .word 0x0049d313  # srli x6, x19, 4
    .word 0x0a412383  # lw x7, 164(x2)
    .word 0x00737333  # and x6, x6, x7
    .word 0x0062e2b3  # or x5, x5, x6
    .word 0x0089d313  # srli x6, x19, 8
    .word 0x0a812383  # lw x7, 168(x2)
    .word 0x00737333  # and x6, x6, x7
    .word 0x0062e2b3  # or x5, x5, x6
    .word 0x00c9d313  # srli x6, x19, 12
    .word 0x0ac12383  # lw x7, 172(x2)
    .word 0x00737333  # and x6, x6, x7
    .word 0x0062e933  # or x18, x5, x6
    .word 0x0108d293  # srli x5, x17, 16
    .word 0x0112c9b3  # xor x19, x5, x17
    .word 0x04080263  # beq x16, x0, 68
    .word 0x009978b3  # and x17, x18, x9
    .word 0x011942b3  # xor x5, x18, x17
    .word 0x0012d293  # srli x5, x5, 1
    .word 0x00389313  # slli x6, x17, 3
    .word 0x0062e8b3  # or x17, x5, x6
    .word 0x01194933  # xor x18, x18, x17
    .word 0x0b012303  # lw x6, 176(x2)
    .word 0x00697a33  # and x20, x18, x6
    .word 0x09212623  # sw x18, 140(x2)
    .word 0x0119c2b3  # xor x5, x19, x17
    .word 0x01494333  # xor x6, x18, x20
    .word 0x00235313  # srli x6, x6, 2
    .word 0x0062c2b3  # xor x5, x5, x6
    .word 0x002a1313  # slli x6, x20, 2
    .word 0x0062c9b3  # xor x19, x5, x6
    .word 0x0080006f  # jal x0, 8
    .word 0x0129c9b3  # xor x19, x19, x18
    .word 0x00098d13  # addi x26, x19, 0
    .word 0x00058993  # addi x19, x11, 0
    .word 0x01c9d913  # srli x18, x19, 28
    .word 0x00195293  # srli x5, x18, 1
    .word 0x00391313  # slli x6, x18, 3
    .word 0x0062e2b3  # or x5, x5, x6
    .word 0x00f2f293  # andi x5, x5, 15
    .word 0x00655313  # srli x6, x10, 6
    .word 0x00137313  # andi x6, x6, 1
    .word 0x0062c933  # xor x18, x5, x6
    .word 0x01091293  # slli x5, x18, 16
    .word 0x07012303  # lw x6, 112(x2)
    .word 0x0062c933  # xor x18, x5, x6
    .word 0x00491313  # slli x6, x18, 4
    .word 0x00694933  # xor x18, x18, x6
    .word 0x00891313  # slli x6, x18, 8
    .word 0x006948b3  # xor x17, x18, x6
    .word 0x07112823  # sw x17, 112(x2)
    .word 0x01099993  # slli x19, x19, 16
    .word 0x0109d313  # srli x6, x19, 16
    .word 0x0069e9b3  # or x19, x19, x6
    .word 0x0099f2b3  # and x5, x19, x9
    .word 0x0049d313  # srli x6, x19, 4
    .word 0x0a412383  # lw x7, 164(x2)
    .word 0x00737333  # and x6, x6, x7
    .word 0x0062e2b3  # or x5, x5, x6
    .word 0x0089d313  # srli x6, x19, 8
    .word 0x0a812383  # lw x7, 168(x2)
    .word 0x00737333  # and x6, x6, x7
    .word 0x0062e2b3  # or x5, x5, x6
    .word 0x00c9d313  # srli x6, x19, 12
    .word 0x0ac12383  # lw x7, 172(x2)
    .word 0x00737333  # and x6, x6, x7
    .word 0x0062e933  # or x18, x5, x6
    .word 0x0108d293  # srli x5, x17, 16
    .word 0x0112c9b3  # xor x19, x5, x17
    .word 0x04080263  # beq x16, x0, 68
    .word 0x009978b3  # and x17, x18, x9
    .word 0x011942b3  # xor x5, x18, x17
    .word 0x0012d293  # srli x5, x5, 1
    .word 0x00389313  # slli x6, x17, 3
    .word 0x0062e8b3  # or x17, x5, x6
    .word 0x01194933  # xor x18, x18, x17
    .word 0x0b012303  # lw x6, 176(x2)
    .word 0x00697a33  # and x20, x18, x6
    .word 0x09212823  # sw x18, 144(x2)
    .word 0x0119c2b3  # xor x5, x19, x17
    .word 0x01494333  # xor x6, x18, x20
    .word 0x00235313  # srli x6, x6, 2
    .word 0x0062c2b3  # xor x5, x5, x6
    .word 0x002a1313  # slli x6, x20, 2
    .word 0x0062c9b3  # xor x19, x5, x6
    .word 0x0080006f  # jal x0, 8
    .word 0x0129c9b3  # xor x19, x19, x18
    .word 0x00098d93  # addi x27, x19, 0
    .word 0x00070993  # addi x19, x14, 0
    .word 0x01c9d913  # srli x18, x19, 28
    .word 0x00195293  # srli x5, x18, 1
    .word 0x00391313  # slli x6, x18, 3
    .word 0x0062e2b3  # or x5, x5, x6
    .word 0x00f2f293  # andi x5, x5, 15
    .word 0x00755313  # srli x6, x10, 7
    .word 0x00137313  # andi x6, x6, 1
    .word 0x0062c933  # xor x18, x5, x6
    .word 0x01091293  # slli x5, x18, 16
    .word 0x07412303  # lw x6, 116(x2)
    .word 0x0062c933  # xor x18, x5, x6
    .word 0x00491313  # slli x6, x18, 4
    .word 0x00694933  # xor x18, x18, x6
    .word 0x00891313  # slli x6, x18, 8
    .word 0x006948b3  # xor x17, x18, x6
    .word 0x07112a23  # sw x17, 116(x2)
    .word 0x01099993  # slli x19, x19, 16
    .word 0x0109d313  # srli x6, x19, 16
    .word 0x0069e9b3  # or x19, x19, x6
    .word 0x0099f2b3  # and x5, x19, x9
    .word 0x0049d313  # srli x6, x19, 4
    .word 0x0a412383  # lw x7, 164(x2)
    .word 0x00737333  # and x6, x6, x7
    .word 0x0062e2b3  # or x5, x5, x6
    .word 0x0089d313  # srli x6, x19, 8
    .word 0x0a812383  # lw x7, 168(x2)
    .word 0x00737333  # and x6, x6, x7
    .word 0x0062e2b3  # or x5, x5, x6
    .word 0x00c9d313  # srli x6, x19, 12
    .word 0x0ac12383  # lw x7, 172(x2)
    .word 0x00737333  # and x6, x6, x7
    .word 0x0062e933  # or x18, x5, x6
    .word 0x0108d293  # srli x5, x17, 16
    .word 0x0112c9b3  # xor x19, x5, x17
    .word 0x04080263  # beq x16, x0, 68
    .word 0x009978b3  # and x17, x18, x9
    .word 0x011942b3  # xor x5, x18, x17
    .word 0x0012d293  # srli x5, x5, 1
    .word 0x00389313  # slli x6, x17, 3
    .word 0x0062e8b3  # or x17, x5, x6
    .word 0x01194933  # xor x18, x18, x17
    .word 0x0b012303  # lw x6, 176(x2)
    .word 0x00697a33  # and x20, x18, x6
    .word 0x09212a23  # sw x18, 148(x2)
    .word 0x0119c2b3  # xor x5, x19, x17
    .word 0x01494333  # xor x6, x18, x20
    .word 0x00235313  # srli x6, x6, 2
    .word 0x0062c2b3  # xor x5, x5, x6
    .word 0x002a1313  # slli x6, x20, 2
    .word 0x0062c9b3  # xor x19, x5, x6
    .word 0x0080006f  # jal x0, 8
    .word 0x0129c9b3  # xor x19, x19, x18
    .word 0x00098913  # addi x18, x19, 0
    .word 0x04080e63  # beq x16, x0, 92
    .word 0x09412303  # lw x6, 148(x2)
    .word 0x006acab3  # xor x21, x21, x6
    .word 0x07812303  # lw x6, 120(x2)
    .word 0x006b42b3  # xor x5, x22, x6
    .word 0x09412303  # lw x6, 148(x2)
    .word 0x0062cb33  # xor x22, x5, x6
    .word 0x07c12303  # lw x6, 124(x2)
    .word 0x006bcbb3  # xor x23, x23, x6
    .word 0x08012303  # lw x6, 128(x2)
    .word 0x006c42b3  # xor x5, x24, x6
    .word 0x09412303  # lw x6, 148(x2)
    .word 0x0062cc33  # xor x24, x5, x6
    .word 0x08412303  # lw x6, 132(x2)
    .word 0x006cc2b3  # xor x5, x25, x6
    .word 0x09412303  # lw x6, 148(x2)
    .word 0x0062ccb3  # xor x25, x5, x6
    .word 0x08812303  # lw x6, 136(x2)
    .word 0x006d4d33  # xor x26, x26, x6
    .word 0x08c12303  # lw x6, 140(x2)
    .word 0x006dcdb3  # xor x27, x27, x6
    .word 0x09012303  # lw x6, 144(x2)
    .word 0x0069c933  # xor x18, x19, x6
    .word 0x00151293  # slli x5, x10, 1
    .word 0x08053313  # sltiu x6, x10, 128
    .word 0x11b00393  # addi x7, x0, 283
    .word 0xfff30313  # addi x6, x6, -1
    .word 0x0063f333  # and x6, x7, x6
    .word 0x0062c533  # xor x10, x5, x6
    .word 0xda8ff06f  # jal x0, -2648
    .word 0x001ad293  # srli x5, x21, 1
    .word 0x0162c2b3  # xor x5, x5, x22
    .word 0x09812303  # lw x6, 152(x2)
    .word 0x0062f9b3  # and x19, x5, x6
    .word 0x013b4b33  # xor x22, x22, x19
    .word 0x00199313  # slli x6, x19, 1
    .word 0x006ac9b3  # xor x19, x21, x6
    .word 0x001bd293  # srli x5, x23, 1
    .word 0x0182c2b3  # xor x5, x5, x24
    .word 0x09812303  # lw x6, 152(x2)
    .word 0x0062f8b3  # and x17, x5, x6
    .word 0x011c4c33  # xor x24, x24, x17
    .word 0x00189313  # slli x6, x17, 1
    .word 0x006bc8b3  # xor x17, x23, x6
    .word 0x001cd293  # srli x5, x25, 1
    .word 0x01a2c2b3  # xor x5, x5, x26
    .word 0x09812303  # lw x6, 152(x2)
    .word 0x0062fa33  # and x20, x5, x6
    .word 0x014d4d33  # xor x26, x26, x20
    .word 0x001a1313  # slli x6, x20, 1
    .word 0x006cca33  # xor x20, x25, x6
    .word 0x001dd293  # srli x5, x27, 1
    .word 0x0122c2b3  # xor x5, x5, x18
    .word 0x09812303  # lw x6, 152(x2)
    .word 0x0062fbb3  # and x23, x5, x6
    .word 0x01794933  # xor x18, x18, x23
    .word 0x001b9313  # slli x6, x23, 1
    .word 0x006dcdb3  # xor x27, x27, x6
    .word 0x0029d293  # srli x5, x19, 2
    .word 0x0112c2b3  # xor x5, x5, x17
    .word 0x09c12303  # lw x6, 156(x2)
    .word 0x0062fcb3  # and x25, x5, x6
    .word 0x0198cbb3  # xor x23, x17, x25
    .word 0x002c9313  # slli x6, x25, 2
    .word 0x0069c9b3  # xor x19, x19, x6
    .word 0x002b5293  # srli x5, x22, 2
    .word 0x0182c2b3  # xor x5, x5, x24
    .word 0x09c12303  # lw x6, 156(x2)
    .word 0x0062f8b3  # and x17, x5, x6
    .word 0x011c4c33  # xor x24, x24, x17
    .word 0x00289313  # slli x6, x17, 2
    .word 0x006b48b3  # xor x17, x22, x6
    .word 0x002a5293  # srli x5, x20, 2
    .word 0x01b2c2b3  # xor x5, x5, x27
    .word 0x09c12303  # lw x6, 156(x2)
    .word 0x0062fb33  # and x22, x5, x6
    .word 0x016dcdb3  # xor x27, x27, x22
    .word 0x002b1313  # slli x6, x22, 2
    .word 0x006a4a33  # xor x20, x20, x6
    .word 0x002d5293  # srli x5, x26, 2
    .word 0x0122c2b3  # xor x5, x5, x18
    .word 0x09c12303  # lw x6, 156(x2)
    .word 0x0062fb33  # and x22, x5, x6
    .word 0x01694933  # xor x18, x18, x22
    .word 0x002b1313  # slli x6, x22, 2
    .word 0x006d4d33  # xor x26, x26, x6
    .word 0x0049d293  # srli x5, x19, 4
    .word 0x0142c2b3  # xor x5, x5, x20
    .word 0x0a012303  # lw x6, 160(x2)
    .word 0x0062fb33  # and x22, x5, x6
    .word 0x016a4cb3  # xor x25, x20, x22
    .word 0x004b1313  # slli x6, x22, 4
    .word 0x0069c9b3  # xor x19, x19, x6
    .word 0x0048d293  # srli x5, x17, 4
    .word 0x01a2c2b3  # xor x5, x5, x26
    .word 0x0a012303  # lw x6, 160(x2)
    .word 0x0062fa33  # and x20, x5, x6
    .word 0x014d4d33  # xor x26, x26, x20
    .word 0x004a1313  # slli x6, x20, 4
    .word 0x0068c8b3  # xor x17, x17, x6
    .word 0x004bd293  # srli x5, x23, 4
    .word 0x01b2c2b3  # xor x5, x5, x27
    .word 0x0a012303  # lw x6, 160(x2)
    .word 0x0062fa33  # and x20, x5, x6
    .word 0x014dcdb3  # xor x27, x27, x20
    .word 0x004a1313  # slli x6, x20, 4
    .word 0x006bca33  # xor x20, x23, x6
    .word 0x004c5293  # srli x5, x24, 4
    .word 0x0122c2b3  # xor x5, x5, x18
    .word 0x0a012303  # lw x6, 160(x2)
    .word 0x0062fb33  # and x22, x5, x6
    .word 0x01694933  # xor x18, x18, x22
    .word 0x004b1313  # slli x6, x22, 4
    .word 0x006c4c33  # xor x24, x24, x6
    .word 0x01310823  # sb x19, 16(x2)
    .word 0x0089d293  # srli x5, x19, 8
    .word 0x00510c23  # sb x5, 24(x2)
    .word 0x00088993  # addi x19, x17, 0
    .word 0x013108a3  # sb x19, 17(x2)
    .word 0x0089d293  # srli x5, x19, 8
    .word 0x00510ca3  # sb x5, 25(x2)
    .word 0x000a0993  # addi x19, x20, 0
    .word 0x01310923  # sb x19, 18(x2)
    .word 0x0089d293  # srli x5, x19, 8
    .word 0x00510d23  # sb x5, 26(x2)
    .word 0x000c0993  # addi x19, x24, 0
    .word 0x013109a3  # sb x19, 19(x2)
    .word 0x0089d293  # srli x5, x19, 8
    .word 0x00510da3  # sb x5, 27(x2)
    .word 0x000c8993  # addi x19, x25, 0
    .word 0x01310a23  # sb x19, 20(x2)
    .word 0x0089d293  # srli x5, x19, 8
    .word 0x00510e23  # sb x5, 28(x2)
    .word 0x000d0993  # addi x19, x26, 0
    .word 0x01310aa3  # sb x19, 21(x2)
    .word 0x0089d293  # srli x5, x19, 8
    .word 0x00510ea3  # sb x5, 29(x2)
    .word 0x000d8993  # addi x19, x27, 0
    .word 0x01310b23  # sb x19, 22(x2)
    .word 0x0089d293  # srli x5, x19, 8
    .word 0x00510f23  # sb x5, 30(x2)
    .word 0x00090993  # addi x19, x18, 0
    .word 0x01310ba3  # sb x19, 23(x2)
    .word 0x0089d293  # srli x5, x19, 8
    .word 0x00510fa3  # sb x5, 31(x2)
    # the result
    .word 0x00000513  # addi x10, x0, 0
    # parameter 1: the array, back
    .word 0x01010293  # addi x5, x2, 16
    .word 0x0fc12303  # lw x6, 252(x2)
    .word 0x01028393  # addi x7, x5, 16
    .word 0x08c00f6f  # jal x30, 140
    # above the frame
    .word 0x0c010293  # addi x5, x2, 192
    # the caller's registers
    .word 0x0002a483  # lw x9, 0(x5)
    .cfi_restore 9
    .word 0x0042a903  # lw x18, 4(x5)
    .cfi_restore 18
    .word 0x0082a983  # lw x19, 8(x5)
    .cfi_restore 19
    .word 0x00c2aa03  # lw x20, 12(x5)
    .cfi_restore 20
    .word 0x0102aa83  # lw x21, 16(x5)
    .cfi_restore 21
    .word 0x0142ab03  # lw x22, 20(x5)
    .cfi_restore 22
    .word 0x0182ab83  # lw x23, 24(x5)
    .cfi_restore 23
    .word 0x01c2ac03  # lw x24, 28(x5)
    .cfi_restore 24
    .word 0x0202ac83  # lw x25, 32(x5)
    .cfi_restore 25
    .word 0x0242ad03  # lw x26, 36(x5)
    .cfi_restore 26
    .word 0x0282ad83  # lw x27, 40(x5)
    .cfi_restore 27
    # the caller's x2
    .word 0x04028293  # addi x5, x5, 64
    .cfi_def_cfa 5, 0
    # all the room, wiped upward
    .word 0x00012023  # sw x0, 0(x2)
    .word 0x00012223  # sw x0, 4(x2)
    .word 0x00012423  # sw x0, 8(x2)
    .word 0x00012623  # sw x0, 12(x2)
    .word 0x01010113  # addi x2, x2, 16
    .word 0xfe5116e3  # bne x2, x5, -20
    .cfi_def_cfa 2, 0
    # temporaries, wiped
    .word 0x00000293  # addi x5, x0, 0
    .word 0x00000313  # addi x6, x0, 0
    .word 0x00000393  # addi x7, x0, 0
    .word 0x00000593  # addi x11, x0, 0
    .word 0x00000613  # addi x12, x0, 0
    .word 0x00000693  # addi x13, x0, 0
    .word 0x00000713  # addi x14, x0, 0
    .word 0x00000793  # addi x15, x0, 0
    .word 0x00000813  # addi x16, x0, 0
    .word 0x00000893  # addi x17, x0, 0
    .word 0x00000e13  # addi x28, x0, 0
    .word 0x00000e93  # addi x29, x0, 0
    .word 0x00000f13  # addi x30, x0, 0
    .word 0x00000f93  # addi x31, x0, 0
    # back
    .word 0x00008067  # jalr x0, 0(x1)
    # from x5 to x6 up to x7, and back
    .cfi_def_cfa 2, 256
    .cfi_offset 9, -64
    .cfi_offset 18, -60
    .cfi_offset 19, -56
    .cfi_offset 20, -52
    .cfi_offset 21, -48
    .cfi_offset 22, -44
    .cfi_offset 23, -40
    .cfi_offset 24, -36
    .cfi_offset 25, -32
    .cfi_offset 26, -28
    .cfi_offset 27, -24
    .word 0x0062ee33  # or x28, x5, x6
    .word 0x003e7e13  # andi x28, x28, 3
    .word 0x000e0e63  # beq x28, x0, 28
    .word 0x0002ce03  # lbu x28, 0(x5)
    .word 0x01c30023  # sb x28, 0(x6)
    .word 0x00128293  # addi x5, x5, 1
    .word 0x00130313  # addi x6, x6, 1
    .word 0xfe7298e3  # bne x5, x7, -16
    .word 0x0300006f  # jal x0, 48
    .word 0x0002ae03  # lw x28, 0(x5)
    .word 0x01c32023  # sw x28, 0(x6)
    .word 0x0042ae03  # lw x28, 4(x5)
    .word 0x01c32223  # sw x28, 4(x6)
    .word 0x0082ae03  # lw x28, 8(x5)
    .word 0x01c32423  # sw x28, 8(x6)
    .word 0x00c2ae03  # lw x28, 12(x5)
    .word 0x01c32623  # sw x28, 12(x6)
    .word 0x01028293  # addi x5, x5, 16
    .word 0x01030313  # addi x6, x6, 16
    .word 0xfc729ce3  # bne x5, x7, -40
    .word 0x000f0067  # jalr x0, 0(x30)
    .cfi_endproc
    .size aes128_encrypt, . - aes128_encrypt
    .option pop
