# tls_mac_check_32: made by factc 1.0.0 function; 499 words, 416 bytes of stack, profile 1
    .option push
    .option norvc
    .option norelax
    .cfi_sections .debug_frame
    .section .text.tls_mac_check_32, "ax", @progbits
    .p2align 2
    .globl tls_mac_check_32
    .type tls_mac_check_32, @function
tls_mac_check_32:
    .cfi_startproc
    # room above the frame
    .word 0xfd010113  # addi x2, x2, -48
    .cfi_def_cfa_offset 48
    # the caller's registers
    .word 0x00912023  # sw x9, 0(x2)
    .cfi_offset 9, -48
    .word 0x01212223  # sw x18, 4(x2)
    .cfi_offset 18, -44
    .word 0x01312423  # sw x19, 8(x2)
    .cfi_offset 19, -40
    .word 0x01412623  # sw x20, 12(x2)
    .cfi_offset 20, -36
    .word 0x01512823  # sw x21, 16(x2)
    .cfi_offset 21, -32
    .word 0x01612a23  # sw x22, 20(x2)
    .cfi_offset 22, -28
    .word 0x01712c23  # sw x23, 24(x2)
    .cfi_offset 23, -24
    .word 0x01812e23  # sw x24, 28(x2)
    .cfi_offset 24, -20
    .word 0x03912023  # sw x25, 32(x2)
    .cfi_offset 25, -16
    .word 0x03a12223  # sw x26, 36(x2)
    .cfi_offset 26, -12
    .word 0x03b12423  # sw x27, 40(x2)
    .cfi_offset 27, -8
    # arguments that are needed behind the body
    # the frame's base
    .word 0xe9010113  # addi x2, x2, -368
    .cfi_def_cfa 2, 416
    # parameter 0: an array
    .word 0x00050293  # addi x5, x10, 0
    .word 0x00010313  # addi x6, x2, 0
    .word 0x12028393  # addi x7, x5, 288
    .word 0x73800f6f  # jal x30, 1848
    # parameter 1: a word
    .word 0x12b12023  # sw x11, 288(x2)
    # parameter 2: an array
    .word 0x00060293  # addi x5, x12, 0
    .word 0x12410313  # addi x6, x2, 292
    .word 0x02028393  # addi x7, x5, 32
    .word 0x72400f6f  # jal x30, 1828
    # the body
    .word 0x10000293  # addi x5, x0, 256
    .word 0x12012303  # lw x6, 288(x2)
    .word 0x40628533  # sub x10, x5, x6
    .word 0x00255593  # srli x11, x10, 2
    .word 0x00000913  # addi x18, x0, 0
    .word 0x00000993  # addi x19, x0, 0
    .word 0x00000a13  # addi x20, x0, 0
    .word 0x00000a93  # addi x21, x0, 0
    .word 0x00000b13  # addi x22, x0, 0
    .word 0x00000b93  # addi x23, x0, 0
    .word 0x00000c13  # addi x24, x0, 0
    .word 0x00000c93  # addi x25, x0, 0
    .word 0x00000d13  # addi x26, x0, 0
    .word 0xfff00613  # addi x12, x0, -1
    .word 0x00160613  # addi x12, x12, 1
    .word 0x02400293  # addi x5, x0, 36
    .word 0x00767313  # andi x6, x12, 7
    .word 0x026286b3  # mul x13, x5, x6
    .word 0x002684b3  # add x9, x13, x2
    .word 0x00900293  # addi x5, x0, 9
    .word 0x02c282b3  # mul x5, x5, x12
    .word 0x40b28733  # sub x14, x5, x11
    .word 0x0004c283  # lbu x5, 0(x9)
    .word 0x0014c303  # lbu x6, 1(x9)
    .word 0x00831313  # slli x6, x6, 8
    .word 0x0062e833  # or x16, x5, x6
    .word 0x0024c283  # lbu x5, 2(x9)
    .word 0x0034c303  # lbu x6, 3(x9)
    .word 0x00831313  # slli x6, x6, 8
    .word 0x0062e8b3  # or x17, x5, x6
    .word 0x01089313  # slli x6, x17, 16
    .word 0x01036333  # or x6, x6, x16
    .word 0x00973393  # sltiu x7, x14, 9
    .word 0x407003b3  # sub x7, x0, x7
    .word 0x00737333  # and x6, x6, x7
    .word 0x00696933  # or x18, x18, x6
    .word 0x0044c283  # lbu x5, 4(x9)
    .word 0x0054c303  # lbu x6, 5(x9)
    .word 0x00831313  # slli x6, x6, 8
    .word 0x0062e833  # or x16, x5, x6
    .word 0x0064c283  # lbu x5, 6(x9)
    .word 0x0074c303  # lbu x6, 7(x9)
    .word 0x00831313  # slli x6, x6, 8
    .word 0x0062e8b3  # or x17, x5, x6
    .word 0x01089313  # slli x6, x17, 16
    .word 0x01036333  # or x6, x6, x16
    .word 0x00170393  # addi x7, x14, 1
    .word 0x0093b393  # sltiu x7, x7, 9
    .word 0x407003b3  # sub x7, x0, x7
    .word 0x00737333  # and x6, x6, x7
    .word 0x0069e9b3  # or x19, x19, x6
    .word 0x0084c283  # lbu x5, 8(x9)
    .word 0x0094c303  # lbu x6, 9(x9)
    .word 0x00831313  # slli x6, x6, 8
    .word 0x0062e833  # or x16, x5, x6
    .word 0x00a4c283  # lbu x5, 10(x9)
    .word 0x00b4c303  # lbu x6, 11(x9)
    .word 0x00831313  # slli x6, x6, 8
    .word 0x0062e8b3  # or x17, x5, x6
    .word 0x01089313  # slli x6, x17, 16
    .word 0x01036333  # or x6, x6, x16
    .word 0x00270393  # addi x7, x14, 2
    .word 0x0093b393  # sltiu x7, x7, 9
    .word 0x407003b3  # sub x7, x0, x7
    .word 0x00737333  # and x6, x6, x7
    .word 0x006a6a33  # or x20, x20, x6
    .word 0x00c4c283  # lbu x5, 12(x9)
    .word 0x00d4c303  # lbu x6, 13(x9)
    .word 0x00831313  # slli x6, x6, 8
    .word 0x0062e833  # or x16, x5, x6
    .word 0x00e4c283  # lbu x5, 14(x9)
    .word 0x00f4c303  # lbu x6, 15(x9)
    .word 0x00831313  # slli x6, x6, 8
    .word 0x0062e8b3  # or x17, x5, x6
    .word 0x01089313  # slli x6, x17, 16
    .word 0x01036333  # or x6, x6, x16
    .word 0x00370393  # addi x7, x14, 3
    .word 0x0093b393  # sltiu x7, x7, 9
    .word 0x407003b3  # sub x7, x0, x7
    .word 0x00737333  # and x6, x6, x7
    .word 0x006aeab3  # or x21, x21, x6
    .word 0x0104c283  # lbu x5, 16(x9)
    .word 0x0114c303  # lbu x6, 17(x9)
    .word 0x00831313  # slli x6, x6, 8
    .word 0x0062e833  # or x16, x5, x6
    .word 0x0124c283  # lbu x5, 18(x9)
    .word 0x0134c303  # lbu x6, 19(x9)
    .word 0x00831313  # slli x6, x6, 8
    .word 0x0062e8b3  # or x17, x5, x6
    .word 0x01089313  # slli x6, x17, 16
    .word 0x01036333  # or x6, x6, x16
    .word 0x00470393  # addi x7, x14, 4
    .word 0x0093b393  # sltiu x7, x7, 9
    .word 0x407003b3  # sub x7, x0, x7
    .word 0x00737333  # and x6, x6, x7
    .word 0x006b6b33  # or x22, x22, x6
    .word 0x0144c283  # lbu x5, 20(x9)
    .word 0x0154c303  # lbu x6, 21(x9)
    .word 0x00831313  # slli x6, x6, 8
    .word 0x0062e833  # or x16, x5, x6
    .word 0x0164c283  # lbu x5, 22(x9)
    .word 0x0174c303  # lbu x6, 23(x9)
    .word 0x00831313  # slli x6, x6, 8
    .word 0x0062e8b3  # or x17, x5, x6
    .word 0x01089313  # slli x6, x17, 16
    .word 0x01036333  # or x6, x6, x16
    .word 0x00570393  # addi x7, x14, 5
    .word 0x0093b393  # sltiu x7, x7, 9
    .word 0x407003b3  # sub x7, x0, x7
    .word 0x00737333  # and x6, x6, x7
    .word 0x006bebb3  # or x23, x23, x6
    .word 0x0184c283  # lbu x5, 24(x9)
    .word 0x0194c303  # lbu x6, 25(x9)
    .word 0x00831313  # slli x6, x6, 8
    .word 0x0062e833  # or x16, x5, x6
    .word 0x01a4c283  # lbu x5, 26(x9)
    .word 0x01b4c303  # lbu x6, 27(x9)
    .word 0x00831313  # slli x6, x6, 8
    .word 0x0062e8b3  # or x17, x5, x6
    .word 0x01089313  # slli x6, x17, 16
    .word 0x01036333  # or x6, x6, x16
    .word 0x00670393  # addi x7, x14, 6
    .word 0x0093b393  # sltiu x7, x7, 9
    .word 0x407003b3  # sub x7, x0, x7
    .word 0x00737333  # and x6, x6, x7
    .word 0x006c6c33  # or x24, x24, x6
    .word 0x01c4c283  # lbu x5, 28(x9)
    .word 0x01d4c303  # lbu x6, 29(x9)
    .word 0x00831313  # slli x6, x6, 8
    .word 0x0062e833  # or x16, x5, x6
    .word 0x01e4c283  # lbu x5, 30(x9)
    .word 0x01f4c303  # lbu x6, 31(x9)
    .word 0x00831313  # slli x6, x6, 8
    .word 0x0062e8b3  # or x17, x5, x6
    .word 0x01089313  # slli x6, x17, 16
    .word 0x01036333  # or x6, x6, x16
    .word 0x00770393  # addi x7, x14, 7
    .word 0x0093b393  # sltiu x7, x7, 9
    .word 0x407003b3  # sub x7, x0, x7
    .word 0x00737333  # and x6, x6, x7
    .word 0x006cecb3  # or x25, x25, x6
    .word 0x0204c283  # lbu x5, 32(x9)
    .word 0x0214c303  # lbu x6, 33(x9)
    .word 0x00831313  # slli x6, x6, 8
    .word 0x0062e833  # or x16, x5, x6
    .word 0x0224c283  # lbu x5, 34(x9)
    .word 0x0234c303  # lbu x6, 35(x9)
    .word 0x00831313  # slli x6, x6, 8
    .word 0x0062e8b3  # or x17, x5, x6
    .word 0x01089313  # slli x6, x17, 16
    .word 0x01036333  # or x6, x6, x16
    .word 0x00870393  # addi x7, x14, 8
    .word 0x0093b393  # sltiu x7, x7, 9
    .word 0x407003b3  # sub x7, x0, x7
    .word 0x00737333  # and x6, x6, x7
    .word 0x006d6d33  # or x26, x26, x6
    .word 0xff960293  # addi x5, x12, -7
    .word 0xdc0292e3  # bne x5, x0, -572
    .word 0x0075f813  # andi x16, x11, 7
    .word 0x0035d893  # srli x17, x11, 3
    .word 0x411802b3  # sub x5, x16, x17
    .word 0x01183333  # sltu x6, x16, x17
    .word 0x00900393  # addi x7, x0, 9
    .word 0x40600333  # sub x6, x0, x6
    .word 0x0063f333  # and x6, x7, x6
    .word 0x00628db3  # add x27, x5, x6
    .word 0x001df293  # andi x5, x27, 1
    .word 0x405008b3  # sub x17, x0, x5
    .word 0x00090713  # addi x14, x18, 0
    .word 0x0129c2b3  # xor x5, x19, x18
    .word 0x0112f833  # and x16, x5, x17
    .word 0x01094933  # xor x18, x18, x16
    .word 0x013a42b3  # xor x5, x20, x19
    .word 0x0112f833  # and x16, x5, x17
    .word 0x0109c9b3  # xor x19, x19, x16
    .word 0x014ac2b3  # xor x5, x21, x20
    .word 0x0112f833  # and x16, x5, x17
    .word 0x010a4a33  # xor x20, x20, x16
    .word 0x015b42b3  # xor x5, x22, x21
    .word 0x0112f833  # and x16, x5, x17
    .word 0x010acab3  # xor x21, x21, x16
    .word 0x016bc2b3  # xor x5, x23, x22
    .word 0x0112f833  # and x16, x5, x17
    .word 0x010b4b33  # xor x22, x22, x16
    .word 0x017c42b3  # xor x5, x24, x23
    .word 0x0112f833  # and x16, x5, x17
    .word 0x010bcbb3  # xor x23, x23, x16
    .word 0x018cc2b3  # xor x5, x25, x24
    .word 0x0112f833  # and x16, x5, x17
    .word 0x010c4c33  # xor x24, x24, x16
    .word 0x019d42b3  # xor x5, x26, x25
    .word 0x0112f833  # and x16, x5, x17
    .word 0x010cccb3  # xor x25, x25, x16
    .word 0x01a742b3  # xor x5, x14, x26
    .word 0x0112f833  # and x16, x5, x17
    .word 0x010d4d33  # xor x26, x26, x16
    .word 0x001dd293  # srli x5, x27, 1
    .word 0x0012f293  # andi x5, x5, 1
    .word 0x405008b3  # sub x17, x0, x5
    .word 0x00090713  # addi x14, x18, 0
    .word 0x00098593  # addi x11, x19, 0
    .word 0x012a42b3  # xor x5, x20, x18
    .word 0x0112f833  # and x16, x5, x17
    .word 0x01094933  # xor x18, x18, x16
    .word 0x013ac2b3  # xor x5, x21, x19
    .word 0x0112f833  # and x16, x5, x17
    .word 0x0109c9b3  # xor x19, x19, x16
    .word 0x014b42b3  # xor x5, x22, x20
    .word 0x0112f833  # and x16, x5, x17
    .word 0x010a4a33  # xor x20, x20, x16
    .word 0x015bc2b3  # xor x5, x23, x21
    .word 0x0112f833  # and x16, x5, x17
    .word 0x010acab3  # xor x21, x21, x16
    .word 0x016c42b3  # xor x5, x24, x22
    .word 0x0112f833  # and x16, x5, x17
    .word 0x010b4b33  # xor x22, x22, x16
    .word 0x017cc2b3  # xor x5, x25, x23
    .word 0x0112f833  # and x16, x5, x17
    .word 0x010bcbb3  # xor x23, x23, x16
    .word 0x018d42b3  # xor x5, x26, x24
    .word 0x0112f833  # and x16, x5, x17
    .word 0x010c4c33  # xor x24, x24, x16
    .word 0x019742b3  # xor x5, x14, x25
    .word 0x0112f833  # and x16, x5, x17
    .word 0x010cccb3  # xor x25, x25, x16
    .word 0x01a5c2b3  # xor x5, x11, x26
    .word 0x0112f833  # and x16, x5, x17
    .word 0x010d4d33  # xor x26, x26, x16
    .word 0x002dd293  # srli x5, x27, 2
    .word 0x0012f293  # andi x5, x5, 1
    .word 0x405008b3  # sub x17, x0, x5
    .word 0x00090713  # addi x14, x18, 0
    .word 0x00098593  # addi x11, x19, 0
    .word 0x15412223  # sw x20, 324(x2)
    .word 0x15512423  # sw x21, 328(x2)
    .word 0x012b42b3  # xor x5, x22, x18
    .word 0x0112f833  # and x16, x5, x17
    .word 0x01094933  # xor x18, x18, x16
    .word 0x013bc2b3  # xor x5, x23, x19
    .word 0x0112f833  # and x16, x5, x17
    .word 0x0109c9b3  # xor x19, x19, x16
    .word 0x014c42b3  # xor x5, x24, x20
    .word 0x0112f833  # and x16, x5, x17
    .word 0x010a4a33  # xor x20, x20, x16
    .word 0x015cc2b3  # xor x5, x25, x21
    .word 0x0112f833  # and x16, x5, x17
    .word 0x010acab3  # xor x21, x21, x16
    .word 0x016d42b3  # xor x5, x26, x22
    .word 0x0112f833  # and x16, x5, x17
    .word 0x010b4b33  # xor x22, x22, x16
    .word 0x017742b3  # xor x5, x14, x23
    .word 0x0112f833  # and x16, x5, x17
    .word 0x010bcbb3  # xor x23, x23, x16
    .word 0x0185c2b3  # xor x5, x11, x24
    .word 0x0112f833  # and x16, x5, x17
    .word 0x010c4c33  # xor x24, x24, x16
    .word 0x14412283  # lw x5, 324(x2)
    .word 0x0192c2b3  # xor x5, x5, x25
    .word 0x0112f833  # and x16, x5, x17
    .word 0x010cccb3  # xor x25, x25, x16
    .word 0x14812283  # lw x5, 328(x2)
    .word 0x01a2c2b3  # xor x5, x5, x26
    .word 0x0112f833  # and x16, x5, x17
    .word 0x010d4d33  # xor x26, x26, x16
    .word 0x003dd293  # srli x5, x27, 3
    .word 0x0012f293  # andi x5, x5, 1
    .word 0x405008b3  # sub x17, x0, x5
    .word 0x00090713  # addi x14, x18, 0
    .word 0x00098593  # addi x11, x19, 0
    .word 0x15412223  # sw x20, 324(x2)
    .word 0x15512423  # sw x21, 328(x2)
    .word 0x000b0d93  # addi x27, x22, 0
    .word 0x15712623  # sw x23, 332(x2)
    .word 0x15812823  # sw x24, 336(x2)
    .word 0x15912a23  # sw x25, 340(x2)
    .word 0x012d42b3  # xor x5, x26, x18
    .word 0x0112f833  # and x16, x5, x17
    .word 0x01094933  # xor x18, x18, x16
    .word 0x013742b3  # xor x5, x14, x19
    .word 0x0112f833  # and x16, x5, x17
    .word 0x0109c9b3  # xor x19, x19, x16
    .word 0x0145c2b3  # xor x5, x11, x20
    .word 0x0112f833  # and x16, x5, x17
    .word 0x010a4a33  # xor x20, x20, x16
    .word 0x14412283  # lw x5, 324(x2)
    .word 0x0152c2b3  # xor x5, x5, x21
    .word 0x0112f833  # and x16, x5, x17
    .word 0x010acab3  # xor x21, x21, x16
    .word 0x14812283  # lw x5, 328(x2)
    .word 0x0162c2b3  # xor x5, x5, x22
    .word 0x0112f833  # and x16, x5, x17
    .word 0x010b4b33  # xor x22, x22, x16
    .word 0x017dc2b3  # xor x5, x27, x23
    .word 0x0112f833  # and x16, x5, x17
    .word 0x010bcbb3  # xor x23, x23, x16
    .word 0x14c12283  # lw x5, 332(x2)
    .word 0x0182c2b3  # xor x5, x5, x24
    .word 0x0112f833  # and x16, x5, x17
    .word 0x010c4c33  # xor x24, x24, x16
    .word 0x15012283  # lw x5, 336(x2)
    .word 0x0192c2b3  # xor x5, x5, x25
    .word 0x0112f833  # and x16, x5, x17
    .word 0x010cccb3  # xor x25, x25, x16
    .word 0x15412283  # lw x5, 340(x2)
    .word 0x01a2c2b3  # xor x5, x5, x26
    .word 0x0112f833  # and x16, x5, x17
    .word 0x010d4d33  # xor x26, x26, x16
    .word 0xfff00613  # addi x12, x0, -1
    .word 0x00160613  # addi x12, x12, 1
    .word 0x00167793  # andi x15, x12, 1
    .word 0x01000293  # addi x5, x0, 16
    .word 0x00f2d6b3  # srl x13, x5, x15
    .word 0x002684b3  # add x9, x13, x2
    .word 0x00100313  # addi x6, x0, 1
    .word 0x40f30333  # sub x6, x6, x15
    .word 0x006552b3  # srl x5, x10, x6
    .word 0x0012f293  # andi x5, x5, 1
    .word 0x405008b3  # sub x17, x0, x5
    .word 0x00d952b3  # srl x5, x18, x13
    .word 0x02000393  # addi x7, x0, 32
    .word 0x40d383b3  # sub x7, x7, x13
    .word 0x00799333  # sll x6, x19, x7
    .word 0x0062c2b3  # xor x5, x5, x6
    .word 0x0122c2b3  # xor x5, x5, x18
    .word 0x0112f833  # and x16, x5, x17
    .word 0x01094933  # xor x18, x18, x16
    .word 0x00d9d2b3  # srl x5, x19, x13
    .word 0x02000393  # addi x7, x0, 32
    .word 0x40d383b3  # sub x7, x7, x13
    .word 0x007a1333  # sll x6, x20, x7
    .word 0x0062c2b3  # xor x5, x5, x6
    .word 0x0132c2b3  # xor x5, x5, x19
    .word 0x0112f833  # and x16, x5, x17
    .word 0x0109c9b3  # xor x19, x19, x16
    .word 0x00da52b3  # srl x5, x20, x13
    .word 0x02000393  # addi x7, x0, 32
    .word 0x40d383b3  # sub x7, x7, x13
    .word 0x007a9333  # sll x6, x21, x7
    .word 0x0062c2b3  # xor x5, x5, x6
    .word 0x0142c2b3  # xor x5, x5, x20
    .word 0x0112f833  # and x16, x5, x17
    .word 0x010a4a33  # xor x20, x20, x16
    .word 0x00dad2b3  # srl x5, x21, x13
    .word 0x02000393  # addi x7, x0, 32
    .word 0x40d383b3  # sub x7, x7, x13
    .word 0x007b1333  # sll x6, x22, x7
    .word 0x0062c2b3  # xor x5, x5, x6
    .word 0x0152c2b3  # xor x5, x5, x21
    .word 0x0112f833  # and x16, x5, x17
    .word 0x010acab3  # xor x21, x21, x16
    .word 0x00db52b3  # srl x5, x22, x13
    .word 0x02000393  # addi x7, x0, 32
    .word 0x40d383b3  # sub x7, x7, x13
    .word 0x007b9333  # sll x6, x23, x7
    .word 0x0062c2b3  # xor x5, x5, x6
    .word 0x0162c2b3  # xor x5, x5, x22
    .word 0x0112f833  # and x16, x5, x17
    .word 0x010b4b33  # xor x22, x22, x16
    .word 0x00dbd2b3  # srl x5, x23, x13
    .word 0x02000393  # addi x7, x0, 32
    .word 0x40d383b3  # sub x7, x7, x13
    .word 0x007c1333  # sll x6, x24, x7
    .word 0x0062c2b3  # xor x5, x5, x6
    .word 0x0172c2b3  # xor x5, x5, x23
    .word 0x0112f833  # and x16, x5, x17
    .word 0x010bcbb3  # xor x23, x23, x16
    .word 0x00dc52b3  # srl x5, x24, x13
    .word 0x02000393  # addi x7, x0, 32
    .word 0x40d383b3  # sub x7, x7, x13
    .word 0x007c9333  # sll x6, x25, x7
    .word 0x0062c2b3  # xor x5, x5, x6
    .word 0x0182c2b3  # xor x5, x5, x24
    .word 0x0112f833  # and x16, x5, x17
    .word 0x010c4c33  # xor x24, x24, x16
    .word 0x00dcd2b3  # srl x5, x25, x13
    .word 0x02000393  # addi x7, x0, 32
    .word 0x40d383b3  # sub x7, x7, x13
    .word 0x007d1333  # sll x6, x26, x7
    .word 0x0062c2b3  # xor x5, x5, x6
    .word 0x0192c2b3  # xor x5, x5, x25
    .word 0x0112f833  # and x16, x5, x17
    .word 0x010cccb3  # xor x25, x25, x16
    .word 0x00dd52b3  # srl x5, x26, x13
    .word 0x02000393  # addi x7, x0, 32
    .word 0x40d383b3  # sub x7, x7, x13
    .word 0x00791333  # sll x6, x18, x7
    .word 0x0062c2b3  # xor x5, x5, x6
    .word 0x01a2c2b3  # xor x5, x5, x26
    .word 0x0112f833  # and x16, x5, x17
    .word 0x010d4d33  # xor x26, x26, x16
    .word 0xfff60293  # addi x5, x12, -1
    .word 0xea029ae3  # bne x5, x0, -332
    .word 0x12412883  # lw x17, 292(x2)
    .word 0x01194833  # xor x16, x18, x17
    .word 0x12812883  # lw x17, 296(x2)
    .word 0x0119c333  # xor x6, x19, x17
    .word 0x00686833  # or x16, x16, x6
    .word 0x12c12883  # lw x17, 300(x2)
    .word 0x011a4333  # xor x6, x20, x17
    .word 0x00686833  # or x16, x16, x6
    .word 0x13012883  # lw x17, 304(x2)
    .word 0x011ac333  # xor x6, x21, x17
    .word 0x00686833  # or x16, x16, x6
    .word 0x13412883  # lw x17, 308(x2)
    .word 0x011b4333  # xor x6, x22, x17
    .word 0x00686833  # or x16, x16, x6
    .word 0x13812883  # lw x17, 312(x2)
    .word 0x011bc333  # xor x6, x23, x17
    .word 0x00686833  # or x16, x16, x6
    .word 0x13c12883  # lw x17, 316(x2)
    .word 0x011c4333  # xor x6, x24, x17
    .word 0x00686833  # or x16, x16, x6
    .word 0x14012883  # lw x17, 320(x2)
    .word 0x011cc333  # xor x6, x25, x17
    .word 0x00686833  # or x16, x16, x6
    .word 0x00183293  # sltiu x5, x16, 1
    .word 0x12012303  # lw x6, 288(x2)
    .word 0xfff30313  # addi x6, x6, -1
    .word 0x10033313  # sltiu x6, x6, 256
    .word 0x0062f2b3  # and x5, x5, x6
    .word 0x14512c23  # sw x5, 344(x2)
    # the result
    .word 0x15812503  # lw x10, 344(x2)
    # above the frame
    .word 0x17010293  # addi x5, x2, 368
    # the caller's registers
    .word 0x0002a483  # lw x9, 0(x5)
    .cfi_restore 9
    .word 0x0042a903  # lw x18, 4(x5)
    .cfi_restore 18
    .word 0x0082a983  # lw x19, 8(x5)
    .cfi_restore 19
    .word 0x00c2aa03  # lw x20, 12(x5)
    .cfi_restore 20
    .word 0x0102aa83  # lw x21, 16(x5)
    .cfi_restore 21
    .word 0x0142ab03  # lw x22, 20(x5)
    .cfi_restore 22
    .word 0x0182ab83  # lw x23, 24(x5)
    .cfi_restore 23
    .word 0x01c2ac03  # lw x24, 28(x5)
    .cfi_restore 24
    .word 0x0202ac83  # lw x25, 32(x5)
    .cfi_restore 25
    .word 0x0242ad03  # lw x26, 36(x5)
    .cfi_restore 26
    .word 0x0282ad83  # lw x27, 40(x5)
    .cfi_restore 27
    # the caller's x2
    .word 0x03028293  # addi x5, x5, 48
    .cfi_def_cfa 5, 0
    # all the room, wiped upward
    .word 0x00012023  # sw x0, 0(x2)
    .word 0x00012223  # sw x0, 4(x2)
    .word 0x00012423  # sw x0, 8(x2)
    .word 0x00012623  # sw x0, 12(x2)
    .word 0x01010113  # addi x2, x2, 16
    .word 0xfe5116e3  # bne x2, x5, -20
    .cfi_def_cfa 2, 0
    # temporaries, wiped
    .word 0x00000293  # addi x5, x0, 0
    .word 0x00000313  # addi x6, x0, 0
    .word 0x00000393  # addi x7, x0, 0
    .word 0x00000593  # addi x11, x0, 0
    .word 0x00000613  # addi x12, x0, 0
    .word 0x00000693  # addi x13, x0, 0
    .word 0x00000713  # addi x14, x0, 0
    .word 0x00000793  # addi x15, x0, 0
    .word 0x00000813  # addi x16, x0, 0
    .word 0x00000893  # addi x17, x0, 0
    .word 0x00000e13  # addi x28, x0, 0
    .word 0x00000e93  # addi x29, x0, 0
    .word 0x00000f13  # addi x30, x0, 0
    .word 0x00000f93  # addi x31, x0, 0
    # back
    .word 0x00008067  # jalr x0, 0(x1)
    # from x5 to x6 up to x7, and back
    .cfi_def_cfa 2, 416
    .cfi_offset 9, -48
    .cfi_offset 18, -44
    .cfi_offset 19, -40
    .cfi_offset 20, -36
    .cfi_offset 21, -32
    .cfi_offset 22, -28
    .cfi_offset 23, -24
    .cfi_offset 24, -20
    .cfi_offset 25, -16
    .cfi_offset 26, -12
    .cfi_offset 27, -8
    .word 0x0062ee33  # or x28, x5, x6
    .word 0x003e7e13  # andi x28, x28, 3
    .word 0x000e0e63  # beq x28, x0, 28
    .word 0x0002ce03  # lbu x28, 0(x5)
    .word 0x01c30023  # sb x28, 0(x6)
    .word 0x00128293  # addi x5, x5, 1
    .word 0x00130313  # addi x6, x6, 1
    .word 0xfe7298e3  # bne x5, x7, -16
    .word 0x0300006f  # jal x0, 48
    .word 0x0002ae03  # lw x28, 0(x5)
    .word 0x01c32023  # sw x28, 0(x6)
    .word 0x0042ae03  # lw x28, 4(x5)
    .word 0x01c32223  # sw x28, 4(x6)
    .word 0x0082ae03  # lw x28, 8(x5)
    .word 0x01c32423  # sw x28, 8(x6)
    .word 0x00c2ae03  # lw x28, 12(x5)
    .word 0x01c32623  # sw x28, 12(x6)
    .word 0x01028293  # addi x5, x5, 16
    .word 0x01030313  # addi x6, x6, 16
    .word 0xfc729ce3  # bne x5, x7, -40
    .word 0x000f0067  # jalr x0, 0(x30)
    .cfi_endproc
    .size tls_mac_check_32, . - tls_mac_check_32
    .option pop
