# tls_mac_check_20: made by factc 1.0.0 function; 474 words, 368 bytes of stack, profile 1
    .option push
    .option norvc
    .option norelax
    .cfi_sections .debug_frame
    .section .text.tls_mac_check_20, "ax", @progbits
    .p2align 2
    .globl tls_mac_check_20
    .type tls_mac_check_20, @function
tls_mac_check_20:
    .cfi_startproc
    # room above the frame
    .word 0xfd010113  # addi x2, x2, -48
    .cfi_def_cfa_offset 48
    # the caller's registers
    .word 0x01212023  # sw x18, 0(x2)
    .cfi_offset 18, -48
    .word 0x01312223  # sw x19, 4(x2)
    .cfi_offset 19, -44
    .word 0x01412423  # sw x20, 8(x2)
    .cfi_offset 20, -40
    .word 0x01512623  # sw x21, 12(x2)
    .cfi_offset 21, -36
    .word 0x01612823  # sw x22, 16(x2)
    .cfi_offset 22, -32
    .word 0x01712a23  # sw x23, 20(x2)
    .cfi_offset 23, -28
    .word 0x01812c23  # sw x24, 24(x2)
    .cfi_offset 24, -24
    .word 0x01912e23  # sw x25, 28(x2)
    .cfi_offset 25, -20
    .word 0x03a12023  # sw x26, 32(x2)
    .cfi_offset 26, -16
    .word 0x03b12223  # sw x27, 36(x2)
    .cfi_offset 27, -12
    # arguments that are needed behind the body
    # the frame's base
    .word 0xec010113  # addi x2, x2, -320
    .cfi_def_cfa 2, 368
    # parameter 0: an array
    .word 0x00050293  # addi x5, x10, 0
    .word 0x00010313  # addi x6, x2, 0
    .word 0x11828393  # addi x7, x5, 280
    .word 0x6f000f6f  # jal x30, 1776
    # parameter 1: a word
    .word 0x10b12c23  # sw x11, 280(x2)
    # parameter 2: an array
    .word 0x00060293  # addi x5, x12, 0
    .word 0x11c10313  # addi x6, x2, 284
    .word 0x01428393  # addi x7, x5, 20
    .word 0x6dc00f6f  # jal x30, 1756
    # the body
    .word 0x11812503  # lw x10, 280(x2)
    .word 0x10400293  # addi x5, x0, 260
    .word 0x40a285b3  # sub x11, x5, x10
    .word 0x0025d613  # srli x12, x11, 2
    .word 0x00000913  # addi x18, x0, 0
    .word 0x00000993  # addi x19, x0, 0
    .word 0x00000a13  # addi x20, x0, 0
    .word 0x00000a93  # addi x21, x0, 0
    .word 0x00000b13  # addi x22, x0, 0
    .word 0x00000b93  # addi x23, x0, 0
    .word 0x00000c13  # addi x24, x0, 0
    .word 0xfff00793  # addi x15, x0, -1
    .word 0x00178793  # addi x15, x15, 1
    .word 0x03800293  # addi x5, x0, 56
    .word 0x02f286b3  # mul x13, x5, x15
    .word 0x00268db3  # add x27, x13, x2
    .word 0x00e00293  # addi x5, x0, 14
    .word 0x02f282b3  # mul x5, x5, x15
    .word 0x40c28733  # sub x14, x5, x12
    .word 0x000dc283  # lbu x5, 0(x27)
    .word 0x001dc303  # lbu x6, 1(x27)
    .word 0x00831313  # slli x6, x6, 8
    .word 0x0062e833  # or x16, x5, x6
    .word 0x002dc283  # lbu x5, 2(x27)
    .word 0x003dc303  # lbu x6, 3(x27)
    .word 0x00831313  # slli x6, x6, 8
    .word 0x0062e8b3  # or x17, x5, x6
    .word 0x01089313  # slli x6, x17, 16
    .word 0x01036333  # or x6, x6, x16
    .word 0x00673393  # sltiu x7, x14, 6
    .word 0x407003b3  # sub x7, x0, x7
    .word 0x00737333  # and x6, x6, x7
    .word 0x00696933  # or x18, x18, x6
    .word 0x004dc283  # lbu x5, 4(x27)
    .word 0x005dc303  # lbu x6, 5(x27)
    .word 0x00831313  # slli x6, x6, 8
    .word 0x0062e833  # or x16, x5, x6
    .word 0x006dc283  # lbu x5, 6(x27)
    .word 0x007dc303  # lbu x6, 7(x27)
    .word 0x00831313  # slli x6, x6, 8
    .word 0x0062e8b3  # or x17, x5, x6
    .word 0x01089313  # slli x6, x17, 16
    .word 0x01036333  # or x6, x6, x16
    .word 0x00170393  # addi x7, x14, 1
    .word 0x0063b393  # sltiu x7, x7, 6
    .word 0x407003b3  # sub x7, x0, x7
    .word 0x00737333  # and x6, x6, x7
    .word 0x0069e9b3  # or x19, x19, x6
    .word 0x008dc283  # lbu x5, 8(x27)
    .word 0x009dc303  # lbu x6, 9(x27)
    .word 0x00831313  # slli x6, x6, 8
    .word 0x0062e833  # or x16, x5, x6
    .word 0x00adc283  # lbu x5, 10(x27)
    .word 0x00bdc303  # lbu x6, 11(x27)
    .word 0x00831313  # slli x6, x6, 8
    .word 0x0062e8b3  # or x17, x5, x6
    .word 0x01089313  # slli x6, x17, 16
    .word 0x01036333  # or x6, x6, x16
    .word 0x00270393  # addi x7, x14, 2
    .word 0x0063b393  # sltiu x7, x7, 6
    .word 0x407003b3  # sub x7, x0, x7
    .word 0x00737333  # and x6, x6, x7
    .word 0x006a6a33  # or x20, x20, x6
    .word 0x00cdc283  # lbu x5, 12(x27)
    .word 0x00ddc303  # lbu x6, 13(x27)
    .word 0x00831313  # slli x6, x6, 8
    .word 0x0062e833  # or x16, x5, x6
    .word 0x00edc283  # lbu x5, 14(x27)
    .word 0x00fdc303  # lbu x6, 15(x27)
    .word 0x00831313  # slli x6, x6, 8
    .word 0x0062e8b3  # or x17, x5, x6
    .word 0x01089313  # slli x6, x17, 16
    .word 0x01036333  # or x6, x6, x16
    .word 0x00370393  # addi x7, x14, 3
    .word 0x0063b393  # sltiu x7, x7, 6
    .word 0x407003b3  # sub x7, x0, x7
    .word 0x00737333  # and x6, x6, x7
    .word 0x006aeab3  # or x21, x21, x6
    .word 0x010dc283  # lbu x5, 16(x27)
    .word 0x011dc303  # lbu x6, 17(x27)
    .word 0x00831313  # slli x6, x6, 8
    .word 0x0062e833  # or x16, x5, x6
    .word 0x012dc283  # lbu x5, 18(x27)
    .word 0x013dc303  # lbu x6, 19(x27)
    .word 0x00831313  # slli x6, x6, 8
    .word 0x0062e8b3  # or x17, x5, x6
    .word 0x01089313  # slli x6, x17, 16
    .word 0x01036333  # or x6, x6, x16
    .word 0x00470393  # addi x7, x14, 4
    .word 0x0063b393  # sltiu x7, x7, 6
    .word 0x407003b3  # sub x7, x0, x7
    .word 0x00737333  # and x6, x6, x7
    .word 0x006b6b33  # or x22, x22, x6
    .word 0x014dc283  # lbu x5, 20(x27)
    .word 0x015dc303  # lbu x6, 21(x27)
    .word 0x00831313  # slli x6, x6, 8
    .word 0x0062e833  # or x16, x5, x6
    .word 0x016dc283  # lbu x5, 22(x27)
    .word 0x017dc303  # lbu x6, 23(x27)
    .word 0x00831313  # slli x6, x6, 8
    .word 0x0062e8b3  # or x17, x5, x6
    .word 0x01089313  # slli x6, x17, 16
    .word 0x01036333  # or x6, x6, x16
    .word 0x00570393  # addi x7, x14, 5
    .word 0x0063b393  # sltiu x7, x7, 6
    .word 0x407003b3  # sub x7, x0, x7
    .word 0x00737333  # and x6, x6, x7
    .word 0x006bebb3  # or x23, x23, x6
    .word 0x018dc283  # lbu x5, 24(x27)
    .word 0x019dc303  # lbu x6, 25(x27)
    .word 0x00831313  # slli x6, x6, 8
    .word 0x0062e833  # or x16, x5, x6
    .word 0x01adc283  # lbu x5, 26(x27)
    .word 0x01bdc303  # lbu x6, 27(x27)
    .word 0x00831313  # slli x6, x6, 8
    .word 0x0062e8b3  # or x17, x5, x6
    .word 0x01089313  # slli x6, x17, 16
    .word 0x01036333  # or x6, x6, x16
    .word 0x00670393  # addi x7, x14, 6
    .word 0x0063b393  # sltiu x7, x7, 6
    .word 0x407003b3  # sub x7, x0, x7
    .word 0x00737333  # and x6, x6, x7
    .word 0x006c6c33  # or x24, x24, x6
    .word 0x01cdc283  # lbu x5, 28(x27)
    .word 0x01ddc303  # lbu x6, 29(x27)
    .word 0x00831313  # slli x6, x6, 8
    .word 0x0062e833  # or x16, x5, x6
    .word 0x01edc283  # lbu x5, 30(x27)
    .word 0x01fdc303  # lbu x6, 31(x27)
    .word 0x00831313  # slli x6, x6, 8
    .word 0x0062e8b3  # or x17, x5, x6
    .word 0x01089313  # slli x6, x17, 16
    .word 0x01036333  # or x6, x6, x16
    .word 0x00770393  # addi x7, x14, 7
    .word 0x0063b393  # sltiu x7, x7, 6
    .word 0x407003b3  # sub x7, x0, x7
    .word 0x00737333  # and x6, x6, x7
    .word 0x00696933  # or x18, x18, x6
    .word 0x020dc283  # lbu x5, 32(x27)
    .word 0x021dc303  # lbu x6, 33(x27)
    .word 0x00831313  # slli x6, x6, 8
    .word 0x0062e833  # or x16, x5, x6
    .word 0x022dc283  # lbu x5, 34(x27)
    .word 0x023dc303  # lbu x6, 35(x27)
    .word 0x00831313  # slli x6, x6, 8
    .word 0x0062e8b3  # or x17, x5, x6
    .word 0x01089313  # slli x6, x17, 16
    .word 0x01036333  # or x6, x6, x16
    .word 0x00870393  # addi x7, x14, 8
    .word 0x0063b393  # sltiu x7, x7, 6
    .word 0x407003b3  # sub x7, x0, x7
    .word 0x00737333  # and x6, x6, x7
    .word 0x0069e9b3  # or x19, x19, x6
    .word 0x024dc283  # lbu x5, 36(x27)
    .word 0x025dc303  # lbu x6, 37(x27)
    .word 0x00831313  # slli x6, x6, 8
    .word 0x0062e833  # or x16, x5, x6
    .word 0x026dc283  # lbu x5, 38(x27)
    .word 0x027dc303  # lbu x6, 39(x27)
    .word 0x00831313  # slli x6, x6, 8
    .word 0x0062e8b3  # or x17, x5, x6
    .word 0x01089313  # slli x6, x17, 16
    .word 0x01036333  # or x6, x6, x16
    .word 0x00970393  # addi x7, x14, 9
    .word 0x0063b393  # sltiu x7, x7, 6
    .word 0x407003b3  # sub x7, x0, x7
    .word 0x00737333  # and x6, x6, x7
    .word 0x006a6a33  # or x20, x20, x6
    .word 0x028dc283  # lbu x5, 40(x27)
    .word 0x029dc303  # lbu x6, 41(x27)
    .word 0x00831313  # slli x6, x6, 8
    .word 0x0062e833  # or x16, x5, x6
    .word 0x02adc283  # lbu x5, 42(x27)
    .word 0x02bdc303  # lbu x6, 43(x27)
    .word 0x00831313  # slli x6, x6, 8
    .word 0x0062e8b3  # or x17, x5, x6
    .word 0x01089313  # slli x6, x17, 16
    .word 0x01036333  # or x6, x6, x16
    .word 0x00a70393  # addi x7, x14, 10
    .word 0x0063b393  # sltiu x7, x7, 6
    .word 0x407003b3  # sub x7, x0, x7
    .word 0x00737333  # and x6, x6, x7
    .word 0x006aeab3  # or x21, x21, x6
    .word 0x02cdc283  # lbu x5, 44(x27)
    .word 0x02ddc303  # lbu x6, 45(x27)
    .word 0x00831313  # slli x6, x6, 8
    .word 0x0062e833  # or x16, x5, x6
    .word 0x02edc283  # lbu x5, 46(x27)
    .word 0x02fdc303  # lbu x6, 47(x27)
    .word 0x00831313  # slli x6, x6, 8
    .word 0x0062e8b3  # or x17, x5, x6
    .word 0x01089313  # slli x6, x17, 16
    .word 0x01036333  # or x6, x6, x16
    .word 0x00b70393  # addi x7, x14, 11
    .word 0x0063b393  # sltiu x7, x7, 6
    .word 0x407003b3  # sub x7, x0, x7
    .word 0x00737333  # and x6, x6, x7
    .word 0x006b6b33  # or x22, x22, x6
    .word 0x030dc283  # lbu x5, 48(x27)
    .word 0x031dc303  # lbu x6, 49(x27)
    .word 0x00831313  # slli x6, x6, 8
    .word 0x0062e833  # or x16, x5, x6
    .word 0x032dc283  # lbu x5, 50(x27)
    .word 0x033dc303  # lbu x6, 51(x27)
    .word 0x00831313  # slli x6, x6, 8
    .word 0x0062e8b3  # or x17, x5, x6
    .word 0x01089313  # slli x6, x17, 16
    .word 0x01036333  # or x6, x6, x16
    .word 0x00c70393  # addi x7, x14, 12
    .word 0x0063b393  # sltiu x7, x7, 6
    .word 0x407003b3  # sub x7, x0, x7
    .word 0x00737333  # and x6, x6, x7
    .word 0x006bebb3  # or x23, x23, x6
    .word 0x034dc283  # lbu x5, 52(x27)
    .word 0x035dc303  # lbu x6, 53(x27)
    .word 0x00831313  # slli x6, x6, 8
    .word 0x0062e833  # or x16, x5, x6
    .word 0x036dc283  # lbu x5, 54(x27)
    .word 0x037dc303  # lbu x6, 55(x27)
    .word 0x00831313  # slli x6, x6, 8
    .word 0x0062e8b3  # or x17, x5, x6
    .word 0x01089313  # slli x6, x17, 16
    .word 0x01036333  # or x6, x6, x16
    .word 0x00d70393  # addi x7, x14, 13
    .word 0x0063b393  # sltiu x7, x7, 6
    .word 0x407003b3  # sub x7, x0, x7
    .word 0x00737333  # and x6, x6, x7
    .word 0x006c6c33  # or x24, x24, x6
    .word 0xffc78293  # addi x5, x15, -4
    .word 0xc8029ee3  # bne x5, x0, -868
    .word 0x00767293  # andi x5, x12, 7
    .word 0x00365313  # srli x6, x12, 3
    .word 0x00628833  # add x16, x5, x6
    .word 0x00787293  # andi x5, x16, 7
    .word 0x00385313  # srli x6, x16, 3
    .word 0x00628cb3  # add x25, x5, x6
    .word 0x001cf293  # andi x5, x25, 1
    .word 0x405008b3  # sub x17, x0, x5
    .word 0x00090713  # addi x14, x18, 0
    .word 0x0129c2b3  # xor x5, x19, x18
    .word 0x0112f833  # and x16, x5, x17
    .word 0x01094933  # xor x18, x18, x16
    .word 0x013a42b3  # xor x5, x20, x19
    .word 0x0112f833  # and x16, x5, x17
    .word 0x0109c9b3  # xor x19, x19, x16
    .word 0x014ac2b3  # xor x5, x21, x20
    .word 0x0112f833  # and x16, x5, x17
    .word 0x010a4a33  # xor x20, x20, x16
    .word 0x015b42b3  # xor x5, x22, x21
    .word 0x0112f833  # and x16, x5, x17
    .word 0x010acab3  # xor x21, x21, x16
    .word 0x016bc2b3  # xor x5, x23, x22
    .word 0x0112f833  # and x16, x5, x17
    .word 0x010b4b33  # xor x22, x22, x16
    .word 0x017c42b3  # xor x5, x24, x23
    .word 0x0112f833  # and x16, x5, x17
    .word 0x010bcbb3  # xor x23, x23, x16
    .word 0x018742b3  # xor x5, x14, x24
    .word 0x0112f833  # and x16, x5, x17
    .word 0x010c4c33  # xor x24, x24, x16
    .word 0x001cd293  # srli x5, x25, 1
    .word 0x0012f293  # andi x5, x5, 1
    .word 0x405008b3  # sub x17, x0, x5
    .word 0x00090713  # addi x14, x18, 0
    .word 0x00098613  # addi x12, x19, 0
    .word 0x012a42b3  # xor x5, x20, x18
    .word 0x0112f833  # and x16, x5, x17
    .word 0x01094933  # xor x18, x18, x16
    .word 0x013ac2b3  # xor x5, x21, x19
    .word 0x0112f833  # and x16, x5, x17
    .word 0x0109c9b3  # xor x19, x19, x16
    .word 0x014b42b3  # xor x5, x22, x20
    .word 0x0112f833  # and x16, x5, x17
    .word 0x010a4a33  # xor x20, x20, x16
    .word 0x015bc2b3  # xor x5, x23, x21
    .word 0x0112f833  # and x16, x5, x17
    .word 0x010acab3  # xor x21, x21, x16
    .word 0x016c42b3  # xor x5, x24, x22
    .word 0x0112f833  # and x16, x5, x17
    .word 0x010b4b33  # xor x22, x22, x16
    .word 0x017742b3  # xor x5, x14, x23
    .word 0x0112f833  # and x16, x5, x17
    .word 0x010bcbb3  # xor x23, x23, x16
    .word 0x018642b3  # xor x5, x12, x24
    .word 0x0112f833  # and x16, x5, x17
    .word 0x010c4c33  # xor x24, x24, x16
    .word 0x002cd293  # srli x5, x25, 2
    .word 0x0012f293  # andi x5, x5, 1
    .word 0x405008b3  # sub x17, x0, x5
    .word 0x00090713  # addi x14, x18, 0
    .word 0x00098613  # addi x12, x19, 0
    .word 0x000a0c93  # addi x25, x20, 0
    .word 0x000a8d13  # addi x26, x21, 0
    .word 0x012b42b3  # xor x5, x22, x18
    .word 0x0112f833  # and x16, x5, x17
    .word 0x01094933  # xor x18, x18, x16
    .word 0x013bc2b3  # xor x5, x23, x19
    .word 0x0112f833  # and x16, x5, x17
    .word 0x0109c9b3  # xor x19, x19, x16
    .word 0x014c42b3  # xor x5, x24, x20
    .word 0x0112f833  # and x16, x5, x17
    .word 0x010a4a33  # xor x20, x20, x16
    .word 0x015742b3  # xor x5, x14, x21
    .word 0x0112f833  # and x16, x5, x17
    .word 0x010acab3  # xor x21, x21, x16
    .word 0x016642b3  # xor x5, x12, x22
    .word 0x0112f833  # and x16, x5, x17
    .word 0x010b4b33  # xor x22, x22, x16
    .word 0x017cc2b3  # xor x5, x25, x23
    .word 0x0112f833  # and x16, x5, x17
    .word 0x010bcbb3  # xor x23, x23, x16
    .word 0x018d42b3  # xor x5, x26, x24
    .word 0x0112f833  # and x16, x5, x17
    .word 0x010c4c33  # xor x24, x24, x16
    .word 0x0015d293  # srli x5, x11, 1
    .word 0x0012f293  # andi x5, x5, 1
    .word 0x405008b3  # sub x17, x0, x5
    .word 0x01095293  # srli x5, x18, 16
    .word 0x01099313  # slli x6, x19, 16
    .word 0x0062c2b3  # xor x5, x5, x6
    .word 0x0122c2b3  # xor x5, x5, x18
    .word 0x0112f833  # and x16, x5, x17
    .word 0x01094933  # xor x18, x18, x16
    .word 0x0109d293  # srli x5, x19, 16
    .word 0x010a1313  # slli x6, x20, 16
    .word 0x0062c2b3  # xor x5, x5, x6
    .word 0x0132c2b3  # xor x5, x5, x19
    .word 0x0112f833  # and x16, x5, x17
    .word 0x0109c9b3  # xor x19, x19, x16
    .word 0x010a5293  # srli x5, x20, 16
    .word 0x010a9313  # slli x6, x21, 16
    .word 0x0062c2b3  # xor x5, x5, x6
    .word 0x0142c2b3  # xor x5, x5, x20
    .word 0x0112f833  # and x16, x5, x17
    .word 0x010a4a33  # xor x20, x20, x16
    .word 0x010ad293  # srli x5, x21, 16
    .word 0x010b1313  # slli x6, x22, 16
    .word 0x0062c2b3  # xor x5, x5, x6
    .word 0x0152c2b3  # xor x5, x5, x21
    .word 0x0112f833  # and x16, x5, x17
    .word 0x010acab3  # xor x21, x21, x16
    .word 0x010b5293  # srli x5, x22, 16
    .word 0x010b9313  # slli x6, x23, 16
    .word 0x0062c2b3  # xor x5, x5, x6
    .word 0x0162c2b3  # xor x5, x5, x22
    .word 0x0112f833  # and x16, x5, x17
    .word 0x010b4b33  # xor x22, x22, x16
    .word 0x010bd293  # srli x5, x23, 16
    .word 0x010c1313  # slli x6, x24, 16
    .word 0x0062c2b3  # xor x5, x5, x6
    .word 0x0172c2b3  # xor x5, x5, x23
    .word 0x0112f833  # and x16, x5, x17
    .word 0x010bcbb3  # xor x23, x23, x16
    .word 0x0015f293  # andi x5, x11, 1
    .word 0x405008b3  # sub x17, x0, x5
    .word 0x00895293  # srli x5, x18, 8
    .word 0x01899313  # slli x6, x19, 24
    .word 0x0062c2b3  # xor x5, x5, x6
    .word 0x0122c2b3  # xor x5, x5, x18
    .word 0x0112f833  # and x16, x5, x17
    .word 0x01094933  # xor x18, x18, x16
    .word 0x0089d293  # srli x5, x19, 8
    .word 0x018a1313  # slli x6, x20, 24
    .word 0x0062c2b3  # xor x5, x5, x6
    .word 0x0132c2b3  # xor x5, x5, x19
    .word 0x0112f833  # and x16, x5, x17
    .word 0x0109c9b3  # xor x19, x19, x16
    .word 0x008a5293  # srli x5, x20, 8
    .word 0x018a9313  # slli x6, x21, 24
    .word 0x0062c2b3  # xor x5, x5, x6
    .word 0x0142c2b3  # xor x5, x5, x20
    .word 0x0112f833  # and x16, x5, x17
    .word 0x010a4a33  # xor x20, x20, x16
    .word 0x008ad293  # srli x5, x21, 8
    .word 0x018b1313  # slli x6, x22, 24
    .word 0x0062c2b3  # xor x5, x5, x6
    .word 0x0152c2b3  # xor x5, x5, x21
    .word 0x0112f833  # and x16, x5, x17
    .word 0x010acab3  # xor x21, x21, x16
    .word 0x008b5293  # srli x5, x22, 8
    .word 0x018b9313  # slli x6, x23, 24
    .word 0x0062c2b3  # xor x5, x5, x6
    .word 0x0162c2b3  # xor x5, x5, x22
    .word 0x0112f833  # and x16, x5, x17
    .word 0x010b4b33  # xor x22, x22, x16
    .word 0x11c12883  # lw x17, 284(x2)
    .word 0x01194833  # xor x16, x18, x17
    .word 0x12012883  # lw x17, 288(x2)
    .word 0x0119c333  # xor x6, x19, x17
    .word 0x00686833  # or x16, x16, x6
    .word 0x12412883  # lw x17, 292(x2)
    .word 0x011a4333  # xor x6, x20, x17
    .word 0x00686833  # or x16, x16, x6
    .word 0x12812883  # lw x17, 296(x2)
    .word 0x011ac333  # xor x6, x21, x17
    .word 0x00686833  # or x16, x16, x6
    .word 0x12c12883  # lw x17, 300(x2)
    .word 0x011b4333  # xor x6, x22, x17
    .word 0x00686833  # or x16, x16, x6
    .word 0x00183293  # sltiu x5, x16, 1
    .word 0xfff50313  # addi x6, x10, -1
    .word 0x10033313  # sltiu x6, x6, 256
    .word 0x0062f2b3  # and x5, x5, x6
    .word 0x12512823  # sw x5, 304(x2)
    # the result
    .word 0x13012503  # lw x10, 304(x2)
    # above the frame
    .word 0x14010293  # addi x5, x2, 320
    # the caller's registers
    .word 0x0002a903  # lw x18, 0(x5)
    .cfi_restore 18
    .word 0x0042a983  # lw x19, 4(x5)
    .cfi_restore 19
    .word 0x0082aa03  # lw x20, 8(x5)
    .cfi_restore 20
    .word 0x00c2aa83  # lw x21, 12(x5)
    .cfi_restore 21
    .word 0x0102ab03  # lw x22, 16(x5)
    .cfi_restore 22
    .word 0x0142ab83  # lw x23, 20(x5)
    .cfi_restore 23
    .word 0x0182ac03  # lw x24, 24(x5)
    .cfi_restore 24
    .word 0x01c2ac83  # lw x25, 28(x5)
    .cfi_restore 25
    .word 0x0202ad03  # lw x26, 32(x5)
    .cfi_restore 26
    .word 0x0242ad83  # lw x27, 36(x5)
    .cfi_restore 27
    # the caller's x2
    .word 0x03028293  # addi x5, x5, 48
    .cfi_def_cfa 5, 0
    # all the room, wiped upward
    .word 0x00012023  # sw x0, 0(x2)
    .word 0x00012223  # sw x0, 4(x2)
    .word 0x00012423  # sw x0, 8(x2)
    .word 0x00012623  # sw x0, 12(x2)
    .word 0x01010113  # addi x2, x2, 16
    .word 0xfe5116e3  # bne x2, x5, -20
    .cfi_def_cfa 2, 0
    # temporaries, wiped
    .word 0x00000293  # addi x5, x0, 0
    .word 0x00000313  # addi x6, x0, 0
    .word 0x00000393  # addi x7, x0, 0
    .word 0x00000593  # addi x11, x0, 0
    .word 0x00000613  # addi x12, x0, 0
    .word 0x00000693  # addi x13, x0, 0
    .word 0x00000713  # addi x14, x0, 0
    .word 0x00000793  # addi x15, x0, 0
    .word 0x00000813  # addi x16, x0, 0
    .word 0x00000893  # addi x17, x0, 0
    .word 0x00000e13  # addi x28, x0, 0
    .word 0x00000e93  # addi x29, x0, 0
    .word 0x00000f13  # addi x30, x0, 0
    .word 0x00000f93  # addi x31, x0, 0
    # back
    .word 0x00008067  # jalr x0, 0(x1)
    # from x5 to x6 up to x7, and back
    .cfi_def_cfa 2, 368
    .cfi_offset 18, -48
    .cfi_offset 19, -44
    .cfi_offset 20, -40
    .cfi_offset 21, -36
    .cfi_offset 22, -32
    .cfi_offset 23, -28
    .cfi_offset 24, -24
    .cfi_offset 25, -20
    .cfi_offset 26, -16
    .cfi_offset 27, -12
    .word 0x0062ee33  # or x28, x5, x6
    .word 0x003e7e13  # andi x28, x28, 3
    .word 0x000e0e63  # beq x28, x0, 28
    .word 0x0002ce03  # lbu x28, 0(x5)
    .word 0x01c30023  # sb x28, 0(x6)
    .word 0x00128293  # addi x5, x5, 1
    .word 0x00130313  # addi x6, x6, 1
    .word 0xfe7298e3  # bne x5, x7, -16
    .word 0x0180006f  # jal x0, 24
    .word 0x0002ae03  # lw x28, 0(x5)
    .word 0x01c32023  # sw x28, 0(x6)
    .word 0x00428293  # addi x5, x5, 4
    .word 0x00430313  # addi x6, x6, 4
    .word 0xfe7298e3  # bne x5, x7, -16
    .word 0x000f0067  # jalr x0, 0(x30)
    .cfi_endproc
    .size tls_mac_check_20, . - tls_mac_check_20
    .option pop
