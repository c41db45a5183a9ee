# aes256_encrypt: made by factc 1.0.0 function; 1319 words, 304 bytes of stack, profile 1
    .option push
    .option norvc
    .option norelax
    .cfi_sections .debug_frame
    .section .text.aes256_encrypt, "ax", @progbits
    .p2align 2
    .globl aes256_encrypt
    .type aes256_encrypt, @function
aes256_encrypt:
    .cfi_startproc
    # room above the frame
    .word 0xfc010113  # addi x2, x2, -64
    .cfi_def_cfa_offset 64
    # the caller's registers
    .word 0x00812023  # sw x8, 0(x2)
    .cfi_offset 8, -64
    .word 0x00912223  # sw x9, 4(x2)
    .cfi_offset 9, -60
    .word 0x01212423  # sw x18, 8(x2)
    .cfi_offset 18, -56
    .word 0x01312623  # sw x19, 12(x2)
    .cfi_offset 19, -52
    .word 0x01412823  # sw x20, 16(x2)
    .cfi_offset 20, -48
    .word 0x01512a23  # sw x21, 20(x2)
    .cfi_offset 21, -44
    .word 0x01612c23  # sw x22, 24(x2)
    .cfi_offset 22, -40
    .word 0x01712e23  # sw x23, 28(x2)
    .cfi_offset 23, -36
    .word 0x03812023  # sw x24, 32(x2)
    .cfi_offset 24, -32
    .word 0x03912223  # sw x25, 36(x2)
    .cfi_offset 25, -28
    .word 0x03a12423  # sw x26, 40(x2)
    .cfi_offset 26, -24
    .word 0x03b12623  # sw x27, 44(x2)
    .cfi_offset 27, -20
    # arguments that are needed behind the body
    .word 0x02a12c23  # sw x10, 56(x2)
    .word 0x02b12e23  # sw x11, 60(x2)
    # the frame's base
    .word 0xf1010113  # addi x2, x2, -240
    .cfi_def_cfa 2, 304
    # parameter 0: an array
    .word 0x00050293  # addi x5, x10, 0
    .word 0x00010313  # addi x6, x2, 0
    .word 0x02028393  # addi x7, x5, 32
    .word 0x3fc01f6f  # jal x30, 5116
    # parameter 1: an array
    .word 0x00058293  # addi x5, x11, 0
    .word 0x02010313  # addi x6, x2, 32
    .word 0x01028393  # addi x7, x5, 16
    .word 0x3ec01f6f  # jal x30, 5100
    # the body
    .word 0x555552b7  # lui x5, 0x55555
    .word 0x55528293  # addi x5, x5, 1365
    .word 0x0c512223  # sw x5, 196(x2)
    .word 0x333332b7  # lui x5, 0x33333
    .word 0x33328293  # addi x5, x5, 819
    .word 0x0c512423  # sw x5, 200(x2)
    .word 0x0f0f12b7  # lui x5, 0x0f0f1
    .word 0xf0f28293  # addi x5, x5, -241
    .word 0x0c512623  # sw x5, 204(x2)
    .word 0x000014b7  # lui x9, 0x00001
    .word 0x11148493  # addi x9, x9, 273
    .word 0x000022b7  # lui x5, 0x00002
    .word 0x22228293  # addi x5, x5, 546
    .word 0x0c512823  # sw x5, 208(x2)
    .word 0x000042b7  # lui x5, 0x00004
    .word 0x44428293  # addi x5, x5, 1092
    .word 0x0c512a23  # sw x5, 212(x2)
    .word 0x000092b7  # lui x5, 0x00009
    .word 0x88828293  # addi x5, x5, -1912
    .word 0x0c512c23  # sw x5, 216(x2)
    .word 0x000032b7  # lui x5, 0x00003
    .word 0x33328293  # addi x5, x5, 819
    .word 0x0c512e23  # sw x5, 220(x2)
    .word 0x0a012223  # sw x0, 164(x2)
    .word 0x0a012423  # sw x0, 168(x2)
    .word 0x0a012623  # sw x0, 172(x2)
    .word 0x0a012823  # sw x0, 176(x2)
    .word 0x0a012a23  # sw x0, 180(x2)
    .word 0x0a012c23  # sw x0, 184(x2)
    .word 0x0a012e23  # sw x0, 188(x2)
    .word 0x0c012023  # sw x0, 192(x2)
    .word 0x00100513  # addi x10, x0, 1
    .word 0x02014283  # lbu x5, 32(x2)
    .word 0x02814303  # lbu x6, 40(x2)
    .word 0x00831313  # slli x6, x6, 8
    .word 0x0062ea33  # or x20, x5, x6
    .word 0x00014283  # lbu x5, 0(x2)
    .word 0x01029293  # slli x5, x5, 16
    .word 0x00814303  # lbu x6, 8(x2)
    .word 0x01831313  # slli x6, x6, 24
    .word 0x0062e9b3  # or x19, x5, x6
    .word 0x013a6b33  # or x22, x20, x19
    .word 0x01014283  # lbu x5, 16(x2)
    .word 0x01029293  # slli x5, x5, 16
    .word 0x01814303  # lbu x6, 24(x2)
    .word 0x01831313  # slli x6, x6, 24
    .word 0x0062e2b3  # or x5, x5, x6
    .word 0x08512223  # sw x5, 132(x2)
    .word 0x02114283  # lbu x5, 33(x2)
    .word 0x02914303  # lbu x6, 41(x2)
    .word 0x00831313  # slli x6, x6, 8
    .word 0x0062ea33  # or x20, x5, x6
    .word 0x00114283  # lbu x5, 1(x2)
    .word 0x01029293  # slli x5, x5, 16
    .word 0x00914303  # lbu x6, 9(x2)
    .word 0x01831313  # slli x6, x6, 24
    .word 0x0062e9b3  # or x19, x5, x6
    .word 0x013a6bb3  # or x23, x20, x19
    .word 0x01114283  # lbu x5, 17(x2)
    .word 0x01029293  # slli x5, x5, 16
    .word 0x01914303  # lbu x6, 25(x2)
    .word 0x01831313  # slli x6, x6, 24
    .word 0x0062e2b3  # or x5, x5, x6
    .word 0x08512423  # sw x5, 136(x2)
    .word 0x02214283  # lbu x5, 34(x2)
    .word 0x02a14303  # lbu x6, 42(x2)
    .word 0x00831313  # slli x6, x6, 8
    .word 0x0062ea33  # or x20, x5, x6
    .word 0x00214283  # lbu x5, 2(x2)
    .word 0x01029293  # slli x5, x5, 16
    .word 0x00a14303  # lbu x6, 10(x2)
    .word 0x01831313  # slli x6, x6, 24
    .word 0x0062e9b3  # or x19, x5, x6
    .word 0x013a6c33  # or x24, x20, x19
    .word 0x01214283  # lbu x5, 18(x2)
    .word 0x01029293  # slli x5, x5, 16
    .word 0x01a14303  # lbu x6, 26(x2)
    .word 0x01831313  # slli x6, x6, 24
    .word 0x0062e2b3  # or x5, x5, x6
    .word 0x08512623  # sw x5, 140(x2)
    .word 0x02314283  # lbu x5, 35(x2)
    .word 0x02b14303  # lbu x6, 43(x2)
    .word 0x00831313  # slli x6, x6, 8
    .word 0x0062ea33  # or x20, x5, x6
    .word 0x00314283  # lbu x5, 3(x2)
    .word 0x01029293  # slli x5, x5, 16
    .word 0x00b14303  # lbu x6, 11(x2)
    .word 0x01831313  # slli x6, x6, 24
    .word 0x0062e9b3  # or x19, x5, x6
    .word 0x013a6cb3  # or x25, x20, x19
    .word 0x01314283  # lbu x5, 19(x2)
    .word 0x01029293  # slli x5, x5, 16
    .word 0x01b14303  # lbu x6, 27(x2)
    .word 0x01831313  # slli x6, x6, 24
    .word 0x0062e2b3  # or x5, x5, x6
    .word 0x08512823  # sw x5, 144(x2)
    .word 0x02414283  # lbu x5, 36(x2)
    .word 0x02c14303  # lbu x6, 44(x2)
    .word 0x00831313  # slli x6, x6, 8
    .word 0x0062ea33  # or x20, x5, x6
    .word 0x00414283  # lbu x5, 4(x2)
    .word 0x01029293  # slli x5, x5, 16
    .word 0x00c14303  # lbu x6, 12(x2)
    .word 0x01831313  # slli x6, x6, 24
    .word 0x0062e9b3  # or x19, x5, x6
    .word 0x013a6d33  # or x26, x20, x19
    .word 0x01414283  # lbu x5, 20(x2)
    .word 0x01029293  # slli x5, x5, 16
    .word 0x01c14303  # lbu x6, 28(x2)
    .word 0x01831313  # slli x6, x6, 24
    .word 0x0062e2b3  # or x5, x5, x6
    .word 0x08512a23  # sw x5, 148(x2)
    .word 0x02514283  # lbu x5, 37(x2)
    .word 0x02d14303  # lbu x6, 45(x2)
    .word 0x00831313  # slli x6, x6, 8
    .word 0x0062ea33  # or x20, x5, x6
    .word 0x00514283  # lbu x5, 5(x2)
    .word 0x01029293  # slli x5, x5, 16
    .word 0x00d14303  # lbu x6, 13(x2)
    .word 0x01831313  # slli x6, x6, 24
    .word 0x0062e9b3  # or x19, x5, x6
    .word 0x013a6db3  # or x27, x20, x19
    .word 0x01514283  # lbu x5, 21(x2)
    .word 0x01029293  # slli x5, x5, 16
    .word 0x01d14303  # lbu x6, 29(x2)
    .word 0x01831313  # slli x6, x6, 24
    .word 0x0062e2b3  # or x5, x5, x6
    .word 0x08512c23  # sw x5, 152(x2)
    .word 0x02614283  # lbu x5, 38(x2)
    .word 0x02e14303  # lbu x6, 46(x2)
    .word 0x00831313  # slli x6, x6, 8
    .word 0x0062ea33  # or x20, x5, x6
    .word 0x00614283  # lbu x5, 6(x2)
    .word 0x01029293  # slli x5, x5, 16
    .word 0x00e14303  # lbu x6, 14(x2)
    .word 0x01831313  # slli x6, x6, 24
    .word 0x0062e9b3  # or x19, x5, x6
    .word 0x013a6433  # or x8, x20, x19
    .word 0x01614283  # lbu x5, 22(x2)
    .word 0x01029293  # slli x5, x5, 16
    .word 0x01e14303  # lbu x6, 30(x2)
    .word 0x01831313  # slli x6, x6, 24
    .word 0x0062e2b3  # or x5, x5, x6
    .word 0x08512e23  # sw x5, 156(x2)
    .word 0x02714283  # lbu x5, 39(x2)
    .word 0x02f14303  # lbu x6, 47(x2)
    .word 0x00831313  # slli x6, x6, 8
    .word 0x0062ea33  # or x20, x5, x6
    .word 0x00714283  # lbu x5, 7(x2)
    .word 0x01029293  # slli x5, x5, 16
    .word 0x00f14303  # lbu x6, 15(x2)
    .word 0x01831313  # slli x6, x6, 24
    .word 0x0062e9b3  # or x19, x5, x6
    .word 0x013a69b3  # or x19, x20, x19
    .word 0x01714283  # lbu x5, 23(x2)
    .word 0x01029293  # slli x5, x5, 16
    .word 0x01f14303  # lbu x6, 31(x2)
    .word 0x01831313  # slli x6, x6, 24
    .word 0x0062e2b3  # or x5, x5, x6
    .word 0x0a512023  # sw x5, 160(x2)
    .word 0x001b5293  # srli x5, x22, 1
    .word 0x0172c2b3  # xor x5, x5, x23
    .word 0x0c412303  # lw x6, 196(x2)
    .word 0x0062fa33  # and x20, x5, x6
    .word 0x014bcbb3  # xor x23, x23, x20
    .word 0x001a1313  # slli x6, x20, 1
    .word 0x006b4a33  # xor x20, x22, x6
    .word 0x001c5293  # srli x5, x24, 1
    .word 0x0192c2b3  # xor x5, x5, x25
    .word 0x0c412303  # lw x6, 196(x2)
    .word 0x0062f933  # and x18, x5, x6
    .word 0x012cccb3  # xor x25, x25, x18
    .word 0x00191313  # slli x6, x18, 1
    .word 0x006c4933  # xor x18, x24, x6
    .word 0x001d5293  # srli x5, x26, 1
    .word 0x01b2c2b3  # xor x5, x5, x27
    .word 0x0c412303  # lw x6, 196(x2)
    .word 0x0062fab3  # and x21, x5, x6
    .word 0x015dcdb3  # xor x27, x27, x21
    .word 0x001a9313  # slli x6, x21, 1
    .word 0x006d4ab3  # xor x21, x26, x6
    .word 0x00145293  # srli x5, x8, 1
    .word 0x0132c2b3  # xor x5, x5, x19
    .word 0x0c412303  # lw x6, 196(x2)
    .word 0x0062fc33  # and x24, x5, x6
    .word 0x0189c9b3  # xor x19, x19, x24
    .word 0x001c1313  # slli x6, x24, 1
    .word 0x00644433  # xor x8, x8, x6
    .word 0x002a5293  # srli x5, x20, 2
    .word 0x0122c2b3  # xor x5, x5, x18
    .word 0x0c812303  # lw x6, 200(x2)
    .word 0x0062fd33  # and x26, x5, x6
    .word 0x01a94c33  # xor x24, x18, x26
    .word 0x002d1313  # slli x6, x26, 2
    .word 0x006a4a33  # xor x20, x20, x6
    .word 0x002bd293  # srli x5, x23, 2
    .word 0x0192c2b3  # xor x5, x5, x25
    .word 0x0c812303  # lw x6, 200(x2)
    .word 0x0062f933  # and x18, x5, x6
    .word 0x012cccb3  # xor x25, x25, x18
    .word 0x00291313  # slli x6, x18, 2
    .word 0x006bc933  # xor x18, x23, x6
    .word 0x002ad293  # srli x5, x21, 2
    .word 0x0082c2b3  # xor x5, x5, x8
    .word 0x0c812303  # lw x6, 200(x2)
    .word 0x0062fbb3  # and x23, x5, x6
    .word 0x01744433  # xor x8, x8, x23
    .word 0x002b9313  # slli x6, x23, 2
    .word 0x006acab3  # xor x21, x21, x6
    .word 0x002dd293  # srli x5, x27, 2
    .word 0x0132c2b3  # xor x5, x5, x19
    .word 0x0c812303  # lw x6, 200(x2)
    .word 0x0062fbb3  # and x23, x5, x6
    .word 0x0179c9b3  # xor x19, x19, x23
    .word 0x002b9313  # slli x6, x23, 2
    .word 0x006dcdb3  # xor x27, x27, x6
    .word 0x004a5293  # srli x5, x20, 4
    .word 0x0152c2b3  # xor x5, x5, x21
    .word 0x0cc12303  # lw x6, 204(x2)
    .word 0x0062fbb3  # and x23, x5, x6
    .word 0x017acd33  # xor x26, x21, x23
    .word 0x004b9313  # slli x6, x23, 4
    .word 0x006a4bb3  # xor x23, x20, x6
    .word 0x00495293  # srli x5, x18, 4
    .word 0x01b2c2b3  # xor x5, x5, x27
    .word 0x0cc12303  # lw x6, 204(x2)
    .word 0x0062fa33  # and x20, x5, x6
    .word 0x014dcdb3  # xor x27, x27, x20
    .word 0x004a1313  # slli x6, x20, 4
    .word 0x006947b3  # xor x15, x18, x6
    .word 0x004c5293  # srli x5, x24, 4
    .word 0x0082c2b3  # xor x5, x5, x8
    .word 0x0cc12303  # lw x6, 204(x2)
    .word 0x0062fa33  # and x20, x5, x6
    .word 0x01444433  # xor x8, x8, x20
    .word 0x004a1313  # slli x6, x20, 4
    .word 0x006c4c33  # xor x24, x24, x6
    .word 0x004cd293  # srli x5, x25, 4
    .word 0x0132c2b3  # xor x5, x5, x19
    .word 0x0cc12303  # lw x6, 204(x2)
    .word 0x0062fa33  # and x20, x5, x6
    .word 0x0149c9b3  # xor x19, x19, x20
    .word 0x004a1313  # slli x6, x20, 4
    .word 0x006cc633  # xor x12, x25, x6
    .word 0x08412283  # lw x5, 132(x2)
    .word 0x0012d293  # srli x5, x5, 1
    .word 0x08812303  # lw x6, 136(x2)
    .word 0x0062c2b3  # xor x5, x5, x6
    .word 0x0c412303  # lw x6, 196(x2)
    .word 0x0062fa33  # and x20, x5, x6
    .word 0x08812283  # lw x5, 136(x2)
    .word 0x0142c2b3  # xor x5, x5, x20
    .word 0x08512423  # sw x5, 136(x2)
    .word 0x08412283  # lw x5, 132(x2)
    .word 0x001a1313  # slli x6, x20, 1
    .word 0x0062ca33  # xor x20, x5, x6
    .word 0x08c12283  # lw x5, 140(x2)
    .word 0x0012d293  # srli x5, x5, 1
    .word 0x09012303  # lw x6, 144(x2)
    .word 0x0062c2b3  # xor x5, x5, x6
    .word 0x0c412303  # lw x6, 196(x2)
    .word 0x0062f933  # and x18, x5, x6
    .word 0x09012283  # lw x5, 144(x2)
    .word 0x0122c2b3  # xor x5, x5, x18
    .word 0x08512823  # sw x5, 144(x2)
    .word 0x08c12283  # lw x5, 140(x2)
    .word 0x00191313  # slli x6, x18, 1
    .word 0x0062c933  # xor x18, x5, x6
    .word 0x09412283  # lw x5, 148(x2)
    .word 0x0012d293  # srli x5, x5, 1
    .word 0x09812303  # lw x6, 152(x2)
    .word 0x0062c2b3  # xor x5, x5, x6
    .word 0x0c412303  # lw x6, 196(x2)
    .word 0x0062fab3  # and x21, x5, x6
    .word 0x09812283  # lw x5, 152(x2)
    .word 0x0152c2b3  # xor x5, x5, x21
    .word 0x08512c23  # sw x5, 152(x2)
    .word 0x09412283  # lw x5, 148(x2)
    .word 0x001a9313  # slli x6, x21, 1
    .word 0x0062cab3  # xor x21, x5, x6
    .word 0x09c12283  # lw x5, 156(x2)
    .word 0x0012d293  # srli x5, x5, 1
    .word 0x0a012303  # lw x6, 160(x2)
    .word 0x0062c2b3  # xor x5, x5, x6
    .word 0x0c412303  # lw x6, 196(x2)
    .word 0x0062fcb3  # and x25, x5, x6
    .word 0x0a012283  # lw x5, 160(x2)
    .word 0x0192c2b3  # xor x5, x5, x25
    .word 0x0a512023  # sw x5, 160(x2)
    .word 0x09c12283  # lw x5, 156(x2)
    .word 0x001c9313  # slli x6, x25, 1
    .word 0x0062ccb3  # xor x25, x5, x6
    .word 0x002a5293  # srli x5, x20, 2
    .word 0x0122c2b3  # xor x5, x5, x18
    .word 0x0c812303  # lw x6, 200(x2)
    .word 0x0062fb33  # and x22, x5, x6
    .word 0x016942b3  # xor x5, x18, x22
    .word 0x08512623  # sw x5, 140(x2)
    .word 0x002b1313  # slli x6, x22, 2
    .word 0x006a4a33  # xor x20, x20, x6
    .word 0x08812283  # lw x5, 136(x2)
    .word 0x0022d293  # srli x5, x5, 2
    .word 0x09012303  # lw x6, 144(x2)
    .word 0x0062c2b3  # xor x5, x5, x6
    .word 0x0c812303  # lw x6, 200(x2)
    .word 0x0062f933  # and x18, x5, x6
    .word 0x09012283  # lw x5, 144(x2)
    .word 0x0122c2b3  # xor x5, x5, x18
    .word 0x08512823  # sw x5, 144(x2)
    .word 0x08812283  # lw x5, 136(x2)
    .word 0x00291313  # slli x6, x18, 2
    .word 0x0062c933  # xor x18, x5, x6
    .word 0x002ad293  # srli x5, x21, 2
    .word 0x0192c2b3  # xor x5, x5, x25
    .word 0x0c812303  # lw x6, 200(x2)
    .word 0x0062fb33  # and x22, x5, x6
    .word 0x016cc2b3  # xor x5, x25, x22
    .word 0x08512e23  # sw x5, 156(x2)
    .word 0x002b1313  # slli x6, x22, 2
    .word 0x006acab3  # xor x21, x21, x6
    .word 0x09812283  # lw x5, 152(x2)
    .word 0x0022d293  # srli x5, x5, 2
    .word 0x0a012303  # lw x6, 160(x2)
    .word 0x0062c2b3  # xor x5, x5, x6
    .word 0x0c812303  # lw x6, 200(x2)
    .word 0x0062fcb3  # and x25, x5, x6
    .word 0x0a012283  # lw x5, 160(x2)
    .word 0x0192c2b3  # xor x5, x5, x25
    .word 0x0a512023  # sw x5, 160(x2)
    .word 0x09812283  # lw x5, 152(x2)
    .word 0x002c9313  # slli x6, x25, 2
    .word 0x0062ccb3  # xor x25, x5, x6
    .word 0x004a5293  # srli x5, x20, 4
    .word 0x0152c2b3  # xor x5, x5, x21
    .word 0x0cc12303  # lw x6, 204(x2)
    .word 0x0062fb33  # and x22, x5, x6
    .word 0x016ac2b3  # xor x5, x21, x22
    .word 0x08512a23  # sw x5, 148(x2)
    .word 0x004b1313  # slli x6, x22, 4
    .word 0x006a4a33  # xor x20, x20, x6
    .word 0x09412223  # sw x20, 132(x2)
    .word 0x00495293  # srli x5, x18, 4
    .word 0x0192c2b3  # xor x5, x5, x25
    .word 0x0cc12303  # lw x6, 204(x2)
    .word 0x0062fa33  # and x20, x5, x6
    .word 0x014cc2b3  # xor x5, x25, x20
    .word 0x08512c23  # sw x5, 152(x2)
    .word 0x004a1313  # slli x6, x20, 4
    .word 0x00694a33  # xor x20, x18, x6
    .word 0x09412423  # sw x20, 136(x2)
    .word 0x08c12283  # lw x5, 140(x2)
    .word 0x0042d293  # srli x5, x5, 4
    .word 0x09c12303  # lw x6, 156(x2)
    .word 0x0062c2b3  # xor x5, x5, x6
    .word 0x0cc12303  # lw x6, 204(x2)
    .word 0x0062fa33  # and x20, x5, x6
    .word 0x09c12283  # lw x5, 156(x2)
    .word 0x0142c2b3  # xor x5, x5, x20
    .word 0x08512e23  # sw x5, 156(x2)
    .word 0x08c12283  # lw x5, 140(x2)
    .word 0x004a1313  # slli x6, x20, 4
    .word 0x0062ca33  # xor x20, x5, x6
    .word 0x09412623  # sw x20, 140(x2)
    .word 0x09012283  # lw x5, 144(x2)
    .word 0x0042d293  # srli x5, x5, 4
    .word 0x0a012303  # lw x6, 160(x2)
    .word 0x0062c2b3  # xor x5, x5, x6
    .word 0x0cc12303  # lw x6, 204(x2)
    .word 0x0062fa33  # and x20, x5, x6
    .word 0x0a012283  # lw x5, 160(x2)
    .word 0x0142c2b3  # xor x5, x5, x20
    .word 0x0a512023  # sw x5, 160(x2)
    .word 0x09012283  # lw x5, 144(x2)
    .word 0x004a1313  # slli x6, x20, 4
    .word 0x0062ca33  # xor x20, x5, x6
    .word 0x09412823  # sw x20, 144(x2)
    .word 0x000b8a13  # addi x20, x23, 0
    .word 0x010a5913  # srli x18, x20, 16
    .word 0x01091293  # slli x5, x18, 16
    .word 0x06512223  # sw x5, 100(x2)
    .word 0x012a4b33  # xor x22, x20, x18
    .word 0x00078a13  # addi x20, x15, 0
    .word 0x010a5913  # srli x18, x20, 16
    .word 0x01091293  # slli x5, x18, 16
    .word 0x06512423  # sw x5, 104(x2)
    .word 0x012a4bb3  # xor x23, x20, x18
    .word 0x000c0a13  # addi x20, x24, 0
    .word 0x010a5913  # srli x18, x20, 16
    .word 0x01091293  # slli x5, x18, 16
    .word 0x06512623  # sw x5, 108(x2)
    .word 0x012a4c33  # xor x24, x20, x18
    .word 0x00060a13  # addi x20, x12, 0
    .word 0x010a5913  # srli x18, x20, 16
    .word 0x01091293  # slli x5, x18, 16
    .word 0x06512823  # sw x5, 112(x2)
    .word 0x012a4cb3  # xor x25, x20, x18
    .word 0x000d0a13  # addi x20, x26, 0
    .word 0x010a5913  # srli x18, x20, 16
    .word 0x01091293  # slli x5, x18, 16
    .word 0x06512a23  # sw x5, 116(x2)
    .word 0x012a4d33  # xor x26, x20, x18
    .word 0x000d8a13  # addi x20, x27, 0
    .word 0x010a5913  # srli x18, x20, 16
    .word 0x01091293  # slli x5, x18, 16
    .word 0x06512c23  # sw x5, 120(x2)
    .word 0x012a4db3  # xor x27, x20, x18
    .word 0x00040a13  # addi x20, x8, 0
    .word 0x010a5913  # srli x18, x20, 16
    .word 0x01091293  # slli x5, x18, 16
    .word 0x06512e23  # sw x5, 124(x2)
    .word 0x012a4433  # xor x8, x20, x18
    .word 0x00098a13  # addi x20, x19, 0
    .word 0x010a5913  # srli x18, x20, 16
    .word 0x01091293  # slli x5, x18, 16
    .word 0x08512023  # sw x5, 128(x2)
    .word 0x012a49b3  # xor x19, x20, x18
    .word 0x00000593  # addi x11, x0, 0
    .word 0x00158593  # addi x11, x11, 1
    .word 0x00098a13  # addi x20, x19, 0
    .word 0x00040793  # addi x15, x8, 0
    .word 0x000d8913  # addi x18, x27, 0
    .word 0x000d0a93  # addi x21, x26, 0
    .word 0x000c8713  # addi x14, x25, 0
    .word 0x000c0c93  # addi x25, x24, 0
    .word 0x000b0993  # addi x19, x22, 0
    .word 0x019ac633  # xor x12, x21, x25
    .word 0x017a4db3  # xor x27, x20, x23
    .word 0x015a42b3  # xor x5, x20, x21
    .word 0x02512823  # sw x5, 48(x2)
    .word 0x019a4433  # xor x8, x20, x25
    .word 0x0127cd33  # xor x26, x15, x18
    .word 0x013d4933  # xor x18, x26, x19
    .word 0x015942b3  # xor x5, x18, x21
    .word 0x02512a23  # sw x5, 52(x2)
    .word 0x00cdc2b3  # xor x5, x27, x12
    .word 0x02512c23  # sw x5, 56(x2)
    .word 0x014942b3  # xor x5, x18, x20
    .word 0x02512e23  # sw x5, 60(x2)
    .word 0x017942b3  # xor x5, x18, x23
    .word 0x04512023  # sw x5, 64(x2)
    .word 0x04012283  # lw x5, 64(x2)
    .word 0x0082c2b3  # xor x5, x5, x8
    .word 0x04512223  # sw x5, 68(x2)
    .word 0x03812303  # lw x6, 56(x2)
    .word 0x00674ab3  # xor x21, x14, x6
    .word 0x019acbb3  # xor x23, x21, x25
    .word 0x00faccb3  # xor x25, x21, x15
    .word 0x013bc2b3  # xor x5, x23, x19
    .word 0x04512423  # sw x5, 72(x2)
    .word 0x01abcc33  # xor x24, x23, x26
    .word 0x03012303  # lw x6, 48(x2)
    .word 0x006ccab3  # xor x21, x25, x6
    .word 0x0159c2b3  # xor x5, x19, x21
    .word 0x04512623  # sw x5, 76(x2)
    .word 0x015c42b3  # xor x5, x24, x21
    .word 0x04512823  # sw x5, 80(x2)
    .word 0x008c47b3  # xor x15, x24, x8
    .word 0x015d4d33  # xor x26, x26, x21
    .word 0x01adc733  # xor x14, x27, x26
    .word 0x01aa4833  # xor x16, x20, x26
    .word 0x03812283  # lw x5, 56(x2)
    .word 0x0172fa33  # and x20, x5, x23
    .word 0x04412283  # lw x5, 68(x2)
    .word 0x04812303  # lw x6, 72(x2)
    .word 0x0062fb33  # and x22, x5, x6
    .word 0x014b46b3  # xor x13, x22, x20
    .word 0x03412283  # lw x5, 52(x2)
    .word 0x0132fb33  # and x22, x5, x19
    .word 0x014b42b3  # xor x5, x22, x20
    .word 0x04512e23  # sw x5, 92(x2)
    .word 0x01adfa33  # and x20, x27, x26
    .word 0x04012283  # lw x5, 64(x2)
    .word 0x0122fb33  # and x22, x5, x18
    .word 0x014b42b3  # xor x5, x22, x20
    .word 0x06512023  # sw x5, 96(x2)
    .word 0x03c12283  # lw x5, 60(x2)
    .word 0x04c12303  # lw x6, 76(x2)
    .word 0x0062fb33  # and x22, x5, x6
    .word 0x014b42b3  # xor x5, x22, x20
    .word 0x04512a23  # sw x5, 84(x2)
    .word 0x03012283  # lw x5, 48(x2)
    .word 0x0152fa33  # and x20, x5, x21
    .word 0x05012303  # lw x6, 80(x2)
    .word 0x00667b33  # and x22, x12, x6
    .word 0x014b4b33  # xor x22, x22, x20
    .word 0x018472b3  # and x5, x8, x24
    .word 0x04512c23  # sw x5, 88(x2)
    .word 0x05812283  # lw x5, 88(x2)
    .word 0x0142ca33  # xor x20, x5, x20
    .word 0x0166c6b3  # xor x13, x13, x22
    .word 0x05c12283  # lw x5, 92(x2)
    .word 0x0142c2b3  # xor x5, x5, x20
    .word 0x04512e23  # sw x5, 92(x2)
    .word 0x06012283  # lw x5, 96(x2)
    .word 0x0162cb33  # xor x22, x5, x22
    .word 0x05412283  # lw x5, 84(x2)
    .word 0x0142c2b3  # xor x5, x5, x20
    .word 0x06512023  # sw x5, 96(x2)
    .word 0x0196ccb3  # xor x25, x13, x25
    .word 0x05c12283  # lw x5, 92(x2)
    .word 0x00f2ca33  # xor x20, x5, x15
    .word 0x00eb47b3  # xor x15, x22, x14
    .word 0x06012283  # lw x5, 96(x2)
    .word 0x0102cb33  # xor x22, x5, x16
    .word 0x014cc833  # xor x16, x25, x20
    .word 0x00fcf6b3  # and x13, x25, x15
    .word 0x00db4733  # xor x14, x22, x13
    .word 0x00e87cb3  # and x25, x16, x14
    .word 0x014cccb3  # xor x25, x25, x20
    .word 0x0167c2b3  # xor x5, x15, x22
    .word 0x04512e23  # sw x5, 92(x2)
    .word 0x00da4a33  # xor x20, x20, x13
    .word 0x05c12303  # lw x6, 92(x2)
    .word 0x006a7a33  # and x20, x20, x6
    .word 0x016a4a33  # xor x20, x20, x22
    .word 0x0147c6b3  # xor x13, x15, x20
    .word 0x014747b3  # xor x15, x14, x20
    .word 0x00fb77b3  # and x15, x22, x15
    .word 0x00d7cb33  # xor x22, x15, x13
    .word 0x00f747b3  # xor x15, x14, x15
    .word 0x00fcf7b3  # and x15, x25, x15
    .word 0x00f847b3  # xor x15, x16, x15
    .word 0x0167c733  # xor x14, x15, x22
    .word 0x014cc833  # xor x16, x25, x20
    .word 0x00fcc6b3  # xor x13, x25, x15
    .word 0x016a42b3  # xor x5, x20, x22
    .word 0x04512e23  # sw x5, 92(x2)
    .word 0x00e842b3  # xor x5, x16, x14
    .word 0x06512023  # sw x5, 96(x2)
    .word 0x05c12283  # lw x5, 92(x2)
    .word 0x0172f2b3  # and x5, x5, x23
    .word 0x04512a23  # sw x5, 84(x2)
    .word 0x04812303  # lw x6, 72(x2)
    .word 0x006b72b3  # and x5, x22, x6
    .word 0x04512423  # sw x5, 72(x2)
    .word 0x013a79b3  # and x19, x20, x19
    .word 0x01a6fbb3  # and x23, x13, x26
    .word 0x0127f933  # and x18, x15, x18
    .word 0x04c12303  # lw x6, 76(x2)
    .word 0x006cfd33  # and x26, x25, x6
    .word 0x015872b3  # and x5, x16, x21
    .word 0x04512623  # sw x5, 76(x2)
    .word 0x06012283  # lw x5, 96(x2)
    .word 0x05012303  # lw x6, 80(x2)
    .word 0x0062fab3  # and x21, x5, x6
    .word 0x018772b3  # and x5, x14, x24
    .word 0x04512823  # sw x5, 80(x2)
    .word 0x05c12283  # lw x5, 92(x2)
    .word 0x03812303  # lw x6, 56(x2)
    .word 0x0062f2b3  # and x5, x5, x6
    .word 0x02512c23  # sw x5, 56(x2)
    .word 0x04412303  # lw x6, 68(x2)
    .word 0x006b7c33  # and x24, x22, x6
    .word 0x03412303  # lw x6, 52(x2)
    .word 0x006a7b33  # and x22, x20, x6
    .word 0x01b6fa33  # and x20, x13, x27
    .word 0x04012303  # lw x6, 64(x2)
    .word 0x0067f7b3  # and x15, x15, x6
    .word 0x03c12303  # lw x6, 60(x2)
    .word 0x006cf2b3  # and x5, x25, x6
    .word 0x04512023  # sw x5, 64(x2)
    .word 0x03012303  # lw x6, 48(x2)
    .word 0x00687db3  # and x27, x16, x6
    .word 0x06012283  # lw x5, 96(x2)
    .word 0x00c2fcb3  # and x25, x5, x12
    .word 0x00877633  # and x12, x14, x8
    .word 0x019dcdb3  # xor x27, x27, x25
    .word 0x016c4b33  # xor x22, x24, x22
    .word 0x00fd4433  # xor x8, x26, x15
    .word 0x03812283  # lw x5, 56(x2)
    .word 0x0182cc33  # xor x24, x5, x24
    .word 0x0149c7b3  # xor x15, x19, x20
    .word 0x01a9cd33  # xor x26, x19, x26
    .word 0x05012303  # lw x6, 80(x2)
    .word 0x006ac2b3  # xor x5, x21, x6
    .word 0x02512823  # sw x5, 48(x2)
    .word 0x05412283  # lw x5, 84(x2)
    .word 0x0172c9b3  # xor x19, x5, x23
    .word 0x04c12283  # lw x5, 76(x2)
    .word 0x0152c2b3  # xor x5, x5, x21
    .word 0x02512c23  # sw x5, 56(x2)
    .word 0x00ccc733  # xor x14, x25, x12
    .word 0x008a4633  # xor x12, x20, x8
    .word 0x0137ca33  # xor x20, x15, x19
    .word 0x01b94ab3  # xor x21, x18, x27
    .word 0x03812303  # lw x6, 56(x2)
    .word 0x006bccb3  # xor x25, x23, x6
    .word 0x014dcdb3  # xor x27, x27, x20
    .word 0x04012283  # lw x5, 64(x2)
    .word 0x0142cbb3  # xor x23, x5, x20
    .word 0x03012283  # lw x5, 48(x2)
    .word 0x0152ca33  # xor x20, x5, x21
    .word 0x015c4ab3  # xor x21, x24, x21
    .word 0x01994933  # xor x18, x18, x25
    .word 0x014bcbb3  # xor x23, x23, x20
    .word 0x04812283  # lw x5, 72(x2)
    .word 0x0152cc33  # xor x24, x5, x21
    .word 0x015cc7b3  # xor x15, x25, x21
    .word 0x014642b3  # xor x5, x12, x20
    .word 0xfff2cc93  # xori x25, x5, -1
    .word 0x01b442b3  # xor x5, x8, x27
    .word 0xfff2ca13  # xori x20, x5, -1
    .word 0x01794ab3  # xor x21, x18, x23
    .word 0x0189cdb3  # xor x27, x19, x24
    .word 0x018d4433  # xor x8, x26, x24
    .word 0x017b4c33  # xor x24, x22, x23
    .word 0x01b942b3  # xor x5, x18, x27
    .word 0xfff2c613  # xori x12, x5, -1
    .word 0x015742b3  # xor x5, x14, x21
    .word 0xfff2c293  # xori x5, x5, -1
    .word 0x02512823  # sw x5, 48(x2)
    .word 0x00e5b893  # sltiu x17, x11, 14
    .word 0x000a0913  # addi x18, x20, 0
    .word 0x08412a03  # lw x20, 132(x2)
    .word 0x00100313  # addi x6, x0, 1
    .word 0x04b37663  # bgeu x6, x11, 76
    .word 0x01c95993  # srli x19, x18, 28
    .word 0x0015f293  # andi x5, x11, 1
    .word 0x00029e63  # bne x5, x0, 28
    .word 0x0019d293  # srli x5, x19, 1
    .word 0x00399313  # slli x6, x19, 3
    .word 0x0062e2b3  # or x5, x5, x6
    .word 0x00f2f293  # andi x5, x5, 15
    .word 0x00157313  # andi x6, x10, 1
    .word 0x0062c9b3  # xor x19, x5, x6
    .word 0x01099293  # slli x5, x19, 16
    .word 0x06412303  # lw x6, 100(x2)
    .word 0x0062c9b3  # xor x19, x5, x6
    .word 0x00499313  # slli x6, x19, 4
    .word 0x0069c9b3  # xor x19, x19, x6
    .word 0x07412223  # sw x20, 100(x2)
    .word 0x00899313  # slli x6, x19, 8
    .word 0x0069ca33  # xor x20, x19, x6
    .word 0x09412223  # sw x20, 132(x2)
    .word 0x01091993  # slli x19, x18, 16
    .word 0x0109d313  # srli x6, x19, 16
    .word 0x0069e9b3  # or x19, x19, x6
    .word 0x0099f2b3  # and x5, x19, x9
    .word 0x0049d313  # srli x6, x19, 4
    .word 0x0d012383  # lw x7, 208(x2)
    .word 0x00737333  # and x6, x6, x7
    .word 0x0062e2b3  # or x5, x5, x6
    .word 0x0089d313  # srli x6, x19, 8
    .word 0x0d412383  # lw x7, 212(x2)
    .word 0x00737333  # and x6, x6, x7
    .word 0x0062e2b3  # or x5, x5, x6
    .word 0x00c9d313  # srli x6, x19, 12
    .word 0x0d812383  # lw x7, 216(x2)
    .word 0x00737333  # and x6, x6, x7
    .word 0x0062e9b3  # or x19, x5, x6
    .word 0x010a5293  # srli x5, x20, 16
    .word 0x0142ca33  # xor x20, x5, x20
    .word 0x04088263  # beq x17, x0, 68
    .word 0x0099f933  # and x18, x19, x9
    .word 0x0129c2b3  # xor x5, x19, x18
    .word 0x0012d293  # srli x5, x5, 1
    .word 0x00391313  # slli x6, x18, 3
    .word 0x0062e933  # or x18, x5, x6
    .word 0x0129c9b3  # xor x19, x19, x18
    .word 0x0dc12303  # lw x6, 220(x2)
    .word 0x0069fab3  # and x21, x19, x6
    .word 0x0b312223  # sw x19, 164(x2)
    .word 0x012a42b3  # xor x5, x20, x18
    .word 0x0159c333  # xor x6, x19, x21
    .word 0x00235313  # srli x6, x6, 2
    .word 0x0062c2b3  # xor x5, x5, x6
    .word 0x002a9313  # slli x6, x21, 2
    .word 0x0062ca33  # xor x20, x5, x6
    .word 0x0080006f  # jal x0, 8
    .word 0x013a4a33  # xor x20, x20, x19
    .word 0x000a0b13  # addi x22, x20, 0
    .word 0x000c8913  # addi x18, x25, 0
    .word 0x08812a03  # lw x20, 136(x2)
    .word 0x00100313  # addi x6, x0, 1
    .word 0x04b37863  # bgeu x6, x11, 80
    .word 0x01c95993  # srli x19, x18, 28
    .word 0x0015f293  # andi x5, x11, 1
    .word 0x02029063  # bne x5, x0, 32
    .word 0x0019d293  # srli x5, x19, 1
    .word 0x00399313  # slli x6, x19, 3
    .word 0x0062e2b3  # or x5, x5, x6
    .word 0x00f2f293  # andi x5, x5, 15
    .word 0x00155313  # srli x6, x10, 1
    .word 0x00137313  # andi x6, x6, 1
    .word 0x0062c9b3  # xor x19, x5, x6
    .word 0x01099293  # slli x5, x19, 16
    .word 0x06812303  # lw x6, 104(x2)
    .word 0x0062c9b3  # xor x19, x5, x6
    .word 0x00499313  # slli x6, x19, 4
    .word 0x0069c9b3  # xor x19, x19, x6
    .word 0x07412423  # sw x20, 104(x2)
    .word 0x00899313  # slli x6, x19, 8
    .word 0x0069ca33  # xor x20, x19, x6
    .word 0x09412423  # sw x20, 136(x2)
    .word 0x01091993  # slli x19, x18, 16
    .word 0x0109d313  # srli x6, x19, 16
    .word 0x0069e9b3  # or x19, x19, x6
    .word 0x0099f2b3  # and x5, x19, x9
    .word 0x0049d313  # srli x6, x19, 4
    .word 0x0d012383  # lw x7, 208(x2)
    .word 0x00737333  # and x6, x6, x7
    .word 0x0062e2b3  # or x5, x5, x6
    .word 0x0089d313  # srli x6, x19, 8
    .word 0x0d412383  # lw x7, 212(x2)
    .word 0x00737333  # and x6, x6, x7
    .word 0x0062e2b3  # or x5, x5, x6
    .word 0x00c9d313  # srli x6, x19, 12
    .word 0x0d812383  # lw x7, 216(x2)
    .word 0x00737333  # and x6, x6, x7
    .word 0x0062e9b3  # or x19, x5, x6
    .word 0x010a5293  # srli x5, x20, 16
    .word 0x0142ca33  # xor x20, x5, x20
    .word 0x04088263  # beq x17, x0, 68
    .word 0x0099f933  # and x18, x19, x9
    .word 0x0129c2b3  # xor x5, x19, x18
    .word 0x0012d293  # srli x5, x5, 1
    .word 0x00391313  # slli x6, x18, 3
    .word 0x0062e933  # or x18, x5, x6
    .word 0x0129c9b3  # xor x19, x19, x18
    .word 0x0dc12303  # lw x6, 220(x2)
    .word 0x0069fab3  # and x21, x19, x6
    .word 0x0b312423  # sw x19, 168(x2)
    .word 0x012a42b3  # xor x5, x20, x18
    .word 0x0159c333  # xor x6, x19, x21
    .word 0x00235313  # srli x6, x6, 2
    .word 0x0062c2b3  # xor x5, x5, x6
    .word 0x002a9313  # slli x6, x21, 2
    .word 0x0062ca33  # xor x20, x5, x6
    .word 0x0080006f  # jal x0, 8
    .word 0x013a4a33  # xor x20, x20, x19
    .word 0x000a0b93  # addi x23, x20, 0
    .word 0x000c0913  # addi x18, x24, 0
    .word 0x08c12a03  # lw x20, 140(x2)
    .word 0x00100313  # addi x6, x0, 1
    .word 0x04b37863  # bgeu x6, x11, 80
    .word 0x01c95993  # srli x19, x18, 28
    .word 0x0015f293  # andi x5, x11, 1
    .word 0x02029063  # bne x5, x0, 32
    .word 0x0019d293  # srli x5, x19, 1
    .word 0x00399313  # slli x6, x19, 3
    .word 0x0062e2b3  # or x5, x5, x6
    .word 0x00f2f293  # andi x5, x5, 15
    .word 0x00255313  # srli x6, x10, 2
    .word 0x00137313  # andi x6, x6, 1
    .word 0x0062c9b3  # xor x19, x5, x6
    .word 0x01099293  # slli x5, x19, 16
    .word 0x06c12303  # lw x6, 108(x2)
    .word 0x0062c9b3  # xor x19, x5, x6
    .word 0x00499313  # slli x6, x19, 4
    .word 0x0069c9b3  # xor x19, x19, x6
    .word 0x07412623  # sw x20, 108(x2)
    .word 0x00899313  # slli x6, x19, 8
    .word 0x0069ca33  # xor x20, x19, x6
    .word 0x09412623  # sw x20, 140(x2)
    .word 0x01091993  # slli x19, x18, 16
    .word 0x0109d313  # srli x6, x19, 16
    .word 0x0069e9b3  # or x19, x19, x6
    .word 0x0099f2b3  # and x5, x19, x9
    .word 0x0049d313  # srli x6, x19, 4
    .word 0x0d012383  # lw x7, 208(x2)
    .word 0x00737333  # and x6, x6, x7
    .word 0x0062e2b3  # or x5, x5, x6
    .word 0x0089d313  # srli x6, x19, 8
    .word 0x0d412383  # lw x7, 212(x2)
    .word 0x00737333  # and x6, x6, x7
    .word 0x0062e2b3  # or x5, x5, x6
    .word 0x00c9d313  # srli x6, x19, 12
    .word 0x0d812383  # lw x7, 216(x2)
    .word 0x00737333  # and x6, x6, x7
    .word 0x0062e9b3  # or x19, x5, x6
    .word 0x010a5293  # srli x5, x20, 16
    .word 0x0142ca33  # xor x20, x5, x20
    .word 0x04088263  # beq x17, x0, 68
    .word 0x0099f933  # and x18, x19, x9
    .word 0x0129c2b3  # xor x5, x19, x18
    .word 0x0012d293  # srli x5, x5, 1
    .word 0x00391313  # slli x6, x18, 3
    .word 0x0062e933  # or x18, x5, x6
    .word 0x0129c9b3  # xor x19, x19, x18
    .word 0x0dc12303  # lw x6, 220(x2)
    .word 0x0069fab3  # and x21, x19, x6
    .word 0x0b312623  # sw x19, 172(x2)
    .word 0x012a42b3  # xor x5, x20, x18
    .word 0x0159c333  # xor x6, x19, x21
    .word 0x00235313  # srli x6, x6, 2
    .word 0x0062c2b3  # xor x5, x5, x6
    .word 0x002a9313  # slli x6, x21, 2
    .word 0x0062ca33  # xor x20, x5, x6
    .word 0x0080006f  # jal x0, 8
    .word 0x013a4a33  # xor x20, x20, x19
    .word 0x000a0c13  # addi x24, x20, 0
    .word 0x00040913  # addi x18, x8, 0
    .word 0x09012a03  # lw x20, 144(x2)
    .word 0x00100313  # addi x6, x0, 1
    .word 0x04b37863  # bgeu x6, x11, 80
    .word 0x01c95993  # srli x19, x18, 28
    .word 0x0015f293  # andi x5, x11, 1
    .word 0x02029063  # bne x5, x0, 32
    .word 0x0019d293  # srli x5, x19, 1
    .word 0x00399313  # slli x6, x19, 3
    .word 0x0062e2b3  # or x5, x5, x6
    .word 0x00f2f293  # andi x5, x5, 15
    .word 0x00355313  # srli x6, x10, 3
    .word 0x00137313  # andi x6, x6, 1
    .word 0x0062c9b3  # xor x19, x5, x6
    .word 0x01099293  # slli x5, x19, 16
    .word 0x07012303  # lw x6, 112(x2)
    .word 0x0062c9b3  # xor x19, x5, x6
    .word 0x00499313  # slli x6, x19, 4
    .word 0x0069c9b3  # xor x19, x19, x6
    .word 0x07412823  # sw x20, 112(x2)
    .word 0x00899313  # slli x6, x19, 8
    .word 0x0069ca33  # xor x20, x19, x6
    .word 0x09412823  # sw x20, 144(x2)
    .word 0x01091993  # slli x19, x18, 16
    .word 0x0109d313  # srli x6, x19, 16
    .word 0x0069e9b3  # or x19, x19, x6
    .word 0x0099f2b3  # and x5, x19, x9
    .word 0x0049d313  # srli x6, x19, 4
    .word 0x0d012383  # lw x7, 208(x2)
    .word 0x00737333  # and x6, x6, x7
    .word 0x0062e2b3  # or x5, x5, x6
    .word 0x0089d313  # srli x6, x19, 8
    .word 0x0d412383  # lw x7, 212(x2)
    .word 0x00737333  # and x6, x6, x7
    .word 0x0062e2b3  # or x5, x5, x6
    .word 0x00c9d313  # srli x6, x19, 12
    .word 0x0d812383  # lw x7, 216(x2)
    .word 0x00737333  # and x6, x6, x7
    .word 0x0062e9b3  # or x19, x5, x6
    .word 0x010a5293  # srli x5, x20, 16
    .word 0x0142ca33  # xor x20, x5, x20
    .word 0x04088263  # beq x17, x0, 68
    .word 0x0099f933  # and x18, x19, x9
    .word 0x0129c2b3  # xor x5, x19, x18
    .word 0x0012d293  # srli x5, x5, 1
    .word 0x00391313  # slli x6, x18, 3
    .word 0x0062e933  # or x18, x5, x6
    .word 0x0129c9b3  # xor x19, x19, x18
    .word 0x0dc12303  # lw x6, 220(x2)
    .word 0x0069fab3  # and x21, x19, x6
    .word 0x0b312823  # sw x19, 176(x2)
    .word 0x012a42b3  # xor x5, x20, x18
    .word 0x0159c333  # xor x6, x19, x21
    .word 0x00235313  # srli x6, x6, 2
    .word 0x0062c2b3  # xor x5, x5, x6
    .word 0x002a9313  # slli x6, x21, 2
    .word 0x0062ca33  # xor x20, x5, x6
    .word 0x0080006f  # jal x0, 8
    .word 0x013a4a33  # xor x20, x20, x19
    .word 0x000a0c93  # addi x25, x20, 0
    .word 0x000d8913  # addi x18, x27, 0
    .word 0x09412a03  # lw x20, 148(x2)
    .word 0x00100313  # addi x6, x0, 1
    .word 0x04b37863  # bgeu x6, x11, 80
    .word 0x01c95993  # srli x19, x18, 28
    .word 0x0015f293  # andi x5, x11, 1
    .word 0x02029063  # bne x5, x0, 32
    .word 0x0019d293  # srli x5, x19, 1
    .word 0x00399313  # slli x6, x19, 3
    .word 0x0062e2b3  # or x5, x5, x6
    .word 0x00f2f293  # andi x5, x5, 15
    .word 0x00455313  # srli x6, x10, 4
    .word 0x00137313  # andi x6, x6, 1
    .word 0x0062c9b3  # xor x19, x5, x6
    .word 0x01099293  # slli x5, x19, 16
    .word 0x07412303  # lw x6, 116(x2)
    .word 0x0062c9b3  # xor x19, x5, x6
    .word 0x00499313  # slli x6, x19, 4
    .word 0x0069c9b3  # xor x19, x19, x6
    .word 0x07412a23  # sw x20, 116(x2)
    .word 0x00899313  # slli x6, x19, 8
    .word 0x0069ca33  # xor x20, x19, x6
    .word 0x09412a23  # sw x20, 148(x2)
    .word 0x01091993  # slli x19, x18, 16
    .word 0x0109d313  # srli x6, x19, 16
    .word 0x0069e9b3  # or x19, x19, x6
    .word 0x0099f2b3  # and x5, x19, x9
    .word 0x0049d313  # srli x6, x19, 4
    .word 0x0d012383  # lw x7, 208(x2)
    .word 0x00737333  # and x6, x6, x7
    .word 0x0062e2b3  # or x5, x5, x6
    .word 0x0089d313  # srli x6, x19, 8
    .word 0x0d412383  # lw x7, 212(x2)
    .word 0x00737333  # and x6, x6, x7
    .word 0x0062e2b3  # or x5, x5, x6
    .word 0x00c9d313  # srli x6, x19, 12
    .word 0x0d812383  # lw x7, 216(x2)
    .word 0x00737333  # and x6, x6, x7
    .word 0x0062e9b3  # or x19, x5, x6
    .word 0x010a5293  # srli x5, x20, 16
    .word 0x0142ca33  # xor x20, x5, x20
    .word 0x04088263  # beq x17, x0, 68
    .word 0x0099f933  # and x18, x19, x9
    .word 0x0129c2b3  # xor x5, x19, x18
    .word 0x0012d293  # srli x5, x5, 1
    .word 0x00391313  # slli x6, x18, 3
    .word 0x0062e933  # or x18, x5, x6
    .word 0x0129c9b3  # xor x19, x19, x18
    .word 0x0dc12303  # lw x6, 220(x2)
    .word 0x0069fab3  # and x21, x19, x6
    .word 0x0b312a23  # sw x19, 180(x2)
    .word 0x012a42b3  # xor x5, x20, x18
    .word 0x0159c333  # xor x6, x19, x21
    .word 0x00235313  # srli x6, x6, 2
    .word 0x0062c2b3  # xor x5, x5, x6
    .word 0x002a9313  # slli x6, x21, 2
    .word 0x0062ca33  # xor x20, x5, x6
    .word 0x0080006f  # jal x0, 8
    .word 0x013a4a33  # xor x20, x20, x19
    .word 0x000a0d13  # addi x26, x20, 0
    .word 0x03012903  # lw x18, 48(x2)
    .word 0x09812a03  # lw x20, 152(x2)
    .word 0x00100313  # addi x6, x0, 1
    .word 0x04b37863  # bgeu x6, x11, 80
    .word 0x01c95993  # srli x19, x18, 28
    .word 0x0015f293  # andi x5, x11, 1
    .word 0x02029063  # bne x5, x0, 32
    .word 0x0019d293  # srli x5, x19, 1
    .word 0x00399313  # slli x6, x19, 3
    .word 0x0062e2b3  # or x5, x5, x6
    .word 0x00f2f293  # andi x5, x5, 15
    .word 0x00555313  # srli x6, x10, 5
    .word 0x00137313  # andi x6, x6, 1
    .word 0x0062c9b3  # xor x19, x5, x6
    .word 0x01099293  # slli x5, x19, 16
    .word 0x07812303  # lw x6, 120(x2)
    .word 0x0062c9b3  # xor x19, x5, x6
    .word 0x00499313  # slli x6, x19, 4
    .word 0x0069c9b3  # xor x19, x19, x6
    .word 0x07412c23  # sw x20, 120(x2)
    .word 0x00899313  # slli x6, x19, 8
    .word 0x0069ca33  # xor x20, x19, x6
    .word 0x09412c23  # sw x20, 152(x2)
    .word 0x01091993  # slli x19, x18, 16
    .word 0x0109d313  # srli x6, x19, 16
    .word 0x0069e9b3  # or x19, x19, x6
    .word 0x0099f2b3  # and x5, x19, x9
    .word 0x0049d313  # srli x6, x19, 4
    .word 0x0d012383  # lw x7, 208(x2)
    .word 0x00737333  # and x6, x6, x7
    .word 0x0062e2b3  # or x5, x5, x6
    .word 0x0089d313  # srli x6, x19, 8
    .word 0x0d412383  # lw x7, 212(x2)
    .word 0x00737333  # and x6, x6, x7
    .word 0x0062e2b3  # or x5, x5, x6
    .word 0x00c9d313  # srli x6, x19, 12
    .word 0x0d812383  # lw x7, 216(x2)
    .word 0x00737333  # and x6, x6, x7
    .word 0x0062e9b3  # or x19, x5, x6
    .word 0x010a5293  # srli x5, x20, 16
    .word 0x0142ca33  # xor x20, x5, x20
    .word 0x04088263  # beq x17, x0, 68
    .word 0x0099f933  # and x18, x19, x9
    .word 0x0129c2b3  # xor x5, x19, x18
    .word 0x0012d293  # srli x5, x5, 1
    .word 0x00391313  # slli x6, x18, 3
    .word 0x0062e933  # or x18, x5, x6
    .word 0x0129c9b3  # xor x19, x19, x18
    .word 0x0dc12303  # lw x6, 220(x2)
    .word 0x0069fab3  # and x21, x19, x6
    .word 0x0b312c23  # sw x19, 184(x2)
    .word 0x012a42b3  # xor x5, x20, x18
    .word 0x0159c333  # xor x6, x19, x21
    .word 0x00235313  # srli x6, x6, 2
    .word 0x0062c2b3  # xor x5, x5, x6
    .word 0x002a9313  # slli x6, x21, 2
    .word 0x0062ca33  # xor x20, x5, x6
    .word 0x0080006f  # jal x0, 8
    .word 0x013a4a33  # xor x20, x20, x19
    .word 0x000a0d93  # addi x27, x20, 0
    .word 0x00060913  # addi x18, x12, 0
    .word 0x09c12a03  # lw x20, 156(x2)
    .word 0x00100313  # addi x6, x0, 1
    .word 0x04b37863  # bgeu x6, x11, 80
    .word 0x01c95993  # srli x19, x18, 28
    .word 0x0015f293  # andi x5, x11, 1
    .word 0x02029063  # bne x5, x0, 32
    .word 0x0019d293  # srli x5, x19, 1
    .word 0x00399313  # slli x6, x19, 3
    .word 0x0062e2b3  # or x5, x5, x6
    .word 0x00f2f293  # andi x5, x5, 15
    .word 0x00655313  # srli x6, x10, 6
    .word 0x00137313  # andi x6, x6, 1
    .word 0x0062c9b3  # xor x19, x5, x6
    .word 0x01099293  # slli x5, x19, 16
    .word 0x07c12303  # lw x6, 124(x2)
    .word 0x0062c9b3  # xor x19, x5, x6
    .word 0x00499313  # slli x6, x19, 4
    .word 0x0069c9b3  # xor x19, x19, x6
    .word 0x07412e23  # sw x20, 124(x2)
    .word 0x00899313  # slli x6, x19, 8
    .word 0x0069ca33  # xor x20, x19, x6
    .word 0x09412e23  # sw x20, 156(x2)
    .word 0x01091993  # slli x19, x18, 16
    .word 0x0109d313  # srli x6, x19, 16
    .word 0x0069e9b3  # or x19, x19, x6
    .word 0x0099f2b3  # and x5, x19, x9
    .word 0x0049d313  # srli x6, x19, 4
    .word 0x0d012383  # lw x7, 208(x2)
    .word 0x00737333  # and x6, x6, x7
    .word 0x0062e2b3  # or x5, x5, x6
    .word 0x0089d313  # srli x6, x19, 8
    .word 0x0d412383  # lw x7, 212(x2)
    .word 0x00737333  # and x6, x6, x7
    .word 0x0062e2b3  # or x5, x5, x6
    .word 0x00c9d313  # srli x6, x19, 12
    .word 0x0d812383  # lw x7, 216(x2)
    .word 0x00737333  # and x6, x6, x7
    .word 0x0062e9b3  # or x19, x5, x6
    .word 0x010a5293  # srli x5, x20, 16
    .word 0x0142ca33  # xor x20, x5, x20
    .word 0x04088263  # beq x17, x0, 68
    .word 0x0099f933  # and x18, x19, x9
    .word 0x0129c2b3  # xor x5, x19, x18
    .word 0x0012d293  # srli x5, x5, 1
    .word 0x00391313  # slli x6, x18, 3
    .word 0x0062e933  # or x18, x5, x6
    .word 0x0129c9b3  # xor x19, x19, x18
    .word 0x0dc12303  # lw x6, 220(x2)
    .word 0x0069fab3  # and x21, x19, x6
    .word 0x0b312e23  # sw x19, 188(x2)
    .word 0x012a42b3  # xor x5, x20, x18
    .word 0x0159c333  # xor x6, x19, x21
    .word 0x00235313  # srli x6, x6, 2
    .word 0x0062c2b3  # xor x5, x5, x6
    .word 0x002a9313  # slli x6, x21, 2
    .word 0x0062ca33  # xor x20, x5, x6
    .word 0x0080006f  # jal x0, 8
    .word 0x013a4a33  # xor x20, x20, x19
    .word 0x000a0413  # addi x8, x20, 0
    .word 0x00078913  # addi x18, x15, 0
    .word 0x0a012a03  # lw x20, 160(x2)
    .word 0x00100313  # addi x6, x0, 1
    .word 0x04b37863  # bgeu x6, x11, 80
    .word 0x01c95993  # srli x19, x18, 28
    .word 0x0015f293  # andi x5, x11, 1
    .word 0x02029063  # bne x5, x0, 32
    .word 0x0019d293  # srli x5, x19, 1
    .word 0x00399313  # slli x6, x19, 3
    .word 0x0062e2b3  # or x5, x5, x6
    .word 0x00f2f293  # andi x5, x5, 15
    .word 0x00755313  # srli x6, x10, 7
    .word 0x00137313  # andi x6, x6, 1
    .word 0x0062c9b3  # xor x19, x5, x6
    .word 0x01099293  # slli x5, x19, 16
    .word 0x08012303  # lw x6, 128(x2)
    .word 0x0062c9b3  # xor x19, x5, x6
    .word 0x00499313  # slli x6, x19, 4
    .word 0x0069c9b3  # xor x19, x19, x6
    .word 0x09412023  # sw x20, 128(x2)
    .word 0x00899313  # slli x6, x19, 8
    .word 0x0069ca33  # xor x20, x19, x6
    .word 0x0b412023  # sw x20, 160(x2)
    .word 0x01091993  # slli x19, x18, 16
    .word 0x0109d313  # srli x6, x19, 16
    .word 0x0069e9b3  # or x19, x19, x6
    .word 0x0099f2b3  # and x5, x19, x9
    .word 0x0049d313  # srli x6, x19, 4
    .word 0x0d012383  # lw x7, 208(x2)
    .word 0x00737333  # and x6, x6, x7
    .word 0x0062e2b3  # or x5, x5, x6
    .word 0x0089d313  # srli x6, x19, 8
    .word 0x0d412383  # lw x7, 212(x2)
    .word 0x00737333  # and x6, x6, x7
    .word 0x0062e2b3  # or x5, x5, x6
    .word 0x00c9d313  # srli x6, x19, 12
    .word 0x0d812383  # lw x7, 216(x2)
    .word 0x00737333  # and x6, x6, x7
    .word 0x0062e9b3  # or x19, x5, x6
    .word 0x010a5293  # srli x5, x20, 16
    .word 0x0142ca33  # xor x20, x5, x20
    .word 0x04088263  # beq x17, x0, 68
    .word 0x0099f933  # and x18, x19, x9
    .word 0x0129c2b3  # xor x5, x19, x18
    .word 0x0012d293  # srli x5, x5, 1
    .word 0x00391313  # slli x6, x18, 3
    .word 0x0062e933  # or x18, x5, x6
    .word 0x0129c9b3  # xor x19, x19, x18
    .word 0x0dc12303  # lw x6, 220(x2)
    .word 0x0069fab3  # and x21, x19, x6
    .word 0x0d312023  # sw x19, 192(x2)
    .word 0x012a42b3  # xor x5, x20, x18
    .word 0x0159c333  # xor x6, x19, x21
    .word 0x00235313  # srli x6, x6, 2
    .word 0x0062c2b3  # xor x5, x5, x6
    .word 0x002a9313  # slli x6, x21, 2
    .word 0x0062ca33  # xor x20, x5, x6
    .word 0x0080006f  # jal x0, 8
    .word 0x013a4a33  # xor x20, x20, x19
    .word 0x000a0993  # addi x19, x20, 0
    .word 0x04088e63  # beq x17, x0, 92
    .word 0x0c012303  # lw x6, 192(x2)
    .word 0x006b4b33  # xor x22, x22, x6
    .word 0x0a412303  # lw x6, 164(x2)
    .word 0x006bc2b3  # xor x5, x23, x6
    .word 0x0c012303  # lw x6, 192(x2)
    .word 0x0062cbb3  # xor x23, x5, x6
    .word 0x0a812303  # lw x6, 168(x2)
    .word 0x006c4c33  # xor x24, x24, x6
    .word 0x0ac12303  # lw x6, 172(x2)
    .word 0x006cc2b3  # xor x5, x25, x6
    .word 0x0c012303  # lw x6, 192(x2)
    .word 0x0062ccb3  # xor x25, x5, x6
    .word 0x0b012303  # lw x6, 176(x2)
    .word 0x006d42b3  # xor x5, x26, x6
    .word 0x0c012303  # lw x6, 192(x2)
    .word 0x0062cd33  # xor x26, x5, x6
    .word 0x0b412303  # lw x6, 180(x2)
    .word 0x006dcdb3  # xor x27, x27, x6
    .word 0x0b812303  # lw x6, 184(x2)
    .word 0x00644433  # xor x8, x8, x6
    .word 0x0bc12303  # lw x6, 188(x2)
    .word 0x006a49b3  # xor x19, x20, x6
    .word 0x0015f293  # andi x5, x11, 1
    .word 0x00029463  # bne x5, x0, 8
    .word 0x00151513  # slli x10, x10, 1
    .word 0xff258293  # addi x5, x11, -14
    .word 0xd0029663  # bne x5, x0, -2804
    .word 0x001b5293  # srli x5, x22, 1
    .word 0x0172c2b3  # xor x5, x5, x23
    .word 0x0c412303  # lw x6, 196(x2)
    .word 0x0062fa33  # and x20, x5, x6
    .word 0x014bcbb3  # xor x23, x23, x20
    .word 0x001a1313  # slli x6, x20, 1
    .word 0x006b4a33  # xor x20, x22, x6
    .word 0x001c5293  # srli x5, x24, 1
    .word 0x0192c2b3  # xor x5, x5, x25
    .word 0x0c412303  # lw x6, 196(x2)
    .word 0x0062f933  # and x18, x5, x6
    .word 0x012cccb3  # xor x25, x25, x18
    .word 0x00191313  # slli x6, x18, 1
    .word 0x006c4933  # xor x18, x24, x6
    .word 0x001d5293  # srli x5, x26, 1
    .word 0x01b2c2b3  # xor x5, x5, x27
    .word 0x0c412303  # lw x6, 196(x2)
    .word 0x0062fab3  # and x21, x5, x6
    .word 0x015dcdb3  # xor x27, x27, x21
    .word 0x001a9313  # slli x6, x21, 1
    .word 0x006d4ab3  # xor x21, x26, x6
    .word 0x00145293  # srli x5, x8, 1
    .word 0x0132c2b3  # xor x5, x5, x19
    .word 0x0c412303  # lw x6, 196(x2)
    .word 0x0062fc33  # and x24, x5, x6
    .word 0x0189c9b3  # xor x19, x19, x24
    .word 0x001c1313  # slli x6, x24, 1
    .word 0x00644433  # xor x8, x8, x6
    .word 0x002a5293  # srli x5, x20, 2
    .word 0x0122c2b3  # xor x5, x5, x18
    .word 0x0c812303  # lw x6, 200(x2)
    .word 0x0062fd33  # and x26, x5, x6
    .word 0x01a94c33  # xor x24, x18, x26
    .word 0x002d1313  # slli x6, x26, 2
    .word 0x006a4a33  # xor x20, x20, x6
    .word 0x002bd293  # srli x5, x23, 2
    .word 0x0192c2b3  # xor x5, x5, x25
    .word 0x0c812303  # lw x6, 200(x2)
    .word 0x0062f933  # and x18, x5, x6
    .word 0x012cccb3  # xor x25, x25, x18
    .word 0x00291313  # slli x6, x18, 2
    .word 0x006bc933  # xor x18, x23, x6
    .word 0x002ad293  # srli x5, x21, 2
    .word 0x0082c2b3  # xor x5, x5, x8
    .word 0x0c812303  # lw x6, 200(x2)
    .word 0x0062fbb3  # and x23, x5, x6
    .word 0x01744433  # xor x8, x8, x23
    .word 0x002b9313  # slli x6, x23, 2
    .word 0x006acab3  # xor x21, x21, x6
    .word 0x002dd293  # srli x5, x27, 2
    .word 0x0132c2b3  # xor x5, x5, x19
    .word 0x0c812303  # lw x6, 200(x2)
    .word 0x0062fbb3  # and x23, x5, x6
    .word 0x0179c9b3  # xor x19, x19, x23
    .word 0x002b9313  # slli x6, x23, 2
    .word 0x006dcdb3  # xor x27, x27, x6
    .word 0x004a5293  # srli x5, x20, 4
    .word 0x0152c2b3  # xor x5, x5, x21
    .word 0x0cc12303  # lw x6, 204(x2)
    .word 0x0062fbb3  # and x23, x5, x6
    .word 0x017acd33  # xor x26, x21, x23
    .word 0x004b9313  # slli x6, x23, 4
    .word 0x006a4a33  # xor x20, x20, x6
    .word 0x00495293  # srli x5, x18, 4
    .word 0x01b2c2b3  # xor x5, x5, x27
    .word 0x0cc12303  # lw x6, 204(x2)
    .word 0x0062fab3  # and x21, x5, x6
    .word 0x015dcdb3  # xor x27, x27, x21
    .word 0x004a9313  # slli x6, x21, 4
    .word 0x00694933  # xor x18, x18, x6
    .word 0x004c5293  # srli x5, x24, 4
    .word 0x0082c2b3  # xor x5, x5, x8
    .word 0x0cc12303  # lw x6, 204(x2)
    .word 0x0062fab3  # and x21, x5, x6
    .word 0x01544433  # xor x8, x8, x21
    .word 0x004a9313  # slli x6, x21, 4
    .word 0x006c4ab3  # xor x21, x24, x6
    .word 0x004cd293  # srli x5, x25, 4
    .word 0x0132c2b3  # xor x5, x5, x19
    .word 0x0cc12303  # lw x6, 204(x2)
    .word 0x0062fbb3  # and x23, x5, x6
    .word 0x0179c9b3  # xor x19, x19, x23
    .word 0x004b9313  # slli x6, x23, 4
    .word 0x006cccb3  # xor x25, x25, x6
    .word 0x03410023  # sb x20, 32(x2)
    .word 0x008a5293  # srli x5, x20, 8
    .word 0x02510423  # sb x5, 40(x2)
    .word 0x00090a13  # addi x20, x18, 0
    .word 0x034100a3  # sb x20, 33(x2)
    .word 0x008a5293  # srli x5, x20, 8
    .word 0x025104a3  # sb x5, 41(x2)
    .word 0x000a8a13  # addi x20, x21, 0
    .word 0x03410123  # sb x20, 34(x2)
    .word 0x008a5293  # srli x5, x20, 8
    .word 0x02510523  # sb x5, 42(x2)
    .word 0x000c8a13  # addi x20, x25, 0
    .word 0x034101a3  # sb x20, 35(x2)
    .word 0x008a5293  # srli x5, x20, 8
    .word 0x025105a3  # sb x5, 43(x2)
    .word 0x000d0a13  # addi x20, x26, 0
    .word 0x03410223  # sb x20, 36(x2)
    .word 0x008a5293  # srli x5, x20, 8
    .word 0x02510623  # sb x5, 44(x2)
    .word 0x000d8a13  # addi x20, x27, 0
    .word 0x034102a3  # sb x20, 37(x2)
    .word 0x008a5293  # srli x5, x20, 8
    .word 0x025106a3  # sb x5, 45(x2)
    .word 0x00040a13  # addi x20, x8, 0
    .word 0x03410323  # sb x20, 38(x2)
    .word 0x008a5293  # srli x5, x20, 8
    .word 0x02510723  # sb x5, 46(x2)
    .word 0x00098a13  # addi x20, x19, 0
    .word 0x034103a3  # sb x20, 39(x2)
    .word 0x008a5293  # srli x5, x20, 8
    .word 0x025107a3  # sb x5, 47(x2)
    # the result
    .word 0x00000513  # addi x10, x0, 0
    # parameter 1: the array, back
    .word 0x02010293  # addi x5, x2, 32
    .word 0x12c12303  # lw x6, 300(x2)
    .word 0x01028393  # addi x7, x5, 16
    .word 0x09000f6f  # jal x30, 144
    # above the frame
    .word 0x0f010293  # addi x5, x2, 240
    # the caller's registers
    .word 0x0002a403  # lw x8, 0(x5)
    .cfi_restore 8
    .word 0x0042a483  # lw x9, 4(x5)
    .cfi_restore 9
    .word 0x0082a903  # lw x18, 8(x5)
    .cfi_restore 18
    .word 0x00c2a983  # lw x19, 12(x5)
    .cfi_restore 19
    .word 0x0102aa03  # lw x20, 16(x5)
    .cfi_restore 20
    .word 0x0142aa83  # lw x21, 20(x5)
    .cfi_restore 21
    .word 0x0182ab03  # lw x22, 24(x5)
    .cfi_restore 22
    .word 0x01c2ab83  # lw x23, 28(x5)
    .cfi_restore 23
    .word 0x0202ac03  # lw x24, 32(x5)
    .cfi_restore 24
    .word 0x0242ac83  # lw x25, 36(x5)
    .cfi_restore 25
    .word 0x0282ad03  # lw x26, 40(x5)
    .cfi_restore 26
    .word 0x02c2ad83  # lw x27, 44(x5)
    .cfi_restore 27
    # the caller's x2
    .word 0x04028293  # addi x5, x5, 64
    .cfi_def_cfa 5, 0
    # all the room, wiped upward
    .word 0x00012023  # sw x0, 0(x2)
    .word 0x00012223  # sw x0, 4(x2)
    .word 0x00012423  # sw x0, 8(x2)
    .word 0x00012623  # sw x0, 12(x2)
    .word 0x01010113  # addi x2, x2, 16
    .word 0xfe5116e3  # bne x2, x5, -20
    .cfi_def_cfa 2, 0
    # temporaries, wiped
    .word 0x00000293  # addi x5, x0, 0
    .word 0x00000313  # addi x6, x0, 0
    .word 0x00000393  # addi x7, x0, 0
    .word 0x00000593  # addi x11, x0, 0
    .word 0x00000613  # addi x12, x0, 0
    .word 0x00000693  # addi x13, x0, 0
    .word 0x00000713  # addi x14, x0, 0
    .word 0x00000793  # addi x15, x0, 0
    .word 0x00000813  # addi x16, x0, 0
    .word 0x00000893  # addi x17, x0, 0
    .word 0x00000e13  # addi x28, x0, 0
    .word 0x00000e93  # addi x29, x0, 0
    .word 0x00000f13  # addi x30, x0, 0
    .word 0x00000f93  # addi x31, x0, 0
    # back
    .word 0x00008067  # jalr x0, 0(x1)
    # from x5 to x6 up to x7, and back
    .cfi_def_cfa 2, 304
    .cfi_offset 8, -64
    .cfi_offset 9, -60
    .cfi_offset 18, -56
    .cfi_offset 19, -52
    .cfi_offset 20, -48
    .cfi_offset 21, -44
    .cfi_offset 22, -40
    .cfi_offset 23, -36
    .cfi_offset 24, -32
    .cfi_offset 25, -28
    .cfi_offset 26, -24
    .cfi_offset 27, -20
    .word 0x0062ee33  # or x28, x5, x6
    .word 0x003e7e13  # andi x28, x28, 3
    .word 0x000e0e63  # beq x28, x0, 28
    .word 0x0002ce03  # lbu x28, 0(x5)
    .word 0x01c30023  # sb x28, 0(x6)
    .word 0x00128293  # addi x5, x5, 1
    .word 0x00130313  # addi x6, x6, 1
    .word 0xfe7298e3  # bne x5, x7, -16
    .word 0x0300006f  # jal x0, 48
    .word 0x0002ae03  # lw x28, 0(x5)
    .word 0x01c32023  # sw x28, 0(x6)
    .word 0x0042ae03  # lw x28, 4(x5)
    .word 0x01c32223  # sw x28, 4(x6)
    .word 0x0082ae03  # lw x28, 8(x5)
    .word 0x01c32423  # sw x28, 8(x6)
    .word 0x00c2ae03  # lw x28, 12(x5)
    .word 0x01c32623  # sw x28, 12(x6)
    .word 0x01028293  # addi x5, x5, 16
    .word 0x01030313  # addi x6, x6, 16
    .word 0xfc729ce3  # bne x5, x7, -40
    .word 0x000f0067  # jalr x0, 0(x30)
    .cfi_endproc
    .size aes256_encrypt, . - aes256_encrypt
    .option pop
