# aes256_decrypt: made by factc 1.0.0 function; 1629 words, 736 bytes of stack, profile 1
    .option push
    .option norvc
    .option norelax
    .cfi_sections .debug_frame
    .section .text.aes256_decrypt, "ax", @progbits
    .p2align 2
    .globl aes256_decrypt
    .type aes256_decrypt, @function
aes256_decrypt:
    .cfi_startproc
    # room above the frame
    .word 0xfc010113  # addi x2, x2, -64
    .cfi_def_cfa_offset 64
    # the caller's registers
    .word 0x00812023  # sw x8, 0(x2)
    .cfi_offset 8, -64
    .word 0x00912223  # sw x9, 4(x2)
    .cfi_offset 9, -60
    .word 0x01212423  # sw x18, 8(x2)
    .cfi_offset 18, -56
    .word 0x01312623  # sw x19, 12(x2)
    .cfi_offset 19, -52
    .word 0x01412823  # sw x20, 16(x2)
    .cfi_offset 20, -48
    .word 0x01512a23  # sw x21, 20(x2)
    .cfi_offset 21, -44
    .word 0x01612c23  # sw x22, 24(x2)
    .cfi_offset 22, -40
    .word 0x01712e23  # sw x23, 28(x2)
    .cfi_offset 23, -36
    .word 0x03812023  # sw x24, 32(x2)
    .cfi_offset 24, -32
    .word 0x03912223  # sw x25, 36(x2)
    .cfi_offset 25, -28
    .word 0x03a12423  # sw x26, 40(x2)
    .cfi_offset 26, -24
    .word 0x03b12623  # sw x27, 44(x2)
    .cfi_offset 27, -20
    # arguments that are needed behind the body
    .word 0x02a12c23  # sw x10, 56(x2)
    .word 0x02b12e23  # sw x11, 60(x2)
    # the frame's base
    .word 0xd6010113  # addi x2, x2, -672
    .cfi_def_cfa 2, 736
    # parameter 0: an array
    .word 0x00050293  # addi x5, x10, 0
    .word 0x00010313  # addi x6, x2, 0
    .word 0x02028393  # addi x7, x5, 32
    .word 0x0d501f6f  # jal x30, 6356
    # parameter 1: an array
    .word 0x00058293  # addi x5, x11, 0
    .word 0x02010313  # addi x6, x2, 32
    .word 0x01028393  # addi x7, x5, 16
    .word 0x0c501f6f  # jal x30, 6340
    # the body
    .word 0x555552b7  # lui x5, 0x55555
    .word 0x55528293  # addi x5, x5, 1365
    .word 0x26512823  # sw x5, 624(x2)
    .word 0x333332b7  # lui x5, 0x33333
    .word 0x33328293  # addi x5, x5, 819
    .word 0x26512a23  # sw x5, 628(x2)
    .word 0x0f0f12b7  # lui x5, 0x0f0f1
    .word 0xf0f28293  # addi x5, x5, -241
    .word 0x26512c23  # sw x5, 632(x2)
    .word 0x00001d37  # lui x26, 0x00001
    .word 0x111d0d13  # addi x26, x26, 273
    .word 0x00002db7  # lui x27, 0x00002
    .word 0x222d8d93  # addi x27, x27, 546
    .word 0x00004437  # lui x8, 0x00004
    .word 0x44440413  # addi x8, x8, 1092
    .word 0x000092b7  # lui x5, 0x00009
    .word 0x88828293  # addi x5, x5, -1912
    .word 0x26512e23  # sw x5, 636(x2)
    .word 0x000102b7  # lui x5, 0x00010
    .word 0xfff28293  # addi x5, x5, -1
    .word 0x28512023  # sw x5, 640(x2)
    .word 0x000032b7  # lui x5, 0x00003
    .word 0x33328293  # addi x5, x5, 819
    .word 0x28512223  # sw x5, 644(x2)
    .word 0x03000313  # addi x6, x0, 48
    .word 0x00230333  # add x6, x6, x2
    .word 0x1e000393  # addi x7, x0, 480
    .word 0x006383b3  # add x7, x7, x6
    .word 0x406382b3  # sub x5, x7, x6
    .word 0x00029463  # bne x5, x0, 8
    .word 0x0100006f  # jal x0, 16
    .word 0x00032023  # sw x0, 0(x6)
    .word 0x00430313  # addi x6, x6, 4
    .word 0xfedff06f  # jal x0, -20
    .word 0x00100293  # addi x5, x0, 1
    .word 0x20512823  # sw x5, 528(x2)
    .word 0x02014283  # lbu x5, 32(x2)
    .word 0x02814303  # lbu x6, 40(x2)
    .word 0x00831313  # slli x6, x6, 8
    .word 0x0062e633  # or x12, x5, x6
    .word 0x00014283  # lbu x5, 0(x2)
    .word 0x01029293  # slli x5, x5, 16
    .word 0x00814303  # lbu x6, 8(x2)
    .word 0x01831313  # slli x6, x6, 24
    .word 0x0062e6b3  # or x13, x5, x6
    .word 0x00d66733  # or x14, x12, x13
    .word 0x01014283  # lbu x5, 16(x2)
    .word 0x01814303  # lbu x6, 24(x2)
    .word 0x00831313  # slli x6, x6, 8
    .word 0x0062e9b3  # or x19, x5, x6
    .word 0x02114283  # lbu x5, 33(x2)
    .word 0x02914303  # lbu x6, 41(x2)
    .word 0x00831313  # slli x6, x6, 8
    .word 0x0062e633  # or x12, x5, x6
    .word 0x00114283  # lbu x5, 1(x2)
    .word 0x01029293  # slli x5, x5, 16
    .word 0x00914303  # lbu x6, 9(x2)
    .word 0x01831313  # slli x6, x6, 24
    .word 0x0062e6b3  # or x13, x5, x6
    .word 0x00d667b3  # or x15, x12, x13
    .word 0x01114283  # lbu x5, 17(x2)
    .word 0x01914303  # lbu x6, 25(x2)
    .word 0x00831313  # slli x6, x6, 8
    .word 0x0062ea33  # or x20, x5, x6
    .word 0x02214283  # lbu x5, 34(x2)
    .word 0x02a14303  # lbu x6, 42(x2)
    .word 0x00831313  # slli x6, x6, 8
    .word 0x0062e633  # or x12, x5, x6
    .word 0x00214283  # lbu x5, 2(x2)
    .word 0x01029293  # slli x5, x5, 16
    .word 0x00a14303  # lbu x6, 10(x2)
    .word 0x01831313  # slli x6, x6, 24
    .word 0x0062e6b3  # or x13, x5, x6
    .word 0x00d66933  # or x18, x12, x13
    .word 0x01214283  # lbu x5, 18(x2)
    .word 0x01a14303  # lbu x6, 26(x2)
    .word 0x00831313  # slli x6, x6, 8
    .word 0x0062eab3  # or x21, x5, x6
    .word 0x02314283  # lbu x5, 35(x2)
    .word 0x02b14303  # lbu x6, 43(x2)
    .word 0x00831313  # slli x6, x6, 8
    .word 0x0062e633  # or x12, x5, x6
    .word 0x00314283  # lbu x5, 3(x2)
    .word 0x01029293  # slli x5, x5, 16
    .word 0x00b14303  # lbu x6, 11(x2)
    .word 0x01831313  # slli x6, x6, 24
    .word 0x0062e6b3  # or x13, x5, x6
    .word 0x00d668b3  # or x17, x12, x13
    .word 0x01314283  # lbu x5, 19(x2)
    .word 0x01b14303  # lbu x6, 27(x2)
    .word 0x00831313  # slli x6, x6, 8
    .word 0x0062eb33  # or x22, x5, x6
    .word 0x02414283  # lbu x5, 36(x2)
    .word 0x02c14303  # lbu x6, 44(x2)
    .word 0x00831313  # slli x6, x6, 8
    .word 0x0062e633  # or x12, x5, x6
    .word 0x00414283  # lbu x5, 4(x2)
    .word 0x01029293  # slli x5, x5, 16
    .word 0x00c14303  # lbu x6, 12(x2)
    .word 0x01831313  # slli x6, x6, 24
    .word 0x0062e6b3  # or x13, x5, x6
    .word 0x00d662b3  # or x5, x12, x13
    .word 0x26512023  # sw x5, 608(x2)
    .word 0x01414283  # lbu x5, 20(x2)
    .word 0x01c14303  # lbu x6, 28(x2)
    .word 0x00831313  # slli x6, x6, 8
    .word 0x0062ebb3  # or x23, x5, x6
    .word 0x02514283  # lbu x5, 37(x2)
    .word 0x02d14303  # lbu x6, 45(x2)
    .word 0x00831313  # slli x6, x6, 8
    .word 0x0062e633  # or x12, x5, x6
    .word 0x00514283  # lbu x5, 5(x2)
    .word 0x01029293  # slli x5, x5, 16
    .word 0x00d14303  # lbu x6, 13(x2)
    .word 0x01831313  # slli x6, x6, 24
    .word 0x0062e6b3  # or x13, x5, x6
    .word 0x00d662b3  # or x5, x12, x13
    .word 0x26512223  # sw x5, 612(x2)
    .word 0x01514283  # lbu x5, 21(x2)
    .word 0x01d14303  # lbu x6, 29(x2)
    .word 0x00831313  # slli x6, x6, 8
    .word 0x0062ec33  # or x24, x5, x6
    .word 0x02614283  # lbu x5, 38(x2)
    .word 0x02e14303  # lbu x6, 46(x2)
    .word 0x00831313  # slli x6, x6, 8
    .word 0x0062e633  # or x12, x5, x6
    .word 0x00614283  # lbu x5, 6(x2)
    .word 0x01029293  # slli x5, x5, 16
    .word 0x00e14303  # lbu x6, 14(x2)
    .word 0x01831313  # slli x6, x6, 24
    .word 0x0062e6b3  # or x13, x5, x6
    .word 0x00d662b3  # or x5, x12, x13
    .word 0x26512423  # sw x5, 616(x2)
    .word 0x01614283  # lbu x5, 22(x2)
    .word 0x01e14303  # lbu x6, 30(x2)
    .word 0x00831313  # slli x6, x6, 8
    .word 0x0062ecb3  # or x25, x5, x6
    .word 0x02714283  # lbu x5, 39(x2)
    .word 0x02f14303  # lbu x6, 47(x2)
    .word 0x00831313  # slli x6, x6, 8
    .word 0x0062e633  # or x12, x5, x6
    .word 0x00714283  # lbu x5, 7(x2)
    .word 0x01029293  # slli x5, x5, 16
    .word 0x00f14303  # lbu x6, 15(x2)
    .word 0x01831313  # slli x6, x6, 24
    .word 0x0062e6b3  # or x13, x5, x6
    .word 0x00d662b3  # or x5, x12, x13
    .word 0x26512623  # sw x5, 620(x2)
    .word 0x01714283  # lbu x5, 23(x2)
    .word 0x01f14303  # lbu x6, 31(x2)
    .word 0x00831313  # slli x6, x6, 8
    .word 0x0062e833  # or x16, x5, x6
    .word 0x00175293  # srli x5, x14, 1
    .word 0x00f2c2b3  # xor x5, x5, x15
    .word 0x27012303  # lw x6, 624(x2)
    .word 0x0062f633  # and x12, x5, x6
    .word 0x00c7c7b3  # xor x15, x15, x12
    .word 0x00161313  # slli x6, x12, 1
    .word 0x00674633  # xor x12, x14, x6
    .word 0x00195293  # srli x5, x18, 1
    .word 0x0112c2b3  # xor x5, x5, x17
    .word 0x27012303  # lw x6, 624(x2)
    .word 0x0062f6b3  # and x13, x5, x6
    .word 0x00d8c8b3  # xor x17, x17, x13
    .word 0x00169313  # slli x6, x13, 1
    .word 0x006946b3  # xor x13, x18, x6
    .word 0x26012283  # lw x5, 608(x2)
    .word 0x0012d293  # srli x5, x5, 1
    .word 0x26412303  # lw x6, 612(x2)
    .word 0x0062c2b3  # xor x5, x5, x6
    .word 0x27012303  # lw x6, 624(x2)
    .word 0x0062f933  # and x18, x5, x6
    .word 0x26412283  # lw x5, 612(x2)
    .word 0x0122c2b3  # xor x5, x5, x18
    .word 0x26512223  # sw x5, 612(x2)
    .word 0x26012283  # lw x5, 608(x2)
    .word 0x00191313  # slli x6, x18, 1
    .word 0x0062c733  # xor x14, x5, x6
    .word 0x26812283  # lw x5, 616(x2)
    .word 0x0012d293  # srli x5, x5, 1
    .word 0x26c12303  # lw x6, 620(x2)
    .word 0x0062c2b3  # xor x5, x5, x6
    .word 0x27012303  # lw x6, 624(x2)
    .word 0x0062f933  # and x18, x5, x6
    .word 0x26c12283  # lw x5, 620(x2)
    .word 0x0122c2b3  # xor x5, x5, x18
    .word 0x26512623  # sw x5, 620(x2)
    .word 0x26812283  # lw x5, 616(x2)
    .word 0x00191313  # slli x6, x18, 1
    .word 0x0062c2b3  # xor x5, x5, x6
    .word 0x22512423  # sw x5, 552(x2)
    .word 0x00265293  # srli x5, x12, 2
    .word 0x00d2c2b3  # xor x5, x5, x13
    .word 0x27412303  # lw x6, 628(x2)
    .word 0x0062f2b3  # and x5, x5, x6
    .word 0x22512823  # sw x5, 560(x2)
    .word 0x23012303  # lw x6, 560(x2)
    .word 0x0066c933  # xor x18, x13, x6
    .word 0x23012303  # lw x6, 560(x2)
    .word 0x00231313  # slli x6, x6, 2
    .word 0x00664633  # xor x12, x12, x6
    .word 0x0027d293  # srli x5, x15, 2
    .word 0x0112c2b3  # xor x5, x5, x17
    .word 0x27412303  # lw x6, 628(x2)
    .word 0x0062f6b3  # and x13, x5, x6
    .word 0x00d8c8b3  # xor x17, x17, x13
    .word 0x00269313  # slli x6, x13, 2
    .word 0x0067c6b3  # xor x13, x15, x6
    .word 0x00275293  # srli x5, x14, 2
    .word 0x22812303  # lw x6, 552(x2)
    .word 0x0062c2b3  # xor x5, x5, x6
    .word 0x27412303  # lw x6, 628(x2)
    .word 0x0062f7b3  # and x15, x5, x6
    .word 0x22812283  # lw x5, 552(x2)
    .word 0x00f2c2b3  # xor x5, x5, x15
    .word 0x26512423  # sw x5, 616(x2)
    .word 0x00279313  # slli x6, x15, 2
    .word 0x006747b3  # xor x15, x14, x6
    .word 0x26412283  # lw x5, 612(x2)
    .word 0x0022d293  # srli x5, x5, 2
    .word 0x26c12303  # lw x6, 620(x2)
    .word 0x0062c2b3  # xor x5, x5, x6
    .word 0x27412303  # lw x6, 628(x2)
    .word 0x0062f733  # and x14, x5, x6
    .word 0x26c12283  # lw x5, 620(x2)
    .word 0x00e2c2b3  # xor x5, x5, x14
    .word 0x26512623  # sw x5, 620(x2)
    .word 0x26412283  # lw x5, 612(x2)
    .word 0x00271313  # slli x6, x14, 2
    .word 0x0062c733  # xor x14, x5, x6
    .word 0x00465293  # srli x5, x12, 4
    .word 0x00f2c2b3  # xor x5, x5, x15
    .word 0x27812303  # lw x6, 632(x2)
    .word 0x0062f2b3  # and x5, x5, x6
    .word 0x22512423  # sw x5, 552(x2)
    .word 0x22812303  # lw x6, 552(x2)
    .word 0x0067c2b3  # xor x5, x15, x6
    .word 0x26512023  # sw x5, 608(x2)
    .word 0x22812303  # lw x6, 552(x2)
    .word 0x00431313  # slli x6, x6, 4
    .word 0x006642b3  # xor x5, x12, x6
    .word 0x20512a23  # sw x5, 532(x2)
    .word 0x0046d293  # srli x5, x13, 4
    .word 0x00e2c2b3  # xor x5, x5, x14
    .word 0x27812303  # lw x6, 632(x2)
    .word 0x0062f633  # and x12, x5, x6
    .word 0x00c742b3  # xor x5, x14, x12
    .word 0x26512223  # sw x5, 612(x2)
    .word 0x00461313  # slli x6, x12, 4
    .word 0x0066c2b3  # xor x5, x13, x6
    .word 0x20512c23  # sw x5, 536(x2)
    .word 0x00495293  # srli x5, x18, 4
    .word 0x26812303  # lw x6, 616(x2)
    .word 0x0062c2b3  # xor x5, x5, x6
    .word 0x27812303  # lw x6, 632(x2)
    .word 0x0062f633  # and x12, x5, x6
    .word 0x26812283  # lw x5, 616(x2)
    .word 0x00c2c2b3  # xor x5, x5, x12
    .word 0x26512423  # sw x5, 616(x2)
    .word 0x00461313  # slli x6, x12, 4
    .word 0x006942b3  # xor x5, x18, x6
    .word 0x20512e23  # sw x5, 540(x2)
    .word 0x0048d293  # srli x5, x17, 4
    .word 0x26c12303  # lw x6, 620(x2)
    .word 0x0062c2b3  # xor x5, x5, x6
    .word 0x27812303  # lw x6, 632(x2)
    .word 0x0062f633  # and x12, x5, x6
    .word 0x26c12283  # lw x5, 620(x2)
    .word 0x00c2c2b3  # xor x5, x5, x12
    .word 0x26512623  # sw x5, 620(x2)
    .word 0x00461313  # slli x6, x12, 4
    .word 0x0068c2b3  # xor x5, x17, x6
    .word 0x22512023  # sw x5, 544(x2)
    .word 0x0019d293  # srli x5, x19, 1
    .word 0x0142c2b3  # xor x5, x5, x20
    .word 0x27012303  # lw x6, 624(x2)
    .word 0x0062f633  # and x12, x5, x6
    .word 0x00ca4a33  # xor x20, x20, x12
    .word 0x00161313  # slli x6, x12, 1
    .word 0x0069c633  # xor x12, x19, x6
    .word 0x001ad293  # srli x5, x21, 1
    .word 0x0162c2b3  # xor x5, x5, x22
    .word 0x27012303  # lw x6, 624(x2)
    .word 0x0062f6b3  # and x13, x5, x6
    .word 0x00db4b33  # xor x22, x22, x13
    .word 0x00169313  # slli x6, x13, 1
    .word 0x006ac6b3  # xor x13, x21, x6
    .word 0x001bd293  # srli x5, x23, 1
    .word 0x0182c2b3  # xor x5, x5, x24
    .word 0x27012303  # lw x6, 624(x2)
    .word 0x0062f8b3  # and x17, x5, x6
    .word 0x011c4c33  # xor x24, x24, x17
    .word 0x00189313  # slli x6, x17, 1
    .word 0x006bc8b3  # xor x17, x23, x6
    .word 0x001cd293  # srli x5, x25, 1
    .word 0x0102c2b3  # xor x5, x5, x16
    .word 0x27012303  # lw x6, 624(x2)
    .word 0x0062fab3  # and x21, x5, x6
    .word 0x01584833  # xor x16, x16, x21
    .word 0x001a9313  # slli x6, x21, 1
    .word 0x006cccb3  # xor x25, x25, x6
    .word 0x00265293  # srli x5, x12, 2
    .word 0x00d2c2b3  # xor x5, x5, x13
    .word 0x27412303  # lw x6, 628(x2)
    .word 0x0062fbb3  # and x23, x5, x6
    .word 0x0176cab3  # xor x21, x13, x23
    .word 0x002b9313  # slli x6, x23, 2
    .word 0x00664633  # xor x12, x12, x6
    .word 0x002a5293  # srli x5, x20, 2
    .word 0x0162c2b3  # xor x5, x5, x22
    .word 0x27412303  # lw x6, 628(x2)
    .word 0x0062f6b3  # and x13, x5, x6
    .word 0x00db4b33  # xor x22, x22, x13
    .word 0x00269313  # slli x6, x13, 2
    .word 0x006a46b3  # xor x13, x20, x6
    .word 0x0028d293  # srli x5, x17, 2
    .word 0x0192c2b3  # xor x5, x5, x25
    .word 0x27412303  # lw x6, 628(x2)
    .word 0x0062fa33  # and x20, x5, x6
    .word 0x014cccb3  # xor x25, x25, x20
    .word 0x002a1313  # slli x6, x20, 2
    .word 0x0068c8b3  # xor x17, x17, x6
    .word 0x002c5293  # srli x5, x24, 2
    .word 0x0102c2b3  # xor x5, x5, x16
    .word 0x27412303  # lw x6, 628(x2)
    .word 0x0062fa33  # and x20, x5, x6
    .word 0x01484833  # xor x16, x16, x20
    .word 0x002a1313  # slli x6, x20, 2
    .word 0x006c4c33  # xor x24, x24, x6
    .word 0x00465293  # srli x5, x12, 4
    .word 0x0112c2b3  # xor x5, x5, x17
    .word 0x27812303  # lw x6, 632(x2)
    .word 0x0062fa33  # and x20, x5, x6
    .word 0x0148cbb3  # xor x23, x17, x20
    .word 0x004a1313  # slli x6, x20, 4
    .word 0x006648b3  # xor x17, x12, x6
    .word 0x00088993  # addi x19, x17, 0
    .word 0x0046d293  # srli x5, x13, 4
    .word 0x0182c2b3  # xor x5, x5, x24
    .word 0x27812303  # lw x6, 632(x2)
    .word 0x0062f633  # and x12, x5, x6
    .word 0x00cc4c33  # xor x24, x24, x12
    .word 0x00461313  # slli x6, x12, 4
    .word 0x0066c6b3  # xor x13, x13, x6
    .word 0x00068a13  # addi x20, x13, 0
    .word 0x004ad293  # srli x5, x21, 4
    .word 0x0192c2b3  # xor x5, x5, x25
    .word 0x27812303  # lw x6, 632(x2)
    .word 0x0062f633  # and x12, x5, x6
    .word 0x00ccccb3  # xor x25, x25, x12
    .word 0x00461313  # slli x6, x12, 4
    .word 0x006ac7b3  # xor x15, x21, x6
    .word 0x00078a93  # addi x21, x15, 0
    .word 0x004b5293  # srli x5, x22, 4
    .word 0x0102c2b3  # xor x5, x5, x16
    .word 0x27812303  # lw x6, 632(x2)
    .word 0x0062f633  # and x12, x5, x6
    .word 0x00c84833  # xor x16, x16, x12
    .word 0x00461313  # slli x6, x12, 4
    .word 0x006b4933  # xor x18, x22, x6
    .word 0x00090b13  # addi x22, x18, 0
    .word 0x21412283  # lw x5, 532(x2)
    .word 0x0102d613  # srli x12, x5, 16
    .word 0x02c12823  # sw x12, 48(x2)
    .word 0x05112823  # sw x17, 80(x2)
    .word 0x21812283  # lw x5, 536(x2)
    .word 0x0102d613  # srli x12, x5, 16
    .word 0x02c12a23  # sw x12, 52(x2)
    .word 0x04d12a23  # sw x13, 84(x2)
    .word 0x21c12283  # lw x5, 540(x2)
    .word 0x0102d613  # srli x12, x5, 16
    .word 0x02c12c23  # sw x12, 56(x2)
    .word 0x04f12c23  # sw x15, 88(x2)
    .word 0x22012283  # lw x5, 544(x2)
    .word 0x0102d613  # srli x12, x5, 16
    .word 0x02c12e23  # sw x12, 60(x2)
    .word 0x05212e23  # sw x18, 92(x2)
    .word 0x26012283  # lw x5, 608(x2)
    .word 0x0102d613  # srli x12, x5, 16
    .word 0x04c12023  # sw x12, 64(x2)
    .word 0x07712023  # sw x23, 96(x2)
    .word 0x26412283  # lw x5, 612(x2)
    .word 0x0102d613  # srli x12, x5, 16
    .word 0x04c12223  # sw x12, 68(x2)
    .word 0x07812223  # sw x24, 100(x2)
    .word 0x26812283  # lw x5, 616(x2)
    .word 0x0102d613  # srli x12, x5, 16
    .word 0x04c12423  # sw x12, 72(x2)
    .word 0x07912423  # sw x25, 104(x2)
    .word 0x26c12283  # lw x5, 620(x2)
    .word 0x0102d613  # srli x12, x5, 16
    .word 0x04c12623  # sw x12, 76(x2)
    .word 0x07012623  # sw x16, 108(x2)
    .word 0x28012623  # sw x0, 652(x2)
    .word 0x01b00293  # addi x5, x0, 27
    .word 0x28512823  # sw x5, 656(x2)
    .word 0x28c12303  # lw x6, 652(x2)
    .word 0x29012283  # lw x5, 656(x2)
    .word 0x005332b3  # sltu x5, x6, x5
    .word 0x00029463  # bne x5, x0, 8
    .word 0x0140106f  # jal x0, 4116
    .word 0x00030513  # addi x10, x6, 0
    .word 0x00130313  # addi x6, x6, 1
    .word 0x28612623  # sw x6, 652(x2)
    .word 0x00d00313  # addi x6, x0, 13
    .word 0x22651263  # bne x10, x6, 548
    .word 0x1f012283  # lw x5, 496(x2)
    .word 0x21412303  # lw x6, 532(x2)
    .word 0x0062c633  # xor x12, x5, x6
    .word 0x01061613  # slli x12, x12, 16
    .word 0x01065313  # srli x6, x12, 16
    .word 0x00666633  # or x12, x12, x6
    .word 0x01a672b3  # and x5, x12, x26
    .word 0x00c65313  # srli x6, x12, 12
    .word 0x01b37333  # and x6, x6, x27
    .word 0x0062e2b3  # or x5, x5, x6
    .word 0x00865313  # srli x6, x12, 8
    .word 0x00837333  # and x6, x6, x8
    .word 0x0062e6b3  # or x13, x5, x6
    .word 0x00465293  # srli x5, x12, 4
    .word 0x27c12303  # lw x6, 636(x2)
    .word 0x0062f633  # and x12, x5, x6
    .word 0x00c6e9b3  # or x19, x13, x12
    .word 0x1f412283  # lw x5, 500(x2)
    .word 0x21812303  # lw x6, 536(x2)
    .word 0x0062c633  # xor x12, x5, x6
    .word 0x01061613  # slli x12, x12, 16
    .word 0x01065313  # srli x6, x12, 16
    .word 0x00666633  # or x12, x12, x6
    .word 0x01a672b3  # and x5, x12, x26
    .word 0x00c65313  # srli x6, x12, 12
    .word 0x01b37333  # and x6, x6, x27
    .word 0x0062e2b3  # or x5, x5, x6
    .word 0x00865313  # srli x6, x12, 8
    .word 0x00837333  # and x6, x6, x8
    .word 0x0062e6b3  # or x13, x5, x6
    .word 0x00465293  # srli x5, x12, 4
    .word 0x27c12303  # lw x6, 636(x2)
    .word 0x0062f633  # and x12, x5, x6
    .word 0x00c6ea33  # or x20, x13, x12
    .word 0x1f812283  # lw x5, 504(x2)
    .word 0x21c12303  # lw x6, 540(x2)
    .word 0x0062c633  # xor x12, x5, x6
    .word 0x01061613  # slli x12, x12, 16
    .word 0x01065313  # srli x6, x12, 16
    .word 0x00666633  # or x12, x12, x6
    .word 0x01a672b3  # and x5, x12, x26
    .word 0x00c65313  # srli x6, x12, 12
    .word 0x01b37333  # and x6, x6, x27
    .word 0x0062e2b3  # or x5, x5, x6
    .word 0x00865313  # srli x6, x12, 8
    .word 0x00837333  # and x6, x6, x8
    .word 0x0062e6b3  # or x13, x5, x6
    .word 0x00465293  # srli x5, x12, 4
    .word 0x27c12303  # lw x6, 636(x2)
    .word 0x0062f633  # and x12, x5, x6
    .word 0x00c6eab3  # or x21, x13, x12
    .word 0x1fc12283  # lw x5, 508(x2)
    .word 0x22012303  # lw x6, 544(x2)
    .word 0x0062c633  # xor x12, x5, x6
    .word 0x01061613  # slli x12, x12, 16
    .word 0x01065313  # srli x6, x12, 16
    .word 0x00666633  # or x12, x12, x6
    .word 0x01a672b3  # and x5, x12, x26
    .word 0x00c65313  # srli x6, x12, 12
    .word 0x01b37333  # and x6, x6, x27
    .word 0x0062e2b3  # or x5, x5, x6
    .word 0x00865313  # srli x6, x12, 8
    .word 0x00837333  # and x6, x6, x8
    .word 0x0062e6b3  # or x13, x5, x6
    .word 0x00465293  # srli x5, x12, 4
    .word 0x27c12303  # lw x6, 636(x2)
    .word 0x0062f633  # and x12, x5, x6
    .word 0x00c6eb33  # or x22, x13, x12
    .word 0x20012283  # lw x5, 512(x2)
    .word 0x26012303  # lw x6, 608(x2)
    .word 0x0062c633  # xor x12, x5, x6
    .word 0x01061613  # slli x12, x12, 16
    .word 0x01065313  # srli x6, x12, 16
    .word 0x00666633  # or x12, x12, x6
    .word 0x01a672b3  # and x5, x12, x26
    .word 0x00c65313  # srli x6, x12, 12
    .word 0x01b37333  # and x6, x6, x27
    .word 0x0062e2b3  # or x5, x5, x6
    .word 0x00865313  # srli x6, x12, 8
    .word 0x00837333  # and x6, x6, x8
    .word 0x0062e6b3  # or x13, x5, x6
    .word 0x00465293  # srli x5, x12, 4
    .word 0x27c12303  # lw x6, 636(x2)
    .word 0x0062f633  # and x12, x5, x6
    .word 0x00c6ebb3  # or x23, x13, x12
    .word 0x20412283  # lw x5, 516(x2)
    .word 0x26412303  # lw x6, 612(x2)
    .word 0x0062c633  # xor x12, x5, x6
    .word 0x01061613  # slli x12, x12, 16
    .word 0x01065313  # srli x6, x12, 16
    .word 0x00666633  # or x12, x12, x6
    .word 0x01a672b3  # and x5, x12, x26
    .word 0x00c65313  # srli x6, x12, 12
    .word 0x01b37333  # and x6, x6, x27
    .word 0x0062e2b3  # or x5, x5, x6
    .word 0x00865313  # srli x6, x12, 8
    .word 0x00837333  # and x6, x6, x8
    .word 0x0062e6b3  # or x13, x5, x6
    .word 0x00465293  # srli x5, x12, 4
    .word 0x27c12303  # lw x6, 636(x2)
    .word 0x0062f633  # and x12, x5, x6
    .word 0x00c6ec33  # or x24, x13, x12
    .word 0x20812283  # lw x5, 520(x2)
    .word 0x26812303  # lw x6, 616(x2)
    .word 0x0062c633  # xor x12, x5, x6
    .word 0x01061613  # slli x12, x12, 16
    .word 0x01065313  # srli x6, x12, 16
    .word 0x00666633  # or x12, x12, x6
    .word 0x01a672b3  # and x5, x12, x26
    .word 0x00c65313  # srli x6, x12, 12
    .word 0x01b37333  # and x6, x6, x27
    .word 0x0062e2b3  # or x5, x5, x6
    .word 0x00865313  # srli x6, x12, 8
    .word 0x00837333  # and x6, x6, x8
    .word 0x0062e6b3  # or x13, x5, x6
    .word 0x00465293  # srli x5, x12, 4
    .word 0x27c12303  # lw x6, 636(x2)
    .word 0x0062f633  # and x12, x5, x6
    .word 0x00c6ecb3  # or x25, x13, x12
    .word 0x20c12283  # lw x5, 524(x2)
    .word 0x26c12303  # lw x6, 620(x2)
    .word 0x0062c633  # xor x12, x5, x6
    .word 0x01061613  # slli x12, x12, 16
    .word 0x01065313  # srli x6, x12, 16
    .word 0x00666633  # or x12, x12, x6
    .word 0x01a672b3  # and x5, x12, x26
    .word 0x00c65313  # srli x6, x12, 12
    .word 0x01b37333  # and x6, x6, x27
    .word 0x0062e2b3  # or x5, x5, x6
    .word 0x00865313  # srli x6, x12, 8
    .word 0x00837333  # and x6, x6, x8
    .word 0x0062e6b3  # or x13, x5, x6
    .word 0x00465293  # srli x5, x12, 4
    .word 0x27c12303  # lw x6, 636(x2)
    .word 0x0062f633  # and x12, x5, x6
    .word 0x00c6e833  # or x16, x13, x12
    .word 0x00c00313  # addi x6, x0, 12
    .word 0x06a37663  # bgeu x6, x10, 108
    .word 0x00098613  # addi x12, x19, 0
    .word 0x000a0693  # addi x13, x20, 0
    .word 0x000a8893  # addi x17, x21, 0
    .word 0x000b0a13  # addi x20, x22, 0
    .word 0x000b8a93  # addi x21, x23, 0
    .word 0x000c0993  # addi x19, x24, 0
    .word 0x000c8793  # addi x15, x25, 0
    .word 0x00080913  # addi x18, x16, 0
    .word 0x0156c2b3  # xor x5, x13, x21
    .word 0x00f2c833  # xor x16, x5, x15
    .word 0x014642b3  # xor x5, x12, x20
    .word 0x0132ccb3  # xor x25, x5, x19
    .word 0x011942b3  # xor x5, x18, x17
    .word 0x0152cc33  # xor x24, x5, x21
    .word 0x00d7c2b3  # xor x5, x15, x13
    .word 0x0142cbb3  # xor x23, x5, x20
    .word 0x00c9c2b3  # xor x5, x19, x12
    .word 0x0112cb33  # xor x22, x5, x17
    .word 0x012ac2b3  # xor x5, x21, x18
    .word 0x00d2c2b3  # xor x5, x5, x13
    .word 0xfff2ca93  # xori x21, x5, -1
    .word 0x00fa42b3  # xor x5, x20, x15
    .word 0x00c2ca33  # xor x20, x5, x12
    .word 0x0138c2b3  # xor x5, x17, x19
    .word 0x0122c2b3  # xor x5, x5, x18
    .word 0xfff2c993  # xori x19, x5, -1
    .word 0x00080613  # addi x12, x16, 0
    .word 0x000c8793  # addi x15, x25, 0
    .word 0x000c0893  # addi x17, x24, 0
    .word 0x000b8c13  # addi x24, x23, 0
    .word 0x25612823  # sw x22, 592(x2)
    .word 0x000a8b13  # addi x22, x21, 0
    .word 0x00098693  # addi x13, x19, 0
    .word 0x016c4933  # xor x18, x24, x22
    .word 0x01464cb3  # xor x25, x12, x20
    .word 0x01864733  # xor x14, x12, x24
    .word 0x01664833  # xor x16, x12, x22
    .word 0x0117cbb3  # xor x23, x15, x17
    .word 0x00dbc8b3  # xor x17, x23, x13
    .word 0x0188c2b3  # xor x5, x17, x24
    .word 0x22512223  # sw x5, 548(x2)
    .word 0x012cc2b3  # xor x5, x25, x18
    .word 0x22512423  # sw x5, 552(x2)
    .word 0x00c8c2b3  # xor x5, x17, x12
    .word 0x22512623  # sw x5, 556(x2)
    .word 0x0148c2b3  # xor x5, x17, x20
    .word 0x22512823  # sw x5, 560(x2)
    .word 0x23012283  # lw x5, 560(x2)
    .word 0x0102c2b3  # xor x5, x5, x16
    .word 0x22512a23  # sw x5, 564(x2)
    .word 0x25012283  # lw x5, 592(x2)
    .word 0x22812303  # lw x6, 552(x2)
    .word 0x0062cc33  # xor x24, x5, x6
    .word 0x016c4a33  # xor x20, x24, x22
    .word 0x00fc4c33  # xor x24, x24, x15
    .word 0x00da42b3  # xor x5, x20, x13
    .word 0x22512c23  # sw x5, 568(x2)
    .word 0x017a4ab3  # xor x21, x20, x23
    .word 0x00ec4b33  # xor x22, x24, x14
    .word 0x0166c2b3  # xor x5, x13, x22
    .word 0x22512e23  # sw x5, 572(x2)
    .word 0x016ac2b3  # xor x5, x21, x22
    .word 0x24512023  # sw x5, 576(x2)
    .word 0x010ac7b3  # xor x15, x21, x16
    .word 0x016bcbb3  # xor x23, x23, x22
    .word 0x017cc2b3  # xor x5, x25, x23
    .word 0x24512823  # sw x5, 592(x2)
    .word 0x017642b3  # xor x5, x12, x23
    .word 0x24512a23  # sw x5, 596(x2)
    .word 0x22812283  # lw x5, 552(x2)
    .word 0x0142f633  # and x12, x5, x20
    .word 0x23412283  # lw x5, 564(x2)
    .word 0x23812303  # lw x6, 568(x2)
    .word 0x0062f9b3  # and x19, x5, x6
    .word 0x00c9c2b3  # xor x5, x19, x12
    .word 0x24512623  # sw x5, 588(x2)
    .word 0x22412283  # lw x5, 548(x2)
    .word 0x00d2f9b3  # and x19, x5, x13
    .word 0x00c9c2b3  # xor x5, x19, x12
    .word 0x24512c23  # sw x5, 600(x2)
    .word 0x017cf633  # and x12, x25, x23
    .word 0x23012283  # lw x5, 560(x2)
    .word 0x0112f9b3  # and x19, x5, x17
    .word 0x00c9c2b3  # xor x5, x19, x12
    .word 0x24512e23  # sw x5, 604(x2)
    .word 0x22c12283  # lw x5, 556(x2)
    .word 0x23c12303  # lw x6, 572(x2)
    .word 0x0062f9b3  # and x19, x5, x6
    .word 0x00c9c2b3  # xor x5, x19, x12
    .word 0x24512223  # sw x5, 580(x2)
    .word 0x01677633  # and x12, x14, x22
    .word 0x24012303  # lw x6, 576(x2)
    .word 0x006979b3  # and x19, x18, x6
    .word 0x00c9c9b3  # xor x19, x19, x12
    .word 0x015872b3  # and x5, x16, x21
    .word 0x24512423  # sw x5, 584(x2)
    .word 0x24812283  # lw x5, 584(x2)
    .word 0x00c2c633  # xor x12, x5, x12
    .word 0x24c12283  # lw x5, 588(x2)
    .word 0x0132c2b3  # xor x5, x5, x19
    .word 0x24512623  # sw x5, 588(x2)
    .word 0x25812283  # lw x5, 600(x2)
    .word 0x00c2c2b3  # xor x5, x5, x12
    .word 0x24512c23  # sw x5, 600(x2)
    .word 0x25c12283  # lw x5, 604(x2)
    .word 0x0132c9b3  # xor x19, x5, x19
    .word 0x24412283  # lw x5, 580(x2)
    .word 0x00c2c2b3  # xor x5, x5, x12
    .word 0x24512e23  # sw x5, 604(x2)
    .word 0x24c12283  # lw x5, 588(x2)
    .word 0x0182cc33  # xor x24, x5, x24
    .word 0x25812283  # lw x5, 600(x2)
    .word 0x00f2c633  # xor x12, x5, x15
    .word 0x25012303  # lw x6, 592(x2)
    .word 0x0069c7b3  # xor x15, x19, x6
    .word 0x25c12283  # lw x5, 604(x2)
    .word 0x25412303  # lw x6, 596(x2)
    .word 0x0062c9b3  # xor x19, x5, x6
    .word 0x00cc42b3  # xor x5, x24, x12
    .word 0x24512a23  # sw x5, 596(x2)
    .word 0x00fc72b3  # and x5, x24, x15
    .word 0x24512623  # sw x5, 588(x2)
    .word 0x24c12303  # lw x6, 588(x2)
    .word 0x0069c2b3  # xor x5, x19, x6
    .word 0x24512823  # sw x5, 592(x2)
    .word 0x25412283  # lw x5, 596(x2)
    .word 0x25012303  # lw x6, 592(x2)
    .word 0x0062fc33  # and x24, x5, x6
    .word 0x00cc4c33  # xor x24, x24, x12
    .word 0x0137c2b3  # xor x5, x15, x19
    .word 0x24512c23  # sw x5, 600(x2)
    .word 0x24c12303  # lw x6, 588(x2)
    .word 0x00664633  # xor x12, x12, x6
    .word 0x25812303  # lw x6, 600(x2)
    .word 0x00667633  # and x12, x12, x6
    .word 0x01364633  # xor x12, x12, x19
    .word 0x00c7c2b3  # xor x5, x15, x12
    .word 0x24512623  # sw x5, 588(x2)
    .word 0x25012283  # lw x5, 592(x2)
    .word 0x00c2c7b3  # xor x15, x5, x12
    .word 0x00f9f7b3  # and x15, x19, x15
    .word 0x24c12303  # lw x6, 588(x2)
    .word 0x0067c9b3  # xor x19, x15, x6
    .word 0x25012283  # lw x5, 592(x2)
    .word 0x00f2c7b3  # xor x15, x5, x15
    .word 0x00fc77b3  # and x15, x24, x15
    .word 0x25412283  # lw x5, 596(x2)
    .word 0x00f2c7b3  # xor x15, x5, x15
    .word 0x0137c2b3  # xor x5, x15, x19
    .word 0x24512823  # sw x5, 592(x2)
    .word 0x00cc42b3  # xor x5, x24, x12
    .word 0x24512a23  # sw x5, 596(x2)
    .word 0x00fc42b3  # xor x5, x24, x15
    .word 0x24512623  # sw x5, 588(x2)
    .word 0x013642b3  # xor x5, x12, x19
    .word 0x24512c23  # sw x5, 600(x2)
    .word 0x25412283  # lw x5, 596(x2)
    .word 0x25012303  # lw x6, 592(x2)
    .word 0x0062c2b3  # xor x5, x5, x6
    .word 0x24512e23  # sw x5, 604(x2)
    .word 0x25812283  # lw x5, 600(x2)
    .word 0x0142f2b3  # and x5, x5, x20
    .word 0x24512223  # sw x5, 580(x2)
    .word 0x23812303  # lw x6, 568(x2)
    .word 0x0069f2b3  # and x5, x19, x6
    .word 0x22512c23  # sw x5, 568(x2)
    .word 0x00d676b3  # and x13, x12, x13
    .word 0x24c12283  # lw x5, 588(x2)
    .word 0x0172fa33  # and x20, x5, x23
    .word 0x0117f8b3  # and x17, x15, x17
    .word 0x23c12303  # lw x6, 572(x2)
    .word 0x006c7bb3  # and x23, x24, x6
    .word 0x25412283  # lw x5, 596(x2)
    .word 0x0162f2b3  # and x5, x5, x22
    .word 0x22512e23  # sw x5, 572(x2)
    .word 0x25c12283  # lw x5, 604(x2)
    .word 0x24012303  # lw x6, 576(x2)
    .word 0x0062fb33  # and x22, x5, x6
    .word 0x25012283  # lw x5, 592(x2)
    .word 0x0152f2b3  # and x5, x5, x21
    .word 0x24512023  # sw x5, 576(x2)
    .word 0x25812283  # lw x5, 600(x2)
    .word 0x22812303  # lw x6, 552(x2)
    .word 0x0062f2b3  # and x5, x5, x6
    .word 0x22512423  # sw x5, 552(x2)
    .word 0x23412303  # lw x6, 564(x2)
    .word 0x0069fab3  # and x21, x19, x6
    .word 0x22412303  # lw x6, 548(x2)
    .word 0x006679b3  # and x19, x12, x6
    .word 0x24c12283  # lw x5, 588(x2)
    .word 0x0192f633  # and x12, x5, x25
    .word 0x23012303  # lw x6, 560(x2)
    .word 0x0067f7b3  # and x15, x15, x6
    .word 0x22c12303  # lw x6, 556(x2)
    .word 0x006c72b3  # and x5, x24, x6
    .word 0x22512823  # sw x5, 560(x2)
    .word 0x25412283  # lw x5, 596(x2)
    .word 0x00e2fcb3  # and x25, x5, x14
    .word 0x25c12283  # lw x5, 604(x2)
    .word 0x0122fc33  # and x24, x5, x18
    .word 0x25012283  # lw x5, 592(x2)
    .word 0x0102f933  # and x18, x5, x16
    .word 0x018cccb3  # xor x25, x25, x24
    .word 0x013ac9b3  # xor x19, x21, x19
    .word 0x00fbc833  # xor x16, x23, x15
    .word 0x22812283  # lw x5, 552(x2)
    .word 0x0152cab3  # xor x21, x5, x21
    .word 0x00c6c7b3  # xor x15, x13, x12
    .word 0x0176cbb3  # xor x23, x13, x23
    .word 0x24012303  # lw x6, 576(x2)
    .word 0x006b4733  # xor x14, x22, x6
    .word 0x24412283  # lw x5, 580(x2)
    .word 0x0142c6b3  # xor x13, x5, x20
    .word 0x23c12283  # lw x5, 572(x2)
    .word 0x0162c2b3  # xor x5, x5, x22
    .word 0x22512423  # sw x5, 552(x2)
    .word 0x012c42b3  # xor x5, x24, x18
    .word 0x24512823  # sw x5, 592(x2)
    .word 0x01064933  # xor x18, x12, x16
    .word 0x00d7c633  # xor x12, x15, x13
    .word 0x0198cb33  # xor x22, x17, x25
    .word 0x22812303  # lw x6, 552(x2)
    .word 0x006a4c33  # xor x24, x20, x6
    .word 0x00ccc2b3  # xor x5, x25, x12
    .word 0x22512423  # sw x5, 552(x2)
    .word 0x23012283  # lw x5, 560(x2)
    .word 0x00c2ccb3  # xor x25, x5, x12
    .word 0x01674633  # xor x12, x14, x22
    .word 0x016acb33  # xor x22, x21, x22
    .word 0x0188c8b3  # xor x17, x17, x24
    .word 0x00ccccb3  # xor x25, x25, x12
    .word 0x23812283  # lw x5, 568(x2)
    .word 0x0162ca33  # xor x20, x5, x22
    .word 0x016c47b3  # xor x15, x24, x22
    .word 0x00c942b3  # xor x5, x18, x12
    .word 0xfff2c913  # xori x18, x5, -1
    .word 0x22812303  # lw x6, 552(x2)
    .word 0x006842b3  # xor x5, x16, x6
    .word 0xfff2c613  # xori x12, x5, -1
    .word 0x0198cb33  # xor x22, x17, x25
    .word 0x0146c6b3  # xor x13, x13, x20
    .word 0x014bc733  # xor x14, x23, x20
    .word 0x0199c2b3  # xor x5, x19, x25
    .word 0x22512423  # sw x5, 552(x2)
    .word 0x00d8c2b3  # xor x5, x17, x13
    .word 0xfff2c893  # xori x17, x5, -1
    .word 0x25012283  # lw x5, 592(x2)
    .word 0x0162c2b3  # xor x5, x5, x22
    .word 0xfff2c293  # xori x5, x5, -1
    .word 0x22512823  # sw x5, 560(x2)
    .word 0x00078813  # addi x16, x15, 0
    .word 0x00088c93  # addi x25, x17, 0
    .word 0x23012c03  # lw x24, 560(x2)
    .word 0x00068b93  # addi x23, x13, 0
    .word 0x00070b13  # addi x22, x14, 0
    .word 0x22812a83  # lw x21, 552(x2)
    .word 0x00090a13  # addi x20, x18, 0
    .word 0x00060993  # addi x19, x12, 0
    .word 0x00d00313  # addi x6, x0, 13
    .word 0x36657063  # bgeu x10, x6, 864
    .word 0x00351593  # slli x11, x10, 3
    .word 0x00259493  # slli x9, x11, 2
    .word 0x002484b3  # add x9, x9, x2
    .word 0x00c65293  # srli x5, x12, 12
    .word 0x00f2f613  # andi x12, x5, 15
    .word 0x00157293  # andi x5, x10, 1
    .word 0x02029063  # bne x5, x0, 32
    .word 0x00165293  # srli x5, x12, 1
    .word 0x00361313  # slli x6, x12, 3
    .word 0x0062e2b3  # or x5, x5, x6
    .word 0x00f2f293  # andi x5, x5, 15
    .word 0x21012303  # lw x6, 528(x2)
    .word 0x00137313  # andi x6, x6, 1
    .word 0x0062c633  # xor x12, x5, x6
    .word 0x0304a283  # lw x5, 48(x9)
    .word 0x00c2c633  # xor x12, x5, x12
    .word 0x00461313  # slli x6, x12, 4
    .word 0x00664633  # xor x12, x12, x6
    .word 0x00861313  # slli x6, x12, 8
    .word 0x006642b3  # xor x5, x12, x6
    .word 0x28012303  # lw x6, 640(x2)
    .word 0x0062f633  # and x12, x5, x6
    .word 0x06c4a823  # sw x12, 112(x9)
    .word 0x00060993  # addi x19, x12, 0
    .word 0x00351293  # slli x5, x10, 3
    .word 0x00128593  # addi x11, x5, 1
    .word 0x00259493  # slli x9, x11, 2
    .word 0x002484b3  # add x9, x9, x2
    .word 0x00c95293  # srli x5, x18, 12
    .word 0x00f2f613  # andi x12, x5, 15
    .word 0x00157293  # andi x5, x10, 1
    .word 0x02029263  # bne x5, x0, 36
    .word 0x00165293  # srli x5, x12, 1
    .word 0x00361313  # slli x6, x12, 3
    .word 0x0062e2b3  # or x5, x5, x6
    .word 0x00f2f293  # andi x5, x5, 15
    .word 0x21012303  # lw x6, 528(x2)
    .word 0x00135313  # srli x6, x6, 1
    .word 0x00137313  # andi x6, x6, 1
    .word 0x0062c633  # xor x12, x5, x6
    .word 0x0304a283  # lw x5, 48(x9)
    .word 0x00c2c633  # xor x12, x5, x12
    .word 0x00461313  # slli x6, x12, 4
    .word 0x00664633  # xor x12, x12, x6
    .word 0x00861313  # slli x6, x12, 8
    .word 0x006642b3  # xor x5, x12, x6
    .word 0x28012303  # lw x6, 640(x2)
    .word 0x0062f633  # and x12, x5, x6
    .word 0x06c4a823  # sw x12, 112(x9)
    .word 0x00060a13  # addi x20, x12, 0
    .word 0x00351293  # slli x5, x10, 3
    .word 0x00228593  # addi x11, x5, 2
    .word 0x00259493  # slli x9, x11, 2
    .word 0x002484b3  # add x9, x9, x2
    .word 0x22812283  # lw x5, 552(x2)
    .word 0x00c2d293  # srli x5, x5, 12
    .word 0x00f2f613  # andi x12, x5, 15
    .word 0x00157293  # andi x5, x10, 1
    .word 0x02029263  # bne x5, x0, 36
    .word 0x00165293  # srli x5, x12, 1
    .word 0x00361313  # slli x6, x12, 3
    .word 0x0062e2b3  # or x5, x5, x6
    .word 0x00f2f293  # andi x5, x5, 15
    .word 0x21012303  # lw x6, 528(x2)
    .word 0x00235313  # srli x6, x6, 2
    .word 0x00137313  # andi x6, x6, 1
    .word 0x0062c633  # xor x12, x5, x6
    .word 0x0304a283  # lw x5, 48(x9)
    .word 0x00c2c633  # xor x12, x5, x12
    .word 0x00461313  # slli x6, x12, 4
    .word 0x00664633  # xor x12, x12, x6
    .word 0x00861313  # slli x6, x12, 8
    .word 0x006642b3  # xor x5, x12, x6
    .word 0x28012303  # lw x6, 640(x2)
    .word 0x0062f633  # and x12, x5, x6
    .word 0x06c4a823  # sw x12, 112(x9)
    .word 0x00060a93  # addi x21, x12, 0
    .word 0x00351293  # slli x5, x10, 3
    .word 0x00328593  # addi x11, x5, 3
    .word 0x00259493  # slli x9, x11, 2
    .word 0x002484b3  # add x9, x9, x2
    .word 0x00c75293  # srli x5, x14, 12
    .word 0x00f2f613  # andi x12, x5, 15
    .word 0x00157293  # andi x5, x10, 1
    .word 0x02029263  # bne x5, x0, 36
    .word 0x00165293  # srli x5, x12, 1
    .word 0x00361313  # slli x6, x12, 3
    .word 0x0062e2b3  # or x5, x5, x6
    .word 0x00f2f293  # andi x5, x5, 15
    .word 0x21012303  # lw x6, 528(x2)
    .word 0x00335313  # srli x6, x6, 3
    .word 0x00137313  # andi x6, x6, 1
    .word 0x0062c633  # xor x12, x5, x6
    .word 0x0304a283  # lw x5, 48(x9)
    .word 0x00c2c633  # xor x12, x5, x12
    .word 0x00461313  # slli x6, x12, 4
    .word 0x00664633  # xor x12, x12, x6
    .word 0x00861313  # slli x6, x12, 8
    .word 0x006642b3  # xor x5, x12, x6
    .word 0x28012303  # lw x6, 640(x2)
    .word 0x0062f633  # and x12, x5, x6
    .word 0x06c4a823  # sw x12, 112(x9)
    .word 0x00060b13  # addi x22, x12, 0
    .word 0x00351293  # slli x5, x10, 3
    .word 0x00428593  # addi x11, x5, 4
    .word 0x00259493  # slli x9, x11, 2
    .word 0x002484b3  # add x9, x9, x2
    .word 0x00c6d293  # srli x5, x13, 12
    .word 0x00f2f613  # andi x12, x5, 15
    .word 0x00157293  # andi x5, x10, 1
    .word 0x02029263  # bne x5, x0, 36
    .word 0x00165293  # srli x5, x12, 1
    .word 0x00361313  # slli x6, x12, 3
    .word 0x0062e2b3  # or x5, x5, x6
    .word 0x00f2f293  # andi x5, x5, 15
    .word 0x21012303  # lw x6, 528(x2)
    .word 0x00435313  # srli x6, x6, 4
    .word 0x00137313  # andi x6, x6, 1
    .word 0x0062c633  # xor x12, x5, x6
    .word 0x0304a283  # lw x5, 48(x9)
    .word 0x00c2c633  # xor x12, x5, x12
    .word 0x00461313  # slli x6, x12, 4
    .word 0x00664633  # xor x12, x12, x6
    .word 0x00861313  # slli x6, x12, 8
    .word 0x006642b3  # xor x5, x12, x6
    .word 0x28012303  # lw x6, 640(x2)
    .word 0x0062f633  # and x12, x5, x6
    .word 0x06c4a823  # sw x12, 112(x9)
    .word 0x00060b93  # addi x23, x12, 0
    .word 0x00351293  # slli x5, x10, 3
    .word 0x00528593  # addi x11, x5, 5
    .word 0x00259493  # slli x9, x11, 2
    .word 0x002484b3  # add x9, x9, x2
    .word 0x23012283  # lw x5, 560(x2)
    .word 0x00c2d293  # srli x5, x5, 12
    .word 0x00f2f613  # andi x12, x5, 15
    .word 0x00157293  # andi x5, x10, 1
    .word 0x02029263  # bne x5, x0, 36
    .word 0x00165293  # srli x5, x12, 1
    .word 0x00361313  # slli x6, x12, 3
    .word 0x0062e2b3  # or x5, x5, x6
    .word 0x00f2f293  # andi x5, x5, 15
    .word 0x21012303  # lw x6, 528(x2)
    .word 0x00535313  # srli x6, x6, 5
    .word 0x00137313  # andi x6, x6, 1
    .word 0x0062c633  # xor x12, x5, x6
    .word 0x0304a283  # lw x5, 48(x9)
    .word 0x00c2c633  # xor x12, x5, x12
    .word 0x00461313  # slli x6, x12, 4
    .word 0x00664633  # xor x12, x12, x6
    .word 0x00861313  # slli x6, x12, 8
    .word 0x006642b3  # xor x5, x12, x6
    .word 0x28012303  # lw x6, 640(x2)
    .word 0x0062f633  # and x12, x5, x6
    .word 0x06c4a823  # sw x12, 112(x9)
    .word 0x00060c13  # addi x24, x12, 0
    .word 0x00351293  # slli x5, x10, 3
    .word 0x00628593  # addi x11, x5, 6
    .word 0x00259493  # slli x9, x11, 2
    .word 0x002484b3  # add x9, x9, x2
    .word 0x00c8d293  # srli x5, x17, 12
    .word 0x00f2f613  # andi x12, x5, 15
    .word 0x00157293  # andi x5, x10, 1
    .word 0x02029263  # bne x5, x0, 36
    .word 0x00165293  # srli x5, x12, 1
    .word 0x00361313  # slli x6, x12, 3
    .word 0x0062e2b3  # or x5, x5, x6
    .word 0x00f2f293  # andi x5, x5, 15
    .word 0x21012303  # lw x6, 528(x2)
    .word 0x00635313  # srli x6, x6, 6
    .word 0x00137313  # andi x6, x6, 1
    .word 0x0062c633  # xor x12, x5, x6
    .word 0x0304a283  # lw x5, 48(x9)
    .word 0x00c2c633  # xor x12, x5, x12
    .word 0x00461313  # slli x6, x12, 4
    .word 0x00664633  # xor x12, x12, x6
    .word 0x00861313  # slli x6, x12, 8
    .word 0x006642b3  # xor x5, x12, x6
    .word 0x28012303  # lw x6, 640(x2)
    .word 0x0062f633  # and x12, x5, x6
    .word 0x06c4a823  # sw x12, 112(x9)
    .word 0x00060c93  # addi x25, x12, 0
    .word 0x00351293  # slli x5, x10, 3
    .word 0x00728593  # addi x11, x5, 7
    .word 0x00259493  # slli x9, x11, 2
    .word 0x002484b3  # add x9, x9, x2
    .word 0x00c7d293  # srli x5, x15, 12
    .word 0x00f2f613  # andi x12, x5, 15
    .word 0x00157293  # andi x5, x10, 1
    .word 0x02029263  # bne x5, x0, 36
    .word 0x00165293  # srli x5, x12, 1
    .word 0x00361313  # slli x6, x12, 3
    .word 0x0062e2b3  # or x5, x5, x6
    .word 0x00f2f293  # andi x5, x5, 15
    .word 0x21012303  # lw x6, 528(x2)
    .word 0x00735313  # srli x6, x6, 7
    .word 0x00137313  # andi x6, x6, 1
    .word 0x0062c633  # xor x12, x5, x6
    .word 0x0304a283  # lw x5, 48(x9)
    .word 0x00c2c633  # xor x12, x5, x12
    .word 0x00461313  # slli x6, x12, 4
    .word 0x00664633  # xor x12, x12, x6
    .word 0x00861313  # slli x6, x12, 8
    .word 0x006642b3  # xor x5, x12, x6
    .word 0x28012303  # lw x6, 640(x2)
    .word 0x0062f633  # and x12, x5, x6
    .word 0x06c4a823  # sw x12, 112(x9)
    .word 0x00060813  # addi x16, x12, 0
    .word 0x00157293  # andi x5, x10, 1
    .word 0x00100313  # addi x6, x0, 1
    .word 0x00629863  # bne x5, x6, 16
    .word 0x21012283  # lw x5, 528(x2)
    .word 0x00129293  # slli x5, x5, 1
    .word 0x20512823  # sw x5, 528(x2)
    .word 0x6680006f  # jal x0, 1640
    .word 0x00098613  # addi x12, x19, 0
    .word 0x000a0693  # addi x13, x20, 0
    .word 0x000a8893  # addi x17, x21, 0
    .word 0x000b0a13  # addi x20, x22, 0
    .word 0x000b8a93  # addi x21, x23, 0
    .word 0x000c0993  # addi x19, x24, 0
    .word 0x000c8793  # addi x15, x25, 0
    .word 0x00080913  # addi x18, x16, 0
    .word 0x0156c2b3  # xor x5, x13, x21
    .word 0x00f2c833  # xor x16, x5, x15
    .word 0x014642b3  # xor x5, x12, x20
    .word 0x0132ccb3  # xor x25, x5, x19
    .word 0x011942b3  # xor x5, x18, x17
    .word 0x0152cc33  # xor x24, x5, x21
    .word 0x00d7c2b3  # xor x5, x15, x13
    .word 0x0142cbb3  # xor x23, x5, x20
    .word 0x00c9c2b3  # xor x5, x19, x12
    .word 0x0112cb33  # xor x22, x5, x17
    .word 0x012ac2b3  # xor x5, x21, x18
    .word 0x00d2c2b3  # xor x5, x5, x13
    .word 0xfff2ca93  # xori x21, x5, -1
    .word 0x00fa42b3  # xor x5, x20, x15
    .word 0x00c2ca33  # xor x20, x5, x12
    .word 0x0138c2b3  # xor x5, x17, x19
    .word 0x0122c2b3  # xor x5, x5, x18
    .word 0xfff2c993  # xori x19, x5, -1
    .word 0x01a00293  # addi x5, x0, 26
    .word 0x40a282b3  # sub x5, x5, x10
    .word 0x00329593  # slli x11, x5, 3
    .word 0x00259493  # slli x9, x11, 2
    .word 0x002484b3  # add x9, x9, x2
    .word 0x0304a303  # lw x6, 48(x9)
    .word 0x0069c2b3  # xor x5, x19, x6
    .word 0x28012303  # lw x6, 640(x2)
    .word 0x0062f633  # and x12, x5, x6
    .word 0x28412303  # lw x6, 644(x2)
    .word 0x006676b3  # and x13, x12, x6
    .word 0x00d642b3  # xor x5, x12, x13
    .word 0x0022d293  # srli x5, x5, 2
    .word 0x00c2c8b3  # xor x17, x5, x12
    .word 0x00269693  # slli x13, x13, 2
    .word 0x00d8c7b3  # xor x15, x17, x13
    .word 0x00060993  # addi x19, x12, 0
    .word 0x0344a303  # lw x6, 52(x9)
    .word 0x006a42b3  # xor x5, x20, x6
    .word 0x28012303  # lw x6, 640(x2)
    .word 0x0062f633  # and x12, x5, x6
    .word 0x28412303  # lw x6, 644(x2)
    .word 0x006676b3  # and x13, x12, x6
    .word 0x00d642b3  # xor x5, x12, x13
    .word 0x0022d293  # srli x5, x5, 2
    .word 0x00c2c8b3  # xor x17, x5, x12
    .word 0x00269693  # slli x13, x13, 2
    .word 0x00d8c933  # xor x18, x17, x13
    .word 0x00060a13  # addi x20, x12, 0
    .word 0x0384a303  # lw x6, 56(x9)
    .word 0x006ac2b3  # xor x5, x21, x6
    .word 0x28012303  # lw x6, 640(x2)
    .word 0x0062f633  # and x12, x5, x6
    .word 0x28412303  # lw x6, 644(x2)
    .word 0x006676b3  # and x13, x12, x6
    .word 0x00d642b3  # xor x5, x12, x13
    .word 0x0022d293  # srli x5, x5, 2
    .word 0x00c2c8b3  # xor x17, x5, x12
    .word 0x00269693  # slli x13, x13, 2
    .word 0x00d8c733  # xor x14, x17, x13
    .word 0x00060a93  # addi x21, x12, 0
    .word 0x03c4a303  # lw x6, 60(x9)
    .word 0x006b42b3  # xor x5, x22, x6
    .word 0x28012303  # lw x6, 640(x2)
    .word 0x0062f633  # and x12, x5, x6
    .word 0x28412303  # lw x6, 644(x2)
    .word 0x006676b3  # and x13, x12, x6
    .word 0x00d642b3  # xor x5, x12, x13
    .word 0x0022d293  # srli x5, x5, 2
    .word 0x00c2c8b3  # xor x17, x5, x12
    .word 0x00269693  # slli x13, x13, 2
    .word 0x00d8c2b3  # xor x5, x17, x13
    .word 0x22512423  # sw x5, 552(x2)
    .word 0x00060b13  # addi x22, x12, 0
    .word 0x0404a303  # lw x6, 64(x9)
    .word 0x006bc2b3  # xor x5, x23, x6
    .word 0x28012303  # lw x6, 640(x2)
    .word 0x0062f633  # and x12, x5, x6
    .word 0x28412303  # lw x6, 644(x2)
    .word 0x006676b3  # and x13, x12, x6
    .word 0x00d642b3  # xor x5, x12, x13
    .word 0x0022d293  # srli x5, x5, 2
    .word 0x00c2c8b3  # xor x17, x5, x12
    .word 0x00269693  # slli x13, x13, 2
    .word 0x00d8c2b3  # xor x5, x17, x13
    .word 0x22512823  # sw x5, 560(x2)
    .word 0x00060b93  # addi x23, x12, 0
    .word 0x0444a303  # lw x6, 68(x9)
    .word 0x006c42b3  # xor x5, x24, x6
    .word 0x28012303  # lw x6, 640(x2)
    .word 0x0062f633  # and x12, x5, x6
    .word 0x28412303  # lw x6, 644(x2)
    .word 0x006676b3  # and x13, x12, x6
    .word 0x00d642b3  # xor x5, x12, x13
    .word 0x0022d293  # srli x5, x5, 2
    .word 0x00c2c8b3  # xor x17, x5, x12
    .word 0x00269693  # slli x13, x13, 2
    .word 0x00d8c2b3  # xor x5, x17, x13
    .word 0x24512823  # sw x5, 592(x2)
    .word 0x00060c13  # addi x24, x12, 0
    .word 0x0484a303  # lw x6, 72(x9)
    .word 0x006cc2b3  # xor x5, x25, x6
    .word 0x28012303  # lw x6, 640(x2)
    .word 0x0062f633  # and x12, x5, x6
    .word 0x28412303  # lw x6, 644(x2)
    .word 0x006676b3  # and x13, x12, x6
    .word 0x00d642b3  # xor x5, x12, x13
    .word 0x0022d293  # srli x5, x5, 2
    .word 0x00c2c8b3  # xor x17, x5, x12
    .word 0x00269693  # slli x13, x13, 2
    .word 0x00d8c2b3  # xor x5, x17, x13
    .word 0x24512a23  # sw x5, 596(x2)
    .word 0x00060c93  # addi x25, x12, 0
    .word 0x04c4a303  # lw x6, 76(x9)
    .word 0x006842b3  # xor x5, x16, x6
    .word 0x28012303  # lw x6, 640(x2)
    .word 0x0062f633  # and x12, x5, x6
    .word 0x28412303  # lw x6, 644(x2)
    .word 0x006676b3  # and x13, x12, x6
    .word 0x00d642b3  # xor x5, x12, x13
    .word 0x0022d293  # srli x5, x5, 2
    .word 0x00c2c8b3  # xor x17, x5, x12
    .word 0x00269693  # slli x13, x13, 2
    .word 0x00d8c8b3  # xor x17, x17, x13
    .word 0x00060813  # addi x16, x12, 0
    .word 0x01a00313  # addi x6, x0, 26
    .word 0x44657a63  # bgeu x10, x6, 1108
    .word 0x25412683  # lw x13, 596(x2)
    .word 0x00d9c9b3  # xor x19, x19, x13
    .word 0x00da42b3  # xor x5, x20, x13
    .word 0x0112ca33  # xor x20, x5, x17
    .word 0x00fac2b3  # xor x5, x21, x15
    .word 0x0112cab3  # xor x21, x5, x17
    .word 0x012b42b3  # xor x5, x22, x18
    .word 0x00d2cb33  # xor x22, x5, x13
    .word 0x00ebc2b3  # xor x5, x23, x14
    .word 0x00d2c2b3  # xor x5, x5, x13
    .word 0x0112cbb3  # xor x23, x5, x17
    .word 0x22812303  # lw x6, 552(x2)
    .word 0x006c42b3  # xor x5, x24, x6
    .word 0x0112cc33  # xor x24, x5, x17
    .word 0x23012303  # lw x6, 560(x2)
    .word 0x006cccb3  # xor x25, x25, x6
    .word 0x25012303  # lw x6, 592(x2)
    .word 0x00664733  # xor x14, x12, x6
    .word 0x01a77633  # and x12, x14, x26
    .word 0x00c742b3  # xor x5, x14, x12
    .word 0x0012d293  # srli x5, x5, 1
    .word 0x00361313  # slli x6, x12, 3
    .word 0x0062c2b3  # xor x5, x5, x6
    .word 0x00e2c7b3  # xor x15, x5, x14
    .word 0x00098613  # addi x12, x19, 0
    .word 0x01a676b3  # and x13, x12, x26
    .word 0x00d642b3  # xor x5, x12, x13
    .word 0x0012d293  # srli x5, x5, 1
    .word 0x00369313  # slli x6, x13, 3
    .word 0x0062e6b3  # or x13, x5, x6
    .word 0x00d64633  # xor x12, x12, x13
    .word 0x28412303  # lw x6, 644(x2)
    .word 0x006678b3  # and x17, x12, x6
    .word 0x0007f913  # andi x18, x15, 0
    .word 0x01164333  # xor x6, x12, x17
    .word 0x00235313  # srli x6, x6, 2
    .word 0x0066c2b3  # xor x5, x13, x6
    .word 0x00289313  # slli x6, x17, 2
    .word 0x0062c2b3  # xor x5, x5, x6
    .word 0x00f2c2b3  # xor x5, x5, x15
    .word 0x0122c6b3  # xor x13, x5, x18
    .word 0x00060813  # addi x16, x12, 0
    .word 0x01069613  # slli x12, x13, 16
    .word 0x01065313  # srli x6, x12, 16
    .word 0x00666633  # or x12, x12, x6
    .word 0x01a672b3  # and x5, x12, x26
    .word 0x00c65313  # srli x6, x12, 12
    .word 0x01b37333  # and x6, x6, x27
    .word 0x0062e2b3  # or x5, x5, x6
    .word 0x00865313  # srli x6, x12, 8
    .word 0x00837333  # and x6, x6, x8
    .word 0x0062e6b3  # or x13, x5, x6
    .word 0x00465293  # srli x5, x12, 4
    .word 0x27c12303  # lw x6, 636(x2)
    .word 0x0062f633  # and x12, x5, x6
    .word 0x00c6e9b3  # or x19, x13, x12
    .word 0x000a0613  # addi x12, x20, 0
    .word 0x01a676b3  # and x13, x12, x26
    .word 0x00d642b3  # xor x5, x12, x13
    .word 0x0012d293  # srli x5, x5, 1
    .word 0x00369313  # slli x6, x13, 3
    .word 0x0062e6b3  # or x13, x5, x6
    .word 0x00d64633  # xor x12, x12, x13
    .word 0x28412303  # lw x6, 644(x2)
    .word 0x006678b3  # and x17, x12, x6
    .word 0x01164333  # xor x6, x12, x17
    .word 0x00235313  # srli x6, x6, 2
    .word 0x0066c2b3  # xor x5, x13, x6
    .word 0x00289313  # slli x6, x17, 2
    .word 0x0062c2b3  # xor x5, x5, x6
    .word 0x0102c2b3  # xor x5, x5, x16
    .word 0x00f2c6b3  # xor x13, x5, x15
    .word 0x00060813  # addi x16, x12, 0
    .word 0x01069613  # slli x12, x13, 16
    .word 0x01065313  # srli x6, x12, 16
    .word 0x00666633  # or x12, x12, x6
    .word 0x01a672b3  # and x5, x12, x26
    .word 0x00c65313  # srli x6, x12, 12
    .word 0x01b37333  # and x6, x6, x27
    .word 0x0062e2b3  # or x5, x5, x6
    .word 0x00865313  # srli x6, x12, 8
    .word 0x00837333  # and x6, x6, x8
    .word 0x0062e6b3  # or x13, x5, x6
    .word 0x00465293  # srli x5, x12, 4
    .word 0x27c12303  # lw x6, 636(x2)
    .word 0x0062f633  # and x12, x5, x6
    .word 0x00c6ea33  # or x20, x13, x12
    .word 0x000a8613  # addi x12, x21, 0
    .word 0x01a676b3  # and x13, x12, x26
    .word 0x00d642b3  # xor x5, x12, x13
    .word 0x0012d293  # srli x5, x5, 1
    .word 0x00369313  # slli x6, x13, 3
    .word 0x0062e6b3  # or x13, x5, x6
    .word 0x00d64633  # xor x12, x12, x13
    .word 0x28412303  # lw x6, 644(x2)
    .word 0x006678b3  # and x17, x12, x6
    .word 0x0007f913  # andi x18, x15, 0
    .word 0x01164333  # xor x6, x12, x17
    .word 0x00235313  # srli x6, x6, 2
    .word 0x0066c2b3  # xor x5, x13, x6
    .word 0x00289313  # slli x6, x17, 2
    .word 0x0062c2b3  # xor x5, x5, x6
    .word 0x0102c2b3  # xor x5, x5, x16
    .word 0x0122c6b3  # xor x13, x5, x18
    .word 0x00060813  # addi x16, x12, 0
    .word 0x01069613  # slli x12, x13, 16
    .word 0x01065313  # srli x6, x12, 16
    .word 0x00666633  # or x12, x12, x6
    .word 0x01a672b3  # and x5, x12, x26
    .word 0x00c65313  # srli x6, x12, 12
    .word 0x01b37333  # and x6, x6, x27
    .word 0x0062e2b3  # or x5, x5, x6
    .word 0x00865313  # srli x6, x12, 8
    .word 0x00837333  # and x6, x6, x8
    .word 0x0062e6b3  # or x13, x5, x6
    .word 0x00465293  # srli x5, x12, 4
    .word 0x27c12303  # lw x6, 636(x2)
    .word 0x0062f633  # and x12, x5, x6
    .word 0x00c6eab3  # or x21, x13, x12
    .word 0x000b0613  # addi x12, x22, 0
    .word 0x01a676b3  # and x13, x12, x26
    .word 0x00d642b3  # xor x5, x12, x13
    .word 0x0012d293  # srli x5, x5, 1
    .word 0x00369313  # slli x6, x13, 3
    .word 0x0062e6b3  # or x13, x5, x6
    .word 0x00d64633  # xor x12, x12, x13
    .word 0x28412303  # lw x6, 644(x2)
    .word 0x006678b3  # and x17, x12, x6
    .word 0x01164333  # xor x6, x12, x17
    .word 0x00235313  # srli x6, x6, 2
    .word 0x0066c2b3  # xor x5, x13, x6
    .word 0x00289313  # slli x6, x17, 2
    .word 0x0062c2b3  # xor x5, x5, x6
    .word 0x0102c2b3  # xor x5, x5, x16
    .word 0x00f2c6b3  # xor x13, x5, x15
    .word 0x00060813  # addi x16, x12, 0
    .word 0x01069613  # slli x12, x13, 16
    .word 0x01065313  # srli x6, x12, 16
    .word 0x00666633  # or x12, x12, x6
    .word 0x01a672b3  # and x5, x12, x26
    .word 0x00c65313  # srli x6, x12, 12
    .word 0x01b37333  # and x6, x6, x27
    .word 0x0062e2b3  # or x5, x5, x6
    .word 0x00865313  # srli x6, x12, 8
    .word 0x00837333  # and x6, x6, x8
    .word 0x0062e6b3  # or x13, x5, x6
    .word 0x00465293  # srli x5, x12, 4
    .word 0x27c12303  # lw x6, 636(x2)
    .word 0x0062f633  # and x12, x5, x6
    .word 0x00c6eb33  # or x22, x13, x12
    .word 0x000b8613  # addi x12, x23, 0
    .word 0x01a676b3  # and x13, x12, x26
    .word 0x00d642b3  # xor x5, x12, x13
    .word 0x0012d293  # srli x5, x5, 1
    .word 0x00369313  # slli x6, x13, 3
    .word 0x0062e6b3  # or x13, x5, x6
    .word 0x00d64633  # xor x12, x12, x13
    .word 0x28412303  # lw x6, 644(x2)
    .word 0x006678b3  # and x17, x12, x6
    .word 0x01164333  # xor x6, x12, x17
    .word 0x00235313  # srli x6, x6, 2
    .word 0x0066c2b3  # xor x5, x13, x6
    .word 0x00289313  # slli x6, x17, 2
    .word 0x0062c2b3  # xor x5, x5, x6
    .word 0x0102c2b3  # xor x5, x5, x16
    .word 0x00f2c6b3  # xor x13, x5, x15
    .word 0x00060813  # addi x16, x12, 0
    .word 0x01069613  # slli x12, x13, 16
    .word 0x01065313  # srli x6, x12, 16
    .word 0x00666633  # or x12, x12, x6
    .word 0x01a672b3  # and x5, x12, x26
    .word 0x00c65313  # srli x6, x12, 12
    .word 0x01b37333  # and x6, x6, x27
    .word 0x0062e2b3  # or x5, x5, x6
    .word 0x00865313  # srli x6, x12, 8
    .word 0x00837333  # and x6, x6, x8
    .word 0x0062e6b3  # or x13, x5, x6
    .word 0x00465293  # srli x5, x12, 4
    .word 0x27c12303  # lw x6, 636(x2)
    .word 0x0062f633  # and x12, x5, x6
    .word 0x00c6ebb3  # or x23, x13, x12
    .word 0x000c0613  # addi x12, x24, 0
    .word 0x01a676b3  # and x13, x12, x26
    .word 0x00d642b3  # xor x5, x12, x13
    .word 0x0012d293  # srli x5, x5, 1
    .word 0x00369313  # slli x6, x13, 3
    .word 0x0062e6b3  # or x13, x5, x6
    .word 0x00d64633  # xor x12, x12, x13
    .word 0x28412303  # lw x6, 644(x2)
    .word 0x006678b3  # and x17, x12, x6
    .word 0x0007f913  # andi x18, x15, 0
    .word 0x01164333  # xor x6, x12, x17
    .word 0x00235313  # srli x6, x6, 2
    .word 0x0066c2b3  # xor x5, x13, x6
    .word 0x00289313  # slli x6, x17, 2
    .word 0x0062c2b3  # xor x5, x5, x6
    .word 0x0102c2b3  # xor x5, x5, x16
    .word 0x0122c6b3  # xor x13, x5, x18
    .word 0x00060813  # addi x16, x12, 0
    .word 0x01069613  # slli x12, x13, 16
    .word 0x01065313  # srli x6, x12, 16
    .word 0x00666633  # or x12, x12, x6
    .word 0x01a672b3  # and x5, x12, x26
    .word 0x00c65313  # srli x6, x12, 12
    .word 0x01b37333  # and x6, x6, x27
    .word 0x0062e2b3  # or x5, x5, x6
    .word 0x00865313  # srli x6, x12, 8
    .word 0x00837333  # and x6, x6, x8
    .word 0x0062e6b3  # or x13, x5, x6
    .word 0x00465293  # srli x5, x12, 4
    .word 0x27c12303  # lw x6, 636(x2)
    .word 0x0062f633  # and x12, x5, x6
    .word 0x00c6ec33  # or x24, x13, x12
    .word 0x000c8613  # addi x12, x25, 0
    .word 0x01a676b3  # and x13, x12, x26
    .word 0x00d642b3  # xor x5, x12, x13
    .word 0x0012d293  # srli x5, x5, 1
    .word 0x00369313  # slli x6, x13, 3
    .word 0x0062e6b3  # or x13, x5, x6
    .word 0x00d64633  # xor x12, x12, x13
    .word 0x28412303  # lw x6, 644(x2)
    .word 0x006678b3  # and x17, x12, x6
    .word 0x0007f913  # andi x18, x15, 0
    .word 0x01164333  # xor x6, x12, x17
    .word 0x00235313  # srli x6, x6, 2
    .word 0x0066c2b3  # xor x5, x13, x6
    .word 0x00289313  # slli x6, x17, 2
    .word 0x0062c2b3  # xor x5, x5, x6
    .word 0x0102c2b3  # xor x5, x5, x16
    .word 0x0122c6b3  # xor x13, x5, x18
    .word 0x00060813  # addi x16, x12, 0
    .word 0x01069613  # slli x12, x13, 16
    .word 0x01065313  # srli x6, x12, 16
    .word 0x00666633  # or x12, x12, x6
    .word 0x01a672b3  # and x5, x12, x26
    .word 0x00c65313  # srli x6, x12, 12
    .word 0x01b37333  # and x6, x6, x27
    .word 0x0062e2b3  # or x5, x5, x6
    .word 0x00865313  # srli x6, x12, 8
    .word 0x00837333  # and x6, x6, x8
    .word 0x0062e6b3  # or x13, x5, x6
    .word 0x00465293  # srli x5, x12, 4
    .word 0x27c12303  # lw x6, 636(x2)
    .word 0x0062f633  # and x12, x5, x6
    .word 0x00c6ecb3  # or x25, x13, x12
    .word 0x00070613  # addi x12, x14, 0
    .word 0x01a676b3  # and x13, x12, x26
    .word 0x00d642b3  # xor x5, x12, x13
    .word 0x0012d293  # srli x5, x5, 1
    .word 0x00369313  # slli x6, x13, 3
    .word 0x0062e6b3  # or x13, x5, x6
    .word 0x00d64633  # xor x12, x12, x13
    .word 0x28412303  # lw x6, 644(x2)
    .word 0x006678b3  # and x17, x12, x6
    .word 0x0007f913  # andi x18, x15, 0
    .word 0x01164333  # xor x6, x12, x17
    .word 0x00235313  # srli x6, x6, 2
    .word 0x0066c2b3  # xor x5, x13, x6
    .word 0x00289313  # slli x6, x17, 2
    .word 0x0062c2b3  # xor x5, x5, x6
    .word 0x0102c2b3  # xor x5, x5, x16
    .word 0x0122c6b3  # xor x13, x5, x18
    .word 0x01069613  # slli x12, x13, 16
    .word 0x01065313  # srli x6, x12, 16
    .word 0x00666633  # or x12, x12, x6
    .word 0x01a672b3  # and x5, x12, x26
    .word 0x00c65313  # srli x6, x12, 12
    .word 0x01b37333  # and x6, x6, x27
    .word 0x0062e2b3  # or x5, x5, x6
    .word 0x00865313  # srli x6, x12, 8
    .word 0x00837333  # and x6, x6, x8
    .word 0x0062e6b3  # or x13, x5, x6
    .word 0x00465293  # srli x5, x12, 4
    .word 0x27c12303  # lw x6, 636(x2)
    .word 0x0062f633  # and x12, x5, x6
    .word 0x00c6e833  # or x16, x13, x12
    .word 0xfe1fe06f  # jal x0, -4128
    .word 0x0019d293  # srli x5, x19, 1
    .word 0x0142c2b3  # xor x5, x5, x20
    .word 0x27012303  # lw x6, 624(x2)
    .word 0x0062f633  # and x12, x5, x6
    .word 0x00ca4a33  # xor x20, x20, x12
    .word 0x00161313  # slli x6, x12, 1
    .word 0x0069c633  # xor x12, x19, x6
    .word 0x001ad293  # srli x5, x21, 1
    .word 0x0162c2b3  # xor x5, x5, x22
    .word 0x27012303  # lw x6, 624(x2)
    .word 0x0062f6b3  # and x13, x5, x6
    .word 0x00db4b33  # xor x22, x22, x13
    .word 0x00169313  # slli x6, x13, 1
    .word 0x006ac6b3  # xor x13, x21, x6
    .word 0x001bd293  # srli x5, x23, 1
    .word 0x0182c2b3  # xor x5, x5, x24
    .word 0x27012303  # lw x6, 624(x2)
    .word 0x0062f8b3  # and x17, x5, x6
    .word 0x011c4c33  # xor x24, x24, x17
    .word 0x00189313  # slli x6, x17, 1
    .word 0x006bc8b3  # xor x17, x23, x6
    .word 0x001cd293  # srli x5, x25, 1
    .word 0x0102c2b3  # xor x5, x5, x16
    .word 0x27012303  # lw x6, 624(x2)
    .word 0x0062fab3  # and x21, x5, x6
    .word 0x01584833  # xor x16, x16, x21
    .word 0x001a9313  # slli x6, x21, 1
    .word 0x006cccb3  # xor x25, x25, x6
    .word 0x00265293  # srli x5, x12, 2
    .word 0x00d2c2b3  # xor x5, x5, x13
    .word 0x27412303  # lw x6, 628(x2)
    .word 0x0062fbb3  # and x23, x5, x6
    .word 0x0176cab3  # xor x21, x13, x23
    .word 0x002b9313  # slli x6, x23, 2
    .word 0x00664633  # xor x12, x12, x6
    .word 0x002a5293  # srli x5, x20, 2
    .word 0x0162c2b3  # xor x5, x5, x22
    .word 0x27412303  # lw x6, 628(x2)
    .word 0x0062f6b3  # and x13, x5, x6
    .word 0x00db4b33  # xor x22, x22, x13
    .word 0x00269313  # slli x6, x13, 2
    .word 0x006a46b3  # xor x13, x20, x6
    .word 0x0028d293  # srli x5, x17, 2
    .word 0x0192c2b3  # xor x5, x5, x25
    .word 0x27412303  # lw x6, 628(x2)
    .word 0x0062fa33  # and x20, x5, x6
    .word 0x014cccb3  # xor x25, x25, x20
    .word 0x002a1313  # slli x6, x20, 2
    .word 0x0068c8b3  # xor x17, x17, x6
    .word 0x002c5293  # srli x5, x24, 2
    .word 0x0102c2b3  # xor x5, x5, x16
    .word 0x27412303  # lw x6, 628(x2)
    .word 0x0062fa33  # and x20, x5, x6
    .word 0x01484833  # xor x16, x16, x20
    .word 0x002a1313  # slli x6, x20, 2
    .word 0x006c4c33  # xor x24, x24, x6
    .word 0x00465293  # srli x5, x12, 4
    .word 0x0112c2b3  # xor x5, x5, x17
    .word 0x27812303  # lw x6, 632(x2)
    .word 0x0062fa33  # and x20, x5, x6
    .word 0x0148cbb3  # xor x23, x17, x20
    .word 0x004a1313  # slli x6, x20, 4
    .word 0x00664633  # xor x12, x12, x6
    .word 0x0046d293  # srli x5, x13, 4
    .word 0x0182c2b3  # xor x5, x5, x24
    .word 0x27812303  # lw x6, 632(x2)
    .word 0x0062f8b3  # and x17, x5, x6
    .word 0x011c4c33  # xor x24, x24, x17
    .word 0x00489313  # slli x6, x17, 4
    .word 0x0066c6b3  # xor x13, x13, x6
    .word 0x004ad293  # srli x5, x21, 4
    .word 0x0192c2b3  # xor x5, x5, x25
    .word 0x27812303  # lw x6, 632(x2)
    .word 0x0062f8b3  # and x17, x5, x6
    .word 0x011cccb3  # xor x25, x25, x17
    .word 0x00489313  # slli x6, x17, 4
    .word 0x006ac8b3  # xor x17, x21, x6
    .word 0x004b5293  # srli x5, x22, 4
    .word 0x0102c2b3  # xor x5, x5, x16
    .word 0x27812303  # lw x6, 632(x2)
    .word 0x0062fa33  # and x20, x5, x6
    .word 0x01484833  # xor x16, x16, x20
    .word 0x004a1313  # slli x6, x20, 4
    .word 0x006b4b33  # xor x22, x22, x6
    .word 0x02c10023  # sb x12, 32(x2)
    .word 0x00865293  # srli x5, x12, 8
    .word 0x02510423  # sb x5, 40(x2)
    .word 0x00068613  # addi x12, x13, 0
    .word 0x02c100a3  # sb x12, 33(x2)
    .word 0x00865293  # srli x5, x12, 8
    .word 0x025104a3  # sb x5, 41(x2)
    .word 0x00088613  # addi x12, x17, 0
    .word 0x02c10123  # sb x12, 34(x2)
    .word 0x00865293  # srli x5, x12, 8
    .word 0x02510523  # sb x5, 42(x2)
    .word 0x000b0613  # addi x12, x22, 0
    .word 0x02c101a3  # sb x12, 35(x2)
    .word 0x00865293  # srli x5, x12, 8
    .word 0x025105a3  # sb x5, 43(x2)
    .word 0x000b8613  # addi x12, x23, 0
    .word 0x02c10223  # sb x12, 36(x2)
    .word 0x00865293  # srli x5, x12, 8
    .word 0x02510623  # sb x5, 44(x2)
    .word 0x000c0613  # addi x12, x24, 0
    .word 0x02c102a3  # sb x12, 37(x2)
    .word 0x00865293  # srli x5, x12, 8
    .word 0x025106a3  # sb x5, 45(x2)
    .word 0x000c8613  # addi x12, x25, 0
    .word 0x02c10323  # sb x12, 38(x2)
    .word 0x00865293  # srli x5, x12, 8
    .word 0x02510723  # sb x5, 46(x2)
    .word 0x00080613  # addi x12, x16, 0
    .word 0x02c103a3  # sb x12, 39(x2)
    .word 0x00865293  # srli x5, x12, 8
    .word 0x025107a3  # sb x5, 47(x2)
    # the result
    .word 0x00000513  # addi x10, x0, 0
    # parameter 1: the array, back
    .word 0x02010293  # addi x5, x2, 32
    .word 0x2dc12303  # lw x6, 732(x2)
    .word 0x01028393  # addi x7, x5, 16
    .word 0x09000f6f  # jal x30, 144
    # above the frame
    .word 0x2a010293  # addi x5, x2, 672
    # the caller's registers
    .word 0x0002a403  # lw x8, 0(x5)
    .cfi_restore 8
    .word 0x0042a483  # lw x9, 4(x5)
    .cfi_restore 9
    .word 0x0082a903  # lw x18, 8(x5)
    .cfi_restore 18
    .word 0x00c2a983  # lw x19, 12(x5)
    .cfi_restore 19
    .word 0x0102aa03  # lw x20, 16(x5)
    .cfi_restore 20
    .word 0x0142aa83  # lw x21, 20(x5)
    .cfi_restore 21
    .word 0x0182ab03  # lw x22, 24(x5)
    .cfi_restore 22
    .word 0x01c2ab83  # lw x23, 28(x5)
    .cfi_restore 23
    .word 0x0202ac03  # lw x24, 32(x5)
    .cfi_restore 24
    .word 0x0242ac83  # lw x25, 36(x5)
    .cfi_restore 25
    .word 0x0282ad03  # lw x26, 40(x5)
    .cfi_restore 26
    .word 0x02c2ad83  # lw x27, 44(x5)
    .cfi_restore 27
    # the caller's x2
    .word 0x04028293  # addi x5, x5, 64
    .cfi_def_cfa 5, 0
    # all the room, wiped upward
    .word 0x00012023  # sw x0, 0(x2)
    .word 0x00012223  # sw x0, 4(x2)
    .word 0x00012423  # sw x0, 8(x2)
    .word 0x00012623  # sw x0, 12(x2)
    .word 0x01010113  # addi x2, x2, 16
    .word 0xfe5116e3  # bne x2, x5, -20
    .cfi_def_cfa 2, 0
    # temporaries, wiped
    .word 0x00000293  # addi x5, x0, 0
    .word 0x00000313  # addi x6, x0, 0
    .word 0x00000393  # addi x7, x0, 0
    .word 0x00000593  # addi x11, x0, 0
    .word 0x00000613  # addi x12, x0, 0
    .word 0x00000693  # addi x13, x0, 0
    .word 0x00000713  # addi x14, x0, 0
    .word 0x00000793  # addi x15, x0, 0
    .word 0x00000813  # addi x16, x0, 0
    .word 0x00000893  # addi x17, x0, 0
    .word 0x00000e13  # addi x28, x0, 0
    .word 0x00000e93  # addi x29, x0, 0
    .word 0x00000f13  # addi x30, x0, 0
    .word 0x00000f93  # addi x31, x0, 0
    # back
    .word 0x00008067  # jalr x0, 0(x1)
    # from x5 to x6 up to x7, and back
    .cfi_def_cfa 2, 736
    .cfi_offset 8, -64
    .cfi_offset 9, -60
    .cfi_offset 18, -56
    .cfi_offset 19, -52
    .cfi_offset 20, -48
    .cfi_offset 21, -44
    .cfi_offset 22, -40
    .cfi_offset 23, -36
    .cfi_offset 24, -32
    .cfi_offset 25, -28
    .cfi_offset 26, -24
    .cfi_offset 27, -20
    .word 0x0062ee33  # or x28, x5, x6
    .word 0x003e7e13  # andi x28, x28, 3
    .word 0x000e0e63  # beq x28, x0, 28
    .word 0x0002ce03  # lbu x28, 0(x5)
    .word 0x01c30023  # sb x28, 0(x6)
    .word 0x00128293  # addi x5, x5, 1
    .word 0x00130313  # addi x6, x6, 1
    .word 0xfe7298e3  # bne x5, x7, -16
    .word 0x0300006f  # jal x0, 48
    .word 0x0002ae03  # lw x28, 0(x5)
    .word 0x01c32023  # sw x28, 0(x6)
    .word 0x0042ae03  # lw x28, 4(x5)
    .word 0x01c32223  # sw x28, 4(x6)
    .word 0x0082ae03  # lw x28, 8(x5)
    .word 0x01c32423  # sw x28, 8(x6)
    .word 0x00c2ae03  # lw x28, 12(x5)
    .word 0x01c32623  # sw x28, 12(x6)
    .word 0x01028293  # addi x5, x5, 16
    .word 0x01030313  # addi x6, x6, 16
    .word 0xfc729ce3  # bne x5, x7, -40
    .word 0x000f0067  # jalr x0, 0(x30)
    .cfi_endproc
    .size aes256_decrypt, . - aes256_decrypt
    .option pop
