# aes128_decrypt: made by factc 1.0.0 function; 1495 words, 592 bytes of stack, profile 1
    .option push
    .option norvc
    .option norelax
    .cfi_sections .debug_frame
    .section .text.aes128_decrypt, "ax", @progbits
    .p2align 2
    .globl aes128_decrypt
    .type aes128_decrypt, @function
aes128_decrypt:
    .cfi_startproc
    # room above the frame
    .word 0xfc010113  # addi x2, x2, -64
    .cfi_def_cfa_offset 64
    # the caller's registers
    .word 0x00912023  # sw x9, 0(x2)
    .cfi_offset 9, -64
    .word 0x01212223  # sw x18, 4(x2)
    .cfi_offset 18, -60
    .word 0x01312423  # sw x19, 8(x2)
    .cfi_offset 19, -56
    .word 0x01412623  # sw x20, 12(x2)
    .cfi_offset 20, -52
    .word 0x01512823  # sw x21, 16(x2)
    .cfi_offset 21, -48
    .word 0x01612a23  # sw x22, 20(x2)
    .cfi_offset 22, -44
    .word 0x01712c23  # sw x23, 24(x2)
    .cfi_offset 23, -40
    .word 0x01812e23  # sw x24, 28(x2)
    .cfi_offset 24, -36
    .word 0x03912023  # sw x25, 32(x2)
    .cfi_offset 25, -32
    .word 0x03a12223  # sw x26, 36(x2)
    .cfi_offset 26, -28
    .word 0x03b12423  # sw x27, 40(x2)
    .cfi_offset 27, -24
    # arguments that are needed behind the body
    .word 0x02a12c23  # sw x10, 56(x2)
    .word 0x02b12e23  # sw x11, 60(x2)
    # the frame's base
    .word 0xdf010113  # addi x2, x2, -528
    .cfi_def_cfa 2, 592
    # parameter 0: an array
    .word 0x00050293  # addi x5, x10, 0
    .word 0x00010313  # addi x6, x2, 0
    .word 0x01028393  # addi x7, x5, 16
    .word 0x6c001f6f  # jal x30, 5824
    # parameter 1: an array
    .word 0x00058293  # addi x5, x11, 0
    .word 0x01010313  # addi x6, x2, 16
    .word 0x01028393  # addi x7, x5, 16
    .word 0x6b001f6f  # jal x30, 5808
    # the body
    .word 0x555552b7  # lui x5, 0x55555
    .word 0x55528293  # addi x5, x5, 1365
    .word 0x1e512423  # sw x5, 488(x2)
    .word 0x333332b7  # lui x5, 0x33333
    .word 0x33328293  # addi x5, x5, 819
    .word 0x1e512623  # sw x5, 492(x2)
    .word 0x0f0f12b7  # lui x5, 0x0f0f1
    .word 0xf0f28293  # addi x5, x5, -241
    .word 0x1e512823  # sw x5, 496(x2)
    .word 0x00001c37  # lui x24, 0x00001
    .word 0x111c0c13  # addi x24, x24, 273
    .word 0x00002cb7  # lui x25, 0x00002
    .word 0x222c8c93  # addi x25, x25, 546
    .word 0x00004d37  # lui x26, 0x00004
    .word 0x444d0d13  # addi x26, x26, 1092
    .word 0x00009db7  # lui x27, 0x00009
    .word 0x888d8d93  # addi x27, x27, -1912
    .word 0x000102b7  # lui x5, 0x00010
    .word 0xfff28293  # addi x5, x5, -1
    .word 0x1e512a23  # sw x5, 500(x2)
    .word 0x000032b7  # lui x5, 0x00003
    .word 0x33328293  # addi x5, x5, 819
    .word 0x1e512c23  # sw x5, 504(x2)
    .word 0x02000313  # addi x6, x0, 32
    .word 0x00230333  # add x6, x6, x2
    .word 0x16000393  # addi x7, x0, 352
    .word 0x006383b3  # add x7, x7, x6
    .word 0x406382b3  # sub x5, x7, x6
    .word 0x00029463  # bne x5, x0, 8
    .word 0x0100006f  # jal x0, 16
    .word 0x00032023  # sw x0, 0(x6)
    .word 0x00430313  # addi x6, x6, 4
    .word 0xfedff06f  # jal x0, -20
    .word 0x00100293  # addi x5, x0, 1
    .word 0x18512023  # sw x5, 384(x2)
    .word 0x01014283  # lbu x5, 16(x2)
    .word 0x01814303  # lbu x6, 24(x2)
    .word 0x00831313  # slli x6, x6, 8
    .word 0x0062e5b3  # or x11, x5, x6
    .word 0x00014283  # lbu x5, 0(x2)
    .word 0x01029293  # slli x5, x5, 16
    .word 0x00814303  # lbu x6, 8(x2)
    .word 0x01831313  # slli x6, x6, 24
    .word 0x0062e633  # or x12, x5, x6
    .word 0x00c5eb33  # or x22, x11, x12
    .word 0x01114283  # lbu x5, 17(x2)
    .word 0x01914303  # lbu x6, 25(x2)
    .word 0x00831313  # slli x6, x6, 8
    .word 0x0062e5b3  # or x11, x5, x6
    .word 0x00114283  # lbu x5, 1(x2)
    .word 0x01029293  # slli x5, x5, 16
    .word 0x00914303  # lbu x6, 9(x2)
    .word 0x01831313  # slli x6, x6, 24
    .word 0x0062e633  # or x12, x5, x6
    .word 0x00c5e733  # or x14, x11, x12
    .word 0x01214283  # lbu x5, 18(x2)
    .word 0x01a14303  # lbu x6, 26(x2)
    .word 0x00831313  # slli x6, x6, 8
    .word 0x0062e5b3  # or x11, x5, x6
    .word 0x00214283  # lbu x5, 2(x2)
    .word 0x01029293  # slli x5, x5, 16
    .word 0x00a14303  # lbu x6, 10(x2)
    .word 0x01831313  # slli x6, x6, 24
    .word 0x0062e633  # or x12, x5, x6
    .word 0x00c5ea33  # or x20, x11, x12
    .word 0x01314283  # lbu x5, 19(x2)
    .word 0x01b14303  # lbu x6, 27(x2)
    .word 0x00831313  # slli x6, x6, 8
    .word 0x0062e5b3  # or x11, x5, x6
    .word 0x00314283  # lbu x5, 3(x2)
    .word 0x01029293  # slli x5, x5, 16
    .word 0x00b14303  # lbu x6, 11(x2)
    .word 0x01831313  # slli x6, x6, 24
    .word 0x0062e633  # or x12, x5, x6
    .word 0x00c5e7b3  # or x15, x11, x12
    .word 0x01414283  # lbu x5, 20(x2)
    .word 0x01c14303  # lbu x6, 28(x2)
    .word 0x00831313  # slli x6, x6, 8
    .word 0x0062e5b3  # or x11, x5, x6
    .word 0x00414283  # lbu x5, 4(x2)
    .word 0x01029293  # slli x5, x5, 16
    .word 0x00c14303  # lbu x6, 12(x2)
    .word 0x01831313  # slli x6, x6, 24
    .word 0x0062e633  # or x12, x5, x6
    .word 0x00c5e2b3  # or x5, x11, x12
    .word 0x1c512c23  # sw x5, 472(x2)
    .word 0x01514283  # lbu x5, 21(x2)
    .word 0x01d14303  # lbu x6, 29(x2)
    .word 0x00831313  # slli x6, x6, 8
    .word 0x0062e5b3  # or x11, x5, x6
    .word 0x00514283  # lbu x5, 5(x2)
    .word 0x01029293  # slli x5, x5, 16
    .word 0x00d14303  # lbu x6, 13(x2)
    .word 0x01831313  # slli x6, x6, 24
    .word 0x0062e633  # or x12, x5, x6
    .word 0x00c5e2b3  # or x5, x11, x12
    .word 0x1c512e23  # sw x5, 476(x2)
    .word 0x01614283  # lbu x5, 22(x2)
    .word 0x01e14303  # lbu x6, 30(x2)
    .word 0x00831313  # slli x6, x6, 8
    .word 0x0062e5b3  # or x11, x5, x6
    .word 0x00614283  # lbu x5, 6(x2)
    .word 0x01029293  # slli x5, x5, 16
    .word 0x00e14303  # lbu x6, 14(x2)
    .word 0x01831313  # slli x6, x6, 24
    .word 0x0062e633  # or x12, x5, x6
    .word 0x00c5e2b3  # or x5, x11, x12
    .word 0x1e512023  # sw x5, 480(x2)
    .word 0x01714283  # lbu x5, 23(x2)
    .word 0x01f14303  # lbu x6, 31(x2)
    .word 0x00831313  # slli x6, x6, 8
    .word 0x0062e5b3  # or x11, x5, x6
    .word 0x00714283  # lbu x5, 7(x2)
    .word 0x01029293  # slli x5, x5, 16
    .word 0x00f14303  # lbu x6, 15(x2)
    .word 0x01831313  # slli x6, x6, 24
    .word 0x0062e633  # or x12, x5, x6
    .word 0x00c5e2b3  # or x5, x11, x12
    .word 0x1e512223  # sw x5, 484(x2)
    .word 0x001b5293  # srli x5, x22, 1
    .word 0x00e2c2b3  # xor x5, x5, x14
    .word 0x1e812303  # lw x6, 488(x2)
    .word 0x0062f5b3  # and x11, x5, x6
    .word 0x00b74733  # xor x14, x14, x11
    .word 0x00159313  # slli x6, x11, 1
    .word 0x006b45b3  # xor x11, x22, x6
    .word 0x001a5293  # srli x5, x20, 1
    .word 0x00f2c2b3  # xor x5, x5, x15
    .word 0x1e812303  # lw x6, 488(x2)
    .word 0x0062f633  # and x12, x5, x6
    .word 0x00c7c7b3  # xor x15, x15, x12
    .word 0x00161313  # slli x6, x12, 1
    .word 0x006a4633  # xor x12, x20, x6
    .word 0x1d812283  # lw x5, 472(x2)
    .word 0x0012d293  # srli x5, x5, 1
    .word 0x1dc12303  # lw x6, 476(x2)
    .word 0x0062c2b3  # xor x5, x5, x6
    .word 0x1e812303  # lw x6, 488(x2)
    .word 0x0062fa33  # and x20, x5, x6
    .word 0x1dc12283  # lw x5, 476(x2)
    .word 0x0142c2b3  # xor x5, x5, x20
    .word 0x1c512e23  # sw x5, 476(x2)
    .word 0x1d812283  # lw x5, 472(x2)
    .word 0x001a1313  # slli x6, x20, 1
    .word 0x0062cb33  # xor x22, x5, x6
    .word 0x1e012283  # lw x5, 480(x2)
    .word 0x0012d293  # srli x5, x5, 1
    .word 0x1e412303  # lw x6, 484(x2)
    .word 0x0062c2b3  # xor x5, x5, x6
    .word 0x1e812303  # lw x6, 488(x2)
    .word 0x0062fa33  # and x20, x5, x6
    .word 0x1e412283  # lw x5, 484(x2)
    .word 0x0142c2b3  # xor x5, x5, x20
    .word 0x1e512223  # sw x5, 484(x2)
    .word 0x1e012283  # lw x5, 480(x2)
    .word 0x001a1313  # slli x6, x20, 1
    .word 0x0062cbb3  # xor x23, x5, x6
    .word 0x0025d293  # srli x5, x11, 2
    .word 0x00c2c2b3  # xor x5, x5, x12
    .word 0x1ec12303  # lw x6, 492(x2)
    .word 0x0062f933  # and x18, x5, x6
    .word 0x01264a33  # xor x20, x12, x18
    .word 0x00291313  # slli x6, x18, 2
    .word 0x0065c5b3  # xor x11, x11, x6
    .word 0x00275293  # srli x5, x14, 2
    .word 0x00f2c2b3  # xor x5, x5, x15
    .word 0x1ec12303  # lw x6, 492(x2)
    .word 0x0062f633  # and x12, x5, x6
    .word 0x00c7c7b3  # xor x15, x15, x12
    .word 0x00261313  # slli x6, x12, 2
    .word 0x00674633  # xor x12, x14, x6
    .word 0x002b5293  # srli x5, x22, 2
    .word 0x0172c2b3  # xor x5, x5, x23
    .word 0x1ec12303  # lw x6, 492(x2)
    .word 0x0062f733  # and x14, x5, x6
    .word 0x00ebc2b3  # xor x5, x23, x14
    .word 0x1e512023  # sw x5, 480(x2)
    .word 0x00271313  # slli x6, x14, 2
    .word 0x006b4733  # xor x14, x22, x6
    .word 0x1dc12283  # lw x5, 476(x2)
    .word 0x0022d293  # srli x5, x5, 2
    .word 0x1e412303  # lw x6, 484(x2)
    .word 0x0062c2b3  # xor x5, x5, x6
    .word 0x1ec12303  # lw x6, 492(x2)
    .word 0x0062fb33  # and x22, x5, x6
    .word 0x1e412283  # lw x5, 484(x2)
    .word 0x0162c2b3  # xor x5, x5, x22
    .word 0x1e512223  # sw x5, 484(x2)
    .word 0x1dc12283  # lw x5, 476(x2)
    .word 0x002b1313  # slli x6, x22, 2
    .word 0x0062cb33  # xor x22, x5, x6
    .word 0x0045d293  # srli x5, x11, 4
    .word 0x00e2c2b3  # xor x5, x5, x14
    .word 0x1f012303  # lw x6, 496(x2)
    .word 0x0062fbb3  # and x23, x5, x6
    .word 0x017742b3  # xor x5, x14, x23
    .word 0x1c512c23  # sw x5, 472(x2)
    .word 0x004b9313  # slli x6, x23, 4
    .word 0x0065c2b3  # xor x5, x11, x6
    .word 0x18512223  # sw x5, 388(x2)
    .word 0x00465293  # srli x5, x12, 4
    .word 0x0162c2b3  # xor x5, x5, x22
    .word 0x1f012303  # lw x6, 496(x2)
    .word 0x0062f5b3  # and x11, x5, x6
    .word 0x00bb42b3  # xor x5, x22, x11
    .word 0x1c512e23  # sw x5, 476(x2)
    .word 0x00459313  # slli x6, x11, 4
    .word 0x006642b3  # xor x5, x12, x6
    .word 0x18512423  # sw x5, 392(x2)
    .word 0x004a5293  # srli x5, x20, 4
    .word 0x1e012303  # lw x6, 480(x2)
    .word 0x0062c2b3  # xor x5, x5, x6
    .word 0x1f012303  # lw x6, 496(x2)
    .word 0x0062f5b3  # and x11, x5, x6
    .word 0x1e012283  # lw x5, 480(x2)
    .word 0x00b2c2b3  # xor x5, x5, x11
    .word 0x1e512023  # sw x5, 480(x2)
    .word 0x00459313  # slli x6, x11, 4
    .word 0x006a42b3  # xor x5, x20, x6
    .word 0x18512623  # sw x5, 396(x2)
    .word 0x0047d293  # srli x5, x15, 4
    .word 0x1e412303  # lw x6, 484(x2)
    .word 0x0062c2b3  # xor x5, x5, x6
    .word 0x1f012303  # lw x6, 496(x2)
    .word 0x0062f5b3  # and x11, x5, x6
    .word 0x1e412283  # lw x5, 484(x2)
    .word 0x00b2c2b3  # xor x5, x5, x11
    .word 0x1e512223  # sw x5, 484(x2)
    .word 0x00459313  # slli x6, x11, 4
    .word 0x0067c2b3  # xor x5, x15, x6
    .word 0x18512823  # sw x5, 400(x2)
    .word 0x18412283  # lw x5, 388(x2)
    .word 0x0102d593  # srli x11, x5, 16
    .word 0x02b12023  # sw x11, 32(x2)
    .word 0x00058893  # addi x17, x11, 0
    .word 0x18812283  # lw x5, 392(x2)
    .word 0x0102d593  # srli x11, x5, 16
    .word 0x02b12223  # sw x11, 36(x2)
    .word 0x00058913  # addi x18, x11, 0
    .word 0x18c12283  # lw x5, 396(x2)
    .word 0x0102d593  # srli x11, x5, 16
    .word 0x02b12423  # sw x11, 40(x2)
    .word 0x00058993  # addi x19, x11, 0
    .word 0x19012283  # lw x5, 400(x2)
    .word 0x0102d593  # srli x11, x5, 16
    .word 0x02b12623  # sw x11, 44(x2)
    .word 0x00058a13  # addi x20, x11, 0
    .word 0x1d812283  # lw x5, 472(x2)
    .word 0x0102d593  # srli x11, x5, 16
    .word 0x02b12823  # sw x11, 48(x2)
    .word 0x00058a93  # addi x21, x11, 0
    .word 0x1dc12283  # lw x5, 476(x2)
    .word 0x0102d593  # srli x11, x5, 16
    .word 0x02b12a23  # sw x11, 52(x2)
    .word 0x00058b13  # addi x22, x11, 0
    .word 0x1e012283  # lw x5, 480(x2)
    .word 0x0102d593  # srli x11, x5, 16
    .word 0x02b12c23  # sw x11, 56(x2)
    .word 0x00058b93  # addi x23, x11, 0
    .word 0x1e412283  # lw x5, 484(x2)
    .word 0x0102d593  # srli x11, x5, 16
    .word 0x02b12e23  # sw x11, 60(x2)
    .word 0x00058713  # addi x14, x11, 0
    .word 0x20012023  # sw x0, 512(x2)
    .word 0x01400293  # addi x5, x0, 20
    .word 0x20512223  # sw x5, 516(x2)
    .word 0x20012303  # lw x6, 512(x2)
    .word 0x20412283  # lw x5, 516(x2)
    .word 0x005332b3  # sltu x5, x6, x5
    .word 0x00029463  # bne x5, x0, 8
    .word 0x00c0106f  # jal x0, 4108
    .word 0x18612a23  # sw x6, 404(x2)
    .word 0x00130313  # addi x6, x6, 1
    .word 0x20612023  # sw x6, 512(x2)
    .word 0x19412283  # lw x5, 404(x2)
    .word 0x00a00313  # addi x6, x0, 10
    .word 0x20629263  # bne x5, x6, 516
    .word 0x16012283  # lw x5, 352(x2)
    .word 0x18412303  # lw x6, 388(x2)
    .word 0x0062c5b3  # xor x11, x5, x6
    .word 0x01059593  # slli x11, x11, 16
    .word 0x0105d313  # srli x6, x11, 16
    .word 0x0065e5b3  # or x11, x11, x6
    .word 0x0185f2b3  # and x5, x11, x24
    .word 0x00c5d313  # srli x6, x11, 12
    .word 0x01937333  # and x6, x6, x25
    .word 0x0062e2b3  # or x5, x5, x6
    .word 0x0085d313  # srli x6, x11, 8
    .word 0x01a37333  # and x6, x6, x26
    .word 0x0062e633  # or x12, x5, x6
    .word 0x0045d293  # srli x5, x11, 4
    .word 0x01b2f5b3  # and x11, x5, x27
    .word 0x00b668b3  # or x17, x12, x11
    .word 0x16412283  # lw x5, 356(x2)
    .word 0x18812303  # lw x6, 392(x2)
    .word 0x0062c5b3  # xor x11, x5, x6
    .word 0x01059593  # slli x11, x11, 16
    .word 0x0105d313  # srli x6, x11, 16
    .word 0x0065e5b3  # or x11, x11, x6
    .word 0x0185f2b3  # and x5, x11, x24
    .word 0x00c5d313  # srli x6, x11, 12
    .word 0x01937333  # and x6, x6, x25
    .word 0x0062e2b3  # or x5, x5, x6
    .word 0x0085d313  # srli x6, x11, 8
    .word 0x01a37333  # and x6, x6, x26
    .word 0x0062e633  # or x12, x5, x6
    .word 0x0045d293  # srli x5, x11, 4
    .word 0x01b2f5b3  # and x11, x5, x27
    .word 0x00b66933  # or x18, x12, x11
    .word 0x16812283  # lw x5, 360(x2)
    .word 0x18c12303  # lw x6, 396(x2)
    .word 0x0062c5b3  # xor x11, x5, x6
    .word 0x01059593  # slli x11, x11, 16
    .word 0x0105d313  # srli x6, x11, 16
    .word 0x0065e5b3  # or x11, x11, x6
    .word 0x0185f2b3  # and x5, x11, x24
    .word 0x00c5d313  # srli x6, x11, 12
    .word 0x01937333  # and x6, x6, x25
    .word 0x0062e2b3  # or x5, x5, x6
    .word 0x0085d313  # srli x6, x11, 8
    .word 0x01a37333  # and x6, x6, x26
    .word 0x0062e633  # or x12, x5, x6
    .word 0x0045d293  # srli x5, x11, 4
    .word 0x01b2f5b3  # and x11, x5, x27
    .word 0x00b669b3  # or x19, x12, x11
    .word 0x16c12283  # lw x5, 364(x2)
    .word 0x19012303  # lw x6, 400(x2)
    .word 0x0062c5b3  # xor x11, x5, x6
    .word 0x01059593  # slli x11, x11, 16
    .word 0x0105d313  # srli x6, x11, 16
    .word 0x0065e5b3  # or x11, x11, x6
    .word 0x0185f2b3  # and x5, x11, x24
    .word 0x00c5d313  # srli x6, x11, 12
    .word 0x01937333  # and x6, x6, x25
    .word 0x0062e2b3  # or x5, x5, x6
    .word 0x0085d313  # srli x6, x11, 8
    .word 0x01a37333  # and x6, x6, x26
    .word 0x0062e633  # or x12, x5, x6
    .word 0x0045d293  # srli x5, x11, 4
    .word 0x01b2f5b3  # and x11, x5, x27
    .word 0x00b66a33  # or x20, x12, x11
    .word 0x17012283  # lw x5, 368(x2)
    .word 0x1d812303  # lw x6, 472(x2)
    .word 0x0062c5b3  # xor x11, x5, x6
    .word 0x01059593  # slli x11, x11, 16
    .word 0x0105d313  # srli x6, x11, 16
    .word 0x0065e5b3  # or x11, x11, x6
    .word 0x0185f2b3  # and x5, x11, x24
    .word 0x00c5d313  # srli x6, x11, 12
    .word 0x01937333  # and x6, x6, x25
    .word 0x0062e2b3  # or x5, x5, x6
    .word 0x0085d313  # srli x6, x11, 8
    .word 0x01a37333  # and x6, x6, x26
    .word 0x0062e633  # or x12, x5, x6
    .word 0x0045d293  # srli x5, x11, 4
    .word 0x01b2f5b3  # and x11, x5, x27
    .word 0x00b66ab3  # or x21, x12, x11
    .word 0x17412283  # lw x5, 372(x2)
    .word 0x1dc12303  # lw x6, 476(x2)
    .word 0x0062c5b3  # xor x11, x5, x6
    .word 0x01059593  # slli x11, x11, 16
    .word 0x0105d313  # srli x6, x11, 16
    .word 0x0065e5b3  # or x11, x11, x6
    .word 0x0185f2b3  # and x5, x11, x24
    .word 0x00c5d313  # srli x6, x11, 12
    .word 0x01937333  # and x6, x6, x25
    .word 0x0062e2b3  # or x5, x5, x6
    .word 0x0085d313  # srli x6, x11, 8
    .word 0x01a37333  # and x6, x6, x26
    .word 0x0062e633  # or x12, x5, x6
    .word 0x0045d293  # srli x5, x11, 4
    .word 0x01b2f5b3  # and x11, x5, x27
    .word 0x00b66b33  # or x22, x12, x11
    .word 0x17812283  # lw x5, 376(x2)
    .word 0x1e012303  # lw x6, 480(x2)
    .word 0x0062c5b3  # xor x11, x5, x6
    .word 0x01059593  # slli x11, x11, 16
    .word 0x0105d313  # srli x6, x11, 16
    .word 0x0065e5b3  # or x11, x11, x6
    .word 0x0185f2b3  # and x5, x11, x24
    .word 0x00c5d313  # srli x6, x11, 12
    .word 0x01937333  # and x6, x6, x25
    .word 0x0062e2b3  # or x5, x5, x6
    .word 0x0085d313  # srli x6, x11, 8
    .word 0x01a37333  # and x6, x6, x26
    .word 0x0062e633  # or x12, x5, x6
    .word 0x0045d293  # srli x5, x11, 4
    .word 0x01b2f5b3  # and x11, x5, x27
    .word 0x00b66bb3  # or x23, x12, x11
    .word 0x17c12283  # lw x5, 380(x2)
    .word 0x1e412303  # lw x6, 484(x2)
    .word 0x0062c5b3  # xor x11, x5, x6
    .word 0x01059593  # slli x11, x11, 16
    .word 0x0105d313  # srli x6, x11, 16
    .word 0x0065e5b3  # or x11, x11, x6
    .word 0x0185f2b3  # and x5, x11, x24
    .word 0x00c5d313  # srli x6, x11, 12
    .word 0x01937333  # and x6, x6, x25
    .word 0x0062e2b3  # or x5, x5, x6
    .word 0x0085d313  # srli x6, x11, 8
    .word 0x01a37333  # and x6, x6, x26
    .word 0x0062e633  # or x12, x5, x6
    .word 0x0045d293  # srli x5, x11, 4
    .word 0x01b2f5b3  # and x11, x5, x27
    .word 0x00b66733  # or x14, x12, x11
    .word 0x19412283  # lw x5, 404(x2)
    .word 0x00900313  # addi x6, x0, 9
    .word 0x06537663  # bgeu x6, x5, 108
    .word 0x00088593  # addi x11, x17, 0
    .word 0x00090613  # addi x12, x18, 0
    .word 0x00098793  # addi x15, x19, 0
    .word 0x000a0913  # addi x18, x20, 0
    .word 0x000a8993  # addi x19, x21, 0
    .word 0x000b0893  # addi x17, x22, 0
    .word 0x000b8693  # addi x13, x23, 0
    .word 0x00070813  # addi x16, x14, 0
    .word 0x013642b3  # xor x5, x12, x19
    .word 0x00d2c733  # xor x14, x5, x13
    .word 0x0125c2b3  # xor x5, x11, x18
    .word 0x0112cbb3  # xor x23, x5, x17
    .word 0x00f842b3  # xor x5, x16, x15
    .word 0x0132cb33  # xor x22, x5, x19
    .word 0x00c6c2b3  # xor x5, x13, x12
    .word 0x0122cab3  # xor x21, x5, x18
    .word 0x00b8c2b3  # xor x5, x17, x11
    .word 0x00f2ca33  # xor x20, x5, x15
    .word 0x0109c2b3  # xor x5, x19, x16
    .word 0x00c2c2b3  # xor x5, x5, x12
    .word 0xfff2c993  # xori x19, x5, -1
    .word 0x00d942b3  # xor x5, x18, x13
    .word 0x00b2c933  # xor x18, x5, x11
    .word 0x0117c2b3  # xor x5, x15, x17
    .word 0x0102c2b3  # xor x5, x5, x16
    .word 0xfff2c893  # xori x17, x5, -1
    .word 0x00070593  # addi x11, x14, 0
    .word 0x000b8693  # addi x13, x23, 0
    .word 0x000b0793  # addi x15, x22, 0
    .word 0x000a8713  # addi x14, x21, 0
    .word 0x1d412223  # sw x20, 452(x2)
    .word 0x00098a13  # addi x20, x19, 0
    .word 0x00088613  # addi x12, x17, 0
    .word 0x01474833  # xor x16, x14, x20
    .word 0x0125cb33  # xor x22, x11, x18
    .word 0x00e5c2b3  # xor x5, x11, x14
    .word 0x1c512a23  # sw x5, 468(x2)
    .word 0x0145cbb3  # xor x23, x11, x20
    .word 0x00f6cab3  # xor x21, x13, x15
    .word 0x00cac7b3  # xor x15, x21, x12
    .word 0x00e7c2b3  # xor x5, x15, x14
    .word 0x18512c23  # sw x5, 408(x2)
    .word 0x010b42b3  # xor x5, x22, x16
    .word 0x18512e23  # sw x5, 412(x2)
    .word 0x00b7c2b3  # xor x5, x15, x11
    .word 0x1a512023  # sw x5, 416(x2)
    .word 0x0127c2b3  # xor x5, x15, x18
    .word 0x1a512223  # sw x5, 420(x2)
    .word 0x1a412283  # lw x5, 420(x2)
    .word 0x0172c2b3  # xor x5, x5, x23
    .word 0x1a512423  # sw x5, 424(x2)
    .word 0x1c412283  # lw x5, 452(x2)
    .word 0x19c12303  # lw x6, 412(x2)
    .word 0x0062c733  # xor x14, x5, x6
    .word 0x01474933  # xor x18, x14, x20
    .word 0x00d74a33  # xor x20, x14, x13
    .word 0x00c942b3  # xor x5, x18, x12
    .word 0x1a512623  # sw x5, 428(x2)
    .word 0x015949b3  # xor x19, x18, x21
    .word 0x1d412303  # lw x6, 468(x2)
    .word 0x006a4733  # xor x14, x20, x6
    .word 0x00e642b3  # xor x5, x12, x14
    .word 0x1a512823  # sw x5, 432(x2)
    .word 0x00e9c2b3  # xor x5, x19, x14
    .word 0x1a512a23  # sw x5, 436(x2)
    .word 0x0179c6b3  # xor x13, x19, x23
    .word 0x00eacab3  # xor x21, x21, x14
    .word 0x015b42b3  # xor x5, x22, x21
    .word 0x1c512223  # sw x5, 452(x2)
    .word 0x0155c2b3  # xor x5, x11, x21
    .word 0x1c512423  # sw x5, 456(x2)
    .word 0x19c12283  # lw x5, 412(x2)
    .word 0x0122f5b3  # and x11, x5, x18
    .word 0x1a812283  # lw x5, 424(x2)
    .word 0x1ac12303  # lw x6, 428(x2)
    .word 0x0062f8b3  # and x17, x5, x6
    .word 0x00b8c2b3  # xor x5, x17, x11
    .word 0x1c512023  # sw x5, 448(x2)
    .word 0x19812283  # lw x5, 408(x2)
    .word 0x00c2f8b3  # and x17, x5, x12
    .word 0x00b8c2b3  # xor x5, x17, x11
    .word 0x1c512623  # sw x5, 460(x2)
    .word 0x015b75b3  # and x11, x22, x21
    .word 0x1a412283  # lw x5, 420(x2)
    .word 0x00f2f8b3  # and x17, x5, x15
    .word 0x00b8c2b3  # xor x5, x17, x11
    .word 0x1c512823  # sw x5, 464(x2)
    .word 0x1a012283  # lw x5, 416(x2)
    .word 0x1b012303  # lw x6, 432(x2)
    .word 0x0062f8b3  # and x17, x5, x6
    .word 0x00b8c2b3  # xor x5, x17, x11
    .word 0x1a512c23  # sw x5, 440(x2)
    .word 0x1d412283  # lw x5, 468(x2)
    .word 0x00e2f5b3  # and x11, x5, x14
    .word 0x1b412303  # lw x6, 436(x2)
    .word 0x006878b3  # and x17, x16, x6
    .word 0x00b8c8b3  # xor x17, x17, x11
    .word 0x013bf2b3  # and x5, x23, x19
    .word 0x1a512e23  # sw x5, 444(x2)
    .word 0x1bc12283  # lw x5, 444(x2)
    .word 0x00b2c5b3  # xor x11, x5, x11
    .word 0x1c012283  # lw x5, 448(x2)
    .word 0x0112c2b3  # xor x5, x5, x17
    .word 0x1c512023  # sw x5, 448(x2)
    .word 0x1cc12283  # lw x5, 460(x2)
    .word 0x00b2c2b3  # xor x5, x5, x11
    .word 0x1c512623  # sw x5, 460(x2)
    .word 0x1d012283  # lw x5, 464(x2)
    .word 0x0112c8b3  # xor x17, x5, x17
    .word 0x1b812283  # lw x5, 440(x2)
    .word 0x00b2c2b3  # xor x5, x5, x11
    .word 0x1c512823  # sw x5, 464(x2)
    .word 0x1c012283  # lw x5, 448(x2)
    .word 0x0142ca33  # xor x20, x5, x20
    .word 0x1cc12283  # lw x5, 460(x2)
    .word 0x00d2c5b3  # xor x11, x5, x13
    .word 0x1c412303  # lw x6, 452(x2)
    .word 0x0068c6b3  # xor x13, x17, x6
    .word 0x1d012283  # lw x5, 464(x2)
    .word 0x1c812303  # lw x6, 456(x2)
    .word 0x0062c8b3  # xor x17, x5, x6
    .word 0x00ba42b3  # xor x5, x20, x11
    .word 0x1c512423  # sw x5, 456(x2)
    .word 0x00da72b3  # and x5, x20, x13
    .word 0x1c512023  # sw x5, 448(x2)
    .word 0x1c012303  # lw x6, 448(x2)
    .word 0x0068c2b3  # xor x5, x17, x6
    .word 0x1c512223  # sw x5, 452(x2)
    .word 0x1c812283  # lw x5, 456(x2)
    .word 0x1c412303  # lw x6, 452(x2)
    .word 0x0062fa33  # and x20, x5, x6
    .word 0x00ba4a33  # xor x20, x20, x11
    .word 0x0116c2b3  # xor x5, x13, x17
    .word 0x1c512623  # sw x5, 460(x2)
    .word 0x1c012303  # lw x6, 448(x2)
    .word 0x0065c5b3  # xor x11, x11, x6
    .word 0x1cc12303  # lw x6, 460(x2)
    .word 0x0065f5b3  # and x11, x11, x6
    .word 0x0115c5b3  # xor x11, x11, x17
    .word 0x00b6c2b3  # xor x5, x13, x11
    .word 0x1c512023  # sw x5, 448(x2)
    .word 0x1c412283  # lw x5, 452(x2)
    .word 0x00b2c6b3  # xor x13, x5, x11
    .word 0x00d8f6b3  # and x13, x17, x13
    .word 0x1c012303  # lw x6, 448(x2)
    .word 0x0066c8b3  # xor x17, x13, x6
    .word 0x1c412283  # lw x5, 452(x2)
    .word 0x00d2c6b3  # xor x13, x5, x13
    .word 0x00da76b3  # and x13, x20, x13
    .word 0x1c812283  # lw x5, 456(x2)
    .word 0x00d2c6b3  # xor x13, x5, x13
    .word 0x0116c2b3  # xor x5, x13, x17
    .word 0x1c512223  # sw x5, 452(x2)
    .word 0x00ba42b3  # xor x5, x20, x11
    .word 0x1c512423  # sw x5, 456(x2)
    .word 0x00da42b3  # xor x5, x20, x13
    .word 0x1c512023  # sw x5, 448(x2)
    .word 0x0115c2b3  # xor x5, x11, x17
    .word 0x1c512623  # sw x5, 460(x2)
    .word 0x1c812283  # lw x5, 456(x2)
    .word 0x1c412303  # lw x6, 452(x2)
    .word 0x0062c2b3  # xor x5, x5, x6
    .word 0x1c512823  # sw x5, 464(x2)
    .word 0x1cc12283  # lw x5, 460(x2)
    .word 0x0122f2b3  # and x5, x5, x18
    .word 0x1a512c23  # sw x5, 440(x2)
    .word 0x1ac12303  # lw x6, 428(x2)
    .word 0x0068f2b3  # and x5, x17, x6
    .word 0x1a512623  # sw x5, 428(x2)
    .word 0x00c5f633  # and x12, x11, x12
    .word 0x1c012283  # lw x5, 448(x2)
    .word 0x0152f933  # and x18, x5, x21
    .word 0x00f6f7b3  # and x15, x13, x15
    .word 0x1b012303  # lw x6, 432(x2)
    .word 0x006a7ab3  # and x21, x20, x6
    .word 0x1c812283  # lw x5, 456(x2)
    .word 0x00e2f2b3  # and x5, x5, x14
    .word 0x1a512823  # sw x5, 432(x2)
    .word 0x1d012283  # lw x5, 464(x2)
    .word 0x1b412303  # lw x6, 436(x2)
    .word 0x0062f733  # and x14, x5, x6
    .word 0x1c412283  # lw x5, 452(x2)
    .word 0x0132f2b3  # and x5, x5, x19
    .word 0x1a512a23  # sw x5, 436(x2)
    .word 0x1cc12283  # lw x5, 460(x2)
    .word 0x19c12303  # lw x6, 412(x2)
    .word 0x0062f2b3  # and x5, x5, x6
    .word 0x18512e23  # sw x5, 412(x2)
    .word 0x1a812303  # lw x6, 424(x2)
    .word 0x0068f9b3  # and x19, x17, x6
    .word 0x19812303  # lw x6, 408(x2)
    .word 0x0065f8b3  # and x17, x11, x6
    .word 0x1c012283  # lw x5, 448(x2)
    .word 0x0162f5b3  # and x11, x5, x22
    .word 0x1a412303  # lw x6, 420(x2)
    .word 0x0066f6b3  # and x13, x13, x6
    .word 0x1a012303  # lw x6, 416(x2)
    .word 0x006a72b3  # and x5, x20, x6
    .word 0x1a512223  # sw x5, 420(x2)
    .word 0x1c812283  # lw x5, 456(x2)
    .word 0x1d412303  # lw x6, 468(x2)
    .word 0x0062fb33  # and x22, x5, x6
    .word 0x1d012283  # lw x5, 464(x2)
    .word 0x0102fa33  # and x20, x5, x16
    .word 0x1c412283  # lw x5, 452(x2)
    .word 0x0172f833  # and x16, x5, x23
    .word 0x014b4b33  # xor x22, x22, x20
    .word 0x0119c8b3  # xor x17, x19, x17
    .word 0x00dacbb3  # xor x23, x21, x13
    .word 0x19c12283  # lw x5, 412(x2)
    .word 0x0132c9b3  # xor x19, x5, x19
    .word 0x00b646b3  # xor x13, x12, x11
    .word 0x01564ab3  # xor x21, x12, x21
    .word 0x1b412303  # lw x6, 436(x2)
    .word 0x006742b3  # xor x5, x14, x6
    .word 0x1c512a23  # sw x5, 468(x2)
    .word 0x1b812283  # lw x5, 440(x2)
    .word 0x0122c633  # xor x12, x5, x18
    .word 0x1b012283  # lw x5, 432(x2)
    .word 0x00e2c2b3  # xor x5, x5, x14
    .word 0x18512e23  # sw x5, 412(x2)
    .word 0x010a42b3  # xor x5, x20, x16
    .word 0x1c512223  # sw x5, 452(x2)
    .word 0x0175c833  # xor x16, x11, x23
    .word 0x00c6c5b3  # xor x11, x13, x12
    .word 0x0167c733  # xor x14, x15, x22
    .word 0x19c12303  # lw x6, 412(x2)
    .word 0x00694a33  # xor x20, x18, x6
    .word 0x00bb42b3  # xor x5, x22, x11
    .word 0x18512e23  # sw x5, 412(x2)
    .word 0x1a412283  # lw x5, 420(x2)
    .word 0x00b2cb33  # xor x22, x5, x11
    .word 0x1d412283  # lw x5, 468(x2)
    .word 0x00e2c5b3  # xor x11, x5, x14
    .word 0x00e9c733  # xor x14, x19, x14
    .word 0x0147c7b3  # xor x15, x15, x20
    .word 0x00bb4b33  # xor x22, x22, x11
    .word 0x1ac12283  # lw x5, 428(x2)
    .word 0x00e2c933  # xor x18, x5, x14
    .word 0x00ea46b3  # xor x13, x20, x14
    .word 0x00b842b3  # xor x5, x16, x11
    .word 0xfff2c813  # xori x16, x5, -1
    .word 0x19c12303  # lw x6, 412(x2)
    .word 0x006bc2b3  # xor x5, x23, x6
    .word 0xfff2c593  # xori x11, x5, -1
    .word 0x0167c733  # xor x14, x15, x22
    .word 0x01264633  # xor x12, x12, x18
    .word 0x012ac2b3  # xor x5, x21, x18
    .word 0x1c512a23  # sw x5, 468(x2)
    .word 0x0168c2b3  # xor x5, x17, x22
    .word 0x18512e23  # sw x5, 412(x2)
    .word 0x00c7c2b3  # xor x5, x15, x12
    .word 0xfff2c793  # xori x15, x5, -1
    .word 0x1c412283  # lw x5, 452(x2)
    .word 0x00e2c2b3  # xor x5, x5, x14
    .word 0xfff2c293  # xori x5, x5, -1
    .word 0x1a512223  # sw x5, 420(x2)
    .word 0x00068713  # addi x14, x13, 0
    .word 0x00078b93  # addi x23, x15, 0
    .word 0x1a412b03  # lw x22, 420(x2)
    .word 0x00060a93  # addi x21, x12, 0
    .word 0x1d412a03  # lw x20, 468(x2)
    .word 0x19c12983  # lw x19, 412(x2)
    .word 0x00080913  # addi x18, x16, 0
    .word 0x00058893  # addi x17, x11, 0
    .word 0x19412283  # lw x5, 404(x2)
    .word 0x00a00313  # addi x6, x0, 10
    .word 0x3462f863  # bgeu x5, x6, 848
    .word 0x19412283  # lw x5, 404(x2)
    .word 0x00329513  # slli x10, x5, 3
    .word 0x00251493  # slli x9, x10, 2
    .word 0x002484b3  # add x9, x9, x2
    .word 0x00c5d293  # srli x5, x11, 12
    .word 0x00f2f593  # andi x11, x5, 15
    .word 0x0015d293  # srli x5, x11, 1
    .word 0x00359313  # slli x6, x11, 3
    .word 0x0062e2b3  # or x5, x5, x6
    .word 0x00f2f293  # andi x5, x5, 15
    .word 0x18012303  # lw x6, 384(x2)
    .word 0x00137313  # andi x6, x6, 1
    .word 0x0062c5b3  # xor x11, x5, x6
    .word 0x0204a283  # lw x5, 32(x9)
    .word 0x00b2c5b3  # xor x11, x5, x11
    .word 0x00459313  # slli x6, x11, 4
    .word 0x0065c5b3  # xor x11, x11, x6
    .word 0x00859313  # slli x6, x11, 8
    .word 0x0065c2b3  # xor x5, x11, x6
    .word 0x1f412303  # lw x6, 500(x2)
    .word 0x0062f5b3  # and x11, x5, x6
    .word 0x04b4a023  # sw x11, 64(x9)
    .word 0x00058893  # addi x17, x11, 0
    .word 0x19412283  # lw x5, 404(x2)
    .word 0x00329293  # slli x5, x5, 3
    .word 0x00128513  # addi x10, x5, 1
    .word 0x00251493  # slli x9, x10, 2
    .word 0x002484b3  # add x9, x9, x2
    .word 0x00c85293  # srli x5, x16, 12
    .word 0x00f2f593  # andi x11, x5, 15
    .word 0x0015d293  # srli x5, x11, 1
    .word 0x00359313  # slli x6, x11, 3
    .word 0x0062e2b3  # or x5, x5, x6
    .word 0x00f2f293  # andi x5, x5, 15
    .word 0x18012303  # lw x6, 384(x2)
    .word 0x00135313  # srli x6, x6, 1
    .word 0x00137313  # andi x6, x6, 1
    .word 0x0062c5b3  # xor x11, x5, x6
    .word 0x0204a283  # lw x5, 32(x9)
    .word 0x00b2c5b3  # xor x11, x5, x11
    .word 0x00459313  # slli x6, x11, 4
    .word 0x0065c5b3  # xor x11, x11, x6
    .word 0x00859313  # slli x6, x11, 8
    .word 0x0065c2b3  # xor x5, x11, x6
    .word 0x1f412303  # lw x6, 500(x2)
    .word 0x0062f5b3  # and x11, x5, x6
    .word 0x04b4a023  # sw x11, 64(x9)
    .word 0x00058913  # addi x18, x11, 0
    .word 0x19412283  # lw x5, 404(x2)
    .word 0x00329293  # slli x5, x5, 3
    .word 0x00228513  # addi x10, x5, 2
    .word 0x00251493  # slli x9, x10, 2
    .word 0x002484b3  # add x9, x9, x2
    .word 0x19c12283  # lw x5, 412(x2)
    .word 0x00c2d293  # srli x5, x5, 12
    .word 0x00f2f593  # andi x11, x5, 15
    .word 0x0015d293  # srli x5, x11, 1
    .word 0x00359313  # slli x6, x11, 3
    .word 0x0062e2b3  # or x5, x5, x6
    .word 0x00f2f293  # andi x5, x5, 15
    .word 0x18012303  # lw x6, 384(x2)
    .word 0x00235313  # srli x6, x6, 2
    .word 0x00137313  # andi x6, x6, 1
    .word 0x0062c5b3  # xor x11, x5, x6
    .word 0x0204a283  # lw x5, 32(x9)
    .word 0x00b2c5b3  # xor x11, x5, x11
    .word 0x00459313  # slli x6, x11, 4
    .word 0x0065c5b3  # xor x11, x11, x6
    .word 0x00859313  # slli x6, x11, 8
    .word 0x0065c2b3  # xor x5, x11, x6
    .word 0x1f412303  # lw x6, 500(x2)
    .word 0x0062f5b3  # and x11, x5, x6
    .word 0x04b4a023  # sw x11, 64(x9)
    .word 0x00058993  # addi x19, x11, 0
    .word 0x19412283  # lw x5, 404(x2)
    .word 0x00329293  # slli x5, x5, 3
    .word 0x00328513  # addi x10, x5, 3
    .word 0x00251493  # slli x9, x10, 2
    .word 0x002484b3  # add x9, x9, x2
    .word 0x1d412283  # lw x5, 468(x2)
    .word 0x00c2d293  # srli x5, x5, 12
    .word 0x00f2f593  # andi x11, x5, 15
    .word 0x0015d293  # srli x5, x11, 1
    .word 0x00359313  # slli x6, x11, 3
    .word 0x0062e2b3  # or x5, x5, x6
    .word 0x00f2f293  # andi x5, x5, 15
    .word 0x18012303  # lw x6, 384(x2)
    .word 0x00335313  # srli x6, x6, 3
    .word 0x00137313  # andi x6, x6, 1
    .word 0x0062c5b3  # xor x11, x5, x6
    .word 0x0204a283  # lw x5, 32(x9)
    .word 0x00b2c5b3  # xor x11, x5, x11
    .word 0x00459313  # slli x6, x11, 4
    .word 0x0065c5b3  # xor x11, x11, x6
    .word 0x00859313  # slli x6, x11, 8
    .word 0x0065c2b3  # xor x5, x11, x6
    .word 0x1f412303  # lw x6, 500(x2)
    .word 0x0062f5b3  # and x11, x5, x6
    .word 0x04b4a023  # sw x11, 64(x9)
    .word 0x00058a13  # addi x20, x11, 0
    .word 0x19412283  # lw x5, 404(x2)
    .word 0x00329293  # slli x5, x5, 3
    .word 0x00428513  # addi x10, x5, 4
    .word 0x00251493  # slli x9, x10, 2
    .word 0x002484b3  # add x9, x9, x2
    .word 0x00c65293  # srli x5, x12, 12
    .word 0x00f2f593  # andi x11, x5, 15
    .word 0x0015d293  # srli x5, x11, 1
    .word 0x00359313  # slli x6, x11, 3
    .word 0x0062e2b3  # or x5, x5, x6
    .word 0x00f2f293  # andi x5, x5, 15
    .word 0x18012303  # lw x6, 384(x2)
    .word 0x00435313  # srli x6, x6, 4
    .word 0x00137313  # andi x6, x6, 1
    .word 0x0062c5b3  # xor x11, x5, x6
    .word 0x0204a283  # lw x5, 32(x9)
    .word 0x00b2c5b3  # xor x11, x5, x11
    .word 0x00459313  # slli x6, x11, 4
    .word 0x0065c5b3  # xor x11, x11, x6
    .word 0x00859313  # slli x6, x11, 8
    .word 0x0065c2b3  # xor x5, x11, x6
    .word 0x1f412303  # lw x6, 500(x2)
    .word 0x0062f5b3  # and x11, x5, x6
    .word 0x04b4a023  # sw x11, 64(x9)
    .word 0x00058a93  # addi x21, x11, 0
    .word 0x19412283  # lw x5, 404(x2)
    .word 0x00329293  # slli x5, x5, 3
    .word 0x00528513  # addi x10, x5, 5
    .word 0x00251493  # slli x9, x10, 2
    .word 0x002484b3  # add x9, x9, x2
    .word 0x1a412283  # lw x5, 420(x2)
    .word 0x00c2d293  # srli x5, x5, 12
    .word 0x00f2f593  # andi x11, x5, 15
    .word 0x0015d293  # srli x5, x11, 1
    .word 0x00359313  # slli x6, x11, 3
    .word 0x0062e2b3  # or x5, x5, x6
    .word 0x00f2f293  # andi x5, x5, 15
    .word 0x18012303  # lw x6, 384(x2)
    .word 0x00535313  # srli x6, x6, 5
    .word 0x00137313  # andi x6, x6, 1
    .word 0x0062c5b3  # xor x11, x5, x6
    .word 0x0204a283  # lw x5, 32(x9)
    .word 0x00b2c5b3  # xor x11, x5, x11
    .word 0x00459313  # slli x6, x11, 4
    .word 0x0065c5b3  # xor x11, x11, x6
    .word 0x00859313  # slli x6, x11, 8
    .word 0x0065c2b3  # xor x5, x11, x6
    .word 0x1f412303  # lw x6, 500(x2)
    .word 0x0062f5b3  # and x11, x5, x6
    .word 0x04b4a023  # sw x11, 64(x9)
    .word 0x00058b13  # addi x22, x11, 0
    .word 0x19412283  # lw x5, 404(x2)
    .word 0x00329293  # slli x5, x5, 3
    .word 0x00628513  # addi x10, x5, 6
    .word 0x00251493  # slli x9, x10, 2
    .word 0x002484b3  # add x9, x9, x2
    .word 0x00c7d293  # srli x5, x15, 12
    .word 0x00f2f593  # andi x11, x5, 15
    .word 0x0015d293  # srli x5, x11, 1
    .word 0x00359313  # slli x6, x11, 3
    .word 0x0062e2b3  # or x5, x5, x6
    .word 0x00f2f293  # andi x5, x5, 15
    .word 0x18012303  # lw x6, 384(x2)
    .word 0x00635313  # srli x6, x6, 6
    .word 0x00137313  # andi x6, x6, 1
    .word 0x0062c5b3  # xor x11, x5, x6
    .word 0x0204a283  # lw x5, 32(x9)
    .word 0x00b2c5b3  # xor x11, x5, x11
    .word 0x00459313  # slli x6, x11, 4
    .word 0x0065c5b3  # xor x11, x11, x6
    .word 0x00859313  # slli x6, x11, 8
    .word 0x0065c2b3  # xor x5, x11, x6
    .word 0x1f412303  # lw x6, 500(x2)
    .word 0x0062f5b3  # and x11, x5, x6
    .word 0x04b4a023  # sw x11, 64(x9)
    .word 0x00058b93  # addi x23, x11, 0
    .word 0x19412283  # lw x5, 404(x2)
    .word 0x00329293  # slli x5, x5, 3
    .word 0x00728513  # addi x10, x5, 7
    .word 0x00251493  # slli x9, x10, 2
    .word 0x002484b3  # add x9, x9, x2
    .word 0x00c6d293  # srli x5, x13, 12
    .word 0x00f2f593  # andi x11, x5, 15
    .word 0x0015d293  # srli x5, x11, 1
    .word 0x00359313  # slli x6, x11, 3
    .word 0x0062e2b3  # or x5, x5, x6
    .word 0x00f2f293  # andi x5, x5, 15
    .word 0x18012303  # lw x6, 384(x2)
    .word 0x00735313  # srli x6, x6, 7
    .word 0x00137313  # andi x6, x6, 1
    .word 0x0062c5b3  # xor x11, x5, x6
    .word 0x0204a283  # lw x5, 32(x9)
    .word 0x00b2c5b3  # xor x11, x5, x11
    .word 0x00459313  # slli x6, x11, 4
    .word 0x0065c5b3  # xor x11, x11, x6
    .word 0x00859313  # slli x6, x11, 8
    .word 0x0065c2b3  # xor x5, x11, x6
    .word 0x1f412303  # lw x6, 500(x2)
    .word 0x0062f5b3  # and x11, x5, x6
    .word 0x04b4a023  # sw x11, 64(x9)
    .word 0x00058713  # addi x14, x11, 0
    .word 0x18012283  # lw x5, 384(x2)
    .word 0x00129293  # slli x5, x5, 1
    .word 0x18012303  # lw x6, 384(x2)
    .word 0x08033313  # sltiu x6, x6, 128
    .word 0x11b00393  # addi x7, x0, 283
    .word 0xfff30313  # addi x6, x6, -1
    .word 0x0063f333  # and x6, x7, x6
    .word 0x0062c2b3  # xor x5, x5, x6
    .word 0x18512023  # sw x5, 384(x2)
    .word 0x6680006f  # jal x0, 1640
    .word 0x00088593  # addi x11, x17, 0
    .word 0x00090613  # addi x12, x18, 0
    .word 0x00098793  # addi x15, x19, 0
    .word 0x000a0913  # addi x18, x20, 0
    .word 0x000a8993  # addi x19, x21, 0
    .word 0x000b0893  # addi x17, x22, 0
    .word 0x000b8693  # addi x13, x23, 0
    .word 0x00070813  # addi x16, x14, 0
    .word 0x013642b3  # xor x5, x12, x19
    .word 0x00d2c733  # xor x14, x5, x13
    .word 0x0125c2b3  # xor x5, x11, x18
    .word 0x0112cbb3  # xor x23, x5, x17
    .word 0x00f842b3  # xor x5, x16, x15
    .word 0x0132cb33  # xor x22, x5, x19
    .word 0x00c6c2b3  # xor x5, x13, x12
    .word 0x0122cab3  # xor x21, x5, x18
    .word 0x00b8c2b3  # xor x5, x17, x11
    .word 0x00f2ca33  # xor x20, x5, x15
    .word 0x0109c2b3  # xor x5, x19, x16
    .word 0x00c2c2b3  # xor x5, x5, x12
    .word 0xfff2c993  # xori x19, x5, -1
    .word 0x00d942b3  # xor x5, x18, x13
    .word 0x00b2c933  # xor x18, x5, x11
    .word 0x0117c2b3  # xor x5, x15, x17
    .word 0x0102c2b3  # xor x5, x5, x16
    .word 0xfff2c893  # xori x17, x5, -1
    .word 0x01300293  # addi x5, x0, 19
    .word 0x19412303  # lw x6, 404(x2)
    .word 0x406282b3  # sub x5, x5, x6
    .word 0x00329513  # slli x10, x5, 3
    .word 0x00251493  # slli x9, x10, 2
    .word 0x002484b3  # add x9, x9, x2
    .word 0x0204a303  # lw x6, 32(x9)
    .word 0x0068c2b3  # xor x5, x17, x6
    .word 0x1f412303  # lw x6, 500(x2)
    .word 0x0062f5b3  # and x11, x5, x6
    .word 0x1f812303  # lw x6, 504(x2)
    .word 0x0065f633  # and x12, x11, x6
    .word 0x00c5c2b3  # xor x5, x11, x12
    .word 0x0022d293  # srli x5, x5, 2
    .word 0x00b2c7b3  # xor x15, x5, x11
    .word 0x00261613  # slli x12, x12, 2
    .word 0x00c7c6b3  # xor x13, x15, x12
    .word 0x00058893  # addi x17, x11, 0
    .word 0x0244a303  # lw x6, 36(x9)
    .word 0x006942b3  # xor x5, x18, x6
    .word 0x1f412303  # lw x6, 500(x2)
    .word 0x0062f5b3  # and x11, x5, x6
    .word 0x1f812303  # lw x6, 504(x2)
    .word 0x0065f633  # and x12, x11, x6
    .word 0x00c5c2b3  # xor x5, x11, x12
    .word 0x0022d293  # srli x5, x5, 2
    .word 0x00b2c7b3  # xor x15, x5, x11
    .word 0x00261613  # slli x12, x12, 2
    .word 0x00c7c833  # xor x16, x15, x12
    .word 0x00058913  # addi x18, x11, 0
    .word 0x0284a303  # lw x6, 40(x9)
    .word 0x0069c2b3  # xor x5, x19, x6
    .word 0x1f412303  # lw x6, 500(x2)
    .word 0x0062f5b3  # and x11, x5, x6
    .word 0x1f812303  # lw x6, 504(x2)
    .word 0x0065f633  # and x12, x11, x6
    .word 0x00c5c2b3  # xor x5, x11, x12
    .word 0x0022d293  # srli x5, x5, 2
    .word 0x00b2c7b3  # xor x15, x5, x11
    .word 0x00261613  # slli x12, x12, 2
    .word 0x00c7c2b3  # xor x5, x15, x12
    .word 0x1c512a23  # sw x5, 468(x2)
    .word 0x00058993  # addi x19, x11, 0
    .word 0x02c4a303  # lw x6, 44(x9)
    .word 0x006a42b3  # xor x5, x20, x6
    .word 0x1f412303  # lw x6, 500(x2)
    .word 0x0062f5b3  # and x11, x5, x6
    .word 0x1f812303  # lw x6, 504(x2)
    .word 0x0065f633  # and x12, x11, x6
    .word 0x00c5c2b3  # xor x5, x11, x12
    .word 0x0022d293  # srli x5, x5, 2
    .word 0x00b2c7b3  # xor x15, x5, x11
    .word 0x00261613  # slli x12, x12, 2
    .word 0x00c7c2b3  # xor x5, x15, x12
    .word 0x18512e23  # sw x5, 412(x2)
    .word 0x00058a13  # addi x20, x11, 0
    .word 0x0304a303  # lw x6, 48(x9)
    .word 0x006ac2b3  # xor x5, x21, x6
    .word 0x1f412303  # lw x6, 500(x2)
    .word 0x0062f5b3  # and x11, x5, x6
    .word 0x1f812303  # lw x6, 504(x2)
    .word 0x0065f633  # and x12, x11, x6
    .word 0x00c5c2b3  # xor x5, x11, x12
    .word 0x0022d293  # srli x5, x5, 2
    .word 0x00b2c7b3  # xor x15, x5, x11
    .word 0x00261613  # slli x12, x12, 2
    .word 0x00c7c2b3  # xor x5, x15, x12
    .word 0x1a512223  # sw x5, 420(x2)
    .word 0x00058a93  # addi x21, x11, 0
    .word 0x0344a303  # lw x6, 52(x9)
    .word 0x006b42b3  # xor x5, x22, x6
    .word 0x1f412303  # lw x6, 500(x2)
    .word 0x0062f5b3  # and x11, x5, x6
    .word 0x1f812303  # lw x6, 504(x2)
    .word 0x0065f633  # and x12, x11, x6
    .word 0x00c5c2b3  # xor x5, x11, x12
    .word 0x0022d293  # srli x5, x5, 2
    .word 0x00b2c7b3  # xor x15, x5, x11
    .word 0x00261613  # slli x12, x12, 2
    .word 0x00c7c2b3  # xor x5, x15, x12
    .word 0x1c512223  # sw x5, 452(x2)
    .word 0x00058b13  # addi x22, x11, 0
    .word 0x0384a303  # lw x6, 56(x9)
    .word 0x006bc2b3  # xor x5, x23, x6
    .word 0x1f412303  # lw x6, 500(x2)
    .word 0x0062f5b3  # and x11, x5, x6
    .word 0x1f812303  # lw x6, 504(x2)
    .word 0x0065f633  # and x12, x11, x6
    .word 0x00c5c2b3  # xor x5, x11, x12
    .word 0x0022d293  # srli x5, x5, 2
    .word 0x00b2c7b3  # xor x15, x5, x11
    .word 0x00261613  # slli x12, x12, 2
    .word 0x00c7c2b3  # xor x5, x15, x12
    .word 0x1c512423  # sw x5, 456(x2)
    .word 0x00058b93  # addi x23, x11, 0
    .word 0x03c4a303  # lw x6, 60(x9)
    .word 0x006742b3  # xor x5, x14, x6
    .word 0x1f412303  # lw x6, 500(x2)
    .word 0x0062f5b3  # and x11, x5, x6
    .word 0x1f812303  # lw x6, 504(x2)
    .word 0x0065f633  # and x12, x11, x6
    .word 0x00c5c2b3  # xor x5, x11, x12
    .word 0x0022d293  # srli x5, x5, 2
    .word 0x00b2c7b3  # xor x15, x5, x11
    .word 0x00261613  # slli x12, x12, 2
    .word 0x00c7c7b3  # xor x15, x15, x12
    .word 0x00058713  # addi x14, x11, 0
    .word 0x19412283  # lw x5, 404(x2)
    .word 0x01300313  # addi x6, x0, 19
    .word 0x4462f463  # bgeu x5, x6, 1096
    .word 0x1c812603  # lw x12, 456(x2)
    .word 0x00c8c8b3  # xor x17, x17, x12
    .word 0x00c942b3  # xor x5, x18, x12
    .word 0x00f2c933  # xor x18, x5, x15
    .word 0x00d9c2b3  # xor x5, x19, x13
    .word 0x00f2c9b3  # xor x19, x5, x15
    .word 0x010a42b3  # xor x5, x20, x16
    .word 0x00c2ca33  # xor x20, x5, x12
    .word 0x1d412303  # lw x6, 468(x2)
    .word 0x006ac2b3  # xor x5, x21, x6
    .word 0x00c2c2b3  # xor x5, x5, x12
    .word 0x00f2cab3  # xor x21, x5, x15
    .word 0x19c12303  # lw x6, 412(x2)
    .word 0x006b42b3  # xor x5, x22, x6
    .word 0x00f2cb33  # xor x22, x5, x15
    .word 0x1a412303  # lw x6, 420(x2)
    .word 0x006bcbb3  # xor x23, x23, x6
    .word 0x1c412303  # lw x6, 452(x2)
    .word 0x0065c2b3  # xor x5, x11, x6
    .word 0x1c512a23  # sw x5, 468(x2)
    .word 0x1d412283  # lw x5, 468(x2)
    .word 0x0182f5b3  # and x11, x5, x24
    .word 0x1d412283  # lw x5, 468(x2)
    .word 0x00b2c2b3  # xor x5, x5, x11
    .word 0x0012d293  # srli x5, x5, 1
    .word 0x00359313  # slli x6, x11, 3
    .word 0x0062c2b3  # xor x5, x5, x6
    .word 0x1d412303  # lw x6, 468(x2)
    .word 0x0062c6b3  # xor x13, x5, x6
    .word 0x00088593  # addi x11, x17, 0
    .word 0x0185f633  # and x12, x11, x24
    .word 0x00c5c2b3  # xor x5, x11, x12
    .word 0x0012d293  # srli x5, x5, 1
    .word 0x00361313  # slli x6, x12, 3
    .word 0x0062e633  # or x12, x5, x6
    .word 0x00c5c5b3  # xor x11, x11, x12
    .word 0x1f812303  # lw x6, 504(x2)
    .word 0x0065f7b3  # and x15, x11, x6
    .word 0x0006f813  # andi x16, x13, 0
    .word 0x00f5c333  # xor x6, x11, x15
    .word 0x00235313  # srli x6, x6, 2
    .word 0x006642b3  # xor x5, x12, x6
    .word 0x00279313  # slli x6, x15, 2
    .word 0x0062c2b3  # xor x5, x5, x6
    .word 0x00d2c2b3  # xor x5, x5, x13
    .word 0x0102c633  # xor x12, x5, x16
    .word 0x00058713  # addi x14, x11, 0
    .word 0x01061593  # slli x11, x12, 16
    .word 0x0105d313  # srli x6, x11, 16
    .word 0x0065e5b3  # or x11, x11, x6
    .word 0x0185f2b3  # and x5, x11, x24
    .word 0x00c5d313  # srli x6, x11, 12
    .word 0x01937333  # and x6, x6, x25
    .word 0x0062e2b3  # or x5, x5, x6
    .word 0x0085d313  # srli x6, x11, 8
    .word 0x01a37333  # and x6, x6, x26
    .word 0x0062e633  # or x12, x5, x6
    .word 0x0045d293  # srli x5, x11, 4
    .word 0x01b2f5b3  # and x11, x5, x27
    .word 0x00b668b3  # or x17, x12, x11
    .word 0x00090593  # addi x11, x18, 0
    .word 0x0185f633  # and x12, x11, x24
    .word 0x00c5c2b3  # xor x5, x11, x12
    .word 0x0012d293  # srli x5, x5, 1
    .word 0x00361313  # slli x6, x12, 3
    .word 0x0062e633  # or x12, x5, x6
    .word 0x00c5c5b3  # xor x11, x11, x12
    .word 0x1f812303  # lw x6, 504(x2)
    .word 0x0065f7b3  # and x15, x11, x6
    .word 0x00f5c333  # xor x6, x11, x15
    .word 0x00235313  # srli x6, x6, 2
    .word 0x006642b3  # xor x5, x12, x6
    .word 0x00279313  # slli x6, x15, 2
    .word 0x0062c2b3  # xor x5, x5, x6
    .word 0x00e2c2b3  # xor x5, x5, x14
    .word 0x00d2c633  # xor x12, x5, x13
    .word 0x00058713  # addi x14, x11, 0
    .word 0x01061593  # slli x11, x12, 16
    .word 0x0105d313  # srli x6, x11, 16
    .word 0x0065e5b3  # or x11, x11, x6
    .word 0x0185f2b3  # and x5, x11, x24
    .word 0x00c5d313  # srli x6, x11, 12
    .word 0x01937333  # and x6, x6, x25
    .word 0x0062e2b3  # or x5, x5, x6
    .word 0x0085d313  # srli x6, x11, 8
    .word 0x01a37333  # and x6, x6, x26
    .word 0x0062e633  # or x12, x5, x6
    .word 0x0045d293  # srli x5, x11, 4
    .word 0x01b2f5b3  # and x11, x5, x27
    .word 0x00b66933  # or x18, x12, x11
    .word 0x00098593  # addi x11, x19, 0
    .word 0x0185f633  # and x12, x11, x24
    .word 0x00c5c2b3  # xor x5, x11, x12
    .word 0x0012d293  # srli x5, x5, 1
    .word 0x00361313  # slli x6, x12, 3
    .word 0x0062e633  # or x12, x5, x6
    .word 0x00c5c5b3  # xor x11, x11, x12
    .word 0x1f812303  # lw x6, 504(x2)
    .word 0x0065f7b3  # and x15, x11, x6
    .word 0x0006f813  # andi x16, x13, 0
    .word 0x00f5c333  # xor x6, x11, x15
    .word 0x00235313  # srli x6, x6, 2
    .word 0x006642b3  # xor x5, x12, x6
    .word 0x00279313  # slli x6, x15, 2
    .word 0x0062c2b3  # xor x5, x5, x6
    .word 0x00e2c2b3  # xor x5, x5, x14
    .word 0x0102c633  # xor x12, x5, x16
    .word 0x00058713  # addi x14, x11, 0
    .word 0x01061593  # slli x11, x12, 16
    .word 0x0105d313  # srli x6, x11, 16
    .word 0x0065e5b3  # or x11, x11, x6
    .word 0x0185f2b3  # and x5, x11, x24
    .word 0x00c5d313  # srli x6, x11, 12
    .word 0x01937333  # and x6, x6, x25
    .word 0x0062e2b3  # or x5, x5, x6
    .word 0x0085d313  # srli x6, x11, 8
    .word 0x01a37333  # and x6, x6, x26
    .word 0x0062e633  # or x12, x5, x6
    .word 0x0045d293  # srli x5, x11, 4
    .word 0x01b2f5b3  # and x11, x5, x27
    .word 0x00b669b3  # or x19, x12, x11
    .word 0x000a0593  # addi x11, x20, 0
    .word 0x0185f633  # and x12, x11, x24
    .word 0x00c5c2b3  # xor x5, x11, x12
    .word 0x0012d293  # srli x5, x5, 1
    .word 0x00361313  # slli x6, x12, 3
    .word 0x0062e633  # or x12, x5, x6
    .word 0x00c5c5b3  # xor x11, x11, x12
    .word 0x1f812303  # lw x6, 504(x2)
    .word 0x0065f7b3  # and x15, x11, x6
    .word 0x00f5c333  # xor x6, x11, x15
    .word 0x00235313  # srli x6, x6, 2
    .word 0x006642b3  # xor x5, x12, x6
    .word 0x00279313  # slli x6, x15, 2
    .word 0x0062c2b3  # xor x5, x5, x6
    .word 0x00e2c2b3  # xor x5, x5, x14
    .word 0x00d2c633  # xor x12, x5, x13
    .word 0x00058713  # addi x14, x11, 0
    .word 0x01061593  # slli x11, x12, 16
    .word 0x0105d313  # srli x6, x11, 16
    .word 0x0065e5b3  # or x11, x11, x6
    .word 0x0185f2b3  # and x5, x11, x24
    .word 0x00c5d313  # srli x6, x11, 12
    .word 0x01937333  # and x6, x6, x25
    .word 0x0062e2b3  # or x5, x5, x6
    .word 0x0085d313  # srli x6, x11, 8
    .word 0x01a37333  # and x6, x6, x26
    .word 0x0062e633  # or x12, x5, x6
    .word 0x0045d293  # srli x5, x11, 4
    .word 0x01b2f5b3  # and x11, x5, x27
    .word 0x00b66a33  # or x20, x12, x11
    .word 0x000a8593  # addi x11, x21, 0
    .word 0x0185f633  # and x12, x11, x24
    .word 0x00c5c2b3  # xor x5, x11, x12
    .word 0x0012d293  # srli x5, x5, 1
    .word 0x00361313  # slli x6, x12, 3
    .word 0x0062e633  # or x12, x5, x6
    .word 0x00c5c5b3  # xor x11, x11, x12
    .word 0x1f812303  # lw x6, 504(x2)
    .word 0x0065f7b3  # and x15, x11, x6
    .word 0x00f5c333  # xor x6, x11, x15
    .word 0x00235313  # srli x6, x6, 2
    .word 0x006642b3  # xor x5, x12, x6
    .word 0x00279313  # slli x6, x15, 2
    .word 0x0062c2b3  # xor x5, x5, x6
    .word 0x00e2c2b3  # xor x5, x5, x14
    .word 0x00d2c633  # xor x12, x5, x13
    .word 0x00058713  # addi x14, x11, 0
    .word 0x01061593  # slli x11, x12, 16
    .word 0x0105d313  # srli x6, x11, 16
    .word 0x0065e5b3  # or x11, x11, x6
    .word 0x0185f2b3  # and x5, x11, x24
    .word 0x00c5d313  # srli x6, x11, 12
    .word 0x01937333  # and x6, x6, x25
    .word 0x0062e2b3  # or x5, x5, x6
    .word 0x0085d313  # srli x6, x11, 8
    .word 0x01a37333  # and x6, x6, x26
    .word 0x0062e633  # or x12, x5, x6
    .word 0x0045d293  # srli x5, x11, 4
    .word 0x01b2f5b3  # and x11, x5, x27
    .word 0x00b66ab3  # or x21, x12, x11
    .word 0x000b0593  # addi x11, x22, 0
    .word 0x0185f633  # and x12, x11, x24
    .word 0x00c5c2b3  # xor x5, x11, x12
    .word 0x0012d293  # srli x5, x5, 1
    .word 0x00361313  # slli x6, x12, 3
    .word 0x0062e633  # or x12, x5, x6
    .word 0x00c5c5b3  # xor x11, x11, x12
    .word 0x1f812303  # lw x6, 504(x2)
    .word 0x0065f7b3  # and x15, x11, x6
    .word 0x0006f813  # andi x16, x13, 0
    .word 0x00f5c333  # xor x6, x11, x15
    .word 0x00235313  # srli x6, x6, 2
    .word 0x006642b3  # xor x5, x12, x6
    .word 0x00279313  # slli x6, x15, 2
    .word 0x0062c2b3  # xor x5, x5, x6
    .word 0x00e2c2b3  # xor x5, x5, x14
    .word 0x0102c633  # xor x12, x5, x16
    .word 0x00058713  # addi x14, x11, 0
    .word 0x01061593  # slli x11, x12, 16
    .word 0x0105d313  # srli x6, x11, 16
    .word 0x0065e5b3  # or x11, x11, x6
    .word 0x0185f2b3  # and x5, x11, x24
    .word 0x00c5d313  # srli x6, x11, 12
    .word 0x01937333  # and x6, x6, x25
    .word 0x0062e2b3  # or x5, x5, x6
    .word 0x0085d313  # srli x6, x11, 8
    .word 0x01a37333  # and x6, x6, x26
    .word 0x0062e633  # or x12, x5, x6
    .word 0x0045d293  # srli x5, x11, 4
    .word 0x01b2f5b3  # and x11, x5, x27
    .word 0x00b66b33  # or x22, x12, x11
    .word 0x000b8593  # addi x11, x23, 0
    .word 0x0185f633  # and x12, x11, x24
    .word 0x00c5c2b3  # xor x5, x11, x12
    .word 0x0012d293  # srli x5, x5, 1
    .word 0x00361313  # slli x6, x12, 3
    .word 0x0062e633  # or x12, x5, x6
    .word 0x00c5c5b3  # xor x11, x11, x12
    .word 0x1f812303  # lw x6, 504(x2)
    .word 0x0065f7b3  # and x15, x11, x6
    .word 0x0006f813  # andi x16, x13, 0
    .word 0x00f5c333  # xor x6, x11, x15
    .word 0x00235313  # srli x6, x6, 2
    .word 0x006642b3  # xor x5, x12, x6
    .word 0x00279313  # slli x6, x15, 2
    .word 0x0062c2b3  # xor x5, x5, x6
    .word 0x00e2c2b3  # xor x5, x5, x14
    .word 0x0102c633  # xor x12, x5, x16
    .word 0x00058713  # addi x14, x11, 0
    .word 0x01061593  # slli x11, x12, 16
    .word 0x0105d313  # srli x6, x11, 16
    .word 0x0065e5b3  # or x11, x11, x6
    .word 0x0185f2b3  # and x5, x11, x24
    .word 0x00c5d313  # srli x6, x11, 12
    .word 0x01937333  # and x6, x6, x25
    .word 0x0062e2b3  # or x5, x5, x6
    .word 0x0085d313  # srli x6, x11, 8
    .word 0x01a37333  # and x6, x6, x26
    .word 0x0062e633  # or x12, x5, x6
    .word 0x0045d293  # srli x5, x11, 4
    .word 0x01b2f5b3  # and x11, x5, x27
    .word 0x00b66bb3  # or x23, x12, x11
    .word 0x1d412583  # lw x11, 468(x2)
    .word 0x0185f633  # and x12, x11, x24
    .word 0x00c5c2b3  # xor x5, x11, x12
    .word 0x0012d293  # srli x5, x5, 1
    .word 0x00361313  # slli x6, x12, 3
    .word 0x0062e633  # or x12, x5, x6
    .word 0x00c5c5b3  # xor x11, x11, x12
    .word 0x1f812303  # lw x6, 504(x2)
    .word 0x0065f7b3  # and x15, x11, x6
    .word 0x0006f813  # andi x16, x13, 0
    .word 0x00f5c333  # xor x6, x11, x15
    .word 0x00235313  # srli x6, x6, 2
    .word 0x006642b3  # xor x5, x12, x6
    .word 0x00279313  # slli x6, x15, 2
    .word 0x0062c2b3  # xor x5, x5, x6
    .word 0x00e2c2b3  # xor x5, x5, x14
    .word 0x0102c633  # xor x12, x5, x16
    .word 0x01061593  # slli x11, x12, 16
    .word 0x0105d313  # srli x6, x11, 16
    .word 0x0065e5b3  # or x11, x11, x6
    .word 0x0185f2b3  # and x5, x11, x24
    .word 0x00c5d313  # srli x6, x11, 12
    .word 0x01937333  # and x6, x6, x25
    .word 0x0062e2b3  # or x5, x5, x6
    .word 0x0085d313  # srli x6, x11, 8
    .word 0x01a37333  # and x6, x6, x26
    .word 0x0062e633  # or x12, x5, x6
    .word 0x0045d293  # srli x5, x11, 4
    .word 0x01b2f5b3  # and x11, x5, x27
    .word 0x00b66733  # or x14, x12, x11
    .word 0xfe9fe06f  # jal x0, -4120
    .word 0x0018d293  # srli x5, x17, 1
    .word 0x0122c2b3  # xor x5, x5, x18
    .word 0x1e812303  # lw x6, 488(x2)
    .word 0x0062f5b3  # and x11, x5, x6
    .word 0x00b94933  # xor x18, x18, x11
    .word 0x00159313  # slli x6, x11, 1
    .word 0x0068c5b3  # xor x11, x17, x6
    .word 0x0019d293  # srli x5, x19, 1
    .word 0x0142c2b3  # xor x5, x5, x20
    .word 0x1e812303  # lw x6, 488(x2)
    .word 0x0062f633  # and x12, x5, x6
    .word 0x00ca4a33  # xor x20, x20, x12
    .word 0x00161313  # slli x6, x12, 1
    .word 0x0069c633  # xor x12, x19, x6
    .word 0x001ad293  # srli x5, x21, 1
    .word 0x0162c2b3  # xor x5, x5, x22
    .word 0x1e812303  # lw x6, 488(x2)
    .word 0x0062f7b3  # and x15, x5, x6
    .word 0x00fb4b33  # xor x22, x22, x15
    .word 0x00179313  # slli x6, x15, 1
    .word 0x006ac7b3  # xor x15, x21, x6
    .word 0x001bd293  # srli x5, x23, 1
    .word 0x00e2c2b3  # xor x5, x5, x14
    .word 0x1e812303  # lw x6, 488(x2)
    .word 0x0062f9b3  # and x19, x5, x6
    .word 0x01374733  # xor x14, x14, x19
    .word 0x00199313  # slli x6, x19, 1
    .word 0x006bcbb3  # xor x23, x23, x6
    .word 0x0025d293  # srli x5, x11, 2
    .word 0x00c2c2b3  # xor x5, x5, x12
    .word 0x1ec12303  # lw x6, 492(x2)
    .word 0x0062fab3  # and x21, x5, x6
    .word 0x015649b3  # xor x19, x12, x21
    .word 0x002a9313  # slli x6, x21, 2
    .word 0x0065c5b3  # xor x11, x11, x6
    .word 0x00295293  # srli x5, x18, 2
    .word 0x0142c2b3  # xor x5, x5, x20
    .word 0x1ec12303  # lw x6, 492(x2)
    .word 0x0062f633  # and x12, x5, x6
    .word 0x00ca4a33  # xor x20, x20, x12
    .word 0x00261313  # slli x6, x12, 2
    .word 0x00694633  # xor x12, x18, x6
    .word 0x0027d293  # srli x5, x15, 2
    .word 0x0172c2b3  # xor x5, x5, x23
    .word 0x1ec12303  # lw x6, 492(x2)
    .word 0x0062f933  # and x18, x5, x6
    .word 0x012bcbb3  # xor x23, x23, x18
    .word 0x00291313  # slli x6, x18, 2
    .word 0x0067c7b3  # xor x15, x15, x6
    .word 0x002b5293  # srli x5, x22, 2
    .word 0x00e2c2b3  # xor x5, x5, x14
    .word 0x1ec12303  # lw x6, 492(x2)
    .word 0x0062f933  # and x18, x5, x6
    .word 0x01274733  # xor x14, x14, x18
    .word 0x00291313  # slli x6, x18, 2
    .word 0x006b4b33  # xor x22, x22, x6
    .word 0x0045d293  # srli x5, x11, 4
    .word 0x00f2c2b3  # xor x5, x5, x15
    .word 0x1f012303  # lw x6, 496(x2)
    .word 0x0062f933  # and x18, x5, x6
    .word 0x0127cab3  # xor x21, x15, x18
    .word 0x00491313  # slli x6, x18, 4
    .word 0x0065c5b3  # xor x11, x11, x6
    .word 0x00465293  # srli x5, x12, 4
    .word 0x0162c2b3  # xor x5, x5, x22
    .word 0x1f012303  # lw x6, 496(x2)
    .word 0x0062f7b3  # and x15, x5, x6
    .word 0x00fb4b33  # xor x22, x22, x15
    .word 0x00479313  # slli x6, x15, 4
    .word 0x00664633  # xor x12, x12, x6
    .word 0x0049d293  # srli x5, x19, 4
    .word 0x0172c2b3  # xor x5, x5, x23
    .word 0x1f012303  # lw x6, 496(x2)
    .word 0x0062f7b3  # and x15, x5, x6
    .word 0x00fbcbb3  # xor x23, x23, x15
    .word 0x00479313  # slli x6, x15, 4
    .word 0x0069c7b3  # xor x15, x19, x6
    .word 0x004a5293  # srli x5, x20, 4
    .word 0x00e2c2b3  # xor x5, x5, x14
    .word 0x1f012303  # lw x6, 496(x2)
    .word 0x0062f933  # and x18, x5, x6
    .word 0x01274733  # xor x14, x14, x18
    .word 0x00491313  # slli x6, x18, 4
    .word 0x006a4a33  # xor x20, x20, x6
    .word 0x00b10823  # sb x11, 16(x2)
    .word 0x0085d293  # srli x5, x11, 8
    .word 0x00510c23  # sb x5, 24(x2)
    .word 0x00060593  # addi x11, x12, 0
    .word 0x00b108a3  # sb x11, 17(x2)
    .word 0x0085d293  # srli x5, x11, 8
    .word 0x00510ca3  # sb x5, 25(x2)
    .word 0x00078593  # addi x11, x15, 0
    .word 0x00b10923  # sb x11, 18(x2)
    .word 0x0085d293  # srli x5, x11, 8
    .word 0x00510d23  # sb x5, 26(x2)
    .word 0x000a0593  # addi x11, x20, 0
    .word 0x00b109a3  # sb x11, 19(x2)
    .word 0x0085d293  # srli x5, x11, 8
    .word 0x00510da3  # sb x5, 27(x2)
    .word 0x000a8593  # addi x11, x21, 0
    .word 0x00b10a23  # sb x11, 20(x2)
    .word 0x0085d293  # srli x5, x11, 8
    .word 0x00510e23  # sb x5, 28(x2)
    .word 0x000b0593  # addi x11, x22, 0
    .word 0x00b10aa3  # sb x11, 21(x2)
    .word 0x0085d293  # srli x5, x11, 8
    .word 0x00510ea3  # sb x5, 29(x2)
    .word 0x000b8593  # addi x11, x23, 0
    .word 0x00b10b23  # sb x11, 22(x2)
    .word 0x0085d293  # srli x5, x11, 8
    .word 0x00510f23  # sb x5, 30(x2)
    .word 0x00070593  # addi x11, x14, 0
    .word 0x00b10ba3  # sb x11, 23(x2)
    .word 0x0085d293  # srli x5, x11, 8
    .word 0x00510fa3  # sb x5, 31(x2)
    # the result
    .word 0x00000513  # addi x10, x0, 0
    # parameter 1: the array, back
    .word 0x01010293  # addi x5, x2, 16
    .word 0x24c12303  # lw x6, 588(x2)
    .word 0x01028393  # addi x7, x5, 16
    .word 0x08c00f6f  # jal x30, 140
    # above the frame
    .word 0x21010293  # addi x5, x2, 528
    # the caller's registers
    .word 0x0002a483  # lw x9, 0(x5)
    .cfi_restore 9
    .word 0x0042a903  # lw x18, 4(x5)
    .cfi_restore 18
    .word 0x0082a983  # lw x19, 8(x5)
    .cfi_restore 19
    .word 0x00c2aa03  # lw x20, 12(x5)
    .cfi_restore 20
    .word 0x0102aa83  # lw x21, 16(x5)
    .cfi_restore 21
    .word 0x0142ab03  # lw x22, 20(x5)
    .cfi_restore 22
    .word 0x0182ab83  # lw x23, 24(x5)
    .cfi_restore 23
    .word 0x01c2ac03  # lw x24, 28(x5)
    .cfi_restore 24
    .word 0x0202ac83  # lw x25, 32(x5)
    .cfi_restore 25
    .word 0x0242ad03  # lw x26, 36(x5)
    .cfi_restore 26
    .word 0x0282ad83  # lw x27, 40(x5)
    .cfi_restore 27
    # the caller's x2
    .word 0x04028293  # addi x5, x5, 64
    .cfi_def_cfa 5, 0
    # all the room, wiped upward
    .word 0x00012023  # sw x0, 0(x2)
    .word 0x00012223  # sw x0, 4(x2)
    .word 0x00012423  # sw x0, 8(x2)
    .word 0x00012623  # sw x0, 12(x2)
    .word 0x01010113  # addi x2, x2, 16
    .word 0xfe5116e3  # bne x2, x5, -20
    .cfi_def_cfa 2, 0
    # temporaries, wiped
    .word 0x00000293  # addi x5, x0, 0
    .word 0x00000313  # addi x6, x0, 0
    .word 0x00000393  # addi x7, x0, 0
    .word 0x00000593  # addi x11, x0, 0
    .word 0x00000613  # addi x12, x0, 0
    .word 0x00000693  # addi x13, x0, 0
    .word 0x00000713  # addi x14, x0, 0
    .word 0x00000793  # addi x15, x0, 0
    .word 0x00000813  # addi x16, x0, 0
    .word 0x00000893  # addi x17, x0, 0
    .word 0x00000e13  # addi x28, x0, 0
    .word 0x00000e93  # addi x29, x0, 0
    .word 0x00000f13  # addi x30, x0, 0
    .word 0x00000f93  # addi x31, x0, 0
    # back
    .word 0x00008067  # jalr x0, 0(x1)
    # from x5 to x6 up to x7, and back
    .cfi_def_cfa 2, 592
    .cfi_offset 9, -64
    .cfi_offset 18, -60
    .cfi_offset 19, -56
    .cfi_offset 20, -52
    .cfi_offset 21, -48
    .cfi_offset 22, -44
    .cfi_offset 23, -40
    .cfi_offset 24, -36
    .cfi_offset 25, -32
    .cfi_offset 26, -28
    .cfi_offset 27, -24
    .word 0x0062ee33  # or x28, x5, x6
    .word 0x003e7e13  # andi x28, x28, 3
    .word 0x000e0e63  # beq x28, x0, 28
    .word 0x0002ce03  # lbu x28, 0(x5)
    .word 0x01c30023  # sb x28, 0(x6)
    .word 0x00128293  # addi x5, x5, 1
    .word 0x00130313  # addi x6, x6, 1
    .word 0xfe7298e3  # bne x5, x7, -16
    .word 0x0300006f  # jal x0, 48
    .word 0x0002ae03  # lw x28, 0(x5)
    .word 0x01c32023  # sw x28, 0(x6)
    .word 0x0042ae03  # lw x28, 4(x5)
    .word 0x01c32223  # sw x28, 4(x6)
    .word 0x0082ae03  # lw x28, 8(x5)
    .word 0x01c32423  # sw x28, 8(x6)
    .word 0x00c2ae03  # lw x28, 12(x5)
    .word 0x01c32623  # sw x28, 12(x6)
    .word 0x01028293  # addi x5, x5, 16
    .word 0x01030313  # addi x6, x6, 16
    .word 0xfc729ce3  # bne x5, x7, -40
    .word 0x000f0067  # jalr x0, 0(x30)
    .cfi_endproc
    .size aes128_decrypt, . - aes128_decrypt
    .option pop
