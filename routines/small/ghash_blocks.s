# ghash_blocks: made by factc 1.0.0 function; 653 words and 21 shared, 624 bytes of stack, profile 1
    .option push
    .option norvc
    .option norelax
    .cfi_sections .debug_frame
    .section .text.ghash_blocks, "ax", @progbits
    .p2align 2
    .globl ghash_blocks
    .type ghash_blocks, @function
ghash_blocks:
    .cfi_startproc
    # room above the frame
    .word 0xfc010113  # addi x2, x2, -64
    .cfi_def_cfa_offset 64
    # the caller's registers
    .word 0x00812023  # sw x8, 0(x2)
    .cfi_offset 8, -64
    .word 0x00912223  # sw x9, 4(x2)
    .cfi_offset 9, -60
    .word 0x01212423  # sw x18, 8(x2)
    .cfi_offset 18, -56
    .word 0x01312623  # sw x19, 12(x2)
    .cfi_offset 19, -52
    .word 0x01412823  # sw x20, 16(x2)
    .cfi_offset 20, -48
    .word 0x01512a23  # sw x21, 20(x2)
    .cfi_offset 21, -44
    .word 0x01612c23  # sw x22, 24(x2)
    .cfi_offset 22, -40
    .word 0x01712e23  # sw x23, 28(x2)
    .cfi_offset 23, -36
    .word 0x03812023  # sw x24, 32(x2)
    .cfi_offset 24, -32
    .word 0x03912223  # sw x25, 36(x2)
    .cfi_offset 25, -28
    .word 0x03a12423  # sw x26, 40(x2)
    .cfi_offset 26, -24
    .word 0x03b12623  # sw x27, 44(x2)
    .cfi_offset 27, -20
    # arguments that are needed behind the body
    .word 0x02a12823  # sw x10, 48(x2)
    .word 0x02b12a23  # sw x11, 52(x2)
    .word 0x02c12c23  # sw x12, 56(x2)
    .word 0x02d12e23  # sw x13, 60(x2)
    # the frame's base
    .word 0xdd010113  # addi x2, x2, -560
    .cfi_def_cfa 2, 624
    # parameter 0: an array
    .word 0x00050293  # addi x5, x10, 0
    .word 0x00010313  # addi x6, x2, 0
    .word 0x01028393  # addi x7, x5, 16
    .word 0x0002ce03  # lbu x28, 0(x5)
    .word 0x01c30023  # sb x28, 0(x6)
    .word 0x00128293  # addi x5, x5, 1
    .word 0x00130313  # addi x6, x6, 1
    .word 0xfe7298e3  # bne x5, x7, -16
    # parameter 1: an array
    .word 0x00058293  # addi x5, x11, 0
    .word 0x01010313  # addi x6, x2, 16
    .word 0x10028393  # addi x7, x5, 256
    .word 0x0002ce03  # lbu x28, 0(x5)
    .word 0x01c30023  # sb x28, 0(x6)
    .word 0x00128293  # addi x5, x5, 1
    .word 0x00130313  # addi x6, x6, 1
    .word 0xfe7298e3  # bne x5, x7, -16
    # parameter 2: a word
    .word 0x10c12823  # sw x12, 272(x2)
    # parameter 3: an array
    .word 0x00068293  # addi x5, x13, 0
    .word 0x11410313  # addi x6, x2, 276
    .word 0x01028393  # addi x7, x5, 16
    .word 0x0002ce03  # lbu x28, 0(x5)
    .word 0x01c30023  # sb x28, 0(x6)
    .word 0x00128293  # addi x5, x5, 1
    .word 0x00130313  # addi x6, x6, 1
    .word 0xfe7298e3  # bne x5, x7, -16
    # the body
    .word 0x00000713  # addi x14, x0, 0
    .word 0x111112b7  # lui x5, 0x11111
    .word 0x11128293  # addi x5, x5, 273
    .word 0x20512223  # sw x5, 516(x2)
    .word 0x222222b7  # lui x5, 0x22222
    .word 0x22228293  # addi x5, x5, 546
    .word 0x20512423  # sw x5, 520(x2)
    .word 0x444442b7  # lui x5, 0x44444
    .word 0x44428293  # addi x5, x5, 1092
    .word 0x20512623  # sw x5, 524(x2)
    .word 0x888892b7  # lui x5, 0x88889
    .word 0x88828293  # addi x5, x5, -1912
    .word 0x20512823  # sw x5, 528(x2)
    .word 0x12400313  # addi x6, x0, 292
    .word 0x00230333  # add x6, x6, x2
    .word 0x01000393  # addi x7, x0, 16
    .word 0x006383b3  # add x7, x7, x6
    .word 0x406382b3  # sub x5, x7, x6
    .word 0x00029463  # bne x5, x0, 8
    .word 0x0100006f  # jal x0, 16
    .word 0x00032023  # sw x0, 0(x6)
    .word 0x00430313  # addi x6, x6, 4
    .word 0xfedff06f  # jal x0, -20
    .word 0x13400313  # addi x6, x0, 308
    .word 0x00230333  # add x6, x6, x2
    .word 0x01000393  # addi x7, x0, 16
    .word 0x006383b3  # add x7, x7, x6
    .word 0x406382b3  # sub x5, x7, x6
    .word 0x00029463  # bne x5, x0, 8
    .word 0x0100006f  # jal x0, 16
    .word 0x00032023  # sw x0, 0(x6)
    .word 0x00430313  # addi x6, x6, 4
    .word 0xfedff06f  # jal x0, -20
    .word 0xfff00613  # addi x12, x0, -1
    .word 0x00160613  # addi x12, x12, 1
    .word 0x00261d93  # slli x27, x12, 2
    .word 0x002d8db3  # add x27, x27, x2
    .word 0x00c00293  # addi x5, x0, 12
    .word 0x00261313  # slli x6, x12, 2
    .word 0x406285b3  # sub x11, x5, x6
    .word 0x002582b3  # add x5, x11, x2
    .word 0x0002c283  # lbu x5, 0(x5)
    .word 0x01829293  # slli x5, x5, 24
    .word 0x00258333  # add x6, x11, x2
    .word 0x00134303  # lbu x6, 1(x6)
    .word 0x01031313  # slli x6, x6, 16
    .word 0x0062e7b3  # or x15, x5, x6
    .word 0x00258333  # add x6, x11, x2
    .word 0x00234303  # lbu x6, 2(x6)
    .word 0x00831313  # slli x6, x6, 8
    .word 0x0067e2b3  # or x5, x15, x6
    .word 0x00258333  # add x6, x11, x2
    .word 0x00334303  # lbu x6, 3(x6)
    .word 0x0062e2b3  # or x5, x5, x6
    .word 0x125da223  # sw x5, 292(x27)
    .word 0x00c00293  # addi x5, x0, 12
    .word 0x00261313  # slli x6, x12, 2
    .word 0x406285b3  # sub x11, x5, x6
    .word 0x002582b3  # add x5, x11, x2
    .word 0x1142c283  # lbu x5, 276(x5)
    .word 0x01829293  # slli x5, x5, 24
    .word 0x00258333  # add x6, x11, x2
    .word 0x11534303  # lbu x6, 277(x6)
    .word 0x01031313  # slli x6, x6, 16
    .word 0x0062e7b3  # or x15, x5, x6
    .word 0x00258333  # add x6, x11, x2
    .word 0x11634303  # lbu x6, 278(x6)
    .word 0x00831313  # slli x6, x6, 8
    .word 0x0067e2b3  # or x5, x15, x6
    .word 0x00258333  # add x6, x11, x2
    .word 0x11734303  # lbu x6, 279(x6)
    .word 0x0062e2b3  # or x5, x5, x6
    .word 0x125daa23  # sw x5, 308(x27)
    .word 0xffd60293  # addi x5, x12, -3
    .word 0xf60290e3  # bne x5, x0, -160
    .word 0x14400313  # addi x6, x0, 324
    .word 0x00230333  # add x6, x6, x2
    .word 0x02400393  # addi x7, x0, 36
    .word 0x006383b3  # add x7, x7, x6
    .word 0x406382b3  # sub x5, x7, x6
    .word 0x00029463  # bne x5, x0, 8
    .word 0x0100006f  # jal x0, 16
    .word 0x00032023  # sw x0, 0(x6)
    .word 0x00430313  # addi x6, x6, 4
    .word 0xfedff06f  # jal x0, -20
    .word 0xfff00613  # addi x12, x0, -1
    .word 0x00160613  # addi x12, x12, 1
    .word 0x00261d93  # slli x27, x12, 2
    .word 0x002d8db3  # add x27, x27, x2
    .word 0x124da283  # lw x5, 292(x27)
    .word 0x145da223  # sw x5, 324(x27)
    .word 0xffd60293  # addi x5, x12, -3
    .word 0xfe0294e3  # bne x5, x0, -24
    .word 0x12412283  # lw x5, 292(x2)
    .word 0x12812303  # lw x6, 296(x2)
    .word 0x0062c2b3  # xor x5, x5, x6
    .word 0x14512a23  # sw x5, 340(x2)
    .word 0x12c12283  # lw x5, 300(x2)
    .word 0x13012303  # lw x6, 304(x2)
    .word 0x0062c2b3  # xor x5, x5, x6
    .word 0x14512c23  # sw x5, 344(x2)
    .word 0x12412283  # lw x5, 292(x2)
    .word 0x12c12303  # lw x6, 300(x2)
    .word 0x0062c2b3  # xor x5, x5, x6
    .word 0x14512e23  # sw x5, 348(x2)
    .word 0x12812283  # lw x5, 296(x2)
    .word 0x13012303  # lw x6, 304(x2)
    .word 0x0062c2b3  # xor x5, x5, x6
    .word 0x16512023  # sw x5, 352(x2)
    .word 0x15412283  # lw x5, 340(x2)
    .word 0x15812303  # lw x6, 344(x2)
    .word 0x0062c2b3  # xor x5, x5, x6
    .word 0x16512223  # sw x5, 356(x2)
    .word 0x11012283  # lw x5, 272(x2)
    .word 0x1002b293  # sltiu x5, x5, 256
    .word 0x11012303  # lw x6, 272(x2)
    .word 0x10000393  # addi x7, x0, 256
    .word 0x405002b3  # sub x5, x0, x5
    .word 0x00734333  # xor x6, x6, x7
    .word 0x00537333  # and x6, x6, x5
    .word 0x0063c2b3  # xor x5, x7, x6
    .word 0x10100313  # addi x6, x0, 257
    .word 0x0262f2b3  # remu x5, x5, x6
    .word 0x16512423  # sw x5, 360(x2)
    .word 0x20012c23  # sw x0, 536(x2)
    .word 0x16812283  # lw x5, 360(x2)
    .word 0x00f28293  # addi x5, x5, 15
    .word 0x0042d293  # srli x5, x5, 4
    .word 0x20512e23  # sw x5, 540(x2)
    .word 0x21812303  # lw x6, 536(x2)
    .word 0x21c12283  # lw x5, 540(x2)
    .word 0x005332b3  # sltu x5, x6, x5
    .word 0x00029463  # bne x5, x0, 8
    .word 0x6d00006f  # jal x0, 1744
    .word 0x16612623  # sw x6, 364(x2)
    .word 0x00130313  # addi x6, x6, 1
    .word 0x20612c23  # sw x6, 536(x2)
    .word 0x16c12283  # lw x5, 364(x2)
    .word 0x00429593  # slli x11, x5, 4
    .word 0x01058293  # addi x5, x11, 16
    .word 0x16812303  # lw x6, 360(x2)
    .word 0x0a536263  # bltu x6, x5, 164
    .word 0xfff00613  # addi x12, x0, -1
    .word 0x00160613  # addi x12, x12, 1
    .word 0x00261d93  # slli x27, x12, 2
    .word 0x002d8db3  # add x27, x27, x2
    .word 0x00c00313  # addi x6, x0, 12
    .word 0x00261393  # slli x7, x12, 2
    .word 0x40730333  # sub x6, x6, x7
    .word 0x006582b3  # add x5, x11, x6
    .word 0x002282b3  # add x5, x5, x2
    .word 0x0102c283  # lbu x5, 16(x5)
    .word 0x01829293  # slli x5, x5, 24
    .word 0x00d00393  # addi x7, x0, 13
    .word 0x00261413  # slli x8, x12, 2
    .word 0x408383b3  # sub x7, x7, x8
    .word 0x00758333  # add x6, x11, x7
    .word 0x00230333  # add x6, x6, x2
    .word 0x01034303  # lbu x6, 16(x6)
    .word 0x01031313  # slli x6, x6, 16
    .word 0x0062e7b3  # or x15, x5, x6
    .word 0x00e00313  # addi x6, x0, 14
    .word 0x00261393  # slli x7, x12, 2
    .word 0x40730333  # sub x6, x6, x7
    .word 0x006582b3  # add x5, x11, x6
    .word 0x002282b3  # add x5, x5, x2
    .word 0x0102c283  # lbu x5, 16(x5)
    .word 0x00829293  # slli x5, x5, 8
    .word 0x00f00393  # addi x7, x0, 15
    .word 0x00261413  # slli x8, x12, 2
    .word 0x408383b3  # sub x7, x7, x8
    .word 0x00758333  # add x6, x11, x7
    .word 0x00230333  # add x6, x6, x2
    .word 0x01034303  # lbu x6, 16(x6)
    .word 0x0062e833  # or x16, x5, x6
    .word 0x134da283  # lw x5, 308(x27)
    .word 0x0107e333  # or x6, x15, x16
    .word 0x0062c2b3  # xor x5, x5, x6
    .word 0x125daa23  # sw x5, 308(x27)
    .word 0xffd60293  # addi x5, x12, -3
    .word 0xf60296e3  # bne x5, x0, -148
    .word 0x0740006f  # jal x0, 116
    .word 0xfff00693  # addi x13, x0, -1
    .word 0x00168693  # addi x13, x13, 1
    .word 0x00d582b3  # add x5, x11, x13
    .word 0x16812303  # lw x6, 360(x2)
    .word 0x0462fc63  # bgeu x5, x6, 88
    .word 0x00300293  # addi x5, x0, 3
    .word 0x0026d313  # srli x6, x13, 2
    .word 0x406282b3  # sub x5, x5, x6
    .word 0x00300313  # addi x6, x0, 3
    .word 0x0026d393  # srli x7, x13, 2
    .word 0x40730333  # sub x6, x6, x7
    .word 0x00231313  # slli x6, x6, 2
    .word 0x00230333  # add x6, x6, x2
    .word 0x13432303  # lw x6, 308(x6)
    .word 0x00d583b3  # add x7, x11, x13
    .word 0x002383b3  # add x7, x7, x2
    .word 0x0103c383  # lbu x7, 16(x7)
    .word 0x01800413  # addi x8, x0, 24
    .word 0x0036f493  # andi x9, x13, 3
    .word 0x00349493  # slli x9, x9, 3
    .word 0x40940433  # sub x8, x8, x9
    .word 0x008393b3  # sll x7, x7, x8
    .word 0x00734333  # xor x6, x6, x7
    .word 0x00229293  # slli x5, x5, 2
    .word 0x002282b3  # add x5, x5, x2
    .word 0x1262aa23  # sw x6, 308(x5)
    .word 0xff168293  # addi x5, x13, -15
    .word 0xf8029ce3  # bne x5, x0, -104
    .word 0x17000313  # addi x6, x0, 368
    .word 0x00230333  # add x6, x6, x2
    .word 0x02000393  # addi x7, x0, 32
    .word 0x006383b3  # add x7, x7, x6
    .word 0x406382b3  # sub x5, x7, x6
    .word 0x00029463  # bne x5, x0, 8
    .word 0x0100006f  # jal x0, 16
    .word 0x00032023  # sw x0, 0(x6)
    .word 0x00430313  # addi x6, x6, 4
    .word 0xfedff06f  # jal x0, -20
    .word 0x16812303  # lw x6, 360(x2)
    .word 0x0065b2b3  # sltu x5, x11, x6
    .word 0x00900313  # addi x6, x0, 9
    .word 0x405002b3  # sub x5, x0, x5
    .word 0x005375b3  # and x11, x6, x5
    .word 0x18012823  # sw x0, 400(x2)
    .word 0x18012a23  # sw x0, 404(x2)
    .word 0x18012c23  # sw x0, 408(x2)
    .word 0x18012e23  # sw x0, 412(x2)
    .word 0x1a012023  # sw x0, 416(x2)
    .word 0x1a012223  # sw x0, 420(x2)
    .word 0x1a012423  # sw x0, 424(x2)
    .word 0x1a012623  # sw x0, 428(x2)
    .word 0x1a012823  # sw x0, 432(x2)
    .word 0xfff00613  # addi x12, x0, -1
    .word 0x00160613  # addi x12, x12, 1
    .word 0x00261d93  # slli x27, x12, 2
    .word 0x002d8db3  # add x27, x27, x2
    .word 0x134da283  # lw x5, 308(x27)
    .word 0x185da823  # sw x5, 400(x27)
    .word 0xffd60293  # addi x5, x12, -3
    .word 0xfe0294e3  # bne x5, x0, -24
    .word 0x13412283  # lw x5, 308(x2)
    .word 0x13812303  # lw x6, 312(x2)
    .word 0x0062c2b3  # xor x5, x5, x6
    .word 0x1a512023  # sw x5, 416(x2)
    .word 0x13c12283  # lw x5, 316(x2)
    .word 0x14012303  # lw x6, 320(x2)
    .word 0x0062c2b3  # xor x5, x5, x6
    .word 0x1a512223  # sw x5, 420(x2)
    .word 0x13412283  # lw x5, 308(x2)
    .word 0x13c12303  # lw x6, 316(x2)
    .word 0x0062c2b3  # xor x5, x5, x6
    .word 0x1a512423  # sw x5, 424(x2)
    .word 0x13812283  # lw x5, 312(x2)
    .word 0x14012303  # lw x6, 320(x2)
    .word 0x0062c2b3  # xor x5, x5, x6
    .word 0x1a512623  # sw x5, 428(x2)
    .word 0x1a012283  # lw x5, 416(x2)
    .word 0x1a412303  # lw x6, 420(x2)
    .word 0x0062c2b3  # xor x5, x5, x6
    .word 0x1a512823  # sw x5, 432(x2)
    .word 0x1a012a23  # sw x0, 436(x2)
    .word 0x1a012c23  # sw x0, 440(x2)
    .word 0x1a012e23  # sw x0, 444(x2)
    .word 0x1c012023  # sw x0, 448(x2)
    .word 0x1c012223  # sw x0, 452(x2)
    .word 0x1c012423  # sw x0, 456(x2)
    .word 0x1c012623  # sw x0, 460(x2)
    .word 0x1c012823  # sw x0, 464(x2)
    .word 0x1c012a23  # sw x0, 468(x2)
    .word 0x1c012c23  # sw x0, 472(x2)
    .word 0x1c012e23  # sw x0, 476(x2)
    .word 0x1e012023  # sw x0, 480(x2)
    .word 0x1e012223  # sw x0, 484(x2)
    .word 0x1e012423  # sw x0, 488(x2)
    .word 0x1e012623  # sw x0, 492(x2)
    .word 0x1e012823  # sw x0, 496(x2)
    .word 0x1e012a23  # sw x0, 500(x2)
    .word 0x1e012c23  # sw x0, 504(x2)
    .word 0x22012023  # sw x0, 544(x2)
    .word 0x22b12223  # sw x11, 548(x2)
    .word 0x22012303  # lw x6, 544(x2)
    .word 0x22412283  # lw x5, 548(x2)
    .word 0x005332b3  # sltu x5, x6, x5
    .word 0x00029463  # bne x5, x0, 8
    .word 0x1e40006f  # jal x0, 484
    .word 0x00030713  # addi x14, x6, 0
    .word 0x00070613  # addi x12, x14, 0
    .word 0x00261d93  # slli x27, x12, 2
    .word 0x002d8db3  # add x27, x27, x2
    .word 0x00271913  # slli x18, x14, 2
    .word 0x00290933  # add x18, x18, x2
    .word 0x14492903  # lw x18, 324(x18)
    .word 0x00271b13  # slli x22, x14, 2
    .word 0x002b0b33  # add x22, x22, x2
    .word 0x190b2b03  # lw x22, 400(x22)
    .word 0x20412303  # lw x6, 516(x2)
    .word 0x006977b3  # and x15, x18, x6
    .word 0x20812303  # lw x6, 520(x2)
    .word 0x00697833  # and x16, x18, x6
    .word 0x20c12303  # lw x6, 524(x2)
    .word 0x006978b3  # and x17, x18, x6
    .word 0x21012303  # lw x6, 528(x2)
    .word 0x00697933  # and x18, x18, x6
    .word 0x20412303  # lw x6, 516(x2)
    .word 0x006b79b3  # and x19, x22, x6
    .word 0x20812303  # lw x6, 520(x2)
    .word 0x006b7a33  # and x20, x22, x6
    .word 0x20c12303  # lw x6, 524(x2)
    .word 0x006b7ab3  # and x21, x22, x6
    .word 0x21012303  # lw x6, 528(x2)
    .word 0x006b7b33  # and x22, x22, x6
    .word 0x033782b3  # mul x5, x15, x19
    .word 0x03680333  # mul x6, x16, x22
    .word 0x0062c2b3  # xor x5, x5, x6
    .word 0x03588333  # mul x6, x17, x21
    .word 0x0062c2b3  # xor x5, x5, x6
    .word 0x03490333  # mul x6, x18, x20
    .word 0x0062c2b3  # xor x5, x5, x6
    .word 0x20412303  # lw x6, 516(x2)
    .word 0x0062fbb3  # and x23, x5, x6
    .word 0x034782b3  # mul x5, x15, x20
    .word 0x03380333  # mul x6, x16, x19
    .word 0x0062c2b3  # xor x5, x5, x6
    .word 0x03688333  # mul x6, x17, x22
    .word 0x0062c2b3  # xor x5, x5, x6
    .word 0x03590333  # mul x6, x18, x21
    .word 0x0062c2b3  # xor x5, x5, x6
    .word 0x20812303  # lw x6, 520(x2)
    .word 0x0062fc33  # and x24, x5, x6
    .word 0x035782b3  # mul x5, x15, x21
    .word 0x03480333  # mul x6, x16, x20
    .word 0x0062c2b3  # xor x5, x5, x6
    .word 0x03388333  # mul x6, x17, x19
    .word 0x0062c2b3  # xor x5, x5, x6
    .word 0x03690333  # mul x6, x18, x22
    .word 0x0062c2b3  # xor x5, x5, x6
    .word 0x20c12303  # lw x6, 524(x2)
    .word 0x0062fcb3  # and x25, x5, x6
    .word 0x036782b3  # mul x5, x15, x22
    .word 0x03580333  # mul x6, x16, x21
    .word 0x0062c2b3  # xor x5, x5, x6
    .word 0x03488333  # mul x6, x17, x20
    .word 0x0062c2b3  # xor x5, x5, x6
    .word 0x03390333  # mul x6, x18, x19
    .word 0x0062c2b3  # xor x5, x5, x6
    .word 0x21012303  # lw x6, 528(x2)
    .word 0x0062fd33  # and x26, x5, x6
    .word 0x018be333  # or x6, x23, x24
    .word 0x01936333  # or x6, x6, x25
    .word 0x01a36333  # or x6, x6, x26
    .word 0x00271293  # slli x5, x14, 2
    .word 0x002282b3  # add x5, x5, x2
    .word 0x1a62aa23  # sw x6, 436(x5)
    .word 0x0337bbb3  # mulhu x23, x15, x19
    .word 0x03683c33  # mulhu x24, x16, x22
    .word 0x0358bcb3  # mulhu x25, x17, x21
    .word 0x03493d33  # mulhu x26, x18, x20
    .word 0x018bc2b3  # xor x5, x23, x24
    .word 0x0192c2b3  # xor x5, x5, x25
    .word 0x01a2c2b3  # xor x5, x5, x26
    .word 0x20412303  # lw x6, 516(x2)
    .word 0x0062fbb3  # and x23, x5, x6
    .word 0x0347bc33  # mulhu x24, x15, x20
    .word 0x03383cb3  # mulhu x25, x16, x19
    .word 0x0368bd33  # mulhu x26, x17, x22
    .word 0x035932b3  # mulhu x5, x18, x21
    .word 0x1e512e23  # sw x5, 508(x2)
    .word 0x019c42b3  # xor x5, x24, x25
    .word 0x01a2c2b3  # xor x5, x5, x26
    .word 0x1fc12303  # lw x6, 508(x2)
    .word 0x0062c2b3  # xor x5, x5, x6
    .word 0x20812303  # lw x6, 520(x2)
    .word 0x0062fc33  # and x24, x5, x6
    .word 0x0357bcb3  # mulhu x25, x15, x21
    .word 0x03483d33  # mulhu x26, x16, x20
    .word 0x0338b2b3  # mulhu x5, x17, x19
    .word 0x1e512e23  # sw x5, 508(x2)
    .word 0x036932b3  # mulhu x5, x18, x22
    .word 0x20512023  # sw x5, 512(x2)
    .word 0x01acc2b3  # xor x5, x25, x26
    .word 0x1fc12303  # lw x6, 508(x2)
    .word 0x0062c2b3  # xor x5, x5, x6
    .word 0x20012303  # lw x6, 512(x2)
    .word 0x0062c2b3  # xor x5, x5, x6
    .word 0x20c12303  # lw x6, 524(x2)
    .word 0x0062fcb3  # and x25, x5, x6
    .word 0x0367b7b3  # mulhu x15, x15, x22
    .word 0x03583833  # mulhu x16, x16, x21
    .word 0x0348b8b3  # mulhu x17, x17, x20
    .word 0x03393933  # mulhu x18, x18, x19
    .word 0x0107c2b3  # xor x5, x15, x16
    .word 0x0112c2b3  # xor x5, x5, x17
    .word 0x0122c2b3  # xor x5, x5, x18
    .word 0x21012303  # lw x6, 528(x2)
    .word 0x0062f7b3  # and x15, x5, x6
    .word 0x018be2b3  # or x5, x23, x24
    .word 0x0192e2b3  # or x5, x5, x25
    .word 0x00f2e2b3  # or x5, x5, x15
    .word 0x1c5dac23  # sw x5, 472(x27)
    .word 0x00170713  # addi x14, x14, 1
    .word 0x22412283  # lw x5, 548(x2)
    .word 0x005732b3  # sltu x5, x14, x5
    .word 0xe20298e3  # bne x5, x0, -464
    .word 0xfff70713  # addi x14, x14, -1
    .word 0x0040006f  # jal x0, 4
    .word 0x1b412283  # lw x5, 436(x2)
    .word 0x1b812303  # lw x6, 440(x2)
    .word 0x0062c7b3  # xor x15, x5, x6
    .word 0x1bc12283  # lw x5, 444(x2)
    .word 0x1c012303  # lw x6, 448(x2)
    .word 0x0062c833  # xor x16, x5, x6
    .word 0x17012283  # lw x5, 368(x2)
    .word 0x1b412303  # lw x6, 436(x2)
    .word 0x0062c2b3  # xor x5, x5, x6
    .word 0x16512823  # sw x5, 368(x2)
    .word 0x17412283  # lw x5, 372(x2)
    .word 0x00f2c2b3  # xor x5, x5, x15
    .word 0x1c412303  # lw x6, 452(x2)
    .word 0x0062c2b3  # xor x5, x5, x6
    .word 0x16512a23  # sw x5, 372(x2)
    .word 0x17812283  # lw x5, 376(x2)
    .word 0x00f2c2b3  # xor x5, x5, x15
    .word 0x1bc12303  # lw x6, 444(x2)
    .word 0x0062c2b3  # xor x5, x5, x6
    .word 0x1cc12303  # lw x6, 460(x2)
    .word 0x0062c2b3  # xor x5, x5, x6
    .word 0x16512c23  # sw x5, 376(x2)
    .word 0x17c12283  # lw x5, 380(x2)
    .word 0x00f2c2b3  # xor x5, x5, x15
    .word 0x0102c2b3  # xor x5, x5, x16
    .word 0x1c412303  # lw x6, 452(x2)
    .word 0x0062c2b3  # xor x5, x5, x6
    .word 0x1c812303  # lw x6, 456(x2)
    .word 0x0062c2b3  # xor x5, x5, x6
    .word 0x1cc12303  # lw x6, 460(x2)
    .word 0x0062c2b3  # xor x5, x5, x6
    .word 0x1d012303  # lw x6, 464(x2)
    .word 0x0062c2b3  # xor x5, x5, x6
    .word 0x1d412303  # lw x6, 468(x2)
    .word 0x0062c2b3  # xor x5, x5, x6
    .word 0x16512e23  # sw x5, 380(x2)
    .word 0x18012283  # lw x5, 384(x2)
    .word 0x0102c2b3  # xor x5, x5, x16
    .word 0x1b812303  # lw x6, 440(x2)
    .word 0x0062c2b3  # xor x5, x5, x6
    .word 0x1d012303  # lw x6, 464(x2)
    .word 0x0062c2b3  # xor x5, x5, x6
    .word 0x18512023  # sw x5, 384(x2)
    .word 0x18412283  # lw x5, 388(x2)
    .word 0x0102c2b3  # xor x5, x5, x16
    .word 0x1c812303  # lw x6, 456(x2)
    .word 0x0062c2b3  # xor x5, x5, x6
    .word 0x18512223  # sw x5, 388(x2)
    .word 0x18812283  # lw x5, 392(x2)
    .word 0x1c012303  # lw x6, 448(x2)
    .word 0x0062c2b3  # xor x5, x5, x6
    .word 0x18512423  # sw x5, 392(x2)
    .word 0x1d812283  # lw x5, 472(x2)
    .word 0x1dc12303  # lw x6, 476(x2)
    .word 0x0062c7b3  # xor x15, x5, x6
    .word 0x1e012283  # lw x5, 480(x2)
    .word 0x1e412303  # lw x6, 484(x2)
    .word 0x0062c833  # xor x16, x5, x6
    .word 0x17412283  # lw x5, 372(x2)
    .word 0x1d812303  # lw x6, 472(x2)
    .word 0x0062c2b3  # xor x5, x5, x6
    .word 0x16512a23  # sw x5, 372(x2)
    .word 0x17812283  # lw x5, 376(x2)
    .word 0x00f2c2b3  # xor x5, x5, x15
    .word 0x1e812303  # lw x6, 488(x2)
    .word 0x0062c2b3  # xor x5, x5, x6
    .word 0x16512c23  # sw x5, 376(x2)
    .word 0x17c12283  # lw x5, 380(x2)
    .word 0x00f2c2b3  # xor x5, x5, x15
    .word 0x1e012303  # lw x6, 480(x2)
    .word 0x0062c2b3  # xor x5, x5, x6
    .word 0x1f012303  # lw x6, 496(x2)
    .word 0x0062c2b3  # xor x5, x5, x6
    .word 0x16512e23  # sw x5, 380(x2)
    .word 0x18012283  # lw x5, 384(x2)
    .word 0x00f2c2b3  # xor x5, x5, x15
    .word 0x0102c2b3  # xor x5, x5, x16
    .word 0x1e812303  # lw x6, 488(x2)
    .word 0x0062c2b3  # xor x5, x5, x6
    .word 0x1ec12303  # lw x6, 492(x2)
    .word 0x0062c2b3  # xor x5, x5, x6
    .word 0x1f012303  # lw x6, 496(x2)
    .word 0x0062c2b3  # xor x5, x5, x6
    .word 0x1f412303  # lw x6, 500(x2)
    .word 0x0062c2b3  # xor x5, x5, x6
    .word 0x1f812303  # lw x6, 504(x2)
    .word 0x0062c2b3  # xor x5, x5, x6
    .word 0x18512023  # sw x5, 384(x2)
    .word 0x18412283  # lw x5, 388(x2)
    .word 0x0102c2b3  # xor x5, x5, x16
    .word 0x1dc12303  # lw x6, 476(x2)
    .word 0x0062c2b3  # xor x5, x5, x6
    .word 0x1f412303  # lw x6, 500(x2)
    .word 0x0062c2b3  # xor x5, x5, x6
    .word 0x18512223  # sw x5, 388(x2)
    .word 0x18812283  # lw x5, 392(x2)
    .word 0x0102c2b3  # xor x5, x5, x16
    .word 0x1ec12303  # lw x6, 492(x2)
    .word 0x0062c2b3  # xor x5, x5, x6
    .word 0x18512423  # sw x5, 392(x2)
    .word 0x18c12283  # lw x5, 396(x2)
    .word 0x1e412303  # lw x6, 484(x2)
    .word 0x0062c2b3  # xor x5, x5, x6
    .word 0x18512623  # sw x5, 396(x2)
    .word 0xfff00693  # addi x13, x0, -1
    .word 0x00168693  # addi x13, x13, 1
    .word 0x00700293  # addi x5, x0, 7
    .word 0x40d282b3  # sub x5, x5, x13
    .word 0x00700313  # addi x6, x0, 7
    .word 0x40d30333  # sub x6, x6, x13
    .word 0x00231313  # slli x6, x6, 2
    .word 0x00230333  # add x6, x6, x2
    .word 0x17032303  # lw x6, 368(x6)
    .word 0x00131313  # slli x6, x6, 1
    .word 0x00600393  # addi x7, x0, 6
    .word 0x40d383b3  # sub x7, x7, x13
    .word 0x00239393  # slli x7, x7, 2
    .word 0x002383b3  # add x7, x7, x2
    .word 0x1703a383  # lw x7, 368(x7)
    .word 0x01f3d393  # srli x7, x7, 31
    .word 0x00736333  # or x6, x6, x7
    .word 0x00229293  # slli x5, x5, 2
    .word 0x002282b3  # add x5, x5, x2
    .word 0x1662a823  # sw x6, 368(x5)
    .word 0xffa68293  # addi x5, x13, -6
    .word 0xfa0298e3  # bne x5, x0, -80
    .word 0x17012283  # lw x5, 368(x2)
    .word 0x00129293  # slli x5, x5, 1
    .word 0x16512823  # sw x5, 368(x2)
    .word 0xfff00613  # addi x12, x0, -1
    .word 0x00160613  # addi x12, x12, 1
    .word 0x00261d93  # slli x27, x12, 2
    .word 0x002d8db3  # add x27, x27, x2
    .word 0x170da783  # lw x15, 368(x27)
    .word 0x180da283  # lw x5, 384(x27)
    .word 0x00f2c2b3  # xor x5, x5, x15
    .word 0x0017d313  # srli x6, x15, 1
    .word 0x0062c2b3  # xor x5, x5, x6
    .word 0x0027d313  # srli x6, x15, 2
    .word 0x0062c2b3  # xor x5, x5, x6
    .word 0x0077d313  # srli x6, x15, 7
    .word 0x0062c2b3  # xor x5, x5, x6
    .word 0x185da023  # sw x5, 384(x27)
    .word 0x17cda283  # lw x5, 380(x27)
    .word 0x01f79313  # slli x6, x15, 31
    .word 0x0062c2b3  # xor x5, x5, x6
    .word 0x01e79313  # slli x6, x15, 30
    .word 0x0062c2b3  # xor x5, x5, x6
    .word 0x01979313  # slli x6, x15, 25
    .word 0x0062c2b3  # xor x5, x5, x6
    .word 0x165dae23  # sw x5, 380(x27)
    .word 0xffd60293  # addi x5, x12, -3
    .word 0xfa0294e3  # bne x5, x0, -88
    .word 0xfff00613  # addi x12, x0, -1
    .word 0x00160613  # addi x12, x12, 1
    .word 0x00261d93  # slli x27, x12, 2
    .word 0x002d8db3  # add x27, x27, x2
    .word 0x180da283  # lw x5, 384(x27)
    .word 0x125daa23  # sw x5, 308(x27)
    .word 0xffd60293  # addi x5, x12, -3
    .word 0xfe0294e3  # bne x5, x0, -24
    .word 0x925ff06f  # jal x0, -1756
    .word 0xfff00693  # addi x13, x0, -1
    .word 0x00168693  # addi x13, x13, 1
    .word 0x00300313  # addi x6, x0, 3
    .word 0x0026d393  # srli x7, x13, 2
    .word 0x40730333  # sub x6, x6, x7
    .word 0x00231313  # slli x6, x6, 2
    .word 0x00230333  # add x6, x6, x2
    .word 0x13432303  # lw x6, 308(x6)
    .word 0x01800393  # addi x7, x0, 24
    .word 0x0036f413  # andi x8, x13, 3
    .word 0x00341413  # slli x8, x8, 3
    .word 0x408383b3  # sub x7, x7, x8
    .word 0x00735333  # srl x6, x6, x7
    .word 0x002682b3  # add x5, x13, x2
    .word 0x10628a23  # sb x6, 276(x5)
    .word 0xff168293  # addi x5, x13, -15
    .word 0xfc0292e3  # bne x5, x0, -60
    # the result
    .word 0x00000513  # addi x10, x0, 0
    # parameter 3: the array, back
    .word 0x11410293  # addi x5, x2, 276
    .word 0x26c12303  # lw x6, 620(x2)
    .word 0x01028393  # addi x7, x5, 16
    .word 0x0002ce03  # lbu x28, 0(x5)
    .word 0x01c30023  # sb x28, 0(x6)
    .word 0x00128293  # addi x5, x5, 1
    .word 0x00130313  # addi x6, x6, 1
    .word 0xfe7298e3  # bne x5, x7, -16
    # above the frame
    .word 0x23010293  # addi x5, x2, 560
    # the caller's registers
    .word 0x0002a403  # lw x8, 0(x5)
    .cfi_restore 8
    .word 0x0042a483  # lw x9, 4(x5)
    .cfi_restore 9
    .word 0x0082a903  # lw x18, 8(x5)
    .cfi_restore 18
    .word 0x00c2a983  # lw x19, 12(x5)
    .cfi_restore 19
    .word 0x0102aa03  # lw x20, 16(x5)
    .cfi_restore 20
    .word 0x0142aa83  # lw x21, 20(x5)
    .cfi_restore 21
    .word 0x0182ab03  # lw x22, 24(x5)
    .cfi_restore 22
    .word 0x01c2ab83  # lw x23, 28(x5)
    .cfi_restore 23
    .word 0x0202ac03  # lw x24, 32(x5)
    .cfi_restore 24
    .word 0x0242ac83  # lw x25, 36(x5)
    .cfi_restore 25
    .word 0x0282ad03  # lw x26, 40(x5)
    .cfi_restore 26
    .word 0x02c2ad83  # lw x27, 44(x5)
    .cfi_restore 27
    # the caller's x2
    .word 0x04028293  # addi x5, x5, 64
    .cfi_def_cfa 5, 0
    # on to the tail that functions share
    jal x0, factc.tail.1
    .cfi_endproc
    .size ghash_blocks, . - ghash_blocks
    .section .text.factc.tail.1, "axG", @progbits, factc.tail.1, comdat
    .p2align 2
    .globl factc.tail.1
    .hidden factc.tail.1
    .type factc.tail.1, @function
factc.tail.1:
    .cfi_startproc
    .cfi_def_cfa 5, 0
    # all the room, wiped upward
    .word 0x00012023  # sw x0, 0(x2)
    .word 0x00012223  # sw x0, 4(x2)
    .word 0x00012423  # sw x0, 8(x2)
    .word 0x00012623  # sw x0, 12(x2)
    .word 0x01010113  # addi x2, x2, 16
    .word 0xfe5116e3  # bne x2, x5, -20
    .cfi_def_cfa 2, 0
    # temporaries, wiped
    .word 0x00000293  # addi x5, x0, 0
    .word 0x00000313  # addi x6, x0, 0
    .word 0x00000393  # addi x7, x0, 0
    .word 0x00000593  # addi x11, x0, 0
    .word 0x00000613  # addi x12, x0, 0
    .word 0x00000693  # addi x13, x0, 0
    .word 0x00000713  # addi x14, x0, 0
    .word 0x00000793  # addi x15, x0, 0
    .word 0x00000813  # addi x16, x0, 0
    .word 0x00000893  # addi x17, x0, 0
    .word 0x00000e13  # addi x28, x0, 0
    .word 0x00000e93  # addi x29, x0, 0
    .word 0x00000f13  # addi x30, x0, 0
    .word 0x00000f93  # addi x31, x0, 0
    # back
    .word 0x00008067  # jalr x0, 0(x1)
    .cfi_endproc
    .size factc.tail.1, . - factc.tail.1
    .option pop
