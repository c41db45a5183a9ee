# keccak_f1600: made by factc 1.0.0 function; 953 words and 21 shared, 656 bytes of stack, profile 1
    .option push
    .option norvc
    .option norelax
    .cfi_sections .debug_frame
    .section .text.keccak_f1600, "ax", @progbits
    .p2align 2
    .globl keccak_f1600
    .type keccak_f1600, @function
keccak_f1600:
    .cfi_startproc
    # room above the frame
    .word 0xfc010113  # addi x2, x2, -64
    .cfi_def_cfa_offset 64
    # the caller's registers
    .word 0x00812023  # sw x8, 0(x2)
    .cfi_offset 8, -64
    .word 0x00912223  # sw x9, 4(x2)
    .cfi_offset 9, -60
    .word 0x01212423  # sw x18, 8(x2)
    .cfi_offset 18, -56
    .word 0x01312623  # sw x19, 12(x2)
    .cfi_offset 19, -52
    .word 0x01412823  # sw x20, 16(x2)
    .cfi_offset 20, -48
    .word 0x01512a23  # sw x21, 20(x2)
    .cfi_offset 21, -44
    .word 0x01612c23  # sw x22, 24(x2)
    .cfi_offset 22, -40
    .word 0x01712e23  # sw x23, 28(x2)
    .cfi_offset 23, -36
    .word 0x03812023  # sw x24, 32(x2)
    .cfi_offset 24, -32
    .word 0x03912223  # sw x25, 36(x2)
    .cfi_offset 25, -28
    .word 0x03a12423  # sw x26, 40(x2)
    .cfi_offset 26, -24
    .word 0x03b12623  # sw x27, 44(x2)
    .cfi_offset 27, -20
    # arguments that are needed behind the body
    .word 0x02a12e23  # sw x10, 60(x2)
    # the frame's base
    .word 0xdb010113  # addi x2, x2, -592
    .cfi_def_cfa 2, 656
    # parameter 0: an array
    .word 0x00050293  # addi x5, x10, 0
    .word 0x00010313  # addi x6, x2, 0
    .word 0x0c828393  # addi x7, x5, 200
    .word 0x0002ae03  # lw x28, 0(x5)
    .word 0x01c32023  # sw x28, 0(x6)
    .word 0x00428293  # addi x5, x5, 4
    .word 0x00430313  # addi x6, x6, 4
    .word 0xfe7298e3  # bne x5, x7, -16
    # the body
    .word 0x3307e2b7  # lui x5, 0x3307e
    .word 0xd0028293  # addi x5, x5, -768
    .word 0x22512e23  # sw x5, 572(x2)
    .word 0x800002b7  # lui x5, 0x80000
    .word 0x00028293  # addi x5, x5, 0
    .word 0x24512023  # sw x5, 576(x2)
    .word 0x00100293  # addi x5, x0, 1
    .word 0x0c512423  # sw x5, 200(x2)
    .word 0x000082b7  # lui x5, 0x00008
    .word 0x08228293  # addi x5, x5, 130
    .word 0x0c512623  # sw x5, 204(x2)
    .word 0x000082b7  # lui x5, 0x00008
    .word 0x08a28293  # addi x5, x5, 138
    .word 0x0c512823  # sw x5, 208(x2)
    .word 0x800082b7  # lui x5, 0x80008
    .word 0x00028293  # addi x5, x5, 0
    .word 0x0c512a23  # sw x5, 212(x2)
    .word 0x000082b7  # lui x5, 0x00008
    .word 0x08b28293  # addi x5, x5, 139
    .word 0x0c512c23  # sw x5, 216(x2)
    .word 0x800002b7  # lui x5, 0x80000
    .word 0x00128293  # addi x5, x5, 1
    .word 0x0c512e23  # sw x5, 220(x2)
    .word 0x800082b7  # lui x5, 0x80008
    .word 0x08128293  # addi x5, x5, 129
    .word 0x0e512023  # sw x5, 224(x2)
    .word 0x000082b7  # lui x5, 0x00008
    .word 0x00928293  # addi x5, x5, 9
    .word 0x0e512223  # sw x5, 228(x2)
    .word 0x08a00293  # addi x5, x0, 138
    .word 0x0e512423  # sw x5, 232(x2)
    .word 0x08800293  # addi x5, x0, 136
    .word 0x0e512623  # sw x5, 236(x2)
    .word 0x800082b7  # lui x5, 0x80008
    .word 0x00928293  # addi x5, x5, 9
    .word 0x0e512823  # sw x5, 240(x2)
    .word 0x800002b7  # lui x5, 0x80000
    .word 0x00a28293  # addi x5, x5, 10
    .word 0x0e512a23  # sw x5, 244(x2)
    .word 0x800082b7  # lui x5, 0x80008
    .word 0x08b28293  # addi x5, x5, 139
    .word 0x0e512c23  # sw x5, 248(x2)
    .word 0x08b00293  # addi x5, x0, 139
    .word 0x0e512e23  # sw x5, 252(x2)
    .word 0x000082b7  # lui x5, 0x00008
    .word 0x08928293  # addi x5, x5, 137
    .word 0x10512023  # sw x5, 256(x2)
    .word 0x000082b7  # lui x5, 0x00008
    .word 0x00328293  # addi x5, x5, 3
    .word 0x10512223  # sw x5, 260(x2)
    .word 0x000082b7  # lui x5, 0x00008
    .word 0x00228293  # addi x5, x5, 2
    .word 0x10512423  # sw x5, 264(x2)
    .word 0x08000293  # addi x5, x0, 128
    .word 0x10512623  # sw x5, 268(x2)
    .word 0x000082b7  # lui x5, 0x00008
    .word 0x00a28293  # addi x5, x5, 10
    .word 0x10512823  # sw x5, 272(x2)
    .word 0x800002b7  # lui x5, 0x80000
    .word 0x00a28293  # addi x5, x5, 10
    .word 0x10512a23  # sw x5, 276(x2)
    .word 0x800082b7  # lui x5, 0x80008
    .word 0x08128293  # addi x5, x5, 129
    .word 0x10512c23  # sw x5, 280(x2)
    .word 0x000082b7  # lui x5, 0x00008
    .word 0x08028293  # addi x5, x5, 128
    .word 0x10512e23  # sw x5, 284(x2)
    .word 0x800002b7  # lui x5, 0x80000
    .word 0x00128293  # addi x5, x5, 1
    .word 0x12512023  # sw x5, 288(x2)
    .word 0x800082b7  # lui x5, 0x80008
    .word 0x00828293  # addi x5, x5, 8
    .word 0x12512223  # sw x5, 292(x2)
    .word 0x00012283  # lw x5, 0(x2)
    .word 0x12512423  # sw x5, 296(x2)
    .word 0x00412283  # lw x5, 4(x2)
    .word 0x12512623  # sw x5, 300(x2)
    .word 0x00812283  # lw x5, 8(x2)
    .word 0xfff2c513  # xori x10, x5, -1
    .word 0x00c12283  # lw x5, 12(x2)
    .word 0xfff2c293  # xori x5, x5, -1
    .word 0x12512823  # sw x5, 304(x2)
    .word 0x01012283  # lw x5, 16(x2)
    .word 0xfff2c293  # xori x5, x5, -1
    .word 0x12512a23  # sw x5, 308(x2)
    .word 0x01412283  # lw x5, 20(x2)
    .word 0xfff2c293  # xori x5, x5, -1
    .word 0x12512c23  # sw x5, 312(x2)
    .word 0x01812583  # lw x11, 24(x2)
    .word 0x01c12283  # lw x5, 28(x2)
    .word 0x12512e23  # sw x5, 316(x2)
    .word 0x02012283  # lw x5, 32(x2)
    .word 0x14512023  # sw x5, 320(x2)
    .word 0x02412283  # lw x5, 36(x2)
    .word 0x14512223  # sw x5, 324(x2)
    .word 0x02812283  # lw x5, 40(x2)
    .word 0x14512423  # sw x5, 328(x2)
    .word 0x02c12283  # lw x5, 44(x2)
    .word 0x14512623  # sw x5, 332(x2)
    .word 0x03012283  # lw x5, 48(x2)
    .word 0x14512823  # sw x5, 336(x2)
    .word 0x03412283  # lw x5, 52(x2)
    .word 0x14512a23  # sw x5, 340(x2)
    .word 0x03812283  # lw x5, 56(x2)
    .word 0x14512c23  # sw x5, 344(x2)
    .word 0x03c12283  # lw x5, 60(x2)
    .word 0x14512e23  # sw x5, 348(x2)
    .word 0x04012283  # lw x5, 64(x2)
    .word 0xfff2c293  # xori x5, x5, -1
    .word 0x16512023  # sw x5, 352(x2)
    .word 0x04412283  # lw x5, 68(x2)
    .word 0xfff2c293  # xori x5, x5, -1
    .word 0x16512223  # sw x5, 356(x2)
    .word 0x04812283  # lw x5, 72(x2)
    .word 0x16512423  # sw x5, 360(x2)
    .word 0x04c12283  # lw x5, 76(x2)
    .word 0x16512623  # sw x5, 364(x2)
    .word 0x05012283  # lw x5, 80(x2)
    .word 0x16512823  # sw x5, 368(x2)
    .word 0x05412283  # lw x5, 84(x2)
    .word 0x16512a23  # sw x5, 372(x2)
    .word 0x05812283  # lw x5, 88(x2)
    .word 0x16512c23  # sw x5, 376(x2)
    .word 0x05c12283  # lw x5, 92(x2)
    .word 0x16512e23  # sw x5, 380(x2)
    .word 0x06012283  # lw x5, 96(x2)
    .word 0xfff2c413  # xori x8, x5, -1
    .word 0x06412283  # lw x5, 100(x2)
    .word 0xfff2c493  # xori x9, x5, -1
    .word 0x06812283  # lw x5, 104(x2)
    .word 0x18512023  # sw x5, 384(x2)
    .word 0x06c12283  # lw x5, 108(x2)
    .word 0x18512223  # sw x5, 388(x2)
    .word 0x07012283  # lw x5, 112(x2)
    .word 0x18512423  # sw x5, 392(x2)
    .word 0x07412283  # lw x5, 116(x2)
    .word 0x18512623  # sw x5, 396(x2)
    .word 0x07812283  # lw x5, 120(x2)
    .word 0x18512823  # sw x5, 400(x2)
    .word 0x07c12283  # lw x5, 124(x2)
    .word 0x18512a23  # sw x5, 404(x2)
    .word 0x08012283  # lw x5, 128(x2)
    .word 0x18512c23  # sw x5, 408(x2)
    .word 0x08412283  # lw x5, 132(x2)
    .word 0x18512e23  # sw x5, 412(x2)
    .word 0x08812283  # lw x5, 136(x2)
    .word 0xfff2c293  # xori x5, x5, -1
    .word 0x1a512023  # sw x5, 416(x2)
    .word 0x08c12283  # lw x5, 140(x2)
    .word 0xfff2c293  # xori x5, x5, -1
    .word 0x1a512223  # sw x5, 420(x2)
    .word 0x09012283  # lw x5, 144(x2)
    .word 0x1a512423  # sw x5, 424(x2)
    .word 0x09412283  # lw x5, 148(x2)
    .word 0x1a512623  # sw x5, 428(x2)
    .word 0x09812283  # lw x5, 152(x2)
    .word 0x1a512823  # sw x5, 432(x2)
    .word 0x09c12283  # lw x5, 156(x2)
    .word 0x1a512a23  # sw x5, 436(x2)
    .word 0x0a012283  # lw x5, 160(x2)
    .word 0xfff2c293  # xori x5, x5, -1
    .word 0x1a512c23  # sw x5, 440(x2)
    .word 0x0a412283  # lw x5, 164(x2)
    .word 0xfff2c293  # xori x5, x5, -1
    .word 0x1a512e23  # sw x5, 444(x2)
    .word 0x0a812283  # lw x5, 168(x2)
    .word 0x1c512023  # sw x5, 448(x2)
    .word 0x0ac12283  # lw x5, 172(x2)
    .word 0x1c512223  # sw x5, 452(x2)
    .word 0x0b012283  # lw x5, 176(x2)
    .word 0x1c512423  # sw x5, 456(x2)
    .word 0x0b412283  # lw x5, 180(x2)
    .word 0x1c512623  # sw x5, 460(x2)
    .word 0x0b812283  # lw x5, 184(x2)
    .word 0x1c512823  # sw x5, 464(x2)
    .word 0x0bc12283  # lw x5, 188(x2)
    .word 0x1c512a23  # sw x5, 468(x2)
    .word 0x0c012283  # lw x5, 192(x2)
    .word 0x1c512c23  # sw x5, 472(x2)
    .word 0x0c412283  # lw x5, 196(x2)
    .word 0x1c512e23  # sw x5, 476(x2)
    .word 0x24012423  # sw x0, 584(x2)
    .word 0x01800293  # addi x5, x0, 24
    .word 0x24512623  # sw x5, 588(x2)
    .word 0x24812303  # lw x6, 584(x2)
    .word 0x24c12283  # lw x5, 588(x2)
    .word 0x005332b3  # sltu x5, x6, x5
    .word 0x00029463  # bne x5, x0, 8
    .word 0x1890006f  # jal x0, 2440
    .word 0x1e612023  # sw x6, 480(x2)
    .word 0x00130313  # addi x6, x6, 1
    .word 0x24612423  # sw x6, 584(x2)
    .word 0x12812283  # lw x5, 296(x2)
    .word 0x14812303  # lw x6, 328(x2)
    .word 0x0062c2b3  # xor x5, x5, x6
    .word 0x17012303  # lw x6, 368(x2)
    .word 0x0062c2b3  # xor x5, x5, x6
    .word 0x19012303  # lw x6, 400(x2)
    .word 0x0062c2b3  # xor x5, x5, x6
    .word 0x1b812303  # lw x6, 440(x2)
    .word 0x0062cbb3  # xor x23, x5, x6
    .word 0x12c12283  # lw x5, 300(x2)
    .word 0x14c12303  # lw x6, 332(x2)
    .word 0x0062c2b3  # xor x5, x5, x6
    .word 0x17412303  # lw x6, 372(x2)
    .word 0x0062c2b3  # xor x5, x5, x6
    .word 0x19412303  # lw x6, 404(x2)
    .word 0x0062c2b3  # xor x5, x5, x6
    .word 0x1bc12303  # lw x6, 444(x2)
    .word 0x0062c633  # xor x12, x5, x6
    .word 0x15012303  # lw x6, 336(x2)
    .word 0x006542b3  # xor x5, x10, x6
    .word 0x17812303  # lw x6, 376(x2)
    .word 0x0062c2b3  # xor x5, x5, x6
    .word 0x19812303  # lw x6, 408(x2)
    .word 0x0062c2b3  # xor x5, x5, x6
    .word 0x1c012303  # lw x6, 448(x2)
    .word 0x0062c933  # xor x18, x5, x6
    .word 0x13012283  # lw x5, 304(x2)
    .word 0x15412303  # lw x6, 340(x2)
    .word 0x0062c2b3  # xor x5, x5, x6
    .word 0x17c12303  # lw x6, 380(x2)
    .word 0x0062c2b3  # xor x5, x5, x6
    .word 0x19c12303  # lw x6, 412(x2)
    .word 0x0062c2b3  # xor x5, x5, x6
    .word 0x1c412303  # lw x6, 452(x2)
    .word 0x0062c9b3  # xor x19, x5, x6
    .word 0x13412283  # lw x5, 308(x2)
    .word 0x15812303  # lw x6, 344(x2)
    .word 0x0062c2b3  # xor x5, x5, x6
    .word 0x0082c2b3  # xor x5, x5, x8
    .word 0x1a012303  # lw x6, 416(x2)
    .word 0x0062c2b3  # xor x5, x5, x6
    .word 0x1c812303  # lw x6, 456(x2)
    .word 0x0062ca33  # xor x20, x5, x6
    .word 0x13812283  # lw x5, 312(x2)
    .word 0x15c12303  # lw x6, 348(x2)
    .word 0x0062c2b3  # xor x5, x5, x6
    .word 0x0092c2b3  # xor x5, x5, x9
    .word 0x1a412303  # lw x6, 420(x2)
    .word 0x0062c2b3  # xor x5, x5, x6
    .word 0x1cc12303  # lw x6, 460(x2)
    .word 0x0062cab3  # xor x21, x5, x6
    .word 0x16012303  # lw x6, 352(x2)
    .word 0x0065c2b3  # xor x5, x11, x6
    .word 0x18012303  # lw x6, 384(x2)
    .word 0x0062c2b3  # xor x5, x5, x6
    .word 0x1a812303  # lw x6, 424(x2)
    .word 0x0062c2b3  # xor x5, x5, x6
    .word 0x1d012303  # lw x6, 464(x2)
    .word 0x0062cb33  # xor x22, x5, x6
    .word 0x13c12283  # lw x5, 316(x2)
    .word 0x16412303  # lw x6, 356(x2)
    .word 0x0062c2b3  # xor x5, x5, x6
    .word 0x18412303  # lw x6, 388(x2)
    .word 0x0062c2b3  # xor x5, x5, x6
    .word 0x1ac12303  # lw x6, 428(x2)
    .word 0x0062c2b3  # xor x5, x5, x6
    .word 0x1d412303  # lw x6, 468(x2)
    .word 0x0062c6b3  # xor x13, x5, x6
    .word 0x14012283  # lw x5, 320(x2)
    .word 0x16812303  # lw x6, 360(x2)
    .word 0x0062c2b3  # xor x5, x5, x6
    .word 0x18812303  # lw x6, 392(x2)
    .word 0x0062c2b3  # xor x5, x5, x6
    .word 0x1b012303  # lw x6, 432(x2)
    .word 0x0062c2b3  # xor x5, x5, x6
    .word 0x1d812303  # lw x6, 472(x2)
    .word 0x0062c733  # xor x14, x5, x6
    .word 0x14412283  # lw x5, 324(x2)
    .word 0x16c12303  # lw x6, 364(x2)
    .word 0x0062c2b3  # xor x5, x5, x6
    .word 0x18c12303  # lw x6, 396(x2)
    .word 0x0062c2b3  # xor x5, x5, x6
    .word 0x1b412303  # lw x6, 436(x2)
    .word 0x0062c2b3  # xor x5, x5, x6
    .word 0x1dc12303  # lw x6, 476(x2)
    .word 0x0062c7b3  # xor x15, x5, x6
    .word 0x00191293  # slli x5, x18, 1
    .word 0x01f9d313  # srli x6, x19, 31
    .word 0x0062e2b3  # or x5, x5, x6
    .word 0x00e2c2b3  # xor x5, x5, x14
    .word 0x1e512223  # sw x5, 484(x2)
    .word 0x00199293  # slli x5, x19, 1
    .word 0x01f95313  # srli x6, x18, 31
    .word 0x0062e2b3  # or x5, x5, x6
    .word 0x00f2c833  # xor x16, x5, x15
    .word 0x001a1293  # slli x5, x20, 1
    .word 0x01fad313  # srli x6, x21, 31
    .word 0x0062e2b3  # or x5, x5, x6
    .word 0x0172c2b3  # xor x5, x5, x23
    .word 0x1e512423  # sw x5, 488(x2)
    .word 0x001a9293  # slli x5, x21, 1
    .word 0x01fa5313  # srli x6, x20, 31
    .word 0x0062e2b3  # or x5, x5, x6
    .word 0x00c2c8b3  # xor x17, x5, x12
    .word 0x001b1293  # slli x5, x22, 1
    .word 0x01f6d313  # srli x6, x13, 31
    .word 0x0062e2b3  # or x5, x5, x6
    .word 0x0122c933  # xor x18, x5, x18
    .word 0x00169293  # slli x5, x13, 1
    .word 0x01fb5313  # srli x6, x22, 31
    .word 0x0062e2b3  # or x5, x5, x6
    .word 0x0132c9b3  # xor x19, x5, x19
    .word 0x00171293  # slli x5, x14, 1
    .word 0x01f7d313  # srli x6, x15, 31
    .word 0x0062e2b3  # or x5, x5, x6
    .word 0x0142ca33  # xor x20, x5, x20
    .word 0x00179293  # slli x5, x15, 1
    .word 0x01f75313  # srli x6, x14, 31
    .word 0x0062e2b3  # or x5, x5, x6
    .word 0x0152cab3  # xor x21, x5, x21
    .word 0x001b9293  # slli x5, x23, 1
    .word 0x01f65313  # srli x6, x12, 31
    .word 0x0062e2b3  # or x5, x5, x6
    .word 0x0162cb33  # xor x22, x5, x22
    .word 0x00161293  # slli x5, x12, 1
    .word 0x01fbd313  # srli x6, x23, 31
    .word 0x0062e2b3  # or x5, x5, x6
    .word 0x00d2cbb3  # xor x23, x5, x13
    .word 0x12812283  # lw x5, 296(x2)
    .word 0x1e412303  # lw x6, 484(x2)
    .word 0x0062c633  # xor x12, x5, x6
    .word 0x12c12283  # lw x5, 300(x2)
    .word 0x0102c6b3  # xor x13, x5, x16
    .word 0x15012283  # lw x5, 336(x2)
    .word 0x1e812303  # lw x6, 488(x2)
    .word 0x0062c7b3  # xor x15, x5, x6
    .word 0x15412283  # lw x5, 340(x2)
    .word 0x0112cc33  # xor x24, x5, x17
    .word 0x00cc1293  # slli x5, x24, 12
    .word 0x0147d313  # srli x6, x15, 20
    .word 0x0062e733  # or x14, x5, x6
    .word 0x00c79293  # slli x5, x15, 12
    .word 0x014c5313  # srli x6, x24, 20
    .word 0x0062e7b3  # or x15, x5, x6
    .word 0x01244cb3  # xor x25, x8, x18
    .word 0x0134cd33  # xor x26, x9, x19
    .word 0x00bd1293  # slli x5, x26, 11
    .word 0x015cd313  # srli x6, x25, 21
    .word 0x0062ec33  # or x24, x5, x6
    .word 0x00bc9293  # slli x5, x25, 11
    .word 0x015d5313  # srli x6, x26, 21
    .word 0x0062ecb3  # or x25, x5, x6
    .word 0x1a812283  # lw x5, 424(x2)
    .word 0x0142cdb3  # xor x27, x5, x20
    .word 0x1ac12283  # lw x5, 428(x2)
    .word 0x0152c433  # xor x8, x5, x21
    .word 0x015d9293  # slli x5, x27, 21
    .word 0x00b45313  # srli x6, x8, 11
    .word 0x0062ed33  # or x26, x5, x6
    .word 0x01541293  # slli x5, x8, 21
    .word 0x00bdd313  # srli x6, x27, 11
    .word 0x0062edb3  # or x27, x5, x6
    .word 0x1d812283  # lw x5, 472(x2)
    .word 0x0162c4b3  # xor x9, x5, x22
    .word 0x1dc12283  # lw x5, 476(x2)
    .word 0x0172c2b3  # xor x5, x5, x23
    .word 0x12512423  # sw x5, 296(x2)
    .word 0x00e49293  # slli x5, x9, 14
    .word 0x12812303  # lw x6, 296(x2)
    .word 0x01235313  # srli x6, x6, 18
    .word 0x0062e433  # or x8, x5, x6
    .word 0x12812283  # lw x5, 296(x2)
    .word 0x00e29293  # slli x5, x5, 14
    .word 0x0124d313  # srli x6, x9, 18
    .word 0x0062e4b3  # or x9, x5, x6
    .word 0x018762b3  # or x5, x14, x24
    .word 0x00c2c2b3  # xor x5, x5, x12
    .word 0x1e012303  # lw x6, 480(x2)
    .word 0x00231313  # slli x6, x6, 2
    .word 0x00230333  # add x6, x6, x2
    .word 0x0c832303  # lw x6, 200(x6)
    .word 0x0062c2b3  # xor x5, x5, x6
    .word 0x12512423  # sw x5, 296(x2)
    .word 0x0197e2b3  # or x5, x15, x25
    .word 0x00d2c2b3  # xor x5, x5, x13
    .word 0x23c12303  # lw x6, 572(x2)
    .word 0x1e012383  # lw x7, 480(x2)
    .word 0x00731333  # sll x6, x6, x7
    .word 0x24012383  # lw x7, 576(x2)
    .word 0x00737333  # and x6, x6, x7
    .word 0x0062c2b3  # xor x5, x5, x6
    .word 0x12512623  # sw x5, 300(x2)
    .word 0xfffc4293  # xori x5, x24, -1
    .word 0x01a2e2b3  # or x5, x5, x26
    .word 0x00e2c2b3  # xor x5, x5, x14
    .word 0x1e512623  # sw x5, 492(x2)
    .word 0xfffcc293  # xori x5, x25, -1
    .word 0x01b2e2b3  # or x5, x5, x27
    .word 0x00f2c2b3  # xor x5, x5, x15
    .word 0x1e512823  # sw x5, 496(x2)
    .word 0x008d72b3  # and x5, x26, x8
    .word 0x0182c2b3  # xor x5, x5, x24
    .word 0x1e512a23  # sw x5, 500(x2)
    .word 0x009df2b3  # and x5, x27, x9
    .word 0x0192c2b3  # xor x5, x5, x25
    .word 0x1e512c23  # sw x5, 504(x2)
    .word 0x00c462b3  # or x5, x8, x12
    .word 0x01a2c2b3  # xor x5, x5, x26
    .word 0x1e512e23  # sw x5, 508(x2)
    .word 0x00d4e2b3  # or x5, x9, x13
    .word 0x01b2c2b3  # xor x5, x5, x27
    .word 0x20512023  # sw x5, 512(x2)
    .word 0x00e672b3  # and x5, x12, x14
    .word 0x0082c2b3  # xor x5, x5, x8
    .word 0x20512223  # sw x5, 516(x2)
    .word 0x00f6f2b3  # and x5, x13, x15
    .word 0x0092c2b3  # xor x5, x5, x9
    .word 0x20512423  # sw x5, 520(x2)
    .word 0x0145c6b3  # xor x13, x11, x20
    .word 0x13c12283  # lw x5, 316(x2)
    .word 0x0152c733  # xor x14, x5, x21
    .word 0x01c69293  # slli x5, x13, 28
    .word 0x00475313  # srli x6, x14, 4
    .word 0x0062e633  # or x12, x5, x6
    .word 0x01c71293  # slli x5, x14, 28
    .word 0x0046d313  # srli x6, x13, 4
    .word 0x0062e6b3  # or x13, x5, x6
    .word 0x16812283  # lw x5, 360(x2)
    .word 0x0162c7b3  # xor x15, x5, x22
    .word 0x16c12283  # lw x5, 364(x2)
    .word 0x0172cc33  # xor x24, x5, x23
    .word 0x01479293  # slli x5, x15, 20
    .word 0x00cc5313  # srli x6, x24, 12
    .word 0x0062e733  # or x14, x5, x6
    .word 0x014c1293  # slli x5, x24, 20
    .word 0x00c7d313  # srli x6, x15, 12
    .word 0x0062e7b3  # or x15, x5, x6
    .word 0x17012283  # lw x5, 368(x2)
    .word 0x1e412303  # lw x6, 484(x2)
    .word 0x0062ccb3  # xor x25, x5, x6
    .word 0x17412283  # lw x5, 372(x2)
    .word 0x0102cd33  # xor x26, x5, x16
    .word 0x003c9293  # slli x5, x25, 3
    .word 0x01dd5313  # srli x6, x26, 29
    .word 0x0062ec33  # or x24, x5, x6
    .word 0x003d1293  # slli x5, x26, 3
    .word 0x01dcd313  # srli x6, x25, 29
    .word 0x0062ecb3  # or x25, x5, x6
    .word 0x19812283  # lw x5, 408(x2)
    .word 0x1e812303  # lw x6, 488(x2)
    .word 0x0062cdb3  # xor x27, x5, x6
    .word 0x19c12283  # lw x5, 412(x2)
    .word 0x0112c433  # xor x8, x5, x17
    .word 0x00d41293  # slli x5, x8, 13
    .word 0x013dd313  # srli x6, x27, 19
    .word 0x0062ed33  # or x26, x5, x6
    .word 0x00dd9293  # slli x5, x27, 13
    .word 0x01345313  # srli x6, x8, 19
    .word 0x0062edb3  # or x27, x5, x6
    .word 0x1c812283  # lw x5, 456(x2)
    .word 0x0122c4b3  # xor x9, x5, x18
    .word 0x1cc12283  # lw x5, 460(x2)
    .word 0x0132c5b3  # xor x11, x5, x19
    .word 0x01d59293  # slli x5, x11, 29
    .word 0x0034d313  # srli x6, x9, 3
    .word 0x0062e433  # or x8, x5, x6
    .word 0x01d49293  # slli x5, x9, 29
    .word 0x0035d313  # srli x6, x11, 3
    .word 0x0062e4b3  # or x9, x5, x6
    .word 0x018762b3  # or x5, x14, x24
    .word 0x00c2c2b3  # xor x5, x5, x12
    .word 0x20512623  # sw x5, 524(x2)
    .word 0x0197e2b3  # or x5, x15, x25
    .word 0x00d2c2b3  # xor x5, x5, x13
    .word 0x20512823  # sw x5, 528(x2)
    .word 0x01ac72b3  # and x5, x24, x26
    .word 0x00e2c2b3  # xor x5, x5, x14
    .word 0x14512823  # sw x5, 336(x2)
    .word 0x01bcf2b3  # and x5, x25, x27
    .word 0x00f2c2b3  # xor x5, x5, x15
    .word 0x14512a23  # sw x5, 340(x2)
    .word 0xfff44293  # xori x5, x8, -1
    .word 0x01a2e2b3  # or x5, x5, x26
    .word 0x0182c2b3  # xor x5, x5, x24
    .word 0x20512a23  # sw x5, 532(x2)
    .word 0xfff4c293  # xori x5, x9, -1
    .word 0x01b2e2b3  # or x5, x5, x27
    .word 0x0192c2b3  # xor x5, x5, x25
    .word 0x20512c23  # sw x5, 536(x2)
    .word 0x00c462b3  # or x5, x8, x12
    .word 0x01a2c2b3  # xor x5, x5, x26
    .word 0x20512e23  # sw x5, 540(x2)
    .word 0x00d4e2b3  # or x5, x9, x13
    .word 0x01b2c2b3  # xor x5, x5, x27
    .word 0x22512023  # sw x5, 544(x2)
    .word 0x00e672b3  # and x5, x12, x14
    .word 0x0082c2b3  # xor x5, x5, x8
    .word 0x16512423  # sw x5, 360(x2)
    .word 0x00f6f2b3  # and x5, x13, x15
    .word 0x0092c2b3  # xor x5, x5, x9
    .word 0x16512623  # sw x5, 364(x2)
    .word 0x1e812303  # lw x6, 488(x2)
    .word 0x006546b3  # xor x13, x10, x6
    .word 0x13012283  # lw x5, 304(x2)
    .word 0x0112c733  # xor x14, x5, x17
    .word 0x00169293  # slli x5, x13, 1
    .word 0x01f75313  # srli x6, x14, 31
    .word 0x0062e633  # or x12, x5, x6
    .word 0x00171293  # slli x5, x14, 1
    .word 0x01f6d313  # srli x6, x13, 31
    .word 0x0062e6b3  # or x13, x5, x6
    .word 0x15812283  # lw x5, 344(x2)
    .word 0x0122c7b3  # xor x15, x5, x18
    .word 0x15c12283  # lw x5, 348(x2)
    .word 0x0132cc33  # xor x24, x5, x19
    .word 0x00679293  # slli x5, x15, 6
    .word 0x01ac5313  # srli x6, x24, 26
    .word 0x0062e733  # or x14, x5, x6
    .word 0x006c1293  # slli x5, x24, 6
    .word 0x01a7d313  # srli x6, x15, 26
    .word 0x0062e7b3  # or x15, x5, x6
    .word 0x18012283  # lw x5, 384(x2)
    .word 0x0142ccb3  # xor x25, x5, x20
    .word 0x18412283  # lw x5, 388(x2)
    .word 0x0152cd33  # xor x26, x5, x21
    .word 0x019c9293  # slli x5, x25, 25
    .word 0x007d5313  # srli x6, x26, 7
    .word 0x0062ec33  # or x24, x5, x6
    .word 0x019d1293  # slli x5, x26, 25
    .word 0x007cd313  # srli x6, x25, 7
    .word 0x0062ecb3  # or x25, x5, x6
    .word 0x1b012283  # lw x5, 432(x2)
    .word 0x0162cd33  # xor x26, x5, x22
    .word 0x1b412283  # lw x5, 436(x2)
    .word 0x0172cdb3  # xor x27, x5, x23
    .word 0x008d1293  # slli x5, x26, 8
    .word 0x018dd313  # srli x6, x27, 24
    .word 0x0062e433  # or x8, x5, x6
    .word 0x008d9293  # slli x5, x27, 8
    .word 0x018d5313  # srli x6, x26, 24
    .word 0x0062e4b3  # or x9, x5, x6
    .word 0x1b812283  # lw x5, 440(x2)
    .word 0x1e412303  # lw x6, 484(x2)
    .word 0x0062cdb3  # xor x27, x5, x6
    .word 0x1bc12283  # lw x5, 444(x2)
    .word 0x0102c533  # xor x10, x5, x16
    .word 0x012d9293  # slli x5, x27, 18
    .word 0x00e55313  # srli x6, x10, 14
    .word 0x0062ed33  # or x26, x5, x6
    .word 0x01251293  # slli x5, x10, 18
    .word 0x00edd313  # srli x6, x27, 14
    .word 0x0062edb3  # or x27, x5, x6
    .word 0xfff44513  # xori x10, x8, -1
    .word 0xfff4c293  # xori x5, x9, -1
    .word 0x12512823  # sw x5, 304(x2)
    .word 0x018762b3  # or x5, x14, x24
    .word 0x00c2c2b3  # xor x5, x5, x12
    .word 0x16512823  # sw x5, 368(x2)
    .word 0x0197e2b3  # or x5, x15, x25
    .word 0x00d2c2b3  # xor x5, x5, x13
    .word 0x16512a23  # sw x5, 372(x2)
    .word 0x008c72b3  # and x5, x24, x8
    .word 0x00e2c2b3  # xor x5, x5, x14
    .word 0x22512223  # sw x5, 548(x2)
    .word 0x009cf2b3  # and x5, x25, x9
    .word 0x00f2c2b3  # xor x5, x5, x15
    .word 0x22512423  # sw x5, 552(x2)
    .word 0x01a572b3  # and x5, x10, x26
    .word 0x0182c433  # xor x8, x5, x24
    .word 0x13012283  # lw x5, 304(x2)
    .word 0x01b2f2b3  # and x5, x5, x27
    .word 0x0192c4b3  # xor x9, x5, x25
    .word 0x00cd62b3  # or x5, x26, x12
    .word 0x00a2c2b3  # xor x5, x5, x10
    .word 0x18512023  # sw x5, 384(x2)
    .word 0x00dde2b3  # or x5, x27, x13
    .word 0x13012303  # lw x6, 304(x2)
    .word 0x0062c2b3  # xor x5, x5, x6
    .word 0x18512223  # sw x5, 388(x2)
    .word 0x00e672b3  # and x5, x12, x14
    .word 0x01a2c2b3  # xor x5, x5, x26
    .word 0x22512623  # sw x5, 556(x2)
    .word 0x00f6f2b3  # and x5, x13, x15
    .word 0x01b2c2b3  # xor x5, x5, x27
    .word 0x22512823  # sw x5, 560(x2)
    .word 0x14012283  # lw x5, 320(x2)
    .word 0x0162c6b3  # xor x13, x5, x22
    .word 0x14412283  # lw x5, 324(x2)
    .word 0x0172c733  # xor x14, x5, x23
    .word 0x01b69293  # slli x5, x13, 27
    .word 0x00575313  # srli x6, x14, 5
    .word 0x0062e633  # or x12, x5, x6
    .word 0x01b71293  # slli x5, x14, 27
    .word 0x0056d313  # srli x6, x13, 5
    .word 0x0062e6b3  # or x13, x5, x6
    .word 0x14812283  # lw x5, 328(x2)
    .word 0x1e412303  # lw x6, 484(x2)
    .word 0x0062c7b3  # xor x15, x5, x6
    .word 0x14c12283  # lw x5, 332(x2)
    .word 0x0102cc33  # xor x24, x5, x16
    .word 0x004c1293  # slli x5, x24, 4
    .word 0x01c7d313  # srli x6, x15, 28
    .word 0x0062e733  # or x14, x5, x6
    .word 0x00479293  # slli x5, x15, 4
    .word 0x01cc5313  # srli x6, x24, 28
    .word 0x0062e7b3  # or x15, x5, x6
    .word 0x17812283  # lw x5, 376(x2)
    .word 0x1e812303  # lw x6, 488(x2)
    .word 0x0062ccb3  # xor x25, x5, x6
    .word 0x17c12283  # lw x5, 380(x2)
    .word 0x0112cd33  # xor x26, x5, x17
    .word 0x00ac9293  # slli x5, x25, 10
    .word 0x016d5313  # srli x6, x26, 22
    .word 0x0062ec33  # or x24, x5, x6
    .word 0x00ad1293  # slli x5, x26, 10
    .word 0x016cd313  # srli x6, x25, 22
    .word 0x0062ecb3  # or x25, x5, x6
    .word 0x1a012283  # lw x5, 416(x2)
    .word 0x0122cd33  # xor x26, x5, x18
    .word 0x1a412283  # lw x5, 420(x2)
    .word 0x0132cdb3  # xor x27, x5, x19
    .word 0x00fd1293  # slli x5, x26, 15
    .word 0x011dd313  # srli x6, x27, 17
    .word 0x0062e533  # or x10, x5, x6
    .word 0x00fd9293  # slli x5, x27, 15
    .word 0x011d5313  # srli x6, x26, 17
    .word 0x0062e2b3  # or x5, x5, x6
    .word 0x12512823  # sw x5, 304(x2)
    .word 0x1d012283  # lw x5, 464(x2)
    .word 0x0142cdb3  # xor x27, x5, x20
    .word 0x1d412283  # lw x5, 468(x2)
    .word 0x0152c5b3  # xor x11, x5, x21
    .word 0x01859293  # slli x5, x11, 24
    .word 0x008dd313  # srli x6, x27, 8
    .word 0x0062ed33  # or x26, x5, x6
    .word 0x018d9293  # slli x5, x27, 24
    .word 0x0085d313  # srli x6, x11, 8
    .word 0x0062edb3  # or x27, x5, x6
    .word 0xfff54593  # xori x11, x10, -1
    .word 0x13012283  # lw x5, 304(x2)
    .word 0xfff2c293  # xori x5, x5, -1
    .word 0x12512e23  # sw x5, 316(x2)
    .word 0x018772b3  # and x5, x14, x24
    .word 0x00c2c2b3  # xor x5, x5, x12
    .word 0x22512a23  # sw x5, 564(x2)
    .word 0x0197f2b3  # and x5, x15, x25
    .word 0x00d2c2b3  # xor x5, x5, x13
    .word 0x22512c23  # sw x5, 568(x2)
    .word 0x00ac62b3  # or x5, x24, x10
    .word 0x00e2c2b3  # xor x5, x5, x14
    .word 0x18512c23  # sw x5, 408(x2)
    .word 0x13012303  # lw x6, 304(x2)
    .word 0x006ce2b3  # or x5, x25, x6
    .word 0x00f2c2b3  # xor x5, x5, x15
    .word 0x18512e23  # sw x5, 412(x2)
    .word 0x01a5e2b3  # or x5, x11, x26
    .word 0x0182c2b3  # xor x5, x5, x24
    .word 0x1a512023  # sw x5, 416(x2)
    .word 0x13c12283  # lw x5, 316(x2)
    .word 0x01b2e2b3  # or x5, x5, x27
    .word 0x0192c2b3  # xor x5, x5, x25
    .word 0x1a512223  # sw x5, 420(x2)
    .word 0x00cd72b3  # and x5, x26, x12
    .word 0x00b2c2b3  # xor x5, x5, x11
    .word 0x1a512423  # sw x5, 424(x2)
    .word 0x00ddf2b3  # and x5, x27, x13
    .word 0x13c12303  # lw x6, 316(x2)
    .word 0x0062c2b3  # xor x5, x5, x6
    .word 0x1a512623  # sw x5, 428(x2)
    .word 0x00e662b3  # or x5, x12, x14
    .word 0x01a2c2b3  # xor x5, x5, x26
    .word 0x1a512823  # sw x5, 432(x2)
    .word 0x00f6e2b3  # or x5, x13, x15
    .word 0x01b2c2b3  # xor x5, x5, x27
    .word 0x1a512a23  # sw x5, 436(x2)
    .word 0x13412283  # lw x5, 308(x2)
    .word 0x0122c633  # xor x12, x5, x18
    .word 0x13812283  # lw x5, 312(x2)
    .word 0x0132c9b3  # xor x19, x5, x19
    .word 0x01e99293  # slli x5, x19, 30
    .word 0x00265313  # srli x6, x12, 2
    .word 0x0062e933  # or x18, x5, x6
    .word 0x01e61293  # slli x5, x12, 30
    .word 0x0029d313  # srli x6, x19, 2
    .word 0x0062e9b3  # or x19, x5, x6
    .word 0x16012283  # lw x5, 352(x2)
    .word 0x0142ca33  # xor x20, x5, x20
    .word 0x16412283  # lw x5, 356(x2)
    .word 0x0152cab3  # xor x21, x5, x21
    .word 0x017a9293  # slli x5, x21, 23
    .word 0x009a5313  # srli x6, x20, 9
    .word 0x0062e633  # or x12, x5, x6
    .word 0x017a1293  # slli x5, x20, 23
    .word 0x009ad313  # srli x6, x21, 9
    .word 0x0062e6b3  # or x13, x5, x6
    .word 0x18812283  # lw x5, 392(x2)
    .word 0x0162cab3  # xor x21, x5, x22
    .word 0x18c12283  # lw x5, 396(x2)
    .word 0x0172cb33  # xor x22, x5, x23
    .word 0x007b1293  # slli x5, x22, 7
    .word 0x019ad313  # srli x6, x21, 25
    .word 0x0062ea33  # or x20, x5, x6
    .word 0x007a9293  # slli x5, x21, 7
    .word 0x019b5313  # srli x6, x22, 25
    .word 0x0062eab3  # or x21, x5, x6
    .word 0x19012283  # lw x5, 400(x2)
    .word 0x1e412303  # lw x6, 484(x2)
    .word 0x0062cb33  # xor x22, x5, x6
    .word 0x19412283  # lw x5, 404(x2)
    .word 0x0102c833  # xor x16, x5, x16
    .word 0x00981293  # slli x5, x16, 9
    .word 0x017b5313  # srli x6, x22, 23
    .word 0x0062e2b3  # or x5, x5, x6
    .word 0x1e512223  # sw x5, 484(x2)
    .word 0x009b1293  # slli x5, x22, 9
    .word 0x01785313  # srli x6, x16, 23
    .word 0x0062e833  # or x16, x5, x6
    .word 0x1c012283  # lw x5, 448(x2)
    .word 0x1e812303  # lw x6, 488(x2)
    .word 0x0062cb33  # xor x22, x5, x6
    .word 0x1c412283  # lw x5, 452(x2)
    .word 0x0112c8b3  # xor x17, x5, x17
    .word 0x002b1293  # slli x5, x22, 2
    .word 0x01e8d313  # srli x6, x17, 30
    .word 0x0062e2b3  # or x5, x5, x6
    .word 0x1e512423  # sw x5, 488(x2)
    .word 0x00289293  # slli x5, x17, 2
    .word 0x01eb5313  # srli x6, x22, 30
    .word 0x0062e8b3  # or x17, x5, x6
    .word 0xfff64b13  # xori x22, x12, -1
    .word 0xfff6cb93  # xori x23, x13, -1
    .word 0x014b72b3  # and x5, x22, x20
    .word 0x0122c2b3  # xor x5, x5, x18
    .word 0x1a512c23  # sw x5, 440(x2)
    .word 0x015bf2b3  # and x5, x23, x21
    .word 0x0132c2b3  # xor x5, x5, x19
    .word 0x1a512e23  # sw x5, 444(x2)
    .word 0x1e412303  # lw x6, 484(x2)
    .word 0x006a62b3  # or x5, x20, x6
    .word 0x0162c2b3  # xor x5, x5, x22
    .word 0x1c512023  # sw x5, 448(x2)
    .word 0x010ae2b3  # or x5, x21, x16
    .word 0x0172c2b3  # xor x5, x5, x23
    .word 0x1c512223  # sw x5, 452(x2)
    .word 0x1e412283  # lw x5, 484(x2)
    .word 0x1e812303  # lw x6, 488(x2)
    .word 0x0062f2b3  # and x5, x5, x6
    .word 0x0142c2b3  # xor x5, x5, x20
    .word 0x1c512423  # sw x5, 456(x2)
    .word 0x011872b3  # and x5, x16, x17
    .word 0x0152c2b3  # xor x5, x5, x21
    .word 0x1c512623  # sw x5, 460(x2)
    .word 0x1e812283  # lw x5, 488(x2)
    .word 0x0122e2b3  # or x5, x5, x18
    .word 0x1e412303  # lw x6, 484(x2)
    .word 0x0062c2b3  # xor x5, x5, x6
    .word 0x1c512823  # sw x5, 464(x2)
    .word 0x0138e2b3  # or x5, x17, x19
    .word 0x0102c2b3  # xor x5, x5, x16
    .word 0x1c512a23  # sw x5, 468(x2)
    .word 0x00c972b3  # and x5, x18, x12
    .word 0x1e812303  # lw x6, 488(x2)
    .word 0x0062c2b3  # xor x5, x5, x6
    .word 0x1c512c23  # sw x5, 472(x2)
    .word 0x00d9f2b3  # and x5, x19, x13
    .word 0x0112c2b3  # xor x5, x5, x17
    .word 0x1c512e23  # sw x5, 476(x2)
    .word 0x1ec12503  # lw x10, 492(x2)
    .word 0x1f012283  # lw x5, 496(x2)
    .word 0x12512823  # sw x5, 304(x2)
    .word 0x1f412283  # lw x5, 500(x2)
    .word 0x12512a23  # sw x5, 308(x2)
    .word 0x1f812283  # lw x5, 504(x2)
    .word 0x12512c23  # sw x5, 312(x2)
    .word 0x1fc12583  # lw x11, 508(x2)
    .word 0x20012283  # lw x5, 512(x2)
    .word 0x12512e23  # sw x5, 316(x2)
    .word 0x20412283  # lw x5, 516(x2)
    .word 0x14512023  # sw x5, 320(x2)
    .word 0x20812283  # lw x5, 520(x2)
    .word 0x14512223  # sw x5, 324(x2)
    .word 0x20c12283  # lw x5, 524(x2)
    .word 0x14512423  # sw x5, 328(x2)
    .word 0x21012283  # lw x5, 528(x2)
    .word 0x14512623  # sw x5, 332(x2)
    .word 0x21412283  # lw x5, 532(x2)
    .word 0x14512c23  # sw x5, 344(x2)
    .word 0x21812283  # lw x5, 536(x2)
    .word 0x14512e23  # sw x5, 348(x2)
    .word 0x21c12283  # lw x5, 540(x2)
    .word 0x16512023  # sw x5, 352(x2)
    .word 0x22012283  # lw x5, 544(x2)
    .word 0x16512223  # sw x5, 356(x2)
    .word 0x22412283  # lw x5, 548(x2)
    .word 0x16512c23  # sw x5, 376(x2)
    .word 0x22812283  # lw x5, 552(x2)
    .word 0x16512e23  # sw x5, 380(x2)
    .word 0x22c12283  # lw x5, 556(x2)
    .word 0x18512423  # sw x5, 392(x2)
    .word 0x23012283  # lw x5, 560(x2)
    .word 0x18512623  # sw x5, 396(x2)
    .word 0x23412283  # lw x5, 564(x2)
    .word 0x18512823  # sw x5, 400(x2)
    .word 0x23812283  # lw x5, 568(x2)
    .word 0x18512a23  # sw x5, 404(x2)
    .word 0xe6cff06f  # jal x0, -2452
    .word 0x12812283  # lw x5, 296(x2)
    .word 0x00512023  # sw x5, 0(x2)
    .word 0x12c12283  # lw x5, 300(x2)
    .word 0x00512223  # sw x5, 4(x2)
    .word 0xfff54293  # xori x5, x10, -1
    .word 0x00512423  # sw x5, 8(x2)
    .word 0x13012283  # lw x5, 304(x2)
    .word 0xfff2c293  # xori x5, x5, -1
    .word 0x00512623  # sw x5, 12(x2)
    .word 0x13412283  # lw x5, 308(x2)
    .word 0xfff2c293  # xori x5, x5, -1
    .word 0x00512823  # sw x5, 16(x2)
    .word 0x13812283  # lw x5, 312(x2)
    .word 0xfff2c293  # xori x5, x5, -1
    .word 0x00512a23  # sw x5, 20(x2)
    .word 0x00b12c23  # sw x11, 24(x2)
    .word 0x13c12283  # lw x5, 316(x2)
    .word 0x00512e23  # sw x5, 28(x2)
    .word 0x14012283  # lw x5, 320(x2)
    .word 0x02512023  # sw x5, 32(x2)
    .word 0x14412283  # lw x5, 324(x2)
    .word 0x02512223  # sw x5, 36(x2)
    .word 0x14812283  # lw x5, 328(x2)
    .word 0x02512423  # sw x5, 40(x2)
    .word 0x14c12283  # lw x5, 332(x2)
    .word 0x02512623  # sw x5, 44(x2)
    .word 0x15012283  # lw x5, 336(x2)
    .word 0x02512823  # sw x5, 48(x2)
    .word 0x15412283  # lw x5, 340(x2)
    .word 0x02512a23  # sw x5, 52(x2)
    .word 0x15812283  # lw x5, 344(x2)
    .word 0x02512c23  # sw x5, 56(x2)
    .word 0x15c12283  # lw x5, 348(x2)
    .word 0x02512e23  # sw x5, 60(x2)
    .word 0x16012283  # lw x5, 352(x2)
    .word 0xfff2c293  # xori x5, x5, -1
    .word 0x04512023  # sw x5, 64(x2)
    .word 0x16412283  # lw x5, 356(x2)
    .word 0xfff2c293  # xori x5, x5, -1
    .word 0x04512223  # sw x5, 68(x2)
    .word 0x16812283  # lw x5, 360(x2)
    .word 0x04512423  # sw x5, 72(x2)
    .word 0x16c12283  # lw x5, 364(x2)
    .word 0x04512623  # sw x5, 76(x2)
    .word 0x17012283  # lw x5, 368(x2)
    .word 0x04512823  # sw x5, 80(x2)
    .word 0x17412283  # lw x5, 372(x2)
    .word 0x04512a23  # sw x5, 84(x2)
    .word 0x17812283  # lw x5, 376(x2)
    .word 0x04512c23  # sw x5, 88(x2)
    .word 0x17c12283  # lw x5, 380(x2)
    .word 0x04512e23  # sw x5, 92(x2)
    .word 0xfff44293  # xori x5, x8, -1
    .word 0x06512023  # sw x5, 96(x2)
    .word 0xfff4c293  # xori x5, x9, -1
    .word 0x06512223  # sw x5, 100(x2)
    .word 0x18012283  # lw x5, 384(x2)
    .word 0x06512423  # sw x5, 104(x2)
    .word 0x18412283  # lw x5, 388(x2)
    .word 0x06512623  # sw x5, 108(x2)
    .word 0x18812283  # lw x5, 392(x2)
    .word 0x06512823  # sw x5, 112(x2)
    .word 0x18c12283  # lw x5, 396(x2)
    .word 0x06512a23  # sw x5, 116(x2)
    .word 0x19012283  # lw x5, 400(x2)
    .word 0x06512c23  # sw x5, 120(x2)
    .word 0x19412283  # lw x5, 404(x2)
    .word 0x06512e23  # sw x5, 124(x2)
    .word 0x19812283  # lw x5, 408(x2)
    .word 0x08512023  # sw x5, 128(x2)
    .word 0x19c12283  # lw x5, 412(x2)
    .word 0x08512223  # sw x5, 132(x2)
    .word 0x1a012283  # lw x5, 416(x2)
    .word 0xfff2c293  # xori x5, x5, -1
    .word 0x08512423  # sw x5, 136(x2)
    .word 0x1a412283  # lw x5, 420(x2)
    .word 0xfff2c293  # xori x5, x5, -1
    .word 0x08512623  # sw x5, 140(x2)
    .word 0x1a812283  # lw x5, 424(x2)
    .word 0x08512823  # sw x5, 144(x2)
    .word 0x1ac12283  # lw x5, 428(x2)
    .word 0x08512a23  # sw x5, 148(x2)
    .word 0x1b012283  # lw x5, 432(x2)
    .word 0x08512c23  # sw x5, 152(x2)
    .word 0x1b412283  # lw x5, 436(x2)
    .word 0x08512e23  # sw x5, 156(x2)
    .word 0x1b812283  # lw x5, 440(x2)
    .word 0xfff2c293  # xori x5, x5, -1
    .word 0x0a512023  # sw x5, 160(x2)
    .word 0x1bc12283  # lw x5, 444(x2)
    .word 0xfff2c293  # xori x5, x5, -1
    .word 0x0a512223  # sw x5, 164(x2)
    .word 0x1c012283  # lw x5, 448(x2)
    .word 0x0a512423  # sw x5, 168(x2)
    .word 0x1c412283  # lw x5, 452(x2)
    .word 0x0a512623  # sw x5, 172(x2)
    .word 0x1c812283  # lw x5, 456(x2)
    .word 0x0a512823  # sw x5, 176(x2)
    .word 0x1cc12283  # lw x5, 460(x2)
    .word 0x0a512a23  # sw x5, 180(x2)
    .word 0x1d012283  # lw x5, 464(x2)
    .word 0x0a512c23  # sw x5, 184(x2)
    .word 0x1d412283  # lw x5, 468(x2)
    .word 0x0a512e23  # sw x5, 188(x2)
    .word 0x1d812283  # lw x5, 472(x2)
    .word 0x0c512023  # sw x5, 192(x2)
    .word 0x1dc12283  # lw x5, 476(x2)
    .word 0x0c512223  # sw x5, 196(x2)
    # the result
    .word 0x00000513  # addi x10, x0, 0
    # parameter 0: the array, back
    .word 0x00010293  # addi x5, x2, 0
    .word 0x28c12303  # lw x6, 652(x2)
    .word 0x0c828393  # addi x7, x5, 200
    .word 0x0002ae03  # lw x28, 0(x5)
    .word 0x01c32023  # sw x28, 0(x6)
    .word 0x00428293  # addi x5, x5, 4
    .word 0x00430313  # addi x6, x6, 4
    .word 0xfe7298e3  # bne x5, x7, -16
    # above the frame
    .word 0x25010293  # addi x5, x2, 592
    # the caller's registers
    .word 0x0002a403  # lw x8, 0(x5)
    .cfi_restore 8
    .word 0x0042a483  # lw x9, 4(x5)
    .cfi_restore 9
    .word 0x0082a903  # lw x18, 8(x5)
    .cfi_restore 18
    .word 0x00c2a983  # lw x19, 12(x5)
    .cfi_restore 19
    .word 0x0102aa03  # lw x20, 16(x5)
    .cfi_restore 20
    .word 0x0142aa83  # lw x21, 20(x5)
    .cfi_restore 21
    .word 0x0182ab03  # lw x22, 24(x5)
    .cfi_restore 22
    .word 0x01c2ab83  # lw x23, 28(x5)
    .cfi_restore 23
    .word 0x0202ac03  # lw x24, 32(x5)
    .cfi_restore 24
    .word 0x0242ac83  # lw x25, 36(x5)
    .cfi_restore 25
    .word 0x0282ad03  # lw x26, 40(x5)
    .cfi_restore 26
    .word 0x02c2ad83  # lw x27, 44(x5)
    .cfi_restore 27
    # the caller's x2
    .word 0x04028293  # addi x5, x5, 64
    .cfi_def_cfa 5, 0
    # on to the tail that functions share
    jal x0, factc.tail.1
    .cfi_endproc
    .size keccak_f1600, . - keccak_f1600
    .section .text.factc.tail.1, "axG", @progbits, factc.tail.1, comdat
    .p2align 2
    .globl factc.tail.1
    .hidden factc.tail.1
    .type factc.tail.1, @function
factc.tail.1:
    .cfi_startproc
    .cfi_def_cfa 5, 0
    # all the room, wiped upward
    .word 0x00012023  # sw x0, 0(x2)
    .word 0x00012223  # sw x0, 4(x2)
    .word 0x00012423  # sw x0, 8(x2)
    .word 0x00012623  # sw x0, 12(x2)
    .word 0x01010113  # addi x2, x2, 16
    .word 0xfe5116e3  # bne x2, x5, -20
    .cfi_def_cfa 2, 0
    # temporaries, wiped
    .word 0x00000293  # addi x5, x0, 0
    .word 0x00000313  # addi x6, x0, 0
    .word 0x00000393  # addi x7, x0, 0
    .word 0x00000593  # addi x11, x0, 0
    .word 0x00000613  # addi x12, x0, 0
    .word 0x00000693  # addi x13, x0, 0
    .word 0x00000713  # addi x14, x0, 0
    .word 0x00000793  # addi x15, x0, 0
    .word 0x00000813  # addi x16, x0, 0
    .word 0x00000893  # addi x17, x0, 0
    .word 0x00000e13  # addi x28, x0, 0
    .word 0x00000e93  # addi x29, x0, 0
    .word 0x00000f13  # addi x30, x0, 0
    .word 0x00000f93  # addi x31, x0, 0
    # back
    .word 0x00008067  # jalr x0, 0(x1)
    .cfi_endproc
    .size factc.tail.1, . - factc.tail.1
    .option pop
