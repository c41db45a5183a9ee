# sha3_256_short: made by factc 1.0.0 function; 1037 words, 784 bytes of stack, profile 1
    .option push
    .option norvc
    .option norelax
    .cfi_sections .debug_frame
    .section .text.sha3_256_short, "ax", @progbits
    .p2align 2
    .globl sha3_256_short
    .type sha3_256_short, @function
sha3_256_short:
    .cfi_startproc
    # room above the frame
    .word 0xfc010113  # addi x2, x2, -64
    .cfi_def_cfa_offset 64
    # the caller's registers
    .word 0x00912023  # sw x9, 0(x2)
    .cfi_offset 9, -64
    .word 0x01212223  # sw x18, 4(x2)
    .cfi_offset 18, -60
    .word 0x01312423  # sw x19, 8(x2)
    .cfi_offset 19, -56
    .word 0x01412623  # sw x20, 12(x2)
    .cfi_offset 20, -52
    .word 0x01512823  # sw x21, 16(x2)
    .cfi_offset 21, -48
    .word 0x01612a23  # sw x22, 20(x2)
    .cfi_offset 22, -44
    .word 0x01712c23  # sw x23, 24(x2)
    .cfi_offset 23, -40
    .word 0x01812e23  # sw x24, 28(x2)
    .cfi_offset 24, -36
    .word 0x03912023  # sw x25, 32(x2)
    .cfi_offset 25, -32
    .word 0x03a12223  # sw x26, 36(x2)
    .cfi_offset 26, -28
    .word 0x03b12423  # sw x27, 40(x2)
    .cfi_offset 27, -24
    # arguments that are needed behind the body
    .word 0x02a12a23  # sw x10, 52(x2)
    .word 0x02b12c23  # sw x11, 56(x2)
    .word 0x02c12e23  # sw x12, 60(x2)
    # the frame's base
    .word 0xd3010113  # addi x2, x2, -720
    .cfi_def_cfa 2, 784
    # parameter 0: an array
    .word 0x00050293  # addi x5, x10, 0
    .word 0x00010313  # addi x6, x2, 0
    .word 0x08428393  # addi x7, x5, 132
    .word 0x7ad00f6f  # jal x30, 4012
    .word 0x0002ce03  # lbu x28, 0(x5)
    .word 0x01c30023  # sb x28, 0(x6)
    .word 0x0012ce03  # lbu x28, 1(x5)
    .word 0x01c300a3  # sb x28, 1(x6)
    .word 0x0022ce03  # lbu x28, 2(x5)
    .word 0x01c30123  # sb x28, 2(x6)
    # parameter 1: a word
    .word 0x08b12423  # sw x11, 136(x2)
    # the body
    .word 0x800002b7  # lui x5, 0x80000
    .word 0x00028293  # addi x5, x5, 0
    .word 0x2a512c23  # sw x5, 696(x2)
    .word 0x3307e2b7  # lui x5, 0x3307e
    .word 0xd0028293  # addi x5, x5, -768
    .word 0x2a512e23  # sw x5, 700(x2)
    .word 0x0ac00313  # addi x6, x0, 172
    .word 0x00230333  # add x6, x6, x2
    .word 0x08800393  # addi x7, x0, 136
    .word 0x006383b3  # add x7, x7, x6
    .word 0x406382b3  # sub x5, x7, x6
    .word 0x00029463  # bne x5, x0, 8
    .word 0x0100006f  # jal x0, 16
    .word 0x00032023  # sw x0, 0(x6)
    .word 0x00430313  # addi x6, x6, 4
    .word 0xfedff06f  # jal x0, -20
    .word 0x08812283  # lw x5, 136(x2)
    .word 0x0872b293  # sltiu x5, x5, 135
    .word 0x08812303  # lw x6, 136(x2)
    .word 0x08700393  # addi x7, x0, 135
    .word 0x405002b3  # sub x5, x0, x5
    .word 0x00734333  # xor x6, x6, x7
    .word 0x00537333  # and x6, x6, x5
    .word 0x0063c2b3  # xor x5, x7, x6
    .word 0x08800313  # addi x6, x0, 136
    .word 0x0262f2b3  # remu x5, x5, x6
    .word 0x1a512023  # sw x5, 416(x2)
    .word 0x00100293  # addi x5, x0, 1
    .word 0x12512a23  # sw x5, 308(x2)
    .word 0x000082b7  # lui x5, 0x00008
    .word 0x08228293  # addi x5, x5, 130
    .word 0x12512c23  # sw x5, 312(x2)
    .word 0x000082b7  # lui x5, 0x00008
    .word 0x08a28293  # addi x5, x5, 138
    .word 0x12512e23  # sw x5, 316(x2)
    .word 0x800082b7  # lui x5, 0x80008
    .word 0x00028293  # addi x5, x5, 0
    .word 0x14512023  # sw x5, 320(x2)
    .word 0x000082b7  # lui x5, 0x00008
    .word 0x08b28293  # addi x5, x5, 139
    .word 0x14512223  # sw x5, 324(x2)
    .word 0x800002b7  # lui x5, 0x80000
    .word 0x00128293  # addi x5, x5, 1
    .word 0x14512423  # sw x5, 328(x2)
    .word 0x800082b7  # lui x5, 0x80008
    .word 0x08128293  # addi x5, x5, 129
    .word 0x14512623  # sw x5, 332(x2)
    .word 0x000082b7  # lui x5, 0x00008
    .word 0x00928293  # addi x5, x5, 9
    .word 0x14512823  # sw x5, 336(x2)
    .word 0x08a00293  # addi x5, x0, 138
    .word 0x14512a23  # sw x5, 340(x2)
    .word 0x08800293  # addi x5, x0, 136
    .word 0x14512c23  # sw x5, 344(x2)
    .word 0x800082b7  # lui x5, 0x80008
    .word 0x00928293  # addi x5, x5, 9
    .word 0x14512e23  # sw x5, 348(x2)
    .word 0x800002b7  # lui x5, 0x80000
    .word 0x00a28293  # addi x5, x5, 10
    .word 0x16512023  # sw x5, 352(x2)
    .word 0x800082b7  # lui x5, 0x80008
    .word 0x08b28293  # addi x5, x5, 139
    .word 0x16512223  # sw x5, 356(x2)
    .word 0x08b00293  # addi x5, x0, 139
    .word 0x16512423  # sw x5, 360(x2)
    .word 0x000082b7  # lui x5, 0x00008
    .word 0x08928293  # addi x5, x5, 137
    .word 0x16512623  # sw x5, 364(x2)
    .word 0x000082b7  # lui x5, 0x00008
    .word 0x00328293  # addi x5, x5, 3
    .word 0x16512823  # sw x5, 368(x2)
    .word 0x000082b7  # lui x5, 0x00008
    .word 0x00228293  # addi x5, x5, 2
    .word 0x16512a23  # sw x5, 372(x2)
    .word 0x08000293  # addi x5, x0, 128
    .word 0x16512c23  # sw x5, 376(x2)
    .word 0x000082b7  # lui x5, 0x00008
    .word 0x00a28293  # addi x5, x5, 10
    .word 0x16512e23  # sw x5, 380(x2)
    .word 0x800002b7  # lui x5, 0x80000
    .word 0x00a28293  # addi x5, x5, 10
    .word 0x18512023  # sw x5, 384(x2)
    .word 0x800082b7  # lui x5, 0x80008
    .word 0x08128293  # addi x5, x5, 129
    .word 0x18512223  # sw x5, 388(x2)
    .word 0x000082b7  # lui x5, 0x00008
    .word 0x08028293  # addi x5, x5, 128
    .word 0x18512423  # sw x5, 392(x2)
    .word 0x800002b7  # lui x5, 0x80000
    .word 0x00128293  # addi x5, x5, 1
    .word 0x18512623  # sw x5, 396(x2)
    .word 0x800082b7  # lui x5, 0x80008
    .word 0x00828293  # addi x5, x5, 8
    .word 0x18512823  # sw x5, 400(x2)
    .word 0x2c012223  # sw x0, 708(x2)
    .word 0x1a012283  # lw x5, 416(x2)
    .word 0x0022d293  # srli x5, x5, 2
    .word 0x2c512423  # sw x5, 712(x2)
    .word 0x2c412303  # lw x6, 708(x2)
    .word 0x2c812283  # lw x5, 712(x2)
    .word 0x005332b3  # sltu x5, x6, x5
    .word 0x00029463  # bne x5, x0, 8
    .word 0x0780006f  # jal x0, 120
    .word 0x18612a23  # sw x6, 404(x2)
    .word 0x00130313  # addi x6, x6, 1
    .word 0x2c612223  # sw x6, 708(x2)
    .word 0x19412283  # lw x5, 404(x2)
    .word 0x00229293  # slli x5, x5, 2
    .word 0x18512c23  # sw x5, 408(x2)
    .word 0x19412283  # lw x5, 404(x2)
    .word 0x19812303  # lw x6, 408(x2)
    .word 0x00230333  # add x6, x6, x2
    .word 0x00034303  # lbu x6, 0(x6)
    .word 0x19812383  # lw x7, 408(x2)
    .word 0x002383b3  # add x7, x7, x2
    .word 0x0013c383  # lbu x7, 1(x7)
    .word 0x00839393  # slli x7, x7, 8
    .word 0x00736333  # or x6, x6, x7
    .word 0x19812383  # lw x7, 408(x2)
    .word 0x002383b3  # add x7, x7, x2
    .word 0x0023c383  # lbu x7, 2(x7)
    .word 0x01039393  # slli x7, x7, 16
    .word 0x00736333  # or x6, x6, x7
    .word 0x19812383  # lw x7, 408(x2)
    .word 0x002383b3  # add x7, x7, x2
    .word 0x0033c383  # lbu x7, 3(x7)
    .word 0x01839393  # slli x7, x7, 24
    .word 0x00736333  # or x6, x6, x7
    .word 0x00229293  # slli x5, x5, 2
    .word 0x002282b3  # add x5, x5, x2
    .word 0x0a62a623  # sw x6, 172(x5)
    .word 0xf7dff06f  # jal x0, -132
    .word 0x00600293  # addi x5, x0, 6
    .word 0x1a012303  # lw x6, 416(x2)
    .word 0x00337313  # andi x6, x6, 3
    .word 0x00331313  # slli x6, x6, 3
    .word 0x00629733  # sll x14, x5, x6
    .word 0x1a012283  # lw x5, 416(x2)
    .word 0x0022d293  # srli x5, x5, 2
    .word 0x00229293  # slli x5, x5, 2
    .word 0x2c512223  # sw x5, 708(x2)
    .word 0x1a012283  # lw x5, 416(x2)
    .word 0x2c512423  # sw x5, 712(x2)
    .word 0x2c412303  # lw x6, 708(x2)
    .word 0x2c812283  # lw x5, 712(x2)
    .word 0x005332b3  # sltu x5, x6, x5
    .word 0x00029463  # bne x5, x0, 8
    .word 0x0340006f  # jal x0, 52
    .word 0x18612e23  # sw x6, 412(x2)
    .word 0x00130313  # addi x6, x6, 1
    .word 0x2c612223  # sw x6, 708(x2)
    .word 0x19c12303  # lw x6, 412(x2)
    .word 0x00230333  # add x6, x6, x2
    .word 0x00034303  # lbu x6, 0(x6)
    .word 0x19c12383  # lw x7, 412(x2)
    .word 0x0033f393  # andi x7, x7, 3
    .word 0x00339393  # slli x7, x7, 3
    .word 0x00731333  # sll x6, x6, x7
    .word 0x00676733  # or x14, x14, x6
    .word 0xfc1ff06f  # jal x0, -64
    .word 0x1a012283  # lw x5, 416(x2)
    .word 0x0022d293  # srli x5, x5, 2
    .word 0x00229293  # slli x5, x5, 2
    .word 0x002282b3  # add x5, x5, x2
    .word 0x0ae2a623  # sw x14, 172(x5)
    .word 0x13012283  # lw x5, 304(x2)
    .word 0x2b812303  # lw x6, 696(x2)
    .word 0x0062c2b3  # xor x5, x5, x6
    .word 0x12512823  # sw x5, 304(x2)
    .word 0x0ac12703  # lw x14, 172(x2)
    .word 0x0b012783  # lw x15, 176(x2)
    .word 0x0b412283  # lw x5, 180(x2)
    .word 0x26512223  # sw x5, 612(x2)
    .word 0x0b812803  # lw x16, 184(x2)
    .word 0x0bc12883  # lw x17, 188(x2)
    .word 0x0c012903  # lw x18, 192(x2)
    .word 0x0c412983  # lw x19, 196(x2)
    .word 0x0c812a03  # lw x20, 200(x2)
    .word 0x0cc12a83  # lw x21, 204(x2)
    .word 0x0d012b03  # lw x22, 208(x2)
    .word 0x0d412503  # lw x10, 212(x2)
    .word 0x0d812583  # lw x11, 216(x2)
    .word 0x0dc12603  # lw x12, 220(x2)
    .word 0x0e012683  # lw x13, 224(x2)
    .word 0x0e412b83  # lw x23, 228(x2)
    .word 0x0e812c03  # lw x24, 232(x2)
    .word 0x0ec12c83  # lw x25, 236(x2)
    .word 0x0f012d03  # lw x26, 240(x2)
    .word 0x0f412d83  # lw x27, 244(x2)
    .word 0x0f812483  # lw x9, 248(x2)
    .word 0x0fc12283  # lw x5, 252(x2)
    .word 0x1e512a23  # sw x5, 500(x2)
    .word 0x10012283  # lw x5, 256(x2)
    .word 0x1e512c23  # sw x5, 504(x2)
    .word 0x10412283  # lw x5, 260(x2)
    .word 0x1e512e23  # sw x5, 508(x2)
    .word 0x10812283  # lw x5, 264(x2)
    .word 0x20512023  # sw x5, 512(x2)
    .word 0x10c12283  # lw x5, 268(x2)
    .word 0x20512223  # sw x5, 516(x2)
    .word 0x11012283  # lw x5, 272(x2)
    .word 0x20512423  # sw x5, 520(x2)
    .word 0x11412283  # lw x5, 276(x2)
    .word 0x20512623  # sw x5, 524(x2)
    .word 0x11812283  # lw x5, 280(x2)
    .word 0x20512823  # sw x5, 528(x2)
    .word 0x11c12283  # lw x5, 284(x2)
    .word 0x20512a23  # sw x5, 532(x2)
    .word 0x12012283  # lw x5, 288(x2)
    .word 0x20512c23  # sw x5, 536(x2)
    .word 0x12412283  # lw x5, 292(x2)
    .word 0x20512e23  # sw x5, 540(x2)
    .word 0x12812283  # lw x5, 296(x2)
    .word 0x22512023  # sw x5, 544(x2)
    .word 0x12c12283  # lw x5, 300(x2)
    .word 0x22512223  # sw x5, 548(x2)
    .word 0x13012283  # lw x5, 304(x2)
    .word 0x22512423  # sw x5, 552(x2)
    .word 0x1ae12223  # sw x14, 420(x2)
    .word 0x1af12423  # sw x15, 424(x2)
    .word 0x26412283  # lw x5, 612(x2)
    .word 0xfff2c293  # xori x5, x5, -1
    .word 0x1a512623  # sw x5, 428(x2)
    .word 0xfff84293  # xori x5, x16, -1
    .word 0x1a512823  # sw x5, 432(x2)
    .word 0xfff8c293  # xori x5, x17, -1
    .word 0x1a512a23  # sw x5, 436(x2)
    .word 0xfff94293  # xori x5, x18, -1
    .word 0x1a512c23  # sw x5, 440(x2)
    .word 0x1b312e23  # sw x19, 444(x2)
    .word 0x1d412023  # sw x20, 448(x2)
    .word 0x1d512223  # sw x21, 452(x2)
    .word 0x1d612423  # sw x22, 456(x2)
    .word 0x1ca12623  # sw x10, 460(x2)
    .word 0x1cb12823  # sw x11, 464(x2)
    .word 0x1cc12a23  # sw x12, 468(x2)
    .word 0x1cd12c23  # sw x13, 472(x2)
    .word 0x1d712e23  # sw x23, 476(x2)
    .word 0x1f812023  # sw x24, 480(x2)
    .word 0xfffcc293  # xori x5, x25, -1
    .word 0x1e512223  # sw x5, 484(x2)
    .word 0xfffd4293  # xori x5, x26, -1
    .word 0x1e512423  # sw x5, 488(x2)
    .word 0x1fb12623  # sw x27, 492(x2)
    .word 0x1e912823  # sw x9, 496(x2)
    .word 0x1f412283  # lw x5, 500(x2)
    .word 0x1e512a23  # sw x5, 500(x2)
    .word 0x1f812283  # lw x5, 504(x2)
    .word 0x1e512c23  # sw x5, 504(x2)
    .word 0x1fc12283  # lw x5, 508(x2)
    .word 0x1e512e23  # sw x5, 508(x2)
    .word 0x20012283  # lw x5, 512(x2)
    .word 0x20512023  # sw x5, 512(x2)
    .word 0x20412283  # lw x5, 516(x2)
    .word 0xfff2cd93  # xori x27, x5, -1
    .word 0x20812283  # lw x5, 520(x2)
    .word 0xfff2c493  # xori x9, x5, -1
    .word 0x20c12283  # lw x5, 524(x2)
    .word 0x20512223  # sw x5, 516(x2)
    .word 0x21012283  # lw x5, 528(x2)
    .word 0x20512423  # sw x5, 520(x2)
    .word 0x21412283  # lw x5, 532(x2)
    .word 0x20512623  # sw x5, 524(x2)
    .word 0x21812283  # lw x5, 536(x2)
    .word 0x20512823  # sw x5, 528(x2)
    .word 0x21c12283  # lw x5, 540(x2)
    .word 0x20512a23  # sw x5, 532(x2)
    .word 0x22012283  # lw x5, 544(x2)
    .word 0x20512c23  # sw x5, 536(x2)
    .word 0x22412283  # lw x5, 548(x2)
    .word 0x20512e23  # sw x5, 540(x2)
    .word 0x22812283  # lw x5, 552(x2)
    .word 0x22512023  # sw x5, 544(x2)
    .word 0x000002b7  # lui x5, 0x00000
    .word 0xfff28293  # addi x5, x5, -1
    .word 0x22512223  # sw x5, 548(x2)
    .word 0x000002b7  # lui x5, 0x00000
    .word 0xfff28293  # addi x5, x5, -1
    .word 0x22512423  # sw x5, 552(x2)
    .word 0x22012623  # sw x0, 556(x2)
    .word 0x22012823  # sw x0, 560(x2)
    .word 0x22012a23  # sw x0, 564(x2)
    .word 0x22012c23  # sw x0, 568(x2)
    .word 0x000002b7  # lui x5, 0x00000
    .word 0xfff28293  # addi x5, x5, -1
    .word 0x22512e23  # sw x5, 572(x2)
    .word 0x000002b7  # lui x5, 0x00000
    .word 0xfff28293  # addi x5, x5, -1
    .word 0x24512023  # sw x5, 576(x2)
    .word 0x24012223  # sw x0, 580(x2)
    .word 0x24012423  # sw x0, 584(x2)
    .word 0x24012623  # sw x0, 588(x2)
    .word 0x24012823  # sw x0, 592(x2)
    .word 0x24012a23  # sw x0, 596(x2)
    .word 0x24012c23  # sw x0, 600(x2)
    .word 0x24012e23  # sw x0, 604(x2)
    .word 0x26012023  # sw x0, 608(x2)
    .word 0x2c012223  # sw x0, 708(x2)
    .word 0x01800293  # addi x5, x0, 24
    .word 0x2c512423  # sw x5, 712(x2)
    .word 0x2c412303  # lw x6, 708(x2)
    .word 0x2c812283  # lw x5, 712(x2)
    .word 0x005332b3  # sltu x5, x6, x5
    .word 0x00029463  # bne x5, x0, 8
    .word 0x1c10006f  # jal x0, 2496
    .word 0x1a612023  # sw x6, 416(x2)
    .word 0x00130313  # addi x6, x6, 1
    .word 0x2c612223  # sw x6, 708(x2)
    .word 0x1a412283  # lw x5, 420(x2)
    .word 0x1cc12303  # lw x6, 460(x2)
    .word 0x0062c2b3  # xor x5, x5, x6
    .word 0x1f412303  # lw x6, 500(x2)
    .word 0x0062c2b3  # xor x5, x5, x6
    .word 0x21412303  # lw x6, 532(x2)
    .word 0x0062c2b3  # xor x5, x5, x6
    .word 0x23c12303  # lw x6, 572(x2)
    .word 0x0062cb33  # xor x22, x5, x6
    .word 0x1a812283  # lw x5, 424(x2)
    .word 0x1d012303  # lw x6, 464(x2)
    .word 0x0062c2b3  # xor x5, x5, x6
    .word 0x1f812303  # lw x6, 504(x2)
    .word 0x0062c2b3  # xor x5, x5, x6
    .word 0x21812303  # lw x6, 536(x2)
    .word 0x0062c2b3  # xor x5, x5, x6
    .word 0x24012303  # lw x6, 576(x2)
    .word 0x0062c533  # xor x10, x5, x6
    .word 0x1ac12283  # lw x5, 428(x2)
    .word 0x1d412303  # lw x6, 468(x2)
    .word 0x0062c2b3  # xor x5, x5, x6
    .word 0x1fc12303  # lw x6, 508(x2)
    .word 0x0062c2b3  # xor x5, x5, x6
    .word 0x21c12303  # lw x6, 540(x2)
    .word 0x0062c2b3  # xor x5, x5, x6
    .word 0x24412303  # lw x6, 580(x2)
    .word 0x0062c8b3  # xor x17, x5, x6
    .word 0x1b012283  # lw x5, 432(x2)
    .word 0x1d812303  # lw x6, 472(x2)
    .word 0x0062c2b3  # xor x5, x5, x6
    .word 0x20012303  # lw x6, 512(x2)
    .word 0x0062c2b3  # xor x5, x5, x6
    .word 0x22012303  # lw x6, 544(x2)
    .word 0x0062c2b3  # xor x5, x5, x6
    .word 0x24812303  # lw x6, 584(x2)
    .word 0x0062c933  # xor x18, x5, x6
    .word 0x1b412283  # lw x5, 436(x2)
    .word 0x1dc12303  # lw x6, 476(x2)
    .word 0x0062c2b3  # xor x5, x5, x6
    .word 0x01b2c2b3  # xor x5, x5, x27
    .word 0x22412303  # lw x6, 548(x2)
    .word 0x0062c2b3  # xor x5, x5, x6
    .word 0x24c12303  # lw x6, 588(x2)
    .word 0x0062c9b3  # xor x19, x5, x6
    .word 0x1b812283  # lw x5, 440(x2)
    .word 0x1e012303  # lw x6, 480(x2)
    .word 0x0062c2b3  # xor x5, x5, x6
    .word 0x0092c2b3  # xor x5, x5, x9
    .word 0x22812303  # lw x6, 552(x2)
    .word 0x0062c2b3  # xor x5, x5, x6
    .word 0x25012303  # lw x6, 592(x2)
    .word 0x0062ca33  # xor x20, x5, x6
    .word 0x1bc12283  # lw x5, 444(x2)
    .word 0x1e412303  # lw x6, 484(x2)
    .word 0x0062c2b3  # xor x5, x5, x6
    .word 0x20412303  # lw x6, 516(x2)
    .word 0x0062c2b3  # xor x5, x5, x6
    .word 0x22c12303  # lw x6, 556(x2)
    .word 0x0062c2b3  # xor x5, x5, x6
    .word 0x25412303  # lw x6, 596(x2)
    .word 0x0062cab3  # xor x21, x5, x6
    .word 0x1c012283  # lw x5, 448(x2)
    .word 0x1e812303  # lw x6, 488(x2)
    .word 0x0062c2b3  # xor x5, x5, x6
    .word 0x20812303  # lw x6, 520(x2)
    .word 0x0062c2b3  # xor x5, x5, x6
    .word 0x23012303  # lw x6, 560(x2)
    .word 0x0062c2b3  # xor x5, x5, x6
    .word 0x25812303  # lw x6, 600(x2)
    .word 0x0062c5b3  # xor x11, x5, x6
    .word 0x1c412283  # lw x5, 452(x2)
    .word 0x1ec12303  # lw x6, 492(x2)
    .word 0x0062c2b3  # xor x5, x5, x6
    .word 0x20c12303  # lw x6, 524(x2)
    .word 0x0062c2b3  # xor x5, x5, x6
    .word 0x23412303  # lw x6, 564(x2)
    .word 0x0062c2b3  # xor x5, x5, x6
    .word 0x25c12303  # lw x6, 604(x2)
    .word 0x0062c633  # xor x12, x5, x6
    .word 0x1c812283  # lw x5, 456(x2)
    .word 0x1f012303  # lw x6, 496(x2)
    .word 0x0062c2b3  # xor x5, x5, x6
    .word 0x21012303  # lw x6, 528(x2)
    .word 0x0062c2b3  # xor x5, x5, x6
    .word 0x23812303  # lw x6, 568(x2)
    .word 0x0062c2b3  # xor x5, x5, x6
    .word 0x26012303  # lw x6, 608(x2)
    .word 0x0062c6b3  # xor x13, x5, x6
    .word 0x00189293  # slli x5, x17, 1
    .word 0x01f95313  # srli x6, x18, 31
    .word 0x0062e2b3  # or x5, x5, x6
    .word 0x00c2c733  # xor x14, x5, x12
    .word 0x00191293  # slli x5, x18, 1
    .word 0x01f8d313  # srli x6, x17, 31
    .word 0x0062e2b3  # or x5, x5, x6
    .word 0x00d2c7b3  # xor x15, x5, x13
    .word 0x00199293  # slli x5, x19, 1
    .word 0x01fa5313  # srli x6, x20, 31
    .word 0x0062e2b3  # or x5, x5, x6
    .word 0x0162c2b3  # xor x5, x5, x22
    .word 0x26512223  # sw x5, 612(x2)
    .word 0x001a1293  # slli x5, x20, 1
    .word 0x01f9d313  # srli x6, x19, 31
    .word 0x0062e2b3  # or x5, x5, x6
    .word 0x00a2c833  # xor x16, x5, x10
    .word 0x001a9293  # slli x5, x21, 1
    .word 0x01f5d313  # srli x6, x11, 31
    .word 0x0062e2b3  # or x5, x5, x6
    .word 0x0112c8b3  # xor x17, x5, x17
    .word 0x00159293  # slli x5, x11, 1
    .word 0x01fad313  # srli x6, x21, 31
    .word 0x0062e2b3  # or x5, x5, x6
    .word 0x0122c933  # xor x18, x5, x18
    .word 0x00161293  # slli x5, x12, 1
    .word 0x01f6d313  # srli x6, x13, 31
    .word 0x0062e2b3  # or x5, x5, x6
    .word 0x0132c9b3  # xor x19, x5, x19
    .word 0x00169293  # slli x5, x13, 1
    .word 0x01f65313  # srli x6, x12, 31
    .word 0x0062e2b3  # or x5, x5, x6
    .word 0x0142ca33  # xor x20, x5, x20
    .word 0x001b1293  # slli x5, x22, 1
    .word 0x01f55313  # srli x6, x10, 31
    .word 0x0062e2b3  # or x5, x5, x6
    .word 0x0152cab3  # xor x21, x5, x21
    .word 0x00151293  # slli x5, x10, 1
    .word 0x01fb5313  # srli x6, x22, 31
    .word 0x0062e2b3  # or x5, x5, x6
    .word 0x00b2cb33  # xor x22, x5, x11
    .word 0x1a412283  # lw x5, 420(x2)
    .word 0x00e2c533  # xor x10, x5, x14
    .word 0x1a812283  # lw x5, 424(x2)
    .word 0x00f2c5b3  # xor x11, x5, x15
    .word 0x1d412283  # lw x5, 468(x2)
    .word 0x26412303  # lw x6, 612(x2)
    .word 0x0062c6b3  # xor x13, x5, x6
    .word 0x1d812283  # lw x5, 472(x2)
    .word 0x0102cbb3  # xor x23, x5, x16
    .word 0x00cb9293  # slli x5, x23, 12
    .word 0x0146d313  # srli x6, x13, 20
    .word 0x0062e633  # or x12, x5, x6
    .word 0x00c69293  # slli x5, x13, 12
    .word 0x014bd313  # srli x6, x23, 20
    .word 0x0062e6b3  # or x13, x5, x6
    .word 0x011dcc33  # xor x24, x27, x17
    .word 0x0124ccb3  # xor x25, x9, x18
    .word 0x00bc9293  # slli x5, x25, 11
    .word 0x015c5313  # srli x6, x24, 21
    .word 0x0062ebb3  # or x23, x5, x6
    .word 0x00bc1293  # slli x5, x24, 11
    .word 0x015cd313  # srli x6, x25, 21
    .word 0x0062ec33  # or x24, x5, x6
    .word 0x22c12283  # lw x5, 556(x2)
    .word 0x0132cd33  # xor x26, x5, x19
    .word 0x23012283  # lw x5, 560(x2)
    .word 0x0142cdb3  # xor x27, x5, x20
    .word 0x015d1293  # slli x5, x26, 21
    .word 0x00bdd313  # srli x6, x27, 11
    .word 0x0062ecb3  # or x25, x5, x6
    .word 0x015d9293  # slli x5, x27, 21
    .word 0x00bd5313  # srli x6, x26, 11
    .word 0x0062ed33  # or x26, x5, x6
    .word 0x25c12283  # lw x5, 604(x2)
    .word 0x0152c4b3  # xor x9, x5, x21
    .word 0x26012283  # lw x5, 608(x2)
    .word 0x0162c2b3  # xor x5, x5, x22
    .word 0x1a512223  # sw x5, 420(x2)
    .word 0x00e49293  # slli x5, x9, 14
    .word 0x1a412303  # lw x6, 420(x2)
    .word 0x01235313  # srli x6, x6, 18
    .word 0x0062edb3  # or x27, x5, x6
    .word 0x1a412283  # lw x5, 420(x2)
    .word 0x00e29293  # slli x5, x5, 14
    .word 0x0124d313  # srli x6, x9, 18
    .word 0x0062e4b3  # or x9, x5, x6
    .word 0x017662b3  # or x5, x12, x23
    .word 0x00a2c2b3  # xor x5, x5, x10
    .word 0x1a012303  # lw x6, 416(x2)
    .word 0x00231313  # slli x6, x6, 2
    .word 0x00230333  # add x6, x6, x2
    .word 0x13432303  # lw x6, 308(x6)
    .word 0x0062c2b3  # xor x5, x5, x6
    .word 0x1a512223  # sw x5, 420(x2)
    .word 0x0186e2b3  # or x5, x13, x24
    .word 0x00b2c2b3  # xor x5, x5, x11
    .word 0x2bc12303  # lw x6, 700(x2)
    .word 0x1a012383  # lw x7, 416(x2)
    .word 0x00731333  # sll x6, x6, x7
    .word 0x2b812383  # lw x7, 696(x2)
    .word 0x00737333  # and x6, x6, x7
    .word 0x0062c2b3  # xor x5, x5, x6
    .word 0x1a512423  # sw x5, 424(x2)
    .word 0xfffbc293  # xori x5, x23, -1
    .word 0x0192e2b3  # or x5, x5, x25
    .word 0x00c2c2b3  # xor x5, x5, x12
    .word 0x26512423  # sw x5, 616(x2)
    .word 0xfffc4293  # xori x5, x24, -1
    .word 0x01a2e2b3  # or x5, x5, x26
    .word 0x00d2c2b3  # xor x5, x5, x13
    .word 0x26512623  # sw x5, 620(x2)
    .word 0x01bcf2b3  # and x5, x25, x27
    .word 0x0172c2b3  # xor x5, x5, x23
    .word 0x26512823  # sw x5, 624(x2)
    .word 0x009d72b3  # and x5, x26, x9
    .word 0x0182c2b3  # xor x5, x5, x24
    .word 0x26512a23  # sw x5, 628(x2)
    .word 0x00ade2b3  # or x5, x27, x10
    .word 0x0192c2b3  # xor x5, x5, x25
    .word 0x26512c23  # sw x5, 632(x2)
    .word 0x00b4e2b3  # or x5, x9, x11
    .word 0x01a2c2b3  # xor x5, x5, x26
    .word 0x26512e23  # sw x5, 636(x2)
    .word 0x00c572b3  # and x5, x10, x12
    .word 0x01b2c2b3  # xor x5, x5, x27
    .word 0x28512023  # sw x5, 640(x2)
    .word 0x00d5f2b3  # and x5, x11, x13
    .word 0x0092c2b3  # xor x5, x5, x9
    .word 0x28512223  # sw x5, 644(x2)
    .word 0x1bc12283  # lw x5, 444(x2)
    .word 0x0132c5b3  # xor x11, x5, x19
    .word 0x1c012283  # lw x5, 448(x2)
    .word 0x0142c633  # xor x12, x5, x20
    .word 0x01c59293  # slli x5, x11, 28
    .word 0x00465313  # srli x6, x12, 4
    .word 0x0062e533  # or x10, x5, x6
    .word 0x01c61293  # slli x5, x12, 28
    .word 0x0045d313  # srli x6, x11, 4
    .word 0x0062e5b3  # or x11, x5, x6
    .word 0x1ec12283  # lw x5, 492(x2)
    .word 0x0152c6b3  # xor x13, x5, x21
    .word 0x1f012283  # lw x5, 496(x2)
    .word 0x0162cbb3  # xor x23, x5, x22
    .word 0x01469293  # slli x5, x13, 20
    .word 0x00cbd313  # srli x6, x23, 12
    .word 0x0062e633  # or x12, x5, x6
    .word 0x014b9293  # slli x5, x23, 20
    .word 0x00c6d313  # srli x6, x13, 12
    .word 0x0062e6b3  # or x13, x5, x6
    .word 0x1f412283  # lw x5, 500(x2)
    .word 0x00e2cc33  # xor x24, x5, x14
    .word 0x1f812283  # lw x5, 504(x2)
    .word 0x00f2ccb3  # xor x25, x5, x15
    .word 0x003c1293  # slli x5, x24, 3
    .word 0x01dcd313  # srli x6, x25, 29
    .word 0x0062ebb3  # or x23, x5, x6
    .word 0x003c9293  # slli x5, x25, 3
    .word 0x01dc5313  # srli x6, x24, 29
    .word 0x0062ec33  # or x24, x5, x6
    .word 0x21c12283  # lw x5, 540(x2)
    .word 0x26412303  # lw x6, 612(x2)
    .word 0x0062cd33  # xor x26, x5, x6
    .word 0x22012283  # lw x5, 544(x2)
    .word 0x0102cdb3  # xor x27, x5, x16
    .word 0x00dd9293  # slli x5, x27, 13
    .word 0x013d5313  # srli x6, x26, 19
    .word 0x0062ecb3  # or x25, x5, x6
    .word 0x00dd1293  # slli x5, x26, 13
    .word 0x013dd313  # srli x6, x27, 19
    .word 0x0062ed33  # or x26, x5, x6
    .word 0x24c12283  # lw x5, 588(x2)
    .word 0x0112c4b3  # xor x9, x5, x17
    .word 0x25012283  # lw x5, 592(x2)
    .word 0x0122c2b3  # xor x5, x5, x18
    .word 0x1a512e23  # sw x5, 444(x2)
    .word 0x1bc12283  # lw x5, 444(x2)
    .word 0x01d29293  # slli x5, x5, 29
    .word 0x0034d313  # srli x6, x9, 3
    .word 0x0062edb3  # or x27, x5, x6
    .word 0x01d49293  # slli x5, x9, 29
    .word 0x1bc12303  # lw x6, 444(x2)
    .word 0x00335313  # srli x6, x6, 3
    .word 0x0062e4b3  # or x9, x5, x6
    .word 0x017662b3  # or x5, x12, x23
    .word 0x00a2c2b3  # xor x5, x5, x10
    .word 0x28512423  # sw x5, 648(x2)
    .word 0x0186e2b3  # or x5, x13, x24
    .word 0x00b2c2b3  # xor x5, x5, x11
    .word 0x28512623  # sw x5, 652(x2)
    .word 0x019bf2b3  # and x5, x23, x25
    .word 0x00c2c2b3  # xor x5, x5, x12
    .word 0x1c512a23  # sw x5, 468(x2)
    .word 0x01ac72b3  # and x5, x24, x26
    .word 0x00d2c2b3  # xor x5, x5, x13
    .word 0x1c512c23  # sw x5, 472(x2)
    .word 0xfffdc293  # xori x5, x27, -1
    .word 0x0192e2b3  # or x5, x5, x25
    .word 0x0172c2b3  # xor x5, x5, x23
    .word 0x28512823  # sw x5, 656(x2)
    .word 0xfff4c293  # xori x5, x9, -1
    .word 0x01a2e2b3  # or x5, x5, x26
    .word 0x0182c2b3  # xor x5, x5, x24
    .word 0x28512a23  # sw x5, 660(x2)
    .word 0x00ade2b3  # or x5, x27, x10
    .word 0x0192c2b3  # xor x5, x5, x25
    .word 0x28512c23  # sw x5, 664(x2)
    .word 0x00b4e2b3  # or x5, x9, x11
    .word 0x01a2c2b3  # xor x5, x5, x26
    .word 0x28512e23  # sw x5, 668(x2)
    .word 0x00c572b3  # and x5, x10, x12
    .word 0x01b2c2b3  # xor x5, x5, x27
    .word 0x1e512623  # sw x5, 492(x2)
    .word 0x00d5f2b3  # and x5, x11, x13
    .word 0x0092c2b3  # xor x5, x5, x9
    .word 0x1e512823  # sw x5, 496(x2)
    .word 0x1ac12283  # lw x5, 428(x2)
    .word 0x26412303  # lw x6, 612(x2)
    .word 0x0062c5b3  # xor x11, x5, x6
    .word 0x1b012283  # lw x5, 432(x2)
    .word 0x0102c633  # xor x12, x5, x16
    .word 0x00159293  # slli x5, x11, 1
    .word 0x01f65313  # srli x6, x12, 31
    .word 0x0062e533  # or x10, x5, x6
    .word 0x00161293  # slli x5, x12, 1
    .word 0x01f5d313  # srli x6, x11, 31
    .word 0x0062e5b3  # or x11, x5, x6
    .word 0x1dc12283  # lw x5, 476(x2)
    .word 0x0112c6b3  # xor x13, x5, x17
    .word 0x1e012283  # lw x5, 480(x2)
    .word 0x0122cbb3  # xor x23, x5, x18
    .word 0x00669293  # slli x5, x13, 6
    .word 0x01abd313  # srli x6, x23, 26
    .word 0x0062e633  # or x12, x5, x6
    .word 0x006b9293  # slli x5, x23, 6
    .word 0x01a6d313  # srli x6, x13, 26
    .word 0x0062e6b3  # or x13, x5, x6
    .word 0x20412283  # lw x5, 516(x2)
    .word 0x0132cc33  # xor x24, x5, x19
    .word 0x20812283  # lw x5, 520(x2)
    .word 0x0142ccb3  # xor x25, x5, x20
    .word 0x019c1293  # slli x5, x24, 25
    .word 0x007cd313  # srli x6, x25, 7
    .word 0x0062ebb3  # or x23, x5, x6
    .word 0x019c9293  # slli x5, x25, 25
    .word 0x007c5313  # srli x6, x24, 7
    .word 0x0062ec33  # or x24, x5, x6
    .word 0x23412283  # lw x5, 564(x2)
    .word 0x0152ccb3  # xor x25, x5, x21
    .word 0x23812283  # lw x5, 568(x2)
    .word 0x0162cd33  # xor x26, x5, x22
    .word 0x008c9293  # slli x5, x25, 8
    .word 0x018d5313  # srli x6, x26, 24
    .word 0x0062edb3  # or x27, x5, x6
    .word 0x008d1293  # slli x5, x26, 8
    .word 0x018cd313  # srli x6, x25, 24
    .word 0x0062e4b3  # or x9, x5, x6
    .word 0x23c12283  # lw x5, 572(x2)
    .word 0x00e2cd33  # xor x26, x5, x14
    .word 0x24012283  # lw x5, 576(x2)
    .word 0x00f2c2b3  # xor x5, x5, x15
    .word 0x1a512623  # sw x5, 428(x2)
    .word 0x012d1293  # slli x5, x26, 18
    .word 0x1ac12303  # lw x6, 428(x2)
    .word 0x00e35313  # srli x6, x6, 14
    .word 0x0062ecb3  # or x25, x5, x6
    .word 0x1ac12283  # lw x5, 428(x2)
    .word 0x01229293  # slli x5, x5, 18
    .word 0x00ed5313  # srli x6, x26, 14
    .word 0x0062ed33  # or x26, x5, x6
    .word 0xfffdc293  # xori x5, x27, -1
    .word 0x1a512623  # sw x5, 428(x2)
    .word 0xfff4c293  # xori x5, x9, -1
    .word 0x1a512823  # sw x5, 432(x2)
    .word 0x017662b3  # or x5, x12, x23
    .word 0x00a2c2b3  # xor x5, x5, x10
    .word 0x1e512a23  # sw x5, 500(x2)
    .word 0x0186e2b3  # or x5, x13, x24
    .word 0x00b2c2b3  # xor x5, x5, x11
    .word 0x1e512c23  # sw x5, 504(x2)
    .word 0x01bbf2b3  # and x5, x23, x27
    .word 0x00c2c2b3  # xor x5, x5, x12
    .word 0x2a512023  # sw x5, 672(x2)
    .word 0x009c72b3  # and x5, x24, x9
    .word 0x00d2c2b3  # xor x5, x5, x13
    .word 0x2a512223  # sw x5, 676(x2)
    .word 0x1ac12283  # lw x5, 428(x2)
    .word 0x0192f2b3  # and x5, x5, x25
    .word 0x0172cdb3  # xor x27, x5, x23
    .word 0x1b012283  # lw x5, 432(x2)
    .word 0x01a2f2b3  # and x5, x5, x26
    .word 0x0182c4b3  # xor x9, x5, x24
    .word 0x00ace2b3  # or x5, x25, x10
    .word 0x1ac12303  # lw x6, 428(x2)
    .word 0x0062c2b3  # xor x5, x5, x6
    .word 0x20512223  # sw x5, 516(x2)
    .word 0x00bd62b3  # or x5, x26, x11
    .word 0x1b012303  # lw x6, 432(x2)
    .word 0x0062c2b3  # xor x5, x5, x6
    .word 0x20512423  # sw x5, 520(x2)
    .word 0x00c572b3  # and x5, x10, x12
    .word 0x0192c2b3  # xor x5, x5, x25
    .word 0x2a512423  # sw x5, 680(x2)
    .word 0x00d5f2b3  # and x5, x11, x13
    .word 0x01a2c2b3  # xor x5, x5, x26
    .word 0x2a512623  # sw x5, 684(x2)
    .word 0x1c412283  # lw x5, 452(x2)
    .word 0x0152c5b3  # xor x11, x5, x21
    .word 0x1c812283  # lw x5, 456(x2)
    .word 0x0162c633  # xor x12, x5, x22
    .word 0x01b59293  # slli x5, x11, 27
    .word 0x00565313  # srli x6, x12, 5
    .word 0x0062e533  # or x10, x5, x6
    .word 0x01b61293  # slli x5, x12, 27
    .word 0x0055d313  # srli x6, x11, 5
    .word 0x0062e5b3  # or x11, x5, x6
    .word 0x1cc12283  # lw x5, 460(x2)
    .word 0x00e2c6b3  # xor x13, x5, x14
    .word 0x1d012283  # lw x5, 464(x2)
    .word 0x00f2cbb3  # xor x23, x5, x15
    .word 0x004b9293  # slli x5, x23, 4
    .word 0x01c6d313  # srli x6, x13, 28
    .word 0x0062e633  # or x12, x5, x6
    .word 0x00469293  # slli x5, x13, 4
    .word 0x01cbd313  # srli x6, x23, 28
    .word 0x0062e6b3  # or x13, x5, x6
    .word 0x1fc12283  # lw x5, 508(x2)
    .word 0x26412303  # lw x6, 612(x2)
    .word 0x0062cc33  # xor x24, x5, x6
    .word 0x20012283  # lw x5, 512(x2)
    .word 0x0102ccb3  # xor x25, x5, x16
    .word 0x00ac1293  # slli x5, x24, 10
    .word 0x016cd313  # srli x6, x25, 22
    .word 0x0062ebb3  # or x23, x5, x6
    .word 0x00ac9293  # slli x5, x25, 10
    .word 0x016c5313  # srli x6, x24, 22
    .word 0x0062ec33  # or x24, x5, x6
    .word 0x22412283  # lw x5, 548(x2)
    .word 0x0112ccb3  # xor x25, x5, x17
    .word 0x22812283  # lw x5, 552(x2)
    .word 0x0122cd33  # xor x26, x5, x18
    .word 0x00fc9293  # slli x5, x25, 15
    .word 0x011d5313  # srli x6, x26, 17
    .word 0x0062e2b3  # or x5, x5, x6
    .word 0x1a512623  # sw x5, 428(x2)
    .word 0x00fd1293  # slli x5, x26, 15
    .word 0x011cd313  # srli x6, x25, 17
    .word 0x0062e2b3  # or x5, x5, x6
    .word 0x1a512823  # sw x5, 432(x2)
    .word 0x25412283  # lw x5, 596(x2)
    .word 0x0132cd33  # xor x26, x5, x19
    .word 0x25812283  # lw x5, 600(x2)
    .word 0x0142c2b3  # xor x5, x5, x20
    .word 0x1a512e23  # sw x5, 444(x2)
    .word 0x1bc12283  # lw x5, 444(x2)
    .word 0x01829293  # slli x5, x5, 24
    .word 0x008d5313  # srli x6, x26, 8
    .word 0x0062ecb3  # or x25, x5, x6
    .word 0x018d1293  # slli x5, x26, 24
    .word 0x1bc12303  # lw x6, 444(x2)
    .word 0x00835313  # srli x6, x6, 8
    .word 0x0062ed33  # or x26, x5, x6
    .word 0x1ac12283  # lw x5, 428(x2)
    .word 0xfff2c293  # xori x5, x5, -1
    .word 0x1a512e23  # sw x5, 444(x2)
    .word 0x1b012283  # lw x5, 432(x2)
    .word 0xfff2c293  # xori x5, x5, -1
    .word 0x1c512023  # sw x5, 448(x2)
    .word 0x017672b3  # and x5, x12, x23
    .word 0x00a2c2b3  # xor x5, x5, x10
    .word 0x2a512823  # sw x5, 688(x2)
    .word 0x0186f2b3  # and x5, x13, x24
    .word 0x00b2c2b3  # xor x5, x5, x11
    .word 0x2a512a23  # sw x5, 692(x2)
    .word 0x1ac12303  # lw x6, 428(x2)
    .word 0x006be2b3  # or x5, x23, x6
    .word 0x00c2c2b3  # xor x5, x5, x12
    .word 0x20512e23  # sw x5, 540(x2)
    .word 0x1b012303  # lw x6, 432(x2)
    .word 0x006c62b3  # or x5, x24, x6
    .word 0x00d2c2b3  # xor x5, x5, x13
    .word 0x22512023  # sw x5, 544(x2)
    .word 0x1bc12283  # lw x5, 444(x2)
    .word 0x0192e2b3  # or x5, x5, x25
    .word 0x0172c2b3  # xor x5, x5, x23
    .word 0x22512223  # sw x5, 548(x2)
    .word 0x1c012283  # lw x5, 448(x2)
    .word 0x01a2e2b3  # or x5, x5, x26
    .word 0x0182c2b3  # xor x5, x5, x24
    .word 0x22512423  # sw x5, 552(x2)
    .word 0x00acf2b3  # and x5, x25, x10
    .word 0x1bc12303  # lw x6, 444(x2)
    .word 0x0062c2b3  # xor x5, x5, x6
    .word 0x22512623  # sw x5, 556(x2)
    .word 0x00bd72b3  # and x5, x26, x11
    .word 0x1c012303  # lw x6, 448(x2)
    .word 0x0062c2b3  # xor x5, x5, x6
    .word 0x22512823  # sw x5, 560(x2)
    .word 0x00c562b3  # or x5, x10, x12
    .word 0x0192c2b3  # xor x5, x5, x25
    .word 0x22512a23  # sw x5, 564(x2)
    .word 0x00d5e2b3  # or x5, x11, x13
    .word 0x01a2c2b3  # xor x5, x5, x26
    .word 0x22512c23  # sw x5, 568(x2)
    .word 0x1b412283  # lw x5, 436(x2)
    .word 0x0112c533  # xor x10, x5, x17
    .word 0x1b812283  # lw x5, 440(x2)
    .word 0x0122c933  # xor x18, x5, x18
    .word 0x01e91293  # slli x5, x18, 30
    .word 0x00255313  # srli x6, x10, 2
    .word 0x0062e8b3  # or x17, x5, x6
    .word 0x01e51293  # slli x5, x10, 30
    .word 0x00295313  # srli x6, x18, 2
    .word 0x0062e933  # or x18, x5, x6
    .word 0x1e412283  # lw x5, 484(x2)
    .word 0x0132c9b3  # xor x19, x5, x19
    .word 0x1e812283  # lw x5, 488(x2)
    .word 0x0142ca33  # xor x20, x5, x20
    .word 0x017a1293  # slli x5, x20, 23
    .word 0x0099d313  # srli x6, x19, 9
    .word 0x0062e533  # or x10, x5, x6
    .word 0x01799293  # slli x5, x19, 23
    .word 0x009a5313  # srli x6, x20, 9
    .word 0x0062e5b3  # or x11, x5, x6
    .word 0x20c12283  # lw x5, 524(x2)
    .word 0x0152ca33  # xor x20, x5, x21
    .word 0x21012283  # lw x5, 528(x2)
    .word 0x0162cab3  # xor x21, x5, x22
    .word 0x007a9293  # slli x5, x21, 7
    .word 0x019a5313  # srli x6, x20, 25
    .word 0x0062e9b3  # or x19, x5, x6
    .word 0x007a1293  # slli x5, x20, 7
    .word 0x019ad313  # srli x6, x21, 25
    .word 0x0062ea33  # or x20, x5, x6
    .word 0x21412283  # lw x5, 532(x2)
    .word 0x00e2cab3  # xor x21, x5, x14
    .word 0x21812283  # lw x5, 536(x2)
    .word 0x00f2c7b3  # xor x15, x5, x15
    .word 0x00979293  # slli x5, x15, 9
    .word 0x017ad313  # srli x6, x21, 23
    .word 0x0062e733  # or x14, x5, x6
    .word 0x009a9293  # slli x5, x21, 9
    .word 0x0177d313  # srli x6, x15, 23
    .word 0x0062e7b3  # or x15, x5, x6
    .word 0x24412283  # lw x5, 580(x2)
    .word 0x26412303  # lw x6, 612(x2)
    .word 0x0062cab3  # xor x21, x5, x6
    .word 0x24812283  # lw x5, 584(x2)
    .word 0x0102c833  # xor x16, x5, x16
    .word 0x002a9293  # slli x5, x21, 2
    .word 0x01e85313  # srli x6, x16, 30
    .word 0x0062e2b3  # or x5, x5, x6
    .word 0x26512223  # sw x5, 612(x2)
    .word 0x00281293  # slli x5, x16, 2
    .word 0x01ead313  # srli x6, x21, 30
    .word 0x0062e833  # or x16, x5, x6
    .word 0xfff54a93  # xori x21, x10, -1
    .word 0xfff5cb13  # xori x22, x11, -1
    .word 0x013af2b3  # and x5, x21, x19
    .word 0x0112c2b3  # xor x5, x5, x17
    .word 0x22512e23  # sw x5, 572(x2)
    .word 0x014b72b3  # and x5, x22, x20
    .word 0x0122c2b3  # xor x5, x5, x18
    .word 0x24512023  # sw x5, 576(x2)
    .word 0x00e9e2b3  # or x5, x19, x14
    .word 0x0152c2b3  # xor x5, x5, x21
    .word 0x24512223  # sw x5, 580(x2)
    .word 0x00fa62b3  # or x5, x20, x15
    .word 0x0162c2b3  # xor x5, x5, x22
    .word 0x24512423  # sw x5, 584(x2)
    .word 0x26412303  # lw x6, 612(x2)
    .word 0x006772b3  # and x5, x14, x6
    .word 0x0132c2b3  # xor x5, x5, x19
    .word 0x24512623  # sw x5, 588(x2)
    .word 0x0107f2b3  # and x5, x15, x16
    .word 0x0142c2b3  # xor x5, x5, x20
    .word 0x24512823  # sw x5, 592(x2)
    .word 0x26412283  # lw x5, 612(x2)
    .word 0x0112e2b3  # or x5, x5, x17
    .word 0x00e2c2b3  # xor x5, x5, x14
    .word 0x24512a23  # sw x5, 596(x2)
    .word 0x012862b3  # or x5, x16, x18
    .word 0x00f2c2b3  # xor x5, x5, x15
    .word 0x24512c23  # sw x5, 600(x2)
    .word 0x00a8f2b3  # and x5, x17, x10
    .word 0x26412303  # lw x6, 612(x2)
    .word 0x0062c2b3  # xor x5, x5, x6
    .word 0x24512e23  # sw x5, 604(x2)
    .word 0x00b972b3  # and x5, x18, x11
    .word 0x0102c2b3  # xor x5, x5, x16
    .word 0x26512023  # sw x5, 608(x2)
    .word 0x26812283  # lw x5, 616(x2)
    .word 0x1a512623  # sw x5, 428(x2)
    .word 0x26c12283  # lw x5, 620(x2)
    .word 0x1a512823  # sw x5, 432(x2)
    .word 0x27012283  # lw x5, 624(x2)
    .word 0x1a512a23  # sw x5, 436(x2)
    .word 0x27412283  # lw x5, 628(x2)
    .word 0x1a512c23  # sw x5, 440(x2)
    .word 0x27812283  # lw x5, 632(x2)
    .word 0x1a512e23  # sw x5, 444(x2)
    .word 0x27c12283  # lw x5, 636(x2)
    .word 0x1c512023  # sw x5, 448(x2)
    .word 0x28012283  # lw x5, 640(x2)
    .word 0x1c512223  # sw x5, 452(x2)
    .word 0x28412283  # lw x5, 644(x2)
    .word 0x1c512423  # sw x5, 456(x2)
    .word 0x28812283  # lw x5, 648(x2)
    .word 0x1c512623  # sw x5, 460(x2)
    .word 0x28c12283  # lw x5, 652(x2)
    .word 0x1c512823  # sw x5, 464(x2)
    .word 0x29012283  # lw x5, 656(x2)
    .word 0x1c512e23  # sw x5, 476(x2)
    .word 0x29412283  # lw x5, 660(x2)
    .word 0x1e512023  # sw x5, 480(x2)
    .word 0x29812283  # lw x5, 664(x2)
    .word 0x1e512223  # sw x5, 484(x2)
    .word 0x29c12283  # lw x5, 668(x2)
    .word 0x1e512423  # sw x5, 488(x2)
    .word 0x2a012283  # lw x5, 672(x2)
    .word 0x1e512e23  # sw x5, 508(x2)
    .word 0x2a412283  # lw x5, 676(x2)
    .word 0x20512023  # sw x5, 512(x2)
    .word 0x2a812283  # lw x5, 680(x2)
    .word 0x20512623  # sw x5, 524(x2)
    .word 0x2ac12283  # lw x5, 684(x2)
    .word 0x20512823  # sw x5, 528(x2)
    .word 0x2b012283  # lw x5, 688(x2)
    .word 0x20512a23  # sw x5, 532(x2)
    .word 0x2b412283  # lw x5, 692(x2)
    .word 0x20512c23  # sw x5, 536(x2)
    .word 0xe34ff06f  # jal x0, -2508
    .word 0x1a412703  # lw x14, 420(x2)
    .word 0x1a812783  # lw x15, 424(x2)
    .word 0x1ac12283  # lw x5, 428(x2)
    .word 0xfff2c293  # xori x5, x5, -1
    .word 0x26512223  # sw x5, 612(x2)
    .word 0x1b012283  # lw x5, 432(x2)
    .word 0xfff2c813  # xori x16, x5, -1
    .word 0x1b412283  # lw x5, 436(x2)
    .word 0xfff2c893  # xori x17, x5, -1
    .word 0x1b812283  # lw x5, 440(x2)
    .word 0xfff2c913  # xori x18, x5, -1
    .word 0x1bc12983  # lw x19, 444(x2)
    .word 0x1c012a03  # lw x20, 448(x2)
    .word 0x08e12623  # sw x14, 140(x2)
    .word 0x00078713  # addi x14, x15, 0
    .word 0x08e12823  # sw x14, 144(x2)
    .word 0x26412703  # lw x14, 612(x2)
    .word 0x08e12a23  # sw x14, 148(x2)
    .word 0x00080713  # addi x14, x16, 0
    .word 0x08e12c23  # sw x14, 152(x2)
    .word 0x00088713  # addi x14, x17, 0
    .word 0x08e12e23  # sw x14, 156(x2)
    .word 0x00090713  # addi x14, x18, 0
    .word 0x0ae12023  # sw x14, 160(x2)
    .word 0x00098713  # addi x14, x19, 0
    .word 0x0ae12223  # sw x14, 164(x2)
    .word 0x000a0713  # addi x14, x20, 0
    .word 0x0ae12423  # sw x14, 168(x2)
    # the result
    .word 0x00000513  # addi x10, x0, 0
    # parameter 2: the array, back
    .word 0x08c10293  # addi x5, x2, 140
    .word 0x30c12303  # lw x6, 780(x2)
    .word 0x02028393  # addi x7, x5, 32
    .word 0x08c00f6f  # jal x30, 140
    # above the frame
    .word 0x2d010293  # addi x5, x2, 720
    # the caller's registers
    .word 0x0002a483  # lw x9, 0(x5)
    .cfi_restore 9
    .word 0x0042a903  # lw x18, 4(x5)
    .cfi_restore 18
    .word 0x0082a983  # lw x19, 8(x5)
    .cfi_restore 19
    .word 0x00c2aa03  # lw x20, 12(x5)
    .cfi_restore 20
    .word 0x0102aa83  # lw x21, 16(x5)
    .cfi_restore 21
    .word 0x0142ab03  # lw x22, 20(x5)
    .cfi_restore 22
    .word 0x0182ab83  # lw x23, 24(x5)
    .cfi_restore 23
    .word 0x01c2ac03  # lw x24, 28(x5)
    .cfi_restore 24
    .word 0x0202ac83  # lw x25, 32(x5)
    .cfi_restore 25
    .word 0x0242ad03  # lw x26, 36(x5)
    .cfi_restore 26
    .word 0x0282ad83  # lw x27, 40(x5)
    .cfi_restore 27
    # the caller's x2
    .word 0x04028293  # addi x5, x5, 64
    .cfi_def_cfa 5, 0
    # all the room, wiped upward
    .word 0x00012023  # sw x0, 0(x2)
    .word 0x00012223  # sw x0, 4(x2)
    .word 0x00012423  # sw x0, 8(x2)
    .word 0x00012623  # sw x0, 12(x2)
    .word 0x01010113  # addi x2, x2, 16
    .word 0xfe5116e3  # bne x2, x5, -20
    .cfi_def_cfa 2, 0
    # temporaries, wiped
    .word 0x00000293  # addi x5, x0, 0
    .word 0x00000313  # addi x6, x0, 0
    .word 0x00000393  # addi x7, x0, 0
    .word 0x00000593  # addi x11, x0, 0
    .word 0x00000613  # addi x12, x0, 0
    .word 0x00000693  # addi x13, x0, 0
    .word 0x00000713  # addi x14, x0, 0
    .word 0x00000793  # addi x15, x0, 0
    .word 0x00000813  # addi x16, x0, 0
    .word 0x00000893  # addi x17, x0, 0
    .word 0x00000e13  # addi x28, x0, 0
    .word 0x00000e93  # addi x29, x0, 0
    .word 0x00000f13  # addi x30, x0, 0
    .word 0x00000f93  # addi x31, x0, 0
    # back
    .word 0x00008067  # jalr x0, 0(x1)
    # from x5 to x6 up to x7, and back
    .cfi_def_cfa 2, 784
    .cfi_offset 9, -64
    .cfi_offset 18, -60
    .cfi_offset 19, -56
    .cfi_offset 20, -52
    .cfi_offset 21, -48
    .cfi_offset 22, -44
    .cfi_offset 23, -40
    .cfi_offset 24, -36
    .cfi_offset 25, -32
    .cfi_offset 26, -28
    .cfi_offset 27, -24
    .word 0x0062ee33  # or x28, x5, x6
    .word 0x003e7e13  # andi x28, x28, 3
    .word 0x000e0e63  # beq x28, x0, 28
    .word 0x0002ce03  # lbu x28, 0(x5)
    .word 0x01c30023  # sb x28, 0(x6)
    .word 0x00128293  # addi x5, x5, 1
    .word 0x00130313  # addi x6, x6, 1
    .word 0xfe7298e3  # bne x5, x7, -16
    .word 0x0180006f  # jal x0, 24
    .word 0x0002ae03  # lw x28, 0(x5)
    .word 0x01c32023  # sw x28, 0(x6)
    .word 0x00428293  # addi x5, x5, 4
    .word 0x00430313  # addi x6, x6, 4
    .word 0xfe7298e3  # bne x5, x7, -16
    .word 0x000f0067  # jalr x0, 0(x30)
    .cfi_endproc
    .size sha3_256_short, . - sha3_256_short
    .option pop
