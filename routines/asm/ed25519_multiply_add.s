# ed25519_multiply_add: made by factc 1.0.0 function; 1112 words, 320 bytes of stack, profile 1
    .option push
    .option norvc
    .option norelax
    .cfi_sections .debug_frame
    .section .text.ed25519_multiply_add, "ax", @progbits
    .p2align 2
    .globl ed25519_multiply_add
    .type ed25519_multiply_add, @function
ed25519_multiply_add:
    .cfi_startproc
    # room above the frame
    .word 0xfc010113  # addi x2, x2, -64
    .cfi_def_cfa_offset 64
    # the caller's registers
    .word 0x00912023  # sw x9, 0(x2)
    .cfi_offset 9, -64
    .word 0x01212223  # sw x18, 4(x2)
    .cfi_offset 18, -60
    .word 0x01312423  # sw x19, 8(x2)
    .cfi_offset 19, -56
    .word 0x01412623  # sw x20, 12(x2)
    .cfi_offset 20, -52
    .word 0x01512823  # sw x21, 16(x2)
    .cfi_offset 21, -48
    .word 0x01612a23  # sw x22, 20(x2)
    .cfi_offset 22, -44
    .word 0x01712c23  # sw x23, 24(x2)
    .cfi_offset 23, -40
    .word 0x01812e23  # sw x24, 28(x2)
    .cfi_offset 24, -36
    .word 0x03912023  # sw x25, 32(x2)
    .cfi_offset 25, -32
    .word 0x03a12223  # sw x26, 36(x2)
    .cfi_offset 26, -28
    .word 0x03b12423  # sw x27, 40(x2)
    .cfi_offset 27, -24
    # arguments that are needed behind the body
    .word 0x02a12823  # sw x10, 48(x2)
    .word 0x02b12a23  # sw x11, 52(x2)
    .word 0x02c12c23  # sw x12, 56(x2)
    .word 0x02d12e23  # sw x13, 60(x2)
    # the frame's base
    .word 0xf0010113  # addi x2, x2, -256
    .cfi_def_cfa 2, 320
    # parameter 0: an array
    .word 0x00050293  # addi x5, x10, 0
    .word 0x00010313  # addi x6, x2, 0
    .word 0x02028393  # addi x7, x5, 32
    .word 0x0bc01f6f  # jal x30, 4284
    # parameter 1: an array
    .word 0x00058293  # addi x5, x11, 0
    .word 0x02010313  # addi x6, x2, 32
    .word 0x02028393  # addi x7, x5, 32
    .word 0x0ac01f6f  # jal x30, 4268
    # parameter 2: an array
    .word 0x00060293  # addi x5, x12, 0
    .word 0x04010313  # addi x6, x2, 64
    .word 0x02028393  # addi x7, x5, 32
    .word 0x09c01f6f  # jal x30, 4252
    # the body
    .word 0x5cf5dcb7  # lui x25, 0x5cf5d
    .word 0x3edc8c93  # addi x25, x25, 1005
    .word 0x58126d37  # lui x26, 0x58126
    .word 0x31ad0d13  # addi x26, x26, 794
    .word 0xa2f7adb7  # lui x27, 0xa2f7a
    .word 0xcd6d8d93  # addi x27, x27, -810
    .word 0x14df04b7  # lui x9, 0x14df0
    .word 0x9de48493  # addi x9, x9, -1570
    .word 0x08000313  # addi x6, x0, 128
    .word 0x00230333  # add x6, x6, x2
    .word 0x02000393  # addi x7, x0, 32
    .word 0x006383b3  # add x7, x7, x6
    .word 0x406382b3  # sub x5, x7, x6
    .word 0x00029463  # bne x5, x0, 8
    .word 0x0100006f  # jal x0, 16
    .word 0x00032023  # sw x0, 0(x6)
    .word 0x00430313  # addi x6, x6, 4
    .word 0xfedff06f  # jal x0, -20
    .word 0x00000793  # addi x15, x0, 0
    .word 0x00000813  # addi x16, x0, 0
    .word 0x0a012223  # sw x0, 164(x2)
    .word 0x0a012423  # sw x0, 168(x2)
    .word 0x0a012623  # sw x0, 172(x2)
    .word 0x0a012823  # sw x0, 176(x2)
    .word 0x0a012a23  # sw x0, 180(x2)
    .word 0x0a012c23  # sw x0, 184(x2)
    .word 0x00012283  # lw x5, 0(x2)
    .word 0x08512023  # sw x5, 128(x2)
    .word 0x02012883  # lw x17, 32(x2)
    .word 0x00412283  # lw x5, 4(x2)
    .word 0x08512223  # sw x5, 132(x2)
    .word 0x02412903  # lw x18, 36(x2)
    .word 0x00812283  # lw x5, 8(x2)
    .word 0x08512423  # sw x5, 136(x2)
    .word 0x02812983  # lw x19, 40(x2)
    .word 0x00c12283  # lw x5, 12(x2)
    .word 0x08512623  # sw x5, 140(x2)
    .word 0x02c12a03  # lw x20, 44(x2)
    .word 0x01012283  # lw x5, 16(x2)
    .word 0x08512823  # sw x5, 144(x2)
    .word 0x03012a83  # lw x21, 48(x2)
    .word 0x01412283  # lw x5, 20(x2)
    .word 0x08512a23  # sw x5, 148(x2)
    .word 0x03412b03  # lw x22, 52(x2)
    .word 0x01812283  # lw x5, 24(x2)
    .word 0x08512c23  # sw x5, 152(x2)
    .word 0x03812b83  # lw x23, 56(x2)
    .word 0x01c12283  # lw x5, 28(x2)
    .word 0x08512e23  # sw x5, 156(x2)
    .word 0x03c12c03  # lw x24, 60(x2)
    .word 0x0e012823  # sw x0, 240(x2)
    .word 0x00800293  # addi x5, x0, 8
    .word 0x0e512a23  # sw x5, 244(x2)
    .word 0x0f012303  # lw x6, 240(x2)
    .word 0x0f412283  # lw x5, 244(x2)
    .word 0x005332b3  # sltu x5, x6, x5
    .word 0x00029463  # bne x5, x0, 8
    .word 0x16c0006f  # jal x0, 364
    .word 0x0a612023  # sw x6, 160(x2)
    .word 0x00130313  # addi x6, x6, 1
    .word 0x0e612823  # sw x6, 240(x2)
    .word 0x0a012283  # lw x5, 160(x2)
    .word 0x00229513  # slli x10, x5, 2
    .word 0x00250533  # add x10, x10, x2
    .word 0x08052503  # lw x10, 128(x10)
    .word 0x03150633  # mul x12, x10, x17
    .word 0x031536b3  # mulhu x13, x10, x17
    .word 0x00c78733  # add x14, x15, x12
    .word 0x0a012283  # lw x5, 160(x2)
    .word 0x00229293  # slli x5, x5, 2
    .word 0x002282b3  # add x5, x5, x2
    .word 0x08e2a023  # sw x14, 128(x5)
    .word 0x00c73333  # sltu x6, x14, x12
    .word 0x006685b3  # add x11, x13, x6
    .word 0x03250633  # mul x12, x10, x18
    .word 0x032536b3  # mulhu x13, x10, x18
    .word 0x00c80733  # add x14, x16, x12
    .word 0x00b707b3  # add x15, x14, x11
    .word 0x00c73333  # sltu x6, x14, x12
    .word 0x006682b3  # add x5, x13, x6
    .word 0x00b7b333  # sltu x6, x15, x11
    .word 0x006285b3  # add x11, x5, x6
    .word 0x03350633  # mul x12, x10, x19
    .word 0x033536b3  # mulhu x13, x10, x19
    .word 0x0a412283  # lw x5, 164(x2)
    .word 0x00c28733  # add x14, x5, x12
    .word 0x00b70833  # add x16, x14, x11
    .word 0x00c73333  # sltu x6, x14, x12
    .word 0x006682b3  # add x5, x13, x6
    .word 0x00b83333  # sltu x6, x16, x11
    .word 0x006285b3  # add x11, x5, x6
    .word 0x03450633  # mul x12, x10, x20
    .word 0x034536b3  # mulhu x13, x10, x20
    .word 0x0a812283  # lw x5, 168(x2)
    .word 0x00c28733  # add x14, x5, x12
    .word 0x00b702b3  # add x5, x14, x11
    .word 0x0a512223  # sw x5, 164(x2)
    .word 0x00c73333  # sltu x6, x14, x12
    .word 0x006682b3  # add x5, x13, x6
    .word 0x0a412303  # lw x6, 164(x2)
    .word 0x00b33333  # sltu x6, x6, x11
    .word 0x006285b3  # add x11, x5, x6
    .word 0x03550633  # mul x12, x10, x21
    .word 0x035536b3  # mulhu x13, x10, x21
    .word 0x0ac12283  # lw x5, 172(x2)
    .word 0x00c28733  # add x14, x5, x12
    .word 0x00b702b3  # add x5, x14, x11
    .word 0x0a512423  # sw x5, 168(x2)
    .word 0x00c73333  # sltu x6, x14, x12
    .word 0x006682b3  # add x5, x13, x6
    .word 0x0a812303  # lw x6, 168(x2)
    .word 0x00b33333  # sltu x6, x6, x11
    .word 0x006285b3  # add x11, x5, x6
    .word 0x03650633  # mul x12, x10, x22
    .word 0x036536b3  # mulhu x13, x10, x22
    .word 0x0b012283  # lw x5, 176(x2)
    .word 0x00c28733  # add x14, x5, x12
    .word 0x00b702b3  # add x5, x14, x11
    .word 0x0a512623  # sw x5, 172(x2)
    .word 0x00c73333  # sltu x6, x14, x12
    .word 0x006682b3  # add x5, x13, x6
    .word 0x0ac12303  # lw x6, 172(x2)
    .word 0x00b33333  # sltu x6, x6, x11
    .word 0x006285b3  # add x11, x5, x6
    .word 0x03750633  # mul x12, x10, x23
    .word 0x037536b3  # mulhu x13, x10, x23
    .word 0x0b412283  # lw x5, 180(x2)
    .word 0x00c28733  # add x14, x5, x12
    .word 0x00b702b3  # add x5, x14, x11
    .word 0x0a512823  # sw x5, 176(x2)
    .word 0x00c73333  # sltu x6, x14, x12
    .word 0x006682b3  # add x5, x13, x6
    .word 0x0b012303  # lw x6, 176(x2)
    .word 0x00b33333  # sltu x6, x6, x11
    .word 0x006285b3  # add x11, x5, x6
    .word 0x03850633  # mul x12, x10, x24
    .word 0x038536b3  # mulhu x13, x10, x24
    .word 0x0b812283  # lw x5, 184(x2)
    .word 0x00c28733  # add x14, x5, x12
    .word 0x00b702b3  # add x5, x14, x11
    .word 0x0a512a23  # sw x5, 180(x2)
    .word 0x00c73333  # sltu x6, x14, x12
    .word 0x006682b3  # add x5, x13, x6
    .word 0x0b412303  # lw x6, 180(x2)
    .word 0x00b33333  # sltu x6, x6, x11
    .word 0x006285b3  # add x11, x5, x6
    .word 0x0ab12c23  # sw x11, 184(x2)
    .word 0xe89ff06f  # jal x0, -376
    .word 0x04012583  # lw x11, 64(x2)
    .word 0x08012283  # lw x5, 128(x2)
    .word 0x00b28633  # add x12, x5, x11
    .word 0x0ac12e23  # sw x12, 188(x2)
    .word 0x00b63533  # sltu x10, x12, x11
    .word 0x04412583  # lw x11, 68(x2)
    .word 0x08412283  # lw x5, 132(x2)
    .word 0x00b28633  # add x12, x5, x11
    .word 0x00a602b3  # add x5, x12, x10
    .word 0x0c512023  # sw x5, 192(x2)
    .word 0x00b632b3  # sltu x5, x12, x11
    .word 0x0c012303  # lw x6, 192(x2)
    .word 0x00a33333  # sltu x6, x6, x10
    .word 0x00628533  # add x10, x5, x6
    .word 0x04812583  # lw x11, 72(x2)
    .word 0x08812283  # lw x5, 136(x2)
    .word 0x00b28633  # add x12, x5, x11
    .word 0x00a602b3  # add x5, x12, x10
    .word 0x0c512223  # sw x5, 196(x2)
    .word 0x00b632b3  # sltu x5, x12, x11
    .word 0x0c412303  # lw x6, 196(x2)
    .word 0x00a33333  # sltu x6, x6, x10
    .word 0x00628533  # add x10, x5, x6
    .word 0x04c12583  # lw x11, 76(x2)
    .word 0x08c12283  # lw x5, 140(x2)
    .word 0x00b28633  # add x12, x5, x11
    .word 0x00a602b3  # add x5, x12, x10
    .word 0x0c512423  # sw x5, 200(x2)
    .word 0x00b632b3  # sltu x5, x12, x11
    .word 0x0c812303  # lw x6, 200(x2)
    .word 0x00a33333  # sltu x6, x6, x10
    .word 0x00628533  # add x10, x5, x6
    .word 0x05012583  # lw x11, 80(x2)
    .word 0x09012283  # lw x5, 144(x2)
    .word 0x00b28633  # add x12, x5, x11
    .word 0x00a602b3  # add x5, x12, x10
    .word 0x0c512623  # sw x5, 204(x2)
    .word 0x00b632b3  # sltu x5, x12, x11
    .word 0x0cc12303  # lw x6, 204(x2)
    .word 0x00a33333  # sltu x6, x6, x10
    .word 0x00628533  # add x10, x5, x6
    .word 0x05412583  # lw x11, 84(x2)
    .word 0x09412283  # lw x5, 148(x2)
    .word 0x00b28633  # add x12, x5, x11
    .word 0x00a602b3  # add x5, x12, x10
    .word 0x0c512823  # sw x5, 208(x2)
    .word 0x00b632b3  # sltu x5, x12, x11
    .word 0x0d012303  # lw x6, 208(x2)
    .word 0x00a33333  # sltu x6, x6, x10
    .word 0x00628533  # add x10, x5, x6
    .word 0x05812583  # lw x11, 88(x2)
    .word 0x09812283  # lw x5, 152(x2)
    .word 0x00b28633  # add x12, x5, x11
    .word 0x00a602b3  # add x5, x12, x10
    .word 0x0c512a23  # sw x5, 212(x2)
    .word 0x00b632b3  # sltu x5, x12, x11
    .word 0x0d412303  # lw x6, 212(x2)
    .word 0x00a33333  # sltu x6, x6, x10
    .word 0x00628533  # add x10, x5, x6
    .word 0x05c12583  # lw x11, 92(x2)
    .word 0x09c12283  # lw x5, 156(x2)
    .word 0x00b28633  # add x12, x5, x11
    .word 0x00a602b3  # add x5, x12, x10
    .word 0x0c512c23  # sw x5, 216(x2)
    .word 0x00b632b3  # sltu x5, x12, x11
    .word 0x0d812303  # lw x6, 216(x2)
    .word 0x00a33333  # sltu x6, x6, x10
    .word 0x00628533  # add x10, x5, x6
    .word 0x00a785b3  # add x11, x15, x10
    .word 0x00a5b533  # sltu x10, x11, x10
    .word 0x00a80633  # add x12, x16, x10
    .word 0x00a63533  # sltu x10, x12, x10
    .word 0x0a412283  # lw x5, 164(x2)
    .word 0x00a28733  # add x14, x5, x10
    .word 0x00a73533  # sltu x10, x14, x10
    .word 0x0a812283  # lw x5, 168(x2)
    .word 0x00a286b3  # add x13, x5, x10
    .word 0x00a6b533  # sltu x10, x13, x10
    .word 0x0ac12283  # lw x5, 172(x2)
    .word 0x00a28b33  # add x22, x5, x10
    .word 0x00ab3533  # sltu x10, x22, x10
    .word 0x0b012283  # lw x5, 176(x2)
    .word 0x00a28bb3  # add x23, x5, x10
    .word 0x00abb533  # sltu x10, x23, x10
    .word 0x0b412283  # lw x5, 180(x2)
    .word 0x00a28c33  # add x24, x5, x10
    .word 0x00ac3533  # sltu x10, x24, x10
    .word 0x0b812283  # lw x5, 184(x2)
    .word 0x00a28533  # add x10, x5, x10
    .word 0x0d812283  # lw x5, 216(x2)
    .word 0x01c2d293  # srli x5, x5, 28
    .word 0x00459313  # slli x6, x11, 4
    .word 0x0062e8b3  # or x17, x5, x6
    .word 0x01c5d293  # srli x5, x11, 28
    .word 0x00461313  # slli x6, x12, 4
    .word 0x0062e933  # or x18, x5, x6
    .word 0x01c65293  # srli x5, x12, 28
    .word 0x00471313  # slli x6, x14, 4
    .word 0x0062e9b3  # or x19, x5, x6
    .word 0x01c75293  # srli x5, x14, 28
    .word 0x00469313  # slli x6, x13, 4
    .word 0x0062ea33  # or x20, x5, x6
    .word 0x01c6d293  # srli x5, x13, 28
    .word 0x004b1313  # slli x6, x22, 4
    .word 0x0062eab3  # or x21, x5, x6
    .word 0x01cb5293  # srli x5, x22, 28
    .word 0x004b9313  # slli x6, x23, 4
    .word 0x0062eb33  # or x22, x5, x6
    .word 0x01cbd293  # srli x5, x23, 28
    .word 0x004c1313  # slli x6, x24, 4
    .word 0x0062ebb3  # or x23, x5, x6
    .word 0x01cc5293  # srli x5, x24, 28
    .word 0x00451313  # slli x6, x10, 4
    .word 0x0062ec33  # or x24, x5, x6
    .word 0x01c55793  # srli x15, x10, 28
    .word 0x03988733  # mul x14, x17, x25
    .word 0x0398b533  # mulhu x10, x17, x25
    .word 0x00e73333  # sltu x6, x14, x14
    .word 0x00650533  # add x10, x10, x6
    .word 0x00a536b3  # sltu x13, x10, x10
    .word 0x00070813  # addi x16, x14, 0
    .word 0x00050593  # addi x11, x10, 0
    .word 0x00068613  # addi x12, x13, 0
    .word 0x03990733  # mul x14, x18, x25
    .word 0x03993533  # mulhu x10, x18, x25
    .word 0x00e585b3  # add x11, x11, x14
    .word 0x00e5b333  # sltu x6, x11, x14
    .word 0x00650533  # add x10, x10, x6
    .word 0x00a60633  # add x12, x12, x10
    .word 0x00a636b3  # sltu x13, x12, x10
    .word 0x03a88733  # mul x14, x17, x26
    .word 0x03a8b533  # mulhu x10, x17, x26
    .word 0x00e585b3  # add x11, x11, x14
    .word 0x00e5b333  # sltu x6, x11, x14
    .word 0x00650533  # add x10, x10, x6
    .word 0x00a60633  # add x12, x12, x10
    .word 0x00a63333  # sltu x6, x12, x10
    .word 0x006686b3  # add x13, x13, x6
    .word 0x0ab12223  # sw x11, 164(x2)
    .word 0x00060593  # addi x11, x12, 0
    .word 0x00068613  # addi x12, x13, 0
    .word 0x03998733  # mul x14, x19, x25
    .word 0x0399b533  # mulhu x10, x19, x25
    .word 0x00e585b3  # add x11, x11, x14
    .word 0x00e5b333  # sltu x6, x11, x14
    .word 0x00650533  # add x10, x10, x6
    .word 0x00a60633  # add x12, x12, x10
    .word 0x00a636b3  # sltu x13, x12, x10
    .word 0x03a90733  # mul x14, x18, x26
    .word 0x03a93533  # mulhu x10, x18, x26
    .word 0x00e585b3  # add x11, x11, x14
    .word 0x00e5b333  # sltu x6, x11, x14
    .word 0x00650533  # add x10, x10, x6
    .word 0x00a60633  # add x12, x12, x10
    .word 0x00a63333  # sltu x6, x12, x10
    .word 0x006686b3  # add x13, x13, x6
    .word 0x03b88733  # mul x14, x17, x27
    .word 0x03b8b533  # mulhu x10, x17, x27
    .word 0x00e585b3  # add x11, x11, x14
    .word 0x00e5b333  # sltu x6, x11, x14
    .word 0x00650533  # add x10, x10, x6
    .word 0x00a60633  # add x12, x12, x10
    .word 0x00a63333  # sltu x6, x12, x10
    .word 0x006686b3  # add x13, x13, x6
    .word 0x0ab12423  # sw x11, 168(x2)
    .word 0x00060593  # addi x11, x12, 0
    .word 0x00068613  # addi x12, x13, 0
    .word 0x039a0733  # mul x14, x20, x25
    .word 0x039a3533  # mulhu x10, x20, x25
    .word 0x00e585b3  # add x11, x11, x14
    .word 0x00e5b333  # sltu x6, x11, x14
    .word 0x00650533  # add x10, x10, x6
    .word 0x00a60633  # add x12, x12, x10
    .word 0x00a636b3  # sltu x13, x12, x10
    .word 0x03a98733  # mul x14, x19, x26
    .word 0x03a9b533  # mulhu x10, x19, x26
    .word 0x00e585b3  # add x11, x11, x14
    .word 0x00e5b333  # sltu x6, x11, x14
    .word 0x00650533  # add x10, x10, x6
    .word 0x00a60633  # add x12, x12, x10
    .word 0x00a63333  # sltu x6, x12, x10
    .word 0x006686b3  # add x13, x13, x6
    .word 0x03b90733  # mul x14, x18, x27
    .word 0x03b93533  # mulhu x10, x18, x27
    .word 0x00e585b3  # add x11, x11, x14
    .word 0x00e5b333  # sltu x6, x11, x14
    .word 0x00650533  # add x10, x10, x6
    .word 0x00a60633  # add x12, x12, x10
    .word 0x00a63333  # sltu x6, x12, x10
    .word 0x006686b3  # add x13, x13, x6
    .word 0x02988733  # mul x14, x17, x9
    .word 0x0298b533  # mulhu x10, x17, x9
    .word 0x00e585b3  # add x11, x11, x14
    .word 0x00e5b333  # sltu x6, x11, x14
    .word 0x00650533  # add x10, x10, x6
    .word 0x00a60633  # add x12, x12, x10
    .word 0x00a63333  # sltu x6, x12, x10
    .word 0x006686b3  # add x13, x13, x6
    .word 0x0ab12623  # sw x11, 172(x2)
    .word 0x00060593  # addi x11, x12, 0
    .word 0x00068613  # addi x12, x13, 0
    .word 0x039a8733  # mul x14, x21, x25
    .word 0x039ab533  # mulhu x10, x21, x25
    .word 0x00e585b3  # add x11, x11, x14
    .word 0x00e5b333  # sltu x6, x11, x14
    .word 0x00650533  # add x10, x10, x6
    .word 0x00a60633  # add x12, x12, x10
    .word 0x00a636b3  # sltu x13, x12, x10
    .word 0x03aa0733  # mul x14, x20, x26
    .word 0x03aa3533  # mulhu x10, x20, x26
    .word 0x00e585b3  # add x11, x11, x14
    .word 0x00e5b333  # sltu x6, x11, x14
    .word 0x00650533  # add x10, x10, x6
    .word 0x00a60633  # add x12, x12, x10
    .word 0x00a63333  # sltu x6, x12, x10
    .word 0x006686b3  # add x13, x13, x6
    .word 0x03b98733  # mul x14, x19, x27
    .word 0x03b9b533  # mulhu x10, x19, x27
    .word 0x00e585b3  # add x11, x11, x14
    .word 0x00e5b333  # sltu x6, x11, x14
    .word 0x00650533  # add x10, x10, x6
    .word 0x00a60633  # add x12, x12, x10
    .word 0x00a63333  # sltu x6, x12, x10
    .word 0x006686b3  # add x13, x13, x6
    .word 0x02990733  # mul x14, x18, x9
    .word 0x02993533  # mulhu x10, x18, x9
    .word 0x00e585b3  # add x11, x11, x14
    .word 0x00e5b333  # sltu x6, x11, x14
    .word 0x00650533  # add x10, x10, x6
    .word 0x00a60633  # add x12, x12, x10
    .word 0x00a63333  # sltu x6, x12, x10
    .word 0x006686b3  # add x13, x13, x6
    .word 0x0ab12823  # sw x11, 176(x2)
    .word 0x00060593  # addi x11, x12, 0
    .word 0x00068613  # addi x12, x13, 0
    .word 0x039b0733  # mul x14, x22, x25
    .word 0x039b3533  # mulhu x10, x22, x25
    .word 0x00e585b3  # add x11, x11, x14
    .word 0x00e5b333  # sltu x6, x11, x14
    .word 0x00650533  # add x10, x10, x6
    .word 0x00a60633  # add x12, x12, x10
    .word 0x00a636b3  # sltu x13, x12, x10
    .word 0x03aa8733  # mul x14, x21, x26
    .word 0x03aab533  # mulhu x10, x21, x26
    .word 0x00e585b3  # add x11, x11, x14
    .word 0x00e5b333  # sltu x6, x11, x14
    .word 0x00650533  # add x10, x10, x6
    .word 0x00a60633  # add x12, x12, x10
    .word 0x00a63333  # sltu x6, x12, x10
    .word 0x006686b3  # add x13, x13, x6
    .word 0x03ba0733  # mul x14, x20, x27
    .word 0x03ba3533  # mulhu x10, x20, x27
    .word 0x00e585b3  # add x11, x11, x14
    .word 0x00e5b333  # sltu x6, x11, x14
    .word 0x00650533  # add x10, x10, x6
    .word 0x00a60633  # add x12, x12, x10
    .word 0x00a63333  # sltu x6, x12, x10
    .word 0x006686b3  # add x13, x13, x6
    .word 0x02998733  # mul x14, x19, x9
    .word 0x0299b533  # mulhu x10, x19, x9
    .word 0x00e585b3  # add x11, x11, x14
    .word 0x00e5b333  # sltu x6, x11, x14
    .word 0x00650533  # add x10, x10, x6
    .word 0x00a60633  # add x12, x12, x10
    .word 0x00a63333  # sltu x6, x12, x10
    .word 0x006686b3  # add x13, x13, x6
    .word 0x0ab12a23  # sw x11, 180(x2)
    .word 0x00060593  # addi x11, x12, 0
    .word 0x00068613  # addi x12, x13, 0
    .word 0x039b8733  # mul x14, x23, x25
    .word 0x039bb533  # mulhu x10, x23, x25
    .word 0x00e585b3  # add x11, x11, x14
    .word 0x00e5b333  # sltu x6, x11, x14
    .word 0x00650533  # add x10, x10, x6
    .word 0x00a60633  # add x12, x12, x10
    .word 0x00a636b3  # sltu x13, x12, x10
    .word 0x03ab0733  # mul x14, x22, x26
    .word 0x03ab3533  # mulhu x10, x22, x26
    .word 0x00e585b3  # add x11, x11, x14
    .word 0x00e5b333  # sltu x6, x11, x14
    .word 0x00650533  # add x10, x10, x6
    .word 0x00a60633  # add x12, x12, x10
    .word 0x00a63333  # sltu x6, x12, x10
    .word 0x006686b3  # add x13, x13, x6
    .word 0x03ba8733  # mul x14, x21, x27
    .word 0x03bab533  # mulhu x10, x21, x27
    .word 0x00e585b3  # add x11, x11, x14
    .word 0x00e5b333  # sltu x6, x11, x14
    .word 0x00650533  # add x10, x10, x6
    .word 0x00a60633  # add x12, x12, x10
    .word 0x00a63333  # sltu x6, x12, x10
    .word 0x006686b3  # add x13, x13, x6
    .word 0x029a0733  # mul x14, x20, x9
    .word 0x029a3533  # mulhu x10, x20, x9
    .word 0x00e585b3  # add x11, x11, x14
    .word 0x00e5b333  # sltu x6, x11, x14
    .word 0x00650533  # add x10, x10, x6
    .word 0x00a60633  # add x12, x12, x10
    .word 0x00a63333  # sltu x6, x12, x10
    .word 0x006686b3  # add x13, x13, x6
    .word 0x0ab12c23  # sw x11, 184(x2)
    .word 0x00060593  # addi x11, x12, 0
    .word 0x00068613  # addi x12, x13, 0
    .word 0x039c0733  # mul x14, x24, x25
    .word 0x039c3533  # mulhu x10, x24, x25
    .word 0x00e585b3  # add x11, x11, x14
    .word 0x00e5b333  # sltu x6, x11, x14
    .word 0x00650533  # add x10, x10, x6
    .word 0x00a60633  # add x12, x12, x10
    .word 0x00a636b3  # sltu x13, x12, x10
    .word 0x03ab8733  # mul x14, x23, x26
    .word 0x03abb533  # mulhu x10, x23, x26
    .word 0x00e585b3  # add x11, x11, x14
    .word 0x00e5b333  # sltu x6, x11, x14
    .word 0x00650533  # add x10, x10, x6
    .word 0x00a60633  # add x12, x12, x10
    .word 0x00a63333  # sltu x6, x12, x10
    .word 0x006686b3  # add x13, x13, x6
    .word 0x03bb0733  # mul x14, x22, x27
    .word 0x03bb3533  # mulhu x10, x22, x27
    .word 0x00e585b3  # add x11, x11, x14
    .word 0x00e5b333  # sltu x6, x11, x14
    .word 0x00650533  # add x10, x10, x6
    .word 0x00a60633  # add x12, x12, x10
    .word 0x00a63333  # sltu x6, x12, x10
    .word 0x006686b3  # add x13, x13, x6
    .word 0x029a8733  # mul x14, x21, x9
    .word 0x029ab533  # mulhu x10, x21, x9
    .word 0x00e585b3  # add x11, x11, x14
    .word 0x00e5b333  # sltu x6, x11, x14
    .word 0x00650533  # add x10, x10, x6
    .word 0x00a60633  # add x12, x12, x10
    .word 0x00a63333  # sltu x6, x12, x10
    .word 0x006686b3  # add x13, x13, x6
    .word 0x0cb12e23  # sw x11, 220(x2)
    .word 0x00060593  # addi x11, x12, 0
    .word 0x00068613  # addi x12, x13, 0
    .word 0x03978733  # mul x14, x15, x25
    .word 0x0397b533  # mulhu x10, x15, x25
    .word 0x00e585b3  # add x11, x11, x14
    .word 0x00e5b333  # sltu x6, x11, x14
    .word 0x00650533  # add x10, x10, x6
    .word 0x00a60633  # add x12, x12, x10
    .word 0x00a636b3  # sltu x13, x12, x10
    .word 0x03ac0733  # mul x14, x24, x26
    .word 0x03ac3533  # mulhu x10, x24, x26
    .word 0x00e585b3  # add x11, x11, x14
    .word 0x00e5b333  # sltu x6, x11, x14
    .word 0x00650533  # add x10, x10, x6
    .word 0x00a60633  # add x12, x12, x10
    .word 0x00a63333  # sltu x6, x12, x10
    .word 0x006686b3  # add x13, x13, x6
    .word 0x03bb8733  # mul x14, x23, x27
    .word 0x03bbb533  # mulhu x10, x23, x27
    .word 0x00e585b3  # add x11, x11, x14
    .word 0x00e5b333  # sltu x6, x11, x14
    .word 0x00650533  # add x10, x10, x6
    .word 0x00a60633  # add x12, x12, x10
    .word 0x00a63333  # sltu x6, x12, x10
    .word 0x006686b3  # add x13, x13, x6
    .word 0x029b0733  # mul x14, x22, x9
    .word 0x029b3533  # mulhu x10, x22, x9
    .word 0x00e585b3  # add x11, x11, x14
    .word 0x00e5b333  # sltu x6, x11, x14
    .word 0x00650533  # add x10, x10, x6
    .word 0x00a60633  # add x12, x12, x10
    .word 0x00a63333  # sltu x6, x12, x10
    .word 0x006686b3  # add x13, x13, x6
    .word 0x00058913  # addi x18, x11, 0
    .word 0x00060593  # addi x11, x12, 0
    .word 0x00068613  # addi x12, x13, 0
    .word 0x03a78733  # mul x14, x15, x26
    .word 0x03a7b533  # mulhu x10, x15, x26
    .word 0x00e585b3  # add x11, x11, x14
    .word 0x00e5b333  # sltu x6, x11, x14
    .word 0x00650533  # add x10, x10, x6
    .word 0x00a60633  # add x12, x12, x10
    .word 0x00a636b3  # sltu x13, x12, x10
    .word 0x03bc0733  # mul x14, x24, x27
    .word 0x03bc3533  # mulhu x10, x24, x27
    .word 0x00e585b3  # add x11, x11, x14
    .word 0x00e5b333  # sltu x6, x11, x14
    .word 0x00650533  # add x10, x10, x6
    .word 0x00a60633  # add x12, x12, x10
    .word 0x00a63333  # sltu x6, x12, x10
    .word 0x006686b3  # add x13, x13, x6
    .word 0x029b8733  # mul x14, x23, x9
    .word 0x029bb533  # mulhu x10, x23, x9
    .word 0x00e585b3  # add x11, x11, x14
    .word 0x00e5b333  # sltu x6, x11, x14
    .word 0x00650533  # add x10, x10, x6
    .word 0x00a60633  # add x12, x12, x10
    .word 0x00a63333  # sltu x6, x12, x10
    .word 0x006686b3  # add x13, x13, x6
    .word 0x00058993  # addi x19, x11, 0
    .word 0x00060593  # addi x11, x12, 0
    .word 0x00068613  # addi x12, x13, 0
    .word 0x03b78733  # mul x14, x15, x27
    .word 0x03b7b533  # mulhu x10, x15, x27
    .word 0x00e585b3  # add x11, x11, x14
    .word 0x00e5b333  # sltu x6, x11, x14
    .word 0x00650533  # add x10, x10, x6
    .word 0x00a60633  # add x12, x12, x10
    .word 0x00a636b3  # sltu x13, x12, x10
    .word 0x029c0733  # mul x14, x24, x9
    .word 0x029c3533  # mulhu x10, x24, x9
    .word 0x00e585b3  # add x11, x11, x14
    .word 0x00e5b333  # sltu x6, x11, x14
    .word 0x00650533  # add x10, x10, x6
    .word 0x00a60633  # add x12, x12, x10
    .word 0x00a63333  # sltu x6, x12, x10
    .word 0x006686b3  # add x13, x13, x6
    .word 0x00058a13  # addi x20, x11, 0
    .word 0x00060593  # addi x11, x12, 0
    .word 0x00068613  # addi x12, x13, 0
    .word 0x02978733  # mul x14, x15, x9
    .word 0x0297b533  # mulhu x10, x15, x9
    .word 0x00e585b3  # add x11, x11, x14
    .word 0x00e5b333  # sltu x6, x11, x14
    .word 0x00650533  # add x10, x10, x6
    .word 0x00a60633  # add x12, x12, x10
    .word 0x00058513  # addi x10, x11, 0
    .word 0x00060593  # addi x11, x12, 0
    .word 0x0dc12283  # lw x5, 220(x2)
    .word 0x01c2d293  # srli x5, x5, 28
    .word 0x00491313  # slli x6, x18, 4
    .word 0x0062e8b3  # or x17, x5, x6
    .word 0x01c95293  # srli x5, x18, 28
    .word 0x00499313  # slli x6, x19, 4
    .word 0x0062e933  # or x18, x5, x6
    .word 0x01c9d293  # srli x5, x19, 28
    .word 0x004a1313  # slli x6, x20, 4
    .word 0x0062e9b3  # or x19, x5, x6
    .word 0x01ca5293  # srli x5, x20, 28
    .word 0x00451313  # slli x6, x10, 4
    .word 0x0062ea33  # or x20, x5, x6
    .word 0x01c55293  # srli x5, x10, 28
    .word 0x00459313  # slli x6, x11, 4
    .word 0x0062eab3  # or x21, x5, x6
    .word 0x03988733  # mul x14, x17, x25
    .word 0x0398b533  # mulhu x10, x17, x25
    .word 0x00e73333  # sltu x6, x14, x14
    .word 0x00650533  # add x10, x10, x6
    .word 0x00a536b3  # sltu x13, x10, x10
    .word 0x00070b93  # addi x23, x14, 0
    .word 0x00050593  # addi x11, x10, 0
    .word 0x00068613  # addi x12, x13, 0
    .word 0x03990733  # mul x14, x18, x25
    .word 0x03993533  # mulhu x10, x18, x25
    .word 0x00e585b3  # add x11, x11, x14
    .word 0x00e5b333  # sltu x6, x11, x14
    .word 0x00650533  # add x10, x10, x6
    .word 0x00a60633  # add x12, x12, x10
    .word 0x00a636b3  # sltu x13, x12, x10
    .word 0x03a88733  # mul x14, x17, x26
    .word 0x03a8b533  # mulhu x10, x17, x26
    .word 0x00e585b3  # add x11, x11, x14
    .word 0x00e5b333  # sltu x6, x11, x14
    .word 0x00650533  # add x10, x10, x6
    .word 0x00a60633  # add x12, x12, x10
    .word 0x00a63333  # sltu x6, x12, x10
    .word 0x006686b3  # add x13, x13, x6
    .word 0x00058c13  # addi x24, x11, 0
    .word 0x00060593  # addi x11, x12, 0
    .word 0x00068613  # addi x12, x13, 0
    .word 0x03998733  # mul x14, x19, x25
    .word 0x0399b533  # mulhu x10, x19, x25
    .word 0x00e585b3  # add x11, x11, x14
    .word 0x00e5b333  # sltu x6, x11, x14
    .word 0x00650533  # add x10, x10, x6
    .word 0x00a60633  # add x12, x12, x10
    .word 0x00a636b3  # sltu x13, x12, x10
    .word 0x03a90733  # mul x14, x18, x26
    .word 0x03a93533  # mulhu x10, x18, x26
    .word 0x00e585b3  # add x11, x11, x14
    .word 0x00e5b333  # sltu x6, x11, x14
    .word 0x00650533  # add x10, x10, x6
    .word 0x00a60633  # add x12, x12, x10
    .word 0x00a63333  # sltu x6, x12, x10
    .word 0x006686b3  # add x13, x13, x6
    .word 0x03b88733  # mul x14, x17, x27
    .word 0x03b8b533  # mulhu x10, x17, x27
    .word 0x00e585b3  # add x11, x11, x14
    .word 0x00e5b333  # sltu x6, x11, x14
    .word 0x00650533  # add x10, x10, x6
    .word 0x00a60633  # add x12, x12, x10
    .word 0x00a63333  # sltu x6, x12, x10
    .word 0x006686b3  # add x13, x13, x6
    .word 0x00058793  # addi x15, x11, 0
    .word 0x00060593  # addi x11, x12, 0
    .word 0x00068613  # addi x12, x13, 0
    .word 0x039a0733  # mul x14, x20, x25
    .word 0x039a3533  # mulhu x10, x20, x25
    .word 0x00e585b3  # add x11, x11, x14
    .word 0x00e5b333  # sltu x6, x11, x14
    .word 0x00650533  # add x10, x10, x6
    .word 0x00a60633  # add x12, x12, x10
    .word 0x00a636b3  # sltu x13, x12, x10
    .word 0x03a98733  # mul x14, x19, x26
    .word 0x03a9b533  # mulhu x10, x19, x26
    .word 0x00e585b3  # add x11, x11, x14
    .word 0x00e5b333  # sltu x6, x11, x14
    .word 0x00650533  # add x10, x10, x6
    .word 0x00a60633  # add x12, x12, x10
    .word 0x00a63333  # sltu x6, x12, x10
    .word 0x006686b3  # add x13, x13, x6
    .word 0x03b90733  # mul x14, x18, x27
    .word 0x03b93533  # mulhu x10, x18, x27
    .word 0x00e585b3  # add x11, x11, x14
    .word 0x00e5b333  # sltu x6, x11, x14
    .word 0x00650533  # add x10, x10, x6
    .word 0x00a60633  # add x12, x12, x10
    .word 0x00a63333  # sltu x6, x12, x10
    .word 0x006686b3  # add x13, x13, x6
    .word 0x02988733  # mul x14, x17, x9
    .word 0x0298b533  # mulhu x10, x17, x9
    .word 0x00e585b3  # add x11, x11, x14
    .word 0x00e5b333  # sltu x6, x11, x14
    .word 0x00650533  # add x10, x10, x6
    .word 0x00a60633  # add x12, x12, x10
    .word 0x00a63333  # sltu x6, x12, x10
    .word 0x006686b3  # add x13, x13, x6
    .word 0x0eb12023  # sw x11, 224(x2)
    .word 0x00060593  # addi x11, x12, 0
    .word 0x00068613  # addi x12, x13, 0
    .word 0x039a8733  # mul x14, x21, x25
    .word 0x039ab533  # mulhu x10, x21, x25
    .word 0x00e585b3  # add x11, x11, x14
    .word 0x00e5b333  # sltu x6, x11, x14
    .word 0x00650533  # add x10, x10, x6
    .word 0x00a60633  # add x12, x12, x10
    .word 0x00a636b3  # sltu x13, x12, x10
    .word 0x03aa0733  # mul x14, x20, x26
    .word 0x03aa3533  # mulhu x10, x20, x26
    .word 0x00e585b3  # add x11, x11, x14
    .word 0x00e5b333  # sltu x6, x11, x14
    .word 0x00650533  # add x10, x10, x6
    .word 0x00a60633  # add x12, x12, x10
    .word 0x00a63333  # sltu x6, x12, x10
    .word 0x006686b3  # add x13, x13, x6
    .word 0x03b98733  # mul x14, x19, x27
    .word 0x03b9b533  # mulhu x10, x19, x27
    .word 0x00e585b3  # add x11, x11, x14
    .word 0x00e5b333  # sltu x6, x11, x14
    .word 0x00650533  # add x10, x10, x6
    .word 0x00a60633  # add x12, x12, x10
    .word 0x00a63333  # sltu x6, x12, x10
    .word 0x006686b3  # add x13, x13, x6
    .word 0x02990733  # mul x14, x18, x9
    .word 0x02993533  # mulhu x10, x18, x9
    .word 0x00e585b3  # add x11, x11, x14
    .word 0x00e5b333  # sltu x6, x11, x14
    .word 0x00650533  # add x10, x10, x6
    .word 0x00a60633  # add x12, x12, x10
    .word 0x00a63333  # sltu x6, x12, x10
    .word 0x006686b3  # add x13, x13, x6
    .word 0x00058893  # addi x17, x11, 0
    .word 0x00060593  # addi x11, x12, 0
    .word 0x00068613  # addi x12, x13, 0
    .word 0x03aa8733  # mul x14, x21, x26
    .word 0x03aab533  # mulhu x10, x21, x26
    .word 0x00e585b3  # add x11, x11, x14
    .word 0x00e5b333  # sltu x6, x11, x14
    .word 0x00650533  # add x10, x10, x6
    .word 0x00a60633  # add x12, x12, x10
    .word 0x00a636b3  # sltu x13, x12, x10
    .word 0x03ba0733  # mul x14, x20, x27
    .word 0x03ba3533  # mulhu x10, x20, x27
    .word 0x00e585b3  # add x11, x11, x14
    .word 0x00e5b333  # sltu x6, x11, x14
    .word 0x00650533  # add x10, x10, x6
    .word 0x00a60633  # add x12, x12, x10
    .word 0x00a63333  # sltu x6, x12, x10
    .word 0x006686b3  # add x13, x13, x6
    .word 0x02998733  # mul x14, x19, x9
    .word 0x0299b533  # mulhu x10, x19, x9
    .word 0x00e585b3  # add x11, x11, x14
    .word 0x00e5b333  # sltu x6, x11, x14
    .word 0x00650533  # add x10, x10, x6
    .word 0x00a60633  # add x12, x12, x10
    .word 0x00a63333  # sltu x6, x12, x10
    .word 0x006686b3  # add x13, x13, x6
    .word 0x00058913  # addi x18, x11, 0
    .word 0x00060593  # addi x11, x12, 0
    .word 0x00068613  # addi x12, x13, 0
    .word 0x03ba8733  # mul x14, x21, x27
    .word 0x03bab533  # mulhu x10, x21, x27
    .word 0x00e585b3  # add x11, x11, x14
    .word 0x00e5b333  # sltu x6, x11, x14
    .word 0x00650533  # add x10, x10, x6
    .word 0x00a60633  # add x12, x12, x10
    .word 0x00a636b3  # sltu x13, x12, x10
    .word 0x029a0733  # mul x14, x20, x9
    .word 0x029a3533  # mulhu x10, x20, x9
    .word 0x00e585b3  # add x11, x11, x14
    .word 0x00e5b333  # sltu x6, x11, x14
    .word 0x00650533  # add x10, x10, x6
    .word 0x00a60633  # add x12, x12, x10
    .word 0x00a63333  # sltu x6, x12, x10
    .word 0x006686b3  # add x13, x13, x6
    .word 0x00058b13  # addi x22, x11, 0
    .word 0x00060593  # addi x11, x12, 0
    .word 0x00068613  # addi x12, x13, 0
    .word 0x029a8733  # mul x14, x21, x9
    .word 0x029ab533  # mulhu x10, x21, x9
    .word 0x00e585b3  # add x11, x11, x14
    .word 0x00e5b333  # sltu x6, x11, x14
    .word 0x00650533  # add x10, x10, x6
    .word 0x00a60633  # add x12, x12, x10
    .word 0x0eb12223  # sw x11, 228(x2)
    .word 0x00060593  # addi x11, x12, 0
    .word 0x0eb12423  # sw x11, 232(x2)
    .word 0x019b86b3  # add x13, x23, x25
    .word 0x0bc12303  # lw x6, 188(x2)
    .word 0x00668733  # add x14, x13, x6
    .word 0x0196b2b3  # sltu x5, x13, x25
    .word 0x0bc12383  # lw x7, 188(x2)
    .word 0x00773333  # sltu x6, x14, x7
    .word 0x006285b3  # add x11, x5, x6
    .word 0x410706b3  # sub x13, x14, x16
    .word 0x00068993  # addi x19, x13, 0
    .word 0x01073533  # sltu x10, x14, x16
    .word 0x01ac06b3  # add x13, x24, x26
    .word 0x0c012303  # lw x6, 192(x2)
    .word 0x00668733  # add x14, x13, x6
    .word 0x00b70633  # add x12, x14, x11
    .word 0x01a6b2b3  # sltu x5, x13, x26
    .word 0x0c012383  # lw x7, 192(x2)
    .word 0x00773333  # sltu x6, x14, x7
    .word 0x006282b3  # add x5, x5, x6
    .word 0x00b63333  # sltu x6, x12, x11
    .word 0x006285b3  # add x11, x5, x6
    .word 0x0a412303  # lw x6, 164(x2)
    .word 0x406606b3  # sub x13, x12, x6
    .word 0x40a68a33  # sub x20, x13, x10
    .word 0x0a412303  # lw x6, 164(x2)
    .word 0x006632b3  # sltu x5, x12, x6
    .word 0x00a6b333  # sltu x6, x13, x10
    .word 0x00628533  # add x10, x5, x6
    .word 0x01b786b3  # add x13, x15, x27
    .word 0x0c412303  # lw x6, 196(x2)
    .word 0x00668733  # add x14, x13, x6
    .word 0x00b70633  # add x12, x14, x11
    .word 0x01b6b2b3  # sltu x5, x13, x27
    .word 0x0c412383  # lw x7, 196(x2)
    .word 0x00773333  # sltu x6, x14, x7
    .word 0x006282b3  # add x5, x5, x6
    .word 0x00b63333  # sltu x6, x12, x11
    .word 0x006285b3  # add x11, x5, x6
    .word 0x0a812303  # lw x6, 168(x2)
    .word 0x406606b3  # sub x13, x12, x6
    .word 0x40a68c33  # sub x24, x13, x10
    .word 0x0a812303  # lw x6, 168(x2)
    .word 0x006632b3  # sltu x5, x12, x6
    .word 0x00a6b333  # sltu x6, x13, x10
    .word 0x00628533  # add x10, x5, x6
    .word 0x0e012283  # lw x5, 224(x2)
    .word 0x009286b3  # add x13, x5, x9
    .word 0x0c812303  # lw x6, 200(x2)
    .word 0x00668733  # add x14, x13, x6
    .word 0x00b70633  # add x12, x14, x11
    .word 0x0096b2b3  # sltu x5, x13, x9
    .word 0x0c812383  # lw x7, 200(x2)
    .word 0x00773333  # sltu x6, x14, x7
    .word 0x006282b3  # add x5, x5, x6
    .word 0x00b63333  # sltu x6, x12, x11
    .word 0x006285b3  # add x11, x5, x6
    .word 0x0ac12303  # lw x6, 172(x2)
    .word 0x406606b3  # sub x13, x12, x6
    .word 0x40a687b3  # sub x15, x13, x10
    .word 0x0ac12303  # lw x6, 172(x2)
    .word 0x006632b3  # sltu x5, x12, x6
    .word 0x00a6b333  # sltu x6, x13, x10
    .word 0x00628533  # add x10, x5, x6
    .word 0x0cc12303  # lw x6, 204(x2)
    .word 0x00688733  # add x14, x17, x6
    .word 0x00b70633  # add x12, x14, x11
    .word 0x0cc12303  # lw x6, 204(x2)
    .word 0x006732b3  # sltu x5, x14, x6
    .word 0x00b63333  # sltu x6, x12, x11
    .word 0x006285b3  # add x11, x5, x6
    .word 0x0b012303  # lw x6, 176(x2)
    .word 0x406606b3  # sub x13, x12, x6
    .word 0x40a68833  # sub x16, x13, x10
    .word 0x0b012303  # lw x6, 176(x2)
    .word 0x006632b3  # sltu x5, x12, x6
    .word 0x00a6b333  # sltu x6, x13, x10
    .word 0x00628533  # add x10, x5, x6
    .word 0x0d012303  # lw x6, 208(x2)
    .word 0x00690733  # add x14, x18, x6
    .word 0x00b70633  # add x12, x14, x11
    .word 0x0d012303  # lw x6, 208(x2)
    .word 0x006732b3  # sltu x5, x14, x6
    .word 0x00b63333  # sltu x6, x12, x11
    .word 0x006285b3  # add x11, x5, x6
    .word 0x0b412303  # lw x6, 180(x2)
    .word 0x406606b3  # sub x13, x12, x6
    .word 0x40a68ab3  # sub x21, x13, x10
    .word 0x0b412303  # lw x6, 180(x2)
    .word 0x006632b3  # sltu x5, x12, x6
    .word 0x00a6b333  # sltu x6, x13, x10
    .word 0x00628533  # add x10, x5, x6
    .word 0x0d412303  # lw x6, 212(x2)
    .word 0x006b0733  # add x14, x22, x6
    .word 0x00b70633  # add x12, x14, x11
    .word 0x0d412303  # lw x6, 212(x2)
    .word 0x006732b3  # sltu x5, x14, x6
    .word 0x00b63333  # sltu x6, x12, x11
    .word 0x006285b3  # add x11, x5, x6
    .word 0x0b812303  # lw x6, 184(x2)
    .word 0x406606b3  # sub x13, x12, x6
    .word 0x40a68b33  # sub x22, x13, x10
    .word 0x0b812303  # lw x6, 184(x2)
    .word 0x006632b3  # sltu x5, x12, x6
    .word 0x00a6b333  # sltu x6, x13, x10
    .word 0x00628533  # add x10, x5, x6
    .word 0x0d812283  # lw x5, 216(x2)
    .word 0x00429893  # slli x17, x5, 4
    .word 0x0048d893  # srli x17, x17, 4
    .word 0x0dc12283  # lw x5, 220(x2)
    .word 0x00429913  # slli x18, x5, 4
    .word 0x00495913  # srli x18, x18, 4
    .word 0x0e412283  # lw x5, 228(x2)
    .word 0x10000337  # lui x6, 0x10000
    .word 0x00030313  # addi x6, x6, 0
    .word 0x006286b3  # add x13, x5, x6
    .word 0x01168733  # add x14, x13, x17
    .word 0x00b70633  # add x12, x14, x11
    .word 0x10000337  # lui x6, 0x10000
    .word 0x00030313  # addi x6, x6, 0
    .word 0x0066b2b3  # sltu x5, x13, x6
    .word 0x01173333  # sltu x6, x14, x17
    .word 0x006282b3  # add x5, x5, x6
    .word 0x00b63333  # sltu x6, x12, x11
    .word 0x006285b3  # add x11, x5, x6
    .word 0x412606b3  # sub x13, x12, x18
    .word 0x40a682b3  # sub x5, x13, x10
    .word 0x0a512223  # sw x5, 164(x2)
    .word 0x012632b3  # sltu x5, x12, x18
    .word 0x00a6b333  # sltu x6, x13, x10
    .word 0x00628533  # add x10, x5, x6
    .word 0x0e812283  # lw x5, 232(x2)
    .word 0x00b282b3  # add x5, x5, x11
    .word 0x40a28533  # sub x10, x5, x10
    .word 0x0a412283  # lw x5, 164(x2)
    .word 0x01c2d293  # srli x5, x5, 28
    .word 0x00451313  # slli x6, x10, 4
    .word 0x0062e733  # or x14, x5, x6
    .word 0x039708b3  # mul x17, x14, x25
    .word 0x03973533  # mulhu x10, x14, x25
    .word 0x0118b333  # sltu x6, x17, x17
    .word 0x00650533  # add x10, x10, x6
    .word 0x00a536b3  # sltu x13, x10, x10
    .word 0x00088913  # addi x18, x17, 0
    .word 0x00050593  # addi x11, x10, 0
    .word 0x00068613  # addi x12, x13, 0
    .word 0x03a708b3  # mul x17, x14, x26
    .word 0x03a73533  # mulhu x10, x14, x26
    .word 0x011585b3  # add x11, x11, x17
    .word 0x0115b333  # sltu x6, x11, x17
    .word 0x00650533  # add x10, x10, x6
    .word 0x00a60633  # add x12, x12, x10
    .word 0x00a636b3  # sltu x13, x12, x10
    .word 0x0ab12423  # sw x11, 168(x2)
    .word 0x00060593  # addi x11, x12, 0
    .word 0x00068613  # addi x12, x13, 0
    .word 0x03b708b3  # mul x17, x14, x27
    .word 0x03b73533  # mulhu x10, x14, x27
    .word 0x011585b3  # add x11, x11, x17
    .word 0x0115b333  # sltu x6, x11, x17
    .word 0x00650533  # add x10, x10, x6
    .word 0x00a60633  # add x12, x12, x10
    .word 0x00a636b3  # sltu x13, x12, x10
    .word 0x0ab12623  # sw x11, 172(x2)
    .word 0x00060593  # addi x11, x12, 0
    .word 0x00068613  # addi x12, x13, 0
    .word 0x029708b3  # mul x17, x14, x9
    .word 0x02973533  # mulhu x10, x14, x9
    .word 0x011585b3  # add x11, x11, x17
    .word 0x0115b333  # sltu x6, x11, x17
    .word 0x00650533  # add x10, x10, x6
    .word 0x00a60633  # add x12, x12, x10
    .word 0x00058713  # addi x14, x11, 0
    .word 0x00060593  # addi x11, x12, 0
    .word 0x00058613  # addi x12, x11, 0
    .word 0x412985b3  # sub x11, x19, x18
    .word 0x00058b93  # addi x23, x11, 0
    .word 0x0129b533  # sltu x10, x19, x18
    .word 0x0a812303  # lw x6, 168(x2)
    .word 0x406a05b3  # sub x11, x20, x6
    .word 0x40a586b3  # sub x13, x11, x10
    .word 0x0a812303  # lw x6, 168(x2)
    .word 0x006a32b3  # sltu x5, x20, x6
    .word 0x00a5b333  # sltu x6, x11, x10
    .word 0x00628533  # add x10, x5, x6
    .word 0x0ac12303  # lw x6, 172(x2)
    .word 0x406c05b3  # sub x11, x24, x6
    .word 0x40a588b3  # sub x17, x11, x10
    .word 0x0ac12303  # lw x6, 172(x2)
    .word 0x006c32b3  # sltu x5, x24, x6
    .word 0x00a5b333  # sltu x6, x11, x10
    .word 0x00628533  # add x10, x5, x6
    .word 0x40e785b3  # sub x11, x15, x14
    .word 0x40a58933  # sub x18, x11, x10
    .word 0x00e7b2b3  # sltu x5, x15, x14
    .word 0x00a5b333  # sltu x6, x11, x10
    .word 0x00628533  # add x10, x5, x6
    .word 0x40c805b3  # sub x11, x16, x12
    .word 0x40a589b3  # sub x19, x11, x10
    .word 0x00c832b3  # sltu x5, x16, x12
    .word 0x00a5b333  # sltu x6, x11, x10
    .word 0x00628533  # add x10, x5, x6
    .word 0x40aa8a33  # sub x20, x21, x10
    .word 0x00aab533  # sltu x10, x21, x10
    .word 0x40ab0ab3  # sub x21, x22, x10
    .word 0x00ab3533  # sltu x10, x22, x10
    .word 0x0a412283  # lw x5, 164(x2)
    .word 0x00429593  # slli x11, x5, 4
    .word 0x0045d593  # srli x11, x11, 4
    .word 0x40a58b33  # sub x22, x11, x10
    .word 0x00a5b533  # sltu x10, x11, x10
    .word 0x40a00733  # sub x14, x0, x10
    .word 0x00ecf533  # and x10, x25, x14
    .word 0x00ab8633  # add x12, x23, x10
    .word 0x00060b93  # addi x23, x12, 0
    .word 0x00a635b3  # sltu x11, x12, x10
    .word 0x00ed7533  # and x10, x26, x14
    .word 0x00a68633  # add x12, x13, x10
    .word 0x00b606b3  # add x13, x12, x11
    .word 0x00a632b3  # sltu x5, x12, x10
    .word 0x00b6b333  # sltu x6, x13, x11
    .word 0x006285b3  # add x11, x5, x6
    .word 0x00edf533  # and x10, x27, x14
    .word 0x00a88633  # add x12, x17, x10
    .word 0x00b608b3  # add x17, x12, x11
    .word 0x00a632b3  # sltu x5, x12, x10
    .word 0x00b8b333  # sltu x6, x17, x11
    .word 0x006285b3  # add x11, x5, x6
    .word 0x00e4f533  # and x10, x9, x14
    .word 0x00a90633  # add x12, x18, x10
    .word 0x00b60933  # add x18, x12, x11
    .word 0x00a632b3  # sltu x5, x12, x10
    .word 0x00b93333  # sltu x6, x18, x11
    .word 0x006285b3  # add x11, x5, x6
    .word 0x00077513  # andi x10, x14, 0
    .word 0x00a98633  # add x12, x19, x10
    .word 0x00b609b3  # add x19, x12, x11
    .word 0x00a632b3  # sltu x5, x12, x10
    .word 0x00b9b333  # sltu x6, x19, x11
    .word 0x006285b3  # add x11, x5, x6
    .word 0x00077513  # andi x10, x14, 0
    .word 0x00aa0633  # add x12, x20, x10
    .word 0x00b60a33  # add x20, x12, x11
    .word 0x00a632b3  # sltu x5, x12, x10
    .word 0x00ba3333  # sltu x6, x20, x11
    .word 0x006285b3  # add x11, x5, x6
    .word 0x00077513  # andi x10, x14, 0
    .word 0x00aa8633  # add x12, x21, x10
    .word 0x00b60ab3  # add x21, x12, x11
    .word 0x00a632b3  # sltu x5, x12, x10
    .word 0x00bab333  # sltu x6, x21, x11
    .word 0x006285b3  # add x11, x5, x6
    .word 0x100002b7  # lui x5, 0x10000
    .word 0x00028293  # addi x5, x5, 0
    .word 0x00e2f533  # and x10, x5, x14
    .word 0x00ab0633  # add x12, x22, x10
    .word 0x00b60b33  # add x22, x12, x11
    .word 0x07712023  # sw x23, 96(x2)
    .word 0x06d12223  # sw x13, 100(x2)
    .word 0x07112423  # sw x17, 104(x2)
    .word 0x07212623  # sw x18, 108(x2)
    .word 0x07312823  # sw x19, 112(x2)
    .word 0x07412a23  # sw x20, 116(x2)
    .word 0x07512c23  # sw x21, 120(x2)
    .word 0x07612e23  # sw x22, 124(x2)
    # the result
    .word 0x00000513  # addi x10, x0, 0
    # parameter 3: the array, back
    .word 0x06010293  # addi x5, x2, 96
    .word 0x13c12303  # lw x6, 316(x2)
    .word 0x02028393  # addi x7, x5, 32
    .word 0x08c00f6f  # jal x30, 140
    # above the frame
    .word 0x10010293  # addi x5, x2, 256
    # the caller's registers
    .word 0x0002a483  # lw x9, 0(x5)
    .cfi_restore 9
    .word 0x0042a903  # lw x18, 4(x5)
    .cfi_restore 18
    .word 0x0082a983  # lw x19, 8(x5)
    .cfi_restore 19
    .word 0x00c2aa03  # lw x20, 12(x5)
    .cfi_restore 20
    .word 0x0102aa83  # lw x21, 16(x5)
    .cfi_restore 21
    .word 0x0142ab03  # lw x22, 20(x5)
    .cfi_restore 22
    .word 0x0182ab83  # lw x23, 24(x5)
    .cfi_restore 23
    .word 0x01c2ac03  # lw x24, 28(x5)
    .cfi_restore 24
    .word 0x0202ac83  # lw x25, 32(x5)
    .cfi_restore 25
    .word 0x0242ad03  # lw x26, 36(x5)
    .cfi_restore 26
    .word 0x0282ad83  # lw x27, 40(x5)
    .cfi_restore 27
    # the caller's x2
    .word 0x04028293  # addi x5, x5, 64
    .cfi_def_cfa 5, 0
    # all the room, wiped upward
    .word 0x00012023  # sw x0, 0(x2)
    .word 0x00012223  # sw x0, 4(x2)
    .word 0x00012423  # sw x0, 8(x2)
    .word 0x00012623  # sw x0, 12(x2)
    .word 0x01010113  # addi x2, x2, 16
    .word 0xfe5116e3  # bne x2, x5, -20
    .cfi_def_cfa 2, 0
    # temporaries, wiped
    .word 0x00000293  # addi x5, x0, 0
    .word 0x00000313  # addi x6, x0, 0
    .word 0x00000393  # addi x7, x0, 0
    .word 0x00000593  # addi x11, x0, 0
    .word 0x00000613  # addi x12, x0, 0
    .word 0x00000693  # addi x13, x0, 0
    .word 0x00000713  # addi x14, x0, 0
    .word 0x00000793  # addi x15, x0, 0
    .word 0x00000813  # addi x16, x0, 0
    .word 0x00000893  # addi x17, x0, 0
    .word 0x00000e13  # addi x28, x0, 0
    .word 0x00000e93  # addi x29, x0, 0
    .word 0x00000f13  # addi x30, x0, 0
    .word 0x00000f93  # addi x31, x0, 0
    # back
    .word 0x00008067  # jalr x0, 0(x1)
    # from x5 to x6 up to x7, and back
    .cfi_def_cfa 2, 320
    .cfi_offset 9, -64
    .cfi_offset 18, -60
    .cfi_offset 19, -56
    .cfi_offset 20, -52
    .cfi_offset 21, -48
    .cfi_offset 22, -44
    .cfi_offset 23, -40
    .cfi_offset 24, -36
    .cfi_offset 25, -32
    .cfi_offset 26, -28
    .cfi_offset 27, -24
    .word 0x0062ee33  # or x28, x5, x6
    .word 0x003e7e13  # andi x28, x28, 3
    .word 0x000e0e63  # beq x28, x0, 28
    .word 0x0002ce03  # lbu x28, 0(x5)
    .word 0x01c30023  # sb x28, 0(x6)
    .word 0x00128293  # addi x5, x5, 1
    .word 0x00130313  # addi x6, x6, 1
    .word 0xfe7298e3  # bne x5, x7, -16
    .word 0x0300006f  # jal x0, 48
    .word 0x0002ae03  # lw x28, 0(x5)
    .word 0x01c32023  # sw x28, 0(x6)
    .word 0x0042ae03  # lw x28, 4(x5)
    .word 0x01c32223  # sw x28, 4(x6)
    .word 0x0082ae03  # lw x28, 8(x5)
    .word 0x01c32423  # sw x28, 8(x6)
    .word 0x00c2ae03  # lw x28, 12(x5)
    .word 0x01c32623  # sw x28, 12(x6)
    .word 0x01028293  # addi x5, x5, 16
    .word 0x01030313  # addi x6, x6, 16
    .word 0xfc729ce3  # bne x5, x7, -40
    .word 0x000f0067  # jalr x0, 0(x30)
    .cfi_endproc
    .size ed25519_multiply_add, . - ed25519_multiply_add
    .option pop
