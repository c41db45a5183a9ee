# x25519_step: made by factc 1.0.0 function; 1821 words, 880 bytes of stack, profile 1
    .option push
    .option norvc
    .option norelax
    .cfi_sections .debug_frame
    .section .text.x25519_step, "ax", @progbits
    .p2align 2
    .globl x25519_step
    .type x25519_step, @function
x25519_step:
    .cfi_startproc
    # room above the frame
    .word 0xfc010113  # addi x2, x2, -64
    .cfi_def_cfa_offset 64
    # the caller's registers
    .word 0x00912023  # sw x9, 0(x2)
    .cfi_offset 9, -64
    .word 0x01212223  # sw x18, 4(x2)
    .cfi_offset 18, -60
    .word 0x01312423  # sw x19, 8(x2)
    .cfi_offset 19, -56
    .word 0x01412623  # sw x20, 12(x2)
    .cfi_offset 20, -52
    .word 0x01512823  # sw x21, 16(x2)
    .cfi_offset 21, -48
    .word 0x01612a23  # sw x22, 20(x2)
    .cfi_offset 22, -44
    .word 0x01712c23  # sw x23, 24(x2)
    .cfi_offset 23, -40
    .word 0x01812e23  # sw x24, 28(x2)
    .cfi_offset 24, -36
    .word 0x03912023  # sw x25, 32(x2)
    .cfi_offset 25, -32
    .word 0x03a12223  # sw x26, 36(x2)
    .cfi_offset 26, -28
    .word 0x03b12423  # sw x27, 40(x2)
    .cfi_offset 27, -24
    # arguments that are needed behind the body
    .word 0x02a12a23  # sw x10, 52(x2)
    .word 0x02b12c23  # sw x11, 56(x2)
    .word 0x02c12e23  # sw x12, 60(x2)
    # the frame's base
    .word 0xcd010113  # addi x2, x2, -816
    .cfi_def_cfa 2, 880
    # parameter 0: a word
    .word 0x00a03533  # sltu x10, x0, x10
    .word 0x00a12023  # sw x10, 0(x2)
    # parameter 1: an array
    .word 0x00058293  # addi x5, x11, 0
    .word 0x00410313  # addi x6, x2, 4
    .word 0x02028393  # addi x7, x5, 32
    .word 0x3cd01f6f  # jal x30, 7116
    # parameter 2: an array
    .word 0x00060293  # addi x5, x12, 0
    .word 0x02410313  # addi x6, x2, 36
    .word 0x08028393  # addi x7, x5, 128
    .word 0x3bd01f6f  # jal x30, 7100
    # the body
    .word 0x800002b7  # lui x5, 0x80000
    .word 0xfff28293  # addi x5, x5, -1
    .word 0x30512623  # sw x5, 780(x2)
    .word 0x0001e2b7  # lui x5, 0x0001e
    .word 0xb4128293  # addi x5, x5, -1215
    .word 0x30512823  # sw x5, 784(x2)
    .word 0x0a400313  # addi x6, x0, 164
    .word 0x00230333  # add x6, x6, x2
    .word 0x20000393  # addi x7, x0, 512
    .word 0x006383b3  # add x7, x7, x6
    .word 0x406382b3  # sub x5, x7, x6
    .word 0x00029463  # bne x5, x0, 8
    .word 0x0100006f  # jal x0, 16
    .word 0x00032023  # sw x0, 0(x6)
    .word 0x00430313  # addi x6, x6, 4
    .word 0xfedff06f  # jal x0, -20
    .word 0x2a400313  # addi x6, x0, 676
    .word 0x00230333  # add x6, x6, x2
    .word 0x02000393  # addi x7, x0, 32
    .word 0x006383b3  # add x7, x7, x6
    .word 0x406382b3  # sub x5, x7, x6
    .word 0x00029463  # bne x5, x0, 8
    .word 0x0100006f  # jal x0, 16
    .word 0x00032023  # sw x0, 0(x6)
    .word 0x00430313  # addi x6, x6, 4
    .word 0xfedff06f  # jal x0, -20
    .word 0x000012b7  # lui x5, 0x00001
    .word 0x51228293  # addi x5, x5, 1298
    .word 0x2c511223  # sh x5, 708(x2)
    .word 0x000022b7  # lui x5, 0x00002
    .word 0x61228293  # addi x5, x5, 1554
    .word 0x2c511323  # sh x5, 710(x2)
    .word 0x000012b7  # lui x5, 0x00001
    .word 0x73428293  # addi x5, x5, 1844
    .word 0x2c511423  # sh x5, 712(x2)
    .word 0x000032b7  # lui x5, 0x00003
    .word 0x83428293  # addi x5, x5, -1996
    .word 0x2c511523  # sh x5, 714(x2)
    .word 0x000012b7  # lui x5, 0x00001
    .word 0x88528293  # addi x5, x5, -1915
    .word 0x2c511623  # sh x5, 716(x2)
    .word 0x77600293  # addi x5, x0, 1910
    .word 0x2c511723  # sh x5, 718(x2)
    .word 0x55500293  # addi x5, x0, 1365
    .word 0x2c511823  # sh x5, 720(x2)
    .word 0x66600293  # addi x5, x0, 1638
    .word 0x2c511923  # sh x5, 722(x2)
    .word 0x000012b7  # lui x5, 0x00001
    .word 0x38728293  # addi x5, x5, 903
    .word 0x2c511a23  # sh x5, 724(x2)
    .word 0x33300293  # addi x5, x0, 819
    .word 0x2c511b23  # sh x5, 726(x2)
    .word 0x000022b7  # lui x5, 0x00002
    .word 0x48728293  # addi x5, x5, 1159
    .word 0x2c511c23  # sh x5, 728(x2)
    .word 0x44400293  # addi x5, x0, 1092
    .word 0x2c511d23  # sh x5, 730(x2)
    .word 0x40400293  # addi x5, x0, 1028
    .word 0x2c511e23  # sh x5, 732(x2)
    .word 0x15600293  # addi x5, x0, 342
    .word 0x2c511f23  # sh x5, 734(x2)
    .word 0x000022b7  # lui x5, 0x00002
    .word 0x25628293  # addi x5, x5, 598
    .word 0x2e511023  # sh x5, 736(x2)
    .word 0x000032b7  # lui x5, 0x00003
    .word 0x52528293  # addi x5, x5, 1317
    .word 0x2e511123  # sh x5, 738(x2)
    .word 0x22500293  # addi x5, x0, 549
    .word 0x2e511223  # sh x5, 740(x2)
    .word 0x00412283  # lw x5, 4(x2)
    .word 0x0a512223  # sw x5, 164(x2)
    .word 0x00812283  # lw x5, 8(x2)
    .word 0x0a512423  # sw x5, 168(x2)
    .word 0x00c12283  # lw x5, 12(x2)
    .word 0x0a512623  # sw x5, 172(x2)
    .word 0x01012283  # lw x5, 16(x2)
    .word 0x0a512823  # sw x5, 176(x2)
    .word 0x01412283  # lw x5, 20(x2)
    .word 0x0a512a23  # sw x5, 180(x2)
    .word 0x01812283  # lw x5, 24(x2)
    .word 0x0a512c23  # sw x5, 184(x2)
    .word 0x01c12283  # lw x5, 28(x2)
    .word 0x0a512e23  # sw x5, 188(x2)
    .word 0x02012283  # lw x5, 32(x2)
    .word 0x0c512023  # sw x5, 192(x2)
    .word 0x02412283  # lw x5, 36(x2)
    .word 0x0c512223  # sw x5, 196(x2)
    .word 0x02812283  # lw x5, 40(x2)
    .word 0x0c512423  # sw x5, 200(x2)
    .word 0x02c12283  # lw x5, 44(x2)
    .word 0x0c512623  # sw x5, 204(x2)
    .word 0x03012283  # lw x5, 48(x2)
    .word 0x0c512823  # sw x5, 208(x2)
    .word 0x03412283  # lw x5, 52(x2)
    .word 0x0c512a23  # sw x5, 212(x2)
    .word 0x03812283  # lw x5, 56(x2)
    .word 0x0c512c23  # sw x5, 216(x2)
    .word 0x03c12283  # lw x5, 60(x2)
    .word 0x0c512e23  # sw x5, 220(x2)
    .word 0x04012283  # lw x5, 64(x2)
    .word 0x0e512023  # sw x5, 224(x2)
    .word 0x04412283  # lw x5, 68(x2)
    .word 0x0e512223  # sw x5, 228(x2)
    .word 0x04812283  # lw x5, 72(x2)
    .word 0x0e512423  # sw x5, 232(x2)
    .word 0x04c12283  # lw x5, 76(x2)
    .word 0x0e512623  # sw x5, 236(x2)
    .word 0x05012283  # lw x5, 80(x2)
    .word 0x0e512823  # sw x5, 240(x2)
    .word 0x05412283  # lw x5, 84(x2)
    .word 0x0e512a23  # sw x5, 244(x2)
    .word 0x05812283  # lw x5, 88(x2)
    .word 0x0e512c23  # sw x5, 248(x2)
    .word 0x05c12283  # lw x5, 92(x2)
    .word 0x0e512e23  # sw x5, 252(x2)
    .word 0x06012283  # lw x5, 96(x2)
    .word 0x10512023  # sw x5, 256(x2)
    .word 0x06412283  # lw x5, 100(x2)
    .word 0x10512223  # sw x5, 260(x2)
    .word 0x06812283  # lw x5, 104(x2)
    .word 0x10512423  # sw x5, 264(x2)
    .word 0x06c12283  # lw x5, 108(x2)
    .word 0x10512623  # sw x5, 268(x2)
    .word 0x07012283  # lw x5, 112(x2)
    .word 0x10512823  # sw x5, 272(x2)
    .word 0x07412283  # lw x5, 116(x2)
    .word 0x10512a23  # sw x5, 276(x2)
    .word 0x07812283  # lw x5, 120(x2)
    .word 0x10512c23  # sw x5, 280(x2)
    .word 0x07c12283  # lw x5, 124(x2)
    .word 0x10512e23  # sw x5, 284(x2)
    .word 0x08012283  # lw x5, 128(x2)
    .word 0x12512023  # sw x5, 288(x2)
    .word 0x08412283  # lw x5, 132(x2)
    .word 0x12512223  # sw x5, 292(x2)
    .word 0x08812283  # lw x5, 136(x2)
    .word 0x12512423  # sw x5, 296(x2)
    .word 0x08c12283  # lw x5, 140(x2)
    .word 0x12512623  # sw x5, 300(x2)
    .word 0x09012283  # lw x5, 144(x2)
    .word 0x12512823  # sw x5, 304(x2)
    .word 0x09412283  # lw x5, 148(x2)
    .word 0x12512a23  # sw x5, 308(x2)
    .word 0x09812283  # lw x5, 152(x2)
    .word 0x12512c23  # sw x5, 312(x2)
    .word 0x09c12283  # lw x5, 156(x2)
    .word 0x12512e23  # sw x5, 316(x2)
    .word 0x0a012283  # lw x5, 160(x2)
    .word 0x14512023  # sw x5, 320(x2)
    .word 0x00012583  # lw x11, 0(x2)
    .word 0x40b002b3  # sub x5, x0, x11
    .word 0x0c412303  # lw x6, 196(x2)
    .word 0x10412383  # lw x7, 260(x2)
    .word 0x00734333  # xor x6, x6, x7
    .word 0x0062f733  # and x14, x5, x6
    .word 0x0c412283  # lw x5, 196(x2)
    .word 0x00e2c2b3  # xor x5, x5, x14
    .word 0x0c512223  # sw x5, 196(x2)
    .word 0x10412283  # lw x5, 260(x2)
    .word 0x00e2c2b3  # xor x5, x5, x14
    .word 0x10512223  # sw x5, 260(x2)
    .word 0x40b002b3  # sub x5, x0, x11
    .word 0x0c812303  # lw x6, 200(x2)
    .word 0x10812383  # lw x7, 264(x2)
    .word 0x00734333  # xor x6, x6, x7
    .word 0x0062f733  # and x14, x5, x6
    .word 0x0c812283  # lw x5, 200(x2)
    .word 0x00e2c2b3  # xor x5, x5, x14
    .word 0x0c512423  # sw x5, 200(x2)
    .word 0x10812283  # lw x5, 264(x2)
    .word 0x00e2c2b3  # xor x5, x5, x14
    .word 0x10512423  # sw x5, 264(x2)
    .word 0x40b002b3  # sub x5, x0, x11
    .word 0x0cc12303  # lw x6, 204(x2)
    .word 0x10c12383  # lw x7, 268(x2)
    .word 0x00734333  # xor x6, x6, x7
    .word 0x0062f733  # and x14, x5, x6
    .word 0x0cc12283  # lw x5, 204(x2)
    .word 0x00e2c2b3  # xor x5, x5, x14
    .word 0x0c512623  # sw x5, 204(x2)
    .word 0x10c12283  # lw x5, 268(x2)
    .word 0x00e2c2b3  # xor x5, x5, x14
    .word 0x10512623  # sw x5, 268(x2)
    .word 0x40b002b3  # sub x5, x0, x11
    .word 0x0d012303  # lw x6, 208(x2)
    .word 0x11012383  # lw x7, 272(x2)
    .word 0x00734333  # xor x6, x6, x7
    .word 0x0062f733  # and x14, x5, x6
    .word 0x0d012283  # lw x5, 208(x2)
    .word 0x00e2c2b3  # xor x5, x5, x14
    .word 0x0c512823  # sw x5, 208(x2)
    .word 0x11012283  # lw x5, 272(x2)
    .word 0x00e2c2b3  # xor x5, x5, x14
    .word 0x10512823  # sw x5, 272(x2)
    .word 0x40b002b3  # sub x5, x0, x11
    .word 0x0d412303  # lw x6, 212(x2)
    .word 0x11412383  # lw x7, 276(x2)
    .word 0x00734333  # xor x6, x6, x7
    .word 0x0062f733  # and x14, x5, x6
    .word 0x0d412283  # lw x5, 212(x2)
    .word 0x00e2c2b3  # xor x5, x5, x14
    .word 0x0c512a23  # sw x5, 212(x2)
    .word 0x11412283  # lw x5, 276(x2)
    .word 0x00e2c2b3  # xor x5, x5, x14
    .word 0x10512a23  # sw x5, 276(x2)
    .word 0x40b002b3  # sub x5, x0, x11
    .word 0x0d812303  # lw x6, 216(x2)
    .word 0x11812383  # lw x7, 280(x2)
    .word 0x00734333  # xor x6, x6, x7
    .word 0x0062f733  # and x14, x5, x6
    .word 0x0d812283  # lw x5, 216(x2)
    .word 0x00e2c2b3  # xor x5, x5, x14
    .word 0x0c512c23  # sw x5, 216(x2)
    .word 0x11812283  # lw x5, 280(x2)
    .word 0x00e2c2b3  # xor x5, x5, x14
    .word 0x10512c23  # sw x5, 280(x2)
    .word 0x40b002b3  # sub x5, x0, x11
    .word 0x0dc12303  # lw x6, 220(x2)
    .word 0x11c12383  # lw x7, 284(x2)
    .word 0x00734333  # xor x6, x6, x7
    .word 0x0062f733  # and x14, x5, x6
    .word 0x0dc12283  # lw x5, 220(x2)
    .word 0x00e2c2b3  # xor x5, x5, x14
    .word 0x0c512e23  # sw x5, 220(x2)
    .word 0x11c12283  # lw x5, 284(x2)
    .word 0x00e2c2b3  # xor x5, x5, x14
    .word 0x10512e23  # sw x5, 284(x2)
    .word 0x40b002b3  # sub x5, x0, x11
    .word 0x0e012303  # lw x6, 224(x2)
    .word 0x12012383  # lw x7, 288(x2)
    .word 0x00734333  # xor x6, x6, x7
    .word 0x0062f733  # and x14, x5, x6
    .word 0x0e012283  # lw x5, 224(x2)
    .word 0x00e2c2b3  # xor x5, x5, x14
    .word 0x0e512023  # sw x5, 224(x2)
    .word 0x12012283  # lw x5, 288(x2)
    .word 0x00e2c2b3  # xor x5, x5, x14
    .word 0x12512023  # sw x5, 288(x2)
    .word 0x40b002b3  # sub x5, x0, x11
    .word 0x0e412303  # lw x6, 228(x2)
    .word 0x12412383  # lw x7, 292(x2)
    .word 0x00734333  # xor x6, x6, x7
    .word 0x0062f733  # and x14, x5, x6
    .word 0x0e412283  # lw x5, 228(x2)
    .word 0x00e2c2b3  # xor x5, x5, x14
    .word 0x0e512223  # sw x5, 228(x2)
    .word 0x12412283  # lw x5, 292(x2)
    .word 0x00e2c2b3  # xor x5, x5, x14
    .word 0x12512223  # sw x5, 292(x2)
    .word 0x40b002b3  # sub x5, x0, x11
    .word 0x0e812303  # lw x6, 232(x2)
    .word 0x12812383  # lw x7, 296(x2)
    .word 0x00734333  # xor x6, x6, x7
    .word 0x0062f733  # and x14, x5, x6
    .word 0x0e812283  # lw x5, 232(x2)
    .word 0x00e2c2b3  # xor x5, x5, x14
    .word 0x0e512423  # sw x5, 232(x2)
    .word 0x12812283  # lw x5, 296(x2)
    .word 0x00e2c2b3  # xor x5, x5, x14
    .word 0x12512423  # sw x5, 296(x2)
    .word 0x40b002b3  # sub x5, x0, x11
    .word 0x0ec12303  # lw x6, 236(x2)
    .word 0x12c12383  # lw x7, 300(x2)
    .word 0x00734333  # xor x6, x6, x7
    .word 0x0062f733  # and x14, x5, x6
    .word 0x0ec12283  # lw x5, 236(x2)
    .word 0x00e2c2b3  # xor x5, x5, x14
    .word 0x0e512623  # sw x5, 236(x2)
    .word 0x12c12283  # lw x5, 300(x2)
    .word 0x00e2c2b3  # xor x5, x5, x14
    .word 0x12512623  # sw x5, 300(x2)
    .word 0x40b002b3  # sub x5, x0, x11
    .word 0x0f012303  # lw x6, 240(x2)
    .word 0x13012383  # lw x7, 304(x2)
    .word 0x00734333  # xor x6, x6, x7
    .word 0x0062f733  # and x14, x5, x6
    .word 0x0f012283  # lw x5, 240(x2)
    .word 0x00e2c2b3  # xor x5, x5, x14
    .word 0x0e512823  # sw x5, 240(x2)
    .word 0x13012283  # lw x5, 304(x2)
    .word 0x00e2c2b3  # xor x5, x5, x14
    .word 0x12512823  # sw x5, 304(x2)
    .word 0x40b002b3  # sub x5, x0, x11
    .word 0x0f412303  # lw x6, 244(x2)
    .word 0x13412383  # lw x7, 308(x2)
    .word 0x00734333  # xor x6, x6, x7
    .word 0x0062f733  # and x14, x5, x6
    .word 0x0f412283  # lw x5, 244(x2)
    .word 0x00e2c2b3  # xor x5, x5, x14
    .word 0x0e512a23  # sw x5, 244(x2)
    .word 0x13412283  # lw x5, 308(x2)
    .word 0x00e2c2b3  # xor x5, x5, x14
    .word 0x12512a23  # sw x5, 308(x2)
    .word 0x40b002b3  # sub x5, x0, x11
    .word 0x0f812303  # lw x6, 248(x2)
    .word 0x13812383  # lw x7, 312(x2)
    .word 0x00734333  # xor x6, x6, x7
    .word 0x0062f733  # and x14, x5, x6
    .word 0x0f812283  # lw x5, 248(x2)
    .word 0x00e2c2b3  # xor x5, x5, x14
    .word 0x0e512c23  # sw x5, 248(x2)
    .word 0x13812283  # lw x5, 312(x2)
    .word 0x00e2c2b3  # xor x5, x5, x14
    .word 0x12512c23  # sw x5, 312(x2)
    .word 0x40b002b3  # sub x5, x0, x11
    .word 0x0fc12303  # lw x6, 252(x2)
    .word 0x13c12383  # lw x7, 316(x2)
    .word 0x00734333  # xor x6, x6, x7
    .word 0x0062f733  # and x14, x5, x6
    .word 0x0fc12283  # lw x5, 252(x2)
    .word 0x00e2c2b3  # xor x5, x5, x14
    .word 0x0e512e23  # sw x5, 252(x2)
    .word 0x13c12283  # lw x5, 316(x2)
    .word 0x00e2c2b3  # xor x5, x5, x14
    .word 0x12512e23  # sw x5, 316(x2)
    .word 0x40b002b3  # sub x5, x0, x11
    .word 0x10012303  # lw x6, 256(x2)
    .word 0x14012383  # lw x7, 320(x2)
    .word 0x00734333  # xor x6, x6, x7
    .word 0x0062f733  # and x14, x5, x6
    .word 0x10012283  # lw x5, 256(x2)
    .word 0x00e2c2b3  # xor x5, x5, x14
    .word 0x10512023  # sw x5, 256(x2)
    .word 0x14012283  # lw x5, 320(x2)
    .word 0x00e2c2b3  # xor x5, x5, x14
    .word 0x14512023  # sw x5, 320(x2)
    .word 0x30012c23  # sw x0, 792(x2)
    .word 0x01100293  # addi x5, x0, 17
    .word 0x30512e23  # sw x5, 796(x2)
    .word 0x31812303  # lw x6, 792(x2)
    .word 0x31c12283  # lw x5, 796(x2)
    .word 0x005332b3  # sltu x5, x6, x5
    .word 0x00029463  # bne x5, x0, 8
    .word 0x1280106f  # jal x0, 4392
    .word 0x2e612423  # sw x6, 744(x2)
    .word 0x00130313  # addi x6, x6, 1
    .word 0x30612c23  # sw x6, 792(x2)
    .word 0x2e812283  # lw x5, 744(x2)
    .word 0x00129513  # slli x10, x5, 1
    .word 0x00250533  # add x10, x10, x2
    .word 0x2c455503  # lhu x10, 708(x10)
    .word 0x00251d93  # slli x27, x10, 2
    .word 0x002d8db3  # add x27, x27, x2
    .word 0x00c55293  # srli x5, x10, 12
    .word 0x2e512823  # sw x5, 752(x2)
    .word 0x00555293  # srli x5, x10, 5
    .word 0x0782f293  # andi x5, x5, 120
    .word 0x2e512623  # sw x5, 748(x2)
    .word 0x00155293  # srli x5, x10, 1
    .word 0x0782f693  # andi x13, x5, 120
    .word 0x00269493  # slli x9, x13, 2
    .word 0x002484b3  # add x9, x9, x2
    .word 0x00351293  # slli x5, x10, 3
    .word 0x0782f513  # andi x10, x5, 120
    .word 0x00251d93  # slli x27, x10, 2
    .word 0x002d8db3  # add x27, x27, x2
    .word 0x2f012283  # lw x5, 752(x2)
    .word 0x2a029ce3  # bne x5, x0, 2744
    .word 0x00000893  # addi x17, x0, 0
    .word 0x00000913  # addi x18, x0, 0
    .word 0x00000993  # addi x19, x0, 0
    .word 0x2e012a23  # sw x0, 756(x2)
    .word 0x00000a13  # addi x20, x0, 0
    .word 0x2e012c23  # sw x0, 760(x2)
    .word 0x2e012e23  # sw x0, 764(x2)
    .word 0x30012023  # sw x0, 768(x2)
    .word 0x0a44aa83  # lw x21, 164(x9)
    .word 0x0a84ab03  # lw x22, 168(x9)
    .word 0x0ac4ab83  # lw x23, 172(x9)
    .word 0x0b04ac03  # lw x24, 176(x9)
    .word 0x0b44ac83  # lw x25, 180(x9)
    .word 0x0b84a283  # lw x5, 184(x9)
    .word 0x30512223  # sw x5, 772(x2)
    .word 0x0bc4a283  # lw x5, 188(x9)
    .word 0x30512423  # sw x5, 776(x2)
    .word 0x0c04ad03  # lw x26, 192(x9)
    .word 0x64a69463  # bne x13, x10, 1608
    .word 0x01300293  # addi x5, x0, 19
    .word 0x01fd5313  # srli x6, x26, 31
    .word 0x02628733  # mul x14, x5, x6
    .word 0x30c12303  # lw x6, 780(x2)
    .word 0x006d7d33  # and x26, x26, x6
    .word 0x00ea8ab3  # add x21, x21, x14
    .word 0x00eab733  # sltu x14, x21, x14
    .word 0x00eb0b33  # add x22, x22, x14
    .word 0x00eb3733  # sltu x14, x22, x14
    .word 0x00eb8bb3  # add x23, x23, x14
    .word 0x00ebb733  # sltu x14, x23, x14
    .word 0x00ec0c33  # add x24, x24, x14
    .word 0x00ec3733  # sltu x14, x24, x14
    .word 0x00ec8cb3  # add x25, x25, x14
    .word 0x00ecb733  # sltu x14, x25, x14
    .word 0x30412283  # lw x5, 772(x2)
    .word 0x00e282b3  # add x5, x5, x14
    .word 0x30512223  # sw x5, 772(x2)
    .word 0x30412283  # lw x5, 772(x2)
    .word 0x00e2b733  # sltu x14, x5, x14
    .word 0x30812283  # lw x5, 776(x2)
    .word 0x00e282b3  # add x5, x5, x14
    .word 0x30512423  # sw x5, 776(x2)
    .word 0x30812283  # lw x5, 776(x2)
    .word 0x00e2b733  # sltu x14, x5, x14
    .word 0x00ed0d33  # add x26, x26, x14
    .word 0x01300313  # addi x6, x0, 19
    .word 0x01fd5393  # srli x7, x26, 31
    .word 0x02730333  # mul x6, x6, x7
    .word 0x006a8ab3  # add x21, x21, x6
    .word 0x30c12303  # lw x6, 780(x2)
    .word 0x006d7d33  # and x26, x26, x6
    .word 0x001b9293  # slli x5, x23, 1
    .word 0x01fb5313  # srli x6, x22, 31
    .word 0x0062e2b3  # or x5, x5, x6
    .word 0x2e512c23  # sw x5, 760(x2)
    .word 0x001c1293  # slli x5, x24, 1
    .word 0x01fbd313  # srli x6, x23, 31
    .word 0x0062e2b3  # or x5, x5, x6
    .word 0x2e512a23  # sw x5, 756(x2)
    .word 0x001c9293  # slli x5, x25, 1
    .word 0x01fc5313  # srli x6, x24, 31
    .word 0x0062e933  # or x18, x5, x6
    .word 0x30412283  # lw x5, 772(x2)
    .word 0x00129293  # slli x5, x5, 1
    .word 0x01fcd313  # srli x6, x25, 31
    .word 0x0062e8b3  # or x17, x5, x6
    .word 0x30812283  # lw x5, 776(x2)
    .word 0x00129293  # slli x5, x5, 1
    .word 0x30412303  # lw x6, 772(x2)
    .word 0x01f35313  # srli x6, x6, 31
    .word 0x0062e9b3  # or x19, x5, x6
    .word 0x001d1293  # slli x5, x26, 1
    .word 0x30812303  # lw x6, 776(x2)
    .word 0x01f35313  # srli x6, x6, 31
    .word 0x0062ea33  # or x20, x5, x6
    .word 0x035a87b3  # mul x15, x21, x21
    .word 0x035ab733  # mulhu x14, x21, x21
    .word 0x00f7b333  # sltu x6, x15, x15
    .word 0x00670733  # add x14, x14, x6
    .word 0x00e73833  # sltu x16, x14, x14
    .word 0x2af12223  # sw x15, 676(x2)
    .word 0x00070593  # addi x11, x14, 0
    .word 0x00080613  # addi x12, x16, 0
    .word 0x001b1713  # slli x14, x22, 1
    .word 0x02ea87b3  # mul x15, x21, x14
    .word 0x02eab733  # mulhu x14, x21, x14
    .word 0x00f585b3  # add x11, x11, x15
    .word 0x00f5b333  # sltu x6, x11, x15
    .word 0x00670733  # add x14, x14, x6
    .word 0x00e60633  # add x12, x12, x14
    .word 0x00e63833  # sltu x16, x12, x14
    .word 0x2ab12423  # sw x11, 680(x2)
    .word 0x00060593  # addi x11, x12, 0
    .word 0x00080613  # addi x12, x16, 0
    .word 0x036b07b3  # mul x15, x22, x22
    .word 0x036b3733  # mulhu x14, x22, x22
    .word 0x00f585b3  # add x11, x11, x15
    .word 0x00f5b333  # sltu x6, x11, x15
    .word 0x00670733  # add x14, x14, x6
    .word 0x00e60633  # add x12, x12, x14
    .word 0x00e63833  # sltu x16, x12, x14
    .word 0x2f812303  # lw x6, 760(x2)
    .word 0x026a87b3  # mul x15, x21, x6
    .word 0x2f812303  # lw x6, 760(x2)
    .word 0x026ab733  # mulhu x14, x21, x6
    .word 0x00f585b3  # add x11, x11, x15
    .word 0x00f5b333  # sltu x6, x11, x15
    .word 0x00670733  # add x14, x14, x6
    .word 0x00e60633  # add x12, x12, x14
    .word 0x00e63333  # sltu x6, x12, x14
    .word 0x00680833  # add x16, x16, x6
    .word 0x2ab12623  # sw x11, 684(x2)
    .word 0x00060593  # addi x11, x12, 0
    .word 0x00080613  # addi x12, x16, 0
    .word 0x001b9713  # slli x14, x23, 1
    .word 0x02eb07b3  # mul x15, x22, x14
    .word 0x02eb3733  # mulhu x14, x22, x14
    .word 0x00f585b3  # add x11, x11, x15
    .word 0x00f5b333  # sltu x6, x11, x15
    .word 0x00670733  # add x14, x14, x6
    .word 0x00e60633  # add x12, x12, x14
    .word 0x00e63833  # sltu x16, x12, x14
    .word 0x2f412303  # lw x6, 756(x2)
    .word 0x026a87b3  # mul x15, x21, x6
    .word 0x2f412303  # lw x6, 756(x2)
    .word 0x026ab733  # mulhu x14, x21, x6
    .word 0x00f585b3  # add x11, x11, x15
    .word 0x00f5b333  # sltu x6, x11, x15
    .word 0x00670733  # add x14, x14, x6
    .word 0x00e60633  # add x12, x12, x14
    .word 0x00e63333  # sltu x6, x12, x14
    .word 0x00680833  # add x16, x16, x6
    .word 0x2ab12823  # sw x11, 688(x2)
    .word 0x00060593  # addi x11, x12, 0
    .word 0x00080613  # addi x12, x16, 0
    .word 0x037b87b3  # mul x15, x23, x23
    .word 0x037bb733  # mulhu x14, x23, x23
    .word 0x00f585b3  # add x11, x11, x15
    .word 0x00f5b333  # sltu x6, x11, x15
    .word 0x00670733  # add x14, x14, x6
    .word 0x00e60633  # add x12, x12, x14
    .word 0x00e63833  # sltu x16, x12, x14
    .word 0x2f412303  # lw x6, 756(x2)
    .word 0x026b07b3  # mul x15, x22, x6
    .word 0x2f412303  # lw x6, 756(x2)
    .word 0x026b3733  # mulhu x14, x22, x6
    .word 0x00f585b3  # add x11, x11, x15
    .word 0x00f5b333  # sltu x6, x11, x15
    .word 0x00670733  # add x14, x14, x6
    .word 0x00e60633  # add x12, x12, x14
    .word 0x00e63333  # sltu x6, x12, x14
    .word 0x00680833  # add x16, x16, x6
    .word 0x032a87b3  # mul x15, x21, x18
    .word 0x032ab733  # mulhu x14, x21, x18
    .word 0x00f585b3  # add x11, x11, x15
    .word 0x00f5b333  # sltu x6, x11, x15
    .word 0x00670733  # add x14, x14, x6
    .word 0x00e60633  # add x12, x12, x14
    .word 0x00e63333  # sltu x6, x12, x14
    .word 0x00680833  # add x16, x16, x6
    .word 0x2ab12a23  # sw x11, 692(x2)
    .word 0x00060593  # addi x11, x12, 0
    .word 0x00080613  # addi x12, x16, 0
    .word 0x001c1713  # slli x14, x24, 1
    .word 0x02eb87b3  # mul x15, x23, x14
    .word 0x02ebb733  # mulhu x14, x23, x14
    .word 0x00f585b3  # add x11, x11, x15
    .word 0x00f5b333  # sltu x6, x11, x15
    .word 0x00670733  # add x14, x14, x6
    .word 0x00e60633  # add x12, x12, x14
    .word 0x00e63833  # sltu x16, x12, x14
    .word 0x032b07b3  # mul x15, x22, x18
    .word 0x032b3733  # mulhu x14, x22, x18
    .word 0x00f585b3  # add x11, x11, x15
    .word 0x00f5b333  # sltu x6, x11, x15
    .word 0x00670733  # add x14, x14, x6
    .word 0x00e60633  # add x12, x12, x14
    .word 0x00e63333  # sltu x6, x12, x14
    .word 0x00680833  # add x16, x16, x6
    .word 0x031a87b3  # mul x15, x21, x17
    .word 0x031ab733  # mulhu x14, x21, x17
    .word 0x00f585b3  # add x11, x11, x15
    .word 0x00f5b333  # sltu x6, x11, x15
    .word 0x00670733  # add x14, x14, x6
    .word 0x00e60633  # add x12, x12, x14
    .word 0x00e63333  # sltu x6, x12, x14
    .word 0x00680833  # add x16, x16, x6
    .word 0x2ab12c23  # sw x11, 696(x2)
    .word 0x00060593  # addi x11, x12, 0
    .word 0x00080613  # addi x12, x16, 0
    .word 0x038c07b3  # mul x15, x24, x24
    .word 0x038c3733  # mulhu x14, x24, x24
    .word 0x00f585b3  # add x11, x11, x15
    .word 0x00f5b333  # sltu x6, x11, x15
    .word 0x00670733  # add x14, x14, x6
    .word 0x00e60633  # add x12, x12, x14
    .word 0x00e63833  # sltu x16, x12, x14
    .word 0x032b87b3  # mul x15, x23, x18
    .word 0x032bb733  # mulhu x14, x23, x18
    .word 0x00f585b3  # add x11, x11, x15
    .word 0x00f5b333  # sltu x6, x11, x15
    .word 0x00670733  # add x14, x14, x6
    .word 0x00e60633  # add x12, x12, x14
    .word 0x00e63333  # sltu x6, x12, x14
    .word 0x00680833  # add x16, x16, x6
    .word 0x031b07b3  # mul x15, x22, x17
    .word 0x031b3733  # mulhu x14, x22, x17
    .word 0x00f585b3  # add x11, x11, x15
    .word 0x00f5b333  # sltu x6, x11, x15
    .word 0x00670733  # add x14, x14, x6
    .word 0x00e60633  # add x12, x12, x14
    .word 0x00e63333  # sltu x6, x12, x14
    .word 0x00680833  # add x16, x16, x6
    .word 0x033a87b3  # mul x15, x21, x19
    .word 0x033ab733  # mulhu x14, x21, x19
    .word 0x00f585b3  # add x11, x11, x15
    .word 0x00f5b333  # sltu x6, x11, x15
    .word 0x00670733  # add x14, x14, x6
    .word 0x00e60633  # add x12, x12, x14
    .word 0x00e63333  # sltu x6, x12, x14
    .word 0x00680833  # add x16, x16, x6
    .word 0x2ab12e23  # sw x11, 700(x2)
    .word 0x00060593  # addi x11, x12, 0
    .word 0x00080613  # addi x12, x16, 0
    .word 0x001c9713  # slli x14, x25, 1
    .word 0x02ec07b3  # mul x15, x24, x14
    .word 0x02ec3733  # mulhu x14, x24, x14
    .word 0x00f585b3  # add x11, x11, x15
    .word 0x00f5b333  # sltu x6, x11, x15
    .word 0x00670733  # add x14, x14, x6
    .word 0x00e60633  # add x12, x12, x14
    .word 0x00e63833  # sltu x16, x12, x14
    .word 0x031b87b3  # mul x15, x23, x17
    .word 0x031bb733  # mulhu x14, x23, x17
    .word 0x00f585b3  # add x11, x11, x15
    .word 0x00f5b333  # sltu x6, x11, x15
    .word 0x00670733  # add x14, x14, x6
    .word 0x00e60633  # add x12, x12, x14
    .word 0x00e63333  # sltu x6, x12, x14
    .word 0x00680833  # add x16, x16, x6
    .word 0x033b07b3  # mul x15, x22, x19
    .word 0x033b3733  # mulhu x14, x22, x19
    .word 0x00f585b3  # add x11, x11, x15
    .word 0x00f5b333  # sltu x6, x11, x15
    .word 0x00670733  # add x14, x14, x6
    .word 0x00e60633  # add x12, x12, x14
    .word 0x00e63333  # sltu x6, x12, x14
    .word 0x00680833  # add x16, x16, x6
    .word 0x034a87b3  # mul x15, x21, x20
    .word 0x034ab733  # mulhu x14, x21, x20
    .word 0x00f585b3  # add x11, x11, x15
    .word 0x00f5b333  # sltu x6, x11, x15
    .word 0x00670733  # add x14, x14, x6
    .word 0x00e60633  # add x12, x12, x14
    .word 0x00e63333  # sltu x6, x12, x14
    .word 0x00680833  # add x16, x16, x6
    .word 0x2cb12023  # sw x11, 704(x2)
    .word 0x00060593  # addi x11, x12, 0
    .word 0x00080613  # addi x12, x16, 0
    .word 0x039c87b3  # mul x15, x25, x25
    .word 0x039cb733  # mulhu x14, x25, x25
    .word 0x00f585b3  # add x11, x11, x15
    .word 0x00f5b333  # sltu x6, x11, x15
    .word 0x00670733  # add x14, x14, x6
    .word 0x00e60633  # add x12, x12, x14
    .word 0x00e63833  # sltu x16, x12, x14
    .word 0x031c07b3  # mul x15, x24, x17
    .word 0x031c3733  # mulhu x14, x24, x17
    .word 0x00f585b3  # add x11, x11, x15
    .word 0x00f5b333  # sltu x6, x11, x15
    .word 0x00670733  # add x14, x14, x6
    .word 0x00e60633  # add x12, x12, x14
    .word 0x00e63333  # sltu x6, x12, x14
    .word 0x00680833  # add x16, x16, x6
    .word 0x033b87b3  # mul x15, x23, x19
    .word 0x033bb733  # mulhu x14, x23, x19
    .word 0x00f585b3  # add x11, x11, x15
    .word 0x00f5b333  # sltu x6, x11, x15
    .word 0x00670733  # add x14, x14, x6
    .word 0x00e60633  # add x12, x12, x14
    .word 0x00e63333  # sltu x6, x12, x14
    .word 0x00680833  # add x16, x16, x6
    .word 0x034b07b3  # mul x15, x22, x20
    .word 0x034b3733  # mulhu x14, x22, x20
    .word 0x00f585b3  # add x11, x11, x15
    .word 0x00f5b333  # sltu x6, x11, x15
    .word 0x00670733  # add x14, x14, x6
    .word 0x00e60633  # add x12, x12, x14
    .word 0x00e63333  # sltu x6, x12, x14
    .word 0x00680833  # add x16, x16, x6
    .word 0x00058893  # addi x17, x11, 0
    .word 0x00060593  # addi x11, x12, 0
    .word 0x00080613  # addi x12, x16, 0
    .word 0x30412283  # lw x5, 772(x2)
    .word 0x00129713  # slli x14, x5, 1
    .word 0x02ec87b3  # mul x15, x25, x14
    .word 0x02ecb733  # mulhu x14, x25, x14
    .word 0x00f585b3  # add x11, x11, x15
    .word 0x00f5b333  # sltu x6, x11, x15
    .word 0x00670733  # add x14, x14, x6
    .word 0x00e60633  # add x12, x12, x14
    .word 0x00e63833  # sltu x16, x12, x14
    .word 0x033c07b3  # mul x15, x24, x19
    .word 0x033c3733  # mulhu x14, x24, x19
    .word 0x00f585b3  # add x11, x11, x15
    .word 0x00f5b333  # sltu x6, x11, x15
    .word 0x00670733  # add x14, x14, x6
    .word 0x00e60633  # add x12, x12, x14
    .word 0x00e63333  # sltu x6, x12, x14
    .word 0x00680833  # add x16, x16, x6
    .word 0x034b87b3  # mul x15, x23, x20
    .word 0x034bb733  # mulhu x14, x23, x20
    .word 0x00f585b3  # add x11, x11, x15
    .word 0x00f5b333  # sltu x6, x11, x15
    .word 0x00670733  # add x14, x14, x6
    .word 0x00e60633  # add x12, x12, x14
    .word 0x00e63333  # sltu x6, x12, x14
    .word 0x00680833  # add x16, x16, x6
    .word 0x00058913  # addi x18, x11, 0
    .word 0x00060593  # addi x11, x12, 0
    .word 0x00080613  # addi x12, x16, 0
    .word 0x30412283  # lw x5, 772(x2)
    .word 0x30412303  # lw x6, 772(x2)
    .word 0x026287b3  # mul x15, x5, x6
    .word 0x30412283  # lw x5, 772(x2)
    .word 0x30412303  # lw x6, 772(x2)
    .word 0x0262b733  # mulhu x14, x5, x6
    .word 0x00f585b3  # add x11, x11, x15
    .word 0x00f5b333  # sltu x6, x11, x15
    .word 0x00670733  # add x14, x14, x6
    .word 0x00e60633  # add x12, x12, x14
    .word 0x00e63833  # sltu x16, x12, x14
    .word 0x033c87b3  # mul x15, x25, x19
    .word 0x033cb733  # mulhu x14, x25, x19
    .word 0x00f585b3  # add x11, x11, x15
    .word 0x00f5b333  # sltu x6, x11, x15
    .word 0x00670733  # add x14, x14, x6
    .word 0x00e60633  # add x12, x12, x14
    .word 0x00e63333  # sltu x6, x12, x14
    .word 0x00680833  # add x16, x16, x6
    .word 0x034c07b3  # mul x15, x24, x20
    .word 0x034c3733  # mulhu x14, x24, x20
    .word 0x00f585b3  # add x11, x11, x15
    .word 0x00f5b333  # sltu x6, x11, x15
    .word 0x00670733  # add x14, x14, x6
    .word 0x00e60633  # add x12, x12, x14
    .word 0x00e63333  # sltu x6, x12, x14
    .word 0x00680833  # add x16, x16, x6
    .word 0x00058993  # addi x19, x11, 0
    .word 0x00060593  # addi x11, x12, 0
    .word 0x00080613  # addi x12, x16, 0
    .word 0x30812283  # lw x5, 776(x2)
    .word 0x00129713  # slli x14, x5, 1
    .word 0x30412283  # lw x5, 772(x2)
    .word 0x02e287b3  # mul x15, x5, x14
    .word 0x30412283  # lw x5, 772(x2)
    .word 0x02e2b733  # mulhu x14, x5, x14
    .word 0x00f585b3  # add x11, x11, x15
    .word 0x00f5b333  # sltu x6, x11, x15
    .word 0x00670733  # add x14, x14, x6
    .word 0x00e60633  # add x12, x12, x14
    .word 0x00e63833  # sltu x16, x12, x14
    .word 0x034c87b3  # mul x15, x25, x20
    .word 0x034cb733  # mulhu x14, x25, x20
    .word 0x00f585b3  # add x11, x11, x15
    .word 0x00f5b333  # sltu x6, x11, x15
    .word 0x00670733  # add x14, x14, x6
    .word 0x00e60633  # add x12, x12, x14
    .word 0x00e63333  # sltu x6, x12, x14
    .word 0x00680833  # add x16, x16, x6
    .word 0x2eb12a23  # sw x11, 756(x2)
    .word 0x00060593  # addi x11, x12, 0
    .word 0x00080613  # addi x12, x16, 0
    .word 0x30812283  # lw x5, 776(x2)
    .word 0x30812303  # lw x6, 776(x2)
    .word 0x026287b3  # mul x15, x5, x6
    .word 0x30812283  # lw x5, 776(x2)
    .word 0x30812303  # lw x6, 776(x2)
    .word 0x0262b733  # mulhu x14, x5, x6
    .word 0x00f585b3  # add x11, x11, x15
    .word 0x00f5b333  # sltu x6, x11, x15
    .word 0x00670733  # add x14, x14, x6
    .word 0x00e60633  # add x12, x12, x14
    .word 0x00e63833  # sltu x16, x12, x14
    .word 0x30412283  # lw x5, 772(x2)
    .word 0x034287b3  # mul x15, x5, x20
    .word 0x30412283  # lw x5, 772(x2)
    .word 0x0342b733  # mulhu x14, x5, x20
    .word 0x00f585b3  # add x11, x11, x15
    .word 0x00f5b333  # sltu x6, x11, x15
    .word 0x00670733  # add x14, x14, x6
    .word 0x00e60633  # add x12, x12, x14
    .word 0x00e63333  # sltu x6, x12, x14
    .word 0x00680833  # add x16, x16, x6
    .word 0x00058a13  # addi x20, x11, 0
    .word 0x00060593  # addi x11, x12, 0
    .word 0x00080613  # addi x12, x16, 0
    .word 0x001d1713  # slli x14, x26, 1
    .word 0x30812283  # lw x5, 776(x2)
    .word 0x02e287b3  # mul x15, x5, x14
    .word 0x30812283  # lw x5, 776(x2)
    .word 0x02e2b733  # mulhu x14, x5, x14
    .word 0x00f585b3  # add x11, x11, x15
    .word 0x00f5b333  # sltu x6, x11, x15
    .word 0x00670733  # add x14, x14, x6
    .word 0x00e60633  # add x12, x12, x14
    .word 0x00e63833  # sltu x16, x12, x14
    .word 0x2eb12c23  # sw x11, 760(x2)
    .word 0x00060593  # addi x11, x12, 0
    .word 0x00080613  # addi x12, x16, 0
    .word 0x03ad07b3  # mul x15, x26, x26
    .word 0x03ad3733  # mulhu x14, x26, x26
    .word 0x00f585b3  # add x11, x11, x15
    .word 0x00f5b333  # sltu x6, x11, x15
    .word 0x00670733  # add x14, x14, x6
    .word 0x00e60633  # add x12, x12, x14
    .word 0x2eb12e23  # sw x11, 764(x2)
    .word 0x00060593  # addi x11, x12, 0
    .word 0x30b12023  # sw x11, 768(x2)
    .word 0x18c0006f  # jal x0, 396
    .word 0x2b512223  # sw x21, 676(x2)
    .word 0x2b612423  # sw x22, 680(x2)
    .word 0x2b712623  # sw x23, 684(x2)
    .word 0x2b812823  # sw x24, 688(x2)
    .word 0x2b912a23  # sw x25, 692(x2)
    .word 0x30412283  # lw x5, 772(x2)
    .word 0x2a512c23  # sw x5, 696(x2)
    .word 0x30812283  # lw x5, 776(x2)
    .word 0x2a512e23  # sw x5, 700(x2)
    .word 0x2da12023  # sw x26, 704(x2)
    .word 0xfff00693  # addi x13, x0, -1
    .word 0x00168693  # addi x13, x13, 1
    .word 0x00269493  # slli x9, x13, 2
    .word 0x002484b3  # add x9, x9, x2
    .word 0x2a44a583  # lw x11, 676(x9)
    .word 0x0a4da703  # lw x14, 164(x27)
    .word 0x02e587b3  # mul x15, x11, x14
    .word 0x02e5b833  # mulhu x16, x11, x14
    .word 0x00f88733  # add x14, x17, x15
    .word 0x2ae4a223  # sw x14, 676(x9)
    .word 0x00f73333  # sltu x6, x14, x15
    .word 0x00680633  # add x12, x16, x6
    .word 0x0a8da703  # lw x14, 168(x27)
    .word 0x02e587b3  # mul x15, x11, x14
    .word 0x02e5b833  # mulhu x16, x11, x14
    .word 0x00f90733  # add x14, x18, x15
    .word 0x00c708b3  # add x17, x14, x12
    .word 0x00f73333  # sltu x6, x14, x15
    .word 0x006802b3  # add x5, x16, x6
    .word 0x00c8b333  # sltu x6, x17, x12
    .word 0x00628633  # add x12, x5, x6
    .word 0x0acda703  # lw x14, 172(x27)
    .word 0x02e587b3  # mul x15, x11, x14
    .word 0x02e5b833  # mulhu x16, x11, x14
    .word 0x00f98733  # add x14, x19, x15
    .word 0x00c70933  # add x18, x14, x12
    .word 0x00f73333  # sltu x6, x14, x15
    .word 0x006802b3  # add x5, x16, x6
    .word 0x00c93333  # sltu x6, x18, x12
    .word 0x00628633  # add x12, x5, x6
    .word 0x0b0da703  # lw x14, 176(x27)
    .word 0x02e587b3  # mul x15, x11, x14
    .word 0x02e5b833  # mulhu x16, x11, x14
    .word 0x2f412283  # lw x5, 756(x2)
    .word 0x00f28733  # add x14, x5, x15
    .word 0x00c709b3  # add x19, x14, x12
    .word 0x00f73333  # sltu x6, x14, x15
    .word 0x006802b3  # add x5, x16, x6
    .word 0x00c9b333  # sltu x6, x19, x12
    .word 0x00628633  # add x12, x5, x6
    .word 0x0b4da703  # lw x14, 180(x27)
    .word 0x02e587b3  # mul x15, x11, x14
    .word 0x02e5b833  # mulhu x16, x11, x14
    .word 0x00fa0733  # add x14, x20, x15
    .word 0x00c702b3  # add x5, x14, x12
    .word 0x2e512a23  # sw x5, 756(x2)
    .word 0x00f73333  # sltu x6, x14, x15
    .word 0x006802b3  # add x5, x16, x6
    .word 0x2f412303  # lw x6, 756(x2)
    .word 0x00c33333  # sltu x6, x6, x12
    .word 0x00628633  # add x12, x5, x6
    .word 0x0b8da703  # lw x14, 184(x27)
    .word 0x02e587b3  # mul x15, x11, x14
    .word 0x02e5b833  # mulhu x16, x11, x14
    .word 0x2f812283  # lw x5, 760(x2)
    .word 0x00f28733  # add x14, x5, x15
    .word 0x00c70a33  # add x20, x14, x12
    .word 0x00f73333  # sltu x6, x14, x15
    .word 0x006802b3  # add x5, x16, x6
    .word 0x00ca3333  # sltu x6, x20, x12
    .word 0x00628633  # add x12, x5, x6
    .word 0x0bcda703  # lw x14, 188(x27)
    .word 0x02e587b3  # mul x15, x11, x14
    .word 0x02e5b833  # mulhu x16, x11, x14
    .word 0x2fc12283  # lw x5, 764(x2)
    .word 0x00f28733  # add x14, x5, x15
    .word 0x00c702b3  # add x5, x14, x12
    .word 0x2e512c23  # sw x5, 760(x2)
    .word 0x00f73333  # sltu x6, x14, x15
    .word 0x006802b3  # add x5, x16, x6
    .word 0x2f812303  # lw x6, 760(x2)
    .word 0x00c33333  # sltu x6, x6, x12
    .word 0x00628633  # add x12, x5, x6
    .word 0x0c0da703  # lw x14, 192(x27)
    .word 0x02e587b3  # mul x15, x11, x14
    .word 0x02e5b833  # mulhu x16, x11, x14
    .word 0x30012283  # lw x5, 768(x2)
    .word 0x00f28733  # add x14, x5, x15
    .word 0x00c702b3  # add x5, x14, x12
    .word 0x2e512e23  # sw x5, 764(x2)
    .word 0x00f73333  # sltu x6, x14, x15
    .word 0x006802b3  # add x5, x16, x6
    .word 0x2fc12303  # lw x6, 764(x2)
    .word 0x00c33333  # sltu x6, x6, x12
    .word 0x00628633  # add x12, x5, x6
    .word 0x30c12023  # sw x12, 768(x2)
    .word 0xff968293  # addi x5, x13, -7
    .word 0xea0294e3  # bne x5, x0, -344
    .word 0x02600313  # addi x6, x0, 38
    .word 0x026885b3  # mul x11, x17, x6
    .word 0x02600313  # addi x6, x0, 38
    .word 0x0268b7b3  # mulhu x15, x17, x6
    .word 0x2a412283  # lw x5, 676(x2)
    .word 0x00b28633  # add x12, x5, x11
    .word 0x00060a93  # addi x21, x12, 0
    .word 0x00b63333  # sltu x6, x12, x11
    .word 0x00678733  # add x14, x15, x6
    .word 0x02600313  # addi x6, x0, 38
    .word 0x026905b3  # mul x11, x18, x6
    .word 0x02600313  # addi x6, x0, 38
    .word 0x026937b3  # mulhu x15, x18, x6
    .word 0x2a812283  # lw x5, 680(x2)
    .word 0x00b28633  # add x12, x5, x11
    .word 0x00e60b33  # add x22, x12, x14
    .word 0x00b63333  # sltu x6, x12, x11
    .word 0x006782b3  # add x5, x15, x6
    .word 0x00eb3333  # sltu x6, x22, x14
    .word 0x00628733  # add x14, x5, x6
    .word 0x02600313  # addi x6, x0, 38
    .word 0x026985b3  # mul x11, x19, x6
    .word 0x02600313  # addi x6, x0, 38
    .word 0x0269b7b3  # mulhu x15, x19, x6
    .word 0x2ac12283  # lw x5, 684(x2)
    .word 0x00b28633  # add x12, x5, x11
    .word 0x00e60bb3  # add x23, x12, x14
    .word 0x00b63333  # sltu x6, x12, x11
    .word 0x006782b3  # add x5, x15, x6
    .word 0x00ebb333  # sltu x6, x23, x14
    .word 0x00628733  # add x14, x5, x6
    .word 0x2f412283  # lw x5, 756(x2)
    .word 0x02600313  # addi x6, x0, 38
    .word 0x026285b3  # mul x11, x5, x6
    .word 0x2f412283  # lw x5, 756(x2)
    .word 0x02600313  # addi x6, x0, 38
    .word 0x0262b7b3  # mulhu x15, x5, x6
    .word 0x2b012283  # lw x5, 688(x2)
    .word 0x00b28633  # add x12, x5, x11
    .word 0x00e60c33  # add x24, x12, x14
    .word 0x00b63333  # sltu x6, x12, x11
    .word 0x006782b3  # add x5, x15, x6
    .word 0x00ec3333  # sltu x6, x24, x14
    .word 0x00628733  # add x14, x5, x6
    .word 0x02600313  # addi x6, x0, 38
    .word 0x026a05b3  # mul x11, x20, x6
    .word 0x02600313  # addi x6, x0, 38
    .word 0x026a37b3  # mulhu x15, x20, x6
    .word 0x2b412283  # lw x5, 692(x2)
    .word 0x00b28633  # add x12, x5, x11
    .word 0x00e60cb3  # add x25, x12, x14
    .word 0x00b63333  # sltu x6, x12, x11
    .word 0x006782b3  # add x5, x15, x6
    .word 0x00ecb333  # sltu x6, x25, x14
    .word 0x00628733  # add x14, x5, x6
    .word 0x2f812283  # lw x5, 760(x2)
    .word 0x02600313  # addi x6, x0, 38
    .word 0x026285b3  # mul x11, x5, x6
    .word 0x2f812283  # lw x5, 760(x2)
    .word 0x02600313  # addi x6, x0, 38
    .word 0x0262b7b3  # mulhu x15, x5, x6
    .word 0x2b812283  # lw x5, 696(x2)
    .word 0x00b28633  # add x12, x5, x11
    .word 0x00e602b3  # add x5, x12, x14
    .word 0x30512223  # sw x5, 772(x2)
    .word 0x00b63333  # sltu x6, x12, x11
    .word 0x006782b3  # add x5, x15, x6
    .word 0x30412303  # lw x6, 772(x2)
    .word 0x00e33333  # sltu x6, x6, x14
    .word 0x00628733  # add x14, x5, x6
    .word 0x2fc12283  # lw x5, 764(x2)
    .word 0x02600313  # addi x6, x0, 38
    .word 0x026285b3  # mul x11, x5, x6
    .word 0x2fc12283  # lw x5, 764(x2)
    .word 0x02600313  # addi x6, x0, 38
    .word 0x0262b7b3  # mulhu x15, x5, x6
    .word 0x2bc12283  # lw x5, 700(x2)
    .word 0x00b28633  # add x12, x5, x11
    .word 0x00e602b3  # add x5, x12, x14
    .word 0x30512423  # sw x5, 776(x2)
    .word 0x00b63333  # sltu x6, x12, x11
    .word 0x006782b3  # add x5, x15, x6
    .word 0x30812303  # lw x6, 776(x2)
    .word 0x00e33333  # sltu x6, x6, x14
    .word 0x00628733  # add x14, x5, x6
    .word 0x30012283  # lw x5, 768(x2)
    .word 0x02600313  # addi x6, x0, 38
    .word 0x026285b3  # mul x11, x5, x6
    .word 0x30012283  # lw x5, 768(x2)
    .word 0x02600313  # addi x6, x0, 38
    .word 0x0262b7b3  # mulhu x15, x5, x6
    .word 0x2c012283  # lw x5, 704(x2)
    .word 0x00b28633  # add x12, x5, x11
    .word 0x00e60d33  # add x26, x12, x14
    .word 0x00b63333  # sltu x6, x12, x11
    .word 0x006782b3  # add x5, x15, x6
    .word 0x00ed3333  # sltu x6, x26, x14
    .word 0x00628733  # add x14, x5, x6
    .word 0x01300293  # addi x5, x0, 19
    .word 0x00171313  # slli x6, x14, 1
    .word 0x01fd5393  # srli x7, x26, 31
    .word 0x00736333  # or x6, x6, x7
    .word 0x02628733  # mul x14, x5, x6
    .word 0x30c12303  # lw x6, 780(x2)
    .word 0x006d7d33  # and x26, x26, x6
    .word 0x00ea8ab3  # add x21, x21, x14
    .word 0x00eab733  # sltu x14, x21, x14
    .word 0x00eb0b33  # add x22, x22, x14
    .word 0x00eb3733  # sltu x14, x22, x14
    .word 0x00eb8bb3  # add x23, x23, x14
    .word 0x00ebb733  # sltu x14, x23, x14
    .word 0x00ec0c33  # add x24, x24, x14
    .word 0x00ec3733  # sltu x14, x24, x14
    .word 0x00ec8cb3  # add x25, x25, x14
    .word 0x00ecb733  # sltu x14, x25, x14
    .word 0x30412283  # lw x5, 772(x2)
    .word 0x00e282b3  # add x5, x5, x14
    .word 0x30512223  # sw x5, 772(x2)
    .word 0x30412283  # lw x5, 772(x2)
    .word 0x00e2b733  # sltu x14, x5, x14
    .word 0x30812283  # lw x5, 776(x2)
    .word 0x00e282b3  # add x5, x5, x14
    .word 0x30512423  # sw x5, 776(x2)
    .word 0x30812283  # lw x5, 776(x2)
    .word 0x00e2b733  # sltu x14, x5, x14
    .word 0x00ed0d33  # add x26, x26, x14
    .word 0x01300313  # addi x6, x0, 19
    .word 0x01fd5393  # srli x7, x26, 31
    .word 0x02730333  # mul x6, x6, x7
    .word 0x006a8ab3  # add x21, x21, x6
    .word 0x30c12303  # lw x6, 780(x2)
    .word 0x006d7d33  # and x26, x26, x6
    .word 0x2ec12283  # lw x5, 748(x2)
    .word 0x00229293  # slli x5, x5, 2
    .word 0x002282b3  # add x5, x5, x2
    .word 0x0b52a223  # sw x21, 164(x5)
    .word 0x2ec12283  # lw x5, 748(x2)
    .word 0x00229293  # slli x5, x5, 2
    .word 0x002282b3  # add x5, x5, x2
    .word 0x0b62a423  # sw x22, 168(x5)
    .word 0x2ec12283  # lw x5, 748(x2)
    .word 0x00229293  # slli x5, x5, 2
    .word 0x002282b3  # add x5, x5, x2
    .word 0x0b72a623  # sw x23, 172(x5)
    .word 0x2ec12283  # lw x5, 748(x2)
    .word 0x00229293  # slli x5, x5, 2
    .word 0x002282b3  # add x5, x5, x2
    .word 0x0b82a823  # sw x24, 176(x5)
    .word 0x2ec12283  # lw x5, 748(x2)
    .word 0x00229293  # slli x5, x5, 2
    .word 0x002282b3  # add x5, x5, x2
    .word 0x0b92aa23  # sw x25, 180(x5)
    .word 0x2ec12283  # lw x5, 748(x2)
    .word 0x30412303  # lw x6, 772(x2)
    .word 0x00229293  # slli x5, x5, 2
    .word 0x002282b3  # add x5, x5, x2
    .word 0x0a62ac23  # sw x6, 184(x5)
    .word 0x2ec12283  # lw x5, 748(x2)
    .word 0x30812303  # lw x6, 776(x2)
    .word 0x00229293  # slli x5, x5, 2
    .word 0x002282b3  # add x5, x5, x2
    .word 0x0a62ae23  # sw x6, 188(x5)
    .word 0x2ec12283  # lw x5, 748(x2)
    .word 0x00229293  # slli x5, x5, 2
    .word 0x002282b3  # add x5, x5, x2
    .word 0x0da2a023  # sw x26, 192(x5)
    .word 0x6100006f  # jal x0, 1552
    .word 0x2f012283  # lw x5, 752(x2)
    .word 0x00100313  # addi x6, x0, 1
    .word 0x1c629863  # bne x5, x6, 464
    .word 0x0a44a583  # lw x11, 164(x9)
    .word 0x0a4da303  # lw x6, 164(x27)
    .word 0x00658633  # add x12, x11, x6
    .word 0x00060813  # addi x16, x12, 0
    .word 0x00b63733  # sltu x14, x12, x11
    .word 0x0a84a583  # lw x11, 168(x9)
    .word 0x0a8da303  # lw x6, 168(x27)
    .word 0x00658633  # add x12, x11, x6
    .word 0x00e60ab3  # add x21, x12, x14
    .word 0x00b632b3  # sltu x5, x12, x11
    .word 0x00eab333  # sltu x6, x21, x14
    .word 0x00628733  # add x14, x5, x6
    .word 0x0ac4a583  # lw x11, 172(x9)
    .word 0x0acda303  # lw x6, 172(x27)
    .word 0x00658633  # add x12, x11, x6
    .word 0x00e60b33  # add x22, x12, x14
    .word 0x00b632b3  # sltu x5, x12, x11
    .word 0x00eb3333  # sltu x6, x22, x14
    .word 0x00628733  # add x14, x5, x6
    .word 0x0b04a583  # lw x11, 176(x9)
    .word 0x0b0da303  # lw x6, 176(x27)
    .word 0x00658633  # add x12, x11, x6
    .word 0x00e60bb3  # add x23, x12, x14
    .word 0x00b632b3  # sltu x5, x12, x11
    .word 0x00ebb333  # sltu x6, x23, x14
    .word 0x00628733  # add x14, x5, x6
    .word 0x0b44a583  # lw x11, 180(x9)
    .word 0x0b4da303  # lw x6, 180(x27)
    .word 0x00658633  # add x12, x11, x6
    .word 0x00e60c33  # add x24, x12, x14
    .word 0x00b632b3  # sltu x5, x12, x11
    .word 0x00ec3333  # sltu x6, x24, x14
    .word 0x00628733  # add x14, x5, x6
    .word 0x0b84a583  # lw x11, 184(x9)
    .word 0x0b8da303  # lw x6, 184(x27)
    .word 0x00658633  # add x12, x11, x6
    .word 0x00e60cb3  # add x25, x12, x14
    .word 0x00b632b3  # sltu x5, x12, x11
    .word 0x00ecb333  # sltu x6, x25, x14
    .word 0x00628733  # add x14, x5, x6
    .word 0x0bc4a583  # lw x11, 188(x9)
    .word 0x0bcda303  # lw x6, 188(x27)
    .word 0x00658633  # add x12, x11, x6
    .word 0x00e60d33  # add x26, x12, x14
    .word 0x00b632b3  # sltu x5, x12, x11
    .word 0x00ed3333  # sltu x6, x26, x14
    .word 0x00628733  # add x14, x5, x6
    .word 0x0c04a583  # lw x11, 192(x9)
    .word 0x0c0da303  # lw x6, 192(x27)
    .word 0x00658633  # add x12, x11, x6
    .word 0x00e607b3  # add x15, x12, x14
    .word 0x00b632b3  # sltu x5, x12, x11
    .word 0x00e7b333  # sltu x6, x15, x14
    .word 0x00628733  # add x14, x5, x6
    .word 0x01300293  # addi x5, x0, 19
    .word 0x00171313  # slli x6, x14, 1
    .word 0x01f7d393  # srli x7, x15, 31
    .word 0x00736333  # or x6, x6, x7
    .word 0x02628733  # mul x14, x5, x6
    .word 0x30c12303  # lw x6, 780(x2)
    .word 0x0067f7b3  # and x15, x15, x6
    .word 0x00e80833  # add x16, x16, x14
    .word 0x00e83733  # sltu x14, x16, x14
    .word 0x00ea8ab3  # add x21, x21, x14
    .word 0x00eab733  # sltu x14, x21, x14
    .word 0x00eb0b33  # add x22, x22, x14
    .word 0x00eb3733  # sltu x14, x22, x14
    .word 0x00eb8bb3  # add x23, x23, x14
    .word 0x00ebb733  # sltu x14, x23, x14
    .word 0x00ec0c33  # add x24, x24, x14
    .word 0x00ec3733  # sltu x14, x24, x14
    .word 0x00ec8cb3  # add x25, x25, x14
    .word 0x00ecb733  # sltu x14, x25, x14
    .word 0x00ed0d33  # add x26, x26, x14
    .word 0x00ed3733  # sltu x14, x26, x14
    .word 0x00e787b3  # add x15, x15, x14
    .word 0x01300313  # addi x6, x0, 19
    .word 0x01f7d393  # srli x7, x15, 31
    .word 0x02730333  # mul x6, x6, x7
    .word 0x00680833  # add x16, x16, x6
    .word 0x30c12303  # lw x6, 780(x2)
    .word 0x0067f7b3  # and x15, x15, x6
    .word 0x2ec12283  # lw x5, 748(x2)
    .word 0x00229293  # slli x5, x5, 2
    .word 0x002282b3  # add x5, x5, x2
    .word 0x0b02a223  # sw x16, 164(x5)
    .word 0x2ec12283  # lw x5, 748(x2)
    .word 0x00229293  # slli x5, x5, 2
    .word 0x002282b3  # add x5, x5, x2
    .word 0x0b52a423  # sw x21, 168(x5)
    .word 0x2ec12283  # lw x5, 748(x2)
    .word 0x00229293  # slli x5, x5, 2
    .word 0x002282b3  # add x5, x5, x2
    .word 0x0b62a623  # sw x22, 172(x5)
    .word 0x2ec12283  # lw x5, 748(x2)
    .word 0x00229293  # slli x5, x5, 2
    .word 0x002282b3  # add x5, x5, x2
    .word 0x0b72a823  # sw x23, 176(x5)
    .word 0x2ec12283  # lw x5, 748(x2)
    .word 0x00229293  # slli x5, x5, 2
    .word 0x002282b3  # add x5, x5, x2
    .word 0x0b82aa23  # sw x24, 180(x5)
    .word 0x2ec12283  # lw x5, 748(x2)
    .word 0x00229293  # slli x5, x5, 2
    .word 0x002282b3  # add x5, x5, x2
    .word 0x0b92ac23  # sw x25, 184(x5)
    .word 0x2ec12283  # lw x5, 748(x2)
    .word 0x00229293  # slli x5, x5, 2
    .word 0x002282b3  # add x5, x5, x2
    .word 0x0ba2ae23  # sw x26, 188(x5)
    .word 0x2ec12283  # lw x5, 748(x2)
    .word 0x00229293  # slli x5, x5, 2
    .word 0x002282b3  # add x5, x5, x2
    .word 0x0cf2a023  # sw x15, 192(x5)
    .word 0x4380006f  # jal x0, 1080
    .word 0x2f012283  # lw x5, 752(x2)
    .word 0x00200313  # addi x6, x0, 2
    .word 0x1a629663  # bne x5, x6, 428
    .word 0x0a44a583  # lw x11, 164(x9)
    .word 0x0a4da603  # lw x12, 164(x27)
    .word 0x40c587b3  # sub x15, x11, x12
    .word 0x00078813  # addi x16, x15, 0
    .word 0x00c5b733  # sltu x14, x11, x12
    .word 0x0a84a583  # lw x11, 168(x9)
    .word 0x0a8da603  # lw x12, 168(x27)
    .word 0x40c587b3  # sub x15, x11, x12
    .word 0x40e78ab3  # sub x21, x15, x14
    .word 0x00c5b2b3  # sltu x5, x11, x12
    .word 0x00e7b333  # sltu x6, x15, x14
    .word 0x00628733  # add x14, x5, x6
    .word 0x0ac4a583  # lw x11, 172(x9)
    .word 0x0acda603  # lw x12, 172(x27)
    .word 0x40c587b3  # sub x15, x11, x12
    .word 0x40e78b33  # sub x22, x15, x14
    .word 0x00c5b2b3  # sltu x5, x11, x12
    .word 0x00e7b333  # sltu x6, x15, x14
    .word 0x00628733  # add x14, x5, x6
    .word 0x0b04a583  # lw x11, 176(x9)
    .word 0x0b0da603  # lw x12, 176(x27)
    .word 0x40c587b3  # sub x15, x11, x12
    .word 0x40e78bb3  # sub x23, x15, x14
    .word 0x00c5b2b3  # sltu x5, x11, x12
    .word 0x00e7b333  # sltu x6, x15, x14
    .word 0x00628733  # add x14, x5, x6
    .word 0x0b44a583  # lw x11, 180(x9)
    .word 0x0b4da603  # lw x12, 180(x27)
    .word 0x40c587b3  # sub x15, x11, x12
    .word 0x40e78c33  # sub x24, x15, x14
    .word 0x00c5b2b3  # sltu x5, x11, x12
    .word 0x00e7b333  # sltu x6, x15, x14
    .word 0x00628733  # add x14, x5, x6
    .word 0x0b84a583  # lw x11, 184(x9)
    .word 0x0b8da603  # lw x12, 184(x27)
    .word 0x40c587b3  # sub x15, x11, x12
    .word 0x40e78cb3  # sub x25, x15, x14
    .word 0x00c5b2b3  # sltu x5, x11, x12
    .word 0x00e7b333  # sltu x6, x15, x14
    .word 0x00628733  # add x14, x5, x6
    .word 0x0bc4a583  # lw x11, 188(x9)
    .word 0x0bcda603  # lw x12, 188(x27)
    .word 0x40c587b3  # sub x15, x11, x12
    .word 0x40e78d33  # sub x26, x15, x14
    .word 0x00c5b2b3  # sltu x5, x11, x12
    .word 0x00e7b333  # sltu x6, x15, x14
    .word 0x00628733  # add x14, x5, x6
    .word 0x0c04a583  # lw x11, 192(x9)
    .word 0x0c0da603  # lw x12, 192(x27)
    .word 0x40c587b3  # sub x15, x11, x12
    .word 0x40e782b3  # sub x5, x15, x14
    .word 0x30512223  # sw x5, 772(x2)
    .word 0x00c5b2b3  # sltu x5, x11, x12
    .word 0x00e7b333  # sltu x6, x15, x14
    .word 0x00628733  # add x14, x5, x6
    .word 0x02600293  # addi x5, x0, 38
    .word 0x02e28733  # mul x14, x5, x14
    .word 0x2ec12283  # lw x5, 748(x2)
    .word 0x40e80333  # sub x6, x16, x14
    .word 0x00229293  # slli x5, x5, 2
    .word 0x002282b3  # add x5, x5, x2
    .word 0x0a62a223  # sw x6, 164(x5)
    .word 0x00e83733  # sltu x14, x16, x14
    .word 0x2ec12283  # lw x5, 748(x2)
    .word 0x40ea8333  # sub x6, x21, x14
    .word 0x00229293  # slli x5, x5, 2
    .word 0x002282b3  # add x5, x5, x2
    .word 0x0a62a423  # sw x6, 168(x5)
    .word 0x00eab733  # sltu x14, x21, x14
    .word 0x2ec12283  # lw x5, 748(x2)
    .word 0x40eb0333  # sub x6, x22, x14
    .word 0x00229293  # slli x5, x5, 2
    .word 0x002282b3  # add x5, x5, x2
    .word 0x0a62a623  # sw x6, 172(x5)
    .word 0x00eb3733  # sltu x14, x22, x14
    .word 0x2ec12283  # lw x5, 748(x2)
    .word 0x40eb8333  # sub x6, x23, x14
    .word 0x00229293  # slli x5, x5, 2
    .word 0x002282b3  # add x5, x5, x2
    .word 0x0a62a823  # sw x6, 176(x5)
    .word 0x00ebb733  # sltu x14, x23, x14
    .word 0x2ec12283  # lw x5, 748(x2)
    .word 0x40ec0333  # sub x6, x24, x14
    .word 0x00229293  # slli x5, x5, 2
    .word 0x002282b3  # add x5, x5, x2
    .word 0x0a62aa23  # sw x6, 180(x5)
    .word 0x00ec3733  # sltu x14, x24, x14
    .word 0x2ec12283  # lw x5, 748(x2)
    .word 0x40ec8333  # sub x6, x25, x14
    .word 0x00229293  # slli x5, x5, 2
    .word 0x002282b3  # add x5, x5, x2
    .word 0x0a62ac23  # sw x6, 184(x5)
    .word 0x00ecb733  # sltu x14, x25, x14
    .word 0x2ec12283  # lw x5, 748(x2)
    .word 0x40ed0333  # sub x6, x26, x14
    .word 0x00229293  # slli x5, x5, 2
    .word 0x002282b3  # add x5, x5, x2
    .word 0x0a62ae23  # sw x6, 188(x5)
    .word 0x00ed3733  # sltu x14, x26, x14
    .word 0x2ec12283  # lw x5, 748(x2)
    .word 0x30412303  # lw x6, 772(x2)
    .word 0x40e30333  # sub x6, x6, x14
    .word 0x00229293  # slli x5, x5, 2
    .word 0x002282b3  # add x5, x5, x2
    .word 0x0c62a023  # sw x6, 192(x5)
    .word 0x2840006f  # jal x0, 644
    .word 0x0a44a703  # lw x14, 164(x9)
    .word 0x31012303  # lw x6, 784(x2)
    .word 0x02670633  # mul x12, x14, x6
    .word 0x31012303  # lw x6, 784(x2)
    .word 0x026737b3  # mulhu x15, x14, x6
    .word 0x0a4da283  # lw x5, 164(x27)
    .word 0x00c28733  # add x14, x5, x12
    .word 0x00070a93  # addi x21, x14, 0
    .word 0x00c73333  # sltu x6, x14, x12
    .word 0x006785b3  # add x11, x15, x6
    .word 0x0a84a703  # lw x14, 168(x9)
    .word 0x31012303  # lw x6, 784(x2)
    .word 0x02670633  # mul x12, x14, x6
    .word 0x31012303  # lw x6, 784(x2)
    .word 0x026737b3  # mulhu x15, x14, x6
    .word 0x0a8da283  # lw x5, 168(x27)
    .word 0x00c28733  # add x14, x5, x12
    .word 0x00b70b33  # add x22, x14, x11
    .word 0x00c73333  # sltu x6, x14, x12
    .word 0x006782b3  # add x5, x15, x6
    .word 0x00bb3333  # sltu x6, x22, x11
    .word 0x006285b3  # add x11, x5, x6
    .word 0x0ac4a703  # lw x14, 172(x9)
    .word 0x31012303  # lw x6, 784(x2)
    .word 0x02670633  # mul x12, x14, x6
    .word 0x31012303  # lw x6, 784(x2)
    .word 0x026737b3  # mulhu x15, x14, x6
    .word 0x0acda283  # lw x5, 172(x27)
    .word 0x00c28733  # add x14, x5, x12
    .word 0x00b70bb3  # add x23, x14, x11
    .word 0x00c73333  # sltu x6, x14, x12
    .word 0x006782b3  # add x5, x15, x6
    .word 0x00bbb333  # sltu x6, x23, x11
    .word 0x006285b3  # add x11, x5, x6
    .word 0x0b04a703  # lw x14, 176(x9)
    .word 0x31012303  # lw x6, 784(x2)
    .word 0x02670633  # mul x12, x14, x6
    .word 0x31012303  # lw x6, 784(x2)
    .word 0x026737b3  # mulhu x15, x14, x6
    .word 0x0b0da283  # lw x5, 176(x27)
    .word 0x00c28733  # add x14, x5, x12
    .word 0x00b70c33  # add x24, x14, x11
    .word 0x00c73333  # sltu x6, x14, x12
    .word 0x006782b3  # add x5, x15, x6
    .word 0x00bc3333  # sltu x6, x24, x11
    .word 0x006285b3  # add x11, x5, x6
    .word 0x0b44a703  # lw x14, 180(x9)
    .word 0x31012303  # lw x6, 784(x2)
    .word 0x02670633  # mul x12, x14, x6
    .word 0x31012303  # lw x6, 784(x2)
    .word 0x026737b3  # mulhu x15, x14, x6
    .word 0x0b4da283  # lw x5, 180(x27)
    .word 0x00c28733  # add x14, x5, x12
    .word 0x00b70cb3  # add x25, x14, x11
    .word 0x00c73333  # sltu x6, x14, x12
    .word 0x006782b3  # add x5, x15, x6
    .word 0x00bcb333  # sltu x6, x25, x11
    .word 0x006285b3  # add x11, x5, x6
    .word 0x0b84a703  # lw x14, 184(x9)
    .word 0x31012303  # lw x6, 784(x2)
    .word 0x02670633  # mul x12, x14, x6
    .word 0x31012303  # lw x6, 784(x2)
    .word 0x026737b3  # mulhu x15, x14, x6
    .word 0x0b8da283  # lw x5, 184(x27)
    .word 0x00c28733  # add x14, x5, x12
    .word 0x00b70d33  # add x26, x14, x11
    .word 0x00c73333  # sltu x6, x14, x12
    .word 0x006782b3  # add x5, x15, x6
    .word 0x00bd3333  # sltu x6, x26, x11
    .word 0x006285b3  # add x11, x5, x6
    .word 0x0bc4a703  # lw x14, 188(x9)
    .word 0x31012303  # lw x6, 784(x2)
    .word 0x02670633  # mul x12, x14, x6
    .word 0x31012303  # lw x6, 784(x2)
    .word 0x026737b3  # mulhu x15, x14, x6
    .word 0x0bcda283  # lw x5, 188(x27)
    .word 0x00c28733  # add x14, x5, x12
    .word 0x00b702b3  # add x5, x14, x11
    .word 0x30512223  # sw x5, 772(x2)
    .word 0x00c73333  # sltu x6, x14, x12
    .word 0x006782b3  # add x5, x15, x6
    .word 0x30412303  # lw x6, 772(x2)
    .word 0x00b33333  # sltu x6, x6, x11
    .word 0x006285b3  # add x11, x5, x6
    .word 0x0c04a703  # lw x14, 192(x9)
    .word 0x31012303  # lw x6, 784(x2)
    .word 0x02670633  # mul x12, x14, x6
    .word 0x31012303  # lw x6, 784(x2)
    .word 0x026737b3  # mulhu x15, x14, x6
    .word 0x0c0da283  # lw x5, 192(x27)
    .word 0x00c28733  # add x14, x5, x12
    .word 0x00b70833  # add x16, x14, x11
    .word 0x00c73333  # sltu x6, x14, x12
    .word 0x006782b3  # add x5, x15, x6
    .word 0x00b83333  # sltu x6, x16, x11
    .word 0x006285b3  # add x11, x5, x6
    .word 0x01300293  # addi x5, x0, 19
    .word 0x00159313  # slli x6, x11, 1
    .word 0x01f85393  # srli x7, x16, 31
    .word 0x00736333  # or x6, x6, x7
    .word 0x02628733  # mul x14, x5, x6
    .word 0x30c12303  # lw x6, 780(x2)
    .word 0x00687833  # and x16, x16, x6
    .word 0x00ea8ab3  # add x21, x21, x14
    .word 0x00eab733  # sltu x14, x21, x14
    .word 0x00eb0b33  # add x22, x22, x14
    .word 0x00eb3733  # sltu x14, x22, x14
    .word 0x00eb8bb3  # add x23, x23, x14
    .word 0x00ebb733  # sltu x14, x23, x14
    .word 0x00ec0c33  # add x24, x24, x14
    .word 0x00ec3733  # sltu x14, x24, x14
    .word 0x00ec8cb3  # add x25, x25, x14
    .word 0x00ecb733  # sltu x14, x25, x14
    .word 0x00ed0d33  # add x26, x26, x14
    .word 0x00ed3733  # sltu x14, x26, x14
    .word 0x30412283  # lw x5, 772(x2)
    .word 0x00e282b3  # add x5, x5, x14
    .word 0x30512223  # sw x5, 772(x2)
    .word 0x30412283  # lw x5, 772(x2)
    .word 0x00e2b733  # sltu x14, x5, x14
    .word 0x00e80833  # add x16, x16, x14
    .word 0x01300313  # addi x6, x0, 19
    .word 0x01f85393  # srli x7, x16, 31
    .word 0x02730333  # mul x6, x6, x7
    .word 0x006a8ab3  # add x21, x21, x6
    .word 0x30c12303  # lw x6, 780(x2)
    .word 0x00687833  # and x16, x16, x6
    .word 0x2ec12283  # lw x5, 748(x2)
    .word 0x00229293  # slli x5, x5, 2
    .word 0x002282b3  # add x5, x5, x2
    .word 0x0b52a223  # sw x21, 164(x5)
    .word 0x2ec12283  # lw x5, 748(x2)
    .word 0x00229293  # slli x5, x5, 2
    .word 0x002282b3  # add x5, x5, x2
    .word 0x0b62a423  # sw x22, 168(x5)
    .word 0x2ec12283  # lw x5, 748(x2)
    .word 0x00229293  # slli x5, x5, 2
    .word 0x002282b3  # add x5, x5, x2
    .word 0x0b72a623  # sw x23, 172(x5)
    .word 0x2ec12283  # lw x5, 748(x2)
    .word 0x00229293  # slli x5, x5, 2
    .word 0x002282b3  # add x5, x5, x2
    .word 0x0b82a823  # sw x24, 176(x5)
    .word 0x2ec12283  # lw x5, 748(x2)
    .word 0x00229293  # slli x5, x5, 2
    .word 0x002282b3  # add x5, x5, x2
    .word 0x0b92aa23  # sw x25, 180(x5)
    .word 0x2ec12283  # lw x5, 748(x2)
    .word 0x00229293  # slli x5, x5, 2
    .word 0x002282b3  # add x5, x5, x2
    .word 0x0ba2ac23  # sw x26, 184(x5)
    .word 0x2ec12283  # lw x5, 748(x2)
    .word 0x30412303  # lw x6, 772(x2)
    .word 0x00229293  # slli x5, x5, 2
    .word 0x002282b3  # add x5, x5, x2
    .word 0x0a62ae23  # sw x6, 188(x5)
    .word 0x2ec12283  # lw x5, 748(x2)
    .word 0x00229293  # slli x5, x5, 2
    .word 0x002282b3  # add x5, x5, x2
    .word 0x0d02a023  # sw x16, 192(x5)
    .word 0xecdfe06f  # jal x0, -4404
    .word 0x0c412283  # lw x5, 196(x2)
    .word 0x01328293  # addi x5, x5, 19
    .word 0x0132b713  # sltiu x14, x5, 19
    .word 0x0c812283  # lw x5, 200(x2)
    .word 0x00e282b3  # add x5, x5, x14
    .word 0x00e2b733  # sltu x14, x5, x14
    .word 0x0cc12283  # lw x5, 204(x2)
    .word 0x00e282b3  # add x5, x5, x14
    .word 0x00e2b733  # sltu x14, x5, x14
    .word 0x0d012283  # lw x5, 208(x2)
    .word 0x00e282b3  # add x5, x5, x14
    .word 0x00e2b733  # sltu x14, x5, x14
    .word 0x0d412283  # lw x5, 212(x2)
    .word 0x00e282b3  # add x5, x5, x14
    .word 0x00e2b733  # sltu x14, x5, x14
    .word 0x0d812283  # lw x5, 216(x2)
    .word 0x00e282b3  # add x5, x5, x14
    .word 0x00e2b733  # sltu x14, x5, x14
    .word 0x0dc12283  # lw x5, 220(x2)
    .word 0x00e282b3  # add x5, x5, x14
    .word 0x00e2b733  # sltu x14, x5, x14
    .word 0x0e012283  # lw x5, 224(x2)
    .word 0x00e282b3  # add x5, x5, x14
    .word 0x41f2d293  # srai x5, x5, 31
    .word 0x0132f713  # andi x14, x5, 19
    .word 0x0c412283  # lw x5, 196(x2)
    .word 0x00e285b3  # add x11, x5, x14
    .word 0x00e5b733  # sltu x14, x11, x14
    .word 0x0cb12223  # sw x11, 196(x2)
    .word 0x0c812283  # lw x5, 200(x2)
    .word 0x00e285b3  # add x11, x5, x14
    .word 0x00e5b733  # sltu x14, x11, x14
    .word 0x0cb12423  # sw x11, 200(x2)
    .word 0x0cc12283  # lw x5, 204(x2)
    .word 0x00e285b3  # add x11, x5, x14
    .word 0x00e5b733  # sltu x14, x11, x14
    .word 0x0cb12623  # sw x11, 204(x2)
    .word 0x0d012283  # lw x5, 208(x2)
    .word 0x00e285b3  # add x11, x5, x14
    .word 0x00e5b733  # sltu x14, x11, x14
    .word 0x0cb12823  # sw x11, 208(x2)
    .word 0x0d412283  # lw x5, 212(x2)
    .word 0x00e285b3  # add x11, x5, x14
    .word 0x00e5b733  # sltu x14, x11, x14
    .word 0x0cb12a23  # sw x11, 212(x2)
    .word 0x0d812283  # lw x5, 216(x2)
    .word 0x00e285b3  # add x11, x5, x14
    .word 0x00e5b733  # sltu x14, x11, x14
    .word 0x0cb12c23  # sw x11, 216(x2)
    .word 0x0dc12283  # lw x5, 220(x2)
    .word 0x00e285b3  # add x11, x5, x14
    .word 0x00e5b733  # sltu x14, x11, x14
    .word 0x0cb12e23  # sw x11, 220(x2)
    .word 0x0e012283  # lw x5, 224(x2)
    .word 0x00e285b3  # add x11, x5, x14
    .word 0x0eb12023  # sw x11, 224(x2)
    .word 0x0e012283  # lw x5, 224(x2)
    .word 0x30c12303  # lw x6, 780(x2)
    .word 0x0062f2b3  # and x5, x5, x6
    .word 0x0e512023  # sw x5, 224(x2)
    .word 0x0e412283  # lw x5, 228(x2)
    .word 0x01328293  # addi x5, x5, 19
    .word 0x0132b713  # sltiu x14, x5, 19
    .word 0x0e812283  # lw x5, 232(x2)
    .word 0x00e282b3  # add x5, x5, x14
    .word 0x00e2b733  # sltu x14, x5, x14
    .word 0x0ec12283  # lw x5, 236(x2)
    .word 0x00e282b3  # add x5, x5, x14
    .word 0x00e2b733  # sltu x14, x5, x14
    .word 0x0f012283  # lw x5, 240(x2)
    .word 0x00e282b3  # add x5, x5, x14
    .word 0x00e2b733  # sltu x14, x5, x14
    .word 0x0f412283  # lw x5, 244(x2)
    .word 0x00e282b3  # add x5, x5, x14
    .word 0x00e2b733  # sltu x14, x5, x14
    .word 0x0f812283  # lw x5, 248(x2)
    .word 0x00e282b3  # add x5, x5, x14
    .word 0x00e2b733  # sltu x14, x5, x14
    .word 0x0fc12283  # lw x5, 252(x2)
    .word 0x00e282b3  # add x5, x5, x14
    .word 0x00e2b733  # sltu x14, x5, x14
    .word 0x10012283  # lw x5, 256(x2)
    .word 0x00e282b3  # add x5, x5, x14
    .word 0x41f2d293  # srai x5, x5, 31
    .word 0x0132f713  # andi x14, x5, 19
    .word 0x0e412283  # lw x5, 228(x2)
    .word 0x00e285b3  # add x11, x5, x14
    .word 0x00e5b733  # sltu x14, x11, x14
    .word 0x0eb12223  # sw x11, 228(x2)
    .word 0x0e812283  # lw x5, 232(x2)
    .word 0x00e285b3  # add x11, x5, x14
    .word 0x00e5b733  # sltu x14, x11, x14
    .word 0x0eb12423  # sw x11, 232(x2)
    .word 0x0ec12283  # lw x5, 236(x2)
    .word 0x00e285b3  # add x11, x5, x14
    .word 0x00e5b733  # sltu x14, x11, x14
    .word 0x0eb12623  # sw x11, 236(x2)
    .word 0x0f012283  # lw x5, 240(x2)
    .word 0x00e285b3  # add x11, x5, x14
    .word 0x00e5b733  # sltu x14, x11, x14
    .word 0x0eb12823  # sw x11, 240(x2)
    .word 0x0f412283  # lw x5, 244(x2)
    .word 0x00e285b3  # add x11, x5, x14
    .word 0x00e5b733  # sltu x14, x11, x14
    .word 0x0eb12a23  # sw x11, 244(x2)
    .word 0x0f812283  # lw x5, 248(x2)
    .word 0x00e285b3  # add x11, x5, x14
    .word 0x00e5b733  # sltu x14, x11, x14
    .word 0x0eb12c23  # sw x11, 248(x2)
    .word 0x0fc12283  # lw x5, 252(x2)
    .word 0x00e285b3  # add x11, x5, x14
    .word 0x00e5b733  # sltu x14, x11, x14
    .word 0x0eb12e23  # sw x11, 252(x2)
    .word 0x10012283  # lw x5, 256(x2)
    .word 0x00e285b3  # add x11, x5, x14
    .word 0x10b12023  # sw x11, 256(x2)
    .word 0x10012283  # lw x5, 256(x2)
    .word 0x30c12303  # lw x6, 780(x2)
    .word 0x0062f2b3  # and x5, x5, x6
    .word 0x10512023  # sw x5, 256(x2)
    .word 0x10412283  # lw x5, 260(x2)
    .word 0x01328293  # addi x5, x5, 19
    .word 0x0132b713  # sltiu x14, x5, 19
    .word 0x10812283  # lw x5, 264(x2)
    .word 0x00e282b3  # add x5, x5, x14
    .word 0x00e2b733  # sltu x14, x5, x14
    .word 0x10c12283  # lw x5, 268(x2)
    .word 0x00e282b3  # add x5, x5, x14
    .word 0x00e2b733  # sltu x14, x5, x14
    .word 0x11012283  # lw x5, 272(x2)
    .word 0x00e282b3  # add x5, x5, x14
    .word 0x00e2b733  # sltu x14, x5, x14
    .word 0x11412283  # lw x5, 276(x2)
    .word 0x00e282b3  # add x5, x5, x14
    .word 0x00e2b733  # sltu x14, x5, x14
    .word 0x11812283  # lw x5, 280(x2)
    .word 0x00e282b3  # add x5, x5, x14
    .word 0x00e2b733  # sltu x14, x5, x14
    .word 0x11c12283  # lw x5, 284(x2)
    .word 0x00e282b3  # add x5, x5, x14
    .word 0x00e2b733  # sltu x14, x5, x14
    .word 0x12012283  # lw x5, 288(x2)
    .word 0x00e282b3  # add x5, x5, x14
    .word 0x41f2d293  # srai x5, x5, 31
    .word 0x0132f713  # andi x14, x5, 19
    .word 0x10412283  # lw x5, 260(x2)
    .word 0x00e285b3  # add x11, x5, x14
    .word 0x00e5b733  # sltu x14, x11, x14
    .word 0x10b12223  # sw x11, 260(x2)
    .word 0x10812283  # lw x5, 264(x2)
    .word 0x00e285b3  # add x11, x5, x14
    .word 0x00e5b733  # sltu x14, x11, x14
    .word 0x10b12423  # sw x11, 264(x2)
    .word 0x10c12283  # lw x5, 268(x2)
    .word 0x00e285b3  # add x11, x5, x14
    .word 0x00e5b733  # sltu x14, x11, x14
    .word 0x10b12623  # sw x11, 268(x2)
    .word 0x11012283  # lw x5, 272(x2)
    .word 0x00e285b3  # add x11, x5, x14
    .word 0x00e5b733  # sltu x14, x11, x14
    .word 0x10b12823  # sw x11, 272(x2)
    .word 0x11412283  # lw x5, 276(x2)
    .word 0x00e285b3  # add x11, x5, x14
    .word 0x00e5b733  # sltu x14, x11, x14
    .word 0x10b12a23  # sw x11, 276(x2)
    .word 0x11812283  # lw x5, 280(x2)
    .word 0x00e285b3  # add x11, x5, x14
    .word 0x00e5b733  # sltu x14, x11, x14
    .word 0x10b12c23  # sw x11, 280(x2)
    .word 0x11c12283  # lw x5, 284(x2)
    .word 0x00e285b3  # add x11, x5, x14
    .word 0x00e5b733  # sltu x14, x11, x14
    .word 0x10b12e23  # sw x11, 284(x2)
    .word 0x12012283  # lw x5, 288(x2)
    .word 0x00e285b3  # add x11, x5, x14
    .word 0x12b12023  # sw x11, 288(x2)
    .word 0x12012283  # lw x5, 288(x2)
    .word 0x30c12303  # lw x6, 780(x2)
    .word 0x0062f2b3  # and x5, x5, x6
    .word 0x12512023  # sw x5, 288(x2)
    .word 0x12412283  # lw x5, 292(x2)
    .word 0x01328293  # addi x5, x5, 19
    .word 0x0132b713  # sltiu x14, x5, 19
    .word 0x12812283  # lw x5, 296(x2)
    .word 0x00e282b3  # add x5, x5, x14
    .word 0x00e2b733  # sltu x14, x5, x14
    .word 0x12c12283  # lw x5, 300(x2)
    .word 0x00e282b3  # add x5, x5, x14
    .word 0x00e2b733  # sltu x14, x5, x14
    .word 0x13012283  # lw x5, 304(x2)
    .word 0x00e282b3  # add x5, x5, x14
    .word 0x00e2b733  # sltu x14, x5, x14
    .word 0x13412283  # lw x5, 308(x2)
    .word 0x00e282b3  # add x5, x5, x14
    .word 0x00e2b733  # sltu x14, x5, x14
    .word 0x13812283  # lw x5, 312(x2)
    .word 0x00e282b3  # add x5, x5, x14
    .word 0x00e2b733  # sltu x14, x5, x14
    .word 0x13c12283  # lw x5, 316(x2)
    .word 0x00e282b3  # add x5, x5, x14
    .word 0x00e2b733  # sltu x14, x5, x14
    .word 0x14012283  # lw x5, 320(x2)
    .word 0x00e282b3  # add x5, x5, x14
    .word 0x41f2d293  # srai x5, x5, 31
    .word 0x0132f713  # andi x14, x5, 19
    .word 0x12412283  # lw x5, 292(x2)
    .word 0x00e285b3  # add x11, x5, x14
    .word 0x00e5b733  # sltu x14, x11, x14
    .word 0x12b12223  # sw x11, 292(x2)
    .word 0x12812283  # lw x5, 296(x2)
    .word 0x00e285b3  # add x11, x5, x14
    .word 0x00e5b733  # sltu x14, x11, x14
    .word 0x12b12423  # sw x11, 296(x2)
    .word 0x12c12283  # lw x5, 300(x2)
    .word 0x00e285b3  # add x11, x5, x14
    .word 0x00e5b733  # sltu x14, x11, x14
    .word 0x12b12623  # sw x11, 300(x2)
    .word 0x13012283  # lw x5, 304(x2)
    .word 0x00e285b3  # add x11, x5, x14
    .word 0x00e5b733  # sltu x14, x11, x14
    .word 0x12b12823  # sw x11, 304(x2)
    .word 0x13412283  # lw x5, 308(x2)
    .word 0x00e285b3  # add x11, x5, x14
    .word 0x00e5b733  # sltu x14, x11, x14
    .word 0x12b12a23  # sw x11, 308(x2)
    .word 0x13812283  # lw x5, 312(x2)
    .word 0x00e285b3  # add x11, x5, x14
    .word 0x00e5b733  # sltu x14, x11, x14
    .word 0x12b12c23  # sw x11, 312(x2)
    .word 0x13c12283  # lw x5, 316(x2)
    .word 0x00e285b3  # add x11, x5, x14
    .word 0x00e5b733  # sltu x14, x11, x14
    .word 0x12b12e23  # sw x11, 316(x2)
    .word 0x14012283  # lw x5, 320(x2)
    .word 0x00e285b3  # add x11, x5, x14
    .word 0x14b12023  # sw x11, 320(x2)
    .word 0x14012283  # lw x5, 320(x2)
    .word 0x30c12303  # lw x6, 780(x2)
    .word 0x0062f2b3  # and x5, x5, x6
    .word 0x14512023  # sw x5, 320(x2)
    .word 0x0c412283  # lw x5, 196(x2)
    .word 0x02512223  # sw x5, 36(x2)
    .word 0x0c812283  # lw x5, 200(x2)
    .word 0x02512423  # sw x5, 40(x2)
    .word 0x0cc12283  # lw x5, 204(x2)
    .word 0x02512623  # sw x5, 44(x2)
    .word 0x0d012283  # lw x5, 208(x2)
    .word 0x02512823  # sw x5, 48(x2)
    .word 0x0d412283  # lw x5, 212(x2)
    .word 0x02512a23  # sw x5, 52(x2)
    .word 0x0d812283  # lw x5, 216(x2)
    .word 0x02512c23  # sw x5, 56(x2)
    .word 0x0dc12283  # lw x5, 220(x2)
    .word 0x02512e23  # sw x5, 60(x2)
    .word 0x0e012283  # lw x5, 224(x2)
    .word 0x04512023  # sw x5, 64(x2)
    .word 0x0e412283  # lw x5, 228(x2)
    .word 0x04512223  # sw x5, 68(x2)
    .word 0x0e812283  # lw x5, 232(x2)
    .word 0x04512423  # sw x5, 72(x2)
    .word 0x0ec12283  # lw x5, 236(x2)
    .word 0x04512623  # sw x5, 76(x2)
    .word 0x0f012283  # lw x5, 240(x2)
    .word 0x04512823  # sw x5, 80(x2)
    .word 0x0f412283  # lw x5, 244(x2)
    .word 0x04512a23  # sw x5, 84(x2)
    .word 0x0f812283  # lw x5, 248(x2)
    .word 0x04512c23  # sw x5, 88(x2)
    .word 0x0fc12283  # lw x5, 252(x2)
    .word 0x04512e23  # sw x5, 92(x2)
    .word 0x10012283  # lw x5, 256(x2)
    .word 0x06512023  # sw x5, 96(x2)
    .word 0x10412283  # lw x5, 260(x2)
    .word 0x06512223  # sw x5, 100(x2)
    .word 0x10812283  # lw x5, 264(x2)
    .word 0x06512423  # sw x5, 104(x2)
    .word 0x10c12283  # lw x5, 268(x2)
    .word 0x06512623  # sw x5, 108(x2)
    .word 0x11012283  # lw x5, 272(x2)
    .word 0x06512823  # sw x5, 112(x2)
    .word 0x11412283  # lw x5, 276(x2)
    .word 0x06512a23  # sw x5, 116(x2)
    .word 0x11812283  # lw x5, 280(x2)
    .word 0x06512c23  # sw x5, 120(x2)
    .word 0x11c12283  # lw x5, 284(x2)
    .word 0x06512e23  # sw x5, 124(x2)
    .word 0x12012283  # lw x5, 288(x2)
    .word 0x08512023  # sw x5, 128(x2)
    .word 0x12412283  # lw x5, 292(x2)
    .word 0x08512223  # sw x5, 132(x2)
    .word 0x12812283  # lw x5, 296(x2)
    .word 0x08512423  # sw x5, 136(x2)
    .word 0x12c12283  # lw x5, 300(x2)
    .word 0x08512623  # sw x5, 140(x2)
    .word 0x13012283  # lw x5, 304(x2)
    .word 0x08512823  # sw x5, 144(x2)
    .word 0x13412283  # lw x5, 308(x2)
    .word 0x08512a23  # sw x5, 148(x2)
    .word 0x13812283  # lw x5, 312(x2)
    .word 0x08512c23  # sw x5, 152(x2)
    .word 0x13c12283  # lw x5, 316(x2)
    .word 0x08512e23  # sw x5, 156(x2)
    .word 0x14012283  # lw x5, 320(x2)
    .word 0x0a512023  # sw x5, 160(x2)
    # the result
    .word 0x00000513  # addi x10, x0, 0
    # parameter 2: the array, back
    .word 0x02410293  # addi x5, x2, 36
    .word 0x36c12303  # lw x6, 876(x2)
    .word 0x08028393  # addi x7, x5, 128
    .word 0x08c00f6f  # jal x30, 140
    # above the frame
    .word 0x33010293  # addi x5, x2, 816
    # the caller's registers
    .word 0x0002a483  # lw x9, 0(x5)
    .cfi_restore 9
    .word 0x0042a903  # lw x18, 4(x5)
    .cfi_restore 18
    .word 0x0082a983  # lw x19, 8(x5)
    .cfi_restore 19
    .word 0x00c2aa03  # lw x20, 12(x5)
    .cfi_restore 20
    .word 0x0102aa83  # lw x21, 16(x5)
    .cfi_restore 21
    .word 0x0142ab03  # lw x22, 20(x5)
    .cfi_restore 22
    .word 0x0182ab83  # lw x23, 24(x5)
    .cfi_restore 23
    .word 0x01c2ac03  # lw x24, 28(x5)
    .cfi_restore 24
    .word 0x0202ac83  # lw x25, 32(x5)
    .cfi_restore 25
    .word 0x0242ad03  # lw x26, 36(x5)
    .cfi_restore 26
    .word 0x0282ad83  # lw x27, 40(x5)
    .cfi_restore 27
    # the caller's x2
    .word 0x04028293  # addi x5, x5, 64
    .cfi_def_cfa 5, 0
    # all the room, wiped upward
    .word 0x00012023  # sw x0, 0(x2)
    .word 0x00012223  # sw x0, 4(x2)
    .word 0x00012423  # sw x0, 8(x2)
    .word 0x00012623  # sw x0, 12(x2)
    .word 0x01010113  # addi x2, x2, 16
    .word 0xfe5116e3  # bne x2, x5, -20
    .cfi_def_cfa 2, 0
    # temporaries, wiped
    .word 0x00000293  # addi x5, x0, 0
    .word 0x00000313  # addi x6, x0, 0
    .word 0x00000393  # addi x7, x0, 0
    .word 0x00000593  # addi x11, x0, 0
    .word 0x00000613  # addi x12, x0, 0
    .word 0x00000693  # addi x13, x0, 0
    .word 0x00000713  # addi x14, x0, 0
    .word 0x00000793  # addi x15, x0, 0
    .word 0x00000813  # addi x16, x0, 0
    .word 0x00000893  # addi x17, x0, 0
    .word 0x00000e13  # addi x28, x0, 0
    .word 0x00000e93  # addi x29, x0, 0
    .word 0x00000f13  # addi x30, x0, 0
    .word 0x00000f93  # addi x31, x0, 0
    # back
    .word 0x00008067  # jalr x0, 0(x1)
    # from x5 to x6 up to x7, and back
    .cfi_def_cfa 2, 880
    .cfi_offset 9, -64
    .cfi_offset 18, -60
    .cfi_offset 19, -56
    .cfi_offset 20, -52
    .cfi_offset 21, -48
    .cfi_offset 22, -44
    .cfi_offset 23, -40
    .cfi_offset 24, -36
    .cfi_offset 25, -32
    .cfi_offset 26, -28
    .cfi_offset 27, -24
    .word 0x0062ee33  # or x28, x5, x6
    .word 0x003e7e13  # andi x28, x28, 3
    .word 0x000e0e63  # beq x28, x0, 28
    .word 0x0002ce03  # lbu x28, 0(x5)
    .word 0x01c30023  # sb x28, 0(x6)
    .word 0x00128293  # addi x5, x5, 1
    .word 0x00130313  # addi x6, x6, 1
    .word 0xfe7298e3  # bne x5, x7, -16
    .word 0x0300006f  # jal x0, 48
    .word 0x0002ae03  # lw x28, 0(x5)
    .word 0x01c32023  # sw x28, 0(x6)
    .word 0x0042ae03  # lw x28, 4(x5)
    .word 0x01c32223  # sw x28, 4(x6)
    .word 0x0082ae03  # lw x28, 8(x5)
    .word 0x01c32423  # sw x28, 8(x6)
    .word 0x00c2ae03  # lw x28, 12(x5)
    .word 0x01c32623  # sw x28, 12(x6)
    .word 0x01028293  # addi x5, x5, 16
    .word 0x01030313  # addi x6, x6, 16
    .word 0xfc729ce3  # bne x5, x7, -40
    .word 0x000f0067  # jalr x0, 0(x30)
    .cfi_endproc
    .size x25519_step, . - x25519_step
    .option pop
