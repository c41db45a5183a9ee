# x25519: made by factc 1.0.0 function; 1904 words, 1504 bytes of stack, profile 1
    .option push
    .option norvc
    .option norelax
    .cfi_sections .debug_frame
    .section .text.x25519, "ax", @progbits
    .p2align 2
    .globl x25519
    .type x25519, @function
x25519:
    .cfi_startproc
    # room above the frame
    .word 0xfc010113  # addi x2, x2, -64
    .cfi_def_cfa_offset 64
    # the caller's registers
    .word 0x00812023  # sw x8, 0(x2)
    .cfi_offset 8, -64
    .word 0x00912223  # sw x9, 4(x2)
    .cfi_offset 9, -60
    .word 0x01212423  # sw x18, 8(x2)
    .cfi_offset 18, -56
    .word 0x01312623  # sw x19, 12(x2)
    .cfi_offset 19, -52
    .word 0x01412823  # sw x20, 16(x2)
    .cfi_offset 20, -48
    .word 0x01512a23  # sw x21, 20(x2)
    .cfi_offset 21, -44
    .word 0x01612c23  # sw x22, 24(x2)
    .cfi_offset 22, -40
    .word 0x01712e23  # sw x23, 28(x2)
    .cfi_offset 23, -36
    .word 0x03812023  # sw x24, 32(x2)
    .cfi_offset 24, -32
    .word 0x03912223  # sw x25, 36(x2)
    .cfi_offset 25, -28
    .word 0x03a12423  # sw x26, 40(x2)
    .cfi_offset 26, -24
    .word 0x03b12623  # sw x27, 44(x2)
    .cfi_offset 27, -20
    # arguments that are needed behind the body
    .word 0x02a12a23  # sw x10, 52(x2)
    .word 0x02b12c23  # sw x11, 56(x2)
    .word 0x02c12e23  # sw x12, 60(x2)
    # the frame's base
    .word 0x5a000293  # addi x5, x0, 1440
    .word 0x405102b3  # sub x5, x2, x5
    .cfi_def_cfa 5, 1504
    # the frame, zeroed downward
    .word 0xff010113  # addi x2, x2, -16
    .word 0x00012023  # sw x0, 0(x2)
    .word 0x00012223  # sw x0, 4(x2)
    .word 0x00012423  # sw x0, 8(x2)
    .word 0x00012623  # sw x0, 12(x2)
    .word 0xfe5116e3  # bne x2, x5, -20
    .cfi_def_cfa 2, 1504
    # parameter 0: an array
    .word 0x00050293  # addi x5, x10, 0
    .word 0x00010313  # addi x6, x2, 0
    .word 0x02028393  # addi x7, x5, 32
    .word 0x50101f6f  # jal x30, 7424
    # parameter 1: an array
    .word 0x00058293  # addi x5, x11, 0
    .word 0x02010313  # addi x6, x2, 32
    .word 0x02028393  # addi x7, x5, 32
    .word 0x4f101f6f  # jal x30, 7408
    # the body
    .word 0x00000513  # addi x10, x0, 0
    .word 0x00251d13  # slli x26, x10, 2
    .word 0x002d0d33  # add x26, x26, x2
    .word 0x800002b7  # lui x5, 0x80000
    .word 0xfff28293  # addi x5, x5, -1
    .word 0x56512623  # sw x5, 1388(x2)
    .word 0x000012b7  # lui x5, 0x00001
    .word 0xf0f28293  # addi x5, x5, -241
    .word 0x56512823  # sw x5, 1392(x2)
    .word 0x000012b7  # lui x5, 0x00001
    .word 0x80028293  # addi x5, x5, -2048
    .word 0x56512a23  # sw x5, 1396(x2)
    .word 0x0001e2b7  # lui x5, 0x0001e
    .word 0xb4128293  # addi x5, x5, -1215
    .word 0x56512c23  # sw x5, 1400(x2)
    .word 0x06000313  # addi x6, x0, 96
    .word 0x00230333  # add x6, x6, x2
    .word 0x20000393  # addi x7, x0, 512
    .word 0x006383b3  # add x7, x7, x6
    .word 0x406382b3  # sub x5, x7, x6
    .word 0x00029463  # bne x5, x0, 8
    .word 0x0100006f  # jal x0, 16
    .word 0x00032023  # sw x0, 0(x6)
    .word 0x00430313  # addi x6, x6, 4
    .word 0xfedff06f  # jal x0, -20
    .word 0x26000313  # addi x6, x0, 608
    .word 0x00230333  # add x6, x6, x2
    .word 0x02000393  # addi x7, x0, 32
    .word 0x006383b3  # add x7, x7, x6
    .word 0x406382b3  # sub x5, x7, x6
    .word 0x00029463  # bne x5, x0, 8
    .word 0x0100006f  # jal x0, 16
    .word 0x00032023  # sw x0, 0(x6)
    .word 0x00430313  # addi x6, x6, 4
    .word 0xfedff06f  # jal x0, -20
    .word 0x000012b7  # lui x5, 0x00001
    .word 0x51228293  # addi x5, x5, 1298
    .word 0x28511023  # sh x5, 640(x2)
    .word 0x000022b7  # lui x5, 0x00002
    .word 0x61228293  # addi x5, x5, 1554
    .word 0x28511123  # sh x5, 642(x2)
    .word 0x000012b7  # lui x5, 0x00001
    .word 0x73428293  # addi x5, x5, 1844
    .word 0x28511223  # sh x5, 644(x2)
    .word 0x000032b7  # lui x5, 0x00003
    .word 0x83428293  # addi x5, x5, -1996
    .word 0x28511323  # sh x5, 646(x2)
    .word 0x000012b7  # lui x5, 0x00001
    .word 0x88528293  # addi x5, x5, -1915
    .word 0x28511423  # sh x5, 648(x2)
    .word 0x77600293  # addi x5, x0, 1910
    .word 0x28511523  # sh x5, 650(x2)
    .word 0x55500293  # addi x5, x0, 1365
    .word 0x28511623  # sh x5, 652(x2)
    .word 0x66600293  # addi x5, x0, 1638
    .word 0x28511723  # sh x5, 654(x2)
    .word 0x000012b7  # lui x5, 0x00001
    .word 0x38728293  # addi x5, x5, 903
    .word 0x28511823  # sh x5, 656(x2)
    .word 0x33300293  # addi x5, x0, 819
    .word 0x28511923  # sh x5, 658(x2)
    .word 0x000022b7  # lui x5, 0x00002
    .word 0x48728293  # addi x5, x5, 1159
    .word 0x28511a23  # sh x5, 660(x2)
    .word 0x44400293  # addi x5, x0, 1092
    .word 0x28511b23  # sh x5, 662(x2)
    .word 0x40400293  # addi x5, x0, 1028
    .word 0x28511c23  # sh x5, 664(x2)
    .word 0x15600293  # addi x5, x0, 342
    .word 0x28511d23  # sh x5, 666(x2)
    .word 0x000022b7  # lui x5, 0x00002
    .word 0x25628293  # addi x5, x5, 598
    .word 0x28511e23  # sh x5, 668(x2)
    .word 0x000032b7  # lui x5, 0x00003
    .word 0x52528293  # addi x5, x5, 1317
    .word 0x28511f23  # sh x5, 670(x2)
    .word 0x22500293  # addi x5, x0, 549
    .word 0x2a511023  # sh x5, 672(x2)
    .word 0x000032b7  # lui x5, 0x00003
    .word 0x32228293  # addi x5, x5, 802
    .word 0x2a512223  # sw x5, 676(x2)
    .word 0x000012b7  # lui x5, 0x00001
    .word 0x42328293  # addi x5, x5, 1059
    .word 0x2a512423  # sw x5, 680(x2)
    .word 0x000012b7  # lui x5, 0x00001
    .word 0x74328293  # addi x5, x5, 1859
    .word 0x2a512623  # sw x5, 684(x2)
    .word 0x000052b7  # lui x5, 0x00005
    .word 0x57728293  # addi x5, x5, 1399
    .word 0x2a512823  # sw x5, 688(x2)
    .word 0x0000a2b7  # lui x5, 0x0000a
    .word 0x75528293  # addi x5, x5, 1877
    .word 0x2a512a23  # sw x5, 692(x2)
    .word 0x000142b7  # lui x5, 0x00014
    .word 0x77728293  # addi x5, x5, 1911
    .word 0x2a512c23  # sw x5, 696(x2)
    .word 0x0000a2b7  # lui x5, 0x0000a
    .word 0x67528293  # addi x5, x5, 1653
    .word 0x2a512e23  # sw x5, 700(x2)
    .word 0x000322b7  # lui x5, 0x00032
    .word 0x76628293  # addi x5, x5, 1894
    .word 0x2c512023  # sw x5, 704(x2)
    .word 0x000642b7  # lui x5, 0x00064
    .word 0x77728293  # addi x5, x5, 1911
    .word 0x2c512223  # sw x5, 708(x2)
    .word 0x000322b7  # lui x5, 0x00032
    .word 0x77628293  # addi x5, x5, 1910
    .word 0x2c512423  # sw x5, 712(x2)
    .word 0x000052b7  # lui x5, 0x00005
    .word 0x77428293  # addi x5, x5, 1908
    .word 0x2c512623  # sw x5, 716(x2)
    .word 0x17100293  # addi x5, x0, 369
    .word 0x2c512823  # sw x5, 720(x2)
    .word 0x06012283  # lw x5, 96(x2)
    .word 0x02014303  # lbu x6, 32(x2)
    .word 0x0062e2b3  # or x5, x5, x6
    .word 0x06512023  # sw x5, 96(x2)
    .word 0x06012283  # lw x5, 96(x2)
    .word 0x02114303  # lbu x6, 33(x2)
    .word 0x00831313  # slli x6, x6, 8
    .word 0x0062e2b3  # or x5, x5, x6
    .word 0x06512023  # sw x5, 96(x2)
    .word 0x06012283  # lw x5, 96(x2)
    .word 0x02214303  # lbu x6, 34(x2)
    .word 0x01031313  # slli x6, x6, 16
    .word 0x0062e2b3  # or x5, x5, x6
    .word 0x06512023  # sw x5, 96(x2)
    .word 0x06012283  # lw x5, 96(x2)
    .word 0x02314303  # lbu x6, 35(x2)
    .word 0x01831313  # slli x6, x6, 24
    .word 0x0062e2b3  # or x5, x5, x6
    .word 0x06512023  # sw x5, 96(x2)
    .word 0x06412283  # lw x5, 100(x2)
    .word 0x02414303  # lbu x6, 36(x2)
    .word 0x0062e2b3  # or x5, x5, x6
    .word 0x06512223  # sw x5, 100(x2)
    .word 0x06412283  # lw x5, 100(x2)
    .word 0x02514303  # lbu x6, 37(x2)
    .word 0x00831313  # slli x6, x6, 8
    .word 0x0062e2b3  # or x5, x5, x6
    .word 0x06512223  # sw x5, 100(x2)
    .word 0x06412283  # lw x5, 100(x2)
    .word 0x02614303  # lbu x6, 38(x2)
    .word 0x01031313  # slli x6, x6, 16
    .word 0x0062e2b3  # or x5, x5, x6
    .word 0x06512223  # sw x5, 100(x2)
    .word 0x06412283  # lw x5, 100(x2)
    .word 0x02714303  # lbu x6, 39(x2)
    .word 0x01831313  # slli x6, x6, 24
    .word 0x0062e2b3  # or x5, x5, x6
    .word 0x06512223  # sw x5, 100(x2)
    .word 0x06812283  # lw x5, 104(x2)
    .word 0x02814303  # lbu x6, 40(x2)
    .word 0x0062e2b3  # or x5, x5, x6
    .word 0x06512423  # sw x5, 104(x2)
    .word 0x06812283  # lw x5, 104(x2)
    .word 0x02914303  # lbu x6, 41(x2)
    .word 0x00831313  # slli x6, x6, 8
    .word 0x0062e2b3  # or x5, x5, x6
    .word 0x06512423  # sw x5, 104(x2)
    .word 0x06812283  # lw x5, 104(x2)
    .word 0x02a14303  # lbu x6, 42(x2)
    .word 0x01031313  # slli x6, x6, 16
    .word 0x0062e2b3  # or x5, x5, x6
    .word 0x06512423  # sw x5, 104(x2)
    .word 0x06812283  # lw x5, 104(x2)
    .word 0x02b14303  # lbu x6, 43(x2)
    .word 0x01831313  # slli x6, x6, 24
    .word 0x0062e2b3  # or x5, x5, x6
    .word 0x06512423  # sw x5, 104(x2)
    .word 0x06c12283  # lw x5, 108(x2)
    .word 0x02c14303  # lbu x6, 44(x2)
    .word 0x0062e2b3  # or x5, x5, x6
    .word 0x06512623  # sw x5, 108(x2)
    .word 0x06c12283  # lw x5, 108(x2)
    .word 0x02d14303  # lbu x6, 45(x2)
    .word 0x00831313  # slli x6, x6, 8
    .word 0x0062e2b3  # or x5, x5, x6
    .word 0x06512623  # sw x5, 108(x2)
    .word 0x06c12283  # lw x5, 108(x2)
    .word 0x02e14303  # lbu x6, 46(x2)
    .word 0x01031313  # slli x6, x6, 16
    .word 0x0062e2b3  # or x5, x5, x6
    .word 0x06512623  # sw x5, 108(x2)
    .word 0x06c12283  # lw x5, 108(x2)
    .word 0x02f14303  # lbu x6, 47(x2)
    .word 0x01831313  # slli x6, x6, 24
    .word 0x0062e2b3  # or x5, x5, x6
    .word 0x06512623  # sw x5, 108(x2)
    .word 0x07012283  # lw x5, 112(x2)
    .word 0x03014303  # lbu x6, 48(x2)
    .word 0x0062e2b3  # or x5, x5, x6
    .word 0x06512823  # sw x5, 112(x2)
    .word 0x07012283  # lw x5, 112(x2)
    .word 0x03114303  # lbu x6, 49(x2)
    .word 0x00831313  # slli x6, x6, 8
    .word 0x0062e2b3  # or x5, x5, x6
    .word 0x06512823  # sw x5, 112(x2)
    .word 0x07012283  # lw x5, 112(x2)
    .word 0x03214303  # lbu x6, 50(x2)
    .word 0x01031313  # slli x6, x6, 16
    .word 0x0062e2b3  # or x5, x5, x6
    .word 0x06512823  # sw x5, 112(x2)
    .word 0x07012283  # lw x5, 112(x2)
    .word 0x03314303  # lbu x6, 51(x2)
    .word 0x01831313  # slli x6, x6, 24
    .word 0x0062e2b3  # or x5, x5, x6
    .word 0x06512823  # sw x5, 112(x2)
    .word 0x07412283  # lw x5, 116(x2)
    .word 0x03414303  # lbu x6, 52(x2)
    .word 0x0062e2b3  # or x5, x5, x6
    .word 0x06512a23  # sw x5, 116(x2)
    .word 0x07412283  # lw x5, 116(x2)
    .word 0x03514303  # lbu x6, 53(x2)
    .word 0x00831313  # slli x6, x6, 8
    .word 0x0062e2b3  # or x5, x5, x6
    .word 0x06512a23  # sw x5, 116(x2)
    .word 0x07412283  # lw x5, 116(x2)
    .word 0x03614303  # lbu x6, 54(x2)
    .word 0x01031313  # slli x6, x6, 16
    .word 0x0062e2b3  # or x5, x5, x6
    .word 0x06512a23  # sw x5, 116(x2)
    .word 0x07412283  # lw x5, 116(x2)
    .word 0x03714303  # lbu x6, 55(x2)
    .word 0x01831313  # slli x6, x6, 24
    .word 0x0062e2b3  # or x5, x5, x6
    .word 0x06512a23  # sw x5, 116(x2)
    .word 0x07812283  # lw x5, 120(x2)
    .word 0x03814303  # lbu x6, 56(x2)
    .word 0x0062e2b3  # or x5, x5, x6
    .word 0x06512c23  # sw x5, 120(x2)
    .word 0x07812283  # lw x5, 120(x2)
    .word 0x03914303  # lbu x6, 57(x2)
    .word 0x00831313  # slli x6, x6, 8
    .word 0x0062e2b3  # or x5, x5, x6
    .word 0x06512c23  # sw x5, 120(x2)
    .word 0x07812283  # lw x5, 120(x2)
    .word 0x03a14303  # lbu x6, 58(x2)
    .word 0x01031313  # slli x6, x6, 16
    .word 0x0062e2b3  # or x5, x5, x6
    .word 0x06512c23  # sw x5, 120(x2)
    .word 0x07812283  # lw x5, 120(x2)
    .word 0x03b14303  # lbu x6, 59(x2)
    .word 0x01831313  # slli x6, x6, 24
    .word 0x0062e2b3  # or x5, x5, x6
    .word 0x06512c23  # sw x5, 120(x2)
    .word 0x07c12283  # lw x5, 124(x2)
    .word 0x03c14303  # lbu x6, 60(x2)
    .word 0x0062e2b3  # or x5, x5, x6
    .word 0x06512e23  # sw x5, 124(x2)
    .word 0x07c12283  # lw x5, 124(x2)
    .word 0x03d14303  # lbu x6, 61(x2)
    .word 0x00831313  # slli x6, x6, 8
    .word 0x0062e2b3  # or x5, x5, x6
    .word 0x06512e23  # sw x5, 124(x2)
    .word 0x07c12283  # lw x5, 124(x2)
    .word 0x03e14303  # lbu x6, 62(x2)
    .word 0x01031313  # slli x6, x6, 16
    .word 0x0062e2b3  # or x5, x5, x6
    .word 0x06512e23  # sw x5, 124(x2)
    .word 0x07c12283  # lw x5, 124(x2)
    .word 0x03f14303  # lbu x6, 63(x2)
    .word 0x01831313  # slli x6, x6, 24
    .word 0x0062e2b3  # or x5, x5, x6
    .word 0x06512e23  # sw x5, 124(x2)
    .word 0x07c12283  # lw x5, 124(x2)
    .word 0x56c12303  # lw x6, 1388(x2)
    .word 0x0062f2b3  # and x5, x5, x6
    .word 0x06512e23  # sw x5, 124(x2)
    .word 0x06012283  # lw x5, 96(x2)
    .word 0x0c512023  # sw x5, 192(x2)
    .word 0x06412283  # lw x5, 100(x2)
    .word 0x0c512223  # sw x5, 196(x2)
    .word 0x06812283  # lw x5, 104(x2)
    .word 0x0c512423  # sw x5, 200(x2)
    .word 0x06c12283  # lw x5, 108(x2)
    .word 0x0c512623  # sw x5, 204(x2)
    .word 0x07012283  # lw x5, 112(x2)
    .word 0x0c512823  # sw x5, 208(x2)
    .word 0x07412283  # lw x5, 116(x2)
    .word 0x0c512a23  # sw x5, 212(x2)
    .word 0x07812283  # lw x5, 120(x2)
    .word 0x0c512c23  # sw x5, 216(x2)
    .word 0x07c12283  # lw x5, 124(x2)
    .word 0x0c512e23  # sw x5, 220(x2)
    .word 0x00100293  # addi x5, x0, 1
    .word 0x08512023  # sw x5, 128(x2)
    .word 0x00100293  # addi x5, x0, 1
    .word 0x0e512023  # sw x5, 224(x2)
    .word 0x2c012e23  # sw x0, 732(x2)
    .word 0x58012023  # sw x0, 1408(x2)
    .word 0x10b00293  # addi x5, x0, 267
    .word 0x58512223  # sw x5, 1412(x2)
    .word 0x58012303  # lw x6, 1408(x2)
    .word 0x58412283  # lw x5, 1412(x2)
    .word 0x005332b3  # sltu x5, x6, x5
    .word 0x00029463  # bne x5, x0, 8
    .word 0x5800106f  # jal x0, 5504
    .word 0x2e612023  # sw x6, 736(x2)
    .word 0x00130313  # addi x6, x6, 1
    .word 0x58612023  # sw x6, 1408(x2)
    .word 0x2e012283  # lw x5, 736(x2)
    .word 0xf0128293  # addi x5, x5, -255
    .word 0x00c00313  # addi x6, x0, 12
    .word 0x0262f2b3  # remu x5, x5, x6
    .word 0x00229293  # slli x5, x5, 2
    .word 0x002282b3  # add x5, x5, x2
    .word 0x2a42a283  # lw x5, 676(x5)
    .word 0x2e512223  # sw x5, 740(x2)
    .word 0x2e412283  # lw x5, 740(x2)
    .word 0x00c2d293  # srli x5, x5, 12
    .word 0x07f2f293  # andi x5, x5, 127
    .word 0x2e512423  # sw x5, 744(x2)
    .word 0x2e012283  # lw x5, 736(x2)
    .word 0x10000313  # addi x6, x0, 256
    .word 0x3462f263  # bgeu x5, x6, 836
    .word 0x0fe00293  # addi x5, x0, 254
    .word 0x2e012303  # lw x6, 736(x2)
    .word 0x406282b3  # sub x5, x5, x6
    .word 0x0ff2f513  # andi x10, x5, 255
    .word 0x00251d13  # slli x26, x10, 2
    .word 0x002d0d33  # add x26, x26, x2
    .word 0x00355293  # srli x5, x10, 3
    .word 0x002282b3  # add x5, x5, x2
    .word 0x0002c283  # lbu x5, 0(x5)
    .word 0x00757313  # andi x6, x10, 7
    .word 0x0062d2b3  # srl x5, x5, x6
    .word 0x0ff2f293  # andi x5, x5, 255
    .word 0x0012f613  # andi x12, x5, 1
    .word 0x00353293  # sltiu x5, x10, 3
    .word 0xf0150313  # addi x6, x10, -255
    .word 0x00133313  # sltiu x6, x6, 1
    .word 0x0062e2b3  # or x5, x5, x6
    .word 0x00000313  # addi x6, x0, 0
    .word 0xf0250393  # addi x7, x10, -254
    .word 0x007033b3  # sltu x7, x0, x7
    .word 0x00100413  # addi x8, x0, 1
    .word 0xfff38393  # addi x7, x7, -1
    .word 0x00c44433  # xor x8, x8, x12
    .word 0x00747433  # and x8, x8, x7
    .word 0x008643b3  # xor x7, x12, x8
    .word 0x405002b3  # sub x5, x0, x5
    .word 0x00734333  # xor x6, x6, x7
    .word 0x00537333  # and x6, x6, x5
    .word 0x0063c633  # xor x12, x7, x6
    .word 0x2dc12283  # lw x5, 732(x2)
    .word 0x00c2c5b3  # xor x11, x5, x12
    .word 0x40b002b3  # sub x5, x0, x11
    .word 0x08012303  # lw x6, 128(x2)
    .word 0x0c012383  # lw x7, 192(x2)
    .word 0x00734333  # xor x6, x6, x7
    .word 0x0062f733  # and x14, x5, x6
    .word 0x08012283  # lw x5, 128(x2)
    .word 0x00e2c2b3  # xor x5, x5, x14
    .word 0x08512023  # sw x5, 128(x2)
    .word 0x0c012283  # lw x5, 192(x2)
    .word 0x00e2c2b3  # xor x5, x5, x14
    .word 0x0c512023  # sw x5, 192(x2)
    .word 0x40b002b3  # sub x5, x0, x11
    .word 0x08412303  # lw x6, 132(x2)
    .word 0x0c412383  # lw x7, 196(x2)
    .word 0x00734333  # xor x6, x6, x7
    .word 0x0062f733  # and x14, x5, x6
    .word 0x08412283  # lw x5, 132(x2)
    .word 0x00e2c2b3  # xor x5, x5, x14
    .word 0x08512223  # sw x5, 132(x2)
    .word 0x0c412283  # lw x5, 196(x2)
    .word 0x00e2c2b3  # xor x5, x5, x14
    .word 0x0c512223  # sw x5, 196(x2)
    .word 0x40b002b3  # sub x5, x0, x11
    .word 0x08812303  # lw x6, 136(x2)
    .word 0x0c812383  # lw x7, 200(x2)
    .word 0x00734333  # xor x6, x6, x7
    .word 0x0062f733  # and x14, x5, x6
    .word 0x08812283  # lw x5, 136(x2)
    .word 0x00e2c2b3  # xor x5, x5, x14
    .word 0x08512423  # sw x5, 136(x2)
    .word 0x0c812283  # lw x5, 200(x2)
    .word 0x00e2c2b3  # xor x5, x5, x14
    .word 0x0c512423  # sw x5, 200(x2)
    .word 0x40b002b3  # sub x5, x0, x11
    .word 0x08c12303  # lw x6, 140(x2)
    .word 0x0cc12383  # lw x7, 204(x2)
    .word 0x00734333  # xor x6, x6, x7
    .word 0x0062f733  # and x14, x5, x6
    .word 0x08c12283  # lw x5, 140(x2)
    .word 0x00e2c2b3  # xor x5, x5, x14
    .word 0x08512623  # sw x5, 140(x2)
    .word 0x0cc12283  # lw x5, 204(x2)
    .word 0x00e2c2b3  # xor x5, x5, x14
    .word 0x0c512623  # sw x5, 204(x2)
    .word 0x40b002b3  # sub x5, x0, x11
    .word 0x09012303  # lw x6, 144(x2)
    .word 0x0d012383  # lw x7, 208(x2)
    .word 0x00734333  # xor x6, x6, x7
    .word 0x0062f733  # and x14, x5, x6
    .word 0x09012283  # lw x5, 144(x2)
    .word 0x00e2c2b3  # xor x5, x5, x14
    .word 0x08512823  # sw x5, 144(x2)
    .word 0x0d012283  # lw x5, 208(x2)
    .word 0x00e2c2b3  # xor x5, x5, x14
    .word 0x0c512823  # sw x5, 208(x2)
    .word 0x40b002b3  # sub x5, x0, x11
    .word 0x09412303  # lw x6, 148(x2)
    .word 0x0d412383  # lw x7, 212(x2)
    .word 0x00734333  # xor x6, x6, x7
    .word 0x0062f733  # and x14, x5, x6
    .word 0x09412283  # lw x5, 148(x2)
    .word 0x00e2c2b3  # xor x5, x5, x14
    .word 0x08512a23  # sw x5, 148(x2)
    .word 0x0d412283  # lw x5, 212(x2)
    .word 0x00e2c2b3  # xor x5, x5, x14
    .word 0x0c512a23  # sw x5, 212(x2)
    .word 0x40b002b3  # sub x5, x0, x11
    .word 0x09812303  # lw x6, 152(x2)
    .word 0x0d812383  # lw x7, 216(x2)
    .word 0x00734333  # xor x6, x6, x7
    .word 0x0062f733  # and x14, x5, x6
    .word 0x09812283  # lw x5, 152(x2)
    .word 0x00e2c2b3  # xor x5, x5, x14
    .word 0x08512c23  # sw x5, 152(x2)
    .word 0x0d812283  # lw x5, 216(x2)
    .word 0x00e2c2b3  # xor x5, x5, x14
    .word 0x0c512c23  # sw x5, 216(x2)
    .word 0x40b002b3  # sub x5, x0, x11
    .word 0x09c12303  # lw x6, 156(x2)
    .word 0x0dc12383  # lw x7, 220(x2)
    .word 0x00734333  # xor x6, x6, x7
    .word 0x0062f733  # and x14, x5, x6
    .word 0x09c12283  # lw x5, 156(x2)
    .word 0x00e2c2b3  # xor x5, x5, x14
    .word 0x08512e23  # sw x5, 156(x2)
    .word 0x0dc12283  # lw x5, 220(x2)
    .word 0x00e2c2b3  # xor x5, x5, x14
    .word 0x0c512e23  # sw x5, 220(x2)
    .word 0x40b002b3  # sub x5, x0, x11
    .word 0x0a012303  # lw x6, 160(x2)
    .word 0x0e012383  # lw x7, 224(x2)
    .word 0x00734333  # xor x6, x6, x7
    .word 0x0062f733  # and x14, x5, x6
    .word 0x0a012283  # lw x5, 160(x2)
    .word 0x00e2c2b3  # xor x5, x5, x14
    .word 0x0a512023  # sw x5, 160(x2)
    .word 0x0e012283  # lw x5, 224(x2)
    .word 0x00e2c2b3  # xor x5, x5, x14
    .word 0x0e512023  # sw x5, 224(x2)
    .word 0x40b002b3  # sub x5, x0, x11
    .word 0x0a412303  # lw x6, 164(x2)
    .word 0x0e412383  # lw x7, 228(x2)
    .word 0x00734333  # xor x6, x6, x7
    .word 0x0062f733  # and x14, x5, x6
    .word 0x0a412283  # lw x5, 164(x2)
    .word 0x00e2c2b3  # xor x5, x5, x14
    .word 0x0a512223  # sw x5, 164(x2)
    .word 0x0e412283  # lw x5, 228(x2)
    .word 0x00e2c2b3  # xor x5, x5, x14
    .word 0x0e512223  # sw x5, 228(x2)
    .word 0x40b002b3  # sub x5, x0, x11
    .word 0x0a812303  # lw x6, 168(x2)
    .word 0x0e812383  # lw x7, 232(x2)
    .word 0x00734333  # xor x6, x6, x7
    .word 0x0062f733  # and x14, x5, x6
    .word 0x0a812283  # lw x5, 168(x2)
    .word 0x00e2c2b3  # xor x5, x5, x14
    .word 0x0a512423  # sw x5, 168(x2)
    .word 0x0e812283  # lw x5, 232(x2)
    .word 0x00e2c2b3  # xor x5, x5, x14
    .word 0x0e512423  # sw x5, 232(x2)
    .word 0x40b002b3  # sub x5, x0, x11
    .word 0x0ac12303  # lw x6, 172(x2)
    .word 0x0ec12383  # lw x7, 236(x2)
    .word 0x00734333  # xor x6, x6, x7
    .word 0x0062f733  # and x14, x5, x6
    .word 0x0ac12283  # lw x5, 172(x2)
    .word 0x00e2c2b3  # xor x5, x5, x14
    .word 0x0a512623  # sw x5, 172(x2)
    .word 0x0ec12283  # lw x5, 236(x2)
    .word 0x00e2c2b3  # xor x5, x5, x14
    .word 0x0e512623  # sw x5, 236(x2)
    .word 0x40b002b3  # sub x5, x0, x11
    .word 0x0b012303  # lw x6, 176(x2)
    .word 0x0f012383  # lw x7, 240(x2)
    .word 0x00734333  # xor x6, x6, x7
    .word 0x0062f733  # and x14, x5, x6
    .word 0x0b012283  # lw x5, 176(x2)
    .word 0x00e2c2b3  # xor x5, x5, x14
    .word 0x0a512823  # sw x5, 176(x2)
    .word 0x0f012283  # lw x5, 240(x2)
    .word 0x00e2c2b3  # xor x5, x5, x14
    .word 0x0e512823  # sw x5, 240(x2)
    .word 0x40b002b3  # sub x5, x0, x11
    .word 0x0b412303  # lw x6, 180(x2)
    .word 0x0f412383  # lw x7, 244(x2)
    .word 0x00734333  # xor x6, x6, x7
    .word 0x0062f733  # and x14, x5, x6
    .word 0x0b412283  # lw x5, 180(x2)
    .word 0x00e2c2b3  # xor x5, x5, x14
    .word 0x0a512a23  # sw x5, 180(x2)
    .word 0x0f412283  # lw x5, 244(x2)
    .word 0x00e2c2b3  # xor x5, x5, x14
    .word 0x0e512a23  # sw x5, 244(x2)
    .word 0x40b002b3  # sub x5, x0, x11
    .word 0x0b812303  # lw x6, 184(x2)
    .word 0x0f812383  # lw x7, 248(x2)
    .word 0x00734333  # xor x6, x6, x7
    .word 0x0062f733  # and x14, x5, x6
    .word 0x0b812283  # lw x5, 184(x2)
    .word 0x00e2c2b3  # xor x5, x5, x14
    .word 0x0a512c23  # sw x5, 184(x2)
    .word 0x0f812283  # lw x5, 248(x2)
    .word 0x00e2c2b3  # xor x5, x5, x14
    .word 0x0e512c23  # sw x5, 248(x2)
    .word 0x40b002b3  # sub x5, x0, x11
    .word 0x0bc12303  # lw x6, 188(x2)
    .word 0x0fc12383  # lw x7, 252(x2)
    .word 0x00734333  # xor x6, x6, x7
    .word 0x0062f733  # and x14, x5, x6
    .word 0x0bc12283  # lw x5, 188(x2)
    .word 0x00e2c2b3  # xor x5, x5, x14
    .word 0x0a512e23  # sw x5, 188(x2)
    .word 0x0fc12283  # lw x5, 252(x2)
    .word 0x00e2c2b3  # xor x5, x5, x14
    .word 0x0e512e23  # sw x5, 252(x2)
    .word 0x2cc12e23  # sw x12, 732(x2)
    .word 0x58012423  # sw x0, 1416(x2)
    .word 0x2e012283  # lw x5, 736(x2)
    .word 0x0ff2b293  # sltiu x5, x5, 255
    .word 0x01100313  # addi x6, x0, 17
    .word 0x2e812383  # lw x7, 744(x2)
    .word 0x00138393  # addi x7, x7, 1
    .word 0x405002b3  # sub x5, x0, x5
    .word 0x00734333  # xor x6, x6, x7
    .word 0x00537333  # and x6, x6, x5
    .word 0x0063c2b3  # xor x5, x7, x6
    .word 0x58512623  # sw x5, 1420(x2)
    .word 0x58812303  # lw x6, 1416(x2)
    .word 0x58c12283  # lw x5, 1420(x2)
    .word 0x005332b3  # sltu x5, x6, x5
    .word 0x00029463  # bne x5, x0, 8
    .word 0x1b40106f  # jal x0, 4532
    .word 0x30612023  # sw x6, 768(x2)
    .word 0x00130313  # addi x6, x6, 1
    .word 0x58612423  # sw x6, 1416(x2)
    .word 0x2e012283  # lw x5, 736(x2)
    .word 0x0ff00313  # addi x6, x0, 255
    .word 0x0262f463  # bgeu x5, x6, 40
    .word 0x30012283  # lw x5, 768(x2)
    .word 0x01100313  # addi x6, x0, 17
    .word 0x0262f2b3  # remu x5, x5, x6
    .word 0x00129513  # slli x10, x5, 1
    .word 0x00250533  # add x10, x10, x2
    .word 0x28055503  # lhu x10, 640(x10)
    .word 0x00251d13  # slli x26, x10, 2
    .word 0x002d0d33  # add x26, x26, x2
    .word 0x0740006f  # jal x0, 116
    .word 0x30012283  # lw x5, 768(x2)
    .word 0x0012b293  # sltiu x5, x5, 1
    .word 0x2e412303  # lw x6, 740(x2)
    .word 0x0f037313  # andi x6, x6, 240
    .word 0x08000393  # addi x7, x0, 128
    .word 0x405002b3  # sub x5, x0, x5
    .word 0x00734333  # xor x6, x6, x7
    .word 0x00537333  # and x6, x6, x5
    .word 0x0063c533  # xor x10, x7, x6
    .word 0x00251d13  # slli x26, x10, 2
    .word 0x002d0d33  # add x26, x26, x2
    .word 0x30012303  # lw x6, 768(x2)
    .word 0x2e812383  # lw x7, 744(x2)
    .word 0x40730333  # sub x6, x6, x7
    .word 0x00603333  # sltu x6, x0, x6
    .word 0x2e412383  # lw x7, 740(x2)
    .word 0x57012403  # lw x8, 1392(x2)
    .word 0x0083f3b3  # and x7, x7, x8
    .word 0x00455413  # srli x8, x10, 4
    .word 0x57412483  # lw x9, 1396(x2)
    .word 0x00946433  # or x8, x8, x9
    .word 0xfff30313  # addi x6, x6, -1
    .word 0x0083c3b3  # xor x7, x7, x8
    .word 0x0063f3b3  # and x7, x7, x6
    .word 0x00744333  # xor x6, x8, x7
    .word 0x00656533  # or x10, x10, x6
    .word 0x00251d13  # slli x26, x10, 2
    .word 0x002d0d33  # add x26, x26, x2
    .word 0x00c55293  # srli x5, x10, 12
    .word 0x3a512423  # sw x5, 936(x2)
    .word 0x00555293  # srli x5, x10, 5
    .word 0x0782f293  # andi x5, x5, 120
    .word 0x30512823  # sw x5, 784(x2)
    .word 0x00155293  # srli x5, x10, 1
    .word 0x0782f693  # andi x13, x5, 120
    .word 0x00269d93  # slli x27, x13, 2
    .word 0x002d8db3  # add x27, x27, x2
    .word 0x00351293  # slli x5, x10, 3
    .word 0x0782f513  # andi x10, x5, 120
    .word 0x00251d13  # slli x26, x10, 2
    .word 0x002d0d33  # add x26, x26, x2
    .word 0x3a812283  # lw x5, 936(x2)
    .word 0x30029ce3  # bne x5, x0, 2840
    .word 0x00000893  # addi x17, x0, 0
    .word 0x00000913  # addi x18, x0, 0
    .word 0x00000993  # addi x19, x0, 0
    .word 0x4e012823  # sw x0, 1264(x2)
    .word 0x00000a13  # addi x20, x0, 0
    .word 0x4e012a23  # sw x0, 1268(x2)
    .word 0x4e012c23  # sw x0, 1272(x2)
    .word 0x4e012e23  # sw x0, 1276(x2)
    .word 0x060daa83  # lw x21, 96(x27)
    .word 0x064dab03  # lw x22, 100(x27)
    .word 0x068dab83  # lw x23, 104(x27)
    .word 0x06cdac03  # lw x24, 108(x27)
    .word 0x070da283  # lw x5, 112(x27)
    .word 0x50512023  # sw x5, 1280(x2)
    .word 0x074da283  # lw x5, 116(x27)
    .word 0x50512223  # sw x5, 1284(x2)
    .word 0x078da283  # lw x5, 120(x27)
    .word 0x50512423  # sw x5, 1288(x2)
    .word 0x07cdac83  # lw x25, 124(x27)
    .word 0x68a69463  # bne x13, x10, 1672
    .word 0x01300293  # addi x5, x0, 19
    .word 0x01fcd313  # srli x6, x25, 31
    .word 0x02628733  # mul x14, x5, x6
    .word 0x56c12303  # lw x6, 1388(x2)
    .word 0x006cfcb3  # and x25, x25, x6
    .word 0x00ea8ab3  # add x21, x21, x14
    .word 0x00eab733  # sltu x14, x21, x14
    .word 0x00eb0b33  # add x22, x22, x14
    .word 0x00eb3733  # sltu x14, x22, x14
    .word 0x00eb8bb3  # add x23, x23, x14
    .word 0x00ebb733  # sltu x14, x23, x14
    .word 0x00ec0c33  # add x24, x24, x14
    .word 0x00ec3733  # sltu x14, x24, x14
    .word 0x50012283  # lw x5, 1280(x2)
    .word 0x00e282b3  # add x5, x5, x14
    .word 0x50512023  # sw x5, 1280(x2)
    .word 0x50012283  # lw x5, 1280(x2)
    .word 0x00e2b733  # sltu x14, x5, x14
    .word 0x50412283  # lw x5, 1284(x2)
    .word 0x00e282b3  # add x5, x5, x14
    .word 0x50512223  # sw x5, 1284(x2)
    .word 0x50412283  # lw x5, 1284(x2)
    .word 0x00e2b733  # sltu x14, x5, x14
    .word 0x50812283  # lw x5, 1288(x2)
    .word 0x00e282b3  # add x5, x5, x14
    .word 0x50512423  # sw x5, 1288(x2)
    .word 0x50812283  # lw x5, 1288(x2)
    .word 0x00e2b733  # sltu x14, x5, x14
    .word 0x00ec8cb3  # add x25, x25, x14
    .word 0x01300313  # addi x6, x0, 19
    .word 0x01fcd393  # srli x7, x25, 31
    .word 0x02730333  # mul x6, x6, x7
    .word 0x006a8ab3  # add x21, x21, x6
    .word 0x56c12303  # lw x6, 1388(x2)
    .word 0x006cfcb3  # and x25, x25, x6
    .word 0x001b9293  # slli x5, x23, 1
    .word 0x01fb5313  # srli x6, x22, 31
    .word 0x0062e2b3  # or x5, x5, x6
    .word 0x4e512a23  # sw x5, 1268(x2)
    .word 0x001c1293  # slli x5, x24, 1
    .word 0x01fbd313  # srli x6, x23, 31
    .word 0x0062e2b3  # or x5, x5, x6
    .word 0x4e512823  # sw x5, 1264(x2)
    .word 0x50012283  # lw x5, 1280(x2)
    .word 0x00129293  # slli x5, x5, 1
    .word 0x01fc5313  # srli x6, x24, 31
    .word 0x0062e933  # or x18, x5, x6
    .word 0x50412283  # lw x5, 1284(x2)
    .word 0x00129293  # slli x5, x5, 1
    .word 0x50012303  # lw x6, 1280(x2)
    .word 0x01f35313  # srli x6, x6, 31
    .word 0x0062e8b3  # or x17, x5, x6
    .word 0x50812283  # lw x5, 1288(x2)
    .word 0x00129293  # slli x5, x5, 1
    .word 0x50412303  # lw x6, 1284(x2)
    .word 0x01f35313  # srli x6, x6, 31
    .word 0x0062e9b3  # or x19, x5, x6
    .word 0x001c9293  # slli x5, x25, 1
    .word 0x50812303  # lw x6, 1288(x2)
    .word 0x01f35313  # srli x6, x6, 31
    .word 0x0062ea33  # or x20, x5, x6
    .word 0x035a87b3  # mul x15, x21, x21
    .word 0x035ab733  # mulhu x14, x21, x21
    .word 0x00f7b333  # sltu x6, x15, x15
    .word 0x00670733  # add x14, x14, x6
    .word 0x00e73833  # sltu x16, x14, x14
    .word 0x26f12023  # sw x15, 608(x2)
    .word 0x00070593  # addi x11, x14, 0
    .word 0x00080613  # addi x12, x16, 0
    .word 0x001b1713  # slli x14, x22, 1
    .word 0x02ea87b3  # mul x15, x21, x14
    .word 0x02eab733  # mulhu x14, x21, x14
    .word 0x00f585b3  # add x11, x11, x15
    .word 0x00f5b333  # sltu x6, x11, x15
    .word 0x00670733  # add x14, x14, x6
    .word 0x00e60633  # add x12, x12, x14
    .word 0x00e63833  # sltu x16, x12, x14
    .word 0x26b12223  # sw x11, 612(x2)
    .word 0x00060593  # addi x11, x12, 0
    .word 0x00080613  # addi x12, x16, 0
    .word 0x036b07b3  # mul x15, x22, x22
    .word 0x036b3733  # mulhu x14, x22, x22
    .word 0x00f585b3  # add x11, x11, x15
    .word 0x00f5b333  # sltu x6, x11, x15
    .word 0x00670733  # add x14, x14, x6
    .word 0x00e60633  # add x12, x12, x14
    .word 0x00e63833  # sltu x16, x12, x14
    .word 0x4f412303  # lw x6, 1268(x2)
    .word 0x026a87b3  # mul x15, x21, x6
    .word 0x4f412303  # lw x6, 1268(x2)
    .word 0x026ab733  # mulhu x14, x21, x6
    .word 0x00f585b3  # add x11, x11, x15
    .word 0x00f5b333  # sltu x6, x11, x15
    .word 0x00670733  # add x14, x14, x6
    .word 0x00e60633  # add x12, x12, x14
    .word 0x00e63333  # sltu x6, x12, x14
    .word 0x00680833  # add x16, x16, x6
    .word 0x26b12423  # sw x11, 616(x2)
    .word 0x00060593  # addi x11, x12, 0
    .word 0x00080613  # addi x12, x16, 0
    .word 0x001b9713  # slli x14, x23, 1
    .word 0x02eb07b3  # mul x15, x22, x14
    .word 0x02eb3733  # mulhu x14, x22, x14
    .word 0x00f585b3  # add x11, x11, x15
    .word 0x00f5b333  # sltu x6, x11, x15
    .word 0x00670733  # add x14, x14, x6
    .word 0x00e60633  # add x12, x12, x14
    .word 0x00e63833  # sltu x16, x12, x14
    .word 0x4f012303  # lw x6, 1264(x2)
    .word 0x026a87b3  # mul x15, x21, x6
    .word 0x4f012303  # lw x6, 1264(x2)
    .word 0x026ab733  # mulhu x14, x21, x6
    .word 0x00f585b3  # add x11, x11, x15
    .word 0x00f5b333  # sltu x6, x11, x15
    .word 0x00670733  # add x14, x14, x6
    .word 0x00e60633  # add x12, x12, x14
    .word 0x00e63333  # sltu x6, x12, x14
    .word 0x00680833  # add x16, x16, x6
    .word 0x26b12623  # sw x11, 620(x2)
    .word 0x00060593  # addi x11, x12, 0
    .word 0x00080613  # addi x12, x16, 0
    .word 0x037b87b3  # mul x15, x23, x23
    .word 0x037bb733  # mulhu x14, x23, x23
    .word 0x00f585b3  # add x11, x11, x15
    .word 0x00f5b333  # sltu x6, x11, x15
    .word 0x00670733  # add x14, x14, x6
    .word 0x00e60633  # add x12, x12, x14
    .word 0x00e63833  # sltu x16, x12, x14
    .word 0x4f012303  # lw x6, 1264(x2)
    .word 0x026b07b3  # mul x15, x22, x6
    .word 0x4f012303  # lw x6, 1264(x2)
    .word 0x026b3733  # mulhu x14, x22, x6
    .word 0x00f585b3  # add x11, x11, x15
    .word 0x00f5b333  # sltu x6, x11, x15
    .word 0x00670733  # add x14, x14, x6
    .word 0x00e60633  # add x12, x12, x14
    .word 0x00e63333  # sltu x6, x12, x14
    .word 0x00680833  # add x16, x16, x6
    .word 0x032a87b3  # mul x15, x21, x18
    .word 0x032ab733  # mulhu x14, x21, x18
    .word 0x00f585b3  # add x11, x11, x15
    .word 0x00f5b333  # sltu x6, x11, x15
    .word 0x00670733  # add x14, x14, x6
    .word 0x00e60633  # add x12, x12, x14
    .word 0x00e63333  # sltu x6, x12, x14
    .word 0x00680833  # add x16, x16, x6
    .word 0x26b12823  # sw x11, 624(x2)
    .word 0x00060593  # addi x11, x12, 0
    .word 0x00080613  # addi x12, x16, 0
    .word 0x001c1713  # slli x14, x24, 1
    .word 0x02eb87b3  # mul x15, x23, x14
    .word 0x02ebb733  # mulhu x14, x23, x14
    .word 0x00f585b3  # add x11, x11, x15
    .word 0x00f5b333  # sltu x6, x11, x15
    .word 0x00670733  # add x14, x14, x6
    .word 0x00e60633  # add x12, x12, x14
    .word 0x00e63833  # sltu x16, x12, x14
    .word 0x032b07b3  # mul x15, x22, x18
    .word 0x032b3733  # mulhu x14, x22, x18
    .word 0x00f585b3  # add x11, x11, x15
    .word 0x00f5b333  # sltu x6, x11, x15
    .word 0x00670733  # add x14, x14, x6
    .word 0x00e60633  # add x12, x12, x14
    .word 0x00e63333  # sltu x6, x12, x14
    .word 0x00680833  # add x16, x16, x6
    .word 0x031a87b3  # mul x15, x21, x17
    .word 0x031ab733  # mulhu x14, x21, x17
    .word 0x00f585b3  # add x11, x11, x15
    .word 0x00f5b333  # sltu x6, x11, x15
    .word 0x00670733  # add x14, x14, x6
    .word 0x00e60633  # add x12, x12, x14
    .word 0x00e63333  # sltu x6, x12, x14
    .word 0x00680833  # add x16, x16, x6
    .word 0x26b12a23  # sw x11, 628(x2)
    .word 0x00060593  # addi x11, x12, 0
    .word 0x00080613  # addi x12, x16, 0
    .word 0x038c07b3  # mul x15, x24, x24
    .word 0x038c3733  # mulhu x14, x24, x24
    .word 0x00f585b3  # add x11, x11, x15
    .word 0x00f5b333  # sltu x6, x11, x15
    .word 0x00670733  # add x14, x14, x6
    .word 0x00e60633  # add x12, x12, x14
    .word 0x00e63833  # sltu x16, x12, x14
    .word 0x032b87b3  # mul x15, x23, x18
    .word 0x032bb733  # mulhu x14, x23, x18
    .word 0x00f585b3  # add x11, x11, x15
    .word 0x00f5b333  # sltu x6, x11, x15
    .word 0x00670733  # add x14, x14, x6
    .word 0x00e60633  # add x12, x12, x14
    .word 0x00e63333  # sltu x6, x12, x14
    .word 0x00680833  # add x16, x16, x6
    .word 0x031b07b3  # mul x15, x22, x17
    .word 0x031b3733  # mulhu x14, x22, x17
    .word 0x00f585b3  # add x11, x11, x15
    .word 0x00f5b333  # sltu x6, x11, x15
    .word 0x00670733  # add x14, x14, x6
    .word 0x00e60633  # add x12, x12, x14
    .word 0x00e63333  # sltu x6, x12, x14
    .word 0x00680833  # add x16, x16, x6
    .word 0x033a87b3  # mul x15, x21, x19
    .word 0x033ab733  # mulhu x14, x21, x19
    .word 0x00f585b3  # add x11, x11, x15
    .word 0x00f5b333  # sltu x6, x11, x15
    .word 0x00670733  # add x14, x14, x6
    .word 0x00e60633  # add x12, x12, x14
    .word 0x00e63333  # sltu x6, x12, x14
    .word 0x00680833  # add x16, x16, x6
    .word 0x26b12c23  # sw x11, 632(x2)
    .word 0x00060593  # addi x11, x12, 0
    .word 0x00080613  # addi x12, x16, 0
    .word 0x50012283  # lw x5, 1280(x2)
    .word 0x00129713  # slli x14, x5, 1
    .word 0x02ec07b3  # mul x15, x24, x14
    .word 0x02ec3733  # mulhu x14, x24, x14
    .word 0x00f585b3  # add x11, x11, x15
    .word 0x00f5b333  # sltu x6, x11, x15
    .word 0x00670733  # add x14, x14, x6
    .word 0x00e60633  # add x12, x12, x14
    .word 0x00e63833  # sltu x16, x12, x14
    .word 0x031b87b3  # mul x15, x23, x17
    .word 0x031bb733  # mulhu x14, x23, x17
    .word 0x00f585b3  # add x11, x11, x15
    .word 0x00f5b333  # sltu x6, x11, x15
    .word 0x00670733  # add x14, x14, x6
    .word 0x00e60633  # add x12, x12, x14
    .word 0x00e63333  # sltu x6, x12, x14
    .word 0x00680833  # add x16, x16, x6
    .word 0x033b07b3  # mul x15, x22, x19
    .word 0x033b3733  # mulhu x14, x22, x19
    .word 0x00f585b3  # add x11, x11, x15
    .word 0x00f5b333  # sltu x6, x11, x15
    .word 0x00670733  # add x14, x14, x6
    .word 0x00e60633  # add x12, x12, x14
    .word 0x00e63333  # sltu x6, x12, x14
    .word 0x00680833  # add x16, x16, x6
    .word 0x034a87b3  # mul x15, x21, x20
    .word 0x034ab733  # mulhu x14, x21, x20
    .word 0x00f585b3  # add x11, x11, x15
    .word 0x00f5b333  # sltu x6, x11, x15
    .word 0x00670733  # add x14, x14, x6
    .word 0x00e60633  # add x12, x12, x14
    .word 0x00e63333  # sltu x6, x12, x14
    .word 0x00680833  # add x16, x16, x6
    .word 0x26b12e23  # sw x11, 636(x2)
    .word 0x00060593  # addi x11, x12, 0
    .word 0x00080613  # addi x12, x16, 0
    .word 0x50012283  # lw x5, 1280(x2)
    .word 0x50012303  # lw x6, 1280(x2)
    .word 0x026287b3  # mul x15, x5, x6
    .word 0x50012283  # lw x5, 1280(x2)
    .word 0x50012303  # lw x6, 1280(x2)
    .word 0x0262b733  # mulhu x14, x5, x6
    .word 0x00f585b3  # add x11, x11, x15
    .word 0x00f5b333  # sltu x6, x11, x15
    .word 0x00670733  # add x14, x14, x6
    .word 0x00e60633  # add x12, x12, x14
    .word 0x00e63833  # sltu x16, x12, x14
    .word 0x031c07b3  # mul x15, x24, x17
    .word 0x031c3733  # mulhu x14, x24, x17
    .word 0x00f585b3  # add x11, x11, x15
    .word 0x00f5b333  # sltu x6, x11, x15
    .word 0x00670733  # add x14, x14, x6
    .word 0x00e60633  # add x12, x12, x14
    .word 0x00e63333  # sltu x6, x12, x14
    .word 0x00680833  # add x16, x16, x6
    .word 0x033b87b3  # mul x15, x23, x19
    .word 0x033bb733  # mulhu x14, x23, x19
    .word 0x00f585b3  # add x11, x11, x15
    .word 0x00f5b333  # sltu x6, x11, x15
    .word 0x00670733  # add x14, x14, x6
    .word 0x00e60633  # add x12, x12, x14
    .word 0x00e63333  # sltu x6, x12, x14
    .word 0x00680833  # add x16, x16, x6
    .word 0x034b07b3  # mul x15, x22, x20
    .word 0x034b3733  # mulhu x14, x22, x20
    .word 0x00f585b3  # add x11, x11, x15
    .word 0x00f5b333  # sltu x6, x11, x15
    .word 0x00670733  # add x14, x14, x6
    .word 0x00e60633  # add x12, x12, x14
    .word 0x00e63333  # sltu x6, x12, x14
    .word 0x00680833  # add x16, x16, x6
    .word 0x00058893  # addi x17, x11, 0
    .word 0x00060593  # addi x11, x12, 0
    .word 0x00080613  # addi x12, x16, 0
    .word 0x50412283  # lw x5, 1284(x2)
    .word 0x00129713  # slli x14, x5, 1
    .word 0x50012283  # lw x5, 1280(x2)
    .word 0x02e287b3  # mul x15, x5, x14
    .word 0x50012283  # lw x5, 1280(x2)
    .word 0x02e2b733  # mulhu x14, x5, x14
    .word 0x00f585b3  # add x11, x11, x15
    .word 0x00f5b333  # sltu x6, x11, x15
    .word 0x00670733  # add x14, x14, x6
    .word 0x00e60633  # add x12, x12, x14
    .word 0x00e63833  # sltu x16, x12, x14
    .word 0x033c07b3  # mul x15, x24, x19
    .word 0x033c3733  # mulhu x14, x24, x19
    .word 0x00f585b3  # add x11, x11, x15
    .word 0x00f5b333  # sltu x6, x11, x15
    .word 0x00670733  # add x14, x14, x6
    .word 0x00e60633  # add x12, x12, x14
    .word 0x00e63333  # sltu x6, x12, x14
    .word 0x00680833  # add x16, x16, x6
    .word 0x034b87b3  # mul x15, x23, x20
    .word 0x034bb733  # mulhu x14, x23, x20
    .word 0x00f585b3  # add x11, x11, x15
    .word 0x00f5b333  # sltu x6, x11, x15
    .word 0x00670733  # add x14, x14, x6
    .word 0x00e60633  # add x12, x12, x14
    .word 0x00e63333  # sltu x6, x12, x14
    .word 0x00680833  # add x16, x16, x6
    .word 0x00058913  # addi x18, x11, 0
    .word 0x00060593  # addi x11, x12, 0
    .word 0x00080613  # addi x12, x16, 0
    .word 0x50412283  # lw x5, 1284(x2)
    .word 0x50412303  # lw x6, 1284(x2)
    .word 0x026287b3  # mul x15, x5, x6
    .word 0x50412283  # lw x5, 1284(x2)
    .word 0x50412303  # lw x6, 1284(x2)
    .word 0x0262b733  # mulhu x14, x5, x6
    .word 0x00f585b3  # add x11, x11, x15
    .word 0x00f5b333  # sltu x6, x11, x15
    .word 0x00670733  # add x14, x14, x6
    .word 0x00e60633  # add x12, x12, x14
    .word 0x00e63833  # sltu x16, x12, x14
    .word 0x50012283  # lw x5, 1280(x2)
    .word 0x033287b3  # mul x15, x5, x19
    .word 0x50012283  # lw x5, 1280(x2)
    .word 0x0332b733  # mulhu x14, x5, x19
    .word 0x00f585b3  # add x11, x11, x15
    .word 0x00f5b333  # sltu x6, x11, x15
    .word 0x00670733  # add x14, x14, x6
    .word 0x00e60633  # add x12, x12, x14
    .word 0x00e63333  # sltu x6, x12, x14
    .word 0x00680833  # add x16, x16, x6
    .word 0x034c07b3  # mul x15, x24, x20
    .word 0x034c3733  # mulhu x14, x24, x20
    .word 0x00f585b3  # add x11, x11, x15
    .word 0x00f5b333  # sltu x6, x11, x15
    .word 0x00670733  # add x14, x14, x6
    .word 0x00e60633  # add x12, x12, x14
    .word 0x00e63333  # sltu x6, x12, x14
    .word 0x00680833  # add x16, x16, x6
    .word 0x00058993  # addi x19, x11, 0
    .word 0x00060593  # addi x11, x12, 0
    .word 0x00080613  # addi x12, x16, 0
    .word 0x50812283  # lw x5, 1288(x2)
    .word 0x00129713  # slli x14, x5, 1
    .word 0x50412283  # lw x5, 1284(x2)
    .word 0x02e287b3  # mul x15, x5, x14
    .word 0x50412283  # lw x5, 1284(x2)
    .word 0x02e2b733  # mulhu x14, x5, x14
    .word 0x00f585b3  # add x11, x11, x15
    .word 0x00f5b333  # sltu x6, x11, x15
    .word 0x00670733  # add x14, x14, x6
    .word 0x00e60633  # add x12, x12, x14
    .word 0x00e63833  # sltu x16, x12, x14
    .word 0x50012283  # lw x5, 1280(x2)
    .word 0x034287b3  # mul x15, x5, x20
    .word 0x50012283  # lw x5, 1280(x2)
    .word 0x0342b733  # mulhu x14, x5, x20
    .word 0x00f585b3  # add x11, x11, x15
    .word 0x00f5b333  # sltu x6, x11, x15
    .word 0x00670733  # add x14, x14, x6
    .word 0x00e60633  # add x12, x12, x14
    .word 0x00e63333  # sltu x6, x12, x14
    .word 0x00680833  # add x16, x16, x6
    .word 0x4eb12823  # sw x11, 1264(x2)
    .word 0x00060593  # addi x11, x12, 0
    .word 0x00080613  # addi x12, x16, 0
    .word 0x50812283  # lw x5, 1288(x2)
    .word 0x50812303  # lw x6, 1288(x2)
    .word 0x026287b3  # mul x15, x5, x6
    .word 0x50812283  # lw x5, 1288(x2)
    .word 0x50812303  # lw x6, 1288(x2)
    .word 0x0262b733  # mulhu x14, x5, x6
    .word 0x00f585b3  # add x11, x11, x15
    .word 0x00f5b333  # sltu x6, x11, x15
    .word 0x00670733  # add x14, x14, x6
    .word 0x00e60633  # add x12, x12, x14
    .word 0x00e63833  # sltu x16, x12, x14
    .word 0x50412283  # lw x5, 1284(x2)
    .word 0x034287b3  # mul x15, x5, x20
    .word 0x50412283  # lw x5, 1284(x2)
    .word 0x0342b733  # mulhu x14, x5, x20
    .word 0x00f585b3  # add x11, x11, x15
    .word 0x00f5b333  # sltu x6, x11, x15
    .word 0x00670733  # add x14, x14, x6
    .word 0x00e60633  # add x12, x12, x14
    .word 0x00e63333  # sltu x6, x12, x14
    .word 0x00680833  # add x16, x16, x6
    .word 0x00058a13  # addi x20, x11, 0
    .word 0x00060593  # addi x11, x12, 0
    .word 0x00080613  # addi x12, x16, 0
    .word 0x001c9713  # slli x14, x25, 1
    .word 0x50812283  # lw x5, 1288(x2)
    .word 0x02e287b3  # mul x15, x5, x14
    .word 0x50812283  # lw x5, 1288(x2)
    .word 0x02e2b733  # mulhu x14, x5, x14
    .word 0x00f585b3  # add x11, x11, x15
    .word 0x00f5b333  # sltu x6, x11, x15
    .word 0x00670733  # add x14, x14, x6
    .word 0x00e60633  # add x12, x12, x14
    .word 0x00e63833  # sltu x16, x12, x14
    .word 0x4eb12a23  # sw x11, 1268(x2)
    .word 0x00060593  # addi x11, x12, 0
    .word 0x00080613  # addi x12, x16, 0
    .word 0x039c87b3  # mul x15, x25, x25
    .word 0x039cb733  # mulhu x14, x25, x25
    .word 0x00f585b3  # add x11, x11, x15
    .word 0x00f5b333  # sltu x6, x11, x15
    .word 0x00670733  # add x14, x14, x6
    .word 0x00e60633  # add x12, x12, x14
    .word 0x4eb12c23  # sw x11, 1272(x2)
    .word 0x00060593  # addi x11, x12, 0
    .word 0x4eb12e23  # sw x11, 1276(x2)
    .word 0x1900006f  # jal x0, 400
    .word 0x27512023  # sw x21, 608(x2)
    .word 0x27612223  # sw x22, 612(x2)
    .word 0x27712423  # sw x23, 616(x2)
    .word 0x27812623  # sw x24, 620(x2)
    .word 0x50012283  # lw x5, 1280(x2)
    .word 0x26512823  # sw x5, 624(x2)
    .word 0x50412283  # lw x5, 1284(x2)
    .word 0x26512a23  # sw x5, 628(x2)
    .word 0x50812283  # lw x5, 1288(x2)
    .word 0x26512c23  # sw x5, 632(x2)
    .word 0x27912e23  # sw x25, 636(x2)
    .word 0xfff00693  # addi x13, x0, -1
    .word 0x00168693  # addi x13, x13, 1
    .word 0x00269d93  # slli x27, x13, 2
    .word 0x002d8db3  # add x27, x27, x2
    .word 0x260da583  # lw x11, 608(x27)
    .word 0x060d2703  # lw x14, 96(x26)
    .word 0x02e587b3  # mul x15, x11, x14
    .word 0x02e5b833  # mulhu x16, x11, x14
    .word 0x00f88733  # add x14, x17, x15
    .word 0x26eda023  # sw x14, 608(x27)
    .word 0x00f73333  # sltu x6, x14, x15
    .word 0x00680633  # add x12, x16, x6
    .word 0x064d2703  # lw x14, 100(x26)
    .word 0x02e587b3  # mul x15, x11, x14
    .word 0x02e5b833  # mulhu x16, x11, x14
    .word 0x00f90733  # add x14, x18, x15
    .word 0x00c708b3  # add x17, x14, x12
    .word 0x00f73333  # sltu x6, x14, x15
    .word 0x006802b3  # add x5, x16, x6
    .word 0x00c8b333  # sltu x6, x17, x12
    .word 0x00628633  # add x12, x5, x6
    .word 0x068d2703  # lw x14, 104(x26)
    .word 0x02e587b3  # mul x15, x11, x14
    .word 0x02e5b833  # mulhu x16, x11, x14
    .word 0x00f98733  # add x14, x19, x15
    .word 0x00c70933  # add x18, x14, x12
    .word 0x00f73333  # sltu x6, x14, x15
    .word 0x006802b3  # add x5, x16, x6
    .word 0x00c93333  # sltu x6, x18, x12
    .word 0x00628633  # add x12, x5, x6
    .word 0x06cd2703  # lw x14, 108(x26)
    .word 0x02e587b3  # mul x15, x11, x14
    .word 0x02e5b833  # mulhu x16, x11, x14
    .word 0x4f012283  # lw x5, 1264(x2)
    .word 0x00f28733  # add x14, x5, x15
    .word 0x00c709b3  # add x19, x14, x12
    .word 0x00f73333  # sltu x6, x14, x15
    .word 0x006802b3  # add x5, x16, x6
    .word 0x00c9b333  # sltu x6, x19, x12
    .word 0x00628633  # add x12, x5, x6
    .word 0x070d2703  # lw x14, 112(x26)
    .word 0x02e587b3  # mul x15, x11, x14
    .word 0x02e5b833  # mulhu x16, x11, x14
    .word 0x00fa0733  # add x14, x20, x15
    .word 0x00c702b3  # add x5, x14, x12
    .word 0x4e512823  # sw x5, 1264(x2)
    .word 0x00f73333  # sltu x6, x14, x15
    .word 0x006802b3  # add x5, x16, x6
    .word 0x4f012303  # lw x6, 1264(x2)
    .word 0x00c33333  # sltu x6, x6, x12
    .word 0x00628633  # add x12, x5, x6
    .word 0x074d2703  # lw x14, 116(x26)
    .word 0x02e587b3  # mul x15, x11, x14
    .word 0x02e5b833  # mulhu x16, x11, x14
    .word 0x4f412283  # lw x5, 1268(x2)
    .word 0x00f28733  # add x14, x5, x15
    .word 0x00c70a33  # add x20, x14, x12
    .word 0x00f73333  # sltu x6, x14, x15
    .word 0x006802b3  # add x5, x16, x6
    .word 0x00ca3333  # sltu x6, x20, x12
    .word 0x00628633  # add x12, x5, x6
    .word 0x078d2703  # lw x14, 120(x26)
    .word 0x02e587b3  # mul x15, x11, x14
    .word 0x02e5b833  # mulhu x16, x11, x14
    .word 0x4f812283  # lw x5, 1272(x2)
    .word 0x00f28733  # add x14, x5, x15
    .word 0x00c702b3  # add x5, x14, x12
    .word 0x4e512a23  # sw x5, 1268(x2)
    .word 0x00f73333  # sltu x6, x14, x15
    .word 0x006802b3  # add x5, x16, x6
    .word 0x4f412303  # lw x6, 1268(x2)
    .word 0x00c33333  # sltu x6, x6, x12
    .word 0x00628633  # add x12, x5, x6
    .word 0x07cd2703  # lw x14, 124(x26)
    .word 0x02e587b3  # mul x15, x11, x14
    .word 0x02e5b833  # mulhu x16, x11, x14
    .word 0x4fc12283  # lw x5, 1276(x2)
    .word 0x00f28733  # add x14, x5, x15
    .word 0x00c702b3  # add x5, x14, x12
    .word 0x4e512c23  # sw x5, 1272(x2)
    .word 0x00f73333  # sltu x6, x14, x15
    .word 0x006802b3  # add x5, x16, x6
    .word 0x4f812303  # lw x6, 1272(x2)
    .word 0x00c33333  # sltu x6, x6, x12
    .word 0x00628633  # add x12, x5, x6
    .word 0x4ec12e23  # sw x12, 1276(x2)
    .word 0xff968293  # addi x5, x13, -7
    .word 0xea0294e3  # bne x5, x0, -344
    .word 0x02600313  # addi x6, x0, 38
    .word 0x026885b3  # mul x11, x17, x6
    .word 0x02600313  # addi x6, x0, 38
    .word 0x0268b7b3  # mulhu x15, x17, x6
    .word 0x26012283  # lw x5, 608(x2)
    .word 0x00b28633  # add x12, x5, x11
    .word 0x00060a93  # addi x21, x12, 0
    .word 0x00b63333  # sltu x6, x12, x11
    .word 0x00678733  # add x14, x15, x6
    .word 0x02600313  # addi x6, x0, 38
    .word 0x026905b3  # mul x11, x18, x6
    .word 0x02600313  # addi x6, x0, 38
    .word 0x026937b3  # mulhu x15, x18, x6
    .word 0x26412283  # lw x5, 612(x2)
    .word 0x00b28633  # add x12, x5, x11
    .word 0x00e60b33  # add x22, x12, x14
    .word 0x00b63333  # sltu x6, x12, x11
    .word 0x006782b3  # add x5, x15, x6
    .word 0x00eb3333  # sltu x6, x22, x14
    .word 0x00628733  # add x14, x5, x6
    .word 0x02600313  # addi x6, x0, 38
    .word 0x026985b3  # mul x11, x19, x6
    .word 0x02600313  # addi x6, x0, 38
    .word 0x0269b7b3  # mulhu x15, x19, x6
    .word 0x26812283  # lw x5, 616(x2)
    .word 0x00b28633  # add x12, x5, x11
    .word 0x00e60bb3  # add x23, x12, x14
    .word 0x00b63333  # sltu x6, x12, x11
    .word 0x006782b3  # add x5, x15, x6
    .word 0x00ebb333  # sltu x6, x23, x14
    .word 0x00628733  # add x14, x5, x6
    .word 0x4f012283  # lw x5, 1264(x2)
    .word 0x02600313  # addi x6, x0, 38
    .word 0x026285b3  # mul x11, x5, x6
    .word 0x4f012283  # lw x5, 1264(x2)
    .word 0x02600313  # addi x6, x0, 38
    .word 0x0262b7b3  # mulhu x15, x5, x6
    .word 0x26c12283  # lw x5, 620(x2)
    .word 0x00b28633  # add x12, x5, x11
    .word 0x00e60c33  # add x24, x12, x14
    .word 0x00b63333  # sltu x6, x12, x11
    .word 0x006782b3  # add x5, x15, x6
    .word 0x00ec3333  # sltu x6, x24, x14
    .word 0x00628733  # add x14, x5, x6
    .word 0x02600313  # addi x6, x0, 38
    .word 0x026a05b3  # mul x11, x20, x6
    .word 0x02600313  # addi x6, x0, 38
    .word 0x026a37b3  # mulhu x15, x20, x6
    .word 0x27012283  # lw x5, 624(x2)
    .word 0x00b28633  # add x12, x5, x11
    .word 0x00e602b3  # add x5, x12, x14
    .word 0x50512023  # sw x5, 1280(x2)
    .word 0x00b63333  # sltu x6, x12, x11
    .word 0x006782b3  # add x5, x15, x6
    .word 0x50012303  # lw x6, 1280(x2)
    .word 0x00e33333  # sltu x6, x6, x14
    .word 0x00628733  # add x14, x5, x6
    .word 0x4f412283  # lw x5, 1268(x2)
    .word 0x02600313  # addi x6, x0, 38
    .word 0x026285b3  # mul x11, x5, x6
    .word 0x4f412283  # lw x5, 1268(x2)
    .word 0x02600313  # addi x6, x0, 38
    .word 0x0262b7b3  # mulhu x15, x5, x6
    .word 0x27412283  # lw x5, 628(x2)
    .word 0x00b28633  # add x12, x5, x11
    .word 0x00e602b3  # add x5, x12, x14
    .word 0x50512223  # sw x5, 1284(x2)
    .word 0x00b63333  # sltu x6, x12, x11
    .word 0x006782b3  # add x5, x15, x6
    .word 0x50412303  # lw x6, 1284(x2)
    .word 0x00e33333  # sltu x6, x6, x14
    .word 0x00628733  # add x14, x5, x6
    .word 0x4f812283  # lw x5, 1272(x2)
    .word 0x02600313  # addi x6, x0, 38
    .word 0x026285b3  # mul x11, x5, x6
    .word 0x4f812283  # lw x5, 1272(x2)
    .word 0x02600313  # addi x6, x0, 38
    .word 0x0262b7b3  # mulhu x15, x5, x6
    .word 0x27812283  # lw x5, 632(x2)
    .word 0x00b28633  # add x12, x5, x11
    .word 0x00e602b3  # add x5, x12, x14
    .word 0x50512423  # sw x5, 1288(x2)
    .word 0x00b63333  # sltu x6, x12, x11
    .word 0x006782b3  # add x5, x15, x6
    .word 0x50812303  # lw x6, 1288(x2)
    .word 0x00e33333  # sltu x6, x6, x14
    .word 0x00628733  # add x14, x5, x6
    .word 0x4fc12283  # lw x5, 1276(x2)
    .word 0x02600313  # addi x6, x0, 38
    .word 0x026285b3  # mul x11, x5, x6
    .word 0x4fc12283  # lw x5, 1276(x2)
    .word 0x02600313  # addi x6, x0, 38
    .word 0x0262b7b3  # mulhu x15, x5, x6
    .word 0x27c12283  # lw x5, 636(x2)
    .word 0x00b28633  # add x12, x5, x11
    .word 0x00e60cb3  # add x25, x12, x14
    .word 0x00b63333  # sltu x6, x12, x11
    .word 0x006782b3  # add x5, x15, x6
    .word 0x00ecb333  # sltu x6, x25, x14
    .word 0x00628733  # add x14, x5, x6
    .word 0x01300293  # addi x5, x0, 19
    .word 0x00171313  # slli x6, x14, 1
    .word 0x01fcd393  # srli x7, x25, 31
    .word 0x00736333  # or x6, x6, x7
    .word 0x02628733  # mul x14, x5, x6
    .word 0x56c12303  # lw x6, 1388(x2)
    .word 0x006cfcb3  # and x25, x25, x6
    .word 0x00ea8ab3  # add x21, x21, x14
    .word 0x00eab733  # sltu x14, x21, x14
    .word 0x00eb0b33  # add x22, x22, x14
    .word 0x00eb3733  # sltu x14, x22, x14
    .word 0x00eb8bb3  # add x23, x23, x14
    .word 0x00ebb733  # sltu x14, x23, x14
    .word 0x00ec0c33  # add x24, x24, x14
    .word 0x00ec3733  # sltu x14, x24, x14
    .word 0x50012283  # lw x5, 1280(x2)
    .word 0x00e282b3  # add x5, x5, x14
    .word 0x50512023  # sw x5, 1280(x2)
    .word 0x50012283  # lw x5, 1280(x2)
    .word 0x00e2b733  # sltu x14, x5, x14
    .word 0x50412283  # lw x5, 1284(x2)
    .word 0x00e282b3  # add x5, x5, x14
    .word 0x50512223  # sw x5, 1284(x2)
    .word 0x50412283  # lw x5, 1284(x2)
    .word 0x00e2b733  # sltu x14, x5, x14
    .word 0x50812283  # lw x5, 1288(x2)
    .word 0x00e282b3  # add x5, x5, x14
    .word 0x50512423  # sw x5, 1288(x2)
    .word 0x50812283  # lw x5, 1288(x2)
    .word 0x00e2b733  # sltu x14, x5, x14
    .word 0x00ec8cb3  # add x25, x25, x14
    .word 0x01300313  # addi x6, x0, 19
    .word 0x01fcd393  # srli x7, x25, 31
    .word 0x02730333  # mul x6, x6, x7
    .word 0x006a8ab3  # add x21, x21, x6
    .word 0x56c12303  # lw x6, 1388(x2)
    .word 0x006cfcb3  # and x25, x25, x6
    .word 0x31012283  # lw x5, 784(x2)
    .word 0x00229293  # slli x5, x5, 2
    .word 0x002282b3  # add x5, x5, x2
    .word 0x0752a023  # sw x21, 96(x5)
    .word 0x31012283  # lw x5, 784(x2)
    .word 0x00229293  # slli x5, x5, 2
    .word 0x002282b3  # add x5, x5, x2
    .word 0x0762a223  # sw x22, 100(x5)
    .word 0x31012283  # lw x5, 784(x2)
    .word 0x00229293  # slli x5, x5, 2
    .word 0x002282b3  # add x5, x5, x2
    .word 0x0772a423  # sw x23, 104(x5)
    .word 0x31012283  # lw x5, 784(x2)
    .word 0x00229293  # slli x5, x5, 2
    .word 0x002282b3  # add x5, x5, x2
    .word 0x0782a623  # sw x24, 108(x5)
    .word 0x31012283  # lw x5, 784(x2)
    .word 0x50012303  # lw x6, 1280(x2)
    .word 0x00229293  # slli x5, x5, 2
    .word 0x002282b3  # add x5, x5, x2
    .word 0x0662a823  # sw x6, 112(x5)
    .word 0x31012283  # lw x5, 784(x2)
    .word 0x50412303  # lw x6, 1284(x2)
    .word 0x00229293  # slli x5, x5, 2
    .word 0x002282b3  # add x5, x5, x2
    .word 0x0662aa23  # sw x6, 116(x5)
    .word 0x31012283  # lw x5, 784(x2)
    .word 0x50812303  # lw x6, 1288(x2)
    .word 0x00229293  # slli x5, x5, 2
    .word 0x002282b3  # add x5, x5, x2
    .word 0x0662ac23  # sw x6, 120(x5)
    .word 0x31012283  # lw x5, 784(x2)
    .word 0x00229293  # slli x5, x5, 2
    .word 0x002282b3  # add x5, x5, x2
    .word 0x0792ae23  # sw x25, 124(x5)
    .word 0x5b40006f  # jal x0, 1460
    .word 0x3a812283  # lw x5, 936(x2)
    .word 0x00100313  # addi x6, x0, 1
    .word 0x14629863  # bne x5, x6, 336
    .word 0x060da583  # lw x11, 96(x27)
    .word 0x060d2303  # lw x6, 96(x26)
    .word 0x00658733  # add x14, x11, x6
    .word 0x00b73633  # sltu x12, x14, x11
    .word 0x31012283  # lw x5, 784(x2)
    .word 0x00229293  # slli x5, x5, 2
    .word 0x002282b3  # add x5, x5, x2
    .word 0x06e2a023  # sw x14, 96(x5)
    .word 0x064da583  # lw x11, 100(x27)
    .word 0x064d2303  # lw x6, 100(x26)
    .word 0x00658733  # add x14, x11, x6
    .word 0x00c707b3  # add x15, x14, x12
    .word 0x00b732b3  # sltu x5, x14, x11
    .word 0x00c7b333  # sltu x6, x15, x12
    .word 0x00628633  # add x12, x5, x6
    .word 0x31012283  # lw x5, 784(x2)
    .word 0x00229293  # slli x5, x5, 2
    .word 0x002282b3  # add x5, x5, x2
    .word 0x06f2a223  # sw x15, 100(x5)
    .word 0x068da583  # lw x11, 104(x27)
    .word 0x068d2303  # lw x6, 104(x26)
    .word 0x00658733  # add x14, x11, x6
    .word 0x00c707b3  # add x15, x14, x12
    .word 0x00b732b3  # sltu x5, x14, x11
    .word 0x00c7b333  # sltu x6, x15, x12
    .word 0x00628633  # add x12, x5, x6
    .word 0x31012283  # lw x5, 784(x2)
    .word 0x00229293  # slli x5, x5, 2
    .word 0x002282b3  # add x5, x5, x2
    .word 0x06f2a423  # sw x15, 104(x5)
    .word 0x06cda583  # lw x11, 108(x27)
    .word 0x06cd2303  # lw x6, 108(x26)
    .word 0x00658733  # add x14, x11, x6
    .word 0x00c707b3  # add x15, x14, x12
    .word 0x00b732b3  # sltu x5, x14, x11
    .word 0x00c7b333  # sltu x6, x15, x12
    .word 0x00628633  # add x12, x5, x6
    .word 0x31012283  # lw x5, 784(x2)
    .word 0x00229293  # slli x5, x5, 2
    .word 0x002282b3  # add x5, x5, x2
    .word 0x06f2a623  # sw x15, 108(x5)
    .word 0x070da583  # lw x11, 112(x27)
    .word 0x070d2303  # lw x6, 112(x26)
    .word 0x00658733  # add x14, x11, x6
    .word 0x00c707b3  # add x15, x14, x12
    .word 0x00b732b3  # sltu x5, x14, x11
    .word 0x00c7b333  # sltu x6, x15, x12
    .word 0x00628633  # add x12, x5, x6
    .word 0x31012283  # lw x5, 784(x2)
    .word 0x00229293  # slli x5, x5, 2
    .word 0x002282b3  # add x5, x5, x2
    .word 0x06f2a823  # sw x15, 112(x5)
    .word 0x074da583  # lw x11, 116(x27)
    .word 0x074d2303  # lw x6, 116(x26)
    .word 0x00658733  # add x14, x11, x6
    .word 0x00c707b3  # add x15, x14, x12
    .word 0x00b732b3  # sltu x5, x14, x11
    .word 0x00c7b333  # sltu x6, x15, x12
    .word 0x00628633  # add x12, x5, x6
    .word 0x31012283  # lw x5, 784(x2)
    .word 0x00229293  # slli x5, x5, 2
    .word 0x002282b3  # add x5, x5, x2
    .word 0x06f2aa23  # sw x15, 116(x5)
    .word 0x078da583  # lw x11, 120(x27)
    .word 0x078d2303  # lw x6, 120(x26)
    .word 0x00658733  # add x14, x11, x6
    .word 0x00c707b3  # add x15, x14, x12
    .word 0x00b732b3  # sltu x5, x14, x11
    .word 0x00c7b333  # sltu x6, x15, x12
    .word 0x00628633  # add x12, x5, x6
    .word 0x31012283  # lw x5, 784(x2)
    .word 0x00229293  # slli x5, x5, 2
    .word 0x002282b3  # add x5, x5, x2
    .word 0x06f2ac23  # sw x15, 120(x5)
    .word 0x07cda583  # lw x11, 124(x27)
    .word 0x07cd2303  # lw x6, 124(x26)
    .word 0x00658733  # add x14, x11, x6
    .word 0x00c707b3  # add x15, x14, x12
    .word 0x31012283  # lw x5, 784(x2)
    .word 0x00229293  # slli x5, x5, 2
    .word 0x002282b3  # add x5, x5, x2
    .word 0x06f2ae23  # sw x15, 124(x5)
    .word 0x45c0006f  # jal x0, 1116
    .word 0x3a812283  # lw x5, 936(x2)
    .word 0x00200313  # addi x6, x0, 2
    .word 0x1a629c63  # bne x5, x6, 440
    .word 0x060da583  # lw x11, 96(x27)
    .word 0x060d2603  # lw x12, 96(x26)
    .word 0x40c587b3  # sub x15, x11, x12
    .word 0x00078813  # addi x16, x15, 0
    .word 0x00c5b733  # sltu x14, x11, x12
    .word 0x064da583  # lw x11, 100(x27)
    .word 0x064d2603  # lw x12, 100(x26)
    .word 0x40c587b3  # sub x15, x11, x12
    .word 0x40e78ab3  # sub x21, x15, x14
    .word 0x00c5b2b3  # sltu x5, x11, x12
    .word 0x00e7b333  # sltu x6, x15, x14
    .word 0x00628733  # add x14, x5, x6
    .word 0x068da583  # lw x11, 104(x27)
    .word 0x068d2603  # lw x12, 104(x26)
    .word 0x40c587b3  # sub x15, x11, x12
    .word 0x40e78b33  # sub x22, x15, x14
    .word 0x00c5b2b3  # sltu x5, x11, x12
    .word 0x00e7b333  # sltu x6, x15, x14
    .word 0x00628733  # add x14, x5, x6
    .word 0x06cda583  # lw x11, 108(x27)
    .word 0x06cd2603  # lw x12, 108(x26)
    .word 0x40c587b3  # sub x15, x11, x12
    .word 0x40e78bb3  # sub x23, x15, x14
    .word 0x00c5b2b3  # sltu x5, x11, x12
    .word 0x00e7b333  # sltu x6, x15, x14
    .word 0x00628733  # add x14, x5, x6
    .word 0x070da583  # lw x11, 112(x27)
    .word 0x070d2603  # lw x12, 112(x26)
    .word 0x40c587b3  # sub x15, x11, x12
    .word 0x40e78c33  # sub x24, x15, x14
    .word 0x00c5b2b3  # sltu x5, x11, x12
    .word 0x00e7b333  # sltu x6, x15, x14
    .word 0x00628733  # add x14, x5, x6
    .word 0x074da583  # lw x11, 116(x27)
    .word 0x074d2603  # lw x12, 116(x26)
    .word 0x40c587b3  # sub x15, x11, x12
    .word 0x40e782b3  # sub x5, x15, x14
    .word 0x50512023  # sw x5, 1280(x2)
    .word 0x00c5b2b3  # sltu x5, x11, x12
    .word 0x00e7b333  # sltu x6, x15, x14
    .word 0x00628733  # add x14, x5, x6
    .word 0x078da583  # lw x11, 120(x27)
    .word 0x078d2603  # lw x12, 120(x26)
    .word 0x40c587b3  # sub x15, x11, x12
    .word 0x40e78cb3  # sub x25, x15, x14
    .word 0x00c5b2b3  # sltu x5, x11, x12
    .word 0x00e7b333  # sltu x6, x15, x14
    .word 0x00628733  # add x14, x5, x6
    .word 0x07cda583  # lw x11, 124(x27)
    .word 0x07cd2603  # lw x12, 124(x26)
    .word 0x40c587b3  # sub x15, x11, x12
    .word 0x40e782b3  # sub x5, x15, x14
    .word 0x50512223  # sw x5, 1284(x2)
    .word 0x00c5b2b3  # sltu x5, x11, x12
    .word 0x00e7b333  # sltu x6, x15, x14
    .word 0x00628733  # add x14, x5, x6
    .word 0x02600293  # addi x5, x0, 38
    .word 0x02e28733  # mul x14, x5, x14
    .word 0x31012283  # lw x5, 784(x2)
    .word 0x40e80333  # sub x6, x16, x14
    .word 0x00229293  # slli x5, x5, 2
    .word 0x002282b3  # add x5, x5, x2
    .word 0x0662a023  # sw x6, 96(x5)
    .word 0x00e83733  # sltu x14, x16, x14
    .word 0x31012283  # lw x5, 784(x2)
    .word 0x40ea8333  # sub x6, x21, x14
    .word 0x00229293  # slli x5, x5, 2
    .word 0x002282b3  # add x5, x5, x2
    .word 0x0662a223  # sw x6, 100(x5)
    .word 0x00eab733  # sltu x14, x21, x14
    .word 0x31012283  # lw x5, 784(x2)
    .word 0x40eb0333  # sub x6, x22, x14
    .word 0x00229293  # slli x5, x5, 2
    .word 0x002282b3  # add x5, x5, x2
    .word 0x0662a423  # sw x6, 104(x5)
    .word 0x00eb3733  # sltu x14, x22, x14
    .word 0x31012283  # lw x5, 784(x2)
    .word 0x40eb8333  # sub x6, x23, x14
    .word 0x00229293  # slli x5, x5, 2
    .word 0x002282b3  # add x5, x5, x2
    .word 0x0662a623  # sw x6, 108(x5)
    .word 0x00ebb733  # sltu x14, x23, x14
    .word 0x31012283  # lw x5, 784(x2)
    .word 0x40ec0333  # sub x6, x24, x14
    .word 0x00229293  # slli x5, x5, 2
    .word 0x002282b3  # add x5, x5, x2
    .word 0x0662a823  # sw x6, 112(x5)
    .word 0x00ec3733  # sltu x14, x24, x14
    .word 0x31012283  # lw x5, 784(x2)
    .word 0x50012303  # lw x6, 1280(x2)
    .word 0x40e30333  # sub x6, x6, x14
    .word 0x00229293  # slli x5, x5, 2
    .word 0x002282b3  # add x5, x5, x2
    .word 0x0662aa23  # sw x6, 116(x5)
    .word 0x50012283  # lw x5, 1280(x2)
    .word 0x00e2b733  # sltu x14, x5, x14
    .word 0x31012283  # lw x5, 784(x2)
    .word 0x40ec8333  # sub x6, x25, x14
    .word 0x00229293  # slli x5, x5, 2
    .word 0x002282b3  # add x5, x5, x2
    .word 0x0662ac23  # sw x6, 120(x5)
    .word 0x00ecb733  # sltu x14, x25, x14
    .word 0x31012283  # lw x5, 784(x2)
    .word 0x50412303  # lw x6, 1284(x2)
    .word 0x40e30333  # sub x6, x6, x14
    .word 0x00229293  # slli x5, x5, 2
    .word 0x002282b3  # add x5, x5, x2
    .word 0x0662ae23  # sw x6, 124(x5)
    .word 0x29c0006f  # jal x0, 668
    .word 0x060da703  # lw x14, 96(x27)
    .word 0x57812303  # lw x6, 1400(x2)
    .word 0x02670633  # mul x12, x14, x6
    .word 0x57812303  # lw x6, 1400(x2)
    .word 0x026737b3  # mulhu x15, x14, x6
    .word 0x060d2283  # lw x5, 96(x26)
    .word 0x00c28733  # add x14, x5, x12
    .word 0x00070a93  # addi x21, x14, 0
    .word 0x00c73333  # sltu x6, x14, x12
    .word 0x006785b3  # add x11, x15, x6
    .word 0x064da703  # lw x14, 100(x27)
    .word 0x57812303  # lw x6, 1400(x2)
    .word 0x02670633  # mul x12, x14, x6
    .word 0x57812303  # lw x6, 1400(x2)
    .word 0x026737b3  # mulhu x15, x14, x6
    .word 0x064d2283  # lw x5, 100(x26)
    .word 0x00c28733  # add x14, x5, x12
    .word 0x00b70b33  # add x22, x14, x11
    .word 0x00c73333  # sltu x6, x14, x12
    .word 0x006782b3  # add x5, x15, x6
    .word 0x00bb3333  # sltu x6, x22, x11
    .word 0x006285b3  # add x11, x5, x6
    .word 0x068da703  # lw x14, 104(x27)
    .word 0x57812303  # lw x6, 1400(x2)
    .word 0x02670633  # mul x12, x14, x6
    .word 0x57812303  # lw x6, 1400(x2)
    .word 0x026737b3  # mulhu x15, x14, x6
    .word 0x068d2283  # lw x5, 104(x26)
    .word 0x00c28733  # add x14, x5, x12
    .word 0x00b70bb3  # add x23, x14, x11
    .word 0x00c73333  # sltu x6, x14, x12
    .word 0x006782b3  # add x5, x15, x6
    .word 0x00bbb333  # sltu x6, x23, x11
    .word 0x006285b3  # add x11, x5, x6
    .word 0x06cda703  # lw x14, 108(x27)
    .word 0x57812303  # lw x6, 1400(x2)
    .word 0x02670633  # mul x12, x14, x6
    .word 0x57812303  # lw x6, 1400(x2)
    .word 0x026737b3  # mulhu x15, x14, x6
    .word 0x06cd2283  # lw x5, 108(x26)
    .word 0x00c28733  # add x14, x5, x12
    .word 0x00b70c33  # add x24, x14, x11
    .word 0x00c73333  # sltu x6, x14, x12
    .word 0x006782b3  # add x5, x15, x6
    .word 0x00bc3333  # sltu x6, x24, x11
    .word 0x006285b3  # add x11, x5, x6
    .word 0x070da703  # lw x14, 112(x27)
    .word 0x57812303  # lw x6, 1400(x2)
    .word 0x02670633  # mul x12, x14, x6
    .word 0x57812303  # lw x6, 1400(x2)
    .word 0x026737b3  # mulhu x15, x14, x6
    .word 0x070d2283  # lw x5, 112(x26)
    .word 0x00c28733  # add x14, x5, x12
    .word 0x00b702b3  # add x5, x14, x11
    .word 0x50512023  # sw x5, 1280(x2)
    .word 0x00c73333  # sltu x6, x14, x12
    .word 0x006782b3  # add x5, x15, x6
    .word 0x50012303  # lw x6, 1280(x2)
    .word 0x00b33333  # sltu x6, x6, x11
    .word 0x006285b3  # add x11, x5, x6
    .word 0x074da703  # lw x14, 116(x27)
    .word 0x57812303  # lw x6, 1400(x2)
    .word 0x02670633  # mul x12, x14, x6
    .word 0x57812303  # lw x6, 1400(x2)
    .word 0x026737b3  # mulhu x15, x14, x6
    .word 0x074d2283  # lw x5, 116(x26)
    .word 0x00c28733  # add x14, x5, x12
    .word 0x00b70cb3  # add x25, x14, x11
    .word 0x00c73333  # sltu x6, x14, x12
    .word 0x006782b3  # add x5, x15, x6
    .word 0x00bcb333  # sltu x6, x25, x11
    .word 0x006285b3  # add x11, x5, x6
    .word 0x078da703  # lw x14, 120(x27)
    .word 0x57812303  # lw x6, 1400(x2)
    .word 0x02670633  # mul x12, x14, x6
    .word 0x57812303  # lw x6, 1400(x2)
    .word 0x026737b3  # mulhu x15, x14, x6
    .word 0x078d2283  # lw x5, 120(x26)
    .word 0x00c28733  # add x14, x5, x12
    .word 0x00b702b3  # add x5, x14, x11
    .word 0x50512223  # sw x5, 1284(x2)
    .word 0x00c73333  # sltu x6, x14, x12
    .word 0x006782b3  # add x5, x15, x6
    .word 0x50412303  # lw x6, 1284(x2)
    .word 0x00b33333  # sltu x6, x6, x11
    .word 0x006285b3  # add x11, x5, x6
    .word 0x07cda703  # lw x14, 124(x27)
    .word 0x57812303  # lw x6, 1400(x2)
    .word 0x02670633  # mul x12, x14, x6
    .word 0x57812303  # lw x6, 1400(x2)
    .word 0x026737b3  # mulhu x15, x14, x6
    .word 0x07cd2283  # lw x5, 124(x26)
    .word 0x00c28733  # add x14, x5, x12
    .word 0x00b70833  # add x16, x14, x11
    .word 0x00c73333  # sltu x6, x14, x12
    .word 0x006782b3  # add x5, x15, x6
    .word 0x00b83333  # sltu x6, x16, x11
    .word 0x006285b3  # add x11, x5, x6
    .word 0x01300293  # addi x5, x0, 19
    .word 0x00159313  # slli x6, x11, 1
    .word 0x01f85393  # srli x7, x16, 31
    .word 0x00736333  # or x6, x6, x7
    .word 0x02628733  # mul x14, x5, x6
    .word 0x56c12303  # lw x6, 1388(x2)
    .word 0x00687833  # and x16, x16, x6
    .word 0x00ea8ab3  # add x21, x21, x14
    .word 0x00eab733  # sltu x14, x21, x14
    .word 0x00eb0b33  # add x22, x22, x14
    .word 0x00eb3733  # sltu x14, x22, x14
    .word 0x00eb8bb3  # add x23, x23, x14
    .word 0x00ebb733  # sltu x14, x23, x14
    .word 0x00ec0c33  # add x24, x24, x14
    .word 0x00ec3733  # sltu x14, x24, x14
    .word 0x50012283  # lw x5, 1280(x2)
    .word 0x00e282b3  # add x5, x5, x14
    .word 0x50512023  # sw x5, 1280(x2)
    .word 0x50012283  # lw x5, 1280(x2)
    .word 0x00e2b733  # sltu x14, x5, x14
    .word 0x00ec8cb3  # add x25, x25, x14
    .word 0x00ecb733  # sltu x14, x25, x14
    .word 0x50412283  # lw x5, 1284(x2)
    .word 0x00e282b3  # add x5, x5, x14
    .word 0x50512223  # sw x5, 1284(x2)
    .word 0x50412283  # lw x5, 1284(x2)
    .word 0x00e2b733  # sltu x14, x5, x14
    .word 0x00e80833  # add x16, x16, x14
    .word 0x01300313  # addi x6, x0, 19
    .word 0x01f85393  # srli x7, x16, 31
    .word 0x02730333  # mul x6, x6, x7
    .word 0x006a8ab3  # add x21, x21, x6
    .word 0x56c12303  # lw x6, 1388(x2)
    .word 0x00687833  # and x16, x16, x6
    .word 0x31012283  # lw x5, 784(x2)
    .word 0x00229293  # slli x5, x5, 2
    .word 0x002282b3  # add x5, x5, x2
    .word 0x0752a023  # sw x21, 96(x5)
    .word 0x31012283  # lw x5, 784(x2)
    .word 0x00229293  # slli x5, x5, 2
    .word 0x002282b3  # add x5, x5, x2
    .word 0x0762a223  # sw x22, 100(x5)
    .word 0x31012283  # lw x5, 784(x2)
    .word 0x00229293  # slli x5, x5, 2
    .word 0x002282b3  # add x5, x5, x2
    .word 0x0772a423  # sw x23, 104(x5)
    .word 0x31012283  # lw x5, 784(x2)
    .word 0x00229293  # slli x5, x5, 2
    .word 0x002282b3  # add x5, x5, x2
    .word 0x0782a623  # sw x24, 108(x5)
    .word 0x31012283  # lw x5, 784(x2)
    .word 0x50012303  # lw x6, 1280(x2)
    .word 0x00229293  # slli x5, x5, 2
    .word 0x002282b3  # add x5, x5, x2
    .word 0x0662a823  # sw x6, 112(x5)
    .word 0x31012283  # lw x5, 784(x2)
    .word 0x00229293  # slli x5, x5, 2
    .word 0x002282b3  # add x5, x5, x2
    .word 0x0792aa23  # sw x25, 116(x5)
    .word 0x31012283  # lw x5, 784(x2)
    .word 0x50412303  # lw x6, 1284(x2)
    .word 0x00229293  # slli x5, x5, 2
    .word 0x002282b3  # add x5, x5, x2
    .word 0x0662ac23  # sw x6, 120(x5)
    .word 0x31012283  # lw x5, 784(x2)
    .word 0x00229293  # slli x5, x5, 2
    .word 0x002282b3  # add x5, x5, x2
    .word 0x0702ae23  # sw x16, 124(x5)
    .word 0xe41fe06f  # jal x0, -4544
    .word 0xa75fe06f  # jal x0, -5516
    .word 0x08012283  # lw x5, 128(x2)
    .word 0x01328293  # addi x5, x5, 19
    .word 0x0132b593  # sltiu x11, x5, 19
    .word 0x08412283  # lw x5, 132(x2)
    .word 0x00b282b3  # add x5, x5, x11
    .word 0x00b2b5b3  # sltu x11, x5, x11
    .word 0x08812283  # lw x5, 136(x2)
    .word 0x00b282b3  # add x5, x5, x11
    .word 0x00b2b5b3  # sltu x11, x5, x11
    .word 0x08c12283  # lw x5, 140(x2)
    .word 0x00b282b3  # add x5, x5, x11
    .word 0x00b2b5b3  # sltu x11, x5, x11
    .word 0x09012283  # lw x5, 144(x2)
    .word 0x00b282b3  # add x5, x5, x11
    .word 0x00b2b5b3  # sltu x11, x5, x11
    .word 0x09412283  # lw x5, 148(x2)
    .word 0x00b282b3  # add x5, x5, x11
    .word 0x00b2b5b3  # sltu x11, x5, x11
    .word 0x09812283  # lw x5, 152(x2)
    .word 0x00b282b3  # add x5, x5, x11
    .word 0x00b2b5b3  # sltu x11, x5, x11
    .word 0x09c12283  # lw x5, 156(x2)
    .word 0x00b282b3  # add x5, x5, x11
    .word 0x41f2d293  # srai x5, x5, 31
    .word 0x0132f593  # andi x11, x5, 19
    .word 0x08012283  # lw x5, 128(x2)
    .word 0x00b28733  # add x14, x5, x11
    .word 0x00b735b3  # sltu x11, x14, x11
    .word 0xfff00693  # addi x13, x0, -1
    .word 0x00168693  # addi x13, x13, 1
    .word 0x00269d93  # slli x27, x13, 2
    .word 0x002d8db3  # add x27, x27, x2
    .word 0x00369393  # slli x7, x13, 3
    .word 0x00775333  # srl x6, x14, x7
    .word 0x002682b3  # add x5, x13, x2
    .word 0x04628023  # sb x6, 64(x5)
    .word 0xffd68293  # addi x5, x13, -3
    .word 0xfe0290e3  # bne x5, x0, -32
    .word 0x08412283  # lw x5, 132(x2)
    .word 0x00b28733  # add x14, x5, x11
    .word 0x00b735b3  # sltu x11, x14, x11
    .word 0xfff00693  # addi x13, x0, -1
    .word 0x00168693  # addi x13, x13, 1
    .word 0x00269d93  # slli x27, x13, 2
    .word 0x002d8db3  # add x27, x27, x2
    .word 0x00468293  # addi x5, x13, 4
    .word 0x00369393  # slli x7, x13, 3
    .word 0x00775333  # srl x6, x14, x7
    .word 0x002282b3  # add x5, x5, x2
    .word 0x04628023  # sb x6, 64(x5)
    .word 0xffd68293  # addi x5, x13, -3
    .word 0xfc029ee3  # bne x5, x0, -36
    .word 0x08812283  # lw x5, 136(x2)
    .word 0x00b28733  # add x14, x5, x11
    .word 0x00b735b3  # sltu x11, x14, x11
    .word 0xfff00693  # addi x13, x0, -1
    .word 0x00168693  # addi x13, x13, 1
    .word 0x00269d93  # slli x27, x13, 2
    .word 0x002d8db3  # add x27, x27, x2
    .word 0x00868293  # addi x5, x13, 8
    .word 0x00369393  # slli x7, x13, 3
    .word 0x00775333  # srl x6, x14, x7
    .word 0x002282b3  # add x5, x5, x2
    .word 0x04628023  # sb x6, 64(x5)
    .word 0xffd68293  # addi x5, x13, -3
    .word 0xfc029ee3  # bne x5, x0, -36
    .word 0x08c12283  # lw x5, 140(x2)
    .word 0x00b28733  # add x14, x5, x11
    .word 0x00b735b3  # sltu x11, x14, x11
    .word 0xfff00693  # addi x13, x0, -1
    .word 0x00168693  # addi x13, x13, 1
    .word 0x00269d93  # slli x27, x13, 2
    .word 0x002d8db3  # add x27, x27, x2
    .word 0x00c68293  # addi x5, x13, 12
    .word 0x00369393  # slli x7, x13, 3
    .word 0x00775333  # srl x6, x14, x7
    .word 0x002282b3  # add x5, x5, x2
    .word 0x04628023  # sb x6, 64(x5)
    .word 0xffd68293  # addi x5, x13, -3
    .word 0xfc029ee3  # bne x5, x0, -36
    .word 0x09012283  # lw x5, 144(x2)
    .word 0x00b28733  # add x14, x5, x11
    .word 0x00b735b3  # sltu x11, x14, x11
    .word 0xfff00693  # addi x13, x0, -1
    .word 0x00168693  # addi x13, x13, 1
    .word 0x00269d93  # slli x27, x13, 2
    .word 0x002d8db3  # add x27, x27, x2
    .word 0x01068293  # addi x5, x13, 16
    .word 0x00369393  # slli x7, x13, 3
    .word 0x00775333  # srl x6, x14, x7
    .word 0x002282b3  # add x5, x5, x2
    .word 0x04628023  # sb x6, 64(x5)
    .word 0xffd68293  # addi x5, x13, -3
    .word 0xfc029ee3  # bne x5, x0, -36
    .word 0x09412283  # lw x5, 148(x2)
    .word 0x00b28733  # add x14, x5, x11
    .word 0x00b735b3  # sltu x11, x14, x11
    .word 0xfff00693  # addi x13, x0, -1
    .word 0x00168693  # addi x13, x13, 1
    .word 0x00269d93  # slli x27, x13, 2
    .word 0x002d8db3  # add x27, x27, x2
    .word 0x01468293  # addi x5, x13, 20
    .word 0x00369393  # slli x7, x13, 3
    .word 0x00775333  # srl x6, x14, x7
    .word 0x002282b3  # add x5, x5, x2
    .word 0x04628023  # sb x6, 64(x5)
    .word 0xffd68293  # addi x5, x13, -3
    .word 0xfc029ee3  # bne x5, x0, -36
    .word 0x09812283  # lw x5, 152(x2)
    .word 0x00b28733  # add x14, x5, x11
    .word 0x00b735b3  # sltu x11, x14, x11
    .word 0xfff00693  # addi x13, x0, -1
    .word 0x00168693  # addi x13, x13, 1
    .word 0x00269d93  # slli x27, x13, 2
    .word 0x002d8db3  # add x27, x27, x2
    .word 0x01868293  # addi x5, x13, 24
    .word 0x00369393  # slli x7, x13, 3
    .word 0x00775333  # srl x6, x14, x7
    .word 0x002282b3  # add x5, x5, x2
    .word 0x04628023  # sb x6, 64(x5)
    .word 0xffd68293  # addi x5, x13, -3
    .word 0xfc029ee3  # bne x5, x0, -36
    .word 0x09c12283  # lw x5, 156(x2)
    .word 0x00b28733  # add x14, x5, x11
    .word 0xfff00693  # addi x13, x0, -1
    .word 0x00168693  # addi x13, x13, 1
    .word 0x00269d93  # slli x27, x13, 2
    .word 0x002d8db3  # add x27, x27, x2
    .word 0x01c68293  # addi x5, x13, 28
    .word 0x00369393  # slli x7, x13, 3
    .word 0x00775333  # srl x6, x14, x7
    .word 0x002282b3  # add x5, x5, x2
    .word 0x04628023  # sb x6, 64(x5)
    .word 0xffd68293  # addi x5, x13, -3
    .word 0xfc029ee3  # bne x5, x0, -36
    .word 0x05f14283  # lbu x5, 95(x2)
    .word 0x07f2f293  # andi x5, x5, 127
    .word 0x04510fa3  # sb x5, 95(x2)
    # the result
    .word 0x00000513  # addi x10, x0, 0
    # parameter 2: the array, back
    .word 0x04010293  # addi x5, x2, 64
    .word 0x5dc12303  # lw x6, 1500(x2)
    .word 0x02028393  # addi x7, x5, 32
    .word 0x09000f6f  # jal x30, 144
    # above the frame
    .word 0x5a010293  # addi x5, x2, 1440
    # the caller's registers
    .word 0x0002a403  # lw x8, 0(x5)
    .cfi_restore 8
    .word 0x0042a483  # lw x9, 4(x5)
    .cfi_restore 9
    .word 0x0082a903  # lw x18, 8(x5)
    .cfi_restore 18
    .word 0x00c2a983  # lw x19, 12(x5)
    .cfi_restore 19
    .word 0x0102aa03  # lw x20, 16(x5)
    .cfi_restore 20
    .word 0x0142aa83  # lw x21, 20(x5)
    .cfi_restore 21
    .word 0x0182ab03  # lw x22, 24(x5)
    .cfi_restore 22
    .word 0x01c2ab83  # lw x23, 28(x5)
    .cfi_restore 23
    .word 0x0202ac03  # lw x24, 32(x5)
    .cfi_restore 24
    .word 0x0242ac83  # lw x25, 36(x5)
    .cfi_restore 25
    .word 0x0282ad03  # lw x26, 40(x5)
    .cfi_restore 26
    .word 0x02c2ad83  # lw x27, 44(x5)
    .cfi_restore 27
    # the caller's x2
    .word 0x04028293  # addi x5, x5, 64
    .cfi_def_cfa 5, 0
    # all the room, wiped upward
    .word 0x00012023  # sw x0, 0(x2)
    .word 0x00012223  # sw x0, 4(x2)
    .word 0x00012423  # sw x0, 8(x2)
    .word 0x00012623  # sw x0, 12(x2)
    .word 0x01010113  # addi x2, x2, 16
    .word 0xfe5116e3  # bne x2, x5, -20
    .cfi_def_cfa 2, 0
    # temporaries, wiped
    .word 0x00000293  # addi x5, x0, 0
    .word 0x00000313  # addi x6, x0, 0
    .word 0x00000393  # addi x7, x0, 0
    .word 0x00000593  # addi x11, x0, 0
    .word 0x00000613  # addi x12, x0, 0
    .word 0x00000693  # addi x13, x0, 0
    .word 0x00000713  # addi x14, x0, 0
    .word 0x00000793  # addi x15, x0, 0
    .word 0x00000813  # addi x16, x0, 0
    .word 0x00000893  # addi x17, x0, 0
    .word 0x00000e13  # addi x28, x0, 0
    .word 0x00000e93  # addi x29, x0, 0
    .word 0x00000f13  # addi x30, x0, 0
    .word 0x00000f93  # addi x31, x0, 0
    # back
    .word 0x00008067  # jalr x0, 0(x1)
    # from x5 to x6 up to x7, and back
    .cfi_def_cfa 2, 1504
    .cfi_offset 8, -64
    .cfi_offset 9, -60
    .cfi_offset 18, -56
    .cfi_offset 19, -52
    .cfi_offset 20, -48
    .cfi_offset 21, -44
    .cfi_offset 22, -40
    .cfi_offset 23, -36
    .cfi_offset 24, -32
    .cfi_offset 25, -28
    .cfi_offset 26, -24
    .cfi_offset 27, -20
    .word 0x0062ee33  # or x28, x5, x6
    .word 0x003e7e13  # andi x28, x28, 3
    .word 0x000e0e63  # beq x28, x0, 28
    .word 0x0002ce03  # lbu x28, 0(x5)
    .word 0x01c30023  # sb x28, 0(x6)
    .word 0x00128293  # addi x5, x5, 1
    .word 0x00130313  # addi x6, x6, 1
    .word 0xfe7298e3  # bne x5, x7, -16
    .word 0x0300006f  # jal x0, 48
    .word 0x0002ae03  # lw x28, 0(x5)
    .word 0x01c32023  # sw x28, 0(x6)
    .word 0x0042ae03  # lw x28, 4(x5)
    .word 0x01c32223  # sw x28, 4(x6)
    .word 0x0082ae03  # lw x28, 8(x5)
    .word 0x01c32423  # sw x28, 8(x6)
    .word 0x00c2ae03  # lw x28, 12(x5)
    .word 0x01c32623  # sw x28, 12(x6)
    .word 0x01028293  # addi x5, x5, 16
    .word 0x01030313  # addi x6, x6, 16
    .word 0xfc729ce3  # bne x5, x7, -40
    .word 0x000f0067  # jalr x0, 0(x30)
    .cfi_endproc
    .size x25519, . - x25519
    .option pop
