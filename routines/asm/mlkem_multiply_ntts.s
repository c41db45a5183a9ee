# mlkem_multiply_ntts: made by factc 1.0.0 function; 300 words, 1840 bytes of stack, profile 1
    .option push
    .option norvc
    .option norelax
    .cfi_sections .debug_frame
    .section .text.mlkem_multiply_ntts, "ax", @progbits
    .p2align 2
    .globl mlkem_multiply_ntts
    .type mlkem_multiply_ntts, @function
mlkem_multiply_ntts:
    .cfi_startproc
    # room above the frame
    .word 0xfe010113  # addi x2, x2, -32
    .cfi_def_cfa_offset 32
    # the caller's registers
    .word 0x01212023  # sw x18, 0(x2)
    .cfi_offset 18, -32
    .word 0x01312223  # sw x19, 4(x2)
    .cfi_offset 19, -28
    .word 0x01412423  # sw x20, 8(x2)
    .cfi_offset 20, -24
    .word 0x01512623  # sw x21, 12(x2)
    .cfi_offset 21, -20
    # arguments that are needed behind the body
    .word 0x00a12a23  # sw x10, 20(x2)
    .word 0x00b12c23  # sw x11, 24(x2)
    .word 0x00c12e23  # sw x12, 28(x2)
    # the frame's base
    .word 0x8f010113  # addi x2, x2, -1808
    .cfi_def_cfa 2, 1840
    # parameter 0: an array
    .word 0x00050293  # addi x5, x10, 0
    .word 0x00010313  # addi x6, x2, 0
    .word 0x20028393  # addi x7, x5, 512
    .word 0x42c00f6f  # jal x30, 1068
    # parameter 1: an array
    .word 0x00058293  # addi x5, x11, 0
    .word 0x20010313  # addi x6, x2, 512
    .word 0x20028393  # addi x7, x5, 512
    .word 0x41c00f6f  # jal x30, 1052
    # parameter 2: an array
    .word 0x00060293  # addi x5, x12, 0
    .word 0x40010313  # addi x6, x2, 1024
    .word 0x20028393  # addi x7, x5, 512
    .word 0x40c00f6f  # jal x30, 1036
    # the body
    .word 0x9d7dc937  # lui x18, 0x9d7dc
    .word 0xb4190913  # addi x18, x18, -1215
    .word 0x000019b7  # lui x19, 0x00001
    .word 0xd0198993  # addi x19, x19, -767
    .word 0x01100293  # addi x5, x0, 17
    .word 0x60512023  # sw x5, 1536(x2)
    .word 0x000012b7  # lui x5, 0x00001
    .word 0xac928293  # addi x5, x5, -1335
    .word 0x60512223  # sw x5, 1540(x2)
    .word 0x24700293  # addi x5, x0, 583
    .word 0x60512423  # sw x5, 1544(x2)
    .word 0x000012b7  # lui x5, 0x00001
    .word 0xa5928293  # addi x5, x5, -1447
    .word 0x60512623  # sw x5, 1548(x2)
    .word 0x66500293  # addi x5, x0, 1637
    .word 0x60512823  # sw x5, 1552(x2)
    .word 0x2d300293  # addi x5, x0, 723
    .word 0x60512a23  # sw x5, 1556(x2)
    .word 0x000012b7  # lui x5, 0x00001
    .word 0x8f028293  # addi x5, x5, -1808
    .word 0x60512c23  # sw x5, 1560(x2)
    .word 0x44c00293  # addi x5, x0, 1100
    .word 0x60512e23  # sw x5, 1564(x2)
    .word 0x58100293  # addi x5, x0, 1409
    .word 0x62512023  # sw x5, 1568(x2)
    .word 0x000012b7  # lui x5, 0x00001
    .word 0xa6628293  # addi x5, x5, -1434
    .word 0x62512223  # sw x5, 1572(x2)
    .word 0x000012b7  # lui x5, 0x00001
    .word 0xcd128293  # addi x5, x5, -815
    .word 0x62512423  # sw x5, 1576(x2)
    .word 0x0e900293  # addi x5, x0, 233
    .word 0x62512623  # sw x5, 1580(x2)
    .word 0x2f400293  # addi x5, x0, 756
    .word 0x62512823  # sw x5, 1584(x2)
    .word 0x000012b7  # lui x5, 0x00001
    .word 0x86c28293  # addi x5, x5, -1940
    .word 0x62512a23  # sw x5, 1588(x2)
    .word 0x000012b7  # lui x5, 0x00001
    .word 0xbc728293  # addi x5, x5, -1081
    .word 0x62512c23  # sw x5, 1592(x2)
    .word 0x000012b7  # lui x5, 0x00001
    .word 0xbea28293  # addi x5, x5, -1046
    .word 0x62512e23  # sw x5, 1596(x2)
    .word 0x6a700293  # addi x5, x0, 1703
    .word 0x64512023  # sw x5, 1600(x2)
    .word 0x67300293  # addi x5, x0, 1651
    .word 0x64512223  # sw x5, 1604(x2)
    .word 0x000012b7  # lui x5, 0x00001
    .word 0xae528293  # addi x5, x5, -1307
    .word 0x64512423  # sw x5, 1608(x2)
    .word 0x6fd00293  # addi x5, x0, 1789
    .word 0x64512623  # sw x5, 1612(x2)
    .word 0x73700293  # addi x5, x0, 1847
    .word 0x64512823  # sw x5, 1616(x2)
    .word 0x3b800293  # addi x5, x0, 952
    .word 0x64512a23  # sw x5, 1620(x2)
    .word 0x5b500293  # addi x5, x0, 1461
    .word 0x64512c23  # sw x5, 1624(x2)
    .word 0x000012b7  # lui x5, 0x00001
    .word 0xa7f28293  # addi x5, x5, -1409
    .word 0x64512e23  # sw x5, 1628(x2)
    .word 0x3ab00293  # addi x5, x0, 939
    .word 0x66512023  # sw x5, 1632(x2)
    .word 0x000012b7  # lui x5, 0x00001
    .word 0x90428293  # addi x5, x5, -1788
    .word 0x66512223  # sw x5, 1636(x2)
    .word 0x000012b7  # lui x5, 0x00001
    .word 0x98528293  # addi x5, x5, -1659
    .word 0x66512423  # sw x5, 1640(x2)
    .word 0x000012b7  # lui x5, 0x00001
    .word 0x95428293  # addi x5, x5, -1708
    .word 0x66512623  # sw x5, 1644(x2)
    .word 0x2dd00293  # addi x5, x0, 733
    .word 0x66512823  # sw x5, 1648(x2)
    .word 0x000012b7  # lui x5, 0x00001
    .word 0x92128293  # addi x5, x5, -1759
    .word 0x66512a23  # sw x5, 1652(x2)
    .word 0x10c00293  # addi x5, x0, 268
    .word 0x66512c23  # sw x5, 1656(x2)
    .word 0x28100293  # addi x5, x0, 641
    .word 0x66512e23  # sw x5, 1660(x2)
    .word 0x63000293  # addi x5, x0, 1584
    .word 0x68512023  # sw x5, 1664(x2)
    .word 0x000012b7  # lui x5, 0x00001
    .word 0x8fa28293  # addi x5, x5, -1798
    .word 0x68512223  # sw x5, 1668(x2)
    .word 0x7f500293  # addi x5, x0, 2037
    .word 0x68512423  # sw x5, 1672(x2)
    .word 0x000012b7  # lui x5, 0x00001
    .word 0xc9428293  # addi x5, x5, -876
    .word 0x68512623  # sw x5, 1676(x2)
    .word 0x17700293  # addi x5, x0, 375
    .word 0x68512823  # sw x5, 1680(x2)
    .word 0x000012b7  # lui x5, 0x00001
    .word 0x9f528293  # addi x5, x5, -1547
    .word 0x68512a23  # sw x5, 1684(x2)
    .word 0x000012b7  # lui x5, 0x00001
    .word 0x82a28293  # addi x5, x5, -2006
    .word 0x68512c23  # sw x5, 1688(x2)
    .word 0x66d00293  # addi x5, x0, 1645
    .word 0x68512e23  # sw x5, 1692(x2)
    .word 0x42700293  # addi x5, x0, 1063
    .word 0x6a512023  # sw x5, 1696(x2)
    .word 0x13f00293  # addi x5, x0, 319
    .word 0x6a512223  # sw x5, 1700(x2)
    .word 0x000012b7  # lui x5, 0x00001
    .word 0xad528293  # addi x5, x5, -1323
    .word 0x6a512423  # sw x5, 1704(x2)
    .word 0x2f500293  # addi x5, x0, 757
    .word 0x6a512623  # sw x5, 1708(x2)
    .word 0x000012b7  # lui x5, 0x00001
    .word 0x83328293  # addi x5, x5, -1997
    .word 0x6a512823  # sw x5, 1712(x2)
    .word 0x23100293  # addi x5, x0, 561
    .word 0x6a512a23  # sw x5, 1716(x2)
    .word 0x000012b7  # lui x5, 0x00001
    .word 0x9a228293  # addi x5, x5, -1630
    .word 0x6a512c23  # sw x5, 1720(x2)
    .word 0x000012b7  # lui x5, 0x00001
    .word 0xa2228293  # addi x5, x5, -1502
    .word 0x6a512e23  # sw x5, 1724(x2)
    .word 0x000012b7  # lui x5, 0x00001
    .word 0xaf428293  # addi x5, x5, -1292
    .word 0x6c512023  # sw x5, 1728(x2)
    .word 0x44400293  # addi x5, x0, 1092
    .word 0x6c512223  # sw x5, 1732(x2)
    .word 0x19300293  # addi x5, x0, 403
    .word 0x6c512423  # sw x5, 1736(x2)
    .word 0x40200293  # addi x5, x0, 1026
    .word 0x6c512623  # sw x5, 1740(x2)
    .word 0x47700293  # addi x5, x0, 1143
    .word 0x6c512823  # sw x5, 1744(x2)
    .word 0x000012b7  # lui x5, 0x00001
    .word 0x86628293  # addi x5, x5, -1946
    .word 0x6c512a23  # sw x5, 1748(x2)
    .word 0x000012b7  # lui x5, 0x00001
    .word 0xad728293  # addi x5, x5, -1321
    .word 0x6c512c23  # sw x5, 1752(x2)
    .word 0x37600293  # addi x5, x0, 886
    .word 0x6c512e23  # sw x5, 1756(x2)
    .word 0x6ba00293  # addi x5, x0, 1722
    .word 0x6e512023  # sw x5, 1760(x2)
    .word 0x4bc00293  # addi x5, x0, 1212
    .word 0x6e512223  # sw x5, 1764(x2)
    .word 0x75200293  # addi x5, x0, 1874
    .word 0x6e512423  # sw x5, 1768(x2)
    .word 0x40500293  # addi x5, x0, 1029
    .word 0x6e512623  # sw x5, 1772(x2)
    .word 0x000012b7  # lui x5, 0x00001
    .word 0x83e28293  # addi x5, x5, -1986
    .word 0x6e512823  # sw x5, 1776(x2)
    .word 0x000012b7  # lui x5, 0x00001
    .word 0xb7728293  # addi x5, x5, -1161
    .word 0x6e512a23  # sw x5, 1780(x2)
    .word 0x37500293  # addi x5, x0, 885
    .word 0x6e512c23  # sw x5, 1784(x2)
    .word 0x000012b7  # lui x5, 0x00001
    .word 0x86a28293  # addi x5, x5, -1942
    .word 0x6e512e23  # sw x5, 1788(x2)
    .word 0xfff00513  # addi x10, x0, -1
    .word 0x00150513  # addi x10, x10, 1
    .word 0x00251a13  # slli x20, x10, 2
    .word 0x002a0a33  # add x20, x20, x2
    .word 0x00251593  # slli x11, x10, 2
    .word 0x00159a93  # slli x21, x11, 1
    .word 0x002a8ab3  # add x21, x21, x2
    .word 0x000ad603  # lhu x12, 0(x21)
    .word 0x002ad683  # lhu x13, 2(x21)
    .word 0x200ad703  # lhu x14, 512(x21)
    .word 0x202ad783  # lhu x15, 514(x21)
    .word 0x02f68833  # mul x16, x13, x15
    .word 0x032838b3  # mulhu x17, x16, x18
    .word 0x00b8d313  # srli x6, x17, 11
    .word 0x03330333  # mul x6, x6, x19
    .word 0x40680833  # sub x16, x16, x6
    .word 0x02e602b3  # mul x5, x12, x14
    .word 0x600a2383  # lw x7, 1536(x20)
    .word 0x02780333  # mul x6, x16, x7
    .word 0x00628833  # add x16, x5, x6
    .word 0x032838b3  # mulhu x17, x16, x18
    .word 0x00b8d313  # srli x6, x17, 11
    .word 0x03330333  # mul x6, x6, x19
    .word 0x406808b3  # sub x17, x16, x6
    .word 0x02f602b3  # mul x5, x12, x15
    .word 0x02e68333  # mul x6, x13, x14
    .word 0x00628833  # add x16, x5, x6
    .word 0x03283633  # mulhu x12, x16, x18
    .word 0x00b65313  # srli x6, x12, 11
    .word 0x03330333  # mul x6, x6, x19
    .word 0x40680833  # sub x16, x16, x6
    .word 0x411a9023  # sh x17, 1024(x21)
    .word 0x410a9123  # sh x16, 1026(x21)
    .word 0x00251293  # slli x5, x10, 2
    .word 0x00228593  # addi x11, x5, 2
    .word 0x00159a93  # slli x21, x11, 1
    .word 0x002a8ab3  # add x21, x21, x2
    .word 0x000ad603  # lhu x12, 0(x21)
    .word 0x002ad683  # lhu x13, 2(x21)
    .word 0x200ad703  # lhu x14, 512(x21)
    .word 0x202ad783  # lhu x15, 514(x21)
    .word 0x02f68833  # mul x16, x13, x15
    .word 0x032838b3  # mulhu x17, x16, x18
    .word 0x00b8d313  # srli x6, x17, 11
    .word 0x03330333  # mul x6, x6, x19
    .word 0x40680833  # sub x16, x16, x6
    .word 0x41098833  # sub x16, x19, x16
    .word 0x02e602b3  # mul x5, x12, x14
    .word 0x600a2383  # lw x7, 1536(x20)
    .word 0x02780333  # mul x6, x16, x7
    .word 0x00628833  # add x16, x5, x6
    .word 0x032838b3  # mulhu x17, x16, x18
    .word 0x00b8d313  # srli x6, x17, 11
    .word 0x03330333  # mul x6, x6, x19
    .word 0x406808b3  # sub x17, x16, x6
    .word 0x02f602b3  # mul x5, x12, x15
    .word 0x02e68333  # mul x6, x13, x14
    .word 0x00628833  # add x16, x5, x6
    .word 0x03283633  # mulhu x12, x16, x18
    .word 0x00b65313  # srli x6, x12, 11
    .word 0x03330333  # mul x6, x6, x19
    .word 0x40680833  # sub x16, x16, x6
    .word 0x411a9023  # sh x17, 1024(x21)
    .word 0x410a9123  # sh x16, 1026(x21)
    .word 0xfc150293  # addi x5, x10, -63
    .word 0xf00290e3  # bne x5, x0, -256
    # the result
    .word 0x00000513  # addi x10, x0, 0
    # parameter 2: the array, back
    .word 0x40010293  # addi x5, x2, 1024
    .word 0x72c12303  # lw x6, 1836(x2)
    .word 0x20028393  # addi x7, x5, 512
    .word 0x07000f6f  # jal x30, 112
    # above the frame
    .word 0x71010293  # addi x5, x2, 1808
    # the caller's registers
    .word 0x0002a903  # lw x18, 0(x5)
    .cfi_restore 18
    .word 0x0042a983  # lw x19, 4(x5)
    .cfi_restore 19
    .word 0x0082aa03  # lw x20, 8(x5)
    .cfi_restore 20
    .word 0x00c2aa83  # lw x21, 12(x5)
    .cfi_restore 21
    # the caller's x2
    .word 0x02028293  # addi x5, x5, 32
    .cfi_def_cfa 5, 0
    # all the room, wiped upward
    .word 0x00012023  # sw x0, 0(x2)
    .word 0x00012223  # sw x0, 4(x2)
    .word 0x00012423  # sw x0, 8(x2)
    .word 0x00012623  # sw x0, 12(x2)
    .word 0x01010113  # addi x2, x2, 16
    .word 0xfe5116e3  # bne x2, x5, -20
    .cfi_def_cfa 2, 0
    # temporaries, wiped
    .word 0x00000293  # addi x5, x0, 0
    .word 0x00000313  # addi x6, x0, 0
    .word 0x00000393  # addi x7, x0, 0
    .word 0x00000593  # addi x11, x0, 0
    .word 0x00000613  # addi x12, x0, 0
    .word 0x00000693  # addi x13, x0, 0
    .word 0x00000713  # addi x14, x0, 0
    .word 0x00000793  # addi x15, x0, 0
    .word 0x00000813  # addi x16, x0, 0
    .word 0x00000893  # addi x17, x0, 0
    .word 0x00000e13  # addi x28, x0, 0
    .word 0x00000e93  # addi x29, x0, 0
    .word 0x00000f13  # addi x30, x0, 0
    .word 0x00000f93  # addi x31, x0, 0
    # back
    .word 0x00008067  # jalr x0, 0(x1)
    # from x5 to x6 up to x7, and back
    .cfi_def_cfa 2, 1840
    .cfi_offset 18, -32
    .cfi_offset 19, -28
    .cfi_offset 20, -24
    .cfi_offset 21, -20
    .word 0x0062ee33  # or x28, x5, x6
    .word 0x003e7e13  # andi x28, x28, 3
    .word 0x000e0e63  # beq x28, x0, 28
    .word 0x0002ce03  # lbu x28, 0(x5)
    .word 0x01c30023  # sb x28, 0(x6)
    .word 0x00128293  # addi x5, x5, 1
    .word 0x00130313  # addi x6, x6, 1
    .word 0xfe7298e3  # bne x5, x7, -16
    .word 0x0300006f  # jal x0, 48
    .word 0x0002ae03  # lw x28, 0(x5)
    .word 0x01c32023  # sw x28, 0(x6)
    .word 0x0042ae03  # lw x28, 4(x5)
    .word 0x01c32223  # sw x28, 4(x6)
    .word 0x0082ae03  # lw x28, 8(x5)
    .word 0x01c32423  # sw x28, 8(x6)
    .word 0x00c2ae03  # lw x28, 12(x5)
    .word 0x01c32623  # sw x28, 12(x6)
    .word 0x01028293  # addi x5, x5, 16
    .word 0x01030313  # addi x6, x6, 16
    .word 0xfc729ce3  # bne x5, x7, -40
    .word 0x000f0067  # jalr x0, 0(x30)
    .cfi_endproc
    .size mlkem_multiply_ntts, . - mlkem_multiply_ntts
    .option pop
