# ed25519_scalar_multiply: made by factc 1.0.0 function; 1604 words and 21 shared, 2304 bytes of stack, profile 1
    .option push
    .option norvc
    .option norelax
    .cfi_sections .debug_frame
    .section .text.ed25519_scalar_multiply, "ax", @progbits
    .p2align 2
    .globl ed25519_scalar_multiply
    .type ed25519_scalar_multiply, @function
ed25519_scalar_multiply:
    .cfi_startproc
    # room above the frame
    .word 0xfc010113  # addi x2, x2, -64
    .cfi_def_cfa_offset 64
    # the caller's registers
    .word 0x00812023  # sw x8, 0(x2)
    .cfi_offset 8, -64
    .word 0x00912223  # sw x9, 4(x2)
    .cfi_offset 9, -60
    .word 0x01212423  # sw x18, 8(x2)
    .cfi_offset 18, -56
    .word 0x01312623  # sw x19, 12(x2)
    .cfi_offset 19, -52
    .word 0x01412823  # sw x20, 16(x2)
    .cfi_offset 20, -48
    .word 0x01512a23  # sw x21, 20(x2)
    .cfi_offset 21, -44
    .word 0x01612c23  # sw x22, 24(x2)
    .cfi_offset 22, -40
    .word 0x01712e23  # sw x23, 28(x2)
    .cfi_offset 23, -36
    .word 0x03812023  # sw x24, 32(x2)
    .cfi_offset 24, -32
    .word 0x03912223  # sw x25, 36(x2)
    .cfi_offset 25, -28
    .word 0x03a12423  # sw x26, 40(x2)
    .cfi_offset 26, -24
    .word 0x03b12623  # sw x27, 44(x2)
    .cfi_offset 27, -20
    # arguments that are needed behind the body
    .word 0x02a12a23  # sw x10, 52(x2)
    .word 0x02b12c23  # sw x11, 56(x2)
    .word 0x02c12e23  # sw x12, 60(x2)
    # the frame's base
    .word 0x000012b7  # lui x5, 0x00001
    .word 0x8c028293  # addi x5, x5, -1856
    .word 0x405102b3  # sub x5, x2, x5
    .word 0x00028113  # addi x2, x5, 0
    .cfi_def_cfa 2, 2304
    # parameter 0: an array
    .word 0x00050293  # addi x5, x10, 0
    .word 0x00010313  # addi x6, x2, 0
    .word 0x02028393  # addi x7, x5, 32
    .word 0x0002ce03  # lbu x28, 0(x5)
    .word 0x01c30023  # sb x28, 0(x6)
    .word 0x00128293  # addi x5, x5, 1
    .word 0x00130313  # addi x6, x6, 1
    .word 0xfe7298e3  # bne x5, x7, -16
    # parameter 1: an array
    .word 0x00058293  # addi x5, x11, 0
    .word 0x02010313  # addi x6, x2, 32
    .word 0x04028393  # addi x7, x5, 64
    .word 0x0002ce03  # lbu x28, 0(x5)
    .word 0x01c30023  # sb x28, 0(x6)
    .word 0x00128293  # addi x5, x5, 1
    .word 0x00130313  # addi x6, x6, 1
    .word 0xfe7298e3  # bne x5, x7, -16
    # parameter 2: an array
    .word 0x00060293  # addi x5, x12, 0
    .word 0x06010313  # addi x6, x2, 96
    .word 0x04028393  # addi x7, x5, 64
    .word 0x0002ce03  # lbu x28, 0(x5)
    .word 0x01c30023  # sb x28, 0(x6)
    .word 0x00128293  # addi x5, x5, 1
    .word 0x00130313  # addi x6, x6, 1
    .word 0xfe7298e3  # bne x5, x7, -16
    # the body
    .word 0x00000613  # addi x12, x0, 0
    .word 0x80000cb7  # lui x25, 0x80000
    .word 0xfffc8c93  # addi x25, x25, -1
    .word 0x000012b7  # lui x5, 0x00001
    .word 0xf0f28293  # addi x5, x5, -241
    .word 0x00001e37  # lui x28, 0x00001
    .word 0x002e0e33  # add x28, x28, x2
    .word 0x885e2623  # sw x5, -1908(x28)
    .word 0x000012b7  # lui x5, 0x00001
    .word 0xf0028293  # addi x5, x5, -256
    .word 0x00001e37  # lui x28, 0x00001
    .word 0x002e0e33  # add x28, x28, x2
    .word 0x885e2823  # sw x5, -1904(x28)
    .word 0x0a000313  # addi x6, x0, 160
    .word 0x00230333  # add x6, x6, x2
    .word 0x20000393  # addi x7, x0, 512
    .word 0x006383b3  # add x7, x7, x6
    .word 0x406382b3  # sub x5, x7, x6
    .word 0x00029463  # bne x5, x0, 8
    .word 0x0100006f  # jal x0, 16
    .word 0x00032023  # sw x0, 0(x6)
    .word 0x00430313  # addi x6, x6, 4
    .word 0xfedff06f  # jal x0, -20
    .word 0x2a000313  # addi x6, x0, 672
    .word 0x00230333  # add x6, x6, x2
    .word 0x02000393  # addi x7, x0, 32
    .word 0x006383b3  # add x7, x7, x6
    .word 0x406382b3  # sub x5, x7, x6
    .word 0x00029463  # bne x5, x0, 8
    .word 0x0100006f  # jal x0, 16
    .word 0x00032023  # sw x0, 0(x6)
    .word 0x00430313  # addi x6, x6, 4
    .word 0xfedff06f  # jal x0, -20
    .word 0x2c000313  # addi x6, x0, 704
    .word 0x00230333  # add x6, x6, x2
    .word 0x40000393  # addi x7, x0, 1024
    .word 0x006383b3  # add x7, x7, x6
    .word 0x406382b3  # sub x5, x7, x6
    .word 0x00029463  # bne x5, x0, 8
    .word 0x0100006f  # jal x0, 16
    .word 0x00032023  # sw x0, 0(x6)
    .word 0x00430313  # addi x6, x6, 4
    .word 0xfedff06f  # jal x0, -20
    .word 0x6c000313  # addi x6, x0, 1728
    .word 0x00230333  # add x6, x6, x2
    .word 0x02000393  # addi x7, x0, 32
    .word 0x006383b3  # add x7, x7, x6
    .word 0x406382b3  # sub x5, x7, x6
    .word 0x00029463  # bne x5, x0, 8
    .word 0x0100006f  # jal x0, 16
    .word 0x00032023  # sw x0, 0(x6)
    .word 0x00430313  # addi x6, x6, 4
    .word 0xfedff06f  # jal x0, -20
    .word 0x74500293  # addi x5, x0, 1861
    .word 0x6e511023  # sh x5, 1760(x2)
    .word 0x000012b7  # lui x5, 0x00001
    .word 0x94428293  # addi x5, x5, -1724
    .word 0x6e511123  # sh x5, 1762(x2)
    .word 0x000012b7  # lui x5, 0x00001
    .word 0xa5528293  # addi x5, x5, -1451
    .word 0x6e511223  # sh x5, 1764(x2)
    .word 0x000012b7  # lui x5, 0x00001
    .word 0xb9a28293  # addi x5, x5, -1126
    .word 0x6e511323  # sh x5, 1766(x2)
    .word 0x000012b7  # lui x5, 0x00001
    .word 0xbb828293  # addi x5, x5, -1096
    .word 0x6e511423  # sh x5, 1768(x2)
    .word 0x000032b7  # lui x5, 0x00003
    .word 0xca928293  # addi x5, x5, -855
    .word 0x6e511523  # sh x5, 1770(x2)
    .word 0x000012b7  # lui x5, 0x00001
    .word 0xcc628293  # addi x5, x5, -826
    .word 0x6e511623  # sh x5, 1772(x2)
    .word 0x000022b7  # lui x5, 0x00002
    .word 0xccc28293  # addi x5, x5, -820
    .word 0x6e511723  # sh x5, 1774(x2)
    .word 0x000022b7  # lui x5, 0x00002
    .word 0xbb628293  # addi x5, x5, -1098
    .word 0x6e511823  # sh x5, 1776(x2)
    .word 0x000022b7  # lui x5, 0x00002
    .word 0xbb628293  # addi x5, x5, -1098
    .word 0x6e511923  # sh x5, 1778(x2)
    .word 0x000032b7  # lui x5, 0x00003
    .word 0x9cb28293  # addi x5, x5, -1589
    .word 0x6e511a23  # sh x5, 1780(x2)
    .word 0x000012b7  # lui x5, 0x00001
    .word 0x99628293  # addi x5, x5, -1642
    .word 0x6e511b23  # sh x5, 1782(x2)
    .word 0x000032b7  # lui x5, 0x00003
    .word 0x91028293  # addi x5, x5, -1776
    .word 0x6e511c23  # sh x5, 1784(x2)
    .word 0x000032b7  # lui x5, 0x00003
    .word 0xa5428293  # addi x5, x5, -1452
    .word 0x6e511d23  # sh x5, 1786(x2)
    .word 0x000012b7  # lui x5, 0x00001
    .word 0x99a28293  # addi x5, x5, -1638
    .word 0x6e511e23  # sh x5, 1788(x2)
    .word 0x000022b7  # lui x5, 0x00002
    .word 0xa1028293  # addi x5, x5, -1520
    .word 0x6e511f23  # sh x5, 1790(x2)
    .word 0x000022b7  # lui x5, 0x00002
    .word 0xb5428293  # addi x5, x5, -1196
    .word 0x70511023  # sh x5, 1792(x2)
    .word 0x000012b7  # lui x5, 0x00001
    .word 0xaab28293  # addi x5, x5, -1365
    .word 0x70511123  # sh x5, 1794(x2)
    .word 0x000012b7  # lui x5, 0x00001
    .word 0xb3728293  # addi x5, x5, -1225
    .word 0x70511223  # sh x5, 1796(x2)
    .word 0x000012b7  # lui x5, 0x00001
    .word 0xbb828293  # addi x5, x5, -1096
    .word 0x70511323  # sh x5, 1798(x2)
    .word 0x000012b7  # lui x5, 0x00001
    .word 0xc2628293  # addi x5, x5, -986
    .word 0x70511423  # sh x5, 1800(x2)
    .word 0x000022b7  # lui x5, 0x00002
    .word 0xccc28293  # addi x5, x5, -820
    .word 0x70511523  # sh x5, 1802(x2)
    .word 0x000032b7  # lui x5, 0x00003
    .word 0xda928293  # addi x5, x5, -599
    .word 0x70511623  # sh x5, 1804(x2)
    .word 0x000032b7  # lui x5, 0x00003
    .word 0xecb28293  # addi x5, x5, -309
    .word 0x70511723  # sh x5, 1806(x2)
    .word 0x000022b7  # lui x5, 0x00002
    .word 0xccb28293  # addi x5, x5, -821
    .word 0x70511823  # sh x5, 1808(x2)
    .word 0x000022b7  # lui x5, 0x00002
    .word 0xaa928293  # addi x5, x5, -1367
    .word 0x70511923  # sh x5, 1810(x2)
    .word 0x0de00293  # addi x5, x0, 222
    .word 0x70511a23  # sh x5, 1812(x2)
    .word 0x1ca00293  # addi x5, x0, 458
    .word 0x70511b23  # sh x5, 1814(x2)
    .word 0x2ec00293  # addi x5, x0, 748
    .word 0x70511c23  # sh x5, 1816(x2)
    .word 0x3da00293  # addi x5, x0, 986
    .word 0x70511d23  # sh x5, 1818(x2)
    .word 0x000012b7  # lui x5, 0x00001
    .word 0x90028293  # addi x5, x5, -1792
    .word 0x70511e23  # sh x5, 1820(x2)
    .word 0x000012b7  # lui x5, 0x00001
    .word 0xa1128293  # addi x5, x5, -1519
    .word 0x70511f23  # sh x5, 1822(x2)
    .word 0x000012b7  # lui x5, 0x00001
    .word 0xb2228293  # addi x5, x5, -1246
    .word 0x72511023  # sh x5, 1824(x2)
    .word 0x000022b7  # lui x5, 0x00002
    .word 0xbbb28293  # addi x5, x5, -1093
    .word 0x72511123  # sh x5, 1826(x2)
    .word 0x000022b7  # lui x5, 0x00002
    .word 0xc0128293  # addi x5, x5, -1023
    .word 0x72511223  # sh x5, 1828(x2)
    .word 0x000012b7  # lui x5, 0x00001
    .word 0xccc28293  # addi x5, x5, -820
    .word 0x72511323  # sh x5, 1830(x2)
    .word 0x000022b7  # lui x5, 0x00002
    .word 0xd9a28293  # addi x5, x5, -614
    .word 0x72511423  # sh x5, 1832(x2)
    .word 0x000032b7  # lui x5, 0x00003
    .word 0xcdc28293  # addi x5, x5, -804
    .word 0x72511523  # sh x5, 1834(x2)
    .word 0x000032b7  # lui x5, 0x00003
    .word 0x99a28293  # addi x5, x5, -1638
    .word 0x72511623  # sh x5, 1836(x2)
    .word 0x000022b7  # lui x5, 0x00002
    .word 0xbb928293  # addi x5, x5, -1095
    .word 0x72511723  # sh x5, 1838(x2)
    .word 0x0cb00293  # addi x5, x0, 203
    .word 0x72511823  # sh x5, 1840(x2)
    .word 0x19d00293  # addi x5, x0, 413
    .word 0x72511923  # sh x5, 1842(x2)
    .word 0x2b900293  # addi x5, x0, 697
    .word 0x72511a23  # sh x5, 1844(x2)
    .word 0x3cd00293  # addi x5, x0, 973
    .word 0x72511b23  # sh x5, 1846(x2)
    .word 0x000042b7  # lui x5, 0x00004
    .word 0x92228293  # addi x5, x5, -1758
    .word 0x72512c23  # sw x5, 1848(x2)
    .word 0x000022b7  # lui x5, 0x00002
    .word 0xa2928293  # addi x5, x5, -1495
    .word 0x72512e23  # sw x5, 1852(x2)
    .word 0x000022b7  # lui x5, 0x00002
    .word 0xda928293  # addi x5, x5, -599
    .word 0x74512023  # sw x5, 1856(x2)
    .word 0x000062b7  # lui x5, 0x00006
    .word 0xbdd28293  # addi x5, x5, -1059
    .word 0x74512223  # sw x5, 1860(x2)
    .word 0x0000b2b7  # lui x5, 0x0000b
    .word 0xdbb28293  # addi x5, x5, -581
    .word 0x74512423  # sw x5, 1864(x2)
    .word 0x000152b7  # lui x5, 0x00015
    .word 0xddd28293  # addi x5, x5, -547
    .word 0x74512623  # sw x5, 1868(x2)
    .word 0x0000b2b7  # lui x5, 0x0000b
    .word 0xcdb28293  # addi x5, x5, -805
    .word 0x74512823  # sw x5, 1872(x2)
    .word 0x000332b7  # lui x5, 0x00033
    .word 0xdcc28293  # addi x5, x5, -564
    .word 0x74512a23  # sw x5, 1876(x2)
    .word 0x000652b7  # lui x5, 0x00065
    .word 0xddd28293  # addi x5, x5, -547
    .word 0x74512c23  # sw x5, 1880(x2)
    .word 0x000332b7  # lui x5, 0x00033
    .word 0xddc28293  # addi x5, x5, -548
    .word 0x74512e23  # sw x5, 1884(x2)
    .word 0x000062b7  # lui x5, 0x00006
    .word 0xdda28293  # addi x5, x5, -550
    .word 0x76512023  # sw x5, 1888(x2)
    .word 0x00d00293  # addi x5, x0, 13
    .word 0x76512223  # sw x5, 1892(x2)
    .word 0x11d00293  # addi x5, x0, 285
    .word 0x76512423  # sw x5, 1896(x2)
    .word 0x26b2f2b7  # lui x5, 0x26b2f
    .word 0x15928293  # addi x5, x5, 345
    .word 0x76512623  # sw x5, 1900(x2)
    .word 0xebd6a2b7  # lui x5, 0xebd6a
    .word 0xb9428293  # addi x5, x5, -1132
    .word 0x76512823  # sw x5, 1904(x2)
    .word 0x8283b2b7  # lui x5, 0x8283b
    .word 0x15628293  # addi x5, x5, 342
    .word 0x76512a23  # sw x5, 1908(x2)
    .word 0x00e012b7  # lui x5, 0x00e01
    .word 0x49a28293  # addi x5, x5, 1178
    .word 0x76512c23  # sw x5, 1912(x2)
    .word 0xeef3d2b7  # lui x5, 0xeef3d
    .word 0x13028293  # addi x5, x5, 304
    .word 0x76512e23  # sw x5, 1916(x2)
    .word 0x198e82b7  # lui x5, 0x198e8
    .word 0x0f228293  # addi x5, x5, 242
    .word 0x78512023  # sw x5, 1920(x2)
    .word 0x56e002b7  # lui x5, 0x56e00
    .word 0xce728293  # addi x5, x5, -793
    .word 0x78512223  # sw x5, 1924(x2)
    .word 0x2406e2b7  # lui x5, 0x2406e
    .word 0x9dc28293  # addi x5, x5, -1572
    .word 0x78512423  # sw x5, 1928(x2)
    .word 0xfff00b13  # addi x22, x0, -1
    .word 0x001b0b13  # addi x22, x22, 1
    .word 0x002b1d93  # slli x27, x22, 2
    .word 0x002d8db3  # add x27, x27, x2
    .word 0x040b0293  # addi x5, x22, 64
    .word 0x76cda303  # lw x6, 1900(x27)
    .word 0x00229293  # slli x5, x5, 2
    .word 0x002282b3  # add x5, x5, x2
    .word 0x0a62a023  # sw x6, 160(x5)
    .word 0xff9b0293  # addi x5, x22, -7
    .word 0xfc029ee3  # bne x5, x0, -36
    .word 0x00100293  # addi x5, x0, 1
    .word 0x16512023  # sw x5, 352(x2)
    .word 0x78012623  # sw x0, 1932(x2)
    .word 0xfff00693  # addi x13, x0, -1
    .word 0x00168693  # addi x13, x13, 1
    .word 0x002682b3  # add x5, x13, x2
    .word 0x0002c283  # lbu x5, 0(x5)
    .word 0x78c12303  # lw x6, 1932(x2)
    .word 0x006282b3  # add x5, x5, x6
    .word 0x08828a13  # addi x20, x5, 136
    .word 0x002682b3  # add x5, x13, x2
    .word 0x6d428023  # sb x20, 1728(x5)
    .word 0x008a5293  # srli x5, x20, 8
    .word 0x78512623  # sw x5, 1932(x2)
    .word 0xfe168293  # addi x5, x13, -31
    .word 0xfc029ae3  # bne x5, x0, -44
    .word 0x78012823  # sw x0, 1936(x2)
    .word 0x00001e37  # lui x28, 0x00001
    .word 0x002e0e33  # add x28, x28, x2
    .word 0x880e2c23  # sw x0, -1896(x28)
    .word 0x15600293  # addi x5, x0, 342
    .word 0x00001e37  # lui x28, 0x00001
    .word 0x002e0e33  # add x28, x28, x2
    .word 0x885e2e23  # sw x5, -1892(x28)
    .word 0x00001337  # lui x6, 0x00001
    .word 0x00230333  # add x6, x6, x2
    .word 0x89832303  # lw x6, -1896(x6)
    .word 0x000012b7  # lui x5, 0x00001
    .word 0x002282b3  # add x5, x5, x2
    .word 0x89c2a283  # lw x5, -1892(x5)
    .word 0x005332b3  # sltu x5, x6, x5
    .word 0x00029463  # bne x5, x0, 8
    .word 0x3740106f  # jal x0, 4980
    .word 0x78612a23  # sw x6, 1940(x2)
    .word 0x00130313  # addi x6, x6, 1
    .word 0x00001e37  # lui x28, 0x00001
    .word 0x002e0e33  # add x28, x28, x2
    .word 0x886e2c23  # sw x6, -1896(x28)
    .word 0x01300a13  # addi x20, x0, 19
    .word 0x00001e37  # lui x28, 0x00001
    .word 0x002e0e33  # add x28, x28, x2
    .word 0x8a0e2023  # sw x0, -1888(x28)
    .word 0x79412283  # lw x5, 1940(x2)
    .word 0x0012b293  # sltiu x5, x5, 1
    .word 0x01000313  # addi x6, x0, 16
    .word 0x405002b3  # sub x5, x0, x5
    .word 0x005372b3  # and x5, x6, x5
    .word 0x00001e37  # lui x28, 0x00001
    .word 0x002e0e33  # add x28, x28, x2
    .word 0x8a5e2223  # sw x5, -1884(x28)
    .word 0x00001337  # lui x6, 0x00001
    .word 0x00230333  # add x6, x6, x2
    .word 0x8a032303  # lw x6, -1888(x6)
    .word 0x000012b7  # lui x5, 0x00001
    .word 0x002282b3  # add x5, x5, x2
    .word 0x8a42a283  # lw x5, -1884(x5)
    .word 0x005332b3  # sltu x5, x6, x5
    .word 0x00029463  # bne x5, x0, 8
    .word 0x0ac0006f  # jal x0, 172
    .word 0x00030613  # addi x12, x6, 0
    .word 0x00261293  # slli x5, x12, 2
    .word 0x002282b3  # add x5, x5, x2
    .word 0x0202c283  # lbu x5, 32(x5)
    .word 0x00261313  # slli x6, x12, 2
    .word 0x00230333  # add x6, x6, x2
    .word 0x02134303  # lbu x6, 33(x6)
    .word 0x00831313  # slli x6, x6, 8
    .word 0x0062e2b3  # or x5, x5, x6
    .word 0x00261313  # slli x6, x12, 2
    .word 0x00230333  # add x6, x6, x2
    .word 0x02234303  # lbu x6, 34(x6)
    .word 0x01031313  # slli x6, x6, 16
    .word 0x0062e2b3  # or x5, x5, x6
    .word 0x00261313  # slli x6, x12, 2
    .word 0x00230333  # add x6, x6, x2
    .word 0x02334303  # lbu x6, 35(x6)
    .word 0x01831313  # slli x6, x6, 24
    .word 0x0062eab3  # or x21, x5, x6
    .word 0x02060293  # addi x5, x12, 32
    .word 0x00229293  # slli x5, x5, 2
    .word 0x002282b3  # add x5, x5, x2
    .word 0x0b52a023  # sw x21, 160(x5)
    .word 0x014a8ab3  # add x21, x21, x20
    .word 0x014aba33  # sltu x20, x21, x20
    .word 0x00767293  # andi x5, x12, 7
    .word 0x00700313  # addi x6, x0, 7
    .word 0x00629e63  # bne x5, x6, 28
    .word 0x79012283  # lw x5, 1936(x2)
    .word 0x01fad313  # srli x6, x21, 31
    .word 0x0062e2b3  # or x5, x5, x6
    .word 0x0142e2b3  # or x5, x5, x20
    .word 0x78512823  # sw x5, 1936(x2)
    .word 0x01300a13  # addi x20, x0, 19
    .word 0x00160613  # addi x12, x12, 1
    .word 0x000012b7  # lui x5, 0x00001
    .word 0x002282b3  # add x5, x5, x2
    .word 0x8a42a283  # lw x5, -1884(x5)
    .word 0x005632b3  # sltu x5, x12, x5
    .word 0xf60294e3  # bne x5, x0, -152
    .word 0xfff60613  # addi x12, x12, -1
    .word 0x0040006f  # jal x0, 4
    .word 0x79412283  # lw x5, 1940(x2)
    .word 0x0092b293  # sltiu x5, x5, 9
    .word 0x00400313  # addi x6, x0, 4
    .word 0x79412383  # lw x7, 1940(x2)
    .word 0xff738393  # addi x7, x7, -9
    .word 0x00500413  # addi x8, x0, 5
    .word 0x0283f3b3  # remu x7, x7, x8
    .word 0x405002b3  # sub x5, x0, x5
    .word 0x00734333  # xor x6, x6, x7
    .word 0x00537333  # and x6, x6, x5
    .word 0x0063c733  # xor x14, x7, x6
    .word 0x79412283  # lw x5, 1940(x2)
    .word 0x0082b293  # sltiu x5, x5, 8
    .word 0x0012b293  # sltiu x5, x5, 1
    .word 0x79412303  # lw x6, 1940(x2)
    .word 0x14933313  # sltiu x6, x6, 329
    .word 0x0062f2b3  # and x5, x5, x6
    .word 0xffc70313  # addi x6, x14, -4
    .word 0x00133313  # sltiu x6, x6, 1
    .word 0x0062f2b3  # and x5, x5, x6
    .word 0x02000313  # addi x6, x0, 32
    .word 0x405002b3  # sub x5, x0, x5
    .word 0x00537933  # and x18, x6, x5
    .word 0x34090663  # beq x18, x0, 844
    .word 0x03f00293  # addi x5, x0, 63
    .word 0x79412303  # lw x6, 1940(x2)
    .word 0xff730313  # addi x6, x6, -9
    .word 0x00500393  # addi x7, x0, 5
    .word 0x02735333  # divu x6, x6, x7
    .word 0x406282b3  # sub x5, x5, x6
    .word 0x03f2fb13  # andi x22, x5, 63
    .word 0x002b1d93  # slli x27, x22, 2
    .word 0x002d8db3  # add x27, x27, x2
    .word 0x001b5293  # srli x5, x22, 1
    .word 0x00228a33  # add x20, x5, x2
    .word 0x6c0a4a03  # lbu x20, 1728(x20)
    .word 0x79412283  # lw x5, 1940(x2)
    .word 0xff828293  # addi x5, x5, -8
    .word 0x005032b3  # sltu x5, x0, x5
    .word 0x78c12303  # lw x6, 1932(x2)
    .word 0x00830313  # addi x6, x6, 8
    .word 0x001b7413  # andi x8, x22, 1
    .word 0x00241413  # slli x8, x8, 2
    .word 0x008a53b3  # srl x7, x20, x8
    .word 0x00f3f393  # andi x7, x7, 15
    .word 0xfff28293  # addi x5, x5, -1
    .word 0x00734333  # xor x6, x6, x7
    .word 0x00537333  # and x6, x6, x5
    .word 0x0063ca33  # xor x20, x7, x6
    .word 0x008a3293  # sltiu x5, x20, 8
    .word 0x40500bb3  # sub x23, x0, x5
    .word 0xff8a0293  # addi x5, x20, -8
    .word 0x0172c2b3  # xor x5, x5, x23
    .word 0x41728a33  # sub x20, x5, x23
    .word 0x79800313  # addi x6, x0, 1944
    .word 0x00230333  # add x6, x6, x2
    .word 0x02000393  # addi x7, x0, 32
    .word 0x006383b3  # add x7, x7, x6
    .word 0x406382b3  # sub x5, x7, x6
    .word 0x00029463  # bne x5, x0, 8
    .word 0x0100006f  # jal x0, 16
    .word 0x00032023  # sw x0, 0(x6)
    .word 0x00430313  # addi x6, x6, 4
    .word 0xfedff06f  # jal x0, -20
    .word 0xfff00b13  # addi x22, x0, -1
    .word 0x001b0b13  # addi x22, x22, 1
    .word 0x002b1d93  # slli x27, x22, 2
    .word 0x002d8db3  # add x27, x27, x2
    .word 0x001b0313  # addi x6, x22, 1
    .word 0x406a02b3  # sub x5, x20, x6
    .word 0x0012b293  # sltiu x5, x5, 1
    .word 0x405002b3  # sub x5, x0, x5
    .word 0x785dac23  # sw x5, 1944(x27)
    .word 0xff9b0293  # addi x5, x22, -7
    .word 0xfc029ee3  # bne x5, x0, -36
    .word 0x001a3a93  # sltiu x21, x20, 1
    .word 0x79412283  # lw x5, 1940(x2)
    .word 0xff828293  # addi x5, x5, -8
    .word 0x005032b3  # sltu x5, x0, x5
    .word 0x00000313  # addi x6, x0, 0
    .word 0x02000393  # addi x7, x0, 32
    .word 0xfff28293  # addi x5, x5, -1
    .word 0x00734333  # xor x6, x6, x7
    .word 0x00537333  # and x6, x6, x5
    .word 0x0063c8b3  # xor x17, x7, x6
    .word 0x00289d13  # slli x26, x17, 2
    .word 0x002d0d33  # add x26, x26, x2
    .word 0x00001e37  # lui x28, 0x00001
    .word 0x002e0e33  # add x28, x28, x2
    .word 0x8a0e2023  # sw x0, -1888(x28)
    .word 0x00001e37  # lui x28, 0x00001
    .word 0x002e0e33  # add x28, x28, x2
    .word 0x8b2e2223  # sw x18, -1884(x28)
    .word 0x00001337  # lui x6, 0x00001
    .word 0x00230333  # add x6, x6, x2
    .word 0x8a032303  # lw x6, -1888(x6)
    .word 0x000012b7  # lui x5, 0x00001
    .word 0x002282b3  # add x5, x5, x2
    .word 0x8a42a283  # lw x5, -1884(x5)
    .word 0x005332b3  # sltu x5, x6, x5
    .word 0x00029463  # bne x5, x0, 8
    .word 0x08c0006f  # jal x0, 140
    .word 0x00030693  # addi x13, x6, 0
    .word 0x00369913  # slli x18, x13, 3
    .word 0xff868293  # addi x5, x13, -8
    .word 0x0012b293  # sltiu x5, x5, 1
    .word 0xff068313  # addi x6, x13, -16
    .word 0x00133313  # sltiu x6, x6, 1
    .word 0x0062e2b3  # or x5, x5, x6
    .word 0x405002b3  # sub x5, x0, x5
    .word 0x005afa33  # and x20, x21, x5
    .word 0xfff00b13  # addi x22, x0, -1
    .word 0x001b0b13  # addi x22, x22, 1
    .word 0x002b1d93  # slli x27, x22, 2
    .word 0x002d8db3  # add x27, x27, x2
    .word 0x01690333  # add x6, x18, x22
    .word 0x00231313  # slli x6, x6, 2
    .word 0x00230333  # add x6, x6, x2
    .word 0x2c032303  # lw x6, 704(x6)
    .word 0x798da383  # lw x7, 1944(x27)
    .word 0x00737333  # and x6, x6, x7
    .word 0x006a6a33  # or x20, x20, x6
    .word 0xff9b0293  # addi x5, x22, -7
    .word 0xfc029ae3  # bne x5, x0, -44
    .word 0x00d882b3  # add x5, x17, x13
    .word 0x00229293  # slli x5, x5, 2
    .word 0x002282b3  # add x5, x5, x2
    .word 0x0b42a023  # sw x20, 160(x5)
    .word 0x00168693  # addi x13, x13, 1
    .word 0x000012b7  # lui x5, 0x00001
    .word 0x002282b3  # add x5, x5, x2
    .word 0x8a42a283  # lw x5, -1884(x5)
    .word 0x0056b2b3  # sltu x5, x13, x5
    .word 0xf80294e3  # bne x5, x0, -120
    .word 0xfff68693  # addi x13, x13, -1
    .word 0x0040006f  # jal x0, 4
    .word 0x00001e37  # lui x28, 0x00001
    .word 0x002e0e33  # add x28, x28, x2
    .word 0x8a0e2023  # sw x0, -1888(x28)
    .word 0x79412283  # lw x5, 1940(x2)
    .word 0xff828293  # addi x5, x5, -8
    .word 0x005032b3  # sltu x5, x0, x5
    .word 0x00000313  # addi x6, x0, 0
    .word 0x00200393  # addi x7, x0, 2
    .word 0xfff28293  # addi x5, x5, -1
    .word 0x00734333  # xor x6, x6, x7
    .word 0x00537333  # and x6, x6, x5
    .word 0x0063c2b3  # xor x5, x7, x6
    .word 0x00001e37  # lui x28, 0x00001
    .word 0x002e0e33  # add x28, x28, x2
    .word 0x8a5e2223  # sw x5, -1884(x28)
    .word 0x00001337  # lui x6, 0x00001
    .word 0x00230333  # add x6, x6, x2
    .word 0x8a032303  # lw x6, -1888(x6)
    .word 0x000012b7  # lui x5, 0x00001
    .word 0x002282b3  # add x5, x5, x2
    .word 0x8a42a283  # lw x5, -1884(x5)
    .word 0x005332b3  # sltu x5, x6, x5
    .word 0x00029463  # bne x5, x0, 8
    .word 0x12c0006f  # jal x0, 300
    .word 0x7a612c23  # sw x6, 1976(x2)
    .word 0x00130313  # addi x6, x6, 1
    .word 0x00001e37  # lui x28, 0x00001
    .word 0x002e0e33  # add x28, x28, x2
    .word 0x8a6e2023  # sw x6, -1888(x28)
    .word 0x01800293  # addi x5, x0, 24
    .word 0x7b812303  # lw x6, 1976(x2)
    .word 0x026282b3  # mul x5, x5, x6
    .word 0x02028913  # addi x18, x5, 32
    .word 0x7bc00313  # addi x6, x0, 1980
    .word 0x00230333  # add x6, x6, x2
    .word 0x02000393  # addi x7, x0, 32
    .word 0x006383b3  # add x7, x7, x6
    .word 0x406382b3  # sub x5, x7, x6
    .word 0x00029463  # bne x5, x0, 8
    .word 0x0100006f  # jal x0, 16
    .word 0x00032023  # sw x0, 0(x6)
    .word 0x00430313  # addi x6, x6, 4
    .word 0xfedff06f  # jal x0, -20
    .word 0x025bfa13  # andi x20, x23, 37
    .word 0xfff00b13  # addi x22, x0, -1
    .word 0x001b0b13  # addi x22, x22, 1
    .word 0x002b1d93  # slli x27, x22, 2
    .word 0x002d8db3  # add x27, x27, x2
    .word 0x016902b3  # add x5, x18, x22
    .word 0x00229293  # slli x5, x5, 2
    .word 0x002282b3  # add x5, x5, x2
    .word 0x0a02a283  # lw x5, 160(x5)
    .word 0x0172cab3  # xor x21, x5, x23
    .word 0x414a82b3  # sub x5, x21, x20
    .word 0x7a5dae23  # sw x5, 1980(x27)
    .word 0x014aba33  # sltu x20, x21, x20
    .word 0xff9b0293  # addi x5, x22, -7
    .word 0xfc0298e3  # bne x5, x0, -48
    .word 0x01300293  # addi x5, x0, 19
    .word 0x7d812303  # lw x6, 2008(x2)
    .word 0x01f35313  # srli x6, x6, 31
    .word 0x02628a33  # mul x20, x5, x6
    .word 0x7d812283  # lw x5, 2008(x2)
    .word 0x0192f2b3  # and x5, x5, x25
    .word 0x7c512c23  # sw x5, 2008(x2)
    .word 0xfff00b13  # addi x22, x0, -1
    .word 0x001b0b13  # addi x22, x22, 1
    .word 0x002b1d93  # slli x27, x22, 2
    .word 0x002d8db3  # add x27, x27, x2
    .word 0x7bcda283  # lw x5, 1980(x27)
    .word 0x014282b3  # add x5, x5, x20
    .word 0x7a5dae23  # sw x5, 1980(x27)
    .word 0x7bcda283  # lw x5, 1980(x27)
    .word 0x0142ba33  # sltu x20, x5, x20
    .word 0xff9b0293  # addi x5, x22, -7
    .word 0xfc029ee3  # bne x5, x0, -36
    .word 0x7bc12283  # lw x5, 1980(x2)
    .word 0x01300313  # addi x6, x0, 19
    .word 0x7d812383  # lw x7, 2008(x2)
    .word 0x01f3d393  # srli x7, x7, 31
    .word 0x02730333  # mul x6, x6, x7
    .word 0x006282b3  # add x5, x5, x6
    .word 0x7a512e23  # sw x5, 1980(x2)
    .word 0x7d812283  # lw x5, 2008(x2)
    .word 0x0192f2b3  # and x5, x5, x25
    .word 0x7c512c23  # sw x5, 2008(x2)
    .word 0xfff00b13  # addi x22, x0, -1
    .word 0x001b0b13  # addi x22, x22, 1
    .word 0x002b1d93  # slli x27, x22, 2
    .word 0x002d8db3  # add x27, x27, x2
    .word 0x016902b3  # add x5, x18, x22
    .word 0x7bcda303  # lw x6, 1980(x27)
    .word 0x00229293  # slli x5, x5, 2
    .word 0x002282b3  # add x5, x5, x2
    .word 0x0a62a023  # sw x6, 160(x5)
    .word 0xff9b0293  # addi x5, x22, -7
    .word 0xfc029ee3  # bne x5, x0, -36
    .word 0xeb9ff06f  # jal x0, -328
    .word 0x79412283  # lw x5, 1940(x2)
    .word 0xeb728293  # addi x5, x5, -329
    .word 0x00d00313  # addi x6, x0, 13
    .word 0x0262f2b3  # remu x5, x5, x6
    .word 0x00229c13  # slli x24, x5, 2
    .word 0x002c0c33  # add x24, x24, x2
    .word 0x738c2c03  # lw x24, 1848(x24)
    .word 0x79412283  # lw x5, 1940(x2)
    .word 0x0012b293  # sltiu x5, x5, 1
    .word 0x00000313  # addi x6, x0, 0
    .word 0xffc70393  # addi x7, x14, -4
    .word 0x007033b3  # sltu x7, x0, x7
    .word 0x00c00413  # addi x8, x0, 12
    .word 0x01e00493  # addi x9, x0, 30
    .word 0xfff38393  # addi x7, x7, -1
    .word 0x00944433  # xor x8, x8, x9
    .word 0x00747433  # and x8, x8, x7
    .word 0x0084c3b3  # xor x7, x9, x8
    .word 0x405002b3  # sub x5, x0, x5
    .word 0x00734333  # xor x6, x6, x7
    .word 0x00537333  # and x6, x6, x5
    .word 0x0063c6b3  # xor x13, x7, x6
    .word 0x79412283  # lw x5, 1940(x2)
    .word 0x0012b293  # sltiu x5, x5, 1
    .word 0x00c00313  # addi x6, x0, 12
    .word 0xffc70393  # addi x7, x14, -4
    .word 0x007033b3  # sltu x7, x0, x7
    .word 0x01200413  # addi x8, x0, 18
    .word 0xffd70493  # addi x9, x14, -3
    .word 0x009034b3  # sltu x9, x0, x9
    .word 0x00e00513  # addi x10, x0, 14
    .word 0x00d00593  # addi x11, x0, 13
    .word 0xfff48493  # addi x9, x9, -1
    .word 0x00b54533  # xor x10, x10, x11
    .word 0x00957533  # and x10, x10, x9
    .word 0x00a5c4b3  # xor x9, x11, x10
    .word 0xfff38393  # addi x7, x7, -1
    .word 0x00944433  # xor x8, x8, x9
    .word 0x00747433  # and x8, x8, x7
    .word 0x0084c3b3  # xor x7, x9, x8
    .word 0x405002b3  # sub x5, x0, x5
    .word 0x00734333  # xor x6, x6, x7
    .word 0x00537333  # and x6, x6, x5
    .word 0x0063c933  # xor x18, x7, x6
    .word 0x00cc5293  # srli x5, x24, 12
    .word 0x07f2f613  # andi x12, x5, 127
    .word 0x00001e37  # lui x28, 0x00001
    .word 0x002e0e33  # add x28, x28, x2
    .word 0x8a0e2023  # sw x0, -1888(x28)
    .word 0x79412283  # lw x5, 1940(x2)
    .word 0xff828293  # addi x5, x5, -8
    .word 0x005032b3  # sltu x5, x0, x5
    .word 0x00000313  # addi x6, x0, 0
    .word 0x79412383  # lw x7, 1940(x2)
    .word 0x1493b393  # sltiu x7, x7, 329
    .word 0x00160493  # addi x9, x12, 1
    .word 0x407003b3  # sub x7, x0, x7
    .word 0x00994433  # xor x8, x18, x9
    .word 0x00747433  # and x8, x8, x7
    .word 0x0084c3b3  # xor x7, x9, x8
    .word 0xfff28293  # addi x5, x5, -1
    .word 0x00734333  # xor x6, x6, x7
    .word 0x00537333  # and x6, x6, x5
    .word 0x0063c2b3  # xor x5, x7, x6
    .word 0x00001e37  # lui x28, 0x00001
    .word 0x002e0e33  # add x28, x28, x2
    .word 0x8a5e2223  # sw x5, -1884(x28)
    .word 0x00001337  # lui x6, 0x00001
    .word 0x00230333  # add x6, x6, x2
    .word 0x8a032303  # lw x6, -1888(x6)
    .word 0x000012b7  # lui x5, 0x00001
    .word 0x002282b3  # add x5, x5, x2
    .word 0x8a42a283  # lw x5, -1884(x5)
    .word 0x005332b3  # sltu x5, x6, x5
    .word 0x00029463  # bne x5, x0, 8
    .word 0x2490006f  # jal x0, 2632
    .word 0x7c612e23  # sw x6, 2012(x2)
    .word 0x00130313  # addi x6, x6, 1
    .word 0x00001e37  # lui x28, 0x00001
    .word 0x002e0e33  # add x28, x28, x2
    .word 0x8a6e2023  # sw x6, -1888(x28)
    .word 0x79412283  # lw x5, 1940(x2)
    .word 0x14900313  # addi x6, x0, 329
    .word 0x0262f263  # bgeu x5, x6, 36
    .word 0x7dc12303  # lw x6, 2012(x2)
    .word 0x006682b3  # add x5, x13, x6
    .word 0x02c00313  # addi x6, x0, 44
    .word 0x0262f2b3  # remu x5, x5, x6
    .word 0x00129913  # slli x18, x5, 1
    .word 0x00290933  # add x18, x18, x2
    .word 0x6e095903  # lhu x18, 1760(x18)
    .word 0x0680006f  # jal x0, 104
    .word 0x7dc12283  # lw x5, 2012(x2)
    .word 0x0012b293  # sltiu x5, x5, 1
    .word 0x0f0c7313  # andi x6, x24, 240
    .word 0x0f000393  # addi x7, x0, 240
    .word 0x405002b3  # sub x5, x0, x5
    .word 0x00734333  # xor x6, x6, x7
    .word 0x00537333  # and x6, x6, x5
    .word 0x0063c933  # xor x18, x7, x6
    .word 0x7dc12303  # lw x6, 2012(x2)
    .word 0x40c30333  # sub x6, x6, x12
    .word 0x00603333  # sltu x6, x0, x6
    .word 0x00001437  # lui x8, 0x00001
    .word 0x00240433  # add x8, x8, x2
    .word 0x88c42403  # lw x8, -1908(x8)
    .word 0x008c73b3  # and x7, x24, x8
    .word 0x00495413  # srli x8, x18, 4
    .word 0x000014b7  # lui x9, 0x00001
    .word 0x002484b3  # add x9, x9, x2
    .word 0x8904a483  # lw x9, -1904(x9)
    .word 0x00946433  # or x8, x8, x9
    .word 0xfff30313  # addi x6, x6, -1
    .word 0x0083c3b3  # xor x7, x7, x8
    .word 0x0063f3b3  # and x7, x7, x6
    .word 0x00744333  # xor x6, x8, x7
    .word 0x00696933  # or x18, x18, x6
    .word 0x00c95b13  # srli x22, x18, 12
    .word 0x002b1d93  # slli x27, x22, 2
    .word 0x002d8db3  # add x27, x27, x2
    .word 0x00595293  # srli x5, x18, 5
    .word 0x0782f713  # andi x14, x5, 120
    .word 0x00195293  # srli x5, x18, 1
    .word 0x0782f893  # andi x17, x5, 120
    .word 0x00289d13  # slli x26, x17, 2
    .word 0x002d0d33  # add x26, x26, x2
    .word 0x00391293  # slli x5, x18, 3
    .word 0x0782f913  # andi x18, x5, 120
    .word 0x660b1063  # bne x22, x0, 1632
    .word 0x7e000313  # addi x6, x0, 2016
    .word 0x00230333  # add x6, x6, x2
    .word 0x02400393  # addi x7, x0, 36
    .word 0x006383b3  # add x7, x7, x6
    .word 0x406382b3  # sub x5, x7, x6
    .word 0x00029463  # bne x5, x0, 8
    .word 0x0100006f  # jal x0, 16
    .word 0x00032023  # sw x0, 0(x6)
    .word 0x00430313  # addi x6, x6, 4
    .word 0xfedff06f  # jal x0, -20
    .word 0x00001337  # lui x6, 0x00001
    .word 0x80430313  # addi x6, x6, -2044
    .word 0x00230333  # add x6, x6, x2
    .word 0x02000393  # addi x7, x0, 32
    .word 0x006383b3  # add x7, x7, x6
    .word 0x406382b3  # sub x5, x7, x6
    .word 0x00029463  # bne x5, x0, 8
    .word 0x0100006f  # jal x0, 16
    .word 0x00032023  # sw x0, 0(x6)
    .word 0x00430313  # addi x6, x6, 4
    .word 0xfedff06f  # jal x0, -20
    .word 0xfff00b13  # addi x22, x0, -1
    .word 0x001b0b13  # addi x22, x22, 1
    .word 0x002b1d93  # slli x27, x22, 2
    .word 0x002d8db3  # add x27, x27, x2
    .word 0x01688333  # add x6, x17, x22
    .word 0x00231313  # slli x6, x6, 2
    .word 0x00230333  # add x6, x6, x2
    .word 0x0a032303  # lw x6, 160(x6)
    .word 0x002b1293  # slli x5, x22, 2
    .word 0x002282b3  # add x5, x5, x2
    .word 0x00001e37  # lui x28, 0x00001
    .word 0x01c282b3  # add x5, x5, x28
    .word 0x8062a223  # sw x6, -2044(x5)
    .word 0xff9b0293  # addi x5, x22, -7
    .word 0xfc0296e3  # bne x5, x0, -52
    .word 0x31289263  # bne x17, x18, 772
    .word 0x01300293  # addi x5, x0, 19
    .word 0x00700313  # addi x6, x0, 7
    .word 0x00231313  # slli x6, x6, 2
    .word 0x00230333  # add x6, x6, x2
    .word 0x00001e37  # lui x28, 0x00001
    .word 0x01c30333  # add x6, x6, x28
    .word 0x80432303  # lw x6, -2044(x6)
    .word 0x01f35313  # srli x6, x6, 31
    .word 0x02628a33  # mul x20, x5, x6
    .word 0x00700293  # addi x5, x0, 7
    .word 0x00700313  # addi x6, x0, 7
    .word 0x00231313  # slli x6, x6, 2
    .word 0x00230333  # add x6, x6, x2
    .word 0x00001e37  # lui x28, 0x00001
    .word 0x01c30333  # add x6, x6, x28
    .word 0x80432303  # lw x6, -2044(x6)
    .word 0x01937333  # and x6, x6, x25
    .word 0x00229293  # slli x5, x5, 2
    .word 0x002282b3  # add x5, x5, x2
    .word 0x00001e37  # lui x28, 0x00001
    .word 0x01c282b3  # add x5, x5, x28
    .word 0x8062a223  # sw x6, -2044(x5)
    .word 0xfff00b13  # addi x22, x0, -1
    .word 0x001b0b13  # addi x22, x22, 1
    .word 0x002b1d93  # slli x27, x22, 2
    .word 0x002d8db3  # add x27, x27, x2
    .word 0x002b1313  # slli x6, x22, 2
    .word 0x00230333  # add x6, x6, x2
    .word 0x00001e37  # lui x28, 0x00001
    .word 0x01c30333  # add x6, x6, x28
    .word 0x80432303  # lw x6, -2044(x6)
    .word 0x01430333  # add x6, x6, x20
    .word 0x002b1293  # slli x5, x22, 2
    .word 0x002282b3  # add x5, x5, x2
    .word 0x00001e37  # lui x28, 0x00001
    .word 0x01c282b3  # add x5, x5, x28
    .word 0x8062a223  # sw x6, -2044(x5)
    .word 0x002b1293  # slli x5, x22, 2
    .word 0x002282b3  # add x5, x5, x2
    .word 0x00001e37  # lui x28, 0x00001
    .word 0x01c282b3  # add x5, x5, x28
    .word 0x8042a283  # lw x5, -2044(x5)
    .word 0x0142ba33  # sltu x20, x5, x20
    .word 0xff9b0293  # addi x5, x22, -7
    .word 0xfa0296e3  # bne x5, x0, -84
    .word 0x00000293  # addi x5, x0, 0
    .word 0x00000313  # addi x6, x0, 0
    .word 0x00231313  # slli x6, x6, 2
    .word 0x00230333  # add x6, x6, x2
    .word 0x00001e37  # lui x28, 0x00001
    .word 0x01c30333  # add x6, x6, x28
    .word 0x80432303  # lw x6, -2044(x6)
    .word 0x01300393  # addi x7, x0, 19
    .word 0x00700413  # addi x8, x0, 7
    .word 0x00241413  # slli x8, x8, 2
    .word 0x00240433  # add x8, x8, x2
    .word 0x00001e37  # lui x28, 0x00001
    .word 0x01c40433  # add x8, x8, x28
    .word 0x80442403  # lw x8, -2044(x8)
    .word 0x01f45413  # srli x8, x8, 31
    .word 0x028383b3  # mul x7, x7, x8
    .word 0x00730333  # add x6, x6, x7
    .word 0x00229293  # slli x5, x5, 2
    .word 0x002282b3  # add x5, x5, x2
    .word 0x00001e37  # lui x28, 0x00001
    .word 0x01c282b3  # add x5, x5, x28
    .word 0x8062a223  # sw x6, -2044(x5)
    .word 0x00700293  # addi x5, x0, 7
    .word 0x00700313  # addi x6, x0, 7
    .word 0x00231313  # slli x6, x6, 2
    .word 0x00230333  # add x6, x6, x2
    .word 0x00001e37  # lui x28, 0x00001
    .word 0x01c30333  # add x6, x6, x28
    .word 0x80432303  # lw x6, -2044(x6)
    .word 0x01937333  # and x6, x6, x25
    .word 0x00229293  # slli x5, x5, 2
    .word 0x002282b3  # add x5, x5, x2
    .word 0x00001e37  # lui x28, 0x00001
    .word 0x01c282b3  # add x5, x5, x28
    .word 0x8062a223  # sw x6, -2044(x5)
    .word 0x00001337  # lui x6, 0x00001
    .word 0x82430313  # addi x6, x6, -2012
    .word 0x00230333  # add x6, x6, x2
    .word 0x02000393  # addi x7, x0, 32
    .word 0x006383b3  # add x7, x7, x6
    .word 0x406382b3  # sub x5, x7, x6
    .word 0x00029463  # bne x5, x0, 8
    .word 0x0100006f  # jal x0, 16
    .word 0x00032023  # sw x0, 0(x6)
    .word 0x00430313  # addi x6, x6, 4
    .word 0xfedff06f  # jal x0, -20
    .word 0x00000b13  # addi x22, x0, 0
    .word 0x001b0b13  # addi x22, x22, 1
    .word 0x002b1d93  # slli x27, x22, 2
    .word 0x002d8db3  # add x27, x27, x2
    .word 0x002b1313  # slli x6, x22, 2
    .word 0x00230333  # add x6, x6, x2
    .word 0x00001e37  # lui x28, 0x00001
    .word 0x01c30333  # add x6, x6, x28
    .word 0x80432303  # lw x6, -2044(x6)
    .word 0x00131313  # slli x6, x6, 1
    .word 0xfffb0393  # addi x7, x22, -1
    .word 0x00239393  # slli x7, x7, 2
    .word 0x002383b3  # add x7, x7, x2
    .word 0x00001e37  # lui x28, 0x00001
    .word 0x01c383b3  # add x7, x7, x28
    .word 0x8043a383  # lw x7, -2044(x7)
    .word 0x01f3d393  # srli x7, x7, 31
    .word 0x00736333  # or x6, x6, x7
    .word 0x002b1293  # slli x5, x22, 2
    .word 0x002282b3  # add x5, x5, x2
    .word 0x00001e37  # lui x28, 0x00001
    .word 0x01c282b3  # add x5, x5, x28
    .word 0x8262a223  # sw x6, -2012(x5)
    .word 0xff9b0293  # addi x5, x22, -7
    .word 0xfa0292e3  # bne x5, x0, -92
    .word 0x00000b93  # addi x23, x0, 0
    .word 0x00000793  # addi x15, x0, 0
    .word 0x00000813  # addi x16, x0, 0
    .word 0xfff00893  # addi x17, x0, -1
    .word 0x00188893  # addi x17, x17, 1
    .word 0x00289d13  # slli x26, x17, 2
    .word 0x002d0d33  # add x26, x26, x2
    .word 0xfff00b13  # addi x22, x0, -1
    .word 0x001b0b13  # addi x22, x22, 1
    .word 0x002b1d93  # slli x27, x22, 2
    .word 0x002d8db3  # add x27, x27, x2
    .word 0x0018d293  # srli x5, x17, 1
    .word 0x41628933  # sub x18, x5, x22
    .word 0x00893293  # sltiu x5, x18, 8
    .word 0x41288333  # sub x6, x17, x18
    .word 0x00833313  # sltiu x6, x6, 8
    .word 0x0062f2b3  # and x5, x5, x6
    .word 0x08028863  # beq x5, x0, 144
    .word 0x00797293  # andi x5, x18, 7
    .word 0x00229a13  # slli x20, x5, 2
    .word 0x002a0a33  # add x20, x20, x2
    .word 0x00001e37  # lui x28, 0x00001
    .word 0x01ca0a33  # add x20, x20, x28
    .word 0x804a2a03  # lw x20, -2044(x20)
    .word 0x001b3293  # sltiu x5, x22, 1
    .word 0x41288333  # sub x6, x17, x18
    .word 0x00737313  # andi x6, x6, 7
    .word 0x00231313  # slli x6, x6, 2
    .word 0x00230333  # add x6, x6, x2
    .word 0x00001e37  # lui x28, 0x00001
    .word 0x01c30333  # add x6, x6, x28
    .word 0x80432303  # lw x6, -2044(x6)
    .word 0x0018f393  # andi x7, x17, 1
    .word 0x00731333  # sll x6, x6, x7
    .word 0x412883b3  # sub x7, x17, x18
    .word 0x0073f393  # andi x7, x7, 7
    .word 0x00239393  # slli x7, x7, 2
    .word 0x002383b3  # add x7, x7, x2
    .word 0x00001e37  # lui x28, 0x00001
    .word 0x01c383b3  # add x7, x7, x28
    .word 0x8243a383  # lw x7, -2012(x7)
    .word 0x405002b3  # sub x5, x0, x5
    .word 0x00734333  # xor x6, x6, x7
    .word 0x00537333  # and x6, x6, x5
    .word 0x0063cab3  # xor x21, x7, x6
    .word 0x035a09b3  # mul x19, x20, x21
    .word 0x035a3a33  # mulhu x20, x20, x21
    .word 0x013b8bb3  # add x23, x23, x19
    .word 0x013bb333  # sltu x6, x23, x19
    .word 0x006a0a33  # add x20, x20, x6
    .word 0x014787b3  # add x15, x15, x20
    .word 0x0147b333  # sltu x6, x15, x20
    .word 0x00680833  # add x16, x16, x6
    .word 0xffdb0293  # addi x5, x22, -3
    .word 0xf40294e3  # bne x5, x0, -184
    .word 0x00800313  # addi x6, x0, 8
    .word 0x0068fc63  # bgeu x17, x6, 24
    .word 0x0078f293  # andi x5, x17, 7
    .word 0x00229293  # slli x5, x5, 2
    .word 0x002282b3  # add x5, x5, x2
    .word 0x2b72a023  # sw x23, 672(x5)
    .word 0x0140006f  # jal x0, 20
    .word 0x0078f293  # andi x5, x17, 7
    .word 0x00229293  # slli x5, x5, 2
    .word 0x002282b3  # add x5, x5, x2
    .word 0x7f72a223  # sw x23, 2020(x5)
    .word 0x00078b93  # addi x23, x15, 0
    .word 0x00080793  # addi x15, x16, 0
    .word 0x00000813  # addi x16, x0, 0
    .word 0xff288293  # addi x5, x17, -14
    .word 0xee029ce3  # bne x5, x0, -264
    .word 0x00800293  # addi x5, x0, 8
    .word 0x00229293  # slli x5, x5, 2
    .word 0x002282b3  # add x5, x5, x2
    .word 0x7f72a023  # sw x23, 2016(x5)
    .word 0x0cc0006f  # jal x0, 204
    .word 0xfff00b13  # addi x22, x0, -1
    .word 0x001b0b13  # addi x22, x22, 1
    .word 0x002b1d93  # slli x27, x22, 2
    .word 0x002d8db3  # add x27, x27, x2
    .word 0x002b1293  # slli x5, x22, 2
    .word 0x002282b3  # add x5, x5, x2
    .word 0x00001e37  # lui x28, 0x00001
    .word 0x01c282b3  # add x5, x5, x28
    .word 0x8042a283  # lw x5, -2044(x5)
    .word 0x2a5da023  # sw x5, 672(x27)
    .word 0xff9b0293  # addi x5, x22, -7
    .word 0xfc029ce3  # bne x5, x0, -40
    .word 0xfff00893  # addi x17, x0, -1
    .word 0x00188893  # addi x17, x17, 1
    .word 0x00289d13  # slli x26, x17, 2
    .word 0x002d0d33  # add x26, x26, x2
    .word 0x2a0d2783  # lw x15, 672(x26)
    .word 0x00000a93  # addi x21, x0, 0
    .word 0xfff00b13  # addi x22, x0, -1
    .word 0x001b0b13  # addi x22, x22, 1
    .word 0x002b1d93  # slli x27, x22, 2
    .word 0x002d8db3  # add x27, x27, x2
    .word 0x016902b3  # add x5, x18, x22
    .word 0x00229a13  # slli x20, x5, 2
    .word 0x002a0a33  # add x20, x20, x2
    .word 0x0a0a2a03  # lw x20, 160(x20)
    .word 0x03478bb3  # mul x23, x15, x20
    .word 0x0347b9b3  # mulhu x19, x15, x20
    .word 0x7e4da283  # lw x5, 2020(x27)
    .word 0x01728a33  # add x20, x5, x23
    .word 0x000b1a63  # bne x22, x0, 20
    .word 0x2b4d2023  # sw x20, 672(x26)
    .word 0x017a3333  # sltu x6, x20, x23
    .word 0x00698ab3  # add x21, x19, x6
    .word 0x0200006f  # jal x0, 32
    .word 0x015a02b3  # add x5, x20, x21
    .word 0x7e5da023  # sw x5, 2016(x27)
    .word 0x017a3333  # sltu x6, x20, x23
    .word 0x006982b3  # add x5, x19, x6
    .word 0x7e0da303  # lw x6, 2016(x27)
    .word 0x01533333  # sltu x6, x6, x21
    .word 0x00628ab3  # add x21, x5, x6
    .word 0xff9b0293  # addi x5, x22, -7
    .word 0xfa0290e3  # bne x5, x0, -96
    .word 0x00800293  # addi x5, x0, 8
    .word 0x00229293  # slli x5, x5, 2
    .word 0x002282b3  # add x5, x5, x2
    .word 0x7f52a023  # sw x21, 2016(x5)
    .word 0xff988293  # addi x5, x17, -7
    .word 0xf60298e3  # bne x5, x0, -144
    .word 0x00000a13  # addi x20, x0, 0
    .word 0xfff00b13  # addi x22, x0, -1
    .word 0x001b0b13  # addi x22, x22, 1
    .word 0x002b1d93  # slli x27, x22, 2
    .word 0x002d8db3  # add x27, x27, x2
    .word 0x7e4da283  # lw x5, 2020(x27)
    .word 0x02600313  # addi x6, x0, 38
    .word 0x02628ab3  # mul x21, x5, x6
    .word 0x7e4dab83  # lw x23, 2020(x27)
    .word 0x02600313  # addi x6, x0, 38
    .word 0x026bb7b3  # mulhu x15, x23, x6
    .word 0x2a0da283  # lw x5, 672(x27)
    .word 0x01528bb3  # add x23, x5, x21
    .word 0x014b8333  # add x6, x23, x20
    .word 0x002b1293  # slli x5, x22, 2
    .word 0x002282b3  # add x5, x5, x2
    .word 0x00001e37  # lui x28, 0x00001
    .word 0x01c282b3  # add x5, x5, x28
    .word 0x8062a223  # sw x6, -2044(x5)
    .word 0x015bb333  # sltu x6, x23, x21
    .word 0x006782b3  # add x5, x15, x6
    .word 0x002b1313  # slli x6, x22, 2
    .word 0x00230333  # add x6, x6, x2
    .word 0x00001e37  # lui x28, 0x00001
    .word 0x01c30333  # add x6, x6, x28
    .word 0x80432303  # lw x6, -2044(x6)
    .word 0x01433333  # sltu x6, x6, x20
    .word 0x00628a33  # add x20, x5, x6
    .word 0xff9b0293  # addi x5, x22, -7
    .word 0xf8029ae3  # bne x5, x0, -108
    .word 0x01300293  # addi x5, x0, 19
    .word 0x001a1313  # slli x6, x20, 1
    .word 0x00700393  # addi x7, x0, 7
    .word 0x00239393  # slli x7, x7, 2
    .word 0x002383b3  # add x7, x7, x2
    .word 0x00001e37  # lui x28, 0x00001
    .word 0x01c383b3  # add x7, x7, x28
    .word 0x8043a383  # lw x7, -2044(x7)
    .word 0x01f3d393  # srli x7, x7, 31
    .word 0x00736333  # or x6, x6, x7
    .word 0x02628a33  # mul x20, x5, x6
    .word 0x00700293  # addi x5, x0, 7
    .word 0x00700313  # addi x6, x0, 7
    .word 0x00231313  # slli x6, x6, 2
    .word 0x00230333  # add x6, x6, x2
    .word 0x00001e37  # lui x28, 0x00001
    .word 0x01c30333  # add x6, x6, x28
    .word 0x80432303  # lw x6, -2044(x6)
    .word 0x01937333  # and x6, x6, x25
    .word 0x00229293  # slli x5, x5, 2
    .word 0x002282b3  # add x5, x5, x2
    .word 0x00001e37  # lui x28, 0x00001
    .word 0x01c282b3  # add x5, x5, x28
    .word 0x8062a223  # sw x6, -2044(x5)
    .word 0xfff00b13  # addi x22, x0, -1
    .word 0x001b0b13  # addi x22, x22, 1
    .word 0x002b1d93  # slli x27, x22, 2
    .word 0x002d8db3  # add x27, x27, x2
    .word 0x002b1313  # slli x6, x22, 2
    .word 0x00230333  # add x6, x6, x2
    .word 0x00001e37  # lui x28, 0x00001
    .word 0x01c30333  # add x6, x6, x28
    .word 0x80432303  # lw x6, -2044(x6)
    .word 0x01430333  # add x6, x6, x20
    .word 0x002b1293  # slli x5, x22, 2
    .word 0x002282b3  # add x5, x5, x2
    .word 0x00001e37  # lui x28, 0x00001
    .word 0x01c282b3  # add x5, x5, x28
    .word 0x8062a223  # sw x6, -2044(x5)
    .word 0x002b1293  # slli x5, x22, 2
    .word 0x002282b3  # add x5, x5, x2
    .word 0x00001e37  # lui x28, 0x00001
    .word 0x01c282b3  # add x5, x5, x28
    .word 0x8042a283  # lw x5, -2044(x5)
    .word 0x0142ba33  # sltu x20, x5, x20
    .word 0xff9b0293  # addi x5, x22, -7
    .word 0xfa0296e3  # bne x5, x0, -84
    .word 0x00000293  # addi x5, x0, 0
    .word 0x00000313  # addi x6, x0, 0
    .word 0x00231313  # slli x6, x6, 2
    .word 0x00230333  # add x6, x6, x2
    .word 0x00001e37  # lui x28, 0x00001
    .word 0x01c30333  # add x6, x6, x28
    .word 0x80432303  # lw x6, -2044(x6)
    .word 0x01300393  # addi x7, x0, 19
    .word 0x00700413  # addi x8, x0, 7
    .word 0x00241413  # slli x8, x8, 2
    .word 0x00240433  # add x8, x8, x2
    .word 0x00001e37  # lui x28, 0x00001
    .word 0x01c40433  # add x8, x8, x28
    .word 0x80442403  # lw x8, -2044(x8)
    .word 0x01f45413  # srli x8, x8, 31
    .word 0x028383b3  # mul x7, x7, x8
    .word 0x00730333  # add x6, x6, x7
    .word 0x00229293  # slli x5, x5, 2
    .word 0x002282b3  # add x5, x5, x2
    .word 0x00001e37  # lui x28, 0x00001
    .word 0x01c282b3  # add x5, x5, x28
    .word 0x8062a223  # sw x6, -2044(x5)
    .word 0x00700293  # addi x5, x0, 7
    .word 0x00700313  # addi x6, x0, 7
    .word 0x00231313  # slli x6, x6, 2
    .word 0x00230333  # add x6, x6, x2
    .word 0x00001e37  # lui x28, 0x00001
    .word 0x01c30333  # add x6, x6, x28
    .word 0x80432303  # lw x6, -2044(x6)
    .word 0x01937333  # and x6, x6, x25
    .word 0x00229293  # slli x5, x5, 2
    .word 0x002282b3  # add x5, x5, x2
    .word 0x00001e37  # lui x28, 0x00001
    .word 0x01c282b3  # add x5, x5, x28
    .word 0x8062a223  # sw x6, -2044(x5)
    .word 0xfff00b13  # addi x22, x0, -1
    .word 0x001b0b13  # addi x22, x22, 1
    .word 0x002b1d93  # slli x27, x22, 2
    .word 0x002d8db3  # add x27, x27, x2
    .word 0x016702b3  # add x5, x14, x22
    .word 0x002b1313  # slli x6, x22, 2
    .word 0x00230333  # add x6, x6, x2
    .word 0x00001e37  # lui x28, 0x00001
    .word 0x01c30333  # add x6, x6, x28
    .word 0x80432303  # lw x6, -2044(x6)
    .word 0x00229293  # slli x5, x5, 2
    .word 0x002282b3  # add x5, x5, x2
    .word 0x0a62a023  # sw x6, 160(x5)
    .word 0xff9b0293  # addi x5, x22, -7
    .word 0xfc0296e3  # bne x5, x0, -52
    .word 0x3140006f  # jal x0, 788
    .word 0x00100313  # addi x6, x0, 1
    .word 0x226b1863  # bne x22, x6, 560
    .word 0x00000a13  # addi x20, x0, 0
    .word 0x00001337  # lui x6, 0x00001
    .word 0x84430313  # addi x6, x6, -1980
    .word 0x00230333  # add x6, x6, x2
    .word 0x02000393  # addi x7, x0, 32
    .word 0x006383b3  # add x7, x7, x6
    .word 0x406382b3  # sub x5, x7, x6
    .word 0x00029463  # bne x5, x0, 8
    .word 0x0100006f  # jal x0, 16
    .word 0x00032023  # sw x0, 0(x6)
    .word 0x00430313  # addi x6, x6, 4
    .word 0xfedff06f  # jal x0, -20
    .word 0xfff00b13  # addi x22, x0, -1
    .word 0x001b0b13  # addi x22, x22, 1
    .word 0x002b1d93  # slli x27, x22, 2
    .word 0x002d8db3  # add x27, x27, x2
    .word 0x016882b3  # add x5, x17, x22
    .word 0x00229a93  # slli x21, x5, 2
    .word 0x002a8ab3  # add x21, x21, x2
    .word 0x0a0aaa83  # lw x21, 160(x21)
    .word 0x01690333  # add x6, x18, x22
    .word 0x00231313  # slli x6, x6, 2
    .word 0x00230333  # add x6, x6, x2
    .word 0x0a032303  # lw x6, 160(x6)
    .word 0x006a8bb3  # add x23, x21, x6
    .word 0x014b8333  # add x6, x23, x20
    .word 0x002b1293  # slli x5, x22, 2
    .word 0x002282b3  # add x5, x5, x2
    .word 0x00001e37  # lui x28, 0x00001
    .word 0x01c282b3  # add x5, x5, x28
    .word 0x8462a223  # sw x6, -1980(x5)
    .word 0x015bb2b3  # sltu x5, x23, x21
    .word 0x002b1313  # slli x6, x22, 2
    .word 0x00230333  # add x6, x6, x2
    .word 0x00001e37  # lui x28, 0x00001
    .word 0x01c30333  # add x6, x6, x28
    .word 0x84432303  # lw x6, -1980(x6)
    .word 0x01433333  # sltu x6, x6, x20
    .word 0x00628a33  # add x20, x5, x6
    .word 0xff9b0293  # addi x5, x22, -7
    .word 0xf8029ae3  # bne x5, x0, -108
    .word 0x01300293  # addi x5, x0, 19
    .word 0x001a1313  # slli x6, x20, 1
    .word 0x00700393  # addi x7, x0, 7
    .word 0x00239393  # slli x7, x7, 2
    .word 0x002383b3  # add x7, x7, x2
    .word 0x00001e37  # lui x28, 0x00001
    .word 0x01c383b3  # add x7, x7, x28
    .word 0x8443a383  # lw x7, -1980(x7)
    .word 0x01f3d393  # srli x7, x7, 31
    .word 0x00736333  # or x6, x6, x7
    .word 0x02628a33  # mul x20, x5, x6
    .word 0x00700293  # addi x5, x0, 7
    .word 0x00700313  # addi x6, x0, 7
    .word 0x00231313  # slli x6, x6, 2
    .word 0x00230333  # add x6, x6, x2
    .word 0x00001e37  # lui x28, 0x00001
    .word 0x01c30333  # add x6, x6, x28
    .word 0x84432303  # lw x6, -1980(x6)
    .word 0x01937333  # and x6, x6, x25
    .word 0x00229293  # slli x5, x5, 2
    .word 0x002282b3  # add x5, x5, x2
    .word 0x00001e37  # lui x28, 0x00001
    .word 0x01c282b3  # add x5, x5, x28
    .word 0x8462a223  # sw x6, -1980(x5)
    .word 0xfff00b13  # addi x22, x0, -1
    .word 0x001b0b13  # addi x22, x22, 1
    .word 0x002b1d93  # slli x27, x22, 2
    .word 0x002d8db3  # add x27, x27, x2
    .word 0x002b1313  # slli x6, x22, 2
    .word 0x00230333  # add x6, x6, x2
    .word 0x00001e37  # lui x28, 0x00001
    .word 0x01c30333  # add x6, x6, x28
    .word 0x84432303  # lw x6, -1980(x6)
    .word 0x01430333  # add x6, x6, x20
    .word 0x002b1293  # slli x5, x22, 2
    .word 0x002282b3  # add x5, x5, x2
    .word 0x00001e37  # lui x28, 0x00001
    .word 0x01c282b3  # add x5, x5, x28
    .word 0x8462a223  # sw x6, -1980(x5)
    .word 0x002b1293  # slli x5, x22, 2
    .word 0x002282b3  # add x5, x5, x2
    .word 0x00001e37  # lui x28, 0x00001
    .word 0x01c282b3  # add x5, x5, x28
    .word 0x8442a283  # lw x5, -1980(x5)
    .word 0x0142ba33  # sltu x20, x5, x20
    .word 0xff9b0293  # addi x5, x22, -7
    .word 0xfa0296e3  # bne x5, x0, -84
    .word 0x00000293  # addi x5, x0, 0
    .word 0x00000313  # addi x6, x0, 0
    .word 0x00231313  # slli x6, x6, 2
    .word 0x00230333  # add x6, x6, x2
    .word 0x00001e37  # lui x28, 0x00001
    .word 0x01c30333  # add x6, x6, x28
    .word 0x84432303  # lw x6, -1980(x6)
    .word 0x01300393  # addi x7, x0, 19
    .word 0x00700413  # addi x8, x0, 7
    .word 0x00241413  # slli x8, x8, 2
    .word 0x00240433  # add x8, x8, x2
    .word 0x00001e37  # lui x28, 0x00001
    .word 0x01c40433  # add x8, x8, x28
    .word 0x84442403  # lw x8, -1980(x8)
    .word 0x01f45413  # srli x8, x8, 31
    .word 0x028383b3  # mul x7, x7, x8
    .word 0x00730333  # add x6, x6, x7
    .word 0x00229293  # slli x5, x5, 2
    .word 0x002282b3  # add x5, x5, x2
    .word 0x00001e37  # lui x28, 0x00001
    .word 0x01c282b3  # add x5, x5, x28
    .word 0x8462a223  # sw x6, -1980(x5)
    .word 0x00700293  # addi x5, x0, 7
    .word 0x00700313  # addi x6, x0, 7
    .word 0x00231313  # slli x6, x6, 2
    .word 0x00230333  # add x6, x6, x2
    .word 0x00001e37  # lui x28, 0x00001
    .word 0x01c30333  # add x6, x6, x28
    .word 0x84432303  # lw x6, -1980(x6)
    .word 0x01937333  # and x6, x6, x25
    .word 0x00229293  # slli x5, x5, 2
    .word 0x002282b3  # add x5, x5, x2
    .word 0x00001e37  # lui x28, 0x00001
    .word 0x01c282b3  # add x5, x5, x28
    .word 0x8462a223  # sw x6, -1980(x5)
    .word 0xfff00b13  # addi x22, x0, -1
    .word 0x001b0b13  # addi x22, x22, 1
    .word 0x002b1d93  # slli x27, x22, 2
    .word 0x002d8db3  # add x27, x27, x2
    .word 0x016702b3  # add x5, x14, x22
    .word 0x002b1313  # slli x6, x22, 2
    .word 0x00230333  # add x6, x6, x2
    .word 0x00001e37  # lui x28, 0x00001
    .word 0x01c30333  # add x6, x6, x28
    .word 0x84432303  # lw x6, -1980(x6)
    .word 0x00229293  # slli x5, x5, 2
    .word 0x002282b3  # add x5, x5, x2
    .word 0x0a62a023  # sw x6, 160(x5)
    .word 0xff9b0293  # addi x5, x22, -7
    .word 0xfc0296e3  # bne x5, x0, -52
    .word 0x0e00006f  # jal x0, 224
    .word 0x00000a13  # addi x20, x0, 0
    .word 0x00001337  # lui x6, 0x00001
    .word 0x86430313  # addi x6, x6, -1948
    .word 0x00230333  # add x6, x6, x2
    .word 0x02000393  # addi x7, x0, 32
    .word 0x006383b3  # add x7, x7, x6
    .word 0x406382b3  # sub x5, x7, x6
    .word 0x00029463  # bne x5, x0, 8
    .word 0x0100006f  # jal x0, 16
    .word 0x00032023  # sw x0, 0(x6)
    .word 0x00430313  # addi x6, x6, 4
    .word 0xfedff06f  # jal x0, -20
    .word 0xfff00b13  # addi x22, x0, -1
    .word 0x001b0b13  # addi x22, x22, 1
    .word 0x002b1d93  # slli x27, x22, 2
    .word 0x002d8db3  # add x27, x27, x2
    .word 0x016882b3  # add x5, x17, x22
    .word 0x00229a93  # slli x21, x5, 2
    .word 0x002a8ab3  # add x21, x21, x2
    .word 0x0a0aaa83  # lw x21, 160(x21)
    .word 0x016902b3  # add x5, x18, x22
    .word 0x00229b93  # slli x23, x5, 2
    .word 0x002b8bb3  # add x23, x23, x2
    .word 0x0a0bab83  # lw x23, 160(x23)
    .word 0x417a87b3  # sub x15, x21, x23
    .word 0x41478333  # sub x6, x15, x20
    .word 0x002b1293  # slli x5, x22, 2
    .word 0x002282b3  # add x5, x5, x2
    .word 0x00001e37  # lui x28, 0x00001
    .word 0x01c282b3  # add x5, x5, x28
    .word 0x8662a223  # sw x6, -1948(x5)
    .word 0x017ab2b3  # sltu x5, x21, x23
    .word 0x0147b333  # sltu x6, x15, x20
    .word 0x00628a33  # add x20, x5, x6
    .word 0xff9b0293  # addi x5, x22, -7
    .word 0xfa0294e3  # bne x5, x0, -88
    .word 0x02600293  # addi x5, x0, 38
    .word 0x03428a33  # mul x20, x5, x20
    .word 0xfff00b13  # addi x22, x0, -1
    .word 0x001b0b13  # addi x22, x22, 1
    .word 0x002b1d93  # slli x27, x22, 2
    .word 0x002d8db3  # add x27, x27, x2
    .word 0x002b1a93  # slli x21, x22, 2
    .word 0x002a8ab3  # add x21, x21, x2
    .word 0x00001e37  # lui x28, 0x00001
    .word 0x01ca8ab3  # add x21, x21, x28
    .word 0x864aaa83  # lw x21, -1948(x21)
    .word 0x016702b3  # add x5, x14, x22
    .word 0x414a8333  # sub x6, x21, x20
    .word 0x00229293  # slli x5, x5, 2
    .word 0x002282b3  # add x5, x5, x2
    .word 0x0a62a023  # sw x6, 160(x5)
    .word 0x014aba33  # sltu x20, x21, x20
    .word 0xff9b0293  # addi x5, x22, -7
    .word 0xfc0292e3  # bne x5, x0, -60
    .word 0xd9cff06f  # jal x0, -2660
    .word 0x79412283  # lw x5, 1940(x2)
    .word 0x0012b293  # sltiu x5, x5, 1
    .word 0x79412303  # lw x6, 1940(x2)
    .word 0x15433313  # sltiu x6, x6, 340
    .word 0x00133313  # sltiu x6, x6, 1
    .word 0x0062e2b3  # or x5, x5, x6
    .word 0x0c028a63  # beq x5, x0, 212
    .word 0x79412283  # lw x5, 1940(x2)
    .word 0x0012b293  # sltiu x5, x5, 1
    .word 0x04800313  # addi x6, x0, 72
    .word 0x79412383  # lw x7, 1940(x2)
    .word 0x0013f393  # andi x7, x7, 1
    .word 0x00339393  # slli x7, x7, 3
    .word 0x405002b3  # sub x5, x0, x5
    .word 0x00734333  # xor x6, x6, x7
    .word 0x00537333  # and x6, x6, x5
    .word 0x0063c933  # xor x18, x7, x6
    .word 0x01300a13  # addi x20, x0, 19
    .word 0xfff00b13  # addi x22, x0, -1
    .word 0x001b0b13  # addi x22, x22, 1
    .word 0x002b1d93  # slli x27, x22, 2
    .word 0x002d8db3  # add x27, x27, x2
    .word 0x016902b3  # add x5, x18, x22
    .word 0x00229293  # slli x5, x5, 2
    .word 0x002282b3  # add x5, x5, x2
    .word 0x0a02a283  # lw x5, 160(x5)
    .word 0x014282b3  # add x5, x5, x20
    .word 0x0142ba33  # sltu x20, x5, x20
    .word 0xffab0293  # addi x5, x22, -6
    .word 0xfc029ce3  # bne x5, x0, -40
    .word 0x00291293  # slli x5, x18, 2
    .word 0x002282b3  # add x5, x5, x2
    .word 0x0bc2a283  # lw x5, 188(x5)
    .word 0x014282b3  # add x5, x5, x20
    .word 0x41f2d293  # srai x5, x5, 31
    .word 0x0132fa13  # andi x20, x5, 19
    .word 0xfff00b13  # addi x22, x0, -1
    .word 0x001b0b13  # addi x22, x22, 1
    .word 0x002b1d93  # slli x27, x22, 2
    .word 0x002d8db3  # add x27, x27, x2
    .word 0x016902b3  # add x5, x18, x22
    .word 0x00229293  # slli x5, x5, 2
    .word 0x002282b3  # add x5, x5, x2
    .word 0x0a02a283  # lw x5, 160(x5)
    .word 0x01428ab3  # add x21, x5, x20
    .word 0x014aba33  # sltu x20, x21, x20
    .word 0x016902b3  # add x5, x18, x22
    .word 0x00229293  # slli x5, x5, 2
    .word 0x002282b3  # add x5, x5, x2
    .word 0x0b52a023  # sw x21, 160(x5)
    .word 0xff9b0293  # addi x5, x22, -7
    .word 0xfc0294e3  # bne x5, x0, -56
    .word 0x00291313  # slli x6, x18, 2
    .word 0x00230333  # add x6, x6, x2
    .word 0x0bc32303  # lw x6, 188(x6)
    .word 0x01937333  # and x6, x6, x25
    .word 0x00291293  # slli x5, x18, 2
    .word 0x002282b3  # add x5, x5, x2
    .word 0x0a62ae23  # sw x6, 188(x5)
    .word 0x00001e37  # lui x28, 0x00001
    .word 0x002e0e33  # add x28, x28, x2
    .word 0x8a0e2023  # sw x0, -1888(x28)
    .word 0x79412283  # lw x5, 1940(x2)
    .word 0x0012b293  # sltiu x5, x5, 1
    .word 0x00800313  # addi x6, x0, 8
    .word 0x405002b3  # sub x5, x0, x5
    .word 0x005372b3  # and x5, x6, x5
    .word 0x00001e37  # lui x28, 0x00001
    .word 0x002e0e33  # add x28, x28, x2
    .word 0x8a5e2223  # sw x5, -1884(x28)
    .word 0x00001337  # lui x6, 0x00001
    .word 0x00230333  # add x6, x6, x2
    .word 0x8a032303  # lw x6, -1888(x6)
    .word 0x000012b7  # lui x5, 0x00001
    .word 0x002282b3  # add x5, x5, x2
    .word 0x8a42a283  # lw x5, -1884(x5)
    .word 0x005332b3  # sltu x5, x6, x5
    .word 0x00029463  # bne x5, x0, 8
    .word 0x04c0006f  # jal x0, 76
    .word 0x00001e37  # lui x28, 0x00001
    .word 0x002e0e33  # add x28, x28, x2
    .word 0x886e2223  # sw x6, -1916(x28)
    .word 0x00130313  # addi x6, x6, 1
    .word 0x00001e37  # lui x28, 0x00001
    .word 0x002e0e33  # add x28, x28, x2
    .word 0x8a6e2023  # sw x6, -1888(x28)
    .word 0x79012283  # lw x5, 1936(x2)
    .word 0x00001337  # lui x6, 0x00001
    .word 0x00230333  # add x6, x6, x2
    .word 0x88432303  # lw x6, -1916(x6)
    .word 0x04830313  # addi x6, x6, 72
    .word 0x00231313  # slli x6, x6, 2
    .word 0x00230333  # add x6, x6, x2
    .word 0x0a032303  # lw x6, 160(x6)
    .word 0x0062e2b3  # or x5, x5, x6
    .word 0x78512823  # sw x5, 1936(x2)
    .word 0xf99ff06f  # jal x0, -104
    .word 0x79412283  # lw x5, 1940(x2)
    .word 0x0012b293  # sltiu x5, x5, 1
    .word 0x02000313  # addi x6, x0, 32
    .word 0x405002b3  # sub x5, x0, x5
    .word 0x00537933  # and x18, x6, x5
    .word 0x00001e37  # lui x28, 0x00001
    .word 0x002e0e33  # add x28, x28, x2
    .word 0x8a0e2023  # sw x0, -1888(x28)
    .word 0x79412283  # lw x5, 1940(x2)
    .word 0x0082b293  # sltiu x5, x5, 8
    .word 0x02000313  # addi x6, x0, 32
    .word 0x405002b3  # sub x5, x0, x5
    .word 0x005372b3  # and x5, x6, x5
    .word 0x00001e37  # lui x28, 0x00001
    .word 0x002e0e33  # add x28, x28, x2
    .word 0x8a5e2223  # sw x5, -1884(x28)
    .word 0x00001337  # lui x6, 0x00001
    .word 0x00230333  # add x6, x6, x2
    .word 0x8a032303  # lw x6, -1888(x6)
    .word 0x000012b7  # lui x5, 0x00001
    .word 0x002282b3  # add x5, x5, x2
    .word 0x8a42a283  # lw x5, -1884(x5)
    .word 0x005332b3  # sltu x5, x6, x5
    .word 0x00029463  # bne x5, x0, 8
    .word 0x0980006f  # jal x0, 152
    .word 0x00001e37  # lui x28, 0x00001
    .word 0x002e0e33  # add x28, x28, x2
    .word 0x886e2423  # sw x6, -1912(x28)
    .word 0x00130313  # addi x6, x6, 1
    .word 0x00001e37  # lui x28, 0x00001
    .word 0x002e0e33  # add x28, x28, x2
    .word 0x8a6e2023  # sw x6, -1888(x28)
    .word 0x000012b7  # lui x5, 0x00001
    .word 0x002282b3  # add x5, x5, x2
    .word 0x8882a283  # lw x5, -1912(x5)
    .word 0x000013b7  # lui x7, 0x00001
    .word 0x002383b3  # add x7, x7, x2
    .word 0x8883a383  # lw x7, -1912(x7)
    .word 0x00790333  # add x6, x18, x7
    .word 0x00231313  # slli x6, x6, 2
    .word 0x00230333  # add x6, x6, x2
    .word 0x0a032303  # lw x6, 160(x6)
    .word 0x00229293  # slli x5, x5, 2
    .word 0x002282b3  # add x5, x5, x2
    .word 0x0a62a023  # sw x6, 160(x5)
    .word 0x000012b7  # lui x5, 0x00001
    .word 0x002282b3  # add x5, x5, x2
    .word 0x8882a283  # lw x5, -1912(x5)
    .word 0x00329293  # slli x5, x5, 3
    .word 0x79412303  # lw x6, 1940(x2)
    .word 0x00737313  # andi x6, x6, 7
    .word 0x006282b3  # add x5, x5, x6
    .word 0x00001337  # lui x6, 0x00001
    .word 0x00230333  # add x6, x6, x2
    .word 0x88832303  # lw x6, -1912(x6)
    .word 0x00231313  # slli x6, x6, 2
    .word 0x00230333  # add x6, x6, x2
    .word 0x0a032303  # lw x6, 160(x6)
    .word 0x00229293  # slli x5, x5, 2
    .word 0x002282b3  # add x5, x5, x2
    .word 0x2c62a023  # sw x6, 704(x5)
    .word 0xf4dff06f  # jal x0, -180
    .word 0x00001e37  # lui x28, 0x00001
    .word 0x002e0e33  # add x28, x28, x2
    .word 0x8a0e2023  # sw x0, -1888(x28)
    .word 0x79412283  # lw x5, 1940(x2)
    .word 0xeab28293  # addi x5, x5, -341
    .word 0x005032b3  # sltu x5, x0, x5
    .word 0x01000313  # addi x6, x0, 16
    .word 0xfff28293  # addi x5, x5, -1
    .word 0x005372b3  # and x5, x6, x5
    .word 0x00001e37  # lui x28, 0x00001
    .word 0x002e0e33  # add x28, x28, x2
    .word 0x8a5e2223  # sw x5, -1884(x28)
    .word 0x00001337  # lui x6, 0x00001
    .word 0x00230333  # add x6, x6, x2
    .word 0x8a032303  # lw x6, -1888(x6)
    .word 0x000012b7  # lui x5, 0x00001
    .word 0x002282b3  # add x5, x5, x2
    .word 0x8a42a283  # lw x5, -1884(x5)
    .word 0x005332b3  # sltu x5, x6, x5
    .word 0x00029463  # bne x5, x0, 8
    .word 0x0740006f  # jal x0, 116
    .word 0x00030c13  # addi x24, x6, 0
    .word 0x79012283  # lw x5, 1936(x2)
    .word 0x0012b293  # sltiu x5, x5, 1
    .word 0x002c1313  # slli x6, x24, 2
    .word 0x00230333  # add x6, x6, x2
    .word 0x0a032303  # lw x6, 160(x6)
    .word 0x405002b3  # sub x5, x0, x5
    .word 0x00537a33  # and x20, x6, x5
    .word 0xfff00b13  # addi x22, x0, -1
    .word 0x001b0b13  # addi x22, x22, 1
    .word 0x002b1d93  # slli x27, x22, 2
    .word 0x002d8db3  # add x27, x27, x2
    .word 0x002c1293  # slli x5, x24, 2
    .word 0x016282b3  # add x5, x5, x22
    .word 0x003b1393  # slli x7, x22, 3
    .word 0x007a5333  # srl x6, x20, x7
    .word 0x002282b3  # add x5, x5, x2
    .word 0x06628023  # sb x6, 96(x5)
    .word 0xffdb0293  # addi x5, x22, -3
    .word 0xfc029ce3  # bne x5, x0, -40
    .word 0x001c0c13  # addi x24, x24, 1
    .word 0x000012b7  # lui x5, 0x00001
    .word 0x002282b3  # add x5, x5, x2
    .word 0x8a42a283  # lw x5, -1884(x5)
    .word 0x005c32b3  # sltu x5, x24, x5
    .word 0xfa0290e3  # bne x5, x0, -96
    .word 0xfffc0c13  # addi x24, x24, -1
    .word 0x0040006f  # jal x0, 4
    .word 0xc71fe06f  # jal x0, -5008
    .word 0x79012283  # lw x5, 1936(x2)
    .word 0x0012b293  # sltiu x5, x5, 1
    .word 0x00001e37  # lui x28, 0x00001
    .word 0x002e0e33  # add x28, x28, x2
    .word 0x885e2a23  # sw x5, -1900(x28)
    # the result
    .word 0x00001537  # lui x10, 0x00001
    .word 0x00250533  # add x10, x10, x2
    .word 0x89452503  # lw x10, -1900(x10)
    # parameter 2: the array, back
    .word 0x06010293  # addi x5, x2, 96
    .word 0x00001337  # lui x6, 0x00001
    .word 0x00230333  # add x6, x6, x2
    .word 0x8fc32303  # lw x6, -1796(x6)
    .word 0x04028393  # addi x7, x5, 64
    .word 0x0002ce03  # lbu x28, 0(x5)
    .word 0x01c30023  # sb x28, 0(x6)
    .word 0x00128293  # addi x5, x5, 1
    .word 0x00130313  # addi x6, x6, 1
    .word 0xfe7298e3  # bne x5, x7, -16
    # above the frame
    .word 0x000012b7  # lui x5, 0x00001
    .word 0x8c028293  # addi x5, x5, -1856
    .word 0x002282b3  # add x5, x5, x2
    # the caller's registers
    .word 0x0002a403  # lw x8, 0(x5)
    .cfi_restore 8
    .word 0x0042a483  # lw x9, 4(x5)
    .cfi_restore 9
    .word 0x0082a903  # lw x18, 8(x5)
    .cfi_restore 18
    .word 0x00c2a983  # lw x19, 12(x5)
    .cfi_restore 19
    .word 0x0102aa03  # lw x20, 16(x5)
    .cfi_restore 20
    .word 0x0142aa83  # lw x21, 20(x5)
    .cfi_restore 21
    .word 0x0182ab03  # lw x22, 24(x5)
    .cfi_restore 22
    .word 0x01c2ab83  # lw x23, 28(x5)
    .cfi_restore 23
    .word 0x0202ac03  # lw x24, 32(x5)
    .cfi_restore 24
    .word 0x0242ac83  # lw x25, 36(x5)
    .cfi_restore 25
    .word 0x0282ad03  # lw x26, 40(x5)
    .cfi_restore 26
    .word 0x02c2ad83  # lw x27, 44(x5)
    .cfi_restore 27
    # the caller's x2
    .word 0x04028293  # addi x5, x5, 64
    .cfi_def_cfa 5, 0
    # on to the tail that functions share
    jal x0, factc.tail.1
    .cfi_endproc
    .size ed25519_scalar_multiply, . - ed25519_scalar_multiply
    .section .text.factc.tail.1, "axG", @progbits, factc.tail.1, comdat
    .p2align 2
    .globl factc.tail.1
    .hidden factc.tail.1
    .type factc.tail.1, @function
factc.tail.1:
    .cfi_startproc
    .cfi_def_cfa 5, 0
    # all the room, wiped upward
    .word 0x00012023  # sw x0, 0(x2)
    .word 0x00012223  # sw x0, 4(x2)
    .word 0x00012423  # sw x0, 8(x2)
    .word 0x00012623  # sw x0, 12(x2)
    .word 0x01010113  # addi x2, x2, 16
    .word 0xfe5116e3  # bne x2, x5, -20
    .cfi_def_cfa 2, 0
    # temporaries, wiped
    .word 0x00000293  # addi x5, x0, 0
    .word 0x00000313  # addi x6, x0, 0
    .word 0x00000393  # addi x7, x0, 0
    .word 0x00000593  # addi x11, x0, 0
    .word 0x00000613  # addi x12, x0, 0
    .word 0x00000693  # addi x13, x0, 0
    .word 0x00000713  # addi x14, x0, 0
    .word 0x00000793  # addi x15, x0, 0
    .word 0x00000813  # addi x16, x0, 0
    .word 0x00000893  # addi x17, x0, 0
    .word 0x00000e13  # addi x28, x0, 0
    .word 0x00000e93  # addi x29, x0, 0
    .word 0x00000f13  # addi x30, x0, 0
    .word 0x00000f93  # addi x31, x0, 0
    # back
    .word 0x00008067  # jalr x0, 0(x1)
    .cfi_endproc
    .size factc.tail.1, . - factc.tail.1
    .option pop
