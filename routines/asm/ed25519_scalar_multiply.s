# ed25519_scalar_multiply: made by factc 1.0.0 function; 2156 words, 2096 bytes of stack, profile 1
    .option push
    .option norvc
    .option norelax
    .cfi_sections .debug_frame
    .section .text.ed25519_scalar_multiply, "ax", @progbits
    .p2align 2
    .globl ed25519_scalar_multiply
    .type ed25519_scalar_multiply, @function
ed25519_scalar_multiply:
    .cfi_startproc
    # room above the frame
    .word 0xfc010113  # addi x2, x2, -64
    .cfi_def_cfa_offset 64
    # the caller's registers
    .word 0x00812023  # sw x8, 0(x2)
    .cfi_offset 8, -64
    .word 0x00912223  # sw x9, 4(x2)
    .cfi_offset 9, -60
    .word 0x01212423  # sw x18, 8(x2)
    .cfi_offset 18, -56
    .word 0x01312623  # sw x19, 12(x2)
    .cfi_offset 19, -52
    .word 0x01412823  # sw x20, 16(x2)
    .cfi_offset 20, -48
    .word 0x01512a23  # sw x21, 20(x2)
    .cfi_offset 21, -44
    .word 0x01612c23  # sw x22, 24(x2)
    .cfi_offset 22, -40
    .word 0x01712e23  # sw x23, 28(x2)
    .cfi_offset 23, -36
    .word 0x03812023  # sw x24, 32(x2)
    .cfi_offset 24, -32
    .word 0x03912223  # sw x25, 36(x2)
    .cfi_offset 25, -28
    .word 0x03a12423  # sw x26, 40(x2)
    .cfi_offset 26, -24
    .word 0x03b12623  # sw x27, 44(x2)
    .cfi_offset 27, -20
    # arguments that are needed behind the body
    .word 0x02a12a23  # sw x10, 52(x2)
    .word 0x02b12c23  # sw x11, 56(x2)
    .word 0x02c12e23  # sw x12, 60(x2)
    # the frame's base
    .word 0x81010113  # addi x2, x2, -2032
    .cfi_def_cfa 2, 2096
    # parameter 0: an array
    .word 0x00050293  # addi x5, x10, 0
    .word 0x00010313  # addi x6, x2, 0
    .word 0x02028393  # addi x7, x5, 32
    .word 0x10c02f6f  # jal x30, 8460
    # parameter 1: an array
    .word 0x00058293  # addi x5, x11, 0
    .word 0x02010313  # addi x6, x2, 32
    .word 0x04028393  # addi x7, x5, 64
    .word 0x0fc02f6f  # jal x30, 8444
    # parameter 2: an array
    .word 0x00060293  # addi x5, x12, 0
    .word 0x06010313  # addi x6, x2, 96
    .word 0x04028393  # addi x7, x5, 64
    .word 0x0ec02f6f  # jal x30, 8428
    # the body
    .word 0x800002b7  # lui x5, 0x80000
    .word 0xfff28293  # addi x5, x5, -1
    .word 0x7c512023  # sw x5, 1984(x2)
    .word 0x000012b7  # lui x5, 0x00001
    .word 0xf0f28293  # addi x5, x5, -241
    .word 0x7c512223  # sw x5, 1988(x2)
    .word 0x000012b7  # lui x5, 0x00001
    .word 0xf0028293  # addi x5, x5, -256
    .word 0x7c512423  # sw x5, 1992(x2)
    .word 0x0a000313  # addi x6, x0, 160
    .word 0x00230333  # add x6, x6, x2
    .word 0x20000393  # addi x7, x0, 512
    .word 0x006383b3  # add x7, x7, x6
    .word 0x406382b3  # sub x5, x7, x6
    .word 0x00029463  # bne x5, x0, 8
    .word 0x0100006f  # jal x0, 16
    .word 0x00032023  # sw x0, 0(x6)
    .word 0x00430313  # addi x6, x6, 4
    .word 0xfedff06f  # jal x0, -20
    .word 0x2a000313  # addi x6, x0, 672
    .word 0x00230333  # add x6, x6, x2
    .word 0x02000393  # addi x7, x0, 32
    .word 0x006383b3  # add x7, x7, x6
    .word 0x406382b3  # sub x5, x7, x6
    .word 0x00029463  # bne x5, x0, 8
    .word 0x0100006f  # jal x0, 16
    .word 0x00032023  # sw x0, 0(x6)
    .word 0x00430313  # addi x6, x6, 4
    .word 0xfedff06f  # jal x0, -20
    .word 0x2c000313  # addi x6, x0, 704
    .word 0x00230333  # add x6, x6, x2
    .word 0x40000393  # addi x7, x0, 1024
    .word 0x006383b3  # add x7, x7, x6
    .word 0x406382b3  # sub x5, x7, x6
    .word 0x00029463  # bne x5, x0, 8
    .word 0x0100006f  # jal x0, 16
    .word 0x00032023  # sw x0, 0(x6)
    .word 0x00430313  # addi x6, x6, 4
    .word 0xfedff06f  # jal x0, -20
    .word 0x6c000313  # addi x6, x0, 1728
    .word 0x00230333  # add x6, x6, x2
    .word 0x02000393  # addi x7, x0, 32
    .word 0x006383b3  # add x7, x7, x6
    .word 0x406382b3  # sub x5, x7, x6
    .word 0x00029463  # bne x5, x0, 8
    .word 0x0100006f  # jal x0, 16
    .word 0x00032023  # sw x0, 0(x6)
    .word 0x00430313  # addi x6, x6, 4
    .word 0xfedff06f  # jal x0, -20
    .word 0x74500293  # addi x5, x0, 1861
    .word 0x6e511023  # sh x5, 1760(x2)
    .word 0x000012b7  # lui x5, 0x00001
    .word 0x94428293  # addi x5, x5, -1724
    .word 0x6e511123  # sh x5, 1762(x2)
    .word 0x000012b7  # lui x5, 0x00001
    .word 0xa5528293  # addi x5, x5, -1451
    .word 0x6e511223  # sh x5, 1764(x2)
    .word 0x000012b7  # lui x5, 0x00001
    .word 0xb9a28293  # addi x5, x5, -1126
    .word 0x6e511323  # sh x5, 1766(x2)
    .word 0x000012b7  # lui x5, 0x00001
    .word 0xbb828293  # addi x5, x5, -1096
    .word 0x6e511423  # sh x5, 1768(x2)
    .word 0x000032b7  # lui x5, 0x00003
    .word 0xca928293  # addi x5, x5, -855
    .word 0x6e511523  # sh x5, 1770(x2)
    .word 0x000012b7  # lui x5, 0x00001
    .word 0xcc628293  # addi x5, x5, -826
    .word 0x6e511623  # sh x5, 1772(x2)
    .word 0x000022b7  # lui x5, 0x00002
    .word 0xccc28293  # addi x5, x5, -820
    .word 0x6e511723  # sh x5, 1774(x2)
    .word 0x000022b7  # lui x5, 0x00002
    .word 0xbb628293  # addi x5, x5, -1098
    .word 0x6e511823  # sh x5, 1776(x2)
    .word 0x000022b7  # lui x5, 0x00002
    .word 0xbb628293  # addi x5, x5, -1098
    .word 0x6e511923  # sh x5, 1778(x2)
    .word 0x000032b7  # lui x5, 0x00003
    .word 0x9cb28293  # addi x5, x5, -1589
    .word 0x6e511a23  # sh x5, 1780(x2)
    .word 0x000012b7  # lui x5, 0x00001
    .word 0x99628293  # addi x5, x5, -1642
    .word 0x6e511b23  # sh x5, 1782(x2)
    .word 0x000032b7  # lui x5, 0x00003
    .word 0x91028293  # addi x5, x5, -1776
    .word 0x6e511c23  # sh x5, 1784(x2)
    .word 0x000032b7  # lui x5, 0x00003
    .word 0xa5428293  # addi x5, x5, -1452
    .word 0x6e511d23  # sh x5, 1786(x2)
    .word 0x000012b7  # lui x5, 0x00001
    .word 0x99a28293  # addi x5, x5, -1638
    .word 0x6e511e23  # sh x5, 1788(x2)
    .word 0x000022b7  # lui x5, 0x00002
    .word 0xa1028293  # addi x5, x5, -1520
    .word 0x6e511f23  # sh x5, 1790(x2)
    .word 0x000022b7  # lui x5, 0x00002
    .word 0xb5428293  # addi x5, x5, -1196
    .word 0x70511023  # sh x5, 1792(x2)
    .word 0x000012b7  # lui x5, 0x00001
    .word 0xaab28293  # addi x5, x5, -1365
    .word 0x70511123  # sh x5, 1794(x2)
    .word 0x000012b7  # lui x5, 0x00001
    .word 0xb3728293  # addi x5, x5, -1225
    .word 0x70511223  # sh x5, 1796(x2)
    .word 0x000012b7  # lui x5, 0x00001
    .word 0xbb828293  # addi x5, x5, -1096
    .word 0x70511323  # sh x5, 1798(x2)
    .word 0x000012b7  # lui x5, 0x00001
    .word 0xc2628293  # addi x5, x5, -986
    .word 0x70511423  # sh x5, 1800(x2)
    .word 0x000022b7  # lui x5, 0x00002
    .word 0xccc28293  # addi x5, x5, -820
    .word 0x70511523  # sh x5, 1802(x2)
    .word 0x000032b7  # lui x5, 0x00003
    .word 0xda928293  # addi x5, x5, -599
    .word 0x70511623  # sh x5, 1804(x2)
    .word 0x000032b7  # lui x5, 0x00003
    .word 0xecb28293  # addi x5, x5, -309
    .word 0x70511723  # sh x5, 1806(x2)
    .word 0x000022b7  # lui x5, 0x00002
    .word 0xccb28293  # addi x5, x5, -821
    .word 0x70511823  # sh x5, 1808(x2)
    .word 0x000022b7  # lui x5, 0x00002
    .word 0xaa928293  # addi x5, x5, -1367
    .word 0x70511923  # sh x5, 1810(x2)
    .word 0x0de00293  # addi x5, x0, 222
    .word 0x70511a23  # sh x5, 1812(x2)
    .word 0x1ca00293  # addi x5, x0, 458
    .word 0x70511b23  # sh x5, 1814(x2)
    .word 0x2ec00293  # addi x5, x0, 748
    .word 0x70511c23  # sh x5, 1816(x2)
    .word 0x3da00293  # addi x5, x0, 986
    .word 0x70511d23  # sh x5, 1818(x2)
    .word 0x000012b7  # lui x5, 0x00001
    .word 0x90028293  # addi x5, x5, -1792
    .word 0x70511e23  # sh x5, 1820(x2)
    .word 0x000012b7  # lui x5, 0x00001
    .word 0xa1128293  # addi x5, x5, -1519
    .word 0x70511f23  # sh x5, 1822(x2)
    .word 0x000012b7  # lui x5, 0x00001
    .word 0xb2228293  # addi x5, x5, -1246
    .word 0x72511023  # sh x5, 1824(x2)
    .word 0x000022b7  # lui x5, 0x00002
    .word 0xbbb28293  # addi x5, x5, -1093
    .word 0x72511123  # sh x5, 1826(x2)
    .word 0x000022b7  # lui x5, 0x00002
    .word 0xc0128293  # addi x5, x5, -1023
    .word 0x72511223  # sh x5, 1828(x2)
    .word 0x000012b7  # lui x5, 0x00001
    .word 0xccc28293  # addi x5, x5, -820
    .word 0x72511323  # sh x5, 1830(x2)
    .word 0x000022b7  # lui x5, 0x00002
    .word 0xd9a28293  # addi x5, x5, -614
    .word 0x72511423  # sh x5, 1832(x2)
    .word 0x000032b7  # lui x5, 0x00003
    .word 0xcdc28293  # addi x5, x5, -804
    .word 0x72511523  # sh x5, 1834(x2)
    .word 0x000032b7  # lui x5, 0x00003
    .word 0x99a28293  # addi x5, x5, -1638
    .word 0x72511623  # sh x5, 1836(x2)
    .word 0x000022b7  # lui x5, 0x00002
    .word 0xbb928293  # addi x5, x5, -1095
    .word 0x72511723  # sh x5, 1838(x2)
    .word 0x0cb00293  # addi x5, x0, 203
    .word 0x72511823  # sh x5, 1840(x2)
    .word 0x19d00293  # addi x5, x0, 413
    .word 0x72511923  # sh x5, 1842(x2)
    .word 0x2b900293  # addi x5, x0, 697
    .word 0x72511a23  # sh x5, 1844(x2)
    .word 0x3cd00293  # addi x5, x0, 973
    .word 0x72511b23  # sh x5, 1846(x2)
    .word 0x000042b7  # lui x5, 0x00004
    .word 0x92228293  # addi x5, x5, -1758
    .word 0x72512c23  # sw x5, 1848(x2)
    .word 0x000022b7  # lui x5, 0x00002
    .word 0xa2928293  # addi x5, x5, -1495
    .word 0x72512e23  # sw x5, 1852(x2)
    .word 0x000022b7  # lui x5, 0x00002
    .word 0xda928293  # addi x5, x5, -599
    .word 0x74512023  # sw x5, 1856(x2)
    .word 0x000062b7  # lui x5, 0x00006
    .word 0xbdd28293  # addi x5, x5, -1059
    .word 0x74512223  # sw x5, 1860(x2)
    .word 0x0000b2b7  # lui x5, 0x0000b
    .word 0xdbb28293  # addi x5, x5, -581
    .word 0x74512423  # sw x5, 1864(x2)
    .word 0x000152b7  # lui x5, 0x00015
    .word 0xddd28293  # addi x5, x5, -547
    .word 0x74512623  # sw x5, 1868(x2)
    .word 0x0000b2b7  # lui x5, 0x0000b
    .word 0xcdb28293  # addi x5, x5, -805
    .word 0x74512823  # sw x5, 1872(x2)
    .word 0x000332b7  # lui x5, 0x00033
    .word 0xdcc28293  # addi x5, x5, -564
    .word 0x74512a23  # sw x5, 1876(x2)
    .word 0x000652b7  # lui x5, 0x00065
    .word 0xddd28293  # addi x5, x5, -547
    .word 0x74512c23  # sw x5, 1880(x2)
    .word 0x000332b7  # lui x5, 0x00033
    .word 0xddc28293  # addi x5, x5, -548
    .word 0x74512e23  # sw x5, 1884(x2)
    .word 0x000062b7  # lui x5, 0x00006
    .word 0xdda28293  # addi x5, x5, -550
    .word 0x76512023  # sw x5, 1888(x2)
    .word 0x00d00293  # addi x5, x0, 13
    .word 0x76512223  # sw x5, 1892(x2)
    .word 0x11d00293  # addi x5, x0, 285
    .word 0x76512423  # sw x5, 1896(x2)
    .word 0x26b2f2b7  # lui x5, 0x26b2f
    .word 0x15928293  # addi x5, x5, 345
    .word 0x1a512023  # sw x5, 416(x2)
    .word 0xebd6a2b7  # lui x5, 0xebd6a
    .word 0xb9428293  # addi x5, x5, -1132
    .word 0x1a512223  # sw x5, 420(x2)
    .word 0x8283b2b7  # lui x5, 0x8283b
    .word 0x15628293  # addi x5, x5, 342
    .word 0x1a512423  # sw x5, 424(x2)
    .word 0x00e012b7  # lui x5, 0x00e01
    .word 0x49a28293  # addi x5, x5, 1178
    .word 0x1a512623  # sw x5, 428(x2)
    .word 0xeef3d2b7  # lui x5, 0xeef3d
    .word 0x13028293  # addi x5, x5, 304
    .word 0x1a512823  # sw x5, 432(x2)
    .word 0x198e82b7  # lui x5, 0x198e8
    .word 0x0f228293  # addi x5, x5, 242
    .word 0x1a512a23  # sw x5, 436(x2)
    .word 0x56e002b7  # lui x5, 0x56e00
    .word 0xce728293  # addi x5, x5, -793
    .word 0x1a512c23  # sw x5, 440(x2)
    .word 0x2406e2b7  # lui x5, 0x2406e
    .word 0x9dc28293  # addi x5, x5, -1572
    .word 0x1a512e23  # sw x5, 444(x2)
    .word 0x00100293  # addi x5, x0, 1
    .word 0x16512023  # sw x5, 352(x2)
    .word 0x00014283  # lbu x5, 0(x2)
    .word 0x08828813  # addi x16, x5, 136
    .word 0x6d010023  # sb x16, 1728(x2)
    .word 0x00885293  # srli x5, x16, 8
    .word 0x76512623  # sw x5, 1900(x2)
    .word 0x00114283  # lbu x5, 1(x2)
    .word 0x76c12303  # lw x6, 1900(x2)
    .word 0x006282b3  # add x5, x5, x6
    .word 0x08828813  # addi x16, x5, 136
    .word 0x6d0100a3  # sb x16, 1729(x2)
    .word 0x00885293  # srli x5, x16, 8
    .word 0x76512623  # sw x5, 1900(x2)
    .word 0x00214283  # lbu x5, 2(x2)
    .word 0x76c12303  # lw x6, 1900(x2)
    .word 0x006282b3  # add x5, x5, x6
    .word 0x08828813  # addi x16, x5, 136
    .word 0x6d010123  # sb x16, 1730(x2)
    .word 0x00885293  # srli x5, x16, 8
    .word 0x76512623  # sw x5, 1900(x2)
    .word 0x00314283  # lbu x5, 3(x2)
    .word 0x76c12303  # lw x6, 1900(x2)
    .word 0x006282b3  # add x5, x5, x6
    .word 0x08828813  # addi x16, x5, 136
    .word 0x6d0101a3  # sb x16, 1731(x2)
    .word 0x00885293  # srli x5, x16, 8
    .word 0x76512623  # sw x5, 1900(x2)
    .word 0x00414283  # lbu x5, 4(x2)
    .word 0x76c12303  # lw x6, 1900(x2)
    .word 0x006282b3  # add x5, x5, x6
    .word 0x08828813  # addi x16, x5, 136
    .word 0x6d010223  # sb x16, 1732(x2)
    .word 0x00885293  # srli x5, x16, 8
    .word 0x76512623  # sw x5, 1900(x2)
    .word 0x00514283  # lbu x5, 5(x2)
    .word 0x76c12303  # lw x6, 1900(x2)
    .word 0x006282b3  # add x5, x5, x6
    .word 0x08828813  # addi x16, x5, 136
    .word 0x6d0102a3  # sb x16, 1733(x2)
    .word 0x00885293  # srli x5, x16, 8
    .word 0x76512623  # sw x5, 1900(x2)
    .word 0x00614283  # lbu x5, 6(x2)
    .word 0x76c12303  # lw x6, 1900(x2)
    .word 0x006282b3  # add x5, x5, x6
    .word 0x08828813  # addi x16, x5, 136
    .word 0x6d010323  # sb x16, 1734(x2)
    .word 0x00885293  # srli x5, x16, 8
    .word 0x76512623  # sw x5, 1900(x2)
    .word 0x00714283  # lbu x5, 7(x2)
    .word 0x76c12303  # lw x6, 1900(x2)
    .word 0x006282b3  # add x5, x5, x6
    .word 0x08828813  # addi x16, x5, 136
    .word 0x6d0103a3  # sb x16, 1735(x2)
    .word 0x00885293  # srli x5, x16, 8
    .word 0x76512623  # sw x5, 1900(x2)
    .word 0x00814283  # lbu x5, 8(x2)
    .word 0x76c12303  # lw x6, 1900(x2)
    .word 0x006282b3  # add x5, x5, x6
    .word 0x08828813  # addi x16, x5, 136
    .word 0x6d010423  # sb x16, 1736(x2)
    .word 0x00885293  # srli x5, x16, 8
    .word 0x76512623  # sw x5, 1900(x2)
    .word 0x00914283  # lbu x5, 9(x2)
    .word 0x76c12303  # lw x6, 1900(x2)
    .word 0x006282b3  # add x5, x5, x6
    .word 0x08828813  # addi x16, x5, 136
    .word 0x6d0104a3  # sb x16, 1737(x2)
    .word 0x00885293  # srli x5, x16, 8
    .word 0x76512623  # sw x5, 1900(x2)
    .word 0x00a14283  # lbu x5, 10(x2)
    .word 0x76c12303  # lw x6, 1900(x2)
    .word 0x006282b3  # add x5, x5, x6
    .word 0x08828813  # addi x16, x5, 136
    .word 0x6d010523  # sb x16, 1738(x2)
    .word 0x00885293  # srli x5, x16, 8
    .word 0x76512623  # sw x5, 1900(x2)
    .word 0x00b14283  # lbu x5, 11(x2)
    .word 0x76c12303  # lw x6, 1900(x2)
    .word 0x006282b3  # add x5, x5, x6
    .word 0x08828813  # addi x16, x5, 136
    .word 0x6d0105a3  # sb x16, 1739(x2)
    .word 0x00885293  # srli x5, x16, 8
    .word 0x76512623  # sw x5, 1900(x2)
    .word 0x00c14283  # lbu x5, 12(x2)
    .word 0x76c12303  # lw x6, 1900(x2)
    .word 0x006282b3  # add x5, x5, x6
    .word 0x08828813  # addi x16, x5, 136
    .word 0x6d010623  # sb x16, 1740(x2)
    .word 0x00885293  # srli x5, x16, 8
    .word 0x76512623  # sw x5, 1900(x2)
    .word 0x00d14283  # lbu x5, 13(x2)
    .word 0x76c12303  # lw x6, 1900(x2)
    .word 0x006282b3  # add x5, x5, x6
    .word 0x08828813  # addi x16, x5, 136
    .word 0x6d0106a3  # sb x16, 1741(x2)
    .word 0x00885293  # srli x5, x16, 8
    .word 0x76512623  # sw x5, 1900(x2)
    .word 0x00e14283  # lbu x5, 14(x2)
    .word 0x76c12303  # lw x6, 1900(x2)
    .word 0x006282b3  # add x5, x5, x6
    .word 0x08828813  # addi x16, x5, 136
    .word 0x6d010723  # sb x16, 1742(x2)
    .word 0x00885293  # srli x5, x16, 8
    .word 0x76512623  # sw x5, 1900(x2)
    .word 0x00f14283  # lbu x5, 15(x2)
    .word 0x76c12303  # lw x6, 1900(x2)
    .word 0x006282b3  # add x5, x5, x6
    .word 0x08828813  # addi x16, x5, 136
    .word 0x6d0107a3  # sb x16, 1743(x2)
    .word 0x00885293  # srli x5, x16, 8
    .word 0x76512623  # sw x5, 1900(x2)
    .word 0x01014283  # lbu x5, 16(x2)
    .word 0x76c12303  # lw x6, 1900(x2)
    .word 0x006282b3  # add x5, x5, x6
    .word 0x08828813  # addi x16, x5, 136
    .word 0x6d010823  # sb x16, 1744(x2)
    .word 0x00885293  # srli x5, x16, 8
    .word 0x76512623  # sw x5, 1900(x2)
    .word 0x01114283  # lbu x5, 17(x2)
    .word 0x76c12303  # lw x6, 1900(x2)
    .word 0x006282b3  # add x5, x5, x6
    .word 0x08828813  # addi x16, x5, 136
    .word 0x6d0108a3  # sb x16, 1745(x2)
    .word 0x00885293  # srli x5, x16, 8
    .word 0x76512623  # sw x5, 1900(x2)
    .word 0x01214283  # lbu x5, 18(x2)
    .word 0x76c12303  # lw x6, 1900(x2)
    .word 0x006282b3  # add x5, x5, x6
    .word 0x08828813  # addi x16, x5, 136
    .word 0x6d010923  # sb x16, 1746(x2)
    .word 0x00885293  # srli x5, x16, 8
    .word 0x76512623  # sw x5, 1900(x2)
    .word 0x01314283  # lbu x5, 19(x2)
    .word 0x76c12303  # lw x6, 1900(x2)
    .word 0x006282b3  # add x5, x5, x6
    .word 0x08828813  # addi x16, x5, 136
    .word 0x6d0109a3  # sb x16, 1747(x2)
    .word 0x00885293  # srli x5, x16, 8
    .word 0x76512623  # sw x5, 1900(x2)
    .word 0x01414283  # lbu x5, 20(x2)
    .word 0x76c12303  # lw x6, 1900(x2)
    .word 0x006282b3  # add x5, x5, x6
    .word 0x08828813  # addi x16, x5, 136
    .word 0x6d010a23  # sb x16, 1748(x2)
    .word 0x00885293  # srli x5, x16, 8
    .word 0x76512623  # sw x5, 1900(x2)
    .word 0x01514283  # lbu x5, 21(x2)
    .word 0x76c12303  # lw x6, 1900(x2)
    .word 0x006282b3  # add x5, x5, x6
    .word 0x08828813  # addi x16, x5, 136
    .word 0x6d010aa3  # sb x16, 1749(x2)
    .word 0x00885293  # srli x5, x16, 8
    .word 0x76512623  # sw x5, 1900(x2)
    .word 0x01614283  # lbu x5, 22(x2)
    .word 0x76c12303  # lw x6, 1900(x2)
    .word 0x006282b3  # add x5, x5, x6
    .word 0x08828813  # addi x16, x5, 136
    .word 0x6d010b23  # sb x16, 1750(x2)
    .word 0x00885293  # srli x5, x16, 8
    .word 0x76512623  # sw x5, 1900(x2)
    .word 0x01714283  # lbu x5, 23(x2)
    .word 0x76c12303  # lw x6, 1900(x2)
    .word 0x006282b3  # add x5, x5, x6
    .word 0x08828813  # addi x16, x5, 136
    .word 0x6d010ba3  # sb x16, 1751(x2)
    .word 0x00885293  # srli x5, x16, 8
    .word 0x76512623  # sw x5, 1900(x2)
    .word 0x01814283  # lbu x5, 24(x2)
    .word 0x76c12303  # lw x6, 1900(x2)
    .word 0x006282b3  # add x5, x5, x6
    .word 0x08828813  # addi x16, x5, 136
    .word 0x6d010c23  # sb x16, 1752(x2)
    .word 0x00885293  # srli x5, x16, 8
    .word 0x76512623  # sw x5, 1900(x2)
    .word 0x01914283  # lbu x5, 25(x2)
    .word 0x76c12303  # lw x6, 1900(x2)
    .word 0x006282b3  # add x5, x5, x6
    .word 0x08828813  # addi x16, x5, 136
    .word 0x6d010ca3  # sb x16, 1753(x2)
    .word 0x00885293  # srli x5, x16, 8
    .word 0x76512623  # sw x5, 1900(x2)
    .word 0x01a14283  # lbu x5, 26(x2)
    .word 0x76c12303  # lw x6, 1900(x2)
    .word 0x006282b3  # add x5, x5, x6
    .word 0x08828813  # addi x16, x5, 136
    .word 0x6d010d23  # sb x16, 1754(x2)
    .word 0x00885293  # srli x5, x16, 8
    .word 0x76512623  # sw x5, 1900(x2)
    .word 0x01b14283  # lbu x5, 27(x2)
    .word 0x76c12303  # lw x6, 1900(x2)
    .word 0x006282b3  # add x5, x5, x6
    .word 0x08828813  # addi x16, x5, 136
    .word 0x6d010da3  # sb x16, 1755(x2)
    .word 0x00885293  # srli x5, x16, 8
    .word 0x76512623  # sw x5, 1900(x2)
    .word 0x01c14283  # lbu x5, 28(x2)
    .word 0x76c12303  # lw x6, 1900(x2)
    .word 0x006282b3  # add x5, x5, x6
    .word 0x08828813  # addi x16, x5, 136
    .word 0x6d010e23  # sb x16, 1756(x2)
    .word 0x00885293  # srli x5, x16, 8
    .word 0x76512623  # sw x5, 1900(x2)
    .word 0x01d14283  # lbu x5, 29(x2)
    .word 0x76c12303  # lw x6, 1900(x2)
    .word 0x006282b3  # add x5, x5, x6
    .word 0x08828813  # addi x16, x5, 136
    .word 0x6d010ea3  # sb x16, 1757(x2)
    .word 0x00885293  # srli x5, x16, 8
    .word 0x76512623  # sw x5, 1900(x2)
    .word 0x01e14283  # lbu x5, 30(x2)
    .word 0x76c12303  # lw x6, 1900(x2)
    .word 0x006282b3  # add x5, x5, x6
    .word 0x08828813  # addi x16, x5, 136
    .word 0x6d010f23  # sb x16, 1758(x2)
    .word 0x00885293  # srli x5, x16, 8
    .word 0x76512623  # sw x5, 1900(x2)
    .word 0x01f14283  # lbu x5, 31(x2)
    .word 0x76c12303  # lw x6, 1900(x2)
    .word 0x006282b3  # add x5, x5, x6
    .word 0x08828813  # addi x16, x5, 136
    .word 0x6d010fa3  # sb x16, 1759(x2)
    .word 0x00885293  # srli x5, x16, 8
    .word 0x76512623  # sw x5, 1900(x2)
    .word 0x76012823  # sw x0, 1904(x2)
    .word 0x7c012823  # sw x0, 2000(x2)
    .word 0x15600293  # addi x5, x0, 342
    .word 0x7c512a23  # sw x5, 2004(x2)
    .word 0x7d012303  # lw x6, 2000(x2)
    .word 0x7d412283  # lw x5, 2004(x2)
    .word 0x005332b3  # sltu x5, x6, x5
    .word 0x00029463  # bne x5, x0, 8
    .word 0x0f10106f  # jal x0, 6384
    .word 0x76612a23  # sw x6, 1908(x2)
    .word 0x00130313  # addi x6, x6, 1
    .word 0x7c612823  # sw x6, 2000(x2)
    .word 0x01300813  # addi x16, x0, 19
    .word 0x7c012c23  # sw x0, 2008(x2)
    .word 0x77412283  # lw x5, 1908(x2)
    .word 0x0012b293  # sltiu x5, x5, 1
    .word 0x01000313  # addi x6, x0, 16
    .word 0x405002b3  # sub x5, x0, x5
    .word 0x005372b3  # and x5, x6, x5
    .word 0x7c512e23  # sw x5, 2012(x2)
    .word 0x7d812303  # lw x6, 2008(x2)
    .word 0x7dc12283  # lw x5, 2012(x2)
    .word 0x005332b3  # sltu x5, x6, x5
    .word 0x00029463  # bne x5, x0, 8
    .word 0x0b00006f  # jal x0, 176
    .word 0x76612c23  # sw x6, 1912(x2)
    .word 0x00130313  # addi x6, x6, 1
    .word 0x7c612c23  # sw x6, 2008(x2)
    .word 0x77812283  # lw x5, 1912(x2)
    .word 0x00229293  # slli x5, x5, 2
    .word 0x002282b3  # add x5, x5, x2
    .word 0x0202c283  # lbu x5, 32(x5)
    .word 0x77812303  # lw x6, 1912(x2)
    .word 0x00231313  # slli x6, x6, 2
    .word 0x00230333  # add x6, x6, x2
    .word 0x02134303  # lbu x6, 33(x6)
    .word 0x00831313  # slli x6, x6, 8
    .word 0x0062e2b3  # or x5, x5, x6
    .word 0x77812303  # lw x6, 1912(x2)
    .word 0x00231313  # slli x6, x6, 2
    .word 0x00230333  # add x6, x6, x2
    .word 0x02234303  # lbu x6, 34(x6)
    .word 0x01031313  # slli x6, x6, 16
    .word 0x0062e2b3  # or x5, x5, x6
    .word 0x77812303  # lw x6, 1912(x2)
    .word 0x00231313  # slli x6, x6, 2
    .word 0x00230333  # add x6, x6, x2
    .word 0x02334303  # lbu x6, 35(x6)
    .word 0x01831313  # slli x6, x6, 24
    .word 0x0062e6b3  # or x13, x5, x6
    .word 0x77812283  # lw x5, 1912(x2)
    .word 0x02028293  # addi x5, x5, 32
    .word 0x00229293  # slli x5, x5, 2
    .word 0x002282b3  # add x5, x5, x2
    .word 0x0ad2a023  # sw x13, 160(x5)
    .word 0x010686b3  # add x13, x13, x16
    .word 0x0106b833  # sltu x16, x13, x16
    .word 0x77812283  # lw x5, 1912(x2)
    .word 0x0072f293  # andi x5, x5, 7
    .word 0x00700313  # addi x6, x0, 7
    .word 0x00629e63  # bne x5, x6, 28
    .word 0x77012283  # lw x5, 1904(x2)
    .word 0x01f6d313  # srli x6, x13, 31
    .word 0x0062e2b3  # or x5, x5, x6
    .word 0x0102e2b3  # or x5, x5, x16
    .word 0x76512823  # sw x5, 1904(x2)
    .word 0x01300813  # addi x16, x0, 19
    .word 0xf45ff06f  # jal x0, -188
    .word 0x77412283  # lw x5, 1908(x2)
    .word 0x0092b293  # sltiu x5, x5, 9
    .word 0x00400313  # addi x6, x0, 4
    .word 0x77412383  # lw x7, 1908(x2)
    .word 0xff738393  # addi x7, x7, -9
    .word 0x00500413  # addi x8, x0, 5
    .word 0x0283f3b3  # remu x7, x7, x8
    .word 0x405002b3  # sub x5, x0, x5
    .word 0x00734333  # xor x6, x6, x7
    .word 0x00537333  # and x6, x6, x5
    .word 0x0063c2b3  # xor x5, x7, x6
    .word 0x78512423  # sw x5, 1928(x2)
    .word 0x77412283  # lw x5, 1908(x2)
    .word 0x0082b293  # sltiu x5, x5, 8
    .word 0x0012b293  # sltiu x5, x5, 1
    .word 0x77412303  # lw x6, 1908(x2)
    .word 0x14933313  # sltiu x6, x6, 329
    .word 0x0062f2b3  # and x5, x5, x6
    .word 0x78812303  # lw x6, 1928(x2)
    .word 0xffc30313  # addi x6, x6, -4
    .word 0x00133313  # sltiu x6, x6, 1
    .word 0x0062f2b3  # and x5, x5, x6
    .word 0x02000313  # addi x6, x0, 32
    .word 0x405002b3  # sub x5, x0, x5
    .word 0x00537633  # and x12, x6, x5
    .word 0x00261d13  # slli x26, x12, 2
    .word 0x002d0d33  # add x26, x26, x2
    .word 0x34060c63  # beq x12, x0, 856
    .word 0x03f00293  # addi x5, x0, 63
    .word 0x77412303  # lw x6, 1908(x2)
    .word 0xff730313  # addi x6, x6, -9
    .word 0x00500393  # addi x7, x0, 5
    .word 0x02735333  # divu x6, x6, x7
    .word 0x406282b3  # sub x5, x5, x6
    .word 0x03f2f793  # andi x15, x5, 63
    .word 0x00279d93  # slli x27, x15, 2
    .word 0x002d8db3  # add x27, x27, x2
    .word 0x0017d293  # srli x5, x15, 1
    .word 0x00228833  # add x16, x5, x2
    .word 0x6c084803  # lbu x16, 1728(x16)
    .word 0x77412283  # lw x5, 1908(x2)
    .word 0xff828293  # addi x5, x5, -8
    .word 0x005032b3  # sltu x5, x0, x5
    .word 0x76c12303  # lw x6, 1900(x2)
    .word 0x00830313  # addi x6, x6, 8
    .word 0x0017f413  # andi x8, x15, 1
    .word 0x00241413  # slli x8, x8, 2
    .word 0x008853b3  # srl x7, x16, x8
    .word 0x00f3f393  # andi x7, x7, 15
    .word 0xfff28293  # addi x5, x5, -1
    .word 0x00734333  # xor x6, x6, x7
    .word 0x00537333  # and x6, x6, x5
    .word 0x0063c833  # xor x16, x7, x6
    .word 0x00883293  # sltiu x5, x16, 8
    .word 0x40500733  # sub x14, x0, x5
    .word 0xff880293  # addi x5, x16, -8
    .word 0x00e2c2b3  # xor x5, x5, x14
    .word 0x40e28833  # sub x16, x5, x14
    .word 0xfff80293  # addi x5, x16, -1
    .word 0x0012b293  # sltiu x5, x5, 1
    .word 0x405006b3  # sub x13, x0, x5
    .word 0xffe80293  # addi x5, x16, -2
    .word 0x0012b293  # sltiu x5, x5, 1
    .word 0x405008b3  # sub x17, x0, x5
    .word 0xffd80293  # addi x5, x16, -3
    .word 0x0012b293  # sltiu x5, x5, 1
    .word 0x40500933  # sub x18, x0, x5
    .word 0xffc80293  # addi x5, x16, -4
    .word 0x0012b293  # sltiu x5, x5, 1
    .word 0x40500ab3  # sub x21, x0, x5
    .word 0xffb80293  # addi x5, x16, -5
    .word 0x0012b293  # sltiu x5, x5, 1
    .word 0x40500b33  # sub x22, x0, x5
    .word 0xffa80293  # addi x5, x16, -6
    .word 0x0012b293  # sltiu x5, x5, 1
    .word 0x40500bb3  # sub x23, x0, x5
    .word 0xff980293  # addi x5, x16, -7
    .word 0x0012b293  # sltiu x5, x5, 1
    .word 0x40500c33  # sub x24, x0, x5
    .word 0xff880293  # addi x5, x16, -8
    .word 0x0012b293  # sltiu x5, x5, 1
    .word 0x40500cb3  # sub x25, x0, x5
    .word 0x00183293  # sltiu x5, x16, 1
    .word 0x7a512e23  # sw x5, 1980(x2)
    .word 0x77412283  # lw x5, 1908(x2)
    .word 0xff828293  # addi x5, x5, -8
    .word 0x005032b3  # sltu x5, x0, x5
    .word 0x00000313  # addi x6, x0, 0
    .word 0x02000393  # addi x7, x0, 32
    .word 0xfff28293  # addi x5, x5, -1
    .word 0x00734333  # xor x6, x6, x7
    .word 0x00537333  # and x6, x6, x5
    .word 0x0063c7b3  # xor x15, x7, x6
    .word 0x00279d93  # slli x27, x15, 2
    .word 0x002d8db3  # add x27, x27, x2
    .word 0x7c012c23  # sw x0, 2008(x2)
    .word 0x7cc12e23  # sw x12, 2012(x2)
    .word 0x7d812303  # lw x6, 2008(x2)
    .word 0x7dc12283  # lw x5, 2012(x2)
    .word 0x005332b3  # sltu x5, x6, x5
    .word 0x00029463  # bne x5, x0, 8
    .word 0x0c00006f  # jal x0, 192
    .word 0x76612e23  # sw x6, 1916(x2)
    .word 0x00130313  # addi x6, x6, 1
    .word 0x7c612c23  # sw x6, 2008(x2)
    .word 0x77c12283  # lw x5, 1916(x2)
    .word 0x00329613  # slli x12, x5, 3
    .word 0x00261d13  # slli x26, x12, 2
    .word 0x002d0d33  # add x26, x26, x2
    .word 0x77c12283  # lw x5, 1916(x2)
    .word 0xff828293  # addi x5, x5, -8
    .word 0x0012b293  # sltiu x5, x5, 1
    .word 0x77c12303  # lw x6, 1916(x2)
    .word 0xff030313  # addi x6, x6, -16
    .word 0x00133313  # sltiu x6, x6, 1
    .word 0x0062e2b3  # or x5, x5, x6
    .word 0x7bc12303  # lw x6, 1980(x2)
    .word 0x405002b3  # sub x5, x0, x5
    .word 0x00537833  # and x16, x6, x5
    .word 0x2c0d2303  # lw x6, 704(x26)
    .word 0x00d37333  # and x6, x6, x13
    .word 0x00686833  # or x16, x16, x6
    .word 0x2c4d2303  # lw x6, 708(x26)
    .word 0x01137333  # and x6, x6, x17
    .word 0x00686833  # or x16, x16, x6
    .word 0x2c8d2303  # lw x6, 712(x26)
    .word 0x01237333  # and x6, x6, x18
    .word 0x00686833  # or x16, x16, x6
    .word 0x2ccd2303  # lw x6, 716(x26)
    .word 0x01537333  # and x6, x6, x21
    .word 0x00686833  # or x16, x16, x6
    .word 0x2d0d2303  # lw x6, 720(x26)
    .word 0x01637333  # and x6, x6, x22
    .word 0x00686833  # or x16, x16, x6
    .word 0x2d4d2303  # lw x6, 724(x26)
    .word 0x01737333  # and x6, x6, x23
    .word 0x00686833  # or x16, x16, x6
    .word 0x2d8d2303  # lw x6, 728(x26)
    .word 0x01837333  # and x6, x6, x24
    .word 0x00686833  # or x16, x16, x6
    .word 0x2dcd2303  # lw x6, 732(x26)
    .word 0x01937333  # and x6, x6, x25
    .word 0x00686833  # or x16, x16, x6
    .word 0x77c12303  # lw x6, 1916(x2)
    .word 0x006782b3  # add x5, x15, x6
    .word 0x00229293  # slli x5, x5, 2
    .word 0x002282b3  # add x5, x5, x2
    .word 0x0b02a023  # sw x16, 160(x5)
    .word 0xf35ff06f  # jal x0, -204
    .word 0x7c012c23  # sw x0, 2008(x2)
    .word 0x77412283  # lw x5, 1908(x2)
    .word 0xff828293  # addi x5, x5, -8
    .word 0x005032b3  # sltu x5, x0, x5
    .word 0x00000313  # addi x6, x0, 0
    .word 0x00200393  # addi x7, x0, 2
    .word 0xfff28293  # addi x5, x5, -1
    .word 0x00734333  # xor x6, x6, x7
    .word 0x00537333  # and x6, x6, x5
    .word 0x0063c2b3  # xor x5, x7, x6
    .word 0x7c512e23  # sw x5, 2012(x2)
    .word 0x7d812303  # lw x6, 2008(x2)
    .word 0x7dc12283  # lw x5, 2012(x2)
    .word 0x005332b3  # sltu x5, x6, x5
    .word 0x00029463  # bne x5, x0, 8
    .word 0x1340006f  # jal x0, 308
    .word 0x78612023  # sw x6, 1920(x2)
    .word 0x00130313  # addi x6, x6, 1
    .word 0x7c612c23  # sw x6, 2008(x2)
    .word 0x01800293  # addi x5, x0, 24
    .word 0x78012303  # lw x6, 1920(x2)
    .word 0x026282b3  # mul x5, x5, x6
    .word 0x02028613  # addi x12, x5, 32
    .word 0x00261d13  # slli x26, x12, 2
    .word 0x002d0d33  # add x26, x26, x2
    .word 0x02577813  # andi x16, x14, 37
    .word 0x0a0d2283  # lw x5, 160(x26)
    .word 0x00e2c6b3  # xor x13, x5, x14
    .word 0x410688b3  # sub x17, x13, x16
    .word 0x0106b833  # sltu x16, x13, x16
    .word 0x0a4d2283  # lw x5, 164(x26)
    .word 0x00e2c6b3  # xor x13, x5, x14
    .word 0x41068933  # sub x18, x13, x16
    .word 0x0106b833  # sltu x16, x13, x16
    .word 0x0a8d2283  # lw x5, 168(x26)
    .word 0x00e2c6b3  # xor x13, x5, x14
    .word 0x41068ab3  # sub x21, x13, x16
    .word 0x0106b833  # sltu x16, x13, x16
    .word 0x0acd2283  # lw x5, 172(x26)
    .word 0x00e2c6b3  # xor x13, x5, x14
    .word 0x41068b33  # sub x22, x13, x16
    .word 0x0106b833  # sltu x16, x13, x16
    .word 0x0b0d2283  # lw x5, 176(x26)
    .word 0x00e2c6b3  # xor x13, x5, x14
    .word 0x41068bb3  # sub x23, x13, x16
    .word 0x0106b833  # sltu x16, x13, x16
    .word 0x0b4d2283  # lw x5, 180(x26)
    .word 0x00e2c6b3  # xor x13, x5, x14
    .word 0x41068c33  # sub x24, x13, x16
    .word 0x0106b833  # sltu x16, x13, x16
    .word 0x0b8d2283  # lw x5, 184(x26)
    .word 0x00e2c6b3  # xor x13, x5, x14
    .word 0x41068cb3  # sub x25, x13, x16
    .word 0x0106b833  # sltu x16, x13, x16
    .word 0x0bcd2283  # lw x5, 188(x26)
    .word 0x00e2c6b3  # xor x13, x5, x14
    .word 0x410686b3  # sub x13, x13, x16
    .word 0x01300293  # addi x5, x0, 19
    .word 0x01f6d313  # srli x6, x13, 31
    .word 0x02628833  # mul x16, x5, x6
    .word 0x7c012303  # lw x6, 1984(x2)
    .word 0x0066f6b3  # and x13, x13, x6
    .word 0x010888b3  # add x17, x17, x16
    .word 0x0108b833  # sltu x16, x17, x16
    .word 0x01090933  # add x18, x18, x16
    .word 0x01093833  # sltu x16, x18, x16
    .word 0x010a8ab3  # add x21, x21, x16
    .word 0x010ab833  # sltu x16, x21, x16
    .word 0x010b0b33  # add x22, x22, x16
    .word 0x010b3833  # sltu x16, x22, x16
    .word 0x010b8bb3  # add x23, x23, x16
    .word 0x010bb833  # sltu x16, x23, x16
    .word 0x010c0c33  # add x24, x24, x16
    .word 0x010c3833  # sltu x16, x24, x16
    .word 0x010c8cb3  # add x25, x25, x16
    .word 0x010cb833  # sltu x16, x25, x16
    .word 0x010686b3  # add x13, x13, x16
    .word 0x01300313  # addi x6, x0, 19
    .word 0x01f6d393  # srli x7, x13, 31
    .word 0x02730333  # mul x6, x6, x7
    .word 0x006888b3  # add x17, x17, x6
    .word 0x7c012303  # lw x6, 1984(x2)
    .word 0x0066f6b3  # and x13, x13, x6
    .word 0x0b1d2023  # sw x17, 160(x26)
    .word 0x0b2d2223  # sw x18, 164(x26)
    .word 0x0b5d2423  # sw x21, 168(x26)
    .word 0x0b6d2623  # sw x22, 172(x26)
    .word 0x0b7d2823  # sw x23, 176(x26)
    .word 0x0b8d2a23  # sw x24, 180(x26)
    .word 0x0b9d2c23  # sw x25, 184(x26)
    .word 0x0add2e23  # sw x13, 188(x26)
    .word 0xec1ff06f  # jal x0, -320
    .word 0x77412283  # lw x5, 1908(x2)
    .word 0xeb728293  # addi x5, x5, -329
    .word 0x00d00313  # addi x6, x0, 13
    .word 0x0262f2b3  # remu x5, x5, x6
    .word 0x00229293  # slli x5, x5, 2
    .word 0x002282b3  # add x5, x5, x2
    .word 0x7382a283  # lw x5, 1848(x5)
    .word 0x78512c23  # sw x5, 1944(x2)
    .word 0x77412283  # lw x5, 1908(x2)
    .word 0x0012b293  # sltiu x5, x5, 1
    .word 0x00000313  # addi x6, x0, 0
    .word 0x78812383  # lw x7, 1928(x2)
    .word 0xffc38393  # addi x7, x7, -4
    .word 0x007033b3  # sltu x7, x0, x7
    .word 0x00c00413  # addi x8, x0, 12
    .word 0x01e00493  # addi x9, x0, 30
    .word 0xfff38393  # addi x7, x7, -1
    .word 0x00944433  # xor x8, x8, x9
    .word 0x00747433  # and x8, x8, x7
    .word 0x0084c3b3  # xor x7, x9, x8
    .word 0x405002b3  # sub x5, x0, x5
    .word 0x00734333  # xor x6, x6, x7
    .word 0x00537333  # and x6, x6, x5
    .word 0x0063c2b3  # xor x5, x7, x6
    .word 0x76512e23  # sw x5, 1916(x2)
    .word 0x77412283  # lw x5, 1908(x2)
    .word 0x0012b293  # sltiu x5, x5, 1
    .word 0x00c00313  # addi x6, x0, 12
    .word 0x78812383  # lw x7, 1928(x2)
    .word 0xffc38393  # addi x7, x7, -4
    .word 0x007033b3  # sltu x7, x0, x7
    .word 0x01200413  # addi x8, x0, 18
    .word 0x78812483  # lw x9, 1928(x2)
    .word 0xffd48493  # addi x9, x9, -3
    .word 0x009034b3  # sltu x9, x0, x9
    .word 0x00e00513  # addi x10, x0, 14
    .word 0x00d00593  # addi x11, x0, 13
    .word 0xfff48493  # addi x9, x9, -1
    .word 0x00b54533  # xor x10, x10, x11
    .word 0x00957533  # and x10, x10, x9
    .word 0x00a5c4b3  # xor x9, x11, x10
    .word 0xfff38393  # addi x7, x7, -1
    .word 0x00944433  # xor x8, x8, x9
    .word 0x00747433  # and x8, x8, x7
    .word 0x0084c3b3  # xor x7, x9, x8
    .word 0x405002b3  # sub x5, x0, x5
    .word 0x00734333  # xor x6, x6, x7
    .word 0x00537333  # and x6, x6, x5
    .word 0x0063c633  # xor x12, x7, x6
    .word 0x00261d13  # slli x26, x12, 2
    .word 0x002d0d33  # add x26, x26, x2
    .word 0x79812283  # lw x5, 1944(x2)
    .word 0x00c2d293  # srli x5, x5, 12
    .word 0x07f2f293  # andi x5, x5, 127
    .word 0x76512c23  # sw x5, 1912(x2)
    .word 0x7c012c23  # sw x0, 2008(x2)
    .word 0x77412283  # lw x5, 1908(x2)
    .word 0xff828293  # addi x5, x5, -8
    .word 0x005032b3  # sltu x5, x0, x5
    .word 0x00000313  # addi x6, x0, 0
    .word 0x77412383  # lw x7, 1908(x2)
    .word 0x1493b393  # sltiu x7, x7, 329
    .word 0x77812483  # lw x9, 1912(x2)
    .word 0x00148493  # addi x9, x9, 1
    .word 0x407003b3  # sub x7, x0, x7
    .word 0x00964433  # xor x8, x12, x9
    .word 0x00747433  # and x8, x8, x7
    .word 0x0084c3b3  # xor x7, x9, x8
    .word 0xfff28293  # addi x5, x5, -1
    .word 0x00734333  # xor x6, x6, x7
    .word 0x00537333  # and x6, x6, x5
    .word 0x0063c2b3  # xor x5, x7, x6
    .word 0x7c512e23  # sw x5, 2012(x2)
    .word 0x7d812303  # lw x6, 2008(x2)
    .word 0x7dc12283  # lw x5, 2012(x2)
    .word 0x005332b3  # sltu x5, x6, x5
    .word 0x00029463  # bne x5, x0, 8
    .word 0x0200106f  # jal x0, 4128
    .word 0x78612223  # sw x6, 1924(x2)
    .word 0x00130313  # addi x6, x6, 1
    .word 0x7c612c23  # sw x6, 2008(x2)
    .word 0x77412283  # lw x5, 1908(x2)
    .word 0x14900313  # addi x6, x0, 329
    .word 0x0262f863  # bgeu x5, x6, 48
    .word 0x77c12283  # lw x5, 1916(x2)
    .word 0x78412303  # lw x6, 1924(x2)
    .word 0x006282b3  # add x5, x5, x6
    .word 0x02c00313  # addi x6, x0, 44
    .word 0x0262f2b3  # remu x5, x5, x6
    .word 0x00129613  # slli x12, x5, 1
    .word 0x00260633  # add x12, x12, x2
    .word 0x6e065603  # lhu x12, 1760(x12)
    .word 0x00261d13  # slli x26, x12, 2
    .word 0x002d0d33  # add x26, x26, x2
    .word 0x0740006f  # jal x0, 116
    .word 0x78412283  # lw x5, 1924(x2)
    .word 0x0012b293  # sltiu x5, x5, 1
    .word 0x79812303  # lw x6, 1944(x2)
    .word 0x0f037313  # andi x6, x6, 240
    .word 0x0f000393  # addi x7, x0, 240
    .word 0x405002b3  # sub x5, x0, x5
    .word 0x00734333  # xor x6, x6, x7
    .word 0x00537333  # and x6, x6, x5
    .word 0x0063c633  # xor x12, x7, x6
    .word 0x00261d13  # slli x26, x12, 2
    .word 0x002d0d33  # add x26, x26, x2
    .word 0x78412303  # lw x6, 1924(x2)
    .word 0x77812383  # lw x7, 1912(x2)
    .word 0x40730333  # sub x6, x6, x7
    .word 0x00603333  # sltu x6, x0, x6
    .word 0x79812383  # lw x7, 1944(x2)
    .word 0x7c412403  # lw x8, 1988(x2)
    .word 0x0083f3b3  # and x7, x7, x8
    .word 0x00465413  # srli x8, x12, 4
    .word 0x7c812483  # lw x9, 1992(x2)
    .word 0x00946433  # or x8, x8, x9
    .word 0xfff30313  # addi x6, x6, -1
    .word 0x0083c3b3  # xor x7, x7, x8
    .word 0x0063f3b3  # and x7, x7, x6
    .word 0x00744333  # xor x6, x8, x7
    .word 0x00666633  # or x12, x12, x6
    .word 0x00261d13  # slli x26, x12, 2
    .word 0x002d0d33  # add x26, x26, x2
    .word 0x00c65293  # srli x5, x12, 12
    .word 0x78512623  # sw x5, 1932(x2)
    .word 0x00565293  # srli x5, x12, 5
    .word 0x0782f293  # andi x5, x5, 120
    .word 0x78512423  # sw x5, 1928(x2)
    .word 0x00165293  # srli x5, x12, 1
    .word 0x0782f793  # andi x15, x5, 120
    .word 0x00279d93  # slli x27, x15, 2
    .word 0x002d8db3  # add x27, x27, x2
    .word 0x00361293  # slli x5, x12, 3
    .word 0x0782f613  # andi x12, x5, 120
    .word 0x00261d13  # slli x26, x12, 2
    .word 0x002d0d33  # add x26, x26, x2
    .word 0x78c12283  # lw x5, 1932(x2)
    .word 0x380296e3  # bne x5, x0, 2956
    .word 0x78012e23  # sw x0, 1948(x2)
    .word 0x7a012023  # sw x0, 1952(x2)
    .word 0x00000993  # addi x19, x0, 0
    .word 0x7a012223  # sw x0, 1956(x2)
    .word 0x00000a13  # addi x20, x0, 0
    .word 0x7a012423  # sw x0, 1960(x2)
    .word 0x7a012623  # sw x0, 1964(x2)
    .word 0x7a012823  # sw x0, 1968(x2)
    .word 0x0a0daa83  # lw x21, 160(x27)
    .word 0x0a4dab03  # lw x22, 164(x27)
    .word 0x0a8dab83  # lw x23, 168(x27)
    .word 0x0acdac03  # lw x24, 172(x27)
    .word 0x0b0dac83  # lw x25, 176(x27)
    .word 0x0b4da283  # lw x5, 180(x27)
    .word 0x7a512a23  # sw x5, 1972(x2)
    .word 0x0b8da283  # lw x5, 184(x27)
    .word 0x7a512c23  # sw x5, 1976(x2)
    .word 0x0bcda283  # lw x5, 188(x27)
    .word 0x7a512e23  # sw x5, 1980(x2)
    .word 0x6cc79063  # bne x15, x12, 1728
    .word 0x01300293  # addi x5, x0, 19
    .word 0x7bc12303  # lw x6, 1980(x2)
    .word 0x01f35313  # srli x6, x6, 31
    .word 0x02628833  # mul x16, x5, x6
    .word 0x7bc12283  # lw x5, 1980(x2)
    .word 0x7c012303  # lw x6, 1984(x2)
    .word 0x0062f2b3  # and x5, x5, x6
    .word 0x7a512e23  # sw x5, 1980(x2)
    .word 0x010a8ab3  # add x21, x21, x16
    .word 0x010ab833  # sltu x16, x21, x16
    .word 0x010b0b33  # add x22, x22, x16
    .word 0x010b3833  # sltu x16, x22, x16
    .word 0x010b8bb3  # add x23, x23, x16
    .word 0x010bb833  # sltu x16, x23, x16
    .word 0x010c0c33  # add x24, x24, x16
    .word 0x010c3833  # sltu x16, x24, x16
    .word 0x010c8cb3  # add x25, x25, x16
    .word 0x010cb833  # sltu x16, x25, x16
    .word 0x7b412283  # lw x5, 1972(x2)
    .word 0x010282b3  # add x5, x5, x16
    .word 0x7a512a23  # sw x5, 1972(x2)
    .word 0x7b412283  # lw x5, 1972(x2)
    .word 0x0102b833  # sltu x16, x5, x16
    .word 0x7b812283  # lw x5, 1976(x2)
    .word 0x010282b3  # add x5, x5, x16
    .word 0x7a512c23  # sw x5, 1976(x2)
    .word 0x7b812283  # lw x5, 1976(x2)
    .word 0x0102b833  # sltu x16, x5, x16
    .word 0x7bc12283  # lw x5, 1980(x2)
    .word 0x010282b3  # add x5, x5, x16
    .word 0x7a512e23  # sw x5, 1980(x2)
    .word 0x01300313  # addi x6, x0, 19
    .word 0x7bc12383  # lw x7, 1980(x2)
    .word 0x01f3d393  # srli x7, x7, 31
    .word 0x02730333  # mul x6, x6, x7
    .word 0x006a8ab3  # add x21, x21, x6
    .word 0x7bc12283  # lw x5, 1980(x2)
    .word 0x7c012303  # lw x6, 1984(x2)
    .word 0x0062f2b3  # and x5, x5, x6
    .word 0x7a512e23  # sw x5, 1980(x2)
    .word 0x001b9293  # slli x5, x23, 1
    .word 0x01fb5313  # srli x6, x22, 31
    .word 0x0062e2b3  # or x5, x5, x6
    .word 0x7a512423  # sw x5, 1960(x2)
    .word 0x001c1293  # slli x5, x24, 1
    .word 0x01fbd313  # srli x6, x23, 31
    .word 0x0062e2b3  # or x5, x5, x6
    .word 0x7a512223  # sw x5, 1956(x2)
    .word 0x001c9293  # slli x5, x25, 1
    .word 0x01fc5313  # srli x6, x24, 31
    .word 0x0062e2b3  # or x5, x5, x6
    .word 0x7a512023  # sw x5, 1952(x2)
    .word 0x7b412283  # lw x5, 1972(x2)
    .word 0x00129293  # slli x5, x5, 1
    .word 0x01fcd313  # srli x6, x25, 31
    .word 0x0062e2b3  # or x5, x5, x6
    .word 0x78512e23  # sw x5, 1948(x2)
    .word 0x7b812283  # lw x5, 1976(x2)
    .word 0x00129293  # slli x5, x5, 1
    .word 0x7b412303  # lw x6, 1972(x2)
    .word 0x01f35313  # srli x6, x6, 31
    .word 0x0062e9b3  # or x19, x5, x6
    .word 0x7bc12283  # lw x5, 1980(x2)
    .word 0x00129293  # slli x5, x5, 1
    .word 0x7b812303  # lw x6, 1976(x2)
    .word 0x01f35313  # srli x6, x6, 31
    .word 0x0062ea33  # or x20, x5, x6
    .word 0x035a88b3  # mul x17, x21, x21
    .word 0x035ab833  # mulhu x16, x21, x21
    .word 0x0118b333  # sltu x6, x17, x17
    .word 0x00680833  # add x16, x16, x6
    .word 0x01083933  # sltu x18, x16, x16
    .word 0x2b112023  # sw x17, 672(x2)
    .word 0x00080693  # addi x13, x16, 0
    .word 0x00090713  # addi x14, x18, 0
    .word 0x001b1813  # slli x16, x22, 1
    .word 0x030a88b3  # mul x17, x21, x16
    .word 0x030ab833  # mulhu x16, x21, x16
    .word 0x011686b3  # add x13, x13, x17
    .word 0x0116b333  # sltu x6, x13, x17
    .word 0x00680833  # add x16, x16, x6
    .word 0x01070733  # add x14, x14, x16
    .word 0x01073933  # sltu x18, x14, x16
    .word 0x2ad12223  # sw x13, 676(x2)
    .word 0x00070693  # addi x13, x14, 0
    .word 0x00090713  # addi x14, x18, 0
    .word 0x036b08b3  # mul x17, x22, x22
    .word 0x036b3833  # mulhu x16, x22, x22
    .word 0x011686b3  # add x13, x13, x17
    .word 0x0116b333  # sltu x6, x13, x17
    .word 0x00680833  # add x16, x16, x6
    .word 0x01070733  # add x14, x14, x16
    .word 0x01073933  # sltu x18, x14, x16
    .word 0x7a812303  # lw x6, 1960(x2)
    .word 0x026a88b3  # mul x17, x21, x6
    .word 0x7a812303  # lw x6, 1960(x2)
    .word 0x026ab833  # mulhu x16, x21, x6
    .word 0x011686b3  # add x13, x13, x17
    .word 0x0116b333  # sltu x6, x13, x17
    .word 0x00680833  # add x16, x16, x6
    .word 0x01070733  # add x14, x14, x16
    .word 0x01073333  # sltu x6, x14, x16
    .word 0x00690933  # add x18, x18, x6
    .word 0x2ad12423  # sw x13, 680(x2)
    .word 0x00070693  # addi x13, x14, 0
    .word 0x00090713  # addi x14, x18, 0
    .word 0x001b9813  # slli x16, x23, 1
    .word 0x030b08b3  # mul x17, x22, x16
    .word 0x030b3833  # mulhu x16, x22, x16
    .word 0x011686b3  # add x13, x13, x17
    .word 0x0116b333  # sltu x6, x13, x17
    .word 0x00680833  # add x16, x16, x6
    .word 0x01070733  # add x14, x14, x16
    .word 0x01073933  # sltu x18, x14, x16
    .word 0x7a412303  # lw x6, 1956(x2)
    .word 0x026a88b3  # mul x17, x21, x6
    .word 0x7a412303  # lw x6, 1956(x2)
    .word 0x026ab833  # mulhu x16, x21, x6
    .word 0x011686b3  # add x13, x13, x17
    .word 0x0116b333  # sltu x6, x13, x17
    .word 0x00680833  # add x16, x16, x6
    .word 0x01070733  # add x14, x14, x16
    .word 0x01073333  # sltu x6, x14, x16
    .word 0x00690933  # add x18, x18, x6
    .word 0x2ad12623  # sw x13, 684(x2)
    .word 0x00070693  # addi x13, x14, 0
    .word 0x00090713  # addi x14, x18, 0
    .word 0x037b88b3  # mul x17, x23, x23
    .word 0x037bb833  # mulhu x16, x23, x23
    .word 0x011686b3  # add x13, x13, x17
    .word 0x0116b333  # sltu x6, x13, x17
    .word 0x00680833  # add x16, x16, x6
    .word 0x01070733  # add x14, x14, x16
    .word 0x01073933  # sltu x18, x14, x16
    .word 0x7a412303  # lw x6, 1956(x2)
    .word 0x026b08b3  # mul x17, x22, x6
    .word 0x7a412303  # lw x6, 1956(x2)
    .word 0x026b3833  # mulhu x16, x22, x6
    .word 0x011686b3  # add x13, x13, x17
    .word 0x0116b333  # sltu x6, x13, x17
    .word 0x00680833  # add x16, x16, x6
    .word 0x01070733  # add x14, x14, x16
    .word 0x01073333  # sltu x6, x14, x16
    .word 0x00690933  # add x18, x18, x6
    .word 0x7a012303  # lw x6, 1952(x2)
    .word 0x026a88b3  # mul x17, x21, x6
    .word 0x7a012303  # lw x6, 1952(x2)
    .word 0x026ab833  # mulhu x16, x21, x6
    .word 0x011686b3  # add x13, x13, x17
    .word 0x0116b333  # sltu x6, x13, x17
    .word 0x00680833  # add x16, x16, x6
    .word 0x01070733  # add x14, x14, x16
    .word 0x01073333  # sltu x6, x14, x16
    .word 0x00690933  # add x18, x18, x6
    .word 0x2ad12823  # sw x13, 688(x2)
    .word 0x00070693  # addi x13, x14, 0
    .word 0x00090713  # addi x14, x18, 0
    .word 0x001c1813  # slli x16, x24, 1
    .word 0x030b88b3  # mul x17, x23, x16
    .word 0x030bb833  # mulhu x16, x23, x16
    .word 0x011686b3  # add x13, x13, x17
    .word 0x0116b333  # sltu x6, x13, x17
    .word 0x00680833  # add x16, x16, x6
    .word 0x01070733  # add x14, x14, x16
    .word 0x01073933  # sltu x18, x14, x16
    .word 0x7a012303  # lw x6, 1952(x2)
    .word 0x026b08b3  # mul x17, x22, x6
    .word 0x7a012303  # lw x6, 1952(x2)
    .word 0x026b3833  # mulhu x16, x22, x6
    .word 0x011686b3  # add x13, x13, x17
    .word 0x0116b333  # sltu x6, x13, x17
    .word 0x00680833  # add x16, x16, x6
    .word 0x01070733  # add x14, x14, x16
    .word 0x01073333  # sltu x6, x14, x16
    .word 0x00690933  # add x18, x18, x6
    .word 0x79c12303  # lw x6, 1948(x2)
    .word 0x026a88b3  # mul x17, x21, x6
    .word 0x79c12303  # lw x6, 1948(x2)
    .word 0x026ab833  # mulhu x16, x21, x6
    .word 0x011686b3  # add x13, x13, x17
    .word 0x0116b333  # sltu x6, x13, x17
    .word 0x00680833  # add x16, x16, x6
    .word 0x01070733  # add x14, x14, x16
    .word 0x01073333  # sltu x6, x14, x16
    .word 0x00690933  # add x18, x18, x6
    .word 0x2ad12a23  # sw x13, 692(x2)
    .word 0x00070693  # addi x13, x14, 0
    .word 0x00090713  # addi x14, x18, 0
    .word 0x038c08b3  # mul x17, x24, x24
    .word 0x038c3833  # mulhu x16, x24, x24
    .word 0x011686b3  # add x13, x13, x17
    .word 0x0116b333  # sltu x6, x13, x17
    .word 0x00680833  # add x16, x16, x6
    .word 0x01070733  # add x14, x14, x16
    .word 0x01073933  # sltu x18, x14, x16
    .word 0x7a012303  # lw x6, 1952(x2)
    .word 0x026b88b3  # mul x17, x23, x6
    .word 0x7a012303  # lw x6, 1952(x2)
    .word 0x026bb833  # mulhu x16, x23, x6
    .word 0x011686b3  # add x13, x13, x17
    .word 0x0116b333  # sltu x6, x13, x17
    .word 0x00680833  # add x16, x16, x6
    .word 0x01070733  # add x14, x14, x16
    .word 0x01073333  # sltu x6, x14, x16
    .word 0x00690933  # add x18, x18, x6
    .word 0x79c12303  # lw x6, 1948(x2)
    .word 0x026b08b3  # mul x17, x22, x6
    .word 0x79c12303  # lw x6, 1948(x2)
    .word 0x026b3833  # mulhu x16, x22, x6
    .word 0x011686b3  # add x13, x13, x17
    .word 0x0116b333  # sltu x6, x13, x17
    .word 0x00680833  # add x16, x16, x6
    .word 0x01070733  # add x14, x14, x16
    .word 0x01073333  # sltu x6, x14, x16
    .word 0x00690933  # add x18, x18, x6
    .word 0x033a88b3  # mul x17, x21, x19
    .word 0x033ab833  # mulhu x16, x21, x19
    .word 0x011686b3  # add x13, x13, x17
    .word 0x0116b333  # sltu x6, x13, x17
    .word 0x00680833  # add x16, x16, x6
    .word 0x01070733  # add x14, x14, x16
    .word 0x01073333  # sltu x6, x14, x16
    .word 0x00690933  # add x18, x18, x6
    .word 0x2ad12c23  # sw x13, 696(x2)
    .word 0x00070693  # addi x13, x14, 0
    .word 0x00090713  # addi x14, x18, 0
    .word 0x001c9813  # slli x16, x25, 1
    .word 0x030c08b3  # mul x17, x24, x16
    .word 0x030c3833  # mulhu x16, x24, x16
    .word 0x011686b3  # add x13, x13, x17
    .word 0x0116b333  # sltu x6, x13, x17
    .word 0x00680833  # add x16, x16, x6
    .word 0x01070733  # add x14, x14, x16
    .word 0x01073933  # sltu x18, x14, x16
    .word 0x79c12303  # lw x6, 1948(x2)
    .word 0x026b88b3  # mul x17, x23, x6
    .word 0x79c12303  # lw x6, 1948(x2)
    .word 0x026bb833  # mulhu x16, x23, x6
    .word 0x011686b3  # add x13, x13, x17
    .word 0x0116b333  # sltu x6, x13, x17
    .word 0x00680833  # add x16, x16, x6
    .word 0x01070733  # add x14, x14, x16
    .word 0x01073333  # sltu x6, x14, x16
    .word 0x00690933  # add x18, x18, x6
    .word 0x033b08b3  # mul x17, x22, x19
    .word 0x033b3833  # mulhu x16, x22, x19
    .word 0x011686b3  # add x13, x13, x17
    .word 0x0116b333  # sltu x6, x13, x17
    .word 0x00680833  # add x16, x16, x6
    .word 0x01070733  # add x14, x14, x16
    .word 0x01073333  # sltu x6, x14, x16
    .word 0x00690933  # add x18, x18, x6
    .word 0x034a88b3  # mul x17, x21, x20
    .word 0x034ab833  # mulhu x16, x21, x20
    .word 0x011686b3  # add x13, x13, x17
    .word 0x0116b333  # sltu x6, x13, x17
    .word 0x00680833  # add x16, x16, x6
    .word 0x01070733  # add x14, x14, x16
    .word 0x01073333  # sltu x6, x14, x16
    .word 0x00690933  # add x18, x18, x6
    .word 0x2ad12e23  # sw x13, 700(x2)
    .word 0x00070693  # addi x13, x14, 0
    .word 0x00090713  # addi x14, x18, 0
    .word 0x039c88b3  # mul x17, x25, x25
    .word 0x039cb833  # mulhu x16, x25, x25
    .word 0x011686b3  # add x13, x13, x17
    .word 0x0116b333  # sltu x6, x13, x17
    .word 0x00680833  # add x16, x16, x6
    .word 0x01070733  # add x14, x14, x16
    .word 0x01073933  # sltu x18, x14, x16
    .word 0x79c12303  # lw x6, 1948(x2)
    .word 0x026c08b3  # mul x17, x24, x6
    .word 0x79c12303  # lw x6, 1948(x2)
    .word 0x026c3833  # mulhu x16, x24, x6
    .word 0x011686b3  # add x13, x13, x17
    .word 0x0116b333  # sltu x6, x13, x17
    .word 0x00680833  # add x16, x16, x6
    .word 0x01070733  # add x14, x14, x16
    .word 0x01073333  # sltu x6, x14, x16
    .word 0x00690933  # add x18, x18, x6
    .word 0x033b88b3  # mul x17, x23, x19
    .word 0x033bb833  # mulhu x16, x23, x19
    .word 0x011686b3  # add x13, x13, x17
    .word 0x0116b333  # sltu x6, x13, x17
    .word 0x00680833  # add x16, x16, x6
    .word 0x01070733  # add x14, x14, x16
    .word 0x01073333  # sltu x6, x14, x16
    .word 0x00690933  # add x18, x18, x6
    .word 0x034b08b3  # mul x17, x22, x20
    .word 0x034b3833  # mulhu x16, x22, x20
    .word 0x011686b3  # add x13, x13, x17
    .word 0x0116b333  # sltu x6, x13, x17
    .word 0x00680833  # add x16, x16, x6
    .word 0x01070733  # add x14, x14, x16
    .word 0x01073333  # sltu x6, x14, x16
    .word 0x00690933  # add x18, x18, x6
    .word 0x78d12e23  # sw x13, 1948(x2)
    .word 0x00070693  # addi x13, x14, 0
    .word 0x00090713  # addi x14, x18, 0
    .word 0x7b412283  # lw x5, 1972(x2)
    .word 0x00129813  # slli x16, x5, 1
    .word 0x030c88b3  # mul x17, x25, x16
    .word 0x030cb833  # mulhu x16, x25, x16
    .word 0x011686b3  # add x13, x13, x17
    .word 0x0116b333  # sltu x6, x13, x17
    .word 0x00680833  # add x16, x16, x6
    .word 0x01070733  # add x14, x14, x16
    .word 0x01073933  # sltu x18, x14, x16
    .word 0x033c08b3  # mul x17, x24, x19
    .word 0x033c3833  # mulhu x16, x24, x19
    .word 0x011686b3  # add x13, x13, x17
    .word 0x0116b333  # sltu x6, x13, x17
    .word 0x00680833  # add x16, x16, x6
    .word 0x01070733  # add x14, x14, x16
    .word 0x01073333  # sltu x6, x14, x16
    .word 0x00690933  # add x18, x18, x6
    .word 0x034b88b3  # mul x17, x23, x20
    .word 0x034bb833  # mulhu x16, x23, x20
    .word 0x011686b3  # add x13, x13, x17
    .word 0x0116b333  # sltu x6, x13, x17
    .word 0x00680833  # add x16, x16, x6
    .word 0x01070733  # add x14, x14, x16
    .word 0x01073333  # sltu x6, x14, x16
    .word 0x00690933  # add x18, x18, x6
    .word 0x7ad12023  # sw x13, 1952(x2)
    .word 0x00070693  # addi x13, x14, 0
    .word 0x00090713  # addi x14, x18, 0
    .word 0x7b412283  # lw x5, 1972(x2)
    .word 0x7b412303  # lw x6, 1972(x2)
    .word 0x026288b3  # mul x17, x5, x6
    .word 0x7b412283  # lw x5, 1972(x2)
    .word 0x7b412303  # lw x6, 1972(x2)
    .word 0x0262b833  # mulhu x16, x5, x6
    .word 0x011686b3  # add x13, x13, x17
    .word 0x0116b333  # sltu x6, x13, x17
    .word 0x00680833  # add x16, x16, x6
    .word 0x01070733  # add x14, x14, x16
    .word 0x01073933  # sltu x18, x14, x16
    .word 0x033c88b3  # mul x17, x25, x19
    .word 0x033cb833  # mulhu x16, x25, x19
    .word 0x011686b3  # add x13, x13, x17
    .word 0x0116b333  # sltu x6, x13, x17
    .word 0x00680833  # add x16, x16, x6
    .word 0x01070733  # add x14, x14, x16
    .word 0x01073333  # sltu x6, x14, x16
    .word 0x00690933  # add x18, x18, x6
    .word 0x034c08b3  # mul x17, x24, x20
    .word 0x034c3833  # mulhu x16, x24, x20
    .word 0x011686b3  # add x13, x13, x17
    .word 0x0116b333  # sltu x6, x13, x17
    .word 0x00680833  # add x16, x16, x6
    .word 0x01070733  # add x14, x14, x16
    .word 0x01073333  # sltu x6, x14, x16
    .word 0x00690933  # add x18, x18, x6
    .word 0x00068993  # addi x19, x13, 0
    .word 0x00070693  # addi x13, x14, 0
    .word 0x00090713  # addi x14, x18, 0
    .word 0x7b812283  # lw x5, 1976(x2)
    .word 0x00129813  # slli x16, x5, 1
    .word 0x7b412283  # lw x5, 1972(x2)
    .word 0x030288b3  # mul x17, x5, x16
    .word 0x7b412283  # lw x5, 1972(x2)
    .word 0x0302b833  # mulhu x16, x5, x16
    .word 0x011686b3  # add x13, x13, x17
    .word 0x0116b333  # sltu x6, x13, x17
    .word 0x00680833  # add x16, x16, x6
    .word 0x01070733  # add x14, x14, x16
    .word 0x01073933  # sltu x18, x14, x16
    .word 0x034c88b3  # mul x17, x25, x20
    .word 0x034cb833  # mulhu x16, x25, x20
    .word 0x011686b3  # add x13, x13, x17
    .word 0x0116b333  # sltu x6, x13, x17
    .word 0x00680833  # add x16, x16, x6
    .word 0x01070733  # add x14, x14, x16
    .word 0x01073333  # sltu x6, x14, x16
    .word 0x00690933  # add x18, x18, x6
    .word 0x7ad12223  # sw x13, 1956(x2)
    .word 0x00070693  # addi x13, x14, 0
    .word 0x00090713  # addi x14, x18, 0
    .word 0x7b812283  # lw x5, 1976(x2)
    .word 0x7b812303  # lw x6, 1976(x2)
    .word 0x026288b3  # mul x17, x5, x6
    .word 0x7b812283  # lw x5, 1976(x2)
    .word 0x7b812303  # lw x6, 1976(x2)
    .word 0x0262b833  # mulhu x16, x5, x6
    .word 0x011686b3  # add x13, x13, x17
    .word 0x0116b333  # sltu x6, x13, x17
    .word 0x00680833  # add x16, x16, x6
    .word 0x01070733  # add x14, x14, x16
    .word 0x01073933  # sltu x18, x14, x16
    .word 0x7b412283  # lw x5, 1972(x2)
    .word 0x034288b3  # mul x17, x5, x20
    .word 0x7b412283  # lw x5, 1972(x2)
    .word 0x0342b833  # mulhu x16, x5, x20
    .word 0x011686b3  # add x13, x13, x17
    .word 0x0116b333  # sltu x6, x13, x17
    .word 0x00680833  # add x16, x16, x6
    .word 0x01070733  # add x14, x14, x16
    .word 0x01073333  # sltu x6, x14, x16
    .word 0x00690933  # add x18, x18, x6
    .word 0x00068a13  # addi x20, x13, 0
    .word 0x00070693  # addi x13, x14, 0
    .word 0x00090713  # addi x14, x18, 0
    .word 0x7bc12283  # lw x5, 1980(x2)
    .word 0x00129813  # slli x16, x5, 1
    .word 0x7b812283  # lw x5, 1976(x2)
    .word 0x030288b3  # mul x17, x5, x16
    .word 0x7b812283  # lw x5, 1976(x2)
    .word 0x0302b833  # mulhu x16, x5, x16
    .word 0x011686b3  # add x13, x13, x17
    .word 0x0116b333  # sltu x6, x13, x17
    .word 0x00680833  # add x16, x16, x6
    .word 0x01070733  # add x14, x14, x16
    .word 0x01073933  # sltu x18, x14, x16
    .word 0x7ad12423  # sw x13, 1960(x2)
    .word 0x00070693  # addi x13, x14, 0
    .word 0x00090713  # addi x14, x18, 0
    .word 0x7bc12283  # lw x5, 1980(x2)
    .word 0x7bc12303  # lw x6, 1980(x2)
    .word 0x026288b3  # mul x17, x5, x6
    .word 0x7bc12283  # lw x5, 1980(x2)
    .word 0x7bc12303  # lw x6, 1980(x2)
    .word 0x0262b833  # mulhu x16, x5, x6
    .word 0x011686b3  # add x13, x13, x17
    .word 0x0116b333  # sltu x6, x13, x17
    .word 0x00680833  # add x16, x16, x6
    .word 0x01070733  # add x14, x14, x16
    .word 0x7ad12623  # sw x13, 1964(x2)
    .word 0x00070693  # addi x13, x14, 0
    .word 0x7ad12823  # sw x13, 1968(x2)
    .word 0x1a80006f  # jal x0, 424
    .word 0x2b512023  # sw x21, 672(x2)
    .word 0x2b612223  # sw x22, 676(x2)
    .word 0x2b712423  # sw x23, 680(x2)
    .word 0x2b812623  # sw x24, 684(x2)
    .word 0x2b912823  # sw x25, 688(x2)
    .word 0x7b412283  # lw x5, 1972(x2)
    .word 0x2a512a23  # sw x5, 692(x2)
    .word 0x7b812283  # lw x5, 1976(x2)
    .word 0x2a512c23  # sw x5, 696(x2)
    .word 0x7bc12283  # lw x5, 1980(x2)
    .word 0x2a512e23  # sw x5, 700(x2)
    .word 0xfff00793  # addi x15, x0, -1
    .word 0x00178793  # addi x15, x15, 1
    .word 0x00279d93  # slli x27, x15, 2
    .word 0x002d8db3  # add x27, x27, x2
    .word 0x2a0da683  # lw x13, 672(x27)
    .word 0x0a0d2803  # lw x16, 160(x26)
    .word 0x030688b3  # mul x17, x13, x16
    .word 0x0306b933  # mulhu x18, x13, x16
    .word 0x79c12283  # lw x5, 1948(x2)
    .word 0x01128833  # add x16, x5, x17
    .word 0x2b0da023  # sw x16, 672(x27)
    .word 0x01183333  # sltu x6, x16, x17
    .word 0x00690733  # add x14, x18, x6
    .word 0x0a4d2803  # lw x16, 164(x26)
    .word 0x030688b3  # mul x17, x13, x16
    .word 0x0306b933  # mulhu x18, x13, x16
    .word 0x7a012283  # lw x5, 1952(x2)
    .word 0x01128833  # add x16, x5, x17
    .word 0x00e802b3  # add x5, x16, x14
    .word 0x78512e23  # sw x5, 1948(x2)
    .word 0x01183333  # sltu x6, x16, x17
    .word 0x006902b3  # add x5, x18, x6
    .word 0x79c12303  # lw x6, 1948(x2)
    .word 0x00e33333  # sltu x6, x6, x14
    .word 0x00628733  # add x14, x5, x6
    .word 0x0a8d2803  # lw x16, 168(x26)
    .word 0x030688b3  # mul x17, x13, x16
    .word 0x0306b933  # mulhu x18, x13, x16
    .word 0x01198833  # add x16, x19, x17
    .word 0x00e802b3  # add x5, x16, x14
    .word 0x7a512023  # sw x5, 1952(x2)
    .word 0x01183333  # sltu x6, x16, x17
    .word 0x006902b3  # add x5, x18, x6
    .word 0x7a012303  # lw x6, 1952(x2)
    .word 0x00e33333  # sltu x6, x6, x14
    .word 0x00628733  # add x14, x5, x6
    .word 0x0acd2803  # lw x16, 172(x26)
    .word 0x030688b3  # mul x17, x13, x16
    .word 0x0306b933  # mulhu x18, x13, x16
    .word 0x7a412283  # lw x5, 1956(x2)
    .word 0x01128833  # add x16, x5, x17
    .word 0x00e809b3  # add x19, x16, x14
    .word 0x01183333  # sltu x6, x16, x17
    .word 0x006902b3  # add x5, x18, x6
    .word 0x00e9b333  # sltu x6, x19, x14
    .word 0x00628733  # add x14, x5, x6
    .word 0x0b0d2803  # lw x16, 176(x26)
    .word 0x030688b3  # mul x17, x13, x16
    .word 0x0306b933  # mulhu x18, x13, x16
    .word 0x011a0833  # add x16, x20, x17
    .word 0x00e802b3  # add x5, x16, x14
    .word 0x7a512223  # sw x5, 1956(x2)
    .word 0x01183333  # sltu x6, x16, x17
    .word 0x006902b3  # add x5, x18, x6
    .word 0x7a412303  # lw x6, 1956(x2)
    .word 0x00e33333  # sltu x6, x6, x14
    .word 0x00628733  # add x14, x5, x6
    .word 0x0b4d2803  # lw x16, 180(x26)
    .word 0x030688b3  # mul x17, x13, x16
    .word 0x0306b933  # mulhu x18, x13, x16
    .word 0x7a812283  # lw x5, 1960(x2)
    .word 0x01128833  # add x16, x5, x17
    .word 0x00e80a33  # add x20, x16, x14
    .word 0x01183333  # sltu x6, x16, x17
    .word 0x006902b3  # add x5, x18, x6
    .word 0x00ea3333  # sltu x6, x20, x14
    .word 0x00628733  # add x14, x5, x6
    .word 0x0b8d2803  # lw x16, 184(x26)
    .word 0x030688b3  # mul x17, x13, x16
    .word 0x0306b933  # mulhu x18, x13, x16
    .word 0x7ac12283  # lw x5, 1964(x2)
    .word 0x01128833  # add x16, x5, x17
    .word 0x00e802b3  # add x5, x16, x14
    .word 0x7a512423  # sw x5, 1960(x2)
    .word 0x01183333  # sltu x6, x16, x17
    .word 0x006902b3  # add x5, x18, x6
    .word 0x7a812303  # lw x6, 1960(x2)
    .word 0x00e33333  # sltu x6, x6, x14
    .word 0x00628733  # add x14, x5, x6
    .word 0x0bcd2803  # lw x16, 188(x26)
    .word 0x030688b3  # mul x17, x13, x16
    .word 0x0306b933  # mulhu x18, x13, x16
    .word 0x7b012283  # lw x5, 1968(x2)
    .word 0x01128833  # add x16, x5, x17
    .word 0x00e802b3  # add x5, x16, x14
    .word 0x7a512623  # sw x5, 1964(x2)
    .word 0x01183333  # sltu x6, x16, x17
    .word 0x006902b3  # add x5, x18, x6
    .word 0x7ac12303  # lw x6, 1964(x2)
    .word 0x00e33333  # sltu x6, x6, x14
    .word 0x00628733  # add x14, x5, x6
    .word 0x7ae12823  # sw x14, 1968(x2)
    .word 0xff978293  # addi x5, x15, -7
    .word 0xe80298e3  # bne x5, x0, -368
    .word 0x79c12283  # lw x5, 1948(x2)
    .word 0x02600313  # addi x6, x0, 38
    .word 0x026286b3  # mul x13, x5, x6
    .word 0x79c12283  # lw x5, 1948(x2)
    .word 0x02600313  # addi x6, x0, 38
    .word 0x0262b8b3  # mulhu x17, x5, x6
    .word 0x2a012283  # lw x5, 672(x2)
    .word 0x00d28733  # add x14, x5, x13
    .word 0x00070a93  # addi x21, x14, 0
    .word 0x00d73333  # sltu x6, x14, x13
    .word 0x00688833  # add x16, x17, x6
    .word 0x7a012283  # lw x5, 1952(x2)
    .word 0x02600313  # addi x6, x0, 38
    .word 0x026286b3  # mul x13, x5, x6
    .word 0x7a012283  # lw x5, 1952(x2)
    .word 0x02600313  # addi x6, x0, 38
    .word 0x0262b8b3  # mulhu x17, x5, x6
    .word 0x2a412283  # lw x5, 676(x2)
    .word 0x00d28733  # add x14, x5, x13
    .word 0x01070b33  # add x22, x14, x16
    .word 0x00d73333  # sltu x6, x14, x13
    .word 0x006882b3  # add x5, x17, x6
    .word 0x010b3333  # sltu x6, x22, x16
    .word 0x00628833  # add x16, x5, x6
    .word 0x02600313  # addi x6, x0, 38
    .word 0x026986b3  # mul x13, x19, x6
    .word 0x02600313  # addi x6, x0, 38
    .word 0x0269b8b3  # mulhu x17, x19, x6
    .word 0x2a812283  # lw x5, 680(x2)
    .word 0x00d28733  # add x14, x5, x13
    .word 0x01070bb3  # add x23, x14, x16
    .word 0x00d73333  # sltu x6, x14, x13
    .word 0x006882b3  # add x5, x17, x6
    .word 0x010bb333  # sltu x6, x23, x16
    .word 0x00628833  # add x16, x5, x6
    .word 0x7a412283  # lw x5, 1956(x2)
    .word 0x02600313  # addi x6, x0, 38
    .word 0x026286b3  # mul x13, x5, x6
    .word 0x7a412283  # lw x5, 1956(x2)
    .word 0x02600313  # addi x6, x0, 38
    .word 0x0262b8b3  # mulhu x17, x5, x6
    .word 0x2ac12283  # lw x5, 684(x2)
    .word 0x00d28733  # add x14, x5, x13
    .word 0x01070c33  # add x24, x14, x16
    .word 0x00d73333  # sltu x6, x14, x13
    .word 0x006882b3  # add x5, x17, x6
    .word 0x010c3333  # sltu x6, x24, x16
    .word 0x00628833  # add x16, x5, x6
    .word 0x02600313  # addi x6, x0, 38
    .word 0x026a06b3  # mul x13, x20, x6
    .word 0x02600313  # addi x6, x0, 38
    .word 0x026a38b3  # mulhu x17, x20, x6
    .word 0x2b012283  # lw x5, 688(x2)
    .word 0x00d28733  # add x14, x5, x13
    .word 0x01070cb3  # add x25, x14, x16
    .word 0x00d73333  # sltu x6, x14, x13
    .word 0x006882b3  # add x5, x17, x6
    .word 0x010cb333  # sltu x6, x25, x16
    .word 0x00628833  # add x16, x5, x6
    .word 0x7a812283  # lw x5, 1960(x2)
    .word 0x02600313  # addi x6, x0, 38
    .word 0x026286b3  # mul x13, x5, x6
    .word 0x7a812283  # lw x5, 1960(x2)
    .word 0x02600313  # addi x6, x0, 38
    .word 0x0262b8b3  # mulhu x17, x5, x6
    .word 0x2b412283  # lw x5, 692(x2)
    .word 0x00d28733  # add x14, x5, x13
    .word 0x010702b3  # add x5, x14, x16
    .word 0x7a512a23  # sw x5, 1972(x2)
    .word 0x00d73333  # sltu x6, x14, x13
    .word 0x006882b3  # add x5, x17, x6
    .word 0x7b412303  # lw x6, 1972(x2)
    .word 0x01033333  # sltu x6, x6, x16
    .word 0x00628833  # add x16, x5, x6
    .word 0x7ac12283  # lw x5, 1964(x2)
    .word 0x02600313  # addi x6, x0, 38
    .word 0x026286b3  # mul x13, x5, x6
    .word 0x7ac12283  # lw x5, 1964(x2)
    .word 0x02600313  # addi x6, x0, 38
    .word 0x0262b8b3  # mulhu x17, x5, x6
    .word 0x2b812283  # lw x5, 696(x2)
    .word 0x00d28733  # add x14, x5, x13
    .word 0x010702b3  # add x5, x14, x16
    .word 0x7a512c23  # sw x5, 1976(x2)
    .word 0x00d73333  # sltu x6, x14, x13
    .word 0x006882b3  # add x5, x17, x6
    .word 0x7b812303  # lw x6, 1976(x2)
    .word 0x01033333  # sltu x6, x6, x16
    .word 0x00628833  # add x16, x5, x6
    .word 0x7b012283  # lw x5, 1968(x2)
    .word 0x02600313  # addi x6, x0, 38
    .word 0x026286b3  # mul x13, x5, x6
    .word 0x7b012283  # lw x5, 1968(x2)
    .word 0x02600313  # addi x6, x0, 38
    .word 0x0262b8b3  # mulhu x17, x5, x6
    .word 0x2bc12283  # lw x5, 700(x2)
    .word 0x00d28733  # add x14, x5, x13
    .word 0x010702b3  # add x5, x14, x16
    .word 0x7a512e23  # sw x5, 1980(x2)
    .word 0x00d73333  # sltu x6, x14, x13
    .word 0x006882b3  # add x5, x17, x6
    .word 0x7bc12303  # lw x6, 1980(x2)
    .word 0x01033333  # sltu x6, x6, x16
    .word 0x00628833  # add x16, x5, x6
    .word 0x01300293  # addi x5, x0, 19
    .word 0x00181313  # slli x6, x16, 1
    .word 0x7bc12383  # lw x7, 1980(x2)
    .word 0x01f3d393  # srli x7, x7, 31
    .word 0x00736333  # or x6, x6, x7
    .word 0x02628833  # mul x16, x5, x6
    .word 0x7bc12283  # lw x5, 1980(x2)
    .word 0x7c012303  # lw x6, 1984(x2)
    .word 0x0062f2b3  # and x5, x5, x6
    .word 0x7a512e23  # sw x5, 1980(x2)
    .word 0x010a8ab3  # add x21, x21, x16
    .word 0x010ab833  # sltu x16, x21, x16
    .word 0x010b0b33  # add x22, x22, x16
    .word 0x010b3833  # sltu x16, x22, x16
    .word 0x010b8bb3  # add x23, x23, x16
    .word 0x010bb833  # sltu x16, x23, x16
    .word 0x010c0c33  # add x24, x24, x16
    .word 0x010c3833  # sltu x16, x24, x16
    .word 0x010c8cb3  # add x25, x25, x16
    .word 0x010cb833  # sltu x16, x25, x16
    .word 0x7b412283  # lw x5, 1972(x2)
    .word 0x010282b3  # add x5, x5, x16
    .word 0x7a512a23  # sw x5, 1972(x2)
    .word 0x7b412283  # lw x5, 1972(x2)
    .word 0x0102b833  # sltu x16, x5, x16
    .word 0x7b812283  # lw x5, 1976(x2)
    .word 0x010282b3  # add x5, x5, x16
    .word 0x7a512c23  # sw x5, 1976(x2)
    .word 0x7b812283  # lw x5, 1976(x2)
    .word 0x0102b833  # sltu x16, x5, x16
    .word 0x7bc12283  # lw x5, 1980(x2)
    .word 0x010282b3  # add x5, x5, x16
    .word 0x7a512e23  # sw x5, 1980(x2)
    .word 0x01300313  # addi x6, x0, 19
    .word 0x7bc12383  # lw x7, 1980(x2)
    .word 0x01f3d393  # srli x7, x7, 31
    .word 0x02730333  # mul x6, x6, x7
    .word 0x006a8ab3  # add x21, x21, x6
    .word 0x7bc12283  # lw x5, 1980(x2)
    .word 0x7c012303  # lw x6, 1984(x2)
    .word 0x0062f2b3  # and x5, x5, x6
    .word 0x7a512e23  # sw x5, 1980(x2)
    .word 0x78812283  # lw x5, 1928(x2)
    .word 0x00229293  # slli x5, x5, 2
    .word 0x002282b3  # add x5, x5, x2
    .word 0x0b52a023  # sw x21, 160(x5)
    .word 0x78812283  # lw x5, 1928(x2)
    .word 0x00229293  # slli x5, x5, 2
    .word 0x002282b3  # add x5, x5, x2
    .word 0x0b62a223  # sw x22, 164(x5)
    .word 0x78812283  # lw x5, 1928(x2)
    .word 0x00229293  # slli x5, x5, 2
    .word 0x002282b3  # add x5, x5, x2
    .word 0x0b72a423  # sw x23, 168(x5)
    .word 0x78812283  # lw x5, 1928(x2)
    .word 0x00229293  # slli x5, x5, 2
    .word 0x002282b3  # add x5, x5, x2
    .word 0x0b82a623  # sw x24, 172(x5)
    .word 0x78812283  # lw x5, 1928(x2)
    .word 0x00229293  # slli x5, x5, 2
    .word 0x002282b3  # add x5, x5, x2
    .word 0x0b92a823  # sw x25, 176(x5)
    .word 0x78812283  # lw x5, 1928(x2)
    .word 0x7b412303  # lw x6, 1972(x2)
    .word 0x00229293  # slli x5, x5, 2
    .word 0x002282b3  # add x5, x5, x2
    .word 0x0a62aa23  # sw x6, 180(x5)
    .word 0x78812283  # lw x5, 1928(x2)
    .word 0x7b812303  # lw x6, 1976(x2)
    .word 0x00229293  # slli x5, x5, 2
    .word 0x002282b3  # add x5, x5, x2
    .word 0x0a62ac23  # sw x6, 184(x5)
    .word 0x78812283  # lw x5, 1928(x2)
    .word 0x7bc12303  # lw x6, 1980(x2)
    .word 0x00229293  # slli x5, x5, 2
    .word 0x002282b3  # add x5, x5, x2
    .word 0x0a62ae23  # sw x6, 188(x5)
    .word 0x3a40006f  # jal x0, 932
    .word 0x78c12283  # lw x5, 1932(x2)
    .word 0x00100313  # addi x6, x0, 1
    .word 0x1e629463  # bne x5, x6, 488
    .word 0x0a0da683  # lw x13, 160(x27)
    .word 0x0a0d2303  # lw x6, 160(x26)
    .word 0x00668733  # add x14, x13, x6
    .word 0x00070913  # addi x18, x14, 0
    .word 0x00d73833  # sltu x16, x14, x13
    .word 0x0a4da683  # lw x13, 164(x27)
    .word 0x0a4d2303  # lw x6, 164(x26)
    .word 0x00668733  # add x14, x13, x6
    .word 0x01070ab3  # add x21, x14, x16
    .word 0x00d732b3  # sltu x5, x14, x13
    .word 0x010ab333  # sltu x6, x21, x16
    .word 0x00628833  # add x16, x5, x6
    .word 0x0a8da683  # lw x13, 168(x27)
    .word 0x0a8d2303  # lw x6, 168(x26)
    .word 0x00668733  # add x14, x13, x6
    .word 0x01070b33  # add x22, x14, x16
    .word 0x00d732b3  # sltu x5, x14, x13
    .word 0x010b3333  # sltu x6, x22, x16
    .word 0x00628833  # add x16, x5, x6
    .word 0x0acda683  # lw x13, 172(x27)
    .word 0x0acd2303  # lw x6, 172(x26)
    .word 0x00668733  # add x14, x13, x6
    .word 0x01070bb3  # add x23, x14, x16
    .word 0x00d732b3  # sltu x5, x14, x13
    .word 0x010bb333  # sltu x6, x23, x16
    .word 0x00628833  # add x16, x5, x6
    .word 0x0b0da683  # lw x13, 176(x27)
    .word 0x0b0d2303  # lw x6, 176(x26)
    .word 0x00668733  # add x14, x13, x6
    .word 0x01070c33  # add x24, x14, x16
    .word 0x00d732b3  # sltu x5, x14, x13
    .word 0x010c3333  # sltu x6, x24, x16
    .word 0x00628833  # add x16, x5, x6
    .word 0x0b4da683  # lw x13, 180(x27)
    .word 0x0b4d2303  # lw x6, 180(x26)
    .word 0x00668733  # add x14, x13, x6
    .word 0x01070cb3  # add x25, x14, x16
    .word 0x00d732b3  # sltu x5, x14, x13
    .word 0x010cb333  # sltu x6, x25, x16
    .word 0x00628833  # add x16, x5, x6
    .word 0x0b8da683  # lw x13, 184(x27)
    .word 0x0b8d2303  # lw x6, 184(x26)
    .word 0x00668733  # add x14, x13, x6
    .word 0x010702b3  # add x5, x14, x16
    .word 0x7a512e23  # sw x5, 1980(x2)
    .word 0x00d732b3  # sltu x5, x14, x13
    .word 0x7bc12303  # lw x6, 1980(x2)
    .word 0x01033333  # sltu x6, x6, x16
    .word 0x00628833  # add x16, x5, x6
    .word 0x0bcda683  # lw x13, 188(x27)
    .word 0x0bcd2303  # lw x6, 188(x26)
    .word 0x00668733  # add x14, x13, x6
    .word 0x010708b3  # add x17, x14, x16
    .word 0x00d732b3  # sltu x5, x14, x13
    .word 0x0108b333  # sltu x6, x17, x16
    .word 0x00628833  # add x16, x5, x6
    .word 0x01300293  # addi x5, x0, 19
    .word 0x00181313  # slli x6, x16, 1
    .word 0x01f8d393  # srli x7, x17, 31
    .word 0x00736333  # or x6, x6, x7
    .word 0x02628833  # mul x16, x5, x6
    .word 0x7c012303  # lw x6, 1984(x2)
    .word 0x0068f8b3  # and x17, x17, x6
    .word 0x01090933  # add x18, x18, x16
    .word 0x01093833  # sltu x16, x18, x16
    .word 0x010a8ab3  # add x21, x21, x16
    .word 0x010ab833  # sltu x16, x21, x16
    .word 0x010b0b33  # add x22, x22, x16
    .word 0x010b3833  # sltu x16, x22, x16
    .word 0x010b8bb3  # add x23, x23, x16
    .word 0x010bb833  # sltu x16, x23, x16
    .word 0x010c0c33  # add x24, x24, x16
    .word 0x010c3833  # sltu x16, x24, x16
    .word 0x010c8cb3  # add x25, x25, x16
    .word 0x010cb833  # sltu x16, x25, x16
    .word 0x7bc12283  # lw x5, 1980(x2)
    .word 0x010282b3  # add x5, x5, x16
    .word 0x7a512e23  # sw x5, 1980(x2)
    .word 0x7bc12283  # lw x5, 1980(x2)
    .word 0x0102b833  # sltu x16, x5, x16
    .word 0x010888b3  # add x17, x17, x16
    .word 0x01300313  # addi x6, x0, 19
    .word 0x01f8d393  # srli x7, x17, 31
    .word 0x02730333  # mul x6, x6, x7
    .word 0x00690933  # add x18, x18, x6
    .word 0x7c012303  # lw x6, 1984(x2)
    .word 0x0068f8b3  # and x17, x17, x6
    .word 0x78812283  # lw x5, 1928(x2)
    .word 0x00229293  # slli x5, x5, 2
    .word 0x002282b3  # add x5, x5, x2
    .word 0x0b22a023  # sw x18, 160(x5)
    .word 0x78812283  # lw x5, 1928(x2)
    .word 0x00229293  # slli x5, x5, 2
    .word 0x002282b3  # add x5, x5, x2
    .word 0x0b52a223  # sw x21, 164(x5)
    .word 0x78812283  # lw x5, 1928(x2)
    .word 0x00229293  # slli x5, x5, 2
    .word 0x002282b3  # add x5, x5, x2
    .word 0x0b62a423  # sw x22, 168(x5)
    .word 0x78812283  # lw x5, 1928(x2)
    .word 0x00229293  # slli x5, x5, 2
    .word 0x002282b3  # add x5, x5, x2
    .word 0x0b72a623  # sw x23, 172(x5)
    .word 0x78812283  # lw x5, 1928(x2)
    .word 0x00229293  # slli x5, x5, 2
    .word 0x002282b3  # add x5, x5, x2
    .word 0x0b82a823  # sw x24, 176(x5)
    .word 0x78812283  # lw x5, 1928(x2)
    .word 0x00229293  # slli x5, x5, 2
    .word 0x002282b3  # add x5, x5, x2
    .word 0x0b92aa23  # sw x25, 180(x5)
    .word 0x78812283  # lw x5, 1928(x2)
    .word 0x7bc12303  # lw x6, 1980(x2)
    .word 0x00229293  # slli x5, x5, 2
    .word 0x002282b3  # add x5, x5, x2
    .word 0x0a62ac23  # sw x6, 184(x5)
    .word 0x78812283  # lw x5, 1928(x2)
    .word 0x00229293  # slli x5, x5, 2
    .word 0x002282b3  # add x5, x5, x2
    .word 0x0b12ae23  # sw x17, 188(x5)
    .word 0x1b40006f  # jal x0, 436
    .word 0x0a0da683  # lw x13, 160(x27)
    .word 0x0a0d2703  # lw x14, 160(x26)
    .word 0x40e688b3  # sub x17, x13, x14
    .word 0x00088913  # addi x18, x17, 0
    .word 0x00e6b833  # sltu x16, x13, x14
    .word 0x0a4da683  # lw x13, 164(x27)
    .word 0x0a4d2703  # lw x14, 164(x26)
    .word 0x40e688b3  # sub x17, x13, x14
    .word 0x41088ab3  # sub x21, x17, x16
    .word 0x00e6b2b3  # sltu x5, x13, x14
    .word 0x0108b333  # sltu x6, x17, x16
    .word 0x00628833  # add x16, x5, x6
    .word 0x0a8da683  # lw x13, 168(x27)
    .word 0x0a8d2703  # lw x14, 168(x26)
    .word 0x40e688b3  # sub x17, x13, x14
    .word 0x41088b33  # sub x22, x17, x16
    .word 0x00e6b2b3  # sltu x5, x13, x14
    .word 0x0108b333  # sltu x6, x17, x16
    .word 0x00628833  # add x16, x5, x6
    .word 0x0acda683  # lw x13, 172(x27)
    .word 0x0acd2703  # lw x14, 172(x26)
    .word 0x40e688b3  # sub x17, x13, x14
    .word 0x41088bb3  # sub x23, x17, x16
    .word 0x00e6b2b3  # sltu x5, x13, x14
    .word 0x0108b333  # sltu x6, x17, x16
    .word 0x00628833  # add x16, x5, x6
    .word 0x0b0da683  # lw x13, 176(x27)
    .word 0x0b0d2703  # lw x14, 176(x26)
    .word 0x40e688b3  # sub x17, x13, x14
    .word 0x41088c33  # sub x24, x17, x16
    .word 0x00e6b2b3  # sltu x5, x13, x14
    .word 0x0108b333  # sltu x6, x17, x16
    .word 0x00628833  # add x16, x5, x6
    .word 0x0b4da683  # lw x13, 180(x27)
    .word 0x0b4d2703  # lw x14, 180(x26)
    .word 0x40e688b3  # sub x17, x13, x14
    .word 0x41088cb3  # sub x25, x17, x16
    .word 0x00e6b2b3  # sltu x5, x13, x14
    .word 0x0108b333  # sltu x6, x17, x16
    .word 0x00628833  # add x16, x5, x6
    .word 0x0b8da683  # lw x13, 184(x27)
    .word 0x0b8d2703  # lw x14, 184(x26)
    .word 0x40e688b3  # sub x17, x13, x14
    .word 0x410882b3  # sub x5, x17, x16
    .word 0x7a512e23  # sw x5, 1980(x2)
    .word 0x00e6b2b3  # sltu x5, x13, x14
    .word 0x0108b333  # sltu x6, x17, x16
    .word 0x00628833  # add x16, x5, x6
    .word 0x0bcda683  # lw x13, 188(x27)
    .word 0x0bcd2703  # lw x14, 188(x26)
    .word 0x40e688b3  # sub x17, x13, x14
    .word 0x410882b3  # sub x5, x17, x16
    .word 0x7a512a23  # sw x5, 1972(x2)
    .word 0x00e6b2b3  # sltu x5, x13, x14
    .word 0x0108b333  # sltu x6, x17, x16
    .word 0x00628833  # add x16, x5, x6
    .word 0x02600293  # addi x5, x0, 38
    .word 0x03028833  # mul x16, x5, x16
    .word 0x78812283  # lw x5, 1928(x2)
    .word 0x41090333  # sub x6, x18, x16
    .word 0x00229293  # slli x5, x5, 2
    .word 0x002282b3  # add x5, x5, x2
    .word 0x0a62a023  # sw x6, 160(x5)
    .word 0x01093833  # sltu x16, x18, x16
    .word 0x78812283  # lw x5, 1928(x2)
    .word 0x410a8333  # sub x6, x21, x16
    .word 0x00229293  # slli x5, x5, 2
    .word 0x002282b3  # add x5, x5, x2
    .word 0x0a62a223  # sw x6, 164(x5)
    .word 0x010ab833  # sltu x16, x21, x16
    .word 0x78812283  # lw x5, 1928(x2)
    .word 0x410b0333  # sub x6, x22, x16
    .word 0x00229293  # slli x5, x5, 2
    .word 0x002282b3  # add x5, x5, x2
    .word 0x0a62a423  # sw x6, 168(x5)
    .word 0x010b3833  # sltu x16, x22, x16
    .word 0x78812283  # lw x5, 1928(x2)
    .word 0x410b8333  # sub x6, x23, x16
    .word 0x00229293  # slli x5, x5, 2
    .word 0x002282b3  # add x5, x5, x2
    .word 0x0a62a623  # sw x6, 172(x5)
    .word 0x010bb833  # sltu x16, x23, x16
    .word 0x78812283  # lw x5, 1928(x2)
    .word 0x410c0333  # sub x6, x24, x16
    .word 0x00229293  # slli x5, x5, 2
    .word 0x002282b3  # add x5, x5, x2
    .word 0x0a62a823  # sw x6, 176(x5)
    .word 0x010c3833  # sltu x16, x24, x16
    .word 0x78812283  # lw x5, 1928(x2)
    .word 0x410c8333  # sub x6, x25, x16
    .word 0x00229293  # slli x5, x5, 2
    .word 0x002282b3  # add x5, x5, x2
    .word 0x0a62aa23  # sw x6, 180(x5)
    .word 0x010cb833  # sltu x16, x25, x16
    .word 0x78812283  # lw x5, 1928(x2)
    .word 0x7bc12303  # lw x6, 1980(x2)
    .word 0x41030333  # sub x6, x6, x16
    .word 0x00229293  # slli x5, x5, 2
    .word 0x002282b3  # add x5, x5, x2
    .word 0x0a62ac23  # sw x6, 184(x5)
    .word 0x7bc12283  # lw x5, 1980(x2)
    .word 0x0102b833  # sltu x16, x5, x16
    .word 0x78812283  # lw x5, 1928(x2)
    .word 0x7b412303  # lw x6, 1972(x2)
    .word 0x41030333  # sub x6, x6, x16
    .word 0x00229293  # slli x5, x5, 2
    .word 0x002282b3  # add x5, x5, x2
    .word 0x0a62ae23  # sw x6, 188(x5)
    .word 0xfd5fe06f  # jal x0, -4140
    .word 0x77412283  # lw x5, 1908(x2)
    .word 0x0012b293  # sltiu x5, x5, 1
    .word 0x77412303  # lw x6, 1908(x2)
    .word 0x15433313  # sltiu x6, x6, 340
    .word 0x00133313  # sltiu x6, x6, 1
    .word 0x0062e2b3  # or x5, x5, x6
    .word 0x12028263  # beq x5, x0, 292
    .word 0x77412283  # lw x5, 1908(x2)
    .word 0x0012b293  # sltiu x5, x5, 1
    .word 0x04800313  # addi x6, x0, 72
    .word 0x77412383  # lw x7, 1908(x2)
    .word 0x0013f393  # andi x7, x7, 1
    .word 0x00339393  # slli x7, x7, 3
    .word 0x405002b3  # sub x5, x0, x5
    .word 0x00734333  # xor x6, x6, x7
    .word 0x00537333  # and x6, x6, x5
    .word 0x0063c633  # xor x12, x7, x6
    .word 0x00261d13  # slli x26, x12, 2
    .word 0x002d0d33  # add x26, x26, x2
    .word 0x0a0d2283  # lw x5, 160(x26)
    .word 0x01328293  # addi x5, x5, 19
    .word 0x0132b813  # sltiu x16, x5, 19
    .word 0x0a4d2283  # lw x5, 164(x26)
    .word 0x010282b3  # add x5, x5, x16
    .word 0x0102b833  # sltu x16, x5, x16
    .word 0x0a8d2283  # lw x5, 168(x26)
    .word 0x010282b3  # add x5, x5, x16
    .word 0x0102b833  # sltu x16, x5, x16
    .word 0x0acd2283  # lw x5, 172(x26)
    .word 0x010282b3  # add x5, x5, x16
    .word 0x0102b833  # sltu x16, x5, x16
    .word 0x0b0d2283  # lw x5, 176(x26)
    .word 0x010282b3  # add x5, x5, x16
    .word 0x0102b833  # sltu x16, x5, x16
    .word 0x0b4d2283  # lw x5, 180(x26)
    .word 0x010282b3  # add x5, x5, x16
    .word 0x0102b833  # sltu x16, x5, x16
    .word 0x0b8d2283  # lw x5, 184(x26)
    .word 0x010282b3  # add x5, x5, x16
    .word 0x0102b833  # sltu x16, x5, x16
    .word 0x0bcd2283  # lw x5, 188(x26)
    .word 0x010282b3  # add x5, x5, x16
    .word 0x41f2d293  # srai x5, x5, 31
    .word 0x0132f813  # andi x16, x5, 19
    .word 0x0a0d2283  # lw x5, 160(x26)
    .word 0x010286b3  # add x13, x5, x16
    .word 0x0106b833  # sltu x16, x13, x16
    .word 0x0add2023  # sw x13, 160(x26)
    .word 0x0a4d2283  # lw x5, 164(x26)
    .word 0x010286b3  # add x13, x5, x16
    .word 0x0106b833  # sltu x16, x13, x16
    .word 0x0add2223  # sw x13, 164(x26)
    .word 0x0a8d2283  # lw x5, 168(x26)
    .word 0x010286b3  # add x13, x5, x16
    .word 0x0106b833  # sltu x16, x13, x16
    .word 0x0add2423  # sw x13, 168(x26)
    .word 0x0acd2283  # lw x5, 172(x26)
    .word 0x010286b3  # add x13, x5, x16
    .word 0x0106b833  # sltu x16, x13, x16
    .word 0x0add2623  # sw x13, 172(x26)
    .word 0x0b0d2283  # lw x5, 176(x26)
    .word 0x010286b3  # add x13, x5, x16
    .word 0x0106b833  # sltu x16, x13, x16
    .word 0x0add2823  # sw x13, 176(x26)
    .word 0x0b4d2283  # lw x5, 180(x26)
    .word 0x010286b3  # add x13, x5, x16
    .word 0x0106b833  # sltu x16, x13, x16
    .word 0x0add2a23  # sw x13, 180(x26)
    .word 0x0b8d2283  # lw x5, 184(x26)
    .word 0x010286b3  # add x13, x5, x16
    .word 0x0106b833  # sltu x16, x13, x16
    .word 0x0add2c23  # sw x13, 184(x26)
    .word 0x0bcd2283  # lw x5, 188(x26)
    .word 0x010286b3  # add x13, x5, x16
    .word 0x0add2e23  # sw x13, 188(x26)
    .word 0x0bcd2283  # lw x5, 188(x26)
    .word 0x7c012303  # lw x6, 1984(x2)
    .word 0x0062f2b3  # and x5, x5, x6
    .word 0x0a5d2e23  # sw x5, 188(x26)
    .word 0x7c012c23  # sw x0, 2008(x2)
    .word 0x77412283  # lw x5, 1908(x2)
    .word 0x0012b293  # sltiu x5, x5, 1
    .word 0x00800313  # addi x6, x0, 8
    .word 0x405002b3  # sub x5, x0, x5
    .word 0x005372b3  # and x5, x6, x5
    .word 0x7c512e23  # sw x5, 2012(x2)
    .word 0x7d812303  # lw x6, 2008(x2)
    .word 0x7dc12283  # lw x5, 2012(x2)
    .word 0x005332b3  # sltu x5, x6, x5
    .word 0x00029463  # bne x5, x0, 8
    .word 0x0340006f  # jal x0, 52
    .word 0x78612823  # sw x6, 1936(x2)
    .word 0x00130313  # addi x6, x6, 1
    .word 0x7c612c23  # sw x6, 2008(x2)
    .word 0x77012283  # lw x5, 1904(x2)
    .word 0x79012303  # lw x6, 1936(x2)
    .word 0x04830313  # addi x6, x6, 72
    .word 0x00231313  # slli x6, x6, 2
    .word 0x00230333  # add x6, x6, x2
    .word 0x0a032303  # lw x6, 160(x6)
    .word 0x0062e2b3  # or x5, x5, x6
    .word 0x76512823  # sw x5, 1904(x2)
    .word 0xfc1ff06f  # jal x0, -64
    .word 0x77412283  # lw x5, 1908(x2)
    .word 0x0012b293  # sltiu x5, x5, 1
    .word 0x02000313  # addi x6, x0, 32
    .word 0x405002b3  # sub x5, x0, x5
    .word 0x00537633  # and x12, x6, x5
    .word 0x00261d13  # slli x26, x12, 2
    .word 0x002d0d33  # add x26, x26, x2
    .word 0x7c012c23  # sw x0, 2008(x2)
    .word 0x77412283  # lw x5, 1908(x2)
    .word 0x0082b293  # sltiu x5, x5, 8
    .word 0x02000313  # addi x6, x0, 32
    .word 0x405002b3  # sub x5, x0, x5
    .word 0x005372b3  # and x5, x6, x5
    .word 0x7c512e23  # sw x5, 2012(x2)
    .word 0x7d812303  # lw x6, 2008(x2)
    .word 0x7dc12283  # lw x5, 2012(x2)
    .word 0x005332b3  # sltu x5, x6, x5
    .word 0x00029463  # bne x5, x0, 8
    .word 0x0680006f  # jal x0, 104
    .word 0x78612a23  # sw x6, 1940(x2)
    .word 0x00130313  # addi x6, x6, 1
    .word 0x7c612c23  # sw x6, 2008(x2)
    .word 0x79412283  # lw x5, 1940(x2)
    .word 0x79412383  # lw x7, 1940(x2)
    .word 0x00760333  # add x6, x12, x7
    .word 0x00231313  # slli x6, x6, 2
    .word 0x00230333  # add x6, x6, x2
    .word 0x0a032303  # lw x6, 160(x6)
    .word 0x00229293  # slli x5, x5, 2
    .word 0x002282b3  # add x5, x5, x2
    .word 0x0a62a023  # sw x6, 160(x5)
    .word 0x79412283  # lw x5, 1940(x2)
    .word 0x00329293  # slli x5, x5, 3
    .word 0x77412303  # lw x6, 1908(x2)
    .word 0x00737313  # andi x6, x6, 7
    .word 0x006282b3  # add x5, x5, x6
    .word 0x79412303  # lw x6, 1940(x2)
    .word 0x00231313  # slli x6, x6, 2
    .word 0x00230333  # add x6, x6, x2
    .word 0x0a032303  # lw x6, 160(x6)
    .word 0x00229293  # slli x5, x5, 2
    .word 0x002282b3  # add x5, x5, x2
    .word 0x2c62a023  # sw x6, 704(x5)
    .word 0xf8dff06f  # jal x0, -116
    .word 0x7c012c23  # sw x0, 2008(x2)
    .word 0x77412283  # lw x5, 1908(x2)
    .word 0xeab28293  # addi x5, x5, -341
    .word 0x005032b3  # sltu x5, x0, x5
    .word 0x01000313  # addi x6, x0, 16
    .word 0xfff28293  # addi x5, x5, -1
    .word 0x005372b3  # and x5, x6, x5
    .word 0x7c512e23  # sw x5, 2012(x2)
    .word 0x7d812303  # lw x6, 2008(x2)
    .word 0x7dc12283  # lw x5, 2012(x2)
    .word 0x005332b3  # sltu x5, x6, x5
    .word 0x00029463  # bne x5, x0, 8
    .word 0x0680006f  # jal x0, 104
    .word 0x78612c23  # sw x6, 1944(x2)
    .word 0x00130313  # addi x6, x6, 1
    .word 0x7c612c23  # sw x6, 2008(x2)
    .word 0x77012283  # lw x5, 1904(x2)
    .word 0x0012b293  # sltiu x5, x5, 1
    .word 0x79812303  # lw x6, 1944(x2)
    .word 0x00231313  # slli x6, x6, 2
    .word 0x00230333  # add x6, x6, x2
    .word 0x0a032303  # lw x6, 160(x6)
    .word 0x405002b3  # sub x5, x0, x5
    .word 0x00537833  # and x16, x6, x5
    .word 0xfff00793  # addi x15, x0, -1
    .word 0x00178793  # addi x15, x15, 1
    .word 0x00279d93  # slli x27, x15, 2
    .word 0x002d8db3  # add x27, x27, x2
    .word 0x79812283  # lw x5, 1944(x2)
    .word 0x00229293  # slli x5, x5, 2
    .word 0x00f282b3  # add x5, x5, x15
    .word 0x00379393  # slli x7, x15, 3
    .word 0x00785333  # srl x6, x16, x7
    .word 0x002282b3  # add x5, x5, x2
    .word 0x06628023  # sb x6, 96(x5)
    .word 0xffd78293  # addi x5, x15, -3
    .word 0xfc029ae3  # bne x5, x0, -44
    .word 0xf8dff06f  # jal x0, -116
    .word 0xf04fe06f  # jal x0, -6396
    .word 0x77012283  # lw x5, 1904(x2)
    .word 0x0012b293  # sltiu x5, x5, 1
    .word 0x7c512623  # sw x5, 1996(x2)
    # the result
    .word 0x7cc12503  # lw x10, 1996(x2)
    # parameter 2: the array, back
    .word 0x06010293  # addi x5, x2, 96
    .word 0x00001337  # lui x6, 0x00001
    .word 0x00230333  # add x6, x6, x2
    .word 0x82c32303  # lw x6, -2004(x6)
    .word 0x04028393  # addi x7, x5, 64
    .word 0x09000f6f  # jal x30, 144
    # above the frame
    .word 0x7f010293  # addi x5, x2, 2032
    # the caller's registers
    .word 0x0002a403  # lw x8, 0(x5)
    .cfi_restore 8
    .word 0x0042a483  # lw x9, 4(x5)
    .cfi_restore 9
    .word 0x0082a903  # lw x18, 8(x5)
    .cfi_restore 18
    .word 0x00c2a983  # lw x19, 12(x5)
    .cfi_restore 19
    .word 0x0102aa03  # lw x20, 16(x5)
    .cfi_restore 20
    .word 0x0142aa83  # lw x21, 20(x5)
    .cfi_restore 21
    .word 0x0182ab03  # lw x22, 24(x5)
    .cfi_restore 22
    .word 0x01c2ab83  # lw x23, 28(x5)
    .cfi_restore 23
    .word 0x0202ac03  # lw x24, 32(x5)
    .cfi_restore 24
    .word 0x0242ac83  # lw x25, 36(x5)
    .cfi_restore 25
    .word 0x0282ad03  # lw x26, 40(x5)
    .cfi_restore 26
    .word 0x02c2ad83  # lw x27, 44(x5)
    .cfi_restore 27
    # the caller's x2
    .word 0x04028293  # addi x5, x5, 64
    .cfi_def_cfa 5, 0
    # all the room, wiped upward
    .word 0x00012023  # sw x0, 0(x2)
    .word 0x00012223  # sw x0, 4(x2)
    .word 0x00012423  # sw x0, 8(x2)
    .word 0x00012623  # sw x0, 12(x2)
    .word 0x01010113  # addi x2, x2, 16
    .word 0xfe5116e3  # bne x2, x5, -20
    .cfi_def_cfa 2, 0
    # temporaries, wiped
    .word 0x00000293  # addi x5, x0, 0
    .word 0x00000313  # addi x6, x0, 0
    .word 0x00000393  # addi x7, x0, 0
    .word 0x00000593  # addi x11, x0, 0
    .word 0x00000613  # addi x12, x0, 0
    .word 0x00000693  # addi x13, x0, 0
    .word 0x00000713  # addi x14, x0, 0
    .word 0x00000793  # addi x15, x0, 0
    .word 0x00000813  # addi x16, x0, 0
    .word 0x00000893  # addi x17, x0, 0
    .word 0x00000e13  # addi x28, x0, 0
    .word 0x00000e93  # addi x29, x0, 0
    .word 0x00000f13  # addi x30, x0, 0
    .word 0x00000f93  # addi x31, x0, 0
    # back
    .word 0x00008067  # jalr x0, 0(x1)
    # from x5 to x6 up to x7, and back
    .cfi_def_cfa 2, 2096
    .cfi_offset 8, -64
    .cfi_offset 9, -60
    .cfi_offset 18, -56
    .cfi_offset 19, -52
    .cfi_offset 20, -48
    .cfi_offset 21, -44
    .cfi_offset 22, -40
    .cfi_offset 23, -36
    .cfi_offset 24, -32
    .cfi_offset 25, -28
    .cfi_offset 26, -24
    .cfi_offset 27, -20
    .word 0x0062ee33  # or x28, x5, x6
    .word 0x003e7e13  # andi x28, x28, 3
    .word 0x000e0e63  # beq x28, x0, 28
    .word 0x0002ce03  # lbu x28, 0(x5)
    .word 0x01c30023  # sb x28, 0(x6)
    .word 0x00128293  # addi x5, x5, 1
    .word 0x00130313  # addi x6, x6, 1
    .word 0xfe7298e3  # bne x5, x7, -16
    .word 0x0300006f  # jal x0, 48
    .word 0x0002ae03  # lw x28, 0(x5)
    .word 0x01c32023  # sw x28, 0(x6)
    .word 0x0042ae03  # lw x28, 4(x5)
    .word 0x01c32223  # sw x28, 4(x6)
    .word 0x0082ae03  # lw x28, 8(x5)
    .word 0x01c32423  # sw x28, 8(x6)
    .word 0x00c2ae03  # lw x28, 12(x5)
    .word 0x01c32623  # sw x28, 12(x6)
    .word 0x01028293  # addi x5, x5, 16
    .word 0x01030313  # addi x6, x6, 16
    .word 0xfc729ce3  # bne x5, x7, -40
    .word 0x000f0067  # jalr x0, 0(x30)
    .cfi_endproc
    .size ed25519_scalar_multiply, . - ed25519_scalar_multiply
    .option pop
