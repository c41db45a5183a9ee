# p256_scalar_multiply: made by factc 1.0.0 function; 2047 words and 21 shared, 2928 bytes of stack, profile 1
    .option push
    .option norvc
    .option norelax
    .cfi_sections .debug_frame
    .section .text.p256_scalar_multiply, "ax", @progbits
    .p2align 2
    .globl p256_scalar_multiply
    .type p256_scalar_multiply, @function
p256_scalar_multiply:
    .cfi_startproc
    # room above the frame
    .word 0xfc010113  # addi x2, x2, -64
    .cfi_def_cfa_offset 64
    # the caller's registers
    .word 0x00812023  # sw x8, 0(x2)
    .cfi_offset 8, -64
    .word 0x00912223  # sw x9, 4(x2)
    .cfi_offset 9, -60
    .word 0x01212423  # sw x18, 8(x2)
    .cfi_offset 18, -56
    .word 0x01312623  # sw x19, 12(x2)
    .cfi_offset 19, -52
    .word 0x01412823  # sw x20, 16(x2)
    .cfi_offset 20, -48
    .word 0x01512a23  # sw x21, 20(x2)
    .cfi_offset 21, -44
    .word 0x01612c23  # sw x22, 24(x2)
    .cfi_offset 22, -40
    .word 0x01712e23  # sw x23, 28(x2)
    .cfi_offset 23, -36
    .word 0x03812023  # sw x24, 32(x2)
    .cfi_offset 24, -32
    .word 0x03912223  # sw x25, 36(x2)
    .cfi_offset 25, -28
    .word 0x03a12423  # sw x26, 40(x2)
    .cfi_offset 26, -24
    .word 0x03b12623  # sw x27, 44(x2)
    .cfi_offset 27, -20
    # arguments that are needed behind the body
    .word 0x02a12a23  # sw x10, 52(x2)
    .word 0x02b12c23  # sw x11, 56(x2)
    .word 0x02c12e23  # sw x12, 60(x2)
    # the frame's base
    .word 0x000012b7  # lui x5, 0x00001
    .word 0xb3028293  # addi x5, x5, -1232
    .word 0x405102b3  # sub x5, x2, x5
    .cfi_def_cfa 5, 2928
    # the frame, zeroed downward
    .word 0xff010113  # addi x2, x2, -16
    .word 0x00012023  # sw x0, 0(x2)
    .word 0x00012223  # sw x0, 4(x2)
    .word 0x00012423  # sw x0, 8(x2)
    .word 0x00012623  # sw x0, 12(x2)
    .word 0xfe5116e3  # bne x2, x5, -20
    .cfi_def_cfa 2, 2928
    # parameter 0: an array
    .word 0x00050293  # addi x5, x10, 0
    .word 0x00010313  # addi x6, x2, 0
    .word 0x02028393  # addi x7, x5, 32
    .word 0x0002ce03  # lbu x28, 0(x5)
    .word 0x01c30023  # sb x28, 0(x6)
    .word 0x00128293  # addi x5, x5, 1
    .word 0x00130313  # addi x6, x6, 1
    .word 0xfe7298e3  # bne x5, x7, -16
    # parameter 1: an array
    .word 0x00058293  # addi x5, x11, 0
    .word 0x02010313  # addi x6, x2, 32
    .word 0x04028393  # addi x7, x5, 64
    .word 0x0002ce03  # lbu x28, 0(x5)
    .word 0x01c30023  # sb x28, 0(x6)
    .word 0x00128293  # addi x5, x5, 1
    .word 0x00130313  # addi x6, x6, 1
    .word 0xfe7298e3  # bne x5, x7, -16
    # parameter 2: an array
    .word 0x00060293  # addi x5, x12, 0
    .word 0x06010313  # addi x6, x2, 96
    .word 0x04028393  # addi x7, x5, 64
    .word 0x0002ce03  # lbu x28, 0(x5)
    .word 0x01c30023  # sb x28, 0(x6)
    .word 0x00128293  # addi x5, x5, 1
    .word 0x00130313  # addi x6, x6, 1
    .word 0xfe7298e3  # bne x5, x7, -16
    # the body
    .word 0x00000613  # addi x12, x0, 0
    .word 0x00000693  # addi x13, x0, 0
    .word 0x00000713  # addi x14, x0, 0
    .word 0x000012b7  # lui x5, 0x00001
    .word 0xf0f28293  # addi x5, x5, -241
    .word 0x00001e37  # lui x28, 0x00001
    .word 0x002e0e33  # add x28, x28, x2
    .word 0xb05e2023  # sw x5, -1280(x28)
    .word 0x000012b7  # lui x5, 0x00001
    .word 0xf0028293  # addi x5, x5, -256
    .word 0x00001e37  # lui x28, 0x00001
    .word 0x002e0e33  # add x28, x28, x2
    .word 0xb05e2223  # sw x5, -1276(x28)
    .word 0x0a000313  # addi x6, x0, 160
    .word 0x00230333  # add x6, x6, x2
    .word 0x20000393  # addi x7, x0, 512
    .word 0x006383b3  # add x7, x7, x6
    .word 0x406382b3  # sub x5, x7, x6
    .word 0x00029463  # bne x5, x0, 8
    .word 0x0100006f  # jal x0, 16
    .word 0x00032023  # sw x0, 0(x6)
    .word 0x00430313  # addi x6, x6, 4
    .word 0xfedff06f  # jal x0, -20
    .word 0x2a000313  # addi x6, x0, 672
    .word 0x00230333  # add x6, x6, x2
    .word 0x02000393  # addi x7, x0, 32
    .word 0x006383b3  # add x7, x7, x6
    .word 0x406382b3  # sub x5, x7, x6
    .word 0x00029463  # bne x5, x0, 8
    .word 0x0100006f  # jal x0, 16
    .word 0x00032023  # sw x0, 0(x6)
    .word 0x00430313  # addi x6, x6, 4
    .word 0xfedff06f  # jal x0, -20
    .word 0x2c000313  # addi x6, x0, 704
    .word 0x00230333  # add x6, x6, x2
    .word 0x60000393  # addi x7, x0, 1536
    .word 0x006383b3  # add x7, x7, x6
    .word 0x406382b3  # sub x5, x7, x6
    .word 0x00029463  # bne x5, x0, 8
    .word 0x0100006f  # jal x0, 16
    .word 0x00032023  # sw x0, 0(x6)
    .word 0x00430313  # addi x6, x6, 4
    .word 0xfedff06f  # jal x0, -20
    .word 0x33f00293  # addi x5, x0, 831
    .word 0x00001e37  # lui x28, 0x00001
    .word 0x002e0e33  # add x28, x28, x2
    .word 0x8c5e1023  # sh x5, -1856(x28)
    .word 0x44f00293  # addi x5, x0, 1103
    .word 0x00001e37  # lui x28, 0x00001
    .word 0x002e0e33  # add x28, x28, x2
    .word 0x8c5e1123  # sh x5, -1854(x28)
    .word 0x73300293  # addi x5, x0, 1843
    .word 0x00001e37  # lui x28, 0x00001
    .word 0x002e0e33  # add x28, x28, x2
    .word 0x8c5e1223  # sh x5, -1852(x28)
    .word 0x77300293  # addi x5, x0, 1907
    .word 0x00001e37  # lui x28, 0x00001
    .word 0x002e0e33  # add x28, x28, x2
    .word 0x8c5e1323  # sh x5, -1850(x28)
    .word 0x000022b7  # lui x5, 0x00002
    .word 0x83328293  # addi x5, x5, -1997
    .word 0x00001e37  # lui x28, 0x00001
    .word 0x002e0e33  # add x28, x28, x2
    .word 0x8c5e1423  # sh x5, -1848(x28)
    .word 0x000022b7  # lui x5, 0x00002
    .word 0x88328293  # addi x5, x5, -1917
    .word 0x00001e37  # lui x28, 0x00001
    .word 0x002e0e33  # add x28, x28, x2
    .word 0x8c5e1523  # sh x5, -1846(x28)
    .word 0x000022b7  # lui x5, 0x00002
    .word 0x77828293  # addi x5, x5, 1912
    .word 0x00001e37  # lui x28, 0x00001
    .word 0x002e0e33  # add x28, x28, x2
    .word 0x8c5e1623  # sh x5, -1844(x28)
    .word 0x000012b7  # lui x5, 0x00001
    .word 0x77628293  # addi x5, x5, 1910
    .word 0x00001e37  # lui x28, 0x00001
    .word 0x002e0e33  # add x28, x28, x2
    .word 0x8c5e1723  # sh x5, -1842(x28)
    .word 0x000012b7  # lui x5, 0x00001
    .word 0x84428293  # addi x5, x5, -1980
    .word 0x00001e37  # lui x28, 0x00001
    .word 0x002e0e33  # add x28, x28, x2
    .word 0x8c5e1823  # sh x5, -1840(x28)
    .word 0x70300293  # addi x5, x0, 1795
    .word 0x00001e37  # lui x28, 0x00001
    .word 0x002e0e33  # add x28, x28, x2
    .word 0x8c5e1923  # sh x5, -1838(x28)
    .word 0x000012b7  # lui x5, 0x00001
    .word 0x81428293  # addi x5, x5, -2028
    .word 0x00001e37  # lui x28, 0x00001
    .word 0x002e0e33  # add x28, x28, x2
    .word 0x8c5e1a23  # sh x5, -1836(x28)
    .word 0x000012b7  # lui x5, 0x00001
    .word 0x92528293  # addi x5, x5, -1755
    .word 0x00001e37  # lui x28, 0x00001
    .word 0x002e0e33  # add x28, x28, x2
    .word 0x8c5e1b23  # sh x5, -1834(x28)
    .word 0x000022b7  # lui x5, 0x00002
    .word 0xa0128293  # addi x5, x5, -1535
    .word 0x00001e37  # lui x28, 0x00001
    .word 0x002e0e33  # add x28, x28, x2
    .word 0x8c5e1c23  # sh x5, -1832(x28)
    .word 0x000022b7  # lui x5, 0x00002
    .word 0xb3428293  # addi x5, x5, -1228
    .word 0x00001e37  # lui x28, 0x00001
    .word 0x002e0e33  # add x28, x28, x2
    .word 0x8c5e1d23  # sh x5, -1830(x28)
    .word 0x000012b7  # lui x5, 0x00001
    .word 0xaab28293  # addi x5, x5, -1365
    .word 0x00001e37  # lui x28, 0x00001
    .word 0x002e0e33  # add x28, x28, x2
    .word 0x8c5e1e23  # sh x5, -1828(x28)
    .word 0x000022b7  # lui x5, 0x00002
    .word 0xb7828293  # addi x5, x5, -1160
    .word 0x00001e37  # lui x28, 0x00001
    .word 0x002e0e33  # add x28, x28, x2
    .word 0x8c5e1f23  # sh x5, -1826(x28)
    .word 0x000032b7  # lui x5, 0x00003
    .word 0xaab28293  # addi x5, x5, -1365
    .word 0x00001e37  # lui x28, 0x00001
    .word 0x002e0e33  # add x28, x28, x2
    .word 0x8e5e1023  # sh x5, -1824(x28)
    .word 0x000022b7  # lui x5, 0x00002
    .word 0xb1228293  # addi x5, x5, -1262
    .word 0x00001e37  # lui x28, 0x00001
    .word 0x002e0e33  # add x28, x28, x2
    .word 0x8e5e1123  # sh x5, -1822(x28)
    .word 0x000022b7  # lui x5, 0x00002
    .word 0xc4528293  # addi x5, x5, -955
    .word 0x00001e37  # lui x28, 0x00001
    .word 0x002e0e33  # add x28, x28, x2
    .word 0x8e5e1223  # sh x5, -1820(x28)
    .word 0x000012b7  # lui x5, 0x00001
    .word 0xbbc28293  # addi x5, x5, -1092
    .word 0x00001e37  # lui x28, 0x00001
    .word 0x002e0e33  # add x28, x28, x2
    .word 0x8e5e1323  # sh x5, -1818(x28)
    .word 0x000022b7  # lui x5, 0x00002
    .word 0xc8928293  # addi x5, x5, -887
    .word 0x00001e37  # lui x28, 0x00001
    .word 0x002e0e33  # add x28, x28, x2
    .word 0x8e5e1423  # sh x5, -1816(x28)
    .word 0x000032b7  # lui x5, 0x00003
    .word 0xbbc28293  # addi x5, x5, -1092
    .word 0x00001e37  # lui x28, 0x00001
    .word 0x002e0e33  # add x28, x28, x2
    .word 0x8e5e1523  # sh x5, -1814(x28)
    .word 0x000022b7  # lui x5, 0x00002
    .word 0xc0228293  # addi x5, x5, -1022
    .word 0x00001e37  # lui x28, 0x00001
    .word 0x002e0e33  # add x28, x28, x2
    .word 0x8e5e1623  # sh x5, -1812(x28)
    .word 0x000022b7  # lui x5, 0x00002
    .word 0xd3528293  # addi x5, x5, -715
    .word 0x00001e37  # lui x28, 0x00001
    .word 0x002e0e33  # add x28, x28, x2
    .word 0x8e5e1723  # sh x5, -1810(x28)
    .word 0x0cd00293  # addi x5, x0, 205
    .word 0x00001e37  # lui x28, 0x00001
    .word 0x002e0e33  # add x28, x28, x2
    .word 0x8e5e1823  # sh x5, -1808(x28)
    .word 0x000012b7  # lui x5, 0x00001
    .word 0x17928293  # addi x5, x5, 377
    .word 0x00001e37  # lui x28, 0x00001
    .word 0x002e0e33  # add x28, x28, x2
    .word 0x8e5e1923  # sh x5, -1806(x28)
    .word 0x000022b7  # lui x5, 0x00002
    .word 0x10128293  # addi x5, x5, 257
    .word 0x00001e37  # lui x28, 0x00001
    .word 0x002e0e33  # add x28, x28, x2
    .word 0x8e5e1a23  # sh x5, -1804(x28)
    .word 0x26900293  # addi x5, x0, 617
    .word 0x00001e37  # lui x28, 0x00001
    .word 0x002e0e33  # add x28, x28, x2
    .word 0x8e5e1b23  # sh x5, -1802(x28)
    .word 0x000022b7  # lui x5, 0x00002
    .word 0x01228293  # addi x5, x5, 18
    .word 0x00001e37  # lui x28, 0x00001
    .word 0x002e0e33  # add x28, x28, x2
    .word 0x8e5e1c23  # sh x5, -1800(x28)
    .word 0x000012b7  # lui x5, 0x00001
    .word 0x20028293  # addi x5, x5, 512
    .word 0x00001e37  # lui x28, 0x00001
    .word 0x002e0e33  # add x28, x28, x2
    .word 0x8e5e1d23  # sh x5, -1798(x28)
    .word 0x000012b7  # lui x5, 0x00001
    .word 0x00228293  # addi x5, x5, 2
    .word 0x00001e37  # lui x28, 0x00001
    .word 0x002e0e33  # add x28, x28, x2
    .word 0x8e5e1e23  # sh x5, -1796(x28)
    .word 0x000022b7  # lui x5, 0x00002
    .word 0x28028293  # addi x5, x5, 640
    .word 0x00001e37  # lui x28, 0x00001
    .word 0x002e0e33  # add x28, x28, x2
    .word 0x8e5e1f23  # sh x5, -1794(x28)
    .word 0x000012b7  # lui x5, 0x00001
    .word 0x08028293  # addi x5, x5, 128
    .word 0x00001e37  # lui x28, 0x00001
    .word 0x002e0e33  # add x28, x28, x2
    .word 0x905e1023  # sh x5, -1792(x28)
    .word 0x16100293  # addi x5, x0, 353
    .word 0x00001e37  # lui x28, 0x00001
    .word 0x002e0e33  # add x28, x28, x2
    .word 0x905e1123  # sh x5, -1790(x28)
    .word 0x000022b7  # lui x5, 0x00002
    .word 0x89928293  # addi x5, x5, -1895
    .word 0x00001e37  # lui x28, 0x00001
    .word 0x002e0e33  # add x28, x28, x2
    .word 0x905e1223  # sh x5, -1788(x28)
    .word 0x000022b7  # lui x5, 0x00002
    .word 0x98928293  # addi x5, x5, -1655
    .word 0x00001e37  # lui x28, 0x00001
    .word 0x002e0e33  # add x28, x28, x2
    .word 0x905e1323  # sh x5, -1786(x28)
    .word 0x000022b7  # lui x5, 0x00002
    .word 0x11928293  # addi x5, x5, 281
    .word 0x00001e37  # lui x28, 0x00001
    .word 0x002e0e33  # add x28, x28, x2
    .word 0x905e1423  # sh x5, -1784(x28)
    .word 0x000022b7  # lui x5, 0x00002
    .word 0x11728293  # addi x5, x5, 279
    .word 0x00001e37  # lui x28, 0x00001
    .word 0x002e0e33  # add x28, x28, x2
    .word 0x905e1523  # sh x5, -1782(x28)
    .word 0x000022b7  # lui x5, 0x00002
    .word 0x81128293  # addi x5, x5, -2031
    .word 0x00001e37  # lui x28, 0x00001
    .word 0x002e0e33  # add x28, x28, x2
    .word 0x905e1623  # sh x5, -1780(x28)
    .word 0x000012b7  # lui x5, 0x00001
    .word 0x18128293  # addi x5, x5, 385
    .word 0x00001e37  # lui x28, 0x00001
    .word 0x002e0e33  # add x28, x28, x2
    .word 0x905e1723  # sh x5, -1778(x28)
    .word 0x000022b7  # lui x5, 0x00002
    .word 0x87728293  # addi x5, x5, -1929
    .word 0x00001e37  # lui x28, 0x00001
    .word 0x002e0e33  # add x28, x28, x2
    .word 0x905e1823  # sh x5, -1776(x28)
    .word 0x000012b7  # lui x5, 0x00001
    .word 0x78728293  # addi x5, x5, 1927
    .word 0x00001e37  # lui x28, 0x00001
    .word 0x002e0e33  # add x28, x28, x2
    .word 0x905e1923  # sh x5, -1774(x28)
    .word 0x000022b7  # lui x5, 0x00002
    .word 0x77928293  # addi x5, x5, 1913
    .word 0x00001e37  # lui x28, 0x00001
    .word 0x002e0e33  # add x28, x28, x2
    .word 0x905e1a23  # sh x5, -1772(x28)
    .word 0x000012b7  # lui x5, 0x00001
    .word 0x8b128293  # addi x5, x5, -1871
    .word 0x00001e37  # lui x28, 0x00001
    .word 0x002e0e33  # add x28, x28, x2
    .word 0x905e1b23  # sh x5, -1770(x28)
    .word 0x000012b7  # lui x5, 0x00001
    .word 0x97128293  # addi x5, x5, -1679
    .word 0x00001e37  # lui x28, 0x00001
    .word 0x002e0e33  # add x28, x28, x2
    .word 0x905e1c23  # sh x5, -1768(x28)
    .word 0x10200293  # addi x5, x0, 258
    .word 0x00001e37  # lui x28, 0x00001
    .word 0x002e0e33  # add x28, x28, x2
    .word 0x905e1d23  # sh x5, -1766(x28)
    .word 0x000012b7  # lui x5, 0x00001
    .word 0x11928293  # addi x5, x5, 281
    .word 0x00001e37  # lui x28, 0x00001
    .word 0x002e0e33  # add x28, x28, x2
    .word 0x905e1e23  # sh x5, -1764(x28)
    .word 0x0a000293  # addi x5, x0, 160
    .word 0x00001e37  # lui x28, 0x00001
    .word 0x002e0e33  # add x28, x28, x2
    .word 0x905e1f23  # sh x5, -1762(x28)
    .word 0x000022b7  # lui x5, 0x00002
    .word 0x00828293  # addi x5, x5, 8
    .word 0x00001e37  # lui x28, 0x00001
    .word 0x002e0e33  # add x28, x28, x2
    .word 0x925e1023  # sh x5, -1760(x28)
    .word 0x2b200293  # addi x5, x0, 690
    .word 0x00001e37  # lui x28, 0x00001
    .word 0x002e0e33  # add x28, x28, x2
    .word 0x925e1123  # sh x5, -1758(x28)
    .word 0x000012b7  # lui x5, 0x00001
    .word 0x8a728293  # addi x5, x5, -1881
    .word 0x00001e37  # lui x28, 0x00001
    .word 0x002e0e33  # add x28, x28, x2
    .word 0x925e1223  # sh x5, -1756(x28)
    .word 0x000012b7  # lui x5, 0x00001
    .word 0x22828293  # addi x5, x5, 552
    .word 0x00001e37  # lui x28, 0x00001
    .word 0x002e0e33  # add x28, x28, x2
    .word 0x925e1323  # sh x5, -1754(x28)
    .word 0x70000293  # addi x5, x0, 1792
    .word 0x00001e37  # lui x28, 0x00001
    .word 0x002e0e33  # add x28, x28, x2
    .word 0x925e1423  # sh x5, -1752(x28)
    .word 0x000012b7  # lui x5, 0x00001
    .word 0x81128293  # addi x5, x5, -2031
    .word 0x00001e37  # lui x28, 0x00001
    .word 0x002e0e33  # add x28, x28, x2
    .word 0x925e1523  # sh x5, -1750(x28)
    .word 0x000012b7  # lui x5, 0x00001
    .word 0x92228293  # addi x5, x5, -1758
    .word 0x00001e37  # lui x28, 0x00001
    .word 0x002e0e33  # add x28, x28, x2
    .word 0x925e1623  # sh x5, -1748(x28)
    .word 0x000012b7  # lui x5, 0x00001
    .word 0xa0128293  # addi x5, x5, -1535
    .word 0x00001e37  # lui x28, 0x00001
    .word 0x002e0e33  # add x28, x28, x2
    .word 0x925e1723  # sh x5, -1746(x28)
    .word 0x000022b7  # lui x5, 0x00002
    .word 0xaaa28293  # addi x5, x5, -1366
    .word 0x00001e37  # lui x28, 0x00001
    .word 0x002e0e33  # add x28, x28, x2
    .word 0x925e1823  # sh x5, -1744(x28)
    .word 0x000012b7  # lui x5, 0x00001
    .word 0xb1228293  # addi x5, x5, -1262
    .word 0x00001e37  # lui x28, 0x00001
    .word 0x002e0e33  # add x28, x28, x2
    .word 0x925e1923  # sh x5, -1742(x28)
    .word 0x20200293  # addi x5, x0, 514
    .word 0x00001e37  # lui x28, 0x00001
    .word 0x002e0e33  # add x28, x28, x2
    .word 0x925e1a23  # sh x5, -1740(x28)
    .word 0x000012b7  # lui x5, 0x00001
    .word 0x22228293  # addi x5, x5, 546
    .word 0x00001e37  # lui x28, 0x00001
    .word 0x002e0e33  # add x28, x28, x2
    .word 0x925e1b23  # sh x5, -1738(x28)
    .word 0x16900293  # addi x5, x0, 361
    .word 0x00001e37  # lui x28, 0x00001
    .word 0x002e0e33  # add x28, x28, x2
    .word 0x925e1c23  # sh x5, -1736(x28)
    .word 0x000022b7  # lui x5, 0x00002
    .word 0x11228293  # addi x5, x5, 274
    .word 0x00001e37  # lui x28, 0x00001
    .word 0x002e0e33  # add x28, x28, x2
    .word 0x925e1d23  # sh x5, -1734(x28)
    .word 0x000012b7  # lui x5, 0x00001
    .word 0x01128293  # addi x5, x5, 17
    .word 0x00001e37  # lui x28, 0x00001
    .word 0x002e0e33  # add x28, x28, x2
    .word 0x925e1e23  # sh x5, -1732(x28)
    .word 0x000012b7  # lui x5, 0x00001
    .word 0x10128293  # addi x5, x5, 257
    .word 0x00001e37  # lui x28, 0x00001
    .word 0x002e0e33  # add x28, x28, x2
    .word 0x925e1f23  # sh x5, -1730(x28)
    .word 0x000022b7  # lui x5, 0x00002
    .word 0x08128293  # addi x5, x5, 129
    .word 0x00001e37  # lui x28, 0x00001
    .word 0x002e0e33  # add x28, x28, x2
    .word 0x945e1023  # sh x5, -1728(x28)
    .word 0x000012b7  # lui x5, 0x00001
    .word 0x18128293  # addi x5, x5, 385
    .word 0x00001e37  # lui x28, 0x00001
    .word 0x002e0e33  # add x28, x28, x2
    .word 0x945e1123  # sh x5, -1726(x28)
    .word 0x10100293  # addi x5, x0, 257
    .word 0x00001e37  # lui x28, 0x00001
    .word 0x002e0e33  # add x28, x28, x2
    .word 0x945e1223  # sh x5, -1724(x28)
    .word 0x00a00293  # addi x5, x0, 10
    .word 0x00001e37  # lui x28, 0x00001
    .word 0x002e0e33  # add x28, x28, x2
    .word 0x945e1323  # sh x5, -1722(x28)
    .word 0x000022b7  # lui x5, 0x00002
    .word 0xa9928293  # addi x5, x5, -1383
    .word 0x00001e37  # lui x28, 0x00001
    .word 0x002e0e33  # add x28, x28, x2
    .word 0x945e1423  # sh x5, -1720(x28)
    .word 0x000022b7  # lui x5, 0x00002
    .word 0x99a28293  # addi x5, x5, -1638
    .word 0x00001e37  # lui x28, 0x00001
    .word 0x002e0e33  # add x28, x28, x2
    .word 0x945e1523  # sh x5, -1718(x28)
    .word 0x26200293  # addi x5, x0, 610
    .word 0x00001e37  # lui x28, 0x00001
    .word 0x002e0e33  # add x28, x28, x2
    .word 0x945e1623  # sh x5, -1716(x28)
    .word 0x000022b7  # lui x5, 0x00002
    .word 0x22928293  # addi x5, x5, 553
    .word 0x00001e37  # lui x28, 0x00001
    .word 0x002e0e33  # add x28, x28, x2
    .word 0x945e1723  # sh x5, -1714(x28)
    .word 0x000022b7  # lui x5, 0x00002
    .word 0x22728293  # addi x5, x5, 551
    .word 0x00001e37  # lui x28, 0x00001
    .word 0x002e0e33  # add x28, x28, x2
    .word 0x945e1823  # sh x5, -1712(x28)
    .word 0x000022b7  # lui x5, 0x00002
    .word 0xa2228293  # addi x5, x5, -1502
    .word 0x00001e37  # lui x28, 0x00001
    .word 0x002e0e33  # add x28, x28, x2
    .word 0x945e1923  # sh x5, -1710(x28)
    .word 0x000012b7  # lui x5, 0x00001
    .word 0x22a28293  # addi x5, x5, 554
    .word 0x00001e37  # lui x28, 0x00001
    .word 0x002e0e33  # add x28, x28, x2
    .word 0x945e1a23  # sh x5, -1708(x28)
    .word 0x000022b7  # lui x5, 0x00002
    .word 0xa7728293  # addi x5, x5, -1417
    .word 0x00001e37  # lui x28, 0x00001
    .word 0x002e0e33  # add x28, x28, x2
    .word 0x945e1b23  # sh x5, -1706(x28)
    .word 0x000012b7  # lui x5, 0x00001
    .word 0x7a728293  # addi x5, x5, 1959
    .word 0x00001e37  # lui x28, 0x00001
    .word 0x002e0e33  # add x28, x28, x2
    .word 0x945e1c23  # sh x5, -1704(x28)
    .word 0x000022b7  # lui x5, 0x00002
    .word 0x77928293  # addi x5, x5, 1913
    .word 0x00001e37  # lui x28, 0x00001
    .word 0x002e0e33  # add x28, x28, x2
    .word 0x945e1d23  # sh x5, -1702(x28)
    .word 0x77200293  # addi x5, x0, 1906
    .word 0x00001e37  # lui x28, 0x00001
    .word 0x002e0e33  # add x28, x28, x2
    .word 0x945e1e23  # sh x5, -1700(x28)
    .word 0x000012b7  # lui x5, 0x00001
    .word 0x11728293  # addi x5, x5, 279
    .word 0x00001e37  # lui x28, 0x00001
    .word 0x002e0e33  # add x28, x28, x2
    .word 0x945e1f23  # sh x5, -1698(x28)
    .word 0x000022b7  # lui x5, 0x00002
    .word 0xbbb28293  # addi x5, x5, -1093
    .word 0x00001e37  # lui x28, 0x00001
    .word 0x002e0e33  # add x28, x28, x2
    .word 0x965e1023  # sh x5, -1696(x28)
    .word 0x2b200293  # addi x5, x0, 690
    .word 0x00001e37  # lui x28, 0x00001
    .word 0x002e0e33  # add x28, x28, x2
    .word 0x965e1123  # sh x5, -1694(x28)
    .word 0x000022b7  # lui x5, 0x00002
    .word 0x00228293  # addi x5, x5, 2
    .word 0x00001e37  # lui x28, 0x00001
    .word 0x002e0e33  # add x28, x28, x2
    .word 0x965e1223  # sh x5, -1692(x28)
    .word 0x2b800293  # addi x5, x0, 696
    .word 0x00001e37  # lui x28, 0x00001
    .word 0x002e0e33  # add x28, x28, x2
    .word 0x965e1323  # sh x5, -1690(x28)
    .word 0x000012b7  # lui x5, 0x00001
    .word 0x22228293  # addi x5, x5, 546
    .word 0x00001e37  # lui x28, 0x00001
    .word 0x002e0e33  # add x28, x28, x2
    .word 0x965e1423  # sh x5, -1688(x28)
    .word 0x000012b7  # lui x5, 0x00001
    .word 0x22228293  # addi x5, x5, 546
    .word 0x00001e37  # lui x28, 0x00001
    .word 0x002e0e33  # add x28, x28, x2
    .word 0x965e1523  # sh x5, -1686(x28)
    .word 0x000012b7  # lui x5, 0x00001
    .word 0x72228293  # addi x5, x5, 1826
    .word 0x00001e37  # lui x28, 0x00001
    .word 0x002e0e33  # add x28, x28, x2
    .word 0x965e2623  # sw x5, -1684(x28)
    .word 0x000022b7  # lui x5, 0x00002
    .word 0x87228293  # addi x5, x5, -1934
    .word 0x00001e37  # lui x28, 0x00001
    .word 0x002e0e33  # add x28, x28, x2
    .word 0x965e2823  # sw x5, -1680(x28)
    .word 0x000042b7  # lui x5, 0x00004
    .word 0x98828293  # addi x5, x5, -1656
    .word 0x00001e37  # lui x28, 0x00001
    .word 0x002e0e33  # add x28, x28, x2
    .word 0x965e2a23  # sw x5, -1676(x28)
    .word 0x000072b7  # lui x5, 0x00007
    .word 0xa9928293  # addi x5, x5, -1383
    .word 0x00001e37  # lui x28, 0x00001
    .word 0x002e0e33  # add x28, x28, x2
    .word 0x965e2c23  # sw x5, -1672(x28)
    .word 0x000042b7  # lui x5, 0x00004
    .word 0x9a828293  # addi x5, x5, -1624
    .word 0x00001e37  # lui x28, 0x00001
    .word 0x002e0e33  # add x28, x28, x2
    .word 0x965e2e23  # sw x5, -1668(x28)
    .word 0x000102b7  # lui x5, 0x00010
    .word 0xa9928293  # addi x5, x5, -1383
    .word 0x00001e37  # lui x28, 0x00001
    .word 0x002e0e33  # add x28, x28, x2
    .word 0x985e2023  # sw x5, -1664(x28)
    .word 0x000032b7  # lui x5, 0x00003
    .word 0xba728293  # addi x5, x5, -1113
    .word 0x00001e37  # lui x28, 0x00001
    .word 0x002e0e33  # add x28, x28, x2
    .word 0x985e2223  # sw x5, -1660(x28)
    .word 0x000212b7  # lui x5, 0x00021
    .word 0xcb228293  # addi x5, x5, -846
    .word 0x00001e37  # lui x28, 0x00001
    .word 0x002e0e33  # add x28, x28, x2
    .word 0x985e2423  # sw x5, -1656(x28)
    .word 0x000812b7  # lui x5, 0x00081
    .word 0xccb28293  # addi x5, x5, -821
    .word 0x00001e37  # lui x28, 0x00001
    .word 0x002e0e33  # add x28, x28, x2
    .word 0x985e2623  # sw x5, -1652(x28)
    .word 0x000212b7  # lui x5, 0x00021
    .word 0xccb28293  # addi x5, x5, -821
    .word 0x00001e37  # lui x28, 0x00001
    .word 0x002e0e33  # add x28, x28, x2
    .word 0x985e2823  # sw x5, -1648(x28)
    .word 0x0001f2b7  # lui x5, 0x0001f
    .word 0xcca28293  # addi x5, x5, -822
    .word 0x00001e37  # lui x28, 0x00001
    .word 0x002e0e33  # add x28, x28, x2
    .word 0x985e2a23  # sw x5, -1644(x28)
    .word 0x000032b7  # lui x5, 0x00003
    .word 0xcc228293  # addi x5, x5, -830
    .word 0x00001e37  # lui x28, 0x00001
    .word 0x002e0e33  # add x28, x28, x2
    .word 0x985e2c23  # sw x5, -1640(x28)
    .word 0x00c00293  # addi x5, x0, 12
    .word 0x00001e37  # lui x28, 0x00001
    .word 0x002e0e33  # add x28, x28, x2
    .word 0x985e2e23  # sw x5, -1636(x28)
    .word 0x11c00293  # addi x5, x0, 284
    .word 0x00001e37  # lui x28, 0x00001
    .word 0x002e0e33  # add x28, x28, x2
    .word 0x9a5e2023  # sw x5, -1632(x28)
    .word 0x00300293  # addi x5, x0, 3
    .word 0x00001e37  # lui x28, 0x00001
    .word 0x002e0e33  # add x28, x28, x2
    .word 0x9a5e2223  # sw x5, -1628(x28)
    .word 0x11300293  # addi x5, x0, 275
    .word 0x00001e37  # lui x28, 0x00001
    .word 0x002e0e33  # add x28, x28, x2
    .word 0x9a5e2423  # sw x5, -1624(x28)
    .word 0x29c4c2b7  # lui x5, 0x29c4c
    .word 0xddf28293  # addi x5, x5, -545
    .word 0x00001e37  # lui x28, 0x00001
    .word 0x002e0e33  # add x28, x28, x2
    .word 0x9a5e2623  # sw x5, -1620(x28)
    .word 0xd89ce2b7  # lui x5, 0xd89ce
    .word 0xf6228293  # addi x5, x5, -158
    .word 0x00001e37  # lui x28, 0x00001
    .word 0x002e0e33  # add x28, x28, x2
    .word 0x9a5e2823  # sw x5, -1616(x28)
    .word 0x788432b7  # lui x5, 0x78843
    .word 0x09028293  # addi x5, x5, 144
    .word 0x00001e37  # lui x28, 0x00001
    .word 0x002e0e33  # add x28, x28, x2
    .word 0x9a5e2a23  # sw x5, -1612(x28)
    .word 0xacf002b7  # lui x5, 0xacf00
    .word 0x5cd28293  # addi x5, x5, 1485
    .word 0x00001e37  # lui x28, 0x00001
    .word 0x002e0e33  # add x28, x28, x2
    .word 0x9a5e2c23  # sw x5, -1608(x28)
    .word 0xf72132b7  # lui x5, 0xf7213
    .word 0xed628293  # addi x5, x5, -298
    .word 0x00001e37  # lui x28, 0x00001
    .word 0x002e0e33  # add x28, x28, x2
    .word 0x9a5e2e23  # sw x5, -1604(x28)
    .word 0xe5a222b7  # lui x5, 0xe5a22
    .word 0x0ab28293  # addi x5, x5, 171
    .word 0x00001e37  # lui x28, 0x00001
    .word 0x002e0e33  # add x28, x28, x2
    .word 0x9c5e2023  # sw x5, -1600(x28)
    .word 0x048752b7  # lui x5, 0x04875
    .word 0x83428293  # addi x5, x5, -1996
    .word 0x00001e37  # lui x28, 0x00001
    .word 0x002e0e33  # add x28, x28, x2
    .word 0x9c5e2223  # sw x5, -1596(x28)
    .word 0xdc3002b7  # lui x5, 0xdc300
    .word 0x61d28293  # addi x5, x5, 1565
    .word 0x00001e37  # lui x28, 0x00001
    .word 0x002e0e33  # add x28, x28, x2
    .word 0x9c5e2423  # sw x5, -1592(x28)
    .word 0x00300293  # addi x5, x0, 3
    .word 0x00001e37  # lui x28, 0x00001
    .word 0x002e0e33  # add x28, x28, x2
    .word 0x9c5e2623  # sw x5, -1588(x28)
    .word 0x00001e37  # lui x28, 0x00001
    .word 0x002e0e33  # add x28, x28, x2
    .word 0x9c0e2823  # sw x0, -1584(x28)
    .word 0x000002b7  # lui x5, 0x00000
    .word 0xfff28293  # addi x5, x5, -1
    .word 0x00001e37  # lui x28, 0x00001
    .word 0x002e0e33  # add x28, x28, x2
    .word 0x9c5e2a23  # sw x5, -1580(x28)
    .word 0x000002b7  # lui x5, 0x00000
    .word 0xffb28293  # addi x5, x5, -5
    .word 0x00001e37  # lui x28, 0x00001
    .word 0x002e0e33  # add x28, x28, x2
    .word 0x9c5e2c23  # sw x5, -1576(x28)
    .word 0x000002b7  # lui x5, 0x00000
    .word 0xffe28293  # addi x5, x5, -2
    .word 0x00001e37  # lui x28, 0x00001
    .word 0x002e0e33  # add x28, x28, x2
    .word 0x9c5e2e23  # sw x5, -1572(x28)
    .word 0x000002b7  # lui x5, 0x00000
    .word 0xfff28293  # addi x5, x5, -1
    .word 0x00001e37  # lui x28, 0x00001
    .word 0x002e0e33  # add x28, x28, x2
    .word 0x9e5e2023  # sw x5, -1568(x28)
    .word 0x000002b7  # lui x5, 0x00000
    .word 0xffd28293  # addi x5, x5, -3
    .word 0x00001e37  # lui x28, 0x00001
    .word 0x002e0e33  # add x28, x28, x2
    .word 0x9e5e2223  # sw x5, -1564(x28)
    .word 0x00400293  # addi x5, x0, 4
    .word 0x00001e37  # lui x28, 0x00001
    .word 0x002e0e33  # add x28, x28, x2
    .word 0x9e5e2423  # sw x5, -1560(x28)
    .word 0x00100293  # addi x5, x0, 1
    .word 0x00001e37  # lui x28, 0x00001
    .word 0x002e0e33  # add x28, x28, x2
    .word 0x9e5e2623  # sw x5, -1556(x28)
    .word 0x00001e37  # lui x28, 0x00001
    .word 0x002e0e33  # add x28, x28, x2
    .word 0x9e0e2823  # sw x0, -1552(x28)
    .word 0x00001e37  # lui x28, 0x00001
    .word 0x002e0e33  # add x28, x28, x2
    .word 0x9e0e2a23  # sw x0, -1548(x28)
    .word 0x000002b7  # lui x5, 0x00000
    .word 0xfff28293  # addi x5, x5, -1
    .word 0x00001e37  # lui x28, 0x00001
    .word 0x002e0e33  # add x28, x28, x2
    .word 0x9e5e2c23  # sw x5, -1544(x28)
    .word 0x000002b7  # lui x5, 0x00000
    .word 0xfff28293  # addi x5, x5, -1
    .word 0x00001e37  # lui x28, 0x00001
    .word 0x002e0e33  # add x28, x28, x2
    .word 0x9e5e2e23  # sw x5, -1540(x28)
    .word 0x000002b7  # lui x5, 0x00000
    .word 0xfff28293  # addi x5, x5, -1
    .word 0x00001e37  # lui x28, 0x00001
    .word 0x002e0e33  # add x28, x28, x2
    .word 0xa05e2023  # sw x5, -1536(x28)
    .word 0x000002b7  # lui x5, 0x00000
    .word 0xffe28293  # addi x5, x5, -2
    .word 0x00001e37  # lui x28, 0x00001
    .word 0x002e0e33  # add x28, x28, x2
    .word 0xa05e2223  # sw x5, -1532(x28)
    .word 0x00001e37  # lui x28, 0x00001
    .word 0x002e0e33  # add x28, x28, x2
    .word 0xa00e2423  # sw x0, -1528(x28)
    .word 0xfff00993  # addi x19, x0, -1
    .word 0x00198993  # addi x19, x19, 1
    .word 0x00299d13  # slli x26, x19, 2
    .word 0x002d0d33  # add x26, x26, x2
    .word 0x02898293  # addi x5, x19, 40
    .word 0x01098313  # addi x6, x19, 16
    .word 0x00231313  # slli x6, x6, 2
    .word 0x00230333  # add x6, x6, x2
    .word 0x00001e37  # lui x28, 0x00001
    .word 0x01c30333  # add x6, x6, x28
    .word 0x9ac32303  # lw x6, -1620(x6)
    .word 0x00229293  # slli x5, x5, 2
    .word 0x002282b3  # add x5, x5, x2
    .word 0x0a62a023  # sw x6, 160(x5)
    .word 0x03098293  # addi x5, x19, 48
    .word 0x00299313  # slli x6, x19, 2
    .word 0x00230333  # add x6, x6, x2
    .word 0x00001e37  # lui x28, 0x00001
    .word 0x01c30333  # add x6, x6, x28
    .word 0x9ac32303  # lw x6, -1620(x6)
    .word 0x00229293  # slli x5, x5, 2
    .word 0x002282b3  # add x5, x5, x2
    .word 0x0a62a023  # sw x6, 160(x5)
    .word 0x07898293  # addi x5, x19, 120
    .word 0x00898313  # addi x6, x19, 8
    .word 0x00231313  # slli x6, x6, 2
    .word 0x00230333  # add x6, x6, x2
    .word 0x00001e37  # lui x28, 0x00001
    .word 0x01c30333  # add x6, x6, x28
    .word 0x9ac32303  # lw x6, -1620(x6)
    .word 0x00229293  # slli x5, x5, 2
    .word 0x002282b3  # add x5, x5, x2
    .word 0x0a62a023  # sw x6, 160(x5)
    .word 0x00499293  # slli x5, x19, 4
    .word 0x01098313  # addi x6, x19, 16
    .word 0x00231313  # slli x6, x6, 2
    .word 0x00230333  # add x6, x6, x2
    .word 0x00001e37  # lui x28, 0x00001
    .word 0x01c30333  # add x6, x6, x28
    .word 0x9ac32303  # lw x6, -1620(x6)
    .word 0x00229293  # slli x5, x5, 2
    .word 0x002282b3  # add x5, x5, x2
    .word 0x4c62a023  # sw x6, 1216(x5)
    .word 0xff998293  # addi x5, x19, -7
    .word 0xf4029ae3  # bne x5, x0, -172
    .word 0x00001e37  # lui x28, 0x00001
    .word 0x002e0e33  # add x28, x28, x2
    .word 0xa00e2623  # sw x0, -1524(x28)
    .word 0x00001e37  # lui x28, 0x00001
    .word 0x002e0e33  # add x28, x28, x2
    .word 0xb00e2623  # sw x0, -1268(x28)
    .word 0x15b00293  # addi x5, x0, 347
    .word 0x00001e37  # lui x28, 0x00001
    .word 0x002e0e33  # add x28, x28, x2
    .word 0xb05e2823  # sw x5, -1264(x28)
    .word 0x00001337  # lui x6, 0x00001
    .word 0x00230333  # add x6, x6, x2
    .word 0xb0c32303  # lw x6, -1268(x6)
    .word 0x000012b7  # lui x5, 0x00001
    .word 0x002282b3  # add x5, x5, x2
    .word 0xb102a283  # lw x5, -1264(x5)
    .word 0x005332b3  # sltu x5, x6, x5
    .word 0x00029463  # bne x5, x0, 8
    .word 0x2e40106f  # jal x0, 4836
    .word 0x00030593  # addi x11, x6, 0
    .word 0x00130313  # addi x6, x6, 1
    .word 0x00001e37  # lui x28, 0x00001
    .word 0x002e0e33  # add x28, x28, x2
    .word 0xb06e2623  # sw x6, -1268(x28)
    .word 0x00000b13  # addi x22, x0, 0
    .word 0x00001e37  # lui x28, 0x00001
    .word 0x002e0e33  # add x28, x28, x2
    .word 0xb00e2a23  # sw x0, -1260(x28)
    .word 0x0015b293  # sltiu x5, x11, 1
    .word 0x01000313  # addi x6, x0, 16
    .word 0x405002b3  # sub x5, x0, x5
    .word 0x005372b3  # and x5, x6, x5
    .word 0x00001e37  # lui x28, 0x00001
    .word 0x002e0e33  # add x28, x28, x2
    .word 0xb05e2c23  # sw x5, -1256(x28)
    .word 0x00001337  # lui x6, 0x00001
    .word 0x00230333  # add x6, x6, x2
    .word 0xb1432303  # lw x6, -1260(x6)
    .word 0x000012b7  # lui x5, 0x00001
    .word 0x002282b3  # add x5, x5, x2
    .word 0xb182a283  # lw x5, -1256(x5)
    .word 0x005332b3  # sltu x5, x6, x5
    .word 0x00029463  # bne x5, x0, 8
    .word 0x11c0006f  # jal x0, 284
    .word 0x00030613  # addi x12, x6, 0
    .word 0x00365293  # srli x5, x12, 3
    .word 0x00529293  # slli x5, x5, 5
    .word 0x01c28293  # addi x5, x5, 28
    .word 0x00767313  # andi x6, x12, 7
    .word 0x00231313  # slli x6, x6, 2
    .word 0x406289b3  # sub x19, x5, x6
    .word 0x00299d13  # slli x26, x19, 2
    .word 0x002d0d33  # add x26, x26, x2
    .word 0x002982b3  # add x5, x19, x2
    .word 0x0202c283  # lbu x5, 32(x5)
    .word 0x01829293  # slli x5, x5, 24
    .word 0x00298333  # add x6, x19, x2
    .word 0x02134303  # lbu x6, 33(x6)
    .word 0x01031313  # slli x6, x6, 16
    .word 0x0062e933  # or x18, x5, x6
    .word 0x00298333  # add x6, x19, x2
    .word 0x02234303  # lbu x6, 34(x6)
    .word 0x00831313  # slli x6, x6, 8
    .word 0x006962b3  # or x5, x18, x6
    .word 0x00298333  # add x6, x19, x2
    .word 0x02334303  # lbu x6, 35(x6)
    .word 0x0062e933  # or x18, x5, x6
    .word 0x01860293  # addi x5, x12, 24
    .word 0x00229293  # slli x5, x5, 2
    .word 0x002282b3  # add x5, x5, x2
    .word 0x0b22a023  # sw x18, 160(x5)
    .word 0x00767993  # andi x19, x12, 7
    .word 0x00299d13  # slli x26, x19, 2
    .word 0x002d0d33  # add x26, x26, x2
    .word 0x0039b293  # sltiu x5, x19, 3
    .word 0xff998313  # addi x6, x19, -7
    .word 0x00133313  # sltiu x6, x6, 1
    .word 0x0062e2b3  # or x5, x5, x6
    .word 0x00000337  # lui x6, 0x00000
    .word 0xfff30313  # addi x6, x6, -1
    .word 0xffa98393  # addi x7, x19, -6
    .word 0x007033b3  # sltu x7, x0, x7
    .word 0x00100413  # addi x8, x0, 1
    .word 0xfff38393  # addi x7, x7, -1
    .word 0x007473b3  # and x7, x8, x7
    .word 0x405002b3  # sub x5, x0, x5
    .word 0x00734333  # xor x6, x6, x7
    .word 0x00537333  # and x6, x6, x5
    .word 0x0063cbb3  # xor x23, x7, x6
    .word 0x002b9d93  # slli x27, x23, 2
    .word 0x002d8db3  # add x27, x27, x2
    .word 0x017932b3  # sltu x5, x18, x23
    .word 0x41790333  # sub x6, x18, x23
    .word 0x01633333  # sltu x6, x6, x22
    .word 0x00628b33  # add x22, x5, x6
    .word 0x00700313  # addi x6, x0, 7
    .word 0x02699463  # bne x19, x6, 40
    .word 0x000012b7  # lui x5, 0x00001
    .word 0x002282b3  # add x5, x5, x2
    .word 0xa0c2a283  # lw x5, -1524(x5)
    .word 0x001b4313  # xori x6, x22, 1
    .word 0x0062e2b3  # or x5, x5, x6
    .word 0x00001e37  # lui x28, 0x00001
    .word 0x002e0e33  # add x28, x28, x2
    .word 0xa05e2623  # sw x5, -1524(x28)
    .word 0x00000b13  # addi x22, x0, 0
    .word 0x00160613  # addi x12, x12, 1
    .word 0x000012b7  # lui x5, 0x00001
    .word 0x002282b3  # add x5, x5, x2
    .word 0xb182a283  # lw x5, -1256(x5)
    .word 0x005632b3  # sltu x5, x12, x5
    .word 0xee029ce3  # bne x5, x0, -264
    .word 0xfff60613  # addi x12, x12, -1
    .word 0x0040006f  # jal x0, 4
    .word 0x00f5b293  # sltiu x5, x11, 15
    .word 0x00400313  # addi x6, x0, 4
    .word 0xff558393  # addi x7, x11, -11
    .word 0x00500413  # addi x8, x0, 5
    .word 0x0283f3b3  # remu x7, x7, x8
    .word 0x405002b3  # sub x5, x0, x5
    .word 0x00734333  # xor x6, x6, x7
    .word 0x00537333  # and x6, x6, x5
    .word 0x0063c7b3  # xor x15, x7, x6
    .word 0x00f5b293  # sltiu x5, x11, 15
    .word 0x0012b293  # sltiu x5, x5, 1
    .word 0x14b5b313  # sltiu x6, x11, 331
    .word 0x0062f2b3  # and x5, x5, x6
    .word 0xffc78313  # addi x6, x15, -4
    .word 0x00133313  # sltiu x6, x6, 1
    .word 0x0062f2b3  # and x5, x5, x6
    .word 0x01800313  # addi x6, x0, 24
    .word 0x405002b3  # sub x5, x0, x5
    .word 0x005379b3  # and x19, x6, x5
    .word 0x00299d13  # slli x26, x19, 2
    .word 0x002d0d33  # add x26, x26, x2
    .word 0x18098a63  # beq x19, x0, 404
    .word 0xff558293  # addi x5, x11, -11
    .word 0x00500313  # addi x6, x0, 5
    .word 0x0262d2b3  # divu x5, x5, x6
    .word 0x03f2fb93  # andi x23, x5, 63
    .word 0x002b9d93  # slli x27, x23, 2
    .word 0x002d8db3  # add x27, x27, x2
    .word 0x001bd293  # srli x5, x23, 1
    .word 0x002282b3  # add x5, x5, x2
    .word 0x0002c283  # lbu x5, 0(x5)
    .word 0x00400313  # addi x6, x0, 4
    .word 0x001bf393  # andi x7, x23, 1
    .word 0x00239393  # slli x7, x7, 2
    .word 0x40730333  # sub x6, x6, x7
    .word 0x0062d2b3  # srl x5, x5, x6
    .word 0x0ff2f293  # andi x5, x5, 255
    .word 0x00f2fb13  # andi x22, x5, 15
    .word 0x00001337  # lui x6, 0x00001
    .word 0xa1030313  # addi x6, x6, -1520
    .word 0x00230333  # add x6, x6, x2
    .word 0x04000393  # addi x7, x0, 64
    .word 0x006383b3  # add x7, x7, x6
    .word 0x406382b3  # sub x5, x7, x6
    .word 0x00029463  # bne x5, x0, 8
    .word 0x0100006f  # jal x0, 16
    .word 0x00032023  # sw x0, 0(x6)
    .word 0x00430313  # addi x6, x6, 4
    .word 0xfedff06f  # jal x0, -20
    .word 0xfff00b93  # addi x23, x0, -1
    .word 0x001b8b93  # addi x23, x23, 1
    .word 0x002b9d93  # slli x27, x23, 2
    .word 0x002d8db3  # add x27, x27, x2
    .word 0x416b8333  # sub x6, x23, x22
    .word 0x00133313  # sltiu x6, x6, 1
    .word 0x40600333  # sub x6, x0, x6
    .word 0x002b9293  # slli x5, x23, 2
    .word 0x002282b3  # add x5, x5, x2
    .word 0x00001e37  # lui x28, 0x00001
    .word 0x01c282b3  # add x5, x5, x28
    .word 0xa062a823  # sw x6, -1520(x5)
    .word 0xff1b8293  # addi x5, x23, -15
    .word 0xfc0298e3  # bne x5, x0, -48
    .word 0xff158293  # addi x5, x11, -15
    .word 0x005032b3  # sltu x5, x0, x5
    .word 0x00000313  # addi x6, x0, 0
    .word 0x01800393  # addi x7, x0, 24
    .word 0xfff28293  # addi x5, x5, -1
    .word 0x00734333  # xor x6, x6, x7
    .word 0x00537333  # and x6, x6, x5
    .word 0x0063c833  # xor x16, x7, x6
    .word 0x00281c93  # slli x25, x16, 2
    .word 0x002c8cb3  # add x25, x25, x2
    .word 0x00001e37  # lui x28, 0x00001
    .word 0x002e0e33  # add x28, x28, x2
    .word 0xb00e2a23  # sw x0, -1260(x28)
    .word 0x00001e37  # lui x28, 0x00001
    .word 0x002e0e33  # add x28, x28, x2
    .word 0xb13e2c23  # sw x19, -1256(x28)
    .word 0x00001337  # lui x6, 0x00001
    .word 0x00230333  # add x6, x6, x2
    .word 0xb1432303  # lw x6, -1260(x6)
    .word 0x000012b7  # lui x5, 0x00001
    .word 0x002282b3  # add x5, x5, x2
    .word 0xb182a283  # lw x5, -1256(x5)
    .word 0x005332b3  # sltu x5, x6, x5
    .word 0x00029463  # bne x5, x0, 8
    .word 0x08c0006f  # jal x0, 140
    .word 0x00030693  # addi x13, x6, 0
    .word 0x00469993  # slli x19, x13, 4
    .word 0x00299d13  # slli x26, x19, 2
    .word 0x002d0d33  # add x26, x26, x2
    .word 0x00000b13  # addi x22, x0, 0
    .word 0xfff00b93  # addi x23, x0, -1
    .word 0x001b8b93  # addi x23, x23, 1
    .word 0x002b9d93  # slli x27, x23, 2
    .word 0x002d8db3  # add x27, x27, x2
    .word 0x01798333  # add x6, x19, x23
    .word 0x00231313  # slli x6, x6, 2
    .word 0x00230333  # add x6, x6, x2
    .word 0x2c032303  # lw x6, 704(x6)
    .word 0x002b9393  # slli x7, x23, 2
    .word 0x002383b3  # add x7, x7, x2
    .word 0x00001e37  # lui x28, 0x00001
    .word 0x01c383b3  # add x7, x7, x28
    .word 0xa103a383  # lw x7, -1520(x7)
    .word 0x00737333  # and x6, x6, x7
    .word 0x006b6b33  # or x22, x22, x6
    .word 0xff1b8293  # addi x5, x23, -15
    .word 0xfc0292e3  # bne x5, x0, -60
    .word 0x00d802b3  # add x5, x16, x13
    .word 0x00229293  # slli x5, x5, 2
    .word 0x002282b3  # add x5, x5, x2
    .word 0x0b62a023  # sw x22, 160(x5)
    .word 0x00168693  # addi x13, x13, 1
    .word 0x000012b7  # lui x5, 0x00001
    .word 0x002282b3  # add x5, x5, x2
    .word 0xb182a283  # lw x5, -1256(x5)
    .word 0x0056b2b3  # sltu x5, x13, x5
    .word 0xf80294e3  # bne x5, x0, -120
    .word 0xfff68693  # addi x13, x13, -1
    .word 0x0040006f  # jal x0, 4
    .word 0x00001e37  # lui x28, 0x00001
    .word 0x002e0e33  # add x28, x28, x2
    .word 0xb00e2a23  # sw x0, -1260(x28)
    .word 0xeb558293  # addi x5, x11, -331
    .word 0x005032b3  # sltu x5, x0, x5
    .word 0x00800313  # addi x6, x0, 8
    .word 0xfff28293  # addi x5, x5, -1
    .word 0x005372b3  # and x5, x6, x5
    .word 0x00001e37  # lui x28, 0x00001
    .word 0x002e0e33  # add x28, x28, x2
    .word 0xb05e2c23  # sw x5, -1256(x28)
    .word 0x00001337  # lui x6, 0x00001
    .word 0x00230333  # add x6, x6, x2
    .word 0xb1432303  # lw x6, -1260(x6)
    .word 0x000012b7  # lui x5, 0x00001
    .word 0x002282b3  # add x5, x5, x2
    .word 0xb182a283  # lw x5, -1256(x5)
    .word 0x005332b3  # sltu x5, x6, x5
    .word 0x00029463  # bne x5, x0, 8
    .word 0x03c0006f  # jal x0, 60
    .word 0x00030713  # addi x14, x6, 0
    .word 0x01870293  # addi x5, x14, 24
    .word 0x00173313  # sltiu x6, x14, 1
    .word 0x00229293  # slli x5, x5, 2
    .word 0x002282b3  # add x5, x5, x2
    .word 0x0a62a023  # sw x6, 160(x5)
    .word 0x00170713  # addi x14, x14, 1
    .word 0x000012b7  # lui x5, 0x00001
    .word 0x002282b3  # add x5, x5, x2
    .word 0xb182a283  # lw x5, -1256(x5)
    .word 0x005732b3  # sltu x5, x14, x5
    .word 0xfc029ce3  # bne x5, x0, -40
    .word 0xfff70713  # addi x14, x14, -1
    .word 0x0040006f  # jal x0, 4
    .word 0xeb558293  # addi x5, x11, -331
    .word 0x00f2f293  # andi x5, x5, 15
    .word 0x00229c13  # slli x24, x5, 2
    .word 0x002c0c33  # add x24, x24, x2
    .word 0x00001e37  # lui x28, 0x00001
    .word 0x01cc0c33  # add x24, x24, x28
    .word 0x96cc2c03  # lw x24, -1684(x24)
    .word 0x0015b293  # sltiu x5, x11, 1
    .word 0x00000313  # addi x6, x0, 0
    .word 0xffc78393  # addi x7, x15, -4
    .word 0x007033b3  # sltu x7, x0, x7
    .word 0x00900413  # addi x8, x0, 9
    .word 0x03400493  # addi x9, x0, 52
    .word 0xfff38393  # addi x7, x7, -1
    .word 0x00944433  # xor x8, x8, x9
    .word 0x00747433  # and x8, x8, x7
    .word 0x0084c3b3  # xor x7, x9, x8
    .word 0x405002b3  # sub x5, x0, x5
    .word 0x00734333  # xor x6, x6, x7
    .word 0x00537333  # and x6, x6, x5
    .word 0x0063c733  # xor x14, x7, x6
    .word 0x0015b293  # sltiu x5, x11, 1
    .word 0x00900313  # addi x6, x0, 9
    .word 0xffc78393  # addi x7, x15, -4
    .word 0x007033b3  # sltu x7, x0, x7
    .word 0x02b00413  # addi x8, x0, 43
    .word 0x02200493  # addi x9, x0, 34
    .word 0xfff38393  # addi x7, x7, -1
    .word 0x00944433  # xor x8, x8, x9
    .word 0x00747433  # and x8, x8, x7
    .word 0x0084c3b3  # xor x7, x9, x8
    .word 0x405002b3  # sub x5, x0, x5
    .word 0x00734333  # xor x6, x6, x7
    .word 0x00537333  # and x6, x6, x5
    .word 0x0063c9b3  # xor x19, x7, x6
    .word 0x00299d13  # slli x26, x19, 2
    .word 0x002d0d33  # add x26, x26, x2
    .word 0x00cc5293  # srli x5, x24, 12
    .word 0x0ff2f693  # andi x13, x5, 255
    .word 0x00001e37  # lui x28, 0x00001
    .word 0x002e0e33  # add x28, x28, x2
    .word 0xb00e2a23  # sw x0, -1260(x28)
    .word 0xff158293  # addi x5, x11, -15
    .word 0x005032b3  # sltu x5, x0, x5
    .word 0x00000313  # addi x6, x0, 0
    .word 0x14b5b393  # sltiu x7, x11, 331
    .word 0x00168493  # addi x9, x13, 1
    .word 0x407003b3  # sub x7, x0, x7
    .word 0x0099c433  # xor x8, x19, x9
    .word 0x00747433  # and x8, x8, x7
    .word 0x0084c3b3  # xor x7, x9, x8
    .word 0xfff28293  # addi x5, x5, -1
    .word 0x00734333  # xor x6, x6, x7
    .word 0x00537333  # and x6, x6, x5
    .word 0x0063c2b3  # xor x5, x7, x6
    .word 0x00001e37  # lui x28, 0x00001
    .word 0x002e0e33  # add x28, x28, x2
    .word 0xb05e2c23  # sw x5, -1256(x28)
    .word 0x00001337  # lui x6, 0x00001
    .word 0x00230333  # add x6, x6, x2
    .word 0xb1432303  # lw x6, -1260(x6)
    .word 0x000012b7  # lui x5, 0x00001
    .word 0x002282b3  # add x5, x5, x2
    .word 0xb182a283  # lw x5, -1256(x5)
    .word 0x005332b3  # sltu x5, x6, x5
    .word 0x00029463  # bne x5, x0, 8
    .word 0x4590006f  # jal x0, 3160
    .word 0x00001e37  # lui x28, 0x00001
    .word 0x002e0e33  # add x28, x28, x2
    .word 0xa46e2823  # sw x6, -1456(x28)
    .word 0x00130313  # addi x6, x6, 1
    .word 0x00001e37  # lui x28, 0x00001
    .word 0x002e0e33  # add x28, x28, x2
    .word 0xb06e2a23  # sw x6, -1260(x28)
    .word 0x14b00313  # addi x6, x0, 331
    .word 0x0265fe63  # bgeu x11, x6, 60
    .word 0x00001337  # lui x6, 0x00001
    .word 0x00230333  # add x6, x6, x2
    .word 0xa5032303  # lw x6, -1456(x6)
    .word 0x006702b3  # add x5, x14, x6
    .word 0x05600313  # addi x6, x0, 86
    .word 0x0262f2b3  # remu x5, x5, x6
    .word 0x00129993  # slli x19, x5, 1
    .word 0x002989b3  # add x19, x19, x2
    .word 0x00001e37  # lui x28, 0x00001
    .word 0x01c989b3  # add x19, x19, x28
    .word 0x8c09d983  # lhu x19, -1856(x19)
    .word 0x00299d13  # slli x26, x19, 2
    .word 0x002d0d33  # add x26, x26, x2
    .word 0x0880006f  # jal x0, 136
    .word 0x000012b7  # lui x5, 0x00001
    .word 0x002282b3  # add x5, x5, x2
    .word 0xa502a283  # lw x5, -1456(x5)
    .word 0x0012b293  # sltiu x5, x5, 1
    .word 0x0f0c7313  # andi x6, x24, 240
    .word 0x0f000393  # addi x7, x0, 240
    .word 0x405002b3  # sub x5, x0, x5
    .word 0x00734333  # xor x6, x6, x7
    .word 0x00537333  # and x6, x6, x5
    .word 0x0063c9b3  # xor x19, x7, x6
    .word 0x00299d13  # slli x26, x19, 2
    .word 0x002d0d33  # add x26, x26, x2
    .word 0x00001337  # lui x6, 0x00001
    .word 0x00230333  # add x6, x6, x2
    .word 0xa5032303  # lw x6, -1456(x6)
    .word 0x40d30333  # sub x6, x6, x13
    .word 0x00603333  # sltu x6, x0, x6
    .word 0x00001437  # lui x8, 0x00001
    .word 0x00240433  # add x8, x8, x2
    .word 0xb0042403  # lw x8, -1280(x8)
    .word 0x008c73b3  # and x7, x24, x8
    .word 0x0049d413  # srli x8, x19, 4
    .word 0x000014b7  # lui x9, 0x00001
    .word 0x002484b3  # add x9, x9, x2
    .word 0xb044a483  # lw x9, -1276(x9)
    .word 0x00946433  # or x8, x8, x9
    .word 0xfff30313  # addi x6, x6, -1
    .word 0x0083c3b3  # xor x7, x7, x8
    .word 0x0063f3b3  # and x7, x7, x6
    .word 0x00744333  # xor x6, x8, x7
    .word 0x0069e9b3  # or x19, x19, x6
    .word 0x00299d13  # slli x26, x19, 2
    .word 0x002d0d33  # add x26, x26, x2
    .word 0x00c9d613  # srli x12, x19, 12
    .word 0x0059d293  # srli x5, x19, 5
    .word 0x0782f793  # andi x15, x5, 120
    .word 0x0019d293  # srli x5, x19, 1
    .word 0x0782f813  # andi x16, x5, 120
    .word 0x00281c93  # slli x25, x16, 2
    .word 0x002c8cb3  # add x25, x25, x2
    .word 0x00399293  # slli x5, x19, 3
    .word 0x0782fb93  # andi x23, x5, 120
    .word 0x002b9d93  # slli x27, x23, 2
    .word 0x002d8db3  # add x27, x27, x2
    .word 0x5c061663  # bne x12, x0, 1484
    .word 0x00001337  # lui x6, 0x00001
    .word 0xa5430313  # addi x6, x6, -1452
    .word 0x00230333  # add x6, x6, x2
    .word 0x02400393  # addi x7, x0, 36
    .word 0x006383b3  # add x7, x7, x6
    .word 0x406382b3  # sub x5, x7, x6
    .word 0x00029463  # bne x5, x0, 8
    .word 0x0100006f  # jal x0, 16
    .word 0x00032023  # sw x0, 0(x6)
    .word 0x00430313  # addi x6, x6, 4
    .word 0xfedff06f  # jal x0, -20
    .word 0x00001337  # lui x6, 0x00001
    .word 0xa7830313  # addi x6, x6, -1416
    .word 0x00230333  # add x6, x6, x2
    .word 0x02000393  # addi x7, x0, 32
    .word 0x006383b3  # add x7, x7, x6
    .word 0x406382b3  # sub x5, x7, x6
    .word 0x00029463  # bne x5, x0, 8
    .word 0x0100006f  # jal x0, 16
    .word 0x00032023  # sw x0, 0(x6)
    .word 0x00430313  # addi x6, x6, 4
    .word 0xfedff06f  # jal x0, -20
    .word 0xfff00993  # addi x19, x0, -1
    .word 0x00198993  # addi x19, x19, 1
    .word 0x00299d13  # slli x26, x19, 2
    .word 0x002d0d33  # add x26, x26, x2
    .word 0x013802b3  # add x5, x16, x19
    .word 0x00229293  # slli x5, x5, 2
    .word 0x002282b3  # add x5, x5, x2
    .word 0x0a02a283  # lw x5, 160(x5)
    .word 0x2a5d2023  # sw x5, 672(x26)
    .word 0xff998293  # addi x5, x19, -7
    .word 0xfc029ee3  # bne x5, x0, -36
    .word 0xfff00813  # addi x16, x0, -1
    .word 0x00180813  # addi x16, x16, 1
    .word 0x00281c93  # slli x25, x16, 2
    .word 0x002c8cb3  # add x25, x25, x2
    .word 0x2a0ca883  # lw x17, 672(x25)
    .word 0x00000913  # addi x18, x0, 0
    .word 0xfff00993  # addi x19, x0, -1
    .word 0x00198993  # addi x19, x19, 1
    .word 0x00299d13  # slli x26, x19, 2
    .word 0x002d0d33  # add x26, x26, x2
    .word 0x013b82b3  # add x5, x23, x19
    .word 0x00229b13  # slli x22, x5, 2
    .word 0x002b0b33  # add x22, x22, x2
    .word 0x0a0b2b03  # lw x22, 160(x22)
    .word 0x03688a33  # mul x20, x17, x22
    .word 0x0368bab3  # mulhu x21, x17, x22
    .word 0x00198293  # addi x5, x19, 1
    .word 0x00229293  # slli x5, x5, 2
    .word 0x002282b3  # add x5, x5, x2
    .word 0x00001e37  # lui x28, 0x00001
    .word 0x01c282b3  # add x5, x5, x28
    .word 0xa542a283  # lw x5, -1452(x5)
    .word 0x01428b33  # add x22, x5, x20
    .word 0x00099a63  # bne x19, x0, 20
    .word 0x2b6ca023  # sw x22, 672(x25)
    .word 0x014b3333  # sltu x6, x22, x20
    .word 0x006a8933  # add x18, x21, x6
    .word 0x0400006f  # jal x0, 64
    .word 0x012b0333  # add x6, x22, x18
    .word 0x00299293  # slli x5, x19, 2
    .word 0x002282b3  # add x5, x5, x2
    .word 0x00001e37  # lui x28, 0x00001
    .word 0x01c282b3  # add x5, x5, x28
    .word 0xa462aa23  # sw x6, -1452(x5)
    .word 0x014b3333  # sltu x6, x22, x20
    .word 0x006a82b3  # add x5, x21, x6
    .word 0x00299313  # slli x6, x19, 2
    .word 0x00230333  # add x6, x6, x2
    .word 0x00001e37  # lui x28, 0x00001
    .word 0x01c30333  # add x6, x6, x28
    .word 0xa5432303  # lw x6, -1452(x6)
    .word 0x01233333  # sltu x6, x6, x18
    .word 0x00628933  # add x18, x5, x6
    .word 0xff998293  # addi x5, x19, -7
    .word 0xf60296e3  # bne x5, x0, -148
    .word 0x00800293  # addi x5, x0, 8
    .word 0x00229293  # slli x5, x5, 2
    .word 0x002282b3  # add x5, x5, x2
    .word 0x00001e37  # lui x28, 0x00001
    .word 0x01c282b3  # add x5, x5, x28
    .word 0xa522aa23  # sw x18, -1452(x5)
    .word 0xff980293  # addi x5, x16, -7
    .word 0xf2029ae3  # bne x5, x0, -204
    .word 0x00001337  # lui x6, 0x00001
    .word 0xa9830313  # addi x6, x6, -1384
    .word 0x00230333  # add x6, x6, x2
    .word 0x02000393  # addi x7, x0, 32
    .word 0x006383b3  # add x7, x7, x6
    .word 0x406382b3  # sub x5, x7, x6
    .word 0x00029463  # bne x5, x0, 8
    .word 0x0100006f  # jal x0, 16
    .word 0x00032023  # sw x0, 0(x6)
    .word 0x00430313  # addi x6, x6, 4
    .word 0xfedff06f  # jal x0, -20
    .word 0x00000913  # addi x18, x0, 0
    .word 0xfff00b93  # addi x23, x0, -1
    .word 0x001b8b93  # addi x23, x23, 1
    .word 0x002b9d93  # slli x27, x23, 2
    .word 0x002d8db3  # add x27, x27, x2
    .word 0x008bb293  # sltiu x5, x23, 8
    .word 0x007bf313  # andi x6, x23, 7
    .word 0x00231313  # slli x6, x6, 2
    .word 0x00230333  # add x6, x6, x2
    .word 0x2a032303  # lw x6, 672(x6)
    .word 0x007bf393  # andi x7, x23, 7
    .word 0x00138393  # addi x7, x7, 1
    .word 0x00239393  # slli x7, x7, 2
    .word 0x002383b3  # add x7, x7, x2
    .word 0x00001e37  # lui x28, 0x00001
    .word 0x01c383b3  # add x7, x7, x28
    .word 0xa543a383  # lw x7, -1452(x7)
    .word 0x405002b3  # sub x5, x0, x5
    .word 0x00734333  # xor x6, x6, x7
    .word 0x00537333  # and x6, x6, x5
    .word 0x0063c2b3  # xor x5, x7, x6
    .word 0x01228b33  # add x22, x5, x18
    .word 0x012b3933  # sltu x18, x22, x18
    .word 0xffdb8293  # addi x5, x23, -3
    .word 0x00800313  # addi x6, x0, 8
    .word 0x0262f663  # bgeu x5, x6, 44
    .word 0xffdb8293  # addi x5, x23, -3
    .word 0x0072f293  # andi x5, x5, 7
    .word 0x00229a13  # slli x20, x5, 2
    .word 0x002a0a33  # add x20, x20, x2
    .word 0x00001e37  # lui x28, 0x00001
    .word 0x01ca0a33  # add x20, x20, x28
    .word 0xa98a2a03  # lw x20, -1384(x20)
    .word 0x014b0b33  # add x22, x22, x20
    .word 0x014b3333  # sltu x6, x22, x20
    .word 0x00690933  # add x18, x18, x6
    .word 0xffab8293  # addi x5, x23, -6
    .word 0x00800313  # addi x6, x0, 8
    .word 0x0262f663  # bgeu x5, x6, 44
    .word 0xffab8293  # addi x5, x23, -6
    .word 0x0072f293  # andi x5, x5, 7
    .word 0x00229a13  # slli x20, x5, 2
    .word 0x002a0a33  # add x20, x20, x2
    .word 0x00001e37  # lui x28, 0x00001
    .word 0x01ca0a33  # add x20, x20, x28
    .word 0xa98a2a03  # lw x20, -1384(x20)
    .word 0x014b0b33  # add x22, x22, x20
    .word 0x014b3333  # sltu x6, x22, x20
    .word 0x00690933  # add x18, x18, x6
    .word 0xff9b8293  # addi x5, x23, -7
    .word 0x00800313  # addi x6, x0, 8
    .word 0x0262f863  # bgeu x5, x6, 48
    .word 0xff9b8293  # addi x5, x23, -7
    .word 0x0072f293  # andi x5, x5, 7
    .word 0x00229293  # slli x5, x5, 2
    .word 0x002282b3  # add x5, x5, x2
    .word 0x00001e37  # lui x28, 0x00001
    .word 0x01c282b3  # add x5, x5, x28
    .word 0xa982a283  # lw x5, -1384(x5)
    .word 0x40500a33  # sub x20, x0, x5
    .word 0x014b0b33  # add x22, x22, x20
    .word 0x014b3333  # sltu x6, x22, x20
    .word 0x00690933  # add x18, x18, x6
    .word 0x00800313  # addi x6, x0, 8
    .word 0x026bea63  # bltu x23, x6, 52
    .word 0xff8b8293  # addi x5, x23, -8
    .word 0x0072f293  # andi x5, x5, 7
    .word 0x00229a13  # slli x20, x5, 2
    .word 0x002a0a33  # add x20, x20, x2
    .word 0x00001e37  # lui x28, 0x00001
    .word 0x01ca0a33  # add x20, x20, x28
    .word 0xa98a2a03  # lw x20, -1384(x20)
    .word 0x01403333  # sltu x6, x0, x20
    .word 0x406a0a33  # sub x20, x20, x6
    .word 0x014b0b33  # add x22, x22, x20
    .word 0x014b3333  # sltu x6, x22, x20
    .word 0x00690933  # add x18, x18, x6
    .word 0x00800313  # addi x6, x0, 8
    .word 0x026bf063  # bgeu x23, x6, 32
    .word 0x007bf293  # andi x5, x23, 7
    .word 0x00229293  # slli x5, x5, 2
    .word 0x002282b3  # add x5, x5, x2
    .word 0x00001e37  # lui x28, 0x00001
    .word 0x01c282b3  # add x5, x5, x28
    .word 0xa962ac23  # sw x22, -1384(x5)
    .word 0x0200006f  # jal x0, 32
    .word 0xff8b8293  # addi x5, x23, -8
    .word 0x0072f293  # andi x5, x5, 7
    .word 0x00229293  # slli x5, x5, 2
    .word 0x002282b3  # add x5, x5, x2
    .word 0x00001e37  # lui x28, 0x00001
    .word 0x01c282b3  # add x5, x5, x28
    .word 0xa762ac23  # sw x22, -1416(x5)
    .word 0xff1b8293  # addi x5, x23, -15
    .word 0xe80298e3  # bne x5, x0, -368
    .word 0x00100b13  # addi x22, x0, 1
    .word 0xfff00993  # addi x19, x0, -1
    .word 0x00198993  # addi x19, x19, 1
    .word 0x00299d13  # slli x26, x19, 2
    .word 0x002d0d33  # add x26, x26, x2
    .word 0x00299313  # slli x6, x19, 2
    .word 0x00230333  # add x6, x6, x2
    .word 0x00001e37  # lui x28, 0x00001
    .word 0x01c30333  # add x6, x6, x28
    .word 0xa7832303  # lw x6, -1416(x6)
    .word 0x01630333  # add x6, x6, x22
    .word 0x00299293  # slli x5, x19, 2
    .word 0x002282b3  # add x5, x5, x2
    .word 0x00001e37  # lui x28, 0x00001
    .word 0x01c282b3  # add x5, x5, x28
    .word 0xa662ac23  # sw x6, -1416(x5)
    .word 0x00299293  # slli x5, x19, 2
    .word 0x002282b3  # add x5, x5, x2
    .word 0x00001e37  # lui x28, 0x00001
    .word 0x01c282b3  # add x5, x5, x28
    .word 0xa782a283  # lw x5, -1416(x5)
    .word 0x0162bb33  # sltu x22, x5, x22
    .word 0xffe98293  # addi x5, x19, -2
    .word 0xfa0296e3  # bne x5, x0, -84
    .word 0x00100293  # addi x5, x0, 1
    .word 0x41628b33  # sub x22, x5, x22
    .word 0x00200993  # addi x19, x0, 2
    .word 0x00198993  # addi x19, x19, 1
    .word 0x00299d13  # slli x26, x19, 2
    .word 0x002d0d33  # add x26, x26, x2
    .word 0x00299a13  # slli x20, x19, 2
    .word 0x002a0a33  # add x20, x20, x2
    .word 0x00001e37  # lui x28, 0x00001
    .word 0x01ca0a33  # add x20, x20, x28
    .word 0xa78a2a03  # lw x20, -1416(x20)
    .word 0x416a0333  # sub x6, x20, x22
    .word 0x00299293  # slli x5, x19, 2
    .word 0x002282b3  # add x5, x5, x2
    .word 0x00001e37  # lui x28, 0x00001
    .word 0x01c282b3  # add x5, x5, x28
    .word 0xa662ac23  # sw x6, -1416(x5)
    .word 0x016a3b33  # sltu x22, x20, x22
    .word 0xffb98293  # addi x5, x19, -5
    .word 0xfc0290e3  # bne x5, x0, -64
    .word 0x001b0b13  # addi x22, x22, 1
    .word 0x00600293  # addi x5, x0, 6
    .word 0x00229a13  # slli x20, x5, 2
    .word 0x002a0a33  # add x20, x20, x2
    .word 0x00001e37  # lui x28, 0x00001
    .word 0x01ca0a33  # add x20, x20, x28
    .word 0xa78a2a03  # lw x20, -1416(x20)
    .word 0x00600293  # addi x5, x0, 6
    .word 0x416a0333  # sub x6, x20, x22
    .word 0x00229293  # slli x5, x5, 2
    .word 0x002282b3  # add x5, x5, x2
    .word 0x00001e37  # lui x28, 0x00001
    .word 0x01c282b3  # add x5, x5, x28
    .word 0xa662ac23  # sw x6, -1416(x5)
    .word 0x00100293  # addi x5, x0, 1
    .word 0x016a3333  # sltu x6, x20, x22
    .word 0x40628b33  # sub x22, x5, x6
    .word 0x00700293  # addi x5, x0, 7
    .word 0x00700313  # addi x6, x0, 7
    .word 0x00231313  # slli x6, x6, 2
    .word 0x00230333  # add x6, x6, x2
    .word 0x00001e37  # lui x28, 0x00001
    .word 0x01c30333  # add x6, x6, x28
    .word 0xa7832303  # lw x6, -1416(x6)
    .word 0x01630333  # add x6, x6, x22
    .word 0x00229293  # slli x5, x5, 2
    .word 0x002282b3  # add x5, x5, x2
    .word 0x00001e37  # lui x28, 0x00001
    .word 0x01c282b3  # add x5, x5, x28
    .word 0xa662ac23  # sw x6, -1416(x5)
    .word 0x00700293  # addi x5, x0, 7
    .word 0x00229293  # slli x5, x5, 2
    .word 0x002282b3  # add x5, x5, x2
    .word 0x00001e37  # lui x28, 0x00001
    .word 0x01c282b3  # add x5, x5, x28
    .word 0xa782a283  # lw x5, -1416(x5)
    .word 0x0162bb33  # sltu x22, x5, x22
    .word 0x00100293  # addi x5, x0, 1
    .word 0x412282b3  # sub x5, x5, x18
    .word 0x41628a33  # sub x20, x5, x22
    .word 0x000a0b13  # addi x22, x20, 0
    .word 0xfff00993  # addi x19, x0, -1
    .word 0x00198993  # addi x19, x19, 1
    .word 0x00299d13  # slli x26, x19, 2
    .word 0x002d0d33  # add x26, x26, x2
    .word 0x00299913  # slli x18, x19, 2
    .word 0x00290933  # add x18, x18, x2
    .word 0x00001e37  # lui x28, 0x00001
    .word 0x01c90933  # add x18, x18, x28
    .word 0xa7892903  # lw x18, -1416(x18)
    .word 0x41690333  # sub x6, x18, x22
    .word 0x00299293  # slli x5, x19, 2
    .word 0x002282b3  # add x5, x5, x2
    .word 0x00001e37  # lui x28, 0x00001
    .word 0x01c282b3  # add x5, x5, x28
    .word 0xa662ac23  # sw x6, -1416(x5)
    .word 0x01693b33  # sltu x22, x18, x22
    .word 0xffe98293  # addi x5, x19, -2
    .word 0xfc0290e3  # bne x5, x0, -64
    .word 0x416a0b33  # sub x22, x20, x22
    .word 0x00200993  # addi x19, x0, 2
    .word 0x00198993  # addi x19, x19, 1
    .word 0x00299d13  # slli x26, x19, 2
    .word 0x002d0d33  # add x26, x26, x2
    .word 0x00299313  # slli x6, x19, 2
    .word 0x00230333  # add x6, x6, x2
    .word 0x00001e37  # lui x28, 0x00001
    .word 0x01c30333  # add x6, x6, x28
    .word 0xa7832303  # lw x6, -1416(x6)
    .word 0x01630333  # add x6, x6, x22
    .word 0x00299293  # slli x5, x19, 2
    .word 0x002282b3  # add x5, x5, x2
    .word 0x00001e37  # lui x28, 0x00001
    .word 0x01c282b3  # add x5, x5, x28
    .word 0xa662ac23  # sw x6, -1416(x5)
    .word 0x00299293  # slli x5, x19, 2
    .word 0x002282b3  # add x5, x5, x2
    .word 0x00001e37  # lui x28, 0x00001
    .word 0x01c282b3  # add x5, x5, x28
    .word 0xa782a283  # lw x5, -1416(x5)
    .word 0x0162bb33  # sltu x22, x5, x22
    .word 0xffb98293  # addi x5, x19, -5
    .word 0xfa0296e3  # bne x5, x0, -84
    .word 0x014b0b33  # add x22, x22, x20
    .word 0x00600293  # addi x5, x0, 6
    .word 0x00600313  # addi x6, x0, 6
    .word 0x00231313  # slli x6, x6, 2
    .word 0x00230333  # add x6, x6, x2
    .word 0x00001e37  # lui x28, 0x00001
    .word 0x01c30333  # add x6, x6, x28
    .word 0xa7832303  # lw x6, -1416(x6)
    .word 0x01630333  # add x6, x6, x22
    .word 0x00229293  # slli x5, x5, 2
    .word 0x002282b3  # add x5, x5, x2
    .word 0x00001e37  # lui x28, 0x00001
    .word 0x01c282b3  # add x5, x5, x28
    .word 0xa662ac23  # sw x6, -1416(x5)
    .word 0x00600293  # addi x5, x0, 6
    .word 0x00229293  # slli x5, x5, 2
    .word 0x002282b3  # add x5, x5, x2
    .word 0x00001e37  # lui x28, 0x00001
    .word 0x01c282b3  # add x5, x5, x28
    .word 0xa782a283  # lw x5, -1416(x5)
    .word 0x0162bb33  # sltu x22, x5, x22
    .word 0x00700293  # addi x5, x0, 7
    .word 0x00700313  # addi x6, x0, 7
    .word 0x00231313  # slli x6, x6, 2
    .word 0x00230333  # add x6, x6, x2
    .word 0x00001e37  # lui x28, 0x00001
    .word 0x01c30333  # add x6, x6, x28
    .word 0xa7832303  # lw x6, -1416(x6)
    .word 0x01630333  # add x6, x6, x22
    .word 0x41430333  # sub x6, x6, x20
    .word 0x00229293  # slli x5, x5, 2
    .word 0x002282b3  # add x5, x5, x2
    .word 0x00001e37  # lui x28, 0x00001
    .word 0x01c282b3  # add x5, x5, x28
    .word 0xa662ac23  # sw x6, -1416(x5)
    .word 0xfff00993  # addi x19, x0, -1
    .word 0x00198993  # addi x19, x19, 1
    .word 0x00299d13  # slli x26, x19, 2
    .word 0x002d0d33  # add x26, x26, x2
    .word 0x013782b3  # add x5, x15, x19
    .word 0x00299313  # slli x6, x19, 2
    .word 0x00230333  # add x6, x6, x2
    .word 0x00001e37  # lui x28, 0x00001
    .word 0x01c30333  # add x6, x6, x28
    .word 0xa7832303  # lw x6, -1416(x6)
    .word 0x00229293  # slli x5, x5, 2
    .word 0x002282b3  # add x5, x5, x2
    .word 0x0a62a023  # sw x6, 160(x5)
    .word 0xff998293  # addi x5, x19, -7
    .word 0xfc0296e3  # bne x5, x0, -52
    .word 0x57c0006f  # jal x0, 1404
    .word 0x00100313  # addi x6, x0, 1
    .word 0x36661863  # bne x12, x6, 880
    .word 0x00001337  # lui x6, 0x00001
    .word 0xab830313  # addi x6, x6, -1352
    .word 0x00230333  # add x6, x6, x2
    .word 0x02000393  # addi x7, x0, 32
    .word 0x006383b3  # add x7, x7, x6
    .word 0x406382b3  # sub x5, x7, x6
    .word 0x00029463  # bne x5, x0, 8
    .word 0x0100006f  # jal x0, 16
    .word 0x00032023  # sw x0, 0(x6)
    .word 0x00430313  # addi x6, x6, 4
    .word 0xfedff06f  # jal x0, -20
    .word 0x00000913  # addi x18, x0, 0
    .word 0xfff00993  # addi x19, x0, -1
    .word 0x00198993  # addi x19, x19, 1
    .word 0x00299d13  # slli x26, x19, 2
    .word 0x002d0d33  # add x26, x26, x2
    .word 0x013802b3  # add x5, x16, x19
    .word 0x00229b13  # slli x22, x5, 2
    .word 0x002b0b33  # add x22, x22, x2
    .word 0x0a0b2b03  # lw x22, 160(x22)
    .word 0x013b8333  # add x6, x23, x19
    .word 0x00231313  # slli x6, x6, 2
    .word 0x00230333  # add x6, x6, x2
    .word 0x0a032303  # lw x6, 160(x6)
    .word 0x006b0a33  # add x20, x22, x6
    .word 0x012a0333  # add x6, x20, x18
    .word 0x00299293  # slli x5, x19, 2
    .word 0x002282b3  # add x5, x5, x2
    .word 0x00001e37  # lui x28, 0x00001
    .word 0x01c282b3  # add x5, x5, x28
    .word 0xaa62ac23  # sw x6, -1352(x5)
    .word 0x016a32b3  # sltu x5, x20, x22
    .word 0x00299313  # slli x6, x19, 2
    .word 0x00230333  # add x6, x6, x2
    .word 0x00001e37  # lui x28, 0x00001
    .word 0x01c30333  # add x6, x6, x28
    .word 0xab832303  # lw x6, -1352(x6)
    .word 0x01233333  # sltu x6, x6, x18
    .word 0x00628933  # add x18, x5, x6
    .word 0xff998293  # addi x5, x19, -7
    .word 0xf8029ae3  # bne x5, x0, -108
    .word 0x00100b13  # addi x22, x0, 1
    .word 0xfff00993  # addi x19, x0, -1
    .word 0x00198993  # addi x19, x19, 1
    .word 0x00299d13  # slli x26, x19, 2
    .word 0x002d0d33  # add x26, x26, x2
    .word 0x00299313  # slli x6, x19, 2
    .word 0x00230333  # add x6, x6, x2
    .word 0x00001e37  # lui x28, 0x00001
    .word 0x01c30333  # add x6, x6, x28
    .word 0xab832303  # lw x6, -1352(x6)
    .word 0x01630333  # add x6, x6, x22
    .word 0x00299293  # slli x5, x19, 2
    .word 0x002282b3  # add x5, x5, x2
    .word 0x00001e37  # lui x28, 0x00001
    .word 0x01c282b3  # add x5, x5, x28
    .word 0xaa62ac23  # sw x6, -1352(x5)
    .word 0x00299293  # slli x5, x19, 2
    .word 0x002282b3  # add x5, x5, x2
    .word 0x00001e37  # lui x28, 0x00001
    .word 0x01c282b3  # add x5, x5, x28
    .word 0xab82a283  # lw x5, -1352(x5)
    .word 0x0162bb33  # sltu x22, x5, x22
    .word 0xffe98293  # addi x5, x19, -2
    .word 0xfa0296e3  # bne x5, x0, -84
    .word 0x00100293  # addi x5, x0, 1
    .word 0x41628b33  # sub x22, x5, x22
    .word 0x00200993  # addi x19, x0, 2
    .word 0x00198993  # addi x19, x19, 1
    .word 0x00299d13  # slli x26, x19, 2
    .word 0x002d0d33  # add x26, x26, x2
    .word 0x00299a13  # slli x20, x19, 2
    .word 0x002a0a33  # add x20, x20, x2
    .word 0x00001e37  # lui x28, 0x00001
    .word 0x01ca0a33  # add x20, x20, x28
    .word 0xab8a2a03  # lw x20, -1352(x20)
    .word 0x416a0333  # sub x6, x20, x22
    .word 0x00299293  # slli x5, x19, 2
    .word 0x002282b3  # add x5, x5, x2
    .word 0x00001e37  # lui x28, 0x00001
    .word 0x01c282b3  # add x5, x5, x28
    .word 0xaa62ac23  # sw x6, -1352(x5)
    .word 0x016a3b33  # sltu x22, x20, x22
    .word 0xffb98293  # addi x5, x19, -5
    .word 0xfc0290e3  # bne x5, x0, -64
    .word 0x001b0b13  # addi x22, x22, 1
    .word 0x00600293  # addi x5, x0, 6
    .word 0x00229a13  # slli x20, x5, 2
    .word 0x002a0a33  # add x20, x20, x2
    .word 0x00001e37  # lui x28, 0x00001
    .word 0x01ca0a33  # add x20, x20, x28
    .word 0xab8a2a03  # lw x20, -1352(x20)
    .word 0x00600293  # addi x5, x0, 6
    .word 0x416a0333  # sub x6, x20, x22
    .word 0x00229293  # slli x5, x5, 2
    .word 0x002282b3  # add x5, x5, x2
    .word 0x00001e37  # lui x28, 0x00001
    .word 0x01c282b3  # add x5, x5, x28
    .word 0xaa62ac23  # sw x6, -1352(x5)
    .word 0x00100293  # addi x5, x0, 1
    .word 0x016a3333  # sltu x6, x20, x22
    .word 0x40628b33  # sub x22, x5, x6
    .word 0x00700293  # addi x5, x0, 7
    .word 0x00700313  # addi x6, x0, 7
    .word 0x00231313  # slli x6, x6, 2
    .word 0x00230333  # add x6, x6, x2
    .word 0x00001e37  # lui x28, 0x00001
    .word 0x01c30333  # add x6, x6, x28
    .word 0xab832303  # lw x6, -1352(x6)
    .word 0x01630333  # add x6, x6, x22
    .word 0x00229293  # slli x5, x5, 2
    .word 0x002282b3  # add x5, x5, x2
    .word 0x00001e37  # lui x28, 0x00001
    .word 0x01c282b3  # add x5, x5, x28
    .word 0xaa62ac23  # sw x6, -1352(x5)
    .word 0x00700293  # addi x5, x0, 7
    .word 0x00229293  # slli x5, x5, 2
    .word 0x002282b3  # add x5, x5, x2
    .word 0x00001e37  # lui x28, 0x00001
    .word 0x01c282b3  # add x5, x5, x28
    .word 0xab82a283  # lw x5, -1352(x5)
    .word 0x0162bb33  # sltu x22, x5, x22
    .word 0x00100293  # addi x5, x0, 1
    .word 0x412282b3  # sub x5, x5, x18
    .word 0x41628a33  # sub x20, x5, x22
    .word 0x000a0b13  # addi x22, x20, 0
    .word 0xfff00993  # addi x19, x0, -1
    .word 0x00198993  # addi x19, x19, 1
    .word 0x00299d13  # slli x26, x19, 2
    .word 0x002d0d33  # add x26, x26, x2
    .word 0x00299913  # slli x18, x19, 2
    .word 0x00290933  # add x18, x18, x2
    .word 0x00001e37  # lui x28, 0x00001
    .word 0x01c90933  # add x18, x18, x28
    .word 0xab892903  # lw x18, -1352(x18)
    .word 0x41690333  # sub x6, x18, x22
    .word 0x00299293  # slli x5, x19, 2
    .word 0x002282b3  # add x5, x5, x2
    .word 0x00001e37  # lui x28, 0x00001
    .word 0x01c282b3  # add x5, x5, x28
    .word 0xaa62ac23  # sw x6, -1352(x5)
    .word 0x01693b33  # sltu x22, x18, x22
    .word 0xffe98293  # addi x5, x19, -2
    .word 0xfc0290e3  # bne x5, x0, -64
    .word 0x416a0b33  # sub x22, x20, x22
    .word 0x00200993  # addi x19, x0, 2
    .word 0x00198993  # addi x19, x19, 1
    .word 0x00299d13  # slli x26, x19, 2
    .word 0x002d0d33  # add x26, x26, x2
    .word 0x00299313  # slli x6, x19, 2
    .word 0x00230333  # add x6, x6, x2
    .word 0x00001e37  # lui x28, 0x00001
    .word 0x01c30333  # add x6, x6, x28
    .word 0xab832303  # lw x6, -1352(x6)
    .word 0x01630333  # add x6, x6, x22
    .word 0x00299293  # slli x5, x19, 2
    .word 0x002282b3  # add x5, x5, x2
    .word 0x00001e37  # lui x28, 0x00001
    .word 0x01c282b3  # add x5, x5, x28
    .word 0xaa62ac23  # sw x6, -1352(x5)
    .word 0x00299293  # slli x5, x19, 2
    .word 0x002282b3  # add x5, x5, x2
    .word 0x00001e37  # lui x28, 0x00001
    .word 0x01c282b3  # add x5, x5, x28
    .word 0xab82a283  # lw x5, -1352(x5)
    .word 0x0162bb33  # sltu x22, x5, x22
    .word 0xffb98293  # addi x5, x19, -5
    .word 0xfa0296e3  # bne x5, x0, -84
    .word 0x014b0b33  # add x22, x22, x20
    .word 0x00600293  # addi x5, x0, 6
    .word 0x00600313  # addi x6, x0, 6
    .word 0x00231313  # slli x6, x6, 2
    .word 0x00230333  # add x6, x6, x2
    .word 0x00001e37  # lui x28, 0x00001
    .word 0x01c30333  # add x6, x6, x28
    .word 0xab832303  # lw x6, -1352(x6)
    .word 0x01630333  # add x6, x6, x22
    .word 0x00229293  # slli x5, x5, 2
    .word 0x002282b3  # add x5, x5, x2
    .word 0x00001e37  # lui x28, 0x00001
    .word 0x01c282b3  # add x5, x5, x28
    .word 0xaa62ac23  # sw x6, -1352(x5)
    .word 0x00600293  # addi x5, x0, 6
    .word 0x00229293  # slli x5, x5, 2
    .word 0x002282b3  # add x5, x5, x2
    .word 0x00001e37  # lui x28, 0x00001
    .word 0x01c282b3  # add x5, x5, x28
    .word 0xab82a283  # lw x5, -1352(x5)
    .word 0x0162bb33  # sltu x22, x5, x22
    .word 0x00700293  # addi x5, x0, 7
    .word 0x00700313  # addi x6, x0, 7
    .word 0x00231313  # slli x6, x6, 2
    .word 0x00230333  # add x6, x6, x2
    .word 0x00001e37  # lui x28, 0x00001
    .word 0x01c30333  # add x6, x6, x28
    .word 0xab832303  # lw x6, -1352(x6)
    .word 0x01630333  # add x6, x6, x22
    .word 0x41430333  # sub x6, x6, x20
    .word 0x00229293  # slli x5, x5, 2
    .word 0x002282b3  # add x5, x5, x2
    .word 0x00001e37  # lui x28, 0x00001
    .word 0x01c282b3  # add x5, x5, x28
    .word 0xaa62ac23  # sw x6, -1352(x5)
    .word 0xfff00993  # addi x19, x0, -1
    .word 0x00198993  # addi x19, x19, 1
    .word 0x00299d13  # slli x26, x19, 2
    .word 0x002d0d33  # add x26, x26, x2
    .word 0x013782b3  # add x5, x15, x19
    .word 0x00299313  # slli x6, x19, 2
    .word 0x00230333  # add x6, x6, x2
    .word 0x00001e37  # lui x28, 0x00001
    .word 0x01c30333  # add x6, x6, x28
    .word 0xab832303  # lw x6, -1352(x6)
    .word 0x00229293  # slli x5, x5, 2
    .word 0x002282b3  # add x5, x5, x2
    .word 0x0a62a023  # sw x6, 160(x5)
    .word 0xff998293  # addi x5, x19, -7
    .word 0xfc0296e3  # bne x5, x0, -52
    .word 0x2080006f  # jal x0, 520
    .word 0x00001337  # lui x6, 0x00001
    .word 0xad830313  # addi x6, x6, -1320
    .word 0x00230333  # add x6, x6, x2
    .word 0x02000393  # addi x7, x0, 32
    .word 0x006383b3  # add x7, x7, x6
    .word 0x406382b3  # sub x5, x7, x6
    .word 0x00029463  # bne x5, x0, 8
    .word 0x0100006f  # jal x0, 16
    .word 0x00032023  # sw x0, 0(x6)
    .word 0x00430313  # addi x6, x6, 4
    .word 0xfedff06f  # jal x0, -20
    .word 0x00000913  # addi x18, x0, 0
    .word 0xfff00993  # addi x19, x0, -1
    .word 0x00198993  # addi x19, x19, 1
    .word 0x00299d13  # slli x26, x19, 2
    .word 0x002d0d33  # add x26, x26, x2
    .word 0x013802b3  # add x5, x16, x19
    .word 0x00229b13  # slli x22, x5, 2
    .word 0x002b0b33  # add x22, x22, x2
    .word 0x0a0b2b03  # lw x22, 160(x22)
    .word 0x013b82b3  # add x5, x23, x19
    .word 0x00229a13  # slli x20, x5, 2
    .word 0x002a0a33  # add x20, x20, x2
    .word 0x0a0a2a03  # lw x20, 160(x20)
    .word 0x414b08b3  # sub x17, x22, x20
    .word 0x41288333  # sub x6, x17, x18
    .word 0x00299293  # slli x5, x19, 2
    .word 0x002282b3  # add x5, x5, x2
    .word 0x00001e37  # lui x28, 0x00001
    .word 0x01c282b3  # add x5, x5, x28
    .word 0xac62ac23  # sw x6, -1320(x5)
    .word 0x014b32b3  # sltu x5, x22, x20
    .word 0x0128b333  # sltu x6, x17, x18
    .word 0x00628933  # add x18, x5, x6
    .word 0xff998293  # addi x5, x19, -7
    .word 0xfa0294e3  # bne x5, x0, -88
    .word 0x00090b13  # addi x22, x18, 0
    .word 0xfff00993  # addi x19, x0, -1
    .word 0x00198993  # addi x19, x19, 1
    .word 0x00299d13  # slli x26, x19, 2
    .word 0x002d0d33  # add x26, x26, x2
    .word 0x00299a13  # slli x20, x19, 2
    .word 0x002a0a33  # add x20, x20, x2
    .word 0x00001e37  # lui x28, 0x00001
    .word 0x01ca0a33  # add x20, x20, x28
    .word 0xad8a2a03  # lw x20, -1320(x20)
    .word 0x416a0333  # sub x6, x20, x22
    .word 0x00299293  # slli x5, x19, 2
    .word 0x002282b3  # add x5, x5, x2
    .word 0x00001e37  # lui x28, 0x00001
    .word 0x01c282b3  # add x5, x5, x28
    .word 0xac62ac23  # sw x6, -1320(x5)
    .word 0x016a3b33  # sltu x22, x20, x22
    .word 0xffe98293  # addi x5, x19, -2
    .word 0xfc0290e3  # bne x5, x0, -64
    .word 0x41690b33  # sub x22, x18, x22
    .word 0x00200993  # addi x19, x0, 2
    .word 0x00198993  # addi x19, x19, 1
    .word 0x00299d13  # slli x26, x19, 2
    .word 0x002d0d33  # add x26, x26, x2
    .word 0x00299313  # slli x6, x19, 2
    .word 0x00230333  # add x6, x6, x2
    .word 0x00001e37  # lui x28, 0x00001
    .word 0x01c30333  # add x6, x6, x28
    .word 0xad832303  # lw x6, -1320(x6)
    .word 0x01630333  # add x6, x6, x22
    .word 0x00299293  # slli x5, x19, 2
    .word 0x002282b3  # add x5, x5, x2
    .word 0x00001e37  # lui x28, 0x00001
    .word 0x01c282b3  # add x5, x5, x28
    .word 0xac62ac23  # sw x6, -1320(x5)
    .word 0x00299293  # slli x5, x19, 2
    .word 0x002282b3  # add x5, x5, x2
    .word 0x00001e37  # lui x28, 0x00001
    .word 0x01c282b3  # add x5, x5, x28
    .word 0xad82a283  # lw x5, -1320(x5)
    .word 0x0162bb33  # sltu x22, x5, x22
    .word 0xffb98293  # addi x5, x19, -5
    .word 0xfa0296e3  # bne x5, x0, -84
    .word 0x012b0b33  # add x22, x22, x18
    .word 0x00600293  # addi x5, x0, 6
    .word 0x00600313  # addi x6, x0, 6
    .word 0x00231313  # slli x6, x6, 2
    .word 0x00230333  # add x6, x6, x2
    .word 0x00001e37  # lui x28, 0x00001
    .word 0x01c30333  # add x6, x6, x28
    .word 0xad832303  # lw x6, -1320(x6)
    .word 0x01630333  # add x6, x6, x22
    .word 0x00229293  # slli x5, x5, 2
    .word 0x002282b3  # add x5, x5, x2
    .word 0x00001e37  # lui x28, 0x00001
    .word 0x01c282b3  # add x5, x5, x28
    .word 0xac62ac23  # sw x6, -1320(x5)
    .word 0x00600293  # addi x5, x0, 6
    .word 0x00229293  # slli x5, x5, 2
    .word 0x002282b3  # add x5, x5, x2
    .word 0x00001e37  # lui x28, 0x00001
    .word 0x01c282b3  # add x5, x5, x28
    .word 0xad82a283  # lw x5, -1320(x5)
    .word 0x0162bb33  # sltu x22, x5, x22
    .word 0x00700293  # addi x5, x0, 7
    .word 0x00700313  # addi x6, x0, 7
    .word 0x00231313  # slli x6, x6, 2
    .word 0x00230333  # add x6, x6, x2
    .word 0x00001e37  # lui x28, 0x00001
    .word 0x01c30333  # add x6, x6, x28
    .word 0xad832303  # lw x6, -1320(x6)
    .word 0x01630333  # add x6, x6, x22
    .word 0x41230333  # sub x6, x6, x18
    .word 0x00229293  # slli x5, x5, 2
    .word 0x002282b3  # add x5, x5, x2
    .word 0x00001e37  # lui x28, 0x00001
    .word 0x01c282b3  # add x5, x5, x28
    .word 0xac62ac23  # sw x6, -1320(x5)
    .word 0xfff00993  # addi x19, x0, -1
    .word 0x00198993  # addi x19, x19, 1
    .word 0x00299d13  # slli x26, x19, 2
    .word 0x002d0d33  # add x26, x26, x2
    .word 0x013782b3  # add x5, x15, x19
    .word 0x00299313  # slli x6, x19, 2
    .word 0x00230333  # add x6, x6, x2
    .word 0x00001e37  # lui x28, 0x00001
    .word 0x01c30333  # add x6, x6, x28
    .word 0xad832303  # lw x6, -1320(x6)
    .word 0x00229293  # slli x5, x5, 2
    .word 0x002282b3  # add x5, x5, x2
    .word 0x0a62a023  # sw x6, 160(x5)
    .word 0xff998293  # addi x5, x19, -7
    .word 0xfc0296e3  # bne x5, x0, -52
    .word 0xb8cff06f  # jal x0, -3188
    .word 0x00001e37  # lui x28, 0x00001
    .word 0x002e0e33  # add x28, x28, x2
    .word 0xb00e2a23  # sw x0, -1260(x28)
    .word 0x0015b293  # sltiu x5, x11, 1
    .word 0x00800313  # addi x6, x0, 8
    .word 0x405002b3  # sub x5, x0, x5
    .word 0x005372b3  # and x5, x6, x5
    .word 0x00001e37  # lui x28, 0x00001
    .word 0x002e0e33  # add x28, x28, x2
    .word 0xb05e2c23  # sw x5, -1256(x28)
    .word 0x00001337  # lui x6, 0x00001
    .word 0x00230333  # add x6, x6, x2
    .word 0xb1432303  # lw x6, -1260(x6)
    .word 0x000012b7  # lui x5, 0x00001
    .word 0x002282b3  # add x5, x5, x2
    .word 0xb182a283  # lw x5, -1256(x5)
    .word 0x005332b3  # sltu x5, x6, x5
    .word 0x00029463  # bne x5, x0, 8
    .word 0x07c0006f  # jal x0, 124
    .word 0x00001e37  # lui x28, 0x00001
    .word 0x002e0e33  # add x28, x28, x2
    .word 0xae6e2c23  # sw x6, -1288(x28)
    .word 0x00130313  # addi x6, x6, 1
    .word 0x00001e37  # lui x28, 0x00001
    .word 0x002e0e33  # add x28, x28, x2
    .word 0xb06e2a23  # sw x6, -1260(x28)
    .word 0x000012b7  # lui x5, 0x00001
    .word 0x002282b3  # add x5, x5, x2
    .word 0xa0c2a283  # lw x5, -1524(x5)
    .word 0x00001337  # lui x6, 0x00001
    .word 0x00230333  # add x6, x6, x2
    .word 0xaf832303  # lw x6, -1288(x6)
    .word 0x03830313  # addi x6, x6, 56
    .word 0x00231313  # slli x6, x6, 2
    .word 0x00230333  # add x6, x6, x2
    .word 0x0a032303  # lw x6, 160(x6)
    .word 0x000013b7  # lui x7, 0x00001
    .word 0x002383b3  # add x7, x7, x2
    .word 0xaf83a383  # lw x7, -1288(x7)
    .word 0x04038393  # addi x7, x7, 64
    .word 0x00239393  # slli x7, x7, 2
    .word 0x002383b3  # add x7, x7, x2
    .word 0x0a03a383  # lw x7, 160(x7)
    .word 0x00734333  # xor x6, x6, x7
    .word 0x0062e2b3  # or x5, x5, x6
    .word 0x00001e37  # lui x28, 0x00001
    .word 0x002e0e33  # add x28, x28, x2
    .word 0xa05e2623  # sw x5, -1524(x28)
    .word 0xf69ff06f  # jal x0, -152
    .word 0x0015b293  # sltiu x5, x11, 1
    .word 0x01800313  # addi x6, x0, 24
    .word 0x405002b3  # sub x5, x0, x5
    .word 0x005379b3  # and x19, x6, x5
    .word 0x00299d13  # slli x26, x19, 2
    .word 0x002d0d33  # add x26, x26, x2
    .word 0x00001e37  # lui x28, 0x00001
    .word 0x002e0e33  # add x28, x28, x2
    .word 0xb00e2a23  # sw x0, -1260(x28)
    .word 0x00f5b293  # sltiu x5, x11, 15
    .word 0x01800313  # addi x6, x0, 24
    .word 0x405002b3  # sub x5, x0, x5
    .word 0x005372b3  # and x5, x6, x5
    .word 0x00001e37  # lui x28, 0x00001
    .word 0x002e0e33  # add x28, x28, x2
    .word 0xb05e2c23  # sw x5, -1256(x28)
    .word 0x00001337  # lui x6, 0x00001
    .word 0x00230333  # add x6, x6, x2
    .word 0xb1432303  # lw x6, -1260(x6)
    .word 0x000012b7  # lui x5, 0x00001
    .word 0x002282b3  # add x5, x5, x2
    .word 0xb182a283  # lw x5, -1256(x5)
    .word 0x005332b3  # sltu x5, x6, x5
    .word 0x00029463  # bne x5, x0, 8
    .word 0x06c0006f  # jal x0, 108
    .word 0x00030c13  # addi x24, x6, 0
    .word 0x01898333  # add x6, x19, x24
    .word 0x00231313  # slli x6, x6, 2
    .word 0x00230333  # add x6, x6, x2
    .word 0x0a032303  # lw x6, 160(x6)
    .word 0x002c1293  # slli x5, x24, 2
    .word 0x002282b3  # add x5, x5, x2
    .word 0x0a62a023  # sw x6, 160(x5)
    .word 0x004c1293  # slli x5, x24, 4
    .word 0x00158313  # addi x6, x11, 1
    .word 0x00f37313  # andi x6, x6, 15
    .word 0x006282b3  # add x5, x5, x6
    .word 0x002c1313  # slli x6, x24, 2
    .word 0x00230333  # add x6, x6, x2
    .word 0x0a032303  # lw x6, 160(x6)
    .word 0x00229293  # slli x5, x5, 2
    .word 0x002282b3  # add x5, x5, x2
    .word 0x2c62a023  # sw x6, 704(x5)
    .word 0x001c0c13  # addi x24, x24, 1
    .word 0x000012b7  # lui x5, 0x00001
    .word 0x002282b3  # add x5, x5, x2
    .word 0xb182a283  # lw x5, -1256(x5)
    .word 0x005c32b3  # sltu x5, x24, x5
    .word 0xfa0294e3  # bne x5, x0, -88
    .word 0xfffc0c13  # addi x24, x24, -1
    .word 0x0040006f  # jal x0, 4
    .word 0xd01fe06f  # jal x0, -4864
    .word 0x00000b13  # addi x22, x0, 0
    .word 0xfff00993  # addi x19, x0, -1
    .word 0x00198993  # addi x19, x19, 1
    .word 0x00299d13  # slli x26, x19, 2
    .word 0x002d0d33  # add x26, x26, x2
    .word 0x01098313  # addi x6, x19, 16
    .word 0x00231313  # slli x6, x6, 2
    .word 0x00230333  # add x6, x6, x2
    .word 0x0a032303  # lw x6, 160(x6)
    .word 0x006b6b33  # or x22, x22, x6
    .word 0xff998293  # addi x5, x19, -7
    .word 0xfc029ee3  # bne x5, x0, -36
    .word 0x000012b7  # lui x5, 0x00001
    .word 0x002282b3  # add x5, x5, x2
    .word 0xa0c2a283  # lw x5, -1524(x5)
    .word 0x0012b293  # sltiu x5, x5, 1
    .word 0x01603333  # sltu x6, x0, x22
    .word 0x0062f2b3  # and x5, x5, x6
    .word 0x00001e37  # lui x28, 0x00001
    .word 0x002e0e33  # add x28, x28, x2
    .word 0xae5e2e23  # sw x5, -1284(x28)
    .word 0xfff00613  # addi x12, x0, -1
    .word 0x00160613  # addi x12, x12, 1
    .word 0x00365293  # srli x5, x12, 3
    .word 0x00529293  # slli x5, x5, 5
    .word 0x01f28293  # addi x5, x5, 31
    .word 0x00767313  # andi x6, x12, 7
    .word 0x00231313  # slli x6, x6, 2
    .word 0x40628bb3  # sub x23, x5, x6
    .word 0x002b9d93  # slli x27, x23, 2
    .word 0x002d8db3  # add x27, x27, x2
    .word 0x000012b7  # lui x5, 0x00001
    .word 0x002282b3  # add x5, x5, x2
    .word 0xafc2a283  # lw x5, -1284(x5)
    .word 0x00261313  # slli x6, x12, 2
    .word 0x00230333  # add x6, x6, x2
    .word 0x0a032303  # lw x6, 160(x6)
    .word 0x405002b3  # sub x5, x0, x5
    .word 0x00537b33  # and x22, x6, x5
    .word 0xfff00993  # addi x19, x0, -1
    .word 0x00198993  # addi x19, x19, 1
    .word 0x00299d13  # slli x26, x19, 2
    .word 0x002d0d33  # add x26, x26, x2
    .word 0x413b82b3  # sub x5, x23, x19
    .word 0x00399393  # slli x7, x19, 3
    .word 0x007b5333  # srl x6, x22, x7
    .word 0x002282b3  # add x5, x5, x2
    .word 0x06628023  # sb x6, 96(x5)
    .word 0xffd98293  # addi x5, x19, -3
    .word 0xfc029ee3  # bne x5, x0, -36
    .word 0xff160293  # addi x5, x12, -15
    .word 0xf80296e3  # bne x5, x0, -116
    .word 0x000012b7  # lui x5, 0x00001
    .word 0x002282b3  # add x5, x5, x2
    .word 0xafc2a283  # lw x5, -1284(x5)
    .word 0x00001e37  # lui x28, 0x00001
    .word 0x002e0e33  # add x28, x28, x2
    .word 0xb05e2423  # sw x5, -1272(x28)
    # the result
    .word 0x00001537  # lui x10, 0x00001
    .word 0x00250533  # add x10, x10, x2
    .word 0xb0852503  # lw x10, -1272(x10)
    # parameter 2: the array, back
    .word 0x06010293  # addi x5, x2, 96
    .word 0x00001337  # lui x6, 0x00001
    .word 0x00230333  # add x6, x6, x2
    .word 0xb6c32303  # lw x6, -1172(x6)
    .word 0x04028393  # addi x7, x5, 64
    .word 0x0002ce03  # lbu x28, 0(x5)
    .word 0x01c30023  # sb x28, 0(x6)
    .word 0x00128293  # addi x5, x5, 1
    .word 0x00130313  # addi x6, x6, 1
    .word 0xfe7298e3  # bne x5, x7, -16
    # above the frame
    .word 0x000012b7  # lui x5, 0x00001
    .word 0xb3028293  # addi x5, x5, -1232
    .word 0x002282b3  # add x5, x5, x2
    # the caller's registers
    .word 0x0002a403  # lw x8, 0(x5)
    .cfi_restore 8
    .word 0x0042a483  # lw x9, 4(x5)
    .cfi_restore 9
    .word 0x0082a903  # lw x18, 8(x5)
    .cfi_restore 18
    .word 0x00c2a983  # lw x19, 12(x5)
    .cfi_restore 19
    .word 0x0102aa03  # lw x20, 16(x5)
    .cfi_restore 20
    .word 0x0142aa83  # lw x21, 20(x5)
    .cfi_restore 21
    .word 0x0182ab03  # lw x22, 24(x5)
    .cfi_restore 22
    .word 0x01c2ab83  # lw x23, 28(x5)
    .cfi_restore 23
    .word 0x0202ac03  # lw x24, 32(x5)
    .cfi_restore 24
    .word 0x0242ac83  # lw x25, 36(x5)
    .cfi_restore 25
    .word 0x0282ad03  # lw x26, 40(x5)
    .cfi_restore 26
    .word 0x02c2ad83  # lw x27, 44(x5)
    .cfi_restore 27
    # the caller's x2
    .word 0x04028293  # addi x5, x5, 64
    .cfi_def_cfa 5, 0
    # on to the tail that functions share
    jal x0, factc.tail.1
    .cfi_endproc
    .size p256_scalar_multiply, . - p256_scalar_multiply
    .section .text.factc.tail.1, "axG", @progbits, factc.tail.1, comdat
    .p2align 2
    .globl factc.tail.1
    .hidden factc.tail.1
    .type factc.tail.1, @function
factc.tail.1:
    .cfi_startproc
    .cfi_def_cfa 5, 0
    # all the room, wiped upward
    .word 0x00012023  # sw x0, 0(x2)
    .word 0x00012223  # sw x0, 4(x2)
    .word 0x00012423  # sw x0, 8(x2)
    .word 0x00012623  # sw x0, 12(x2)
    .word 0x01010113  # addi x2, x2, 16
    .word 0xfe5116e3  # bne x2, x5, -20
    .cfi_def_cfa 2, 0
    # temporaries, wiped
    .word 0x00000293  # addi x5, x0, 0
    .word 0x00000313  # addi x6, x0, 0
    .word 0x00000393  # addi x7, x0, 0
    .word 0x00000593  # addi x11, x0, 0
    .word 0x00000613  # addi x12, x0, 0
    .word 0x00000693  # addi x13, x0, 0
    .word 0x00000713  # addi x14, x0, 0
    .word 0x00000793  # addi x15, x0, 0
    .word 0x00000813  # addi x16, x0, 0
    .word 0x00000893  # addi x17, x0, 0
    .word 0x00000e13  # addi x28, x0, 0
    .word 0x00000e93  # addi x29, x0, 0
    .word 0x00000f13  # addi x30, x0, 0
    .word 0x00000f93  # addi x31, x0, 0
    # back
    .word 0x00008067  # jalr x0, 0(x1)
    .cfi_endproc
    .size factc.tail.1, . - factc.tail.1
    .option pop
