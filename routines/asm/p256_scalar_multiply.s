# p256_scalar_multiply: made by factc 1.0.0 function; 2533 words, 2656 bytes of stack, profile 1
    .option push
    .option norvc
    .option norelax
    .cfi_sections .debug_frame
    .section .text.p256_scalar_multiply, "ax", @progbits
    .p2align 2
    .globl p256_scalar_multiply
    .type p256_scalar_multiply, @function
p256_scalar_multiply:
    .cfi_startproc
    # room above the frame
    .word 0xfc010113  # addi x2, x2, -64
    .cfi_def_cfa_offset 64
    # the caller's registers
    .word 0x00812023  # sw x8, 0(x2)
    .cfi_offset 8, -64
    .word 0x00912223  # sw x9, 4(x2)
    .cfi_offset 9, -60
    .word 0x01212423  # sw x18, 8(x2)
    .cfi_offset 18, -56
    .word 0x01312623  # sw x19, 12(x2)
    .cfi_offset 19, -52
    .word 0x01412823  # sw x20, 16(x2)
    .cfi_offset 20, -48
    .word 0x01512a23  # sw x21, 20(x2)
    .cfi_offset 21, -44
    .word 0x01612c23  # sw x22, 24(x2)
    .cfi_offset 22, -40
    .word 0x01712e23  # sw x23, 28(x2)
    .cfi_offset 23, -36
    .word 0x03812023  # sw x24, 32(x2)
    .cfi_offset 24, -32
    .word 0x03912223  # sw x25, 36(x2)
    .cfi_offset 25, -28
    .word 0x03a12423  # sw x26, 40(x2)
    .cfi_offset 26, -24
    .word 0x03b12623  # sw x27, 44(x2)
    .cfi_offset 27, -20
    # arguments that are needed behind the body
    .word 0x02a12a23  # sw x10, 52(x2)
    .word 0x02b12c23  # sw x11, 56(x2)
    .word 0x02c12e23  # sw x12, 60(x2)
    # the frame's base
    .word 0x000012b7  # lui x5, 0x00001
    .word 0xa2028293  # addi x5, x5, -1504
    .word 0x405102b3  # sub x5, x2, x5
    .cfi_def_cfa 5, 2656
    # the frame, zeroed downward
    .word 0xff010113  # addi x2, x2, -16
    .word 0x00012023  # sw x0, 0(x2)
    .word 0x00012223  # sw x0, 4(x2)
    .word 0x00012423  # sw x0, 8(x2)
    .word 0x00012623  # sw x0, 12(x2)
    .word 0xfe5116e3  # bne x2, x5, -20
    .cfi_def_cfa 2, 2656
    # parameter 0: an array
    .word 0x00050293  # addi x5, x10, 0
    .word 0x00010313  # addi x6, x2, 0
    .word 0x02028393  # addi x7, x5, 32
    .word 0x6d002f6f  # jal x30, 9936
    # parameter 1: an array
    .word 0x00058293  # addi x5, x11, 0
    .word 0x02010313  # addi x6, x2, 32
    .word 0x04028393  # addi x7, x5, 64
    .word 0x6c002f6f  # jal x30, 9920
    # the body
    .word 0x000012b7  # lui x5, 0x00001
    .word 0xf0f28293  # addi x5, x5, -241
    .word 0x00001e37  # lui x28, 0x00001
    .word 0x002e0e33  # add x28, x28, x2
    .word 0x9e5e2a23  # sw x5, -1548(x28)
    .word 0x000012b7  # lui x5, 0x00001
    .word 0xf0028293  # addi x5, x5, -256
    .word 0x00001e37  # lui x28, 0x00001
    .word 0x002e0e33  # add x28, x28, x2
    .word 0x9e5e2c23  # sw x5, -1544(x28)
    .word 0x0a000313  # addi x6, x0, 160
    .word 0x00230333  # add x6, x6, x2
    .word 0x20000393  # addi x7, x0, 512
    .word 0x006383b3  # add x7, x7, x6
    .word 0x406382b3  # sub x5, x7, x6
    .word 0x00029463  # bne x5, x0, 8
    .word 0x0100006f  # jal x0, 16
    .word 0x00032023  # sw x0, 0(x6)
    .word 0x00430313  # addi x6, x6, 4
    .word 0xfedff06f  # jal x0, -20
    .word 0x2a000313  # addi x6, x0, 672
    .word 0x00230333  # add x6, x6, x2
    .word 0x02000393  # addi x7, x0, 32
    .word 0x006383b3  # add x7, x7, x6
    .word 0x406382b3  # sub x5, x7, x6
    .word 0x00029463  # bne x5, x0, 8
    .word 0x0100006f  # jal x0, 16
    .word 0x00032023  # sw x0, 0(x6)
    .word 0x00430313  # addi x6, x6, 4
    .word 0xfedff06f  # jal x0, -20
    .word 0x2c000313  # addi x6, x0, 704
    .word 0x00230333  # add x6, x6, x2
    .word 0x60000393  # addi x7, x0, 1536
    .word 0x006383b3  # add x7, x7, x6
    .word 0x406382b3  # sub x5, x7, x6
    .word 0x00029463  # bne x5, x0, 8
    .word 0x0100006f  # jal x0, 16
    .word 0x00032023  # sw x0, 0(x6)
    .word 0x00430313  # addi x6, x6, 4
    .word 0xfedff06f  # jal x0, -20
    .word 0x33f00293  # addi x5, x0, 831
    .word 0x00001e37  # lui x28, 0x00001
    .word 0x002e0e33  # add x28, x28, x2
    .word 0x8c5e1023  # sh x5, -1856(x28)
    .word 0x44f00293  # addi x5, x0, 1103
    .word 0x00001e37  # lui x28, 0x00001
    .word 0x002e0e33  # add x28, x28, x2
    .word 0x8c5e1123  # sh x5, -1854(x28)
    .word 0x73300293  # addi x5, x0, 1843
    .word 0x00001e37  # lui x28, 0x00001
    .word 0x002e0e33  # add x28, x28, x2
    .word 0x8c5e1223  # sh x5, -1852(x28)
    .word 0x77300293  # addi x5, x0, 1907
    .word 0x00001e37  # lui x28, 0x00001
    .word 0x002e0e33  # add x28, x28, x2
    .word 0x8c5e1323  # sh x5, -1850(x28)
    .word 0x000022b7  # lui x5, 0x00002
    .word 0x83328293  # addi x5, x5, -1997
    .word 0x00001e37  # lui x28, 0x00001
    .word 0x002e0e33  # add x28, x28, x2
    .word 0x8c5e1423  # sh x5, -1848(x28)
    .word 0x000022b7  # lui x5, 0x00002
    .word 0x88328293  # addi x5, x5, -1917
    .word 0x00001e37  # lui x28, 0x00001
    .word 0x002e0e33  # add x28, x28, x2
    .word 0x8c5e1523  # sh x5, -1846(x28)
    .word 0x000022b7  # lui x5, 0x00002
    .word 0x77828293  # addi x5, x5, 1912
    .word 0x00001e37  # lui x28, 0x00001
    .word 0x002e0e33  # add x28, x28, x2
    .word 0x8c5e1623  # sh x5, -1844(x28)
    .word 0x000012b7  # lui x5, 0x00001
    .word 0x77628293  # addi x5, x5, 1910
    .word 0x00001e37  # lui x28, 0x00001
    .word 0x002e0e33  # add x28, x28, x2
    .word 0x8c5e1723  # sh x5, -1842(x28)
    .word 0x000012b7  # lui x5, 0x00001
    .word 0x84428293  # addi x5, x5, -1980
    .word 0x00001e37  # lui x28, 0x00001
    .word 0x002e0e33  # add x28, x28, x2
    .word 0x8c5e1823  # sh x5, -1840(x28)
    .word 0x70300293  # addi x5, x0, 1795
    .word 0x00001e37  # lui x28, 0x00001
    .word 0x002e0e33  # add x28, x28, x2
    .word 0x8c5e1923  # sh x5, -1838(x28)
    .word 0x000012b7  # lui x5, 0x00001
    .word 0x81428293  # addi x5, x5, -2028
    .word 0x00001e37  # lui x28, 0x00001
    .word 0x002e0e33  # add x28, x28, x2
    .word 0x8c5e1a23  # sh x5, -1836(x28)
    .word 0x000012b7  # lui x5, 0x00001
    .word 0x92528293  # addi x5, x5, -1755
    .word 0x00001e37  # lui x28, 0x00001
    .word 0x002e0e33  # add x28, x28, x2
    .word 0x8c5e1b23  # sh x5, -1834(x28)
    .word 0x000022b7  # lui x5, 0x00002
    .word 0xa0128293  # addi x5, x5, -1535
    .word 0x00001e37  # lui x28, 0x00001
    .word 0x002e0e33  # add x28, x28, x2
    .word 0x8c5e1c23  # sh x5, -1832(x28)
    .word 0x000022b7  # lui x5, 0x00002
    .word 0xb3428293  # addi x5, x5, -1228
    .word 0x00001e37  # lui x28, 0x00001
    .word 0x002e0e33  # add x28, x28, x2
    .word 0x8c5e1d23  # sh x5, -1830(x28)
    .word 0x000012b7  # lui x5, 0x00001
    .word 0xaab28293  # addi x5, x5, -1365
    .word 0x00001e37  # lui x28, 0x00001
    .word 0x002e0e33  # add x28, x28, x2
    .word 0x8c5e1e23  # sh x5, -1828(x28)
    .word 0x000022b7  # lui x5, 0x00002
    .word 0xb7828293  # addi x5, x5, -1160
    .word 0x00001e37  # lui x28, 0x00001
    .word 0x002e0e33  # add x28, x28, x2
    .word 0x8c5e1f23  # sh x5, -1826(x28)
    .word 0x000032b7  # lui x5, 0x00003
    .word 0xaab28293  # addi x5, x5, -1365
    .word 0x00001e37  # lui x28, 0x00001
    .word 0x002e0e33  # add x28, x28, x2
    .word 0x8e5e1023  # sh x5, -1824(x28)
    .word 0x000022b7  # lui x5, 0x00002
    .word 0xb1228293  # addi x5, x5, -1262
    .word 0x00001e37  # lui x28, 0x00001
    .word 0x002e0e33  # add x28, x28, x2
    .word 0x8e5e1123  # sh x5, -1822(x28)
    .word 0x000022b7  # lui x5, 0x00002
    .word 0xc4528293  # addi x5, x5, -955
    .word 0x00001e37  # lui x28, 0x00001
    .word 0x002e0e33  # add x28, x28, x2
    .word 0x8e5e1223  # sh x5, -1820(x28)
    .word 0x000012b7  # lui x5, 0x00001
    .word 0xbbc28293  # addi x5, x5, -1092
    .word 0x00001e37  # lui x28, 0x00001
    .word 0x002e0e33  # add x28, x28, x2
    .word 0x8e5e1323  # sh x5, -1818(x28)
    .word 0x000022b7  # lui x5, 0x00002
    .word 0xc8928293  # addi x5, x5, -887
    .word 0x00001e37  # lui x28, 0x00001
    .word 0x002e0e33  # add x28, x28, x2
    .word 0x8e5e1423  # sh x5, -1816(x28)
    .word 0x000032b7  # lui x5, 0x00003
    .word 0xbbc28293  # addi x5, x5, -1092
    .word 0x00001e37  # lui x28, 0x00001
    .word 0x002e0e33  # add x28, x28, x2
    .word 0x8e5e1523  # sh x5, -1814(x28)
    .word 0x000022b7  # lui x5, 0x00002
    .word 0xc0228293  # addi x5, x5, -1022
    .word 0x00001e37  # lui x28, 0x00001
    .word 0x002e0e33  # add x28, x28, x2
    .word 0x8e5e1623  # sh x5, -1812(x28)
    .word 0x000022b7  # lui x5, 0x00002
    .word 0xd3528293  # addi x5, x5, -715
    .word 0x00001e37  # lui x28, 0x00001
    .word 0x002e0e33  # add x28, x28, x2
    .word 0x8e5e1723  # sh x5, -1810(x28)
    .word 0x0cd00293  # addi x5, x0, 205
    .word 0x00001e37  # lui x28, 0x00001
    .word 0x002e0e33  # add x28, x28, x2
    .word 0x8e5e1823  # sh x5, -1808(x28)
    .word 0x000012b7  # lui x5, 0x00001
    .word 0x17928293  # addi x5, x5, 377
    .word 0x00001e37  # lui x28, 0x00001
    .word 0x002e0e33  # add x28, x28, x2
    .word 0x8e5e1923  # sh x5, -1806(x28)
    .word 0x000022b7  # lui x5, 0x00002
    .word 0x10128293  # addi x5, x5, 257
    .word 0x00001e37  # lui x28, 0x00001
    .word 0x002e0e33  # add x28, x28, x2
    .word 0x8e5e1a23  # sh x5, -1804(x28)
    .word 0x26900293  # addi x5, x0, 617
    .word 0x00001e37  # lui x28, 0x00001
    .word 0x002e0e33  # add x28, x28, x2
    .word 0x8e5e1b23  # sh x5, -1802(x28)
    .word 0x000022b7  # lui x5, 0x00002
    .word 0x01228293  # addi x5, x5, 18
    .word 0x00001e37  # lui x28, 0x00001
    .word 0x002e0e33  # add x28, x28, x2
    .word 0x8e5e1c23  # sh x5, -1800(x28)
    .word 0x000012b7  # lui x5, 0x00001
    .word 0x20028293  # addi x5, x5, 512
    .word 0x00001e37  # lui x28, 0x00001
    .word 0x002e0e33  # add x28, x28, x2
    .word 0x8e5e1d23  # sh x5, -1798(x28)
    .word 0x000012b7  # lui x5, 0x00001
    .word 0x00228293  # addi x5, x5, 2
    .word 0x00001e37  # lui x28, 0x00001
    .word 0x002e0e33  # add x28, x28, x2
    .word 0x8e5e1e23  # sh x5, -1796(x28)
    .word 0x000022b7  # lui x5, 0x00002
    .word 0x28028293  # addi x5, x5, 640
    .word 0x00001e37  # lui x28, 0x00001
    .word 0x002e0e33  # add x28, x28, x2
    .word 0x8e5e1f23  # sh x5, -1794(x28)
    .word 0x000012b7  # lui x5, 0x00001
    .word 0x08028293  # addi x5, x5, 128
    .word 0x00001e37  # lui x28, 0x00001
    .word 0x002e0e33  # add x28, x28, x2
    .word 0x905e1023  # sh x5, -1792(x28)
    .word 0x16100293  # addi x5, x0, 353
    .word 0x00001e37  # lui x28, 0x00001
    .word 0x002e0e33  # add x28, x28, x2
    .word 0x905e1123  # sh x5, -1790(x28)
    .word 0x000022b7  # lui x5, 0x00002
    .word 0x89928293  # addi x5, x5, -1895
    .word 0x00001e37  # lui x28, 0x00001
    .word 0x002e0e33  # add x28, x28, x2
    .word 0x905e1223  # sh x5, -1788(x28)
    .word 0x000022b7  # lui x5, 0x00002
    .word 0x98928293  # addi x5, x5, -1655
    .word 0x00001e37  # lui x28, 0x00001
    .word 0x002e0e33  # add x28, x28, x2
    .word 0x905e1323  # sh x5, -1786(x28)
    .word 0x000022b7  # lui x5, 0x00002
    .word 0x11928293  # addi x5, x5, 281
    .word 0x00001e37  # lui x28, 0x00001
    .word 0x002e0e33  # add x28, x28, x2
    .word 0x905e1423  # sh x5, -1784(x28)
    .word 0x000022b7  # lui x5, 0x00002
    .word 0x11728293  # addi x5, x5, 279
    .word 0x00001e37  # lui x28, 0x00001
    .word 0x002e0e33  # add x28, x28, x2
    .word 0x905e1523  # sh x5, -1782(x28)
    .word 0x000022b7  # lui x5, 0x00002
    .word 0x81128293  # addi x5, x5, -2031
    .word 0x00001e37  # lui x28, 0x00001
    .word 0x002e0e33  # add x28, x28, x2
    .word 0x905e1623  # sh x5, -1780(x28)
    .word 0x000012b7  # lui x5, 0x00001
    .word 0x18128293  # addi x5, x5, 385
    .word 0x00001e37  # lui x28, 0x00001
    .word 0x002e0e33  # add x28, x28, x2
    .word 0x905e1723  # sh x5, -1778(x28)
    .word 0x000022b7  # lui x5, 0x00002
    .word 0x87728293  # addi x5, x5, -1929
    .word 0x00001e37  # lui x28, 0x00001
    .word 0x002e0e33  # add x28, x28, x2
    .word 0x905e1823  # sh x5, -1776(x28)
    .word 0x000012b7  # lui x5, 0x00001
    .word 0x78728293  # addi x5, x5, 1927
    .word 0x00001e37  # lui x28, 0x00001
    .word 0x002e0e33  # add x28, x28, x2
    .word 0x905e1923  # sh x5, -1774(x28)
    .word 0x000022b7  # lui x5, 0x00002
    .word 0x77928293  # addi x5, x5, 1913
    .word 0x00001e37  # lui x28, 0x00001
    .word 0x002e0e33  # add x28, x28, x2
    .word 0x905e1a23  # sh x5, -1772(x28)
    .word 0x000012b7  # lui x5, 0x00001
    .word 0x8b128293  # addi x5, x5, -1871
    .word 0x00001e37  # lui x28, 0x00001
    .word 0x002e0e33  # add x28, x28, x2
    .word 0x905e1b23  # sh x5, -1770(x28)
    .word 0x000012b7  # lui x5, 0x00001
    .word 0x97128293  # addi x5, x5, -1679
    .word 0x00001e37  # lui x28, 0x00001
    .word 0x002e0e33  # add x28, x28, x2
    .word 0x905e1c23  # sh x5, -1768(x28)
    .word 0x10200293  # addi x5, x0, 258
    .word 0x00001e37  # lui x28, 0x00001
    .word 0x002e0e33  # add x28, x28, x2
    .word 0x905e1d23  # sh x5, -1766(x28)
    .word 0x000012b7  # lui x5, 0x00001
    .word 0x11928293  # addi x5, x5, 281
    .word 0x00001e37  # lui x28, 0x00001
    .word 0x002e0e33  # add x28, x28, x2
    .word 0x905e1e23  # sh x5, -1764(x28)
    .word 0x0a000293  # addi x5, x0, 160
    .word 0x00001e37  # lui x28, 0x00001
    .word 0x002e0e33  # add x28, x28, x2
    .word 0x905e1f23  # sh x5, -1762(x28)
    .word 0x000022b7  # lui x5, 0x00002
    .word 0x00828293  # addi x5, x5, 8
    .word 0x00001e37  # lui x28, 0x00001
    .word 0x002e0e33  # add x28, x28, x2
    .word 0x925e1023  # sh x5, -1760(x28)
    .word 0x2b200293  # addi x5, x0, 690
    .word 0x00001e37  # lui x28, 0x00001
    .word 0x002e0e33  # add x28, x28, x2
    .word 0x925e1123  # sh x5, -1758(x28)
    .word 0x000012b7  # lui x5, 0x00001
    .word 0x8a728293  # addi x5, x5, -1881
    .word 0x00001e37  # lui x28, 0x00001
    .word 0x002e0e33  # add x28, x28, x2
    .word 0x925e1223  # sh x5, -1756(x28)
    .word 0x000012b7  # lui x5, 0x00001
    .word 0x22828293  # addi x5, x5, 552
    .word 0x00001e37  # lui x28, 0x00001
    .word 0x002e0e33  # add x28, x28, x2
    .word 0x925e1323  # sh x5, -1754(x28)
    .word 0x70000293  # addi x5, x0, 1792
    .word 0x00001e37  # lui x28, 0x00001
    .word 0x002e0e33  # add x28, x28, x2
    .word 0x925e1423  # sh x5, -1752(x28)
    .word 0x000012b7  # lui x5, 0x00001
    .word 0x81128293  # addi x5, x5, -2031
    .word 0x00001e37  # lui x28, 0x00001
    .word 0x002e0e33  # add x28, x28, x2
    .word 0x925e1523  # sh x5, -1750(x28)
    .word 0x000012b7  # lui x5, 0x00001
    .word 0x92228293  # addi x5, x5, -1758
    .word 0x00001e37  # lui x28, 0x00001
    .word 0x002e0e33  # add x28, x28, x2
    .word 0x925e1623  # sh x5, -1748(x28)
    .word 0x000012b7  # lui x5, 0x00001
    .word 0xa0128293  # addi x5, x5, -1535
    .word 0x00001e37  # lui x28, 0x00001
    .word 0x002e0e33  # add x28, x28, x2
    .word 0x925e1723  # sh x5, -1746(x28)
    .word 0x000022b7  # lui x5, 0x00002
    .word 0xaaa28293  # addi x5, x5, -1366
    .word 0x00001e37  # lui x28, 0x00001
    .word 0x002e0e33  # add x28, x28, x2
    .word 0x925e1823  # sh x5, -1744(x28)
    .word 0x000012b7  # lui x5, 0x00001
    .word 0xb1228293  # addi x5, x5, -1262
    .word 0x00001e37  # lui x28, 0x00001
    .word 0x002e0e33  # add x28, x28, x2
    .word 0x925e1923  # sh x5, -1742(x28)
    .word 0x20200293  # addi x5, x0, 514
    .word 0x00001e37  # lui x28, 0x00001
    .word 0x002e0e33  # add x28, x28, x2
    .word 0x925e1a23  # sh x5, -1740(x28)
    .word 0x000012b7  # lui x5, 0x00001
    .word 0x22228293  # addi x5, x5, 546
    .word 0x00001e37  # lui x28, 0x00001
    .word 0x002e0e33  # add x28, x28, x2
    .word 0x925e1b23  # sh x5, -1738(x28)
    .word 0x16900293  # addi x5, x0, 361
    .word 0x00001e37  # lui x28, 0x00001
    .word 0x002e0e33  # add x28, x28, x2
    .word 0x925e1c23  # sh x5, -1736(x28)
    .word 0x000022b7  # lui x5, 0x00002
    .word 0x11228293  # addi x5, x5, 274
    .word 0x00001e37  # lui x28, 0x00001
    .word 0x002e0e33  # add x28, x28, x2
    .word 0x925e1d23  # sh x5, -1734(x28)
    .word 0x000012b7  # lui x5, 0x00001
    .word 0x01128293  # addi x5, x5, 17
    .word 0x00001e37  # lui x28, 0x00001
    .word 0x002e0e33  # add x28, x28, x2
    .word 0x925e1e23  # sh x5, -1732(x28)
    .word 0x000012b7  # lui x5, 0x00001
    .word 0x10128293  # addi x5, x5, 257
    .word 0x00001e37  # lui x28, 0x00001
    .word 0x002e0e33  # add x28, x28, x2
    .word 0x925e1f23  # sh x5, -1730(x28)
    .word 0x000022b7  # lui x5, 0x00002
    .word 0x08128293  # addi x5, x5, 129
    .word 0x00001e37  # lui x28, 0x00001
    .word 0x002e0e33  # add x28, x28, x2
    .word 0x945e1023  # sh x5, -1728(x28)
    .word 0x000012b7  # lui x5, 0x00001
    .word 0x18128293  # addi x5, x5, 385
    .word 0x00001e37  # lui x28, 0x00001
    .word 0x002e0e33  # add x28, x28, x2
    .word 0x945e1123  # sh x5, -1726(x28)
    .word 0x10100293  # addi x5, x0, 257
    .word 0x00001e37  # lui x28, 0x00001
    .word 0x002e0e33  # add x28, x28, x2
    .word 0x945e1223  # sh x5, -1724(x28)
    .word 0x00a00293  # addi x5, x0, 10
    .word 0x00001e37  # lui x28, 0x00001
    .word 0x002e0e33  # add x28, x28, x2
    .word 0x945e1323  # sh x5, -1722(x28)
    .word 0x000022b7  # lui x5, 0x00002
    .word 0xa9928293  # addi x5, x5, -1383
    .word 0x00001e37  # lui x28, 0x00001
    .word 0x002e0e33  # add x28, x28, x2
    .word 0x945e1423  # sh x5, -1720(x28)
    .word 0x000022b7  # lui x5, 0x00002
    .word 0x99a28293  # addi x5, x5, -1638
    .word 0x00001e37  # lui x28, 0x00001
    .word 0x002e0e33  # add x28, x28, x2
    .word 0x945e1523  # sh x5, -1718(x28)
    .word 0x26200293  # addi x5, x0, 610
    .word 0x00001e37  # lui x28, 0x00001
    .word 0x002e0e33  # add x28, x28, x2
    .word 0x945e1623  # sh x5, -1716(x28)
    .word 0x000022b7  # lui x5, 0x00002
    .word 0x22928293  # addi x5, x5, 553
    .word 0x00001e37  # lui x28, 0x00001
    .word 0x002e0e33  # add x28, x28, x2
    .word 0x945e1723  # sh x5, -1714(x28)
    .word 0x000022b7  # lui x5, 0x00002
    .word 0x22728293  # addi x5, x5, 551
    .word 0x00001e37  # lui x28, 0x00001
    .word 0x002e0e33  # add x28, x28, x2
    .word 0x945e1823  # sh x5, -1712(x28)
    .word 0x000022b7  # lui x5, 0x00002
    .word 0xa2228293  # addi x5, x5, -1502
    .word 0x00001e37  # lui x28, 0x00001
    .word 0x002e0e33  # add x28, x28, x2
    .word 0x945e1923  # sh x5, -1710(x28)
    .word 0x000012b7  # lui x5, 0x00001
    .word 0x22a28293  # addi x5, x5, 554
    .word 0x00001e37  # lui x28, 0x00001
    .word 0x002e0e33  # add x28, x28, x2
    .word 0x945e1a23  # sh x5, -1708(x28)
    .word 0x000022b7  # lui x5, 0x00002
    .word 0xa7728293  # addi x5, x5, -1417
    .word 0x00001e37  # lui x28, 0x00001
    .word 0x002e0e33  # add x28, x28, x2
    .word 0x945e1b23  # sh x5, -1706(x28)
    .word 0x000012b7  # lui x5, 0x00001
    .word 0x7a728293  # addi x5, x5, 1959
    .word 0x00001e37  # lui x28, 0x00001
    .word 0x002e0e33  # add x28, x28, x2
    .word 0x945e1c23  # sh x5, -1704(x28)
    .word 0x000022b7  # lui x5, 0x00002
    .word 0x77928293  # addi x5, x5, 1913
    .word 0x00001e37  # lui x28, 0x00001
    .word 0x002e0e33  # add x28, x28, x2
    .word 0x945e1d23  # sh x5, -1702(x28)
    .word 0x77200293  # addi x5, x0, 1906
    .word 0x00001e37  # lui x28, 0x00001
    .word 0x002e0e33  # add x28, x28, x2
    .word 0x945e1e23  # sh x5, -1700(x28)
    .word 0x000012b7  # lui x5, 0x00001
    .word 0x11728293  # addi x5, x5, 279
    .word 0x00001e37  # lui x28, 0x00001
    .word 0x002e0e33  # add x28, x28, x2
    .word 0x945e1f23  # sh x5, -1698(x28)
    .word 0x000022b7  # lui x5, 0x00002
    .word 0xbbb28293  # addi x5, x5, -1093
    .word 0x00001e37  # lui x28, 0x00001
    .word 0x002e0e33  # add x28, x28, x2
    .word 0x965e1023  # sh x5, -1696(x28)
    .word 0x2b200293  # addi x5, x0, 690
    .word 0x00001e37  # lui x28, 0x00001
    .word 0x002e0e33  # add x28, x28, x2
    .word 0x965e1123  # sh x5, -1694(x28)
    .word 0x000022b7  # lui x5, 0x00002
    .word 0x00228293  # addi x5, x5, 2
    .word 0x00001e37  # lui x28, 0x00001
    .word 0x002e0e33  # add x28, x28, x2
    .word 0x965e1223  # sh x5, -1692(x28)
    .word 0x2b800293  # addi x5, x0, 696
    .word 0x00001e37  # lui x28, 0x00001
    .word 0x002e0e33  # add x28, x28, x2
    .word 0x965e1323  # sh x5, -1690(x28)
    .word 0x000012b7  # lui x5, 0x00001
    .word 0x22228293  # addi x5, x5, 546
    .word 0x00001e37  # lui x28, 0x00001
    .word 0x002e0e33  # add x28, x28, x2
    .word 0x965e1423  # sh x5, -1688(x28)
    .word 0x000012b7  # lui x5, 0x00001
    .word 0x22228293  # addi x5, x5, 546
    .word 0x00001e37  # lui x28, 0x00001
    .word 0x002e0e33  # add x28, x28, x2
    .word 0x965e1523  # sh x5, -1686(x28)
    .word 0x000012b7  # lui x5, 0x00001
    .word 0x72228293  # addi x5, x5, 1826
    .word 0x00001e37  # lui x28, 0x00001
    .word 0x002e0e33  # add x28, x28, x2
    .word 0x965e2623  # sw x5, -1684(x28)
    .word 0x000022b7  # lui x5, 0x00002
    .word 0x87228293  # addi x5, x5, -1934
    .word 0x00001e37  # lui x28, 0x00001
    .word 0x002e0e33  # add x28, x28, x2
    .word 0x965e2823  # sw x5, -1680(x28)
    .word 0x000042b7  # lui x5, 0x00004
    .word 0x98828293  # addi x5, x5, -1656
    .word 0x00001e37  # lui x28, 0x00001
    .word 0x002e0e33  # add x28, x28, x2
    .word 0x965e2a23  # sw x5, -1676(x28)
    .word 0x000072b7  # lui x5, 0x00007
    .word 0xa9928293  # addi x5, x5, -1383
    .word 0x00001e37  # lui x28, 0x00001
    .word 0x002e0e33  # add x28, x28, x2
    .word 0x965e2c23  # sw x5, -1672(x28)
    .word 0x000042b7  # lui x5, 0x00004
    .word 0x9a828293  # addi x5, x5, -1624
    .word 0x00001e37  # lui x28, 0x00001
    .word 0x002e0e33  # add x28, x28, x2
    .word 0x965e2e23  # sw x5, -1668(x28)
    .word 0x000102b7  # lui x5, 0x00010
    .word 0xa9928293  # addi x5, x5, -1383
    .word 0x00001e37  # lui x28, 0x00001
    .word 0x002e0e33  # add x28, x28, x2
    .word 0x985e2023  # sw x5, -1664(x28)
    .word 0x000032b7  # lui x5, 0x00003
    .word 0xba728293  # addi x5, x5, -1113
    .word 0x00001e37  # lui x28, 0x00001
    .word 0x002e0e33  # add x28, x28, x2
    .word 0x985e2223  # sw x5, -1660(x28)
    .word 0x000212b7  # lui x5, 0x00021
    .word 0xcb228293  # addi x5, x5, -846
    .word 0x00001e37  # lui x28, 0x00001
    .word 0x002e0e33  # add x28, x28, x2
    .word 0x985e2423  # sw x5, -1656(x28)
    .word 0x000812b7  # lui x5, 0x00081
    .word 0xccb28293  # addi x5, x5, -821
    .word 0x00001e37  # lui x28, 0x00001
    .word 0x002e0e33  # add x28, x28, x2
    .word 0x985e2623  # sw x5, -1652(x28)
    .word 0x000212b7  # lui x5, 0x00021
    .word 0xccb28293  # addi x5, x5, -821
    .word 0x00001e37  # lui x28, 0x00001
    .word 0x002e0e33  # add x28, x28, x2
    .word 0x985e2823  # sw x5, -1648(x28)
    .word 0x0001f2b7  # lui x5, 0x0001f
    .word 0xcca28293  # addi x5, x5, -822
    .word 0x00001e37  # lui x28, 0x00001
    .word 0x002e0e33  # add x28, x28, x2
    .word 0x985e2a23  # sw x5, -1644(x28)
    .word 0x000032b7  # lui x5, 0x00003
    .word 0xcc228293  # addi x5, x5, -830
    .word 0x00001e37  # lui x28, 0x00001
    .word 0x002e0e33  # add x28, x28, x2
    .word 0x985e2c23  # sw x5, -1640(x28)
    .word 0x00c00293  # addi x5, x0, 12
    .word 0x00001e37  # lui x28, 0x00001
    .word 0x002e0e33  # add x28, x28, x2
    .word 0x985e2e23  # sw x5, -1636(x28)
    .word 0x11c00293  # addi x5, x0, 284
    .word 0x00001e37  # lui x28, 0x00001
    .word 0x002e0e33  # add x28, x28, x2
    .word 0x9a5e2023  # sw x5, -1632(x28)
    .word 0x00300293  # addi x5, x0, 3
    .word 0x00001e37  # lui x28, 0x00001
    .word 0x002e0e33  # add x28, x28, x2
    .word 0x9a5e2223  # sw x5, -1628(x28)
    .word 0x11300293  # addi x5, x0, 275
    .word 0x00001e37  # lui x28, 0x00001
    .word 0x002e0e33  # add x28, x28, x2
    .word 0x9a5e2423  # sw x5, -1624(x28)
    .word 0x00100293  # addi x5, x0, 1
    .word 0x14512023  # sw x5, 320(x2)
    .word 0x29c4c2b7  # lui x5, 0x29c4c
    .word 0xddf28293  # addi x5, x5, -545
    .word 0x16512023  # sw x5, 352(x2)
    .word 0x00300293  # addi x5, x0, 3
    .word 0x28512023  # sw x5, 640(x2)
    .word 0x00100293  # addi x5, x0, 1
    .word 0x4c512023  # sw x5, 1216(x2)
    .word 0x14012223  # sw x0, 324(x2)
    .word 0xd89ce2b7  # lui x5, 0xd89ce
    .word 0xf6228293  # addi x5, x5, -158
    .word 0x16512223  # sw x5, 356(x2)
    .word 0x28012223  # sw x0, 644(x2)
    .word 0x50012023  # sw x0, 1280(x2)
    .word 0x14012423  # sw x0, 328(x2)
    .word 0x788432b7  # lui x5, 0x78843
    .word 0x09028293  # addi x5, x5, 144
    .word 0x16512423  # sw x5, 360(x2)
    .word 0x000002b7  # lui x5, 0x00000
    .word 0xfff28293  # addi x5, x5, -1
    .word 0x28512423  # sw x5, 648(x2)
    .word 0x54012023  # sw x0, 1344(x2)
    .word 0x000002b7  # lui x5, 0x00000
    .word 0xfff28293  # addi x5, x5, -1
    .word 0x14512623  # sw x5, 332(x2)
    .word 0xacf002b7  # lui x5, 0xacf00
    .word 0x5cd28293  # addi x5, x5, 1485
    .word 0x16512623  # sw x5, 364(x2)
    .word 0x000002b7  # lui x5, 0x00000
    .word 0xffb28293  # addi x5, x5, -5
    .word 0x28512623  # sw x5, 652(x2)
    .word 0x000002b7  # lui x5, 0x00000
    .word 0xfff28293  # addi x5, x5, -1
    .word 0x58512023  # sw x5, 1408(x2)
    .word 0x000002b7  # lui x5, 0x00000
    .word 0xfff28293  # addi x5, x5, -1
    .word 0x14512823  # sw x5, 336(x2)
    .word 0xf72132b7  # lui x5, 0xf7213
    .word 0xed628293  # addi x5, x5, -298
    .word 0x16512823  # sw x5, 368(x2)
    .word 0x000002b7  # lui x5, 0x00000
    .word 0xffe28293  # addi x5, x5, -2
    .word 0x28512823  # sw x5, 656(x2)
    .word 0x000002b7  # lui x5, 0x00000
    .word 0xfff28293  # addi x5, x5, -1
    .word 0x5c512023  # sw x5, 1472(x2)
    .word 0x000002b7  # lui x5, 0x00000
    .word 0xfff28293  # addi x5, x5, -1
    .word 0x14512a23  # sw x5, 340(x2)
    .word 0xe5a222b7  # lui x5, 0xe5a22
    .word 0x0ab28293  # addi x5, x5, 171
    .word 0x16512a23  # sw x5, 372(x2)
    .word 0x000002b7  # lui x5, 0x00000
    .word 0xfff28293  # addi x5, x5, -1
    .word 0x28512a23  # sw x5, 660(x2)
    .word 0x000002b7  # lui x5, 0x00000
    .word 0xfff28293  # addi x5, x5, -1
    .word 0x60512023  # sw x5, 1536(x2)
    .word 0x000002b7  # lui x5, 0x00000
    .word 0xffe28293  # addi x5, x5, -2
    .word 0x14512c23  # sw x5, 344(x2)
    .word 0x048752b7  # lui x5, 0x04875
    .word 0x83428293  # addi x5, x5, -1996
    .word 0x16512c23  # sw x5, 376(x2)
    .word 0x000002b7  # lui x5, 0x00000
    .word 0xffd28293  # addi x5, x5, -3
    .word 0x28512c23  # sw x5, 664(x2)
    .word 0x000002b7  # lui x5, 0x00000
    .word 0xffe28293  # addi x5, x5, -2
    .word 0x64512023  # sw x5, 1600(x2)
    .word 0x14012e23  # sw x0, 348(x2)
    .word 0xdc3002b7  # lui x5, 0xdc300
    .word 0x61d28293  # addi x5, x5, 1565
    .word 0x16512e23  # sw x5, 380(x2)
    .word 0x00400293  # addi x5, x0, 4
    .word 0x28512e23  # sw x5, 668(x2)
    .word 0x68012023  # sw x0, 1664(x2)
    .word 0x00001e37  # lui x28, 0x00001
    .word 0x002e0e33  # add x28, x28, x2
    .word 0x9a0e2623  # sw x0, -1620(x28)
    .word 0x00001e37  # lui x28, 0x00001
    .word 0x002e0e33  # add x28, x28, x2
    .word 0xa00e2023  # sw x0, -1536(x28)
    .word 0x15b00293  # addi x5, x0, 347
    .word 0x00001e37  # lui x28, 0x00001
    .word 0x002e0e33  # add x28, x28, x2
    .word 0xa05e2223  # sw x5, -1532(x28)
    .word 0x00001337  # lui x6, 0x00001
    .word 0x00230333  # add x6, x6, x2
    .word 0xa0032303  # lw x6, -1536(x6)
    .word 0x000012b7  # lui x5, 0x00001
    .word 0x002282b3  # add x5, x5, x2
    .word 0xa042a283  # lw x5, -1532(x5)
    .word 0x005332b3  # sltu x5, x6, x5
    .word 0x00029463  # bne x5, x0, 8
    .word 0x7540106f  # jal x0, 5972
    .word 0x00001e37  # lui x28, 0x00001
    .word 0x002e0e33  # add x28, x28, x2
    .word 0x9a6e2823  # sw x6, -1616(x28)
    .word 0x00130313  # addi x6, x6, 1
    .word 0x00001e37  # lui x28, 0x00001
    .word 0x002e0e33  # add x28, x28, x2
    .word 0xa06e2023  # sw x6, -1536(x28)
    .word 0x00000813  # addi x16, x0, 0
    .word 0x00001e37  # lui x28, 0x00001
    .word 0x002e0e33  # add x28, x28, x2
    .word 0xa00e2423  # sw x0, -1528(x28)
    .word 0x000012b7  # lui x5, 0x00001
    .word 0x002282b3  # add x5, x5, x2
    .word 0x9b02a283  # lw x5, -1616(x5)
    .word 0x0012b293  # sltiu x5, x5, 1
    .word 0x01000313  # addi x6, x0, 16
    .word 0x405002b3  # sub x5, x0, x5
    .word 0x005372b3  # and x5, x6, x5
    .word 0x00001e37  # lui x28, 0x00001
    .word 0x002e0e33  # add x28, x28, x2
    .word 0xa05e2623  # sw x5, -1524(x28)
    .word 0x00001337  # lui x6, 0x00001
    .word 0x00230333  # add x6, x6, x2
    .word 0xa0832303  # lw x6, -1528(x6)
    .word 0x000012b7  # lui x5, 0x00001
    .word 0x002282b3  # add x5, x5, x2
    .word 0xa0c2a283  # lw x5, -1524(x5)
    .word 0x005332b3  # sltu x5, x6, x5
    .word 0x00029463  # bne x5, x0, 8
    .word 0x1480006f  # jal x0, 328
    .word 0x00001e37  # lui x28, 0x00001
    .word 0x002e0e33  # add x28, x28, x2
    .word 0x9a6e2a23  # sw x6, -1612(x28)
    .word 0x00130313  # addi x6, x6, 1
    .word 0x00001e37  # lui x28, 0x00001
    .word 0x002e0e33  # add x28, x28, x2
    .word 0xa06e2423  # sw x6, -1528(x28)
    .word 0x000012b7  # lui x5, 0x00001
    .word 0x002282b3  # add x5, x5, x2
    .word 0x9b42a283  # lw x5, -1612(x5)
    .word 0x0032d293  # srli x5, x5, 3
    .word 0x00529293  # slli x5, x5, 5
    .word 0x01c28293  # addi x5, x5, 28
    .word 0x00001337  # lui x6, 0x00001
    .word 0x00230333  # add x6, x6, x2
    .word 0x9b432303  # lw x6, -1612(x6)
    .word 0x00737313  # andi x6, x6, 7
    .word 0x00231313  # slli x6, x6, 2
    .word 0x406285b3  # sub x11, x5, x6
    .word 0x00259d13  # slli x26, x11, 2
    .word 0x002d0d33  # add x26, x26, x2
    .word 0x002582b3  # add x5, x11, x2
    .word 0x0202c283  # lbu x5, 32(x5)
    .word 0x01829293  # slli x5, x5, 24
    .word 0x00258333  # add x6, x11, x2
    .word 0x02134303  # lbu x6, 33(x6)
    .word 0x01031313  # slli x6, x6, 16
    .word 0x0062e6b3  # or x13, x5, x6
    .word 0x00258333  # add x6, x11, x2
    .word 0x02234303  # lbu x6, 34(x6)
    .word 0x00831313  # slli x6, x6, 8
    .word 0x0066e2b3  # or x5, x13, x6
    .word 0x00258333  # add x6, x11, x2
    .word 0x02334303  # lbu x6, 35(x6)
    .word 0x0062e6b3  # or x13, x5, x6
    .word 0x000012b7  # lui x5, 0x00001
    .word 0x002282b3  # add x5, x5, x2
    .word 0x9b42a283  # lw x5, -1612(x5)
    .word 0x01828293  # addi x5, x5, 24
    .word 0x00229293  # slli x5, x5, 2
    .word 0x002282b3  # add x5, x5, x2
    .word 0x0ad2a023  # sw x13, 160(x5)
    .word 0x000012b7  # lui x5, 0x00001
    .word 0x002282b3  # add x5, x5, x2
    .word 0x9b42a283  # lw x5, -1612(x5)
    .word 0x0072f593  # andi x11, x5, 7
    .word 0x00259d13  # slli x26, x11, 2
    .word 0x002d0d33  # add x26, x26, x2
    .word 0x0035b293  # sltiu x5, x11, 3
    .word 0xff958313  # addi x6, x11, -7
    .word 0x00133313  # sltiu x6, x6, 1
    .word 0x0062e2b3  # or x5, x5, x6
    .word 0x00000337  # lui x6, 0x00000
    .word 0xfff30313  # addi x6, x6, -1
    .word 0xffa58393  # addi x7, x11, -6
    .word 0x007033b3  # sltu x7, x0, x7
    .word 0x00100413  # addi x8, x0, 1
    .word 0xfff38393  # addi x7, x7, -1
    .word 0x007473b3  # and x7, x8, x7
    .word 0x405002b3  # sub x5, x0, x5
    .word 0x00734333  # xor x6, x6, x7
    .word 0x00537333  # and x6, x6, x5
    .word 0x0063c7b3  # xor x15, x7, x6
    .word 0x00279d93  # slli x27, x15, 2
    .word 0x002d8db3  # add x27, x27, x2
    .word 0x00f6b2b3  # sltu x5, x13, x15
    .word 0x40f68333  # sub x6, x13, x15
    .word 0x01033333  # sltu x6, x6, x16
    .word 0x00628833  # add x16, x5, x6
    .word 0x00700313  # addi x6, x0, 7
    .word 0x02659463  # bne x11, x6, 40
    .word 0x000012b7  # lui x5, 0x00001
    .word 0x002282b3  # add x5, x5, x2
    .word 0x9ac2a283  # lw x5, -1620(x5)
    .word 0x00184313  # xori x6, x16, 1
    .word 0x0062e2b3  # or x5, x5, x6
    .word 0x00001e37  # lui x28, 0x00001
    .word 0x002e0e33  # add x28, x28, x2
    .word 0x9a5e2623  # sw x5, -1620(x28)
    .word 0x00000813  # addi x16, x0, 0
    .word 0xe9dff06f  # jal x0, -356
    .word 0x000012b7  # lui x5, 0x00001
    .word 0x002282b3  # add x5, x5, x2
    .word 0x9b02a283  # lw x5, -1616(x5)
    .word 0x00f2b293  # sltiu x5, x5, 15
    .word 0x00400313  # addi x6, x0, 4
    .word 0x000013b7  # lui x7, 0x00001
    .word 0x002383b3  # add x7, x7, x2
    .word 0x9b03a383  # lw x7, -1616(x7)
    .word 0xff538393  # addi x7, x7, -11
    .word 0x00500413  # addi x8, x0, 5
    .word 0x0283f3b3  # remu x7, x7, x8
    .word 0x405002b3  # sub x5, x0, x5
    .word 0x00734333  # xor x6, x6, x7
    .word 0x00537333  # and x6, x6, x5
    .word 0x0063c2b3  # xor x5, x7, x6
    .word 0x00001e37  # lui x28, 0x00001
    .word 0x002e0e33  # add x28, x28, x2
    .word 0x9c5e2423  # sw x5, -1592(x28)
    .word 0x000012b7  # lui x5, 0x00001
    .word 0x002282b3  # add x5, x5, x2
    .word 0x9b02a283  # lw x5, -1616(x5)
    .word 0x00f2b293  # sltiu x5, x5, 15
    .word 0x0012b293  # sltiu x5, x5, 1
    .word 0x00001337  # lui x6, 0x00001
    .word 0x00230333  # add x6, x6, x2
    .word 0x9b032303  # lw x6, -1616(x6)
    .word 0x14b33313  # sltiu x6, x6, 331
    .word 0x0062f2b3  # and x5, x5, x6
    .word 0x00001337  # lui x6, 0x00001
    .word 0x00230333  # add x6, x6, x2
    .word 0x9c832303  # lw x6, -1592(x6)
    .word 0xffc30313  # addi x6, x6, -4
    .word 0x00133313  # sltiu x6, x6, 1
    .word 0x0062f2b3  # and x5, x5, x6
    .word 0x01800313  # addi x6, x0, 24
    .word 0x405002b3  # sub x5, x0, x5
    .word 0x005375b3  # and x11, x6, x5
    .word 0x00259d13  # slli x26, x11, 2
    .word 0x002d0d33  # add x26, x26, x2
    .word 0x30058263  # beq x11, x0, 772
    .word 0x000012b7  # lui x5, 0x00001
    .word 0x002282b3  # add x5, x5, x2
    .word 0x9b02a283  # lw x5, -1616(x5)
    .word 0xff528293  # addi x5, x5, -11
    .word 0x00500313  # addi x6, x0, 5
    .word 0x0262d2b3  # divu x5, x5, x6
    .word 0x03f2f793  # andi x15, x5, 63
    .word 0x00279d93  # slli x27, x15, 2
    .word 0x002d8db3  # add x27, x27, x2
    .word 0x0017d293  # srli x5, x15, 1
    .word 0x002282b3  # add x5, x5, x2
    .word 0x0002c283  # lbu x5, 0(x5)
    .word 0x00400313  # addi x6, x0, 4
    .word 0x0017f393  # andi x7, x15, 1
    .word 0x00239393  # slli x7, x7, 2
    .word 0x40730333  # sub x6, x6, x7
    .word 0x0062d2b3  # srl x5, x5, x6
    .word 0x0ff2f293  # andi x5, x5, 255
    .word 0x00f2f813  # andi x16, x5, 15
    .word 0x00183293  # sltiu x5, x16, 1
    .word 0x405006b3  # sub x13, x0, x5
    .word 0xfff80293  # addi x5, x16, -1
    .word 0x0012b293  # sltiu x5, x5, 1
    .word 0x40500733  # sub x14, x0, x5
    .word 0xffe80293  # addi x5, x16, -2
    .word 0x0012b293  # sltiu x5, x5, 1
    .word 0x405008b3  # sub x17, x0, x5
    .word 0xffd80293  # addi x5, x16, -3
    .word 0x0012b293  # sltiu x5, x5, 1
    .word 0x40500933  # sub x18, x0, x5
    .word 0xffc80293  # addi x5, x16, -4
    .word 0x0012b293  # sltiu x5, x5, 1
    .word 0x405009b3  # sub x19, x0, x5
    .word 0xffb80293  # addi x5, x16, -5
    .word 0x0012b293  # sltiu x5, x5, 1
    .word 0x40500a33  # sub x20, x0, x5
    .word 0xffa80293  # addi x5, x16, -6
    .word 0x0012b293  # sltiu x5, x5, 1
    .word 0x40500ab3  # sub x21, x0, x5
    .word 0xff980293  # addi x5, x16, -7
    .word 0x0012b293  # sltiu x5, x5, 1
    .word 0x40500b33  # sub x22, x0, x5
    .word 0xff880293  # addi x5, x16, -8
    .word 0x0012b293  # sltiu x5, x5, 1
    .word 0x40500bb3  # sub x23, x0, x5
    .word 0xff780293  # addi x5, x16, -9
    .word 0x0012b293  # sltiu x5, x5, 1
    .word 0x40500c33  # sub x24, x0, x5
    .word 0xff680293  # addi x5, x16, -10
    .word 0x0012b293  # sltiu x5, x5, 1
    .word 0x40500cb3  # sub x25, x0, x5
    .word 0xff580293  # addi x5, x16, -11
    .word 0x0012b293  # sltiu x5, x5, 1
    .word 0x405002b3  # sub x5, x0, x5
    .word 0x00001e37  # lui x28, 0x00001
    .word 0x002e0e33  # add x28, x28, x2
    .word 0x9c5e2c23  # sw x5, -1576(x28)
    .word 0xff480293  # addi x5, x16, -12
    .word 0x0012b293  # sltiu x5, x5, 1
    .word 0x405002b3  # sub x5, x0, x5
    .word 0x00001e37  # lui x28, 0x00001
    .word 0x002e0e33  # add x28, x28, x2
    .word 0x9c5e2e23  # sw x5, -1572(x28)
    .word 0xff380293  # addi x5, x16, -13
    .word 0x0012b293  # sltiu x5, x5, 1
    .word 0x405002b3  # sub x5, x0, x5
    .word 0x00001e37  # lui x28, 0x00001
    .word 0x002e0e33  # add x28, x28, x2
    .word 0x9e5e2023  # sw x5, -1568(x28)
    .word 0xff280293  # addi x5, x16, -14
    .word 0x0012b293  # sltiu x5, x5, 1
    .word 0x405002b3  # sub x5, x0, x5
    .word 0x00001e37  # lui x28, 0x00001
    .word 0x002e0e33  # add x28, x28, x2
    .word 0x9e5e2223  # sw x5, -1564(x28)
    .word 0xff180293  # addi x5, x16, -15
    .word 0x0012b293  # sltiu x5, x5, 1
    .word 0x405002b3  # sub x5, x0, x5
    .word 0x00001e37  # lui x28, 0x00001
    .word 0x002e0e33  # add x28, x28, x2
    .word 0x9e5e2423  # sw x5, -1560(x28)
    .word 0x000012b7  # lui x5, 0x00001
    .word 0x002282b3  # add x5, x5, x2
    .word 0x9b02a283  # lw x5, -1616(x5)
    .word 0xff128293  # addi x5, x5, -15
    .word 0x005032b3  # sltu x5, x0, x5
    .word 0x00000313  # addi x6, x0, 0
    .word 0x01800393  # addi x7, x0, 24
    .word 0xfff28293  # addi x5, x5, -1
    .word 0x00734333  # xor x6, x6, x7
    .word 0x00537333  # and x6, x6, x5
    .word 0x0063c7b3  # xor x15, x7, x6
    .word 0x00279d93  # slli x27, x15, 2
    .word 0x002d8db3  # add x27, x27, x2
    .word 0x00001e37  # lui x28, 0x00001
    .word 0x002e0e33  # add x28, x28, x2
    .word 0xa00e2423  # sw x0, -1528(x28)
    .word 0x00001e37  # lui x28, 0x00001
    .word 0x002e0e33  # add x28, x28, x2
    .word 0xa0be2623  # sw x11, -1524(x28)
    .word 0x00001337  # lui x6, 0x00001
    .word 0x00230333  # add x6, x6, x2
    .word 0xa0832303  # lw x6, -1528(x6)
    .word 0x000012b7  # lui x5, 0x00001
    .word 0x002282b3  # add x5, x5, x2
    .word 0xa0c2a283  # lw x5, -1524(x5)
    .word 0x005332b3  # sltu x5, x6, x5
    .word 0x00029463  # bne x5, x0, 8
    .word 0x1500006f  # jal x0, 336
    .word 0x00001e37  # lui x28, 0x00001
    .word 0x002e0e33  # add x28, x28, x2
    .word 0x9a6e2c23  # sw x6, -1608(x28)
    .word 0x00130313  # addi x6, x6, 1
    .word 0x00001e37  # lui x28, 0x00001
    .word 0x002e0e33  # add x28, x28, x2
    .word 0xa06e2423  # sw x6, -1528(x28)
    .word 0x000012b7  # lui x5, 0x00001
    .word 0x002282b3  # add x5, x5, x2
    .word 0x9b82a283  # lw x5, -1608(x5)
    .word 0x00429593  # slli x11, x5, 4
    .word 0x00259d13  # slli x26, x11, 2
    .word 0x002d0d33  # add x26, x26, x2
    .word 0x2c0d2283  # lw x5, 704(x26)
    .word 0x00d2f833  # and x16, x5, x13
    .word 0x2c4d2303  # lw x6, 708(x26)
    .word 0x00e37333  # and x6, x6, x14
    .word 0x00686833  # or x16, x16, x6
    .word 0x2c8d2303  # lw x6, 712(x26)
    .word 0x01137333  # and x6, x6, x17
    .word 0x00686833  # or x16, x16, x6
    .word 0x2ccd2303  # lw x6, 716(x26)
    .word 0x01237333  # and x6, x6, x18
    .word 0x00686833  # or x16, x16, x6
    .word 0x2d0d2303  # lw x6, 720(x26)
    .word 0x01337333  # and x6, x6, x19
    .word 0x00686833  # or x16, x16, x6
    .word 0x2d4d2303  # lw x6, 724(x26)
    .word 0x01437333  # and x6, x6, x20
    .word 0x00686833  # or x16, x16, x6
    .word 0x2d8d2303  # lw x6, 728(x26)
    .word 0x01537333  # and x6, x6, x21
    .word 0x00686833  # or x16, x16, x6
    .word 0x2dcd2303  # lw x6, 732(x26)
    .word 0x01637333  # and x6, x6, x22
    .word 0x00686833  # or x16, x16, x6
    .word 0x2e0d2303  # lw x6, 736(x26)
    .word 0x01737333  # and x6, x6, x23
    .word 0x00686833  # or x16, x16, x6
    .word 0x2e4d2303  # lw x6, 740(x26)
    .word 0x01837333  # and x6, x6, x24
    .word 0x00686833  # or x16, x16, x6
    .word 0x2e8d2303  # lw x6, 744(x26)
    .word 0x01937333  # and x6, x6, x25
    .word 0x00686833  # or x16, x16, x6
    .word 0x2ecd2303  # lw x6, 748(x26)
    .word 0x000013b7  # lui x7, 0x00001
    .word 0x002383b3  # add x7, x7, x2
    .word 0x9d83a383  # lw x7, -1576(x7)
    .word 0x00737333  # and x6, x6, x7
    .word 0x00686833  # or x16, x16, x6
    .word 0x2f0d2303  # lw x6, 752(x26)
    .word 0x000013b7  # lui x7, 0x00001
    .word 0x002383b3  # add x7, x7, x2
    .word 0x9dc3a383  # lw x7, -1572(x7)
    .word 0x00737333  # and x6, x6, x7
    .word 0x00686833  # or x16, x16, x6
    .word 0x2f4d2303  # lw x6, 756(x26)
    .word 0x000013b7  # lui x7, 0x00001
    .word 0x002383b3  # add x7, x7, x2
    .word 0x9e03a383  # lw x7, -1568(x7)
    .word 0x00737333  # and x6, x6, x7
    .word 0x00686833  # or x16, x16, x6
    .word 0x2f8d2303  # lw x6, 760(x26)
    .word 0x000013b7  # lui x7, 0x00001
    .word 0x002383b3  # add x7, x7, x2
    .word 0x9e43a383  # lw x7, -1564(x7)
    .word 0x00737333  # and x6, x6, x7
    .word 0x00686833  # or x16, x16, x6
    .word 0x2fcd2303  # lw x6, 764(x26)
    .word 0x000013b7  # lui x7, 0x00001
    .word 0x002383b3  # add x7, x7, x2
    .word 0x9e83a383  # lw x7, -1560(x7)
    .word 0x00737333  # and x6, x6, x7
    .word 0x00686833  # or x16, x16, x6
    .word 0x00001337  # lui x6, 0x00001
    .word 0x00230333  # add x6, x6, x2
    .word 0x9b832303  # lw x6, -1608(x6)
    .word 0x006782b3  # add x5, x15, x6
    .word 0x00229293  # slli x5, x5, 2
    .word 0x002282b3  # add x5, x5, x2
    .word 0x0b02a023  # sw x16, 160(x5)
    .word 0xe95ff06f  # jal x0, -364
    .word 0x00001e37  # lui x28, 0x00001
    .word 0x002e0e33  # add x28, x28, x2
    .word 0xa00e2423  # sw x0, -1528(x28)
    .word 0x000012b7  # lui x5, 0x00001
    .word 0x002282b3  # add x5, x5, x2
    .word 0x9b02a283  # lw x5, -1616(x5)
    .word 0xeb528293  # addi x5, x5, -331
    .word 0x005032b3  # sltu x5, x0, x5
    .word 0x00800313  # addi x6, x0, 8
    .word 0xfff28293  # addi x5, x5, -1
    .word 0x005372b3  # and x5, x6, x5
    .word 0x00001e37  # lui x28, 0x00001
    .word 0x002e0e33  # add x28, x28, x2
    .word 0xa05e2623  # sw x5, -1524(x28)
    .word 0x00001337  # lui x6, 0x00001
    .word 0x00230333  # add x6, x6, x2
    .word 0xa0832303  # lw x6, -1528(x6)
    .word 0x000012b7  # lui x5, 0x00001
    .word 0x002282b3  # add x5, x5, x2
    .word 0xa0c2a283  # lw x5, -1524(x5)
    .word 0x005332b3  # sltu x5, x6, x5
    .word 0x00029463  # bne x5, x0, 8
    .word 0x0500006f  # jal x0, 80
    .word 0x00001e37  # lui x28, 0x00001
    .word 0x002e0e33  # add x28, x28, x2
    .word 0x9c6e2023  # sw x6, -1600(x28)
    .word 0x00130313  # addi x6, x6, 1
    .word 0x00001e37  # lui x28, 0x00001
    .word 0x002e0e33  # add x28, x28, x2
    .word 0xa06e2423  # sw x6, -1528(x28)
    .word 0x000012b7  # lui x5, 0x00001
    .word 0x002282b3  # add x5, x5, x2
    .word 0x9c02a283  # lw x5, -1600(x5)
    .word 0x01828293  # addi x5, x5, 24
    .word 0x00001337  # lui x6, 0x00001
    .word 0x00230333  # add x6, x6, x2
    .word 0x9c032303  # lw x6, -1600(x6)
    .word 0x00133313  # sltiu x6, x6, 1
    .word 0x00229293  # slli x5, x5, 2
    .word 0x002282b3  # add x5, x5, x2
    .word 0x0a62a023  # sw x6, 160(x5)
    .word 0xf95ff06f  # jal x0, -108
    .word 0x000012b7  # lui x5, 0x00001
    .word 0x002282b3  # add x5, x5, x2
    .word 0x9b02a283  # lw x5, -1616(x5)
    .word 0xeb528293  # addi x5, x5, -331
    .word 0x00f2f293  # andi x5, x5, 15
    .word 0x00229293  # slli x5, x5, 2
    .word 0x002282b3  # add x5, x5, x2
    .word 0x00001e37  # lui x28, 0x00001
    .word 0x01c282b3  # add x5, x5, x28
    .word 0x96c2a283  # lw x5, -1684(x5)
    .word 0x00001e37  # lui x28, 0x00001
    .word 0x002e0e33  # add x28, x28, x2
    .word 0x9a5e2e23  # sw x5, -1604(x28)
    .word 0x000012b7  # lui x5, 0x00001
    .word 0x002282b3  # add x5, x5, x2
    .word 0x9b02a283  # lw x5, -1616(x5)
    .word 0x0012b293  # sltiu x5, x5, 1
    .word 0x00000313  # addi x6, x0, 0
    .word 0x000013b7  # lui x7, 0x00001
    .word 0x002383b3  # add x7, x7, x2
    .word 0x9c83a383  # lw x7, -1592(x7)
    .word 0xffc38393  # addi x7, x7, -4
    .word 0x007033b3  # sltu x7, x0, x7
    .word 0x00900413  # addi x8, x0, 9
    .word 0x03400493  # addi x9, x0, 52
    .word 0xfff38393  # addi x7, x7, -1
    .word 0x00944433  # xor x8, x8, x9
    .word 0x00747433  # and x8, x8, x7
    .word 0x0084c3b3  # xor x7, x9, x8
    .word 0x405002b3  # sub x5, x0, x5
    .word 0x00734333  # xor x6, x6, x7
    .word 0x00537333  # and x6, x6, x5
    .word 0x0063c2b3  # xor x5, x7, x6
    .word 0x00001e37  # lui x28, 0x00001
    .word 0x002e0e33  # add x28, x28, x2
    .word 0x9c5e2823  # sw x5, -1584(x28)
    .word 0x000012b7  # lui x5, 0x00001
    .word 0x002282b3  # add x5, x5, x2
    .word 0x9b02a283  # lw x5, -1616(x5)
    .word 0x0012b293  # sltiu x5, x5, 1
    .word 0x00900313  # addi x6, x0, 9
    .word 0x000013b7  # lui x7, 0x00001
    .word 0x002383b3  # add x7, x7, x2
    .word 0x9c83a383  # lw x7, -1592(x7)
    .word 0xffc38393  # addi x7, x7, -4
    .word 0x007033b3  # sltu x7, x0, x7
    .word 0x02b00413  # addi x8, x0, 43
    .word 0x02200493  # addi x9, x0, 34
    .word 0xfff38393  # addi x7, x7, -1
    .word 0x00944433  # xor x8, x8, x9
    .word 0x00747433  # and x8, x8, x7
    .word 0x0084c3b3  # xor x7, x9, x8
    .word 0x405002b3  # sub x5, x0, x5
    .word 0x00734333  # xor x6, x6, x7
    .word 0x00537333  # and x6, x6, x5
    .word 0x0063c5b3  # xor x11, x7, x6
    .word 0x00259d13  # slli x26, x11, 2
    .word 0x002d0d33  # add x26, x26, x2
    .word 0x000012b7  # lui x5, 0x00001
    .word 0x002282b3  # add x5, x5, x2
    .word 0x9bc2a283  # lw x5, -1604(x5)
    .word 0x00c2d293  # srli x5, x5, 12
    .word 0x0ff2f293  # andi x5, x5, 255
    .word 0x00001e37  # lui x28, 0x00001
    .word 0x002e0e33  # add x28, x28, x2
    .word 0x9a5e2a23  # sw x5, -1612(x28)
    .word 0x00001e37  # lui x28, 0x00001
    .word 0x002e0e33  # add x28, x28, x2
    .word 0xa00e2423  # sw x0, -1528(x28)
    .word 0x000012b7  # lui x5, 0x00001
    .word 0x002282b3  # add x5, x5, x2
    .word 0x9b02a283  # lw x5, -1616(x5)
    .word 0xff128293  # addi x5, x5, -15
    .word 0x005032b3  # sltu x5, x0, x5
    .word 0x00000313  # addi x6, x0, 0
    .word 0x000013b7  # lui x7, 0x00001
    .word 0x002383b3  # add x7, x7, x2
    .word 0x9b03a383  # lw x7, -1616(x7)
    .word 0x14b3b393  # sltiu x7, x7, 331
    .word 0x000014b7  # lui x9, 0x00001
    .word 0x002484b3  # add x9, x9, x2
    .word 0x9b44a483  # lw x9, -1612(x9)
    .word 0x00148493  # addi x9, x9, 1
    .word 0x407003b3  # sub x7, x0, x7
    .word 0x0095c433  # xor x8, x11, x9
    .word 0x00747433  # and x8, x8, x7
    .word 0x0084c3b3  # xor x7, x9, x8
    .word 0xfff28293  # addi x5, x5, -1
    .word 0x00734333  # xor x6, x6, x7
    .word 0x00537333  # and x6, x6, x5
    .word 0x0063c2b3  # xor x5, x7, x6
    .word 0x00001e37  # lui x28, 0x00001
    .word 0x002e0e33  # add x28, x28, x2
    .word 0xa05e2623  # sw x5, -1524(x28)
    .word 0x00001337  # lui x6, 0x00001
    .word 0x00230333  # add x6, x6, x2
    .word 0xa0832303  # lw x6, -1528(x6)
    .word 0x000012b7  # lui x5, 0x00001
    .word 0x002282b3  # add x5, x5, x2
    .word 0xa0c2a283  # lw x5, -1524(x5)
    .word 0x005332b3  # sltu x5, x6, x5
    .word 0x00029463  # bne x5, x0, 8
    .word 0x5c50006f  # jal x0, 3524
    .word 0x00001e37  # lui x28, 0x00001
    .word 0x002e0e33  # add x28, x28, x2
    .word 0x9c6e2223  # sw x6, -1596(x28)
    .word 0x00130313  # addi x6, x6, 1
    .word 0x00001e37  # lui x28, 0x00001
    .word 0x002e0e33  # add x28, x28, x2
    .word 0xa06e2423  # sw x6, -1528(x28)
    .word 0x000012b7  # lui x5, 0x00001
    .word 0x002282b3  # add x5, x5, x2
    .word 0x9b02a283  # lw x5, -1616(x5)
    .word 0x14b00313  # addi x6, x0, 331
    .word 0x0462f463  # bgeu x5, x6, 72
    .word 0x000012b7  # lui x5, 0x00001
    .word 0x002282b3  # add x5, x5, x2
    .word 0x9d02a283  # lw x5, -1584(x5)
    .word 0x00001337  # lui x6, 0x00001
    .word 0x00230333  # add x6, x6, x2
    .word 0x9c432303  # lw x6, -1596(x6)
    .word 0x006282b3  # add x5, x5, x6
    .word 0x05600313  # addi x6, x0, 86
    .word 0x0262f2b3  # remu x5, x5, x6
    .word 0x00129593  # slli x11, x5, 1
    .word 0x002585b3  # add x11, x11, x2
    .word 0x00001e37  # lui x28, 0x00001
    .word 0x01c585b3  # add x11, x11, x28
    .word 0x8c05d583  # lhu x11, -1856(x11)
    .word 0x00259d13  # slli x26, x11, 2
    .word 0x002d0d33  # add x26, x26, x2
    .word 0x0ac0006f  # jal x0, 172
    .word 0x000012b7  # lui x5, 0x00001
    .word 0x002282b3  # add x5, x5, x2
    .word 0x9c42a283  # lw x5, -1596(x5)
    .word 0x0012b293  # sltiu x5, x5, 1
    .word 0x00001337  # lui x6, 0x00001
    .word 0x00230333  # add x6, x6, x2
    .word 0x9bc32303  # lw x6, -1604(x6)
    .word 0x0f037313  # andi x6, x6, 240
    .word 0x0f000393  # addi x7, x0, 240
    .word 0x405002b3  # sub x5, x0, x5
    .word 0x00734333  # xor x6, x6, x7
    .word 0x00537333  # and x6, x6, x5
    .word 0x0063c5b3  # xor x11, x7, x6
    .word 0x00259d13  # slli x26, x11, 2
    .word 0x002d0d33  # add x26, x26, x2
    .word 0x00001337  # lui x6, 0x00001
    .word 0x00230333  # add x6, x6, x2
    .word 0x9c432303  # lw x6, -1596(x6)
    .word 0x000013b7  # lui x7, 0x00001
    .word 0x002383b3  # add x7, x7, x2
    .word 0x9b43a383  # lw x7, -1612(x7)
    .word 0x40730333  # sub x6, x6, x7
    .word 0x00603333  # sltu x6, x0, x6
    .word 0x000013b7  # lui x7, 0x00001
    .word 0x002383b3  # add x7, x7, x2
    .word 0x9bc3a383  # lw x7, -1604(x7)
    .word 0x00001437  # lui x8, 0x00001
    .word 0x00240433  # add x8, x8, x2
    .word 0x9f442403  # lw x8, -1548(x8)
    .word 0x0083f3b3  # and x7, x7, x8
    .word 0x0045d413  # srli x8, x11, 4
    .word 0x000014b7  # lui x9, 0x00001
    .word 0x002484b3  # add x9, x9, x2
    .word 0x9f84a483  # lw x9, -1544(x9)
    .word 0x00946433  # or x8, x8, x9
    .word 0xfff30313  # addi x6, x6, -1
    .word 0x0083c3b3  # xor x7, x7, x8
    .word 0x0063f3b3  # and x7, x7, x6
    .word 0x00744333  # xor x6, x8, x7
    .word 0x0065e5b3  # or x11, x11, x6
    .word 0x00259d13  # slli x26, x11, 2
    .word 0x002d0d33  # add x26, x26, x2
    .word 0x00c5d613  # srli x12, x11, 12
    .word 0x0055d293  # srli x5, x11, 5
    .word 0x0782f793  # andi x15, x5, 120
    .word 0x00279d93  # slli x27, x15, 2
    .word 0x002d8db3  # add x27, x27, x2
    .word 0x0015d293  # srli x5, x11, 1
    .word 0x0782f293  # andi x5, x5, 120
    .word 0x00001e37  # lui x28, 0x00001
    .word 0x002e0e33  # add x28, x28, x2
    .word 0x9c5e2423  # sw x5, -1592(x28)
    .word 0x00359293  # slli x5, x11, 3
    .word 0x0782f593  # andi x11, x5, 120
    .word 0x00259d13  # slli x26, x11, 2
    .word 0x002d0d33  # add x26, x26, x2
    .word 0x00061ae3  # bne x12, x0, 2068
    .word 0x00000993  # addi x19, x0, 0
    .word 0x00000a13  # addi x20, x0, 0
    .word 0x00000a93  # addi x21, x0, 0
    .word 0x00000b13  # addi x22, x0, 0
    .word 0x00000b93  # addi x23, x0, 0
    .word 0x00000c13  # addi x24, x0, 0
    .word 0x00000c93  # addi x25, x0, 0
    .word 0x00001e37  # lui x28, 0x00001
    .word 0x002e0e33  # add x28, x28, x2
    .word 0x9c0e2c23  # sw x0, -1576(x28)
    .word 0x000012b7  # lui x5, 0x00001
    .word 0x002282b3  # add x5, x5, x2
    .word 0x9c82a283  # lw x5, -1592(x5)
    .word 0x00229293  # slli x5, x5, 2
    .word 0x002282b3  # add x5, x5, x2
    .word 0x0a02a283  # lw x5, 160(x5)
    .word 0x2a512023  # sw x5, 672(x2)
    .word 0x000012b7  # lui x5, 0x00001
    .word 0x002282b3  # add x5, x5, x2
    .word 0x9c82a283  # lw x5, -1592(x5)
    .word 0x00229293  # slli x5, x5, 2
    .word 0x002282b3  # add x5, x5, x2
    .word 0x0a42a283  # lw x5, 164(x5)
    .word 0x2a512223  # sw x5, 676(x2)
    .word 0x000012b7  # lui x5, 0x00001
    .word 0x002282b3  # add x5, x5, x2
    .word 0x9c82a283  # lw x5, -1592(x5)
    .word 0x00229293  # slli x5, x5, 2
    .word 0x002282b3  # add x5, x5, x2
    .word 0x0a82a283  # lw x5, 168(x5)
    .word 0x2a512423  # sw x5, 680(x2)
    .word 0x000012b7  # lui x5, 0x00001
    .word 0x002282b3  # add x5, x5, x2
    .word 0x9c82a283  # lw x5, -1592(x5)
    .word 0x00229293  # slli x5, x5, 2
    .word 0x002282b3  # add x5, x5, x2
    .word 0x0ac2a283  # lw x5, 172(x5)
    .word 0x2a512623  # sw x5, 684(x2)
    .word 0x000012b7  # lui x5, 0x00001
    .word 0x002282b3  # add x5, x5, x2
    .word 0x9c82a283  # lw x5, -1592(x5)
    .word 0x00229293  # slli x5, x5, 2
    .word 0x002282b3  # add x5, x5, x2
    .word 0x0b02a283  # lw x5, 176(x5)
    .word 0x2a512823  # sw x5, 688(x2)
    .word 0x000012b7  # lui x5, 0x00001
    .word 0x002282b3  # add x5, x5, x2
    .word 0x9c82a283  # lw x5, -1592(x5)
    .word 0x00229293  # slli x5, x5, 2
    .word 0x002282b3  # add x5, x5, x2
    .word 0x0b42a283  # lw x5, 180(x5)
    .word 0x2a512a23  # sw x5, 692(x2)
    .word 0x000012b7  # lui x5, 0x00001
    .word 0x002282b3  # add x5, x5, x2
    .word 0x9c82a283  # lw x5, -1592(x5)
    .word 0x00229293  # slli x5, x5, 2
    .word 0x002282b3  # add x5, x5, x2
    .word 0x0b82a283  # lw x5, 184(x5)
    .word 0x2a512c23  # sw x5, 696(x2)
    .word 0x000012b7  # lui x5, 0x00001
    .word 0x002282b3  # add x5, x5, x2
    .word 0x9c82a283  # lw x5, -1592(x5)
    .word 0x00229293  # slli x5, x5, 2
    .word 0x002282b3  # add x5, x5, x2
    .word 0x0bc2a283  # lw x5, 188(x5)
    .word 0x2a512e23  # sw x5, 700(x2)
    .word 0xfff00613  # addi x12, x0, -1
    .word 0x00160613  # addi x12, x12, 1
    .word 0x00261693  # slli x13, x12, 2
    .word 0x002686b3  # add x13, x13, x2
    .word 0x2a06a683  # lw x13, 672(x13)
    .word 0x0a0d2803  # lw x16, 160(x26)
    .word 0x030688b3  # mul x17, x13, x16
    .word 0x0306b933  # mulhu x18, x13, x16
    .word 0x01198833  # add x16, x19, x17
    .word 0x00261293  # slli x5, x12, 2
    .word 0x002282b3  # add x5, x5, x2
    .word 0x2b02a023  # sw x16, 672(x5)
    .word 0x01183333  # sltu x6, x16, x17
    .word 0x00690733  # add x14, x18, x6
    .word 0x0a4d2803  # lw x16, 164(x26)
    .word 0x030688b3  # mul x17, x13, x16
    .word 0x0306b933  # mulhu x18, x13, x16
    .word 0x011a0833  # add x16, x20, x17
    .word 0x00e809b3  # add x19, x16, x14
    .word 0x01183333  # sltu x6, x16, x17
    .word 0x006902b3  # add x5, x18, x6
    .word 0x00e9b333  # sltu x6, x19, x14
    .word 0x00628733  # add x14, x5, x6
    .word 0x0a8d2803  # lw x16, 168(x26)
    .word 0x030688b3  # mul x17, x13, x16
    .word 0x0306b933  # mulhu x18, x13, x16
    .word 0x011a8833  # add x16, x21, x17
    .word 0x00e80a33  # add x20, x16, x14
    .word 0x01183333  # sltu x6, x16, x17
    .word 0x006902b3  # add x5, x18, x6
    .word 0x00ea3333  # sltu x6, x20, x14
    .word 0x00628733  # add x14, x5, x6
    .word 0x0acd2803  # lw x16, 172(x26)
    .word 0x030688b3  # mul x17, x13, x16
    .word 0x0306b933  # mulhu x18, x13, x16
    .word 0x011b0833  # add x16, x22, x17
    .word 0x00e80ab3  # add x21, x16, x14
    .word 0x01183333  # sltu x6, x16, x17
    .word 0x006902b3  # add x5, x18, x6
    .word 0x00eab333  # sltu x6, x21, x14
    .word 0x00628733  # add x14, x5, x6
    .word 0x0b0d2803  # lw x16, 176(x26)
    .word 0x030688b3  # mul x17, x13, x16
    .word 0x0306b933  # mulhu x18, x13, x16
    .word 0x011b8833  # add x16, x23, x17
    .word 0x00e80b33  # add x22, x16, x14
    .word 0x01183333  # sltu x6, x16, x17
    .word 0x006902b3  # add x5, x18, x6
    .word 0x00eb3333  # sltu x6, x22, x14
    .word 0x00628733  # add x14, x5, x6
    .word 0x0b4d2803  # lw x16, 180(x26)
    .word 0x030688b3  # mul x17, x13, x16
    .word 0x0306b933  # mulhu x18, x13, x16
    .word 0x011c0833  # add x16, x24, x17
    .word 0x00e80bb3  # add x23, x16, x14
    .word 0x01183333  # sltu x6, x16, x17
    .word 0x006902b3  # add x5, x18, x6
    .word 0x00ebb333  # sltu x6, x23, x14
    .word 0x00628733  # add x14, x5, x6
    .word 0x0b8d2803  # lw x16, 184(x26)
    .word 0x030688b3  # mul x17, x13, x16
    .word 0x0306b933  # mulhu x18, x13, x16
    .word 0x011c8833  # add x16, x25, x17
    .word 0x00e80c33  # add x24, x16, x14
    .word 0x01183333  # sltu x6, x16, x17
    .word 0x006902b3  # add x5, x18, x6
    .word 0x00ec3333  # sltu x6, x24, x14
    .word 0x00628733  # add x14, x5, x6
    .word 0x0bcd2803  # lw x16, 188(x26)
    .word 0x030688b3  # mul x17, x13, x16
    .word 0x0306b933  # mulhu x18, x13, x16
    .word 0x000012b7  # lui x5, 0x00001
    .word 0x002282b3  # add x5, x5, x2
    .word 0x9d82a283  # lw x5, -1576(x5)
    .word 0x01128833  # add x16, x5, x17
    .word 0x00e80cb3  # add x25, x16, x14
    .word 0x01183333  # sltu x6, x16, x17
    .word 0x006902b3  # add x5, x18, x6
    .word 0x00ecb333  # sltu x6, x25, x14
    .word 0x00628733  # add x14, x5, x6
    .word 0x00001e37  # lui x28, 0x00001
    .word 0x002e0e33  # add x28, x28, x2
    .word 0x9cee2c23  # sw x14, -1576(x28)
    .word 0xff960293  # addi x5, x12, -7
    .word 0xea029ae3  # bne x5, x0, -332
    .word 0x2a012803  # lw x16, 672(x2)
    .word 0x00080893  # addi x17, x16, 0
    .word 0x2a412803  # lw x16, 676(x2)
    .word 0x00080913  # addi x18, x16, 0
    .word 0x2a812803  # lw x16, 680(x2)
    .word 0x00001e37  # lui x28, 0x00001
    .word 0x002e0e33  # add x28, x28, x2
    .word 0x9d0e2e23  # sw x16, -1572(x28)
    .word 0x2ac12803  # lw x16, 684(x2)
    .word 0x01180833  # add x16, x16, x17
    .word 0x011836b3  # sltu x13, x16, x17
    .word 0x00001e37  # lui x28, 0x00001
    .word 0x002e0e33  # add x28, x28, x2
    .word 0x9f0e2023  # sw x16, -1568(x28)
    .word 0x2b012283  # lw x5, 688(x2)
    .word 0x00d28833  # add x16, x5, x13
    .word 0x00d836b3  # sltu x13, x16, x13
    .word 0x01280833  # add x16, x16, x18
    .word 0x01283333  # sltu x6, x16, x18
    .word 0x006686b3  # add x13, x13, x6
    .word 0x00001e37  # lui x28, 0x00001
    .word 0x002e0e33  # add x28, x28, x2
    .word 0x9f0e2223  # sw x16, -1564(x28)
    .word 0x2b412283  # lw x5, 692(x2)
    .word 0x00d28833  # add x16, x5, x13
    .word 0x00d836b3  # sltu x13, x16, x13
    .word 0x00001337  # lui x6, 0x00001
    .word 0x00230333  # add x6, x6, x2
    .word 0x9dc32303  # lw x6, -1572(x6)
    .word 0x00680833  # add x16, x16, x6
    .word 0x000013b7  # lui x7, 0x00001
    .word 0x002383b3  # add x7, x7, x2
    .word 0x9dc3a383  # lw x7, -1572(x7)
    .word 0x00783333  # sltu x6, x16, x7
    .word 0x006686b3  # add x13, x13, x6
    .word 0x00001e37  # lui x28, 0x00001
    .word 0x002e0e33  # add x28, x28, x2
    .word 0x9f0e2423  # sw x16, -1560(x28)
    .word 0x2b812283  # lw x5, 696(x2)
    .word 0x00d28833  # add x16, x5, x13
    .word 0x00d836b3  # sltu x13, x16, x13
    .word 0x00001337  # lui x6, 0x00001
    .word 0x00230333  # add x6, x6, x2
    .word 0x9e032303  # lw x6, -1568(x6)
    .word 0x00680833  # add x16, x16, x6
    .word 0x000013b7  # lui x7, 0x00001
    .word 0x002383b3  # add x7, x7, x2
    .word 0x9e03a383  # lw x7, -1568(x7)
    .word 0x00783333  # sltu x6, x16, x7
    .word 0x006686b3  # add x13, x13, x6
    .word 0x01180833  # add x16, x16, x17
    .word 0x01183333  # sltu x6, x16, x17
    .word 0x006686b3  # add x13, x13, x6
    .word 0x00001e37  # lui x28, 0x00001
    .word 0x002e0e33  # add x28, x28, x2
    .word 0x9f0e2623  # sw x16, -1556(x28)
    .word 0x2bc12283  # lw x5, 700(x2)
    .word 0x00d28833  # add x16, x5, x13
    .word 0x00d836b3  # sltu x13, x16, x13
    .word 0x00001337  # lui x6, 0x00001
    .word 0x00230333  # add x6, x6, x2
    .word 0x9e432303  # lw x6, -1564(x6)
    .word 0x00680833  # add x16, x16, x6
    .word 0x000013b7  # lui x7, 0x00001
    .word 0x002383b3  # add x7, x7, x2
    .word 0x9e43a383  # lw x7, -1564(x7)
    .word 0x00783333  # sltu x6, x16, x7
    .word 0x006686b3  # add x13, x13, x6
    .word 0x01280833  # add x16, x16, x18
    .word 0x01283333  # sltu x6, x16, x18
    .word 0x006686b3  # add x13, x13, x6
    .word 0x41100733  # sub x14, x0, x17
    .word 0x00e80833  # add x16, x16, x14
    .word 0x00e83333  # sltu x6, x16, x14
    .word 0x006686b3  # add x13, x13, x6
    .word 0x00001e37  # lui x28, 0x00001
    .word 0x002e0e33  # add x28, x28, x2
    .word 0x9f0e2823  # sw x16, -1552(x28)
    .word 0x00d98833  # add x16, x19, x13
    .word 0x00d836b3  # sltu x13, x16, x13
    .word 0x00001337  # lui x6, 0x00001
    .word 0x00230333  # add x6, x6, x2
    .word 0x9e832303  # lw x6, -1560(x6)
    .word 0x00680833  # add x16, x16, x6
    .word 0x000013b7  # lui x7, 0x00001
    .word 0x002383b3  # add x7, x7, x2
    .word 0x9e83a383  # lw x7, -1560(x7)
    .word 0x00783333  # sltu x6, x16, x7
    .word 0x006686b3  # add x13, x13, x6
    .word 0x00001337  # lui x6, 0x00001
    .word 0x00230333  # add x6, x6, x2
    .word 0x9dc32303  # lw x6, -1572(x6)
    .word 0x00680833  # add x16, x16, x6
    .word 0x000013b7  # lui x7, 0x00001
    .word 0x002383b3  # add x7, x7, x2
    .word 0x9dc3a383  # lw x7, -1572(x7)
    .word 0x00783333  # sltu x6, x16, x7
    .word 0x006686b3  # add x13, x13, x6
    .word 0x41200733  # sub x14, x0, x18
    .word 0x00e80833  # add x16, x16, x14
    .word 0x00e83333  # sltu x6, x16, x14
    .word 0x006686b3  # add x13, x13, x6
    .word 0x01103333  # sltu x6, x0, x17
    .word 0x40688733  # sub x14, x17, x6
    .word 0x00e80833  # add x16, x16, x14
    .word 0x00e83333  # sltu x6, x16, x14
    .word 0x006686b3  # add x13, x13, x6
    .word 0x00080893  # addi x17, x16, 0
    .word 0x00da0833  # add x16, x20, x13
    .word 0x00d836b3  # sltu x13, x16, x13
    .word 0x00001337  # lui x6, 0x00001
    .word 0x00230333  # add x6, x6, x2
    .word 0x9ec32303  # lw x6, -1556(x6)
    .word 0x00680833  # add x16, x16, x6
    .word 0x000013b7  # lui x7, 0x00001
    .word 0x002383b3  # add x7, x7, x2
    .word 0x9ec3a383  # lw x7, -1556(x7)
    .word 0x00783333  # sltu x6, x16, x7
    .word 0x006686b3  # add x13, x13, x6
    .word 0x00001337  # lui x6, 0x00001
    .word 0x00230333  # add x6, x6, x2
    .word 0x9e032303  # lw x6, -1568(x6)
    .word 0x00680833  # add x16, x16, x6
    .word 0x000013b7  # lui x7, 0x00001
    .word 0x002383b3  # add x7, x7, x2
    .word 0x9e03a383  # lw x7, -1568(x7)
    .word 0x00783333  # sltu x6, x16, x7
    .word 0x006686b3  # add x13, x13, x6
    .word 0x000012b7  # lui x5, 0x00001
    .word 0x002282b3  # add x5, x5, x2
    .word 0x9dc2a283  # lw x5, -1572(x5)
    .word 0x40500733  # sub x14, x0, x5
    .word 0x00e80833  # add x16, x16, x14
    .word 0x00e83333  # sltu x6, x16, x14
    .word 0x006686b3  # add x13, x13, x6
    .word 0x01203333  # sltu x6, x0, x18
    .word 0x40690733  # sub x14, x18, x6
    .word 0x00e80833  # add x16, x16, x14
    .word 0x00e83333  # sltu x6, x16, x14
    .word 0x006686b3  # add x13, x13, x6
    .word 0x00080913  # addi x18, x16, 0
    .word 0x00da8833  # add x16, x21, x13
    .word 0x00d836b3  # sltu x13, x16, x13
    .word 0x00001337  # lui x6, 0x00001
    .word 0x00230333  # add x6, x6, x2
    .word 0x9f032303  # lw x6, -1552(x6)
    .word 0x00680833  # add x16, x16, x6
    .word 0x000013b7  # lui x7, 0x00001
    .word 0x002383b3  # add x7, x7, x2
    .word 0x9f03a383  # lw x7, -1552(x7)
    .word 0x00783333  # sltu x6, x16, x7
    .word 0x006686b3  # add x13, x13, x6
    .word 0x00001337  # lui x6, 0x00001
    .word 0x00230333  # add x6, x6, x2
    .word 0x9e432303  # lw x6, -1564(x6)
    .word 0x00680833  # add x16, x16, x6
    .word 0x000013b7  # lui x7, 0x00001
    .word 0x002383b3  # add x7, x7, x2
    .word 0x9e43a383  # lw x7, -1564(x7)
    .word 0x00783333  # sltu x6, x16, x7
    .word 0x006686b3  # add x13, x13, x6
    .word 0x000012b7  # lui x5, 0x00001
    .word 0x002282b3  # add x5, x5, x2
    .word 0x9e02a283  # lw x5, -1568(x5)
    .word 0x40500733  # sub x14, x0, x5
    .word 0x00e80833  # add x16, x16, x14
    .word 0x00e83333  # sltu x6, x16, x14
    .word 0x006686b3  # add x13, x13, x6
    .word 0x000012b7  # lui x5, 0x00001
    .word 0x002282b3  # add x5, x5, x2
    .word 0x9dc2a283  # lw x5, -1572(x5)
    .word 0x00001337  # lui x6, 0x00001
    .word 0x00230333  # add x6, x6, x2
    .word 0x9dc32303  # lw x6, -1572(x6)
    .word 0x00603333  # sltu x6, x0, x6
    .word 0x40628733  # sub x14, x5, x6
    .word 0x00e80833  # add x16, x16, x14
    .word 0x00e83333  # sltu x6, x16, x14
    .word 0x006686b3  # add x13, x13, x6
    .word 0x00080993  # addi x19, x16, 0
    .word 0x00db0833  # add x16, x22, x13
    .word 0x00d836b3  # sltu x13, x16, x13
    .word 0x00001337  # lui x6, 0x00001
    .word 0x00230333  # add x6, x6, x2
    .word 0x9e832303  # lw x6, -1560(x6)
    .word 0x00680833  # add x16, x16, x6
    .word 0x000013b7  # lui x7, 0x00001
    .word 0x002383b3  # add x7, x7, x2
    .word 0x9e83a383  # lw x7, -1560(x7)
    .word 0x00783333  # sltu x6, x16, x7
    .word 0x006686b3  # add x13, x13, x6
    .word 0x000012b7  # lui x5, 0x00001
    .word 0x002282b3  # add x5, x5, x2
    .word 0x9e42a283  # lw x5, -1564(x5)
    .word 0x40500733  # sub x14, x0, x5
    .word 0x00e80833  # add x16, x16, x14
    .word 0x00e83333  # sltu x6, x16, x14
    .word 0x006686b3  # add x13, x13, x6
    .word 0x000012b7  # lui x5, 0x00001
    .word 0x002282b3  # add x5, x5, x2
    .word 0x9e02a283  # lw x5, -1568(x5)
    .word 0x00001337  # lui x6, 0x00001
    .word 0x00230333  # add x6, x6, x2
    .word 0x9e032303  # lw x6, -1568(x6)
    .word 0x00603333  # sltu x6, x0, x6
    .word 0x40628733  # sub x14, x5, x6
    .word 0x00e80833  # add x16, x16, x14
    .word 0x00e83333  # sltu x6, x16, x14
    .word 0x006686b3  # add x13, x13, x6
    .word 0x00080a13  # addi x20, x16, 0
    .word 0x00db8833  # add x16, x23, x13
    .word 0x00d836b3  # sltu x13, x16, x13
    .word 0x00001337  # lui x6, 0x00001
    .word 0x00230333  # add x6, x6, x2
    .word 0x9ec32303  # lw x6, -1556(x6)
    .word 0x00680833  # add x16, x16, x6
    .word 0x000013b7  # lui x7, 0x00001
    .word 0x002383b3  # add x7, x7, x2
    .word 0x9ec3a383  # lw x7, -1556(x7)
    .word 0x00783333  # sltu x6, x16, x7
    .word 0x006686b3  # add x13, x13, x6
    .word 0x000012b7  # lui x5, 0x00001
    .word 0x002282b3  # add x5, x5, x2
    .word 0x9e82a283  # lw x5, -1560(x5)
    .word 0x40500733  # sub x14, x0, x5
    .word 0x00e80833  # add x16, x16, x14
    .word 0x00e83333  # sltu x6, x16, x14
    .word 0x006686b3  # add x13, x13, x6
    .word 0x000012b7  # lui x5, 0x00001
    .word 0x002282b3  # add x5, x5, x2
    .word 0x9e42a283  # lw x5, -1564(x5)
    .word 0x00001337  # lui x6, 0x00001
    .word 0x00230333  # add x6, x6, x2
    .word 0x9e432303  # lw x6, -1564(x6)
    .word 0x00603333  # sltu x6, x0, x6
    .word 0x40628733  # sub x14, x5, x6
    .word 0x00e80833  # add x16, x16, x14
    .word 0x00e83333  # sltu x6, x16, x14
    .word 0x006686b3  # add x13, x13, x6
    .word 0x00080a93  # addi x21, x16, 0
    .word 0x00dc0833  # add x16, x24, x13
    .word 0x00d836b3  # sltu x13, x16, x13
    .word 0x00001337  # lui x6, 0x00001
    .word 0x00230333  # add x6, x6, x2
    .word 0x9f032303  # lw x6, -1552(x6)
    .word 0x00680833  # add x16, x16, x6
    .word 0x000013b7  # lui x7, 0x00001
    .word 0x002383b3  # add x7, x7, x2
    .word 0x9f03a383  # lw x7, -1552(x7)
    .word 0x00783333  # sltu x6, x16, x7
    .word 0x006686b3  # add x13, x13, x6
    .word 0x000012b7  # lui x5, 0x00001
    .word 0x002282b3  # add x5, x5, x2
    .word 0x9ec2a283  # lw x5, -1556(x5)
    .word 0x40500733  # sub x14, x0, x5
    .word 0x00e80833  # add x16, x16, x14
    .word 0x00e83333  # sltu x6, x16, x14
    .word 0x006686b3  # add x13, x13, x6
    .word 0x000012b7  # lui x5, 0x00001
    .word 0x002282b3  # add x5, x5, x2
    .word 0x9e82a283  # lw x5, -1560(x5)
    .word 0x00001337  # lui x6, 0x00001
    .word 0x00230333  # add x6, x6, x2
    .word 0x9e832303  # lw x6, -1560(x6)
    .word 0x00603333  # sltu x6, x0, x6
    .word 0x40628733  # sub x14, x5, x6
    .word 0x00e80833  # add x16, x16, x14
    .word 0x00e83333  # sltu x6, x16, x14
    .word 0x006686b3  # add x13, x13, x6
    .word 0x00080b13  # addi x22, x16, 0
    .word 0x00dc8833  # add x16, x25, x13
    .word 0x00d836b3  # sltu x13, x16, x13
    .word 0x000012b7  # lui x5, 0x00001
    .word 0x002282b3  # add x5, x5, x2
    .word 0x9f02a283  # lw x5, -1552(x5)
    .word 0x40500733  # sub x14, x0, x5
    .word 0x00e80833  # add x16, x16, x14
    .word 0x00e83333  # sltu x6, x16, x14
    .word 0x006686b3  # add x13, x13, x6
    .word 0x000012b7  # lui x5, 0x00001
    .word 0x002282b3  # add x5, x5, x2
    .word 0x9ec2a283  # lw x5, -1556(x5)
    .word 0x00001337  # lui x6, 0x00001
    .word 0x00230333  # add x6, x6, x2
    .word 0x9ec32303  # lw x6, -1556(x6)
    .word 0x00603333  # sltu x6, x0, x6
    .word 0x40628733  # sub x14, x5, x6
    .word 0x00e80833  # add x16, x16, x14
    .word 0x00e83333  # sltu x6, x16, x14
    .word 0x006686b3  # add x13, x13, x6
    .word 0x00080b93  # addi x23, x16, 0
    .word 0x000012b7  # lui x5, 0x00001
    .word 0x002282b3  # add x5, x5, x2
    .word 0x9d82a283  # lw x5, -1576(x5)
    .word 0x00d28833  # add x16, x5, x13
    .word 0x00d836b3  # sltu x13, x16, x13
    .word 0x000012b7  # lui x5, 0x00001
    .word 0x002282b3  # add x5, x5, x2
    .word 0x9f02a283  # lw x5, -1552(x5)
    .word 0x00001337  # lui x6, 0x00001
    .word 0x00230333  # add x6, x6, x2
    .word 0x9f032303  # lw x6, -1552(x6)
    .word 0x00603333  # sltu x6, x0, x6
    .word 0x40628733  # sub x14, x5, x6
    .word 0x00e80833  # add x16, x16, x14
    .word 0x00e83333  # sltu x6, x16, x14
    .word 0x006686b3  # add x13, x13, x6
    .word 0x00188893  # addi x17, x17, 1
    .word 0x0018b713  # sltiu x14, x17, 1
    .word 0x00e90933  # add x18, x18, x14
    .word 0x00e93733  # sltu x14, x18, x14
    .word 0x00e989b3  # add x19, x19, x14
    .word 0x00e9b733  # sltu x14, x19, x14
    .word 0x00100293  # addi x5, x0, 1
    .word 0x40e28733  # sub x14, x5, x14
    .word 0x000a0c13  # addi x24, x20, 0
    .word 0x40ea0a33  # sub x20, x20, x14
    .word 0x00ec3733  # sltu x14, x24, x14
    .word 0x000a8c13  # addi x24, x21, 0
    .word 0x40ea8ab3  # sub x21, x21, x14
    .word 0x00ec3733  # sltu x14, x24, x14
    .word 0x000b0c13  # addi x24, x22, 0
    .word 0x40eb0b33  # sub x22, x22, x14
    .word 0x00ec3733  # sltu x14, x24, x14
    .word 0x00170713  # addi x14, x14, 1
    .word 0x000b8c13  # addi x24, x23, 0
    .word 0x40eb8bb3  # sub x23, x23, x14
    .word 0x00100293  # addi x5, x0, 1
    .word 0x00ec3333  # sltu x6, x24, x14
    .word 0x40628733  # sub x14, x5, x6
    .word 0x00e80c33  # add x24, x16, x14
    .word 0x00ec3733  # sltu x14, x24, x14
    .word 0x00100293  # addi x5, x0, 1
    .word 0x40d282b3  # sub x5, x5, x13
    .word 0x40e286b3  # sub x13, x5, x14
    .word 0x00088713  # addi x14, x17, 0
    .word 0x40d888b3  # sub x17, x17, x13
    .word 0x00d73833  # sltu x16, x14, x13
    .word 0x00090713  # addi x14, x18, 0
    .word 0x41090933  # sub x18, x18, x16
    .word 0x01073833  # sltu x16, x14, x16
    .word 0x00098713  # addi x14, x19, 0
    .word 0x410989b3  # sub x19, x19, x16
    .word 0x01073833  # sltu x16, x14, x16
    .word 0x41068833  # sub x16, x13, x16
    .word 0x010a0a33  # add x20, x20, x16
    .word 0x010a3833  # sltu x16, x20, x16
    .word 0x010a8ab3  # add x21, x21, x16
    .word 0x010ab833  # sltu x16, x21, x16
    .word 0x010b0b33  # add x22, x22, x16
    .word 0x010b3833  # sltu x16, x22, x16
    .word 0x00d80833  # add x16, x16, x13
    .word 0x010b8bb3  # add x23, x23, x16
    .word 0x010bb833  # sltu x16, x23, x16
    .word 0x010c02b3  # add x5, x24, x16
    .word 0x40d28c33  # sub x24, x5, x13
    .word 0x0b1da023  # sw x17, 160(x27)
    .word 0x0b2da223  # sw x18, 164(x27)
    .word 0x0b3da423  # sw x19, 168(x27)
    .word 0x0b4da623  # sw x20, 172(x27)
    .word 0x0b5da823  # sw x21, 176(x27)
    .word 0x0b6daa23  # sw x22, 180(x27)
    .word 0x0b7dac23  # sw x23, 184(x27)
    .word 0x0b8dae23  # sw x24, 188(x27)
    .word 0x4580006f  # jal x0, 1112
    .word 0x00100313  # addi x6, x0, 1
    .word 0x26661263  # bne x12, x6, 612
    .word 0x000012b7  # lui x5, 0x00001
    .word 0x002282b3  # add x5, x5, x2
    .word 0x9c82a283  # lw x5, -1592(x5)
    .word 0x00229693  # slli x13, x5, 2
    .word 0x002686b3  # add x13, x13, x2
    .word 0x0a06a683  # lw x13, 160(x13)
    .word 0x0a0d2303  # lw x6, 160(x26)
    .word 0x00668733  # add x14, x13, x6
    .word 0x00070b93  # addi x23, x14, 0
    .word 0x00d73833  # sltu x16, x14, x13
    .word 0x000012b7  # lui x5, 0x00001
    .word 0x002282b3  # add x5, x5, x2
    .word 0x9c82a283  # lw x5, -1592(x5)
    .word 0x00229693  # slli x13, x5, 2
    .word 0x002686b3  # add x13, x13, x2
    .word 0x0a46a683  # lw x13, 164(x13)
    .word 0x0a4d2303  # lw x6, 164(x26)
    .word 0x00668733  # add x14, x13, x6
    .word 0x010708b3  # add x17, x14, x16
    .word 0x00d732b3  # sltu x5, x14, x13
    .word 0x0108b333  # sltu x6, x17, x16
    .word 0x00628833  # add x16, x5, x6
    .word 0x000012b7  # lui x5, 0x00001
    .word 0x002282b3  # add x5, x5, x2
    .word 0x9c82a283  # lw x5, -1592(x5)
    .word 0x00229693  # slli x13, x5, 2
    .word 0x002686b3  # add x13, x13, x2
    .word 0x0a86a683  # lw x13, 168(x13)
    .word 0x0a8d2303  # lw x6, 168(x26)
    .word 0x00668733  # add x14, x13, x6
    .word 0x01070933  # add x18, x14, x16
    .word 0x00d732b3  # sltu x5, x14, x13
    .word 0x01093333  # sltu x6, x18, x16
    .word 0x00628833  # add x16, x5, x6
    .word 0x000012b7  # lui x5, 0x00001
    .word 0x002282b3  # add x5, x5, x2
    .word 0x9c82a283  # lw x5, -1592(x5)
    .word 0x00229693  # slli x13, x5, 2
    .word 0x002686b3  # add x13, x13, x2
    .word 0x0ac6a683  # lw x13, 172(x13)
    .word 0x0acd2303  # lw x6, 172(x26)
    .word 0x00668733  # add x14, x13, x6
    .word 0x010709b3  # add x19, x14, x16
    .word 0x00d732b3  # sltu x5, x14, x13
    .word 0x0109b333  # sltu x6, x19, x16
    .word 0x00628833  # add x16, x5, x6
    .word 0x000012b7  # lui x5, 0x00001
    .word 0x002282b3  # add x5, x5, x2
    .word 0x9c82a283  # lw x5, -1592(x5)
    .word 0x00229693  # slli x13, x5, 2
    .word 0x002686b3  # add x13, x13, x2
    .word 0x0b06a683  # lw x13, 176(x13)
    .word 0x0b0d2303  # lw x6, 176(x26)
    .word 0x00668733  # add x14, x13, x6
    .word 0x01070a33  # add x20, x14, x16
    .word 0x00d732b3  # sltu x5, x14, x13
    .word 0x010a3333  # sltu x6, x20, x16
    .word 0x00628833  # add x16, x5, x6
    .word 0x000012b7  # lui x5, 0x00001
    .word 0x002282b3  # add x5, x5, x2
    .word 0x9c82a283  # lw x5, -1592(x5)
    .word 0x00229693  # slli x13, x5, 2
    .word 0x002686b3  # add x13, x13, x2
    .word 0x0b46a683  # lw x13, 180(x13)
    .word 0x0b4d2303  # lw x6, 180(x26)
    .word 0x00668733  # add x14, x13, x6
    .word 0x01070ab3  # add x21, x14, x16
    .word 0x00d732b3  # sltu x5, x14, x13
    .word 0x010ab333  # sltu x6, x21, x16
    .word 0x00628833  # add x16, x5, x6
    .word 0x000012b7  # lui x5, 0x00001
    .word 0x002282b3  # add x5, x5, x2
    .word 0x9c82a283  # lw x5, -1592(x5)
    .word 0x00229693  # slli x13, x5, 2
    .word 0x002686b3  # add x13, x13, x2
    .word 0x0b86a683  # lw x13, 184(x13)
    .word 0x0b8d2303  # lw x6, 184(x26)
    .word 0x00668733  # add x14, x13, x6
    .word 0x01070b33  # add x22, x14, x16
    .word 0x00d732b3  # sltu x5, x14, x13
    .word 0x010b3333  # sltu x6, x22, x16
    .word 0x00628833  # add x16, x5, x6
    .word 0x000012b7  # lui x5, 0x00001
    .word 0x002282b3  # add x5, x5, x2
    .word 0x9c82a283  # lw x5, -1592(x5)
    .word 0x00229693  # slli x13, x5, 2
    .word 0x002686b3  # add x13, x13, x2
    .word 0x0bc6a683  # lw x13, 188(x13)
    .word 0x0bcd2303  # lw x6, 188(x26)
    .word 0x00668733  # add x14, x13, x6
    .word 0x01070c33  # add x24, x14, x16
    .word 0x00d732b3  # sltu x5, x14, x13
    .word 0x010c3333  # sltu x6, x24, x16
    .word 0x00628833  # add x16, x5, x6
    .word 0x001b8b93  # addi x23, x23, 1
    .word 0x001bb693  # sltiu x13, x23, 1
    .word 0x00d888b3  # add x17, x17, x13
    .word 0x00d8b6b3  # sltu x13, x17, x13
    .word 0x00d90933  # add x18, x18, x13
    .word 0x00d936b3  # sltu x13, x18, x13
    .word 0x00100293  # addi x5, x0, 1
    .word 0x40d286b3  # sub x13, x5, x13
    .word 0x00098713  # addi x14, x19, 0
    .word 0x40d989b3  # sub x19, x19, x13
    .word 0x00d736b3  # sltu x13, x14, x13
    .word 0x000a0713  # addi x14, x20, 0
    .word 0x40da0a33  # sub x20, x20, x13
    .word 0x00d736b3  # sltu x13, x14, x13
    .word 0x000a8713  # addi x14, x21, 0
    .word 0x40da8ab3  # sub x21, x21, x13
    .word 0x00d736b3  # sltu x13, x14, x13
    .word 0x00168693  # addi x13, x13, 1
    .word 0x000b0713  # addi x14, x22, 0
    .word 0x40db0b33  # sub x22, x22, x13
    .word 0x00100293  # addi x5, x0, 1
    .word 0x00d73333  # sltu x6, x14, x13
    .word 0x406286b3  # sub x13, x5, x6
    .word 0x00dc0c33  # add x24, x24, x13
    .word 0x00dc36b3  # sltu x13, x24, x13
    .word 0x00100293  # addi x5, x0, 1
    .word 0x410282b3  # sub x5, x5, x16
    .word 0x40d286b3  # sub x13, x5, x13
    .word 0x000b8713  # addi x14, x23, 0
    .word 0x40db8bb3  # sub x23, x23, x13
    .word 0x00d73833  # sltu x16, x14, x13
    .word 0x00088713  # addi x14, x17, 0
    .word 0x410888b3  # sub x17, x17, x16
    .word 0x01073833  # sltu x16, x14, x16
    .word 0x00090713  # addi x14, x18, 0
    .word 0x41090933  # sub x18, x18, x16
    .word 0x01073833  # sltu x16, x14, x16
    .word 0x41068833  # sub x16, x13, x16
    .word 0x010989b3  # add x19, x19, x16
    .word 0x0109b833  # sltu x16, x19, x16
    .word 0x010a0a33  # add x20, x20, x16
    .word 0x010a3833  # sltu x16, x20, x16
    .word 0x010a8ab3  # add x21, x21, x16
    .word 0x010ab833  # sltu x16, x21, x16
    .word 0x00d80833  # add x16, x16, x13
    .word 0x010b0b33  # add x22, x22, x16
    .word 0x010b3833  # sltu x16, x22, x16
    .word 0x010c02b3  # add x5, x24, x16
    .word 0x40d28c33  # sub x24, x5, x13
    .word 0x0b7da023  # sw x23, 160(x27)
    .word 0x0b1da223  # sw x17, 164(x27)
    .word 0x0b2da423  # sw x18, 168(x27)
    .word 0x0b3da623  # sw x19, 172(x27)
    .word 0x0b4da823  # sw x20, 176(x27)
    .word 0x0b5daa23  # sw x21, 180(x27)
    .word 0x0b6dac23  # sw x22, 184(x27)
    .word 0x0b8dae23  # sw x24, 188(x27)
    .word 0x1f00006f  # jal x0, 496
    .word 0x000012b7  # lui x5, 0x00001
    .word 0x002282b3  # add x5, x5, x2
    .word 0x9c82a283  # lw x5, -1592(x5)
    .word 0x00229693  # slli x13, x5, 2
    .word 0x002686b3  # add x13, x13, x2
    .word 0x0a06a683  # lw x13, 160(x13)
    .word 0x0a0d2703  # lw x14, 160(x26)
    .word 0x40e688b3  # sub x17, x13, x14
    .word 0x00088913  # addi x18, x17, 0
    .word 0x00e6b833  # sltu x16, x13, x14
    .word 0x000012b7  # lui x5, 0x00001
    .word 0x002282b3  # add x5, x5, x2
    .word 0x9c82a283  # lw x5, -1592(x5)
    .word 0x00229693  # slli x13, x5, 2
    .word 0x002686b3  # add x13, x13, x2
    .word 0x0a46a683  # lw x13, 164(x13)
    .word 0x0a4d2703  # lw x14, 164(x26)
    .word 0x40e688b3  # sub x17, x13, x14
    .word 0x410889b3  # sub x19, x17, x16
    .word 0x00e6b2b3  # sltu x5, x13, x14
    .word 0x0108b333  # sltu x6, x17, x16
    .word 0x00628833  # add x16, x5, x6
    .word 0x000012b7  # lui x5, 0x00001
    .word 0x002282b3  # add x5, x5, x2
    .word 0x9c82a283  # lw x5, -1592(x5)
    .word 0x00229693  # slli x13, x5, 2
    .word 0x002686b3  # add x13, x13, x2
    .word 0x0a86a683  # lw x13, 168(x13)
    .word 0x0a8d2703  # lw x14, 168(x26)
    .word 0x40e688b3  # sub x17, x13, x14
    .word 0x41088a33  # sub x20, x17, x16
    .word 0x00e6b2b3  # sltu x5, x13, x14
    .word 0x0108b333  # sltu x6, x17, x16
    .word 0x00628833  # add x16, x5, x6
    .word 0x000012b7  # lui x5, 0x00001
    .word 0x002282b3  # add x5, x5, x2
    .word 0x9c82a283  # lw x5, -1592(x5)
    .word 0x00229693  # slli x13, x5, 2
    .word 0x002686b3  # add x13, x13, x2
    .word 0x0ac6a683  # lw x13, 172(x13)
    .word 0x0acd2703  # lw x14, 172(x26)
    .word 0x40e688b3  # sub x17, x13, x14
    .word 0x41088ab3  # sub x21, x17, x16
    .word 0x00e6b2b3  # sltu x5, x13, x14
    .word 0x0108b333  # sltu x6, x17, x16
    .word 0x00628833  # add x16, x5, x6
    .word 0x000012b7  # lui x5, 0x00001
    .word 0x002282b3  # add x5, x5, x2
    .word 0x9c82a283  # lw x5, -1592(x5)
    .word 0x00229693  # slli x13, x5, 2
    .word 0x002686b3  # add x13, x13, x2
    .word 0x0b06a683  # lw x13, 176(x13)
    .word 0x0b0d2703  # lw x14, 176(x26)
    .word 0x40e688b3  # sub x17, x13, x14
    .word 0x41088b33  # sub x22, x17, x16
    .word 0x00e6b2b3  # sltu x5, x13, x14
    .word 0x0108b333  # sltu x6, x17, x16
    .word 0x00628833  # add x16, x5, x6
    .word 0x000012b7  # lui x5, 0x00001
    .word 0x002282b3  # add x5, x5, x2
    .word 0x9c82a283  # lw x5, -1592(x5)
    .word 0x00229693  # slli x13, x5, 2
    .word 0x002686b3  # add x13, x13, x2
    .word 0x0b46a683  # lw x13, 180(x13)
    .word 0x0b4d2703  # lw x14, 180(x26)
    .word 0x40e688b3  # sub x17, x13, x14
    .word 0x41088bb3  # sub x23, x17, x16
    .word 0x00e6b2b3  # sltu x5, x13, x14
    .word 0x0108b333  # sltu x6, x17, x16
    .word 0x00628833  # add x16, x5, x6
    .word 0x000012b7  # lui x5, 0x00001
    .word 0x002282b3  # add x5, x5, x2
    .word 0x9c82a283  # lw x5, -1592(x5)
    .word 0x00229693  # slli x13, x5, 2
    .word 0x002686b3  # add x13, x13, x2
    .word 0x0b86a683  # lw x13, 184(x13)
    .word 0x0b8d2703  # lw x14, 184(x26)
    .word 0x40e688b3  # sub x17, x13, x14
    .word 0x41088c33  # sub x24, x17, x16
    .word 0x00e6b2b3  # sltu x5, x13, x14
    .word 0x0108b333  # sltu x6, x17, x16
    .word 0x00628833  # add x16, x5, x6
    .word 0x000012b7  # lui x5, 0x00001
    .word 0x002282b3  # add x5, x5, x2
    .word 0x9c82a283  # lw x5, -1592(x5)
    .word 0x00229693  # slli x13, x5, 2
    .word 0x002686b3  # add x13, x13, x2
    .word 0x0bc6a683  # lw x13, 188(x13)
    .word 0x0bcd2703  # lw x14, 188(x26)
    .word 0x40e688b3  # sub x17, x13, x14
    .word 0x41088cb3  # sub x25, x17, x16
    .word 0x00e6b2b3  # sltu x5, x13, x14
    .word 0x0108b333  # sltu x6, x17, x16
    .word 0x00628833  # add x16, x5, x6
    .word 0x00090713  # addi x14, x18, 0
    .word 0x41090933  # sub x18, x18, x16
    .word 0x010736b3  # sltu x13, x14, x16
    .word 0x00098713  # addi x14, x19, 0
    .word 0x40d989b3  # sub x19, x19, x13
    .word 0x00d736b3  # sltu x13, x14, x13
    .word 0x000a0713  # addi x14, x20, 0
    .word 0x40da0a33  # sub x20, x20, x13
    .word 0x00d736b3  # sltu x13, x14, x13
    .word 0x40d806b3  # sub x13, x16, x13
    .word 0x00da8ab3  # add x21, x21, x13
    .word 0x00dab6b3  # sltu x13, x21, x13
    .word 0x00db0b33  # add x22, x22, x13
    .word 0x00db36b3  # sltu x13, x22, x13
    .word 0x00db8bb3  # add x23, x23, x13
    .word 0x00dbb6b3  # sltu x13, x23, x13
    .word 0x010686b3  # add x13, x13, x16
    .word 0x00dc0c33  # add x24, x24, x13
    .word 0x00dc36b3  # sltu x13, x24, x13
    .word 0x00dc82b3  # add x5, x25, x13
    .word 0x41028cb3  # sub x25, x5, x16
    .word 0x0b2da023  # sw x18, 160(x27)
    .word 0x0b3da223  # sw x19, 164(x27)
    .word 0x0b4da423  # sw x20, 168(x27)
    .word 0x0b5da623  # sw x21, 172(x27)
    .word 0x0b6da823  # sw x22, 176(x27)
    .word 0x0b7daa23  # sw x23, 180(x27)
    .word 0x0b8dac23  # sw x24, 184(x27)
    .word 0x0b9dae23  # sw x25, 188(x27)
    .word 0xa20ff06f  # jal x0, -3552
    .word 0x00001e37  # lui x28, 0x00001
    .word 0x002e0e33  # add x28, x28, x2
    .word 0xa00e2423  # sw x0, -1528(x28)
    .word 0x000012b7  # lui x5, 0x00001
    .word 0x002282b3  # add x5, x5, x2
    .word 0x9b02a283  # lw x5, -1616(x5)
    .word 0x0012b293  # sltiu x5, x5, 1
    .word 0x00800313  # addi x6, x0, 8
    .word 0x405002b3  # sub x5, x0, x5
    .word 0x005372b3  # and x5, x6, x5
    .word 0x00001e37  # lui x28, 0x00001
    .word 0x002e0e33  # add x28, x28, x2
    .word 0xa05e2623  # sw x5, -1524(x28)
    .word 0x00001337  # lui x6, 0x00001
    .word 0x00230333  # add x6, x6, x2
    .word 0xa0832303  # lw x6, -1528(x6)
    .word 0x000012b7  # lui x5, 0x00001
    .word 0x002282b3  # add x5, x5, x2
    .word 0xa0c2a283  # lw x5, -1524(x5)
    .word 0x005332b3  # sltu x5, x6, x5
    .word 0x00029463  # bne x5, x0, 8
    .word 0x07c0006f  # jal x0, 124
    .word 0x00001e37  # lui x28, 0x00001
    .word 0x002e0e33  # add x28, x28, x2
    .word 0x9c6e2623  # sw x6, -1588(x28)
    .word 0x00130313  # addi x6, x6, 1
    .word 0x00001e37  # lui x28, 0x00001
    .word 0x002e0e33  # add x28, x28, x2
    .word 0xa06e2423  # sw x6, -1528(x28)
    .word 0x000012b7  # lui x5, 0x00001
    .word 0x002282b3  # add x5, x5, x2
    .word 0x9ac2a283  # lw x5, -1620(x5)
    .word 0x00001337  # lui x6, 0x00001
    .word 0x00230333  # add x6, x6, x2
    .word 0x9cc32303  # lw x6, -1588(x6)
    .word 0x03830313  # addi x6, x6, 56
    .word 0x00231313  # slli x6, x6, 2
    .word 0x00230333  # add x6, x6, x2
    .word 0x0a032303  # lw x6, 160(x6)
    .word 0x000013b7  # lui x7, 0x00001
    .word 0x002383b3  # add x7, x7, x2
    .word 0x9cc3a383  # lw x7, -1588(x7)
    .word 0x04038393  # addi x7, x7, 64
    .word 0x00239393  # slli x7, x7, 2
    .word 0x002383b3  # add x7, x7, x2
    .word 0x0a03a383  # lw x7, 160(x7)
    .word 0x00734333  # xor x6, x6, x7
    .word 0x0062e2b3  # or x5, x5, x6
    .word 0x00001e37  # lui x28, 0x00001
    .word 0x002e0e33  # add x28, x28, x2
    .word 0x9a5e2623  # sw x5, -1620(x28)
    .word 0xf69ff06f  # jal x0, -152
    .word 0x000012b7  # lui x5, 0x00001
    .word 0x002282b3  # add x5, x5, x2
    .word 0x9b02a283  # lw x5, -1616(x5)
    .word 0x0012b293  # sltiu x5, x5, 1
    .word 0x01800313  # addi x6, x0, 24
    .word 0x405002b3  # sub x5, x0, x5
    .word 0x005375b3  # and x11, x6, x5
    .word 0x00259d13  # slli x26, x11, 2
    .word 0x002d0d33  # add x26, x26, x2
    .word 0x00001e37  # lui x28, 0x00001
    .word 0x002e0e33  # add x28, x28, x2
    .word 0xa00e2423  # sw x0, -1528(x28)
    .word 0x000012b7  # lui x5, 0x00001
    .word 0x002282b3  # add x5, x5, x2
    .word 0x9b02a283  # lw x5, -1616(x5)
    .word 0x00f2b293  # sltiu x5, x5, 15
    .word 0x01800313  # addi x6, x0, 24
    .word 0x405002b3  # sub x5, x0, x5
    .word 0x005372b3  # and x5, x6, x5
    .word 0x00001e37  # lui x28, 0x00001
    .word 0x002e0e33  # add x28, x28, x2
    .word 0xa05e2623  # sw x5, -1524(x28)
    .word 0x00001337  # lui x6, 0x00001
    .word 0x00230333  # add x6, x6, x2
    .word 0xa0832303  # lw x6, -1528(x6)
    .word 0x000012b7  # lui x5, 0x00001
    .word 0x002282b3  # add x5, x5, x2
    .word 0xa0c2a283  # lw x5, -1524(x5)
    .word 0x005332b3  # sltu x5, x6, x5
    .word 0x00029463  # bne x5, x0, 8
    .word 0x0a40006f  # jal x0, 164
    .word 0x00001e37  # lui x28, 0x00001
    .word 0x002e0e33  # add x28, x28, x2
    .word 0x9c6e2823  # sw x6, -1584(x28)
    .word 0x00130313  # addi x6, x6, 1
    .word 0x00001e37  # lui x28, 0x00001
    .word 0x002e0e33  # add x28, x28, x2
    .word 0xa06e2423  # sw x6, -1528(x28)
    .word 0x000012b7  # lui x5, 0x00001
    .word 0x002282b3  # add x5, x5, x2
    .word 0x9d02a283  # lw x5, -1584(x5)
    .word 0x000013b7  # lui x7, 0x00001
    .word 0x002383b3  # add x7, x7, x2
    .word 0x9d03a383  # lw x7, -1584(x7)
    .word 0x00758333  # add x6, x11, x7
    .word 0x00231313  # slli x6, x6, 2
    .word 0x00230333  # add x6, x6, x2
    .word 0x0a032303  # lw x6, 160(x6)
    .word 0x00229293  # slli x5, x5, 2
    .word 0x002282b3  # add x5, x5, x2
    .word 0x0a62a023  # sw x6, 160(x5)
    .word 0x000012b7  # lui x5, 0x00001
    .word 0x002282b3  # add x5, x5, x2
    .word 0x9d02a283  # lw x5, -1584(x5)
    .word 0x00429293  # slli x5, x5, 4
    .word 0x00001337  # lui x6, 0x00001
    .word 0x00230333  # add x6, x6, x2
    .word 0x9b032303  # lw x6, -1616(x6)
    .word 0x00130313  # addi x6, x6, 1
    .word 0x00f37313  # andi x6, x6, 15
    .word 0x006282b3  # add x5, x5, x6
    .word 0x00001337  # lui x6, 0x00001
    .word 0x00230333  # add x6, x6, x2
    .word 0x9d032303  # lw x6, -1584(x6)
    .word 0x00231313  # slli x6, x6, 2
    .word 0x00230333  # add x6, x6, x2
    .word 0x0a032303  # lw x6, 160(x6)
    .word 0x00229293  # slli x5, x5, 2
    .word 0x002282b3  # add x5, x5, x2
    .word 0x2c62a023  # sw x6, 704(x5)
    .word 0xf41ff06f  # jal x0, -192
    .word 0x891fe06f  # jal x0, -6000
    .word 0x0e012803  # lw x16, 224(x2)
    .word 0x0e412303  # lw x6, 228(x2)
    .word 0x00686833  # or x16, x16, x6
    .word 0x0e812303  # lw x6, 232(x2)
    .word 0x00686833  # or x16, x16, x6
    .word 0x0ec12303  # lw x6, 236(x2)
    .word 0x00686833  # or x16, x16, x6
    .word 0x0f012303  # lw x6, 240(x2)
    .word 0x00686833  # or x16, x16, x6
    .word 0x0f412303  # lw x6, 244(x2)
    .word 0x00686833  # or x16, x16, x6
    .word 0x0f812303  # lw x6, 248(x2)
    .word 0x00686833  # or x16, x16, x6
    .word 0x0fc12303  # lw x6, 252(x2)
    .word 0x00686833  # or x16, x16, x6
    .word 0x000012b7  # lui x5, 0x00001
    .word 0x002282b3  # add x5, x5, x2
    .word 0x9ac2a283  # lw x5, -1620(x5)
    .word 0x0012b293  # sltiu x5, x5, 1
    .word 0x01003333  # sltu x6, x0, x16
    .word 0x0062f2b3  # and x5, x5, x6
    .word 0x00001e37  # lui x28, 0x00001
    .word 0x002e0e33  # add x28, x28, x2
    .word 0x9c5e2a23  # sw x5, -1580(x28)
    .word 0x000012b7  # lui x5, 0x00001
    .word 0x002282b3  # add x5, x5, x2
    .word 0x9d42a283  # lw x5, -1580(x5)
    .word 0x0a012303  # lw x6, 160(x2)
    .word 0x405002b3  # sub x5, x0, x5
    .word 0x00537833  # and x16, x6, x5
    .word 0xfff00793  # addi x15, x0, -1
    .word 0x00178793  # addi x15, x15, 1
    .word 0x00279d93  # slli x27, x15, 2
    .word 0x002d8db3  # add x27, x27, x2
    .word 0x01f00293  # addi x5, x0, 31
    .word 0x40f282b3  # sub x5, x5, x15
    .word 0x00379393  # slli x7, x15, 3
    .word 0x00785333  # srl x6, x16, x7
    .word 0x002282b3  # add x5, x5, x2
    .word 0x06628023  # sb x6, 96(x5)
    .word 0xffd78293  # addi x5, x15, -3
    .word 0xfc029ce3  # bne x5, x0, -40
    .word 0x000012b7  # lui x5, 0x00001
    .word 0x002282b3  # add x5, x5, x2
    .word 0x9d42a283  # lw x5, -1580(x5)
    .word 0x0a412303  # lw x6, 164(x2)
    .word 0x405002b3  # sub x5, x0, x5
    .word 0x00537833  # and x16, x6, x5
    .word 0xfff00793  # addi x15, x0, -1
    .word 0x00178793  # addi x15, x15, 1
    .word 0x00279d93  # slli x27, x15, 2
    .word 0x002d8db3  # add x27, x27, x2
    .word 0x01b00293  # addi x5, x0, 27
    .word 0x40f282b3  # sub x5, x5, x15
    .word 0x00379393  # slli x7, x15, 3
    .word 0x00785333  # srl x6, x16, x7
    .word 0x002282b3  # add x5, x5, x2
    .word 0x06628023  # sb x6, 96(x5)
    .word 0xffd78293  # addi x5, x15, -3
    .word 0xfc029ce3  # bne x5, x0, -40
    .word 0x000012b7  # lui x5, 0x00001
    .word 0x002282b3  # add x5, x5, x2
    .word 0x9d42a283  # lw x5, -1580(x5)
    .word 0x0a812303  # lw x6, 168(x2)
    .word 0x405002b3  # sub x5, x0, x5
    .word 0x00537833  # and x16, x6, x5
    .word 0xfff00793  # addi x15, x0, -1
    .word 0x00178793  # addi x15, x15, 1
    .word 0x00279d93  # slli x27, x15, 2
    .word 0x002d8db3  # add x27, x27, x2
    .word 0x01700293  # addi x5, x0, 23
    .word 0x40f282b3  # sub x5, x5, x15
    .word 0x00379393  # slli x7, x15, 3
    .word 0x00785333  # srl x6, x16, x7
    .word 0x002282b3  # add x5, x5, x2
    .word 0x06628023  # sb x6, 96(x5)
    .word 0xffd78293  # addi x5, x15, -3
    .word 0xfc029ce3  # bne x5, x0, -40
    .word 0x000012b7  # lui x5, 0x00001
    .word 0x002282b3  # add x5, x5, x2
    .word 0x9d42a283  # lw x5, -1580(x5)
    .word 0x0ac12303  # lw x6, 172(x2)
    .word 0x405002b3  # sub x5, x0, x5
    .word 0x00537833  # and x16, x6, x5
    .word 0xfff00793  # addi x15, x0, -1
    .word 0x00178793  # addi x15, x15, 1
    .word 0x00279d93  # slli x27, x15, 2
    .word 0x002d8db3  # add x27, x27, x2
    .word 0x01300293  # addi x5, x0, 19
    .word 0x40f282b3  # sub x5, x5, x15
    .word 0x00379393  # slli x7, x15, 3
    .word 0x00785333  # srl x6, x16, x7
    .word 0x002282b3  # add x5, x5, x2
    .word 0x06628023  # sb x6, 96(x5)
    .word 0xffd78293  # addi x5, x15, -3
    .word 0xfc029ce3  # bne x5, x0, -40
    .word 0x000012b7  # lui x5, 0x00001
    .word 0x002282b3  # add x5, x5, x2
    .word 0x9d42a283  # lw x5, -1580(x5)
    .word 0x0b012303  # lw x6, 176(x2)
    .word 0x405002b3  # sub x5, x0, x5
    .word 0x00537833  # and x16, x6, x5
    .word 0xfff00793  # addi x15, x0, -1
    .word 0x00178793  # addi x15, x15, 1
    .word 0x00279d93  # slli x27, x15, 2
    .word 0x002d8db3  # add x27, x27, x2
    .word 0x00f00293  # addi x5, x0, 15
    .word 0x40f282b3  # sub x5, x5, x15
    .word 0x00379393  # slli x7, x15, 3
    .word 0x00785333  # srl x6, x16, x7
    .word 0x002282b3  # add x5, x5, x2
    .word 0x06628023  # sb x6, 96(x5)
    .word 0xffd78293  # addi x5, x15, -3
    .word 0xfc029ce3  # bne x5, x0, -40
    .word 0x000012b7  # lui x5, 0x00001
    .word 0x002282b3  # add x5, x5, x2
    .word 0x9d42a283  # lw x5, -1580(x5)
    .word 0x0b412303  # lw x6, 180(x2)
    .word 0x405002b3  # sub x5, x0, x5
    .word 0x00537833  # and x16, x6, x5
    .word 0xfff00793  # addi x15, x0, -1
    .word 0x00178793  # addi x15, x15, 1
    .word 0x00279d93  # slli x27, x15, 2
    .word 0x002d8db3  # add x27, x27, x2
    .word 0x00b00293  # addi x5, x0, 11
    .word 0x40f282b3  # sub x5, x5, x15
    .word 0x00379393  # slli x7, x15, 3
    .word 0x00785333  # srl x6, x16, x7
    .word 0x002282b3  # add x5, x5, x2
    .word 0x06628023  # sb x6, 96(x5)
    .word 0xffd78293  # addi x5, x15, -3
    .word 0xfc029ce3  # bne x5, x0, -40
    .word 0x000012b7  # lui x5, 0x00001
    .word 0x002282b3  # add x5, x5, x2
    .word 0x9d42a283  # lw x5, -1580(x5)
    .word 0x0b812303  # lw x6, 184(x2)
    .word 0x405002b3  # sub x5, x0, x5
    .word 0x00537833  # and x16, x6, x5
    .word 0xfff00793  # addi x15, x0, -1
    .word 0x00178793  # addi x15, x15, 1
    .word 0x00279d93  # slli x27, x15, 2
    .word 0x002d8db3  # add x27, x27, x2
    .word 0x00700293  # addi x5, x0, 7
    .word 0x40f282b3  # sub x5, x5, x15
    .word 0x00379393  # slli x7, x15, 3
    .word 0x00785333  # srl x6, x16, x7
    .word 0x002282b3  # add x5, x5, x2
    .word 0x06628023  # sb x6, 96(x5)
    .word 0xffd78293  # addi x5, x15, -3
    .word 0xfc029ce3  # bne x5, x0, -40
    .word 0x000012b7  # lui x5, 0x00001
    .word 0x002282b3  # add x5, x5, x2
    .word 0x9d42a283  # lw x5, -1580(x5)
    .word 0x0bc12303  # lw x6, 188(x2)
    .word 0x405002b3  # sub x5, x0, x5
    .word 0x00537833  # and x16, x6, x5
    .word 0xfff00793  # addi x15, x0, -1
    .word 0x00178793  # addi x15, x15, 1
    .word 0x00279d93  # slli x27, x15, 2
    .word 0x002d8db3  # add x27, x27, x2
    .word 0x00300293  # addi x5, x0, 3
    .word 0x40f282b3  # sub x5, x5, x15
    .word 0x00379393  # slli x7, x15, 3
    .word 0x00785333  # srl x6, x16, x7
    .word 0x002282b3  # add x5, x5, x2
    .word 0x06628023  # sb x6, 96(x5)
    .word 0xffd78293  # addi x5, x15, -3
    .word 0xfc029ce3  # bne x5, x0, -40
    .word 0x000012b7  # lui x5, 0x00001
    .word 0x002282b3  # add x5, x5, x2
    .word 0x9d42a283  # lw x5, -1580(x5)
    .word 0x0c012303  # lw x6, 192(x2)
    .word 0x405002b3  # sub x5, x0, x5
    .word 0x00537833  # and x16, x6, x5
    .word 0xfff00793  # addi x15, x0, -1
    .word 0x00178793  # addi x15, x15, 1
    .word 0x00279d93  # slli x27, x15, 2
    .word 0x002d8db3  # add x27, x27, x2
    .word 0x03f00293  # addi x5, x0, 63
    .word 0x40f282b3  # sub x5, x5, x15
    .word 0x00379393  # slli x7, x15, 3
    .word 0x00785333  # srl x6, x16, x7
    .word 0x002282b3  # add x5, x5, x2
    .word 0x06628023  # sb x6, 96(x5)
    .word 0xffd78293  # addi x5, x15, -3
    .word 0xfc029ce3  # bne x5, x0, -40
    .word 0x000012b7  # lui x5, 0x00001
    .word 0x002282b3  # add x5, x5, x2
    .word 0x9d42a283  # lw x5, -1580(x5)
    .word 0x0c412303  # lw x6, 196(x2)
    .word 0x405002b3  # sub x5, x0, x5
    .word 0x00537833  # and x16, x6, x5
    .word 0xfff00793  # addi x15, x0, -1
    .word 0x00178793  # addi x15, x15, 1
    .word 0x00279d93  # slli x27, x15, 2
    .word 0x002d8db3  # add x27, x27, x2
    .word 0x03b00293  # addi x5, x0, 59
    .word 0x40f282b3  # sub x5, x5, x15
    .word 0x00379393  # slli x7, x15, 3
    .word 0x00785333  # srl x6, x16, x7
    .word 0x002282b3  # add x5, x5, x2
    .word 0x06628023  # sb x6, 96(x5)
    .word 0xffd78293  # addi x5, x15, -3
    .word 0xfc029ce3  # bne x5, x0, -40
    .word 0x000012b7  # lui x5, 0x00001
    .word 0x002282b3  # add x5, x5, x2
    .word 0x9d42a283  # lw x5, -1580(x5)
    .word 0x0c812303  # lw x6, 200(x2)
    .word 0x405002b3  # sub x5, x0, x5
    .word 0x00537833  # and x16, x6, x5
    .word 0xfff00793  # addi x15, x0, -1
    .word 0x00178793  # addi x15, x15, 1
    .word 0x00279d93  # slli x27, x15, 2
    .word 0x002d8db3  # add x27, x27, x2
    .word 0x03700293  # addi x5, x0, 55
    .word 0x40f282b3  # sub x5, x5, x15
    .word 0x00379393  # slli x7, x15, 3
    .word 0x00785333  # srl x6, x16, x7
    .word 0x002282b3  # add x5, x5, x2
    .word 0x06628023  # sb x6, 96(x5)
    .word 0xffd78293  # addi x5, x15, -3
    .word 0xfc029ce3  # bne x5, x0, -40
    .word 0x000012b7  # lui x5, 0x00001
    .word 0x002282b3  # add x5, x5, x2
    .word 0x9d42a283  # lw x5, -1580(x5)
    .word 0x0cc12303  # lw x6, 204(x2)
    .word 0x405002b3  # sub x5, x0, x5
    .word 0x00537833  # and x16, x6, x5
    .word 0xfff00793  # addi x15, x0, -1
    .word 0x00178793  # addi x15, x15, 1
    .word 0x00279d93  # slli x27, x15, 2
    .word 0x002d8db3  # add x27, x27, x2
    .word 0x03300293  # addi x5, x0, 51
    .word 0x40f282b3  # sub x5, x5, x15
    .word 0x00379393  # slli x7, x15, 3
    .word 0x00785333  # srl x6, x16, x7
    .word 0x002282b3  # add x5, x5, x2
    .word 0x06628023  # sb x6, 96(x5)
    .word 0xffd78293  # addi x5, x15, -3
    .word 0xfc029ce3  # bne x5, x0, -40
    .word 0x000012b7  # lui x5, 0x00001
    .word 0x002282b3  # add x5, x5, x2
    .word 0x9d42a283  # lw x5, -1580(x5)
    .word 0x0d012303  # lw x6, 208(x2)
    .word 0x405002b3  # sub x5, x0, x5
    .word 0x00537833  # and x16, x6, x5
    .word 0xfff00793  # addi x15, x0, -1
    .word 0x00178793  # addi x15, x15, 1
    .word 0x00279d93  # slli x27, x15, 2
    .word 0x002d8db3  # add x27, x27, x2
    .word 0x02f00293  # addi x5, x0, 47
    .word 0x40f282b3  # sub x5, x5, x15
    .word 0x00379393  # slli x7, x15, 3
    .word 0x00785333  # srl x6, x16, x7
    .word 0x002282b3  # add x5, x5, x2
    .word 0x06628023  # sb x6, 96(x5)
    .word 0xffd78293  # addi x5, x15, -3
    .word 0xfc029ce3  # bne x5, x0, -40
    .word 0x000012b7  # lui x5, 0x00001
    .word 0x002282b3  # add x5, x5, x2
    .word 0x9d42a283  # lw x5, -1580(x5)
    .word 0x0d412303  # lw x6, 212(x2)
    .word 0x405002b3  # sub x5, x0, x5
    .word 0x00537833  # and x16, x6, x5
    .word 0xfff00793  # addi x15, x0, -1
    .word 0x00178793  # addi x15, x15, 1
    .word 0x00279d93  # slli x27, x15, 2
    .word 0x002d8db3  # add x27, x27, x2
    .word 0x02b00293  # addi x5, x0, 43
    .word 0x40f282b3  # sub x5, x5, x15
    .word 0x00379393  # slli x7, x15, 3
    .word 0x00785333  # srl x6, x16, x7
    .word 0x002282b3  # add x5, x5, x2
    .word 0x06628023  # sb x6, 96(x5)
    .word 0xffd78293  # addi x5, x15, -3
    .word 0xfc029ce3  # bne x5, x0, -40
    .word 0x000012b7  # lui x5, 0x00001
    .word 0x002282b3  # add x5, x5, x2
    .word 0x9d42a283  # lw x5, -1580(x5)
    .word 0x0d812303  # lw x6, 216(x2)
    .word 0x405002b3  # sub x5, x0, x5
    .word 0x00537833  # and x16, x6, x5
    .word 0xfff00793  # addi x15, x0, -1
    .word 0x00178793  # addi x15, x15, 1
    .word 0x00279d93  # slli x27, x15, 2
    .word 0x002d8db3  # add x27, x27, x2
    .word 0x02700293  # addi x5, x0, 39
    .word 0x40f282b3  # sub x5, x5, x15
    .word 0x00379393  # slli x7, x15, 3
    .word 0x00785333  # srl x6, x16, x7
    .word 0x002282b3  # add x5, x5, x2
    .word 0x06628023  # sb x6, 96(x5)
    .word 0xffd78293  # addi x5, x15, -3
    .word 0xfc029ce3  # bne x5, x0, -40
    .word 0x000012b7  # lui x5, 0x00001
    .word 0x002282b3  # add x5, x5, x2
    .word 0x9d42a283  # lw x5, -1580(x5)
    .word 0x0dc12303  # lw x6, 220(x2)
    .word 0x405002b3  # sub x5, x0, x5
    .word 0x00537833  # and x16, x6, x5
    .word 0xfff00793  # addi x15, x0, -1
    .word 0x00178793  # addi x15, x15, 1
    .word 0x00279d93  # slli x27, x15, 2
    .word 0x002d8db3  # add x27, x27, x2
    .word 0x02300293  # addi x5, x0, 35
    .word 0x40f282b3  # sub x5, x5, x15
    .word 0x00379393  # slli x7, x15, 3
    .word 0x00785333  # srl x6, x16, x7
    .word 0x002282b3  # add x5, x5, x2
    .word 0x06628023  # sb x6, 96(x5)
    .word 0xffd78293  # addi x5, x15, -3
    .word 0xfc029ce3  # bne x5, x0, -40
    .word 0x000012b7  # lui x5, 0x00001
    .word 0x002282b3  # add x5, x5, x2
    .word 0x9d42a283  # lw x5, -1580(x5)
    .word 0x00001e37  # lui x28, 0x00001
    .word 0x002e0e33  # add x28, x28, x2
    .word 0x9e5e2e23  # sw x5, -1540(x28)
    # the result
    .word 0x00001537  # lui x10, 0x00001
    .word 0x00250533  # add x10, x10, x2
    .word 0x9fc52503  # lw x10, -1540(x10)
    # parameter 2: the array, back
    .word 0x06010293  # addi x5, x2, 96
    .word 0x00001337  # lui x6, 0x00001
    .word 0x00230333  # add x6, x6, x2
    .word 0xa5c32303  # lw x6, -1444(x6)
    .word 0x04028393  # addi x7, x5, 64
    .word 0x09800f6f  # jal x30, 152
    # above the frame
    .word 0x000012b7  # lui x5, 0x00001
    .word 0xa2028293  # addi x5, x5, -1504
    .word 0x002282b3  # add x5, x5, x2
    # the caller's registers
    .word 0x0002a403  # lw x8, 0(x5)
    .cfi_restore 8
    .word 0x0042a483  # lw x9, 4(x5)
    .cfi_restore 9
    .word 0x0082a903  # lw x18, 8(x5)
    .cfi_restore 18
    .word 0x00c2a983  # lw x19, 12(x5)
    .cfi_restore 19
    .word 0x0102aa03  # lw x20, 16(x5)
    .cfi_restore 20
    .word 0x0142aa83  # lw x21, 20(x5)
    .cfi_restore 21
    .word 0x0182ab03  # lw x22, 24(x5)
    .cfi_restore 22
    .word 0x01c2ab83  # lw x23, 28(x5)
    .cfi_restore 23
    .word 0x0202ac03  # lw x24, 32(x5)
    .cfi_restore 24
    .word 0x0242ac83  # lw x25, 36(x5)
    .cfi_restore 25
    .word 0x0282ad03  # lw x26, 40(x5)
    .cfi_restore 26
    .word 0x02c2ad83  # lw x27, 44(x5)
    .cfi_restore 27
    # the caller's x2
    .word 0x04028293  # addi x5, x5, 64
    .cfi_def_cfa 5, 0
    # all the room, wiped upward
    .word 0x00012023  # sw x0, 0(x2)
    .word 0x00012223  # sw x0, 4(x2)
    .word 0x00012423  # sw x0, 8(x2)
    .word 0x00012623  # sw x0, 12(x2)
    .word 0x01010113  # addi x2, x2, 16
    .word 0xfe5116e3  # bne x2, x5, -20
    .cfi_def_cfa 2, 0
    # temporaries, wiped
    .word 0x00000293  # addi x5, x0, 0
    .word 0x00000313  # addi x6, x0, 0
    .word 0x00000393  # addi x7, x0, 0
    .word 0x00000593  # addi x11, x0, 0
    .word 0x00000613  # addi x12, x0, 0
    .word 0x00000693  # addi x13, x0, 0
    .word 0x00000713  # addi x14, x0, 0
    .word 0x00000793  # addi x15, x0, 0
    .word 0x00000813  # addi x16, x0, 0
    .word 0x00000893  # addi x17, x0, 0
    .word 0x00000e13  # addi x28, x0, 0
    .word 0x00000e93  # addi x29, x0, 0
    .word 0x00000f13  # addi x30, x0, 0
    .word 0x00000f93  # addi x31, x0, 0
    # back
    .word 0x00008067  # jalr x0, 0(x1)
    # from x5 to x6 up to x7, and back
    .cfi_def_cfa 2, 2656
    .cfi_offset 8, -64
    .cfi_offset 9, -60
    .cfi_offset 18, -56
    .cfi_offset 19, -52
    .cfi_offset 20, -48
    .cfi_offset 21, -44
    .cfi_offset 22, -40
    .cfi_offset 23, -36
    .cfi_offset 24, -32
    .cfi_offset 25, -28
    .cfi_offset 26, -24
    .cfi_offset 27, -20
    .word 0x0062ee33  # or x28, x5, x6
    .word 0x003e7e13  # andi x28, x28, 3
    .word 0x000e0e63  # beq x28, x0, 28
    .word 0x0002ce03  # lbu x28, 0(x5)
    .word 0x01c30023  # sb x28, 0(x6)
    .word 0x00128293  # addi x5, x5, 1
    .word 0x00130313  # addi x6, x6, 1
    .word 0xfe7298e3  # bne x5, x7, -16
    .word 0x0300006f  # jal x0, 48
    .word 0x0002ae03  # lw x28, 0(x5)
    .word 0x01c32023  # sw x28, 0(x6)
    .word 0x0042ae03  # lw x28, 4(x5)
    .word 0x01c32223  # sw x28, 4(x6)
    .word 0x0082ae03  # lw x28, 8(x5)
    .word 0x01c32423  # sw x28, 8(x6)
    .word 0x00c2ae03  # lw x28, 12(x5)
    .word 0x01c32623  # sw x28, 12(x6)
    .word 0x01028293  # addi x5, x5, 16
    .word 0x01030313  # addi x6, x6, 16
    .word 0xfc729ce3  # bne x5, x7, -40
    .word 0x000f0067  # jalr x0, 0(x30)
    .cfi_endproc
    .size p256_scalar_multiply, . - p256_scalar_multiply
    .option pop
