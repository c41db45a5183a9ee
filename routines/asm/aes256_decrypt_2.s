# aes256_decrypt_2: made by factc 1.0.0 function; 802 words, 656 bytes of stack, profile 1
    .option push
    .option norvc
    .option norelax
    .cfi_sections .debug_frame
    .section .text.aes256_decrypt_2, "ax", @progbits
    .p2align 2
    .globl aes256_decrypt_2
    .type aes256_decrypt_2, @function
aes256_decrypt_2:
    .cfi_startproc
    # room above the frame
    .word 0xfc010113  # addi x2, x2, -64
    .cfi_def_cfa_offset 64
    # the caller's registers
    .word 0x00812023  # sw x8, 0(x2)
    .cfi_offset 8, -64
    .word 0x00912223  # sw x9, 4(x2)
    .cfi_offset 9, -60
    .word 0x01212423  # sw x18, 8(x2)
    .cfi_offset 18, -56
    .word 0x01312623  # sw x19, 12(x2)
    .cfi_offset 19, -52
    .word 0x01412823  # sw x20, 16(x2)
    .cfi_offset 20, -48
    .word 0x01512a23  # sw x21, 20(x2)
    .cfi_offset 21, -44
    .word 0x01612c23  # sw x22, 24(x2)
    .cfi_offset 22, -40
    .word 0x01712e23  # sw x23, 28(x2)
    .cfi_offset 23, -36
    .word 0x03812023  # sw x24, 32(x2)
    .cfi_offset 24, -32
    .word 0x03912223  # sw x25, 36(x2)
    .cfi_offset 25, -28
    .word 0x03a12423  # sw x26, 40(x2)
    .cfi_offset 26, -24
    .word 0x03b12623  # sw x27, 44(x2)
    .cfi_offset 27, -20
    # arguments that are needed behind the body
    .word 0x02a12c23  # sw x10, 56(x2)
    .word 0x02b12e23  # sw x11, 60(x2)
    # the frame's base
    .word 0xdb010113  # addi x2, x2, -592
    .cfi_def_cfa 2, 656
    # parameter 0: an array
    .word 0x00050293  # addi x5, x10, 0
    .word 0x00010313  # addi x6, x2, 0
    .word 0x1e028393  # addi x7, x5, 480
    .word 0x3e900f6f  # jal x30, 3048
    # parameter 1: an array
    .word 0x00058293  # addi x5, x11, 0
    .word 0x1e010313  # addi x6, x2, 480
    .word 0x02028393  # addi x7, x5, 32
    .word 0x3d900f6f  # jal x30, 3032
    # the body
    .word 0x555552b7  # lui x5, 0x55555
    .word 0x55528293  # addi x5, x5, 1365
    .word 0x22512623  # sw x5, 556(x2)
    .word 0x333332b7  # lui x5, 0x33333
    .word 0x33328293  # addi x5, x5, 819
    .word 0x22512823  # sw x5, 560(x2)
    .word 0x0f0f12b7  # lui x5, 0x0f0f1
    .word 0xf0f28293  # addi x5, x5, -241
    .word 0x22512a23  # sw x5, 564(x2)
    .word 0x030f12b7  # lui x5, 0x030f1
    .word 0xc0028293  # addi x5, x5, -1024
    .word 0x22512c23  # sw x5, 568(x2)
    .word 0x330032b7  # lui x5, 0x33003
    .word 0x30028293  # addi x5, x5, 768
    .word 0x22512e23  # sw x5, 572(x2)
    .word 0x1e012b03  # lw x22, 480(x2)
    .word 0x1f012b83  # lw x23, 496(x2)
    .word 0x1e412c03  # lw x24, 484(x2)
    .word 0x1f412c83  # lw x25, 500(x2)
    .word 0x1e812d03  # lw x26, 488(x2)
    .word 0x1f812d83  # lw x27, 504(x2)
    .word 0x1ec12403  # lw x8, 492(x2)
    .word 0x1fc12483  # lw x9, 508(x2)
    .word 0x001b5293  # srli x5, x22, 1
    .word 0x0172c2b3  # xor x5, x5, x23
    .word 0x22c12303  # lw x6, 556(x2)
    .word 0x0062f533  # and x10, x5, x6
    .word 0x00abcbb3  # xor x23, x23, x10
    .word 0x00151313  # slli x6, x10, 1
    .word 0x006b4b33  # xor x22, x22, x6
    .word 0x001c5293  # srli x5, x24, 1
    .word 0x0192c2b3  # xor x5, x5, x25
    .word 0x22c12303  # lw x6, 556(x2)
    .word 0x0062f533  # and x10, x5, x6
    .word 0x00acccb3  # xor x25, x25, x10
    .word 0x00151313  # slli x6, x10, 1
    .word 0x006c4c33  # xor x24, x24, x6
    .word 0x001d5293  # srli x5, x26, 1
    .word 0x01b2c2b3  # xor x5, x5, x27
    .word 0x22c12303  # lw x6, 556(x2)
    .word 0x0062f533  # and x10, x5, x6
    .word 0x00adcdb3  # xor x27, x27, x10
    .word 0x00151313  # slli x6, x10, 1
    .word 0x006d4d33  # xor x26, x26, x6
    .word 0x00145293  # srli x5, x8, 1
    .word 0x0092c2b3  # xor x5, x5, x9
    .word 0x22c12303  # lw x6, 556(x2)
    .word 0x0062f533  # and x10, x5, x6
    .word 0x00a4c4b3  # xor x9, x9, x10
    .word 0x00151313  # slli x6, x10, 1
    .word 0x00644433  # xor x8, x8, x6
    .word 0x002b5293  # srli x5, x22, 2
    .word 0x0182c2b3  # xor x5, x5, x24
    .word 0x23012303  # lw x6, 560(x2)
    .word 0x0062f533  # and x10, x5, x6
    .word 0x00ac4c33  # xor x24, x24, x10
    .word 0x00251313  # slli x6, x10, 2
    .word 0x006b4b33  # xor x22, x22, x6
    .word 0x002bd293  # srli x5, x23, 2
    .word 0x0192c2b3  # xor x5, x5, x25
    .word 0x23012303  # lw x6, 560(x2)
    .word 0x0062f533  # and x10, x5, x6
    .word 0x00acccb3  # xor x25, x25, x10
    .word 0x00251313  # slli x6, x10, 2
    .word 0x006bcbb3  # xor x23, x23, x6
    .word 0x002d5293  # srli x5, x26, 2
    .word 0x0082c2b3  # xor x5, x5, x8
    .word 0x23012303  # lw x6, 560(x2)
    .word 0x0062f533  # and x10, x5, x6
    .word 0x00a44433  # xor x8, x8, x10
    .word 0x00251313  # slli x6, x10, 2
    .word 0x006d4d33  # xor x26, x26, x6
    .word 0x002dd293  # srli x5, x27, 2
    .word 0x0092c2b3  # xor x5, x5, x9
    .word 0x23012303  # lw x6, 560(x2)
    .word 0x0062f533  # and x10, x5, x6
    .word 0x00a4c4b3  # xor x9, x9, x10
    .word 0x00251313  # slli x6, x10, 2
    .word 0x006dcdb3  # xor x27, x27, x6
    .word 0x004b5293  # srli x5, x22, 4
    .word 0x01a2c2b3  # xor x5, x5, x26
    .word 0x23412303  # lw x6, 564(x2)
    .word 0x0062f533  # and x10, x5, x6
    .word 0x00ad4d33  # xor x26, x26, x10
    .word 0x00451313  # slli x6, x10, 4
    .word 0x006b4b33  # xor x22, x22, x6
    .word 0x004bd293  # srli x5, x23, 4
    .word 0x01b2c2b3  # xor x5, x5, x27
    .word 0x23412303  # lw x6, 564(x2)
    .word 0x0062f533  # and x10, x5, x6
    .word 0x00adcdb3  # xor x27, x27, x10
    .word 0x00451313  # slli x6, x10, 4
    .word 0x006bcbb3  # xor x23, x23, x6
    .word 0x004c5293  # srli x5, x24, 4
    .word 0x0082c2b3  # xor x5, x5, x8
    .word 0x23412303  # lw x6, 564(x2)
    .word 0x0062f533  # and x10, x5, x6
    .word 0x00a44433  # xor x8, x8, x10
    .word 0x00451313  # slli x6, x10, 4
    .word 0x006c4c33  # xor x24, x24, x6
    .word 0x004cd293  # srli x5, x25, 4
    .word 0x0092c2b3  # xor x5, x5, x9
    .word 0x23412303  # lw x6, 564(x2)
    .word 0x0062f533  # and x10, x5, x6
    .word 0x00a4c4b3  # xor x9, x9, x10
    .word 0x00451313  # slli x6, x10, 4
    .word 0x006cccb3  # xor x25, x25, x6
    .word 0x1c012303  # lw x6, 448(x2)
    .word 0x006b4b33  # xor x22, x22, x6
    .word 0x1c412303  # lw x6, 452(x2)
    .word 0x006bcbb3  # xor x23, x23, x6
    .word 0x1c812303  # lw x6, 456(x2)
    .word 0x006c4c33  # xor x24, x24, x6
    .word 0x1cc12303  # lw x6, 460(x2)
    .word 0x006cccb3  # xor x25, x25, x6
    .word 0x1d012303  # lw x6, 464(x2)
    .word 0x006d4d33  # xor x26, x26, x6
    .word 0x1d412303  # lw x6, 468(x2)
    .word 0x006dcdb3  # xor x27, x27, x6
    .word 0x1d812303  # lw x6, 472(x2)
    .word 0x00644433  # xor x8, x8, x6
    .word 0x1dc12303  # lw x6, 476(x2)
    .word 0x0064c4b3  # xor x9, x9, x6
    .word 0x24012223  # sw x0, 580(x2)
    .word 0x00e00293  # addi x5, x0, 14
    .word 0x24512423  # sw x5, 584(x2)
    .word 0x24412303  # lw x6, 580(x2)
    .word 0x24812283  # lw x5, 584(x2)
    .word 0x005332b3  # sltu x5, x6, x5
    .word 0x00029463  # bne x5, x0, 8
    .word 0x7bc0006f  # jal x0, 1980
    .word 0x22612423  # sw x6, 552(x2)
    .word 0x00130313  # addi x6, x6, 1
    .word 0x24612223  # sw x6, 580(x2)
    .word 0x004b5313  # srli x6, x22, 4
    .word 0x006b42b3  # xor x5, x22, x6
    .word 0x23812303  # lw x6, 568(x2)
    .word 0x0062f533  # and x10, x5, x6
    .word 0x00ab42b3  # xor x5, x22, x10
    .word 0x00451313  # slli x6, x10, 4
    .word 0x0062c533  # xor x10, x5, x6
    .word 0x00255313  # srli x6, x10, 2
    .word 0x006542b3  # xor x5, x10, x6
    .word 0x23c12303  # lw x6, 572(x2)
    .word 0x0062f5b3  # and x11, x5, x6
    .word 0x00b542b3  # xor x5, x10, x11
    .word 0x00259313  # slli x6, x11, 2
    .word 0x0062cb33  # xor x22, x5, x6
    .word 0x004bd313  # srli x6, x23, 4
    .word 0x006bc2b3  # xor x5, x23, x6
    .word 0x23812303  # lw x6, 568(x2)
    .word 0x0062f533  # and x10, x5, x6
    .word 0x00abc2b3  # xor x5, x23, x10
    .word 0x00451313  # slli x6, x10, 4
    .word 0x0062c533  # xor x10, x5, x6
    .word 0x00255313  # srli x6, x10, 2
    .word 0x006542b3  # xor x5, x10, x6
    .word 0x23c12303  # lw x6, 572(x2)
    .word 0x0062f5b3  # and x11, x5, x6
    .word 0x00b542b3  # xor x5, x10, x11
    .word 0x00259313  # slli x6, x11, 2
    .word 0x0062cbb3  # xor x23, x5, x6
    .word 0x004c5313  # srli x6, x24, 4
    .word 0x006c42b3  # xor x5, x24, x6
    .word 0x23812303  # lw x6, 568(x2)
    .word 0x0062f533  # and x10, x5, x6
    .word 0x00ac42b3  # xor x5, x24, x10
    .word 0x00451313  # slli x6, x10, 4
    .word 0x0062c533  # xor x10, x5, x6
    .word 0x00255313  # srli x6, x10, 2
    .word 0x006542b3  # xor x5, x10, x6
    .word 0x23c12303  # lw x6, 572(x2)
    .word 0x0062f5b3  # and x11, x5, x6
    .word 0x00b542b3  # xor x5, x10, x11
    .word 0x00259313  # slli x6, x11, 2
    .word 0x0062cc33  # xor x24, x5, x6
    .word 0x004cd313  # srli x6, x25, 4
    .word 0x006cc2b3  # xor x5, x25, x6
    .word 0x23812303  # lw x6, 568(x2)
    .word 0x0062f533  # and x10, x5, x6
    .word 0x00acc2b3  # xor x5, x25, x10
    .word 0x00451313  # slli x6, x10, 4
    .word 0x0062c533  # xor x10, x5, x6
    .word 0x00255313  # srli x6, x10, 2
    .word 0x006542b3  # xor x5, x10, x6
    .word 0x23c12303  # lw x6, 572(x2)
    .word 0x0062f5b3  # and x11, x5, x6
    .word 0x00b542b3  # xor x5, x10, x11
    .word 0x00259313  # slli x6, x11, 2
    .word 0x0062ccb3  # xor x25, x5, x6
    .word 0x004d5313  # srli x6, x26, 4
    .word 0x006d42b3  # xor x5, x26, x6
    .word 0x23812303  # lw x6, 568(x2)
    .word 0x0062f533  # and x10, x5, x6
    .word 0x00ad42b3  # xor x5, x26, x10
    .word 0x00451313  # slli x6, x10, 4
    .word 0x0062c533  # xor x10, x5, x6
    .word 0x00255313  # srli x6, x10, 2
    .word 0x006542b3  # xor x5, x10, x6
    .word 0x23c12303  # lw x6, 572(x2)
    .word 0x0062f5b3  # and x11, x5, x6
    .word 0x00b542b3  # xor x5, x10, x11
    .word 0x00259313  # slli x6, x11, 2
    .word 0x0062cd33  # xor x26, x5, x6
    .word 0x004dd313  # srli x6, x27, 4
    .word 0x006dc2b3  # xor x5, x27, x6
    .word 0x23812303  # lw x6, 568(x2)
    .word 0x0062f533  # and x10, x5, x6
    .word 0x00adc2b3  # xor x5, x27, x10
    .word 0x00451313  # slli x6, x10, 4
    .word 0x0062c533  # xor x10, x5, x6
    .word 0x00255313  # srli x6, x10, 2
    .word 0x006542b3  # xor x5, x10, x6
    .word 0x23c12303  # lw x6, 572(x2)
    .word 0x0062f5b3  # and x11, x5, x6
    .word 0x00b542b3  # xor x5, x10, x11
    .word 0x00259313  # slli x6, x11, 2
    .word 0x0062cdb3  # xor x27, x5, x6
    .word 0x00445313  # srli x6, x8, 4
    .word 0x006442b3  # xor x5, x8, x6
    .word 0x23812303  # lw x6, 568(x2)
    .word 0x0062f533  # and x10, x5, x6
    .word 0x00a442b3  # xor x5, x8, x10
    .word 0x00451313  # slli x6, x10, 4
    .word 0x0062c533  # xor x10, x5, x6
    .word 0x00255313  # srli x6, x10, 2
    .word 0x006542b3  # xor x5, x10, x6
    .word 0x23c12303  # lw x6, 572(x2)
    .word 0x0062f5b3  # and x11, x5, x6
    .word 0x00b542b3  # xor x5, x10, x11
    .word 0x00259313  # slli x6, x11, 2
    .word 0x0062c433  # xor x8, x5, x6
    .word 0x0044d313  # srli x6, x9, 4
    .word 0x0064c2b3  # xor x5, x9, x6
    .word 0x23812303  # lw x6, 568(x2)
    .word 0x0062f533  # and x10, x5, x6
    .word 0x00a4c2b3  # xor x5, x9, x10
    .word 0x00451313  # slli x6, x10, 4
    .word 0x0062c533  # xor x10, x5, x6
    .word 0x00255313  # srli x6, x10, 2
    .word 0x006542b3  # xor x5, x10, x6
    .word 0x23c12303  # lw x6, 572(x2)
    .word 0x0062f5b3  # and x11, x5, x6
    .word 0x00b542b3  # xor x5, x10, x11
    .word 0x00259313  # slli x6, x11, 2
    .word 0x0062c4b3  # xor x9, x5, x6
    .word 0xfffb4513  # xori x10, x22, -1
    .word 0xfffbcb13  # xori x22, x23, -1
    .word 0x000c0793  # addi x15, x24, 0
    .word 0x000c8613  # addi x12, x25, 0
    .word 0x000d0713  # addi x14, x26, 0
    .word 0xfffdc593  # xori x11, x27, -1
    .word 0xfff44b93  # xori x23, x8, -1
    .word 0x00048693  # addi x13, x9, 0
    .word 0x01ab42b3  # xor x5, x22, x26
    .word 0x0172c4b3  # xor x9, x5, x23
    .word 0x019542b3  # xor x5, x10, x25
    .word 0x00b2c433  # xor x8, x5, x11
    .word 0x0186c2b3  # xor x5, x13, x24
    .word 0x01a2cdb3  # xor x27, x5, x26
    .word 0x016bc2b3  # xor x5, x23, x22
    .word 0x0192cd33  # xor x26, x5, x25
    .word 0x00a5c2b3  # xor x5, x11, x10
    .word 0x0182ccb3  # xor x25, x5, x24
    .word 0x00d742b3  # xor x5, x14, x13
    .word 0x0162cc33  # xor x24, x5, x22
    .word 0x017642b3  # xor x5, x12, x23
    .word 0x00a2cbb3  # xor x23, x5, x10
    .word 0x00b7c2b3  # xor x5, x15, x11
    .word 0x00d2cb33  # xor x22, x5, x13
    .word 0x018d4633  # xor x12, x26, x24
    .word 0x0174c6b3  # xor x13, x9, x23
    .word 0x01a4c733  # xor x14, x9, x26
    .word 0x0184c7b3  # xor x15, x9, x24
    .word 0x01b44533  # xor x10, x8, x27
    .word 0x016545b3  # xor x11, x10, x22
    .word 0x01a5c2b3  # xor x5, x11, x26
    .word 0x20512023  # sw x5, 512(x2)
    .word 0x00c6c833  # xor x16, x13, x12
    .word 0x0095c2b3  # xor x5, x11, x9
    .word 0x20512223  # sw x5, 516(x2)
    .word 0x0175c8b3  # xor x17, x11, x23
    .word 0x00f8c2b3  # xor x5, x17, x15
    .word 0x20512423  # sw x5, 520(x2)
    .word 0x010ccd33  # xor x26, x25, x16
    .word 0x018d4cb3  # xor x25, x26, x24
    .word 0x008d4d33  # xor x26, x26, x8
    .word 0x016cc2b3  # xor x5, x25, x22
    .word 0x20512623  # sw x5, 524(x2)
    .word 0x00accbb3  # xor x23, x25, x10
    .word 0x00ed4c33  # xor x24, x26, x14
    .word 0x018b42b3  # xor x5, x22, x24
    .word 0x20512823  # sw x5, 528(x2)
    .word 0x018bc2b3  # xor x5, x23, x24
    .word 0x20512a23  # sw x5, 532(x2)
    .word 0x00fbcdb3  # xor x27, x23, x15
    .word 0x01854433  # xor x8, x10, x24
    .word 0x0086c9b3  # xor x19, x13, x8
    .word 0x0084ca33  # xor x20, x9, x8
    .word 0x01987533  # and x10, x16, x25
    .word 0x20812283  # lw x5, 520(x2)
    .word 0x20c12303  # lw x6, 524(x2)
    .word 0x0062f4b3  # and x9, x5, x6
    .word 0x00a4c933  # xor x18, x9, x10
    .word 0x20012283  # lw x5, 512(x2)
    .word 0x0162f4b3  # and x9, x5, x22
    .word 0x00a4cab3  # xor x21, x9, x10
    .word 0x0086f533  # and x10, x13, x8
    .word 0x00b8f4b3  # and x9, x17, x11
    .word 0x00a4c2b3  # xor x5, x9, x10
    .word 0x22512023  # sw x5, 544(x2)
    .word 0x20412283  # lw x5, 516(x2)
    .word 0x21012303  # lw x6, 528(x2)
    .word 0x0062f4b3  # and x9, x5, x6
    .word 0x00a4c2b3  # xor x5, x9, x10
    .word 0x20512c23  # sw x5, 536(x2)
    .word 0x01877533  # and x10, x14, x24
    .word 0x21412303  # lw x6, 532(x2)
    .word 0x006674b3  # and x9, x12, x6
    .word 0x00a4c4b3  # xor x9, x9, x10
    .word 0x0177f2b3  # and x5, x15, x23
    .word 0x20512e23  # sw x5, 540(x2)
    .word 0x21c12283  # lw x5, 540(x2)
    .word 0x00a2c533  # xor x10, x5, x10
    .word 0x00994933  # xor x18, x18, x9
    .word 0x00aacab3  # xor x21, x21, x10
    .word 0x22012283  # lw x5, 544(x2)
    .word 0x0092c4b3  # xor x9, x5, x9
    .word 0x21812283  # lw x5, 536(x2)
    .word 0x00a2c2b3  # xor x5, x5, x10
    .word 0x22512023  # sw x5, 544(x2)
    .word 0x01a94d33  # xor x26, x18, x26
    .word 0x01bac533  # xor x10, x21, x27
    .word 0x0134cdb3  # xor x27, x9, x19
    .word 0x22012283  # lw x5, 544(x2)
    .word 0x0142c4b3  # xor x9, x5, x20
    .word 0x00ad4a33  # xor x20, x26, x10
    .word 0x01bd7933  # and x18, x26, x27
    .word 0x0124c9b3  # xor x19, x9, x18
    .word 0x013a7d33  # and x26, x20, x19
    .word 0x00ad4d33  # xor x26, x26, x10
    .word 0x009dcab3  # xor x21, x27, x9
    .word 0x01254533  # xor x10, x10, x18
    .word 0x01557533  # and x10, x10, x21
    .word 0x00954533  # xor x10, x10, x9
    .word 0x00adc933  # xor x18, x27, x10
    .word 0x00a9cdb3  # xor x27, x19, x10
    .word 0x01b4fdb3  # and x27, x9, x27
    .word 0x012dc4b3  # xor x9, x27, x18
    .word 0x01b9cdb3  # xor x27, x19, x27
    .word 0x01bd7db3  # and x27, x26, x27
    .word 0x01ba4db3  # xor x27, x20, x27
    .word 0x009dc9b3  # xor x19, x27, x9
    .word 0x00ad4a33  # xor x20, x26, x10
    .word 0x01bd4933  # xor x18, x26, x27
    .word 0x00954ab3  # xor x21, x10, x9
    .word 0x013a42b3  # xor x5, x20, x19
    .word 0x22512023  # sw x5, 544(x2)
    .word 0x019af2b3  # and x5, x21, x25
    .word 0x20512c23  # sw x5, 536(x2)
    .word 0x20c12303  # lw x6, 524(x2)
    .word 0x0064f2b3  # and x5, x9, x6
    .word 0x20512623  # sw x5, 524(x2)
    .word 0x01657b33  # and x22, x10, x22
    .word 0x00897cb3  # and x25, x18, x8
    .word 0x00bdf433  # and x8, x27, x11
    .word 0x21012303  # lw x6, 528(x2)
    .word 0x006d75b3  # and x11, x26, x6
    .word 0x018a72b3  # and x5, x20, x24
    .word 0x20512823  # sw x5, 528(x2)
    .word 0x22012283  # lw x5, 544(x2)
    .word 0x21412303  # lw x6, 532(x2)
    .word 0x0062fc33  # and x24, x5, x6
    .word 0x0179f2b3  # and x5, x19, x23
    .word 0x20512a23  # sw x5, 532(x2)
    .word 0x010af833  # and x16, x21, x16
    .word 0x20812303  # lw x6, 520(x2)
    .word 0x0064f4b3  # and x9, x9, x6
    .word 0x20012303  # lw x6, 512(x2)
    .word 0x006572b3  # and x5, x10, x6
    .word 0x20512023  # sw x5, 512(x2)
    .word 0x00d97533  # and x10, x18, x13
    .word 0x011dfdb3  # and x27, x27, x17
    .word 0x20412303  # lw x6, 516(x2)
    .word 0x006d76b3  # and x13, x26, x6
    .word 0x00ea7bb3  # and x23, x20, x14
    .word 0x22012283  # lw x5, 544(x2)
    .word 0x00c2fd33  # and x26, x5, x12
    .word 0x00f9f7b3  # and x15, x19, x15
    .word 0x01abcbb3  # xor x23, x23, x26
    .word 0x20012303  # lw x6, 512(x2)
    .word 0x0064c633  # xor x12, x9, x6
    .word 0x01b5cdb3  # xor x27, x11, x27
    .word 0x00984733  # xor x14, x16, x9
    .word 0x00ab4833  # xor x16, x22, x10
    .word 0x00bb45b3  # xor x11, x22, x11
    .word 0x21412303  # lw x6, 532(x2)
    .word 0x006c48b3  # xor x17, x24, x6
    .word 0x21812283  # lw x5, 536(x2)
    .word 0x0192c4b3  # xor x9, x5, x25
    .word 0x21012283  # lw x5, 528(x2)
    .word 0x0182cc33  # xor x24, x5, x24
    .word 0x00fd47b3  # xor x15, x26, x15
    .word 0x01b549b3  # xor x19, x10, x27
    .word 0x00984533  # xor x10, x16, x9
    .word 0x01744b33  # xor x22, x8, x23
    .word 0x018ccc33  # xor x24, x25, x24
    .word 0x00abc833  # xor x16, x23, x10
    .word 0x00a6ccb3  # xor x25, x13, x10
    .word 0x0168c533  # xor x10, x17, x22
    .word 0x01674b33  # xor x22, x14, x22
    .word 0x01844d33  # xor x26, x8, x24
    .word 0x00acccb3  # xor x25, x25, x10
    .word 0x20c12283  # lw x5, 524(x2)
    .word 0x0162cbb3  # xor x23, x5, x22
    .word 0x016c4b33  # xor x22, x24, x22
    .word 0x00a9c2b3  # xor x5, x19, x10
    .word 0xfff2cc13  # xori x24, x5, -1
    .word 0x010dc2b3  # xor x5, x27, x16
    .word 0xfff2c413  # xori x8, x5, -1
    .word 0x019d4db3  # xor x27, x26, x25
    .word 0x0174c533  # xor x10, x9, x23
    .word 0x0175cbb3  # xor x23, x11, x23
    .word 0x019645b3  # xor x11, x12, x25
    .word 0x00ad42b3  # xor x5, x26, x10
    .word 0xfff2cd13  # xori x26, x5, -1
    .word 0x01b7c2b3  # xor x5, x15, x27
    .word 0xfff2c493  # xori x9, x5, -1
    .word 0xfff44693  # xori x13, x8, -1
    .word 0xfffc4c13  # xori x24, x24, -1
    .word 0xfff4c793  # xori x15, x9, -1
    .word 0xfffd4613  # xori x12, x26, -1
    .word 0x00ac42b3  # xor x5, x24, x10
    .word 0x00c2c4b3  # xor x9, x5, x12
    .word 0x0176c2b3  # xor x5, x13, x23
    .word 0x00f2c433  # xor x8, x5, x15
    .word 0x00bb42b3  # xor x5, x22, x11
    .word 0x00a2cdb3  # xor x27, x5, x10
    .word 0x018642b3  # xor x5, x12, x24
    .word 0x0172cd33  # xor x26, x5, x23
    .word 0x00d7c2b3  # xor x5, x15, x13
    .word 0x00b2ccb3  # xor x25, x5, x11
    .word 0x016542b3  # xor x5, x10, x22
    .word 0x0182cc33  # xor x24, x5, x24
    .word 0x00cbc2b3  # xor x5, x23, x12
    .word 0x00d2cbb3  # xor x23, x5, x13
    .word 0x00f5c2b3  # xor x5, x11, x15
    .word 0x0162cb33  # xor x22, x5, x22
    .word 0x06800293  # addi x5, x0, 104
    .word 0x22812303  # lw x6, 552(x2)
    .word 0x00331313  # slli x6, x6, 3
    .word 0x406282b3  # sub x5, x5, x6
    .word 0x22512223  # sw x5, 548(x2)
    .word 0x22412303  # lw x6, 548(x2)
    .word 0x00231313  # slli x6, x6, 2
    .word 0x00230333  # add x6, x6, x2
    .word 0x00032303  # lw x6, 0(x6)
    .word 0x006b4b33  # xor x22, x22, x6
    .word 0x22412303  # lw x6, 548(x2)
    .word 0x00231313  # slli x6, x6, 2
    .word 0x00230333  # add x6, x6, x2
    .word 0x00432303  # lw x6, 4(x6)
    .word 0x006bcbb3  # xor x23, x23, x6
    .word 0x22412303  # lw x6, 548(x2)
    .word 0x00231313  # slli x6, x6, 2
    .word 0x00230333  # add x6, x6, x2
    .word 0x00832303  # lw x6, 8(x6)
    .word 0x006c4c33  # xor x24, x24, x6
    .word 0x22412303  # lw x6, 548(x2)
    .word 0x00231313  # slli x6, x6, 2
    .word 0x00230333  # add x6, x6, x2
    .word 0x00c32303  # lw x6, 12(x6)
    .word 0x006cccb3  # xor x25, x25, x6
    .word 0x22412303  # lw x6, 548(x2)
    .word 0x00231313  # slli x6, x6, 2
    .word 0x00230333  # add x6, x6, x2
    .word 0x01032303  # lw x6, 16(x6)
    .word 0x006d4d33  # xor x26, x26, x6
    .word 0x22412303  # lw x6, 548(x2)
    .word 0x00231313  # slli x6, x6, 2
    .word 0x00230333  # add x6, x6, x2
    .word 0x01432303  # lw x6, 20(x6)
    .word 0x006dcdb3  # xor x27, x27, x6
    .word 0x22412303  # lw x6, 548(x2)
    .word 0x00231313  # slli x6, x6, 2
    .word 0x00230333  # add x6, x6, x2
    .word 0x01832303  # lw x6, 24(x6)
    .word 0x00644433  # xor x8, x8, x6
    .word 0x22412303  # lw x6, 548(x2)
    .word 0x00231313  # slli x6, x6, 2
    .word 0x00230333  # add x6, x6, x2
    .word 0x01c32303  # lw x6, 28(x6)
    .word 0x0064c4b3  # xor x9, x9, x6
    .word 0x22812283  # lw x5, 552(x2)
    .word 0x00d00313  # addi x6, x0, 13
    .word 0x2062f263  # bgeu x5, x6, 516
    .word 0x010b1f13  # slli x30, x22, 16
    .word 0x010b5313  # srli x6, x22, 16
    .word 0x006f0333  # add x6, x30, x6
    .word 0x006b46b3  # xor x13, x22, x6
    .word 0x010b9f13  # slli x30, x23, 16
    .word 0x010bd313  # srli x6, x23, 16
    .word 0x006f0333  # add x6, x30, x6
    .word 0x006bc7b3  # xor x15, x23, x6
    .word 0x010c1f13  # slli x30, x24, 16
    .word 0x010c5313  # srli x6, x24, 16
    .word 0x006f0333  # add x6, x30, x6
    .word 0x006c4633  # xor x12, x24, x6
    .word 0x010c9f13  # slli x30, x25, 16
    .word 0x010cd313  # srli x6, x25, 16
    .word 0x006f0333  # add x6, x30, x6
    .word 0x006cc733  # xor x14, x25, x6
    .word 0x010d1f13  # slli x30, x26, 16
    .word 0x010d5313  # srli x6, x26, 16
    .word 0x006f0333  # add x6, x30, x6
    .word 0x006d4833  # xor x16, x26, x6
    .word 0x010d9f13  # slli x30, x27, 16
    .word 0x010dd313  # srli x6, x27, 16
    .word 0x006f0333  # add x6, x30, x6
    .word 0x006dc8b3  # xor x17, x27, x6
    .word 0x01041f13  # slli x30, x8, 16
    .word 0x01045313  # srli x6, x8, 16
    .word 0x006f0333  # add x6, x30, x6
    .word 0x00644533  # xor x10, x8, x6
    .word 0x01049f13  # slli x30, x9, 16
    .word 0x0104d313  # srli x6, x9, 16
    .word 0x006f0333  # add x6, x30, x6
    .word 0x0064c5b3  # xor x11, x9, x6
    .word 0x00ab4b33  # xor x22, x22, x10
    .word 0x00abc2b3  # xor x5, x23, x10
    .word 0x00b2cbb3  # xor x23, x5, x11
    .word 0x00dc42b3  # xor x5, x24, x13
    .word 0x00b2cc33  # xor x24, x5, x11
    .word 0x00fcc2b3  # xor x5, x25, x15
    .word 0x00a2ccb3  # xor x25, x5, x10
    .word 0x00cd42b3  # xor x5, x26, x12
    .word 0x00a2c2b3  # xor x5, x5, x10
    .word 0x00b2cd33  # xor x26, x5, x11
    .word 0x00edc2b3  # xor x5, x27, x14
    .word 0x00b2cdb3  # xor x27, x5, x11
    .word 0x01044433  # xor x8, x8, x16
    .word 0x0114c4b3  # xor x9, x9, x17
    .word 0x018b1f13  # slli x30, x22, 24
    .word 0x008b5593  # srli x11, x22, 8
    .word 0x00bf05b3  # add x11, x30, x11
    .word 0x00bb4533  # xor x10, x22, x11
    .word 0x00050693  # addi x13, x10, 0
    .word 0x01051f13  # slli x30, x10, 16
    .word 0x01055313  # srli x6, x10, 16
    .word 0x006f0333  # add x6, x30, x6
    .word 0x0065cb33  # xor x22, x11, x6
    .word 0x018b9f13  # slli x30, x23, 24
    .word 0x008bd593  # srli x11, x23, 8
    .word 0x00bf05b3  # add x11, x30, x11
    .word 0x00bbc533  # xor x10, x23, x11
    .word 0x00050793  # addi x15, x10, 0
    .word 0x01051f13  # slli x30, x10, 16
    .word 0x01055313  # srli x6, x10, 16
    .word 0x006f0333  # add x6, x30, x6
    .word 0x0065cbb3  # xor x23, x11, x6
    .word 0x018c1f13  # slli x30, x24, 24
    .word 0x008c5593  # srli x11, x24, 8
    .word 0x00bf05b3  # add x11, x30, x11
    .word 0x00bc4533  # xor x10, x24, x11
    .word 0x00050613  # addi x12, x10, 0
    .word 0x01051f13  # slli x30, x10, 16
    .word 0x01055313  # srli x6, x10, 16
    .word 0x006f0333  # add x6, x30, x6
    .word 0x0065cc33  # xor x24, x11, x6
    .word 0x018c9f13  # slli x30, x25, 24
    .word 0x008cd593  # srli x11, x25, 8
    .word 0x00bf05b3  # add x11, x30, x11
    .word 0x00bcc533  # xor x10, x25, x11
    .word 0x00050713  # addi x14, x10, 0
    .word 0x01051f13  # slli x30, x10, 16
    .word 0x01055313  # srli x6, x10, 16
    .word 0x006f0333  # add x6, x30, x6
    .word 0x0065ccb3  # xor x25, x11, x6
    .word 0x018d1f13  # slli x30, x26, 24
    .word 0x008d5593  # srli x11, x26, 8
    .word 0x00bf05b3  # add x11, x30, x11
    .word 0x00bd4533  # xor x10, x26, x11
    .word 0x00050813  # addi x16, x10, 0
    .word 0x01051f13  # slli x30, x10, 16
    .word 0x01055313  # srli x6, x10, 16
    .word 0x006f0333  # add x6, x30, x6
    .word 0x0065cd33  # xor x26, x11, x6
    .word 0x018d9f13  # slli x30, x27, 24
    .word 0x008dd593  # srli x11, x27, 8
    .word 0x00bf05b3  # add x11, x30, x11
    .word 0x00bdc533  # xor x10, x27, x11
    .word 0x00050893  # addi x17, x10, 0
    .word 0x01051f13  # slli x30, x10, 16
    .word 0x01055313  # srli x6, x10, 16
    .word 0x006f0333  # add x6, x30, x6
    .word 0x0065cdb3  # xor x27, x11, x6
    .word 0x01841f13  # slli x30, x8, 24
    .word 0x00845593  # srli x11, x8, 8
    .word 0x00bf05b3  # add x11, x30, x11
    .word 0x00b44533  # xor x10, x8, x11
    .word 0x00050993  # addi x19, x10, 0
    .word 0x01051f13  # slli x30, x10, 16
    .word 0x01055313  # srli x6, x10, 16
    .word 0x006f0333  # add x6, x30, x6
    .word 0x0065c433  # xor x8, x11, x6
    .word 0x01849f13  # slli x30, x9, 24
    .word 0x0084d593  # srli x11, x9, 8
    .word 0x00bf05b3  # add x11, x30, x11
    .word 0x00b4c533  # xor x10, x9, x11
    .word 0x01051f13  # slli x30, x10, 16
    .word 0x01055313  # srli x6, x10, 16
    .word 0x006f0333  # add x6, x30, x6
    .word 0x0065c4b3  # xor x9, x11, x6
    .word 0x00ab4b33  # xor x22, x22, x10
    .word 0x00dbc2b3  # xor x5, x23, x13
    .word 0x00a2cbb3  # xor x23, x5, x10
    .word 0x00fc4c33  # xor x24, x24, x15
    .word 0x00ccc2b3  # xor x5, x25, x12
    .word 0x00a2ccb3  # xor x25, x5, x10
    .word 0x00ed42b3  # xor x5, x26, x14
    .word 0x00a2cd33  # xor x26, x5, x10
    .word 0x010dcdb3  # xor x27, x27, x16
    .word 0x01144433  # xor x8, x8, x17
    .word 0x0134c4b3  # xor x9, x9, x19
    .word 0x839ff06f  # jal x0, -1992
    .word 0x001b5293  # srli x5, x22, 1
    .word 0x0172c2b3  # xor x5, x5, x23
    .word 0x22c12303  # lw x6, 556(x2)
    .word 0x0062f533  # and x10, x5, x6
    .word 0x00abcbb3  # xor x23, x23, x10
    .word 0x00151313  # slli x6, x10, 1
    .word 0x006b4b33  # xor x22, x22, x6
    .word 0x001c5293  # srli x5, x24, 1
    .word 0x0192c2b3  # xor x5, x5, x25
    .word 0x22c12303  # lw x6, 556(x2)
    .word 0x0062f533  # and x10, x5, x6
    .word 0x00acccb3  # xor x25, x25, x10
    .word 0x00151313  # slli x6, x10, 1
    .word 0x006c4c33  # xor x24, x24, x6
    .word 0x001d5293  # srli x5, x26, 1
    .word 0x01b2c2b3  # xor x5, x5, x27
    .word 0x22c12303  # lw x6, 556(x2)
    .word 0x0062f533  # and x10, x5, x6
    .word 0x00adcdb3  # xor x27, x27, x10
    .word 0x00151313  # slli x6, x10, 1
    .word 0x006d4d33  # xor x26, x26, x6
    .word 0x00145293  # srli x5, x8, 1
    .word 0x0092c2b3  # xor x5, x5, x9
    .word 0x22c12303  # lw x6, 556(x2)
    .word 0x0062f533  # and x10, x5, x6
    .word 0x00a4c4b3  # xor x9, x9, x10
    .word 0x00151313  # slli x6, x10, 1
    .word 0x00644433  # xor x8, x8, x6
    .word 0x002b5293  # srli x5, x22, 2
    .word 0x0182c2b3  # xor x5, x5, x24
    .word 0x23012303  # lw x6, 560(x2)
    .word 0x0062f533  # and x10, x5, x6
    .word 0x00ac4c33  # xor x24, x24, x10
    .word 0x00251313  # slli x6, x10, 2
    .word 0x006b4b33  # xor x22, x22, x6
    .word 0x002bd293  # srli x5, x23, 2
    .word 0x0192c2b3  # xor x5, x5, x25
    .word 0x23012303  # lw x6, 560(x2)
    .word 0x0062f533  # and x10, x5, x6
    .word 0x00acccb3  # xor x25, x25, x10
    .word 0x00251313  # slli x6, x10, 2
    .word 0x006bcbb3  # xor x23, x23, x6
    .word 0x002d5293  # srli x5, x26, 2
    .word 0x0082c2b3  # xor x5, x5, x8
    .word 0x23012303  # lw x6, 560(x2)
    .word 0x0062f533  # and x10, x5, x6
    .word 0x00a44433  # xor x8, x8, x10
    .word 0x00251313  # slli x6, x10, 2
    .word 0x006d4d33  # xor x26, x26, x6
    .word 0x002dd293  # srli x5, x27, 2
    .word 0x0092c2b3  # xor x5, x5, x9
    .word 0x23012303  # lw x6, 560(x2)
    .word 0x0062f533  # and x10, x5, x6
    .word 0x00a4c4b3  # xor x9, x9, x10
    .word 0x00251313  # slli x6, x10, 2
    .word 0x006dcdb3  # xor x27, x27, x6
    .word 0x004b5293  # srli x5, x22, 4
    .word 0x01a2c2b3  # xor x5, x5, x26
    .word 0x23412303  # lw x6, 564(x2)
    .word 0x0062f533  # and x10, x5, x6
    .word 0x00ad4d33  # xor x26, x26, x10
    .word 0x00451313  # slli x6, x10, 4
    .word 0x006b4b33  # xor x22, x22, x6
    .word 0x004bd293  # srli x5, x23, 4
    .word 0x01b2c2b3  # xor x5, x5, x27
    .word 0x23412303  # lw x6, 564(x2)
    .word 0x0062f533  # and x10, x5, x6
    .word 0x00adcdb3  # xor x27, x27, x10
    .word 0x00451313  # slli x6, x10, 4
    .word 0x006bcbb3  # xor x23, x23, x6
    .word 0x004c5293  # srli x5, x24, 4
    .word 0x0082c2b3  # xor x5, x5, x8
    .word 0x23412303  # lw x6, 564(x2)
    .word 0x0062f533  # and x10, x5, x6
    .word 0x00a44433  # xor x8, x8, x10
    .word 0x00451313  # slli x6, x10, 4
    .word 0x006c4c33  # xor x24, x24, x6
    .word 0x004cd293  # srli x5, x25, 4
    .word 0x0092c2b3  # xor x5, x5, x9
    .word 0x23412303  # lw x6, 564(x2)
    .word 0x0062f533  # and x10, x5, x6
    .word 0x00a4c4b3  # xor x9, x9, x10
    .word 0x00451313  # slli x6, x10, 4
    .word 0x006cccb3  # xor x25, x25, x6
    .word 0x1f612023  # sw x22, 480(x2)
    .word 0x1f812223  # sw x24, 484(x2)
    .word 0x1fa12423  # sw x26, 488(x2)
    .word 0x1e812623  # sw x8, 492(x2)
    .word 0x1f712823  # sw x23, 496(x2)
    .word 0x1f912a23  # sw x25, 500(x2)
    .word 0x1fb12c23  # sw x27, 504(x2)
    .word 0x1e912e23  # sw x9, 508(x2)
    # the result
    .word 0x00000513  # addi x10, x0, 0
    # parameter 1: the array, back
    .word 0x1e010293  # addi x5, x2, 480
    .word 0x28c12303  # lw x6, 652(x2)
    .word 0x02028393  # addi x7, x5, 32
    .word 0x09000f6f  # jal x30, 144
    # above the frame
    .word 0x25010293  # addi x5, x2, 592
    # the caller's registers
    .word 0x0002a403  # lw x8, 0(x5)
    .cfi_restore 8
    .word 0x0042a483  # lw x9, 4(x5)
    .cfi_restore 9
    .word 0x0082a903  # lw x18, 8(x5)
    .cfi_restore 18
    .word 0x00c2a983  # lw x19, 12(x5)
    .cfi_restore 19
    .word 0x0102aa03  # lw x20, 16(x5)
    .cfi_restore 20
    .word 0x0142aa83  # lw x21, 20(x5)
    .cfi_restore 21
    .word 0x0182ab03  # lw x22, 24(x5)
    .cfi_restore 22
    .word 0x01c2ab83  # lw x23, 28(x5)
    .cfi_restore 23
    .word 0x0202ac03  # lw x24, 32(x5)
    .cfi_restore 24
    .word 0x0242ac83  # lw x25, 36(x5)
    .cfi_restore 25
    .word 0x0282ad03  # lw x26, 40(x5)
    .cfi_restore 26
    .word 0x02c2ad83  # lw x27, 44(x5)
    .cfi_restore 27
    # the caller's x2
    .word 0x04028293  # addi x5, x5, 64
    .cfi_def_cfa 5, 0
    # all the room, wiped upward
    .word 0x00012023  # sw x0, 0(x2)
    .word 0x00012223  # sw x0, 4(x2)
    .word 0x00012423  # sw x0, 8(x2)
    .word 0x00012623  # sw x0, 12(x2)
    .word 0x01010113  # addi x2, x2, 16
    .word 0xfe5116e3  # bne x2, x5, -20
    .cfi_def_cfa 2, 0
    # temporaries, wiped
    .word 0x00000293  # addi x5, x0, 0
    .word 0x00000313  # addi x6, x0, 0
    .word 0x00000393  # addi x7, x0, 0
    .word 0x00000593  # addi x11, x0, 0
    .word 0x00000613  # addi x12, x0, 0
    .word 0x00000693  # addi x13, x0, 0
    .word 0x00000713  # addi x14, x0, 0
    .word 0x00000793  # addi x15, x0, 0
    .word 0x00000813  # addi x16, x0, 0
    .word 0x00000893  # addi x17, x0, 0
    .word 0x00000e13  # addi x28, x0, 0
    .word 0x00000e93  # addi x29, x0, 0
    .word 0x00000f13  # addi x30, x0, 0
    .word 0x00000f93  # addi x31, x0, 0
    # back
    .word 0x00008067  # jalr x0, 0(x1)
    # from x5 to x6 up to x7, and back
    .cfi_def_cfa 2, 656
    .cfi_offset 8, -64
    .cfi_offset 9, -60
    .cfi_offset 18, -56
    .cfi_offset 19, -52
    .cfi_offset 20, -48
    .cfi_offset 21, -44
    .cfi_offset 22, -40
    .cfi_offset 23, -36
    .cfi_offset 24, -32
    .cfi_offset 25, -28
    .cfi_offset 26, -24
    .cfi_offset 27, -20
    .word 0x0062ee33  # or x28, x5, x6
    .word 0x003e7e13  # andi x28, x28, 3
    .word 0x000e0e63  # beq x28, x0, 28
    .word 0x0002ce03  # lbu x28, 0(x5)
    .word 0x01c30023  # sb x28, 0(x6)
    .word 0x00128293  # addi x5, x5, 1
    .word 0x00130313  # addi x6, x6, 1
    .word 0xfe7298e3  # bne x5, x7, -16
    .word 0x0300006f  # jal x0, 48
    .word 0x0002ae03  # lw x28, 0(x5)
    .word 0x01c32023  # sw x28, 0(x6)
    .word 0x0042ae03  # lw x28, 4(x5)
    .word 0x01c32223  # sw x28, 4(x6)
    .word 0x0082ae03  # lw x28, 8(x5)
    .word 0x01c32423  # sw x28, 8(x6)
    .word 0x00c2ae03  # lw x28, 12(x5)
    .word 0x01c32623  # sw x28, 12(x6)
    .word 0x01028293  # addi x5, x5, 16
    .word 0x01030313  # addi x6, x6, 16
    .word 0xfc729ce3  # bne x5, x7, -40
    .word 0x000f0067  # jalr x0, 0(x30)
    .cfi_endproc
    .size aes256_decrypt_2, . - aes256_decrypt_2
    .option pop
