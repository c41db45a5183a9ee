# blake2s_block: made by factc 1.0.0 function; 2063 words, 224 bytes of stack, profile 1
    .option push
    .option norvc
    .option norelax
    .cfi_sections .debug_frame
    .section .text.blake2s_block, "ax", @progbits
    .p2align 2
    .globl blake2s_block
    .type blake2s_block, @function
blake2s_block:
    .cfi_startproc
    # room above the frame
    .word 0xfc010113  # addi x2, x2, -64
    .cfi_def_cfa_offset 64
    # the caller's registers
    .word 0x00812023  # sw x8, 0(x2)
    .cfi_offset 8, -64
    .word 0x00912223  # sw x9, 4(x2)
    .cfi_offset 9, -60
    .word 0x01212423  # sw x18, 8(x2)
    .cfi_offset 18, -56
    .word 0x01312623  # sw x19, 12(x2)
    .cfi_offset 19, -52
    .word 0x01412823  # sw x20, 16(x2)
    .cfi_offset 20, -48
    .word 0x01512a23  # sw x21, 20(x2)
    .cfi_offset 21, -44
    .word 0x01612c23  # sw x22, 24(x2)
    .cfi_offset 22, -40
    .word 0x01712e23  # sw x23, 28(x2)
    .cfi_offset 23, -36
    .word 0x03812023  # sw x24, 32(x2)
    .cfi_offset 24, -32
    .word 0x03912223  # sw x25, 36(x2)
    .cfi_offset 25, -28
    .word 0x03a12423  # sw x26, 40(x2)
    .cfi_offset 26, -24
    .word 0x03b12623  # sw x27, 44(x2)
    .cfi_offset 27, -20
    # arguments that are needed behind the body
    .word 0x02a12e23  # sw x10, 60(x2)
    # the frame's base
    .word 0xf6010113  # addi x2, x2, -160
    .cfi_def_cfa 2, 224
    # parameter 0: an array
    .word 0x00050293  # addi x5, x10, 0
    .word 0x00010313  # addi x6, x2, 0
    .word 0x02028393  # addi x7, x5, 32
    .word 0x7a101f6f  # jal x30, 8096
    # parameter 1: an array
    .word 0x00058293  # addi x5, x11, 0
    .word 0x02010313  # addi x6, x2, 32
    .word 0x04028393  # addi x7, x5, 64
    .word 0x79101f6f  # jal x30, 8080
    # parameter 2: an array
    .word 0x00060293  # addi x5, x12, 0
    .word 0x06010313  # addi x6, x2, 96
    .word 0x0002ae03  # lw x28, 0(x5)
    .word 0x01c32023  # sw x28, 0(x6)
    .word 0x0042ae03  # lw x28, 4(x5)
    .word 0x01c32223  # sw x28, 4(x6)
    # parameter 3: a word
    .word 0x00d036b3  # sltu x13, x0, x13
    .word 0x06d12423  # sw x13, 104(x2)
    # the body
    .word 0x02012d03  # lw x26, 32(x2)
    .word 0x02412d83  # lw x27, 36(x2)
    .word 0x02812403  # lw x8, 40(x2)
    .word 0x02c12483  # lw x9, 44(x2)
    .word 0x03012283  # lw x5, 48(x2)
    .word 0x06512623  # sw x5, 108(x2)
    .word 0x03412283  # lw x5, 52(x2)
    .word 0x06512823  # sw x5, 112(x2)
    .word 0x03812283  # lw x5, 56(x2)
    .word 0x06512a23  # sw x5, 116(x2)
    .word 0x03c12283  # lw x5, 60(x2)
    .word 0x06512c23  # sw x5, 120(x2)
    .word 0x04012283  # lw x5, 64(x2)
    .word 0x06512e23  # sw x5, 124(x2)
    .word 0x04412283  # lw x5, 68(x2)
    .word 0x08512023  # sw x5, 128(x2)
    .word 0x04812283  # lw x5, 72(x2)
    .word 0x08512223  # sw x5, 132(x2)
    .word 0x04c12283  # lw x5, 76(x2)
    .word 0x08512423  # sw x5, 136(x2)
    .word 0x05012283  # lw x5, 80(x2)
    .word 0x08512623  # sw x5, 140(x2)
    .word 0x05412283  # lw x5, 84(x2)
    .word 0x08512823  # sw x5, 144(x2)
    .word 0x05812283  # lw x5, 88(x2)
    .word 0x08512a23  # sw x5, 148(x2)
    .word 0x05c12283  # lw x5, 92(x2)
    .word 0x08512c23  # sw x5, 152(x2)
    .word 0x00012503  # lw x10, 0(x2)
    .word 0x00412583  # lw x11, 4(x2)
    .word 0x00812603  # lw x12, 8(x2)
    .word 0x00c12683  # lw x13, 12(x2)
    .word 0x01012703  # lw x14, 16(x2)
    .word 0x01412783  # lw x15, 20(x2)
    .word 0x01812803  # lw x16, 24(x2)
    .word 0x01c12883  # lw x17, 28(x2)
    .word 0x510e52b7  # lui x5, 0x510e5
    .word 0x27f28293  # addi x5, x5, 639
    .word 0x06012303  # lw x6, 96(x2)
    .word 0x0062cb33  # xor x22, x5, x6
    .word 0x9b0572b7  # lui x5, 0x9b057
    .word 0x88c28293  # addi x5, x5, -1908
    .word 0x06412303  # lw x6, 100(x2)
    .word 0x0062cbb3  # xor x23, x5, x6
    .word 0x1f83e2b7  # lui x5, 0x1f83e
    .word 0x9ab28293  # addi x5, x5, -1621
    .word 0x06812303  # lw x6, 104(x2)
    .word 0x40600333  # sub x6, x0, x6
    .word 0x0062cc33  # xor x24, x5, x6
    .word 0x00e502b3  # add x5, x10, x14
    .word 0x01a28533  # add x10, x5, x26
    .word 0x00ab42b3  # xor x5, x22, x10
    .word 0x01029f13  # slli x30, x5, 16
    .word 0x0102db13  # srli x22, x5, 16
    .word 0x016f0b33  # add x22, x30, x22
    .word 0x6a09e2b7  # lui x5, 0x6a09e
    .word 0x66728293  # addi x5, x5, 1639
    .word 0x01628933  # add x18, x5, x22
    .word 0x012742b3  # xor x5, x14, x18
    .word 0x01429f13  # slli x30, x5, 20
    .word 0x00c2d713  # srli x14, x5, 12
    .word 0x00ef0733  # add x14, x30, x14
    .word 0x00e502b3  # add x5, x10, x14
    .word 0x01b28533  # add x10, x5, x27
    .word 0x00ab42b3  # xor x5, x22, x10
    .word 0x01829f13  # slli x30, x5, 24
    .word 0x0082db13  # srli x22, x5, 8
    .word 0x016f0b33  # add x22, x30, x22
    .word 0x01690933  # add x18, x18, x22
    .word 0x012742b3  # xor x5, x14, x18
    .word 0x01929f13  # slli x30, x5, 25
    .word 0x0072d713  # srli x14, x5, 7
    .word 0x00ef0733  # add x14, x30, x14
    .word 0x00f582b3  # add x5, x11, x15
    .word 0x008285b3  # add x11, x5, x8
    .word 0x00bbc2b3  # xor x5, x23, x11
    .word 0x01029f13  # slli x30, x5, 16
    .word 0x0102db93  # srli x23, x5, 16
    .word 0x017f0bb3  # add x23, x30, x23
    .word 0xbb67b2b7  # lui x5, 0xbb67b
    .word 0xe8528293  # addi x5, x5, -379
    .word 0x017289b3  # add x19, x5, x23
    .word 0x0137c2b3  # xor x5, x15, x19
    .word 0x01429f13  # slli x30, x5, 20
    .word 0x00c2d793  # srli x15, x5, 12
    .word 0x00ff07b3  # add x15, x30, x15
    .word 0x00f582b3  # add x5, x11, x15
    .word 0x009285b3  # add x11, x5, x9
    .word 0x00bbc2b3  # xor x5, x23, x11
    .word 0x01829f13  # slli x30, x5, 24
    .word 0x0082db93  # srli x23, x5, 8
    .word 0x017f0bb3  # add x23, x30, x23
    .word 0x017989b3  # add x19, x19, x23
    .word 0x0137c2b3  # xor x5, x15, x19
    .word 0x01929f13  # slli x30, x5, 25
    .word 0x0072d793  # srli x15, x5, 7
    .word 0x00ff07b3  # add x15, x30, x15
    .word 0x010602b3  # add x5, x12, x16
    .word 0x06c12303  # lw x6, 108(x2)
    .word 0x00628633  # add x12, x5, x6
    .word 0x00cc42b3  # xor x5, x24, x12
    .word 0x01029f13  # slli x30, x5, 16
    .word 0x0102dc13  # srli x24, x5, 16
    .word 0x018f0c33  # add x24, x30, x24
    .word 0x3c6ef2b7  # lui x5, 0x3c6ef
    .word 0x37228293  # addi x5, x5, 882
    .word 0x01828a33  # add x20, x5, x24
    .word 0x014842b3  # xor x5, x16, x20
    .word 0x01429f13  # slli x30, x5, 20
    .word 0x00c2d813  # srli x16, x5, 12
    .word 0x010f0833  # add x16, x30, x16
    .word 0x010602b3  # add x5, x12, x16
    .word 0x07012303  # lw x6, 112(x2)
    .word 0x00628633  # add x12, x5, x6
    .word 0x00cc42b3  # xor x5, x24, x12
    .word 0x01829f13  # slli x30, x5, 24
    .word 0x0082dc13  # srli x24, x5, 8
    .word 0x018f0c33  # add x24, x30, x24
    .word 0x018a0a33  # add x20, x20, x24
    .word 0x014842b3  # xor x5, x16, x20
    .word 0x01929f13  # slli x30, x5, 25
    .word 0x0072d813  # srli x16, x5, 7
    .word 0x010f0833  # add x16, x30, x16
    .word 0x011682b3  # add x5, x13, x17
    .word 0x07412303  # lw x6, 116(x2)
    .word 0x006286b3  # add x13, x5, x6
    .word 0x5be0d2b7  # lui x5, 0x5be0d
    .word 0xd1928293  # addi x5, x5, -743
    .word 0x00d2c2b3  # xor x5, x5, x13
    .word 0x01029f13  # slli x30, x5, 16
    .word 0x0102dc93  # srli x25, x5, 16
    .word 0x019f0cb3  # add x25, x30, x25
    .word 0xa54ff2b7  # lui x5, 0xa54ff
    .word 0x53a28293  # addi x5, x5, 1338
    .word 0x01928ab3  # add x21, x5, x25
    .word 0x0158c2b3  # xor x5, x17, x21
    .word 0x01429f13  # slli x30, x5, 20
    .word 0x00c2d893  # srli x17, x5, 12
    .word 0x011f08b3  # add x17, x30, x17
    .word 0x011682b3  # add x5, x13, x17
    .word 0x07812303  # lw x6, 120(x2)
    .word 0x006286b3  # add x13, x5, x6
    .word 0x00dcc2b3  # xor x5, x25, x13
    .word 0x01829f13  # slli x30, x5, 24
    .word 0x0082dc93  # srli x25, x5, 8
    .word 0x019f0cb3  # add x25, x30, x25
    .word 0x019a8ab3  # add x21, x21, x25
    .word 0x0158c2b3  # xor x5, x17, x21
    .word 0x01929f13  # slli x30, x5, 25
    .word 0x0072d893  # srli x17, x5, 7
    .word 0x011f08b3  # add x17, x30, x17
    .word 0x00f502b3  # add x5, x10, x15
    .word 0x07c12303  # lw x6, 124(x2)
    .word 0x00628533  # add x10, x5, x6
    .word 0x00acc2b3  # xor x5, x25, x10
    .word 0x01029f13  # slli x30, x5, 16
    .word 0x0102dc93  # srli x25, x5, 16
    .word 0x019f0cb3  # add x25, x30, x25
    .word 0x019a0a33  # add x20, x20, x25
    .word 0x0147c2b3  # xor x5, x15, x20
    .word 0x01429f13  # slli x30, x5, 20
    .word 0x00c2d793  # srli x15, x5, 12
    .word 0x00ff07b3  # add x15, x30, x15
    .word 0x00f502b3  # add x5, x10, x15
    .word 0x08012303  # lw x6, 128(x2)
    .word 0x00628533  # add x10, x5, x6
    .word 0x00acc2b3  # xor x5, x25, x10
    .word 0x01829f13  # slli x30, x5, 24
    .word 0x0082dc93  # srli x25, x5, 8
    .word 0x019f0cb3  # add x25, x30, x25
    .word 0x019a0a33  # add x20, x20, x25
    .word 0x0147c2b3  # xor x5, x15, x20
    .word 0x01929f13  # slli x30, x5, 25
    .word 0x0072d793  # srli x15, x5, 7
    .word 0x00ff07b3  # add x15, x30, x15
    .word 0x010582b3  # add x5, x11, x16
    .word 0x08412303  # lw x6, 132(x2)
    .word 0x006285b3  # add x11, x5, x6
    .word 0x00bb42b3  # xor x5, x22, x11
    .word 0x01029f13  # slli x30, x5, 16
    .word 0x0102db13  # srli x22, x5, 16
    .word 0x016f0b33  # add x22, x30, x22
    .word 0x016a8ab3  # add x21, x21, x22
    .word 0x015842b3  # xor x5, x16, x21
    .word 0x01429f13  # slli x30, x5, 20
    .word 0x00c2d813  # srli x16, x5, 12
    .word 0x010f0833  # add x16, x30, x16
    .word 0x010582b3  # add x5, x11, x16
    .word 0x08812303  # lw x6, 136(x2)
    .word 0x006285b3  # add x11, x5, x6
    .word 0x00bb42b3  # xor x5, x22, x11
    .word 0x01829f13  # slli x30, x5, 24
    .word 0x0082db13  # srli x22, x5, 8
    .word 0x016f0b33  # add x22, x30, x22
    .word 0x016a8ab3  # add x21, x21, x22
    .word 0x015842b3  # xor x5, x16, x21
    .word 0x01929f13  # slli x30, x5, 25
    .word 0x0072d813  # srli x16, x5, 7
    .word 0x010f0833  # add x16, x30, x16
    .word 0x011602b3  # add x5, x12, x17
    .word 0x08c12303  # lw x6, 140(x2)
    .word 0x00628633  # add x12, x5, x6
    .word 0x00cbc2b3  # xor x5, x23, x12
    .word 0x01029f13  # slli x30, x5, 16
    .word 0x0102db93  # srli x23, x5, 16
    .word 0x017f0bb3  # add x23, x30, x23
    .word 0x01790933  # add x18, x18, x23
    .word 0x0128c2b3  # xor x5, x17, x18
    .word 0x01429f13  # slli x30, x5, 20
    .word 0x00c2d893  # srli x17, x5, 12
    .word 0x011f08b3  # add x17, x30, x17
    .word 0x011602b3  # add x5, x12, x17
    .word 0x09012303  # lw x6, 144(x2)
    .word 0x00628633  # add x12, x5, x6
    .word 0x00cbc2b3  # xor x5, x23, x12
    .word 0x01829f13  # slli x30, x5, 24
    .word 0x0082db93  # srli x23, x5, 8
    .word 0x017f0bb3  # add x23, x30, x23
    .word 0x01790933  # add x18, x18, x23
    .word 0x0128c2b3  # xor x5, x17, x18
    .word 0x01929f13  # slli x30, x5, 25
    .word 0x0072d893  # srli x17, x5, 7
    .word 0x011f08b3  # add x17, x30, x17
    .word 0x00e682b3  # add x5, x13, x14
    .word 0x09412303  # lw x6, 148(x2)
    .word 0x006286b3  # add x13, x5, x6
    .word 0x00dc42b3  # xor x5, x24, x13
    .word 0x01029f13  # slli x30, x5, 16
    .word 0x0102dc13  # srli x24, x5, 16
    .word 0x018f0c33  # add x24, x30, x24
    .word 0x018989b3  # add x19, x19, x24
    .word 0x013742b3  # xor x5, x14, x19
    .word 0x01429f13  # slli x30, x5, 20
    .word 0x00c2d713  # srli x14, x5, 12
    .word 0x00ef0733  # add x14, x30, x14
    .word 0x00e682b3  # add x5, x13, x14
    .word 0x09812303  # lw x6, 152(x2)
    .word 0x006286b3  # add x13, x5, x6
    .word 0x00dc42b3  # xor x5, x24, x13
    .word 0x01829f13  # slli x30, x5, 24
    .word 0x0082dc13  # srli x24, x5, 8
    .word 0x018f0c33  # add x24, x30, x24
    .word 0x018989b3  # add x19, x19, x24
    .word 0x013742b3  # xor x5, x14, x19
    .word 0x01929f13  # slli x30, x5, 25
    .word 0x0072d713  # srli x14, x5, 7
    .word 0x00ef0733  # add x14, x30, x14
    .word 0x00e502b3  # add x5, x10, x14
    .word 0x09412303  # lw x6, 148(x2)
    .word 0x00628533  # add x10, x5, x6
    .word 0x00ab42b3  # xor x5, x22, x10
    .word 0x01029f13  # slli x30, x5, 16
    .word 0x0102db13  # srli x22, x5, 16
    .word 0x016f0b33  # add x22, x30, x22
    .word 0x01690933  # add x18, x18, x22
    .word 0x012742b3  # xor x5, x14, x18
    .word 0x01429f13  # slli x30, x5, 20
    .word 0x00c2d713  # srli x14, x5, 12
    .word 0x00ef0733  # add x14, x30, x14
    .word 0x00e502b3  # add x5, x10, x14
    .word 0x08412303  # lw x6, 132(x2)
    .word 0x00628533  # add x10, x5, x6
    .word 0x00ab42b3  # xor x5, x22, x10
    .word 0x01829f13  # slli x30, x5, 24
    .word 0x0082db13  # srli x22, x5, 8
    .word 0x016f0b33  # add x22, x30, x22
    .word 0x01690933  # add x18, x18, x22
    .word 0x012742b3  # xor x5, x14, x18
    .word 0x01929f13  # slli x30, x5, 25
    .word 0x0072d713  # srli x14, x5, 7
    .word 0x00ef0733  # add x14, x30, x14
    .word 0x00f582b3  # add x5, x11, x15
    .word 0x06c12303  # lw x6, 108(x2)
    .word 0x006285b3  # add x11, x5, x6
    .word 0x00bbc2b3  # xor x5, x23, x11
    .word 0x01029f13  # slli x30, x5, 16
    .word 0x0102db93  # srli x23, x5, 16
    .word 0x017f0bb3  # add x23, x30, x23
    .word 0x017989b3  # add x19, x19, x23
    .word 0x0137c2b3  # xor x5, x15, x19
    .word 0x01429f13  # slli x30, x5, 20
    .word 0x00c2d793  # srli x15, x5, 12
    .word 0x00ff07b3  # add x15, x30, x15
    .word 0x00f582b3  # add x5, x11, x15
    .word 0x07c12303  # lw x6, 124(x2)
    .word 0x006285b3  # add x11, x5, x6
    .word 0x00bbc2b3  # xor x5, x23, x11
    .word 0x01829f13  # slli x30, x5, 24
    .word 0x0082db93  # srli x23, x5, 8
    .word 0x017f0bb3  # add x23, x30, x23
    .word 0x017989b3  # add x19, x19, x23
    .word 0x0137c2b3  # xor x5, x15, x19
    .word 0x01929f13  # slli x30, x5, 25
    .word 0x0072d793  # srli x15, x5, 7
    .word 0x00ff07b3  # add x15, x30, x15
    .word 0x010602b3  # add x5, x12, x16
    .word 0x08012303  # lw x6, 128(x2)
    .word 0x00628633  # add x12, x5, x6
    .word 0x00cc42b3  # xor x5, x24, x12
    .word 0x01029f13  # slli x30, x5, 16
    .word 0x0102dc13  # srli x24, x5, 16
    .word 0x018f0c33  # add x24, x30, x24
    .word 0x018a0a33  # add x20, x20, x24
    .word 0x014842b3  # xor x5, x16, x20
    .word 0x01429f13  # slli x30, x5, 20
    .word 0x00c2d813  # srli x16, x5, 12
    .word 0x010f0833  # add x16, x30, x16
    .word 0x010602b3  # add x5, x12, x16
    .word 0x09812303  # lw x6, 152(x2)
    .word 0x00628633  # add x12, x5, x6
    .word 0x00cc42b3  # xor x5, x24, x12
    .word 0x01829f13  # slli x30, x5, 24
    .word 0x0082dc13  # srli x24, x5, 8
    .word 0x018f0c33  # add x24, x30, x24
    .word 0x018a0a33  # add x20, x20, x24
    .word 0x014842b3  # xor x5, x16, x20
    .word 0x01929f13  # slli x30, x5, 25
    .word 0x0072d813  # srli x16, x5, 7
    .word 0x010f0833  # add x16, x30, x16
    .word 0x011682b3  # add x5, x13, x17
    .word 0x09012303  # lw x6, 144(x2)
    .word 0x006286b3  # add x13, x5, x6
    .word 0x00dcc2b3  # xor x5, x25, x13
    .word 0x01029f13  # slli x30, x5, 16
    .word 0x0102dc93  # srli x25, x5, 16
    .word 0x019f0cb3  # add x25, x30, x25
    .word 0x019a8ab3  # add x21, x21, x25
    .word 0x0158c2b3  # xor x5, x17, x21
    .word 0x01429f13  # slli x30, x5, 20
    .word 0x00c2d893  # srli x17, x5, 12
    .word 0x011f08b3  # add x17, x30, x17
    .word 0x011682b3  # add x5, x13, x17
    .word 0x07412303  # lw x6, 116(x2)
    .word 0x006286b3  # add x13, x5, x6
    .word 0x00dcc2b3  # xor x5, x25, x13
    .word 0x01829f13  # slli x30, x5, 24
    .word 0x0082dc93  # srli x25, x5, 8
    .word 0x019f0cb3  # add x25, x30, x25
    .word 0x019a8ab3  # add x21, x21, x25
    .word 0x0158c2b3  # xor x5, x17, x21
    .word 0x01929f13  # slli x30, x5, 25
    .word 0x0072d893  # srli x17, x5, 7
    .word 0x011f08b3  # add x17, x30, x17
    .word 0x00f502b3  # add x5, x10, x15
    .word 0x01b28533  # add x10, x5, x27
    .word 0x00acc2b3  # xor x5, x25, x10
    .word 0x01029f13  # slli x30, x5, 16
    .word 0x0102dc93  # srli x25, x5, 16
    .word 0x019f0cb3  # add x25, x30, x25
    .word 0x019a0a33  # add x20, x20, x25
    .word 0x0147c2b3  # xor x5, x15, x20
    .word 0x01429f13  # slli x30, x5, 20
    .word 0x00c2d793  # srli x15, x5, 12
    .word 0x00ff07b3  # add x15, x30, x15
    .word 0x00f502b3  # add x5, x10, x15
    .word 0x08c12303  # lw x6, 140(x2)
    .word 0x00628533  # add x10, x5, x6
    .word 0x00acc2b3  # xor x5, x25, x10
    .word 0x01829f13  # slli x30, x5, 24
    .word 0x0082dc93  # srli x25, x5, 8
    .word 0x019f0cb3  # add x25, x30, x25
    .word 0x019a0a33  # add x20, x20, x25
    .word 0x0147c2b3  # xor x5, x15, x20
    .word 0x01929f13  # slli x30, x5, 25
    .word 0x0072d793  # srli x15, x5, 7
    .word 0x00ff07b3  # add x15, x30, x15
    .word 0x010582b3  # add x5, x11, x16
    .word 0x01a285b3  # add x11, x5, x26
    .word 0x00bb42b3  # xor x5, x22, x11
    .word 0x01029f13  # slli x30, x5, 16
    .word 0x0102db13  # srli x22, x5, 16
    .word 0x016f0b33  # add x22, x30, x22
    .word 0x016a8ab3  # add x21, x21, x22
    .word 0x015842b3  # xor x5, x16, x21
    .word 0x01429f13  # slli x30, x5, 20
    .word 0x00c2d813  # srli x16, x5, 12
    .word 0x010f0833  # add x16, x30, x16
    .word 0x010582b3  # add x5, x11, x16
    .word 0x008285b3  # add x11, x5, x8
    .word 0x00bb42b3  # xor x5, x22, x11
    .word 0x01829f13  # slli x30, x5, 24
    .word 0x0082db13  # srli x22, x5, 8
    .word 0x016f0b33  # add x22, x30, x22
    .word 0x016a8ab3  # add x21, x21, x22
    .word 0x015842b3  # xor x5, x16, x21
    .word 0x01929f13  # slli x30, x5, 25
    .word 0x0072d813  # srli x16, x5, 7
    .word 0x010f0833  # add x16, x30, x16
    .word 0x011602b3  # add x5, x12, x17
    .word 0x08812303  # lw x6, 136(x2)
    .word 0x00628633  # add x12, x5, x6
    .word 0x00cbc2b3  # xor x5, x23, x12
    .word 0x01029f13  # slli x30, x5, 16
    .word 0x0102db93  # srli x23, x5, 16
    .word 0x017f0bb3  # add x23, x30, x23
    .word 0x01790933  # add x18, x18, x23
    .word 0x0128c2b3  # xor x5, x17, x18
    .word 0x01429f13  # slli x30, x5, 20
    .word 0x00c2d893  # srli x17, x5, 12
    .word 0x011f08b3  # add x17, x30, x17
    .word 0x011602b3  # add x5, x12, x17
    .word 0x07812303  # lw x6, 120(x2)
    .word 0x00628633  # add x12, x5, x6
    .word 0x00cbc2b3  # xor x5, x23, x12
    .word 0x01829f13  # slli x30, x5, 24
    .word 0x0082db93  # srli x23, x5, 8
    .word 0x017f0bb3  # add x23, x30, x23
    .word 0x01790933  # add x18, x18, x23
    .word 0x0128c2b3  # xor x5, x17, x18
    .word 0x01929f13  # slli x30, x5, 25
    .word 0x0072d893  # srli x17, x5, 7
    .word 0x011f08b3  # add x17, x30, x17
    .word 0x00e682b3  # add x5, x13, x14
    .word 0x07012303  # lw x6, 112(x2)
    .word 0x006286b3  # add x13, x5, x6
    .word 0x00dc42b3  # xor x5, x24, x13
    .word 0x01029f13  # slli x30, x5, 16
    .word 0x0102dc13  # srli x24, x5, 16
    .word 0x018f0c33  # add x24, x30, x24
    .word 0x018989b3  # add x19, x19, x24
    .word 0x013742b3  # xor x5, x14, x19
    .word 0x01429f13  # slli x30, x5, 20
    .word 0x00c2d713  # srli x14, x5, 12
    .word 0x00ef0733  # add x14, x30, x14
    .word 0x00e682b3  # add x5, x13, x14
    .word 0x009286b3  # add x13, x5, x9
    .word 0x00dc42b3  # xor x5, x24, x13
    .word 0x01829f13  # slli x30, x5, 24
    .word 0x0082dc13  # srli x24, x5, 8
    .word 0x018f0c33  # add x24, x30, x24
    .word 0x018989b3  # add x19, x19, x24
    .word 0x013742b3  # xor x5, x14, x19
    .word 0x01929f13  # slli x30, x5, 25
    .word 0x0072d713  # srli x14, x5, 7
    .word 0x00ef0733  # add x14, x30, x14
    .word 0x00e502b3  # add x5, x10, x14
    .word 0x08812303  # lw x6, 136(x2)
    .word 0x00628533  # add x10, x5, x6
    .word 0x00ab42b3  # xor x5, x22, x10
    .word 0x01029f13  # slli x30, x5, 16
    .word 0x0102db13  # srli x22, x5, 16
    .word 0x016f0b33  # add x22, x30, x22
    .word 0x01690933  # add x18, x18, x22
    .word 0x012742b3  # xor x5, x14, x18
    .word 0x01429f13  # slli x30, x5, 20
    .word 0x00c2d713  # srli x14, x5, 12
    .word 0x00ef0733  # add x14, x30, x14
    .word 0x00e502b3  # add x5, x10, x14
    .word 0x07c12303  # lw x6, 124(x2)
    .word 0x00628533  # add x10, x5, x6
    .word 0x00ab42b3  # xor x5, x22, x10
    .word 0x01829f13  # slli x30, x5, 24
    .word 0x0082db13  # srli x22, x5, 8
    .word 0x016f0b33  # add x22, x30, x22
    .word 0x01690933  # add x18, x18, x22
    .word 0x012742b3  # xor x5, x14, x18
    .word 0x01929f13  # slli x30, x5, 25
    .word 0x0072d713  # srli x14, x5, 7
    .word 0x00ef0733  # add x14, x30, x14
    .word 0x00f582b3  # add x5, x11, x15
    .word 0x08c12303  # lw x6, 140(x2)
    .word 0x006285b3  # add x11, x5, x6
    .word 0x00bbc2b3  # xor x5, x23, x11
    .word 0x01029f13  # slli x30, x5, 16
    .word 0x0102db93  # srli x23, x5, 16
    .word 0x017f0bb3  # add x23, x30, x23
    .word 0x017989b3  # add x19, x19, x23
    .word 0x0137c2b3  # xor x5, x15, x19
    .word 0x01429f13  # slli x30, x5, 20
    .word 0x00c2d793  # srli x15, x5, 12
    .word 0x00ff07b3  # add x15, x30, x15
    .word 0x00f582b3  # add x5, x11, x15
    .word 0x01a285b3  # add x11, x5, x26
    .word 0x00bbc2b3  # xor x5, x23, x11
    .word 0x01829f13  # slli x30, x5, 24
    .word 0x0082db93  # srli x23, x5, 8
    .word 0x017f0bb3  # add x23, x30, x23
    .word 0x017989b3  # add x19, x19, x23
    .word 0x0137c2b3  # xor x5, x15, x19
    .word 0x01929f13  # slli x30, x5, 25
    .word 0x0072d793  # srli x15, x5, 7
    .word 0x00ff07b3  # add x15, x30, x15
    .word 0x010602b3  # add x5, x12, x16
    .word 0x07012303  # lw x6, 112(x2)
    .word 0x00628633  # add x12, x5, x6
    .word 0x00cc42b3  # xor x5, x24, x12
    .word 0x01029f13  # slli x30, x5, 16
    .word 0x0102dc13  # srli x24, x5, 16
    .word 0x018f0c33  # add x24, x30, x24
    .word 0x018a0a33  # add x20, x20, x24
    .word 0x014842b3  # xor x5, x16, x20
    .word 0x01429f13  # slli x30, x5, 20
    .word 0x00c2d813  # srli x16, x5, 12
    .word 0x010f0833  # add x16, x30, x16
    .word 0x010602b3  # add x5, x12, x16
    .word 0x00828633  # add x12, x5, x8
    .word 0x00cc42b3  # xor x5, x24, x12
    .word 0x01829f13  # slli x30, x5, 24
    .word 0x0082dc13  # srli x24, x5, 8
    .word 0x018f0c33  # add x24, x30, x24
    .word 0x018a0a33  # add x20, x20, x24
    .word 0x014842b3  # xor x5, x16, x20
    .word 0x01929f13  # slli x30, x5, 25
    .word 0x0072d813  # srli x16, x5, 7
    .word 0x010f0833  # add x16, x30, x16
    .word 0x011682b3  # add x5, x13, x17
    .word 0x09812303  # lw x6, 152(x2)
    .word 0x006286b3  # add x13, x5, x6
    .word 0x00dcc2b3  # xor x5, x25, x13
    .word 0x01029f13  # slli x30, x5, 16
    .word 0x0102dc93  # srli x25, x5, 16
    .word 0x019f0cb3  # add x25, x30, x25
    .word 0x019a8ab3  # add x21, x21, x25
    .word 0x0158c2b3  # xor x5, x17, x21
    .word 0x01429f13  # slli x30, x5, 20
    .word 0x00c2d893  # srli x17, x5, 12
    .word 0x011f08b3  # add x17, x30, x17
    .word 0x011682b3  # add x5, x13, x17
    .word 0x09012303  # lw x6, 144(x2)
    .word 0x006286b3  # add x13, x5, x6
    .word 0x00dcc2b3  # xor x5, x25, x13
    .word 0x01829f13  # slli x30, x5, 24
    .word 0x0082dc93  # srli x25, x5, 8
    .word 0x019f0cb3  # add x25, x30, x25
    .word 0x019a8ab3  # add x21, x21, x25
    .word 0x0158c2b3  # xor x5, x17, x21
    .word 0x01929f13  # slli x30, x5, 25
    .word 0x0072d893  # srli x17, x5, 7
    .word 0x011f08b3  # add x17, x30, x17
    .word 0x00f502b3  # add x5, x10, x15
    .word 0x08412303  # lw x6, 132(x2)
    .word 0x00628533  # add x10, x5, x6
    .word 0x00acc2b3  # xor x5, x25, x10
    .word 0x01029f13  # slli x30, x5, 16
    .word 0x0102dc93  # srli x25, x5, 16
    .word 0x019f0cb3  # add x25, x30, x25
    .word 0x019a0a33  # add x20, x20, x25
    .word 0x0147c2b3  # xor x5, x15, x20
    .word 0x01429f13  # slli x30, x5, 20
    .word 0x00c2d793  # srli x15, x5, 12
    .word 0x00ff07b3  # add x15, x30, x15
    .word 0x00f502b3  # add x5, x10, x15
    .word 0x09412303  # lw x6, 148(x2)
    .word 0x00628533  # add x10, x5, x6
    .word 0x00acc2b3  # xor x5, x25, x10
    .word 0x01829f13  # slli x30, x5, 24
    .word 0x0082dc93  # srli x25, x5, 8
    .word 0x019f0cb3  # add x25, x30, x25
    .word 0x019a0a33  # add x20, x20, x25
    .word 0x0147c2b3  # xor x5, x15, x20
    .word 0x01929f13  # slli x30, x5, 25
    .word 0x0072d793  # srli x15, x5, 7
    .word 0x00ff07b3  # add x15, x30, x15
    .word 0x010582b3  # add x5, x11, x16
    .word 0x009285b3  # add x11, x5, x9
    .word 0x00bb42b3  # xor x5, x22, x11
    .word 0x01029f13  # slli x30, x5, 16
    .word 0x0102db13  # srli x22, x5, 16
    .word 0x016f0b33  # add x22, x30, x22
    .word 0x016a8ab3  # add x21, x21, x22
    .word 0x015842b3  # xor x5, x16, x21
    .word 0x01429f13  # slli x30, x5, 20
    .word 0x00c2d813  # srli x16, x5, 12
    .word 0x010f0833  # add x16, x30, x16
    .word 0x010582b3  # add x5, x11, x16
    .word 0x07412303  # lw x6, 116(x2)
    .word 0x006285b3  # add x11, x5, x6
    .word 0x00bb42b3  # xor x5, x22, x11
    .word 0x01829f13  # slli x30, x5, 24
    .word 0x0082db13  # srli x22, x5, 8
    .word 0x016f0b33  # add x22, x30, x22
    .word 0x016a8ab3  # add x21, x21, x22
    .word 0x015842b3  # xor x5, x16, x21
    .word 0x01929f13  # slli x30, x5, 25
    .word 0x0072d813  # srli x16, x5, 7
    .word 0x010f0833  # add x16, x30, x16
    .word 0x011602b3  # add x5, x12, x17
    .word 0x07812303  # lw x6, 120(x2)
    .word 0x00628633  # add x12, x5, x6
    .word 0x00cbc2b3  # xor x5, x23, x12
    .word 0x01029f13  # slli x30, x5, 16
    .word 0x0102db93  # srli x23, x5, 16
    .word 0x017f0bb3  # add x23, x30, x23
    .word 0x01790933  # add x18, x18, x23
    .word 0x0128c2b3  # xor x5, x17, x18
    .word 0x01429f13  # slli x30, x5, 20
    .word 0x00c2d893  # srli x17, x5, 12
    .word 0x011f08b3  # add x17, x30, x17
    .word 0x011602b3  # add x5, x12, x17
    .word 0x01b28633  # add x12, x5, x27
    .word 0x00cbc2b3  # xor x5, x23, x12
    .word 0x01829f13  # slli x30, x5, 24
    .word 0x0082db93  # srli x23, x5, 8
    .word 0x017f0bb3  # add x23, x30, x23
    .word 0x01790933  # add x18, x18, x23
    .word 0x0128c2b3  # xor x5, x17, x18
    .word 0x01929f13  # slli x30, x5, 25
    .word 0x0072d893  # srli x17, x5, 7
    .word 0x011f08b3  # add x17, x30, x17
    .word 0x00e682b3  # add x5, x13, x14
    .word 0x08012303  # lw x6, 128(x2)
    .word 0x006286b3  # add x13, x5, x6
    .word 0x00dc42b3  # xor x5, x24, x13
    .word 0x01029f13  # slli x30, x5, 16
    .word 0x0102dc13  # srli x24, x5, 16
    .word 0x018f0c33  # add x24, x30, x24
    .word 0x018989b3  # add x19, x19, x24
    .word 0x013742b3  # xor x5, x14, x19
    .word 0x01429f13  # slli x30, x5, 20
    .word 0x00c2d713  # srli x14, x5, 12
    .word 0x00ef0733  # add x14, x30, x14
    .word 0x00e682b3  # add x5, x13, x14
    .word 0x06c12303  # lw x6, 108(x2)
    .word 0x006286b3  # add x13, x5, x6
    .word 0x00dc42b3  # xor x5, x24, x13
    .word 0x01829f13  # slli x30, x5, 24
    .word 0x0082dc13  # srli x24, x5, 8
    .word 0x018f0c33  # add x24, x30, x24
    .word 0x018989b3  # add x19, x19, x24
    .word 0x013742b3  # xor x5, x14, x19
    .word 0x01929f13  # slli x30, x5, 25
    .word 0x0072d713  # srli x14, x5, 7
    .word 0x00ef0733  # add x14, x30, x14
    .word 0x00e502b3  # add x5, x10, x14
    .word 0x07812303  # lw x6, 120(x2)
    .word 0x00628533  # add x10, x5, x6
    .word 0x00ab42b3  # xor x5, x22, x10
    .word 0x01029f13  # slli x30, x5, 16
    .word 0x0102db13  # srli x22, x5, 16
    .word 0x016f0b33  # add x22, x30, x22
    .word 0x01690933  # add x18, x18, x22
    .word 0x012742b3  # xor x5, x14, x18
    .word 0x01429f13  # slli x30, x5, 20
    .word 0x00c2d713  # srli x14, x5, 12
    .word 0x00ef0733  # add x14, x30, x14
    .word 0x00e502b3  # add x5, x10, x14
    .word 0x08012303  # lw x6, 128(x2)
    .word 0x00628533  # add x10, x5, x6
    .word 0x00ab42b3  # xor x5, x22, x10
    .word 0x01829f13  # slli x30, x5, 24
    .word 0x0082db13  # srli x22, x5, 8
    .word 0x016f0b33  # add x22, x30, x22
    .word 0x01690933  # add x18, x18, x22
    .word 0x012742b3  # xor x5, x14, x18
    .word 0x01929f13  # slli x30, x5, 25
    .word 0x0072d713  # srli x14, x5, 7
    .word 0x00ef0733  # add x14, x30, x14
    .word 0x00f582b3  # add x5, x11, x15
    .word 0x009285b3  # add x11, x5, x9
    .word 0x00bbc2b3  # xor x5, x23, x11
    .word 0x01029f13  # slli x30, x5, 16
    .word 0x0102db93  # srli x23, x5, 16
    .word 0x017f0bb3  # add x23, x30, x23
    .word 0x017989b3  # add x19, x19, x23
    .word 0x0137c2b3  # xor x5, x15, x19
    .word 0x01429f13  # slli x30, x5, 20
    .word 0x00c2d793  # srli x15, x5, 12
    .word 0x00ff07b3  # add x15, x30, x15
    .word 0x00f582b3  # add x5, x11, x15
    .word 0x01b285b3  # add x11, x5, x27
    .word 0x00bbc2b3  # xor x5, x23, x11
    .word 0x01829f13  # slli x30, x5, 24
    .word 0x0082db93  # srli x23, x5, 8
    .word 0x017f0bb3  # add x23, x30, x23
    .word 0x017989b3  # add x19, x19, x23
    .word 0x0137c2b3  # xor x5, x15, x19
    .word 0x01929f13  # slli x30, x5, 25
    .word 0x0072d793  # srli x15, x5, 7
    .word 0x00ff07b3  # add x15, x30, x15
    .word 0x010602b3  # add x5, x12, x16
    .word 0x09012303  # lw x6, 144(x2)
    .word 0x00628633  # add x12, x5, x6
    .word 0x00cc42b3  # xor x5, x24, x12
    .word 0x01029f13  # slli x30, x5, 16
    .word 0x0102dc13  # srli x24, x5, 16
    .word 0x018f0c33  # add x24, x30, x24
    .word 0x018a0a33  # add x20, x20, x24
    .word 0x014842b3  # xor x5, x16, x20
    .word 0x01429f13  # slli x30, x5, 20
    .word 0x00c2d813  # srli x16, x5, 12
    .word 0x010f0833  # add x16, x30, x16
    .word 0x010602b3  # add x5, x12, x16
    .word 0x08c12303  # lw x6, 140(x2)
    .word 0x00628633  # add x12, x5, x6
    .word 0x00cc42b3  # xor x5, x24, x12
    .word 0x01829f13  # slli x30, x5, 24
    .word 0x0082dc13  # srli x24, x5, 8
    .word 0x018f0c33  # add x24, x30, x24
    .word 0x018a0a33  # add x20, x20, x24
    .word 0x014842b3  # xor x5, x16, x20
    .word 0x01929f13  # slli x30, x5, 25
    .word 0x0072d813  # srli x16, x5, 7
    .word 0x010f0833  # add x16, x30, x16
    .word 0x011682b3  # add x5, x13, x17
    .word 0x08812303  # lw x6, 136(x2)
    .word 0x006286b3  # add x13, x5, x6
    .word 0x00dcc2b3  # xor x5, x25, x13
    .word 0x01029f13  # slli x30, x5, 16
    .word 0x0102dc93  # srli x25, x5, 16
    .word 0x019f0cb3  # add x25, x30, x25
    .word 0x019a8ab3  # add x21, x21, x25
    .word 0x0158c2b3  # xor x5, x17, x21
    .word 0x01429f13  # slli x30, x5, 20
    .word 0x00c2d893  # srli x17, x5, 12
    .word 0x011f08b3  # add x17, x30, x17
    .word 0x011682b3  # add x5, x13, x17
    .word 0x09412303  # lw x6, 148(x2)
    .word 0x006286b3  # add x13, x5, x6
    .word 0x00dcc2b3  # xor x5, x25, x13
    .word 0x01829f13  # slli x30, x5, 24
    .word 0x0082dc93  # srli x25, x5, 8
    .word 0x019f0cb3  # add x25, x30, x25
    .word 0x019a8ab3  # add x21, x21, x25
    .word 0x0158c2b3  # xor x5, x17, x21
    .word 0x01929f13  # slli x30, x5, 25
    .word 0x0072d893  # srli x17, x5, 7
    .word 0x011f08b3  # add x17, x30, x17
    .word 0x00f502b3  # add x5, x10, x15
    .word 0x00828533  # add x10, x5, x8
    .word 0x00acc2b3  # xor x5, x25, x10
    .word 0x01029f13  # slli x30, x5, 16
    .word 0x0102dc93  # srli x25, x5, 16
    .word 0x019f0cb3  # add x25, x30, x25
    .word 0x019a0a33  # add x20, x20, x25
    .word 0x0147c2b3  # xor x5, x15, x20
    .word 0x01429f13  # slli x30, x5, 20
    .word 0x00c2d793  # srli x15, x5, 12
    .word 0x00ff07b3  # add x15, x30, x15
    .word 0x00f502b3  # add x5, x10, x15
    .word 0x07412303  # lw x6, 116(x2)
    .word 0x00628533  # add x10, x5, x6
    .word 0x00acc2b3  # xor x5, x25, x10
    .word 0x01829f13  # slli x30, x5, 24
    .word 0x0082dc93  # srli x25, x5, 8
    .word 0x019f0cb3  # add x25, x30, x25
    .word 0x019a0a33  # add x20, x20, x25
    .word 0x0147c2b3  # xor x5, x15, x20
    .word 0x01929f13  # slli x30, x5, 25
    .word 0x0072d793  # srli x15, x5, 7
    .word 0x00ff07b3  # add x15, x30, x15
    .word 0x010582b3  # add x5, x11, x16
    .word 0x07012303  # lw x6, 112(x2)
    .word 0x006285b3  # add x11, x5, x6
    .word 0x00bb42b3  # xor x5, x22, x11
    .word 0x01029f13  # slli x30, x5, 16
    .word 0x0102db13  # srli x22, x5, 16
    .word 0x016f0b33  # add x22, x30, x22
    .word 0x016a8ab3  # add x21, x21, x22
    .word 0x015842b3  # xor x5, x16, x21
    .word 0x01429f13  # slli x30, x5, 20
    .word 0x00c2d813  # srli x16, x5, 12
    .word 0x010f0833  # add x16, x30, x16
    .word 0x010582b3  # add x5, x11, x16
    .word 0x08412303  # lw x6, 132(x2)
    .word 0x006285b3  # add x11, x5, x6
    .word 0x00bb42b3  # xor x5, x22, x11
    .word 0x01829f13  # slli x30, x5, 24
    .word 0x0082db13  # srli x22, x5, 8
    .word 0x016f0b33  # add x22, x30, x22
    .word 0x016a8ab3  # add x21, x21, x22
    .word 0x015842b3  # xor x5, x16, x21
    .word 0x01929f13  # slli x30, x5, 25
    .word 0x0072d813  # srli x16, x5, 7
    .word 0x010f0833  # add x16, x30, x16
    .word 0x011602b3  # add x5, x12, x17
    .word 0x06c12303  # lw x6, 108(x2)
    .word 0x00628633  # add x12, x5, x6
    .word 0x00cbc2b3  # xor x5, x23, x12
    .word 0x01029f13  # slli x30, x5, 16
    .word 0x0102db93  # srli x23, x5, 16
    .word 0x017f0bb3  # add x23, x30, x23
    .word 0x01790933  # add x18, x18, x23
    .word 0x0128c2b3  # xor x5, x17, x18
    .word 0x01429f13  # slli x30, x5, 20
    .word 0x00c2d893  # srli x17, x5, 12
    .word 0x011f08b3  # add x17, x30, x17
    .word 0x011602b3  # add x5, x12, x17
    .word 0x01a28633  # add x12, x5, x26
    .word 0x00cbc2b3  # xor x5, x23, x12
    .word 0x01829f13  # slli x30, x5, 24
    .word 0x0082db93  # srli x23, x5, 8
    .word 0x017f0bb3  # add x23, x30, x23
    .word 0x01790933  # add x18, x18, x23
    .word 0x0128c2b3  # xor x5, x17, x18
    .word 0x01929f13  # slli x30, x5, 25
    .word 0x0072d893  # srli x17, x5, 7
    .word 0x011f08b3  # add x17, x30, x17
    .word 0x00e682b3  # add x5, x13, x14
    .word 0x09812303  # lw x6, 152(x2)
    .word 0x006286b3  # add x13, x5, x6
    .word 0x00dc42b3  # xor x5, x24, x13
    .word 0x01029f13  # slli x30, x5, 16
    .word 0x0102dc13  # srli x24, x5, 16
    .word 0x018f0c33  # add x24, x30, x24
    .word 0x018989b3  # add x19, x19, x24
    .word 0x013742b3  # xor x5, x14, x19
    .word 0x01429f13  # slli x30, x5, 20
    .word 0x00c2d713  # srli x14, x5, 12
    .word 0x00ef0733  # add x14, x30, x14
    .word 0x00e682b3  # add x5, x13, x14
    .word 0x07c12303  # lw x6, 124(x2)
    .word 0x006286b3  # add x13, x5, x6
    .word 0x00dc42b3  # xor x5, x24, x13
    .word 0x01829f13  # slli x30, x5, 24
    .word 0x0082dc13  # srli x24, x5, 8
    .word 0x018f0c33  # add x24, x30, x24
    .word 0x018989b3  # add x19, x19, x24
    .word 0x013742b3  # xor x5, x14, x19
    .word 0x01929f13  # slli x30, x5, 25
    .word 0x0072d713  # srli x14, x5, 7
    .word 0x00ef0733  # add x14, x30, x14
    .word 0x00e502b3  # add x5, x10, x14
    .word 0x08012303  # lw x6, 128(x2)
    .word 0x00628533  # add x10, x5, x6
    .word 0x00ab42b3  # xor x5, x22, x10
    .word 0x01029f13  # slli x30, x5, 16
    .word 0x0102db13  # srli x22, x5, 16
    .word 0x016f0b33  # add x22, x30, x22
    .word 0x01690933  # add x18, x18, x22
    .word 0x012742b3  # xor x5, x14, x18
    .word 0x01429f13  # slli x30, x5, 20
    .word 0x00c2d713  # srli x14, x5, 12
    .word 0x00ef0733  # add x14, x30, x14
    .word 0x00e502b3  # add x5, x10, x14
    .word 0x01a28533  # add x10, x5, x26
    .word 0x00ab42b3  # xor x5, x22, x10
    .word 0x01829f13  # slli x30, x5, 24
    .word 0x0082db13  # srli x22, x5, 8
    .word 0x016f0b33  # add x22, x30, x22
    .word 0x01690933  # add x18, x18, x22
    .word 0x012742b3  # xor x5, x14, x18
    .word 0x01929f13  # slli x30, x5, 25
    .word 0x0072d713  # srli x14, x5, 7
    .word 0x00ef0733  # add x14, x30, x14
    .word 0x00f582b3  # add x5, x11, x15
    .word 0x07012303  # lw x6, 112(x2)
    .word 0x006285b3  # add x11, x5, x6
    .word 0x00bbc2b3  # xor x5, x23, x11
    .word 0x01029f13  # slli x30, x5, 16
    .word 0x0102db93  # srli x23, x5, 16
    .word 0x017f0bb3  # add x23, x30, x23
    .word 0x017989b3  # add x19, x19, x23
    .word 0x0137c2b3  # xor x5, x15, x19
    .word 0x01429f13  # slli x30, x5, 20
    .word 0x00c2d793  # srli x15, x5, 12
    .word 0x00ff07b3  # add x15, x30, x15
    .word 0x00f582b3  # add x5, x11, x15
    .word 0x07812303  # lw x6, 120(x2)
    .word 0x006285b3  # add x11, x5, x6
    .word 0x00bbc2b3  # xor x5, x23, x11
    .word 0x01829f13  # slli x30, x5, 24
    .word 0x0082db93  # srli x23, x5, 8
    .word 0x017f0bb3  # add x23, x30, x23
    .word 0x017989b3  # add x19, x19, x23
    .word 0x0137c2b3  # xor x5, x15, x19
    .word 0x01929f13  # slli x30, x5, 25
    .word 0x0072d793  # srli x15, x5, 7
    .word 0x00ff07b3  # add x15, x30, x15
    .word 0x010602b3  # add x5, x12, x16
    .word 0x00828633  # add x12, x5, x8
    .word 0x00cc42b3  # xor x5, x24, x12
    .word 0x01029f13  # slli x30, x5, 16
    .word 0x0102dc13  # srli x24, x5, 16
    .word 0x018f0c33  # add x24, x30, x24
    .word 0x018a0a33  # add x20, x20, x24
    .word 0x014842b3  # xor x5, x16, x20
    .word 0x01429f13  # slli x30, x5, 20
    .word 0x00c2d813  # srli x16, x5, 12
    .word 0x010f0833  # add x16, x30, x16
    .word 0x010602b3  # add x5, x12, x16
    .word 0x06c12303  # lw x6, 108(x2)
    .word 0x00628633  # add x12, x5, x6
    .word 0x00cc42b3  # xor x5, x24, x12
    .word 0x01829f13  # slli x30, x5, 24
    .word 0x0082dc13  # srli x24, x5, 8
    .word 0x018f0c33  # add x24, x30, x24
    .word 0x018a0a33  # add x20, x20, x24
    .word 0x014842b3  # xor x5, x16, x20
    .word 0x01929f13  # slli x30, x5, 25
    .word 0x0072d813  # srli x16, x5, 7
    .word 0x010f0833  # add x16, x30, x16
    .word 0x011682b3  # add x5, x13, x17
    .word 0x08412303  # lw x6, 132(x2)
    .word 0x006286b3  # add x13, x5, x6
    .word 0x00dcc2b3  # xor x5, x25, x13
    .word 0x01029f13  # slli x30, x5, 16
    .word 0x0102dc93  # srli x25, x5, 16
    .word 0x019f0cb3  # add x25, x30, x25
    .word 0x019a8ab3  # add x21, x21, x25
    .word 0x0158c2b3  # xor x5, x17, x21
    .word 0x01429f13  # slli x30, x5, 20
    .word 0x00c2d893  # srli x17, x5, 12
    .word 0x011f08b3  # add x17, x30, x17
    .word 0x011682b3  # add x5, x13, x17
    .word 0x09812303  # lw x6, 152(x2)
    .word 0x006286b3  # add x13, x5, x6
    .word 0x00dcc2b3  # xor x5, x25, x13
    .word 0x01829f13  # slli x30, x5, 24
    .word 0x0082dc93  # srli x25, x5, 8
    .word 0x019f0cb3  # add x25, x30, x25
    .word 0x019a8ab3  # add x21, x21, x25
    .word 0x0158c2b3  # xor x5, x17, x21
    .word 0x01929f13  # slli x30, x5, 25
    .word 0x0072d893  # srli x17, x5, 7
    .word 0x011f08b3  # add x17, x30, x17
    .word 0x00f502b3  # add x5, x10, x15
    .word 0x09412303  # lw x6, 148(x2)
    .word 0x00628533  # add x10, x5, x6
    .word 0x00acc2b3  # xor x5, x25, x10
    .word 0x01029f13  # slli x30, x5, 16
    .word 0x0102dc93  # srli x25, x5, 16
    .word 0x019f0cb3  # add x25, x30, x25
    .word 0x019a0a33  # add x20, x20, x25
    .word 0x0147c2b3  # xor x5, x15, x20
    .word 0x01429f13  # slli x30, x5, 20
    .word 0x00c2d793  # srli x15, x5, 12
    .word 0x00ff07b3  # add x15, x30, x15
    .word 0x00f502b3  # add x5, x10, x15
    .word 0x01b28533  # add x10, x5, x27
    .word 0x00acc2b3  # xor x5, x25, x10
    .word 0x01829f13  # slli x30, x5, 24
    .word 0x0082dc93  # srli x25, x5, 8
    .word 0x019f0cb3  # add x25, x30, x25
    .word 0x019a0a33  # add x20, x20, x25
    .word 0x0147c2b3  # xor x5, x15, x20
    .word 0x01929f13  # slli x30, x5, 25
    .word 0x0072d793  # srli x15, x5, 7
    .word 0x00ff07b3  # add x15, x30, x15
    .word 0x010582b3  # add x5, x11, x16
    .word 0x08812303  # lw x6, 136(x2)
    .word 0x006285b3  # add x11, x5, x6
    .word 0x00bb42b3  # xor x5, x22, x11
    .word 0x01029f13  # slli x30, x5, 16
    .word 0x0102db13  # srli x22, x5, 16
    .word 0x016f0b33  # add x22, x30, x22
    .word 0x016a8ab3  # add x21, x21, x22
    .word 0x015842b3  # xor x5, x16, x21
    .word 0x01429f13  # slli x30, x5, 20
    .word 0x00c2d813  # srli x16, x5, 12
    .word 0x010f0833  # add x16, x30, x16
    .word 0x010582b3  # add x5, x11, x16
    .word 0x08c12303  # lw x6, 140(x2)
    .word 0x006285b3  # add x11, x5, x6
    .word 0x00bb42b3  # xor x5, x22, x11
    .word 0x01829f13  # slli x30, x5, 24
    .word 0x0082db13  # srli x22, x5, 8
    .word 0x016f0b33  # add x22, x30, x22
    .word 0x016a8ab3  # add x21, x21, x22
    .word 0x015842b3  # xor x5, x16, x21
    .word 0x01929f13  # slli x30, x5, 25
    .word 0x0072d813  # srli x16, x5, 7
    .word 0x010f0833  # add x16, x30, x16
    .word 0x011602b3  # add x5, x12, x17
    .word 0x07412303  # lw x6, 116(x2)
    .word 0x00628633  # add x12, x5, x6
    .word 0x00cbc2b3  # xor x5, x23, x12
    .word 0x01029f13  # slli x30, x5, 16
    .word 0x0102db93  # srli x23, x5, 16
    .word 0x017f0bb3  # add x23, x30, x23
    .word 0x01790933  # add x18, x18, x23
    .word 0x0128c2b3  # xor x5, x17, x18
    .word 0x01429f13  # slli x30, x5, 20
    .word 0x00c2d893  # srli x17, x5, 12
    .word 0x011f08b3  # add x17, x30, x17
    .word 0x011602b3  # add x5, x12, x17
    .word 0x07c12303  # lw x6, 124(x2)
    .word 0x00628633  # add x12, x5, x6
    .word 0x00cbc2b3  # xor x5, x23, x12
    .word 0x01829f13  # slli x30, x5, 24
    .word 0x0082db93  # srli x23, x5, 8
    .word 0x017f0bb3  # add x23, x30, x23
    .word 0x01790933  # add x18, x18, x23
    .word 0x0128c2b3  # xor x5, x17, x18
    .word 0x01929f13  # slli x30, x5, 25
    .word 0x0072d893  # srli x17, x5, 7
    .word 0x011f08b3  # add x17, x30, x17
    .word 0x00e682b3  # add x5, x13, x14
    .word 0x009286b3  # add x13, x5, x9
    .word 0x00dc42b3  # xor x5, x24, x13
    .word 0x01029f13  # slli x30, x5, 16
    .word 0x0102dc13  # srli x24, x5, 16
    .word 0x018f0c33  # add x24, x30, x24
    .word 0x018989b3  # add x19, x19, x24
    .word 0x013742b3  # xor x5, x14, x19
    .word 0x01429f13  # slli x30, x5, 20
    .word 0x00c2d713  # srli x14, x5, 12
    .word 0x00ef0733  # add x14, x30, x14
    .word 0x00e682b3  # add x5, x13, x14
    .word 0x09012303  # lw x6, 144(x2)
    .word 0x006286b3  # add x13, x5, x6
    .word 0x00dc42b3  # xor x5, x24, x13
    .word 0x01829f13  # slli x30, x5, 24
    .word 0x0082dc13  # srli x24, x5, 8
    .word 0x018f0c33  # add x24, x30, x24
    .word 0x018989b3  # add x19, x19, x24
    .word 0x013742b3  # xor x5, x14, x19
    .word 0x01929f13  # slli x30, x5, 25
    .word 0x0072d713  # srli x14, x5, 7
    .word 0x00ef0733  # add x14, x30, x14
    .word 0x00e502b3  # add x5, x10, x14
    .word 0x00828533  # add x10, x5, x8
    .word 0x00ab42b3  # xor x5, x22, x10
    .word 0x01029f13  # slli x30, x5, 16
    .word 0x0102db13  # srli x22, x5, 16
    .word 0x016f0b33  # add x22, x30, x22
    .word 0x01690933  # add x18, x18, x22
    .word 0x012742b3  # xor x5, x14, x18
    .word 0x01429f13  # slli x30, x5, 20
    .word 0x00c2d713  # srli x14, x5, 12
    .word 0x00ef0733  # add x14, x30, x14
    .word 0x00e502b3  # add x5, x10, x14
    .word 0x08c12303  # lw x6, 140(x2)
    .word 0x00628533  # add x10, x5, x6
    .word 0x00ab42b3  # xor x5, x22, x10
    .word 0x01829f13  # slli x30, x5, 24
    .word 0x0082db13  # srli x22, x5, 8
    .word 0x016f0b33  # add x22, x30, x22
    .word 0x01690933  # add x18, x18, x22
    .word 0x012742b3  # xor x5, x14, x18
    .word 0x01929f13  # slli x30, x5, 25
    .word 0x0072d713  # srli x14, x5, 7
    .word 0x00ef0733  # add x14, x30, x14
    .word 0x00f582b3  # add x5, x11, x15
    .word 0x07412303  # lw x6, 116(x2)
    .word 0x006285b3  # add x11, x5, x6
    .word 0x00bbc2b3  # xor x5, x23, x11
    .word 0x01029f13  # slli x30, x5, 16
    .word 0x0102db93  # srli x23, x5, 16
    .word 0x017f0bb3  # add x23, x30, x23
    .word 0x017989b3  # add x19, x19, x23
    .word 0x0137c2b3  # xor x5, x15, x19
    .word 0x01429f13  # slli x30, x5, 20
    .word 0x00c2d793  # srli x15, x5, 12
    .word 0x00ff07b3  # add x15, x30, x15
    .word 0x00f582b3  # add x5, x11, x15
    .word 0x08412303  # lw x6, 132(x2)
    .word 0x006285b3  # add x11, x5, x6
    .word 0x00bbc2b3  # xor x5, x23, x11
    .word 0x01829f13  # slli x30, x5, 24
    .word 0x0082db93  # srli x23, x5, 8
    .word 0x017f0bb3  # add x23, x30, x23
    .word 0x017989b3  # add x19, x19, x23
    .word 0x0137c2b3  # xor x5, x15, x19
    .word 0x01929f13  # slli x30, x5, 25
    .word 0x0072d793  # srli x15, x5, 7
    .word 0x00ff07b3  # add x15, x30, x15
    .word 0x010602b3  # add x5, x12, x16
    .word 0x01a28633  # add x12, x5, x26
    .word 0x00cc42b3  # xor x5, x24, x12
    .word 0x01029f13  # slli x30, x5, 16
    .word 0x0102dc13  # srli x24, x5, 16
    .word 0x018f0c33  # add x24, x30, x24
    .word 0x018a0a33  # add x20, x20, x24
    .word 0x014842b3  # xor x5, x16, x20
    .word 0x01429f13  # slli x30, x5, 20
    .word 0x00c2d813  # srli x16, x5, 12
    .word 0x010f0833  # add x16, x30, x16
    .word 0x010602b3  # add x5, x12, x16
    .word 0x08812303  # lw x6, 136(x2)
    .word 0x00628633  # add x12, x5, x6
    .word 0x00cc42b3  # xor x5, x24, x12
    .word 0x01829f13  # slli x30, x5, 24
    .word 0x0082dc13  # srli x24, x5, 8
    .word 0x018f0c33  # add x24, x30, x24
    .word 0x018a0a33  # add x20, x20, x24
    .word 0x014842b3  # xor x5, x16, x20
    .word 0x01929f13  # slli x30, x5, 25
    .word 0x0072d813  # srli x16, x5, 7
    .word 0x010f0833  # add x16, x30, x16
    .word 0x011682b3  # add x5, x13, x17
    .word 0x07c12303  # lw x6, 124(x2)
    .word 0x006286b3  # add x13, x5, x6
    .word 0x00dcc2b3  # xor x5, x25, x13
    .word 0x01029f13  # slli x30, x5, 16
    .word 0x0102dc93  # srli x25, x5, 16
    .word 0x019f0cb3  # add x25, x30, x25
    .word 0x019a8ab3  # add x21, x21, x25
    .word 0x0158c2b3  # xor x5, x17, x21
    .word 0x01429f13  # slli x30, x5, 20
    .word 0x00c2d893  # srli x17, x5, 12
    .word 0x011f08b3  # add x17, x30, x17
    .word 0x011682b3  # add x5, x13, x17
    .word 0x009286b3  # add x13, x5, x9
    .word 0x00dcc2b3  # xor x5, x25, x13
    .word 0x01829f13  # slli x30, x5, 24
    .word 0x0082dc93  # srli x25, x5, 8
    .word 0x019f0cb3  # add x25, x30, x25
    .word 0x019a8ab3  # add x21, x21, x25
    .word 0x0158c2b3  # xor x5, x17, x21
    .word 0x01929f13  # slli x30, x5, 25
    .word 0x0072d893  # srli x17, x5, 7
    .word 0x011f08b3  # add x17, x30, x17
    .word 0x00f502b3  # add x5, x10, x15
    .word 0x06c12303  # lw x6, 108(x2)
    .word 0x00628533  # add x10, x5, x6
    .word 0x00acc2b3  # xor x5, x25, x10
    .word 0x01029f13  # slli x30, x5, 16
    .word 0x0102dc93  # srli x25, x5, 16
    .word 0x019f0cb3  # add x25, x30, x25
    .word 0x019a0a33  # add x20, x20, x25
    .word 0x0147c2b3  # xor x5, x15, x20
    .word 0x01429f13  # slli x30, x5, 20
    .word 0x00c2d793  # srli x15, x5, 12
    .word 0x00ff07b3  # add x15, x30, x15
    .word 0x00f502b3  # add x5, x10, x15
    .word 0x09012303  # lw x6, 144(x2)
    .word 0x00628533  # add x10, x5, x6
    .word 0x00acc2b3  # xor x5, x25, x10
    .word 0x01829f13  # slli x30, x5, 24
    .word 0x0082dc93  # srli x25, x5, 8
    .word 0x019f0cb3  # add x25, x30, x25
    .word 0x019a0a33  # add x20, x20, x25
    .word 0x0147c2b3  # xor x5, x15, x20
    .word 0x01929f13  # slli x30, x5, 25
    .word 0x0072d793  # srli x15, x5, 7
    .word 0x00ff07b3  # add x15, x30, x15
    .word 0x010582b3  # add x5, x11, x16
    .word 0x07812303  # lw x6, 120(x2)
    .word 0x006285b3  # add x11, x5, x6
    .word 0x00bb42b3  # xor x5, x22, x11
    .word 0x01029f13  # slli x30, x5, 16
    .word 0x0102db13  # srli x22, x5, 16
    .word 0x016f0b33  # add x22, x30, x22
    .word 0x016a8ab3  # add x21, x21, x22
    .word 0x015842b3  # xor x5, x16, x21
    .word 0x01429f13  # slli x30, x5, 20
    .word 0x00c2d813  # srli x16, x5, 12
    .word 0x010f0833  # add x16, x30, x16
    .word 0x010582b3  # add x5, x11, x16
    .word 0x07012303  # lw x6, 112(x2)
    .word 0x006285b3  # add x11, x5, x6
    .word 0x00bb42b3  # xor x5, x22, x11
    .word 0x01829f13  # slli x30, x5, 24
    .word 0x0082db13  # srli x22, x5, 8
    .word 0x016f0b33  # add x22, x30, x22
    .word 0x016a8ab3  # add x21, x21, x22
    .word 0x015842b3  # xor x5, x16, x21
    .word 0x01929f13  # slli x30, x5, 25
    .word 0x0072d813  # srli x16, x5, 7
    .word 0x010f0833  # add x16, x30, x16
    .word 0x011602b3  # add x5, x12, x17
    .word 0x09812303  # lw x6, 152(x2)
    .word 0x00628633  # add x12, x5, x6
    .word 0x00cbc2b3  # xor x5, x23, x12
    .word 0x01029f13  # slli x30, x5, 16
    .word 0x0102db93  # srli x23, x5, 16
    .word 0x017f0bb3  # add x23, x30, x23
    .word 0x01790933  # add x18, x18, x23
    .word 0x0128c2b3  # xor x5, x17, x18
    .word 0x01429f13  # slli x30, x5, 20
    .word 0x00c2d893  # srli x17, x5, 12
    .word 0x011f08b3  # add x17, x30, x17
    .word 0x011602b3  # add x5, x12, x17
    .word 0x09412303  # lw x6, 148(x2)
    .word 0x00628633  # add x12, x5, x6
    .word 0x00cbc2b3  # xor x5, x23, x12
    .word 0x01829f13  # slli x30, x5, 24
    .word 0x0082db93  # srli x23, x5, 8
    .word 0x017f0bb3  # add x23, x30, x23
    .word 0x01790933  # add x18, x18, x23
    .word 0x0128c2b3  # xor x5, x17, x18
    .word 0x01929f13  # slli x30, x5, 25
    .word 0x0072d893  # srli x17, x5, 7
    .word 0x011f08b3  # add x17, x30, x17
    .word 0x00e682b3  # add x5, x13, x14
    .word 0x01b286b3  # add x13, x5, x27
    .word 0x00dc42b3  # xor x5, x24, x13
    .word 0x01029f13  # slli x30, x5, 16
    .word 0x0102dc13  # srli x24, x5, 16
    .word 0x018f0c33  # add x24, x30, x24
    .word 0x018989b3  # add x19, x19, x24
    .word 0x013742b3  # xor x5, x14, x19
    .word 0x01429f13  # slli x30, x5, 20
    .word 0x00c2d713  # srli x14, x5, 12
    .word 0x00ef0733  # add x14, x30, x14
    .word 0x00e682b3  # add x5, x13, x14
    .word 0x08012303  # lw x6, 128(x2)
    .word 0x006286b3  # add x13, x5, x6
    .word 0x00dc42b3  # xor x5, x24, x13
    .word 0x01829f13  # slli x30, x5, 24
    .word 0x0082dc13  # srli x24, x5, 8
    .word 0x018f0c33  # add x24, x30, x24
    .word 0x018989b3  # add x19, x19, x24
    .word 0x013742b3  # xor x5, x14, x19
    .word 0x01929f13  # slli x30, x5, 25
    .word 0x0072d713  # srli x14, x5, 7
    .word 0x00ef0733  # add x14, x30, x14
    .word 0x00e502b3  # add x5, x10, x14
    .word 0x08c12303  # lw x6, 140(x2)
    .word 0x00628533  # add x10, x5, x6
    .word 0x00ab42b3  # xor x5, x22, x10
    .word 0x01029f13  # slli x30, x5, 16
    .word 0x0102db13  # srli x22, x5, 16
    .word 0x016f0b33  # add x22, x30, x22
    .word 0x01690933  # add x18, x18, x22
    .word 0x012742b3  # xor x5, x14, x18
    .word 0x01429f13  # slli x30, x5, 20
    .word 0x00c2d713  # srli x14, x5, 12
    .word 0x00ef0733  # add x14, x30, x14
    .word 0x00e502b3  # add x5, x10, x14
    .word 0x07012303  # lw x6, 112(x2)
    .word 0x00628533  # add x10, x5, x6
    .word 0x00ab42b3  # xor x5, x22, x10
    .word 0x01829f13  # slli x30, x5, 24
    .word 0x0082db13  # srli x22, x5, 8
    .word 0x016f0b33  # add x22, x30, x22
    .word 0x01690933  # add x18, x18, x22
    .word 0x012742b3  # xor x5, x14, x18
    .word 0x01929f13  # slli x30, x5, 25
    .word 0x0072d713  # srli x14, x5, 7
    .word 0x00ef0733  # add x14, x30, x14
    .word 0x00f582b3  # add x5, x11, x15
    .word 0x01b285b3  # add x11, x5, x27
    .word 0x00bbc2b3  # xor x5, x23, x11
    .word 0x01029f13  # slli x30, x5, 16
    .word 0x0102db93  # srli x23, x5, 16
    .word 0x017f0bb3  # add x23, x30, x23
    .word 0x017989b3  # add x19, x19, x23
    .word 0x0137c2b3  # xor x5, x15, x19
    .word 0x01429f13  # slli x30, x5, 20
    .word 0x00c2d793  # srli x15, x5, 12
    .word 0x00ff07b3  # add x15, x30, x15
    .word 0x00f582b3  # add x5, x11, x15
    .word 0x09812303  # lw x6, 152(x2)
    .word 0x006285b3  # add x11, x5, x6
    .word 0x00bbc2b3  # xor x5, x23, x11
    .word 0x01829f13  # slli x30, x5, 24
    .word 0x0082db93  # srli x23, x5, 8
    .word 0x017f0bb3  # add x23, x30, x23
    .word 0x017989b3  # add x19, x19, x23
    .word 0x0137c2b3  # xor x5, x15, x19
    .word 0x01929f13  # slli x30, x5, 25
    .word 0x0072d793  # srli x15, x5, 7
    .word 0x00ff07b3  # add x15, x30, x15
    .word 0x010602b3  # add x5, x12, x16
    .word 0x09412303  # lw x6, 148(x2)
    .word 0x00628633  # add x12, x5, x6
    .word 0x00cc42b3  # xor x5, x24, x12
    .word 0x01029f13  # slli x30, x5, 16
    .word 0x0102dc13  # srli x24, x5, 16
    .word 0x018f0c33  # add x24, x30, x24
    .word 0x018a0a33  # add x20, x20, x24
    .word 0x014842b3  # xor x5, x16, x20
    .word 0x01429f13  # slli x30, x5, 20
    .word 0x00c2d813  # srli x16, x5, 12
    .word 0x010f0833  # add x16, x30, x16
    .word 0x010602b3  # add x5, x12, x16
    .word 0x09012303  # lw x6, 144(x2)
    .word 0x00628633  # add x12, x5, x6
    .word 0x00cc42b3  # xor x5, x24, x12
    .word 0x01829f13  # slli x30, x5, 24
    .word 0x0082dc13  # srli x24, x5, 8
    .word 0x018f0c33  # add x24, x30, x24
    .word 0x018a0a33  # add x20, x20, x24
    .word 0x014842b3  # xor x5, x16, x20
    .word 0x01929f13  # slli x30, x5, 25
    .word 0x0072d813  # srli x16, x5, 7
    .word 0x010f0833  # add x16, x30, x16
    .word 0x011682b3  # add x5, x13, x17
    .word 0x06c12303  # lw x6, 108(x2)
    .word 0x006286b3  # add x13, x5, x6
    .word 0x00dcc2b3  # xor x5, x25, x13
    .word 0x01029f13  # slli x30, x5, 16
    .word 0x0102dc93  # srli x25, x5, 16
    .word 0x019f0cb3  # add x25, x30, x25
    .word 0x019a8ab3  # add x21, x21, x25
    .word 0x0158c2b3  # xor x5, x17, x21
    .word 0x01429f13  # slli x30, x5, 20
    .word 0x00c2d893  # srli x17, x5, 12
    .word 0x011f08b3  # add x17, x30, x17
    .word 0x011682b3  # add x5, x13, x17
    .word 0x08412303  # lw x6, 132(x2)
    .word 0x006286b3  # add x13, x5, x6
    .word 0x00dcc2b3  # xor x5, x25, x13
    .word 0x01829f13  # slli x30, x5, 24
    .word 0x0082dc93  # srli x25, x5, 8
    .word 0x019f0cb3  # add x25, x30, x25
    .word 0x019a8ab3  # add x21, x21, x25
    .word 0x0158c2b3  # xor x5, x17, x21
    .word 0x01929f13  # slli x30, x5, 25
    .word 0x0072d893  # srli x17, x5, 7
    .word 0x011f08b3  # add x17, x30, x17
    .word 0x00f502b3  # add x5, x10, x15
    .word 0x01a28533  # add x10, x5, x26
    .word 0x00acc2b3  # xor x5, x25, x10
    .word 0x01029f13  # slli x30, x5, 16
    .word 0x0102dc93  # srli x25, x5, 16
    .word 0x019f0cb3  # add x25, x30, x25
    .word 0x019a0a33  # add x20, x20, x25
    .word 0x0147c2b3  # xor x5, x15, x20
    .word 0x01429f13  # slli x30, x5, 20
    .word 0x00c2d793  # srli x15, x5, 12
    .word 0x00ff07b3  # add x15, x30, x15
    .word 0x00f502b3  # add x5, x10, x15
    .word 0x07812303  # lw x6, 120(x2)
    .word 0x00628533  # add x10, x5, x6
    .word 0x00acc2b3  # xor x5, x25, x10
    .word 0x01829f13  # slli x30, x5, 24
    .word 0x0082dc93  # srli x25, x5, 8
    .word 0x019f0cb3  # add x25, x30, x25
    .word 0x019a0a33  # add x20, x20, x25
    .word 0x0147c2b3  # xor x5, x15, x20
    .word 0x01929f13  # slli x30, x5, 25
    .word 0x0072d793  # srli x15, x5, 7
    .word 0x00ff07b3  # add x15, x30, x15
    .word 0x010582b3  # add x5, x11, x16
    .word 0x07412303  # lw x6, 116(x2)
    .word 0x006285b3  # add x11, x5, x6
    .word 0x00bb42b3  # xor x5, x22, x11
    .word 0x01029f13  # slli x30, x5, 16
    .word 0x0102db13  # srli x22, x5, 16
    .word 0x016f0b33  # add x22, x30, x22
    .word 0x016a8ab3  # add x21, x21, x22
    .word 0x015842b3  # xor x5, x16, x21
    .word 0x01429f13  # slli x30, x5, 20
    .word 0x00c2d813  # srli x16, x5, 12
    .word 0x010f0833  # add x16, x30, x16
    .word 0x010582b3  # add x5, x11, x16
    .word 0x009285b3  # add x11, x5, x9
    .word 0x00bb42b3  # xor x5, x22, x11
    .word 0x01829f13  # slli x30, x5, 24
    .word 0x0082db13  # srli x22, x5, 8
    .word 0x016f0b33  # add x22, x30, x22
    .word 0x016a8ab3  # add x21, x21, x22
    .word 0x015842b3  # xor x5, x16, x21
    .word 0x01929f13  # slli x30, x5, 25
    .word 0x0072d813  # srli x16, x5, 7
    .word 0x010f0833  # add x16, x30, x16
    .word 0x011602b3  # add x5, x12, x17
    .word 0x08012303  # lw x6, 128(x2)
    .word 0x00628633  # add x12, x5, x6
    .word 0x00cbc2b3  # xor x5, x23, x12
    .word 0x01029f13  # slli x30, x5, 16
    .word 0x0102db93  # srli x23, x5, 16
    .word 0x017f0bb3  # add x23, x30, x23
    .word 0x01790933  # add x18, x18, x23
    .word 0x0128c2b3  # xor x5, x17, x18
    .word 0x01429f13  # slli x30, x5, 20
    .word 0x00c2d893  # srli x17, x5, 12
    .word 0x011f08b3  # add x17, x30, x17
    .word 0x011602b3  # add x5, x12, x17
    .word 0x00828633  # add x12, x5, x8
    .word 0x00cbc2b3  # xor x5, x23, x12
    .word 0x01829f13  # slli x30, x5, 24
    .word 0x0082db93  # srli x23, x5, 8
    .word 0x017f0bb3  # add x23, x30, x23
    .word 0x01790933  # add x18, x18, x23
    .word 0x0128c2b3  # xor x5, x17, x18
    .word 0x01929f13  # slli x30, x5, 25
    .word 0x0072d893  # srli x17, x5, 7
    .word 0x011f08b3  # add x17, x30, x17
    .word 0x00e682b3  # add x5, x13, x14
    .word 0x07c12303  # lw x6, 124(x2)
    .word 0x006286b3  # add x13, x5, x6
    .word 0x00dc42b3  # xor x5, x24, x13
    .word 0x01029f13  # slli x30, x5, 16
    .word 0x0102dc13  # srli x24, x5, 16
    .word 0x018f0c33  # add x24, x30, x24
    .word 0x018989b3  # add x19, x19, x24
    .word 0x013742b3  # xor x5, x14, x19
    .word 0x01429f13  # slli x30, x5, 20
    .word 0x00c2d713  # srli x14, x5, 12
    .word 0x00ef0733  # add x14, x30, x14
    .word 0x00e682b3  # add x5, x13, x14
    .word 0x08812303  # lw x6, 136(x2)
    .word 0x006286b3  # add x13, x5, x6
    .word 0x00dc42b3  # xor x5, x24, x13
    .word 0x01829f13  # slli x30, x5, 24
    .word 0x0082dc13  # srli x24, x5, 8
    .word 0x018f0c33  # add x24, x30, x24
    .word 0x018989b3  # add x19, x19, x24
    .word 0x013742b3  # xor x5, x14, x19
    .word 0x01929f13  # slli x30, x5, 25
    .word 0x0072d713  # srli x14, x5, 7
    .word 0x00ef0733  # add x14, x30, x14
    .word 0x00e502b3  # add x5, x10, x14
    .word 0x09012303  # lw x6, 144(x2)
    .word 0x00628533  # add x10, x5, x6
    .word 0x00ab42b3  # xor x5, x22, x10
    .word 0x01029f13  # slli x30, x5, 16
    .word 0x0102db13  # srli x22, x5, 16
    .word 0x016f0b33  # add x22, x30, x22
    .word 0x01690933  # add x18, x18, x22
    .word 0x012742b3  # xor x5, x14, x18
    .word 0x01429f13  # slli x30, x5, 20
    .word 0x00c2d713  # srli x14, x5, 12
    .word 0x00ef0733  # add x14, x30, x14
    .word 0x00e502b3  # add x5, x10, x14
    .word 0x08812303  # lw x6, 136(x2)
    .word 0x00628533  # add x10, x5, x6
    .word 0x00ab42b3  # xor x5, x22, x10
    .word 0x01829f13  # slli x30, x5, 24
    .word 0x0082db13  # srli x22, x5, 8
    .word 0x016f0b33  # add x22, x30, x22
    .word 0x01690933  # add x18, x18, x22
    .word 0x012742b3  # xor x5, x14, x18
    .word 0x01929f13  # slli x30, x5, 25
    .word 0x0072d713  # srli x14, x5, 7
    .word 0x00ef0733  # add x14, x30, x14
    .word 0x00f582b3  # add x5, x11, x15
    .word 0x07812303  # lw x6, 120(x2)
    .word 0x006285b3  # add x11, x5, x6
    .word 0x00bbc2b3  # xor x5, x23, x11
    .word 0x01029f13  # slli x30, x5, 16
    .word 0x0102db93  # srli x23, x5, 16
    .word 0x017f0bb3  # add x23, x30, x23
    .word 0x017989b3  # add x19, x19, x23
    .word 0x0137c2b3  # xor x5, x15, x19
    .word 0x01429f13  # slli x30, x5, 20
    .word 0x00c2d793  # srli x15, x5, 12
    .word 0x00ff07b3  # add x15, x30, x15
    .word 0x00f582b3  # add x5, x11, x15
    .word 0x09412303  # lw x6, 148(x2)
    .word 0x006285b3  # add x11, x5, x6
    .word 0x00bbc2b3  # xor x5, x23, x11
    .word 0x01829f13  # slli x30, x5, 24
    .word 0x0082db93  # srli x23, x5, 8
    .word 0x017f0bb3  # add x23, x30, x23
    .word 0x017989b3  # add x19, x19, x23
    .word 0x0137c2b3  # xor x5, x15, x19
    .word 0x01929f13  # slli x30, x5, 25
    .word 0x0072d793  # srli x15, x5, 7
    .word 0x00ff07b3  # add x15, x30, x15
    .word 0x010602b3  # add x5, x12, x16
    .word 0x08c12303  # lw x6, 140(x2)
    .word 0x00628633  # add x12, x5, x6
    .word 0x00cc42b3  # xor x5, x24, x12
    .word 0x01029f13  # slli x30, x5, 16
    .word 0x0102dc13  # srli x24, x5, 16
    .word 0x018f0c33  # add x24, x30, x24
    .word 0x018a0a33  # add x20, x20, x24
    .word 0x014842b3  # xor x5, x16, x20
    .word 0x01429f13  # slli x30, x5, 20
    .word 0x00c2d813  # srli x16, x5, 12
    .word 0x010f0833  # add x16, x30, x16
    .word 0x010602b3  # add x5, x12, x16
    .word 0x01b28633  # add x12, x5, x27
    .word 0x00cc42b3  # xor x5, x24, x12
    .word 0x01829f13  # slli x30, x5, 24
    .word 0x0082dc13  # srli x24, x5, 8
    .word 0x018f0c33  # add x24, x30, x24
    .word 0x018a0a33  # add x20, x20, x24
    .word 0x014842b3  # xor x5, x16, x20
    .word 0x01929f13  # slli x30, x5, 25
    .word 0x0072d813  # srli x16, x5, 7
    .word 0x010f0833  # add x16, x30, x16
    .word 0x011682b3  # add x5, x13, x17
    .word 0x009286b3  # add x13, x5, x9
    .word 0x00dcc2b3  # xor x5, x25, x13
    .word 0x01029f13  # slli x30, x5, 16
    .word 0x0102dc93  # srli x25, x5, 16
    .word 0x019f0cb3  # add x25, x30, x25
    .word 0x019a8ab3  # add x21, x21, x25
    .word 0x0158c2b3  # xor x5, x17, x21
    .word 0x01429f13  # slli x30, x5, 20
    .word 0x00c2d893  # srli x17, x5, 12
    .word 0x011f08b3  # add x17, x30, x17
    .word 0x011682b3  # add x5, x13, x17
    .word 0x08012303  # lw x6, 128(x2)
    .word 0x006286b3  # add x13, x5, x6
    .word 0x00dcc2b3  # xor x5, x25, x13
    .word 0x01829f13  # slli x30, x5, 24
    .word 0x0082dc93  # srli x25, x5, 8
    .word 0x019f0cb3  # add x25, x30, x25
    .word 0x019a8ab3  # add x21, x21, x25
    .word 0x0158c2b3  # xor x5, x17, x21
    .word 0x01929f13  # slli x30, x5, 25
    .word 0x0072d893  # srli x17, x5, 7
    .word 0x011f08b3  # add x17, x30, x17
    .word 0x00f502b3  # add x5, x10, x15
    .word 0x07012303  # lw x6, 112(x2)
    .word 0x00628533  # add x10, x5, x6
    .word 0x00acc2b3  # xor x5, x25, x10
    .word 0x01029f13  # slli x30, x5, 16
    .word 0x0102dc93  # srli x25, x5, 16
    .word 0x019f0cb3  # add x25, x30, x25
    .word 0x019a0a33  # add x20, x20, x25
    .word 0x0147c2b3  # xor x5, x15, x20
    .word 0x01429f13  # slli x30, x5, 20
    .word 0x00c2d793  # srli x15, x5, 12
    .word 0x00ff07b3  # add x15, x30, x15
    .word 0x00f502b3  # add x5, x10, x15
    .word 0x01a28533  # add x10, x5, x26
    .word 0x00acc2b3  # xor x5, x25, x10
    .word 0x01829f13  # slli x30, x5, 24
    .word 0x0082dc93  # srli x25, x5, 8
    .word 0x019f0cb3  # add x25, x30, x25
    .word 0x019a0a33  # add x20, x20, x25
    .word 0x0147c2b3  # xor x5, x15, x20
    .word 0x01929f13  # slli x30, x5, 25
    .word 0x0072d793  # srli x15, x5, 7
    .word 0x00ff07b3  # add x15, x30, x15
    .word 0x010582b3  # add x5, x11, x16
    .word 0x09812303  # lw x6, 152(x2)
    .word 0x006285b3  # add x11, x5, x6
    .word 0x00bb42b3  # xor x5, x22, x11
    .word 0x01029f13  # slli x30, x5, 16
    .word 0x0102db13  # srli x22, x5, 16
    .word 0x016f0b33  # add x22, x30, x22
    .word 0x016a8ab3  # add x21, x21, x22
    .word 0x015842b3  # xor x5, x16, x21
    .word 0x01429f13  # slli x30, x5, 20
    .word 0x00c2d813  # srli x16, x5, 12
    .word 0x010f0833  # add x16, x30, x16
    .word 0x010582b3  # add x5, x11, x16
    .word 0x06c12303  # lw x6, 108(x2)
    .word 0x006285b3  # add x11, x5, x6
    .word 0x00bb42b3  # xor x5, x22, x11
    .word 0x01829f13  # slli x30, x5, 24
    .word 0x0082db13  # srli x22, x5, 8
    .word 0x016f0b33  # add x22, x30, x22
    .word 0x016a8ab3  # add x21, x21, x22
    .word 0x015842b3  # xor x5, x16, x21
    .word 0x01929f13  # slli x30, x5, 25
    .word 0x0072d813  # srli x16, x5, 7
    .word 0x010f0833  # add x16, x30, x16
    .word 0x011602b3  # add x5, x12, x17
    .word 0x07c12303  # lw x6, 124(x2)
    .word 0x00628633  # add x12, x5, x6
    .word 0x00cbc2b3  # xor x5, x23, x12
    .word 0x01029f13  # slli x30, x5, 16
    .word 0x0102db93  # srli x23, x5, 16
    .word 0x017f0bb3  # add x23, x30, x23
    .word 0x01790933  # add x18, x18, x23
    .word 0x0128c2b3  # xor x5, x17, x18
    .word 0x01429f13  # slli x30, x5, 20
    .word 0x00c2d893  # srli x17, x5, 12
    .word 0x011f08b3  # add x17, x30, x17
    .word 0x011602b3  # add x5, x12, x17
    .word 0x07412303  # lw x6, 116(x2)
    .word 0x00628633  # add x12, x5, x6
    .word 0x00cbc2b3  # xor x5, x23, x12
    .word 0x01829f13  # slli x30, x5, 24
    .word 0x0082db93  # srli x23, x5, 8
    .word 0x017f0bb3  # add x23, x30, x23
    .word 0x01790933  # add x18, x18, x23
    .word 0x0128c2b3  # xor x5, x17, x18
    .word 0x01929f13  # slli x30, x5, 25
    .word 0x0072d893  # srli x17, x5, 7
    .word 0x011f08b3  # add x17, x30, x17
    .word 0x00e682b3  # add x5, x13, x14
    .word 0x008286b3  # add x13, x5, x8
    .word 0x00dc42b3  # xor x5, x24, x13
    .word 0x01029f13  # slli x30, x5, 16
    .word 0x0102dc13  # srli x24, x5, 16
    .word 0x018f0c33  # add x24, x30, x24
    .word 0x018989b3  # add x19, x19, x24
    .word 0x013742b3  # xor x5, x14, x19
    .word 0x01429f13  # slli x30, x5, 20
    .word 0x00c2d713  # srli x14, x5, 12
    .word 0x00ef0733  # add x14, x30, x14
    .word 0x00e682b3  # add x5, x13, x14
    .word 0x08412303  # lw x6, 132(x2)
    .word 0x006286b3  # add x13, x5, x6
    .word 0x00dc42b3  # xor x5, x24, x13
    .word 0x01829f13  # slli x30, x5, 24
    .word 0x0082dc13  # srli x24, x5, 8
    .word 0x018f0c33  # add x24, x30, x24
    .word 0x018989b3  # add x19, x19, x24
    .word 0x013742b3  # xor x5, x14, x19
    .word 0x01929f13  # slli x30, x5, 25
    .word 0x0072d713  # srli x14, x5, 7
    .word 0x00ef0733  # add x14, x30, x14
    .word 0x00e502b3  # add x5, x10, x14
    .word 0x07412303  # lw x6, 116(x2)
    .word 0x00628533  # add x10, x5, x6
    .word 0x00ab42b3  # xor x5, x22, x10
    .word 0x01029f13  # slli x30, x5, 16
    .word 0x0102db13  # srli x22, x5, 16
    .word 0x016f0b33  # add x22, x30, x22
    .word 0x01690933  # add x18, x18, x22
    .word 0x012742b3  # xor x5, x14, x18
    .word 0x01429f13  # slli x30, x5, 20
    .word 0x00c2d713  # srli x14, x5, 12
    .word 0x00ef0733  # add x14, x30, x14
    .word 0x00e502b3  # add x5, x10, x14
    .word 0x09812303  # lw x6, 152(x2)
    .word 0x00628533  # add x10, x5, x6
    .word 0x00ab42b3  # xor x5, x22, x10
    .word 0x01829f13  # slli x30, x5, 24
    .word 0x0082db13  # srli x22, x5, 8
    .word 0x016f0b33  # add x22, x30, x22
    .word 0x01690933  # add x18, x18, x22
    .word 0x012742b3  # xor x5, x14, x18
    .word 0x01929f13  # slli x30, x5, 25
    .word 0x0072d713  # srli x14, x5, 7
    .word 0x00ef0733  # add x14, x30, x14
    .word 0x00f582b3  # add x5, x11, x15
    .word 0x09412303  # lw x6, 148(x2)
    .word 0x006285b3  # add x11, x5, x6
    .word 0x00bbc2b3  # xor x5, x23, x11
    .word 0x01029f13  # slli x30, x5, 16
    .word 0x0102db93  # srli x23, x5, 16
    .word 0x017f0bb3  # add x23, x30, x23
    .word 0x017989b3  # add x19, x19, x23
    .word 0x0137c2b3  # xor x5, x15, x19
    .word 0x01429f13  # slli x30, x5, 20
    .word 0x00c2d793  # srli x15, x5, 12
    .word 0x00ff07b3  # add x15, x30, x15
    .word 0x00f582b3  # add x5, x11, x15
    .word 0x08012303  # lw x6, 128(x2)
    .word 0x006285b3  # add x11, x5, x6
    .word 0x00bbc2b3  # xor x5, x23, x11
    .word 0x01829f13  # slli x30, x5, 24
    .word 0x0082db93  # srli x23, x5, 8
    .word 0x017f0bb3  # add x23, x30, x23
    .word 0x017989b3  # add x19, x19, x23
    .word 0x0137c2b3  # xor x5, x15, x19
    .word 0x01929f13  # slli x30, x5, 25
    .word 0x0072d793  # srli x15, x5, 7
    .word 0x00ff07b3  # add x15, x30, x15
    .word 0x010602b3  # add x5, x12, x16
    .word 0x08812303  # lw x6, 136(x2)
    .word 0x00628633  # add x12, x5, x6
    .word 0x00cc42b3  # xor x5, x24, x12
    .word 0x01029f13  # slli x30, x5, 16
    .word 0x0102dc13  # srli x24, x5, 16
    .word 0x018f0c33  # add x24, x30, x24
    .word 0x018a0a33  # add x20, x20, x24
    .word 0x014842b3  # xor x5, x16, x20
    .word 0x01429f13  # slli x30, x5, 20
    .word 0x00c2d813  # srli x16, x5, 12
    .word 0x010f0833  # add x16, x30, x16
    .word 0x010602b3  # add x5, x12, x16
    .word 0x00928633  # add x12, x5, x9
    .word 0x00cc42b3  # xor x5, x24, x12
    .word 0x01829f13  # slli x30, x5, 24
    .word 0x0082dc13  # srli x24, x5, 8
    .word 0x018f0c33  # add x24, x30, x24
    .word 0x018a0a33  # add x20, x20, x24
    .word 0x014842b3  # xor x5, x16, x20
    .word 0x01929f13  # slli x30, x5, 25
    .word 0x0072d813  # srli x16, x5, 7
    .word 0x010f0833  # add x16, x30, x16
    .word 0x011682b3  # add x5, x13, x17
    .word 0x01a286b3  # add x13, x5, x26
    .word 0x00dcc2b3  # xor x5, x25, x13
    .word 0x01029f13  # slli x30, x5, 16
    .word 0x0102dc93  # srli x25, x5, 16
    .word 0x019f0cb3  # add x25, x30, x25
    .word 0x019a8ab3  # add x21, x21, x25
    .word 0x0158c2b3  # xor x5, x17, x21
    .word 0x01429f13  # slli x30, x5, 20
    .word 0x00c2d893  # srli x17, x5, 12
    .word 0x011f08b3  # add x17, x30, x17
    .word 0x011682b3  # add x5, x13, x17
    .word 0x07c12303  # lw x6, 124(x2)
    .word 0x006286b3  # add x13, x5, x6
    .word 0x00dcc2b3  # xor x5, x25, x13
    .word 0x01829f13  # slli x30, x5, 24
    .word 0x0082dc93  # srli x25, x5, 8
    .word 0x019f0cb3  # add x25, x30, x25
    .word 0x019a8ab3  # add x21, x21, x25
    .word 0x0158c2b3  # xor x5, x17, x21
    .word 0x01929f13  # slli x30, x5, 25
    .word 0x0072d893  # srli x17, x5, 7
    .word 0x011f08b3  # add x17, x30, x17
    .word 0x00f502b3  # add x5, x10, x15
    .word 0x08c12303  # lw x6, 140(x2)
    .word 0x00628533  # add x10, x5, x6
    .word 0x00acc2b3  # xor x5, x25, x10
    .word 0x01029f13  # slli x30, x5, 16
    .word 0x0102dc93  # srli x25, x5, 16
    .word 0x019f0cb3  # add x25, x30, x25
    .word 0x019a0a33  # add x20, x20, x25
    .word 0x0147c2b3  # xor x5, x15, x20
    .word 0x01429f13  # slli x30, x5, 20
    .word 0x00c2d793  # srli x15, x5, 12
    .word 0x00ff07b3  # add x15, x30, x15
    .word 0x00f502b3  # add x5, x10, x15
    .word 0x00828533  # add x10, x5, x8
    .word 0x00acc2b3  # xor x5, x25, x10
    .word 0x01829f13  # slli x30, x5, 24
    .word 0x0082dc93  # srli x25, x5, 8
    .word 0x019f0cb3  # add x25, x30, x25
    .word 0x019a0a33  # add x20, x20, x25
    .word 0x0147c2b3  # xor x5, x15, x20
    .word 0x01929f13  # slli x30, x5, 25
    .word 0x0072d793  # srli x15, x5, 7
    .word 0x00ff07b3  # add x15, x30, x15
    .word 0x010582b3  # add x5, x11, x16
    .word 0x09012303  # lw x6, 144(x2)
    .word 0x006285b3  # add x11, x5, x6
    .word 0x00bb42b3  # xor x5, x22, x11
    .word 0x01029f13  # slli x30, x5, 16
    .word 0x0102db13  # srli x22, x5, 16
    .word 0x016f0b33  # add x22, x30, x22
    .word 0x016a8ab3  # add x21, x21, x22
    .word 0x015842b3  # xor x5, x16, x21
    .word 0x01429f13  # slli x30, x5, 20
    .word 0x00c2d813  # srli x16, x5, 12
    .word 0x010f0833  # add x16, x30, x16
    .word 0x010582b3  # add x5, x11, x16
    .word 0x07812303  # lw x6, 120(x2)
    .word 0x006285b3  # add x11, x5, x6
    .word 0x00bb42b3  # xor x5, x22, x11
    .word 0x01829f13  # slli x30, x5, 24
    .word 0x0082db13  # srli x22, x5, 8
    .word 0x016f0b33  # add x22, x30, x22
    .word 0x016a8ab3  # add x21, x21, x22
    .word 0x015842b3  # xor x5, x16, x21
    .word 0x01929f13  # slli x30, x5, 25
    .word 0x0072d813  # srli x16, x5, 7
    .word 0x010f0833  # add x16, x30, x16
    .word 0x011602b3  # add x5, x12, x17
    .word 0x01b28633  # add x12, x5, x27
    .word 0x00cbc2b3  # xor x5, x23, x12
    .word 0x01029f13  # slli x30, x5, 16
    .word 0x0102db93  # srli x23, x5, 16
    .word 0x017f0bb3  # add x23, x30, x23
    .word 0x01790933  # add x18, x18, x23
    .word 0x0128c2b3  # xor x5, x17, x18
    .word 0x01429f13  # slli x30, x5, 20
    .word 0x00c2d893  # srli x17, x5, 12
    .word 0x011f08b3  # add x17, x30, x17
    .word 0x011602b3  # add x5, x12, x17
    .word 0x06c12303  # lw x6, 108(x2)
    .word 0x00628633  # add x12, x5, x6
    .word 0x00cbc2b3  # xor x5, x23, x12
    .word 0x01829f13  # slli x30, x5, 24
    .word 0x0082db93  # srli x23, x5, 8
    .word 0x017f0bb3  # add x23, x30, x23
    .word 0x01790933  # add x18, x18, x23
    .word 0x0128c2b3  # xor x5, x17, x18
    .word 0x01929f13  # slli x30, x5, 25
    .word 0x0072d893  # srli x17, x5, 7
    .word 0x011f08b3  # add x17, x30, x17
    .word 0x00e682b3  # add x5, x13, x14
    .word 0x08412303  # lw x6, 132(x2)
    .word 0x006286b3  # add x13, x5, x6
    .word 0x00dc42b3  # xor x5, x24, x13
    .word 0x01029f13  # slli x30, x5, 16
    .word 0x0102dc13  # srli x24, x5, 16
    .word 0x018f0c33  # add x24, x30, x24
    .word 0x018989b3  # add x19, x19, x24
    .word 0x013742b3  # xor x5, x14, x19
    .word 0x01429f13  # slli x30, x5, 20
    .word 0x00c2d713  # srli x14, x5, 12
    .word 0x00ef0733  # add x14, x30, x14
    .word 0x00e682b3  # add x5, x13, x14
    .word 0x07012303  # lw x6, 112(x2)
    .word 0x006286b3  # add x13, x5, x6
    .word 0x00dc42b3  # xor x5, x24, x13
    .word 0x01829f13  # slli x30, x5, 24
    .word 0x0082dc13  # srli x24, x5, 8
    .word 0x018f0c33  # add x24, x30, x24
    .word 0x018989b3  # add x19, x19, x24
    .word 0x013742b3  # xor x5, x14, x19
    .word 0x01929f13  # slli x30, x5, 25
    .word 0x0072d713  # srli x14, x5, 7
    .word 0x00ef0733  # add x14, x30, x14
    .word 0x00e502b3  # add x5, x10, x14
    .word 0x08412303  # lw x6, 132(x2)
    .word 0x00628533  # add x10, x5, x6
    .word 0x00ab42b3  # xor x5, x22, x10
    .word 0x01029f13  # slli x30, x5, 16
    .word 0x0102db13  # srli x22, x5, 16
    .word 0x016f0b33  # add x22, x30, x22
    .word 0x01690933  # add x18, x18, x22
    .word 0x012742b3  # xor x5, x14, x18
    .word 0x01429f13  # slli x30, x5, 20
    .word 0x00c2d713  # srli x14, x5, 12
    .word 0x00ef0733  # add x14, x30, x14
    .word 0x00e502b3  # add x5, x10, x14
    .word 0x00828533  # add x10, x5, x8
    .word 0x00ab42b3  # xor x5, x22, x10
    .word 0x01829f13  # slli x30, x5, 24
    .word 0x0082db13  # srli x22, x5, 8
    .word 0x016f0b33  # add x22, x30, x22
    .word 0x01690933  # add x18, x18, x22
    .word 0x012742b3  # xor x5, x14, x18
    .word 0x01929f13  # slli x30, x5, 25
    .word 0x0072d713  # srli x14, x5, 7
    .word 0x00ef0733  # add x14, x30, x14
    .word 0x00f582b3  # add x5, x11, x15
    .word 0x07c12303  # lw x6, 124(x2)
    .word 0x006285b3  # add x11, x5, x6
    .word 0x00bbc2b3  # xor x5, x23, x11
    .word 0x01029f13  # slli x30, x5, 16
    .word 0x0102db93  # srli x23, x5, 16
    .word 0x017f0bb3  # add x23, x30, x23
    .word 0x017989b3  # add x19, x19, x23
    .word 0x0137c2b3  # xor x5, x15, x19
    .word 0x01429f13  # slli x30, x5, 20
    .word 0x00c2d793  # srli x15, x5, 12
    .word 0x00ff07b3  # add x15, x30, x15
    .word 0x00f582b3  # add x5, x11, x15
    .word 0x06c12303  # lw x6, 108(x2)
    .word 0x006285b3  # add x11, x5, x6
    .word 0x00bbc2b3  # xor x5, x23, x11
    .word 0x01829f13  # slli x30, x5, 24
    .word 0x0082db93  # srli x23, x5, 8
    .word 0x017f0bb3  # add x23, x30, x23
    .word 0x017989b3  # add x19, x19, x23
    .word 0x0137c2b3  # xor x5, x15, x19
    .word 0x01929f13  # slli x30, x5, 25
    .word 0x0072d793  # srli x15, x5, 7
    .word 0x00ff07b3  # add x15, x30, x15
    .word 0x010602b3  # add x5, x12, x16
    .word 0x07812303  # lw x6, 120(x2)
    .word 0x00628633  # add x12, x5, x6
    .word 0x00cc42b3  # xor x5, x24, x12
    .word 0x01029f13  # slli x30, x5, 16
    .word 0x0102dc13  # srli x24, x5, 16
    .word 0x018f0c33  # add x24, x30, x24
    .word 0x018a0a33  # add x20, x20, x24
    .word 0x014842b3  # xor x5, x16, x20
    .word 0x01429f13  # slli x30, x5, 20
    .word 0x00c2d813  # srli x16, x5, 12
    .word 0x010f0833  # add x16, x30, x16
    .word 0x010602b3  # add x5, x12, x16
    .word 0x07412303  # lw x6, 116(x2)
    .word 0x00628633  # add x12, x5, x6
    .word 0x00cc42b3  # xor x5, x24, x12
    .word 0x01829f13  # slli x30, x5, 24
    .word 0x0082dc13  # srli x24, x5, 8
    .word 0x018f0c33  # add x24, x30, x24
    .word 0x018a0a33  # add x20, x20, x24
    .word 0x014842b3  # xor x5, x16, x20
    .word 0x01929f13  # slli x30, x5, 25
    .word 0x0072d813  # srli x16, x5, 7
    .word 0x010f0833  # add x16, x30, x16
    .word 0x011682b3  # add x5, x13, x17
    .word 0x01b286b3  # add x13, x5, x27
    .word 0x00dcc2b3  # xor x5, x25, x13
    .word 0x01029f13  # slli x30, x5, 16
    .word 0x0102dc93  # srli x25, x5, 16
    .word 0x019f0cb3  # add x25, x30, x25
    .word 0x019a8ab3  # add x21, x21, x25
    .word 0x0158c2b3  # xor x5, x17, x21
    .word 0x01429f13  # slli x30, x5, 20
    .word 0x00c2d893  # srli x17, x5, 12
    .word 0x011f08b3  # add x17, x30, x17
    .word 0x011682b3  # add x5, x13, x17
    .word 0x07012303  # lw x6, 112(x2)
    .word 0x006286b3  # add x13, x5, x6
    .word 0x00dcc2b3  # xor x5, x25, x13
    .word 0x01829f13  # slli x30, x5, 24
    .word 0x0082dc93  # srli x25, x5, 8
    .word 0x019f0cb3  # add x25, x30, x25
    .word 0x019a8ab3  # add x21, x21, x25
    .word 0x0158c2b3  # xor x5, x17, x21
    .word 0x01929f13  # slli x30, x5, 25
    .word 0x0072d893  # srli x17, x5, 7
    .word 0x011f08b3  # add x17, x30, x17
    .word 0x00f502b3  # add x5, x10, x15
    .word 0x09812303  # lw x6, 152(x2)
    .word 0x00628533  # add x10, x5, x6
    .word 0x00acc2b3  # xor x5, x25, x10
    .word 0x01029f13  # slli x30, x5, 16
    .word 0x0102dc93  # srli x25, x5, 16
    .word 0x019f0cb3  # add x25, x30, x25
    .word 0x019a0a33  # add x20, x20, x25
    .word 0x0147c2b3  # xor x5, x15, x20
    .word 0x01429f13  # slli x30, x5, 20
    .word 0x00c2d793  # srli x15, x5, 12
    .word 0x00ff07b3  # add x15, x30, x15
    .word 0x00f502b3  # add x5, x10, x15
    .word 0x08812303  # lw x6, 136(x2)
    .word 0x00628533  # add x10, x5, x6
    .word 0x00acc2b3  # xor x5, x25, x10
    .word 0x01829f13  # slli x30, x5, 24
    .word 0x0082dc93  # srli x25, x5, 8
    .word 0x019f0cb3  # add x25, x30, x25
    .word 0x019a0a33  # add x20, x20, x25
    .word 0x0147c2b3  # xor x5, x15, x20
    .word 0x01929f13  # slli x30, x5, 25
    .word 0x0072d793  # srli x15, x5, 7
    .word 0x00ff07b3  # add x15, x30, x15
    .word 0x010582b3  # add x5, x11, x16
    .word 0x08012303  # lw x6, 128(x2)
    .word 0x006285b3  # add x11, x5, x6
    .word 0x00bb42b3  # xor x5, x22, x11
    .word 0x01029f13  # slli x30, x5, 16
    .word 0x0102db13  # srli x22, x5, 16
    .word 0x016f0b33  # add x22, x30, x22
    .word 0x016a8ab3  # add x21, x21, x22
    .word 0x015842b3  # xor x5, x16, x21
    .word 0x01429f13  # slli x30, x5, 20
    .word 0x00c2d813  # srli x16, x5, 12
    .word 0x010f0833  # add x16, x30, x16
    .word 0x010582b3  # add x5, x11, x16
    .word 0x09412303  # lw x6, 148(x2)
    .word 0x006285b3  # add x11, x5, x6
    .word 0x00bb42b3  # xor x5, x22, x11
    .word 0x01829f13  # slli x30, x5, 24
    .word 0x0082db13  # srli x22, x5, 8
    .word 0x016f0b33  # add x22, x30, x22
    .word 0x016a8ab3  # add x21, x21, x22
    .word 0x015842b3  # xor x5, x16, x21
    .word 0x01929f13  # slli x30, x5, 25
    .word 0x0072d813  # srli x16, x5, 7
    .word 0x010f0833  # add x16, x30, x16
    .word 0x011602b3  # add x5, x12, x17
    .word 0x00928633  # add x12, x5, x9
    .word 0x00cbc2b3  # xor x5, x23, x12
    .word 0x01029f13  # slli x30, x5, 16
    .word 0x0102db93  # srli x23, x5, 16
    .word 0x017f0bb3  # add x23, x30, x23
    .word 0x01790933  # add x18, x18, x23
    .word 0x0128c2b3  # xor x5, x17, x18
    .word 0x01429f13  # slli x30, x5, 20
    .word 0x00c2d893  # srli x17, x5, 12
    .word 0x011f08b3  # add x17, x30, x17
    .word 0x011602b3  # add x5, x12, x17
    .word 0x08c12303  # lw x6, 140(x2)
    .word 0x00628633  # add x12, x5, x6
    .word 0x00cbc2b3  # xor x5, x23, x12
    .word 0x01829f13  # slli x30, x5, 24
    .word 0x0082db93  # srli x23, x5, 8
    .word 0x017f0bb3  # add x23, x30, x23
    .word 0x01790933  # add x18, x18, x23
    .word 0x0128c2b3  # xor x5, x17, x18
    .word 0x01929f13  # slli x30, x5, 25
    .word 0x0072d893  # srli x17, x5, 7
    .word 0x011f08b3  # add x17, x30, x17
    .word 0x00e682b3  # add x5, x13, x14
    .word 0x09012303  # lw x6, 144(x2)
    .word 0x006286b3  # add x13, x5, x6
    .word 0x00dc42b3  # xor x5, x24, x13
    .word 0x01029f13  # slli x30, x5, 16
    .word 0x0102dc13  # srli x24, x5, 16
    .word 0x018f0c33  # add x24, x30, x24
    .word 0x018989b3  # add x19, x19, x24
    .word 0x013742b3  # xor x5, x14, x19
    .word 0x01429f13  # slli x30, x5, 20
    .word 0x00c2d713  # srli x14, x5, 12
    .word 0x00ef0733  # add x14, x30, x14
    .word 0x00e682b3  # add x5, x13, x14
    .word 0x01a286b3  # add x13, x5, x26
    .word 0x00dc42b3  # xor x5, x24, x13
    .word 0x01829f13  # slli x30, x5, 24
    .word 0x0082dc13  # srli x24, x5, 8
    .word 0x018f0c33  # add x24, x30, x24
    .word 0x018989b3  # add x19, x19, x24
    .word 0x013742b3  # xor x5, x14, x19
    .word 0x01929f13  # slli x30, x5, 25
    .word 0x0072d713  # srli x14, x5, 7
    .word 0x00ef0733  # add x14, x30, x14
    .word 0x00012283  # lw x5, 0(x2)
    .word 0x00a2c2b3  # xor x5, x5, x10
    .word 0x0122c2b3  # xor x5, x5, x18
    .word 0x00512023  # sw x5, 0(x2)
    .word 0x00412283  # lw x5, 4(x2)
    .word 0x00b2c2b3  # xor x5, x5, x11
    .word 0x0132c2b3  # xor x5, x5, x19
    .word 0x00512223  # sw x5, 4(x2)
    .word 0x00812283  # lw x5, 8(x2)
    .word 0x00c2c2b3  # xor x5, x5, x12
    .word 0x0142c2b3  # xor x5, x5, x20
    .word 0x00512423  # sw x5, 8(x2)
    .word 0x00c12283  # lw x5, 12(x2)
    .word 0x00d2c2b3  # xor x5, x5, x13
    .word 0x0152c2b3  # xor x5, x5, x21
    .word 0x00512623  # sw x5, 12(x2)
    .word 0x01012283  # lw x5, 16(x2)
    .word 0x00e2c2b3  # xor x5, x5, x14
    .word 0x0162c2b3  # xor x5, x5, x22
    .word 0x00512823  # sw x5, 16(x2)
    .word 0x01412283  # lw x5, 20(x2)
    .word 0x00f2c2b3  # xor x5, x5, x15
    .word 0x0172c2b3  # xor x5, x5, x23
    .word 0x00512a23  # sw x5, 20(x2)
    .word 0x01812283  # lw x5, 24(x2)
    .word 0x0102c2b3  # xor x5, x5, x16
    .word 0x0182c2b3  # xor x5, x5, x24
    .word 0x00512c23  # sw x5, 24(x2)
    .word 0x01c12283  # lw x5, 28(x2)
    .word 0x0112c2b3  # xor x5, x5, x17
    .word 0x0192c2b3  # xor x5, x5, x25
    .word 0x00512e23  # sw x5, 28(x2)
    # the result
    .word 0x00000513  # addi x10, x0, 0
    # parameter 0: the array, back
    .word 0x00010293  # addi x5, x2, 0
    .word 0x0dc12303  # lw x6, 220(x2)
    .word 0x02028393  # addi x7, x5, 32
    .word 0x09000f6f  # jal x30, 144
    # above the frame
    .word 0x0a010293  # addi x5, x2, 160
    # the caller's registers
    .word 0x0002a403  # lw x8, 0(x5)
    .cfi_restore 8
    .word 0x0042a483  # lw x9, 4(x5)
    .cfi_restore 9
    .word 0x0082a903  # lw x18, 8(x5)
    .cfi_restore 18
    .word 0x00c2a983  # lw x19, 12(x5)
    .cfi_restore 19
    .word 0x0102aa03  # lw x20, 16(x5)
    .cfi_restore 20
    .word 0x0142aa83  # lw x21, 20(x5)
    .cfi_restore 21
    .word 0x0182ab03  # lw x22, 24(x5)
    .cfi_restore 22
    .word 0x01c2ab83  # lw x23, 28(x5)
    .cfi_restore 23
    .word 0x0202ac03  # lw x24, 32(x5)
    .cfi_restore 24
    .word 0x0242ac83  # lw x25, 36(x5)
    .cfi_restore 25
    .word 0x0282ad03  # lw x26, 40(x5)
    .cfi_restore 26
    .word 0x02c2ad83  # lw x27, 44(x5)
    .cfi_restore 27
    # the caller's x2
    .word 0x04028293  # addi x5, x5, 64
    .cfi_def_cfa 5, 0
    # all the room, wiped upward
    .word 0x00012023  # sw x0, 0(x2)
    .word 0x00012223  # sw x0, 4(x2)
    .word 0x00012423  # sw x0, 8(x2)
    .word 0x00012623  # sw x0, 12(x2)
    .word 0x01010113  # addi x2, x2, 16
    .word 0xfe5116e3  # bne x2, x5, -20
    .cfi_def_cfa 2, 0
    # temporaries, wiped
    .word 0x00000293  # addi x5, x0, 0
    .word 0x00000313  # addi x6, x0, 0
    .word 0x00000393  # addi x7, x0, 0
    .word 0x00000593  # addi x11, x0, 0
    .word 0x00000613  # addi x12, x0, 0
    .word 0x00000693  # addi x13, x0, 0
    .word 0x00000713  # addi x14, x0, 0
    .word 0x00000793  # addi x15, x0, 0
    .word 0x00000813  # addi x16, x0, 0
    .word 0x00000893  # addi x17, x0, 0
    .word 0x00000e13  # addi x28, x0, 0
    .word 0x00000e93  # addi x29, x0, 0
    .word 0x00000f13  # addi x30, x0, 0
    .word 0x00000f93  # addi x31, x0, 0
    # back
    .word 0x00008067  # jalr x0, 0(x1)
    # from x5 to x6 up to x7, and back
    .cfi_def_cfa 2, 224
    .cfi_offset 8, -64
    .cfi_offset 9, -60
    .cfi_offset 18, -56
    .cfi_offset 19, -52
    .cfi_offset 20, -48
    .cfi_offset 21, -44
    .cfi_offset 22, -40
    .cfi_offset 23, -36
    .cfi_offset 24, -32
    .cfi_offset 25, -28
    .cfi_offset 26, -24
    .cfi_offset 27, -20
    .word 0x0062ee33  # or x28, x5, x6
    .word 0x003e7e13  # andi x28, x28, 3
    .word 0x000e0e63  # beq x28, x0, 28
    .word 0x0002ce03  # lbu x28, 0(x5)
    .word 0x01c30023  # sb x28, 0(x6)
    .word 0x00128293  # addi x5, x5, 1
    .word 0x00130313  # addi x6, x6, 1
    .word 0xfe7298e3  # bne x5, x7, -16
    .word 0x0300006f  # jal x0, 48
    .word 0x0002ae03  # lw x28, 0(x5)
    .word 0x01c32023  # sw x28, 0(x6)
    .word 0x0042ae03  # lw x28, 4(x5)
    .word 0x01c32223  # sw x28, 4(x6)
    .word 0x0082ae03  # lw x28, 8(x5)
    .word 0x01c32423  # sw x28, 8(x6)
    .word 0x00c2ae03  # lw x28, 12(x5)
    .word 0x01c32623  # sw x28, 12(x6)
    .word 0x01028293  # addi x5, x5, 16
    .word 0x01030313  # addi x6, x6, 16
    .word 0xfc729ce3  # bne x5, x7, -40
    .word 0x000f0067  # jalr x0, 0(x30)
    .cfi_endproc
    .size blake2s_block, . - blake2s_block
    .option pop
