# sort_16: made by factc 1.0.0 function; 433 words and 21 shared, 128 bytes of stack, profile 1
    .option push
    .option norvc
    .option norelax
    .cfi_sections .debug_frame
    .section .text.sort_16, "ax", @progbits
    .p2align 2
    .globl sort_16
    .type sort_16, @function
sort_16:
    .cfi_startproc
    # room above the frame
    .word 0xfd010113  # addi x2, x2, -48
    .cfi_def_cfa_offset 48
    # the caller's registers
    .word 0x01212023  # sw x18, 0(x2)
    .cfi_offset 18, -48
    .word 0x01312223  # sw x19, 4(x2)
    .cfi_offset 19, -44
    .word 0x01412423  # sw x20, 8(x2)
    .cfi_offset 20, -40
    .word 0x01512623  # sw x21, 12(x2)
    .cfi_offset 21, -36
    .word 0x01612823  # sw x22, 16(x2)
    .cfi_offset 22, -32
    .word 0x01712a23  # sw x23, 20(x2)
    .cfi_offset 23, -28
    .word 0x01812c23  # sw x24, 24(x2)
    .cfi_offset 24, -24
    .word 0x01912e23  # sw x25, 28(x2)
    .cfi_offset 25, -20
    .word 0x03a12023  # sw x26, 32(x2)
    .cfi_offset 26, -16
    # arguments that are needed behind the body
    .word 0x02a12623  # sw x10, 44(x2)
    # the frame's base
    .word 0xfb010113  # addi x2, x2, -80
    .cfi_def_cfa 2, 128
    # parameter 0: an array
    .word 0x00050293  # addi x5, x10, 0
    .word 0x00010313  # addi x6, x2, 0
    .word 0x04028393  # addi x7, x5, 64
    .word 0x0002ae03  # lw x28, 0(x5)
    .word 0x01c32023  # sw x28, 0(x6)
    .word 0x00428293  # addi x5, x5, 4
    .word 0x00430313  # addi x6, x6, 4
    .word 0xfe7298e3  # bne x5, x7, -16
    # the body
    .word 0x00012583  # lw x11, 0(x2)
    .word 0x00412603  # lw x12, 4(x2)
    .word 0x00812683  # lw x13, 8(x2)
    .word 0x00c12703  # lw x14, 12(x2)
    .word 0x01012783  # lw x15, 16(x2)
    .word 0x01412803  # lw x16, 20(x2)
    .word 0x01812883  # lw x17, 24(x2)
    .word 0x01c12903  # lw x18, 28(x2)
    .word 0x02012983  # lw x19, 32(x2)
    .word 0x02412a03  # lw x20, 36(x2)
    .word 0x02812a83  # lw x21, 40(x2)
    .word 0x02c12b03  # lw x22, 44(x2)
    .word 0x03012b83  # lw x23, 48(x2)
    .word 0x03412c03  # lw x24, 52(x2)
    .word 0x03812c83  # lw x25, 56(x2)
    .word 0x03c12d03  # lw x26, 60(x2)
    .word 0x0185c2b3  # xor x5, x11, x24
    .word 0x00bc3333  # sltu x6, x24, x11
    .word 0x40600333  # sub x6, x0, x6
    .word 0x0062f533  # and x10, x5, x6
    .word 0x00a5c5b3  # xor x11, x11, x10
    .word 0x00ac4c33  # xor x24, x24, x10
    .word 0x017642b3  # xor x5, x12, x23
    .word 0x00cbb333  # sltu x6, x23, x12
    .word 0x40600333  # sub x6, x0, x6
    .word 0x0062f533  # and x10, x5, x6
    .word 0x00a64633  # xor x12, x12, x10
    .word 0x00abcbb3  # xor x23, x23, x10
    .word 0x01a6c2b3  # xor x5, x13, x26
    .word 0x00dd3333  # sltu x6, x26, x13
    .word 0x40600333  # sub x6, x0, x6
    .word 0x0062f533  # and x10, x5, x6
    .word 0x00a6c6b3  # xor x13, x13, x10
    .word 0x00ad4d33  # xor x26, x26, x10
    .word 0x019742b3  # xor x5, x14, x25
    .word 0x00ecb333  # sltu x6, x25, x14
    .word 0x40600333  # sub x6, x0, x6
    .word 0x0062f533  # and x10, x5, x6
    .word 0x00a74733  # xor x14, x14, x10
    .word 0x00acccb3  # xor x25, x25, x10
    .word 0x0137c2b3  # xor x5, x15, x19
    .word 0x00f9b333  # sltu x6, x19, x15
    .word 0x40600333  # sub x6, x0, x6
    .word 0x0062f533  # and x10, x5, x6
    .word 0x00a7c7b3  # xor x15, x15, x10
    .word 0x00a9c9b3  # xor x19, x19, x10
    .word 0x011842b3  # xor x5, x16, x17
    .word 0x0108b333  # sltu x6, x17, x16
    .word 0x40600333  # sub x6, x0, x6
    .word 0x0062f533  # and x10, x5, x6
    .word 0x00a84833  # xor x16, x16, x10
    .word 0x00a8c8b3  # xor x17, x17, x10
    .word 0x016942b3  # xor x5, x18, x22
    .word 0x012b3333  # sltu x6, x22, x18
    .word 0x40600333  # sub x6, x0, x6
    .word 0x0062f533  # and x10, x5, x6
    .word 0x00a94933  # xor x18, x18, x10
    .word 0x00ab4b33  # xor x22, x22, x10
    .word 0x015a42b3  # xor x5, x20, x21
    .word 0x014ab333  # sltu x6, x21, x20
    .word 0x40600333  # sub x6, x0, x6
    .word 0x0062f533  # and x10, x5, x6
    .word 0x00aa4a33  # xor x20, x20, x10
    .word 0x00aacab3  # xor x21, x21, x10
    .word 0x0105c2b3  # xor x5, x11, x16
    .word 0x00b83333  # sltu x6, x16, x11
    .word 0x40600333  # sub x6, x0, x6
    .word 0x0062f533  # and x10, x5, x6
    .word 0x00a5c5b3  # xor x11, x11, x10
    .word 0x00a84833  # xor x16, x16, x10
    .word 0x012642b3  # xor x5, x12, x18
    .word 0x00c93333  # sltu x6, x18, x12
    .word 0x40600333  # sub x6, x0, x6
    .word 0x0062f533  # and x10, x5, x6
    .word 0x00a64633  # xor x12, x12, x10
    .word 0x00a94933  # xor x18, x18, x10
    .word 0x0146c2b3  # xor x5, x13, x20
    .word 0x00da3333  # sltu x6, x20, x13
    .word 0x40600333  # sub x6, x0, x6
    .word 0x0062f533  # and x10, x5, x6
    .word 0x00a6c6b3  # xor x13, x13, x10
    .word 0x00aa4a33  # xor x20, x20, x10
    .word 0x00f742b3  # xor x5, x14, x15
    .word 0x00e7b333  # sltu x6, x15, x14
    .word 0x40600333  # sub x6, x0, x6
    .word 0x0062f533  # and x10, x5, x6
    .word 0x00a74733  # xor x14, x14, x10
    .word 0x00a7c7b3  # xor x15, x15, x10
    .word 0x0188c2b3  # xor x5, x17, x24
    .word 0x011c3333  # sltu x6, x24, x17
    .word 0x40600333  # sub x6, x0, x6
    .word 0x0062f533  # and x10, x5, x6
    .word 0x00a8c8b3  # xor x17, x17, x10
    .word 0x00ac4c33  # xor x24, x24, x10
    .word 0x0199c2b3  # xor x5, x19, x25
    .word 0x013cb333  # sltu x6, x25, x19
    .word 0x40600333  # sub x6, x0, x6
    .word 0x0062f533  # and x10, x5, x6
    .word 0x00a9c9b3  # xor x19, x19, x10
    .word 0x00acccb3  # xor x25, x25, x10
    .word 0x01aac2b3  # xor x5, x21, x26
    .word 0x015d3333  # sltu x6, x26, x21
    .word 0x40600333  # sub x6, x0, x6
    .word 0x0062f533  # and x10, x5, x6
    .word 0x00aacab3  # xor x21, x21, x10
    .word 0x00ad4d33  # xor x26, x26, x10
    .word 0x017b42b3  # xor x5, x22, x23
    .word 0x016bb333  # sltu x6, x23, x22
    .word 0x40600333  # sub x6, x0, x6
    .word 0x0062f533  # and x10, x5, x6
    .word 0x00ab4b33  # xor x22, x22, x10
    .word 0x00abcbb3  # xor x23, x23, x10
    .word 0x00c5c2b3  # xor x5, x11, x12
    .word 0x00b63333  # sltu x6, x12, x11
    .word 0x40600333  # sub x6, x0, x6
    .word 0x0062f533  # and x10, x5, x6
    .word 0x00a5c5b3  # xor x11, x11, x10
    .word 0x00a64633  # xor x12, x12, x10
    .word 0x00e6c2b3  # xor x5, x13, x14
    .word 0x00d73333  # sltu x6, x14, x13
    .word 0x40600333  # sub x6, x0, x6
    .word 0x0062f533  # and x10, x5, x6
    .word 0x00a6c6b3  # xor x13, x13, x10
    .word 0x00a74733  # xor x14, x14, x10
    .word 0x0107c2b3  # xor x5, x15, x16
    .word 0x00f83333  # sltu x6, x16, x15
    .word 0x40600333  # sub x6, x0, x6
    .word 0x0062f533  # and x10, x5, x6
    .word 0x00a7c7b3  # xor x15, x15, x10
    .word 0x00a84833  # xor x16, x16, x10
    .word 0x0138c2b3  # xor x5, x17, x19
    .word 0x0119b333  # sltu x6, x19, x17
    .word 0x40600333  # sub x6, x0, x6
    .word 0x0062f533  # and x10, x5, x6
    .word 0x00a8c8b3  # xor x17, x17, x10
    .word 0x00a9c9b3  # xor x19, x19, x10
    .word 0x014942b3  # xor x5, x18, x20
    .word 0x012a3333  # sltu x6, x20, x18
    .word 0x40600333  # sub x6, x0, x6
    .word 0x0062f533  # and x10, x5, x6
    .word 0x00a94933  # xor x18, x18, x10
    .word 0x00aa4a33  # xor x20, x20, x10
    .word 0x016ac2b3  # xor x5, x21, x22
    .word 0x015b3333  # sltu x6, x22, x21
    .word 0x40600333  # sub x6, x0, x6
    .word 0x0062f533  # and x10, x5, x6
    .word 0x00aacab3  # xor x21, x21, x10
    .word 0x00ab4b33  # xor x22, x22, x10
    .word 0x018bc2b3  # xor x5, x23, x24
    .word 0x017c3333  # sltu x6, x24, x23
    .word 0x40600333  # sub x6, x0, x6
    .word 0x0062f533  # and x10, x5, x6
    .word 0x00abcbb3  # xor x23, x23, x10
    .word 0x00ac4c33  # xor x24, x24, x10
    .word 0x01acc2b3  # xor x5, x25, x26
    .word 0x019d3333  # sltu x6, x26, x25
    .word 0x40600333  # sub x6, x0, x6
    .word 0x0062f533  # and x10, x5, x6
    .word 0x00acccb3  # xor x25, x25, x10
    .word 0x00ad4d33  # xor x26, x26, x10
    .word 0x00d5c2b3  # xor x5, x11, x13
    .word 0x00b6b333  # sltu x6, x13, x11
    .word 0x40600333  # sub x6, x0, x6
    .word 0x0062f533  # and x10, x5, x6
    .word 0x00a5c5b3  # xor x11, x11, x10
    .word 0x00a6c6b3  # xor x13, x13, x10
    .word 0x00e642b3  # xor x5, x12, x14
    .word 0x00c73333  # sltu x6, x14, x12
    .word 0x40600333  # sub x6, x0, x6
    .word 0x0062f533  # and x10, x5, x6
    .word 0x00a64633  # xor x12, x12, x10
    .word 0x00a74733  # xor x14, x14, x10
    .word 0x0157c2b3  # xor x5, x15, x21
    .word 0x00fab333  # sltu x6, x21, x15
    .word 0x40600333  # sub x6, x0, x6
    .word 0x0062f533  # and x10, x5, x6
    .word 0x00a7c7b3  # xor x15, x15, x10
    .word 0x00aacab3  # xor x21, x21, x10
    .word 0x016842b3  # xor x5, x16, x22
    .word 0x010b3333  # sltu x6, x22, x16
    .word 0x40600333  # sub x6, x0, x6
    .word 0x0062f533  # and x10, x5, x6
    .word 0x00a84833  # xor x16, x16, x10
    .word 0x00ab4b33  # xor x22, x22, x10
    .word 0x0128c2b3  # xor x5, x17, x18
    .word 0x01193333  # sltu x6, x18, x17
    .word 0x40600333  # sub x6, x0, x6
    .word 0x0062f533  # and x10, x5, x6
    .word 0x00a8c8b3  # xor x17, x17, x10
    .word 0x00a94933  # xor x18, x18, x10
    .word 0x0149c2b3  # xor x5, x19, x20
    .word 0x013a3333  # sltu x6, x20, x19
    .word 0x40600333  # sub x6, x0, x6
    .word 0x0062f533  # and x10, x5, x6
    .word 0x00a9c9b3  # xor x19, x19, x10
    .word 0x00aa4a33  # xor x20, x20, x10
    .word 0x019bc2b3  # xor x5, x23, x25
    .word 0x017cb333  # sltu x6, x25, x23
    .word 0x40600333  # sub x6, x0, x6
    .word 0x0062f533  # and x10, x5, x6
    .word 0x00abcbb3  # xor x23, x23, x10
    .word 0x00acccb3  # xor x25, x25, x10
    .word 0x01ac42b3  # xor x5, x24, x26
    .word 0x018d3333  # sltu x6, x26, x24
    .word 0x40600333  # sub x6, x0, x6
    .word 0x0062f533  # and x10, x5, x6
    .word 0x00ac4c33  # xor x24, x24, x10
    .word 0x00ad4d33  # xor x26, x26, x10
    .word 0x00d642b3  # xor x5, x12, x13
    .word 0x00c6b333  # sltu x6, x13, x12
    .word 0x40600333  # sub x6, x0, x6
    .word 0x0062f533  # and x10, x5, x6
    .word 0x00a64633  # xor x12, x12, x10
    .word 0x00a6c6b3  # xor x13, x13, x10
    .word 0x017742b3  # xor x5, x14, x23
    .word 0x00ebb333  # sltu x6, x23, x14
    .word 0x40600333  # sub x6, x0, x6
    .word 0x0062f533  # and x10, x5, x6
    .word 0x00a74733  # xor x14, x14, x10
    .word 0x00abcbb3  # xor x23, x23, x10
    .word 0x0117c2b3  # xor x5, x15, x17
    .word 0x00f8b333  # sltu x6, x17, x15
    .word 0x40600333  # sub x6, x0, x6
    .word 0x0062f533  # and x10, x5, x6
    .word 0x00a7c7b3  # xor x15, x15, x10
    .word 0x00a8c8b3  # xor x17, x17, x10
    .word 0x012842b3  # xor x5, x16, x18
    .word 0x01093333  # sltu x6, x18, x16
    .word 0x40600333  # sub x6, x0, x6
    .word 0x0062f533  # and x10, x5, x6
    .word 0x00a84833  # xor x16, x16, x10
    .word 0x00a94933  # xor x18, x18, x10
    .word 0x0159c2b3  # xor x5, x19, x21
    .word 0x013ab333  # sltu x6, x21, x19
    .word 0x40600333  # sub x6, x0, x6
    .word 0x0062f533  # and x10, x5, x6
    .word 0x00a9c9b3  # xor x19, x19, x10
    .word 0x00aacab3  # xor x21, x21, x10
    .word 0x016a42b3  # xor x5, x20, x22
    .word 0x014b3333  # sltu x6, x22, x20
    .word 0x40600333  # sub x6, x0, x6
    .word 0x0062f533  # and x10, x5, x6
    .word 0x00aa4a33  # xor x20, x20, x10
    .word 0x00ab4b33  # xor x22, x22, x10
    .word 0x019c42b3  # xor x5, x24, x25
    .word 0x018cb333  # sltu x6, x25, x24
    .word 0x40600333  # sub x6, x0, x6
    .word 0x0062f533  # and x10, x5, x6
    .word 0x00ac4c33  # xor x24, x24, x10
    .word 0x00acccb3  # xor x25, x25, x10
    .word 0x00f642b3  # xor x5, x12, x15
    .word 0x00c7b333  # sltu x6, x15, x12
    .word 0x40600333  # sub x6, x0, x6
    .word 0x0062f533  # and x10, x5, x6
    .word 0x00a64633  # xor x12, x12, x10
    .word 0x00a7c7b3  # xor x15, x15, x10
    .word 0x0116c2b3  # xor x5, x13, x17
    .word 0x00d8b333  # sltu x6, x17, x13
    .word 0x40600333  # sub x6, x0, x6
    .word 0x0062f533  # and x10, x5, x6
    .word 0x00a6c6b3  # xor x13, x13, x10
    .word 0x00a8c8b3  # xor x17, x17, x10
    .word 0x013842b3  # xor x5, x16, x19
    .word 0x0109b333  # sltu x6, x19, x16
    .word 0x40600333  # sub x6, x0, x6
    .word 0x0062f533  # and x10, x5, x6
    .word 0x00a84833  # xor x16, x16, x10
    .word 0x00a9c9b3  # xor x19, x19, x10
    .word 0x015942b3  # xor x5, x18, x21
    .word 0x012ab333  # sltu x6, x21, x18
    .word 0x40600333  # sub x6, x0, x6
    .word 0x0062f533  # and x10, x5, x6
    .word 0x00a94933  # xor x18, x18, x10
    .word 0x00aacab3  # xor x21, x21, x10
    .word 0x018a42b3  # xor x5, x20, x24
    .word 0x014c3333  # sltu x6, x24, x20
    .word 0x40600333  # sub x6, x0, x6
    .word 0x0062f533  # and x10, x5, x6
    .word 0x00aa4a33  # xor x20, x20, x10
    .word 0x00ac4c33  # xor x24, x24, x10
    .word 0x019b42b3  # xor x5, x22, x25
    .word 0x016cb333  # sltu x6, x25, x22
    .word 0x40600333  # sub x6, x0, x6
    .word 0x0062f533  # and x10, x5, x6
    .word 0x00ab4b33  # xor x22, x22, x10
    .word 0x00acccb3  # xor x25, x25, x10
    .word 0x00f6c2b3  # xor x5, x13, x15
    .word 0x00d7b333  # sltu x6, x15, x13
    .word 0x40600333  # sub x6, x0, x6
    .word 0x0062f533  # and x10, x5, x6
    .word 0x00a6c6b3  # xor x13, x13, x10
    .word 0x00a7c7b3  # xor x15, x15, x10
    .word 0x011742b3  # xor x5, x14, x17
    .word 0x00e8b333  # sltu x6, x17, x14
    .word 0x40600333  # sub x6, x0, x6
    .word 0x0062f533  # and x10, x5, x6
    .word 0x00a74733  # xor x14, x14, x10
    .word 0x00a8c8b3  # xor x17, x17, x10
    .word 0x017a42b3  # xor x5, x20, x23
    .word 0x014bb333  # sltu x6, x23, x20
    .word 0x40600333  # sub x6, x0, x6
    .word 0x0062f533  # and x10, x5, x6
    .word 0x00aa4a33  # xor x20, x20, x10
    .word 0x00abcbb3  # xor x23, x23, x10
    .word 0x018b42b3  # xor x5, x22, x24
    .word 0x016c3333  # sltu x6, x24, x22
    .word 0x40600333  # sub x6, x0, x6
    .word 0x0062f533  # and x10, x5, x6
    .word 0x00ab4b33  # xor x22, x22, x10
    .word 0x00ac4c33  # xor x24, x24, x10
    .word 0x010742b3  # xor x5, x14, x16
    .word 0x00e83333  # sltu x6, x16, x14
    .word 0x40600333  # sub x6, x0, x6
    .word 0x0062f533  # and x10, x5, x6
    .word 0x00a74733  # xor x14, x14, x10
    .word 0x00a84833  # xor x16, x16, x10
    .word 0x0138c2b3  # xor x5, x17, x19
    .word 0x0119b333  # sltu x6, x19, x17
    .word 0x40600333  # sub x6, x0, x6
    .word 0x0062f533  # and x10, x5, x6
    .word 0x00a8c8b3  # xor x17, x17, x10
    .word 0x00a9c9b3  # xor x19, x19, x10
    .word 0x014942b3  # xor x5, x18, x20
    .word 0x012a3333  # sltu x6, x20, x18
    .word 0x40600333  # sub x6, x0, x6
    .word 0x0062f533  # and x10, x5, x6
    .word 0x00a94933  # xor x18, x18, x10
    .word 0x00aa4a33  # xor x20, x20, x10
    .word 0x017ac2b3  # xor x5, x21, x23
    .word 0x015bb333  # sltu x6, x23, x21
    .word 0x40600333  # sub x6, x0, x6
    .word 0x0062f533  # and x10, x5, x6
    .word 0x00aacab3  # xor x21, x21, x10
    .word 0x00abcbb3  # xor x23, x23, x10
    .word 0x00f742b3  # xor x5, x14, x15
    .word 0x00e7b333  # sltu x6, x15, x14
    .word 0x40600333  # sub x6, x0, x6
    .word 0x0062f533  # and x10, x5, x6
    .word 0x00a74733  # xor x14, x14, x10
    .word 0x00a7c7b3  # xor x15, x15, x10
    .word 0x011842b3  # xor x5, x16, x17
    .word 0x0108b333  # sltu x6, x17, x16
    .word 0x40600333  # sub x6, x0, x6
    .word 0x0062f533  # and x10, x5, x6
    .word 0x00a84833  # xor x16, x16, x10
    .word 0x00a8c8b3  # xor x17, x17, x10
    .word 0x013942b3  # xor x5, x18, x19
    .word 0x0129b333  # sltu x6, x19, x18
    .word 0x40600333  # sub x6, x0, x6
    .word 0x0062f533  # and x10, x5, x6
    .word 0x00a94933  # xor x18, x18, x10
    .word 0x00a9c9b3  # xor x19, x19, x10
    .word 0x015a42b3  # xor x5, x20, x21
    .word 0x014ab333  # sltu x6, x21, x20
    .word 0x40600333  # sub x6, x0, x6
    .word 0x0062f533  # and x10, x5, x6
    .word 0x00aa4a33  # xor x20, x20, x10
    .word 0x00aacab3  # xor x21, x21, x10
    .word 0x017b42b3  # xor x5, x22, x23
    .word 0x016bb333  # sltu x6, x23, x22
    .word 0x40600333  # sub x6, x0, x6
    .word 0x0062f533  # and x10, x5, x6
    .word 0x00ab4b33  # xor x22, x22, x10
    .word 0x00abcbb3  # xor x23, x23, x10
    .word 0x0128c2b3  # xor x5, x17, x18
    .word 0x01193333  # sltu x6, x18, x17
    .word 0x40600333  # sub x6, x0, x6
    .word 0x0062f533  # and x10, x5, x6
    .word 0x00a8c8b3  # xor x17, x17, x10
    .word 0x00a94933  # xor x18, x18, x10
    .word 0x0149c2b3  # xor x5, x19, x20
    .word 0x013a3333  # sltu x6, x20, x19
    .word 0x40600333  # sub x6, x0, x6
    .word 0x0062f533  # and x10, x5, x6
    .word 0x00a9c9b3  # xor x19, x19, x10
    .word 0x00aa4a33  # xor x20, x20, x10
    .word 0x00b12023  # sw x11, 0(x2)
    .word 0x00c12223  # sw x12, 4(x2)
    .word 0x00d12423  # sw x13, 8(x2)
    .word 0x00e12623  # sw x14, 12(x2)
    .word 0x00f12823  # sw x15, 16(x2)
    .word 0x01012a23  # sw x16, 20(x2)
    .word 0x01112c23  # sw x17, 24(x2)
    .word 0x01212e23  # sw x18, 28(x2)
    .word 0x03312023  # sw x19, 32(x2)
    .word 0x03412223  # sw x20, 36(x2)
    .word 0x03512423  # sw x21, 40(x2)
    .word 0x03612623  # sw x22, 44(x2)
    .word 0x03712823  # sw x23, 48(x2)
    .word 0x03812a23  # sw x24, 52(x2)
    .word 0x03912c23  # sw x25, 56(x2)
    .word 0x03a12e23  # sw x26, 60(x2)
    # the result
    .word 0x00000513  # addi x10, x0, 0
    # parameter 0: the array, back
    .word 0x00010293  # addi x5, x2, 0
    .word 0x07c12303  # lw x6, 124(x2)
    .word 0x04028393  # addi x7, x5, 64
    .word 0x0002ae03  # lw x28, 0(x5)
    .word 0x01c32023  # sw x28, 0(x6)
    .word 0x00428293  # addi x5, x5, 4
    .word 0x00430313  # addi x6, x6, 4
    .word 0xfe7298e3  # bne x5, x7, -16
    # above the frame
    .word 0x05010293  # addi x5, x2, 80
    # the caller's registers
    .word 0x0002a903  # lw x18, 0(x5)
    .cfi_restore 18
    .word 0x0042a983  # lw x19, 4(x5)
    .cfi_restore 19
    .word 0x0082aa03  # lw x20, 8(x5)
    .cfi_restore 20
    .word 0x00c2aa83  # lw x21, 12(x5)
    .cfi_restore 21
    .word 0x0102ab03  # lw x22, 16(x5)
    .cfi_restore 22
    .word 0x0142ab83  # lw x23, 20(x5)
    .cfi_restore 23
    .word 0x0182ac03  # lw x24, 24(x5)
    .cfi_restore 24
    .word 0x01c2ac83  # lw x25, 28(x5)
    .cfi_restore 25
    .word 0x0202ad03  # lw x26, 32(x5)
    .cfi_restore 26
    # the caller's x2
    .word 0x03028293  # addi x5, x5, 48
    .cfi_def_cfa 5, 0
    # on to the tail that functions share
    jal x0, factc.tail.1
    .cfi_endproc
    .size sort_16, . - sort_16
    .section .text.factc.tail.1, "axG", @progbits, factc.tail.1, comdat
    .p2align 2
    .globl factc.tail.1
    .hidden factc.tail.1
    .type factc.tail.1, @function
factc.tail.1:
    .cfi_startproc
    .cfi_def_cfa 5, 0
    # all the room, wiped upward
    .word 0x00012023  # sw x0, 0(x2)
    .word 0x00012223  # sw x0, 4(x2)
    .word 0x00012423  # sw x0, 8(x2)
    .word 0x00012623  # sw x0, 12(x2)
    .word 0x01010113  # addi x2, x2, 16
    .word 0xfe5116e3  # bne x2, x5, -20
    .cfi_def_cfa 2, 0
    # temporaries, wiped
    .word 0x00000293  # addi x5, x0, 0
    .word 0x00000313  # addi x6, x0, 0
    .word 0x00000393  # addi x7, x0, 0
    .word 0x00000593  # addi x11, x0, 0
    .word 0x00000613  # addi x12, x0, 0
    .word 0x00000693  # addi x13, x0, 0
    .word 0x00000713  # addi x14, x0, 0
    .word 0x00000793  # addi x15, x0, 0
    .word 0x00000813  # addi x16, x0, 0
    .word 0x00000893  # addi x17, x0, 0
    .word 0x00000e13  # addi x28, x0, 0
    .word 0x00000e93  # addi x29, x0, 0
    .word 0x00000f13  # addi x30, x0, 0
    .word 0x00000f93  # addi x31, x0, 0
    # back
    .word 0x00008067  # jalr x0, 0(x1)
    .cfi_endproc
    .size factc.tail.1, . - factc.tail.1
    .option pop
