# aes256_expand: made by factc 1.0.0 function; 759 words, 656 bytes of stack, profile 1
    .option push
    .option norvc
    .option norelax
    .cfi_sections .debug_frame
    .section .text.aes256_expand, "ax", @progbits
    .p2align 2
    .globl aes256_expand
    .type aes256_expand, @function
aes256_expand:
    .cfi_startproc
    # room above the frame
    .word 0xfc010113  # addi x2, x2, -64
    .cfi_def_cfa_offset 64
    # the caller's registers
    .word 0x00912023  # sw x9, 0(x2)
    .cfi_offset 9, -64
    .word 0x01212223  # sw x18, 4(x2)
    .cfi_offset 18, -60
    .word 0x01312423  # sw x19, 8(x2)
    .cfi_offset 19, -56
    .word 0x01412623  # sw x20, 12(x2)
    .cfi_offset 20, -52
    .word 0x01512823  # sw x21, 16(x2)
    .cfi_offset 21, -48
    .word 0x01612a23  # sw x22, 20(x2)
    .cfi_offset 22, -44
    .word 0x01712c23  # sw x23, 24(x2)
    .cfi_offset 23, -40
    .word 0x01812e23  # sw x24, 28(x2)
    .cfi_offset 24, -36
    .word 0x03912023  # sw x25, 32(x2)
    .cfi_offset 25, -32
    .word 0x03a12223  # sw x26, 36(x2)
    .cfi_offset 26, -28
    .word 0x03b12423  # sw x27, 40(x2)
    .cfi_offset 27, -24
    # arguments that are needed behind the body
    .word 0x02a12c23  # sw x10, 56(x2)
    .word 0x02b12e23  # sw x11, 60(x2)
    # the frame's base
    .word 0xdb010113  # addi x2, x2, -592
    .cfi_def_cfa 2, 656
    # parameter 0: an array
    .word 0x00050293  # addi x5, x10, 0
    .word 0x00010313  # addi x6, x2, 0
    .word 0x02028393  # addi x7, x5, 32
    .word 0x34100f6f  # jal x30, 2880
    # the body
    .word 0x555552b7  # lui x5, 0x55555
    .word 0x55528293  # addi x5, x5, 1365
    .word 0x22512c23  # sw x5, 568(x2)
    .word 0x333332b7  # lui x5, 0x33333
    .word 0x33328293  # addi x5, x5, 819
    .word 0x22512e23  # sw x5, 572(x2)
    .word 0x0f0f12b7  # lui x5, 0x0f0f1
    .word 0xf0f28293  # addi x5, x5, -241
    .word 0x24512023  # sw x5, 576(x2)
    .word 0x03030d37  # lui x26, 0x03030
    .word 0x303d0d13  # addi x26, x26, 771
    .word 0xfcfd0db7  # lui x27, 0xfcfd0
    .word 0xcfcd8d93  # addi x27, x27, -772
    .word 0xf0f0f4b7  # lui x9, 0xf0f0f
    .word 0x0f048493  # addi x9, x9, 240
    .word 0x00012903  # lw x18, 0(x2)
    .word 0x00412a03  # lw x20, 4(x2)
    .word 0x00812b03  # lw x22, 8(x2)
    .word 0x00c12c03  # lw x24, 12(x2)
    .word 0x00195293  # srli x5, x18, 1
    .word 0x0122c2b3  # xor x5, x5, x18
    .word 0x23812303  # lw x6, 568(x2)
    .word 0x0062f5b3  # and x11, x5, x6
    .word 0x00b949b3  # xor x19, x18, x11
    .word 0x00159313  # slli x6, x11, 1
    .word 0x00694933  # xor x18, x18, x6
    .word 0x001a5293  # srli x5, x20, 1
    .word 0x0142c2b3  # xor x5, x5, x20
    .word 0x23812303  # lw x6, 568(x2)
    .word 0x0062f5b3  # and x11, x5, x6
    .word 0x00ba4ab3  # xor x21, x20, x11
    .word 0x00159313  # slli x6, x11, 1
    .word 0x006a4a33  # xor x20, x20, x6
    .word 0x001b5293  # srli x5, x22, 1
    .word 0x0162c2b3  # xor x5, x5, x22
    .word 0x23812303  # lw x6, 568(x2)
    .word 0x0062f5b3  # and x11, x5, x6
    .word 0x00bb4bb3  # xor x23, x22, x11
    .word 0x00159313  # slli x6, x11, 1
    .word 0x006b4b33  # xor x22, x22, x6
    .word 0x001c5293  # srli x5, x24, 1
    .word 0x0182c2b3  # xor x5, x5, x24
    .word 0x23812303  # lw x6, 568(x2)
    .word 0x0062f5b3  # and x11, x5, x6
    .word 0x00bc4cb3  # xor x25, x24, x11
    .word 0x00159313  # slli x6, x11, 1
    .word 0x006c4c33  # xor x24, x24, x6
    .word 0x00295293  # srli x5, x18, 2
    .word 0x0142c2b3  # xor x5, x5, x20
    .word 0x23c12303  # lw x6, 572(x2)
    .word 0x0062f5b3  # and x11, x5, x6
    .word 0x00ba4a33  # xor x20, x20, x11
    .word 0x00259313  # slli x6, x11, 2
    .word 0x00694933  # xor x18, x18, x6
    .word 0x0029d293  # srli x5, x19, 2
    .word 0x0152c2b3  # xor x5, x5, x21
    .word 0x23c12303  # lw x6, 572(x2)
    .word 0x0062f5b3  # and x11, x5, x6
    .word 0x00bacab3  # xor x21, x21, x11
    .word 0x00259313  # slli x6, x11, 2
    .word 0x0069c9b3  # xor x19, x19, x6
    .word 0x002b5293  # srli x5, x22, 2
    .word 0x0182c2b3  # xor x5, x5, x24
    .word 0x23c12303  # lw x6, 572(x2)
    .word 0x0062f5b3  # and x11, x5, x6
    .word 0x00bc4c33  # xor x24, x24, x11
    .word 0x00259313  # slli x6, x11, 2
    .word 0x006b4b33  # xor x22, x22, x6
    .word 0x002bd293  # srli x5, x23, 2
    .word 0x0192c2b3  # xor x5, x5, x25
    .word 0x23c12303  # lw x6, 572(x2)
    .word 0x0062f5b3  # and x11, x5, x6
    .word 0x00bcccb3  # xor x25, x25, x11
    .word 0x00259313  # slli x6, x11, 2
    .word 0x006bcbb3  # xor x23, x23, x6
    .word 0x00495293  # srli x5, x18, 4
    .word 0x0162c2b3  # xor x5, x5, x22
    .word 0x24012303  # lw x6, 576(x2)
    .word 0x0062f5b3  # and x11, x5, x6
    .word 0x00bb4b33  # xor x22, x22, x11
    .word 0x00459313  # slli x6, x11, 4
    .word 0x00694933  # xor x18, x18, x6
    .word 0x0049d293  # srli x5, x19, 4
    .word 0x0172c2b3  # xor x5, x5, x23
    .word 0x24012303  # lw x6, 576(x2)
    .word 0x0062f5b3  # and x11, x5, x6
    .word 0x00bbcbb3  # xor x23, x23, x11
    .word 0x00459313  # slli x6, x11, 4
    .word 0x0069c9b3  # xor x19, x19, x6
    .word 0x004a5293  # srli x5, x20, 4
    .word 0x0182c2b3  # xor x5, x5, x24
    .word 0x24012303  # lw x6, 576(x2)
    .word 0x0062f5b3  # and x11, x5, x6
    .word 0x00bc4c33  # xor x24, x24, x11
    .word 0x00459313  # slli x6, x11, 4
    .word 0x006a4a33  # xor x20, x20, x6
    .word 0x004ad293  # srli x5, x21, 4
    .word 0x0192c2b3  # xor x5, x5, x25
    .word 0x24012303  # lw x6, 576(x2)
    .word 0x0062f5b3  # and x11, x5, x6
    .word 0x00bcccb3  # xor x25, x25, x11
    .word 0x00459313  # slli x6, x11, 4
    .word 0x006acab3  # xor x21, x21, x6
    .word 0x03212023  # sw x18, 32(x2)
    .word 0x03312223  # sw x19, 36(x2)
    .word 0x03412423  # sw x20, 40(x2)
    .word 0x03512623  # sw x21, 44(x2)
    .word 0x03612823  # sw x22, 48(x2)
    .word 0x03712a23  # sw x23, 52(x2)
    .word 0x03812c23  # sw x24, 56(x2)
    .word 0x03912e23  # sw x25, 60(x2)
    .word 0x01012903  # lw x18, 16(x2)
    .word 0x01412a03  # lw x20, 20(x2)
    .word 0x01812b03  # lw x22, 24(x2)
    .word 0x01c12c03  # lw x24, 28(x2)
    .word 0x00195293  # srli x5, x18, 1
    .word 0x0122c2b3  # xor x5, x5, x18
    .word 0x23812303  # lw x6, 568(x2)
    .word 0x0062f5b3  # and x11, x5, x6
    .word 0x00b949b3  # xor x19, x18, x11
    .word 0x00159313  # slli x6, x11, 1
    .word 0x00694933  # xor x18, x18, x6
    .word 0x001a5293  # srli x5, x20, 1
    .word 0x0142c2b3  # xor x5, x5, x20
    .word 0x23812303  # lw x6, 568(x2)
    .word 0x0062f5b3  # and x11, x5, x6
    .word 0x00ba4ab3  # xor x21, x20, x11
    .word 0x00159313  # slli x6, x11, 1
    .word 0x006a4a33  # xor x20, x20, x6
    .word 0x001b5293  # srli x5, x22, 1
    .word 0x0162c2b3  # xor x5, x5, x22
    .word 0x23812303  # lw x6, 568(x2)
    .word 0x0062f5b3  # and x11, x5, x6
    .word 0x00bb4bb3  # xor x23, x22, x11
    .word 0x00159313  # slli x6, x11, 1
    .word 0x006b4b33  # xor x22, x22, x6
    .word 0x001c5293  # srli x5, x24, 1
    .word 0x0182c2b3  # xor x5, x5, x24
    .word 0x23812303  # lw x6, 568(x2)
    .word 0x0062f5b3  # and x11, x5, x6
    .word 0x00bc4cb3  # xor x25, x24, x11
    .word 0x00159313  # slli x6, x11, 1
    .word 0x006c4c33  # xor x24, x24, x6
    .word 0x00295293  # srli x5, x18, 2
    .word 0x0142c2b3  # xor x5, x5, x20
    .word 0x23c12303  # lw x6, 572(x2)
    .word 0x0062f5b3  # and x11, x5, x6
    .word 0x00ba4a33  # xor x20, x20, x11
    .word 0x00259313  # slli x6, x11, 2
    .word 0x00694933  # xor x18, x18, x6
    .word 0x0029d293  # srli x5, x19, 2
    .word 0x0152c2b3  # xor x5, x5, x21
    .word 0x23c12303  # lw x6, 572(x2)
    .word 0x0062f5b3  # and x11, x5, x6
    .word 0x00bacab3  # xor x21, x21, x11
    .word 0x00259313  # slli x6, x11, 2
    .word 0x0069c9b3  # xor x19, x19, x6
    .word 0x002b5293  # srli x5, x22, 2
    .word 0x0182c2b3  # xor x5, x5, x24
    .word 0x23c12303  # lw x6, 572(x2)
    .word 0x0062f5b3  # and x11, x5, x6
    .word 0x00bc4c33  # xor x24, x24, x11
    .word 0x00259313  # slli x6, x11, 2
    .word 0x006b4b33  # xor x22, x22, x6
    .word 0x002bd293  # srli x5, x23, 2
    .word 0x0192c2b3  # xor x5, x5, x25
    .word 0x23c12303  # lw x6, 572(x2)
    .word 0x0062f5b3  # and x11, x5, x6
    .word 0x00bcccb3  # xor x25, x25, x11
    .word 0x00259313  # slli x6, x11, 2
    .word 0x006bcbb3  # xor x23, x23, x6
    .word 0x00495293  # srli x5, x18, 4
    .word 0x0162c2b3  # xor x5, x5, x22
    .word 0x24012303  # lw x6, 576(x2)
    .word 0x0062f5b3  # and x11, x5, x6
    .word 0x00bb4b33  # xor x22, x22, x11
    .word 0x00459313  # slli x6, x11, 4
    .word 0x00694933  # xor x18, x18, x6
    .word 0x0049d293  # srli x5, x19, 4
    .word 0x0172c2b3  # xor x5, x5, x23
    .word 0x24012303  # lw x6, 576(x2)
    .word 0x0062f5b3  # and x11, x5, x6
    .word 0x00bbcbb3  # xor x23, x23, x11
    .word 0x00459313  # slli x6, x11, 4
    .word 0x0069c9b3  # xor x19, x19, x6
    .word 0x004a5293  # srli x5, x20, 4
    .word 0x0182c2b3  # xor x5, x5, x24
    .word 0x24012303  # lw x6, 576(x2)
    .word 0x0062f5b3  # and x11, x5, x6
    .word 0x00bc4c33  # xor x24, x24, x11
    .word 0x00459313  # slli x6, x11, 4
    .word 0x006a4a33  # xor x20, x20, x6
    .word 0x004ad293  # srli x5, x21, 4
    .word 0x0192c2b3  # xor x5, x5, x25
    .word 0x24012303  # lw x6, 576(x2)
    .word 0x0062f5b3  # and x11, x5, x6
    .word 0x00bcccb3  # xor x25, x25, x11
    .word 0x00459313  # slli x6, x11, 4
    .word 0x006acab3  # xor x21, x21, x6
    .word 0x05212023  # sw x18, 64(x2)
    .word 0x05312223  # sw x19, 68(x2)
    .word 0x05412423  # sw x20, 72(x2)
    .word 0x05512623  # sw x21, 76(x2)
    .word 0x05612823  # sw x22, 80(x2)
    .word 0x05712a23  # sw x23, 84(x2)
    .word 0x05812c23  # sw x24, 88(x2)
    .word 0x05912e23  # sw x25, 92(x2)
    .word 0xfff00513  # addi x10, x0, -1
    .word 0x00150513  # addi x10, x10, 1
    .word 0x00351293  # slli x5, x10, 3
    .word 0x00229293  # slli x5, x5, 2
    .word 0x002282b3  # add x5, x5, x2
    .word 0x0402a283  # lw x5, 64(x5)
    .word 0x0062d293  # srli x5, x5, 6
    .word 0x01a2f933  # and x18, x5, x26
    .word 0x00351293  # slli x5, x10, 3
    .word 0x00128293  # addi x5, x5, 1
    .word 0x00229293  # slli x5, x5, 2
    .word 0x002282b3  # add x5, x5, x2
    .word 0x0402a283  # lw x5, 64(x5)
    .word 0x0062d293  # srli x5, x5, 6
    .word 0x01a2f9b3  # and x19, x5, x26
    .word 0x00351293  # slli x5, x10, 3
    .word 0x00228293  # addi x5, x5, 2
    .word 0x00229293  # slli x5, x5, 2
    .word 0x002282b3  # add x5, x5, x2
    .word 0x0402a283  # lw x5, 64(x5)
    .word 0x0062d293  # srli x5, x5, 6
    .word 0x01a2fa33  # and x20, x5, x26
    .word 0x00351293  # slli x5, x10, 3
    .word 0x00328293  # addi x5, x5, 3
    .word 0x00229293  # slli x5, x5, 2
    .word 0x002282b3  # add x5, x5, x2
    .word 0x0402a283  # lw x5, 64(x5)
    .word 0x0062d293  # srli x5, x5, 6
    .word 0x01a2fab3  # and x21, x5, x26
    .word 0x00351293  # slli x5, x10, 3
    .word 0x00428293  # addi x5, x5, 4
    .word 0x00229293  # slli x5, x5, 2
    .word 0x002282b3  # add x5, x5, x2
    .word 0x0402a283  # lw x5, 64(x5)
    .word 0x0062d293  # srli x5, x5, 6
    .word 0x01a2fb33  # and x22, x5, x26
    .word 0x00351293  # slli x5, x10, 3
    .word 0x00528293  # addi x5, x5, 5
    .word 0x00229293  # slli x5, x5, 2
    .word 0x002282b3  # add x5, x5, x2
    .word 0x0402a283  # lw x5, 64(x5)
    .word 0x0062d293  # srli x5, x5, 6
    .word 0x01a2fbb3  # and x23, x5, x26
    .word 0x00351293  # slli x5, x10, 3
    .word 0x00628293  # addi x5, x5, 6
    .word 0x00229293  # slli x5, x5, 2
    .word 0x002282b3  # add x5, x5, x2
    .word 0x0402a283  # lw x5, 64(x5)
    .word 0x0062d293  # srli x5, x5, 6
    .word 0x01a2fc33  # and x24, x5, x26
    .word 0x00351293  # slli x5, x10, 3
    .word 0x00728293  # addi x5, x5, 7
    .word 0x00229293  # slli x5, x5, 2
    .word 0x002282b3  # add x5, x5, x2
    .word 0x0402a283  # lw x5, 64(x5)
    .word 0x0062d293  # srli x5, x5, 6
    .word 0x01a2fcb3  # and x25, x5, x26
    .word 0x014b42b3  # xor x5, x22, x20
    .word 0x20512023  # sw x5, 512(x2)
    .word 0x013cc5b3  # xor x11, x25, x19
    .word 0x016cc2b3  # xor x5, x25, x22
    .word 0x20512223  # sw x5, 516(x2)
    .word 0x014cc2b3  # xor x5, x25, x20
    .word 0x20512423  # sw x5, 520(x2)
    .word 0x017c4633  # xor x12, x24, x23
    .word 0x01264bb3  # xor x23, x12, x18
    .word 0x016bc2b3  # xor x5, x23, x22
    .word 0x20512623  # sw x5, 524(x2)
    .word 0x20012303  # lw x6, 512(x2)
    .word 0x0065c2b3  # xor x5, x11, x6
    .word 0x20512823  # sw x5, 528(x2)
    .word 0x019bc2b3  # xor x5, x23, x25
    .word 0x20512a23  # sw x5, 532(x2)
    .word 0x013bc2b3  # xor x5, x23, x19
    .word 0x20512c23  # sw x5, 536(x2)
    .word 0x21812283  # lw x5, 536(x2)
    .word 0x20812303  # lw x6, 520(x2)
    .word 0x0062c2b3  # xor x5, x5, x6
    .word 0x20512e23  # sw x5, 540(x2)
    .word 0x21012303  # lw x6, 528(x2)
    .word 0x006acb33  # xor x22, x21, x6
    .word 0x014b49b3  # xor x19, x22, x20
    .word 0x018b4b33  # xor x22, x22, x24
    .word 0x0129c2b3  # xor x5, x19, x18
    .word 0x22512023  # sw x5, 544(x2)
    .word 0x00c9cc33  # xor x24, x19, x12
    .word 0x20412303  # lw x6, 516(x2)
    .word 0x006b4a33  # xor x20, x22, x6
    .word 0x014942b3  # xor x5, x18, x20
    .word 0x22512223  # sw x5, 548(x2)
    .word 0x014c42b3  # xor x5, x24, x20
    .word 0x22512423  # sw x5, 552(x2)
    .word 0x20812303  # lw x6, 520(x2)
    .word 0x006c47b3  # xor x15, x24, x6
    .word 0x01464ab3  # xor x21, x12, x20
    .word 0x0155c733  # xor x14, x11, x21
    .word 0x015cc833  # xor x16, x25, x21
    .word 0x21012283  # lw x5, 528(x2)
    .word 0x0132fcb3  # and x25, x5, x19
    .word 0x21c12283  # lw x5, 540(x2)
    .word 0x22012303  # lw x6, 544(x2)
    .word 0x0062f633  # and x12, x5, x6
    .word 0x019646b3  # xor x13, x12, x25
    .word 0x20c12283  # lw x5, 524(x2)
    .word 0x0122f633  # and x12, x5, x18
    .word 0x019648b3  # xor x17, x12, x25
    .word 0x0155fcb3  # and x25, x11, x21
    .word 0x21812283  # lw x5, 536(x2)
    .word 0x0172f633  # and x12, x5, x23
    .word 0x019642b3  # xor x5, x12, x25
    .word 0x22512a23  # sw x5, 564(x2)
    .word 0x21412283  # lw x5, 532(x2)
    .word 0x22412303  # lw x6, 548(x2)
    .word 0x0062f633  # and x12, x5, x6
    .word 0x019642b3  # xor x5, x12, x25
    .word 0x22512623  # sw x5, 556(x2)
    .word 0x20412283  # lw x5, 516(x2)
    .word 0x0142fcb3  # and x25, x5, x20
    .word 0x20012283  # lw x5, 512(x2)
    .word 0x22812303  # lw x6, 552(x2)
    .word 0x0062f633  # and x12, x5, x6
    .word 0x01964633  # xor x12, x12, x25
    .word 0x20812283  # lw x5, 520(x2)
    .word 0x0182f2b3  # and x5, x5, x24
    .word 0x22512823  # sw x5, 560(x2)
    .word 0x23012283  # lw x5, 560(x2)
    .word 0x0192ccb3  # xor x25, x5, x25
    .word 0x00c6c6b3  # xor x13, x13, x12
    .word 0x0198c8b3  # xor x17, x17, x25
    .word 0x23412283  # lw x5, 564(x2)
    .word 0x00c2c633  # xor x12, x5, x12
    .word 0x22c12283  # lw x5, 556(x2)
    .word 0x0192c2b3  # xor x5, x5, x25
    .word 0x22512a23  # sw x5, 564(x2)
    .word 0x0166cb33  # xor x22, x13, x22
    .word 0x00f8ccb3  # xor x25, x17, x15
    .word 0x00e647b3  # xor x15, x12, x14
    .word 0x23412283  # lw x5, 564(x2)
    .word 0x0102c633  # xor x12, x5, x16
    .word 0x019b4833  # xor x16, x22, x25
    .word 0x00fb76b3  # and x13, x22, x15
    .word 0x00d64733  # xor x14, x12, x13
    .word 0x00e87b33  # and x22, x16, x14
    .word 0x019b4b33  # xor x22, x22, x25
    .word 0x00c7c8b3  # xor x17, x15, x12
    .word 0x00dcccb3  # xor x25, x25, x13
    .word 0x011cfcb3  # and x25, x25, x17
    .word 0x00ccccb3  # xor x25, x25, x12
    .word 0x0197c6b3  # xor x13, x15, x25
    .word 0x019747b3  # xor x15, x14, x25
    .word 0x00f677b3  # and x15, x12, x15
    .word 0x00d7c633  # xor x12, x15, x13
    .word 0x00f747b3  # xor x15, x14, x15
    .word 0x00fb77b3  # and x15, x22, x15
    .word 0x00f847b3  # xor x15, x16, x15
    .word 0x00c7c733  # xor x14, x15, x12
    .word 0x019b4833  # xor x16, x22, x25
    .word 0x00fb46b3  # xor x13, x22, x15
    .word 0x00ccc8b3  # xor x17, x25, x12
    .word 0x00e842b3  # xor x5, x16, x14
    .word 0x22512a23  # sw x5, 564(x2)
    .word 0x0138f2b3  # and x5, x17, x19
    .word 0x22512623  # sw x5, 556(x2)
    .word 0x22012303  # lw x6, 544(x2)
    .word 0x006672b3  # and x5, x12, x6
    .word 0x22512023  # sw x5, 544(x2)
    .word 0x012cf933  # and x18, x25, x18
    .word 0x0156f9b3  # and x19, x13, x21
    .word 0x0177fab3  # and x21, x15, x23
    .word 0x22412303  # lw x6, 548(x2)
    .word 0x006b7bb3  # and x23, x22, x6
    .word 0x014872b3  # and x5, x16, x20
    .word 0x22512223  # sw x5, 548(x2)
    .word 0x23412283  # lw x5, 564(x2)
    .word 0x22812303  # lw x6, 552(x2)
    .word 0x0062fa33  # and x20, x5, x6
    .word 0x018772b3  # and x5, x14, x24
    .word 0x22512423  # sw x5, 552(x2)
    .word 0x21012303  # lw x6, 528(x2)
    .word 0x0068f2b3  # and x5, x17, x6
    .word 0x20512823  # sw x5, 528(x2)
    .word 0x21c12303  # lw x6, 540(x2)
    .word 0x00667c33  # and x24, x12, x6
    .word 0x20c12303  # lw x6, 524(x2)
    .word 0x006cf633  # and x12, x25, x6
    .word 0x00b6fcb3  # and x25, x13, x11
    .word 0x21812303  # lw x6, 536(x2)
    .word 0x0067f7b3  # and x15, x15, x6
    .word 0x21412303  # lw x6, 532(x2)
    .word 0x006b72b3  # and x5, x22, x6
    .word 0x20512c23  # sw x5, 536(x2)
    .word 0x20412303  # lw x6, 516(x2)
    .word 0x006875b3  # and x11, x16, x6
    .word 0x23412283  # lw x5, 564(x2)
    .word 0x20012303  # lw x6, 512(x2)
    .word 0x0062fb33  # and x22, x5, x6
    .word 0x20812303  # lw x6, 520(x2)
    .word 0x006772b3  # and x5, x14, x6
    .word 0x20512023  # sw x5, 512(x2)
    .word 0x0165c5b3  # xor x11, x11, x22
    .word 0x00cc4633  # xor x12, x24, x12
    .word 0x00fbc2b3  # xor x5, x23, x15
    .word 0x20512423  # sw x5, 520(x2)
    .word 0x21012283  # lw x5, 528(x2)
    .word 0x0182cc33  # xor x24, x5, x24
    .word 0x019947b3  # xor x15, x18, x25
    .word 0x017942b3  # xor x5, x18, x23
    .word 0x20512223  # sw x5, 516(x2)
    .word 0x22812303  # lw x6, 552(x2)
    .word 0x006a4bb3  # xor x23, x20, x6
    .word 0x22c12283  # lw x5, 556(x2)
    .word 0x0132c933  # xor x18, x5, x19
    .word 0x22412283  # lw x5, 548(x2)
    .word 0x0142c2b3  # xor x5, x5, x20
    .word 0x20512823  # sw x5, 528(x2)
    .word 0x20012303  # lw x6, 512(x2)
    .word 0x006b42b3  # xor x5, x22, x6
    .word 0x20512023  # sw x5, 512(x2)
    .word 0x20812303  # lw x6, 520(x2)
    .word 0x006cc733  # xor x14, x25, x6
    .word 0x0127ccb3  # xor x25, x15, x18
    .word 0x00baca33  # xor x20, x21, x11
    .word 0x21012303  # lw x6, 528(x2)
    .word 0x0069cb33  # xor x22, x19, x6
    .word 0x0195c5b3  # xor x11, x11, x25
    .word 0x21812283  # lw x5, 536(x2)
    .word 0x0192c9b3  # xor x19, x5, x25
    .word 0x014bccb3  # xor x25, x23, x20
    .word 0x014c4a33  # xor x20, x24, x20
    .word 0x016acc33  # xor x24, x21, x22
    .word 0x0199c9b3  # xor x19, x19, x25
    .word 0x22012283  # lw x5, 544(x2)
    .word 0x0142cab3  # xor x21, x5, x20
    .word 0x014b4a33  # xor x20, x22, x20
    .word 0x019742b3  # xor x5, x14, x25
    .word 0xfff2cb13  # xori x22, x5, -1
    .word 0x20812283  # lw x5, 520(x2)
    .word 0x00b2c2b3  # xor x5, x5, x11
    .word 0xfff2cb93  # xori x23, x5, -1
    .word 0x013c45b3  # xor x11, x24, x19
    .word 0x01594cb3  # xor x25, x18, x21
    .word 0x20412283  # lw x5, 516(x2)
    .word 0x0152cab3  # xor x21, x5, x21
    .word 0x013649b3  # xor x19, x12, x19
    .word 0x019c42b3  # xor x5, x24, x25
    .word 0xfff2cc13  # xori x24, x5, -1
    .word 0x20012283  # lw x5, 512(x2)
    .word 0x00b2c2b3  # xor x5, x5, x11
    .word 0xfff2c593  # xori x11, x5, -1
    .word 0x01abf933  # and x18, x23, x26
    .word 0x00157293  # andi x5, x10, 1
    .word 0x02029263  # bne x5, x0, 36
    .word 0x01891f13  # slli x30, x18, 24
    .word 0x00895293  # srli x5, x18, 8
    .word 0x005f02b3  # add x5, x30, x5
    .word 0x00300313  # addi x6, x0, 3
    .word 0x00155393  # srli x7, x10, 1
    .word 0x0013b393  # sltiu x7, x7, 1
    .word 0x02730333  # mul x6, x6, x7
    .word 0x0062c933  # xor x18, x5, x6
    .word 0x00351293  # slli x5, x10, 3
    .word 0x00229293  # slli x5, x5, 2
    .word 0x002282b3  # add x5, x5, x2
    .word 0x0202a283  # lw x5, 32(x5)
    .word 0x0122c933  # xor x18, x5, x18
    .word 0x00291313  # slli x6, x18, 2
    .word 0x01b37333  # and x6, x6, x27
    .word 0x00694933  # xor x18, x18, x6
    .word 0x00351293  # slli x5, x10, 3
    .word 0x00491393  # slli x7, x18, 4
    .word 0x0093f3b3  # and x7, x7, x9
    .word 0x00794333  # xor x6, x18, x7
    .word 0x00229293  # slli x5, x5, 2
    .word 0x002282b3  # add x5, x5, x2
    .word 0x0662a023  # sw x6, 96(x5)
    .word 0x01ab7933  # and x18, x22, x26
    .word 0x00157293  # andi x5, x10, 1
    .word 0x02029463  # bne x5, x0, 40
    .word 0x01891f13  # slli x30, x18, 24
    .word 0x00895293  # srli x5, x18, 8
    .word 0x005f02b3  # add x5, x30, x5
    .word 0x00300313  # addi x6, x0, 3
    .word 0x00155393  # srli x7, x10, 1
    .word 0xfff38393  # addi x7, x7, -1
    .word 0x0013b393  # sltiu x7, x7, 1
    .word 0x02730333  # mul x6, x6, x7
    .word 0x0062c933  # xor x18, x5, x6
    .word 0x00351293  # slli x5, x10, 3
    .word 0x00229293  # slli x5, x5, 2
    .word 0x002282b3  # add x5, x5, x2
    .word 0x0242a283  # lw x5, 36(x5)
    .word 0x0122c933  # xor x18, x5, x18
    .word 0x00291313  # slli x6, x18, 2
    .word 0x01b37333  # and x6, x6, x27
    .word 0x00694933  # xor x18, x18, x6
    .word 0x00351293  # slli x5, x10, 3
    .word 0x00128293  # addi x5, x5, 1
    .word 0x00491393  # slli x7, x18, 4
    .word 0x0093f3b3  # and x7, x7, x9
    .word 0x00794333  # xor x6, x18, x7
    .word 0x00229293  # slli x5, x5, 2
    .word 0x002282b3  # add x5, x5, x2
    .word 0x0662a023  # sw x6, 96(x5)
    .word 0x01a9f933  # and x18, x19, x26
    .word 0x00157293  # andi x5, x10, 1
    .word 0x02029463  # bne x5, x0, 40
    .word 0x01891f13  # slli x30, x18, 24
    .word 0x00895293  # srli x5, x18, 8
    .word 0x005f02b3  # add x5, x30, x5
    .word 0x00300313  # addi x6, x0, 3
    .word 0x00155393  # srli x7, x10, 1
    .word 0xffe38393  # addi x7, x7, -2
    .word 0x0013b393  # sltiu x7, x7, 1
    .word 0x02730333  # mul x6, x6, x7
    .word 0x0062c933  # xor x18, x5, x6
    .word 0x00351293  # slli x5, x10, 3
    .word 0x00229293  # slli x5, x5, 2
    .word 0x002282b3  # add x5, x5, x2
    .word 0x0282a283  # lw x5, 40(x5)
    .word 0x0122c933  # xor x18, x5, x18
    .word 0x00291313  # slli x6, x18, 2
    .word 0x01b37333  # and x6, x6, x27
    .word 0x00694933  # xor x18, x18, x6
    .word 0x00351293  # slli x5, x10, 3
    .word 0x00228293  # addi x5, x5, 2
    .word 0x00491393  # slli x7, x18, 4
    .word 0x0093f3b3  # and x7, x7, x9
    .word 0x00794333  # xor x6, x18, x7
    .word 0x00229293  # slli x5, x5, 2
    .word 0x002282b3  # add x5, x5, x2
    .word 0x0662a023  # sw x6, 96(x5)
    .word 0x01aaf933  # and x18, x21, x26
    .word 0x00157293  # andi x5, x10, 1
    .word 0x02029463  # bne x5, x0, 40
    .word 0x01891f13  # slli x30, x18, 24
    .word 0x00895293  # srli x5, x18, 8
    .word 0x005f02b3  # add x5, x30, x5
    .word 0x00300313  # addi x6, x0, 3
    .word 0x00155393  # srli x7, x10, 1
    .word 0xffd38393  # addi x7, x7, -3
    .word 0x0013b393  # sltiu x7, x7, 1
    .word 0x02730333  # mul x6, x6, x7
    .word 0x0062c933  # xor x18, x5, x6
    .word 0x00351293  # slli x5, x10, 3
    .word 0x00229293  # slli x5, x5, 2
    .word 0x002282b3  # add x5, x5, x2
    .word 0x02c2a283  # lw x5, 44(x5)
    .word 0x0122c933  # xor x18, x5, x18
    .word 0x00291313  # slli x6, x18, 2
    .word 0x01b37333  # and x6, x6, x27
    .word 0x00694933  # xor x18, x18, x6
    .word 0x00351293  # slli x5, x10, 3
    .word 0x00328293  # addi x5, x5, 3
    .word 0x00491393  # slli x7, x18, 4
    .word 0x0093f3b3  # and x7, x7, x9
    .word 0x00794333  # xor x6, x18, x7
    .word 0x00229293  # slli x5, x5, 2
    .word 0x002282b3  # add x5, x5, x2
    .word 0x0662a023  # sw x6, 96(x5)
    .word 0x01acf933  # and x18, x25, x26
    .word 0x00157293  # andi x5, x10, 1
    .word 0x02029463  # bne x5, x0, 40
    .word 0x01891f13  # slli x30, x18, 24
    .word 0x00895293  # srli x5, x18, 8
    .word 0x005f02b3  # add x5, x30, x5
    .word 0x00300313  # addi x6, x0, 3
    .word 0x00155393  # srli x7, x10, 1
    .word 0xffc38393  # addi x7, x7, -4
    .word 0x0013b393  # sltiu x7, x7, 1
    .word 0x02730333  # mul x6, x6, x7
    .word 0x0062c933  # xor x18, x5, x6
    .word 0x00351293  # slli x5, x10, 3
    .word 0x00229293  # slli x5, x5, 2
    .word 0x002282b3  # add x5, x5, x2
    .word 0x0302a283  # lw x5, 48(x5)
    .word 0x0122c933  # xor x18, x5, x18
    .word 0x00291313  # slli x6, x18, 2
    .word 0x01b37333  # and x6, x6, x27
    .word 0x00694933  # xor x18, x18, x6
    .word 0x00351293  # slli x5, x10, 3
    .word 0x00428293  # addi x5, x5, 4
    .word 0x00491393  # slli x7, x18, 4
    .word 0x0093f3b3  # and x7, x7, x9
    .word 0x00794333  # xor x6, x18, x7
    .word 0x00229293  # slli x5, x5, 2
    .word 0x002282b3  # add x5, x5, x2
    .word 0x0662a023  # sw x6, 96(x5)
    .word 0x01a5f933  # and x18, x11, x26
    .word 0x00157293  # andi x5, x10, 1
    .word 0x02029463  # bne x5, x0, 40
    .word 0x01891f13  # slli x30, x18, 24
    .word 0x00895293  # srli x5, x18, 8
    .word 0x005f02b3  # add x5, x30, x5
    .word 0x00300313  # addi x6, x0, 3
    .word 0x00155393  # srli x7, x10, 1
    .word 0xffb38393  # addi x7, x7, -5
    .word 0x0013b393  # sltiu x7, x7, 1
    .word 0x02730333  # mul x6, x6, x7
    .word 0x0062c933  # xor x18, x5, x6
    .word 0x00351293  # slli x5, x10, 3
    .word 0x00229293  # slli x5, x5, 2
    .word 0x002282b3  # add x5, x5, x2
    .word 0x0342a283  # lw x5, 52(x5)
    .word 0x0122c933  # xor x18, x5, x18
    .word 0x00291313  # slli x6, x18, 2
    .word 0x01b37333  # and x6, x6, x27
    .word 0x00694933  # xor x18, x18, x6
    .word 0x00351293  # slli x5, x10, 3
    .word 0x00528293  # addi x5, x5, 5
    .word 0x00491393  # slli x7, x18, 4
    .word 0x0093f3b3  # and x7, x7, x9
    .word 0x00794333  # xor x6, x18, x7
    .word 0x00229293  # slli x5, x5, 2
    .word 0x002282b3  # add x5, x5, x2
    .word 0x0662a023  # sw x6, 96(x5)
    .word 0x01ac7933  # and x18, x24, x26
    .word 0x00157293  # andi x5, x10, 1
    .word 0x02029463  # bne x5, x0, 40
    .word 0x01891f13  # slli x30, x18, 24
    .word 0x00895293  # srli x5, x18, 8
    .word 0x005f02b3  # add x5, x30, x5
    .word 0x00300313  # addi x6, x0, 3
    .word 0x00155393  # srli x7, x10, 1
    .word 0xffa38393  # addi x7, x7, -6
    .word 0x0013b393  # sltiu x7, x7, 1
    .word 0x02730333  # mul x6, x6, x7
    .word 0x0062c933  # xor x18, x5, x6
    .word 0x00351293  # slli x5, x10, 3
    .word 0x00229293  # slli x5, x5, 2
    .word 0x002282b3  # add x5, x5, x2
    .word 0x0382a283  # lw x5, 56(x5)
    .word 0x0122c933  # xor x18, x5, x18
    .word 0x00291313  # slli x6, x18, 2
    .word 0x01b37333  # and x6, x6, x27
    .word 0x00694933  # xor x18, x18, x6
    .word 0x00351293  # slli x5, x10, 3
    .word 0x00628293  # addi x5, x5, 6
    .word 0x00491393  # slli x7, x18, 4
    .word 0x0093f3b3  # and x7, x7, x9
    .word 0x00794333  # xor x6, x18, x7
    .word 0x00229293  # slli x5, x5, 2
    .word 0x002282b3  # add x5, x5, x2
    .word 0x0662a023  # sw x6, 96(x5)
    .word 0x01aa7933  # and x18, x20, x26
    .word 0x00157293  # andi x5, x10, 1
    .word 0x02029463  # bne x5, x0, 40
    .word 0x01891f13  # slli x30, x18, 24
    .word 0x00895293  # srli x5, x18, 8
    .word 0x005f02b3  # add x5, x30, x5
    .word 0x00300313  # addi x6, x0, 3
    .word 0x00155393  # srli x7, x10, 1
    .word 0xff938393  # addi x7, x7, -7
    .word 0x0013b393  # sltiu x7, x7, 1
    .word 0x02730333  # mul x6, x6, x7
    .word 0x0062c933  # xor x18, x5, x6
    .word 0x00351293  # slli x5, x10, 3
    .word 0x00229293  # slli x5, x5, 2
    .word 0x002282b3  # add x5, x5, x2
    .word 0x03c2a283  # lw x5, 60(x5)
    .word 0x0122c933  # xor x18, x5, x18
    .word 0x00291313  # slli x6, x18, 2
    .word 0x01b37333  # and x6, x6, x27
    .word 0x00694933  # xor x18, x18, x6
    .word 0x00351293  # slli x5, x10, 3
    .word 0x00728293  # addi x5, x5, 7
    .word 0x00491393  # slli x7, x18, 4
    .word 0x0093f3b3  # and x7, x7, x9
    .word 0x00794333  # xor x6, x18, x7
    .word 0x00229293  # slli x5, x5, 2
    .word 0x002282b3  # add x5, x5, x2
    .word 0x0662a023  # sw x6, 96(x5)
    .word 0xff450293  # addi x5, x10, -12
    .word 0x8a0292e3  # bne x5, x0, -1884
    # the result
    .word 0x00000513  # addi x10, x0, 0
    # parameter 1: the array, back
    .word 0x02010293  # addi x5, x2, 32
    .word 0x28c12303  # lw x6, 652(x2)
    .word 0x1e028393  # addi x7, x5, 480
    .word 0x08c00f6f  # jal x30, 140
    # above the frame
    .word 0x25010293  # addi x5, x2, 592
    # the caller's registers
    .word 0x0002a483  # lw x9, 0(x5)
    .cfi_restore 9
    .word 0x0042a903  # lw x18, 4(x5)
    .cfi_restore 18
    .word 0x0082a983  # lw x19, 8(x5)
    .cfi_restore 19
    .word 0x00c2aa03  # lw x20, 12(x5)
    .cfi_restore 20
    .word 0x0102aa83  # lw x21, 16(x5)
    .cfi_restore 21
    .word 0x0142ab03  # lw x22, 20(x5)
    .cfi_restore 22
    .word 0x0182ab83  # lw x23, 24(x5)
    .cfi_restore 23
    .word 0x01c2ac03  # lw x24, 28(x5)
    .cfi_restore 24
    .word 0x0202ac83  # lw x25, 32(x5)
    .cfi_restore 25
    .word 0x0242ad03  # lw x26, 36(x5)
    .cfi_restore 26
    .word 0x0282ad83  # lw x27, 40(x5)
    .cfi_restore 27
    # the caller's x2
    .word 0x04028293  # addi x5, x5, 64
    .cfi_def_cfa 5, 0
    # all the room, wiped upward
    .word 0x00012023  # sw x0, 0(x2)
    .word 0x00012223  # sw x0, 4(x2)
    .word 0x00012423  # sw x0, 8(x2)
    .word 0x00012623  # sw x0, 12(x2)
    .word 0x01010113  # addi x2, x2, 16
    .word 0xfe5116e3  # bne x2, x5, -20
    .cfi_def_cfa 2, 0
    # temporaries, wiped
    .word 0x00000293  # addi x5, x0, 0
    .word 0x00000313  # addi x6, x0, 0
    .word 0x00000393  # addi x7, x0, 0
    .word 0x00000593  # addi x11, x0, 0
    .word 0x00000613  # addi x12, x0, 0
    .word 0x00000693  # addi x13, x0, 0
    .word 0x00000713  # addi x14, x0, 0
    .word 0x00000793  # addi x15, x0, 0
    .word 0x00000813  # addi x16, x0, 0
    .word 0x00000893  # addi x17, x0, 0
    .word 0x00000e13  # addi x28, x0, 0
    .word 0x00000e93  # addi x29, x0, 0
    .word 0x00000f13  # addi x30, x0, 0
    .word 0x00000f93  # addi x31, x0, 0
    # back
    .word 0x00008067  # jalr x0, 0(x1)
    # from x5 to x6 up to x7, and back
    .cfi_def_cfa 2, 656
    .cfi_offset 9, -64
    .cfi_offset 18, -60
    .cfi_offset 19, -56
    .cfi_offset 20, -52
    .cfi_offset 21, -48
    .cfi_offset 22, -44
    .cfi_offset 23, -40
    .cfi_offset 24, -36
    .cfi_offset 25, -32
    .cfi_offset 26, -28
    .cfi_offset 27, -24
    .word 0x0062ee33  # or x28, x5, x6
    .word 0x003e7e13  # andi x28, x28, 3
    .word 0x000e0e63  # beq x28, x0, 28
    .word 0x0002ce03  # lbu x28, 0(x5)
    .word 0x01c30023  # sb x28, 0(x6)
    .word 0x00128293  # addi x5, x5, 1
    .word 0x00130313  # addi x6, x6, 1
    .word 0xfe7298e3  # bne x5, x7, -16
    .word 0x0300006f  # jal x0, 48
    .word 0x0002ae03  # lw x28, 0(x5)
    .word 0x01c32023  # sw x28, 0(x6)
    .word 0x0042ae03  # lw x28, 4(x5)
    .word 0x01c32223  # sw x28, 4(x6)
    .word 0x0082ae03  # lw x28, 8(x5)
    .word 0x01c32423  # sw x28, 8(x6)
    .word 0x00c2ae03  # lw x28, 12(x5)
    .word 0x01c32623  # sw x28, 12(x6)
    .word 0x01028293  # addi x5, x5, 16
    .word 0x01030313  # addi x6, x6, 16
    .word 0xfc729ce3  # bne x5, x7, -40
    .word 0x000f0067  # jalr x0, 0(x30)
    .cfi_endproc
    .size aes256_expand, . - aes256_expand
    .option pop
