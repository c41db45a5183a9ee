# aes128_encrypt_2: made by factc 1.0.0 function; 702 words, 528 bytes of stack, profile 1
    .option push
    .option norvc
    .option norelax
    .cfi_sections .debug_frame
    .section .text.aes128_encrypt_2, "ax", @progbits
    .p2align 2
    .globl aes128_encrypt_2
    .type aes128_encrypt_2, @function
aes128_encrypt_2:
    .cfi_startproc
    # room above the frame
    .word 0xfc010113  # addi x2, x2, -64
    .cfi_def_cfa_offset 64
    # the caller's registers
    .word 0x00812023  # sw x8, 0(x2)
    .cfi_offset 8, -64
    .word 0x00912223  # sw x9, 4(x2)
    .cfi_offset 9, -60
    .word 0x01212423  # sw x18, 8(x2)
    .cfi_offset 18, -56
    .word 0x01312623  # sw x19, 12(x2)
    .cfi_offset 19, -52
    .word 0x01412823  # sw x20, 16(x2)
    .cfi_offset 20, -48
    .word 0x01512a23  # sw x21, 20(x2)
    .cfi_offset 21, -44
    .word 0x01612c23  # sw x22, 24(x2)
    .cfi_offset 22, -40
    .word 0x01712e23  # sw x23, 28(x2)
    .cfi_offset 23, -36
    .word 0x03812023  # sw x24, 32(x2)
    .cfi_offset 24, -32
    .word 0x03912223  # sw x25, 36(x2)
    .cfi_offset 25, -28
    .word 0x03a12423  # sw x26, 40(x2)
    .cfi_offset 26, -24
    .word 0x03b12623  # sw x27, 44(x2)
    .cfi_offset 27, -20
    # arguments that are needed behind the body
    .word 0x02a12c23  # sw x10, 56(x2)
    .word 0x02b12e23  # sw x11, 60(x2)
    # the frame's base
    .word 0xe3010113  # addi x2, x2, -464
    .cfi_def_cfa 2, 528
    # parameter 0: an array
    .word 0x00050293  # addi x5, x10, 0
    .word 0x00010313  # addi x6, x2, 0
    .word 0x16028393  # addi x7, x5, 352
    .word 0x25900f6f  # jal x30, 2648
    # parameter 1: an array
    .word 0x00058293  # addi x5, x11, 0
    .word 0x16010313  # addi x6, x2, 352
    .word 0x02028393  # addi x7, x5, 32
    .word 0x24900f6f  # jal x30, 2632
    # the body
    .word 0x555552b7  # lui x5, 0x55555
    .word 0x55528293  # addi x5, x5, 1365
    .word 0x1a512a23  # sw x5, 436(x2)
    .word 0x333332b7  # lui x5, 0x33333
    .word 0x33328293  # addi x5, x5, 819
    .word 0x1a512c23  # sw x5, 440(x2)
    .word 0x0f0f12b7  # lui x5, 0x0f0f1
    .word 0xf0f28293  # addi x5, x5, -241
    .word 0x1a512e23  # sw x5, 444(x2)
    .word 0x0c0f0437  # lui x8, 0x0c0f0
    .word 0x30040413  # addi x8, x8, 768
    .word 0x330032b7  # lui x5, 0x33003
    .word 0x30028293  # addi x5, x5, 768
    .word 0x1c512023  # sw x5, 448(x2)
    .word 0x16012a03  # lw x20, 352(x2)
    .word 0x17012a83  # lw x21, 368(x2)
    .word 0x16412b03  # lw x22, 356(x2)
    .word 0x17412b83  # lw x23, 372(x2)
    .word 0x16812c03  # lw x24, 360(x2)
    .word 0x17812c83  # lw x25, 376(x2)
    .word 0x16c12d03  # lw x26, 364(x2)
    .word 0x17c12d83  # lw x27, 380(x2)
    .word 0x001a5293  # srli x5, x20, 1
    .word 0x0152c2b3  # xor x5, x5, x21
    .word 0x1b412303  # lw x6, 436(x2)
    .word 0x0062f8b3  # and x17, x5, x6
    .word 0x011acab3  # xor x21, x21, x17
    .word 0x00189313  # slli x6, x17, 1
    .word 0x006a4a33  # xor x20, x20, x6
    .word 0x001b5293  # srli x5, x22, 1
    .word 0x0172c2b3  # xor x5, x5, x23
    .word 0x1b412303  # lw x6, 436(x2)
    .word 0x0062f8b3  # and x17, x5, x6
    .word 0x011bcbb3  # xor x23, x23, x17
    .word 0x00189313  # slli x6, x17, 1
    .word 0x006b4b33  # xor x22, x22, x6
    .word 0x001c5293  # srli x5, x24, 1
    .word 0x0192c2b3  # xor x5, x5, x25
    .word 0x1b412303  # lw x6, 436(x2)
    .word 0x0062f8b3  # and x17, x5, x6
    .word 0x011cccb3  # xor x25, x25, x17
    .word 0x00189313  # slli x6, x17, 1
    .word 0x006c4c33  # xor x24, x24, x6
    .word 0x001d5293  # srli x5, x26, 1
    .word 0x01b2c2b3  # xor x5, x5, x27
    .word 0x1b412303  # lw x6, 436(x2)
    .word 0x0062f8b3  # and x17, x5, x6
    .word 0x011dcdb3  # xor x27, x27, x17
    .word 0x00189313  # slli x6, x17, 1
    .word 0x006d4d33  # xor x26, x26, x6
    .word 0x002a5293  # srli x5, x20, 2
    .word 0x0162c2b3  # xor x5, x5, x22
    .word 0x1b812303  # lw x6, 440(x2)
    .word 0x0062f8b3  # and x17, x5, x6
    .word 0x011b4b33  # xor x22, x22, x17
    .word 0x00289313  # slli x6, x17, 2
    .word 0x006a4a33  # xor x20, x20, x6
    .word 0x002ad293  # srli x5, x21, 2
    .word 0x0172c2b3  # xor x5, x5, x23
    .word 0x1b812303  # lw x6, 440(x2)
    .word 0x0062f8b3  # and x17, x5, x6
    .word 0x011bcbb3  # xor x23, x23, x17
    .word 0x00289313  # slli x6, x17, 2
    .word 0x006acab3  # xor x21, x21, x6
    .word 0x002c5293  # srli x5, x24, 2
    .word 0x01a2c2b3  # xor x5, x5, x26
    .word 0x1b812303  # lw x6, 440(x2)
    .word 0x0062f8b3  # and x17, x5, x6
    .word 0x011d4d33  # xor x26, x26, x17
    .word 0x00289313  # slli x6, x17, 2
    .word 0x006c4c33  # xor x24, x24, x6
    .word 0x002cd293  # srli x5, x25, 2
    .word 0x01b2c2b3  # xor x5, x5, x27
    .word 0x1b812303  # lw x6, 440(x2)
    .word 0x0062f8b3  # and x17, x5, x6
    .word 0x011dcdb3  # xor x27, x27, x17
    .word 0x00289313  # slli x6, x17, 2
    .word 0x006cccb3  # xor x25, x25, x6
    .word 0x004a5293  # srli x5, x20, 4
    .word 0x0182c2b3  # xor x5, x5, x24
    .word 0x1bc12303  # lw x6, 444(x2)
    .word 0x0062f8b3  # and x17, x5, x6
    .word 0x011c4c33  # xor x24, x24, x17
    .word 0x00489313  # slli x6, x17, 4
    .word 0x006a4a33  # xor x20, x20, x6
    .word 0x004ad293  # srli x5, x21, 4
    .word 0x0192c2b3  # xor x5, x5, x25
    .word 0x1bc12303  # lw x6, 444(x2)
    .word 0x0062f8b3  # and x17, x5, x6
    .word 0x011cccb3  # xor x25, x25, x17
    .word 0x00489313  # slli x6, x17, 4
    .word 0x006acab3  # xor x21, x21, x6
    .word 0x004b5293  # srli x5, x22, 4
    .word 0x01a2c2b3  # xor x5, x5, x26
    .word 0x1bc12303  # lw x6, 444(x2)
    .word 0x0062f8b3  # and x17, x5, x6
    .word 0x011d4d33  # xor x26, x26, x17
    .word 0x00489313  # slli x6, x17, 4
    .word 0x006b4b33  # xor x22, x22, x6
    .word 0x004bd293  # srli x5, x23, 4
    .word 0x01b2c2b3  # xor x5, x5, x27
    .word 0x1bc12303  # lw x6, 444(x2)
    .word 0x0062f8b3  # and x17, x5, x6
    .word 0x011dcdb3  # xor x27, x27, x17
    .word 0x00489313  # slli x6, x17, 4
    .word 0x006bcbb3  # xor x23, x23, x6
    .word 0x00012303  # lw x6, 0(x2)
    .word 0x006a4a33  # xor x20, x20, x6
    .word 0x00412303  # lw x6, 4(x2)
    .word 0x006acab3  # xor x21, x21, x6
    .word 0x00812303  # lw x6, 8(x2)
    .word 0x006b4b33  # xor x22, x22, x6
    .word 0x00c12303  # lw x6, 12(x2)
    .word 0x006bcbb3  # xor x23, x23, x6
    .word 0x01012303  # lw x6, 16(x2)
    .word 0x006c4c33  # xor x24, x24, x6
    .word 0x01412303  # lw x6, 20(x2)
    .word 0x006cccb3  # xor x25, x25, x6
    .word 0x01812303  # lw x6, 24(x2)
    .word 0x006d4d33  # xor x26, x26, x6
    .word 0x01c12303  # lw x6, 28(x2)
    .word 0x006dcdb3  # xor x27, x27, x6
    .word 0x00100293  # addi x5, x0, 1
    .word 0x1c512423  # sw x5, 456(x2)
    .word 0x00b00293  # addi x5, x0, 11
    .word 0x1c512623  # sw x5, 460(x2)
    .word 0x1c812303  # lw x6, 456(x2)
    .word 0x1cc12283  # lw x5, 460(x2)
    .word 0x005332b3  # sltu x5, x6, x5
    .word 0x00029463  # bne x5, x0, 8
    .word 0x62c0006f  # jal x0, 1580
    .word 0x1a612823  # sw x6, 432(x2)
    .word 0x00130313  # addi x6, x6, 1
    .word 0x1c612423  # sw x6, 456(x2)
    .word 0x016c42b3  # xor x5, x24, x22
    .word 0x18512023  # sw x5, 384(x2)
    .word 0x015dc7b3  # xor x15, x27, x21
    .word 0x018dc2b3  # xor x5, x27, x24
    .word 0x18512223  # sw x5, 388(x2)
    .word 0x016dc833  # xor x16, x27, x22
    .word 0x019d48b3  # xor x17, x26, x25
    .word 0x0148c933  # xor x18, x17, x20
    .word 0x018942b3  # xor x5, x18, x24
    .word 0x18512423  # sw x5, 392(x2)
    .word 0x18012303  # lw x6, 384(x2)
    .word 0x0067c533  # xor x10, x15, x6
    .word 0x01b942b3  # xor x5, x18, x27
    .word 0x18512623  # sw x5, 396(x2)
    .word 0x015942b3  # xor x5, x18, x21
    .word 0x18512823  # sw x5, 400(x2)
    .word 0x19012283  # lw x5, 400(x2)
    .word 0x0102c2b3  # xor x5, x5, x16
    .word 0x18512a23  # sw x5, 404(x2)
    .word 0x00abcab3  # xor x21, x23, x10
    .word 0x016acc33  # xor x24, x21, x22
    .word 0x01aacbb3  # xor x23, x21, x26
    .word 0x014c42b3  # xor x5, x24, x20
    .word 0x18512c23  # sw x5, 408(x2)
    .word 0x011c4ab3  # xor x21, x24, x17
    .word 0x18412303  # lw x6, 388(x2)
    .word 0x006bcb33  # xor x22, x23, x6
    .word 0x016a42b3  # xor x5, x20, x22
    .word 0x18512e23  # sw x5, 412(x2)
    .word 0x016ac2b3  # xor x5, x21, x22
    .word 0x1a512023  # sw x5, 416(x2)
    .word 0x010accb3  # xor x25, x21, x16
    .word 0x0168cd33  # xor x26, x17, x22
    .word 0x01a7c633  # xor x12, x15, x26
    .word 0x01adc6b3  # xor x13, x27, x26
    .word 0x018578b3  # and x17, x10, x24
    .word 0x19412283  # lw x5, 404(x2)
    .word 0x19812303  # lw x6, 408(x2)
    .word 0x0062fdb3  # and x27, x5, x6
    .word 0x011dc5b3  # xor x11, x27, x17
    .word 0x18812283  # lw x5, 392(x2)
    .word 0x0142fdb3  # and x27, x5, x20
    .word 0x011dc733  # xor x14, x27, x17
    .word 0x01a7f8b3  # and x17, x15, x26
    .word 0x19012283  # lw x5, 400(x2)
    .word 0x0122fdb3  # and x27, x5, x18
    .word 0x011dc2b3  # xor x5, x27, x17
    .word 0x1a512623  # sw x5, 428(x2)
    .word 0x18c12283  # lw x5, 396(x2)
    .word 0x19c12303  # lw x6, 412(x2)
    .word 0x0062fdb3  # and x27, x5, x6
    .word 0x011dc2b3  # xor x5, x27, x17
    .word 0x1a512223  # sw x5, 420(x2)
    .word 0x18412283  # lw x5, 388(x2)
    .word 0x0162f8b3  # and x17, x5, x22
    .word 0x18012283  # lw x5, 384(x2)
    .word 0x1a012303  # lw x6, 416(x2)
    .word 0x0062fdb3  # and x27, x5, x6
    .word 0x011dcdb3  # xor x27, x27, x17
    .word 0x015872b3  # and x5, x16, x21
    .word 0x1a512423  # sw x5, 424(x2)
    .word 0x1a812283  # lw x5, 424(x2)
    .word 0x0112c8b3  # xor x17, x5, x17
    .word 0x01b5c5b3  # xor x11, x11, x27
    .word 0x01174733  # xor x14, x14, x17
    .word 0x1ac12283  # lw x5, 428(x2)
    .word 0x01b2c2b3  # xor x5, x5, x27
    .word 0x1a512623  # sw x5, 428(x2)
    .word 0x1a412283  # lw x5, 420(x2)
    .word 0x0112c2b3  # xor x5, x5, x17
    .word 0x1a512223  # sw x5, 420(x2)
    .word 0x0175cdb3  # xor x27, x11, x23
    .word 0x019748b3  # xor x17, x14, x25
    .word 0x1ac12283  # lw x5, 428(x2)
    .word 0x00c2ccb3  # xor x25, x5, x12
    .word 0x1a412283  # lw x5, 420(x2)
    .word 0x00d2cbb3  # xor x23, x5, x13
    .word 0x011dc6b3  # xor x13, x27, x17
    .word 0x019df5b3  # and x11, x27, x25
    .word 0x00bbc633  # xor x12, x23, x11
    .word 0x00c6fdb3  # and x27, x13, x12
    .word 0x011dcdb3  # xor x27, x27, x17
    .word 0x017cc733  # xor x14, x25, x23
    .word 0x00b8c8b3  # xor x17, x17, x11
    .word 0x00e8f8b3  # and x17, x17, x14
    .word 0x0178c8b3  # xor x17, x17, x23
    .word 0x011cc5b3  # xor x11, x25, x17
    .word 0x01164cb3  # xor x25, x12, x17
    .word 0x019bfcb3  # and x25, x23, x25
    .word 0x00bccbb3  # xor x23, x25, x11
    .word 0x01964cb3  # xor x25, x12, x25
    .word 0x019dfcb3  # and x25, x27, x25
    .word 0x0196ccb3  # xor x25, x13, x25
    .word 0x017cc633  # xor x12, x25, x23
    .word 0x011dc6b3  # xor x13, x27, x17
    .word 0x019dc5b3  # xor x11, x27, x25
    .word 0x0178c733  # xor x14, x17, x23
    .word 0x00c6c2b3  # xor x5, x13, x12
    .word 0x1a512623  # sw x5, 428(x2)
    .word 0x018772b3  # and x5, x14, x24
    .word 0x1a512223  # sw x5, 420(x2)
    .word 0x19812303  # lw x6, 408(x2)
    .word 0x006bf2b3  # and x5, x23, x6
    .word 0x18512c23  # sw x5, 408(x2)
    .word 0x0148fa33  # and x20, x17, x20
    .word 0x01a5fc33  # and x24, x11, x26
    .word 0x012cf933  # and x18, x25, x18
    .word 0x19c12303  # lw x6, 412(x2)
    .word 0x006dfd33  # and x26, x27, x6
    .word 0x0166f2b3  # and x5, x13, x22
    .word 0x18512e23  # sw x5, 412(x2)
    .word 0x1ac12283  # lw x5, 428(x2)
    .word 0x1a012303  # lw x6, 416(x2)
    .word 0x0062fb33  # and x22, x5, x6
    .word 0x015672b3  # and x5, x12, x21
    .word 0x1a512023  # sw x5, 416(x2)
    .word 0x00a77533  # and x10, x14, x10
    .word 0x19412303  # lw x6, 404(x2)
    .word 0x006bfab3  # and x21, x23, x6
    .word 0x18812303  # lw x6, 392(x2)
    .word 0x0068f2b3  # and x5, x17, x6
    .word 0x18512423  # sw x5, 392(x2)
    .word 0x00f5f8b3  # and x17, x11, x15
    .word 0x19012303  # lw x6, 400(x2)
    .word 0x006cfcb3  # and x25, x25, x6
    .word 0x18c12303  # lw x6, 396(x2)
    .word 0x006df7b3  # and x15, x27, x6
    .word 0x18412303  # lw x6, 388(x2)
    .word 0x0066fbb3  # and x23, x13, x6
    .word 0x1ac12283  # lw x5, 428(x2)
    .word 0x18012303  # lw x6, 384(x2)
    .word 0x0062fdb3  # and x27, x5, x6
    .word 0x01067833  # and x16, x12, x16
    .word 0x01bbcbb3  # xor x23, x23, x27
    .word 0x18812303  # lw x6, 392(x2)
    .word 0x006ac2b3  # xor x5, x21, x6
    .word 0x18512023  # sw x5, 384(x2)
    .word 0x019d4cb3  # xor x25, x26, x25
    .word 0x01554ab3  # xor x21, x10, x21
    .word 0x011a42b3  # xor x5, x20, x17
    .word 0x18512223  # sw x5, 388(x2)
    .word 0x01aa4533  # xor x10, x20, x26
    .word 0x1a012303  # lw x6, 416(x2)
    .word 0x006b4d33  # xor x26, x22, x6
    .word 0x1a412283  # lw x5, 420(x2)
    .word 0x0182ca33  # xor x20, x5, x24
    .word 0x19c12283  # lw x5, 412(x2)
    .word 0x0162cb33  # xor x22, x5, x22
    .word 0x010dc2b3  # xor x5, x27, x16
    .word 0x18512823  # sw x5, 400(x2)
    .word 0x0198c833  # xor x16, x17, x25
    .word 0x18412283  # lw x5, 388(x2)
    .word 0x0142c8b3  # xor x17, x5, x20
    .word 0x01794db3  # xor x27, x18, x23
    .word 0x016c4b33  # xor x22, x24, x22
    .word 0x011bcbb3  # xor x23, x23, x17
    .word 0x0117cc33  # xor x24, x15, x17
    .word 0x01bd48b3  # xor x17, x26, x27
    .word 0x01bacdb3  # xor x27, x21, x27
    .word 0x01694ab3  # xor x21, x18, x22
    .word 0x011c4d33  # xor x26, x24, x17
    .word 0x19812283  # lw x5, 408(x2)
    .word 0x01b2cc33  # xor x24, x5, x27
    .word 0x01bb47b3  # xor x15, x22, x27
    .word 0x011842b3  # xor x5, x16, x17
    .word 0xfff2cb13  # xori x22, x5, -1
    .word 0x017cc2b3  # xor x5, x25, x23
    .word 0xfff2c913  # xori x18, x5, -1
    .word 0x01aac8b3  # xor x17, x21, x26
    .word 0x018a4db3  # xor x27, x20, x24
    .word 0x01854c33  # xor x24, x10, x24
    .word 0x18012283  # lw x5, 384(x2)
    .word 0x01a2cd33  # xor x26, x5, x26
    .word 0x01bac2b3  # xor x5, x21, x27
    .word 0xfff2c813  # xori x16, x5, -1
    .word 0x19012283  # lw x5, 400(x2)
    .word 0x0112c2b3  # xor x5, x5, x17
    .word 0xfff2cc93  # xori x25, x5, -1
    .word 0x00495313  # srli x6, x18, 4
    .word 0x006942b3  # xor x5, x18, x6
    .word 0x0082f8b3  # and x17, x5, x8
    .word 0x011942b3  # xor x5, x18, x17
    .word 0x00489313  # slli x6, x17, 4
    .word 0x0062c8b3  # xor x17, x5, x6
    .word 0x0028d313  # srli x6, x17, 2
    .word 0x0068c2b3  # xor x5, x17, x6
    .word 0x1c012303  # lw x6, 448(x2)
    .word 0x0062f933  # and x18, x5, x6
    .word 0x0128c2b3  # xor x5, x17, x18
    .word 0x00291313  # slli x6, x18, 2
    .word 0x0062ca33  # xor x20, x5, x6
    .word 0x004b5313  # srli x6, x22, 4
    .word 0x006b42b3  # xor x5, x22, x6
    .word 0x0082f8b3  # and x17, x5, x8
    .word 0x011b42b3  # xor x5, x22, x17
    .word 0x00489313  # slli x6, x17, 4
    .word 0x0062c8b3  # xor x17, x5, x6
    .word 0x0028d313  # srli x6, x17, 2
    .word 0x0068c2b3  # xor x5, x17, x6
    .word 0x1c012303  # lw x6, 448(x2)
    .word 0x0062f933  # and x18, x5, x6
    .word 0x0128c2b3  # xor x5, x17, x18
    .word 0x00291313  # slli x6, x18, 2
    .word 0x0062cab3  # xor x21, x5, x6
    .word 0x004d5313  # srli x6, x26, 4
    .word 0x006d42b3  # xor x5, x26, x6
    .word 0x0082f8b3  # and x17, x5, x8
    .word 0x011d42b3  # xor x5, x26, x17
    .word 0x00489313  # slli x6, x17, 4
    .word 0x0062c8b3  # xor x17, x5, x6
    .word 0x0028d313  # srli x6, x17, 2
    .word 0x0068c2b3  # xor x5, x17, x6
    .word 0x1c012303  # lw x6, 448(x2)
    .word 0x0062f933  # and x18, x5, x6
    .word 0x0128c2b3  # xor x5, x17, x18
    .word 0x00291313  # slli x6, x18, 2
    .word 0x0062cb33  # xor x22, x5, x6
    .word 0x004c5313  # srli x6, x24, 4
    .word 0x006c42b3  # xor x5, x24, x6
    .word 0x0082f8b3  # and x17, x5, x8
    .word 0x011c42b3  # xor x5, x24, x17
    .word 0x00489313  # slli x6, x17, 4
    .word 0x0062c8b3  # xor x17, x5, x6
    .word 0x0028d313  # srli x6, x17, 2
    .word 0x0068c2b3  # xor x5, x17, x6
    .word 0x1c012303  # lw x6, 448(x2)
    .word 0x0062f933  # and x18, x5, x6
    .word 0x0128c2b3  # xor x5, x17, x18
    .word 0x00291313  # slli x6, x18, 2
    .word 0x0062cbb3  # xor x23, x5, x6
    .word 0x004dd313  # srli x6, x27, 4
    .word 0x006dc2b3  # xor x5, x27, x6
    .word 0x0082f8b3  # and x17, x5, x8
    .word 0x011dc2b3  # xor x5, x27, x17
    .word 0x00489313  # slli x6, x17, 4
    .word 0x0062c8b3  # xor x17, x5, x6
    .word 0x0028d313  # srli x6, x17, 2
    .word 0x0068c2b3  # xor x5, x17, x6
    .word 0x1c012303  # lw x6, 448(x2)
    .word 0x0062f933  # and x18, x5, x6
    .word 0x0128c2b3  # xor x5, x17, x18
    .word 0x00291313  # slli x6, x18, 2
    .word 0x0062cc33  # xor x24, x5, x6
    .word 0x004cd313  # srli x6, x25, 4
    .word 0x006cc2b3  # xor x5, x25, x6
    .word 0x0082f8b3  # and x17, x5, x8
    .word 0x011cc2b3  # xor x5, x25, x17
    .word 0x00489313  # slli x6, x17, 4
    .word 0x0062c8b3  # xor x17, x5, x6
    .word 0x0028d313  # srli x6, x17, 2
    .word 0x0068c2b3  # xor x5, x17, x6
    .word 0x1c012303  # lw x6, 448(x2)
    .word 0x0062f933  # and x18, x5, x6
    .word 0x0128c2b3  # xor x5, x17, x18
    .word 0x00291313  # slli x6, x18, 2
    .word 0x0062ccb3  # xor x25, x5, x6
    .word 0x00485313  # srli x6, x16, 4
    .word 0x006842b3  # xor x5, x16, x6
    .word 0x0082f8b3  # and x17, x5, x8
    .word 0x011842b3  # xor x5, x16, x17
    .word 0x00489313  # slli x6, x17, 4
    .word 0x0062c8b3  # xor x17, x5, x6
    .word 0x0028d313  # srli x6, x17, 2
    .word 0x0068c2b3  # xor x5, x17, x6
    .word 0x1c012303  # lw x6, 448(x2)
    .word 0x0062f933  # and x18, x5, x6
    .word 0x0128c2b3  # xor x5, x17, x18
    .word 0x00291313  # slli x6, x18, 2
    .word 0x0062cd33  # xor x26, x5, x6
    .word 0x0047d313  # srli x6, x15, 4
    .word 0x0067c2b3  # xor x5, x15, x6
    .word 0x0082f8b3  # and x17, x5, x8
    .word 0x0117c2b3  # xor x5, x15, x17
    .word 0x00489313  # slli x6, x17, 4
    .word 0x0062c8b3  # xor x17, x5, x6
    .word 0x0028d313  # srli x6, x17, 2
    .word 0x0068c2b3  # xor x5, x17, x6
    .word 0x1c012303  # lw x6, 448(x2)
    .word 0x0062f933  # and x18, x5, x6
    .word 0x0128c2b3  # xor x5, x17, x18
    .word 0x00291313  # slli x6, x18, 2
    .word 0x0062cdb3  # xor x27, x5, x6
    .word 0x1b012283  # lw x5, 432(x2)
    .word 0x00a00313  # addi x6, x0, 10
    .word 0x1462fc63  # bgeu x5, x6, 344
    .word 0x018a1f13  # slli x30, x20, 24
    .word 0x008a5913  # srli x18, x20, 8
    .word 0x012f0933  # add x18, x30, x18
    .word 0x012a48b3  # xor x17, x20, x18
    .word 0x00088793  # addi x15, x17, 0
    .word 0x01089f13  # slli x30, x17, 16
    .word 0x0108d313  # srli x6, x17, 16
    .word 0x006f0333  # add x6, x30, x6
    .word 0x00694a33  # xor x20, x18, x6
    .word 0x018a9f13  # slli x30, x21, 24
    .word 0x008ad913  # srli x18, x21, 8
    .word 0x012f0933  # add x18, x30, x18
    .word 0x012ac8b3  # xor x17, x21, x18
    .word 0x00088813  # addi x16, x17, 0
    .word 0x01089f13  # slli x30, x17, 16
    .word 0x0108d313  # srli x6, x17, 16
    .word 0x006f0333  # add x6, x30, x6
    .word 0x00694ab3  # xor x21, x18, x6
    .word 0x018b1f13  # slli x30, x22, 24
    .word 0x008b5913  # srli x18, x22, 8
    .word 0x012f0933  # add x18, x30, x18
    .word 0x012b48b3  # xor x17, x22, x18
    .word 0x19112023  # sw x17, 384(x2)
    .word 0x01089f13  # slli x30, x17, 16
    .word 0x0108d313  # srli x6, x17, 16
    .word 0x006f0333  # add x6, x30, x6
    .word 0x00694b33  # xor x22, x18, x6
    .word 0x018b9f13  # slli x30, x23, 24
    .word 0x008bd913  # srli x18, x23, 8
    .word 0x012f0933  # add x18, x30, x18
    .word 0x012bc8b3  # xor x17, x23, x18
    .word 0x19112223  # sw x17, 388(x2)
    .word 0x01089f13  # slli x30, x17, 16
    .word 0x0108d313  # srli x6, x17, 16
    .word 0x006f0333  # add x6, x30, x6
    .word 0x00694bb3  # xor x23, x18, x6
    .word 0x018c1f13  # slli x30, x24, 24
    .word 0x008c5913  # srli x18, x24, 8
    .word 0x012f0933  # add x18, x30, x18
    .word 0x012c48b3  # xor x17, x24, x18
    .word 0x00088513  # addi x10, x17, 0
    .word 0x01089f13  # slli x30, x17, 16
    .word 0x0108d313  # srli x6, x17, 16
    .word 0x006f0333  # add x6, x30, x6
    .word 0x00694c33  # xor x24, x18, x6
    .word 0x018c9f13  # slli x30, x25, 24
    .word 0x008cd913  # srli x18, x25, 8
    .word 0x012f0933  # add x18, x30, x18
    .word 0x012cc8b3  # xor x17, x25, x18
    .word 0x19112823  # sw x17, 400(x2)
    .word 0x01089f13  # slli x30, x17, 16
    .word 0x0108d313  # srli x6, x17, 16
    .word 0x006f0333  # add x6, x30, x6
    .word 0x00694cb3  # xor x25, x18, x6
    .word 0x018d1f13  # slli x30, x26, 24
    .word 0x008d5913  # srli x18, x26, 8
    .word 0x012f0933  # add x18, x30, x18
    .word 0x012d48b3  # xor x17, x26, x18
    .word 0x00088613  # addi x12, x17, 0
    .word 0x01089f13  # slli x30, x17, 16
    .word 0x0108d313  # srli x6, x17, 16
    .word 0x006f0333  # add x6, x30, x6
    .word 0x00694d33  # xor x26, x18, x6
    .word 0x018d9f13  # slli x30, x27, 24
    .word 0x008dd913  # srli x18, x27, 8
    .word 0x012f0933  # add x18, x30, x18
    .word 0x012dc8b3  # xor x17, x27, x18
    .word 0x01089f13  # slli x30, x17, 16
    .word 0x0108d313  # srli x6, x17, 16
    .word 0x006f0333  # add x6, x30, x6
    .word 0x00694933  # xor x18, x18, x6
    .word 0x011a4a33  # xor x20, x20, x17
    .word 0x00fac2b3  # xor x5, x21, x15
    .word 0x0112cab3  # xor x21, x5, x17
    .word 0x010b4b33  # xor x22, x22, x16
    .word 0x18012303  # lw x6, 384(x2)
    .word 0x006bc2b3  # xor x5, x23, x6
    .word 0x0112cbb3  # xor x23, x5, x17
    .word 0x18412303  # lw x6, 388(x2)
    .word 0x006c42b3  # xor x5, x24, x6
    .word 0x0112cc33  # xor x24, x5, x17
    .word 0x00acccb3  # xor x25, x25, x10
    .word 0x19012303  # lw x6, 400(x2)
    .word 0x006d4d33  # xor x26, x26, x6
    .word 0x00c94db3  # xor x27, x18, x12
    .word 0x1b012283  # lw x5, 432(x2)
    .word 0x00329993  # slli x19, x5, 3
    .word 0x00299493  # slli x9, x19, 2
    .word 0x002484b3  # add x9, x9, x2
    .word 0x0004a303  # lw x6, 0(x9)
    .word 0x006a4a33  # xor x20, x20, x6
    .word 0x0044a303  # lw x6, 4(x9)
    .word 0x006acab3  # xor x21, x21, x6
    .word 0x0084a303  # lw x6, 8(x9)
    .word 0x006b4b33  # xor x22, x22, x6
    .word 0x00c4a303  # lw x6, 12(x9)
    .word 0x006bcbb3  # xor x23, x23, x6
    .word 0x0104a303  # lw x6, 16(x9)
    .word 0x006c4c33  # xor x24, x24, x6
    .word 0x0144a303  # lw x6, 20(x9)
    .word 0x006cccb3  # xor x25, x25, x6
    .word 0x0184a303  # lw x6, 24(x9)
    .word 0x006d4d33  # xor x26, x26, x6
    .word 0x01c4a303  # lw x6, 28(x9)
    .word 0x006dcdb3  # xor x27, x27, x6
    .word 0x9c9ff06f  # jal x0, -1592
    .word 0x001a5293  # srli x5, x20, 1
    .word 0x0152c2b3  # xor x5, x5, x21
    .word 0x1b412303  # lw x6, 436(x2)
    .word 0x0062f8b3  # and x17, x5, x6
    .word 0x011acab3  # xor x21, x21, x17
    .word 0x00189313  # slli x6, x17, 1
    .word 0x006a4a33  # xor x20, x20, x6
    .word 0x001b5293  # srli x5, x22, 1
    .word 0x0172c2b3  # xor x5, x5, x23
    .word 0x1b412303  # lw x6, 436(x2)
    .word 0x0062f8b3  # and x17, x5, x6
    .word 0x011bcbb3  # xor x23, x23, x17
    .word 0x00189313  # slli x6, x17, 1
    .word 0x006b4b33  # xor x22, x22, x6
    .word 0x001c5293  # srli x5, x24, 1
    .word 0x0192c2b3  # xor x5, x5, x25
    .word 0x1b412303  # lw x6, 436(x2)
    .word 0x0062f8b3  # and x17, x5, x6
    .word 0x011cccb3  # xor x25, x25, x17
    .word 0x00189313  # slli x6, x17, 1
    .word 0x006c4c33  # xor x24, x24, x6
    .word 0x001d5293  # srli x5, x26, 1
    .word 0x01b2c2b3  # xor x5, x5, x27
    .word 0x1b412303  # lw x6, 436(x2)
    .word 0x0062f8b3  # and x17, x5, x6
    .word 0x011dcdb3  # xor x27, x27, x17
    .word 0x00189313  # slli x6, x17, 1
    .word 0x006d4d33  # xor x26, x26, x6
    .word 0x002a5293  # srli x5, x20, 2
    .word 0x0162c2b3  # xor x5, x5, x22
    .word 0x1b812303  # lw x6, 440(x2)
    .word 0x0062f8b3  # and x17, x5, x6
    .word 0x011b4b33  # xor x22, x22, x17
    .word 0x00289313  # slli x6, x17, 2
    .word 0x006a4a33  # xor x20, x20, x6
    .word 0x002ad293  # srli x5, x21, 2
    .word 0x0172c2b3  # xor x5, x5, x23
    .word 0x1b812303  # lw x6, 440(x2)
    .word 0x0062f8b3  # and x17, x5, x6
    .word 0x011bcbb3  # xor x23, x23, x17
    .word 0x00289313  # slli x6, x17, 2
    .word 0x006acab3  # xor x21, x21, x6
    .word 0x002c5293  # srli x5, x24, 2
    .word 0x01a2c2b3  # xor x5, x5, x26
    .word 0x1b812303  # lw x6, 440(x2)
    .word 0x0062f8b3  # and x17, x5, x6
    .word 0x011d4d33  # xor x26, x26, x17
    .word 0x00289313  # slli x6, x17, 2
    .word 0x006c4c33  # xor x24, x24, x6
    .word 0x002cd293  # srli x5, x25, 2
    .word 0x01b2c2b3  # xor x5, x5, x27
    .word 0x1b812303  # lw x6, 440(x2)
    .word 0x0062f8b3  # and x17, x5, x6
    .word 0x011dcdb3  # xor x27, x27, x17
    .word 0x00289313  # slli x6, x17, 2
    .word 0x006cccb3  # xor x25, x25, x6
    .word 0x004a5293  # srli x5, x20, 4
    .word 0x0182c2b3  # xor x5, x5, x24
    .word 0x1bc12303  # lw x6, 444(x2)
    .word 0x0062f8b3  # and x17, x5, x6
    .word 0x011c4c33  # xor x24, x24, x17
    .word 0x00489313  # slli x6, x17, 4
    .word 0x006a4a33  # xor x20, x20, x6
    .word 0x004ad293  # srli x5, x21, 4
    .word 0x0192c2b3  # xor x5, x5, x25
    .word 0x1bc12303  # lw x6, 444(x2)
    .word 0x0062f8b3  # and x17, x5, x6
    .word 0x011cccb3  # xor x25, x25, x17
    .word 0x00489313  # slli x6, x17, 4
    .word 0x006acab3  # xor x21, x21, x6
    .word 0x004b5293  # srli x5, x22, 4
    .word 0x01a2c2b3  # xor x5, x5, x26
    .word 0x1bc12303  # lw x6, 444(x2)
    .word 0x0062f8b3  # and x17, x5, x6
    .word 0x011d4d33  # xor x26, x26, x17
    .word 0x00489313  # slli x6, x17, 4
    .word 0x006b4b33  # xor x22, x22, x6
    .word 0x004bd293  # srli x5, x23, 4
    .word 0x01b2c2b3  # xor x5, x5, x27
    .word 0x1bc12303  # lw x6, 444(x2)
    .word 0x0062f8b3  # and x17, x5, x6
    .word 0x011dcdb3  # xor x27, x27, x17
    .word 0x00489313  # slli x6, x17, 4
    .word 0x006bcbb3  # xor x23, x23, x6
    .word 0x17412023  # sw x20, 352(x2)
    .word 0x17612223  # sw x22, 356(x2)
    .word 0x17812423  # sw x24, 360(x2)
    .word 0x17a12623  # sw x26, 364(x2)
    .word 0x17512823  # sw x21, 368(x2)
    .word 0x17712a23  # sw x23, 372(x2)
    .word 0x17912c23  # sw x25, 376(x2)
    .word 0x17b12e23  # sw x27, 380(x2)
    # the result
    .word 0x00000513  # addi x10, x0, 0
    # parameter 1: the array, back
    .word 0x16010293  # addi x5, x2, 352
    .word 0x20c12303  # lw x6, 524(x2)
    .word 0x02028393  # addi x7, x5, 32
    .word 0x09000f6f  # jal x30, 144
    # above the frame
    .word 0x1d010293  # addi x5, x2, 464
    # the caller's registers
    .word 0x0002a403  # lw x8, 0(x5)
    .cfi_restore 8
    .word 0x0042a483  # lw x9, 4(x5)
    .cfi_restore 9
    .word 0x0082a903  # lw x18, 8(x5)
    .cfi_restore 18
    .word 0x00c2a983  # lw x19, 12(x5)
    .cfi_restore 19
    .word 0x0102aa03  # lw x20, 16(x5)
    .cfi_restore 20
    .word 0x0142aa83  # lw x21, 20(x5)
    .cfi_restore 21
    .word 0x0182ab03  # lw x22, 24(x5)
    .cfi_restore 22
    .word 0x01c2ab83  # lw x23, 28(x5)
    .cfi_restore 23
    .word 0x0202ac03  # lw x24, 32(x5)
    .cfi_restore 24
    .word 0x0242ac83  # lw x25, 36(x5)
    .cfi_restore 25
    .word 0x0282ad03  # lw x26, 40(x5)
    .cfi_restore 26
    .word 0x02c2ad83  # lw x27, 44(x5)
    .cfi_restore 27
    # the caller's x2
    .word 0x04028293  # addi x5, x5, 64
    .cfi_def_cfa 5, 0
    # all the room, wiped upward
    .word 0x00012023  # sw x0, 0(x2)
    .word 0x00012223  # sw x0, 4(x2)
    .word 0x00012423  # sw x0, 8(x2)
    .word 0x00012623  # sw x0, 12(x2)
    .word 0x01010113  # addi x2, x2, 16
    .word 0xfe5116e3  # bne x2, x5, -20
    .cfi_def_cfa 2, 0
    # temporaries, wiped
    .word 0x00000293  # addi x5, x0, 0
    .word 0x00000313  # addi x6, x0, 0
    .word 0x00000393  # addi x7, x0, 0
    .word 0x00000593  # addi x11, x0, 0
    .word 0x00000613  # addi x12, x0, 0
    .word 0x00000693  # addi x13, x0, 0
    .word 0x00000713  # addi x14, x0, 0
    .word 0x00000793  # addi x15, x0, 0
    .word 0x00000813  # addi x16, x0, 0
    .word 0x00000893  # addi x17, x0, 0
    .word 0x00000e13  # addi x28, x0, 0
    .word 0x00000e93  # addi x29, x0, 0
    .word 0x00000f13  # addi x30, x0, 0
    .word 0x00000f93  # addi x31, x0, 0
    # back
    .word 0x00008067  # jalr x0, 0(x1)
    # from x5 to x6 up to x7, and back
    .cfi_def_cfa 2, 528
    .cfi_offset 8, -64
    .cfi_offset 9, -60
    .cfi_offset 18, -56
    .cfi_offset 19, -52
    .cfi_offset 20, -48
    .cfi_offset 21, -44
    .cfi_offset 22, -40
    .cfi_offset 23, -36
    .cfi_offset 24, -32
    .cfi_offset 25, -28
    .cfi_offset 26, -24
    .cfi_offset 27, -20
    .word 0x0062ee33  # or x28, x5, x6
    .word 0x003e7e13  # andi x28, x28, 3
    .word 0x000e0e63  # beq x28, x0, 28
    .word 0x0002ce03  # lbu x28, 0(x5)
    .word 0x01c30023  # sb x28, 0(x6)
    .word 0x00128293  # addi x5, x5, 1
    .word 0x00130313  # addi x6, x6, 1
    .word 0xfe7298e3  # bne x5, x7, -16
    .word 0x0300006f  # jal x0, 48
    .word 0x0002ae03  # lw x28, 0(x5)
    .word 0x01c32023  # sw x28, 0(x6)
    .word 0x0042ae03  # lw x28, 4(x5)
    .word 0x01c32223  # sw x28, 4(x6)
    .word 0x0082ae03  # lw x28, 8(x5)
    .word 0x01c32423  # sw x28, 8(x6)
    .word 0x00c2ae03  # lw x28, 12(x5)
    .word 0x01c32623  # sw x28, 12(x6)
    .word 0x01028293  # addi x5, x5, 16
    .word 0x01030313  # addi x6, x6, 16
    .word 0xfc729ce3  # bne x5, x7, -40
    .word 0x000f0067  # jalr x0, 0(x30)
    .cfi_endproc
    .size aes128_encrypt_2, . - aes128_encrypt_2
    .option pop
