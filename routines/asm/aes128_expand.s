# aes128_expand: made by factc 1.0.0 function; 648 words, 560 bytes of stack, profile 1
    .option push
    .option norvc
    .option norelax
    .cfi_sections .debug_frame
    .section .text.aes128_expand, "ax", @progbits
    .p2align 2
    .globl aes128_expand
    .type aes128_expand, @function
aes128_expand:
    .cfi_startproc
    # room above the frame
    .word 0xfc010113  # addi x2, x2, -64
    .cfi_def_cfa_offset 64
    # the caller's registers
    .word 0x00912023  # sw x9, 0(x2)
    .cfi_offset 9, -64
    .word 0x01212223  # sw x18, 4(x2)
    .cfi_offset 18, -60
    .word 0x01312423  # sw x19, 8(x2)
    .cfi_offset 19, -56
    .word 0x01412623  # sw x20, 12(x2)
    .cfi_offset 20, -52
    .word 0x01512823  # sw x21, 16(x2)
    .cfi_offset 21, -48
    .word 0x01612a23  # sw x22, 20(x2)
    .cfi_offset 22, -44
    .word 0x01712c23  # sw x23, 24(x2)
    .cfi_offset 23, -40
    .word 0x01812e23  # sw x24, 28(x2)
    .cfi_offset 24, -36
    .word 0x03912023  # sw x25, 32(x2)
    .cfi_offset 25, -32
    .word 0x03a12223  # sw x26, 36(x2)
    .cfi_offset 26, -28
    .word 0x03b12423  # sw x27, 40(x2)
    .cfi_offset 27, -24
    # arguments that are needed behind the body
    .word 0x02a12c23  # sw x10, 56(x2)
    .word 0x02b12e23  # sw x11, 60(x2)
    # the frame's base
    .word 0xe1010113  # addi x2, x2, -496
    .cfi_def_cfa 2, 560
    # parameter 0: an array
    .word 0x00050293  # addi x5, x10, 0
    .word 0x00010313  # addi x6, x2, 0
    .word 0x01028393  # addi x7, x5, 16
    .word 0x18500f6f  # jal x30, 2436
    # the body
    .word 0x555552b7  # lui x5, 0x55555
    .word 0x55528293  # addi x5, x5, 1365
    .word 0x1c512623  # sw x5, 460(x2)
    .word 0x333332b7  # lui x5, 0x33333
    .word 0x33328293  # addi x5, x5, 819
    .word 0x1c512823  # sw x5, 464(x2)
    .word 0x0f0f12b7  # lui x5, 0x0f0f1
    .word 0xf0f28293  # addi x5, x5, -241
    .word 0x1c512a23  # sw x5, 468(x2)
    .word 0x030304b7  # lui x9, 0x03030
    .word 0x30348493  # addi x9, x9, 771
    .word 0xfcfd02b7  # lui x5, 0xfcfd0
    .word 0xcfc28293  # addi x5, x5, -772
    .word 0x1c512c23  # sw x5, 472(x2)
    .word 0xf0f0f2b7  # lui x5, 0xf0f0f
    .word 0x0f028293  # addi x5, x5, 240
    .word 0x1c512e23  # sw x5, 476(x2)
    .word 0x00012a83  # lw x21, 0(x2)
    .word 0x00412b83  # lw x23, 4(x2)
    .word 0x00812c83  # lw x25, 8(x2)
    .word 0x00c12d83  # lw x27, 12(x2)
    .word 0x001ad293  # srli x5, x21, 1
    .word 0x0152c2b3  # xor x5, x5, x21
    .word 0x1cc12303  # lw x6, 460(x2)
    .word 0x0062f633  # and x12, x5, x6
    .word 0x00cacb33  # xor x22, x21, x12
    .word 0x00161313  # slli x6, x12, 1
    .word 0x006acab3  # xor x21, x21, x6
    .word 0x001bd293  # srli x5, x23, 1
    .word 0x0172c2b3  # xor x5, x5, x23
    .word 0x1cc12303  # lw x6, 460(x2)
    .word 0x0062f633  # and x12, x5, x6
    .word 0x00cbcc33  # xor x24, x23, x12
    .word 0x00161313  # slli x6, x12, 1
    .word 0x006bcbb3  # xor x23, x23, x6
    .word 0x001cd293  # srli x5, x25, 1
    .word 0x0192c2b3  # xor x5, x5, x25
    .word 0x1cc12303  # lw x6, 460(x2)
    .word 0x0062f633  # and x12, x5, x6
    .word 0x00cccd33  # xor x26, x25, x12
    .word 0x00161313  # slli x6, x12, 1
    .word 0x006cccb3  # xor x25, x25, x6
    .word 0x001dd293  # srli x5, x27, 1
    .word 0x01b2c2b3  # xor x5, x5, x27
    .word 0x1cc12303  # lw x6, 460(x2)
    .word 0x0062f633  # and x12, x5, x6
    .word 0x00cdca33  # xor x20, x27, x12
    .word 0x00161313  # slli x6, x12, 1
    .word 0x006dcdb3  # xor x27, x27, x6
    .word 0x002ad293  # srli x5, x21, 2
    .word 0x0172c2b3  # xor x5, x5, x23
    .word 0x1d012303  # lw x6, 464(x2)
    .word 0x0062f633  # and x12, x5, x6
    .word 0x00cbcbb3  # xor x23, x23, x12
    .word 0x00261313  # slli x6, x12, 2
    .word 0x006acab3  # xor x21, x21, x6
    .word 0x002b5293  # srli x5, x22, 2
    .word 0x0182c2b3  # xor x5, x5, x24
    .word 0x1d012303  # lw x6, 464(x2)
    .word 0x0062f633  # and x12, x5, x6
    .word 0x00cc4c33  # xor x24, x24, x12
    .word 0x00261313  # slli x6, x12, 2
    .word 0x006b4b33  # xor x22, x22, x6
    .word 0x002cd293  # srli x5, x25, 2
    .word 0x01b2c2b3  # xor x5, x5, x27
    .word 0x1d012303  # lw x6, 464(x2)
    .word 0x0062f633  # and x12, x5, x6
    .word 0x00cdcdb3  # xor x27, x27, x12
    .word 0x00261313  # slli x6, x12, 2
    .word 0x006cccb3  # xor x25, x25, x6
    .word 0x002d5293  # srli x5, x26, 2
    .word 0x0142c2b3  # xor x5, x5, x20
    .word 0x1d012303  # lw x6, 464(x2)
    .word 0x0062f633  # and x12, x5, x6
    .word 0x00ca4a33  # xor x20, x20, x12
    .word 0x00261313  # slli x6, x12, 2
    .word 0x006d4d33  # xor x26, x26, x6
    .word 0x004ad293  # srli x5, x21, 4
    .word 0x0192c2b3  # xor x5, x5, x25
    .word 0x1d412303  # lw x6, 468(x2)
    .word 0x0062f633  # and x12, x5, x6
    .word 0x00ccccb3  # xor x25, x25, x12
    .word 0x00461313  # slli x6, x12, 4
    .word 0x006acab3  # xor x21, x21, x6
    .word 0x004b5293  # srli x5, x22, 4
    .word 0x01a2c2b3  # xor x5, x5, x26
    .word 0x1d412303  # lw x6, 468(x2)
    .word 0x0062f633  # and x12, x5, x6
    .word 0x00cd4d33  # xor x26, x26, x12
    .word 0x00461313  # slli x6, x12, 4
    .word 0x006b4b33  # xor x22, x22, x6
    .word 0x004bd293  # srli x5, x23, 4
    .word 0x01b2c2b3  # xor x5, x5, x27
    .word 0x1d412303  # lw x6, 468(x2)
    .word 0x0062f633  # and x12, x5, x6
    .word 0x00cdcdb3  # xor x27, x27, x12
    .word 0x00461313  # slli x6, x12, 4
    .word 0x006bcbb3  # xor x23, x23, x6
    .word 0x004c5293  # srli x5, x24, 4
    .word 0x0142c2b3  # xor x5, x5, x20
    .word 0x1d412303  # lw x6, 468(x2)
    .word 0x0062f633  # and x12, x5, x6
    .word 0x00ca4a33  # xor x20, x20, x12
    .word 0x00461313  # slli x6, x12, 4
    .word 0x006c4c33  # xor x24, x24, x6
    .word 0x01512823  # sw x21, 16(x2)
    .word 0x01612a23  # sw x22, 20(x2)
    .word 0x01712c23  # sw x23, 24(x2)
    .word 0x01812e23  # sw x24, 28(x2)
    .word 0x03912023  # sw x25, 32(x2)
    .word 0x03a12223  # sw x26, 36(x2)
    .word 0x03b12423  # sw x27, 40(x2)
    .word 0x03412623  # sw x20, 44(x2)
    .word 0x00100293  # addi x5, x0, 1
    .word 0x16512823  # sw x5, 368(x2)
    .word 0x00200293  # addi x5, x0, 2
    .word 0x16512a23  # sw x5, 372(x2)
    .word 0x00400293  # addi x5, x0, 4
    .word 0x16512c23  # sw x5, 376(x2)
    .word 0x00800293  # addi x5, x0, 8
    .word 0x16512e23  # sw x5, 380(x2)
    .word 0x01000293  # addi x5, x0, 16
    .word 0x18512023  # sw x5, 384(x2)
    .word 0x02000293  # addi x5, x0, 32
    .word 0x18512223  # sw x5, 388(x2)
    .word 0x04000293  # addi x5, x0, 64
    .word 0x18512423  # sw x5, 392(x2)
    .word 0x08000293  # addi x5, x0, 128
    .word 0x18512623  # sw x5, 396(x2)
    .word 0x01b00293  # addi x5, x0, 27
    .word 0x18512823  # sw x5, 400(x2)
    .word 0x03600293  # addi x5, x0, 54
    .word 0x18512a23  # sw x5, 404(x2)
    .word 0xfff00513  # addi x10, x0, -1
    .word 0x00150513  # addi x10, x10, 1
    .word 0x00251593  # slli x11, x10, 2
    .word 0x002585b3  # add x11, x11, x2
    .word 0x1705a583  # lw x11, 368(x11)
    .word 0x006ad293  # srli x5, x21, 6
    .word 0x0092fab3  # and x21, x5, x9
    .word 0x006b5293  # srli x5, x22, 6
    .word 0x0092fb33  # and x22, x5, x9
    .word 0x006bd293  # srli x5, x23, 6
    .word 0x0092fbb3  # and x23, x5, x9
    .word 0x006c5293  # srli x5, x24, 6
    .word 0x0092fc33  # and x24, x5, x9
    .word 0x006cd293  # srli x5, x25, 6
    .word 0x0092fcb3  # and x25, x5, x9
    .word 0x006d5293  # srli x5, x26, 6
    .word 0x0092fd33  # and x26, x5, x9
    .word 0x006dd293  # srli x5, x27, 6
    .word 0x0092fdb3  # and x27, x5, x9
    .word 0x006a5293  # srli x5, x20, 6
    .word 0x0092fa33  # and x20, x5, x9
    .word 0x017cc2b3  # xor x5, x25, x23
    .word 0x18512c23  # sw x5, 408(x2)
    .word 0x016a4633  # xor x12, x20, x22
    .word 0x019a42b3  # xor x5, x20, x25
    .word 0x18512e23  # sw x5, 412(x2)
    .word 0x017a46b3  # xor x13, x20, x23
    .word 0x01adc733  # xor x14, x27, x26
    .word 0x01574d33  # xor x26, x14, x21
    .word 0x019d42b3  # xor x5, x26, x25
    .word 0x1a512023  # sw x5, 416(x2)
    .word 0x19812303  # lw x6, 408(x2)
    .word 0x006642b3  # xor x5, x12, x6
    .word 0x1a512223  # sw x5, 420(x2)
    .word 0x014d42b3  # xor x5, x26, x20
    .word 0x1a512423  # sw x5, 424(x2)
    .word 0x016d42b3  # xor x5, x26, x22
    .word 0x1a512623  # sw x5, 428(x2)
    .word 0x1ac12283  # lw x5, 428(x2)
    .word 0x00d2c2b3  # xor x5, x5, x13
    .word 0x1a512823  # sw x5, 432(x2)
    .word 0x1a412303  # lw x6, 420(x2)
    .word 0x006c4cb3  # xor x25, x24, x6
    .word 0x017ccb33  # xor x22, x25, x23
    .word 0x01bcccb3  # xor x25, x25, x27
    .word 0x015b42b3  # xor x5, x22, x21
    .word 0x1a512a23  # sw x5, 436(x2)
    .word 0x00eb4db3  # xor x27, x22, x14
    .word 0x19c12303  # lw x6, 412(x2)
    .word 0x006ccbb3  # xor x23, x25, x6
    .word 0x017ac2b3  # xor x5, x21, x23
    .word 0x1a512c23  # sw x5, 440(x2)
    .word 0x017dc2b3  # xor x5, x27, x23
    .word 0x1a512e23  # sw x5, 444(x2)
    .word 0x00ddc8b3  # xor x17, x27, x13
    .word 0x01774c33  # xor x24, x14, x23
    .word 0x01864833  # xor x16, x12, x24
    .word 0x018a4933  # xor x18, x20, x24
    .word 0x1a412283  # lw x5, 420(x2)
    .word 0x0162fa33  # and x20, x5, x22
    .word 0x1b012283  # lw x5, 432(x2)
    .word 0x1b412303  # lw x6, 436(x2)
    .word 0x0062f733  # and x14, x5, x6
    .word 0x014747b3  # xor x15, x14, x20
    .word 0x1a012283  # lw x5, 416(x2)
    .word 0x0152f733  # and x14, x5, x21
    .word 0x014749b3  # xor x19, x14, x20
    .word 0x01867a33  # and x20, x12, x24
    .word 0x1ac12283  # lw x5, 428(x2)
    .word 0x01a2f733  # and x14, x5, x26
    .word 0x014742b3  # xor x5, x14, x20
    .word 0x1c512423  # sw x5, 456(x2)
    .word 0x1a812283  # lw x5, 424(x2)
    .word 0x1b812303  # lw x6, 440(x2)
    .word 0x0062f733  # and x14, x5, x6
    .word 0x014742b3  # xor x5, x14, x20
    .word 0x1c512023  # sw x5, 448(x2)
    .word 0x19c12283  # lw x5, 412(x2)
    .word 0x0172fa33  # and x20, x5, x23
    .word 0x19812283  # lw x5, 408(x2)
    .word 0x1bc12303  # lw x6, 444(x2)
    .word 0x0062f733  # and x14, x5, x6
    .word 0x01474733  # xor x14, x14, x20
    .word 0x01b6f2b3  # and x5, x13, x27
    .word 0x1c512223  # sw x5, 452(x2)
    .word 0x1c412283  # lw x5, 452(x2)
    .word 0x0142ca33  # xor x20, x5, x20
    .word 0x00e7c7b3  # xor x15, x15, x14
    .word 0x0149c9b3  # xor x19, x19, x20
    .word 0x1c812283  # lw x5, 456(x2)
    .word 0x00e2c733  # xor x14, x5, x14
    .word 0x1c012283  # lw x5, 448(x2)
    .word 0x0142c2b3  # xor x5, x5, x20
    .word 0x1c512423  # sw x5, 456(x2)
    .word 0x0197ccb3  # xor x25, x15, x25
    .word 0x0119ca33  # xor x20, x19, x17
    .word 0x010748b3  # xor x17, x14, x16
    .word 0x1c812283  # lw x5, 456(x2)
    .word 0x0122c733  # xor x14, x5, x18
    .word 0x014cc933  # xor x18, x25, x20
    .word 0x011cf7b3  # and x15, x25, x17
    .word 0x00f74833  # xor x16, x14, x15
    .word 0x01097cb3  # and x25, x18, x16
    .word 0x014cccb3  # xor x25, x25, x20
    .word 0x00e8c9b3  # xor x19, x17, x14
    .word 0x00fa4a33  # xor x20, x20, x15
    .word 0x013a7a33  # and x20, x20, x19
    .word 0x00ea4a33  # xor x20, x20, x14
    .word 0x0148c7b3  # xor x15, x17, x20
    .word 0x014848b3  # xor x17, x16, x20
    .word 0x011778b3  # and x17, x14, x17
    .word 0x00f8c733  # xor x14, x17, x15
    .word 0x011848b3  # xor x17, x16, x17
    .word 0x011cf8b3  # and x17, x25, x17
    .word 0x011948b3  # xor x17, x18, x17
    .word 0x00e8c833  # xor x16, x17, x14
    .word 0x014cc933  # xor x18, x25, x20
    .word 0x011cc7b3  # xor x15, x25, x17
    .word 0x00ea49b3  # xor x19, x20, x14
    .word 0x010942b3  # xor x5, x18, x16
    .word 0x1c512423  # sw x5, 456(x2)
    .word 0x0169f2b3  # and x5, x19, x22
    .word 0x1c512023  # sw x5, 448(x2)
    .word 0x1b412303  # lw x6, 436(x2)
    .word 0x006772b3  # and x5, x14, x6
    .word 0x1a512a23  # sw x5, 436(x2)
    .word 0x015a7ab3  # and x21, x20, x21
    .word 0x0187fb33  # and x22, x15, x24
    .word 0x01a8fc33  # and x24, x17, x26
    .word 0x1b812303  # lw x6, 440(x2)
    .word 0x006cfd33  # and x26, x25, x6
    .word 0x017972b3  # and x5, x18, x23
    .word 0x1a512c23  # sw x5, 440(x2)
    .word 0x1c812283  # lw x5, 456(x2)
    .word 0x1bc12303  # lw x6, 444(x2)
    .word 0x0062fbb3  # and x23, x5, x6
    .word 0x01b872b3  # and x5, x16, x27
    .word 0x1a512e23  # sw x5, 444(x2)
    .word 0x1a412303  # lw x6, 420(x2)
    .word 0x0069f2b3  # and x5, x19, x6
    .word 0x1a512223  # sw x5, 420(x2)
    .word 0x1b012303  # lw x6, 432(x2)
    .word 0x00677db3  # and x27, x14, x6
    .word 0x1a012303  # lw x6, 416(x2)
    .word 0x006a7733  # and x14, x20, x6
    .word 0x00c7fa33  # and x20, x15, x12
    .word 0x1ac12303  # lw x6, 428(x2)
    .word 0x0068f8b3  # and x17, x17, x6
    .word 0x1a812303  # lw x6, 424(x2)
    .word 0x006cf2b3  # and x5, x25, x6
    .word 0x1a512623  # sw x5, 428(x2)
    .word 0x19c12303  # lw x6, 412(x2)
    .word 0x00697633  # and x12, x18, x6
    .word 0x1c812283  # lw x5, 456(x2)
    .word 0x19812303  # lw x6, 408(x2)
    .word 0x0062fcb3  # and x25, x5, x6
    .word 0x00d872b3  # and x5, x16, x13
    .word 0x18512c23  # sw x5, 408(x2)
    .word 0x01964633  # xor x12, x12, x25
    .word 0x00edc733  # xor x14, x27, x14
    .word 0x011d46b3  # xor x13, x26, x17
    .word 0x1a412283  # lw x5, 420(x2)
    .word 0x01b2cdb3  # xor x27, x5, x27
    .word 0x014ac8b3  # xor x17, x21, x20
    .word 0x01aacd33  # xor x26, x21, x26
    .word 0x1bc12303  # lw x6, 444(x2)
    .word 0x006bc2b3  # xor x5, x23, x6
    .word 0x18512e23  # sw x5, 412(x2)
    .word 0x1c012283  # lw x5, 448(x2)
    .word 0x0162cab3  # xor x21, x5, x22
    .word 0x1b812283  # lw x5, 440(x2)
    .word 0x0172c2b3  # xor x5, x5, x23
    .word 0x1a512223  # sw x5, 420(x2)
    .word 0x19812303  # lw x6, 408(x2)
    .word 0x006cc2b3  # xor x5, x25, x6
    .word 0x18512c23  # sw x5, 408(x2)
    .word 0x00da4833  # xor x16, x20, x13
    .word 0x0158ca33  # xor x20, x17, x21
    .word 0x00cc4bb3  # xor x23, x24, x12
    .word 0x1a412303  # lw x6, 420(x2)
    .word 0x006b4cb3  # xor x25, x22, x6
    .word 0x014648b3  # xor x17, x12, x20
    .word 0x1ac12283  # lw x5, 428(x2)
    .word 0x0142cb33  # xor x22, x5, x20
    .word 0x19c12283  # lw x5, 412(x2)
    .word 0x0172ca33  # xor x20, x5, x23
    .word 0x017dcbb3  # xor x23, x27, x23
    .word 0x019c4db3  # xor x27, x24, x25
    .word 0x014b4b33  # xor x22, x22, x20
    .word 0x1b412283  # lw x5, 436(x2)
    .word 0x0172cc33  # xor x24, x5, x23
    .word 0x017cc633  # xor x12, x25, x23
    .word 0x014842b3  # xor x5, x16, x20
    .word 0xfff2cb93  # xori x23, x5, -1
    .word 0x0116c2b3  # xor x5, x13, x17
    .word 0xfff2ca13  # xori x20, x5, -1
    .word 0x016dc6b3  # xor x13, x27, x22
    .word 0x018accb3  # xor x25, x21, x24
    .word 0x018d4c33  # xor x24, x26, x24
    .word 0x01674d33  # xor x26, x14, x22
    .word 0x019dc2b3  # xor x5, x27, x25
    .word 0xfff2cd93  # xori x27, x5, -1
    .word 0x19812283  # lw x5, 408(x2)
    .word 0x00d2c2b3  # xor x5, x5, x13
    .word 0xfff2c693  # xori x13, x5, -1
    .word 0x009a7a33  # and x20, x20, x9
    .word 0x018a1f13  # slli x30, x20, 24
    .word 0x008a5293  # srli x5, x20, 8
    .word 0x005f02b3  # add x5, x30, x5
    .word 0x00000313  # addi x6, x0, 0
    .word 0x0015f393  # andi x7, x11, 1
    .word 0x40730333  # sub x6, x6, x7
    .word 0x00337313  # andi x6, x6, 3
    .word 0x0062ca33  # xor x20, x5, x6
    .word 0x00351293  # slli x5, x10, 3
    .word 0x00229293  # slli x5, x5, 2
    .word 0x002282b3  # add x5, x5, x2
    .word 0x0102a283  # lw x5, 16(x5)
    .word 0x0142ca33  # xor x20, x5, x20
    .word 0x002a1313  # slli x6, x20, 2
    .word 0x1d812383  # lw x7, 472(x2)
    .word 0x00737333  # and x6, x6, x7
    .word 0x006a4a33  # xor x20, x20, x6
    .word 0x004a1313  # slli x6, x20, 4
    .word 0x1dc12383  # lw x7, 476(x2)
    .word 0x00737333  # and x6, x6, x7
    .word 0x006a4a33  # xor x20, x20, x6
    .word 0x00351293  # slli x5, x10, 3
    .word 0x00229293  # slli x5, x5, 2
    .word 0x002282b3  # add x5, x5, x2
    .word 0x0342a823  # sw x20, 48(x5)
    .word 0x000a0a93  # addi x21, x20, 0
    .word 0x009bfa33  # and x20, x23, x9
    .word 0x018a1f13  # slli x30, x20, 24
    .word 0x008a5293  # srli x5, x20, 8
    .word 0x005f02b3  # add x5, x30, x5
    .word 0x00000313  # addi x6, x0, 0
    .word 0x0015d393  # srli x7, x11, 1
    .word 0x0013f393  # andi x7, x7, 1
    .word 0x40730333  # sub x6, x6, x7
    .word 0x00337313  # andi x6, x6, 3
    .word 0x0062ca33  # xor x20, x5, x6
    .word 0x00351293  # slli x5, x10, 3
    .word 0x00229293  # slli x5, x5, 2
    .word 0x002282b3  # add x5, x5, x2
    .word 0x0142a283  # lw x5, 20(x5)
    .word 0x0142ca33  # xor x20, x5, x20
    .word 0x002a1313  # slli x6, x20, 2
    .word 0x1d812383  # lw x7, 472(x2)
    .word 0x00737333  # and x6, x6, x7
    .word 0x006a4a33  # xor x20, x20, x6
    .word 0x004a1313  # slli x6, x20, 4
    .word 0x1dc12383  # lw x7, 476(x2)
    .word 0x00737333  # and x6, x6, x7
    .word 0x006a4a33  # xor x20, x20, x6
    .word 0x00351293  # slli x5, x10, 3
    .word 0x00128293  # addi x5, x5, 1
    .word 0x00229293  # slli x5, x5, 2
    .word 0x002282b3  # add x5, x5, x2
    .word 0x0342a823  # sw x20, 48(x5)
    .word 0x000a0b13  # addi x22, x20, 0
    .word 0x009d7a33  # and x20, x26, x9
    .word 0x018a1f13  # slli x30, x20, 24
    .word 0x008a5293  # srli x5, x20, 8
    .word 0x005f02b3  # add x5, x30, x5
    .word 0x00000313  # addi x6, x0, 0
    .word 0x0025d393  # srli x7, x11, 2
    .word 0x0013f393  # andi x7, x7, 1
    .word 0x40730333  # sub x6, x6, x7
    .word 0x00337313  # andi x6, x6, 3
    .word 0x0062ca33  # xor x20, x5, x6
    .word 0x00351293  # slli x5, x10, 3
    .word 0x00229293  # slli x5, x5, 2
    .word 0x002282b3  # add x5, x5, x2
    .word 0x0182a283  # lw x5, 24(x5)
    .word 0x0142ca33  # xor x20, x5, x20
    .word 0x002a1313  # slli x6, x20, 2
    .word 0x1d812383  # lw x7, 472(x2)
    .word 0x00737333  # and x6, x6, x7
    .word 0x006a4a33  # xor x20, x20, x6
    .word 0x004a1313  # slli x6, x20, 4
    .word 0x1dc12383  # lw x7, 476(x2)
    .word 0x00737333  # and x6, x6, x7
    .word 0x006a4a33  # xor x20, x20, x6
    .word 0x00351293  # slli x5, x10, 3
    .word 0x00228293  # addi x5, x5, 2
    .word 0x00229293  # slli x5, x5, 2
    .word 0x002282b3  # add x5, x5, x2
    .word 0x0342a823  # sw x20, 48(x5)
    .word 0x000a0b93  # addi x23, x20, 0
    .word 0x009c7a33  # and x20, x24, x9
    .word 0x018a1f13  # slli x30, x20, 24
    .word 0x008a5293  # srli x5, x20, 8
    .word 0x005f02b3  # add x5, x30, x5
    .word 0x00000313  # addi x6, x0, 0
    .word 0x0035d393  # srli x7, x11, 3
    .word 0x0013f393  # andi x7, x7, 1
    .word 0x40730333  # sub x6, x6, x7
    .word 0x00337313  # andi x6, x6, 3
    .word 0x0062ca33  # xor x20, x5, x6
    .word 0x00351293  # slli x5, x10, 3
    .word 0x00229293  # slli x5, x5, 2
    .word 0x002282b3  # add x5, x5, x2
    .word 0x01c2a283  # lw x5, 28(x5)
    .word 0x0142ca33  # xor x20, x5, x20
    .word 0x002a1313  # slli x6, x20, 2
    .word 0x1d812383  # lw x7, 472(x2)
    .word 0x00737333  # and x6, x6, x7
    .word 0x006a4a33  # xor x20, x20, x6
    .word 0x004a1313  # slli x6, x20, 4
    .word 0x1dc12383  # lw x7, 476(x2)
    .word 0x00737333  # and x6, x6, x7
    .word 0x006a4a33  # xor x20, x20, x6
    .word 0x00351293  # slli x5, x10, 3
    .word 0x00328293  # addi x5, x5, 3
    .word 0x00229293  # slli x5, x5, 2
    .word 0x002282b3  # add x5, x5, x2
    .word 0x0342a823  # sw x20, 48(x5)
    .word 0x000a0c13  # addi x24, x20, 0
    .word 0x009cfa33  # and x20, x25, x9
    .word 0x018a1f13  # slli x30, x20, 24
    .word 0x008a5293  # srli x5, x20, 8
    .word 0x005f02b3  # add x5, x30, x5
    .word 0x00000313  # addi x6, x0, 0
    .word 0x0045d393  # srli x7, x11, 4
    .word 0x0013f393  # andi x7, x7, 1
    .word 0x40730333  # sub x6, x6, x7
    .word 0x00337313  # andi x6, x6, 3
    .word 0x0062ca33  # xor x20, x5, x6
    .word 0x00351293  # slli x5, x10, 3
    .word 0x00229293  # slli x5, x5, 2
    .word 0x002282b3  # add x5, x5, x2
    .word 0x0202a283  # lw x5, 32(x5)
    .word 0x0142ca33  # xor x20, x5, x20
    .word 0x002a1313  # slli x6, x20, 2
    .word 0x1d812383  # lw x7, 472(x2)
    .word 0x00737333  # and x6, x6, x7
    .word 0x006a4a33  # xor x20, x20, x6
    .word 0x004a1313  # slli x6, x20, 4
    .word 0x1dc12383  # lw x7, 476(x2)
    .word 0x00737333  # and x6, x6, x7
    .word 0x006a4a33  # xor x20, x20, x6
    .word 0x00351293  # slli x5, x10, 3
    .word 0x00428293  # addi x5, x5, 4
    .word 0x00229293  # slli x5, x5, 2
    .word 0x002282b3  # add x5, x5, x2
    .word 0x0342a823  # sw x20, 48(x5)
    .word 0x000a0c93  # addi x25, x20, 0
    .word 0x0096fa33  # and x20, x13, x9
    .word 0x018a1f13  # slli x30, x20, 24
    .word 0x008a5293  # srli x5, x20, 8
    .word 0x005f02b3  # add x5, x30, x5
    .word 0x00000313  # addi x6, x0, 0
    .word 0x0055d393  # srli x7, x11, 5
    .word 0x0013f393  # andi x7, x7, 1
    .word 0x40730333  # sub x6, x6, x7
    .word 0x00337313  # andi x6, x6, 3
    .word 0x0062ca33  # xor x20, x5, x6
    .word 0x00351293  # slli x5, x10, 3
    .word 0x00229293  # slli x5, x5, 2
    .word 0x002282b3  # add x5, x5, x2
    .word 0x0242a283  # lw x5, 36(x5)
    .word 0x0142ca33  # xor x20, x5, x20
    .word 0x002a1313  # slli x6, x20, 2
    .word 0x1d812383  # lw x7, 472(x2)
    .word 0x00737333  # and x6, x6, x7
    .word 0x006a4a33  # xor x20, x20, x6
    .word 0x004a1313  # slli x6, x20, 4
    .word 0x1dc12383  # lw x7, 476(x2)
    .word 0x00737333  # and x6, x6, x7
    .word 0x006a4a33  # xor x20, x20, x6
    .word 0x00351293  # slli x5, x10, 3
    .word 0x00528293  # addi x5, x5, 5
    .word 0x00229293  # slli x5, x5, 2
    .word 0x002282b3  # add x5, x5, x2
    .word 0x0342a823  # sw x20, 48(x5)
    .word 0x000a0d13  # addi x26, x20, 0
    .word 0x009dfa33  # and x20, x27, x9
    .word 0x018a1f13  # slli x30, x20, 24
    .word 0x008a5293  # srli x5, x20, 8
    .word 0x005f02b3  # add x5, x30, x5
    .word 0x00000313  # addi x6, x0, 0
    .word 0x0065d393  # srli x7, x11, 6
    .word 0x0013f393  # andi x7, x7, 1
    .word 0x40730333  # sub x6, x6, x7
    .word 0x00337313  # andi x6, x6, 3
    .word 0x0062ca33  # xor x20, x5, x6
    .word 0x00351293  # slli x5, x10, 3
    .word 0x00229293  # slli x5, x5, 2
    .word 0x002282b3  # add x5, x5, x2
    .word 0x0282a283  # lw x5, 40(x5)
    .word 0x0142ca33  # xor x20, x5, x20
    .word 0x002a1313  # slli x6, x20, 2
    .word 0x1d812383  # lw x7, 472(x2)
    .word 0x00737333  # and x6, x6, x7
    .word 0x006a4a33  # xor x20, x20, x6
    .word 0x004a1313  # slli x6, x20, 4
    .word 0x1dc12383  # lw x7, 476(x2)
    .word 0x00737333  # and x6, x6, x7
    .word 0x006a4a33  # xor x20, x20, x6
    .word 0x00351293  # slli x5, x10, 3
    .word 0x00628293  # addi x5, x5, 6
    .word 0x00229293  # slli x5, x5, 2
    .word 0x002282b3  # add x5, x5, x2
    .word 0x0342a823  # sw x20, 48(x5)
    .word 0x000a0d93  # addi x27, x20, 0
    .word 0x00967a33  # and x20, x12, x9
    .word 0x018a1f13  # slli x30, x20, 24
    .word 0x008a5293  # srli x5, x20, 8
    .word 0x005f02b3  # add x5, x30, x5
    .word 0x00000313  # addi x6, x0, 0
    .word 0x0075d393  # srli x7, x11, 7
    .word 0x0013f393  # andi x7, x7, 1
    .word 0x40730333  # sub x6, x6, x7
    .word 0x00337313  # andi x6, x6, 3
    .word 0x0062ca33  # xor x20, x5, x6
    .word 0x00351293  # slli x5, x10, 3
    .word 0x00229293  # slli x5, x5, 2
    .word 0x002282b3  # add x5, x5, x2
    .word 0x02c2a283  # lw x5, 44(x5)
    .word 0x0142ca33  # xor x20, x5, x20
    .word 0x002a1313  # slli x6, x20, 2
    .word 0x1d812383  # lw x7, 472(x2)
    .word 0x00737333  # and x6, x6, x7
    .word 0x006a4a33  # xor x20, x20, x6
    .word 0x004a1313  # slli x6, x20, 4
    .word 0x1dc12383  # lw x7, 476(x2)
    .word 0x00737333  # and x6, x6, x7
    .word 0x006a4a33  # xor x20, x20, x6
    .word 0x00351293  # slli x5, x10, 3
    .word 0x00728293  # addi x5, x5, 7
    .word 0x00229293  # slli x5, x5, 2
    .word 0x002282b3  # add x5, x5, x2
    .word 0x0342a823  # sw x20, 48(x5)
    .word 0xff750293  # addi x5, x10, -9
    .word 0x92029ce3  # bne x5, x0, -1736
    # the result
    .word 0x00000513  # addi x10, x0, 0
    # parameter 1: the array, back
    .word 0x01010293  # addi x5, x2, 16
    .word 0x22c12303  # lw x6, 556(x2)
    .word 0x16028393  # addi x7, x5, 352
    .word 0x08c00f6f  # jal x30, 140
    # above the frame
    .word 0x1f010293  # addi x5, x2, 496
    # the caller's registers
    .word 0x0002a483  # lw x9, 0(x5)
    .cfi_restore 9
    .word 0x0042a903  # lw x18, 4(x5)
    .cfi_restore 18
    .word 0x0082a983  # lw x19, 8(x5)
    .cfi_restore 19
    .word 0x00c2aa03  # lw x20, 12(x5)
    .cfi_restore 20
    .word 0x0102aa83  # lw x21, 16(x5)
    .cfi_restore 21
    .word 0x0142ab03  # lw x22, 20(x5)
    .cfi_restore 22
    .word 0x0182ab83  # lw x23, 24(x5)
    .cfi_restore 23
    .word 0x01c2ac03  # lw x24, 28(x5)
    .cfi_restore 24
    .word 0x0202ac83  # lw x25, 32(x5)
    .cfi_restore 25
    .word 0x0242ad03  # lw x26, 36(x5)
    .cfi_restore 26
    .word 0x0282ad83  # lw x27, 40(x5)
    .cfi_restore 27
    # the caller's x2
    .word 0x04028293  # addi x5, x5, 64
    .cfi_def_cfa 5, 0
    # all the room, wiped upward
    .word 0x00012023  # sw x0, 0(x2)
    .word 0x00012223  # sw x0, 4(x2)
    .word 0x00012423  # sw x0, 8(x2)
    .word 0x00012623  # sw x0, 12(x2)
    .word 0x01010113  # addi x2, x2, 16
    .word 0xfe5116e3  # bne x2, x5, -20
    .cfi_def_cfa 2, 0
    # temporaries, wiped
    .word 0x00000293  # addi x5, x0, 0
    .word 0x00000313  # addi x6, x0, 0
    .word 0x00000393  # addi x7, x0, 0
    .word 0x00000593  # addi x11, x0, 0
    .word 0x00000613  # addi x12, x0, 0
    .word 0x00000693  # addi x13, x0, 0
    .word 0x00000713  # addi x14, x0, 0
    .word 0x00000793  # addi x15, x0, 0
    .word 0x00000813  # addi x16, x0, 0
    .word 0x00000893  # addi x17, x0, 0
    .word 0x00000e13  # addi x28, x0, 0
    .word 0x00000e93  # addi x29, x0, 0
    .word 0x00000f13  # addi x30, x0, 0
    .word 0x00000f93  # addi x31, x0, 0
    # back
    .word 0x00008067  # jalr x0, 0(x1)
    # from x5 to x6 up to x7, and back
    .cfi_def_cfa 2, 560
    .cfi_offset 9, -64
    .cfi_offset 18, -60
    .cfi_offset 19, -56
    .cfi_offset 20, -52
    .cfi_offset 21, -48
    .cfi_offset 22, -44
    .cfi_offset 23, -40
    .cfi_offset 24, -36
    .cfi_offset 25, -32
    .cfi_offset 26, -28
    .cfi_offset 27, -24
    .word 0x0062ee33  # or x28, x5, x6
    .word 0x003e7e13  # andi x28, x28, 3
    .word 0x000e0e63  # beq x28, x0, 28
    .word 0x0002ce03  # lbu x28, 0(x5)
    .word 0x01c30023  # sb x28, 0(x6)
    .word 0x00128293  # addi x5, x5, 1
    .word 0x00130313  # addi x6, x6, 1
    .word 0xfe7298e3  # bne x5, x7, -16
    .word 0x0300006f  # jal x0, 48
    .word 0x0002ae03  # lw x28, 0(x5)
    .word 0x01c32023  # sw x28, 0(x6)
    .word 0x0042ae03  # lw x28, 4(x5)
    .word 0x01c32223  # sw x28, 4(x6)
    .word 0x0082ae03  # lw x28, 8(x5)
    .word 0x01c32423  # sw x28, 8(x6)
    .word 0x00c2ae03  # lw x28, 12(x5)
    .word 0x01c32623  # sw x28, 12(x6)
    .word 0x01028293  # addi x5, x5, 16
    .word 0x01030313  # addi x6, x6, 16
    .word 0xfc729ce3  # bne x5, x7, -40
    .word 0x000f0067  # jalr x0, 0(x30)
    .cfi_endproc
    .size aes128_expand, . - aes128_expand
    .option pop
