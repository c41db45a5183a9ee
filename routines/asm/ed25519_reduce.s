# ed25519_reduce: made by factc 1.0.0 function; 892 words, 240 bytes of stack, profile 1
    .option push
    .option norvc
    .option norelax
    .cfi_sections .debug_frame
    .section .text.ed25519_reduce, "ax", @progbits
    .p2align 2
    .globl ed25519_reduce
    .type ed25519_reduce, @function
ed25519_reduce:
    .cfi_startproc
    # room above the frame
    .word 0xfc010113  # addi x2, x2, -64
    .cfi_def_cfa_offset 64
    # the caller's registers
    .word 0x00812023  # sw x8, 0(x2)
    .cfi_offset 8, -64
    .word 0x00912223  # sw x9, 4(x2)
    .cfi_offset 9, -60
    .word 0x01212423  # sw x18, 8(x2)
    .cfi_offset 18, -56
    .word 0x01312623  # sw x19, 12(x2)
    .cfi_offset 19, -52
    .word 0x01412823  # sw x20, 16(x2)
    .cfi_offset 20, -48
    .word 0x01512a23  # sw x21, 20(x2)
    .cfi_offset 21, -44
    .word 0x01612c23  # sw x22, 24(x2)
    .cfi_offset 22, -40
    .word 0x01712e23  # sw x23, 28(x2)
    .cfi_offset 23, -36
    .word 0x03812023  # sw x24, 32(x2)
    .cfi_offset 24, -32
    .word 0x03912223  # sw x25, 36(x2)
    .cfi_offset 25, -28
    .word 0x03a12423  # sw x26, 40(x2)
    .cfi_offset 26, -24
    .word 0x03b12623  # sw x27, 44(x2)
    .cfi_offset 27, -20
    # arguments that are needed behind the body
    .word 0x02a12c23  # sw x10, 56(x2)
    .word 0x02b12e23  # sw x11, 60(x2)
    # the frame's base
    .word 0xf5010113  # addi x2, x2, -176
    .cfi_def_cfa 2, 240
    # parameter 0: an array
    .word 0x00050293  # addi x5, x10, 0
    .word 0x00010313  # addi x6, x2, 0
    .word 0x04028393  # addi x7, x5, 64
    .word 0x55100f6f  # jal x30, 3408
    # the body
    .word 0x5cf5dd37  # lui x26, 0x5cf5d
    .word 0x3edd0d13  # addi x26, x26, 1005
    .word 0x58126db7  # lui x27, 0x58126
    .word 0x31ad8d93  # addi x27, x27, 794
    .word 0xa2f7a437  # lui x8, 0xa2f7a
    .word 0xcd640413  # addi x8, x8, -810
    .word 0x14df04b7  # lui x9, 0x14df0
    .word 0x9de48493  # addi x9, x9, -1570
    .word 0x00012783  # lw x15, 0(x2)
    .word 0x00412803  # lw x16, 4(x2)
    .word 0x00812283  # lw x5, 8(x2)
    .word 0x06512023  # sw x5, 96(x2)
    .word 0x00c12283  # lw x5, 12(x2)
    .word 0x06512223  # sw x5, 100(x2)
    .word 0x01012283  # lw x5, 16(x2)
    .word 0x06512423  # sw x5, 104(x2)
    .word 0x01412283  # lw x5, 20(x2)
    .word 0x06512623  # sw x5, 108(x2)
    .word 0x01812283  # lw x5, 24(x2)
    .word 0x06512823  # sw x5, 112(x2)
    .word 0x01c12283  # lw x5, 28(x2)
    .word 0x06512a23  # sw x5, 116(x2)
    .word 0x02012703  # lw x14, 32(x2)
    .word 0x02412503  # lw x10, 36(x2)
    .word 0x02812583  # lw x11, 40(x2)
    .word 0x02c12683  # lw x13, 44(x2)
    .word 0x03012603  # lw x12, 48(x2)
    .word 0x03412b83  # lw x23, 52(x2)
    .word 0x03812c03  # lw x24, 56(x2)
    .word 0x03c12c83  # lw x25, 60(x2)
    .word 0x07412283  # lw x5, 116(x2)
    .word 0x01c2d293  # srli x5, x5, 28
    .word 0x00471313  # slli x6, x14, 4
    .word 0x0062e8b3  # or x17, x5, x6
    .word 0x01c75293  # srli x5, x14, 28
    .word 0x00451313  # slli x6, x10, 4
    .word 0x0062e933  # or x18, x5, x6
    .word 0x01c55293  # srli x5, x10, 28
    .word 0x00459313  # slli x6, x11, 4
    .word 0x0062e9b3  # or x19, x5, x6
    .word 0x01c5d293  # srli x5, x11, 28
    .word 0x00469313  # slli x6, x13, 4
    .word 0x0062ea33  # or x20, x5, x6
    .word 0x01c6d293  # srli x5, x13, 28
    .word 0x00461313  # slli x6, x12, 4
    .word 0x0062eab3  # or x21, x5, x6
    .word 0x01c65293  # srli x5, x12, 28
    .word 0x004b9313  # slli x6, x23, 4
    .word 0x0062eb33  # or x22, x5, x6
    .word 0x01cbd293  # srli x5, x23, 28
    .word 0x004c1313  # slli x6, x24, 4
    .word 0x0062ebb3  # or x23, x5, x6
    .word 0x01cc5293  # srli x5, x24, 28
    .word 0x004c9313  # slli x6, x25, 4
    .word 0x0062ec33  # or x24, x5, x6
    .word 0x01ccdc93  # srli x25, x25, 28
    .word 0x03a886b3  # mul x13, x17, x26
    .word 0x03a8b733  # mulhu x14, x17, x26
    .word 0x00d6b333  # sltu x6, x13, x13
    .word 0x00670733  # add x14, x14, x6
    .word 0x00e73633  # sltu x12, x14, x14
    .word 0x06d12c23  # sw x13, 120(x2)
    .word 0x00070513  # addi x10, x14, 0
    .word 0x00060593  # addi x11, x12, 0
    .word 0x03a906b3  # mul x13, x18, x26
    .word 0x03a93733  # mulhu x14, x18, x26
    .word 0x00d50533  # add x10, x10, x13
    .word 0x00d53333  # sltu x6, x10, x13
    .word 0x00670733  # add x14, x14, x6
    .word 0x00e585b3  # add x11, x11, x14
    .word 0x00e5b633  # sltu x12, x11, x14
    .word 0x03b886b3  # mul x13, x17, x27
    .word 0x03b8b733  # mulhu x14, x17, x27
    .word 0x00d50533  # add x10, x10, x13
    .word 0x00d53333  # sltu x6, x10, x13
    .word 0x00670733  # add x14, x14, x6
    .word 0x00e585b3  # add x11, x11, x14
    .word 0x00e5b333  # sltu x6, x11, x14
    .word 0x00660633  # add x12, x12, x6
    .word 0x06a12e23  # sw x10, 124(x2)
    .word 0x00058513  # addi x10, x11, 0
    .word 0x00060593  # addi x11, x12, 0
    .word 0x03a986b3  # mul x13, x19, x26
    .word 0x03a9b733  # mulhu x14, x19, x26
    .word 0x00d50533  # add x10, x10, x13
    .word 0x00d53333  # sltu x6, x10, x13
    .word 0x00670733  # add x14, x14, x6
    .word 0x00e585b3  # add x11, x11, x14
    .word 0x00e5b633  # sltu x12, x11, x14
    .word 0x03b906b3  # mul x13, x18, x27
    .word 0x03b93733  # mulhu x14, x18, x27
    .word 0x00d50533  # add x10, x10, x13
    .word 0x00d53333  # sltu x6, x10, x13
    .word 0x00670733  # add x14, x14, x6
    .word 0x00e585b3  # add x11, x11, x14
    .word 0x00e5b333  # sltu x6, x11, x14
    .word 0x00660633  # add x12, x12, x6
    .word 0x028886b3  # mul x13, x17, x8
    .word 0x0288b733  # mulhu x14, x17, x8
    .word 0x00d50533  # add x10, x10, x13
    .word 0x00d53333  # sltu x6, x10, x13
    .word 0x00670733  # add x14, x14, x6
    .word 0x00e585b3  # add x11, x11, x14
    .word 0x00e5b333  # sltu x6, x11, x14
    .word 0x00660633  # add x12, x12, x6
    .word 0x08a12023  # sw x10, 128(x2)
    .word 0x00058513  # addi x10, x11, 0
    .word 0x00060593  # addi x11, x12, 0
    .word 0x03aa06b3  # mul x13, x20, x26
    .word 0x03aa3733  # mulhu x14, x20, x26
    .word 0x00d50533  # add x10, x10, x13
    .word 0x00d53333  # sltu x6, x10, x13
    .word 0x00670733  # add x14, x14, x6
    .word 0x00e585b3  # add x11, x11, x14
    .word 0x00e5b633  # sltu x12, x11, x14
    .word 0x03b986b3  # mul x13, x19, x27
    .word 0x03b9b733  # mulhu x14, x19, x27
    .word 0x00d50533  # add x10, x10, x13
    .word 0x00d53333  # sltu x6, x10, x13
    .word 0x00670733  # add x14, x14, x6
    .word 0x00e585b3  # add x11, x11, x14
    .word 0x00e5b333  # sltu x6, x11, x14
    .word 0x00660633  # add x12, x12, x6
    .word 0x028906b3  # mul x13, x18, x8
    .word 0x02893733  # mulhu x14, x18, x8
    .word 0x00d50533  # add x10, x10, x13
    .word 0x00d53333  # sltu x6, x10, x13
    .word 0x00670733  # add x14, x14, x6
    .word 0x00e585b3  # add x11, x11, x14
    .word 0x00e5b333  # sltu x6, x11, x14
    .word 0x00660633  # add x12, x12, x6
    .word 0x029886b3  # mul x13, x17, x9
    .word 0x0298b733  # mulhu x14, x17, x9
    .word 0x00d50533  # add x10, x10, x13
    .word 0x00d53333  # sltu x6, x10, x13
    .word 0x00670733  # add x14, x14, x6
    .word 0x00e585b3  # add x11, x11, x14
    .word 0x00e5b333  # sltu x6, x11, x14
    .word 0x00660633  # add x12, x12, x6
    .word 0x08a12223  # sw x10, 132(x2)
    .word 0x00058513  # addi x10, x11, 0
    .word 0x00060593  # addi x11, x12, 0
    .word 0x03aa86b3  # mul x13, x21, x26
    .word 0x03aab733  # mulhu x14, x21, x26
    .word 0x00d50533  # add x10, x10, x13
    .word 0x00d53333  # sltu x6, x10, x13
    .word 0x00670733  # add x14, x14, x6
    .word 0x00e585b3  # add x11, x11, x14
    .word 0x00e5b633  # sltu x12, x11, x14
    .word 0x03ba06b3  # mul x13, x20, x27
    .word 0x03ba3733  # mulhu x14, x20, x27
    .word 0x00d50533  # add x10, x10, x13
    .word 0x00d53333  # sltu x6, x10, x13
    .word 0x00670733  # add x14, x14, x6
    .word 0x00e585b3  # add x11, x11, x14
    .word 0x00e5b333  # sltu x6, x11, x14
    .word 0x00660633  # add x12, x12, x6
    .word 0x028986b3  # mul x13, x19, x8
    .word 0x0289b733  # mulhu x14, x19, x8
    .word 0x00d50533  # add x10, x10, x13
    .word 0x00d53333  # sltu x6, x10, x13
    .word 0x00670733  # add x14, x14, x6
    .word 0x00e585b3  # add x11, x11, x14
    .word 0x00e5b333  # sltu x6, x11, x14
    .word 0x00660633  # add x12, x12, x6
    .word 0x029906b3  # mul x13, x18, x9
    .word 0x02993733  # mulhu x14, x18, x9
    .word 0x00d50533  # add x10, x10, x13
    .word 0x00d53333  # sltu x6, x10, x13
    .word 0x00670733  # add x14, x14, x6
    .word 0x00e585b3  # add x11, x11, x14
    .word 0x00e5b333  # sltu x6, x11, x14
    .word 0x00660633  # add x12, x12, x6
    .word 0x08a12423  # sw x10, 136(x2)
    .word 0x00058513  # addi x10, x11, 0
    .word 0x00060593  # addi x11, x12, 0
    .word 0x03ab06b3  # mul x13, x22, x26
    .word 0x03ab3733  # mulhu x14, x22, x26
    .word 0x00d50533  # add x10, x10, x13
    .word 0x00d53333  # sltu x6, x10, x13
    .word 0x00670733  # add x14, x14, x6
    .word 0x00e585b3  # add x11, x11, x14
    .word 0x00e5b633  # sltu x12, x11, x14
    .word 0x03ba86b3  # mul x13, x21, x27
    .word 0x03bab733  # mulhu x14, x21, x27
    .word 0x00d50533  # add x10, x10, x13
    .word 0x00d53333  # sltu x6, x10, x13
    .word 0x00670733  # add x14, x14, x6
    .word 0x00e585b3  # add x11, x11, x14
    .word 0x00e5b333  # sltu x6, x11, x14
    .word 0x00660633  # add x12, x12, x6
    .word 0x028a06b3  # mul x13, x20, x8
    .word 0x028a3733  # mulhu x14, x20, x8
    .word 0x00d50533  # add x10, x10, x13
    .word 0x00d53333  # sltu x6, x10, x13
    .word 0x00670733  # add x14, x14, x6
    .word 0x00e585b3  # add x11, x11, x14
    .word 0x00e5b333  # sltu x6, x11, x14
    .word 0x00660633  # add x12, x12, x6
    .word 0x029986b3  # mul x13, x19, x9
    .word 0x0299b733  # mulhu x14, x19, x9
    .word 0x00d50533  # add x10, x10, x13
    .word 0x00d53333  # sltu x6, x10, x13
    .word 0x00670733  # add x14, x14, x6
    .word 0x00e585b3  # add x11, x11, x14
    .word 0x00e5b333  # sltu x6, x11, x14
    .word 0x00660633  # add x12, x12, x6
    .word 0x08a12623  # sw x10, 140(x2)
    .word 0x00058513  # addi x10, x11, 0
    .word 0x00060593  # addi x11, x12, 0
    .word 0x03ab86b3  # mul x13, x23, x26
    .word 0x03abb733  # mulhu x14, x23, x26
    .word 0x00d50533  # add x10, x10, x13
    .word 0x00d53333  # sltu x6, x10, x13
    .word 0x00670733  # add x14, x14, x6
    .word 0x00e585b3  # add x11, x11, x14
    .word 0x00e5b633  # sltu x12, x11, x14
    .word 0x03bb06b3  # mul x13, x22, x27
    .word 0x03bb3733  # mulhu x14, x22, x27
    .word 0x00d50533  # add x10, x10, x13
    .word 0x00d53333  # sltu x6, x10, x13
    .word 0x00670733  # add x14, x14, x6
    .word 0x00e585b3  # add x11, x11, x14
    .word 0x00e5b333  # sltu x6, x11, x14
    .word 0x00660633  # add x12, x12, x6
    .word 0x028a86b3  # mul x13, x21, x8
    .word 0x028ab733  # mulhu x14, x21, x8
    .word 0x00d50533  # add x10, x10, x13
    .word 0x00d53333  # sltu x6, x10, x13
    .word 0x00670733  # add x14, x14, x6
    .word 0x00e585b3  # add x11, x11, x14
    .word 0x00e5b333  # sltu x6, x11, x14
    .word 0x00660633  # add x12, x12, x6
    .word 0x029a06b3  # mul x13, x20, x9
    .word 0x029a3733  # mulhu x14, x20, x9
    .word 0x00d50533  # add x10, x10, x13
    .word 0x00d53333  # sltu x6, x10, x13
    .word 0x00670733  # add x14, x14, x6
    .word 0x00e585b3  # add x11, x11, x14
    .word 0x00e5b333  # sltu x6, x11, x14
    .word 0x00660633  # add x12, x12, x6
    .word 0x08a12823  # sw x10, 144(x2)
    .word 0x00058513  # addi x10, x11, 0
    .word 0x00060593  # addi x11, x12, 0
    .word 0x03ac06b3  # mul x13, x24, x26
    .word 0x03ac3733  # mulhu x14, x24, x26
    .word 0x00d50533  # add x10, x10, x13
    .word 0x00d53333  # sltu x6, x10, x13
    .word 0x00670733  # add x14, x14, x6
    .word 0x00e585b3  # add x11, x11, x14
    .word 0x00e5b633  # sltu x12, x11, x14
    .word 0x03bb86b3  # mul x13, x23, x27
    .word 0x03bbb733  # mulhu x14, x23, x27
    .word 0x00d50533  # add x10, x10, x13
    .word 0x00d53333  # sltu x6, x10, x13
    .word 0x00670733  # add x14, x14, x6
    .word 0x00e585b3  # add x11, x11, x14
    .word 0x00e5b333  # sltu x6, x11, x14
    .word 0x00660633  # add x12, x12, x6
    .word 0x028b06b3  # mul x13, x22, x8
    .word 0x028b3733  # mulhu x14, x22, x8
    .word 0x00d50533  # add x10, x10, x13
    .word 0x00d53333  # sltu x6, x10, x13
    .word 0x00670733  # add x14, x14, x6
    .word 0x00e585b3  # add x11, x11, x14
    .word 0x00e5b333  # sltu x6, x11, x14
    .word 0x00660633  # add x12, x12, x6
    .word 0x029a86b3  # mul x13, x21, x9
    .word 0x029ab733  # mulhu x14, x21, x9
    .word 0x00d50533  # add x10, x10, x13
    .word 0x00d53333  # sltu x6, x10, x13
    .word 0x00670733  # add x14, x14, x6
    .word 0x00e585b3  # add x11, x11, x14
    .word 0x00e5b333  # sltu x6, x11, x14
    .word 0x00660633  # add x12, x12, x6
    .word 0x08a12a23  # sw x10, 148(x2)
    .word 0x00058513  # addi x10, x11, 0
    .word 0x00060593  # addi x11, x12, 0
    .word 0x03ac86b3  # mul x13, x25, x26
    .word 0x03acb733  # mulhu x14, x25, x26
    .word 0x00d50533  # add x10, x10, x13
    .word 0x00d53333  # sltu x6, x10, x13
    .word 0x00670733  # add x14, x14, x6
    .word 0x00e585b3  # add x11, x11, x14
    .word 0x00e5b633  # sltu x12, x11, x14
    .word 0x03bc06b3  # mul x13, x24, x27
    .word 0x03bc3733  # mulhu x14, x24, x27
    .word 0x00d50533  # add x10, x10, x13
    .word 0x00d53333  # sltu x6, x10, x13
    .word 0x00670733  # add x14, x14, x6
    .word 0x00e585b3  # add x11, x11, x14
    .word 0x00e5b333  # sltu x6, x11, x14
    .word 0x00660633  # add x12, x12, x6
    .word 0x028b86b3  # mul x13, x23, x8
    .word 0x028bb733  # mulhu x14, x23, x8
    .word 0x00d50533  # add x10, x10, x13
    .word 0x00d53333  # sltu x6, x10, x13
    .word 0x00670733  # add x14, x14, x6
    .word 0x00e585b3  # add x11, x11, x14
    .word 0x00e5b333  # sltu x6, x11, x14
    .word 0x00660633  # add x12, x12, x6
    .word 0x029b06b3  # mul x13, x22, x9
    .word 0x029b3733  # mulhu x14, x22, x9
    .word 0x00d50533  # add x10, x10, x13
    .word 0x00d53333  # sltu x6, x10, x13
    .word 0x00670733  # add x14, x14, x6
    .word 0x00e585b3  # add x11, x11, x14
    .word 0x00e5b333  # sltu x6, x11, x14
    .word 0x00660633  # add x12, x12, x6
    .word 0x00050913  # addi x18, x10, 0
    .word 0x00058513  # addi x10, x11, 0
    .word 0x00060593  # addi x11, x12, 0
    .word 0x03bc86b3  # mul x13, x25, x27
    .word 0x03bcb733  # mulhu x14, x25, x27
    .word 0x00d50533  # add x10, x10, x13
    .word 0x00d53333  # sltu x6, x10, x13
    .word 0x00670733  # add x14, x14, x6
    .word 0x00e585b3  # add x11, x11, x14
    .word 0x00e5b633  # sltu x12, x11, x14
    .word 0x028c06b3  # mul x13, x24, x8
    .word 0x028c3733  # mulhu x14, x24, x8
    .word 0x00d50533  # add x10, x10, x13
    .word 0x00d53333  # sltu x6, x10, x13
    .word 0x00670733  # add x14, x14, x6
    .word 0x00e585b3  # add x11, x11, x14
    .word 0x00e5b333  # sltu x6, x11, x14
    .word 0x00660633  # add x12, x12, x6
    .word 0x029b86b3  # mul x13, x23, x9
    .word 0x029bb733  # mulhu x14, x23, x9
    .word 0x00d50533  # add x10, x10, x13
    .word 0x00d53333  # sltu x6, x10, x13
    .word 0x00670733  # add x14, x14, x6
    .word 0x00e585b3  # add x11, x11, x14
    .word 0x00e5b333  # sltu x6, x11, x14
    .word 0x00660633  # add x12, x12, x6
    .word 0x00050993  # addi x19, x10, 0
    .word 0x00058513  # addi x10, x11, 0
    .word 0x00060593  # addi x11, x12, 0
    .word 0x028c86b3  # mul x13, x25, x8
    .word 0x028cb733  # mulhu x14, x25, x8
    .word 0x00d50533  # add x10, x10, x13
    .word 0x00d53333  # sltu x6, x10, x13
    .word 0x00670733  # add x14, x14, x6
    .word 0x00e585b3  # add x11, x11, x14
    .word 0x00e5b633  # sltu x12, x11, x14
    .word 0x029c06b3  # mul x13, x24, x9
    .word 0x029c3733  # mulhu x14, x24, x9
    .word 0x00d50533  # add x10, x10, x13
    .word 0x00d53333  # sltu x6, x10, x13
    .word 0x00670733  # add x14, x14, x6
    .word 0x00e585b3  # add x11, x11, x14
    .word 0x00e5b333  # sltu x6, x11, x14
    .word 0x00660633  # add x12, x12, x6
    .word 0x00050a13  # addi x20, x10, 0
    .word 0x00058513  # addi x10, x11, 0
    .word 0x00060593  # addi x11, x12, 0
    .word 0x029c86b3  # mul x13, x25, x9
    .word 0x029cb733  # mulhu x14, x25, x9
    .word 0x00d50533  # add x10, x10, x13
    .word 0x00d53333  # sltu x6, x10, x13
    .word 0x00670733  # add x14, x14, x6
    .word 0x00e585b3  # add x11, x11, x14
    .word 0x00050713  # addi x14, x10, 0
    .word 0x00058513  # addi x10, x11, 0
    .word 0x09412283  # lw x5, 148(x2)
    .word 0x01c2d293  # srli x5, x5, 28
    .word 0x00491313  # slli x6, x18, 4
    .word 0x0062e8b3  # or x17, x5, x6
    .word 0x01c95293  # srli x5, x18, 28
    .word 0x00499313  # slli x6, x19, 4
    .word 0x0062e933  # or x18, x5, x6
    .word 0x01c9d293  # srli x5, x19, 28
    .word 0x004a1313  # slli x6, x20, 4
    .word 0x0062e9b3  # or x19, x5, x6
    .word 0x01ca5293  # srli x5, x20, 28
    .word 0x00471313  # slli x6, x14, 4
    .word 0x0062ea33  # or x20, x5, x6
    .word 0x01c75293  # srli x5, x14, 28
    .word 0x00451313  # slli x6, x10, 4
    .word 0x0062eab3  # or x21, x5, x6
    .word 0x03a886b3  # mul x13, x17, x26
    .word 0x03a8b733  # mulhu x14, x17, x26
    .word 0x00d6b333  # sltu x6, x13, x13
    .word 0x00670733  # add x14, x14, x6
    .word 0x00e73633  # sltu x12, x14, x14
    .word 0x00068b93  # addi x23, x13, 0
    .word 0x00070513  # addi x10, x14, 0
    .word 0x00060593  # addi x11, x12, 0
    .word 0x03a906b3  # mul x13, x18, x26
    .word 0x03a93733  # mulhu x14, x18, x26
    .word 0x00d50533  # add x10, x10, x13
    .word 0x00d53333  # sltu x6, x10, x13
    .word 0x00670733  # add x14, x14, x6
    .word 0x00e585b3  # add x11, x11, x14
    .word 0x00e5b633  # sltu x12, x11, x14
    .word 0x03b886b3  # mul x13, x17, x27
    .word 0x03b8b733  # mulhu x14, x17, x27
    .word 0x00d50533  # add x10, x10, x13
    .word 0x00d53333  # sltu x6, x10, x13
    .word 0x00670733  # add x14, x14, x6
    .word 0x00e585b3  # add x11, x11, x14
    .word 0x00e5b333  # sltu x6, x11, x14
    .word 0x00660633  # add x12, x12, x6
    .word 0x00050c13  # addi x24, x10, 0
    .word 0x00058513  # addi x10, x11, 0
    .word 0x00060593  # addi x11, x12, 0
    .word 0x03a986b3  # mul x13, x19, x26
    .word 0x03a9b733  # mulhu x14, x19, x26
    .word 0x00d50533  # add x10, x10, x13
    .word 0x00d53333  # sltu x6, x10, x13
    .word 0x00670733  # add x14, x14, x6
    .word 0x00e585b3  # add x11, x11, x14
    .word 0x00e5b633  # sltu x12, x11, x14
    .word 0x03b906b3  # mul x13, x18, x27
    .word 0x03b93733  # mulhu x14, x18, x27
    .word 0x00d50533  # add x10, x10, x13
    .word 0x00d53333  # sltu x6, x10, x13
    .word 0x00670733  # add x14, x14, x6
    .word 0x00e585b3  # add x11, x11, x14
    .word 0x00e5b333  # sltu x6, x11, x14
    .word 0x00660633  # add x12, x12, x6
    .word 0x028886b3  # mul x13, x17, x8
    .word 0x0288b733  # mulhu x14, x17, x8
    .word 0x00d50533  # add x10, x10, x13
    .word 0x00d53333  # sltu x6, x10, x13
    .word 0x00670733  # add x14, x14, x6
    .word 0x00e585b3  # add x11, x11, x14
    .word 0x00e5b333  # sltu x6, x11, x14
    .word 0x00660633  # add x12, x12, x6
    .word 0x00050c93  # addi x25, x10, 0
    .word 0x00058513  # addi x10, x11, 0
    .word 0x00060593  # addi x11, x12, 0
    .word 0x03aa06b3  # mul x13, x20, x26
    .word 0x03aa3733  # mulhu x14, x20, x26
    .word 0x00d50533  # add x10, x10, x13
    .word 0x00d53333  # sltu x6, x10, x13
    .word 0x00670733  # add x14, x14, x6
    .word 0x00e585b3  # add x11, x11, x14
    .word 0x00e5b633  # sltu x12, x11, x14
    .word 0x03b986b3  # mul x13, x19, x27
    .word 0x03b9b733  # mulhu x14, x19, x27
    .word 0x00d50533  # add x10, x10, x13
    .word 0x00d53333  # sltu x6, x10, x13
    .word 0x00670733  # add x14, x14, x6
    .word 0x00e585b3  # add x11, x11, x14
    .word 0x00e5b333  # sltu x6, x11, x14
    .word 0x00660633  # add x12, x12, x6
    .word 0x028906b3  # mul x13, x18, x8
    .word 0x02893733  # mulhu x14, x18, x8
    .word 0x00d50533  # add x10, x10, x13
    .word 0x00d53333  # sltu x6, x10, x13
    .word 0x00670733  # add x14, x14, x6
    .word 0x00e585b3  # add x11, x11, x14
    .word 0x00e5b333  # sltu x6, x11, x14
    .word 0x00660633  # add x12, x12, x6
    .word 0x029886b3  # mul x13, x17, x9
    .word 0x0298b733  # mulhu x14, x17, x9
    .word 0x00d50533  # add x10, x10, x13
    .word 0x00d53333  # sltu x6, x10, x13
    .word 0x00670733  # add x14, x14, x6
    .word 0x00e585b3  # add x11, x11, x14
    .word 0x00e5b333  # sltu x6, x11, x14
    .word 0x00660633  # add x12, x12, x6
    .word 0x08a12c23  # sw x10, 152(x2)
    .word 0x00058513  # addi x10, x11, 0
    .word 0x00060593  # addi x11, x12, 0
    .word 0x03aa86b3  # mul x13, x21, x26
    .word 0x03aab733  # mulhu x14, x21, x26
    .word 0x00d50533  # add x10, x10, x13
    .word 0x00d53333  # sltu x6, x10, x13
    .word 0x00670733  # add x14, x14, x6
    .word 0x00e585b3  # add x11, x11, x14
    .word 0x00e5b633  # sltu x12, x11, x14
    .word 0x03ba06b3  # mul x13, x20, x27
    .word 0x03ba3733  # mulhu x14, x20, x27
    .word 0x00d50533  # add x10, x10, x13
    .word 0x00d53333  # sltu x6, x10, x13
    .word 0x00670733  # add x14, x14, x6
    .word 0x00e585b3  # add x11, x11, x14
    .word 0x00e5b333  # sltu x6, x11, x14
    .word 0x00660633  # add x12, x12, x6
    .word 0x028986b3  # mul x13, x19, x8
    .word 0x0289b733  # mulhu x14, x19, x8
    .word 0x00d50533  # add x10, x10, x13
    .word 0x00d53333  # sltu x6, x10, x13
    .word 0x00670733  # add x14, x14, x6
    .word 0x00e585b3  # add x11, x11, x14
    .word 0x00e5b333  # sltu x6, x11, x14
    .word 0x00660633  # add x12, x12, x6
    .word 0x029906b3  # mul x13, x18, x9
    .word 0x02993733  # mulhu x14, x18, x9
    .word 0x00d50533  # add x10, x10, x13
    .word 0x00d53333  # sltu x6, x10, x13
    .word 0x00670733  # add x14, x14, x6
    .word 0x00e585b3  # add x11, x11, x14
    .word 0x00e5b333  # sltu x6, x11, x14
    .word 0x00660633  # add x12, x12, x6
    .word 0x00050893  # addi x17, x10, 0
    .word 0x00058513  # addi x10, x11, 0
    .word 0x00060593  # addi x11, x12, 0
    .word 0x03ba86b3  # mul x13, x21, x27
    .word 0x03bab733  # mulhu x14, x21, x27
    .word 0x00d50533  # add x10, x10, x13
    .word 0x00d53333  # sltu x6, x10, x13
    .word 0x00670733  # add x14, x14, x6
    .word 0x00e585b3  # add x11, x11, x14
    .word 0x00e5b633  # sltu x12, x11, x14
    .word 0x028a06b3  # mul x13, x20, x8
    .word 0x028a3733  # mulhu x14, x20, x8
    .word 0x00d50533  # add x10, x10, x13
    .word 0x00d53333  # sltu x6, x10, x13
    .word 0x00670733  # add x14, x14, x6
    .word 0x00e585b3  # add x11, x11, x14
    .word 0x00e5b333  # sltu x6, x11, x14
    .word 0x00660633  # add x12, x12, x6
    .word 0x029986b3  # mul x13, x19, x9
    .word 0x0299b733  # mulhu x14, x19, x9
    .word 0x00d50533  # add x10, x10, x13
    .word 0x00d53333  # sltu x6, x10, x13
    .word 0x00670733  # add x14, x14, x6
    .word 0x00e585b3  # add x11, x11, x14
    .word 0x00e5b333  # sltu x6, x11, x14
    .word 0x00660633  # add x12, x12, x6
    .word 0x00050913  # addi x18, x10, 0
    .word 0x00058513  # addi x10, x11, 0
    .word 0x00060593  # addi x11, x12, 0
    .word 0x028a86b3  # mul x13, x21, x8
    .word 0x028ab733  # mulhu x14, x21, x8
    .word 0x00d50533  # add x10, x10, x13
    .word 0x00d53333  # sltu x6, x10, x13
    .word 0x00670733  # add x14, x14, x6
    .word 0x00e585b3  # add x11, x11, x14
    .word 0x00e5b633  # sltu x12, x11, x14
    .word 0x029a06b3  # mul x13, x20, x9
    .word 0x029a3733  # mulhu x14, x20, x9
    .word 0x00d50533  # add x10, x10, x13
    .word 0x00d53333  # sltu x6, x10, x13
    .word 0x00670733  # add x14, x14, x6
    .word 0x00e585b3  # add x11, x11, x14
    .word 0x00e5b333  # sltu x6, x11, x14
    .word 0x00660633  # add x12, x12, x6
    .word 0x00050b13  # addi x22, x10, 0
    .word 0x00058513  # addi x10, x11, 0
    .word 0x00060593  # addi x11, x12, 0
    .word 0x029a86b3  # mul x13, x21, x9
    .word 0x029ab733  # mulhu x14, x21, x9
    .word 0x00d50533  # add x10, x10, x13
    .word 0x00d53333  # sltu x6, x10, x13
    .word 0x00670733  # add x14, x14, x6
    .word 0x00e585b3  # add x11, x11, x14
    .word 0x08a12e23  # sw x10, 156(x2)
    .word 0x00058513  # addi x10, x11, 0
    .word 0x0aa12023  # sw x10, 160(x2)
    .word 0x01ab8633  # add x12, x23, x26
    .word 0x00f606b3  # add x13, x12, x15
    .word 0x01a632b3  # sltu x5, x12, x26
    .word 0x00f6b333  # sltu x6, x13, x15
    .word 0x00628533  # add x10, x5, x6
    .word 0x07812303  # lw x6, 120(x2)
    .word 0x40668633  # sub x12, x13, x6
    .word 0x00060993  # addi x19, x12, 0
    .word 0x07812303  # lw x6, 120(x2)
    .word 0x0066b733  # sltu x14, x13, x6
    .word 0x01bc0633  # add x12, x24, x27
    .word 0x010606b3  # add x13, x12, x16
    .word 0x00a685b3  # add x11, x13, x10
    .word 0x01b632b3  # sltu x5, x12, x27
    .word 0x0106b333  # sltu x6, x13, x16
    .word 0x006282b3  # add x5, x5, x6
    .word 0x00a5b333  # sltu x6, x11, x10
    .word 0x00628533  # add x10, x5, x6
    .word 0x07c12303  # lw x6, 124(x2)
    .word 0x40658633  # sub x12, x11, x6
    .word 0x40e60a33  # sub x20, x12, x14
    .word 0x07c12303  # lw x6, 124(x2)
    .word 0x0065b2b3  # sltu x5, x11, x6
    .word 0x00e63333  # sltu x6, x12, x14
    .word 0x00628733  # add x14, x5, x6
    .word 0x008c8633  # add x12, x25, x8
    .word 0x06012303  # lw x6, 96(x2)
    .word 0x006606b3  # add x13, x12, x6
    .word 0x00a685b3  # add x11, x13, x10
    .word 0x008632b3  # sltu x5, x12, x8
    .word 0x06012383  # lw x7, 96(x2)
    .word 0x0076b333  # sltu x6, x13, x7
    .word 0x006282b3  # add x5, x5, x6
    .word 0x00a5b333  # sltu x6, x11, x10
    .word 0x00628533  # add x10, x5, x6
    .word 0x08012303  # lw x6, 128(x2)
    .word 0x40658633  # sub x12, x11, x6
    .word 0x40e60c33  # sub x24, x12, x14
    .word 0x08012303  # lw x6, 128(x2)
    .word 0x0065b2b3  # sltu x5, x11, x6
    .word 0x00e63333  # sltu x6, x12, x14
    .word 0x00628733  # add x14, x5, x6
    .word 0x09812283  # lw x5, 152(x2)
    .word 0x00928633  # add x12, x5, x9
    .word 0x06412303  # lw x6, 100(x2)
    .word 0x006606b3  # add x13, x12, x6
    .word 0x00a685b3  # add x11, x13, x10
    .word 0x009632b3  # sltu x5, x12, x9
    .word 0x06412383  # lw x7, 100(x2)
    .word 0x0076b333  # sltu x6, x13, x7
    .word 0x006282b3  # add x5, x5, x6
    .word 0x00a5b333  # sltu x6, x11, x10
    .word 0x00628533  # add x10, x5, x6
    .word 0x08412303  # lw x6, 132(x2)
    .word 0x40658633  # sub x12, x11, x6
    .word 0x40e60cb3  # sub x25, x12, x14
    .word 0x08412303  # lw x6, 132(x2)
    .word 0x0065b2b3  # sltu x5, x11, x6
    .word 0x00e63333  # sltu x6, x12, x14
    .word 0x00628733  # add x14, x5, x6
    .word 0x06812303  # lw x6, 104(x2)
    .word 0x006886b3  # add x13, x17, x6
    .word 0x00a685b3  # add x11, x13, x10
    .word 0x06812303  # lw x6, 104(x2)
    .word 0x0066b2b3  # sltu x5, x13, x6
    .word 0x00a5b333  # sltu x6, x11, x10
    .word 0x00628533  # add x10, x5, x6
    .word 0x08812303  # lw x6, 136(x2)
    .word 0x40658633  # sub x12, x11, x6
    .word 0x40e607b3  # sub x15, x12, x14
    .word 0x08812303  # lw x6, 136(x2)
    .word 0x0065b2b3  # sltu x5, x11, x6
    .word 0x00e63333  # sltu x6, x12, x14
    .word 0x00628733  # add x14, x5, x6
    .word 0x06c12303  # lw x6, 108(x2)
    .word 0x006906b3  # add x13, x18, x6
    .word 0x00a685b3  # add x11, x13, x10
    .word 0x06c12303  # lw x6, 108(x2)
    .word 0x0066b2b3  # sltu x5, x13, x6
    .word 0x00a5b333  # sltu x6, x11, x10
    .word 0x00628533  # add x10, x5, x6
    .word 0x08c12303  # lw x6, 140(x2)
    .word 0x40658633  # sub x12, x11, x6
    .word 0x40e60ab3  # sub x21, x12, x14
    .word 0x08c12303  # lw x6, 140(x2)
    .word 0x0065b2b3  # sltu x5, x11, x6
    .word 0x00e63333  # sltu x6, x12, x14
    .word 0x00628733  # add x14, x5, x6
    .word 0x07012303  # lw x6, 112(x2)
    .word 0x006b06b3  # add x13, x22, x6
    .word 0x00a685b3  # add x11, x13, x10
    .word 0x07012303  # lw x6, 112(x2)
    .word 0x0066b2b3  # sltu x5, x13, x6
    .word 0x00a5b333  # sltu x6, x11, x10
    .word 0x00628533  # add x10, x5, x6
    .word 0x09012303  # lw x6, 144(x2)
    .word 0x40658633  # sub x12, x11, x6
    .word 0x40e60b33  # sub x22, x12, x14
    .word 0x09012303  # lw x6, 144(x2)
    .word 0x0065b2b3  # sltu x5, x11, x6
    .word 0x00e63333  # sltu x6, x12, x14
    .word 0x00628733  # add x14, x5, x6
    .word 0x07412283  # lw x5, 116(x2)
    .word 0x00429893  # slli x17, x5, 4
    .word 0x0048d893  # srli x17, x17, 4
    .word 0x09412283  # lw x5, 148(x2)
    .word 0x00429913  # slli x18, x5, 4
    .word 0x00495913  # srli x18, x18, 4
    .word 0x09c12283  # lw x5, 156(x2)
    .word 0x10000337  # lui x6, 0x10000
    .word 0x00030313  # addi x6, x6, 0
    .word 0x00628633  # add x12, x5, x6
    .word 0x011606b3  # add x13, x12, x17
    .word 0x00a685b3  # add x11, x13, x10
    .word 0x10000337  # lui x6, 0x10000
    .word 0x00030313  # addi x6, x6, 0
    .word 0x006632b3  # sltu x5, x12, x6
    .word 0x0116b333  # sltu x6, x13, x17
    .word 0x006282b3  # add x5, x5, x6
    .word 0x00a5b333  # sltu x6, x11, x10
    .word 0x00628533  # add x10, x5, x6
    .word 0x41258633  # sub x12, x11, x18
    .word 0x40e60833  # sub x16, x12, x14
    .word 0x0125b2b3  # sltu x5, x11, x18
    .word 0x00e63333  # sltu x6, x12, x14
    .word 0x00628733  # add x14, x5, x6
    .word 0x0a012283  # lw x5, 160(x2)
    .word 0x00a282b3  # add x5, x5, x10
    .word 0x40e28733  # sub x14, x5, x14
    .word 0x01c85293  # srli x5, x16, 28
    .word 0x00471313  # slli x6, x14, 4
    .word 0x0062e6b3  # or x13, x5, x6
    .word 0x03a688b3  # mul x17, x13, x26
    .word 0x03a6b733  # mulhu x14, x13, x26
    .word 0x0118b333  # sltu x6, x17, x17
    .word 0x00670733  # add x14, x14, x6
    .word 0x00e73633  # sltu x12, x14, x14
    .word 0x00088913  # addi x18, x17, 0
    .word 0x00070513  # addi x10, x14, 0
    .word 0x00060593  # addi x11, x12, 0
    .word 0x03b688b3  # mul x17, x13, x27
    .word 0x03b6b733  # mulhu x14, x13, x27
    .word 0x01150533  # add x10, x10, x17
    .word 0x01153333  # sltu x6, x10, x17
    .word 0x00670733  # add x14, x14, x6
    .word 0x00e585b3  # add x11, x11, x14
    .word 0x00e5b633  # sltu x12, x11, x14
    .word 0x06a12023  # sw x10, 96(x2)
    .word 0x00058513  # addi x10, x11, 0
    .word 0x00060593  # addi x11, x12, 0
    .word 0x028688b3  # mul x17, x13, x8
    .word 0x0286b733  # mulhu x14, x13, x8
    .word 0x01150533  # add x10, x10, x17
    .word 0x01153333  # sltu x6, x10, x17
    .word 0x00670733  # add x14, x14, x6
    .word 0x00e585b3  # add x11, x11, x14
    .word 0x00e5b633  # sltu x12, x11, x14
    .word 0x06a12223  # sw x10, 100(x2)
    .word 0x00058513  # addi x10, x11, 0
    .word 0x00060593  # addi x11, x12, 0
    .word 0x029688b3  # mul x17, x13, x9
    .word 0x0296b733  # mulhu x14, x13, x9
    .word 0x01150533  # add x10, x10, x17
    .word 0x01153333  # sltu x6, x10, x17
    .word 0x00670733  # add x14, x14, x6
    .word 0x00e585b3  # add x11, x11, x14
    .word 0x00050693  # addi x13, x10, 0
    .word 0x00058513  # addi x10, x11, 0
    .word 0x00050593  # addi x11, x10, 0
    .word 0x41298533  # sub x10, x19, x18
    .word 0x00050b93  # addi x23, x10, 0
    .word 0x0129b733  # sltu x14, x19, x18
    .word 0x06012303  # lw x6, 96(x2)
    .word 0x406a0533  # sub x10, x20, x6
    .word 0x40e50633  # sub x12, x10, x14
    .word 0x06012303  # lw x6, 96(x2)
    .word 0x006a32b3  # sltu x5, x20, x6
    .word 0x00e53333  # sltu x6, x10, x14
    .word 0x00628733  # add x14, x5, x6
    .word 0x06412303  # lw x6, 100(x2)
    .word 0x406c0533  # sub x10, x24, x6
    .word 0x40e508b3  # sub x17, x10, x14
    .word 0x06412303  # lw x6, 100(x2)
    .word 0x006c32b3  # sltu x5, x24, x6
    .word 0x00e53333  # sltu x6, x10, x14
    .word 0x00628733  # add x14, x5, x6
    .word 0x40dc8533  # sub x10, x25, x13
    .word 0x40e50933  # sub x18, x10, x14
    .word 0x00dcb2b3  # sltu x5, x25, x13
    .word 0x00e53333  # sltu x6, x10, x14
    .word 0x00628733  # add x14, x5, x6
    .word 0x40b78533  # sub x10, x15, x11
    .word 0x40e509b3  # sub x19, x10, x14
    .word 0x00b7b2b3  # sltu x5, x15, x11
    .word 0x00e53333  # sltu x6, x10, x14
    .word 0x00628733  # add x14, x5, x6
    .word 0x40ea8a33  # sub x20, x21, x14
    .word 0x00eab733  # sltu x14, x21, x14
    .word 0x40eb0ab3  # sub x21, x22, x14
    .word 0x00eb3733  # sltu x14, x22, x14
    .word 0x00481513  # slli x10, x16, 4
    .word 0x00455513  # srli x10, x10, 4
    .word 0x40e50b33  # sub x22, x10, x14
    .word 0x00e53733  # sltu x14, x10, x14
    .word 0x40e006b3  # sub x13, x0, x14
    .word 0x00dd7733  # and x14, x26, x13
    .word 0x00eb85b3  # add x11, x23, x14
    .word 0x00058b93  # addi x23, x11, 0
    .word 0x00e5b533  # sltu x10, x11, x14
    .word 0x00ddf733  # and x14, x27, x13
    .word 0x00e605b3  # add x11, x12, x14
    .word 0x00a58633  # add x12, x11, x10
    .word 0x00e5b2b3  # sltu x5, x11, x14
    .word 0x00a63333  # sltu x6, x12, x10
    .word 0x00628533  # add x10, x5, x6
    .word 0x00d47733  # and x14, x8, x13
    .word 0x00e885b3  # add x11, x17, x14
    .word 0x00a588b3  # add x17, x11, x10
    .word 0x00e5b2b3  # sltu x5, x11, x14
    .word 0x00a8b333  # sltu x6, x17, x10
    .word 0x00628533  # add x10, x5, x6
    .word 0x00d4f733  # and x14, x9, x13
    .word 0x00e905b3  # add x11, x18, x14
    .word 0x00a58933  # add x18, x11, x10
    .word 0x00e5b2b3  # sltu x5, x11, x14
    .word 0x00a93333  # sltu x6, x18, x10
    .word 0x00628533  # add x10, x5, x6
    .word 0x0006f713  # andi x14, x13, 0
    .word 0x00e985b3  # add x11, x19, x14
    .word 0x00a589b3  # add x19, x11, x10
    .word 0x00e5b2b3  # sltu x5, x11, x14
    .word 0x00a9b333  # sltu x6, x19, x10
    .word 0x00628533  # add x10, x5, x6
    .word 0x0006f713  # andi x14, x13, 0
    .word 0x00ea05b3  # add x11, x20, x14
    .word 0x00a58a33  # add x20, x11, x10
    .word 0x00e5b2b3  # sltu x5, x11, x14
    .word 0x00aa3333  # sltu x6, x20, x10
    .word 0x00628533  # add x10, x5, x6
    .word 0x0006f713  # andi x14, x13, 0
    .word 0x00ea85b3  # add x11, x21, x14
    .word 0x00a58ab3  # add x21, x11, x10
    .word 0x00e5b2b3  # sltu x5, x11, x14
    .word 0x00aab333  # sltu x6, x21, x10
    .word 0x00628533  # add x10, x5, x6
    .word 0x100002b7  # lui x5, 0x10000
    .word 0x00028293  # addi x5, x5, 0
    .word 0x00d2f733  # and x14, x5, x13
    .word 0x00eb05b3  # add x11, x22, x14
    .word 0x00a58b33  # add x22, x11, x10
    .word 0x05712023  # sw x23, 64(x2)
    .word 0x04c12223  # sw x12, 68(x2)
    .word 0x05112423  # sw x17, 72(x2)
    .word 0x05212623  # sw x18, 76(x2)
    .word 0x05312823  # sw x19, 80(x2)
    .word 0x05412a23  # sw x20, 84(x2)
    .word 0x05512c23  # sw x21, 88(x2)
    .word 0x05612e23  # sw x22, 92(x2)
    # the result
    .word 0x00000513  # addi x10, x0, 0
    # parameter 1: the array, back
    .word 0x04010293  # addi x5, x2, 64
    .word 0x0ec12303  # lw x6, 236(x2)
    .word 0x02028393  # addi x7, x5, 32
    .word 0x09000f6f  # jal x30, 144
    # above the frame
    .word 0x0b010293  # addi x5, x2, 176
    # the caller's registers
    .word 0x0002a403  # lw x8, 0(x5)
    .cfi_restore 8
    .word 0x0042a483  # lw x9, 4(x5)
    .cfi_restore 9
    .word 0x0082a903  # lw x18, 8(x5)
    .cfi_restore 18
    .word 0x00c2a983  # lw x19, 12(x5)
    .cfi_restore 19
    .word 0x0102aa03  # lw x20, 16(x5)
    .cfi_restore 20
    .word 0x0142aa83  # lw x21, 20(x5)
    .cfi_restore 21
    .word 0x0182ab03  # lw x22, 24(x5)
    .cfi_restore 22
    .word 0x01c2ab83  # lw x23, 28(x5)
    .cfi_restore 23
    .word 0x0202ac03  # lw x24, 32(x5)
    .cfi_restore 24
    .word 0x0242ac83  # lw x25, 36(x5)
    .cfi_restore 25
    .word 0x0282ad03  # lw x26, 40(x5)
    .cfi_restore 26
    .word 0x02c2ad83  # lw x27, 44(x5)
    .cfi_restore 27
    # the caller's x2
    .word 0x04028293  # addi x5, x5, 64
    .cfi_def_cfa 5, 0
    # all the room, wiped upward
    .word 0x00012023  # sw x0, 0(x2)
    .word 0x00012223  # sw x0, 4(x2)
    .word 0x00012423  # sw x0, 8(x2)
    .word 0x00012623  # sw x0, 12(x2)
    .word 0x01010113  # addi x2, x2, 16
    .word 0xfe5116e3  # bne x2, x5, -20
    .cfi_def_cfa 2, 0
    # temporaries, wiped
    .word 0x00000293  # addi x5, x0, 0
    .word 0x00000313  # addi x6, x0, 0
    .word 0x00000393  # addi x7, x0, 0
    .word 0x00000593  # addi x11, x0, 0
    .word 0x00000613  # addi x12, x0, 0
    .word 0x00000693  # addi x13, x0, 0
    .word 0x00000713  # addi x14, x0, 0
    .word 0x00000793  # addi x15, x0, 0
    .word 0x00000813  # addi x16, x0, 0
    .word 0x00000893  # addi x17, x0, 0
    .word 0x00000e13  # addi x28, x0, 0
    .word 0x00000e93  # addi x29, x0, 0
    .word 0x00000f13  # addi x30, x0, 0
    .word 0x00000f93  # addi x31, x0, 0
    # back
    .word 0x00008067  # jalr x0, 0(x1)
    # from x5 to x6 up to x7, and back
    .cfi_def_cfa 2, 240
    .cfi_offset 8, -64
    .cfi_offset 9, -60
    .cfi_offset 18, -56
    .cfi_offset 19, -52
    .cfi_offset 20, -48
    .cfi_offset 21, -44
    .cfi_offset 22, -40
    .cfi_offset 23, -36
    .cfi_offset 24, -32
    .cfi_offset 25, -28
    .cfi_offset 26, -24
    .cfi_offset 27, -20
    .word 0x0062ee33  # or x28, x5, x6
    .word 0x003e7e13  # andi x28, x28, 3
    .word 0x000e0e63  # beq x28, x0, 28
    .word 0x0002ce03  # lbu x28, 0(x5)
    .word 0x01c30023  # sb x28, 0(x6)
    .word 0x00128293  # addi x5, x5, 1
    .word 0x00130313  # addi x6, x6, 1
    .word 0xfe7298e3  # bne x5, x7, -16
    .word 0x0300006f  # jal x0, 48
    .word 0x0002ae03  # lw x28, 0(x5)
    .word 0x01c32023  # sw x28, 0(x6)
    .word 0x0042ae03  # lw x28, 4(x5)
    .word 0x01c32223  # sw x28, 4(x6)
    .word 0x0082ae03  # lw x28, 8(x5)
    .word 0x01c32423  # sw x28, 8(x6)
    .word 0x00c2ae03  # lw x28, 12(x5)
    .word 0x01c32623  # sw x28, 12(x6)
    .word 0x01028293  # addi x5, x5, 16
    .word 0x01030313  # addi x6, x6, 16
    .word 0xfc729ce3  # bne x5, x7, -40
    .word 0x000f0067  # jalr x0, 0(x30)
    .cfi_endproc
    .size ed25519_reduce, . - ed25519_reduce
    .option pop
