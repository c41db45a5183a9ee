# ed25519_decode: made by factc 1.0.0 function; 2103 words, 928 bytes of stack, profile 1
    .option push
    .option norvc
    .option norelax
    .cfi_sections .debug_frame
    .section .text.ed25519_decode, "ax", @progbits
    .p2align 2
    .globl ed25519_decode
    .type ed25519_decode, @function
ed25519_decode:
    .cfi_startproc
    # room above the frame
    .word 0xfc010113  # addi x2, x2, -64
    .cfi_def_cfa_offset 64
    # the caller's registers
    .word 0x00812023  # sw x8, 0(x2)
    .cfi_offset 8, -64
    .word 0x00912223  # sw x9, 4(x2)
    .cfi_offset 9, -60
    .word 0x01212423  # sw x18, 8(x2)
    .cfi_offset 18, -56
    .word 0x01312623  # sw x19, 12(x2)
    .cfi_offset 19, -52
    .word 0x01412823  # sw x20, 16(x2)
    .cfi_offset 20, -48
    .word 0x01512a23  # sw x21, 20(x2)
    .cfi_offset 21, -44
    .word 0x01612c23  # sw x22, 24(x2)
    .cfi_offset 22, -40
    .word 0x01712e23  # sw x23, 28(x2)
    .cfi_offset 23, -36
    .word 0x03812023  # sw x24, 32(x2)
    .cfi_offset 24, -32
    .word 0x03912223  # sw x25, 36(x2)
    .cfi_offset 25, -28
    .word 0x03a12423  # sw x26, 40(x2)
    .cfi_offset 26, -24
    .word 0x03b12623  # sw x27, 44(x2)
    .cfi_offset 27, -20
    # arguments that are needed behind the body
    .word 0x02a12c23  # sw x10, 56(x2)
    .word 0x02b12e23  # sw x11, 60(x2)
    # the frame's base
    .word 0xca010113  # addi x2, x2, -864
    .cfi_def_cfa 2, 928
    # the frame's word at 800, zeroed
    .word 0x32012023  # sw x0, 800(x2)
    # the frame's word at 804, zeroed
    .word 0x32012223  # sw x0, 804(x2)
    # parameter 0: an array
    .word 0x00050293  # addi x5, x10, 0
    .word 0x00010313  # addi x6, x2, 0
    .word 0x02028393  # addi x7, x5, 32
    .word 0x03402f6f  # jal x30, 8244
    # the body
    .word 0x800002b7  # lui x5, 0x80000
    .word 0xfff28293  # addi x5, x5, -1
    .word 0x32512e23  # sw x5, 828(x2)
    .word 0x06000313  # addi x6, x0, 96
    .word 0x00230333  # add x6, x6, x2
    .word 0x20000393  # addi x7, x0, 512
    .word 0x006383b3  # add x7, x7, x6
    .word 0x406382b3  # sub x5, x7, x6
    .word 0x00029463  # bne x5, x0, 8
    .word 0x0100006f  # jal x0, 16
    .word 0x00032023  # sw x0, 0(x6)
    .word 0x00430313  # addi x6, x6, 4
    .word 0xfedff06f  # jal x0, -20
    .word 0x26000313  # addi x6, x0, 608
    .word 0x00230333  # add x6, x6, x2
    .word 0x02000393  # addi x7, x0, 32
    .word 0x006383b3  # add x7, x7, x6
    .word 0x406382b3  # sub x5, x7, x6
    .word 0x00029463  # bne x5, x0, 8
    .word 0x0100006f  # jal x0, 16
    .word 0x00032023  # sw x0, 0(x6)
    .word 0x00430313  # addi x6, x6, 4
    .word 0xfedff06f  # jal x0, -20
    .word 0x000012b7  # lui x5, 0x00001
    .word 0x10028293  # addi x5, x5, 256
    .word 0x28512023  # sw x5, 640(x2)
    .word 0x001002b7  # lui x5, 0x00100
    .word 0x21a28293  # addi x5, x5, 538
    .word 0x28512223  # sw x5, 644(x2)
    .word 0x002002b7  # lui x5, 0x00200
    .word 0x22b28293  # addi x5, x5, 555
    .word 0x28512423  # sw x5, 648(x2)
    .word 0x003002b7  # lui x5, 0x00300
    .word 0x11b28293  # addi x5, x5, 283
    .word 0x28512623  # sw x5, 652(x2)
    .word 0x001002b7  # lui x5, 0x00100
    .word 0x11b28293  # addi x5, x5, 283
    .word 0x28512823  # sw x5, 656(x2)
    .word 0x000012b7  # lui x5, 0x00001
    .word 0x32028293  # addi x5, x5, 800
    .word 0x28512a23  # sw x5, 660(x2)
    .word 0x001002b7  # lui x5, 0x00100
    .word 0x33228293  # addi x5, x5, 818
    .word 0x28512c23  # sw x5, 664(x2)
    .word 0x000012b7  # lui x5, 0x00001
    .word 0x43028293  # addi x5, x5, 1072
    .word 0x28512e23  # sw x5, 668(x2)
    .word 0x001002b7  # lui x5, 0x00100
    .word 0x44228293  # addi x5, x5, 1090
    .word 0x2a512023  # sw x5, 672(x2)
    .word 0x001002b7  # lui x5, 0x00100
    .word 0x44128293  # addi x5, x5, 1089
    .word 0x2a512223  # sw x5, 676(x2)
    .word 0x001032b7  # lui x5, 0x00103
    .word 0x54428293  # addi x5, x5, 1348
    .word 0x2a512423  # sw x5, 680(x2)
    .word 0x001012b7  # lui x5, 0x00101
    .word 0x64528293  # addi x5, x5, 1605
    .word 0x2a512623  # sw x5, 684(x2)
    .word 0x001022b7  # lui x5, 0x00102
    .word 0xe6528293  # addi x5, x5, -411
    .word 0x2a512823  # sw x5, 688(x2)
    .word 0x001052b7  # lui x5, 0x00105
    .word 0x7ee28293  # addi x5, x5, 2030
    .word 0x2a512a23  # sw x5, 692(x2)
    .word 0x0010b2b7  # lui x5, 0x0010b
    .word 0xe7728293  # addi x5, x5, -393
    .word 0x2a512c23  # sw x5, 696(x2)
    .word 0x001152b7  # lui x5, 0x00115
    .word 0xeee28293  # addi x5, x5, -274
    .word 0x2a512e23  # sw x5, 700(x2)
    .word 0x0010b2b7  # lui x5, 0x0010b
    .word 0x8e728293  # addi x5, x5, -1817
    .word 0x2c512023  # sw x5, 704(x2)
    .word 0x001332b7  # lui x5, 0x00133
    .word 0xe8828293  # addi x5, x5, -376
    .word 0x2c512223  # sw x5, 708(x2)
    .word 0x001652b7  # lui x5, 0x00165
    .word 0xeee28293  # addi x5, x5, -274
    .word 0x2c512423  # sw x5, 712(x2)
    .word 0x001332b7  # lui x5, 0x00133
    .word 0xee828293  # addi x5, x5, -280
    .word 0x2c512623  # sw x5, 716(x2)
    .word 0x001032b7  # lui x5, 0x00103
    .word 0xee428293  # addi x5, x5, -284
    .word 0x2c512823  # sw x5, 720(x2)
    .word 0x001012b7  # lui x5, 0x00101
    .word 0x91328293  # addi x5, x5, -1773
    .word 0x2c512a23  # sw x5, 724(x2)
    .word 0x001012b7  # lui x5, 0x00101
    .word 0x99e28293  # addi x5, x5, -1634
    .word 0x2c512c23  # sw x5, 728(x2)
    .word 0x000022b7  # lui x5, 0x00002
    .word 0xc9028293  # addi x5, x5, -880
    .word 0x2c512e23  # sw x5, 732(x2)
    .word 0x001012b7  # lui x5, 0x00101
    .word 0xcc228293  # addi x5, x5, -830
    .word 0x2e512023  # sw x5, 736(x2)
    .word 0x003012b7  # lui x5, 0x00301
    .word 0xdc128293  # addi x5, x5, -575
    .word 0x2e512223  # sw x5, 740(x2)
    .word 0x002012b7  # lui x5, 0x00201
    .word 0xec128293  # addi x5, x5, -319
    .word 0x2e512423  # sw x5, 744(x2)
    .word 0x001012b7  # lui x5, 0x00101
    .word 0xddb28293  # addi x5, x5, -549
    .word 0x2e512623  # sw x5, 748(x2)
    .word 0x001012b7  # lui x5, 0x00101
    .word 0xeeb28293  # addi x5, x5, -277
    .word 0x2e512823  # sw x5, 752(x2)
    .word 0x001002b7  # lui x5, 0x00100
    .word 0x59f28293  # addi x5, x5, 1439
    .word 0x2e512a23  # sw x5, 756(x2)
    .word 0x004012b7  # lui x5, 0x00401
    .word 0x90028293  # addi x5, x5, -1792
    .word 0x2e512c23  # sw x5, 760(x2)
    .word 0x004002b7  # lui x5, 0x00400
    .word 0x50028293  # addi x5, x5, 1280
    .word 0x2e512e23  # sw x5, 764(x2)
    .word 0x004012b7  # lui x5, 0x00401
    .word 0xd0028293  # addi x5, x5, -768
    .word 0x30512023  # sw x5, 768(x2)
    .word 0x004012b7  # lui x5, 0x00401
    .word 0xe0028293  # addi x5, x5, -512
    .word 0x30512223  # sw x5, 772(x2)
    .word 0x01f14283  # lbu x5, 31(x2)
    .word 0x0072d293  # srli x5, x5, 7
    .word 0x0ff2f293  # andi x5, x5, 255
    .word 0xfff28293  # addi x5, x5, -1
    .word 0x0012b293  # sltiu x5, x5, 1
    .word 0x32512223  # sw x5, 804(x2)
    .word 0x06012283  # lw x5, 96(x2)
    .word 0x00014303  # lbu x6, 0(x2)
    .word 0x0062e2b3  # or x5, x5, x6
    .word 0x06512023  # sw x5, 96(x2)
    .word 0x06012283  # lw x5, 96(x2)
    .word 0x00114303  # lbu x6, 1(x2)
    .word 0x00831313  # slli x6, x6, 8
    .word 0x0062e2b3  # or x5, x5, x6
    .word 0x06512023  # sw x5, 96(x2)
    .word 0x06012283  # lw x5, 96(x2)
    .word 0x00214303  # lbu x6, 2(x2)
    .word 0x01031313  # slli x6, x6, 16
    .word 0x0062e2b3  # or x5, x5, x6
    .word 0x06512023  # sw x5, 96(x2)
    .word 0x06012283  # lw x5, 96(x2)
    .word 0x00314303  # lbu x6, 3(x2)
    .word 0x01831313  # slli x6, x6, 24
    .word 0x0062e2b3  # or x5, x5, x6
    .word 0x06512023  # sw x5, 96(x2)
    .word 0x06012283  # lw x5, 96(x2)
    .word 0x06512023  # sw x5, 96(x2)
    .word 0x06012283  # lw x5, 96(x2)
    .word 0x01328293  # addi x5, x5, 19
    .word 0x0132b293  # sltiu x5, x5, 19
    .word 0x30512423  # sw x5, 776(x2)
    .word 0x135982b7  # lui x5, 0x13598
    .word 0x8a328293  # addi x5, x5, -1885
    .word 0x1a512023  # sw x5, 416(x2)
    .word 0x4a0ea2b7  # lui x5, 0x4a0ea
    .word 0x0b028293  # addi x5, x5, 176
    .word 0x24512023  # sw x5, 576(x2)
    .word 0x06412283  # lw x5, 100(x2)
    .word 0x00414303  # lbu x6, 4(x2)
    .word 0x0062e2b3  # or x5, x5, x6
    .word 0x06512223  # sw x5, 100(x2)
    .word 0x06412283  # lw x5, 100(x2)
    .word 0x00514303  # lbu x6, 5(x2)
    .word 0x00831313  # slli x6, x6, 8
    .word 0x0062e2b3  # or x5, x5, x6
    .word 0x06512223  # sw x5, 100(x2)
    .word 0x06412283  # lw x5, 100(x2)
    .word 0x00614303  # lbu x6, 6(x2)
    .word 0x01031313  # slli x6, x6, 16
    .word 0x0062e2b3  # or x5, x5, x6
    .word 0x06512223  # sw x5, 100(x2)
    .word 0x06412283  # lw x5, 100(x2)
    .word 0x00714303  # lbu x6, 7(x2)
    .word 0x01831313  # slli x6, x6, 24
    .word 0x0062e2b3  # or x5, x5, x6
    .word 0x06512223  # sw x5, 100(x2)
    .word 0x06412283  # lw x5, 100(x2)
    .word 0x06512223  # sw x5, 100(x2)
    .word 0x06412283  # lw x5, 100(x2)
    .word 0x30812303  # lw x6, 776(x2)
    .word 0x006282b3  # add x5, x5, x6
    .word 0x30812303  # lw x6, 776(x2)
    .word 0x0062b2b3  # sltu x5, x5, x6
    .word 0x30512423  # sw x5, 776(x2)
    .word 0x75eb52b7  # lui x5, 0x75eb5
    .word 0xdca28293  # addi x5, x5, -566
    .word 0x1a512223  # sw x5, 420(x2)
    .word 0xc4ee22b7  # lui x5, 0xc4ee2
    .word 0xb2728293  # addi x5, x5, -1241
    .word 0x24512223  # sw x5, 580(x2)
    .word 0x06812283  # lw x5, 104(x2)
    .word 0x00814303  # lbu x6, 8(x2)
    .word 0x0062e2b3  # or x5, x5, x6
    .word 0x06512423  # sw x5, 104(x2)
    .word 0x06812283  # lw x5, 104(x2)
    .word 0x00914303  # lbu x6, 9(x2)
    .word 0x00831313  # slli x6, x6, 8
    .word 0x0062e2b3  # or x5, x5, x6
    .word 0x06512423  # sw x5, 104(x2)
    .word 0x06812283  # lw x5, 104(x2)
    .word 0x00a14303  # lbu x6, 10(x2)
    .word 0x01031313  # slli x6, x6, 16
    .word 0x0062e2b3  # or x5, x5, x6
    .word 0x06512423  # sw x5, 104(x2)
    .word 0x06812283  # lw x5, 104(x2)
    .word 0x00b14303  # lbu x6, 11(x2)
    .word 0x01831313  # slli x6, x6, 24
    .word 0x0062e2b3  # or x5, x5, x6
    .word 0x06512423  # sw x5, 104(x2)
    .word 0x06812283  # lw x5, 104(x2)
    .word 0x06512423  # sw x5, 104(x2)
    .word 0x06812283  # lw x5, 104(x2)
    .word 0x30812303  # lw x6, 776(x2)
    .word 0x006282b3  # add x5, x5, x6
    .word 0x30812303  # lw x6, 776(x2)
    .word 0x0062b2b3  # sltu x5, x5, x6
    .word 0x30512423  # sw x5, 776(x2)
    .word 0x4141e2b7  # lui x5, 0x4141e
    .word 0x8ab28293  # addi x5, x5, -1877
    .word 0x1a512423  # sw x5, 424(x2)
    .word 0xad2fe2b7  # lui x5, 0xad2fe
    .word 0x47828293  # addi x5, x5, 1144
    .word 0x24512423  # sw x5, 584(x2)
    .word 0x06c12283  # lw x5, 108(x2)
    .word 0x00c14303  # lbu x6, 12(x2)
    .word 0x0062e2b3  # or x5, x5, x6
    .word 0x06512623  # sw x5, 108(x2)
    .word 0x06c12283  # lw x5, 108(x2)
    .word 0x00d14303  # lbu x6, 13(x2)
    .word 0x00831313  # slli x6, x6, 8
    .word 0x0062e2b3  # or x5, x5, x6
    .word 0x06512623  # sw x5, 108(x2)
    .word 0x06c12283  # lw x5, 108(x2)
    .word 0x00e14303  # lbu x6, 14(x2)
    .word 0x01031313  # slli x6, x6, 16
    .word 0x0062e2b3  # or x5, x5, x6
    .word 0x06512623  # sw x5, 108(x2)
    .word 0x06c12283  # lw x5, 108(x2)
    .word 0x00f14303  # lbu x6, 15(x2)
    .word 0x01831313  # slli x6, x6, 24
    .word 0x0062e2b3  # or x5, x5, x6
    .word 0x06512623  # sw x5, 108(x2)
    .word 0x06c12283  # lw x5, 108(x2)
    .word 0x06512623  # sw x5, 108(x2)
    .word 0x06c12283  # lw x5, 108(x2)
    .word 0x30812303  # lw x6, 776(x2)
    .word 0x006282b3  # add x5, x5, x6
    .word 0x30812303  # lw x6, 776(x2)
    .word 0x0062b2b3  # sltu x5, x5, x6
    .word 0x30512423  # sw x5, 776(x2)
    .word 0x007012b7  # lui x5, 0x00701
    .word 0xa4d28293  # addi x5, x5, -1459
    .word 0x1a512623  # sw x5, 428(x2)
    .word 0x2f4322b7  # lui x5, 0x2f432
    .word 0x80628293  # addi x5, x5, -2042
    .word 0x24512623  # sw x5, 588(x2)
    .word 0x07012283  # lw x5, 112(x2)
    .word 0x01014303  # lbu x6, 16(x2)
    .word 0x0062e2b3  # or x5, x5, x6
    .word 0x06512823  # sw x5, 112(x2)
    .word 0x07012283  # lw x5, 112(x2)
    .word 0x01114303  # lbu x6, 17(x2)
    .word 0x00831313  # slli x6, x6, 8
    .word 0x0062e2b3  # or x5, x5, x6
    .word 0x06512823  # sw x5, 112(x2)
    .word 0x07012283  # lw x5, 112(x2)
    .word 0x01214303  # lbu x6, 18(x2)
    .word 0x01031313  # slli x6, x6, 16
    .word 0x0062e2b3  # or x5, x5, x6
    .word 0x06512823  # sw x5, 112(x2)
    .word 0x07012283  # lw x5, 112(x2)
    .word 0x01314303  # lbu x6, 19(x2)
    .word 0x01831313  # slli x6, x6, 24
    .word 0x0062e2b3  # or x5, x5, x6
    .word 0x06512823  # sw x5, 112(x2)
    .word 0x07012283  # lw x5, 112(x2)
    .word 0x06512823  # sw x5, 112(x2)
    .word 0x07012283  # lw x5, 112(x2)
    .word 0x30812303  # lw x6, 776(x2)
    .word 0x006282b3  # add x5, x5, x6
    .word 0x30812303  # lw x6, 776(x2)
    .word 0x0062b2b3  # sltu x5, x5, x6
    .word 0x30512423  # sw x5, 776(x2)
    .word 0x7779f2b7  # lui x5, 0x7779f
    .word 0x89828293  # addi x5, x5, -1896
    .word 0x1a512823  # sw x5, 432(x2)
    .word 0x3dfbd2b7  # lui x5, 0x3dfbd
    .word 0x7a728293  # addi x5, x5, 1959
    .word 0x24512823  # sw x5, 592(x2)
    .word 0x07412283  # lw x5, 116(x2)
    .word 0x01414303  # lbu x6, 20(x2)
    .word 0x0062e2b3  # or x5, x5, x6
    .word 0x06512a23  # sw x5, 116(x2)
    .word 0x07412283  # lw x5, 116(x2)
    .word 0x01514303  # lbu x6, 21(x2)
    .word 0x00831313  # slli x6, x6, 8
    .word 0x0062e2b3  # or x5, x5, x6
    .word 0x06512a23  # sw x5, 116(x2)
    .word 0x07412283  # lw x5, 116(x2)
    .word 0x01614303  # lbu x6, 22(x2)
    .word 0x01031313  # slli x6, x6, 16
    .word 0x0062e2b3  # or x5, x5, x6
    .word 0x06512a23  # sw x5, 116(x2)
    .word 0x07412283  # lw x5, 116(x2)
    .word 0x01714303  # lbu x6, 23(x2)
    .word 0x01831313  # slli x6, x6, 24
    .word 0x0062e2b3  # or x5, x5, x6
    .word 0x06512a23  # sw x5, 116(x2)
    .word 0x07412283  # lw x5, 116(x2)
    .word 0x06512a23  # sw x5, 116(x2)
    .word 0x07412283  # lw x5, 116(x2)
    .word 0x30812303  # lw x6, 776(x2)
    .word 0x006282b3  # add x5, x5, x6
    .word 0x30812303  # lw x6, 776(x2)
    .word 0x0062b2b3  # sltu x5, x5, x6
    .word 0x30512423  # sw x5, 776(x2)
    .word 0x8cc742b7  # lui x5, 0x8cc74
    .word 0x07928293  # addi x5, x5, 121
    .word 0x1a512a23  # sw x5, 436(x2)
    .word 0x2b4d02b7  # lui x5, 0x2b4d0
    .word 0x09928293  # addi x5, x5, 153
    .word 0x24512a23  # sw x5, 596(x2)
    .word 0x07812283  # lw x5, 120(x2)
    .word 0x01814303  # lbu x6, 24(x2)
    .word 0x0062e2b3  # or x5, x5, x6
    .word 0x06512c23  # sw x5, 120(x2)
    .word 0x07812283  # lw x5, 120(x2)
    .word 0x01914303  # lbu x6, 25(x2)
    .word 0x00831313  # slli x6, x6, 8
    .word 0x0062e2b3  # or x5, x5, x6
    .word 0x06512c23  # sw x5, 120(x2)
    .word 0x07812283  # lw x5, 120(x2)
    .word 0x01a14303  # lbu x6, 26(x2)
    .word 0x01031313  # slli x6, x6, 16
    .word 0x0062e2b3  # or x5, x5, x6
    .word 0x06512c23  # sw x5, 120(x2)
    .word 0x07812283  # lw x5, 120(x2)
    .word 0x01b14303  # lbu x6, 27(x2)
    .word 0x01831313  # slli x6, x6, 24
    .word 0x0062e2b3  # or x5, x5, x6
    .word 0x06512c23  # sw x5, 120(x2)
    .word 0x07812283  # lw x5, 120(x2)
    .word 0x06512c23  # sw x5, 120(x2)
    .word 0x07812283  # lw x5, 120(x2)
    .word 0x30812303  # lw x6, 776(x2)
    .word 0x006282b3  # add x5, x5, x6
    .word 0x30812303  # lw x6, 776(x2)
    .word 0x0062b2b3  # sltu x5, x5, x6
    .word 0x30512423  # sw x5, 776(x2)
    .word 0x2b7002b7  # lui x5, 0x2b700
    .word 0xe7328293  # addi x5, x5, -397
    .word 0x1a512c23  # sw x5, 440(x2)
    .word 0x4fc1e2b7  # lui x5, 0x4fc1e
    .word 0xf0b28293  # addi x5, x5, -245
    .word 0x24512c23  # sw x5, 600(x2)
    .word 0x07c12283  # lw x5, 124(x2)
    .word 0x01c14303  # lbu x6, 28(x2)
    .word 0x0062e2b3  # or x5, x5, x6
    .word 0x06512e23  # sw x5, 124(x2)
    .word 0x07c12283  # lw x5, 124(x2)
    .word 0x01d14303  # lbu x6, 29(x2)
    .word 0x00831313  # slli x6, x6, 8
    .word 0x0062e2b3  # or x5, x5, x6
    .word 0x06512e23  # sw x5, 124(x2)
    .word 0x07c12283  # lw x5, 124(x2)
    .word 0x01e14303  # lbu x6, 30(x2)
    .word 0x01031313  # slli x6, x6, 16
    .word 0x0062e2b3  # or x5, x5, x6
    .word 0x06512e23  # sw x5, 124(x2)
    .word 0x07c12283  # lw x5, 124(x2)
    .word 0x01f14303  # lbu x6, 31(x2)
    .word 0x01831313  # slli x6, x6, 24
    .word 0x0062e2b3  # or x5, x5, x6
    .word 0x06512e23  # sw x5, 124(x2)
    .word 0x07c12283  # lw x5, 124(x2)
    .word 0x33c12303  # lw x6, 828(x2)
    .word 0x0062f2b3  # and x5, x5, x6
    .word 0x06512e23  # sw x5, 124(x2)
    .word 0x07c12283  # lw x5, 124(x2)
    .word 0x30812303  # lw x6, 776(x2)
    .word 0x006282b3  # add x5, x5, x6
    .word 0x30812303  # lw x6, 776(x2)
    .word 0x0062b2b3  # sltu x5, x5, x6
    .word 0x07c12303  # lw x6, 124(x2)
    .word 0x30812383  # lw x7, 776(x2)
    .word 0x00730333  # add x6, x6, x7
    .word 0x01f35313  # srli x6, x6, 31
    .word 0x006282b3  # add x5, x5, x6
    .word 0x30512423  # sw x5, 776(x2)
    .word 0x520372b7  # lui x5, 0x52037
    .word 0xcee28293  # addi x5, x5, -786
    .word 0x1a512e23  # sw x5, 444(x2)
    .word 0x2b8322b7  # lui x5, 0x2b832
    .word 0x48028293  # addi x5, x5, 1152
    .word 0x24512e23  # sw x5, 604(x2)
    .word 0x00100293  # addi x5, x0, 1
    .word 0x1c512023  # sw x5, 448(x2)
    .word 0x34012223  # sw x0, 836(x2)
    .word 0x02200293  # addi x5, x0, 34
    .word 0x34512423  # sw x5, 840(x2)
    .word 0x34412303  # lw x6, 836(x2)
    .word 0x34812283  # lw x5, 840(x2)
    .word 0x005332b3  # sltu x5, x6, x5
    .word 0x00029463  # bne x5, x0, 8
    .word 0x27c0106f  # jal x0, 4732
    .word 0x30612623  # sw x6, 780(x2)
    .word 0x00130313  # addi x6, x6, 1
    .word 0x34612223  # sw x6, 836(x2)
    .word 0x30c12283  # lw x5, 780(x2)
    .word 0x00229293  # slli x5, x5, 2
    .word 0x002282b3  # add x5, x5, x2
    .word 0x2802a283  # lw x5, 640(x5)
    .word 0x30512c23  # sw x5, 792(x2)
    .word 0x31812283  # lw x5, 792(x2)
    .word 0x0142d293  # srli x5, x5, 20
    .word 0x30512823  # sw x5, 784(x2)
    .word 0x31812283  # lw x5, 792(x2)
    .word 0x0052d293  # srli x5, x5, 5
    .word 0x0782f293  # andi x5, x5, 120
    .word 0x30512e23  # sw x5, 796(x2)
    .word 0x31812283  # lw x5, 792(x2)
    .word 0x0012d293  # srli x5, x5, 1
    .word 0x0782f693  # andi x13, x5, 120
    .word 0x31812283  # lw x5, 792(x2)
    .word 0x00329293  # slli x5, x5, 3
    .word 0x0782f513  # andi x10, x5, 120
    .word 0x00251493  # slli x9, x10, 2
    .word 0x002484b3  # add x9, x9, x2
    .word 0x31012283  # lw x5, 784(x2)
    .word 0x00200313  # addi x6, x0, 2
    .word 0x3c62f0e3  # bgeu x5, x6, 3008
    .word 0x31812283  # lw x5, 792(x2)
    .word 0x00c2d293  # srli x5, x5, 12
    .word 0x07f2f293  # andi x5, x5, 127
    .word 0x30512a23  # sw x5, 788(x2)
    .word 0x00269893  # slli x17, x13, 2
    .word 0x002888b3  # add x17, x17, x2
    .word 0x0608a883  # lw x17, 96(x17)
    .word 0x00269913  # slli x18, x13, 2
    .word 0x00290933  # add x18, x18, x2
    .word 0x06492903  # lw x18, 100(x18)
    .word 0x00269993  # slli x19, x13, 2
    .word 0x002989b3  # add x19, x19, x2
    .word 0x0689a983  # lw x19, 104(x19)
    .word 0x00269a13  # slli x20, x13, 2
    .word 0x002a0a33  # add x20, x20, x2
    .word 0x06ca2a03  # lw x20, 108(x20)
    .word 0x00269293  # slli x5, x13, 2
    .word 0x002282b3  # add x5, x5, x2
    .word 0x0702a283  # lw x5, 112(x5)
    .word 0x32512423  # sw x5, 808(x2)
    .word 0x00269293  # slli x5, x13, 2
    .word 0x002282b3  # add x5, x5, x2
    .word 0x0742a283  # lw x5, 116(x5)
    .word 0x32512623  # sw x5, 812(x2)
    .word 0x00269293  # slli x5, x13, 2
    .word 0x002282b3  # add x5, x5, x2
    .word 0x0782a283  # lw x5, 120(x5)
    .word 0x32512823  # sw x5, 816(x2)
    .word 0x00269293  # slli x5, x13, 2
    .word 0x002282b3  # add x5, x5, x2
    .word 0x07c2a283  # lw x5, 124(x5)
    .word 0x32512a23  # sw x5, 820(x2)
    .word 0x01300293  # addi x5, x0, 19
    .word 0x33412303  # lw x6, 820(x2)
    .word 0x01f35313  # srli x6, x6, 31
    .word 0x02628733  # mul x14, x5, x6
    .word 0x33412283  # lw x5, 820(x2)
    .word 0x33c12303  # lw x6, 828(x2)
    .word 0x0062f2b3  # and x5, x5, x6
    .word 0x32512a23  # sw x5, 820(x2)
    .word 0x00e888b3  # add x17, x17, x14
    .word 0x00e8b733  # sltu x14, x17, x14
    .word 0x00e90933  # add x18, x18, x14
    .word 0x00e93733  # sltu x14, x18, x14
    .word 0x00e989b3  # add x19, x19, x14
    .word 0x00e9b733  # sltu x14, x19, x14
    .word 0x00ea0a33  # add x20, x20, x14
    .word 0x00ea3733  # sltu x14, x20, x14
    .word 0x32812283  # lw x5, 808(x2)
    .word 0x00e282b3  # add x5, x5, x14
    .word 0x32512423  # sw x5, 808(x2)
    .word 0x32812283  # lw x5, 808(x2)
    .word 0x00e2b733  # sltu x14, x5, x14
    .word 0x32c12283  # lw x5, 812(x2)
    .word 0x00e282b3  # add x5, x5, x14
    .word 0x32512623  # sw x5, 812(x2)
    .word 0x32c12283  # lw x5, 812(x2)
    .word 0x00e2b733  # sltu x14, x5, x14
    .word 0x33012283  # lw x5, 816(x2)
    .word 0x00e282b3  # add x5, x5, x14
    .word 0x32512823  # sw x5, 816(x2)
    .word 0x33012283  # lw x5, 816(x2)
    .word 0x00e2b733  # sltu x14, x5, x14
    .word 0x33412283  # lw x5, 820(x2)
    .word 0x00e282b3  # add x5, x5, x14
    .word 0x32512a23  # sw x5, 820(x2)
    .word 0x01300313  # addi x6, x0, 19
    .word 0x33412383  # lw x7, 820(x2)
    .word 0x01f3d393  # srli x7, x7, 31
    .word 0x02730333  # mul x6, x6, x7
    .word 0x006888b3  # add x17, x17, x6
    .word 0x33412283  # lw x5, 820(x2)
    .word 0x33c12303  # lw x6, 828(x2)
    .word 0x0062f2b3  # and x5, x5, x6
    .word 0x32512a23  # sw x5, 820(x2)
    .word 0x34012623  # sw x0, 844(x2)
    .word 0x31412283  # lw x5, 788(x2)
    .word 0x31012303  # lw x6, 784(x2)
    .word 0x006282b3  # add x5, x5, x6
    .word 0x34512823  # sw x5, 848(x2)
    .word 0x34c12303  # lw x6, 844(x2)
    .word 0x35012283  # lw x5, 848(x2)
    .word 0x005332b3  # sltu x5, x6, x5
    .word 0x00029463  # bne x5, x0, 8
    .word 0x1d90006f  # jal x0, 2520
    .word 0x30612c23  # sw x6, 792(x2)
    .word 0x00130313  # addi x6, x6, 1
    .word 0x34612623  # sw x6, 844(x2)
    .word 0x00000a93  # addi x21, x0, 0
    .word 0x00000b13  # addi x22, x0, 0
    .word 0x00000b93  # addi x23, x0, 0
    .word 0x00000c13  # addi x24, x0, 0
    .word 0x00000c93  # addi x25, x0, 0
    .word 0x00000d13  # addi x26, x0, 0
    .word 0x00000d93  # addi x27, x0, 0
    .word 0x32012c23  # sw x0, 824(x2)
    .word 0x31812283  # lw x5, 792(x2)
    .word 0x31412303  # lw x6, 788(x2)
    .word 0x5e62fa63  # bgeu x5, x6, 1524
    .word 0x00199293  # slli x5, x19, 1
    .word 0x01f95313  # srli x6, x18, 31
    .word 0x0062ed33  # or x26, x5, x6
    .word 0x001a1293  # slli x5, x20, 1
    .word 0x01f9d313  # srli x6, x19, 31
    .word 0x0062ec33  # or x24, x5, x6
    .word 0x32812283  # lw x5, 808(x2)
    .word 0x00129293  # slli x5, x5, 1
    .word 0x01fa5313  # srli x6, x20, 31
    .word 0x0062eb33  # or x22, x5, x6
    .word 0x32c12283  # lw x5, 812(x2)
    .word 0x00129293  # slli x5, x5, 1
    .word 0x32812303  # lw x6, 808(x2)
    .word 0x01f35313  # srli x6, x6, 31
    .word 0x0062eab3  # or x21, x5, x6
    .word 0x33012283  # lw x5, 816(x2)
    .word 0x00129293  # slli x5, x5, 1
    .word 0x32c12303  # lw x6, 812(x2)
    .word 0x01f35313  # srli x6, x6, 31
    .word 0x0062ebb3  # or x23, x5, x6
    .word 0x33412283  # lw x5, 820(x2)
    .word 0x00129293  # slli x5, x5, 1
    .word 0x33012303  # lw x6, 816(x2)
    .word 0x01f35313  # srli x6, x6, 31
    .word 0x0062ecb3  # or x25, x5, x6
    .word 0x031887b3  # mul x15, x17, x17
    .word 0x0318b733  # mulhu x14, x17, x17
    .word 0x00f7b333  # sltu x6, x15, x15
    .word 0x00670733  # add x14, x14, x6
    .word 0x00e73833  # sltu x16, x14, x14
    .word 0x26f12023  # sw x15, 608(x2)
    .word 0x00070593  # addi x11, x14, 0
    .word 0x00080613  # addi x12, x16, 0
    .word 0x00191713  # slli x14, x18, 1
    .word 0x02e887b3  # mul x15, x17, x14
    .word 0x02e8b733  # mulhu x14, x17, x14
    .word 0x00f585b3  # add x11, x11, x15
    .word 0x00f5b333  # sltu x6, x11, x15
    .word 0x00670733  # add x14, x14, x6
    .word 0x00e60633  # add x12, x12, x14
    .word 0x00e63833  # sltu x16, x12, x14
    .word 0x26b12223  # sw x11, 612(x2)
    .word 0x00060593  # addi x11, x12, 0
    .word 0x00080613  # addi x12, x16, 0
    .word 0x032907b3  # mul x15, x18, x18
    .word 0x03293733  # mulhu x14, x18, x18
    .word 0x00f585b3  # add x11, x11, x15
    .word 0x00f5b333  # sltu x6, x11, x15
    .word 0x00670733  # add x14, x14, x6
    .word 0x00e60633  # add x12, x12, x14
    .word 0x00e63833  # sltu x16, x12, x14
    .word 0x03a887b3  # mul x15, x17, x26
    .word 0x03a8b733  # mulhu x14, x17, x26
    .word 0x00f585b3  # add x11, x11, x15
    .word 0x00f5b333  # sltu x6, x11, x15
    .word 0x00670733  # add x14, x14, x6
    .word 0x00e60633  # add x12, x12, x14
    .word 0x00e63333  # sltu x6, x12, x14
    .word 0x00680833  # add x16, x16, x6
    .word 0x26b12423  # sw x11, 616(x2)
    .word 0x00060593  # addi x11, x12, 0
    .word 0x00080613  # addi x12, x16, 0
    .word 0x00199713  # slli x14, x19, 1
    .word 0x02e907b3  # mul x15, x18, x14
    .word 0x02e93733  # mulhu x14, x18, x14
    .word 0x00f585b3  # add x11, x11, x15
    .word 0x00f5b333  # sltu x6, x11, x15
    .word 0x00670733  # add x14, x14, x6
    .word 0x00e60633  # add x12, x12, x14
    .word 0x00e63833  # sltu x16, x12, x14
    .word 0x038887b3  # mul x15, x17, x24
    .word 0x0388b733  # mulhu x14, x17, x24
    .word 0x00f585b3  # add x11, x11, x15
    .word 0x00f5b333  # sltu x6, x11, x15
    .word 0x00670733  # add x14, x14, x6
    .word 0x00e60633  # add x12, x12, x14
    .word 0x00e63333  # sltu x6, x12, x14
    .word 0x00680833  # add x16, x16, x6
    .word 0x26b12623  # sw x11, 620(x2)
    .word 0x00060593  # addi x11, x12, 0
    .word 0x00080613  # addi x12, x16, 0
    .word 0x033987b3  # mul x15, x19, x19
    .word 0x0339b733  # mulhu x14, x19, x19
    .word 0x00f585b3  # add x11, x11, x15
    .word 0x00f5b333  # sltu x6, x11, x15
    .word 0x00670733  # add x14, x14, x6
    .word 0x00e60633  # add x12, x12, x14
    .word 0x00e63833  # sltu x16, x12, x14
    .word 0x038907b3  # mul x15, x18, x24
    .word 0x03893733  # mulhu x14, x18, x24
    .word 0x00f585b3  # add x11, x11, x15
    .word 0x00f5b333  # sltu x6, x11, x15
    .word 0x00670733  # add x14, x14, x6
    .word 0x00e60633  # add x12, x12, x14
    .word 0x00e63333  # sltu x6, x12, x14
    .word 0x00680833  # add x16, x16, x6
    .word 0x036887b3  # mul x15, x17, x22
    .word 0x0368b733  # mulhu x14, x17, x22
    .word 0x00f585b3  # add x11, x11, x15
    .word 0x00f5b333  # sltu x6, x11, x15
    .word 0x00670733  # add x14, x14, x6
    .word 0x00e60633  # add x12, x12, x14
    .word 0x00e63333  # sltu x6, x12, x14
    .word 0x00680833  # add x16, x16, x6
    .word 0x26b12823  # sw x11, 624(x2)
    .word 0x00060593  # addi x11, x12, 0
    .word 0x00080613  # addi x12, x16, 0
    .word 0x001a1713  # slli x14, x20, 1
    .word 0x02e987b3  # mul x15, x19, x14
    .word 0x02e9b733  # mulhu x14, x19, x14
    .word 0x00f585b3  # add x11, x11, x15
    .word 0x00f5b333  # sltu x6, x11, x15
    .word 0x00670733  # add x14, x14, x6
    .word 0x00e60633  # add x12, x12, x14
    .word 0x00e63833  # sltu x16, x12, x14
    .word 0x036907b3  # mul x15, x18, x22
    .word 0x03693733  # mulhu x14, x18, x22
    .word 0x00f585b3  # add x11, x11, x15
    .word 0x00f5b333  # sltu x6, x11, x15
    .word 0x00670733  # add x14, x14, x6
    .word 0x00e60633  # add x12, x12, x14
    .word 0x00e63333  # sltu x6, x12, x14
    .word 0x00680833  # add x16, x16, x6
    .word 0x035887b3  # mul x15, x17, x21
    .word 0x0358b733  # mulhu x14, x17, x21
    .word 0x00f585b3  # add x11, x11, x15
    .word 0x00f5b333  # sltu x6, x11, x15
    .word 0x00670733  # add x14, x14, x6
    .word 0x00e60633  # add x12, x12, x14
    .word 0x00e63333  # sltu x6, x12, x14
    .word 0x00680833  # add x16, x16, x6
    .word 0x26b12a23  # sw x11, 628(x2)
    .word 0x00060593  # addi x11, x12, 0
    .word 0x00080613  # addi x12, x16, 0
    .word 0x034a07b3  # mul x15, x20, x20
    .word 0x034a3733  # mulhu x14, x20, x20
    .word 0x00f585b3  # add x11, x11, x15
    .word 0x00f5b333  # sltu x6, x11, x15
    .word 0x00670733  # add x14, x14, x6
    .word 0x00e60633  # add x12, x12, x14
    .word 0x00e63833  # sltu x16, x12, x14
    .word 0x036987b3  # mul x15, x19, x22
    .word 0x0369b733  # mulhu x14, x19, x22
    .word 0x00f585b3  # add x11, x11, x15
    .word 0x00f5b333  # sltu x6, x11, x15
    .word 0x00670733  # add x14, x14, x6
    .word 0x00e60633  # add x12, x12, x14
    .word 0x00e63333  # sltu x6, x12, x14
    .word 0x00680833  # add x16, x16, x6
    .word 0x035907b3  # mul x15, x18, x21
    .word 0x03593733  # mulhu x14, x18, x21
    .word 0x00f585b3  # add x11, x11, x15
    .word 0x00f5b333  # sltu x6, x11, x15
    .word 0x00670733  # add x14, x14, x6
    .word 0x00e60633  # add x12, x12, x14
    .word 0x00e63333  # sltu x6, x12, x14
    .word 0x00680833  # add x16, x16, x6
    .word 0x037887b3  # mul x15, x17, x23
    .word 0x0378b733  # mulhu x14, x17, x23
    .word 0x00f585b3  # add x11, x11, x15
    .word 0x00f5b333  # sltu x6, x11, x15
    .word 0x00670733  # add x14, x14, x6
    .word 0x00e60633  # add x12, x12, x14
    .word 0x00e63333  # sltu x6, x12, x14
    .word 0x00680833  # add x16, x16, x6
    .word 0x26b12c23  # sw x11, 632(x2)
    .word 0x00060593  # addi x11, x12, 0
    .word 0x00080613  # addi x12, x16, 0
    .word 0x32812283  # lw x5, 808(x2)
    .word 0x00129713  # slli x14, x5, 1
    .word 0x02ea07b3  # mul x15, x20, x14
    .word 0x02ea3733  # mulhu x14, x20, x14
    .word 0x00f585b3  # add x11, x11, x15
    .word 0x00f5b333  # sltu x6, x11, x15
    .word 0x00670733  # add x14, x14, x6
    .word 0x00e60633  # add x12, x12, x14
    .word 0x00e63833  # sltu x16, x12, x14
    .word 0x035987b3  # mul x15, x19, x21
    .word 0x0359b733  # mulhu x14, x19, x21
    .word 0x00f585b3  # add x11, x11, x15
    .word 0x00f5b333  # sltu x6, x11, x15
    .word 0x00670733  # add x14, x14, x6
    .word 0x00e60633  # add x12, x12, x14
    .word 0x00e63333  # sltu x6, x12, x14
    .word 0x00680833  # add x16, x16, x6
    .word 0x037907b3  # mul x15, x18, x23
    .word 0x03793733  # mulhu x14, x18, x23
    .word 0x00f585b3  # add x11, x11, x15
    .word 0x00f5b333  # sltu x6, x11, x15
    .word 0x00670733  # add x14, x14, x6
    .word 0x00e60633  # add x12, x12, x14
    .word 0x00e63333  # sltu x6, x12, x14
    .word 0x00680833  # add x16, x16, x6
    .word 0x039887b3  # mul x15, x17, x25
    .word 0x0398b733  # mulhu x14, x17, x25
    .word 0x00f585b3  # add x11, x11, x15
    .word 0x00f5b333  # sltu x6, x11, x15
    .word 0x00670733  # add x14, x14, x6
    .word 0x00e60633  # add x12, x12, x14
    .word 0x00e63333  # sltu x6, x12, x14
    .word 0x00680833  # add x16, x16, x6
    .word 0x26b12e23  # sw x11, 636(x2)
    .word 0x00060593  # addi x11, x12, 0
    .word 0x00080613  # addi x12, x16, 0
    .word 0x32812283  # lw x5, 808(x2)
    .word 0x32812303  # lw x6, 808(x2)
    .word 0x026287b3  # mul x15, x5, x6
    .word 0x32812283  # lw x5, 808(x2)
    .word 0x32812303  # lw x6, 808(x2)
    .word 0x0262b733  # mulhu x14, x5, x6
    .word 0x00f585b3  # add x11, x11, x15
    .word 0x00f5b333  # sltu x6, x11, x15
    .word 0x00670733  # add x14, x14, x6
    .word 0x00e60633  # add x12, x12, x14
    .word 0x00e63833  # sltu x16, x12, x14
    .word 0x035a07b3  # mul x15, x20, x21
    .word 0x035a3733  # mulhu x14, x20, x21
    .word 0x00f585b3  # add x11, x11, x15
    .word 0x00f5b333  # sltu x6, x11, x15
    .word 0x00670733  # add x14, x14, x6
    .word 0x00e60633  # add x12, x12, x14
    .word 0x00e63333  # sltu x6, x12, x14
    .word 0x00680833  # add x16, x16, x6
    .word 0x037987b3  # mul x15, x19, x23
    .word 0x0379b733  # mulhu x14, x19, x23
    .word 0x00f585b3  # add x11, x11, x15
    .word 0x00f5b333  # sltu x6, x11, x15
    .word 0x00670733  # add x14, x14, x6
    .word 0x00e60633  # add x12, x12, x14
    .word 0x00e63333  # sltu x6, x12, x14
    .word 0x00680833  # add x16, x16, x6
    .word 0x039907b3  # mul x15, x18, x25
    .word 0x03993733  # mulhu x14, x18, x25
    .word 0x00f585b3  # add x11, x11, x15
    .word 0x00f5b333  # sltu x6, x11, x15
    .word 0x00670733  # add x14, x14, x6
    .word 0x00e60633  # add x12, x12, x14
    .word 0x00e63333  # sltu x6, x12, x14
    .word 0x00680833  # add x16, x16, x6
    .word 0x00058a93  # addi x21, x11, 0
    .word 0x00060593  # addi x11, x12, 0
    .word 0x00080613  # addi x12, x16, 0
    .word 0x32c12283  # lw x5, 812(x2)
    .word 0x00129713  # slli x14, x5, 1
    .word 0x32812283  # lw x5, 808(x2)
    .word 0x02e287b3  # mul x15, x5, x14
    .word 0x32812283  # lw x5, 808(x2)
    .word 0x02e2b733  # mulhu x14, x5, x14
    .word 0x00f585b3  # add x11, x11, x15
    .word 0x00f5b333  # sltu x6, x11, x15
    .word 0x00670733  # add x14, x14, x6
    .word 0x00e60633  # add x12, x12, x14
    .word 0x00e63833  # sltu x16, x12, x14
    .word 0x037a07b3  # mul x15, x20, x23
    .word 0x037a3733  # mulhu x14, x20, x23
    .word 0x00f585b3  # add x11, x11, x15
    .word 0x00f5b333  # sltu x6, x11, x15
    .word 0x00670733  # add x14, x14, x6
    .word 0x00e60633  # add x12, x12, x14
    .word 0x00e63333  # sltu x6, x12, x14
    .word 0x00680833  # add x16, x16, x6
    .word 0x039987b3  # mul x15, x19, x25
    .word 0x0399b733  # mulhu x14, x19, x25
    .word 0x00f585b3  # add x11, x11, x15
    .word 0x00f5b333  # sltu x6, x11, x15
    .word 0x00670733  # add x14, x14, x6
    .word 0x00e60633  # add x12, x12, x14
    .word 0x00e63333  # sltu x6, x12, x14
    .word 0x00680833  # add x16, x16, x6
    .word 0x00058b13  # addi x22, x11, 0
    .word 0x00060593  # addi x11, x12, 0
    .word 0x00080613  # addi x12, x16, 0
    .word 0x32c12283  # lw x5, 812(x2)
    .word 0x32c12303  # lw x6, 812(x2)
    .word 0x026287b3  # mul x15, x5, x6
    .word 0x32c12283  # lw x5, 812(x2)
    .word 0x32c12303  # lw x6, 812(x2)
    .word 0x0262b733  # mulhu x14, x5, x6
    .word 0x00f585b3  # add x11, x11, x15
    .word 0x00f5b333  # sltu x6, x11, x15
    .word 0x00670733  # add x14, x14, x6
    .word 0x00e60633  # add x12, x12, x14
    .word 0x00e63833  # sltu x16, x12, x14
    .word 0x32812283  # lw x5, 808(x2)
    .word 0x037287b3  # mul x15, x5, x23
    .word 0x32812283  # lw x5, 808(x2)
    .word 0x0372b733  # mulhu x14, x5, x23
    .word 0x00f585b3  # add x11, x11, x15
    .word 0x00f5b333  # sltu x6, x11, x15
    .word 0x00670733  # add x14, x14, x6
    .word 0x00e60633  # add x12, x12, x14
    .word 0x00e63333  # sltu x6, x12, x14
    .word 0x00680833  # add x16, x16, x6
    .word 0x039a07b3  # mul x15, x20, x25
    .word 0x039a3733  # mulhu x14, x20, x25
    .word 0x00f585b3  # add x11, x11, x15
    .word 0x00f5b333  # sltu x6, x11, x15
    .word 0x00670733  # add x14, x14, x6
    .word 0x00e60633  # add x12, x12, x14
    .word 0x00e63333  # sltu x6, x12, x14
    .word 0x00680833  # add x16, x16, x6
    .word 0x00058b93  # addi x23, x11, 0
    .word 0x00060593  # addi x11, x12, 0
    .word 0x00080613  # addi x12, x16, 0
    .word 0x33012283  # lw x5, 816(x2)
    .word 0x00129713  # slli x14, x5, 1
    .word 0x32c12283  # lw x5, 812(x2)
    .word 0x02e287b3  # mul x15, x5, x14
    .word 0x32c12283  # lw x5, 812(x2)
    .word 0x02e2b733  # mulhu x14, x5, x14
    .word 0x00f585b3  # add x11, x11, x15
    .word 0x00f5b333  # sltu x6, x11, x15
    .word 0x00670733  # add x14, x14, x6
    .word 0x00e60633  # add x12, x12, x14
    .word 0x00e63833  # sltu x16, x12, x14
    .word 0x32812283  # lw x5, 808(x2)
    .word 0x039287b3  # mul x15, x5, x25
    .word 0x32812283  # lw x5, 808(x2)
    .word 0x0392b733  # mulhu x14, x5, x25
    .word 0x00f585b3  # add x11, x11, x15
    .word 0x00f5b333  # sltu x6, x11, x15
    .word 0x00670733  # add x14, x14, x6
    .word 0x00e60633  # add x12, x12, x14
    .word 0x00e63333  # sltu x6, x12, x14
    .word 0x00680833  # add x16, x16, x6
    .word 0x00058c13  # addi x24, x11, 0
    .word 0x00060593  # addi x11, x12, 0
    .word 0x00080613  # addi x12, x16, 0
    .word 0x33012283  # lw x5, 816(x2)
    .word 0x33012303  # lw x6, 816(x2)
    .word 0x026287b3  # mul x15, x5, x6
    .word 0x33012283  # lw x5, 816(x2)
    .word 0x33012303  # lw x6, 816(x2)
    .word 0x0262b733  # mulhu x14, x5, x6
    .word 0x00f585b3  # add x11, x11, x15
    .word 0x00f5b333  # sltu x6, x11, x15
    .word 0x00670733  # add x14, x14, x6
    .word 0x00e60633  # add x12, x12, x14
    .word 0x00e63833  # sltu x16, x12, x14
    .word 0x32c12283  # lw x5, 812(x2)
    .word 0x039287b3  # mul x15, x5, x25
    .word 0x32c12283  # lw x5, 812(x2)
    .word 0x0392b733  # mulhu x14, x5, x25
    .word 0x00f585b3  # add x11, x11, x15
    .word 0x00f5b333  # sltu x6, x11, x15
    .word 0x00670733  # add x14, x14, x6
    .word 0x00e60633  # add x12, x12, x14
    .word 0x00e63333  # sltu x6, x12, x14
    .word 0x00680833  # add x16, x16, x6
    .word 0x00058c93  # addi x25, x11, 0
    .word 0x00060593  # addi x11, x12, 0
    .word 0x00080613  # addi x12, x16, 0
    .word 0x33412283  # lw x5, 820(x2)
    .word 0x00129713  # slli x14, x5, 1
    .word 0x33012283  # lw x5, 816(x2)
    .word 0x02e287b3  # mul x15, x5, x14
    .word 0x33012283  # lw x5, 816(x2)
    .word 0x02e2b733  # mulhu x14, x5, x14
    .word 0x00f585b3  # add x11, x11, x15
    .word 0x00f5b333  # sltu x6, x11, x15
    .word 0x00670733  # add x14, x14, x6
    .word 0x00e60633  # add x12, x12, x14
    .word 0x00e63833  # sltu x16, x12, x14
    .word 0x00058d13  # addi x26, x11, 0
    .word 0x00060593  # addi x11, x12, 0
    .word 0x00080613  # addi x12, x16, 0
    .word 0x33412283  # lw x5, 820(x2)
    .word 0x33412303  # lw x6, 820(x2)
    .word 0x026287b3  # mul x15, x5, x6
    .word 0x33412283  # lw x5, 820(x2)
    .word 0x33412303  # lw x6, 820(x2)
    .word 0x0262b733  # mulhu x14, x5, x6
    .word 0x00f585b3  # add x11, x11, x15
    .word 0x00f5b333  # sltu x6, x11, x15
    .word 0x00670733  # add x14, x14, x6
    .word 0x00e60633  # add x12, x12, x14
    .word 0x00058d93  # addi x27, x11, 0
    .word 0x00060593  # addi x11, x12, 0
    .word 0x32b12c23  # sw x11, 824(x2)
    .word 0x1780006f  # jal x0, 376
    .word 0x27112023  # sw x17, 608(x2)
    .word 0x27212223  # sw x18, 612(x2)
    .word 0x27312423  # sw x19, 616(x2)
    .word 0x27412623  # sw x20, 620(x2)
    .word 0x32812283  # lw x5, 808(x2)
    .word 0x26512823  # sw x5, 624(x2)
    .word 0x32c12283  # lw x5, 812(x2)
    .word 0x26512a23  # sw x5, 628(x2)
    .word 0x33012283  # lw x5, 816(x2)
    .word 0x26512c23  # sw x5, 632(x2)
    .word 0x33412283  # lw x5, 820(x2)
    .word 0x26512e23  # sw x5, 636(x2)
    .word 0xfff00693  # addi x13, x0, -1
    .word 0x00168693  # addi x13, x13, 1
    .word 0x00269593  # slli x11, x13, 2
    .word 0x002585b3  # add x11, x11, x2
    .word 0x2605a583  # lw x11, 608(x11)
    .word 0x0604a703  # lw x14, 96(x9)
    .word 0x02e587b3  # mul x15, x11, x14
    .word 0x02e5b833  # mulhu x16, x11, x14
    .word 0x00fa8733  # add x14, x21, x15
    .word 0x00269293  # slli x5, x13, 2
    .word 0x002282b3  # add x5, x5, x2
    .word 0x26e2a023  # sw x14, 608(x5)
    .word 0x00f73333  # sltu x6, x14, x15
    .word 0x00680633  # add x12, x16, x6
    .word 0x0644a703  # lw x14, 100(x9)
    .word 0x02e587b3  # mul x15, x11, x14
    .word 0x02e5b833  # mulhu x16, x11, x14
    .word 0x00fb0733  # add x14, x22, x15
    .word 0x00c70ab3  # add x21, x14, x12
    .word 0x00f73333  # sltu x6, x14, x15
    .word 0x006802b3  # add x5, x16, x6
    .word 0x00cab333  # sltu x6, x21, x12
    .word 0x00628633  # add x12, x5, x6
    .word 0x0684a703  # lw x14, 104(x9)
    .word 0x02e587b3  # mul x15, x11, x14
    .word 0x02e5b833  # mulhu x16, x11, x14
    .word 0x00fb8733  # add x14, x23, x15
    .word 0x00c70b33  # add x22, x14, x12
    .word 0x00f73333  # sltu x6, x14, x15
    .word 0x006802b3  # add x5, x16, x6
    .word 0x00cb3333  # sltu x6, x22, x12
    .word 0x00628633  # add x12, x5, x6
    .word 0x06c4a703  # lw x14, 108(x9)
    .word 0x02e587b3  # mul x15, x11, x14
    .word 0x02e5b833  # mulhu x16, x11, x14
    .word 0x00fc0733  # add x14, x24, x15
    .word 0x00c70bb3  # add x23, x14, x12
    .word 0x00f73333  # sltu x6, x14, x15
    .word 0x006802b3  # add x5, x16, x6
    .word 0x00cbb333  # sltu x6, x23, x12
    .word 0x00628633  # add x12, x5, x6
    .word 0x0704a703  # lw x14, 112(x9)
    .word 0x02e587b3  # mul x15, x11, x14
    .word 0x02e5b833  # mulhu x16, x11, x14
    .word 0x00fc8733  # add x14, x25, x15
    .word 0x00c70c33  # add x24, x14, x12
    .word 0x00f73333  # sltu x6, x14, x15
    .word 0x006802b3  # add x5, x16, x6
    .word 0x00cc3333  # sltu x6, x24, x12
    .word 0x00628633  # add x12, x5, x6
    .word 0x0744a703  # lw x14, 116(x9)
    .word 0x02e587b3  # mul x15, x11, x14
    .word 0x02e5b833  # mulhu x16, x11, x14
    .word 0x00fd0733  # add x14, x26, x15
    .word 0x00c70cb3  # add x25, x14, x12
    .word 0x00f73333  # sltu x6, x14, x15
    .word 0x006802b3  # add x5, x16, x6
    .word 0x00ccb333  # sltu x6, x25, x12
    .word 0x00628633  # add x12, x5, x6
    .word 0x0784a703  # lw x14, 120(x9)
    .word 0x02e587b3  # mul x15, x11, x14
    .word 0x02e5b833  # mulhu x16, x11, x14
    .word 0x00fd8733  # add x14, x27, x15
    .word 0x00c70d33  # add x26, x14, x12
    .word 0x00f73333  # sltu x6, x14, x15
    .word 0x006802b3  # add x5, x16, x6
    .word 0x00cd3333  # sltu x6, x26, x12
    .word 0x00628633  # add x12, x5, x6
    .word 0x07c4a703  # lw x14, 124(x9)
    .word 0x02e587b3  # mul x15, x11, x14
    .word 0x02e5b833  # mulhu x16, x11, x14
    .word 0x33812283  # lw x5, 824(x2)
    .word 0x00f28733  # add x14, x5, x15
    .word 0x00c70db3  # add x27, x14, x12
    .word 0x00f73333  # sltu x6, x14, x15
    .word 0x006802b3  # add x5, x16, x6
    .word 0x00cdb333  # sltu x6, x27, x12
    .word 0x00628633  # add x12, x5, x6
    .word 0x32c12c23  # sw x12, 824(x2)
    .word 0xff968293  # addi x5, x13, -7
    .word 0xec0292e3  # bne x5, x0, -316
    .word 0x02600313  # addi x6, x0, 38
    .word 0x026a85b3  # mul x11, x21, x6
    .word 0x02600313  # addi x6, x0, 38
    .word 0x026ab7b3  # mulhu x15, x21, x6
    .word 0x26012283  # lw x5, 608(x2)
    .word 0x00b28633  # add x12, x5, x11
    .word 0x00060893  # addi x17, x12, 0
    .word 0x00b63333  # sltu x6, x12, x11
    .word 0x00678733  # add x14, x15, x6
    .word 0x02600313  # addi x6, x0, 38
    .word 0x026b05b3  # mul x11, x22, x6
    .word 0x02600313  # addi x6, x0, 38
    .word 0x026b37b3  # mulhu x15, x22, x6
    .word 0x26412283  # lw x5, 612(x2)
    .word 0x00b28633  # add x12, x5, x11
    .word 0x00e60933  # add x18, x12, x14
    .word 0x00b63333  # sltu x6, x12, x11
    .word 0x006782b3  # add x5, x15, x6
    .word 0x00e93333  # sltu x6, x18, x14
    .word 0x00628733  # add x14, x5, x6
    .word 0x02600313  # addi x6, x0, 38
    .word 0x026b85b3  # mul x11, x23, x6
    .word 0x02600313  # addi x6, x0, 38
    .word 0x026bb7b3  # mulhu x15, x23, x6
    .word 0x26812283  # lw x5, 616(x2)
    .word 0x00b28633  # add x12, x5, x11
    .word 0x00e609b3  # add x19, x12, x14
    .word 0x00b63333  # sltu x6, x12, x11
    .word 0x006782b3  # add x5, x15, x6
    .word 0x00e9b333  # sltu x6, x19, x14
    .word 0x00628733  # add x14, x5, x6
    .word 0x02600313  # addi x6, x0, 38
    .word 0x026c05b3  # mul x11, x24, x6
    .word 0x02600313  # addi x6, x0, 38
    .word 0x026c37b3  # mulhu x15, x24, x6
    .word 0x26c12283  # lw x5, 620(x2)
    .word 0x00b28633  # add x12, x5, x11
    .word 0x00e60a33  # add x20, x12, x14
    .word 0x00b63333  # sltu x6, x12, x11
    .word 0x006782b3  # add x5, x15, x6
    .word 0x00ea3333  # sltu x6, x20, x14
    .word 0x00628733  # add x14, x5, x6
    .word 0x02600313  # addi x6, x0, 38
    .word 0x026c85b3  # mul x11, x25, x6
    .word 0x02600313  # addi x6, x0, 38
    .word 0x026cb7b3  # mulhu x15, x25, x6
    .word 0x27012283  # lw x5, 624(x2)
    .word 0x00b28633  # add x12, x5, x11
    .word 0x00e602b3  # add x5, x12, x14
    .word 0x32512423  # sw x5, 808(x2)
    .word 0x00b63333  # sltu x6, x12, x11
    .word 0x006782b3  # add x5, x15, x6
    .word 0x32812303  # lw x6, 808(x2)
    .word 0x00e33333  # sltu x6, x6, x14
    .word 0x00628733  # add x14, x5, x6
    .word 0x02600313  # addi x6, x0, 38
    .word 0x026d05b3  # mul x11, x26, x6
    .word 0x02600313  # addi x6, x0, 38
    .word 0x026d37b3  # mulhu x15, x26, x6
    .word 0x27412283  # lw x5, 628(x2)
    .word 0x00b28633  # add x12, x5, x11
    .word 0x00e602b3  # add x5, x12, x14
    .word 0x32512623  # sw x5, 812(x2)
    .word 0x00b63333  # sltu x6, x12, x11
    .word 0x006782b3  # add x5, x15, x6
    .word 0x32c12303  # lw x6, 812(x2)
    .word 0x00e33333  # sltu x6, x6, x14
    .word 0x00628733  # add x14, x5, x6
    .word 0x02600313  # addi x6, x0, 38
    .word 0x026d85b3  # mul x11, x27, x6
    .word 0x02600313  # addi x6, x0, 38
    .word 0x026db7b3  # mulhu x15, x27, x6
    .word 0x27812283  # lw x5, 632(x2)
    .word 0x00b28633  # add x12, x5, x11
    .word 0x00e602b3  # add x5, x12, x14
    .word 0x32512823  # sw x5, 816(x2)
    .word 0x00b63333  # sltu x6, x12, x11
    .word 0x006782b3  # add x5, x15, x6
    .word 0x33012303  # lw x6, 816(x2)
    .word 0x00e33333  # sltu x6, x6, x14
    .word 0x00628733  # add x14, x5, x6
    .word 0x33812283  # lw x5, 824(x2)
    .word 0x02600313  # addi x6, x0, 38
    .word 0x026285b3  # mul x11, x5, x6
    .word 0x33812283  # lw x5, 824(x2)
    .word 0x02600313  # addi x6, x0, 38
    .word 0x0262b7b3  # mulhu x15, x5, x6
    .word 0x27c12283  # lw x5, 636(x2)
    .word 0x00b28633  # add x12, x5, x11
    .word 0x00e602b3  # add x5, x12, x14
    .word 0x32512a23  # sw x5, 820(x2)
    .word 0x00b63333  # sltu x6, x12, x11
    .word 0x006782b3  # add x5, x15, x6
    .word 0x33412303  # lw x6, 820(x2)
    .word 0x00e33333  # sltu x6, x6, x14
    .word 0x00628733  # add x14, x5, x6
    .word 0x01300293  # addi x5, x0, 19
    .word 0x00171313  # slli x6, x14, 1
    .word 0x33412383  # lw x7, 820(x2)
    .word 0x01f3d393  # srli x7, x7, 31
    .word 0x00736333  # or x6, x6, x7
    .word 0x02628733  # mul x14, x5, x6
    .word 0x33412283  # lw x5, 820(x2)
    .word 0x33c12303  # lw x6, 828(x2)
    .word 0x0062f2b3  # and x5, x5, x6
    .word 0x32512a23  # sw x5, 820(x2)
    .word 0x00e888b3  # add x17, x17, x14
    .word 0x00e8b733  # sltu x14, x17, x14
    .word 0x00e90933  # add x18, x18, x14
    .word 0x00e93733  # sltu x14, x18, x14
    .word 0x00e989b3  # add x19, x19, x14
    .word 0x00e9b733  # sltu x14, x19, x14
    .word 0x00ea0a33  # add x20, x20, x14
    .word 0x00ea3733  # sltu x14, x20, x14
    .word 0x32812283  # lw x5, 808(x2)
    .word 0x00e282b3  # add x5, x5, x14
    .word 0x32512423  # sw x5, 808(x2)
    .word 0x32812283  # lw x5, 808(x2)
    .word 0x00e2b733  # sltu x14, x5, x14
    .word 0x32c12283  # lw x5, 812(x2)
    .word 0x00e282b3  # add x5, x5, x14
    .word 0x32512623  # sw x5, 812(x2)
    .word 0x32c12283  # lw x5, 812(x2)
    .word 0x00e2b733  # sltu x14, x5, x14
    .word 0x33012283  # lw x5, 816(x2)
    .word 0x00e282b3  # add x5, x5, x14
    .word 0x32512823  # sw x5, 816(x2)
    .word 0x33012283  # lw x5, 816(x2)
    .word 0x00e2b733  # sltu x14, x5, x14
    .word 0x33412283  # lw x5, 820(x2)
    .word 0x00e282b3  # add x5, x5, x14
    .word 0x32512a23  # sw x5, 820(x2)
    .word 0x01300313  # addi x6, x0, 19
    .word 0x33412383  # lw x7, 820(x2)
    .word 0x01f3d393  # srli x7, x7, 31
    .word 0x02730333  # mul x6, x6, x7
    .word 0x006888b3  # add x17, x17, x6
    .word 0x33412283  # lw x5, 820(x2)
    .word 0x33c12303  # lw x6, 828(x2)
    .word 0x0062f2b3  # and x5, x5, x6
    .word 0x32512a23  # sw x5, 820(x2)
    .word 0xe1cff06f  # jal x0, -2532
    .word 0x31c12283  # lw x5, 796(x2)
    .word 0x00229293  # slli x5, x5, 2
    .word 0x002282b3  # add x5, x5, x2
    .word 0x0712a023  # sw x17, 96(x5)
    .word 0x31c12283  # lw x5, 796(x2)
    .word 0x00229293  # slli x5, x5, 2
    .word 0x002282b3  # add x5, x5, x2
    .word 0x0722a223  # sw x18, 100(x5)
    .word 0x31c12283  # lw x5, 796(x2)
    .word 0x00229293  # slli x5, x5, 2
    .word 0x002282b3  # add x5, x5, x2
    .word 0x0732a423  # sw x19, 104(x5)
    .word 0x31c12283  # lw x5, 796(x2)
    .word 0x00229293  # slli x5, x5, 2
    .word 0x002282b3  # add x5, x5, x2
    .word 0x0742a623  # sw x20, 108(x5)
    .word 0x31c12283  # lw x5, 796(x2)
    .word 0x32812303  # lw x6, 808(x2)
    .word 0x00229293  # slli x5, x5, 2
    .word 0x002282b3  # add x5, x5, x2
    .word 0x0662a823  # sw x6, 112(x5)
    .word 0x31c12283  # lw x5, 796(x2)
    .word 0x32c12303  # lw x6, 812(x2)
    .word 0x00229293  # slli x5, x5, 2
    .word 0x002282b3  # add x5, x5, x2
    .word 0x0662aa23  # sw x6, 116(x5)
    .word 0x31c12283  # lw x5, 796(x2)
    .word 0x33012303  # lw x6, 816(x2)
    .word 0x00229293  # slli x5, x5, 2
    .word 0x002282b3  # add x5, x5, x2
    .word 0x0662ac23  # sw x6, 120(x5)
    .word 0x31c12283  # lw x5, 796(x2)
    .word 0x33412303  # lw x6, 820(x2)
    .word 0x00229293  # slli x5, x5, 2
    .word 0x002282b3  # add x5, x5, x2
    .word 0x0662ae23  # sw x6, 124(x5)
    .word 0x6540006f  # jal x0, 1620
    .word 0x31012283  # lw x5, 784(x2)
    .word 0x00200313  # addi x6, x0, 2
    .word 0x22629463  # bne x5, x6, 552
    .word 0x00269593  # slli x11, x13, 2
    .word 0x002585b3  # add x11, x11, x2
    .word 0x0605a583  # lw x11, 96(x11)
    .word 0x0604a303  # lw x6, 96(x9)
    .word 0x00658633  # add x12, x11, x6
    .word 0x00060813  # addi x16, x12, 0
    .word 0x00b63733  # sltu x14, x12, x11
    .word 0x00269593  # slli x11, x13, 2
    .word 0x002585b3  # add x11, x11, x2
    .word 0x0645a583  # lw x11, 100(x11)
    .word 0x0644a303  # lw x6, 100(x9)
    .word 0x00658633  # add x12, x11, x6
    .word 0x00e608b3  # add x17, x12, x14
    .word 0x00b632b3  # sltu x5, x12, x11
    .word 0x00e8b333  # sltu x6, x17, x14
    .word 0x00628733  # add x14, x5, x6
    .word 0x00269593  # slli x11, x13, 2
    .word 0x002585b3  # add x11, x11, x2
    .word 0x0685a583  # lw x11, 104(x11)
    .word 0x0684a303  # lw x6, 104(x9)
    .word 0x00658633  # add x12, x11, x6
    .word 0x00e60933  # add x18, x12, x14
    .word 0x00b632b3  # sltu x5, x12, x11
    .word 0x00e93333  # sltu x6, x18, x14
    .word 0x00628733  # add x14, x5, x6
    .word 0x00269593  # slli x11, x13, 2
    .word 0x002585b3  # add x11, x11, x2
    .word 0x06c5a583  # lw x11, 108(x11)
    .word 0x06c4a303  # lw x6, 108(x9)
    .word 0x00658633  # add x12, x11, x6
    .word 0x00e609b3  # add x19, x12, x14
    .word 0x00b632b3  # sltu x5, x12, x11
    .word 0x00e9b333  # sltu x6, x19, x14
    .word 0x00628733  # add x14, x5, x6
    .word 0x00269593  # slli x11, x13, 2
    .word 0x002585b3  # add x11, x11, x2
    .word 0x0705a583  # lw x11, 112(x11)
    .word 0x0704a303  # lw x6, 112(x9)
    .word 0x00658633  # add x12, x11, x6
    .word 0x00e60a33  # add x20, x12, x14
    .word 0x00b632b3  # sltu x5, x12, x11
    .word 0x00ea3333  # sltu x6, x20, x14
    .word 0x00628733  # add x14, x5, x6
    .word 0x00269593  # slli x11, x13, 2
    .word 0x002585b3  # add x11, x11, x2
    .word 0x0745a583  # lw x11, 116(x11)
    .word 0x0744a303  # lw x6, 116(x9)
    .word 0x00658633  # add x12, x11, x6
    .word 0x00e602b3  # add x5, x12, x14
    .word 0x32512423  # sw x5, 808(x2)
    .word 0x00b632b3  # sltu x5, x12, x11
    .word 0x32812303  # lw x6, 808(x2)
    .word 0x00e33333  # sltu x6, x6, x14
    .word 0x00628733  # add x14, x5, x6
    .word 0x00269593  # slli x11, x13, 2
    .word 0x002585b3  # add x11, x11, x2
    .word 0x0785a583  # lw x11, 120(x11)
    .word 0x0784a303  # lw x6, 120(x9)
    .word 0x00658633  # add x12, x11, x6
    .word 0x00e60ab3  # add x21, x12, x14
    .word 0x00b632b3  # sltu x5, x12, x11
    .word 0x00eab333  # sltu x6, x21, x14
    .word 0x00628733  # add x14, x5, x6
    .word 0x00269593  # slli x11, x13, 2
    .word 0x002585b3  # add x11, x11, x2
    .word 0x07c5a583  # lw x11, 124(x11)
    .word 0x07c4a303  # lw x6, 124(x9)
    .word 0x00658633  # add x12, x11, x6
    .word 0x00e607b3  # add x15, x12, x14
    .word 0x00b632b3  # sltu x5, x12, x11
    .word 0x00e7b333  # sltu x6, x15, x14
    .word 0x00628733  # add x14, x5, x6
    .word 0x01300293  # addi x5, x0, 19
    .word 0x00171313  # slli x6, x14, 1
    .word 0x01f7d393  # srli x7, x15, 31
    .word 0x00736333  # or x6, x6, x7
    .word 0x02628733  # mul x14, x5, x6
    .word 0x33c12303  # lw x6, 828(x2)
    .word 0x0067f7b3  # and x15, x15, x6
    .word 0x00e80833  # add x16, x16, x14
    .word 0x00e83733  # sltu x14, x16, x14
    .word 0x00e888b3  # add x17, x17, x14
    .word 0x00e8b733  # sltu x14, x17, x14
    .word 0x00e90933  # add x18, x18, x14
    .word 0x00e93733  # sltu x14, x18, x14
    .word 0x00e989b3  # add x19, x19, x14
    .word 0x00e9b733  # sltu x14, x19, x14
    .word 0x00ea0a33  # add x20, x20, x14
    .word 0x00ea3733  # sltu x14, x20, x14
    .word 0x32812283  # lw x5, 808(x2)
    .word 0x00e282b3  # add x5, x5, x14
    .word 0x32512423  # sw x5, 808(x2)
    .word 0x32812283  # lw x5, 808(x2)
    .word 0x00e2b733  # sltu x14, x5, x14
    .word 0x00ea8ab3  # add x21, x21, x14
    .word 0x00eab733  # sltu x14, x21, x14
    .word 0x00e787b3  # add x15, x15, x14
    .word 0x01300313  # addi x6, x0, 19
    .word 0x01f7d393  # srli x7, x15, 31
    .word 0x02730333  # mul x6, x6, x7
    .word 0x00680833  # add x16, x16, x6
    .word 0x33c12303  # lw x6, 828(x2)
    .word 0x0067f7b3  # and x15, x15, x6
    .word 0x31c12283  # lw x5, 796(x2)
    .word 0x00229293  # slli x5, x5, 2
    .word 0x002282b3  # add x5, x5, x2
    .word 0x0702a023  # sw x16, 96(x5)
    .word 0x31c12283  # lw x5, 796(x2)
    .word 0x00229293  # slli x5, x5, 2
    .word 0x002282b3  # add x5, x5, x2
    .word 0x0712a223  # sw x17, 100(x5)
    .word 0x31c12283  # lw x5, 796(x2)
    .word 0x00229293  # slli x5, x5, 2
    .word 0x002282b3  # add x5, x5, x2
    .word 0x0722a423  # sw x18, 104(x5)
    .word 0x31c12283  # lw x5, 796(x2)
    .word 0x00229293  # slli x5, x5, 2
    .word 0x002282b3  # add x5, x5, x2
    .word 0x0732a623  # sw x19, 108(x5)
    .word 0x31c12283  # lw x5, 796(x2)
    .word 0x00229293  # slli x5, x5, 2
    .word 0x002282b3  # add x5, x5, x2
    .word 0x0742a823  # sw x20, 112(x5)
    .word 0x31c12283  # lw x5, 796(x2)
    .word 0x32812303  # lw x6, 808(x2)
    .word 0x00229293  # slli x5, x5, 2
    .word 0x002282b3  # add x5, x5, x2
    .word 0x0662aa23  # sw x6, 116(x5)
    .word 0x31c12283  # lw x5, 796(x2)
    .word 0x00229293  # slli x5, x5, 2
    .word 0x002282b3  # add x5, x5, x2
    .word 0x0752ac23  # sw x21, 120(x5)
    .word 0x31c12283  # lw x5, 796(x2)
    .word 0x00229293  # slli x5, x5, 2
    .word 0x002282b3  # add x5, x5, x2
    .word 0x06f2ae23  # sw x15, 124(x5)
    .word 0x4240006f  # jal x0, 1060
    .word 0x31012283  # lw x5, 784(x2)
    .word 0x00300313  # addi x6, x0, 3
    .word 0x1e629863  # bne x5, x6, 496
    .word 0x00269593  # slli x11, x13, 2
    .word 0x002585b3  # add x11, x11, x2
    .word 0x0605a583  # lw x11, 96(x11)
    .word 0x0604a603  # lw x12, 96(x9)
    .word 0x40c587b3  # sub x15, x11, x12
    .word 0x00078813  # addi x16, x15, 0
    .word 0x00c5b733  # sltu x14, x11, x12
    .word 0x00269593  # slli x11, x13, 2
    .word 0x002585b3  # add x11, x11, x2
    .word 0x0645a583  # lw x11, 100(x11)
    .word 0x0644a603  # lw x12, 100(x9)
    .word 0x40c587b3  # sub x15, x11, x12
    .word 0x40e788b3  # sub x17, x15, x14
    .word 0x00c5b2b3  # sltu x5, x11, x12
    .word 0x00e7b333  # sltu x6, x15, x14
    .word 0x00628733  # add x14, x5, x6
    .word 0x00269593  # slli x11, x13, 2
    .word 0x002585b3  # add x11, x11, x2
    .word 0x0685a583  # lw x11, 104(x11)
    .word 0x0684a603  # lw x12, 104(x9)
    .word 0x40c587b3  # sub x15, x11, x12
    .word 0x40e78933  # sub x18, x15, x14
    .word 0x00c5b2b3  # sltu x5, x11, x12
    .word 0x00e7b333  # sltu x6, x15, x14
    .word 0x00628733  # add x14, x5, x6
    .word 0x00269593  # slli x11, x13, 2
    .word 0x002585b3  # add x11, x11, x2
    .word 0x06c5a583  # lw x11, 108(x11)
    .word 0x06c4a603  # lw x12, 108(x9)
    .word 0x40c587b3  # sub x15, x11, x12
    .word 0x40e789b3  # sub x19, x15, x14
    .word 0x00c5b2b3  # sltu x5, x11, x12
    .word 0x00e7b333  # sltu x6, x15, x14
    .word 0x00628733  # add x14, x5, x6
    .word 0x00269593  # slli x11, x13, 2
    .word 0x002585b3  # add x11, x11, x2
    .word 0x0705a583  # lw x11, 112(x11)
    .word 0x0704a603  # lw x12, 112(x9)
    .word 0x40c587b3  # sub x15, x11, x12
    .word 0x40e78a33  # sub x20, x15, x14
    .word 0x00c5b2b3  # sltu x5, x11, x12
    .word 0x00e7b333  # sltu x6, x15, x14
    .word 0x00628733  # add x14, x5, x6
    .word 0x00269593  # slli x11, x13, 2
    .word 0x002585b3  # add x11, x11, x2
    .word 0x0745a583  # lw x11, 116(x11)
    .word 0x0744a603  # lw x12, 116(x9)
    .word 0x40c587b3  # sub x15, x11, x12
    .word 0x40e782b3  # sub x5, x15, x14
    .word 0x32512423  # sw x5, 808(x2)
    .word 0x00c5b2b3  # sltu x5, x11, x12
    .word 0x00e7b333  # sltu x6, x15, x14
    .word 0x00628733  # add x14, x5, x6
    .word 0x00269593  # slli x11, x13, 2
    .word 0x002585b3  # add x11, x11, x2
    .word 0x0785a583  # lw x11, 120(x11)
    .word 0x0784a603  # lw x12, 120(x9)
    .word 0x40c587b3  # sub x15, x11, x12
    .word 0x40e78ab3  # sub x21, x15, x14
    .word 0x00c5b2b3  # sltu x5, x11, x12
    .word 0x00e7b333  # sltu x6, x15, x14
    .word 0x00628733  # add x14, x5, x6
    .word 0x00269593  # slli x11, x13, 2
    .word 0x002585b3  # add x11, x11, x2
    .word 0x07c5a583  # lw x11, 124(x11)
    .word 0x07c4a603  # lw x12, 124(x9)
    .word 0x40c587b3  # sub x15, x11, x12
    .word 0x40e78b33  # sub x22, x15, x14
    .word 0x00c5b2b3  # sltu x5, x11, x12
    .word 0x00e7b333  # sltu x6, x15, x14
    .word 0x00628733  # add x14, x5, x6
    .word 0x02600293  # addi x5, x0, 38
    .word 0x02e28733  # mul x14, x5, x14
    .word 0x31c12283  # lw x5, 796(x2)
    .word 0x40e80333  # sub x6, x16, x14
    .word 0x00229293  # slli x5, x5, 2
    .word 0x002282b3  # add x5, x5, x2
    .word 0x0662a023  # sw x6, 96(x5)
    .word 0x00e83733  # sltu x14, x16, x14
    .word 0x31c12283  # lw x5, 796(x2)
    .word 0x40e88333  # sub x6, x17, x14
    .word 0x00229293  # slli x5, x5, 2
    .word 0x002282b3  # add x5, x5, x2
    .word 0x0662a223  # sw x6, 100(x5)
    .word 0x00e8b733  # sltu x14, x17, x14
    .word 0x31c12283  # lw x5, 796(x2)
    .word 0x40e90333  # sub x6, x18, x14
    .word 0x00229293  # slli x5, x5, 2
    .word 0x002282b3  # add x5, x5, x2
    .word 0x0662a423  # sw x6, 104(x5)
    .word 0x00e93733  # sltu x14, x18, x14
    .word 0x31c12283  # lw x5, 796(x2)
    .word 0x40e98333  # sub x6, x19, x14
    .word 0x00229293  # slli x5, x5, 2
    .word 0x002282b3  # add x5, x5, x2
    .word 0x0662a623  # sw x6, 108(x5)
    .word 0x00e9b733  # sltu x14, x19, x14
    .word 0x31c12283  # lw x5, 796(x2)
    .word 0x40ea0333  # sub x6, x20, x14
    .word 0x00229293  # slli x5, x5, 2
    .word 0x002282b3  # add x5, x5, x2
    .word 0x0662a823  # sw x6, 112(x5)
    .word 0x00ea3733  # sltu x14, x20, x14
    .word 0x31c12283  # lw x5, 796(x2)
    .word 0x32812303  # lw x6, 808(x2)
    .word 0x40e30333  # sub x6, x6, x14
    .word 0x00229293  # slli x5, x5, 2
    .word 0x002282b3  # add x5, x5, x2
    .word 0x0662aa23  # sw x6, 116(x5)
    .word 0x32812283  # lw x5, 808(x2)
    .word 0x00e2b733  # sltu x14, x5, x14
    .word 0x31c12283  # lw x5, 796(x2)
    .word 0x40ea8333  # sub x6, x21, x14
    .word 0x00229293  # slli x5, x5, 2
    .word 0x002282b3  # add x5, x5, x2
    .word 0x0662ac23  # sw x6, 120(x5)
    .word 0x00eab733  # sltu x14, x21, x14
    .word 0x31c12283  # lw x5, 796(x2)
    .word 0x40eb0333  # sub x6, x22, x14
    .word 0x00229293  # slli x5, x5, 2
    .word 0x002282b3  # add x5, x5, x2
    .word 0x0662ae23  # sw x6, 124(x5)
    .word 0x22c0006f  # jal x0, 556
    .word 0x31c12283  # lw x5, 796(x2)
    .word 0x00229293  # slli x5, x5, 2
    .word 0x002282b3  # add x5, x5, x2
    .word 0x0602a283  # lw x5, 96(x5)
    .word 0x01328293  # addi x5, x5, 19
    .word 0x0132b713  # sltiu x14, x5, 19
    .word 0x31c12283  # lw x5, 796(x2)
    .word 0x00229293  # slli x5, x5, 2
    .word 0x002282b3  # add x5, x5, x2
    .word 0x0642a283  # lw x5, 100(x5)
    .word 0x00e282b3  # add x5, x5, x14
    .word 0x00e2b733  # sltu x14, x5, x14
    .word 0x31c12283  # lw x5, 796(x2)
    .word 0x00229293  # slli x5, x5, 2
    .word 0x002282b3  # add x5, x5, x2
    .word 0x0682a283  # lw x5, 104(x5)
    .word 0x00e282b3  # add x5, x5, x14
    .word 0x00e2b733  # sltu x14, x5, x14
    .word 0x31c12283  # lw x5, 796(x2)
    .word 0x00229293  # slli x5, x5, 2
    .word 0x002282b3  # add x5, x5, x2
    .word 0x06c2a283  # lw x5, 108(x5)
    .word 0x00e282b3  # add x5, x5, x14
    .word 0x00e2b733  # sltu x14, x5, x14
    .word 0x31c12283  # lw x5, 796(x2)
    .word 0x00229293  # slli x5, x5, 2
    .word 0x002282b3  # add x5, x5, x2
    .word 0x0702a283  # lw x5, 112(x5)
    .word 0x00e282b3  # add x5, x5, x14
    .word 0x00e2b733  # sltu x14, x5, x14
    .word 0x31c12283  # lw x5, 796(x2)
    .word 0x00229293  # slli x5, x5, 2
    .word 0x002282b3  # add x5, x5, x2
    .word 0x0742a283  # lw x5, 116(x5)
    .word 0x00e282b3  # add x5, x5, x14
    .word 0x00e2b733  # sltu x14, x5, x14
    .word 0x31c12283  # lw x5, 796(x2)
    .word 0x00229293  # slli x5, x5, 2
    .word 0x002282b3  # add x5, x5, x2
    .word 0x0782a283  # lw x5, 120(x5)
    .word 0x00e282b3  # add x5, x5, x14
    .word 0x00e2b733  # sltu x14, x5, x14
    .word 0x31c12283  # lw x5, 796(x2)
    .word 0x00229293  # slli x5, x5, 2
    .word 0x002282b3  # add x5, x5, x2
    .word 0x07c2a283  # lw x5, 124(x5)
    .word 0x00e282b3  # add x5, x5, x14
    .word 0x41f2d293  # srai x5, x5, 31
    .word 0x0132f713  # andi x14, x5, 19
    .word 0x31c12283  # lw x5, 796(x2)
    .word 0x00229293  # slli x5, x5, 2
    .word 0x002282b3  # add x5, x5, x2
    .word 0x0602a283  # lw x5, 96(x5)
    .word 0x00e285b3  # add x11, x5, x14
    .word 0x00e5b733  # sltu x14, x11, x14
    .word 0x31c12283  # lw x5, 796(x2)
    .word 0x00229293  # slli x5, x5, 2
    .word 0x002282b3  # add x5, x5, x2
    .word 0x06b2a023  # sw x11, 96(x5)
    .word 0x31c12283  # lw x5, 796(x2)
    .word 0x00229293  # slli x5, x5, 2
    .word 0x002282b3  # add x5, x5, x2
    .word 0x0642a283  # lw x5, 100(x5)
    .word 0x00e285b3  # add x11, x5, x14
    .word 0x00e5b733  # sltu x14, x11, x14
    .word 0x31c12283  # lw x5, 796(x2)
    .word 0x00229293  # slli x5, x5, 2
    .word 0x002282b3  # add x5, x5, x2
    .word 0x06b2a223  # sw x11, 100(x5)
    .word 0x31c12283  # lw x5, 796(x2)
    .word 0x00229293  # slli x5, x5, 2
    .word 0x002282b3  # add x5, x5, x2
    .word 0x0682a283  # lw x5, 104(x5)
    .word 0x00e285b3  # add x11, x5, x14
    .word 0x00e5b733  # sltu x14, x11, x14
    .word 0x31c12283  # lw x5, 796(x2)
    .word 0x00229293  # slli x5, x5, 2
    .word 0x002282b3  # add x5, x5, x2
    .word 0x06b2a423  # sw x11, 104(x5)
    .word 0x31c12283  # lw x5, 796(x2)
    .word 0x00229293  # slli x5, x5, 2
    .word 0x002282b3  # add x5, x5, x2
    .word 0x06c2a283  # lw x5, 108(x5)
    .word 0x00e285b3  # add x11, x5, x14
    .word 0x00e5b733  # sltu x14, x11, x14
    .word 0x31c12283  # lw x5, 796(x2)
    .word 0x00229293  # slli x5, x5, 2
    .word 0x002282b3  # add x5, x5, x2
    .word 0x06b2a623  # sw x11, 108(x5)
    .word 0x31c12283  # lw x5, 796(x2)
    .word 0x00229293  # slli x5, x5, 2
    .word 0x002282b3  # add x5, x5, x2
    .word 0x0702a283  # lw x5, 112(x5)
    .word 0x00e285b3  # add x11, x5, x14
    .word 0x00e5b733  # sltu x14, x11, x14
    .word 0x31c12283  # lw x5, 796(x2)
    .word 0x00229293  # slli x5, x5, 2
    .word 0x002282b3  # add x5, x5, x2
    .word 0x06b2a823  # sw x11, 112(x5)
    .word 0x31c12283  # lw x5, 796(x2)
    .word 0x00229293  # slli x5, x5, 2
    .word 0x002282b3  # add x5, x5, x2
    .word 0x0742a283  # lw x5, 116(x5)
    .word 0x00e285b3  # add x11, x5, x14
    .word 0x00e5b733  # sltu x14, x11, x14
    .word 0x31c12283  # lw x5, 796(x2)
    .word 0x00229293  # slli x5, x5, 2
    .word 0x002282b3  # add x5, x5, x2
    .word 0x06b2aa23  # sw x11, 116(x5)
    .word 0x31c12283  # lw x5, 796(x2)
    .word 0x00229293  # slli x5, x5, 2
    .word 0x002282b3  # add x5, x5, x2
    .word 0x0782a283  # lw x5, 120(x5)
    .word 0x00e285b3  # add x11, x5, x14
    .word 0x00e5b733  # sltu x14, x11, x14
    .word 0x31c12283  # lw x5, 796(x2)
    .word 0x00229293  # slli x5, x5, 2
    .word 0x002282b3  # add x5, x5, x2
    .word 0x06b2ac23  # sw x11, 120(x5)
    .word 0x31c12283  # lw x5, 796(x2)
    .word 0x00229293  # slli x5, x5, 2
    .word 0x002282b3  # add x5, x5, x2
    .word 0x07c2a283  # lw x5, 124(x5)
    .word 0x00e285b3  # add x11, x5, x14
    .word 0x31c12283  # lw x5, 796(x2)
    .word 0x00229293  # slli x5, x5, 2
    .word 0x002282b3  # add x5, x5, x2
    .word 0x06b2ae23  # sw x11, 124(x5)
    .word 0x31c12283  # lw x5, 796(x2)
    .word 0x31c12303  # lw x6, 796(x2)
    .word 0x00231313  # slli x6, x6, 2
    .word 0x00230333  # add x6, x6, x2
    .word 0x07c32303  # lw x6, 124(x6)
    .word 0x33c12383  # lw x7, 828(x2)
    .word 0x00737333  # and x6, x6, x7
    .word 0x00229293  # slli x5, x5, 2
    .word 0x002282b3  # add x5, x5, x2
    .word 0x0662ae23  # sw x6, 124(x5)
    .word 0xd79fe06f  # jal x0, -4744
    .word 0x20012703  # lw x14, 512(x2)
    .word 0x22012583  # lw x11, 544(x2)
    .word 0x20412303  # lw x6, 516(x2)
    .word 0x00676733  # or x14, x14, x6
    .word 0x22412303  # lw x6, 548(x2)
    .word 0x0065e5b3  # or x11, x11, x6
    .word 0x20812303  # lw x6, 520(x2)
    .word 0x00676733  # or x14, x14, x6
    .word 0x22812303  # lw x6, 552(x2)
    .word 0x0065e5b3  # or x11, x11, x6
    .word 0x20c12303  # lw x6, 524(x2)
    .word 0x00676733  # or x14, x14, x6
    .word 0x22c12303  # lw x6, 556(x2)
    .word 0x0065e5b3  # or x11, x11, x6
    .word 0x21012303  # lw x6, 528(x2)
    .word 0x00676733  # or x14, x14, x6
    .word 0x23012303  # lw x6, 560(x2)
    .word 0x0065e5b3  # or x11, x11, x6
    .word 0x21412303  # lw x6, 532(x2)
    .word 0x00676733  # or x14, x14, x6
    .word 0x23412303  # lw x6, 564(x2)
    .word 0x0065e5b3  # or x11, x11, x6
    .word 0x21812303  # lw x6, 536(x2)
    .word 0x00676733  # or x14, x14, x6
    .word 0x23812303  # lw x6, 568(x2)
    .word 0x0065e5b3  # or x11, x11, x6
    .word 0x21c12303  # lw x6, 540(x2)
    .word 0x00676733  # or x14, x14, x6
    .word 0x23c12303  # lw x6, 572(x2)
    .word 0x0065e5b3  # or x11, x11, x6
    .word 0x00173293  # sltiu x5, x14, 1
    .word 0x18012303  # lw x6, 384(x2)
    .word 0x10012383  # lw x7, 256(x2)
    .word 0x405002b3  # sub x5, x0, x5
    .word 0x00734333  # xor x6, x6, x7
    .word 0x00537333  # and x6, x6, x5
    .word 0x0063c2b3  # xor x5, x7, x6
    .word 0x18512023  # sw x5, 384(x2)
    .word 0x18012603  # lw x12, 384(x2)
    .word 0x00173293  # sltiu x5, x14, 1
    .word 0x18412303  # lw x6, 388(x2)
    .word 0x10412383  # lw x7, 260(x2)
    .word 0x405002b3  # sub x5, x0, x5
    .word 0x00734333  # xor x6, x6, x7
    .word 0x00537333  # and x6, x6, x5
    .word 0x0063c2b3  # xor x5, x7, x6
    .word 0x18512223  # sw x5, 388(x2)
    .word 0x18412303  # lw x6, 388(x2)
    .word 0x00666633  # or x12, x12, x6
    .word 0x00173293  # sltiu x5, x14, 1
    .word 0x18812303  # lw x6, 392(x2)
    .word 0x10812383  # lw x7, 264(x2)
    .word 0x405002b3  # sub x5, x0, x5
    .word 0x00734333  # xor x6, x6, x7
    .word 0x00537333  # and x6, x6, x5
    .word 0x0063c2b3  # xor x5, x7, x6
    .word 0x18512423  # sw x5, 392(x2)
    .word 0x18812303  # lw x6, 392(x2)
    .word 0x00666633  # or x12, x12, x6
    .word 0x00173293  # sltiu x5, x14, 1
    .word 0x18c12303  # lw x6, 396(x2)
    .word 0x10c12383  # lw x7, 268(x2)
    .word 0x405002b3  # sub x5, x0, x5
    .word 0x00734333  # xor x6, x6, x7
    .word 0x00537333  # and x6, x6, x5
    .word 0x0063c2b3  # xor x5, x7, x6
    .word 0x18512623  # sw x5, 396(x2)
    .word 0x18c12303  # lw x6, 396(x2)
    .word 0x00666633  # or x12, x12, x6
    .word 0x00173293  # sltiu x5, x14, 1
    .word 0x19012303  # lw x6, 400(x2)
    .word 0x11012383  # lw x7, 272(x2)
    .word 0x405002b3  # sub x5, x0, x5
    .word 0x00734333  # xor x6, x6, x7
    .word 0x00537333  # and x6, x6, x5
    .word 0x0063c2b3  # xor x5, x7, x6
    .word 0x18512823  # sw x5, 400(x2)
    .word 0x19012303  # lw x6, 400(x2)
    .word 0x00666633  # or x12, x12, x6
    .word 0x00173293  # sltiu x5, x14, 1
    .word 0x19412303  # lw x6, 404(x2)
    .word 0x11412383  # lw x7, 276(x2)
    .word 0x405002b3  # sub x5, x0, x5
    .word 0x00734333  # xor x6, x6, x7
    .word 0x00537333  # and x6, x6, x5
    .word 0x0063c2b3  # xor x5, x7, x6
    .word 0x18512a23  # sw x5, 404(x2)
    .word 0x19412303  # lw x6, 404(x2)
    .word 0x00666633  # or x12, x12, x6
    .word 0x00173293  # sltiu x5, x14, 1
    .word 0x19812303  # lw x6, 408(x2)
    .word 0x11812383  # lw x7, 280(x2)
    .word 0x405002b3  # sub x5, x0, x5
    .word 0x00734333  # xor x6, x6, x7
    .word 0x00537333  # and x6, x6, x5
    .word 0x0063c2b3  # xor x5, x7, x6
    .word 0x18512c23  # sw x5, 408(x2)
    .word 0x19812303  # lw x6, 408(x2)
    .word 0x00666633  # or x12, x12, x6
    .word 0x00173293  # sltiu x5, x14, 1
    .word 0x19c12303  # lw x6, 412(x2)
    .word 0x11c12383  # lw x7, 284(x2)
    .word 0x405002b3  # sub x5, x0, x5
    .word 0x00734333  # xor x6, x6, x7
    .word 0x00537333  # and x6, x6, x5
    .word 0x0063c2b3  # xor x5, x7, x6
    .word 0x18512e23  # sw x5, 412(x2)
    .word 0x19c12303  # lw x6, 412(x2)
    .word 0x00666633  # or x12, x12, x6
    .word 0x30812283  # lw x5, 776(x2)
    .word 0x0012b293  # sltiu x5, x5, 1
    .word 0x00173313  # sltiu x6, x14, 1
    .word 0x0015b393  # sltiu x7, x11, 1
    .word 0x00736333  # or x6, x6, x7
    .word 0x0062f2b3  # and x5, x5, x6
    .word 0x00c03333  # sltu x6, x0, x12
    .word 0x32412383  # lw x7, 804(x2)
    .word 0x0013b393  # sltiu x7, x7, 1
    .word 0x00736333  # or x6, x6, x7
    .word 0x0062f2b3  # and x5, x5, x6
    .word 0x32512023  # sw x5, 800(x2)
    .word 0x18012283  # lw x5, 384(x2)
    .word 0x0012f293  # andi x5, x5, 1
    .word 0xfff28293  # addi x5, x5, -1
    .word 0x0012b293  # sltiu x5, x5, 1
    .word 0x32412303  # lw x6, 804(x2)
    .word 0x406282b3  # sub x5, x5, x6
    .word 0x005032b3  # sltu x5, x0, x5
    .word 0x32512223  # sw x5, 804(x2)
    .word 0x000002b7  # lui x5, 0x00000
    .word 0xfed28293  # addi x5, x5, -19
    .word 0x18012303  # lw x6, 384(x2)
    .word 0x40628733  # sub x14, x5, x6
    .word 0x18012283  # lw x5, 384(x2)
    .word 0xfee2b613  # sltiu x12, x5, -18
    .word 0x00163613  # sltiu x12, x12, 1
    .word 0x32012283  # lw x5, 800(x2)
    .word 0x32412303  # lw x6, 804(x2)
    .word 0x18012403  # lw x8, 384(x2)
    .word 0x40600333  # sub x6, x0, x6
    .word 0x008743b3  # xor x7, x14, x8
    .word 0x0063f3b3  # and x7, x7, x6
    .word 0x00744333  # xor x6, x8, x7
    .word 0x405002b3  # sub x5, x0, x5
    .word 0x00537733  # and x14, x6, x5
    .word 0x32012283  # lw x5, 800(x2)
    .word 0x06012303  # lw x6, 96(x2)
    .word 0x405002b3  # sub x5, x0, x5
    .word 0x005375b3  # and x11, x6, x5
    .word 0xfff00693  # addi x13, x0, -1
    .word 0x00168693  # addi x13, x13, 1
    .word 0x00369393  # slli x7, x13, 3
    .word 0x00775333  # srl x6, x14, x7
    .word 0x002682b3  # add x5, x13, x2
    .word 0x02628023  # sb x6, 32(x5)
    .word 0x02068293  # addi x5, x13, 32
    .word 0x00369393  # slli x7, x13, 3
    .word 0x0075d333  # srl x6, x11, x7
    .word 0x002282b3  # add x5, x5, x2
    .word 0x02628023  # sb x6, 32(x5)
    .word 0xffd68293  # addi x5, x13, -3
    .word 0xfc029ae3  # bne x5, x0, -44
    .word 0x000002b7  # lui x5, 0x00000
    .word 0xfff28293  # addi x5, x5, -1
    .word 0x18412303  # lw x6, 388(x2)
    .word 0x40628733  # sub x14, x5, x6
    .word 0x40c705b3  # sub x11, x14, x12
    .word 0x18412283  # lw x5, 388(x2)
    .word 0x00000337  # lui x6, 0x00000
    .word 0xfff30313  # addi x6, x6, -1
    .word 0x005332b3  # sltu x5, x6, x5
    .word 0x00c73333  # sltu x6, x14, x12
    .word 0x00628633  # add x12, x5, x6
    .word 0x32012283  # lw x5, 800(x2)
    .word 0x32412303  # lw x6, 804(x2)
    .word 0x18412403  # lw x8, 388(x2)
    .word 0x40600333  # sub x6, x0, x6
    .word 0x0085c3b3  # xor x7, x11, x8
    .word 0x0063f3b3  # and x7, x7, x6
    .word 0x00744333  # xor x6, x8, x7
    .word 0x405002b3  # sub x5, x0, x5
    .word 0x00537733  # and x14, x6, x5
    .word 0x32012283  # lw x5, 800(x2)
    .word 0x06412303  # lw x6, 100(x2)
    .word 0x405002b3  # sub x5, x0, x5
    .word 0x005375b3  # and x11, x6, x5
    .word 0xfff00693  # addi x13, x0, -1
    .word 0x00168693  # addi x13, x13, 1
    .word 0x00468293  # addi x5, x13, 4
    .word 0x00369393  # slli x7, x13, 3
    .word 0x00775333  # srl x6, x14, x7
    .word 0x002282b3  # add x5, x5, x2
    .word 0x02628023  # sb x6, 32(x5)
    .word 0x02468293  # addi x5, x13, 36
    .word 0x00369393  # slli x7, x13, 3
    .word 0x0075d333  # srl x6, x11, x7
    .word 0x002282b3  # add x5, x5, x2
    .word 0x02628023  # sb x6, 32(x5)
    .word 0xffd68293  # addi x5, x13, -3
    .word 0xfc0298e3  # bne x5, x0, -48
    .word 0x000002b7  # lui x5, 0x00000
    .word 0xfff28293  # addi x5, x5, -1
    .word 0x18812303  # lw x6, 392(x2)
    .word 0x40628733  # sub x14, x5, x6
    .word 0x40c705b3  # sub x11, x14, x12
    .word 0x18812283  # lw x5, 392(x2)
    .word 0x00000337  # lui x6, 0x00000
    .word 0xfff30313  # addi x6, x6, -1
    .word 0x005332b3  # sltu x5, x6, x5
    .word 0x00c73333  # sltu x6, x14, x12
    .word 0x00628633  # add x12, x5, x6
    .word 0x32012283  # lw x5, 800(x2)
    .word 0x32412303  # lw x6, 804(x2)
    .word 0x18812403  # lw x8, 392(x2)
    .word 0x40600333  # sub x6, x0, x6
    .word 0x0085c3b3  # xor x7, x11, x8
    .word 0x0063f3b3  # and x7, x7, x6
    .word 0x00744333  # xor x6, x8, x7
    .word 0x405002b3  # sub x5, x0, x5
    .word 0x00537733  # and x14, x6, x5
    .word 0x32012283  # lw x5, 800(x2)
    .word 0x06812303  # lw x6, 104(x2)
    .word 0x405002b3  # sub x5, x0, x5
    .word 0x005375b3  # and x11, x6, x5
    .word 0xfff00693  # addi x13, x0, -1
    .word 0x00168693  # addi x13, x13, 1
    .word 0x00868293  # addi x5, x13, 8
    .word 0x00369393  # slli x7, x13, 3
    .word 0x00775333  # srl x6, x14, x7
    .word 0x002282b3  # add x5, x5, x2
    .word 0x02628023  # sb x6, 32(x5)
    .word 0x02868293  # addi x5, x13, 40
    .word 0x00369393  # slli x7, x13, 3
    .word 0x0075d333  # srl x6, x11, x7
    .word 0x002282b3  # add x5, x5, x2
    .word 0x02628023  # sb x6, 32(x5)
    .word 0xffd68293  # addi x5, x13, -3
    .word 0xfc0298e3  # bne x5, x0, -48
    .word 0x000002b7  # lui x5, 0x00000
    .word 0xfff28293  # addi x5, x5, -1
    .word 0x18c12303  # lw x6, 396(x2)
    .word 0x40628733  # sub x14, x5, x6
    .word 0x40c705b3  # sub x11, x14, x12
    .word 0x18c12283  # lw x5, 396(x2)
    .word 0x00000337  # lui x6, 0x00000
    .word 0xfff30313  # addi x6, x6, -1
    .word 0x005332b3  # sltu x5, x6, x5
    .word 0x00c73333  # sltu x6, x14, x12
    .word 0x00628633  # add x12, x5, x6
    .word 0x32012283  # lw x5, 800(x2)
    .word 0x32412303  # lw x6, 804(x2)
    .word 0x18c12403  # lw x8, 396(x2)
    .word 0x40600333  # sub x6, x0, x6
    .word 0x0085c3b3  # xor x7, x11, x8
    .word 0x0063f3b3  # and x7, x7, x6
    .word 0x00744333  # xor x6, x8, x7
    .word 0x405002b3  # sub x5, x0, x5
    .word 0x00537733  # and x14, x6, x5
    .word 0x32012283  # lw x5, 800(x2)
    .word 0x06c12303  # lw x6, 108(x2)
    .word 0x405002b3  # sub x5, x0, x5
    .word 0x005375b3  # and x11, x6, x5
    .word 0xfff00693  # addi x13, x0, -1
    .word 0x00168693  # addi x13, x13, 1
    .word 0x00c68293  # addi x5, x13, 12
    .word 0x00369393  # slli x7, x13, 3
    .word 0x00775333  # srl x6, x14, x7
    .word 0x002282b3  # add x5, x5, x2
    .word 0x02628023  # sb x6, 32(x5)
    .word 0x02c68293  # addi x5, x13, 44
    .word 0x00369393  # slli x7, x13, 3
    .word 0x0075d333  # srl x6, x11, x7
    .word 0x002282b3  # add x5, x5, x2
    .word 0x02628023  # sb x6, 32(x5)
    .word 0xffd68293  # addi x5, x13, -3
    .word 0xfc0298e3  # bne x5, x0, -48
    .word 0x000002b7  # lui x5, 0x00000
    .word 0xfff28293  # addi x5, x5, -1
    .word 0x19012303  # lw x6, 400(x2)
    .word 0x40628733  # sub x14, x5, x6
    .word 0x40c705b3  # sub x11, x14, x12
    .word 0x19012283  # lw x5, 400(x2)
    .word 0x00000337  # lui x6, 0x00000
    .word 0xfff30313  # addi x6, x6, -1
    .word 0x005332b3  # sltu x5, x6, x5
    .word 0x00c73333  # sltu x6, x14, x12
    .word 0x00628633  # add x12, x5, x6
    .word 0x32012283  # lw x5, 800(x2)
    .word 0x32412303  # lw x6, 804(x2)
    .word 0x19012403  # lw x8, 400(x2)
    .word 0x40600333  # sub x6, x0, x6
    .word 0x0085c3b3  # xor x7, x11, x8
    .word 0x0063f3b3  # and x7, x7, x6
    .word 0x00744333  # xor x6, x8, x7
    .word 0x405002b3  # sub x5, x0, x5
    .word 0x00537733  # and x14, x6, x5
    .word 0x32012283  # lw x5, 800(x2)
    .word 0x07012303  # lw x6, 112(x2)
    .word 0x405002b3  # sub x5, x0, x5
    .word 0x005375b3  # and x11, x6, x5
    .word 0xfff00693  # addi x13, x0, -1
    .word 0x00168693  # addi x13, x13, 1
    .word 0x01068293  # addi x5, x13, 16
    .word 0x00369393  # slli x7, x13, 3
    .word 0x00775333  # srl x6, x14, x7
    .word 0x002282b3  # add x5, x5, x2
    .word 0x02628023  # sb x6, 32(x5)
    .word 0x03068293  # addi x5, x13, 48
    .word 0x00369393  # slli x7, x13, 3
    .word 0x0075d333  # srl x6, x11, x7
    .word 0x002282b3  # add x5, x5, x2
    .word 0x02628023  # sb x6, 32(x5)
    .word 0xffd68293  # addi x5, x13, -3
    .word 0xfc0298e3  # bne x5, x0, -48
    .word 0x000002b7  # lui x5, 0x00000
    .word 0xfff28293  # addi x5, x5, -1
    .word 0x19412303  # lw x6, 404(x2)
    .word 0x40628733  # sub x14, x5, x6
    .word 0x40c705b3  # sub x11, x14, x12
    .word 0x19412283  # lw x5, 404(x2)
    .word 0x00000337  # lui x6, 0x00000
    .word 0xfff30313  # addi x6, x6, -1
    .word 0x005332b3  # sltu x5, x6, x5
    .word 0x00c73333  # sltu x6, x14, x12
    .word 0x00628633  # add x12, x5, x6
    .word 0x32012283  # lw x5, 800(x2)
    .word 0x32412303  # lw x6, 804(x2)
    .word 0x19412403  # lw x8, 404(x2)
    .word 0x40600333  # sub x6, x0, x6
    .word 0x0085c3b3  # xor x7, x11, x8
    .word 0x0063f3b3  # and x7, x7, x6
    .word 0x00744333  # xor x6, x8, x7
    .word 0x405002b3  # sub x5, x0, x5
    .word 0x00537733  # and x14, x6, x5
    .word 0x32012283  # lw x5, 800(x2)
    .word 0x07412303  # lw x6, 116(x2)
    .word 0x405002b3  # sub x5, x0, x5
    .word 0x005375b3  # and x11, x6, x5
    .word 0xfff00693  # addi x13, x0, -1
    .word 0x00168693  # addi x13, x13, 1
    .word 0x01468293  # addi x5, x13, 20
    .word 0x00369393  # slli x7, x13, 3
    .word 0x00775333  # srl x6, x14, x7
    .word 0x002282b3  # add x5, x5, x2
    .word 0x02628023  # sb x6, 32(x5)
    .word 0x03468293  # addi x5, x13, 52
    .word 0x00369393  # slli x7, x13, 3
    .word 0x0075d333  # srl x6, x11, x7
    .word 0x002282b3  # add x5, x5, x2
    .word 0x02628023  # sb x6, 32(x5)
    .word 0xffd68293  # addi x5, x13, -3
    .word 0xfc0298e3  # bne x5, x0, -48
    .word 0x000002b7  # lui x5, 0x00000
    .word 0xfff28293  # addi x5, x5, -1
    .word 0x19812303  # lw x6, 408(x2)
    .word 0x40628733  # sub x14, x5, x6
    .word 0x40c705b3  # sub x11, x14, x12
    .word 0x19812283  # lw x5, 408(x2)
    .word 0x00000337  # lui x6, 0x00000
    .word 0xfff30313  # addi x6, x6, -1
    .word 0x005332b3  # sltu x5, x6, x5
    .word 0x00c73333  # sltu x6, x14, x12
    .word 0x00628633  # add x12, x5, x6
    .word 0x32012283  # lw x5, 800(x2)
    .word 0x32412303  # lw x6, 804(x2)
    .word 0x19812403  # lw x8, 408(x2)
    .word 0x40600333  # sub x6, x0, x6
    .word 0x0085c3b3  # xor x7, x11, x8
    .word 0x0063f3b3  # and x7, x7, x6
    .word 0x00744333  # xor x6, x8, x7
    .word 0x405002b3  # sub x5, x0, x5
    .word 0x00537733  # and x14, x6, x5
    .word 0x32012283  # lw x5, 800(x2)
    .word 0x07812303  # lw x6, 120(x2)
    .word 0x405002b3  # sub x5, x0, x5
    .word 0x005375b3  # and x11, x6, x5
    .word 0xfff00693  # addi x13, x0, -1
    .word 0x00168693  # addi x13, x13, 1
    .word 0x01868293  # addi x5, x13, 24
    .word 0x00369393  # slli x7, x13, 3
    .word 0x00775333  # srl x6, x14, x7
    .word 0x002282b3  # add x5, x5, x2
    .word 0x02628023  # sb x6, 32(x5)
    .word 0x03868293  # addi x5, x13, 56
    .word 0x00369393  # slli x7, x13, 3
    .word 0x0075d333  # srl x6, x11, x7
    .word 0x002282b3  # add x5, x5, x2
    .word 0x02628023  # sb x6, 32(x5)
    .word 0xffd68293  # addi x5, x13, -3
    .word 0xfc0298e3  # bne x5, x0, -48
    .word 0x33c12283  # lw x5, 828(x2)
    .word 0x19c12303  # lw x6, 412(x2)
    .word 0x40628733  # sub x14, x5, x6
    .word 0x40c705b3  # sub x11, x14, x12
    .word 0x19c12283  # lw x5, 412(x2)
    .word 0x33c12303  # lw x6, 828(x2)
    .word 0x005332b3  # sltu x5, x6, x5
    .word 0x00c73333  # sltu x6, x14, x12
    .word 0x00628633  # add x12, x5, x6
    .word 0x32012283  # lw x5, 800(x2)
    .word 0x32412303  # lw x6, 804(x2)
    .word 0x19c12403  # lw x8, 412(x2)
    .word 0x40600333  # sub x6, x0, x6
    .word 0x0085c3b3  # xor x7, x11, x8
    .word 0x0063f3b3  # and x7, x7, x6
    .word 0x00744333  # xor x6, x8, x7
    .word 0x405002b3  # sub x5, x0, x5
    .word 0x00537733  # and x14, x6, x5
    .word 0x32012283  # lw x5, 800(x2)
    .word 0x07c12303  # lw x6, 124(x2)
    .word 0x405002b3  # sub x5, x0, x5
    .word 0x005375b3  # and x11, x6, x5
    .word 0xfff00693  # addi x13, x0, -1
    .word 0x00168693  # addi x13, x13, 1
    .word 0x01c68293  # addi x5, x13, 28
    .word 0x00369393  # slli x7, x13, 3
    .word 0x00775333  # srl x6, x14, x7
    .word 0x002282b3  # add x5, x5, x2
    .word 0x02628023  # sb x6, 32(x5)
    .word 0x03c68293  # addi x5, x13, 60
    .word 0x00369393  # slli x7, x13, 3
    .word 0x0075d333  # srl x6, x11, x7
    .word 0x002282b3  # add x5, x5, x2
    .word 0x02628023  # sb x6, 32(x5)
    .word 0xffd68293  # addi x5, x13, -3
    .word 0xfc0298e3  # bne x5, x0, -48
    .word 0x32012283  # lw x5, 800(x2)
    .word 0x34512023  # sw x5, 832(x2)
    # the result
    .word 0x34012503  # lw x10, 832(x2)
    # parameter 1: the array, back
    .word 0x02010293  # addi x5, x2, 32
    .word 0x39c12303  # lw x6, 924(x2)
    .word 0x04028393  # addi x7, x5, 64
    .word 0x09000f6f  # jal x30, 144
    # above the frame
    .word 0x36010293  # addi x5, x2, 864
    # the caller's registers
    .word 0x0002a403  # lw x8, 0(x5)
    .cfi_restore 8
    .word 0x0042a483  # lw x9, 4(x5)
    .cfi_restore 9
    .word 0x0082a903  # lw x18, 8(x5)
    .cfi_restore 18
    .word 0x00c2a983  # lw x19, 12(x5)
    .cfi_restore 19
    .word 0x0102aa03  # lw x20, 16(x5)
    .cfi_restore 20
    .word 0x0142aa83  # lw x21, 20(x5)
    .cfi_restore 21
    .word 0x0182ab03  # lw x22, 24(x5)
    .cfi_restore 22
    .word 0x01c2ab83  # lw x23, 28(x5)
    .cfi_restore 23
    .word 0x0202ac03  # lw x24, 32(x5)
    .cfi_restore 24
    .word 0x0242ac83  # lw x25, 36(x5)
    .cfi_restore 25
    .word 0x0282ad03  # lw x26, 40(x5)
    .cfi_restore 26
    .word 0x02c2ad83  # lw x27, 44(x5)
    .cfi_restore 27
    # the caller's x2
    .word 0x04028293  # addi x5, x5, 64
    .cfi_def_cfa 5, 0
    # all the room, wiped upward
    .word 0x00012023  # sw x0, 0(x2)
    .word 0x00012223  # sw x0, 4(x2)
    .word 0x00012423  # sw x0, 8(x2)
    .word 0x00012623  # sw x0, 12(x2)
    .word 0x01010113  # addi x2, x2, 16
    .word 0xfe5116e3  # bne x2, x5, -20
    .cfi_def_cfa 2, 0
    # temporaries, wiped
    .word 0x00000293  # addi x5, x0, 0
    .word 0x00000313  # addi x6, x0, 0
    .word 0x00000393  # addi x7, x0, 0
    .word 0x00000593  # addi x11, x0, 0
    .word 0x00000613  # addi x12, x0, 0
    .word 0x00000693  # addi x13, x0, 0
    .word 0x00000713  # addi x14, x0, 0
    .word 0x00000793  # addi x15, x0, 0
    .word 0x00000813  # addi x16, x0, 0
    .word 0x00000893  # addi x17, x0, 0
    .word 0x00000e13  # addi x28, x0, 0
    .word 0x00000e93  # addi x29, x0, 0
    .word 0x00000f13  # addi x30, x0, 0
    .word 0x00000f93  # addi x31, x0, 0
    # back
    .word 0x00008067  # jalr x0, 0(x1)
    # from x5 to x6 up to x7, and back
    .cfi_def_cfa 2, 928
    .cfi_offset 8, -64
    .cfi_offset 9, -60
    .cfi_offset 18, -56
    .cfi_offset 19, -52
    .cfi_offset 20, -48
    .cfi_offset 21, -44
    .cfi_offset 22, -40
    .cfi_offset 23, -36
    .cfi_offset 24, -32
    .cfi_offset 25, -28
    .cfi_offset 26, -24
    .cfi_offset 27, -20
    .word 0x0062ee33  # or x28, x5, x6
    .word 0x003e7e13  # andi x28, x28, 3
    .word 0x000e0e63  # beq x28, x0, 28
    .word 0x0002ce03  # lbu x28, 0(x5)
    .word 0x01c30023  # sb x28, 0(x6)
    .word 0x00128293  # addi x5, x5, 1
    .word 0x00130313  # addi x6, x6, 1
    .word 0xfe7298e3  # bne x5, x7, -16
    .word 0x0300006f  # jal x0, 48
    .word 0x0002ae03  # lw x28, 0(x5)
    .word 0x01c32023  # sw x28, 0(x6)
    .word 0x0042ae03  # lw x28, 4(x5)
    .word 0x01c32223  # sw x28, 4(x6)
    .word 0x0082ae03  # lw x28, 8(x5)
    .word 0x01c32423  # sw x28, 8(x6)
    .word 0x00c2ae03  # lw x28, 12(x5)
    .word 0x01c32623  # sw x28, 12(x6)
    .word 0x01028293  # addi x5, x5, 16
    .word 0x01030313  # addi x6, x6, 16
    .word 0xfc729ce3  # bne x5, x7, -40
    .word 0x000f0067  # jalr x0, 0(x30)
    .cfi_endproc
    .size ed25519_decode, . - ed25519_decode
    .option pop
