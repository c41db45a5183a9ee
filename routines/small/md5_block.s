# md5_block: made by factc 1.0.0 function; 552 words and 21 shared, 432 bytes of stack, profile 1
    .option push
    .option norvc
    .option norelax
    .cfi_sections .debug_frame
    .section .text.md5_block, "ax", @progbits
    .p2align 2
    .globl md5_block
    .type md5_block, @function
md5_block:
    .cfi_startproc
    # room above the frame
    .word 0xff010113  # addi x2, x2, -16
    .cfi_def_cfa_offset 16
    # the caller's registers
    .word 0x00812023  # sw x8, 0(x2)
    .cfi_offset 8, -16
    # arguments that are needed behind the body
    .word 0x00a12623  # sw x10, 12(x2)
    # the frame's base
    .word 0xe6010113  # addi x2, x2, -416
    .cfi_def_cfa 2, 432
    # parameter 0: an array
    .word 0x00050293  # addi x5, x10, 0
    .word 0x00010313  # addi x6, x2, 0
    .word 0x01028393  # addi x7, x5, 16
    .word 0x0002ae03  # lw x28, 0(x5)
    .word 0x01c32023  # sw x28, 0(x6)
    .word 0x00428293  # addi x5, x5, 4
    .word 0x00430313  # addi x6, x6, 4
    .word 0xfe7298e3  # bne x5, x7, -16
    # parameter 1: an array
    .word 0x00058293  # addi x5, x11, 0
    .word 0x01010313  # addi x6, x2, 16
    .word 0x04028393  # addi x7, x5, 64
    .word 0x0002ce03  # lbu x28, 0(x5)
    .word 0x01c30023  # sb x28, 0(x6)
    .word 0x00128293  # addi x5, x5, 1
    .word 0x00130313  # addi x6, x6, 1
    .word 0xfe7298e3  # bne x5, x7, -16
    # the body
    .word 0x04012823  # sw x0, 80(x2)
    .word 0x04012a23  # sw x0, 84(x2)
    .word 0x04012c23  # sw x0, 88(x2)
    .word 0x04012e23  # sw x0, 92(x2)
    .word 0x06012023  # sw x0, 96(x2)
    .word 0x06012223  # sw x0, 100(x2)
    .word 0x06012423  # sw x0, 104(x2)
    .word 0x06012623  # sw x0, 108(x2)
    .word 0x06012823  # sw x0, 112(x2)
    .word 0x06012a23  # sw x0, 116(x2)
    .word 0x06012c23  # sw x0, 120(x2)
    .word 0x06012e23  # sw x0, 124(x2)
    .word 0x08012023  # sw x0, 128(x2)
    .word 0x08012223  # sw x0, 132(x2)
    .word 0x08012423  # sw x0, 136(x2)
    .word 0x08012623  # sw x0, 140(x2)
    .word 0xfff00513  # addi x10, x0, -1
    .word 0x00150513  # addi x10, x10, 1
    .word 0x00251793  # slli x15, x10, 2
    .word 0x00279813  # slli x16, x15, 2
    .word 0x00280833  # add x16, x16, x2
    .word 0x00278333  # add x6, x15, x2
    .word 0x01034303  # lbu x6, 16(x6)
    .word 0x002783b3  # add x7, x15, x2
    .word 0x0113c383  # lbu x7, 17(x7)
    .word 0x00839393  # slli x7, x7, 8
    .word 0x00736333  # or x6, x6, x7
    .word 0x002783b3  # add x7, x15, x2
    .word 0x0123c383  # lbu x7, 18(x7)
    .word 0x01039393  # slli x7, x7, 16
    .word 0x00736333  # or x6, x6, x7
    .word 0x002783b3  # add x7, x15, x2
    .word 0x0133c383  # lbu x7, 19(x7)
    .word 0x01839393  # slli x7, x7, 24
    .word 0x00736333  # or x6, x6, x7
    .word 0x00251293  # slli x5, x10, 2
    .word 0x002282b3  # add x5, x5, x2
    .word 0x0462a823  # sw x6, 80(x5)
    .word 0xff150293  # addi x5, x10, -15
    .word 0xfa0294e3  # bne x5, x0, -88
    .word 0xd76aa2b7  # lui x5, 0xd76aa
    .word 0x47828293  # addi x5, x5, 1144
    .word 0x08512823  # sw x5, 144(x2)
    .word 0xe8c7b2b7  # lui x5, 0xe8c7b
    .word 0x75628293  # addi x5, x5, 1878
    .word 0x08512a23  # sw x5, 148(x2)
    .word 0x242072b7  # lui x5, 0x24207
    .word 0x0db28293  # addi x5, x5, 219
    .word 0x08512c23  # sw x5, 152(x2)
    .word 0xc1bdd2b7  # lui x5, 0xc1bdd
    .word 0xeee28293  # addi x5, x5, -274
    .word 0x08512e23  # sw x5, 156(x2)
    .word 0xf57c12b7  # lui x5, 0xf57c1
    .word 0xfaf28293  # addi x5, x5, -81
    .word 0x0a512023  # sw x5, 160(x2)
    .word 0x4787c2b7  # lui x5, 0x4787c
    .word 0x62a28293  # addi x5, x5, 1578
    .word 0x0a512223  # sw x5, 164(x2)
    .word 0xa83042b7  # lui x5, 0xa8304
    .word 0x61328293  # addi x5, x5, 1555
    .word 0x0a512423  # sw x5, 168(x2)
    .word 0xfd4692b7  # lui x5, 0xfd469
    .word 0x50128293  # addi x5, x5, 1281
    .word 0x0a512623  # sw x5, 172(x2)
    .word 0x6980a2b7  # lui x5, 0x6980a
    .word 0x8d828293  # addi x5, x5, -1832
    .word 0x0a512823  # sw x5, 176(x2)
    .word 0x8b44f2b7  # lui x5, 0x8b44f
    .word 0x7af28293  # addi x5, x5, 1967
    .word 0x0a512a23  # sw x5, 180(x2)
    .word 0xffff62b7  # lui x5, 0xffff6
    .word 0xbb128293  # addi x5, x5, -1103
    .word 0x0a512c23  # sw x5, 184(x2)
    .word 0x895cd2b7  # lui x5, 0x895cd
    .word 0x7be28293  # addi x5, x5, 1982
    .word 0x0a512e23  # sw x5, 188(x2)
    .word 0x6b9012b7  # lui x5, 0x6b901
    .word 0x12228293  # addi x5, x5, 290
    .word 0x0c512023  # sw x5, 192(x2)
    .word 0xfd9872b7  # lui x5, 0xfd987
    .word 0x19328293  # addi x5, x5, 403
    .word 0x0c512223  # sw x5, 196(x2)
    .word 0xa67942b7  # lui x5, 0xa6794
    .word 0x38e28293  # addi x5, x5, 910
    .word 0x0c512423  # sw x5, 200(x2)
    .word 0x49b412b7  # lui x5, 0x49b41
    .word 0x82128293  # addi x5, x5, -2015
    .word 0x0c512623  # sw x5, 204(x2)
    .word 0xf61e22b7  # lui x5, 0xf61e2
    .word 0x56228293  # addi x5, x5, 1378
    .word 0x0c512823  # sw x5, 208(x2)
    .word 0xc040b2b7  # lui x5, 0xc040b
    .word 0x34028293  # addi x5, x5, 832
    .word 0x0c512a23  # sw x5, 212(x2)
    .word 0x265e62b7  # lui x5, 0x265e6
    .word 0xa5128293  # addi x5, x5, -1455
    .word 0x0c512c23  # sw x5, 216(x2)
    .word 0xe9b6c2b7  # lui x5, 0xe9b6c
    .word 0x7aa28293  # addi x5, x5, 1962
    .word 0x0c512e23  # sw x5, 220(x2)
    .word 0xd62f12b7  # lui x5, 0xd62f1
    .word 0x05d28293  # addi x5, x5, 93
    .word 0x0e512023  # sw x5, 224(x2)
    .word 0x024412b7  # lui x5, 0x02441
    .word 0x45328293  # addi x5, x5, 1107
    .word 0x0e512223  # sw x5, 228(x2)
    .word 0xd8a1e2b7  # lui x5, 0xd8a1e
    .word 0x68128293  # addi x5, x5, 1665
    .word 0x0e512423  # sw x5, 232(x2)
    .word 0xe7d402b7  # lui x5, 0xe7d40
    .word 0xbc828293  # addi x5, x5, -1080
    .word 0x0e512623  # sw x5, 236(x2)
    .word 0x21e1d2b7  # lui x5, 0x21e1d
    .word 0xde628293  # addi x5, x5, -538
    .word 0x0e512823  # sw x5, 240(x2)
    .word 0xc33702b7  # lui x5, 0xc3370
    .word 0x7d628293  # addi x5, x5, 2006
    .word 0x0e512a23  # sw x5, 244(x2)
    .word 0xf4d512b7  # lui x5, 0xf4d51
    .word 0xd8728293  # addi x5, x5, -633
    .word 0x0e512c23  # sw x5, 248(x2)
    .word 0x455a12b7  # lui x5, 0x455a1
    .word 0x4ed28293  # addi x5, x5, 1261
    .word 0x0e512e23  # sw x5, 252(x2)
    .word 0xa9e3f2b7  # lui x5, 0xa9e3f
    .word 0x90528293  # addi x5, x5, -1787
    .word 0x10512023  # sw x5, 256(x2)
    .word 0xfcefa2b7  # lui x5, 0xfcefa
    .word 0x3f828293  # addi x5, x5, 1016
    .word 0x10512223  # sw x5, 260(x2)
    .word 0x676f02b7  # lui x5, 0x676f0
    .word 0x2d928293  # addi x5, x5, 729
    .word 0x10512423  # sw x5, 264(x2)
    .word 0x8d2a52b7  # lui x5, 0x8d2a5
    .word 0xc8a28293  # addi x5, x5, -886
    .word 0x10512623  # sw x5, 268(x2)
    .word 0xfffa42b7  # lui x5, 0xfffa4
    .word 0x94228293  # addi x5, x5, -1726
    .word 0x10512823  # sw x5, 272(x2)
    .word 0x8771f2b7  # lui x5, 0x8771f
    .word 0x68128293  # addi x5, x5, 1665
    .word 0x10512a23  # sw x5, 276(x2)
    .word 0x6d9d62b7  # lui x5, 0x6d9d6
    .word 0x12228293  # addi x5, x5, 290
    .word 0x10512c23  # sw x5, 280(x2)
    .word 0xfde542b7  # lui x5, 0xfde54
    .word 0x80c28293  # addi x5, x5, -2036
    .word 0x10512e23  # sw x5, 284(x2)
    .word 0xa4bef2b7  # lui x5, 0xa4bef
    .word 0xa4428293  # addi x5, x5, -1468
    .word 0x12512023  # sw x5, 288(x2)
    .word 0x4bded2b7  # lui x5, 0x4bded
    .word 0xfa928293  # addi x5, x5, -87
    .word 0x12512223  # sw x5, 292(x2)
    .word 0xf6bb52b7  # lui x5, 0xf6bb5
    .word 0xb6028293  # addi x5, x5, -1184
    .word 0x12512423  # sw x5, 296(x2)
    .word 0xbebfc2b7  # lui x5, 0xbebfc
    .word 0xc7028293  # addi x5, x5, -912
    .word 0x12512623  # sw x5, 300(x2)
    .word 0x289b82b7  # lui x5, 0x289b8
    .word 0xec628293  # addi x5, x5, -314
    .word 0x12512823  # sw x5, 304(x2)
    .word 0xeaa122b7  # lui x5, 0xeaa12
    .word 0x7fa28293  # addi x5, x5, 2042
    .word 0x12512a23  # sw x5, 308(x2)
    .word 0xd4ef32b7  # lui x5, 0xd4ef3
    .word 0x08528293  # addi x5, x5, 133
    .word 0x12512c23  # sw x5, 312(x2)
    .word 0x048822b7  # lui x5, 0x04882
    .word 0xd0528293  # addi x5, x5, -763
    .word 0x12512e23  # sw x5, 316(x2)
    .word 0xd9d4d2b7  # lui x5, 0xd9d4d
    .word 0x03928293  # addi x5, x5, 57
    .word 0x14512023  # sw x5, 320(x2)
    .word 0xe6dba2b7  # lui x5, 0xe6dba
    .word 0x9e528293  # addi x5, x5, -1563
    .word 0x14512223  # sw x5, 324(x2)
    .word 0x1fa282b7  # lui x5, 0x1fa28
    .word 0xcf828293  # addi x5, x5, -776
    .word 0x14512423  # sw x5, 328(x2)
    .word 0xc4ac52b7  # lui x5, 0xc4ac5
    .word 0x66528293  # addi x5, x5, 1637
    .word 0x14512623  # sw x5, 332(x2)
    .word 0xf42922b7  # lui x5, 0xf4292
    .word 0x24428293  # addi x5, x5, 580
    .word 0x14512823  # sw x5, 336(x2)
    .word 0x432b02b7  # lui x5, 0x432b0
    .word 0xf9728293  # addi x5, x5, -105
    .word 0x14512a23  # sw x5, 340(x2)
    .word 0xab9422b7  # lui x5, 0xab942
    .word 0x3a728293  # addi x5, x5, 935
    .word 0x14512c23  # sw x5, 344(x2)
    .word 0xfc93a2b7  # lui x5, 0xfc93a
    .word 0x03928293  # addi x5, x5, 57
    .word 0x14512e23  # sw x5, 348(x2)
    .word 0x655b62b7  # lui x5, 0x655b6
    .word 0x9c328293  # addi x5, x5, -1597
    .word 0x16512023  # sw x5, 352(x2)
    .word 0x8f0cd2b7  # lui x5, 0x8f0cd
    .word 0xc9228293  # addi x5, x5, -878
    .word 0x16512223  # sw x5, 356(x2)
    .word 0xffeff2b7  # lui x5, 0xffeff
    .word 0x47d28293  # addi x5, x5, 1149
    .word 0x16512423  # sw x5, 360(x2)
    .word 0x858462b7  # lui x5, 0x85846
    .word 0xdd128293  # addi x5, x5, -559
    .word 0x16512623  # sw x5, 364(x2)
    .word 0x6fa882b7  # lui x5, 0x6fa88
    .word 0xe4f28293  # addi x5, x5, -433
    .word 0x16512823  # sw x5, 368(x2)
    .word 0xfe2ce2b7  # lui x5, 0xfe2ce
    .word 0x6e028293  # addi x5, x5, 1760
    .word 0x16512a23  # sw x5, 372(x2)
    .word 0xa30142b7  # lui x5, 0xa3014
    .word 0x31428293  # addi x5, x5, 788
    .word 0x16512c23  # sw x5, 376(x2)
    .word 0x4e0812b7  # lui x5, 0x4e081
    .word 0x1a128293  # addi x5, x5, 417
    .word 0x16512e23  # sw x5, 380(x2)
    .word 0xf75382b7  # lui x5, 0xf7538
    .word 0xe8228293  # addi x5, x5, -382
    .word 0x18512023  # sw x5, 384(x2)
    .word 0xbd3af2b7  # lui x5, 0xbd3af
    .word 0x23528293  # addi x5, x5, 565
    .word 0x18512223  # sw x5, 388(x2)
    .word 0x2ad7d2b7  # lui x5, 0x2ad7d
    .word 0x2bb28293  # addi x5, x5, 699
    .word 0x18512423  # sw x5, 392(x2)
    .word 0xeb86d2b7  # lui x5, 0xeb86d
    .word 0x39128293  # addi x5, x5, 913
    .word 0x18512623  # sw x5, 396(x2)
    .word 0x00012583  # lw x11, 0(x2)
    .word 0x00412603  # lw x12, 4(x2)
    .word 0x00812683  # lw x13, 8(x2)
    .word 0x00c12703  # lw x14, 12(x2)
    .word 0xfff00513  # addi x10, x0, -1
    .word 0x00150513  # addi x10, x10, 1
    .word 0x00251793  # slli x15, x10, 2
    .word 0x00279813  # slli x16, x15, 2
    .word 0x00280833  # add x16, x16, x2
    .word 0x00e6c433  # xor x8, x13, x14
    .word 0x008673b3  # and x7, x12, x8
    .word 0x00774333  # xor x6, x14, x7
    .word 0x006582b3  # add x5, x11, x6
    .word 0x09082303  # lw x6, 144(x16)
    .word 0x006282b3  # add x5, x5, x6
    .word 0x05082303  # lw x6, 80(x16)
    .word 0x006285b3  # add x11, x5, x6
    .word 0x00759f13  # slli x30, x11, 7
    .word 0x0195d293  # srli x5, x11, 25
    .word 0x005f02b3  # add x5, x30, x5
    .word 0x00c285b3  # add x11, x5, x12
    .word 0x00d64433  # xor x8, x12, x13
    .word 0x0085f3b3  # and x7, x11, x8
    .word 0x0076c333  # xor x6, x13, x7
    .word 0x006702b3  # add x5, x14, x6
    .word 0x09482303  # lw x6, 148(x16)
    .word 0x006282b3  # add x5, x5, x6
    .word 0x05482303  # lw x6, 84(x16)
    .word 0x00628733  # add x14, x5, x6
    .word 0x00c71f13  # slli x30, x14, 12
    .word 0x01475293  # srli x5, x14, 20
    .word 0x005f02b3  # add x5, x30, x5
    .word 0x00b28733  # add x14, x5, x11
    .word 0x00c5c433  # xor x8, x11, x12
    .word 0x008773b3  # and x7, x14, x8
    .word 0x00764333  # xor x6, x12, x7
    .word 0x006682b3  # add x5, x13, x6
    .word 0x09882303  # lw x6, 152(x16)
    .word 0x006282b3  # add x5, x5, x6
    .word 0x05882303  # lw x6, 88(x16)
    .word 0x006286b3  # add x13, x5, x6
    .word 0x01169f13  # slli x30, x13, 17
    .word 0x00f6d293  # srli x5, x13, 15
    .word 0x005f02b3  # add x5, x30, x5
    .word 0x00e286b3  # add x13, x5, x14
    .word 0x00b74433  # xor x8, x14, x11
    .word 0x0086f3b3  # and x7, x13, x8
    .word 0x0075c333  # xor x6, x11, x7
    .word 0x006602b3  # add x5, x12, x6
    .word 0x09c82303  # lw x6, 156(x16)
    .word 0x006282b3  # add x5, x5, x6
    .word 0x05c82303  # lw x6, 92(x16)
    .word 0x00628633  # add x12, x5, x6
    .word 0x01661f13  # slli x30, x12, 22
    .word 0x00a65293  # srli x5, x12, 10
    .word 0x005f02b3  # add x5, x30, x5
    .word 0x00d28633  # add x12, x5, x13
    .word 0xffd50293  # addi x5, x10, -3
    .word 0xf20296e3  # bne x5, x0, -212
    .word 0x00300513  # addi x10, x0, 3
    .word 0x00150513  # addi x10, x10, 1
    .word 0x00251793  # slli x15, x10, 2
    .word 0x00279813  # slli x16, x15, 2
    .word 0x00280833  # add x16, x16, x2
    .word 0x00d64433  # xor x8, x12, x13
    .word 0x008773b3  # and x7, x14, x8
    .word 0x0076c333  # xor x6, x13, x7
    .word 0x006582b3  # add x5, x11, x6
    .word 0x09082303  # lw x6, 144(x16)
    .word 0x006282b3  # add x5, x5, x6
    .word 0x00178313  # addi x6, x15, 1
    .word 0x00f37313  # andi x6, x6, 15
    .word 0x00231313  # slli x6, x6, 2
    .word 0x00230333  # add x6, x6, x2
    .word 0x05032303  # lw x6, 80(x6)
    .word 0x006285b3  # add x11, x5, x6
    .word 0x00559f13  # slli x30, x11, 5
    .word 0x01b5d293  # srli x5, x11, 27
    .word 0x005f02b3  # add x5, x30, x5
    .word 0x00c285b3  # add x11, x5, x12
    .word 0x00c5c433  # xor x8, x11, x12
    .word 0x0086f3b3  # and x7, x13, x8
    .word 0x00764333  # xor x6, x12, x7
    .word 0x006702b3  # add x5, x14, x6
    .word 0x09482303  # lw x6, 148(x16)
    .word 0x006282b3  # add x5, x5, x6
    .word 0x00678313  # addi x6, x15, 6
    .word 0x00f37313  # andi x6, x6, 15
    .word 0x00231313  # slli x6, x6, 2
    .word 0x00230333  # add x6, x6, x2
    .word 0x05032303  # lw x6, 80(x6)
    .word 0x00628733  # add x14, x5, x6
    .word 0x00971f13  # slli x30, x14, 9
    .word 0x01775293  # srli x5, x14, 23
    .word 0x005f02b3  # add x5, x30, x5
    .word 0x00b28733  # add x14, x5, x11
    .word 0x00b74433  # xor x8, x14, x11
    .word 0x008673b3  # and x7, x12, x8
    .word 0x0075c333  # xor x6, x11, x7
    .word 0x006682b3  # add x5, x13, x6
    .word 0x09882303  # lw x6, 152(x16)
    .word 0x006282b3  # add x5, x5, x6
    .word 0x00b78313  # addi x6, x15, 11
    .word 0x00f37313  # andi x6, x6, 15
    .word 0x00231313  # slli x6, x6, 2
    .word 0x00230333  # add x6, x6, x2
    .word 0x05032303  # lw x6, 80(x6)
    .word 0x006286b3  # add x13, x5, x6
    .word 0x00e69f13  # slli x30, x13, 14
    .word 0x0126d293  # srli x5, x13, 18
    .word 0x005f02b3  # add x5, x30, x5
    .word 0x00e286b3  # add x13, x5, x14
    .word 0x00e6c433  # xor x8, x13, x14
    .word 0x0085f3b3  # and x7, x11, x8
    .word 0x00774333  # xor x6, x14, x7
    .word 0x006602b3  # add x5, x12, x6
    .word 0x09c82303  # lw x6, 156(x16)
    .word 0x006282b3  # add x5, x5, x6
    .word 0x01078313  # addi x6, x15, 16
    .word 0x00f37313  # andi x6, x6, 15
    .word 0x00231313  # slli x6, x6, 2
    .word 0x00230333  # add x6, x6, x2
    .word 0x05032303  # lw x6, 80(x6)
    .word 0x00628633  # add x12, x5, x6
    .word 0x01461f13  # slli x30, x12, 20
    .word 0x00c65293  # srli x5, x12, 12
    .word 0x005f02b3  # add x5, x30, x5
    .word 0x00d28633  # add x12, x5, x13
    .word 0xff950293  # addi x5, x10, -7
    .word 0xee0296e3  # bne x5, x0, -276
    .word 0x00700513  # addi x10, x0, 7
    .word 0x00150513  # addi x10, x10, 1
    .word 0x00251793  # slli x15, x10, 2
    .word 0x00279813  # slli x16, x15, 2
    .word 0x00280833  # add x16, x16, x2
    .word 0x00d64333  # xor x6, x12, x13
    .word 0x00e34333  # xor x6, x6, x14
    .word 0x006582b3  # add x5, x11, x6
    .word 0x09082303  # lw x6, 144(x16)
    .word 0x006282b3  # add x5, x5, x6
    .word 0x00500313  # addi x6, x0, 5
    .word 0x40f30333  # sub x6, x6, x15
    .word 0x00f37313  # andi x6, x6, 15
    .word 0x00231313  # slli x6, x6, 2
    .word 0x00230333  # add x6, x6, x2
    .word 0x05032303  # lw x6, 80(x6)
    .word 0x006285b3  # add x11, x5, x6
    .word 0x00459f13  # slli x30, x11, 4
    .word 0x01c5d293  # srli x5, x11, 28
    .word 0x005f02b3  # add x5, x30, x5
    .word 0x00c285b3  # add x11, x5, x12
    .word 0x00c5c333  # xor x6, x11, x12
    .word 0x00d34333  # xor x6, x6, x13
    .word 0x006702b3  # add x5, x14, x6
    .word 0x09482303  # lw x6, 148(x16)
    .word 0x006282b3  # add x5, x5, x6
    .word 0x00800313  # addi x6, x0, 8
    .word 0x40f30333  # sub x6, x6, x15
    .word 0x00f37313  # andi x6, x6, 15
    .word 0x00231313  # slli x6, x6, 2
    .word 0x00230333  # add x6, x6, x2
    .word 0x05032303  # lw x6, 80(x6)
    .word 0x00628733  # add x14, x5, x6
    .word 0x00b71f13  # slli x30, x14, 11
    .word 0x01575293  # srli x5, x14, 21
    .word 0x005f02b3  # add x5, x30, x5
    .word 0x00b28733  # add x14, x5, x11
    .word 0x00b74333  # xor x6, x14, x11
    .word 0x00c34333  # xor x6, x6, x12
    .word 0x006682b3  # add x5, x13, x6
    .word 0x09882303  # lw x6, 152(x16)
    .word 0x006282b3  # add x5, x5, x6
    .word 0x00b00313  # addi x6, x0, 11
    .word 0x40f30333  # sub x6, x6, x15
    .word 0x00f37313  # andi x6, x6, 15
    .word 0x00231313  # slli x6, x6, 2
    .word 0x00230333  # add x6, x6, x2
    .word 0x05032303  # lw x6, 80(x6)
    .word 0x006286b3  # add x13, x5, x6
    .word 0x01069f13  # slli x30, x13, 16
    .word 0x0106d293  # srli x5, x13, 16
    .word 0x005f02b3  # add x5, x30, x5
    .word 0x00e286b3  # add x13, x5, x14
    .word 0x00e6c333  # xor x6, x13, x14
    .word 0x00b34333  # xor x6, x6, x11
    .word 0x006602b3  # add x5, x12, x6
    .word 0x09c82303  # lw x6, 156(x16)
    .word 0x006282b3  # add x5, x5, x6
    .word 0x00e00313  # addi x6, x0, 14
    .word 0x40f30333  # sub x6, x6, x15
    .word 0x00f37313  # andi x6, x6, 15
    .word 0x00231313  # slli x6, x6, 2
    .word 0x00230333  # add x6, x6, x2
    .word 0x05032303  # lw x6, 80(x6)
    .word 0x00628633  # add x12, x5, x6
    .word 0x01761f13  # slli x30, x12, 23
    .word 0x00965293  # srli x5, x12, 9
    .word 0x005f02b3  # add x5, x30, x5
    .word 0x00d28633  # add x12, x5, x13
    .word 0xff550293  # addi x5, x10, -11
    .word 0xee0296e3  # bne x5, x0, -276
    .word 0x00b00513  # addi x10, x0, 11
    .word 0x00150513  # addi x10, x10, 1
    .word 0x00251793  # slli x15, x10, 2
    .word 0x00279813  # slli x16, x15, 2
    .word 0x00280833  # add x16, x16, x2
    .word 0xfff74413  # xori x8, x14, -1
    .word 0x008663b3  # or x7, x12, x8
    .word 0x0076c333  # xor x6, x13, x7
    .word 0x006582b3  # add x5, x11, x6
    .word 0x09082303  # lw x6, 144(x16)
    .word 0x006282b3  # add x5, x5, x6
    .word 0x40f00333  # sub x6, x0, x15
    .word 0x00f37313  # andi x6, x6, 15
    .word 0x00231313  # slli x6, x6, 2
    .word 0x00230333  # add x6, x6, x2
    .word 0x05032303  # lw x6, 80(x6)
    .word 0x006285b3  # add x11, x5, x6
    .word 0x00659f13  # slli x30, x11, 6
    .word 0x01a5d293  # srli x5, x11, 26
    .word 0x005f02b3  # add x5, x30, x5
    .word 0x00c285b3  # add x11, x5, x12
    .word 0xfff6c413  # xori x8, x13, -1
    .word 0x0085e3b3  # or x7, x11, x8
    .word 0x00764333  # xor x6, x12, x7
    .word 0x006702b3  # add x5, x14, x6
    .word 0x09482303  # lw x6, 148(x16)
    .word 0x006282b3  # add x5, x5, x6
    .word 0x00700313  # addi x6, x0, 7
    .word 0x40f30333  # sub x6, x6, x15
    .word 0x00f37313  # andi x6, x6, 15
    .word 0x00231313  # slli x6, x6, 2
    .word 0x00230333  # add x6, x6, x2
    .word 0x05032303  # lw x6, 80(x6)
    .word 0x00628733  # add x14, x5, x6
    .word 0x00a71f13  # slli x30, x14, 10
    .word 0x01675293  # srli x5, x14, 22
    .word 0x005f02b3  # add x5, x30, x5
    .word 0x00b28733  # add x14, x5, x11
    .word 0xfff64413  # xori x8, x12, -1
    .word 0x008763b3  # or x7, x14, x8
    .word 0x0075c333  # xor x6, x11, x7
    .word 0x006682b3  # add x5, x13, x6
    .word 0x09882303  # lw x6, 152(x16)
    .word 0x006282b3  # add x5, x5, x6
    .word 0x00e00313  # addi x6, x0, 14
    .word 0x40f30333  # sub x6, x6, x15
    .word 0x00f37313  # andi x6, x6, 15
    .word 0x00231313  # slli x6, x6, 2
    .word 0x00230333  # add x6, x6, x2
    .word 0x05032303  # lw x6, 80(x6)
    .word 0x006286b3  # add x13, x5, x6
    .word 0x00f69f13  # slli x30, x13, 15
    .word 0x0116d293  # srli x5, x13, 17
    .word 0x005f02b3  # add x5, x30, x5
    .word 0x00e286b3  # add x13, x5, x14
    .word 0xfff5c413  # xori x8, x11, -1
    .word 0x0086e3b3  # or x7, x13, x8
    .word 0x00774333  # xor x6, x14, x7
    .word 0x006602b3  # add x5, x12, x6
    .word 0x09c82303  # lw x6, 156(x16)
    .word 0x006282b3  # add x5, x5, x6
    .word 0x01500313  # addi x6, x0, 21
    .word 0x40f30333  # sub x6, x6, x15
    .word 0x00f37313  # andi x6, x6, 15
    .word 0x00231313  # slli x6, x6, 2
    .word 0x00230333  # add x6, x6, x2
    .word 0x05032303  # lw x6, 80(x6)
    .word 0x00628633  # add x12, x5, x6
    .word 0x01561f13  # slli x30, x12, 21
    .word 0x00b65293  # srli x5, x12, 11
    .word 0x005f02b3  # add x5, x30, x5
    .word 0x00d28633  # add x12, x5, x13
    .word 0xff150293  # addi x5, x10, -15
    .word 0xee0290e3  # bne x5, x0, -288
    .word 0x00012283  # lw x5, 0(x2)
    .word 0x00b282b3  # add x5, x5, x11
    .word 0x00512023  # sw x5, 0(x2)
    .word 0x00412283  # lw x5, 4(x2)
    .word 0x00c282b3  # add x5, x5, x12
    .word 0x00512223  # sw x5, 4(x2)
    .word 0x00812283  # lw x5, 8(x2)
    .word 0x00d282b3  # add x5, x5, x13
    .word 0x00512423  # sw x5, 8(x2)
    .word 0x00c12283  # lw x5, 12(x2)
    .word 0x00e282b3  # add x5, x5, x14
    .word 0x00512623  # sw x5, 12(x2)
    # the result
    .word 0x00000513  # addi x10, x0, 0
    # parameter 0: the array, back
    .word 0x00010293  # addi x5, x2, 0
    .word 0x1ac12303  # lw x6, 428(x2)
    .word 0x01028393  # addi x7, x5, 16
    .word 0x0002ae03  # lw x28, 0(x5)
    .word 0x01c32023  # sw x28, 0(x6)
    .word 0x00428293  # addi x5, x5, 4
    .word 0x00430313  # addi x6, x6, 4
    .word 0xfe7298e3  # bne x5, x7, -16
    # above the frame
    .word 0x1a010293  # addi x5, x2, 416
    # the caller's registers
    .word 0x0002a403  # lw x8, 0(x5)
    .cfi_restore 8
    # the caller's x2
    .word 0x01028293  # addi x5, x5, 16
    .cfi_def_cfa 5, 0
    # on to the tail that functions share
    jal x0, factc.tail.1
    .cfi_endproc
    .size md5_block, . - md5_block
    .section .text.factc.tail.1, "axG", @progbits, factc.tail.1, comdat
    .p2align 2
    .globl factc.tail.1
    .hidden factc.tail.1
    .type factc.tail.1, @function
factc.tail.1:
    .cfi_startproc
    .cfi_def_cfa 5, 0
    # all the room, wiped upward
    .word 0x00012023  # sw x0, 0(x2)
    .word 0x00012223  # sw x0, 4(x2)
    .word 0x00012423  # sw x0, 8(x2)
    .word 0x00012623  # sw x0, 12(x2)
    .word 0x01010113  # addi x2, x2, 16
    .word 0xfe5116e3  # bne x2, x5, -20
    .cfi_def_cfa 2, 0
    # temporaries, wiped
    .word 0x00000293  # addi x5, x0, 0
    .word 0x00000313  # addi x6, x0, 0
    .word 0x00000393  # addi x7, x0, 0
    .word 0x00000593  # addi x11, x0, 0
    .word 0x00000613  # addi x12, x0, 0
    .word 0x00000693  # addi x13, x0, 0
    .word 0x00000713  # addi x14, x0, 0
    .word 0x00000793  # addi x15, x0, 0
    .word 0x00000813  # addi x16, x0, 0
    .word 0x00000893  # addi x17, x0, 0
    .word 0x00000e13  # addi x28, x0, 0
    .word 0x00000e93  # addi x29, x0, 0
    .word 0x00000f13  # addi x30, x0, 0
    .word 0x00000f93  # addi x31, x0, 0
    # back
    .word 0x00008067  # jalr x0, 0(x1)
    .cfi_endproc
    .size factc.tail.1, . - factc.tail.1
    .option pop
