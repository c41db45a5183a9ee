# md5_block: made by factc 1.0.0 function; 888 words, 144 bytes of stack, profile 1
    .option push
    .option norvc
    .option norelax
    .cfi_sections .debug_frame
    .section .text.md5_block, "ax", @progbits
    .p2align 2
    .globl md5_block
    .type md5_block, @function
md5_block:
    .cfi_startproc
    # room above the frame
    .word 0xfd010113  # addi x2, x2, -48
    .cfi_def_cfa_offset 48
    # the caller's registers
    .word 0x00812023  # sw x8, 0(x2)
    .cfi_offset 8, -48
    .word 0x01212223  # sw x18, 4(x2)
    .cfi_offset 18, -44
    .word 0x01312423  # sw x19, 8(x2)
    .cfi_offset 19, -40
    .word 0x01412623  # sw x20, 12(x2)
    .cfi_offset 20, -36
    .word 0x01512823  # sw x21, 16(x2)
    .cfi_offset 21, -32
    .word 0x01612a23  # sw x22, 20(x2)
    .cfi_offset 22, -28
    .word 0x01712c23  # sw x23, 24(x2)
    .cfi_offset 23, -24
    .word 0x01812e23  # sw x24, 28(x2)
    .cfi_offset 24, -20
    .word 0x03912023  # sw x25, 32(x2)
    .cfi_offset 25, -16
    .word 0x03a12223  # sw x26, 36(x2)
    .cfi_offset 26, -12
    .word 0x03b12423  # sw x27, 40(x2)
    .cfi_offset 27, -8
    # arguments that are needed behind the body
    .word 0x02a12623  # sw x10, 44(x2)
    # the frame's base
    .word 0xfa010113  # addi x2, x2, -96
    .cfi_def_cfa 2, 144
    # parameter 0: an array
    .word 0x00050293  # addi x5, x10, 0
    .word 0x00010313  # addi x6, x2, 0
    .word 0x0002ae03  # lw x28, 0(x5)
    .word 0x01c32023  # sw x28, 0(x6)
    .word 0x0042ae03  # lw x28, 4(x5)
    .word 0x01c32223  # sw x28, 4(x6)
    .word 0x0082ae03  # lw x28, 8(x5)
    .word 0x01c32423  # sw x28, 8(x6)
    .word 0x00c2ae03  # lw x28, 12(x5)
    .word 0x01c32623  # sw x28, 12(x6)
    # parameter 1: an array
    .word 0x00058293  # addi x5, x11, 0
    .word 0x01010313  # addi x6, x2, 16
    .word 0x04028393  # addi x7, x5, 64
    .word 0x52100f6f  # jal x30, 3360
    # the body
    .word 0x01012703  # lw x14, 16(x2)
    .word 0x01412783  # lw x15, 20(x2)
    .word 0x01812803  # lw x16, 24(x2)
    .word 0x01c12883  # lw x17, 28(x2)
    .word 0x02012903  # lw x18, 32(x2)
    .word 0x02412983  # lw x19, 36(x2)
    .word 0x02812a03  # lw x20, 40(x2)
    .word 0x02c12a83  # lw x21, 44(x2)
    .word 0x03012b03  # lw x22, 48(x2)
    .word 0x03412b83  # lw x23, 52(x2)
    .word 0x03812c03  # lw x24, 56(x2)
    .word 0x03c12c83  # lw x25, 60(x2)
    .word 0x04012d03  # lw x26, 64(x2)
    .word 0x04412d83  # lw x27, 68(x2)
    .word 0x04812283  # lw x5, 72(x2)
    .word 0x04512823  # sw x5, 80(x2)
    .word 0x04c12283  # lw x5, 76(x2)
    .word 0x04512a23  # sw x5, 84(x2)
    .word 0x00012503  # lw x10, 0(x2)
    .word 0x00412583  # lw x11, 4(x2)
    .word 0x00812603  # lw x12, 8(x2)
    .word 0x00c12683  # lw x13, 12(x2)
    .word 0x00d64433  # xor x8, x12, x13
    .word 0x0085f3b3  # and x7, x11, x8
    .word 0x0076c333  # xor x6, x13, x7
    .word 0x006502b3  # add x5, x10, x6
    .word 0xd76aa337  # lui x6, 0xd76aa
    .word 0x47830313  # addi x6, x6, 1144
    .word 0x006282b3  # add x5, x5, x6
    .word 0x00e28533  # add x10, x5, x14
    .word 0x00751f13  # slli x30, x10, 7
    .word 0x01955293  # srli x5, x10, 25
    .word 0x005f02b3  # add x5, x30, x5
    .word 0x00b28533  # add x10, x5, x11
    .word 0x00c5c433  # xor x8, x11, x12
    .word 0x008573b3  # and x7, x10, x8
    .word 0x00764333  # xor x6, x12, x7
    .word 0x006682b3  # add x5, x13, x6
    .word 0xe8c7b337  # lui x6, 0xe8c7b
    .word 0x75630313  # addi x6, x6, 1878
    .word 0x006282b3  # add x5, x5, x6
    .word 0x00f286b3  # add x13, x5, x15
    .word 0x00c69f13  # slli x30, x13, 12
    .word 0x0146d293  # srli x5, x13, 20
    .word 0x005f02b3  # add x5, x30, x5
    .word 0x00a286b3  # add x13, x5, x10
    .word 0x00b54433  # xor x8, x10, x11
    .word 0x0086f3b3  # and x7, x13, x8
    .word 0x0075c333  # xor x6, x11, x7
    .word 0x006602b3  # add x5, x12, x6
    .word 0x24207337  # lui x6, 0x24207
    .word 0x0db30313  # addi x6, x6, 219
    .word 0x006282b3  # add x5, x5, x6
    .word 0x01028633  # add x12, x5, x16
    .word 0x01161f13  # slli x30, x12, 17
    .word 0x00f65293  # srli x5, x12, 15
    .word 0x005f02b3  # add x5, x30, x5
    .word 0x00d28633  # add x12, x5, x13
    .word 0x00a6c433  # xor x8, x13, x10
    .word 0x008673b3  # and x7, x12, x8
    .word 0x00754333  # xor x6, x10, x7
    .word 0x006582b3  # add x5, x11, x6
    .word 0xc1bdd337  # lui x6, 0xc1bdd
    .word 0xeee30313  # addi x6, x6, -274
    .word 0x006282b3  # add x5, x5, x6
    .word 0x011285b3  # add x11, x5, x17
    .word 0x01659f13  # slli x30, x11, 22
    .word 0x00a5d293  # srli x5, x11, 10
    .word 0x005f02b3  # add x5, x30, x5
    .word 0x00c285b3  # add x11, x5, x12
    .word 0x00d64433  # xor x8, x12, x13
    .word 0x0085f3b3  # and x7, x11, x8
    .word 0x0076c333  # xor x6, x13, x7
    .word 0x006502b3  # add x5, x10, x6
    .word 0xf57c1337  # lui x6, 0xf57c1
    .word 0xfaf30313  # addi x6, x6, -81
    .word 0x006282b3  # add x5, x5, x6
    .word 0x01228533  # add x10, x5, x18
    .word 0x00751f13  # slli x30, x10, 7
    .word 0x01955293  # srli x5, x10, 25
    .word 0x005f02b3  # add x5, x30, x5
    .word 0x00b28533  # add x10, x5, x11
    .word 0x00c5c433  # xor x8, x11, x12
    .word 0x008573b3  # and x7, x10, x8
    .word 0x00764333  # xor x6, x12, x7
    .word 0x006682b3  # add x5, x13, x6
    .word 0x4787c337  # lui x6, 0x4787c
    .word 0x62a30313  # addi x6, x6, 1578
    .word 0x006282b3  # add x5, x5, x6
    .word 0x013286b3  # add x13, x5, x19
    .word 0x00c69f13  # slli x30, x13, 12
    .word 0x0146d293  # srli x5, x13, 20
    .word 0x005f02b3  # add x5, x30, x5
    .word 0x00a286b3  # add x13, x5, x10
    .word 0x00b54433  # xor x8, x10, x11
    .word 0x0086f3b3  # and x7, x13, x8
    .word 0x0075c333  # xor x6, x11, x7
    .word 0x006602b3  # add x5, x12, x6
    .word 0xa8304337  # lui x6, 0xa8304
    .word 0x61330313  # addi x6, x6, 1555
    .word 0x006282b3  # add x5, x5, x6
    .word 0x01428633  # add x12, x5, x20
    .word 0x01161f13  # slli x30, x12, 17
    .word 0x00f65293  # srli x5, x12, 15
    .word 0x005f02b3  # add x5, x30, x5
    .word 0x00d28633  # add x12, x5, x13
    .word 0x00a6c433  # xor x8, x13, x10
    .word 0x008673b3  # and x7, x12, x8
    .word 0x00754333  # xor x6, x10, x7
    .word 0x006582b3  # add x5, x11, x6
    .word 0xfd469337  # lui x6, 0xfd469
    .word 0x50130313  # addi x6, x6, 1281
    .word 0x006282b3  # add x5, x5, x6
    .word 0x015285b3  # add x11, x5, x21
    .word 0x01659f13  # slli x30, x11, 22
    .word 0x00a5d293  # srli x5, x11, 10
    .word 0x005f02b3  # add x5, x30, x5
    .word 0x00c285b3  # add x11, x5, x12
    .word 0x00d64433  # xor x8, x12, x13
    .word 0x0085f3b3  # and x7, x11, x8
    .word 0x0076c333  # xor x6, x13, x7
    .word 0x006502b3  # add x5, x10, x6
    .word 0x6980a337  # lui x6, 0x6980a
    .word 0x8d830313  # addi x6, x6, -1832
    .word 0x006282b3  # add x5, x5, x6
    .word 0x01628533  # add x10, x5, x22
    .word 0x00751f13  # slli x30, x10, 7
    .word 0x01955293  # srli x5, x10, 25
    .word 0x005f02b3  # add x5, x30, x5
    .word 0x00b28533  # add x10, x5, x11
    .word 0x00c5c433  # xor x8, x11, x12
    .word 0x008573b3  # and x7, x10, x8
    .word 0x00764333  # xor x6, x12, x7
    .word 0x006682b3  # add x5, x13, x6
    .word 0x8b44f337  # lui x6, 0x8b44f
    .word 0x7af30313  # addi x6, x6, 1967
    .word 0x006282b3  # add x5, x5, x6
    .word 0x017286b3  # add x13, x5, x23
    .word 0x00c69f13  # slli x30, x13, 12
    .word 0x0146d293  # srli x5, x13, 20
    .word 0x005f02b3  # add x5, x30, x5
    .word 0x00a286b3  # add x13, x5, x10
    .word 0x00b54433  # xor x8, x10, x11
    .word 0x0086f3b3  # and x7, x13, x8
    .word 0x0075c333  # xor x6, x11, x7
    .word 0x006602b3  # add x5, x12, x6
    .word 0xffff6337  # lui x6, 0xffff6
    .word 0xbb130313  # addi x6, x6, -1103
    .word 0x006282b3  # add x5, x5, x6
    .word 0x01828633  # add x12, x5, x24
    .word 0x01161f13  # slli x30, x12, 17
    .word 0x00f65293  # srli x5, x12, 15
    .word 0x005f02b3  # add x5, x30, x5
    .word 0x00d28633  # add x12, x5, x13
    .word 0x00a6c433  # xor x8, x13, x10
    .word 0x008673b3  # and x7, x12, x8
    .word 0x00754333  # xor x6, x10, x7
    .word 0x006582b3  # add x5, x11, x6
    .word 0x895cd337  # lui x6, 0x895cd
    .word 0x7be30313  # addi x6, x6, 1982
    .word 0x006282b3  # add x5, x5, x6
    .word 0x019285b3  # add x11, x5, x25
    .word 0x01659f13  # slli x30, x11, 22
    .word 0x00a5d293  # srli x5, x11, 10
    .word 0x005f02b3  # add x5, x30, x5
    .word 0x00c285b3  # add x11, x5, x12
    .word 0x00d64433  # xor x8, x12, x13
    .word 0x0085f3b3  # and x7, x11, x8
    .word 0x0076c333  # xor x6, x13, x7
    .word 0x006502b3  # add x5, x10, x6
    .word 0x6b901337  # lui x6, 0x6b901
    .word 0x12230313  # addi x6, x6, 290
    .word 0x006282b3  # add x5, x5, x6
    .word 0x01a28533  # add x10, x5, x26
    .word 0x00751f13  # slli x30, x10, 7
    .word 0x01955293  # srli x5, x10, 25
    .word 0x005f02b3  # add x5, x30, x5
    .word 0x00b28533  # add x10, x5, x11
    .word 0x00c5c433  # xor x8, x11, x12
    .word 0x008573b3  # and x7, x10, x8
    .word 0x00764333  # xor x6, x12, x7
    .word 0x006682b3  # add x5, x13, x6
    .word 0xfd987337  # lui x6, 0xfd987
    .word 0x19330313  # addi x6, x6, 403
    .word 0x006282b3  # add x5, x5, x6
    .word 0x01b286b3  # add x13, x5, x27
    .word 0x00c69f13  # slli x30, x13, 12
    .word 0x0146d293  # srli x5, x13, 20
    .word 0x005f02b3  # add x5, x30, x5
    .word 0x00a286b3  # add x13, x5, x10
    .word 0x00b54433  # xor x8, x10, x11
    .word 0x0086f3b3  # and x7, x13, x8
    .word 0x0075c333  # xor x6, x11, x7
    .word 0x006602b3  # add x5, x12, x6
    .word 0xa6794337  # lui x6, 0xa6794
    .word 0x38e30313  # addi x6, x6, 910
    .word 0x006282b3  # add x5, x5, x6
    .word 0x05012303  # lw x6, 80(x2)
    .word 0x00628633  # add x12, x5, x6
    .word 0x01161f13  # slli x30, x12, 17
    .word 0x00f65293  # srli x5, x12, 15
    .word 0x005f02b3  # add x5, x30, x5
    .word 0x00d28633  # add x12, x5, x13
    .word 0x00a6c433  # xor x8, x13, x10
    .word 0x008673b3  # and x7, x12, x8
    .word 0x00754333  # xor x6, x10, x7
    .word 0x006582b3  # add x5, x11, x6
    .word 0x49b41337  # lui x6, 0x49b41
    .word 0x82130313  # addi x6, x6, -2015
    .word 0x006282b3  # add x5, x5, x6
    .word 0x05412303  # lw x6, 84(x2)
    .word 0x006285b3  # add x11, x5, x6
    .word 0x01659f13  # slli x30, x11, 22
    .word 0x00a5d293  # srli x5, x11, 10
    .word 0x005f02b3  # add x5, x30, x5
    .word 0x00c285b3  # add x11, x5, x12
    .word 0x00c5c433  # xor x8, x11, x12
    .word 0x0086f3b3  # and x7, x13, x8
    .word 0x00764333  # xor x6, x12, x7
    .word 0x006502b3  # add x5, x10, x6
    .word 0xf61e2337  # lui x6, 0xf61e2
    .word 0x56230313  # addi x6, x6, 1378
    .word 0x006282b3  # add x5, x5, x6
    .word 0x00f28533  # add x10, x5, x15
    .word 0x00551f13  # slli x30, x10, 5
    .word 0x01b55293  # srli x5, x10, 27
    .word 0x005f02b3  # add x5, x30, x5
    .word 0x00b28533  # add x10, x5, x11
    .word 0x00b54433  # xor x8, x10, x11
    .word 0x008673b3  # and x7, x12, x8
    .word 0x0075c333  # xor x6, x11, x7
    .word 0x006682b3  # add x5, x13, x6
    .word 0xc040b337  # lui x6, 0xc040b
    .word 0x34030313  # addi x6, x6, 832
    .word 0x006282b3  # add x5, x5, x6
    .word 0x014286b3  # add x13, x5, x20
    .word 0x00969f13  # slli x30, x13, 9
    .word 0x0176d293  # srli x5, x13, 23
    .word 0x005f02b3  # add x5, x30, x5
    .word 0x00a286b3  # add x13, x5, x10
    .word 0x00a6c433  # xor x8, x13, x10
    .word 0x0085f3b3  # and x7, x11, x8
    .word 0x00754333  # xor x6, x10, x7
    .word 0x006602b3  # add x5, x12, x6
    .word 0x265e6337  # lui x6, 0x265e6
    .word 0xa5130313  # addi x6, x6, -1455
    .word 0x006282b3  # add x5, x5, x6
    .word 0x01928633  # add x12, x5, x25
    .word 0x00e61f13  # slli x30, x12, 14
    .word 0x01265293  # srli x5, x12, 18
    .word 0x005f02b3  # add x5, x30, x5
    .word 0x00d28633  # add x12, x5, x13
    .word 0x00d64433  # xor x8, x12, x13
    .word 0x008573b3  # and x7, x10, x8
    .word 0x0076c333  # xor x6, x13, x7
    .word 0x006582b3  # add x5, x11, x6
    .word 0xe9b6c337  # lui x6, 0xe9b6c
    .word 0x7aa30313  # addi x6, x6, 1962
    .word 0x006282b3  # add x5, x5, x6
    .word 0x00e285b3  # add x11, x5, x14
    .word 0x01459f13  # slli x30, x11, 20
    .word 0x00c5d293  # srli x5, x11, 12
    .word 0x005f02b3  # add x5, x30, x5
    .word 0x00c285b3  # add x11, x5, x12
    .word 0x00c5c433  # xor x8, x11, x12
    .word 0x0086f3b3  # and x7, x13, x8
    .word 0x00764333  # xor x6, x12, x7
    .word 0x006502b3  # add x5, x10, x6
    .word 0xd62f1337  # lui x6, 0xd62f1
    .word 0x05d30313  # addi x6, x6, 93
    .word 0x006282b3  # add x5, x5, x6
    .word 0x01328533  # add x10, x5, x19
    .word 0x00551f13  # slli x30, x10, 5
    .word 0x01b55293  # srli x5, x10, 27
    .word 0x005f02b3  # add x5, x30, x5
    .word 0x00b28533  # add x10, x5, x11
    .word 0x00b54433  # xor x8, x10, x11
    .word 0x008673b3  # and x7, x12, x8
    .word 0x0075c333  # xor x6, x11, x7
    .word 0x006682b3  # add x5, x13, x6
    .word 0x02441337  # lui x6, 0x02441
    .word 0x45330313  # addi x6, x6, 1107
    .word 0x006282b3  # add x5, x5, x6
    .word 0x018286b3  # add x13, x5, x24
    .word 0x00969f13  # slli x30, x13, 9
    .word 0x0176d293  # srli x5, x13, 23
    .word 0x005f02b3  # add x5, x30, x5
    .word 0x00a286b3  # add x13, x5, x10
    .word 0x00a6c433  # xor x8, x13, x10
    .word 0x0085f3b3  # and x7, x11, x8
    .word 0x00754333  # xor x6, x10, x7
    .word 0x006602b3  # add x5, x12, x6
    .word 0xd8a1e337  # lui x6, 0xd8a1e
    .word 0x68130313  # addi x6, x6, 1665
    .word 0x006282b3  # add x5, x5, x6
    .word 0x05412303  # lw x6, 84(x2)
    .word 0x00628633  # add x12, x5, x6
    .word 0x00e61f13  # slli x30, x12, 14
    .word 0x01265293  # srli x5, x12, 18
    .word 0x005f02b3  # add x5, x30, x5
    .word 0x00d28633  # add x12, x5, x13
    .word 0x00d64433  # xor x8, x12, x13
    .word 0x008573b3  # and x7, x10, x8
    .word 0x0076c333  # xor x6, x13, x7
    .word 0x006582b3  # add x5, x11, x6
    .word 0xe7d40337  # lui x6, 0xe7d40
    .word 0xbc830313  # addi x6, x6, -1080
    .word 0x006282b3  # add x5, x5, x6
    .word 0x012285b3  # add x11, x5, x18
    .word 0x01459f13  # slli x30, x11, 20
    .word 0x00c5d293  # srli x5, x11, 12
    .word 0x005f02b3  # add x5, x30, x5
    .word 0x00c285b3  # add x11, x5, x12
    .word 0x00c5c433  # xor x8, x11, x12
    .word 0x0086f3b3  # and x7, x13, x8
    .word 0x00764333  # xor x6, x12, x7
    .word 0x006502b3  # add x5, x10, x6
    .word 0x21e1d337  # lui x6, 0x21e1d
    .word 0xde630313  # addi x6, x6, -538
    .word 0x006282b3  # add x5, x5, x6
    .word 0x01728533  # add x10, x5, x23
    .word 0x00551f13  # slli x30, x10, 5
    .word 0x01b55293  # srli x5, x10, 27
    .word 0x005f02b3  # add x5, x30, x5
    .word 0x00b28533  # add x10, x5, x11
    .word 0x00b54433  # xor x8, x10, x11
    .word 0x008673b3  # and x7, x12, x8
    .word 0x0075c333  # xor x6, x11, x7
    .word 0x006682b3  # add x5, x13, x6
    .word 0xc3370337  # lui x6, 0xc3370
    .word 0x7d630313  # addi x6, x6, 2006
    .word 0x006282b3  # add x5, x5, x6
    .word 0x05012303  # lw x6, 80(x2)
    .word 0x006286b3  # add x13, x5, x6
    .word 0x00969f13  # slli x30, x13, 9
    .word 0x0176d293  # srli x5, x13, 23
    .word 0x005f02b3  # add x5, x30, x5
    .word 0x00a286b3  # add x13, x5, x10
    .word 0x00a6c433  # xor x8, x13, x10
    .word 0x0085f3b3  # and x7, x11, x8
    .word 0x00754333  # xor x6, x10, x7
    .word 0x006602b3  # add x5, x12, x6
    .word 0xf4d51337  # lui x6, 0xf4d51
    .word 0xd8730313  # addi x6, x6, -633
    .word 0x006282b3  # add x5, x5, x6
    .word 0x01128633  # add x12, x5, x17
    .word 0x00e61f13  # slli x30, x12, 14
    .word 0x01265293  # srli x5, x12, 18
    .word 0x005f02b3  # add x5, x30, x5
    .word 0x00d28633  # add x12, x5, x13
    .word 0x00d64433  # xor x8, x12, x13
    .word 0x008573b3  # and x7, x10, x8
    .word 0x0076c333  # xor x6, x13, x7
    .word 0x006582b3  # add x5, x11, x6
    .word 0x455a1337  # lui x6, 0x455a1
    .word 0x4ed30313  # addi x6, x6, 1261
    .word 0x006282b3  # add x5, x5, x6
    .word 0x016285b3  # add x11, x5, x22
    .word 0x01459f13  # slli x30, x11, 20
    .word 0x00c5d293  # srli x5, x11, 12
    .word 0x005f02b3  # add x5, x30, x5
    .word 0x00c285b3  # add x11, x5, x12
    .word 0x00c5c433  # xor x8, x11, x12
    .word 0x0086f3b3  # and x7, x13, x8
    .word 0x00764333  # xor x6, x12, x7
    .word 0x006502b3  # add x5, x10, x6
    .word 0xa9e3f337  # lui x6, 0xa9e3f
    .word 0x90530313  # addi x6, x6, -1787
    .word 0x006282b3  # add x5, x5, x6
    .word 0x01b28533  # add x10, x5, x27
    .word 0x00551f13  # slli x30, x10, 5
    .word 0x01b55293  # srli x5, x10, 27
    .word 0x005f02b3  # add x5, x30, x5
    .word 0x00b28533  # add x10, x5, x11
    .word 0x00b54433  # xor x8, x10, x11
    .word 0x008673b3  # and x7, x12, x8
    .word 0x0075c333  # xor x6, x11, x7
    .word 0x006682b3  # add x5, x13, x6
    .word 0xfcefa337  # lui x6, 0xfcefa
    .word 0x3f830313  # addi x6, x6, 1016
    .word 0x006282b3  # add x5, x5, x6
    .word 0x010286b3  # add x13, x5, x16
    .word 0x00969f13  # slli x30, x13, 9
    .word 0x0176d293  # srli x5, x13, 23
    .word 0x005f02b3  # add x5, x30, x5
    .word 0x00a286b3  # add x13, x5, x10
    .word 0x00a6c433  # xor x8, x13, x10
    .word 0x0085f3b3  # and x7, x11, x8
    .word 0x00754333  # xor x6, x10, x7
    .word 0x006602b3  # add x5, x12, x6
    .word 0x676f0337  # lui x6, 0x676f0
    .word 0x2d930313  # addi x6, x6, 729
    .word 0x006282b3  # add x5, x5, x6
    .word 0x01528633  # add x12, x5, x21
    .word 0x00e61f13  # slli x30, x12, 14
    .word 0x01265293  # srli x5, x12, 18
    .word 0x005f02b3  # add x5, x30, x5
    .word 0x00d28633  # add x12, x5, x13
    .word 0x00d64433  # xor x8, x12, x13
    .word 0x008573b3  # and x7, x10, x8
    .word 0x0076c333  # xor x6, x13, x7
    .word 0x006582b3  # add x5, x11, x6
    .word 0x8d2a5337  # lui x6, 0x8d2a5
    .word 0xc8a30313  # addi x6, x6, -886
    .word 0x006282b3  # add x5, x5, x6
    .word 0x01a285b3  # add x11, x5, x26
    .word 0x01459f13  # slli x30, x11, 20
    .word 0x00c5d293  # srli x5, x11, 12
    .word 0x005f02b3  # add x5, x30, x5
    .word 0x00c285b3  # add x11, x5, x12
    .word 0x00c5c333  # xor x6, x11, x12
    .word 0x00d34333  # xor x6, x6, x13
    .word 0x006502b3  # add x5, x10, x6
    .word 0xfffa4337  # lui x6, 0xfffa4
    .word 0x94230313  # addi x6, x6, -1726
    .word 0x006282b3  # add x5, x5, x6
    .word 0x01328533  # add x10, x5, x19
    .word 0x00451f13  # slli x30, x10, 4
    .word 0x01c55293  # srli x5, x10, 28
    .word 0x005f02b3  # add x5, x30, x5
    .word 0x00b28533  # add x10, x5, x11
    .word 0x00b54333  # xor x6, x10, x11
    .word 0x00c34333  # xor x6, x6, x12
    .word 0x006682b3  # add x5, x13, x6
    .word 0x8771f337  # lui x6, 0x8771f
    .word 0x68130313  # addi x6, x6, 1665
    .word 0x006282b3  # add x5, x5, x6
    .word 0x016286b3  # add x13, x5, x22
    .word 0x00b69f13  # slli x30, x13, 11
    .word 0x0156d293  # srli x5, x13, 21
    .word 0x005f02b3  # add x5, x30, x5
    .word 0x00a286b3  # add x13, x5, x10
    .word 0x00a6c333  # xor x6, x13, x10
    .word 0x00b34333  # xor x6, x6, x11
    .word 0x006602b3  # add x5, x12, x6
    .word 0x6d9d6337  # lui x6, 0x6d9d6
    .word 0x12230313  # addi x6, x6, 290
    .word 0x006282b3  # add x5, x5, x6
    .word 0x01928633  # add x12, x5, x25
    .word 0x01061f13  # slli x30, x12, 16
    .word 0x01065293  # srli x5, x12, 16
    .word 0x005f02b3  # add x5, x30, x5
    .word 0x00d28633  # add x12, x5, x13
    .word 0x00d64333  # xor x6, x12, x13
    .word 0x00a34333  # xor x6, x6, x10
    .word 0x006582b3  # add x5, x11, x6
    .word 0xfde54337  # lui x6, 0xfde54
    .word 0x80c30313  # addi x6, x6, -2036
    .word 0x006282b3  # add x5, x5, x6
    .word 0x05012303  # lw x6, 80(x2)
    .word 0x006285b3  # add x11, x5, x6
    .word 0x01759f13  # slli x30, x11, 23
    .word 0x0095d293  # srli x5, x11, 9
    .word 0x005f02b3  # add x5, x30, x5
    .word 0x00c285b3  # add x11, x5, x12
    .word 0x00c5c333  # xor x6, x11, x12
    .word 0x00d34333  # xor x6, x6, x13
    .word 0x006502b3  # add x5, x10, x6
    .word 0xa4bef337  # lui x6, 0xa4bef
    .word 0xa4430313  # addi x6, x6, -1468
    .word 0x006282b3  # add x5, x5, x6
    .word 0x00f28533  # add x10, x5, x15
    .word 0x00451f13  # slli x30, x10, 4
    .word 0x01c55293  # srli x5, x10, 28
    .word 0x005f02b3  # add x5, x30, x5
    .word 0x00b28533  # add x10, x5, x11
    .word 0x00b54333  # xor x6, x10, x11
    .word 0x00c34333  # xor x6, x6, x12
    .word 0x006682b3  # add x5, x13, x6
    .word 0x4bded337  # lui x6, 0x4bded
    .word 0xfa930313  # addi x6, x6, -87
    .word 0x006282b3  # add x5, x5, x6
    .word 0x012286b3  # add x13, x5, x18
    .word 0x00b69f13  # slli x30, x13, 11
    .word 0x0156d293  # srli x5, x13, 21
    .word 0x005f02b3  # add x5, x30, x5
    .word 0x00a286b3  # add x13, x5, x10
    .word 0x00a6c333  # xor x6, x13, x10
    .word 0x00b34333  # xor x6, x6, x11
    .word 0x006602b3  # add x5, x12, x6
    .word 0xf6bb5337  # lui x6, 0xf6bb5
    .word 0xb6030313  # addi x6, x6, -1184
    .word 0x006282b3  # add x5, x5, x6
    .word 0x01528633  # add x12, x5, x21
    .word 0x01061f13  # slli x30, x12, 16
    .word 0x01065293  # srli x5, x12, 16
    .word 0x005f02b3  # add x5, x30, x5
    .word 0x00d28633  # add x12, x5, x13
    .word 0x00d64333  # xor x6, x12, x13
    .word 0x00a34333  # xor x6, x6, x10
    .word 0x006582b3  # add x5, x11, x6
    .word 0xbebfc337  # lui x6, 0xbebfc
    .word 0xc7030313  # addi x6, x6, -912
    .word 0x006282b3  # add x5, x5, x6
    .word 0x018285b3  # add x11, x5, x24
    .word 0x01759f13  # slli x30, x11, 23
    .word 0x0095d293  # srli x5, x11, 9
    .word 0x005f02b3  # add x5, x30, x5
    .word 0x00c285b3  # add x11, x5, x12
    .word 0x00c5c333  # xor x6, x11, x12
    .word 0x00d34333  # xor x6, x6, x13
    .word 0x006502b3  # add x5, x10, x6
    .word 0x289b8337  # lui x6, 0x289b8
    .word 0xec630313  # addi x6, x6, -314
    .word 0x006282b3  # add x5, x5, x6
    .word 0x01b28533  # add x10, x5, x27
    .word 0x00451f13  # slli x30, x10, 4
    .word 0x01c55293  # srli x5, x10, 28
    .word 0x005f02b3  # add x5, x30, x5
    .word 0x00b28533  # add x10, x5, x11
    .word 0x00b54333  # xor x6, x10, x11
    .word 0x00c34333  # xor x6, x6, x12
    .word 0x006682b3  # add x5, x13, x6
    .word 0xeaa12337  # lui x6, 0xeaa12
    .word 0x7fa30313  # addi x6, x6, 2042
    .word 0x006282b3  # add x5, x5, x6
    .word 0x00e286b3  # add x13, x5, x14
    .word 0x00b69f13  # slli x30, x13, 11
    .word 0x0156d293  # srli x5, x13, 21
    .word 0x005f02b3  # add x5, x30, x5
    .word 0x00a286b3  # add x13, x5, x10
    .word 0x00a6c333  # xor x6, x13, x10
    .word 0x00b34333  # xor x6, x6, x11
    .word 0x006602b3  # add x5, x12, x6
    .word 0xd4ef3337  # lui x6, 0xd4ef3
    .word 0x08530313  # addi x6, x6, 133
    .word 0x006282b3  # add x5, x5, x6
    .word 0x01128633  # add x12, x5, x17
    .word 0x01061f13  # slli x30, x12, 16
    .word 0x01065293  # srli x5, x12, 16
    .word 0x005f02b3  # add x5, x30, x5
    .word 0x00d28633  # add x12, x5, x13
    .word 0x00d64333  # xor x6, x12, x13
    .word 0x00a34333  # xor x6, x6, x10
    .word 0x006582b3  # add x5, x11, x6
    .word 0x04882337  # lui x6, 0x04882
    .word 0xd0530313  # addi x6, x6, -763
    .word 0x006282b3  # add x5, x5, x6
    .word 0x014285b3  # add x11, x5, x20
    .word 0x01759f13  # slli x30, x11, 23
    .word 0x0095d293  # srli x5, x11, 9
    .word 0x005f02b3  # add x5, x30, x5
    .word 0x00c285b3  # add x11, x5, x12
    .word 0x00c5c333  # xor x6, x11, x12
    .word 0x00d34333  # xor x6, x6, x13
    .word 0x006502b3  # add x5, x10, x6
    .word 0xd9d4d337  # lui x6, 0xd9d4d
    .word 0x03930313  # addi x6, x6, 57
    .word 0x006282b3  # add x5, x5, x6
    .word 0x01728533  # add x10, x5, x23
    .word 0x00451f13  # slli x30, x10, 4
    .word 0x01c55293  # srli x5, x10, 28
    .word 0x005f02b3  # add x5, x30, x5
    .word 0x00b28533  # add x10, x5, x11
    .word 0x00b54333  # xor x6, x10, x11
    .word 0x00c34333  # xor x6, x6, x12
    .word 0x006682b3  # add x5, x13, x6
    .word 0xe6dba337  # lui x6, 0xe6dba
    .word 0x9e530313  # addi x6, x6, -1563
    .word 0x006282b3  # add x5, x5, x6
    .word 0x01a286b3  # add x13, x5, x26
    .word 0x00b69f13  # slli x30, x13, 11
    .word 0x0156d293  # srli x5, x13, 21
    .word 0x005f02b3  # add x5, x30, x5
    .word 0x00a286b3  # add x13, x5, x10
    .word 0x00a6c333  # xor x6, x13, x10
    .word 0x00b34333  # xor x6, x6, x11
    .word 0x006602b3  # add x5, x12, x6
    .word 0x1fa28337  # lui x6, 0x1fa28
    .word 0xcf830313  # addi x6, x6, -776
    .word 0x006282b3  # add x5, x5, x6
    .word 0x05412303  # lw x6, 84(x2)
    .word 0x00628633  # add x12, x5, x6
    .word 0x01061f13  # slli x30, x12, 16
    .word 0x01065293  # srli x5, x12, 16
    .word 0x005f02b3  # add x5, x30, x5
    .word 0x00d28633  # add x12, x5, x13
    .word 0x00d64333  # xor x6, x12, x13
    .word 0x00a34333  # xor x6, x6, x10
    .word 0x006582b3  # add x5, x11, x6
    .word 0xc4ac5337  # lui x6, 0xc4ac5
    .word 0x66530313  # addi x6, x6, 1637
    .word 0x006282b3  # add x5, x5, x6
    .word 0x010285b3  # add x11, x5, x16
    .word 0x01759f13  # slli x30, x11, 23
    .word 0x0095d293  # srli x5, x11, 9
    .word 0x005f02b3  # add x5, x30, x5
    .word 0x00c285b3  # add x11, x5, x12
    .word 0xfff6c413  # xori x8, x13, -1
    .word 0x0085e3b3  # or x7, x11, x8
    .word 0x00764333  # xor x6, x12, x7
    .word 0x006502b3  # add x5, x10, x6
    .word 0xf4292337  # lui x6, 0xf4292
    .word 0x24430313  # addi x6, x6, 580
    .word 0x006282b3  # add x5, x5, x6
    .word 0x00e28533  # add x10, x5, x14
    .word 0x00651f13  # slli x30, x10, 6
    .word 0x01a55293  # srli x5, x10, 26
    .word 0x005f02b3  # add x5, x30, x5
    .word 0x00b28533  # add x10, x5, x11
    .word 0xfff64413  # xori x8, x12, -1
    .word 0x008563b3  # or x7, x10, x8
    .word 0x0075c333  # xor x6, x11, x7
    .word 0x006682b3  # add x5, x13, x6
    .word 0x432b0337  # lui x6, 0x432b0
    .word 0xf9730313  # addi x6, x6, -105
    .word 0x006282b3  # add x5, x5, x6
    .word 0x015286b3  # add x13, x5, x21
    .word 0x00a69f13  # slli x30, x13, 10
    .word 0x0166d293  # srli x5, x13, 22
    .word 0x005f02b3  # add x5, x30, x5
    .word 0x00a286b3  # add x13, x5, x10
    .word 0xfff5c413  # xori x8, x11, -1
    .word 0x0086e3b3  # or x7, x13, x8
    .word 0x00754333  # xor x6, x10, x7
    .word 0x006602b3  # add x5, x12, x6
    .word 0xab942337  # lui x6, 0xab942
    .word 0x3a730313  # addi x6, x6, 935
    .word 0x006282b3  # add x5, x5, x6
    .word 0x05012303  # lw x6, 80(x2)
    .word 0x00628633  # add x12, x5, x6
    .word 0x00f61f13  # slli x30, x12, 15
    .word 0x01165293  # srli x5, x12, 17
    .word 0x005f02b3  # add x5, x30, x5
    .word 0x00d28633  # add x12, x5, x13
    .word 0xfff54413  # xori x8, x10, -1
    .word 0x008663b3  # or x7, x12, x8
    .word 0x0076c333  # xor x6, x13, x7
    .word 0x006582b3  # add x5, x11, x6
    .word 0xfc93a337  # lui x6, 0xfc93a
    .word 0x03930313  # addi x6, x6, 57
    .word 0x006282b3  # add x5, x5, x6
    .word 0x013285b3  # add x11, x5, x19
    .word 0x01559f13  # slli x30, x11, 21
    .word 0x00b5d293  # srli x5, x11, 11
    .word 0x005f02b3  # add x5, x30, x5
    .word 0x00c285b3  # add x11, x5, x12
    .word 0xfff6c413  # xori x8, x13, -1
    .word 0x0085e3b3  # or x7, x11, x8
    .word 0x00764333  # xor x6, x12, x7
    .word 0x006502b3  # add x5, x10, x6
    .word 0x655b6337  # lui x6, 0x655b6
    .word 0x9c330313  # addi x6, x6, -1597
    .word 0x006282b3  # add x5, x5, x6
    .word 0x01a28533  # add x10, x5, x26
    .word 0x00651f13  # slli x30, x10, 6
    .word 0x01a55293  # srli x5, x10, 26
    .word 0x005f02b3  # add x5, x30, x5
    .word 0x00b28533  # add x10, x5, x11
    .word 0xfff64413  # xori x8, x12, -1
    .word 0x008563b3  # or x7, x10, x8
    .word 0x0075c333  # xor x6, x11, x7
    .word 0x006682b3  # add x5, x13, x6
    .word 0x8f0cd337  # lui x6, 0x8f0cd
    .word 0xc9230313  # addi x6, x6, -878
    .word 0x006282b3  # add x5, x5, x6
    .word 0x011286b3  # add x13, x5, x17
    .word 0x00a69f13  # slli x30, x13, 10
    .word 0x0166d293  # srli x5, x13, 22
    .word 0x005f02b3  # add x5, x30, x5
    .word 0x00a286b3  # add x13, x5, x10
    .word 0xfff5c413  # xori x8, x11, -1
    .word 0x0086e3b3  # or x7, x13, x8
    .word 0x00754333  # xor x6, x10, x7
    .word 0x006602b3  # add x5, x12, x6
    .word 0xffeff337  # lui x6, 0xffeff
    .word 0x47d30313  # addi x6, x6, 1149
    .word 0x006282b3  # add x5, x5, x6
    .word 0x01828633  # add x12, x5, x24
    .word 0x00f61f13  # slli x30, x12, 15
    .word 0x01165293  # srli x5, x12, 17
    .word 0x005f02b3  # add x5, x30, x5
    .word 0x00d28633  # add x12, x5, x13
    .word 0xfff54413  # xori x8, x10, -1
    .word 0x008663b3  # or x7, x12, x8
    .word 0x0076c333  # xor x6, x13, x7
    .word 0x006582b3  # add x5, x11, x6
    .word 0x85846337  # lui x6, 0x85846
    .word 0xdd130313  # addi x6, x6, -559
    .word 0x006282b3  # add x5, x5, x6
    .word 0x00f285b3  # add x11, x5, x15
    .word 0x01559f13  # slli x30, x11, 21
    .word 0x00b5d293  # srli x5, x11, 11
    .word 0x005f02b3  # add x5, x30, x5
    .word 0x00c285b3  # add x11, x5, x12
    .word 0xfff6c413  # xori x8, x13, -1
    .word 0x0085e3b3  # or x7, x11, x8
    .word 0x00764333  # xor x6, x12, x7
    .word 0x006502b3  # add x5, x10, x6
    .word 0x6fa88337  # lui x6, 0x6fa88
    .word 0xe4f30313  # addi x6, x6, -433
    .word 0x006282b3  # add x5, x5, x6
    .word 0x01628533  # add x10, x5, x22
    .word 0x00651f13  # slli x30, x10, 6
    .word 0x01a55293  # srli x5, x10, 26
    .word 0x005f02b3  # add x5, x30, x5
    .word 0x00b28533  # add x10, x5, x11
    .word 0xfff64413  # xori x8, x12, -1
    .word 0x008563b3  # or x7, x10, x8
    .word 0x0075c333  # xor x6, x11, x7
    .word 0x006682b3  # add x5, x13, x6
    .word 0xfe2ce337  # lui x6, 0xfe2ce
    .word 0x6e030313  # addi x6, x6, 1760
    .word 0x006282b3  # add x5, x5, x6
    .word 0x05412303  # lw x6, 84(x2)
    .word 0x006286b3  # add x13, x5, x6
    .word 0x00a69f13  # slli x30, x13, 10
    .word 0x0166d293  # srli x5, x13, 22
    .word 0x005f02b3  # add x5, x30, x5
    .word 0x00a286b3  # add x13, x5, x10
    .word 0xfff5c413  # xori x8, x11, -1
    .word 0x0086e3b3  # or x7, x13, x8
    .word 0x00754333  # xor x6, x10, x7
    .word 0x006602b3  # add x5, x12, x6
    .word 0xa3014337  # lui x6, 0xa3014
    .word 0x31430313  # addi x6, x6, 788
    .word 0x006282b3  # add x5, x5, x6
    .word 0x01428633  # add x12, x5, x20
    .word 0x00f61f13  # slli x30, x12, 15
    .word 0x01165293  # srli x5, x12, 17
    .word 0x005f02b3  # add x5, x30, x5
    .word 0x00d28633  # add x12, x5, x13
    .word 0xfff54413  # xori x8, x10, -1
    .word 0x008663b3  # or x7, x12, x8
    .word 0x0076c333  # xor x6, x13, x7
    .word 0x006582b3  # add x5, x11, x6
    .word 0x4e081337  # lui x6, 0x4e081
    .word 0x1a130313  # addi x6, x6, 417
    .word 0x006282b3  # add x5, x5, x6
    .word 0x01b285b3  # add x11, x5, x27
    .word 0x01559f13  # slli x30, x11, 21
    .word 0x00b5d293  # srli x5, x11, 11
    .word 0x005f02b3  # add x5, x30, x5
    .word 0x00c285b3  # add x11, x5, x12
    .word 0xfff6c413  # xori x8, x13, -1
    .word 0x0085e3b3  # or x7, x11, x8
    .word 0x00764333  # xor x6, x12, x7
    .word 0x006502b3  # add x5, x10, x6
    .word 0xf7538337  # lui x6, 0xf7538
    .word 0xe8230313  # addi x6, x6, -382
    .word 0x006282b3  # add x5, x5, x6
    .word 0x01228533  # add x10, x5, x18
    .word 0x00651f13  # slli x30, x10, 6
    .word 0x01a55293  # srli x5, x10, 26
    .word 0x005f02b3  # add x5, x30, x5
    .word 0x00b28533  # add x10, x5, x11
    .word 0xfff64413  # xori x8, x12, -1
    .word 0x008563b3  # or x7, x10, x8
    .word 0x0075c333  # xor x6, x11, x7
    .word 0x006682b3  # add x5, x13, x6
    .word 0xbd3af337  # lui x6, 0xbd3af
    .word 0x23530313  # addi x6, x6, 565
    .word 0x006282b3  # add x5, x5, x6
    .word 0x019286b3  # add x13, x5, x25
    .word 0x00a69f13  # slli x30, x13, 10
    .word 0x0166d293  # srli x5, x13, 22
    .word 0x005f02b3  # add x5, x30, x5
    .word 0x00a286b3  # add x13, x5, x10
    .word 0xfff5c413  # xori x8, x11, -1
    .word 0x0086e3b3  # or x7, x13, x8
    .word 0x00754333  # xor x6, x10, x7
    .word 0x006602b3  # add x5, x12, x6
    .word 0x2ad7d337  # lui x6, 0x2ad7d
    .word 0x2bb30313  # addi x6, x6, 699
    .word 0x006282b3  # add x5, x5, x6
    .word 0x01028633  # add x12, x5, x16
    .word 0x00f61f13  # slli x30, x12, 15
    .word 0x01165293  # srli x5, x12, 17
    .word 0x005f02b3  # add x5, x30, x5
    .word 0x00d28633  # add x12, x5, x13
    .word 0xfff54413  # xori x8, x10, -1
    .word 0x008663b3  # or x7, x12, x8
    .word 0x0076c333  # xor x6, x13, x7
    .word 0x006582b3  # add x5, x11, x6
    .word 0xeb86d337  # lui x6, 0xeb86d
    .word 0x39130313  # addi x6, x6, 913
    .word 0x006282b3  # add x5, x5, x6
    .word 0x017285b3  # add x11, x5, x23
    .word 0x01559f13  # slli x30, x11, 21
    .word 0x00b5d293  # srli x5, x11, 11
    .word 0x005f02b3  # add x5, x30, x5
    .word 0x00c285b3  # add x11, x5, x12
    .word 0x00012283  # lw x5, 0(x2)
    .word 0x00a282b3  # add x5, x5, x10
    .word 0x00512023  # sw x5, 0(x2)
    .word 0x00412283  # lw x5, 4(x2)
    .word 0x00b282b3  # add x5, x5, x11
    .word 0x00512223  # sw x5, 4(x2)
    .word 0x00812283  # lw x5, 8(x2)
    .word 0x00c282b3  # add x5, x5, x12
    .word 0x00512423  # sw x5, 8(x2)
    .word 0x00c12283  # lw x5, 12(x2)
    .word 0x00d282b3  # add x5, x5, x13
    .word 0x00512623  # sw x5, 12(x2)
    # the result
    .word 0x00000513  # addi x10, x0, 0
    # parameter 0: the array, back
    .word 0x00010293  # addi x5, x2, 0
    .word 0x08c12303  # lw x6, 140(x2)
    .word 0x0002ae03  # lw x28, 0(x5)
    .word 0x01c32023  # sw x28, 0(x6)
    .word 0x0042ae03  # lw x28, 4(x5)
    .word 0x01c32223  # sw x28, 4(x6)
    .word 0x0082ae03  # lw x28, 8(x5)
    .word 0x01c32423  # sw x28, 8(x6)
    .word 0x00c2ae03  # lw x28, 12(x5)
    .word 0x01c32623  # sw x28, 12(x6)
    # above the frame
    .word 0x06010293  # addi x5, x2, 96
    # the caller's registers
    .word 0x0002a403  # lw x8, 0(x5)
    .cfi_restore 8
    .word 0x0042a903  # lw x18, 4(x5)
    .cfi_restore 18
    .word 0x0082a983  # lw x19, 8(x5)
    .cfi_restore 19
    .word 0x00c2aa03  # lw x20, 12(x5)
    .cfi_restore 20
    .word 0x0102aa83  # lw x21, 16(x5)
    .cfi_restore 21
    .word 0x0142ab03  # lw x22, 20(x5)
    .cfi_restore 22
    .word 0x0182ab83  # lw x23, 24(x5)
    .cfi_restore 23
    .word 0x01c2ac03  # lw x24, 28(x5)
    .cfi_restore 24
    .word 0x0202ac83  # lw x25, 32(x5)
    .cfi_restore 25
    .word 0x0242ad03  # lw x26, 36(x5)
    .cfi_restore 26
    .word 0x0282ad83  # lw x27, 40(x5)
    .cfi_restore 27
    # the caller's x2
    .word 0x03028293  # addi x5, x5, 48
    .cfi_def_cfa 5, 0
    # all the room, wiped upward
    .word 0x00012023  # sw x0, 0(x2)
    .word 0x00012223  # sw x0, 4(x2)
    .word 0x00012423  # sw x0, 8(x2)
    .word 0x00012623  # sw x0, 12(x2)
    .word 0x01010113  # addi x2, x2, 16
    .word 0xfe5116e3  # bne x2, x5, -20
    .cfi_def_cfa 2, 0
    # temporaries, wiped
    .word 0x00000293  # addi x5, x0, 0
    .word 0x00000313  # addi x6, x0, 0
    .word 0x00000393  # addi x7, x0, 0
    .word 0x00000593  # addi x11, x0, 0
    .word 0x00000613  # addi x12, x0, 0
    .word 0x00000693  # addi x13, x0, 0
    .word 0x00000713  # addi x14, x0, 0
    .word 0x00000793  # addi x15, x0, 0
    .word 0x00000813  # addi x16, x0, 0
    .word 0x00000893  # addi x17, x0, 0
    .word 0x00000e13  # addi x28, x0, 0
    .word 0x00000e93  # addi x29, x0, 0
    .word 0x00000f13  # addi x30, x0, 0
    .word 0x00000f93  # addi x31, x0, 0
    # back
    .word 0x00008067  # jalr x0, 0(x1)
    # from x5 to x6 up to x7, and back
    .cfi_def_cfa 2, 144
    .cfi_offset 8, -48
    .cfi_offset 18, -44
    .cfi_offset 19, -40
    .cfi_offset 20, -36
    .cfi_offset 21, -32
    .cfi_offset 22, -28
    .cfi_offset 23, -24
    .cfi_offset 24, -20
    .cfi_offset 25, -16
    .cfi_offset 26, -12
    .cfi_offset 27, -8
    .word 0x0062ee33  # or x28, x5, x6
    .word 0x003e7e13  # andi x28, x28, 3
    .word 0x000e0e63  # beq x28, x0, 28
    .word 0x0002ce03  # lbu x28, 0(x5)
    .word 0x01c30023  # sb x28, 0(x6)
    .word 0x00128293  # addi x5, x5, 1
    .word 0x00130313  # addi x6, x6, 1
    .word 0xfe7298e3  # bne x5, x7, -16
    .word 0x0300006f  # jal x0, 48
    .word 0x0002ae03  # lw x28, 0(x5)
    .word 0x01c32023  # sw x28, 0(x6)
    .word 0x0042ae03  # lw x28, 4(x5)
    .word 0x01c32223  # sw x28, 4(x6)
    .word 0x0082ae03  # lw x28, 8(x5)
    .word 0x01c32423  # sw x28, 8(x6)
    .word 0x00c2ae03  # lw x28, 12(x5)
    .word 0x01c32623  # sw x28, 12(x6)
    .word 0x01028293  # addi x5, x5, 16
    .word 0x01030313  # addi x6, x6, 16
    .word 0xfc729ce3  # bne x5, x7, -40
    .word 0x000f0067  # jalr x0, 0(x30)
    .cfi_endproc
    .size md5_block, . - md5_block
    .option pop
