# Calls FUNCTION with all registers set: x1 is where it comes back to, the others are those of `registers`, where what they
# are after the call is put. The caller's own are kept meanwhile.
    .text
    .globl enter
enter:
    lla x5, own
    .irp r, 1, 2, 3, 4, 8, 9, 18, 19, 20, 21, 22, 23, 24, 25, 26, 27
    sw x\r, 4 * \r (x5)
    .endr
    lla x1, registers
    .irp r, 2, 3, 4, 5, 6, 7, 8, 9, 10, 11, 12, 13, 14, 15, 16, 17, 18, 19, 20, 21, 22, 23, 24, 25, 26, 27, 28, 29, 30, 31
    lw x\r, 4 * \r (x1)
    .endr
    lla x1, back
    j FUNCTION
back:
    lla x1, registers
    .irp r, 2, 3, 4, 5, 6, 7, 8, 9, 10, 11, 12, 13, 14, 15, 16, 17, 18, 19, 20, 21, 22, 23, 24, 25, 26, 27, 28, 29, 30, 31
    sw x\r, 4 * \r (x1)
    .endr
    lla x5, own
    .irp r, 1, 2, 3, 4, 8, 9, 18, 19, 20, 21, 22, 23, 24, 25, 26, 27
    lw x\r, 4 * \r (x5)
    .endr
    ret
