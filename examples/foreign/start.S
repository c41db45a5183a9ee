# The beginning of the code. The machine starts here, with the frame's base in sp (x2) and 0 in all other registers.
# FRAME_BYTES is the number that `factc wrap` is given with --frame: what follows the slots is the stack's.
    .section .text.start
    .globl start
start:
    mv      a0, sp
    li      t0, FRAME_BYTES
    add     sp, sp, t0
    call    on_frame
    ecall
