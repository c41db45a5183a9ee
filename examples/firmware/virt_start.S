# Where QEMU's board `virt` begins: the stack is filled, so that it is seen how much of it was used, .bss is zeroed, main is called.
    .section .start, "ax"
    .globl _start
_start:
    la t0, trapped
    csrw mtvec, t0
    la sp, stack_top
    la t0, stack_bottom
    li t1, 0xa5a5a5a5
1:  sw t1, 0(t0)
    addi t0, t0, 4
    bltu t0, sp, 1b
    la t0, bss_start
    la t1, bss_end
2:  bgeu t0, t1, 3f
    sw zero, 0(t0)
    addi t0, t0, 4
    j 2b
3:  call main
    call board_end

# No interrupt is on, so a trap is a fault: status 2.
    .balign 4
trapped:
    la sp, stack_top
    li a0, 2
    call board_end
