/* QEMU's board `virt` with its first megabyte of memory. A board of your own has its code and constants in flash, and copies .data. */
OUTPUT_ARCH(riscv)
ENTRY(_start)
PHDRS {
    code PT_LOAD FLAGS(5);
    data PT_LOAD FLAGS(6);
}
MEMORY { ram (rwx) : ORIGIN = 0x80000000, LENGTH = 1M }
stack_bytes = 16K;
SECTIONS {
    .text : { *(.start) *(.text .text.*) } > ram :code
    .rodata : { *(.rodata .rodata.* .srodata .srodata.*) } > ram :code
    .data : ALIGN(4) { *(.data .data.* .sdata .sdata.*) } > ram :data
    .bss (NOLOAD) : ALIGN(4) {
        bss_start = .;
        *(.bss .bss.* .sbss .sbss.* COMMON)
        . = ALIGN(4);
        bss_end = .;
    } > ram :data
    .stack (NOLOAD) : ALIGN(16) {
        stack_bottom = .;
        . += stack_bytes;
        stack_top = .;
    } > ram :data
}
