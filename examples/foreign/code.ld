/* The code from 0x00010000 on, the start first. There is no place for data: the frame alone is data, and its base is known at run
   time only. */
ENTRY(start)
SECTIONS
{
    . = 0x00010000;
    .text : { *(.text.start) *(.text .text.*) }
    .data : { *(.rodata .rodata.* .srodata .srodata.* .data .data.* .sdata .sdata.* .bss .bss.* .sbss .sbss.* COMMON) }
    ASSERT(SIZEOF(.data) == 0, "tables and variables outside functions have no place: code is no data")
    /DISCARD/ : { *(.comment) *(.riscv.attributes) *(.note .note.*) *(.eh_frame) }
}
