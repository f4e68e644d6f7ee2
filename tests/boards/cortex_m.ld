/* Where a program for the MPS2 board with a Cortex-M3 lies. What it holds is loaded to where it runs. */
ENTRY(begin)
SECTIONS
{
    /DISCARD/ : { *(.ARM.exidx*) }
    . = 0;
    .text : { KEEP(*(.vectors)) *(.text .text.*) *(.rodata .rodata.*) }
    . = 0x20000000;
    .data : { *(.data .data.*) }
    .bss : { *(.bss .bss.*) *(COMMON) }
    . = 0x20300000;
    stack_bottom = .; /* of what is painted */
    . += 0x2000;
    stack_top = .;
}
