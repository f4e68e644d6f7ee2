/*
 * Where the program lies. The sizes are those of a small chip, and less than the machine has: what doesn't fit isn't linked.
 * For another chip, change the two lines of MEMORY, and the stack by the table in docs/BOARDS.md.
 */
MEMORY
{
    flash (rx) : ORIGIN = 0x00000000, LENGTH = 16K
    ram (rwx)  : ORIGIN = 0x20000000, LENGTH = 6K
}
stack_size = 2K;
ENTRY(begin)

SECTIONS
{
    .text : { KEEP(*(.vectors)) *(.text .text.*) *(.rodata .rodata.*) } > flash

    /* Lowest in memory, so that a stack which grows too far doesn't write over data. */
    .stack (NOLOAD) : { . += stack_size; . = ALIGN(8); stack_top = .; } > ram

    .data : { . = ALIGN(4); data_begin = .; *(.data .data.*) . = ALIGN(4); data_end = .; } > ram AT > flash
    data_kept = LOADADDR(.data);
    .bss (NOLOAD) : { . = ALIGN(4); bss_begin = .; *(.bss .bss.* COMMON) . = ALIGN(4); bss_end = .; } > ram

    /DISCARD/ : { *(.ARM.exidx*) *(.ARM.attributes) *(.comment) }
}
