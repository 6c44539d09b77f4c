/* The sections of an image, in a board's memory: CODE and DATA, which board.py says before this file; the stack at the end of the data. */
ENTRY(reset)
SECTIONS
{
    .text : { KEEP(*(.vectors)) *(.text*) *(.rodata*) *(.srodata*) } > CODE
    .ARM.exidx : { *(.ARM.exidx*) } > CODE
    .data : { data_start = .; *(.data*) *(.sdata*) . = ALIGN(4); data_end = .; } > DATA AT > CODE
    data_load = LOADADDR(.data);
    .bss (NOLOAD) : { bss_start = .; *(.bss*) *(.sbss*) *(COMMON) . = ALIGN(4); bss_end = .; } > DATA
    stack_top = ORIGIN(DATA) + LENGTH(DATA);
}
