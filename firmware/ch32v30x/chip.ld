/* CH32V307: code in flash, data in RAM. NOT TRIED ON SILICON; sizes are the smallest split of flash and RAM. */
ENTRY(_start)
MEMORY
{
    FLASH (rx) : ORIGIN = 0x00000000, LENGTH = 192K
    RAM (rw) : ORIGIN = 0x20000000, LENGTH = 32K
}
SECTIONS
{
    .text : { *(.text.start) *(.text .text.*) } > FLASH
    .rodata : { *(.rodata .rodata.* .srodata .srodata.*); . = ALIGN(4); } > FLASH
    .data : { _data = .; *(.data .data.* .sdata .sdata.*); . = ALIGN(4); _data_end = .; } > RAM AT > FLASH
    _data_load = LOADADDR(.data);
    .bss (NOLOAD) : { _bss = .; *(.bss .bss.* .sbss .sbss.* COMMON); . = ALIGN(16); _bss_end = .; } > RAM
    _stack = ORIGIN(RAM) + LENGTH(RAM);
    ASSERT(_stack - _bss_end >= 4096, "less than 4 KB of stack")
}
