/* The emulator's machine (qemu, virt): all in RAM. */
ENTRY(_start)
SECTIONS
{
    . = 0x80000000;
    .text : { *(.text.start) *(.text .text.*) }
    .rodata : { *(.rodata .rodata.* .srodata .srodata.*) }
    . = ALIGN(4);
    .data : { _data = .; *(.data .data.* .sdata .sdata.*); . = ALIGN(4); _data_end = .; }
    _data_load = LOADADDR(.data);
    .bss : { _bss = .; *(.bss .bss.* .sbss .sbss.* COMMON); . = ALIGN(16); _bss_end = .; }
    . += 0x10000;
    _stack = ALIGN(16);
}
