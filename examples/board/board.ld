/* The memory of a BBC micro:bit: a Cortex-M0, 256 KB of flash, 16 KB of RAM. The other emulated boards have memory at the same
 * places, and more of it: --defsym=ram_bytes=.. takes more. Put your chip's numbers here. */
MEMORY
{
    FLASH (rx) : ORIGIN = 0x00000000, LENGTH = 256K
    RAM (rwx) : ORIGIN = 0x20000000, LENGTH = DEFINED(ram_bytes) ? ram_bytes : 16K
}
ENTRY(entry)
SECTIONS
{
    .text : { entry = .; KEEP(*(.vectors)) *(.text .text.*) *(.rodata .rodata.*) . = ALIGN(8); } >FLASH
    .ARM.exidx : { *(.ARM.exidx*) *(.ARM.extab*) . = ALIGN(8); } >FLASH
    /* kept in flash, copied by start.c */
    .data : { data_start = .; *(.data .data.*) . = ALIGN(8); data_end = .; } >RAM AT>FLASH
    data_kept = LOADADDR(.data);
    .bss (NOLOAD) : { bss_start = .; *(.bss .bss.*) *(COMMON) . = ALIGN(8); bss_end = .; } >RAM
    /* the heap of the C library begins here; the library of the drive has none */
    end = .;
    stack_top = ORIGIN(RAM) + LENGTH(RAM);
}
