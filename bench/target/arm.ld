/* Flash and RAM of a board, whose places and sizes the build puts in. */
MEMORY {
    FLASH (rx) : ORIGIN = FLASH_AT, LENGTH = FLASH_SIZE
    RAM (rwx) : ORIGIN = RAM_AT, LENGTH = RAM_SIZE
}
SECTIONS {
    .text : { KEEP(*(.vectors)) *(.text*) *(.rodata*) . = ALIGN(4); } > FLASH
    .ARM.exidx : { *(.ARM.exidx*) } > FLASH
    data_load = LOADADDR(.data);
    .data : { data_start = .; *(.data*) . = ALIGN(4); data_end = .; } > RAM AT > FLASH
    .bss : { bss_start = .; *(.bss*) *(COMMON) . = ALIGN(4); bss_end = .; } > RAM
    stack_top = ORIGIN(RAM) + LENGTH(RAM);
}
