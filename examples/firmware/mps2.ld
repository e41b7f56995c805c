/* 16 kB of flash and 4 kB of RAM, as the smallest microcontrollers with USB have, at the places of QEMU's mps2-an386. */
ENTRY(run)
MEMORY {
    flash (rx) : ORIGIN = 0, LENGTH = 16K
    ram (rwx) : ORIGIN = 0x20000000, LENGTH = 4K
}
stack_top = ORIGIN(ram) + LENGTH(ram);
SECTIONS {
    .text : { KEEP(*(.vectors)) *(.text*) *(.rodata*) *(.data.rel.ro*) . = ALIGN(4); } >flash
    .data : { data_begin = .; *(.data*) . = ALIGN(4); data_end = .; } >ram AT >flash
    data_from = LOADADDR(.data);
    .bss : { bss_begin = .; *(.bss*) *(COMMON) . = ALIGN(4); bss_end = .; } >ram
    ASSERT(stack_top - bss_end >= 2K, "the library's calls have less than 1 kB of stack, and main its own")
    /DISCARD/ : { *(.ARM.exidx*) *(.ARM.extab*) *(.comment*) *(.note*) }
}
