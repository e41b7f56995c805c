/* QEMU's mps2-an386: 4 MB of each. */
ENTRY(run)
MEMORY {
    flash (rx) : ORIGIN = 0, LENGTH = 4M
    ram (rwx) : ORIGIN = 0x20000000, LENGTH = 4M
}
stack_top = 0x20400000;
SECTIONS {
    .text : { KEEP(*(.vectors)) *(.text*) } >flash
    .rodata : { *(.rodata*) *(.data.rel.ro*) } >flash
    .bss : { *(.data*) *(.bss*) *(COMMON) } >ram
    /DISCARD/ : { *(.ARM.exidx*) *(.ARM.extab*) *(.comment*) *(.note*) }
}
