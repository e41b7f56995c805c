/* The same at the places of QEMU's virt, all of which is RAM: code for RISC-V takes half as much again. */
ENTRY(start)
MEMORY {
    flash (rx) : ORIGIN = 0x80000000, LENGTH = 24K
    ram (rwx) : ORIGIN = 0x80100000, LENGTH = 4K
}
stack_top = ORIGIN(ram) + LENGTH(ram);
SECTIONS {
    .text : { KEEP(*(.vectors)) *(.text*) *(.rodata*) *(.srodata*) *(.data.rel.ro*) . = ALIGN(4); } >flash
    .data : { data_begin = .; *(.data*) *(.sdata*) . = ALIGN(4); data_end = .; } >ram AT >flash
    data_from = LOADADDR(.data);
    .bss : { bss_begin = .; *(.sbss*) *(.bss*) *(COMMON) . = ALIGN(4); bss_end = .; } >ram
    ASSERT(stack_top - bss_end >= 2K, "the library's calls have less than 1 kB of stack, and main its own")
    /DISCARD/ : { *(.comment*) *(.note*) *(.riscv.attributes) *(.eh_frame*) }
}
