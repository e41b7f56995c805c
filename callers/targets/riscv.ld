/* QEMU's virt. */
ENTRY(start)
MEMORY { ram (rwx) : ORIGIN = 0x80000000, LENGTH = 16M }
stack_top = 0x81000000;
SECTIONS {
    .text : { KEEP(*(.vectors)) *(.text*) } >ram
    .rodata : { *(.rodata*) *(.data.rel.ro*) *(.srodata*) } >ram
    .bss : { *(.data*) *(.sdata*) *(.sbss*) *(.bss*) *(COMMON) } >ram
    /DISCARD/ : { *(.comment*) *(.note*) *(.riscv.attributes) *(.eh_frame*) }
}
