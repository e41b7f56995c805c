/* What is counted of a stack: what lies in flash, what is copied from there, and what is only in RAM. */
SECTIONS {
    .text : { *(.text*) *(.rodata*) }
    .data : { *(.data*) }
    .bss : { *(.bss*) *(COMMON) }
    /DISCARD/ : { *(.ARM.exidx*) *(.comment*) *(.note*) *(.ARM.attributes) }
}
