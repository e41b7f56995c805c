/* The start of the program over glibc 2.2.5's __libc_start_main, so that it asks for nothing newer than 2.14's memcpy. x86-64. */
    .symver start_main, __libc_start_main@GLIBC_2.2.5
    .globl _start
    .type _start, @function
_start:
    xorl %ebp, %ebp
    movq %rdx, %r9
    popq %rsi
    movq %rsp, %rdx
    andq $-16, %rsp
    pushq %rax
    pushq %rsp
    xorl %r8d, %r8d
    xorl %ecx, %ecx
    leaq main(%rip), %rdi
    call *start_main@GOTPCREL(%rip)
    hlt
    .section .note.GNU-stack,"",@progbits
