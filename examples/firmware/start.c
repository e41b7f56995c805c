/* What runs before main. */
#include <stdint.h>

int main(void);
void start(void);
void run(void);

extern uint32_t data_from[], data_begin[], data_end[], bss_begin[], bss_end[];
extern uint8_t stack_top[];

__attribute__((used)) void run(void) {
    for (uint32_t *to = data_begin, *from = data_from; to < data_end;) *to++ = *from++;
    for (uint32_t *at = bss_begin; at < bss_end;) *at++ = 0;
    main();
    for (;;) {}
}

#if defined __riscv

__attribute__((naked, section(".vectors"), used)) void start(void) { __asm__("la sp, stack_top\n j run"); }

#else

static void halt(void) {
    for (;;) {}
}

__attribute__((section(".vectors"), used)) static void *const vectors[16] = {
    stack_top, (void *)run, (void *)halt, (void *)halt, (void *)halt, (void *)halt, (void *)halt, 0, 0, 0, 0, (void *)halt, (void *)halt, 0, (void *)halt, (void *)halt};

#endif
