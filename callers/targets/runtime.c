/* What compilers call where a processor has no such instruction, and the three functions over bytes: a program for a real one
 * links those of its compiler and C library. Plain, so that none calls another of them. */
#include <stddef.h>
#include <stdint.h>

#define UNUSED __attribute__((unused))

void *memcpy(void *to, const void *from, size_t length);
void *memmove(void *to, const void *from, size_t length);
void *memset(void *to, int byte, size_t length);

void *memcpy(void *to, const void *from, size_t length) {
    uint8_t *t = to;
    const uint8_t *f = from;
    if (!(((size_t)t | (size_t)f) & 3))
        for (; length >= 4; length -= 4, t += 4, f += 4) *(uint32_t *)t = *(const uint32_t *)f;
    while (length--) *t++ = *f++;
    return to;
}

void *memmove(void *to, const void *from, size_t length) {
    uint8_t *t = to;
    const uint8_t *f = from;
    if (t <= f || t >= f + length) return memcpy(to, from, length);
    while (length--) t[length] = f[length];
    return to;
}

void *memset(void *to, int byte, size_t length) {
    uint8_t *t = to;
    for (; ((size_t)t & 3) && length; length--) *t++ = (uint8_t)byte;
    for (; length >= 4; length -= 4, t += 4) *(uint32_t *)t = (uint8_t)byte * 0x01010101u;
    while (length--) *t++ = (uint8_t)byte;
    return to;
}

#if !defined __x86_64__ && !defined __wasm__

union halves { uint64_t all; uint32_t half[2]; };

UNUSED static uint64_t left(uint64_t a, int n) {
    union halves from = {a}, to;
    if (!n) return a;
    to.half[0] = n >= 32 ? 0 : from.half[0] << n;
    to.half[1] = n >= 32 ? from.half[0] << (n - 32) : from.half[1] << n | from.half[0] >> (32 - n);
    return to.all;
}

UNUSED static uint64_t right(uint64_t a, int n) {
    union halves from = {a}, to;
    if (!n) return a;
    to.half[1] = n >= 32 ? 0 : from.half[1] >> n;
    to.half[0] = n >= 32 ? from.half[1] >> (n - 32) : from.half[0] >> n | from.half[1] << (32 - n);
    return to.all;
}

UNUSED static uint64_t times(uint64_t a, uint64_t b) {
    uint64_t sum = 0;
    for (int i = 0; i < 64; i++)
        if (right(b, i) & 1) sum += left(a, i);
    return sum;
}

uint64_t divide64(uint64_t n, uint64_t d, uint64_t *rest);
uint64_t divide64(uint64_t n, uint64_t d, uint64_t *rest) {
    uint64_t quotient = 0, left_over = 0;
    for (int i = 63; i >= 0; i--) {
        left_over = left_over << 1 | (right(n, i) & 1);
        quotient <<= 1;
        if (left_over >= d) {
            left_over -= d;
            quotient |= 1;
        }
    }
    *rest = left_over;
    return quotient;
}

uint32_t divide32(uint32_t n, uint32_t d, uint32_t *rest);
uint32_t divide32(uint32_t n, uint32_t d, uint32_t *rest) {
    uint32_t quotient = 0, left_over = 0;
    for (int i = 31; i >= 0; i--) {
        left_over = left_over << 1 | (n >> i & 1);
        quotient <<= 1;
        if (left_over >= d) {
            left_over -= d;
            quotient |= 1;
        }
    }
    *rest = left_over;
    return quotient;
}

uint64_t __udivdi3(uint64_t n, uint64_t d);
uint64_t __umoddi3(uint64_t n, uint64_t d);
uint64_t __udivdi3(uint64_t n, uint64_t d) {
    uint64_t rest;
    return divide64(n, d, &rest);
}
uint64_t __umoddi3(uint64_t n, uint64_t d) {
    uint64_t rest;
    divide64(n, d, &rest);
    return rest;
}

#endif

#if defined __arm__
/* The run-time ABI for the Arm architecture: bytes with their own order of parameters, and quotient and rest in registers. */
#define COPY(name) void name(void *to, const void *from, size_t length); void name(void *to, const void *from, size_t length) { memcpy(to, from, length); }
#define MOVE(name) void name(void *to, const void *from, size_t length); void name(void *to, const void *from, size_t length) { memmove(to, from, length); }
#define FILL(name) void name(void *to, size_t length, int byte); void name(void *to, size_t length, int byte) { memset(to, byte, length); }
#define CLEAR(name) void name(void *to, size_t length); void name(void *to, size_t length) { memset(to, 0, length); }
COPY(__aeabi_memcpy) COPY(__aeabi_memcpy4) COPY(__aeabi_memcpy8)
MOVE(__aeabi_memmove) MOVE(__aeabi_memmove4) MOVE(__aeabi_memmove8)
FILL(__aeabi_memset) FILL(__aeabi_memset4) FILL(__aeabi_memset8)
CLEAR(__aeabi_memclr) CLEAR(__aeabi_memclr4) CLEAR(__aeabi_memclr8)

uint64_t __aeabi_llsl(uint64_t a, int n);
uint64_t __aeabi_llsr(uint64_t a, int n);
uint64_t __aeabi_lmul(uint64_t a, uint64_t b);
uint32_t __aeabi_uidiv(uint32_t n, uint32_t d);
uint64_t __aeabi_llsl(uint64_t a, int n) { return left(a, n); }
uint64_t __aeabi_llsr(uint64_t a, int n) { return right(a, n); }
uint64_t __aeabi_lmul(uint64_t a, uint64_t b) { return times(a, b); }
uint32_t __aeabi_uidiv(uint32_t n, uint32_t d) {
    uint32_t rest;
    return divide32(n, d, &rest);
}

__attribute__((naked)) void __aeabi_uidivmod(void);
__attribute__((naked)) void __aeabi_uldivmod(void);
__attribute__((naked)) void __aeabi_uidivmod(void) {
    __asm__("push {r0, r1, r2, lr}\n mov r2, sp\n bl divide32\n ldr r1, [sp]\n add sp, #12\n pop {pc}");
}
__attribute__((naked)) void __aeabi_uldivmod(void) {
    __asm__("push {r4, lr}\n sub sp, #16\n add r4, sp, #8\n str r4, [sp]\n bl divide64\n ldr r2, [sp, #8]\n ldr r3, [sp, #12]\n add sp, #16\n pop {r4, pc}");
}
#elif defined __riscv
uint64_t __ashldi3(uint64_t a, int n);
uint64_t __lshrdi3(uint64_t a, int n);
uint64_t __muldi3(uint64_t a, uint64_t b);
uint64_t __ashldi3(uint64_t a, int n) { return left(a, n); }
uint64_t __lshrdi3(uint64_t a, int n) { return right(a, n); }
uint64_t __muldi3(uint64_t a, uint64_t b) { return times(a, b); }
#endif
