/* What LLVM calls for numbers of 128 bits in WebAssembly: products, and shifts to the right. */
#include <stdint.h>

typedef unsigned __int128 wide;

/* Schoolbook, of words of 32 bits. */
wide __multi3(wide a, wide b);
wide __multi3(wide a, wide b) {
    uint64_t al = (uint64_t)a, ah = (uint64_t)(a >> 64), bl = (uint64_t)b, bh = (uint64_t)(b >> 64);
    uint64_t a0 = al & 0xffffffff, a1 = al >> 32, b0 = bl & 0xffffffff, b1 = bl >> 32, p00 = a0 * b0, p01 = a0 * b1, p10 = a1 * b0;
    uint64_t middle = (p00 >> 32) + (p01 & 0xffffffff) + (p10 & 0xffffffff);
    uint64_t high = a1 * b1 + (p01 >> 32) + (p10 >> 32) + (middle >> 32) + al * bh + ah * bl;
    return (wide)high << 64 | (p00 & 0xffffffff) | middle << 32;
}

/* By 0 to 127 bits. */
wide __lshrti3(wide a, int count);
wide __lshrti3(wide a, int count) {
    uint64_t low = (uint64_t)a, high = (uint64_t)(a >> 64);
    if (count & 64)
        return high >> (count & 63);
    return count ? (wide)(high >> count) << 64 | low >> count | high << (64 - count) : a;
}
