/* A program without a C library: its own start, memory from a fixed area, and three functions over bytes. It judges a
 * mouse's descriptor file, and makes an image of it, from which a device answers. Ends in 0 where all three do so. */
#define POOL (1 << 16)
#include "pool.h"

void *memcpy(void *to, const void *from, size_t length) {
    unsigned char *t = to;
    for (const unsigned char *f = from; length--;) *t++ = *f++;
    return to;
}

void *memmove(void *to, const void *from, size_t length) {
    unsigned char *t = to;
    const unsigned char *f = from;
    if (t < f)
        while (length--) *t++ = *f++;
    else
        while (length--) t[length] = f[length];
    return to;
}

void *memset(void *to, int byte, size_t length) {
    for (unsigned char *t = to; length--;) *t++ = (unsigned char)byte;
    return to;
}

static const uint8_t file[] = {
    18, 1, 0x10, 1, 0, 0, 0, 64, 0x34, 0x12, 0x78, 0x56, 0, 1, 0, 0, 0, 1,
    9, 2, 34, 0, 1, 1, 0, 0xa0, 50, 9, 4, 0, 0, 1, 3, 1, 2, 0, 9, 0x21, 0x10, 1, 0, 1, 0x22, 0x34, 0, 7, 5, 0x81, 3, 4, 0, 10};
static uint8_t text[256], image[256];

static int judge(void) {
    struct nzg_answer a = nzg_check(file, sizeof file, false, text, sizeof text);
    if (a.status != NZG_DONE || a.length != 12) return 1;
    a = nzg_device_image(file, sizeof file, NZG_FULL, image, sizeof image);
    if (a.status != NZG_DONE || pool_live) return 2;
    long before = pool_calls;
    struct nzg_device device = {0};
    struct nzg_transaction setup = {0, NZG_SETUP, 0, {0x80, 6, 0, 1, 0, 0, 18, 0}}, in = {0, NZG_IN, 0, {0}};
    struct nzg_packet packet;
    nzg_device_reset(&device);
    if (!nzg_device_serve(&device, image, a.length, text, 0, &setup, file, 0, true, &packet) || packet.reply != NZG_ACK) return 3;
    if (!nzg_device_serve(&device, image, a.length, text, 0, &in, file, 0, true, &packet) || packet.length != 18) return 4;
    for (int i = 0; i < 18; i++)
        if (packet.data[i] != file[i]) return 5;
    return pool_calls != before || pool_live ? 6 : 0;
}

static void end(long status) {
#if defined __x86_64__
    __asm__ volatile("syscall" : : "a"(60), "D"(status) : "rcx", "r11", "memory");
#else
    register long number __asm__("x8") = 93;
    register long first __asm__("x0") = status;
    __asm__ volatile("svc 0" : : "r"(number), "r"(first) : "memory");
#endif
    for (;;) {}
}

#if defined __x86_64__
__attribute__((force_align_arg_pointer))
#endif
void _start(void) {
    end(judge());
}
