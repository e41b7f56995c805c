/* The three functions for memory over malloc, which aligns to 16: the most that is asked for. They are a member of their own
 * in libnozzlegorse.a, so a program that defines all three itself never links it. */
#include "nozzlegorse.h"

void *malloc(size_t length);
void *realloc(void *at, size_t length);
void free(void *at);

static unsigned char nothing;

static struct nzg_block block(void *at) {
    return at ? (struct nzg_block){true, at} : (struct nzg_block){false, &nothing};
}

struct nzg_block rattle_alloc(nzg_size length, nzg_size align) {
    (void)align;
    return block(malloc(length ? (size_t)length : 1));
}

struct nzg_block rattle_realloc(unsigned char *at, nzg_size kept, nzg_size length, nzg_size align) {
    (void)kept, (void)align;
    return block(realloc(at, length ? (size_t)length : 1));
}

void rattle_dealloc(unsigned char *at) { free(at); }
