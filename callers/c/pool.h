/* The three functions for memory over a fixed area: first fit, with free neighbours joined, and a count. A program
 * that includes this needs no other memory. */
#ifndef POOL_H
#define POOL_H
#include <nozzlegorse.h>

#ifndef POOL
#define POOL (1 << 20)
#endif

struct piece { size_t length, used; struct piece *next; size_t pad; };
static union { struct piece first; unsigned char bytes[POOL]; } pool __attribute__((aligned(16)));
static unsigned char nothing;
/* requests so far, blocks that are taken, and how many requests are still granted: all where it is -1 */
static long pool_calls, pool_live, pool_allowed = -1;
static size_t pool_held, pool_peak;

static void join_behind(struct piece *p) {
    while (!p->used && p->next && !p->next->used) {
        p->length += sizeof *p + p->next->length;
        p->next = p->next->next;
    }
}

static void split(struct piece *p, size_t length) {
    if (p->length < length + 2 * sizeof *p) return;
    struct piece *rest = (struct piece *)((unsigned char *)(p + 1) + length);
    rest->length = p->length - length - sizeof *p;
    rest->used = 0;
    rest->next = p->next;
    p->length = length;
    p->next = rest;
}

static struct nzg_block take(struct piece *p) {
    p->used = 1;
    pool_live++;
    pool_held += p->length;
    if (pool_held > pool_peak) pool_peak = pool_held;
    return (struct nzg_block){true, (unsigned char *)(p + 1)};
}

struct nzg_block rattle_alloc(nzg_size length, nzg_size align) {
    (void)align;
    pool_calls++;
    struct piece *p = &pool.first;
    if (!p->length) p->length = POOL - sizeof *p;
    if (length > POOL || pool_allowed == 0) return (struct nzg_block){false, &nothing};
    if (pool_allowed > 0) pool_allowed--;
    length = (length + 15) & ~(nzg_size)15;
    for (; p; p = p->next) {
        join_behind(p);
        if (p->used || p->length < length) continue;
        split(p, (size_t)length);
        return take(p);
    }
    return (struct nzg_block){false, &nothing};
}

void rattle_dealloc(unsigned char *at) {
    struct piece *p = (struct piece *)at - 1;
    p->used = 0;
    pool_live--;
    pool_held -= p->length;
}

struct nzg_block rattle_realloc(unsigned char *at, nzg_size kept, nzg_size length, nzg_size align) {
    struct nzg_block grown = rattle_alloc(length, align);
    if (!grown.ok) return grown;
    for (nzg_size i = 0; i < kept && i < length; i++) grown.at[i] = at[i];
    rattle_dealloc(at);
    return grown;
}
#endif
