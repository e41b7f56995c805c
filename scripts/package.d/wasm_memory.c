/* The three functions for memory over WebAssembly's: blocks of powers of two, those given back in a list for each size. */
#include "nozzlegorse.h"

enum { SMALLEST = 5, LARGEST = 30, PAGE = 16 };

struct block { uint32_t power; struct block *next; uint32_t unused[2]; };

extern uint8_t __heap_base;
static struct block *given_back[LARGEST + 1];
static uint32_t top, end;
static uint8_t nothing;

/* Room at the top, where memory is made larger if it has to be. */
static struct block *at_top(uint32_t length) {
    if (!top) {
        top = ((uint32_t)&__heap_base + 15) & ~15u;
        end = (uint32_t)__builtin_wasm_memory_size(0) << PAGE;
    }
    if (end - top < length) {
        uint32_t pages = (length - (end - top) + (1 << PAGE) - 1) >> PAGE;
        if (__builtin_wasm_memory_grow(0, pages) == (__SIZE_TYPE__)-1) return 0;
        end += pages << PAGE;
    }
    struct block *found = (struct block *)top;
    top += length;
    return found;
}

struct nzg_block rattle_alloc(nzg_size length, nzg_size align) {
    (void)align;
    uint32_t power = SMALLEST;
    while (power <= LARGEST && (1u << power) < length + sizeof(struct block)) power++;
    if (power > LARGEST) return (struct nzg_block){false, &nothing};
    struct block *found = given_back[power];
    if (found) given_back[power] = found->next;
    else if (!(found = at_top(1u << power))) return (struct nzg_block){false, &nothing};
    found->power = power;
    return (struct nzg_block){true, (unsigned char *)(found + 1)};
}

void rattle_dealloc(unsigned char *at) {
    struct block *block = (struct block *)at - 1;
    block->next = given_back[block->power];
    given_back[block->power] = block;
}

struct nzg_block rattle_realloc(unsigned char *at, nzg_size kept, nzg_size length, nzg_size align) {
    struct block *block = (struct block *)at - 1;
    if (length + sizeof *block <= 1u << block->power) return (struct nzg_block){true, at};
    struct nzg_block grown = rattle_alloc(length, align);
    if (!grown.ok) return grown;
    __builtin_memcpy(grown.at, at, kept < length ? kept : length);
    rattle_dealloc(at);
    return grown;
}
