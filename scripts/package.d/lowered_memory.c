/* Between a lowered module and the three functions for memory: how a struct comes back each processor's C compiler knows. They are a
 * member of their own in the archive. */
#include "nozzlegorse.h"

/* A pointer is moved by less than 2^31, so no block may be as long. */
#define LONGEST 0x7fffffff

unsigned char *nzg_lowered_alloc(uint64_t length, uint64_t align);
unsigned char *nzg_lowered_realloc(unsigned char *at, uint64_t kept, uint64_t length, uint64_t align);

unsigned char *nzg_lowered_alloc(uint64_t length, uint64_t align) {
    if (length > LONGEST) return 0;
    struct nzg_block block = rattle_alloc(length, align);
    return block.ok ? block.at : 0;
}

unsigned char *nzg_lowered_realloc(unsigned char *at, uint64_t kept, uint64_t length, uint64_t align) {
    if (length > LONGEST) return 0;
    struct nzg_block block = rattle_realloc(at, kept, length, align);
    return block.ok ? block.at : 0;
}
