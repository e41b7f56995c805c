/* walk ROUNDS WORK < BYTES: walks the bytes so many times, and says how many descriptors they have, as the works of `plain` do.
 * walk < BYTES: the sum of all their numbers, as `plain walk`. Ends in 9 where memory was asked for. */
#include "pool.h"
#include "hosted.h"

static uint8_t bytes[1 << 21];

static uint64_t add(uint64_t sum, uint64_t number) {
    return ((sum << 5 | sum >> 59) ^ number) * 0x9e3779b97f4a7c15;
}

static uint64_t add_all(uint64_t sum, const struct nzg_descriptor *d) {
    const uint64_t wide[] = {d->place, d->languages_place, d->strings, d->main_sets, d->other_sets, d->set, d->associations,
                             d->setting, d->settings, d->endpoint_number, d->endpoints, d->named[0], d->named[1], d->named[2], d->named[3],
                             d->language};
    const uint8_t narrow[] = {d->length, d->type, d->role, d->owner, d->depth, d->part, d->interface_, d->alternate, d->class_,
                              d->subclass, d->protocol, d->endpoint, d->index, d->has_device, d->has_languages};
    for (size_t i = 0; i < sizeof wide / sizeof *wide; i++) sum = add(sum, wide[i]);
    for (size_t i = 0; i < sizeof narrow; i++) sum = add(sum, narrow[i]);
    return sum;
}

int main(int argc, char **argv) {
    size_t length = fread(bytes, 1, sizeof bytes, stdin), count = 0;
    struct nzg_descriptor d = {0};
    if (argc < 3) {
        uint64_t sum = 0;
        for (; nzg_next(bytes, length, &d); count++) sum = add_all(sum, &d);
        printf("%zu descriptors, sum %llx\n", count, (unsigned long long)sum);
        return pool_calls ? 9 : 0;
    }
    for (int round = atoi(argv[1]); round > 0; round--) {
        d = (struct nzg_descriptor){0};
        for (count = 0; nzg_next(bytes, length, &d); count++) {}
    }
    printf("%s: %zu bytes, %s rounds\n", argv[2], count, argv[1]);
    return pool_calls ? 9 : 0;
}
