/* walk FILE: a line for each descriptor: its numbers, and its fields as name=place+width:value. Then one for each set and each
 * device descriptor that is found. Ends in 9 where memory was asked for, and in 8 where a field is another by its number or its
 * name than in the list of all. */
#include "pool.h"
#include "hosted.h"

static uint8_t bytes[1 << 21];
static struct nzg_field fields[254];

static bool is_same(const struct nzg_field *a, const struct nzg_field *b) {
    return a->place == b->place && a->value == b->value && a->width == b->width && a->name_length == b->name_length && !memcmp(a->name, b->name, sizeof a->name);
}

/* Each of all fields is that of its number, and the first of its name; there are no others, nor in less room. */
static bool are_same(size_t length, const struct nzg_descriptor *d, size_t count) {
    struct nzg_field f, none = {0}, one = none;
    for (size_t n = 0; n < count; n++) {
        size_t first = 0;
        while (fields[first].name_length != fields[n].name_length || memcmp(fields[first].name, fields[n].name, 62)) first++;
        if (!nzg_field(bytes, length, d, n, &f) || !is_same(&f, &fields[n])) return false;
        if (!nzg_field_named(bytes, length, d, fields[n].name, fields[n].name_length, &f) || !is_same(&f, &fields[first])) return false;
    }
    static const uint8_t odd[] = {0xff, 0, 0xc3};
    struct nzg_answer less = nzg_fields(bytes, length, d, &none, 0), past = nzg_fields(bytes, length - 1, d, &one, 1);
    bool is_told = count ? less.status == NZG_NO_ROOM && less.length == count : less.status == NZG_DONE && less.length == 0;
    bool is_there = nzg_field(bytes, length, d, count, &none) || nzg_field_named(bytes, length, d, odd, sizeof odd, &none) || nzg_field_named(bytes, length, d, odd, 0, &none);
    bool is_cut = d->place + d->length == length && (past.status != NZG_DONE || past.length);
    return is_told && !is_there && !is_cut && !none.width;
}

int main(int argc, char **argv) {
    long read = argc > 1 ? read_all(argv[1], bytes, sizeof bytes) : -1;
    if (read < 0) return 2;
    struct nzg_descriptor d = {0};
    while (nzg_next(bytes, (size_t)read, &d)) {
        printf("%zu %u %u %u %u %u %zu %zu %zu ", d.place, d.length, d.role, d.depth, d.owner, d.part, d.set, d.setting, d.endpoint_number);
        printf("%u %u %u %u %u %u %u ", d.interface_, d.alternate, d.class_, d.subclass, d.protocol, d.language, d.index);
        printf("%u %u %u %u", d.attributes, d.packet, d.transactions, d.interval);
        struct nzg_answer all = nzg_fields(bytes, (size_t)read, &d, fields, sizeof fields / sizeof *fields);
        if (all.status != NZG_DONE || !are_same((size_t)read, &d, all.length)) return 8;
        for (struct nzg_field *f = fields; f < fields + all.length; f++)
            printf(" %.*s=%zu+%u:%llu", f->name_length, (char *)f->name, f->place, f->width, (unsigned long long)f->value);
        printf("\n");
    }
    struct nzg_found found = {0};
    while (nzg_find(bytes, (size_t)read, found.next, &found)) printf("found %zu %zu %u\n", found.place, found.length, found.kind);
    return pool_calls ? 9 : 0;
}
