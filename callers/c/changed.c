/* changed FILE: the small device, right but for one answer, which is another one: each answer of the bench in turn, in each of seven
 * ways. A line for each: the device's state, the request, the stage, whether the bench tells it, and the way. */
#define main main_of_tiny
#include "tiny.c"
#undef main

enum { TO_SILENCE, TO_STALL, TO_ACK, OTHER_TOGGLE, TO_EMPTY, BYTE_MORE, OTHER_BYTE, WAYS };
static const char *const ways[WAYS] = {"silence", "STALL", "ACK", "the other toggle", "an empty packet", "a byte more", "another byte"};

struct changed {
    struct tiny tiny;
    unsigned long count, place;
    unsigned way;
    bool is_changed;
    uint8_t request[8], setup[8], stage, state; /* the request and the stage of what was changed; the device's state then */
};

/* The answer in another way; false where there is none. */
static bool change(struct nzg_packet *p, unsigned way) {
    struct nzg_packet was = *p;
    bool is_data = p->reply == NZG_DATA;
    if (way <= TO_ACK) *p = (struct nzg_packet){.reply = way == TO_SILENCE ? NZG_SILENCE : way == TO_STALL ? NZG_STALL : NZG_ACK};
    else if (!is_data) return false;
    if (way == OTHER_TOGGLE) p->toggle ^= 1;
    if (way == TO_EMPTY) memset(p->data, 0, p->length), p->length = 0;
    if (way == BYTE_MORE && p->length < 64) p->data[p->length++] = 1;
    if (way == OTHER_BYTE && p->length) p->data[p->length - 1] ^= 0x80;
    return was.reply != p->reply || (is_data && (was.toggle != p->toggle || was.length != p->length || memcmp(was.data, p->data, sizeof p->data)));
}

static void changed_reset(void *context) { tiny_reset(&((struct changed *)context)->tiny); }
static void changed_acked(void *context) { tiny_acked(&((struct changed *)context)->tiny); }

static void changed_transaction(void *context, const struct nzg_transaction *sent, const uint8_t *data, size_t length, bool ready, struct nzg_packet *reply) {
    struct changed *c = context;
    uint8_t state = c->tiny.selected ? 2 : c->tiny.address ? 1 : 0;
    tiny_transaction(&c->tiny, sent, data, length, ready, reply);
    if (sent->stage == NZG_SETUP) memcpy(c->request, sent->setup, 8);
    if (c->count++ != c->place || !change(reply, c->way)) return;
    c->is_changed = true, c->stage = sent->stage, c->state = state;
    memcpy(c->setup, c->request, 8);
}

int main(int argc, char **argv) {
    static struct changed c;
    static struct nzg_bench_request talk[NZG_BENCH_TALK];
    long there = argc < 2 ? -1 : read_all(argv[1], file, sizeof file);
    unsigned long all;
    FILE *none = fopen("/dev/null", "w");
    if (there < 27 || !none) return 2;
    len = (size_t)there;
    struct nzg_bench_device device = {&c, changed_reset, changed_transaction, changed_acked};
    struct nzg_bench bench = {.file = file, .len = len, .speed = NZG_FULL, .stops_at_first = true, .talk = talk, .talk_len = nzg_bench_talk(file, len, talk)};
    c.place = (unsigned long)-1;
    if (!nzg_bench_device(&bench, &device, none)) return 1;
    all = c.count;
    for (unsigned long i = 0; i < all * WAYS; i++) {
        memset(&c, 0, sizeof c);
        c.place = i / WAYS, c.way = (unsigned)(i % WAYS);
        bool is_told = !nzg_bench_device(&bench, &device, none);
        if (!c.is_changed) continue;
        const uint8_t *q = c.setup;
        printf("%u %02x%02x%02x%02x%02x%02x%02x%02x %u %s %s\n", c.state, q[0], q[1], q[2], q[3], q[4], q[5], q[6], q[7], c.stage, is_told ? "told" : "free", ways[c.way]);
    }
    return 0;
}
