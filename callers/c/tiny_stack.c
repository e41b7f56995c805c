/* tiny_stack FILE LOSSES WITHIN [WRONG]: a stack over a controller that keeps toggles, on the bench. Its descriptors are those of
 * FILE; it has one class write, whose data a read gives again. WRONG: 1 it arms no empty packet after whole ones, 2 it takes its
 * address at once, 3 what it was to send is sent after the next SETUP, 4 a read gives a byte more than wLength. */
#include "nozzlegorse_controller.h"
#include "hosted.h"

enum { NO_EMPTY_PACKET = 1, ADDRESS_AT_ONCE, KEEPS_SENDING, TOO_LONG };
static uint8_t file[65536];
static size_t len;
static int wrong;

struct stack {
    struct nzg_controller *controller;
    uint8_t selected, kept[512], answer[2], setup[8];
    const uint8_t *data;
    unsigned left, kept_len, written;
    bool ends, writes; /* ends: an empty packet is due at the end */
};

static void reset(void *context) {
    struct stack *s = context;
    struct nzg_controller *controller = s->controller;
    memset(s, 0, sizeof *s);
    s->controller = controller;
}

static void send(struct stack *s) {
    unsigned packet = s->left < file[7] ? s->left : file[7];
    if (!s->left && !s->ends) return;
    nzg_controller_arm(s->controller, s->data, packet);
    if (packet < file[7]) s->ends = false;
    s->data += packet, s->left -= packet;
}

static void answer(struct stack *s, const uint8_t *data, unsigned length) {
    unsigned wanted = s->setup[6] | s->setup[7] << 8;
    if (!wanted) {
        nzg_controller_arm(s->controller, data, 0);
        return;
    }
    s->data = data, s->ends = length < wanted && length % file[7] == 0 && wrong != NO_EMPTY_PACKET;
    s->left = length < wanted ? length : wanted + (wrong == TOO_LONG);
    send(s);
}

static bool descriptor(struct stack *s, unsigned type, unsigned index, unsigned language) {
    for (struct nzg_descriptor d = {0}; nzg_next(file, len, &d);) {
        bool is_it = (type == 1 && d.role == NZG_DEVICE && !index) || (type == 6 && d.role == NZG_QUALIFIER && !index) || ((type == 2 || type == 7) && d.role == NZG_CONFIGURATION && d.type == type && d.set == index)
            || (type == 3 && (index ? d.role == NZG_STRING && d.index == index && d.language == language : d.role == NZG_LANGUAGES));
        if (is_it) return answer(s, file + d.place, d.role == NZG_CONFIGURATION ? file[d.place + 2] + 256u * file[d.place + 3] : d.length), true;
    }
    return false;
}

/* The request, where it has it. */
static bool carry_out(struct stack *s) {
    const uint8_t *q = s->setup;
    unsigned wanted = q[6] | q[7] << 8, value = q[2] | q[3] << 8;
    if (q[0] == 0x80 && q[1] == 6) return descriptor(s, q[3], q[2], q[4] | q[5] << 8);
    if (q[0] == 0x80 && q[1] == 8 && wanted == 1) return s->answer[0] = s->selected, answer(s, s->answer, 1), true;
    if (q[0] == 0x80 && q[1] == 0 && wanted == 2) return s->answer[0] = file[18 + 7] >> 6 & 1, s->answer[1] = 0, answer(s, s->answer, 2), true;
    if (q[0] == 0 && q[1] == 9 && (!value || value == file[18 + 5])) return s->selected = q[2], nzg_controller_arm(s->controller, q, 0), true;
    if (q[0] == 0xa1 && q[1] == 0x21 && wanted) return answer(s, s->kept, s->kept_len), true;
    if (q[0] == 0 && q[1] == 5 && value < 128) {
        if (wrong == ADDRESS_AT_ONCE) nzg_controller_address(s->controller, q[2]);
        else nzg_controller_address_after_status(s->controller, q[2]);
        return nzg_controller_arm(s->controller, q, 0), true;
    }
    return s->writes = q[0] == 0x21 && q[1] == 0x20 && wanted && wanted <= sizeof s->kept;
}

static void setup(void *context, const uint8_t bytes[8]) {
    struct stack *s = context;
    memcpy(s->setup, bytes, 8);
    if (wrong != KEEPS_SENDING) s->left = 0;
    s->ends = s->writes = false, s->written = 0;
    if (s->left) send(s);
    else if (!carry_out(s)) nzg_controller_stall(s->controller);
}

static void sent(void *context) { send(context); }

static void received(void *context, const uint8_t *data, size_t length) {
    struct stack *s = context;
    if (!s->writes) return;
    for (size_t i = 0; i < length && s->written < sizeof s->kept; i++) s->kept[s->written++] = data[i];
    if (s->written < (unsigned)(s->setup[6] | s->setup[7] << 8)) return;
    s->kept_len = s->written, s->writes = false;
    nzg_controller_arm(s->controller, data, 0);
}

int main(int argc, char **argv) {
    static struct stack tiny;
    static struct nzg_controller controller;
    static struct nzg_bench_request talk[NZG_BENCH_TALK];
    const struct nzg_stack stack = {&tiny, reset, setup, sent, received};
    long there = argc < 4 ? -1 : read_all(argv[1], file, sizeof file);
    if (there < 27) return 2;
    len = (size_t)there, wrong = argc > 4 ? atoi(argv[4]) : 0;
    controller.stack = &stack, tiny.controller = &controller;
    struct nzg_bench_device device = nzg_controller_device(&controller);
    struct nzg_bench bench = {.file = file, .len = len, .speed = NZG_FULL, .losses = (unsigned)atoi(argv[2]), .within = (unsigned)atoi(argv[3]), .talk = talk};
    /* What it has not: halts, settings and features. The talk is that of descriptors, writes, addresses and configurations. */
    static struct nzg_bench_request all[NZG_BENCH_TALK];
    size_t count = nzg_bench_talk(file, len, all);
    for (size_t i = 0; i < count; i++) {
        const uint8_t *q = all[i].setup.bytes;
        if (all[i].is_reset || q[0] == 0x80 || q[0] == 0xa1 || q[0] == 0x21 || (!q[0] && (q[1] == 5 || (q[1] == 9 && !all[i].cut)))) talk[bench.talk_len++] = all[i];
    }
    return !nzg_bench_device(&bench, &device, stdout);
}
