/* tiny FILE LOSSES WITHIN [WRONG [fork]]: a small device with the descriptors of FILE, written from chapters 8 and 9, on the bench. It ends
 * in 0 where nothing differs. WRONG: 1 the toggle doesn't flip, 2 the address is taken at SETUP, 3 no empty packet after whole ones,
 * 4 the toggle flips with the packet and not with its ACK, 5 the address is taken with the status packet, 6 it crashes at a request
 * of no number, 7 a set that there isn't is selected. */
#include "nozzlegorse_bench.h"
#include "hosted.h"

enum { TOGGLE_STAYS = 1, ADDRESS_AT_SETUP, NO_EMPTY_PACKET, TOGGLE_AT_PACKET, ADDRESS_AT_STATUS, CRASHES, ANY_SET };
static uint8_t file[65536];
static size_t len;
static int wrong;

struct tiny {
    enum { HALTED, DATA_IN, STATUS_IN, STATUS_OUT } stage;
    uint8_t address, selected, toggle, setup[8], alternates[256], kept[2];
    bool halts[256], empty_due, is_done, is_sent, wakes; /* is_sent: a packet that awaits its ACK */
    const uint8_t *data;
    unsigned left, last; /* bytes to send, and of the packet that was sent last */
};

static void tiny_reset(void *context) { memset(context, 0, sizeof(struct tiny)); }

/* The descriptor of this type and index, or none. */
static bool find(unsigned type, unsigned index, unsigned language, const uint8_t **data, unsigned *length) {
    for (struct nzg_descriptor d = {0}; nzg_next(file, len, &d);) {
        bool is_it = (type == 1 && d.role == NZG_DEVICE && !index) || (type == 6 && d.role == NZG_QUALIFIER && !index)
            || ((type == 2 || type == 7) && d.role == NZG_CONFIGURATION && d.type == type && d.set == index)
            || (type == 3 && (index ? d.role == NZG_STRING && d.index == index && d.language == language : d.role == NZG_LANGUAGES));
        if (!is_it) continue;
        *data = file + d.place;
        *length = d.role == NZG_CONFIGURATION ? file[d.place + 2] + 256u * file[d.place + 3] : d.length;
        return true;
    }
    return false;
}

/* Whether the selected set has this interface, at this alternate setting or any, or this endpoint at a chosen setting. */
static bool has(const struct tiny *t, uint8_t role, unsigned number, int alternate) {
    uint8_t value = 0;
    for (struct nzg_descriptor d = {0}; nzg_next(file, len, &d);) {
        if (d.role == NZG_CONFIGURATION && d.type == 2) value = file[d.place + 5];
        if (d.role != role || d.part != 1 || value != t->selected) continue;
        if (role == NZG_INTERFACE && d.interface_ == number && (alternate < 0 || d.alternate == alternate)) return true;
        if (role == NZG_ENDPOINT && d.endpoint == number && d.alternate == t->alternates[d.interface_]) return true;
    }
    return false;
}

static bool has_set(unsigned value) {
    for (struct nzg_descriptor d = {0}; nzg_next(file, len, &d);)
        if (d.role == NZG_CONFIGURATION && d.type == 2 && file[d.place + 5] == value) return true;
    return false;
}

/* bmAttributes of the set that is selected, or of the first; with `any` those of all sets. */
static unsigned attributes(const struct tiny *t, bool any) {
    unsigned found = 0, all = 0;
    for (struct nzg_descriptor d = {0}; nzg_next(file, len, &d);) {
        if (d.role != NZG_CONFIGURATION || d.type != 2) continue;
        all |= file[d.place + 7];
        if (!found || file[d.place + 5] == t->selected) found = file[d.place + 7];
    }
    return any ? all : found;
}

/* The data of a request to the host, if the device has it. */
static bool answer(struct tiny *t, const uint8_t q[8], const uint8_t **data, unsigned *length) {
    unsigned value = q[2] | q[3] << 8, index = q[4] | q[5] << 8, wanted = q[6] | q[7] << 8;
    *data = t->kept, *length = 2, t->kept[1] = 0;
    if (q[0] == 0x80 && q[1] == 6) return find(value >> 8, value & 255, index, data, length);
    if (q[0] == 0x80 && q[1] == 0) return t->kept[0] = (uint8_t)((attributes(t, false) >> 6 & 1) | (unsigned)t->wakes << 1), t->address && !value && !index && wanted == 2;
    if (q[0] == 0x81 && q[1] == 0) return t->kept[0] = 0, t->selected && has(t, NZG_INTERFACE, index, -1) && wanted == 2;
    if (q[0] == 0x82 && q[1] == 0 && !(index & 0x7f)) return t->kept[0] = 0, t->address && wanted == 2;
    if (q[0] == 0x82 && q[1] == 0) return t->kept[0] = t->halts[index & 255], t->selected && has(t, NZG_ENDPOINT, index, -1) && wanted == 2;
    *length = 1;
    if (q[0] == 0x80 && q[1] == 8) return t->kept[0] = t->selected, t->address && wanted == 1;
    if (q[0] == 0x81 && q[1] == 10) return t->kept[0] = t->alternates[index & 255], t->selected && has(t, NZG_INTERFACE, index, -1) && wanted == 1;
    return false;
}

/* Whether the device has a request without data. */
static bool accepts(const struct tiny *t, const uint8_t q[8]) {
    unsigned value = q[2] | q[3] << 8, index = q[4] | q[5] << 8, length;
    const uint8_t *data;
    if (q[0] == 0x80 && q[1] == 6) return find(value >> 8, value & 255, index, &data, &length);
    if (q[0] == 0 && (q[1] == 1 || q[1] == 3)) return t->address && value == 1 && !index && attributes(t, true) >> 5 & 1;
    if (q[0] == 0 && q[1] == 5) return !t->selected && value < 128;
    if (q[0] == 0 && q[1] == 9) return t->address && (value == 0 || has_set(value) || wrong == ANY_SET);
    if (q[0] == 1 && q[1] == 11) return t->selected && has(t, NZG_INTERFACE, index, (int)value);
    return q[0] == 2 && (q[1] == 1 || q[1] == 3) && t->selected && !value && has(t, NZG_ENDPOINT, index, -1);
}

/* Carries it out. */
static void carry_out(struct tiny *t) {
    const uint8_t *q = t->setup;
    if (q[0] == 0 && q[1] == 9) {
        t->selected = q[2];
        memset(t->alternates, 0, sizeof t->alternates);
        memset(t->halts, 0, sizeof t->halts);
    }
    if (q[0] == 0 && (q[1] == 1 || q[1] == 3)) t->wakes = q[1] == 3;
    if (q[0] == 1 && q[1] == 11) {
        uint8_t value = 0;
        t->alternates[q[4]] = q[2];
        for (struct nzg_descriptor d = {0}; nzg_next(file, len, &d);) {
            if (d.role == NZG_CONFIGURATION && d.type == 2) value = file[d.place + 5];
            if (d.role == NZG_ENDPOINT && d.part == 1 && value == t->selected && d.interface_ == q[4]) t->halts[d.endpoint] = false;
        }
    }
    if (q[0] == 2) t->halts[q[4]] = q[1] == 3;
}

static void setup(struct tiny *t, const uint8_t q[8]) {
    unsigned wanted = q[6] | q[7] << 8, length = 0;
    memcpy(t->setup, q, 8);
    t->toggle = 1, t->is_done = false;
    t->stage = !wanted && accepts(t, q) ? STATUS_IN : wanted && answer(t, q, &t->data, &length) ? DATA_IN : HALTED;
    t->left = length < wanted ? length : wanted;
    t->empty_due = wrong != NO_EMPTY_PACKET && length < wanted && length % file[7] == 0;
    if (wrong == ADDRESS_AT_SETUP && q[0] == 0 && q[1] == 5) t->address = q[2];
    if (wrong == CRASHES && q[1] == 15) *(volatile uint8_t *)NULL = 0;
}

static void in(struct tiny *t, struct nzg_packet *reply) {
    reply->reply = NZG_DATA, reply->toggle = 1, t->is_sent = true;
    if (t->stage == STATUS_IN) {
        if (!t->is_done) carry_out(t);
        t->is_done = true;
        if (wrong == ADDRESS_AT_STATUS && t->setup[0] == 0 && t->setup[1] == 5) t->address = t->setup[2];
        return;
    }
    t->last = t->left < file[7] ? t->left : file[7];
    reply->toggle = t->toggle, reply->length = (uint8_t)t->last;
    for (unsigned i = 0; i < t->last; i++) reply->data[i] = t->data[i];
    if (wrong == TOGGLE_AT_PACKET) t->toggle ^= 1;
}

static void tiny_transaction(void *context, const struct nzg_transaction *sent, const uint8_t *data, size_t length, bool ready, struct nzg_packet *reply) {
    struct tiny *t = context;
    (void)data, (void)length; /* no request brings any */
    *reply = (struct nzg_packet){.reply = NZG_SILENCE};
    if (sent->address != t->address) return;
    t->is_sent = false;
    reply->reply = NZG_ACK;
    if (sent->stage == NZG_SETUP) {
        setup(t, sent->setup);
        return;
    }
    bool goes_in = t->stage == DATA_IN || t->stage == STATUS_IN, goes_out = t->stage == DATA_IN || t->stage == STATUS_OUT;
    reply->reply = !ready ? NZG_NAK : sent->stage == NZG_OUT && goes_out ? NZG_ACK : NZG_STALL;
    if (ready && sent->stage == NZG_IN && goes_in) in(t, reply);
    if (reply->reply == NZG_ACK && sent->toggle) t->stage = STATUS_OUT;
    if (reply->reply == NZG_STALL) t->stage = HALTED;
}

static void tiny_acked(void *context) {
    struct tiny *t = context;
    if (!t->is_sent) return;
    t->is_sent = false;
    if (t->stage == STATUS_IN) {
        t->stage = HALTED;
        if (t->setup[0] == 0 && t->setup[1] == 5) t->address = t->setup[2];
        return;
    }
    if (wrong != TOGGLE_STAYS && wrong != TOGGLE_AT_PACKET) t->toggle ^= 1;
    t->data += t->last, t->left -= t->last;
    if (t->last < file[7] || (!t->left && !t->empty_due)) t->stage = STATUS_OUT;
}

int main(int argc, char **argv) {
    static struct tiny tiny;
    static uint8_t read[sizeof file];
    long there = argc < 4 ? -1 : read_all(argv[1], file, sizeof file);
    if (there < 27) return 2;
    len = (size_t)there;
    struct nzg_bench_device device = {&tiny, tiny_reset, tiny_transaction, tiny_acked};
    struct nzg_answer end = nzg_bench_read(&device, NZG_FULL, read, sizeof read);
    if (end.status != NZG_DONE || end.length != len || memcmp(read, file, len)) return 3;
    wrong = argc > 4 ? atoi(argv[4]) : 0;
    struct nzg_bench bench = {.file = file, .len = len, .speed = NZG_FULL, .losses = (unsigned)atoi(argv[2]), .within = (unsigned)atoi(argv[3])};
#ifdef FORKS
    if (argc > 5) return !nzg_bench_device_forked(&bench, &device, stdout);
#endif
    return !nzg_bench_device(&bench, &device, stdout);
}
