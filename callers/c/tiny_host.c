/* tiny_host FILE LOSSES WITHIN [WRONG]: a small host on the bench, before a proved device with the descriptors of FILE, written from
 * chapters 8 and 9. It ends in 0 where nothing differs. WRONG: 1 the new address is used after SETUP, 2 a short packet doesn't end the
 * data, 3 the status stage has DATA0, 4 packets that come again are kept, 5 it gives up, 6 it gives what it hasn't read. */
#include "nozzlegorse_bench.h"
#include "hosted.h"

enum { ADDRESS_AT_SETUP = 1, SHORT_GOES_ON, STATUS_OF_DATA0, KEEPS_TWICE, GIVES_UP, UNREAD };
static uint8_t known[65536];
static size_t known_len;
static int wrong;

struct host {
    struct nzg_bus *bus;
    uint8_t address, packet, *file;
    size_t len, room;
    bool named[256], is_gone;
};

/* A transaction with retries: three silences end it, and so do many NAKs. */
static struct nzg_packet sent(struct host *h, uint8_t stage, uint8_t toggle, const uint8_t *setup) {
    struct nzg_transaction t = {.address = h->address, .stage = stage, .toggle = toggle};
    struct nzg_packet back = {.reply = NZG_SILENCE};
    if (setup) memcpy(t.setup, setup, 8);
    for (int tries = 0, silences = 0; tries < 40 && silences < 3 && !h->is_gone; tries++) {
        h->bus->send(h->bus, &t, known, 0, &back);
        silences += back.reply == NZG_SILENCE;
        if (back.reply != NZG_SILENCE && back.reply != NZG_NAK) return back;
    }
    h->is_gone = true, back.reply = NZG_STALL;
    return back;
}

/* The data stage: what came is appended to the file; -1 where it is refused. */
static long data_stage(struct host *h, unsigned length) {
    unsigned got = 0, strikes = 0;
    for (uint8_t toggle = 1; strikes < 3;) {
        struct nzg_packet back = sent(h, NZG_IN, 0, NULL);
        if (back.reply != NZG_DATA) return -1;
        if (back.toggle != toggle && wrong != KEEPS_TWICE) {
            strikes++;
            continue;
        }
        toggle ^= 1, strikes = 0;
        for (unsigned i = 0; i < back.length && h->len + got < h->room; i++) h->file[h->len + got++] = back.data[i];
        if (got >= length || (back.length < h->packet && wrong != SHORT_GOES_ON)) return got;
    }
    h->is_gone = true;
    return -1;
}

/* A transfer: how many bytes it brought behind the file, or -1. */
static long transfer(struct host *h, uint8_t kind, uint8_t code, unsigned value, unsigned index, unsigned length) {
    const uint8_t setup[8] = {kind, code, (uint8_t)value, (uint8_t)(value >> 8), (uint8_t)index, (uint8_t)(index >> 8), (uint8_t)length, (uint8_t)(length >> 8)};
    uint8_t toggle = wrong == STATUS_OF_DATA0 ? 0 : 1;
    sent(h, NZG_SETUP, 0, setup);
    if (wrong == ADDRESS_AT_SETUP && !kind && code == 5) h->address = (uint8_t)value;
    long got = length ? data_stage(h, length) : 0;
    if (got < 0 || sent(h, length ? NZG_OUT : NZG_IN, length ? toggle : 0, NULL).reply == NZG_STALL) return -1;
    if (!kind && code == 5) h->address = (uint8_t)value;
    return h->is_gone ? -1 : got;
}

/* A descriptor, which is kept; -1 where there is none. */
static long kept(struct host *h, unsigned kind, unsigned index, unsigned language, unsigned length) {
    long got = transfer(h, 0x80, 6, kind << 8 | index, language, length);
    if (got > 0) h->len += (size_t)got;
    return got;
}

static void name_strings(struct host *h, size_t from) {
    static const uint8_t place[12] = {[2] = 6, [4] = 8, [7] = 6, [11] = 7};
    for (size_t at = from; at + 2 < h->len && h->file[at]; at += h->file[at])
        if (h->file[at + 1] < 12 && place[h->file[at + 1]]) h->named[h->file[at + place[h->file[at + 1]]]] = true;
}

static void sets(struct host *h, unsigned kind, unsigned count) {
    for (unsigned i = 0; i < count && !h->is_gone; i++) {
        if (transfer(h, 0x80, 6, kind << 8 | i, 0, 9) < 9) h->is_gone = true;
        else {
            size_t from = h->len;
            kept(h, kind, i, 0, h->file[from + 2] + 256u * h->file[from + 3]);
            name_strings(h, from);
        }
    }
}

static void strings(struct host *h) {
    size_t from = h->len;
    bool any = false;
    for (unsigned i = 1; i < 256; i++) any |= h->named[i];
    if (!any) return;
    long list = kept(h, 3, 0, 0, 255);
    for (long at = 2; at + 1 < list && !h->is_gone; at += 2)
        for (unsigned i = 1; i < 256 && !h->is_gone; i++)
            if (h->named[i]) kept(h, 3, i, h->file[from + (size_t)at] + 256u * h->file[from + (size_t)at + 1], 255);
}

static bool enumerate(struct host *h) {
    if (transfer(h, 0x80, 6, 0x100, 0, 8) < 8) return false;
    h->packet = h->file[7];
    if (transfer(h, 0, 5, 1, 0, 0) < 0 || kept(h, 1, 0, 0, 18) < 18) return false;
    for (int i = 14; i < 17; i++) h->named[h->file[i]] = true;
    sets(h, 2, h->file[17]);
    if (h->file[3] >= 2 && !h->is_gone) {
        long got = kept(h, 6, 0, 0, 10);
        if (got == 10) sets(h, 7, h->file[h->len - 2]);
    }
    if (wrong == UNREAD) {
        memcpy(h->file, known, known_len);
        h->len = known_len;
    } else {
        strings(h);
    }
    return !h->is_gone && transfer(h, 0, 9, h->file[18 + 5], 0, 0) >= 0;
}

static size_t run(void *context, struct nzg_bus *bus, uint8_t *file, size_t room) {
    (void)context;
    for (int attempt = 0; attempt < 3 && wrong != GIVES_UP; attempt++) {
        struct host host = {.bus = bus, .packet = 8, .file = file, .room = room};
        bus->reset(bus);
        if (enumerate(&host)) return host.len;
    }
    return 0;
}

int main(int argc, char **argv) {
    long there = argc < 4 ? -1 : read_all(argv[1], known, sizeof known);
    if (there < 27) return 2;
    known_len = (size_t)there, wrong = argc > 4 ? atoi(argv[4]) : 0;
    struct nzg_bench bench = {.file = known, .len = known_len, .speed = NZG_FULL, .losses = (unsigned)atoi(argv[2]), .within = (unsigned)atoi(argv[3])};
    return !nzg_bench_host(&bench, run, NULL, stdout);
}
