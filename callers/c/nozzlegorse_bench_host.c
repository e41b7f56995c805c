/* A host beside proved transfers, over a bus that loses packets. */
#include "nozzlegorse_run.h"
#include <stdlib.h>
#include <string.h>

enum { READS = 128, FAR = 0xffff };
static const char DUE[] = "another transaction is due: the data stage ends with wLength bytes or a short packet, and the status stage goes the other way, with DATA1 (8.5.3)";

/* A transfer as a proved host makes it, or a status stage after a first read that ended early. */
struct bus {
    struct nzg_bus face;
    struct run *run;
    struct nzg_transfer transfer;
    uint8_t request[8], address;
    bool has_transfer, is_ended, has_no_answer, ends_early, is_first;
    unsigned length, strikes;
    struct { uint8_t key[4]; unsigned length; } reads[READS]; /* wValue and wIndex of GET_DESCRIPTOR, and how many bytes came */
    unsigned read_count;
    const char *why;
};

static void reset(struct nzg_bus *face) {
    struct bus *b = face->context;
    if (b->why) return;
    nzg_device_reset(&b->run->proved);
    b->has_transfer = b->ends_early = false, b->address = 0, b->is_first = true;
    nzg_bench_new_line(b->run)->is_reset = true;
}

static void begin(struct bus *b, const struct nzg_transaction *sent) {
    struct nzg_setup setup;
    memcpy(setup.bytes, sent->setup, 8);
    memcpy(b->request, sent->setup, 8);
    b->has_transfer = nzg_transfer_open(&b->transfer, sent->address, b->run->bench->file[7], 0xffff, &setup).status == NZG_DONE;
    b->is_ended = b->has_no_answer = b->ends_early = false, b->length = b->strikes = 0;
}

/* What has come of a descriptor, the most of each. */
static void note_read(struct bus *b) {
    unsigned i = 0;
    if (b->request[0] != 0x80 || b->request[1] != 6) return;
    while (i < b->read_count && memcmp(b->reads[i].key, b->request + 2, 4)) i++;
    if (i == READS) return;
    if (i == b->read_count) memcpy(b->reads[b->read_count++].key, b->request + 2, 4), b->reads[i].length = 0;
    if (b->reads[i].length < b->length) b->reads[i].length = b->length;
}

static bool is_same(const struct nzg_transaction *a, const struct nzg_transaction *b) {
    return a->address == b->address && a->stage == b->stage && (a->stage != NZG_OUT || a->toggle == b->toggle) && (a->stage != NZG_SETUP || !memcmp(a->setup, b->setup, 8));
}

/* Why a host may not send this. It may begin a new transfer at any time. Else it sends what is due, or, after three losses, the same
 * again; and a first read may end after its first packet of 8 bytes (5.5.3). */
static const char *judged(struct bus *b, const struct nzg_transaction *sent) {
    struct nzg_transaction due;
    if (b->has_no_answer && !b->request[0] && b->request[1] == 5 && sent->address == b->request[2]) b->address = sent->address;
    if (sent->address != b->address) return "another address is due: a new one holds once the status stage is over (9.4.6)";
    bool is_due = b->has_transfer && !b->is_ended && !b->ends_early && nzg_transfer_next(&b->transfer, &due);
    if (sent->stage == NZG_SETUP) {
        if (!is_due || !is_same(sent, &due)) begin(b, sent);
        return NULL;
    }
    if (is_due && is_same(sent, &due)) return NULL;
    if (b->has_no_answer) {
        b->length = FAR; /* what comes now is not followed */
        return note_read(b), NULL;
    }
    bool is_status = sent->stage == NZG_OUT && sent->toggle == 1;
    bool may_end = b->is_first && is_due && due.stage == NZG_IN && !memcmp(b->request, "\x80\x06\x00\x01", 4) && b->length == 8;
    if (is_status && (may_end || (b->ends_early && !b->is_ended))) {
        b->ends_early = true;
        return NULL;
    }
    return DUE;
}

/* The transfer is over. */
static void over(struct bus *b) {
    b->is_ended = true, b->is_first = false;
    if (!b->request[0] && b->request[1] == 5) b->address = b->request[2];
    note_read(b);
}

static void take(struct bus *b, const struct nzg_packet *came) {
    if (!b->has_transfer || b->is_ended) return;
    if (b->ends_early) {
        if (came->reply == NZG_ACK) over(b);
        if (came->reply == NZG_SILENCE && ++b->strikes == 3) b->is_ended = b->has_no_answer = true;
        return;
    }
    struct nzg_answer heard = nzg_transfer_take(&b->transfer, came->reply, came->toggle, came->data, came->length);
    b->length += (unsigned)heard.length;
    if (heard.status == NZG_DONE) over(b);
    if (heard.status == NZG_TROUBLE) b->is_ended = true, b->is_first = false, b->has_no_answer = heard.number == 1;
}

static void send(struct nzg_bus *face, const struct nzg_transaction *sent, const uint8_t *data, size_t len, struct nzg_packet *reply) {
    struct bus *b = face->context;
    memset(reply, 0, sizeof *reply);
    reply->reply = NZG_SILENCE;
    if (b->why) return; /* nothing answers after a difference */
    b->run->work.request.is_reset = false;
    memcpy(b->run->work.request.setup.bytes, sent->stage == NZG_SETUP ? sent->setup : b->request, 8);
    struct nzg_bench_line *line = nzg_bench_new_line(b->run);
    line->sent = *sent, line->fate = nzg_bench_fate_of(b->run);
    b->run->transactions++;
    b->why = judged(b, sent);
    if (b->why) return;
    if (line->fate != 'd') nzg_device_serve(&b->run->proved, b->run->image, b->run->image_len, b->run->kept, sizeof b->run->kept, sent, data, len, line->fate != 'n', reply);
    if (reply->reply == NZG_DATA && line->fate != 'u' && line->fate != 'a') nzg_device_acked(&b->run->proved, b->run->image, b->run->image_len);
    if (line->fate == 'u') memset(reply, 0, sizeof *reply), reply->reply = NZG_SILENCE;
    line->came = line->due = *reply;
    take(b, reply);
}

/* Whether a descriptor was read whole. */
static bool was_read(const struct bus *b, unsigned type, unsigned index, unsigned language, unsigned length) {
    for (unsigned i = 0; i < b->read_count; i++) {
        const uint8_t *key = b->reads[i].key;
        if (key[0] == index && key[1] == type && (key[2] | key[3] << 8) == (int)language && b->reads[i].length >= length) return true;
    }
    return false;
}

static bool has_read_all(const struct bus *b) {
    const struct nzg_bench *bench = b->run->bench;
    for (struct nzg_descriptor d = {0}; nzg_next(bench->file, bench->len, &d);) {
        unsigned total = d.role == NZG_CONFIGURATION ? bench->file[d.place + 2] + 256u * bench->file[d.place + 3] : d.length;
        if (d.role == NZG_DEVICE && !was_read(b, 1, 0, 0, total)) return false;
        if (d.role == NZG_CONFIGURATION && !was_read(b, d.type, (unsigned)d.set, 0, total)) return false;
        if (d.role == NZG_QUALIFIER && !was_read(b, 6, 0, 0, total)) return false;
        if (d.role == NZG_LANGUAGES && !was_read(b, 3, 0, 0, total)) return false;
        if (d.role == NZG_STRING && !was_read(b, 3, d.index, d.language, total)) return false;
    }
    return true;
}

/* Why this is no file that a host has read. */
static const char *why_of(const struct bus *b, const uint8_t *file, size_t len) {
    const struct nzg_bench *bench = b->run->bench;
    if (b->why) return b->why;
    if (!len) return b->run->losses && b->run->transactions > b->run->at[0] ? NULL : "it gave up, and nothing was lost";
    size_t same = 0;
    while (same < len && same < bench->len && file[same] == bench->file[same]) same++;
    if (same < len && same < bench->len) return b->run->losses ? "it gives another byte than the device has: a packet that comes again is dropped by its toggle (8.6.4)" : "it gives another byte than the device has";
    if (same < bench->len) return "it gives less than the device has";
    if (same < len) return "it gives more than the device has";
    return has_read_all(b) ? NULL : "it gives what it has not read";
}

struct tried { nzg_bench_host_of *host; void *context; uint8_t *file; };
enum { ROOM = 1 << 20 };

static void once(struct run *run, void *context) {
    struct tried *tried = context;
    struct bus b = {.run = run, .is_first = true};
    b.face = (struct nzg_bus){&b, reset, send};
    nzg_device_reset(&run->proved);
    run->bench->runs++, run->transactions = run->line_count = 0;
    const char *why = why_of(&b, tried->file, tried->host(tried->context, &b.face, tried->file, ROOM));
    run->bench->transactions += run->transactions;
    if (why) nzg_bench_note(run, !b.why, why);
}

static bool try_host(struct run *run, struct tried *tried) {
    struct nzg_bench *bench = run->bench;
    bench->runs = bench->transactions = bench->differences = 0, bench->is_over = false;
    if (!tried->file || !nzg_bench_make_image(run)) {
        fprintf(((struct nzg_bench_text *)run->report->context)->out, "no device of this speed has these descriptors\n");
        return false;
    }
    for (unsigned losses = 0; losses <= bench->losses && losses <= NZG_BENCH_LOSSES && !bench->is_over; losses++) nzg_bench_with_losses(run, losses, once, tried);
    bench->differences = run->finding_count;
    return true;
}

bool nzg_bench_host(struct nzg_bench *bench, nzg_bench_host_of *host, void *context, FILE *out) {
    struct nzg_bench_text text = {out, bench, 0};
    struct nzg_bench_report report = nzg_bench_text_report(&text);
    struct run *run = calloc(1, sizeof *run);
    struct tried tried = {host, context, malloc(ROOM)};
    bool is_same = false;
    if (run) {
        run->bench = bench, run->report = &report;
        if (try_host(run, &tried)) {
            nzg_bench_print_unmet(bench, out);
            is_same = nzg_bench_print_end(bench, "host", out);
        }
    }
    if (run) free(run->image);
    free(tried.file), free(run);
    return is_same;
}
