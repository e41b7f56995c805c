/* The report as a text. */
#include "nozzlegorse_run.h"
#include <string.h>

static int print_packet(const struct nzg_packet *p, FILE *out) {
    static const char *const words[] = {"ACK", "NAK", "STALL", "DATA", "SILENCE"};
    if (p->reply != NZG_DATA) return fprintf(out, "%s", p->reply < 5 ? words[p->reply] : "?");
    int width = fprintf(out, "DATA%u ", p->toggle);
    for (unsigned i = 0; i < p->length && i < 10; i++) width += fprintf(out, "%02x", p->data[i]);
    if (p->length == 0) width += fprintf(out, "empty");
    if (p->length > 10) width += fprintf(out, ".. (%u)", p->length);
    return width;
}

static bool is_same_packet(const struct nzg_packet *a, const struct nzg_packet *b) {
    return a->reply == b->reply && (a->reply != NZG_DATA || (a->toggle == b->toggle && a->length == b->length && !memcmp(a->data, b->data, a->length)));
}

static void write_setup(char text[17], const uint8_t q[8]) {
    for (int i = 0; i < 8; i++) snprintf(text + 2 * i, 3, "%02x", q[i]);
}

/* The word of a step, or the bytes of a request. */
static void write_work(char text[20], const struct nzg_bench_work *work) {
    static const char *const words[] = {"", "first", "address", "device", "header", "set", "qualifier", "other_header", "other_set", "languages", "text", "configure"};
    text[0] = 0;
    if (work->request.is_reset) return;
    if (work->step) snprintf(text, 20, work->step == 10 ? "%s %02x" : "%s", words[work->step < 12 ? work->step : 0], work->index);
    else write_setup(text, work->request.setup.bytes);
}

static void print_line(const struct nzg_bench_line *line, unsigned long number, FILE *out) {
    char text[20];
    write_work(text, &line->work);
    fprintf(out, "%4lu  %-16s ", number, line->is_reset ? "" : text);
    if (line->is_reset) {
        fprintf(out, "reset\n");
        return;
    }
    fprintf(out, "%3u ", line->sent.address);
    write_setup(text, line->sent.setup);
    if (line->sent.stage == NZG_SETUP) fprintf(out, "SETUP %s  ", text);
    if (line->sent.stage == NZG_IN) fprintf(out, "%-24s", "IN");
    if (line->sent.stage == NZG_OUT) fprintf(out, "OUT DATA%u %14s", line->sent.toggle, "");
    fprintf(out, "%c  ", line->fate);
    int width = line->fate == 'd' ? 0 : print_packet(&line->came, out);
    if (line->fate != 'd' && !is_same_packet(&line->came, &line->due)) {
        fprintf(out, "%*s ", width < 32 ? 32 - width : 0, "");
        print_packet(&line->due, out);
    }
    fprintf(out, "\n");
}

static const char *const STATES[] = {"enumeration", "Default", "Address", "Configured"};

static void print_where(uint8_t state, const struct nzg_bench_request *request, FILE *out) {
    char setup[17];
    write_setup(setup, request->setup.bytes);
    fprintf(out, "%s: %s", STATES[state], setup);
    if (request->cut) fprintf(out, " ended after %u", request->cut);
}

static void asks(void *context, uint8_t state, const struct nzg_bench_work *work) { (void)context, (void)state, (void)work; }

/* Each difference once. It is written out at once: a process of its own may crash after it. */
static void differs(void *context, unsigned number, const struct nzg_bench_difference *it) {
    struct nzg_bench_text *text = context;
    if (number < text->count) return;
    text->count = number + 1;
    fprintf(text->out, "\n");
    if (it->is_whole) fprintf(text->out, "%s", STATES[it->state]);
    else print_where(it->state, &it->work.request, text->out);
    fprintf(text->out, ": %s\nrun %lu, losses:%s", it->why, text->bench->runs, it->losses ? "" : " none");
    for (unsigned i = 0; i < it->losses; i++) fprintf(text->out, " %c at %u", it->fates[i], it->at[i]);
    fprintf(text->out, "\n      %-16s     %-24s f  %-32s due\n", "in work", "sent", "under test");
    for (size_t i = 0; i < it->line_count; i++) print_line(&it->lines[i], it->first_line + i, text->out);
    fflush(text->out);
}

static void undefined(void *context, const struct nzg_bench_undefined *it) {
    static const char *const words[] = {"done", "no answer", "NAK", "STALL", "too long", "unexpected"};
    struct nzg_bench_text *text = context;
    fprintf(text->out, "undefined (%s): ", it->section);
    print_where(it->state, &it->request, text->out);
    fprintf(text->out, ": %s", words[it->trouble]);
    for (size_t i = 0; i < it->len && i < 4; i++) fprintf(text->out, "%s%02x", i ? "" : ", ", it->bytes[i]);
    if (it->len > 4) fprintf(text->out, ".. (%lu bytes)", (unsigned long)it->len);
    fprintf(text->out, "\n");
    fflush(text->out);
}

struct nzg_bench_report nzg_bench_text_report(struct nzg_bench_text *text) { return (struct nzg_bench_report){text, asks, differs, undefined}; }

/* --- the end of it --------------------------------------------------------------------------------------------------- */

void nzg_bench_print_unmet(const struct nzg_bench *bench, FILE *out) {
    unsigned packet = bench->file[7], longest = 0;
    bool has_whole = false;
    for (struct nzg_descriptor d = {0}; nzg_next(bench->file, bench->len, &d);) {
        bool is_set = d.role == NZG_CONFIGURATION;
        unsigned length = is_set ? bench->file[d.place + 2] + 256u * bench->file[d.place + 3] : d.role == NZG_STRING ? d.length : 0;
        if (length > longest) longest = length;
        if (length && length % packet == 0) has_whole = true;
    }
    if (!has_whole) fprintf(out, "not tried: the empty packet after whole ones; no set or string has a multiple of %u bytes\n", packet);
    if (longest <= packet) fprintf(out, "not tried: a second packet; no set or string has more than %u bytes\n", packet);
}

/* Settings and endpoints of the first configuration, which halts and SET_INTERFACE want. */
static void print_set_unmet(const struct nzg_bench *bench, FILE *out) {
    unsigned endpoints = 0, alternates = 0;
    for (struct nzg_descriptor d = {0}; nzg_next(bench->file, bench->len, &d);) {
        if (d.part != 1 || d.set) continue;
        alternates += d.role == NZG_INTERFACE && d.alternate;
        endpoints += d.role == NZG_ENDPOINT && !d.alternate && (d.attributes & 3) != NZG_ISOCHRONOUS;
        if (d.role == NZG_INTERFACE && !bench->file[d.place + 4]) fprintf(out, "not tried: halts of interface %u; its setting %u has no endpoints\n", d.interface_, d.alternate);
    }
    if (!endpoints) fprintf(out, "not tried: halts; no setting 0 of the first configuration has an interrupt or bulk endpoint\n");
    if (!alternates) fprintf(out, "not tried: another setting; no interface of the first configuration has one\n");
}

bool nzg_bench_print_end(const struct nzg_bench *bench, const char *end, FILE *out) {
    if (bench->differences) fprintf(out, "\n%s: %lu difference%s in %lu runs of %lu transactions\n", end, bench->differences, bench->differences > 1 ? "s" : "", bench->runs, bench->transactions);
    else fprintf(out, "%s: as the proved end in %lu runs of %lu transactions\n", end, bench->runs, bench->transactions);
    return !bench->differences;
}

bool nzg_bench_print_device(bool is_tried, const struct nzg_bench *bench, FILE *out) {
    if (!is_tried) {
        fprintf(out, "no device of this speed has these descriptors\n");
        return false;
    }
    nzg_bench_print_unmet(bench, out);
    print_set_unmet(bench, out);
    return nzg_bench_print_end(bench, "device", out);
}

bool nzg_bench_device(struct nzg_bench *bench, const struct nzg_bench_device *device, FILE *out) {
    struct nzg_bench_text text = {out, bench, 0};
    struct nzg_bench_report report = nzg_bench_text_report(&text);
    return nzg_bench_print_device(nzg_bench_try(bench, device, &report), bench, out);
}
