#include "nozzlegorse_talk.h"
#include <string.h>

/* bRequest of the standard requests (table 9-4), and bits of bmRequestType */
enum { GET_STATUS, CLEAR_FEATURE, SET_FEATURE = 3, SET_ADDRESS = 5, GET_DESCRIPTOR, GET_CONFIGURATION = 8, SET_CONFIGURATION, GET_INTERFACE, SET_INTERFACE, SYNCH_FRAME };
enum { TO_DEVICE, TO_INTERFACE, TO_ENDPOINT, FROM = 0x80, HALT = 0, WAKEUP = 1, NO_FEATURE = 7, AT = 1, ELSEWHERE = 93, MOST = 512 };

/* --- what the standard leaves open --------------------------------------------------------------------------------- */

static unsigned word(const uint8_t *at) { return at[0] | (unsigned)at[1] << 8; }

const char *nzg_bench_unspecified(enum phase phase, const uint8_t q[8]) {
    unsigned kind = q[0] & 0x1f, value = word(q + 2), index = word(q + 4), length = word(q + 6);
    if (q[0] & 0x60) return phase == IN_DEFAULT ? "9.1.1.3" : NULL;
    if (phase == IN_DEFAULT && q[1] != GET_DESCRIPTOR && q[1] != SET_ADDRESS) return "9.4";
    switch (q[1]) {
    case GET_STATUS: return value || length != 2 || (index && !kind) ? "9.4.5" : NULL;
    case CLEAR_FEATURE: return length || (index && !kind) ? "9.4.1" : NULL;
    case SET_FEATURE: return length || (index && !kind) || (!kind && value == 2) ? "9.4.9" : NULL;
    case SET_ADDRESS: return phase == IN_CONFIGURED || value > 127 || index || length ? "9.4.6" : NULL;
    case GET_DESCRIPTOR: return (value >> 8 == 1 || value >> 8 == 6) && value & 0xff ? "9.4.3" : NULL;
    case GET_CONFIGURATION: return value || index || length != 1 ? "9.4.2" : NULL;
    case SET_CONFIGURATION: return value > 255 || index || length ? "9.4.7" : NULL;
    case GET_INTERFACE: return value || length != 1 ? "9.4.4" : NULL;
    case SET_INTERFACE: return length ? "9.4.10" : NULL;
    case SYNCH_FRAME: return value || length != 2 ? "9.4.11" : NULL;
    default: return NULL;
    }
}

/* --- what there is ---------------------------------------------------------------------------------------------------- */

struct setting { uint8_t number, alternate, endpoints; };
struct endpoint { uint8_t number, alternate, address; bool is_isochronous; };
struct set { uint8_t value; unsigned total; };
struct found {
    uint8_t packet;
    struct set sets[2], others[2]; /* the first and the last */
    unsigned set_count, other_count, setting_count, endpoint_count, languages;
    struct setting settings[MOST];   /* of one set */
    struct endpoint endpoints[MOST];
    uint8_t first_string, last_string;
    uint16_t language;
    bool has_qualifier, strings[256], values[256];
};
struct talk { struct nzg_bench_request *at; size_t count; };

/* What the descriptors have; of settings and endpoints those of one set. */
static void find(const uint8_t *file, size_t len, size_t set, struct found *f) {
    memset(f, 0, sizeof *f);
    f->packet = len > 7 ? file[7] : 8;
    for (struct nzg_descriptor d = {0}; nzg_next(file, len, &d);) {
        if (d.role == NZG_CONFIGURATION) {
            struct set *sets = d.part == 1 ? f->sets : f->others;
            unsigned *count = d.part == 1 ? &f->set_count : &f->other_count;
            sets[1] = (struct set){file[d.place + 5], word(file + d.place + 2)};
            if (!(*count)++) sets[0] = sets[1];
            if (d.part == 1) f->values[file[d.place + 5]] = true;
        }
        bool is_here = d.part == 1 && d.set == set;
        if (d.role == NZG_INTERFACE && is_here && f->setting_count < MOST) f->settings[f->setting_count++] = (struct setting){d.interface_, d.alternate, file[d.place + 4]};
        if (d.role == NZG_ENDPOINT && is_here && f->endpoint_count < MOST) f->endpoints[f->endpoint_count++] = (struct endpoint){d.interface_, d.alternate, d.endpoint, (d.attributes & 3) == NZG_ISOCHRONOUS};
        if (d.role == NZG_QUALIFIER) f->has_qualifier = true;
        if (d.role == NZG_LANGUAGES) f->languages = d.length;
        if (d.role == NZG_STRING && !f->language) f->first_string = d.index, f->language = d.language;
        if (d.role == NZG_STRING && d.language == f->language) f->last_string = d.index, f->strings[d.index] = true;
    }
}

/* --- the requests ------------------------------------------------------------------------------------------------------ */

static void ask_cut(struct talk *t, uint8_t cut, unsigned kind, unsigned code, unsigned value, unsigned index, unsigned length) {
    if (t->count == NZG_BENCH_TALK) return;
    t->at[t->count++] = (struct nzg_bench_request){{{(uint8_t)kind, (uint8_t)code, (uint8_t)value, (uint8_t)(value >> 8), (uint8_t)index, (uint8_t)(index >> 8), (uint8_t)length, (uint8_t)(length >> 8)}}, cut, false};
}

static void ask(struct talk *t, unsigned kind, unsigned code, unsigned value, unsigned index, unsigned length) { ask_cut(t, 0, kind, code, value, index, length); }
static void get(struct talk *t, unsigned kind, unsigned index, unsigned language, unsigned length) { ask(t, FROM, GET_DESCRIPTOR, kind << 8 | index, language, length); }
static void status(struct talk *t) { ask(t, FROM, GET_STATUS, 0, 0, 2); }
static void status_of(struct talk *t, unsigned endpoint) { ask(t, FROM | TO_ENDPOINT, GET_STATUS, 0, endpoint, 2); }
static void configuration(struct talk *t) { ask(t, FROM, GET_CONFIGURATION, 0, 0, 1); }
static void select(struct talk *t, unsigned value) { ask(t, TO_DEVICE, SET_CONFIGURATION, value, 0, 0); }
static void move_to(struct talk *t, unsigned address) { ask(t, TO_DEVICE, SET_ADDRESS, address, 0, 0); }
static void feature(struct talk *t, unsigned kind, bool on, unsigned which, unsigned index) { ask(t, kind, on ? SET_FEATURE : CLEAR_FEATURE, which, index, 0); }
static void choose(struct talk *t, unsigned number, unsigned alternate) { ask(t, TO_INTERFACE, SET_INTERFACE, alternate, number, 0); }
static void chosen(struct talk *t, unsigned number) { ask(t, FROM | TO_INTERFACE, GET_INTERFACE, 0, number, 1); }

static void reset(struct talk *t) {
    if (t->count < NZG_BENCH_TALK) t->at[t->count++] = (struct nzg_bench_request){.is_reset = true};
}

static unsigned absent_value(const struct found *f) {
    unsigned value = 1;
    while (value < 255 && f->values[value]) value++;
    return value;
}

/* What hosts ask of each device, in lengths that end a data stage in each way. */
static void usual(struct talk *t, const struct found *f) {
    const unsigned lengths[] = {18, f->packet, 255, 1};
    unsigned absent = 254;
    while (f->strings[absent]) absent--;
    status(t), configuration(t);
    for (int i = 0; i < 4; i++) get(t, 1, 0, 0, lengths[i]);
    get(t, 2, 0, 0, 1024), get(t, 2, 0, 0, 2u * f->packet);
    if (f->language) get(t, 3, f->first_string, f->language, 255), get(t, 3, f->last_string, f->language, 255);
    get(t, 2, 255, 0, 9), get(t, 3, absent, 0x409, 255);
    ask(t, 0xc0, 0xee, 0, 0, 1), ask(t, FROM, 15, 0, 0, 1);
}

/* Class requests that bring data, as SET_LINE_CODING does. */
static void writes(struct talk *t, const struct found *f) {
    const unsigned lengths[] = {7, f->packet, 1, 8, 64, 512};
    for (int i = 0; i < 6; i++)
        if (i < 2 || lengths[i] != f->packet) ask(t, 0x21, 0x20, 0, 0, lengths[i]), ask(t, 0xa1, 0x21, 0, 0, lengths[i]);
}

static void of_interface(struct talk *t, const struct found *f, unsigned number) {
    unsigned last = 0, absent = 0;
    for (unsigned i = 0; i < f->setting_count; i++)
        if (f->settings[i].number == number) last = f->settings[i].alternate, absent = last + 1 > absent ? last + 1 : absent;
    ask(t, FROM | TO_INTERFACE, GET_STATUS, 0, number, 2), chosen(t, number);
    if (last) {
        choose(t, number, last), chosen(t, number);
        for (unsigned i = 0; i < f->endpoint_count; i++)
            if (f->endpoints[i].number == number && f->endpoints[i].alternate == last) status_of(t, f->endpoints[i].address);
    }
    choose(t, number, absent & 255), chosen(t, number), choose(t, number, 0), chosen(t, number);
    feature(t, TO_INTERFACE, true, HALT, number), feature(t, TO_INTERFACE, false, HALT, number);
}

/* A halt, and what ends it: CLEAR_FEATURE, SET_CONFIGURATION and SET_INTERFACE (9.4.5). */
static void halts(struct talk *t, const struct endpoint *e, unsigned value) {
    status_of(t, e->address);
    for (int end = 0; end < 3; end++) {
        feature(t, TO_ENDPOINT, true, HALT, e->address), status_of(t, e->address);
        if (end == 0) feature(t, TO_ENDPOINT, false, HALT, e->address);
        else if (end == 1) select(t, value);
        else choose(t, e->number, 0);
        status_of(t, e->address);
    }
    feature(t, TO_ENDPOINT, true, NO_FEATURE, e->address), feature(t, TO_ENDPOINT, false, NO_FEATURE, e->address);
    ask(t, FROM | TO_ENDPOINT, SYNCH_FRAME, 0, e->address, 2);
}

static void isochronous(struct talk *t, const struct found *f) {
    for (unsigned i = 0; i < f->endpoint_count; i++) {
        const struct endpoint *e = &f->endpoints[i];
        if (!e->is_isochronous) continue;
        if (e->alternate) choose(t, e->number, e->alternate);
        status_of(t, e->address), feature(t, TO_ENDPOINT, true, HALT, e->address), status_of(t, e->address), feature(t, TO_ENDPOINT, false, HALT, e->address);
        if (e->alternate) choose(t, e->number, 0);
        return;
    }
}

/* Of interfaces and endpoints the first, the last and one that there is not. */
static void of_set(struct talk *t, const struct found *f, unsigned value) {
    const struct endpoint *first = NULL, *last = NULL;
    unsigned number = f->setting_count ? f->settings[f->setting_count - 1].number : 0, absent = 0;
    bool known[256] = {false};
    for (unsigned i = 0; i < f->setting_count; i++) absent = f->settings[i].number >= absent ? f->settings[i].number + 1u : absent;
    for (unsigned i = 0; i < f->endpoint_count; i++) {
        known[f->endpoints[i].address] = true;
        if (f->endpoints[i].is_isochronous || f->endpoints[i].alternate) continue;
        last = &f->endpoints[i];
        if (!first) first = last;
    }
    if (f->setting_count) of_interface(t, f, f->settings[0].number);
    if (f->setting_count && number != f->settings[0].number) of_interface(t, f, number);
    of_interface(t, f, absent & 255);
    if (first) halts(t, first, value);
    if (last != first) halts(t, last, value);
    isochronous(t, f);
    for (unsigned in = 0; in < 2; in++) {
        unsigned endpoint = in ? 0x0f : 0x8f;
        while (known[endpoint] && endpoint & 15) endpoint--;
        status_of(t, endpoint), feature(t, TO_ENDPOINT, true, HALT, endpoint), feature(t, TO_ENDPOINT, false, HALT, endpoint);
    }
}

/* A new SETUP in each stage. */
static void cut(struct talk *t, unsigned value) {
    for (uint8_t count = 1; count < 5; count++) {
        ask_cut(t, count, FROM, GET_DESCRIPTOR, 0x200, 0, 255), configuration(t);
        ask_cut(t, count, FROM, GET_DESCRIPTOR, 0x100, 0, 8), status(t);
    }
    for (uint8_t count = 1; count < 3; count++) ask_cut(t, count, TO_DEVICE, SET_CONFIGURATION, value, 0, 0), get(t, 1, 0, 0, 18);
}

static void all_lengths(struct talk *t, unsigned kind, unsigned index, unsigned language, unsigned length) {
    const unsigned lengths[] = {0, 1, 8, length, length + 1, 0xffff};
    for (int i = 0; i < 6; i++) get(t, kind, index, language, lengths[i]);
}

static void descriptors(struct talk *t, const struct found *f, const uint8_t *file, size_t len) {
    unsigned absent = 1;
    while (absent < 255 && f->strings[absent]) absent++;
    all_lengths(t, 1, 0, 0, 18), all_lengths(t, 2, 0, 0, f->sets[0].total);
    if (f->set_count > 1) all_lengths(t, 2, f->set_count - 1, 0, f->sets[1].total);
    if (f->other_count) all_lengths(t, 7, 0, 0, f->others[0].total);
    if (f->has_qualifier) all_lengths(t, 6, 0, 0, 10);
    if (f->languages) all_lengths(t, 3, 0, 0, f->languages);
    for (struct nzg_descriptor d = {0}; nzg_next(file, len, &d) && f->language;)
        if (d.role == NZG_STRING && d.language == f->language && (d.index == f->first_string || d.index == f->last_string)) all_lengths(t, 3, d.index, d.language, d.length);
    get(t, 2, f->set_count, 0, 9), get(t, 7, f->other_count, 0, 9);
    if (!f->has_qualifier) get(t, 6, 0, 0, 10);
    if (f->language) get(t, 3, f->first_string, f->language == 0x407 ? 0x40c : 0x407, 255), get(t, 3, absent, f->language, 255);
    get(t, 4, 0, 0, 9), get(t, 5, 0, 0, 7), get(t, 1, 1, 0, 18);
}

static void features(struct talk *t, bool asks_status) {
    for (unsigned which = WAKEUP; which <= NO_FEATURE; which += NO_FEATURE - WAKEUP)
        for (int off = 0; off < 2; off++) {
            feature(t, TO_DEVICE, !off, which, 0);
            if (asks_status) status(t);
        }
}

/* Standard requests that there are not. */
static void none(struct talk *t) {
    ask(t, FROM, 2, 0, 0, 1), ask(t, TO_DEVICE, 4, 0, 0, 0), ask(t, TO_DEVICE, 14, 0, 0, 0), ask(t, FROM, 15, 0, 0, 1), ask(t, TO_DEVICE, 255, 0, 0, 0);
}

static void not_specified(struct talk *t, unsigned number) {
    ask(t, FROM, GET_STATUS, 0, 0, 1), ask(t, FROM, GET_STATUS, 0, 0, 4), ask(t, FROM, GET_STATUS, 0, 1, 2), ask(t, FROM, GET_STATUS, 1, 0, 2);
    ask(t, FROM, GET_CONFIGURATION, 0, 0, 2), ask(t, FROM, GET_CONFIGURATION, 1, 0, 1), ask(t, TO_DEVICE, SET_CONFIGURATION, 0x100, 0, 0), ask(t, TO_DEVICE, SET_CONFIGURATION, 0, 1, 0);
    ask(t, FROM | TO_INTERFACE, GET_INTERFACE, 1, number, 1), ask(t, FROM | TO_INTERFACE, GET_INTERFACE, 0, number, 2), feature(t, TO_DEVICE, false, WAKEUP, 1);
}

static void in_default(struct talk *t, const struct found *f) {
    get(t, 1, 0, 0, 64), get(t, 1, 0, 0, 8), get(t, 1, 0, 0, 18), get(t, 2, 0, 0, 9), get(t, 2, 0, 0, 0xffff), get(t, 2, f->set_count, 0, 9);
    move_to(t, 0), get(t, 1, 0, 0, 18), status(t), configuration(t), select(t, f->sets[0].value), features(t, false);
    chosen(t, 0), choose(t, 0, 0), status_of(t, 0), ask(t, 0xc0, 0xee, 0, 0, 1);
}

static void in_address(struct talk *t, const struct found *f, const uint8_t *file, size_t len) {
    unsigned number = f->setting_count ? f->settings[0].number : 0;
    move_to(t, AT), configuration(t), status(t), status_of(t, 0), status_of(t, 0x80), move_to(t, AT), status(t), move_to(t, ELSEWHERE), status(t);
    ask_cut(t, 1, TO_DEVICE, SET_ADDRESS, AT, 0, 0), status(t), move_to(t, 127), configuration(t), move_to(t, 0), get(t, 1, 0, 0, 18), move_to(t, AT), status(t);
    features(t, true), select(t, 0), configuration(t), select(t, absent_value(f)), configuration(t);
    ask(t, FROM | TO_INTERFACE, GET_STATUS, 0, number, 2), chosen(t, number), choose(t, number, 0);
    if (f->endpoint_count) {
        unsigned endpoint = f->endpoints[0].address;
        status_of(t, endpoint), feature(t, TO_ENDPOINT, true, HALT, endpoint), feature(t, TO_ENDPOINT, false, HALT, endpoint), ask(t, FROM | TO_ENDPOINT, SYNCH_FRAME, 0, endpoint, 2);
    }
    none(t), descriptors(t, f, file, len), not_specified(t, number), move_to(t, 128), ask(t, TO_DEVICE, SET_ADDRESS, ELSEWHERE, 1, 0);
}

static void configured(struct talk *t, const struct found *f, const uint8_t *file, size_t len) {
    unsigned number = f->setting_count ? f->settings[0].number : 0;
    configuration(t), status(t), features(t, true), status_of(t, 0), status_of(t, 0x80), feature(t, TO_ENDPOINT, true, HALT, 0), feature(t, TO_ENDPOINT, false, HALT, 0);
    select(t, 0), configuration(t), chosen(t, number), choose(t, number, 0), status(t), select(t, f->sets[0].value), configuration(t), select(t, absent_value(f)), configuration(t);
    none(t), descriptors(t, f, file, len), not_specified(t, number), move_to(t, ELSEWHERE);
    ask_cut(t, 1, FROM, GET_DESCRIPTOR, 0x100, 0, 18), configuration(t);
}

/* A setting, a halt and remote wakeup, then a reset: of each nothing is left. */
static void after_a_reset(struct talk *t, const struct found *f) {
    const struct setting *other = NULL;
    const struct endpoint *halted = NULL;
    for (unsigned i = 0; i < f->setting_count && !other; i++) other = f->settings[i].alternate ? &f->settings[i] : NULL;
    for (unsigned i = 0; i < f->endpoint_count && !halted; i++) halted = f->endpoints[i].alternate || f->endpoints[i].is_isochronous ? NULL : &f->endpoints[i];
    select(t, f->sets[0].value);
    if (other) choose(t, other->number, other->alternate);
    if (halted) feature(t, TO_ENDPOINT, true, HALT, halted->address);
    feature(t, TO_DEVICE, true, WAKEUP, 0), reset(t), move_to(t, AT), configuration(t), status(t), select(t, f->sets[0].value);
    if (other) chosen(t, other->number);
    if (halted) status_of(t, halted->address);
}

size_t nzg_bench_talk(const uint8_t *file, size_t len, struct nzg_bench_request talk[NZG_BENCH_TALK]) {
    struct found f;
    struct talk t = {talk, 0};
    find(file, len, 0, &f);
    if (!f.set_count) return 0;
    unsigned value = f.sets[0].value;
    reset(&t), move_to(&t, AT), select(&t, value), usual(&t, &f), writes(&t, &f), of_set(&t, &f, value), cut(&t, value);
    reset(&t), in_default(&t, &f), reset(&t), in_address(&t, &f, file, len), select(&t, value), configured(&t, &f, file, len);
    if (f.set_count > 1) {
        find(file, len, f.set_count - 1, &f);
        select(&t, f.sets[1].value), of_set(&t, &f, f.sets[1].value);
        find(file, len, 0, &f);
    }
    after_a_reset(&t, &f);
    return t.count;
}
