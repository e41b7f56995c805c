/* What the calls say in words, the fields of a descriptor at once and by name, bytes out of text, the search in any bytes, packets, and
 * hosts that don't ask for everything. */
#include "steps.h"

enum { FOUND = 64, FIELDS = 254, FATES = 60 };
static struct nzg_finding found[FOUND];
static struct nzg_remark remarks[FOUND];
static struct nzg_field fields[FIELDS];
static struct nzg_found places[FOUND];

static void findings(uint32_t length) {
    struct nzg_answer answer = nzg_findings(file, length, found, FOUND);
    for (uint32_t i = 0; answer.status == NZG_DONE && i < answer.length; i++)
        say_text("finding", nzg_finding_text(file, length, &found[i], room, ROOM));
    struct nzg_finding none = {.place = any(length + 9)};
    none.rule = (uint8_t)any(16);
    say_text("no finding", nzg_finding_text(file, length, &none, room, ROOM));
}

static void remarked(uint32_t length) {
    uint8_t speed = (uint8_t)any(6);
    struct nzg_answer answer = nzg_remarks(file, length, speed, remarks, FOUND);
    for (uint32_t i = 0; answer.status == NZG_DONE && i < answer.length; i++)
        say_text("remark", nzg_remark_text(file, length, speed, &remarks[i], room, ROOM));
    struct nzg_remark none = {.place = any(length + 9)};
    none.number = (uint8_t)any(40);
    say_text("no remark", nzg_remark_text(file, length, speed, &none, room, ROOM));
}

static void troubles(void) {
    for (uint8_t why = 0; why < 20; why++) {
        struct nzg_trouble trouble = {.why = why, .step = (uint8_t)any(13)};
        trouble.index = (uint8_t)any(256);
        trouble.language = (uint16_t)any(65536);
        say_text("trouble", nzg_trouble_text(&trouble, room, ROOM));
    }
}

static void say_field(const struct nzg_field *it) {
    say_list(" ", it->place);
    say_list(":", it->width);
    say_list("=", it->value);
    say_hash(it->name, it->name_length);
}

static void all_fields(uint32_t length, const struct nzg_descriptor *descriptor) {
    struct nzg_answer answer = nzg_fields(file, length, descriptor, fields, FIELDS);
    say_answer("fields", answer);
    if (answer.status != NZG_DONE || !answer.length) return;
    for (uint32_t i = 0; i < answer.length; i++) say_field(&fields[i]);
    struct nzg_field named = {0}, wanted = fields[any((uint32_t)answer.length)];
    say_list(" named ", nzg_field_named(file, length, descriptor, wanted.name, wanted.name_length, &named));
    say_field(&named);
    say_list(" cut ", nzg_field_named(file, length, descriptor, wanted.name, wanted.name_length / 2, &named));
    say_answer(" room", nzg_fields(file, length, descriptor, fields, any(4)));
}

static void fields_of_all(uint32_t length) {
    struct nzg_descriptor descriptor = {0};
    while (nzg_next(file, length, &descriptor)) {
        if (!one_in(8)) continue;
        all_fields(length, &descriptor);
        say("\n");
    }
}

/* Of a digit sometimes another letter, so that most texts are right. */
static uint32_t digits_of(uint32_t length) {
    uint32_t at = 0, bytes = length < 1000 ? length : 1000;
    for (uint32_t i = 0; i < bytes; i++) {
        room[at++] = (uint8_t)"0123456789abcdef"[file[i] >> 4];
        uint8_t last = (uint8_t)"0123456789ABCDEF"[file[i] & 15];
        room[at++] = one_in(2000) ? (uint8_t)any(128) : last;
        if (one_in(3)) room[at++] = (uint8_t)" \t\n,:"[any(5)];
    }
    return at;
}

static void out_of_text(uint32_t length) {
    static uint8_t text[4000], bytes[2000];
    uint32_t count = digits_of(length);
    for (uint32_t i = 0; i < count; i++) text[i] = room[i];
    struct nzg_answer answer = nzg_from_text(text, count, bytes, sizeof bytes);
    say_answer("from text", answer);
    if (answer.status == NZG_DONE) say_hash(bytes, answer.length);
    say("\n");
    uint32_t options = NZG_HEX | any(32);
    say_text("explain text", nzg_explain(text, count, options, (uint8_t)any(5), room, ROOM));
}

static void search(uint32_t length) {
    nzg_size count = nzg_find_all(file, length, any(4), places, FOUND);
    say_list("find ", count);
    for (uint32_t i = 0; i < count; i++) {
        say_list(" ", places[i].place);
        say_list("+", places[i].length);
        say_list(",", places[i].next);
        say_list(",", places[i].kind);
    }
    struct nzg_found one = {0};
    say_list(" one ", nzg_find(file, length, any(length + 2), &one));
    say_list(" ", one.place);
    say("\n");
}

static void log_of(uint32_t length) {
    uint8_t fates[FATES];
    for (uint32_t i = 0; i < FATES; i++) fates[i] = one_in(9) ? (uint8_t)"dnuax"[any(5)] : '.';
    uint8_t speed = (uint8_t)(1 + any(3));
    say_text("log", nzg_enumerate_log(file, length, speed, (uint16_t)any(9), 2, fates, FATES, room, ROOM));
}

/* A packet of any fields, written and read back, and any bytes. */
static void packets(void) {
    uint8_t data[64];
    struct nzg_packet_fields packet = {.split = any(1 << 20)};
    packet.frame = (uint16_t)any(3000);
    packet.pid = (uint8_t)any(16);
    packet.address = (uint8_t)any(140);
    packet.endpoint = (uint8_t)any(18);
    fill(data, sizeof data);
    struct nzg_answer answer = nzg_packet_write(&packet, data, any(65), room, ROOM);
    say_text("packet", answer);
    if (answer.status != NZG_DONE) answer.length = any(20);
    uint32_t spoilt = any((uint32_t)answer.length + 1);
    if (one_in(3)) room[spoilt] ^= (uint8_t)(1 << any(8));
    struct nzg_packet_fields back = {0};
    say_list(" read ", nzg_packet_parse(room, answer.length, &back));
    say_list(" ", back.pid);
    say_list(" ", back.address);
    say_list(" ", back.endpoint);
    say_list(" ", back.frame);
    say_list(" ", back.split);
    say_list(" ", back.place);
    say_list(" ", back.length);
    say("\n");
}

void words(uint32_t length) {
    findings(length);
    remarked(length);
    say_text("fault", nzg_fault_text(file, length, room, ROOM));
    troubles();
    fields_of_all(length);
    out_of_text(length);
    search(length);
    log_of(length);
    for (uint32_t i = 0; i < 20; i++) packets();
}
