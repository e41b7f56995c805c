/* The texts of a file, its findings and remarks, each descriptor and field, sets in pieces, enumerations; what is said where memory
 * is refused, and how deep the stack goes. */
#include "steps.h"

static uint8_t built[sizeof file];
static struct nzg_finding found[400];
static struct nzg_remark remarks[400];
enum { MOST = 400, FATES = 200 };

static void build_back(struct nzg_answer shown) {
    if (shown.status != NZG_DONE) return;
    struct nzg_answer answer = nzg_build(room, shown.length, one_in(2), built, sizeof built);
    say_answer("build", answer);
    if (answer.status == NZG_DONE) say_hash(built, answer.length);
    say("\n");
}

static void texts(uint32_t length) {
    for (uint32_t options = 0; options < 16; options++)
        say_text("explain", nzg_explain(file, length, options, (uint8_t)(options % 5), room, ROOM));
    say_text("show", nzg_show(file, length, false, room, ROOM));
    struct nzg_answer shown = nzg_show(file, length, true, room, ROOM);
    say_text("show any", shown);
    build_back(shown);
    say_text("check", nzg_check(file, length, false, room, ROOM));
    say_text("check any", nzg_check(file, length, true, room, ROOM));
    say_text("no room", nzg_check(file, length, true, room, 5));
    say_text("with strings", nzg_with_strings(file, length, room, ROOM));
}

static void say_place(uint64_t place, uint64_t set, uint64_t setting, uint64_t endpoint) {
    say_list(" ", place);
    say_list(",", set);
    say_list(",", setting);
    say_list(",", endpoint);
}

static void findings(uint32_t length) {
    struct nzg_answer answer = nzg_findings(file, length, found, MOST);
    say_answer("findings", answer);
    for (uint32_t i = 0; answer.status == NZG_DONE && i < answer.length; i++) {
        say_place(found[i].place, found[i].set, found[i].setting, found[i].endpoint);
        say_list(",", found[i].rule);
        say_list(",", found[i].part);
        say_list(",", found[i].role);
    }
    say("\n");
}

static void remarked(uint32_t length) {
    struct nzg_answer answer = nzg_remarks(file, length, (uint8_t)any(6), remarks, MOST);
    say_answer("remarks", answer);
    for (uint32_t i = 0; answer.status == NZG_DONE && i < answer.length; i++) {
        say_place(remarks[i].place, remarks[i].set, remarks[i].setting, remarks[i].endpoint);
        say_list(",", remarks[i].number);
        say_list(",", remarks[i].part);
        say_list(",", remarks[i].role);
    }
    say("\n");
}

static void fields(uint32_t length, const struct nzg_descriptor *descriptor) {
    struct nzg_field field = {0};
    for (uint32_t i = 0; nzg_field(file, length, descriptor, i, &field); i++) {
        say_list(" ", field.place);
        say_list(":", field.width);
        say_list("=", field.value);
        say_hash(field.name, field.name_length);
    }
}

static void say_descriptor(const struct nzg_descriptor *it) {
    say_list("at ", it->place);
    say_list(" ", it->next);
    say_list(" ", it->left);
    say_list(" ", it->languages_place);
    say_list(" ", it->endpoint_number);
    say_list(" ", it->type);
    say_list(" ", it->role);
    say_list(" ", it->owner);
    say_list(" ", it->depth);
    say_list(" ", it->part);
    say_list(" ", it->set);
    say_list(" ", it->setting);
    say_list(" ", it->named[0] ^ it->named[1] ^ it->named[2] ^ it->named[3]);
    say_list(" ", it->endpoint);
    say_list(" ", it->language);
    say_list(" ", it->attributes);
    say_list(" ", it->packet);
    say_list(" ", it->transactions);
    say_list(" ", it->interval);
}

static void walk(uint32_t length) {
    struct nzg_descriptor descriptor = {0};
    while (nzg_next(file, length, &descriptor)) {
        say_descriptor(&descriptor);
        fields(length, &descriptor);
        if (descriptor.role == NZG_STRING) {
            struct nzg_answer answer = nzg_text(file, length, &descriptor, room, ROOM);
            say_answer(" text", answer);
            if (answer.status == NZG_DONE) say_hash(room, answer.length);
        }
        say("\n");
    }
}

void facts(uint32_t length) {
    say_answer("judge", nzg_judge(file, length));
    say("\n");
    texts(length);
    findings(length);
    remarked(length);
    walk(length);
}

void pieces(uint32_t length) {
    struct nzg_decoder decoder = {0};
    say_answer("decoder", nzg_decoder_open(&decoder));
    for (uint32_t at = 0, piece; at < length; at += piece) {
        piece = 1 + any(40);
        if (piece > length - at) piece = length - at;
        struct nzg_answer answer = nzg_decoder_feed(&decoder, file + at, piece);
        say_answer(" ;", answer);
        if (answer.status != NZG_OPEN) break;
    }
    say_text(" list", nzg_decoder_list(&decoder, room, ROOM));
    nzg_decoder_close(&decoder);
}

void enumerations(uint32_t length) {
    static uint8_t fates[FATES];
    for (uint8_t speed = NZG_LOW; speed <= NZG_HIGH; speed++) {
        struct nzg_outcome outcome = {0};
        for (uint32_t i = 0; i < FATES; i++) fates[i] = one_in(12) ? (uint8_t)"dnuax"[any(5)] : '.';
        struct nzg_answer answer = nzg_enumerate(file, length, speed, 8, 3, fates, FATES, &outcome, room, ROOM);
        say_list("enumerate ", outcome.transactions);
        say_list(" ", outcome.attempts);
        say_list(" ", outcome.step);
        say_text("", answer);
    }
}

/* --- broken files ------------------------------------------------------------------------------------------------------ */

/* The facts of a file with one to three other bytes, or cut, and then the file as it was. */
static void mutated(uint32_t length) {
    uint32_t count = 1 + any(3), at[3], cut = one_in(8) ? any(length + 1) : length;
    uint8_t was[3];
    for (uint32_t i = 0; i < count; i++) {
        at[i] = any(length);
        was[i] = file[at[i]];
        file[at[i]] = one_in(2) ? (uint8_t)any(256) : (uint8_t)(was[i] ^ (1 << any(8)));
    }
    say_answer("judge", nzg_judge(file, cut));
    uint32_t options = any(16);
    say_text(" explain", nzg_explain(file, cut, options, (uint8_t)any(5), room, ROOM));
    findings(cut);
    remarked(cut);
    walk(cut);
    while (count--) file[at[count]] = was[count];
}

void mutated_facts(uint32_t length, uint32_t times) {
    while (length && times--) mutated(length);
}

/* --- memory, stack ------------------------------------------------------------------------------------------------------- */

enum { CALLS = 6, REQUESTS = 400 };

/* Calls of which those that ask for more than so many blocks are refused one. How many were. */
static uint32_t refused_after(uint32_t length, uint32_t granted) {
    struct nzg_host host = {0};
    struct nzg_answer answers[CALLS];
    uint32_t refused = 0;
    for (uint32_t i = 0; i < CALLS; i++) {
        memory_allow((long)granted);
        if (i == 0) answers[i] = nzg_device_image(file, length, NZG_HIGH, image, sizeof image);
        if (i == 1) answers[i] = nzg_host_open(&host, 1, 16, 3, NZG_HIGH);
        if (i == 2) answers[i] = nzg_check(file, length, true, room, ROOM);
        if (i == 3) answers[i] = nzg_explain(file, length, 0, 0, room, ROOM);
        if (i == 4) answers[i] = nzg_judge(file, length);
        if (i == 5) answers[i] = nzg_show(file, length, true, room, ROOM);
        say_answer("", answers[i]);
        refused += answers[i].status == NZG_NO_MEMORY;
    }
    memory_allow(-1);
    nzg_host_close(&host);
    return refused;
}

/* Each request for memory is refused in turn, and nothing is kept. */
void refusals(uint32_t length) {
    uint32_t live = memory_now().live;
    for (uint32_t granted = 0; granted < REQUESTS; granted++) {
        say_list("granted ", granted);
        uint32_t refused = refused_after(length, granted);
        say(memory_now().live == live ? "\n" : " KEPT\n");
        if (!refused) break;
    }
}

/* Bytes of stack of each call: not the same on two processors, so that these lines begin with a mark. */
void stacks(uint32_t length) {
    struct nzg_host host = {0};
    struct nzg_transaction next = {0};
    struct nzg_descriptor descriptor = {0};
    struct nzg_field field;
    say("%");
    device_stacks(length);
    DEEP("nzg_host_open", nzg_host_open(&host, 1, 16, 3, NZG_HIGH));
    nzg_host_reset_done(&host);
    DEEP("nzg_host_next", nzg_host_next(&host, &next));
    DEEP("nzg_host_take", nzg_host_take(&host, NZG_ACK, 0, file, 0));
    DEEP("nzg_next", nzg_next(file, length, &descriptor));
    DEEP("nzg_field", nzg_field(file, length, &descriptor, 0, &field));
    DEEP("nzg_findings", nzg_findings(file, length, found, MOST));
    DEEP("nzg_remarks", nzg_remarks(file, length, 0, remarks, MOST));
    DEEP("nzg_check", nzg_check(file, length, true, room, ROOM));
    DEEP("nzg_explain", nzg_explain(file, length, 0, 0, room, ROOM));
    DEEP("nzg_show", nzg_show(file, length, true, room, ROOM));
    nzg_host_close(&host);
    say("\n");
}
