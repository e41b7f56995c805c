/* The same calls on every processor. What each gave is printed, so that two processors differ by `cmp`. The files are those that
 * the file `list` names, a line each; `counts` has how many steps each device gets, how often each file is mutated, and whether
 * each request for memory is refused and the stack is measured; `scripts` has steps of both ends, and `recordings` names recordings. */
#include "steps.h"

uint8_t file[66000], room[ROOM];
static uint8_t list[16384], name[256], counts[64];
static uint32_t seed;

void draw_from(uint32_t number) { seed = 2463534242u + number; }

/* Of two in one expression it isn't said which comes first, so that there is never a second one. */
uint32_t any(uint32_t below) {
    seed ^= seed << 13;
    seed ^= seed >> 17;
    seed ^= seed << 5;
    return (uint32_t)((uint64_t)seed * below >> 32);
}

bool one_in(uint32_t number) { return any(number) == 0; }

void fill(uint8_t *to, uint32_t length) {
    while (length--) *to++ = (uint8_t)any(256);
}

void say_list(const char *what, uint64_t number) {
    say(what);
    say_number(number);
}

void say_answer(const char *what, struct nzg_answer answer) {
    say(what);
    say_list(" ", answer.status);
    say_list(" ", answer.number);
    say_list(" ", answer.place);
    say_list(" ", answer.length);
}

void say_text(const char *what, struct nzg_answer answer) {
    say_answer(what, answer);
    if (answer.status != NZG_NO_ROOM && answer.length <= ROOM) say_hash(room, answer.length);
    say("\n");
}

static uint32_t number_of(const uint8_t **text) {
    uint32_t number = 0;
    for (; **text >= '0'; ++*text) number = number * 10 + **text - '0';
    ++*text;
    return number;
}

struct wanted { uint32_t steps, mutations, more; };

static void play(uint32_t length, const struct wanted *wanted) {
    for (uint8_t speed = NZG_LOW; speed <= NZG_HIGH; speed++) device_steps(length, speed, wanted->steps);
    any_device_steps(wanted->steps / 2);
    for (uint8_t i = 0; i < 12; i++) host_steps(length, (uint8_t)(1 + i % 3), 5 + 40 * (i % 5));
    for (uint8_t i = 0; i < 30; i++) transfer_steps();
    for (uint8_t i = 0; i < 30; i++) write_steps();
    facts(length);
    words(length);
    pieces(length);
    enumerations(length);
    if (wanted->more) refusals(length);
    if (wanted->more > 1) stacks(length);
    mutated_facts(length, wanted->mutations);
}

/* The next name of the list, ended by NUL; 0 behind the last. */
static bool next_name(const uint8_t **at) {
    uint32_t length = 0;
    while (**at && **at != '\n') name[length++] = *(*at)++;
    name[length] = 0;
    if (**at) ++*at;
    return length;
}

static void rules(void) {
    for (uint8_t rule = 0; rule < 16; rule++) say_text("rule", nzg_rule(rule, room, ROOM));
}

#if !defined __x86_64__
unsigned char *nzg_lowered_alloc(uint64_t length, uint64_t align);
unsigned char *nzg_lowered_realloc(unsigned char *at, uint64_t kept, uint64_t length, uint64_t align);
/* A length whose lower word is small is refused, and not cut to it. */
static bool cuts_a_length(void) {
    for (int bits = 31; bits < 64; bits++)
        if (nzg_lowered_alloc((1ull << bits) + 5, 8) || nzg_lowered_realloc(file, 0, (1ull << bits) + 5, 8)) return true;
    return false;
}
#else
static bool cuts_a_length(void) { return false; }
#endif

static void play_recording(uint32_t length, const struct wanted *wanted) { recording(length, wanted->mutations); }

/* Plays each file that a list names. Whether all are there. */
static bool play_all(const char *named, void (*played)(uint32_t, const struct wanted *), const struct wanted *wanted) {
    long count = read_file(named, list, sizeof list - 1);
    if (count < 0) return false;
    list[count] = 0;
    const uint8_t *names = list;
    for (uint32_t line = 0; next_name(&names); line++) {
        long length = read_file((char *)name, file, sizeof file);
        if (length < 0) return false;
        say("file ");
        say((char *)name);
        say_list(" ", (uint64_t)length);
        say("\n");
        draw_from(line);
        played((uint32_t)length, wanted);
    }
    return true;
}

int main(void) {
    if (read_file("counts", counts, sizeof counts - 1) < 0) return 2;
    const uint8_t *at = counts;
    struct wanted wanted;
    wanted.steps = number_of(&at);
    wanted.mutations = number_of(&at);
    wanted.more = number_of(&at);
    if (cuts_a_length()) return 3;
    if (!play_all("list", play, &wanted)) return 4;
    rules();
    scripts();
    if (!play_all("recordings", play_recording, &wanted)) return 5;
    struct memory memory = memory_now();
    say_list("requests ", memory.calls);
    say_list(" live ", memory.live);
    say("\n");
    return 0;
}
