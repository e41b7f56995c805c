/* hosts: plays a script of hosts from standard input, as crates/test_ends/data/hosts has them but with a line `file` for the bytes of what
 * was read. Each step goes to standard output with what comes of it. Ends in 0 where no block is left and what has no meaning is
 * refused, else in the number of what isn't. */
#define POOL (1 << 22)
#include "pool.h"
#include "script.h"

static struct nzg_host host;
static long transactions;

static void print_step(const struct nzg_trouble *t) {
    static const char *const words[] = {"", "first", "address", "device", "header %u", "set %u", "qualifier", "other_header %u", "other_set %u", "languages", "", "configure"};
    printf("%u ", t->why);
    if (t->step == 10) printf("text %04x %02x", t->language, t->index);
    else printf(words[t->step], t->index);
}

static void print_due(void) {
    struct nzg_transaction due;
    struct nzg_trouble trouble;
    uint8_t none, action = nzg_host_next(&host, &due);
    if (action == NZG_RESET) {
        printf("reset");
    } else if (action == NZG_SEND) {
        printf("send %u %s", due.address, due.stage == NZG_SETUP ? "setup " : due.stage == NZG_IN ? "in" : "out data1 -");
        if (due.stage == NZG_SETUP) print_hex(due.setup, sizeof due.setup);
    } else {
        if (nzg_host_outcome(&host, &trouble, &none, 0).status == NZG_TROUBLE) printf("trouble "), print_step(&trouble);
        else printf("success");
        printf(" attempts %u transactions %ld", nzg_host_attempts(&host), transactions);
    }
}

static void print_forgiven(void) {
    struct nzg_trouble trouble;
    nzg_size count = 0;
    for (; nzg_host_forgiven(&host, count, &trouble); count++) {
        printf(count ? ", " : "");
        print_step(&trouble);
    }
    if (!count) printf("none");
}

static void print_file(void) {
    struct nzg_trouble trouble;
    struct nzg_answer answer = nzg_host_outcome(&host, &trouble, bytes, sizeof bytes);
    if (answer.status == NZG_DONE) print_hex(bytes, (size_t)answer.length);
    else printf("status %u number %u", answer.status, answer.number);
}

/* As in `high address 1 naks 16 attempts 3`, with `strings wanted` and `other_speed no` after it or not. */
static void open_host(char *words) {
    static const char *const speeds[] = {"low", "full", "high", NULL}, *const all[] = {"needed", "wanted", "skipped", NULL};
    uint8_t address = 0, attempts = 0, strings = NZG_NEEDED, speed = (uint8_t)(place_of(word_of(&words), speeds) + 1);
    uint16_t naks = 0;
    bool other_speed = true, has_choice = false;
    while (*words) {
        const char *key = word_of(&words), *value = word_of(&words);
        if (!strcmp(key, "address")) address = (uint8_t)atoi(value);
        else if (!strcmp(key, "naks")) naks = (uint16_t)atoi(value);
        else if (!strcmp(key, "attempts")) attempts = (uint8_t)atoi(value);
        else if (!strcmp(key, "strings")) strings = (uint8_t)place_of(value, all), has_choice = true;
        else other_speed = !strcmp(value, "yes"), has_choice = true;
    }
    if (has_choice) nzg_host_open_with(&host, address, naks, attempts, speed, strings, other_speed);
    else nzg_host_open(&host, address, naks, attempts, speed);
    transactions = 0;
}

/* A reply: `data0` or `data1` with bytes, or another word. */
static void reply(const char *word, const char *digits) {
    static const char *const replies[] = {"ack", "nak", "stall", "data0", "silence", "data1", NULL};
    struct nzg_transaction due;
    int place = place_of(word, replies);
    bool is_data1 = place == 5, is_data = is_data1 || place == NZG_DATA;
    if (nzg_host_next(&host, &due) == NZG_SEND) transactions++;
    nzg_host_take(&host, (uint8_t)(is_data ? NZG_DATA : place), is_data1, bytes, is_data ? read_hex(digits) : 0);
}

/* Does a step, and writes what comes of it. */
static void play(char *line) {
    const char *word = word_of(&line);
    if (!strcmp(word, "forgiven")) {
        print_forgiven();
        return;
    }
    if (!strcmp(word, "file")) {
        print_file();
        return;
    }
    if (!strcmp(word, "host")) open_host(line);
    else if (!strcmp(word, "reset_done")) nzg_host_reset_done(&host);
    else reply(word, line);
    print_due();
}

/* What has no meaning: the number of what is not refused as it has to be, or 0. */
static int refused(void) {
    struct nzg_trouble trouble = {9, 9, 9, 9};
    struct nzg_answer answer = nzg_host_open_with(&host, 1, 16, 3, NZG_FULL, 3, true);
    if (answer.status != NZG_BAD_ARGUMENT || answer.number != 14) return 1;
    if (nzg_host_forgiven(&host, 0, &trouble)) return 2;
    answer = nzg_host_open_with(&host, 0, 16, 9, NZG_SUPER, 255, false);
    if (answer.status != NZG_BAD_ARGUMENT || answer.number != 3) return 3;
    answer = nzg_host_open_with(&host, 0, 16, 9, NZG_FULL, NZG_SKIPPED, false);
    if (answer.status != NZG_BAD_ARGUMENT || answer.number != 1) return 4;
    answer = nzg_host_open_with(&host, 1, 16, 9, NZG_FULL, NZG_WANTED, false);
    if (answer.status != NZG_BAD_ARGUMENT || answer.number != 2) return 5;
    answer = nzg_host_open_with(&host, 1, 16, 3, NZG_FULL, NZG_WANTED, false);
    if (answer.status != NZG_DONE || nzg_host_forgiven(&host, 0, &trouble) || nzg_host_forgiven(&host, (nzg_size)-1, &trouble)) return 6;
    return trouble.why != 9 || trouble.step != 9 || trouble.index != 9 || trouble.language != 9 ? 7 : 0;
}

int main(void) {
    play_script(play);
    int why = refused();
    nzg_host_close(&host);
    return why ? why : pool_live ? 9 : 0;
}
