/* devices: plays a script of devices from standard input, as crates/test_ends/data/scripts has them but with the bytes of a file in place of
 * its name. The image lies elsewhere at each step, and so do the device's numbers: neither has an address in it. Ends in 0 where no call
 * on a device asks for memory or says that the image is none. */
#define POOL (1 << 22)
#include "pool.h"
#include "script.h"

enum { KEPT = 512 };
static uint8_t file[1 << 16], images[2][1 << 18], kept[KEPT];
static size_t file_len, image_len;
static struct nzg_device devices[2];
static unsigned place;
static uint8_t address, endpoint;
static long asked;
static bool is_refused;

/* The numbers and the image, from now on at the other place. */
static struct nzg_device *moved(void) {
    unsigned from = place;
    place ^= 1;
    memcpy(images[place], images[from], image_len);
    memset(images[from], 0xa5, image_len);
    devices[place] = devices[from];
    memset(&devices[from], 0xa5, sizeof devices[from]);
    return &devices[place];
}

static void print_file(const char *digits) {
    memcpy(file, bytes, file_len = read_hex(digits));
    struct nzg_answer made = nzg_device_image(file, file_len, NZG_FULL, kept, 0);
    if (made.status == NZG_FILE_FAULT) printf("file fault %u at %lu", made.number, (unsigned long)made.place);
    else printf("read");
}

/* A new device, or why there is none: 1 with the first finding. */
static void print_speed(const char *word) {
    static const char *const speeds[] = {"low", "full", "high", NULL}, *const parts[] = {"device", "main", "other"};
    static struct nzg_finding all[64];
    struct nzg_answer made = nzg_device_image(file, file_len, (uint8_t)(place_of(word, speeds) + 1), images[place], sizeof images[place]);
    if (made.status == NZG_DONE) {
        image_len = made.length, address = endpoint = 0;
        nzg_device_reset(&devices[place]);
        printf("accepted");
        return;
    }
    printf("refused %u", made.number);
    if (made.number == 1 && nzg_findings(file, file_len, all, 64).status == NZG_DONE)
        printf(" V%u %s %lu %lu %lu", all->rule, parts[all->part], (unsigned long)all->set, (unsigned long)all->setting, (unsigned long)all->endpoint);
}

static void print_state(const struct nzg_state *state) {
    const char *between = "";
    printf("address=%u selected=%u alternates=", state->address, state->selected);
    for (int i = 0; i < 256; i++)
        if (state->alternates[i]) printf("%s%d:%u", between, i, state->alternates[i]), between = ",";
    printf(*between ? " halts=" : "- halts=");
    between = "";
    for (int i = 0; i < 32; i++)
        if (state->halts >> i & 1) printf("%s%02x", between, i % 16 + i / 16 * 128), between = ",";
    printf(*between ? " wakeup=%s" : "- wakeup=%s", state->wakeup ? "on" : "off");
}

/* As in `setup 8006000100000800`, `in busy` or `out data1 -`. */
static void print_transaction(const char *verb, char *words) {
    static const char *const stages[] = {"setup", "in", "out", NULL}, *const replies[] = {"ack", "nak", "stall", "data", "silence"};
    /* To another endpoint it is to nobody. */
    struct nzg_transaction it = {endpoint ? 128 : address, (uint8_t)place_of(verb, stages), 0, {0}};
    struct nzg_packet packet = {0};
    size_t length = 0;
    if (it.stage == NZG_OUT) it.toggle = !strcmp(word_of(&words), "data1"), length = read_hex(word_of(&words));
    if (it.stage == NZG_SETUP) read_hex(word_of(&words)), memcpy(it.setup, bytes, 8);
    bool is_served = nzg_device_serve(moved(), images[place], image_len, kept, KEPT, &it, bytes, length, *words != 'b', &packet);
    is_refused |= !is_served;
    if (packet.reply != NZG_DATA) printf("%s", replies[packet.reply]);
    else printf("data%u ", packet.toggle), print_hex(packet.data, packet.length);
}

static void print_request(bool is_there, const struct nzg_setup *setup) {
    if (is_there) print_hex(setup->bytes, sizeof setup->bytes);
    else printf("none");
}

static void print_taken(struct nzg_answer answer) {
    if (answer.status == NZG_DONE) printf("done");
    else printf(answer.status == NZG_UNANSWERED ? "unanswered %u" : "status %u", answer.status == NZG_UNANSWERED ? answer.number : answer.status);
}

static void print_written(void) {
    struct nzg_setup setup;
    struct nzg_answer answer = nzg_device_written(moved(), kept, KEPT, &setup);
    print_request(answer.status == NZG_DONE, &setup);
    if (answer.status == NZG_DONE) printf(" "), print_hex(kept, (size_t)answer.length);
}

static void print_done(bool is_done) {
    is_refused |= !is_done;
    printf("done");
}

/* What comes of a step with the device. */
static void play_device(const char *verb, char *words) {
    struct nzg_setup setup;
    if (!strcmp(verb, "reset")) nzg_device_reset(moved()), print_done(true);
    else if (!strcmp(verb, "acked")) print_done(nzg_device_acked(moved(), images[place], image_len));
    else if (!strcmp(verb, "refuse")) print_done(nzg_device_refuse(moved(), images[place], image_len));
    else if (!strcmp(verb, "refused")) print_request(nzg_device_refused(moved(), &setup), &setup);
    else if (!strcmp(verb, "carried")) print_request(nzg_device_carried_out(moved(), &setup), &setup);
    else if (!strcmp(verb, "answer")) print_taken(nzg_device_answer_with(moved(), kept, KEPT, bytes, read_hex(words)));
    else if (!strcmp(verb, "accept")) print_taken(nzg_device_accept(moved(), KEPT));
    else if (!strcmp(verb, "written")) print_written();
    else if (!strcmp(verb, "state")) print_state(&devices[place].state);
    else print_transaction(verb, words);
}

static void play(char *line) {
    const char *verb = word_of(&line);
    long before = pool_calls;
    if (!strcmp(verb, "file")) print_file(line);
    else if (!strcmp(verb, "speed")) print_speed(line);
    else if (!strcmp(verb, "address")) address = (uint8_t)atoi(line), printf("done");
    else if (!strcmp(verb, "endpoint")) endpoint = (uint8_t)atoi(line), printf("done");
    else play_device(verb, line), asked += pool_calls - before;
}

int main(void) {
    play_script(play);
    return asked ? 1 : is_refused ? 2 : pool_live ? 3 : 0;
}
