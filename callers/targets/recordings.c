/* Recordings of a bus, whole and with some bytes changed, fed in pieces of any lengths: what came of each piece, of all of them, and the
 * descriptors of each device. Each request for memory is refused in turn. The file `recordings` names them, a line each. */
#include "steps.h"

enum { DATA = 66000, REQUESTS = 3000 };
static struct nzg_capture capture;
static uint8_t data[DATA];

static void say_recorded(const struct nzg_recorded *it) {
    say_list(" ", it->time);
    say_list(" ", it->begun);
    say_list(" ", it->count);
    say_list(" ", it->length);
    say_list(" ", it->status);
    say_list(" ", it->bus);
    say_list(".", it->device);
    say(" ");
    say_hex(it->setup, 8);
    say_list(" ", it->ending);
    say_list(" ", it->finding);
    say_list(" ", (uint64_t)(it->is_cut + 2 * it->has_time + 4 * it->has_begun + 8 * it->has_device));
}

/* What there is of a kind: all of it, or up to what doesn't fit. */
static void all_of(uint8_t kind) {
    uint32_t most = one_in(9) ? any(40) : DATA;
    for (uint32_t number = 0;; number++) {
        struct nzg_recorded it = {0};
        struct nzg_answer answer = nzg_capture_get(&capture, kind, number, &it, data, most);
        if (answer.status == NZG_OPEN) return;
        say_list("kind ", kind);
        say_answer("", answer);
        say_recorded(&it);
        if (answer.status == NZG_DONE) say_hash(data, answer.length);
        say("\n");
        if (answer.status != NZG_DONE) return;
    }
}

static void files(void) {
    for (uint32_t number = 0;; number++) {
        struct nzg_recorded it = {0};
        if (nzg_capture_get(&capture, NZG_SEEN, number, &it, data, DATA).status != NZG_DONE) return;
        struct nzg_answer answer = nzg_capture_file(&capture, it.bus, it.device, data, one_in(4) ? any(60) : DATA);
        say_answer("file", answer);
        if (answer.status == NZG_DONE) say_hash(data, answer.length);
        say("\n");
    }
}

static void fed(uint32_t length) {
    say_answer("capture", nzg_capture_open(&capture));
    for (uint32_t at = 0; at < length;) {
        uint32_t piece = one_in(3) ? any(70) : any(3000);
        if (piece > length - at) piece = length - at;
        struct nzg_answer answer = nzg_capture_feed(&capture, file + at, piece);
        say_answer(" fed", answer);
        say("\n");
        if (answer.status != NZG_OPEN) break;
        at += (uint32_t)answer.length;
        all_of(NZG_REQUEST);
        all_of(NZG_OF_REQUEST);
        all_of(NZG_OF_PACKETS);
    }
    say_answer("ended", nzg_capture_end(&capture));
    say("\n");
    all_of(NZG_UNENDED);
    all_of(NZG_SEEN);
    files();
    nzg_capture_close(&capture);
}

static void mutated(uint32_t length) {
    uint32_t at[4], count = 1 + any(4);
    uint8_t was[4];
    for (uint32_t i = 0; i < count; i++) {
        at[i] = any(length);
        was[i] = file[at[i]];
        file[at[i]] = one_in(2) ? (uint8_t)any(256) : (uint8_t)(was[i] ^ (1 << any(8)));
    }
    fed(one_in(3) ? any(length + 1) : length);
    while (count--) file[at[count]] = was[count];
}

/* Whether any request was refused of those after the first ones. */
static bool is_refused_after(uint32_t length, uint32_t granted) {
    memory_allow((long)granted);
    struct nzg_answer answer = nzg_capture_open(&capture);
    for (uint32_t at = 0; at < length && answer.status <= NZG_OPEN; at += (uint32_t)answer.length)
        answer = nzg_capture_feed(&capture, file + at, length - at);
    struct nzg_answer ended = answer.status <= NZG_OPEN ? nzg_capture_file(&capture, 0, 7, data, DATA) : answer;
    nzg_capture_close(&capture);
    memory_allow(-1);
    say_answer("", answer);
    say_answer("", ended);
    return answer.status == NZG_NO_MEMORY || ended.status == NZG_NO_MEMORY;
}

static void refused(uint32_t length) {
    uint32_t live = memory_now().live;
    for (uint32_t granted = 0; granted < REQUESTS; granted++) {
        say_list("granted ", granted);
        bool is_refused = is_refused_after(length, granted);
        say(memory_now().live == live ? "\n" : " KEPT\n");
        if (!is_refused) return;
    }
}

void recording(uint32_t length, uint32_t mutations) {
    fed(length);
    if (length < 3000) refused(length);
    while (length && mutations--) mutated(length);
}
