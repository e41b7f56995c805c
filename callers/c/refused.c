/* refused FILE..: each request for memory refused in turn, for each call on each FILE. A call answers NZG_NO_MEMORY, and the
 * buffer is as it was, or what it does with all memory; no block is left; and a handle that was open is as it was, or closed,
 * as the header says. Ends in 0 where all of that holds. */
#define POOL (1 << 22)
#include "pool.h"
#include "hosted.h"

static uint8_t bytes[1 << 16], image[1 << 18], kept[512], text[1 << 20], again[1 << 20];
static size_t length;
static long calls, refusals;

enum { SHOW, CHECK, CHECK_ANY, EXPLAIN, LOOSE, HEX, FROM_TEXT, BUILD, BUILD_COMMENTS, ENUMERATE, JUDGE, FINDINGS, REMARKS, TEXT, WITH_STRINGS, IMAGE, HOST, DECODER,
       FINDING_TEXT, REMARK_TEXT, FAULT_TEXT, TROUBLE_TEXT, ENUMERATE_LOG, HOST_WANTED, CAPTURE, KINDS };

static struct nzg_answer in_pieces(uint8_t *out) {
    struct nzg_decoder decoder = {0};
    struct nzg_answer answer = nzg_decoder_open(&decoder);
    for (size_t at = 0; answer.status <= NZG_OPEN && at < length; at += 7)
        answer = nzg_decoder_feed(&decoder, bytes + at, length - at < 7 ? length - at : 7);
    if (answer.status == NZG_DONE || answer.status == NZG_OPEN) answer = nzg_decoder_list(&decoder, out, sizeof text);
    nzg_decoder_close(&decoder);
    nzg_decoder_close(&decoder);
    return answer;
}

/* A recording: what it shows is counted, and the descriptors of its first device that has some. Without memory nothing is held. */
static struct nzg_answer by_capture(uint8_t *out) {
    static uint8_t shown[1 << 16];
    struct nzg_capture capture = {0};
    struct nzg_recorded it = {0};
    struct nzg_answer answer = nzg_capture_open(&capture), got = {0, 0, 0, 0};
    size_t at = 0, count = 0;
    for (; answer.status <= NZG_OPEN && at < length; at += answer.length) {
        answer = nzg_capture_feed(&capture, bytes + at, length - at < 700 ? length - at : 700);
        for (uint8_t kind = NZG_REQUEST; answer.status == NZG_OPEN && kind <= NZG_UNENDED; kind++)
            for (nzg_size n = 0; (got = nzg_capture_get(&capture, kind, n, &it, shown, sizeof shown)).status == NZG_DONE; n++) count += got.length + it.finding;
    }
    if (answer.status == NZG_NO_MEMORY && nzg_capture_end(&capture).status != NZG_CLOSED) answer.status = 99;
    if (answer.status == NZG_OPEN) answer = (struct nzg_answer){NZG_LACKING, 0, 0, 0};
    for (nzg_size n = 0; answer.status == NZG_LACKING && nzg_capture_get(&capture, NZG_SEEN, n, &it, shown, 0).status == NZG_DONE; n++)
        answer = nzg_capture_file(&capture, it.bus, it.device, out, sizeof text - 1);
    if (answer.status == NZG_DONE) out[answer.length++] = (uint8_t)count;
    nzg_capture_close(&capture);
    nzg_capture_close(&capture);
    return answer;
}

/* The file, read by a host of a device, which stalls strings where one may be missing. */
static struct nzg_answer by_host(uint8_t *out, uint8_t strings) {
    struct nzg_device device = {0};
    struct nzg_host host = {0};
    struct nzg_transaction due;
    struct nzg_packet packet;
    struct nzg_trouble trouble;
    struct nzg_answer answer = nzg_device_image(bytes, length, NZG_FULL, image, sizeof image);
    nzg_size image_len = answer.length;
    if (answer.status == NZG_DONE) answer = nzg_host_open_with(&host, 1, 16, 3, NZG_FULL, strings, true);
    bool stalls = false;
    uint8_t action = answer.status == NZG_DONE ? nzg_host_next(&host, &due) : NZG_NONE;
    for (; action < NZG_ENDED; action = nzg_host_next(&host, &due)) {
        if (action == NZG_RESET) {
            nzg_device_reset(&device);
            nzg_host_reset_done(&host);
            continue;
        }
        if (due.stage == NZG_SETUP) stalls = strings == NZG_WANTED && due.setup[1] == 6 && due.setup[3] == 3;
        nzg_device_serve(&device, image, image_len, kept, sizeof kept, &due, bytes, 0, true, &packet);
        if (packet.reply == NZG_DATA) nzg_device_acked(&device, image, image_len);
        nzg_host_take(&host, stalls && due.stage == NZG_IN ? NZG_STALL : packet.reply, packet.toggle, packet.data, packet.length);
    }
    if (action == NZG_ENDED) answer = nzg_host_outcome(&host, &trouble, out, sizeof text);
    nzg_host_close(&host);
    return answer;
}

/* The findings: rule, role and place of each. */
static struct nzg_answer findings(uint8_t *out) {
    static struct nzg_finding found[64];
    memset(found, 0xa5, sizeof found);
    struct nzg_answer answer = nzg_findings(bytes, length, found, 64);
    for (size_t i = 0; answer.status == NZG_DONE && i < answer.length; i++) {
        *out++ = found[i].rule;
        *out++ = found[i].role;
        *out++ = (uint8_t)found[i].place;
    }
    for (size_t i = 0; answer.status != NZG_DONE && i < sizeof found; i++)
        if (((uint8_t *)found)[i] != 0xa5) answer.status = 99;
    return answer;
}

/* The remarks: number, role and place of each. */
static struct nzg_answer remarks(uint8_t *out) {
    static struct nzg_remark found[64];
    memset(found, 0xa5, sizeof found);
    struct nzg_answer answer = nzg_remarks(bytes, length, NZG_HIGH, found, 64);
    for (size_t i = 0; answer.status == NZG_DONE && i < answer.length; i++) {
        *out++ = found[i].number;
        *out++ = found[i].role;
        *out++ = (uint8_t)found[i].place;
    }
    for (size_t i = 0; answer.status != NZG_DONE && i < sizeof found; i++)
        if (((uint8_t *)found)[i] != 0xa5) answer.status = 99;
    return answer;
}

/* What is said of the last finding, or of none. */
static struct nzg_answer finding_text(uint8_t *out) {
    static struct nzg_finding found[64];
    struct nzg_answer answer = nzg_findings(bytes, length, found, 64);
    struct nzg_finding none = {0};
    if (answer.status == NZG_NO_MEMORY) return answer;
    return nzg_finding_text(bytes, length, answer.status == NZG_DONE && answer.length ? found + answer.length - 1 : &none, out, sizeof text);
}

/* The same of the last remark. */
static struct nzg_answer remark_text(uint8_t *out) {
    static struct nzg_remark found[64];
    struct nzg_answer answer = nzg_remarks(bytes, length, NZG_HIGH, found, 64);
    struct nzg_remark none = {0};
    if (answer.status == NZG_NO_MEMORY) return answer;
    return nzg_remark_text(bytes, length, NZG_HIGH, answer.status == NZG_DONE && answer.length ? found + answer.length - 1 : &none, out, sizeof text);
}

/* The last string, if there is one. */
static struct nzg_answer last_string(uint8_t *out) {
    struct nzg_descriptor string = {0};
    for (size_t at = 0; at + 1 < length && bytes[at] > 1; at += bytes[at])
        if (bytes[at + 1] == 3) string.role = NZG_STRING, string.place = at, string.length = bytes[at];
    return nzg_text(bytes, length, &string, out, sizeof text);
}

static struct nzg_answer call(int kind, uint8_t *out) {
    struct nzg_outcome outcome;
    struct nzg_trouble trouble = {3, 10, 2, 0x409};
    switch (kind) {
    case SHOW: return nzg_show(bytes, length, true, out, sizeof text);
    case CHECK: return nzg_check(bytes, length, false, out, sizeof text);
    case CHECK_ANY: return nzg_check(bytes, length, true, out, sizeof text);
    case EXPLAIN: return nzg_explain(bytes, length, NZG_PLACES, 0, out, sizeof text);
    case LOOSE: return nzg_explain(bytes, length, NZG_LOOSE, 0, out, sizeof text);
    case HEX: return nzg_explain(bytes, length, NZG_HEX, 0, out, sizeof text);
    case FROM_TEXT: return nzg_from_text(bytes, length, out, sizeof text);
    case BUILD: return nzg_build(bytes, length, false, out, sizeof text);
    case BUILD_COMMENTS: return nzg_build(bytes, length, true, out, sizeof text);
    case ENUMERATE: return nzg_enumerate(bytes, length, NZG_FULL, 16, 3, (const uint8_t *)"....a", 5, &outcome, out, sizeof text);
    case JUDGE: return nzg_judge(bytes, length);
    case FINDINGS: return findings(out);
    case REMARKS: return remarks(out);
    case TEXT: return last_string(out);
    case WITH_STRINGS: return nzg_with_strings(bytes, length, out, sizeof text);
    case IMAGE: return nzg_device_image(bytes, length, NZG_FULL, out, sizeof text);
    case HOST: return by_host(out, NZG_NEEDED);
    case HOST_WANTED: return by_host(out, NZG_WANTED);
    case FINDING_TEXT: return finding_text(out);
    case REMARK_TEXT: return remark_text(out);
    case FAULT_TEXT: return nzg_fault_text(bytes, length, out, sizeof text);
    case TROUBLE_TEXT: return nzg_trouble_text(&trouble, out, sizeof text);
    case ENUMERATE_LOG: return nzg_enumerate_log(bytes, length, NZG_FULL, 16, 3, (const uint8_t *)"....a", 5, out, sizeof text);
    case CAPTURE: return by_capture(out);
    default: return in_pieces(out);
    }
}

static bool same(struct nzg_answer a, struct nzg_answer b) {
    return a.status == b.status && a.number == b.number && a.place == b.place && a.length == b.length;
}

/* Out of memory; of an enumeration the host's is trouble 7. */
static bool is_refusal(struct nzg_answer a) {
    return a.status == NZG_NO_MEMORY || (a.status == NZG_TROUBLE && a.number == 7);
}

/* One call with the request of this number refused. True once it makes none of that number. */
static int refuse(const char *name, int kind, struct nzg_answer want, long place, bool *is_last) {
    memset(again, 0xa5, sizeof again);
    pool_allowed = place;
    struct nzg_answer got = call(kind, again);
    *is_last = pool_allowed > 0;
    pool_allowed = -1;
    calls++;
    if (pool_live) return printf("%s: call %d leaves %ld blocks at request %ld\n", name, kind, pool_live, place), 1;
    if (is_refusal(got) && (again[0] != 0xa5 || memcmp(again, again + 1, sizeof again - 1)))
        return printf("%s: call %d writes though request %ld is refused\n", name, kind, place), 1;
    if (is_refusal(got)) return refusals++, 0;
    if (same(got, want) && !memcmp(text, again, got.status == NZG_TEXT_FAULT ? 0 : got.length)) return 0;
    return printf("%s: call %d answers otherwise at request %ld: %u %u %zu\n", name, kind, place, got.status, got.number, got.place), 1;
}

int main(int argc, char **argv) {
    for (int i = 1; i < argc; i++) {
        long read = read_all(argv[i], bytes, sizeof bytes);
        if (read < 0) return 2;
        length = (size_t)read;
        for (int kind = 0; kind < KINDS; kind++) {
            struct nzg_answer want = call(kind, text);
            bool is_last = false;
            for (long place = 0; !is_last; place++)
                if (refuse(argv[i], kind, want, place, &is_last)) return 1;
        }
    }
    printf("%ld calls, %ld refusals, at most %zu bytes held\n", calls, refusals, pool_peak);
    return 0;
}
