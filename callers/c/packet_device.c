/* packet_device FILE LOSSES WITHIN DAMAGES [WRONG]: a device that has packets, with the transactions of the proved device of FILE, on the
 * bench. It ends in 0 where nothing differs. WRONG: 1 data are taken whatever their CRC, 2 tokens whatever theirs, 3 a damaged ACK
 * counts, 4 the CRC of its data is not inverted, 5 it answers an ACK, 6 it answers a token. */
#include "nozzlegorse_bench.h"
#include "hosted.h"

enum { ANY_DATA = 1, ANY_TOKEN, ANY_ACK, OTHER_CRC, ANSWERS_ACK, ANSWERS_TOKEN };
static int wrong;

struct end { struct nzg_device device; uint8_t token, address, image[1 << 18], kept[512]; nzg_size image_len; bool is_sent; };

static void reset(void *context) {
    struct end *end = context;
    nzg_device_reset(&end->device);
    end->token = 0, end->is_sent = false;
}

/* What it takes the bytes for; false of what it ignores. */
static bool read_packet(const uint8_t *bytes, size_t len, struct nzg_packet_fields *it) {
    uint8_t damage = nzg_packet_parse(bytes, len, it);
    if (damage == NZG_CRC16 && wrong == ANY_DATA) *it = (struct nzg_packet_fields){.pid = bytes[0], .place = 1, .length = (uint16_t)(len - 3)};
    else if (damage == NZG_CRC5 && wrong == ANY_TOKEN) *it = (struct nzg_packet_fields){.pid = bytes[0], .address = bytes[1] & 127};
    else if (damage == NZG_PID_CHECK && wrong == ANY_ACK && len == 1) *it = (struct nzg_packet_fields){.pid = NZG_PID_ACK};
    else return !damage;
    return true;
}

static size_t serve(struct end *end, uint8_t stage, const struct nzg_packet_fields *it, const uint8_t *bytes, uint8_t *answer) {
    static const uint8_t pids[] = {NZG_PID_ACK, NZG_PID_NAK, NZG_PID_STALL};
    struct nzg_transaction sent = {.address = end->address, .stage = stage, .toggle = it->pid == NZG_PID_DATA1};
    struct nzg_packet reply;
    for (unsigned i = 0; stage == NZG_SETUP && i < 8; i++) sent.setup[i] = bytes[it->place + i];
    if (stage == NZG_SETUP) sent.toggle = 0;
    nzg_device_serve(&end->device, end->image, end->image_len, end->kept, sizeof end->kept, &sent, bytes + it->place, it->length, true, &reply);
    if (reply.reply == NZG_SILENCE) return 0;
    struct nzg_packet_fields head = {.pid = reply.reply != NZG_DATA ? pids[reply.reply] : reply.toggle ? NZG_PID_DATA1 : NZG_PID_DATA0};
    size_t len = nzg_packet_write(&head, reply.data, reply.reply == NZG_DATA ? reply.length : 0, answer, 1027).length;
    end->is_sent = reply.reply == NZG_DATA;
    if (end->is_sent && wrong == OTHER_CRC) answer[len - 2] ^= 255, answer[len - 1] ^= 255;
    return len;
}

static size_t packet(void *context, const uint8_t *bytes, size_t len, uint8_t *answer) {
    struct end *end = context;
    struct nzg_packet_fields it;
    uint8_t token = end->token;
    bool was_sent = end->is_sent, is_read = read_packet(bytes, len, &it);
    end->token = 0, end->is_sent = false;
    answer[0] = NZG_PID_ACK;
    if (!is_read) return 0;
    if (it.pid == NZG_PID_ACK && was_sent) {
        nzg_device_acked(&end->device, end->image, end->image_len);
        return wrong == ANSWERS_ACK;
    }
    if (it.pid == NZG_PID_SETUP || it.pid == NZG_PID_OUT) {
        end->token = it.endpoint ? 0 : it.pid, end->address = it.address;
        return wrong == ANSWERS_TOKEN;
    }
    if (it.pid == NZG_PID_IN && !it.endpoint) {
        end->address = it.address, it.length = 0;
        return serve(end, NZG_IN, &it, bytes, answer);
    }
    if (token == NZG_PID_SETUP && it.pid == NZG_PID_DATA0 && it.length == 8) return serve(end, NZG_SETUP, &it, bytes, answer);
    if (token == NZG_PID_OUT && (it.pid == NZG_PID_DATA0 || it.pid == NZG_PID_DATA1)) return serve(end, NZG_OUT, &it, bytes, answer);
    return 0;
}

int main(int argc, char **argv) {
    static uint8_t file[65536];
    static struct end end;
    long there = argc < 5 ? -1 : read_all(argv[1], file, sizeof file);
    struct nzg_answer made = nzg_device_image(file, there < 27 ? 0 : (size_t)there, NZG_FULL, end.image, sizeof end.image);
    if (made.status != NZG_DONE) return 2;
    end.image_len = made.length;
    wrong = argc > 5 ? atoi(argv[5]) : 0;
    struct nzg_bench_packets device = {&end, reset, packet};
    struct nzg_bench bench = {.file = file, .len = (size_t)there, .speed = NZG_FULL, .losses = (unsigned)atoi(argv[2]), .within = (unsigned)atoi(argv[3]), .damages = (unsigned)atoi(argv[4])};
    return !nzg_bench_packets_device(&bench, &device, stdout);
}
