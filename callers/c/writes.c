/* writes: data to a device, packet by packet. Its owner takes them, is given just the bytes that were sent, and accepts or
 * refuses them; he refuses a read too that he has begun to answer. Ends in 0 where all comes as docs/control-transfers.md
 * says, else in the number of what doesn't. The device asks for no memory, and uses no more of its room than it is lent. */
#define POOL (1 << 16)
#include "pool.h"
#include "hosted.h"

/* a mouse with packets of 8 bytes */
static const uint8_t file[] = {
    18, 1, 0x10, 1, 0, 0, 0, 8, 0x34, 0x12, 0x78, 0x56, 0, 1, 0, 0, 0, 1,
    9, 2, 34, 0, 1, 1, 0, 0xa0, 50, 9, 4, 0, 0, 1, 3, 1, 2, 0, 9, 0x21, 0x10, 1, 0, 1, 0x22, 0x34, 0, 7, 5, 0x81, 3, 4, 0, 10};
/* SET_REPORT of 9 and of 513 bytes, GET_REPORT of 9, and GET_DESCRIPTOR of the device, which is not the owner's */
static const uint8_t report[8] = {0x21, 9, 0, 2, 0, 0, 9, 0}, longer[8] = {0x21, 9, 0, 2, 0, 0, 1, 2};
static const uint8_t reading[8] = {0xa1, 1, 0, 1, 0, 0, 9, 0}, descriptor[8] = {0x80, 6, 0, 1, 0, 0, 18, 0};
static const uint8_t sent[9] = {1, 2, 3, 4, 5, 6, 7, 8, 9};
static struct nzg_device device;
static struct nzg_packet packet;
static struct nzg_setup setup;
/* What is lent: a room of 9 bytes, and 7 after it that stay. */
static uint8_t image[256], data[16];
static nzg_size image_len;
enum { KEPT = 9 };

static uint8_t serve(uint8_t stage, uint8_t toggle, const uint8_t *request, const uint8_t *bytes, size_t length) {
    struct nzg_transaction it = {0, stage, toggle, {0}};
    memcpy(it.setup, request, 8);
    nzg_device_serve(&device, image, image_len, data, KEPT, &it, bytes, length, true, &packet);
    return packet.reply;
}

static struct nzg_answer accept(void) { return nzg_device_accept(&device, KEPT); }
static struct nzg_answer written(void) { return nzg_device_written(&device, data, KEPT, &setup); }
static bool refuse(void) { return nzg_device_refuse(&device, image, image_len); }

/* A write up to its last packet, the first of which comes again. */
static bool all_come(void) {
    return serve(NZG_SETUP, 0, report, sent, 0) == NZG_ACK && accept().status == NZG_DONE &&
           serve(NZG_OUT, 1, report, sent, 8) == NZG_ACK && serve(NZG_OUT, 1, report, sent, 8) == NZG_ACK &&
           written().status == NZG_OPEN &&
           serve(NZG_OUT, 0, report, sent + 8, 1) == NZG_ACK;
}

static bool is_written(void) {
    struct nzg_answer answer = written();
    return answer.status == NZG_DONE && answer.length == 9 && !memcmp(data, sent, 9) && data[9] == 0xa5 && !memcmp(setup.bytes, report, 8);
}

/* The whole write by a host, and what it refuses; the owner takes the data and accepts them. */
static bool is_sent(void) {
    struct nzg_write write = {0};
    struct nzg_setup request;
    struct nzg_transaction due = {0, 0, 0, {0}};
    struct nzg_answer next, heard = {0, 0, 0, 0};
    memcpy(request.bytes, reading, 8);
    if (nzg_write_open(&write, 0, 8, 0, &request).number != 9 || nzg_write_open(&write, 0, 0, 0, &request).number != 7) return false;
    memcpy(request.bytes, report, 8);
    if (nzg_write_open(&write, 0, 8, 0, &request).status != NZG_DONE || nzg_write_next(&write, sent, 8, &due).number != 10) return false;
    size_t count = 0;
    while ((next = nzg_write_next(&write, sent, 9, &due)).status == NZG_DONE && count < 16) {
        if (due.stage == NZG_OUT && (next.place != 8 * (count - 1) || next.length != (count == 1 ? 8 : 1))) return false;
        nzg_device_serve(&device, image, image_len, data, KEPT, &due, sent + next.place, next.length, true, &packet);
        if (packet.reply == NZG_DATA) nzg_device_acked(&device, image, image_len);
        if (count == 0 || count == 2) accept();
        heard = nzg_write_take(&write, packet.reply, packet.toggle, packet.data, packet.length);
        count++;
    }
    return next.status == NZG_OPEN && heard.status == NZG_DONE && count == 4;
}

int main(void) {
    memset(data, 0xa5, sizeof data);
    if (written().status != NZG_OPEN || refuse()) return 1;
    struct nzg_answer made = nzg_device_image(file, sizeof file, NZG_FULL, image, sizeof image);
    if (made.status != NZG_DONE) return 2;
    image_len = made.length;
    long before = pool_calls;
    if (written().status != NZG_OPEN || !refuse()) return 3;
    if (!all_come() || !is_written()) return 4;
    if (accept().status != NZG_DONE || written().status != NZG_OPEN) return 5;
    if (serve(NZG_IN, 0, report, sent, 0) != NZG_DATA || packet.toggle != 1 || packet.length != 0) return 6;
    if (!nzg_device_carried_out(&device, &setup) || memcmp(setup.bytes, report, 8)) return 7;
    if (!all_come() || !refuse() || serve(NZG_IN, 0, report, sent, 0) != NZG_STALL) return 8;
    if (!all_come() || serve(NZG_IN, 0, report, sent, 0) != NZG_STALL) return 9;
    if (serve(NZG_SETUP, 0, longer, sent, 0) != NZG_ACK) return 10;
    struct nzg_answer answer = accept();
    if (answer.status != NZG_UNANSWERED || answer.number != 4) return 11;
    if (serve(NZG_SETUP, 0, reading, sent, 0) != NZG_ACK || nzg_device_answer_with(&device, data, KEPT, sent, 9).status != NZG_DONE) return 12;
    if (serve(NZG_IN, 0, reading, sent, 0) != NZG_DATA || !refuse()) return 13;
    if (serve(NZG_IN, 0, reading, sent, 0) != NZG_STALL || serve(NZG_OUT, 1, reading, sent, 0) != NZG_STALL) return 14;
    if (serve(NZG_SETUP, 0, descriptor, sent, 0) != NZG_ACK || !refuse()) return 15;
    if (serve(NZG_IN, 0, descriptor, sent, 0) != NZG_DATA || packet.length != 8) return 16;
    if (pool_calls != before) return 17;
    if (!is_sent()) return 18;
    return pool_live ? 19 : 0;
}
