/* A device that has packets, as one that has transactions, and damage on the way to it. */
#include "nozzlegorse_run.h"
#include <stdlib.h>
#include <string.h>

enum { MOST = 1027 };

/* --- packets of a transaction -------------------------------------------------------------------------------------- */

struct bytes { uint8_t at[MOST]; size_t len; };

static void write_packet(struct bytes *out, const struct nzg_packet_fields *fields, const uint8_t *data, size_t len) {
    out->len = nzg_packet_write(fields, data, len, out->at, sizeof out->at).length;
}

/* What a host sends before the device answers: how many packets that is. */
static unsigned packets_of(const struct nzg_transaction *it, const uint8_t *data, size_t len, struct bytes sent[2]) {
    static const uint8_t tokens[] = {NZG_PID_SETUP, NZG_PID_IN, NZG_PID_OUT};
    struct nzg_packet_fields token = {.pid = tokens[it->stage], .address = it->address};
    struct nzg_packet_fields head = {.pid = it->stage == NZG_OUT && it->toggle ? NZG_PID_DATA1 : NZG_PID_DATA0};
    write_packet(&sent[0], &token, data, 0);
    if (it->stage == NZG_SETUP) write_packet(&sent[1], &head, it->setup, 8);
    if (it->stage == NZG_OUT) write_packet(&sent[1], &head, data, len);
    return it->stage == NZG_IN ? 1 : 2;
}

/* One bit of its PID is changed, its last bit, or two after the PID, by turns: the checks of 8.3 find each. */
static void damage(struct bytes *it, unsigned long number) {
    size_t last = 8 * it->len - 1, first = number % 8;
    unsigned kind = it->len > 1 ? number / 8 % 3 : 0;
    if (kind == 2) first += 8;
    if (kind != 1) it->at[first / 8] ^= (uint8_t)(1u << first % 8);
    if (kind != 0) it->at[last / 8] ^= (uint8_t)(1u << last % 8);
}

/* --- the device, as one that has transactions ---------------------------------------------------------------------- */

/* Whether it answers one of these packets. */
static bool answers(const struct nzg_bench_packets *device, const struct bytes *sent, unsigned count) {
    uint8_t answer[MOST];
    for (unsigned i = 0; i < count; i++)
        if (device->packet(device->context, sent[i].at, sent[i].len, answer)) return true;
    return false;
}

static void reset(void *context) {
    const struct nzg_bench_packets *device = ((struct run *)context)->packets;
    device->reset(device->context);
}

/* The answer of its packet: what is wrong with it, or 0. */
static uint8_t tell(const uint8_t *answer, size_t len, struct nzg_packet *reply) {
    struct nzg_packet_fields it;
    uint8_t damage = len > MOST ? NZG_LENGTH : nzg_packet_parse(answer, len, &it);
    if (damage) return (uint8_t)(NO_PACKET + damage);
    bool is_data = it.pid == NZG_PID_DATA0 || it.pid == NZG_PID_DATA1;
    if (!is_data && it.pid != NZG_PID_ACK && it.pid != NZG_PID_NAK && it.pid != NZG_PID_STALL) return OF_NO_PIPE;
    *reply = (struct nzg_packet){.reply = is_data ? NZG_DATA : it.pid == NZG_PID_ACK ? NZG_ACK : it.pid == NZG_PID_NAK ? NZG_NAK : NZG_STALL};
    if (!is_data) return 0;
    reply->toggle = it.pid == NZG_PID_DATA1, reply->length = it.length < 65 ? (uint8_t)it.length : 65;
    memcpy(reply->data, answer + it.place, it.length < 65 ? it.length : 64);
    return 0;
}

static void transaction(void *context, const struct nzg_transaction *it, const uint8_t *data, size_t len, bool ready, struct nzg_packet *reply) {
    struct run *run = context;
    struct bytes sent[2];
    uint8_t answer[MOST];
    unsigned count = packets_of(it, data, len, sent);
    (void)ready;
    reply->reply = NZG_SILENCE;
    run->wrong = answers(run->packets, sent, count - 1) ? ANSWERED_TOKEN : 0;
    size_t length = run->packets->packet(run->packets->context, sent[count - 1].at, sent[count - 1].len, answer);
    if (length && !run->wrong) run->wrong = tell(answer, length, reply);
}

static void acked(void *context) {
    struct run *run = context;
    struct bytes ack = {{NZG_PID_ACK}, 1};
    if (answers(run->packets, &ack, 1)) run->wrong = ANSWERED_ACK;
}

/* --- damage -------------------------------------------------------------------------------------------------------- */

static uint8_t damaged(const struct run *run, const struct nzg_bench_line *line, const uint8_t *data, size_t len) {
    struct bytes sent[2];
    unsigned count = packets_of(&line->sent, data, len, sent);
    damage(&sent[line->fate == 'p' ? count - 1 : 0], run->transactions);
    return answers(run->packets, sent, count) ? ANSWERED_DAMAGED : 0;
}

static uint8_t damaged_ack(const struct run *run) {
    struct bytes ack = {{NZG_PID_ACK}, 1};
    damage(&ack, run->transactions);
    return answers(run->packets, &ack, 1) ? ANSWERED_DAMAGED : 0;
}

/* --- every run ------------------------------------------------------------------------------------------------------ */

bool nzg_bench_try_packets(struct nzg_bench *bench, const struct nzg_bench_packets *device, const struct nzg_bench_report *report) {
    struct run *run = calloc(1, sizeof *run);
    if (!run) return false;
    struct nzg_bench_device adapted = {run, reset, transaction, acked};
    run->packets = device, run->damaged = damaged, run->damaged_ack = damaged_ack;
    bool is_tried = nzg_bench_try_by(bench, &adapted, report, run, nzg_bench_both);
    free(run);
    return is_tried;
}

bool nzg_bench_packets_device(struct nzg_bench *bench, const struct nzg_bench_packets *device, FILE *out) {
    struct nzg_bench_text text = {out, bench, 0};
    struct nzg_bench_report report = nzg_bench_text_report(&text);
    return nzg_bench_print_device(nzg_bench_try_packets(bench, device, &report), bench, out);
}
