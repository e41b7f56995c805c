/* transfers: a transfer and a write of any numbers. Where they are none of a transfer nothing is due and a reply is a bad
 * argument, and they stay; else the reply leaves numbers of a transfer with the same request. No memory is asked for. Ends in 0
 * where all of that holds, else in the number of what doesn't. */
#define POOL (1 << 12)
#include "pool.h"
#include "hosted.h"

enum { TRIES = 200000 };
static uint32_t seed = 1;

static unsigned below(unsigned end) {
    seed = seed * 1664525u + 1013904223u;
    return (seed >> 16) % end;
}

/* Numbers near the ends of their ranges. */
static struct nzg_transfer any(void) {
    struct nzg_transfer it = {(uint16_t)below(4), (uint16_t)below(5), (uint16_t)below(12), (uint8_t)below(256), (uint8_t)below(5), (uint8_t)below(8), 0, (uint8_t)below(3), (uint8_t)below(4), {0}};
    if (it.stage == NZG_FAILED || !below(4)) it.why = (uint8_t)below(9);
    for (unsigned i = 0; i < 6; i++) it.setup[i] = (uint8_t)below(256);
    it.setup[6] = (uint8_t)below(12);
    if (!below(50)) it.setup[7] = it.packet = 255;
    return it;
}

static unsigned length_of(const struct nzg_transfer *it) { return it->setup[6] + 256u * it->setup[7]; }

static bool is_one(const struct nzg_transfer *it) {
    bool has_end = it->stage == NZG_FAILED ? it->why >= 1 && it->why <= 7 : !it->why;
    return it->packet && it->stage <= NZG_FAILED && has_end && it->toggle <= 1 && it->strikes <= 2 && it->nak_count <= it->naks && it->kept <= length_of(it);
}

static bool is_same(const struct nzg_transfer *a, const struct nzg_transfer *b) { return !memcmp(a, b, sizeof *a); }

/* What a call left of these numbers, and what it answered. */
static bool fits(const struct nzg_transfer *was, const struct nzg_transfer *now, struct nzg_answer heard) {
    if (!is_one(was)) return heard.status == NZG_BAD_ARGUMENT && heard.number == 11 && is_same(was, now);
    return heard.status != NZG_BAD_ARGUMENT && is_one(now) && !memcmp(was->setup, now->setup, 8) && was->address == now->address && was->packet == now->packet && was->naks == now->naks;
}

static bool is_due(const struct nzg_transfer *it) { return is_one(it) && it->stage < NZG_COMPLETED; }

/* A reply to a transfer, and the same to a write with the same numbers. */
static int tried(void) {
    static const uint8_t bytes[65536];
    struct nzg_transfer transfer = any(), was = transfer;
    struct nzg_write write = {transfer};
    struct nzg_transaction due = {0, 9, 0, {0}};
    if (nzg_transfer_next(&transfer, &due) != is_due(&was) || (due.stage == 9) == is_due(&was) || !is_same(&transfer, &was)) return 1;
    struct nzg_answer next = nzg_write_next(&write, bytes, length_of(&was), &due);
    if (is_one(&was) ? next.status != (is_due(&was) ? NZG_DONE : NZG_OPEN) : next.status != NZG_BAD_ARGUMENT || next.number != 11) return 2;
    uint8_t reply = (uint8_t)below(5), toggle = (uint8_t)below(2);
    size_t length = below(6);
    if (nzg_transfer_take(&transfer, 5, 0, bytes, 0).number != 8 || nzg_transfer_take(&transfer, NZG_DATA, 2, bytes, 0).number != 8 || !is_same(&transfer, &was)) return 3;
    struct nzg_transfer copy = transfer;
    struct nzg_answer heard = nzg_transfer_take(&transfer, reply, toggle, bytes, length), again = nzg_transfer_take(&copy, reply, toggle, bytes, length);
    if (!fits(&was, &transfer, heard) || !is_same(&transfer, &copy) || heard.status != again.status) return 4;
    if (!fits(&was, &write.transfer, nzg_write_take(&write, reply, toggle, bytes, length))) return 5;
    return 0;
}

/* Of refused numbers nothing is changed, and a copy goes on where it was made. */
static bool opens(void) {
    const struct nzg_setup setup = {{0x80, 6, 0, 1, 0, 0, 18, 0}};
    const struct nzg_transfer zeros = {0};
    struct nzg_transfer it = zeros;
    struct nzg_transaction due;
    if (nzg_transfer_open(&it, 128, 8, 0, &setup).number != 1 || nzg_transfer_open(&it, 127, 0, 0, &setup).number != 7 || !is_same(&it, &zeros)) return false;
    if (nzg_transfer_open(&it, 127, 8, 0, &setup).status != NZG_DONE || it.stage != NZG_AT_SETUP) return false;
    struct nzg_transfer copy = it;
    nzg_transfer_take(&it, NZG_ACK, 0, setup.bytes, 0);
    nzg_transfer_take(&it, NZG_DATA, 1, setup.bytes, 8);
    if (it.stage != NZG_AT_DATA_IN || it.kept != 8 || it.toggle != 0) return false;
    return nzg_transfer_next(&copy, &due) && due.stage == NZG_SETUP && nzg_transfer_next(&it, &due) && due.stage == NZG_IN;
}

int main(void) {
    if (!opens()) return 6;
    for (long i = 0; i < TRIES; i++) {
        int differs = tried();
        if (differs) return differs;
    }
    return pool_calls ? 7 : 0;
}
