#include "nozzlegorse_controller.h"
#include <string.h>

void nzg_controller_arm(struct nzg_controller *c, const uint8_t *data, size_t len) {
    c->length = (uint8_t)(len < sizeof c->in ? len : sizeof c->in), c->armed = true;
    if (c->length) memcpy(c->in, data, c->length);
}

void nzg_controller_stall(struct nzg_controller *c) { c->stalls = true; }

void nzg_controller_receive(struct nzg_controller *c, bool is_free) { c->receives = is_free; }

void nzg_controller_address(struct nzg_controller *c, uint8_t address) { c->address = address; }

void nzg_controller_address_after_status(struct nzg_controller *c, uint8_t address) { c->next_address = address, c->has_next_address = true; }

static void reset(void *context) {
    struct nzg_controller *c = context;
    *c = (struct nzg_controller){.stack = c->stack};
    c->stack->reset(c->stack->context);
}

static void setup(struct nzg_controller *c, const uint8_t bytes[8]) {
    c->armed = c->stalls = c->has_next_address = false, c->receives = true, c->in_toggle = c->out_toggle = 1;
    c->stack->setup(c->stack->context, bytes);
}

static uint8_t out(struct nzg_controller *c, uint8_t toggle, const uint8_t *data, size_t len) {
    if (c->stalls) return NZG_STALL;
    if (toggle != c->out_toggle) return NZG_ACK; /* it comes again */
    if (!c->receives) return NZG_NAK;
    c->out_toggle ^= 1;
    c->stack->received(c->stack->context, data, len);
    return NZG_ACK;
}

static void transaction(void *context, const struct nzg_transaction *sent, const uint8_t *data, size_t len, bool ready, struct nzg_packet *reply) {
    struct nzg_controller *c = context;
    *reply = (struct nzg_packet){.reply = NZG_SILENCE};
    if (sent->address != c->address) return;
    c->is_sent = false;
    if (sent->stage == NZG_SETUP) {
        reply->reply = NZG_ACK;
        setup(c, sent->setup);
    } else if (!ready) {
        reply->reply = NZG_NAK;
    } else if (sent->stage == NZG_OUT) {
        reply->reply = out(c, sent->toggle, data, len);
    } else if (c->stalls || !c->armed) {
        reply->reply = c->stalls ? NZG_STALL : NZG_NAK;
    } else {
        reply->reply = NZG_DATA, reply->toggle = c->in_toggle, reply->length = c->length, c->is_sent = true;
        memcpy(reply->data, c->in, c->length);
    }
}

static void acked(void *context) {
    struct nzg_controller *c = context;
    if (!c->is_sent) return;
    c->is_sent = c->armed = false, c->in_toggle ^= 1;
    if (c->has_next_address) c->has_next_address = false, c->address = c->next_address;
    c->stack->sent(c->stack->context);
}

struct nzg_bench_device nzg_controller_device(struct nzg_controller *controller) {
    return (struct nzg_bench_device){controller, reset, transaction, acked};
}
