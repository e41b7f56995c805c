/* nozzlegorse_controller.h: endpoint zero of a controller that keeps toggles and sends ACKs itself, as almost all do, so that a stack
 * comes to the bench as it is. The stack arms packets, and the controller does the rest. */
#ifndef NOZZLEGORSE_CONTROLLER_H
#define NOZZLEGORSE_CONTROLLER_H
#include "nozzlegorse_bench.h"

/* What the stack has to give. Each call may arm, stall and so on. */
struct nzg_stack {
    void *context;
    void (*reset)(void *context);                                     /* the bus is reset */
    void (*setup)(void *context, const uint8_t setup[8]);             /* a SETUP has come; what was armed is gone */
    void (*sent)(void *context);                                      /* the host acknowledged the packet that was armed */
    void (*received)(void *context, const uint8_t *data, size_t len); /* an OUT packet has come, an empty one too */
};

/* Begun with its stack, and else 0. */
struct nzg_controller {
    const struct nzg_stack *stack;
    uint8_t address, next_address, in[64], length, in_toggle, out_toggle;
    bool armed, stalls, receives, has_next_address, is_sent;
};

/* For the bench. */
struct nzg_bench_device nzg_controller_device(struct nzg_controller *controller);

/* For the stack: the next IN is answered with this packet; IN and OUT are answered by STALL until the next SETUP; OUT packets are
 * taken, as they are after each SETUP, or answered by NAK; an address that holds at once, or once the status stage is over. */
void nzg_controller_arm(struct nzg_controller *controller, const uint8_t *data, size_t len);
void nzg_controller_stall(struct nzg_controller *controller);
void nzg_controller_receive(struct nzg_controller *controller, bool is_free);
void nzg_controller_address(struct nzg_controller *controller, uint8_t address);
void nzg_controller_address_after_status(struct nzg_controller *controller, uint8_t address);
#endif
