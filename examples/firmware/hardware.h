/* What the firmware asks of a USB device controller's endpoint zero, and of its endpoint 1 IN: five functions. */
#ifndef HARDWARE_H
#define HARDWARE_H
#include <nozzlegorse.h>

enum hardware_kind { HARDWARE_RESET, HARDWARE_TRANSACTION, HARDWARE_ACKED, HARDWARE_POLLED };

/* What came: a bus reset; a SETUP, an IN that wants a packet or an OUT with its data; or the host's ACK of the packet sent last;
 * or an IN of endpoint 1, which has been answered. */
struct hardware_event {
    uint8_t kind;
    struct nzg_transaction transaction;
    uint8_t data[64];
    uint8_t length;
};

void hardware_start(void);
void hardware_wait(struct hardware_event *event);
/* To the transaction that came last. A SETUP is always acknowledged (8.4.6.4): there NZG_STALL says that no data of it are taken. */
void hardware_answer(const struct nzg_packet *packet);
/* The address from the next transaction on. */
void hardware_address(uint8_t address);
/* The packet of endpoint 1 until the next call; false where the last one wasn't taken yet. */
bool hardware_report(const uint8_t *bytes, uint8_t length);
#endif
