/* What a host's stack gives to the bench, and the bus that it has there. Nothing else is included, since some stacks have a stdint.h
 * of their own. */
#ifndef HOST_H
#define HOST_H

enum { BUS_SETUP, BUS_IN, BUS_OUT };
enum { BUS_ACK, BUS_NAK, BUS_STALL, BUS_DATA, BUS_SILENCE };
struct bus_transaction { unsigned char address, stage, toggle, setup[8]; };
struct bus_packet { unsigned char reply, toggle, length, data[64]; };

/* Given by the stack: it enumerates the device that was attached, and gives the descriptors that it has read; 0 where it gives up. */
unsigned host_enumerate(unsigned char *file);

/* Given to the stack. */
void bus_reset(void);
void bus_send(const struct bus_transaction *sent, struct bus_packet *came);

#endif
