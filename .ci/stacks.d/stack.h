/* What a shipped stack gives to the bench, and endpoint zero of the controller that it has there. Nothing else is included, since some
 * stacks have a stdint.h of their own. */
#ifndef STACK_H
#define STACK_H

/* Given by the stack. Each call may arm, stall and so on. */
extern const unsigned char stack_speed;                              /* of enum nzg_speed */
void stack_reset(void);                                              /* the bus is reset */
void stack_setup(const unsigned char setup[8]);                      /* a SETUP has come; what was armed is gone */
void stack_sent(void);                                               /* the host acknowledged the packet that was armed */
void stack_received(const unsigned char *data, unsigned length);     /* an OUT packet has come, an empty one too */

/* Given to the stack. */
extern int is_first_read;                                            /* its descriptors are read, before the bench begins */
void endpoint_zero_arm(const void *data, unsigned length);           /* the next IN is answered with this packet */
void endpoint_zero_stall(void);                                      /* STALL of IN and OUT until the next SETUP */
void endpoint_zero_receive(int is_free);                             /* whether OUT packets are taken; they are after each SETUP */
void endpoint_zero_address_after_status(unsigned char address);

#endif
