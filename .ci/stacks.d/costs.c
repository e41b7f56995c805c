/* Instructions that a read of the device descriptor takes on a Cortex-M4 in QEMU: of a SETUP, with the packet that is armed after it; of
 * the host's ACK of that packet; and of the packet of the status stage. */
#include "platform.h"
#include "stack.h"

int is_first_read;
static unsigned armed;

void endpoint_zero_arm(const void *data, unsigned length) { (void)data, armed = length; }
void endpoint_zero_stall(void) { armed = 0; }
void endpoint_zero_receive(int is_free) { (void)is_free; }
void endpoint_zero_address_after_status(unsigned char address) { (void)address; }

/* What ST's strings ask for; none is read here. */
int snprintf(char *to, unsigned long room, const char *format, ...);
unsigned strlen(const char *text);
int snprintf(char *to, unsigned long room, const char *format, ...) { return (void)to, (void)room, (void)format, 0; }
unsigned strlen(const char *text) { return (void)text, 0; }

static void tell(const char *what, uint32_t count) {
    say(what);
    say_number(count);
}

int main(void) {
    static const unsigned char setup[8] = {0x80, 6, 0, 1, 0, 0, 18, 0};
    uint32_t counts[3], begun = ticks_now();
    stack_reset();
    /* What is read for the first time is begun before. */
    for (int round = 0; round < 2; round++) {
        begun = ticks_now();
        stack_setup(setup);
        counts[0] = instructions_since(begun);
        if (armed != 18) return 1;
        begun = ticks_now();
        stack_sent();
        counts[1] = instructions_since(begun);
        begun = ticks_now();
        stack_received(setup, 0);
        counts[2] = instructions_since(begun);
    }
    tell("SETUP ", counts[0]);
    tell(", ACK ", counts[1]);
    tell(", status ", counts[2]);
    say("\n");
    return 0;
}
