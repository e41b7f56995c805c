/* The bench's controller as the stacks have it. */
#include "nozzlegorse_controller.h"
#include "stack.h"

static void reset(void *context) { (void)context, stack_reset(); }
static void setup(void *context, const uint8_t bytes[8]) { (void)context, stack_setup(bytes); }
static void sent(void *context) { (void)context, stack_sent(); }
static void received(void *context, const uint8_t *data, size_t length) { (void)context, stack_received(data, (unsigned)length); }

static const struct nzg_stack stack = {NULL, reset, setup, sent, received};
static struct nzg_controller controller = {.stack = &stack};

void endpoint_zero_arm(const void *data, unsigned length) { nzg_controller_arm(&controller, data, length); }
void endpoint_zero_stall(void) { nzg_controller_stall(&controller); }
void endpoint_zero_receive(int is_free) { nzg_controller_receive(&controller, is_free); }
void endpoint_zero_address_after_status(unsigned char address) { nzg_controller_address_after_status(&controller, address); }

struct nzg_bench_device device_under_test(void) { return nzg_controller_device(&controller); }
