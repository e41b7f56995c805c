/* U-Boot's composite gadget (composite.c, usbstring.c, config.c, as they are; Linux's of 2009) at high speed. Its function is a serial
 * line of its own kind with two alternate settings. What a controller's driver answers itself, and no line of composite.c, is answered
 * here: SET_ADDRESS, GET_STATUS, and the halts. */
#include <linux/usb/composite.h>
#include <malloc.h>
#include "stack.h"

enum { PACKET = 64, INVALID = -22 };
const unsigned char stack_speed = 3;

static struct usb_string english_texts[] = {{1, "Das U-Boot"}, {2, "line"}, {}};
static struct usb_gadget_strings english = {0x409, english_texts}, *strings[] = {&english, NULL};
static struct usb_device_descriptor device_descriptor = {sizeof device_descriptor, 1, 0x200, 0xff, 0, 0, PACKET, 0x1234, 0x5678, 0x100, 1, 2, 0, 1};
static struct usb_interface_descriptor without_endpoints = {9, 4, 0, 0, 0, 0xff, 0, 0, 0}, with_endpoints = {9, 4, 0, 1, 2, 0xff, 0, 0, 2};
static struct usb_endpoint_descriptor full_in = {7, 5, 0x81, 2, 64, 0}, full_out = {7, 5, 0x01, 2, 64, 0};
static struct usb_endpoint_descriptor high_in = {7, 5, 0x81, 2, 512, 0}, high_out = {7, 5, 0x01, 2, 512, 0};
static struct usb_descriptor_header *full_speed_set[] = {(void *)&without_endpoints, (void *)&with_endpoints, (void *)&full_in, (void *)&full_out, NULL};
static struct usb_descriptor_header *high_speed_set[] = {(void *)&without_endpoints, (void *)&with_endpoints, (void *)&high_in, (void *)&high_out, NULL};

/* --- the function -------------------------------------------------------------------------------------------------- */

static int alternate, halts;

static int set_alternate(struct usb_function *f, unsigned number, unsigned wanted) {
    if (wanted > 1) return INVALID;
    alternate = (int)wanted, halts = 0;
    return 0;
}

static int get_alternate(struct usb_function *f, unsigned number) { return alternate; }
static void disable(struct usb_function *f) { alternate = halts = 0; }

static struct usb_function line = {
    .name = "line", .descriptors = full_speed_set, .hs_descriptors = high_speed_set, .set_alt = set_alternate, .get_alt = get_alternate, .disable = disable,
};

static int bind_configuration(struct usb_configuration *c) {
    usb_interface_id(c, &line);
    return usb_add_function(c, &line);
}

static struct usb_configuration configuration = {.label = "one", .bind = bind_configuration, .bConfigurationValue = 1, .bmAttributes = 0xc0};
static int bind_device(struct usb_composite_dev *it) { return usb_add_config(it, &configuration); }
static struct usb_composite_driver composite = {.name = "line", .dev = &device_descriptor, .strings = strings, .bind = bind_device};

/* --- the controller's driver --------------------------------------------------------------------------------------- */

static struct usb_gadget gadget;
static struct usb_gadget_driver *bound;
static struct usb_request *queued;
static unsigned sent_length;
static int is_empty_due;
static char pool[1 << 16] __attribute__((aligned(64)));
static unsigned long pool_used;

static void arm_next(void) {
    unsigned length = queued->length - sent_length < PACKET ? queued->length - sent_length : PACKET;
    endpoint_zero_arm(queued->buf + sent_length, length);
    sent_length += length;
    is_empty_due = sent_length == queued->length && length == PACKET && queued->zero;
}

static struct usb_request *allocate_request(struct usb_ep *endpoint, gfp_t flags) { return calloc(1, sizeof(struct usb_request)); }
static void free_request(struct usb_ep *endpoint, struct usb_request *it) { free(it); }
static int queue_request(struct usb_ep *endpoint, struct usb_request *it, gfp_t flags) {
    queued = it, sent_length = 0, is_empty_due = 0;
    arm_next();
    return 0;
}

static int set_self_powered(struct usb_gadget *it, int is_on) { return 0; }
static int draw_power(struct usb_gadget *it, unsigned milliamperes) { return 0; }
static const struct usb_ep_ops endpoint_calls = {.alloc_request = allocate_request, .free_request = free_request, .queue = queue_request};
static const struct usb_gadget_ops gadget_calls = {.set_selfpowered = set_self_powered, .vbus_draw = draw_power};
static struct usb_ep endpoint_zero = {.name = "ep0", .ops = &endpoint_calls, .maxpacket = PACKET};

int usb_gadget_register_driver(struct usb_gadget_driver *driver) { return bound = driver, driver->bind(&gadget); }
int usb_gadget_unregister_driver(struct usb_gadget_driver *driver) { return 0; }
void usb_ep_autoconfig_reset(struct usb_gadget *it) {}

/* In place of U-Boot's memory and console, whose names .ci/stacks gives these. */
void *memalign_of_stack(unsigned long alignment, unsigned long size) {
    pool_used = ((pool_used + 63) & ~63ul) + size;
    return pool_used <= sizeof pool ? pool + pool_used - size : NULL;
}
void *calloc_of_stack(unsigned long count, unsigned long size) { return memalign_of_stack(64, count * size); }
void free_of_stack(void *at) {}
int printf_of_stack(const char *text, ...) { return 0; }

/* Whether the address is one of endpoint zero, or of a setting that is chosen. */
static int has_endpoint(unsigned char address) {
    int is_configured = ((struct usb_composite_dev *)get_gadget_data(&gadget))->config != NULL;
    return (address & 0x0f) == 0 || (is_configured && alternate && (address & 0x0f) == 1);
}

static int get_status(const unsigned char q[8]) {
    static unsigned char status[2];
    int is_configured = ((struct usb_composite_dev *)get_gadget_data(&gadget))->config != NULL;
    if ((q[0] == 0x81 && (!is_configured || q[4])) || (q[0] == 0x82 && !has_endpoint(q[4]))) return endpoint_zero_stall(), 1;
    status[0] = q[0] == 0x80 ? 1 : q[0] == 0x82 && (q[4] & 0x0f) ? !!(halts & 1 << (q[4] >> 7)) : 0;
    return endpoint_zero_arm(status, 2), 1;
}

/* A halt of endpoint zero is accepted and is none. */
static int change_halt(const unsigned char q[8]) {
    int is_zero = !(q[4] & 0x0f), bit = 1 << (q[4] >> 7);
    if (q[0] != 2 || q[2] || !has_endpoint(q[4])) return endpoint_zero_stall(), 1;
    if (!is_zero) halts = q[1] == 3 ? halts | bit : halts & ~bit;
    return endpoint_zero_arm(q, 0), 1;
}

/* Whether the driver answers a request itself. */
static int answers(const unsigned char q[8]) {
    if (q[0] == 0 && q[1] == 5) {
        endpoint_zero_address_after_status(q[2]);
        return endpoint_zero_arm(q, 0), 1;
    }
    if ((q[0] & 0x7f) > 2) return 0;
    return q[1] == 0 ? get_status(q) : q[1] == 1 || q[1] == 3 ? change_halt(q) : 0;
}

void stack_reset(void) {
    if (!bound) {
        gadget.ops = &gadget_calls, gadget.ep0 = &endpoint_zero, gadget.speed = gadget.max_speed = USB_SPEED_HIGH, gadget.is_dualspeed = 1;
        INIT_LIST_HEAD(&gadget.ep_list);
        usb_composite_register(&composite);
    }
    bound->reset(&gadget);
    alternate = halts = 0;
}

void stack_setup(const unsigned char setup[8]) {
    queued = NULL, is_empty_due = 0;
    if (!answers(setup) && bound->setup(&gadget, (const struct usb_ctrlrequest *)setup) < 0) endpoint_zero_stall();
}

void stack_sent(void) {
    if (!queued) return;
    if (is_empty_due) is_empty_due = 0, endpoint_zero_arm(queued->buf, 0);
    else if (sent_length < queued->length) arm_next();
}

void stack_received(const unsigned char *data, unsigned length) {}
