/* U-Boot's host (common/usb.c, as it is) over a controller that makes a control transfer of its stages, as EHCI does: each transaction
 * is tried three times, and the data end with a short packet. */
#include <common.h>
#include <usb.h>
#include "host.h"

enum { TRIES = 3, NAKS = 40, FAILED = -1, STALLED = -2, GET_DESCRIPTOR = 6 };
static unsigned char pool[1 << 20] __attribute__((aligned(64)));
static unsigned long pool_used;

/* The descriptors that were read: of the set the longest answer, and the strings one after the other. */
static unsigned char set[65536], strings[4096];
static unsigned set_length, strings_length;

/* --- what U-Boot gives ----------------------------------------------------------------------------------------------- */

const unsigned char _ctype[256];
void *memalign_of_stack(size_t alignment, size_t size) {
    pool_used = ((pool_used + 63) & ~63ul) + size;
    return pool_used <= sizeof pool ? pool + pool_used - size : NULL;
}
void free_of_stack(void *at) {}
int printf_of_stack(const char *text, ...) { return 0; }
void puts(const char *text) {}
void udelay(unsigned long microseconds) {}
int submit_bulk_msg(struct usb_device *device, unsigned long pipe, void *buffer, int length) { return -1; }
int submit_int_msg(struct usb_device *device, unsigned long pipe, void *buffer, int length, int interval, bool nonblock) { return -1; }
int usb_get_port_status(struct usb_device *device, int port, void *data) { return -1; }
int usb_hub_probe(struct usb_device *device, int number) { return 0; }
void usb_hub_reset(void) {}
int usb_lowlevel_init(int index, enum usb_init_type init, void **controller) { return 0; }
int usb_lowlevel_stop(int index) { return 0; }

/* --- the controller ----------------------------------------------------------------------------------------------------- */

/* One transaction, three times at most: how many bytes came, or below 0. */
static int make(const struct bus_transaction *due, int toggle, int packet, struct bus_packet *came) {
    for (int failures = 0, naks = 0; failures < TRIES;) {
        bus_send(due, came);
        if (came->reply == BUS_STALL) return STALLED;
        if (came->reply == BUS_NAK && ++naks > NAKS) return FAILED;
        if (came->reply == BUS_SILENCE) failures++;
        if (came->reply == BUS_SILENCE || came->reply == BUS_NAK) continue;
        if (due->stage != BUS_IN || came->toggle == toggle) return came->length > packet ? FAILED : came->length;
    }
    return FAILED;
}

static int make_data_stage(struct usb_device *device, struct bus_transaction *due, int packet, unsigned char *buffer, int length) {
    struct bus_packet came;
    due->stage = BUS_IN;
    for (int toggle = 1; device->act_len < length; toggle ^= 1) {
        int count = make(due, toggle, packet, &came);
        if (count < 0) return count;
        int taken = device->act_len + count > length ? length - device->act_len : count;
        memcpy(buffer + device->act_len, came.data, taken), device->act_len += taken;
        if (count < packet) return 0;
    }
    return 0;
}

/* A descriptor that is longer than the one kept of its kind. */
static void keep(const struct devrequest *request, const unsigned char *data, unsigned length) {
    unsigned kind = le16_to_cpu(request->value) >> 8;
    if (!(request->requesttype & 0x80) || request->request != GET_DESCRIPTOR || length < 2) return;
    if (kind == 2 && length > set_length) memcpy(set, data, set_length = length);
    if (kind == 3 && length == data[0] && strings_length + length <= sizeof strings) memcpy(strings + strings_length, data, length), strings_length += length;
}

int submit_control_msg(struct usb_device *device, unsigned long pipe, void *buffer, int length, struct devrequest *request) {
    struct bus_transaction due = {usb_pipedevice(pipe)};
    struct bus_packet came;
    int reads = request->requesttype & 0x80 && length;
    memcpy(due.setup, request, 8);
    device->act_len = 0, device->status = USB_ST_CRC_ERR;
    int end = make(&due, 0, 0, &came);
    if (end >= 0 && reads) end = make_data_stage(device, &due, usb_maxpacket(device, pipe), buffer, length);
    if (end >= 0) {
        due.stage = reads ? BUS_OUT : BUS_IN, due.toggle = reads ? 1 : 0;
        end = make(&due, 1, 0, &came);
    }
    if (end == STALLED) device->status = USB_ST_STALLED;
    if (end < 0) return -1;
    device->status = 0;
    keep(request, buffer, (unsigned)device->act_len);
    return 0;
}

unsigned host_enumerate(unsigned char *file) {
    static int was_here;
    struct usb_device *device;
    pool_used = 0, set_length = strings_length = 0;
    if (was_here) usb_free_device(NULL);
    was_here = 1;
    usb_disable_asynch(1);
    if (usb_alloc_new_device(NULL, &device)) return 0;
    device->speed = USB_SPEED_FULL, device->have_langid = 0;
    bus_reset();
    if (usb_new_device(device)) return 0;
    memcpy(file, &device->descriptor, 18);
    memcpy(file + 18, set, set_length);
    memcpy(file + 18 + set_length, strings, strings_length);
    return 18 + set_length + strings_length;
}
