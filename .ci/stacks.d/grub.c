/* GRUB's host (usb.c, usbtrans.c, usbhub.c, as they are) over a controller as UHCI's is: it has a list of transactions, tries each
 * three times, and goes on after a short packet, since uhci.c sets no bit for these. */
#include "usb.c"
#include "usbtrans.c"
#include "usbhub.c"
#include "host.h"

enum { TRIES = 3, NAKS = 40, FIRST_SET = 18 };
static grub_usb_err_t result;
static grub_uint64_t milliseconds;
static unsigned char pool[1 << 20];
static unsigned long pool_used;

/* --- what GRUB's kernel gives ----------------------------------------------------------------------------------------- */

void (*grub_term_poll_usb)(int) = 0;
grub_err_t grub_errno;

void *grub_memset(void *to, int byte, grub_size_t size) {
    for (unsigned char *at = to; size--;) *at++ = (unsigned char)byte;
    return to;
}

void *grub_memmove(void *to, const void *from, grub_size_t size) {
    unsigned char *a = to;
    const unsigned char *b = from;
    if (a < b) for (grub_size_t i = 0; i < size; i++) a[i] = b[i];
    else for (grub_size_t i = size; i-- > 0;) a[i] = b[i];
    return to;
}

/* Memory with what was in it before, as far as one can tell. */
void *grub_malloc(grub_size_t size) {
    unsigned long at = (pool_used + 15) & ~15ul;
    if (size > sizeof pool - at) return 0;
    pool_used = at + size;
    return grub_memset(pool + at, 0xa5, size);
}

void *grub_zalloc(grub_size_t size) {
    void *at = grub_malloc(size);
    return at ? grub_memset(at, 0, size) : 0;
}

void *grub_calloc(grub_size_t count, grub_size_t size) { return grub_zalloc(count * size); }
void grub_free(void *at) {}
struct grub_pci_dma_chunk *grub_memalign_dma32(grub_size_t alignment, grub_size_t size) { return grub_malloc(size); }
void grub_dma_free(struct grub_pci_dma_chunk *chunk) {}
volatile void *grub_dma_get_virt(struct grub_pci_dma_chunk *chunk) { return chunk; }
grub_uint32_t grub_dma_get_phys(struct grub_pci_dma_chunk *chunk) { return (grub_uint32_t)((unsigned char *)chunk - pool); }
grub_uint64_t grub_get_time_ms(void) { return milliseconds += 100; }
void grub_millisleep(grub_uint32_t count) { milliseconds += count; }
grub_err_t grub_error(grub_err_t number, const char *text, ...) { return number; }
grub_dl_t grub_dl_load(const char *name) { return 0; }
void grub_print_error(void) {}
void grub_real_dprintf(const char *file, const int line, const char *condition, const char *text, ...) {}
void grub_list_remove(grub_list_t item) {}

/* --- the controller ------------------------------------------------------------------------------------------------------ */

static struct bus_transaction transaction_of(const struct grub_usb_transfer *transfer, const struct grub_usb_transaction *it) {
    struct bus_transaction due = {(unsigned char)transfer->devaddr, BUS_OUT, (unsigned char)it->toggle};
    if (it->pid == GRUB_USB_TRANSFER_TYPE_SETUP) due.stage = BUS_SETUP, due.toggle = 0, grub_memcpy(due.setup, pool + it->data, 8);
    if (it->pid == GRUB_USB_TRANSFER_TYPE_IN) due.stage = BUS_IN, due.toggle = 0;
    return due;
}

/* One transaction, as the controller makes it: done, or an error. */
static grub_usb_err_t make(grub_usb_transfer_t transfer, grub_usb_transaction_t it) {
    struct bus_transaction due = transaction_of(transfer, it);
    struct bus_packet came;
    for (int failures = 0, naks = 0; failures < TRIES;) {
        bus_send(&due, &came);
        if (came.reply == BUS_STALL) return GRUB_USB_ERR_STALL;
        if (came.reply == BUS_NAK && ++naks > NAKS) return GRUB_USB_ERR_WAIT; /* GRUB's second is over */
        if (came.reply == BUS_SILENCE) failures++;
        if (came.reply == BUS_SILENCE || came.reply == BUS_NAK) continue;
        if (due.stage != BUS_IN || came.reply != BUS_DATA) return GRUB_USB_ERR_NONE;
        if (came.toggle != it->toggle) continue; /* dropped, and asked for again */
        if (came.length > it->size) return GRUB_USB_ERR_BABBLE;
        if (it->size) grub_memcpy(pool + it->data, came.data, came.length);
        return GRUB_USB_ERR_NONE;
    }
    return GRUB_USB_ERR_TIMEOUT;
}

static grub_usb_err_t setup_transfer(grub_usb_controller_t controller, grub_usb_transfer_t transfer) {
    result = GRUB_USB_ERR_NONE;
    for (int i = 0; i < transfer->transcnt && !result; i++) result = make(transfer, &transfer->transactions[i]);
    return GRUB_USB_ERR_NONE;
}

static grub_usb_err_t check_transfer(grub_usb_controller_t controller, grub_usb_transfer_t transfer, grub_size_t *actual) { return *actual = transfer->size, result; }
static grub_usb_err_t cancel_transfer(grub_usb_controller_t controller, grub_usb_transfer_t transfer) { return GRUB_USB_ERR_NONE; }
static grub_usb_err_t reset_port(grub_usb_controller_t controller, unsigned port, unsigned is_on) { return bus_reset(), GRUB_USB_ERR_NONE; }

/* A device is attached to a port. GRUB keeps its device descriptor and its sets. A driver selects the set, as usbms.c does. */
unsigned host_enumerate(unsigned char *file) {
    static struct grub_usb_controller_dev driver = {.setup_transfer = setup_transfer, .check_transfer = check_transfer, .cancel_transfer = cancel_transfer, .portstatus = reset_port};
    static struct grub_usb_controller controller = {.dev = &driver};
    static struct grub_usb_device *devices[2];
    struct grub_usb_hub hub = {.controller = &controller, .nports = 1, .devices = devices};
    pool_used = 0, milliseconds = 0, devices[0] = 0;
    grub_memset(grub_usb_devs, 0, sizeof grub_usb_devs);
    attach_root_port(&hub, 0, GRUB_USB_SPEED_FULL);
    if (!devices[0]) return 0;
    const struct grub_usb_desc_config *set = devices[0]->config[0].descconf;
    grub_memcpy(file, &devices[0]->descdev, FIRST_SET);
    grub_memcpy(file + FIRST_SET, set, set->totallen);
    return grub_usb_set_configuration(devices[0], set->config) ? 0 : FIRST_SET + set->totallen;
}
