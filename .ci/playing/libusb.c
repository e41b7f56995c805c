/* What examples/c/with_libusb.c asks of libusb, with one device: that of the dump in USB_FILE. USB_INIT and USB_OPEN are errors of these
 * calls. The transfer of number USB_AT, from 1, brings USB_BYTES bytes at most, or is that error where they are negative. */
#include <libusb.h>
#include <stdio.h>
#include <stdlib.h>
#include <string.h>

struct libusb_device { int number; };
struct libusb_device_handle { int transfers; };
static libusb_device only = {1};
static libusb_device *devices[] = {&only, NULL};
static libusb_device_handle opened;
static unsigned char dump[1 << 20];
static size_t len;

static int number(const char *name) { return getenv(name) ? atoi(getenv(name)) : 0; }

int libusb_init(libusb_context **context) { (void)context; return number("USB_INIT"); }
void libusb_exit(libusb_context *context) { (void)context; }
ssize_t libusb_get_device_list(libusb_context *context, libusb_device ***list) { (void)context; *list = devices; return 1; }
void libusb_free_device_list(libusb_device **list, int unref) { (void)list, (void)unref; }
uint8_t libusb_get_bus_number(libusb_device *device) { (void)device; return 1; }
uint8_t libusb_get_device_address(libusb_device *device) { (void)device; return 2; }
int libusb_get_device_speed(libusb_device *device) { (void)device; return number("USB_SPEED"); }
void libusb_close(libusb_device_handle *handle) { (void)handle; }

const char *libusb_strerror(int error) {
    static char words[32];
    snprintf(words, sizeof words, "error %d", error);
    return words;
}

int libusb_open(libusb_device *device, libusb_device_handle **handle) {
    FILE *file = fopen(getenv("USB_FILE"), "rb");
    (void)device;
    if (!file) abort();
    len = fread(dump, 1, sizeof dump, file);
    fclose(file);
    *handle = &opened;
    return number("USB_OPEN");
}

int libusb_control_transfer(libusb_device_handle *handle, uint8_t type, uint8_t request, uint16_t value, uint16_t index, unsigned char *data, uint16_t length, unsigned timeout) {
    size_t at = 0, end = 18;
    if (type != 0x80 || request != 6 || index || !timeout || (value >> 8 != 1 && value >> 8 != 2)) return LIBUSB_ERROR_PIPE;
    for (int n = value >> 8 == 2 ? value & 255 : -1; n >= 0; n--) {
        at = end;
        if (at + 4 > len) return LIBUSB_ERROR_PIPE;
        end = at + (dump[at + 2] | dump[at + 3] << 8);
    }
    size_t count = end - at < length ? end - at : length;
    if (at + count > len) count = len - at;
    if (++handle->transfers == number("USB_AT")) {
        if (number("USB_BYTES") < 0) return number("USB_BYTES");
        if (count > (size_t)number("USB_BYTES")) count = (size_t)number("USB_BYTES");
    }
    memcpy(data, dump + at, count);
    return (int)count;
}
