/* with_libusb: explains each device of this machine: its bytes by libusb, their meaning by nozzlegorse. It ends in 1 where a device
 * can't be read whole or its bytes are no descriptors, and in 2 where libusb doesn't start. */
#include <libusb.h>
#include <nozzlegorse.h>
#include <stdio.h>
#include <stdlib.h>

/* The device descriptor and its sets, as Linux has them in /sys: a dump. */
static uint8_t bytes[18 + 255 * 65535];
static nzg_size len;

/* Appends what the device sends of a descriptor: false, with a line, where that is not all that is wanted. */
static bool append(libusb_device_handle *device, uint8_t type, uint8_t index, int wanted) {
    int came = libusb_get_descriptor(device, type, index, bytes + len, wanted);
    if (came > 0) len += (nzg_size)came;
    if (came < 0) fprintf(stderr, "descriptor %d %d: %s\n", type, index, libusb_strerror(came));
    else if (came < wanted) fprintf(stderr, "descriptor %d %d: %d bytes of %d\n", type, index, came, wanted);
    return came == wanted;
}

/* A set is read twice, as a host does: its first 9 bytes say how many it has. */
static bool append_set(libusb_device_handle *device, uint8_t index) {
    nzg_size start = len;
    if (!append(device, LIBUSB_DT_CONFIG, index, 9)) return false;
    int total = bytes[start + 2] | bytes[start + 3] << 8;
    if (total <= 9) return true;
    len = start;
    return append(device, LIBUSB_DT_CONFIG, index, total);
}

static bool read_device(libusb_device_handle *device) {
    len = 0;
    if (!append(device, LIBUSB_DT_DEVICE, 0, 18)) return false;
    for (unsigned n = 0; n < bytes[17]; n++)
        if (!append_set(device, (uint8_t)n)) return false;
    return true;
}

/* What came is explained as far as it goes, also where it is broken or cut off. */
static bool explain(int speed) {
    uint8_t known = (uint8_t)(speed > NZG_SUPER ? NZG_SUPER : speed), none;
    nzg_size room = nzg_explain(bytes, len, NZG_PLACES, known, &none, 0).length;
    uint8_t *text = malloc(room ? room : 1);
    struct nzg_answer answer = {NZG_NO_MEMORY, 0, 0, 0};
    if (text) answer = nzg_explain(bytes, len, NZG_PLACES, known, text, room);
    if (answer.status == NZG_NO_MEMORY) fprintf(stderr, "out of memory\n");
    else fwrite(text, 1, answer.length, stdout);
    free(text);
    return answer.status == NZG_DONE;
}

static bool explain_device(libusb_device *device) {
    libusb_device_handle *handle;
    int error = libusb_open(device, &handle);
    printf("bus %d, device %d\n", libusb_get_bus_number(device), libusb_get_device_address(device));
    if (error < 0) fprintf(stderr, "not opened: %s\n", libusb_strerror(error));
    if (error < 0) return false;
    bool is_whole = read_device(handle);
    libusb_close(handle);
    return explain(libusb_get_device_speed(device)) && is_whole;
}

int main(void) {
    libusb_device **devices;
    int error = libusb_init(NULL), status = 0;
    ssize_t count = error < 0 ? error : libusb_get_device_list(NULL, &devices);
    if (count < 0) fprintf(stderr, "no devices: %s\n", libusb_strerror((int)count));
    for (ssize_t n = 0; n < count; n++)
        if (!explain_device(devices[n])) status = 1;
    if (count >= 0) libusb_free_device_list(devices, 1);
    if (error >= 0) libusb_exit(NULL);
    return count < 0 ? 2 : status;
}
