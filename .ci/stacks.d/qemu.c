/* QEMU's control pipe of emulated devices (hw/usb/core.c, hw/usb/desc.c, as they are), with the descriptors of its mouse. Each packet is
 * fetched when it is due, as QEMU's host controllers do. A SETUP that it answers by STALL, which no bus has, stalls what follows. */
#include "stack.h"
#include "qemu/osdep.h"
#include "hw/usb.h"
#include "desc.h"

enum { PACKET = 8 };
const unsigned char stack_speed = 2;

static const USBDescIface interface = {
    .bInterfaceNumber = 0, .bNumEndpoints = 1, .bInterfaceClass = 3, .bInterfaceSubClass = 1, .bInterfaceProtocol = 2, .ndesc = 1,
    .descs = (USBDescOther[]){{.data = (uint8_t[]){9, 0x21, 1, 0, 0, 1, 0x22, 52, 0}}},
    .eps = (USBDescEndpoint[]){{.bEndpointAddress = 0x81, .bmAttributes = 3, .wMaxPacketSize = 4, .bInterval = 10}},
};
static const USBDescDevice full_speed = {
    .bcdUSB = 0x100, .bMaxPacketSize0 = PACKET, .bNumConfigurations = 1,
    .confs = (USBDescConfig[]){{.bNumInterfaces = 1, .bConfigurationValue = 1, .bmAttributes = 0xa0, .bMaxPower = 50, .nif = 1, .ifs = &interface}},
};
static const USBDescStrings strings = {[1] = "QEMU", [2] = "QEMU USB Mouse", [3] = "42"};
static const USBDesc mouse = {.id = {.idVendor = 0x627, .idProduct = 1, .iManufacturer = 1, .iProduct = 2, .iSerialNumber = 3}, .full = &full_speed, .str = strings};

static USBDevice device;
static USBPort port;
static USBPacket packet;
static uint8_t buffer[64], setup_packet[8];
static bool is_read, is_short;

/* What QEMU's bus does, and dev-hid.c without what is of its class. */
const USBDesc *usb_device_get_usb_desc(USBDevice *it) { return (void)it, &mouse; }
void usb_device_handle_control(USBDevice *it, USBPacket *p, int request, int value, int index, int length, uint8_t *data) {
    if (usb_desc_handle_control(it, p, request, value, index, length, data) < 0) p->status = USB_RET_STALL;
}
void usb_device_handle_reset(USBDevice *it) { (void)it; }
void usb_device_handle_attach(USBDevice *it) { usb_desc_attach(it); }
void usb_device_handle_data(USBDevice *it, USBPacket *p) { (void)it, (void)p; }
void usb_device_cancel_packet(USBDevice *it, USBPacket *p) { (void)it, (void)p; }
USBDevice *usb_device_find_device(USBDevice *it, uint8_t address) { return (void)address, it; }
void usb_device_set_interface(USBDevice *it, int number, int before, int now) { (void)it, (void)number, (void)before, (void)now; }
int usb_desc_msos(const USBDesc *it, USBPacket *p, int index, uint8_t *to, size_t room) { return (void)it, (void)p, (void)index, (void)to, (void)room, -1; }
void usb_pcap_ctrl(USBPacket *p, bool is_setup) { (void)p, (void)is_setup; }
void usb_pcap_data(USBPacket *p, bool is_setup) { (void)p, (void)is_setup; }

/* One transaction of the pipe: its status. */
static int handled(int token, void *bytes, size_t length) {
    usb_packet_init(&packet);
    usb_packet_setup(&packet, token, usb_ep_get(&device, token, 0), 0, 0, false, false);
    usb_packet_addbuf(&packet, bytes, length);
    usb_handle_packet(&device, &packet);
    return packet.status;
}

static void fetch(void) {
    if (handled(USB_TOKEN_IN, buffer, PACKET)) {
        endpoint_zero_stall();
        return;
    }
    if (setup_packet[0] == 0 && setup_packet[1] == 5) endpoint_zero_address_after_status(device.addr);
    endpoint_zero_arm(buffer, (unsigned)packet.actual_length);
    is_short = packet.actual_length < PACKET;
}

void stack_reset(void) {
    if (!device.port) {
        device.port = &port, port.dev = &device;
        usb_ep_init(&device);
        usb_desc_init(&device);
        device.attached = true, device.state = USB_STATE_ATTACHED;
        usb_device_handle_attach(&device);
    }
    usb_device_reset(&device);
}

void stack_setup(const unsigned char setup[8]) {
    unsigned length = setup[6] | (unsigned)setup[7] << 8;
    memcpy(setup_packet, setup, sizeof setup_packet);
    is_read = setup[0] & 0x80 && length;
    if (handled(USB_TOKEN_SETUP, setup_packet, sizeof setup_packet)) endpoint_zero_stall();
    else if (is_read || !length) fetch();
}

void stack_sent(void) {
    if (is_read && !is_short && device.setup_index < (setup_packet[6] | setup_packet[7] << 8)) fetch();
}

void stack_received(const unsigned char *data, unsigned length) {
    memcpy(buffer, data, length);
    if (handled(USB_TOKEN_OUT, buffer, length)) endpoint_zero_stall();
    else if (!(setup_packet[0] & 0x80) && length && device.setup_index >= device.setup_len) fetch();
}
