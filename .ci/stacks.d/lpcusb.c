/* LPCUSB (usbcontrol.c, usbstdreq.c, usbinit.c) with the descriptors of the Ubertooth (ubertooth_usb.c), all as they are, over the
 * bench's controller in place of usbhw_lpc.c. Of the LPC17xx's controller, by its manual: an address is taken after the status stage;
 * a SETUP ends a stall and drops the packet of IN; SELECT ENDPOINT tells of a stall, and the configuration of an endpoint ends it. */
#include "stack.h"
#include "usbapi.h"
#include "usbhw_lpc.h"
#include "ubertooth_usb.h"
#include <stdbool.h>
#include <string.h>

const unsigned char stack_speed = 2;
static U8 setup_packet[8];
static bool is_setup, halts[32];
static TFnDevIntHandler *on_device_status;

BOOL USBHwInit(void) { return TRUE; }
void USBHwISR(void) {}
void USBHwSetAddress(U8 address) { endpoint_zero_address_after_status(address); }
void USBHwConfigDevice(BOOL is_configured) { (void)is_configured; }
void USBHwConnect(BOOL is_connected) { (void)is_connected; }
void USBHwRegisterEPIntHandler(U8 endpoint, TFnEPIntHandler *handler) { (void)endpoint, (void)handler; }
void USBHwRegisterDevIntHandler(TFnDevIntHandler *handler) { on_device_status = handler; }

static unsigned physical(U8 endpoint) { return (endpoint & 15u) << 1 | endpoint >> 7; }

void USBHwEPConfig(U8 endpoint, U16 size) { (void)size, halts[physical(endpoint)] = false; }

void USBHwEPStall(U8 endpoint, BOOL stalls) {
    if (physical(endpoint) > 1) halts[physical(endpoint)] = stalls;
    else if (stalls) endpoint_zero_stall();
}

U8 USBHwEPGetStatus(U8 endpoint) { return halts[physical(endpoint)] ? EP_STATUS_STALLED : 0; }

int USBHwEPWrite(U8 endpoint, U8 *data, U32 length) {
    if (endpoint == 0x80) endpoint_zero_arm(data, length);
    return (int)length;
}

static const unsigned char *out_data;
static unsigned out_length;

/* What lies in the endpoint's buffer: the setup packet, or the packet of OUT. -1 where there is no room for it. */
int USBHwEPRead(U8 endpoint, U8 *data, U32 room) {
    const unsigned char *from = is_setup ? setup_packet : out_data;
    unsigned length = is_setup ? sizeof setup_packet : out_length;
    (void)endpoint;
    if (data && length) memcpy(data, from, length < room ? length : room);
    return (int)length;
}

void get_device_serial(u8 *buffer, int *length) { memset(buffer, 0x12, 17), buffer[0] = 0, *length = 17; }
static int no_vendor_request(u8 request, u16 *parameters, u8 *data, int *length) { return (void)request, (void)parameters, (void)data, (void)length, 0; }

void stack_reset(void) {
    static bool is_begun;
    if (!is_begun) ubertooth_usb_init(no_vendor_request), is_begun = true;
    memset(halts, 0, sizeof halts);
    on_device_status(DEV_STATUS_RESET | DEV_STATUS_CONNECT);
}

void stack_setup(const unsigned char setup[8]) {
    memcpy(setup_packet, setup, sizeof setup_packet);
    is_setup = true;
    USBHandleControlTransfer(0x00, EP_STATUS_SETUP);
    is_setup = false;
}

void stack_sent(void) { USBHandleControlTransfer(0x80, 0); }

void stack_received(const unsigned char *data, unsigned length) {
    out_data = data, out_length = length;
    USBHandleControlTransfer(0x00, EP_STATUS_DATA);
}
