/* OpenULINK (usb.c of OpenOCD's firmware, as it is but for words of the 8051's compiler) over the EZ-USB as its manual (AN2131 TRM,
 * chapters 7 and 9) has it: the core takes the address, sends what SUDPTR points to, and holds the status stage until HSNAK is
 * written. */
#include "stack.h"
#include <stdbool.h>
#include <stdint.h>
#include <string.h>
#pragma pack(push, 1) /* as on the 8051 */
#include "usb.h"
#pragma pack(pop)

enum { PACKET = 64, NOT_WRITTEN = 0xff };
const unsigned char stack_speed = 2;

#define REGISTER(name) volatile uint8_t name;
REGISTER(EXIF) REGISTER(USBIRQ) REGISTER(IN07IRQ) REGISTER(OUT07IRQ) REGISTER(EP0CS) REGISTER(IN0BC) REGISTER(SUDPTRH) REGISTER(SUDPTRL) REGISTER(TOGCTL)
REGISTER(IN1CS) REGISTER(IN2CS) REGISTER(IN3CS) REGISTER(IN4CS) REGISTER(IN5CS) REGISTER(IN6CS) REGISTER(IN7CS) REGISTER(OUT2BC) REGISTER(OUT1CS)
REGISTER(OUT2CS) REGISTER(OUT3CS) REGISTER(OUT4CS) REGISTER(OUT5CS) REGISTER(OUT6CS) REGISTER(OUT7CS) REGISTER(IN07VAL) REGISTER(OUT07VAL) REGISTER(INISOVAL)
REGISTER(OUTISOVAL) REGISTER(ISOCTL) REGISTER(USBBAV) REGISTER(USBIEN) REGISTER(OUT07IEN) REGISTER(IN07IEN) REGISTER(EUSB) REGISTER(USBCS)
volatile uint8_t IN0BUF[PACKET];
void delay_ms(uint16_t ms) { (void)ms; }

extern struct usb_device_descriptor device_descriptor;
extern struct usb_config_descriptor config_descriptor;
extern struct usb_interface_descriptor interface_descriptor00;
extern struct usb_endpoint_descriptor Bulk_EP2_IN_Endpoint_Descriptor, Bulk_EP2_OUT_Endpoint_Descriptor;
extern struct usb_language_descriptor language_descriptor;
extern struct usb_string_descriptor strManufacturer, strProduct, strSerialNumber, strConfigDescr;
extern void sudav_isr(void);

static uint8_t answer[256];
static unsigned answer_length, sent_length;
static bool is_sending;

/* The set, whose descriptors lie one after the other on the 8051. */
static void copy_set(void) {
    uint8_t *to = answer;
    memcpy(to, &config_descriptor, 9), to += 9;
    memcpy(to, &interface_descriptor00, 9), to += 9;
    memcpy(to, &Bulk_EP2_IN_Endpoint_Descriptor, 7), to += 7;
    memcpy(to, &Bulk_EP2_OUT_Endpoint_Descriptor, 7);
    answer_length = config_descriptor.wTotalLength;
}

/* The descriptor at the 16 bits of SUDPTR; false where none of the firmware's is there. */
static bool copy_pointed_to(void) {
    const void *const objects[] = {&device_descriptor, &config_descriptor, &language_descriptor, &strManufacturer, &strProduct, &strSerialNumber, &strConfigDescr};
    for (unsigned i = 0; i < sizeof objects / sizeof *objects; i++) {
        if ((uint16_t)(uintptr_t)objects[i] != (uint16_t)(SUDPTRH << 8 | SUDPTRL)) continue;
        answer_length = *(const uint8_t *)objects[i];
        if (objects[i] == &config_descriptor) copy_set();
        else memcpy(answer, objects[i], answer_length);
        return true;
    }
    return false;
}

static void arm_next(void) {
    unsigned length = answer_length - sent_length < PACKET ? answer_length - sent_length : PACKET;
    endpoint_zero_arm(answer + sent_length, length);
    is_sending = length == PACKET;
    sent_length += length;
}

void stack_reset(void) { EP0CS = 0, IN2CS = OUT2CS = 0; }

void stack_setup(const unsigned char setup[8]) {
    unsigned wanted = setup[6] | (unsigned)setup[7] << 8;
    memcpy((void *)&setup_data, setup, 8);
    EP0CS = 0, IN0BC = NOT_WRITTEN, SUDPTRL = SUDPTRH = 0, is_sending = false, sent_length = answer_length = 0;
    if (setup[0] == 0 && setup[1] == 5) {
        endpoint_zero_address_after_status(setup[2]);
        endpoint_zero_arm(answer, 0);
        return;
    }
    sudav_isr();
    if (EP0CS & EP0STALL) {
        endpoint_zero_stall();
    } else if (setup[0] & 0x80 && wanted) {
        if (IN0BC != NOT_WRITTEN) answer_length = IN0BC, memcpy(answer, (void *)IN0BUF, answer_length);
        else if (!copy_pointed_to()) return; /* nothing is armed: NAK */
        if (answer_length > wanted) answer_length = wanted;
        arm_next();
    } else if (EP0CS & HSNAK) {
        endpoint_zero_arm(answer, 0);
    }
}

void stack_sent(void) {
    if (is_sending) arm_next();
}

void stack_received(const unsigned char *data, unsigned length) { (void)data, (void)length; }
