/* The library as such a stack, with the descriptors of a mouse. */
#include "stack.h"
#include <nozzlegorse.h>

static const uint8_t FILE[] = {18, 1, 0x10, 1, 0, 0, 0, 64, 0x34, 0x12, 0x78, 0x56, 0, 1, 0, 0, 0, 1, 9, 2, 34, 0, 1, 1, 0, 0xa0, 50,
                               9, 4, 0, 0, 1, 3, 1, 2, 0, 9, 0x21, 0x11, 1, 0, 1, 0x22, 50, 0, 7, 5, 0x81, 3, 4, 0, 10};
const unsigned char stack_speed = NZG_FULL;
static struct nzg_device device;
static uint8_t image[128], kept[2];
static nzg_size length;
static struct nzg_packet packet;

static void serve(uint8_t stage, uint8_t toggle, const uint8_t *setup) {
    struct nzg_transaction transaction = {0, stage, toggle, {0}};
    for (int i = 0; setup && i < 8; i++) transaction.setup[i] = setup[i];
    nzg_device_serve(&device, image, length, kept, sizeof kept, &transaction, FILE, 0, true, &packet);
}

static void arm(void) {
    serve(NZG_IN, 0, 0);
    if (packet.reply == NZG_DATA) endpoint_zero_arm(packet.data, packet.length);
    else endpoint_zero_stall();
}

void stack_reset(void) {
    if (!length) length = nzg_device_image(FILE, sizeof FILE, stack_speed, image, sizeof image).length;
    nzg_device_reset(&device);
}

void stack_setup(const unsigned char setup[8]) {
    serve(NZG_SETUP, 0, setup);
    arm();
}

void stack_sent(void) { nzg_device_acked(&device, image, length); }

void stack_received(const unsigned char *data, unsigned length) {
    (void)data, (void)length;
    serve(NZG_OUT, 1, 0);
}
