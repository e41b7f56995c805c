/* A mouse. The library is its end of endpoint zero; what belongs to HID 1.11 is here: a report descriptor, SET_IDLE, SET_PROTOCOL,
 * and reports that move the pointer. */
#include "hardware.h"
#include "mouse.h" /* python3 -m nozzlegorse.image makes it of mouse.file */

enum { GET_DESCRIPTOR = 6, SET_IDLE = 10, SET_PROTOCOL = 11, REPORT = 0x22 };
enum { OF_INTERFACE_IN = 0x81, OF_CLASS_OUT = 0x21 };

/* HID 1.11, E.10: three buttons, X and Y. */
static const uint8_t REPORT_DESCRIPTOR[] = {
    0x05, 1, 0x09, 2, 0xa1, 1, 0x09, 1, 0xa1, 0, 0x05, 9, 0x19, 1, 0x29, 3, 0x15, 0, 0x25, 1, 0x95, 3, 0x75, 1, 0x81, 2, 0x95, 1, 0x75, 5,
    0x81, 1, 0x05, 1, 0x09, 0x30, 0x09, 0x31, 0x15, 0x81, 0x25, 0x7f, 0x75, 8, 0x95, 2, 0x81, 6, 0xc0, 0xc0};

_Static_assert(sizeof REPORT_DESCRIPTOR == 50, "as the HID descriptor in mouse.file says");

/* What the library keeps, and the room that it is lent for answers. */
static struct nzg_device device;
static uint8_t kept[sizeof REPORT_DESCRIPTOR];

/* A request that chapter 9 leaves to the class. The library has refused it, and takes this answer in place of that. False where it
 * stays refused. */
static bool answer_class(void) {
    struct nzg_setup refused;
    if (!nzg_device_refused(&device, &refused)) return true;
    const uint8_t *setup = refused.bytes;
    bool is_report = setup[0] == OF_INTERFACE_IN && setup[1] == GET_DESCRIPTOR && setup[3] == REPORT && !setup[4];
    bool is_set = setup[0] == OF_CLASS_OUT && (setup[1] == SET_IDLE || setup[1] == SET_PROTOCOL) && !setup[4] && !setup[6] && !setup[7];
    if (is_report) return nzg_device_answer_with(&device, kept, sizeof kept, REPORT_DESCRIPTOR, sizeof REPORT_DESCRIPTOR).status == NZG_DONE;
    return is_set && nzg_device_accept(&device, sizeof kept).status == NZG_DONE;
}

static void serve(const struct hardware_event *event) {
    struct nzg_packet packet;
    if (!nzg_device_serve(&device, mouse, MOUSE_LENGTH, kept, sizeof kept, &event->transaction, event->data, event->length, true, &packet)) packet.reply = NZG_SILENCE;
    if (event->transaction.stage == NZG_SETUP && !answer_class()) packet.reply = NZG_STALL;
    hardware_answer(&packet);
}

/* The pointer goes round a square. */
static void move(void) {
    static uint8_t step;
    static const int8_t WAYS[4][2] = {{4, 0}, {0, 4}, {-4, 0}, {0, -4}};
    const int8_t *way = WAYS[step / 16 % 4];
    if (hardware_report((const uint8_t[]){0, (uint8_t)way[0], (uint8_t)way[1]}, 3)) step++;
}

int main(void) {
    struct hardware_event event;
    hardware_start();
    for (;;) {
        hardware_wait(&event);
        if (event.kind == HARDWARE_RESET) nzg_device_reset(&device);
        if (event.kind == HARDWARE_ACKED) nzg_device_acked(&device, mouse, MOUSE_LENGTH);
        if (event.kind == HARDWARE_TRANSACTION) serve(&event);
        hardware_address(device.state.address);
        if (device.state.selected) move();
    }
}
