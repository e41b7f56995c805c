/* A program that has a <usb.h> of its own uses the library too: no name of the one is a name of the other. */
#include <usb.h>
#include "hosted.h"

static const uint8_t set[] = {9, 2, 9, 0, 0, 1, 0, 0x80, 50};

int main(void) {
    struct usb_device theirs = {3};
    uint8_t text[64];
    struct nzg_answer shown = nzg_show(set, sizeof set, false, text, sizeof text);
    struct nzg_answer made = nzg_device_image(set, sizeof set, NZG_FULL, text, sizeof text);
    return !(usb_open(&theirs) == 3 && shown.status == NZG_DONE && shown.length > 0 && made.status == NZG_FILE_FAULT);
}
