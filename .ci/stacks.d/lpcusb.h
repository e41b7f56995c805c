/* What ubertooth_usb.c uses of its machine, in place of ubertooth.h. */
#pragma once
#include <stdint.h>
typedef uint8_t u8;
typedef uint16_t u16;
typedef uint32_t u32;
typedef struct { u8 bytes[64]; } usb_pkt_rx;
enum { KEEP_ALIVE = 4 };
void get_device_serial(u8 *buffer, int *length);
