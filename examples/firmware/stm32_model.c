/* The peripheral's registers on a PC, as the manuals describe them, for a test of stm32.c. The host is in_qemu.py, by the pipes
 * `to_device` and `from_device` of the working directory. */
#include "stm32.h"
#include <fcntl.h>
#include <stdlib.h>
#include <string.h>
#include <unistd.h>

enum { CTR_RX = 0x8000, DTOG_RX = 0x4000, STAT_RX = 0x3000, IS_SETUP = 0x800, CTR_TX = 0x80, DTOG_TX = 0x40, STAT_TX = 0x30, WRITTEN = 0x70f };
enum { ISTR = 0x44, DADDR = 0x4c, ARMED = 3, REPORT = 3, HEAD = 5 };

static uint16_t registers[0x54 / 2], packets[256];
static int in, out;

uint16_t stm32_read(int place) { return registers[place / 2]; }
uint16_t stm32_get(int place) { return packets[place / 2]; }
void stm32_put(int place, uint16_t value) { packets[place / 2] = value; }

void stm32_write(int place, uint16_t value) {
    uint16_t *it = &registers[place / 2], toggled = value & (DTOG_RX | STAT_RX | DTOG_TX | STAT_TX);
    if (place >= 0x20) *it = place == ISTR ? *it & value : value;
    else *it = (((*it & ~WRITTEN) ^ toggled) & (value | ~(CTR_RX | CTR_TX))) | (value & WRITTEN);
}

static void get(void *to, size_t length) {
    for (uint8_t *at = to; length;) {
        ssize_t count = read(in, at, length);
        if (count <= 0) exit(0);
        at += count;
        length -= (size_t)count;
    }
}

static void reply(uint8_t kind, uint8_t toggle, const uint16_t *words, uint8_t length) {
    uint8_t bytes[3 + 64] = {kind, toggle, length};
    memcpy(bytes + 3, words, length);
    if (write(out, bytes, 3u + length) < 0) exit(1);
}

static int status_of(uint16_t bits, int shift) { return bits >> shift & 3; }
/* By STAT: disabled, STALL, NAK. */
static const uint8_t SAID[] = {NZG_SILENCE, NZG_STALL, NZG_NAK};

static void put_received(const uint8_t *data, uint8_t length) {
    memcpy(&packets[packets[2] / 2], data, length);
    packets[3] = (packets[3] & 0xfc00) | length;
}

static void setup(const uint8_t *data) {
    if (registers[0] & CTR_RX) {
        reply(NZG_SILENCE, 0, packets, 0);
        return;
    }
    put_received(data, 8);
    registers[0] = (registers[0] & (WRITTEN | CTR_TX)) | CTR_RX | IS_SETUP | DTOG_RX | DTOG_TX | 2 << 12 | 2 << 4;
    reply(NZG_ACK, 0, packets, 0);
}

static void take_out(uint8_t toggle, const uint8_t *data, uint8_t length) {
    int status = status_of(registers[0], 12);
    if (status != ARMED) {
        reply(SAID[status], 0, packets, 0);
        return;
    }
    reply(NZG_ACK, 0, packets, 0);
    if (toggle != (registers[0] & DTOG_RX ? 1 : 0)) return;
    put_received(data, length);
    registers[0] = ((registers[0] & ~(STAT_RX | IS_SETUP)) ^ DTOG_RX) | CTR_RX | 2 << 12;
}

static void sent(int number) { registers[2 * number] = ((registers[2 * number] & ~STAT_TX) ^ DTOG_TX) | CTR_TX | 2 << 4; }

static void give(int number) {
    uint16_t bits = registers[2 * number], place = packets[4 * number];
    int status = status_of(bits, 4);
    if (status != ARMED) reply(SAID[status], 0, packets, 0);
    else reply(NZG_DATA, bits & DTOG_TX ? 1 : 0, &packets[place / 2], (uint8_t)packets[4 * number + 1]);
    if (status == ARMED && number) sent(number);
}

/* A bus reset clears the endpoints but for their flags, and the address. */
static void reset(void) {
    for (int i = 0; i < 16; i += 2) registers[i] &= CTR_RX | CTR_TX;
    registers[DADDR / 2] = 0;
    registers[ISTR / 2] |= 0x400;
}

static void transaction(const uint8_t *head, const uint8_t *data) {
    if (registers[DADDR / 2] != (0x80 | head[1])) reply(NZG_SILENCE, 0, packets, 0);
    else if (head[2] == NZG_SETUP) setup(data);
    else if (head[2] == NZG_OUT) take_out(head[3], data, head[4]);
    else give(head[2] == REPORT);
}

void board_start(void) {
    in = open("to_device", O_RDONLY);
    out = open("from_device", O_WRONLY);
}

void board_wait(void) {
    uint8_t head[HEAD], data[255];
    get(head, HEAD);
    get(data, head[4]);
    if (head[0] == HARDWARE_RESET) reset();
    if (head[0] == HARDWARE_ACKED && status_of(registers[0], 4) == ARMED) sent(0);
    if (head[0] == HARDWARE_TRANSACTION) transaction(head, data);
}
