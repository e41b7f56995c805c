/* A controller that isn't there: QEMU's semihosting reads what a host sends from the pipe `to_device` and writes the answers to
 * `from_device`, in the working directory. in_qemu.py is at their other end. */
#include "hardware.h"

enum { OPEN = 1, WRITE = 5, READ = 6, EXIT = 0x18 };
enum { TO_READ = 1, TO_WRITE = 5 };
enum { HEAD = 5, ANSWER = 3, REPORT_ROOM = 8 };

static long in, out;
static uint8_t address, report[REPORT_ROOM], report_length;
static bool is_setup;

#if defined __arm__
static long host(long call, void *words) {
    register long r0 __asm__("r0") = call;
    register void *r1 __asm__("r1") = words;
    __asm__ volatile("bkpt 0xab" : "+r"(r0) : "r"(r1) : "memory");
    return r0;
}
#else
static __attribute__((noinline)) long host(long call, void *words) {
    register long a0 __asm__("a0") = call;
    register void *a1 __asm__("a1") = words;
    __asm__ volatile(".option push\n.option norvc\n.balign 16\nslli x0, x0, 0x1f\nebreak\nsrai x0, x0, 7\n.option pop" : "+r"(a0) : "r"(a1) : "memory");
    return a0;
}
#endif

static long opened(const char *name, uint32_t length, uint32_t mode) {
    uint32_t words[3] = {(uint32_t)name, mode, length};
    return host(OPEN, words);
}

/* All of these bytes; the program ends with the pipe. */
static void get(uint8_t *to, uint32_t length) {
    while (length) {
        uint32_t words[3] = {(uint32_t)in, (uint32_t)to, length}, left = (uint32_t)host(READ, words);
        if (left >= length) host(EXIT, (void *)0x20026);
        to += length - left;
        length = left;
    }
}

static void put(const uint8_t *bytes, uint32_t length) {
    uint32_t words[3] = {(uint32_t)out, (uint32_t)bytes, length};
    host(WRITE, words);
}

void hardware_start(void) {
    in = opened("to_device", 9, TO_READ);
    out = opened("from_device", 11, TO_WRITE);
}

/* The kind, and of a transaction its address, stage, toggle and length, then its data. One for another address has no answer, and one
 * for endpoint 1, whose stage is 3, has the report. */
void hardware_wait(struct hardware_event *event) {
    uint8_t head[HEAD];
    for (;;) {
        get(head, HEAD);
        get(event->data, head[4]);
        event->kind = head[0];
        is_setup = head[2] == NZG_SETUP && head[1] == address;
        if (head[0] != HARDWARE_TRANSACTION) break;
        if (head[1] != address) {
            hardware_answer(&(struct nzg_packet){NZG_SILENCE, 0, 0, {0}});
            continue;
        }
        if (head[2] != 3) break;
        struct nzg_packet packet = {report_length ? NZG_DATA : NZG_NAK, 0, report_length, {0}};
        for (uint32_t i = 0; i < report_length; i++) packet.data[i] = report[i];
        report_length = 0;
        hardware_answer(&packet);
        event->kind = HARDWARE_POLLED;
        return;
    }
    event->transaction = (struct nzg_transaction){head[1], head[2], head[3], {0}};
    event->length = head[2] == NZG_OUT ? head[4] : 0;
    if (head[2] == NZG_SETUP)
        for (int i = 0; i < 8; i++) event->transaction.setup[i] = event->data[i];
}

void hardware_answer(const struct nzg_packet *packet) {
    put((const uint8_t[]){is_setup ? NZG_ACK : packet->reply, packet->toggle, packet->length}, ANSWER);
    if (packet->length) put(packet->data, packet->length);
}

void hardware_address(uint8_t to) { address = to; }

bool hardware_report(const uint8_t *bytes, uint8_t length) {
    if (report_length || length > REPORT_ROOM) return false;
    for (uint8_t i = 0; i < length; i++) report[i] = bytes[i];
    report_length = length;
    return true;
}
