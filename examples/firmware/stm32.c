/* The USB full-speed device peripheral of STM32 (F0, F1, F3, L0, L1, G4), by ST's reference manuals, RM0008 section 23 and RM0091 section
 * 30 among them. The board's clocks, the pull-up and the interrupt are board_start's.
 *
 * The peripheral keeps toggles, sends handshakes, and answers NAK where nothing is armed. So each packet is asked for before the
 * host's IN. A SETUP, which it always takes, clears what was armed. */
#include "stm32.h"

/* Registers, in bytes from the first: of endpoint n that at 4 n. */
enum { CNTR = 0x40, ISTR = 0x44, DADDR = 0x4c, BTABLE = 0x50 };
enum { RESET = 0x400, CORRECT = 0x8000, FORCED = 1, ENABLED = 0x80 };
/* Of an endpoint: a 1 toggles the STAT bits and DTOG_TX, a 0 clears the CTR flags, and the rest is written as it is. */
enum { CTR_RX = 0x8000, STAT_RX = 0x3000, IS_SETUP = 0x800, CTR_TX = 0x80, DTOG_TX = 0x40, STAT_TX = 0x30, WRITTEN = 0x70f };
enum { CONTROL = 0x200, INTERRUPT = 0x600, STALLED = 1, NAKED = 2, ARMED = 3 };
/* Packet memory: the table of buffers, an entry an endpoint, and the buffers. */
enum { IN_0 = 0x40, OUT_0 = 0x80, IN_1 = 0xc0, ENTRY = 8, IN_LENGTH = 2, OUT_LENGTH = 6, ROOM_OF_64 = 0x8400, PACKET = 64 };
enum { CLEAR_FEATURE = 1, SET_CONFIGURATION = 9, SET_INTERFACE = 11 };

static uint8_t setup[8], stage, armed, toggle;
static uint16_t left; /* bytes of the data stage that have not gone yet */
static bool is_read, is_due;

static void set_status(int number, uint16_t direction, uint16_t status) {
    uint16_t was = stm32_read(4 * number), wanted = direction == STAT_TX ? (uint16_t)(status << 4) : (uint16_t)(status << 12);
    stm32_write(4 * number, (was & WRITTEN) | CTR_RX | CTR_TX | ((was ^ wanted) & direction));
}

static void clear(int number, uint16_t flag) {
    stm32_write(4 * number, (stm32_read(4 * number) & WRITTEN) | ((CTR_RX | CTR_TX) & ~flag));
}

static void arm(int number, int place, const uint8_t *bytes, uint8_t length) {
    for (int i = 0; i < length; i += 2) stm32_put(place + i, (uint16_t)(bytes[i] | (i + 1 < length ? bytes[i + 1] << 8 : 0)));
    stm32_put(ENTRY * number + IN_LENGTH, length);
    set_status(number, STAT_TX, ARMED);
}

static void received(uint8_t *bytes, int length) {
    for (int i = 0; i < length; i++) bytes[i] = (uint8_t)(stm32_get(OUT_0 + i / 2 * 2) >> 8 * (i & 1));
}

/* Whether endpoint 1 begins anew with this request (9.1.1.5, 9.4.5). */
static bool is_new_beginning(void) {
    if (setup[1] == CLEAR_FEATURE) return setup[0] == 2 && setup[4] == 0x81;
    return (setup[0] == 0 && setup[1] == SET_CONFIGURATION) || (setup[0] == 1 && setup[1] == SET_INTERFACE);
}

/* It does so with DATA0, and with nothing armed. */
static void restart_reports(void) {
    stm32_write(4, INTERRUPT | 1 | (stm32_read(4) & DTOG_TX));
    set_status(1, STAT_TX, NAKED);
}

static void reset(void) {
    static const uint16_t TABLE[] = {IN_0, 0, OUT_0, ROOM_OF_64, IN_1, 0};
    stm32_write(BTABLE, 0);
    for (int i = 0; i < 6; i++) stm32_put(2 * i, TABLE[i]);
    stm32_write(0, CONTROL);
    set_status(0, STAT_TX, NAKED);
    set_status(0, STAT_RX, NAKED);
    restart_reports();
    stm32_write(DADDR, ENABLED);
    is_due = false;
}

void hardware_start(void) {
    board_start();
    stm32_write(CNTR, FORCED);
    stm32_write(CNTR, 0);
    stm32_write(ISTR, 0);
    stm32_write(CNTR, CORRECT | RESET);
}

static void has_transaction(struct hardware_event *event, uint8_t of_stage, uint8_t of_toggle) {
    event->kind = HARDWARE_TRANSACTION;
    event->transaction = (struct nzg_transaction){stm32_read(DADDR) & 0x7f, of_stage, of_toggle, {0}};
    stage = of_stage;
    is_due = false;
}

static void take_setup(struct hardware_event *event) {
    received(setup, 8);
    clear(0, CTR_RX);
    left = (uint16_t)(setup[6] | setup[7] << 8);
    is_read = left && setup[0] & 0x80;
    toggle = 1;
    has_transaction(event, NZG_SETUP, 0);
    for (int i = 0; i < 8; i++) event->transaction.setup[i] = setup[i];
}

/* The peripheral has compared the toggle, and acknowledged the packet. The first one has DATA1, and so has the status. */
static void take_out(struct hardware_event *event) {
    event->length = stm32_get(OUT_LENGTH) & 0x7f;
    received(event->data, event->length);
    clear(0, CTR_RX);
    set_status(0, STAT_TX, NAKED);
    has_transaction(event, NZG_OUT, is_read ? 1 : toggle);
    toggle ^= 1;
    left = event->length == PACKET && left > PACKET ? left - PACKET : 0;
}

/* The host has acknowledged what was armed. A packet that isn't whole ends the data stage (8.5.3.2). */
static void take_ack(struct hardware_event *event) {
    clear(0, CTR_TX);
    left = is_read && armed == PACKET && left > PACKET ? left - PACKET : 0;
    is_due = left;
    event->kind = HARDWARE_ACKED;
}

static bool has_flag(struct hardware_event *event) {
    uint16_t flags = stm32_read(0);
    if (flags & CTR_TX) take_ack(event); /* it came before what is pending with it */
    else if ((flags & (CTR_RX | IS_SETUP)) == (CTR_RX | IS_SETUP)) take_setup(event);
    else if (flags & CTR_RX) take_out(event);
    return flags & (CTR_TX | CTR_RX);
}

void hardware_wait(struct hardware_event *event) {
    event->length = 0;
    for (;; board_wait()) {
        if (stm32_read(ISTR) & RESET) {
            stm32_write(ISTR, (uint16_t)~RESET);
            reset();
            event->kind = HARDWARE_RESET;
            return;
        }
        if (has_flag(event)) return;
        if (is_due) {
            has_transaction(event, NZG_IN, 0);
            return;
        }
        if (stm32_read(4) & CTR_TX) {
            clear(1, CTR_TX);
            event->kind = HARDWARE_POLLED;
            return;
        }
    }
}

static bool is_given_up(void) { return (stm32_read(0) & (CTR_RX | IS_SETUP)) == (CTR_RX | IS_SETUP); }

static void answer(const struct nzg_packet *packet) {
    if (packet->reply == NZG_STALL) {
        set_status(0, STAT_TX, STALLED);
        set_status(0, STAT_RX, STALLED);
    } else if (stage == NZG_IN) {
        armed = packet->length;
        if (packet->reply == NZG_DATA) arm(0, IN_0, packet->data, packet->length);
    } else {
        if (stage == NZG_SETUP && is_new_beginning()) restart_reports();
        set_status(0, STAT_RX, ARMED);
        is_due = stage == NZG_SETUP ? is_read || !left : !is_read && !left;
    }
}

/* Nothing is armed for a request that the host has given up, nor stays so where its SETUP comes meanwhile: the host's next token is
 * three microseconds away at least. */
void hardware_answer(const struct nzg_packet *packet) {
    if (is_given_up()) return;
    answer(packet);
    if (!is_given_up()) return;
    set_status(0, STAT_TX, NAKED);
    set_status(0, STAT_RX, NAKED);
}

void hardware_address(uint8_t address) { stm32_write(DADDR, ENABLED | address); }

bool hardware_report(const uint8_t *bytes, uint8_t length) {
    if ((stm32_read(4) & STAT_TX) == ARMED << 4) return false;
    arm(1, IN_1, bytes, length);
    return true;
}
