/* Endpoint zero of the Arduino core for AVR (USBCore.cpp, PluggableUSB.cpp, as they are), with the two interfaces of a Leonardo's
 * serial line, over a model of the controller of an ATmega32U4. Its interrupt routine waits in loops for the controller; here it is a
 * coroutine, which goes on when a flag that it waits for is set. */
#include "nozzlegorse_bench.h"
#include <ucontext.h>
#include "Arduino.h" /* which packs the structs after it */

extern "C" {
extern const unsigned char stack_speed;
const unsigned char stack_speed = 2;
void USB_COM_vect(void);
struct nzg_bench_device device_under_test(void);
}
extern volatile uint8_t _usbConfiguration;

InterruptFlags UEINTX;
Fifo UEDATX;
Control UECONX;
Address UDADDR;
volatile uint8_t UENUM, UECFG0X, UECFG1X, UERST, UDINT, UDIEN, UDCON, PLLCSR, UHWCON, UEBCLX, UDFNUML, UEIENX, SREG, usbcon;

/* The bank of endpoint zero, and its flags: free is TXINI, holds_out RXOUTI, holds_setup RXSTPI. */
static struct {
    uint8_t address, bytes[64], length, toggle, out_toggle, setup[8], place;
    bool armed, free, holds_setup, holds_out, stalls;
} bank;
static ucontext_t of_bench, of_routine;
static bool is_running;
static char routine_stack[1 << 16];

static uint8_t flags() { return (uint8_t)(bank.free << TXINI | bank.holds_out << RXOUTI | bank.holds_setup << RXSTPI | 1 << RWAL); }

InterruptFlags::operator uint8_t() {
    if (UENUM) return 0;
    if (!bank.free && !bank.holds_out && !bank.holds_setup) swapcontext(&of_routine, &of_bench);
    return flags();
}

void InterruptFlags::operator=(uint8_t value) {
    if (UENUM) return;
    if (bank.holds_setup && !(value & 1 << RXSTPI)) { /* the bank of the SETUP is freed, and is there for IN */
        bank.holds_setup = false, bank.free = true, bank.length = 0;
        return;
    }
    if (bank.holds_out && !(value & 1 << RXOUTI)) bank.holds_out = false;
    if (bank.free && !(value & 1 << TXINI)) bank.free = false, bank.armed = true;
}

Fifo::operator uint8_t() { return bank.place < 8 ? bank.setup[bank.place++] : 0; }
void Fifo::operator=(uint8_t value) {
    if (!UENUM && bank.length < 64) bank.bytes[bank.length++] = value;
}
void Control::operator=(uint8_t value) {
    if (!UENUM && value & 1 << STALLRQ) bank.stalls = true;
}
void Address::operator=(uint8_t value) { bank.address = value & 0x7f; }

static void run_routine() {
    for (;;) {
        USB_COM_vect();
        is_running = false;
        swapcontext(&of_routine, &of_bench);
    }
}

/* Goes on in the routine until it waits or ends; a SETUP begins it anew. */
static void go_on() {
    if (bank.holds_setup && !is_running) {
        getcontext(&of_routine);
        of_routine.uc_stack.ss_sp = routine_stack, of_routine.uc_stack.ss_size = sizeof routine_stack, of_routine.uc_link = &of_bench;
        makecontext(&of_routine, run_routine, 0);
        is_running = true;
    }
    if (is_running && flags() & (1 << TXINI | 1 << RXOUTI | 1 << RXSTPI)) swapcontext(&of_bench, &of_routine);
    if (bank.holds_setup && !is_running) go_on();
}

static void reset(void *) {
    memset(&bank, 0, sizeof bank);
    is_running = false;
    _usbConfiguration = 0; /* as USB_GEN_vect does at the end of a reset, and nothing else of what is here */
}

static void take_setup(const nzg_transaction *sent) {
    memcpy(bank.setup, sent->setup, 8);
    bank.holds_setup = true, bank.holds_out = bank.armed = bank.stalls = bank.free = false;
    bank.toggle = bank.out_toggle = 1, bank.place = bank.length = 0;
    is_running = false; /* in favour of the firmware: a routine that still waits is given up */
}

static void answer_in(nzg_packet *reply) {
    reply->reply = bank.armed ? NZG_DATA : NZG_NAK;
    if (!bank.armed) return;
    reply->toggle = bank.toggle, reply->length = bank.length;
    memcpy(reply->data, bank.bytes, bank.length);
}

static void transaction(void *, const nzg_transaction *sent, const uint8_t *, size_t, bool ready, nzg_packet *reply) {
    memset(reply, 0, sizeof *reply);
    reply->reply = NZG_SILENCE;
    if (sent->address != bank.address) return;
    reply->reply = NZG_ACK;
    if (sent->stage == NZG_SETUP) take_setup(sent);
    else if (!ready) reply->reply = NZG_NAK;
    else if (bank.stalls) reply->reply = NZG_STALL;
    else if (sent->stage == NZG_IN) answer_in(reply);
    else if (sent->toggle == bank.out_toggle && bank.holds_out) reply->reply = NZG_NAK;
    else if (sent->toggle == bank.out_toggle) bank.holds_out = true, bank.out_toggle ^= 1;
    if (sent->stage != NZG_IN) go_on();
}

static void acked(void *) {
    bank.armed = false, bank.free = true, bank.length = 0, bank.toggle ^= 1;
    go_on();
}

struct nzg_bench_device device_under_test(void) { return {nullptr, reset, transaction, acked}; }

/* An interface of two, as CDC.cpp has them; class requests are refused, as where no line is plugged. */
static const CDCDescriptor interfaces = {
    D_IAD(0, 2, 2, 2, 0), D_INTERFACE(0, 1, 2, 2, 0), D_CDCCS(0, 0x10, 1), D_CDCCS(1, 1, 1), D_CDCCS4(2, 6), D_CDCCS(6, 0, 1), D_ENDPOINT(0x81, 3, 0x10, 0x40),
    D_INTERFACE(1, 2, 10, 0, 0), D_ENDPOINT(2, 2, 64, 0), D_ENDPOINT(0x83, 2, 64, 0),
};
int CDC_GetInterface(uint8_t *number) { return number[0] += 2, USB_SendControl(TRANSFER_PGM, &interfaces, sizeof interfaces); }
bool CDC_Setup(USBSetup &) { return false; }
