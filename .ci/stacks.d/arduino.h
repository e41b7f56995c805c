/* What USBCore.cpp of the Arduino core for AVR uses of its machine, in place of Arduino.h: the registers of the USB controller of an
 * ATmega32U4 are objects, of endpoint zero alone. What they do is in arduino.cpp. */
#ifndef Arduino_h
#define Arduino_h
#include <stddef.h>
#include <stdint.h>
#include <stdlib.h>
#include <string.h>

struct InterruptFlags { operator uint8_t(); void operator=(uint8_t value); };
struct Fifo { operator uint8_t(); void operator=(uint8_t value); };
struct Control { void operator=(uint8_t value); };
struct Address { void operator=(uint8_t value); };
extern InterruptFlags UEINTX;
extern Fifo UEDATX;
extern Control UECONX;
extern Address UDADDR;
extern volatile uint8_t UENUM, UECFG0X, UECFG1X, UERST, UDINT, UDIEN, UDCON, PLLCSR, UHWCON, UEBCLX, UDFNUML, UEIENX, SREG, usbcon;
#define USBCON usbcon
enum {
    TXINI = 0, STALLEDI = 1, RXOUTI = 2, RXSTPI = 3, NAKOUTI = 4, RWAL = 5, NAKINI = 6, FIFOCON = 7, EPEN = 0, STALLRQ = 5, RSTDT = 3, EPDIR = 0,
    EPTYPE0 = 6, EPTYPE1 = 7, ADDEN = 7, SUSPI = 0, SOFI = 2, EORSTI = 3, WAKEUPI = 4, SUSPE = 0, SOFE = 2, EORSTE = 3, WAKEUPE = 4, RMWKUP = 1,
    OTGPADE = 4, FRZCLK = 5, USBE = 7, PLLE = 1, UVREGE = 0, PLOCK = 0, RXSTPE = 3, DETACH = 0, LSM = 2
};
#define PINDIV 4
#define EPRST6 6
#define ISR(vector) extern "C" void vector(void)
#define cli()
#define PROGMEM
#define pgm_read_byte(at) (*(const uint8_t *)(at))
#define pgm_read_word(at) (*(const uint16_t *)(at))
#define min(a, b) ((a) < (b) ? (a) : (b))
#define lowByte(w) ((uint8_t)((w) & 0xff))
#define RAMEND 0xaff
#define RAMSTART 0x100
#define TX_RX_LED_INIT
#define TXLED0
#define TXLED1
#define RXLED0
#define RXLED1
static inline void delay(unsigned long) {}
struct Print { virtual size_t write(uint8_t) { return 0; } virtual size_t write(const uint8_t *, size_t) { return 0; } virtual ~Print() {} };
struct Stream : Print { virtual int available() { return 0; } virtual int peek() { return 0; } virtual int read() { return 0; } virtual int availableForWrite() { return 0; } virtual void flush() {} };
/* As on AVR, structs have no gaps from here on. */
#pragma pack(1)
#include "USBAPI.h"
#endif
