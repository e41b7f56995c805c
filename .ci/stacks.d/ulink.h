/* In place of mcs51/compiler.h of SDCC: the registers of the 8051 and of the EZ-USB are variables. */
#pragma once
#include <stdint.h>
#define __xdata
#define __code
#define __interrupt(n)
#define SFR(name, place) extern volatile uint8_t name
#define SBIT(name, place, bit) extern volatile uint8_t name
#define SFRX(name, place) extern volatile uint8_t name
