/* Where the peripheral is. With STM32_MODEL the registers are those of stm32_model.c, for a test on a PC. */
#ifndef STM32_H
#define STM32_H
#include "hardware.h"

/* Of the board: before the peripheral is used; and until an interrupt of it is pending. */
void board_start(void);
void board_wait(void);

#if defined STM32_MODEL
uint16_t stm32_read(int place);
void stm32_write(int place, uint16_t value);
uint16_t stm32_get(int place);
void stm32_put(int place, uint16_t value);
#else
#if !defined STM32_STRIDE
#define STM32_STRIDE 2 /* halfwords from one word of packet memory to the next: 2 on F1, L1 and the small F3, else 1 */
#endif
/* Registers and packet memory, by their place in bytes as the manuals count them. */
static inline uint16_t stm32_read(int place) { return *(volatile uint16_t *)(0x40005c00u + (unsigned)place); }
static inline void stm32_write(int place, uint16_t value) { *(volatile uint16_t *)(0x40005c00u + (unsigned)place) = value; }
static inline uint16_t stm32_get(int place) { return *(volatile uint16_t *)(0x40006000u + (unsigned)place * STM32_STRIDE); }
static inline void stm32_put(int place, uint16_t value) { *(volatile uint16_t *)(0x40006000u + (unsigned)place * STM32_STRIDE) = value; }
#endif
#endif
