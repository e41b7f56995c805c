/* What the files of the trusted firmware use of it, in place of common/debug.h and others. */
#pragma once
#include <assert.h>
#include <stdbool.h>
#include <stddef.h>
#include <stdint.h>
#include <stdio.h>

#define ERROR(...) ((void)0)
#define INFO(...) ((void)0)
#define VERBOSE(...) ((void)0)
#define MIN(a, b) ((a) < (b) ? (a) : (b))
#define U(n) n##U
#define BIT(n) (1UL << (n))
#define GENMASK(high, low) (((1UL << ((high) - (low) + 1)) - 1) << (low))
#define ARRAY_SIZE(array) (sizeof(array) / sizeof((array)[0]))
#define STM32MP13 0
#define STM32MP15 1
#define USB_OTG_BASE 4
#define UID_WORD_NB 3
#define UID_OTP "uid_otp"
#define __WORD_BIT 32
#define STM32_SOC_NAME_SIZE 20
enum { BSEC_OK = 0, PHASE_SSBL = 3, PHASE_CMD = 0xf1, PHASE_RESET = 0xff };
static inline int stm32_get_otp_index(const char *name, uint32_t *index, uint32_t *bits) { return (void)name, *index = 0, *bits = 96, 0; }
static inline uint32_t bsec_shadow_read_otp(uint32_t *value, uint32_t word) { return *value = 0x12345678 + word, BSEC_OK; }
static inline void stm32mp_get_soc_name(char *name) { name[0] = 'S', name[1] = 0; }
static inline uint32_t stm32mp_get_chip_dev_id(void) { return 0x500; }
static inline uint32_t stm32mp_get_chip_version(void) { return 0x2001; }

struct usb_handle;
struct pcd_handle;
void stm32mp1_usb_init_driver(struct usb_handle *handle, struct pcd_handle *controller, void *registers);
