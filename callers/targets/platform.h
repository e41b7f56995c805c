/* What the programs beside it have of a machine: a text out, a file in, an end, memory whose requests are counted, and how deep the
 * stack went. By semihosting on Arm and RISC-V, which QEMU and debuggers answer; by Linux's calls on x86; by imports in WebAssembly. */
#ifndef PLATFORM_H
#define PLATFORM_H
#include <nozzlegorse.h>

#if defined __wasm__
#define FROM_HOST(name) __attribute__((import_module("host"), import_name(name)))
#else
#define FROM_HOST(name)
#endif

FROM_HOST("read_file") long read_file(const char *name, uint8_t *to, uint32_t room); /* -1 where there is none */
void say(const char *text);
void say_number(uint64_t number);
void say_hex(const uint8_t *bytes, uint32_t length);
/* The bytes as one number: FNV-1a of 32 bits. */
void say_hash(const uint8_t *bytes, uint64_t length);

struct memory { uint32_t calls, live, held, peak; };
struct memory memory_now(void);
void memory_allow(long requests); /* all where it is -1 */

void paint(void);       /* from here on deepest() counts */
uint32_t deepest(void); /* bytes of stack below the caller of paint(); 0 in WebAssembly */
/* Instructions since some moment, under QEMU's -icount shift=10 on a Cortex-M: wraps after 655,360. 0 elsewhere. */
uint32_t instructions_since(uint32_t ticks);
uint32_t ticks_now(void);
#endif
