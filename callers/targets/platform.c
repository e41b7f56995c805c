#include "platform.h"

#ifndef POOL
#define POOL (2 << 20)
#endif
#include "pool.h"

/* --- memory ----------------------------------------------------------------------------------------------------------- */

struct memory memory_now(void) {
    return (struct memory){(uint32_t)pool_calls, (uint32_t)pool_live, (uint32_t)pool_held, (uint32_t)pool_peak};
}

void memory_allow(long requests) { pool_allowed = requests; }

/* --- the machine ------------------------------------------------------------------------------------------------------- */

#if defined __wasm__

FROM_HOST("put") void put(const char *text, uint32_t length);
FROM_HOST("stop") void stop(int status);

#elif defined __arm__ || defined __riscv

enum { OPEN = 1, CLOSE = 2, WRITE = 5, READ = 6, EXIT = 0x18, EXIT_EXTENDED = 0x20, APPLICATION_EXIT = 0x20026 };

#if defined __arm__
static long host(int call, void *words) {
    register long r0 __asm__("r0") = call;
    register void *r1 __asm__("r1") = words;
    __asm__ volatile("bkpt 0xab" : "+r"(r0) : "r"(r1) : "memory");
    return r0;
}
#else
static __attribute__((noinline)) long host(int call, void *words) {
    register long a0 __asm__("a0") = call;
    register void *a1 __asm__("a1") = words;
    __asm__ volatile(".option push\n.option norvc\n.balign 16\nslli x0, x0, 0x1f\nebreak\nsrai x0, x0, 7\n.option pop" : "+r"(a0) : "r"(a1) : "memory");
    return a0;
}
#endif

static uint32_t length_of(const char *text) {
    uint32_t length = 0;
    while (text[length]) length++;
    return length;
}

static long opened(const char *name, uint32_t mode) {
    uint32_t words[3] = {(uint32_t)name, mode, length_of(name)};
    return host(OPEN, words);
}

static void put(const char *text, uint32_t length) {
    static long out = -1;
    if (out < 0) out = opened(":tt", 4);
    uint32_t words[3] = {(uint32_t)out, (uint32_t)text, length};
    host(WRITE, words);
}

long read_file(const char *name, uint8_t *to, uint32_t room) {
    long file = opened(name, 1);
    if (file < 0) return -1;
    uint32_t words[3] = {(uint32_t)file, (uint32_t)to, room};
    long left = host(READ, words);
    host(CLOSE, words);
    return (long)room - left;
}

static void stop(int status) {
    uint32_t words[2] = {APPLICATION_EXIT, (uint32_t)status};
    host(EXIT_EXTENDED, words);
    host(EXIT, (void *)APPLICATION_EXIT);
    for (;;) {}
}

#else

#if defined __x86_64__
enum { READ = 0, WRITE = 1, OPEN = 2, CLOSE = 3, EXIT = 60 };
static long call(long number, long a, long b, long c) {
    long result;
    __asm__ volatile("syscall" : "=a"(result) : "a"(number), "D"(a), "S"(b), "d"(c) : "rcx", "r11", "memory");
    return result;
}
#else
enum { READ = 3, WRITE = 4, OPEN = 5, CLOSE = 6, EXIT = 1 };
static long call(long number, long a, long b, long c) {
    long result;
    __asm__ volatile("int $0x80" : "=a"(result) : "a"(number), "b"(a), "c"(b), "d"(c) : "memory");
    return result;
}
#endif

static void put(const char *text, uint32_t length) {
    while (length) {
        long done = call(WRITE, 1, (long)text, length);
        if (done <= 0) call(EXIT, 99, 0, 0);
        text += done;
        length -= (uint32_t)done;
    }
}

long read_file(const char *name, uint8_t *to, uint32_t room) {
    long file = call(OPEN, (long)name, 0, 0), length = 0, more;
    if (file < 0) return -1;
    while ((more = call(READ, file, (long)(to + length), (long)room - length)) > 0) length += more;
    call(CLOSE, file, 0, 0);
    return length;
}

static void stop(int status) {
    call(EXIT, status, 0, 0);
    for (;;) {}
}

#endif

/* --- texts ------------------------------------------------------------------------------------------------------------- */

static char out[4096];
static uint32_t waiting;

static void letter(char it) {
    if (waiting == sizeof out) {
        put(out, waiting);
        waiting = 0;
    }
    out[waiting++] = it;
}

void say(const char *text) {
    while (*text) letter(*text++);
}

void say_hex(const uint8_t *bytes, uint32_t length) {
    for (; length--; bytes++) {
        letter("0123456789abcdef"[*bytes >> 4]);
        letter("0123456789abcdef"[*bytes & 15]);
    }
}

void say_number(uint64_t number) {
    char digits[21];
    int at = sizeof digits - 1;
    digits[at] = 0;
    do digits[--at] = (char)('0' + number % 10);
    while (number /= 10);
    say(digits + at);
}

void say_hash(const uint8_t *bytes, uint64_t length) {
    uint32_t hash = 2166136261u;
    for (uint64_t i = 0; i < length; i++) hash = (hash ^ bytes[i]) * 16777619u;
    say(" #");
    say_number(hash);
}

/* --- the stack, and instructions ----------------------------------------------------------------------------------------- */

#if defined __wasm__

void paint(void) {}
uint32_t deepest(void) { return 0; }

#else

enum { PAINTED = 32768, PAINT = 0x5a };
static uint8_t *top;

__attribute__((noinline)) void paint(void) {
    volatile uint8_t *here = __builtin_frame_address(0);
    top = (uint8_t *)here;
    for (uint32_t i = 64; i < PAINTED; i++) *(here - i) = PAINT;
}

__attribute__((noinline)) uint32_t deepest(void) {
    uint32_t depth = PAINTED - 1;
    while (depth > 64 && *(volatile uint8_t *)(top - depth) == PAINT) depth--;
    return depth;
}

#endif

#if defined __arm__
/* SysTick counts down at 25 MHz; an instruction takes 1,024 nanoseconds. */
uint32_t ticks_now(void) {
    volatile uint32_t *systick = (volatile uint32_t *)0xe000e010;
    if (!systick[0]) {
        systick[1] = 0xffffff;
        systick[2] = 0;
        systick[0] = 5;
    }
    return ~systick[2] & 0xffffff;
}
#else
uint32_t ticks_now(void) { return 0; }
#endif

uint32_t instructions_since(uint32_t ticks) { return ((ticks_now() - ticks) & 0xffffff) * 10 / 256; }

/* --- the start ------------------------------------------------------------------------------------------------------------ */

int main(void);
void start(void);
void run(void);

#if defined __wasm__
__attribute__((export_name("start")))
#else
__attribute__((used))
#endif
void run(void) {
    int status = main();
    put(out, waiting);
    stop(status);
}

#if defined __arm__
extern uint8_t stack_top[];
__attribute__((section(".vectors"), used)) static void *const vectors[] = {stack_top, (void *)run, (void *)stop, (void *)stop};
#elif defined __riscv
__attribute__((naked, section(".vectors"))) void start(void) { __asm__("la sp, stack_top\n call run"); }
#elif defined __x86_64__
__attribute__((naked)) void start(void) { __asm__("andq $-16, %rsp\n call run"); }
#elif !defined __wasm__
__attribute__((naked)) void start(void) { __asm__("andl $-16, %esp\n call run"); }
#endif
