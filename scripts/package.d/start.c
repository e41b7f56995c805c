/* Where the program begins on a system for which the kit has no C code, and what it calls there: the words that it was given, its
 * environment, and what went wrong. The rest is in each C library. */
#include <stddef.h>

typedef void Ended(void);

int main(void);
int __libc_start_main(int (*)(void), int, char **, Ended *, Ended *, Ended *, void *);
int *__errno_location(void);
size_t strlen(const char *);
void *memcpy(void *, const void *, size_t);
void (*signal(int, void (*)(int)))(int);

static long count;
static char **words, **environment;

/* On both processors the count lies on top of the stack, then the words, a null pointer, and the environment. */
#ifdef __aarch64__
__asm__(".globl _start\n_start: mov x29, #0\nmov x30, #0\nmov x1, x0\nmov x0, sp\nbl begin\n");
#else
__asm__(".globl _start\n_start: xorl %ebp, %ebp\nmovq %rdx, %rsi\nmovq %rsp, %rdi\nandq $-16, %rsp\ncall begin\n");
#endif

__attribute__((used, visibility("hidden"))) void begin(void **stack, Ended *ended) {
    count = (long)stack[0];
    words = (char **)(stack + 1);
    environment = words + count + 1;
    __libc_start_main(main, (int)count, words, 0, 0, ended, stack);
}

/* A text goes to the start of the room whole: its length. Else the room is filled: -2. */
static long put(const char *text, char *room, size_t length) {
    size_t wanted = strlen(text);
    memcpy(room, text, wanted < length ? wanted : length);
    return wanted > length ? -2 : (long)wanted;
}

size_t rattle_arg_count(void);
size_t rattle_arg_count(void) { return (size_t)count; }

long rattle_arg(size_t index, char *room, size_t length);
long rattle_arg(size_t index, char *room, size_t length) { return index < (size_t)count ? put(words[index], room, length) : -1; }

long rattle_env_at(size_t index, char *room, size_t length);
long rattle_env_at(size_t index, char *room, size_t length) {
    size_t at = 0;
    while (environment[at] && at < index) at++;
    return environment[at] ? put(environment[at], room, length) : -1;
}

long rattle_env(const char *name, char *room, size_t length);
long rattle_env(const char *name, char *room, size_t length) {
    for (char **it = environment; *it; it++) {
        const char *here = *it, *there = name;
        while (*there && *here == *there) here++, there++;
        if (!*there && *here == '=') return put(here + 1, room, length);
    }
    return -1;
}

int rattle_errno(void);
int rattle_errno(void) { return *__errno_location(); }

void rattle_set_errno(int number);
void rattle_set_errno(int number) { *__errno_location() = number; }

/* System V's way is glibc's alone; what is ignored or left as it was is so in each. */
long __sysv_signal(int number, long handler);
long __sysv_signal(int number, long handler) { return (long)signal(number, (void (*)(int))handler); }
