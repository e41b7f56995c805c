/* Loaded before the C library, this refuses one request for memory: the one of the number in REFUSED, from 1. It needs no header,
 * since the kit's compiler has none. */
typedef __SIZE_TYPE__ size_t;

char *getenv(const char *name);
unsigned long strtoul(const char *text, char **end, int base);
void *__libc_malloc(size_t count);
void *__libc_realloc(void *block, size_t count);

static int is_refused(void) {
    static unsigned long requests;
    const char *number = getenv("REFUSED");
    requests++;
    return number && requests == strtoul(number, 0, 10);
}

void *malloc(size_t count) {
    return is_refused() ? 0 : __libc_malloc(count);
}

void *realloc(void *block, size_t count) {
    return is_refused() ? 0 : __libc_realloc(block, count);
}
