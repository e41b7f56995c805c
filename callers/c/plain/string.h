#include <stddef.h>
size_t strlen(const char *text);
int memcmp(const void *a, const void *b, size_t length);
char *strchr(const char *text, int byte);
int strcmp(const char *a, const char *b);
void *memset(void *to, int byte, size_t length);
void *memcpy(void *to, const void *from, size_t length);
