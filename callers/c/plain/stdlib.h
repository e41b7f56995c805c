#include <stddef.h>
int atoi(const char *text);
void *malloc(size_t length);
void *calloc(size_t count, size_t length);
void free(void *at);
