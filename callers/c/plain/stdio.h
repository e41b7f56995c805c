#include <stddef.h>
typedef struct file_of_c FILE;
extern FILE *stdin, *stdout;
FILE *fopen(const char *name, const char *mode);
size_t fread(void *to, size_t size, size_t count, FILE *from);
int fclose(FILE *file);
int fflush(FILE *file);
int printf(const char *format, ...);
int fprintf(FILE *to, const char *format, ...);
int snprintf(char *to, size_t room, const char *format, ...);
