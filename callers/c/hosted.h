/* What the programs beside it have in common. */
#ifndef HOSTED_H
#define HOSTED_H
#include <nozzlegorse.h>
#include <stdio.h>
#include <stdlib.h>
#include <string.h>

/* The bytes of a file, at most `room` of them; -1 where it isn't there. */
static inline long read_all(const char *name, uint8_t *to, size_t room) {
    FILE *file = fopen(name, "rb");
    if (!file) return -1;
    size_t length = fread(to, 1, room, file);
    fclose(file);
    return (long)length;
}
#endif
