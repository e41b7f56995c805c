/* A device's stack on the bench, with the descriptors that a proved host reads of it, which it writes to FILE: LOSSES WITHIN FILE. Each
 * run has a process of its own, so that a crash is a difference. */
#include "nozzlegorse_bench.h"
#include "stack.h"
#include <stdlib.h>

struct nzg_bench_device device_under_test(void);
int is_first_read = 1;

int main(int argc, char **argv) {
    static uint8_t file[65536];
    struct nzg_bench_device device = device_under_test();
    struct nzg_answer read = nzg_bench_read(&device, stack_speed, file, sizeof file);
    FILE *to = argc < 4 || read.status != NZG_DONE ? NULL : fopen(argv[3], "wb");
    if (!to || fwrite(file, 1, read.length, to) != read.length || fclose(to)) {
        fprintf(stderr, "no descriptors are read and written: status %u, number %u\n", read.status, read.number);
        return 2;
    }
    is_first_read = 0;
    struct nzg_bench bench = {.file = file, .len = read.length, .speed = stack_speed, .losses = (unsigned)atoi(argv[1]), .within = (unsigned)atoi(argv[2])};
    return !nzg_bench_device_forked(&bench, &device, stdout);
}
