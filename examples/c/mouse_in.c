/* mouse_in < FILE: the interrupt IN endpoint of the mouse. */
#include <nozzlegorse.h>
#include <stdio.h>

int main(void) {
    static uint8_t bytes[65536];
    size_t len = fread(bytes, 1, sizeof bytes, stdin);
    for (struct nzg_descriptor d = {0}; nzg_next(bytes, len, &d);) {
        if (d.role != NZG_ENDPOINT || d.class_ != 3 || d.protocol != 2 || (d.attributes & 3) != NZG_INTERRUPT || d.endpoint < 0x80) continue;
        printf("interface %u endpoint %02x, %u bytes, interval %u\n", d.interface_, d.endpoint, d.packet, d.interval);
        return 0;
    }
    return 1;
}
