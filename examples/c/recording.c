/* recording < FILE: the control transfers of a recording of a bus, and what USB 2.0 forbids in them. It ends in 1 where something is
 * found, and in 2 where the file is no recording to its end. */
#include <nozzlegorse.h>
#include <stdio.h>

static struct nzg_capture capture;
static int found;

static void show(uint8_t kind) {
    static const char *endings[] = {"no end", "done", "stall", "error", "refused"};
    static uint8_t data[65536]; /* as many as a control transfer has at most */
    struct nzg_recorded it;
    struct nzg_answer a;
    for (nzg_size n = 0; (a = nzg_capture_get(&capture, kind, n, &it, data, sizeof data)).status == NZG_DONE; n++) {
        if (kind == NZG_OF_REQUEST || kind == NZG_OF_PACKETS) {
            found = 1;
            printf("  ! %.*s\n", (int)a.length, (char *)data);
            continue;
        }
        printf("%u.%u", it.bus, it.device);
        for (int i = 0; i < 8; i++) printf(" %02x", it.setup[i]);
        printf(": %u bytes, %s\n", it.length, endings[it.ending]);
    }
}

int main(void) {
    static uint8_t piece[4096];
    struct nzg_answer a = nzg_capture_open(&capture);
    for (size_t len; a.status <= NZG_OPEN && (len = fread(piece, 1, sizeof piece, stdin)) > 0;)
        for (size_t at = 0; at < len && (a = nzg_capture_feed(&capture, piece + at, len - at)).status == NZG_OPEN; at += a.length)
            show(NZG_REQUEST), show(NZG_OF_REQUEST), show(NZG_OF_PACKETS);
    show(NZG_UNENDED);
    int is_read = a.status <= NZG_OPEN;
    if (!is_read) printf("fault %u at %lu\n", a.number, (unsigned long)a.place);
    else if ((a = nzg_capture_end(&capture)).length) printf("cut: %lu bytes at %lu\n", (unsigned long)a.length, (unsigned long)a.place);
    nzg_capture_close(&capture);
    return is_read ? found : 2;
}
