/* both_ends FILE SPEED FATES [NAKS ATTEMPTS]: a host enumerates a device with the descriptors of FILE, both of the
 * library, over a bus of this program that loses packets. A fate is a letter, as for `usbdesc enumerate --fates`. Prints
 * the line that usbdesc does, and ends in 0 where the bytes that the host read are those of FILE, or in 1 after trouble.
 *
 * Memory is a fixed area that counts: the device asks for none, and no block is left at the end. */
#define POOL (1 << 26)
#include "pool.h"
#include "hosted.h"

static uint8_t file[1 << 20], image[1 << 22], kept[512], got[1 << 20];
static nzg_size image_len;
static long asked;

/* One transaction under its fate. */
static void exchange(struct nzg_host *host, struct nzg_device *device, const struct nzg_transaction *due, char fate) {
    struct nzg_packet packet = {NZG_SILENCE, 0, 0, {0}};
    if (fate == 'd') {
        nzg_host_take(host, NZG_SILENCE, 0, packet.data, 0);
        return;
    }
    long before = pool_calls;
    nzg_device_serve(device, image, image_len, kept, sizeof kept, due, file, 0, fate != 'n', &packet);
    if (packet.reply == NZG_DATA && fate != 'u' && fate != 'a') nzg_device_acked(device, image, image_len);
    asked += pool_calls - before;
    if (fate == 'u')
        nzg_host_take(host, NZG_SILENCE, 0, packet.data, 0);
    else
        nzg_host_take(host, packet.reply, packet.toggle, packet.data, packet.length);
}

/* Both ends to the end; how many transactions there were. */
static long run(struct nzg_host *host, struct nzg_device *device, const char *fates) {
    size_t known = strlen(fates);
    long transactions = 0;
    struct nzg_transaction due;
    for (;;) {
        switch (nzg_host_next(host, &due)) {
        case NZG_RESET:
            nzg_device_reset(device);
            nzg_host_reset_done(host);
            break;
        case NZG_SEND:
            exchange(host, device, &due, (size_t)transactions < known ? fates[transactions] : '.');
            transactions++;
            break;
        default:
            return transactions;
        }
    }
}

/* The word that usbdesc has for a step. */
static void print_step(const struct nzg_trouble *t) {
    static const char *words[] = {"", "first", "address", "device", "header %u", "set %u", "qualifier", "other_header %u", "other_set %u", "languages", "", "configure"};
    if (t->step == 10)
        printf("text %04x %02x", t->language, t->index);
    else
        printf(words[t->step], t->index);
}

int main(int argc, char **argv) {
    if (argc < 4) return 2;
    long length = read_all(argv[1], file, sizeof file);
    if (length < 0) return 2;
    uint8_t speed = (uint8_t)atoi(argv[2]);
    struct nzg_device device = {0};
    struct nzg_host host = {0};
    struct nzg_answer a = nzg_device_image(file, (size_t)length, speed, image, sizeof image);
    if (a.status) {
        printf("no device: status %u number %u place %zu\n", a.status, a.number, a.place);
        return 3;
    }
    image_len = a.length;
    a = nzg_host_open(&host, 1, argc > 4 ? (uint16_t)atoi(argv[4]) : 16, argc > 5 ? (uint8_t)atoi(argv[5]) : 3, speed);
    if (a.status) return 4;
    long transactions = run(&host, &device, argv[3]);
    struct nzg_trouble trouble = {0};
    uint8_t attempts = nzg_host_attempts(&host);
    a = nzg_host_outcome(&host, &trouble, got, sizeof got);
    nzg_host_close(&host);
    if (asked || pool_live) return 5;
    if (a.status == NZG_TROUBLE) {
        printf("trouble %u ", trouble.why);
        print_step(&trouble);
        printf(" attempts %u transactions %ld\n", attempts, transactions);
        return 1;
    }
    printf("success attempts %u transactions %ld address %u value %u\n", attempts, transactions, device.state.address, device.state.selected);
    return a.status || a.length != (size_t)length || memcmp(got, file, a.length) ? 6 : 0;
}
