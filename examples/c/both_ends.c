/* both_ends SPEED FATES < FILE: a host reads a device over a bus that loses, a letter of FATES a transaction: d it is lost,
 * u its reply, a the host's ACK; n the device is busy. SPEED is 1 low, 2 full, 3 high. Prints how it ended. */
#include <nozzlegorse.h>
#include <stdio.h>
#include <stdlib.h>
#include <string.h>

int main(int count, char **words) {
    static uint8_t file[1 << 16], image[1 << 18], kept[512], got[1 << 16];
    size_t length = fread(file, 1, sizeof file, stdin), fates = count == 3 ? strlen(words[2]) : 0, transactions = 0;
    struct nzg_device device = {0};
    struct nzg_host host = {0};
    struct nzg_transaction due;
    uint8_t action, speed = count == 3 ? (uint8_t)atoi(words[1]) : 0;
    struct nzg_answer made = nzg_device_image(file, length, speed, image, sizeof image);
    if (made.status || nzg_host_open(&host, 1, 16, 3, speed).status) return 2;
    while ((action = nzg_host_next(&host, &due)) != NZG_ENDED) {
        struct nzg_packet reply = {NZG_SILENCE, 0, 0, {0}};
        if (action == NZG_RESET) {
            nzg_device_reset(&device);
            nzg_host_reset_done(&host);
            continue;
        }
        char fate = transactions < fates ? words[2][transactions] : '.';
        transactions++;
        if (fate != 'd') nzg_device_serve(&device, image, made.length, kept, sizeof kept, &due, file, 0, fate != 'n', &reply);
        if (reply.reply == NZG_DATA && fate != 'u' && fate != 'a') nzg_device_acked(&device, image, made.length);
        nzg_host_take(&host, fate == 'u' ? NZG_SILENCE : reply.reply, reply.toggle, reply.data, reply.length);
    }
    struct nzg_trouble trouble = {0};
    uint8_t attempts = nzg_host_attempts(&host);
    struct nzg_answer end = nzg_host_outcome(&host, &trouble, got, sizeof got);
    printf("status %u number %u attempts %u transactions %zu\n", (unsigned)end.status, (unsigned)end.number, attempts, transactions);
    nzg_host_close(&host);
    return end.status != NZG_DONE || end.length != length || memcmp(got, file, length) != 0;
}
