/* The loop of a host that reads a device's file. */
#include "nozzlegorse_run.h"

struct nzg_answer nzg_bench_read(const struct nzg_bench_device *device, uint8_t speed, uint8_t *file, size_t room) {
    struct nzg_host host = {0};
    struct nzg_transaction due;
    struct nzg_trouble trouble = {0};
    nzg_host_open(&host, ADDRESS, NAKS, ATTEMPTS, speed);
    for (uint8_t action; (action = nzg_host_next(&host, &due)) != NZG_ENDED;) {
        struct nzg_packet packet = {.reply = NZG_SILENCE};
        if (action == NZG_RESET) {
            device->reset(device->context);
            nzg_host_reset_done(&host);
            continue;
        }
        device->transaction(device->context, &due, due.setup, 0, true, &packet);
        if (!nzg_host_take(&host, packet.reply, packet.toggle, packet.data, packet.length)) nzg_host_take(&host, NZG_SILENCE, 0, packet.data, 0);
        if (packet.reply == NZG_DATA) device->acked(device->context);
    }
    struct nzg_answer end = nzg_host_outcome(&host, &trouble, file, room);
    nzg_host_close(&host);
    return end;
}
