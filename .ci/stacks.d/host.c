/* A host's stack on the bench, before a device with the descriptors of a file: LOSSES WITHIN FILE. */
#include "nozzlegorse_bench.h"
#include "host.h"
#include <stdlib.h>
#include <string.h>

static struct nzg_bus *bus;

void bus_reset(void) { bus->reset(bus); }

void bus_send(const struct bus_transaction *sent, struct bus_packet *came) {
    struct nzg_transaction transaction = {sent->address, sent->stage, sent->toggle, {0}};
    struct nzg_packet packet = {.reply = NZG_SILENCE};
    memcpy(transaction.setup, sent->setup, sizeof transaction.setup);
    bus->send(bus, &transaction, sent->setup, 0, &packet);
    *came = (struct bus_packet){packet.reply, packet.toggle, packet.length, {0}};
    memcpy(came->data, packet.data, sizeof came->data);
}

static size_t enumerate(void *context, struct nzg_bus *given, uint8_t *file, size_t room) {
    (void)context, (void)room;
    bus = given;
    return host_enumerate(file);
}

int main(int argc, char **argv) {
    static uint8_t file[65536];
    FILE *from = argc < 4 ? NULL : fopen(argv[3], "rb");
    size_t length = from ? fread(file, 1, sizeof file, from) : 0;
    if (length < 27) return 2;
    struct nzg_bench bench = {.file = file, .len = length, .speed = NZG_FULL, .losses = (unsigned)atoi(argv[1]), .within = (unsigned)atoi(argv[2])};
    return !nzg_bench_host(&bench, enumerate, NULL, stdout);
}
