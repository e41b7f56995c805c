/* The scripts of crates/test_ends/data: devices, hosts, transfers and writes of a host. The file `scripts` has them as
 * .ci/processors/scripts.py writes them: a step is its kind, how many bytes follow, in two bytes, and these. */
#include "steps.h"

static uint8_t script[1 << 18];
static struct nzg_device device;
static struct nzg_host host;
static struct nzg_transfer transfer;
static struct nzg_write writing;
static const uint8_t *written;
static uint32_t written_length;

static uint16_t word_at(const uint8_t *at) { return (uint16_t)(at[0] | at[1] << 8); }

static struct nzg_setup setup_at(const uint8_t *at) {
    struct nzg_setup setup;
    for (int i = 0; i < 8; i++) setup.bytes[i] = at[i];
    return setup;
}

/* An address, a stage, a toggle, whether the device is ready; then a request or data. */
static void serve(const uint8_t *at, uint32_t length) {
    struct nzg_transaction next = {at[0], at[1], at[2], {0}};
    struct nzg_packet packet = {0};
    bool is_setup = next.stage == NZG_SETUP;
    for (int i = 0; is_setup && i < 8; i++) next.setup[i] = at[4 + i];
    say_list("serve ", nzg_device_serve(&device, LENT, &next, at + 4, is_setup ? 0 : length - 4, at[3], &packet));
    say_packet(&packet);
}

static void say_request(const char *what, uint64_t is_there, const struct nzg_setup *setup) {
    say_list(what, is_there);
    say(" ");
    say_hex(setup->bytes, 8);
}

static void say_written(void) {
    struct nzg_setup setup = {0};
    struct nzg_answer answer = nzg_device_written(&device, kept, kept_length, &setup);
    say_answer("written", answer);
    say_request(" ", answer.status == NZG_DONE, &setup);
    if (answer.status == NZG_DONE) say_hash(kept, answer.length);
}

static void device_step(uint8_t kind, const uint8_t *at, uint32_t length) {
    struct nzg_setup setup = {0};
    if (kind == 'O') say_answer("open", new_device(&device, at + 1, length - 1, at[0]));
    if (kind == 'T') serve(at, length);
    if (kind == 'K') say_list("acked ", nzg_device_acked(&device, IMAGE));
    if (kind == 'R') nzg_device_reset(&device);
    if (kind == 'A') say_answer("with", nzg_device_answer_with(&device, kept, kept_length, at, length));
    if (kind == 'C') say_answer("accept", nzg_device_accept(&device, kept_length));
    if (kind == 'N') say_list("refuse ", nzg_device_refuse(&device, IMAGE));
    if (kind == 'F') say_request("refused ", nzg_device_refused(&device, &setup), &setup);
    if (kind == 'D') say_request("carried ", nzg_device_carried_out(&device, &setup), &setup);
    if (kind == 'W') say_written();
    say_state(&device);
}

/* An address, NAKs, attempts, a speed, whether there is a choice, and it. */
static void open_host(const uint8_t *at) {
    uint16_t naks = word_at(at + 1);
    if (at[5]) say_answer("host", nzg_host_open_with(&host, at[0], naks, at[3], at[4], at[6], at[7]));
    else say_answer("host", nzg_host_open(&host, at[0], naks, at[3], at[4]));
}

static void host_step(uint8_t kind, const uint8_t *at, uint32_t length) {
    struct nzg_transaction due = {0};
    if (kind == 'h') open_host(at);
    if (kind == 'd') say_list("reset ", nzg_host_reset_done(&host));
    if (kind == 'r') say_list("took ", nzg_host_take(&host, at[0], at[1], at + 2, length - 2));
    uint8_t action = nzg_host_next(&host, &due);
    say_list(" due ", action);
    say_due(&due);
    if (action == NZG_SEND || action == NZG_RESET) say("\n");
    else say_outcome(&host);
}

/* An address, a packet's size, NAKs and a request; then, where it is a write, the data. */
static void open_transfer(uint8_t kind, const uint8_t *at, uint32_t length) {
    struct nzg_setup setup = setup_at(at + 4);
    written = at + 12;
    written_length = length - 12;
    if (kind == 't') say_answer("transfer", nzg_transfer_open(&transfer, at[0], at[1], word_at(at + 2), &setup));
    else say_answer("write", nzg_write_open(&writing, at[0], at[1], word_at(at + 2), &setup));
}

static void transfer_step(uint8_t kind, const uint8_t *at, uint32_t length) {
    struct nzg_transaction due = {0};
    if (kind == 't' || kind == 'w') open_transfer(kind, at, length);
    if (kind == 'x') say_answer("took", nzg_transfer_take(&transfer, at[0], at[1], at + 2, length - 2));
    if (kind == 'y') say_answer("took", nzg_write_take(&writing, at[0], at[1], at + 2, length - 2));
    if (kind == 't' || kind == 'x') say_list(" due ", nzg_transfer_next(&transfer, &due));
    else say_answer(" due", nzg_write_next(&writing, written, written_length, &due));
    say_due(&due);
    say("\n");
}

void scripts(void) {
    long length = read_file("scripts", script, sizeof script);
    const uint8_t *at = script, *end = script + (length > 0 ? length : 0);
    while (at < end) {
        uint8_t kind = at[0];
        uint32_t follow = word_at(at + 1);
        at += 3;
        if (kind <= 'Z') device_step(kind, at, follow);
        else if (kind == 'h' || kind == 'd' || kind == 'r') host_step(kind, at, follow);
        else transfer_step(kind, at, follow);
        at += follow;
    }
    nzg_host_close(&host);
}
