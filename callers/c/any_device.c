/* any_device DEVICES: eight calls on each of so many devices of any numbers, with any image, any room and any data. Ends in 0 where each call
 * comes back, changes nothing where the bytes are no image, writes nothing past the room, and answers no more than there is. */
#define POOL (1 << 16)
#include "pool.h"
#include "hosted.h"

static uint32_t drawn = 1;

static uint32_t any(uint32_t below) {
    drawn = drawn * 1664525 + 1013904223;
    return (drawn >> 8) % below;
}

enum { PAST = 16 };

/* Bytes that are often small or large, and zeros past them. */
static uint8_t *some(size_t length) {
    uint8_t *made = calloc(length + PAST, 1);
    for (size_t i = 0; i < length; i++) made[i] = any(3) ? (uint8_t)any(256) : (uint8_t)(any(5) - 2);
    return made;
}

static bool is_zero_past(const uint8_t *made, size_t length) {
    static const uint8_t zeros[PAST];
    return !memcmp(made + length, zeros, PAST);
}

static size_t some_length(void) {
    static const uint16_t lengths[] = {0, 1, 2, 7, 8, 9, 16, 40, 64, 300, 700};
    return lengths[any(sizeof lengths / sizeof *lengths)];
}

static nzg_size some_number(void) { return any(2) ? any(80) : any(2) ? any(70000) : (nzg_size)-1 - any(70); }

/* Numbers of which no more is true than that flags are 0 or 1. */
static struct nzg_device some_device(void) {
    struct nzg_device device;
    uint8_t *bytes = some(sizeof device);
    memcpy(&device, bytes, sizeof device);
    free(bytes);
    device.settled = any(2), device.pending = any(2), device.state.wakeup = any(2);
    device.place = some_number(), device.count = some_number(), device.offset = some_number();
    device.stage = (uint8_t)any(any(4) ? 8 : 256), device.state.address = (uint8_t)any(2);
    return device;
}

/* Bytes that mostly begin with a head, and then with pieces. */
static uint8_t *some_image(size_t length) {
    uint8_t *image = some(length);
    const uint8_t head[8] = {0, 1, (uint8_t)(any(8) ? 1 + any(64) : any(256))};
    if (any(8)) memcpy(image, head, length < 8 ? length : 8);
    for (size_t at = 8; at + 8 < length && any(8); at += 8 + image[at + 4]) image[at] = (uint8_t)(1 + any(7)), memset(image + at + 1, 0, 7), image[at + 4] = (uint8_t)any(30);
    return image;
}

static struct nzg_transaction some_transaction(void) {
    struct nzg_transaction it = {(uint8_t)any(2), (uint8_t)any(any(8) ? 3 : 256), (uint8_t)any(any(8) ? 2 : 256), {0}};
    for (int i = 0; i < 8; i++) it.setup[i] = (uint8_t)(any(2) ? any(8) : any(256));
    if (any(2)) it.setup[0] = 0x80, it.setup[1] = 6;
    return it;
}

static bool has_head(const uint8_t *image, size_t length) {
    unsigned packet = length < 8 ? 0 : image[2] | (unsigned)image[3] << 8;
    return length >= 8 && !image[0] && image[1] == 1 && packet >= 1 && packet <= 64;
}

struct lent { uint8_t *image, *kept, *data; size_t image_len, kept_len, len; };

/* One call: whether it came to what it may. */
static bool is_called(struct nzg_device *device, const struct lent *lent) {
    struct nzg_transaction it = some_transaction();
    struct nzg_packet packet = {0}, came = {(uint8_t)any(6), (uint8_t)any(3), (uint8_t)any(70), {0}};
    struct nzg_open_transfer open = {(uint16_t)any(70), (uint16_t)any(70), (uint8_t)any(3), (uint8_t)any(7)};
    struct nzg_setup setup = {{0}};
    const struct nzg_device before = *device;
    bool is_image = has_head(lent->image, lent->image_len), is_done = true;
    memcpy(setup.bytes, it.setup, 8);
    switch (any(9)) {
    case 0: is_done = nzg_device_acked(device, lent->image, lent->image_len); break;
    case 1: is_done = nzg_device_refuse(device, lent->image, lent->image_len); break;
    case 2: is_done = nzg_judge_device(device, lent->image, lent->image_len, lent->kept, lent->kept_len, &open, &setup, &it, lent->data, lent->len, &came, &packet) != NZG_NOT_JUDGED; break;
    case 3: return nzg_device_answer_with(device, lent->kept, lent->kept_len, lent->data, lent->len).status != NZG_BAD_ARGUMENT;
    case 4: return nzg_device_accept(device, lent->kept_len).status != NZG_BAD_ARGUMENT;
    case 5: return nzg_device_written(device, lent->kept, lent->kept_len, &setup).length <= lent->kept_len;
    case 6: return nzg_device_refused(device, &setup) + nzg_device_carried_out(device, &setup) < 2;
    case 7: return nzg_device_reset(device), device->state.address == 0;
    default: is_done = nzg_device_serve(device, lent->image, lent->image_len, lent->kept, lent->kept_len, &it, lent->data, lent->len, any(8), &packet);
    }
    return is_done ? is_image && packet.length <= 64 : !memcmp(device, &before, sizeof before);
}

int main(int count, char **words) {
    for (int devices = count > 1 ? atoi(words[1]) : 0; devices > 0; devices--) {
        struct lent lent = {.image_len = some_length(), .kept_len = some_length(), .len = some_length()};
        lent.image = some_image(lent.image_len), lent.kept = some(lent.kept_len), lent.data = some(lent.len);
        struct nzg_device device = some_device();
        bool is_right = true;
        for (int i = 0; i < 8 && is_right; i++) is_right = is_called(&device, &lent);
        is_right = is_right && is_zero_past(lent.kept, lent.kept_len);
        free(lent.image), free(lent.kept), free(lent.data);
        if (!is_right || pool_calls) return 1;
    }
    return 0;
}
