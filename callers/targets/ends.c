/* Any hosts against a device, devices that fail against a host, and one transfer or write of a host against any answers. */
#include "steps.h"

static const uint8_t REQUESTS[][8] = {
    {0x80, 6, 0, 1, 0, 0, 18, 0},   {0x80, 6, 0, 1, 0, 0, 64, 0},   {0x80, 6, 0, 2, 0, 0, 255, 0}, {0x80, 6, 0, 2, 0, 0, 255, 255},
    {0x80, 6, 0, 2, 0, 0, 9, 0},    {0x80, 6, 0, 3, 0, 0, 255, 0},  {0x80, 6, 1, 3, 9, 4, 255, 0}, {0x80, 6, 2, 3, 9, 4, 2, 0},
    {0x80, 6, 0, 6, 0, 0, 10, 0},   {0x80, 6, 0, 7, 0, 0, 255, 0},  {0, 5, 7, 0, 0, 0, 0, 0},      {0, 9, 1, 0, 0, 0, 0, 0},
    {0, 9, 0, 0, 0, 0, 0, 0},       {0x80, 8, 0, 0, 0, 0, 1, 0},    {0x80, 0, 0, 0, 0, 0, 2, 0},   {0x81, 10, 0, 0, 0, 0, 1, 0},
    {1, 11, 1, 0, 0, 0, 0, 0},      {2, 3, 0, 0, 0x81, 0, 0, 0},    {2, 1, 0, 0, 0x81, 0, 0, 0},   {0x82, 0, 0, 0, 0x81, 0, 2, 0},
    {0, 3, 1, 0, 0, 0, 0, 0},       {0x81, 6, 0, 0x22, 0, 0, 255, 0}, {0x21, 10, 0, 0, 0, 0, 0, 0}, {0x21, 9, 0, 2, 0, 0, 8, 0},
    {0x40, 1, 2, 3, 4, 5, 20, 0},   {0xc0, 1, 2, 3, 4, 5, 70, 0},
};

void any_setup(uint8_t *setup) {
    const uint8_t *known = REQUESTS[any(sizeof REQUESTS / 8)];
    for (int i = 0; i < 8; i++) setup[i] = known[i];
    if (one_in(3)) fill(setup + any(8), 1);
    if (one_in(12)) fill(setup, 8);
}

void say_packet(const struct nzg_packet *packet) {
    say_list(" ", packet->reply);
    say_list(" ", packet->toggle);
    say_list(" ", packet->length);
    say(" ");
    say_hex(packet->data, packet->length <= 64 ? packet->length : 64);
}

static void say_setup(const uint8_t *setup) {
    say(" ");
    say_hex(setup, 8);
}

void say_due(const struct nzg_transaction *due) {
    say_list(" ", due->address);
    say_list(" ", due->stage);
    say_list(" ", due->toggle);
    say_setup(due->setup);
}

/* --- a device ---------------------------------------------------------------------------------------------------------- */

static uint8_t stage, toggle;

uint8_t image[LONGEST_IMAGE], kept[LONGEST_KEPT];
uint32_t image_length, kept_length;

struct nzg_answer new_device(struct nzg_device *device, const uint8_t *bytes, uint32_t length, uint8_t speed) {
    struct nzg_answer made = nzg_device_image(bytes, length, speed, image, sizeof image);
    image_length = made.status == NZG_DONE ? (uint32_t)made.length : 0;
    kept_length = sizeof kept;
    *device = (struct nzg_device){0};
    return made;
}

void say_state(const struct nzg_device *device) {
    const struct nzg_state *state = &device->state;
    say_list("state ", state->halts);
    say_list(" ", state->address);
    say_list(" ", state->selected);
    say_list(" ", state->wakeup);
    say_hash(state->alternates, sizeof state->alternates);
    say("\n");
}

/* The next transaction of a host that mostly keeps the order of a transfer. */
static uint32_t any_transaction(const struct nzg_device *device, struct nzg_transaction *next, uint8_t *data) {
    if (one_in(3)) stage = NZG_SETUP;
    else if (stage == NZG_SETUP || one_in(6)) stage = (uint8_t)(1 + any(2));
    if (one_in(200)) stage = (uint8_t)any(256);
    next->address = one_in(40) ? (uint8_t)any(256) : device->state.address;
    next->stage = stage;
    next->toggle = stage != NZG_OUT ? 0 : one_in(8) ? (uint8_t)any(3) : toggle;
    toggle ^= 1;
    if (stage == NZG_SETUP) {
        any_setup(next->setup);
        toggle = 1;
    }
    uint32_t length = stage != NZG_OUT || one_in(3) ? 0 : any(one_in(20) ? 81 : 65);
    fill(data, length);
    return length;
}

/* What an owner does with a request that the device refuses. */
static void answer_refused(struct nzg_device *device) {
    struct nzg_setup setup = {0};
    bool is_refused = nzg_device_refused(device, &setup);
    say_list(" refused ", is_refused);
    say_setup(setup.bytes);
    if (!is_refused && !one_in(20)) return;
    uint32_t length = any(one_in(10) ? 800 : 90), which = any(4);
    fill(room, length);
    if (which == 0) say_answer(" with", nzg_device_answer_with(device, kept, kept_length, room, length));
    if (which == 1) say_answer(" accept", nzg_device_accept(device, kept_length));
    if (which == 2) say_list(" refuse ", nzg_device_refuse(device, IMAGE));
}

/* And with a write that has come. */
static void take_written(struct nzg_device *device) {
    struct nzg_setup setup = {0};
    struct nzg_answer answer = nzg_device_written(device, kept, kept_length, &setup);
    say_answer(" written", answer);
    say_setup(setup.bytes);
    if (answer.status == NZG_DONE) {
        say_hash(kept, answer.length);
        if (one_in(2)) say_answer(" accept", nzg_device_accept(device, kept_length));
        else say_list(" refuse ", nzg_device_refuse(device, IMAGE));
    }
    say_list(" carried ", nzg_device_carried_out(device, &setup));
    say_setup(setup.bytes);
}

static void say_judged(struct nzg_device *device, const struct nzg_transaction *next, const uint8_t *data, uint32_t length) {
    struct nzg_setup request;
    struct nzg_open_transfer open = {(uint16_t)any(130), (uint16_t)any(130), (uint8_t)any(66), (uint8_t)any(6)};
    struct nzg_packet came = {0}, has = {0};
    came.reply = (uint8_t)any(5);
    came.toggle = (uint8_t)any(2);
    came.length = (uint8_t)any(65);
    any_setup(request.bytes);
    say_list("judged ", nzg_judge_device(device, LENT, &open, &request, next, data, length, &came, &has));
    say_packet(&has);
    if (one_in(2)) nzg_judge_acked(&open);
    say_list(" open ", open.acknowledged);
    say_list(" ", open.sent);
    say_list(" ", open.last);
    say_list(" ", open.stage);
    say("\n");
}

static void device_step(struct nzg_device *device) {
    struct nzg_transaction next = {0};
    struct nzg_packet packet = {0};
    uint8_t data[81];
    uint32_t length = any_transaction(device, &next, data);
    if (one_in(30)) say_judged(device, &next, data, length);
    say_list("serve ", nzg_device_serve(device, LENT, &next, data, length, !one_in(10), &packet));
    say_packet(&packet);
    if (packet.reply == NZG_DATA && !one_in(6)) say_list(" acked ", nzg_device_acked(device, IMAGE));
    if (one_in(3)) {
        answer_refused(device);
        take_written(device);
    }
    say("\n");
}

void device_steps(uint32_t length, uint8_t speed, uint32_t steps) {
    struct nzg_device device;
    struct nzg_answer made = new_device(&device, file, length, speed);
    say_answer("device", made);
    if (made.status == NZG_DONE) say_hash(image, made.length);
    say_list(" speed ", speed);
    if (one_in(3)) kept_length = any(LONGEST_KEPT + 1);
    say_list(" kept ", kept_length);
    say("\n");
    stage = NZG_SETUP;
    toggle = 1;
    if (made.status != NZG_DONE) steps = 5;
    for (uint32_t i = 0; i < steps; i++) {
        if (one_in(60)) nzg_device_reset(&device), say("reset\n");
        if (one_in(20)) say_state(&device);
        device_step(&device);
    }
}

/* --- a device of any numbers, any image and any room ---------------------------------------------------------------------- */

static void any_numbers(struct nzg_device *device) {
    fill((uint8_t *)device, sizeof *device);
    device->state.wakeup = one_in(2);
    device->settled = one_in(2);
    device->pending = one_in(2);
    device->stage = (uint8_t)any(one_in(9) ? 256 : 9);
    device->toggle = (uint8_t)any(one_in(9) ? 256 : 2);
    device->source = (uint8_t)any(one_in(9) ? 256 : 3);
    if (one_in(2)) device->place = any(image_length + 9);
    if (one_in(2)) device->count = any(300);
    if (one_in(2)) device->offset = any(300);
}

/* Of the image that is there some bytes are others, or it is cut. */
static void any_image(void) {
    if (!image_length) fill(image, image_length = 64);
    /* A version and a packet size as an image has them. */
    if (one_in(2)) image[0] = image[3] = 0, image[1] = 1, image[2] = (uint8_t)(1 + any(64));
    for (uint32_t i = any(8); image_length && i--;) image[any(image_length)] = (uint8_t)any(256);
    if (one_in(6)) image_length = any(image_length + 1);
    kept_length = any(LONGEST_KEPT + 1);
}

void any_device_steps(uint32_t steps) {
    struct nzg_device device;
    any_image();
    for (uint32_t i = 0; i < steps; i++) {
        if (!i || one_in(8)) any_numbers(&device);
        if (one_in(20)) say_state(&device);
        if (one_in(5)) answer_refused(&device);
        device_step(&device);
    }
}

/* --- how deep the stack goes ------------------------------------------------------------------------------------------------- */

/* A request, its answer by an owner where it is refused, its data and its status. */
static void deep_transfer(struct nzg_device *device, const uint8_t *request) {
    static const uint8_t DATA[8];
    struct nzg_transaction next = {device->state.address, NZG_SETUP, 1, {0}};
    struct nzg_packet packet;
    struct nzg_setup setup;
    for (int i = 0; i < 8; i++) next.setup[i] = request[i];
    DEEP("nzg_device_serve", nzg_device_serve(device, LENT, &next, DATA, 0, true, &packet));
    DEEP("nzg_device_refused", nzg_device_refused(device, &setup));
    DEEP("nzg_device_answer_with", nzg_device_answer_with(device, kept, kept_length, DATA, sizeof DATA));
    DEEP("nzg_device_accept", nzg_device_accept(device, kept_length));
    next.stage = NZG_OUT;
    if (request[0] < 0x80 && request[6]) DEEP("nzg_device_serve", nzg_device_serve(device, LENT, &next, DATA, sizeof DATA, true, &packet));
    DEEP("nzg_device_written", nzg_device_written(device, kept, kept_length, &setup));
    next.stage = NZG_IN;
    DEEP("nzg_device_serve", nzg_device_serve(device, LENT, &next, DATA, 0, true, &packet));
    DEEP("nzg_device_acked", nzg_device_acked(device, IMAGE));
    DEEP("nzg_device_carried_out", nzg_device_carried_out(device, &setup));
    DEEP("nzg_device_refuse", nzg_device_refuse(device, IMAGE));
}

void device_stacks(uint32_t length) {
    struct nzg_device device;
    DEEP("nzg_device_image", nzg_device_image(file, length, NZG_HIGH, image, sizeof image));
    new_device(&device, file, length, NZG_HIGH);
    DEEP("nzg_device_reset", nzg_device_reset(&device));
    for (uint32_t i = 0; i < sizeof REQUESTS / 8; i++) deep_transfer(&device, REQUESTS[i]);
}

/* --- a host -------------------------------------------------------------------------------------------------------------- */

static void say_step(struct nzg_host *host) {
    struct nzg_step step = {0};
    if (!nzg_host_step(host, &step)) return;
    say_list(" ", step.step);
    say_list(" ", step.index);
    say_list(" ", step.kept);
    say_list(" ", step.naks);
    say_list(" ", step.strikes);
    say_list(" ", step.language);
    say_setup(step.setup);
}

/* The device's answer, which a bus or the device itself spoils now and then. */
static void spoil(struct nzg_packet *packet, uint32_t trouble_in) {
    if (one_in(trouble_in)) packet->reply = (uint8_t)any(6);
    if (one_in(trouble_in)) packet->toggle = (uint8_t)any(3);
    if (one_in(trouble_in)) packet->length = (uint8_t)any(65);
    if (!one_in(trouble_in) || !packet->length) return;
    uint8_t *spoilt = &packet->data[any(packet->length)];
    *spoilt ^= (uint8_t)(1 << any(8));
}

static void exchange(struct nzg_host *host, struct nzg_device *device, const struct nzg_transaction *next, uint32_t trouble_in) {
    struct nzg_packet packet = {0};
    say("send");
    say_due(next);
    nzg_device_serve(device, LENT, next, file, 0, !one_in(9), &packet);
    if (packet.reply == NZG_DATA && !one_in(30)) nzg_device_acked(device, IMAGE);
    spoil(&packet, trouble_in);
    say_list(" took ", nzg_host_take(host, packet.reply, packet.toggle, packet.data, packet.length));
    say_step(host);
    say("\n");
}

static void say_forgiven(struct nzg_host *host) {
    struct nzg_trouble trouble = {0};
    for (uint32_t i = 0; i < 300 && nzg_host_forgiven(host, i, &trouble); i++) {
        say_list(" forgiven ", trouble.why);
        say_list(" ", trouble.step);
        say_list(" ", trouble.index);
        say_list(" ", trouble.language);
    }
}

void say_outcome(struct nzg_host *host) {
    struct nzg_trouble trouble = {0};
    struct nzg_answer answer = nzg_host_outcome(host, &trouble, room, ROOM);
    say_answer(" outcome", answer);
    say_list(" ", trouble.why);
    say_list(" ", trouble.step);
    say_list(" ", trouble.index);
    say_list(" ", nzg_host_attempts(host));
    if (answer.status == NZG_DONE) say_hash(room, answer.length);
    say_forgiven(host);
    say("\n");
}

/* A host of any choice, and sometimes of one that is none. */
static void open_with(struct nzg_host *host, uint8_t address, uint16_t naks, uint8_t attempts, uint8_t speed) {
    uint8_t strings = (uint8_t)any(4);
    say_answer("host", nzg_host_open_with(host, address, naks, attempts, speed, strings, one_in(2)));
}

void host_steps(uint32_t length, uint8_t speed, uint32_t trouble_in) {
    struct nzg_device device;
    struct nzg_host host = {0};
    new_device(&device, file, length, speed);
    uint8_t address = (uint8_t)any(129), attempts = (uint8_t)any(5);
    uint16_t naks = (uint16_t)any(5);
    if (one_in(2)) say_answer("host", nzg_host_open(&host, address, naks, attempts, speed));
    else open_with(&host, address, naks, attempts, speed);
    say("\n");
    for (uint32_t i = 0; i < 4000; i++) {
        struct nzg_transaction next = {0};
        uint8_t action = nzg_host_next(&host, &next);
        if (action != NZG_SEND && action != NZG_RESET) break;
        if (action == NZG_SEND) exchange(&host, &device, &next, trouble_in);
        else nzg_device_reset(&device), say_list("reset ", nzg_host_reset_done(&host)), say("\n");
    }
    say_outcome(&host);
    nzg_host_close(&host);
}

/* --- one transfer, one write ------------------------------------------------------------------------------------------------ */

/* An answer that fits the transaction, or sometimes any. */
static uint8_t any_reply(uint8_t of) {
    if (one_in(4)) return (uint8_t)any(6);
    return of == NZG_IN ? NZG_DATA : NZG_ACK;
}

static bool has_ended(struct nzg_answer answer) { return answer.status == NZG_DONE || answer.status == NZG_TROUBLE; }

static uint32_t any_data(uint8_t reply, uint8_t *data) {
    uint32_t length = reply == NZG_DATA ? any(70) : 0;
    fill(data, length);
    return length;
}

/* A transfer stays open from one to the next: what was there `_open` takes the place of. */
static struct nzg_transfer transfer;
static struct nzg_write writing;

void transfer_steps(void) {
    struct nzg_setup setup;
    uint8_t data[80];
    any_setup(setup.bytes);
    uint8_t address = (uint8_t)any(130), packet = (uint8_t)any(70);
    say_answer("transfer", nzg_transfer_open(&transfer, address, packet, (uint16_t)any(4), &setup));
    for (uint32_t i = 0; i < 40; i++) {
        struct nzg_transaction next = {0};
        if (!nzg_transfer_next(&transfer, &next)) break;
        say_list(" ", next.stage);
        say_list(",", next.toggle);
        uint8_t reply = any_reply(next.stage);
        uint32_t length = any_data(reply, data);
        struct nzg_answer answer = nzg_transfer_take(&transfer, reply, (uint8_t)any(one_in(9) ? 3 : 2), data, length);
        say_answer("", answer);
        if (has_ended(answer)) break;
    }
    say("\n");
}

void write_steps(void) {
    uint8_t data[256], wanted = (uint8_t)any(200), address = (uint8_t)any(130), packet = (uint8_t)any(70);
    struct nzg_setup setup = {{0x21, 9, 0, 2, 0, 0, wanted, 0}};
    if (one_in(9)) setup.bytes[0] = (uint8_t)any(256);
    fill(data, wanted);
    say_answer("write", nzg_write_open(&writing, address, packet, (uint16_t)any(4), &setup));
    for (uint32_t i = 0; i < 60; i++) {
        struct nzg_transaction next = {0};
        struct nzg_answer answer = nzg_write_next(&writing, data, one_in(50) ? wanted + 1 : wanted, &next);
        say_answer(" next", answer);
        if (answer.status != NZG_DONE) break;
        say_list(" ", next.stage);
        say_list(",", next.toggle);
        uint8_t in[80], reply = any_reply(next.stage);
        uint32_t length = next.stage == NZG_IN && !one_in(5) ? 0 : any_data(reply, in);
        answer = nzg_write_take(&writing, reply, (uint8_t)any(one_in(9) ? 3 : 2), in, length);
        say_answer("", answer);
        if (has_ended(answer)) break;
    }
    say("\n");
}
