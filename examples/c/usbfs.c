/* usbfs DEVICE [read | test [--disturb] [--junit FILE]]: a device that is plugged into a Linux machine, as 1-1 of /sys/bus/usb/devices.
 *
 * read: a proved host reads its descriptors, and the descriptor file goes to standard output. A string that the device refuses or gives
 * wrongly is told, and empty in the file. test: the bench's talk (docs/bench.md), each
 * answer beside the proved device with these descriptors. What disturbs a device at work is asked with --disturb alone, which detaches
 * the drivers and attaches them again. The status is 1 where something differs, 2 where nothing can be said, 130 after Ctrl-C.
 *
 *     bench=$(pkg-config --variable=benchdir nozzlegorse)
 *     cc usbfs.c "$bench/nozzlegorse_talk.c" -I "$bench" $(pkg-config --cflags --libs nozzlegorse) -o usbfs
 *
 * usbfs makes whole control transfers, so an adapter answers the host's transactions from them. Resets, SET_ADDRESS and, but with
 * --disturb, SET_CONFIGURATION are not sent: the kernel has done that. */
#define _DEFAULT_SOURCE
#include <errno.h>
#include <fcntl.h>
#include <linux/usbdevice_fs.h>
#include <nozzlegorse_talk.h>
#include <poll.h>
#include <signal.h>
#include <stdarg.h>
#include <stdlib.h>
#include <string.h>
#include <sys/ioctl.h>
#include <unistd.h>

/* bRequest (table 9-4), features (table 9-6), and the limits of a host; LIMIT is in milliseconds (9.2.6) */
enum { GET_STATUS, CLEAR_FEATURE, SET_FEATURE = 3, SET_ADDRESS = 5, GET_DESCRIPTOR, SET_DESCRIPTOR, SET_CONFIGURATION = 9, SET_INTERFACE = 11, SYNCH_FRAME };
enum { HALT, WAKEUP, TEST_MODE, AT = 1, NAKS = 16, ATTEMPTS = 3, LIMIT = 5000, INTERFACES = 64, PARTS = 512 };
enum { STATUS_DIFFERS = 1, STATUS_BAD = 2, STATUS_STOPPED = 130 };

static volatile sig_atomic_t is_stopped;

/* A descriptor that was read: its type, index and language, and how many bytes came. */
struct part { uint8_t type, index; uint16_t language; size_t length; };
/* The device at usbfs, and the transfer that was made last, whose packets are given out one by one. */
struct plugged {
    const char *name;
    int file;
    uint8_t speed, selected; /* bConfigurationValue of the set that the kernel has selected */
    bool disturbs, is_detached, is_awake; /* what was asked for, and once no driver has it; whether remote wakeup was set */
    uint8_t packet;          /* bMaxPacketSize0, and 0 until it is read */
    uint8_t toggle;
    int error;               /* 0 or the errno that the transfer ended with */
    int kept_back;           /* the errno by which the kernel didn't make it, or 0 */
    size_t came, given;
    struct part parts[PARTS];
    size_t part_count;
    uint8_t bytes[8 + 65535]; /* the request, then the data that came */
};

static unsigned word(const uint8_t *at) { return at[0] | (unsigned)at[1] << 8; }

static void tell(const struct plugged *p, const char *format, ...) {
    va_list rest;
    va_start(rest, format);
    fprintf(stderr, "usbfs: %s: ", p->name);
    vfprintf(stderr, format, rest);
    va_end(rest);
}

/* --- words ---------------------------------------------------------------------------------------------------------- */

static const char *const REQUESTS[] = {"GET_STATUS", "CLEAR_FEATURE", NULL, "SET_FEATURE", NULL, "SET_ADDRESS", "GET_DESCRIPTOR", "SET_DESCRIPTOR", "GET_CONFIGURATION", "SET_CONFIGURATION", "GET_INTERFACE", "SET_INTERFACE", "SYNCH_FRAME"};
static const char *const SECTIONS[] = {"9.4.5", "9.4.1", NULL, "9.4.9", NULL, "9.4.6", "9.4.3", "9.4.8", "9.4.2", "9.4.7", "9.4.4", "9.4.10", "9.4.11"};
static const char *const TYPES[] = {NULL, "device", "configuration", "string", NULL, NULL, "qualifier", "other-speed configuration"};

static void write_descriptor(char text[60], unsigned type, unsigned index, unsigned language) {
    int at = type < 8 && TYPES[type] ? snprintf(text, 60, "%s %u", TYPES[type], index) : snprintf(text, 60, "type 0x%02x index %u", type, index);
    if (language) snprintf(text + at, 60 - (size_t)at, " in %04x", language);
}

/* A request in words, as `GET_STATUS of endpoint 0x81`. */
static void write_request(char text[120], const uint8_t q[8], bool is_in_address) {
    unsigned value = word(q + 2), index = word(q + 4), length = word(q + 6), kind = q[0] & 0x1f;
    char whom[60] = "the device", what[60] = "";
    if (kind) snprintf(whom, sizeof whom, kind == 1 ? "interface %u" : kind == 2 ? "endpoint 0x%02x" : "recipient %u", kind < 3 ? index : kind);
    if (q[1] == GET_DESCRIPTOR) write_descriptor(whom, value >> 8, value & 0xff, index);
    if (q[1] == CLEAR_FEATURE || q[1] == SET_FEATURE) snprintf(what, sizeof what, kind == 2 && value == HALT ? " halt" : kind == 0 && value == WAKEUP ? " remote wakeup" : " %u", value);
    if (q[1] == SET_CONFIGURATION || q[1] == SET_INTERFACE) snprintf(what, sizeof what, " %u", value);
    const char *name = q[1] <= SYNCH_FRAME ? REQUESTS[q[1]] : NULL;
    int at = name ? snprintf(text, 120, "%s%s of %s", name, what, whom) : snprintf(text, 120, "request %u of %s", q[1], whom);
    if (q[1] == GET_DESCRIPTOR || !name) at += snprintf(text + at, 120 - (size_t)at, ", %u byte%s", length, length == 1 ? "" : "s");
    if (is_in_address) snprintf(text + at, 120 - (size_t)at, ", in Address");
}

/* --- usbfs --------------------------------------------------------------------------------------------------------------- */

/* What the kernel says of the device in /sys, or "" where there is no such file. */
static void read_said(const struct plugged *p, const char *below, const char *name, char said[32]) {
    char path[160];
    snprintf(path, sizeof path, "/sys/bus/usb/devices/%s%s/%s", p->name, below, name);
    int file = open(path, O_RDONLY);
    ssize_t length = file < 0 ? 0 : read(file, said, 31);
    said[length > 0 ? length : 0] = 0;
    said[strcspn(said, "\n")] = 0;
    if (file >= 0) close(file);
}

static int said_number(const struct plugged *p, const char *below, const char *name) {
    char said[32];
    read_said(p, below, name, said);
    return atoi(said);
}

/* No class or vendor request, SET_ADDRESS, SET_DESCRIPTOR or TEST_MODE is ever sent, nor a halt of endpoint zero, which a reset alone
 * ends. With wLength 0 bit 7 of bmRequestType means nothing (9.3.4), so bRequest says what disturbs. */
static bool may_be_sent(const struct plugged *p, const uint8_t q[8]) {
    bool is_standard = !(q[0] & 0x60) && q[1] != SET_ADDRESS && q[1] != SET_DESCRIPTOR;
    bool tests = q[1] == SET_FEATURE && word(q + 2) == TEST_MODE, halts_zero = q[1] == SET_FEATURE && (q[0] & 0x1f) == 2 && !(q[4] & 0x0f);
    bool reads = q[0] & 0x80 && q[1] != CLEAR_FEATURE && q[1] != SET_FEATURE && q[1] != SET_CONFIGURATION && q[1] != SET_INTERFACE;
    return is_standard && !tests && !halts_zero && (reads || (p->is_detached && !word(q + 6)));
}

static bool is_gone(const struct plugged *p) { return p->error == ENODEV || p->error == ESHUTDOWN; }

/* One control transfer, which takes at most 5 s (9.2.6). */
static void make_transfer(struct plugged *p, const uint8_t q[8]) {
    struct usbdevfs_urb urb = {.type = USBDEVFS_URB_TYPE_CONTROL, .buffer = p->bytes, .buffer_length = (int)(8 + word(q + 6))}, *reaped;
    struct pollfd done = {p->file, POLLOUT, 0};
    memcpy(p->bytes, q, 8);
    p->error = p->kept_back = 0, p->came = 0;
    if (!may_be_sent(p, q)) p->kept_back = p->error = EPERM;
    else if (ioctl(p->file, USBDEVFS_SUBMITURB, &urb)) p->kept_back = p->error = errno;
    if (p->kept_back) return;
    if ((q[0] & 0x1f) == 0 && word(q + 2) == WAKEUP && (q[1] == SET_FEATURE || q[1] == CLEAR_FEATURE)) p->is_awake = q[1] == SET_FEATURE;
    int ready, failed;
    while ((ready = poll(&done, 1, LIMIT)) < 0 && errno == EINTR && !is_stopped) continue;
    if (ready <= 0) ioctl(p->file, USBDEVFS_DISCARDURB, &urb);
    while ((failed = ioctl(p->file, USBDEVFS_REAPURB, &reaped)) && errno == EINTR) continue;
    /* ENOENT is of a transfer that was given up: after 5 s, or since the device is gone. */
    p->error = failed ? errno : urb.status != -ENOENT ? -urb.status : ready > 0 ? ENODEV : ETIMEDOUT;
    if (!failed && urb.actual_length > 0) p->came = (size_t)urb.actual_length;
}

/* No remote wakeup is left, which SET_CONFIGURATION doesn't end. */
static void sleep_again(struct plugged *p) {
    const uint8_t off[8] = {0, CLEAR_FEATURE, WAKEUP};
    if (p->is_awake && !is_gone(p)) make_transfer(p, off);
}

/* --- the adapter ----------------------------------------------------------------------------------------------------- */

struct reply { uint8_t kind, toggle; const uint8_t *data; size_t len; };

/* Of a descriptor that is read twice, the longer one. */
static void note_part(struct plugged *p) {
    const uint8_t *q = p->bytes;
    struct part it = {q[3], q[2], (uint16_t)word(q + 4), p->came};
    size_t i = 0;
    if (q[1] != GET_DESCRIPTOR || p->error) return;
    if (!p->packet && it.type == 1 && it.length >= 8) p->packet = q[8 + 7];
    while (i < p->part_count && (p->parts[i].type != it.type || p->parts[i].index != it.index || p->parts[i].language != it.language)) i++;
    if (i == PARTS || (i < p->part_count && p->parts[i].length >= it.length)) return;
    p->parts[i] = it;
    if (i == p->part_count) p->part_count++;
}

/* A SETUP: the transfer is made here. What the kernel has done is answered as done. */
static void begin(struct plugged *p, const uint8_t q[8]) {
    p->given = 0, p->toggle = 1;
    if (q[1] == SET_ADDRESS || (q[1] == SET_CONFIGURATION && !p->is_detached)) {
        memcpy(p->bytes, q, 8);
        p->error = p->kept_back = 0, p->came = 0;
        return;
    }
    make_transfer(p, q);
    note_part(p);
}

/* What comes back of a transaction: the packets that came, then how the transfer ended. What is left of an ended one is a handshake. */
static struct reply answer(struct plugged *p, const struct nzg_transaction *it) {
    static const uint8_t too_long[65];
    if (it->stage == NZG_SETUP) {
        begin(p, it->setup);
        return (struct reply){NZG_ACK, 0, p->bytes, 0};
    }
    size_t packet = p->packet == 16 || p->packet == 32 || p->packet == 64 ? p->packet : 8, left = p->came - p->given;
    if (it->stage == NZG_IN && p->error == EOVERFLOW) return (struct reply){NZG_DATA, p->toggle, too_long, packet + 1};
    if (it->stage == NZG_IN && (left || !p->error)) {
        struct reply next = {NZG_DATA, p->toggle, p->bytes + 8 + p->given, left < packet ? left : packet};
        p->given += next.len, p->toggle ^= 1;
        return next;
    }
    uint8_t kind = !p->error ? NZG_ACK : p->error == EPIPE ? NZG_STALL : p->error == ETIMEDOUT ? NZG_NAK : NZG_SILENCE;
    return (struct reply){kind, 0, p->bytes, 0};
}

/* --- read -------------------------------------------------------------------------------------------------------------- */

static void tell_parts(const struct plugged *p) {
    char text[60];
    fprintf(stderr, "; read so far: ");
    for (size_t i = 0; i < p->part_count; i++) {
        write_descriptor(text, p->parts[i].type, p->parts[i].index, p->parts[i].language);
        fprintf(stderr, "%s%s, %zu bytes", i ? "; " : "", text, p->parts[i].length);
    }
    fprintf(stderr, p->part_count ? "\n" : "nothing\n");
}

static void write_step(char text[40], unsigned step, unsigned index, unsigned language) {
    static const char *const words[] = {"", "first", "address", "device", "header %u", "set %u", "qualifier", "other_header %u", "other_set %u", "languages", NULL, "configure"};
    if (step == 10) snprintf(text, 40, "text %04x %02x", language, index);
    else snprintf(text, 40, step < 12 ? words[step] : "", index);
}

/* Why an enumeration ended at a step, by what usbfs said of its last transfer. */
static void tell_why(const struct plugged *p, const char *step) {
    if (is_gone(p)) tell(p, "unplugged at %s", step);
    else tell(p, "%s at %s", strerror(p->error), step);
    tell_parts(p);
}

static const char *const TROUBLES[] = {"", "NoAnswer", "Busy", "Stalled", "TooLong", "Unexpected", "Malformed", "Memory"};

/* What the device did not give of the strings. */
static void tell_forgiven(const struct plugged *p, struct nzg_host *host) {
    struct nzg_trouble it;
    char step[40];
    for (nzg_size i = 0; nzg_host_forgiven(host, i, &it); i++) {
        write_step(step, it.step, it.index, it.language);
        tell(p, "passed over: trouble %u (%s) in %s\n", it.why, TROUBLES[it.why], step);
    }
}

/* How a host ended: its file, to be freed, or NULL. */
static uint8_t *file_of(const struct plugged *p, struct nzg_host *host, size_t *len) {
    struct nzg_trouble trouble = {0};
    char step[40];
    uint8_t none, *file = NULL;
    struct nzg_answer end = nzg_host_outcome(host, &trouble, &none, 0);
    if (end.status == NZG_NO_ROOM && (file = malloc(end.length))) end = nzg_host_outcome(host, &trouble, file, end.length);
    *len = end.length;
    if (end.status == NZG_DONE) return file;
    write_step(step, trouble.step, trouble.index, trouble.language);
    if (end.status == NZG_TROUBLE) tell(p, "trouble %u (%s) in %s%s", end.number, TROUBLES[end.number < 8 ? end.number : 0], step, p->error == ETIMEDOUT ? ": no answer within 5 s (9.2.6)" : "");
    else tell(p, "out of memory");
    tell_parts(p);
    free(file);
    return NULL;
}

/* A proved host enumerates the device by the adapter: the file that it read, or NULL after a line that says why. */
static uint8_t *read_file(struct plugged *p, size_t *len) {
    struct nzg_host host = {0};
    struct nzg_transaction due;
    char step[40] = "its start";
    bool goes_on = nzg_host_open_with(&host, AT, NAKS, ATTEMPTS, p->speed, NZG_WANTED, true).status == NZG_DONE;
    for (uint8_t action; goes_on && (action = nzg_host_next(&host, &due)) != NZG_ENDED;) {
        struct nzg_step it = {0};
        if (action == NZG_RESET) {
            p->packet = 0;
            nzg_host_reset_done(&host);
            continue;
        }
        nzg_host_step(&host, &it);
        write_step(step, it.step, it.index, it.language);
        struct reply back = answer(p, &due);
        goes_on = !is_stopped && !is_gone(p) && !p->kept_back && nzg_host_take(&host, back.kind, back.toggle, back.data, back.len);
    }
    if (!goes_on && !is_stopped) tell_why(p, step);
    if (goes_on) tell_forgiven(p, &host);
    uint8_t *file = goes_on ? file_of(p, &host, len) : NULL;
    nzg_host_close(&host);
    return file;
}

static int read_device(struct plugged *p) {
    size_t len;
    uint8_t *file = read_file(p, &len);
    if (!file) return STATUS_BAD;
    fwrite(file, 1, len, stdout);
    free(file);
    return 0;
}

/* --- drivers ----------------------------------------------------------------------------------------------------------- */

/* The interfaces of the selected set: whether there is one, whether it is claimed, and the driver that it had. */
struct interface { bool is_there, is_ours; char driver[USBDEVFS_MAXDRIVERNAME + 1]; };

static void find_interfaces(const struct plugged *p, const uint8_t *file, size_t len, struct interface all[INTERFACES]) {
    uint8_t value = 0;
    for (struct nzg_descriptor d = {0}; nzg_next(file, len, &d);) {
        if (d.role == NZG_CONFIGURATION) value = file[d.place + 5];
        if (d.role == NZG_INTERFACE && d.part == 1 && value == p->selected && d.interface_ < INTERFACES) all[d.interface_].is_there = true;
    }
    for (unsigned i = 0; i < INTERFACES; i++) {
        struct usbdevfs_getdriver it = {.interface = i};
        if (all[i].is_there && !ioctl(p->file, USBDEVFS_GETDRIVER, &it)) memcpy(all[i].driver, it.driver, sizeof it.driver);
    }
}

/* Claims what no driver has, and with --disturb all, which detaches their drivers; not that of another program at usbfs. */
static bool claim(const struct plugged *p, struct interface all[INTERFACES]) {
    for (unsigned i = 0; i < INTERFACES; i++) {
        struct usbdevfs_disconnect_claim it = {i, USBDEVFS_DISCONNECT_CLAIM_EXCEPT_DRIVER, "usbfs"};
        if (!all[i].is_there) continue;
        all[i].is_ours = p->disturbs ? !ioctl(p->file, USBDEVFS_DISCONNECT_CLAIM, &it) : !all[i].driver[0] && !ioctl(p->file, USBDEVFS_CLAIMINTERFACE, &i);
        if (all[i].is_ours || !p->disturbs) continue;
        tell(p, "interface %u: %s\n", i, errno == EBUSY ? "another program has it" : strerror(errno));
        return false;
    }
    return true;
}

/* The kernel selects the set again, where the device was disturbed, so that both ends agree on toggles and settings; then each driver
 * gets its interface. */
static void give_back(const struct plugged *p, const struct interface all[INTERFACES]) {
    unsigned selected = p->selected;
    for (unsigned i = 0; i < INTERFACES; i++)
        if (all[i].is_ours) ioctl(p->file, USBDEVFS_RELEASEINTERFACE, &i);
    if (!p->disturbs || is_gone(p)) return;
    if (p->is_detached && ioctl(p->file, USBDEVFS_SETCONFIGURATION, &selected)) tell(p, "configuration %u is not selected again: %s\n", selected, strerror(errno));
    for (unsigned i = 0; i < INTERFACES; i++) {
        struct usbdevfs_ioctl it = {(int)i, USBDEVFS_CONNECT, NULL};
        if (all[i].is_ours && all[i].driver[0] && ioctl(p->file, USBDEVFS_IOCTL, &it) < 0 && errno != EBUSY) tell(p, "interface %u: %s is not attached again: %s\n", i, all[i].driver, strerror(errno));
    }
}

/* --- test ---------------------------------------------------------------------------------------------------------------- */

/* Why requests of the talk are not asked. */
enum why { ASKED, OF_CLASS, OF_KERNEL, OF_RESET, CUT, UNSPECIFIED, DISTURBING, DRIVEN, UNKNOWN, UNREACHED, WHYS };
static const char *const WHY[] = {
    [OF_CLASS] = "of a class or a vendor", [OF_KERNEL] = "resets and SET_ADDRESS, which the kernel makes", [OF_RESET] = "whose end is sure by a reset alone",
    [CUT] = "that end early: usbfs makes whole transfers", [UNSPECIFIED] = "that chapter 9 leaves open", [DISTURBING] = "that disturb a device at work: --disturb",
    [DRIVEN] = "of interfaces that a driver has: --disturb", [UNKNOWN] = "that the kernel keeps back, of interfaces and endpoints that aren't there", [UNREACHED] = "in a state that the device refuses",
};
/* A request that was asked in a state, and how its answer differs, if it does. */
struct asked { struct nzg_setup setup; bool is_in_address; char text[400]; };
struct test {
    struct plugged *at;
    struct nzg_device proved;
    uint8_t *image, kept[512]; /* what its calls are lent */
    size_t image_len;
    struct nzg_open_transfer open;
    uint8_t packet, wanted; /* wanted: the set that is selected where both are led */
    bool is_apart;
    struct asked *asked;
    size_t asked_count, requests, differences;
    unsigned left_out[WHYS];
    uint8_t due[65535];
};

/* A transfer at the proved device alone: whether it refuses it, and the bytes that come. */
static bool ask_proved(struct test *t, const uint8_t q[8], size_t *len) {
    struct nzg_transfer transfer;
    struct nzg_transaction next;
    struct nzg_setup setup;
    memcpy(setup.bytes, q, 8);
    *len = 0;
    nzg_transfer_open(&transfer, t->proved.state.address, t->packet, NAKS, &setup);
    while (nzg_transfer_next(&transfer, &next)) {
        struct nzg_packet back;
        nzg_device_serve(&t->proved, t->image, t->image_len, t->kept, sizeof t->kept, &next, q, 0, true, &back);
        if (back.reply == NZG_DATA) nzg_device_acked(&t->proved, t->image, t->image_len);
        size_t new = nzg_transfer_take(&transfer, back.reply, back.toggle, back.data, back.length).length;
        memcpy(t->due + *len, back.data, new);
        *len += new;
    }
    return transfer.stage == NZG_FAILED;
}

/* Leads the proved device, or both, to a state: with an address, this set selected and nothing else. */
static bool lead(struct test *t, bool are_both) {
    const uint8_t select[8] = {0, SET_CONFIGURATION, t->wanted}, move[8] = {0, SET_ADDRESS, AT};
    size_t len;
    if (are_both) sleep_again(t->at);
    if (are_both) make_transfer(t->at, select);
    if (are_both && t->at->error) return false;
    nzg_device_reset(&t->proved);
    ask_proved(t, move, &len);
    if (t->wanted) ask_proved(t, select, &len);
    t->is_apart = false;
    return true;
}

/* The settings that drivers have selected, in the proved device. */
static void follow_settings(struct test *t, const struct interface all[INTERFACES]) {
    for (unsigned i = 0; i < INTERFACES; i++) {
        char below[32];
        size_t len;
        snprintf(below, sizeof below, ":%u.%u", t->at->selected, i);
        uint8_t choose[8] = {1, SET_INTERFACE, (uint8_t)(all[i].is_there ? said_number(t->at, below, "bAlternateSetting") : 0), 0, (uint8_t)i};
        if (choose[2]) ask_proved(t, choose, &len);
    }
}

/* Plays the transfer at the proved device, which judges each packet of the adapter: the number of a difference, or 0; no answer within
 * 5 s is one. Where one device does what the other may refuse, they are apart. */
static uint8_t judge(struct test *t, const struct nzg_setup *request) {
    struct nzg_transfer transfer;
    struct nzg_transaction next;
    nzg_transfer_open(&transfer, AT, t->packet, NAKS, request);
    while (nzg_transfer_next(&transfer, &next)) {
        struct reply back = answer(t->at, &next);
        struct nzg_packet came = {.reply = back.kind, .toggle = back.toggle, .length = (uint8_t)back.len}, has = {0};
        if (is_stopped || is_gone(t->at) || t->at->kept_back) return 0;
        memcpy(came.data, back.data, back.len < sizeof came.data ? back.len : sizeof came.data);
        uint8_t difference = nzg_judge_device(&t->proved, t->image, t->image_len, t->kept, sizeof t->kept, &t->open, request, &next, back.data, 0, &came, &has);
        t->is_apart = came.reply != has.reply;
        if (difference) return difference;
        if (came.reply == NZG_DATA) {
            nzg_device_acked(&t->proved, t->image, t->image_len);
            nzg_judge_acked(&t->open);
        }
        nzg_transfer_take(&transfer, back.kind, back.toggle, back.data, back.len);
    }
    return t->at->error == ETIMEDOUT ? NZG_ADDRESS : 0;
}

/* Bytes, or of many how many and the first that are others, where others are known. */
static void write_bytes(char text[120], const uint8_t *bytes, size_t len, const uint8_t *others, size_t other_len) {
    size_t first = 0, at = 0;
    bool is_short = len <= 18 && other_len <= 18;
    if (!is_short && !other_len) first = len;
    while (!is_short && first < len && first < other_len && bytes[first] == others[first]) first++;
    if (!is_short || !len) at = (size_t)snprintf(text, 120, "%zu bytes", len);
    if (!is_short && first < len) at += (size_t)snprintf(text + at, 120 - at, ", at %zu", first);
    for (size_t i = first; i < len && i < first + 18; i++) at += (size_t)snprintf(text + at, 120 - at, "%s%02x", at ? " " : "", bytes[i]);
}

/* How the answer to a request differs from what is due: both in words, and the section. */
static void write_difference(struct test *t, const uint8_t q[8], char text[400]) {
    const struct plugged *p = t->at;
    const char *ends = p->error == EPIPE ? "STALL" : p->error == ETIMEDOUT ? "no answer within 5 s" : p->error == EOVERFLOW ? "too many bytes" : p->error ? "no answer" : "done";
    char came[120], due[120] = "done";
    bool reads = q[0] & 0x80 && word(q + 6);
    size_t len = 0;
    /* What is read changes nothing, so that it is asked again; another request is carried out once. */
    bool is_refused = reads ? ask_proved(t, q, &len) : !p->error;
    snprintf(came, sizeof came, p->came && p->error ? "%s after %zu bytes" : "%s", ends, p->came);
    if (reads && !p->error) write_bytes(came, p->bytes + 8, p->came, t->due, len);
    if (reads) write_bytes(due, t->due, len, p->bytes + 8, p->error ? 0 : p->came);
    snprintf(text, 400, "%s; due is %s (%s)", came, is_refused ? "STALL" : due, q[1] <= SYNCH_FRAME && SECTIONS[q[1]] ? SECTIONS[q[1]] : "9.2.7");
}

/* The entry of a request in this state, which is a new one where it was not asked before. */
static struct asked *entry_of(struct test *t, const struct nzg_setup *setup, bool is_in_address) {
    size_t i = 0;
    while (i < t->asked_count && (t->asked[i].is_in_address != is_in_address || memcmp(&t->asked[i].setup, setup, sizeof *setup))) i++;
    if (i == t->asked_count) t->asked[t->asked_count++] = (struct asked){*setup, is_in_address, ""};
    return &t->asked[i];
}

static enum why why_not(const struct test *t, const struct nzg_bench_request *it, bool is_in_address) {
    const uint8_t *q = it->setup.bytes;
    if (q[0] & 0x60) return OF_CLASS;
    if (q[1] == SET_ADDRESS) return OF_KERNEL;
    if (it->cut) return CUT;
    if (nzg_bench_unspecified(is_in_address ? IN_ADDRESS : IN_CONFIGURED, q)) return UNSPECIFIED;
    if (may_be_sent(t->at, q)) return ASKED;
    return t->at->disturbs || (q[1] == SET_FEATURE && (q[0] & 0x1f) == 2 && !(q[4] & 0x0f)) ? OF_RESET : DISTURBING;
}

static bool was_asked(const struct test *t, const struct nzg_setup *setup) {
    for (size_t i = 0; i < t->asked_count; i++)
        if (!memcmp(&t->asked[i].setup, setup, sizeof *setup)) return true;
    return false;
}

/* Asks both devices, and says where they differ. */
static void ask(struct test *t, const struct nzg_bench_request *it) {
    const uint8_t *q = it->setup.bytes;
    bool is_in_address = !t->wanted;
    enum why why = why_not(t, it, is_in_address);
    if (!why && t->is_apart && !lead(t, true)) why = UNREACHED;
    if (is_stopped || is_gone(t->at)) return;
    /* SET_CONFIGURATION may lead both there again. */
    if (why == UNREACHED && q[1] == SET_CONFIGURATION) t->wanted = q[2];
    if (!why && !t->at->disturbs && was_asked(t, &it->setup)) return;
    uint8_t difference = why ? 0 : judge(t, &it->setup);
    if (!why && (is_stopped || is_gone(t->at))) return;
    if (!why && t->at->kept_back) why = t->at->kept_back == EBUSY ? DRIVEN : UNKNOWN;
    t->left_out[why]++;
    if (why) return;
    t->requests++;
    struct asked *entry = entry_of(t, &it->setup, is_in_address);
    if (difference && !entry->text[0]) {
        char words[120];
        write_difference(t, q, entry->text);
        write_request(words, q, is_in_address);
        printf("%s: %s\n", words, entry->text);
        t->differences++;
    }
    if (!t->is_apart && q[1] == SET_CONFIGURATION) t->wanted = t->proved.state.selected;
    t->is_apart = t->is_apart && !(q[0] & 0x80);
}

static void talk(struct test *t, const struct nzg_bench_request *all, size_t count) {
    for (size_t i = 0; i < count && !is_stopped && !is_gone(t->at) && t->at->error != ETIMEDOUT; i++) {
        if (!all[i].is_reset) ask(t, &all[i]);
        else t->left_out[OF_KERNEL]++;
        if (all[i].is_reset && t->at->disturbs) t->wanted = 0, t->is_apart = true;
    }
}

/* The report as JUnit has it. Its texts have no character that XML writes otherwise. */
static bool write_junit(const struct test *t, const char *why, const char *name) {
    FILE *out = fopen(name, "w");
    if (!out) return false;
    fprintf(out, "<?xml version=\"1.0\" encoding=\"UTF-8\"?>\n<testsuite name=\"nozzlegorse.usbfs %s\" tests=\"%zu\" failures=\"%zu\" errors=\"%d\" skipped=\"0\">\n", t->at->name, t->asked_count + !!why, t->differences, !!why);
    for (size_t i = 0; i < t->asked_count; i++) {
        char words[120];
        write_request(words, t->asked[i].setup.bytes, t->asked[i].is_in_address);
        fprintf(out, "  <testcase classname=\"nozzlegorse.usbfs.%s\" name=\"%s\"", t->at->name, words);
        if (t->asked[i].text[0]) fprintf(out, ">\n    <failure message=\"%s\"/>\n  </testcase>\n", t->asked[i].text);
        else fprintf(out, "/>\n");
    }
    if (why) fprintf(out, "  <testcase classname=\"nozzlegorse.usbfs.%s\" name=\"the rest\">\n    <error message=\"%s\"/>\n  </testcase>\n", t->at->name, why);
    fprintf(out, "</testsuite>\n");
    return !fclose(out);
}

static void print_count(size_t count, const char *what) { printf("%zu %s%s", count, what, count == 1 ? "" : "s"); }

/* The end of a test: what was not asked, how many requests were, and why no more were. */
static int end_test(const struct test *t, const char *junit) {
    const struct plugged *p = t->at;
    const char *why = is_stopped ? "stopped" : is_gone(p) ? "unplugged" : p->error == ETIMEDOUT ? "it hangs: no answer within 5 s (9.2.6)" : NULL;
    for (int i = 1; i < WHYS; i++)
        if (t->left_out[i]) printf("not asked: %u %s\n", t->left_out[i], WHY[i]);
    printf("%s: ", p->name);
    if (t->differences) print_count(t->differences, "difference");
    else printf("as the proved device");
    printf(" in ");
    print_count(t->requests, "request");
    printf("\n");
    if (why) tell(p, "%s; asked so far: %zu\n", why, t->requests);
    bool is_written = !junit || write_junit(t, why, junit);
    if (!is_written) tell(p, "%s: %s\n", junit, strerror(errno));
    return is_stopped ? STATUS_STOPPED : why || !is_written ? STATUS_BAD : t->differences ? STATUS_DIFFERS : 0;
}

/* What breaks the rules of chapter 9, where no device has these descriptors. */
static int tell_findings(const struct plugged *p, const uint8_t *file, size_t len) {
    static struct nzg_finding found[1000];
    struct nzg_answer all = nzg_findings(file, len, found, 1000);
    uint8_t words[300];
    for (size_t i = 0; all.status == NZG_DONE && i < all.length; i++)
        printf("descriptors: V%u at %zu: %.*s\n", found[i].rule, found[i].place, (int)nzg_finding_text(file, len, &found[i], words, sizeof words).length, (char *)words);
    printf("%s: no device of this speed has these descriptors, so nothing was asked\n", p->name);
    return STATUS_DIFFERS;
}

static int run_talk(struct test *t, const uint8_t *file, size_t len, const char *junit) {
    struct interface all[INTERFACES] = {{0}};
    struct nzg_bench_request *requests = calloc(NZG_BENCH_TALK, sizeof *requests);
    int status = STATUS_BAD;
    t->packet = file[7], t->wanted = t->at->selected, t->asked = calloc(NZG_BENCH_TALK, sizeof *t->asked);
    find_interfaces(t->at, file, len, all);
    if (!requests || !t->asked) tell(t->at, "out of memory\n");
    else if (claim(t->at, all)) {
        t->at->is_detached = t->at->disturbs;
        lead(t, false);
        follow_settings(t, all);
        t->is_apart = t->at->disturbs;
        talk(t, requests, nzg_bench_talk(file, len, requests));
        status = end_test(t, junit);
    }
    signal(SIGINT, SIG_IGN), signal(SIGTERM, SIG_IGN), signal(SIGHUP, SIG_IGN);
    sleep_again(t->at);
    give_back(t->at, all);
    free(requests), free(t->asked);
    return status;
}

/* The image of the descriptors, from which the proved device answers. */
static struct nzg_answer make_image(struct test *t, const uint8_t *file, size_t len) {
    struct nzg_answer wanted = nzg_device_image(file, len, t->at->speed, t->kept, 0);
    if (wanted.status != NZG_NO_ROOM) return wanted;
    t->image_len = wanted.length, t->image = malloc(t->image_len);
    if (!t->image) return (struct nzg_answer){.status = NZG_NO_MEMORY};
    return nzg_device_image(file, len, t->at->speed, t->image, t->image_len);
}

static int test_device(struct plugged *p, const char *junit) {
    static struct test t;
    size_t len;
    uint8_t *file = read_file(p, &len);
    if (!file) return STATUS_BAD;
    t.at = p;
    struct nzg_answer made = make_image(&t, file, len);
    int status = made.status == NZG_DONE ? run_talk(&t, file, len, junit) : made.status == NZG_DESCRIPTION_FAULT ? tell_findings(p, file, len) : STATUS_BAD;
    if (made.status == NZG_NO_MEMORY) tell(p, "out of memory\n");
    free(t.image), free(file);
    return status;
}

/* --- the program ------------------------------------------------------------------------------------------------------- */

static void stop(int number) {
    (void)number;
    is_stopped = 1;
}

/* The device of a name: a line where it isn't there, isn't of USB 2.0, or may not be used. */
static bool open_device(struct plugged *p) {
    char path[40], speed[32], vendor[32], product[32];
    const char *known = "1.5\00012\000480";
    int bus = said_number(p, "", "busnum"), number = said_number(p, "", "devnum");
    read_said(p, "", "speed", speed), read_said(p, "", "idVendor", vendor), read_said(p, "", "idProduct", product);
    if (!bus) {
        tell(p, "no such device; /sys/bus/usb/devices has those that are plugged in, as 1-1\n");
        return false;
    }
    p->speed = !strcmp(speed, known) ? NZG_LOW : !strcmp(speed, known + 4) ? NZG_FULL : !strcmp(speed, known + 7) ? NZG_HIGH : 0;
    p->selected = (uint8_t)said_number(p, "", "bConfigurationValue");
    if (!p->speed) {
        tell(p, "it runs at %s Mbit/s, and USB 2.0 has 1.5, 12 and 480: a hub or a cable of USB 2.0 slows it down\n", speed);
        return false;
    }
    snprintf(path, sizeof path, "/dev/bus/usb/%03d/%03d", bus, number);
    p->file = open(path, O_RDWR);
    if (p->file >= 0) return true;
    if (errno == EACCES || errno == EPERM) tell(p, "no rights to %s: SUBSYSTEM==\"usb\", ATTR{idVendor}==\"%s\", ATTR{idProduct}==\"%s\", MODE=\"0666\" in /etc/udev/rules.d/70-usb.rules gives them\n", path, vendor, product);
    else tell(p, "%s: %s\n", path, strerror(errno));
    return false;
}

/* The words, or NULL where they are none of the program's. */
static const char *taken(int count, char **words, bool *tests, bool *disturbs) {
    const char *junit = "";
    bool is_known = count > 1 && strlen(words[1]) < 64 && words[1][0] != '-' && words[1][0] != '.' && !strchr(words[1], '/');
    *tests = count > 2 && !strcmp(words[2], "test"), *disturbs = false;
    if (count > 2 && !*tests && (count > 3 || strcmp(words[2], "read"))) is_known = false;
    for (int i = 3; i < count && is_known; i++) {
        if (!strcmp(words[i], "--disturb")) *disturbs = true;
        else if (!strcmp(words[i], "--junit") && i + 1 < count) junit = words[++i];
        else is_known = false;
    }
    return is_known ? junit : NULL;
}

int main(int count, char **words) {
    static struct plugged p;
    bool tests;
    const char *junit = taken(count, words, &tests, &p.disturbs);
    if (!junit) {
        fprintf(stderr, "usbfs: DEVICE [read | test [--disturb] [--junit FILE]]\n");
        return STATUS_BAD;
    }
    p.name = words[1];
    if (!open_device(&p)) return STATUS_BAD;
    if (tests) {
        const int numbers[] = {SIGINT, SIGTERM, SIGHUP};
        for (int i = 0; i < 3; i++) sigaction(numbers[i], &(struct sigaction){.sa_handler = stop}, NULL);
    }
    /* Where nobody reads what is printed, drivers are still to be attached. */
    signal(SIGPIPE, SIG_IGN);
    tell(&p, "resets%s SET_ADDRESS%s are not sent: the kernel has made them, and selected configuration %u\n", p.disturbs ? " and" : ",", p.disturbs ? "" : " and SET_CONFIGURATION", p.selected);
    int status = tests ? test_device(&p, *junit ? junit : NULL) : read_device(&p);
    close(p.file);
    if (fflush(stdout)) {
        tell(&p, "standard output: %s\n", strerror(errno));
        status = STATUS_BAD;
    }
    return is_stopped ? STATUS_STOPPED : status;
}
