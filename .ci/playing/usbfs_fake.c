/* A usbfs and its part of /sys for a program that this library is loaded before: one device, which the proved one is, or lines of a script
 * answer for. USBFS_FAKE names a folder: below it are sys/ and dev/ in place of the machine's, `file` has the descriptors, `script` a
 * word and what it means a line, and `log` gets what the program does. Like Linux it keeps back what is of no claimed interface. */
#define _GNU_SOURCE
#include <dlfcn.h>
#include <errno.h>
#include <fcntl.h>
#include <linux/usbdevice_fs.h>
#include <nozzlegorse.h>
#include <poll.h>
#include <signal.h>
#include <stdarg.h>
#include <stdio.h>
#include <stdlib.h>
#include <string.h>
#include <sys/ioctl.h>

#define SEEN __attribute__((visibility("default")))
enum { ADDRESS = 5, INTERFACES = 64, RULES = 32, ROOM = 1 << 16 };

/* A request, with a dot for any digit, and what is done in place of the device's answer. */
struct rule { char pattern[17], action[16], argument[600]; };
static struct {
    int file;
    struct nzg_device device;
    uint8_t bytes[ROOM], answer[ROOM], image[4 * ROOM], kept[512];
    size_t length, image_len;
    unsigned selected;
    struct rule rules[RULES];
    size_t rule_count;
    char drivers[INTERFACES][16];
    bool is_claimed[INTERFACES], is_gone, hangs, interrupts;
    struct usbdevfs_urb *urb;
    FILE *log;
} fake = {.file = -1};

static void add_log(const char *format, ...) {
    va_list rest;
    va_start(rest, format);
    vfprintf(fake.log, format, rest);
    va_end(rest);
    fflush(fake.log);
}

static unsigned word(const uint8_t *at) { return at[0] | (unsigned)at[1] << 8; }

/* --- the device ------------------------------------------------------------------------------------------------------------ */

/* A control transfer at the proved device: how many bytes come, or -EPIPE. */
static int transfer(const uint8_t q[8]) {
    struct nzg_transfer it;
    struct nzg_transaction next;
    struct nzg_setup setup;
    size_t length = 0;
    memcpy(setup.bytes, q, 8);
    nzg_transfer_open(&it, fake.device.state.address, fake.bytes[7], 16, &setup);
    while (nzg_transfer_next(&it, &next)) {
        struct nzg_packet back;
        nzg_device_serve(&fake.device, fake.image, fake.image_len, fake.kept, sizeof fake.kept, &next, q, 0, true, &back);
        if (back.reply == NZG_DATA) nzg_device_acked(&fake.device, fake.image, fake.image_len);
        size_t new = nzg_transfer_take(&it, back.reply, back.toggle, back.data, back.length).length;
        memcpy(fake.answer + length, back.data, new);
        length += new;
    }
    return it.stage == NZG_FAILED ? -EPIPE : (int)length;
}

static void do_request(uint8_t kind, uint8_t code, uint8_t value, uint8_t index) { transfer((uint8_t[8]){kind, code, value, 0, index, 0, 0, 0}); }

static int digit(char it) { return it <= '9' ? it - '0' : it - 'a' + 10; }

static bool is_of(const struct rule *rule, const uint8_t q[8]) {
    for (int i = 0; i < 16; i++)
        if (rule->pattern[i] != '.' && digit(rule->pattern[i]) != (i % 2 ? q[i / 2] & 15 : q[i / 2] >> 4)) return false;
    return true;
}

/* What a rule does: the status of the transfer; `count` bytes come. */
static int act(const struct rule *it, const uint8_t q[8], int *count) {
    static const struct { const char *name; int error; } ends[] = {{"stall", EPIPE}, {"silent", EPROTO}, {"crc", EILSEQ}, {"late", ETIME}, {"over", EOVERFLOW}, {"gone", ESHUTDOWN}};
    int argument = atoi(it->argument), ended = 0;
    fake.is_gone = !strcmp(it->action, "gone");
    fake.hangs = !strcmp(it->action, "hangs"), fake.interrupts = !strcmp(it->action, "interrupts");
    for (size_t i = 0; i < sizeof ends / sizeof *ends; i++)
        if (!strcmp(it->action, ends[i].name)) ended = ends[i].error;
    /* What is refused is not carried out. */
    int came = !ended || q[0] & 0x80 ? transfer(q) : 0;
    *count = ended ? argument : came > 0 ? came : 0;
    if (ended) return -ended;
    if (!strcmp(it->action, "less")) *count -= argument;
    if (strcmp(it->action, "bytes")) return came < 0 ? came : 0;
    *count = (int)strlen(it->argument) / 2;
    for (int i = 0; i < *count; i++) fake.answer[i] = (uint8_t)(digit(it->argument[2 * i]) << 4 | digit(it->argument[2 * i + 1]));
    if (*count > (int)word(q + 6)) *count = (int)word(q + 6);
    return 0;
}

/* --- Linux ------------------------------------------------------------------------------------------------------------------- */

/* The interface of the kernel's set that has this number, or in a setting of which this endpoint is; -1 where there is none. */
static int interface_of(bool is_endpoint, unsigned number) {
    unsigned value = 0;
    for (struct nzg_descriptor d = {0}; nzg_next(fake.bytes, fake.length, &d);) {
        if (d.role == NZG_CONFIGURATION) value = fake.bytes[d.place + 5];
        if (d.part == 1 && value == fake.selected && d.role == (is_endpoint ? NZG_ENDPOINT : NZG_INTERFACE) && (is_endpoint ? d.endpoint : d.interface_) == number) return d.interface_;
    }
    return -1;
}

static int claim(unsigned number) {
    if (interface_of(false, number) < 0) return ENOENT;
    if (fake.drivers[number][0] && !fake.is_claimed[number]) return EBUSY;
    fake.is_claimed[number] = true;
    return 0;
}

/* Why the kernel keeps a request back, or 0. */
static int kept_back(const uint8_t q[8]) {
    unsigned kind = q[0] & 0x1f, index = q[4];
    if (fake.is_gone) return ENODEV;
    if (kind == 0 || (kind == 2 && !(index & 0x7f))) return 0;
    int number = interface_of(kind == 2, index);
    return number < 0 ? ENOENT : claim((unsigned)number);
}

static int submit(struct usbdevfs_urb *urb) {
    const uint8_t *q = urb->buffer;
    int count = 0, error = urb->type != USBDEVFS_URB_TYPE_CONTROL || urb->endpoint || urb->buffer_length < (int)(8 + word(q + 6)) || fake.urb ? EINVAL : kept_back(q);
    add_log("%s %02x%02x%02x%02x%02x%02x%02x%02x\n", error ? "kept back" : "sent", q[0], q[1], q[2], q[3], q[4], q[5], q[6], q[7]);
    if (error) return error;
    size_t i = 0;
    while (i < fake.rule_count && !is_of(&fake.rules[i], q)) i++;
    urb->status = i < fake.rule_count ? act(&fake.rules[i], q, &count) : (count = transfer(q)) < 0 ? count : 0;
    urb->actual_length = count > 0 ? count : 0;
    memcpy((uint8_t *)urb->buffer + 8, fake.answer, (size_t)urb->actual_length);
    fake.urb = urb;
    return 0;
}

/* As proc_setconfig: not while an interface is claimed. */
static int select_configuration(unsigned value) {
    for (unsigned i = 0; i < INTERFACES; i++)
        if (fake.is_claimed[i] || fake.drivers[i][0]) return EBUSY;
    do_request(0, 9, (uint8_t)value, 0);
    return 0;
}

static int ask_driver(struct usbdevfs_getdriver *it) {
    const char *name = fake.is_claimed[it->interface] ? "usbfs" : fake.drivers[it->interface];
    snprintf(it->driver, sizeof it->driver, "%s", name);
    return *name ? 0 : ENODATA;
}

static int disconnect(const struct usbdevfs_disconnect_claim *it) {
    if (!strcmp(it->driver, fake.drivers[it->interface]) && it->flags == USBDEVFS_DISCONNECT_CLAIM_EXCEPT_DRIVER) return EBUSY;
    fake.drivers[it->interface][0] = 0;
    return claim(it->interface);
}

static int connect(const struct usbdevfs_ioctl *it) {
    if (it->ioctl_code != (int)USBDEVFS_CONNECT || fake.is_claimed[it->ifno]) return EINVAL;
    snprintf(fake.drivers[it->ifno], sizeof *fake.drivers, "again");
    return 0;
}

static int do_ioctl(unsigned long code, void *what) {
    unsigned number = code == USBDEVFS_DISCARDURB || !what ? 0 : *(unsigned *)what;
    if (code == USBDEVFS_SUBMITURB) return submit(what);
    if (code == USBDEVFS_DISCARDURB) return fake.urb == what ? fake.urb->status = -ENOENT, fake.urb->actual_length = 0, fake.hangs = false, 0 : EINVAL;
    if (code == USBDEVFS_REAPURB) {
        if (!fake.urb || fake.hangs) return EINVAL;
        *(void **)what = fake.urb, fake.urb = NULL;
        return 0;
    }
    if (fake.is_gone) return ENODEV;
    if (code == USBDEVFS_GETDRIVER) return ask_driver(what);
    add_log("%s %u\n", code == USBDEVFS_CLAIMINTERFACE ? "claim" : code == USBDEVFS_RELEASEINTERFACE ? "release" : code == USBDEVFS_SETCONFIGURATION ? "select" : code == USBDEVFS_DISCONNECT_CLAIM ? "detach" : code == USBDEVFS_IOCTL ? "attach" : "another ioctl", number);
    if (code == USBDEVFS_CLAIMINTERFACE) return claim(number);
    if (code == USBDEVFS_RELEASEINTERFACE) return fake.is_claimed[number] = false, 0;
    if (code == USBDEVFS_SETCONFIGURATION) return select_configuration(number);
    if (code == USBDEVFS_DISCONNECT_CLAIM) return disconnect(what);
    return code == USBDEVFS_IOCTL ? connect(what) : ENOTTY;
}

/* --- what is loaded before the program's ---------------------------------------------------------------------------------------- */

/* The script: `driver INTERFACE NAME`, `setting INTERFACE ALTERNATE`, `rights none`, `selected VALUE`, `speed NUMBER`, or a request. */
static bool read_script(const char *folder) {
    char path[256], line[700];
    struct rule it;
    bool may = true;
    snprintf(path, sizeof path, "%s/script", folder);
    FILE *in = fopen(path, "r");
    unsigned speed = NZG_HIGH, settings[INTERFACES] = {0};
    while (in && fgets(line, sizeof line, in)) {
        it = (struct rule){"", "", ""};
        if (sscanf(line, "%16s %15s %599s", it.pattern, it.action, it.argument) < 2) continue;
        if (!strcmp(it.pattern, "driver")) snprintf(fake.drivers[atoi(it.action)], sizeof *fake.drivers, "%.15s", it.argument);
        else if (!strcmp(it.pattern, "setting")) settings[atoi(it.action)] = (unsigned)atoi(it.argument);
        else if (!strcmp(it.pattern, "rights")) may = false;
        else if (!strcmp(it.pattern, "selected")) fake.selected = (unsigned)atoi(it.action);
        else if (!strcmp(it.pattern, "speed")) speed = (unsigned)atoi(it.action);
        else fake.rules[fake.rule_count++] = it;
    }
    if (in) fclose(in);
    struct nzg_answer made = nzg_device_image(fake.bytes, fake.length, (uint8_t)speed, fake.image, sizeof fake.image);
    if (made.status) abort();
    fake.image_len = made.length;
    do_request(0, 5, ADDRESS, 0), do_request(0, 9, (uint8_t)fake.selected, 0);
    for (unsigned i = 0; i < INTERFACES; i++)
        if (settings[i]) do_request(1, 11, (uint8_t)settings[i], (uint8_t)i);
    return may;
}

static bool plug_in(const char *folder) {
    char path[256];
    snprintf(path, sizeof path, "%s/file", folder);
    FILE *in = fopen(path, "rb");
    fake.length = in ? fread(fake.bytes, 1, sizeof fake.bytes, in) : 0;
    if (in) fclose(in);
    snprintf(path, sizeof path, "%s/log", folder);
    fake.log = fopen(path, "w");
    return fake.log && read_script(folder);
}

/* The place of a path of /sys and /dev/bus/usb; of the device's itself the device is plugged in. NULL where it may not be opened. */
static const char *place_of(const char *path, char room[512], bool *is_device) {
    const char *folder = getenv("USBFS_FAKE");
    *is_device = folder && !strncmp(path, "/dev/bus/usb/", 13);
    if (!folder || (!*is_device && strncmp(path, "/sys/bus/usb/", 13))) return path;
    snprintf(room, 512, "%s%s", folder, path);
    if (!*is_device || plug_in(folder)) return room;
    errno = EACCES;
    return NULL;
}

static int open_there(const char *path, int flags, unsigned mode) {
    int (*real)(const char *, int, ...) = (int (*)(const char *, int, ...))dlsym(RTLD_NEXT, "open");
    char room[512];
    bool is_device;
    const char *there = place_of(path, room, &is_device);
    int file = there ? real(there, flags, mode) : -1;
    if (is_device && (flags & O_ACCMODE) == O_RDWR) fake.file = file;
    return file;
}

#define MODE(flags, mode) va_list rest; va_start(rest, flags); unsigned mode = (flags) & O_CREAT ? va_arg(rest, unsigned) : 0; va_end(rest)

SEEN int open(const char *path, int flags, ...) {
    MODE(flags, mode);
    return open_there(path, flags, mode);
}

SEEN int open64(const char *path, int flags, ...) {
    MODE(flags, mode);
    return open_there(path, flags, mode);
}

SEEN int ioctl(int file, unsigned long code, ...) {
    va_list rest;
    va_start(rest, code);
    void *what = va_arg(rest, void *);
    va_end(rest);
    if (file < 0 || file != fake.file) return ((int (*)(int, unsigned long, ...))dlsym(RTLD_NEXT, "ioctl"))(file, code, what);
    int error = do_ioctl(code, what);
    if (error) errno = error;
    return error ? -1 : 0;
}

/* A transfer is done at once; one that hangs takes as long as is waited for, which is no more than 5 s. */
SEEN int poll(struct pollfd *all, nfds_t count, int limit) {
    if (count != 1 || all->fd < 0 || all->fd != fake.file) return ((int (*)(struct pollfd *, nfds_t, int))dlsym(RTLD_NEXT, "poll"))(all, count, limit);
    all->revents = 0;
    if (fake.interrupts) {
        fake.interrupts = false;
        raise(SIGINT);
        errno = EINTR;
        return -1;
    }
    if (fake.hangs) add_log("waited %d\n", limit);
    if (fake.hangs) return 0;
    all->revents = POLLOUT;
    return 1;
}

/* What is left at the end. */
__attribute__((destructor)) static void end(void) {
    const struct nzg_state *state = &fake.device.state;
    if (!fake.log || !fake.image_len) return;
    add_log("left selected %u wakeup %d halts %x", state->selected, state->wakeup, (unsigned)state->halts);
    for (unsigned i = 0; i < INTERFACES; i++)
        if (fake.drivers[i][0]) add_log(" %u:%s", i, fake.drivers[i]);
    for (unsigned i = 0; i < 256; i++)
        if (state->alternates[i]) add_log(" setting %u of %u", state->alternates[i], i);
    add_log("\n");
}
