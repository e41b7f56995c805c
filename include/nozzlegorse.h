/* nozzlegorse.h: USB 2.0 descriptors, a device's end and a host's end of the control pipe, by a proved library.
 *
 * docs/callers.md says who owns what, and how a program without a C library links. In short:
 *
 *  - A pointer and its length are lent for the call. The pointer is never NULL, also where the length is 0; the length
 *    is below 2^63, and below 2^31 where a pointer has 32 bits; what is written overlaps nothing else that is passed. A
 *    pointer to a struct is not NULL.
 *  - A struct is laid out and aligned as C does it by itself. Where -fpack-struct or a pragma changes that, this header
 *    does not compile; include it outside of that.
 *  - Apart from that a call takes any bytes, any numbers, in any order of calls.
 *  - A text or bytes go into the caller's buffer whole, or the buffer is as it was: then the status is NZG_NO_ROOM, and
 *    `length` is what is wanted. A room of 0 asks for it. No NUL is written after a text.
 *  - A handle is a struct with one pointer, begun as {0}. `_open` puts something there and frees what was there; `_close`
 *    frees it and leaves {0}, also where nothing is held. It is not copied, nor looked into, nor used by two calls at once.
 *    It may move between threads, one call at a time.
 *  - There is no runtime, no global state, no thread and no file. memcpy, memmove and memset, and the three functions for
 *    memory below, are all that the library calls. */
#ifndef NOZZLEGORSE_H
#define NOZZLEGORSE_H

#include <stdbool.h>
#include <stddef.h>
#include <stdint.h>

#ifdef __cplusplus
extern "C" {
#endif

/* Of each length and place: 64 bits on every target, as the proofs have them. A handle's pointer has a place of eight bytes on
 * every target, so that all structs are alike. */
#if defined __SIZEOF_POINTER__ && __SIZEOF_POINTER__ == 4
typedef uint64_t nzg_size __attribute__((aligned(8)));
#define NZG_HELD void *held __attribute__((aligned(8))); uint32_t upper
#else
typedef size_t nzg_size;
#define NZG_HELD void *held
#endif

/* That of `usbdesc --version`. */
#define NZG_VERSION "0.2.0-dev"

enum nzg_status {
    NZG_DONE = 0,
    NZG_OPEN = 1,              /* the bytes so far are a prefix of a set; the host has not ended */
    NZG_SET_FAULT = 2,         /* number 1..9, at place */
    NZG_FILE_FAULT = 3,        /* number 1..7, at place */
    NZG_LIST_FAULT = 4,        /* number 1..6, in the line place, counted from 1 */
    NZG_DESCRIPTION_FAULT = 5, /* number 1, 2, 3 or 5: no device of the speed has these descriptors */
    NZG_TRAILING = 6,          /* the set ends at place, and the bytes go on */
    NZG_NO_ROOM = 7,           /* length is wanted */
    NZG_NO_MEMORY = 8,
    NZG_CLOSED = 9,            /* the handle holds nothing */
    NZG_BAD_ARGUMENT = 10,     /* number: 1 address, 2 attempts, 3 speed, 4 a fate, 5 a rule, 6 no string, 7 a packet size, 8 a reply,
                                * 9 a request without data to the device, 10 data that are not wLength bytes, 11 numbers of no transfer,
                                * 12 no packet, 13 no such finding, remark, fault or trouble, 14 what becomes of strings */
    NZG_TROUBLE = 11,          /* number 1..7: why a transfer or an enumeration failed */
    NZG_UNANSWERED = 12,       /* number 1..4: why the device doesn't take the answer to a request */
    NZG_NO_BYTES = 13,         /* number: why the file of a host has no bytes; a law of the library says it doesn't come */
    NZG_TEXT_FAULT = 14,       /* no hexadecimal text from line `place`, column `length` on, both from 1 */
    NZG_CAPTURE_FAULT = 15,    /* number 1..11: no recording, in the part at place */
    NZG_LACKING = 16           /* of a device of a recording there came: 1 no device descriptor, 2 no configuration with the index `place` */
};

struct nzg_answer {
    uint32_t status; /* enum nzg_status */
    uint32_t number;
    nzg_size place;
    nzg_size length; /* how many bytes were taken or written, or are wanted; of NZG_TEXT_FAULT a column */
};

/* The three functions by which the library takes memory. A block is aligned as asked for, at most to 16. Where `ok` is
 * false, `at` is any pointer but NULL, and the old block stays. Where several threads call the library, several call these. */
struct nzg_block { bool ok; unsigned char *at; };
struct nzg_block rattle_alloc(nzg_size length, nzg_size align);
struct nzg_block rattle_realloc(unsigned char *at, nzg_size kept, nzg_size length, nzg_size align);
void rattle_dealloc(unsigned char *at);

/* --- from a buffer into a buffer: what `usbdesc` writes -------------------------------------------------------- */

/* with NZG_UTF8 the text is UTF-8, else ASCII; NZG_FORMATS heads video frames with size and interval, audio formats with rates;
 * NZG_LOOSE takes descriptors one after another, of which no owner is asked for, or a setup packet, and finds no fault; NZG_HEX
 * takes hexadecimal text, as nzg_from_text does, and explains its bytes, without the words `hexadecimal text` of `usbdesc` */
enum nzg_options { NZG_BRIEF = 1, NZG_PLACES = 2, NZG_UTF8 = 4, NZG_FORMATS = 8, NZG_LOOSE = 16, NZG_HEX = 32 };
enum nzg_speed { NZG_LOW = 1, NZG_FULL = 2, NZG_HIGH = 3, NZG_SUPER = 4 }; /* 0: not known; 0 and super for explain and remarks alone */

/* one set where the second byte is 2 or 7, and else a file; with `any` a dump too */
struct nzg_answer nzg_show(const uint8_t *bytes, nzg_size len, bool any, uint8_t *text, nzg_size room);
/* a line for each finding in a file, or `no findings`; with `any` in one set or a dump too */
struct nzg_answer nzg_check(const uint8_t *bytes, nzg_size len, bool any, uint8_t *text, nzg_size room);
/* one set, a file, a dump, and also broken bytes: then the status is the fault, and the text goes as far as they do */
struct nzg_answer nzg_explain(const uint8_t *bytes, nzg_size len, uint32_t options, uint8_t speed, uint8_t *text, nzg_size room);
/* The bytes of hexadecimal text, in any form that `usbdesc` reads: digits, a dump's columns, an array of a program. One that two
 * readings would take differently is refused too. */
struct nzg_answer nzg_from_text(const uint8_t *text, nzg_size len, uint8_t *bytes, nzg_size room);
/* with `comments` lines that are empty or begin with # are dropped, and so is a carriage return before a line feed */
struct nzg_answer nzg_build(const uint8_t *text, nzg_size len, bool comments, uint8_t *bytes, nzg_size room);

/* step 1 first, 2 address, 3 device, 4 header, 5 set, 6 qualifier, 7 other header, 8 other set, 9 languages, 10 text,
 * 11 configure; 0 after success */
struct nzg_outcome { uint64_t transactions; uint8_t attempts, address, selected, step, index; uint16_t language; };
/* fates: one letter a transaction, as for `usbdesc enumerate --fates`. The text is the listing of what was read. */
struct nzg_answer nzg_enumerate(const uint8_t *bytes, nzg_size len, uint8_t speed, uint16_t naks, uint8_t attempts, const uint8_t *fates, nzg_size fates_len, struct nzg_outcome *outcome, uint8_t *text, nzg_size room);

/* The log of that enumeration, with success or without: what `usbdesc enumerate --log` writes before its last lines. */
struct nzg_answer nzg_enumerate_log(const uint8_t *bytes, nzg_size len, uint8_t speed, uint16_t naks, uint8_t attempts, const uint8_t *fates, nzg_size fates_len, uint8_t *text, nzg_size room);

/* --- descriptors as numbers: no memory is asked for ------------------------------------------------------------ */

enum nzg_role {
    NZG_DEVICE = 1, NZG_CONFIGURATION = 2, NZG_INTERFACE = 3, NZG_ENDPOINT = 4, NZG_ASSOCIATION = 5,
    NZG_RAW = 6, /* of a class, of a vendor, or of a type that has no meaning in a set */
    NZG_QUALIFIER = 7, NZG_LANGUAGES = 8, NZG_STRING = 9
};
enum nzg_transfer_type { NZG_CONTROL = 0, NZG_ISOCHRONOUS = 1, NZG_BULK = 2, NZG_INTERRUPT = 3 }; /* bits 1 and 0 of bmAttributes (9.6.6) */

/* A descriptor where it stands in its input. The walk goes on from it, so a copy is a place to come back to. What does
 * not apply is 0. Class, subclass and protocol are those of the interface setting that it belongs to, of a device its
 * own; endpoint is the address of the endpoint that it is or belongs to. */
struct nzg_descriptor {
    nzg_size place;             /* of its first byte */
    nzg_size languages_place;   /* of the list of languages, once it came */
    nzg_size endpoint_number;   /* number of the endpoint in its setting, from 0: as findings count */
    uint64_t named[4];        /* bit i % 64 of word i / 64, i from 1 on: a descriptor so far names string i */
    uint16_t language;        /* of a string */
    uint16_t packet;          /* of an endpoint: bits 10 to 0 of wMaxPacketSize, the most bytes of data in a packet (9.6.6) */
    uint8_t length, type;     /* bLength, bDescriptorType */
    uint8_t role;             /* enum nzg_role; 0 before the first descriptor */
    uint8_t owner;            /* of an association or a raw one: the role of what it belongs to, which is the nearest
                               * configuration, interface or endpoint before it */
    uint8_t depth;            /* 1 configuration, 2 interface and association, 3 endpoint; a raw one is one deeper than its
                               * owner, and what is in no set has 0 */
    uint8_t part;             /* 0 device, 1 its sets, 2 its qualifier and the sets of the other speed */
    uint8_t index;            /* of a string */
    uint8_t attributes;       /* of an endpoint: bmAttributes */
    uint8_t transactions;     /* of an endpoint: in a microframe, 1 to 3 by bits 12 and 11 of wMaxPacketSize; 0 where those are reserved */
    uint8_t interval;         /* of an endpoint: bInterval */
    nzg_size next;              /* place of the byte after it */
    nzg_size left;              /* bytes of its set after it */
    nzg_size strings;           /* strings that came, it included */
    nzg_size main_sets, other_sets; /* sets that came, of the device and of the other speed */
    nzg_size set;               /* number of the set in its part, from 0 */
    nzg_size associations, settings; /* of this set that came, it included */
    nzg_size setting;           /* number of the setting in its set, from 0 */
    nzg_size endpoints;         /* endpoints of this setting that came, it included */
    uint8_t interface_, alternate, class_, subclass, protocol;
    uint8_t endpoint;         /* bEndpointAddress */
    uint8_t below;            /* depth of a raw one that comes next, and the role of its owner */
    bool is_other;            /* its set is one of the other speed */
    bool has_device, has_languages; /* they came */
};

/* The first descriptor after {0}, or the one after it. False where none can stand there: nothing changes then. Of bytes
 * that nzg_judge takes it goes to their end; of others as far as they can be read. */
bool nzg_next(const uint8_t *bytes, nzg_size len, struct nzg_descriptor *descriptor);

struct nzg_field {
    nzg_size place;       /* of its first byte */
    uint64_t value;     /* of a field of at most eight bytes, little-endian; else 0 */
    uint8_t width;      /* bytes */
    uint8_t name_length;
    uint8_t name[62];   /* as in the standard of its descriptor; the bytes after it are 0 */
};
/* The n-th field of a descriptor, from 0. False where it has none, or is none of these bytes: nothing changes then. */
bool nzg_field(const uint8_t *bytes, nzg_size len, const struct nzg_descriptor *descriptor, nzg_size n, struct nzg_field *field);
/* All of them at once, and none where it is none of these bytes. Room and length count fields: at most 254. */
struct nzg_answer nzg_fields(const uint8_t *bytes, nzg_size len, const struct nzg_descriptor *descriptor, struct nzg_field *fields, nzg_size room);
/* The first with this name, as wMaxPacketSize. False as nzg_field. */
bool nzg_field_named(const uint8_t *bytes, nzg_size len, const struct nzg_descriptor *descriptor, const uint8_t *name, nzg_size name_len, struct nzg_field *field);

/* --- facts about bytes; these ask for memory ----------------------------------------------------------------------- */

/* what the bytes are: done, and number 1 a set, 2 a descriptor file, 3 a dump; or the fault */
struct nzg_answer nzg_judge(const uint8_t *bytes, nzg_size len);

struct nzg_finding {
    nzg_size place;                  /* of the descriptor that breaks the rule */
    nzg_size set, setting, endpoint; /* the numbers of `usbdesc check`, from 0 */
    uint8_t rule, part, role;      /* 1 to 13; as in nzg_descriptor */
};
/* Each broken rule, in the order of the bytes, or the fault of nzg_judge. Room and length count findings. */
struct nzg_answer nzg_findings(const uint8_t *bytes, nzg_size len, struct nzg_finding *found, nzg_size room);
struct nzg_remark {
    nzg_size place;                  /* of the descriptor on which it is */
    nzg_size set, setting, endpoint; /* as in nzg_finding */
    uint8_t number, part, role;    /* of the table of remarks in docs/formats.md, from 1; as in nzg_descriptor */
};
/* The same of remarks, which break no rule: those of `usbdesc check --remarks`. The speed is that at which the device ran. */
struct nzg_answer nzg_remarks(const uint8_t *bytes, nzg_size len, uint8_t speed, struct nzg_remark *remarks, nzg_size room);
/* What a finding or a remark of these bytes says, in the words of `usbdesc explain`, which have its cause. Of the struct `place` and `rule`
 * or `number` are looked at. A bad argument where there is none; of other bytes the fault of nzg_judge. Each call reads the bytes anew. */
struct nzg_answer nzg_finding_text(const uint8_t *bytes, nzg_size len, const struct nzg_finding *finding, uint8_t *text, nzg_size room);
struct nzg_answer nzg_remark_text(const uint8_t *bytes, nzg_size len, uint8_t speed, const struct nzg_remark *remark, uint8_t *text, nzg_size room);
/* What is wrong with bytes, in the words of `usbdesc explain`: done, with the fault's place, and as number that of the set's fault,
 * also where the set is in a file; else 0. A bad argument where nothing is. */
struct nzg_answer nzg_fault_text(const uint8_t *bytes, nzg_size len, uint8_t *text, nzg_size room);
/* what breaks a rule from 1 to 13, in words, as in docs/formats.md; this asks for no memory */
struct nzg_answer nzg_rule(uint8_t rule, uint8_t *text, nzg_size room);

struct nzg_found {
    nzg_size place, length; /* of its first byte; in bytes */
    nzg_size next;          /* where the search goes on: after a set; one byte on in a device descriptor, which hides nothing */
    uint8_t kind;         /* 1 a set, 4 a device descriptor */
};
/* The first of these from a place on in any bytes, as a firmware image: a whole set whose first descriptor has 9 bytes, or a device
 * descriptor, of which bLength, type, bcdUSB, bMaxPacketSize0 and bNumConfigurations are looked at. False where there is none:
 * nothing changes then. */
bool nzg_find(const uint8_t *bytes, nzg_size len, nzg_size start, struct nzg_found *found);
/* One after another, as many as there is room for. Gives how many these are: fewer are all, else the search goes on at the last one's
 * `next`. However hostile the bytes are, a call looks at them no more than 600 times for each byte that it passed, and 2,097,152 times
 * beside: a look is at a descriptor's first bytes, or at what is kept of it. So take room for a thousand and more. Where a megabyte was
 * walked over, each asks for some megabytes of memory, whatever `len` is; without it, it goes on with up to 32,768 looks a byte. */
nzg_size nzg_find_all(const uint8_t *bytes, nzg_size len, nzg_size start, struct nzg_found *found, nzg_size room);
/* A string, as UTF-8 with escapes as by `usbdesc explain --utf8`. Role, place and length say where it stands. */
struct nzg_answer nzg_text(const uint8_t *bytes, nzg_size len, const struct nzg_descriptor *string, uint8_t *text, nzg_size room);
/* a dump as a descriptor file, with the strings that `usbdesc enumerate --with-strings` puts; a file stays as it is */
struct nzg_answer nzg_with_strings(const uint8_t *dump, nzg_size len, uint8_t *file, nzg_size room);

/* --- packets of the bus, from PID to CRC: no memory is asked for -------------------------------------------------- */

/* the first byte of a packet: the four bits of its PID, and above them their complement. PRE and ERR are one. */
enum nzg_pid {
    NZG_PID_OUT = 0xe1, NZG_PID_IN = 0x69, NZG_PID_SOF = 0xa5, NZG_PID_SETUP = 0x2d, NZG_PID_DATA0 = 0xc3, NZG_PID_DATA1 = 0x4b,
    NZG_PID_DATA2 = 0x87, NZG_PID_MDATA = 0x0f, NZG_PID_ACK = 0xd2, NZG_PID_NAK = 0x5a, NZG_PID_STALL = 0x1e, NZG_PID_NYET = 0x96,
    NZG_PID_PRE = 0x3c, NZG_PID_SPLIT = 0x78, NZG_PID_PING = 0xb4
};
/* Why bytes are no packet, which a receiver ignores (8.7.1): the first that holds. */
enum nzg_damage {
    NZG_UNDAMAGED = 0,
    NZG_EMPTY = 1,      /* no byte */
    NZG_PID_CHECK = 2,  /* the upper bits of the first byte aren't the complement of the lower ones (8.3.1) */
    NZG_RESERVED = 3,   /* the PID 0000 */
    NZG_LENGTH = 4,     /* another number of bytes than a packet with this PID has: with data at most 1,024 and three */
    NZG_CRC5 = 5,       /* of a token, SOF or SPLIT (8.3.5.1) */
    NZG_CRC16 = 6       /* of data (8.3.5.2) */
};
/* What a packet does not have is 0. */
struct nzg_packet_fields {
    uint32_t split;             /* of SPLIT its 19 bits: 6..0 the hub, 7 SC, 14..8 the port, 15 S, 16 E, 18..17 ET */
    uint16_t frame;             /* of SOF */
    uint16_t place, length;     /* of data: where they are among its bytes, and how many */
    uint8_t pid;                /* enum nzg_pid */
    uint8_t address, endpoint;  /* of OUT, IN, SETUP and PING */
};
/* enum nzg_damage. Of damaged bytes the struct stays as it was. */
uint8_t nzg_packet_parse(const uint8_t *bytes, nzg_size len, struct nzg_packet_fields *packet);
/* The bytes with their CRC, at most 1,027. Of the struct what the packet has is looked at, but for place and length: the data of a data
 * packet are given. A PID that is none, a field that does not fit, or more than 1,024 bytes of data are a bad argument. */
struct nzg_answer nzg_packet_write(const struct nzg_packet_fields *packet, const uint8_t *data, nzg_size len, uint8_t *bytes, nzg_size room);
/* of the lowest `width` bits of a number, 32 at most: 11 in a token and in SOF, 19 in SPLIT, above which it stands in the packet */
uint8_t nzg_crc5(uint32_t fields, uint32_t width);
/* of data, after which it is sent, the low byte first */
uint16_t nzg_crc16(const uint8_t *bytes, nzg_size len);

/* --- transactions ------------------------------------------------------------------------------------------------ */

enum nzg_stage { NZG_SETUP = 0, NZG_IN = 1, NZG_OUT = 2 };
struct nzg_transaction {
    uint8_t address, stage, toggle; /* toggle: of OUT 0 DATA0, 1 DATA1 */
    uint8_t setup[8];               /* of SETUP */
};

enum nzg_reply { NZG_ACK = 0, NZG_NAK = 1, NZG_STALL = 2, NZG_DATA = 3, NZG_SILENCE = 4 };
struct nzg_packet { uint8_t reply, toggle, length, data[64]; };

struct nzg_setup { uint8_t bytes[8]; };

/* --- the device end: nzg_device_image alone asks for memory -------------------------------------------------------- */

/* What a device keeps from one request to the next (9.1.1). */
struct nzg_state {
    uint8_t address, selected; /* 0 to 127; bConfigurationValue, or 0 */
    uint8_t alternates[256];   /* the alternate setting of each interface, by its number */
    uint32_t halts;            /* bit n: endpoint n OUT, bit 16 + n: endpoint n IN */
    bool wakeup;               /* remote wakeup is enabled */
};

/* A device is these numbers, beside an image and a room that its calls are lent: always the same image, and the room with the bytes that
 * the call before left there. {0} is a new device; a copy, with one of the room, is a place to come back to. Any numbers, any image and
 * any room are safe. */
struct nzg_device {
    uint8_t stage;             /* in a transfer; 0: in none */
    uint8_t toggle;            /* in a data stage: that of the packet that is due, or awaited */
    bool settled;              /* the host knows of the rejection, or the request was carried out */
    bool pending;              /* the last answer waits for an ACK */
    uint8_t source, own[2];    /* bytes that are sent: 0 own ones, 1 of the room, 2 of the image from `place` on */
    uint8_t request[8];        /* that of the transfer */
    nzg_size place;
    nzg_size count, offset;    /* bytes to send; those that were acknowledged, or have come */
    struct nzg_state state;
};

/* The image of a descriptor file, from which a device answers: the same at each speed at which there is such a device. It may lie
 * anywhere, as in flash. */
struct nzg_answer nzg_device_image(const uint8_t *file, nzg_size len, uint8_t speed, uint8_t *image, nzg_size room);
/* A bus reset. */
void nzg_device_reset(struct nzg_device *device);
/* Each call with an image wants one of version 1 whose bMaxPacketSize0 is 1 to 64: else it answers false, and nothing changes. The room
 * is for an owner's answers and for writes, as many bytes as the longest has; chapter 9 alone needs none.
 *
 * False, too, where the stage or the toggle of OUT has no meaning: the packet is then as it was. */
bool nzg_device_serve(struct nzg_device *device, const uint8_t *image, nzg_size image_len, uint8_t *kept, nzg_size kept_len, const struct nzg_transaction *transaction, const uint8_t *data, nzg_size len, bool ready, struct nzg_packet *packet);
bool nzg_device_acked(struct nzg_device *device, const uint8_t *image, nzg_size image_len);
/* The request that is refused, before the host is answered; an answer to it; and the request that was carried out. Accepted is a
 * request without data, one whose data go to the device, for which there is room, and then the write once all of them have come. */
bool nzg_device_refused(const struct nzg_device *device, struct nzg_setup *setup);
struct nzg_answer nzg_device_answer_with(struct nzg_device *device, uint8_t *kept, nzg_size kept_len, const uint8_t *bytes, nzg_size len);
struct nzg_answer nzg_device_accept(struct nzg_device *device, nzg_size kept_len);
/* The write whose data have all come and that wasn't answered yet: done, and its data are the first `length` bytes of the room; open
 * where there is none. */
struct nzg_answer nzg_device_written(const struct nzg_device *device, const uint8_t *kept, nzg_size kept_len, struct nzg_setup *setup);
/* STALL until the next SETUP, where the device itself rejects the request, and its status stage wasn't answered yet. */
bool nzg_device_refuse(struct nzg_device *device, const uint8_t *image, nzg_size image_len);
bool nzg_device_carried_out(const struct nzg_device *device, struct nzg_setup *setup);

/* Why a device under test may not answer so: what is due is another answer. */
enum nzg_difference {
    NZG_ALLOWED = 0,
    NZG_NOT_TAKEN = 1,  /* no ACK of a SETUP (8.4.6.4) */
    NZG_ADDRESS = 2,    /* an answer at another address, or none at its own: a new one holds after the status stage (9.4.6) */
    NZG_TOGGLE = 3,     /* DATA0 for DATA1 or the reverse: DATA1 is first, and each packet that is acknowledged flips it (8.5.3, 8.6) */
    NZG_NOT_EMPTY = 4,  /* another packet for an empty one, after whole ones (8.5.3.2) or as the status (8.5.3.1) */
    NZG_BYTES = 5,      /* other bytes (8.5.3.2, 9.4), or more or fewer than may come (8.5.3, 8.6.4) */
    NZG_STALLED = 6,    /* STALL of a request that the device has, or has carried out (9.4) */
    NZG_NOT_STALLED = 7, /* no STALL of a request that it does not have, or before the SETUP after one (9.2.7, 8.5.3.4) */
    NZG_OTHER_PACKET = 8, /* data for OUT, or an ACK for IN (8.4.6.1, 8.4.6.3) */
    NZG_NOT_JUDGED = 9  /* the image, a stage, a toggle, a reply or a length above 64 has no meaning: nothing changes */
};
/* What such a device has answered in the transfer of a request that is open to it: zeroed at first. A SETUP begins it anew. */
struct nzg_open_transfer { uint16_t acknowledged, sent; uint8_t last, stage; };
/* A device under test was sent this in the transfer of this request, and that came. The device here has the same, and is ready
 * where the other one was: its answer goes into `has`. Of what came is allowed: the same; a status of a device that differs in
 * bit 0 (9.4.5); and what keeps chapter 8 where this one refuses the request and its owner may answer it, or a device may do either
 * (SET_INTERFACE of the only setting, 9.4.10; halts of endpoint zero and of isochronous ones, 9.4.5): `open` follows that. */
uint8_t nzg_judge_device(struct nzg_device *device, const uint8_t *image, nzg_size image_len, uint8_t *kept, nzg_size kept_len, struct nzg_open_transfer *open, const struct nzg_setup *request, const struct nzg_transaction *transaction, const uint8_t *data, nzg_size len, const struct nzg_packet *came, struct nzg_packet *has);
/* The host's ACK of the packet that was judged right before has reached the device: with nzg_device_acked. */
void nzg_judge_acked(struct nzg_open_transfer *open);

/* --- the host end: one control transfer as numbers: no memory is asked for ------------------------------------------ */

enum nzg_transfer_stage {
    NZG_AT_SETUP = 0, NZG_AT_DATA_IN = 1, NZG_AT_DATA_OUT = 2, NZG_AT_STATUS_OUT = 3, NZG_AT_STATUS_IN = 4, NZG_COMPLETED = 5, NZG_FAILED = 6
};

/* A transfer with its state, so a copy is a place to come back to. Any numbers are safe. They are those of a transfer where each
 * is in its range, and {0} is none. */
struct nzg_transfer {
    uint16_t naks;      /* how many NAKs without progress are taken */
    uint16_t nak_count; /* NAKs since the last progress: at most naks */
    uint16_t kept;      /* bytes of the data stage that came, or that the device has acknowledged: at most wLength */
    uint8_t address;
    uint8_t packet;     /* bMaxPacketSize0: 1 to 255 */
    uint8_t stage;      /* enum nzg_transfer_stage */
    uint8_t why;        /* after NZG_FAILED the number of the trouble, 1 to 7; else 0 */
    uint8_t toggle;     /* that of the next data packet: 0 or 1 */
    uint8_t strikes;    /* losses since the last progress: at most 2 */
    uint8_t setup[8];   /* the request */
};

/* Begins a transfer. address: 0 to 127; packet: 1 to 255. After a bad argument the transfer is as it was. */
struct nzg_answer nzg_transfer_open(struct nzg_transfer *transfer, uint8_t address, uint8_t packet, uint16_t naks, const struct nzg_setup *setup);
/* False once it has ended, or where the numbers are of no transfer: the transaction is then as it was. An OUT is empty;
 * nzg_write_next has data. */
bool nzg_transfer_next(const struct nzg_transfer *transfer, struct nzg_transaction *transaction);
/* open: it goes on, and the first `length` of these bytes, all or none, are new; done; trouble with its number. A reply, or a
 * toggle of NZG_DATA, that has no meaning, or numbers of no transfer are a bad argument: nothing changes then. */
struct nzg_answer nzg_transfer_take(struct nzg_transfer *transfer, uint8_t reply, uint8_t toggle, const uint8_t *data, nzg_size len);

/* --- the host end: one write, a control transfer with data to the device, as numbers: no memory is asked for ------------- */

struct nzg_write { struct nzg_transfer transfer; };

/* As nzg_transfer_open; a request without data to the device is a bad argument. */
struct nzg_answer nzg_write_open(struct nzg_write *write, uint8_t address, uint8_t packet, uint16_t naks, const struct nzg_setup *setup);
/* Done: of these wLength bytes a data packet has `length` from `place` on. Open once it has ended: the transaction is then as it
 * was, and so where the numbers are of no transfer, or the bytes are not wLength, which are bad arguments. */
struct nzg_answer nzg_write_next(const struct nzg_write *write, const uint8_t *data, nzg_size len, struct nzg_transaction *transaction);
/* As nzg_transfer_take. */
struct nzg_answer nzg_write_take(struct nzg_write *write, uint8_t reply, uint8_t toggle, const uint8_t *data, nzg_size len);

/* --- the host end: _open, _take and _outcome ask for memory ---------------------------------------------------------- */

struct nzg_host { NZG_HELD; };
enum nzg_action { NZG_RESET = 0, NZG_SEND = 1, NZG_ENDED = 2, NZG_NONE = 3 };
struct nzg_trouble { uint8_t why, step, index; uint16_t language; };
/* step and index and language as in nzg_outcome; naks so far in a row, bytes kept so far, strikes: losses in a row */
struct nzg_step { uint16_t naks, kept, language; uint8_t step, index, strikes, setup[8]; };

/* It asks for all that a descriptor file has. */
struct nzg_answer nzg_host_open(struct nzg_host *host, uint8_t address, uint16_t naks, uint8_t attempts, uint8_t speed);
/* What becomes of the strings that descriptors name: each must be there; one that the device refuses or gives wrongly may be missing;
 * none is asked for. */
enum nzg_named_strings { NZG_NEEDED = 0, NZG_WANTED = 1, NZG_SKIPPED = 2 };
/* It asks for so much; the qualifier and the sets of the other speed only with `other_speed`. In a file that was read, the language
 * list that is missing is 0x0409 alone, and a string that is missing is empty. */
struct nzg_answer nzg_host_open_with(struct nzg_host *host, uint8_t address, uint16_t naks, uint8_t attempts, uint8_t speed, uint8_t strings, bool other_speed);
/* enum nzg_action. An OUT has no bytes. But for NZG_SEND the transaction is as it was. */
uint8_t nzg_host_next(struct nzg_host *host, struct nzg_transaction *transaction);
bool nzg_host_reset_done(struct nzg_host *host);
/* False where nothing is held, or where the reply or the toggle of NZG_DATA has no meaning: nothing changes then. */
bool nzg_host_take(struct nzg_host *host, uint8_t reply, uint8_t toggle, const uint8_t *data, nzg_size len);
/* The request that the host makes now, for a log; false where there is none, and the step is then as it was. */
bool nzg_host_step(struct nzg_host *host, struct nzg_step *step);
uint8_t nzg_host_attempts(struct nzg_host *host);
/* What is missing of the strings in this attempt, and why, by its number from 0 on: false where there is none, and the trouble is
 * then as it was. */
bool nzg_host_forgiven(struct nzg_host *host, nzg_size number, struct nzg_trouble *trouble);
struct nzg_answer nzg_host_outcome(struct nzg_host *host, struct nzg_trouble *trouble, uint8_t *file, nzg_size room);
void nzg_host_close(struct nzg_host *host);
/* Why an enumeration failed, and at which step, in words: of nzg_enumerate `why` is the number of its answer. */
struct nzg_answer nzg_trouble_text(const struct nzg_trouble *trouble, uint8_t *text, nzg_size room);

/* --- a set in pieces -------------------------------------------------------------------------------------------------- */

struct nzg_decoder { NZG_HELD; };

struct nzg_answer nzg_decoder_open(struct nzg_decoder *decoder);
struct nzg_answer nzg_decoder_feed(struct nzg_decoder *decoder, const uint8_t *piece, nzg_size len);
/* also closes the decoder, whatever it answers */
struct nzg_answer nzg_decoder_list(struct nzg_decoder *decoder, uint8_t *text, nzg_size room);
void nzg_decoder_close(struct nzg_decoder *decoder);

/* --- a recording in pieces; these ask for memory -------------------------------------------------------------------- */

struct nzg_capture { NZG_HELD; };
enum nzg_kind {
    NZG_REQUEST = 1,    /* with the last piece: the control transfer that is over with it, and its data */
    NZG_OF_REQUEST = 2, /* with the last piece: what USB 2.0 forbids in that transfer, with its numbers, and the words */
    NZG_OF_PACKETS = 3, /* with the last piece: what it forbids in packets, and the words */
    NZG_UNENDED = 4,    /* of all pieces: a control transfer whose end has not come, and its data */
    NZG_SEEN = 5        /* of all pieces: a device, without data */
};
enum nzg_ending { NZG_NO_END = 0, NZG_ALL_DONE = 1, NZG_WITH_STALL = 2, NZG_WITH_ERROR = 3, NZG_NOT_TAKEN_ON = 4 }; /* by the host controller */
/* What does not apply, or is not known, is 0. Times are in nanoseconds: from the beginning of 1970, of usbmon's text from another one. */
struct nzg_recorded {
    uint64_t time;       /* of a request when it ended, or began where its end has not come; of a finding in packets when those came */
    uint64_t begun;      /* of a request when the host controller got it */
    nzg_size count;      /* of a finding in packets the number of its frame, from 1; of a device how many findings it has */
    uint32_t length;     /* of a request how many bytes of data came or went; the recording may have fewer */
    uint32_t status;     /* of a request that failed or was not taken: that of the host's system */
    uint16_t bus, device;
    uint8_t setup[8];    /* of a request */
    uint8_t ending;      /* of a request: enum nzg_ending */
    uint8_t finding;     /* of NZG_OF_REQUEST 1 for T1, 2 to 18 for C1 to C17; of NZG_OF_PACKETS 1 to 6 as enum nzg_damage, 7 no handshake,
                          * 8 SETUP without a request, 9 another handshake of SETUP than ACK, 10 toggle, 11 too long, 12 no short packet,
                          * 13 status stage of the wrong way */
    bool is_cut;         /* of a request: a frame of it was cut */
    bool has_time, has_begun, has_device; /* they are known */
};

struct nzg_answer nzg_capture_open(struct nzg_capture *capture);
/* Takes the next bytes from the beginning of a piece, up to the end of a frame: as many as `length` says, one at least if there is one.
 * It answers NZG_OPEN. What was shown before is forgotten. After NZG_CAPTURE_FAULT each piece has that fault, and what came before it
 * is known; after NZG_NO_MEMORY nothing is held. */
struct nzg_answer nzg_capture_feed(struct nzg_capture *capture, const uint8_t *bytes, nzg_size len);
/* The thing with this number, from 0 on, among those of its kind: done, and `length` bytes of data. NZG_OPEN where there is none. But
 * for NZG_DONE struct and data are as they were. */
struct nzg_answer nzg_capture_get(struct nzg_capture *capture, uint8_t kind, nzg_size number, struct nzg_recorded *recorded, uint8_t *data, nzg_size room);
/* Where no bytes follow: done, and how many bytes there are of a part that is not whole and begins at `place`. It is cut if any are. */
struct nzg_answer nzg_capture_end(struct nzg_capture *capture);
/* The descriptors of a device that came, as `usbdesc capture --file`: done, and number 2 for a descriptor file, 3 for a dump. */
struct nzg_answer nzg_capture_file(struct nzg_capture *capture, uint16_t bus, uint16_t device, uint8_t *bytes, nzg_size room);
void nzg_capture_close(struct nzg_capture *capture);

/* --- sizes, on every target ---------------------------------------------------------------------------------------- */

#if defined __cplusplus && __cplusplus >= 201103L
#define NZG_SIZE(name, size) static_assert(sizeof(struct name) == size, "nozzlegorse.h is included where structs are packed")
#elif defined __STDC_VERSION__ && __STDC_VERSION__ >= 201112L
#define NZG_SIZE(name, size) _Static_assert(sizeof(struct name) == size, "nozzlegorse.h is included where structs are packed")
#else
#define NZG_SIZE(name, size) typedef char name##_size[sizeof(struct name) == size ? 1 : -1]
#endif
NZG_SIZE(nzg_answer, 24);
NZG_SIZE(nzg_outcome, 16);
NZG_SIZE(nzg_descriptor, 168);
NZG_SIZE(nzg_field, 80);
NZG_SIZE(nzg_finding, 40);
NZG_SIZE(nzg_remark, 40);
NZG_SIZE(nzg_packet_fields, 16);
NZG_SIZE(nzg_transaction, 11);
NZG_SIZE(nzg_packet, 67);
NZG_SIZE(nzg_open_transfer, 6);
NZG_SIZE(nzg_state, 268);
NZG_SIZE(nzg_transfer, 20);
NZG_SIZE(nzg_write, 20);
NZG_SIZE(nzg_trouble, 6);
NZG_SIZE(nzg_step, 18);
NZG_SIZE(nzg_setup, 8);
NZG_SIZE(nzg_device, 312);
NZG_SIZE(nzg_host, 8);
NZG_SIZE(nzg_decoder, 8);
NZG_SIZE(nzg_recorded, 56);
NZG_SIZE(nzg_capture, 8);
#undef NZG_SIZE
#undef NZG_HELD

#ifdef __cplusplus
}
#endif
#endif
