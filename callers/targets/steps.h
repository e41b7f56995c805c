/* What the parts of `steps` have in common: numbers drawn anew for each file, and what is said of an answer. */
#ifndef STEPS_H
#define STEPS_H
#include "platform.h"

#define ROOM 300000
extern uint8_t file[66000], room[ROOM];
/* What the calls of a device are lent: of one device at a time. */
enum { LONGEST_IMAGE = 140000, LONGEST_KEPT = 512 };
extern uint8_t image[LONGEST_IMAGE], kept[LONGEST_KEPT];
extern uint32_t image_length, kept_length;
#define IMAGE image, image_length
#define LENT IMAGE, kept, kept_length
/* Makes the image of a file, and a new device; where there is none the image has no bytes. */
struct nzg_answer new_device(struct nzg_device *device, const uint8_t *bytes, uint32_t length, uint8_t speed);

void draw_from(uint32_t seed);
uint32_t any(uint32_t below);
bool one_in(uint32_t number);
void fill(uint8_t *to, uint32_t length);
/* A request of chapter 9, of a class or a vendor, and sometimes any bytes. */
void any_setup(uint8_t *setup);

/* How deep the stack goes in a call. */
#define DEEP(name, call) (paint(), (void)(call), say_list(" " name " ", deepest()))

void say_answer(const char *what, struct nzg_answer answer);
/* An answer and the bytes that it wrote into the room. */
void say_text(const char *what, struct nzg_answer answer);
void say_list(const char *what, uint64_t number);
void say_packet(const struct nzg_packet *packet);
void say_due(const struct nzg_transaction *due);
/* What a device keeps, and what came of a host: a line each. */
void say_state(const struct nzg_device *device);
void say_outcome(struct nzg_host *host);

void device_steps(uint32_t length, uint8_t speed, uint32_t steps);
void any_device_steps(uint32_t steps);
void device_stacks(uint32_t length);
void host_steps(uint32_t length, uint8_t speed, uint32_t trouble_in);
void transfer_steps(void);
void write_steps(void);
void facts(uint32_t length);
void words(uint32_t length);
void mutated_facts(uint32_t length, uint32_t times);
void pieces(uint32_t length);
void enumerations(uint32_t length);
void refusals(uint32_t length);
void stacks(uint32_t length);
void scripts(void);
void recording(uint32_t length, uint32_t mutations);
#endif
