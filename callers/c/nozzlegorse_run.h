/* A run of the bench, and what its files have in common. No program includes it. */
#ifndef NOZZLEGORSE_RUN_H
#define NOZZLEGORSE_RUN_H
#include "nozzlegorse_talk.h"

enum { LINES = 14, LINES_WITHOUT = 6, NAKS = 16, ATTEMPTS = 3, ADDRESS = 1, MOST_BYTES = 65536 };

/* what differs: the state, the request and why; whether it does without a loss */
struct finding { uint8_t state; bool is_whole, is_without_loss; struct nzg_bench_work work; const char *why; };
/* a request, and where a proved device is before it */
struct planned { struct nzg_bench_request request; uint8_t address, selected; const char *open; };
/* Beside the numbers of enum nzg_difference, of a device that has packets. To NO_PACKET the number of a damage is added. */
enum { OF_NO_PIPE = 10, ANSWERED_TOKEN, ANSWERED_ACK, ANSWERED_DAMAGED, NO_PACKET = ANSWERED_DAMAGED };
struct run {
    struct nzg_bench *bench;
    const struct nzg_bench_packets *packets; /* the device, if it has them; wrong: what was wrong with its last one */
    uint8_t wrong;
    /* What it answers to damaged ones: the number of a difference, or 0. */
    uint8_t (*damaged)(const struct run *run, const struct nzg_bench_line *line, const uint8_t *data, size_t len), (*damaged_ack)(const struct run *run);
    const char *letters; /* of damages; in runs with losses NULL */
    const struct nzg_bench_device *tested;
    const struct nzg_bench_report *report;
    struct nzg_device proved;
    uint8_t *image, kept[512]; /* what its calls are lent */
    size_t image_len;
    struct nzg_open_transfer open;
    struct planned *plan;
    size_t plan_len;
    uint8_t *file; /* as much room as the descriptors have */
    unsigned losses, at[NZG_BENCH_LOSSES]; /* how many, and at which transactions */
    char fates[NZG_BENCH_LOSSES];
    unsigned long transactions;
    struct nzg_bench_line lines[LINES];
    unsigned long line_count;
    struct finding findings[NZG_BENCH_KINDS];
    unsigned finding_count;
    uint8_t state; /* that in work, and its request */
    struct nzg_bench_work work;
    char busy[40]; /* why a device differs that answers NAK too often */
    bool is_apart, skips; /* skips: what differed before without a loss is not asked again */
    uint8_t sent[MOST_BYTES], came[MOST_BYTES]; /* the data of writes, and the bytes of one read */
};

/* Makes the image of the descriptors, from which the proved device answers; the caller frees it. False where there is no such device. */
bool nzg_bench_make_image(struct run *run);
/* The fate of the next transaction, and its line. */
char nzg_bench_fate_of(const struct run *run);
struct nzg_bench_line *nzg_bench_new_line(struct run *run);
/* A difference in what is in work, or in the whole of it. */
void nzg_bench_note(struct run *run, bool is_whole, const char *why);
/* One run: an enumeration, or a talk; and both of them. */
void nzg_bench_run_once(struct run *run, bool talks);
void nzg_bench_both(struct run *run, void *context);
/* Each way to put this many losses or damages on the first transactions: calls `once` for each. */
void nzg_bench_with_losses(struct run *run, unsigned count, void (*once)(struct run *run, void *context), void *context);
/* Every run of a device: `run` is 0, but for the packets of one that has them. */
bool nzg_bench_try_by(struct nzg_bench *bench, const struct nzg_bench_device *device, const struct nzg_bench_report *report, struct run *run, void (*once)(struct run *run, void *context));
/* The report as a text, what no run could try, and the last line of it. */
struct nzg_bench_text { FILE *out; const struct nzg_bench *bench; unsigned count; };
struct nzg_bench_report nzg_bench_text_report(struct nzg_bench_text *text);
void nzg_bench_print_unmet(const struct nzg_bench *bench, FILE *out);
bool nzg_bench_print_end(const struct nzg_bench *bench, const char *end, FILE *out);
bool nzg_bench_print_device(bool is_tried, const struct nzg_bench *bench, FILE *out);
#endif
