#include "nozzlegorse_run.h"
#include <stdlib.h>
#include <string.h>

static const char *const REASONS[] = {
    [NZG_NOT_TAKEN] = "a SETUP is always acknowledged (8.4.6.4)",
    [NZG_ADDRESS] = "a device answers at its own address alone, and a new one holds once the status stage is over (9.4.6)",
    [NZG_TOGGLE] = "the toggle is wrong: DATA1 is first, and each packet that the host acknowledged flips it (8.5.3, 8.6)",
    [NZG_NOT_EMPTY] = "an empty packet is due: it ends an answer of whole packets that is below wLength (8.5.3.2), or is the status stage (8.5.3.1)",
    [NZG_BYTES] = "the bytes are not those that are due (8.5.3.2, 9.4), or are more than may come (8.5.3)",
    [NZG_STALLED] = "the device has this request (9.4)",
    [NZG_NOT_STALLED] = "STALL is due: the device has no such request, or has just refused it (9.2.7, 8.5.3.4)",
    [NZG_OTHER_PACKET] = "IN brings data, NAK or STALL, and OUT a handshake (8.4.6.1, 8.4.6.3)",
    [NZG_NOT_JUDGED] = "a number of the reply has no meaning, or a packet has more than 64 bytes",
    [OF_NO_PIPE] = "its packet answers nothing of a control pipe (8.5.3)",
    [ANSWERED_TOKEN] = "it answers a token before its data (8.5.3)",
    [ANSWERED_ACK] = "it answers an ACK (8.4.5)",
    [ANSWERED_DAMAGED] = "it answers a damaged packet (8.5.3, 8.7.1)",
    [NO_PACKET + NZG_PID_CHECK] = "its packet is none: damage 2 (Pid) (8.3)",
    [NO_PACKET + NZG_RESERVED] = "its packet is none: damage 3 (Reserved) (8.3)",
    [NO_PACKET + NZG_LENGTH] = "its packet is none: damage 4 (Length) (8.3)",
    [NO_PACKET + NZG_CRC5] = "its packet is none: damage 5 (Crc5) (8.3)",
    [NO_PACKET + NZG_CRC16] = "its packet is none: damage 6 (Crc16) (8.3)",
};

static unsigned naks_of(const struct nzg_bench *bench) { return bench->naks ? bench->naks : NAKS; }

static bool is_same_request(const struct nzg_bench_request *a, const struct nzg_bench_request *b) {
    return a->cut == b->cut && !memcmp(a->setup.bytes, b->setup.bytes, sizeof a->setup.bytes);
}

/* The number of what differs in work, which is a new one where it was not known. */
static unsigned number_of(struct run *run, bool is_whole, const char *why) {
    unsigned i = 0;
    for (; i < run->finding_count; i++) {
        const struct finding *it = &run->findings[i];
        if (it->state == run->state && it->is_whole == is_whole && it->why == why && (is_whole || is_same_request(&it->work.request, &run->work.request))) return i;
    }
    if (i < NZG_BENCH_KINDS) run->findings[run->finding_count++] = (struct finding){run->state, is_whole, !run->losses, run->work, why};
    return i;
}

void nzg_bench_note(struct run *run, bool is_whole, const char *why) {
    struct nzg_bench_line shown[LINES];
    unsigned long most = run->losses ? LINES : LINES_WITHOUT, first = run->line_count > most ? run->line_count - most : 0;
    if (run->bench->is_over) return;
    unsigned number = number_of(run, is_whole, why);
    if (number == NZG_BENCH_KINDS) return;
    for (unsigned long n = first; n < run->line_count; n++) shown[n - first] = run->lines[n % LINES];
    run->bench->is_over = run->bench->stops_at_first;
    struct nzg_bench_difference it = {run->state, is_whole, run->work, why, run->losses, run->at, run->fates, shown, run->line_count - first, first};
    run->report->differs(run->report->context, number, &it);
}

bool nzg_bench_make_image(struct run *run) {
    const struct nzg_bench *bench = run->bench;
    struct nzg_answer answer = nzg_device_image(bench->file, bench->len, bench->speed, run->kept, 0);
    run->image_len = answer.length, run->image = answer.status == NZG_NO_ROOM ? malloc(run->image_len) : NULL;
    return run->image && nzg_device_image(bench->file, bench->len, bench->speed, run->image, run->image_len).status == NZG_DONE;
}

/* --- one transaction --------------------------------------------------------------------------------------------- */

char nzg_bench_fate_of(const struct run *run) {
    for (unsigned i = 0; i < run->losses; i++)
        if (run->at[i] == run->transactions) return run->fates[i];
    return '.';
}

struct nzg_bench_line *nzg_bench_new_line(struct run *run) {
    struct nzg_bench_line *line = &run->lines[run->line_count++ % LINES];
    memset(line, 0, sizeof *line);
    line->work = run->work;
    line->fate = '.', line->came.reply = line->due.reply = NZG_SILENCE;
    return line;
}

static void reset(struct run *run) {
    run->tested->reset(run->tested->context);
    nzg_device_reset(&run->proved);
    nzg_bench_new_line(run)->is_reset = true;
    run->is_apart = false;
}

/* What a transaction of a transfer goes to. */
enum whom { BOTH, PROVED, TESTED };
struct sent { struct nzg_transaction head; const uint8_t *data; size_t len; };

static struct nzg_bench_line *begun_line(struct run *run, const struct sent *it) {
    struct nzg_bench_line *line = nzg_bench_new_line(run);
    line->sent = it->head, line->data = it->data, line->len = it->len;
    line->fate = nzg_bench_fate_of(run);
    run->transactions++;
    return line;
}

/* Sends it to both devices, and gives what comes back to the host: the number of a difference, or 0. */
static uint8_t exchange(struct run *run, const struct nzg_setup *request, const struct sent *it, struct nzg_packet *back) {
    struct nzg_bench_line *line = begun_line(run, it);
    back->reply = NZG_SILENCE;
    if (run->bench->is_over) return NZG_NOT_JUDGED;
    if (line->fate == 't' || line->fate == 'p') return run->damaged(run, line, it->data, it->len);
    if (line->fate == 'd') return 0;
    run->tested->transaction(run->tested->context, &it->head, it->data, it->len, line->fate != 'n', &line->came);
    if (run->bench->is_over) return NZG_NOT_JUDGED;
    if (run->wrong) return run->wrong;
    uint8_t difference = nzg_judge_device(&run->proved, run->image, run->image_len, run->kept, sizeof run->kept, &run->open, request, &it->head, it->data, it->len, &line->came, &line->due);
    if (difference) return difference;
    if (line->fate != 'u') *back = line->came;
    if (line->came.reply != NZG_DATA || line->fate == 'u' || line->fate == 'a') return 0;
    if (line->fate == 'k') return run->damaged_ack(run);
    run->tested->acked(run->tested->context);
    nzg_device_acked(&run->proved, run->image, run->image_len);
    nzg_judge_acked(&run->open);
    return run->wrong;
}

static uint8_t send_to(struct run *run, enum whom whom, const struct nzg_setup *request, const struct sent *it, struct nzg_packet *back) {
    if (whom == BOTH) return exchange(run, request, it, back);
    back->reply = NZG_SILENCE;
    if (whom == PROVED) {
        nzg_device_serve(&run->proved, run->image, run->image_len, run->kept, sizeof run->kept, &it->head, it->data, it->len, true, back);
        if (back->reply == NZG_DATA) nzg_device_acked(&run->proved, run->image, run->image_len);
        return 0;
    }
    struct nzg_bench_line *line = begun_line(run, it);
    if (run->bench->is_over) return NZG_NOT_JUDGED;
    run->tested->transaction(run->tested->context, &it->head, it->data, it->len, true, &line->came);
    if (run->bench->is_over) return NZG_NOT_JUDGED;
    if (!run->wrong && line->came.reply == NZG_DATA) run->tested->acked(run->tested->context);
    line->due = *back = line->came;
    return run->wrong;
}

/* --- one transfer ------------------------------------------------------------------------------------------------- */

/* How it has ended: 1 to 5 by the numbers of nzg_trouble. */
enum ended { GOES_ON, NO_ANSWER, BUSY, REFUSED, TOO_LONG, UNEXPECTED, COMPLETE };
/* A read or a write as a proved host makes it. */
struct making {
    struct nzg_transfer transfer;
    struct nzg_write write;
    size_t length, kept; /* wLength, and how many bytes came */
    bool is_write;
    enum ended ended;
    struct nzg_packet last;
};

static struct making begin(struct run *run, const struct nzg_setup *request, uint8_t address) {
    struct making m = {.length = (size_t)(request->bytes[6] | request->bytes[7] << 8)};
    uint8_t packet = run->bench->file[7];
    uint16_t naks = (uint16_t)naks_of(run->bench);
    m.is_write = m.length && request->bytes[0] < 0x80;
    struct nzg_answer opened = m.is_write ? nzg_write_open(&m.write, address, packet, naks, request) : nzg_transfer_open(&m.transfer, address, packet, naks, request);
    if (opened.status != NZG_DONE) m.ended = NO_ANSWER;
    return m;
}

static bool next(struct making *m, const uint8_t *data, struct sent *it) {
    it->data = data, it->len = 0;
    if (m->ended != GOES_ON || !m->is_write) return m->ended == GOES_ON && nzg_transfer_next(&m->transfer, &it->head);
    struct nzg_answer due = nzg_write_next(&m->write, data, m->length, &it->head);
    it->data = data + due.place, it->len = due.length;
    return due.status == NZG_DONE;
}

static void take(struct making *m, const struct nzg_packet *back, uint8_t *came) {
    m->last = *back;
    struct nzg_answer heard = m->is_write ? nzg_write_take(&m->write, back->reply, back->toggle, back->data, back->length) : nzg_transfer_take(&m->transfer, back->reply, back->toggle, back->data, back->length);
    if (heard.length && m->kept + heard.length <= MOST_BYTES) memcpy(came + m->kept, back->data, heard.length), m->kept += heard.length;
    if (heard.status == NZG_DONE) m->ended = COMPLETE;
    if (heard.status == NZG_TROUBLE) m->ended = (enum ended)heard.number;
    if (heard.status == NZG_BAD_ARGUMENT) m->ended = UNEXPECTED;
}

/* Makes a transfer, or the first transactions of it: how it ended, and the number of a difference. */
static struct making make(struct run *run, enum whom whom, const struct nzg_bench_request *request, uint8_t address, uint8_t *difference) {
    struct making m = begin(run, &request->setup, address);
    struct sent due;
    struct nzg_packet back;
    *difference = 0;
    for (unsigned count = 0; (!request->cut || count < request->cut) && next(&m, run->sent, &due); count++) {
        *difference = send_to(run, whom, &request->setup, &due, &back);
        if (*difference) break;
        take(&m, &back, run->came);
    }
    return m;
}

/* --- an enumeration ------------------------------------------------------------------------------------------------ */

/* What is in work from here on. */
static void begin_work(struct run *run, uint8_t state, const struct nzg_bench_work *work) {
    run->state = state, run->work = *work;
    if (!run->losses) run->report->asks(run->report->context, state, &run->work);
}

/* Whether the enumeration ended as it may: without a loss in success, and never with too many NAKs. */
static void note_end(struct run *run, struct nzg_host *host) {
    static const char *const words[] = {"", "it fails: NoAnswer", "it fails: Busy", "it fails: Stalled", "it fails: TooLong", "it fails: Unexpected", "it fails: Malformed", "it fails: Memory"};
    struct nzg_trouble trouble = {0};
    struct nzg_answer end = nzg_host_outcome(host, &trouble, run->file, run->bench->len);
    if (end.status == NZG_TROUBLE && (trouble.why == BUSY || !run->losses)) nzg_bench_note(run, true, words[trouble.why < 8 ? trouble.why : 0]);
    else if (end.status != NZG_TROUBLE && (end.status != NZG_DONE || end.length != run->bench->len || memcmp(run->file, run->bench->file, end.length))) nzg_bench_note(run, true, "the host read other bytes");
}

/* The current step, where it is another one than before. */
static void begin_step(struct run *run, struct nzg_host *host) {
    struct nzg_step step = {0};
    nzg_host_step(host, &step);
    struct nzg_bench_work work = {.step = step.step, .index = step.index, .language = step.language};
    memcpy(work.request.setup.bytes, step.setup, sizeof work.request.setup.bytes);
    if (run->work.step != step.step || run->work.index != step.index || run->work.language != step.language || !is_same_request(&run->work.request, &work.request)) begin_work(run, NZG_BENCH_ENUMERATION, &work);
}

static void enumerate(struct run *run) {
    struct nzg_host host = {0};
    struct sent due = {.data = run->sent};
    struct nzg_packet back;
    unsigned attempts = run->bench->attempts ? run->bench->attempts : ATTEMPTS;
    bool is_same = nzg_host_open(&host, ADDRESS, (uint16_t)naks_of(run->bench), (uint8_t)attempts, run->bench->speed).status == NZG_DONE;
    run->state = NZG_BENCH_ENUMERATION, run->work = (struct nzg_bench_work){.request = {.is_reset = true}};
    for (uint8_t action; is_same && (action = nzg_host_next(&host, &due.head)) != NZG_ENDED;) {
        if (action == NZG_RESET) {
            reset(run);
            nzg_host_reset_done(&host);
            continue;
        }
        begin_step(run, &host);
        uint8_t difference = exchange(run, &run->work.request.setup, &due, &back);
        is_same = !difference && nzg_host_take(&host, back.reply, back.toggle, back.data, back.length);
        if (difference) nzg_bench_note(run, false, REASONS[difference]);
    }
    if (is_same) note_end(run, &host);
    nzg_host_close(&host);
}

/* --- a talk -------------------------------------------------------------------------------------------------------- */

static enum phase phase_of(unsigned address, unsigned selected) { return selected ? IN_CONFIGURED : address ? IN_ADDRESS : IN_DEFAULT; }
static uint8_t state_of(enum phase phase) { return (uint8_t)(NZG_BENCH_DEFAULT + phase); }

/* Whether one has carried out a standard request that the other has refused. */
static bool is_apart(const struct run *run, const uint8_t q[8]) {
    const struct nzg_bench_line *line = &run->lines[(run->line_count - 1) % LINES];
    return q[0] < 0x20 && ((line->came.reply == NZG_STALL && line->due.reply == NZG_DATA) || (line->came.reply == NZG_DATA && line->due.reply == NZG_STALL));
}

/* A transfer of both. After what leaves the two apart they are to be reset. */
static void ask(struct run *run, const struct nzg_bench_request *request) {
    const struct nzg_state *state = &run->proved.state;
    uint8_t difference, address = state->address;
    enum phase phase = phase_of(address, state->selected);
    const uint8_t *q = request->setup.bytes;
    if (run->losses && nzg_bench_unspecified(phase, q)) return;
    begin_work(run, state_of(phase), &(struct nzg_bench_work){.request = *request});
    struct making m = make(run, BOTH, request, address, &difference);
    if (difference) {
        run->is_apart = q[0] < 0x80 || difference == NZG_NOT_TAKEN || difference == NZG_ADDRESS || difference > NZG_NOT_JUDGED;
        nzg_bench_note(run, false, REASONS[difference]);
        return;
    }
    if (m.ended == BUSY) nzg_bench_note(run, false, run->busy);
    run->is_apart = is_apart(run, q);
}

/* Resets both and leads them to where a request is made; false where that differs. */
static bool lead(struct run *run, const struct planned *to) {
    struct nzg_bench_request move = {.setup = {{0, 5, to->address}}}, select = {.setup = {{0, 9, to->selected}}};
    reset(run);
    if (to->address) ask(run, &move);
    if (to->selected && !run->is_apart) ask(run, &select);
    return !run->is_apart && !run->bench->is_over;
}

/* What is not specified is asked of the device under test alone, and what it answers is told. After it both are reset. */
static void ask_alone(struct run *run, const struct planned *it) {
    uint8_t difference;
    if (run->is_apart && !lead(run, it)) return;
    run->state = state_of(phase_of(it->address, it->selected)), run->work = (struct nzg_bench_work){.request = it->request};
    struct making m = make(run, TESTED, &it->request, it->address, &difference);
    run->is_apart = true;
    if (run->skips || run->bench->is_over) return;
    if (difference) {
        nzg_bench_note(run, false, REASONS[difference]);
        return;
    }
    struct nzg_bench_undefined what = {run->state, m.ended == COMPLETE || m.ended == GOES_ON ? 0 : (uint8_t)m.ended, it->request, it->open, m.last, run->came, m.kept};
    run->report->undefined(run->report->context, &what);
}

static bool differed(const struct run *run, const struct planned *it) {
    uint8_t state = state_of(phase_of(it->address, it->selected));
    for (unsigned i = 0; i < run->finding_count; i++)
        if (run->findings[i].is_without_loss && run->findings[i].state == state && is_same_request(&run->findings[i].work.request, &it->request)) return true;
    return false;
}

/* A talk. Where there are losses, it ends two requests after the last of them, without what differed before. */
static void talk(struct run *run) {
    unsigned left = 2, last = run->losses ? run->at[run->losses - 1] : 0;
    for (size_t i = 0; i < run->plan_len && !run->bench->is_over; i++) {
        const struct planned *it = &run->plan[i];
        if (it->request.is_reset) reset(run);
        else if ((run->losses && it->open) || ((run->losses || run->skips) && differed(run, it))) continue;
        else if (it->open) ask_alone(run, it);
        else if (!run->is_apart || lead(run, it)) {
            ask(run, &it->request);
            if (run->losses && run->transactions > last && !--left) return;
        }
    }
}

/* Where a proved device is before each request. */
static void make_plan(struct run *run, const struct nzg_bench_request *talk, size_t count) {
    uint8_t difference;
    nzg_device_reset(&run->proved);
    for (size_t i = 0; i < count; i++) {
        const struct nzg_state state = run->proved.state;
        run->plan[i] = (struct planned){talk[i], state.address, state.selected, talk[i].is_reset ? NULL : nzg_bench_unspecified(phase_of(state.address, state.selected), talk[i].setup.bytes)};
        if (talk[i].is_reset) nzg_device_reset(&run->proved);
        else if (!run->plan[i].open) make(run, PROVED, &talk[i], state.address, &difference);
    }
    run->plan_len = count;
}

/* --- every run ---------------------------------------------------------------------------------------------------- */

void nzg_bench_run_once(struct run *run, bool talks) {
    run->transactions = run->line_count = 0, run->is_apart = true;
    if (talks) talk(run);
    else enumerate(run);
    run->bench->transactions += run->transactions;
}

/* The next way to choose so many of the first transactions; false after the last. */
static bool next_places(unsigned *at, unsigned count, unsigned within) {
    for (unsigned i = count; i-- > 0;) {
        if (at[i] + 1 + (count - i) > within) continue;
        at[i]++;
        for (unsigned j = i + 1; j < count; j++) at[j] = at[j - 1] + 1;
        return true;
    }
    return false;
}

/* The next way to choose a letter for each; false after the last. */
static bool next_letters(char *fates, unsigned count, const char *letters) {
    for (unsigned i = count; i-- > 0;) {
        const char *at = strchr(letters, fates[i]);
        fates[i] = at[1] ? at[1] : letters[0];
        if (at[1]) return true;
    }
    return false;
}

void nzg_bench_with_losses(struct run *run, unsigned count, void (*once)(struct run *run, void *context), void *context) {
    const char *letters = run->letters ? run->letters : run->bench->letters ? run->bench->letters : "duan";
    if (count > run->bench->within || (count && !*letters)) return;
    for (unsigned i = 0; i < count; i++) run->at[i] = i;
    run->losses = count;
    do {
        memset(run->fates, letters[0], count);
        do once(run, context);
        while (!run->bench->is_over && next_letters(run->fates, count, letters));
    } while (!run->bench->is_over && next_places(run->at, count, run->bench->within));
}

bool nzg_bench_try_by(struct nzg_bench *bench, const struct nzg_bench_device *device, const struct nzg_bench_report *report, struct run *run, void (*once)(struct run *run, void *context)) {
    struct nzg_bench_request *made = calloc(NZG_BENCH_TALK, sizeof *made);
    run->bench = bench, run->tested = device, run->report = report;
    run->plan = calloc(NZG_BENCH_TALK, sizeof *run->plan), run->file = malloc(bench->len);
    snprintf(run->busy, sizeof run->busy, "more than %u NAKs in a row", naks_of(bench));
    for (unsigned i = 0; i < MOST_BYTES; i++) run->sent[i] = (uint8_t)(i % 251 + 1);
    bench->runs = bench->transactions = bench->differences = 0, bench->is_over = false;
    size_t count = bench->talk ? bench->talk_len : made ? nzg_bench_talk(bench->file, bench->len, made) : 0;
    bool can = made && run->plan && run->file && count <= NZG_BENCH_TALK && nzg_bench_make_image(run);
    if (can) make_plan(run, bench->talk ? bench->talk : made, count);
    for (unsigned losses = 0; can && losses <= bench->losses && losses <= NZG_BENCH_LOSSES && !bench->is_over; losses++) nzg_bench_with_losses(run, losses, once, NULL);
    run->letters = "tpk";
    for (unsigned damages = 1; can && run->packets && damages <= bench->damages && damages <= NZG_BENCH_LOSSES && !bench->is_over; damages++) nzg_bench_with_losses(run, damages, once, NULL);
    bench->differences = run->finding_count;
    free(made), free(run->plan), free(run->file), free(run->image);
    return can;
}

void nzg_bench_both(struct run *run, void *context) {
    (void)context;
    for (int talks = 0; talks < 2 && !run->bench->is_over; talks++) {
        run->bench->runs++;
        nzg_bench_run_once(run, talks);
    }
}

bool nzg_bench_try(struct nzg_bench *bench, const struct nzg_bench_device *device, const struct nzg_bench_report *report) {
    struct run *run = calloc(1, sizeof *run);
    bool is_tried = run && nzg_bench_try_by(bench, device, report, run, nzg_bench_both);
    free(run);
    return is_tried;
}
