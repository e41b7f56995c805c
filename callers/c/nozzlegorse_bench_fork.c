/* Each run in a process of its own. POSIX. */
#define _DEFAULT_SOURCE
#include "nozzlegorse_run.h"
#include <signal.h>
#include <sys/mman.h>
#include <sys/wait.h>
#include <unistd.h>

/* What a run shares with the process that waits for it: the run, the counts of its bench, and of its report. */
struct shared { struct run run; struct nzg_bench bench; struct nzg_bench_text text; };

/* A crash, in the current request, with the transactions before it. */
static void note_crash(struct run *run, int status) {
    int signal = WIFSIGNALED(status) ? WTERMSIG(status) : 0;
    const char *why = "it ends the program";
    if (signal) why = signal == SIGABRT ? "it crashes: abort" : signal == SIGFPE ? "it crashes: an arithmetic fault" : signal == SIGALRM ? "it doesn't come back" : "it crashes: a bad address or instruction";
    nzg_bench_note(run, false, why);
}

/* A run in a process of its own, which has a minute: false where it crashes. */
static bool fork_once(struct run *run, bool talks) {
    int status = 0;
    pid_t child = fork();
    if (!child) {
        alarm(60);
        nzg_bench_run_once(run, talks);
        _exit(0);
    }
    if (child < 0 || waitpid(child, &status, 0) != child) {
        nzg_bench_note(run, true, "no process can be made");
        run->bench->is_over = true;
        return true;
    }
    if (WIFEXITED(status) && !WEXITSTATUS(status)) return true;
    note_crash(run, status);
    return false;
}

/* An enumeration and a talk. A talk that crashes without a loss is made again without what differed, so that the rest of it is tried. */
static void forked(struct run *run, void *context) {
    (void)context;
    for (int talks = 0; talks < 2 && !run->bench->is_over; talks++) {
        bool is_back = false;
        run->skips = false;
        for (unsigned tries = 0; tries < 64 && !is_back && !run->bench->is_over; tries++) {
            run->bench->runs++;
            is_back = fork_once(run, talks) || !talks || run->losses;
            run->skips = true;
        }
    }
}

bool nzg_bench_device_forked(struct nzg_bench *bench, const struct nzg_bench_device *device, FILE *out) {
    struct shared *shared = mmap(NULL, sizeof *shared, PROT_READ | PROT_WRITE, MAP_SHARED | MAP_ANONYMOUS, -1, 0);
    if (shared == MAP_FAILED) return false;
    shared->bench = *bench, shared->text = (struct nzg_bench_text){out, &shared->bench, 0};
    struct nzg_bench_report report = nzg_bench_text_report(&shared->text);
    fflush(out);
    bool is_tried = nzg_bench_try_by(&shared->bench, device, &report, &shared->run, forked);
    *bench = shared->bench;
    munmap(shared, sizeof *shared);
    return nzg_bench_print_device(is_tried, bench, out);
}
