/* What the bench has in common with its talk: what USB 2.0 leaves open. A program includes it only to make a talk by itself. */
#ifndef NOZZLEGORSE_TALK_H
#define NOZZLEGORSE_TALK_H
#include "nozzlegorse_bench.h"

enum phase { IN_DEFAULT, IN_ADDRESS, IN_CONFIGURED };

/* The section by which a device's behaviour is not specified, where a request comes in this phase; else NULL. */
const char *nzg_bench_unspecified(enum phase phase, const uint8_t q[8]);
#endif
