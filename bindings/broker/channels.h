/* What the broker and its target share: the channels, a bell for a broker that sleeps, and the target's counts. */
#ifndef CHANNELS_H
#define CHANNELS_H

#include <stdatomic.h>
#include <stdint.h>

#include "sandbox_broker.h"

enum {
    CHANNELS = 2,
    STRIDE = 80, /* words from channel to channel, so that no two share a cache line */
    MEMORY = 4096,
    CHANNELS_FD = 3, /* the descriptors of the target: the channels, its counts, and one socket a channel */
    COUNTS_FD = 4,
    SOCKET_FD = 5
};

typedef _Atomic uint64_t word;

struct shared {
    word channels[CHANNELS * STRIDE];
    _Atomic uint32_t bell;     /* rises with each call that is handed over */
    _Atomic uint32_t sleeping; /* not 0 if the broker waits for the bell */
};

/* What the target counts. The broker prints it and believes nothing of it. */
struct counts {
    uint64_t calls, own, wrong, files, bytes, attacked, lost, foreign, overwrites;
    uint32_t is_confined, open_errno, socket_errno, fork_errno, shrink_errno;
};

/* Makes a step on a word, once, sequentially consistent, and returns what it found. */
static inline uint64_t make_step(word *channels, const sb_step *step) {
    word *at = &channels[(size_t)step->channel * STRIDE + step->word];
    uint64_t found = step->expected;
    switch (step->kind) {
    case SB_LOAD:
        return atomic_load(at);
    case SB_STORE:
        atomic_store(at, step->value);
        return 0;
    case SB_EXCHANGE:
        atomic_compare_exchange_strong(at, &found, step->value);
        return found;
    default:
        return 0;
    }
}

static inline void relax(void) {
    __builtin_ia32_pause();
}

#endif
