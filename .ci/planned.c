/* A host makes each step of its worker as planned, once, and tells what that step found: this compares what it tells with the steps on 64-bit words that it
 * made since it told the last (.ci/planned.h notes them), and ends the program with 5 at the first that differs. What is made before the first plan
 * prepares the memory. Link with `-Wl,--wrap=` for each function `__wrap_` here. */
#include <inttypes.h>
#include <stdatomic.h>
#include <stdio.h>
#include <stdlib.h>
#include <unistd.h>

#include "sandbox_broker.h"

uint64_t noted_load(_Atomic uint64_t *at);
void noted_store(_Atomic uint64_t *at, uint64_t value);
_Bool noted_exchange(_Atomic uint64_t *at, uint64_t *expected, uint64_t value);

uint32_t __real_sb_worker_plan(sb_handle *worker, sb_step *step);
uint32_t __real_sb_worker_after(sb_handle *worker, uint64_t found);
uint32_t __real_sb_worker_loaded(sb_handle *worker, const uint64_t *values, size_t count);
uint32_t __real_sb_worker_stored(sb_handle *worker, uint32_t count);
uint32_t __real_sb_worker_reply(sb_handle *worker, const sb_host_answer *answer);
uint32_t __wrap_sb_worker_plan(sb_handle *worker, sb_step *step);
uint32_t __wrap_sb_worker_after(sb_handle *worker, uint64_t found);
uint32_t __wrap_sb_worker_loaded(sb_handle *worker, const uint64_t *values, size_t count);
uint32_t __wrap_sb_worker_stored(sb_handle *worker, uint32_t count);
uint32_t __wrap_sb_worker_reply(sb_handle *worker, const sb_host_answer *answer);

/* A step that the host made. */
struct made {
    uint32_t kind;
    const void *at;
    uint64_t expected, value, found;
};

static struct made steps[SB_CHANNEL_WORDS];
static size_t count;
static int has_planned;
static const void *places[8][SB_CHANNEL_WORDS];

static void require(int holds, const char *what) {
    if (!holds) {
        fprintf(stderr, "planned: %s\n", what);
        _exit(5);
    }
}

static void note(uint32_t kind, const void *at, uint64_t expected, uint64_t value, uint64_t found) {
    if (has_planned) {
        require(count < SB_CHANNEL_WORDS, "more steps than a channel has words");
        steps[count++] = (struct made){kind, at, expected, value, found};
    }
}

uint64_t noted_load(_Atomic uint64_t *at) {
    uint64_t found = atomic_load(at);
    note(SB_LOAD, (const void *)at, 0, 0, found);
    return found;
}

void noted_store(_Atomic uint64_t *at, uint64_t value) {
    atomic_store(at, value);
    note(SB_STORE, (const void *)at, 0, value, 0);
}

_Bool noted_exchange(_Atomic uint64_t *at, uint64_t *expected, uint64_t value) {
    uint64_t from = *expected;
    _Bool is_made = atomic_compare_exchange_strong(at, expected, value);
    note(SB_EXCHANGE, (const void *)at, from, value, is_made ? from : *expected);
    return is_made;
}

/* Each word of each channel has one place, and no other word has it. */
static void place(uint32_t channel, uint32_t word, const void *at) {
    const void **own = &places[channel][word];
    if (!*own) {
        for (size_t c = 0; c < 8; c++) {
            for (size_t w = 0; w < SB_CHANNEL_WORDS; w++) {
                require(places[c][w] != at, "a step on the place of another word");
            }
        }
        *own = at;
    }
    require(*own == at, "a step on another word");
}

uint32_t __wrap_sb_worker_plan(sb_handle *worker, sb_step *step) {
    has_planned = 1;
    return __real_sb_worker_plan(worker, step);
}

uint32_t __wrap_sb_worker_after(sb_handle *worker, uint64_t found) {
    sb_step step;
    if (__real_sb_worker_plan(worker, &step) == SB_OK && step.kind != SB_ANSWER) {
        if (step.kind == SB_TAKE || step.kind == SB_GIVE) {
            require(count == 0, "a step on a word at the turn");
        } else {
            require(count == 1, "no step, or more than one, where one was planned");
            require(steps[0].kind == step.kind, "a step of another kind");
            place(step.channel, step.word, steps[0].at);
            require(step.kind != SB_STORE || steps[0].value == step.value, "another value stored");
            require(step.kind != SB_EXCHANGE || (steps[0].expected == step.expected && steps[0].value == step.value), "another exchange");
            require(step.kind == SB_STORE || steps[0].found == found, "another value told than was found");
        }
    }
    count = 0;
    return __real_sb_worker_after(worker, found);
}

uint32_t __wrap_sb_worker_loaded(sb_handle *worker, const uint64_t *values, size_t told) {
    sb_step step;
    if (__real_sb_worker_plan(worker, &step) == SB_OK && step.kind == SB_LOAD) {
        require(count == told, "other loads in a row than are told");
        for (uint32_t i = 0; i < told; i++) {
            require(steps[i].kind == SB_LOAD && steps[i].found == values[i], "another value told than was loaded");
            place(step.channel, step.word + i, steps[i].at);
        }
    }
    count = 0;
    return __real_sb_worker_loaded(worker, values, told);
}

uint32_t __wrap_sb_worker_stored(sb_handle *worker, uint32_t told) {
    sb_step step;
    uint64_t values[64];
    size_t written = 0;
    if (__real_sb_worker_plan(worker, &step) == SB_OK && step.kind == SB_STORE && sb_worker_values(worker, values, 64, &written) == SB_OK) {
        require(count == told && told <= written, "other stores in a row than are told");
        for (uint32_t i = 0; i < told; i++) {
            require(steps[i].kind == SB_STORE && steps[i].value == values[i], "another value stored in a row");
            place(step.channel, step.word + i, steps[i].at);
        }
    }
    count = 0;
    return __real_sb_worker_stored(worker, told);
}

uint32_t __wrap_sb_worker_reply(sb_handle *worker, const sb_host_answer *answer) {
    require(count == 0, "a step on a word at the answer");
    return __real_sb_worker_reply(worker, answer);
}
