/* What the library costs through C, in nanoseconds of a processor: library verdicts POLICY CALLS ROUNDS, or library calls ROUNDS.
 *
 * CALLS has a line for each call of file.open: its name, a space, its access. */
#define _GNU_SOURCE
#include <inttypes.h>
#include <stdatomic.h>
#include <stdio.h>
#include <stdlib.h>
#include <string.h>
#include <time.h>

#include "sandbox_broker.h"

enum { MOST_CALLS = 512 };

struct named {
    uint16_t units[256];
    sb_argument arguments[4];
};

static _Atomic uint64_t channel[SB_CHANNEL_WORDS];

static double now(void) {
    struct timespec time;
    clock_gettime(CLOCK_PROCESS_CPUTIME_ID, &time);
    return (double)time.tv_sec * 1e9 + (double)time.tv_nsec;
}

static void require(int holds, const char *what) {
    if (!holds) {
        fprintf(stderr, "library: %s\n", what);
        exit(1);
    }
}

static char *text_of(const char *path, size_t *length) {
    FILE *file = fopen(path, "rb");
    char *text = malloc(1 << 22);
    require(file && text, path);
    *length = fread(text, 1, (1 << 22) - 1, file);
    text[*length] = 0;
    fclose(file);
    return text;
}

static void load(sb_handle *policies, const char *text, size_t length) {
    sb_text_fault fault;
    require(sb_policies_load(policies, (const uint8_t *)text, length, &fault) == SB_OK, "the policy");
}

static size_t read_calls(char *text, struct named *calls) {
    size_t count = 0;
    for (char *line = strtok(text, "\n"); line && count < MOST_CALLS; line = strtok(NULL, "\n")) {
        char *blank = strrchr(line, ' ');
        require(blank != NULL, "a call");
        struct named *call = &calls[count++];
        uint32_t length = (uint32_t)(blank - line);
        for (uint32_t i = 0; i < length && i < 256; i++) {
            call->units[i] = (uint8_t)line[i];
        }
        call->arguments[0] = (sb_argument){.is_text = 1, .length = length};
        call->arguments[1].number = strtoull(blank + 1, NULL, 10);
    }
    return count;
}

static void verdicts(const char *policy, const char *called, uint64_t rounds) {
    static struct named calls[MOST_CALLS];
    static sb_handle policies;
    size_t length;
    char *text = text_of(policy, &length);
    load(&policies, text, length);
    size_t count = read_calls(text_of(called, &length), calls);
    uint64_t allowed = 0;
    double start = now();
    for (uint64_t i = 0; i < rounds; i++) {
        for (size_t c = 0; c < count; c++) {
            sb_call_verdict verdict;
            require(sb_judge(&policies, 0, SB_FILE_OPEN, calls[c].arguments, 4, calls[c].units, 256, &verdict) == SB_OK, "a verdict");
            allowed += verdict.has_rule && verdict.action == SB_ALLOW;
        }
    }
    printf("verdict %.1f\nallowed %" PRIu64 "\n", (now() - start) / (double)(rounds * count), allowed);
}

static uint64_t make(const sb_step *step) {
    uint64_t expected = step->expected;
    switch (step->kind) {
    case SB_LOAD:
        return atomic_load(&channel[step->word]);
    case SB_STORE:
        atomic_store(&channel[step->word], step->value);
        return 0;
    case SB_EXCHANGE:
        atomic_compare_exchange_strong(&channel[step->word], &expected, step->value);
        return expected;
    default:
        return 1;
    }
}

/* Serves the call that is handed over. */
static void serve(sb_handle *worker, sb_handle *policies) {
    uint64_t values[64];
    size_t written;
    for (int is_served = 0; !is_served;) {
        sb_step step;
        sb_worker_plan(worker, &step);
        uint32_t moves = step.word ? sb_worker_moves(worker) : 0;
        if (step.kind == SB_ANSWER) {
            sb_copy_decision decision;
            sb_host_answer answer = {0, 2, 0, {7, 5}};
            require(sb_worker_decide(worker, policies, 0, &decision) == SB_OK && decision.outcome == SB_PERFORMED, "a decision");
            require(sb_worker_reply(worker, &answer) == SB_OK, "a reply");
        } else if (moves > 1 && step.kind == SB_LOAD) {
            for (uint32_t i = 0; i < moves; i++) {
                values[i] = atomic_load(&channel[step.word + i]);
            }
            sb_worker_loaded(worker, values, moves);
        } else if (moves > 1) {
            sb_worker_values(worker, values, 64, &written);
            for (uint32_t i = 0; i < written; i++) {
                atomic_store(&channel[step.word + i], values[i]);
            }
            sb_worker_stored(worker, (uint32_t)written);
        } else {
            sb_worker_after(worker, make(&step));
            is_served = step.kind == SB_EXCHANGE;
        }
    }
}

static void step_call(sb_client_call *call, int until_it_waits) {
    sb_step step;
    for (sb_call_plan(call, &step); step.kind != SB_IDLE && !(until_it_waits && step.kind == SB_LOAD); sb_call_plan(call, &step)) {
        sb_call_after(call, make(&step));
    }
}

static void calls(uint64_t rounds) {
    static const char policy[] = "sandbox-policy 1\npolicy p\nallow ping\n";
    static const uint16_t units[16] = {'s', 'i', 'x', 't', 'e', 'e', 'n', ' ', 'u', 'n', 'i', 't', 's', ' ', '1', '6'};
    static const sb_argument arguments[2] = {{.number = 7}, {.is_text = 1, .length = 16}};
    static sb_handle policies, worker;
    static sb_client_call call;
    sb_copy_fault fault;
    sb_call_ending ending;
    uint64_t words[64];
    size_t count = 0;
    load(&policies, policy, sizeof policy - 1);
    require(sb_worker_new(&worker, 1) == SB_OK, "a worker");
    atomic_store(&channel[0], SB_FREE);
    double start = now();
    for (uint64_t mark = 1; mark <= rounds; mark++) {
        require(sb_block_encode(SB_PING, mark, arguments, 2, units, 16, words, 64, &count) == SB_OK, "a block");
        require(sb_call_begin(&call, 1, 0, words, count) == SB_OK, "a call");
        step_call(&call, 1);
        serve(&worker, &policies);
        step_call(&call, 0);
        sb_call_result(&call, &ending);
        require(ending.kind == SB_REPLY && ending.found == mark && ending.words[0] == 7, "a reply to its mark");
    }
    printf("words %zu\ncall %.1f\n", count, (now() - start) / (double)rounds);
    start = now();
    for (uint64_t i = 0; i < rounds; i++) {
        sb_block_encode(SB_PING, i, arguments, 2, units, 16, words, 64, &count);
    }
    printf("encode %.1f\n", (now() - start) / (double)rounds);
    start = now();
    for (uint64_t i = 0; i < rounds; i++) {
        require(sb_block_check(2, count, words, count, &fault) == SB_OK, "a check");
    }
    printf("check %.1f\n", (now() - start) / (double)rounds);
    start = now();
    for (uint64_t i = 0; i < rounds; i++) {
        sb_step step;
        sb_worker_plan(&worker, &step);
        sb_worker_after(&worker, SB_FREE);
    }
    printf("look %.1f\n", (now() - start) / (double)rounds);
}

int main(int count, char **words) {
    if (count == 5 && !strcmp(words[1], "verdicts")) {
        verdicts(words[2], words[3], strtoull(words[4], NULL, 10));
    } else if (count == 3 && !strcmp(words[1], "calls")) {
        calls(strtoull(words[2], NULL, 10));
    } else {
        fprintf(stderr, "usage: library verdicts POLICY CALLS ROUNDS | calls ROUNDS\n");
        return 2;
    }
    return 0;
}
