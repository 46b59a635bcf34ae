/* Allocations of the library: each that a call makes fails in turn, and then the call says so and changes nothing; and calls that promise to make none make
 * none. Link with `-Wl,--wrap=malloc,--wrap=realloc`. Prints how many allocations failed, and how many each call makes. */
#include <inttypes.h>
#include <stdio.h>
#include <stdlib.h>
#include <string.h>

#include "sandbox_broker.h"

void *__real_malloc(size_t size);
void *__wrap_malloc(size_t size);
void *__real_realloc(void *at, size_t size);
void *__wrap_realloc(void *at, size_t size);

/* How many allocations were made since this was 0, which one of them fails (0 if none), and how many failed in all. */
static uint64_t made, failing, failed;

static int is_to_fail(void) {
    made++;
    failed += made == failing;
    return made == failing;
}

void *__wrap_malloc(size_t size) {
    return is_to_fail() ? NULL : __real_malloc(size);
}

void *__wrap_realloc(void *at, size_t size) {
    return is_to_fail() ? NULL : __real_realloc(at, size);
}

static void require(int holds, const char *what) {
    if (!holds) {
        fprintf(stderr, "allocations: %s\n", what);
        exit(1);
    }
}

static const char text[] =
    "sandbox-policy 2\n"
    "policy web\n"
    "grant files_readonly \"\\docs\\*\"\n"
    "readonly file.open when name like \"\\logs\\*\"\n"
    "fake event.create when name is \"\\ready\"\n"
    "allow ping when text is \"hello\" and cookie is 1 or 2\n";

static const uint16_t units[] = {'\\', 'd', 'o', 'c', 's', '\\', 'a', '?'};
static const sb_argument arguments[4] = {{1, 0, 7, 0, 0}, {0, 0, 0, 0, 0x80000000}, {0, 0, 0, 0, 1}, {0, 0, 0, 0, 0x40}};

static sb_handle policies, worker, space;
static sb_text_fault fault;
static sb_call_verdict verdict;
static sb_copy_decision decision;
static uint64_t block[64], channel[SB_CHANNEL_WORDS];
static size_t count;
static uint8_t bytes[64];
static uint32_t web;

/* Makes one step of the worker, on the one channel. None allocates. */
static void make(const sb_step *step) {
    uint64_t found = step->kind == SB_TAKE ? 1 : channel[step->word];
    if (step->kind == SB_STORE || (step->kind == SB_EXCHANGE && found == step->expected)) {
        channel[step->word] = step->value;
    }
    require(sb_worker_after(&worker, found) == SB_OK, "a step of the worker");
}

/* The steps of the worker to its next look, and then to its answer to the block, which is handed over. */
static void come_to_the_answer(void) {
    sb_step step;
    for (sb_worker_plan(&worker, &step); step.kind != SB_LOAD || step.word != 0; sb_worker_plan(&worker, &step)) {
        make(&step);
    }
    memcpy(channel + 1, block, count * sizeof *block);
    channel[0] = 3;
    for (sb_worker_plan(&worker, &step); step.kind != SB_ANSWER; sb_worker_plan(&worker, &step)) {
        make(&step);
    }
}

static uint32_t load(void) {
    return sb_policies_load(&policies, (const uint8_t *)text, sizeof text - 1, &fault);
}

static uint32_t new_worker(void) {
    return sb_worker_new(&worker, 1);
}

static uint32_t new_space(void) {
    return sb_space_new(&space);
}

static uint32_t encode(void) {
    return sb_block_encode(SB_FILE_OPEN, 7, arguments, 4, units, 7, block, 64, &count);
}

static uint32_t judge(void) {
    return sb_judge(&policies, web, SB_FILE_OPEN, arguments, 4, units, 7, &verdict);
}

static uint32_t decide(void) {
    return sb_worker_decide(&worker, &policies, web, &decision);
}

static uint32_t ask(void) {
    sb_argument argument;
    uint16_t name[64];
    return sb_worker_asked(&worker, 0, &argument, name, 64);
}

static uint32_t perform(void) {
    return sb_worker_perform(&worker, &space, 0);
}

static uint32_t string(void) {
    return sb_string_literal(units, 8, bytes, sizeof bytes, &count);
}

static uint32_t pattern(void) {
    return sb_pattern_literal(units, 8, bytes, sizeof bytes, &count);
}

/* Everything that a refused call must not change. */
struct seen {
    sb_call_verdict verdict;
    sb_copy_decision decision;
    sb_text_fault fault;
    uint64_t block[64];
    size_t count, policies;
    uint8_t bytes[64];
    sb_step step;
};

static struct seen look(void) {
    struct seen seen;
    memset(&seen, 0, sizeof seen);
    seen.verdict = verdict, seen.decision = decision, seen.fault = fault, seen.count = count, seen.policies = sb_policies_count(&policies);
    memcpy(seen.block, block, sizeof block);
    memcpy(seen.bytes, bytes, sizeof bytes);
    sb_worker_plan(&worker, &seen.step);
    return seen;
}

/* Makes a call with each of its allocations failing, from the first on, until none fails. */
static void try_each(const char *name, uint32_t (*call)(void)) {
    for (uint64_t which = 1;; which++) {
        struct seen before = look();
        made = 0, failing = which;
        uint32_t status = call();
        failing = 0;
        if (made < which) {
            require(status == SB_OK, name);
            printf("%s %" PRIu64 "\n", name, made);
            return;
        }
        require(status == SB_NO_MEMORY, name);
        struct seen after = look();
        require(!memcmp(&before, &after, sizeof before), name);
    }
}

/* Calls that never allocate. */
static void make_none(void) {
    sb_argument argument;
    sb_copy_fault copy_fault;
    sb_host_answer answer = {0, 1, 4, {1}};
    static sb_client_call call;
    sb_call_ending ending;
    sb_step step;
    uint16_t name[64];
    uint64_t values[64];
    size_t written;
    uint32_t number;
    made = 0;
    sb_policies_count(&policies);
    sb_policies_find(&policies, (const uint8_t *)"web", 3, &number);
    sb_policies_name(&policies, 0, bytes, sizeof bytes, &written);
    require(sb_worker_argument(&worker, 0, &argument, name, 64) == SB_OK, "an argument");
    require(sb_worker_reply(&worker, &answer) == SB_OK, "a reply");
    for (int i = 0; i < 300; i++) {
        sb_worker_plan(&worker, &step);
        sb_worker_values(&worker, values, 64, &written);
        if (sb_worker_moves(&worker) > 3) {
            sb_worker_loaded(&worker, block, 2);
            sb_worker_stored(&worker, 2);
        }
        sb_worker_after(&worker, 3);
    }
    sb_block_check(block[2], count, block, count, &copy_fault);
    require(sb_call_begin(&call, 1, 3, block, count) == SB_OK, "a call");
    for (int i = 0; i < 200; i++) {
        sb_call_plan(&call, &step);
        sb_call_after(&call, i & 7);
        sb_call_result(&call, &ending);
    }
    require(made == 0, "a call that promises not to allocate did");
}

int main(void) {
    try_each("load", load);
    require(sb_policies_find(&policies, (const uint8_t *)"web", 3, &web) == SB_OK, "the policy");
    try_each("load again", load);
    try_each("new worker", new_worker);
    try_each("new space", new_space);
    try_each("string literal", string);
    try_each("pattern literal", pattern);
    try_each("encode", encode);
    try_each("judge", judge);
    require(verdict.has_rule == 1 && verdict.action == SB_ALLOW, "the verdict");
    come_to_the_answer();
    try_each("asked", ask);
    try_each("decide", decide);
    require(decision.outcome == SB_PERFORMED && decision.arguments == 4, "the decision");
    try_each("perform", perform);
    come_to_the_answer();
    try_each("decide again", decide);
    make_none();
    require(sb_free(&policies) == SB_OK && sb_free(&worker) == SB_OK && sb_free(&space) == SB_OK, "free");
    printf("%" PRIu64 " allocations failed\n", failed);
    return 0;
}
