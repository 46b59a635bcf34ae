/* A policy and its verdicts, and the caller's side of a call, in C: the block of a call is laid out and checked, and the call is made on a channel of this process. The broker's side is
 * played here by two functions that store what a broker would; a real one is another process, and only the channel is shared.
 *
 * Build it with what `./sandbox-lib FOLDER` puts into a folder:
 *
 *     cc -std=c11 -Wall -Wextra -I FOLDER -o client client.c FOLDER/libsb_c.a FOLDER/liblibc_c.a
 */
#include <inttypes.h>
#include <stdatomic.h>
#include <stdio.h>
#include <stdlib.h>
#include <string.h>

#include "sandbox_broker.h"

/* The words of the one channel: its state, and the 64 words of a block. */
static _Atomic uint64_t channel[SB_CHANNEL_WORDS];

static const char policy[] =
    "sandbox-policy 1\n"
    "policy web\n"
    "grant files_readonly \"\\docs\\*\"\n"
    "allow ping\n";

static void fail(const char *what, uint32_t status) {
    printf("%s: status %" PRIu32 "\n", what, status);
    exit(1);
}

/* Makes one step as it was planned, once, and returns what it found. */
static uint64_t make(const sb_step *step) {
    uint64_t expected = step->expected;
    switch (step->kind) {
    case SB_LOAD:
        return atomic_load(&channel[step->word]);
    case SB_STORE:
        atomic_store(&channel[step->word], step->value);
        return 0;
    case SB_EXCHANGE:
        atomic_compare_exchange_strong(&channel[step->word], &expected, step->value);
        return expected;
    default:
        return 0;
    }
}

/* What a broker stores as its reply: mark, outcome, status, handle, the number of extended words, and these. */
static void reply(uint64_t mark, uint64_t handle) {
    const uint64_t words[12] = {mark, SB_PERFORMED, 0, handle};
    for (size_t i = 0; i < 12; i++) {
        atomic_store(&channel[1 + 3 + i], words[i]);
    }
    atomic_store(&channel[0], 4);
}

int main(void) {
    if (sb_version() != SB_VERSION) {
        fail("another library", sb_version());
    }

    const uint16_t units[] = {'\\', 'd', 'o', 'c', 's', '\\', 'a'};
    sb_argument arguments[4] = {{.is_text = 1, .start = 0, .length = 7}, {.number = 1}, {.number = 0}, {.number = 0}};

    /* Policies: the first fault of a text, the number of a policy, and its verdicts. A handle begins as zeros, and is freed by its address. */
    sb_handle policies = {0};
    sb_text_fault text_fault;
    sb_call_verdict verdict;
    uint32_t web = 0;
    printf("a text that ends in a rule: %" PRIu32, sb_policies_load(&policies, (const uint8_t *)policy, sizeof policy - 1 - 5, &text_fault));
    printf(" line %" PRIu32 " column %" PRIu32 " fault %" PRIu64 ", %zu policies\n", text_fault.line, text_fault.column, text_fault.number,
           sb_policies_count(&policies));
    uint32_t loaded = sb_policies_load(&policies, (const uint8_t *)policy, sizeof policy - 1, &text_fault);
    printf("load %" PRIu32 ", %zu policies, find %" PRIu32 "\n", loaded, sb_policies_count(&policies), sb_policies_find(&policies, (const uint8_t *)"web", 3, &web));
    printf("opened to be read: %" PRIu32, sb_judge(&policies, web, SB_FILE_OPEN, arguments, 4, units, 7, &verdict));
    printf(" line %" PRIu32 " action %" PRIu32 "\n", verdict.line, verdict.action);
    arguments[1].number = 2;
    printf("opened to be written: %" PRIu32, sb_judge(&policies, web, SB_FILE_OPEN, arguments, 4, units, 7, &verdict));
    printf(" rule %" PRIu32 "\n", verdict.has_rule);
    arguments[1].number = 1;
    printf("no such policy: %" PRIu32 "\n", sb_judge(&policies, web + 1, SB_FILE_OPEN, arguments, 4, units, 7, &verdict));
    printf("free %" PRIu32, sb_free(&policies));
    printf(" and again %" PRIu32 "\n", sb_free(&policies));

    /* What does not fit the call is refused, and nothing is written. */
    uint64_t block[64];
    size_t count = 0;
    printf("too few arguments: %" PRIu32 "\n", sb_block_encode(SB_FILE_OPEN, 1, arguments, 3, units, 7, block, 64, &count));
    printf("string outside: %" PRIu32 "\n", sb_block_encode(SB_FILE_OPEN, 1, arguments, 4, units, 6, block, 64, &count));
    printf("no room: %" PRIu32 "\n", sb_block_encode(SB_FILE_OPEN, 1, arguments, 4, units, 7, block, 8, &count));

    uint32_t status = sb_block_encode(SB_FILE_OPEN, 0x10001, arguments, 4, units, 7, block, 64, &count);
    if (status != SB_OK) {
        fail("encode", status);
    }
    printf("block of %zu words\n", count);

    /* What a broker asks of its copy: the count and the end that it loaded before, and the words. */
    sb_copy_fault fault;
    const uint64_t parameters = block[2], end = count;
    printf("whole copy: %" PRIu32 "\n", sb_block_check(parameters, end, block, count, &fault));
    uint64_t changed[64];
    memcpy(changed, block, sizeof changed);
    changed[0] = 99;
    printf("another tag: %" PRIu32, sb_block_check(parameters, end, changed, count, &fault));
    printf(" fault %" PRIu32 " of %" PRIu64 "\n", fault.number, fault.values[0]);
    printf("no such copy: %" PRIu32 "\n", sb_block_check(parameters, end, block, count - 1, &fault));

    /* The call: each step as planned. While it waits the broker's side replies. */
    static sb_client_call call;
    sb_call_ending ending;
    atomic_store(&channel[0], SB_FREE);
    printf("too short a block: %" PRIu32 "\n", sb_call_begin(&call, 1, 0, block, 15));
    status = sb_call_begin(&call, 1, 0, block, count);
    if (status != SB_OK) {
        fail("begin", status);
    }
    printf("begun twice: %" PRIu32 "\n", sb_call_begin(&call, 1, 0, block, count));
    size_t steps = 0;
    for (sb_step step; sb_call_plan(&call, &step), step.kind != SB_IDLE; steps++) {
        if (step.kind == SB_LOAD && step.word == 0 && atomic_load(&channel[0]) == 3) {
            reply(atomic_load(&channel[2]), 4);
        }
        sb_call_after(&call, make(&step));
    }
    sb_call_result(&call, &ending);
    printf("after %zu steps: kind %" PRIu32 " channel %" PRIu32 " mark %" PRIx64 " outcome %" PRIu64 " handle %" PRIu64 "\n", steps, ending.kind, ending.channel,
           ending.found, ending.outcome, ending.handle);
    printf("state %" PRIu64 "\n", atomic_load(&channel[0]));

    /* A name of a folder that is to be granted: in a pattern it matches itself, whatever it has in it. */
    const uint16_t folder[] = {'\\', 'w', 'h', 'y', '?'};
    const uint16_t star[] = {'\\', '*'};
    uint8_t text[64];
    status = sb_pattern_literal(folder, 5, text, sizeof text, &count);
    printf("pattern %" PRIu32 ": %.*s\n", status, (int)count, (const char *)text);
    printf("a star: %" PRIu32 "\n", sb_pattern_literal(star, 2, text, sizeof text, &count));
    status = sb_string_literal(star, 2, text, sizeof text, &count);
    printf("string %" PRIu32 ": %.*s\n", status, (int)count, (const char *)text);
    return 0;
}
