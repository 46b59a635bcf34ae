/* Calls of all functions of the library with random numbers, at any time: fuzz CALLS [SEED]. Each call that is refused has to change nothing, and no call may
 * read or write outside what it was given, which the address sanitizer sees. Every third allocation of the library fails (link with `-Wl,--wrap=malloc,--wrap=realloc`), and
 * no call may say that there is no memory if none of its own did. */
#include <inttypes.h>
#include <stdio.h>
#include <stdlib.h>
#include <string.h>

#include "sandbox_broker.h"

void *__real_malloc(size_t size);
void *__wrap_malloc(size_t size);
void *__real_realloc(void *at, size_t size);
void *__wrap_realloc(void *at, size_t size);

static uint64_t state;
static uint64_t allocations, failed;
static int failing;

static int is_to_fail(void) {
    int fails = failing && ++allocations % 3 == 0;
    failed += (uint64_t)fails;
    return fails;
}

void *__wrap_malloc(size_t size) {
    return is_to_fail() ? NULL : __real_malloc(size);
}

void *__wrap_realloc(void *at, size_t size) {
    return is_to_fail() ? NULL : __real_realloc(at, size);
}

static uint64_t next(void) {
    state ^= state << 13;
    state ^= state >> 7;
    state ^= state << 17;
    return state;
}

/* Mostly a small number, and sometimes any. */
static uint64_t number_below(uint64_t below) {
    return next() % 8 ? next() % below : next();
}

static void require(int holds, const char *what) {
    if (!holds) {
        fprintf(stderr, "fuzz: %s\n", what);
        exit(1);
    }
}

/* From here on allocations fail. */
static void begin(void) {
    failing = 1;
    failed = 0;
}

/* The status of the call that was made since. */
static uint32_t end(uint32_t status) {
    failing = 0;
    require(status != SB_NO_MEMORY || failed, "out of memory although no allocation failed");
    return status;
}

/* What is given to a call lies in blocks of exactly its size. */
static void *room(size_t size) {
    failing = 0;
    unsigned char *bytes = __real_malloc(size + 1);
    require(bytes != NULL, "out of memory");
    for (size_t i = 0; i < size; i++) {
        bytes[i] = (unsigned char)next();
    }
    return bytes;
}

static void *twin(const void *bytes, size_t size) {
    void *copy = __real_malloc(size + 1);
    require(copy != NULL, "out of memory");
    memcpy(copy, bytes, size);
    return copy;
}

static void encode(uint64_t *block, size_t *length) {
    size_t count = next() % 8, units = next() % 20, words = next() % 70, before = number_below(9);
    sb_argument *arguments = room(count * sizeof *arguments);
    for (size_t i = 0; i < count; i++) {
        arguments[i].is_text = next() % 2;
        arguments[i].start = (uint32_t)number_below(20);
        arguments[i].length = (uint32_t)number_below(8);
        arguments[i].number = number_below(10);
    }
    uint16_t *text = room(units * sizeof *text);
    for (size_t i = 0; i < units; i++) {
        text[i] = (uint16_t)(next() % 4 ? 'a' + next() % 26 : '\\');
    }
    uint64_t *into = room(words * sizeof *into), *old = twin(into, words * sizeof *into);
    size_t written = before;
    begin();
    uint32_t status = end(sb_block_encode(number_below(14), number_below(4), arguments, count, text, units, into, words, &written));
    require(status == SB_OK || status == SB_BAD_CALL || status == SB_NO_MEMORY || status == SB_NO_ROOM || status == SB_TOO_BIG, "a status of encode");
    if (status == SB_OK) {
        require(written >= 16 && written <= 64 && written <= words, "the length of a block");
        memcpy(block, into, written * sizeof *into);
        *length = written;
    } else {
        require(written == before && !memcmp(into, old, words * sizeof *into), "a refused encode changed something");
    }
    free(arguments), free(text), free(into), free(old);
}

static void check(const uint64_t *block, size_t length) {
    size_t count = next() % 4 && length ? length : next() % 70;
    uint64_t *words = room(count * sizeof *words);
    memcpy(words, block, (count < length ? count : length) * sizeof *words);
    if (count && next() % 2) {
        words[next() % count] = number_below(70);
    }
    sb_copy_fault fault = {7, 7, {7, 7}};
    uint32_t status = sb_block_check(count > 2 && next() % 4 ? words[2] : number_below(12), next() % 4 ? count : number_below(70), words, count, &fault);
    require(status == SB_OK || status == SB_BAD_CALL || status == SB_FAULT, "a status of check");
    require(status != SB_FAULT || (fault.number >= 1 && fault.number <= 10 && fault.count <= 2), "a fault");
    require(status == SB_FAULT || fault.number == 7, "a check without a fault wrote one");
    free(words);
}

static void call(sb_client_call *made, const uint64_t *block, size_t length) {
    sb_step step = {9, 9, 9, 9, 9, 9};
    sb_call_ending ending;
    sb_client_call old = *made;
    switch (next() % 6) {
    case 0: {
        size_t count = next() % 3 && length ? length : next() % 70;
        uint64_t *words = room(count * sizeof *words);
        memcpy(words, block, (count < length ? count : length) * sizeof *words);
        uint32_t status = sb_call_begin(made, (uint32_t)number_below(10), number_below(5), words, count);
        require(status == SB_OK || status == SB_BAD_CALL, "a status of begin");
        require(status == SB_OK || !memcmp(made, &old, sizeof old), "a refused begin changed something");
        free(words);
        break;
    }
    case 1:
        for (size_t i = 0; next() % 4 && i < sizeof *made; i++) {
            if (next() % 8 == 0) {
                ((unsigned char *)made)[i] = (unsigned char)number_below(13);
            }
        }
        break;
    default:
        sb_call_plan(made, &step);
        require(step.kind <= SB_EXCHANGE && step.word < SB_CHANNEL_WORDS && step.channel < 8, "a step");
        sb_call_after(made, number_below(6));
        sb_call_result(made, &ending);
        require(ending.kind <= SB_TIMED_OUT && ending.count <= 7, "an ending");
    }
}

static void literal(void) {
    size_t count = next() % 8 ? next() % 12 : next() % 300, bytes = next() % 40, before = number_below(9);
    uint16_t *units = room(count * sizeof *units);
    for (size_t i = 0; i < count && next() % 8; i++) {
        units[i] = (uint16_t)(next() % 6 ? 32 + next() % 90 : next());
    }
    uint8_t *text = room(bytes), *old = twin(text, bytes);
    size_t written = before;
    begin();
    uint32_t status = end(next() % 2 ? sb_string_literal(units, count, text, bytes, &written) : sb_pattern_literal(units, count, text, bytes, &written));
    require(status == SB_OK || status == SB_NO_MEMORY || status == SB_NO_ROOM || status == SB_NO_LITERAL, "a status of a literal");
    require(status == SB_OK ? written <= bytes : written == before && !memcmp(text, old, bytes), "a literal");
    free(units), free(text), free(old);
}

/* Texts of policies: how many each has, or the line and the number of its first fault. */
static const struct {
    const char *text;
    size_t count;
    uint32_t line;
    uint64_t number;
} texts[] = {
    {"sandbox-policy 1\npolicy web\nallow file.open when name like \"\\docs\\*\"\nallow ping\n", 1, 0, 0},
    {"sandbox-policy 1\npolicy a\ndeny ping when text is \"\"\nallow ping\npolicy b\n", 2, 0, 0},
    {"sandbox-policy 1\npolicy web\nallow nothing\n", 0, 3, 4},
    {"sandbox-policy 7\n", 0, 1, 2},
};

/* A handle that holds as many policies as `count`, and none if it is not `full`. */
static void policies(sb_handle *handle, size_t *count, int *full) {
    sb_text_fault fault = {7, 7, 7};
    uint32_t status, number = 9;
    switch (next() % 8) {
    case 0: {
        size_t text = next() % 4;
        begin();
        status = end(sb_policies_load(handle, (const uint8_t *)texts[text].text, strlen(texts[text].text), &fault));
        require(status == SB_OK || status == SB_NO_MEMORY || status == SB_FAULT, "a status of load");
        require(status != SB_OK || texts[text].line == 0, "a text with a fault was loaded");
        require(status != SB_FAULT || (fault.line == texts[text].line && fault.number == texts[text].number), "the fault of a text");
        require(status == SB_FAULT || fault.number == 7, "a load without a fault wrote one");
        if (status == SB_OK) {
            *count = texts[text].count, *full = 1;
        }
        break;
    }
    case 1:
        status = sb_free(handle);
        require(status == (*full ? SB_OK : SB_BAD_CALL), "a status of free");
        *count = 0, *full = 0;
        break;
    case 2:
        status = sb_policies_find(handle, (const uint8_t *)"web", 3, &number);
        require(status == (*count == 1 ? SB_OK : SB_BAD_CALL) && number == (*count == 1 ? 0 : 9), "a policy by its name");
        break;
    case 3: {
        size_t bytes = next() % 5, written = 99;
        uint8_t *name = room(bytes), *old = twin(name, bytes);
        number = (uint32_t)number_below(3);
        status = sb_policies_name(handle, number, name, bytes, &written);
        require(status == (number >= *count ? SB_BAD_CALL : bytes < (*count == 1 ? 3 : 1) ? SB_NO_ROOM : SB_OK), "a status of name");
        require(status == SB_OK ? written <= bytes : written == 99 && !memcmp(name, old, bytes), "a name");
        free(name), free(old);
        break;
    }
    default: {
        uint16_t units[8];
        sb_argument arguments[4];
        sb_call_verdict verdict = {9, 9, 9, 9};
        size_t given = next() % 5;
        for (size_t i = 0; i < 8; i++) {
            units[i] = (uint16_t)(next() % 4 ? '\\' : 'd');
        }
        for (size_t i = 0; i < 4; i++) {
            arguments[i] = (sb_argument){(uint32_t)(next() % 2), (uint32_t)number_below(8), (uint32_t)number_below(4), 0, number_below(4)};
        }
        begin();
        status = end(sb_judge(handle, (uint32_t)number_below(3), number_below(14), arguments, given, units, 8, &verdict));
        require(status == SB_OK || status == SB_BAD_CALL || status == SB_NO_MEMORY, "a status of judge");
        require(status != SB_OK || *count, "a verdict of no policy");
        require(status == SB_OK ? verdict.has_rule <= 1 && verdict.action <= SB_READONLY : verdict.line == 9, "a verdict");
    }
    }
    require(sb_policies_count(handle) == *count, "the number of policies");
}

/* The memory of two channels, which anybody overwrites at any time. */
static uint64_t memory[2][65];

static void hand_over(const uint64_t *block, size_t length) {
    uint64_t *channel = memory[next() % 2];
    if (length && next() % 4) {
        memcpy(channel + 1, block, length * sizeof *block);
        channel[0] = 3;
    }
    channel[next() % 65] = next() % 3 ? channel[next() % 65] : number_below(70);
}

/* The next steps of a worker, made on that memory. */
static void steps(sb_handle *worker) {
    for (size_t i = 0; i < 70; i++) {
        sb_step step = {9, 9, 9, 9, 9, 9};
        uint64_t found = 0;
        if (sb_worker_plan(worker, &step) != SB_OK) {
            require(step.kind == SB_IDLE, "a step of no worker");
            return;
        }
        require(step.kind <= SB_GIVE && step.word < SB_CHANNEL_WORDS && step.channel < 8, "a step of a worker");
        uint64_t *word = &memory[step.channel % 2][step.word];
        if (step.kind == SB_ANSWER) {
            require(sb_worker_after(worker, 0) == SB_BAD_CALL, "a step at the answer");
            return;
        }
        uint32_t moves = sb_worker_moves(worker);
        if (moves > 1 && next() % 2) {
            uint64_t *values = room(moves * sizeof *values);
            size_t written = 99;
            require(step.word + moves <= SB_CHANNEL_WORDS, "moves within a channel");
            if (step.kind == SB_LOAD) {
                memcpy(values, word, moves * sizeof *values);
                require(sb_worker_loaded(worker, values, moves) == SB_OK, "loads in a row");
            } else {
                require(sb_worker_values(worker, values, moves - 1, &written) == SB_NO_ROOM && written == 99, "less room than values");
                require(sb_worker_values(worker, values, moves, &written) == SB_OK && written == moves, "values in a row");
                memcpy(word, values, moves * sizeof *values);
                require(sb_worker_stored(worker, moves) == SB_OK, "stores in a row");
            }
            free(values);
            continue;
        }
        switch (step.kind) {
        case SB_LOAD:
            found = *word;
            break;
        case SB_STORE:
            *word = step.value;
            break;
        case SB_EXCHANGE:
            found = *word;
            *word = found == step.expected ? step.value : found;
            break;
        default:
            found = next() % 4;
        }
        require(sb_worker_after(worker, found) == SB_OK, "a step");
        if (next() % 16 == 0) {
            *word = number_below(70);
        }
    }
}

/* The arguments that a copy asks for, to the first that is not there. */
static void asked(sb_handle *host) {
    sb_argument argument = {9, 9, 9, 9, 9};
    uint32_t status = SB_OK;
    for (uint32_t i = 0; i < 12 && (status == SB_OK || status == SB_NO_ROOM); i++) {
        size_t count = next() % 20;
        uint16_t *units = room(count * sizeof *units);
        begin();
        status = end(sb_worker_asked(host, i, &argument, units, count));
        require(status == SB_OK || status == SB_NO_MEMORY || status == SB_NO_ROOM || status == SB_BAD_CALL, "a status of what is asked for");
        require(status != SB_OK || argument.length <= count, "an argument that is asked for");
        free(units);
    }
    require(status != SB_OK, "more than nine arguments");
}

/* A namespace that is made, freed, or one in which a call is performed. */
static void namespace(sb_handle *space, sb_handle *host) {
    uint32_t status;
    if (next() % 4 == 0) {
        begin();
        status = end(sb_space_new(space));
        require(status == SB_OK || status == SB_NO_MEMORY || (status == SB_BAD_CALL && space->live), "a status of a new namespace");
    } else if (next() % 64 == 0) {
        sb_free(space);
    } else {
        begin();
        status = end(sb_worker_perform(host, space, (uint32_t)number_below(3)));
        require(status == SB_OK || status == SB_NO_MEMORY || status == SB_BAD_CALL, "a status of what is performed");
        require(status != SB_OK || sb_worker_perform(host, space, 0) == SB_BAD_CALL, "a call that is performed twice");
    }
}

static void worker(sb_handle *host, sb_handle *policies, sb_handle *space, const uint64_t *block, size_t length) {
    sb_copy_decision decision = {9, 9, 9, 9, 9, 9, 9};
    uint64_t values[4] = {1, 2, 3, 4};
    uint32_t status;
    size_t written = 0;
    switch (next() % 16) {
    case 0:
        begin();
        status = end(next() % 2 ? sb_worker_new(host, (uint32_t)number_below(10)) : sb_worker_adopt(host, (uint32_t)number_below(10)));
        require(status == SB_OK || status == SB_NO_MEMORY || status == SB_BAD_CALL, "a status of a new worker");
        break;
    case 1:
        if (next() % 16 == 0) {
            sb_free(host);
        }
        break;
    case 2:
        sb_worker_after(host, next());
        sb_worker_loaded(host, values, next() % 5);
        sb_worker_stored(host, (uint32_t)number_below(14));
        sb_worker_values(host, values, next() % 5, &written);
        break;
    case 3:
    case 4:
    case 5: {
        begin();
        status = end(sb_worker_decide(host, policies, (uint32_t)number_below(3), &decision));
        require(status == SB_OK || status == SB_NO_MEMORY || status == SB_BAD_CALL, "a status of decide");
        require(status == SB_OK ? decision.outcome <= SB_FAKED && decision.fault <= 10 && decision.arguments <= 9 : decision.outcome == 9, "a decision");
        for (uint32_t i = 0; status == SB_OK && i <= decision.arguments; i++) {
            sb_argument argument;
            size_t count = next() % 20;
            uint16_t *units = room(count * sizeof *units);
            uint32_t shown = sb_worker_argument(host, i, &argument, units, count);
            require(i == decision.arguments ? shown == SB_BAD_CALL : shown == SB_OK || shown == SB_NO_ROOM, "a status of an argument");
            require(shown != SB_OK || argument.length <= count, "an argument");
            free(units);
        }
        break;
    }
    case 8:
        asked(host);
        break;
    case 9:
        namespace(space, host);
        break;
    case 6:
    case 7: {
        sb_host_answer answer = {(uint32_t)next(), (uint32_t)number_below(9), next() % 4, {1, 2, 3, 4, 5, 6, 7}};
        status = sb_worker_reply(host, &answer);
        require(status == SB_OK || status == SB_BAD_CALL, "a status of reply");
        require(status != SB_OK || sb_worker_reply(host, &answer) == SB_BAD_CALL, "a second reply");
        break;
    }
    default:
        hand_over(block, length);
        steps(host);
    }
}

int main(int argc, char **argv) {
    uint64_t calls = argc > 1 ? strtoull(argv[1], NULL, 10) : 1000000, seed = argc > 2 ? strtoull(argv[2], NULL, 10) : 1;
    uint64_t block[64];
    size_t length = 0;
    sb_client_call made;
    sb_handle handle = {0, NULL}, host = {0, NULL}, space = {0, NULL};
    size_t count = 0;
    int full = 0;
    memset(&made, 0, sizeof made);
    state = seed * UINT64_C(0x9e3779b97f4a7c15) + 1;
    for (uint64_t i = 0; i < calls; i++) {
        switch (next() % 8) {
        case 0:
            encode(block, &length);
            break;
        case 1:
            check(block, length);
            break;
        case 2:
            literal();
            break;
        case 3:
            policies(&handle, &count, &full);
            break;
        case 4:
        case 5:
        case 6:
            worker(&host, &handle, &space, block, length);
            break;
        default:
            call(&made, block, length);
        }
    }
    sb_free(&host), sb_free(&space);
    require(sb_free(&handle) == (full ? SB_OK : SB_BAD_CALL) && sb_free(&handle) == SB_BAD_CALL, "the last free");
    printf("%" PRIu64 " calls\n", calls);
    return 0;
}
