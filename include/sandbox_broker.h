/* The library for brokers in C, C++ and Rust: policies and their verdicts, the worker of a target and the caller's side of a call on memory that the other
 * side may overwrite at any time, the check of a copy that is not trusted, the block of a call, and the texts of literals in policies. docs/LIBRARY.md shows
 * how a broker is built on it.
 *
 * What is proved of these functions is what the comments say, for any numbers. What nothing checks is C's part:
 *
 * - Pointers are not null, also for length 0, lengths are right, and what one call is given does not overlap.
 * - The caller makes each step as planned: one atomic, sequentially consistent load, store or compare-exchange of that 64-bit word of that channel,
 *   once, and tells what that step found. It stores nothing else into the channels.
 * - A handle is not copied while it holds something, only functions of this library change it, and one call at a time is given it.
 * - The host performs what was granted, with these arguments, and nothing else. Its declarations are those of this header.
 * - `malloc`, `realloc` and `free` are those of one allocator, and no function that allocates is called in a signal handler, or in the child of a fork
 *   of a process with threads.
 *
 * Numbers of statuses, calls, outcomes and faults never change. Linux on x86-64. */
#ifndef SANDBOX_BROKER_H
#define SANDBOX_BROKER_H

#include <stddef.h>
#include <stdint.h>

#ifdef __cplusplus
extern "C" {
#endif

/* What `sb_version` returns. */
#define SB_VERSION 1u

/* How a call of this library ended. */
enum sb_status {
    SB_OK = 0,
    SB_BAD_CALL = 1,   /* a number is out of range, or this is not the time for the call: nothing changed */
    SB_NO_MEMORY = 2,  /* nothing changed */
    SB_FAULT = 3,      /* the copy has a fault, which is told */
    SB_NO_ROOM = 4,    /* what is to be written needs more room: nothing changed */
    SB_NO_LITERAL = 5, /* no text means exactly this string: nothing changed */
    SB_TOO_BIG = 6     /* the call needs more than the 64 words of a block: nothing changed */
};

enum sb_step_kind { SB_IDLE = 0, SB_LOAD = 1, SB_STORE = 2, SB_EXCHANGE = 3, SB_TAKE = 4, SB_ANSWER = 5, SB_GIVE = 6 };

enum sb_outcome { SB_PERFORMED = 0, SB_REFUSED = 1, SB_DENIED = 2, SB_FAKED = 3 };

enum sb_call_kind { SB_NOT_ENDED = 0, SB_REPLY = 1, SB_FOREIGN = 2, SB_NO_CHANNEL = 3, SB_SEND_LOST = 4, SB_TIMED_OUT = 5 };

enum sb_action { SB_ALLOW = 0, SB_DENY = 1, SB_ALARM = 2, SB_FAKE = 3, SB_READONLY = 4 };

/* The calls, with their parameters. */
enum sb_call_number {
    SB_PING = 1,         /* a number, a text */
    SB_FILE_CREATE = 2,  /* a name, attributes, access, sharing, disposition, options */
    SB_FILE_OPEN = 3,    /* a name, access, sharing, options */
    SB_FILE_QUERY = 4,   /* a name */
    SB_FILE_RENAME = 5,  /* a name, the new name */
    SB_PIPE_CREATE = 6,  /* a name, mode, form, instances */
    SB_KEY_CREATE = 7,   /* a name, access */
    SB_KEY_OPEN = 8,     /* a name, access */
    SB_EVENT_CREATE = 9, /* a name, kind, initial state */
    SB_EVENT_OPEN = 10,  /* a name, access */
    SB_HANDLE_CLOSE = 11 /* a handle */
};

/* The faults of a copy, and their values. Parameters are counted from 0. */
enum sb_copy_fault_number {
    SB_COPY_TOO_MANY_PARAMS = 1, /* the count that was loaded is above 9: the count */
    SB_COPY_BAD_END = 2,         /* the end that was loaded lies within the parameters, or above 64: the end */
    SB_COPY_COUNT_CHANGED = 3,   /* the copy has another count: that loaded before, that in the copy */
    SB_COPY_END_CHANGED = 4,     /* the copy has another end: that loaded before, that in the copy */
    SB_COPY_BAD_PARAM_TYPE = 5,  /* no string, number or handle: the parameter */
    SB_COPY_BAD_PLACE = 6,       /* begins within the parameters, or reaches past the end: the parameter */
    SB_COPY_UNKNOWN_TAG = 7,     /* no call has this number: the number */
    SB_COPY_WRONG_SHAPE = 8,     /* the parameters are not those of the call */
    SB_COPY_BAD_SIZE = 9,        /* a string of an odd size, a number not of 4 bytes, a handle not of 8: the parameter */
    SB_COPY_BAD_NAME = 10        /* no name: the parameter */
};

/* The faults of a policy text. */
enum sb_text_fault_number {
    SB_TEXT_NOT_UTF8 = 1,
    SB_TEXT_BAD_VERSION = 2,   /* the first line is neither `sandbox-policy 1` nor `sandbox-policy 2` */
    SB_TEXT_UNKNOWN_WORD = 3,  /* a word that may not stand there; a missing, broken or extra one */
    SB_TEXT_UNKNOWN_CALL = 4,  /* no call has this name */
    SB_TEXT_UNKNOWN_PARAM = 5, /* the call has no parameter of this name */
    SB_TEXT_WRONG_KIND = 6,    /* the test or its value does not fit the parameter */
    SB_TEXT_BAD_NUMBER = 7,    /* no number below 2^64, or no two of them joined by `..` */
    SB_TEXT_EMPTY_RANGE = 8,
    SB_TEXT_BAD_PATTERN = 9,   /* `**` or `*?`, or a string of more than 256 units */
    SB_TEXT_TOO_MANY = 10,     /* more than 8 policies, 256 rules of one, 8 conditions of a rule, or 16 numbers of a condition */
    SB_TEXT_SAME_NAME = 11,    /* an earlier policy has this name */
    SB_TEXT_NO_HEADING = 12,   /* a rule or a grant before the first policy */
    SB_TEXT_NOT_READ_ONLY = 13 /* `readonly` of a call other than file.open, key.open and event.open */
};

/* How many words a channel has: its state, and the 64 words of a block. */
#define SB_CHANNEL_WORDS 65

/* The state of a channel that nobody uses: what a host stores before the target starts. */
#define SB_FREE 1

/* An argument: a number (also a handle), or the `length` units from `start` on of the array of UTF-16 units beside it. `room` is 0. */
typedef struct sb_argument {
    uint32_t is_text;
    uint32_t start;
    uint32_t length;
    uint32_t room;
    uint64_t number;
} sb_argument;

/* What the library keeps on the heap for the caller: policies, a worker, or a namespace. Zeros hold nothing, so `sb_handle h = {0};` is valid, and so is a
 * handle that was freed. The fields are for the library. */
typedef struct sb_handle {
    uint64_t live;
    void *at;
} sb_handle;

/* The first fault of a policy text: its line from 1, its column from 1 (0 if no place in a line is meant), and its number from 1 to 13. */
typedef struct sb_text_fault {
    uint32_t line;
    uint32_t column;
    uint64_t number;
} sb_text_fault;

/* What a policy says of a call: the line of the rule that decides, from 1, and its action; or, with `has_rule` 0, that no rule holds. `room` is 0. */
typedef struct sb_call_verdict {
    uint32_t has_rule;
    uint32_t line;
    uint32_t action;
    uint32_t room;
} sb_call_verdict;

/* What is decided of a copy: its outcome; of a call its number, the rule that decided, and how many arguments are granted; and of a copy that is refused the
 * number of its first fault, from 1 to 10. What there is none of is 0. */
typedef struct sb_copy_decision {
    uint32_t outcome;
    uint32_t call;
    uint32_t has_rule;
    uint32_t line;
    uint32_t action;
    uint32_t fault;
    uint64_t arguments;
} sb_copy_decision;

/* What a host answers to a call that it performed: a Windows status code, the handle that the target is granted or 0, and at most 7 extended words. */
typedef struct sb_host_answer {
    uint32_t status;
    uint32_t count;
    uint64_t handle;
    uint64_t words[7];
} sb_host_answer;

/* One step: its kind, the channel from 0, and the word of it from 0 (the state) to 64. An exchange stores `value` if the word is `expected`. */
typedef struct sb_step {
    uint32_t kind;
    uint32_t channel;
    uint32_t word;
    uint32_t room;
    uint64_t expected;
    uint64_t value;
} sb_step;

/* The first fault of a copy: its number from 1 to 10, and its values. */
typedef struct sb_copy_fault {
    uint32_t number;
    uint32_t count;
    uint64_t values[2];
} sb_copy_fault;

/* A call of a target in its own memory, without a heap. Zeros hold no call. The fields are for the library. */
typedef struct sb_client_call {
    uint32_t channels;
    uint32_t channel;
    uint32_t phase;
    uint32_t at;
    uint32_t len;
    uint32_t all_abandoned;
    uint64_t patience;
    uint64_t count;
    uint64_t found;
    uint64_t block[64];
    uint64_t reply[12];
} sb_client_call;

/* How a call ended, and the reply if there is one: `found` is its mark, or the state of the channel that was lost. */
typedef struct sb_call_ending {
    uint32_t kind;
    uint32_t channel;
    uint64_t found;
    uint64_t outcome;
    uint64_t status;
    uint64_t handle;
    uint64_t count;
    uint64_t words[7];
} sb_call_ending;

/* The version of this header with which the library was built. */
uint32_t sb_version(void);

/* Empties a handle, and frees what it held. SB_BAD_CALL exactly if it held nothing, so freeing twice changes nothing. */
uint32_t sb_free(sb_handle *handle);

/* Reads the policies of a text of at most 4,194,304 bytes into a handle that is empty or holds policies, in place of those. SB_FAULT: the text has a fault,
 * and `fault` is the first. SB_BAD_CALL exactly if the text is longer, or the handle holds something else. Unless SB_OK, the handle stays as it was. */
uint32_t sb_policies_load(sb_handle *policies, const uint8_t *text, size_t byte_count, sb_text_fault *fault);

/* How many policies there are, 0 if the handle holds none. Does not allocate. */
size_t sb_policies_count(sb_handle *policies);

/* Writes the number, from 0, of the policy of this name. SB_BAD_CALL exactly if there is none. Does not allocate. */
uint32_t sb_policies_find(sb_handle *policies, const uint8_t *name, size_t byte_count, uint32_t *number);

/* Writes the name of the policy with this number, and how many bytes it has. SB_BAD_CALL exactly if there is no such policy; SB_NO_ROOM: the name needs
 * more than `room` bytes. Does not allocate. */
uint32_t sb_policies_name(sb_handle *policies, uint32_t number, uint8_t *name, size_t room, size_t *byte_count);

/* Writes the verdict of the policy with this number on a call, of which each string is a part of the units. SB_BAD_CALL exactly if there is no such policy
 * or call, a string does not lie within the units, or the arguments are not those of the call. SB_NO_MEMORY only after each string was found within the
 * units, and the call was found. */
uint32_t sb_judge(sb_handle *policies, uint32_t policy, uint64_t call, const sb_argument *arguments, size_t argument_count, const uint16_t *units,
                  size_t unit_count, sb_call_verdict *verdict);

/* The worker of a target with 1 to 8 channels: it tells the host which step to make on a channel, and is told what that step found. The host takes the turn
 * at SB_TAKE and gives it back at SB_GIVE, if several workers perform on the same objects. At SB_ANSWER it calls `sb_worker_decide`, then reads the arguments
 * that are granted and performs the call with these alone, if the outcome is SB_PERFORMED, and then calls `sb_worker_reply`.
 *
 * `sb_worker_new` puts a worker into a handle that holds nothing; `sb_worker_adopt` one whose channels had a worker that makes no more steps: it begins with
 * an exchange of the state of each channel, so that no call is performed twice. SB_BAD_CALL exactly if the handle holds something or there are fewer or more
 * channels. */
uint32_t sb_worker_new(sb_handle *worker, uint32_t channels);
uint32_t sb_worker_adopt(sb_handle *worker, uint32_t channels);

/* Writes the one next step. SB_BAD_CALL exactly if the handle holds no worker; then the step is SB_IDLE. Does not allocate. */
uint32_t sb_worker_plan(sb_handle *worker, sb_step *step);

/* Goes on by what the next step found: a load or an exchange the value that was there, SB_TAKE any number but 0 if the turn was taken; of a store, and of
 * SB_GIVE, any number. SB_BAD_CALL exactly if the handle holds no worker, or its next step is SB_ANSWER. Does not allocate. */
uint32_t sb_worker_after(sb_handle *worker, uint64_t found);

/* How many of the next steps, each of which moves one word, the host may make in a row: loads from `word` of the next step on, told by `sb_worker_loaded`,
 * or stores of what `sb_worker_values` writes, told by `sb_worker_stored`. Each is one atomic step all the same, in order. 0 if the handle holds no worker.
 * SB_BAD_CALL exactly if the handle holds no worker or, of the last two, its next steps are not as many of that kind. None of these allocates. */
uint32_t sb_worker_moves(sb_handle *worker);
uint32_t sb_worker_loaded(sb_handle *worker, const uint64_t *values, size_t count);
uint32_t sb_worker_values(sb_handle *worker, uint64_t *values, size_t room, size_t *count);
uint32_t sb_worker_stored(sb_handle *worker, uint32_t count);

/* Decides the copy by the policy with this number, and writes what is decided. SB_BAD_CALL exactly if there is no worker whose next step is SB_ANSWER, the copy
 * is decided already, or there is no such policy. SB_NO_MEMORY only if the copy asks for a call. */
uint32_t sb_worker_decide(sb_handle *worker, sb_handle *policies, uint32_t policy, sb_copy_decision *decision);

/* Writes the argument with this number, from 0, that is granted; a string is put at the front of the units, and has `length` of them. SB_BAD_CALL exactly if
 * the handle holds no worker, or it grants fewer arguments; SB_NO_ROOM exactly if the string has more than `room` units. Does not allocate. */
uint32_t sb_worker_argument(sb_handle *worker, uint32_t number, sb_argument *argument, uint16_t *units, size_t room);

/* Writes the argument with this number, from 0, of the call that the copy to answer asks for, whatever is decided of it. IT IS FOR LOGS, AND MUST NEVER BE
 * PERFORMED: `readonly` grants less than was asked for. A host that reads the words of the channel again sees what the target stored since. SB_BAD_CALL exactly
 * if there is no worker whose next step is SB_ANSWER, the copy has a fault, or its call has fewer arguments; SB_NO_ROOM as for an argument that is granted.
 * SB_NO_MEMORY only if the copy asks for a call. */
uint32_t sb_worker_asked(sb_handle *worker, uint32_t number, sb_argument *argument, uint16_t *units, size_t room);

/* Goes on from SB_ANSWER by the reply to what was decided: the host's answer if the call is performed, and else what the decision says, whatever the host
 * answers. SB_BAD_CALL exactly if there is no worker whose next step is SB_ANSWER, or nothing is decided. Does not allocate. */
uint32_t sb_worker_reply(sb_handle *worker, const sb_host_answer *answer);

/* Puts a namespace of the product's own into a handle that holds nothing: no file, pipe, key or event is in it. SB_BAD_CALL exactly if the handle holds
 * something. */
uint32_t sb_space_new(sb_handle *space);

/* Performs what was decided in a namespace, for the target with this number, and goes on from SB_ANSWER by its reply, in place of `sb_worker_reply`.
 * SB_BAD_CALL exactly if there is no worker whose next step is SB_ANSWER, nothing is decided, or the other handle holds no namespace. SB_NO_MEMORY only for
 * a call that grants a handle or renames. */
uint32_t sb_worker_perform(sb_handle *worker, sb_handle *space, uint32_t target);

/* Looks for the first fault of a copy, before which this count and this end were loaded. THE WORDS ARE A COPY THAT NOBODY WRITES, never the channel.
 * SB_OK exactly if it has none; SB_FAULT with the fault; SB_BAD_CALL exactly if a worker makes no such copy. Does not allocate. */
uint32_t sb_block_check(uint64_t count, uint64_t end, const uint64_t *words, size_t word_count, sb_copy_fault *fault);

/* Writes the block of the call with this number, of which each string is a part of the units, and how many words it has. SB_BAD_CALL: there is no such
 * call, a string does not lie within the units, or the arguments are not those of the call. SB_TOO_BIG: the block needs more than 64 words. SB_NO_ROOM:
 * it needs more than `room` words. SB_NO_MEMORY only after each string was found within the units, and the call was found. */
uint32_t sb_block_encode(uint64_t call, uint64_t mark, const sb_argument *arguments, size_t argument_count, const uint16_t *units, size_t unit_count,
                         uint64_t *words, size_t room, size_t *word_count);

/* Begins a call with a block of 16 to 64 words on the 1 to 8 channels of a target. With a patience it gives up after as many rounds of tries, or loads of
 * the state of its channel; with patience 0 it never does. Its mark is word 1 of the block and is not 0: calls whose replies must not be mistaken for each
 * other have different marks. SB_BAD_CALL exactly if one of these does not hold, or a call goes on in this memory. */
uint32_t sb_call_begin(sb_client_call *call, uint32_t channels, uint64_t patience, const uint64_t *words, size_t word_count);

/* The one next step of a call, SB_IDLE if none goes on. */
void sb_call_plan(const sb_client_call *call, sb_step *step);

/* Goes on by the value that the next step found: of a load or an exchange the value that was there, of a store any number. */
void sb_call_after(sb_client_call *call, uint64_t found);

/* How a call ended, SB_NOT_ENDED if it goes on or none began. */
void sb_call_result(const sb_client_call *call, sb_call_ending *ending);

/* Writes the text, as UTF-8 without a zero at its end, that means exactly this string where it is written between quotes in a policy: after `is`, and
 * as a pattern, which then matches exactly the strings that are the same. SB_NO_LITERAL exactly if there is none: the string has a `"`, a unit below 32, a
 * surrogate alone or more than 256 units, or, as a pattern, a `*` (and each `?` counts twice). SB_NO_ROOM: the text needs more than `room` bytes. */
uint32_t sb_string_literal(const uint16_t *units, size_t unit_count, uint8_t *text, size_t room, size_t *byte_count);
uint32_t sb_pattern_literal(const uint16_t *units, size_t unit_count, uint8_t *text, size_t room, size_t *byte_count);

#ifdef __cplusplus
}
#endif

#endif
