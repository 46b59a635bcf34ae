/* A broker of two processes. It judges nothing itself: it reads a policy, shares memory with a target that it starts, makes the steps of a worker on that
 * memory, opens what is granted beneath a root folder, and hands the descriptors over. The target confines itself; a thread of it overwrites the words of
 * channel 1 all the time, unless `calm` is given.
 *
 *     broker POLICY ROOT TARGET [SECONDS] [calm] [spin]
 *
 * It ends with 0 if nothing outside \docs\ was granted, each honest call had its own reply, and the target was confined. */
#define _GNU_SOURCE
#include <errno.h>
#include <fcntl.h>
#include <inttypes.h>
#include <linux/futex.h>
#include <linux/openat2.h>
#include <signal.h>
#include <stdio.h>
#include <stdlib.h>
#include <string.h>
#include <sys/mman.h>
#include <sys/prctl.h>
#include <sys/socket.h>
#include <sys/syscall.h>
#include <sys/wait.h>
#include <time.h>
#include <unistd.h>

#include "channels.h"

/* Windows status codes. */
#define STATUS_SUCCESS 0
#define STATUS_INVALID_PARAMETER 0xc000000d
#define STATUS_ACCESS_DENIED 0xc0000022
#define STATUS_OBJECT_NAME_INVALID 0xc0000033
#define STATUS_OBJECT_NAME_NOT_FOUND 0xc0000034
#define STATUS_INSUFFICIENT_RESOURCES 0xc000009a
#define STATUS_NOT_SUPPORTED 0xc00000bb

/* The bits of an access that write: write data, append data, generic write and generic all. */
#define WRITING 0x50000006

/* What a state word holds if a call is handed over. */
#define READY 3

struct broker {
    struct shared *shared;
    const struct counts *counts;
    sb_handle policies, worker;
    uint32_t policy, channel;
    int root, sockets[CHANNELS];
    pid_t child;
    uint64_t next_handle, steps, idle, sleeps, performed, denied, faked, refused[11], opened, not_opened, outside;
};

static void fail(const char *what) {
    fprintf(stderr, "broker: %s: %s\n", what, strerror(errno));
    exit(1);
}

static void require(uint32_t status, const char *what) {
    if (status != SB_OK) {
        fprintf(stderr, "broker: %s: status %" PRIu32 "\n", what, status);
        exit(1);
    }
}

static double now(void) {
    struct timespec time;
    clock_gettime(CLOCK_MONOTONIC, &time);
    return (double)time.tv_sec + (double)time.tv_nsec / 1e9;
}

static void load(sb_handle *policies, const char *path) {
    FILE *file = fopen(path, "rb");
    if (!file) {
        fail(path);
    }
    uint8_t *text = malloc(1 << 20);
    if (!text) {
        fail("malloc");
    }
    size_t length = fread(text, 1, 1 << 20, file);
    sb_text_fault fault;
    uint32_t status = sb_policies_load(policies, text, length, &fault);
    if (status == SB_FAULT) {
        fprintf(stderr, "broker: %s: line %" PRIu32 ", column %" PRIu32 ": fault %" PRIu64 "\n", path, fault.line, fault.column, fault.number);
        exit(1);
    }
    require(status, path);
    fclose(file);
    free(text);
}

/* A granted name, as `\docs\plan.txt`, as a path below the root. It has no empty, `.` or `..` component and no `/`. What else a name may be on this system
 * is the host's: no surrogates, and small letters, since policies compare names with letters folded, and this file system does not. */
static int path_of(const uint16_t *units, uint32_t length, char *path, size_t room) {
    size_t to = 0;
    for (uint32_t i = 1; i < length; i++) {
        uint32_t unit = units[i];
        if (to + 4 > room || unit == 0 || (unit >= 0xd800 && unit < 0xe000)) {
            return -1;
        }
        if (unit == '\\') {
            unit = '/';
        }
        if (unit >= 'A' && unit <= 'Z') {
            unit += 'a' - 'A';
        }
        if (unit < 0x80) {
            path[to++] = (char)unit;
        } else if (unit < 0x800) {
            path[to++] = (char)(0xc0 | unit >> 6);
            path[to++] = (char)(0x80 | (unit & 0x3f));
        } else {
            path[to++] = (char)(0xe0 | unit >> 12);
            path[to++] = (char)(0x80 | (unit >> 6 & 0x3f));
            path[to++] = (char)(0x80 | (unit & 0x3f));
        }
    }
    path[to] = 0;
    return to ? 0 : -1;
}

/* Opens beneath the root and through no link: the kernel sees to it, whatever changes the folders meanwhile. */
static int open_beneath(int root, const char *path, int flags) {
    struct open_how how = {
        .flags = (uint64_t)(flags | O_CLOEXEC | O_NOFOLLOW | O_NONBLOCK),
        .resolve = RESOLVE_BENEATH | RESOLVE_NO_SYMLINKS | RESOLVE_NO_MAGICLINKS,
    };
    return (int)syscall(SYS_openat2, root, path, &how, sizeof how);
}

static int hand_over(int socket, int descriptor, uint64_t number) {
    char room[CMSG_SPACE(sizeof(int))] = {0};
    struct iovec part = {&number, sizeof number};
    struct msghdr message = {.msg_iov = &part, .msg_iovlen = 1, .msg_control = room, .msg_controllen = sizeof room};
    struct cmsghdr *head = CMSG_FIRSTHDR(&message);
    head->cmsg_level = SOL_SOCKET;
    head->cmsg_type = SCM_RIGHTS;
    head->cmsg_len = CMSG_LEN(sizeof(int));
    memcpy(CMSG_DATA(head), &descriptor, sizeof descriptor);
    return sendmsg(socket, &message, MSG_DONTWAIT | MSG_NOSIGNAL) < 0 ? -1 : 0;
}

/* A test of this example alone, which does not ask the library: the policy grants names below \docs\ and no other. */
static int is_below_docs(const uint16_t *units, uint32_t length) {
    static const char allowed[] = "\\DOCS\\";
    for (uint32_t i = 0; i < 6; i++) {
        uint16_t unit = i < length ? units[i] : 0;
        if (unit >= 'a' && unit <= 'z') {
            unit = (uint16_t)(unit - 32);
        }
        if (unit != (uint16_t)allowed[i]) {
            return 0;
        }
    }
    return 1;
}

static sb_host_answer open_file(struct broker *b) {
    sb_host_answer answer = {.status = STATUS_INVALID_PARAMETER};
    sb_argument name, access;
    uint16_t units[256], none[1];
    char path[1024];
    if (sb_worker_argument(&b->worker, 0, &name, units, 256) != SB_OK || sb_worker_argument(&b->worker, 1, &access, none, 0) != SB_OK) {
        return answer;
    }
    b->outside += !is_below_docs(units, name.length);
    if (path_of(units, name.length, path, sizeof path) < 0) {
        answer.status = STATUS_OBJECT_NAME_INVALID;
        return answer;
    }
    int file = open_beneath(b->root, path, access.number & WRITING ? O_RDWR : O_RDONLY);
    if (file < 0) {
        b->not_opened++;
        answer.status = errno == ENOENT ? STATUS_OBJECT_NAME_NOT_FOUND : STATUS_ACCESS_DENIED;
        return answer;
    }
    uint64_t handle = ++b->next_handle;
    if (hand_over(b->sockets[b->channel], file, handle) < 0) {
        answer.status = STATUS_INSUFFICIENT_RESOURCES;
    } else {
        b->opened++;
        answer = (sb_host_answer){.status = STATUS_SUCCESS, .handle = handle, .count = 1, .words = {1}};
    }
    close(file);
    return answer;
}

static sb_host_answer ping(struct broker *b) {
    sb_argument cookie = {0}, text = {0};
    uint16_t units[256], none[1];
    sb_worker_argument(&b->worker, 0, &cookie, none, 0);
    sb_worker_argument(&b->worker, 1, &text, units, 256);
    return (sb_host_answer){.status = STATUS_SUCCESS, .count = 2, .words = {cookie.number, text.length}};
}

static void answer(struct broker *b) {
    sb_copy_decision decision;
    sb_host_answer answer = {.status = STATUS_NOT_SUPPORTED};
    require(sb_worker_decide(&b->worker, &b->policies, b->policy, &decision), "decide");
    switch (decision.outcome) {
    case SB_PERFORMED:
        b->performed++;
        if (decision.call == SB_FILE_OPEN) {
            answer = open_file(b);
        } else if (decision.call == SB_PING) {
            answer = ping(b);
        }
        break;
    case SB_REFUSED:
        b->refused[decision.fault <= 10 ? decision.fault : 0]++;
        break;
    case SB_DENIED:
        b->denied++;
        break;
    default:
        b->faked++;
    }
    require(sb_worker_reply(&b->worker, &answer), "reply");
}

/* Makes the steps in a row that move a word each, if the next step is one of two or more. Returns whether it did. */
static int make_moves(struct broker *b, const sb_step *step) {
    uint64_t values[64];
    uint32_t count = sb_worker_moves(&b->worker);
    if (count < 2 || count > 64) {
        return 0;
    }
    word *at = &b->shared->channels[(size_t)step->channel * STRIDE + step->word];
    if (step->kind == SB_LOAD) {
        for (uint32_t i = 0; i < count; i++) {
            values[i] = atomic_load(&at[i]);
        }
        require(sb_worker_loaded(&b->worker, values, count), "loaded");
    } else {
        size_t written = 0;
        require(sb_worker_values(&b->worker, values, 64, &written), "values");
        for (size_t i = 0; i < written; i++) {
            atomic_store(&at[i], values[i]);
        }
        require(sb_worker_stored(&b->worker, (uint32_t)written), "stored");
    }
    return 1;
}

/* One step of the worker. Returns whether it was a look that found nothing to do. */
static int make_one(struct broker *b) {
    sb_step step;
    require(sb_worker_plan(&b->worker, &step), "plan");
    b->steps++;
    if (step.kind == SB_ANSWER) {
        answer(b);
        return 0;
    }
    if ((step.kind == SB_LOAD || step.kind == SB_STORE) && step.word != 0 && make_moves(b, &step)) {
        return 0;
    }
    if (step.kind == SB_LOAD) {
        b->channel = step.channel;
    }
    /* One worker performs all that this host performs, so it always has the turn. */
    uint64_t found = step.kind == SB_TAKE ? 1 : make_step(b->shared->channels, &step);
    require(sb_worker_after(&b->worker, found), "after");
    return step.kind == SB_LOAD && step.word == 0 && found != READY;
}

/* Sleeps until the bell rings, a hundredth of a second at most: a target may store anything into the bell, and need not ring it. */
static void sleep_a_little(struct broker *b, uint32_t heard) {
    const struct timespec most = {0, 10000000};
    atomic_store(&b->shared->sleeping, 1);
    syscall(SYS_futex, &b->shared->bell, FUTEX_WAIT, heard, &most, NULL, 0);
    atomic_store(&b->shared->sleeping, 0);
    b->sleeps++;
}

static void serve(struct broker *b, double seconds, int spins) {
    double end = now() + seconds;
    uint32_t heard = atomic_load(&b->shared->bell);
    uint64_t idle_looks = 0;
    for (uint64_t i = 0; (i & 0x3ff) || now() < end; i++) {
        if (!make_one(b)) {
            idle_looks = 0;
            continue;
        }
        b->idle++;
        relax();
        if (++idle_looks > 2000 && !spins) {
            /* Each channel was looked at after the bell was heard, so no call that was handed over before is missed. */
            sleep_a_little(b, heard);
            heard = atomic_load(&b->shared->bell);
            idle_looks = 2000 - CHANNELS;
        }
    }
}

/* Memory that neither side can shrink or grow from now on. The length is the broker's own number. */
static int sealed_memory(const char *name, size_t length) {
    int memory = memfd_create(name, MFD_CLOEXEC | MFD_ALLOW_SEALING);
    if (memory < 0 || ftruncate(memory, (off_t)length) < 0 || fcntl(memory, F_ADD_SEALS, F_SEAL_SHRINK | F_SEAL_GROW | F_SEAL_SEAL) < 0) {
        fail("memfd");
    }
    return memory;
}

static void *mapped(int memory, size_t length) {
    void *at = mmap(NULL, length, PROT_READ | PROT_WRITE, MAP_SHARED, memory, 0);
    if (at == MAP_FAILED) {
        fail("mmap");
    }
    return at;
}

static void start_target(struct broker *b, char *program, int is_calm) {
    int memory = sealed_memory("channels", MEMORY), counts = sealed_memory("counts", MEMORY);
    b->shared = mapped(memory, MEMORY);
    b->counts = mapped(counts, MEMORY);
    for (size_t c = 0; c < CHANNELS; c++) {
        atomic_store(&b->shared->channels[c * STRIDE], SB_FREE);
    }
    /* One socket a channel: who leaves descriptors unread stops only its own calls. */
    int given[2 + CHANNELS] = {memory, counts};
    for (int c = 0; c < CHANNELS; c++) {
        int pair[2];
        if (socketpair(AF_UNIX, SOCK_SEQPACKET | SOCK_CLOEXEC, 0, pair) < 0) {
            fail("socketpair");
        }
        b->sockets[c] = pair[0];
        given[2 + c] = pair[1];
    }
    b->child = fork();
    if (b->child < 0) {
        fail("fork");
    }
    if (b->child == 0) {
        /* The target does not outlive its broker. */
        prctl(PR_SET_PDEATHSIG, SIGKILL);
        /* First out of the way of the numbers that the target expects. All others are closed by exec. */
        for (int i = 0; i < 2 + CHANNELS; i++) {
            given[i] = fcntl(given[i], F_DUPFD_CLOEXEC, 64);
        }
        for (int i = 0; i < 2 + CHANNELS; i++) {
            if (dup2(given[i], CHANNELS_FD + i) < 0) {
                _exit(9);
            }
        }
        char *words[] = {program, is_calm ? "calm" : NULL, NULL}, *none[] = {NULL};
        execve(program, words, none);
        _exit(9);
    }
    for (int i = 0; i < 2 + CHANNELS; i++) {
        close(given[i]);
    }
}

static int show(const struct broker *b, double took) {
    const struct counts *c = b->counts;
    uint64_t refused = 0;
    for (int i = 0; i <= 10; i++) {
        refused += b->refused[i];
    }
    uint64_t answered = b->performed + b->denied + b->faked + refused;
    printf("%.0f calls a second: performed %" PRIu64 ", denied %" PRIu64 ", faked %" PRIu64 ", refused %" PRIu64 " (by fault", (double)answered / took, b->performed,
           b->denied, b->faked, refused);
    for (int i = 1; i <= 10; i++) {
        printf(" %d:%" PRIu64, i, b->refused[i]);
    }
    printf(")\nfiles opened %" PRIu64 ", not opened %" PRIu64 "; idle looks %.0f%%, sleeps %" PRIu64 "\n", b->opened, b->not_opened,
           100.0 * (double)b->idle / (double)b->steps, b->sleeps);
    printf("the target says: calls %" PRIu64 " with their own reply %" PRIu64 ", files read %" PRIu64 "; attacked %" PRIu64 ", lost %" PRIu64 ", foreign %" PRIu64
           "; overwrites %" PRIu64 "\n",
           c->calls, c->own, c->files, c->attacked, c->lost, c->foreign, c->overwrites);
    printf("its own tries: open %s, socket %s, fork %s, shrinking the memory %s\n", strerror((int)c->open_errno), strerror((int)c->socket_errno),
           strerror((int)c->fork_errno), strerror((int)c->shrink_errno));
    int is_confined = c->is_confined && c->open_errno && c->socket_errno && c->fork_errno && c->shrink_errno;
    printf("granted outside \\docs\\ %" PRIu64 ", wrong replies %" PRIu64 ", confined %s\n", b->outside, c->wrong, is_confined ? "yes" : "no");
    return b->outside == 0 && c->wrong == 0 && c->calls > 0 && is_confined;
}

int main(int count, char **words) {
    if (count < 4) {
        fprintf(stderr, "usage: broker POLICY ROOT TARGET [SECONDS] [calm] [spin]\n");
        return 2;
    }
    double seconds = 3;
    int is_calm = 0, spins = 0;
    for (int i = 4; i < count; i++) {
        is_calm |= !strcmp(words[i], "calm");
        spins |= !strcmp(words[i], "spin");
        seconds = atof(words[i]) > 0 ? atof(words[i]) : seconds;
    }
    static struct broker b;
    if (sb_version() != SB_VERSION) {
        fprintf(stderr, "broker: another library\n");
        return 1;
    }
    load(&b.policies, words[1]);
    require(sb_policies_find(&b.policies, (const uint8_t *)"tab", 3, &b.policy), "the policy tab");
    require(sb_worker_new(&b.worker, CHANNELS), "worker");
    b.root = open(words[2], O_PATH | O_DIRECTORY | O_CLOEXEC);
    if (b.root < 0) {
        fail(words[2]);
    }
    start_target(&b, words[3], is_calm);
    double start = now();
    serve(&b, seconds, spins);
    double took = now() - start;
    kill(b.child, SIGKILL);
    waitpid(b.child, NULL, 0);
    int is_right = show(&b, took);
    sb_free(&b.worker);
    sb_free(&b.policies);
    return !is_right;
}
