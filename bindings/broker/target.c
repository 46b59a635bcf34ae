/* The target of the broker: it confines itself, and then one thread makes honest calls on channel 0, one makes calls on channel 1, and one overwrites the
 * words of channel 1 all the time, unless `calm` is given. It has no files but those that the broker hands over. */
#define _GNU_SOURCE
#include <errno.h>
#include <fcntl.h>
#include <linux/audit.h>
#include <linux/filter.h>
#include <linux/futex.h>
#include <linux/seccomp.h>
#include <pthread.h>
#include <sched.h>
#include <stddef.h>
#include <stdlib.h>
#include <string.h>
#include <sys/mman.h>
#include <sys/prctl.h>
#include <sys/resource.h>
#include <sys/socket.h>
#include <sys/syscall.h>
#include <unistd.h>

#include "channels.h"

/* Access to read, and what to do with a file that is there: open it. */
#define GENERIC_READ 0x80000000
#define OPEN 1

#define STATUS_ACCESS_DENIED 0xc0000022

/* What a state word holds if a call is handed over. */
#define READY 3

static struct shared *shared;
static struct counts *counts;
static _Atomic int waiting, may_go;

/* A thread waits here until the process is confined, with all that a thread needs of the system at its start behind it. */
static void wait_to_go(void) {
    atomic_fetch_add(&waiting, 1);
    while (!atomic_load(&may_go)) {
        sched_yield();
    }
}

/* The few calls that threads, memory and the sockets need. Each other one fails with EPERM. Memory can be mapped, but no file, and nothing becomes code. */
static int confine(void) {
#define ALLOW(call) BPF_JUMP(BPF_JMP | BPF_JEQ | BPF_K, (call), 0, 1), BPF_STMT(BPF_RET | BPF_K, SECCOMP_RET_ALLOW)
    struct sock_filter code[] = {
        BPF_STMT(BPF_LD | BPF_W | BPF_ABS, offsetof(struct seccomp_data, arch)),
        BPF_JUMP(BPF_JMP | BPF_JEQ | BPF_K, AUDIT_ARCH_X86_64, 1, 0),
        BPF_STMT(BPF_RET | BPF_K, SECCOMP_RET_KILL_PROCESS),
        BPF_STMT(BPF_LD | BPF_W | BPF_ABS, offsetof(struct seccomp_data, nr)),
        ALLOW(SYS_recvmsg),
        ALLOW(SYS_read),
        ALLOW(SYS_close),
        ALLOW(SYS_futex),
        ALLOW(SYS_sched_yield),
        ALLOW(SYS_exit),
        ALLOW(SYS_exit_group),
        ALLOW(SYS_rt_sigreturn),
        ALLOW(SYS_brk),
        ALLOW(SYS_munmap),
        ALLOW(SYS_madvise),
        ALLOW(SYS_pause),
        BPF_JUMP(BPF_JMP | BPF_JEQ | BPF_K, SYS_mprotect, 0, 4),
        BPF_STMT(BPF_LD | BPF_W | BPF_ABS, offsetof(struct seccomp_data, args[2])),
        BPF_JUMP(BPF_JMP | BPF_JSET | BPF_K, PROT_EXEC, 1, 0),
        BPF_STMT(BPF_RET | BPF_K, SECCOMP_RET_ALLOW),
        BPF_STMT(BPF_RET | BPF_K, SECCOMP_RET_ERRNO | EPERM),
        BPF_JUMP(BPF_JMP | BPF_JEQ | BPF_K, SYS_mmap, 0, 6),
        BPF_STMT(BPF_LD | BPF_W | BPF_ABS, offsetof(struct seccomp_data, args[2])),
        BPF_JUMP(BPF_JMP | BPF_JSET | BPF_K, PROT_EXEC, 3, 0),
        BPF_STMT(BPF_LD | BPF_W | BPF_ABS, offsetof(struct seccomp_data, args[4])),
        BPF_JUMP(BPF_JMP | BPF_JEQ | BPF_K, 0xffffffff, 0, 1), /* no file: the descriptor is -1 */
        BPF_STMT(BPF_RET | BPF_K, SECCOMP_RET_ALLOW),
        BPF_STMT(BPF_RET | BPF_K, SECCOMP_RET_ERRNO | EPERM),
        BPF_STMT(BPF_RET | BPF_K, SECCOMP_RET_ERRNO | EPERM),
    };
    struct sock_fprog filter = {sizeof code / sizeof *code, code};
    struct rlimit none = {0, 0};
    setrlimit(RLIMIT_CORE, &none);
    setrlimit(RLIMIT_FSIZE, &none);
    if (prctl(PR_SET_NO_NEW_PRIVS, 1, 0, 0, 0) < 0) {
        return -1;
    }
    return (int)syscall(SYS_seccomp, SECCOMP_SET_MODE_FILTER, SECCOMP_FILTER_FLAG_TSYNC, &filter);
}

/* The block of a call with one string, and how many words it has; 0 if there is none. */
static size_t block_of(uint64_t call, uint64_t mark, const char *text, uint64_t number, uint64_t words[64]) {
    uint16_t units[64];
    uint32_t length = (uint32_t)strlen(text);
    size_t count = 0;
    for (uint32_t i = 0; i < length; i++) {
        units[i] = (uint8_t)text[i];
    }
    sb_argument string = {.is_text = 1, .length = length}, cookie = {.number = number};
    sb_argument opening[4] = {string, cookie, {.number = OPEN}, {.number = 0x40}}, pinging[2] = {cookie, string};
    uint32_t status = call == SB_PING ? sb_block_encode(call, mark, pinging, 2, units, length, words, 64, &count)
                                   : sb_block_encode(call, mark, opening, 4, units, length, words, 64, &count);
    return status == SB_OK ? count : 0;
}

/* Rings the bell, and wakes a broker that waits for it. */
static void ring(void) {
    atomic_fetch_add(&shared->bell, 1);
    if (atomic_load(&shared->sleeping)) {
        syscall(SYS_futex, &shared->bell, FUTEX_WAKE, 1, NULL, NULL, 0);
    }
}

/* Makes a call to its end on the channels from here on. */
static sb_call_ending make_call(sb_client_call *call, word *channels, const uint64_t *words, size_t count, uint64_t patience) {
    sb_call_ending ending = {0};
    sb_step step;
    if (sb_call_begin(call, 1, patience, words, count) != SB_OK) {
        return ending;
    }
    for (sb_call_plan(call, &step); step.kind != SB_IDLE; sb_call_plan(call, &step)) {
        sb_call_after(call, make_step(channels, &step));
        if (step.word == 0 && step.kind != SB_LOAD && step.value == READY) {
            ring();
        } else if (step.word == 0) {
            relax();
        }
    }
    sb_call_result(call, &ending);
    return ending;
}

static int receive(int socket, uint64_t *number) {
    char room[CMSG_SPACE(sizeof(int))];
    struct iovec part = {number, sizeof *number};
    struct msghdr message = {.msg_iov = &part, .msg_iovlen = 1, .msg_control = room, .msg_controllen = sizeof room};
    int descriptor;
    if (recvmsg(socket, &message, MSG_DONTWAIT) <= 0 || !CMSG_FIRSTHDR(&message)) {
        return -1;
    }
    memcpy(&descriptor, CMSG_DATA(CMSG_FIRSTHDR(&message)), sizeof descriptor);
    return descriptor;
}

static void read_files(void) {
    uint64_t number;
    for (int file; (file = receive(SOCKET_FD, &number)) >= 0;) {
        char bytes[4096];
        ssize_t got = read(file, bytes, sizeof bytes);
        counts->bytes += got > 0 ? (uint64_t)got : 0;
        counts->files++;
        close(file);
    }
}

/* Honest calls on channel 0, which nobody overwrites: each reply has to be its own, and right. */
static void *honest(void *nothing) {
    static sb_client_call call;
    uint64_t words[64];
    wait_to_go();
    for (uint64_t n = 1;; n++) {
        uint64_t mark = n << 8;
        int opens = n % 1024 == 0, is_denied = n % 1024 == 512;
        size_t count = opens       ? block_of(SB_FILE_OPEN, mark, "\\docs\\plan.txt", GENERIC_READ, words)
                       : is_denied ? block_of(SB_FILE_OPEN, mark, "\\secret\\key.txt", GENERIC_READ, words)
                                   : block_of(SB_PING, mark, "hello", n & 0xffffffff, words);
        sb_call_ending ending = make_call(&call, shared->channels, words, count, 0);
        int is_own = ending.kind == SB_REPLY && ending.found == mark;
        counts->calls++;
        if (opens) {
            is_own = is_own && ending.outcome == SB_PERFORMED;
            read_files();
        } else if (is_denied) {
            is_own = is_own && ending.outcome == SB_DENIED && ending.status == STATUS_ACCESS_DENIED && ending.handle == 0;
        } else {
            is_own = is_own && ending.outcome == SB_PERFORMED && ending.words[0] == (n & 0xffffffff) && ending.words[1] == 5;
        }
        if (is_own) {
            counts->own++;
        } else {
            counts->wrong++;
        }
    }
    return nothing;
}

/* Calls on channel 1. They may be lost, answered to another mark or never; then the channel is freed for the next. */
static void *attacked(void *nothing) {
    static sb_client_call call;
    uint64_t words[64], number;
    wait_to_go();
    for (uint64_t n = 1;; n++) {
        size_t count = block_of(SB_FILE_OPEN, n << 8 | 1, n & 1 ? "\\docs\\plan.txt" : "\\docs\\none.txt", GENERIC_READ, words);
        sb_call_ending ending = make_call(&call, shared->channels + STRIDE, words, count, 20000);
        counts->attacked++;
        if (ending.kind == SB_FOREIGN) {
            counts->foreign++;
        } else if (ending.kind != SB_REPLY) {
            counts->lost++;
            atomic_store(&shared->channels[STRIDE], SB_FREE);
        }
        for (int file; n % 64 == 0 && (file = receive(SOCKET_FD + 1, &number)) >= 0;) {
            close(file);
        }
    }
    return nothing;
}

/* Overwrites the words of channel 1: the state, counts, ends, descriptors, the call's number, names, replies. */
static void *attacker(void *nothing) {
    uint64_t good[64] = {0}, bad[64] = {0}, seed = 88172645463325252;
    size_t length = block_of(SB_FILE_OPEN, 1, "\\docs\\plan.txt", GENERIC_READ, good);
    block_of(SB_FILE_OPEN, 1, "\\secret\\a.tx", GENERIC_READ, bad);
    word *state = &shared->channels[STRIDE], *block = state + 1;
    wait_to_go();
    for (;;) {
        seed ^= seed << 13;
        seed ^= seed >> 7;
        seed ^= seed << 17;
        switch (seed % 8) {
        case 0: /* the forbidden block, while the allowed one may be being loaded */
        case 1:
            for (size_t i = 15; i < length; i++) {
                atomic_store(&block[i], seed % 8 ? good[i] : bad[i]);
            }
            break;
        case 2:
            atomic_store(&block[2], seed >> 60);
            break;
        case 3:
            atomic_store(&block[2], 4);
            break;
        case 4:
            atomic_store(&block[19], (seed >> 20 & 127) << 16);
            break;
        case 5:
            atomic_store(&block[seed >> 58], seed);
            break;
        case 6:
            atomic_store(&block[0], seed >> 60);
            break;
        default:
            if ((seed >> 8) % 64 == 0) {
                atomic_store(state, 1 + (seed >> 40) % 5);
                atomic_store(&shared->bell, (uint32_t)seed);
            } else {
                atomic_store(&block[0], SB_FILE_OPEN);
            }
        }
        counts->overwrites++;
    }
    return nothing;
}

int main(int count, char **words) {
    pthread_t thread;
    shared = mmap(NULL, MEMORY, PROT_READ | PROT_WRITE, MAP_SHARED, CHANNELS_FD, 0);
    counts = mmap(NULL, MEMORY, PROT_READ | PROT_WRITE, MAP_SHARED, COUNTS_FD, 0);
    if (shared == MAP_FAILED || counts == MAP_FAILED) {
        return 2;
    }
    int is_calm = count > 1 && !strcmp(words[1], "calm");
    if (pthread_create(&thread, NULL, honest, NULL) || (!is_calm && (pthread_create(&thread, NULL, attacked, NULL) || pthread_create(&thread, NULL, attacker, NULL)))) {
        return 2;
    }
    while (atomic_load(&waiting) < (is_calm ? 1 : 3)) {
        sched_yield();
    }
    counts->shrink_errno = ftruncate(CHANNELS_FD, 0) < 0 ? (uint32_t)errno : 0;
    close(CHANNELS_FD), close(COUNTS_FD), close(0), close(1), close(2);
    if (confine() != 0) {
        return 3;
    }
    counts->is_confined = 1;
    counts->open_errno = open("/", O_RDONLY) < 0 ? (uint32_t)errno : 0;
    counts->socket_errno = syscall(SYS_socket, AF_INET, SOCK_STREAM, 0) < 0 ? (uint32_t)errno : 0;
    counts->fork_errno = syscall(SYS_fork) < 0 ? (uint32_t)errno : 0;
    atomic_store(&may_go, 1);
    for (;;) {
        pause();
    }
}
