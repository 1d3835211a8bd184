/* Who waits for whom in a run that hangs: each thread tells its own stack. */
#define _GNU_SOURCE
#include "force_hangs.h"

#include <dlfcn.h>
#include <errno.h>
#include <fcntl.h>
#include <stdio.h>
#include <string.h>
#include <sys/syscall.h>
#include <sys/uio.h>
#include <unistd.h>
#include <unwind.h>

enum { DEEP = 32, OWNER = 8 };

static volatile int asked_id, frame_count;
static uintptr_t frames[DEEP];

static _Unwind_Reason_Code see_frame(struct _Unwind_Context *frame, void *word) {
    int *count = word;
    if (*count >= DEEP) return _URC_END_OF_STACK;
    frames[(*count)++] = _Unwind_GetIP(frame);
    return _URC_NO_REASON;
}

static void tell_stack(int number) {
    (void)number;
    int count = 0, before = errno;
    if (asked_id != own_id()) return;
    _Unwind_Backtrace(see_frame, &count);
    frame_count = count;
    asked_id = 0;
    errno = before;
}

void begin_telling(void) {
    int none = 0;
    _Unwind_Backtrace(see_frame, &none); /* (what it loads is there by then) */
}

static void ask_stack(int id) {
    struct sigaction mine = {.sa_handler = tell_stack, .sa_flags = SA_RESTART}, before;
    frame_count = 0;
    asked_id = id;
    sigaction(SIGRTMAX - 3, &mine, &before);
    syscall(SYS_tgkill, getpid(), id, SIGRTMAX - 3);
    for (int waits = 0; asked_id && waits < 30; waits++) pause_for(10);
    asked_id = 0;
    sigaction(SIGRTMAX - 3, &before, NULL);
}

static void who_is(const struct thread *all, int count, int id, char *room, size_t size) {
    int number = 0;
    while (number < count && all[number].id != id) number++;
    for (int at = 0; at < pool_count; at++)
        if (pool[at].thread == id) {
            snprintf(room, size, "worker %d", at);
            return;
        }
    if (id == leader_id) snprintf(room, size, "the loop's thread");
    else if (id == getpid()) snprintf(room, size, "the main thread");
    else snprintf(room, size, "thread %d", number + 1);
}

static bool read_word(uintptr_t at, int *word) {
    struct iovec here = {word, sizeof *word}, there = {(void *)at, sizeof *word};
    return process_vm_readv(getpid(), &here, 1, &there, 1, 0) == sizeof *word;
}

static bool is_of(const struct thread *all, int count, int id) {
    for (int at = 0; at < count; at++)
        if (all[at].id == id) return true;
    return false;
}

/* What it waits for, where that is known without its stack; "" where it isn't. */
static void what_is_awaited(const struct thread *all, int count, const struct thread *it, char *room, size_t size) {
    char whom[64];
    int word = 0, owner = 0;
    bool known = it->futex && read_word(it->futex, &word);
    *room = 0;
    if (it->sleep == IN_POLL) snprintf(room, size, "its poll");
    else if (it->sleep == GOES_ROUND) snprintf(room, size, "round %ld", rounds);
    else if (it->sleep == AT_GATE) snprintf(room, size, "work");
    else if (it->what) snprintf(room, size, "%s", it->what);
    else if (known && word > 2 && word == it->value && is_of(all, count, word))
        who_is(all, count, word, whom, sizeof whom), snprintf(room, size, "the end of %s", whom);
    else if (known && word == 2 && read_word(it->futex + OWNER, &owner) && is_of(all, count, owner))
        who_is(all, count, owner, whom, sizeof whom), snprintf(room, size, "a lock that %s has", owner == it->id ? "it has itself" : whom);
}

/* Where the loop goes round: what it calls, in place of where it is. */
static void take_called(void) {
    frame_count = 0;
    for (int at = 0; at < CALLED && called_in[at]; at++) frames[frame_count++] = (uintptr_t)called_in[at] + 1;
}

/* `WAITS WHO<tab>WHAT<tab>FILE+OFFSET SYMBOL<tab>..` */
void tell_thread(const struct thread *all, int count, const struct thread *it) {
    char who[64], what[160], text[4000];
    who_is(all, count, it->id, who, sizeof who);
    what_is_awaited(all, count, it, what, sizeof what);
    if (it->sleep == GOES_ROUND) take_called();
    else ask_stack(it->id);
    int length = snprintf(text, sizeof text, "WAITS %s\t%s", who, what);
    for (int at = 0; at < frame_count && length < (int)sizeof text - 300; at++) {
        Dl_info info;
        if (!dladdr((void *)(frames[at] - 1), &info) || !info.dli_fname) continue;
        length += snprintf(text + length, sizeof text - (size_t)length, "\t%.200s+%#lx %.60s", info.dli_fname,
                           (unsigned long)(frames[at] - 1 - (uintptr_t)info.dli_fbase), info.dli_sname ? info.dli_sname : "-");
    }
    text[length++] = '\n';
    if (write(said >= 0 ? said : 2, text, (size_t)length) < 0) return;
}

void tell_process(int process) {
    char name[64], word[64] = "";
    snprintf(name, sizeof name, "/proc/%d/comm", process);
    int file = open(name, O_RDONLY | O_CLOEXEC);
    ssize_t length = file >= 0 ? read(file, word, sizeof word - 1) : 0;
    if (file >= 0) close(file);
    word[strcspn(word, "\n")] = 0;
    if (length <= 0) return;
    struct thread first = look_at(process, process);
    char is = state_in(process, process);
    say("WAITS process %d (%s)\t%s", process, word, is == 'Z' ? "its parent" : is == 'T' ? "SIGCONT" : first.what ? first.what : "");
}
