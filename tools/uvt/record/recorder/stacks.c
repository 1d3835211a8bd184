/* Where a long callback of a program in C or C++ is at: its stack, now and then, once it has been on the processor for a while.
 *
 * A timer of the loop's thread counts its time on the processor (CLOCK_THREAD_CPUTIME_ID), and is put off as callbacks begin: so of short ones no
 * signal ever comes, and none comes while the thread waits in the system. The signal is SIGURG, which is ignored where nobody wants it. Where the
 * program wants it (its handler isn't the default one), no stack is taken. The handler writes into a buffer of its thread; the lines come as the
 * callback ends. */
#define _GNU_SOURCE
#include "javascript.h"

#include <dlfcn.h>
#include <errno.h>
#include <signal.h>
#include <stdlib.h>
#include <string.h>
#include <sys/mman.h>
#include <sys/syscall.h>
#include <time.h>
#include <ucontext.h>
#include <unistd.h>
#include <unwind.h>

#define SIGNAL SIGURG
enum { FIRST = 8000000, NEXT = 1000000, STACKS = 64, DEEP = 24, ROOM = 1 << 16 };

static __thread struct stacks {
    timer_t timer;
    bool made, refused;
    void *room; /* the handler's own stack, where the thread has none */
    int count, each, skipped; /* of so many looks one is kept */
    struct {
        int depth, ms; /* (so many ms of the processor it stands for: while the thread is in the system no signal comes) */
        uintptr_t at[DEEP];
    } stack[STACKS];
} *here __attribute__((tls_model("initial-exec")));

/* The timers of all threads: they are stopped where the program wants the signal itself. */
enum { TIMERS = 64 };
static struct {
    bool made;
    timer_t timer;
} timers[TIMERS];
static pthread_mutex_t timers_lock = PTHREAD_MUTEX_INITIALIZER;

static pthread_key_t key;
static bool followable; /* may a stack be followed? */
static pthread_once_t once = PTHREAD_ONCE_INIT;
static volatile bool usable;
extern __typeof__(uv_run) uv_run; /* (the recorder's own: where a stack ends) */
static uintptr_t end_of_stack;

struct look {
    uintptr_t from;
    int depth, most;
    uintptr_t *at;
};

static _Unwind_Reason_Code see(struct _Unwind_Context *frame, void *word) {
    struct look *look = word;
    uintptr_t at = _Unwind_GetIP(frame);
    if (look->depth == 0 && at != look->from) return _URC_NO_REASON;
    if (_Unwind_GetRegionStart(frame) == end_of_stack) return _URC_END_OF_STACK;
    /* (of the innermost one it is the next instruction, of the others what comes behind the call: as if that had been one, too) */
    look->at[look->depth] = look->depth ? at : at + 1;
    return ++look->depth < DEEP ? _URC_NO_REASON : _URC_END_OF_STACK;
}

static uintptr_t interrupted(const void *word) {
    const ucontext_t *context = word;
#if defined __x86_64__
    return (uintptr_t)context->uc_mcontext.gregs[REG_RIP];
#elif defined __aarch64__
    return (uintptr_t)context->uc_mcontext.pc;
#else
    (void)context;
    return 0;
#endif
}

static void on_signal(int number, siginfo_t *info, void *context) {
    struct stacks *stacks = here;
    int kept = errno;
    (void)number;
    if (!stacks || !in_callback || info->si_code != SI_TIMER || ++stacks->skipped < stacks->each) return;
    stacks->skipped = 0;
    if (stacks->count == STACKS) {
        for (int at = 0; at < STACKS / 2; at++) stacks->stack[at] = stacks->stack[2 * at];
        stacks->count = STACKS / 2;
        stacks->each *= 2;
    }
    struct look look = {.from = interrupted(context), .at = stacks->stack[stacks->count].at};
    memset(look.at, 0, sizeof stacks->stack[0].at);
    _Unwind_Backtrace(see, &look);
    stacks->stack[stacks->count].depth = look.depth;
    stacks->stack[stacks->count].ms = 1 + (info->si_overrun > 0 ? info->si_overrun : 0);
    if (look.depth && keeps() && !in_work) now_looked(in_callback, look.at, look.depth, clock_ms());
    if (look.depth) stacks->count++;
    errno = kept;
}

REAL(sigaction)
REAL(signal)

/* The program has a handler of its own from here on. Answers whether the one before was this file's, which it needn't know. */
static bool give_back(void) {
    really_lock(&timers_lock);
    bool was = usable;
    usable = false;
    for (int at = 0; at < TIMERS; at++)
        if (timers[at].made) timer_settime(timers[at].timer, 0, &(struct itimerspec){0}, NULL);
    pthread_mutex_unlock(&timers_lock);
    return was;
}

int sigaction(int number, const struct sigaction *action, struct sigaction *before) {
    if (number != SIGNAL || !usable) return CALL(sigaction)(number, action, before);
    if (action && !give_back()) return CALL(sigaction)(number, action, before);
    if (before) *before = (struct sigaction){.sa_handler = SIG_DFL};
    return action ? CALL(sigaction)(number, action, NULL) : 0;
}

void (*signal(int number, void (*handler)(int)))(int) {
    if (number != SIGNAL || !usable || !give_back()) return CALL(signal)(number, handler);
    return CALL(signal)(number, handler) == SIG_ERR ? SIG_ERR : SIG_DFL;
}

static void forget(void *word) {
    struct stacks *stacks = word;
    stack_t now;
    here = NULL;
    if (filtered) return;
    really_lock(&timers_lock);
    for (int at = 0; at < TIMERS; at++)
        if (timers[at].made && timers[at].timer == stacks->timer) timers[at].made = false;
    pthread_mutex_unlock(&timers_lock);
    if (stacks->made) timer_delete(stacks->timer);
    if (stacks->room && sigaltstack(NULL, &now) == 0 && now.ss_sp == stacks->room) sigaltstack(&(stack_t){.ss_flags = SS_DISABLE}, NULL);
    if (stacks->room) munmap(stacks->room, ROOM);
    free(stacks);
}

static void prepare(void) {
    struct sigaction now, ours = {.sa_sigaction = on_signal, .sa_flags = SA_SIGINFO | SA_RESTART | SA_ONSTACK};
    const char *asked = getenv("UVT_STACKS");
    struct look none = {.from = 1};
    /* (LuaJIT's code has frames of its own, at which the unwinder ends the program) */
    bool is_compiled = dlsym(RTLD_DEFAULT, "luaJIT_setmode") != NULL;
    if ((asked && strcmp(asked, "0") == 0) || is_compiled || forces()) return;
    /* (what the unwinder loads it loads now) */
    _Unwind_Backtrace(see, &none);
    end_of_stack = (uintptr_t)dlsym(RTLD_DEFAULT, "uv_run");
    followable = true;
    if (pthread_key_create(&key, forget) != 0) return;
    if (CALL(sigaction)(SIGNAL, NULL, &now) != 0 || (now.sa_flags & SA_SIGINFO) || now.sa_handler != SIG_DFL) return;
    usable = CALL(sigaction)(SIGNAL, &ours, NULL) == 0;
}

/* The timer of this thread, made where that isn't done yet. */
static struct stacks *mine(void) {
    if (here) return here;
    pthread_once(&once, prepare);
    if (!usable || !(here = calloc(1, sizeof *here))) return NULL;
    struct sigevent event = {.sigev_notify = SIGEV_THREAD_ID, .sigev_signo = SIGNAL};
    event._sigev_un._tid = (pid_t)syscall(SYS_gettid);
    stack_t now;
    really_lock(&timers_lock);
    int at = 0;
    while (at < TIMERS && timers[at].made) at++;
    here->made = at < TIMERS && timer_create(CLOCK_THREAD_CPUTIME_ID, &event, &here->timer) == 0;
    if (here->made) timers[at].made = true, timers[at].timer = here->timer;
    pthread_mutex_unlock(&timers_lock);
    here->refused = !here->made;
    if (here->made && sigaltstack(NULL, &now) == 0 && (now.ss_flags & SS_DISABLE)) {
        here->room = mmap(NULL, ROOM, PROT_READ | PROT_WRITE, MAP_PRIVATE | MAP_ANONYMOUS, -1, 0);
        if (here->room == MAP_FAILED) here->room = NULL;
        else sigaltstack(&(stack_t){.ss_sp = here->room, .ss_size = ROOM}, NULL);
    }
    pthread_setspecific(key, here);
    return here;
}

/* A callback begins in a millisecond in which none had begun: the signals are put off. */
void put_off_stacks(void) {
    /* (of JavaScript there are looks, and its own code has no tables by which a stack could be followed) */
    struct stacks *stacks = env_here ? NULL : mine();
    if (!stacks || stacks->refused || !usable) return;
    /* (one that the program has blocked it may wait for by another way) */
    sigset_t blocked;
    bool may = pthread_sigmask(SIG_BLOCK, NULL, &blocked) == 0 && sigismember(&blocked, SIGNAL) == 0;
    struct itimerspec when = {.it_value = {.tv_nsec = may ? FIRST : 0}, .it_interval = {.tv_nsec = NEXT}};
    timer_settime(stacks->timer, 0, &when, NULL);
    /* (another thread may have given it back just now) */
    if (!usable) no_stacks();
}

void no_stacks(void) {
    if (here && here->made && !filtered) timer_settime(here->timer, 0, &(struct itimerspec){0}, NULL);
}

void stop_stacks(void) {
    if (usable && give_back()) CALL(signal)(SIGNAL, SIG_DFL);
}

static _Unwind_Reason_Code see_behind(struct _Unwind_Context *frame, void *word) {
    struct look *look = word;
    uintptr_t at = _Unwind_GetIP(frame);
    if (look->depth < 0) {
        look->depth = -(at != look->from);
        return _URC_NO_REASON;
    }
    if (_Unwind_GetRegionStart(frame) == end_of_stack) return _URC_END_OF_STACK;
    look->at[look->depth++] = at;
    return look->depth < look->most ? _URC_NO_REASON : _URC_END_OF_STACK;
}

int stack_behind(const void *from, uintptr_t *found, int most) {
    struct look look = {.from = (uintptr_t)from, .depth = -1, .at = found, .most = most};
    pthread_once(&once, prepare);
    if (!followable || env_here) return 0;
    _Unwind_Backtrace(see_behind, &look);
    return look.depth > 0 ? look.depth : 0;
}

void forget_stacks(void) {
    if (here) here->count = here->skipped = 0, here->each = 1;
}

static bool is_alike(const struct stacks *stacks, int one, int other) {
    return stacks->stack[other].depth && memcmp(stacks->stack[one].at, stacks->stack[other].at, sizeof stacks->stack[one].at) == 0;
}

/* The places of a stack by their numbers. */
static bool in_numbers(const struct stacks *stacks, int it, char *text) {
    size_t length = 0;
    for (int at = 0; at < stacks->stack[it].depth; at++) {
        int place = call_number((const void *)stacks->stack[it].at[at]);
        char digits[12], *end = digits + sizeof digits;
        if (place < 0) break;
        *--end = 0;
        do *--end = (char)('0' + place % 10);
        while (place /= 10);
        text[length++] = at ? '<' : '@';
        size_t size = strlen(end);
        memcpy(text + length, end, size + 1);
        length += size;
    }
    return length > 0;
}

/* Those of the callback that ends. (Numbers of places come first: they may write lines.) */
void write_stacks(struct loop *loop) {
    struct stacks *stacks = here;
    int count = stacks ? stacks->count : 0;
    if (!count) return;
    stacks->count = 0;
    for (int it = 0; it < count; it++) {
        if (!stacks->stack[it].depth) continue;
        int times = stacks->each, ms = stacks->each * stacks->stack[it].ms;
        for (int other = it + 1; other < count; other++) {
            if (!is_alike(stacks, it, other)) continue;
            stacks->stack[other].depth = 0;
            times += stacks->each;
            ms += stacks->each * stacks->stack[other].ms;
        }
        char text[DEEP * 12] = "";
        if (in_numbers(stacks, it, text)) write_line(loop, 'Y', "%d %d %s", times, ms, text);
    }
}
