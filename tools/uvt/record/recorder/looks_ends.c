/* A signal that ends a program in node: its looks are written first. */
#define _GNU_SOURCE
#include "javascript.h"

#include <errno.h>
#include <unistd.h>

volatile sig_atomic_t ended_by;
static struct sigaction before[SIGTERM + 1]; /* what node had for it, which sees to the terminal and ends it */

void end_by_signal(void) {
    sigaction(ended_by, &before[ended_by], NULL);
    raise(ended_by);
}

static uv_async_t ending;
static int (*wake_up)(uv_async_t *);

/* (the handle isn't seen by the recorder: what is called here stands for none of the program's) */
static void on_ending(uv_async_t *none) {
    (void)none;
    write_looks_here();
    end_by_signal();
}

static void end_now(int none) {
    (void)none;
    end_by_signal();
}

/* (a native function that takes long lets nobody look: it has two seconds) */
static void on_signal(int signal) {
    int kept = errno;
    if (ended_by) {
        sigaction(signal, &before[signal], NULL);
        raise(signal);
        return;
    }
    ended_by = signal;
    sigaction(SIGALRM, &(struct sigaction){.sa_handler = end_now}, NULL);
    alarm(2);
    look_now();
    inside++;
    wake_up(&ending);
    inside--;
    errno = kept;
}

void look_before_signals(struct loop *loop) {
    static bool is;
    int (*make)(uv_loop_t *, uv_async_t *, uv_async_cb) = (int (*)(uv_loop_t *, uv_async_t *, uv_async_cb))dlsym(RTLD_DEFAULT, "uv_async_init");
    void (*unref)(uv_handle_t *) = (void (*)(uv_handle_t *))dlsym(RTLD_DEFAULT, "uv_unref");
    wake_up = (int (*)(uv_async_t *))dlsym(RTLD_DEFAULT, "uv_async_send");
    if (!loop || is || !is_looked_at() || !make || !unref || !wake_up) return;
    is = true;
    inside++;
    int made = make(loop->uv, &ending, on_ending);
    if (made == 0) unref((uv_handle_t *)&ending);
    inside--;
    static const int SIGNALS[] = {SIGINT, SIGTERM, SIGHUP};
    for (int at = 0; at < 3 && made == 0; at++) {
        struct sigaction *old = &before[SIGNALS[at]], new = {.sa_handler = on_signal, .sa_flags = SA_RESTART};
        if (sigaction(SIGNALS[at], NULL, old) == 0 && old->sa_handler != SIG_IGN) sigaction(SIGNALS[at], &new, NULL);
    }
}
