/* A signal's handler sends each 500 us, as libuv allows, while an idle handle stops and starts 64 timers: handler [ROUNDS]. Status 3 if no send
 * came. */
#include <errno.h>
#include <signal.h>
#include <stdlib.h>
#include <sys/time.h>
#include <uv.h>

static uv_async_t async;
static uv_timer_t timers[64];
static uv_idle_t idle;
static int rounds = 20000, came;

static void on_alarm(int number) {
    int kept = errno;
    (void)number;
    uv_async_send(&async);
    errno = kept;
}

static void on_async(uv_async_t *handle) {
    (void)handle;
    came++;
}

static void on_timer(uv_timer_t *handle) {
    (void)handle;
}

static void on_idle(uv_idle_t *handle) {
    (void)handle;
    for (int at = 0; at < 64; at++) {
        uv_timer_stop(&timers[at]);
        uv_timer_start(&timers[at], on_timer, 1000, 0);
    }
    if (--rounds) return;
    setitimer(ITIMER_REAL, &(struct itimerval){{0, 0}, {0, 0}}, NULL);
    for (int at = 0; at < 64; at++) uv_close((uv_handle_t *)&timers[at], NULL);
    uv_close((uv_handle_t *)&async, NULL);
    uv_close((uv_handle_t *)&idle, NULL);
}

int main(int count, char **words) {
    uv_loop_t *loop = uv_default_loop();
    if (count > 1) rounds = atoi(words[1]);
    uv_async_init(loop, &async, on_async);
    for (int at = 0; at < 64; at++) uv_timer_init(loop, &timers[at]);
    uv_idle_init(loop, &idle);
    uv_idle_start(&idle, on_idle);
    sigaction(SIGALRM, &(struct sigaction){.sa_handler = on_alarm, .sa_flags = SA_RESTART}, NULL);
    setitimer(ITIMER_REAL, &(struct itimerval){{0, 500}, {0, 500}}, NULL);
    uv_run(loop, UV_RUN_DEFAULT);
    return came ? 0 : 3;
}
