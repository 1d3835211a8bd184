/* A program for keeps.py: kept flood COUNT [STALL_AT]    so many turns of a loop, each with three callbacks; at one of them 120 ms in rebuild
 *                         kept often COUNT EVERY         so many turns, and each EVERY turns 30 ms and more in rebuild
 *                         kept rests COUNT               the same, then a timer each 100 ms alone, of which the 40th takes 120 ms in rebuild
 *                         kept hang COUNT                the same, and a timer whose callback never ends, and waits
 *                         kept spins COUNT               the same, and it is on the processor all the time
 *                         kept wait COUNT                the same, and another loop that waits all the time, with an async handle
 *                         kept again COUNT               the same, and then the program replaces itself
 *                         kept serve                     a timer each 5 ms, and one of 40, for ever; the pool now and then
 *                         kept opens                     serve, and the first room for the recorder's files is there 600 ms late
 *                         kept starts                    serve, whose loop begins 400 ms late, and 1300 ms behind its first handle
 *                         kept asks                      serve, and two requests that the pool always has; each hundredth stalls, for 150 ms */
#define _GNU_SOURCE
#include <errno.h>
#include <fcntl.h>
#include <stdbool.h>
#include <stdio.h>
#include <stdlib.h>
#include <string.h>
#include <time.h>
#include <unistd.h>
#include <uv.h>

static uv_idle_t turn;
static uv_prepare_t before;
static uv_timer_t beat, late, never;
static uv_async_t wake;
static uv_loop_t other;
static uv_work_t work;
static int count, stall_at, every, working;
static char **words;

static void wait_ms(int ms) {
    struct timespec time = {ms / 1000, ms % 1000 * 1000000L};
    nanosleep(&time, NULL);
}

/* (the recorder asks so for room) */
int posix_fallocate(int file, off_t begin, off_t size) {
    static bool asked;
    if (!asked && strcmp(words[1], "opens") == 0) wait_ms(600);
    asked = true;
    return fallocate(file, 0, begin, size) ? errno : 0;
}

static void rebuild(void) {
    wait_ms(120);
}

static void on_rest(uv_timer_t *timer) {
    static int times;
    if (++times == 40) rebuild();
    if (times == 55) uv_close((uv_handle_t *)timer, NULL);
}

static void on_turn(uv_idle_t *idle) {
    if (--count == stall_at) rebuild();
    if (every && count % every == 0) wait_ms(30 + count / every % 7);
    if (count % 5000 == 0) uv_async_send(&wake);
    if (count > 0) return;
    uv_close((uv_handle_t *)idle, NULL);
    uv_close((uv_handle_t *)&before, NULL);
    if (strcmp(words[1], "rests") == 0) uv_timer_start(&beat, on_rest, 100, 100);
    else uv_close((uv_handle_t *)&beat, NULL);
    if (strcmp(words[1], "again") == 0) execl(words[0], words[0], "flood", words[2], (char *)NULL);
}

static void on_before(uv_prepare_t *prepare) {
    (void)prepare;
}

static void on_beat(uv_timer_t *timer) {
    (void)timer;
}

static bool spins;

static void solve(void) {
    for (volatile unsigned tried = 0;; tried++) continue;
}

static void on_never(uv_timer_t *timer) {
    (void)timer;
    puts("hangs");
    fflush(stdout);
    if (spins) solve();
    for (;;) pause();
}

static void on_wake(uv_async_t *async) {
    (void)async;
}

static void on_end(uv_timer_t *timer) {
    (void)timer;
}

static void run_other(void *none) {
    (void)none;
    uv_run(&other, UV_RUN_DEFAULT);
}

static void do_work(uv_work_t *request) {
    (void)request;
}

static void on_worked(uv_work_t *request, int status) {
    (void)request, (void)status;
    working = 0;
}

static void on_serve(uv_timer_t *timer) {
    static int times;
    if (++times % 10 == 0 && !working) {
        working = 1;
        uv_queue_work(timer->loop, &work, do_work, on_worked);
    }
}

static uv_work_t always[2];

static void do_always(uv_work_t *request) {
    wait_ms(request == always ? 7 : 30);
}

static void on_always(uv_work_t *request, int status) {
    static int times;
    (void)status;
    if (++times % 100 == 0) wait_ms(150);
    uv_queue_work(request->loop, request, do_always, on_always);
}

static void on_report(uv_timer_t *timer) {
    (void)timer;
    wait_ms(3);
}

int main(int argc, char **argv) {
    uv_loop_t *loop = uv_default_loop();
    uv_thread_t thread;
    words = argv;
    if (argc < 2) return 2;
    uv_timer_init(loop, &beat);
    if (strcmp(argv[1], "asks") == 0)
        for (int at = 0; at < 2; at++) uv_queue_work(loop, &always[at], do_always, on_always);
    bool starts = strcmp(argv[1], "starts") == 0;
    if (strcmp(argv[1], "serve") == 0 || strcmp(argv[1], "opens") == 0 || strcmp(argv[1], "asks") == 0 || starts) {
        uv_timer_init(loop, &late);
        if (starts) wait_ms(1300), uv_update_time(loop);
        uv_timer_start(&beat, on_serve, 5, 5);
        uv_timer_start(&late, on_report, 40, 40);
        if (starts) wait_ms(400);
        return uv_run(loop, UV_RUN_DEFAULT);
    }
    count = atoi(argv[2]);
    stall_at = argc > 3 ? atoi(argv[3]) : -1;
    if (strcmp(argv[1], "often") == 0) every = stall_at, stall_at = -1;
    uv_idle_init(loop, &turn);
    uv_idle_start(&turn, on_turn);
    uv_prepare_init(loop, &before);
    uv_prepare_start(&before, on_before);
    uv_timer_start(&beat, on_beat, 1, 1);
    spins = strcmp(argv[1], "spins") == 0;
    if (spins || strcmp(argv[1], "hang") == 0) {
        uv_timer_init(loop, &never);
        uv_timer_start(&never, on_never, 700, 0);
    }
    if (strcmp(argv[1], "wait") == 0) {
        uv_loop_init(&other);
        uv_async_init(&other, &wake, on_wake);
        uv_timer_init(&other, &late);
        uv_timer_start(&late, on_end, 3600000, 0);
        uv_thread_create(&thread, run_other, NULL);
    } else {
        uv_async_init(loop, &wake, on_wake);
        uv_unref((uv_handle_t *)&wake);
    }
    uv_run(loop, UV_RUN_DEFAULT);
    return 0;
}
