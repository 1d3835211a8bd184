/* Three loops in three threads, for tests/recorder/flight: three SECONDS
 *
 *   busy    an idle handle for half of the time, a prepare and a check handle, 5 timers, work of the pool, and sends to the third one
 *   slow    a prepare handle, and 5 timers of 3 to 40 ms
 *   waits   an async handle, and a timer of an hour */
#include <stdlib.h>
#include <uv.h>

enum { TIMERS = 5 };

struct one {
    uv_loop_t loop;
    uv_idle_t idle;
    uv_prepare_t prepare;
    uv_check_t check;
    uv_timer_t timers[TIMERS], mode, end;
    uv_async_t wake;
    uv_work_t work;
    int working, idles;
};

static struct one busy, slow, waits;
static int seconds;

static void on_idle(uv_idle_t *handle) {
    (void)handle;
}

static void on_prepare(uv_prepare_t *handle) {
    (void)handle;
}

static void on_check(uv_check_t *handle) {
    (void)handle;
}

static void on_timer(uv_timer_t *handle) {
    (void)handle;
}

static void do_work(uv_work_t *work) {
    (void)work;
}

static void on_worked(uv_work_t *work, int status) {
    (void)work, (void)status;
    busy.working = 0;
}

static void on_mode(uv_timer_t *handle) {
    (void)handle;
    uv_async_send(&waits.wake);
    if (!busy.working) busy.working = 1, uv_queue_work(&busy.loop, &busy.work, do_work, on_worked);
    busy.idles = !busy.idles;
    if (busy.idles) uv_idle_start(&busy.idle, on_idle);
    else uv_idle_stop(&busy.idle);
}

static void on_wake(uv_async_t *handle) {
    (void)handle;
}

static void on_end(uv_timer_t *handle) {
    (void)handle;
    exit(0);
}

static void prepare(struct one *one, uint64_t first) {
    uv_loop_init(&one->loop);
    uv_prepare_init(&one->loop, &one->prepare);
    uv_prepare_start(&one->prepare, on_prepare);
    for (int at = 0; at < TIMERS; at++) {
        uv_timer_init(&one->loop, &one->timers[at]);
        uv_timer_start(&one->timers[at], on_timer, first + (uint64_t)(3 * at * at), first + (uint64_t)(3 * at * at));
    }
}

static void run(void *loop) {
    uv_run(loop, UV_RUN_DEFAULT);
}

int main(int count, char **words) {
    uv_thread_t threads[2];
    if (count < 2) return 2;
    seconds = atoi(words[1]);
    prepare(&busy, 1);
    prepare(&slow, 3);
    uv_check_init(&busy.loop, &busy.check);
    uv_check_start(&busy.check, on_check);
    uv_idle_init(&busy.loop, &busy.idle);
    uv_timer_init(&busy.loop, &busy.mode);
    uv_timer_start(&busy.mode, on_mode, 7, 7);
    uv_timer_init(&busy.loop, &busy.end);
    uv_timer_start(&busy.end, on_end, (uint64_t)seconds * 1000, 0);
    uv_loop_init(&waits.loop);
    uv_async_init(&waits.loop, &waits.wake, on_wake);
    uv_timer_init(&waits.loop, &waits.end);
    uv_timer_start(&waits.end, on_end, 3600000, 0);
    uv_thread_create(&threads[0], run, &slow.loop);
    uv_thread_create(&threads[1], run, &waits.loop);
    run(&busy.loop);
    return 0;
}
