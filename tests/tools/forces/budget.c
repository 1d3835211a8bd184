/* A heartbeat of 20 ms, and two jobs whose results take some ms to read: how late is it at worst? It says by its own clock how late it is. */
#include <stdio.h>
#include <uv.h>
static uv_timer_t heartbeat;
static uv_work_t jobs[2];
static uint64_t due;
static int beats;
static volatile double sum;

static void compute(long turns) {
    for (long i = 0; i < turns; i++) sum += (double)(i % 7);
}

static void run_job(uv_work_t *job) { compute(2000000); }
static void on_result(uv_work_t *job, int status) { compute(2500000); }

static void on_heartbeat(uv_timer_t *timer) {
    printf("late by %d ms\n", (int)(uv_hrtime() / 1000000 - due));
    fflush(stdout);
    due = uv_now(timer->loop) + 20;
    if (++beats == 3) uv_close((uv_handle_t *)timer, NULL);
}

int main(void) {
    uv_loop_t *loop = uv_default_loop();
    uv_timer_init(loop, &heartbeat);
    uv_timer_start(&heartbeat, on_heartbeat, 20, 20);
    due = uv_now(loop) + 20;
    for (int i = 0; i < 2; i++) uv_queue_work(loop, &jobs[i], run_job, on_result);
    return uv_run(loop, UV_RUN_DEFAULT);
}
