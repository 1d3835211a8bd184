/* The loop is stopped before a process ends, and before a request and a file's request are called back. */
#include <signal.h>
#include "truth.h"
static uv_process_t child;
static uv_work_t slow;
static uv_fs_t lost;
static uv_timer_t enough;
static uv_async_t news;
static void on_exit_(uv_process_t *process, int64_t status, int signal) {
    (void)process, (void)status, (void)signal;
}
static void do_slow(uv_work_t *work) {
    (void)work;
    usleep(200000);
}
static void on_slow(uv_work_t *work, int status) {
    (void)work, (void)status;
}
static void on_lost(uv_fs_t *request) {
    (void)request;
}
static void on_news(uv_async_t *async) {
    (void)async;
}
static void on_enough(uv_timer_t *timer) {
    uv_fs_stat(timer->loop, &lost, ".", on_lost);
    uv_stop(timer->loop);
}
int main(void) {
    uv_loop_t *loop = uv_default_loop();
    char *words[] = {"sleep", "5", NULL};
    uv_process_options_t options = {.file = "sleep", .args = words, .exit_cb = on_exit_};
    uv_spawn(loop, &child, &options);
    uv_async_init(loop, &news, on_news);
    uv_queue_work(loop, &slow, do_slow, on_slow);
    uv_timer_init(loop, &enough);
    uv_timer_start(&enough, on_enough, 40, 0);
    uv_run(loop, UV_RUN_DEFAULT);
    uv_process_kill(&child, SIGKILL);
    return 0;
}
