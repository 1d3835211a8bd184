/* Its first run of all, which leaves a FILE, loses the race by itself, as on a busy machine: first FILE [STATUS]. The work waits for the timer there,
 * and takes 1 ms in each other run, in which its callback has the timer go off at once. Who comes last closes the handle `open`, unless the timer
 * came first: then the program hangs, or ends with that status; or, with -1, only says so. With -DALWAYS=1 it ends with status 1 each time. */
#include <fcntl.h>
#include <stdio.h>
#include <stdlib.h>
#include <unistd.h>
#include <uv.h>
#ifndef ALWAYS
#define ALWAYS 0
#endif
static uv_work_t work;
static uv_timer_t limit;
static uv_async_t open_one;
static uv_sem_t over;
static int is_first, status, has_answer, is_over;
static void on_open(uv_async_t *a) {}
static void on_limit(uv_timer_t *t);
static void works(uv_work_t *r) {
    if (is_first) uv_sem_wait(&over);
    else usleep(1000);
}
static void done(uv_work_t *r, int s) {
    has_answer = 1;
    if (!is_over) uv_timer_start(&limit, on_limit, 1, 0);
}
static void on_limit(uv_timer_t *t) {
    is_over = 1;
    uv_sem_post(&over);
    uv_close((uv_handle_t *)t, NULL);
    if (!has_answer && status > 0) exit(status);
    if (has_answer || status < 0) puts(has_answer ? "in time" : "too late"), uv_close((uv_handle_t *)&open_one, NULL);
}
int main(int count, char **words) {
    uv_loop_t *loop = uv_default_loop();
    int file = open(words[1], O_CREAT | O_EXCL, 0600);
    if (file >= 0) close(file), is_first = 1;
    if (count > 2) status = atoi(words[2]);
    uv_sem_init(&over, 0);
    uv_async_init(loop, &open_one, on_open);
    uv_timer_init(loop, &limit);
    uv_timer_start(&limit, on_limit, 3000, 0);
    uv_queue_work(loop, &work, works, done);
    return uv_run(loop, UV_RUN_DEFAULT) + ALWAYS;
}
