/* Four opens of pipes with nobody at their other end hold the pool for 150 ms. A line that is written to a file waits for them. */
#include "truth.h"
#include <fcntl.h>
#include <sys/stat.h>
#include <unistd.h>
static uv_fs_t opening[4], line;
static uv_timer_t log_it;
static uv_buf_t text = {(char *)"a\n", 2};
static char name[4][16];
static void on_open(uv_fs_t *request) { close((int)request->result); uv_fs_req_cleanup(request); }
static void on_line(uv_fs_t *request) { uv_fs_req_cleanup(request); }
static void on_log(uv_timer_t *timer) { uv_fs_write(timer->loop, &line, 2, &text, 1, -1, on_line); }
static void open_all(void *none) {
    uv_sleep(150);
    for (int at = 0; at < 4; at++) close(open(name[at], O_WRONLY));
}
int main(void) {
    uv_loop_t *loop = uv_default_loop();
    uv_thread_t other;
    for (int at = 0; at < 4; at++) {
        snprintf(name[at], sizeof name[at], "fifo.%d", at);
        mkfifo(name[at], 0600);
        uv_fs_open(loop, &opening[at], name[at], O_RDONLY, 0, on_open);
    }
    uv_timer_init(loop, &log_it);
    uv_timer_start(&log_it, on_log, 20, 0);
    uv_thread_create(&other, open_all, NULL);
    uv_run(loop, UV_RUN_DEFAULT);
    uv_thread_join(&other);
    for (int at = 0; at < 4; at++) unlink(name[at]);
    return 0;
}
