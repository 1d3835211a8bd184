/* A file is copied by requests of the pool while two jobs of 120 ms hold both of its workers. */
#include "truth.h"
#include <fcntl.h>
static uv_work_t compress[2];
static uv_fs_t opening, reading, closing;
static char room[4096];
static void work_compress(uv_work_t *request) { works("compress", 120); }
static void done(uv_work_t *request, int status) {}
static void on_closed(uv_fs_t *request) { says("closing", "done"); }
static void on_read(uv_fs_t *request) {
    works("reading", 15);
    uv_fs_close(request->loop, &closing, opening.result, on_closed);
}
static void on_open(uv_fs_t *request) {
    uv_buf_t bytes = uv_buf_init(room, sizeof room);
    uv_fs_read(request->loop, &reading, request->result, &bytes, 1, 0, on_read);
}
int main(void) {
    setenv("UV_THREADPOOL_SIZE", "2", 1);
    uv_loop_t *loop = uv_default_loop();
    for (int at = 0; at < 2; at++) uv_queue_work(loop, &compress[at], work_compress, done);
    uv_fs_open(loop, &opening, "/etc/passwd", O_RDONLY, 0, on_open);
    return uv_run(loop, UV_RUN_DEFAULT);
}
