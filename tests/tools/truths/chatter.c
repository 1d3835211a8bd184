/* Two ends of a pipe that answer one another: each poll has bytes for one of them, so none waits, and yet nobody spins. */
#include "truth.h"
static uv_pipe_t here, there;
static uv_write_t writing[2];
static char space[64];
static int left = 150;
static void room(uv_handle_t *handle, size_t size, uv_buf_t *buf) { *buf = uv_buf_init(space, sizeof space); }
static void on_written(uv_write_t *request, int status) { }
static void on_read(uv_stream_t *stream, ssize_t size, const uv_buf_t *buf) {
    uv_buf_t byte = uv_buf_init("x", 1);
    uint64_t begin = uv_hrtime();
    while (uv_hrtime() - begin < 50000) continue;
    if (size < 0 || left-- == 0) {
        uv_close((uv_handle_t *)&here, NULL);
        uv_close((uv_handle_t *)&there, NULL);
        return;
    }
    uv_write(&writing[stream == (uv_stream_t *)&here], stream, &byte, 1, on_written);
}
int main(void) {
    uv_loop_t *loop = uv_default_loop();
    uv_os_sock_t ends[2];
    uv_buf_t byte = uv_buf_init("x", 1);
    if (socketpair(AF_UNIX, SOCK_STREAM, 0, ends) != 0) return 1;
    uv_pipe_init(loop, &here, 0);
    uv_pipe_init(loop, &there, 0);
    uv_pipe_open(&here, ends[0]);
    uv_pipe_open(&there, ends[1]);
    uv_read_start((uv_stream_t *)&here, room, on_read);
    uv_read_start((uv_stream_t *)&there, room, on_read);
    uv_write(&writing[0], (uv_stream_t *)&here, &byte, 1, on_written);
    return uv_run(loop, UV_RUN_DEFAULT);
}
