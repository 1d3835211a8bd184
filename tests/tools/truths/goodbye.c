/* A shutdown waits for the write before it, and that for a reader who begins after 90 ms. */
#include "truth.h"
static uv_pipe_t out, in;
static uv_timer_t late;
static uv_write_t write_it;
static uv_shutdown_t shut;
static char text[4 << 20], room[1 << 20];
static uint64_t begun;
static void on_written(uv_write_t *request, int status) { waited("out", "write", begun); }
static void on_shut(uv_shutdown_t *request, int status) {
    waited("out", "shutdown", begun);
    uv_close((uv_handle_t *)&out, NULL);
}
static void give_room(uv_handle_t *handle, size_t size, uv_buf_t *bytes) { *bytes = uv_buf_init(room, sizeof room); }
static void on_read(uv_stream_t *stream, ssize_t length, const uv_buf_t *bytes) {
    if (length < 0) uv_close((uv_handle_t *)stream, NULL);
}
static void on_late(uv_timer_t *timer) { uv_read_start((uv_stream_t *)&in, give_room, on_read); }
static void say_goodbye(void) {
    uv_buf_t bytes = uv_buf_init(text, sizeof text);
    begun = uv_hrtime();
    uv_write(&write_it, (uv_stream_t *)&out, &bytes, 1, on_written);
    uv_shutdown(&shut, (uv_stream_t *)&out, on_shut);
}
int main(void) {
    uv_loop_t *loop = uv_default_loop();
    uv_file ends[2];
    uv_socketpair(SOCK_STREAM, 0, ends, UV_NONBLOCK_PIPE, UV_NONBLOCK_PIPE);
    uv_pipe_init(loop, &out, 0);
    uv_pipe_init(loop, &in, 0);
    uv_pipe_open(&out, ends[0]);
    uv_pipe_open(&in, ends[1]);
    say_goodbye();
    uv_timer_init(loop, &late);
    uv_timer_start(&late, on_late, 90, 0);
    uv_run(loop, UV_RUN_DEFAULT);
    return 0;
}
