/* Three pipes are ready at once: the callback of the first one works 30 ms, and the other two wait behind it. The third one is at its end. */
#include "truth.h"
static uv_pipe_t slow, quick, ended;
static char room[64];
static void give_room(uv_handle_t *handle, size_t size, uv_buf_t *bytes) {
    *bytes = uv_buf_init(room, sizeof room);
}
static void on_slow(uv_stream_t *stream, ssize_t length, const uv_buf_t *bytes) {
    works("slow", 30);
    uv_close((uv_handle_t *)stream, NULL);
}
static void on_other(uv_stream_t *stream, ssize_t length, const uv_buf_t *bytes) {
    uv_close((uv_handle_t *)stream, NULL);
}
static int opened(uv_loop_t *loop, uv_pipe_t *handle, const char *text, uv_read_cb callback) {
    int ends[2];
    if (pipe(ends) != 0 || write(ends[1], text, strlen(text)) != (ssize_t)strlen(text)) return 1;
    close(ends[1]);
    uv_pipe_init(loop, handle, 0);
    uv_pipe_open(handle, ends[0]);
    return uv_read_start((uv_stream_t *)handle, give_room, callback);
}
int main(void) {
    uv_loop_t *loop = uv_default_loop();
    if (opened(loop, &slow, "hello", on_slow) || opened(loop, &quick, "world", on_other) || opened(loop, &ended, "", on_other)) return 1;
    return uv_run(loop, UV_RUN_DEFAULT);
}
