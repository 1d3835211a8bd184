/* The alloc callback of a pipe takes 45 ms, and its read callback nothing. */
#include <sys/socket.h>
#include "truth.h"
static uv_pipe_t in;
static uv_timer_t beat;
static int ends[2];
static char room[64];
static void grow_arena(uv_handle_t *handle, size_t size, uv_buf_t *buffer) {
    static int times;
    if (++times == 2) works("in", 45);
    *buffer = uv_buf_init(room, sizeof room);
}
static void on_read(uv_stream_t *stream, ssize_t length, const uv_buf_t *buffer) {
    if (length <= 0) uv_close((uv_handle_t *)stream, NULL);
}
static void peer(void *none) {
    for (int at = 0; at < 3; at++) {
        usleep(15000);
        if (write(ends[1], "hello", 5) != 5) abort();
    }
    usleep(15000);
    close(ends[1]);
}
static void on_beat(uv_timer_t *timer) {
    static int beats;
    if (++beats == 9) uv_close((uv_handle_t *)timer, NULL);
}
int main(void) {
    uv_loop_t *loop = uv_default_loop();
    uv_thread_t thread;
    if (socketpair(AF_UNIX, SOCK_STREAM, 0, ends) != 0) return 1;
    uv_pipe_init(loop, &in, 0);
    uv_pipe_open(&in, ends[0]);
    uv_read_start((uv_stream_t *)&in, grow_arena, on_read);
    uv_timer_init(loop, &beat);
    uv_timer_start(&beat, on_beat, 10, 10);
    uv_thread_create(&thread, peer, NULL);
    uv_run(loop, UV_RUN_DEFAULT);
    uv_thread_join(&thread);
    return 0;
}
