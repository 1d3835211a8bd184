/* A child writes and sleeps; a timer of 60 ms kills it. What it wrote comes at some time: when, nobody sees. */
#include "truth.h"
#include <signal.h>
static uv_process_t child;
static uv_pipe_t output;
static uv_timer_t kill_it;
static char room[256];
static void on_alloc(uv_handle_t *handle, size_t size, uv_buf_t *bytes) { *bytes = uv_buf_init(room, sizeof room); }
static void on_read(uv_stream_t *stream, ssize_t length, const uv_buf_t *bytes) {
    if (length < 0) uv_close((uv_handle_t *)stream, NULL);
    else works("output", 25);
}
static void on_exit_of(uv_process_t *process, int64_t status, int number) { uv_close((uv_handle_t *)process, NULL); }
static void on_kill(uv_timer_t *timer) { uv_process_kill(&child, SIGTERM); }
int main(void) {
    uv_loop_t *loop = uv_default_loop();
    char *words[] = {"sh", "-c", "echo hello; exec sleep 5", NULL};
    uv_stdio_container_t files[3] = {{.flags = UV_IGNORE}, {.flags = UV_CREATE_PIPE | UV_WRITABLE_PIPE}, {.flags = UV_IGNORE}};
    uv_process_options_t options = {.file = "sh", .args = words, .stdio = files, .stdio_count = 3, .exit_cb = on_exit_of};
    uv_pipe_init(loop, &output, 0);
    files[1].data.stream = (uv_stream_t *)&output;
    if (uv_spawn(loop, &child, &options) != 0) return 1;
    uv_read_start((uv_stream_t *)&output, on_alloc, on_read);
    uv_timer_init(loop, &kill_it);
    uv_timer_start(&kill_it, on_kill, 60, 0);
    return uv_run(loop, UV_RUN_DEFAULT);
}
