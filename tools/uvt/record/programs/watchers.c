/* A signal, a process and a pipe of it: handles of I/O. */
#include <signal.h>
#include <stdio.h>
#include <uv.h>

static uv_signal_t interrupt;
static uv_process_t child;
static uv_pipe_t output;
static uv_timer_t later;
static char room[256];

static void on_signal(uv_signal_t *handle, int number) {
    uv_close((uv_handle_t *)handle, NULL);
}

static void on_later(uv_timer_t *timer) {
    raise(SIGUSR1);
}

static void on_exit_of_child(uv_process_t *process, int64_t status, int number) {
    uv_close((uv_handle_t *)process, NULL);
}

static void give_room(uv_handle_t *handle, size_t size, uv_buf_t *bytes) {
    *bytes = uv_buf_init(room, sizeof room);
}

static void on_output(uv_stream_t *stream, ssize_t length, const uv_buf_t *bytes) {
    if (length < 0) uv_close((uv_handle_t *)stream, NULL);
}

int main(void) {
    uv_loop_t *loop = uv_default_loop();
    char *words[] = {"/bin/echo", "hello", NULL};
    uv_stdio_container_t pipes[2] = {{.flags = UV_IGNORE}, {.flags = UV_CREATE_PIPE | UV_WRITABLE_PIPE}};
    uv_process_options_t options = {.file = words[0], .args = words, .exit_cb = on_exit_of_child, .stdio_count = 2, .stdio = pipes};
    uv_pipe_init(loop, &output, 0);
    pipes[1].data.stream = (uv_stream_t *)&output;
    uv_spawn(loop, &child, &options);
    uv_read_start((uv_stream_t *)&output, give_room, on_output);
    uv_signal_init(loop, &interrupt);
    uv_signal_start(&interrupt, on_signal, SIGUSR1);
    uv_timer_init(loop, &later);
    uv_timer_start(&later, on_later, 30, 0);
    uv_run(loop, UV_RUN_DEFAULT);
    return uv_loop_close(loop);
}
