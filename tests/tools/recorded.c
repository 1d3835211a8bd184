/* What a callback costs: `recorded idle N`, `recorded timer N`, `recorded write N` call back so often; and what a timer costs that is made, started,
 * called and closed, with the callback of its end: `recorded life N` (tests/tools/unharmed --costs). */
#include <stdlib.h>
#include <uv.h>

static int left;
static uv_idle_t idle;
static uv_timer_t timer;
static uv_pipe_t out, in;
static uv_write_t request;
static char room[64];

static void on_idle(uv_idle_t *handle) {
    if (--left == 0) uv_idle_stop(handle);
}

static void on_timer(uv_timer_t *handle) {
    if (--left) uv_timer_start(handle, on_timer, 0, 0);
}

static void begin_life(uv_loop_t *loop);

static void on_closed(uv_handle_t *handle) {
    uv_loop_t *loop = handle->loop;
    if (--left) begin_life(loop);
}

static void on_last(uv_timer_t *handle) {
    uv_close((uv_handle_t *)handle, on_closed);
}

static void begin_life(uv_loop_t *loop) {
    uv_timer_init(loop, &timer);
    uv_timer_start(&timer, on_last, 0, 0);
}

static void give_room(uv_handle_t *handle, size_t size, uv_buf_t *bytes) {
    *bytes = uv_buf_init(room, sizeof room);
}

static void on_written(uv_write_t *done, int status) {}

static void write_it(void) {
    uv_buf_t bytes = uv_buf_init("hello", 5);
    uv_write(&request, (uv_stream_t *)&out, &bytes, 1, on_written);
}

static void on_read(uv_stream_t *stream, ssize_t length, const uv_buf_t *bytes) {
    if (length > 0 && --left) {
        write_it();
        return;
    }
    uv_close((uv_handle_t *)&in, NULL);
    uv_close((uv_handle_t *)&out, NULL);
}

int main(int count, char **words) {
    uv_loop_t *loop = uv_default_loop();
    uv_file ends[2];
    if (count < 3) return 2;
    left = atoi(words[2]);
    switch (words[1][0]) {
    case 'i':
        uv_idle_init(loop, &idle);
        uv_idle_start(&idle, on_idle);
        break;
    case 't':
        uv_timer_init(loop, &timer);
        uv_timer_start(&timer, on_timer, 0, 0);
        break;
    case 'l':
        begin_life(loop);
        break;
    default:
        uv_pipe(ends, UV_NONBLOCK_PIPE, UV_NONBLOCK_PIPE);
        uv_pipe_init(loop, &out, 0);
        uv_pipe_init(loop, &in, 0);
        uv_pipe_open(&in, ends[0]);
        uv_pipe_open(&out, ends[1]);
        uv_read_start((uv_stream_t *)&in, give_room, on_read);
        write_it();
    }
    return uv_run(loop, UV_RUN_DEFAULT);
}
