/* A loop with a beat each millisecond, for tests/recorder/flight: to each line on its input it says how many microseconds apart two beats were at the
 * most since the last line. */
#include <stdio.h>
#include <string.h>
#include <uv.h>

static uv_timer_t beat;
static uv_pipe_t input;
static uint64_t last, most;
static char room[64];

static void on_beat(uv_timer_t *timer) {
    uint64_t now = uv_hrtime();
    (void)timer;
    if (last && now - last > most) most = now - last;
    last = now;
}

static void give_room(uv_handle_t *handle, size_t size, uv_buf_t *bytes) {
    (void)handle, (void)size;
    *bytes = uv_buf_init(room, sizeof room);
}

static void on_line(uv_stream_t *stream, ssize_t length, const uv_buf_t *bytes) {
    (void)bytes;
    if (length < 0) uv_stop(stream->loop);
    if (length <= 0) return;
    printf("%llu\n", (unsigned long long)(most / 1000));
    fflush(stdout);
    most = 0;
}

int main(void) {
    uv_loop_t *loop = uv_default_loop();
    uv_timer_init(loop, &beat);
    uv_timer_start(&beat, on_beat, 1, 1);
    uv_pipe_init(loop, &input, 0);
    uv_pipe_open(&input, 0);
    uv_read_start((uv_stream_t *)&input, give_room, on_line);
    return uv_run(loop, UV_RUN_DEFAULT);
}
