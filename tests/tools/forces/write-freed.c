/* A long write, which goes on when its reader is told to read. Where the time is over before that, the write is cancelled: its callback gives its
 * bytes back, and so does the close callback. */
#include <stdlib.h>
#include <sys/socket.h>
#include <uv.h>
enum { LONG = 4 << 20 };
static uv_pipe_t from, to;
static uv_timer_t limit;
static uv_work_t asked;
static uv_write_t out;
static char *bytes;
static size_t had;
static void look_up(uv_work_t *r) { uv_sleep(10); }
static void on_room(uv_handle_t *h, size_t size, uv_buf_t *room) { *room = uv_buf_init(malloc(size), (unsigned)size); }
static void freed(uv_handle_t *h) { if (had < LONG) free(bytes); }
static void on_bytes(uv_stream_t *s, ssize_t got, const uv_buf_t *room) {
    free(room->base);
    had += got > 0 ? (size_t)got : 0;
    if (had < LONG && got >= 0) return;
    uv_close((uv_handle_t *)&to, NULL);
    if (uv_is_closing((uv_handle_t *)&limit)) return;
    uv_close((uv_handle_t *)&limit, NULL);
    uv_close((uv_handle_t *)&from, freed);
}
static void was_asked(uv_work_t *r, int status) {
    if (!uv_is_closing((uv_handle_t *)&to)) uv_read_start((uv_stream_t *)&to, on_room, on_bytes);
}
static void written(uv_write_t *r, int status) { free(bytes); }
static void on_limit(uv_timer_t *t) {
    uv_close((uv_handle_t *)t, NULL);
    uv_close((uv_handle_t *)&from, freed);
}
int main(void) {
    uv_loop_t *l = uv_default_loop();
    int ends[2];
    if (socketpair(AF_UNIX, SOCK_STREAM, 0, ends)) return 2;
    bytes = calloc(1, LONG);
    uv_buf_t all = uv_buf_init(bytes, LONG);
    uv_pipe_init(l, &from, 0);
    uv_pipe_init(l, &to, 0);
    uv_pipe_open(&from, ends[0]);
    uv_pipe_open(&to, ends[1]);
    uv_timer_init(l, &limit);
    uv_timer_start(&limit, on_limit, 1000, 0);
    uv_queue_work(l, &asked, look_up, was_asked);
    uv_write(&out, (uv_stream_t *)&from, &all, 1, written);
    return uv_run(l, UV_RUN_DEFAULT);
}
