/* A server that stalls once: a client of its own asks each 5 ms, and the 400th request has the processor for 400 ms in rebuild_index. It runs until
 * it is killed, or for so many seconds: stalls [SECONDS] */
#include <netinet/in.h>
#include <stdlib.h>
#include <uv.h>

static uv_tcp_t listener, client, connection;
static uv_timer_t pace, beat;
static uv_connect_t connecting;
static uv_write_t asked, answered;
static char room[64];
static int requests, beats;

static void give_room(uv_handle_t *handle, size_t size, uv_buf_t *bytes) {
    (void)handle, (void)size;
    *bytes = uv_buf_init(room, sizeof room);
}

static void rebuild_index(void) {
    clock_t end = clock() + CLOCKS_PER_SEC * 2 / 5;
    while (clock() < end) continue;
}

static void on_answered(uv_write_t *request, int status) {
    (void)request, (void)status;
}

static void on_request(uv_stream_t *stream, ssize_t length, const uv_buf_t *bytes) {
    uv_buf_t answer = uv_buf_init("200\n", 4);
    (void)bytes;
    if (length <= 0) return;
    if (++requests == 400) rebuild_index();
    uv_write(&answered, stream, &answer, 1, on_answered);
}

static void on_answer(uv_stream_t *stream, ssize_t length, const uv_buf_t *bytes) {
    (void)stream, (void)length, (void)bytes;
}

static void on_pace(uv_timer_t *timer) {
    uv_buf_t bytes = uv_buf_init("get\n", 4);
    (void)timer;
    uv_write(&asked, (uv_stream_t *)&client, &bytes, 1, on_answered);
}

static void on_beat(uv_timer_t *timer) {
    if (beats > 0 && --beats == 0) uv_stop(timer->loop);
}

static void on_connection(uv_stream_t *server, int status) {
    (void)status;
    uv_tcp_init(server->loop, &connection);
    uv_accept(server, (uv_stream_t *)&connection);
    uv_read_start((uv_stream_t *)&connection, give_room, on_request);
}

static void on_connected(uv_connect_t *request, int status) {
    if (status) exit(1);
    uv_read_start(request->handle, give_room, on_answer);
    uv_timer_start(&pace, on_pace, 5, 5);
}

int main(int count, char **words) {
    uv_loop_t *loop = uv_default_loop();
    struct sockaddr_in address;
    int size = sizeof address;
    if (count > 1) beats = 20 * atoi(words[1]);
    uv_timer_init(loop, &beat);
    uv_timer_start(&beat, on_beat, 50, 50);
    uv_timer_init(loop, &pace);
    uv_tcp_init(loop, &listener);
    uv_ip4_addr("127.0.0.1", 0, &address);
    if (uv_tcp_bind(&listener, (struct sockaddr *)&address, 0) || uv_listen((uv_stream_t *)&listener, 8, on_connection)) return 1;
    uv_tcp_getsockname(&listener, (struct sockaddr *)&address, &size);
    uv_tcp_init(loop, &client);
    uv_tcp_connect(&connecting, &client, (struct sockaddr *)&address, on_connected);
    uv_run(loop, UV_RUN_DEFAULT);
    return 0;
}
