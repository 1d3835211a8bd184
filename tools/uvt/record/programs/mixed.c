/* run once and nowait, idle and check handles, a timer that is started in its callback, an echo over loopback, a file. */
#include <fcntl.h>
#include <stdio.h>
#include <stdlib.h>
#include <uv.h>

static uv_loop_t *loop;
static uv_tcp_t server, client;
static uv_idle_t idle;
static uv_check_t check;
static uv_timer_t timer;
static uv_connect_t connecting;
static uv_write_t writing;
static uv_fs_t file;
static char room[4096];
static int replies;

static void give_room(uv_handle_t *handle, size_t size, uv_buf_t *bytes) {
    *bytes = uv_buf_init(room, sizeof room);
}

static void on_closed(uv_handle_t *handle) {}

static void on_freed(uv_handle_t *handle) {
    free(handle);
}

static void on_written(uv_write_t *request, int status) {
    free(request);
}

static void on_read(uv_stream_t *stream, ssize_t length, const uv_buf_t *bytes) {
    if (length < 0) {
        uv_close((uv_handle_t *)stream, on_freed);
        return;
    }
    uv_write_t *request = malloc(sizeof *request);
    uv_buf_t echo = uv_buf_init(bytes->base, length);
    uv_write(request, stream, &echo, 1, on_written);
}

static void on_connection(uv_stream_t *stream, int status) {
    uv_tcp_t *peer = malloc(sizeof *peer);
    uv_tcp_init(loop, peer);
    uv_accept(stream, (uv_stream_t *)peer);
    uv_read_start((uv_stream_t *)peer, give_room, on_read);
}

static void on_opened(uv_fs_t *request) {
    int opened = request->result;
    uv_fs_req_cleanup(request);
    uv_fs_close(loop, request, opened, NULL);
    uv_close((uv_handle_t *)&server, on_closed);
}

static void ping(uv_stream_t *stream) {
    uv_buf_t bytes = uv_buf_init("ping", 4);
    uv_write(&writing, stream, &bytes, 1, NULL);
}

static void on_reply(uv_stream_t *stream, ssize_t length, const uv_buf_t *bytes) {
    if (++replies < 5) {
        ping(stream);
        return;
    }
    uv_read_stop(stream);
    uv_close((uv_handle_t *)stream, on_closed);
    uv_fs_open(loop, &file, "/etc/hostname", O_RDONLY, 0, on_opened);
}

static void on_connected(uv_connect_t *request, int status) {
    ping(request->handle);
    uv_read_start(request->handle, give_room, on_reply);
}

static void on_idle(uv_idle_t *handle) {
    static int calls;
    if (++calls == 3) uv_close((uv_handle_t *)handle, on_closed);
}

static void on_check(uv_check_t *handle) {}

static void on_timer(uv_timer_t *handle) {
    static int calls;
    if (++calls < 3) uv_timer_start(handle, on_timer, 1, 0);
}

int main(void) {
    struct sockaddr_in address;
    int length = sizeof address;
    loop = uv_default_loop();
    uv_idle_init(loop, &idle);
    uv_idle_start(&idle, on_idle);
    uv_check_init(loop, &check);
    uv_check_start(&check, on_check);
    uv_unref((uv_handle_t *)&check);
    uv_timer_init(loop, &timer);
    uv_timer_start(&timer, on_timer, 1, 0);
    uv_run(loop, UV_RUN_ONCE);
    uv_run(loop, UV_RUN_NOWAIT);
    uv_tcp_init(loop, &server);
    uv_ip4_addr("127.0.0.1", 0, &address);
    uv_tcp_bind(&server, (struct sockaddr *)&address, 0);
    uv_listen((uv_stream_t *)&server, 5, on_connection);
    uv_tcp_getsockname(&server, (struct sockaddr *)&address, &length);
    uv_tcp_init(loop, &client);
    uv_tcp_connect(&connecting, &client, (struct sockaddr *)&address, on_connected);
    uv_run(loop, UV_RUN_DEFAULT);
    uv_close((uv_handle_t *)&timer, NULL);
    uv_close((uv_handle_t *)&check, NULL);
    uv_run(loop, UV_RUN_DEFAULT);
    printf("echoed %d\n", replies);
    return uv_loop_close(loop);
}
