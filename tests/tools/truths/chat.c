/* A server writes eight megabytes to a client that reads nothing for 150 ms: its write waits for the client, and for nobody of this loop. */
#include "truth.h"
static uv_tcp_t server, peer, client;
static uv_timer_t pause_over;
static uv_connect_t connecting;
static uv_write_t write_it;
static char text[8 << 20], room[1 << 20];
static uint64_t begun;
static void on_written(uv_write_t *request, int status) {
    waited("peer", "write", begun);
    uv_close((uv_handle_t *)&peer, NULL);
    uv_close((uv_handle_t *)&server, NULL);
}
static void broadcast(void) {
    uv_buf_t bytes = uv_buf_init(text, sizeof text);
    begun = uv_hrtime();
    uv_write(&write_it, (uv_stream_t *)&peer, &bytes, 1, on_written);
}
static void on_connection(uv_stream_t *stream, int status) {
    uv_tcp_init(stream->loop, &peer);
    uv_accept(stream, (uv_stream_t *)&peer);
    broadcast();
}
static void give_room(uv_handle_t *handle, size_t size, uv_buf_t *bytes) { *bytes = uv_buf_init(room, sizeof room); }
static void on_read(uv_stream_t *stream, ssize_t length, const uv_buf_t *bytes) {
    if (length < 0) uv_close((uv_handle_t *)stream, NULL);
}
static void on_pause_over(uv_timer_t *timer) {
    uv_read_start((uv_stream_t *)&client, give_room, on_read);
    uv_close((uv_handle_t *)timer, NULL);
}
static void on_connected(uv_connect_t *request, int status) { uv_timer_start(&pause_over, on_pause_over, 150, 0); }
int main(void) {
    uv_loop_t *loop = uv_default_loop();
    struct sockaddr_in address;
    int size = sizeof address;
    uv_ip4_addr("127.0.0.1", 0, &address);
    uv_tcp_init(loop, &server);
    uv_tcp_bind(&server, (struct sockaddr *)&address, 0);
    uv_tcp_getsockname(&server, (struct sockaddr *)&address, &size);
    uv_listen((uv_stream_t *)&server, 1, on_connection);
    uv_timer_init(loop, &pause_over);
    uv_tcp_init(loop, &client);
    uv_tcp_connect(&connecting, &client, (struct sockaddr *)&address, on_connected);
    uv_run(loop, UV_RUN_DEFAULT);
    return 0;
}
