/* A server and a client of one loop: the server's read takes 35 ms, so a timer of 10 ms is late, and so is the client's answer. */
#include "truth.h"
static uv_tcp_t server, peer, client;
static uv_connect_t connecting;
static uv_timer_t heartbeat;
static uv_write_t ask, answer;
static int pings;
static char room[64];
static void on_alloc(uv_handle_t *handle, size_t size, uv_buf_t *bytes) { *bytes = uv_buf_init(room, sizeof room); }
static void ping(void) {
    uv_buf_t bytes = uv_buf_init("ping", 4);
    uv_write(&ask, (uv_stream_t *)&client, &bytes, 1, NULL);
}
static void on_server_read(uv_stream_t *stream, ssize_t length, const uv_buf_t *bytes) {
    if (length <= 0) return;
    works("peer", 35);
    uv_buf_t back = uv_buf_init("pong", 4);
    uv_write(&answer, stream, &back, 1, NULL);
}
static void on_client_read(uv_stream_t *stream, ssize_t length, const uv_buf_t *bytes) {
    if (length <= 0) return;
    if (++pings < 3) {
        ping();
        return;
    }
    uv_close((uv_handle_t *)&client, NULL);
    uv_close((uv_handle_t *)&peer, NULL);
    uv_close((uv_handle_t *)&server, NULL);
    uv_close((uv_handle_t *)&heartbeat, NULL);
}
static void on_connection(uv_stream_t *stream, int status) {
    uv_tcp_init(stream->loop, &peer);
    uv_accept(stream, (uv_stream_t *)&peer);
    uv_read_start((uv_stream_t *)&peer, on_alloc, on_server_read);
}
static void on_connected(uv_connect_t *request, int status) {
    uv_read_start((uv_stream_t *)&client, on_alloc, on_client_read);
    ping();
}
static void on_heartbeat(uv_timer_t *timer) {}
int main(void) {
    uv_loop_t *loop = uv_default_loop();
    struct sockaddr_in address;
    int size = sizeof address;
    uv_ip4_addr("127.0.0.1", 0, &address);
    uv_tcp_init(loop, &server);
    uv_tcp_bind(&server, (struct sockaddr *)&address, 0);
    uv_listen((uv_stream_t *)&server, 4, on_connection);
    uv_tcp_getsockname(&server, (struct sockaddr *)&address, &size);
    uv_tcp_init(loop, &client);
    uv_tcp_connect(&connecting, &client, (struct sockaddr *)&address, on_connected);
    uv_timer_init(loop, &heartbeat);
    uv_timer_start(&heartbeat, on_heartbeat, 10, 10);
    return uv_run(loop, UV_RUN_DEFAULT);
}
