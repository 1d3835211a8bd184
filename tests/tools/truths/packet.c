/* A datagram that takes long to read. */
#include "truth.h"
static uv_udp_t in, out;
static uv_timer_t ask, beat;
static uv_udp_send_t request;
static struct sockaddr_in to;
static char buffer[65536];
static volatile long sum;
static void on_alloc(uv_handle_t *handle, size_t size, uv_buf_t *bytes) { *bytes = uv_buf_init(buffer, sizeof buffer); }
static void parse(const char *bytes, ssize_t size) {
    for (long at = 0; at < 15000000; at++) sum += bytes[at % size];
}
static void on_packet(uv_udp_t *handle, ssize_t size, const uv_buf_t *bytes, const struct sockaddr *from, unsigned flags) {
    if (size <= 0) return;
    uint64_t begin = uv_hrtime(), processor = processor_ns();
    parse(bytes->base, size);
    all_of_it("in", begin, processor);
    uv_close((uv_handle_t *)&in, NULL);
    uv_close((uv_handle_t *)&out, NULL);
}
static void on_ask(uv_timer_t *timer) {
    uv_buf_t bytes = uv_buf_init("hello", 5);
    uv_udp_send(&request, &out, &bytes, 1, (struct sockaddr *)&to, NULL);
}
static void on_beat(uv_timer_t *timer) { uv_close((uv_handle_t *)timer, NULL); }
int main(void) {
    uv_loop_t *loop = uv_default_loop();
    struct sockaddr_in at;
    int size = sizeof to;
    uv_ip4_addr("127.0.0.1", 0, &at);
    uv_udp_init(loop, &in);
    uv_udp_init(loop, &out);
    uv_udp_bind(&in, (struct sockaddr *)&at, 0);
    uv_udp_getsockname(&in, (struct sockaddr *)&to, &size);
    uv_udp_recv_start(&in, on_alloc, on_packet);
    uv_timer_init(loop, &ask);
    uv_timer_init(loop, &beat);
    uv_timer_start(&ask, on_ask, 20, 0);
    uv_timer_start(&beat, on_beat, 40, 0);
    return uv_run(loop, UV_RUN_DEFAULT);
}
