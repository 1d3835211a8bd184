/* Datagrams over loopback: libuv sends at once, and calls that back in the next section `pending`. A poll watches one end of a pipe. */
#include <stdio.h>
#include <unistd.h>
#include <uv.h>

enum { DATAGRAMS = 4 };

static uv_loop_t *loop;
static uv_udp_t sender, receiver;
static uv_udp_send_t sends[DATAGRAMS];
static uv_poll_t readable;
static uv_timer_t later;
static struct sockaddr_in address;
static int sent, received, ends[2];
static char room[64];

static void give_room(uv_handle_t *handle, size_t size, uv_buf_t *bytes) {
    *bytes = uv_buf_init(room, sizeof room);
}

static void on_sent(uv_udp_send_t *request, int status) {
    sent++;
    if (sent == DATAGRAMS) uv_close((uv_handle_t *)&sender, NULL);
}

static void send_one(uv_udp_send_t *request) {
    uv_buf_t bytes = uv_buf_init("hello", 5);
    uv_udp_send(request, &sender, &bytes, 1, (struct sockaddr *)&address, on_sent);
}

static void on_received(uv_udp_t *handle, ssize_t length, const uv_buf_t *bytes, const struct sockaddr *from, unsigned flags) {
    if (!from) return;
    received++;
    if (received == DATAGRAMS) uv_close((uv_handle_t *)handle, NULL);
}

static void on_readable(uv_poll_t *handle, int status, int events) {
    char sign;
    if (read(ends[0], &sign, 1) == 1) uv_close((uv_handle_t *)handle, NULL);
}

static void on_later(uv_timer_t *timer) {
    send_one(&sends[2]);
    send_one(&sends[3]);
    if (write(ends[1], "x", 1) != 1) uv_stop(loop);
}

int main(void) {
    int length = sizeof address;
    if (pipe(ends) != 0) return 1;
    loop = uv_default_loop();
    uv_ip4_addr("127.0.0.1", 0, &address);
    uv_udp_init(loop, &receiver);
    uv_udp_bind(&receiver, (struct sockaddr *)&address, 0);
    uv_udp_getsockname(&receiver, (struct sockaddr *)&address, &length);
    uv_udp_recv_start(&receiver, give_room, on_received);
    uv_udp_init(loop, &sender);
    uv_poll_init(loop, &readable, ends[0]);
    uv_poll_start(&readable, UV_READABLE, on_readable);
    uv_timer_init(loop, &later);
    uv_timer_start(&later, on_later, 20, 0);
    send_one(&sends[0]);
    send_one(&sends[1]);
    uv_run(loop, UV_RUN_DEFAULT);
    return sent != DATAGRAMS || received != DATAGRAMS;
}
