/* Two datagrams, which the program sends to itself, and a third one that is too long for any. */
#include "truth.h"
static uv_udp_t sender, receiver;
static uv_udp_send_t requests[3];
static char text[70000];
static int left = 3;
static void on_sent(uv_udp_send_t *request, int status) {
    printf("sender: %s\n", status ? uv_err_name(status) : "ok");
    if (--left == 0) {
        uv_close((uv_handle_t *)&sender, NULL);
        uv_close((uv_handle_t *)&receiver, NULL);
    }
}
static void announce(const struct sockaddr *to, int at, unsigned size) {
    uv_buf_t bytes = uv_buf_init(text, size);
    uv_udp_send(&requests[at], &sender, &bytes, 1, to, on_sent);
}
int main(void) {
    uv_loop_t *loop = uv_default_loop();
    struct sockaddr_in address;
    int size = sizeof address;
    uv_ip4_addr("127.0.0.1", 0, &address);
    uv_udp_init(loop, &receiver);
    uv_udp_bind(&receiver, (struct sockaddr *)&address, 0);
    uv_udp_getsockname(&receiver, (struct sockaddr *)&address, &size);
    uv_udp_init(loop, &sender);
    announce((struct sockaddr *)&address, 0, 100);
    announce((struct sockaddr *)&address, 1, 250);
    announce((struct sockaddr *)&address, 2, sizeof text);
    uv_run(loop, UV_RUN_DEFAULT);
    return 0;
}
