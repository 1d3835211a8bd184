/* A connect to a port at which nobody listens. */
#include "truth.h"
static uv_tcp_t client, nobody;
static uv_connect_t connecting;
static void on_connected(uv_connect_t *request, int status) {
    printf("client: %s\n", uv_err_name(status));
    uv_close((uv_handle_t *)&client, NULL);
}
static void dial(const struct sockaddr_in *address) { uv_tcp_connect(&connecting, &client, (const struct sockaddr *)address, on_connected); }
int main(void) {
    uv_loop_t *loop = uv_default_loop();
    struct sockaddr_in address;
    int size = sizeof address;
    uv_ip4_addr("127.0.0.1", 0, &address);
    uv_tcp_init(loop, &nobody);
    uv_tcp_bind(&nobody, (struct sockaddr *)&address, 0);
    uv_tcp_getsockname(&nobody, (struct sockaddr *)&address, &size);
    uv_tcp_init(loop, &client);
    dial(&address);
    uv_run(loop, UV_RUN_DEFAULT);
    return 0;
}
