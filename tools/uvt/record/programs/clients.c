/* An echo over loopback for many clients, each with a few rounds, and a check handle that is called behind each poll: clients [CLIENTS ROUNDS] */
#include <stdio.h>
#include <stdlib.h>
#include <uv.h>

enum { SECONDS = 1000 };

static uv_loop_t *loop;
static uv_tcp_t server;
static uv_check_t check;
static uv_timer_t late;
static char room[65536];
static int clients = 200, rounds = 5, open_clients;
static long checks;

struct client {
    uv_tcp_t socket;
    uv_connect_t connecting;
    uv_write_t writing;
    int left;
};

struct reply {
    uv_write_t writing;
    char text[64];
};

static void give_room(uv_handle_t *handle, size_t size, uv_buf_t *bytes) {
    *bytes = uv_buf_init(room, sizeof room);
}

static void on_freed(uv_handle_t *handle) {
    free(handle);
}

static void on_check(uv_check_t *handle) {
    checks++;
}

static void on_late(uv_timer_t *timer) {
    exit(3);
}

/* ---- the server */

static void on_replied(uv_write_t *request, int status) {
    free(request);
}

static void on_request(uv_stream_t *peer, ssize_t length, const uv_buf_t *bytes) {
    if (length < 0) {
        uv_close((uv_handle_t *)peer, on_freed);
        return;
    }
    struct reply *reply = malloc(sizeof *reply);
    uv_buf_t text = uv_buf_init(reply->text, (unsigned)length);
    for (ssize_t at = 0; at < length && at < (ssize_t)sizeof reply->text; at++) reply->text[at] = bytes->base[at];
    uv_write(&reply->writing, peer, &text, 1, on_replied);
}

static void on_connection(uv_stream_t *stream, int status) {
    uv_tcp_t *peer = malloc(sizeof *peer);
    uv_tcp_init(loop, peer);
    uv_accept(stream, (uv_stream_t *)peer);
    uv_read_start((uv_stream_t *)peer, give_room, on_request);
}

/* ---- the clients */

static void on_client_closed(uv_handle_t *handle) {
    free(handle);
    if (--open_clients > 0) return;
    uv_close((uv_handle_t *)&server, NULL);
    uv_close((uv_handle_t *)&check, NULL);
    uv_close((uv_handle_t *)&late, NULL);
}

static void on_written(uv_write_t *request, int status) {}

static void ping(struct client *client) {
    uv_buf_t bytes = uv_buf_init("ping", 4);
    uv_write(&client->writing, (uv_stream_t *)&client->socket, &bytes, 1, on_written);
}

static void on_reply(uv_stream_t *stream, ssize_t length, const uv_buf_t *bytes) {
    struct client *client = (struct client *)stream;
    if (length < 0 || --client->left == 0) uv_close((uv_handle_t *)stream, on_client_closed);
    else ping(client);
}

static void on_connected(uv_connect_t *request, int status) {
    if (status < 0) exit(2);
    uv_read_start(request->handle, give_room, on_reply);
    ping((struct client *)request->handle);
}

static void begin_client(const struct sockaddr *address) {
    struct client *client = calloc(1, sizeof *client);
    client->left = rounds;
    open_clients++;
    uv_tcp_init(loop, &client->socket);
    uv_tcp_connect(&client->connecting, &client->socket, address, on_connected);
}

int main(int count, char **words) {
    struct sockaddr_in address;
    int length = sizeof address;
    if (count == 3) clients = atoi(words[1]), rounds = atoi(words[2]);
    loop = uv_default_loop();
    uv_ip4_addr("127.0.0.1", 0, &address);
    uv_tcp_init(loop, &server);
    uv_tcp_bind(&server, (struct sockaddr *)&address, 0);
    if (uv_listen((uv_stream_t *)&server, 1024, on_connection) != 0) return 1;
    uv_tcp_getsockname(&server, (struct sockaddr *)&address, &length);
    uv_check_init(loop, &check);
    uv_check_start(&check, on_check);
    uv_timer_init(loop, &late);
    uv_timer_start(&late, on_late, SECONDS * 1000, 0);
    for (int at = 0; at < clients; at++) begin_client((struct sockaddr *)&address);
    uv_run(loop, UV_RUN_DEFAULT);
    return uv_loop_close(loop) != 0 || checks == 0;
}
