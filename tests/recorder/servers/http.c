/* A server over TCP with its clients in one process, for tests/recorder/flight: http SECONDS CLIENTS [STALL_MS STALL_AT_MS [PAUSE_MS]]
 *
 * A request is 5 bytes, an answer too. Each request starts a timer of its client anew, and each fiftieth has work for the pool. A beat each 100 ms
 * ends it. Where it is asked for, the first request from STALL_AT_MS on takes STALL_MS in rebuild_index. Without a pause behind each answer it is
 * flat out. At the end it says how many callbacks it had. */
#include <netinet/in.h>
#include <stdio.h>
#include <stdlib.h>
#include <string.h>
#include <time.h>
#include <uv.h>

struct client {
    uv_tcp_t out, in;
    uv_timer_t patience, rest;
    uv_write_t asked, answered;
    uv_connect_t connect;
    uv_work_t work;
    int working;
};

static uv_tcp_t listener;
static uv_timer_t beat;
static struct client *clients;
static long callbacks;
static uint64_t begun, end_at, stall_at;
static int count, accepted, stall, pause_ms;
static char room[64];

static void rebuild_index(int ms) {
    struct timespec time = {ms / 1000, ms % 1000 * 1000000L};
    nanosleep(&time, NULL);
}

static void give_room(uv_handle_t *handle, size_t size, uv_buf_t *bytes) {
    (void)handle, (void)size;
    *bytes = uv_buf_init(room, sizeof room);
}

static void on_asked(uv_write_t *request, int status) {
    (void)request, (void)status;
    callbacks++;
}

static void ask(struct client *client) {
    uv_buf_t bytes = uv_buf_init("get\r\n", 5);
    uv_write(&client->asked, (uv_stream_t *)&client->out, &bytes, 1, on_asked);
}

static void on_patience(uv_timer_t *timer) {
    (void)timer;
    callbacks++;
}

static void do_work(uv_work_t *work) {
    (void)work;
}

static void on_worked(uv_work_t *work, int status) {
    (void)status;
    ((struct client *)work->data)->working = 0;
    callbacks++;
}

static void on_rest(uv_timer_t *timer) {
    callbacks++;
    ask(timer->data);
}

static void on_answer(uv_stream_t *stream, ssize_t length, const uv_buf_t *bytes) {
    struct client *client = stream->data;
    (void)bytes;
    callbacks++;
    if (length <= 0) return;
    if (pause_ms) uv_timer_start(&client->rest, on_rest, (uint64_t)pause_ms, 0);
    else ask(client);
}

static void on_answered(uv_write_t *request, int status) {
    (void)request, (void)status;
    callbacks++;
}

static void on_request(uv_stream_t *stream, ssize_t length, const uv_buf_t *bytes) {
    struct client *client = stream->data;
    uv_buf_t answer = uv_buf_init("200\r\n", 5);
    (void)bytes;
    callbacks++;
    if (length <= 0) return;
    if (stall && uv_now(stream->loop) >= begun + stall_at) rebuild_index(stall), stall = 0;
    uv_timer_start(&client->patience, on_patience, 5000, 0);
    uv_write(&client->answered, stream, &answer, 1, on_answered);
    if (callbacks % 50 == 0 && !client->working) {
        client->working = 1;
        client->work.data = client;
        uv_queue_work(stream->loop, &client->work, do_work, on_worked);
    }
}

static void on_connection(uv_stream_t *server, int status) {
    struct client *client = &clients[accepted++];
    (void)status;
    callbacks++;
    uv_tcp_init(server->loop, &client->in);
    client->in.data = client;
    uv_accept(server, (uv_stream_t *)&client->in);
    uv_read_start((uv_stream_t *)&client->in, give_room, on_request);
}

static void on_connected(uv_connect_t *request, int status) {
    struct client *client = request->data;
    callbacks++;
    if (status < 0) return;
    uv_read_start((uv_stream_t *)&client->out, give_room, on_answer);
    ask(client);
}

static void on_beat(uv_timer_t *timer) {
    callbacks++;
    if (uv_now(timer->loop) < end_at) return;
    printf("%ld callbacks\n", callbacks);
    fflush(stdout);
    exit(0);
}

int main(int words, char **word) {
    uv_loop_t *loop = uv_default_loop();
    struct sockaddr_in address;
    int size = sizeof address;
    if (words < 3) return 2;
    count = atoi(word[2]);
    if (words > 4) stall = atoi(word[3]), stall_at = (uint64_t)atol(word[4]);
    if (words > 5) pause_ms = atoi(word[5]);
    clients = calloc((size_t)count, sizeof *clients);
    uv_update_time(loop);
    begun = uv_now(loop);
    end_at = begun + (uint64_t)atol(word[1]) * 1000;
    uv_timer_init(loop, &beat);
    uv_timer_start(&beat, on_beat, 100, 100);
    uv_tcp_init(loop, &listener);
    uv_ip4_addr("127.0.0.1", 0, &address);
    if (uv_tcp_bind(&listener, (struct sockaddr *)&address, 0) || uv_listen((uv_stream_t *)&listener, 512, on_connection)) return 1;
    uv_tcp_getsockname(&listener, (struct sockaddr *)&address, &size);
    for (int at = 0; at < count; at++) {
        struct client *client = &clients[at];
        uv_timer_init(loop, &client->patience);
        uv_timer_init(loop, &client->rest);
        client->rest.data = client;
        uv_tcp_init(loop, &client->out);
        client->out.data = client->connect.data = client;
        uv_tcp_connect(&client->connect, &client->out, (struct sockaddr *)&address, on_connected);
    }
    return uv_run(loop, UV_RUN_DEFAULT);
}
