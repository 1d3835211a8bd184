/* A server and its client in one loop, over TCP: echo N sends N bytes, one after another has come back. Each is four callbacks: two of reads
   and two of writes. One read of the server takes 30 ms. */
#include <stdio.h>
#include <stdlib.h>
#include <string.h>
#include <time.h>
#include <uv.h>

static uv_tcp_t server, peer, client;
static uv_connect_t connecting;
static int many, done;
static char space[65536];

static void work(int ms) {
  struct timespec now, end;
  clock_gettime(CLOCK_MONOTONIC, &end);
  end.tv_nsec += ms * 1000000L;
  end.tv_sec += end.tv_nsec / 1000000000L;
  end.tv_nsec %= 1000000000L;
  do
    clock_gettime(CLOCK_MONOTONIC, &now);
  while (now.tv_sec < end.tv_sec || (now.tv_sec == end.tv_sec && now.tv_nsec < end.tv_nsec));
}

static void on_room(uv_handle_t *handle, size_t size, uv_buf_t *room) {
  (void)handle;
  (void)size;
  *room = uv_buf_init(space, sizeof space);
}

static void on_written(uv_write_t *request, int status) {
  (void)status;
  free(request);
}

static void say(uv_stream_t *stream) {
  uv_write_t *request = malloc(sizeof *request);
  uv_buf_t byte = uv_buf_init("x", 1);
  uv_write(request, stream, &byte, 1, on_written);
}

static void on_asked(uv_stream_t *stream, ssize_t size, const uv_buf_t *room) {
  (void)room;
  if (size < 0) {
    uv_close((uv_handle_t *)stream, NULL);
    return;
  }
  if (done == many * 2 / 3) work(30);
  say(stream);
}

static void on_answered(uv_stream_t *stream, ssize_t size, const uv_buf_t *room) {
  (void)room;
  if (size < 0) return;
  if (++done < many) {
    say(stream);
    return;
  }
  uv_close((uv_handle_t *)stream, NULL);
  uv_close((uv_handle_t *)&server, NULL);
}

static void on_connection(uv_stream_t *stream, int status) {
  (void)status;
  uv_tcp_init(stream->loop, &peer);
  uv_accept(stream, (uv_stream_t *)&peer);
  uv_read_start((uv_stream_t *)&peer, on_room, on_asked);
}

static void on_connected(uv_connect_t *request, int status) {
  if (status < 0) exit(1);
  uv_read_start(request->handle, on_room, on_answered);
  say(request->handle);
}

int main(int count, char **words) {
  many = count > 1 ? atoi(words[1]) : 100000;
  uv_loop_t *loop = uv_default_loop();
  struct sockaddr_storage place;
  int length = sizeof place;
  struct sockaddr_in any;
  uv_ip4_addr("127.0.0.1", 0, &any);
  uv_tcp_init(loop, &server);
  uv_tcp_bind(&server, (const struct sockaddr *)&any, 0);
  uv_listen((uv_stream_t *)&server, 1, on_connection);
  uv_tcp_getsockname(&server, (struct sockaddr *)&place, &length);
  uv_tcp_init(loop, &client);
  uv_tcp_connect(&connecting, &client, (const struct sockaddr *)&place, on_connected);
  uv_run(loop, UV_RUN_DEFAULT);
  return uv_loop_close(loop);
}
