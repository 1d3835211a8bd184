/* Many timers, each in memory of its own: wheel N starts N of them, from 1 to 100 ms, and each is closed as it expires. One callback in the
   middle takes 40 ms, so those behind it are late. */
#include <stdio.h>
#include <stdlib.h>
#include <time.h>
#include <uv.h>

static int expired, many;

static void work(int ms) {
  struct timespec now, end;
  clock_gettime(CLOCK_MONOTONIC, &end);
  end.tv_nsec += ms * 1000000L;
  end.tv_sec += end.tv_nsec / 1000000000L;
  end.tv_nsec %= 1000000000L;
  do
    clock_gettime(CLOCK_MONOTONIC, &now);
  while (now.tv_sec < end.tv_sec || (now.tv_sec == end.tv_sec && now.tv_nsec < end.tv_nsec));
}

static void on_closed(uv_handle_t *handle) {
  free(handle);
}

static void on_expire(uv_timer_t *timer) {
  if (++expired == many / 2) work(40);
  uv_close((uv_handle_t *)timer, on_closed);
}

int main(int count, char **words) {
  many = count > 1 ? atoi(words[1]) : 5000;
  uv_loop_t *loop = uv_default_loop();
  for (int at = 0; at < many; at++) {
    uv_timer_t *timer = malloc(sizeof *timer);
    uv_timer_init(loop, timer);
    uv_timer_start(timer, on_expire, 1 + at % 100, 0);
  }
  uv_run(loop, UV_RUN_DEFAULT);
  return uv_loop_close(loop);
}
