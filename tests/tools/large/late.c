/* Timers that come late: late N calls five idle handles and five timers of 1 ms N times in all. The callback of the first idle handle takes 2 ms
   each time, so each timer is late by it; behind the last one a timer's callback closes all. */
#include <stdlib.h>
#include <time.h>
#include <uv.h>

#define EACH 5

static uv_idle_t idles[EACH];
static uv_timer_t timers[EACH], last;
static int many, called;

static void work(int ms) {
  struct timespec now, end;
  clock_gettime(CLOCK_MONOTONIC, &end);
  end.tv_nsec += ms * 1000000L;
  end.tv_sec += end.tv_nsec / 1000000000L;
  end.tv_nsec %= 1000000000L;
  do
    clock_gettime(CLOCK_MONOTONIC, &now);
  while (now.tv_sec < end.tv_sec || (now.tv_sec == end.tv_sec && now.tv_nsec < end.tv_nsec));
}

static void on_last(uv_timer_t *timer) {
  for (int at = 0; at < EACH; at++) {
    uv_close((uv_handle_t *)&idles[at], NULL);
    uv_close((uv_handle_t *)&timers[at], NULL);
  }
  uv_close((uv_handle_t *)timer, NULL);
}

static void on_timer(uv_timer_t *timer) {
  (void)timer;
  if (++called == many) uv_timer_start(&last, on_last, 0, 0);
}

static void on_idle(uv_idle_t *idle) {
  if (idle == &idles[0]) work(2);
  if (++called == many) uv_timer_start(&last, on_last, 0, 0);
}

int main(int count, char **words) {
  many = count > 1 ? atoi(words[1]) : 100000;
  uv_loop_t *loop = uv_default_loop();
  uv_timer_init(loop, &last);
  for (int at = 0; at < EACH; at++) {
    uv_idle_init(loop, &idles[at]);
    uv_idle_start(&idles[at], on_idle);
    uv_timer_init(loop, &timers[at]);
    uv_timer_start(&timers[at], on_timer, 1, 1);
  }
  uv_run(loop, UV_RUN_DEFAULT);
  return uv_loop_close(loop);
}
