/* A long run: stall N calls an idle handle and a check handle N times in all. Behind two thirds of them the callback of the timer `rare` takes
   120 ms, and `beat`, which is due each 10 ms, is late by it. */
#include <stdio.h>
#include <stdlib.h>
#include <time.h>
#include <uv.h>

static uv_idle_t again;
static uv_timer_t rare, beat;
static uv_check_t look;
static int many, called;

static void work(int ms) {
  struct timespec now, end;
  clock_gettime(CLOCK_MONOTONIC, &end);
  end.tv_nsec += ms * 1000000L;
  end.tv_sec += end.tv_nsec / 1000000000L;
  end.tv_nsec %= 1000000000L;
  do
    clock_gettime(CLOCK_MONOTONIC, &now);
  while (now.tv_sec < end.tv_sec || (now.tv_sec == end.tv_sec && now.tv_nsec < end.tv_nsec));
}

static void on_rare(uv_timer_t *timer) {
  uint64_t begin = uv_hrtime();
  work(120);
  printf("rare took %d ms\n", (int)((uv_hrtime() - begin) / 1000000));
  uv_close((uv_handle_t *)timer, NULL);
}

static void on_beat(uv_timer_t *timer) {
  (void)timer;
}

static void on_look(uv_check_t *check) {
  (void)check;
  called++;
}

static void on_again(uv_idle_t *idle) {
  called++;
  if (called / 2 == many / 3) uv_timer_start(&rare, on_rare, 0, 0);
  if (called < many) return;
  uv_close((uv_handle_t *)idle, NULL);
  uv_close((uv_handle_t *)&look, NULL);
  uv_close((uv_handle_t *)&beat, NULL);
}

int main(int count, char **words) {
  many = count > 1 ? atoi(words[1]) : 1000000;
  uv_loop_t *loop = uv_default_loop();
  uv_idle_init(loop, &again);
  uv_timer_init(loop, &rare);
  uv_timer_init(loop, &beat);
  uv_check_init(loop, &look);
  uv_check_start(&look, on_look);
  uv_idle_start(&again, on_again);
  uv_timer_start(&beat, on_beat, 10, 10);
  uv_run(loop, UV_RUN_DEFAULT);
  return uv_loop_close(loop);
}
