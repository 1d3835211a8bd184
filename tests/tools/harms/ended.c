/* A program that a signal ends in a timer's callback: ended SIGNAL. Of 0 it says its process, and goes on for ever. */
#include <signal.h>
#include <stdio.h>
#include <stdlib.h>
#include <unistd.h>
#include <uv.h>

static uv_timer_t beat;
static int number, beats;

static void on_beat(uv_timer_t *timer) {
    (void)timer;
    if (++beats == 3 && number) raise(number);
    if (beats == 3) printf("%d\n", (int)getpid()), fflush(stdout);
}

int main(int count, char **words) {
    if (count > 1) number = atoi(words[1]);
    uv_timer_init(uv_default_loop(), &beat);
    uv_timer_start(&beat, on_beat, 1, 1);
    return uv_run(uv_default_loop(), UV_RUN_DEFAULT);
}
