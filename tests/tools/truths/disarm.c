/* Who stopped the timer, unreferenced the other one, and closed the third: functions that callbacks call. */
#include "truth.h"
static uv_timer_t alarm_clock, background, session, event;
static void on_alarm(uv_timer_t *timer) { says("alarm_clock", "called"); }
static void disarm(void) {
    uv_timer_stop(&alarm_clock);
}
static void to_background(void) {
    uv_unref((uv_handle_t *)&background);
}
static void end_session(void) {
    uv_close((uv_handle_t *)&session, NULL);
}
static void on_event(uv_timer_t *timer) {
    disarm();
    to_background();
    end_session();
}
int main(void) {
    uv_loop_t *loop = uv_default_loop();
    uv_timer_t *all[] = {&alarm_clock, &background, &session, &event};
    for (int at = 0; at < 4; at++) {
        uv_timer_init(loop, all[at]);
        uv_timer_start(all[at], at < 3 ? on_alarm : on_event, at < 3 ? 60 : 20, 0);
    }
    uv_run(loop, UV_RUN_DEFAULT);
    return 0;
}
