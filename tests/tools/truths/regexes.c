/* A callback that matches many lines by a regular expression. */
#include <regex.h>
#include "truth.h"
static uv_timer_t rule, beat;
static regex_t pattern;
static int beats;
static int match_rules(void) {
    char line[150];
    int found = 0;
    memset(line, 'a', sizeof line - 1);
    line[sizeof line - 1] = 0;
    for (int it = 0; it < 1; it++) line[it % 149] = 'b', found += regexec(&pattern, line, 0, NULL, 0) == 0;
    return found;
}
static void on_rule(uv_timer_t *timer) {
    uint64_t begin = uv_hrtime(), processor = processor_ns();
    match_rules();
    all_of_it("rule", begin, processor);
    uv_close((uv_handle_t *)timer, NULL);
}
static void on_beat(uv_timer_t *timer) {
    if (++beats == 4) uv_close((uv_handle_t *)timer, NULL);
}
int main(void) {
    uv_loop_t *loop = uv_default_loop();
    regcomp(&pattern, "(a|aa)+(ab|b)*\\1c$", REG_EXTENDED);
    uv_timer_init(loop, &rule);
    uv_timer_init(loop, &beat);
    uv_timer_start(&rule, on_rule, 20, 0);
    uv_timer_start(&beat, on_beat, 30, 30);
    return uv_run(loop, UV_RUN_DEFAULT);
}
