/* A callback that waits for a child of its own by waitpid(-1), and so takes the end of the loop's process, too. */
#include <sys/wait.h>
#include "truth.h"
static uv_process_t hook;
static uv_timer_t deploy, give_up;
static void on_hook_exit(uv_process_t *process, int64_t status, int number) { says("hook", "ended"); }
static void on_deploy(uv_timer_t *timer) {
    uint64_t begin = uv_hrtime(), processor = processor_ns();
    pid_t child = fork(), got;
    if (child == 0) {
        usleep(80000);
        _exit(0);
    }
    do got = waitpid(-1, NULL, 0);
    while (got > 0 && got != child);
    all_of_it("deploy", begin, processor);
}
static void on_give_up(uv_timer_t *timer) {
    says("hook", "never ended");
    uv_close((uv_handle_t *)&hook, NULL);
}
int main(void) {
    uv_loop_t *loop = uv_default_loop();
    char *words[] = {"sleep", "0.05", NULL};
    uv_process_options_t options = {.file = "sleep", .args = words, .exit_cb = on_hook_exit};
    if (uv_spawn(loop, &hook, &options) != 0) return 1;
    uv_timer_init(loop, &deploy);
    uv_timer_start(&deploy, on_deploy, 20, 0);
    uv_timer_init(loop, &give_up);
    uv_timer_start(&give_up, on_give_up, 300, 0);
    uv_run(loop, UV_RUN_DEFAULT);
    return 0;
}
