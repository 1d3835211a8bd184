/* Three requests have a share each. The slowest one gives back that of the second one, too, where that isn't through yet, which does so itself: so
 * with the slowest one first and the quickest one last, that has nothing left. */
#include <stdlib.h>
#include <uv.h>
static uv_work_t quick, second, slowest;
static char *shared;
static int shares = 3, is_through;
static void sleep_10(uv_work_t *r) { uv_sleep(10); }
static void sleep_80(uv_work_t *r) { uv_sleep(80); }
static void sleep_250(uv_work_t *r) { uv_sleep(250); }
static void give_back(void) {
    if (--shares == 0) free(shared);
}
static void on_quick(uv_work_t *r, int status) { shared[0]++; give_back(); }
static void on_second(uv_work_t *r, int status) { shared[1]++; is_through = 1; give_back(); }
static void on_slowest(uv_work_t *r, int status) {
    shared[2]++;
    if (!is_through) give_back();
    give_back();
}
int main(void) {
    uv_loop_t *l = uv_default_loop();
    shared = calloc(1, 8);
    uv_queue_work(l, &quick, sleep_10, on_quick);
    uv_queue_work(l, &second, sleep_80, on_second);
    uv_queue_work(l, &slowest, sleep_250, on_slowest);
    uv_run(l, UV_RUN_DEFAULT);
    return 0;
}
