/* A callback that sorts. It begins right behind the function that compares (-fno-toplevel-reorder): with the byte behind that one's last. */
#include "truth.h"
static uv_timer_t job, beat;
static int by_number(const void *one, const void *other);
static void on_beat(uv_timer_t *timer) { uv_close((uv_handle_t *)timer, NULL); }
static void sort_prices(void) {
    int count = 400000, *prices = malloc(count * sizeof *prices);
    for (int at = 0; at < count; at++) prices[at] = rand();
    qsort(prices, count, sizeof *prices, by_number);
    free(prices);
}
static int by_number(const void *one, const void *other) { return *(const int *)one - *(const int *)other; }
static void on_job(uv_timer_t *timer) {
    uint64_t begin = uv_hrtime(), processor = processor_ns();
    sort_prices();
    all_of_it("job", begin, processor);
}
int main(void) {
    uv_timer_init(uv_default_loop(), &job);
    uv_timer_init(uv_default_loop(), &beat);
    uv_timer_start(&job, on_job, 20, 0);
    uv_timer_start(&beat, on_beat, 40, 0);
    return uv_run(uv_default_loop(), UV_RUN_DEFAULT);
}
