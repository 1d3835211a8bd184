// A callback that waits for a future, which another thread keeps.
#include <future>
#include "truth.h"
static std::promise<int> price;
static uv_timer_t quote, beat;
static int beats;
static int await_price() {
    return price.get_future().get();
}
int main() {
    uv_loop_t *loop = uv_default_loop();
    std::thread other([] {
        usleep(90000);
        price.set_value(7);
    });
    uv_timer_init(loop, &quote);
    uv_timer_init(loop, &beat);
    uv_timer_start(&quote, [](uv_timer_t *timer) {
        uint64_t begin = uv_hrtime(), processor = processor_ns();
        await_price();
        all_of_it("quote", begin, processor);
        uv_close((uv_handle_t *)timer, nullptr);
    }, 20, 0);
    uv_timer_start(&beat, [](uv_timer_t *timer) {
        if (++beats == 4) uv_close((uv_handle_t *)timer, nullptr);
    }, 30, 30);
    uv_run(loop, UV_RUN_DEFAULT);
    other.join();
    return 0;
}
