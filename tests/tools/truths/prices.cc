/* C++: a callback that waits for what another thread answers. */
#include "truth.h"
#include <chrono>
#include <future>
#include <thread>
static uv_timer_t ask, beat;
static int price() {
    std::this_thread::sleep_for(std::chrono::milliseconds(110));
    return 3;
}
static void ask_price(uv_timer_t *) {
    uint64_t begin = uv_hrtime(), processor = processor_ns();
    std::async(std::launch::async, price).get();
    all_of_it("ask", begin, processor);
}
static void on_beat(uv_timer_t *timer) { uv_close((uv_handle_t *)timer, NULL); }
int main() {
    uv_timer_init(uv_default_loop(), &ask);
    uv_timer_init(uv_default_loop(), &beat);
    uv_timer_start(&ask, ask_price, 20, 0);
    uv_timer_start(&beat, on_beat, 40, 0);
    return uv_run(uv_default_loop(), UV_RUN_DEFAULT);
}
