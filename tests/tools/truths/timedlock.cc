// Callbacks that wait with a time limit, by C++'s own classes.
#include <condition_variable>
#include <chrono>
#include <mutex>
#include <thread>
#include "truth.h"
static std::mutex table;
static std::timed_mutex index_;
static std::condition_variable changed;
static uv_timer_t ask, look, beat;
static int beats;
static void await_answer() {
    std::unique_lock<std::mutex> has(table);
    changed.wait_for(has, std::chrono::milliseconds(60));
}
static void try_index() {
    if (index_.try_lock_for(std::chrono::milliseconds(50))) index_.unlock();
}
int main() {
    uv_loop_t *loop = uv_default_loop();
    uv_sem_t has_it;
    uv_sem_init(&has_it, 0);
    std::thread other([&has_it] {
        index_.lock();
        uv_sem_post(&has_it);
        usleep(250000);
        index_.unlock();
    });
    uv_sem_wait(&has_it);
    uv_timer_init(loop, &ask);
    uv_timer_init(loop, &look);
    uv_timer_init(loop, &beat);
    uv_timer_start(&ask, [](uv_timer_t *timer) {
        uint64_t begin = uv_hrtime(), processor = processor_ns();
        await_answer();
        all_of_it("ask", begin, processor);
        uv_close((uv_handle_t *)timer, nullptr);
    }, 20, 0);
    uv_timer_start(&look, [](uv_timer_t *timer) {
        uint64_t begin = uv_hrtime(), processor = processor_ns();
        try_index();
        all_of_it("look", begin, processor);
        uv_close((uv_handle_t *)timer, nullptr);
    }, 120, 0);
    uv_timer_start(&beat, [](uv_timer_t *timer) {
        if (++beats == 6) uv_close((uv_handle_t *)timer, nullptr);
    }, 30, 30);
    uv_run(loop, UV_RUN_DEFAULT);
    other.join();
    return 0;
}
