/* C++: a lambda that rebuilds an index, and one that waits for a lock. */
#include "truth.h"
#include <chrono>
#include <map>
#include <mutex>
#include <string>
#include <thread>
static uv_timer_t job, look, beat;
static std::mutex cache_lock;
namespace shop {
class Index {
    std::map<std::string, int> words;

  public:
    void rebuild() {
        words.clear();
        for (int at = 0; at < 60000; at++) words["word " + std::to_string(at * 7919 % 60000)] = at;
    }
};
}
static shop::Index the_index;
struct Cache {
    void refresh() { std::lock_guard<std::mutex> held(cache_lock); }
} cache;
int main() {
    uv_loop_t *loop = uv_default_loop();
    uv_timer_init(loop, &job);
    uv_timer_init(loop, &look);
    uv_timer_init(loop, &beat);
    uv_timer_start(&job, [](uv_timer_t *) {
        uint64_t begin = uv_hrtime(), processor = processor_ns();
        the_index.rebuild();
        all_of_it("job", begin, processor);
    }, 20, 0);
    uv_timer_start(&beat, [](uv_timer_t *timer) { uv_close(reinterpret_cast<uv_handle_t *>(timer), nullptr); }, 40, 0);
    uv_run(loop, UV_RUN_DEFAULT);
    std::thread other([] {
        std::lock_guard<std::mutex> held(cache_lock);
        std::this_thread::sleep_for(std::chrono::milliseconds(120));
    });
    uv_timer_start(&look, [](uv_timer_t *) {
        uint64_t begin = uv_hrtime(), processor = processor_ns();
        cache.refresh();
        all_of_it("look", begin, processor);
    }, 20, 0);
    uv_run(loop, UV_RUN_DEFAULT);
    other.join();
}
