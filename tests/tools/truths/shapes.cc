// Classes of templates, and lambdas that a std::function keeps: the cost is in one of them.
#include <functional>
#include <map>
#include <string>
#include <vector>
#include "truth.h"
namespace shop {
template <typename Key> class Cache {
    std::map<Key, long> rows;

  public:
    __attribute__((noinline)) long refill(int ms) {
        uint64_t begin = processor_ns();
        long sum = 0;
        while (processor_ns() - begin < ms * 1000000ull) sum += rows.size();
        return sum;
    }
};
} // namespace shop
static shop::Cache<std::string> names;
static shop::Cache<int> prices;
static std::vector<std::function<long(int)>> tasks;
static uv_timer_t refresh, beat;
static int beats;
int main() {
    uv_loop_t *loop = uv_default_loop();
    tasks.push_back([](int ms) { return names.refill(ms / 10); });
    tasks.push_back([](int ms) { return prices.refill(ms); });
    uv_timer_init(loop, &refresh);
    uv_timer_init(loop, &beat);
    uv_timer_start(&refresh, [](uv_timer_t *timer) {
        uint64_t begin = uv_hrtime(), processor = processor_ns();
        for (auto &task : tasks) task(50);
        all_of_it("refresh", begin, processor);
        uv_close((uv_handle_t *)timer, nullptr);
    }, 20, 0);
    uv_timer_start(&beat, [](uv_timer_t *timer) {
        if (++beats == 4) uv_close((uv_handle_t *)timer, nullptr);
    }, 30, 30);
    return uv_run(loop, UV_RUN_DEFAULT);
}
