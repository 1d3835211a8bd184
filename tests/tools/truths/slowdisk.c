/* Work that waits for a slow disk, which is a sleep here: the worker has it for 70 ms, and isn't on the processor. */
#include "truth.h"
static uv_work_t load;
static void work_load(uv_work_t *request) {
    uint64_t begin = uv_hrtime(), processor = processor_ns();
    usleep(70000);
    all_of_it("load", begin, processor);
}
static void on_loaded(uv_work_t *request, int status) {}
static void load_it(uv_loop_t *loop) { uv_queue_work(loop, &load, work_load, on_loaded); }
int main(void) {
    load_it(uv_default_loop());
    uv_run(uv_default_loop(), UV_RUN_DEFAULT);
    return 0;
}
