/* Work tells how far it is: the worker sends. */
#include "truth.h"
static uv_async_t half;
static uv_work_t pack;
static void tell_half(void) { uv_async_send(&half); }
static void work_pack(uv_work_t *request) {
    uint64_t begin = uv_hrtime(), processor = processor_ns();
    usleep(15000);
    tell_half();
    usleep(15000);
    all_of_it("pack", begin, processor);
}
static void on_half(uv_async_t *handle) { says("half", "called"); }
static void on_packed(uv_work_t *request, int status) { uv_close((uv_handle_t *)&half, NULL); }
int main(void) {
    uv_loop_t *loop = uv_default_loop();
    uv_async_init(loop, &half, on_half);
    uv_queue_work(loop, &pack, work_pack, on_packed);
    uv_run(loop, UV_RUN_DEFAULT);
    return 0;
}
