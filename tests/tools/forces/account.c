/* Money is paid out when it has been paid in, as one thinks: only an assertion sees that it may not have been. */
#undef NDEBUG
#include <assert.h>
#include <uv.h>
static uv_work_t in, out;
static int balance;
static void quick(uv_work_t *r) { uv_sleep(5); }
static void slow(uv_work_t *r) { uv_sleep(200); }
static void paid_in(uv_work_t *r, int status) { balance += 100; }
static void paid_out(uv_work_t *r, int status) {
    balance -= 80;
    assert(balance >= 0);
}
int main(void) {
    uv_loop_t *l = uv_default_loop();
    uv_queue_work(l, &in, quick, paid_in);
    uv_queue_work(l, &out, slow, paid_out);
    return uv_run(l, UV_RUN_DEFAULT);
}
