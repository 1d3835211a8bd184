// A shop: a timer each 10 ms takes an order, each is a query in the pool, whose after callback sends the answer to `out`; beat each 20 ms.
// base; slow: query 7 takes 80 ms in its worker; lock: order 5 waits 60 ms for a mutex; order: queries 3 and 4 come back the other way;
// more: order 6 asks a second query `audit`; cpu: order 8 burns 70 ms of the processor in price_all.
#include "../truths/truth.h"
#include <pthread.h>
static uv_timer_t shop, beat; static uv_work_t query[20], audit; static uv_async_t out; static int n, beats, answered;
static pthread_mutex_t stock = PTHREAD_MUTEX_INITIALIZER; static const char *mode = "base";
static int is(const char *m) { return strcmp(mode, m) == 0; }
static void *take_stock(void *a) { usleep(45000); pthread_mutex_lock(&stock); if (is("lock")) usleep(70000); return pthread_mutex_unlock(&stock), a; }
static double cpu(void) { return (double)processor_ns() / 1e6; }
static volatile unsigned x;
__attribute__((noinline)) static void price_all(void) { double e = cpu() + 70; while (cpu() < e) for (int i = 0; i < 10000; i++) x = x * 31 + i; }
static void run_query(uv_work_t *w) { int k = (int)(w - query); usleep(is("slow") && k == 7 ? 80000 : is("order") && k == 3 ? 25000 : 3000); }
static void run_audit(uv_work_t *w) { usleep(2000); }
static void on_audit(uv_work_t *w, int s) {}
static void on_answer(uv_work_t *w, int s) { if (++answered % 4 == 0) uv_async_send(&out); }
static void on_out(uv_async_t *a) { }
static void on_order(uv_timer_t *t) {
    int k = n++;
    pthread_mutex_lock(&stock); pthread_mutex_unlock(&stock);
    uv_queue_work(t->loop, &query[k], run_query, on_answer);
    if (is("more") && k == 6) uv_queue_work(t->loop, &audit, run_audit, on_audit);
    if (is("cpu") && k == 8) price_all();
    if (n == 12) { uv_close((void *)t, 0); }
}
static void on_beat(uv_timer_t *t) { if (++beats == 14) { uv_close((void *)t, 0); uv_close((void *)&out, 0); } }
int main(int c, char **v) {
    if (c > 1) mode = v[1];
    uv_loop_t *l = uv_default_loop(); pthread_t p; pthread_create(&p, 0, take_stock, 0);
    uv_async_init(l, &out, on_out); uv_timer_init(l, &shop); uv_timer_start(&shop, on_order, 10, 10); uv_timer_init(l, &beat);
    uv_timer_start(&beat, on_beat, 20, 20); uv_run(l, 0); pthread_join(p, 0); return 0;
}
