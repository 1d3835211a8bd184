/* A wrong result and no other sign: the discount is thought to be known when the price comes, and with the price first the total is another one. */
#include <stdio.h>
#include <unistd.h>
#include <uv.h>
static uv_work_t discount, price;
static int percent = 0, total, left = 2;
static void quick(uv_work_t *r) { usleep(1000); }
static void slow(uv_work_t *r) { usleep(150000); }
static void end(void) {
    if (--left == 0) printf("total %d\n", total);
}
static void on_discount(uv_work_t *r, int s) { percent = 20; end(); }
static void on_price(uv_work_t *r, int s) { total = 100 - percent; end(); }
int main(void) {
    uv_loop_t *l = uv_default_loop();
    uv_queue_work(l, &discount, quick, on_discount);
    uv_queue_work(l, &price, slow, on_price);
    uv_run(l, UV_RUN_DEFAULT);
    return 0;
}
