/* Two requests and a timer. By itself the timer comes last, and all is well. Where it comes between the two it is bad in each second run, whatever
 * the order, by a file that counts (the word); where it comes before both of them it is bad each time. */
#include <stdio.h>
#include <stdlib.h>
#include <uv.h>

static uv_work_t first, second;
static uv_timer_t timer;
static int done;
static const char *counter;

static void work(uv_work_t *request) { (void)request; }

static void on_done(uv_work_t *request, int status) {
    (void)request, (void)status;
    done++;
}

static int is_odd(void) {
    int runs = 0;
    FILE *file = fopen(counter, "r");
    if (file) {
        if (fscanf(file, "%d", &runs) != 1) runs = 0;
        fclose(file);
    }
    file = fopen(counter, "w");
    if (file) {
        fprintf(file, "%d", runs + 1);
        fclose(file);
    }
    return runs % 2;
}

static void on_timer(uv_timer_t *it) {
    (void)it;
    if (done == 0 || (done == 1 && !is_odd())) exit(1);
}

int main(int count, char **words) {
    uv_loop_t *loop = uv_default_loop();
    counter = count > 1 ? words[1] : "/dev/null";
    uv_timer_init(loop, &timer);
    uv_timer_start(&timer, on_timer, 20, 0);
    uv_queue_work(loop, &first, work, on_done);
    uv_queue_work(loop, &second, work, on_done);
    uv_run(loop, UV_RUN_DEFAULT);
    return 0;
}
