/* Callbacks that are long on the processor and then wait: no wait may end early, and a handler of the program's own for SIGURG may be called by its
 * own raise alone. Status 1 where that isn't so. */
#include <errno.h>
#include <poll.h>
#include <pthread.h>
#include <signal.h>
#include "truth.h"
static uv_timer_t load;
static volatile int urgent, times, early;
static volatile unsigned mixed;
static void on_urgent(int number) { urgent++; }
static void burn(unsigned ms) {
    uint64_t begin = processor_ns();
    while (processor_ns() - begin < ms * 1000000ull)
        for (int at = 0; at < 20000; at++) mixed = mixed * 31 + (unsigned)at;
}
static void wait_all(void) {
    struct timespec time = {.tv_nsec = 3000000};
    int ends[2];
    if (nanosleep(&time, NULL) != 0) early++;
    if (usleep(3000) != 0) early++;
    if (poll(NULL, 0, 3) != 0) early++;
    if (select(0, NULL, NULL, NULL, &(struct timeval){.tv_usec = 3000}) != 0) early++;
    if (pipe(ends) != 0) abort();
    if (write(ends[1], "x", 1) != 1 || read(ends[0], (char[1]){0}, 1) != 1) early++;
    close(ends[0]);
    close(ends[1]);
}
static void on_load(uv_timer_t *timer) {
    burn(15);
    wait_all();
    if (++times == 6) {
        struct sigaction own = {.sa_handler = on_urgent};
        sigaction(SIGURG, &own, NULL);
        raise(SIGURG);
    }
    if (times == 12) uv_close((uv_handle_t *)timer, NULL);
}
int main(void) {
    uv_loop_t *loop = uv_default_loop();
    uv_timer_init(loop, &load);
    uv_timer_start(&load, on_load, 1, 1);
    uv_run(loop, UV_RUN_DEFAULT);
    if (early || urgent != 1) printf("%d waits ended early, %d calls of the handler\n", early, urgent);
    return early || urgent != 1;
}
