/* In each run but its first one, which leaves a FILE, the log's first window is never there: unwritten FILE. Or the program ends there: unwritten
 * FILE ends. */
#include <fcntl.h>
#include <signal.h>
#include <unistd.h>
#include <uv.h>
static int is_first, ends;
static uv_timer_t timer;
int posix_fallocate(int file, off_t begin, off_t size) {
    if (ends) raise(SIGKILL);
    while (!is_first) usleep(1000);
    return ftruncate(file, begin + size);
}
static void on_timer(uv_timer_t *t) {}
int main(int count, char **words) {
    is_first = open(words[1], O_CREAT | O_EXCL, 0600) >= 0;
    ends = count > 2;
    uv_timer_init(uv_default_loop(), &timer);
    uv_timer_start(&timer, on_timer, 1, 0);
    return uv_run(uv_default_loop(), UV_RUN_DEFAULT);
}
