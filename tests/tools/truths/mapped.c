/* A callback that reads a file of 64 MiB through a mapping, which isn't in memory any more. */
#include <fcntl.h>
#include <sys/mman.h>
#include "truth.h"
enum { SIZE = 64 << 20 };
static uv_timer_t scan, beat;
static int beats, file;
static long sum_pages(const char *bytes) {
    long sum = 0;
    for (long at = 0; at < SIZE; at += 4096) sum += bytes[at];
    return sum;
}
static void on_scan(uv_timer_t *timer) {
    uint64_t begin = uv_hrtime(), processor = processor_ns();
    char *bytes = mmap(NULL, SIZE, PROT_READ, MAP_SHARED, file, 0);
    madvise(bytes, SIZE, MADV_RANDOM);
    long sum = sum_pages(bytes);
    all_of_it("scan", begin, processor);
    if (sum != 0) abort();
    uv_close((uv_handle_t *)timer, NULL);
}
static void on_beat(uv_timer_t *timer) {
    if (++beats == 4) uv_close((uv_handle_t *)timer, NULL);
}
int main(void) {
    uv_loop_t *loop = uv_default_loop();
    char *zeros = calloc(1, SIZE);
    file = open("mapped.data", O_RDWR | O_CREAT | O_TRUNC, 0600);
    if (write(file, zeros, SIZE) != SIZE) abort();
    fsync(file);
    posix_fadvise(file, 0, 0, POSIX_FADV_DONTNEED);
    unlink("mapped.data");
    free(zeros);
    uv_timer_init(loop, &scan);
    uv_timer_init(loop, &beat);
    uv_timer_start(&scan, on_scan, 20, 0);
    uv_timer_start(&beat, on_beat, 30, 30);
    return uv_run(loop, UV_RUN_DEFAULT);
}
