/* What the programs here have in common: a callback works for some time, and says how long it really was. */
#include <stdio.h>
#include <stdlib.h>
#include <string.h>
#include <time.h>
#include <unistd.h>
#include <uv.h>

static inline unsigned long long clock_ms(void) {
    return uv_hrtime() / 1000000;
}

/* Works for so many ms of the clock, and says what it took. */
static inline void works(const char *who, unsigned ms) {
    uint64_t begin = uv_hrtime();
    while (uv_hrtime() - begin < ms * 1000000ull) continue;
    printf("%s took %llu ms\n", who, (unsigned long long)((uv_hrtime() - begin + 500000) / 1000000));
}

static inline void says(const char *who, const char *what) {
    printf("%s %s\n", who, what);
}

/* How long this thread was on the processor, in ns. */
static inline uint64_t processor_ns(void) {
    struct timespec time;
    clock_gettime(CLOCK_THREAD_CPUTIME_ID, &time);
    return (uint64_t)time.tv_sec * 1000000000 + (uint64_t)time.tv_nsec;
}

/* What took from `begin` on, by the clock and by the processor. */
static inline void all_of_it(const char *who, uint64_t begin, uint64_t processor) {
    unsigned long long took = (uv_hrtime() - begin + 500000) / 1000000, ran = (processor_ns() - processor + 500000) / 1000000;
    printf("%s took %llu ms\n%s was on the processor for %llu ms\n", who, took, who, ran);
}

/* A request that was asked for then is done. */
static inline void waited(const char *who, const char *what, uint64_t since) {
    printf("%s: %s waited %llu ms\n", who, what, (unsigned long long)((uv_hrtime() - since + 500000) / 1000000));
}
