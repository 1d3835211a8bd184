/* What a forced run says of itself, where it departs from the session, and the time that it has. */
#define _GNU_SOURCE
#include "force.h"

#include <stdarg.h>
#include <stdio.h>
#include <sys/syscall.h>
#include <unistd.h>

static struct page no_page;
struct page *page = &no_page;
int said = -1;

void say(const char *format, ...) {
    char text[1024];
    va_list words;
    va_start(words, format);
    int length = vsnprintf(text, sizeof text - 1, format, words);
    va_end(words);
    if (length > (int)sizeof text - 2) length = sizeof text - 2;
    text[length++] = '\n';
    if (write(said >= 0 ? said : 2, text, (size_t)length) < 0) return;
}

void depart(const char *format, ...) {
    char text[512];
    va_list words;
    va_start(words, format);
    vsnprintf(text, sizeof text, format, words);
    va_end(words);
    const struct item *next = at_cursor();
    page->departures++;
    say("DEPARTS at step %d: %s", next ? next->step : item_count ? items[item_count - 1].step : 0, text);
}

/* ---- time */

uint64_t began, moved; /* in ns and in ms */
uint64_t freed_at;

uint64_t real_ns(clockid_t id) {
    struct timespec time;
    syscall(SYS_clock_gettime, id, &time);
    return (uint64_t)time.tv_sec * 1000000000 + (uint64_t)time.tv_nsec;
}

uint64_t virtual_ns(void) {
    uint64_t now = began + moved * 1000000;
    return state == FREE ? now + real_ns(CLOCK_MONOTONIC) - freed_at : now;
}

static struct timespec nap = {0, 50000};
void take_nap(void) {
    syscall(SYS_nanosleep, &nap, NULL);
}
