/* What JavaScript, Python or Lua has asked for, and is to come: in a ring it is told again where all that a loop has is written down, since the line
 * that said it may be gone by then. `was ID KIND FUNCTION PLACE MS AGO`: as in the line `new`, and how many ms before; of one that repeats and was
 * called since, how many ms ago that was, too. */
#include "recorder.h"

#include <stdio.h>
#include <stdlib.h>
#include <string.h>

enum { BUCKETS = 4096 };

struct alive {
    struct alive *next;
    uint64_t id, clock, called; /* when it was asked for; and, of one that repeats, when it was called last, 0: it wasn't */
    int loop;
    bool repeats;
    char text[];
};

static struct alive *all[BUCKETS];
static size_t count;

static struct alive **place(uint64_t id) {
    struct alive **at = &all[id % BUCKETS];
    while (*at && (*at)->id != id) at = &(*at)->next;
    return at;
}

static void take_out(struct alive **at) {
    struct alive *it = *at;
    if (!it) return;
    *at = it->next;
    free(it);
    count--;
}

void alive_new(const struct loop *loop, uint64_t id, const char *text) {
    size_t length = strlen(text) + 1;
    struct alive *it = keeps() ? malloc(sizeof *it + length) : NULL;
    if (!it) return;
    take_out(place(id));
    *it = (struct alive){.next = all[id % BUCKETS], .id = id, .clock = clock_ms(), .loop = loop->number};
    memcpy(it->text, text, length);
    all[id % BUCKETS] = it;
    count++;
}

void alive_was(const struct loop *loop, uint64_t id, const char *text, uint64_t clock, bool repeats) {
    alive_new(loop, id, text);
    struct alive *it = *place(id);
    if (it) it->clock = clock, it->repeats = repeats;
}

void alive_run(uint64_t id, bool repeats) {
    struct alive *it = count ? *place(id) : NULL;
    if (it) it->repeats = repeats, it->called = repeats ? clock_ms() : 0;
}

void alive_end(uint64_t id, bool gone) {
    struct alive **at = count ? place(id) : NULL;
    if (at && *at && (gone || !(*at)->repeats)) take_out(at);
}

/* A line of an interpreter, as it has it in words. */
void alive_note(const struct loop *loop, const char *words) {
    unsigned long long id, start, delay, flags = 0;
    int length = 0;
    if (!keeps()) return;
    if (sscanf(words, "new %llu %n", &id, &length) == 1 && length) alive_new(loop, id, words + length);
    else if (sscanf(words, "run %llu %llu %llu %llu", &id, &start, &delay, &flags) >= 1) alive_run(id, flags & 1);
    else if (sscanf(words, "ran %llu", &id) == 1) alive_end(id, false);
    else if (sscanf(words, "gone %llu", &id) == 1) alive_end(id, true);
}

void alive_closed(const struct loop *loop) {
    for (size_t at = 0; count && at < BUCKETS; at++)
        for (struct alive **it = &all[at]; *it;)
            if ((*it)->loop == loop->number) take_out(it);
            else it = &(*it)->next;
}

static void tell_one(struct loop *loop, const struct alive *it, uint64_t now) {
    if (it->called) write_line(loop, 'J', "was %u %s %u %u", it->id, it->text, now - it->clock, now - it->called);
    else write_line(loop, 'J', "was %u %s %u", it->id, it->text, now - it->clock);
}

void tell_alive(struct loop *loop) {
    uint64_t now = clock_ms();
    if (loop->has_javascript) tell_node_thread(loop);
    for (size_t at = 0; count && at < BUCKETS; at++)
        for (struct alive *it = all[at]; it; it = it->next)
            if (it->loop == loop->number) tell_one(loop, it, now);
}

void tell_node_thread(struct loop *loop) {
    int64_t behind = loop->node_behind;
    write_line(loop, 'J', "thread %u %s%u", loop->javascript, behind < 0 ? "-" : "", (uint64_t)(behind < 0 ? -behind : behind));
}
