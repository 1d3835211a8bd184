/* The schedule is read, and from a process's first loop on it is forced, up to the process's end. */
#define _GNU_SOURCE
#include "force.h"

#include <fcntl.h>
#include <stdio.h>
#include <stdlib.h>
#include <string.h>
#include <sys/mman.h>
#include <unistd.h>

/* ---- timers of JavaScript */

static int64_t *delays;
static int64_t delay_count;

int64_t force_delay(int64_t id, int64_t delay) {
    return state == FORCING && id > 0 && id < delay_count && delays[id] > 0 ? delays[id] : delay;
}

static void keep_delay(int64_t id, int64_t delay) {
    enum { MOST = 1 << 20 };
    if (id <= 0 || id >= MOST) return;
    if (id >= delay_count) {
        int64_t *more = realloc(delays, (size_t)(2 * id) * sizeof *delays);
        if (!more) return;
        memset(more + delay_count, 0, (size_t)(2 * id - delay_count) * sizeof *delays);
        delays = more;
        delay_count = 2 * id;
    }
    delays[id] = delay;
}

/* ---- the beginning and the end */

bool forces(void) {
    return state == FORCING;
}

static char *cut(char **rest) {
    char *begin = *rest, *end = strchr(begin, '\t');
    if (end) *end = 0, *rest = end + 1;
    else *rest = begin + strlen(begin);
    return begin;
}

static void read_schedule(FILE *file) {
    char *line = NULL;
    size_t size = 0;
    ssize_t length;
    int item_room = 0, name_room = 0;
    bool of_platform = false;
    static const char *const TYPES[] = {
        "tick", "take", "finish", "send", "cancel", "section", "silent", "on", "after", "closed", "op", "run", "end", "poll",
    };
    while ((length = getline(&line, &size, file)) > 0) {
        if (line[length - 1] == '\n') line[length - 1] = 0;
        char *rest = line, *kind = cut(&rest);
        if (strcmp(kind, "name") == 0) {
            if (name_count == name_room) names = realloc(names, (size_t)(name_room = name_room * 2 + 64) * sizeof *names);
            names[name_count++] = (struct name){strdup(rest), -1, NULL, NULL};
            continue;
        }
        if (strcmp(kind, "delay") == 0) {
            int64_t id = atol(cut(&rest));
            keep_delay(id, atol(rest));
            continue;
        }
        if (item_count == item_room) items = realloc(items, (size_t)(item_room = item_room * 2 + 256) * sizeof *items);
        struct item item = {.name = -1};
        item.is_io = strcmp(kind, "io") == 0;
        if (item.is_io) kind = "on";
        for (size_t at = 0; at < sizeof TYPES / sizeof *TYPES; at++)
            if (strcmp(TYPES[at], kind) == 0) item.type = (enum type)at;
        item.step = atoi(cut(&rest));
        item.name = atoi(cut(&rest));
        item.number = atol(cut(&rest));
        item.word = strdup(cut(&rest));
        item.rest = strdup(cut(&rest));
        item.answer = strdup(cut(&rest));
        item.text = strdup(rest);
        if (item.type >= CALL_ON && item.type <= CALL_CLOSED) of_platform = is_nodes(item.name, PLATFORM);
        item.of_platform = of_platform && item.type == OP;
        if (item.type == OP || item.type == SEND || (item.type >= CALL_ON && item.type <= CALL_CLOSED)) last_shown = item_count;
        items[item_count++] = item;
    }
    free(line);
}

static void at_end(void) {
    if (state == FORCING && !at_random && cursor < item_count) {
        const struct item *it = at_cursor();
        say("ENDS at step %d: the program ends, where the session has `%s`", it ? it->step : 0, it ? it->text : "its end");
    }
    set_free(NULL);
}

static void in_child(void) {
    state = NOT_FORCING;
}

/* The page that tells how far it has come. */
static void open_page(const char *file) {
    int descriptor = file ? open(file, O_RDWR | O_CREAT | O_CLOEXEC, 0644) : -1;
    if (descriptor < 0) return;
    void *got = ftruncate(descriptor, sizeof *page) == 0 ? mmap(NULL, sizeof *page, PROT_READ | PROT_WRITE, MAP_SHARED, descriptor, 0) : MAP_FAILED;
    if (got != MAP_FAILED) page = got;
    close(descriptor);
}

static void begin_forcing(struct loop *loop) {
    const char *file = getenv("UVT_FORCE_SAID");
    if (file) said = open(file, O_WRONLY | O_CREAT | O_APPEND | O_CLOEXEC, 0644);
    open_page(getenv("UVT_FORCE_AT"));
    page->early = early;
    began = loop->base * 1000000;
    begin_clock();
    forced = loop;
    leader_id = own_id();
    atexit(at_end);
    pthread_atfork(NULL, NULL, in_child);
    state = FORCING;
    begin_watch();
}

/* A process has its first loop: from here on it is forced. (A debugger that starts the program has none, and its children are not forced.) */
void force_loop(struct loop *loop) {
    const char *schedule = getenv("UVT_FORCE"), *random = getenv("UVT_FORCE_RANDOM"), *which = getenv("UVT_FORCE_LOOP");
    if (state != NOT_FORCING || forced || loop->number != (which ? atoi(which) : 0)) return;
    if (random) {
        const char *jumps = getenv("UVT_FORCE_STALL"), *until = getenv("UVT_FORCE_UNTIL");
        begin_random(strtoull(random, NULL, 10), jumps ? atoi(jumps) : 0, until ? strtoull(until, NULL, 10) : 0);
        begin_forcing(loop);
        unsetenv("UVT_FORCE_RANDOM");
        return;
    }
    FILE *read = schedule ? fopen(schedule, "re") : NULL;
    if (!read) return;
    read_schedule(read);
    fclose(read);
    unsetenv("UVT_FORCE");
    stops = getenv("UVT_FORCE_STOP") != NULL;
    early = getenv("UVT_FORCE_EARLY") != NULL;
    if (item_count) begin_forcing(loop);
}
