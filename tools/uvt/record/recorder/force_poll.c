/* The poll of a forced loop: what is ready is handed out as the session has it. */
#define _GNU_SOURCE
#include "force.h"

#include <signal.h>
#include <string.h>
#include <sys/syscall.h>
#include <unistd.h>

enum { WANTED = 1024, LOOKS = 200 };

/* The files of which something is to come, in this order, and how many callbacks come of each. */
struct wanted {
    int files[WANTED], often[WANTED], count, wake;
    bool woken;
};

static int file_of(const struct name *name) {
    uv_loop_t *uv = forced->uv;
    if (!name->kind || !name->address) return -1;
    if (strcmp(name->kind, "poll") == 0) return ((uv_poll_t *)name->address)->io_watcher.fd;
    if (strcmp(name->kind, "udp") == 0) return ((uv_udp_t *)name->address)->io_watcher.fd;
    if (strcmp(name->kind, "signal") == 0 || strcmp(name->kind, "process") == 0) return uv->signal_io_watcher.fd;
    if (strcmp(name->kind, "fs_event") == 0) return uv->inotify_fd;
    return ((uv_stream_t *)name->address)->io_watcher.fd;
}

static void want(struct wanted *wanted, int file) {
    int at = 0;
    while (at < wanted->count && wanted->files[at] != file) at++;
    if (at < wanted->count) wanted->often[at]++;
    else if (file >= 0) wanted->often[at] = 1, wanted->files[wanted->count++] = file;
}

static bool ends_poll(const struct item *item) {
    return (item->type == SECTION && strcmp(item->word, "async") != 0) || item->type == POLL || item->type == END || item->type == RUN;
}

/* What has to be handed out: I/O, the wake (of which after callbacks and those of async handles come), I/O. */
static void read_wanted(struct wanted *wanted) {
    wanted->count = 0;
    wanted->woken = false;
    wanted->wake = forced->uv->async_io_watcher.fd;
    for (int at = cursor; at < item_count && wanted->count < WANTED - 1; at++) {
        const struct item *item = &items[at];
        bool wakes = item->type == SECTION && strcmp(item->word, "done") == 0 && !wanted->woken;
        if (wakes) want(wanted, wanted->wake), wanted->woken = true;
        else if (ends_poll(item)) break;
        else if (item->is_io) want(wanted, file_of(&names[item->name]));
    }
}

static const struct epoll_event *event_of(const struct epoll_event *ready, int count, int file) {
    for (int at = 0; at < count; at++)
        if (ready[at].data.fd == file) return &ready[at];
    return NULL;
}

/* Asks the system until all of it is ready, or for two seconds. Answers how much is. */
static int look(int descriptor, const struct wanted *wanted, struct epoll_event *ready) {
    int found = 0;
    for (int looks = 0; looks < LOOKS; looks++) {
        found = (int)syscall(SYS_epoll_pwait, descriptor, ready, WANTED, looks ? 10 : 0, NULL, 8);
        bool all = true;
        for (int at = 0; at < wanted->count; at++) all &= wanted->files[at] == wanted->wake || event_of(ready, found, wanted->files[at]);
        if (all) break;
    }
    return found;
}

static int hand_out(const struct wanted *wanted, const struct epoll_event *ready, int found, struct epoll_event *events, int room) {
    int handed = 0;
    for (int at = 0; at < wanted->count && handed < room; at++) {
        const struct epoll_event *event = event_of(ready, found, wanted->files[at]);
        if (event) {
            events[handed] = *event;
            /* (one callback: the end of a stream comes with a poll of its own) */
            if (wanted->often[at] == 1 && (event->events & EPOLLIN)) events[handed].events &= ~(unsigned)(EPOLLHUP | EPOLLRDHUP);
            handed++;
        } else if (wanted->files[at] != wanted->wake) {
            depart("nothing comes for the handle of I/O whose callback the session has there (other processes run in real time, and are not forced)");
        }
    }
    return handed;
}

static bool poll_in_order(int descriptor, struct epoll_event *events, int room, int timeout, int *got) {
    struct wanted wanted;
    struct epoll_event ready[WANTED];
    advance(false);
    if (state != FORCING) return false;
    behind_poll = true;
    come_to_rest();
    read_wanted(&wanted);
    if (!wanted.woken && cursor >= item_count) return false;
    int handed = hand_out(&wanted, ready, look(descriptor, &wanted, ready), events, room);
    uint64_t deadline = forced->uv->time + (uint64_t)(timeout < 0 ? 0 : timeout);
    if (handed == 0 && timeout != 0 && (timeout < 0 || virtual_ns() / 1000000 < deadline)) {
        depart_for_good("nothing that ends its poll", at_cursor());
        return false;
    }
    *got = handed;
    return true;
}

bool force_poll(struct loop *loop, int descriptor, struct epoll_event *events, int room, int timeout, int *got) {
    if (state != FORCING || loop != forced || !is_leader()) return false;
    leads++;
    bool is = at_random ? poll_at_random(descriptor, events, room, timeout, got) : poll_in_order(descriptor, events, room, timeout, got);
    leads--;
    return is;
}
