/* The poll: what libuv asks of the system, and, in front of it from time to time, all that a loop has. */
#define _GNU_SOURCE
#include "recorder.h"

#include <errno.h>
#include <poll.h>
#include <string.h>
#include <sys/epoll.h>
#include <time.h>

REAL(uv_is_active)
REAL(uv_is_closing)
REAL(uv_has_ref)

/* ---- all that a loop has, from time to time: a recording may begin there */

enum { OFTEN = 4000, MANY = 8 };

REAL(uv_now)
REAL(uv_timer_get_due_in)
REAL(uv_timer_get_repeat)

static void tell_one(struct object *it) {
    uint64_t due = 0, repeat = 0, order = it->order;
    bool active = it->active, referenced = it->watcher && !it->unreferenced, closing = false;
    if (it->handle && !it->written) {
        uv_handle_t *handle = it->address;
        closing = CALL(uv_is_closing)(handle);
        if (!it->watcher) active = CALL(uv_is_active)(handle), referenced = CALL(uv_has_ref)(handle);
        if (strcmp(it->kind, "timer") == 0) {
            due = CALL(uv_timer_get_due_in)((uv_timer_t *)handle);
            repeat = CALL(uv_timer_get_repeat)((uv_timer_t *)handle);
            order = ((uv_timer_t *)handle)->start_id;
        }
    }
    write_line(it->loop, 'K', "%d %s %d %d %d %u %u %u", it->id, it->kind, active, referenced, closing, due, repeat, order);
}

static void tell(struct loop *loop) {
    write_line(loop, 'K', "all");
    each(loop, tell_one);
    write_line(loop, 'K', "end");
    loop->counted = loop->lines;
}

/* In a ring once in each window, but not more than a quarter of it, so that a recording may begin in any part of it; with the places and the
 * callbacks, since lines that said these may be gone. A ring has room for four times of all, and more. (At the second poll in a window all of that
 * iteration is in it.) And each second, where that is little beside the rest: what was late is to have its beginning not long before. */
enum { SHARE = 4, LITTLE = 16, EACH = 1000, OVERDUE = 2 << 20 };

static bool is_to_be_told(const struct loop *loop) {
    uint64_t since = ring_bytes() - loop->told_at;
    if (!loop->told_in) return true;
    if (loop->told_in != ring_window()) return since >= SHARE * loop->told_size;
    return since >= LITTLE * loop->told_size && CALL(uv_now)(loop->uv) >= loop->told_when + EACH;
}

static void tell_again(struct loop *loop) {
    static uint64_t sizes;
    uint64_t begin = ring_bytes();
    each(loop, name_again);
    tell_alive(loop);
    tell(loop);
    sizes += ring_bytes() - begin - loop->told_size;
    loop->told_size = ring_bytes() - begin;
    loop->told_at = begin;
    loop->told_in = ring_window();
    loop->told_when = CALL(uv_now)(loop->uv);
    ring_needs(3 * SHARE * sizes);
}

/* A loop that waits writes nothing, and the ring goes on: the lines are written for it, as they were at its poll, with that poll once more. */
static void tell_of_one_that_waits(struct loop *loop) {
    if (!loop->waiting || !loop->told_in || !is_to_be_told(loop)) return;
    tell_again(loop);
    write_line(loop, 'p', "%d", loop->poll.timeout);
}

static void tell_all(struct loop *loop) {
    static size_t told_in;
    if (!keeps()) {
        if (loop->lines - loop->counted >= OFTEN + MANY * object_total()) tell(loop);
        return;
    }
    /* (of one that fills a window in each of its iterations there is none that is in it whole) */
    bool overdue = ring_bytes() - loop->told_at >= SHARE * loop->told_size + OVERDUE;
    if (is_to_be_told(loop) && (loop->poll.in == ring_window() || !loop->told_in || overdue)) tell_again(loop);
    if (told_in == ring_window()) return;
    told_in = ring_window();
    each_loop(tell_of_one_that_waits);
}

/* ---- the poll: what libuv asks of the system */

enum { ROOM = 1024 }; /* as many events libuv asks for */

REAL(uv_backend_fd)
REAL(uv_backend_timeout)
REAL(epoll_wait)
REAL(epoll_pwait)
REAL(epoll_create1)

/* (a loop is made) */
int epoll_create1(int flags) {
    hook_caller(__builtin_return_address(0));
    return CALL(epoll_create1)(flags);
}

static struct loop *polls(int descriptor, const void *caller) {
    struct loop *loop = running_here();
    if (off || (!loop && !attaches) || (loop && !loop->uv) || !is_from_libuv(caller)) return NULL;
    if (!loop && !(loop = adopt_loop(descriptor))) return NULL;
    if (CALL(uv_backend_fd)(loop->uv) != descriptor || (attaches && is_left(loop))) return NULL;
    /* (that takes long: what is due by then is called first) */
    if (attaches && !loop->hooked && hook_loop(loop)) return NULL;
    return comes_into_view(loop) ? loop : NULL;
}

/* Is it the same poll still? libuv asks once more where it was interrupted, where nothing came for anybody, where it only looked before it
 * waits (by the metrics of its idle time), and where there may be more events than it had room for. */
static bool asks_again(const struct loop *loop) {
    const struct poll *last = &loop->poll;
    if (last->got == ROOM) return loop->away == last->away;
    return loop->begun == last->begun && last->timeout != 0 && (last->got <= 0 || last->in_vain);
}

static void note_poll(struct loop *loop, int timeout) {
    if (!loop) return;
    int wait = timeout;
    lock();
    bool again = asks_again(loop);
    settle_all(loop, NULL);
    if (!again) {
        look_at_memory(loop);
        tell_all(loop);
        /* (where it only looks, that is how long it will wait) */
        if (timeout == 0 && loop->mode == UV_RUN_DEFAULT) timeout = CALL(uv_backend_timeout)(loop->uv);
    }
    write_number(loop, again ? 'p' : 'P', timeout, "");
    loop->waiting = true;
    loop->poll = (struct poll){.begun = loop->begun, .away = loop->away, .timeout = timeout, .wait = wait, .in = ring_window()};
    if (wait > 0) {
        struct usage usage;
        uint64_t last = last_waited();
        loop->poll.clock = clock_behind(&usage);
        loop->poll.waited = usage.waited;
        loop->poll.before = usage.waited == UNKNOWN || last == UNKNOWN || usage.waited < last ? 0 : usage.waited - last;
        note_share(loop, loop->poll.clock, loop->poll.waited);
    }
    unlock();
}

static bool is_for_somebody(const uv_loop_t *uv, const struct epoll_event *event) {
    int file = event->data.fd;
    const uv__io_t *watcher = file >= 0 && (unsigned)file < uv->nwatchers ? uv->watchers[file] : NULL;
    return watcher && (event->events & (watcher->pevents | POLLERR | POLLHUP));
}

/* The system ended a wait later than it was asked to: how much, how long of that this thread waited for a processor, and whether a signal ended it
 * (as one does that lets a stopped process go on). And how long the thread had waited for one since the callback before, as the wait began. */
enum { LATE = 2 };

static void note_late_poll(struct loop *loop, int got) {
    struct poll *poll = &loop->poll;
    int fault = got < 0 ? errno : 0;
    uint64_t clock = poll->wait > 0 && !forces() ? clock_ms() : 0, end = poll->clock + (uint64_t)poll->wait;
    bool is_late = clock >= end + LATE;
    if (!clock || (!is_late && poll->before < LATE * 1000000ull)) return;
    if (clock < end) end = clock;
    uint64_t now = poll->waited == UNKNOWN ? UNKNOWN : waited_by(clock, true), waited = now == UNKNOWN ? UNKNOWN : now - poll->waited;
    if (is_late) note_late(loop, "poll", -1, &(struct late){clock, clock - end, waited});
    if (waited == UNKNOWN) return;
    lock();
    write_line(loop, 'H', "%u %u %d %u", clock - end, (waited + 500000) / 1000000, fault == EINTR, (poll->before + 500000) / 1000000);
    unlock();
}

static int note_events(struct loop *loop, const struct epoll_event *events, int got) {
    if (!loop) return got;
    int kept = errno;
    /* (another loop may write down what this one has, while it waits) */
    if (keeps()) lock();
    loop->waiting = false;
    note_late_poll(loop, got);
    if (keeps()) unlock();
    bool in_vain = true;
    for (int at = 0; at < got && in_vain; at++) in_vain = !is_for_somebody(loop->uv, &events[at]);
    loop->poll.got = got;
    loop->poll.in_vain = in_vain;
    errno = kept;
    return got;
}

/* Where looks are to be written while the loop waits (looks.c), that is a wait up to then, and another one. */
static int wait_for(int descriptor, struct epoll_event *events, int room, int timeout, const sigset_t *signals) {
    return signals ? CALL(epoll_pwait)(descriptor, events, room, timeout, signals) : CALL(epoll_wait)(descriptor, events, room, timeout);
}

static int really_wait(struct loop *loop, int descriptor, struct epoll_event *events, int room, int timeout, const sigset_t *signals) {
    int first = loop && timeout != 0 ? wait_before_looks(loop) : -1;
    if (first < 0 || (timeout > 0 && timeout <= first)) return wait_for(descriptor, events, room, timeout, signals);
    int64_t begin = (int64_t)clock_ms();
    int got = first ? wait_for(descriptor, events, room, first, signals) : 0;
    if (got != 0) return got;
    write_looks_here();
    int64_t left = timeout - ((int64_t)clock_ms() - begin);
    return wait_for(descriptor, events, room, timeout < 0 ? timeout : left > 0 ? (int)left : 0, signals);
}

int epoll_wait(int descriptor, struct epoll_event *events, int room, int timeout) {
    struct loop *loop = polls(descriptor, __builtin_return_address(0));
    struct wait wait;
    int got;
    if (!loop && in_callback && begin_wait(&wait, __func__, __builtin_return_address(0))) {
        got = CALL(epoll_wait)(descriptor, events, room, timeout);
        end_wait(&wait, __func__, __builtin_return_address(0));
        return got;
    }
    note_poll(loop, timeout);
    if (loop && force_poll(loop, descriptor, events, room, timeout, &got)) return note_events(loop, events, got);
    return note_events(loop, events, really_wait(loop, descriptor, events, room, timeout, NULL));
}

int epoll_pwait(int descriptor, struct epoll_event *events, int room, int timeout, const sigset_t *signals) {
    struct loop *loop = polls(descriptor, __builtin_return_address(0));
    struct wait wait;
    int got;
    if (!loop && in_callback && begin_wait(&wait, __func__, __builtin_return_address(0))) {
        got = CALL(epoll_pwait)(descriptor, events, room, timeout, signals);
        end_wait(&wait, __func__, __builtin_return_address(0));
        return got;
    }
    note_poll(loop, timeout);
    if (loop && force_poll(loop, descriptor, events, room, timeout, &got)) return note_events(loop, events, got);
    return note_events(loop, events, really_wait(loop, descriptor, events, room, timeout, signals));
}
