/* Forces the order of a session upon the program: what comes from outside comes only where the session has it.
 *
 * UVT_FORCE=SCHEDULE  a line for each line of the session's run, made by tools/uvt/forcing.py
 * UVT_FORCE_SAID=FILE where it says what it did, and where the program departs from the session
 * UVT_FORCE_AT=FILE   a page: how far it has come (struct page), also where the program is ended by a signal
 * UVT_FORCE_LOOP=N    the loop of this number, as the log has it; else the first one
 * UVT_FORCE_STOP=1    SIGTRAP at the session's last step, before it is done
 * UVT_FORCE_EARLY=1   work begins where the session has its take; else where it has its finish
 *
 * The loop's thread leads. At each place where it could see something from outside (the program's op, a callback's beginning and
 * end, libuv's look at the clock, the poll) it does what the session has there: it moves the clock, lets one worker take a request,
 * lets it hand the request in, lets one thread send, and waits until that is done. All others wait at gates. */
#define _GNU_SOURCE
#include "force.h"

#include <string.h>

volatile enum state state = NOT_FORCING;
struct item *items;
int item_count, cursor;
int last_shown = -1;
struct name *names;
int name_count;
struct loop *forced;
int depth;
bool early, behind_poll;

const char *name_of(int at) {
    return at >= 0 && at < name_count ? names[at].text : "?";
}

int name_by_id(int id) {
    for (int at = 0; at < name_count; at++)
        if (names[at].id == id) return at;
    return -1;
}

const struct item *at_cursor(void) {
    return cursor < item_count ? &items[cursor] : NULL;
}

/* The callback of the last step goes on with all as the session left it: until it is over nothing comes from outside. */
void step_done(void) {
    page->steps = items[cursor].step;
    cursor++;
    progress++;
    if (cursor == item_count) {
        page->done = 1;
        say("DONE %d", items[item_count - 1].step);
        if (depth == 0) set_free(NULL);
    }
}

/* ---- steps from outside, by the loop's thread */

/* (the worker itself writes no such line: its work may begin later) */
void write_taken(int id) {
    lock();
    struct object *object = id >= 0 ? object_by_id(id) : NULL;
    if (object && is_seen_work(object)) write_line(forced, 'T', "%d", id);
    unlock();
}

static void do_take(const struct item *item) {
    struct worker *worker;
    pthread_mutex_lock(&gate);
    if (WAIT_FOR_COMER(worker_at(AT_TAKE) != NULL)) {
        worker = worker_at(AT_TAKE);
        worker->number = item->number;
        worker->name = item->name;
        worker->may_take = true;
        pthread_cond_broadcast(&changed);
        if (!WAIT(worker->place >= TAKEN)) depart("worker %ld didn't take %s", item->number, name_of(item->name));
        else if (worker->place == ASLEEP) depart("worker %ld takes nothing: the pool has nothing for it", item->number);
    } else {
        depart("no worker of the pool is free to take %s", name_of(item->name));
    }
    pthread_mutex_unlock(&gate);
    write_taken(item->name >= 0 ? names[item->name].id : -1);
}

/* (with the gate's mutex) The work that is held may be what this one waits for: then all that was taken begins. */
static bool is_through(const struct worker *worker) {
    int whole = patience;
    patience = SOON;
    bool is = WAIT(worker->place == AT_TAKE);
    patience = whole;
    if (is) return true;
    for (int at = 0; at < pool_count; at++)
        if (pool[at].place == TAKEN) pool[at].may_run = true;
    pthread_cond_broadcast(&changed);
    return WAIT(worker->place == AT_TAKE);
}

static void do_finish(const struct item *item) {
    pthread_mutex_lock(&gate);
    struct worker *worker = worker_of(item->number);
    if (!worker) {
        depart("worker %ld has no request to finish", item->number);
    } else {
        worker->may_run = worker->may_finish = true;
        waits_for = worker;
        pthread_cond_broadcast(&changed);
        if (!is_through(worker)) depart("the work of %s doesn't come to its end: it waits for something", name_of(item->name));
        waits_for = NULL;
    }
    pthread_mutex_unlock(&gate);
}

bool says_last(const struct item *item) {
    if (item != &items[last_shown]) return false;
    say("AT %d %s", item->step, item->text);
    page->steps = item->step;
    page->done = item == &items[item_count - 1];
    return true;
}

/* (with the gate's mutex) It has come, where the loop's thread had to wait for the one that sends. */
static bool has_come(const struct item *item) {
    bool has = item->name >= 0 && names[item->name].ahead > 0;
    if (has) names[item->name].ahead--;
    return has;
}

const struct item *next_send(int name) {
    for (int at = cursor; at < item_count && items[at].type <= CANCEL; at++)
        if (items[at].type == SEND && items[at].name == name) return &items[at];
    return NULL;
}

static void do_send(const struct item *item) {
    pthread_mutex_lock(&gate);
    struct sender *sender = NULL;
    if (has_come(item)) {
        pthread_mutex_unlock(&gate);
        return;
    }
    for (int tries = 0; !sender && state == FORCING; tries++) {
        int whole = patience;
        struct worker *holder = worker_at(TAKEN);
        if (holder && !holder->may_run) patience = SOON; /* the work of a request may send: first those that send anyway */
        WAIT_FOR_COMER((sender = sender_of(item->name)) != NULL);
        patience = whole;
        if (sender || !holder || holder->may_run) break;
        holder->may_run = true;
        pthread_cond_broadcast(&changed);
        WAIT(holder->place != TAKEN);
    }
    if (sender) {
        long before = sent;
        sender->may_send = true;
        sender->last = says_last(item);
        pthread_cond_broadcast(&changed);
        WAIT(sent != before);
    } else {
        depart("no thread of the program sends to %s", name_of(item->name));
    }
    pthread_mutex_unlock(&gate);
}

struct object *platform_of(int name) {
    lock();
    struct object *object = name >= 0 && names[name].id >= 0 ? object_by_id(names[name].id) : NULL;
    bool is = object && strcmp(object->kind, "async") == 0 && is_nodes_own(object->callback);
    unlock();
    return is ? object : NULL;
}

/* The loop's wake of the handle `wake`, which the program doesn't have. */
REAL(uv_async_send)

static void do_item(const struct item *item) {
    struct object *object;
    switch (item->type) {
    case TICK: moved += (uint64_t)item->number; break;
    case TAKE: do_take(item); break;
    case FINISH: do_finish(item); break;
    case SEND:
        if (strcmp(name_of(item->name), "wake") == 0 && names[item->name].id < 0) CALL(uv_async_send)(&forced->uv->wq_async);
        else if ((object = platform_of(item->name))) let_held_go(object);
        else do_send(item);
        break;
    case CANCEL: depart("`%s` comes from outside, and no program does that", item->text); break;
    default: break;
    }
    end_waits();
}

bool is_outside(const struct item *item) {
    return item->type <= CANCEL;
}

static bool is_shown(const struct item *item) {
    return item->type > SILENT;
}

/* Does what comes from outside, up to the next thing that is none of that. With `through`: up to the next thing that the program shows. */
void advance(bool through) {
    const struct item *it;
    int held = unlock_all();
    leads++;
    while (state == FORCING && (it = at_cursor()) && (is_outside(it) || (through && !is_shown(it)))) {
        if (is_outside(it)) do_item(it);
        step_done();
    }
    leads--;
    lock_again(held);
}

/* ---- libuv's look at the clock */

void look_at_clock(void) {
    /* (libuv looks once behind each call of the system: what the session has there is done by then) */
    if (behind_poll) {
        behind_poll = false;
        return;
    }
    if (at_random) {
        maybe_choose();
        return;
    }
    for (int at = cursor; at < item_count && !is_shown(&items[at]); at++) {
        if (items[at].type != SECTION || strcmp(items[at].word, "timers") != 0) continue;
        int held = unlock_all();
        leads++;
        while (cursor <= at && state == FORCING) {
            if (is_outside(&items[cursor])) do_item(&items[cursor]);
            step_done();
        }
        leads--;
        lock_again(held);
        return;
    }
    /* (nothing but what comes from outside is left of the session) */
    for (int at = cursor; at < item_count; at++)
        if (!is_outside(&items[at])) return;
    advance(false);
}
