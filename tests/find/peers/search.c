/* A search of all orders of one program, as `./uvt find` does it, in plain C: search WORKERS REQUESTS SENDS

   The program makes a timer of 5 ms and an async handle, queues REQUESTS requests on WORKERS workers, and runs its loop; the timer's callback
   closes both handles. A worker takes and finishes at any time, SENDS sends come at any place where libuv has them seen, and the clock goes on
   to the timeout of a poll that waits. It prints how many states there are, and how many bytes each was kept in. */
#include <stdint.h>
#include <stdio.h>
#include <stdlib.h>
#include <string.h>

enum { MOST = 12, DUE = 5, NONE = 255 };
enum Place { MAIN, ENTRY, FIRST, TIMERS, PENDING, IDLE, PREPARE, POLL, DONE, ASYNC, CHECK, CLOSING, ENDED };
enum Standing { ABSENT, WAITING, RUNNING, FINISHED, GONE };

/* All that the loop, its pool and its handles are. A list ends where its count says. */
typedef struct {
    uint8_t place, line, body, deadline, now, clock, sends;
    uint8_t timer_made, timer_active, timer_ready, timer_closing, timer_calls, timer_closed;
    uint8_t async_made, async_pending, async_yet, async_closing, async_calls, async_closed;
    uint8_t closing[2], closing_count, closing_yet[2], closing_yet_count;
    uint8_t request[MOST], running[MOST], done[MOST], done_count, done_yet[MOST], done_yet_count, free[MOST + 2], free_count;
} State;

static int workers, requests, sends;

/* ---- the loop */

static int requests_open(const State *s) {
    for (int it = 0; it < requests; it++)
        if (s->request[it] == WAITING || s->request[it] == RUNNING || s->request[it] == FINISHED)
            return 1;
    return 0;
}

static int is_active(const State *s) {
    int async = s->async_made && !s->async_closing && !s->async_closed;
    return s->timer_active || async;
}

static int is_alive(const State *s) { return is_active(s) || requests_open(s) || s->closing_count > 0; }

static void give_back(State *s, uint8_t slot) {
    memmove(s->free + 1, s->free, s->free_count);
    s->free[0] = slot;
    s->free_count++;
}

static int main_step(State *s) {
    int at = s->line++;
    if (at == 0)
        s->timer_made = 1;
    else if (at == 1)
        s->async_made = 1;
    else if (at == 2)
        s->timer_active = 1;
    else if (at < 3 + requests)
        s->request[at - 3] = WAITING;
    else if (at == 3 + requests) {
        s->now = s->clock;
        s->place = ENTRY;
    } else
        return 0;
    return 1;
}

/* A due timer is set aside, and then called. Its callback is two ops: it closes itself, and then the async handle. */
static int timer_step(State *s) {
    if (s->body == 0 && s->timer_active && DUE <= s->now) {
        s->timer_active = 0;
        s->timer_ready = 1;
        return 1;
    }
    if (s->body == 0 && !s->timer_ready)
        return 0;
    if (s->body == 0) {
        s->timer_ready = 0;
        s->timer_calls++;
        s->body = 1;
    } else {
        if (s->body == 1)
            s->timer_closing = 1;
        else {
            s->async_closing = 1;
            s->async_pending = 0;
        }
        memmove(s->closing + 1, s->closing, s->closing_count);
        s->closing[0] = s->body == 1 ? 0 : 1;
        s->closing_count++;
        s->body = s->body == 1 ? 2 : 0;
    }
    return 1;
}

static void begin_poll(State *s) {
    s->place = POLL;
    s->deadline = NONE;
    if (!(is_active(s) || requests_open(s)) || s->closing_count > 0)
        s->deadline = s->now;
    else if (s->timer_active)
        s->deadline = DUE;
}

static int may_leave(const State *s) {
    return s->done_count > 0 || s->async_pending || (s->deadline != NONE && s->deadline <= s->clock);
}

static void leave_poll(State *s) {
    s->now = s->clock;
    s->deadline = NONE;
    s->place = DONE;
    memcpy(s->done_yet, s->done, s->done_count);
    s->done_yet_count = s->done_count;
    memset(s->done, 0, sizeof s->done);
    s->done_count = 0;
}

static void call_back(State *s) {
    uint8_t request = s->done_yet[0];
    memmove(s->done_yet, s->done_yet + 1, --s->done_yet_count);
    s->done_yet[s->done_yet_count] = 0;
    s->request[request] = GONE;
    give_back(s, (uint8_t)(2 + request));
}

static void begin_closing(State *s) {
    s->place = CLOSING;
    memcpy(s->closing_yet, s->closing, 2);
    s->closing_yet_count = s->closing_count;
    memset(s->closing, 0, 2);
    s->closing_count = 0;
}

static void close_one(State *s) {
    uint8_t slot = s->closing_yet[0];
    s->closing_yet[0] = s->closing_yet[1];
    s->closing_yet[--s->closing_yet_count] = 0;
    *(slot == 0 ? &s->timer_closed : &s->async_closed) = 1;
    *(slot == 0 ? &s->timer_closing : &s->async_closing) = 0;
    give_back(s, slot);
}

static void begin_async(State *s) {
    s->place = ASYNC;
    s->async_yet = s->async_made && !s->async_closing && !s->async_closed;
}

/* The handle is called, or passed by. */
static int async_step(State *s) {
    if (!s->async_yet)
        return 0;
    s->async_calls += s->async_pending;
    s->async_yet = s->async_pending = 0;
    return 1;
}

static void next_iteration(State *s) {
    s->place = is_alive(s) ? PENDING : ENDED;
}

/* One step of the loop: it begins a section, calls, or does an op of a callback. 0 where it is refused. */
static int loop_step(State *s) {
    switch (s->place) {
    case MAIN:
        return main_step(s);
    case ENTRY:
        s->place = FIRST;
        return 1;
    case FIRST:
    case TIMERS:
        if (!timer_step(s))
            next_iteration(s);
        return 1;
    case PENDING:
    case IDLE:
        s->place++;
        return 1;
    case PREPARE:
        begin_poll(s);
        return 1;
    case POLL:
        if (!may_leave(s))
            return 0;
        leave_poll(s);
        return 1;
    case DONE:
        if (s->done_yet_count > 0)
            call_back(s);
        else
            begin_async(s);
        return 1;
    case ASYNC:
        if (!async_step(s))
            s->place = CHECK;
        return 1;
    case CHECK:
        begin_closing(s);
        return 1;
    case CLOSING:
        if (s->closing_yet_count > 0)
            close_one(s);
        else {
            s->now = s->clock;
            s->place = TIMERS;
        }
        return 1;
    default:
        return 0;
    }
}

/* ---- what comes from outside */

static int take(State *s) {
    int worker = 0, request = 0;
    while (worker < workers && s->running[worker] != NONE)
        worker++;
    while (request < requests && s->request[request] != WAITING)
        request++;
    if (worker == workers || request == requests)
        return 0;
    s->running[worker] = (uint8_t)request;
    s->request[request] = RUNNING;
    return 1;
}

static int finish(State *s, int worker) {
    uint8_t request = s->running[worker];
    if (request == NONE)
        return 0;
    s->running[worker] = NONE;
    s->request[request] = FINISHED;
    s->done[s->done_count++] = request;
    return 1;
}

static int send_one(State *s) {
    if (s->sends == 0 || !s->async_made || s->place == DONE || s->place == ASYNC || s->async_closing)
        return 0;
    s->sends--;
    if (!s->async_closed)
        s->async_pending = 1;
    return 1;
}

static int wait_for(State *s) {
    if (s->place != POLL || may_leave(s) || s->deadline == NONE)
        return 0;
    s->clock = s->deadline;
    return 1;
}

static int move(State *s, int number) {
    if (number == 0)
        return loop_step(s);
    if (number == 1)
        return take(s);
    if (number == 2)
        return send_one(s);
    return number == 3 ? wait_for(s) : finish(s, number - 4);
}

/* ---- the search */

static State *kept, *stack;
static uint32_t *table;
static size_t kept_count, kept_room = 1 << 16, table_size = 1 << 18, stack_count, stack_room = 1 << 16;

static void *grown(void *old, size_t bytes) {
    void *new = realloc(old, bytes);
    if (new == NULL)
        exit(4);
    return new;
}

static uint64_t hash_of(const State *s) {
    const uint8_t *bytes = (const uint8_t *)s;
    uint64_t hash = 0, word = 0;
    for (size_t at = 0; at < sizeof *s; at += 8) {
        size_t left = sizeof *s - at;
        word = 0;
        memcpy(&word, bytes + at, left < 8 ? left : 8);
        hash = (hash ^ word) * 0x9e3779b97f4a7c15u;
        hash ^= hash >> 29;
    }
    return hash;
}

static void put(size_t at, uint32_t number) {
    while (table[at] != 0)
        at = (at + 1) & (table_size - 1);
    table[at] = number;
}

static void grow_table(void) {
    table_size *= 2;
    table = grown(table, table_size * sizeof *table);
    memset(table, 0, table_size * sizeof *table);
    for (size_t it = 0; it < kept_count; it++)
        put(hash_of(&kept[it]) & (table_size - 1), (uint32_t)it + 1);
}

/* Keeps a state, if it is a new one. */
static int keep(const State *s) {
    size_t at = hash_of(s) & (table_size - 1);
    for (; table[at] != 0; at = (at + 1) & (table_size - 1))
        if (memcmp(&kept[table[at] - 1], s, sizeof *s) == 0)
            return 0;
    if (kept_count == kept_room)
        kept = grown(kept, (kept_room *= 2) * sizeof *kept);
    kept[kept_count++] = *s;
    table[at] = (uint32_t)kept_count;
    if (kept_count * 2 > table_size)
        grow_table();
    return 1;
}

static void push(const State *s) {
    if (stack_count == stack_room)
        stack = grown(stack, (stack_room *= 2) * sizeof *stack);
    stack[stack_count++] = *s;
}

int main(int count, char **words) {
    workers = count > 1 ? atoi(words[1]) : 2;
    requests = count > 2 ? atoi(words[2]) : 2;
    sends = count > 3 ? atoi(words[3]) : 0;
    if (workers > MOST || requests > MOST)
        return 2;
    State first = {.deadline = NONE, .sends = (uint8_t)sends};
    memset(first.running, NONE, sizeof first.running);
    kept = grown(NULL, kept_room * sizeof *kept);
    stack = grown(NULL, stack_room * sizeof *stack);
    table = calloc(table_size, sizeof *table);
    keep(&first);
    push(&first);
    while (stack_count > 0) {
        State here = stack[--stack_count];
        for (int number = 0; number < 4 + workers; number++) {
            State next = here;
            if (move(&next, number) && keep(&next))
                push(&next);
        }
    }
    printf("%zu states, %zu bytes each\n", kept_count, sizeof(State));
    return 0;
}
