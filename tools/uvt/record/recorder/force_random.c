/* Without a session: an order at random, in which no real time goes by. */
#define _GNU_SOURCE
#include "force.h"

#include <stdlib.h>
#include <string.h>
#include <sys/syscall.h>
#include <unistd.h>

enum { WAITING = 4096, IDLE = 20, ASLEEP_SO_LONG = 50 };
bool at_random;
static uint64_t seed;
static int stall; /* the clock may jump so far at once, in ms */
static uint64_t last; /* nothing is forced once it has moved so far, in ms: 0 is never */
static int waiting[WAITING]; /* requests that no worker has yet */
static int waiting_count;

static unsigned up_to(unsigned count) {
    seed ^= seed << 13, seed ^= seed >> 7, seed ^= seed << 17;
    return (unsigned)((seed >> 11) % count);
}

int how_many_wait(void) {
    return at_random ? waiting_count : -1;
}

static void no_more_waiting(int id) {
    for (int at = 0; at < waiting_count; at++)
        if (waiting[at] == id) {
            memmove(&waiting[at], &waiting[at + 1], (size_t)(--waiting_count - at) * sizeof *waiting);
            return;
        }
}

/* ---- ranks
 *
 * Where each choice is by lot, who is to be last of a chain of five is so once in hundreds of runs. So in three of four orders each request has
 * a rank by lot, and so has each thread that sends to a handle, and the clock: the highest one that can go goes. The first
 * request that is asked for in the after callback of another one has its rank, mostly: such a chain goes as a whole (PCT, and PCTCP, which has it
 * for chains). Now and then who could go first gets the lowest one.
 *
 * No way of choosing is good for all: so how it is chosen is by lot, too, once for each order. */

enum { RANKS = 4096, FAIR = 50 };
static bool ranked, eager; /* eager: a worker that can take a request does, so that those behind it can be taken */
static unsigned changes; /* one in so many choices changes a rank, 0: none */
static unsigned rarely; /* something comes at one in so many places */
static unsigned rank_of[RANKS], clock_rank, chain_rank;
static int of_worker[1024]; /* the request that it has */

static unsigned new_rank(void) {
    return 16 + up_to(1u << 20);
}

static unsigned *rank_at(int id) {
    unsigned *rank = &rank_of[(unsigned)id % RANKS];
    if (!*rank) *rank = new_rank();
    return rank;
}

void begin_random(uint64_t number, int jumps, uint64_t until) {
    seed = (number + 1) * 0x9E3779B97F4A7C15u;
    stall = jumps;
    last = until;
    static const unsigned CHANGES[] = {0, 8, 32}, PLACES[] = {2, 3, 3, 8};
    up_to(2);
    ranked = up_to(2) == 0;
    eager = up_to(2) == 0;
    changes = CHANGES[up_to(3)];
    rarely = PLACES[up_to(4)];
    clock_rank = new_rank();
    early = up_to(4) == 0;
    at_random = true;
}

/* What can come from outside. */
struct choice {
    enum { A_TAKE, A_FINISH, A_SEND, A_HELD, THE_CLOCK } what;
    struct worker *worker;
    struct sender *sender;
    unsigned *rank;
};

enum { CHOICES = 256 };

static bool can_finish(const struct worker *worker) {
    return worker->place >= TAKEN && worker->place <= AT_FINISH && !worker->may_finish;
}

/* (with the gate's mutex) */
static int all_choices(struct choice *found) {
    int count = 0;
    struct worker *free = worker_at(AT_TAKE);
    /* (the pool takes them in their order: the first one keeps back who stands behind it) */
    if (waiting_count && free) found[count++] = (struct choice){A_TAKE, free, NULL, rank_at(waiting[0])};
    for (int it = 0; it < pool_count && count < CHOICES - 2; it++)
        if (can_finish(&pool[it])) found[count++] = (struct choice){A_FINISH, &pool[it], NULL, rank_at(of_worker[it])};
    for (struct sender *it = senders; it && count < CHOICES - 2; it = it->next)
        if (!it->may_send) found[count++] = (struct choice){A_SEND, NULL, it, rank_at(names[it->name].id)};
    if (held_send) found[count++] = (struct choice){A_HELD, NULL, NULL, rank_at(held_send->id)};
    return count;
}

/* (with the gate's mutex) */
static void come(const struct choice *choice) {
    if (choice->what == A_TAKE) {
        int id = waiting[0];
        no_more_waiting(id);
        of_worker[choice->worker - pool] = id;
        choice->worker->may_take = true;
        pthread_cond_broadcast(&changed);
        WAIT(choice->worker->place >= TAKEN);
        pthread_mutex_unlock(&gate);
        write_taken(id);
        pthread_mutex_lock(&gate);
    } else if (choice->what == A_FINISH) {
        choice->worker->may_run = choice->worker->may_finish = true;
        waits_for = choice->worker;
        pthread_cond_broadcast(&changed);
        /* (it may wait for something in its own work: then it hands it in when that has come) */
        int whole = patience;
        patience = ASLEEP_SO_LONG;
        WAIT(choice->worker->place == AT_TAKE);
        patience = whole;
        waits_for = NULL;
    } else if (choice->what == A_HELD) {
        pthread_mutex_unlock(&gate);
        let_held_go(held_send);
        pthread_mutex_lock(&gate);
    } else if (choice->what == A_SEND) {
        long before = sent;
        choice->sender->may_send = true;
        pthread_cond_broadcast(&changed);
        WAIT(sent != before);
    }
}

/* The highest rank of these, or one by lot. */
static const struct choice *one_of(const struct choice *all, int count) {
    if (!count) return NULL;
    const struct choice *found = &all[up_to((unsigned)count)];
    static const unsigned *last_rank;
    static int row;
    if (!ranked) return found;
    for (int tries = 0; tries < 2; tries++) {
        for (int at = 0; at < count; at++)
            if (all[at].what == A_TAKE && eager) return &all[at];
            else if (*all[at].rank > *found->rank) found = &all[at];
        /* (a timer that repeats would keep back all others for ever) */
        row = found->rank == last_rank ? row + (count > 1) : 0;
        last_rank = found->rank;
        if (row < FAIR && (!changes || up_to(changes) != 0)) break;
        *found->rank = 1 + up_to(15);
        row = 0;
    }
    return found;
}

static bool choose(void) {
    struct choice all[CHOICES];
    pthread_mutex_lock(&gate);
    int count = all_choices(all);
    if (ranked && count) all[count++] = (struct choice){THE_CLOCK, NULL, NULL, &clock_rank};
    const struct choice *found = one_of(all, count);
    if (found && found->what == THE_CLOCK) found = NULL; /* (that is the poll's) */
    if (found) come(found);
    pthread_mutex_unlock(&gate);
    end_waits();
    progress++;
    return found != NULL;
}

void maybe_choose(void) {
    int held = unlock_all();
    leads++;
    if (stall && up_to(8) == 0) moved += up_to((unsigned)stall + 1);
    while (up_to(rarely) == 0 && choose()) continue;
    leads--;
    lock_again(held);
}

/* What is ready is handed out in an order by lot. */
static int mixed(struct epoll_event *events, int count) {
    for (int at = count - 1; at > 0; at--) {
        int other = (int)up_to((unsigned)at + 1);
        struct epoll_event kept = events[at];
        events[at] = events[other], events[other] = kept;
    }
    return count < 0 ? 0 : count;
}

/* Something comes, or (true) the clock would go on. */
static bool is_clocks_turn(int timeout) {
    int held = unlock_all();
    pthread_mutex_lock(&gate);
    struct choice all[CHOICES];
    int count = all_choices(all);
    if (timeout > 0 || count == 0) all[count++] = (struct choice){THE_CLOCK, NULL, NULL, &clock_rank};
    const struct choice *found = one_of(all, count);
    bool is = found->what == THE_CLOCK;
    if (!is) come(found);
    pthread_mutex_unlock(&gate);
    end_waits();
    lock_again(held);
    return is;
}

/* Until when a poll may wait, by the order's clock, in ms. */
static uint64_t end_of_poll(int timeout) {
    uint64_t more = (uint64_t)(timeout > 0 ? timeout : 0), until = virtual_ns() / 1000000 + more, of_loop = forced->uv->time + more;
    return of_loop < until ? of_loop : until;
}

/* The poll: what is ready is handed out, the wake last or first; where nothing is, something comes, or the clock goes on. */
bool poll_at_random(int descriptor, struct epoll_event *events, int room, int timeout, int *got) {
    enum { TURNS = 8, REAL = 5, AT_MOST_REAL = 2000 };
    uint64_t until = end_of_poll(timeout);
    if (last && moved > last) set_free(NULL);
    if (state != FORCING) return false;
    maybe_choose();
    behind_poll = true;
    come_to_rest();
    /* (a loop that never waits takes time, too: else no timer would ever be due) */
    if (timeout == 0 && up_to(TURNS) == 0) moved++;
    for (int idle = 0; idle <= AT_MOST_REAL;) {
        int found = (int)syscall(SYS_epoll_pwait, descriptor, events, room, goes_round() ? REAL : 0, NULL, 8);
        idle_poll = idle > IDLE && found == 0;
        if (found > 0 || timeout == 0 || (timeout > 0 && virtual_ns() / 1000000 >= until)) {
            *got = mixed(events, found);
            return true;
        }
        if (!is_clocks_turn(timeout)) continue;
        if (timeout > 0) {
            moved = until - began / 1000000;
            continue;
        }
        /* (nobody of whom we know brings anything: another thread may wait for the clock, which goes on here as the real one does) */
        if (syscall(SYS_epoll_pwait, descriptor, events, room, REAL, NULL, 8) == 0) moved += REAL;
        idle++;
    }
    set_free(NULL);
    return false;
}

void random_event(char type, const char *words) {
    struct shown shown = read_shown(words);
    if (type == 'B' && depth++ == 0) chain_rank = strncmp(words, "after ", 6) == 0 ? *rank_at(atoi(words + 6)) : 0;
    if (type == 'B') behind_poll = false;
    if (type == 'E' && --depth == 0) chain_rank = 0, maybe_choose();
    if (type != 'O') return;
    if (strcmp(shown.word, "queue") == 0 && waiting_count < WAITING) {
        waiting[waiting_count++] = shown.id;
        rank_of[(unsigned)shown.id % RANKS] = chain_rank && up_to(4) ? chain_rank : new_rank();
        chain_rank = 0;
    }
    if (strcmp(shown.word, "cancel") == 0 && strcmp(shown.answer, "ok") == 0) no_more_waiting(shown.id);
    if (strcmp(shown.word, "init") == 0 && strcmp(shown.rest, "async") == 0) {
        struct object *object = object_by_id(shown.id);
        int held = unlock_all();
        pthread_mutex_lock(&gate);
        struct name *more = realloc(names, (size_t)(name_count + 1) * sizeof *names);
        if (more) names = more, names[name_count++] = (struct name){"async", shown.id, object ? object->address : NULL, "async"};
        pthread_mutex_unlock(&gate);
        lock_again(held);
    }
}
