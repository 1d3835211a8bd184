/* A run that hangs, and one whose loop goes round. A thread of the library's own looks on: where each thread sleeps, and none of them until a
 * time, and nobody from outside could come, then that stays so, and half a second is enough to be sure. Where a process or a peer could come, it
 * takes longer. So it does where the loop goes round: all others sleep like that, and nothing but timers (idle, prepare and check handles) is
 * called.
 *
 * UVT_FORCE_HANGS=MS  it is said in UVT_FORCE_SAID, and on the page; where somebody from outside could come, after so many ms
 * UVT_FORCE_ROUNDS=N  so many turns of the loop with nothing but timers are too many */
#define _GNU_SOURCE
#include "force_hangs.h"

#include <limits.h>
#include <stdlib.h>
#include <string.h>
#include <sys/syscall.h>

/* A look each 100 ms: how many have to see the same to be sure, where the loop goes round too, and where somebody could come. */
enum { LOOK = 100, SURE = 5, ROUND = 50, STILL = 100 };
int watch_id;
volatile bool idle_poll;

/* ---- where the loop goes round */

static long most_rounds = LONG_MAX;
volatile long rounds;
void *volatile called_in[CALLED];

/* (all others have their naps of real time, who is about to come has to get there) */
bool goes_round(void) {
    return rounds > most_rounds;
}

static bool is_own_doing(const struct object *object) {
    static const char *const KINDS[] = {"timer", "idle", "prepare", "check"};
    for (size_t at = 0; object && object->kind && at < sizeof KINDS / sizeof *KINDS; at++)
        if (strcmp(KINDS[at], object->kind) == 0) return true;
    return false;
}

/* A line of the forced loop's, also where nothing is forced any more. */
void look_for_rounds(char type, const char *words) {
    const struct object *object = NULL;
    if (type == 'P') rounds++;
    if (type == 'O' && (strncmp(words, "queue ", 6) == 0 || strncmp(words, "send ", 5) == 0)) rounds = 0;
    if (type != 'B') return;
    const char *id = strchr(words, ' ');
    object = id ? object_by_id(atoi(id + 1)) : NULL;
    if (!is_own_doing(object)) rounds = 0;
    if (rounds == 0) memset((void *)called_in, 0, sizeof called_in);
    for (int at = 0; object && rounds && at < CALLED && called_in[at] != object->callback; at++) {
        if (called_in[at]) continue;
        called_in[at] = object->callback;
        break;
    }
}

/* ---- the looks */

static bool is_same(const struct thread *one, const struct thread *other, int count) {
    for (int at = 0; at < count; at++)
        if (one[at].id != other[at].id || one[at].sleep != other[at].sleep || one[at].futex != other[at].futex) return false;
    return true;
}

/* What one look sees: how many threads there are, all asleep, and how many looks have to see the same; 0 threads where one is awake. */
struct look {
    int count, needed, children[PROCESSES], child_count, kind;
};

static void look(struct look *look, struct thread *found, int still) {
    bool outside = false, round = false;
    look->count = all_threads(found);
    for (int at = 0; at < look->count; at++) {
        if (found[at].sleep == AWAKE) look->count = 0;
        else if (found[at].sleep == OUTSIDE) outside = true;
        else if (found[at].sleep == GOES_ROUND) round = true;
    }
    if (look->count == 0) return;
    look->child_count = sleeping_children(look->children);
    if (look->child_count < 0) look->count = 0;
    outside |= look->child_count > 0 || has_outside();
    look->needed = outside ? still : round ? ROUND : SURE;
    look->kind = round ? 3 : outside ? 1 : 2;
}

/* Does the loop go on, where it goes round? By itself it does so in real time. */
static bool has_turned(const struct look *look) {
    static long before;
    bool has = look->kind != 3 || rounds != before || (state == FREE && forced->waiting && page->done && !page->departures);
    before = rounds;
    return has;
}

void pause_for(long ms) {
    struct timespec time = {0, ms * 1000000};
    syscall(SYS_nanosleep, &time, NULL);
}

static void *watch(void *word) {
    static struct thread last[THREADS], now[THREADS];
    static struct look seen;
    int last_count = 0, same = 0, still = (int)(intptr_t)word / LOOK;
    watch_id = own_id();
    for (;;) {
        pause_for(LOOK);
        if (state == NOT_FORCING) continue;
        look(&seen, now, still);
        if (seen.count > 0 && !has_turned(&seen)) continue;
        same = seen.count > 0 && seen.count == last_count && is_same(last, now, seen.count) ? same + 1 : 0;
        memcpy(last, now, sizeof last);
        last_count = seen.count;
        if (!last_count || same < seen.needed) continue;
        say("HANGS %d %d", seen.kind, how_many_wait());
        for (int at = 0; at < seen.count; at++) tell_thread(now, seen.count, &now[at]);
        for (int at = 0; at < seen.child_count; at++) tell_process(seen.children[at]);
        page->hangs = seen.kind;
        return NULL;
    }
}

void begin_watch(void) {
    pthread_t thread;
    pthread_attr_t attributes;
    sigset_t all, before;
    const char *ms = getenv("UVT_FORCE_HANGS"), *most = getenv("UVT_FORCE_ROUNDS");
    if (!ms) return;
    if (most && atol(most) > 0) most_rounds = atol(most);
    intptr_t still = atol(ms) > STILL * LOOK ? atol(ms) : STILL * LOOK;
    begin_telling();
    sigfillset(&all);
    pthread_sigmask(SIG_SETMASK, &all, &before);
    pthread_attr_init(&attributes);
    pthread_attr_setdetachstate(&attributes, PTHREAD_CREATE_DETACHED);
    pthread_create(&thread, &attributes, watch, (void *)still);
    pthread_attr_destroy(&attributes);
    pthread_sigmask(SIG_SETMASK, &before, NULL);
}
