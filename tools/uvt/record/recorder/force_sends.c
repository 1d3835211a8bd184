/* Threads that send, each at its gate; and the one that leads, which may wait for their end. */
#define _GNU_SOURCE
#include "force.h"

#include <string.h>

REAL(uv_thread_join)

bool is_leader(void) {
    bool is = state == FORCING && !me && forced->uv && pthread_equal(forced->thread, pthread_self());
    if (is) leader_id = own_id();
    return is;
}

struct sender *senders;
long sent;
static int joining;
const struct worker *waits_for;

struct sender *sender_of(int name) {
    for (struct sender *it = senders; it; it = it->next)
        if (it->name == name && !it->may_send) return it;
    return NULL;
}

/* (with the gate's mutex) A send is let through before the leader has come to its step. Where that is what comes next, all is as in the session. */
static void let_send(struct sender *sender, bool leads_on) {
    bool is_awaited = me && waits_for == me, ahead = !joining && !is_awaited && !leads_on;
    const struct item *next = ahead ? next_send(sender->name) : NULL;
    if (ahead) names[sender->name].ahead++;
    if (next) {
        sender->last = says_last(next);
        return;
    }
    const char *why = joining ? "the program waits for that thread" : is_awaited ? "its request is to be finished there"
                    : leads_on ? "" : "the loop's thread waits in the program's own code, and may wait for it";
    depart("a thread sends to %s, and the session has no send there%s%s", name_of(sender->name), *why ? ": " : "", why);
}

/* A thread sends: it waits for its step. True: SENDER has to be handed to `force_sent`. */
bool force_send(void *handle, struct sender **handed) {
    *handed = NULL;
    if (state != FORCING || is_leader()) return false;
    static __thread struct sender mine; /* (a thread sends one after another) */
    struct sender *sender = &mine;
    pthread_mutex_lock(&gate);
    int name = -1;
    for (int at = 0; at < name_count; at++)
        if (names[at].address == handle && names[at].kind && strcmp(names[at].kind, "async") == 0) name = at;
    if (name < 0) {
        pthread_mutex_unlock(&gate);
        return false;
    }
    *sender = (struct sender){.name = name, .next = senders};
    senders = sender;
    progress++;
    pthread_cond_broadcast(&changed);
    bool leads_on = WAIT_FOR_LEADER(sender->may_send || joining || (me && waits_for == me));
    if (!sender->may_send && state == FORCING) let_send(sender, leads_on);
    sender->may_send = true;
    pthread_mutex_unlock(&gate);
    if (sender->last) stop_here();
    *handed = sender;
    return true;
}

void force_sent(struct sender *sender) {
    pthread_mutex_lock(&gate);
    struct sender **at = &senders;
    while (*at && *at != sender) at = &(*at)->next;
    if (*at) *at = sender->next;
    sent++;
    progress++;
    pthread_cond_broadcast(&changed);
    pthread_mutex_unlock(&gate);
}

int uv_thread_join(uv_thread_t *thread) {
    bool waits = state == FORCING && !me && !is_from_libuv(__builtin_return_address(0));
    if (state == FORCING && is_from_libuv(__builtin_return_address(0))) set_free("the program ends before the session does");
    if (waits) {
        force_before("uv_thread_join");
        pthread_mutex_lock(&gate);
        joining++;
        pthread_cond_broadcast(&changed);
        pthread_mutex_unlock(&gate);
    }
    int answer = CALL(uv_thread_join)(thread);
    if (waits) joining--;
    return answer;
}

/* ---- sends of V8's threads
 *
 * Such a thread sends when it likes, and the loop's thread may wait for it in V8 (a collection of garbage does): it waits at no gate. Its
 * send is kept back; where the session has one, the loop's thread sends, whether or not one was kept: the callback looks for tasks, and finds
 * none. */

struct object *volatile held_send;
static uint64_t held_by = 1;

bool force_hold(struct object *object) {
    if (state != FORCING || object->loop != forced) return false;
    held_by = (uint64_t)pthread_self();
    held_send = object;
    progress++;
    return true;
}

void let_held_go(struct object *object) {
    if (object == held_send) held_send = NULL;
    send_held(object, held_by);
}
