/* What node's JavaScript does. The hook in node (tools/uvt/record/node/hook.js) has node load the recorder once more, as a module of its own,
 * and so gets a few functions that write lines J into the log. And each request of the pool has a line that says which line of JavaScript
 * asked for it.
 */
#define _GNU_SOURCE
#include "javascript.h"

#include <stdio.h>
#include <string.h>

enum { WORDS = 5, TEXT = 1000 };

__thread napi_env env_here;
__thread int asking_here = -1;

void note_javascript(struct loop *loop, int id) {
    if (!loop || (!env_here && asking_here < 0)) return;
    char places[CHAIN_TEXT];
    if (env_here) places_now(env_here, places);
    else snprintf(places, sizeof places, "%d", asking_here);
    if (*places != '-') write_line(loop, 'J', "by %d %s", id, places);
}

/* ---- what this node lacks */

enum { LACKED = 32 };

static const char *lacked[LACKED];
static int lacked_count;

void lacks(const char *symbol) {
    for (int at = 0; at < lacked_count; at++)
        if (strcmp(lacked[at], symbol) == 0) return;
    if (lacked_count < LACKED) lacked[lacked_count++] = symbol;
}

static void write_lacks(void) {
    for (int at = 0; at < lacked_count; at++) write_line(NULL, 'J', "lacks %s", lacked[at]);
}

/* ---- what the hook calls */

static struct loop *loop_here(napi_env env) {
    uv_loop_t *uv;
    return !off && napi_get_uv_event_loop(env, &uv) == 0 ? loop_of(uv) : NULL;
}

static int64_t number(napi_env env, napi_value value) {
    int64_t found = -1;
    napi_get_value_int64(env, value, &found);
    return found;
}

static napi_value answer(napi_env env, int64_t value) {
    napi_value found = NULL;
    napi_create_int64(env, value, &found);
    return found;
}

/* A function of the hook's, with the lock held: its words are `words`, its loop `loop`, which may be NULL. */
#define CALLED(NAME, COUNT)                                                                              \
    static int64_t do_##NAME(napi_env env, napi_value *words, struct loop *loop);                        \
    static napi_value NAME(napi_env env, napi_callback_info info) {                                      \
        napi_value words[WORDS] = {0};                                                                   \
        size_t count = WORDS;                                                                            \
        if (napi_get_cb_info(env, info, &count, words, NULL, NULL) != 0 || (int)count < (COUNT)) return NULL; \
        lock();                                                                                          \
        int64_t found = do_##NAME(env, words, loop_here(env));                                           \
        unlock();                                                                                        \
        return answer(env, found);                                                                       \
    }                                                                                                    \
    static int64_t do_##NAME(napi_env env, napi_value *words, struct loop *loop)

static const char *const KINDS[] = {"timer", "interval", "immediate"};

static int64_t ids;

/* meant(DELAY): of the next timer, in ms; where a session is forced that of the session. (A timer may go by the time of day: node's own, which ends
 * the second for the header Date, does. And that of a forced program is another one.) */
CALLED(meant, 1) {
    int64_t delay = number(env, words[0]);
    return loop ? force_delay(ids + 1, delay) : delay;
}

/* born(KIND, FUNCTION, DELAY): JavaScript asks for a callback of this function. Answers its number. */
CALLED(born, 3) {
    int64_t kind = number(env, words[0]), delay = number(env, words[2]);
    if (!loop || kind < 0 || kind > 2) return -1;
    char places[CHAIN_TEXT], text[CHAIN_TEXT + 64];
    int function = place_of(env, words[1]);
    places_now(env, places);
    snprintf(text, sizeof text, "%s %d %s %lld", KINDS[kind], function, places, (long long)(delay < 0 ? 0 : delay));
    write_line(loop, 'J', "new %u %s", (uint64_t)++ids, text);
    alive_new(loop, (uint64_t)ids, text);
    return ids;
}

/* known(KIND, FUNCTION, DELAY, START): it was started at this time of node's, nobody knows where. (One that repeats is started anew at each call.)
 * Answers its number. */
CALLED(known, 4) {
    int64_t kind = number(env, words[0]), delay = number(env, words[2]), start = number(env, words[3]);
    if (!loop || kind < 0 || kind > 2) return -1;
    char text[CHAIN_TEXT + 64];
    snprintf(text, sizeof text, "%s %d -1 %lld", KINDS[kind], place_of(env, words[1]), (long long)(delay < 0 ? 0 : delay));
    alive_was(loop, (uint64_t)++ids, text, (uint64_t)((int64_t)loop->base + loop->node_behind + start), kind == 1);
    return ids;
}

/* begin(ID, START, DELAY, FLAGS): it begins; of a timer, that was started at this time of node's, START, and else -1. FLAGS: 1, it repeats,
 * 2, it keeps nothing alive,
 * 4, its ms were counted anew since. end(ID): it ends. */
CALLED(begin, 4) {
    int64_t start = number(env, words[1]), delay = number(env, words[2]);
    uint64_t id = (uint64_t)number(env, words[0]);
    static const char *const FLAGS[] = {"", " 1", " 2", " 3", " 4", " 5", " 6", " 7"};
    const char *flags = FLAGS[number(env, words[3]) & 7];
    alive_run(id, number(env, words[3]) & 1);
    if (loop && start >= 0) write_line(loop, 'J', "run %u %u %u%s", id, (uint64_t)start, (uint64_t)(delay < 0 ? 0 : delay), flags);
    else if (loop) write_line(loop, 'J', "run %u", id);
    return 0;
}

CALLED(end, 1) {
    if (loop) write_line(loop, 'J', "ran %u", (uint64_t)number(env, words[0]));
    alive_end((uint64_t)number(env, words[0]), false);
    return 0;
}

/* gone(ID): it is cleared, and where. */
CALLED(gone, 1) {
    if (loop) write_line(loop, 'J', "gone %u %d", (uint64_t)number(env, words[0]), place_now(env));
    alive_end((uint64_t)number(env, words[0]), true);
    return 0;
}

/* referenced(ID, IS): from here on it keeps node alive (1), or doesn't. */
CALLED(referenced, 2) {
    if (loop) write_line(loop, 'J', "ref %u %d %d", (uint64_t)number(env, words[0]), (int)number(env, words[1]), place_now(env));
    return 0;
}

REAL(uv_now)

/* begun(THREAD, NOW): the JavaScript of this thread, of node's number, tells from here on; and which time node has just now. (It has looked at that
 * of the loop, and counts it from another beginning.) */
CALLED(begun, 2) {
    if (!loop) return -1;
    loop->has_javascript = true;
    loop->javascript = (uint64_t)number(env, words[0]);
    loop->node_behind = (int64_t)(CALL(uv_now)(loop->uv) - loop->base) - number(env, words[1]);
    tell_node_thread(loop);
    return 0;
}

/* look(THREAD): looks begin in it; in the first one, 0, signals that end the program wait for what is to be written. */
CALLED(look, 1) {
    if (!loop) return -1;
    begin_looks(env);
    bool first = number(env, words[0]) == 0;
    look_up_places();
    look_up_collections();
    if (first) write_lacks();
    if (first && !attaches) look_before_signals(loop);
    return 0;
}

/* unlook(): and they end. */
CALLED(unlook, 0) {
    (void)env, (void)words;
    if (loop) end_looks();
    return 0;
}

/* is(): is anything recorded of this loop? */
CALLED(is, 0) {
    (void)env, (void)words;
    return loop != NULL;
}

/* What node calls of a module that it has loaded. */
napi_value napi_register_module_v1(napi_env env, napi_value exports);
napi_value napi_register_module_v1(napi_env env, napi_value exports) {
    const struct {
        const char *name;
        napi_value (*called)(napi_env, napi_callback_info);
    } all[] = {{"born", born}, {"meant", meant}, {"begin", begin}, {"end", end}, {"gone", gone}, {"referenced", referenced}, {"look", look},
               {"unlook", unlook}, {"is", is}, {"known", known}, {"begun", begun}};
    for (size_t at = 0; at < sizeof all / sizeof *all; at++) {
        napi_value function;
        if (napi_create_function(env, all[at].name, strlen(all[at].name), all[at].called, NULL, &function) == 0)
            napi_set_named_property(env, exports, all[at].name, function);
    }
    env_here = env;
    return exports;
}
