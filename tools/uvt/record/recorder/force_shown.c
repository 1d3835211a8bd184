/* What the program shows, beside what the session has there: its ops, its callbacks, its polls and runs. */
#define _GNU_SOURCE
#include "force.h"

#include <stdio.h>
#include <stdlib.h>
#include <string.h>

static bool in_platform; /* a callback of node's platform is under way */
static bool has_own_send = true;
static bool skips; /* of the send that is kept back: its line comes as it is done */

bool force_skips(void) {
    bool is = skips;
    skips = false;
    return is;
}

bool force_sends(void) {
    return at_random || state != FORCING || has_own_send;
}

static bool is_same_word(const char *word, const char *function) {
    if (strcmp(word, "send") == 0) return strcmp(function, "uv_async_send") == 0;
    if (strcmp(word, "start") == 0) return strstr(function, "_start") != NULL;
    if (strcmp(word, "stop") == 0) return strstr(function, "_stop") != NULL;
    if (strcmp(word, "again") == 0) return strstr(function, "_again") != NULL;
    if (strcmp(word, "repeat") == 0) return strstr(function, "set_repeat") != NULL;
    return strncmp(function, "uv_", 3) == 0 && strcmp(word, function + 3) == 0;
}

/* Sends of V8's to its own handle, in front of what the program does now: they are done, and the clock goes on as the session has it behind them. */
static void pass_sends(const char *function) {
    const struct item *it;
    struct object *object;
    while (state == FORCING && (it = at_cursor()) && it->type == OP && strcmp(it->word, "send") == 0 && !is_same_word("send", function)
           && (object = platform_of(it->name))) {
        let_held_go(object);
        step_done();
        advance(false);
    }
}

/* In front of what the program asks of libuv. */
void force_before(const char *function) {
    if (!is_leader()) return;
    new_reads();
    if (at_random) {
        maybe_choose();
        return;
    }
    advance(false);
    pass_sends(function);
    const struct item *it = at_cursor();
    if (it && it->type == OP && it->answer && strcmp(it->answer, "ESTALE") == 0 && is_same_word(it->word, function)) {
        say("AT %d %s", it->step, it->text);
        say("STALE %s asks for %s, whose handle or request is gone", function, name_of(it->name));
        if (cursor == last_shown) stop_here();
        step_done();
    }
}

struct shown read_shown(const char *words) {
    struct shown shown = {.id = -1};
    const char *end = strstr(words, " = ");
    size_t length = end ? (size_t)(end - words) : strlen(words);
    char text[512];
    if (length > sizeof text - 1) length = sizeof text - 1;
    memcpy(text, words, length);
    text[length] = 0;
    snprintf(shown.answer, sizeof shown.answer, "%.60s", end ? end + 3 : "");
    char *next = strchr(text, ' ');
    if (next) *next++ = 0;
    snprintf(shown.word, sizeof shown.word, "%.60s", text);
    if (next && *next == '%') {
        shown.id = (int)strtol(next + 1, &next, 10);
        while (*next == ' ') next++;
    }
    snprintf(shown.rest, sizeof shown.rest, "%.250s", next ? next : "");
    return shown;
}

static bool is_made(const char *word) {
    return strcmp(word, "init") == 0 || strcmp(word, "queue") == 0;
}

static bool is_own_kind(const char *kind) {
    static const char *const KINDS[] = {"timer", "idle", "prepare", "check", "async"};
    for (size_t at = 0; at < 5; at++)
        if (strcmp(KINDS[at], kind) == 0) return true;
    return false;
}

bool is_nodes(int name, const char *handle) {
    return name >= 0 && strncmp(names[name].text, handle, strlen(handle)) == 0;
}

static bool is_soft(const struct item *item) {
    if (item->of_platform) return true;
    /* (the recorder sees some of what libuv does with a handle of I/O later) */
    return item->type == OP && item->name >= 0 && names[item->name].kind && !is_own_kind(names[item->name].kind)
        && strcmp(names[item->name].kind, "work") != 0 && !is_made(item->word);
}

static bool fits_op(const struct item *item, const struct shown *shown) {
    if (item->type != OP || strcmp(item->word, shown->word) != 0) return false;
    if (strcmp(item->word, "init") == 0)
        return strcmp(item->rest, shown->rest) == 0 || (strcmp(item->rest, "io") == 0 && !is_own_kind(shown->rest));
    if (strcmp(item->word, "queue") == 0) return true;
    if (item->name < 0) return shown->id < 0;
    return names[item->name].id == shown->id;
}

static const char *told_of(const struct shown *shown, char *room, size_t size) {
    int name = shown->id >= 0 ? name_by_id(shown->id) : -1;
    if (shown->id < 0) snprintf(room, size, "`%s`", shown->word);
    else if (name >= 0) snprintf(room, size, "`%s %s%s%s`", shown->word, name_of(name), *shown->rest ? " " : "", shown->rest);
    else snprintf(room, size, "`%s (a handle or request that the session doesn't have) %s`", shown->word, shown->rest);
    return room;
}

/* An op of the session that the program doesn't do. V8 sends to its own handle when it likes: then it is sent here. */
static bool passes_by(const struct item *it) {
    struct object *object = strcmp(it->word, "send") == 0 ? platform_of(it->name) : NULL;
    if (object) let_held_go(object);
    return object || is_soft(it);
}

/* The op of the session that this is, -1: none of the next ones. */
static int find_op(const struct shown *shown, bool is_own) {
    int found = -1;
    for (int at = cursor, seen = 0; at < item_count && seen < 12 && found < 0; at++) {
        if (is_outside(&items[at]) || items[at].type == SILENT) continue;
        if (items[at].type != OP) break;
        seen++;
        if (fits_op(&items[at], shown)) found = at;
    }
    /* (one of V8's that the session has behind something else comes there: the program's is kept back until then) */
    for (int at = cursor; is_own && found >= 0 && at < found; at++)
        if (items[at].type == OP && !is_soft(&items[at])) return -1;
    return found;
}

/* The program has made a handle or a request: from here on the session's name is its own. */
static void bind_name(struct name *name, const struct shown *shown) {
    static const char *const KINDS[] = {"timer", "idle", "prepare", "check", "async", "tcp", "udp", "pipe", "tty", "poll", "signal", "fs_event",
                                        "fs_poll", "process", "work"};
    struct object *object = object_by_id(shown->id);
    const char *kind = "pool";
    for (size_t at = 0; at < sizeof KINDS / sizeof *KINDS; at++)
        if (strcmp(KINDS[at], shown->rest) == 0) kind = KINDS[at];
    pthread_mutex_lock(&gate);
    name->id = shown->id;
    name->address = object ? object->address : NULL;
    name->kind = kind;
    pthread_mutex_unlock(&gate);
}

/* node has one timer for all of JavaScript's, and starts it anew where one of them is due sooner. What is due sooner goes by the clock, which a
 * session that find has found leaves as it is in the main program. */
static bool is_start_of_nodes(const struct shown *shown) {
    int name = strcmp(shown->word, "start") == 0 ? name_by_id(shown->id) : -1;
    return depth == 0 && is_nodes(name, "environment_runtimers");
}

static void did_op(const char *words) {
    struct shown shown = read_shown(words);
    int sent_to = strcmp(shown.word, "send") == 0 ? name_by_id(shown.id) : -1;
    bool is_own = sent_to >= 0 && platform_of(sent_to);
    has_own_send = false;
    char room[400];
    const struct item *it = at_cursor();
    if (!it) return;
    int found = find_op(&shown, is_own);
    has_own_send = found >= 0;
    skips = found < 0 && is_own;
    if (found < 0 && is_start_of_nodes(&shown))
        say("at step %d node starts its timer for %s ms once more: in the main program the session's clock stands still", it->step, shown.rest);
    else if (found < 0 && !is_own && !in_platform)
        depart("the program does %s, where the session has `%s`", told_of(&shown, room, sizeof room), it->text);
    if (found < 0) return;
    while (cursor < found && state == FORCING) {
        it = at_cursor();
        if (it->type == OP && !passes_by(it))
            depart("the program does %s, where the session has `%s` first", told_of(&shown, room, sizeof room), it->text);
        if (is_outside(it)) advance(false);
        else step_done();
    }
    if (state != FORCING || !(it = at_cursor())) return;
    if (is_made(it->word)) bind_name(&names[it->name], &shown);
    else if (strcmp(it->word, "start") == 0 && strcmp(it->rest, shown.rest) != 0 && !it->of_platform)
        depart("the program does %s, where the session has `%s`", told_of(&shown, room, sizeof room), it->text);
    if (!is_made(it->word) && it->answer && strcmp(it->answer, shown.answer) != 0)
        depart("`%s %s` answers %s in the program, and %s in the session", it->word, name_of(it->name), shown.answer, it->answer);
    if (cursor == last_shown) {
        say("AT %d %s", it->step, it->text);
        stop_here();
    }
    step_done();
}

/* The ops of the callback under way that didn't come. */
static void pass_ops(void) {
    const struct item *it;
    advance(false);
    while (state == FORCING && (it = at_cursor()) && it->type == OP) {
        if (!passes_by(it) && !(it->answer && strcmp(it->answer, "ESTALE") == 0))
            depart("the session has `%s` there, and the program doesn't do it", it->text);
        step_done();
        advance(false);
    }
}

void depart_for_good(const char *what, const struct item *it) {
    depart("the program has %s there, where the session has `%s`: from here on it runs freely", what, it ? it->text : "its end");
    set_free(NULL);
}

/* Callbacks of the platform's timers that the session has there, where the program goes on with another thing: `id`, `type`. */
static void pass_platform(int id, enum type type) {
    const struct item *it;
    while (state == FORCING && (it = at_cursor()) && it->type >= CALL_ON && it->type <= CALL_CLOSED && is_nodes(it->name, PLATFORM "_run")
           && (names[it->name].id != id || it->type != type)) {
        if (it->type != CALL_ON) names[it->name].id = -1;
        step_done();
        pass_ops();
        advance(true);
    }
}

static bool is_platforms(int id) {
    static struct {
        void *callback;
        bool is;
    } seen[64];
    struct object *object = id >= 0 ? object_by_id(id) : NULL;
    if (!object || !object->callback) return false;
    size_t at = ((uintptr_t)object->callback >> 4) % (sizeof seen / sizeof *seen);
    if (seen[at].callback != object->callback) seen[at].is = is_nodes_own(object->callback), seen[at].callback = object->callback;
    return seen[at].is;
}

static int early_id = -1; /* its close callback has begun with an earlier one */

static void began_callback(const char *words) {
    int id = -1;
    enum type type = CALL_ON;
    char what[128];
    if (strncmp(words, "on ", 3) == 0) id = atoi(words + 3);
    else if (strncmp(words, "after ", 6) == 0) id = atoi(words + 6), type = CALL_AFTER;
    else if (strncmp(words, "closed ", 7) == 0) id = atoi(words + 7), type = CALL_CLOSED;
    if ((type == CALL_CLOSED || type == CALL_ON) && id == early_id) return;
    pass_ops();
    advance(true);
    pass_platform(id, type);
    in_platform = is_platforms(id);
    const struct item *it = at_cursor();
    if (state != FORCING || !it) return;
    int name = name_by_id(id);
    if (type == CALL_ON && it->type == CALL_CLOSED && name == it->name && name >= 0) early_id = id, type = CALL_CLOSED;
    if (it->type == type && name == it->name && name >= 0) {
        if (type != CALL_ON) names[name].id = -1;
        if (cursor == last_shown) {
            say("AT %d %s", it->step, it->text);
            stop_here();
        }
        step_done();
        return;
    }
    /* (one of the platform's timers, which the session doesn't have there) */
    if (in_platform && (name < 0 || is_nodes(name, PLATFORM "_run"))) return;
    snprintf(what, sizeof what, "the %scallback of %s", type == CALL_AFTER ? "after " : type == CALL_CLOSED ? "close " : "",
             name >= 0 ? name_of(name) : "a handle that the session doesn't have");
    depart_for_good(what, it);
}

static void began_poll(long timeout) {
    pass_ops();
    advance(true);
    pass_platform(-1, CALL_ON);
    const struct item *it = at_cursor();
    if (state != FORCING || !it) return;
    if (it->type != POLL) {
        depart_for_good("a poll", it);
        return;
    }
    if (it->number != timeout) say("at step %d the poll may wait %ld ms in the program, and %ld in the session", it->step, timeout, it->number);
    step_done();
}

static void began_run(void) {
    pass_ops();
    const struct item *it = at_cursor();
    if (state == FORCING && it && it->type == RUN) step_done();
    else if (state == FORCING && it) depart_for_good("uv_run", it);
}

static void ended_run(void) {
    behind_poll = false;
    pass_ops();
    advance(true);
    pass_platform(-1, CALL_ON);
    const struct item *it = at_cursor();
    if (state == FORCING && it && it->type == END) step_done();
    else if (state == FORCING && it) depart_for_good("the end of its run", it);
    advance(false);
}

/* A line of the log, at which something is shown. */
void force_event(struct loop *loop, char type, const char *words) {
    if (state != FORCING || loop != forced || !is_leader()) return;
    new_reads();
    look_for_rounds(type, words);
    if (at_random) {
        random_event(type, words);
        return;
    }
    /* (a run in the callback of the last step) */
    if (cursor == item_count && strchr("RPr", type)) set_free(NULL);
    int held = unlock_all();
    switch (type) {
    case 'O': did_op(words); break;
    case 'B':
        behind_poll = false;
        if (depth++ == 0) began_callback(words);
        break;
    case 'E':
        if (--depth == 0) in_platform = false, advance(false);
        if (depth == 0 && cursor == item_count) set_free(NULL);
        break;
    case 'R': began_run(); break;
    case 'P': began_poll(atol(words)); break;
    case 'r': ended_run(); break;
    default: break;
    }
    lock_again(held);
}
