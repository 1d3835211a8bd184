/* What the recorder has of node: its interface for modules (node_api.h), whose binary form doesn't change, and V8's exported methods.
 *
 * No other program has any of these. node's functions are weak, and missing there; V8's are looked up by their names, and what rests on one
 * that is missing isn't said. */
#ifndef JAVASCRIPT_H
#define JAVASCRIPT_H

#include "recorder.h"

#include <dlfcn.h>
#include <signal.h>

typedef struct env *napi_env;
typedef struct value *napi_value;
typedef struct info *napi_callback_info;
typedef struct scope *napi_scope;
#define NODE __attribute__((weak)) extern int
NODE napi_create_function(napi_env, const char *, size_t, napi_value (*)(napi_env, napi_callback_info), void *, napi_value *);
NODE napi_set_named_property(napi_env, napi_value, const char *, napi_value);
NODE napi_get_named_property(napi_env, napi_value, const char *, napi_value *);
NODE napi_get_cb_info(napi_env, napi_callback_info, size_t *, napi_value *, napi_value *, void **);
NODE napi_create_string_utf8(napi_env, const char *, size_t, napi_value *);
NODE napi_get_value_string_utf8(napi_env, napi_value, char *, size_t, size_t *);
NODE napi_get_value_int64(napi_env, napi_value, int64_t *);
NODE napi_create_int64(napi_env, int64_t, napi_value *);
NODE napi_get_uv_event_loop(napi_env, uv_loop_t **);
NODE napi_typeof(napi_env, napi_value, int *);
NODE napi_open_handle_scope(napi_env, napi_scope *);
NODE napi_close_handle_scope(napi_env, napi_scope);
NODE napi_add_env_cleanup_hook(napi_env, void (*)(void *), void *);

#pragma GCC visibility push(hidden)

/* A name of V8's that this node lacks: the log has each once (node.c). */
void lacks(const char *symbol);

/* A method of V8's: a value's gets the place at which the value stands. */
#define V8(NAME, SYMBOL, ANSWER, ...)                                                  \
    static ANSWER (*NAME(void))(__VA_ARGS__) {                                         \
        static ANSWER (*found)(__VA_ARGS__);                                           \
        static bool is_missing;                                                        \
        if (found || is_missing) return found;                                         \
        found = (ANSWER(*)(__VA_ARGS__))dlsym(RTLD_DEFAULT, SYMBOL);                   \
        is_missing = !found;                                                           \
        if (is_missing) lacks(SYMBOL);                                                 \
        return found;                                                                  \
    }

/* The node of this thread, if the hook is there (node.c). */
extern __thread napi_env env_here;

/* ---- places (places.c): a function, or a line of one, each once, with a number */

/* A name or a file as it stands in a line: without a space. */
void copy_word(char *word, size_t size, const char *text);
/* A function: where its source begins. -1 where it is none. */
int place_of(napi_env env, napi_value function);
/* A function of which the name, the file and the line are known alone; "" is no file. */
int place_named(const char *name, const char *file, int line);
/* Looks up all that is needed for that, so that it is known at once what is missing. */
void look_up_places(void);
/* Where JavaScript is: the program's own line, above which there may be node's; node's where there is none; -1 where it isn't under way. */
int place_now(napi_env env);
/* The same with who called that, as far as the program's functions are near: `8<12<20`. */
enum { CHAIN_TEXT = 48 };
void places_now(napi_env env, char *found);

/* ---- looks (looks.c): which functions are under way, a look each millisecond */

/* From here on, in this thread. */
void begin_looks(napi_env env);
/* The last of them are written, and no more are taken. */
void end_looks(void);
/* Is this thread looked at? */
bool is_looked_at(void);
/* Whoever waits until it is time for the next ones waits no longer. */
void look_now(void);
/* (looks_ends.c) SIGINT, SIGTERM and SIGHUP end the program when its looks are written, where it has nobody of its own for them. A second one ends
 * it at once. */
void look_before_signals(struct loop *loop);
/* The signal that ends it, 0: none has come; and it does. */
extern volatile sig_atomic_t ended_by;
void end_by_signal(void);

/* ---- garbage (collector.c): when V8 collects it */

/* Looks up all that is needed for that. */
void look_up_collections(void);
/* From here on, in this thread. */
void begin_collections(void *isolate);
/* Those that were since the last ones that were written; with the lock held. */
void write_collections(struct loop *loop);

#pragma GCC visibility pop

#endif
