/* Places in JavaScript: a function, or a line of one. Each is written into the log once, with its number. */
#define _GNU_SOURCE
#include "javascript.h"

#include <stdio.h>
#include <stdlib.h>
#include <string.h>

enum { FUNCTION = 7, TEXT = 1000, FEW = 5, FRAMES = 30, BUCKETS = 4096, DETAILED = 0xFF, CHAIN = 4 };

V8(isolate_here, "_ZN2v87Isolate10GetCurrentEv", void *, void)
V8(function_script, "_ZNK2v88Function8ScriptIdEv", int, napi_value)
V8(function_line, "_ZNK2v88Function19GetScriptLineNumberEv", int, napi_value)
V8(function_column, "_ZNK2v88Function21GetScriptColumnNumberEv", int, napi_value)
V8(function_origin, "_ZNK2v88Function15GetScriptOriginEv", void *, void **, napi_value)
V8(stack_now, "_ZN2v810StackTrace17CurrentStackTraceEPNS_7IsolateEiNS0_17StackTraceOptionsE", napi_value, void *, int, int)
V8(stack_count, "_ZNK2v810StackTrace13GetFrameCountEv", int, napi_value)
V8(stack_frame, "_ZNK2v810StackTrace8GetFrameEPNS_7IsolateEj", napi_value, napi_value, void *, unsigned)
V8(frame_script, "_ZNK2v810StackFrame11GetScriptIdEv", int, napi_value)
/* (its line, from 0, and its column: two numbers in one word) */
V8(frame_where, "_ZNK2v810StackFrame11GetLocationEv", uint64_t, napi_value)
V8(frame_file, "_ZNK2v810StackFrame13GetScriptNameEv", napi_value, napi_value)
V8(frame_function, "_ZNK2v810StackFrame15GetFunctionNameEv", napi_value, napi_value)
V8(stack_sample, "_ZN2v87Isolate14GetStackSampleERKNS_13RegisterStateEPPvmPNS_10SampleInfoE", void, void *, void *, void **, size_t, void *)
#define AFTER "_ZN2v87Isolate21AddGCEpilogueCallbackEPFvPS0_NS_6GCTypeENS_15GCCallbackFlagsEES2_"
V8(after_collection, AFTER, void, void *, void (*)(void *, int, int), int)

struct place {
    struct place *next;
    napi_env env;
    int script, line, column, number;
    bool own; /* of node, or of the hook */
};

static struct place *places[BUCKETS];
static int place_count;

int new_place_number(void) {
    return place_count++;
}

static struct place **place_at(napi_env env, int script, int line, int column) {
    uint64_t mixed = ((uint64_t)(unsigned)script << 40 ^ (uint64_t)(unsigned)line << 12 ^ (unsigned)column ^ (uintptr_t)env) * 0x9E3779B97F4A7C15u;
    struct place **at = &places[(mixed >> 32) & (BUCKETS - 1)];
    while (*at && ((*at)->env != env || (*at)->script != script || (*at)->line != line || (*at)->column != column)) at = &(*at)->next;
    return at;
}

void copy_word(char *word, size_t size, const char *text) {
    size_t at = 0;
    for (; text[at] && at + 1 < size; at++) word[at] = text[at] == ' ' || text[at] == '\n' ? '_' : text[at];
    word[at] = 0;
}

static void get_text(napi_env env, napi_value value, char *text, size_t size) {
    *text = 0;
    if (value && napi_get_value_string_utf8(env, value, text, size, NULL) != 0) *text = 0;
    copy_word(text, size, text);
}

int place_named(const char *name, const char *file, int line) {
    int number = new_place_number();
    if (!*name) name = "(anonymous)";
    if (*file) write_line(NULL, 'J', "place %d %s %s:%d", number, name, file, line);
    else write_line(NULL, 'J', "place %d %s -", number, name);
    return number;
}

static struct place *new_place(struct place **at, napi_env env, int script, int line, int column, const char *name, const char *file) {
    struct place *place = calloc(1, sizeof *place);
    if (!place) return NULL;
    bool own = strncmp(file, "node:", 5) == 0 || strstr(file, "/record/node/hook.js");
    *place = (struct place){.env = env, .script = script, .line = line, .column = column, .number = place_named(name, file, line), .own = own};
    *at = place;
    return place;
}

/* (What V8 answers of its script begins with the isolate in some versions; then comes the name.) */
int place_of(napi_env env, napi_value function) {
    char name[TEXT], file[TEXT] = "";
    int type = 0;
    napi_value named = NULL;
    if (napi_typeof(env, function, &type) != 0 || type != FUNCTION) return -1;
    int script = function_script() ? function_script()(function) : -1;
    int line = function_line() ? function_line()(function) + 1 : 0, column = function_column() ? function_column()(function) : 0;
    /* (a function of V8's, as one that is bound, has a name alone) */
    bool placed = script > 0 && line > 0;
    struct place **at = placed ? place_at(env, script, line, column + 1) : NULL;
    if (at && *at) return (*at)->number;
    napi_get_named_property(env, function, "name", &named);
    get_text(env, named, name, sizeof name);
    if (placed && function_origin() && isolate_here()) {
        void *origin[32] = {0};
        function_origin()(origin, function);
        get_text(env, origin[0] == isolate_here()() ? origin[1] : origin[0], file, sizeof file);
    }
    if (!placed) {
        int mixed = 0;
        for (const char *it = name; *it; it++) mixed = (mixed * 31 + *it) & 0xFFFFFF;
        at = place_at(env, -2, mixed, 0);
        if (*at) return (*at)->number;
        script = -2, line = mixed, column = -1;
    }
    struct place *place = new_place(at, env, script, line, column + 1, name, file);
    return place ? place->number : -1;
}

/* ---- where JavaScript is */

/* The place of a frame. (Two functions may stand in one line: the column tells them.) */
static struct place *place_of_frame(napi_env env, napi_value frame) {
    int script = frame_script()(frame), line = (int)(uint32_t)frame_where()(frame) + 1, column = -2 - (int)(frame_where()(frame) >> 32);
    struct place **at = place_at(env, script, line, column);
    if (*at) return *at;
    char name[TEXT], file[TEXT];
    get_text(env, frame_function()(frame), name, sizeof name);
    get_text(env, frame_file()(frame), file, sizeof file);
    return new_place(at, env, script, line, column, name, file);
}

/* Of these frames the innermost ones that are the program's own, as text, `8<12<20`; node's where there is none. Which of them is the first one.
 * False where there is none, and there may be more frames. */
static bool own_places(napi_env env, void *isolate, int most, int *which, char *found) {
    napi_value stack = stack_now()(isolate, most, DETAILED);
    int count = stack ? stack_count()(stack) : 0, own = 0, length = 0;
    for (*which = 0; *which < count && own < CHAIN; ++*which) {
        struct place *place = place_of_frame(env, stack_frame()(stack, isolate, (unsigned)*which));
        if (!place) return true;
        if (place->own && own) continue;
        length += snprintf(found + (own ? length : 0), (size_t)(CHAIN_TEXT - length), own ? "<%d" : "%d", place->number);
        if (!own) length = (int)strlen(found);
        own += !place->own;
    }
    return own || count < most;
}

/* The place is the same where the same instructions are under way, as long as V8 moves no code: that it does as it collects garbage, and
 * not for the young. One of V8's frames may stand for several of JavaScript, and the native function that such a one has called may have
 * one of its own: so twice as many instructions as frames tell these frames. */
enum { KEPT = 1024, INSTRUCTIONS = 2 * (FEW + 1), YOUNG = 1, WORDS_OF_A_SAMPLE = 16 };

struct kept {
    size_t count;
    void *instructions[INSTRUCTIONS];
    char places[CHAIN_TEXT];
};

static __thread struct kept *kept_here; /* of this thread, and so of one isolate; a place of count 0 is free */

static void forget_kept(void *isolate, int type, int flags) {
    (void)isolate, (void)type, (void)flags;
    if (kept_here) memset(kept_here, 0, KEPT * sizeof *kept_here);
}

/* Where these instructions are kept; NULL where V8 can't tell them. */
static struct kept *kept_for(void *isolate, struct kept *now) {
    if (!stack_sample() || !after_collection()) return NULL;
    if (!kept_here) {
        kept_here = calloc(KEPT, sizeof *kept_here);
        if (!kept_here) return NULL;
        after_collection()(isolate, forget_kept, ~YOUNG);
    }
    void *registers[WORDS_OF_A_SAMPLE] = {(void *)kept_for, __builtin_frame_address(0), __builtin_frame_address(0)};
    size_t sample[WORDS_OF_A_SAMPLE] = {0};
    stack_sample()(isolate, registers, now->instructions, INSTRUCTIONS, sample);
    now->count = sample[0];
    uint64_t mixed = 0;
    for (size_t at = 0; at < now->count; at++) mixed = (mixed ^ (uintptr_t)now->instructions[at]) * 0x9E3779B97F4A7C15u;
    return now->count ? &kept_here[(mixed >> 40) & (KEPT - 1)] : NULL;
}

void look_up_places(void) {
    (void)isolate_here(), (void)function_script(), (void)function_line(), (void)function_column(), (void)function_origin(), (void)stack_now();
    (void)stack_count(), (void)stack_frame(), (void)frame_script(), (void)frame_where(), (void)frame_file(), (void)frame_function();
    (void)stack_sample(), (void)after_collection();
}

void places_now(napi_env env, char *found) {
    napi_scope scope;
    int which = 0;
    strcpy(found, "-1");
    if (!stack_now() || !stack_count() || !stack_frame() || !frame_script() || !frame_where() || !frame_file() || !frame_function()) return;
    void *isolate = isolate_here() ? isolate_here()() : NULL;
    if (!isolate) return;
    struct kept now = {0}, *kept = kept_for(isolate, &now);
    if (kept && kept->count == now.count && memcmp(kept->instructions, now.instructions, now.count * sizeof(void *)) == 0) {
        strcpy(found, kept->places);
        return;
    }
    if (napi_open_handle_scope(env, &scope) != 0) return;
    /* (mostly a few frames are enough, and each costs) */
    if (!own_places(env, isolate, FEW, &which, found)) own_places(env, isolate, FRAMES, &which, found);
    napi_close_handle_scope(env, scope);
    memcpy(now.places, found, CHAIN_TEXT);
    if (kept && (now.count < INSTRUCTIONS || which <= FEW)) *kept = now;
}

int place_now(napi_env env) {
    char found[CHAIN_TEXT];
    places_now(env, found);
    return atoi(found);
}
