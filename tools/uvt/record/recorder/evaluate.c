/* A program in node that runs already: the hook (node/hook.js) comes into it by a script, which is run where a loop with JavaScript polls for the
 * first time since. There no JavaScript is under way in its thread, and nothing of the loop is written yet. */
#define _GNU_SOURCE
#include "javascript.h"

#include <string.h>

V8(isolate_here, "_ZN2v87Isolate13TryGetCurrentEv", void *, void)
V8(is_in_context, "_ZN2v87Isolate9InContextEv", bool, void *)
V8(context_of, "_ZN2v87Isolate17GetCurrentContextEv", void *, void *)
V8(open_scope, "_ZN2v811HandleScopeC1EPNS_7IsolateE", void, void *, void *)
V8(close_scope, "_ZN2v811HandleScopeD1Ev", void, void *)
V8(new_text, "_ZN2v86String11NewFromUtf8EPNS_7IsolateEPKcNS_13NewStringTypeEi", void *, void *, const char *, int, int)
#define COMPILE "_ZN2v86Script7CompileENS_5LocalINS_7ContextEEENS1_INS_6StringEEEPNS_12ScriptOriginE"
V8(compile, COMPILE, void *, void *, void *, void *)
V8(run, "_ZN2v86Script3RunENS_5LocalINS_7ContextEEE", void *, void *, void *)

/* (a scope has three words. The script lets no fault through) */
bool run_script(const char *script) {
    if (!isolate_here() || !is_in_context() || !context_of() || !open_scope() || !close_scope() || !new_text() || !compile() || !run()) return false;
    void *isolate = isolate_here()(), *scope[8];
    if (!isolate || !is_in_context()(isolate)) return false;
    open_scope()(scope, isolate);
    void *context = context_of()(isolate), *text = new_text()(isolate, script, 0, (int)strlen(script));
    void *compiled = context && text ? compile()(context, text, NULL) : NULL;
    bool done = compiled && run()(compiled, context);
    close_scope()(scope);
    return done;
}
