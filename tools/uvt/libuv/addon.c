// The same inside node, on the library that is a part of it. The addon is loaded in front of the C library as well (LD_PRELOAD),
// since the clock, the poll and the lock of the pool have to be this one's.
#include <node_api.h>
#include <stdlib.h>
#include <uv.h>

void run_files(const char *input_path, const char *output_path);

static napi_value run(napi_env env, napi_callback_info info) {
    size_t count = 2;
    napi_value words[2];
    char paths[2][4096];
    napi_get_cb_info(env, info, &count, words, NULL, NULL);
    for (int at = 0; at < 2; at++)
        if (napi_get_value_string_utf8(env, words[at], paths[at], sizeof paths[at], NULL) != napi_ok)
            abort();
    run_files(paths[0], paths[1]);
    return NULL;
}

NAPI_MODULE_INIT() {
    napi_value function;
    napi_create_function(env, "run", NAPI_AUTO_LENGTH, run, NULL, &function);
    napi_set_named_property(env, exports, "run", function);
    return exports;
}
