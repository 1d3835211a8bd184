/* So many loops are made, run and closed: loops [COUNT]. It says by how many kB its own memory grew from the first hundred on. */
#include <stdio.h>
#include <stdlib.h>
#include <string.h>
#include <uv.h>

static long anonymous(void) {
    FILE *file = fopen("/proc/self/status", "r");
    char line[128];
    long found = 0;
    while (file && fgets(line, sizeof line, file))
        if (strncmp(line, "RssAnon:", 8) == 0) found = atol(line + 8);
    if (file) fclose(file);
    return found;
}

static void on_timer(uv_timer_t *timer) {
    uv_close((uv_handle_t *)timer, NULL);
}

int main(int count, char **words) {
    int loops = count > 1 ? atoi(words[1]) : 2000;
    long before = 0;
    for (int at = 0; at < loops; at++) {
        uv_loop_t loop;
        uv_timer_t timer;
        if (at == 100) before = anonymous();
        if (uv_loop_init(&loop)) return 1;
        uv_timer_init(&loop, &timer);
        uv_timer_start(&timer, on_timer, 0, 0);
        uv_run(&loop, UV_RUN_DEFAULT);
        if (uv_loop_close(&loop)) return 2;
    }
    printf("%ld kB more\n", anonymous() - before);
    return 0;
}
