/* All is given back when its time is over, though a name may be looked up yet. */
#include <stdio.h>
#include <stdlib.h>
#include <uv.h>
struct client { uv_getaddrinfo_t lookup; int known; };
static struct client *client;
static void on_resolved(uv_getaddrinfo_t *r, int status, struct addrinfo *found) {
    struct client *mine = r->data;
    mine->known = status == 0;
    uv_freeaddrinfo(found);
}
static void on_stop(uv_timer_t *t) {
    printf("known %d\n", client->known);
    free(client);
    uv_close((uv_handle_t *)t, NULL);
}
int main(void) {
    uv_loop_t *l = uv_default_loop();
    uv_timer_t stop;
    struct addrinfo numeric = {.ai_flags = AI_NUMERICHOST};
    client = calloc(1, sizeof *client);
    client->lookup.data = client;
    uv_timer_init(l, &stop);
    uv_timer_start(&stop, on_stop, 400, 0);
    uv_getaddrinfo(l, &client->lookup, on_resolved, "127.0.0.1", NULL, &numeric);
    uv_run(l, UV_RUN_DEFAULT);
    return 0;
}
