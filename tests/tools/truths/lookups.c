/* Six lookups, of which libuv has two at a time done by its four workers. */
#define _GNU_SOURCE
#include <netdb.h>
#include "truth.h"
static uv_getaddrinfo_t look[6];
static uint64_t asked;
int getaddrinfo(const char *node, const char *service, const struct addrinfo *hints, struct addrinfo **found) {
    (void)node, (void)service, (void)hints;
    usleep(60000);
    *found = NULL;
    return EAI_NONAME;
}
static void on_look(uv_getaddrinfo_t *request, int status, struct addrinfo *found) {
    char name[20];
    (void)status, (void)found;
    snprintf(name, sizeof name, "look_%d", (int)(request - look));
    waited(name, "lookup", asked);
}
int main(void) {
    uv_loop_t *loop = uv_default_loop();
    asked = uv_hrtime();
    for (int it = 0; it < 6; it++) uv_getaddrinfo(loop, &look[it], on_look, "shop.example", NULL, NULL);
    return uv_run(loop, UV_RUN_DEFAULT);
}
