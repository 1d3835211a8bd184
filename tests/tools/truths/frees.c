/* A callback that frees a long list. */
#include "truth.h"
static uv_timer_t drop, beat;
static struct node { struct node *next; char text[40]; } *list;
static int beats;
static void drop_list(void) {
    for (struct node *next; list; list = next) next = list->next, free(list);
}
static void on_drop(uv_timer_t *timer) {
    uint64_t begin = uv_hrtime(), processor = processor_ns();
    drop_list();
    all_of_it("drop", begin, processor);
    uv_close((uv_handle_t *)timer, NULL);
}
static void on_beat(uv_timer_t *timer) {
    if (++beats == 4) uv_close((uv_handle_t *)timer, NULL);
}
int main(void) {
    static char room[4096];
    uv_loop_t *loop = uv_default_loop();
    /* (else what it says wants memory behind all that was freed) */
    setvbuf(stdout, room, _IOFBF, sizeof room);
    for (int it = 0; it < 3000000; it++) {
        struct node *node = malloc(sizeof *node);
        node->next = list, list = node;
    }
    uv_timer_init(loop, &drop);
    uv_timer_init(loop, &beat);
    uv_timer_start(&drop, on_drop, 20, 0);
    uv_timer_start(&beat, on_beat, 30, 30);
    return uv_run(loop, UV_RUN_DEFAULT);
}
