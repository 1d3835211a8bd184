// Runs scripts on the installed libuv, each behind a line `### NAME` that is printed in front of its lines:
//   libuv-run INPUT OUTPUT
// UV_THREADPOOL_SIZE says how many workers there are; it has to be what each script says. What stands behind a script's `begin`:
//   at LINES LOOKS STEP   the step from outside (tick MS, take K, finish K, send NAME, cancel NAME, io NAME ..) is done as soon as so
//                         many lines are printed, and the library has looked so many times at the clock since the last of them. `io`
//                         brings something for each of these handles, in this order, in the poll under way or the next one; a point in
//                         place of a name says where among them the after and async callbacks come
//   blocked WAY ..        what is tried where the poll waits: `jobs` (a worker takes, or finishes; `jobs-down` the last that can),
//                         `jump` (to the poll's deadline), `steps` (the next step, though it isn't due)
//   undisturbed runs      a step that is due behind the line of a run is done behind the next line
//   limit N               the script ends when so many lines are printed
// Behind a script's lines stands why it ended.
#define _GNU_SOURCE
#include <stdlib.h>
#include <string.h>
#include <sys/resource.h>
#include <unistd.h>

#include "pool.h"
#include "run.h"

Run run;

static const char *const endings[] = {"", "refused ended", "refused blocked", "limit", "the loop is closed"};

static void fail(const char *what) {
    fprintf(stderr, "libuv-run: %s\n", what);
    _exit(1);
}

static void do_main(void) {
    do_due_steps(false);
    for (size_t at = 0; at < run.script.main.count; at++)
        do_op(&run.script.main.items[at]);
}

// A loop that is left in the middle of a run: its memory stays, its files are closed.
static void leave_loop(void) {
    uv_loop_t *loop = run.loop;
    if (loop == NULL)
        return;
    close(loop->backend_fd);
    close(loop->async_io_watcher.fd);
    if (loop->signal_pipefd[0] > STDERR_FILENO) {
        close(loop->signal_pipefd[0]);
        close(loop->signal_pipefd[1]);
    }
}

static void run_script(void) {
    run.loop = calloc(1, sizeof *run.loop);
    if (run.script.workers != run.workers)
        fail("a script asks for another number of workers than UV_THREADPOOL_SIZE says");
    run.clock = run.lines = run.looks = run.came_count = 0;
    run.quiet = true;
    watch(true);
    if (run.loop == NULL || uv_loop_init(run.loop) != 0)
        fail("the library makes no loop");
    run.quiet = false;
    run.looks = 0;
    volatile int ending = setjmp(run.ending);
    if (ending == 0) {
        do_main();
        ending = ENDED;
    }
    watch(false);
    fprintf(run.output, "%s\n", endings[ending]);
    drain_pool();
    leave_loop();
    clear_slots();
}

static void run_all(FILE *input) {
    char line[LINE_ROOM];
    bool any = false;
    clear_script(&run.script);
    while (fgets(line, sizeof line, input) != NULL) {
        line[strcspn(line, "\n")] = '\0';
        if (strncmp(line, "### ", 4) == 0) {
            if (any)
                run_script();
            clear_script(&run.script);
            any = true;
            fprintf(run.output, "%s\n", line);
        } else if (!read_line(&run.script, line)) {
            fail(line);
        }
    }
    if (any)
        run_script();
}

void run_files(const char *input_path, const char *output_path) {
    struct rlimit files;
    const char *workers = getenv("UV_THREADPOOL_SIZE");
    FILE *input = fopen(input_path, "r");
    run.output = fopen(output_path, "w");
    if (input == NULL || run.output == NULL)
        fail("a file can't be opened");
    if (getrlimit(RLIMIT_NOFILE, &files) == 0) {
        files.rlim_cur = files.rlim_max;
        setrlimit(RLIMIT_NOFILE, &files);
    }
    run.workers = workers == NULL ? 4 : (size_t)atol(workers);
    seat_workers(run.workers);
    run_all(input);
    if (fclose(run.output) != 0)
        fail("the output can't be written");
    // (the library would wait for its workers, which are held for good)
    _exit(0);
}
