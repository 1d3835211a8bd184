/* The loop of idle handles in C, for what a step costs beside the program: the same lists in slots with links both ways, the same refusals,
 * a check for growth before each step, a record of each that takes it back, and the same lines. It reads the sessions of
 * tests/costs/instructions that have idle handles alone (`slots N`, `var`, `init`, `start` and `run default` of the main program, `begin`,
 * `loop N`, `back N`, `forward N`), as `idle debug`, and writes what the program writes for them. It trusts its own pointers, and nothing of
 * it is proved.
 *
 *   cc -O2 -o idle tests/costs/idle.c && ./idle debug < session */
#include <stdint.h>
#include <stdio.h>
#include <stdlib.h>
#include <string.h>
#include <unistd.h>

enum { NONE = UINT32_MAX, MOST_STEPS = 16777216, MOST_NAMES = 70000, NAME = 16, ROOM = 65536 };
enum section { TIMERS, PENDING, IDLE, PREPARE, POLL, DONE, ASYNC, CHECK, CLOSING, SECTIONS };
enum list { ON_NONE, ON_IDLE, ON_YET, LISTS };
enum what { INIT, START, RUN, SECTION, CALL };

struct slot {
    uint32_t prev, next, name;
    uint8_t chain, active, referenced, closing;
};
struct ends {
    uint32_t head, tail;
};
/* where the loop stands: in the main program, or in which section of the run, and whether it calls that section's handles */
struct place {
    uint32_t main;
    uint8_t running, section, calls;
};
struct line {
    uint32_t what, of, slot;
};
/* what takes a step back: where the loop stood, and the slot that moved with how often it had been called */
struct record {
    struct place place;
    uint32_t slot, count, used;
};

static char names[MOST_NAMES][NAME];
static uint32_t count_of[MOST_NAMES], bound[MOST_NAMES];
static struct slot *slots;
static uint32_t capacity = 1024, used, active, name_count, op_count, op_room;
static struct line *ops;
/* a list is a chain of slots, and which one follows from its name: to move a whole list to an empty one two names change places */
static struct ends chains[LISTS] = {{NONE, NONE}, {NONE, NONE}, {NONE, NONE}};
static uint8_t chain_of[LISTS] = {ON_NONE, ON_IDLE, ON_YET};
static struct place place;
static struct line *lines;
static struct record *records;
static size_t steps, standing, room;
static char out[ROOM];
static size_t filled;

static void flush(void) {
    for (size_t at = 0; at < filled;) {
        ssize_t n = write(1, out + at, filled - at);
        if (n <= 0) exit(4);
        at += (size_t)n;
    }
    filled = 0;
}

static void text(const char *words, size_t n) {
    memcpy(out + filled, words, n);
    filled += n;
}

static void number(uint64_t n) {
    char digits[20];
    size_t at = sizeof digits;
    do digits[--at] = (char)('0' + n % 10); while (n /= 10);
    text(digits + at, sizeof digits - at);
}

static void word(const char *words) { text(words, strlen(words)); }

static void print(struct line line) {
    static const char *const said[SECTIONS] = {"timers", "pending", "idle", "prepare", "poll 0", "done", "async", "check", "closing"};
    if (filled + 100 > ROOM) flush();
    switch (line.what) {
    case INIT: word("init "), word(names[line.of]), word(" idle = "), number(line.slot), word(".0"); break;
    case START: word("start "), word(names[line.of]), word(" = ok"); break;
    case RUN: word("run default"); break;
    case SECTION: word(said[line.of]); break;
    default: word("call "), word(names[line.of]), word(" "), number(line.slot), word(".0");
    }
    word("\n");
}

static void push_back(uint8_t list, uint32_t at) {
    struct ends *ends = &chains[chain_of[list]];
    slots[at].prev = ends->tail, slots[at].next = NONE, slots[at].chain = chain_of[list];
    if (ends->tail == NONE) ends->head = at; else slots[ends->tail].next = at;
    ends->tail = at;
}

static void push_front(uint8_t list, uint32_t at) {
    struct ends *ends = &chains[chain_of[list]];
    slots[at].next = ends->head, slots[at].prev = NONE, slots[at].chain = chain_of[list];
    if (ends->head == NONE) ends->tail = at; else slots[ends->head].prev = at;
    ends->head = at;
}

static void unlink_slot(uint32_t at) {
    struct slot slot = slots[at];
    struct ends *ends = &chains[slot.chain];
    if (slot.prev == NONE) ends->head = slot.next; else slots[slot.prev].next = slot.next;
    if (slot.next == NONE) ends->tail = slot.prev; else slots[slot.next].prev = slot.prev;
    slots[at].chain = ON_NONE;
}

static void change_names(void) {
    uint8_t yet = chain_of[ON_YET];
    chain_of[ON_YET] = chain_of[ON_IDLE], chain_of[ON_IDLE] = yet;
}

/* a step of the main program */
static struct line in_main(struct record *record) {
    struct line op = ops[place.main++];
    if (op.what == INIT) {
        op.slot = used++;
        slots[op.slot] = (struct slot){NONE, NONE, op.of, ON_NONE, 0, 1, 0};
        bound[op.of] = op.slot;
    } else if (op.what == START) {
        record->slot = bound[op.of];
        slots[record->slot].active = 1, active++;
        push_front(ON_IDLE, record->slot);
    } else {
        place.running = 1, place.section = TIMERS;
    }
    return op;
}

/* a step of the run: the front of the section's list is called, or the next section begins */
static struct line in_run(struct record *record) {
    uint32_t at = chains[chain_of[ON_YET]].head;
    if (place.calls && at != NONE) {
        uint32_t name = slots[at].name;
        unlink_slot(at);
        push_back(ON_IDLE, at);
        record->slot = at, record->count = count_of[name];
        count_of[name]++;
        return (struct line){CALL, name, at};
    }
    uint8_t section = place.section;
    place.calls = section == IDLE;
    if (place.calls) change_names();
    place.section = section + 1 == SECTIONS ? TIMERS : section + 1;
    return (struct line){SECTION, section, 0};
}

static int refused(void) {
    if (steps >= MOST_STEPS) return 1;
    if (!place.running && place.main >= op_count) return 1;
    return place.running && active == 0;
}

static int grown(void) {
    if (steps < room) return 1;
    size_t more = room ? 2 * room : 64;
    struct line *l = realloc(lines, more * sizeof *lines);
    if (l) lines = l;
    struct record *r = realloc(records, more * sizeof *records);
    if (r) records = r;
    if (!l || !r) return 0;
    room = more;
    return 1;
}

static int step(void) {
    if (refused() || !grown()) return 0;
    struct record *record = &records[steps];
    record->place = place, record->used = used, record->slot = NONE;
    struct line line = place.running ? in_run(record) : in_main(record);
    lines[steps++] = line;
    return 1;
}

static void back(void) {
    struct record *record = &records[--steps];
    struct line line = lines[steps];
    if (line.what == CALL) {
        unlink_slot(record->slot);
        push_front(ON_YET, record->slot);
        count_of[line.of] = record->count;
    } else if (line.what == START) {
        unlink_slot(record->slot);
        slots[record->slot].active = 0, active--;
    } else if (line.what == SECTION && line.of == IDLE) {
        change_names();
    }
    used = record->used;
    place = record->place;
}

static uint32_t named(const char *name) {
    for (uint32_t n = 0; n < name_count; n++)
        if (!strcmp(names[n], name)) return n;
    exit(2);
}

static void op(uint32_t what, uint32_t of) {
    if (op_count == op_room) ops = realloc(ops, (op_room = 2 * op_room + 64) * sizeof *ops);
    if (!ops) exit(4);
    ops[op_count++] = (struct line){what, of, 0};
}

static void read_script(void) {
    char given[100], name[NAME];
    while (fgets(given, sizeof given, stdin)) {
        if (sscanf(given, "slots %u", &capacity) == 1) continue;
        if (sscanf(given, "var %15s", name) == 1 && name_count < MOST_NAMES) strcpy(names[name_count++], name);
        else if (sscanf(given, "main init %15s", name) == 1 && strstr(given, " idle\n")) op(INIT, named(name));
        else if (sscanf(given, "main start %15s", name) == 1) op(START, named(name));
        else if (!strcmp(given, "main run default\n")) op(RUN, 0);
        else if (!strcmp(given, "begin\n")) return;
        else exit(2);
    }
    exit(2);
}

static void told(void) {
    if (filled + 100 > ROOM) flush();
    word("at "), number(steps), word("\n");
    flush();
}

int main(void) {
    read_script();
    slots = malloc(capacity * sizeof *slots);
    if (!slots) return 4;
    char given[100];
    size_t n;
    while (fgets(given, sizeof given, stdin)) {
        if (sscanf(given, "loop %zu", &n) == 1) {
            for (size_t i = 0; i < n && step(); i++) print(lines[steps - 1]);
            standing = steps;
        } else if (sscanf(given, "back %zu", &n) == 1) {
            for (; n && steps; n--) back();
            told();
        } else if (sscanf(given, "forward %zu", &n) == 1) {
            for (; n && steps < standing && step(); n--);
            told();
        } else return 2;
    }
    flush();
    return 0;
}
