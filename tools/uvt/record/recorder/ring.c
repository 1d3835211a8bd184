/* A ring (UVT_KEEP=MIB): of the log the last MIB windows are kept, each of one MiB, and the next one is written over the oldest.
 *
 * PREFIX.PID.ring has the windows, each with its number in front. What lines refer to (places in files, functions of JavaScript, which libuv)
 * stands in PREFIX.PID.words, which grows with the program's text, and not with time. Both may be copied at any time, and stay as they are if the
 * program is killed. In each window a recording may begin: of each loop all that it has is written there (poll.c).
 *
 * UVT_LATE=MS: behind a callback that took so long, a timer that began so late, or a poll that ended so late, the ring goes on for a while,
 * stays as PREFIX.PID.late-N.ring, and another one begins. Windows from long before are given back to the disk. Of more than MOST_LATE, or than
 * have LATE_ROOM times the room of a ring, those with the longest stay.
 *
 * Of processes that have ended the rings of the last LEFT stay: a program that is started again and again fills no disk. */
#define _GNU_SOURCE
#include "recorder.h"

#include <dirent.h>
#include <errno.h>
#include <fcntl.h>
#include <stdio.h>
#include <stdlib.h>
#include <string.h>
#include <sys/file.h>
#include <sys/mman.h>
#include <sys/stat.h>
#include <unistd.h>

enum { WINDOW = 1 << 20, NOTE = 64, FEWEST = 2, MOST = 1 << 16, LEFT = 3, GROUPS = 512 };
enum { MOST_LATE = 16, LATE_ROOM = 4, BEHIND_LATE = 1000, BEFORE_LATE = 2000 };

static size_t keep; /* how many windows; 0: no ring */
static char prefix[3072], process[32]; /* PREFIX.PROCESS.ring */
static int file = -1, words = -1;
static char *window, *whole; /* the window; and all of them, where they are mapped at once */
static size_t slot, slots, used; /* the window's place in the file, how many the file has, and how much of it is used */
static size_t number; /* of the window, from 1 */
static uint64_t before; /* bytes in windows that are full */
static uint64_t began[MOST]; /* by the clock, at each place in the file */

/* What took long: from which time on that is, when it began and up to when, for how long by the thread itself, in which window, and the line that
 * says so; and of what is kept apart how long that took, 0: nothing is, and how much room it has. */
static uint64_t late, late_from, late_at, late_took;
static struct {
    uint64_t took, windows;
} kept[MOST_LATE];
static size_t late_in;
static char late_line[128];

/* What couldn't be written into the words yet; and how much of them was. */
static char waits[1 << 16];
static size_t waiting, written;

bool keeps(void) {
    return keep > 0;
}

size_t ring_window(void) {
    return keep ? number : 0;
}

uint64_t ring_bytes(void) {
    return before + used;
}

uint64_t ring_room(void) {
    return (uint64_t)keep * WINDOW;
}

/* (the windows that there are keep their order: the next one is the oldest, or, behind the last one, new) */
void ring_needs(uint64_t bytes) {
    size_t wanted = (size_t)(bytes / WINDOW) + 1;
    if (wanted > keep && wanted <= MOST) keep = wanted;
}

static void name_of(char *name, size_t size, const char *end) {
    snprintf(name, size, "%s.%s.%s", prefix, process, end);
}

/* ---- windows */

/* Where the file can't grow the ring has as many windows as there are. */
static char *map_next(size_t *next) {
    *next = window ? slot + 1 : 0;
    if (whole) return whole + (*next = *next % slots) * (size_t)WINDOW;
    if (*next >= keep) *next = 0;
    if (*next >= slots) {
        size_t size = (*next + 1) * (size_t)WINDOW;
        if (may_grow_to(size) && posix_fallocate(file, (off_t)(size - WINDOW), WINDOW) == 0) slots = *next + 1;
        else if (slots >= FEWEST) *next = 0;
        else return MAP_FAILED;
    }
    return mmap(NULL, WINDOW, PROT_READ | PROT_WRITE, MAP_SHARED, file, (off_t)(*next * (size_t)WINDOW));
}

static bool turn(void) {
    size_t next;
    char *mapped = map_next(&next);
    if (mapped == MAP_FAILED) {
        if (window) strcpy(window + used, "- ! no room\n");
        return false;
    }
    if (window && !whole) munmap(window, WINDOW);
    if (window) before += used;
    memset(mapped, 0, WINDOW);
    window = mapped;
    slot = next;
    began[slot] = clock_ms();
    used = (size_t)snprintf(window, NOTE, "- W %zu\n", ++number);
    return true;
}

void ring_ahead(void) {
    size_t size = keep * (size_t)WINDOW;
    if (slots < keep && may_grow_to(size) && posix_fallocate(file, 0, (off_t)size) == 0) slots = keep;
    char *all = mmap(NULL, slots * (size_t)WINDOW, PROT_READ | PROT_WRITE, MAP_SHARED, file, 0);
    late = late_at = 0;
    if (all == MAP_FAILED) return;
    munmap(window, WINDOW);
    whole = all;
    window = all + slot * (size_t)WINDOW;
}

bool write_ring(const char *text, size_t length) {
    if (used + length > WINDOW - NOTE && !turn()) return false;
    memcpy(window + used, text, length);
    used += length;
    return true;
}

/* (a disk may be full for a while: what has no room waits. A write past the limit of a file's size would end the program) */
bool write_words(const char *text, size_t length) {
    if (waiting + length > sizeof waits) return false;
    memcpy(waits + waiting, text, length);
    waiting += length;
    if (!filtered && !may_grow_to(written + waiting)) return true;
    ssize_t done = write(words, waits, waiting);
    if (done > 0) written += (size_t)done, memmove(waits, waits + done, waiting -= (size_t)done);
    return true;
}

/* ---- what took long */

static void name_late(char *name, size_t size, int at) {
    char end[32];
    snprintf(end, sizeof end, "late-%d.ring", at + 1);
    name_of(name, size, end);
}

/* How many of the last windows have what stood before it; and the disk has the others back. */
static size_t windows_of_late(void) {
    size_t all = number < slots ? number : slots, count = 0;
    while (count < all && began[(slot + slots - count) % slots] + BEFORE_LATE > late_from) count++;
    /* (the one in which that is, and another one: in it all that the loops have is written down) */
    return count + 2 < all ? count + 2 : all;
}

static void give_back(size_t windows) {
    for (size_t count = windows; count < slots; count++)
        fallocate(file, FALLOC_FL_PUNCH_HOLE | FALLOC_FL_KEEP_SIZE, (off_t)((slot + slots - count) % slots * WINDOW), WINDOW);
}

/* Which place it has, and which others have to go then; -1 where those that are kept took longer. */
static int place_of_late(size_t windows, bool out[MOST_LATE]) {
    size_t total = windows;
    int free = -1;
    for (int at = 0; at < MOST_LATE; at++) total += kept[at].windows;
    while (true) {
        int shortest = -1;
        for (int at = MOST_LATE - 1; at >= 0; at--) {
            if (!kept[at].took || out[at]) free = at;
            else if (shortest < 0 || kept[at].took < kept[shortest].took) shortest = at;
        }
        if ((free >= 0 && total <= LATE_ROOM * keep) || shortest < 0) break;
        if (kept[shortest].took >= late_took) return -1;
        out[shortest] = true;
        total -= kept[shortest].windows;
    }
    return free;
}

static void take_out(const bool out[MOST_LATE]) {
    char name[4096];
    for (int at = 0; at < MOST_LATE; at++) {
        if (!out[at]) continue;
        name_late(name, sizeof name, at);
        unlink(name);
        kept[at].took = kept[at].windows = 0;
    }
}

/* The next ring, with room for a window; -1 where there is none. */
static int make_next(const char *name) {
    int fresh = open(name, O_RDWR | O_CREAT | O_EXCL | O_CLOEXEC | O_NOFOLLOW, 0600);
    if (fresh >= 0 && may_grow_to(WINDOW) && posix_fallocate(fresh, 0, WINDOW) == 0) return fresh;
    if (fresh >= 0) close(fresh), unlink(name);
    return -1;
}

/* (for a moment the ring has another name: where a disk has no room for a further one it goes on) */
static void keep_late(void) {
    char name[4096], other[4096], meanwhile[4096];
    bool out[MOST_LATE] = {false};
    size_t windows = windows_of_late();
    int at = place_of_late(windows, out), fresh = -1;
    late_at = 0;
    if (at < 0) return;
    name_of(name, sizeof name, "ring");
    name_late(other, sizeof other, at);
    name_late(meanwhile, sizeof meanwhile, MOST_LATE);
    if (rename(name, meanwhile) != 0) return;
    if ((fresh = make_next(name)) < 0) {
        rename(meanwhile, name);
        return;
    }
    write_ring(late_line, strlen(late_line));
    take_out(out);
    rename(meanwhile, other);
    kept[at].took = late_took;
    kept[at].windows = windows;
    give_back(windows);
    close(file);
    munmap(window, WINDOW);
    before += used;
    window = NULL;
    file = fresh;
    slots = 0;
    if (!turn()) off = true;
}

/* (a machine on which others have the processor makes everything late: that is none of the program's, and would take the places of what is) */
void note_late(const struct loop *loop, const char *what, int id, const struct late *it) {
    uint64_t others = it->waited == UNKNOWN ? 0 : (it->waited + 500000) / 1000000;
    if (others > it->took) others = it->took;
    uint64_t own = it->took - others;
    if (!late || own < late || (late_at && own <= late_took) || loop->unseen || it->clock - it->took < loop->seen_from) return;
    /* (of a longer one that comes meanwhile as much is to stand behind it) */
    late_from = it->clock - it->took;
    late_at = it->clock;
    late_in = number;
    late_took = own;
    snprintf(late_line, sizeof late_line, "- T %s %d %llu %llu %d %llu\n", what, loop->number, (unsigned long long)(it->clock - loop->base),
             (unsigned long long)it->took, id, (unsigned long long)others);
}

uint64_t minds_late(void) {
    return late;
}

/* (so many in the time that counts as late) */
enum { OFTEN = 8 };

void note_share(struct loop *loop, uint64_t clock, uint64_t waited) {
    const struct share *last = &loop->shares[(loop->shared - 1) % SHARES];
    if (!late || waited == UNKNOWN || (loop->shared && clock < last->clock + late / OFTEN)) return;
    loop->shares[loop->shared++ % SHARES] = (struct share){clock, waited};
    if (!loop->known_from) loop->known_from = clock;
}

void note_share_now(struct loop *loop) {
    struct usage usage;
    if (!late || (loop->shared && clock_ms() < loop->shares[(loop->shared - 1) % SHARES].clock + late / OFTEN)) return;
    uint64_t clock = clock_behind(&usage);
    note_share(loop, clock, usage.waited);
}

uint64_t waited_since(const struct loop *loop, uint64_t time, uint64_t waited) {
    const struct share *found = NULL;
    for (unsigned back = 1; back <= SHARES && back <= loop->shared && (!found || found->clock > time); back++)
        found = &loop->shares[(loop->shared - back) % SHARES];
    return !found || waited == UNKNOWN || waited < found->waited ? UNKNOWN : waited - found->waited;
}

/* (in front of a callback, so that it isn't cut) */
void look_at_late(uint64_t clock) {
    if (late_at && (clock >= late_at + BEHIND_LATE || number - late_in >= (keep + 1) / 2)) keep_late();
}

/* ---- its files */

struct group {
    char process[32];
    time_t at;
};

/* The process of a file of a ring, in front of the last or last but one point; false for another file. */
static bool process_of(const char *name, const char *base, char *found, size_t size) {
    size_t length = strlen(base);
    if (strncmp(name, base, length) != 0 || name[length] != '.') return false;
    const char *from = name + length + 1, *end = strchr(from, '.');
    if (!end || end == from || (size_t)(end - from) >= size || strspn(from, "0123456789-") != (size_t)(end - from)) return false;
    if (strcmp(end, ".words") != 0 && strcmp(end, ".ring") != 0 && (strncmp(end, ".late-", 6) != 0 || !strstr(end, ".ring"))) return false;
    memcpy(found, from, (size_t)(end - from));
    found[end - from] = 0;
    return true;
}

/* Who is alive has its words locked. (By their numbers processes of another container can't be told.) */
static bool is_over(const char *its) {
    char name[4096];
    snprintf(name, sizeof name, "%s.%s.words", prefix, its);
    int descriptor = open(name, O_RDONLY | O_CLOEXEC);
    if (descriptor < 0) return errno == ENOENT;
    bool free = flock(descriptor, LOCK_EX | LOCK_NB) == 0;
    close(descriptor);
    return free;
}

static int by_age(const void *one, const void *other) {
    time_t a = ((const struct group *)one)->at, b = ((const struct group *)other)->at;
    return a < b ? 1 : a > b ? -1 : 0;
}

static void clear_away(void) {
    static struct group groups[GROUPS];
    char folder[3072], name[4096], its[32];
    const char *base = strrchr(prefix, '/');
    int count = 0, over = 0;
    if (!base || (size_t)(base - prefix) >= sizeof folder) return;
    snprintf(folder, sizeof folder, "%.*s", (int)(base - prefix + 1), prefix);
    base++;
    DIR *all = opendir(folder);
    if (!all) return;
    for (struct dirent *it; (it = readdir(all));) {
        struct stat about;
        int at = 0;
        if (!process_of(it->d_name, base, its, sizeof its)) continue;
        while (at < count && strcmp(groups[at].process, its) != 0) at++;
        if (at == GROUPS) continue;
        if (at == count) strcpy(groups[count].process, its), groups[count++].at = 0;
        snprintf(name, sizeof name, "%s%s", folder, it->d_name);
        if (stat(name, &about) == 0 && about.st_mtime > groups[at].at) groups[at].at = about.st_mtime;
    }
    qsort(groups, (size_t)count, sizeof *groups, by_age);
    rewinddir(all);
    for (int at = 0; at < count; at++) {
        if (!is_over(groups[at].process) || over++ < LEFT) groups[at].process[0] = 0;
    }
    for (struct dirent *it; (it = readdir(all));) {
        if (!process_of(it->d_name, base, its, sizeof its)) continue;
        for (int at = 0; at < count; at++)
            if (strcmp(groups[at].process, its) == 0) unlinkat(dirfd(all), it->d_name, 0);
    }
    closedir(all);
}

bool open_ring(const char *named) {
    char name[4096];
    strcpy(prefix, named);
    clear_away();
    snprintf(process, sizeof process, "%d", (int)getpid());
    name_of(name, sizeof name, "words");
    /* (a program that replaced itself by exec has the same process) */
    for (int more = 2; (words = open(name, O_WRONLY | O_CREAT | O_EXCL | O_APPEND | O_CLOEXEC | O_NOFOLLOW, 0600)) < 0 && errno == EEXIST; more++) {
        snprintf(process, sizeof process, "%d-%d", (int)getpid(), more);
        name_of(name, sizeof name, "words");
    }
    if (words < 0) return false;
    flock(words, LOCK_SH | LOCK_NB);
    open_now();
    name_of(name, sizeof name, "ring");
    file = open(name, O_RDWR | O_CREAT | O_EXCL | O_CLOEXEC | O_NOFOLLOW, 0600);
    /* (what came before isn't there) */
    if (attaches) number = 1;
    return file >= 0 && turn();
}

void end_ring(void) {
    if (window) munmap(window, WINDOW);
    if (file >= 0) close(file);
    if (words >= 0) close(words);
    close_now();
    window = NULL;
    file = words = -1;
    slot = slots = used = number = late_at = waiting = written = 0;
    before = 0;
    memset(kept, 0, sizeof kept);
}

static size_t number_in(const char *name) {
    const char *text = asked_for(name);
    long found = text ? atol(text) : 0;
    return found < 0 ? 0 : found > MOST ? MOST : (size_t)found;
}

void ask_for_ring(void) {
    keep = number_in("UVT_KEEP");
    late = number_in("UVT_LATE");
    if (keep && keep < FEWEST) keep = FEWEST;
    if (!keep) late = 0;
}
