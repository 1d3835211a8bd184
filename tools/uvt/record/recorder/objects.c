/* Loops, and the handles and requests of the program by their addresses, with a number each. */
#define _GNU_SOURCE
#include "recorder.h"

#include <dlfcn.h>
#include <limits.h>
#include <link.h>
#include <stdio.h>
#include <stdlib.h>
#include <string.h>
#include <unistd.h>

static struct loop **loops; /* that aren't closed */
static int loop_count, loop_room, loops_made;
static uint64_t base_of_first;
static struct object **buckets, *unused;
static size_t bucket_count, object_count;
static int ids;
static __thread struct loop *last; /* that this thread asked for, */
static __thread int last_number; /* and its number then: it may be another one since */
REAL(uv_now)

/* ---- loops */

/* Closed ones that have no object any more: the next loop takes one of them. (They aren't freed, since a thread may have asked for them last, and
 * looks whether that is still so.) */
static struct loop *closed;

static struct loop *take_closed(void) {
    struct loop **at = &closed, *loop;
    for (int looked = 0; (loop = *at) && loop->objects > 0 && looked < 8; looked++) at = &loop->next;
    if (!loop || loop->objects > 0 || forces()) return calloc(1, sizeof *loop);
    *at = loop->next;
    return loop;
}

static struct loop *add_loop(uv_loop_t *uv) {
    if (loop_count == loop_room) {
        int room = loop_room ? 2 * loop_room : 16;
        struct loop **more = realloc(loops, (size_t)room * sizeof *more);
        if (!more) return NULL;
        loops = more;
        loop_room = room;
    }
    struct loop *loop = take_closed();
    if (!loop) return NULL;
    *loop = (struct loop){.uv = uv, .number = loops_made++, .base = CALL(uv_now)(uv), .thread = pthread_self()};
    if (loop->number == 0) base_of_first = loop->base;
    loop->behind = (int)((int64_t)loop->base - (int64_t)base_of_first);
    loops[loop_count++] = loop;
    force_loop(loop);
    return loop;
}

static struct loop *keep_last(struct loop *loop) {
    if (loop) last_number = loop->number;
    return last = loop;
}

/* A loop that is made, maybe where one that was never closed has been. */
struct loop *new_loop(uv_loop_t *uv) {
    for (int at = 0; at < loop_count; at++)
        if (loops[at]->uv == uv) close_loop(loops[at--]);
    return keep_last(add_loop(uv));
}

void close_loop(struct loop *loop) {
    alive_closed(loop);
    loop->uv = NULL;
    int at = 0;
    while (at < loop_count && loops[at] != loop) at++;
    if (at == loop_count) return;
    loops[at] = loops[--loop_count];
    loop->next = closed;
    closed = loop;
}

struct loop *last_loop(void) {
    return last && last->uv && last->number == last_number ? last : NULL;
}

struct loop *loop_of(uv_loop_t *uv) {
    if (last && last->uv == uv) return keep_last(last);
    for (int at = loop_count - 1; at >= 0; at--)
        if (loops[at]->uv == uv) return keep_last(loops[at]);
    /* (one that was there before the recorder is taken over as it polls) */
    return attaches ? NULL : keep_last(add_loop(uv));
}

uint64_t first_base(void) {
    return base_of_first;
}

void each_loop(void (*tell)(struct loop *)) {
    for (int at = 0; at < loop_count; at++)
        if (loops[at]->uv) tell(loops[at]);
}

/* ---- objects */

static struct object **bucket(const void *address) {
    uint64_t mixed = (uint64_t)(uintptr_t)address * 0x9E3779B97F4A7C15u;
    return &buckets[(mixed >> 32) & (bucket_count - 1)];
}

static void grow(void) {
    struct object **old = buckets;
    size_t count = bucket_count;
    struct object **more = calloc(count ? 2 * count : 1024, sizeof *more);
    if (!more) return;
    buckets = more;
    bucket_count = count ? 2 * count : 1024;
    for (size_t at = 0; at < count; at++)
        for (struct object *it = old[at], *next; it; it = next) {
            /* (of those at one address the last one that was put there stays the first) */
            struct object **to = bucket(it->address);
            while (*to) to = &(*to)->next;
            next = it->next;
            it->next = NULL;
            *to = it;
        }
    free(old);
}

struct object *find(const void *address) {
    if (!buckets) return NULL;
    struct object *it = *bucket(address);
    while (it && it->address != address) it = it->next;
    return it;
}

struct object *earlier(const struct object *object) {
    struct object *it = object->next;
    while (it && it->address != object->address) it = it->next;
    return it;
}

struct object *object_by_id(int id) {
    for (size_t at = 0; at < bucket_count; at++)
        for (struct object *it = buckets[at]; it; it = it->next)
            if (it->id == id) return it;
    return NULL;
}

/* (64 bytes: the smallest request. Without AddressSanitizer there are no such functions) */
void touch(const void *address) {
    static void *(*poisoned)(const void *, size_t);
    static void (*load)(const void *);
    static bool looked;
    if (!looked) {
        poisoned = (void *(*)(const void *, size_t))dlsym(RTLD_DEFAULT, "__asan_region_is_poisoned");
        load = (void (*)(const void *))dlsym(RTLD_DEFAULT, "__asan_load8");
        looked = true;
    }
    const void *at = poisoned && load && address ? poisoned(address, 64) : NULL;
    if (at) load(at);
}

struct object *asked(const void *address) {
    touch(address);
    struct object *object = find(address);
    if (object) note_thread(object->loop, object->id);
    return object;
}

/* (libuv allows other threads uv_async_send alone) */
void note_thread(struct loop *loop, int id) {
    pthread_t here = pthread_self();
    if (off || loop->running == 0 || pthread_equal(loop->thread, here)) return;
    lock();
    write_line(loop, 'W', "%d %u %s", id, (uint64_t)here, called);
    unlock();
}

/* A handle or a request that begins at this address; what was there is gone. But a request that the pool has stays: its worker and its
 * after callback are to come, also where the program has made something else of its memory, or queued it again. */
struct object *put(struct loop *loop, void *address) {
    struct object *it, *before;
    for (it = find(address); it; it = before) {
        before = earlier(it);
        if (!it->pooled || !it->loop->uv) drop(it);
    }
    if (object_count >= bucket_count) grow();
    it = unused;
    if (it) unused = it->next;
    else it = malloc(sizeof *it);
    if (!it || !loop || !buckets) return NULL;
    memset(it, 0, sizeof *it);
    struct object **to = bucket(address);
    it->address = address;
    it->loop = loop;
    it->id = ids++;
    it->next = *to;
    *to = it;
    object_count++;
    loop->objects++;
    return it;
}

void drop(struct object *object) {
    struct object **at = bucket(object->address);
    while (*at && *at != object) at = &(*at)->next;
    if (!*at) return;
    *at = object->next;
    leave_memory(object);
    for (struct object **it = &object->loop->unsettled; *it; it = &(*it)->next_unsettled)
        if (*it == object) {
            *it = object->next_unsettled;
            break;
        }
    object->loop->objects--;
    object->next = unused;
    unused = object;
    object_count--;
}

void each(struct loop *loop, void (*tell)(struct object *)) {
    for (size_t at = 0; at < bucket_count; at++)
        for (struct object *it = buckets[at]; it; it = it->next)
            if (it->loop == loop && it->kind) tell(it);
}

void each_object(const struct loop *loop, void (*take)(struct object *)) {
    for (size_t at = 0; at < bucket_count; at++)
        for (struct object *it = buckets[at], *next; it; it = next) {
            next = it->next;
            if (it->loop == loop) take(it);
        }
}

int object_total(void) {
    return (int)object_count;
}

/* ---- where they and their callbacks lie */

enum { PAGES = 4096, PLACES = 1024 };

struct place {
    const void *address;
    int number;
};

static struct place *places;
static size_t place_room;
static int place_count;

/* Where that is, or is to be put. */
static struct place *place_at(struct place *all, size_t room, const void *address) {
    size_t at = ((uintptr_t)address * 0x9E3779B97F4A7C15u >> 32) & (room - 1);
    while (all[at].address && all[at].address != address) at = (at + 1) & (room - 1);
    return &all[at];
}

/* (half of them are free) */
static bool grow_places(void) {
    size_t room = place_room ? 2 * place_room : PLACES;
    struct place *more = calloc(room, sizeof *more);
    if (!more) return false;
    for (size_t at = 0; at < place_room; at++)
        if (places[at].address) *place_at(more, room, places[at].address) = places[at];
    free(places);
    places = more;
    place_room = room;
    return true;
}

const char *name_of_program(void) {
    static char file[PATH_MAX];
    ssize_t length = *file ? 0 : readlink("/proc/self/exe", file, sizeof file - 1);
    if (length < 0) strcpy(file, "-");
    return file;
}

/* The file that lies at this address, into `room` where it has to be looked for. (The program itself has no name there, and another file may have
 * a relative one) */
static const char *file_of(const struct link_map *map, const char *name, char room[PATH_MAX]) {
    if (!*map->l_name) return name_of_program();
    return filtered || !realpath(map->l_name, room) ? name : room;
}

/* (the file's own symbols count from where it was loaded) */
static int number_by(const void *key, const void *address) {
    /* (a send may come from a signal's handler, which mustn't want memory) */
    if (sends_here ? 4 * (size_t)place_count >= 3 * place_room : 2 * (size_t)place_count >= place_room && !grow_places()) return -1;
    struct place *place = place_at(places, place_room, key);
    if (place->address) return place->number;
    Dl_info info;
    struct link_map *map;
    if (!dladdr1(address, &info, (void **)&map, RTLD_DL_LINKMAP) || !info.dli_fname || !map) return -1;
    char room[PATH_MAX];
    const char *symbol = key == address && info.dli_saddr == address && info.dli_sname ? info.dli_sname : "-";
    write_line(NULL, 'A', "%d %x %s %s", place_count, (uint64_t)((uintptr_t)address - map->l_addr), symbol,
               file_of(map, info.dli_fname, room));
    *place = (struct place){key, place_count};
    return place_count++;
}

int address_number(const void *address) {
    return number_by(address, address);
}

/* (a function may begin where another one ends with a call, and has a number of its own) */
int call_number(const void *behind) {
    return number_by((const void *)((uintptr_t)behind | (uintptr_t)1 << 63), behind);
}

/* (most handles lie in memory that was allocated, many in a page: such a page is remembered) */
void name_place(struct object *object) {
    static uintptr_t elsewhere[PAGES];
    if (!object) return;
    uintptr_t page = (uintptr_t)object->address >> 12;
    if (elsewhere[page % PAGES] == page) return;
    int place = address_number(object->address);
    if (place >= 0) write_line(object->loop, 'V', "%d %d %d", object->id, place, object->size);
    else elsewhere[page % PAGES] = page;
}

void name_callback(struct object *object, void *callback, enum role role, const char *what) {
    if (!object || !callback || object->named[role] == callback) return;
    int place = address_number(callback);
    object->named[role] = callback;
    object->whats[role] = what;
    if (place >= 0) write_pair(object->loop, 'C', object->id, place, what);
}

void forget_objects(void) {
    while (loop_count) close_loop(loops[0]);
    loops_made = 0;
    place_count = 0;
    if (places) memset(places, 0, place_room * sizeof *places);
}

void name_again(struct object *object) {
    name_place(object);
    for (int role = 0; role < ROLES; role++) {
        int place = object->named[role] ? address_number(object->named[role]) : -1;
        if (place >= 0) write_pair(object->loop, 'C', object->id, place, object->whats[role]);
    }
}
