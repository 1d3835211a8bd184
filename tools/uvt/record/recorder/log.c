/* The lines of the log: what stands in one, and when. */
#define _GNU_SOURCE
#include "log.h"

#include <stdarg.h>
#include <string.h>
#include <time.h>

__thread bool passing;
REAL(uv_now)
REAL(uv_err_name)

struct line {
    size_t length;
    char text[LINE];
};

/* (a word of the program's own is cut, so that what follows has its room: that of some numbers, and of the places) */
enum { DIGITS = 20, ROOM = 512 };

static inline void add_sign(struct line *line, char sign) {
    line->text[line->length++] = sign;
}

/* (two digits at a time: that is most of what a short line costs) */
static const char PAIRS[] =
    "0001020304050607080910111213141516171819202122232425262728293031323334353637383940414243444546474849"
    "5051525354555657585960616263646566676869707172737475767778798081828384858687888990919293949596979899";

static char *put_long(char *to, uint64_t number);

static inline char *put_number(char *to, uint64_t number) {
    if (number >= 100) return put_long(to, number);
    if (number >= 10) {
        memcpy(to, PAIRS + 2 * number, 2);
        return to + 2;
    }
    *to = (char)('0' + number);
    return to + 1;
}

static char *put_long(char *to, uint64_t number) {
    to = put_number(to, number / 100);
    memcpy(to, PAIRS + 2 * (number % 100), 2);
    return to + 2;
}

static inline void add_number(struct line *line, uint64_t number) {
    line->length = (size_t)(put_number(line->text + line->length, number) - line->text);
}

static void add_text(struct line *line, const char *text) {
    while (*text) add_sign(line, *text++);
}

static char *put_address(char *to, uint64_t number) {
    char digits[DIGITS];
    int at = DIGITS;
    do digits[--at] = "0123456789abcdef"[number & 15];
    while (number >>= 4);
    memcpy(to, digits + at, (size_t)(DIGITS - at));
    return to + (DIGITS - at);
}

static inline char *put_text(char *to, const char *end, const char *text) {
    for (; *text && to < end; text++) *to++ = *text == '\n' ? '?' : *text;
    return to;
}

static inline char *put_signed(char *to, int number) {
    if (number < 0) *to++ = '-';
    return put_number(to, (uint64_t)(number < 0 ? -(int64_t)number : number));
}

static void add_format(struct line *line, const char *format, va_list words) {
    char *to = line->text + line->length;
    const char *end = line->text + LINE - ROOM;
    for (; *format && to < end; format++) {
        if (*format != '%' || !format[1]) {
            *to++ = *format;
            continue;
        }
        switch (*++format) {
        case 's': to = put_text(to, end, va_arg(words, const char *)); break;
        case 'u': to = put_number(to, va_arg(words, uint64_t)); break;
        case 'x': to = put_address(to, va_arg(words, uint64_t)); break;
        case 'd': to = put_signed(to, va_arg(words, int)); break;
        default: *to++ = '%'; /* of an id */
        }
    }
    line->length = (size_t)(to - line->text);
}

/* Whether the place that called stands at a line's end, and whether it has the clock. */
enum { PLACED = 1, CLOCKED = 2 };
static const unsigned char HAS[128] = {
    ['B'] = CLOCKED, ['E'] = CLOCKED, ['F'] = CLOCKED, ['H'] = CLOCKED, ['J'] = CLOCKED, ['R'] = CLOCKED, ['T'] = CLOCKED, ['q'] = CLOCKED,
    ['D'] = PLACED | CLOCKED, ['G'] = PLACED | CLOCKED, ['S'] = PLACED | CLOCKED, ['I'] = PLACED, ['O'] = PLACED, ['Z'] = PLACED,
};

/* (the loop's time is the same in several lines, and the clock often is that, too) */
static inline void add_time(struct line *line, uint64_t time) {
    static __thread struct {
        uint64_t time;
        size_t length;
        char text[DIGITS + 4];
    } last;
    if (last.time != time || !last.length) {
        last.time = time;
        last.length = (size_t)(put_number(last.text, time) - last.text);
        last.text[last.length++] = ' ';
    }
    memcpy(line->text + line->length, last.text, sizeof last.text);
    line->length += last.length;
}

static uint64_t in_ms(uint64_t ns, uint64_t most) {
    uint64_t ms = (ns + 500000) / 1000000;
    return ms < most ? ms : most;
}

/* What a callback or work had of the processor. */
static void add_usage(struct line *line, const struct usage *used, uint64_t took) {
    add_text(line, " cpu ");
    add_number(line, in_ms(used->processor, took));
    if (used->waited == UNKNOWN) return;
    const uint64_t more[] = {in_ms(used->kernel, took), used->faults, used->disk, used->gave, used->lost, in_ms(used->waited, took)};
    for (size_t at = 0; at < sizeof more / sizeof *more; at++) {
        add_sign(line, ' ');
        add_number(line, more[at]);
    }
}

/* A line of this text, behind the loop, the type and the times. */
static void write_rest(struct loop *loop, char type, const struct line *rest) {
    struct line line;
    struct usage used;
    uint64_t took = 0;
    bool knows = false;
    /* (where a place is new that has a line of its own, in front of this one) */
    int from = loop && called_from && !off && (HAS[(int)type] & PLACED) ? call_number(called_from) : -1;
    int callers[CALLERS], count = from >= 0 ? caller_numbers(type == 'D', from, called_from, callers) : 0;
    if (loop && !loop->lines && loop->number && type != 'L') write_line(loop, 'L', "%d", loop->behind);
    if (off || (loop && (!loop->uv || loop->unseen)) || (!is_open && !open_log())) return;
    if (loop && forces() && !strchr("CDGHILVTFSWKJQYZq", type)) {
        /* (what is forced there has lines of its own, in front of this one, and moves the clock) */
        force_event(loop, type, rest->text);
        if (off || !loop->uv || force_skips()) return;
    }
    if (type == 'E') {
        in_callback = NULL;
        write_stacks(loop);
    }
    line.length = 0;
    if (loop) add_number(&line, (uint64_t)loop->number);
    else add_sign(&line, '-');
    add_sign(&line, ' ');
    add_sign(&line, type);
    add_sign(&line, ' ');
    if (loop) {
        add_time(&line, CALL(uv_now)(loop->uv) - loop->base);
    }
    if (loop && (HAS[(int)type] & CLOCKED)) {
        bool begins = type == 'B' || type == 'T', early = type == 'B' && loop->early;
        uint64_t clock = early ? loop->early : begins ? clock_behind(&used) : clock_ms();
        if (early) used = loop->early_usage;
        knows = note_time(loop, type, clock, &used, &took);
        add_time(&line, clock - loop->base);
    }
    memcpy(line.text + line.length, rest->text, rest->length);
    line.length += rest->length;
    if (knows) add_usage(&line, &used, took);
    if (from >= 0) {
        add_text(&line, " @");
        add_number(&line, (uint64_t)from);
    }
    for (int at = 0; at < count; at++) {
        add_sign(&line, '<');
        add_number(&line, (uint64_t)callers[at]);
    }
    line.text[line.length++] = '\n';
    if (loop) loop->lines++;
    if (type == 'B' && running_here() == loop && !forces()) in_callback = loop, in_work = 0;
    if (passing) write_text(line.text, line.length);
    else if (!loop || (type == 'L' && keeps())) write_word(line.text, line.length);
    /* (in the ring it says that the loop begins here) */
    if (loop && (type != 'L' || !loop->adopted)) write_text(line.text, line.length);
}

void write_line(struct loop *loop, char type, const char *format, ...) {
    struct line rest;
    va_list words;
    rest.length = 0;
    va_start(words, format);
    add_format(&rest, format, words);
    va_end(words);
    rest.text[rest.length] = 0;
    write_rest(loop, type, &rest);
}

/* ---- the lines that most logs are made of take no format */

#define PUT(TO, TEXT) ((char *)memcpy(TO, TEXT, sizeof(TEXT) - 1) + sizeof(TEXT) - 1)

static inline void end_rest(struct loop *loop, char type, struct line *rest, char *to) {
    *to = 0;
    rest->length = (size_t)(to - rest->text);
    write_rest(loop, type, rest);
}

void write_begin(struct loop *loop, int id, const char *what, const char *known) {
    struct line rest;
    const char *end = rest.text + LINE - ROOM;
    char *to = put_signed(PUT(rest.text, "on "), id);
    *to++ = ' ';
    to = put_text(to, end, what);
    if (*known && to < end) *to++ = ' ';
    end_rest(loop, 'B', &rest, put_text(to, end, known));
}

void write_closed(struct loop *loop, int id) {
    struct line rest;
    end_rest(loop, 'B', &rest, put_signed(PUT(rest.text, "closed "), id));
}

void write_number(struct loop *loop, char type, int number, const char *behind) {
    struct line rest;
    end_rest(loop, type, &rest, put_text(put_signed(rest.text, number), rest.text + LINE - ROOM, behind));
}

void write_pair(struct loop *loop, char type, int one, int other, const char *behind) {
    struct line rest;
    char *to = put_signed(rest.text, one);
    *to++ = ' ';
    to = put_signed(to, other);
    *to++ = ' ';
    end_rest(loop, type, &rest, put_text(to, rest.text + LINE - ROOM, behind));
}

const char *answer_text(int answer) {
    return answer == 0 ? "ok" : CALL(uv_err_name)(answer);
}

/* Is the loop's time so many ms behind the clock? */
bool is_behind(const struct loop *loop) {
    return !off && loop->uv && clock_ms() >= CALL(uv_now)(loop->uv) + SHORT;
}

/* The same of many ms, by a clock that costs little, and lags by a few. */
bool is_far_behind(const struct loop *loop) {
    struct timespec time;
    if (off || !loop->uv || forces()) return false;
    clock_gettime(CLOCK_MONOTONIC_COARSE, &time);
    return (uint64_t)time.tv_sec * 1000 + (uint64_t)time.tv_nsec / 1000000 >= CALL(uv_now)(loop->uv) + SHORT;
}

static uint64_t starts;

uint64_t next_start(void) {
    return ++starts;
}

static inline char *put_op(char *to, const char *end, const char *word, int id) {
    to = PUT(put_text(to, end, word), " %");
    return put_signed(to, id);
}

static inline char *put_answer(char *to, const char *end, int answer) {
    return answer == 0 ? PUT(to, " = ok") : put_text(PUT(to, " = "), end, answer_text(answer));
}

void write_op(struct object *object, const char *word, const char *rest, int answer) {
    struct line line;
    const char *end = line.text + LINE - ROOM;
    if (!object) return;
    if (answer == 0 && strcmp(word, "start") == 0) object->order = next_start();
    char *to = put_text(put_op(line.text, end, word, object->id), end, rest);
    end_rest(object->loop, 'O', &line, put_answer(to, end, answer));
}

void write_made(struct object *object, const char *word, const char *kind) {
    struct line line;
    const char *end = line.text + LINE - ROOM;
    char *to = put_op(line.text, end, word, object->id);
    *to++ = ' ';
    end_rest(object->loop, 'O', &line, put_answer(put_text(to, end, kind), end, 0));
}

/* (a timer that is started anew in each of its callbacks has many of these) */
void write_start(struct object *timer, uint64_t timeout, uint64_t repeat, int answer) {
    struct line line;
    if (answer == 0) timer->order = next_start();
    char *to = put_signed(PUT(line.text, "start %"), timer->id);
    *to++ = ' ';
    to = put_number(to, timeout);
    *to++ = ' ';
    to = put_number(to, repeat);
    end_rest(timer->loop, 'O', &line, put_answer(to, line.text + LINE - ROOM, answer));
}
