#include "script.h"

#include <inttypes.h>
#include <stdlib.h>
#include <string.h>

static void *grown(void *items, size_t count, size_t *room, size_t size) {
    if (count < *room)
        return items;
    *room = *room ? 2 * *room : 8;
    items = realloc(items, *room * size);
    if (items == NULL)
        abort();
    return items;
}

void clear_script(Script *script) {
    for (size_t at = 0; at < script->name_count; at++)
        for (int body = 0; body < BODIES; body++)
            free(script->names[at].bodies[body].items);
    free(script->names);
    free(script->main.items);
    free(script->steps);
    *script = (Script){.limit = UINT64_MAX, .slots = 1024, .workers = 4, .last_generation = UINT32_MAX};
}

static int name_of(const Script *script, const char *text) {
    for (size_t at = 0; at < script->name_count; at++)
        if (strcmp(script->names[at].text, text) == 0)
            return (int)at;
    return -1;
}

static bool read_name(Script *script, const char *text) {
    script->names = grown(script->names, script->name_count, &script->name_room, sizeof *script->names);
    Name *name = &script->names[script->name_count++];
    memset(name, 0, sizeof *name);
    return sscanf(text, "%39s", name->text) == 1;
}

// The ops that speak of no name.
static bool is_plain(const char *word) {
    static const char *const plain[] = {"run", "closeloop", "stoploop", "updatetime", "now", "alive", "timeout"};
    for (size_t at = 0; at < sizeof plain / sizeof *plain; at++)
        if (strcmp(plain[at], word) == 0)
            return true;
    return false;
}

static bool read_op(const Script *script, Ops *ops, const char *text, uint64_t call) {
    char fields[4][WORD_ROOM] = {{0}};
    ops->items = grown(ops->items, ops->count, &ops->room, sizeof *ops->items);
    Op *op = &ops->items[ops->count++];
    memset(op, 0, sizeof *op);
    op->call = call;
    op->name = -1;
    snprintf(op->text, sizeof op->text, "%s", text);
    op->fields = sscanf(text, "%39s %39s %39s %39s", fields[0], fields[1], fields[2], fields[3]);
    strcpy(op->word, fields[0]);
    if (is_plain(op->word)) {
        strcpy(op->kind, fields[1]);
        return true;
    }
    op->name = name_of(script, fields[1]);
    strcpy(op->kind, fields[2]);
    op->first = strtoull(fields[2], NULL, 10);
    op->second = strtoull(fields[3], NULL, 10);
    return op->name >= 0;
}

// The line of a callback: NAME [@K] OP.
static bool read_body(Script *script, enum Body body, const char *text) {
    char name[WORD_ROOM];
    int end = 0;
    uint64_t call = 0;
    if (sscanf(text, "%39s %n", name, &end) != 1)
        return false;
    text += end;
    if (*text == '@') {
        if (sscanf(text, "@%" SCNu64 " %n", &call, &end) != 1)
            return false;
        text += end;
    }
    int at = name_of(script, name);
    return at >= 0 && read_op(script, &script->names[at].bodies[body], text, call);
}

// What comes: names, and a point for what woke the loop.
static bool read_came(const Script *script, const char *text, Step *step) {
    char what[WORD_ROOM];
    int end = 0;
    while (sscanf(text, "%39s %n", what, &end) == 1) {
        int name = strcmp(what, ".") == 0 ? WAKE : name_of(script, what);
        if (name == -1 || step->came_count == MOST_CAME)
            return false;
        step->came[step->came_count++] = name;
        text += end;
    }
    return true;
}

// What a step is done with: those for whom something comes, a name, or a number.
static bool read_rest(const Script *script, const char *text, Step *step) {
    char what[WORD_ROOM];
    if (strcmp(step->word, "io") == 0)
        return read_came(script, text, step);
    if (sscanf(text, "%39s", what) != 1)
        return false;
    if (strcmp(step->word, "send") == 0 || strcmp(step->word, "cancel") == 0)
        step->name = name_of(script, what);
    else
        step->number = strtoull(what, NULL, 10);
    return true;
}

// The line of a step: at LINES LOOKS and what it does.
static bool read_step(Script *script, const char *text) {
    int end = 0;
    Step step = {.name = -1};
    if (sscanf(text, "%" SCNu64 " %" SCNu64 " %39s %n", &step.lines, &step.looks, step.word, &end) != 3)
        return false;
    if (!read_rest(script, text + end, &step))
        return false;
    script->steps = grown(script->steps, script->step_count, &script->step_room, sizeof *script->steps);
    script->steps[script->step_count++] = step;
    return true;
}

// What is tried where the poll waits: up to four words.
static bool read_ways(Script *script, const char *text) {
    static const char *const words[] = {"jobs", "jobs-down", "jump", "steps"};
    char fields[MOST_WAYS][WORD_ROOM];
    int count = sscanf(text, "%39s %39s %39s %39s", fields[0], fields[1], fields[2], fields[3]);
    for (int at = 0; at < count; at++)
        for (size_t way = 0; way < sizeof words / sizeof *words; way++)
            if (strcmp(fields[at], words[way]) == 0)
                script->ways[script->way_count++] = (enum Way)way;
    return count > 0 && script->way_count == (size_t)count;
}

// What follows the word, where the line begins with it.
static const char *behind(const char *line, const char *word) {
    size_t length = strlen(word);
    return strncmp(line, word, length) == 0 && line[length] == ' ' ? line + length + 1 : NULL;
}

static bool read_behind_begin(Script *script, const char *line) {
    const char *rest;
    if ((rest = behind(line, "at")))
        return read_step(script, rest);
    if ((rest = behind(line, "blocked")))
        return read_ways(script, rest);
    if (strcmp(line, "undisturbed runs") == 0)
        return script->undisturbed = true;
    if ((rest = behind(line, "limit")))
        return sscanf(rest, "%" SCNu64, &script->limit) == 1;
    return false;
}

bool read_line(Script *script, const char *line) {
    const char *rest;
    if (*line == '\0' || *line == '#')
        return true;
    if (script->begun)
        return read_behind_begin(script, line);
    if (strcmp(line, "begin") == 0)
        return script->begun = true;
    if ((rest = behind(line, "var")))
        return read_name(script, rest);
    if ((rest = behind(line, "workers")))
        return sscanf(rest, "%zu", &script->workers) == 1;
    // (the library has its own order, and its own way with timers)
    if ((rest = behind(line, "order")))
        return strcmp(rest, "1.44") == 0 || strcmp(rest, "1.45") == 0;
    if (strcmp(line, "io") == 0 || strcmp(line, "timers heap") == 0)
        return true;
    if ((rest = behind(line, "slots")))
        return sscanf(rest, "%zu %" SCNu32, &script->slots, &script->last_generation) >= 1;
    if ((rest = behind(line, "main")))
        return read_op(script, &script->main, rest, 0);
    if ((rest = behind(line, "on")))
        return read_body(script, ON, rest);
    if ((rest = behind(line, "after")))
        return read_body(script, AFTER, rest);
    if ((rest = behind(line, "closed")))
        return read_body(script, CLOSED, rest);
    return behind(line, "thread") != NULL;
}
