// A script as its lines say it (docs/FORMAT.md), and the steps from outside that stand behind its `begin`.
#ifndef SCRIPT_H
#define SCRIPT_H

#include <stdbool.h>
#include <stddef.h>
#include <stdint.h>
#include <stdio.h>

enum { LINE_ROOM = 300, WORD_ROOM = 40, MOST_WAYS = 4, MOST_CAME = 64 };

typedef struct Handle Handle;

// An op: its text, and the text cut into what it says.
typedef struct {
    char text[LINE_ROOM];
    char word[WORD_ROOM];
    char kind[WORD_ROOM];
    int name;
    int fields;
    uint64_t first, second;
    uint64_t call; // in which call of its callback it is done; 0 is each
} Op;

typedef struct {
    Op *items;
    size_t count, room;
} Ops;

enum Body { ON, AFTER, CLOSED, BODIES };

typedef struct {
    char text[WORD_ROOM];
    Ops bodies[BODIES];
    uint64_t calls[BODIES];
    Handle *bound; // the handle or request that it stands for, NULL where its slot is free again
} Name;

// In place of a name, where what woke the loop stands among what came.
enum { WAKE = -2 };

// A step from outside: what is done, behind so many printed lines and so many looks at the clock since the last of them.
typedef struct {
    uint64_t lines, looks;
    char word[WORD_ROOM];
    uint64_t number;
    int name;
    int came[MOST_CAME]; // of `io`: for whom something comes, in this order
    size_t came_count;
} Step;

// What is tried, in this order, where the poll waits.
enum Way { JOBS, JOBS_DOWN, JUMP, STEPS };

typedef struct {
    Name *names;
    size_t name_count, name_room;
    Ops main;
    Step *steps;
    size_t step_count, step_room, next_step;
    enum Way ways[MOST_WAYS];
    size_t way_count;
    uint64_t limit; // of printed lines
    size_t slots, workers;
    uint32_t last_generation;
    bool undisturbed; // a step that is due behind the line of a run is done behind the next line
    bool begun;
} Script;

void clear_script(Script *script);

// Takes one line in. False where it is none that this program knows.
bool read_line(Script *script, const char *line);

#endif
