/*
 * Random schedules, as text and as entry bytes, and the ways in which either can
 * be damaged, each with a name and, where it can be told, with the refusal due.
 */
#ifndef WAYS_H
#define WAYS_H

#include "../second/text.h"

enum {
    /* the longest text, as many lines again of one byte, two very long numbers,
     * and something behind the end */
    MOST_INPUT = MAX_LINE * MAX_LINES + MAX_LINES + 2000,
    ANY = 1 /* no refusal has this number: the second program has to tell */
};

/* A text or entry bytes. */
struct input {
    uint8_t bytes[MOST_INPUT];
    size_t length;
    size_t units; /* lines or entries before any damage */
    size_t bad;   /* the first that a way has made bad; UNKNOWN where it can't tell */
};

#define UNKNOWN SIZE_MAX

/* The same schedule twice. */
struct schedule {
    struct input text;
    struct input entries;
};

void make_schedule(struct schedule *s, size_t units, uint32_t *state);

/* Some bytes of an input. */
struct part {
    size_t at;
    size_t length;
};

typedef struct part line_part_of(const struct input *in, size_t line, uint32_t *state);
typedef void line_damage(struct input *in, size_t line, uint32_t *state);
typedef void whole_damage(struct input *in, uint32_t *state);

/*
 * A way to damage one line, or a text or entry bytes as a whole.  Most lines are
 * damaged by putting something in the place of a part of them.
 */
struct way {
    const char *name;
    uint32_t due;
    size_t least;       /* lines or entries that it needs */
    line_part_of *part; /* with one of the next two: */
    const char *put;    /* all of it, */
    const char *one_of; /* or one of its bytes */
    line_damage *line;
    whole_damage *whole;
};

/* The ways of each, from 0; NULL behind the last. */
const struct way *text_way(size_t i);
const struct way *entry_way(size_t i);

void damage(struct input *in, const struct way *way, uint32_t *state);

#endif
