/*
 * A file of vectors: its lines, their fields, and what is counted and told of it.
 *
 * A line is one case, its fields split by one blank each. They are taken in order. The first that is not as it has to
 * be is the line's fault, and what is taken after it may be anything: so a line is taken to its end, asked once by
 * `is_case`, and only then run.
 */
#ifndef SURFACE_VECTORS_LINES_H
#define SURFACE_VECTORS_LINES_H

#include <stdint.h>
#include <stdio.h>
#include <string.h>

/* Lines and fields. */

struct line {
    const char *text;
    size_t length, at;    /* at: where the next field starts; past the length once all are taken */
    unsigned long number; /* counted from 1 */
    unsigned taken;       /* fields taken, and so the number of the last one, counted from 1 */
    const char *fault;    /* why the line cannot be read, or null */
    unsigned faulty;      /* the number of the field that has the fault */
};

struct field {
    const char *text; /* not ended by a 0, and a 0 within it is a sign as any other */
    size_t length;
};

/* The longest line that is read: longer than the digits of the longest tables and the longest stream together. */
enum { LINE = 266240 };

/* Reads the next line, without its end; the last one needs none. Answers 0 where there is no other. */
static int next_line(FILE *in, struct line *l)
{
    static char text[LINE];
    const struct line fresh = { text, 0, 0, l->number + 1, 0, NULL, 0 };
    int byte = fgetc(in);
    if (byte == EOF)
        return 0;
    *l = fresh;
    for (; byte != EOF && byte != '\n'; byte = fgetc(in)) {
        if (l->length < LINE)
            text[l->length++] = (char)byte;
        else
            l->fault = "the line is too long";
    }
    return 1;
}

/* Only the first fault is kept: the others may follow from it. */
static void set_fault(struct line *l, const char *fault)
{
    if (l->fault)
        return;
    l->fault = fault;
    l->faulty = l->taken;
}

static struct field take_field(struct line *l)
{
    struct field f = { "", 0 };
    l->taken++;
    if (l->at > l->length) {
        set_fault(l, "the field is missing");
        return f;
    }
    f.text = l->text + l->at;
    while (l->at + f.length < l->length && f.text[f.length] != ' ')
        f.length++;
    l->at += f.length + 1;
    return f;
}

static int is_word(struct field f, const char *word)
{
    return f.length == strlen(word) && memcmp(f.text, word, f.length) == 0;
}

static void take_word(struct line *l, const char *word)
{
    if (!is_word(take_field(l), word))
        set_fault(l, "another sign is to stand here");
}

/* A decimal number, no larger than `most`. */
static uint64_t take_number(struct line *l, uint64_t most)
{
    struct field f = take_field(l);
    uint64_t value = 0, digit;
    size_t k;
    if (f.length == 0)
        set_fault(l, "no number");
    for (k = 0; k < f.length; k++) {
        if (f.text[k] < '0' || f.text[k] > '9') {
            set_fault(l, "no number");
            return 0;
        }
        digit = (uint64_t)(f.text[k] - '0');
        if (digit > most || value > (most - digit) / 10) {
            set_fault(l, "the number is too large");
            return 0;
        }
        value = 10 * value + digit;
    }
    return value;
}

/* The value of a hexadecimal digit, or 16. */
static unsigned digit_value(char sign)
{
    if (sign >= '0' && sign <= '9')
        return (unsigned)(sign - '0');
    if (sign >= 'A' && sign <= 'F')
        return (unsigned)(sign - 'A') + 10;
    if (sign >= 'a' && sign <= 'f')
        return (unsigned)(sign - 'a') + 10;
    return 16;
}

/* The digits of a run, so many for each element, `most` elements at most. `-` is an empty run, and has none. */
static struct field take_digits(struct line *l, size_t digits, size_t most)
{
    static const struct field none = { "", 0 };
    struct field f = take_field(l);
    size_t k;
    if (is_word(f, "-"))
        return none;
    if (f.length == 0 || f.length % digits != 0)
        set_fault(l, "no run of whole elements");
    if (f.length / digits > most)
        set_fault(l, "the run is longer than its room");
    for (k = 0; k < f.length; k++)
        if (digit_value(f.text[k]) > 15)
            set_fault(l, "a sign in the run is no digit");
    return l->fault ? none : f;
}

/* Has the line been taken to its end without a fault? */
static int is_whole(struct line *l)
{
    if (l->at <= l->length)
        set_fault(l, "there are more fields than there are to be");
    return l->fault == NULL;
}

/* What is counted and told of a file. */

enum { TOLD = 10, NOTE = 160, NUMBERS = 64 };

struct tally {
    unsigned long cases, differ, unread; /* unread: lines that could not be read */
    unsigned long met[NUMBERS];          /* how many cases were answered by each refusal number */
    char notes[TOLD + 1][NOTE];          /* the first ten faults in words, and a place for one that is not told */
    unsigned told;
    unsigned long line; /* the case at hand: its line, */
    const char *part;   /* which part of it is run, as a note says it, */
    int differs;        /* and whether some part of it differed */
};

/* Room for the next fault's words. */
static char *next_note(struct tally *t)
{
    return t->notes[t->told < TOLD ? t->told++ : TOLD];
}

/* A line that is whole is a case from here on. */
static int is_case(struct tally *t, struct line *l)
{
    if (!is_whole(l))
        return 0;
    t->cases++;
    t->line = l->number;
    t->part = "";
    return 1;
}

/*
 * The number that answers the case, counted once however many calls the case makes. One that is no refusal number
 * differs anyway.
 */
static void count_answer(struct tally *t, uint32_t number)
{
    if (number < NUMBERS)
        t->met[number]++;
}

/* Element k of a room differs. Only the first difference of a case is told: the others may follow from it. */
static void tell_difference(struct tally *t, const char *room, size_t k, uint64_t expected, uint64_t got)
{
    if (!t->differs)
        snprintf(next_note(t), NOTE, "line %lu%s: %s[%lu]: expected %llu, got %llu", t->line, t->part, room,
                 (unsigned long)k, (unsigned long long)expected, (unsigned long long)got);
    t->differs = 1;
}

/* The same for what has no two numbers to show. */
static void tell_wrong(struct tally *t, const char *room, const char *wrong)
{
    if (!t->differs)
        snprintf(next_note(t), NOTE, "line %lu%s: %s: %s", t->line, t->part, room, wrong);
    t->differs = 1;
}

/* After each line: it could not be read, or it was a case, or it called nothing. */
static void end_line(struct tally *t, const struct line *l)
{
    if (l->fault) {
        t->unread++;
        snprintf(next_note(t), NOTE, "line %lu cannot be read: field %u: %s", l->number, l->faulty, l->fault);
    } else if (t->differs) {
        t->differ++;
    }
    t->differs = 0;
}

/* The numbers that were met, each with its count, to the line's end. */
static void say_counts(const unsigned long *met)
{
    unsigned k;
    for (k = 0; k < NUMBERS; k++)
        if (met[k] > 0)
            printf(" %u:%lu", k, met[k]);
    putchar('\n');
}

/* The report of a file; is all well with it? */
static int say_tally(const struct tally *t, const char *name)
{
    unsigned long faults = t->differ + t->unread;
    unsigned k;
    printf("%s: %lu cases, %lu differ\n  met", name, t->cases, t->differ);
    say_counts(t->met);
    for (k = 0; k < t->told; k++)
        printf("  %s\n", t->notes[k]);
    if (faults > t->told)
        printf("  and %lu more such lines\n", faults - t->told);
    if (t->unread > 0)
        printf("  %lu lines could not be read\n", t->unread);
    if (t->cases == 0)
        printf("  no case was tested\n");
    return faults == 0 && t->cases > 0;
}

#endif
