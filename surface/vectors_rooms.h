/*
 * The rooms that a case lends, each between two guards. A room has what is lent and what it has to hold after the
 * call; one that the call only reads has to hold what was lent. After the call every room is compared whole, and its
 * guards have to stand.
 */
#ifndef SURFACE_VECTORS_ROOMS_H
#define SURFACE_VECTORS_ROOMS_H

#include "kanzhulet.h"
#include "vectors_lines.h"

/* Elements: somewhat more than a map needs. */
enum { TABLES = 32768, WORK = 16384, STREAM = 65536, SPARE = 8 };

enum { GUARD = 64, CANARY = 0xA5 }; /* bytes */

struct room {
    const char *name;
    void *held;           /* a guard, the elements lent, a guard */
    void *want;           /* what the elements lent have to be after the call */
    size_t width, most;   /* bytes of an element, elements that there is room for */
    uint64_t first, step; /* element k is first + step*k, cut to its width, before a call that fills the room */
    size_t length;        /* elements lent */
};

#define ROOM(type, name, most, first, step)                                                        \
    static type name##_held[(most) + 2 * GUARD / sizeof(type)], name##_want[most];                 \
    static struct room name = { #name, name##_held, name##_want, sizeof(type), most, first, step, 0 }

ROOM(uint16_t, tables, TABLES, 2, 3);
ROOM(uint16_t, work, WORK, 1, 7);
ROOM(uint8_t, out, STREAM + SPARE, 3, 5); /* for the page that the writer gives */
ROOM(uint8_t, stream, STREAM, 3, 5);      /* a whole stream */
ROOM(uint8_t, page, STREAM, 3, 5);        /* a part of it that a session gets */
ROOM(uint8_t, text, STREAM, 3, 5);        /* a face file */
ROOM(uint32_t, record, KZ_RECORD, 5, 11);
ROOM(uint32_t, answer, KZ_REPORT_ANSWER, 5, 11);
ROOM(uint64_t, wide_answer, KZ_FACES_ANSWER, 5, 11); /* of 64-bit numbers, for kz_faces */

static struct room *const rooms[] = { &tables, &work, &out, &stream, &page, &text, &record, &answer, &wide_answer };
enum { ROOMS = sizeof rooms / sizeof *rooms };

/* What is lent, as the calls take it. */
static uint8_t *bytes_of(const struct room *r) { return (uint8_t *)r->held + GUARD; }
static uint16_t *entries_of(const struct room *r) { return (uint16_t *)r->held + GUARD / sizeof(uint16_t); }
static uint32_t *numbers_of(const struct room *r) { return (uint32_t *)r->held + GUARD / sizeof(uint32_t); }
static uint64_t *wide_numbers_of(const struct room *r) { return (uint64_t *)r->held + GUARD / sizeof(uint64_t); }

static uint64_t element(const void *from, size_t width, size_t k)
{
    switch (width) {
    case 1: return ((const uint8_t *)from)[k];
    case 2: return ((const uint16_t *)from)[k];
    case 4: return ((const uint32_t *)from)[k];
    default: return ((const uint64_t *)from)[k];
    }
}

static void set_element(void *to, size_t width, size_t k, uint64_t value)
{
    switch (width) {
    case 1: ((uint8_t *)to)[k] = (uint8_t)value; break;
    case 2: ((uint16_t *)to)[k] = (uint16_t)value; break;
    case 4: ((uint32_t *)to)[k] = (uint32_t)value; break;
    default: ((uint64_t *)to)[k] = value; break;
    }
}

/* Lending. */

static void set_guards(const struct room *r)
{
    memset(r->held, CANARY, GUARD);
    memset(bytes_of(r) + r->length * r->width, CANARY, GUARD);
}

/* The first element is `first`, and each next one larger by `step`. */
static void fill(void *to, const struct room *r, uint64_t first, uint64_t step)
{
    size_t k;
    for (k = 0; k < r->length; k++)
        set_element(to, r->width, k, first + step * k);
}

static void lend_filled(struct room *r, size_t length, uint64_t first, uint64_t step)
{
    r->length = length;
    fill(bytes_of(r), r, first, step);
    set_guards(r);
}

/* Lends so many elements, filled as the files state; what they have to be stays as it was said. */
static void lend(struct room *r, size_t length) { lend_filled(r, length, r->first, r->step); }

/* Lends what the room has to hold, so that the call may not change it. */
static void lend_wanted(struct room *r, size_t length)
{
    r->length = length;
    memcpy(bytes_of(r), r->want, length * r->width);
    set_guards(r);
}

/* Nothing is lent. */
static void empty_rooms(void)
{
    int k;
    for (k = 0; k < ROOMS; k++)
        lend(rooms[k], 0);
}

/* Saying what a room has to hold. */

static void want_filled(struct room *r) { fill(r->want, r, r->first, r->step); }

/* What it holds now: for a room whose content another case tests. */
static void want_held(struct room *r) { memcpy(r->want, bytes_of(r), r->length * r->width); }

/* The fields of a line. */

/* A room's length. */
static size_t take_length(struct line *l, const struct room *r) { return (size_t)take_number(l, r->most); }

/* A run, as what the room has to hold; answers how many elements it has. */
static size_t take_run(struct line *l, struct room *r)
{
    size_t digits = 2 * r->width, k, d;
    struct field f = take_digits(l, digits, r->most);
    uint64_t value;
    for (k = 0; k < f.length / digits; k++) {
        value = 0;
        for (d = 0; d < digits; d++)
            value = 16 * value + digit_value(f.text[digits * k + d]);
        set_element(r->want, r->width, k, value);
    }
    return f.length / digits;
}

/* A run that is lent. */
static void take_lent(struct line *l, struct room *r) { lend_wanted(r, take_run(l, r)); }

/* A run that the room, lent before, has to hold after the call. */
static void take_after(struct line *l, struct room *r)
{
    if (take_run(l, r) != r->length)
        set_fault(l, "the run is not as long as the room that is lent");
}

/* So many numbers of the room's width, 32 or 64 bits, as what the room has to hold. */
static void take_numbers(struct line *l, struct room *r, size_t count)
{
    uint64_t most = r->width == sizeof(uint32_t) ? UINT32_MAX : UINT64_MAX;
    size_t k;
    for (k = 0; k < count; k++)
        set_element(r->want, r->width, k, take_number(l, most));
}

/* An answer of so many numbers. */
static void take_answer(struct line *l, size_t count)
{
    take_numbers(l, &answer, count);
    lend(&answer, count);
}

static void take_wide_answer(struct line *l, size_t count)
{
    take_numbers(l, &wide_answer, count);
    lend(&wide_answer, count);
}

/* Comparing. */

static int is_guarded(const struct room *r)
{
    const uint8_t *before = r->held, *after = bytes_of(r) + r->length * r->width;
    size_t k;
    for (k = 0; k < GUARD; k++)
        if (before[k] != CANARY || after[k] != CANARY)
            return 0;
    return 1;
}

static void compare_room(struct tally *t, const struct room *r)
{
    size_t k;
    uint64_t want, got;
    if (!is_guarded(r))
        tell_wrong(t, r->name, "something was written outside of the room");
    if (memcmp(r->want, bytes_of(r), r->length * r->width) == 0)
        return;
    for (k = 0; k < r->length; k++) {
        want = element(r->want, r->width, k);
        got = element(bytes_of(r), r->width, k);
        if (want != got)
            tell_difference(t, r->name, k, want, got);
    }
}

/* The number that a call stored, in the one of the two answers that was lent. */
static uint64_t stored_number(void)
{
    return wide_answer.length > 0 ? wide_numbers_of(&wide_answer)[0] : numbers_of(&answer)[0];
}

/* After a call: the number it returned is the one it stored, and every room is as it has to be. */
static void compare(struct tally *t, uint32_t number)
{
    int k;
    if (number != stored_number())
        tell_wrong(t, "answer", "the number returned is not the number stored");
    for (k = ROOMS; k > 0; k--)
        compare_room(t, rooms[k - 1]);
}

#endif
