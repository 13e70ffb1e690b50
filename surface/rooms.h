/*
 * The frame of the surface tests: counted checks, rooms lent between guards, and one function for each call of the
 * library. Such a function lends the rooms, makes the call, and checks what kanzhulet.h says of every such call,
 * whatever was lent. The cases in calls.c add what they know about their own input.
 */
#ifndef SURFACE_ROOMS_H
#define SURFACE_ROOMS_H

#include "kanzhulet.h"
#include <stdio.h>

/* Checks. */

static unsigned long checks, failures;
static const char *what = "";       /* the case at hand */
enum { NUMBERS = KZ_ONE_BODY + 1 }; /* 0 and the refusal numbers */
static int seen[NUMBERS];           /* those that some call has answered */

/* Is it 0 or a refusal's? Between them are two numbers that are not. */
static int is_number(uint32_t number)
{
    return number < NUMBERS && number != 24 && number != 25;
}

enum { TOLD = 50 }; /* so many failures are told, all are counted */

static void check_that(int holds, const char *condition, const char *file, int line)
{
    checks++;
    if (!holds && ++failures <= TOLD)
        printf("%s:%d: %s: not so: %s\n", file, line, what, condition);
}

#define CHECK(condition) check_that((condition) ? 1 : 0, #condition, __FILE__, __LINE__)

/* Rooms. */

enum { GUARD = 64, CANARY = 0xA5, SPARE = 32 };

/* One dart more than the limit, in all seven ranks, and SPARE entries. */
enum { TABLES = KZ_MAX_TABLES + 7 + SPARE };

enum { LONGEST_TEXT = 1 << 20 };

struct room {
    unsigned char *hold; /* a guard, the bytes lent, a guard */
    unsigned char *was;  /* the bytes lent, as they were before the call */
    size_t most, size;   /* in bytes */
};

#define ROOM(type, name, length)                                          \
    static type name##_hold[(length) + 2 * GUARD / sizeof(type)];         \
    static type name##_was[length];                                       \
    static type *const name = name##_hold + GUARD / sizeof(type);         \
    static struct room name##_room = { (unsigned char *)name##_hold,      \
                                       (unsigned char *)name##_was,       \
                                       (length) * sizeof(type), 0 }

ROOM(uint16_t, posted, TABLES); /* a posted map's tables, and those that a face file is read into */
ROOM(uint16_t, built, TABLES);  /* the tables of a reading */
ROOM(uint16_t, work, KZ_MAX_WORK + 2 + SPARE);
ROOM(uint8_t, out, KZ_MAX_STREAM + SPARE);  /* for the page that the writer gives */
ROOM(uint8_t, page, KZ_MAX_STREAM + SPARE); /* the bytes that a reading gets */
ROOM(uint8_t, text, LONGEST_TEXT);          /* a face file */
ROOM(uint32_t, record, KZ_RECORD);
ROOM(uint32_t, answer, KZ_REPORT_ANSWER);
ROOM(uint64_t, wide, KZ_FACES_ANSWER); /* the answer of kz_faces */

enum { POSTED, BUILT, WORK, OUT, PAGE, TEXT, RECORD, ANSWER, WIDE, ROOMS };
static struct room *const rooms[ROOMS] = { &posted_room, &built_room, &work_room, &out_room, &page_room,
                                           &text_room, &record_room, &answer_room, &wide_room };

/* Lends so many bytes. What they hold differs from place to place, so that a byte moved is seen as well as a byte set.
 */
static void lend(struct room *room, size_t size)
{
    size_t k;
    CHECK(size <= room->most);
    room->size = size <= room->most ? size : 0;
    for (k = 0; k < GUARD; k++)
        room->hold[k] = room->hold[GUARD + room->size + k] = CANARY;
    for (k = 0; k < room->size; k++)
        room->hold[GUARD + k] = (unsigned char)(7 * k + 1);
}

/* Takes the end of a lent room back; what it holds before that stays. */
static void shorten(struct room *room, size_t size)
{
    size_t k;
    CHECK(size <= room->size);
    room->size = size;
    for (k = 0; k < GUARD; k++)
        room->hold[GUARD + size + k] = CANARY;
}

#define LEND(name, length) lend(&name##_room, (size_t)(length) * sizeof *name)
#define SHORTEN(name, length) shorten(&name##_room, (size_t)(length) * sizeof *name)
#define LENGTH(name) (name##_room.size / sizeof *name)

/* The form in which the calls on a posted map are made. */
enum form { ONE_BODY, SEVERAL_BODIES, FORMS };
static enum form form;

static void begin(const char *name)
{
    int k;
    what = name;
    form = ONE_BODY;
    for (k = 0; k < ROOMS; k++)
        lend(rooms[k], 0);
}

static int guarded(const struct room *room)
{
    size_t k;
    for (k = 0; k < GUARD; k++)
        if (room->hold[k] != CANARY || room->hold[GUARD + room->size + k] != CANARY)
            return 0;
    return 1;
}

/* From this byte on, is the room as it was before the call? */
static int kept_from(const struct room *room, size_t byte)
{
    for (; byte < room->size; byte++)
        if (room->hold[GUARD + byte] != room->was[byte])
            return 0;
    return 1;
}

#define KEPT(name) kept_from(&name##_room, 0)
#define KEPT_FROM(name, element) kept_from(&name##_room, (size_t)(element) * sizeof *name)

static int no_link(const uint16_t *entries, size_t length)
{
    while (length > 0)
        if (entries[--length] != KZ_NO_LINK)
            return 0;
    return 1;
}

static int all_below(const uint16_t *entries, size_t length, uint32_t bound)
{
    while (length > 0)
        if (entries[--length] >= bound)
            return 0;
    return 1;
}

static int same_entries(const uint16_t *a, const uint16_t *b, size_t length)
{
    while (length-- > 0)
        if (a[length] != b[length])
            return 0;
    return 1;
}

static int same_bytes(const uint8_t *a, const uint8_t *b, size_t length)
{
    while (length-- > 0)
        if (a[length] != b[length])
            return 0;
    return 1;
}

static int same_numbers(const uint32_t *a, const uint32_t *b, size_t length)
{
    while (length-- > 0)
        if (a[length] != b[length])
            return 0;
    return 1;
}

/* Calls. */

struct map {
    uint64_t dim, darts;
};

/* Where ai(d) stands in the map's tables. */
static uint64_t position(struct map m, uint64_t rank, uint64_t dart)
{
    return dart * (m.dim + 1) + rank;
}

static void before_call(void)
{
    int k;
    size_t byte;
    for (k = 0; k < ROOMS; k++)
        for (byte = 0; byte < rooms[k]->size; byte++)
            rooms[k]->was[byte] = rooms[k]->hold[GUARD + byte];
}

/* After every call: the guards stand, and only rooms that the call may write have changed. */
static void after_call(unsigned may_change)
{
    int k;
    for (k = 0; k < ROOMS; k++) {
        CHECK(guarded(rooms[k]));
        if (!(may_change >> k & 1))
            CHECK(kept_from(rooms[k], 0));
    }
}

static void see(uint32_t number)
{
    CHECK(is_number(number));
    if (number < NUMBERS)
        seen[number] = 1;
}

/* After every call that answers: the number is returned and stored, and `may_be_given` says that such a call may give
   it. */
static void after_answer(uint32_t number, unsigned may_change, int may_be_given)
{
    after_call(may_change | 1u << ANSWER);
    CHECK(number == answer[0]);
    CHECK(may_be_given);
    see(number);
    if (number <= KZ_ROOT || number == KZ_UNFIT || number == KZ_CLOSED)
        CHECK(answer[1] == 0);
}

/* Is the work room's numbering one-to-one, its two halves inverse, and 0 for the root? */
static int numbered_from(uint64_t root, uint64_t darts)
{
    uint64_t d;
    for (d = 0; d < darts; d++)
        if (work[d] >= darts || work[darts + work[d]] != d)
            return 0;
    return root < darts && work[root] == 0;
}

/* What the form refuses of a valid map: 9, several bodies, or 30, one body. */
static uint32_t wrong_bodies(void)
{
    return form == ONE_BODY ? KZ_NOT_REACHED : KZ_ONE_BODY;
}

static int is_of_check(uint32_t number)
{
    return number <= KZ_MANIFOLD || number == wrong_bodies();
}

static void after_walk(uint32_t number, struct map m, uint64_t root)
{
    if (number >= KZ_DIMENSION && number <= KZ_MANIFOLD) {
        CHECK(KEPT(work));
        return;
    }
    CHECK(m.darts <= KZ_MAX_DARTS && 2 * m.darts <= LENGTH(work));
    if (number == wrong_bodies())
        CHECK(no_link(work, 2 * m.darts));
    else
        CHECK(numbered_from(root, m.darts));
    CHECK(KEPT_FROM(work, 2 * m.darts));
}

/* Of a posted map 30 has no place. */
static void after_posting(uint32_t number)
{
    if (number == KZ_ONE_BODY)
        CHECK(answer[1] == 0);
}

static uint32_t call_check(struct map m, uint64_t root)
{
    uint32_t number;
    LEND(answer, KZ_CHECK_ANSWER);
    before_call();
    if (form == ONE_BODY)
        number = kz_check(m.dim, m.darts, root, posted, LENGTH(posted), work, LENGTH(work), answer);
    else
        number = kz_check_bodies(m.dim, m.darts, root, posted, LENGTH(posted), work, LENGTH(work), answer);
    after_answer(number, 1u << WORK, is_of_check(number));
    after_posting(number);
    after_walk(number, m, root);
    return number;
}

/* The numbers that a face file is answered by. */
static int is_of_faces(uint32_t number)
{
    return number == KZ_ACCEPTED || (number >= KZ_DARTS && number <= KZ_SHORT_WORK) || number == KZ_NOT_REACHED ||
           (number >= KZ_WORD && number <= KZ_SIDE);
}

/* The n of the map that a face file left in the tables. After 9 it is not told: then the first 2n of the work room are
   KZ_NO_LINK, and no other entry of a room that was lent afresh is. */
static uint64_t darts_of_faces(uint32_t number)
{
    size_t k = 0;
    if (number == KZ_ACCEPTED)
        return wide[2];
    while (k < LENGTH(work) && work[k] == KZ_NO_LINK)
        k++;
    return k / 2;
}

static void after_faces(uint32_t number)
{
    struct map m = { 2, 0 };
    CHECK(form == ONE_BODY && number == wide[0] && is_of_faces(number));
    CHECK(wide[1] == 0 || number > KZ_SHORT_WORK);
    CHECK(wide[1] < LENGTH(text) || wide[1] == 0 || (number == KZ_WORD && wide[1] == LENGTH(text)));
    if (number != KZ_ACCEPTED)
        CHECK(wide[2] == 0);
    if (number != KZ_ACCEPTED && number != KZ_NOT_REACHED) {
        CHECK(KEPT(posted) && KEPT(work));
        return;
    }
    m.darts = darts_of_faces(number);
    CHECK(m.darts >= 6 && m.darts % 2 == 0 && m.darts <= KZ_MAX_DARTS && 3 * m.darts <= LENGTH(posted));
    CHECK(all_below(posted, 3 * m.darts, (uint32_t)m.darts) && KEPT_FROM(posted, 3 * m.darts));
    after_walk(number, m, 0);
}

static uint32_t call_faces(void)
{
    uint32_t number;
    LEND(wide, KZ_FACES_ANSWER);
    before_call();
    number = kz_faces(text, LENGTH(text), posted, LENGTH(posted), work, LENGTH(work), wide);
    after_call(1u << POSTED | 1u << WORK | 1u << WIDE);
    see(number);
    after_faces(number);
    return number;
}

static uint32_t call_write(struct map m, uint64_t root, uint64_t start)
{
    uint32_t number;
    uint64_t left;
    LEND(answer, KZ_WRITE_ANSWER);
    before_call();
    if (form == ONE_BODY)
        number = kz_write(m.dim, m.darts, root, start, posted, LENGTH(posted), work, LENGTH(work), out, LENGTH(out),
                          answer);
    else
        number = kz_write_bodies(m.dim, m.darts, root, start, posted, LENGTH(posted), work, LENGTH(work), out,
                                 LENGTH(out), answer);
    after_answer(number, 1u << WORK | 1u << OUT, is_of_check(number) || number == KZ_PAST_END);
    after_posting(number);
    after_walk(number, m, root);
    CHECK(KEPT_FROM(out, answer[2]));
    if (number != 0) {
        CHECK(answer[2] == 0 && answer[3] == 0);
    } else {
        left = answer[3] - start;
        CHECK(start <= answer[3] && answer[2] == (left < LENGTH(out) ? left : LENGTH(out)));
    }
    return number;
}

static uint32_t call_report(struct map m)
{
    uint32_t number;
    int k;
    LEND(answer, KZ_REPORT_ANSWER);
    before_call();
    if (form == ONE_BODY)
        number = kz_report(m.dim, m.darts, posted, LENGTH(posted), work, LENGTH(work), answer);
    else
        number = kz_report_bodies(m.dim, m.darts, posted, LENGTH(posted), work, LENGTH(work), answer);
    after_answer(number, 1u << WORK, is_of_check(number) && number != KZ_ROOT);
    after_posting(number);
    if (number == 0 || number == wrong_bodies())
        CHECK(no_link(work, 2 * m.darts) && KEPT_FROM(work, 2 * m.darts));
    else
        CHECK(KEPT(work));
    for (k = number == 0 ? (int)m.dim + 1 : 0; k <= KZ_MAX_DIM; k++)
        CHECK(answer[2 + k] == 0);
    CHECK(answer[10] <= (number == 0) && (number == 0 || answer[9] == 0));
    return number;
}

static const uint32_t opened[KZ_RECORD]; /* the header state with all numbers 0 */

/* What the header says. */
struct header {
    size_t entries; /* (N+1)*n */
    uint32_t form;
};

/* The header from the record, or else from the first two bytes; all 0 while they are not both there. */
static struct header header_of(const uint32_t *given, const uint8_t *bytes, size_t length)
{
    struct header h = { 0, 0 };
    uint32_t first, second;
    size_t held = given[13] == 8;
    if (given[0] != 0) {
        h.entries = (size_t)(given[3] + 1) * given[4];
        h.form = given[15];
    } else if (held + length >= 2) {
        first = held ? given[14] : bytes[0];
        second = bytes[1 - held];
        h.entries = (size_t)((first >> 4 & 7) + 1) * ((first & 15) * 256 + second + 1);
        h.form = first >> 7;
    }
    return h;
}

/* The numbers that a reading finds; 12 is none of them. */
static int is_found(uint32_t number)
{
    return number == KZ_DIMENSION || number == KZ_SHORT_TABLES || number == KZ_CUT ||
           (number >= KZ_TOO_MANY && number <= KZ_BYTE_AFTER) ||
           (number >= KZ_NOT_NUMBERED && number <= KZ_LINKED) || number == KZ_ONE_BODY;
}

/* Those that a session is answered by. */
static int is_of_session(uint32_t number)
{
    return number == 0 || is_found(number) || number == KZ_INDEX || number == KZ_UNFIT || number == KZ_CLOSED;
}

/* After a reading call that was not answered 19, 20 or by a refusal of before. 15 is of the one form, 30 of the
   other, with all steps done. */
static void after_reading(uint32_t number, struct header h)
{
    CHECK(number == 0 || is_found(number));
    if (number == KZ_DIMENSION || number == KZ_SHORT_TABLES)
        CHECK(KEPT(built));
    else
        CHECK(KEPT_FROM(built, h.entries));
    if (number >= KZ_CUT)
        CHECK(h.entries <= LENGTH(built) && no_link(built, h.entries));
    if (number != 0)
        CHECK(answer[2] == answer[1] && answer[3] == 0 && answer[4] == 0);
    if (number == KZ_TOO_FEW)
        CHECK(h.form == ONE_BODY && answer[1] < h.entries);
    if (number == KZ_ONE_BODY)
        CHECK(h.form == SEVERAL_BODIES && answer[1] == h.entries);
}

static uint32_t call_read(void)
{
    struct header h = header_of(opened, page, LENGTH(page));
    uint32_t number;
    LEND(answer, KZ_READ_ANSWER);
    before_call();
    number = kz_read(page, LENGTH(page), built, LENGTH(built), answer);
    after_answer(number, 1u << BUILT, number == 0 || is_found(number));
    after_reading(number, h);
    if (number == 0) {
        CHECK(answer[2] == h.entries && (answer[3] + 1) * answer[4] == h.entries);
        CHECK(h.entries <= LENGTH(built) && all_below(built, h.entries, answer[4]));
    }
    return number;
}

static void call_open(void)
{
    LEND(record, KZ_RECORD);
    before_call();
    kz_open(record);
    after_call(1u << RECORD);
    CHECK(same_numbers(record, opened, KZ_RECORD));
}

/* Answers that leave the record and the tables as they were lent. */
static int answered_as_before(uint32_t number)
{
    return number == KZ_UNFIT || number == KZ_CLOSED || record_was[0] == 4;
}

/* Form and bodies of a record that was not refused: 0 before the header, and then the header's form and at least one
   body, of as many as there are darts numbered. */
static void after_bodies(struct header h)
{
    if (record[0] == 0) {
        CHECK(record[15] == 0 && record[16] == 0);
        return;
    }
    CHECK(record[15] == h.form && record[16] >= 1 && record[16] >= record_was[16]);
    CHECK(record[16] <= (record[15] == SEVERAL_BODIES ? record[5] : 1));
}

static void after_session(uint32_t number, struct header h)
{
    uint32_t steps = 0;
    int k;
    if (answered_as_before(number)) {
        CHECK(KEPT(record) && KEPT(built));
        CHECK(answer[2] == answer[1] && answer[3] == 0 && answer[4] == 0);
        CHECK(number == KZ_UNFIT || number == KZ_CLOSED || (number == record_was[1] && answer[1] == record_was[2]));
        return;
    }
    after_reading(number, h);
    if (number != 0) {
        CHECK(record[0] == 4 && record[1] == number && record[2] == answer[1]);
        CHECK(same_numbers(record + 3, opened, KZ_RECORD - 3));
        return;
    }
    for (k = 6; k <= 12; k++)
        steps += record[k];
    CHECK(record[0] <= 3 && record[1] == 0 && record[2] == 0);
    CHECK(answer[2] == steps && answer[3] == record[3] && answer[4] == record[4]);
    CHECK(record[13] <= 13 && record[14] < 1u << record[13]);
    after_bodies(h);
}

/* The bytes to fetch, by the record that a page leaves and its number: of a header those that are not there, of a
   symbol by how many of its bits wait. */
static uint32_t bytes_to_fetch(uint32_t number)
{
    static const uint32_t of_symbol[14] = { 1, 1, 2, 2, 2, 2, 1, 1, 1, 1, 1, 1, 1, 1 };
    if (number != 0 || record[0] > 1)
        return 0;
    return record[0] == 0 ? 2 - record[13] / 8 : of_symbol[record[13]];
}

static uint32_t call_page(void)
{
    uint32_t number;
    LEND(answer, KZ_PAGE_ANSWER);
    before_call();
    number = kz_page(record, page, LENGTH(page), built, LENGTH(built), answer);
    after_answer(number, 1u << RECORD | 1u << BUILT, is_of_session(number));
    after_session(number, header_of(record_was, page, LENGTH(page)));
    CHECK(number != KZ_CUT || record_was[0] == 4);
    CHECK(number != 0 || record[0] <= 2);
    CHECK(answer[5] == bytes_to_fetch(number));
    return number;
}

static uint32_t call_close(void)
{
    uint32_t number;
    LEND(answer, KZ_READ_ANSWER);
    before_call();
    number = kz_close(record, built, LENGTH(built), answer);
    after_answer(number, 1u << RECORD | 1u << BUILT, is_of_session(number));
    after_session(number, header_of(record_was, page, 0));
    CHECK(number == 0 || number == KZ_CUT || answered_as_before(number));
    if (number == 0)
        CHECK(record[0] == 3 && KEPT_FROM(record, 1) && KEPT(built));
    return number;
}

/* The last call's number and place, as a case expects them. */
static void expect_answer(uint32_t number, uint32_t place, const char *file, int line)
{
    checks++;
    if ((answer[0] != number || answer[1] != place) && ++failures <= TOLD)
        printf("%s:%d: %s: answered %u at %u, not %u at %u\n", file, line, what, answer[0], answer[1], number, place);
}

#define EXPECT_LAST(number, place) expect_answer(number, place, __FILE__, __LINE__)
#define EXPECT(call, number, place) ((void)(call), EXPECT_LAST(number, place))

/* The same of a face file. */
static void expect_faces(uint32_t number, uint64_t place, const char *file, int line)
{
    checks++;
    if ((wide[0] != number || wide[1] != place) && ++failures <= TOLD)
        printf("%s:%d: %s: answered %llu at %llu, not %u at %llu\n", file, line, what, (unsigned long long)wide[0],
               (unsigned long long)wide[1], number, (unsigned long long)place);
}

#define EXPECT_FACES(number, place) ((void)call_faces(), expect_faces(number, place, __FILE__, __LINE__))

#endif
