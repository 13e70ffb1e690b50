/*
 * Tests of the surface for C: every call of kanzhulet.h, every refusal number, rooms between guards. rooms.h checks
 * what holds of every call; the cases here say which answer an input gets. The last line printed is "surface: N checks,
 * 0 failed", and the exit status is 1 if any check failed.
 */
#include "kanzhulet.h"
#include "rooms.h"
#include "maps.h"
#include "face_files.h"
#include <string.h>

#define MOST (~(uint64_t)0)
#define WIDE ((uint64_t)1 << 32) /* 0 for a call that would drop the upper half */

/* Reading: the streams. */

struct reading {
    const char *name, *hex;
    size_t room; /* entries of the tables lent */
    uint32_t number, place, dim, darts;
};

static const struct reading readings[] = {
    /* The examples of the requirements. */
    { "P1", "10 00 A0", 2, 0, 0, 1, 1 },
    { "P2", "10 01 50", 4, 0, 0, 1, 2 },
    { "P3", "10 05 06 00 A0", 12, 0, 0, 1, 6 },
    { "P4", "", 4, 11, 0, 0, 0 },
    { "P5", "10 01", 4, 11, 0, 0, 0 },
    { "P6", "70 00", 16, 1, 0, 0, 0 },
    { "P7", "10 00 00", 2, 13, 0, 0, 0 },
    { "P8", "10 01 A0", 4, 15, 2, 0, 0 },
    { "P9", "10 01 C0 00", 4, 22, 0, 0, 0 },
    { "P10", "20 02 A2 80", 9, 14, 8, 0, 0 },
    { "P11", "30 07 45 41 80 3D 00", 32, 16, 32, 0, 0 },
    { "P12", "10 00 A1", 2, 17, 2, 0, 0 },
    { "P13", "10 00 A0 00", 2, 18, 2, 0, 0 },
    /* Longer rooms: nothing is written past (N+1)n. */
    { "P3, longer room", "10 05 06 00 A0", 30, 0, 0, 1, 6 },
    { "P5, longer room", "10 01", 40, 11, 0, 0, 0 },
    { "P11, longer room", "30 07 45 41 80 3D 00", 40, 16, 32, 0, 0 },
    { "paper's figure 9", "20 0B 06 00 B4 06 01 74", 40, 0, 0, 2, 12 },
    /* A room one entry short, seen as soon as both header bytes are there and not before. */
    { "P5, short room", "10 01", 3, 3, 0, 0, 0 },
    { "P3, no room", "10 05 06 00 A0", 0, 3, 0, 0, 0 },
    { "half a header, no room", "10", 0, 11, 0, 0, 0 },
    { "greatest header, short room", "6F FF", KZ_MAX_TABLES - 1, 3, 0, 0, 0 },
    { "greatest header", "6F FF", KZ_MAX_TABLES, 11, 0, 0, 0 },
    /* The dimension, not before the second byte and before the room. */
    { "half a bad header", "70", 16, 11, 0, 0, 0 },
    { "dimension 0", "00 00", 0, 1, 0, 0, 0 },
    { "dimension 0 of several bodies", "80 01 AA", 0, 1, 0, 0, 0 },
    { "dimension 7 of several bodies", "FF FF FF", 8, 1, 0, 0, 0 },
    { "half a bad header of several bodies", "80", 16, 11, 0, 0, 0 },
    /* Every dimension's lone dart; with four ranks the last symbol ends on a byte border and there is no fill. */
    { "lone dart in 2", "20 00 A8", 3, 0, 0, 2, 1 },
    { "lone dart in 3", "30 00 AA", 4, 0, 0, 3, 1 },
    { "lone dart in 4", "40 00 AA 80", 5, 0, 0, 4, 1 },
    { "lone dart in 5", "50 00 AA A0", 6, 0, 0, 5, 1 },
    { "lone dart in 6", "60 00 AA A8", 7, 0, 0, 6, 1 },
    { "no fill, a byte after", "30 00 AA 00", 4, 18, 4, 0, 0 },
    { "last fill bit", "60 00 AA A9", 7, 17, 7, 0, 0 },
    /* A named dart: judged once its twelve bits are in; not one without number, not the dart itself (P9), not one that
       is linked. */
    { "index not all there", "10 01 FF", 4, 11, 0, 0, 0 },
    { "index without number", "10 02 60 0A", 6, 21, 2, 0, 0 },
    { "index linked already", "10 03 18 00 00", 8, 23, 5, 0, 0 },
    /* Disagreement with a larger i is found at the end, not at the step. */
    { "smallest 16", "20 03 91 58 01 80", 12, 16, 12, 0, 0 },
    /* Of several faults at the end the first of 15, 16, 17, 18; a byte after the end is 18 whatever it holds. */
    { "15 before 17", "10 01 A1 00", 4, 15, 2, 0, 0 },
    { "16 before 17", "30 07 45 41 80 3D 01", 32, 16, 32, 0, 0 },
    { "17 before 18", "10 00 A1 00", 2, 17, 2, 0, 0 },
    { "set bits after the end", "10 00 A0 FF", 2, 18, 2, 0, 0 },
    /* Several bodies: each next one begins without a symbol, N in the answer is N. */
    { "two lone darts", "90 01 AA", 4, 0, 0, 1, 2 },
    { "two lone darts in 2", "A0 01 AA A0", 9, 0, 0, 2, 2 },
    { "two lone darts in 6", "E0 01 AA AA AA A0", 14, 0, 0, 6, 2 },
    { "two squares", "A0 0F 01 80 3D 50 0C 03 EA 80", 50, 0, 0, 2, 16 },
    { "greatest header of several bodies", "EF FF", KZ_MAX_TABLES, 11, 0, 0, 0 },
    { "greatest header of several bodies, short room", "EF FF", KZ_MAX_TABLES - 1, 3, 0, 0, 0 },
    /* One body only: before 16, 17 and 18, and 15 is not given. */
    { "one body", "90 00 A0", 2, 30, 2, 0, 0 },
    { "P2 as several bodies", "90 01 50", 4, 30, 4, 0, 0 },
    { "30 before 16", "B0 07 45 41 80 3D 00", 40, 30, 32, 0, 0 },
    { "30 before 17", "90 00 A1 00", 2, 30, 2, 0, 0 },
    { "30 before 18", "90 00 A0 00", 9, 30, 2, 0, 0 },
    /* The second body has begun before its first bit, and the faults of its steps are those of any step. */
    { "second body cut", "90 01", 4, 11, 0, 0, 0 },
    { "third body cut", "90 02 AA", 6, 11, 4, 0, 0 },
    { "new dart in the last body", "90 01 A0", 8, 13, 2, 0, 0 },
    { "index of an earlier body", "90 02 AC 00 00", 6, 23, 2, 0, 0 },
    { "index of the second body's root", "90 02 AC 00 40", 6, 22, 2, 0, 0 },
    { "index of a body to come", "90 02 AC 00 80", 6, 21, 2, 0, 0 },
    { "P10 after a lone dart", "A0 03 AA 8A 00", 12, 14, 11, 0, 0 },
    { "16 in the first of two bodies", "B0 08 45 41 80 3D 55 00", 36, 16, 36, 0, 0 },
    { "16 before 17, two bodies", "B0 08 45 41 80 3D 55 01", 36, 16, 36, 0, 0 },
    { "last fill bit of two bodies", "A0 01 AA A1 00", 6, 17, 6, 0, 0 },
    { "a byte after two bodies", "A0 01 AA A0 FF", 6, 18, 6, 0, 0 },
};

enum { READINGS = sizeof readings / sizeof readings[0] };

static unsigned digit(char c)
{
    return c <= '9' ? (unsigned)(c - '0') : (unsigned)(c - 'A' + 10);
}

/* The bytes that pairs of hex digits spell; how many. */
static size_t spell(const char *hex, uint8_t *bytes)
{
    size_t length = 0;
    for (; *hex != 0; hex += hex[2] == 0 ? 2 : 3)
        bytes[length++] = (uint8_t)(digit(hex[0]) * 16 + digit(hex[1]));
    return length;
}

static void lend_page(const uint8_t *bytes, size_t length)
{
    size_t k;
    LEND(page, length);
    for (k = 0; k < length; k++)
        page[k] = bytes[k];
}

static void lend_page_of(const char *hex)
{
    uint8_t bytes[16];
    lend_page(bytes, spell(hex, bytes));
}

/* What one whole read gave, for the sessions to be held against. */
static uint32_t whole_answer[KZ_READ_ANSWER];
static uint16_t whole_tables[TABLES];

static void read_whole(const uint8_t *bytes, size_t length, size_t room)
{
    size_t k;
    lend_page(bytes, length);
    LEND(built, room);
    call_read();
    for (k = 0; k < KZ_READ_ANSWER; k++)
        whole_answer[k] = answer[k];
    for (k = 0; k < room; k++)
        whole_tables[k] = built[k];
}

static void expect_as_whole(void)
{
    EXPECT_LAST(whole_answer[0], whole_answer[1]);
    CHECK(same_numbers(answer, whole_answer, KZ_READ_ANSWER));
    CHECK(same_entries(built, whole_tables, LENGTH(built)));
}

static void read_each_stream(void)
{
    uint8_t bytes[16];
    size_t k;
    for (k = 0; k < READINGS; k++) {
        const struct reading *r = &readings[k];
        begin(r->name);
        read_whole(bytes, spell(r->hex, bytes), r->room);
        EXPECT_LAST(r->number, r->place);
        CHECK(answer[2] == (r->number == 0 ? (r->dim + 1) * r->darts : r->place));
        CHECK(answer[3] == r->dim && answer[4] == r->darts);
    }
}

static void expect_built(const char *hex, size_t entries, const uint16_t *tables)
{
    lend_page_of(hex);
    LEND(built, entries);
    EXPECT(call_read(), 0, 0);
    CHECK(same_entries(built, tables, entries));
}

/* P3's tables tell a walk that goes back to queue 0 after a new dart from one that does not; its answer and cells do
   not. */
static void read_known_tables(void)
{
    static const uint16_t p1[2] = { 0, 0 };
    static const uint16_t p2[4] = { 1, 0, 0, 1 };
    static const uint16_t p3[12] = { 1, 2, 0, 4, 3, 0, 2, 5, 5, 1, 4, 3 };
    static const uint16_t two_bodies[14] = { 1, 1, 0, 0, 3, 2, 2, 4, 5, 3, 4, 6, 6, 5 }; /* a loop and a chain */
    begin("tables of P1 to P3, and of two bodies");
    expect_built("10 00 A0", 2, p1);
    expect_built("10 01 50", 4, p2);
    expect_built("10 05 06 00 A0", 12, p3);
    expect_built("90 06 60 02 84", 14, two_bodies);
}

/* Reading: sessions. */

static uint32_t away_record[KZ_RECORD];
static uint16_t away_tables[TABLES];

/* A session's numbers and its tables put away, another stream read in the same rooms, and both taken up again:
   nothing else belongs to a session. */
static void carry_elsewhere(void)
{
    size_t k, room = LENGTH(built);
    for (k = 0; k < KZ_RECORD; k++)
        away_record[k] = record[k];
    for (k = 0; k < room; k++)
        away_tables[k] = built[k];
    call_open();
    LEND(built, 4);
    lend_page_of("10 01");
    EXPECT(call_page(), 0, 0);
    LEND(record, KZ_RECORD);
    LEND(built, room);
    for (k = 0; k < KZ_RECORD; k++)
        record[k] = away_record[k];
    for (k = 0; k < room; k++)
        built[k] = away_tables[k];
}

/* A page that may be the last to be accepted: a refusal must be the whole read's. */
static void feed_page(const uint8_t *bytes, size_t length)
{
    lend_page(bytes, length);
    if (call_page() != 0)
        EXPECT_LAST(whole_answer[0], whole_answer[1]);
}

static void open_in(size_t room)
{
    call_open();
    LEND(built, room);
}

static void expect_close_as_whole(void)
{
    call_close();
    expect_as_whole();
}

/* Two pages, cut at each place, with the session carried over the cut. */
static void feed_cut_everywhere(const uint8_t *bytes, size_t length, size_t room)
{
    size_t cut;
    for (cut = 0; cut <= length; cut++) {
        open_in(room);
        feed_page(bytes, cut);
        carry_elsewhere();
        feed_page(bytes + cut, length - cut);
        expect_close_as_whole();
    }
}

/* Pages of one size, with an empty page after each. */
static void feed_pages_of(const uint8_t *bytes, size_t length, size_t room, size_t size)
{
    size_t start, step;
    open_in(room);
    for (start = 0; start < length; start += step) {
        step = length - start < size ? length - start : size;
        feed_page(bytes + start, step);
        feed_page(bytes, 0);
    }
    expect_close_as_whole();
}

static void sessions_agree_with_whole_reads(void)
{
    static const size_t sizes[] = { 1, 2, 3, 7 };
    uint8_t bytes[16];
    size_t k, s, length;
    for (k = 0; k < READINGS; k++) {
        begin(readings[k].name);
        length = spell(readings[k].hex, bytes);
        read_whole(bytes, length, readings[k].room);
        feed_cut_everywhere(bytes, length, readings[k].room);
        for (s = 0; s < sizeof sizes / sizeof sizes[0]; s++)
            feed_pages_of(bytes, length, readings[k].room, sizes[s]);
    }
}

static void expect_record(const uint32_t *numbers)
{
    CHECK(same_numbers(record, numbers, KZ_RECORD));
}

static void expect_reading(uint32_t steps, uint32_t dim, uint32_t darts)
{
    EXPECT_LAST(0, 0);
    CHECK(answer[2] == steps && answer[3] == dim && answer[4] == darts);
}

static void give(const char *hex)
{
    lend_page_of(hex);
    call_page();
}

/* Every step is done that needs no bit beyond those seen, no more and no less. */
static void record_after_each_byte(void)
{
    static const uint32_t first[KZ_RECORD] = { 0, 0, 0, 0, 0, 0, 0, 0, 0, 0, 0, 0, 0, 8, 0x10, 0, 0 };
    static const uint32_t header[KZ_RECORD] = { 1, 0, 0, 1, 4, 1, 0, 0, 0, 0, 0, 0, 0, 0, 0, 0, 1 };
    static const uint32_t steps[KZ_RECORD] = { 1, 0, 0, 1, 4, 4, 4, 1, 0, 0, 0, 0, 0, 5, 0x18, 0, 1 };
    static const uint32_t bits[KZ_RECORD] = { 1, 0, 0, 1, 4, 4, 4, 1, 0, 0, 0, 0, 0, 13, 0x1800, 0, 1 };
    begin("record after each byte");
    open_in(8);
    give("10");
    expect_reading(0, 0, 0);
    expect_record(first);
    give("03");
    expect_reading(0, 1, 4);
    expect_record(header);
    give("18");
    expect_reading(5, 1, 4);
    expect_record(steps);
    give("00");
    expect_reading(5, 1, 4);
    expect_record(bits);
    EXPECT(call_close(), KZ_CUT, 5);
    EXPECT(call_close(), KZ_CUT, 5);
    EXPECT(give("00"), KZ_CUT, 5);
}

/* A body begins as soon as the one before has ended, before any bit of its own, and the record tells. Three lone darts,
   then the same closed early. */
static void bodies_after_each_byte(void)
{
    static const uint32_t first[KZ_RECORD] = { 0, 0, 0, 0, 0, 0, 0, 0, 0, 0, 0, 0, 0, 8, 0x90, 0, 0 };
    static const uint32_t header[KZ_RECORD] = { 1, 0, 0, 1, 3, 1, 0, 0, 0, 0, 0, 0, 0, 0, 0, 1, 1 };
    static const uint32_t third[KZ_RECORD] = { 1, 0, 0, 1, 3, 3, 2, 2, 0, 0, 0, 0, 0, 0, 0, 1, 3 };
    static const uint32_t complete[KZ_RECORD] = { 2, 0, 0, 1, 3, 3, 3, 3, 0, 0, 0, 0, 0, 0, 0, 1, 3 };
    static const uint32_t closed[KZ_RECORD] = { 3, 0, 0, 1, 3, 3, 3, 3, 0, 0, 0, 0, 0, 0, 0, 1, 3 };
    static const uint32_t cut[KZ_RECORD] = { 4, 11, 4, 0, 0, 0, 0, 0, 0, 0, 0, 0, 0, 0, 0, 0, 0 };
    begin("bodies after each byte");
    open_in(6);
    give("90");
    expect_reading(0, 0, 0);
    expect_record(first);
    give("02");
    expect_reading(0, 1, 3);
    expect_record(header);
    give("AA");
    expect_reading(4, 1, 3);
    expect_record(third);
    give("A0");
    expect_reading(6, 1, 3);
    expect_record(complete);
    call_close();
    expect_reading(6, 1, 3);
    expect_record(closed);
    EXPECT(call_close(), KZ_CLOSED, 0);
    open_in(6);
    give("90 02 AA");
    EXPECT(call_close(), KZ_CUT, 4);
    expect_record(cut);
}

/* 30 is a session's refusal like any other: the record says it and nothing else, and it is repeated. */
static void one_body_refuses_a_session(void)
{
    static const uint32_t refused[KZ_RECORD] = { 4, 30, 4, 0, 0, 0, 0, 0, 0, 0, 0, 0, 0, 0, 0, 0, 0 };
    begin("one body in a session");
    open_in(5);
    give("90 01");
    expect_reading(0, 1, 2);
    EXPECT(give("50"), KZ_ONE_BODY, 4);
    CHECK(no_link(built, 4) && KEPT_FROM(built, 4));
    expect_record(refused);
    EXPECT(give(""), KZ_ONE_BODY, 4);
    EXPECT(give("10 01 50"), KZ_ONE_BODY, 4);
    EXPECT(call_close(), KZ_ONE_BODY, 4);
    expect_record(refused);
}

static void index_waits_for_its_last_bit(void)
{
    static const uint32_t waits[KZ_RECORD] = { 1, 0, 0, 1, 2, 1, 0, 0, 0, 0, 0, 0, 0, 8, 0xC1, 0, 1 };
    begin("index waits");
    open_in(4);
    give("10 01 C1");
    expect_reading(0, 1, 2);
    expect_record(waits);
    EXPECT(give("00"), KZ_NOT_NUMBERED, 0);
}

static void empty_page_changes_nothing(void)
{
    begin("empty page");
    open_in(4);
    give("");
    expect_reading(0, 0, 0);
    give("10 01");
    give("");
    expect_reading(0, 1, 2);
    CHECK(KEPT(record) && KEPT(built));
    give("50");
    give("");
    expect_reading(4, 1, 2);
    CHECK(KEPT(record) && KEPT(built));
}

static void closed_once(void)
{
    static const uint32_t complete[KZ_RECORD] = { 2, 0, 0, 1, 2, 2, 2, 2, 0, 0, 0, 0, 0, 0, 0, 0, 1 };
    static const uint32_t closed[KZ_RECORD] = { 3, 0, 0, 1, 2, 2, 2, 2, 0, 0, 0, 0, 0, 0, 0, 0, 1 };
    begin("closed once");
    open_in(4);
    give("10 01 50");
    expect_record(complete);
    call_close();
    expect_reading(4, 1, 2);
    expect_record(closed);
    EXPECT(call_close(), KZ_CLOSED, 0);
    EXPECT(give("00"), KZ_CLOSED, 0);
    EXPECT(give(""), KZ_CLOSED, 0);
    LEND(built, 0);
    EXPECT(call_close(), KZ_CLOSED, 0);
}

static void byte_after_a_complete_session(void)
{
    begin("byte after the end");
    open_in(4);
    give("10 01 50");
    EXPECT(give("00"), KZ_BYTE_AFTER, 4);
    CHECK(no_link(built, 4));
    EXPECT(give(""), KZ_BYTE_AFTER, 4);
    EXPECT(call_close(), KZ_BYTE_AFTER, 4);
}

/* Lent records: numbers and tables of any content. */

static void lend_record(const uint32_t *numbers, size_t room, const uint16_t *tables)
{
    size_t k;
    LEND(record, KZ_RECORD);
    LEND(built, room);
    for (k = 0; k < KZ_RECORD; k++)
        record[k] = numbers[k];
    for (k = 0; k < room; k++)
        built[k] = tables[k];
}

struct lent {
    const char *name;
    uint32_t record[KZ_RECORD];
    size_t room;
    uint16_t tables[4];
};

enum { NO = KZ_NO_LINK };

static const struct lent unfit[] = {
    { "state 5", { 5 }, 0, { 0 } },
    { "greatest state", { 0xFFFFFFFF }, 0, { 0 } },
    { "refusal number in header state", { 0, 11 }, 0, { 0 } },
    { "refusal place in header state", { 0, 0, 1 }, 0, { 0 } },
    { "refusal number when closed", { 3, 20 }, 0, { 0 } },
    { "position 65536", { 3, 0, 0, 0, 0, 0, 65536 }, 0, { 0 } },
    { "last position 65536", { 3, 0, 0, 0, 0, 0, 0, 0, 0, 0, 0, 0, 65536 }, 0, { 0 } },
    { "value 65536 when refused", { 4, 11, 0, 0, 0, 0, 0, 0, 0, 0, 0, 0, 0, 0, 65536 }, 0, { 0 } },
    { "header with a count", { 0, 0, 0, 0, 0, 1 }, 0, { 0 } },
    { "header with 7 bits", { 0, 0, 0, 0, 0, 0, 0, 0, 0, 0, 0, 0, 0, 7, 1 }, 0, { 0 } },
    { "header with value past 8 bits", { 0, 0, 0, 0, 0, 0, 0, 0, 0, 0, 0, 0, 0, 8, 256 }, 0, { 0 } },
    { "no bits but a value", { 0, 0, 0, 0, 0, 0, 0, 0, 0, 0, 0, 0, 0, 0, 5 }, 0, { 0 } },
    { "refused by 0", { 4, 0, 0 }, 0, { 0 } },
    { "refused by 2", { 4, 2, 0 }, 0, { 0 } },
    { "refused by 10", { 4, 10, 0 }, 0, { 0 } },
    { "refused by 1 at 1", { 4, 1, 1 }, 0, { 0 } },
    { "refused by 3 at 1", { 4, 3, 1 }, 0, { 0 } },
    { "refused by 19", { 4, 19, 0 }, 0, { 0 } },
    { "refused by 20", { 4, 20, 0 }, 0, { 0 } },
    { "refused by 24", { 4, 24, 0 }, 0, { 0 } },
    { "refused by 25", { 4, 25, 0 }, 0, { 0 } },
    { "refused by 26", { 4, 26, 0 }, 0, { 0 } },
    { "refused by 29", { 4, 29, 0 }, 0, { 0 } },
    { "refused by 31", { 4, 31, 0 }, 0, { 0 } },
    { "form 2 of a header", { 0, [15] = 2 }, 0, { 0 } },
    { "form 2 when closed", { 3, [15] = 2 }, 0, { 0 } },
    { "greatest form when closed", { 3, [15] = 0xFFFFFFFF }, 0, { 0 } },
    { "form 2 when refused", { 4, 11, [15] = 2 }, 0, { 0 } },
    { "65536 bodies when closed", { 3, [16] = 65536 }, 0, { 0 } },
    { "header with a form", { 0, [15] = 1 }, 0, { 0 } },
    { "header with a body", { 0, [16] = 1 }, 0, { 0 } },
    { "header with form and body", { 0, [13] = 8, [14] = 0x90, [15] = 1, [16] = 1 }, 0, { 0 } },
    { "refused with a form", { 4, 11, [15] = 1 }, 0, { 0 } },
    { "refused with a body", { 4, 11, [16] = 1 }, 0, { 0 } },
    { "refused by 30 with form and bodies", { 4, 30, 4, [15] = 1, [16] = 1 }, 0, { 0 } },
    { "running in dimension 0", { 1, 0, 0, 0, 2, 1, [16] = 1 }, 4, { NO, NO, NO, NO } },
    { "running in dimension 7", { 1, 0, 0, 7, 2, 1, [16] = 1 }, 4, { NO, NO, NO, NO } },
    { "running without darts", { 1, 0, 0, 1, 0, 1, [16] = 1 }, 4, { NO, NO, NO, NO } },
    { "running with 4097 darts", { 1, 0, 0, 1, 4097, 1, [16] = 1 }, 4, { NO, NO, NO, NO } },
    { "running, short tables", { 1, 0, 0, 1, 2, 1, [16] = 1 }, 3, { NO, NO, NO } },
    { "count 0", { 1, 0, 0, 1, 2, 0, [16] = 1 }, 4, { NO, NO, NO, NO } },
    { "count above n", { 1, 0, 0, 1, 2, 3, [16] = 1 }, 4, { NO, NO, NO, NO } },
    { "position above count", { 1, 0, 0, 1, 2, 1, 2, [16] = 1 }, 4, { 0, NO, 0, NO } },
    { "rising positions", { 1, 0, 0, 1, 2, 2, 1, 2, [16] = 1 }, 4, { 1, 1, 0, 0 } },
    { "position past N", { 1, 0, 0, 1, 2, 2, 2, 1, 1, [16] = 1 }, 4, { 1, 0, 0, NO } },
    { "entry not below count", { 1, 0, 0, 1, 2, 1, 1, 0, [16] = 1 }, 4, { 1, NO, NO, NO } },
    { "entry missing behind a position", { 1, 0, 0, 1, 2, 2, 1, 0, [16] = 1 }, 4, { NO, NO, NO, NO } },
    { "tables by rank", { 1, 0, 0, 1, 2, 2, 2, 0, [16] = 1 }, 4, { 1, 0, NO, NO } },
    { "entry of a dart without number", { 1, 0, 0, 1, 2, 1, 0, [16] = 1 }, 4, { NO, NO, 0, NO } },
    { "next step known", { 1, 0, 0, 1, 2, 2, 1, 0, [16] = 1 }, 4, { 1, NO, 0, NO } },
    { "14 waiting bits", { 1, 0, 0, 1, 2, 1, [13] = 14, 0x3000, [16] = 1 }, 4, { NO, NO, NO, NO } },
    { "waiting bits of a whole symbol", { 1, 0, 0, 1, 2, 1, [13] = 2, 2, [16] = 1 }, 4, { NO, NO, NO, NO } },
    { "complete with a step left", { 2, 0, 0, 1, 2, 2, 2, 1, [16] = 1 }, 4, { 1, 0, 0, NO } },
    { "complete without its tables", { 2, 0, 0, 1, 2, 2, 2, 2, [16] = 1 }, 4, { 1, NO, 0, NO } },
    { "running without a body", { 1, 0, 0, 1, 2, 1 }, 4, { NO, NO, NO, NO } },
    { "running in form 2", { 1, 0, 0, 1, 2, 1, [15] = 2, [16] = 1 }, 4, { NO, NO, NO, NO } },
    { "several bodies without a body", { 1, 0, 0, 1, 2, 1, [15] = 1 }, 4, { NO, NO, NO, NO } },
    { "more bodies than darts numbered", { 1, 0, 0, 1, 2, 1, [15] = 1, [16] = 2 }, 4, { NO, NO, NO, NO } },
    { "two bodies in the form of one", { 1, 0, 0, 1, 2, 2, 1, 1, [16] = 2 }, 4, { 0, 0, NO, NO } },
    { "a body that has not begun", { 1, 0, 0, 1, 2, 1, 1, 1, [15] = 1, [16] = 1 }, 4, { 0, 0, NO, NO } },
    { "complete without a body", { 2, 0, 0, 1, 2, 2, 2, 2 }, 4, { 0, 0, 1, 1 } },
    { "complete, two bodies in the form of one", { 2, 0, 0, 1, 2, 2, 2, 2, [16] = 2 }, 4, { 0, 0, 1, 1 } },
    { "complete, three bodies of two darts", { 2, 0, 0, 1, 2, 2, 2, 2, [15] = 1, [16] = 3 }, 4, { 0, 0, 1, 1 } },
    { "complete with waiting bits", { 2, 0, 0, 1, 2, 2, 2, 2, [13] = 1, 1, [16] = 1 }, 4, { 1, 0, 0, 1 } },
};

static void unfit_records_are_left(void)
{
    size_t k;
    for (k = 0; k < sizeof unfit / sizeof unfit[0]; k++) {
        begin(unfit[k].name);
        lend_record(unfit[k].record, unfit[k].room, unfit[k].tables);
        EXPECT(give("80"), KZ_UNFIT, 0);
        EXPECT(give(""), KZ_UNFIT, 0);
        EXPECT(call_close(), KZ_UNFIT, 0);
    }
}

/* Fit is asked of a refused record only in its number and place, form and bodies, and of a closed one nothing but
   sixteen bits and a form. */
static void lent_refusals_and_closed_records(void)
{
    static const uint32_t refused[KZ_RECORD] = { 4, 11, 4000000000u, 9, 8, 7, 6, 5, 4, 3, 2, 1, 0, 65535, 65535, 0, 0 };
    static const uint32_t closed[KZ_RECORD] = { 3, 0, 0, 9, 65535, 65535, 1, 2, 3, 4, 5, 6, 7, 65535, 65535, 1, 65535 };
    static const uint16_t tables[4] = { 7, 7, 7, 7 };
    uint32_t numbers[KZ_RECORD] = { 4 };
    begin("lent refusals");
    lend_record(refused, 4, tables);
    EXPECT(give("10 01 50"), KZ_CUT, 4000000000u);
    EXPECT(call_close(), KZ_CUT, 4000000000u);
    for (numbers[1] = KZ_CUT; numbers[1] <= KZ_ONE_BODY; numbers[1]++) {
        if (!is_found(numbers[1]) && numbers[1] != KZ_INDEX)
            continue;
        numbers[2] = 3 * numbers[1];
        lend_record(numbers, 4, tables);
        EXPECT(give("80"), numbers[1], numbers[2]);
        EXPECT(call_close(), numbers[1], numbers[2]);
    }
    lend_record(closed, 4, tables);
    EXPECT(give("10 01 50"), KZ_CLOSED, 0);
    EXPECT(call_close(), KZ_CLOSED, 0);
}

/* A lent session of two darts goes on to its end with these bytes, and its tables are then the others. */
static void expect_goes_on(const uint32_t *numbers, const uint16_t *tables, const char *hex, const uint16_t *after)
{
    lend_record(numbers, 4, tables);
    give(hex);
    expect_reading(4, 1, 2);
    CHECK(same_entries(built, after, 4));
    call_close();
    expect_reading(4, 1, 2);
}

/* First a session between two ranks: a0 of both darts is known, a1 of none. Then a fit one that no reading could leave,
   which is carried on by the same rules: its a0 is not its own inverse, and dimension 1 has no pair of ranks that the
   end could test. */
static void lent_session_goes_on(void)
{
    static const uint32_t rank_done[KZ_RECORD] = { 1, 0, 0, 1, 2, 2, 2, 0, [16] = 1 };
    static const uint32_t one_left[KZ_RECORD] = { 1, 0, 0, 1, 2, 2, 2, 1, [16] = 1 };
    static const uint16_t of_a_reading[2][4] = { { 1, NO, 0, NO }, { 1, 0, 0, 1 } };
    static const uint16_t of_none[2][4] = { { 0, 0, 0, NO }, { 0, 0, 0, 1 } };
    begin("lent session goes on");
    expect_goes_on(rank_done, of_a_reading[0], "A0", of_a_reading[1]);
    expect_goes_on(one_left, of_none[0], "80", of_none[1]);
}

/* What a session of several bodies is found to have at its end goes by the count that it was lent with, 1 to the darts
   numbered: a complete one is closed with any, and one that runs to its end with 1 is refused by 30. */
static void lent_bodies_go_on(void)
{
    static const uint16_t tables[4] = { 0, 0, 1, NO }, done[4] = { 0, 0, 1, 1 };
    uint32_t running[KZ_RECORD] = { 1, 0, 0, 1, 2, 2, 2, 1, [15] = 1 };
    uint32_t complete[KZ_RECORD] = { 2, 0, 0, 1, 2, 2, 2, 2, [15] = 1 };
    begin("lent bodies go on");
    running[16] = 2;
    expect_goes_on(running, tables, "80", done);
    CHECK(record[15] == 1 && record[16] == 2);
    running[16] = 1;
    lend_record(running, 4, tables);
    EXPECT(give("80"), KZ_ONE_BODY, 4);
    for (complete[16] = 1; complete[16] <= 2; complete[16]++) {
        expect_goes_on(complete, done, "", done);
        CHECK(record[15] == 1 && record[16] == complete[16]);
    }
}

/* Form and bodies that the record at hand may not have. */
static void expect_unfit_with(uint32_t lent_form, uint32_t bodies)
{
    const uint32_t had_form = record[15], had_bodies = record[16];
    record[15] = lent_form;
    record[16] = bodies;
    EXPECT(give("00"), KZ_UNFIT, 0);
    EXPECT(call_close(), KZ_UNFIT, 0);
    record[15] = had_form;
    record[16] = had_bodies;
}

/* The session at hand, in the form of several bodies if it has one: with another form, and with each kind of number
   of bodies that it may not have. Every number of them from 1 to the darts numbered is fit. */
static void spoil_bodies(void)
{
    const int walks = record[0] == 1 || record[0] == 2; /* or else form and bodies are 0 */
    const uint32_t bodies = record[16];
    uint32_t k;
    expect_unfit_with(2, bodies);
    expect_unfit_with(0xFFFFFFFF, bodies);
    expect_unfit_with(walks, 65536);
    expect_unfit_with(walks, record[5] + 1);
    expect_unfit_with(!walks, walks ? 2 : 0);
    expect_unfit_with(1, !walks);
    for (k = 1; walks && k <= record[5]; k++) {
        record[16] = k;
        EXPECT(give(""), 0, 0);
    }
    record[16] = bodies;
}

/* Two squares and two lone darts, by small pages: after each the session is spoiled in form and bodies, and then goes
   on as if it had not been; so is it when it is refused. A closed one has any number of bodies, of 16 bits. */
static void wrong_forms_and_bodies(void)
{
    static const char *const pages[] = { "", "A0", "11", "01 80 3D", "50", "0C", "03", "EA", "AA", "A8" };
    size_t k;
    begin("wrong forms and bodies");
    open_in(60);
    for (k = 0; k < sizeof pages / sizeof pages[0]; k++) {
        EXPECT(give(pages[k]), 0, 0);
        spoil_bodies();
    }
    CHECK(record[0] == 2 && record[15] == 1 && record[16] == 4);
    EXPECT(give("00"), KZ_BYTE_AFTER, 54);
    spoil_bodies();
    open_in(60);
    EXPECT(give("90 01 AA"), 0, 0);
    EXPECT(call_close(), 0, 0);
    record[16] = 65535;
    EXPECT(call_close(), KZ_CLOSED, 0);
    expect_unfit_with(2, 2);
    expect_unfit_with(1, 65536);
}

/* How much to fetch. */

/* A symbol that waits, with the first `bits` of the fourteen bits 11 and twelve zeros, at the first step of a map of
   two darts. */
static void lend_waiting(uint32_t bits)
{
    static const uint16_t tables[4] = { NO, NO, NO, NO };
    uint32_t numbers[KZ_RECORD] = { 1, 0, 0, 1, 2, 1, [16] = 1 };
    numbers[13] = bits;
    numbers[14] = 0x3000u >> (14 - bits);
    lend_record(numbers, 4, tables);
}

/* A page of fewer bytes than are to be fetched leaves the symbol waiting, with more bits and no step done. */
static void expect_waiting(uint32_t bits, const uint8_t *bytes, size_t length)
{
    lend_waiting(bits);
    lend_page(bytes, length);
    call_page();
    expect_reading(0, 1, 2);
    CHECK(record[0] == 1 && record[13] == bits + 8 * length);
}

/* So many bytes of zeros finish the symbol: steps are done, or a symbol is refused. */
static void expect_finished(uint32_t bits, size_t length)
{
    static const uint8_t zeros[2] = { 0, 0 };
    lend_waiting(bits);
    lend_page(zeros, length);
    call_page();
    CHECK(answer[2] > 0 || answer[0] == KZ_ITSELF);
}

/* For each number of bits that wait: no fewer bytes than are said finish the symbol, whatever they are; so many do. */
static void fetch_is_least(void)
{
    uint32_t bits, fetch, byte;
    uint8_t page_byte;
    begin("bytes to fetch");
    for (bits = 0; bits <= 13; bits++) {
        expect_waiting(bits, NULL, 0);
        fetch = answer[5];
        CHECK(fetch == (bits >= 2 && bits <= 5 ? 2 : 1));
        for (byte = 0; fetch == 2 && byte < 256; byte++) {
            page_byte = (uint8_t)byte;
            expect_waiting(bits, &page_byte, 1);
        }
        expect_finished(bits, fetch);
    }
}

/* A client that always asks for as many bytes as the last answer said; it begins with a page of none. An accepted
   stream it reads to its end, and never asks past it. */
static void fetch_as_told(const uint8_t *bytes, size_t length, size_t room)
{
    size_t at = 0;
    open_in(room);
    feed_page(bytes, 0);
    while (answer[5] > 0 && at + answer[5] <= length) {
        size_t fetch = answer[5];
        feed_page(bytes + at, fetch);
        at += fetch;
    }
    if (whole_answer[0] == 0)
        CHECK(at == length && answer[5] == 0);
    feed_page(bytes + at, length - at);
    expect_close_as_whole();
}

static void fetch_each_stream(void)
{
    uint8_t bytes[16];
    size_t k, length;
    for (k = 0; k < READINGS; k++) {
        begin(readings[k].name);
        length = spell(readings[k].hex, bytes);
        read_whole(bytes, length, readings[k].room);
        fetch_as_told(bytes, length, readings[k].room);
    }
}

/* The numbers that the requirements name, byte by byte; and 0 when complete, closed, refused or unfit. */
static void fetch_after_each_byte(void)
{
    static const struct step {
        const char *hex;
        uint32_t number, fetch;
    } steps[] = {
        { "", 0, 2 }, { "10", 0, 1 }, { "", 0, 1 }, { "03", 0, 1 }, { "18", 0, 2 }, { "00", 0, 1 },
        { "00", KZ_LINKED, 0 }, { "", KZ_LINKED, 0 },
    };
    size_t k;
    begin("bytes to fetch after each byte");
    open_in(8);
    for (k = 0; k < sizeof steps / sizeof steps[0]; k++) {
        give(steps[k].hex);
        CHECK(answer[0] == steps[k].number && answer[5] == steps[k].fetch);
    }
    open_in(4);
    give("10 01 50");
    CHECK(answer[0] == 0 && answer[5] == 0);
    call_close();
    give("");
    CHECK(answer[0] == KZ_CLOSED && answer[5] == 0);
    lend_waiting(1);
    record[13] = 14;
    give("");
    CHECK(answer[0] == KZ_UNFIT && answer[5] == 0);
}

/* Posted maps: refusals. */

enum { BAD = 6 };
static const uint64_t bad_dims[BAD] = { 0, 7, 65536 + 1, WIDE, WIDE + 1, MOST };
static const uint64_t bad_darts[BAD] = { 0, KZ_MAX_DARTS + 1, 65536 + 6, WIDE, WIDE + 6, MOST };
static const uint64_t bad_roots[BAD] = { 6, 65535, 65536, WIDE, WIDE + 1, MOST };

/* The three calls that take a map, refused alike. Each gets a fresh work room: what one leaves there is not to be taken
   for the next one's. */
static void form_refuses(struct map m, uint64_t root, uint32_t number, uint32_t place)
{
    LEND(out, 9);
    LEND(work, LENGTH(work));
    EXPECT(call_check(m, root), number, place);
    LEND(work, LENGTH(work));
    EXPECT(call_write(m, root, 0), number, place);
    LEND(work, LENGTH(work));
    if (root == 0)
        EXPECT(call_report(m), number, place);
}

/* The same in both forms, by a number that both have. */
static void all_refuse(struct map m, uint64_t root, uint32_t number, uint32_t place)
{
    form_refuses(m, root, number, place);
    form = SEVERAL_BODIES;
    form_refuses(m, root, number, place);
    form = ONE_BODY;
}

/* Numbers whose lower half would pass are refused like any other. */
static void numbers_out_of_range(void)
{
    size_t k;
    struct map m, bad;
    begin("numbers out of range");
    m = triangle();
    for (k = 0; k < BAD; k++) {
        bad = m;
        bad.dim = bad_dims[k];
        all_refuse(bad, 0, KZ_DIMENSION, 0);
        bad = m;
        bad.darts = bad_darts[k];
        all_refuse(bad, 0, KZ_DARTS, 0);
        all_refuse(m, bad_roots[k], KZ_ROOT, 0);
    }
}

static void rooms_one_entry_short(void)
{
    struct map m;
    begin("rooms one entry short");
    m = triangle();
    SHORTEN(posted, 12);
    SHORTEN(work, 12);
    EXPECT(call_check(m, 0), 0, 0);
    SHORTEN(work, 11);
    all_refuse(m, 0, KZ_SHORT_WORK, 0);
    SHORTEN(work, 0);
    all_refuse(m, 0, KZ_SHORT_WORK, 0);
    SHORTEN(posted, 11);
    all_refuse(m, 0, KZ_SHORT_TABLES, 0);
    SHORTEN(posted, 0);
    all_refuse(m, 0, KZ_SHORT_TABLES, 0);
}

/* Spoils links of six free darts, from the last rank on, each of a later dart than the one before: the last one is the
   first by rank, then dart, and is told, though it stands behind all others. Then one of its rank and an earlier
   dart. */
static void told_by_rank_then_dart(uint16_t entry, uint32_t number)
{
    static const uint32_t places[] = { 3, 6, 9, 16, 4 }; /* of a3(0), a2(1), a1(2), a0(4), a0(1) */
    struct map m = post_free(3, 6);
    size_t k;
    for (k = 0; k < sizeof places / sizeof places[0]; k++) {
        posted[places[k]] = entry;
        all_refuse(m, 0, number, places[k]);
        all_refuse(m, 5, number, places[k]);
    }
}

static void entries_not_below_n(void)
{
    struct map m;
    begin("entries not below n");
    m = triangle();
    posted[11] = KZ_NO_LINK; /* a1(5) */
    all_refuse(m, 0, KZ_ENTRY, 11);
    posted[4] = 6; /* a0(2) */
    all_refuse(m, 0, KZ_ENTRY, 4);
    told_by_rank_then_dart(6, KZ_ENTRY); /* there is no dart 6 */
}

/* The place is where the link stands that fails, not the entry one would mend. */
static void links_not_their_own_inverse(void)
{
    struct map m;
    begin("links not their own inverse");
    m = post_free(1, 2);
    posted[0] = posted[2] = 1; /* a0 of both darts */
    all_refuse(m, 0, KZ_INVERSE, 0);
    m = triangle();
    posted[7] = 0; /* a1(3) */
    all_refuse(m, 0, KZ_INVERSE, 7);
    posted[10] = 3; /* a0(5), and a0(4) does not lead back */
    all_refuse(m, 0, KZ_INVERSE, 8);
    told_by_rank_then_dart(5, KZ_INVERSE); /* dart 5 stays free: no link to it leads back */
}

/* Ranks 0 and 3 break the condition at dart 4, ranks 1 and 3 at dart 0: the pair comes first, then the dart. */
static void manifold_condition_by_pair_then_dart(void)
{
    struct map m;
    begin("manifold condition");
    m = post_free(3, 7);
    tie(m, 1, 0, 1);
    tie(m, 3, 1, 2);
    all_refuse(m, 0, KZ_MANIFOLD, 0);
    tie(m, 0, 4, 5);
    tie(m, 3, 5, 6);
    all_refuse(m, 0, KZ_MANIFOLD, 4);
}

/* The least dart not reached from the root that was given; the report's root is dart 0. */
static void darts_not_reached(void)
{
    struct map m;
    begin("darts not reached");
    m = post_free(1, 2);
    form_refuses(m, 0, KZ_NOT_REACHED, 1);
    form_refuses(m, 1, KZ_NOT_REACHED, 0);
    m = post_squares(2);
    form_refuses(m, 0, KZ_NOT_REACHED, 8);
    form_refuses(m, 9, KZ_NOT_REACHED, 0);
}

struct faulty {
    struct map m;
    uint64_t root, start;
};

/* A posting with the faults of 1 to 10, the first `mended` of them mended. */
static struct faulty post_faults(int mended)
{
    struct faulty f;
    f.m = post_free(2, 6);
    tie(f.m, 0, 0, 1);
    tie(f.m, 0, 2, 3);
    tie(f.m, 0, 4, 5);
    tie(f.m, 1, 1, 2);
    if (mended < 6)
        posted[17] = 6; /* a2(5) */
    if (mended < 7)
        posted[10] = 0; /* a1(3) */
    if (mended < 8)
        tie(f.m, 2, 2, 4);
    if (mended >= 9)
        tie(f.m, 1, 3, 4);
    LEND(work, mended < 4 ? 11 : 12);
    SHORTEN(posted, mended < 3 ? 17 : 18);
    f.m.dim = mended < 1 ? 7 : 2;
    f.m.darts = mended < 2 ? KZ_MAX_DARTS + 1 : 6;
    f.root = mended < 5 ? MOST : 0;
    f.start = mended < 10 ? MOST : 0;
    return f;
}

/* Of several faults the first in the order is answered, each test covering the whole tables before the next. */
static void faults_in_order(int faults)
{
    static const uint32_t places[] = { 0, 0, 0, 0, 0, 17, 10, 2, 4 };
    struct faulty f;
    uint32_t length;
    int mended;
    LEND(out, 9);
    for (mended = 0; mended < faults; mended++) {
        f = post_faults(mended);
        EXPECT(call_check(f.m, f.root), (uint32_t)mended + 1, places[mended]);
        EXPECT(call_write(f.m, f.root, f.start), (uint32_t)mended + 1, places[mended]);
        if (mended != 4)
            EXPECT(call_report(f.m), (uint32_t)mended + 1, places[mended]);
        else
            EXPECT(call_report(f.m), KZ_ENTRY, 17);
    }
    f = post_faults(faults);
    EXPECT(call_check(f.m, f.root), 0, 0);
    EXPECT(call_report(f.m), 0, 0);
    EXPECT(call_write(f.m, f.root, 0), 0, 0);
    length = answer[3];
    EXPECT(call_write(f.m, f.root, f.start), KZ_PAST_END, length);
}

static void first_fault_is_answered(void)
{
    struct faulty f;
    begin("first fault");
    faults_in_order(9);
    f = post_faults(10);
    EXPECT(call_write(f.m, f.root, f.start), 0, 0);
}

/* The same in the form of several bodies, which that of the fault 9 is: then 10 is left, and with 9 mended 30. */
static void first_fault_of_several_bodies(void)
{
    struct faulty f;
    begin("first fault, several bodies");
    form = SEVERAL_BODIES;
    faults_in_order(8);
    f = post_faults(9);
    EXPECT(call_check(f.m, f.root), KZ_ONE_BODY, 0);
    EXPECT(call_report(f.m), KZ_ONE_BODY, 0);
    EXPECT(call_write(f.m, f.root, f.start), KZ_ONE_BODY, 0);
}

/* Posted maps: the writer. */

static uint8_t stream[KZ_MAX_STREAM];

/* The whole stream of a posted map, kept in `stream`; its length. */
static size_t write_whole(struct map m, uint64_t root)
{
    size_t k, length;
    LEND(out, KZ_MAX_STREAM);
    EXPECT(call_write(m, root, 0), 0, 0);
    length = answer[3];
    CHECK(answer[2] == length);
    for (k = 0; k < length; k++)
        stream[k] = out[k];
    return length;
}

static void expect_stream(struct map m, uint64_t root, const char *hex)
{
    uint8_t bytes[16];
    size_t length = spell(hex, bytes);
    CHECK(write_whole(m, root) == length);
    CHECK(same_bytes(stream, bytes, length));
}

static void known_streams(void)
{
    struct map m;
    begin("known streams");
    expect_stream(post_free(1, 1), 0, "10 00 A0");
    expect_stream(post_chain(1, 2), 0, "10 01 50");
    expect_stream(post_free(6, 1), 0, "60 00 AA A8");
    m = triangle();
    expect_stream(m, 0, "10 05 06 00 A0");
    expect_stream(m, 3, "10 05 06 00 A0");
    m = post_chain(1, 3);
    expect_stream(m, 0, "10 02 48");
    expect_stream(m, 2, "10 02 88");
    form = SEVERAL_BODIES;
    expect_stream(post_free(1, 2), 0, "90 01 AA");
    expect_stream(post_free(6, 2), 1, "E0 01 AA AA AA A0");
    m = post_squares(2);
    expect_stream(m, 0, "A0 0F 01 80 3D 50 0C 03 EA 80");
    expect_stream(m, 11, "A0 0F 01 80 3D 50 0C 03 EA 80");
    m = loop_and_chain();
    expect_stream(m, 0, "90 06 60 02 84");
    expect_stream(m, 1, "90 06 60 02 84");
    expect_stream(m, 2, "90 06 42 60 0C");
    expect_stream(m, 6, "90 06 82 60 0C");
}

/* Pages of one size, each begun where the last one ended, join to the stream. */
static void write_pages_of(struct map m, uint64_t root, size_t length, size_t size)
{
    size_t start = 0;
    while (start < length) {
        LEND(out, size);
        EXPECT(call_write(m, root, start), 0, 0);
        CHECK(answer[3] == length && answer[2] > 0);
        CHECK(same_bytes(out, stream + start, answer[2]));
        if (answer[2] == 0)
            return;
        start += answer[2];
    }
    CHECK(start == length);
}

/* No sum of start and room is made before the start is found to be in the stream. */
static void starts_at_and_past_the_end(void)
{
    struct map m;
    uint64_t start;
    begin("starts at and past the end");
    m = post_free(1, 1);
    LEND(out, 5);
    for (start = 0; start <= 3; start++) {
        EXPECT(call_write(m, 0, start), 0, 0);
        CHECK(answer[2] == 3 - start && answer[3] == 3);
    }
    EXPECT(call_write(m, 0, 4), KZ_PAST_END, 3);
    EXPECT(call_write(m, 0, 65536), KZ_PAST_END, 3);
    EXPECT(call_write(m, 0, WIDE), KZ_PAST_END, 3);
    EXPECT(call_write(m, 0, WIDE + 1), KZ_PAST_END, 3);
    EXPECT(call_write(m, 0, MOST - 1), KZ_PAST_END, 3);
    EXPECT(call_write(m, 0, MOST), KZ_PAST_END, 3);
    LEND(out, 0);
    EXPECT(call_write(m, 0, 0), 0, 0);
    CHECK(answer[2] == 0 && answer[3] == 3);
    EXPECT(call_write(m, 0, 4), KZ_PAST_END, 3);
}

/* Posted maps: there and back. */

/* Are the tables built from the stream the posted map's, each dart under its walk number? */
static int built_under(struct map m, const uint16_t *numbers)
{
    uint64_t i, d;
    for (i = 0; i <= m.dim; i++)
        for (d = 0; d < m.darts; d++)
            if (built[position(m, i, numbers[d])] != numbers[posted[position(m, i, d)]])
                return 0;
    return 1;
}

/* The stream fed to sessions in pages of this size; where that is one byte also as a client asks for it that fetches no
   more than it is told, and, if the stream is short, cut at each place. */
static void feed_stream_by(size_t size, size_t length, size_t room)
{
    feed_pages_of(stream, length, room, size);
    if (size == 1)
        fetch_as_told(stream, length, room);
    if (length < 64 && size == 1)
        feed_cut_everywhere(stream, length, room);
}

/* Check, write, read back; then the same by pages, of sizes that do not make too many of them. Afterwards `stream` and
   `built` hold the stream and its tables. The stream's length. */
static size_t there_and_back(struct map m, uint64_t root)
{
    static const size_t sizes[] = { 1, 2, 3, 7, 64, 5000 };
    static uint16_t numbers[KZ_MAX_DARTS];
    size_t k, length, entries = (size_t)((m.dim + 1) * m.darts);
    EXPECT(call_check(m, root), 0, 0);
    for (k = 0; k < m.darts; k++)
        numbers[k] = work[k];
    length = write_whole(m, root);
    CHECK(same_entries(work, numbers, m.darts));
    read_whole(stream, length, entries + SPARE);
    EXPECT_LAST(0, 0);
    CHECK(answer[2] == entries && answer[3] == m.dim && answer[4] == m.darts);
    CHECK(built_under(m, numbers));
    for (k = 0; k < 6; k++)
        if (length <= 200 * sizes[k]) {
            write_pages_of(m, root, length, sizes[k]);
            feed_stream_by(sizes[k], length, entries + SPARE);
        }
    return length;
}

/* Posts the tables that were built: from dart 0 they have the same stream, and the walk numbers the darts as they
   stand. */
static void post_what_was_built(struct map m, size_t length)
{
    static uint8_t first[KZ_MAX_STREAM];
    size_t k, entries = (size_t)((m.dim + 1) * m.darts);
    for (k = 0; k < length; k++)
        first[k] = stream[k];
    for (k = 0; k < entries; k++)
        posted[k] = built[k];
    CHECK(write_whole(m, 0) == length);
    CHECK(same_bytes(stream, first, length));
    for (k = 0; k < m.darts && work[k] == k; k++)
        ;
    CHECK(k == m.darts);
}

static void expect_report(const struct sample *s, struct map m)
{
    int i;
    EXPECT(call_report(m), 0, 0);
    for (i = 0; i <= KZ_MAX_DIM; i++)
        CHECK(answer[2 + i] == s->cells[i]);
    CHECK(answer[9] == s->free && answer[10] == s->orientable);
}

/* A sample from several roots; then what was read back last is posted in turn and reported. */
static void sample_there_and_back(const struct sample *s)
{
    struct map m;
    begin(s->name);
    m = s->post();
    expect_report(s, m);
    there_and_back(m, 0);
    if (m.darts > 2)
        there_and_back(m, m.darts / 3);
    if (m.darts > 4)
        there_and_back(m, m.darts / 2 + 1);
    post_what_was_built(m, there_and_back(m, m.darts - 1));
    expect_report(s, m);
}

static void samples_there_and_back(void)
{
    int k;
    for (k = 0; k < SAMPLES; k++)
        sample_there_and_back(&samples[k]);
}

/* Several bodies. */

/* The darts reached from each dart of the posted map: `body_of` has for each the least of them. */
static uint16_t body_of[KZ_MAX_DARTS];

static void find_bodies(struct map m)
{
    uint64_t i, d, e;
    int changed = 1;
    for (d = 0; d < m.darts; d++)
        body_of[d] = (uint16_t)d;
    while (changed) {
        changed = 0;
        for (d = 0; d < m.darts; d++)
            for (i = 0; i <= m.dim; i++) {
                e = posted[position(m, i, d)];
                if (body_of[e] < body_of[d]) {
                    body_of[d] = body_of[e];
                    changed = 1;
                }
            }
    }
}

/* The least dart that dart 0 does not reach. */
static uint32_t first_apart(void)
{
    uint32_t d = 0;
    while (body_of[d] == 0)
        d++;
    return d;
}

/* Does the work room number the bodies one after the other, that of the root first, and each next one from the least
   dart that has no number before it? How many there are; 0 if it does not. */
static uint32_t bodies_in_order(struct map m, uint64_t root)
{
    uint32_t bodies = 1;
    uint64_t k, least = 0;
    for (k = 1; k < m.darts; k++) {
        uint16_t dart = work[m.darts + k];
        if (body_of[dart] == body_of[work[m.darts + k - 1]])
            continue;
        while (work[least] < k)
            least++;
        if (dart != least)
            return 0;
        bodies++;
    }
    return work[m.darts] == root ? bodies : 0;
}

/* Steps of the body that a dart is in. */
static uint32_t steps_of_body(struct map m, uint64_t dart)
{
    uint32_t darts = 0;
    uint64_t d;
    for (d = 0; d < m.darts; d++)
        darts += body_of[d] == body_of[dart];
    return (uint32_t)(m.dim + 1) * darts;
}

/* The same stream in the form of one body ends with the root's body, by 15. */
static void expect_too_few(struct map m, uint64_t root, size_t length)
{
    stream[0] ^= 0x80;
    read_whole(stream, length, (m.dim + 1) * m.darts);
    EXPECT_LAST(KZ_TOO_FEW, steps_of_body(m, root));
    stream[0] ^= 0x80;
}

/* A site from one root; the last session read has found its bodies. Afterwards `stream` and `built` are the site's. */
static size_t site_from_root(const struct site *s, struct map m, uint64_t root)
{
    size_t length;
    EXPECT(call_check(m, root), 0, 0);
    CHECK(bodies_in_order(m, root) == s->bodies);
    length = there_and_back(m, root);
    CHECK(stream[0] >> 4 == 8 + m.dim);
    CHECK(record[0] == 3 && record[15] == SEVERAL_BODIES && record[16] == s->bodies);
    return length;
}

static void site_there_and_back(const struct site *s)
{
    struct map m;
    size_t length;
    begin(s->map.name);
    m = s->map.post();
    find_bodies(m);
    form_refuses(m, 0, KZ_NOT_REACHED, first_apart());
    form = SEVERAL_BODIES;
    expect_report(&s->map, m);
    expect_too_few(m, 0, site_from_root(s, m, 0));
    site_from_root(s, m, m.darts / 3);
    expect_too_few(m, m.darts / 2, site_from_root(s, m, m.darts / 2));
    length = site_from_root(s, m, m.darts - 1);
    post_what_was_built(m, length);
    expect_report(&s->map, m);
}

static void sites_there_and_back(void)
{
    int k;
    for (k = 0; k < SITES; k++)
        site_there_and_back(&sites[k]);
}

/* 30 in all calls: each map of one body is refused in the form of several, and so is its stream. */
static void one_body_is_refused(void)
{
    struct map m;
    size_t length, k, entries;
    for (k = 0; k < SAMPLES; k++) {
        begin(samples[k].name);
        m = samples[k].post();
        entries = (size_t)((m.dim + 1) * m.darts);
        length = write_whole(m, m.darts / 2);
        form = SEVERAL_BODIES;
        form_refuses(m, 0, KZ_ONE_BODY, 0);
        form_refuses(m, m.darts - 1, KZ_ONE_BODY, 0);
        EXPECT(call_write(m, 0, MOST), KZ_ONE_BODY, 0);
        stream[0] |= 0x80;
        read_whole(stream, length, entries + SPARE);
        EXPECT_LAST(KZ_ONE_BODY, (uint32_t)entries);
        feed_pages_of(stream, length, entries + SPARE, 64);
        if (length < 64)
            feed_cut_everywhere(stream, length, entries + SPARE);
    }
}

/* Face files. */

/* Rooms for a map of dimension 2 with so many darts, and SPARE entries more. */
static void lend_rooms_for(uint64_t darts)
{
    LEND(posted, 3 * darts + SPARE);
    LEND(work, 2 * darts + SPARE);
}

struct face_file {
    const char *name, *text;
    uint32_t number;
    uint64_t place, darts; /* darts: of 9 too, which does not tell them */
};

/* The text before the faces, for three vertices and for five. */
#define THREE(faces) "OFF 3 " faces " 0\n0 0 0\n1 0 0\n0 1 0\n"
#define FIVE(faces) "OFF 5 " faces " 0 a b c d e f g h i j k l m n o\n"

static const struct face_file face_files[] = {
    /* Words, numbers, blanks and comments. */
    { "a triangle", THREE("1") "3 0 1 2", 0, 0, 6 },
    { "# within a word", "OFF 3 1 0 a b c d e f g h i 3#x\n0 1 2", 0, 0, 6 },
    { "blanks and comments", "#\n\r\n\tOFF#FF\n3\t1\r9 # 9\n0 0 0\n\n1 0\n0 #\n0 1\r\n0\n3\t0 # 9\n1\n2", 0, 0, 6 },
    { "nine digits", "OFF 000000003 000000001 999999999 a b c d e f g h i 03 00 000000001 2", 0, 0, 6 },
    { "any bytes in a vertex's words", "OFF 3 1 0 \v \xFF \x80 OFF - 1e9 nan .. 0x 3 0 1 2", 0, 0, 6 },
    { "no text", "", 26, 0, 0 },
    { "blanks alone", " \t\r\n", 26, 4, 0 },
    { "a comment alone", "# OFF 3 1 0", 26, 11, 0 },
    { "OFFX", "OFFX 3 1 0", 26, 0, 0 },
    { "off", "\n off", 26, 2, 0 },
    { "OF", "OF F", 26, 0, 0 },
    { "a form feed before OFF", "\fOFF 3 1 0", 26, 0, 0 },
    { "OFF alone", "OFF", 26, 3, 0 },
    { "no edge count", "OFF 3 1 # 0\n", 26, 12, 0 },
    { "3x", "OFF 3x 1 0", 26, 4, 0 },
    { "+3", "OFF 3 +3 0", 26, 6, 0 },
    { "3.0", "OFF 3 1 3.0", 26, 8, 0 },
    { "ten digits", "OFF 3 1 0 a b c d e f g h i 3 0 1 0000000002", 26, 34, 0 },
    /* Vertices are words, and not lines. */
    { "a fourth word on a vertex line", "OFF 3 1 0\n0 0 0 9\n1 0 0 9\n0 1 0 9\n3 0 1 2", 28, 0, 0 },
    { "vertices across lines", "OFF 3 1 0\n0\n0 0 1 0\n0 0 1 0\n3 0 1 2", 0, 0, 6 },
    { "a vertex word missing", "OFF 1 0 0 a b", 26, 13, 0 },
    { "a vertex word in a comment", "OFF 1 0 0 a b # c\n", 26, 18, 0 },
    { "more vertices than there can be", "OFF 999999999 1 0 3 0 1 2", 26, 25, 0 },
    /* A face has the rest of its line to itself. */
    { "the rest of a line, and what follows", THREE("1") "3 0 1 2 1 2 x # y\n3 0 1", 0, 0, 6 },
    { "two faces on one line", THREE("2") "3 0 1 2 3 0 2 1", 26, 43, 0 },
    { "two faces on two lines", THREE("2") "3 0 1 2 3 0 2\n3 0 2 1\n", 0, 0, 12 },
    { "CR ends no line", THREE("2") "3 0 1 2\r3 0 2 1", 26, 43, 0 },
    { "0 corners, and the rest of the line", THREE("2") "0 junk\n3 0 1 2", 28, 0, 0 },
    { "a face missing", THREE("2") "3 0 1 2\n ", 26, 37, 0 },
    { "a corner missing", THREE("1") "3 0 1", 26, 33, 0 },
    { "a corner malformed", THREE("1") "3 0 1 -2", 26, 34, 0 },
    { "more faces than there can be", THREE("999999999") "3 0 1 2\n", 26, 44, 0 },
    { "more corners than there can be", THREE("1") "999999999 0 1 2\n", 26, 44, 0 },
    /* 26 anywhere comes before all others; then the first face that is refused, and of its faults 27, 28, 29. */
    { "26 in a later face", THREE("2") "2 0 9\n3 0 1 x", 26, 40, 0 },
    { "27", THREE("1") "3 0 1 3", 27, 0, 0 },
    { "27 in face 1", THREE("2") "3 0 1 2\n3 0 999999999 1", 27, 1, 0 },
    { "27 without vertices", "OFF 0 1 0 3 0 1 2", 27, 0, 0 },
    { "two corners", THREE("1") "2 0 1", 28, 0, 0 },
    { "one corner", THREE("1") "1 0", 28, 0, 0 },
    { "equal neighbours", THREE("1") "4 0 1 1 2", 28, 0, 0 },
    { "last and first equal", THREE("2") "3 0 1 2\n4 1 2 0 1", 28, 1, 0 },
    { "27 before 28", THREE("1") "2 0 9", 27, 0, 0 },
    { "28 before 27 of a later face", THREE("2") "2 0 1\n3 0 1 9", 28, 0, 0 },
    { "a side of three faces", FIVE("3") "3 0 1 2\n3 1 0 3\n3 0 1 4", 29, 2, 0 },
    { "a side three times in one face", FIVE("1") "5 0 1 0 1 2", 29, 0, 0 },
    { "a side once, then twice in one face", FIVE("2") "3 0 1 2\n6 0 1 3 1 0 4", 29, 1, 0 },
    { "27 before 29", FIVE("3") "3 0 1 2\n3 1 0 3\n3 0 1 5", 27, 2, 0 },
    { "28 before 29", FIVE("3") "3 0 1 2\n3 1 0 3\n4 0 1 4 0", 28, 2, 0 },
    { "29 before 28 of a later face", FIVE("4") "3 0 1 2\n3 1 0 3\n3 0 1 4\n2 0 1", 29, 2, 0 },
    /* Twice is well, in one face and in one direction too. */
    { "sides twice in one face", THREE("1") "4 0 1 2 1", 0, 0, 8 },
    { "a side twice in one direction", FIVE("2") "3 0 1 2\n3 0 1 3", 0, 0, 12 },
    /* Then 2, and 9 at the end. */
    { "nothing", "OFF 0 0 0", 2, 0, 0 },
    { "no faces", THREE("0") "3 0 1 2", 2, 0, 0 },
    { "two triangles that meet at a vertex", FIVE("2") "3 0 1 2\n3 0 3 4", 9, 6, 12 },
    { "the second of three apart", "OFF 9 4 0 a b c d e f g h i j k l m n o p q r s t u v w x y z -\n"
      "3 0 1 2\n3 3 4 5\n3 0 2 1\n3 6 7 8", 9, 6, 24 },
};

enum { FACE_FILES = sizeof face_files / sizeof face_files[0] };

static uint16_t kept_work[2 * KZ_MAX_DARTS];

/* What the tables hold after 0 and 9 is checked once more: the answer and the work room are the check's from root 0. */
static void expect_as_checked(uint32_t number, uint64_t darts)
{
    struct map m = { 2, darts };
    size_t k;
    CHECK(darts_of_faces(number) == darts);
    for (k = 0; k < 2 * darts; k++)
        kept_work[k] = work[k];
    EXPECT(call_check(m, 0), number, (uint32_t)wide[1]);
    CHECK(same_entries(work, kept_work, 2 * darts));
}

static void read_each_face_file(void)
{
    size_t k;
    for (k = 0; k < FACE_FILES; k++) {
        const struct face_file *f = &face_files[k];
        begin(f->name);
        lend_text(f->text);
        lend_rooms_for(f->darts);
        EXPECT_FACES(f->number, f->place);
        if (f->darts > 0)
            expect_as_checked(f->number, f->darts);
    }
}

static uint16_t wanted_tables[3 * KZ_MAX_DARTS];

/* The tables of a posted map of dimension 2 are those that a text has to give. */
static void want_posted(struct map m)
{
    size_t k;
    for (k = 0; k < 3 * m.darts; k++)
        wanted_tables[k] = posted[k];
}

static void expect_wanted(struct map m)
{
    lend_rooms_for(m.darts);
    EXPECT_FACES(0, 0);
    CHECK(wide[2] == m.darts && same_entries(posted, wanted_tables, 3 * m.darts));
    expect_as_checked(0, m.darts);
}

/* The last one has as many darts as a map may have. */
static void face_files_of_grids(void)
{
    static const struct grid {
        uint32_t columns, rows;
        int wrapped;
    } grids[] = { { 1, 1, 0 }, { 3, 2, 0 }, { 1, 7, 0 }, { 3, 3, 1 }, { 5, 4, 1 }, { 32, 16, 1 } };
    struct map m;
    size_t k;
    begin("face files of grids");
    for (k = 0; k < sizeof grids / sizeof grids[0]; k++) {
        m = post_grid(grids[k].columns, grids[k].rows, grids[k].wrapped);
        want_posted(m);
        lend_grid_text(grids[k].columns, grids[k].rows, grids[k].wrapped);
        expect_wanted(m);
    }
}

/* Squares, with what the report says of them, and their joined sides: two corners, and 1 if the sides of these run in
   one direction. */
struct squares_file {
    struct sample map;
    const char *text;
    uint64_t squares, joins;
    uint64_t joined[12][3];
};

static const struct squares_file squares_files[] = {
    { { "cube", NULL, { 8, 12, 6 }, 0, 1 },
      "OFF\n8 6 12\n0 0 0\n1 0 0\n1 1 0\n0 1 0\n0 0 1\n1 0 1\n1 1 1\n0 1 1\n"
      "4 0 3 2 1\n4 4 5 6 7\n4 0 1 5 4\n4 1 2 6 5\n4 2 3 7 6\n4 3 0 4 7\n", 6, 12,
      { { 0, 20 }, { 1, 16 }, { 2, 12 }, { 3, 8 }, { 4, 10 }, { 5, 14 }, { 6, 18 }, { 7, 22 }, { 9, 15 }, { 11, 21 },
        { 13, 19 }, { 17, 23 } } },
    { { "open box", NULL, { 8, 12, 5 }, 8, 1 },
      "OFF\n8 5 12\n0 0 0\n1 0 0\n1 1 0\n0 1 0\n0 0 1\n1 0 1\n1 1 1\n0 1 1\n"
      "4 0 3 2 1\n4 0 1 5 4\n4 1 2 6 5\n4 2 3 7 6\n4 3 0 4 7\n", 5, 8,
      { { 0, 16 }, { 1, 12 }, { 2, 8 }, { 3, 4 }, { 5, 11 }, { 7, 17 }, { 9, 15 }, { 13, 19 } } },
    { { "Moebius strip", NULL, { 6, 9, 3 }, 12, 0 },
      "OFF 6 3 9 a b c d e f g h i j k l m n o p q r\n4 0 1 3 2\n4 2 3 5 4\n4 4 5 0 1\n", 3, 3,
      { { 0, 10, 1 }, { 2, 4 }, { 6, 8 } } },
    { { "half a cube, closed", NULL, { 4, 6, 3 }, 0, 0 },
      "OFF 4 3 6 a b c d e f g h i j k l\n4 0 1 2 3\n4 0 1 3 2\n4 0 2 1 3\n", 3, 6,
      { { 0, 4, 1 }, { 1, 9 }, { 2, 6 }, { 3, 11, 1 }, { 5, 10, 1 }, { 7, 8 } } },
    { { "a square folded up", NULL, { 3, 2, 1 }, 0, 1 }, THREE("1") "4 0 1 2 1\n", 1, 2, { { 0, 3 }, { 1, 2 } } },
};

enum { SQUARES_FILES = sizeof squares_files / sizeof squares_files[0] };

/* The squares as post_squares numbers their darts, which is as a file gives them, and their sides joined. */
static struct map post_squares_of(const struct squares_file *f)
{
    struct map m = post_squares(f->squares);
    uint64_t k;
    for (k = 0; k < f->joins; k++) {
        const uint64_t *side = f->joined[k];
        tie(m, 2, 2 * side[0], 2 * side[1] + 1 - side[2]);
        tie(m, 2, 2 * side[0] + 1, 2 * side[1] + side[2]);
    }
    return m;
}

/* From text to tables, to report and stream and back. */
static void face_files_of_squares(void)
{
    struct map m;
    size_t k;
    for (k = 0; k < SQUARES_FILES; k++) {
        begin(squares_files[k].map.name);
        m = post_squares_of(&squares_files[k]);
        want_posted(m);
        lend_text(squares_files[k].text);
        expect_wanted(m);
        expect_report(&squares_files[k].map, m);
        there_and_back(m, 0);
    }
}

/* The cube's numbering from dart 0, and rooms that are as long as it needs or one entry short. What is short is told
   after the faces and before 9, the tables first. */
static void rooms_for_a_cube(void)
{
    static const uint16_t numbers[48] = {
        0,  1,  4,  5,  7,  6,  3,  2,  42, 43, 46, 47, 45, 44, 41, 40, 16, 17, 20, 21, 23, 22, 19, 18,
        32, 33, 36, 37, 39, 38, 35, 34, 25, 24, 26, 27, 30, 31, 29, 28, 9,  8,  10, 11, 14, 15, 13, 12,
    };
    static const struct lengths {
        size_t tables, work;
        uint32_t number;
    } lengths[] = { { 143, 96, 3 }, { 144, 95, 4 }, { 143, 95, 3 }, { 0, 96, 3 }, { 144, 0, 4 }, { 0, 0, 3 } };
    size_t k;
    begin("rooms for a cube");
    lend_text(squares_files[0].text);
    LEND(posted, 144);
    LEND(work, 96);
    EXPECT_FACES(0, 0);
    CHECK(wide[2] == 48 && same_entries(work, numbers, 48));
    for (k = 0; k < sizeof lengths / sizeof lengths[0]; k++) {
        LEND(posted, lengths[k].tables);
        LEND(work, lengths[k].work);
        EXPECT_FACES(lengths[k].number, 0);
    }
    lend_text(THREE("2") "3 0 1 2\n3 0 1 3");
    EXPECT_FACES(KZ_VERTEX, 1);
}

/* Two squares that have no side in common: the tables hold both, though 9 does not tell how many darts they have, and
   go out in the form of several bodies. */
static void squares_apart(void)
{
    struct map m;
    begin("squares apart");
    m = post_squares(2);
    want_posted(m);
    lend_text("OFF 8 2 0 a b c d e f g h i j k l m n o p q r s t u v w x\n4 0 1 2 3\n4 4 5 6 7\n");
    LEND(posted, 48);
    LEND(work, 32);
    EXPECT_FACES(KZ_NOT_REACHED, 8);
    CHECK(no_link(work, 32) && same_entries(posted, wanted_tables, 48));
    EXPECT(call_check(m, 8), KZ_NOT_REACHED, 0);
    form = SEVERAL_BODIES;
    EXPECT(call_check(m, 0), 0, 0);
    expect_stream(m, 0, "A0 0F 01 80 3D 50 0C 03 EA 80");
    form = ONE_BODY;
    SHORTEN(work, 31);
    EXPECT_FACES(KZ_SHORT_WORK, 0);
}

/* A strip of triangles k, k+1, k+2, each with a side of the next, in which some faces are others. */
struct strip {
    uint32_t faces, count; /* how many, and how many of them are others */
    struct other {
        uint32_t face, corners[3];
    } others[3];
    uint32_t number;
    uint64_t place;
};

static void lend_strip(const struct strip *s)
{
    uint32_t k, j;
    begin_text(s->faces + 4, s->faces);
    for (k = 0; k < s->faces; k++) {
        const uint32_t triangle[3] = { k, k + 1, k + 2 };
        const uint32_t *corners = triangle;
        for (j = 0; j < s->count; j++)
            if (s->others[j].face == k)
                corners = s->others[j].corners;
        put_face(3, corners);
    }
    end_text();
}

/* Of more than 2,048 corners too the faces are looked through before 2 is told, with uses of a side far apart. */
static void long_face_files(void)
{
    static const struct strip strips[] = {
        { 682, 0, { { 0 } }, 0, 0 },
        { 683, 0, { { 0 } }, 2, 0 },
        { 682, 1, { { 681, { 1, 2, 684 } } }, 29, 681 },
        { 684, 1, { { 683, { 1, 2, 686 } } }, 29, 683 },
        { 2101, 1, { { 1000, { 0, 2, 2103 } } }, 2, 0 },
        { 2101, 2, { { 1000, { 0, 2, 2103 } }, { 2100, { 2, 0, 2104 } } }, 29, 2100 },
        { 2101, 3, { { 1000, { 0, 2, 2103 } }, { 1400, { 2, 0, 2104 } }, { 1500, { 5, 5, 6 } } }, 29, 1400 },
        { 2101, 3, { { 1000, { 0, 2, 2103 } }, { 1500, { 5, 5, 6 } }, { 2100, { 2, 0, 2104 } } }, 28, 1500 },
        { 2101, 2, { { 700, { 9, 10, 11 } }, { 2000, { 0, 1, 2105 } } }, 29, 700 },
        { 2101, 1, { { 2000, { 0, 1, 2105 } } }, 27, 2000 },
    };
    size_t k;
    begin("long face files");
    for (k = 0; k < sizeof strips / sizeof strips[0]; k++) {
        uint64_t darts = strips[k].number == 0 ? 6 * strips[k].faces : 0;
        lend_strip(&strips[k]);
        lend_rooms_for(darts);
        EXPECT_FACES(strips[k].number, strips[k].place);
        if (darts > 0)
            expect_as_checked(0, darts);
    }
}

/* Limits. */

static void as_many_darts_as_allowed(void)
{
    struct map m;
    begin("as many darts as allowed");
    m = post_chain(1, KZ_MAX_DARTS);
    EXPECT(call_check(m, KZ_MAX_DARTS - 1), 0, 0);
    SHORTEN(posted, 2 * KZ_MAX_DARTS - 1);
    all_refuse(m, 0, KZ_SHORT_TABLES, 0);
    m = post_chain(1, KZ_MAX_DARTS + 1);
    all_refuse(m, 0, KZ_DARTS, 0);
}

/* The longest stream of a map within the limits, in rooms of exactly the stated sizes. */
static void longest_stream(void)
{
    struct map m;
    size_t length;
    begin("longest stream");
    m = most_pairs();
    SHORTEN(posted, KZ_MAX_TABLES);
    SHORTEN(work, KZ_MAX_WORK);
    length = write_whole(m, 0);
    CHECK(length == 14854);
    read_whole(stream, length, KZ_MAX_TABLES);
    CHECK(whole_answer[0] == 0 && whole_answer[2] == KZ_MAX_TABLES);
    feed_pages_of(stream, length, KZ_MAX_TABLES, 4096);
    read_whole(stream, length, KZ_MAX_TABLES - 1);
    EXPECT_LAST(KZ_SHORT_TABLES, 0);
}

/* The longest of several bodies: no stream of this form is longer. */
static void longest_stream_of_bodies(void)
{
    struct map m;
    size_t length;
    begin("longest stream of several bodies");
    form = SEVERAL_BODIES;
    m = most_couples();
    SHORTEN(posted, KZ_MAX_TABLES);
    SHORTEN(work, KZ_MAX_WORK);
    length = write_whole(m, 0);
    CHECK(length == 21762);
    read_whole(stream, length, KZ_MAX_TABLES);
    CHECK(whole_answer[0] == 0 && whole_answer[2] == KZ_MAX_TABLES);
    feed_pages_of(stream, length, KZ_MAX_TABLES, 4096);
    read_whole(stream, length, KZ_MAX_TABLES - 1);
    EXPECT_LAST(KZ_SHORT_TABLES, 0);
}

/* Every number has a text of its own, with what its place is; all that are no refusal's share one. */
static void every_number_has_a_text(void)
{
    const char *none = kz_message(~(uint32_t)0);
    uint32_t number, other;
    what = "the texts of the numbers";
    for (number = 0; number <= NUMBERS; number++) {
        const char *message = kz_message(number);
        CHECK((strcmp(message, none) != 0) == is_number(number));
        CHECK((strstr(message, " (place: ") != NULL) == (number != KZ_ACCEPTED && is_number(number)));
        for (other = 0; other < number && is_number(number); other++)
            CHECK(strcmp(message, kz_message(other)) != 0);
    }
    CHECK(strcmp(none, "there is no refusal of this number") == 0);
}

static void every_number_was_seen(void)
{
    uint32_t k;
    what = "every number from 0 to 23 and from 26 to 30 was answered, and no other";
    for (k = 0; k < NUMBERS; k++)
        CHECK(seen[k] == is_number(k));
}

int main(void)
{
    read_each_stream();
    read_known_tables();
    sessions_agree_with_whole_reads();
    record_after_each_byte();
    bodies_after_each_byte();
    one_body_refuses_a_session();
    index_waits_for_its_last_bit();
    empty_page_changes_nothing();
    closed_once();
    byte_after_a_complete_session();
    unfit_records_are_left();
    lent_refusals_and_closed_records();
    lent_session_goes_on();
    lent_bodies_go_on();
    wrong_forms_and_bodies();
    fetch_is_least();
    fetch_each_stream();
    fetch_after_each_byte();
    numbers_out_of_range();
    rooms_one_entry_short();
    entries_not_below_n();
    links_not_their_own_inverse();
    manifold_condition_by_pair_then_dart();
    darts_not_reached();
    first_fault_is_answered();
    first_fault_of_several_bodies();
    known_streams();
    starts_at_and_past_the_end();
    samples_there_and_back();
    sites_there_and_back();
    one_body_is_refused();
    read_each_face_file();
    face_files_of_grids();
    face_files_of_squares();
    rooms_for_a_cube();
    squares_apart();
    long_face_files();
    as_many_darts_as_allowed();
    longest_stream();
    longest_stream_of_bodies();
    every_number_has_a_text();
    every_number_was_seen();
    printf("surface: %lu checks, %lu failed\n", checks, failures);
    return failures != 0;
}
