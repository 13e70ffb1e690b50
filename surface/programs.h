/*
 * The library and the reference behind one table of calls, with rooms of the same size for each, and the comparisons:
 * the same input given to both, then every room looked through. The first difference is told and ends the program.
 */
#ifndef SURFACE_PROGRAMS_H
#define SURFACE_PROGRAMS_H

#include "bench_faces.h"
#include "bench_maps.h"
#include "reference.h"
#include <stdlib.h>
#include <string.h>

union session {
    uint32_t record[KZ_RECORD];
    struct ref_session queues;
};

/* Those that take a posted map have a call for each form; rooms.h says in `form` which is made. */
struct program {
    uint32_t (*check[FORMS])(uint64_t, uint64_t, uint64_t, const uint16_t *, size_t, uint16_t *, size_t, uint32_t *);
    uint32_t (*faces)(const uint8_t *, size_t, uint16_t *, size_t, uint16_t *, size_t, uint64_t *);
    uint32_t (*write[FORMS])(uint64_t, uint64_t, uint64_t, uint64_t, const uint16_t *, size_t, uint16_t *, size_t,
                             uint8_t *, size_t, uint32_t *);
    uint32_t (*read)(const uint8_t *, size_t, uint16_t *, size_t, uint32_t *);
    void (*open)(union session *);
    uint32_t (*page)(union session *, const uint8_t *, size_t, uint16_t *, size_t, uint32_t *);
    uint32_t (*close)(union session *, uint16_t *, size_t, uint32_t *);
    uint32_t (*report[FORMS])(uint64_t, uint64_t, const uint16_t *, size_t, uint16_t *, size_t, uint32_t *);
};

static void library_open(union session *s) { kz_open(s->record); }
static uint32_t library_page(union session *s, const uint8_t *bytes, size_t length, uint16_t *tables, size_t room,
                             uint32_t *a)
{
    return kz_page(s->record, bytes, length, tables, room, a);
}
static uint32_t library_close(union session *s, uint16_t *tables, size_t room, uint32_t *a)
{
    return kz_close(s->record, tables, room, a);
}

static void reference_open(union session *s) { ref_open(&s->queues); }
static uint32_t reference_page(union session *s, const uint8_t *bytes, size_t length, uint16_t *tables, size_t room,
                               uint32_t *a)
{
    return ref_page(&s->queues, bytes, length, tables, room, a);
}
static uint32_t reference_close(union session *s, uint16_t *tables, size_t room, uint32_t *a)
{
    return ref_close(&s->queues, tables, room, a);
}

enum { LIBRARY, REFERENCE, PROGRAMS };

static const struct program programs[PROGRAMS] = {
    { { kz_check, kz_check_bodies }, kz_faces, { kz_write, kz_write_bodies }, kz_read, library_open, library_page,
      library_close, { kz_report, kz_report_bodies } },
    { { ref_check, ref_check_bodies }, ref_faces, { ref_write, ref_write_bodies }, ref_read, reference_open,
      reference_page, reference_close, { ref_report, ref_report_bodies } },
};

/* What each program is lent. */
struct side {
    _Alignas(4096) uint16_t tables[KZ_MAX_TABLES + SPARE];
    _Alignas(4096) uint16_t work[KZ_MAX_WORK + SPARE];
    _Alignas(4096) uint8_t out[KZ_MAX_STREAM + SPARE];
    uint32_t answer[KZ_REPORT_ANSWER];
    uint64_t wide[KZ_FACES_ANSWER];
    union session session;
};

static struct side sides[PROGRAMS];

/* How much of the rooms a case may touch, with SPARE elements that it may not. */
static size_t tables_used, work_used, out_used;

static void use_rooms(size_t entries, size_t work_entries, size_t bytes)
{
    tables_used = (entries + SPARE) * sizeof(uint16_t);
    work_used = (work_entries + SPARE) * sizeof(uint16_t);
    out_used = bytes + SPARE;
}

static void prepare(struct side *side)
{
    memset(side->tables, CANARY, tables_used);
    memset(side->work, CANARY, work_used);
    memset(side->out, CANARY, out_used);
    memset(side->answer, CANARY, sizeof side->answer);
    memset(side->wide, CANARY, sizeof side->wide);
}

static void prepare_both(void)
{
    prepare(&sides[LIBRARY]);
    prepare(&sides[REFERENCE]);
}

/* Comparisons. */

static unsigned long comparisons;
static const char *map_name = ""; /* the case at hand */
static struct map map_shape;
static uint64_t map_root;

static void same_room(const char *call, const char *room, const void *library, const void *reference, size_t size)
{
    const uint8_t *a = library, *b = reference;
    size_t k = 0;
    comparisons++;
    if (memcmp(a, b, size) == 0)
        return;
    while (a[k] == b[k])
        k++;
    printf("bench: %s differs%s, map %s, N %u, n %u, root %u: %s, byte %u: library %u, reference %u\n", call,
           form == ONE_BODY ? "" : " in the form of several bodies", map_name, (unsigned)map_shape.dim,
           (unsigned)map_shape.darts, (unsigned)map_root, room, (unsigned)k, a[k], b[k]);
    exit(1);
}

static void same_sides(const char *call)
{
    const struct side *a = &sides[LIBRARY], *b = &sides[REFERENCE];
    same_room(call, "answer", a->answer, b->answer, sizeof a->answer);
    same_room(call, "wide answer", a->wide, b->wide, sizeof a->wide);
    same_room(call, "tables", a->tables, b->tables, tables_used);
    same_room(call, "work", a->work, b->work, work_used);
    same_room(call, "out", a->out, b->out, out_used);
}

static void same_session(const char *call)
{
    uint32_t numbers[KZ_RECORD];
    same_sides(call);
    ref_record(&sides[REFERENCE].session.queues, numbers);
    same_room(call, "record", sides[LIBRARY].session.record, numbers, sizeof numbers);
}

/* What the calls on a posted map are given besides `posted`. */
struct posting {
    struct map m;
    uint64_t root;
    size_t tables, work; /* entries lent */
};

static void compare_check(struct posting p)
{
    int k;
    prepare_both();
    for (k = 0; k < PROGRAMS; k++)
        programs[k].check[form](p.m.dim, p.m.darts, p.root, posted, p.tables, sides[k].work, p.work, sides[k].answer);
    same_sides("check");
}

/* Maps reported: in each form, closed or with a free pair, orientable or not. */
static unsigned long reports_by[FORMS][2][2];

static void compare_report(struct posting p)
{
    const uint32_t *answer = sides[LIBRARY].answer;
    int k;
    prepare_both();
    for (k = 0; k < PROGRAMS; k++)
        programs[k].report[form](p.m.dim, p.m.darts, posted, p.tables, sides[k].work, p.work, sides[k].answer);
    same_sides("report");
    if (answer[0] == 0)
        reports_by[form][answer[9] > 0][answer[10]]++;
}

/* Maps of each kind were met. */
static void all_reports_met(void)
{
    int k;
    for (k = 0; k < 4 * FORMS; k++)
        if (reports_by[k / 4][k / 2 % 2][k % 2] == 0) {
            printf("bench: no %s map of %s that is %sorientable was compared\n", k / 2 % 2 ? "open" : "closed",
                   k / 4 == ONE_BODY ? "one body" : "several bodies", k % 2 ? "" : "not ");
            exit(1);
        }
}

/* Spoiled maps checked in each form, by number. */
static unsigned long checks_by[FORMS][NUMBERS];

/* Every number that a form's check gives was met, and no other. */
static void all_checks_met(void)
{
    uint32_t k;
    for (form = ONE_BODY; form < FORMS; form++)
        for (k = 0; k < NUMBERS; k++)
            if ((checks_by[form][k] > 0) != is_of_check(k)) {
                printf("bench: %lu of the maps checked for %s were answered by %u\n", checks_by[form][k],
                       form == ONE_BODY ? "one body" : "several bodies", (unsigned)k);
                exit(1);
            }
    form = ONE_BODY;
}

static unsigned long faces_by[NUMBERS]; /* how many of the face files compared were answered by each number */

/* The text that is lent. */
static void compare_faces(size_t tables, size_t work_entries)
{
    int k;
    prepare_both();
    for (k = 0; k < PROGRAMS; k++)
        programs[k].faces(text, LENGTH(text), sides[k].tables, tables, sides[k].work, work_entries, sides[k].wide);
    same_sides("faces");
    faces_by[sides[LIBRARY].wide[0]]++;
}

/* Every number that a face file is answered by was met, and no other: how often each. */
static void all_faces_met(void)
{
    uint32_t k;
    printf("bench: face files by number");
    for (k = 0; k < NUMBERS; k++) {
        if (faces_by[k] > 0)
            printf(" %u:%lu", (unsigned)k, faces_by[k]);
        if ((faces_by[k] > 0) != is_of_faces(k)) {
            printf("\nbench: %lu of the face files compared were answered by %u\n", faces_by[k], (unsigned)k);
            exit(1);
        }
    }
    printf("\n");
}

static void compare_write(struct posting p, uint64_t start, size_t size)
{
    int k;
    prepare_both();
    for (k = 0; k < PROGRAMS; k++)
        programs[k].write[form](p.m.dim, p.m.darts, p.root, start, posted, p.tables, sides[k].work, p.work,
                                sides[k].out, size, sides[k].answer);
    same_sides("write");
}

static uint8_t stream[KZ_MAX_STREAM + SPARE];

/* The whole stream, kept in `stream`, the page from its end, the one past it, and all pages of one size; its length. */
static size_t compare_writes(struct posting p, size_t size)
{
    size_t start, length;
    compare_write(p, 0, KZ_MAX_STREAM);
    length = sides[LIBRARY].answer[3];
    memcpy(stream, sides[LIBRARY].out, length);
    compare_write(p, length, size);
    compare_write(p, (uint64_t)length + 1, size);
    for (start = 0; start < length; start += size)
        compare_write(p, start, size);
    return length;
}

static unsigned long reads_by[NUMBERS];        /* how many of the reads compared were answered by each number */
static unsigned long reads_of_bodies[NUMBERS]; /* and how many of those of several bodies */

static void compare_read(const uint8_t *bytes, size_t length, size_t tables)
{
    int k;
    prepare_both();
    for (k = 0; k < PROGRAMS; k++)
        programs[k].read(bytes, length, sides[k].tables, tables, sides[k].answer);
    same_sides("read");
    reads_by[sides[LIBRARY].answer[0]]++;
    if (length > 0 && bytes[0] >= 0x80)
        reads_of_bodies[sides[LIBRARY].answer[0]]++;
}

/* Every number that a reading finds was met, and no other; of several bodies too, but for 15. */
static void all_reads_met(void)
{
    uint32_t k;
    for (k = 0; k < NUMBERS; k++) {
        int met = k == 0 || is_found(k);
        if ((reads_by[k] > 0) != met || (reads_of_bodies[k] > 0) != (met && k != KZ_TOO_FEW)) {
            printf("bench: %lu of the reads compared were answered by %u, %lu of several bodies\n", reads_by[k],
                   (unsigned)k, reads_of_bodies[k]);
            exit(1);
        }
    }
}

static void compare_page(const uint8_t *bytes, size_t length, size_t tables)
{
    int k;
    for (k = 0; k < PROGRAMS; k++)
        programs[k].page(&sides[k].session, bytes, length, sides[k].tables, tables, sides[k].answer);
    same_session("page");
}

static void compare_close(size_t tables)
{
    int k;
    for (k = 0; k < PROGRAMS; k++)
        programs[k].close(&sides[k].session, sides[k].tables, tables, sides[k].answer);
    same_session("close");
}

/* A session fed by pages of one size and closed twice. */
static void compare_session(const uint8_t *bytes, size_t length, size_t tables, size_t size)
{
    size_t at, left;
    int k;
    prepare_both();
    for (k = 0; k < PROGRAMS; k++)
        programs[k].open(&sides[k].session);
    for (at = 0; at < length; at += size) {
        left = length - at;
        compare_page(bytes + at, left < size ? left : size, tables);
    }
    compare_page(bytes, 0, tables);
    compare_close(tables);
    compare_close(tables);
}

/* Every call on the posted map from one root, in both forms: one of them takes it. */
static void compare_map(const char *name, struct map m, uint64_t root, size_t write_size, size_t read_size)
{
    size_t length, entries = (size_t)((m.dim + 1) * m.darts);
    struct posting p = { m, root, LENGTH(posted), (size_t)(2 * m.darts + SPARE) };
    map_name = name;
    map_shape = m;
    map_root = root;
    use_rooms(entries, p.work, KZ_MAX_STREAM);
    for (form = ONE_BODY; form < FORMS; form++) {
        compare_check(p);
        compare_report(p);
        length = compare_writes(p, write_size);
        if (length == 0)
            continue;
        compare_read(stream, length, entries);
        compare_session(stream, length, entries, read_size);
        compare_session(stream, length, entries, 1024);
    }
    form = ONE_BODY;
}

/* Spoiled inputs. */

/* Ties two darts at some rank, and the partners they had each to itself: still its own inverse, but perhaps not a map
   any more. */
static void retie(struct map m)
{
    uint64_t n = m.darts, i = dice((uint32_t)m.dim + 1), d = dice((uint32_t)n), e = dice((uint32_t)n);
    uint16_t d_had = posted[position(m, i, d)], e_had = posted[position(m, i, e)];
    tie(m, i, d_had, d_had);
    tie(m, i, e_had, e_had);
    tie(m, i, d, e);
}

/* One to three entries get another number each: one of `count` from `least` on. */
static void spoil_entries(struct map m, uint32_t least, uint32_t count)
{
    uint32_t k, at;
    for (k = 1 + dice(3); k > 0; k--) {
        at = dice((uint32_t)((m.dim + 1) * m.darts));
        posted[at] = (uint16_t)(least + dice(count));
    }
}

static void spoil_posting(struct posting *p)
{
    uint32_t entries = (uint32_t)((p->m.dim + 1) * p->m.darts);
    switch (dice(12)) {
    case 0: p->root = dice(2 * (uint32_t)p->m.darts); break;
    case 1: p->work = dice(2 * (uint32_t)p->m.darts + 2); break;
    case 2: p->tables = dice(entries + 2); break;
    case 3: spoil_entries(p->m, (uint32_t)p->m.darts, 3); break;
    case 4: spoil_entries(p->m, 0, (uint32_t)p->m.darts); break;
    case 5: p->m.dim = dice(9); break;
    case 6: p->m.darts = dice(2) ? 0 : KZ_MAX_DARTS + 1 + dice(9); break;
    default: retie(p->m); break;
    }
}

static void compare_spoiled_maps(int rounds)
{
    struct posting p;
    for (; rounds > 0; rounds--) {
        const struct kind *kind = &kinds[dice(KINDS)];
        map_name = kind->name;
        p.m = kind->post(0);
        p.root = map_root = dice((uint32_t)p.m.darts);
        p.tables = LENGTH(posted);
        p.work = (size_t)(2 * p.m.darts + SPARE);
        use_rooms(0, p.work, 256);
        do
            spoil_posting(&p);
        while (dice(2) && p.m.darts == sizes[0] && p.m.dim == kind->dim);
        map_shape = p.m;
        for (form = ONE_BODY; form < FORMS; form++) {
            compare_check(p);
            checks_by[form][sides[LIBRARY].answer[0]]++;
            compare_report(p);
            compare_write(p, dice(128), dice(256));
        }
        form = ONE_BODY;
    }
}

/* Bits turned over, bytes taken off the end or put there. */
static size_t spoil_stream(size_t length)
{
    uint32_t bit, k;
    for (k = dice(3); k > 0; k--) {
        bit = dice(8 * (uint32_t)length);
        stream[bit / 8] ^= (uint8_t)(128 >> bit % 8);
    }
    switch (dice(4)) {
    case 0: return dice((uint32_t)length);
    case 1: stream[length] = (uint8_t)dice(256); return length + 1;
    default: return length;
    }
}

static void compare_spoiled_streams(int rounds)
{
    for (; rounds > 0; rounds--) {
        const struct kind *kind = &kinds[dice(KINDS)];
        struct posting p = { kind->post(0), 0, LENGTH(posted), (size_t)(2 * sizes[0]) };
        size_t length, tables = (size_t)((p.m.dim + 1) * p.m.darts);
        map_name = kind->name;
        map_shape = p.m;
        p.root = map_root = dice((uint32_t)p.m.darts);
        use_rooms(KZ_MAX_TABLES, p.work, 1024);
        form = kind->form;
        compare_write(p, 0, 1024);
        form = ONE_BODY;
        length = sides[LIBRARY].answer[3];
        memcpy(stream, sides[LIBRARY].out, length);
        length = spoil_stream(length);
        tables = dice(4) ? KZ_MAX_TABLES : tables - dice(2);
        compare_read(stream, length, tables);
        compare_session(stream, length, tables, 1 + dice(20));
    }
}

static const uint8_t known_streams[][8] = {
    { 0x20, 0x02, 0xA2, 0x80 },
    { 0x30, 0x07, 0x45, 0x41, 0x80, 0x3D, 0x00 },
    { 0x30, 0x07, 0x45, 0x41, 0x80, 0x3D, 0x01 },
    { 0x20, 0x03, 0x91, 0x58, 0x01, 0x80 },
    { 0x10, 0x01, 0xC0, 0x00 },
    { 0x10, 0x02, 0x60, 0x0A },
    { 0x10, 0x03, 0x18, 0x00, 0x00 },
    { 0x10, 0x01, 0xA1, 0x00 },
    { 0x10, 0x00, 0xA1, 0x00 },
    { 0x10, 0x00, 0xA0, 0xFF },
    { 0x90, 0x00, 0xA1, 0x00 },
    { 0x90, 0x01, 0xAA, 0x00 },
    { 0xA0, 0x01, 0xAA, 0xA1, 0x00 },
    { 0xA0, 0x03, 0xAA, 0x8A, 0x00 },
    { 0xB0, 0x08, 0x45, 0x41, 0x80, 0x3D, 0x55, 0x01 },
    { 0x90, 0x02, 0xAC, 0x00, 0x00 },
    { 0x90, 0x02, 0xAC, 0x00, 0x40 },
    { 0x90, 0x02, 0xAC, 0x00, 0x80 },
    { 0x80, 0x00, 0xAA },
    { 0xF0, 0x00, 0xAA },
};

/* Streams of the requirements that end in each refusal, in every length. */
static void compare_known_streams(void)
{
    size_t k, length;
    map_name = "known streams";
    use_rooms(64, 0, 0);
    for (k = 0; k < sizeof known_streams / sizeof known_streams[0]; k++)
        for (length = 0; length <= 8; length++) {
            compare_read(known_streams[k], length, 40);
            compare_session(known_streams[k], length, 40, 1);
            compare_session(known_streams[k], length, 5, 2);
        }
}

/* Rooms for the mesh, or shorter ones; no longer than there are. */
static void compare_mesh(void)
{
    uint32_t tables = 6 * mesh.corners + dice(3), work_entries = 4 * mesh.corners + dice(3);
    if (dice(8) == 0)
        tables = dice(tables + 1);
    if (dice(8) == 0)
        work_entries = dice(work_entries + 1);
    if (work_entries > KZ_MAX_WORK)
        work_entries = KZ_MAX_WORK;
    end_text();
    map_shape.dim = 2;
    map_shape.darts = 2 * mesh.corners;
    map_root = 0;
    use_rooms(tables, work_entries, 0);
    compare_faces(tables, work_entries);
}

/* Face files of a few faces: good ones, some with other numbers in them, and some with other bytes. */
static void compare_face_files(int rounds)
{
    uint32_t k;
    map_name = "of a face file";
    for (; rounds > 0; rounds--) {
        mesh_of_some_kind();
        for (k = dice(3); k > 0 && rounds % 3 == 1; k--)
            spoil_mesh();
        write_mesh(dice(3) == 0);
        for (k = dice(3); k > 0 && rounds % 3 == 2 && text_end > 0; k--)
            spoil_text();
        compare_mesh();
    }
}

/* Face files about the greatest number of darts and past it, some of them spoiled. */
static void compare_long_face_files(int rounds)
{
    uint32_t k;
    map_name = "of a long face file";
    for (; rounds > 0; rounds--) {
        mesh_strip(600 + dice(400));
        for (k = dice(3); k > 0; k--)
            spoil_mesh();
        write_mesh(dice(2) == 0);
        compare_mesh();
    }
}

/* The comparisons that are quick. */
static void compare_small(void)
{
    size_t k;
    compare_known_streams();
    for (k = 0; k < SAMPLES; k++) {
        struct map m = samples[k].post();
        if (m.darts > sizes[1])
            continue;
        compare_map(samples[k].name, m, 0, 7, 1);
        compare_map(samples[k].name, m, m.darts - 1, 64, 3);
    }
    for (k = 0; k < SITES; k++) {
        struct map m = sites[k].map.post();
        if (m.darts > sizes[1])
            continue;
        compare_map(sites[k].map.name, m, 0, 7, 1);
        compare_map(sites[k].map.name, m, m.darts / 2 + 1, 64, 3);
    }
    for (k = 0; k < KINDS; k++) {
        struct map m = kinds[k].post(0);
        compare_map(kinds[k].name, m, 0, 61, 1);
        compare_map(kinds[k].name, m, m.darts / 2 + 1, 64, 13);
    }
    compare_spoiled_maps(2000);
    compare_spoiled_streams(1000);
    compare_face_files(3000);
    compare_long_face_files(60);
    all_faces_met();
    all_checks_met();
    all_reads_met();
    all_reports_met();
}

#endif
