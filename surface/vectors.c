/*
 * Runs files of vectors through the calls of kanzhulet.h: cases of a second program, one to a line.
 *
 *   vectors FILE...
 *
 * A file's name says what its lines are; `kinds` has the names. For each file this is printed, and the exit status is
 * 0 only if every file could be read and had cases, of which none differs:
 *
 *   reading.txt: 1285 cases, 0 differ
 *     met 0:310 1:14 3:143 11:168 13:134 14:42 15:26 16:62 17:36 18:85 21:134 22:43 23:46 30:42
 *
 * `met` counts the cases by the number that the library answered. What differs and what cannot be read follows, the
 * first ten in words. The last line counts, over all files, every call by its number, where a case may make many:
 *
 *   calls by number 0:.. 1:.. 2:..
 */
#include "kanzhulet.h"
#include "vectors_lines.h"
#include "vectors_rooms.h"

/* The sizes of the pages that a stream is cut into, and how a note tells of them. */
static const struct cut {
    size_t size;
    const char *part;
} cuts[] = { { 1, " in pages of 1" }, { 2, " in pages of 2" }, { 3, " in pages of 3" }, { 7, " in pages of 7" } };
enum { CUTS = sizeof cuts / sizeof *cuts };

/* What is left from a place on, or as many as a page has. */
static size_t page_length(size_t from, size_t size)
{
    size_t left = from < stream.length ? stream.length - from : 0;
    return left < size ? left : size;
}

/* A work room of 2n entries, or the longest there is where that is shorter. */
static size_t work_length(uint64_t darts)
{
    return darts <= WORK / 2 ? 2 * (size_t)darts : WORK;
}

/* The calls, with the rooms that are lent. */

static unsigned long calls_by[NUMBERS]; /* how many calls of all files were answered by each number */

static uint32_t count_call(uint32_t number)
{
    if (number < NUMBERS)
        calls_by[number]++;
    return number;
}

/* The calls that take a posted map, in each form. */
static const struct form {
    uint32_t (*check)(uint64_t, uint64_t, uint64_t, const uint16_t *, size_t, uint16_t *, size_t, uint32_t *);
    uint32_t (*write)(uint64_t, uint64_t, uint64_t, uint64_t, const uint16_t *, size_t, uint16_t *, size_t, uint8_t *,
                      size_t, uint32_t *);
    uint32_t (*report)(uint64_t, uint64_t, const uint16_t *, size_t, uint16_t *, size_t, uint32_t *);
} one_body = { kz_check, kz_write, kz_report },
  several_bodies = { kz_check_bodies, kz_write_bodies, kz_report_bodies };

static const struct form *form = &one_body; /* of the file at hand */

struct posted {
    uint64_t dim, darts, root;
};

static uint32_t call_check(const struct posted *p)
{
    return count_call(form->check(p->dim, p->darts, p->root, entries_of(&tables), tables.length, entries_of(&work),
                                  work.length, numbers_of(&answer)));
}

static uint32_t call_faces(void)
{
    return count_call(kz_faces(bytes_of(&text), text.length, entries_of(&tables), tables.length, entries_of(&work),
                               work.length, wide_numbers_of(&wide_answer)));
}

static uint32_t call_write(const struct posted *p, uint64_t start)
{
    return count_call(form->write(p->dim, p->darts, p->root, start, entries_of(&tables), tables.length,
                                  entries_of(&work), work.length, bytes_of(&out), out.length, numbers_of(&answer)));
}

static uint32_t call_report(const struct posted *p)
{
    return count_call(form->report(p->dim, p->darts, entries_of(&tables), tables.length, entries_of(&work),
                                   work.length, numbers_of(&answer)));
}

static uint32_t call_read(void)
{
    return count_call(kz_read(bytes_of(&stream), stream.length, entries_of(&tables), tables.length,
                              numbers_of(&answer)));
}

static uint32_t call_page(void)
{
    return count_call(kz_page(numbers_of(&record), bytes_of(&page), page.length, entries_of(&tables), tables.length,
                              numbers_of(&answer)));
}

static uint32_t call_close(void)
{
    return count_call(kz_close(numbers_of(&record), entries_of(&tables), tables.length, numbers_of(&answer)));
}

/* After the call that answers a case. */
static void judge(struct tally *t, uint32_t number)
{
    count_answer(t, number);
    compare(t, number);
}

/* checking.txt, bodies-checking.txt: N n root tables workLength number place workAfter. */
static void check_line(struct tally *t, struct line *l)
{
    struct posted p;
    empty_rooms();
    p.dim = take_number(l, UINT64_MAX);
    p.darts = take_number(l, UINT64_MAX);
    p.root = take_number(l, UINT64_MAX);
    take_lent(l, &tables);
    lend(&work, take_length(l, &work));
    take_answer(l, KZ_CHECK_ANSWER);
    take_after(l, &work);
    if (is_case(t, l))
        judge(t, call_check(&p));
}

/* faces.txt: text tablesLength workLength number place n tablesAfter workAfter. */
static void faces_line(struct tally *t, struct line *l)
{
    empty_rooms();
    take_lent(l, &text);
    lend(&tables, take_length(l, &tables));
    lend(&work, take_length(l, &work));
    take_wide_answer(l, KZ_FACES_ANSWER);
    take_after(l, &tables);
    take_after(l, &work);
    if (is_case(t, l))
        judge(t, call_faces());
}

/* writing.txt, bodies-writing.txt: N n root tables stream. */

static void want_answer(uint32_t number, uint32_t place, uint32_t written, uint32_t length)
{
    const uint32_t numbers[KZ_WRITE_ANSWER] = { number, place, written, length };
    memcpy(answer.want, numbers, sizeof numbers);
}

/* Does the work room number the darts from the root, its second half the inverse of the first? */
static int is_numbered(const struct posted *p)
{
    const uint16_t *number = entries_of(&work);
    uint64_t d;
    if (p->darts > work.length / 2 || p->root >= p->darts || number[p->root] != 0)
        return 0;
    for (d = 0; d < p->darts; d++)
        if (number[d] >= p->darts || number[p->darts + number[d]] != d)
            return 0;
    return 1;
}

/*
 * The file does not say what the writer leaves in the work room: it is what the check leaves there, and has to be a
 * numbering.
 */
static void want_numbering(struct tally *t, const struct posted *p)
{
    uint32_t number;
    lend(&work, work_length(p->darts));
    lend(&answer, KZ_CHECK_ANSWER);
    want_answer(KZ_ACCEPTED, 0, 0, 0);
    number = call_check(p);
    want_held(&work);
    compare(t, number);
    if (!is_numbered(p))
        tell_wrong(t, "work", "the check leaves no numbering from the root");
}

/*
 * One page from a start: the stream's bytes there, then what was in the output before; or refusal 10 past the stream's
 * end.
 */
static uint32_t write_page(struct tally *t, const struct posted *p, size_t start, size_t size)
{
    size_t written = page_length(start, size);
    uint32_t number, length = (uint32_t)stream.length;
    lend(&work, work_length(p->darts));
    lend(&out, size);
    want_filled(&out);
    if (written > 0)
        memcpy(out.want, bytes_of(&stream) + start, written);
    lend(&answer, KZ_WRITE_ANSWER);
    if (start > stream.length)
        want_answer(KZ_PAST_END, length, 0, 0);
    else
        want_answer(KZ_ACCEPTED, 0, (uint32_t)written, length);
    number = call_write(p, start);
    compare(t, number);
    return number;
}

/* Each page from where the last one ended; then one at the stream's end, and one past it. The first one's number. */
static uint32_t write_pages(struct tally *t, const struct posted *p, size_t size)
{
    uint32_t first = write_page(t, p, 0, size);
    size_t start;
    for (start = size; start < stream.length; start += size)
        write_page(t, p, start, size);
    write_page(t, p, stream.length, size);
    write_page(t, p, stream.length + 1, size);
    return first;
}

/* The whole stream into an output that is longer than it, then pages of each size. */
static void write_line(struct tally *t, struct line *l)
{
    struct posted p;
    int k;
    empty_rooms();
    p.dim = take_number(l, UINT64_MAX);
    p.darts = take_number(l, UINT64_MAX);
    p.root = take_number(l, UINT64_MAX);
    take_lent(l, &tables);
    take_lent(l, &stream);
    if (!is_case(t, l))
        return;
    want_numbering(t, &p);
    count_answer(t, write_pages(t, &p, stream.length + SPARE));
    for (k = 0; k < CUTS; k++) {
        t->part = cuts[k].part;
        write_pages(t, &p, cuts[k].size);
    }
}

/* reading.txt: stream tablesLength number place steps N n tablesAfter. */

/* One page of the stream. What it answers is tested by sessions.txt. */
static void read_page(struct tally *t, size_t from, size_t size)
{
    uint32_t number;
    size_t length = page_length(from, size);
    memcpy(page.want, bytes_of(&stream) + from, length);
    lend_wanted(&page, length);
    number = call_page();
    if (number != numbers_of(&answer)[0])
        tell_wrong(t, "answer", "a page's number returned is not the number stored");
    compare_room(t, &page);
}

/* The same stream through a session: answer and tables after closing are those of the whole read. */
static void read_pages(struct tally *t, size_t size)
{
    size_t from;
    uint32_t number;
    lend(&tables, tables.length);
    lend(&record, KZ_RECORD);
    kz_open(numbers_of(&record));
    for (from = 0; from < stream.length; from += size) {
        lend(&answer, KZ_PAGE_ANSWER);
        read_page(t, from, size);
    }
    lend(&answer, KZ_READ_ANSWER);
    number = call_close();
    want_held(&record);
    compare(t, number);
}

/* The whole read, then sessions by pages of each size. */
static void read_line(struct tally *t, struct line *l)
{
    int k;
    empty_rooms();
    take_lent(l, &stream);
    lend(&tables, take_length(l, &tables));
    take_answer(l, KZ_READ_ANSWER);
    take_after(l, &tables);
    if (!is_case(t, l))
        return;
    judge(t, call_read());
    for (k = 0; k < CUTS; k++) {
        t->part = cuts[k].part;
        read_pages(t, cuts[k].size);
    }
}

/* reports.txt, bodies-reports.txt: N n tables number place cells0 .. cells6 free orientable. */

/* The file does not say what the report leaves in the work room: marks after 0, 9 and 30, else what was there. */
static void want_report_work(void)
{
    uint32_t number = ((const uint32_t *)answer.want)[0];
    if (number == KZ_ACCEPTED || number == KZ_NOT_REACHED || number == KZ_ONE_BODY)
        fill(work.want, &work, KZ_NO_LINK, 0);
    else
        want_filled(&work);
}

static void report_line(struct tally *t, struct line *l)
{
    struct posted p;
    empty_rooms();
    p.dim = take_number(l, UINT64_MAX);
    p.darts = take_number(l, UINT64_MAX);
    p.root = 0;
    take_lent(l, &tables);
    take_answer(l, KZ_REPORT_ANSWER);
    if (!is_case(t, l))
        return;
    lend(&work, work_length(p.darts));
    want_report_work();
    judge(t, call_report(&p));
}

/*
 * sessions.txt: lines of one session after another. A session is open once its record is lent, and goes on from line
 * to line.
 */

/* open L */
static void open_line(struct line *l)
{
    size_t length = take_length(l, &tables);
    if (!is_whole(l))
        return;
    lend_filled(&tables, length, 9, 0);
    lend(&record, KZ_RECORD);
    kz_open(numbers_of(&record));
}

/* lend RECORD / TABLES */
static void lend_line(struct line *l)
{
    take_numbers(l, &record, KZ_RECORD);
    lend_wanted(&record, KZ_RECORD);
    take_word(l, "/");
    take_lent(l, &tables);
    is_whole(l);
}

/* = ANSWER / RECORD / TABLES; a page's answer has one number more than that of closing. */
static void take_outcome(struct line *l, size_t numbers)
{
    take_word(l, "=");
    take_answer(l, numbers);
    take_word(l, "/");
    take_numbers(l, &record, KZ_RECORD);
    take_word(l, "/");
    take_after(l, &tables);
}

/* page BYTES = ANSWER / RECORD / TABLES */
static void page_line(struct tally *t, struct line *l)
{
    take_lent(l, &page);
    take_outcome(l, KZ_PAGE_ANSWER);
    if (is_case(t, l))
        judge(t, call_page());
}

/* close = ANSWER / RECORD / TABLES */
static void close_line(struct tally *t, struct line *l)
{
    take_outcome(l, KZ_READ_ANSWER);
    if (is_case(t, l))
        judge(t, call_close());
}

static void session_line(struct tally *t, struct line *l)
{
    struct field word = take_field(l);
    if (is_word(word, "open"))
        open_line(l);
    else if (record.length == 0)
        set_fault(l, "no session is open");
    else if (is_word(word, "lend"))
        lend_line(l);
    else if (is_word(word, "page"))
        page_line(t, l);
    else if (is_word(word, "close"))
        close_line(t, l);
    else
        set_fault(l, "no line of a session begins so");
}

/* The files. */

static const struct kind {
    const char *name;
    void (*run_line)(struct tally *, struct line *);
    const struct form *form; /* of the calls on posted maps; those that read take both forms */
} kinds[] = {
    { "writing.txt", write_line, &one_body },
    { "checking.txt", check_line, &one_body },
    { "reports.txt", report_line, &one_body },
    { "bodies-writing.txt", write_line, &several_bodies },
    { "bodies-checking.txt", check_line, &several_bodies },
    { "bodies-reports.txt", report_line, &several_bodies },
    { "faces.txt", faces_line, &one_body },
    { "reading.txt", read_line, &one_body },
    { "sessions.txt", session_line, &one_body },
};
enum { KINDS = sizeof kinds / sizeof *kinds };

static const struct kind *kind_of(const char *name)
{
    int k;
    for (k = 0; k < KINDS; k++)
        if (strcmp(kinds[k].name, name) == 0)
            return &kinds[k];
    return NULL;
}

static const char *base_name(const char *path)
{
    const char *name = path;
    for (; *path; path++)
        if (*path == '/')
            name = path + 1;
    return name;
}

/* Each line of a file. After one that cannot be read no session goes on: what the line was to do is not known. */
static void run_lines(FILE *in, const struct kind *kind, struct tally *t)
{
    struct line l = { 0 };
    form = kind->form;
    empty_rooms();
    while (next_line(in, &l)) {
        if (!l.fault)
            kind->run_line(t, &l);
        if (l.fault)
            empty_rooms();
        end_line(t, &l);
    }
}

/* Runs a file and reports on it; is all well with it? */
static int run_file(const char *path)
{
    const char *name = base_name(path);
    const struct kind *kind = kind_of(name);
    struct tally t = { 0 };
    FILE *in = kind ? fopen(path, "rb") : NULL;
    int broken, well;
    if (!in) {
        printf("%s: %s\n", name, kind ? "the file cannot be opened" : "no vectors have this name");
        return 0;
    }
    run_lines(in, kind, &t);
    broken = ferror(in);
    fclose(in);
    well = say_tally(&t, name);
    if (broken)
        printf("  the file cannot be read to its end\n");
    return well && !broken;
}

int main(int argc, char **argv)
{
    int k, well = argc > 1;
    if (!well)
        printf("usage: vectors FILE...\n");
    for (k = 1; k < argc; k++)
        well &= run_file(argv[k]);
    printf("calls by number");
    say_counts(calls_by);
    return well ? 0 : 1;
}
