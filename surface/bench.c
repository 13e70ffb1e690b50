/*
 * The benchmark: the library against the reference, in one program, on the same inputs.
 *
 *   bench             comparisons, then the measurements
 *   bench --times     the same, with the times in microseconds after each ratio
 *   bench --compare   the quick comparisons only
 *
 * One line a measurement:
 *
 *   CALL N n MAP ratio R           the time of the library's call over the reference's; a site, scattered or not, has
 *                                  64 bodies, 8 where n is 64, and dust n of them, all in the form of several bodies
 *   faces 2 n TEXT ratio R         the same for a face file of n/2 corners; where n is above 4,096 it is refused by 2
 *   faces TEXT/spread G            the library's time for sides that fall into few slots over that for harmless ones
 *   cost CALL N MAP 4096/512 G     the library's cost of a step at n = 4,096 over that at 512, and the reference's
 *   longest ...                    the longest stream in pages of 64 bytes
 *
 * A measurement above its target says so at the end of its line.
 *
 * CALL/1024 is a call by pages of 1 KiB until the stream's end. A page of the writer walks the whole map, so its steps
 * are those of all pages together. The two programs take turns; before each turn the rooms are filled alike, outside
 * the time taken. A time is the shortest of many turns. The exit status is 1 if a result differs, and a missed target
 * does not change it.
 */
#define _POSIX_C_SOURCE 199309L
#include "programs.h"
#include <time.h>

/* The calls on a map; then the one on a face file. */
enum { CHECK_MAP, WRITE, WRITE_PAGES, READ, READ_PAGES, REPORT, CALLS, FACES = CALLS };
static const char *const call_names[] = { "check", "write", "write/1024", "read", "read/1024", "report", "faces" };

enum { PAGE_SIZE = 1024, SMALL_PAGE = 64, LEAST_TURNS = 7, MOST_TURNS = 400 };
static const double turns_last = 0.25e9; /* nanoseconds for one measurement, unless LEAST_TURNS take longer */

/* The targets; the ratio's is for the greatest n. */
static const double most_ratio = 1.0, most_growth = 1.3, most_paged = 4.0, no_target = 1e9;
static const double most_accepted = 3.0, most_20000 = 8.0, most_50000 = 16.0, most_hostile = 2.0; /* face files */

static int with_times;
static unsigned measurements, missed;

static double now(void)
{
    struct timespec t;
    clock_gettime(CLOCK_MONOTONIC, &t);
    return (double)t.tv_sec * 1e9 + (double)t.tv_nsec;
}

/* A map that is posted, and its stream from root 0; or the map of the face file that is lent. */
struct job {
    const char *name;
    struct map m;
    size_t entries, length;
};

static void write_pages(const struct program *p, struct side *s, const struct job *job, size_t size)
{
    size_t start;
    for (start = 0; start < job->length; start += size)
        p->write[form](job->m.dim, job->m.darts, 0, start, posted, job->entries, s->work, 2 * job->m.darts, s->out,
                       size, s->answer);
}

static void read_pages(const struct program *p, struct side *s, const struct job *job, size_t size)
{
    size_t at, left;
    p->open(&s->session);
    for (at = 0; at < job->length; at += size) {
        left = job->length - at;
        p->page(&s->session, stream + at, left < size ? left : size, s->tables, job->entries, s->answer);
    }
    p->close(&s->session, s->tables, job->entries, s->answer);
}

static void make_call(int call, const struct program *p, struct side *s, const struct job *job)
{
    uint64_t dim = job->m.dim, darts = job->m.darts;
    switch (call) {
    case CHECK_MAP: p->check[form](dim, darts, 0, posted, job->entries, s->work, 2 * darts, s->answer); break;
    case WRITE:
        p->write[form](dim, darts, 0, 0, posted, job->entries, s->work, 2 * darts, s->out, KZ_MAX_STREAM, s->answer);
        break;
    case WRITE_PAGES: write_pages(p, s, job, PAGE_SIZE); break;
    case READ: p->read(stream, job->length, s->tables, job->entries, s->answer); break;
    case READ_PAGES: read_pages(p, s, job, PAGE_SIZE); break;
    case REPORT: p->report[form](dim, darts, posted, job->entries, s->work, 2 * darts, s->answer); break;
    case FACES: p->faces(text, LENGTH(text), s->tables, 3 * KZ_MAX_DARTS, s->work, KZ_MAX_WORK, s->wide); break;
    }
}

/* One program's turn: so many calls, and the time of one. */
static double turn(int call, int program, const struct job *job, unsigned calls)
{
    struct side *s = &sides[program];
    double began;
    unsigned k;
    prepare(s);
    began = now();
    for (k = 0; k < calls; k++)
        make_call(call, &programs[program], s, job);
    return (now() - began) / calls;
}

static void keep_least(double *least, double time)
{
    if (*least == 0 || time < *least)
        *least = time;
}

/* The shortest time of a call for each program. */
static void measure(int call, const struct job *job, double time[PROGRAMS])
{
    unsigned turns, calls = job->m.darts < KZ_MAX_DARTS ? (unsigned)(KZ_MAX_DARTS / job->m.darts) : 1;
    double began = now();
    int k;
    time[LIBRARY] = time[REFERENCE] = 0;
    for (turns = 0; turns < MOST_TURNS && (turns < LEAST_TURNS || now() - began < turns_last); turns++) {
        for (k = 0; k < PROGRAMS; k++)
            keep_least(&time[k], turn(call, k, job, calls));
        same_sides(call_names[call]);
    }
}

/* The end of a line. */
static void against(double value, double most)
{
    measurements++;
    if (value > most) {
        missed++;
        printf(" above %.2f", most);
    }
    printf("\n");
}

static void print_ratio(const char *call, const struct job *job, const double time[PROGRAMS], double most)
{
    double ratio = time[LIBRARY] / time[REFERENCE];
    printf("%s %u %u %s ratio %.2f", call, (unsigned)job->m.dim, (unsigned)job->m.darts, job->name, ratio);
    if (with_times)
        printf(" times %.1f %.1f", time[LIBRARY] / 1000, time[REFERENCE] / 1000);
    against(ratio, most);
}

static struct job post_job(const struct kind *kind, int size)
{
    struct job job = { kind->name, kind->post(size), 0, 0 };
    struct posting p = { job.m, 0, LENGTH(posted), (size_t)(2 * job.m.darts) };
    job.entries = (size_t)((job.m.dim + 1) * job.m.darts);
    map_name = kind->name;
    map_shape = job.m;
    map_root = 0;
    use_rooms(job.entries, p.work, KZ_MAX_STREAM);
    job.length = compare_writes(p, PAGE_SIZE);
    return job;
}

/* The steps of one call: those of the walk, and for the writer by pages those of each page's walk. */
static double steps_of(int call, const struct job *job)
{
    size_t pages = (job->length + PAGE_SIZE - 1) / PAGE_SIZE;
    return (double)(call == WRITE_PAGES ? pages * job->entries : job->entries);
}

static void bench_kind(const struct kind *kind)
{
    static double cost[CALLS][SIZES][PROGRAMS];
    struct job job;
    double time[PROGRAMS], growth[PROGRAMS];
    int size, call, k;
    for (size = 0; size < SIZES; size++) {
        compare_map(kind->name, kind->post(size), sizes[size] / 2 + 1, 1000, 200);
        compare_map(kind->name, kind->post(size), 0, PAGE_SIZE, SMALL_PAGE);
        form = kind->form;
        job = post_job(kind, size);
        for (call = 0; call < CALLS; call++) {
            measure(call, &job, time);
            print_ratio(call_names[call], &job, time, size == SIZES - 1 ? most_ratio : no_target);
            for (k = 0; k < PROGRAMS; k++)
                cost[call][size][k] = time[k] / steps_of(call, &job);
        }
    }
    for (call = 0; call < CALLS; call++) {
        for (k = 0; k < PROGRAMS; k++)
            growth[k] = cost[call][2][k] / cost[call][1][k];
        printf("cost %s %u %s 4096/512 %.2f reference %.2f", call_names[call], (unsigned)kind->dim, kind->name,
               growth[LIBRARY], growth[REFERENCE]);
        against(growth[LIBRARY], most_growth);
    }
    form = ONE_BODY;
}

/* Face files. */

/* The lent text, of so many corners and answered by this number, its ratio at most so much; the library's time. */
static double bench_text(const char *name, uint64_t corners, uint32_t number, double most)
{
    struct job job = { name, { 2, 2 * corners }, 0, 0 };
    double time[PROGRAMS];
    map_name = name;
    map_shape = job.m;
    map_root = 0;
    use_rooms(3 * KZ_MAX_DARTS, KZ_MAX_WORK, 0);
    measure(FACES, &job, time);
    if (sides[LIBRARY].wide[0] != number) {
        printf("bench: the face file %s is answered by %u\n", name, (unsigned)sides[LIBRARY].wide[0]);
        exit(1);
    }
    print_ratio("faces", &job, time, most);
    return time[LIBRARY];
}

static void print_hostile(const char *name, double hostile, double spread)
{
    printf("faces %s/spread %.2f", name, hostile / spread);
    against(hostile / spread, most_hostile);
}

/* Tori; then 20,000 corners spread over a table's slots, and as many that fall into one of a table by products or by
   remainders; or into eight by remainders, and all their vertices have the two lowest bits in common. */
static void bench_faces(void)
{
    enum { VERTICES = 20000, FOLDED = 5000, CORNERS = 4 * FOLDED };
    static const struct hostile {
        const char *name;
        uint32_t each, slots;
        uint32_t (*slot_of)(uint32_t, uint32_t);
    } hostile[] = { { "slot-by-product", 1, 1, slot_by_product },
                    { "slot-by-remainder", 1, 1, slot_by_remainder },
                    { "slots-and-bits", 4, 8, slot_by_remainder } };
    double spread;
    size_t k;
    lend_grid_text(32, 16, 1);
    bench_text("torus", 4 * 32 * 16, KZ_ACCEPTED, most_accepted);
    lend_grid_text(100, 50, 1);
    bench_text("torus", 4 * 100 * 50, KZ_DARTS, most_20000);
    lend_grid_text(125, 100, 1);
    bench_text("torus", 4 * 125 * 100, KZ_DARTS, most_50000);
    lend_spread(VERTICES, FOLDED);
    spread = bench_text("spread", CORNERS, KZ_DARTS, no_target);
    for (k = 0; k < sizeof hostile / sizeof hostile[0]; k++) {
        lend_in_slots(VERTICES, FOLDED, hostile[k].each, hostile[k].slots, hostile[k].slot_of);
        print_hostile(hostile[k].name, bench_text(hostile[k].name, CORNERS, KZ_DARTS, no_target), spread);
    }
}

/* The longest stream. */

/* The time that the pages of a session and its end take to find the session fit: before each of them an empty page is
   given, which does nothing else. */
static double fitness_time(const struct job *job)
{
    struct side *s = &sides[LIBRARY];
    double began, sum = 0;
    size_t at, left;
    kz_open(s->session.record);
    for (at = 0; at < job->length + SMALL_PAGE; at += SMALL_PAGE) {
        began = now();
        kz_page(s->session.record, stream, 0, s->tables, job->entries, s->answer);
        sum += now() - began;
        left = at < job->length ? job->length - at : 0;
        kz_page(s->session.record, stream + at, left < SMALL_PAGE ? left : SMALL_PAGE, s->tables, job->entries,
                s->answer);
    }
    return sum;
}

static double time_of_pages(void (*pages)(const struct program *, struct side *, const struct job *, size_t),
                            int program, const struct job *job)
{
    double began;
    prepare(&sides[program]);
    began = now();
    pages(&programs[program], &sides[program], job, SMALL_PAGE);
    return now() - began;
}

static void bench_longest(const struct kind *kind)
{
    enum { TURNS = 5 };
    struct job job = post_job(kind, SIZES - 1);
    double whole = 0, whole_write = 0, fitness = 0, paged[PROGRAMS] = { 0, 0 }, written[PROGRAMS] = { 0, 0 }, times;
    int turns, k;
    for (turns = 0; turns < TURNS; turns++) {
        keep_least(&whole, turn(READ, LIBRARY, &job, 1));
        keep_least(&whole_write, turn(WRITE, LIBRARY, &job, 1));
        keep_least(&fitness, fitness_time(&job));
        for (k = 0; k < PROGRAMS; k++)
            keep_least(&paged[k], time_of_pages(read_pages, k, &job));
        for (k = 0; k < PROGRAMS && turns < 2; k++)
            keep_least(&written[k], time_of_pages(write_pages, k, &job));
    }
    times = (paged[LIBRARY] - fitness) / whole;
    printf("longest stream %u bytes in %u pages of %d\n", (unsigned)job.length,
           (unsigned)(job.length + SMALL_PAGE - 1) / SMALL_PAGE, SMALL_PAGE);
    printf("longest read/64 whole %.0f us paged %.0f us fitness %.0f us (paged - fitness) / whole %.2f", whole / 1000,
           paged[LIBRARY] / 1000, fitness / 1000, times);
    against(times, most_paged);
    print_ratio("longest read/64", &job, paged, no_target);
    printf("longest write/64 whole %.0f us a page %.0f us\n", whole_write / 1000,
           written[LIBRARY] / 1000 / ((job.length + SMALL_PAGE - 1) / SMALL_PAGE));
    print_ratio("longest write/64", &job, written, no_target);
}

int main(int count, char **words)
{
    int k, compare_only = 0;
    for (k = 1; k < count; k++) {
        compare_only |= strcmp(words[k], "--compare") == 0;
        with_times |= strcmp(words[k], "--times") == 0;
    }
    compare_small();
    if (!compare_only) {
        for (k = 0; k < KINDS; k++)
            bench_kind(&kinds[k]);
        for (k = 0; k < KINDS; k++)
            if (kinds[k].post == pairs_of)
                bench_longest(&kinds[k]);
        bench_faces();
        printf("bench: %u measurements, %u above their target\n", measurements, missed);
    }
    printf("bench: %lu comparisons, no difference\n", comparisons);
    return failures > 0;
}
