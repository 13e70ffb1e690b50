/*
 * The map of one square, there and back: posted as tables, checked, handed out in pages of four bytes, read back page
 * by page, fetched once more by a client that asks for no byte too many, and reported. Then the report of a Moebius
 * band.
 */
#include "kanzhulet.h"
#include <stdio.h>

enum { DIM = 2, DARTS = 8, ENTRIES = (DIM + 1) * DARTS, PAGE = 4 };

/*
 * Darts 2s and 2s+1 are the two ends of side s. ai(d) stands at d*(DIM+1) + i, so a dart has three entries here:
 *   a0: the other end of the side
 *   a1: the side that meets it there
 *   a2: the square across the side; there is none, so every dart is free at rank 2
 */
static const uint16_t square[ENTRIES] = {
    1, 7, 0, /* dart 0 */
    0, 2, 1, /* dart 1, and so on */
    3, 1, 2,
    2, 4, 3,
    5, 3, 4,
    4, 6, 5,
    7, 5, 6,
    6, 0, 7,
};

/* The same square with side 0 joined to side 2, twisted: a Moebius band. Sides 1 and 3 stay free. */
static const uint16_t band[ENTRIES] = {
    1, 7, 4, /* darts 0 and 1: side 0 */
    0, 2, 5,
    3, 1, 2,
    2, 4, 3,
    5, 3, 0, /* darts 4 and 5: side 2 */
    4, 6, 1,
    7, 5, 6,
    6, 0, 7,
};

static int refused(const uint32_t *answer)
{
    if (answer[0] != KZ_ACCEPTED)
        printf("refused %u at %u: %s\n", (unsigned)answer[0], (unsigned)answer[1], kz_message(answer[0]));
    return answer[0] != KZ_ACCEPTED;
}

/* Both are open. The square is orientable, the band is not. */
static int print_report(const char *name, uint32_t dim, uint32_t darts, const uint16_t *posted, size_t length)
{
    uint16_t room[2 * DARTS];
    uint32_t report[KZ_REPORT_ANSWER];
    kz_report(dim, darts, posted, length, room, 2 * DARTS, report);
    if (refused(report))
        return 1;
    printf("%s: cells", name);
    for (uint32_t i = 0; i <= dim; i++)
        printf(" %u", (unsigned)report[2 + i]);
    printf(" free %u orientable %s\n", (unsigned)report[9], report[10] ? "yes" : "no");
    return 0;
}

static uint16_t work[2 * DARTS];       /* lent to the check and the writer */
static uint16_t tables[KZ_MAX_TABLES]; /* what the reader builds; long enough for every map */
static uint32_t record[KZ_RECORD];     /* the reader's session */

/* One page of the square's stream, from `start` on. */
static int serve(uint64_t start, uint8_t *page, size_t length, uint32_t *written)
{
    kz_write(DIM, DARTS, 0, start, square, ENTRIES, work, 2 * DARTS, page, length, written);
    return refused(written);
}

/* The server says how long its pages are. */
static int read_in_pages(void)
{
    uint32_t written[KZ_WRITE_ANSWER], answer[KZ_PAGE_ANSWER];
    uint8_t page[PAGE];
    uint64_t start = 0;
    kz_open(record);
    do {
        if (serve(start, page, PAGE, written))
            return 1;
        printf("page at %u:", (unsigned)start);
        for (uint32_t k = 0; k < written[2]; k++)
            printf(" %02X", page[k]);
        printf("\n");
        kz_page(record, page, written[2], tables, KZ_MAX_TABLES, answer);
        if (refused(answer))
            return 1;
        start += written[2];
    } while (start < written[3]);
    return 0;
}

/* The client says it: each page has as many bytes as the answer before it told to fetch, 2 at first. A server that has
   fewer is done too early, and closing will say so. */
static int read_as_told(void)
{
    uint32_t written[KZ_WRITE_ANSWER], answer[KZ_PAGE_ANSWER];
    uint8_t page[2];
    uint64_t start = 0;
    printf("fetched:");
    kz_open(record);
    for (uint32_t fetch = 2; fetch > 0; fetch = answer[5]) {
        if (serve(start, page, fetch, written))
            return 1;
        if (written[2] == 0)
            break;
        printf(" %u", (unsigned)written[2]);
        kz_page(record, page, written[2], tables, KZ_MAX_TABLES, answer);
        if (refused(answer))
            return 1;
        start += written[2];
    }
    printf(" of %u\n", (unsigned)written[3]);
    return 0;
}

static int close_session(uint32_t *answer)
{
    kz_close(record, tables, KZ_MAX_TABLES, answer);
    if (refused(answer))
        return 1;
    printf("dimension %u darts %u steps %u\n", (unsigned)answer[3], (unsigned)answer[4], (unsigned)answer[2]);
    return 0;
}

int main(void)
{
    uint32_t checked[KZ_CHECK_ANSWER], back[KZ_READ_ANSWER];
    kz_check(DIM, DARTS, 0, square, ENTRIES, work, 2 * DARTS, checked);
    if (refused(checked))
        return 1;
    if (read_in_pages() || close_session(back) || read_as_told() || close_session(back))
        return 1;
    return print_report("square", back[3], back[4], tables, KZ_MAX_TABLES) ||
           print_report("band", DIM, DARTS, band, ENTRIES);
}
