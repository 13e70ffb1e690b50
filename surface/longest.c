/*
 * The longest stream of each form and its listing, for a test of the listing program over several pages: N 6 and n
 * 4,096. Of one body: a0 to a4 one pairing, a5 and a6 a path over the pairs. Of several: a0 to a6 one pairing.
 *
 *   longest stream           its bytes
 *   longest text             what the listing program is to print for them
 *   longest stream bodies    and the same two for several bodies
 *   longest text bodies
 */
#include "kanzhulet.h"
#include <stdio.h>

enum { DIM = 6, DARTS = 4096, ENTRIES = (DIM + 1) * DARTS };

static uint16_t map[ENTRIES], built[ENTRIES], work[2 * DARTS];
static uint8_t stream[KZ_MAX_STREAM];

/* Where ai(d) stands in both tables. */
static unsigned position(unsigned rank, unsigned dart) { return dart * (DIM + 1) + rank; }

/* a5 joins the pairs 2k and 2k+1, a6 the pairs 2k+1 and 2k+2; a6 joins a pair at an end of the path within. */
static uint16_t along(unsigned rank, unsigned dart)
{
    unsigned pair = dart / 2, last = DARTS / 2 - 1;
    int upwards = (pair + rank) % 2 == 1;
    if (rank == 6 && (pair == 0 || pair == last))
        return (uint16_t)(dart ^ 1);
    return (uint16_t)(upwards ? dart + 2 : dart - 2);
}

static void post(int several)
{
    for (unsigned d = 0; d < DARTS; d++)
        for (unsigned i = 0; i <= DIM; i++)
            map[position(i, d)] = i < 5 || several ? (uint16_t)(d ^ 1) : along(i, d);
}

static uint32_t write_stream(int several, uint32_t *written)
{
    if (several)
        return kz_write_bodies(DIM, DARTS, 0, 0, map, ENTRIES, work, 2 * DARTS, stream, KZ_MAX_STREAM, written);
    return kz_write(DIM, DARTS, 0, 0, map, ENTRIES, work, 2 * DARTS, stream, KZ_MAX_STREAM, written);
}

static uint32_t report_built(int several, uint32_t *report)
{
    if (several)
        return kz_report_bodies(DIM, DARTS, built, ENTRIES, work, 2 * DARTS, report);
    return kz_report(DIM, DARTS, built, ENTRIES, work, 2 * DARTS, report);
}

static void print_stream(uint32_t length)
{
    for (uint32_t k = 0; k < length; k++)
        putchar(stream[k]);
}

static int print_text(int several, uint32_t length)
{
    uint32_t read[KZ_READ_ANSWER], report[KZ_REPORT_ANSWER];
    if (kz_read(stream, length, built, ENTRIES, read) != 0 || report_built(several, report) != 0)
        return 1;
    printf("dimension %u darts %u\n", (unsigned)read[3], (unsigned)read[4]);
    for (unsigned d = 0; d < DARTS; d++) {
        printf("%u", d);
        for (unsigned i = 0; i <= DIM; i++)
            printf(" %u", (unsigned)built[position(i, d)]);
        printf("\n");
    }
    printf("cells");
    for (unsigned i = 0; i <= DIM; i++)
        printf(" %u", (unsigned)report[2 + i]);
    printf("\nfree %u\nsteps %u\n", (unsigned)report[9], (unsigned)read[2]);
    printf("orientable %s\n", report[10] ? "yes" : "no");
    return 0;
}

int main(int count, char **words)
{
    uint32_t written[KZ_WRITE_ANSWER];
    int several = count == 3;
    post(several);
    if (count < 2 || count > 3 || write_stream(several, written) != 0)
        return 1;
    if (words[1][0] == 't')
        return print_text(several, written[3]);
    print_stream(written[3]);
    return 0;
}
