/*
 * From OFF text to a stream: reads a face file from standard input and writes the stream of its map, from root 0, to
 * standard output, in the form of several bodies where the faces do not hang together. A text that is refused gives no
 * stream and one line on standard error, as `refused 28 at 0: ..`.
 *
 *   off <house.off >house.stream
 *
 * Exit status: 0 written, 1 refused, 2 the text could not be read or the stream not be written.
 */
#include "kanzhulet.h"
#include <stdio.h>
#include <stdlib.h>

enum { DIM = 2, TABLES = (DIM + 1) * KZ_MAX_DARTS, FIRST_ROOM = 4096, PAGE = 1024 };

static uint16_t tables[TABLES], work[KZ_MAX_WORK]; /* all 0 before the text is read */

/* All of standard input, in a room that is made longer until it is not filled; NULL if it cannot be read. */
static uint8_t *read_text(size_t *length)
{
    uint8_t *text = NULL, *longer;
    size_t room = FIRST_ROOM / 2;
    for (*length = 0; text == NULL || *length == room;) {
        room = 2 * room;
        longer = realloc(text, room);
        if (longer == NULL) {
            free(text);
            return NULL;
        }
        text = longer;
        *length += fread(text + *length, 1, room - *length, stdin);
    }
    if (!ferror(stdin))
        return text;
    free(text);
    return NULL;
}

/* The n of a text that was refused by 9. The answer does not tell it, but the first 2n entries of the work room say
   KZ_NO_LINK then, and no others. */
static uint64_t darts_of_bodies(void)
{
    size_t entries = 0;
    while (entries < KZ_MAX_WORK && work[entries] == KZ_NO_LINK)
        entries++;
    return entries / 2;
}

/* Page by page, each from where the last one ended; is all of it written? */
static int write_stream(uint64_t darts, int several)
{
    uint32_t written[KZ_WRITE_ANSWER];
    uint8_t page[PAGE];
    uint64_t start = 0;
    do {
        if (several)
            kz_write_bodies(DIM, darts, 0, start, tables, TABLES, work, KZ_MAX_WORK, page, PAGE, written);
        else
            kz_write(DIM, darts, 0, start, tables, TABLES, work, KZ_MAX_WORK, page, PAGE, written);
        if (written[0] != KZ_ACCEPTED || fwrite(page, 1, written[2], stdout) != written[2])
            return 0;
        start += written[2];
    } while (start < written[3]);
    return fflush(stdout) == 0;
}

int main(void)
{
    uint64_t read[KZ_FACES_ANSWER];
    size_t length;
    int several;
    uint8_t *text = read_text(&length);
    if (text == NULL) {
        fprintf(stderr, "the text could not be read\n");
        return 2;
    }
    kz_faces(text, length, tables, TABLES, work, KZ_MAX_WORK, read);
    free(text);
    several = read[0] == KZ_NOT_REACHED;
    if (read[0] != KZ_ACCEPTED && !several) {
        fprintf(stderr, "refused %u at %llu: %s\n", (unsigned)read[0], (unsigned long long)read[1],
                kz_message((uint32_t)read[0]));
        return 1;
    }
    if (!write_stream(several ? darts_of_bodies() : read[2], several)) {
        fprintf(stderr, "the stream could not be written\n");
        return 2;
    }
    return 0;
}
