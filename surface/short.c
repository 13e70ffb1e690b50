#include <kanzhulet.h>
#include <stdio.h>

int main(void)
{
    uint16_t posted[] = { 1, 0, 0, 1 }, work[4], tables[4]; /* one edge, N = 1, n = 2: a0 and a1 of each end */
    uint32_t record[KZ_RECORD], sent[KZ_WRITE_ANSWER], got[KZ_PAGE_ANSWER];
    uint8_t page[64];
    kz_write(1, 2, 0, 0, posted, 4, work, 4, page, sizeof page, sent); /* the server: from root 0, from byte 0 on */
    kz_open(record);
    kz_page(record, page, sent[2], tables, 4, got); /* the client: the bytes that were written, as they come */
    kz_close(record, tables, 4, got);
    printf("%s; darts: %u, steps: %u\n", kz_message(got[0]), (unsigned)got[4], (unsigned)got[2]);
    return got[0] != KZ_ACCEPTED;
}
