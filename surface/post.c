#include <kanzhulet.h>
#include <stdio.h>

int main(void)
{
    static const char text[] = "OFF 4 4 6 # a tetrahedron\n0 0 0\n1 0 0\n0 1 0\n0 0 1\n"
                               "3 0 2 1\n3 0 1 3\n3 1 2 3\n3 2 0 3\n";
    static uint16_t tables[3 * KZ_MAX_DARTS], work[KZ_MAX_WORK]; /* long enough for every face file */
    uint64_t read[KZ_FACES_ANSWER];
    uint32_t sent[KZ_WRITE_ANSWER] = { 0 };
    uint8_t page[64];
    if (kz_faces((const uint8_t *)text, sizeof text - 1, tables, 3 * KZ_MAX_DARTS, work, KZ_MAX_WORK, read) == 0)
        kz_write(2, read[2], 0, 0, tables, 3 * KZ_MAX_DARTS, work, KZ_MAX_WORK, page, sizeof page, sent);
    printf("%s; darts: %u, bytes: %u\n", kz_message((uint32_t)read[0]), (unsigned)read[2], (unsigned)sent[3]);
    return read[0] != KZ_ACCEPTED;
}
