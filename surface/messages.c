/*
 * The texts of the refusal numbers, for C and for the wrapper in Rust. This is the one part of the library that is
 * plain C and not proved: the tests hold it to docs/GUIDE.md, number by number.
 */
#include "kanzhulet.h"

static const char *const messages[] = {
    [KZ_ACCEPTED] = "accepted",
    [KZ_DIMENSION] = "the dimension is not 1 to 6 (place: 0)",
    [KZ_DARTS] = "the number of darts is not 1 to 4096 (place: 0)",
    [KZ_SHORT_TABLES] = "the tables are shorter than (N+1)*n entries (place: 0)",
    [KZ_SHORT_WORK] = "the work room is shorter than 2n entries (place: 0)",
    [KZ_ROOT] = "the root is no dart (place: 0)",
    [KZ_ENTRY] = "an entry is no dart (place: its position in the tables, the first by rank, then dart)",
    [KZ_INVERSE] = "a link does not lead back (place: its position in the tables, the first by rank, then dart)",
    [KZ_MANIFOLD] = "links two or more ranks apart do not commute (place: the dart)",
    [KZ_NOT_REACHED] = "a dart is not reached from the root (place: the least such dart)",
    [KZ_PAST_END] = "the page starts past the stream's end (place: the stream's length)",
    [KZ_CUT] = "the stream ended early (place: the steps done)",
    [KZ_INDEX] = "the record was lent as refused with 12, which no reading gives any more (place: as lent)",
    [KZ_TOO_MANY] = "the stream has more darts than its header says (place: the steps done)",
    [KZ_TAKEN] = "a link that follows from others is taken already (place: the steps done)",
    [KZ_TOO_FEW] = "the stream has fewer darts than its header says (place: the steps done)",
    [KZ_BUILT] = "links two or more ranks apart do not commute in the map read (place: the steps done)",
    [KZ_FILL] = "a fill bit of the stream's last byte is set (place: the steps done)",
    [KZ_BYTE_AFTER] = "a byte follows the stream's end (place: the steps done)",
    [KZ_UNFIT] = "the record is no session that can go on with these tables (place: 0)",
    [KZ_CLOSED] = "the session is closed (place: 0)",
    [KZ_NOT_NUMBERED] = "the stream names a dart that has no number yet (place: the steps done)",
    [KZ_ITSELF] = "the stream names the dart itself (place: the steps done)",
    [KZ_LINKED] = "the stream names a dart that has a link at this rank already (place: the steps done)",
    [KZ_WORD] = "a word or number of the text is malformed or missing (place: its first byte, or the text's length)",
    [KZ_VERTEX] = "a vertex number is too large (place: the face, counted from 0)",
    [KZ_FACE] = "a face has fewer than three corners or two equal neighbours (place: the face, counted from 0)",
    [KZ_SIDE] = "a side is used a third time (place: the face, counted from 0)",
    [KZ_ONE_BODY] = "only one body in the form of several bodies (place: the steps done in a reading, else 0)",
};

/* A number between others may be no refusal's, and has no text in the list then. */
const char *kz_message(uint32_t number)
{
    const char *text = number < sizeof messages / sizeof *messages ? messages[number] : NULL;
    return text != NULL ? text : "there is no refusal of this number";
}
