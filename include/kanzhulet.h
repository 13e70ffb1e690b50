/*
 * kanzhulet.h: the surface for C of a proved library for generalised maps.
 *
 * A map of dimension N (1 to 6) has n darts (1 to 4,096), 0 to n-1, and N+1 links a0..aN for each dart. Its tables are
 * 16-bit numbers, the links of a dart side by side: ai(d) stands at position d*(N+1) + i. ai(d) = d says that dart d is
 * free at rank i. In tables that are being read, KZ_NO_LINK says "no link yet".
 *
 *   kz_check    are these posted tables a valid connected map? numbers the darts from a root
 *   kz_faces    tables of dimension 2 from a face file (OFF text)
 *   kz_write    any page of a map's stream, from any root
 *   kz_read     tables from one whole stream
 *   kz_open, kz_page, kz_close      the same, fed page by page through a session
 *   kz_report   cells of each rank, free links, orientable or not
 *   kz_check_bodies, kz_write_bodies, kz_report_bodies      the same for a map of several bodies
 *   kz_message  a refusal number in words
 *
 * A body is all that some dart reaches by links; a connected map is one body. A stream has one of two forms: that of
 * one body, whose first four bits are N, for a connected map, and that of several bodies, whose first four bits are
 * 8+N, for a map of two or more. Check, writer and report are calls of their own in each form; the calls that read take
 * both, and a session's record tells which it is.
 *
 * Every call takes all values of its numbers and all contents of its rooms, ends, allocates nothing and keeps nothing
 * between calls. It returns the refusal number, 0 for an accepted call, and stores the whole answer in `answer`. What
 * each call stores is proved for every input; docs/PROMISES.md of the library says by which law.
 *
 * What the caller guarantees, since no proof can see across the call:
 *   - each pointer is not null, is aligned for its type and points to as many elements as its length says, or as the
 *     array's size says; with length 0 nothing is read or written through it;
 *   - a room that the call may write (work, out, record, answer, and the tables of kz_faces and of a reading) overlaps
 *     no other argument, and no other thread touches it during the call; a room that the call only reads is not written
 *     during the call;
 *   - there is stack enough: kz_faces needs some 64 KiB of stack, every other call little.
 *
 * Link with libkanzhulet.a, as `pkg-config --cflags --libs kanzhulet` says. The library is for x86-64 Linux. It needs
 * one function from outside, memset, which every C library has; a program linked without one has to bring its own.
 */
#ifndef KANZHULET_H
#define KANZHULET_H

#include <stddef.h>
#include <stdint.h>

#ifdef __cplusplus
extern "C" {
#endif

/* The library's version, as pkg-config and the Rust wrapper give it too. */
#define KZ_VERSION "0.9.0"

/* The limits, and the rooms that are long enough for every map. */
enum {
    KZ_MAX_DIM = 6,
    KZ_MAX_DARTS = 4096,
    KZ_MAX_TABLES = 28672, /* entries: (N+1)*n at most */
    KZ_MAX_WORK = 8192,    /* entries: 2n at most */
    KZ_MAX_STREAM = 50178, /* bytes: no stream is longer */
    KZ_NO_LINK = 65535
};

/* Numbers in an answer or a record. */
enum {
    KZ_CHECK_ANSWER = 2,
    KZ_FACES_ANSWER = 3, /* of 64 bits each; all others have 32 */
    KZ_WRITE_ANSWER = 4,
    KZ_READ_ANSWER = 5,
    KZ_PAGE_ANSWER = 6,
    KZ_REPORT_ANSWER = 11,
    KZ_RECORD = 17
};

/*
 * Refusal numbers. Of several faults the call answers the first in the order that its section below states.
 *
 *   number                 when                                              place
 */
enum {
    KZ_ACCEPTED = 0,      /* accepted, or a page after which the session waits  0 */
    KZ_DIMENSION = 1,     /* N is not 1 to 6                                    0 */
    KZ_DARTS = 2,         /* n is not 1 to 4,096                                0 */
    KZ_SHORT_TABLES = 3,  /* tables shorter than (N+1)*n                        0 */
    KZ_SHORT_WORK = 4,    /* work room shorter than 2n                          0 */
    KZ_ROOT = 5,          /* root not below n                                   0 */
    KZ_ENTRY = 6,         /* an entry not below n                               position, first by rank, then dart */
    KZ_INVERSE = 7,       /* ai(ai(d)) is not d                                 the position of ai(d), in that order */
    KZ_MANIFOLD = 8,      /* ai, aj, ai, aj does not lead back (i+2 <= j)       the dart, first by pair, then dart */
    KZ_NOT_REACHED = 9,   /* a dart not reached from the root                   the least such dart */
    KZ_PAST_END = 10,     /* page start past the stream's end                   the stream's length */
    KZ_CUT = 11,          /* the stream ended early                             steps done */
    KZ_INDEX = 12,        /* only a record lent as refused with it              as lent */
    KZ_TOO_MANY = 13,     /* a new dart when n are numbered                     steps done */
    KZ_TAKEN = 14,        /* a deduced partner has a link already               steps done */
    KZ_TOO_FEW = 15,      /* the walk ended with fewer than n darts             steps done */
    KZ_BUILT = 16,        /* the map that was built breaks the condition of 8   steps done */
    KZ_FILL = 17,         /* a fill bit of the last byte is set                 steps done */
    KZ_BYTE_AFTER = 18,   /* a byte after the end                               steps done */
    KZ_UNFIT = 19,        /* the record is no session that can go on            0 */
    KZ_CLOSED = 20,       /* the session is closed                              0 */
    KZ_NOT_NUMBERED = 21, /* a named dart has no number yet                     steps done */
    KZ_ITSELF = 22,       /* a named dart is the dart itself                    steps done */
    KZ_LINKED = 23,       /* a named dart has a link at this rank already       steps done */
    /* no call answers 24 or 25 */
    KZ_WORD = 26,         /* a word or number malformed or missing              its first byte, or the text's length */
    KZ_VERTEX = 27,       /* a vertex number too large                          the face's number, from 0 */
    KZ_FACE = 28,         /* under three corners, or two equal neighbours       the face's number, from 0 */
    KZ_SIDE = 29,         /* a side used a third time                           the face's number, from 0 */
    KZ_ONE_BODY = 30      /* only one body in the form of several               steps done in a reading, else 0 */
};

/*
 * The check of posted tables, from a root.
 *
 * answer: number, place. Order of tests: 1 to 9, each over the whole tables before the next. 6 and 7 go through the
 *         links rank by rank, in each rank dart by dart, and tell the first that fails: not always the one that stands
 *         first in the tables.
 * tables: at least (N+1)*n entries; what is past them is not read. Never written.
 * work:   at least 2n entries; what is past them is neither read nor written.
 *   0        the first n hold each dart's walk number, the next n the dart of each walk number
 *   1 to 8   unchanged
 *   9        the first 2n are KZ_NO_LINK
 */
uint32_t kz_check(uint64_t dim, uint64_t darts, uint64_t root,
                  const uint16_t *tables, size_t tables_length,
                  uint16_t *work, size_t work_length,
                  uint32_t answer[KZ_CHECK_ANSWER]);

/*
 * The same for a map of several bodies: are these tables a valid map of at least two? The first body is the one that
 * the root is in; each next one begins at the least dart that has no walk number yet, and its darts are numbered on
 * from those before.
 *
 * answer: number, place. Order of tests: 1 to 8 as kz_check, then 30 at 0 if there is one body only. 9 is never given.
 * tables and work: as for kz_check, with 30 for 9.
 */
uint32_t kz_check_bodies(uint64_t dim, uint64_t darts, uint64_t root,
                         const uint16_t *tables, size_t tables_length,
                         uint16_t *work, size_t work_length,
                         uint32_t answer[KZ_CHECK_ANSWER]);

/*
 * Posting from a face file: an OFF text is read into the tables of a map of dimension 2, which is checked from root 0.
 *
 * The text is the word OFF; three numbers, how many vertices, faces and edges there are; for each vertex three words;
 * for each face a number, how many corners it has, and their vertex numbers, counted from 0.
 *   - Blanks are space, tab, CR and LF; a word is what stands between them. A number is a word of one to nine digits.
 *   - # starts a comment, within a word too, and it goes on to the line's end. Lines end at LF.
 *   - The words of a vertex are passed over, whatever they are and whatever lines they stand on. So are the rest of the
 *     line after a face's last corner and all that follows the last face. The edge count is not held to anything.
 * Corners are numbered over all faces in file order, from 0. Corner c is at its own vertex, and its side leads to the
 * next corner of its face, from the last one to the first. It gives two darts: 2c at its own vertex, 2c+1 at that of
 * the next corner. a0 joins these two; a1 joins 2c+1 to the first dart of the next corner; a2 joins two sides that have
 * the same two vertices, each end to the one at the same vertex, and a side that has no such other is free.
 *
 * answer: number, place, n. On a refusal n is 0, on 9 too. The numbers have 64 bits: a text may be longer than 4 GiB.
 *         9 says that the faces are several bodies: the tables hold them all, for kz_check_bodies and kz_write_bodies,
 *         whose n is twice the number of corners.
 * Order of tests: 26 over the whole text; then face by face 27 (a vertex number not below the vertex count), 28 (fewer
 *         than three corners, or two neighbours with one vertex, last and first included), 29 (a side that two corners
 *         before have already); then 2 (no faces, or more than 4,096 darts, which are 2,048 corners), 3, 4, 9. 6, 7 and
 *         8 are never given: a map so built is valid.
 * text:   any length. Never written.
 * tables: at least 3n entries; what is past them is neither read nor written.
 *   0 and 9  the first 3n are the map's
 *   else     unchanged
 * work:   at least 2n entries; what is past them is neither read nor written.
 *   0        as after kz_check with root 0: each dart's walk number, then the dart of each walk number
 *   9        the first 2n are KZ_NO_LINK
 *   else     unchanged
 * Sides are kept in a table on the stack: the call needs some 64 KiB of stack.
 */
uint32_t kz_faces(const uint8_t *text, size_t text_length,
                  uint16_t *tables, size_t tables_length,
                  uint16_t *work, size_t work_length,
                  uint64_t answer[KZ_FACES_ANSWER]);

/*
 * The paged writer: the bytes of the map's stream from byte `start` on, as many as `out` holds or the stream has.
 *
 * answer: number, place, bytes written, the stream's length. On a refusal the last two are 0.
 * Order of tests: 1 to 9 as kz_check, then 10. A start equal to the length is accepted and writes nothing.
 * tables and work: as for kz_check; after 10 the work room is as after 0.
 * out:    any length.
 *   0        its first `written` bytes are the stream's from `start` on; the rest is unchanged
 *   else     unchanged
 * The pages of a stream: start at 0, and each next where the last ended, until start + written is the length.
 */
uint32_t kz_write(uint64_t dim, uint64_t darts, uint64_t root, uint64_t start,
                  const uint16_t *tables, size_t tables_length,
                  uint16_t *work, size_t work_length,
                  uint8_t *out, size_t out_length,
                  uint32_t answer[KZ_WRITE_ANSWER]);

/*
 * The same for a map of several bodies, whose stream has the form of several bodies. Its walk is that of
 * kz_check_bodies: it writes nothing where a body begins.
 *
 * answer: as kz_write. Order of tests: 1 to 8 and 30 as kz_check_bodies, then 10.
 * tables, work and out: as for kz_write, with 30 for 9.
 */
uint32_t kz_write_bodies(uint64_t dim, uint64_t darts, uint64_t root, uint64_t start,
                         const uint16_t *tables, size_t tables_length,
                         uint16_t *work, size_t work_length,
                         uint8_t *out, size_t out_length,
                         uint32_t answer[KZ_WRITE_ANSWER]);

/*
 * One whole read: accepts exactly the streams that some valid map within the limits has from some root, a connected one
 * in the form of one body and one of at least two bodies in the form of several, and builds that map under its walk
 * numbering. The answer is of one kind for both forms; the first bit of the stream tells them apart.
 *
 * answer: number, place, steps done, N, n. On a refusal steps is the place, N and n are 0.
 * Order of tests: 1 and 3 once both header bytes are there, 1 if the first four bits are 0, 7, 8 or 15; then by step
 * 11, 13, 14, and for a dart that the stream names 21, 22, 23; at the end 15, or 30 in the form of several bodies, then
 * 16, 17, 18. 12 is never given.
 * tables: any length; 3 if it is less than the (N+1)*n of the stream's header. What is past (N+1)*n is not written.
 *   0        the first (N+1)*n are the map's
 *   1, 3, and 11 before both header bytes are there    unchanged
 *   11 after that, 13 to 18, 21 to 23 and 30           the first (N+1)*n are KZ_NO_LINK
 */
uint32_t kz_read(const uint8_t *bytes, size_t bytes_length,
                 uint16_t *tables, size_t tables_length,
                 uint32_t answer[KZ_READ_ANSWER]);

/*
 * A session reads one stream by pages of any sizes, none of them kept by the library. The caller lends the same record
 * and the same tables to each call and writes neither in between: open, any number of pages, close.
 *
 * The record is seventeen numbers:
 *   [0]  state: 0 header, 1 running, 2 complete, 3 closed, 4 refused
 *   [1]  the refusal's number if refused, else 0       [2]  its place if refused, else 0
 *   [3]  N        [4]  n        [5]  darts numbered so far
 *   [6] to [12]  how many darts have left each of the seven queues
 *   [13]  how many bits wait for the rest of a symbol (13 at most)       [14]  the number they write, first bit highest
 *   [15]  form: 0 one body, 1 several bodies       [16]  bodies begun so far
 * Form and bodies are 0 until a header is accepted, and when refused. An accepted header begins the first body; in the
 * form of several bodies the next one begins as soon as all queues are empty and darts are left, before any bit of it.
 * It has no pointers and may be stored and carried on later, by another process too, together with the tables.
 */
void kz_open(uint32_t record[KZ_RECORD]);

/*
 * A page of a stream. Every step is done that needs no bit beyond those seen.
 *
 * answer: number, place, steps done so far, N, n, bytes to fetch. The number is 0 also where the session waits for
 *         more. N and n are 0 until a header is accepted, and on a refusal, where steps is the place.
 *         Bytes to fetch is the least number of bytes that could finish the header or the symbol that waits: 2 on a new
 *         session, 1 after one header byte, 1 or 2 while the walk runs; fewer never finish it, whatever they are. It is
 *         0 where nothing waits: the stream is complete, or the answer is a refusal. Of an accepted stream at
 *         least so many bytes are left: who always asks for just these reads it to its end and never asks past it.
 * Order of tests: 19, 20, then as kz_read but for 11. A refused session repeats its refusal; 12 is answered only so, to
 *         a record that was lent as refused with it.
 * tables: as for kz_read; unchanged by 19, 20 and a repeated refusal. A header that is accepted fills the first (N+1)*n
 *         with KZ_NO_LINK, then links are set.
 * record: after 19, 20 and a repeated refusal as given; after any other refusal state 4 with number and place, all else
 *         0.
 * 19 is answered for every record that no session stands for (another state, a number above 65,535 in [3] to [14] or
 * in [16], a form above 1, a number or place where the state is not 4) and for every session that is not fit: numbers
 * out of range, form or bodies not 0 where the state is 0 or 4, or tables that are too short or do not go with the
 * record.
 */
uint32_t kz_page(uint32_t record[KZ_RECORD],
                 const uint8_t *bytes, size_t bytes_length,
                 uint16_t *tables, size_t tables_length,
                 uint32_t answer[KZ_PAGE_ANSWER]);

/*
 * The end of a session's stream.
 *
 * answer: as the first five numbers of kz_page. Order of tests: 19, 20; a refused session repeats its refusal; 11 if
 *         the stream is cut; else 0, and the state becomes closed. For a session that began with kz_open, answer and
 *         tables are those of one kz_read of all the bytes given.
 * tables: a first 11 with a header accepted puts KZ_NO_LINK in the first (N+1)*n; else unchanged.
 * record: after 0 state 3, all else as it was; after a first 11 state 4 with number and place, all else 0; else as
 *         given.
 */
uint32_t kz_close(uint32_t record[KZ_RECORD],
                  uint16_t *tables, size_t tables_length,
                  uint32_t answer[KZ_READ_ANSWER]);

/*
 * The cell report of a map.
 *
 * answer: number, place, the number of i-cells for i = 0 to 6 (0 past N), the number of free (rank, dart) pairs, and 1
 *         if the map is orientable, that is if the darts can be put in two classes so that every link from a dart to
 *         another one leads to the other class. A free dart is linked to itself at its rank; such a link is left out,
 *         at every rank. So an open square is orientable, and a Moebius band, open too, is not. On a refusal all but
 *         number and place are 0.
 * Order of tests: 1 to 4 and 6 to 9 as kz_check with root 0.
 * tables and work: as for kz_check; but after 0 the first 2n of the work room are KZ_NO_LINK.
 */
uint32_t kz_report(uint64_t dim, uint64_t darts,
                   const uint16_t *tables, size_t tables_length,
                   uint16_t *work, size_t work_length,
                   uint32_t answer[KZ_REPORT_ANSWER]);

/*
 * The same for a map of several bodies: cells and free pairs are counted over all of them, and it is orientable if
 * every one is.
 *
 * answer: as kz_report. Order of tests: 1 to 4, 6 to 8 and 30 as kz_check_bodies with root 0.
 * tables and work: as for kz_report, with 30 for 9.
 */
uint32_t kz_report_bodies(uint64_t dim, uint64_t darts,
                          const uint16_t *tables, size_t tables_length,
                          uint16_t *work, size_t work_length,
                          uint32_t answer[KZ_REPORT_ANSWER]);

/*
 * A refusal number in words, and in brackets what the place is that goes with it: kz_message(11) is "the stream ended
 * early (place: the steps done)". Every number has a text, 0 and those that are no refusal's too. The text is the
 * library's own and stays; it is never null. This function is plain C, outside the proofs.
 */
const char *kz_message(uint32_t number);

#ifdef __cplusplus
}
#endif

#endif
