/*
 * A reference of the requirements in plain C: the same answers as the calls of kanzhulet.h, written on its own from the
 * documents, with the queues and the table of known links that they speak of. It is what the benchmark holds the
 * library against.
 *
 * Each call takes what the library's call of the same name takes, returns the refusal number and stores the same
 * answer. Three things differ. A session is a struct with its queues in it, lent by the caller, and is trusted: refusal
 * 19 is never given. A face file is read into rooms that are allocated, and the program ends where there is no memory
 * for them. And the other calls have their queues and tables in static memory, so they are not for several threads at
 * once.
 */
#ifndef SURFACE_REFERENCE_H
#define SURFACE_REFERENCE_H

#include <stddef.h>
#include <stdint.h>

enum { REF_RANKS = 7, REF_DARTS = 4096, REF_RECORD = 17 };

/* A ring buffer of walk numbers. */
struct ref_queue {
    uint16_t numbers[REF_DARTS];
    uint32_t head, tail; /* how many numbers have left and entered */
};

enum ref_state { REF_HEADER, REF_RUNNING, REF_COMPLETE, REF_CLOSED, REF_REFUSED };

enum ref_form { REF_ONE_BODY, REF_SEVERAL_BODIES };

struct ref_session {
    enum ref_state state;
    uint32_t number, place; /* of the refusal */
    uint32_t dim, darts;    /* 0 until a header is accepted */
    uint32_t count;         /* darts that have a walk number */
    uint32_t steps;
    uint32_t bits, bit_count; /* bits that wait for the rest of a symbol or of the header */
    enum ref_form form;       /* the header's; one body until it is accepted */
    uint32_t bodies;          /* bodies begun */
    struct ref_queue queues[REF_RANKS];
};

uint32_t ref_check(uint64_t dim, uint64_t darts, uint64_t root, const uint16_t *tables, size_t tables_length,
                   uint16_t *work, size_t work_length, uint32_t *answer);

uint32_t ref_check_bodies(uint64_t dim, uint64_t darts, uint64_t root, const uint16_t *tables, size_t tables_length,
                          uint16_t *work, size_t work_length, uint32_t *answer);

uint32_t ref_faces(const uint8_t *text, size_t text_length, uint16_t *tables, size_t tables_length, uint16_t *work,
                   size_t work_length, uint64_t *answer);

uint32_t ref_write(uint64_t dim, uint64_t darts, uint64_t root, uint64_t start, const uint16_t *tables,
                   size_t tables_length, uint16_t *work, size_t work_length, uint8_t *out, size_t out_length,
                   uint32_t *answer);

uint32_t ref_write_bodies(uint64_t dim, uint64_t darts, uint64_t root, uint64_t start, const uint16_t *tables,
                          size_t tables_length, uint16_t *work, size_t work_length, uint8_t *out, size_t out_length,
                          uint32_t *answer);

uint32_t ref_read(const uint8_t *bytes, size_t bytes_length, uint16_t *tables, size_t tables_length, uint32_t *answer);

void ref_open(struct ref_session *session);

uint32_t ref_page(struct ref_session *session, const uint8_t *bytes, size_t bytes_length, uint16_t *tables,
                  size_t tables_length, uint32_t *answer);

uint32_t ref_close(struct ref_session *session, uint16_t *tables, size_t tables_length, uint32_t *answer);

uint32_t ref_report(uint64_t dim, uint64_t darts, const uint16_t *tables, size_t tables_length, uint16_t *work,
                    size_t work_length, uint32_t *answer);

uint32_t ref_report_bodies(uint64_t dim, uint64_t darts, const uint16_t *tables, size_t tables_length, uint16_t *work,
                           size_t work_length, uint32_t *answer);

/* The seventeen numbers that the library's record holds for the same session. */
void ref_record(const struct ref_session *session, uint32_t record[REF_RECORD]);

#endif
