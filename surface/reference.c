#include "reference.h"
#include <stdlib.h>
#include <string.h>

enum { NO_LINK = 65535, MAX_STREAM = 50178 };

enum { CHECK_ANSWER = 2, WRITE_ANSWER = 4, READ_ANSWER = 5, PAGE_ANSWER = 6, REPORT_ANSWER = 11 };

/* A map, posted or built. */
struct map {
    uint32_t dim, darts;
    const uint16_t *links;
};

struct fault {
    uint32_t number, place;
};

static const struct fault no_fault = { 0, 0 };

/* Where ai(d) stands in the tables: a dart's links side by side. */
static uint32_t position(uint32_t dim, uint32_t rank, uint32_t dart)
{
    return dart * (dim + 1) + rank;
}

static uint32_t link_of(const struct map *map, uint32_t rank, uint32_t dart)
{
    return map->links[position(map->dim, rank, dart)];
}

static const uint16_t *links_of_dart(const struct map *map, uint32_t dart)
{
    return map->links + position(map->dim, 0, dart);
}

/* An answer of which only number and place are not 0. */
static uint32_t answer_fault(uint32_t *answer, size_t length, struct fault fault)
{
    memset(answer, 0, length * sizeof *answer);
    answer[0] = fault.number;
    answer[1] = fault.place;
    return fault.number;
}

static void fill_no_link(uint16_t *entries, size_t length)
{
    for (size_t k = 0; k < length; k++)
        entries[k] = NO_LINK;
}

/* Queues. A number enters each queue once, so a ring of REF_DARTS numbers is never too full. */

static void empty_queues(struct ref_queue *queues)
{
    for (int j = 0; j < REF_RANKS; j++)
        queues[j].head = queues[j].tail = 0;
}

static void enter(struct ref_queue *queue, uint32_t number)
{
    queue->numbers[queue->tail++ % REF_DARTS] = (uint16_t)number;
}

static uint32_t head_of(const struct ref_queue *queue)
{
    return queue->numbers[queue->head % REF_DARTS];
}

/* The rank of the lowest queue that is not empty; above dim if all are. */
static uint32_t lowest_rank(const struct ref_queue *queues, uint32_t dim)
{
    uint32_t j = 0;
    while (j <= dim && queues[j].head == queues[j].tail)
        j++;
    return j;
}

/* The head of queue j has been treated and goes on to the next queue. */
static void pass_on(struct ref_queue *queues, uint32_t j, uint32_t dim)
{
    uint32_t number = head_of(&queues[j]);
    queues[j].head++;
    if (j < dim)
        enter(&queues[j + 1], number);
}

/* Tests of a map. */

enum { PAIRS = 15 };

/* The pairs of ranks that commute, by the second, then the first. A dimension uses those up to it. */
static const struct {
    uint32_t i, j;
} pairs[PAIRS] = {
    { 0, 2 }, { 0, 3 }, { 1, 3 }, { 0, 4 }, { 1, 4 }, { 2, 4 }, { 0, 5 }, { 1, 5 },
    { 2, 5 }, { 3, 5 }, { 0, 6 }, { 1, 6 }, { 2, 6 }, { 3, 6 }, { 4, 6 },
};

static struct fault test_numbers(uint64_t dim, uint64_t darts, uint64_t root, size_t tables_length, size_t work_length)
{
    struct fault fault = no_fault;
    if (dim < 1 || dim >= REF_RANKS)
        fault.number = 1;
    else if (darts < 1 || darts > REF_DARTS)
        fault.number = 2;
    else if (tables_length < (dim + 1) * darts)
        fault.number = 3;
    else if (work_length < 2 * darts)
        fault.number = 4;
    else if (root >= darts)
        fault.number = 5;
    return fault;
}

/* 6 and 7 are searched rank by rank, in each rank dart by dart. */

static struct fault test_entries(const struct map *map)
{
    for (uint32_t i = 0; i <= map->dim; i++)
        for (uint32_t d = 0; d < map->darts; d++)
            if (link_of(map, i, d) >= map->darts)
                return (struct fault){ 6, position(map->dim, i, d) };
    return no_fault;
}

static struct fault test_inverse(const struct map *map)
{
    for (uint32_t i = 0; i <= map->dim; i++)
        for (uint32_t d = 0; d < map->darts; d++)
            if (link_of(map, i, link_of(map, i, d)) != d)
                return (struct fault){ 7, position(map->dim, i, d) };
    return no_fault;
}

static struct fault test_manifold(const struct map *map)
{
    for (int k = 0; k < PAIRS && pairs[k].j <= map->dim; k++) {
        uint32_t i = pairs[k].i, j = pairs[k].j;
        for (uint32_t d = 0; d < map->darts; d++)
            if (link_of(map, j, link_of(map, i, link_of(map, j, link_of(map, i, d)))) != d)
                return (struct fault){ 8, d };
    }
    return no_fault;
}

static struct fault test_tables(const struct map *map)
{
    struct fault fault = test_entries(map);
    if (fault.number == 0)
        fault = test_inverse(map);
    if (fault.number == 0)
        fault = test_manifold(map);
    return fault;
}

/* The stream's bits, most significant first. */

struct stream {
    uint8_t bytes[MAX_STREAM];
    size_t length;
    uint32_t bits, bit_count; /* the bits that do not fill a byte yet */
};

static void put_bits(struct stream *stream, uint32_t value, uint32_t width)
{
    stream->bits = stream->bits << width | value;
    stream->bit_count += width;
    while (stream->bit_count >= 8) {
        stream->bit_count -= 8;
        stream->bytes[stream->length++] = (uint8_t)(stream->bits >> stream->bit_count);
    }
}

/* The first bit is the form, the next three are N. */
static void begin_stream(struct stream *stream, const struct map *map, enum ref_form form)
{
    stream->length = 0;
    stream->bits = stream->bit_count = 0;
    put_bits(stream, form == REF_SEVERAL_BODIES, 1);
    put_bits(stream, map->dim, 3);
    put_bits(stream, map->darts - 1, 12);
}

static void end_stream(struct stream *stream)
{
    if (stream->bit_count > 0)
        put_bits(stream, 0, 8 - stream->bit_count);
}

/* The walk over a posted map. */

struct walk {
    struct ref_queue queues[REF_RANKS];
    uint8_t known[REF_RANKS * REF_DARTS]; /* by rank, then dart */
    uint16_t *number_of, *dart_of;        /* walk number of a dart, dart of a walk number */
    uint32_t count;                       /* darts that have a walk number */
    struct stream *stream;                /* for the symbols; none for the check */
};

static void number_dart(struct walk *walk, uint32_t dart)
{
    walk->number_of[dart] = (uint16_t)walk->count;
    walk->dart_of[walk->count] = (uint16_t)dart;
    enter(&walk->queues[0], walk->count);
    walk->count++;
}

static void write_symbol(struct walk *walk, uint32_t value, uint32_t width)
{
    if (walk->stream != NULL)
        put_bits(walk->stream, value, width);
}

/* A link that is neither known nor deduced: its symbol, and a number for a new dart. */
static void tell_link(struct walk *walk, uint32_t dart, uint32_t partner)
{
    if (partner == dart) {
        write_symbol(walk, 2, 2);
    } else if (walk->number_of[partner] == NO_LINK) {
        write_symbol(walk, 0, 1);
        number_dart(walk, partner);
    } else {
        write_symbol(walk, 3u << 12 | walk->number_of[partner], 14);
    }
}

/* Is the link of rank j known for some ai(dart), i <= j-2? */
static int deducible(const struct map *map, const uint8_t *known, uint32_t j, uint32_t dart)
{
    const uint16_t *links = links_of_dart(map, dart);
    for (uint32_t i = 0; i + 2 <= j; i++)
        if (known[links[i]])
            return 1;
    return 0;
}

static void step(const struct map *map, struct walk *walk, uint32_t j)
{
    uint8_t *known = walk->known + j * map->darts;
    uint32_t dart = walk->dart_of[head_of(&walk->queues[j])];
    uint32_t partner = link_of(map, j, dart);
    if (!known[dart]) {
        if (!deducible(map, known, j, dart))
            tell_link(walk, dart, partner);
        known[dart] = known[partner] = 1;
    }
    pass_on(walk->queues, j, map->dim);
}

/* Numbers a dart and all that are reached from it. */
static void walk_body(const struct map *map, uint32_t root, struct walk *walk)
{
    uint32_t j;
    number_dart(walk, root);
    while ((j = lowest_rank(walk->queues, map->dim)) <= map->dim)
        step(map, walk, j);
}

/* The bodies that the root's does not reach, each from its least dart; how many. A body that has begun is numbered
   whole, so the search for the next one never goes back. */
static uint32_t walk_others(const struct map *map, struct walk *walk)
{
    uint32_t bodies = 0;
    for (uint32_t d = 0; walk->count < map->darts; d++)
        if (walk->number_of[d] == NO_LINK) {
            walk_body(map, d, walk);
            bodies++;
        }
    return bodies;
}

/* An empty walk. The work room will get the numbering, the stream its bytes. */
static void begin_walk(const struct map *map, uint16_t *work, struct stream *stream, struct walk *walk)
{
    empty_queues(walk->queues);
    memset(walk->known, 0, (size_t)(map->dim + 1) * map->darts);
    fill_no_link(work, 2 * map->darts);
    walk->number_of = work;
    walk->dart_of = work + map->darts;
    walk->count = 0;
    walk->stream = stream;
}

/* A posted map, tested and numbered. */
struct posting {
    enum ref_form form;
    uint64_t dim, darts, root;
    const uint16_t *tables;
    size_t tables_length;
    uint16_t *work;
    size_t work_length;
};

static struct fault first_not_reached(uint16_t *work, uint32_t darts)
{
    struct fault fault = { 9, 0 };
    while (work[fault.place] != NO_LINK)
        fault.place++;
    fill_no_link(work, 2 * darts);
    return fault;
}

static struct fault one_body_found(uint16_t *work, uint32_t darts)
{
    fill_no_link(work, 2 * darts);
    return (struct fault){ 30, 0 };
}

/* Refusal 9 of a valid map, or 30 in the form of several bodies; else the work room holds the numbering and the stream
   is written. */
static struct fault number_darts(const struct map *map, enum ref_form form, uint32_t root, uint16_t *work,
                                 struct stream *stream)
{
    static struct walk walk;
    if (stream != NULL)
        begin_stream(stream, map, form);
    begin_walk(map, work, stream, &walk);
    walk_body(map, root, &walk);
    if (form == REF_SEVERAL_BODIES && walk_others(map, &walk) == 0)
        return one_body_found(work, map->darts);
    if (walk.count < map->darts)
        return first_not_reached(work, map->darts);
    if (stream != NULL)
        end_stream(stream);
    return no_fault;
}

/* Refusals 1 to 9, or 30 in 9's place. */
static struct fault check_posting(const struct posting *p, struct stream *stream)
{
    struct fault fault = test_numbers(p->dim, p->darts, p->root, p->tables_length, p->work_length);
    if (fault.number != 0)
        return fault;
    struct map map = { (uint32_t)p->dim, (uint32_t)p->darts, p->tables };
    fault = test_tables(&map);
    if (fault.number != 0)
        return fault;
    return number_darts(&map, p->form, (uint32_t)p->root, p->work, stream);
}

uint32_t ref_check(uint64_t dim, uint64_t darts, uint64_t root, const uint16_t *tables, size_t tables_length,
                   uint16_t *work, size_t work_length, uint32_t *answer)
{
    struct posting posting = { REF_ONE_BODY, dim, darts, root, tables, tables_length, work, work_length };
    return answer_fault(answer, CHECK_ANSWER, check_posting(&posting, NULL));
}

uint32_t ref_check_bodies(uint64_t dim, uint64_t darts, uint64_t root, const uint16_t *tables, size_t tables_length,
                          uint16_t *work, size_t work_length, uint32_t *answer)
{
    struct posting posting = { REF_SEVERAL_BODIES, dim, darts, root, tables, tables_length, work, work_length };
    return answer_fault(answer, CHECK_ANSWER, check_posting(&posting, NULL));
}

/* Face files: one reading into arrays, a hash table of the sides, then the map. */

struct text {
    const uint8_t *bytes;
    size_t length, at;
};

struct side {
    uint32_t low, high; /* its two vertices */
    uint32_t uses;
    size_t corners[2]; /* that use it */
};

struct face_file {
    uint32_t vertices, faces;
    uint32_t *sizes;   /* how many corners each face has */
    uint32_t *corners; /* the vertex of each corner, in file order */
    size_t count;      /* of corners */
    struct side *sides;
    size_t mask;   /* one less than the length of `sides`, a power of two */
    size_t *slots; /* where each corner's side stands in `sides` */
};

/* So many elements, all 0. */
static void *room_for(size_t count, size_t size)
{
    void *room = calloc(count, size);
    if (room == NULL)
        exit(2);
    return room;
}

static int is_blank(uint8_t byte)
{
    return byte == ' ' || byte == '\t' || byte == '\r' || byte == '\n';
}

static void pass_line(struct text *text)
{
    while (text->at < text->length && text->bytes[text->at] != '\n')
        text->at++;
}

/* Goes past the next word and answers its length, 0 if there is none; its place is told. */
static size_t pass_word(struct text *text, uint64_t *place)
{
    while (text->at < text->length && (is_blank(text->bytes[text->at]) || text->bytes[text->at] == '#')) {
        if (text->bytes[text->at] == '#')
            pass_line(text);
        else
            text->at++;
    }
    *place = text->at;
    while (text->at < text->length && !is_blank(text->bytes[text->at]) && text->bytes[text->at] != '#')
        text->at++;
    return text->at - *place;
}

/* The next word as a number; 0 if it is none, and its place is told. */
static int take_number(struct text *text, uint32_t *number, uint64_t *place)
{
    size_t length = pass_word(text, place);
    const uint8_t *word = text->bytes + *place;
    *number = 0;
    for (size_t k = 0; k < length; k++) {
        if (word[k] < '0' || word[k] > '9' || k == 9)
            return 0;
        *number = 10 * *number + (uint32_t)(word[k] - '0');
    }
    return length > 0;
}

/* The word OFF, the three counts and the words of the vertices. */
static int take_vertices(struct text *text, struct face_file *file, uint64_t *place)
{
    uint32_t edges;
    if (pass_word(text, place) != 3 || memcmp(text->bytes + *place, "OFF", 3) != 0)
        return 0;
    if (!take_number(text, &file->vertices, place) || !take_number(text, &file->faces, place) ||
        !take_number(text, &edges, place))
        return 0;
    for (uint64_t k = 0; k < 3 * (uint64_t)file->vertices; k++)
        if (pass_word(text, place) == 0)
            return 0;
    return 1;
}

/* The faces, in rooms for as many numbers as the rest of the text can have. */
static int take_faces(struct text *text, struct face_file *file, uint64_t *place)
{
    size_t most = (text->length - text->at) / 2 + 1;
    file->sizes = room_for(most, sizeof *file->sizes);
    file->corners = room_for(most, sizeof *file->corners);
    for (uint32_t f = 0; f < file->faces; f++) {
        uint32_t size;
        if (!take_number(text, &size, place))
            return 0;
        file->sizes[f] = size;
        for (uint32_t k = 0; k < size; k++) {
            uint32_t vertex;
            if (!take_number(text, &vertex, place))
                return 0;
            file->corners[file->count++] = vertex;
        }
        pass_line(text);
    }
    return 1;
}

/* One more use of a side; 0 if it is the third. */
static int use_side(struct face_file *file, size_t corner, size_t next)
{
    uint32_t u = file->corners[corner], v = file->corners[next], low = u < v ? u : v, high = u < v ? v : u;
    size_t at = (size_t)(((uint64_t)low << 32 | high) * 0x9E3779B97F4A7C15u >> 32) & file->mask;
    struct side *side = &file->sides[at];
    while (side->uses > 0 && (side->low != low || side->high != high)) {
        at = (at + 1) & file->mask;
        side = &file->sides[at];
    }
    if (side->uses == 2)
        return 0;
    side->low = low;
    side->high = high;
    side->corners[side->uses++] = corner;
    file->slots[corner] = at;
    return 1;
}

/* 27, 28 or 29 of the face whose first corner this is. */
static uint32_t test_face(struct face_file *file, size_t first, uint32_t size)
{
    const uint32_t *corners = file->corners + first;
    for (uint32_t k = 0; k < size; k++)
        if (corners[k] >= file->vertices)
            return 27;
    if (size < 3)
        return 28;
    for (uint32_t k = 0; k < size; k++)
        if (corners[k] == corners[k + 1 < size ? k + 1 : 0])
            return 28;
    for (uint32_t k = 0; k < size; k++)
        if (!use_side(file, first + k, k + 1 < size ? first + k + 1 : first))
            return 29;
    return 0;
}

static uint32_t test_faces(struct face_file *file, uint64_t *place)
{
    size_t first = 0, length = 16;
    while (length < 2 * file->count)
        length *= 2;
    file->mask = length - 1;
    file->sides = room_for(length, sizeof *file->sides);
    file->slots = room_for(file->count + 1, sizeof *file->slots);
    for (uint32_t f = 0; f < file->faces; f++) {
        uint32_t number = test_face(file, first, file->sizes[f]);
        *place = f;
        if (number != 0)
            return number;
        first += file->sizes[f];
    }
    return 0;
}

/* Joins two darts, or a dart to itself. */
static void join(uint16_t *tables, uint32_t rank, size_t d, size_t e)
{
    tables[position(2, rank, (uint32_t)d)] = (uint16_t)e;
    tables[position(2, rank, (uint32_t)e)] = (uint16_t)d;
}

/* The links of a corner's two darts: the own end's and the far end's. */
static void join_corner(const struct face_file *file, size_t corner, size_t next, uint16_t *tables)
{
    const struct side *side = &file->sides[file->slots[corner]];
    size_t own = 2 * corner, far = own + 1;
    join(tables, 0, own, far);
    join(tables, 1, far, 2 * next);
    if (side->uses == 1) {
        join(tables, 2, own, own);
        join(tables, 2, far, far);
    } else {
        size_t other = side->corners[side->corners[0] == corner];
        size_t crosswise = file->corners[other] != file->corners[corner];
        join(tables, 2, own, 2 * other + crosswise);
        join(tables, 2, far, 2 * other + 1 - crosswise);
    }
}

/* 2, 3 and 4; then the tables are written, and the darts numbered from root 0. A map so made is valid: 6 to 8 are not
   looked for, as a plain reader of such files would not. */
static struct fault post_faces(const struct face_file *file, uint16_t *tables, size_t tables_length, uint16_t *work,
                               size_t work_length)
{
    struct map map = { 2, 2 * (uint32_t)file->count, tables };
    struct fault fault = test_numbers(2, 2 * (uint64_t)file->count, 0, tables_length, work_length);
    size_t first = 0;
    if (fault.number != 0)
        return fault;
    for (uint32_t f = 0; f < file->faces; f++) {
        for (size_t k = 0; k < file->sizes[f]; k++)
            join_corner(file, first + k, k + 1 < file->sizes[f] ? first + k + 1 : first, tables);
        first += file->sizes[f];
    }
    return number_darts(&map, REF_ONE_BODY, 0, work, NULL);
}

uint32_t ref_faces(const uint8_t *bytes, size_t bytes_length, uint16_t *tables, size_t tables_length, uint16_t *work,
                   size_t work_length, uint64_t *answer)
{
    struct text text = { bytes, bytes_length, 0 };
    struct face_file file = { 0 };
    uint64_t place = 0;
    uint32_t number = 26;
    if (take_vertices(&text, &file, &place) && take_faces(&text, &file, &place))
        number = test_faces(&file, &place);
    if (number == 0) {
        struct fault fault = post_faces(&file, tables, tables_length, work, work_length);
        number = fault.number;
        place = fault.place;
    }
    answer[0] = number;
    answer[1] = place;
    answer[2] = number == 0 ? 2 * (uint64_t)file.count : 0;
    free(file.sizes);
    free(file.corners);
    free(file.sides);
    free(file.slots);
    return number;
}

/* The page of the posted map's stream from `start` on. */
static uint32_t write_page(const struct posting *posting, uint64_t start, uint8_t *out, size_t out_length,
                           uint32_t *answer)
{
    static struct stream stream;
    struct fault fault = check_posting(posting, &stream);
    if (fault.number == 0 && start > stream.length)
        fault = (struct fault){ 10, (uint32_t)stream.length };
    answer_fault(answer, WRITE_ANSWER, fault);
    if (fault.number != 0)
        return fault.number;
    size_t written = stream.length - (size_t)start;
    if (written > out_length)
        written = out_length;
    memcpy(out, stream.bytes + start, written);
    answer[2] = (uint32_t)written;
    answer[3] = (uint32_t)stream.length;
    return 0;
}

uint32_t ref_write(uint64_t dim, uint64_t darts, uint64_t root, uint64_t start, const uint16_t *tables,
                   size_t tables_length, uint16_t *work, size_t work_length, uint8_t *out, size_t out_length,
                   uint32_t *answer)
{
    struct posting posting = { REF_ONE_BODY, dim, darts, root, tables, tables_length, work, work_length };
    return write_page(&posting, start, out, out_length, answer);
}

uint32_t ref_write_bodies(uint64_t dim, uint64_t darts, uint64_t root, uint64_t start, const uint16_t *tables,
                          size_t tables_length, uint16_t *work, size_t work_length, uint8_t *out, size_t out_length,
                          uint32_t *answer)
{
    struct posting posting = { REF_SEVERAL_BODIES, dim, darts, root, tables, tables_length, work, work_length };
    return write_page(&posting, start, out, out_length, answer);
}

/* Reading. */

struct page {
    const uint8_t *bytes;
    size_t length, at;
};

/* What a step came to. */
enum { DONE = 0, WAITS = 255 /* for more bits; any other is a refusal number */ };

/* Takes bytes from the page until so many bits wait. */
static int have_bits(struct ref_session *session, struct page *page, uint32_t wanted)
{
    while (session->bit_count < wanted) {
        if (page->at == page->length)
            return 0;
        session->bits = session->bits << 8 | page->bytes[page->at++];
        session->bit_count += 8;
    }
    return 1;
}

static uint32_t first_bits(const struct ref_session *session, uint32_t width)
{
    return session->bits >> (session->bit_count - width);
}

static void drop_bits(struct ref_session *session, uint32_t width)
{
    session->bit_count -= width;
    session->bits &= (1u << session->bit_count) - 1;
}

static uint32_t read_new(struct ref_session *session, uint32_t *partner)
{
    drop_bits(session, 1);
    if (session->count == session->darts)
        return 13;
    *partner = session->count++;
    enter(&session->queues[0], *partner);
    return DONE;
}

static uint32_t read_named(struct ref_session *session, const struct map *map, uint32_t j, uint32_t b,
                           uint32_t *partner)
{
    *partner = first_bits(session, 14) & 4095;
    drop_bits(session, 14);
    if (*partner >= session->count)
        return 21;
    if (*partner == b)
        return 22;
    return link_of(map, j, *partner) == NO_LINK ? DONE : 23;
}

/* The symbol for aj(b). */
static uint32_t read_symbol(struct ref_session *session, struct page *page, const struct map *map, uint32_t j,
                            uint32_t b, uint32_t *partner)
{
    if (!have_bits(session, page, 1))
        return WAITS;
    if (first_bits(session, 1) == 0)
        return read_new(session, partner);
    if (!have_bits(session, page, 2))
        return WAITS;
    if (first_bits(session, 2) == 2) {
        drop_bits(session, 2);
        *partner = b;
        return DONE;
    }
    if (!have_bits(session, page, 14))
        return WAITS;
    return read_named(session, map, j, b, partner);
}

/* The partner aj(b) that a lower rank gives or else a symbol. */
static uint32_t find_partner(struct ref_session *session, struct page *page, const struct map *map, uint32_t j,
                             uint32_t b, uint32_t *partner)
{
    const uint16_t *links = links_of_dart(map, b);
    for (uint32_t i = 0; i + 2 <= j; i++) {
        uint32_t across = link_of(map, j, links[i]);
        if (across != NO_LINK) {
            *partner = link_of(map, i, across);
            return link_of(map, j, *partner) == NO_LINK ? DONE : 14;
        }
    }
    return read_symbol(session, page, map, j, b, partner);
}

static uint32_t read_step(struct ref_session *session, struct page *page, uint16_t *tables, uint32_t j)
{
    struct map map = { session->dim, session->darts, tables };
    uint32_t b = head_of(&session->queues[j]), partner, outcome;
    if (link_of(&map, j, b) == NO_LINK) {
        outcome = find_partner(session, page, &map, j, b, &partner);
        if (outcome != DONE)
            return outcome;
        tables[position(map.dim, j, b)] = (uint16_t)partner;
        tables[position(map.dim, j, partner)] = (uint16_t)b;
    }
    pass_on(session->queues, j, session->dim);
    session->steps++;
    return DONE;
}

/* The next number is the root of another body. */
static void begin_body(struct ref_session *session)
{
    session->bodies++;
    enter(&session->queues[0], session->count++);
}

/* All queues are empty: is there another body to begin? Then it begins at once, without a symbol. */
static int goes_on(struct ref_session *session)
{
    if (session->form != REF_SEVERAL_BODIES || session->count == session->darts)
        return 0;
    begin_body(session);
    return 1;
}

/* The walk has ended: 15 or 30, 16 and 17. What waits is the fill of the last byte. */
static uint32_t end_walk(struct ref_session *session, const uint16_t *tables)
{
    struct map map = { session->dim, session->darts, tables };
    if (session->count < session->darts)
        return 15;
    if (session->form == REF_SEVERAL_BODIES && session->bodies == 1)
        return 30;
    if (test_manifold(&map).number != 0)
        return 16;
    if (session->bits != 0)
        return 17;
    session->bit_count = 0;
    session->state = REF_COMPLETE;
    return DONE;
}

static uint32_t run(struct ref_session *session, struct page *page, uint16_t *tables)
{
    uint32_t j, outcome;
    do {
        while ((j = lowest_rank(session->queues, session->dim)) <= session->dim) {
            outcome = read_step(session, page, tables, j);
            if (outcome != DONE)
                return outcome;
        }
    } while (goes_on(session));
    return end_walk(session, tables);
}

static uint32_t read_header(struct ref_session *session, struct page *page, uint16_t *tables, size_t tables_length)
{
    if (!have_bits(session, page, 16))
        return WAITS;
    uint32_t dim = session->bits >> 12 & 7, darts = (session->bits & 4095) + 1;
    enum ref_form form = session->bits >> 15 ? REF_SEVERAL_BODIES : REF_ONE_BODY;
    drop_bits(session, 16);
    if (dim < 1 || dim >= REF_RANKS)
        return 1;
    if (tables_length < (size_t)(dim + 1) * darts)
        return 3;
    fill_no_link(tables, (size_t)(dim + 1) * darts);
    session->state = REF_RUNNING;
    session->dim = dim;
    session->darts = darts;
    session->form = form;
    begin_body(session);
    return DONE;
}

/* A reading answer of an accepted page or end. */
static uint32_t answer_reading(const struct ref_session *session, uint32_t *answer)
{
    answer_fault(answer, READ_ANSWER, no_fault);
    answer[2] = session->steps;
    answer[3] = session->dim;
    answer[4] = session->darts;
    return 0;
}

static uint32_t repeat_refusal(const struct ref_session *session, uint32_t *answer)
{
    answer_fault(answer, READ_ANSWER, (struct fault){ session->number, session->place });
    answer[2] = session->place;
    return session->number;
}

static uint32_t refuse(struct ref_session *session, uint32_t number, uint16_t *tables, uint32_t *answer)
{
    uint32_t place = session->steps;
    if (session->state != REF_HEADER)
        fill_no_link(tables, (size_t)(session->dim + 1) * session->darts);
    ref_open(session);
    session->state = REF_REFUSED;
    session->number = number;
    session->place = place;
    return repeat_refusal(session, answer);
}

void ref_open(struct ref_session *session)
{
    session->state = REF_HEADER;
    session->number = session->place = 0;
    session->dim = session->darts = session->count = session->steps = 0;
    session->bits = session->bit_count = 0;
    session->form = REF_ONE_BODY;
    session->bodies = 0;
    empty_queues(session->queues);
}

/* How many bits the waiting header or symbol could at least have: a w if it has begun with 11, and else one bit more
   than wait, which makes N of none and B of a single 1. */
static uint32_t least_bits(const struct ref_session *session)
{
    if (session->state == REF_HEADER)
        return 16;
    return session->bit_count < 2 ? session->bit_count + 1 : 14;
}

/* The least number of whole bytes that could finish what waits; nothing waits unless a header or a symbol does. */
static uint32_t bytes_to_fetch(const struct ref_session *session)
{
    uint32_t bytes = 0;
    if (session->state == REF_HEADER || session->state == REF_RUNNING)
        while (session->bit_count + 8 * bytes < least_bits(session))
            bytes++;
    return bytes;
}

static uint32_t read_page(struct ref_session *session, const uint8_t *bytes, size_t bytes_length, uint16_t *tables,
                          size_t tables_length, uint32_t *answer)
{
    struct page page = { bytes, bytes_length, 0 };
    uint32_t outcome = DONE;
    if (session->state == REF_CLOSED)
        return answer_fault(answer, READ_ANSWER, (struct fault){ 20, 0 });
    if (session->state == REF_REFUSED)
        return repeat_refusal(session, answer);
    if (session->state == REF_HEADER)
        outcome = read_header(session, &page, tables, tables_length);
    if (outcome == DONE && session->state == REF_RUNNING)
        outcome = run(session, &page, tables);
    if (outcome == DONE && page.at < page.length)
        outcome = 18;
    if (outcome != DONE && outcome != WAITS)
        return refuse(session, outcome, tables, answer);
    return answer_reading(session, answer);
}

uint32_t ref_page(struct ref_session *session, const uint8_t *bytes, size_t bytes_length, uint16_t *tables,
                  size_t tables_length, uint32_t *answer)
{
    uint32_t number = read_page(session, bytes, bytes_length, tables, tables_length, answer);
    answer[PAGE_ANSWER - 1] = bytes_to_fetch(session);
    return number;
}

uint32_t ref_close(struct ref_session *session, uint16_t *tables, size_t tables_length, uint32_t *answer)
{
    (void)tables_length;
    switch (session->state) {
    case REF_CLOSED:
        return answer_fault(answer, READ_ANSWER, (struct fault){ 20, 0 });
    case REF_REFUSED:
        return repeat_refusal(session, answer);
    case REF_COMPLETE:
        session->state = REF_CLOSED;
        return answer_reading(session, answer);
    default:
        return refuse(session, 11, tables, answer);
    }
}

uint32_t ref_read(const uint8_t *bytes, size_t bytes_length, uint16_t *tables, size_t tables_length, uint32_t *answer)
{
    static struct ref_session session;
    ref_open(&session);
    if (read_page(&session, bytes, bytes_length, tables, tables_length, answer) != 0)
        return answer[0];
    return ref_close(&session, tables, tables_length, answer);
}

void ref_record(const struct ref_session *session, uint32_t record[REF_RECORD])
{
    record[0] = (uint32_t)session->state;
    record[1] = session->number;
    record[2] = session->place;
    record[3] = session->dim;
    record[4] = session->darts;
    record[5] = session->count;
    for (int j = 0; j < REF_RANKS; j++)
        record[6 + j] = session->queues[j].head;
    record[13] = session->bit_count;
    record[14] = session->bits;
    record[15] = (uint32_t)session->form;
    record[16] = session->bodies;
}

/* The report. */

/* Darts still to be left by a flood, each of which enters once. */
struct flood {
    uint16_t stack[REF_DARTS];
    uint32_t height;
    uint8_t mark[REF_DARTS]; /* 0 for a dart not reached */
};

static void reach(struct flood *flood, uint32_t dart, uint8_t mark)
{
    flood->mark[dart] = mark;
    flood->stack[flood->height++] = (uint16_t)dart;
}

/* Marks the darts reached from one dart by all ranks but one. */
static void flood_cell(const struct map *map, uint32_t left_out, uint32_t from, struct flood *flood)
{
    reach(flood, from, 1);
    while (flood->height > 0) {
        uint32_t dart = flood->stack[--flood->height];
        const uint16_t *links = links_of_dart(map, dart);
        for (uint32_t i = 0; i <= map->dim; i++) {
            uint32_t partner = links[i];
            if (i != left_out && flood->mark[partner] == 0)
                reach(flood, partner, 1);
        }
    }
}

static uint32_t count_cells(const struct map *map, uint32_t rank, struct flood *flood)
{
    uint32_t cells = 0;
    memset(flood->mark, 0, map->darts);
    for (uint32_t d = 0; d < map->darts; d++)
        if (flood->mark[d] == 0) {
            flood_cell(map, rank, d, flood);
            cells++;
        }
    return cells;
}

/* Marks the darts reached from one dart with 1 and 2, a new dart with the other mark than the dart it is reached from;
   1 if then every link that takes one of them to another dart takes it to the other mark. */
static uint32_t two_classes(const struct map *map, uint32_t from, struct flood *flood)
{
    uint32_t apart = 1;
    reach(flood, from, 1);
    while (flood->height > 0) {
        uint32_t dart = flood->stack[--flood->height];
        const uint16_t *links = links_of_dart(map, dart);
        for (uint32_t i = 0; i <= map->dim; i++) {
            uint32_t partner = links[i];
            if (flood->mark[partner] == 0)
                reach(flood, partner, 3 - flood->mark[dart]);
            else if (partner != dart && flood->mark[partner] == flood->mark[dart])
                apart = 0;
        }
    }
    return apart;
}

static uint32_t count_free(const struct map *map)
{
    uint32_t count = 0;
    for (uint32_t i = 0; i <= map->dim; i++)
        for (uint32_t d = 0; d < map->darts; d++)
            count += link_of(map, i, d) == d;
    return count;
}

static struct fault test_reached(const struct flood *flood, uint32_t darts)
{
    for (uint32_t d = 0; d < darts; d++)
        if (flood->mark[d] == 0)
            return (struct fault){ 9, d };
    return no_fault;
}

/* The bodies beside that of dart 0: how many; `apart` stays 1 if each of them has two classes. */
static uint32_t other_bodies(const struct map *map, struct flood *flood, uint32_t *apart)
{
    uint32_t bodies = 0;
    for (uint32_t d = 0; d < map->darts; d++)
        if (flood->mark[d] == 0) {
            *apart &= two_classes(map, d, flood);
            bodies++;
        }
    return bodies;
}

/* Refusal 9, or 30 in the form of several bodies; else whether the map is orientable is told. */
static struct fault test_bodies(const struct map *map, enum ref_form form, struct flood *flood, uint32_t *orientable)
{
    memset(flood->mark, 0, map->darts);
    *orientable = two_classes(map, 0, flood);
    if (form == REF_ONE_BODY)
        return test_reached(flood, map->darts);
    return other_bodies(map, flood, orientable) == 0 ? (struct fault){ 30, 0 } : no_fault;
}

static uint32_t report(const struct posting *p, uint32_t *answer)
{
    static struct flood flood;
    uint32_t orientable;
    struct fault fault = test_numbers(p->dim, p->darts, p->root, p->tables_length, p->work_length);
    if (fault.number != 0)
        return answer_fault(answer, REPORT_ANSWER, fault);
    struct map map = { (uint32_t)p->dim, (uint32_t)p->darts, p->tables };
    fault = test_tables(&map);
    if (fault.number != 0)
        return answer_fault(answer, REPORT_ANSWER, fault);
    fill_no_link(p->work, 2 * map.darts);
    fault = test_bodies(&map, p->form, &flood, &orientable);
    answer_fault(answer, REPORT_ANSWER, fault);
    if (fault.number != 0)
        return fault.number;
    for (uint32_t i = 0; i <= map.dim; i++)
        answer[2 + i] = count_cells(&map, i, &flood);
    answer[9] = count_free(&map);
    answer[10] = orientable;
    return 0;
}

uint32_t ref_report(uint64_t dim, uint64_t darts, const uint16_t *tables, size_t tables_length, uint16_t *work,
                    size_t work_length, uint32_t *answer)
{
    struct posting posting = { REF_ONE_BODY, dim, darts, 0, tables, tables_length, work, work_length };
    return report(&posting, answer);
}

uint32_t ref_report_bodies(uint64_t dim, uint64_t darts, const uint16_t *tables, size_t tables_length, uint16_t *work,
                           size_t work_length, uint32_t *answer)
{
    struct posting posting = { REF_SEVERAL_BODIES, dim, darts, 0, tables, tables_length, work, work_length };
    return report(&posting, answer);
}
