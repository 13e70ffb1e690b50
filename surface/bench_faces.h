/*
 * The face files of the comparisons, small ones at random, good and spoiled; and those of the benchmark whose sides all
 * fall into a few slots of a table.
 */
#ifndef SURFACE_BENCH_FACES_H
#define SURFACE_BENCH_FACES_H

#include "face_files.h"

static uint32_t dice(uint32_t sides_of_it)
{
    static uint32_t state = 2463534242u;
    state ^= state << 13;
    state ^= state >> 17;
    state ^= state << 5;
    return state % sides_of_it;
}

/* A face file before it is written. */
enum { MESH_FACES = 1024, MESH_CORNERS = 4096 };
static struct mesh {
    uint32_t vertices, faces, corners;
    uint32_t sizes[MESH_FACES];       /* how many corners each face has */
    uint32_t vertex_of[MESH_CORNERS]; /* the corners of all faces */
} mesh;

static void begin_mesh(uint32_t vertices)
{
    mesh.vertices = vertices;
    mesh.faces = mesh.corners = 0;
}

static void add_face(uint32_t size, const uint32_t *vertices)
{
    uint32_t k;
    if (mesh.faces == MESH_FACES || mesh.corners + size > MESH_CORNERS)
        return;
    mesh.sizes[mesh.faces++] = size;
    for (k = 0; k < size; k++)
        mesh.vertex_of[mesh.corners++] = vertices[k];
}

/* How a grid of squares ends on its right: open, closed to a ring, to a Moebius strip, or to a torus. */
enum { OPEN, RING, STRIP, TORUS, GRIDS };

static uint32_t grid_vertex(int grid, uint32_t columns, uint32_t rows, uint32_t x, uint32_t y)
{
    if (grid != OPEN && x == columns) {
        x = 0;
        y = grid == STRIP ? rows - y : y;
    }
    if (grid == TORUS && y == rows)
        y = 0;
    return y * columns + y + x;
}

/* Small rings and tori use a side too often, or a vertex twice. */
static void mesh_grid(void)
{
    uint32_t x, y, columns = 1 + dice(5), rows = 1 + dice(4);
    int grid = (int)dice(GRIDS);
    begin_mesh((columns + 1) * (rows + 1));
    for (y = 0; y < rows; y++)
        for (x = 0; x < columns; x++) {
            const uint32_t square[4] = {
                grid_vertex(grid, columns, rows, x, y),
                grid_vertex(grid, columns, rows, x + 1, y),
                grid_vertex(grid, columns, rows, x + 1, y + 1),
                grid_vertex(grid, columns, rows, x, y + 1),
            };
            add_face(4, square);
        }
}

/* Triangles in a row. */
static void mesh_strip(uint32_t faces)
{
    uint32_t k;
    begin_mesh(faces + 2);
    for (k = 0; k < faces; k++) {
        const uint32_t triangle[3] = { k, k + 1, k + 2 };
        add_face(3, triangle);
    }
}

/* A polygon, and triangles from its sides to one vertex, or to that of their side. */
static void mesh_pyramid(void)
{
    uint32_t k, sides = 3 + dice(6), spikes = dice(3) == 0, base[9];
    begin_mesh(2 * sides);
    for (k = 0; k < sides; k++)
        base[k] = k;
    add_face(sides, base);
    for (k = 0; k < sides; k++) {
        const uint32_t triangle[3] = { (k + 1) % sides, k, sides + (spikes ? k : 0) };
        add_face(3, triangle);
    }
}

static void mesh_at_random(void)
{
    uint32_t k, faces, polygon[6];
    begin_mesh(3 + dice(6));
    for (faces = 1 + dice(4); faces > 0; faces--) {
        for (k = 0; k < 6; k++)
            polygon[k] = dice(mesh.vertices);
        add_face(3 + dice(4), polygon);
    }
}

static void mesh_of_some_kind(void)
{
    switch (dice(5)) {
    case 0: mesh_strip(1 + dice(9)); break;
    case 1: mesh_pyramid(); break;
    case 2: mesh_at_random(); break;
    default: mesh_grid(); break;
    }
}

/* A vertex more or less, a corner at another vertex, a face once more, or without the last. */
static void spoil_mesh(void)
{
    uint32_t face, corner, first = 0, k;
    if (mesh.faces == 0)
        return;
    face = dice(mesh.faces);
    corner = dice(mesh.corners);
    switch (dice(5)) {
    case 0: mesh.vertices += dice(2) ? 1 : (uint32_t)-1; break;
    case 1:
        for (k = 0; k < face; k++)
            first += mesh.sizes[k];
        add_face(mesh.sizes[face], mesh.vertex_of + first);
        break;
    case 2: mesh.corners -= mesh.sizes[--mesh.faces]; break;
    default: mesh.vertex_of[corner] = dice(mesh.vertices + 1); break;
    }
}

/* What stands between two words, and after a face; the first of each is the plain one. */
static const char *const gaps[] = { " ", "\t", "  ", "\r\n", "\n", " \r", "#\n", " # 1 2\n", "#3\r\n\t" };
static const char *const tails[] = { "\n", "\r\n", " 255 0 0\n", " # 1 2\n", "#\n", " x\r\n\n" };
static const char *const words[] = { "0", "-1.5", "1e9", "OFF", "nan", "\xFF\x01" };

#define ONE_OF(list, plain) list[plain ? 0 : dice(sizeof list / sizeof *list)]

static void put_after_gap(uint32_t number, int plain)
{
    put_words(ONE_OF(gaps, plain));
    put_number(number);
}

/* Writes the mesh, plainly or in some way. */
static void write_mesh(int plain)
{
    const uint32_t *vertex = mesh.vertex_of;
    uint32_t k, corner;
    open_text(48 * (mesh.vertices + mesh.corners + mesh.faces) + 256);
    put_words(plain || dice(2) ? "OFF" : " # a comment\r\n\tOFF");
    put_after_gap(mesh.vertices, plain);
    put_after_gap(mesh.faces, plain);
    put_after_gap(dice(100), plain);
    for (k = 0; k < 3 * mesh.vertices; k++) {
        put_words(ONE_OF(gaps, plain));
        put_words(ONE_OF(words, plain));
    }
    put_words("\n");
    for (k = 0; k < mesh.faces; k++) {
        put_number(mesh.sizes[k]);
        for (corner = 0; corner < mesh.sizes[k]; corner++)
            put_after_gap(*vertex++, plain);
        put_words(ONE_OF(tails, plain));
    }
    put_words(plain ? "" : dice(2) ? "3 0 1" : "# the end");
}

/* A byte set, taken out or put in, or the end cut off. */
static void spoil_text(void)
{
    static const char bytes[] = "0123456789 \t\r\n#xOF-.\v\xFF"; /* and NUL */
    size_t at = dice((uint32_t)text_end), k;
    uint8_t byte = (uint8_t)bytes[dice(sizeof bytes)];
    switch (dice(8)) {
    case 0: text_end = at; break;
    case 1:
        for (k = at; k + 1 < text_end; k++)
            text[k] = text[k + 1];
        text_end--;
        break;
    case 2:
        for (k = text_end++; k > at; k--)
            text[k] = text[k - 1];
        text[at] = byte;
        break;
    default: text[at] = byte; break;
    }
}

/* Sides in few slots. */

/* Two ways to put sides into a table: by products, and by the remainder of both vertices as one number. */
static uint32_t slot_by_product(uint32_t low, uint32_t high)
{
    return (uint32_t)(((uint64_t)low * 2654435761u + (uint64_t)high * 40503u) / 4096 % 4096);
}

static uint32_t slot_by_remainder(uint32_t low, uint32_t high)
{
    return (uint32_t)(((uint64_t)high << 32 | low) % 4093);
}

/* A square of two sides, each there and back: four corners. */
static void put_folded(uint32_t vertex, uint32_t one, uint32_t other)
{
    const uint32_t square[4] = { vertex, one, vertex, other };
    put_face(4, square);
}

/* Folded squares whose vertices are multiples of `each`, and whose sides all fall into the first slots. */
static void lend_in_slots(uint32_t vertices, uint32_t faces, uint32_t each, uint32_t slots,
                          uint32_t (*slot_of)(uint32_t, uint32_t))
{
    uint32_t low, high, one;
    begin_text(vertices, faces);
    for (low = 0; low < vertices; low += each)
        for (one = 0, high = low + each; high < vertices && faces > 0; high += each) {
            if (slot_of(low, high) >= slots)
                continue;
            if (one > 0) {
                put_folded(low, one, high);
                faces--;
            }
            one = one > 0 ? 0 : high;
        }
    CHECK(faces == 0);
    end_text();
}

/* As many folded squares, two for each low vertex, the high ones in the four quarters of what is above it. */
static void lend_spread(uint32_t vertices, uint32_t faces)
{
    uint32_t k, low, quarter, high;
    begin_text(vertices, faces);
    for (k = 0; k < faces; k++) {
        low = k / 2;
        quarter = (vertices - low - 1) / 4;
        high = low + 1 + k % 2 * 2 * quarter + 131 * k % quarter;
        put_folded(low, high, high + quarter);
    }
    end_text();
}

#endif
