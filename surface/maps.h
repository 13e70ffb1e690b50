/*
 * Maps of dimension 1 to 6 by simple constructions, with the cells that geometry gives them. Each function posts its
 * map: it lends `posted` with SPARE entries more than the map has, all of which say KZ_NO_LINK, and `work` with SPARE
 * entries more than 2n.
 */
#ifndef SURFACE_MAPS_H
#define SURFACE_MAPS_H

#include "rooms.h"

/* Darts that are free at every rank. */
static struct map post_free(uint64_t dim, uint64_t darts)
{
    struct map m = { dim, darts };
    uint64_t k, entries = (dim + 1) * darts;
    LEND(posted, entries + SPARE);
    LEND(work, 2 * darts + SPARE);
    for (k = 0; k < entries; k++)
        posted[k] = (uint16_t)(k / (dim + 1));
    for (; k < entries + SPARE; k++)
        posted[k] = KZ_NO_LINK;
    return m;
}

static void tie(struct map m, uint64_t rank, uint64_t d, uint64_t e)
{
    posted[position(m, rank, d)] = (uint16_t)e;
    posted[position(m, rank, e)] = (uint16_t)d;
}

/* Where place x of a path of this length goes: the even involution pairs 0-1, 2-3 and so on, the odd one 1-2, 3-4 and
   so on. An end without partner stays; for x = 0 the place before it wraps round to one past every path. */
static uint64_t along(uint64_t x, uint64_t length, uint64_t odd)
{
    uint64_t y = (x + odd) % 2 == 0 ? x + 1 : x - 1;
    return y >= length ? x : y;
}

/* An open polyline: rank 0 is the even involution of a path, rank 1 the odd one, every higher rank is free. */
static struct map post_chain(uint64_t dim, uint64_t darts)
{
    struct map m = post_free(dim, darts);
    uint64_t d;
    for (d = 0; d < darts; d++) {
        tie(m, 0, d, along(d, darts, 0));
        tie(m, 1, d, along(d, darts, 1));
    }
    return m;
}

/* A closed polyline. Darts 2s and 2s+1 are the ends of side s. */
static struct map post_ring(uint64_t sides)
{
    struct map m = post_free(1, 2 * sides);
    uint64_t s;
    for (s = 0; s < sides; s++) {
        tie(m, 0, 2 * s, 2 * s + 1);
        tie(m, 1, 2 * s + 1, (2 * s + 2) % m.darts);
    }
    return m;
}

/* Squares side by side, not joined: darts 8q to 8q+7 go round square q, 2s and 2s+1 of them on side s. */
static struct map post_squares(uint64_t squares)
{
    struct map m = post_free(2, 8 * squares);
    uint64_t q, s;
    for (q = 0; q < squares; q++)
        for (s = 0; s < 4; s++) {
            tie(m, 0, 8 * q + 2 * s, 8 * q + 2 * s + 1);
            tie(m, 1, 8 * q + 2 * s + 1, 8 * q + (2 * s + 2) % 8);
        }
    return m;
}

/* Joins side s of square q to side s+2 of square r. Both run round their squares, so the ends meet crosswise unless one
   is twisted. */
static void join_sides(struct map m, uint64_t q, uint64_t r, uint64_t s, uint64_t twisted)
{
    uint64_t here = 8 * q + 2 * s, there = 8 * r + 2 * ((s + 2) % 4);
    tie(m, 2, here, there + 1 - twisted);
    tie(m, 2, here + 1, there + twisted);
}

/* A grid of squares; wrapped, a torus. */
static struct map post_grid(uint64_t wide, uint64_t high, int wrapped)
{
    struct map m = post_squares(wide * high);
    uint64_t x, y;
    for (y = 0; y < high; y++)
        for (x = 0; x < wide; x++) {
            if (wrapped || x + 1 < wide)
                join_sides(m, y * wide + x, y * wide + (x + 1) % wide, 1, 0);
            if (wrapped || y + 1 < high)
                join_sides(m, y * wide + x, (y + 1) % high * wide + x, 2, 0);
        }
    return m;
}

/* Every order of the axes 0 to dim-1, one to a line; how many there are. */
static uint64_t orders_of_axes(uint64_t dim, unsigned orders[120][5])
{
    uint64_t code, rest, k, codes = 1, count = 0;
    unsigned used;
    for (k = 0; k < dim; k++)
        codes *= dim;
    for (code = 0; code < codes; code++) {
        used = 0;
        for (k = 0, rest = code; k < dim; k++, rest /= dim)
            used |= 1u << rest % dim;
        if (used != (1u << dim) - 1)
            continue;
        for (k = 0, rest = code; k < dim; k++, rest /= dim)
            orders[count][k] = (unsigned)(rest % dim);
        count++;
    }
    return count;
}

/* The order that is p with places k and k+1 exchanged. */
static uint64_t exchanged(unsigned orders[120][5], uint64_t dim, uint64_t p, uint64_t k)
{
    uint64_t q, j, from;
    for (q = 0;; q++) {
        for (j = 0; j < dim; j++) {
            from = j == k ? k + 1 : j == k + 1 ? k : j;
            if (orders[q][j] != orders[p][from])
                break;
        }
        if (j == dim)
            return q;
    }
}

/*
 * A box of dimension 1 to 5, alone or wrapped: each of its sides joined to the opposite one. A dart is a corner (one
 * bit for each axis) and an order of the axes: the edge of the dart at that corner runs along the first axis, the face
 * along the first two, and so on.
 */
static struct map post_box(uint64_t dim, int wrapped)
{
    static unsigned orders[120][5];
    uint64_t p, k, corner, count = orders_of_axes(dim, orders);
    struct map m = post_free(dim, count << dim);
    for (corner = 0; corner < (uint64_t)1 << dim; corner++)
        for (p = 0; p < count; p++) {
            tie(m, 0, corner * count + p, (corner ^ 1u << orders[p][0]) * count + p);
            for (k = 1; k < dim; k++)
                tie(m, k, corner * count + p, corner * count + exchanged(orders, dim, p, k - 1));
            if (wrapped)
                tie(m, dim, corner * count + p, (corner ^ 1u << orders[p][dim - 1]) * count + p);
        }
    return m;
}

/* A dart is a number of dim+1 bits; rank i turns bit i over. */
static struct map post_bits(uint64_t dim)
{
    struct map m = post_free(dim, (uint64_t)2 << dim);
    uint64_t i, d;
    for (i = 0; i <= dim; i++)
        for (d = 0; d < m.darts; d++)
            tie(m, i, d, d ^ (uint64_t)1 << i);
    return m;
}

/* A dart is a place in a grid of four directions. Along direction k, rank 2k is the even involution of a path and rank
   2k+1 the odd one; the fourth direction has the one rank 6. */
static struct map post_paths(const uint64_t length[4])
{
    struct map m = post_free(6, length[0] * length[1] * length[2] * length[3]);
    uint64_t i, k, d, x, stride;
    for (i = 0; i <= 6; i++) {
        stride = 1;
        for (k = 0; k < i / 2; k++)
            stride *= length[k];
        for (d = 0; d < m.darts; d++) {
            x = d / stride % length[i / 2];
            tie(m, i, d, d - x * stride + along(x, length[i / 2], i % 2) * stride);
        }
    }
    return m;
}

/* The map of dimension 6 whose stream is longest for its even number of darts. Ranks 0 to 4 tie the darts of each pair
   2k, 2k+1. Ranks 5 and 6 are the even and the odd involution of a path over the pairs, and a pair without partner is
   tied within. */
static struct map post_pairs(uint64_t darts)
{
    struct map m = post_free(6, darts);
    uint64_t i, d, to;
    for (d = 0; d < darts; d++) {
        for (i = 0; i <= 4; i++)
            tie(m, i, d, d ^ 1);
        for (i = 5; i <= 6; i++) {
            to = along(d / 2, darts / 2, i - 5);
            tie(m, i, d, to == d / 2 ? d ^ 1 : 2 * to + d % 2);
        }
    }
    return m;
}

/* Maps of one dimension side by side, up to a null, none joined to another: each has its darts after those of the ones
   before. */
static struct map post_beside(struct map (*const parts[])(void))
{
    static uint16_t together[TABLES];
    struct map m = { 0, 0 }, part;
    uint64_t k, entries;
    for (; *parts != NULL; parts++) {
        part = (*parts)();
        entries = (part.dim + 1) * part.darts;
        for (k = 0; k < entries; k++)
            together[(part.dim + 1) * m.darts + k] = (uint16_t)(posted[k] + m.darts);
        m.dim = part.dim;
        m.darts += part.darts;
    }
    m = post_free(m.dim, m.darts);
    for (k = 0; k < (m.dim + 1) * m.darts; k++)
        posted[k] = together[k];
    return m;
}

/* The posted map with its darts renamed, dart d to stride*d mod n: so the darts of a body are not neighbours any more.
   The stride has no divisor in common with n. */
static struct map scatter(struct map m, uint64_t stride)
{
    static uint16_t renamed[TABLES];
    uint64_t i, d, k;
    for (d = 0; d < m.darts; d++)
        for (i = 0; i <= m.dim; i++)
            renamed[position(m, i, stride * d % m.darts)] = (uint16_t)(stride * posted[position(m, i, d)] % m.darts);
    for (k = 0; k < (m.dim + 1) * m.darts; k++)
        posted[k] = renamed[k];
    return m;
}

/* Pairs of darts, each tied to the other at every rank and to nothing else: the map of dimension 6 with the longest
   stream in the form of several bodies. */
static struct map post_couples(uint64_t darts)
{
    struct map m = post_free(6, darts);
    uint64_t i, d;
    for (i = 0; i <= 6; i++)
        for (d = 0; d < darts; d++)
            tie(m, i, d, d ^ 1);
    return m;
}

/* The samples, with what the report says of them. */

static const uint64_t four_lengths[4] = { 4, 3, 5, 2 };

static struct map lone_dart(void) { return post_free(6, 1); }
static struct map two_darts(void) { return post_chain(1, 2); }
static struct map chain_of_five(void) { return post_chain(1, 5); }
static struct map chain_in_six(void) { return post_chain(6, 6); }
static struct map loop(void) { return post_ring(1); }
static struct map triangle(void) { return post_ring(3); }
static struct map open_square(void) { return post_squares(1); }
static struct map grid_three_by_two(void) { return post_grid(3, 2, 0); }
static struct map torus_three_by_two(void) { return post_grid(3, 2, 1); }
static struct map torus_of_one(void) { return post_grid(1, 1, 1); }
static struct map cube(void) { return post_box(3, 0); }
static struct map wrapped_cube(void) { return post_box(3, 1); }
static struct map wrapped_box_in_four(void) { return post_box(4, 1); }
static struct map box_in_five(void) { return post_box(5, 0); }
static struct map wrapped_box_in_five(void) { return post_box(5, 1); }
static struct map bits_in_six(void) { return post_bits(6); }
static struct map paths_in_six(void) { return post_paths(four_lengths); }
static struct map most_pairs(void) { return post_pairs(KZ_MAX_DARTS); }

/* Two opposite sides of a square joined with a twist: open, and the darts have no two classes. */
static struct map moebius_band(void)
{
    struct map m = post_squares(1);
    join_sides(m, 0, 0, 1, 1);
    return m;
}

/* No dart is free, yet the darts have no two classes: opposite sides are joined, one pair of them twisted. */
static struct map klein_bottle(void)
{
    struct map m = post_grid(1, 1, 1);
    join_sides(m, 0, 0, 1, 1);
    return m;
}

struct sample {
    const char *name;
    struct map (*post)(void);
    uint32_t cells[7], free, orientable;
};

static const struct sample samples[] = {
    { "lone dart", lone_dart, { 1, 1, 1, 1, 1, 1, 1 }, 7, 1 },
    { "P2, two darts", two_darts, { 2, 1 }, 2, 1 },
    { "chain of five", chain_of_five, { 3, 3 }, 2, 1 },
    { "chain in six", chain_in_six, { 4, 3, 1, 1, 1, 1, 1 }, 32, 1 },
    { "loop", loop, { 1, 1 }, 0, 1 },
    { "P3, triangle", triangle, { 3, 3 }, 0, 1 },
    { "open square", open_square, { 4, 4, 1 }, 8, 1 },
    { "Moebius band", moebius_band, { 2, 3, 1 }, 4, 0 },
    { "grid 3 by 2", grid_three_by_two, { 12, 17, 6 }, 20, 1 },
    { "torus 3 by 2", torus_three_by_two, { 6, 12, 6 }, 0, 1 },
    { "torus of one square", torus_of_one, { 1, 2, 1 }, 0, 1 },
    { "Klein bottle", klein_bottle, { 1, 2, 1 }, 0, 0 },
    { "cube", cube, { 8, 12, 6, 1 }, 48, 1 },
    { "wrapped cube", wrapped_cube, { 1, 3, 3, 1 }, 0, 1 },
    { "wrapped box in four", wrapped_box_in_four, { 1, 4, 6, 4, 1 }, 0, 1 },
    { "box in five", box_in_five, { 32, 80, 80, 40, 10, 1 }, 3840, 1 },
    { "wrapped box in five", wrapped_box_in_five, { 1, 5, 10, 10, 5, 1 }, 0, 1 },
    { "bits in six", bits_in_six, { 2, 2, 2, 2, 2, 2, 2 }, 0, 1 },
    { "paths in six", paths_in_six, { 3, 2, 2, 2, 3, 3, 2 }, 188, 1 },
    { "most pairs", most_pairs, { 1, 1, 1, 1, 1, 1025, 1024 }, 0, 1 },
};

enum { SAMPLES = sizeof samples / sizeof samples[0] };

/* Those of several bodies. */

#define BESIDE(...) post_beside((struct map (*const[])(void)){ __VA_ARGS__, NULL })

static struct map chain_in_five(void) { return post_chain(5, 6); }

static struct map two_lone_darts(void) { return post_free(1, 2); }
static struct map loop_and_chain(void) { return BESIDE(loop, chain_of_five); }
static struct map house_and_shed(void) { return BESIDE(grid_three_by_two, open_square); }
static struct map shed_and_house(void) { return BESIDE(open_square, grid_three_by_two); }
static struct map band_and_torus(void) { return BESIDE(moebius_band, torus_three_by_two); }
static struct map torus_and_bottle(void) { return BESIDE(torus_three_by_two, klein_bottle); }
static struct map two_bands(void) { return BESIDE(moebius_band, moebius_band); }
static struct map two_cubes(void) { return BESIDE(cube, wrapped_cube); }
static struct map two_boxes_in_four(void) { return BESIDE(wrapped_box_in_four, wrapped_box_in_four); }
static struct map box_and_chain_in_five(void) { return BESIDE(wrapped_box_in_five, chain_in_five); }
static struct map four_in_six(void) { return BESIDE(bits_in_six, paths_in_six, chain_in_six, lone_dart); }
static struct map squares_scattered(void) { return scatter(post_squares(5), 7); }
static struct map houses_scattered(void) { return scatter(house_and_shed(), 27); }
static struct map site_of_64(void) { return post_squares(64); }
static struct map most_bodies(void) { return post_free(6, KZ_MAX_DARTS); }
static struct map most_couples(void) { return post_couples(KZ_MAX_DARTS); }

struct site {
    struct sample map;
    uint32_t bodies;
};

static const struct site sites[] = {
    { { "two lone darts", two_lone_darts, { 2, 2 }, 4, 1 }, 2 },
    { { "loop and chain", loop_and_chain, { 4, 4 }, 2, 1 }, 2 },
    { { "house and shed", house_and_shed, { 16, 21, 7 }, 28, 1 }, 2 },
    { { "shed and house", shed_and_house, { 16, 21, 7 }, 28, 1 }, 2 },
    { { "band and torus", band_and_torus, { 8, 15, 7 }, 4, 0 }, 2 },
    { { "torus and bottle", torus_and_bottle, { 7, 14, 7 }, 0, 0 }, 2 },
    { { "two bands", two_bands, { 4, 6, 2 }, 8, 0 }, 2 },
    { { "cube and wrapped cube", two_cubes, { 9, 15, 9, 2 }, 48, 1 }, 2 },
    { { "two boxes in four", two_boxes_in_four, { 2, 8, 12, 8, 2 }, 0, 1 }, 2 },
    { { "box and chain in five", box_and_chain_in_five, { 5, 8, 11, 11, 6, 2 }, 26, 1 }, 2 },
    { { "four in six", four_in_six, { 10, 8, 6, 6, 7, 7, 6 }, 227, 1 }, 4 },
    { { "squares scattered", squares_scattered, { 20, 20, 5 }, 40, 1 }, 5 },
    { { "houses scattered", houses_scattered, { 16, 21, 7 }, 28, 1 }, 2 },
    { { "site of 64 squares", site_of_64, { 256, 256, 64 }, 512, 1 }, 64 },
    { { "as many bodies as darts", most_bodies, { 4096, 4096, 4096, 4096, 4096, 4096, 4096 }, 28672, 1 }, 4096 },
    { { "most couples", most_couples, { 2048, 2048, 2048, 2048, 2048, 2048, 2048 }, 0, 1 }, 2048 },
};

enum { SITES = sizeof sites / sizeof sites[0] };

#endif
