/*
 * The maps of the benchmark, each for 64, 512 and 4,096 darts: with many deductions (squares, cubes, products of
 * paths), with few (pairs) and with none (lines); and maps of several bodies. They are posted as maps.h says.
 */
#ifndef SURFACE_BENCH_MAPS_H
#define SURFACE_BENCH_MAPS_H

#include "maps.h"

enum { SIZES = 3 };
static const uint64_t sizes[SIZES] = { 64, 512, 4096 };

/* Ranks below dim-1 are free, so no link can be deduced; the last two ranks are the even and the odd involution of one
   path. */
static struct map post_line(uint64_t dim, uint64_t darts)
{
    struct map m = post_free(dim, darts);
    uint64_t d;
    for (d = 0; d < darts; d++) {
        tie(m, dim - 1, d, along(d, darts, 0));
        tie(m, dim, d, along(d, darts, 1));
    }
    return m;
}

/* The cube across the side of cube c that a corner touches along an axis; c itself if there is none. */
static uint64_t cube_across(const uint64_t wide[3], uint64_t c, unsigned corner, unsigned axis)
{
    uint64_t k, at, stride = 1;
    for (k = 0; k < axis; k++)
        stride *= wide[k];
    at = c / stride % wide[axis];
    if (corner >> axis & 1)
        return at + 1 < wide[axis] ? c + stride : c;
    return at > 0 ? c - stride : c;
}

/* Cube c of a grid: its dart is a corner and an order of the axes, as in post_box. */
static void tie_cube(struct map m, const uint64_t wide[3], uint64_t c, unsigned orders[120][5])
{
    unsigned corner;
    uint64_t p, d, other;
    for (corner = 0; corner < 8; corner++)
        for (p = 0; p < 6; p++) {
            d = c * 48 + corner * 6 + p;
            tie(m, 0, d, c * 48 + (corner ^ 1u << orders[p][0]) * 6 + p);
            tie(m, 1, d, c * 48 + corner * 6 + exchanged(orders, 3, p, 0));
            tie(m, 2, d, c * 48 + corner * 6 + exchanged(orders, 3, p, 1));
            other = cube_across(wide, c, corner, orders[p][2]);
            if (other != c)
                tie(m, 3, d, other * 48 + (corner ^ 1u << orders[p][2]) * 6 + p);
        }
}

/* A flat cell of darts `first` on: two squares back to back. The front one lies on the outer side of cube c along the
   third axis. */
static void tie_flat(struct map m, uint64_t first, uint64_t c, unsigned orders[120][5])
{
    uint64_t corner, p, back, q = 0, d;
    for (p = 0; p < 6; p++) {
        if (orders[p][2] != 2)
            continue;
        for (corner = 0; corner < 4; corner++)
            for (back = 0; back < 2; back++) {
                d = first + back * 8 + corner * 2;
                tie(m, 0, d + q, first + back * 8 + (corner ^ 1u << orders[p][0]) * 2 + q);
                tie(m, 1, d, d + 1);
                tie(m, 2, first + corner * 2 + q, first + 8 + corner * 2 + q);
                tie(m, 3, first + corner * 2 + q, c * 48 + corner * 6 + p);
            }
        q++;
    }
}

/* A grid of cubes, with flat cells on the first of them that fill the number of darts up. */
static struct map post_cubes(const uint64_t wide[3], uint64_t flats)
{
    static unsigned orders[120][5];
    uint64_t k, cubes = wide[0] * wide[1] * wide[2];
    struct map m = post_free(3, cubes * 48 + flats * 16);
    orders_of_axes(3, orders);
    for (k = 0; k < cubes; k++)
        tie_cube(m, wide, k, orders);
    for (k = 0; k < flats; k++)
        tie_flat(m, cubes * 48 + k * 16, k, orders);
    return m;
}

/* The posted map so many times, side by side. */
static struct map repeat(struct map body, uint64_t times)
{
    static uint16_t once[TABLES];
    struct map m;
    uint64_t k, entries = (body.dim + 1) * body.darts;
    for (k = 0; k < entries; k++)
        once[k] = posted[k];
    m = post_free(body.dim, times * body.darts);
    for (k = 0; k < times * entries; k++)
        posted[k] = (uint16_t)(once[k % entries] + k / entries * body.darts);
    return m;
}

static const uint64_t squares_wide[SIZES][2] = { { 4, 2 }, { 8, 8 }, { 32, 16 } };
static const uint64_t cubes_wide[SIZES][3] = { { 1, 1, 1 }, { 5, 2, 1 }, { 7, 4, 3 } };
static const uint64_t cubes_flats[SIZES] = { 1, 2, 4 };
static const uint64_t product_lengths[SIZES][4] = { { 4, 4, 2, 2 }, { 8, 8, 4, 2 }, { 16, 16, 8, 2 } };

static struct map torus_of(int size) { return post_grid(squares_wide[size][0], squares_wide[size][1], 1); }
static struct map grid_of(int size) { return post_grid(squares_wide[size][0], squares_wide[size][1], 0); }
static struct map line_in_two(int size) { return post_line(2, sizes[size]); }
static struct map cubes_of(int size) { return post_cubes(cubes_wide[size], cubes_flats[size]); }
static struct map line_in_three(int size) { return post_line(3, sizes[size]); }
static struct map product_of(int size) { return post_paths(product_lengths[size]); }
static struct map pairs_of(int size) { return post_pairs(sizes[size]); }
static struct map line_in_six(int size) { return post_line(6, sizes[size]); }

/* Sites: 8 bodies of 8 darts, 64 of 8 and 64 of 64. In the scattered one neighbouring darts are of different bodies. */
static const uint64_t bodies[SIZES] = { 8, 64, 64 };

static struct map site_in_two(int size)
{
    return repeat(size < 2 ? post_squares(1) : post_grid(4, 2, 0), bodies[size]);
}

static struct map site_in_three(int size)
{
    return repeat(size < 2 ? post_line(3, 8) : post_cubes(cubes_wide[0], cubes_flats[0]), bodies[size]);
}

static struct map site_in_six(int size) { return repeat(post_pairs(size < 2 ? 8 : 64), bodies[size]); }
static struct map scattered_site(int size) { return scatter(site_in_two(size), 37); }

/* As many bodies as darts. */
static struct map dust(int size) { return post_free(2, sizes[size]); }

struct kind {
    const char *name;
    uint64_t dim;
    struct map (*post)(int size);
    enum form form;
};

static const struct kind kinds[] = {
    { "torus", 2, torus_of, ONE_BODY },
    { "grid", 2, grid_of, ONE_BODY },
    { "line", 2, line_in_two, ONE_BODY },
    { "cubes", 3, cubes_of, ONE_BODY },
    { "line", 3, line_in_three, ONE_BODY },
    { "product", 6, product_of, ONE_BODY },
    { "pairs", 6, pairs_of, ONE_BODY },
    { "line", 6, line_in_six, ONE_BODY },
    { "site", 2, site_in_two, SEVERAL_BODIES },
    { "site", 3, site_in_three, SEVERAL_BODIES },
    { "site", 6, site_in_six, SEVERAL_BODIES },
    { "scattered", 2, scattered_site, SEVERAL_BODIES },
    { "dust", 2, dust, SEVERAL_BODIES },
};

enum { KINDS = sizeof kinds / sizeof kinds[0] };

#endif
