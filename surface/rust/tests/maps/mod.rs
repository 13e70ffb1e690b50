//! Maps of dimension 1 to 6 by simple constructions, with the cells that geometry gives them. Each function posts its
//! map: it lends `posted` with `SPARE` entries more than the map has, all of which say `NO_LINK`, and `work` with
//! `SPARE` entries more than 2n.

use crate::rooms::{Lent, Map, SPARE};
use kanzhulet::{MAX_DARTS, NO_LINK};

/// Darts that are free at every rank.
pub fn post_free(lent: &mut Lent, dim: usize, darts: usize) -> Map {
    let m = Map { dim, darts };
    let mut tables: Vec<u16> = (0..m.entries()).map(|k| (k / (dim + 1)) as u16).collect();
    tables.extend([NO_LINK; SPARE]);
    lent.posted.lend_copy(&tables);
    lent.work.lend(2 * darts + SPARE);
    m
}

pub fn tie(lent: &mut Lent, m: Map, rank: usize, d: usize, e: usize) {
    lent.posted.at_mut()[m.place(rank, d)] = e as u16;
    lent.posted.at_mut()[m.place(rank, e)] = d as u16;
}

/// Where place x of a path of this length goes: the even involution pairs 0-1, 2-3 and so on, the odd one 1-2, 3-4 and
/// so on. An end without partner stays.
fn along(x: usize, length: usize, odd: usize) -> usize {
    let y = if (x + odd) % 2 == 0 { x + 1 } else { x.wrapping_sub(1) };
    if y < length {
        y
    } else {
        x
    }
}

/// An open polyline: rank 0 is the even involution of a path, rank 1 the odd one, every higher rank is free.
pub fn post_chain(lent: &mut Lent, dim: usize, darts: usize) -> Map {
    let m = post_free(lent, dim, darts);
    for d in 0..darts {
        tie(lent, m, 0, d, along(d, darts, 0));
        tie(lent, m, 1, d, along(d, darts, 1));
    }
    m
}

/// A closed polyline. Darts 2s and 2s+1 are the ends of side s.
pub fn post_ring(lent: &mut Lent, sides: usize) -> Map {
    let m = post_free(lent, 1, 2 * sides);
    for s in 0..sides {
        tie(lent, m, 0, 2 * s, 2 * s + 1);
        tie(lent, m, 1, 2 * s + 1, (2 * s + 2) % m.darts);
    }
    m
}

/// Squares side by side, not joined: darts 8q to 8q+7 go round square q, 2s and 2s+1 of them on side s.
pub fn post_squares(lent: &mut Lent, squares: usize) -> Map {
    let m = post_free(lent, 2, 8 * squares);
    for q in 0..squares {
        for s in 0..4 {
            tie(lent, m, 0, 8 * q + 2 * s, 8 * q + 2 * s + 1);
            tie(lent, m, 1, 8 * q + 2 * s + 1, 8 * q + (2 * s + 2) % 8);
        }
    }
    m
}

/// Joins side s of square q to side s+2 of square r. Both run round their squares, so the ends meet crosswise unless
/// one is twisted.
fn join_sides(lent: &mut Lent, m: Map, q: usize, r: usize, s: usize, twisted: usize) {
    let (here, there) = (8 * q + 2 * s, 8 * r + 2 * ((s + 2) % 4));
    tie(lent, m, 2, here, there + 1 - twisted);
    tie(lent, m, 2, here + 1, there + twisted);
}

/// A grid of squares; wrapped, a torus.
pub fn post_grid(lent: &mut Lent, wide: usize, high: usize, wrapped: bool) -> Map {
    let m = post_squares(lent, wide * high);
    for y in 0..high {
        for x in 0..wide {
            if wrapped || x + 1 < wide {
                join_sides(lent, m, y * wide + x, y * wide + (x + 1) % wide, 1, 0);
            }
            if wrapped || y + 1 < high {
                join_sides(lent, m, y * wide + x, (y + 1) % high * wide + x, 2, 0);
            }
        }
    }
    m
}

/// Two opposite sides of a square joined with a twist: open, and the darts have no two classes.
fn moebius_band(lent: &mut Lent) -> Map {
    let m = post_squares(lent, 1);
    join_sides(lent, m, 0, 0, 1, 1);
    m
}

/// No dart is free, yet the darts have no two classes: opposite sides are joined, one pair of them twisted.
fn klein_bottle(lent: &mut Lent) -> Map {
    let m = post_grid(lent, 1, 1, true);
    join_sides(lent, m, 0, 0, 1, 1);
    m
}

/// Every order of the axes 0 to dim-1.
fn orders_of_axes(dim: usize) -> Vec<Vec<usize>> {
    let mut orders = vec![Vec::new()];
    for _ in 0..dim {
        let longer = |order: &Vec<usize>| {
            let left = (0..dim).filter(|axis| !order.contains(axis)).collect::<Vec<_>>();
            left.into_iter().map(|axis| [&order[..], &[axis]].concat()).collect::<Vec<_>>()
        };
        orders = orders.iter().flat_map(longer).collect();
    }
    orders
}

/// A box of dimension 1 to 5, alone or wrapped: each of its sides joined to the opposite one. A dart is a corner (one
/// bit for each axis) and an order of the axes: the edge of the dart at that corner runs along the first axis, the face
/// along the first two, and so on.
fn post_box(lent: &mut Lent, dim: usize, wrapped: bool) -> Map {
    let orders = orders_of_axes(dim);
    let count = orders.len();
    let m = post_free(lent, dim, count << dim);
    for (p, order) in orders.iter().enumerate() {
        for corner in 0..1 << dim {
            tie(lent, m, 0, corner * count + p, (corner ^ 1 << order[0]) * count + p);
            for k in 1..dim {
                let mut other = order.clone();
                other.swap(k - 1, k);
                let q = orders.iter().position(|o| *o == other).unwrap();
                tie(lent, m, k, corner * count + p, corner * count + q);
            }
            if wrapped {
                tie(lent, m, dim, corner * count + p, (corner ^ 1 << order[dim - 1]) * count + p);
            }
        }
    }
    m
}

/// A dart is a number of dim+1 bits; rank i turns bit i over.
fn post_bits(lent: &mut Lent, dim: usize) -> Map {
    let m = post_free(lent, dim, 2 << dim);
    for i in 0..=dim {
        for d in 0..m.darts {
            tie(lent, m, i, d, d ^ 1 << i);
        }
    }
    m
}

/// A dart is a place in a grid of four directions. Along direction k, rank 2k is the even involution of a path and rank
/// 2k+1 the odd one; the fourth direction has the one rank 6.
fn post_paths(lent: &mut Lent, length: [usize; 4]) -> Map {
    let m = post_free(lent, 6, length.iter().product());
    for i in 0..=6 {
        let stride: usize = length[..i / 2].iter().product();
        for d in 0..m.darts {
            let x = d / stride % length[i / 2];
            tie(lent, m, i, d, d - x * stride + along(x, length[i / 2], i % 2) * stride);
        }
    }
    m
}

/// The map of dimension 6 whose stream is longest for its even number of darts. Ranks 0 to 4 tie the darts of each pair
/// 2k, 2k+1. Ranks 5 and 6 are the even and the odd involution of a path over the pairs, and a pair without partner is
/// tied within.
pub fn post_pairs(lent: &mut Lent, darts: usize) -> Map {
    let m = post_free(lent, 6, darts);
    for d in 0..darts {
        for i in 0..=4 {
            tie(lent, m, i, d, d ^ 1);
        }
        for i in 5..=6 {
            let to = along(d / 2, darts / 2, i - 5);
            tie(lent, m, i, d, if to == d / 2 { d ^ 1 } else { 2 * to + d % 2 });
        }
    }
    m
}

type Post = fn(&mut Lent) -> Map;

/// Maps of one dimension side by side, none joined to another: each has its darts after those of the ones before.
fn post_beside(lent: &mut Lent, parts: &[Post]) -> Map {
    let (mut m, mut tables) = (Map { dim: 0, darts: 0 }, Vec::new());
    for post in parts {
        let part = post(lent);
        tables.extend(lent.posted.at()[..part.entries()].iter().map(|e| e + m.darts as u16));
        m = Map { dim: part.dim, darts: m.darts + part.darts };
    }
    post_free(lent, m.dim, m.darts);
    lent.posted.at_mut()[..m.entries()].copy_from_slice(&tables);
    m
}

/// The posted map with its darts renamed, dart d to stride·d mod n: so the darts of a body are not neighbours any more.
/// The stride has no divisor in common with n.
fn scatter(lent: &mut Lent, m: Map, stride: usize) -> Map {
    let tables = lent.posted.at()[..m.entries()].to_vec();
    for d in 0..m.darts {
        for i in 0..=m.dim {
            let partner = tables[m.place(i, d)] as usize;
            lent.posted.at_mut()[m.place(i, stride * d % m.darts)] = (stride * partner % m.darts) as u16;
        }
    }
    m
}

/// Pairs of darts, each tied to the other at every rank and to nothing else: the map of dimension 6 with the longest
/// stream in the form of several bodies.
pub fn post_couples(lent: &mut Lent, darts: usize) -> Map {
    let m = post_free(lent, 6, darts);
    for i in 0..=6 {
        for d in 0..darts {
            tie(lent, m, i, d, d ^ 1);
        }
    }
    m
}

/// Name, how it is posted, and what the report says of it: cells by rank, free pairs, orientable.
pub type Sample = (&'static str, Post, [usize; 7], usize, bool);

pub static SAMPLES: &[Sample] = &[
    ("lone dart", |l| post_free(l, 6, 1), [1; 7], 7, true),
    ("P2, two darts", |l| post_chain(l, 1, 2), [2, 1, 0, 0, 0, 0, 0], 2, true),
    ("chain of five", |l| post_chain(l, 1, 5), [3, 3, 0, 0, 0, 0, 0], 2, true),
    ("chain in six", |l| post_chain(l, 6, 6), [4, 3, 1, 1, 1, 1, 1], 32, true),
    ("loop", |l| post_ring(l, 1), [1, 1, 0, 0, 0, 0, 0], 0, true),
    ("P3, triangle", |l| post_ring(l, 3), [3, 3, 0, 0, 0, 0, 0], 0, true),
    ("open square", |l| post_squares(l, 1), [4, 4, 1, 0, 0, 0, 0], 8, true),
    ("Moebius band", moebius_band, [2, 3, 1, 0, 0, 0, 0], 4, false),
    ("grid 3 by 2", |l| post_grid(l, 3, 2, false), [12, 17, 6, 0, 0, 0, 0], 20, true),
    ("torus 3 by 2", |l| post_grid(l, 3, 2, true), [6, 12, 6, 0, 0, 0, 0], 0, true),
    ("torus of one square", |l| post_grid(l, 1, 1, true), [1, 2, 1, 0, 0, 0, 0], 0, true),
    ("Klein bottle", klein_bottle, [1, 2, 1, 0, 0, 0, 0], 0, false),
    ("cube", |l| post_box(l, 3, false), [8, 12, 6, 1, 0, 0, 0], 48, true),
    ("wrapped cube", |l| post_box(l, 3, true), [1, 3, 3, 1, 0, 0, 0], 0, true),
    ("wrapped box in four", |l| post_box(l, 4, true), [1, 4, 6, 4, 1, 0, 0], 0, true),
    ("box in five", |l| post_box(l, 5, false), [32, 80, 80, 40, 10, 1, 0], 3840, true),
    ("wrapped box in five", |l| post_box(l, 5, true), [1, 5, 10, 10, 5, 1, 0], 0, true),
    ("bits in six", |l| post_bits(l, 6), [2; 7], 0, true),
    ("paths in six", |l| post_paths(l, [4, 3, 5, 2]), [3, 2, 2, 2, 3, 3, 2], 188, true),
    ("most pairs", |l| post_pairs(l, MAX_DARTS), [1, 1, 1, 1, 1, 1025, 1024], 0, true),
];

fn loop_of_one(lent: &mut Lent) -> Map {
    post_ring(lent, 1)
}

fn chain_of_five(lent: &mut Lent) -> Map {
    post_chain(lent, 1, 5)
}

fn house(lent: &mut Lent) -> Map {
    post_grid(lent, 3, 2, false)
}

fn shed(lent: &mut Lent) -> Map {
    post_squares(lent, 1)
}

fn torus(lent: &mut Lent) -> Map {
    post_grid(lent, 3, 2, true)
}

fn two_cubes(lent: &mut Lent) -> Map {
    post_beside(lent, &[|l| post_box(l, 3, false), |l| post_box(l, 3, true)])
}

fn two_boxes_in_four(lent: &mut Lent) -> Map {
    post_beside(lent, &[|l| post_box(l, 4, true), |l| post_box(l, 4, true)])
}

/// A loop, and a chain of five darts after it.
pub fn loop_and_chain(lent: &mut Lent) -> Map {
    post_beside(lent, &[loop_of_one, chain_of_five])
}

fn house_and_shed(lent: &mut Lent) -> Map {
    post_beside(lent, &[house, shed])
}

fn houses_scattered(lent: &mut Lent) -> Map {
    let m = house_and_shed(lent);
    scatter(lent, m, 27)
}

fn squares_scattered(lent: &mut Lent) -> Map {
    let m = post_squares(lent, 5);
    scatter(lent, m, 7)
}

fn box_and_chain_in_five(lent: &mut Lent) -> Map {
    post_beside(lent, &[|l| post_box(l, 5, true), |l| post_chain(l, 5, 6)])
}

fn four_in_six(lent: &mut Lent) -> Map {
    let parts: [Post; 4] =
        [|l| post_bits(l, 6), |l| post_paths(l, [4, 3, 5, 2]), |l| post_chain(l, 6, 6), |l| post_free(l, 6, 1)];
    post_beside(lent, &parts)
}

/// A map of several bodies, and how many it has.
pub type Site = (Sample, usize);

pub static SITES: &[Site] = &[
    (("two lone darts", |l| post_free(l, 1, 2), [2, 2, 0, 0, 0, 0, 0], 4, true), 2),
    (("loop and chain", loop_and_chain, [4, 4, 0, 0, 0, 0, 0], 2, true), 2),
    (("house and shed", house_and_shed, [16, 21, 7, 0, 0, 0, 0], 28, true), 2),
    (("shed and house", |l| post_beside(l, &[shed, house]), [16, 21, 7, 0, 0, 0, 0], 28, true), 2),
    (("band and torus", |l| post_beside(l, &[moebius_band, torus]), [8, 15, 7, 0, 0, 0, 0], 4, false), 2),
    (("torus and bottle", |l| post_beside(l, &[torus, klein_bottle]), [7, 14, 7, 0, 0, 0, 0], 0, false), 2),
    (("two bands", |l| post_beside(l, &[moebius_band, moebius_band]), [4, 6, 2, 0, 0, 0, 0], 8, false), 2),
    (("cube and wrapped cube", two_cubes, [9, 15, 9, 2, 0, 0, 0], 48, true), 2),
    (("two boxes in four", two_boxes_in_four, [2, 8, 12, 8, 2, 0, 0], 0, true), 2),
    (("box and chain in five", box_and_chain_in_five, [5, 8, 11, 11, 6, 2, 0], 26, true), 2),
    (("four in six", four_in_six, [10, 8, 6, 6, 7, 7, 6], 227, true), 4),
    (("squares scattered", squares_scattered, [20, 20, 5, 0, 0, 0, 0], 40, true), 5),
    (("houses scattered", houses_scattered, [16, 21, 7, 0, 0, 0, 0], 28, true), 2),
    (("site of 64 squares", |l| post_squares(l, 64), [256, 256, 64, 0, 0, 0, 0], 512, true), 64),
    (("as many bodies as darts", |l| post_free(l, 6, MAX_DARTS), [4096; 7], 28672, true), 4096),
    (("most couples", |l| post_couples(l, MAX_DARTS), [2048; 7], 0, true), 2048),
];
