//! The walk along the leaf lengths, at the edges of its blocks of 64 and 16 leaves. Every leaf is a region of its own, and neighbours
//! can take another part of their peptides each, so that a peptide taken for one of the next leaf is marked wrongly sooner or later;
//! the curve is held against the plain implementation.

use phf_tests::compare;
use phf_tests::families::{all_but_one_empty, family};
use phf_tests::random::Random;
use phf_tests::reference::file_of;

/// The curve of leaves with these lengths, each of them a region with half of its peptides for z, and every other with one more,
/// along several paths.
fn curves(random: &mut Random, lengths: &[u16]) {
    let leaf = |j: usize| j as u16 + 1;
    let regions: Vec<(u16, u16, u16)> = lengths
        .iter()
        .enumerate()
        .map(|(j, length)| (leaf(j), leaf(j), length / 2 + j as u16 % 2))
        .collect();
    let file = file_of(&family(lengths, &regions));
    let m = lengths.iter().sum::<u16>();
    let up: Vec<u16> = (1..=m).collect();
    let down: Vec<u16> = (1..=m).rev().collect();
    for path in [random.order(m as usize), up, down] {
        let t = path.len();
        assert_eq!(compare::curve(&file, &path, t + 1, t), 0);
    }
}

/// So many peptides in so many leaves at random: some leaves are empty, and some have several.
fn scattered(random: &mut Random, n: usize, m: usize) -> Vec<u16> {
    let mut lengths = vec![0; n];
    for _ in 0..m {
        lengths[random.below(n)] += 1;
    }
    lengths
}

/// Numbers of leaves at and beside the edges of blocks and of what is left after them.
fn edges() -> Vec<usize> {
    let mut edges = vec![1, 2, 3, 8];
    for edge in [16, 32, 48, 64, 80, 96, 112, 128, 144, 192, 256] {
        edges.extend([edge - 1, edge, edge + 1]);
    }
    edges
}

#[test]
fn leaves_beside_the_edges_of_blocks() {
    let random = &mut Random::new(20);
    for n in edges() {
        curves(random, &vec![1; n]);
        curves(random, &vec![3; n]);
        for m in [1, n / 2 + 1, n, 2 * n] {
            let lengths = scattered(random, n, m);
            curves(random, &lengths);
        }
    }
}

#[test]
fn one_leaf_with_everything_at_every_place_of_two_blocks() {
    let random = &mut Random::new(21);
    for n in [129, 144, 145] {
        for leaf in 1..=n {
            curves(random, &all_but_one_empty(n, leaf, 5));
        }
    }
}

#[test]
fn a_long_leaf_among_short_ones() {
    let random = &mut Random::new(22);
    for n in [20, 64, 100, 130, 2048] {
        for leaf in [0, 7, 15, 16, n / 2, n - 2, n - 1] {
            let mut lengths = vec![1; n];
            lengths[leaf.min(n - 1)] = 4096 - n as u16 + 1;
            curves(random, &lengths);
        }
    }
}

#[test]
fn the_most_leaves() {
    let random = &mut Random::new(23);
    for m in [1, 64, 2000, 4096] {
        let lengths = scattered(random, 4096, m);
        curves(random, &lengths);
    }
    for n in [4033, 4095, 4096] {
        curves(random, &vec![1; n]);
        curves(random, &all_but_one_empty(n, n, 4096));
    }
}
