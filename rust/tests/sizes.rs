//! The library against the plain implementation, at all sizes up to 4,096 peptides and 8,191 regions.

use phf_tests::compare;
use phf_tests::families::{
    all_but_one_empty, binary_tree, binary_tree_on, chain, deepest_tree, level_file, random_family,
    towers, Bounds, DEVIATION_SQUARED,
};
use phf_tests::random::{cases, Random};
use phf_tests::reference::{file_of, Family};

/// Every call on one family, with outputs of just the size and longer ones.
fn all_calls(random: &mut Random, family: &Family) {
    let m = family.peptides as usize;
    let k = family.regions.len();
    let file = file_of(family);
    assert_eq!(compare::check(&file), 0);
    let part = random.between(1, 9);
    let selection = random.selection(m, part, 10);
    assert_eq!(compare::bound(&file, &selection, k + random.below(3)), 0);
    let count = random.between(0, 32);
    let list = random.selection(count * m, part, 10);
    let room = count + random.below(3);
    assert_eq!(
        compare::bounds_list(&file, &list, count as u16, 77, room),
        0
    );
    let mut path = random.order(m);
    if random.chance(1, 2) {
        path.truncate(random.between(0, m));
    }
    let t = path.len();
    let more = random.below(3);
    assert_eq!(compare::curve(&file, &path, t + 1 + more, t + more), 0);
    let b = random.between(1, 65535) as u16;
    let a = random.between(0, b as usize) as u16;
    assert_eq!(compare::cut(&file, &path, a, b), 0);
    assert_eq!(compare::reduce(&file, file.len() + random.below(3)), 0);
    let p_values = random.p_values(m, part, 10);
    let room = file.len() + random.below(3);
    assert_eq!(
        compare::bounds_from_p(&file, &p_values, DEVIATION_SQUARED, room),
        0
    );
    let level = [1, 50_000, 1_000_000, random.between(1, 1_000_000)][random.below(4)];
    let room = t + 1 + random.below(3);
    assert_eq!(
        compare::hybrid(&file, &path, &p_values, level as u32, room),
        0
    );
    let room = file.len() + random.below(3);
    assert_eq!(compare::to_levels(&file, room + 128), 0);
    assert_eq!(compare::from_levels(&level_file(family), room), 0);
}

#[test]
fn small_sizes_one_by_one() {
    cases(1, 100, |random| {
        for m in 1..=80 {
            let family = random_family(random, m);
            all_calls(random, &family);
        }
    });
}

#[test]
fn middle_sizes() {
    cases(2, 150, |random| {
        let m = random.between(81, 1000);
        let family = random_family(random, m);
        all_calls(random, &family);
    });
}

#[test]
fn large_sizes() {
    cases(3, 16, |random| {
        let m = random.between(1000, 4096);
        let family = random_family(random, m);
        all_calls(random, &family);
    });
}

#[test]
fn the_largest_tree() {
    for (seed, bounds) in [(4, Bounds::Small), (5, Bounds::Mixed)] {
        cases(seed, 1, |random| {
            let family = binary_tree(random, 4096, 1, bounds);
            assert_eq!(family.regions.len(), 8191);
            all_calls(random, &family);
        });
    }
    cases(10, 1, |random| {
        let family = deepest_tree(random, Bounds::Mixed);
        assert_eq!(family.regions.len(), 8191);
        all_calls(random, &family);
    });
}

#[test]
fn the_largest_tree_over_empty_leaves() {
    for (seed, peptides) in [(11, 1), (12, 4096)] {
        cases(seed, 1, |random| {
            let leaf = random.between(1, 4096);
            let lengths = all_but_one_empty(4096, leaf, peptides);
            let family = binary_tree_on(random, lengths, Bounds::Mixed);
            assert_eq!(family.regions.len(), 8191);
            all_calls(random, &family);
        });
    }
}

#[test]
fn the_experiment_of_the_source() {
    cases(6, 3, |random| {
        let family = binary_tree(random, 512, 8, Bounds::Mixed);
        assert_eq!((family.peptides, family.regions.len()), (4096, 1023));
        all_calls(random, &family);
    });
}

#[test]
fn towers_of_sixty_four() {
    cases(7, 3, |random| {
        let leaves = 640 * random.between(1, 2);
        let family = towers(random, leaves, 64, Bounds::Mixed);
        all_calls(random, &family);
    });
    cases(8, 1, |random| {
        all_calls(random, &chain(4096, 64, 3000));
        let family = towers(random, 4096, 64, Bounds::Mixed);
        all_calls(random, &family);
    });
}
