//! The library against enumeration: the bound of a selection is the largest count of it in any admissible set, found by
//! looking at every set.

use phf_tests::enumeration::{bytes_of, mask, Admissible, Taking};
use phf_tests::families::{all_families, all_families_of, random_family};
use phf_tests::guarded;
use phf_tests::random::{cases, Random};
use phf_tests::reference::{file_of, pieces, Family};

/// The bound of a selection, and that the taken regions' z and the selected peptides outside of them add up to it; the
/// taken bytes.
fn holds_bound(family: &Family, file: &[u8], selection: u32, expected: u16) -> Vec<u8> {
    let m = family.peptides as usize;
    let regions = pieces(family);
    let mut taken = vec![9; regions.len()];
    let answer = guarded::bound(file, &bytes_of(selection, m), &mut taken);
    assert_eq!((answer.number, answer.bound), (0, expected));
    let mut covered = 0;
    let mut sum = 0;
    for (r, byte) in regions.iter().zip(&taken) {
        assert!(*byte <= 1);
        if *byte == 1 {
            assert!(r.low <= r.high, "a region without a peptide is taken");
            assert_eq!(covered & mask(r.low, r.high), 0, "taken regions overlap");
            covered |= mask(r.low, r.high);
            sum += r.z;
        }
    }
    assert_eq!(
        sum + (selection & !covered).count_ones() as usize,
        expected as usize
    );
    taken
}

/// A path's curve and marks, that the marked peptides are admissible, and cuts.
fn holds_curve(random: &mut Random, m: usize, sets: &Admissible, file: &[u8], path: &[u16]) {
    let mut values = vec![9999; path.len() + 1];
    let mut marks = vec![99; path.len()];
    let answer = guarded::curve(file, path, &mut values, &mut marks);
    assert_eq!((answer.number, answer.place), (0, 0));
    let mut prefix = 0;
    let mut marked = 0;
    let mut entries = vec![sets.bound(0)];
    assert_eq!(values[0], 0);
    for (i, p) in path.iter().enumerate() {
        prefix |= mask(*p as usize, *p as usize);
        let entry = sets.bound(prefix);
        assert_eq!(values[i + 1], entry);
        assert_eq!(marks[i], (entry == entries[i] + 1) as u8);
        if marks[i] == 1 {
            marked |= mask(*p as usize, *p as usize);
        }
        assert!(sets.has(marked), "the marked peptides are not admissible");
        assert_eq!(marked.count_ones(), entry as u32);
        entries.push(entry);
    }
    for _ in 0..4 {
        let b = random.between(1, m + 2) as u16;
        let a = random.between(0, b as usize) as u16;
        let mut expected = 0;
        for (t, entry) in entries.iter().enumerate() {
            if *entry as usize * b as usize <= a as usize * t {
                expected = t as u16;
            }
        }
        let answer = guarded::cut(file, path, a, b);
        assert_eq!(
            (answer.number, answer.place, answer.cut),
            (0, 0, expected),
            "a = {a}, b = {b}"
        );
    }
}

#[test]
fn every_family_up_to_four_peptides() {
    for m in 1..=4 {
        for family in all_families(m) {
            let sets = Admissible::of(&family);
            let file = file_of(&family);
            for selection in 0..1 << m {
                holds_bound(&family, &file, selection, sets.bound(selection));
            }
        }
    }
}

/// The peptides 1 to m in every order.
fn all_orders(m: u16) -> Vec<Vec<u16>> {
    if m == 0 {
        return vec![Vec::new()];
    }
    let mut orders = Vec::new();
    for shorter in all_orders(m - 1) {
        for at in 0..m as usize {
            let mut order = shorter.clone();
            order.insert(at, m);
            orders.push(order);
        }
    }
    orders
}

/// Every selection with its taken regions, and every path with cuts.
fn holds_every_selection_and_path(random: &mut Random, family: &Family) {
    let m = family.peptides as usize;
    let sets = Admissible::of(family);
    let taking = Taking::of(family);
    let file = file_of(family);
    for selection in 0..1 << m {
        let taken = holds_bound(family, &file, selection, sets.bound(selection));
        assert_eq!(taken, taking.taken(selection));
    }
    for order in all_orders(m as u16) {
        for t in 0..=m {
            holds_curve(random, m, &sets, &file, &order[..t]);
        }
    }
}

#[test]
fn every_family_up_to_three_peptides_and_three_leaves() {
    let random = &mut Random::new(23);
    for m in 1..=3 {
        for n in 1..=3 {
            for family in all_families_of(m, n) {
                holds_every_selection_and_path(random, &family);
            }
        }
    }
}

/// A random family with at most so many leaves, of which one at least is empty.
fn with_empty_leaves(random: &mut Random, m: usize, most: usize) -> Family {
    loop {
        let family = random_family(random, m);
        if family.lengths.contains(&0) && family.lengths.len() <= most {
            return family;
        }
    }
}

#[test]
fn random_families_of_up_to_twelve_peptides_and_sixteen_leaves() {
    cases(24, 1500, |random| {
        let m = random.between(1, 12);
        let family = with_empty_leaves(random, m, 16);
        let sets = Admissible::of(&family);
        let taking = Taking::of(&family);
        let file = file_of(&family);
        for _ in 0..10 {
            let selection = random.below(1 << m) as u32;
            let taken = holds_bound(&family, &file, selection, sets.bound(selection));
            assert_eq!(taken, taking.taken(selection));
        }
        for _ in 0..3 {
            let mut path = random.order(m);
            path.truncate(random.between(0, m));
            holds_curve(random, m, &sets, &file, &path);
        }
    });
}

#[test]
fn random_families_of_twenty_peptides_and_fewer() {
    cases(20, 1500, |random| {
        let m = random.between(1, 14);
        let family = random_family(random, m);
        let sets = Admissible::of(&family);
        let file = file_of(&family);
        for _ in 0..10 {
            let selection = random.below(1 << m) as u32;
            holds_bound(&family, &file, selection, sets.bound(selection));
        }
        for _ in 0..3 {
            let mut path = random.order(m);
            path.truncate(random.between(0, m));
            holds_curve(random, m, &sets, &file, &path);
        }
    });
    cases(21, 100, |random| {
        let m = random.between(15, 20);
        let family = random_family(random, m);
        let sets = Admissible::of(&family);
        let file = file_of(&family);
        for _ in 0..8 {
            let selection = random.below(1 << m) as u32;
            holds_bound(&family, &file, selection, sets.bound(selection));
        }
        let path = random.order(m);
        holds_curve(random, m, &sets, &file, &path);
    });
}

/// The quick way to the bounds of all selections, which the tests of the reduction take, against the plain one.
#[test]
fn all_bounds_are_the_bounds_of_each_selection() {
    cases(22, 400, |random| {
        let m = random.between(1, 9);
        let sets = Admissible::of(&random_family(random, m));
        let one_by_one: Vec<u16> = (0..1 << m).map(|s| sets.bound(s)).collect();
        assert_eq!(sets.all_bounds(m), one_by_one);
    });
}
