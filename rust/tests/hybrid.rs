//! The hybrid curve: the worked example, one in which each of the two bounds is the smaller somewhere, p-values at and beside their
//! thresholds, every short path, the most peptides, the first of several causes, and what is left unwritten. What is expected is
//! written beside each input or known from how the input is made; everything else is held to the reference and to a second
//! evaluation.

use phf_tests::compare;
use phf_tests::families::{
    binary_tree, chain, chain_over_one_leaf, deepest_tree, eight_peptides, family, file,
    one_for_each_cause, random_family, sets_of, Bounds, DEVIATION_SQUARED, EIGHT_P_VALUES,
};
use phf_tests::fast;
use phf_tests::guarded::{self, curve_of, from_p, hybrid_of};
use phf_tests::random::{cases, Random};
use phf_tests::reference::{file_of, simes, Family};
use phf_tests::searches::{counted_up_to, longest_searches};
use std::cell::RefCell;
use std::collections::BTreeMap;

const MILLION: u32 = 1_000_000;
const EIGHT_PATH: [u16; 8] = [7, 3, 1, 4, 6, 2, 5, 8];

/// The file of one leaf with so many peptides and no region: the region bound of t peptides is t, so the Simes bound is never
/// larger.
fn no_region(m: usize) -> Vec<u8> {
    file(&[m as u16], &[])
}

/// The Simes bound along a path, as the library has it.
fn simes_along(p_values: &[u32], level: u32, path: &[u16]) -> Vec<u16> {
    hybrid_of(&no_region(p_values.len()), path, p_values, level)
}

/// The smaller of two values at each place.
fn smaller(one: &[u16], other: &[u16]) -> Vec<u16> {
    assert_eq!(one.len(), other.len());
    one.iter().zip(other).map(|(x, y)| *x.min(y)).collect()
}

/// The p-values of the path's peptides are 10, 20, 1,000, 300, 40,000, 500,000, 900,000 and 5. At the first two levels the region
/// bound is nowhere the smaller one.
#[test]
fn the_worked_example() {
    let eight = file_of(&eight_peptides());
    let curve = [0, 0, 1, 2, 2, 3, 4, 4, 4];
    assert_eq!(curve_of(&eight, &EIGHT_PATH).0, curve);
    for (level, expected) in [
        // thresholds 6,250 k: at k = 1 the fifth, the sixth and the seventh are over it, and so they are at 2 to 6; from 7 on the
        // sum is 6 at least
        (50_000, [0, 0, 0, 0, 0, 1, 2, 3, 3]),
        // thresholds 125,000 k: at k = 1 the sixth and the seventh are over it, and so they are at 2 and 3; from 4 on, where the
        // sixth is just at the threshold, the sum is 3 at least
        (MILLION, [0, 0, 0, 0, 0, 0, 1, 2, 2]),
        // thresholds k / 8: all are over all of them, so the Simes bound is t
        (1, curve),
    ] {
        let hybrid = hybrid_of(&eight, &EIGHT_PATH, &EIGHT_P_VALUES, level);
        assert_eq!(hybrid, expected, "level {level}");
    }
}

/// Peptides 1 to 4 are in a region with z = 1, 5 to 8 in none. With the level 80,000 the thresholds are 10,000 k. Along the path
///
/// ```text
/// t                      1       2       3      4      5      6       7     8
/// peptide                1       2       6      7      8      5       3     4
/// p                 900000  700000   10000  15000  20000  10001  900000  5000
/// region bound           1       1       2      3      4      5       5     5
/// counted at k = 1     yes     yes      no    yes    yes    yes     yes    no
/// sum at k = 1           1       2       2      3      4      5       6     6
/// counted at k = 2     yes     yes      no     no     no     no     yes    no
/// sum at k = 2           2       3       3      3      3      3       4     4
/// sum at k = 3           3       4       4      4      4      4       5     5
/// ```
///
/// 10,000 and 20,000 are just at the thresholds of 1 and 2. Peptides 1, 2 and 3 are counted at every k, and none of the others at 2
/// or more, so that each k from 3 on has one more than the k before it. The region bound is the smaller at t = 2, the Simes bound
/// from t = 5 on.
#[test]
fn each_bound_is_the_smaller_somewhere() {
    let half = file(&[4, 4], &[(1, 1, 1)]);
    let path = [1, 2, 6, 7, 8, 5, 3, 4];
    let p_values = [
        900_000, 700_000, 900_000, 5_000, 10_001, 10_000, 15_000, 20_000,
    ];
    let curve = [0, 1, 1, 2, 3, 4, 5, 5, 5];
    let bounds = [0, 1, 2, 2, 3, 3, 3, 4, 4];
    assert_eq!(curve_of(&half, &path).0, curve);
    assert_eq!(simes(&p_values, 80_000, &path), bounds);
    assert_eq!(simes_along(&p_values, 80_000, &path), bounds);
    assert_eq!(
        hybrid_of(&half, &path, &p_values, 80_000),
        [0, 1, 1, 2, 3, 3, 3, 4, 4]
    );
    assert_eq!(compare::hybrid(&half, &path, &p_values, 80_000, 9), 0);
}

/// With m = 1 there is k = 1 alone: the peptide is counted if p is over the level.
#[test]
fn one_peptide() {
    for (p, level, expected) in [
        (0, 1, 0),
        (1, 1, 0),
        (2, 1, 1),
        (49_999, 50_000, 0),
        (50_000, 50_000, 0),
        (50_001, 50_000, 1),
        (MILLION, 999_999, 1),
        (MILLION, MILLION, 0),
    ] {
        assert_eq!(simes_along(&[p], level, &[1]), [0, expected]);
        let dead = file(&[1], &[(1, 1, 0)]);
        assert_eq!(hybrid_of(&dead, &[1], &[p], level), [0, 0]);
    }
}

/// With all p-values equal the sum for t peptides is k - 1 + t at each k up to the last at which they are counted, and k - 1 behind
/// it: the least is t or that last k. With m times j for the level the thresholds are j k.
#[test]
fn equal_p_values() {
    for m in [1, 2, 3, 8, 63, 4096] {
        let path: Vec<u16> = (1..=m as u16).rev().collect();
        for j in [2, 3, 244] {
            for k in [1, 2, m / 2, m - 1, m]
                .into_iter()
                .filter(|k| (1..=m).contains(k))
            {
                let at = (j * k) as u32;
                for (p, last) in [(at - 1, k - 1), (at, k - 1), (at + 1, k)] {
                    let expected: Vec<u16> = (0..=m).map(|t| t.min(last) as u16).collect();
                    let found = simes_along(&vec![p; m], (m * j) as u32, &path);
                    assert_eq!(found, expected, "m {m}, j {j}, p {p}");
                }
            }
        }
    }
}

/// The level is 1: of m peptides one with p = 1 is counted at each k under m, one with p = 2 at all, and one with 0 at none.
#[test]
fn the_smallest_level() {
    let path = [1, 2, 3, 4];
    for (p_values, expected) in [
        ([0, 0, 0, 0], [0, 0, 0, 0, 0]),
        ([1, 1, 1, 1], [0, 1, 2, 3, 3]),
        ([1, 1, 1, 2], [0, 1, 2, 3, 4]),
        ([2, 2, 2, 2], [0, 1, 2, 3, 4]),
        ([MILLION, 0, MILLION, 0], [0, 1, 1, 2, 2]),
    ] {
        assert_eq!(simes_along(&p_values, 1, &path), expected, "{p_values:?}");
    }
}

/// The level is 1,000,000: the last threshold is 1,000,000 itself, so that nothing is counted at m.
#[test]
fn the_largest_level() {
    for m in [1, 2, 5, 4096] {
        let path: Vec<u16> = (1..=m as u16).collect();
        let mut expected = path.clone();
        expected.insert(0, 0);
        expected[m] -= 1;
        assert_eq!(simes_along(&vec![MILLION; m], MILLION, &path), expected);
        assert_eq!(simes_along(&vec![0; m], MILLION, &path), vec![0; m + 1]);
        // for any level under 1,000,000 they are counted there too
        expected[m] += 1;
        assert_eq!(simes_along(&vec![MILLION; m], MILLION - 1, &path), expected);
    }
}

#[test]
fn every_region_with_z_0() {
    for (m, lengths) in [(8, vec![8]), (9, vec![0, 4, 0, 5]), (4096, vec![1; 4096])] {
        let regions: Vec<(u16, u16, u16)> = (1..=lengths.len() as u16)
            .map(|leaf| (leaf, leaf, 0))
            .collect();
        let dead = file(&lengths, &regions);
        let path: Vec<u16> = (1..=m as u16).collect();
        for level in [1, 50_000, MILLION] {
            assert_eq!(
                hybrid_of(&dead, &path, &vec![MILLION; m], level),
                vec![0; m + 1]
            );
        }
    }
}

/// The smaller of the two, and not what both say together: by its z the region keeps 1 and 2 out, and by their p-values the Simes
/// bound keeps out 3 and 4.
#[test]
fn the_bounds_are_not_joined() {
    let half = file(&[2, 2], &[(1, 1, 0)]);
    let path = [3, 4, 1, 2];
    let p_values = [MILLION, MILLION, 0, 0];
    assert_eq!(curve_of(&half, &path).0, [0, 1, 2, 2, 2]);
    assert_eq!(simes_along(&p_values, 50_000, &path), [0, 0, 0, 1, 2]);
    assert_eq!(hybrid_of(&half, &path, &p_values, 50_000), [0, 0, 0, 1, 2]);
}

// Every path of few peptides.

/// The orders of all peptides and of some, the longer ones after those that they begin with.
fn all_paths(m: u16) -> Vec<Vec<u16>> {
    let mut paths = vec![Vec::new()];
    let mut at = 0;
    while at < paths.len() {
        let shorter = paths[at].clone();
        for peptide in (1..=m).filter(|peptide| !shorter.contains(peptide)) {
            let mut longer = shorter.clone();
            longer.push(peptide);
            paths.push(longer);
        }
        at += 1;
    }
    paths
}

/// Every path of up to four peptides, with every choice of these p-values: at the thresholds of some levels, beside them, and the
/// edges.
#[test]
fn every_short_path() {
    let some = [0, 1, 250_000, 250_001, 500_000, MILLION];
    let levels = [1, 4, 500_000, 999_999, MILLION];
    let random = &mut Random::new(120);
    for m in 1..=4 {
        let paths = all_paths(m as u16);
        // 4 + 4 * 3 + 4 * 3 * 2 twice, and the empty one
        assert!(m < 4 || paths.len() == 65);
        let files = [
            no_region(m),
            file_of(&binary_tree(random, m, 1, Bounds::Small)),
        ];
        for code in 0..some.len().pow(m as u32) {
            let p_values: Vec<u32> = (0..m as u32)
                .map(|i| some[code / some.len().pow(i) % some.len()])
                .collect();
            for level in levels {
                for path in &paths {
                    for file in &files {
                        let number = compare::hybrid(file, path, &p_values, level, path.len() + 1);
                        assert_eq!(number, 0);
                    }
                }
            }
        }
    }
}

/// The largest count of the first t peptides in any set that has, for each k, at most k - 1 of the peptides with p times m at most
/// the level times k. Every set is looked at.
fn simes_by_sets(p_values: &[u32], level: u32, path: &[u16]) -> Vec<u16> {
    let m = p_values.len();
    let regions: Vec<u32> = (1..=m as u64)
        .map(|k| {
            let inside = |i: &usize| p_values[*i] as u64 * m as u64 <= level as u64 * k;
            (0..m).filter(inside).map(|i| 1 << i).sum()
        })
        .collect();
    let respects = |set: &u32| {
        let within = |(i, region): (usize, &u32)| (set & region).count_ones() as usize <= i;
        regions.iter().enumerate().all(within)
    };
    let sets: Vec<u32> = (0..1 << m).filter(respects).collect();
    (0..=path.len())
        .map(|t| {
            let prefix: u32 = path[..t].iter().map(|peptide| 1 << (peptide - 1)).sum();
            let count = |set: &u32| (set & prefix).count_ones() as u16;
            sets.iter().map(count).max().unwrap()
        })
        .collect()
}

#[test]
fn by_every_set_of_up_to_ten_peptides() {
    cases(121, 3000, |random| {
        let m = random.between(1, 10);
        let level = some_level(random, m);
        let p_values = some_p_values(random, m, level);
        let mut path = random.order(m);
        path.truncate(random.between(0, m));
        let bounds = simes_by_sets(&p_values, level, &path);
        assert_eq!(simes_along(&p_values, level, &path), bounds);
        let file = file_of(&random_family(random, m));
        let curve = curve_of(&file, &path).0;
        assert_eq!(
            hybrid_of(&file, &path, &p_values, level),
            smaller(&curve, &bounds)
        );
    });
}

// Random families.

/// A level at an edge, anywhere, or such that thresholds are whole millionths.
fn some_level(random: &mut Random, m: usize) -> u32 {
    let level = match random.below(7) {
        0 => 1,
        1 => 1_000_000,
        2 => 50_000,
        3 => random.between(1, 3 * m),
        4 => random.between(1, 1_000_000),
        _ => m * random.between(1, 1_000_000 / m),
    };
    level as u32
}

/// p-values of one kind or of several: anywhere, small, at a threshold or one millionth beside it, and the edges.
fn some_p_values(random: &mut Random, m: usize, level: u32) -> Vec<u32> {
    let kinds = [random.below(4), random.below(4)];
    (0..m)
        .map(|_| match kinds[random.below(2)] {
            0 => random.between(0, 1_000_000) as u32,
            1 => random.between(0, 2 * level as usize / m + 2).min(1_000_000) as u32,
            2 => [0, 1, 999_999, MILLION][random.below(4)],
            _ => {
                let threshold = level as usize * random.between(1, m) / m;
                (threshold + random.below(3))
                    .saturating_sub(1)
                    .min(1_000_000) as u32
            }
        })
        .collect()
}

/// The Simes bound of a selection by the words of its definition.
fn simes_of(p_values: &[u32], level: u32, selected: &[u16]) -> u16 {
    if selected.is_empty() {
        return 0;
    }
    let m = p_values.len() as u64;
    let p_value = |peptide: &u16| p_values[*peptide as usize - 1] as u64;
    let sum = |k: u64| {
        let counted = |peptide: &&u16| p_value(peptide) * m > level as u64 * k;
        k - 1 + selected.iter().filter(counted).count() as u64
    };
    (1..=m).map(sum).min().unwrap() as u16
}

/// How often each of these was seen along the paths.
#[derive(Debug, Default)]
struct Seen {
    region_smaller: usize,
    simes_smaller: usize,
    equal: usize,
    /// p-values just at the threshold of a k from 1 to m, and one millionth under and over one
    at_a_threshold: usize,
    under_a_threshold: usize,
    over_a_threshold: usize,
}

impl Seen {
    fn note_values(&mut self, curve: &[u16], bounds: &[u16]) {
        for (entry, bound) in curve[1..].iter().zip(&bounds[1..]) {
            self.region_smaller += (entry < bound) as usize;
            self.simes_smaller += (bound < entry) as usize;
            self.equal += (bound == entry) as usize;
        }
    }

    fn note_thresholds(&mut self, p_values: &[u32], level: u32) {
        let m = p_values.len() as u64;
        let is_threshold = |p: u64| {
            let product = p * m;
            product % level as u64 == 0 && (1..=m).contains(&(product / level as u64))
        };
        for p in p_values.iter().map(|p| *p as u64) {
            self.at_a_threshold += is_threshold(p) as usize;
            self.under_a_threshold += is_threshold(p + 1) as usize;
            self.over_a_threshold += (p > 0 && is_threshold(p - 1)) as usize;
        }
    }

    fn each_at_least(&self, least: usize) {
        for times in [
            self.region_smaller,
            self.simes_smaller,
            self.equal,
            self.at_a_threshold,
            self.under_a_threshold,
            self.over_a_threshold,
        ] {
            assert!(times >= least, "{self:?}");
        }
    }
}

#[test]
fn random_families() {
    let seen = RefCell::new(Seen::default());
    cases(122, 4000, |random| {
        let m = random.between(1, 60);
        let file = file_of(&random_family(random, m));
        let level = some_level(random, m);
        let p_values = some_p_values(random, m, level);
        let mut path = random.order(m);
        if random.chance(1, 2) {
            path.truncate(random.between(0, m));
        }
        let room = path.len() + 1 + random.below(3) * random.below(100);
        assert_eq!(compare::hybrid(&file, &path, &p_values, level, room), 0);
        let bounds: Vec<u16> = (0..=path.len())
            .map(|t| simes_of(&p_values, level, &path[..t]))
            .collect();
        let curve = curve_of(&file, &path).0;
        assert_eq!(
            hybrid_of(&file, &path, &p_values, level),
            smaller(&curve, &bounds)
        );
        assert_eq!(simes_along(&p_values, level, &path), bounds);
        seen.borrow_mut().note_values(&curve, &bounds);
        seen.borrow_mut().note_thresholds(&p_values, level);
    });
    seen.borrow().each_at_least(3_000);
}

/// No value is more than the region bound, which is t at most, and each is the one before it or one more.
fn holds_the_laws(file: &[u8], path: &[u16], values: &[u16]) {
    assert_eq!(values[0], 0);
    for two in values.windows(2) {
        assert!(two[1] == two[0] || two[1] == two[0] + 1);
    }
    let curve = curve_of(file, path).0;
    assert!(values
        .iter()
        .zip(&curve)
        .all(|(value, entry)| value <= entry));
}

/// Of two calls what the one says of the other: a shorter path has the same values; the order of a prefix does not matter for its
/// value; smaller p-values, a larger level and smaller z raise no value.
#[test]
fn calls_that_tell_of_each_other() {
    cases(123, 1000, |random| {
        let m = random.between(1, 100);
        let family = random_family(random, m);
        let file = file_of(&family);
        let level = some_level(random, m);
        let p_values = some_p_values(random, m, level);
        let path = random.order(m);
        let values = hybrid_of(&file, &path, &p_values, level);
        holds_the_laws(&file, &path, &values);
        let bounds = simes_along(&p_values, level, &path);
        holds_the_laws(&no_region(m), &path, &bounds);
        let t = random.between(0, m);
        assert_eq!(hybrid_of(&file, &path[..t], &p_values, level), values[..=t]);
        let mut reordered = path[..t].to_vec();
        reordered.sort();
        assert_eq!(hybrid_of(&file, &reordered, &p_values, level)[t], values[t]);
        let lowered: Vec<u32> = p_values
            .iter()
            .map(|p| random.between(0, *p as usize) as u32)
            .collect();
        let larger = random.between(level as usize, 1_000_000) as u32;
        let mut tighter = family.clone();
        for region in &mut tighter.regions {
            region.z = random.between(0, region.z as usize) as u16;
        }
        for less in [
            hybrid_of(&file, &path, &lowered, level),
            hybrid_of(&file, &path, &p_values, larger),
            hybrid_of(&file_of(&tighter), &path, &p_values, level),
        ] {
            assert!(less.iter().zip(&values).all(|(less, value)| less <= value));
        }
    });
}

// The most peptides.

/// The Simes bound of each prefix another way. A peptide that is counted up to k may be given any number from 1 to k, no two the
/// same, and the bound is how many can be given one: those with the smallest k come first, each gets the smallest number that is
/// left, if that is not over its k.
fn simes_by_numbers(p_values: &[u32], level: u32, path: &[u16]) -> Vec<u16> {
    let m = p_values.len() as u64;
    let numbers: Vec<u64> = (1..=m).collect();
    let mut lasts: Vec<usize> = Vec::new();
    let mut bounds = vec![0];
    for peptide in path {
        let product = p_values[*peptide as usize - 1] as u64 * m;
        let last = numbers.partition_point(|k| product > level as u64 * k);
        lasts.insert(lasts.partition_point(|other| *other < last), last);
        let given = |count: usize, last: &usize| count + (*last > count) as usize;
        bounds.push(lasts.iter().fold(0, given) as u16);
    }
    bounds
}

/// The second evaluation against the definition's words, on the sizes for which these are quick.
#[test]
fn the_second_evaluation() {
    cases(124, 500, |random| {
        let m = random.between(1, 120);
        let level = some_level(random, m);
        let p_values = some_p_values(random, m, level);
        let path = random.order(m);
        let bounds = simes_by_numbers(&p_values, level, &path);
        for (t, bound) in bounds.iter().enumerate() {
            assert_eq!(*bound, simes_of(&p_values, level, &path[..t]));
        }
    });
}

fn largest_families() -> Vec<Family> {
    let random = &mut Random::new(125);
    vec![
        family(&[4096], &[]),
        family(&[1; 4096], &[]),
        chain_over_one_leaf(64, 700),
        chain(4096, 64, 2000),
        binary_tree(random, 512, 8, Bounds::Mixed),
        binary_tree(random, 4096, 1, Bounds::Mixed),
        deepest_tree(random, Bounds::Mixed),
    ]
}

/// The library and the same algorithm in Rust on every large family, against the curve and Simes bounds that were found otherwise.
fn holds_on_all(families: &[Vec<u8>], path: &[u16], p_values: &[u32], level: u32) {
    let bounds = simes_by_numbers(p_values, level, path);
    assert_eq!(simes(p_values, level, path), bounds);
    for t in [1, path.len() / 2, path.len()] {
        assert_eq!(simes_of(p_values, level, &path[..t]), bounds[t]);
    }
    for file in families {
        let expected = smaller(&curve_of(file, path).0, &bounds);
        assert_eq!(hybrid_of(file, path, p_values, level), expected);
        let mut values = vec![9999; path.len() + 1];
        let answer = fast::hybrid(file, path, p_values, level, &mut values);
        assert_eq!((answer.number, answer.place), (0, 0));
        assert_eq!(values, expected);
    }
}

fn ramp() -> Vec<u32> {
    (0..4096).map(|i| 244 * i).collect()
}

#[test]
fn the_largest_families() {
    let random = &mut Random::new(126);
    let families: Vec<Vec<u8>> = largest_families().iter().map(file_of).collect();
    let any = random.p_values(4096, 0, 1);
    let ties = any.iter().map(|p| p / 50_000 * 50_000).collect();
    for p_values in [
        ramp(),
        ramp().into_iter().rev().collect(),
        random.p_values(4096, 1, 2),
        vec![MILLION; 4096],
        vec![0; 4096],
        ties,
        any,
    ] {
        let path = random.order(4096);
        // with 999,424 each p-value of the ramp is just at a threshold
        for level in [1, 50_000, 244 * 4096, MILLION] {
            holds_on_all(&families, &path, &p_values, level);
        }
    }
    for _ in 0..4 {
        let level = some_level(random, 4096);
        let p_values = some_p_values(random, 4096, level);
        holds_on_all(&families, &random.order(4096), &p_values, level);
    }
}

/// The search for a free slot begins one slot above that of the peptide before, or one below it, or always at the same, or always
/// at one of those that are farthest from a free slot.
#[test]
fn long_and_short_searches() {
    let random = &mut Random::new(127);
    let families: Vec<Vec<u8>> = largest_families().iter().map(file_of).collect();
    let mut chained: Vec<usize> = (1..=2048).collect();
    chained.extend([2048; 2048]);
    for lasts in [
        (0..4096).collect(),
        (0..4096).rev().collect(),
        vec![2048; 4096],
        vec![4095; 4096],
        vec![1; 4096],
        chained,
        longest_searches(4096),
    ] {
        let path = random.order(4096);
        let p_values = counted_up_to(&path, &lasts);
        holds_on_all(&families, &path, &p_values, MILLION);
    }
}

/// The p-values are such as they were made to be.
#[test]
fn p_values_counted_up_to_a_k() {
    let random = &mut Random::new(128);
    for m in [1, 2, 3, 7, 512, 4096] {
        let path = random.order(m);
        let lasts: Vec<usize> = (0..m).map(|_| random.below(m)).collect();
        let p_values = counted_up_to(&path, &lasts);
        for (peptide, last) in path.iter().zip(&lasts) {
            let p = p_values[*peptide as usize - 1] as usize;
            let counted = |k: &usize| p * m > 1_000_000 * k;
            assert_eq!((1..=m).filter(counted).count(), *last);
        }
    }
}

// Causes.

#[test]
fn cause_16_values() {
    let eight = file_of(&eight_peptides());
    let told = |t: usize, room: usize| {
        compare::hybrid(&eight, &EIGHT_PATH[..t], &EIGHT_P_VALUES, 50_000, room)
    };
    for t in 0..=8 {
        assert_eq!(told(t, t + 1), 0);
        assert_eq!(told(t, t), 16);
        assert_eq!(told(t, 0), 16);
        assert_eq!(told(t, t + 2), 0);
        // long enough, and 0 in 16 bits
        assert_eq!(told(t, 65_536), 0);
    }
    let path: Vec<u16> = (1..=4096).collect();
    let largest = no_region(4096);
    for (room, number) in [(4097, 0), (4096, 16)] {
        let found = compare::hybrid(&largest, &path, &[40_000; 4096], 50_000, room);
        assert_eq!(found, number);
    }
}

#[test]
fn cause_20_p_values() {
    let p_values = vec![40_000; 70_000];
    for m in [1, 2, 8, 4096] {
        let file = no_region(m);
        for path in [&[][..], &[1]] {
            let told = |count: usize| compare::hybrid(&file, path, &p_values[..count], 50_000, 2);
            assert_eq!(told(m), 0);
            assert_eq!(told(m - 1), 20);
            assert_eq!(told(m + 1), 20);
            assert_eq!(told(0), 20);
            // m in 16 bits only
            assert_eq!(told(65_536 + m), 20);
        }
    }
    // as many as the path has, or leaves, or regions
    let eight = file_of(&eight_peptides());
    for count in [3, 4, 5] {
        let found = compare::hybrid(&eight, &[7, 3, 1], &p_values[..count], 50_000, 9);
        assert_eq!(found, 20);
    }
}

/// Each place of up to 20 p-values and some of 4,096, of peptides in the path or not. Most are accepted in 16 or 20 bits.
#[test]
fn cause_21_p_value() {
    let small = (1..=20).flat_map(|m| (0..m).map(move |at| (m, at)));
    let large = [0, 1, 2047, 2048, 4094, 4095].map(|at| (4096, at));
    for (m, at) in small.chain(large) {
        let file = no_region(m);
        let told = |path: &[u16], p: u32| {
            let mut p_values = vec![40_000; m];
            p_values[at] = p;
            compare::hybrid(&file, path, &p_values, 50_000, path.len() + 1)
        };
        for path in [vec![], vec![at as u16 + 1], vec![m as u16]] {
            for p in [0, 999_999, 1_000_000] {
                assert_eq!(told(&path, p), 0);
            }
            for p in [1_000_001, 1 << 20, 1 << 24, 1 << 31, u32::MAX] {
                assert_eq!(told(&path, p), 21);
            }
        }
    }
}

#[test]
fn cause_23_level() {
    let eight = file_of(&eight_peptides());
    for path in [&[][..], &EIGHT_PATH] {
        let told =
            |level: u32| compare::hybrid(&eight, path, &EIGHT_P_VALUES, level, path.len() + 1);
        // 0 in 16 bits is 1 << 16
        for level in [1, 2, 1 << 16, 999_999, 1_000_000] {
            assert_eq!(told(level), 0);
        }
        // 1 in 20 bits and in 31 are the third and the fourth
        for level in [0, 1_000_001, (1 << 20) + 1, (1 << 31) + 1, u32::MAX] {
            assert_eq!(told(level), 23);
        }
    }
}

/// 22 is a cause of the constant for bounds from p-values, and not of a level, however large.
#[test]
fn a_level_is_no_constant() {
    let eight = file_of(&eight_peptides());
    for level in [100_000_000, 100_000_001, u32::MAX] {
        let found = compare::hybrid(&eight, &EIGHT_PATH, &EIGHT_P_VALUES, level, 9);
        assert_eq!(found, 23);
    }
}

/// What is wrong with a call, beside the file.
#[derive(Clone, Copy, Debug, PartialEq)]
enum Fault {
    LongPath,
    BadNumber,
    Repeat,
    ShortOutput,
    ShortP,
    LongP,
    BadP,
    ZeroLevel,
    LargeLevel,
}

use Fault::*;

const FAULTS: [Fault; 9] = [
    LongPath,
    BadNumber,
    Repeat,
    ShortOutput,
    ShortP,
    LongP,
    BadP,
    ZeroLevel,
    LargeLevel,
];

impl Fault {
    fn number(self) -> u16 {
        match self {
            LongPath => 11,
            BadNumber => 12,
            Repeat => 13,
            ShortOutput => 16,
            ShortP | LongP => 20,
            BadP => 21,
            ZeroLevel | LargeLevel => 23,
        }
    }
}

/// Every set of faults that one call can have.
fn fault_sets() -> Vec<Vec<Fault>> {
    let both = |set: &[Fault], one, other| set.contains(&one) && set.contains(&other);
    sets_of(&FAULTS)
        .into_iter()
        .filter(|set: &Vec<Fault>| !both(set, ShortP, LongP) && !both(set, ZeroLevel, LargeLevel))
        .collect()
}

/// Where a fault stands, and what stands there.
struct Fashion {
    /// The bad p-value is the first, the middle or the last one, and so is the bad number of the path: 0, 1 or 2 halves of the way.
    halves: usize,
    bad_p: u32,
    bad_number: u16,
}

/// Causes are tried in the order of their numbers, so the smallest one is expected, and with 13 the place of the repeat.
fn with_faults(number: u16, m: usize, file: &[u8], faults: &[Fault], fashion: &Fashion) {
    let has = |fault| faults.contains(&fault);
    let mut path: Vec<u16> = (1..=m as u16).rev().collect();
    let repeat = m / 3 + 1;
    if has(Repeat) {
        path[repeat - 1] = path[repeat - 2];
    }
    if has(LongPath) {
        path.push(1);
    }
    if has(BadNumber) {
        let last = path.len() - 1;
        path[last * fashion.halves / 2] = fashion.bad_number;
    }
    let mut p_values = vec![40_000; m + has(LongP) as usize - has(ShortP) as usize];
    if has(BadP) {
        let last = p_values.len() - 1;
        p_values[last * fashion.halves / 2] = fashion.bad_p;
    }
    let level = match (has(ZeroLevel), has(LargeLevel)) {
        (true, _) => 0,
        (_, true) => MILLION + 1,
        _ => MILLION,
    };
    let room = path.len() + 1 - has(ShortOutput) as usize;
    let later = faults.iter().map(|fault| fault.number()).min().unwrap_or(0);
    let expected = if number != 0 { number } else { later };
    let place = if expected == 13 { repeat as u16 } else { 0 };
    let mut values = vec![777; room];
    let answer = guarded::hybrid(file, &path, &p_values, level, &mut values);
    let told = (answer.number, answer.place);
    assert_eq!(told, (expected, place), "a file with {number}, {faults:?}");
    if expected != 0 {
        assert_eq!(values, vec![777; room]);
    }
}

#[test]
fn the_first_of_several_causes() {
    let sets = fault_sets();
    // three faults of a path, two lengths of the values, three of the p-values, and three levels
    assert_eq!(sets.len(), 8 * 2 * 3 * 2 * 3);
    for (number, m, file) in one_for_each_cause() {
        assert_eq!(compare::check(&file), number);
        for (halves, bad_p, bad_number) in [
            (0, MILLION + 1, 0),
            (1, u32::MAX, m as u16 + 1),
            (2, 1 << 20, 65_535),
        ] {
            let fashion = Fashion {
                halves,
                bad_p,
                bad_number,
            };
            for faults in &sets {
                with_faults(number, m, &file, faults, &fashion);
            }
        }
    }
}

/// Faults of any kind, often several, at any place. Only the causes of the call are ever told.
#[test]
fn damaged_calls() {
    let seen = RefCell::new(BTreeMap::<u16, usize>::new());
    cases(129, 30_000, |random| {
        let m = random.between(1, 30);
        let file = file_of(&random_family(random, m));
        let mut level = some_level(random, m);
        let mut p_values = some_p_values(random, m, level);
        let mut path = random.order(m);
        path.truncate(random.between(0, m));
        let mut more = random.below(2);
        for _ in 0..random.below(4) {
            let large = [MILLION, MILLION + 1, 1 << 20, u32::MAX][random.below(4)];
            match random.below(7) {
                0 => drop(p_values.pop()),
                1 => p_values.push(large),
                2 if !p_values.is_empty() => {
                    let at = random.below(p_values.len());
                    p_values[at] = large;
                }
                3 => level = [0, 1, large][random.below(3)],
                4 => path.push(random.between(1, m) as u16),
                5 if !path.is_empty() => {
                    let at = random.below(path.len());
                    path[at] = [0, 1, m as u16, m as u16 + 1][random.below(4)];
                }
                _ => more = 0,
            }
        }
        let room = path.len() + more;
        let number = compare::hybrid(&file, &path, &p_values, level, room);
        *seen.borrow_mut().entry(number).or_default() += 1;
    });
    let causes = [0, 11, 12, 13, 16, 20, 21, 23];
    for number in causes {
        let times = seen.borrow().get(&number).copied().unwrap_or(0);
        assert!(times >= 200, "number {number} was seen {times} times");
    }
    assert!(seen.borrow().keys().all(|number| causes.contains(number)));
}

// What is written.

/// Only T + 1 of the values are written, for every T.
#[test]
fn a_longer_output() {
    for (m, lengths) in [(8, vec![2, 3, 1, 2]), (4096, vec![4096])] {
        let plain = file(&lengths, &[]);
        let path: Vec<u16> = (1..=m as u16).rev().collect();
        for t in [0, 1, 2, m / 2, m - 1, m] {
            for more in [0, 1, 2, 40, 5000] {
                let mut values = vec![777; t + 1 + more];
                let p_values = vec![MILLION; m];
                let answer = guarded::hybrid(&plain, &path[..t], &p_values, 1, &mut values);
                assert_eq!((answer.number, answer.place), (0, 0));
                let expected: Vec<u16> = (0..=t as u16).collect();
                assert_eq!(values[..=t], expected);
                assert_eq!(values[t + 1..], vec![777; more]);
            }
        }
    }
}

/// What the values hold before does not matter, also what another call or the same one has left there.
#[test]
fn values_used_again() {
    cases(130, 300, |random| {
        let mut values = vec![0xFFFF; 200];
        for _ in 0..4 {
            let m = random.between(1, 60);
            let file = file_of(&random_family(random, m));
            let level = some_level(random, m);
            let p_values = some_p_values(random, m, level);
            let mut path = random.order(m);
            path.truncate(random.between(0, m));
            let t = path.len();
            let expected = hybrid_of(&file, &path, &p_values, level);
            for _ in 0..2 {
                let rest = values[t + 1..].to_vec();
                let answer = guarded::hybrid(&file, &path, &p_values, level, &mut values);
                assert_eq!(answer.number, 0);
                assert_eq!(values[..=t], expected);
                assert_eq!(values[t + 1..], rest);
            }
        }
    });
}

/// With z computed from the same p-values, and the peptides by rising p-value, as they are ranked.
#[test]
fn with_bounds_from_the_same_p_values() {
    cases(131, 300, |random| {
        let m = random.between(1, 60);
        let given = file_of(&random_family(random, m));
        let level = some_level(random, m);
        let p_values = some_p_values(random, m, level);
        let mut ranking: Vec<u16> = (1..=m as u16).collect();
        ranking.sort_by_key(|peptide| p_values[*peptide as usize - 1]);
        let written = from_p(&given, &p_values, DEVIATION_SQUARED);
        let found = compare::hybrid(&written, &ranking, &p_values, level, m + 1);
        assert_eq!(found, 0);
    });
}
