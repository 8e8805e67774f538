//! Bounds from p-values: the worked example, squares that are just equal, families of all sizes, the first of several causes, what
//! is left unwritten, and the other calls on what was written. What is expected is written beside each input or known from how the
//! input is made; everything else is held to the reference or, for the largest regions, to a second evaluation.

use phf_tests::compare;
use phf_tests::families::{
    binary_tree, chain, chain_over_one_leaf, deepest_tree, eight_peptides, family, file,
    one_for_each_cause, random_family, sets_of, Bounds, DEVIATION_SQUARED, EIGHT_P_VALUES,
};
use phf_tests::guarded::{self, curve_of, from_p, reduced};
use phf_tests::random::{cases, Random};
use phf_tests::reference::{check, file_of, pieces, with_z_from, z_of, Family, Forest};
use std::cell::RefCell;
use std::collections::BTreeMap;

const MILLION: u32 = 1_000_000;
const MOST: u32 = 100_000_000;

/// The z that the regions of a family get. All else of the file stays.
fn zs(family: &Family, p_values: &[u32], deviation_squared: u32) -> Vec<u16> {
    let file = file_of(family);
    let written = from_p(&file, p_values, deviation_squared);
    let regions = &written[file.len() - 6 * family.regions.len()..];
    let zs: Vec<u16> = regions
        .chunks_exact(6)
        .map(|six| u16::from_le_bytes([six[4], six[5]]))
        .collect();
    assert_eq!(written, file_of(&with_zs(family, |k| zs[k])));
    zs
}

/// The family with another z for each region, by its place in the file.
fn with_zs(family: &Family, mut z: impl FnMut(usize) -> u16) -> Family {
    let mut other = family.clone();
    for (k, region) in other.regions.iter_mut().enumerate() {
        region.z = z(k);
    }
    other
}

/// The z of a region with these p-values.
fn z(p_values: &[u32], deviation_squared: u32) -> u16 {
    let whole = family(&[p_values.len() as u16], &[(1, 1, 9)]);
    zs(&whole, p_values, deviation_squared)[0]
}

#[test]
fn the_worked_example() {
    for (deviation_squared, expected) in [
        (0, [0, 0, 0, 0, 0]),
        (100_000, [2, 0, 1, 0, 0]),
        (250_000, [2, 1, 1, 0, 0]),
        (1_497_866, [4, 2, 3, 1, 1]),
    ] {
        let found = zs(&eight_peptides(), &EIGHT_P_VALUES, deviation_squared);
        assert_eq!(found, expected, "{deviation_squared}");
    }
    // the second region has 1,000 and 500,000: at the larger one, 1 has the excess 500,000, whose square is 250,000 times 1,000,000
    assert_eq!(zs(&eight_peptides(), &EIGHT_P_VALUES, 249_999)[1], 0);
}

/// tools/family.py computes z by itself.
#[test]
fn the_example_of_a_list() {
    let listed = include_bytes!("../../examples/from-p-values/family.phf");
    assert_eq!(
        from_p(
            &file_of(&eight_peptides()),
            &EIGHT_P_VALUES,
            DEVIATION_SQUARED
        ),
        listed
    );
}

#[test]
fn one_peptide() {
    // the square of the gap is at most the constant times 1,000,000
    for (p, least) in [
        (0, 1_000_000),
        (500_000, 250_000),
        (900_000, 10_000),
        (999_000, 1),
        (999_999, 1),
    ] {
        assert_eq!(z(&[p], least - 1), 0, "p {p}");
        assert_eq!(z(&[p], least), 1, "p {p}");
        assert_eq!(z(&[p], MOST), 1, "p {p}");
    }
    // no threshold but 0, and 1 is over it
    assert_eq!(z(&[MILLION], 0), 1);
}

/// n p-values at 1,000,000 - 1,000 s, so that none is over the threshold: v passes exactly if the square of 1,000 s v is at most the
/// constant times v times 1,000,000, that is s s v at most the constant.
#[test]
fn equal_squares_with_none_over() {
    for s in [1, 2, 3, 10, 31, 100, 999, 1000] {
        for v in [1, 2, 3, 10, 99, 100] {
            for n in [v, v + 1, v + 7] {
                let p_values = vec![MILLION - 1000 * s; n as usize];
                let equal = s * s * v;
                assert_eq!(z(&p_values, equal - 1) as u32, v - 1, "s {s}, n {n}");
                assert_eq!(z(&p_values, equal) as u32, v, "s {s}, n {n}");
                if s > 1 && equal < MOST {
                    assert_eq!(z(&p_values, equal + 1) as u32, v, "s {s}, n {n}");
                }
            }
        }
    }
}

/// d p-values at 1,000,000 and at least as many at 0: at the threshold 0 the excess of v is 1,000,000 (v - d). With 500,000 d for the
/// constant, both sides are the same for v = 2 d.
#[test]
fn equal_squares_with_some_over() {
    for d in [1, 2, 3, 10, 50, 199, 200] {
        for zeros in [d, d + 1, 3 * d] {
            let mut p_values = vec![0; zeros];
            p_values.extend(vec![MILLION; d]);
            let equal = 500_000 * d as u32;
            assert_eq!(z(&p_values, 0), d as u16);
            assert_eq!(z(&p_values, equal - 1), 2 * d as u16 - 1);
            assert_eq!(z(&p_values, equal), 2 * d as u16);
        }
    }
}

/// A p-value that is equal to the threshold is not over it, also where several are.
#[test]
fn equal_p_values() {
    // at 500,000 the excess of v is 500,000 v; the one at 1,000,000 makes it 500,000 (v - 2)
    for (p_values, expected) in [
        (&[500_000; 2][..], 0),
        (&[500_000; 9], 0),
        (&[500_000, 500_000, 500_000, MILLION], 2),
        (&[MILLION, 500_000, 500_000, 500_000, MILLION], 4),
        // 0.6 v is at most the 1 that is over; then 0.4 v, and none is
        (&[400_000, 600_000], 0),
        (&[400_000, 600_000, MILLION], 2),
    ] {
        assert_eq!(z(p_values, 0), expected, "{p_values:?}");
    }
}

/// Every list of up to four of these p-values.
#[test]
fn every_short_list() {
    let some = [0, 1, 250_000, 500_000, 999_999, MILLION];
    let constants = [
        0,
        1,
        62_500,
        249_999,
        250_000,
        1_000_000,
        DEVIATION_SQUARED,
        MOST,
    ];
    for m in 1..=4 {
        let tree = file_of(&binary_tree(&mut Random::new(1), m, 1, Bounds::Mixed));
        for code in 0..some.len().pow(m as u32) {
            let p_values: Vec<u32> = (0..m as u32)
                .map(|i| some[code / some.len().pow(i) % some.len()])
                .collect();
            for deviation_squared in constants {
                let number =
                    compare::bounds_from_p(&tree, &p_values, deviation_squared, tree.len());
                assert_eq!(number, 0);
            }
        }
    }
}

// Random families.

/// p-values of one kind: anywhere, some of them small, few different ones, at the edges, or all the same.
fn some_p_values(random: &mut Random, m: usize) -> Vec<u32> {
    let edges = [0, 1, 999_998, 999_999, MILLION];
    let small = random.between(1, 9);
    let any = random.p_values(m, small, 10);
    match random.below(5) {
        0 => random.p_values(m, 0, 1),
        1 => any,
        2 => {
            let different = random.between(1, 6).min(m);
            (0..m).map(|_| any[random.below(different)]).collect()
        }
        3 => any
            .iter()
            .map(|p| [*p, edges[random.below(5)]][random.below(2)])
            .collect(),
        _ => vec![[any[0], edges[random.below(5)]][random.below(2)]; m],
    }
}

fn some_constant(random: &mut Random) -> u32 {
    match random.below(6) {
        0 => 0,
        1 => random.between(1, 2_000) as u32,
        2 => DEVIATION_SQUARED,
        3 => MOST,
        4 => random.between(0, 3_000_000) as u32,
        _ => random.between(0, MOST as usize) as u32,
    }
}

/// The z another way: at each threshold the v that pass are those up to a largest, which is found by halving, and z is the smallest
/// of these. p-values are counted in a sorted list, and the root is taken of what a square is compared with.
fn z_by_halving(deviation_squared: u32, p_values: &[u32]) -> u16 {
    let million = MILLION as i64;
    let mut sorted = p_values.to_vec();
    sorted.sort();
    let n = sorted.len() as i64;
    let mut thresholds = sorted.clone();
    thresholds.push(0);
    thresholds.sort();
    thresholds.dedup();
    thresholds.retain(|t| *t < MILLION);
    let largest = |t: u32| {
        let over = n - sorted.partition_point(|p| *p <= t) as i64;
        let passes = |v: i64| {
            let excess = v * (million - t as i64) - million * over;
            excess <= (deviation_squared as i64 * v * million).isqrt()
        };
        let (mut passing, mut beyond) = (0, n + 1);
        while beyond - passing > 1 {
            let middle = (passing + beyond) / 2;
            if passes(middle) {
                passing = middle;
            } else {
                beyond = middle;
            }
        }
        passing
    };
    thresholds.into_iter().map(largest).min().unwrap() as u16
}

/// The z of each region by halving; regions with the same peptides have the same.
fn zs_by_halving(family: &Family, p_values: &[u32], deviation_squared: u32) -> Vec<u16> {
    let mut known = BTreeMap::new();
    pieces(family)
        .iter()
        .map(|r| {
            let region = &p_values[r.low - 1..r.high];
            *known
                .entry((r.low, r.high))
                .or_insert_with(|| z_by_halving(deviation_squared, region))
        })
        .collect()
}

/// Regions of up to 300 peptides. Of those with several peptides many get 0, many all of them, and many a number between.
#[test]
fn random_families() {
    let seen = RefCell::new([0; 4]);
    let test = |random: &mut Random, m: usize| {
        let family = random_family(random, m);
        let file = file_of(&family);
        let p_values = some_p_values(random, m);
        let deviation_squared = some_constant(random);
        let room = file.len() + random.below(3) * random.below(100);
        assert_eq!(
            compare::bounds_from_p(&file, &p_values, deviation_squared, room),
            0
        );
        let found = zs(&family, &p_values, deviation_squared);
        assert_eq!(found, zs_by_halving(&family, &p_values, deviation_squared));
        for (z, r) in found.iter().zip(pieces(&family)) {
            let kind = match (r.high + 1 - r.low, *z as usize) {
                (0, 0) => 0,
                (_, 0) => 1,
                (n, z) if z == n => 2,
                _ => 3,
            };
            seen.borrow_mut()[kind] += 1;
        }
    };
    cases(100, 3000, |random| {
        let m = random.between(1, 60);
        test(random, m);
    });
    cases(101, 200, |random| {
        let m = random.between(61, 300);
        test(random, m);
    });
    for times in *seen.borrow() {
        assert!(times >= 3_000, "{seen:?}");
    }
}

/// The p-values with those of each leaf in another order.
fn shuffled(random: &mut Random, family: &Family, p_values: &[u32]) -> Vec<u32> {
    let mut rest = p_values;
    let mut shuffled = Vec::new();
    for length in &family.lengths {
        let (leaf, behind) = rest.split_at(*length as usize);
        let order = random.order(leaf.len());
        shuffled.extend(order.iter().map(|i| leaf[*i as usize - 1]));
        rest = behind;
    }
    shuffled
}

/// Of two calls what the one says of the other: which peptide of a leaf has which p-value does not matter, nor which regions stand
/// beside a region; a larger p-value or a larger constant lowers no z.
#[test]
fn calls_that_tell_of_each_other() {
    cases(102, 1000, |random| {
        let m = random.between(1, 120);
        let family = random_family(random, m);
        let p_values = some_p_values(random, m);
        let deviation_squared = some_constant(random);
        let found = zs(&family, &p_values, deviation_squared);
        let other = shuffled(random, &family, &p_values);
        assert_eq!(zs(&family, &other, deviation_squared), found);
        for (z_of_all, r) in found.iter().zip(pieces(&family)) {
            if r.low <= r.high {
                let alone = z(&p_values[r.low - 1..r.high], deviation_squared);
                assert_eq!(*z_of_all, alone);
            }
        }
        let raised: Vec<u32> = p_values
            .iter()
            .map(|p| random.between(*p as usize, MILLION as usize) as u32)
            .collect();
        let larger = random.between(deviation_squared as usize, MOST as usize) as u32;
        for more in [
            zs(&family, &raised, deviation_squared),
            zs(&family, &p_values, larger),
        ] {
            assert!(found.iter().zip(&more).all(|(z, more)| z <= more));
        }
    });
}

#[test]
fn the_given_z_are_not_used() {
    cases(103, 500, |random| {
        let m = random.between(1, 80);
        let family = random_family(random, m);
        let p_values = some_p_values(random, m);
        let deviation_squared = some_constant(random);
        let written = from_p(&file_of(&family), &p_values, deviation_squared);
        for most in [0, 5, 65_535] {
            let other = with_zs(&family, |_| random.between(0, most) as u16);
            assert_eq!(
                from_p(&file_of(&other), &p_values, deviation_squared),
                written
            );
        }
        // those that it wrote are given z as well
        assert_eq!(from_p(&written, &p_values, deviation_squared), written);
    });
}

/// The source asks at every threshold from 0 to under 1. Between two p-values as many are over it as at the first of them, and the gap
/// is smaller, so that nothing more is asked there.
#[test]
fn every_threshold() {
    cases(112, 20, |random| {
        let n = random.between(1, 12);
        let p_values = some_p_values(random, n);
        let deviation_squared = some_constant(random) % 3_000_000;
        let passes = |v: &u64| {
            (0..MILLION).all(|t| {
                let over = p_values.iter().filter(|p| **p > t).count() as u64;
                let excess = (v * (MILLION - t) as u64).saturating_sub(MILLION as u64 * over);
                excess * excess <= deviation_squared as u64 * v * MILLION as u64
            })
        };
        let largest = (0..=n as u64).rev().find(passes).unwrap();
        assert_eq!(z(&p_values, deviation_squared) as u64, largest);
    });
}

// The most peptides.

fn largest_families() -> Vec<Family> {
    let random = &mut Random::new(104);
    vec![
        family(&[4096], &[(1, 1, 9)]),
        chain_over_one_leaf(64, 9),
        chain(4096, 64, 9),
        binary_tree(random, 512, 8, Bounds::Mixed),
        binary_tree(random, 4096, 1, Bounds::Mixed),
        deepest_tree(random, Bounds::Mixed),
    ]
}

fn ramp() -> Vec<u32> {
    (0..4096).map(|i| 244 * i).collect()
}

#[test]
fn the_largest_families() {
    let random = &mut Random::new(105);
    let any = random.p_values(4096, 0, 1);
    let ties = any.iter().map(|p| p / 100_000 * 100_000).collect();
    let lists = [
        ramp(),
        ramp().into_iter().rev().collect(),
        ramp().into_iter().map(|p| p / 4).collect(),
        random.p_values(4096, 1, 2),
        ties,
        any,
    ];
    for family in largest_families() {
        for p_values in &lists {
            for deviation_squared in [0, 1, DEVIATION_SQUARED, MOST] {
                assert_eq!(
                    zs(&family, p_values, deviation_squared),
                    zs_by_halving(&family, p_values, deviation_squared)
                );
            }
        }
    }
}

/// The same for one region, by the definition's words.
#[test]
fn the_largest_region() {
    let random = &mut Random::new(106);
    for p_values in [
        ramp(),
        ramp().into_iter().rev().collect(),
        random.p_values(4096, 1, 2),
    ] {
        for deviation_squared in [0, DEVIATION_SQUARED, MOST] {
            assert_eq!(
                z(&p_values, deviation_squared),
                z_of(deviation_squared, &p_values)
            );
        }
    }
}

/// With all p-values equal v passes if v times the square of the gap is at most the constant times 1,000,000. At 0 the square for v =
/// 4,096 is that of 4,096,000,000, which takes all 64 bits.
#[test]
fn one_p_value_for_all() {
    for family in largest_families() {
        let sizes: Vec<u16> = pieces(&family)
            .iter()
            .map(|r| (r.high + 1 - r.low) as u16)
            .collect();
        let holds = |p: u32, deviation_squared: u32, most: u16| {
            let expected: Vec<u16> = sizes.iter().map(|n| *n.min(&most)).collect();
            assert_eq!(zs(&family, &[p; 4096], deviation_squared), expected);
        };
        holds(0, 0, 0);
        holds(0, 999_999, 0);
        holds(0, DEVIATION_SQUARED, 1);
        holds(0, MOST - 1, 99);
        holds(0, MOST, 100);
        holds(999_999, 0, 0);
        holds(999_999, 1, 4096);
        holds(999_999, MOST, 4096);
        holds(999_000, 4_095, 4_095);
        holds(999_000, 4_096, 4_096);
        holds(MILLION, 0, 4096);
        holds(MILLION, MOST, 4096);
    }
}

// Causes.

#[test]
fn cause_16_output() {
    let files = [
        file(&[1], &[]),
        file_of(&eight_peptides()),
        file_of(&binary_tree(&mut Random::new(107), 4096, 1, Bounds::Small)),
    ];
    for file in files {
        let m = check(&file).unwrap().peptides as usize;
        let told = |room| compare::bounds_from_p(&file, &vec![40_000; m], DEVIATION_SQUARED, room);
        assert_eq!(told(file.len()), 0);
        assert_eq!(told(file.len() - 1), 16);
        assert_eq!(told(0), 16);
        assert_eq!(told(file.len() + 1), 0);
        // longer by a number that is 0 in 16 bits
        assert_eq!(told(file.len() + 65_536), 0);
    }
    assert_eq!(compare::bounds_from_p(&[], &[], 0, 0), 1);
}

#[test]
fn cause_20_p_values() {
    let p_values = vec![40_000; 70_000];
    for m in [1, 2, 8, 4096] {
        let file = file(&[m as u16], &[(1, 1, 1)]);
        let told = |count: usize| {
            compare::bounds_from_p(&file, &p_values[..count], DEVIATION_SQUARED, file.len())
        };
        assert_eq!(told(m), 0);
        assert_eq!(told(m - 1), 20);
        assert_eq!(told(m + 1), 20);
        assert_eq!(told(0), 20);
        // m in 16 bits only
        assert_eq!(told(65_536 + m), 20);
    }
    // as many as there are leaves, or regions
    let eight = file_of(&eight_peptides());
    for count in [4, 5] {
        let number =
            compare::bounds_from_p(&eight, &p_values[..count], DEVIATION_SQUARED, eight.len());
        assert_eq!(number, 20);
    }
}

/// Each place of up to 20 p-values and some of 4,096. Most are accepted in 16 or 20 bits.
#[test]
fn cause_21_p_value() {
    let small = (1..=20).flat_map(|m| (0..m).map(move |at| (m, at)));
    let large = [0, 1, 2047, 2048, 4094, 4095].map(|at| (4096, at));
    for (m, at) in small.chain(large) {
        let file = file(&[m as u16], &[(1, 1, 1)]);
        let told = |p: u32| {
            let mut p_values = vec![40_000; m];
            p_values[at] = p;
            compare::bounds_from_p(&file, &p_values, DEVIATION_SQUARED, file.len())
        };
        for p in [0, 999_999, 1_000_000] {
            assert_eq!(told(p), 0);
        }
        for p in [1_000_001, 1 << 20, 1 << 24, 1 << 31, u32::MAX] {
            assert_eq!(told(p), 21);
        }
    }
}

#[test]
fn cause_22_constant() {
    let eight = file_of(&eight_peptides());
    let told = |c: u32| compare::bounds_from_p(&eight, &EIGHT_P_VALUES, c, eight.len());
    for c in [0, 1, MOST - 1, MOST] {
        assert_eq!(told(c), 0);
    }
    for c in [MOST + 1, 1 << 27, 1 << 31, u32::MAX] {
        assert_eq!(told(c), 22);
    }
}

/// What is wrong with a call, beside the file.
#[derive(Clone, Copy, Debug, PartialEq)]
enum Fault {
    ShortOutput,
    ShortP,
    LongP,
    BadP,
    BadConstant,
}

use Fault::*;

const FAULTS: [Fault; 5] = [ShortOutput, ShortP, LongP, BadP, BadConstant];

impl Fault {
    fn number(self) -> u16 {
        match self {
            ShortOutput => 16,
            ShortP | LongP => 20,
            BadP => 21,
            BadConstant => 22,
        }
    }
}

/// Every set of faults that one call can have.
fn fault_sets() -> Vec<Vec<Fault>> {
    sets_of(&FAULTS)
        .into_iter()
        .filter(|set: &Vec<Fault>| !(set.contains(&ShortP) && set.contains(&LongP)))
        .collect()
}

/// Causes are tried in the order of their numbers, so the smallest one is expected. The bad p-value is the first, the middle or the
/// last one: 0, 1 or 2 halves of the way.
fn with_faults(number: u16, m: usize, file: &[u8], faults: &[Fault], halves: usize, bad: u32) {
    let has = |fault| faults.contains(&fault);
    let mut p_values = vec![40_000; m + has(LongP) as usize - has(ShortP) as usize];
    if let (true, Some(last)) = (has(BadP), p_values.len().checked_sub(1)) {
        p_values[last * halves / 2] = bad;
    }
    let deviation_squared = if has(BadConstant) { MOST + 1 } else { MOST };
    let room = file.len() - has(ShortOutput) as usize;
    let later = faults.iter().map(|fault| fault.number()).min().unwrap_or(0);
    let expected = if number != 0 { number } else { later };
    let found = compare::bounds_from_p(file, &p_values, deviation_squared, room);
    assert_eq!(found, expected, "a file with {number}, {faults:?}");
}

#[test]
fn the_first_of_several_causes() {
    let sets = fault_sets();
    // three places for the length of the p-values
    assert_eq!(sets.len(), 3 * 8);
    for (number, m, file) in one_for_each_cause() {
        assert_eq!(compare::check(&file), number);
        for (halves, bad) in [(0, MILLION + 1), (1, u32::MAX), (2, 1 << 20)] {
            for faults in &sets {
                with_faults(number, m, &file, faults, halves, bad);
            }
        }
    }
}

/// Faults of any kind, often several, at any place.
#[test]
fn damaged_calls() {
    let seen = RefCell::new(BTreeMap::<u16, usize>::new());
    cases(108, 20_000, |random| {
        let m = random.between(1, 30);
        let file = file_of(&random_family(random, m));
        let mut p_values = some_p_values(random, m);
        let mut deviation_squared = some_constant(random);
        let mut room = file.len() + random.below(2);
        for _ in 0..random.below(4) {
            let large = [MILLION, MILLION + 1, 1 << 20, u32::MAX][random.below(4)];
            match random.below(5) {
                0 => drop(p_values.pop()),
                1 => p_values.push(large),
                2 if !p_values.is_empty() => {
                    let at = random.below(p_values.len());
                    p_values[at] = large;
                }
                3 => deviation_squared = [MOST, MOST + 1, u32::MAX][random.below(3)],
                _ => room -= random.below(2),
            }
        }
        let number = compare::bounds_from_p(&file, &p_values, deviation_squared, room);
        *seen.borrow_mut().entry(number).or_default() += 1;
    });
    for number in [0, 16, 20, 21, 22] {
        let times = seen.borrow().get(&number).copied().unwrap_or(0);
        assert!(times >= 200, "number {number} was seen {times} times");
    }
}

// What is written.

/// Only as many bytes of an output are written as the file has.
#[test]
fn a_longer_output() {
    for family in [eight_peptides(), chain(4096, 64, 9)] {
        let file = file_of(&family);
        let p_values = vec![0; family.peptides as usize];
        for more in [1, 2, 8, 40, 5000] {
            let mut out = vec![77; file.len() + more];
            assert_eq!(guarded::bounds_from_p(&file, &p_values, 0, &mut out), 0);
            assert_eq!(out[..file.len()], file_of(&with_zs(&family, |_| 0)));
            assert_eq!(out[file.len()..], vec![77; more]);
        }
    }
}

#[test]
fn no_region() {
    for lengths in [&[1][..], &[3, 0, 5], &[0, 1, 0], &[4096]] {
        let plain = file(lengths, &[]);
        let m = lengths.iter().sum::<u16>() as usize;
        assert_eq!(from_p(&plain, &vec![0; m], DEVIATION_SQUARED), plain);
    }
}

#[test]
fn regions_without_a_peptide() {
    let strewn = family(
        &[0, 2, 0, 1, 0],
        &[(1, 5, 7), (1, 1, 7), (2, 3, 7), (3, 3, 7), (5, 5, 7)],
    );
    assert_eq!(zs(&strewn, &[MILLION; 3], MOST), [3, 0, 2, 0, 0]);
    assert_eq!(zs(&strewn, &[MILLION, 0, 0], 0), [1, 0, 1, 0, 0]);
}

/// What an output holds before does not matter, also what another call or the same one has left there.
#[test]
fn an_output_used_again() {
    cases(109, 300, |random| {
        let mut out = vec![0xFF; 2000];
        for _ in 0..4 {
            let m = random.between(1, 60);
            let file = file_of(&random_family(random, m));
            let p_values = some_p_values(random, m);
            let deviation_squared = some_constant(random);
            let expected = from_p(&file, &p_values, deviation_squared);
            for _ in 0..2 {
                let rest = out[file.len()..].to_vec();
                let number = guarded::bounds_from_p(&file, &p_values, deviation_squared, &mut out);
                assert_eq!(number, 0);
                assert_eq!(out[..file.len()], expected);
                assert_eq!(out[file.len()..], rest);
            }
        }
    });
}

// The other calls on what was written, which they take as any family.

/// Peptides by rising p-value, as they are ranked.
fn ranked(p_values: &[u32]) -> Vec<u16> {
    let mut path: Vec<u16> = (1..=p_values.len() as u16).collect();
    path.sort_by_key(|peptide| p_values[*peptide as usize - 1]);
    path
}

fn every_call_on(random: &mut Random, family: &Family, p_values: &[u32], deviation_squared: u32) {
    let m = family.peptides as usize;
    let written = from_p(&file_of(family), p_values, deviation_squared);
    let expected = with_z_from(family, p_values, deviation_squared);
    assert_eq!(written, file_of(&expected));
    assert_eq!(compare::check(&written), 0);
    for path in [ranked(p_values), random.order(m)] {
        let curve = Forest::of(&expected).curve(m, &path);
        assert_eq!(curve_of(&written, &path).0, curve);
        assert_eq!(compare::cut(&written, &path, 1, 10), 0);
    }
    let selection = random.selection(m, 1, 2);
    assert_eq!(
        compare::bound(&written, &selection, family.regions.len()),
        0
    );
    assert_eq!(compare::reduce(&written, written.len()), 0);
    assert_eq!(compare::same(&written, &written), (0, 1));
    assert_eq!(compare::same(&written, &reduced(&written)), (0, 1));
}

#[test]
fn the_calls_on_what_was_written() {
    cases(110, 600, |random| {
        let m = random.between(1, 60);
        let family = random_family(random, m);
        let p_values = some_p_values(random, m);
        let deviation_squared = some_constant(random);
        every_call_on(random, &family, &p_values, deviation_squared);
    });
    cases(111, 2, |random| {
        let family = binary_tree(random, 512, 8, Bounds::Mixed);
        let p_values = random.p_values(4096, 1, 2);
        every_call_on(random, &family, &p_values, DEVIATION_SQUARED);
    });
}

/// The regions have 1 to 5, 1 and 2, 3 to 5, 6 to 8, and 7 and 8; with the z 4, 2, 3, 1 and 1 the first three say what their sizes
/// and the 4 around them say, and of 6 to 8 one may be false.
#[test]
fn the_curve_of_the_worked_example() {
    let written = from_p(
        &file_of(&eight_peptides()),
        &EIGHT_P_VALUES,
        DEVIATION_SQUARED,
    );
    let path = ranked(&EIGHT_P_VALUES);
    assert_eq!(path, [8, 7, 3, 4, 1, 6, 2, 5]);
    assert_eq!(
        curve_of(&written, &path),
        (
            vec![0, 1, 1, 2, 3, 4, 4, 5, 5],
            vec![1, 0, 1, 1, 1, 0, 1, 0]
        )
    );
    assert_eq!(reduced(&written), file(&[5, 3], &[(1, 1, 4), (2, 2, 1)]));
}
