//! Families by level, both ways: the worked example, every order of the regions and every way to count them on few leaves, each
//! cause at its edge, the first of several, levels that are not so, regions listed twice, files changed at every byte, and the
//! largest and most hostile files. What is expected is written beside each input or known from how the input is made; everything
//! else is held to the reference.

use phf_tests::compare;
use phf_tests::families::{
    all_but_one_empty, all_families, all_ranges, binary_tree, binary_tree_on, by_level, chain,
    chain_over_leaves, damage, damage_levels, deepest_tree, eight_peptides, family, file,
    level_file, listed, one_for_each_cause, random_family, sets_of, towers, Bounds, DAMAGES,
    DEVIATION_SQUARED, EIGHT_P_VALUES, LEVEL_DAMAGES,
};
use phf_tests::fast;
use phf_tests::guarded::{self, by_leaf, curve_of, reduced};
use phf_tests::phf::{Converted, Part};
use phf_tests::random::{cases, Random};
use phf_tests::reference::{file_of, level_file_of, ByLevel, Family, Region};
use std::cell::RefCell;
use std::collections::BTreeMap;

fn done(length: usize) -> Converted {
    Converted {
        number: 0,
        length: length as u16,
    }
}

fn declined(number: u16) -> Converted {
    Converted { number, length: 0 }
}

fn with_number(file: &[u8], at: usize, number: u16) -> Vec<u8> {
    let mut changed = file.to_vec();
    changed[at..at + 2].copy_from_slice(&number.to_le_bytes());
    changed
}

/// What is told of a file by level where the output is just long enough; the same algorithm in Rust tells and writes the same.
fn told(file: &[u8]) -> u16 {
    told_in(file, file.len().saturating_sub(128))
}

fn told_in(file: &[u8], room: usize) -> u16 {
    let (mut out, mut twin) = (vec![0x77; room], vec![0x77; room]);
    let answer = guarded::from_levels(file, &mut out);
    assert_eq!(answer, fast::from_levels(file, &mut twin));
    assert_eq!(out, twin);
    assert_eq!(compare::from_levels(file, room), answer.number);
    answer.number
}

/// The same of regions that are listed on leaves with a peptide each.
fn told_of(n: usize, regions: &[(u16, u16, u16)], counts: &[u16]) -> u16 {
    told(&level_file_of(&listed(&vec![1; n], regions, counts)))
}

/// What is told of a family file where the output is just long enough.
fn told_to(file: &[u8]) -> u16 {
    told_to_in(file, file.len() + 128)
}

fn told_to_in(file: &[u8], room: usize) -> u16 {
    let (mut out, mut twin) = (vec![0x77; room], vec![0x77; room]);
    let answer = guarded::to_levels(file, &mut out);
    assert_eq!(answer, fast::to_levels(file, &mut twin));
    assert_eq!(out, twin);
    assert_eq!(compare::to_levels(file, room), answer.number);
    answer.number
}

/// There and back, and back and there. The file by level is made here in another way than by looking for the regions around each.
fn round_trips(family: &Family) {
    let (plain, leveled) = (file_of(family), level_file(family));
    assert_eq!(leveled.len(), plain.len() + 128);
    assert!(guarded::by_level(&plain) == leveled);
    assert!(by_leaf(&leveled) == plain);
}

// By hand.

/// (1,2) and (3,4) have no region around them: level 1. Around (1,1) and (2,2) is (1,2), around (4,4) is (3,4): level 2. By first leaf
/// these are (1,2), (3,4); (1,1), (2,2), (4,4). The leaf lengths begin at 144 = 0x90, the regions at 144 + 2 * 4 = 152 = 0x98, and the
/// file ends at 152 + 6 * 5 = 182 = 0xB6.
#[rustfmt::skip]
const EIGHT_BY_LEVEL: [u8; 182] = [
    0x50, 0x48, 0x46, 0x4C, 8, 0, 4, 0, 5, 0, 0x90, 0, 0x98, 0, 0xB6, 0,
    2, 0, 3, 0, 0, 0, 0, 0, 0, 0, 0, 0, 0, 0, 0, 0,
    0, 0, 0, 0, 0, 0, 0, 0, 0, 0, 0, 0, 0, 0, 0, 0,
    0, 0, 0, 0, 0, 0, 0, 0, 0, 0, 0, 0, 0, 0, 0, 0,
    0, 0, 0, 0, 0, 0, 0, 0, 0, 0, 0, 0, 0, 0, 0, 0,
    0, 0, 0, 0, 0, 0, 0, 0, 0, 0, 0, 0, 0, 0, 0, 0,
    0, 0, 0, 0, 0, 0, 0, 0, 0, 0, 0, 0, 0, 0, 0, 0,
    0, 0, 0, 0, 0, 0, 0, 0, 0, 0, 0, 0, 0, 0, 0, 0,
    0, 0, 0, 0, 0, 0, 0, 0, 0, 0, 0, 0, 0, 0, 0, 0,
    2, 0, 3, 0, 1, 0, 2, 0,
    1, 0, 2, 0, 3, 0,
    3, 0, 4, 0, 3, 0,
    1, 0, 1, 0, 2, 0,
    2, 0, 2, 0, 1, 0,
    4, 0, 4, 0, 0, 0,
];

#[test]
fn the_worked_example() {
    let eight = file_of(&eight_peptides());
    let mut out = [0x77; 185];
    assert_eq!(guarded::to_levels(&eight, &mut out), done(182));
    assert_eq!(out[..182], EIGHT_BY_LEVEL);
    assert_eq!(out[182..], [0x77; 3]);
    let mut back = [0x77; 57];
    assert_eq!(
        guarded::from_levels(&EIGHT_BY_LEVEL, &mut back),
        done(eight.len())
    );
    assert_eq!(back[..54], eight);
    assert_eq!(back[54..], [0x77; 3]);
    assert_eq!(told_to(&eight), 0);
    assert_eq!(told(&EIGHT_BY_LEVEL), 0);
    round_trips(&eight_peptides());
}

/// (1,6) is around all others. Around (1,1) and (2,3) is (1,3) too, and around (3,3) also (2,3). Every z has both its bytes.
#[test]
fn four_levels_by_hand() {
    let lengths = [3, 0, 1, 2, 0, 5];
    let plain = [
        (1, 6, 0x0109),
        (1, 3, 0x0208),
        (1, 1, 0x0307),
        (2, 3, 0x0406),
        (3, 3, 0x0505),
        (4, 5, 0x0604),
        (6, 6, 0xFFFF),
    ];
    let leveled = [
        (1, 6, 0x0109),
        (1, 3, 0x0208),
        (4, 5, 0x0604),
        (6, 6, 0xFFFF),
        (1, 1, 0x0307),
        (2, 3, 0x0406),
        (3, 3, 0x0505),
    ];
    let plain = file(&lengths, &plain);
    let leveled = level_file_of(&listed(&lengths, &leveled, &[1, 3, 2, 1]));
    assert_eq!(guarded::by_level(&plain), leveled);
    assert_eq!(by_leaf(&leveled), plain);
}

/// After the way there and back every call speaks of the same family: the values are E1, E3, E4 and E5 of the scope document.
#[test]
fn the_family_that_comes_back() {
    let eight = file_of(&eight_peptides());
    let back = by_leaf(&guarded::by_level(&eight));
    assert_eq!(guarded::check(&back), guarded::check(&eight));
    assert_eq!(guarded::regions(&back), guarded::regions(&eight));
    let path = [7, 3, 1, 4, 6, 2, 5, 8];
    assert_eq!(
        curve_of(&back, &path),
        (
            vec![0, 0, 1, 2, 2, 3, 4, 4, 4],
            vec![0, 1, 1, 0, 1, 1, 0, 0]
        )
    );
    assert_eq!(guarded::cut(&back, &path, 1, 2).cut, 8);
    assert_eq!(guarded::cut(&back, &path, 2, 5).cut, 1);
    let e3 = file(&[2, 3, 1, 2], &[(2, 2, 1), (4, 4, 0)]);
    assert_eq!(reduced(&back), e3);
    assert_eq!(compare::same(&back, &eight), (0, 1));
    assert_eq!(compare::same(&e3, &back), (0, 1));
    cases(160, 300, |random| {
        let m = random.between(1, 60);
        let plain = file_of(&random_family(random, m));
        let back = by_leaf(&guarded::by_level(&plain));
        assert_eq!(guarded::check(&back), guarded::check(&plain));
        assert_eq!(compare::same(&back, &plain), (0, 1));
        assert_eq!(reduced(&back), reduced(&plain));
        let path = random.order(m);
        assert_eq!(curve_of(&back, &path), curve_of(&plain, &path));
    });
}

#[test]
fn no_region_and_one() {
    for n in [1, 2, 3, 255, 256, 4095, 4096] {
        let lengths = all_but_one_empty(n, n, 7);
        round_trips(&family(&lengths, &[]));
        let none = |counts: &[u16]| level_file_of(&listed(&lengths, &[], counts));
        assert_eq!(told(&none(&[])), 0);
        for counts in [&[1][..], &[0, 1], &[65535], &[65535, 1], &[32768, 32768]] {
            assert_eq!(told(&none(counts)), 26);
        }
        for level in 1..=64 {
            let mut counts = [0; 64];
            counts[level - 1] = 1;
            let whole = (1, n as u16, 65535);
            let one = level_file_of(&listed(&lengths, &[whole], &counts));
            assert_eq!(told(&one), if level == 1 { 0 } else { 27 });
        }
        round_trips(&family(&lengths, &[(1, n as u16, 0)]));
        round_trips(&family(&lengths, &[(n as u16, n as u16, 256)]));
    }
    // 144 + 2 bytes
    let smallest = level_file(&family(&[1], &[]));
    assert_eq!(smallest.len(), 146);
    assert_eq!(by_leaf(&smallest), file(&[1], &[]));
}

#[test]
fn the_largest_sizes() {
    let random = &mut Random::new(161);
    let largest = binary_tree(random, 4096, 1, Bounds::Mixed);
    assert_eq!(file_of(&largest).len(), 57_354);
    assert_eq!(level_file(&largest).len(), 57_482);
    // level h of the tree has half of the leaves' ranges of level h + 1
    let counts = by_level(&largest).counts;
    assert_eq!(
        counts[..13],
        [1, 2, 4, 8, 16, 32, 64, 128, 256, 512, 1024, 2048, 4096]
    );
    let deepest = deepest_tree(random, Bounds::Mixed);
    assert_eq!(deepest.regions.len(), 8191);
    let one_peptide = all_but_one_empty(4096, 2000, 1);
    let emptiest = binary_tree_on(random, one_peptide.clone(), Bounds::Mixed);
    for family in [&largest, &deepest, &emptiest] {
        assert_eq!(told_to_in(&file_of(family), 57_500), 0);
        assert_eq!(told(&level_file(family)), 0);
        round_trips(family);
    }
    for family in [
        chain(4096, 64, 65535),
        chain_over_leaves(4096, 64, 1),
        towers(random, 4096, 64, Bounds::Mixed),
        family(&one_peptide, &[]),
        family(&one_peptide, &[(1, 4096, 9), (2000, 2000, 1)]),
    ] {
        round_trips(&family);
    }
}

// Every small file.

/// All orders of some things.
fn orders<T: Copy>(things: &[T]) -> Vec<Vec<T>> {
    if things.is_empty() {
        return vec![Vec::new()];
    }
    (0..things.len())
        .flat_map(|i| {
            let rest = [&things[..i], &things[i + 1..]].concat();
            let mut found = orders(&rest);
            for order in &mut found {
                order.insert(0, things[i]);
            }
            found
        })
        .collect()
}

/// All ways to write a number as a sum of so many.
fn sums(total: u16, parts: usize) -> Vec<Vec<u16>> {
    if parts == 1 {
        return vec![vec![total]];
    }
    (0..=total)
        .flat_map(|first| {
            let mut found = sums(total - first, parts - 1);
            for sum in &mut found {
                sum.insert(0, first);
            }
            found
        })
        .collect()
}

/// Counts of four levels that add to the number of regions, or to one less or one more.
fn counts_about(k: usize) -> Vec<Vec<u16>> {
    (k.saturating_sub(1)..=k + 1)
        .flat_map(|total| sums(total as u16, 4))
        .collect()
}

/// Of all orders and all counts just one is that of a family.
fn only_one_is_accepted(n: usize, ranges: &[(usize, usize)]) {
    // each z tells its region
    let regions: Vec<(u16, u16, u16)> = ranges
        .iter()
        .map(|(first, last)| (*first as u16, *last as u16, (1000 * first + last) as u16))
        .collect();
    let lengths = vec![2; n];
    let plain = file(&lengths, &regions);
    let right = by_level(&family(&lengths, &regions));
    let counts = counts_about(ranges.len());
    let mut accepted = 0;
    for order in orders(&regions) {
        for counts in &counts {
            let candidate = listed(&lengths, &order, counts);
            let given = level_file_of(&candidate);
            let mut out = vec![0x77; plain.len()];
            let answer = guarded::from_levels(&given, &mut out);
            if candidate == right {
                assert_eq!(answer, done(plain.len()));
                assert_eq!(out, plain);
                accepted += 1;
            } else if counts.iter().sum::<u16>() as usize != ranges.len() {
                assert_eq!(answer, declined(26));
            } else {
                assert_eq!(answer, declined(27), "{order:?} {counts:?}");
            }
            assert!(answer.number == 0 || out == vec![0x77; plain.len()]);
        }
    }
    assert_eq!(accepted, 1);
}

#[test]
fn every_order_and_count_of_small_families() {
    for n in 1..=4 {
        let most = if n == 4 { 3 } else { 5 };
        for ranges in all_ranges(n) {
            if ranges.len() <= most {
                only_one_is_accepted(n, &ranges);
            }
        }
    }
}

/// Nested or not, with repeats, in any order.
#[test]
fn every_list_of_up_to_four_regions_on_three_leaves() {
    let ranges: Vec<(u16, u16)> = (1..=3)
        .flat_map(|first| (first..=3).map(move |last| (first, last)))
        .collect();
    let mut lists: Vec<Vec<(u16, u16, u16)>> = vec![Vec::new()];
    let mut longest = lists.clone();
    for place in 0..4 {
        longest = longest
            .iter()
            .flat_map(|list| {
                ranges.iter().map(move |(first, last)| {
                    let mut longer = list.clone();
                    longer.push((*first, *last, 7 * place));
                    longer
                })
            })
            .collect();
        lists.extend(longest.clone());
    }
    assert_eq!(lists.len(), 1 + 6 + 36 + 216 + 1296);
    let mut seen = BTreeMap::<u16, usize>::new();
    for list in &lists {
        let k = list.len() as u16;
        for counts in sums(k, 3) {
            *seen.entry(told_of(3, list, &counts)).or_default() += 1;
        }
        *seen.entry(told_of(3, list, &[k + 1])).or_default() += 1;
    }
    let numbers: Vec<u16> = seen.keys().copied().collect();
    assert_eq!(numbers, [0, 9, 26, 27]);
    // one for each family with up to four regions
    let families = all_ranges(3).iter().filter(|r| r.len() <= 4).count();
    assert_eq!(seen[&0], families);
}

#[test]
fn every_family_of_up_to_four_peptides() {
    for m in 1..=4 {
        for family in all_families(m) {
            round_trips(&family);
        }
    }
}

// Marks, and files that are too short.

const OTHER_MARKS: [&[u8; 4]; 12] = [
    b"PHFC",
    b"phfl",
    b"phfb",
    b"PHFl",
    b"PHFb",
    b"PHFK",
    b"PHFM",
    b"PHF\0",
    b"LFHP",
    b"PHLF",
    b"FHPL",
    b"\0\0\0\0",
];

#[test]
fn cause_1_other_marks() {
    let plain = file_of(&eight_peptides());
    let leveled = EIGHT_BY_LEVEL.to_vec();
    for mark in OTHER_MARKS {
        for whole in [&plain, &leveled] {
            let marked = [&mark[..], &whole[4..]].concat();
            assert_eq!(told_in(&marked, 500), 1);
            assert_eq!(told_to_in(&marked, 500), 1);
        }
    }
    // the mark of the other conversion, with the layout of either
    for whole in [&plain, &leveled] {
        let marked = [b"PHFB", &whole[4..]].concat();
        assert_eq!(told_in(&marked, 500), 1);
        let marked = [b"PHFL", &whole[4..]].concat();
        assert_eq!(told_to_in(&marked, 500), 1);
    }
    // the layout of the one with the mark of the other
    assert_eq!(told_in(&[b"PHFL", &plain[4..]].concat(), 500), 5);
    assert_eq!(told_to_in(&[b"PHFB", &leveled[4..]].concat(), 500), 5);
}

#[test]
fn elsewhere_the_mark_gives_1() {
    let random = &mut Random::new(162);
    let largest = level_file(&binary_tree(random, 4096, 1, Bounds::Mixed));
    let smallest = level_file(&family(&[8], &[]));
    for leveled in [EIGHT_BY_LEVEL.to_vec(), smallest, largest] {
        let m = guarded::check(&by_leaf(&leveled)).peptides as usize;
        let plain = by_leaf(&leveled);
        let path: Vec<u16> = (1..=m as u16).collect();
        let p_values = EIGHT_P_VALUES.repeat(m / 8);
        assert_eq!(compare::check(&leveled), 1);
        let nowhere = Part {
            offset: 0,
            length: 0,
        };
        assert_eq!(guarded::regions(&leveled), nowhere);
        assert_eq!(
            compare::bounds_from_p(&leveled, &p_values, DEVIATION_SQUARED, 60_000),
            1
        );
        assert_eq!(compare::bound(&leveled, &vec![1; m], 8191), 1);
        assert_eq!(compare::bounds_list(&leveled, &vec![1; m], 1, 0, 1), 1);
        assert_eq!(compare::curve(&leveled, &path, m + 1, m), 1);
        assert_eq!(compare::cut(&leveled, &path, 1, 2), 1);
        assert_eq!(compare::hybrid(&leveled, &path, &p_values, 1, m + 1), 1);
        assert_eq!(compare::reduce(&leveled, 60_000), 1);
        assert_eq!(compare::same(&leveled, &leveled), (1, 0));
        let small = file_of(&eight_peptides());
        assert_eq!(compare::same(&leveled, &small), (1, 0));
        assert_eq!(compare::same(&small, &leveled), (101, 0));
        assert_eq!(told_to_in(&leveled, 60_000), 1);
        assert_eq!(told_in(&plain, 60_000), 1);
    }
}

/// From 16 bytes on the header is judged, though the level counts are not all there.
#[test]
fn files_that_end_before_the_leaf_lengths() {
    let whole = EIGHT_BY_LEVEL;
    for length in 0..16 {
        assert_eq!(told_in(&whole[..length], 500), 1);
        assert_eq!(told_in(&vec![0; length], 500), 1);
        assert_eq!(told_in(&whole[..length], 0), 1);
    }
    for length in 16..146 {
        let short = &whole[..length];
        assert_eq!(told_in(short, 500), 5);
        assert_eq!(told_in(short, 0), 5);
        assert_eq!(told_in(&with_number(short, 4, 0), 500), 2);
        assert_eq!(told_in(&with_number(short, 4, 4097), 500), 2);
        assert_eq!(told_in(&with_number(short, 6, 0), 500), 3);
        assert_eq!(told_in(&with_number(short, 6, 4097), 500), 3);
        assert_eq!(told_in(&with_number(short, 8, 8), 500), 4);
        // the total is that of the bytes that are there
        let total = with_number(short, 14, length as u16);
        assert_eq!(told_in(&total, 500), 5);
        // and the header that of one leaf without a region
        let smallest = &level_file(&family(&[1], &[]))[..length];
        assert_eq!(told_in(smallest, 500), 5);
        let total = with_number(smallest, 14, length as u16);
        assert_eq!(told_in(&total, 500), 5);
    }
}

#[test]
fn every_truncation_and_extension() {
    let eight = file_of(&eight_peptides());
    for length in 0..EIGHT_BY_LEVEL.len() {
        let expected = if length < 16 { 1 } else { 5 };
        assert_eq!(told_in(&EIGHT_BY_LEVEL[..length], 500), expected);
        if length < eight.len() {
            assert_eq!(told_to_in(&eight[..length], 500), expected);
        }
    }
    for more in [1, 2, 6, 128, 65_536 - 182, 65_536] {
        let longer = [&EIGHT_BY_LEVEL[..], &vec![0; more]].concat();
        assert_eq!(told_in(&longer, 70_000), 5);
        let longer = [&eight[..], &vec![0; more]].concat();
        assert_eq!(told_to_in(&longer, 70_000), 5);
    }
}

#[test]
fn every_change_of_one_byte() {
    let eight = file_of(&eight_peptides());
    let mut seen = BTreeMap::<u16, usize>::new();
    for at in 0..EIGHT_BY_LEVEL.len() {
        for byte in 0..=255 {
            let mut changed = EIGHT_BY_LEVEL;
            changed[at] = byte;
            *seen.entry(told(&changed)).or_default() += 1;
        }
    }
    let numbers: Vec<u16> = seen.keys().copied().collect();
    assert_eq!(numbers, [0, 1, 2, 3, 4, 5, 6, 7, 9, 26, 27]);
    for at in 0..eight.len() {
        for byte in 0..=255 {
            let mut changed = eight.clone();
            changed[at] = byte;
            told_to(&changed);
        }
    }
}

// The causes of a file by level, one by one.

#[test]
fn causes_2_to_6() {
    let one = |m: u16, lengths: &[u16]| {
        let mut one = listed(&[m], &[], &[]);
        one.family.lengths = lengths.to_vec();
        level_file_of(&one)
    };
    assert_eq!(told(&one(1, &[1])), 0);
    assert_eq!(told(&one(4096, &[4096])), 0);
    assert_eq!(told(&one(0, &[0])), 2);
    assert_eq!(told(&one(4097, &[4097])), 2);
    assert_eq!(told(&one(65535, &[65535])), 2);
    assert_eq!(told(&one(1, &all_but_one_empty(4096, 4096, 1))), 0);
    assert_eq!(told(&one(1, &all_but_one_empty(4097, 4097, 1))), 3);
    assert_eq!(told(&with_number(&one(1, &[1]), 6, 0)), 3);
    assert_eq!(told(&with_number(&one(1, &[1]), 6, 65535)), 3);
    // K is 2N - 1 at most, with repeats as well, and before it is known where anything stands
    let leaves = |n: usize, k: usize| told_of(n, &vec![(1, 1, 1); k], &[k as u16]);
    for n in [1, 2, 3, 40, 4096] {
        assert_eq!(leaves(n, 2 * n - 1), if n == 1 { 0 } else { 27 });
        assert_eq!(leaves(n, 2 * n), 4);
    }
    assert_eq!(told(&with_number(&EIGHT_BY_LEVEL, 8, 65535)), 4);
    for (at, number) in [(10, 144), (12, 152), (14, 182)] {
        for other in [number - 128, number - 1, number + 1, number + 256, 0, 65535] {
            assert_eq!(told(&with_number(&EIGHT_BY_LEVEL, at, other)), 5);
        }
    }
    // one region more or less than there is room for
    for k in [0, 4, 6, 7] {
        assert_eq!(told(&with_number(&EIGHT_BY_LEVEL, 8, k)), 5);
    }
    assert_eq!(told(&one(5, &[2, 3])), 0);
    assert_eq!(told(&one(5, &[0, 5])), 0);
    assert_eq!(told(&one(5, &[2, 2])), 6);
    assert_eq!(told(&one(5, &[2, 4])), 6);
    assert_eq!(told(&one(1, &[0; 4096])), 6);
    // sums that are m in 16 bits only
    assert_eq!(told(&one(5, &[65535, 6])), 6);
    let mut wrapped = vec![65535; 4096];
    wrapped[0] = 4095 + 4096;
    assert_eq!(told(&one(4096, &wrapped)), 6);
}

#[test]
fn cause_7_region_leaves() {
    let one = |first: u16, last: u16| told_of(3, &[(first, last, 1)], &[1]);
    for first in 0..=4 {
        for last in 0..=4 {
            let right = first >= 1 && first <= last && last <= 3;
            assert_eq!(one(first, last), if right { 0 } else { 7 });
        }
    }
    assert_eq!(one(1, 65535), 7);
    assert_eq!(one(65535, 65535), 7);
    assert_eq!(told_of(4096, &[(4096, 4096, 1)], &[1]), 0);
    assert_eq!(told_of(4096, &[(4096, 4097, 1)], &[1]), 7);
    assert_eq!(told_of(4096, &[(4097, 4097, 1)], &[1]), 7);
    // wherever it stands, also as a repeat
    for place in 0..4 {
        let mut regions = vec![(1, 3, 1), (1, 2, 1), (1, 1, 1), (3, 3, 1)];
        regions.insert(place, (3, 2, 1));
        assert_eq!(told_of(3, &regions, &[1, 2, 2]), 7);
        regions[4] = (3, 2, 1);
        assert_eq!(told_of(3, &regions, &[9]), 7);
    }
}

/// The order of a family file is not asked for: of two levels each has its own, and no order of regions gives 8.
#[test]
fn cause_8_is_skipped() {
    assert_eq!(told_of(4, &[(3, 4, 1), (1, 1, 1)], &[2]), 27);
    assert_eq!(told_of(4, &[(1, 2, 1), (1, 4, 1)], &[1, 1]), 27);
    assert_eq!(told_of(4, &[(1, 2, 1), (3, 4, 1), (1, 1, 1)], &[2, 1]), 0);
    assert_eq!(told_of(4, &[(1, 4, 1), (2, 3, 1), (3, 3, 1)], &[1; 3]), 0);
    // as a family file the last two would have to change places
    assert_eq!(told_of(4, &[(2, 3, 1), (4, 4, 1), (2, 2, 1)], &[2, 1]), 0);
}

#[test]
fn cause_9_in_any_order() {
    let crossing = [(1, 3, 1), (3, 4, 1)];
    assert_eq!(told_of(4, &crossing, &[2]), 9);
    assert_eq!(told_of(4, &[crossing[1], crossing[0]], &[2]), 9);
    // with others before, between and behind
    let five = [(1, 4, 1), (1, 3, 1), (3, 4, 1), (3, 3, 1), (1, 1, 1)];
    for order in orders(&five) {
        assert_eq!(told_of(4, &order, &[1, 2, 2]), 9);
        // also where the regions that cross stand twice
        let twice = [&order[..], &order[..2]].concat();
        assert_eq!(told_of(4, &twice, &[7]), 9);
    }
    // sharing one leaf, all but one, or an empty one
    assert_eq!(told_of(9, &[(1, 5, 1), (5, 9, 1)], &[2]), 9);
    assert_eq!(told_of(9, &[(1, 8, 1), (2, 9, 1)], &[2]), 9);
    assert_eq!(told_of(9, &[(1, 5, 1), (6, 9, 1)], &[2]), 0);
    let empty = listed(&[1, 0, 1], &[(1, 2, 1), (2, 3, 1)], &[2]);
    assert_eq!(told(&level_file_of(&empty)), 9);
    // before 10, and before what the counts say
    let mut deep = nested(65);
    deep.push((70, 70, 1));
    deep.push((69, 70, 1));
    assert_eq!(told_of(70, &deep, &[67]), 10);
    deep.push((65, 69, 1));
    assert_eq!(told_of(70, &deep, &[68]), 9);
    assert_eq!(told_of(70, &deep, &[69]), 9);
}

/// So many regions, each but the first inside the one before it.
fn nested(depth: u16) -> Vec<(u16, u16, u16)> {
    (0..depth).map(|i| (1, depth - i, i)).collect()
}

/// 64 levels are the most; what the counts say of a 65th is not looked at.
#[test]
fn cause_10_in_any_order() {
    assert_eq!(told_of(65, &nested(64), &[1; 64]), 0);
    let mut counts = [1; 64];
    assert_eq!(told_of(65, &nested(65), &counts), 10);
    counts[63] = 2;
    assert_eq!(told_of(65, &nested(65), &counts), 10);
    assert_eq!(told_of(66, &nested(66), &[66]), 10);
    cases(163, 200, |random| {
        let depth = random.between(64, 70);
        let mut regions = nested(depth as u16);
        // some more inside, beside and twice
        for _ in 0..random.below(20) {
            let leaf = random.between(1, 80) as u16;
            let again = regions[random.below(regions.len())];
            regions.push([(leaf, leaf, 1), again][random.below(2)]);
        }
        let order = random.order(regions.len());
        let shuffled: Vec<(u16, u16, u16)> =
            order.iter().map(|i| regions[*i as usize - 1]).collect();
        let k = shuffled.len() as u16;
        let counts = [[k], [k + 1], [0]][random.below(3)];
        let number = told_of(80, &shuffled, &counts);
        if depth > 64 {
            assert_eq!(number, 10);
        } else {
            assert_eq!(number, if counts[0] == k { 27 } else { 26 });
        }
    });
}

#[test]
fn cause_16_the_output() {
    let eight = file_of(&eight_peptides());
    for (room, number) in [
        (0, 16),
        (54, 16),
        (181, 16),
        (182, 0),
        (183, 0),
        (65_536, 0),
    ] {
        assert_eq!(told_to_in(&eight, room), number);
    }
    for (room, number) in [(0, 16), (53, 16), (54, 0), (55, 0), (182, 0), (65_536, 0)] {
        assert_eq!(told_in(&EIGHT_BY_LEVEL, room), number);
    }
    let largest = binary_tree(&mut Random::new(164), 4096, 1, Bounds::Mixed);
    let mut out = vec![0x77; 57_481];
    assert_eq!(
        guarded::to_levels(&file_of(&largest), &mut out),
        declined(16)
    );
    let leveled = level_file(&largest);
    let room = &mut out[..57_353];
    assert_eq!(guarded::from_levels(&leveled, room), declined(16));
    assert!(out.iter().all(|byte| *byte == 0x77));
    // after 10, before 26 and 27
    let deep = level_file_of(&listed(&[1; 65], &nested(65), &[65]));
    assert_eq!(told_in(&deep, deep.len() - 129), 10);
    let crossing = level_file_of(&listed(&[1; 3], &[(1, 2, 1), (2, 3, 1)], &[2]));
    assert_eq!(told_in(&crossing, 0), 9);
    for counts in [[2, 0], [1, 1], [3, 0], [0, 0]] {
        let wrong = level_file_of(&listed(&[1; 3], &[(1, 1, 1), (1, 1, 1)], &counts));
        let enough = wrong.len() - 128;
        assert_eq!(told_in(&wrong, enough - 1), 16);
        assert_eq!(
            told_in(&wrong, enough),
            if counts[0] + counts[1] == 2 { 27 } else { 26 }
        );
    }
}

#[test]
fn cause_26_counts() {
    let eight = |counts: &[u16]| {
        let right = by_level(&eight_peptides());
        let mut given = [0; 64];
        given[..counts.len()].copy_from_slice(counts);
        let given = ByLevel {
            counts: given,
            ..right
        };
        told(&level_file_of(&given))
    };
    assert_eq!(eight(&[2, 3]), 0);
    for counts in [[2, 2], [2, 4], [1, 3], [3, 3], [0, 0], [0, 5], [5, 0]] {
        let sum: u16 = counts.iter().sum();
        assert_eq!(eight(&counts), if sum == 5 { 27 } else { 26 });
    }
    // each level alone, one too many
    for level in 0..64 {
        let mut counts = [0; 64];
        counts[..2].copy_from_slice(&[2, 3]);
        counts[level] += 1;
        assert_eq!(eight(&counts), 26);
        counts[level] += 65_535 - 6;
        assert_eq!(eight(&counts), 26);
    }
    // the sum is 5 in 16 bits only
    assert_eq!(eight(&[65_535, 6]), 26);
    assert_eq!(eight(&[2, 3, 65_535, 1]), 26);
    assert_eq!(eight(&[2, 3, 0, 32_768, 32_768]), 26);
    assert_eq!(eight(&[2, 3, 16_384, 16_384, 16_384, 16_384]), 26);
    let mut most = [65_535; 64];
    assert_eq!(eight(&most), 26);
    most[63] = 5 + 63;
    let sum: u32 = most.iter().map(|count| *count as u32).sum();
    assert_eq!(sum % 65_536, 5);
    assert_eq!(eight(&most), 26);
    // the two bytes of a count the other way round
    assert_eq!(eight(&[0x0200, 3]), 26);
    assert_eq!(eight(&[0x0200, 0x0300]), 26);
}

/// A region listed in a level that it does not have: one too deep or too shallow, at each level.
#[test]
fn cause_27_other_levels() {
    let regions = nested(64);
    for level in 1..64 {
        let mut counts = [1; 64];
        // two regions in one level, and none in the next or in the one before
        counts[level - 1] = 2;
        counts[level] = 0;
        assert_eq!(told_of(64, &regions, &counts), 27);
        counts[level - 1] = 0;
        counts[level] = 2;
        assert_eq!(told_of(64, &regions, &counts), 27);
        // the innermost of so many, with no other in its level, told to be in the next
        let mut deeper = [0; 64];
        deeper[..level - 1].fill(1);
        deeper[level] = 1;
        assert_eq!(told_of(64, &nested(level as u16), &deeper), 27);
    }
    // any two change places
    for i in 0..64 {
        for j in 0..i {
            let mut swapped = regions.clone();
            swapped.swap(i, j);
            assert_eq!(told_of(64, &swapped, &[1; 64]), 27);
        }
    }
    // the first, the last and a middle region of a level are each told to be elsewhere
    let flat: Vec<(u16, u16, u16)> = (1..=9).map(|leaf| (leaf, leaf, 1)).collect();
    assert_eq!(told_of(9, &flat, &[9]), 0);
    for here in 0..9 {
        assert_eq!(told_of(9, &flat, &[here, 9 - here]), 27);
    }
    let around = [(1, 3, 1), (4, 6, 1), (7, 9, 1)];
    let both = [&around[..], &flat].concat();
    assert_eq!(told_of(9, &both, &[3, 9]), 0);
    assert_eq!(told_of(9, &both, &[4, 8]), 27);
    assert_eq!(told_of(9, &both, &[2, 10]), 27);
    assert_eq!(told_of(9, &both, &[3, 8, 1]), 27);
    assert_eq!(told_of(9, &both, &[0, 3, 9]), 27);
    for i in 0..3 {
        for j in 3..12 {
            let mut swapped = both.clone();
            swapped.swap(i, j);
            assert_eq!(told_of(9, &swapped, &[3, 9]), 27);
        }
    }
}

#[test]
fn cause_27_order_in_a_level() {
    let flat: Vec<(u16, u16, u16)> = (1..=9).map(|leaf| (leaf, leaf, leaf)).collect();
    for i in 0..9 {
        for j in 0..i {
            let mut swapped = flat.clone();
            swapped.swap(i, j);
            assert_eq!(told_of(9, &swapped, &[9]), 27);
        }
    }
    let whole = [&[(1, 9, 1)], &flat[..]].concat();
    assert_eq!(told_of(9, &whole, &[1, 9]), 0);
    let mut falling = whole.clone();
    falling[1..].reverse();
    assert_eq!(told_of(9, &falling, &[1, 9]), 27);
    // a level begins anew: below the last region of the level before, at it, and above it
    for last in 1..=3 {
        let regions = [(1, 1, 1), (2, 4, 1), (1 + last, 1 + last, 1)];
        assert_eq!(told_of(4, &regions, &[2, 1]), 0);
    }
    // where an empty leaf lies between, and where the second is the longer one
    let two = [(3, 4, 1), (1, 1, 1)];
    let lengths = [1, 0, 1, 1];
    assert_eq!(told(&level_file_of(&listed(&lengths, &two, &[2]))), 27);
    let two = [(1, 1, 1), (3, 4, 1)];
    assert_eq!(told(&level_file_of(&listed(&lengths, &two, &[2]))), 0);
}

/// A region with the leaves of an earlier one: it is as if it were not there for 9 and 10, and then gives 27.
#[test]
fn cause_27_regions_listed_twice() {
    // in one level, in two, at any place, with the same z or another
    for z in [5, 6] {
        assert_eq!(told_of(4, &[(1, 2, 5), (1, 2, z)], &[2]), 27);
        assert_eq!(told_of(4, &[(1, 2, 5), (1, 2, z)], &[1, 1]), 27);
        assert_eq!(told_of(4, &[(1, 2, 5), (1, 2, z)], &[1, 0, 1]), 27);
        assert_eq!(told_of(4, &[(1, 2, 5), (3, 4, 1), (1, 2, z)], &[3]), 27);
        assert_eq!(told_of(4, &[(1, 2, 5), (3, 4, 1), (1, 2, z)], &[2, 1]), 27);
        assert_eq!(told_of(4, &[(1, 2, 5), (1, 1, 1), (1, 2, z)], &[1, 2]), 27);
        let between = [(1, 2, 5), (3, 4, 1), (1, 1, 1), (1, 2, z)];
        assert_eq!(told_of(4, &between, &[2, 1, 1]), 27);
    }
    // 66 around one are one around it; with 64 others 65 are nested
    for z in [1, 0] {
        let mut equal: Vec<(u16, u16, u16)> = (0..66).map(|i| (1, 80, i * z)).collect();
        equal.push((3, 3, 1));
        assert_eq!(told_of(80, &equal, &[66, 1]), 27);
        assert_eq!(told_of(80, &equal, &[1; 64]), 26);
        assert_eq!(told_of(80, &equal, &[67]), 27);
        let mut others = nested(62);
        others.extend(&equal);
        let counts = [others.len() as u16];
        assert_eq!(told_of(80, &others, &counts), 27);
        others.push((1, 63, 1));
        assert_eq!(told_of(80, &others, &[others.len() as u16]), 27);
        others.push((1, 64, 1));
        assert_eq!(told_of(80, &others, &[others.len() as u16]), 10);
    }
    // each of 64 nested ones twice, behind itself and in another round
    let chain = nested(64);
    let behind: Vec<(u16, u16, u16)> = chain.iter().flat_map(|r| [*r, *r]).collect();
    assert_eq!(told_of(80, &behind, &[2; 64]), 27);
    let rounds = [&chain[..], &chain].concat();
    assert_eq!(told_of(80, &rounds, &[2; 64]), 27);
    let mut counts = [1; 64];
    counts[63] = 65;
    assert_eq!(told_of(80, &rounds, &counts), 27);
    // a right file with one region once more, at each place of it
    let right = by_level(&eight_peptides());
    for again in 0..5 {
        for place in 0..=5 {
            for level in 0..3 {
                let mut wrong = right.clone();
                let region = wrong.family.regions[again];
                wrong.family.regions.insert(place, region);
                wrong.counts[level] += 1;
                assert_eq!(told(&level_file_of(&wrong)), 27);
                wrong.family.regions[place].z = 77;
                assert_eq!(told(&level_file_of(&wrong)), 27);
            }
        }
    }
}

// The first of several causes.

/// What can be wrong with one call. A fault does not take another one away.
#[derive(Clone, Copy, Debug, PartialEq)]
enum Fault {
    Mark,
    Peptides,
    Leaves,
    Regions,
    Layout,
    Lengths,
    RegionLeaves,
    Crossing,
    Depth,
    ShortOutput,
    Counts,
    Place,
}

const FAULTS: [(Fault, u16); 12] = [
    (Fault::Mark, 1),
    (Fault::Peptides, 2),
    (Fault::Leaves, 3),
    (Fault::Regions, 4),
    (Fault::Layout, 5),
    (Fault::Lengths, 6),
    (Fault::RegionLeaves, 7),
    (Fault::Crossing, 9),
    (Fault::Depth, 10),
    (Fault::ShortOutput, 16),
    (Fault::Counts, 26),
    (Fault::Place, 27),
];

/// How each fault looks.
struct Fashion {
    mark: &'static [u8; 4],
    peptides: u16,
    leaves: u16,
    regions: u16,
    /// What a number of the header is too large by, and where.
    layout: (usize, u16),
    /// The leaf that is too long.
    leaf: usize,
    outside: (u16, u16),
    crossing: (u16, u16),
    /// How many bytes of the output are missing.
    missing: usize,
    /// What a count is off by, and which.
    count: (usize, u16),
    /// Two regions of the chain that change places, or one that is listed again.
    places: (usize, usize),
}

const FASHIONS: [Fashion; 4] = [
    Fashion {
        mark: b"PHFB",
        peptides: 0,
        leaves: 0,
        regions: 140,
        layout: (10, 1),
        leaf: 0,
        outside: (0, 5),
        crossing: (2, 70),
        missing: 1,
        count: (0, 1),
        places: (0, 1),
    },
    Fashion {
        mark: b"PHFC",
        peptides: 4097,
        leaves: 4097,
        regions: 65535,
        layout: (12, 65535),
        leaf: 69,
        outside: (70, 71),
        crossing: (7, 8),
        missing: 2,
        count: (63, 1),
        places: (62, 63),
    },
    Fashion {
        mark: b"PHFl",
        peptides: 65535,
        leaves: 65535,
        regions: 141,
        layout: (14, 6),
        leaf: 33,
        outside: (6, 5),
        crossing: (60, 70),
        missing: 128,
        count: (20, 65535),
        places: (10, 50),
    },
    Fashion {
        mark: b"phfl",
        peptides: 32768,
        leaves: 0x1001,
        regions: 0x8000,
        layout: (10, 65408),
        leaf: 1,
        outside: (65535, 65535),
        crossing: (69, 70),
        missing: 256,
        count: (5, 0x0100),
        places: (3, 3),
    },
];

/// Without a fault 70 leaves with a peptide each and 64 regions over them, each inside the one before: from 70 leaves down to 7.
fn with_faults(faults: &[(Fault, u16)], fashion: &Fashion) {
    let has = |fault: Fault| faults.iter().any(|(one, _)| *one == fault);
    let mut regions: Vec<(u16, u16, u16)> = (0..64).map(|i| (1, 70 - i, i)).collect();
    let mut counts = [1; 64];
    if has(Fault::Place) {
        let (one, other) = fashion.places;
        if one == other {
            regions.push(regions[one]);
            counts[63] += 1;
        } else {
            regions.swap(one, other);
        }
    }
    if has(Fault::Depth) {
        regions.push((1, 6, 1));
        counts[63] += 1;
    }
    for (fault, (first, last)) in [
        (Fault::Crossing, fashion.crossing),
        (Fault::RegionLeaves, fashion.outside),
    ] {
        if has(fault) {
            regions.insert(2, (first, last, 1));
            counts[1] += 1;
        }
    }
    if has(Fault::Counts) {
        let (level, by) = fashion.count;
        counts[level] = by.wrapping_add(counts[level]);
    }
    let mut given = listed(&[1; 70], &regions, &counts);
    if has(Fault::Lengths) {
        given.family.lengths[fashion.leaf] += 1;
    }
    let mut file = level_file_of(&given);
    let enough = file.len() - 128;
    if has(Fault::Layout) {
        let (at, by) = fashion.layout;
        let number = u16::from_le_bytes([file[at], file[at + 1]]);
        file = with_number(&file, at, number.wrapping_add(by));
    }
    for (fault, at, number) in [
        (Fault::Peptides, 4, fashion.peptides),
        (Fault::Leaves, 6, fashion.leaves),
        (Fault::Regions, 8, fashion.regions),
    ] {
        if has(fault) {
            file = with_number(&file, at, number);
        }
    }
    if has(Fault::Mark) {
        file[..4].copy_from_slice(fashion.mark);
    }
    let missing = has(Fault::ShortOutput) as usize * fashion.missing;
    let mut out = vec![0x77; enough - missing];
    let answer = guarded::from_levels(&file, &mut out);
    // causes are tried in the order of their numbers
    match faults.iter().map(|(_, number)| *number).min() {
        None => {
            assert_eq!(answer, done(enough));
            let right = family(&[1; 70], &regions);
            assert_eq!(out, file_of(&right));
        }
        Some(number) => {
            assert_eq!(answer, declined(number), "{faults:?}");
            assert!(out.iter().all(|byte| *byte == 0x77), "{faults:?}");
        }
    }
}

#[test]
fn the_first_of_several_causes() {
    let sets = sets_of(&FAULTS);
    assert_eq!(sets.len(), 4096);
    for fashion in &FASHIONS {
        for faults in &sets {
            with_faults(faults, fashion);
        }
    }
}

/// The other way there are the causes of a family file, and 16.
#[test]
fn the_first_of_several_causes_to_levels() {
    for (number, _, file) in one_for_each_cause() {
        assert_eq!(compare::check(&file), number);
        for room in [0, 1, file.len().saturating_sub(128), file.len()] {
            let mut out = vec![0x77; room];
            let expected = if number == 0 { 16 } else { number };
            assert_eq!(guarded::to_levels(&file, &mut out), declined(expected));
            assert_eq!(out, vec![0x77; room]);
        }
        let enough = file.len() + 128;
        assert_eq!(
            told_to_in(&file, enough - 1),
            if number == 0 { 16 } else { number }
        );
        assert_eq!(told_to_in(&file, enough), number);
        assert_eq!(told_to_in(&file, enough + 1), number);
    }
    // 65 nested, and one that crosses all of them but the first
    let mut both = chain(70, 65, 1);
    assert_eq!(told_to(&file_of(&both)), 10);
    both.regions.push(region(2, 70));
    assert_eq!(told_to(&file_of(&both)), 9);
    // 10 is told though 65 levels have no count
    assert_eq!(told_to(&file_of(&chain(65, 65, 1))), 10);
    assert_eq!(told_to(&file_of(&chain(4096, 4096, 1))), 10);
    assert_eq!(told_to(&file_of(&chain(64, 64, 1))), 0);
}

// Random families.

#[test]
fn random_round_trips() {
    cases(165, 3000, |random| {
        let m = random.between(1, 80);
        let family = random_family(random, m);
        round_trips(&family);
        let (plain, leveled) = (file_of(&family), level_file(&family));
        let more = random.below(3) * random.below(100);
        assert_eq!(told_to_in(&plain, plain.len() + 128 + more), 0);
        assert_eq!(told_to_in(&plain, plain.len() + 127), 16);
        assert_eq!(told_in(&leveled, plain.len() + more), 0);
        assert_eq!(told_in(&leveled, plain.len() - 1), 16);
    });
    cases(166, 60, |random| {
        let m = random.between(81, 4096);
        round_trips(&random_family(random, m));
    });
}

/// A family by level, or one with more levels than there may be, whose last ones are counted with the 64th.
fn some_listed(random: &mut Random) -> ByLevel {
    match random.below(12) {
        0 => {
            let depth = random.between(65, 67) as u16;
            let mut counts = [1; 64];
            counts[63] = depth - 63;
            listed(&[1; 70], &nested(depth), &counts)
        }
        1 => by_level(&chain_over_leaves(70, random.between(62, 64), 3)),
        2 => by_level(&eight_peptides()),
        _ => {
            let m = random.between(1, 40);
            by_level(&random_family(random, m))
        }
    }
}

/// A damage of either kind.
fn damage_somehow(random: &mut Random, file: &mut Vec<u8>) {
    if random.chance(1, 2) {
        let kind = random.below(DAMAGES);
        damage(random, kind, file);
    } else {
        let kind = random.below(LEVEL_DAMAGES);
        damage_levels(random, kind, file);
    }
}

/// None, one or several, at any place. Only the causes of the call are ever told.
#[test]
fn damaged_files() {
    let seen = RefCell::new(BTreeMap::<u16, usize>::new());
    cases(167, 40_000, |random| {
        let mut file = level_file_of(&some_listed(random));
        for _ in 0..random.below(4) {
            damage_somehow(random, &mut file);
        }
        let enough = file.len().saturating_sub(128);
        let room = match random.below(6) {
            0 => enough.saturating_sub(1),
            1 => enough + 1,
            _ => enough,
        };
        *seen.borrow_mut().entry(told_in(&file, room)).or_default() += 1;
    });
    let causes = [0, 1, 2, 3, 4, 5, 6, 7, 9, 10, 16, 26, 27];
    for number in causes {
        let times = seen.borrow().get(&number).copied().unwrap_or(0);
        assert!(times >= 200, "number {number} was seen {times} times");
    }
    assert!(seen.borrow().keys().all(|number| causes.contains(number)));
}

#[test]
fn large_damaged_files() {
    cases(172, 60, |random| {
        let m = random.between(500, 4096);
        let mut file = level_file(&random_family(random, m));
        damage_somehow(random, &mut file);
        told(&file);
    });
}

/// Bytes of any kind behind a good mark, and behind a good header.
#[test]
fn random_bytes() {
    cases(168, 10_000, |random| {
        let mut bytes = b"PHFL".to_vec();
        for _ in 0..random.below(300) {
            let small = random.below(256) * random.below(2) * random.below(2);
            bytes.push(small as u8);
        }
        told_in(&bytes, 300);
        let n = random.between(1, 4);
        let k = random.between(0, 2 * n - 1);
        let mut any = listed(&vec![1; n], &vec![(1, 1, 1); k], &[]);
        for region in &mut any.family.regions {
            let mut leaves = [random.between(1, n), random.between(1, n)];
            if random.chance(9, 10) {
                leaves.sort();
            }
            (region.first, region.last) = (leaves[0] as u16, leaves[1] as u16);
        }
        for _ in 0..k {
            any.counts[random.below(3)] += 1;
        }
        told(&level_file_of(&any));
    });
}

// The most hostile files.

fn region(first: u16, last: u16) -> Region {
    Region { first, last, z: 1 }
}

/// 4,096 leaves with a peptide each and these regions, all of them in level 1.
fn in_one_level(regions: Vec<Region>) -> ByLevel {
    let mut given = listed(&[1; 4096], &[], &[regions.len() as u16]);
    given.family.regions = regions;
    given
}

#[test]
fn hostile_files() {
    let told = |given: &ByLevel| told(&level_file_of(given));
    let equal = in_one_level(vec![region(1, 4096); 8191]);
    assert_eq!(told(&equal), 27);
    assert_eq!(told(&in_one_level(vec![region(4096, 4096); 8191])), 27);
    // every range twice, the second time with another z
    let twice = (0..8190).map(|i| Region {
        first: i / 2 + 1,
        last: i / 2 + 1,
        z: i,
    });
    assert_eq!(told(&in_one_level(twice.collect())), 27);
    let nested = in_one_level((1..=4096).rev().map(|last| region(1, last)).collect());
    assert_eq!(told(&nested), 10);
    let outward = in_one_level((1..=4096).map(|last| region(1, last)).collect());
    assert_eq!(told(&outward), 10);
    let inward = in_one_level((1..=4096).map(|first| region(first, 4096)).collect());
    assert_eq!(told(&inward), 10);
    let crossing = in_one_level((1..=2048).map(|i| region(i, i + 2048)).collect());
    assert_eq!(told(&crossing), 9);
    let backwards = in_one_level((1..=2048).rev().map(|i| region(i, i + 2048)).collect());
    assert_eq!(told(&backwards), 9);
    // neighbours cross, and no others share a leaf
    let linked = in_one_level((1..=4095).map(|i| region(i, i + 1)).collect());
    assert_eq!(told(&linked), 9);
    // the whole tree, of which two of the last regions cross
    let largest = binary_tree(&mut Random::new(169), 4096, 1, Bounds::Mixed);
    let right = by_level(&largest);
    let mut late = right.clone();
    late.family.regions[8190] = region(4095, 4096);
    late.family.regions[4094] = region(4094, 4095);
    assert_eq!(told(&late), 9);
}

/// The largest tree, its levels not as they are told.
#[test]
fn the_largest_tree_with_wrong_levels() {
    let largest = binary_tree(&mut Random::new(170), 4096, 1, Bounds::Mixed);
    let right = by_level(&largest);
    assert_eq!(right.counts[12], 4096);
    let wrong = |change: &dyn Fn(&mut ByLevel)| {
        let mut wrong = right.clone();
        change(&mut wrong);
        let mut out = vec![0x77; 57_354];
        let answer = guarded::from_levels(&level_file_of(&wrong), &mut out);
        assert!(out.iter().all(|byte| *byte == 0x77));
        assert_eq!(answer.length, 0);
        answer.number
    };
    // the last region one level deeper, or the last of the level before
    let deeper = |given: &mut ByLevel| {
        given.counts[12] -= 1;
        given.counts[13] += 1;
    };
    assert_eq!(wrong(&deeper), 27);
    let shallower = |given: &mut ByLevel| {
        given.counts[11] += 1;
        given.counts[12] -= 1;
    };
    assert_eq!(wrong(&shallower), 27);
    assert_eq!(wrong(&|given| given.counts.rotate_right(1)), 27);
    assert_eq!(wrong(&|given| given.counts.reverse()), 27);
    assert_eq!(wrong(&|given| given.counts[12] -= 1), 26);
    assert_eq!(wrong(&|given| given.counts[13] += 1), 26);
    assert_eq!(wrong(&|given| given.counts[13] = 57_345), 26);
    // the last two regions, and the last of a level with the first of the next
    assert_eq!(wrong(&|given| given.family.regions.swap(8189, 8190)), 27);
    assert_eq!(wrong(&|given| given.family.regions.swap(4094, 4095)), 27);
    // as a family file has them
    let as_given = |given: &mut ByLevel| given.family.regions = largest.regions.clone();
    assert_eq!(wrong(&as_given), 27);
    let again = |given: &mut ByLevel| given.family.regions[8190] = given.family.regions[0];
    assert_eq!(wrong(&again), 27);
    let crossing = |given: &mut ByLevel| given.family.regions[8190] = region(2048, 2049);
    assert_eq!(wrong(&crossing), 9);
}

// What is written.

/// What an output holds before does not matter, also what another call has left there.
#[test]
fn outputs_used_again() {
    cases(171, 500, |random| {
        let mut out = vec![0xFF; 3000];
        for _ in 0..4 {
            let m = random.between(1, 60);
            let family = random_family(random, m);
            let (plain, leveled) = (file_of(&family), level_file(&family));
            for to in [true, false] {
                let (given, expected) = if to {
                    (&plain, &leveled)
                } else {
                    (&leveled, &plain)
                };
                let length = expected.len();
                let rest = out[length..].to_vec();
                let answer = if to {
                    guarded::to_levels(given, &mut out)
                } else {
                    guarded::from_levels(given, &mut out)
                };
                assert_eq!(answer, done(length));
                assert_eq!(out[..length], *expected);
                assert_eq!(out[length..], rest);
            }
        }
    });
}
