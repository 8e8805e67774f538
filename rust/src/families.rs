//! Families to test with: random ones, the extreme ones, and files broken at one place.

use crate::random::Random;
use crate::reference::{file_of, level_file_of, ByLevel, Family, Region};

/// n lengths of at least 1 that add to m.
fn lengths(random: &mut Random, m: usize, n: usize) -> Vec<u16> {
    let mut ends: Vec<usize> = random.order(m - 1)[..n - 1]
        .iter()
        .map(|end| *end as usize)
        .collect();
    ends.sort();
    ends.push(m);
    let mut before = 0;
    ends.iter()
        .map(|end| {
            let length = end - before;
            before = *end;
            length as u16
        })
        .collect()
}

/// Puts empty leaves among the others: none, a few or more than there are peptides, each anywhere or all in a row.
fn strew_empty(random: &mut Random, lengths: &mut Vec<u16>, m: usize) {
    let many = match random.below(4) {
        0 | 1 => 0,
        2 => random.between(1, 4),
        _ => random.between(1, m + 8),
    };
    let in_a_row = match random.below(6) {
        0 => Some(0),
        1 => Some(lengths.len()),
        2 => Some(random.between(0, lengths.len())),
        _ => None,
    };
    for _ in 0..many.min(4096 - lengths.len()) {
        let at = in_a_row.unwrap_or_else(|| random.between(0, lengths.len()));
        lengths.insert(at, 0);
    }
}

/// How the z of a region is chosen.
#[derive(Clone, Copy)]
pub enum Bounds {
    /// 0, or up to half of the region, or about its size, or far more
    Mixed,
    /// 0 often
    ManyDead,
    /// from 1 to a few
    Small,
}

fn bound(random: &mut Random, bounds: Bounds, size: usize) -> u16 {
    let z = match bounds {
        Bounds::Mixed => match random.below(10) {
            0 => 0,
            1..=5 => random.below(size / 2 + 2),
            6..=8 => random.between(size.saturating_sub(2), size + 2),
            _ => random.between(0, 65535),
        },
        Bounds::ManyDead => random.below(size + 1) * random.below(3),
        Bounds::Small => random.between(1, 3),
    };
    z.min(65535) as u16
}

/// Nested leaf ranges inside first to last, in file order.
fn nest(
    random: &mut Random,
    first: usize,
    last: usize,
    depth: usize,
    full: bool,
    out: &mut Vec<(usize, usize)>,
) {
    let mut deeper = depth;
    if depth < 64 && (full || random.chance(7, 10)) {
        out.push((first, last));
        deeper += 1;
    }
    if first == last {
        return;
    }
    if !full && random.chance(1, 6) {
        // one range that leaves a little free at one end or at both
        let inner = random.between(first, (first + 2).min(last - 1));
        let inner_last = random.between(inner, last);
        if (inner, inner_last) != (first, last) {
            nest(random, inner, inner_last, deeper, full, out);
        }
        return;
    }
    // two parts, anywhere or in the middle
    let middle = if random.chance(1, 3) {
        random.between(first, last - 1)
    } else {
        (first + last) / 2
    };
    nest(random, first, middle, deeper, full, out);
    nest(random, middle + 1, last, deeper, full, out);
}

fn with_bounds(
    random: &mut Random,
    lengths: Vec<u16>,
    ranges: &[(usize, usize)],
    bounds: Bounds,
) -> Family {
    let mut ends = vec![0usize];
    for length in &lengths {
        ends.push(ends[ends.len() - 1] + *length as usize);
    }
    let regions = ranges
        .iter()
        .map(|(first, last)| Region {
            first: *first as u16,
            last: *last as u16,
            z: bound(random, bounds, ends[*last] - ends[*first - 1]),
        })
        .collect();
    Family {
        peptides: ends[ends.len() - 1] as u16,
        lengths,
        regions,
    }
}

/// A random family with m peptides, often with empty leaves.
pub fn random_family(random: &mut Random, m: usize) -> Family {
    let n = match random.below(4) {
        0 => m,
        1 => random.between(1, m.min(8)),
        _ => random.between(1, m),
    };
    let bounds = match random.below(3) {
        0 => Bounds::ManyDead,
        1 => Bounds::Small,
        _ => Bounds::Mixed,
    };
    let mut lengths = lengths(random, m, n);
    strew_empty(random, &mut lengths, m);
    let mut ranges = Vec::new();
    if !random.chance(1, 20) {
        let full = random.chance(1, 5);
        nest(random, 1, lengths.len(), 0, full, &mut ranges);
    }
    with_bounds(random, lengths, &ranges, bounds)
}

/// The leaf ranges of a binary tree, in file order: a range and its two halves, down to single leaves.
fn halves(first: usize, last: usize, out: &mut Vec<(usize, usize)>) {
    out.push((first, last));
    if first < last {
        let middle = (first + last) / 2;
        halves(first, middle, out);
        halves(middle + 1, last, out);
    }
}

/// The binary tree on n leaves, with a region for each leaf and for each pair of neighbours: 2n - 1 regions.
pub fn binary_tree_on(random: &mut Random, lengths: Vec<u16>, bounds: Bounds) -> Family {
    let mut ranges = Vec::new();
    halves(1, lengths.len(), &mut ranges);
    with_bounds(random, lengths, &ranges, bounds)
}

/// The binary tree on n leaves of one length.
pub fn binary_tree(random: &mut Random, n: usize, length: usize, bounds: Bounds) -> Family {
    binary_tree_on(random, vec![length as u16; n], bounds)
}

/// n leaves, all empty but one, which has m peptides.
pub fn all_but_one_empty(n: usize, leaf: usize, m: u16) -> Vec<u16> {
    let mut lengths = vec![0; n];
    lengths[leaf - 1] = m;
    lengths
}

/// A binary tree as wide and as deep as any: 4,096 leaves, 8,191 regions, 64 of them nested. The first 51 leaves are split
/// off one by one, which leaves 4,045 for 13 more levels.
pub fn deepest_tree(random: &mut Random, bounds: Bounds) -> Family {
    let mut ranges = Vec::new();
    for leaf in 1..=51 {
        ranges.push((leaf, 4096));
        ranges.push((leaf, leaf));
    }
    halves(52, 4096, &mut ranges);
    with_bounds(random, vec![1; 4096], &ranges, bounds)
}

/// Towers of nested regions, `depth` high, side by side on n leaves: each region leaves one leaf free.
pub fn towers(random: &mut Random, n: usize, depth: usize, bounds: Bounds) -> Family {
    let mut ranges = Vec::new();
    let mut first = 1;
    while first + depth - 1 <= n {
        let last = first + depth - 1;
        for inner in first..=last {
            ranges.push((inner, last));
        }
        first = last + 1;
    }
    with_bounds(random, vec![1; n], &ranges, bounds)
}

/// `depth` regions nested in each other, from all of n leaves down.
pub fn chain(n: usize, depth: usize, z: u16) -> Family {
    let regions = (0..depth)
        .map(|i| Region {
            first: 1,
            last: (n - i) as u16,
            z,
        })
        .collect();
    Family {
        peptides: n as u16,
        lengths: vec![1; n],
        regions,
    }
}

/// `depth` regions nested in each other, each with all 4,096 peptides: these are in the first of 64 leaves.
pub fn chain_over_one_leaf(depth: usize, z: u16) -> Family {
    let mut chain = chain(64, depth, z);
    chain.lengths = all_but_one_empty(64, 1, 4096);
    chain.peptides = 4096;
    chain
}

/// A region for each of n leaves, and `depth` - 1 around the first of them, nested in each other, from all leaves down: the first
/// leaves are at level `depth`, the last at level 2.
pub fn chain_over_leaves(n: usize, depth: usize, z: u16) -> Family {
    let mut chain = chain(n, depth - 1, z);
    chain.regions.extend((1..=n as u16).map(|leaf| Region {
        first: leaf,
        last: leaf,
        z,
    }));
    chain
}

// Families by level.

/// An accepted family by level. In file order those around a region are the ones before it that have not ended: how many they are
/// is counted on the way, and no two regions are compared.
pub fn by_level(family: &Family) -> ByLevel {
    let mut levels = vec![Vec::new(); 64];
    let mut open: Vec<u16> = Vec::new();
    for region in &family.regions {
        while open.last().is_some_and(|last| *last < region.first) {
            open.pop();
        }
        levels[open.len()].push(*region);
        open.push(region.last);
    }
    ByLevel {
        family: Family {
            regions: levels.concat(),
            ..family.clone()
        },
        counts: std::array::from_fn(|h| levels[h].len() as u16),
    }
}

/// The file by level of an accepted family.
pub fn level_file(family: &Family) -> Vec<u8> {
    level_file_of(&by_level(family))
}

/// A family by level as it is listed: its leaf lengths, its regions in any order, and the level counts up to the last that is not 0.
pub fn listed(lengths: &[u16], regions: &[(u16, u16, u16)], counts: &[u16]) -> ByLevel {
    ByLevel {
        family: family(lengths, regions),
        counts: std::array::from_fn(|h| counts.get(h).copied().unwrap_or(0)),
    }
}

// Files broken at one place.

fn put(file: &mut [u8], at: usize, number: usize) {
    if at + 1 < file.len() {
        file[at..at + 2].copy_from_slice(&(number as u16).to_le_bytes());
    }
}

fn get(file: &[u8], at: usize) -> usize {
    if at + 1 < file.len() {
        u16::from_le_bytes([file[at], file[at + 1]]) as usize
    } else {
        0
    }
}

/// Adds to a number of the file; it may wrap around.
fn add(file: &mut [u8], at: usize, by: u16) {
    let number = get(file, at) as u16;
    put(file, at, number.wrapping_add(by) as usize);
}

/// How many kinds of damage `damage` knows.
pub const DAMAGES: usize = 25;

/// Where the leaf lengths begin.
fn start_of(file: &[u8]) -> usize {
    if file.starts_with(b"PHFL") {
        144
    } else {
        16
    }
}

/// Damages a file near the edge of some cause. What comes of it the reference says: one damage can hide or undo another.
pub fn damage(random: &mut Random, kind: usize, file: &mut Vec<u8>) {
    let (n, k) = (get(file, 6), get(file, 8));
    let start = start_of(file);
    let middle = start + 2 * n;
    let leaf = start + 2 * random.below(n.max(1));
    let region = middle + 6 * random.below(k.max(1));
    match kind {
        0 => file.truncate(random.below(17).min(file.len())),
        1 => {
            let at = random.below(4);
            if at < file.len() {
                file[at] ^= 1 << random.below(8);
            }
        }
        2 => put(file, 4, [0, 4096, 4097, 65535][random.below(4)]),
        3 => put(file, 6, [0, 4096, 4097, 65535][random.below(4)]),
        4 => put(file, 8, [2 * n - n.min(1), 2 * n, 65535][random.below(3)]),
        5 => put(file, 10, [start - 1, start + 1, 0, start][random.below(4)]),
        6 => put(file, 12, (middle + random.below(3)).saturating_sub(1)),
        7 => put(
            file,
            14,
            (middle + 6 * k + random.below(3)).saturating_sub(1),
        ),
        8 => {
            file.pop();
        }
        9 => file.push(0),
        10 => put(file, leaf, 0),
        11 => add(file, leaf, 1),
        12 => {
            // the sum stays, unless the other leaf is empty and wraps around
            let other = start + 2 * random.below(n.max(1));
            add(file, leaf, 1);
            add(file, other, u16::MAX);
        }
        13 => put(file, region, 0),
        14 => {
            let first = get(file, region);
            put(file, region + 2, first.wrapping_sub(1));
        }
        15 => put(file, region + 2, n + random.below(2)),
        16 if k >= 2 => {
            // two regions next to each other
            let at = middle + 6 * random.below(k - 1);
            change_places(file, at, at + 6);
        }
        17 if k >= 2 => {
            // a region twice
            let at = middle + 6 * random.below(k - 1);
            if at + 12 <= file.len() {
                file.copy_within(at..at + 4, at + 6);
            }
        }
        18 => add(file, region + 2, 1),
        19 => add(file, region, 1),
        20 => put(file, region + 4, random.below(65536)),
        21 => {
            let at = random.below(file.len().max(1));
            if at < file.len() {
                file[at] = random.below(256) as u8;
            }
        }
        22 => put(file, leaf, 65535),
        23 => {
            // a leaf becomes empty and another one gets its peptides, which is no damage
            let other = start + 2 * random.below(n.max(1));
            let length = get(file, leaf) as u16;
            put(file, leaf, 0);
            add(file, other, length);
        }
        _ => file.clear(),
    }
}

/// The regions at two offsets, the first before the second.
fn change_places(file: &mut [u8], at: usize, other: usize) {
    if at + 6 <= other && other + 6 <= file.len() {
        let (front, back) = file.split_at_mut(other);
        front[at..at + 6].swap_with_slice(&mut back[..6]);
    }
}

/// How many kinds of damage `damage_levels` knows.
pub const LEVEL_DAMAGES: usize = 11;

/// Damages what a file by level is judged by and a family file is not: its counts, the order of its regions, and that none is listed
/// twice.
pub fn damage_levels(random: &mut Random, kind: usize, file: &mut [u8]) {
    let (n, k) = (get(file, 6), get(file, 8));
    let middle = start_of(file) + 2 * n;
    let count = |level: usize| 16 + 2 * (level - 1);
    // mostly one of the levels that there are
    let some_level = |random: &mut Random| match random.below(4) {
        0 => random.between(1, 64),
        _ => random.between(1, 5),
    };
    let (level, other) = (some_level(random), some_level(random));
    let mut regions = [random.below(k.max(1)), random.below(k.max(1))];
    regions.sort();
    let [at, behind] = regions.map(|i| middle + 6 * i);
    match kind {
        0 => add(file, count(level), 1),
        1 => add(file, count(level), u16::MAX),
        2 => put(file, count(level), [0, k, 65535][random.below(3)]),
        // the sum stays, or stays in 16 bits only
        3 | 4 => {
            add(file, count(level), 1);
            add(file, count(other), u16::MAX);
        }
        5 => {
            let (one, two) = (get(file, count(level)), get(file, count(other)));
            put(file, count(level), two);
            put(file, count(other), one);
        }
        6 | 7 => change_places(file, at, behind),
        // a region with the leaves of another
        8 if behind + 6 <= file.len() => file.copy_within(at..at + 4, behind),
        9 if behind + 6 <= file.len() => file.copy_within(behind..behind + 4, at),
        // each region stands where another one was
        _ if k >= 2 && middle + 6 * k <= file.len() => {
            let regions = &mut file[middle..middle + 6 * k];
            regions.rotate_left(6 * random.below(k));
        }
        _ => {}
    }
}

/// A family with the 8 peptides of the scope document.
pub fn eight_peptides() -> Family {
    family(
        &[2, 3, 1, 2],
        &[(1, 2, 3), (1, 1, 2), (2, 2, 1), (3, 4, 3), (4, 4, 0)],
    )
}

/// p-values of these, in millionths.
pub const EIGHT_P_VALUES: [u32; 8] = [1_000, 500_000, 20, 300, 900_000, 40_000, 10, 5];

/// Half the natural logarithm of 1/0.05, 1.4978661.., in millionths, rounded up.
pub const DEVIATION_SQUARED: u32 = 1_497_867;

/// A family from its leaf lengths and its regions.
pub fn family(lengths: &[u16], regions: &[(u16, u16, u16)]) -> Family {
    Family {
        peptides: lengths.iter().sum(),
        lengths: lengths.to_vec(),
        regions: regions
            .iter()
            .map(|(first, last, z)| Region {
                first: *first,
                last: *last,
                z: *z,
            })
            .collect(),
    }
}

/// The file of a family from its leaf lengths and its regions.
pub fn file(lengths: &[u16], regions: &[(u16, u16, u16)]) -> Vec<u8> {
    file_of(&family(lengths, regions))
}

/// Whether an accepted file has a leaf without a peptide.
pub fn has_empty_leaf(file: &[u8]) -> bool {
    (0..get(file, 6)).any(|j| get(file, 16 + 2 * j) == 0)
}

// Every family with m peptides.

/// The ways to cut m peptides into leaves that have some.
fn all_lengths(m: usize) -> Vec<Vec<u16>> {
    (0..1usize << (m - 1))
        .map(|cuts| {
            let mut lengths = vec![1];
            for i in 0..m - 1 {
                if cuts >> i & 1 == 1 {
                    lengths.push(1);
                } else {
                    *lengths.last_mut().unwrap() += 1;
                }
            }
            lengths
        })
        .collect()
}

/// The ways to cut m peptides into n leaves, of which some may be empty.
fn all_lengths_of(m: u16, n: usize) -> Vec<Vec<u16>> {
    if n == 1 {
        return vec![vec![m]];
    }
    (0..=m)
        .flat_map(|first| {
            let mut cuts = all_lengths_of(m - first, n - 1);
            for lengths in &mut cuts {
                lengths.insert(0, first);
            }
            cuts
        })
        .collect()
}

/// The sets of nested or disjoint leaf ranges on n leaves, each in file order.
pub fn all_ranges(n: usize) -> Vec<Vec<(usize, usize)>> {
    let mut possible = Vec::new();
    for first in 1..=n {
        for last in (first..=n).rev() {
            possible.push((first, last));
        }
    }
    let mut found = vec![Vec::new()];
    for range in possible {
        let fits = |other: &(usize, usize)| {
            // `other` stands before `range` in file order, so only its end can cross
            range.0 > other.1 || range.1 <= other.1
        };
        let more: Vec<Vec<(usize, usize)>> = found
            .iter()
            .filter(|ranges| ranges.iter().all(fits))
            .map(|ranges| {
                let mut longer = ranges.clone();
                longer.push(range);
                longer
            })
            .collect();
        found.extend(more);
    }
    found
}

/// Every family on these leaves with each z up to so many above its region's size.
fn all_families_on(lengths: &[u16], above: usize) -> Vec<Family> {
    let mut families = Vec::new();
    for ranges in all_ranges(lengths.len()) {
        let most: Vec<usize> = ranges
            .iter()
            .map(|(first, last)| lengths[first - 1..*last].iter().sum::<u16>() as usize + above)
            .collect();
        let mut zs = vec![0; ranges.len()];
        loop {
            let regions: Vec<(u16, u16, u16)> = ranges
                .iter()
                .zip(&zs)
                .map(|((first, last), z)| (*first as u16, *last as u16, *z as u16))
                .collect();
            families.push(family(lengths, &regions));
            // the next choice of z, as a number whose digits go up to the most
            let Some(i) = (0..zs.len()).find(|i| zs[*i] < most[*i]) else {
                break;
            };
            zs[i] += 1;
            zs[..i].fill(0);
        }
    }
    families
}

/// Without empty leaves, and with each z up to the region's size: a larger z says no more.
pub fn all_families(m: usize) -> Vec<Family> {
    all_lengths(m)
        .iter()
        .flat_map(|lengths| all_families_on(lengths, 0))
        .collect()
}

/// On n leaves, empty ones among them, and with each z up to one above the region's size.
pub fn all_families_of(m: u16, n: usize) -> Vec<Family> {
    all_lengths_of(m, n)
        .iter()
        .flat_map(|lengths| all_families_on(lengths, 1))
        .collect()
}

/// Two accepted files, and for each cause of a file one for which it is the first; with each its number, and for how many peptides a
/// call with it is made.
pub fn one_for_each_cause() -> Vec<(u16, usize, Vec<u8>)> {
    let with = |at: usize, byte: u8| {
        let mut eight = file_of(&eight_peptides());
        eight[at] = byte;
        eight
    };
    vec![
        (0, 8, with(0, b'P')),
        (0, 4096, file_of(&chain(4096, 64, 9))),
        (1, 8, with(0, b'Q')),
        (2, 4097, file(&[4097], &[(1, 1, 1)])),
        (3, 3, file(&all_but_one_empty(4097, 1, 3), &[])),
        (4, 3, file(&[3], &[(1, 1, 1), (1, 1, 0)])),
        (5, 8, with(14, 55)),
        (6, 8, with(16, 3)),
        (7, 8, with(24, 0)),
        (8, 8, with(32, 2)),
        (9, 8, with(38, 3)),
        (10, 65, file_of(&chain(65, 65, 1))),
    ]
}

/// Every set of these: of faults, those that a call can have at once are among them.
pub fn sets_of<T: Copy>(all: &[T]) -> Vec<Vec<T>> {
    let chosen = |set: usize| {
        let has = move |i: &usize| set >> i & 1 == 1;
        (0..all.len()).filter(has).map(|i| all[i]).collect()
    };
    (0..1 << all.len()).map(chosen).collect()
}
