//! Lists of selections: the worked example, every number of selections from none to more than there may be, the place of each
//! selection in the list, each value against the bound of its selection alone and against every admissible set, the tally at its
//! edge and over many calls, the first of several causes, and what is left unwritten. What is expected is written beside each input
//! or known from how the input is made; everything else is held to the reference.

use phf_tests::compare;
use phf_tests::enumeration::{bytes_of, Admissible};
use phf_tests::families::{
    all_but_one_empty, all_families, binary_tree, binary_tree_on, chain, deepest_tree,
    eight_peptides, family, file, one_for_each_cause, random_family, sets_of, towers, Bounds,
};
use phf_tests::fast;
use phf_tests::guarded::{self, curve_of, list_of, reduced};
use phf_tests::phf::Listed;
use phf_tests::random::{cases, Random};
use phf_tests::reference::{file_of, Family};
use std::cell::RefCell;
use std::collections::BTreeMap;

/// The largest tally.
const FULL: u32 = 4_294_967_295;

/// The file of one leaf with so many peptides and no region: the bound of a selection is how many it selects.
fn no_region(m: usize) -> Vec<u8> {
    file(&[m as u16], &[])
}

/// The bound of a selection by a call of its own.
fn alone(file: &[u8], selection: &[u8]) -> u16 {
    let mut taken = vec![9; 8191];
    let answer = guarded::bound(file, selection, &mut taken);
    assert_eq!(answer.number, 0);
    answer.bound
}

fn each_alone(file: &[u8], selections: &[Vec<u8>]) -> Vec<u16> {
    selections.iter().map(|s| alone(file, s)).collect()
}

fn answered(charge: u16, tally: u32) -> Listed {
    Listed {
        number: 0,
        charge,
        tally,
    }
}

fn declined(number: u16, tally: u32) -> Listed {
    Listed {
        number,
        charge: 0,
        tally,
    }
}

/// The regions have 1 to 5, 1 and 2, 3 to 5, 6 to 8, and 7 and 8, with the z 3, 2, 1, 3 and 0. So 1, 2 and 6 count whenever they are
/// selected, of 3, 4 and 5 one counts, and 7 and 8 never do; the first region lets 2 + 1 pass, and the fourth 1 + 0.
#[test]
fn the_worked_example() {
    let eight = file_of(&eight_peptides());
    let rows = [
        ([0, 0, 0, 0, 0, 0, 0, 0], 0),
        ([1, 1, 1, 1, 1, 1, 1, 1], 2 + 1 + 1),
        ([0, 0, 0, 0, 0, 0, 1, 1], 0),
        ([1, 1, 1, 1, 1, 0, 0, 0], 2 + 1),
        ([0, 0, 1, 1, 1, 0, 0, 0], 1),
        ([0, 0, 0, 0, 0, 1, 1, 1], 1),
        ([1, 0, 1, 0, 0, 1, 1, 0], 1 + 1 + 1),
        ([0, 1, 0, 1, 1, 0, 0, 1], 1 + 1),
        ([1, 0, 0, 0, 0, 0, 0, 0], 1),
    ];
    let selections: Vec<u8> = rows.iter().flat_map(|(bytes, _)| *bytes).collect();
    let bounds: Vec<u16> = rows.iter().map(|(_, bound)| *bound).collect();
    let mut values = [777; 11];
    let answer = guarded::bounds_list(&eight, &selections, 9, 1000, &mut values);
    // there are five regions
    assert_eq!(answer, answered(5, 1005));
    assert_eq!(values[..9], bounds);
    assert_eq!(values[9..], [777, 777]);
}

// How many selections.

/// Each selection has a peptide more than the one before, up to all m, and then it begins anew with none; and how many each has. They
/// begin at different peptides and go on from the last to the first.
fn stairs(m: usize, count: usize) -> (Vec<u8>, Vec<u16>) {
    let mut selections = Vec::new();
    let mut sizes = Vec::new();
    for i in 0..count {
        let size = i % (m + 1);
        let mut selection = vec![0; m];
        for step in 0..size {
            selection[(i + step) % m] = 1;
        }
        selections.extend(selection);
        sizes.push(size as u16);
    }
    (selections, sizes)
}

#[test]
fn up_to_32_selections() {
    for m in [1, 2, 3, 31, 32, 40] {
        let file = no_region(m);
        for count in 0..=32 {
            let (selections, sizes) = stairs(m, count);
            for more in [0, 1, 2, 40] {
                let mut values = vec![777; count + more];
                let answer = guarded::bounds_list(&file, &selections, count as u16, 9, &mut values);
                assert_eq!(answer, answered(0, 9));
                assert_eq!(values[..count], sizes);
                assert_eq!(values[count..], vec![777; more]);
            }
        }
    }
}

/// From 33 to all that 16 bits can say; 288 is 32 in 8 bits, and 256 is 0.
#[test]
fn cause_24_more_selections() {
    for m in [1, 2, 40] {
        let file = no_region(m);
        for (count, number) in [
            (0, 0),
            (1, 0),
            (31, 0),
            (32, 0),
            (33, 24),
            (34, 24),
            (63, 24),
            (64, 24),
            (255, 24),
            (256, 24),
            (257, 24),
            (288, 24),
            (32_768, 24),
            (65_535, 24),
        ] {
            let (selections, _) = stairs(m, count);
            let told = |bytes: &[u8], room: usize| {
                compare::bounds_list(&file, bytes, count as u16, 0, room)
            };
            for room in [count, count + 1, 65_536] {
                assert_eq!(told(&selections, room), number, "{count} selections");
            }
            let longer = [&selections[..], &[0]].concat();
            assert_eq!(told(&longer, count), 14);
            assert_eq!(told(&longer, 0), 14);
            if count > 0 {
                assert_eq!(told(&selections, count - 1), 16);
                assert_eq!(told(&selections, 0), 16);
                assert_eq!(told(&selections[1..], count), 14);
                assert_eq!(told(&selections[1..], count - 1), 14);
                assert_eq!(told(&[], count), 14);
            }
        }
        // as many places as selections that are answered
        let (selections, _) = stairs(m, 65_535);
        for room in [32, 33] {
            assert_eq!(
                compare::bounds_list(&file, &selections, 65_535, 0, room),
                16
            );
        }
    }
}

/// Nothing is written and nothing charged, whatever the tally is.
#[test]
fn no_selection() {
    let largest = file_of(&binary_tree(&mut Random::new(140), 4096, 1, Bounds::Mixed));
    for file in [no_region(1), file_of(&eight_peptides()), largest] {
        let m = guarded::check(&file).peptides as usize;
        for tally in [0, 1, 8191, FULL - 1, FULL] {
            for room in [0, 1, 32, 100] {
                let mut values = vec![777; room];
                let answer = guarded::bounds_list(&file, &[], 0, tally, &mut values);
                assert_eq!(answer, answered(0, tally));
                assert_eq!(values, vec![777; room]);
                for bytes in [&[0][..], &[1], &[2], &vec![1; m], &vec![0; 2 * m]] {
                    let answer = guarded::bounds_list(&file, bytes, 0, tally, &mut values);
                    assert_eq!(answer, declined(14, tally));
                    assert_eq!(values, vec![777; room]);
                }
            }
        }
        let answer = guarded::bounds_list(&file[1..], &[], 0, FULL, &mut []);
        assert_eq!(answer, declined(1, FULL));
    }
}

// The place of a selection.

/// Of 32 selections one has one peptide, or all but one, and the others none, or all.
#[test]
fn one_peptide_of_one_selection() {
    for m in [1, 2, 3, 40, 4096] {
        let file = no_region(m);
        for at in [0, 1, 2, 15, 30, 31] {
            for peptide in [1, 2, m / 2, m - 1, m] {
                if !(1..=m).contains(&peptide) {
                    continue;
                }
                let mut selections = vec![vec![0; m]; 32];
                selections[at][peptide - 1] = 1;
                let mut expected = vec![0; 32];
                expected[at] = 1;
                assert_eq!(list_of(&file, &selections), expected, "m {m}, place {at}");
                for byte in selections.iter_mut().flatten() {
                    *byte = 1 - *byte;
                }
                let expected: Vec<u16> = expected.iter().map(|one| m as u16 - one).collect();
                assert_eq!(list_of(&file, &selections), expected, "m {m}, place {at}");
            }
        }
    }
}

/// What each peptide counts by itself, and what is left of 4 without it: 1, 2 and 6 count, of 3, 4 and 5 each does while the others
/// are not selected, 7 and 8 do not.
#[test]
fn one_peptide_of_the_worked_example() {
    let eight = file_of(&eight_peptides());
    let just = |p: usize| bytes_of(1 << p, 8);
    let without = |p: usize| bytes_of(255 - (1 << p), 8);
    let justs: Vec<Vec<u8>> = (0..8).map(just).collect();
    assert_eq!(list_of(&eight, &justs), [1, 1, 1, 1, 1, 1, 0, 0]);
    let withouts: Vec<Vec<u8>> = (0..8).map(without).collect();
    assert_eq!(list_of(&eight, &withouts), [3, 3, 4, 4, 4, 3, 4, 4]);
    let in_turns: Vec<Vec<u8>> = (0..8).flat_map(|p| [just(p), without(p)]).collect();
    assert_eq!(
        list_of(&eight, &in_turns),
        [1, 3, 1, 3, 1, 4, 1, 4, 1, 4, 1, 3, 0, 4, 0, 4]
    );
}

/// Where m, N and K are all different, and the last selections begin beyond 65,535 bytes.
#[test]
fn selections_far_into_the_list() {
    let random = &mut Random::new(141);
    for family in [
        binary_tree(random, 512, 8, Bounds::Mixed),
        towers(random, 3000, 64, Bounds::Mixed),
    ] {
        let m = family.peptides as usize;
        assert!(31 * m > 65_535);
        let file = file_of(&family);
        // more peptides in each than in the one before
        let selections: Vec<Vec<u8>> = (0..32)
            .map(|i| {
                let chosen = random.selection(m, 1, 2);
                let upto = m * (i + 1) / 32;
                (0..m).map(|p| (p < upto) as u8 & chosen[p]).collect()
            })
            .collect();
        let values = list_of(&file, &selections);
        assert_eq!(values, each_alone(&file, &selections));
        let mut different = values.clone();
        different.dedup();
        assert!(different.len() > 24, "{values:?}");
    }
}

// Random families.

/// A selection of some kind: none, all, one peptide, all but one, a run of neighbours, or any.
fn some_selection(random: &mut Random, m: usize) -> Vec<u8> {
    let at = random.below(m);
    match random.below(8) {
        0 => vec![0; m],
        1 => vec![1; m],
        2 => (0..m).map(|p| (p == at) as u8).collect(),
        3 => (0..m).map(|p| (p != at) as u8).collect(),
        4 => {
            let end = random.between(at, m);
            (0..m).map(|p| (at <= p && p < end) as u8).collect()
        }
        _ => {
            let part = random.between(1, 9);
            random.selection(m, part, 10)
        }
    }
}

fn some_selections(random: &mut Random, m: usize, count: usize) -> Vec<Vec<u8>> {
    (0..count).map(|_| some_selection(random, m)).collect()
}

/// A tally at an edge, or anywhere.
fn some_tally(random: &mut Random, k: usize) -> u32 {
    match random.below(6) {
        0 => 0,
        1 => FULL,
        2 => FULL - k as u32,
        3 => (FULL - k as u32).saturating_add(random.below(3) as u32),
        4 => FULL - random.below(100) as u32,
        _ => random.between(0, FULL as usize) as u32,
    }
}

#[test]
fn each_as_if_sent_by_itself() {
    cases(142, 3000, |random| {
        let m = random.between(1, 60);
        let family = random_family(random, m);
        let file = file_of(&family);
        let count = random.between(0, 32);
        let selections = some_selections(random, m, count);
        assert_eq!(list_of(&file, &selections), each_alone(&file, &selections));
        let joined = selections.concat();
        let tally = random.between(0, (FULL - 8191) as usize) as u32;
        let room = count + random.below(3) * random.below(100);
        let number = compare::bounds_list(&file, &joined, count as u16, tally, room);
        assert_eq!(number, 0);
        let charge = if count == 0 { 0 } else { family.regions.len() };
        let mut values = vec![777; count];
        let answer = guarded::bounds_list(&file, &joined, count as u16, tally, &mut values);
        assert_eq!(answer, answered(charge as u16, tally + charge as u32));
    });
}

/// Every family of up to four peptides, and every selection in one list: 16 at most.
#[test]
fn every_selection_of_up_to_four_peptides() {
    for m in 1..=4 {
        let selections: Vec<Vec<u8>> = (0..1 << m).map(|s| bytes_of(s, m)).collect();
        for family in all_families(m) {
            let sets = Admissible::of(&family);
            let expected: Vec<u16> = (0..1 << m).map(|s| sets.bound(s)).collect();
            assert_eq!(list_of(&file_of(&family), &selections), expected);
        }
    }
}

/// With five peptides there are just 32 selections.
#[test]
fn every_selection_of_five_peptides() {
    cases(143, 3000, |random| {
        let family = random_family(random, 5);
        let sets = Admissible::of(&family);
        let order = random.order(32);
        let numbers: Vec<u32> = order.iter().map(|number| *number as u32 - 1).collect();
        let selections: Vec<Vec<u8>> = numbers.iter().map(|s| bytes_of(*s, 5)).collect();
        let expected: Vec<u16> = numbers.iter().map(|s| sets.bound(*s)).collect();
        assert_eq!(list_of(&file_of(&family), &selections), expected);
    });
}

#[test]
fn by_every_set_of_up_to_twelve_peptides() {
    cases(144, 1000, |random| {
        let m = random.between(1, 12);
        let family = random_family(random, m);
        let sets = Admissible::of(&family);
        let numbers: Vec<u32> = (0..random.between(0, 32))
            .map(|_| random.below(1 << m) as u32)
            .collect();
        let selections: Vec<Vec<u8>> = numbers.iter().map(|s| bytes_of(*s, m)).collect();
        let expected: Vec<u16> = numbers.iter().map(|s| sets.bound(*s)).collect();
        assert_eq!(list_of(&file_of(&family), &selections), expected);
    });
}

/// Of two calls what the one says of the other: in another order the values have that order; one list behind another has the values
/// of both; the reduced family has the same values; a peptide more raises a bound by one at most, and never lowers it; the first
/// peptides of a path have the values of its curve.
#[test]
fn calls_that_tell_of_each_other() {
    cases(145, 1500, |random| {
        let m = random.between(1, 100);
        let family = random_family(random, m);
        let file = file_of(&family);
        let count = random.between(1, 32);
        let selections = some_selections(random, m, count);
        let values = list_of(&file, &selections);
        let order = random.order(count);
        let permuted: Vec<Vec<u8>> = order
            .iter()
            .map(|i| selections[*i as usize - 1].clone())
            .collect();
        let expected: Vec<u16> = order.iter().map(|i| values[*i as usize - 1]).collect();
        assert_eq!(list_of(&file, &permuted), expected);
        let first = random.between(0, count);
        assert_eq!(list_of(&file, &selections[..first]), values[..first]);
        assert_eq!(list_of(&file, &selections[first..]), values[first..]);
        assert_eq!(list_of(&reduced(&file), &selections), values);
        let peptide = random.below(m);
        let mut more = selections.clone();
        for selection in &mut more {
            selection[peptide] = 1;
        }
        for (larger, value) in list_of(&file, &more).iter().zip(&values) {
            assert!(larger == value || *larger == value + 1);
        }
        let mut path = random.order(m);
        path.truncate(31);
        let mut prefixes = vec![vec![0; m]];
        for p in &path {
            let mut longer = prefixes.last().unwrap().clone();
            longer[*p as usize - 1] = 1;
            prefixes.push(longer);
        }
        assert_eq!(list_of(&file, &prefixes), curve_of(&file, &path).0);
    });
}

fn largest_families() -> Vec<Family> {
    let random = &mut Random::new(146);
    let lengths = all_but_one_empty(4096, 1365, 4096);
    vec![
        family(&[1; 4096], &[]),
        chain(4096, 64, 2000),
        binary_tree(random, 512, 8, Bounds::Mixed),
        binary_tree(random, 4096, 1, Bounds::Mixed),
        binary_tree(random, 4096, 1, Bounds::Small),
        binary_tree_on(random, lengths, Bounds::Mixed),
        deepest_tree(random, Bounds::Mixed),
    ]
}

/// The library and the same algorithm in Rust, against the reference and the bound of each selection alone.
#[test]
fn the_largest_families() {
    let random = &mut Random::new(147);
    for family in largest_families() {
        let k = family.regions.len() as u32;
        let file = file_of(&family);
        let mut selections = some_selections(random, 4096, 30);
        selections.insert(random.below(31), vec![0; 4096]);
        selections.insert(random.below(32), vec![1; 4096]);
        let joined = selections.concat();
        assert_eq!(compare::bounds_list(&file, &joined, 32, FULL - k, 40), 0);
        let expected = each_alone(&file, &selections);
        for count in [1, 31, 32] {
            let bytes = &joined[..count * 4096];
            let mut values = vec![777; count];
            let answer = guarded::bounds_list(&file, bytes, count as u16, FULL - k, &mut values);
            assert_eq!(answer, answered(k as u16, FULL));
            assert_eq!(values, expected[..count]);
            let mut values = vec![777; count];
            let answer = fast::bounds_list(&file, bytes, count as u16, FULL - k, &mut values);
            assert_eq!(answer, answered(k as u16, FULL));
            assert_eq!(values, expected[..count]);
        }
    }
}

// Causes.

#[test]
fn cause_14_length() {
    for (m, file) in [
        (1, no_region(1)),
        (2, no_region(2)),
        (8, file_of(&eight_peptides())),
        (4096, file_of(&chain(4096, 64, 9))),
    ] {
        for count in [1, 2, 3, 16, 31, 32] {
            let bytes = vec![1; (count + 1) * m + 65_536];
            let told = |length: usize| {
                compare::bounds_list(&file, &bytes[..length], count as u16, 0, count)
            };
            assert_eq!(told(count * m), 0);
            assert_eq!(told(count * m - 1), 14);
            assert_eq!(told(count * m + 1), 14);
            assert_eq!(told(count * m + m), 14);
            assert_eq!(told(count * m - m), 14);
            assert_eq!(told(0), 14);
            // as many in 16 bits only: with 16 selections of 4,096 peptides that is none
            assert_eq!(told(count * m + 65_536), 14);
            if count * m > 65_535 {
                assert_eq!(told(count * m - 65_536), 14);
            }
        }
    }
}

/// One bad byte, in every place of a few selections of few peptides, and in the first, the middle and the last selection, at their
/// first, middle and last byte, of the most.
#[test]
fn cause_14_bytes() {
    let random = &mut Random::new(148);
    for m in [1, 2, 3, 8, 17] {
        for count in [1, 2, 3, 31, 32] {
            let file = file_of(&random_family(random, m));
            let mut selections = some_selections(random, m, count).concat();
            for at in 0..count * m {
                let byte = selections[at];
                for bad in [2, 3, 127, 128, 129, 254, 255] {
                    selections[at] = bad;
                    let told = compare::bounds_list(&file, &selections, count as u16, 0, count);
                    assert_eq!(told, 14, "{count} of {m}, place {at}");
                }
                selections[at] = byte;
            }
            let told = compare::bounds_list(&file, &selections, count as u16, 0, count);
            assert_eq!(told, 0);
        }
    }
    let largest = file_of(&binary_tree(random, 4096, 1, Bounds::Mixed));
    let mut selections = vec![1; 32 * 4096];
    for i in [0, 15, 16, 30, 31] {
        for peptide in [0, 2047, 4095] {
            selections[i * 4096 + peptide] = 2;
            let mut values = [777; 33];
            let answer = guarded::bounds_list(&largest, &selections, 32, 5, &mut values);
            assert_eq!(answer, declined(14, 5));
            assert_eq!(values, [777; 33]);
            selections[i * 4096 + peptide] = 1;
        }
    }
}

/// A bad byte is found before anything else is, also beyond the thirty-second selection.
#[test]
fn cause_14_in_a_long_list() {
    let file = no_region(3);
    for count in [33, 34, 65_535] {
        let mut selections = vec![1; 3 * count];
        for at in [0, 95, 96, 97, 98, 3 * count - 1] {
            selections[at] = 2;
            for room in [0, count] {
                let told = compare::bounds_list(&file, &selections, count as u16, FULL, room);
                assert_eq!(told, 14);
            }
            selections[at] = 1;
        }
    }
}

#[test]
fn cause_16_values() {
    let eight = file_of(&eight_peptides());
    for count in 0..=32 {
        let selections = vec![1; 8 * count];
        let told =
            |room: usize| compare::bounds_list(&eight, &selections, count as u16, FULL - 5, room);
        assert_eq!(told(count), 0);
        assert_eq!(told(count + 1), 0);
        // long enough, and 0 in 16 bits
        assert_eq!(told(65_536), 0);
        if count > 0 {
            assert_eq!(told(count - 1), 16);
            assert_eq!(told(0), 16);
        }
    }
}

/// Families with this many regions, and how many peptides each has.
fn with_regions() -> Vec<(u32, usize, Vec<u8>)> {
    let random = &mut Random::new(149);
    vec![
        (0, 3, no_region(3)),
        (1, 2, file(&[2], &[(1, 1, 1)])),
        (5, 8, file_of(&eight_peptides())),
        (64, 4096, file_of(&chain(4096, 64, 9))),
        (
            511,
            256,
            file_of(&binary_tree(random, 256, 1, Bounds::Mixed)),
        ),
        (
            8191,
            4096,
            file_of(&binary_tree(random, 4096, 1, Bounds::Mixed)),
        ),
    ]
}

/// The charge is the number of regions, for one selection as for 32, and the tally is told with it as long as it has 32 bits.
#[test]
fn cause_25_tally() {
    for (k, m, file) in with_regions() {
        for count in [1, 2, 31, 32] {
            let selections = vec![1; count * m];
            let bounds = vec![alone(&file, &selections[..m]); count];
            let told = |tally: u32| {
                let mut values = vec![777; count];
                let answer =
                    guarded::bounds_list(&file, &selections, count as u16, tally, &mut values);
                let unwritten = vec![777; count];
                assert_eq!(
                    values,
                    if answer.number == 0 {
                        &bounds
                    } else {
                        &unwritten
                    }[..]
                );
                answer
            };
            let edges = [0, 1, 255, 256, 65_535, 65_536, 0x7FFF_FFFF, 0x8000_0000];
            for tally in edges {
                assert_eq!(told(tally), answered(k as u16, tally + k));
                // with the charge it is just there
                let under = tally.saturating_sub(k);
                assert_eq!(told(under), answered(k as u16, under + k));
            }
            assert_eq!(told(FULL - k), answered(k as u16, FULL));
            if k > 0 {
                assert_eq!(told(FULL - k - 1), answered(k as u16, FULL - 1));
                assert_eq!(told(FULL - k + 1), declined(25, FULL - k + 1));
                assert_eq!(told(FULL), declined(25, FULL));
            }
        }
    }
}

/// What is wrong with a call, beside the file.
#[derive(Clone, Copy, Debug, PartialEq)]
enum Fault {
    ShortList,
    LongList,
    BadByte,
    ShortOutput,
    ManySelections,
    LargeTally,
}

use Fault::*;

const FAULTS: [Fault; 6] = [
    ShortList,
    LongList,
    BadByte,
    ShortOutput,
    ManySelections,
    LargeTally,
];

impl Fault {
    fn number(self) -> u16 {
        match self {
            ShortList | LongList | BadByte => 14,
            ShortOutput => 16,
            ManySelections => 24,
            LargeTally => 25,
        }
    }
}

/// Every set of faults that one call can have.
fn fault_sets() -> Vec<Vec<Fault>> {
    sets_of(&FAULTS)
        .into_iter()
        .filter(|set: &Vec<Fault>| !(set.contains(&ShortList) && set.contains(&LongList)))
        .collect()
}

/// How many selections there are, and where the bad byte stands and what it is.
struct Fashion {
    few: usize,
    many: usize,
    /// The bad byte is the first, the middle or the last one of the list: 0, 1 or 2 halves of the way.
    halves: usize,
    bad: u8,
}

/// Causes are tried in the order of their numbers, so the smallest one is expected. Without a fault room and tally are just enough.
fn with_faults(number: u16, m: usize, file: &[u8], faults: &[Fault], fashion: &Fashion) {
    let has = |fault| faults.contains(&fault);
    let count = if has(ManySelections) {
        fashion.many
    } else {
        fashion.few
    };
    let mut selections = vec![1; count * m + has(LongList) as usize - has(ShortList) as usize];
    if has(BadByte) {
        let last = selections.len() - 1;
        selections[last * fashion.halves / 2] = fashion.bad;
    }
    let k = u16::from_le_bytes([file[8], file[9]]);
    let tally = FULL - k as u32 + (has(LargeTally) && k > 0) as u32;
    let room = count - has(ShortOutput) as usize;
    let later = faults.iter().map(|fault| fault.number()).min().unwrap_or(0);
    let expected = if number != 0 { number } else { later };
    let mut values = vec![777; room];
    let answer = guarded::bounds_list(file, &selections, count as u16, tally, &mut values);
    if expected != 0 {
        let refusal = declined(expected, tally);
        assert_eq!(answer, refusal, "a file with {number}, {faults:?}");
        assert_eq!(values, vec![777; room]);
    } else {
        assert_eq!(answer, answered(k, FULL));
        // of the eight peptides 4; of the others the 9 of the innermost region and of every one around it
        let all = if m == 8 { 4 } else { 9 };
        assert_eq!(values, vec![all; count]);
    }
}

#[test]
fn the_first_of_several_causes() {
    let sets = fault_sets();
    // three lengths of the list, and each of the others or not
    assert_eq!(sets.len(), 3 * 16);
    for (number, m, file) in one_for_each_cause() {
        assert_eq!(compare::check(&file), number);
        // a list that is one byte short has a byte all the same
        assert!(m > 1);
        for (few, many, halves, bad) in [(1, 33, 0, 2), (31, 34, 1, 128), (32, 64, 2, 255)] {
            let fashion = Fashion {
                few,
                many,
                halves,
                bad,
            };
            for faults in &sets {
                with_faults(number, m, &file, faults, &fashion);
            }
        }
    }
}

/// Faults of any kind, often several, at any place. Only the causes of the call are ever told, and the same algorithm in Rust tells
/// the same.
#[test]
fn damaged_calls() {
    let seen = RefCell::new(BTreeMap::<u16, usize>::new());
    cases(150, 30_000, |random| {
        let m = random.between(1, 30);
        let family = random_family(random, m);
        let file = file_of(&family);
        let mut count = random.between(0, 32);
        let mut tally = random.between(0, (FULL - 8191) as usize) as u32;
        let mut more = random.below(2);
        let mut selections = some_selections(random, m, count).concat();
        for _ in 0..random.below(4) {
            match random.below(7) {
                0 => drop(selections.pop()),
                1 => selections.push(random.below(3) as u8),
                2 if !selections.is_empty() => {
                    let at = random.below(selections.len());
                    selections[at] = [1, 2, 128, 255][random.below(4)];
                }
                3 => {
                    // the list gets as long as its number of selections says
                    count = random.between(32, 34);
                    selections.resize(count * m, 1);
                }
                4 => tally = some_tally(random, family.regions.len()),
                5 => more = 0,
                _ => count = count.saturating_sub(1),
            }
        }
        let room = (count + more).saturating_sub(random.below(2));
        let number = compare::bounds_list(&file, &selections, count as u16, tally, room);
        *seen.borrow_mut().entry(number).or_default() += 1;
        let (mut values, mut twin) = (vec![777; room], vec![777; room]);
        assert_eq!(
            guarded::bounds_list(&file, &selections, count as u16, tally, &mut values),
            fast::bounds_list(&file, &selections, count as u16, tally, &mut twin)
        );
        assert_eq!(values, twin);
    });
    let causes = [0, 14, 16, 24, 25];
    for number in causes {
        let times = seen.borrow().get(&number).copied().unwrap_or(0);
        assert!(times >= 200, "number {number} was seen {times} times");
    }
    assert!(seen.borrow().keys().all(|number| causes.contains(number)));
}

// The tally over several calls, each of which gets what the one before has told.

#[test]
fn a_tally_by_hand() {
    let five = file_of(&eight_peptides());
    let none = no_region(8);
    let most = file_of(&binary_tree(&mut Random::new(151), 4096, 1, Bounds::Mixed));
    let mut bad = vec![1; 16];
    bad[15] = 2;
    let mut tally = 0;
    let mut add = |file: &[u8], selections: &[u8], count: u16, room: usize| {
        let mut values = vec![777; room];
        let answer = guarded::bounds_list(file, selections, count, tally, &mut values);
        tally = answer.tally;
        (answer.number, answer.charge, answer.tally)
    };
    assert_eq!(add(&five, &[1; 8], 1, 1), (0, 5, 5));
    assert_eq!(add(&five, &[1; 24], 3, 3), (0, 5, 10));
    assert_eq!(add(&most, &[1; 32 * 4096], 32, 40), (0, 8191, 8201));
    assert_eq!(add(&none, &[1; 16], 2, 2), (0, 0, 8201));
    assert_eq!(add(&most, &[], 0, 0), (0, 0, 8201));
    assert_eq!(add(&five[1..], &[1; 8], 1, 1), (1, 0, 8201));
    assert_eq!(add(&five, &bad, 2, 2), (14, 0, 8201));
    assert_eq!(add(&five, &[1; 16], 2, 1), (16, 0, 8201));
    assert_eq!(add(&five, &[1; 8 * 33], 33, 33), (24, 0, 8201));
    assert_eq!(add(&five, &[0; 8], 1, 9), (0, 5, 8206));
}

/// 524,351 lists of 8,191 regions are 4,294,959,041, and 8,254 are left: one list more leaves 63, which is twelve lists of the five
/// regions and 3.
#[test]
fn a_tally_up_to_its_end() {
    assert_eq!(524_351 * 8_191 + 8_191 + 12 * 5 + 3, FULL as u64);
    let five = file_of(&eight_peptides());
    let most = file_of(&binary_tree(&mut Random::new(152), 4096, 1, Bounds::Mixed));
    let none = no_region(8);
    let told = |file: &[u8], count: usize, tally: u32| {
        let m = guarded::check(file).peptides as usize;
        let mut values = vec![777; count];
        guarded::bounds_list(file, &vec![1; count * m], count as u16, tally, &mut values)
    };
    let mut tally = 524_351 * 8_191;
    assert_eq!(told(&most, 32, tally), answered(8191, FULL - 63));
    tally += 8_191;
    assert_eq!(told(&most, 1, tally), declined(25, tally));
    for _ in 0..12 {
        assert_eq!(told(&five, 2, tally), answered(5, tally + 5));
        tally += 5;
    }
    for _ in 0..3 {
        assert_eq!(told(&five, 2, tally), declined(25, FULL - 3));
        assert_eq!(told(&most, 2, tally), declined(25, FULL - 3));
        assert_eq!(told(&none, 2, tally), answered(0, FULL - 3));
        assert_eq!(told(&five, 0, tally), answered(0, FULL - 3));
    }
}

/// Answered and declined calls with several families: the tally is the sum of what the answered ones have been charged.
#[test]
fn tallies_of_many_calls() {
    let seen = RefCell::new(BTreeMap::<u16, usize>::new());
    cases(153, 300, |random| {
        let files: Vec<(usize, u64, Vec<u8>)> = (0..4)
            .map(|_| {
                let m = random.between(1, 30);
                let family = random_family(random, m);
                (m, family.regions.len() as u64, file_of(&family))
            })
            .collect();
        let mut tally = [0, FULL - random.below(2000) as u32][random.below(2)];
        let mut sum = tally as u64;
        for _ in 0..60 {
            let (m, k, file) = &files[random.below(4)];
            let count = [random.between(0, 33), random.between(0, 4)][random.below(2)];
            let mut selections = vec![1; count * m];
            let mut room = count;
            let damaged = match random.below(12) {
                0 => {
                    selections.push(0);
                    14
                }
                1 if count > 0 => {
                    room -= 1;
                    16
                }
                _ if count > 32 => 24,
                _ => 0,
            };
            let charge = if count == 0 { 0 } else { *k };
            let expected = match damaged {
                0 if sum + charge > FULL as u64 => 25,
                number => number,
            };
            sum += if expected == 0 { charge } else { 0 };
            let mut values = vec![777; room];
            let answer = guarded::bounds_list(file, &selections, count as u16, tally, &mut values);
            assert_eq!(answer.number, expected);
            assert_eq!(answer.charge as u64, if expected == 0 { charge } else { 0 });
            assert_eq!(answer.tally as u64, sum);
            tally = answer.tally;
            *seen.borrow_mut().entry(expected).or_default() += 1;
        }
    });
    for number in [0, 14, 16, 24, 25] {
        let times = seen.borrow().get(&number).copied().unwrap_or(0);
        assert!(times >= 200, "number {number} was seen {times} times");
    }
}

// What is written.

/// Only as many values are written as there are selections.
#[test]
fn a_longer_output() {
    for (m, file) in [(8, no_region(8)), (4096, no_region(4096))] {
        for count in [0, 1, 2, 31, 32] {
            for more in [0, 1, 2, 31, 40, 5000] {
                let mut values = vec![777; count + more];
                let selections = vec![1; count * m];
                let answer = guarded::bounds_list(&file, &selections, count as u16, 0, &mut values);
                assert_eq!(answer, answered(0, 0));
                assert_eq!(values[..count], vec![m as u16; count]);
                assert_eq!(values[count..], vec![777; more]);
            }
        }
    }
}

/// What the values hold before does not matter, also what another call or the same one has left there.
#[test]
fn values_used_again() {
    cases(154, 300, |random| {
        let mut values = vec![0xFFFF; 100];
        for _ in 0..4 {
            let m = random.between(1, 60);
            let file = file_of(&random_family(random, m));
            let count = random.between(0, 32);
            let selections = some_selections(random, m, count);
            let expected = each_alone(&file, &selections);
            for _ in 0..2 {
                let rest = values[count..].to_vec();
                let joined = selections.concat();
                let answer = guarded::bounds_list(&file, &joined, count as u16, 0, &mut values);
                assert_eq!(answer.number, 0);
                assert_eq!(values[..count], expected);
                assert_eq!(values[count..], rest);
            }
        }
    });
}
