//! Declined calls: each cause at its edge, the first of several, and nothing written.

use phf_tests::compare;
use phf_tests::families::{
    all_but_one_empty, chain, damage, eight_peptides, family, file, level_file, listed,
    random_family, DAMAGES, DEVIATION_SQUARED, EIGHT_P_VALUES,
};
use phf_tests::random::{cases, Random};
use phf_tests::reference::{file_of, level_file_of, Family};
use std::cell::RefCell;
use std::collections::BTreeMap;

fn with_number(file: &[u8], at: usize, number: u16) -> Vec<u8> {
    let mut changed = file.to_vec();
    changed[at..at + 2].copy_from_slice(&number.to_le_bytes());
    changed
}

#[test]
fn cause_1_mark_and_first_16_bytes() {
    let file = file(&[1], &[]);
    assert_eq!(compare::check(&[]), 1);
    assert_eq!(compare::check(&file[..15]), 1);
    assert_eq!(compare::check(&file[..16]), 5);
    for i in 0..4 {
        let mut other = file.clone();
        other[i] += 1;
        assert_eq!(compare::check(&other), 1);
    }
    assert_eq!(compare::check(&file), 0);
}

#[test]
fn cause_2_peptides() {
    assert_eq!(compare::check(&file(&[4096], &[])), 0);
    assert_eq!(compare::check(&file(&[4097], &[])), 2);
    assert_eq!(compare::check(&file(&[65535], &[])), 2);
    assert_eq!(compare::check(&with_number(&file(&[1], &[]), 4, 0)), 2);
}

#[test]
fn cause_3_leaves() {
    let leaves = |n: usize| file(&all_but_one_empty(n, 1, 1), &[]);
    assert_eq!(compare::check(&leaves(1)), 0);
    assert_eq!(compare::check(&leaves(2)), 0);
    assert_eq!(compare::check(&leaves(4096)), 0);
    assert_eq!(compare::check(&leaves(4097)), 3);
    assert_eq!(compare::check(&leaves(65535)), 3);
    assert_eq!(compare::check(&with_number(&leaves(1), 6, 0)), 3);
    // before the number of regions, the layout and the lengths, after the number of peptides
    let many = leaves(4097);
    assert_eq!(compare::check(&with_number(&many, 8, 65535)), 3);
    assert_eq!(compare::check(&with_number(&many, 14, 0)), 3);
    assert_eq!(compare::check(&many[..16]), 3);
    assert_eq!(compare::check(&with_number(&many, 16, 2)), 3);
    assert_eq!(compare::check(&with_number(&many, 4, 0)), 2);
    assert_eq!(compare::check(&with_number(&many, 4, 4097)), 2);
}

#[test]
fn cause_4_regions() {
    let whole = file(&[1, 1], &[(1, 2, 1), (1, 1, 1), (2, 2, 1)]);
    assert_eq!(compare::check(&whole), 0);
    let more = file(&[1, 1], &[(1, 2, 1), (1, 1, 1), (2, 2, 1), (2, 2, 0)]);
    assert_eq!(compare::check(&more), 4);
    // empty leaves and what is over them count like the others
    let empty = file(&[1, 0], &[(1, 2, 1), (1, 1, 1), (2, 2, 1)]);
    assert_eq!(compare::check(&empty), 0);
    let more = file(&[1, 0], &[(1, 2, 1), (1, 1, 1), (2, 2, 1), (2, 2, 0)]);
    assert_eq!(compare::check(&more), 4);
    assert_eq!(compare::check(&file(&[1], &[(1, 1, 0)])), 0);
    assert_eq!(compare::check(&file(&[1], &[(1, 1, 1), (1, 1, 0)])), 4);
    assert_eq!(compare::check(&with_number(&whole, 8, 65535)), 4);
}

#[test]
fn cause_5_layout() {
    let eight = file_of(&eight_peptides());
    for at in [10, 12, 14] {
        let number = u16::from_le_bytes([eight[at], eight[at + 1]]);
        assert_eq!(compare::check(&with_number(&eight, at, number + 1)), 5);
        assert_eq!(compare::check(&with_number(&eight, at, number - 1)), 5);
    }
    assert_eq!(compare::check(&eight[..eight.len() - 1]), 5);
    let mut longer = eight.clone();
    longer.push(0);
    assert_eq!(compare::check(&longer), 5);
}

#[test]
fn cause_6_leaf_lengths() {
    let two = |a: u16, b: u16| {
        let mut family = family(&[1, 4], &[]);
        family.lengths = vec![a, b];
        file_of(&family)
    };
    assert_eq!(compare::check(&two(2, 3)), 0);
    assert_eq!(compare::check(&two(2, 2)), 6);
    assert_eq!(compare::check(&two(2, 4)), 6);
    assert_eq!(compare::check(&two(0, 5)), 0);
    assert_eq!(compare::check(&two(5, 0)), 0);
    assert_eq!(compare::check(&two(0, 4)), 6);
    assert_eq!(compare::check(&two(0, 6)), 6);
    assert_eq!(compare::check(&two(4, 0)), 6);
    assert_eq!(compare::check(&two(6, 0)), 6);
    assert_eq!(compare::check(&two(0, 0)), 6);
    let all_empty = with_number(&file(&[0; 4096], &[]), 4, 1);
    assert_eq!(compare::check(&all_empty), 6);
    // before the regions
    let misplaced = file(&[0, 5], &[(1, 3, 1)]);
    assert_eq!(compare::check(&misplaced), 7);
    assert_eq!(compare::check(&with_number(&misplaced, 4, 4)), 6);
    // a sum that is m in 16 bits only
    let mut wrapped = family(&[1; 4096], &[]);
    wrapped.lengths = vec![65535; 4096];
    wrapped.lengths[0] = 4095 + 4096;
    wrapped.peptides = 4096;
    let sum: u32 = wrapped.lengths.iter().map(|l| *l as u32).sum();
    assert_eq!(sum % 65536, 4096);
    assert_eq!(compare::check(&file_of(&wrapped)), 6);
}

#[test]
fn cause_7_region_leaves() {
    let one = |first: u16, last: u16| file(&[1, 1, 1], &[(first, last, 1)]);
    assert_eq!(compare::check(&one(1, 3)), 0);
    assert_eq!(compare::check(&one(3, 3)), 0);
    assert_eq!(compare::check(&one(0, 3)), 7);
    assert_eq!(compare::check(&one(3, 2)), 7);
    assert_eq!(compare::check(&one(1, 4)), 7);
    assert_eq!(compare::check(&one(0, 0)), 7);
}

#[test]
fn cause_8_order() {
    let two = |r: (u16, u16, u16), q: (u16, u16, u16)| file(&[1, 1, 1], &[r, q]);
    assert_eq!(compare::check(&two((1, 3, 1), (1, 2, 1))), 0);
    assert_eq!(compare::check(&two((1, 2, 1), (1, 3, 1))), 8);
    assert_eq!(compare::check(&two((2, 2, 1), (1, 1, 1))), 8);
    assert_eq!(compare::check(&two((1, 2, 1), (1, 2, 2))), 8);
    // every region is placed before any order is looked at
    assert_eq!(
        compare::check(&file(&[1, 1, 1], &[(2, 2, 1), (1, 1, 1), (0, 1, 1)])),
        7
    );
}

#[test]
fn cause_9_crossing() {
    let two = |r: (u16, u16, u16), q: (u16, u16, u16)| file(&[1; 4], &[r, q]);
    assert_eq!(compare::check(&two((1, 2, 1), (3, 4, 1))), 0);
    assert_eq!(compare::check(&two((1, 3, 1), (3, 3, 1))), 0);
    assert_eq!(compare::check(&two((1, 2, 1), (2, 3, 1))), 9);
    assert_eq!(compare::check(&two((1, 3, 1), (3, 4, 1))), 9);
    // crossing another than the region before it
    assert_eq!(
        compare::check(&file(&[1; 5], &[(1, 3, 1), (2, 2, 1), (3, 4, 1)])),
        9
    );
}

#[test]
fn cause_10_depth() {
    assert_eq!(compare::check(&file_of(&chain(64, 64, 1))), 0);
    assert_eq!(compare::check(&file_of(&chain(65, 64, 1))), 0);
    assert_eq!(compare::check(&file_of(&chain(65, 65, 1))), 10);
    assert_eq!(compare::check(&file_of(&chain(4096, 4096, 1))), 10);
    // as deep over leaves of which only the last has a peptide
    let empty = |depth: usize| {
        let mut family = chain(65, depth, 1);
        family.lengths = all_but_one_empty(66, 66, 1);
        family.peptides = 1;
        file_of(&family)
    };
    assert_eq!(compare::check(&empty(64)), 0);
    assert_eq!(compare::check(&empty(65)), 10);
}

#[test]
fn causes_11_to_13_path() {
    let eight = file_of(&eight_peptides());
    let curve = |path: &[u16]| {
        let t = path.len();
        let number = compare::curve(&eight, path, t + 1, t);
        assert_eq!(compare::cut(&eight, path, 1, 2), number);
        let hybrid = compare::hybrid(&eight, path, &EIGHT_P_VALUES, 50_000, t + 1);
        assert_eq!(hybrid, number);
        number
    };
    assert_eq!(curve(&[]), 0);
    assert_eq!(curve(&[1, 2, 3, 4, 5, 6, 7, 8]), 0);
    assert_eq!(curve(&[1, 2, 3, 4, 5, 6, 7, 8, 9]), 11);
    assert_eq!(curve(&[0; 9]), 11);
    assert_eq!(curve(&[8]), 0);
    assert_eq!(curve(&[9]), 12);
    assert_eq!(curve(&[0]), 12);
    assert_eq!(curve(&[65535]), 12);
    assert_eq!(curve(&[1, 1, 0]), 12);
    assert_eq!(curve(&[1, 1]), 13);
    assert_eq!(curve(&[1, 2, 3, 1, 3]), 13);
}

#[test]
fn cause_14_selection() {
    let eight = file_of(&eight_peptides());
    assert_eq!(compare::bound(&eight, &[1; 8], 5), 0);
    assert_eq!(compare::bound(&eight, &[1; 7], 5), 14);
    assert_eq!(compare::bound(&eight, &[1; 9], 5), 14);
    assert_eq!(compare::bound(&eight, &[], 5), 14);
    assert_eq!(compare::bound(&eight, &[0, 0, 0, 0, 0, 0, 0, 2], 5), 14);
    assert_eq!(compare::bound(&eight, &[255; 8], 5), 14);
    // before a short output
    assert_eq!(compare::bound(&eight, &[1; 7], 4), 14);
    assert_eq!(compare::bounds_list(&eight, &[1; 16], 2, 0, 2), 0);
    assert_eq!(compare::bounds_list(&eight, &[1; 15], 2, 0, 2), 14);
    assert_eq!(compare::bounds_list(&eight, &[1; 17], 2, 0, 2), 14);
    assert_eq!(compare::bounds_list(&eight, &[2; 16], 2, 0, 2), 14);
    assert_eq!(compare::bounds_list(&eight, &[], 0, 0, 0), 0);
    assert_eq!(compare::bounds_list(&eight, &[1; 8], 0, 0, 0), 14);
}

#[test]
fn cause_15_fraction() {
    let eight = file_of(&eight_peptides());
    assert_eq!(compare::cut(&eight, &[1, 2], 0, 1), 0);
    assert_eq!(compare::cut(&eight, &[1, 2], 1, 1), 0);
    assert_eq!(compare::cut(&eight, &[1, 2], 65535, 65535), 0);
    assert_eq!(compare::cut(&eight, &[1, 2], 0, 0), 15);
    assert_eq!(compare::cut(&eight, &[1, 2], 2, 1), 15);
    assert_eq!(compare::cut(&eight, &[1, 1], 2, 1), 13);
}

#[test]
fn cause_16_outputs() {
    let eight = file_of(&eight_peptides());
    let path = [7, 3, 1];
    assert_eq!(compare::curve(&eight, &path, 4, 3), 0);
    assert_eq!(compare::curve(&eight, &path, 3, 3), 16);
    assert_eq!(compare::curve(&eight, &path, 4, 2), 16);
    assert_eq!(compare::curve(&eight, &path, 0, 0), 16);
    assert_eq!(compare::curve(&eight, &[7, 7], 0, 0), 13);
    assert_eq!(compare::curve(&eight, &[], 1, 0), 0);
    assert_eq!(compare::curve(&eight, &[], 0, 0), 16);
    assert_eq!(compare::bound(&eight, &[1; 8], 5), 0);
    assert_eq!(compare::bound(&eight, &[1; 8], 4), 16);
    assert_eq!(compare::bound(&file(&[3], &[]), &[1; 3], 0), 0);
    assert_eq!(compare::bounds_list(&eight, &[1; 24], 3, 0, 3), 0);
    assert_eq!(compare::bounds_list(&eight, &[1; 24], 3, 0, 2), 16);
    assert_eq!(compare::reduce(&eight, eight.len()), 0);
    assert_eq!(compare::reduce(&eight, eight.len() - 1), 16);
    // the reduced file would fit
    let loose = file(&[3], &[(1, 1, 5)]);
    assert_eq!(compare::reduce(&loose, loose.len() - 1), 16);
    assert_eq!(compare::reduce(&loose, 18), 16);
    let p_values = [40_000; 3];
    assert_eq!(compare::bounds_from_p(&loose, &p_values, 0, loose.len()), 0);
    assert_eq!(
        compare::bounds_from_p(&loose, &p_values, 0, loose.len() - 1),
        16
    );
    assert_eq!(compare::hybrid(&loose, &[3, 1], &p_values, 50_000, 3), 0);
    assert_eq!(compare::hybrid(&loose, &[3, 1], &p_values, 50_000, 2), 16);
    assert_eq!(compare::hybrid(&loose, &[], &p_values, 50_000, 1), 0);
    assert_eq!(compare::hybrid(&loose, &[], &p_values, 50_000, 0), 16);
    assert_eq!(compare::to_levels(&loose, loose.len() + 128), 0);
    assert_eq!(compare::to_levels(&loose, loose.len() + 127), 16);
    let by_level = level_file(&eight_peptides());
    assert_eq!(compare::from_levels(&by_level, eight.len()), 0);
    assert_eq!(compare::from_levels(&by_level, eight.len() - 1), 16);
}

#[test]
fn causes_24_and_25_list() {
    let eight = file_of(&eight_peptides());
    let told = |count: u16, tally: u32| {
        let selections = vec![1; 8 * count as usize];
        compare::bounds_list(&eight, &selections, count, tally, count as usize)
    };
    assert_eq!(told(32, 0), 0);
    assert_eq!(told(33, 0), 24);
    // five regions
    assert_eq!(told(32, 4_294_967_290), 0);
    assert_eq!(told(32, 4_294_967_291), 25);
    assert_eq!(told(33, 4_294_967_291), 24);
}

#[test]
fn causes_26_and_27_levels() {
    let told = |regions: &[(u16, u16, u16)], counts: &[u16]| {
        let file = level_file_of(&listed(&[1; 4], regions, counts));
        compare::from_levels(&file, file.len() - 128)
    };
    let regions = [(1, 3, 1), (4, 4, 1), (2, 3, 1)];
    assert_eq!(told(&regions, &[2, 1]), 0);
    assert_eq!(told(&regions, &[2, 0]), 26);
    assert_eq!(told(&regions, &[2, 2]), 26);
    assert_eq!(told(&regions, &[3, 0]), 27);
    assert_eq!(told(&regions, &[1, 2]), 27);
    let falling = [(4, 4, 1), (1, 3, 1), (2, 3, 1)];
    assert_eq!(told(&falling, &[2, 1]), 27);
    assert_eq!(told(&falling, &[2, 2]), 26);
    let twice = [(1, 3, 1), (4, 4, 1), (1, 3, 1)];
    assert_eq!(told(&twice, &[2, 1]), 27);
    assert_eq!(told(&twice, &[2]), 26);
    // no other call takes the one file for the other
    let file = level_file(&eight_peptides());
    assert_eq!(compare::check(&file), 1);
    assert_eq!(compare::to_levels(&file, 500), 1);
    assert_eq!(compare::from_levels(&file_of(&eight_peptides()), 500), 1);
}

#[test]
fn comparison_numbers() {
    let eight = file_of(&eight_peptides());
    let broken = &eight[..eight.len() - 1];
    let other = file(&[3], &[]);
    assert_eq!(compare::same(&eight, &eight), (0, 1));
    assert_eq!(compare::same(&eight, &other), (0, 0));
    assert_eq!(compare::same(broken, &other), (5, 0));
    assert_eq!(compare::same(&other, broken), (105, 0));
    assert_eq!(compare::same(broken, &[]), (5, 0));
    assert_eq!(compare::same(&eight, &[]), (101, 0));
    assert_eq!(compare::same(&eight, &file_of(&chain(65, 65, 1))), (110, 0));
}

/// How often each number was answered.
type Seen = RefCell<BTreeMap<u16, usize>>;

fn note(seen: &Seen, number: u16) {
    *seen.borrow_mut().entry(number).or_default() += 1;
}

/// A family that is accepted, or nests one region or two too deep.
fn nested(random: &mut Random) -> Family {
    match random.below(8) {
        0 => chain(random.between(66, 70), random.between(64, 66), 2),
        1 => eight_peptides(),
        _ => {
            let m = random.between(1, 60);
            random_family(random, m)
        }
    }
}

/// One damage or two near the edges of the causes, in every call.
#[test]
fn damaged_files() {
    let seen = Seen::default();
    let eight = file_of(&eight_peptides());
    cases(30, 30_000, |random| {
        let family = nested(random);
        let m = family.peptides as usize;
        let whole = file_of(&family);
        let mut file = whole.clone();
        for _ in 0..random.between(1, 2) {
            let kind = random.below(DAMAGES);
            damage(random, kind, &mut file);
        }
        let number = compare::check(&file);
        note(&seen, number);
        let path = random.order(m);
        note(&seen, compare::curve(&file, &path, m + 1, m));
        note(&seen, compare::cut(&file, &path, 1, 3));
        let selection = random.selection(m, 1, 2);
        note(&seen, compare::bound(&file, &selection, 300));
        note(&seen, compare::bounds_list(&file, &selection, 1, 0, 1));
        note(&seen, compare::reduce(&file, 2000));
        let p_values = random.p_values(m, 1, 2);
        note(
            &seen,
            compare::bounds_from_p(&file, &p_values, DEVIATION_SQUARED, 2000),
        );
        note(
            &seen,
            compare::hybrid(&file, &path, &p_values, 50_000, m + 1),
        );
        note(&seen, compare::to_levels(&file, 2000));
        assert_eq!(compare::from_levels(&file, 2000), 1);
        note(&seen, compare::same(&file, &whole).0);
        note(&seen, compare::same(&whole, &file).0);
        note(&seen, compare::same(&eight, &file).0);
    });
    for number in (0..=10).chain(101..=110) {
        let times = seen.borrow().get(&number).copied().unwrap_or(0);
        assert!(times >= 20, "number {number} was seen {times} times");
    }
}

/// Whole files with bad paths, selections, lists of them, fractions, p-values, levels, tallies and outputs, also several at once.
#[test]
fn damaged_inputs() {
    let seen = Seen::default();
    cases(31, 20_000, |random| {
        let family = nested(random);
        let m = family.peptides as usize;
        let k = family.regions.len();
        let file = file_of(&family);
        let mut path = random.order(m);
        path.truncate(random.between(0, m));
        for _ in 0..random.below(3) {
            match random.below(4) {
                0 => path.push(random.between(1, m) as u16),
                1 => path.extend(random.order(m)),
                2 if !path.is_empty() => {
                    let at = random.below(path.len());
                    path[at] = [0, m as u16, m as u16 + 1, 65535][random.below(4)];
                }
                _ => {}
            }
        }
        let t = path.len();
        let values = (t + 2).saturating_sub(random.below(4));
        let marks = (t + 1).saturating_sub(random.below(3));
        note(&seen, compare::curve(&file, &path, values, marks));
        let (a, b) = (random.below(4) as u16, random.below(4) as u16);
        note(&seen, compare::cut(&file, &path, a, b));
        let mut selection = random.selection(m, 1, 2);
        match random.below(6) {
            0 => {
                selection.pop();
            }
            1 => selection.push(1),
            2 => {
                let at = random.below(m);
                selection[at] = random.below(256) as u8;
            }
            _ => {}
        }
        let room = (k + 1).saturating_sub(random.below(3));
        note(&seen, compare::bound(&file, &selection, room));
        let count = random.between(1, 34);
        let list = selection.repeat(count);
        let tally = u32::MAX - random.between(0, 2 * k) as u32;
        let room = (count + 1).saturating_sub(random.below(3));
        note(
            &seen,
            compare::bounds_list(&file, &list, count as u16, tally, room),
        );
        let room = (file.len() + 1).saturating_sub(random.below(3));
        note(&seen, compare::to_levels(&file, room + 128));
        note(&seen, compare::reduce(&file, room));
        let mut p_values = random.p_values(m, 1, 2);
        match random.below(6) {
            0 => {
                p_values.pop();
            }
            1 => p_values.push(1_000_001),
            2 => {
                let at = random.below(m);
                p_values[at] = random.between(1_000_000, 1_000_001) as u32;
            }
            _ => {}
        }
        let constant = random.between(99_999_999, 100_000_001) as u32;
        note(
            &seen,
            compare::bounds_from_p(&file, &p_values, constant, room),
        );
        let level = [0, 1, 1_000_000, 1_000_001][random.below(4)];
        note(
            &seen,
            compare::hybrid(&file, &path, &p_values, level, values),
        );
    });
    for number in [0, 11, 12, 13, 14, 15, 16, 20, 21, 22, 23, 24, 25] {
        let times = seen.borrow().get(&number).copied().unwrap_or(0);
        assert!(times >= 20, "number {number} was seen {times} times");
    }
}

/// Bytes of any kind behind a good mark.
#[test]
fn random_bytes() {
    cases(32, 20_000, |random| {
        let mut file = b"PHFB".to_vec();
        for _ in 0..random.below(120) {
            let small = random.below(256) * random.below(2) * random.below(2);
            file.push(small as u8);
        }
        compare::check(&file);
        compare::curve(&file, &[1, 2], 3, 2);
        compare::bound(&file, &[1, 0, 1], 9);
        compare::bounds_list(&file, &[1, 0, 1], 3, 0, 3);
        compare::bounds_from_p(&file, &[5, 0, 1_000_000], DEVIATION_SQUARED, 130);
        compare::hybrid(&file, &[1, 2], &[5, 0, 1_000_000], 50_000, 3);
        compare::to_levels(&file, 250);
    });
}
