//! The place with number 13: the first place of the path, counted from 1, whose peptide stands earlier too. What is expected
//! is written beside each path, or known from how the path is made.

use phf_tests::compare;
use phf_tests::families::{chain, eight_peptides, file, random_family};
use phf_tests::guarded;
use phf_tests::random::{cases, Random};
use phf_tests::reference::file_of;

/// What the curve, the cut and the hybrid curve, with nothing else to decline, answer for a path: the number and the place.
fn told(file: &[u8], path: &[u16]) -> (u16, u16) {
    let t = path.len();
    let (mut values, mut marks) = (vec![777; t + 1], vec![77; t]);
    let curve = guarded::curve(file, path, &mut values, &mut marks);
    let cut = guarded::cut(file, path, 1, 2);
    let p_values = vec![40_000; guarded::check(file).peptides as usize];
    let mut smaller = vec![777; t + 1];
    let hybrid = guarded::hybrid(file, path, &p_values, 50_000, &mut smaller);
    assert_eq!((curve.number, curve.place), (cut.number, cut.place));
    assert_eq!(curve, hybrid);
    if curve.number != 0 {
        assert_eq!((values, marks), (vec![777; t + 1], vec![77; t]));
        assert_eq!(smaller, vec![777; t + 1]);
        assert_eq!(cut.cut, 0);
    }
    (curve.number, curve.place)
}

#[test]
fn several_repeats() {
    let eight = file_of(&eight_peptides());
    // 3 again at 4, 7 at 5, 1 at 6
    assert_eq!(told(&eight, &[7, 3, 1, 3, 7, 1]), (13, 4));
    assert_eq!(told(&eight, &[1, 2, 1, 2]), (13, 3));
    // the pair that closes first, not the one that opens first
    assert_eq!(told(&eight, &[1, 2, 2, 1]), (13, 3));
    assert_eq!(told(&eight, &[8, 8]), (13, 2));
    assert_eq!(told(&eight, &[8, 8, 7, 7, 6, 6, 5, 5]), (13, 2));
    assert_eq!(told(&eight, &[5, 6, 7, 8, 8, 7, 6, 5]), (13, 5));
}

#[test]
fn triples() {
    let eight = file_of(&eight_peptides());
    assert_eq!(told(&eight, &[4, 4, 4]), (13, 2));
    assert_eq!(told(&eight, &[5, 2, 5, 5]), (13, 3));
    assert_eq!(told(&eight, &[5, 2, 3, 5, 1, 5]), (13, 4));
    assert_eq!(told(&eight, &[1; 8]), (13, 2));
}

/// A path whose only repeat stands at its end, for every length.
#[test]
fn at_the_end() {
    let eight = file_of(&eight_peptides());
    let order = [7, 3, 1, 4, 6, 2, 5, 8];
    for t in 2..=8 {
        for twin in 1..t {
            let mut path = order[..t].to_vec();
            path[t - 1] = path[twin - 1];
            assert_eq!(told(&eight, &path), (13, t as u16));
        }
    }
}

/// The first repeat at place 4,096, which is T and m; and, with the same twin, each place before it in steps.
#[test]
fn late_in_the_longest_path() {
    let longest = file(&[4096], &[(1, 1, 7)]);
    let deep = file_of(&chain(4096, 64, 3));
    for family in [&longest, &deep] {
        for twin in [1, 2, 2048, 4094, 4095] {
            let mut path: Vec<u16> = (1..=4096).rev().collect();
            path[4095] = path[twin - 1];
            assert_eq!(told(family, &path), (13, 4096));
            for place in (twin + 1..4096).step_by(511) {
                let mut earlier = path.clone();
                earlier[place - 1] = path[twin - 1];
                assert_eq!(told(family, &earlier), (13, place as u16));
            }
        }
    }
}

/// Causes 11 and 12 are tried over the whole path before any repeat is looked for, and come without a place.
#[test]
fn before_a_repeat() {
    let eight = file_of(&eight_peptides());
    // out of range after the repeat, before it, and between
    assert_eq!(told(&eight, &[1, 1, 9]), (12, 0));
    assert_eq!(told(&eight, &[1, 1, 0]), (12, 0));
    assert_eq!(told(&eight, &[9, 1, 1]), (12, 0));
    assert_eq!(told(&eight, &[1, 65535, 1]), (12, 0));
    // what is out of range is what repeats
    assert_eq!(told(&eight, &[0, 0]), (12, 0));
    assert_eq!(told(&eight, &[9, 9]), (12, 0));
    // too long
    assert_eq!(told(&eight, &[1; 9]), (11, 0));
    assert_eq!(told(&eight, &[1, 1, 2, 3, 4, 5, 6, 7, 8]), (11, 0));
    // a refused family
    assert_eq!(told(&eight[..53], &[1, 1]), (5, 0));
    assert_eq!(told(&[], &[1, 1]), (1, 0));
}

/// Causes 15, 16, 20, 21 and 23 come after a repeat.
#[test]
fn after_a_repeat() {
    let eight = file_of(&eight_peptides());
    for (values, marks) in [(0, 0), (4, 4), (5, 3), (0, 4), (5, 0)] {
        let (mut values, mut marks) = (vec![777; values], vec![77; marks]);
        let curve = guarded::curve(&eight, &[1, 2, 1, 2], &mut values, &mut marks);
        assert_eq!((curve.number, curve.place), (13, 3));
        assert!(values.iter().all(|v| *v == 777) && marks.iter().all(|v| *v == 77));
    }
    for (a, b) in [(0, 0), (2, 1), (65535, 0)] {
        let cut = guarded::cut(&eight, &[1, 2, 1, 2], a, b);
        assert_eq!((cut.number, cut.place, cut.cut), (13, 3, 0));
    }
    for (p_values, level, room) in [
        (&[40_000; 8][..], 50_000, 4),
        (&[40_000; 8], 50_000, 0),
        (&[40_000; 7], 50_000, 5),
        (&[1_000_001; 8], 50_000, 5),
        (&[40_000; 8], 0, 5),
        (&[40_000; 8], 1_000_001, 5),
        (&[1_000_001; 9], 0, 0),
    ] {
        let mut values = vec![777; room];
        let hybrid = guarded::hybrid(&eight, &[1, 2, 1, 2], p_values, level, &mut values);
        assert_eq!((hybrid.number, hybrid.place), (13, 3));
        assert_eq!(values, vec![777; room]);
    }
}

/// Every path of up to six numbers from 0 to 5, of four peptides: against the page's words.
#[test]
fn every_short_path() {
    let four = file(&[1, 2, 1], &[(1, 2, 2), (2, 2, 1)]);
    let mut seen = [0; 14];
    for t in 0..=6u32 {
        for code in 0..6usize.pow(t) {
            let path: Vec<u16> = (0..t).map(|i| (code / 6usize.pow(i) % 6) as u16).collect();
            let number = compare::curve(&four, &path, path.len() + 1, path.len());
            assert_eq!(compare::cut(&four, &path, 1, 2), number);
            let p_values = [900_000, 20, 500_000, 7];
            let hybrid = compare::hybrid(&four, &path, &p_values, 50_000, path.len() + 1);
            assert_eq!(hybrid, number);
            seen[number as usize] += 1;
        }
    }
    // longer than 4: 6^5 + 6^6; different numbers from 1 to 4: 1 + 4 + 12 + 24 + 24; in range: 1 + 4 + 16 + 64 + 256
    assert_eq!(seen[11], 7776 + 46656);
    assert_eq!(seen[0], 65);
    assert_eq!(seen[13], 341 - 65);
    assert_eq!(seen[12], 1 + 6 + 36 + 216 + 1296 - 341);
}

/// A path of different peptides, in which each of several places gets the peptide of an earlier one. Nothing changes before
/// the first of these places, so it is the first repeat.
fn with_repeats(random: &mut Random, m: usize) -> (Vec<u16>, u16) {
    let mut path = random.order(m);
    path.truncate(random.between(2, m));
    let t = path.len();
    let mut first = t;
    for _ in 0..random.between(1, 4) {
        let place = random.between(2, t);
        path[place - 1] = path[random.between(1, place - 1) - 1];
        first = first.min(place);
    }
    (path, first as u16)
}

/// A merged ranking, corrected from the top: what stands at the told place is taken out, until the path is accepted. What is
/// left is each peptide where it stood first.
#[test]
fn corrected_from_the_top() {
    cases(42, 500, |random| {
        let m = random.between(2, 40);
        let file = file_of(&random_family(random, m));
        let t = random.between(1, m);
        let merged: Vec<u16> = (0..t).map(|_| random.between(1, m) as u16).collect();
        let mut path = merged.clone();
        let mut last = 1;
        while let (13, place) = told(&file, &path) {
            // nothing before a place that was told is ever told again
            assert!(place > last);
            last = place - 1;
            path.remove(place as usize - 1);
        }
        assert_eq!(told(&file, &path), (0, 0));
        let first = |i: &usize| !merged[..*i].contains(&merged[*i]);
        let expected: Vec<u16> = (0..t).filter(first).map(|i| merged[i]).collect();
        assert_eq!(path, expected);
    });
}

#[test]
fn planted_repeats() {
    cases(40, 3000, |random| {
        let m = random.between(2, 60);
        let file = file_of(&random_family(random, m));
        let (path, first) = with_repeats(random, m);
        assert_eq!(told(&file, &path), (13, first));
    });
    cases(41, 20, |random| {
        let m = random.between(1000, 4096);
        let file = file_of(&random_family(random, m));
        let (path, first) = with_repeats(random, m);
        assert_eq!(told(&file, &path), (13, first));
    });
}
