//! The worked examples: the eight-peptide family of the scope document, E1 to E10, its hybrid curves, and the published example
//! of section 3.3 of "Fast confidence bounds for the false discovery proportion over a path of hypotheses". What is expected
//! here was copied from these two texts.

use phf_tests::families::{eight_peptides, file, EIGHT_P_VALUES};
use phf_tests::guarded::{self, curve_of, hybrid_of, list_of, reduced};
use phf_tests::reference::file_of;

fn hexadecimal(text: &str) -> Vec<u8> {
    text.split_whitespace()
        .map(|two| u8::from_str_radix(two, 16).unwrap())
        .collect()
}

const E3: &str = "50 48 46 42 08 00 04 00 02 00 10 00 18 00 24 00 \
    02 00 03 00 01 00 02 00 \
    02 00 02 00 01 00 \
    04 00 04 00 00 00";

const EIGHT_PATH: [u16; 8] = [7, 3, 1, 4, 6, 2, 5, 8];

#[test]
fn e1_the_curve() {
    let (values, marks) = curve_of(&file_of(&eight_peptides()), &EIGHT_PATH);
    assert_eq!(values, [0, 0, 1, 2, 2, 3, 4, 4, 4]);
    assert_eq!(marks, [0, 1, 1, 0, 1, 1, 0, 0]);
}

/// Entry t is the bound of the first t peptides of the path.
#[test]
fn e1_as_a_list() {
    let first = |t: usize| {
        let mut selection = vec![0; 8];
        for p in &EIGHT_PATH[..t] {
            selection[*p as usize - 1] = 1;
        }
        selection
    };
    let selections: Vec<Vec<u8>> = (0..=8).map(first).collect();
    let values = list_of(&file_of(&eight_peptides()), &selections);
    assert_eq!(values, [0, 0, 1, 2, 2, 3, 4, 4, 4]);
}

#[test]
fn e2_the_taken_regions() {
    let mut taken = [9; 5];
    let answer = guarded::bound(&file_of(&eight_peptides()), &[1; 8], &mut taken);
    assert_eq!((answer.number, answer.bound), (0, 4));
    assert_eq!(taken, [0, 0, 1, 0, 1]);
}

#[test]
fn e3_the_reduced_file() {
    assert_eq!(reduced(&file_of(&eight_peptides())), hexadecimal(E3));
}

#[test]
fn e4_and_e5_the_cuts() {
    let file = file_of(&eight_peptides());
    assert_eq!(guarded::cut(&file, &EIGHT_PATH, 1, 2).cut, 8);
    assert_eq!(guarded::cut(&file, &EIGHT_PATH, 2, 5).cut, 1);
}

#[test]
fn e6_another_family_with_the_same_reduction() {
    let other = file(&[2, 3, 1, 1, 1], &[(2, 2, 1), (4, 4, 0), (5, 5, 0)]);
    assert_eq!(reduced(&other), hexadecimal(E3));
    let answer = guarded::same(&file_of(&eight_peptides()), &other);
    assert_eq!((answer.number, answer.same), (0, 1));
}

#[test]
fn e7_a_smaller_bound_shows() {
    let mut family = eight_peptides();
    let before = file_of(&family);
    family.regions[0].z = 2;
    let after = file_of(&family);
    assert_ne!(reduced(&before), reduced(&after));
    assert_eq!(guarded::same(&before, &after).same, 0);
    assert_eq!(curve_of(&after, &[3, 1, 2]).0, [0, 1, 2, 2]);
    assert_eq!(curve_of(&before, &[3, 1, 2]).0, [0, 1, 2, 3]);
}

#[test]
fn e8_to_e10_one_leaf() {
    let plain = file(&[3], &[]);
    assert_eq!(curve_of(&plain, &[2, 1, 3]).0, [0, 1, 2, 3]);
    assert_eq!(reduced(&plain), plain);
    assert_eq!(curve_of(&file(&[1], &[(1, 1, 0)]), &[1]).0, [0, 0]);
    let loose = file(&[3], &[(1, 1, 5)]);
    assert_eq!(reduced(&loose), plain);
}

#[test]
fn the_hybrid_curves() {
    let file = file_of(&eight_peptides());
    for (level, expected) in [
        (50_000, [0, 0, 0, 0, 0, 1, 2, 3, 3]),
        (1_000_000, [0, 0, 0, 0, 0, 0, 1, 2, 2]),
    ] {
        let values = hybrid_of(&file, &EIGHT_PATH, &EIGHT_P_VALUES, level);
        assert_eq!(values, expected);
    }
}

// Example 2.2 labelled as in Example 2.3: the leaves P1 to P8 and the regions with the values of section 3.3.
fn published(completed: bool) -> Vec<u8> {
    let lengths = [2, 2, 6, 6, 4, 1, 1, 3];
    let mut regions = vec![
        (1, 5, 5),
        (1, 1, 2),
        (2, 3, 0),
        (3, 3, 0),
        (4, 5, 4),
        (4, 4, 2),
        (5, 5, 3),
        (6, 7, 2),
        (7, 7, 0),
    ];
    if completed {
        regions.extend([(2, 2, 2), (6, 6, 1), (8, 8, 3)]);
        regions.sort_by_key(|(first, last, _)| (*first, std::cmp::Reverse(*last)));
    }
    file(&lengths, &regions)
}

const PUBLISHED_PATH: [u16; 9] = [11, 17, 12, 13, 18, 24, 19, 22, 5];

#[test]
fn the_published_curve() {
    for completed in [false, true] {
        let (values, marks) = curve_of(&published(completed), &PUBLISHED_PATH);
        assert_eq!(values, [0, 1, 2, 3, 3, 4, 5, 5, 5, 5]);
        assert_eq!(marks, [1, 1, 1, 0, 1, 1, 0, 0, 0]);
    }
}

#[test]
fn the_published_family_reduces_as_its_completion_does() {
    // By the steps of the scope document: 3 to 10 and 22 are dead. The region 1 to 20 keeps its stretch, since 5 is less
    // than 2 + 4; leaf 1 does not, since 2 is its room; 11 to 20 does, since 4 is less than 2 + 3; so do 11 to 16 (2 of 6)
    // and 17 to 20 (3 of 4). The stretch of 21 and 22 is 21 alone, with room 1.
    let expected = file(
        &[2, 8, 6, 4, 1, 1, 3],
        &[
            (1, 4, 5),
            (2, 2, 0),
            (3, 4, 4),
            (3, 3, 2),
            (4, 4, 3),
            (6, 6, 0),
        ],
    );
    assert_eq!(reduced(&published(false)), expected);
    assert_eq!(reduced(&published(true)), expected);
    assert_eq!(guarded::same(&published(false), &published(true)).same, 1);
}
