//! The region part as `reader::regions` hands it back: the program crates/region_part/out/region_part writes its bytes. The place that C
//! gets has to have the same ones.

use phf_tests::families::{
    all_but_one_empty, binary_tree, chain, damage, eight_peptides, file, level_file, random_family,
    Bounds, DAMAGES,
};
use phf_tests::guarded;
use phf_tests::phf;
use phf_tests::programs::{folder, program};
use phf_tests::random::{cases, Random};
use phf_tests::reference::{check, file_of};
use std::path::Path;
use std::process::Command;

/// What the program writes in a folder with this file.
fn written(name: &str, family: Option<&[u8]>) -> Vec<u8> {
    let place = Path::new(env!("CARGO_TARGET_TMPDIR")).join("regions");
    let output = Command::new(program("region_part"))
        .current_dir(folder(&place.join(name), family, None))
        .output()
        .unwrap();
    assert!(output.status.success());
    assert!(output.stderr.is_empty());
    output.stdout
}

/// The part, from the scope document's words: first leaf, last leaf and z of each region of an accepted file, else nothing.
fn expected(file: &[u8]) -> Vec<u8> {
    let Ok(family) = check(file) else {
        return Vec::new();
    };
    let numbers = family.regions.iter().flat_map(|r| [r.first, r.last, r.z]);
    numbers.flat_map(u16::to_le_bytes).collect()
}

/// The part of a file, which both ways to it give.
fn part(name: &str, file: &[u8]) -> Vec<u8> {
    let part = written(name, Some(file));
    assert_eq!(part, expected(file));
    let place = guarded::regions(file);
    let (from, length) = (place.offset as usize, place.length as usize);
    assert_eq!(part, file[from..from + length]);
    part
}

#[test]
fn the_eight_peptides() {
    // (1,2,3), (1,1,2), (2,2,1), (3,4,3), (4,4,0)
    let bytes = [
        1, 0, 2, 0, 3, 0, 1, 0, 1, 0, 2, 0, 2, 0, 2, 0, 1, 0, 3, 0, 4, 0, 3, 0, 4, 0, 4, 0, 0, 0,
    ];
    assert_eq!(part("eight", &file_of(&eight_peptides())), bytes);
}

#[test]
fn leaf_lengths_with_the_bytes_of_a_region() {
    let family = file(&[1, 1, 5], &[(1, 1, 5)]);
    assert_eq!(part("equal", &family), family[16..22]);
    let place = phf::Part {
        offset: 22,
        length: 6,
    };
    assert_eq!(guarded::regions(&family), place);
}

#[test]
fn no_region() {
    assert!(part("one-leaf", &file(&[3], &[])).is_empty());
    assert!(part("two-leaves", &file(&[1, 2], &[])).is_empty());
    let place = phf::Part {
        offset: 20,
        length: 0,
    };
    assert_eq!(guarded::regions(&file(&[1, 2], &[])), place);
}

#[test]
fn empty_leaves() {
    // (1,1,0) and (2,3,4)
    let bytes = [1, 0, 1, 0, 0, 0, 2, 0, 3, 0, 4, 0];
    let family = file(&[0, 1, 0], &[(1, 1, 0), (2, 3, 4)]);
    assert_eq!(part("empty-leaves", &family), bytes);
    let family = file(&all_but_one_empty(4096, 4096, 1), &[(1, 4096, 7)]);
    assert_eq!(part("most-leaves", &family), [1, 0, 0, 16, 7, 0]);
    let family = file(&all_but_one_empty(4097, 4097, 1), &[(1, 4097, 7)]);
    assert!(part("too-many-leaves", &family).is_empty());
}

#[test]
fn refused_files() {
    let eight = file_of(&eight_peptides());
    assert!(written("missing", None).is_empty());
    assert!(part("empty", &[]).is_empty());
    assert!(part("short", &eight[..15]).is_empty());
    assert!(part("torn", &eight[..40]).is_empty());
    assert!(part("by-level", &level_file(&eight_peptides())).is_empty());
    assert!(part("peptides", &file(&[4097], &[(1, 1, 1)])).is_empty());
    assert!(part("crossing", &file(&[1; 3], &[(1, 2, 1), (2, 3, 1)])).is_empty());
    assert!(part("deep", &file_of(&chain(65, 65, 1))).is_empty());
    assert_eq!(part("deepest", &file_of(&chain(64, 64, 1))).len(), 6 * 64);
    let mut long = eight.clone();
    long.extend([0; 70_000]);
    assert!(part("long", &long).is_empty());
}

#[test]
fn the_longest_file() {
    let family = file_of(&binary_tree(&mut Random::new(60), 4096, 1, Bounds::Small));
    assert_eq!(part("longest", &family).len(), 6 * 8191);
}

#[test]
fn random_files() {
    cases(61, 60, |random| {
        let m = random.between(1, 200);
        let mut family = file_of(&random_family(random, m));
        if random.chance(1, 2) {
            let kind = random.below(DAMAGES);
            damage(random, kind, &mut family);
        }
        part("random", &family);
    });
}
