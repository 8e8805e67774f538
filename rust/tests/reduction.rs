//! The reduction: one file for all families with the same bounds, no other file for another, and nothing left to reduce.

use phf_tests::compare;
use phf_tests::enumeration::Admissible;
use phf_tests::families::{all_families, all_families_of, random_family};
use phf_tests::guarded::{self, reduced};
use phf_tests::neighbours::{altered, rewritten};
use phf_tests::random::{cases, Random};
use phf_tests::reference::{check, file_of, Family};
use std::cell::Cell;
use std::collections::HashMap;

/// Equal reductions, and the answer yes, exactly when the bounds of all selections agree; of the files with the same bounds
/// the first.
fn told_apart(families: impl IntoIterator<Item = Family>) -> Vec<Vec<u8>> {
    let mut by_bounds: HashMap<(usize, Vec<u16>), Known> = HashMap::new();
    let mut by_file: HashMap<Vec<u8>, (usize, Vec<u16>)> = HashMap::new();
    for family in families {
        let new = Known::new(family);
        let bounds = (new.family.peptides as usize, new.bounds.clone());
        let told = by_file
            .entry(new.reduced.clone())
            .or_insert_with(|| bounds.clone());
        assert_eq!(*told, bounds, "two families in one reduced file");
        let Some(first) = by_bounds.get(&bounds) else {
            by_bounds.insert(bounds, new);
            continue;
        };
        assert_eq!(
            first.reduced, new.reduced,
            "one family in two reduced files"
        );
        assert_eq!(answer(&first.file, &new.file), 1);
    }
    by_bounds.into_values().map(|known| known.file).collect()
}

/// What the comparison of two accepted files says.
fn answer(first: &[u8], second: &[u8]) -> u16 {
    let answer = guarded::same(first, second);
    assert_eq!(answer.number, 0);
    answer.same
}

/// No two of these files are the same.
fn all_different(files: &[Vec<u8>]) {
    for (i, first) in files.iter().enumerate() {
        for (j, second) in files.iter().enumerate() {
            assert_eq!(answer(first, second), (i == j) as u16);
        }
    }
}

/// Every family with up to m peptides and n leaves, empty ones among them.
fn all_up_to(m: u16, n: usize) -> impl Iterator<Item = Family> {
    (1..=m).flat_map(move |m| (1..=n).flat_map(move |n| all_families_of(m, n)))
}

#[test]
fn every_family_up_to_four_peptides() {
    told_apart((1..=4).flat_map(all_families).chain(all_up_to(4, 3)));
}

#[test]
fn every_family_up_to_three_peptides_and_three_leaves() {
    all_different(&told_apart(all_up_to(3, 3)));
}

#[test]
fn random_families_up_to_seven_peptides() {
    let random = &mut Random::new(40);
    let families: Vec<Family> = (0..20_000)
        .map(|_| {
            let m = random.between(5, 7);
            random_family(random, m)
        })
        .collect();
    told_apart(families);
}

/// K and the length of a family's file.
fn size(file: &[u8]) -> (usize, usize) {
    (check(file).unwrap().regions.len(), file.len())
}

/// Of all families with the same bounds none has fewer regions than the reduced file, and none a shorter file. A z over its
/// region's size says no more than the size does, so `all_families` has what can be said with so many regions. Those on up
/// to three leaves, empty ones among them, say it in more ways, and none is shorter.
#[test]
fn fewest_regions_and_shortest_of_every_family_up_to_four_peptides() {
    for m in 1..=4 {
        let mut sizes: HashMap<Vec<u16>, Vec<(usize, usize)>> = HashMap::new();
        let mut reduced_sizes: HashMap<Vec<u16>, Vec<(usize, usize)>> = HashMap::new();
        let on_three_leaves = (1..=3).flat_map(|n| all_families_of(m as u16, n));
        for family in all_families(m).into_iter().chain(on_three_leaves) {
            let bounds = Admissible::of(&family).all_bounds(m);
            let file = file_of(&family);
            sizes.entry(bounds.clone()).or_default().push(size(&file));
            reduced_sizes
                .entry(bounds)
                .or_default()
                .push(size(&reduced(&file)));
        }
        for (bounds, sizes) in sizes {
            let fewest = sizes.iter().map(|(regions, _)| *regions).min().unwrap();
            let shortest = sizes.iter().map(|(_, length)| *length).min().unwrap();
            for size in &reduced_sizes[&bounds] {
                assert_eq!(*size, (fewest, shortest));
            }
        }
    }
}

/// A family with its file, the bounds of all selections by enumeration, and what the library reduces it to.
struct Known {
    family: Family,
    file: Vec<u8>,
    bounds: Vec<u16>,
    reduced: Vec<u8>,
}

impl Known {
    fn new(family: Family) -> Known {
        let file = file_of(&family);
        Known {
            bounds: Admissible::of(&family).all_bounds(family.peptides as usize),
            reduced: reduced(&file),
            family,
            file,
        }
    }

    /// One step away: the reduced file written back, the same bounds in another way, or a little more or less said.
    fn neighbour(&self, random: &mut Random) -> Known {
        Known::new(match random.below(12) {
            0 => check(&self.reduced).unwrap(),
            1..=7 => rewritten(random, &self.family, &self.bounds),
            _ => altered(random, &self.family, &self.bounds),
        })
    }
}

/// How many pairs of different files had the same bounds, how many had not, and how many of these differed in one
/// selection of a hundred at most.
#[derive(Default)]
struct Pairs {
    agreed: Cell<usize>,
    differed: Cell<usize>,
    barely: Cell<usize>,
}

fn one_more(count: &Cell<usize>) {
    count.set(count.get() + 1);
}

impl Pairs {
    /// Equal reductions, and the answer yes, exactly when all bounds agree.
    fn told_apart(&self, one: &Known, other: &Known) {
        let bounds = one.bounds.iter().zip(&other.bounds);
        let apart = bounds.filter(|(one, other)| one != other).count();
        assert_eq!(one.reduced == other.reduced, apart == 0);
        let answer = guarded::same(&one.file, &other.file);
        assert_eq!((answer.number, answer.same), (0, (apart == 0) as u16));
        if apart == 0 && one.file != other.file {
            one_more(&self.agreed);
        }
        if apart > 0 {
            one_more(&self.differed);
        }
        if apart > 0 && apart * 100 <= one.bounds.len() {
            one_more(&self.barely);
        }
    }
}

#[test]
fn neighbours_of_eight_to_twelve_peptides() {
    let pairs = Pairs::default();
    cases(43, 3_000, |random| {
        let m = random.between(8, 12);
        // of a few random families the one that has most to say
        let some = (0..6).map(|_| Known::new(random_family(random, m)));
        let mut all = vec![some.max_by_key(|known| known.reduced.len()).unwrap()];
        while all.len() < 8 {
            let from = &all[random.below(all.len())];
            let new = from.neighbour(random).neighbour(random);
            for old in &all {
                pairs.told_apart(old, &new);
            }
            all.push(new);
        }
    });
    let (agreed, differed) = (pairs.agreed.get(), pairs.differed.get());
    let barely = pairs.barely.get();
    assert!(
        agreed > 20_000 && differed > 20_000 && barely > 1_000,
        "{agreed} agreed, {differed} differed, {barely} of them barely"
    );
}

#[test]
fn reduced_files_are_accepted_keep_the_curves_and_reduce_to_themselves() {
    cases(41, 600, |random| {
        let m = random.between(1, 200);
        let family = random_family(random, m);
        let file = file_of(&family);
        let short = reduced(&file);
        assert!(check(&short).is_ok());
        assert!(short.len() <= file.len());
        assert_eq!(reduced(&short), short);
        assert_eq!(compare::same(&file, &short), (0, 1));
        let path = random.order(m);
        let curve = |file: &[u8]| {
            let mut values = vec![0; m + 1];
            let mut marks = vec![0; m];
            assert_eq!(
                guarded::curve(file, &path, &mut values, &mut marks).number,
                0
            );
            values
        };
        assert_eq!(curve(&file), curve(&short));
    });
}

/// Families that differ a little are compared.
#[test]
fn comparison_of_neighbours() {
    let mut yes = 0;
    let mut no = 0;
    let random = &mut Random::new(42);
    for _ in 0..4_000 {
        let m = random.between(1, 40);
        let one = random_family(random, m);
        let mut other = one.clone();
        if !other.regions.is_empty() {
            let at = random.below(other.regions.len());
            match random.below(3) {
                0 => other.regions[at].z = other.regions[at].z.saturating_add(1),
                1 => other.regions[at].z = other.regions[at].z.saturating_sub(1),
                _ => {
                    other.regions.remove(at);
                }
            }
        }
        match compare::same(&file_of(&one), &file_of(&other)) {
            (0, 1) => yes += 1,
            (0, 0) => no += 1,
            other => panic!("{other:?}"),
        }
    }
    assert!(yes > 500 && no > 500, "{yes} yes, {no} no");
}
