//! Leaves without a peptide: regions over nothing but such, regions with the same peptides, and the most leaves there can
//! be. What is expected is worked out by hand, beside each family.

use phf_tests::compare;
use phf_tests::families::{
    all_but_one_empty, binary_tree_on, eight_peptides, file, listed, random_family, Bounds,
    DEVIATION_SQUARED, EIGHT_P_VALUES,
};
use phf_tests::guarded::{self, by_leaf, by_level, curve_of, hybrid_of, reduced};
use phf_tests::phf;
use phf_tests::random::Random;
use phf_tests::reference::{file_of, level_file_of, pieces, Family, Piece};

/// The bound of all peptides, and the taken bytes.
fn bound_of_all(file: &[u8]) -> (u16, Vec<u8>) {
    let checked = guarded::check(file);
    let mut taken = vec![99; checked.regions as usize];
    let all = vec![1; checked.peptides as usize];
    let answer = guarded::bound(file, &all, &mut taken);
    assert_eq!(answer.number, 0);
    (answer.bound, taken)
}

fn are_the_same(first: &[u8], second: &[u8]) -> bool {
    let answer = guarded::same(first, second);
    assert_eq!(answer.number, 0);
    answer.same == 1
}

/// Every call against the plain implementation.
fn all_calls(file: &[u8]) {
    let checked = guarded::check(file);
    let (m, k) = (checked.peptides as usize, checked.regions as usize);
    let path: Vec<u16> = (1..=m as u16).rev().collect();
    assert_eq!(compare::check(file), 0);
    assert_eq!(compare::bound(file, &vec![1; m], k), 0);
    let list = [vec![1; m], vec![0; m], vec![1; m]].concat();
    assert_eq!(compare::bounds_list(file, &list, 3, 0, 3), 0);
    assert_eq!(compare::curve(file, &path, m + 1, m), 0);
    assert_eq!(compare::cut(file, &path, 1, 2), 0);
    assert_eq!(compare::reduce(file, file.len()), 0);
    assert_eq!(compare::same(file, &reduced(file)), (0, 1));
    let p_values: Vec<u32> = path.iter().map(|p| 200 * *p as u32).collect();
    assert_eq!(
        compare::bounds_from_p(file, &p_values, DEVIATION_SQUARED, file.len()),
        0
    );
    for level in [1, 200, 50_000] {
        assert_eq!(compare::hybrid(file, &path, &p_values, level, m + 1), 0);
    }
    assert_eq!(compare::to_levels(file, file.len() + 128), 0);
    assert_eq!(compare::from_levels(&by_level(file), file.len()), 0);
}

#[test]
fn one_peptide_in_the_most_leaves() {
    let plain = file(&[1], &[]);
    for leaf in [1, 2, 2048, 4095, 4096] {
        let file = file(&all_but_one_empty(4096, leaf, 1), &[]);
        all_calls(&file);
        let checked = phf::Checked {
            number: 0,
            peptides: 1,
            leaves: 4096,
            regions: 0,
        };
        assert_eq!(guarded::check(&file), checked);
        // 16 + 2 * 4,096
        let part = phf::Part {
            offset: 8208,
            length: 0,
        };
        assert_eq!(guarded::regions(&file), part);
        assert_eq!(bound_of_all(&file), (1, vec![]));
        assert_eq!(curve_of(&file, &[1]), (vec![0, 1], vec![1]));
        assert_eq!(guarded::cut(&file, &[1], 1, 1).cut, 1);
        assert_eq!(guarded::cut(&file, &[1], 1, 2).cut, 0);
        // with m = 1 a peptide is counted if its p is over the level
        assert_eq!(hybrid_of(&file, &[1], &[50_001], 50_000), [0, 1]);
        assert_eq!(hybrid_of(&file, &[1], &[50_000], 50_000), [0, 0]);
        assert_eq!(reduced(&file), plain);
        assert!(are_the_same(&file, &plain));
    }
}

/// The largest tree over one peptide in this leaf: the innermost region with it gets one z, those around that another, and
/// the regions without a peptide a third.
fn largest_tree(leaf: u16, inner: u16, around: u16, empty: u16) -> Family {
    let lengths = all_but_one_empty(4096, leaf as usize, 1);
    let mut family = binary_tree_on(&mut Random::new(70), lengths, Bounds::Small);
    for r in &mut family.regions {
        r.z = match (r.first..=r.last).contains(&leaf) {
            true if r.first == r.last => inner,
            true => around,
            false => empty,
        };
    }
    assert_eq!(family.regions.len(), 8191);
    family
}

/// The taken bytes if of the regions with this leaf the one is taken that has so many of them inside it.
fn taken_only(family: &Family, leaf: u16, inside: usize) -> Vec<u8> {
    let has = |i: &usize| (family.regions[*i].first..=family.regions[*i].last).contains(&leaf);
    let mut taken = vec![0; family.regions.len()];
    // in file order the innermost is the last
    let at = (0..taken.len()).rev().filter(has).nth(inside).unwrap();
    taken[at] = 1;
    taken
}

#[test]
fn the_most_regions_over_one_peptide() {
    let dead = file(&[1], &[(1, 1, 0)]);
    for leaf in [1, 1365, 4096] {
        // no region with z = 0 has the peptide
        let free = file_of(&largest_tree(leaf, 1, 1, 0));
        assert_eq!(bound_of_all(&free), (1, vec![0; 8191]));
        assert_eq!(curve_of(&free, &[1]), (vec![0, 1], vec![1]));
        assert_eq!(hybrid_of(&free, &[1], &[50_001], 50_000), [0, 1]);
        assert_eq!(reduced(&free), file(&[1], &[]));
        // the inside total of the innermost is 1, of those around it 0
        let tree = largest_tree(leaf, 0, 0, 7);
        let whole = file_of(&tree);
        assert_eq!(bound_of_all(&whole), (0, taken_only(&tree, leaf, 0)));
        assert_eq!(curve_of(&whole, &[1]), (vec![0, 0], vec![0]));
        assert_eq!(hybrid_of(&whole, &[1], &[50_001], 50_000), [0, 0]);
        assert_eq!(reduced(&whole), dead);
        // the innermost lets the peptide pass, and the region just around it does not
        let tree = largest_tree(leaf, 1, 0, 7);
        let around = file_of(&tree);
        assert_eq!(bound_of_all(&around), (0, taken_only(&tree, leaf, 1)));
        assert_eq!(reduced(&around), dead);
        assert!(are_the_same(&whole, &around));
        assert!(!are_the_same(&free, &whole));
    }
}

#[test]
fn regions_over_empty_leaves_only() {
    // peptides 1 and 2 in leaf 2, 3 in leaf 5
    for z in [0, 1, 65535] {
        let family = file(
            &[0, 2, 0, 0, 1, 0],
            &[(1, 1, z), (3, 4, z), (3, 3, z), (4, 4, z), (6, 6, z)],
        );
        all_calls(&family);
        assert_eq!(bound_of_all(&family), (3, vec![0; 5]));
        let path = [3, 1, 2];
        assert_eq!(curve_of(&family, &path), (vec![0, 1, 2, 3], vec![1, 1, 1]));
        assert_eq!(reduced(&family), file(&[3], &[]));
    }
}

#[test]
fn empty_regions_inside_others() {
    // peptides 1 to 3 in leaf 2; the z = 0 of leaves 1 and 3 has no peptide, and the 2 of the region around them all has
    // three
    let family = file(&[0, 3, 0], &[(1, 3, 2), (1, 1, 0), (3, 3, 0)]);
    all_calls(&family);
    assert_eq!(bound_of_all(&family), (2, vec![1, 0, 0]));
    assert_eq!(
        curve_of(&family, &[2, 3, 1]),
        (vec![0, 1, 2, 2], vec![1, 1, 0])
    );
    assert_eq!(reduced(&family), file(&[3], &[(1, 1, 2)]));
}

/// Two regions with the peptides 1 to 3, the inner one without the empty leaf: the bound of all, taken bytes and the reduced
/// file. The inside total of the inner one is 3, that of the outer one the smaller of 3 and the inner z.
fn holds_twice(outer: u16, inner: u16, bound: u16, taken: [u8; 2], short: &[u8]) {
    let before = file(&[0, 3], &[(1, 2, outer), (2, 2, inner)]);
    let behind = file(&[3, 0], &[(1, 2, outer), (1, 1, inner)]);
    for family in [&before, &behind] {
        all_calls(family);
        assert_eq!(bound_of_all(family), (bound, taken.to_vec()));
        assert_eq!(reduced(family), short);
    }
    assert!(are_the_same(&before, &behind));
}

#[test]
fn two_regions_with_the_same_peptides() {
    let at_most = |z: u16| file(&[3], &[(1, 1, z)]);
    let free = file(&[3], &[]);
    holds_twice(2, 1, 1, [0, 1], &at_most(1));
    holds_twice(1, 2, 1, [1, 0], &at_most(1));
    holds_twice(2, 2, 2, [0, 1], &at_most(2));
    holds_twice(0, 2, 0, [1, 0], &at_most(0));
    holds_twice(2, 0, 0, [0, 1], &at_most(0));
    holds_twice(0, 0, 0, [0, 1], &at_most(0));
    holds_twice(3, 1, 1, [0, 1], &at_most(1));
    holds_twice(1, 3, 1, [1, 0], &at_most(1));
    holds_twice(3, 3, 3, [0, 0], &free);
    holds_twice(5, 3, 3, [0, 0], &free);
    holds_twice(3, 5, 3, [0, 0], &free);
}

#[test]
fn three_regions_with_the_same_peptides_and_one_around() {
    // leaf 1 has peptide 1, leaf 3 the peptides 2 to 4; three regions have 2 to 4, with the z 3, 1 and 2, and around them
    // one has all four, with z = 2: 1 of the three and peptide 1 come to 2, so it says nothing
    let family = file(&[1, 0, 3, 0], &[(1, 4, 2), (2, 4, 3), (2, 3, 1), (3, 3, 2)]);
    all_calls(&family);
    // the inside totals are, from the innermost, 3, 2, 1 and 1 + 1
    assert_eq!(bound_of_all(&family), (2, vec![0, 0, 1, 0]));
    assert_eq!(
        curve_of(&family, &[4, 2, 1, 3]),
        (vec![0, 1, 1, 2, 2], vec![1, 0, 1, 0])
    );
    assert_eq!(reduced(&family), file(&[1, 3], &[(2, 2, 1)]));
    // with z = 1 it says all: no region inside has a smaller z
    let tighter = file(&[1, 0, 3, 0], &[(1, 4, 1), (2, 4, 3), (2, 3, 1), (3, 3, 2)]);
    all_calls(&tighter);
    assert_eq!(bound_of_all(&tighter), (1, vec![1, 0, 0, 0]));
    assert_eq!(reduced(&tighter), file(&[4], &[(1, 1, 1)]));
    assert!(!are_the_same(&family, &tighter));
}

#[test]
fn empty_first_and_last_leaf() {
    // peptides 1 and 2 in leaf 2, 3 to 5 in leaf 3
    let family = file(&[0, 2, 3, 0], &[(1, 2, 1), (3, 4, 2)]);
    all_calls(&family);
    assert_eq!(bound_of_all(&family), (3, vec![1, 1]));
    assert_eq!(
        curve_of(&family, &[5, 1, 4, 2, 3]),
        (vec![0, 1, 2, 3, 3, 3], vec![1, 1, 1, 0, 0])
    );
    let plain = file(&[2, 3], &[(1, 1, 1), (2, 2, 2)]);
    assert_eq!(reduced(&family), plain);
    assert!(are_the_same(&family, &plain));
}

/// The leaf of a peptide is never an empty one: each leaf but that of the two peptides has a region with z = 0.
#[test]
fn the_leaf_of_a_peptide_among_empty_ones() {
    for n in 1..=50 {
        for leaf in 1..=n {
            let z = |j: u16| if j == leaf { 1 } else { 0 };
            let regions: Vec<(u16, u16, u16)> = (1..=n).map(|j| (j, j, z(j))).collect();
            let lengths = all_but_one_empty(n as usize, leaf as usize, 2);
            let family = file(&lengths, &regions);
            assert_eq!(curve_of(&family, &[2, 1]), (vec![0, 1, 1], vec![1, 0]));
            assert_eq!(reduced(&family), file(&[2], &[(1, 1, 1)]));
        }
    }
}

/// The eight-peptide family with five empty leaves and two regions over such: its leaves 1 to 4 are 2, 5, 6 and 8 here. The
/// values are E1, E2, E4 and E5 of the scope document, and its hybrid curves.
#[test]
fn the_eight_peptides_among_empty_leaves() {
    let strewn = file(
        &[0, 2, 0, 0, 3, 1, 0, 2, 0],
        &[
            (1, 5, 3),
            (2, 3, 2),
            (3, 3, 0),
            (4, 5, 1),
            (6, 9, 3),
            (7, 7, 0),
            (8, 8, 0),
        ],
    );
    all_calls(&strewn);
    let path = [7, 3, 1, 4, 6, 2, 5, 8];
    assert_eq!(
        curve_of(&strewn, &path),
        (
            vec![0, 0, 1, 2, 2, 3, 4, 4, 4],
            vec![0, 1, 1, 0, 1, 1, 0, 0]
        )
    );
    assert_eq!(bound_of_all(&strewn), (4, vec![0, 0, 0, 1, 0, 0, 1]));
    assert_eq!(guarded::cut(&strewn, &path, 1, 2).cut, 8);
    assert_eq!(guarded::cut(&strewn, &path, 2, 5).cut, 1);
    let hybrid = |level| hybrid_of(&strewn, &path, &EIGHT_P_VALUES, level);
    assert_eq!(hybrid(50_000), [0, 0, 0, 0, 0, 1, 2, 3, 3]);
    assert_eq!(hybrid(1_000_000), [0, 0, 0, 0, 0, 0, 1, 2, 2]);
    let eight = file_of(&eight_peptides());
    assert_eq!(reduced(&strewn), reduced(&eight));
    assert!(are_the_same(&strewn, &eight));
    assert!(are_the_same(&eight, &strewn));
}

#[test]
fn one_leaf_more_than_peptides() {
    let family = file(&[1, 1, 0, 1], &[(1, 3, 1), (3, 4, 1)]);
    assert_eq!(compare::check(&family), 9);
    let family = file(&[1, 1, 0, 1], &[(1, 3, 1), (4, 4, 1)]);
    all_calls(&family);
    assert_eq!(bound_of_all(&family), (2, vec![1, 0]));
    assert_eq!(reduced(&family), file(&[2, 1], &[(1, 1, 1)]));
}

/// Nesting is judged on leaf numbers: regions that share nothing but an empty leaf cross, though their peptides do not.
#[test]
fn crossing_at_an_empty_leaf() {
    assert_eq!(
        compare::check(&file(&[1, 0, 1], &[(1, 2, 1), (2, 3, 1)])),
        9
    );
    assert_eq!(
        compare::check(&file(&[1, 0, 1], &[(1, 2, 1), (3, 3, 1)])),
        0
    );
}

/// Levels go by leaf numbers too: (2,5) and (3,4) have the same peptides as (1,6), and each has one region more around it; around the
/// regions over empty leaves are those around their leaves.
#[test]
fn levels_over_empty_leaves() {
    let lengths = [0, 0, 2, 0, 0, 0];
    let regions = [
        (1, 6, 6),
        (1, 1, 5),
        (2, 5, 4),
        (2, 2, 3),
        (3, 4, 2),
        (4, 4, 1),
        (6, 6, 0),
    ];
    let leveled = [
        (1, 6, 6),
        (1, 1, 5),
        (2, 5, 4),
        (6, 6, 0),
        (2, 2, 3),
        (3, 4, 2),
        (4, 4, 1),
    ];
    let plain = file(&lengths, &regions);
    all_calls(&plain);
    let expected = level_file_of(&listed(&lengths, &leveled, &[1, 3, 2, 1]));
    assert_eq!(by_level(&plain), expected);
    assert_eq!(by_leaf(&expected), plain);
    // beside each other at an empty leaf, and crossing there
    let told = |regions: &[(u16, u16, u16)]| {
        let file = level_file_of(&listed(&[1, 0, 1], regions, &[2]));
        compare::from_levels(&file, file.len() - 128)
    };
    assert_eq!(told(&[(1, 2, 1), (3, 3, 1)]), 0);
    assert_eq!(told(&[(1, 2, 1), (2, 3, 1)]), 9);
}

/// What the random families of the other tests have to be, some of them at least.
#[test]
fn random_families_have_empty_leaves_everywhere() {
    let random = &mut Random::new(71);
    let families: Vec<Family> = (0..2_000)
        .map(|_| {
            let m = random.between(1, 30);
            random_family(random, m)
        })
        .collect();
    let some = |what: &str, is: &dyn Fn(&Family) -> bool| {
        let count = families.iter().filter(|family| is(family)).count();
        assert!(count >= 100, "{what}: {count}");
    };
    some("no empty leaf", &|f| !f.lengths.contains(&0));
    some("more leaves than peptides", &|f| {
        f.lengths.len() > f.peptides as usize
    });
    some("three empty leaves first", &|f| {
        f.lengths.starts_with(&[0; 3])
    });
    some("three empty leaves last", &|f| f.lengths.ends_with(&[0; 3]));
    some("three empty leaves in the middle", &|f| {
        let full = |length: &u16| *length > 0;
        let from = f.lengths.iter().position(full).unwrap();
        let to = f.lengths.iter().rposition(full).unwrap();
        f.lengths[from..to].windows(3).any(|three| three == [0; 3])
    });
    some("a region without a peptide", &|f| {
        pieces(f).iter().any(|r| r.low > r.high)
    });
    some("two regions with the same peptides and another z", &|f| {
        let regions = pieces(f);
        let twice = |r: &Piece| {
            let alike = |q: &Piece| (r.low, r.high) == (q.low, q.high) && r.z != q.z;
            r.low <= r.high && regions.iter().any(alike)
        };
        regions.iter().any(twice)
    });
}
