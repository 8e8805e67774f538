//! Every call on a stack of just the size that include/phf.h states for it. A call that needs more touches memory that it may
//! not, and the process ends.

use phf_tests::families::{
    all_but_one_empty, binary_tree, binary_tree_on, by_level, chain, deepest_tree, eight_peptides,
    listed, towers, Bounds,
};
use phf_tests::phf;
use phf_tests::random::Random;
use phf_tests::reference::{file_of, level_file_of, Family, Region};
use phf_tests::stack::{every_call, Stack};
use std::os::unix::process::ExitStatusExt;
use std::process::Command;

/// How many regions of a family are nested in each other at most.
fn levels(family: &Family) -> usize {
    let inside = |leaf: usize| {
        let has = |r: &&Region| r.first as usize <= leaf && leaf <= r.last as usize;
        family.regions.iter().filter(has).count()
    };
    (1..=family.lengths.len()).map(inside).max().unwrap()
}

/// What a call needs grows with the regions that are nested: all towers and the deepest tree, and other large families.
fn families() -> Vec<Family> {
    let random = &mut Random::new(9);
    let mut families = Vec::new();
    for bounds in [Bounds::Small, Bounds::Mixed] {
        families.push(towers(random, 4096, 64, bounds));
        families.push(deepest_tree(random, bounds));
    }
    assert!(families.iter().all(|family| levels(family) == 64));
    assert_eq!(families[1].regions.len(), 8191);
    families.push(binary_tree(random, 4096, 1, Bounds::Mixed));
    let lengths = all_but_one_empty(4096, 4096, 4096);
    families.push(binary_tree_on(random, lengths, Bounds::Mixed));
    families.push(chain(4096, 64, 3000));
    families.push(eight_peptides());
    families
}

#[test]
fn every_call_on_the_stack_that_the_header_states() {
    for family in families() {
        let path = Random::new(10).order(family.peptides as usize);
        for mut call in every_call(&file_of(&family), &path) {
            let number = Stack::new(call.stated).run(&mut call.make);
            assert_eq!(number, 0, "{}", call.name);
        }
    }
}

/// Makes one call on the stack that the header states for it.
fn on_its_stack(name: &str, mut call: impl FnMut() -> u16) -> u16 {
    let (file, path) = (file_of(&eight_peptides()), [1]);
    let calls = every_call(&file, &path);
    let stated = calls.iter().find(|call| call.name == name).unwrap().stated;
    Stack::new(stated).run(&mut call)
}

/// Declined calls need no more, here by the causes that are found last: 10 and, of a comparison, 110; 13; 14, 15 and 16; 20 to 27.
#[test]
fn declined_calls_on_the_same_stack() {
    let good = file_of(&deepest_tree(&mut Random::new(11), Bounds::Mixed));
    let deep = file_of(&chain(4096, 65, 1));
    let mut repeats = Random::new(12).order(4096);
    repeats[4095] = repeats[0];
    let path = Random::new(13).order(4096);
    let (mut values, mut marks) = (vec![0; 4097], vec![0; 4096]);
    let (mut taken, mut out) = (vec![0; 8191], vec![0; 57354]);
    let mut selection = vec![1; 4096];
    selection[4095] = 2;
    let number = on_its_stack("phf_check", || phf::check(&deep).number);
    assert_eq!(number, 10);
    let length = on_its_stack("phf_regions", || phf::regions(&deep).length as u16);
    assert_eq!(length, 0);
    let number = on_its_stack("phf_bound", || {
        phf::bound(&good, &selection, &mut taken).number
    });
    assert_eq!(number, 14);
    selection[4095] = 1;
    let number = on_its_stack("phf_bound", || {
        phf::bound(&good, &selection, &mut taken[1..]).number
    });
    assert_eq!(number, 16);
    let mut selections = vec![1; 33 * 4096];
    selections[32 * 4096] = 2;
    for (file, count, tally, room, expected) in [
        (&deep, 32, 0, 32, 10),
        (&good, 33, 0, 33, 14),
        (&good, 32, 0, 31, 16),
        (&good, 32, u32::MAX, 32, 25),
    ] {
        let list = &selections[..count * 4096];
        let number = on_its_stack("phf_bounds_list", || {
            phf::bounds_list(file, list, count as u16, tally, &mut values[..room]).number
        });
        assert_eq!(number, expected);
    }
    selections[32 * 4096] = 1;
    let number = on_its_stack("phf_bounds_list", || {
        phf::bounds_list(&good, &selections, 33, 0, &mut values).number
    });
    assert_eq!(number, 24);
    for (path, room, expected) in [(&repeats, 4096, 13), (&path, 4095, 16)] {
        let number = on_its_stack("phf_curve", || {
            phf::curve(&good, path, &mut values, &mut marks[..room]).number
        });
        assert_eq!(number, expected);
    }
    for (path, b, expected) in [(&repeats, 1, 13), (&path, 0, 15)] {
        let number = on_its_stack("phf_cut", || phf::cut(&good, path, 0, b).number);
        assert_eq!(number, expected);
    }
    for (file, room, expected) in [(&deep, 57354, 10), (&good, good.len() - 1, 16)] {
        let number = on_its_stack("phf_reduce", || phf::reduce(file, &mut out[..room]).number);
        assert_eq!(number, expected);
    }
    let p_values = [vec![0; 4096], vec![0; 4095], vec![1_000_001; 4096]];
    for (file, room, p_values, constant, expected) in [
        (&deep, 57354, &p_values[0], 0, 10),
        (&good, good.len() - 1, &p_values[0], 0, 16),
        (&good, 57354, &p_values[1], 0, 20),
        (&good, 57354, &p_values[2], 0, 21),
        (&good, 57354, &p_values[0], 100_000_001, 22),
    ] {
        let number = on_its_stack("phf_bounds_from_p", || {
            phf::bounds_from_p(file, p_values, constant, &mut out[..room])
        });
        assert_eq!(number, expected);
    }
    for (file, path, room, p_values, level, expected) in [
        (&deep, &path, 4097, &p_values[0], 1, 10),
        (&good, &repeats, 4097, &p_values[0], 1, 13),
        (&good, &path, 4096, &p_values[0], 1, 16),
        (&good, &path, 4097, &p_values[1], 1, 20),
        (&good, &path, 4097, &p_values[2], 1, 21),
        (&good, &path, 4097, &p_values[0], 0, 23),
    ] {
        let number = on_its_stack("phf_hybrid", || {
            phf::hybrid(file, path, p_values, level, &mut values[..room]).number
        });
        assert_eq!(number, expected);
    }
    for (first, second, expected) in [(&deep, &good, 10), (&good, &deep, 110)] {
        let number = on_its_stack("phf_same", || phf::same(first, second).number);
        assert_eq!(number, expected);
    }
    let mut out = vec![0; 57482];
    for (file, room, expected) in [(&deep, 57482, 10), (&good, good.len() + 127, 16)] {
        let number = on_its_stack("phf_to_levels", || {
            phf::to_levels(file, &mut out[..room]).number
        });
        assert_eq!(number, expected);
    }
    let right = by_level(&deepest_tree(&mut Random::new(11), Bounds::Mixed));
    let mut counted = right.clone();
    counted.counts[63] += 1;
    let mut swapped = right.clone();
    swapped.family.regions.swap(8189, 8190);
    let nested: Vec<(u16, u16, u16)> = (1..=4096).map(|last| (1, last, 1)).collect();
    let nested = listed(&[1; 4096], &nested, &[4096]);
    let equal = listed(&[1; 4096], &[(1, 4096, 1); 8191], &[8191]);
    for (given, room, expected) in [
        (&nested, 57354, 10),
        (&right, 57353, 16),
        (&counted, 57354, 26),
        (&swapped, 57354, 27),
        (&equal, 57354, 27),
    ] {
        let file = level_file_of(given);
        let number = on_its_stack("phf_from_levels", || {
            phf::from_levels(&file, &mut out[..room]).number
        });
        assert_eq!(number, expected);
    }
}

/// The sizes stand in the header, one line for each kind of call, by the rule that it gives: what the call has used here and 1 KB,
/// up to the next 4 KB.
#[test]
fn the_header_states_what_the_calls_use() {
    let header = include_str!("../../include/phf.h");
    let (_, table) = header.split_once(" * STACK.").unwrap();
    let (table, _) = table.split_once("\n *\n").unwrap();
    let mut most = [0; 15];
    for family in families() {
        let path = Random::new(10).order(family.peptides as usize);
        let file = file_of(&family);
        for (k, mut call) in every_call(&file, &path).into_iter().enumerate() {
            most[k] = most[k].max(Stack::new(1 << 20).used(&mut call.make));
        }
    }
    let (file, path) = (file_of(&eight_peptides()), [1]);
    for (k, call) in every_call(&file, &path).iter().enumerate() {
        assert_eq!(call.stated, (most[k] + 1024).next_multiple_of(4096));
        let names = |line: &&str| line.split([' ', ',']).any(|word| word == call.name);
        let line = table.lines().find(names);
        let stated = format!(" {} KB", call.stated / 1024);
        assert!(line.unwrap().ends_with(&stated), "{}", call.name);
    }
}

/// A stack one page too small is noticed. The call is made by a copy of this process, which it ends.
#[test]
fn a_smaller_stack_ends_the_process() {
    let file = file_of(&deepest_tree(&mut Random::new(12), Bounds::Mixed));
    let path = Random::new(13).order(4096);
    let calls = every_call(&file, &path);
    if let Ok(name) = std::env::var("PHF_CALL_ON_A_SMALLER_STACK") {
        let mut call = calls.into_iter().find(|call| call.name == name).unwrap();
        let used = Stack::new(call.stated).used(&mut call.make);
        let smaller = (used - 1) / 4096 * 4096;
        Stack::new(smaller).run(&mut call.make);
        return;
    }
    for call in calls.iter().filter(|call| call.stated > 4096) {
        let test = "a_smaller_stack_ends_the_process";
        let status = Command::new(std::env::current_exe().unwrap())
            .args([test, "--exact"])
            .env("PHF_CALL_ON_A_SMALLER_STACK", call.name)
            .output()
            .unwrap()
            .status;
        let segmentation_fault = 11;
        assert_eq!(status.signal(), Some(segmentation_fault), "{}", call.name);
    }
}
