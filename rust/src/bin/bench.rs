//! The library and the same algorithms in Rust, measured side by side: one after the other on the same input, in turns, in
//! one run. Prints the tables of docs/PERFORMANCE.md. Before anything is measured the two must answer the same.

use phf_tests::families::{
    all_but_one_empty, binary_tree, binary_tree_on, by_level, chain, chain_over_leaves,
    chain_over_one_leaf, deepest_tree, eight_peptides, family, has_empty_leaf, level_file, listed,
    towers, Bounds, DEVIATION_SQUARED, EIGHT_P_VALUES,
};
use phf_tests::random::Random;
use phf_tests::reference::{check, file_of, level_file_of, Family, Region, Rule};
use phf_tests::searches::{counted_up_to, longest_searches, LEVEL};
use phf_tests::stack::{every_call, Stack};
use phf_tests::{fast, phf};
use std::hint::black_box;
use std::time::{Duration, Instant};

/// Every measurement takes the best of this many turns: what disturbs a turn only makes it longer.
const TURNS: usize = 31;
/// A turn repeats the call until it has taken about so long.
const TURN: Duration = Duration::from_millis(2);

struct Input {
    name: String,
    file: Vec<u8>,
    path: Vec<u16>,
    selection: Vec<u8>,
}

/// So many half-full selections, one behind the other. The first ones are the same for every number of them.
fn half_full(family: &Family, count: usize) -> Vec<u8> {
    let m = family.peptides as usize;
    Random::new(7).selection(count * m, 1, 2)
}

impl Input {
    fn new(name: &str, family: &Family, path: Vec<u16>) -> Input {
        Input {
            name: name.to_string(),
            file: file_of(family),
            path,
            selection: half_full(family, 1),
        }
    }

    fn regions(&self) -> usize {
        u16::from_le_bytes([self.file[8], self.file[9]]) as usize
    }
}

fn repeats(call: &mut dyn FnMut()) -> usize {
    let start = Instant::now();
    let mut times = 0;
    while start.elapsed() < TURN {
        call();
        times += 1;
    }
    times
}

fn turn(call: &mut dyn FnMut(), times: usize) -> f64 {
    let start = Instant::now();
    for _ in 0..times {
        call();
    }
    start.elapsed().as_nanos() as f64 / times as f64
}

/// Nanoseconds for each of the calls, measured in turns.
fn measure(calls: &mut [&mut dyn FnMut()]) -> Vec<f64> {
    let times: Vec<usize> = calls.iter_mut().map(|call| repeats(*call)).collect();
    let mut best = vec![f64::INFINITY; calls.len()];
    for _ in 0..TURNS {
        for (i, call) in calls.iter_mut().enumerate() {
            best[i] = best[i].min(turn(*call, times[i]));
        }
    }
    best
}

/// Places for every output.
struct Room {
    values: Vec<u16>,
    marks: Vec<u8>,
    bytes: Vec<u8>,
}

impl Room {
    fn new() -> Room {
        Room {
            values: vec![0; 4097],
            marks: vec![0; 4096],
            bytes: vec![0; 57_354],
        }
    }
}

type Call = fn(&Input, &mut Room);

/// A call of the library and its like in Rust.
struct Pair {
    name: &'static str,
    library: Call,
    rust: Call,
}

const PAIRS: [Pair; 6] = [
    Pair {
        name: "check",
        library: |i, _| {
            black_box(phf::check(&i.file));
        },
        rust: |i, _| {
            black_box(fast::check(&i.file));
        },
    },
    Pair {
        name: "bound",
        library: |i, room| {
            black_box(phf::bound(&i.file, &i.selection, &mut room.bytes));
        },
        rust: |i, room| {
            black_box(fast::bound(&i.file, &i.selection, &mut room.bytes));
        },
    },
    Pair {
        name: "curve",
        library: |i, room| {
            black_box(phf::curve(
                &i.file,
                &i.path,
                &mut room.values,
                &mut room.marks,
            ));
        },
        rust: |i, room| {
            black_box(fast::curve(
                &i.file,
                &i.path,
                &mut room.values,
                &mut room.marks,
            ));
        },
    },
    Pair {
        name: "cut",
        library: |i, _| {
            black_box(phf::cut(&i.file, &i.path, 1, 10));
        },
        rust: |i, _| {
            black_box(fast::cut(&i.file, &i.path, 1, 10));
        },
    },
    Pair {
        name: "reduce",
        library: |i, room| {
            black_box(phf::reduce(&i.file, &mut room.bytes));
        },
        rust: |i, room| {
            black_box(fast::reduce(&i.file, &mut room.bytes));
        },
    },
    Pair {
        name: "same",
        library: |i, _| {
            black_box(phf::same(&i.file, &i.file));
        },
        rust: |i, _| {
            black_box(fast::same(&i.file, &i.file));
        },
    },
];

/// Both answer the same on this input.
fn agree(input: &Input) {
    assert_eq!(phf::check(&input.file), fast::check(&input.file));
    let mut one = Room::new();
    let mut other = Room::new();
    assert_eq!(
        phf::bound(&input.file, &input.selection, &mut one.bytes),
        fast::bound(&input.file, &input.selection, &mut other.bytes)
    );
    assert_eq!(
        phf::curve(&input.file, &input.path, &mut one.values, &mut one.marks),
        fast::curve(
            &input.file,
            &input.path,
            &mut other.values,
            &mut other.marks
        )
    );
    assert_eq!(
        phf::cut(&input.file, &input.path, 1, 10),
        fast::cut(&input.file, &input.path, 1, 10)
    );
    assert_eq!((&one.values, &one.marks), (&other.values, &other.marks));
    assert_eq!(one.bytes, other.bytes);
    assert_eq!(
        phf::reduce(&input.file, &mut one.bytes),
        fast::reduce(&input.file, &mut other.bytes)
    );
    assert_eq!(one.bytes, other.bytes);
    assert_eq!(
        phf::same(&input.file, &input.file),
        fast::same(&input.file, &input.file)
    );
}

fn micro(nanoseconds: f64) -> String {
    format!("{:.2}", nanoseconds / 1000.0)
}

fn both(pair: &Pair, input: &Input) -> (f64, f64) {
    let mut room = Room::new();
    let mut other = Room::new();
    let found = measure(&mut [&mut || (pair.library)(input, &mut room), &mut || {
        (pair.rust)(input, &mut other)
    }]);
    (found[0], found[1])
}

/// The family of the source's experiment, and one with the most leaves and regions.
fn source_and_largest(random: &mut Random) -> [Family; 2] {
    [(512, 8), (4096, 1)].map(|(n, length)| binary_tree(random, n, length, Bounds::Mixed))
}

fn inputs() -> Vec<Input> {
    let random = &mut Random::new(1);
    let down: Vec<u16> = (1..=4096).rev().collect();
    let up: Vec<u16> = (1..=4096).collect();
    let [source, largest] = source_and_largest(random);
    let mut loose = towers(random, 4096, 64, Bounds::Mixed);
    for region in &mut loose.regions {
        region.z = 65535;
    }
    // the way to the last leaf is the longest for every peptide
    let lengths = all_but_one_empty(4096, 4096, 4096);
    let empty = binary_tree_on(&mut Random::new(8), lengths, Bounds::Mixed);
    vec![
        Input::new(
            "course, m = 8",
            &eight_peptides(),
            vec![7, 3, 1, 4, 6, 2, 5, 8],
        ),
        Input::new("source, path 1 2 3 ..", &source, up),
        Input::new("source, random path", &source, random.order(4096)),
        Input::new("largest, random path", &largest, random.order(4096)),
        Input::new("largest, from the end", &largest, down.clone()),
        Input::new("towers of 64, none full", &loose, down.clone()),
        Input::new(
            "one tower of 64 over all",
            &chain(4096, 64, 65535),
            down.clone(),
        ),
        Input::new(
            "4,096 leaves, no region",
            &family(&[1; 4096], &[]),
            down.clone(),
        ),
        Input::new("4,095 of 4,096 leaves empty", &empty, down),
    ]
}

fn calls_table() -> bool {
    println!("| input | T | K | call | library µs | Rust µs | ratio |");
    println!("|---|---|---|---|---|---|---|");
    let mut all_met = true;
    for input in inputs() {
        agree(&input);
        for pair in &PAIRS {
            let (library, rust) = both(pair, &input);
            let ratio = library / rust;
            all_met &= ratio <= 1.5;
            println!(
                "| {} | {} | {} | {} | {} | {} | {:.2}{} |",
                input.name,
                input.path.len(),
                input.regions(),
                pair.name,
                micro(library),
                micro(rust),
                ratio,
                if ratio <= 1.5 { "" } else { " over 1.5" }
            );
        }
    }
    all_met
}

/// A list of selections for one family. The first is that of the rows of `bound`.
struct List {
    name: &'static str,
    peptides: usize,
    regions: usize,
    file: Vec<u8>,
    selections: Vec<u8>,
    count: u16,
}

impl List {
    fn new(name: &'static str, family: &Family, count: u16) -> List {
        List {
            name,
            peptides: family.peptides as usize,
            regions: family.regions.len(),
            file: file_of(family),
            selections: half_full(family, count as usize),
            count,
        }
    }

    fn library(&self, values: &mut [u16]) -> phf::Listed {
        phf::bounds_list(&self.file, &self.selections, self.count, 0, values)
    }

    fn rust(&self, values: &mut [u16]) -> phf::Listed {
        fast::bounds_list(&self.file, &self.selections, self.count, 0, values)
    }

    /// Each selection by a call of its own.
    fn one_by_one(&self, values: &mut [u16], taken: &mut [u8]) {
        let selections = self.selections.chunks_exact(self.peptides);
        for (selection, value) in selections.zip(values) {
            *value = phf::bound(&self.file, selection, taken).bound;
        }
    }

    /// All three write the same, and leave what lies beyond.
    fn agree(&self) {
        let mut rooms = [vec![9999; 50], vec![9999; 50], vec![9999; 50]];
        let [one, two, three] = &mut rooms;
        let answer = self.library(one);
        assert_eq!((answer.number, answer.charge as usize), (0, self.regions));
        assert_eq!(answer, self.rust(two));
        self.one_by_one(three, &mut [0; 8191]);
        assert!(rooms.iter().all(|room| *room == rooms[0]));
    }

    /// Nanoseconds of the library, of the Rust twin, and of calls for each selection.
    fn times(&self) -> [f64; 3] {
        self.agree();
        let mut rooms = [Room::new(), Room::new(), Room::new()];
        let [one, two, three] = &mut rooms;
        let found = measure(&mut [
            &mut || {
                black_box(black_box(self).library(&mut one.values));
            },
            &mut || {
                black_box(black_box(self).rust(&mut two.values));
            },
            &mut || black_box(self).one_by_one(&mut three.values, &mut three.bytes),
        ]);
        [found[0], found[1], found[2]]
    }
}

/// Whether no row is over 1.5 times the Rust one; and whether, of the rows with 32 selections of 4,096 peptides, none is over 1.2
/// times the Rust one, and none over 0.9 of the calls for each selection.
fn lists_table() -> (bool, bool, bool) {
    println!("| family | m | K | selections | library µs | Rust µs | ratio | `bound` for each µs | of `bound` for each |");
    println!("|---|---|---|---|---|---|---|---|---|");
    let [source, largest] = source_and_largest(&mut Random::new(1));
    let course = eight_peptides();
    let (mut all_met, mut all_near, mut all_shorter) = (true, true, true);
    for (name, family) in [("course", course), ("source", source), ("largest", largest)] {
        for count in [1, 8, 32] {
            let list = List::new(name, &family, count);
            let [library, rust, each] = list.times();
            let (ratio, part) = (library / rust, library / each);
            let judged = count == 32 && list.peptides == 4096;
            let most = if judged { 1.2 } else { 1.5 };
            let shorter = part <= 0.9 || !judged;
            all_met &= ratio <= 1.5;
            all_near &= ratio <= 1.2 || !judged;
            all_shorter &= shorter;
            println!(
                "| {} | {} | {} | {count} | {} | {} | {ratio:.2}{} | {} | {part:.2}{} |",
                list.name,
                list.peptides,
                list.regions,
                micro(library),
                micro(rust),
                if ratio <= most {
                    String::new()
                } else {
                    format!(" over {most}")
                },
                micro(each),
                if shorter { "" } else { " over 0.9" }
            );
        }
    }
    (all_met, all_near, all_shorter)
}

/// The binary tree of the source's experiment, with z as in its scenarios 1 and 3, the size of the region, or mixed.
fn source_family(random: &mut Random, length: usize, trivial: bool) -> Family {
    let mut family = binary_tree(random, 512, length, Bounds::Mixed);
    if trivial {
        for region in &mut family.regions {
            region.z = (region.last - region.first + 1) * length as u16;
        }
    }
    family
}

fn reduced(family: &Family) -> Family {
    let file = file_of(family);
    let mut out = vec![0; file.len()];
    let answer = phf::reduce(&file, &mut out);
    assert_eq!(answer.number, 0);
    out.truncate(answer.length as usize);
    assert!(!has_empty_leaf(&out));
    check(&out).unwrap()
}

/// The curve of the source's experiment, for each step of the path.
fn source_table() {
    println!("| m | z | N | K | path | library ns per step | Rust, the same walk | Rust, table of leaves |");
    println!("|---|---|---|---|---|---|---|---|");
    let random = &mut Random::new(2);
    for (length, trivial) in [(2, true), (2, false), (8, true), (8, false)] {
        let whole = source_family(random, length, trivial);
        let m = whole.peptides as usize;
        for (state, family) in [("", whole.clone()), (", reduced", reduced(&whole))] {
            let paths = [
                ("1 2 3 ..", (1..=m as u16).collect()),
                ("random", random.order(m)),
            ];
            for (name, path) in paths {
                let input = Input::new(name, &family, path);
                let mut rooms = [Room::new(), Room::new(), Room::new()];
                let [one, two, three] = &mut rooms;
                let found = measure(&mut [
                    &mut || (PAIRS[2].library)(&input, one),
                    &mut || (PAIRS[2].rust)(&input, two),
                    &mut || {
                        fast::curve_with_table(
                            black_box(&input.file),
                            &input.path,
                            &mut three.values,
                            &mut three.marks,
                        )
                    },
                ]);
                assert_eq!(rooms[0].values, rooms[2].values);
                println!(
                    "| {m} | {}{state} | {} | {} | {name} | {:.0} | {:.0} | {:.0} |",
                    if trivial { "size" } else { "mixed" },
                    family.lengths.len(),
                    family.regions.len(),
                    found[0] / m as f64,
                    found[1] / m as f64,
                    found[2] / m as f64
                );
            }
        }
    }
}

/// The curve with other ways to the leaf of a peptide: nearly all of its time where there are many leaves.
fn walk_table() {
    println!("| N | K | path | library µs | Rust, the same walk | Rust, 16 leaves at a time | Rust, table of leaves | library to 16 at a time |");
    println!("|---|---|---|---|---|---|---|---|");
    let random = &mut Random::new(6);
    let up: Vec<u16> = (1..=4096).collect();
    let mut rows = Vec::new();
    for n in [1, 8, 16, 64, 100, 256, 512, 1024, 2048, 4096] {
        let lengths: Vec<u16> = (0..n)
            .map(|j| (4096 * (j + 1) / n - 4096 * j / n) as u16)
            .collect();
        rows.push(("random", family(&lengths, &[]), random.order(4096)));
    }
    let largest = binary_tree(random, 4096, 1, Bounds::Mixed);
    rows.push(("random", largest.clone(), random.order(4096)));
    rows.push(("1 2 3 ..", largest, up.clone()));
    // every walk but those to the first leaf passes a long one
    let mut uneven = vec![1; 2048];
    uneven[0] = 2049;
    rows.push(("random", family(&uneven, &[]), random.order(4096)));
    let lengths = all_but_one_empty(4096, 4096, 4096);
    rows.push(("1 2 3 ..", family(&lengths, &[]), up));
    for (name, family, path) in rows {
        let input = Input::new(name, &family, path);
        agree(&input);
        let mut rooms = [Room::new(), Room::new(), Room::new(), Room::new()];
        let [one, two, three, four] = &mut rooms;
        let file = &input.file;
        let found = measure(&mut [
            &mut || (PAIRS[2].library)(&input, one),
            &mut || (PAIRS[2].rust)(&input, two),
            &mut || {
                fast::curve_by_sixteens(
                    black_box(file),
                    &input.path,
                    &mut three.values,
                    &mut three.marks,
                )
            },
            &mut || {
                fast::curve_with_table(
                    black_box(file),
                    &input.path,
                    &mut four.values,
                    &mut four.marks,
                )
            },
        ]);
        for other in &rooms[1..] {
            assert_eq!(
                (&rooms[0].values, &rooms[0].marks),
                (&other.values, &other.marks)
            );
        }
        println!(
            "| {} | {} | {name} | {} | {} | {} | {} | {:.2} |",
            family.lengths.len(),
            family.regions.len(),
            micro(found[0]),
            micro(found[1]),
            micro(found[2]),
            micro(found[3]),
            found[0] / found[2]
        );
    }
}

/// Files made to keep the check busy.
fn hostile_files() -> Vec<(&'static str, Vec<u8>)> {
    let random = &mut Random::new(3);
    let largest = binary_tree(random, 4096, 1, Bounds::Mixed);
    let mut crossing = largest.clone();
    // one of the last regions reaches into its neighbour
    for region in &mut crossing.regions {
        if (region.first, region.last) == (4093, 4094) {
            region.last = 4095;
        }
    }
    let mut steps = family(&[1; 4096], &[]);
    for first in 1..=4096u16 {
        // towers that are left at one go: the climb from the innermost is as long as can be
        let tower = (first - 1) / 64;
        steps.regions.push(Region {
            first,
            last: 64 * (tower + 1),
            z: 1,
        });
    }
    // the last tower has one region too many
    let mut too_deep = family(&[1; 4096], &[]);
    too_deep.regions = steps.regions[..3968].to_vec();
    too_deep.regions.extend((3969..=4033).map(|first| Region {
        first,
        last: 4033,
        z: 1,
    }));
    let empty = binary_tree_on(random, all_but_one_empty(4096, 4096, 1), Bounds::Mixed);
    vec![
        ("largest, accepted", file_of(&largest)),
        ("largest, the last regions cross", file_of(&crossing)),
        ("towers of 64", file_of(&steps)),
        ("towers, the last too deep", file_of(&too_deep)),
        ("4,096 nested", file_of(&chain(4096, 4096, 1))),
        ("4,095 of 4,096 leaves empty", file_of(&empty)),
        ("57,355 zeros behind a header", {
            let mut file = file_of(&largest);
            file[16..].fill(0);
            file
        }),
        ("1,000,000 bytes", {
            let mut file = file_of(&largest);
            file.resize(1_000_000, 0);
            file
        }),
    ]
}

fn check_table() -> f64 {
    println!("| file | number | library µs | Rust µs | ratio |");
    println!("|---|---|---|---|---|");
    let mut worst = 0f64;
    for (name, file) in hostile_files() {
        let number = phf::check(&file).number;
        assert_eq!(phf::check(&file), fast::check(&file));
        let found = measure(&mut [
            &mut || {
                black_box(phf::check(black_box(&file)));
            },
            &mut || {
                black_box(fast::check(black_box(&file)));
            },
        ]);
        worst = worst.max(found[0]);
        println!(
            "| {name} | {number} | {} | {} | {:.2} |",
            micro(found[0]),
            micro(found[1]),
            found[0] / found[1]
        );
    }
    worst
}

/// How the times grow with one size while the others stay.
fn growth_table() {
    println!("| grows | value | check µs | bound µs | curve µs | cut µs | reduce µs | same µs |");
    println!("|---|---|---|---|---|---|---|---|");
    let random = &mut Random::new(4);
    let down = |t: usize| -> Vec<u16> { (1..=4096).rev().take(t).collect() };
    let mut rows: Vec<(&str, usize, Input)> = Vec::new();
    let largest = binary_tree(random, 4096, 1, Bounds::Mixed);
    for k in [0, 1023, 2047, 4095, 8191] {
        // the first k regions of the largest tree
        let mut fewer = largest.clone();
        fewer.regions.truncate(k);
        rows.push((
            "K (N = T = 4,096)",
            k,
            Input::new("", &fewer, random.order(4096)),
        ));
    }
    for depth in [1, 4, 16, 64] {
        let mut family = towers(random, 4096, depth, Bounds::Mixed);
        for region in &mut family.regions {
            region.z = 65535;
        }
        rows.push((
            "depth (K = N = T = 4,096)",
            depth,
            Input::new("", &family, down(4096)),
        ));
    }
    for t in [0, 512, 1024, 2048, 4096] {
        rows.push((
            "T (N = 4,096, K = 8,191)",
            t,
            Input::new("", &largest, down(t)),
        ));
    }
    for n in [1, 64, 512, 1024, 2048, 4096] {
        let family = binary_tree(random, n, 4096 / n, Bounds::Mixed);
        rows.push((
            "N (T = 4,096, K = 2N − 1)",
            n,
            Input::new("", &family, down(4096)),
        ));
    }
    for (grows, value, input) in rows {
        agree(&input);
        let times: Vec<String> = PAIRS
            .iter()
            .map(|pair| micro(both(pair, &input).0))
            .collect();
        println!("| {grows} | {value} | {} |", times.join(" | "));
    }
}

/// The rows that peptides are chosen by.
struct Rows {
    p_values: Vec<f64>,
    folds: Vec<f64>,
}

impl Rows {
    /// p anywhere from 0 to 1 and folds from -4 to 4, so that no row tells what becomes of the next.
    fn new(m: usize) -> Rows {
        let random = &mut Random::new(5);
        Rows {
            p_values: (0..m).map(|_| random.fraction()).collect(),
            folds: (0..m).map(|_| 8.0 * random.fraction() - 4.0).collect(),
        }
    }
}

type Choose = fn(&Rows, &mut [u8]) -> u16;

/// A choice of the library and its like in Rust.
struct Choice {
    name: &'static str,
    library: Choose,
    rust: Choose,
}

const CHOICES: [Choice; 3] = [
    Choice {
        name: "p at most 0.05",
        library: |r, out| phf::choose_at_most(4096, &r.p_values, &r.folds, 0.05, out),
        rust: |r, out| fast::choose(4096, &r.p_values, &r.folds, Rule::AtMost(0.05), out),
    },
    Choice {
        name: "p from 0.25 to 0.75",
        library: |r, out| phf::choose_between(4096, &r.p_values, &r.folds, 0.25, 0.75, out),
        rust: |r, out| fast::choose(4096, &r.p_values, &r.folds, Rule::Between(0.25, 0.75), out),
    },
    Choice {
        name: "p at most 0.5, fold at least 1 or at most −1",
        library: |r, out| phf::choose_volcano(4096, &r.p_values, &r.folds, 0.5, 1.0, out),
        rust: |r, out| fast::choose(4096, &r.p_values, &r.folds, Rule::Volcano(0.5, 1.0), out),
    },
];

/// Both choose the same of these rows; how many.
fn agree_on(choice: &Choice, rows: &Rows) -> usize {
    // nothing that a choice writes, and longer than it needs
    let (mut one, mut other) = (vec![9; 5000], vec![9; 5000]);
    let number = (choice.library)(rows, &mut one);
    assert_eq!(number, (choice.rust)(rows, &mut other));
    assert_eq!(number, 0);
    assert_eq!(one, other);
    one.iter().filter(|byte| **byte == 1).count()
}

fn selections_table() -> bool {
    println!("| rule | m | selected | library µs | Rust µs | ratio |");
    println!("|---|---|---|---|---|---|");
    let rows = Rows::new(4096);
    let mut all_met = true;
    for choice in &CHOICES {
        let selected = agree_on(choice, &rows);
        let (mut one, mut other) = (vec![0; 4096], vec![0; 4096]);
        let found = measure(&mut [
            &mut || {
                black_box((choice.library)(black_box(&rows), &mut one));
            },
            &mut || {
                black_box((choice.rust)(black_box(&rows), &mut other));
            },
        ]);
        let ratio = found[0] / found[1];
        all_met &= ratio <= 1.5;
        println!(
            "| {} | 4096 | {selected} | {} | {} | {ratio:.2}{} |",
            choice.name,
            micro(found[0]),
            micro(found[1]),
            if ratio <= 1.5 { "" } else { " over 1.5" }
        );
    }
    all_met
}

/// A family whose z are computed from p-values.
struct FromP {
    name: String,
    file: Vec<u8>,
    p_values: Vec<u32>,
}

impl FromP {
    fn new(name: &str, family: &Family, p_values: Vec<u32>) -> FromP {
        FromP {
            name: name.to_string(),
            file: file_of(family),
            p_values,
        }
    }

    fn regions(&self) -> usize {
        u16::from_le_bytes([self.file[8], self.file[9]]) as usize
    }

    fn library(&self, out: &mut [u8]) -> u16 {
        phf::bounds_from_p(&self.file, &self.p_values, DEVIATION_SQUARED, out)
    }

    fn rust(&self, out: &mut [u8]) -> u16 {
        fast::bounds_from_p(&self.file, &self.p_values, DEVIATION_SQUARED, out)
    }

    /// Both write the same, and leave what lies beyond.
    fn agree(&self) {
        let (mut one, mut other) = (vec![9; 57_400], vec![9; 57_400]);
        assert_eq!(self.library(&mut one), 0);
        assert_eq!(self.rust(&mut other), 0);
        assert_eq!(one, other);
    }

    /// Measures both, and prints a row that begins with these cells; the ratio.
    fn row(&self, cells: &str) -> f64 {
        self.agree();
        let (mut one, mut other) = (vec![0; 57_354], vec![0; 57_354]);
        let found = measure(&mut [
            &mut || {
                black_box(black_box(self).library(&mut one));
            },
            &mut || {
                black_box(black_box(self).rust(&mut other));
            },
        ]);
        let ratio = found[0] / found[1];
        println!(
            "| {cells} | {} | {} | {ratio:.2}{} |",
            micro(found[0]),
            micro(found[1]),
            if ratio <= 1.5 { "" } else { " over 1.5" }
        );
        ratio
    }
}

fn from_p_inputs() -> Vec<FromP> {
    let random = &mut Random::new(10);
    let [source, largest] = source_and_largest(random);
    let any = random.p_values(4096, 0, 1);
    let half_small = random.p_values(4096, 1, 2);
    // 21 different ones
    let ties = any.iter().map(|p| p / 50_000 * 50_000).collect();
    vec![
        FromP::new("course, m = 8", &eight_peptides(), EIGHT_P_VALUES.to_vec()),
        FromP::new("source, random", &source, any.clone()),
        FromP::new("source, half of them small", &source, half_small.clone()),
        FromP::new("source, many equal", &source, ties),
        FromP::new("source, all 0", &source, vec![0; 4096]),
        FromP::new("largest, random", &largest, any.clone()),
        FromP::new("largest, half of them small", &largest, half_small.clone()),
        FromP::new(
            "64 nested over all on 64 leaves, random",
            &chain_over_one_leaf(64, 0),
            any.clone(),
        ),
        FromP::new(
            "64 nested over all on 64 leaves, half of them small",
            &chain_over_one_leaf(64, 0),
            half_small,
        ),
        FromP::new(
            "64 nested over all on 4,096 leaves, random",
            &chain(4096, 64, 0),
            any,
        ),
    ]
}

fn from_p_table() -> bool {
    println!("| family, p-values | m | K | library µs | Rust µs | ratio |");
    println!("|---|---|---|---|---|---|");
    let mut all_met = true;
    for input in from_p_inputs() {
        let m = input.p_values.len();
        let ratio = input.row(&format!("{} | {m} | {}", input.name, input.regions()));
        all_met &= ratio <= 1.5;
    }
    all_met
}

/// How the times grow with one size while the others stay.
fn from_p_growth_table() {
    println!("| grows | value | library µs | Rust µs | ratio |");
    println!("|---|---|---|---|---|");
    let random = &mut Random::new(11);
    for m in [256, 512, 1024, 2048, 4096] {
        let family = binary_tree(random, 64, m / 64, Bounds::Mixed);
        let input = FromP::new("", &family, random.p_values(m, 1, 2));
        input.row(&format!("m (N = 64, K = 127) | {m}"));
    }
    for depth in [1, 4, 16, 64] {
        let p_values = random.p_values(4096, 1, 2);
        let input = FromP::new("", &chain_over_one_leaf(depth, 0), p_values);
        input.row(&format!("depth (m = 4,096, N = 64, K = depth) | {depth}"));
    }
}

/// A ranking with p-values.
struct Hybrid {
    name: String,
    file: Vec<u8>,
    path: Vec<u16>,
    p_values: Vec<u32>,
    level: u32,
}

/// What was measured of a hybrid curve, and of the curve on the same input.
struct Times {
    library: f64,
    rust: f64,
    curve: f64,
}

impl Times {
    fn ratio(&self) -> f64 {
        self.library / self.rust
    }

    /// What the hybrid curve takes beside the curve.
    fn simes(&self) -> f64 {
        self.library - self.curve
    }

    fn cells(&self) -> String {
        format!(
            "{} | {} | {:.2}{} | {} | {}",
            micro(self.library),
            micro(self.rust),
            self.ratio(),
            if self.ratio() <= 1.5 { "" } else { " over 1.5" },
            micro(self.curve),
            micro(self.simes())
        )
    }
}

impl Hybrid {
    fn new(name: &str, family: &Family, path: &[u16], p_values: &[u32], level: u32) -> Hybrid {
        Hybrid {
            name: name.to_string(),
            file: file_of(family),
            path: path.to_vec(),
            p_values: p_values.to_vec(),
            level,
        }
    }

    fn number_at(&self, offset: usize) -> usize {
        u16::from_le_bytes([self.file[offset], self.file[offset + 1]]) as usize
    }

    fn leaves(&self) -> usize {
        self.number_at(6)
    }

    fn regions(&self) -> usize {
        self.number_at(8)
    }

    fn library(&self, values: &mut [u16]) -> phf::Curved {
        phf::hybrid(&self.file, &self.path, &self.p_values, self.level, values)
    }

    fn rust(&self, values: &mut [u16]) -> phf::Curved {
        fast::hybrid(&self.file, &self.path, &self.p_values, self.level, values)
    }

    /// Both write the same, and leave what lies beyond.
    fn agree(&self) {
        let (mut one, mut other) = (vec![9999; 5000], vec![9999; 5000]);
        assert_eq!(self.library(&mut one).number, 0);
        assert_eq!(self.rust(&mut other).number, 0);
        assert_eq!(one, other);
    }

    fn times(&self) -> Times {
        self.agree();
        let mut rooms = [Room::new(), Room::new(), Room::new()];
        let [one, two, three] = &mut rooms;
        let found = measure(&mut [
            &mut || {
                black_box(black_box(self).library(&mut one.values));
            },
            &mut || {
                black_box(black_box(self).rust(&mut two.values));
            },
            &mut || {
                black_box(phf::curve(
                    black_box(&self.file),
                    &self.path,
                    &mut three.values,
                    &mut three.marks,
                ));
            },
        ]);
        Times {
            library: found[0],
            rust: found[1],
            curve: found[2],
        }
    }
}

/// Peptides by rising p-value, as they are ranked.
fn ranked(p_values: &[u32]) -> Vec<u16> {
    let mut path: Vec<u16> = (1..=p_values.len() as u16).collect();
    path.sort_by_key(|peptide| p_values[*peptide as usize - 1]);
    path
}

/// p-values for a path of 4,096 peptides, by where the search for a free slot begins.
fn searches(random: &mut Random, path: &[u16]) -> Vec<(&'static str, Vec<u32>)> {
    let anywhere: Vec<usize> = (0..4096).map(|_| random.below(4096)).collect();
    let rising: Vec<usize> = (0..4096).collect();
    let falling: Vec<usize> = (0..4096).rev().collect();
    // the first half take the slots one above the other, and all others begin at the top of them
    let mut chained: Vec<usize> = (1..=2048).collect();
    chained.extend([2048; 2048]);
    [
        ("anywhere", anywhere),
        ("rising", rising),
        ("falling", falling),
        ("all in the middle", vec![2048; 4096]),
        ("rising to the middle, then all there", chained),
        ("always farthest from a free slot", longest_searches(4096)),
    ]
    .map(|(name, lasts)| (name, counted_up_to(path, &lasts)))
    .to_vec()
}

fn hybrid_inputs() -> Vec<Hybrid> {
    let random = &mut Random::new(12);
    let any = random.order(4096);
    let half_small = random.p_values(4096, 1, 2);
    let ranking = ranked(&half_small);
    let short = random.p_values(1024, 1, 2);
    let largest = [
        ("4,096 leaves, no region", family(&[1; 4096], &[])),
        ("largest", binary_tree(random, 4096, 1, Bounds::Mixed)),
    ];
    let [source_of_two, source] = [2, 8].map(|length| source_family(random, length, false));
    let mut inputs = vec![
        Hybrid::new(
            "course, m = 8",
            &eight_peptides(),
            &[7, 3, 1, 4, 6, 2, 5, 8],
            &EIGHT_P_VALUES,
            50_000,
        ),
        Hybrid::new(
            "source, by rising p, half small",
            &source_of_two,
            &ranked(&short),
            &short,
            50_000,
        ),
    ];
    let mut add = |name: &str, family: &Family, path: &[u16], p_values: &[u32], level: u32| {
        inputs.push(Hybrid::new(name, family, path, p_values, level));
    };
    for (name, family) in std::iter::once(&("source", source)).chain(&largest) {
        let named = |what: &str| format!("{name}, {what}");
        add(
            &named("by rising p, half small"),
            family,
            &ranking,
            &half_small,
            50_000,
        );
        add(&named("half small"), family, &any, &half_small, 50_000);
    }
    for (name, family) in &largest {
        let named = |what: &str| format!("{name}, {what}");
        add(&named("all 0"), family, &any, &[0; 4096], 50_000);
        add(
            &named("all 1,000,000"),
            family,
            &any,
            &[1_000_000; 4096],
            50_000,
        );
        for (what, p_values) in searches(random, &any) {
            add(&named(what), family, &any, &p_values, LEVEL);
        }
    }
    inputs
}

/// Whether no row is over 1.5 times the Rust one, and whether the Simes part takes no longer than the curve where that has the most
/// leaves and steps.
fn hybrid_table() -> (bool, bool) {
    println!("| family, p-values | T | K | level | library µs | Rust µs | ratio | `curve` µs | Simes part µs | of `curve` |");
    println!("|---|---|---|---|---|---|---|---|---|---|");
    let (mut all_met, mut all_within) = (true, true);
    for input in hybrid_inputs() {
        let times = input.times();
        let part = times.simes() / times.curve;
        let largest = input.leaves() == 4096 && input.path.len() == 4096;
        let within = part <= 1.0 || !largest;
        all_met &= times.ratio() <= 1.5;
        all_within &= within;
        println!(
            "| {} | {} | {} | {} | {} | {part:.2}{} |",
            input.name,
            input.path.len(),
            input.regions(),
            input.level,
            times.cells(),
            if within { "" } else { " over 1" }
        );
    }
    (all_met, all_within)
}

/// How the Simes part grows with the number of peptides. With one leaf the curve takes little, so that it hides nothing.
fn hybrid_growth_table() {
    println!("| p-values (T = m, N = 1, K = 0) | m | library µs | Rust µs | ratio | `curve` µs | Simes part µs | ns per step |");
    println!("|---|---|---|---|---|---|---|---|");
    let random = &mut Random::new(13);
    for farthest in [false, true] {
        for m in [512, 1024, 2048, 4096] {
            let path = random.order(m);
            let (name, lasts) = if farthest {
                ("always farthest from a free slot", longest_searches(m))
            } else {
                ("anywhere", (0..m).map(|_| random.below(m)).collect())
            };
            let p_values = counted_up_to(&path, &lasts);
            let one_leaf = family(&[m as u16], &[]);
            let times = Hybrid::new(name, &one_leaf, &path, &p_values, LEVEL).times();
            let step = times.simes() / m as f64;
            println!("| {name} | {m} | {} | {step:.1} |", times.cells());
        }
    }
}

type Convert = fn(&[u8], &mut [u8]) -> phf::Converted;

/// A conversion of the library and its like in Rust.
struct Conversion {
    name: &'static str,
    library: Convert,
    rust: Convert,
}

const TO_LEVELS: Conversion = Conversion {
    name: "to levels",
    library: phf::to_levels,
    rust: fast::to_levels,
};

const FROM_LEVELS: Conversion = Conversion {
    name: "from levels",
    library: phf::from_levels,
    rust: fast::from_levels,
};

impl Conversion {
    /// Both tell the same, write the same, and leave what lies beyond; the number.
    fn agree(&self, file: &[u8]) -> u16 {
        let (mut one, mut other) = (vec![9; 57_500], vec![9; 57_500]);
        let answer = (self.library)(file, &mut one);
        assert_eq!(answer, (self.rust)(file, &mut other));
        assert_eq!(one, other);
        answer.number
    }

    /// Nanoseconds of the library and of the Rust twin.
    fn times(&self, file: &[u8]) -> (f64, f64) {
        let (mut one, mut other) = (vec![0; 57_482], vec![0; 57_482]);
        let found = measure(&mut [
            &mut || {
                black_box((self.library)(black_box(file), &mut one));
            },
            &mut || {
                black_box((self.rust)(black_box(file), &mut other));
            },
        ]);
        (found[0], found[1])
    }
}

/// Files by level that are made to keep the conversion busy, each with the number that it is declined by.
fn hostile_files_by_level(largest: &Family) -> Vec<(&'static str, u16, Vec<u8>)> {
    let in_one_level = |regions: Vec<(u16, u16, u16)>| {
        let count = regions.len() as u16;
        level_file_of(&listed(&[1; 4096], &regions, &[count]))
    };
    let mut deeper = by_level(largest);
    deeper.counts[12] -= 1;
    deeper.counts[13] += 1;
    vec![
        (
            "8,191 equal regions",
            27,
            in_one_level(vec![(1, 4096, 1); 8191]),
        ),
        (
            "4,096 nested",
            10,
            in_one_level((1..=4096).rev().map(|last| (1, last, 1)).collect()),
        ),
        (
            "2,048 that all cross",
            9,
            in_one_level((1..=2048).map(|i| (i, i + 2048, 1)).collect()),
        ),
        (
            "largest, the last region told a level too deep",
            27,
            level_file_of(&deeper),
        ),
    ]
}

/// Whether no row with 2,048 regions or more is over 1.2 times the Rust one.
fn levels_table() -> bool {
    println!("| call | family | N | K | number | library µs | Rust µs | ratio |");
    println!("|---|---|---|---|---|---|---|---|");
    let largest = binary_tree(&mut Random::new(14), 4096, 1, Bounds::Mixed);
    let families = [
        ("course, m = 8", eight_peptides()),
        ("largest, 13 levels", largest.clone()),
        ("64 levels, each leaf", chain_over_leaves(4096, 64, 9)),
        ("4,096 leaves, no region", family(&[1; 4096], &[])),
    ];
    let mut rows = Vec::new();
    for (name, family) in &families {
        rows.push((TO_LEVELS, *name, 0, file_of(family)));
    }
    for (name, family) in &families {
        rows.push((FROM_LEVELS, *name, 0, level_file(family)));
    }
    for (name, number, file) in hostile_files_by_level(&largest) {
        rows.push((FROM_LEVELS, name, number, file));
    }
    let mut all_near = true;
    for (conversion, name, number, file) in rows {
        assert_eq!(conversion.agree(&file), number);
        let (library, rust) = conversion.times(&file);
        let ratio = library / rust;
        let regions = u16::from_le_bytes([file[8], file[9]]);
        all_near &= ratio <= 1.2 || regions < 2048;
        println!(
            "| {} | {name} | {} | {regions} | {number} | {} | {} | {ratio:.2} |",
            conversion.name,
            u16::from_le_bytes([file[6], file[7]]),
            micro(library),
            micro(rust)
        );
    }
    all_near
}

/// The stack that each call needs: the most of several large families.
fn stack_table() {
    println!("| call | bytes of stack used | KB stated |");
    println!("|---|---|---|");
    let random = &mut Random::new(9);
    let files = [
        file_of(&towers(random, 4096, 64, Bounds::Mixed)),
        file_of(&deepest_tree(random, Bounds::Mixed)),
        file_of(&binary_tree(random, 4096, 1, Bounds::Mixed)),
        file_of(&chain(4096, 64, 3000)),
    ];
    let path = random.order(4096);
    let mut most: Vec<(&str, usize, usize)> = Vec::new();
    for file in &files {
        for (k, mut call) in every_call(file, &path).into_iter().enumerate() {
            let used = Stack::new(1 << 20).used(&mut call.make);
            if k == most.len() {
                most.push((call.name, 0, call.stated));
            }
            most[k].1 = most[k].1.max(used);
        }
    }
    for (name, used, stated) in most {
        println!("| {name} | {used} | {} |", stated / 1024);
    }
}

fn main() {
    println!("### Calls\n");
    let calls_met = calls_table();
    println!("\n### Lists of selections\n");
    let (lists_met, near, shorter) = lists_table();
    println!("\n### Selections\n");
    let selections_met = selections_table();
    println!("\n### Bounds from p-values\n");
    let from_p_met = from_p_table();
    println!();
    from_p_growth_table();
    println!("\n### Hybrid curves\n");
    let (hybrid_met, within) = hybrid_table();
    let met = hybrid_met && from_p_met && selections_met && lists_met && calls_met;
    println!();
    hybrid_growth_table();
    println!("\n### Families by level\n");
    let levels_near = levels_table();
    println!("\n### The walk\n");
    walk_table();
    println!("\n### The experiment of the source\n");
    source_table();
    println!("\n### Hostile files\n");
    let worst = check_table();
    println!("\n### Growth\n");
    growth_table();
    println!("\n### Stack\n");
    stack_table();
    println!(
        "\nNo call over 1.5 times the Rust one: {met}. 32 selections of 4,096 peptides at most 1.2 times the Rust list: {near}, and \
         at most 0.9 of 32 calls: {shorter}. The Simes part takes no longer than the curve with 4,096 leaves and steps: {within}. \
         No conversion of 2,048 regions or more over 1.2 times the Rust one: {levels_near}. Worst check: {} µs.",
        micro(worst)
    );
}
