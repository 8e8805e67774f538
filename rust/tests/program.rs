//! The program crates/curve/out/curve on pairs of files: missing, truncated, odd, too long, refused and accepted ones, and such as
//! cannot be opened or read; and on output that cannot be written. What it has to print is worked out here by the plain
//! implementation. No proof says what is read or written, so this is what holds the program to it.

use phf_tests::families::{
    all_but_one_empty, binary_tree, chain, eight_peptides, family, file, level_file, random_family,
    Bounds,
};
use phf_tests::programs;
use phf_tests::random::{cases, Random};
use phf_tests::reference::{curve, file_of};
use std::fs;
use std::os::unix::fs::{symlink, PermissionsExt};
use std::os::unix::process::CommandExt;
use std::path::{Path, PathBuf};
use std::process::{Command, Stdio};
use std::sync::OnceLock;

fn program() -> PathBuf {
    programs::program("curve")
}

/// A new folder with these files.
fn folder(name: &str, family: Option<&[u8]>, path: Option<&[u8]>) -> PathBuf {
    let place = Path::new(env!("CARGO_TARGET_TMPDIR")).join(name);
    programs::folder(&place, family, path)
}

/// What a command that ends well writes to standard output and to standard error.
fn said(command: &mut Command) -> (String, String) {
    let output = command.output().unwrap();
    assert!(output.status.success(), "{command:?}: {}", output.status);
    (
        String::from_utf8(output.stdout).unwrap(),
        String::from_utf8(output.stderr).unwrap(),
    )
}

/// What a command prints that has nothing to say on standard error.
fn quiet(command: &mut Command) -> String {
    let (text, errors) = said(command);
    assert_eq!(errors, "");
    text
}

/// What the program prints in a folder with these files.
fn printed(name: &str, family: Option<&[u8]>, path: Option<&[u8]>) -> String {
    quiet(Command::new(program()).current_dir(folder(name, family, path)))
}

/// What it has to print, from the scope document's words.
fn expected(family: Option<&[u8]>, path: Option<&[u8]>) -> String {
    let family = family.unwrap_or(&[]);
    let path = path.unwrap_or(&[]);
    let family = &family[..family.len().min(57_355)];
    let path = &path[..path.len().min(8_194)];
    let numbers: Vec<u16> = path
        .chunks_exact(2)
        .map(|two| u16::from_le_bytes([two[0], two[1]]))
        .collect();
    let t = numbers.len();
    // an odd byte count is cause 11, after the causes of the family and before those of the path
    let answer = if path.len() % 2 == 1 {
        curve(family, &[], 1, 0)
            .map_err(|refusal| refusal.number)
            .and(Err(11))
    } else {
        curve(family, &numbers, t + 1, t).map_err(|refusal| refusal.number)
    };
    match answer {
        Err(number) => format!("refused {number}\n"),
        Ok((entries, marks)) => {
            let mut text = String::from("t peptide bound mark\n0 0 0 0\n");
            for i in 1..=t {
                text += &format!("{i} {} {} {}\n", numbers[i - 1], entries[i], marks[i - 1]);
            }
            text
        }
    }
}

fn run(name: &str, family: Option<&[u8]>, path: Option<&[u8]>) -> String {
    let text = printed(name, family, path);
    assert_eq!(text, expected(family, path));
    text
}

fn bytes(path: &[u16]) -> Vec<u8> {
    path.iter().flat_map(|p| p.to_le_bytes()).collect()
}

#[test]
fn e1() {
    let text = run(
        "e1",
        Some(&file_of(&eight_peptides())),
        Some(&bytes(&[7, 3, 1, 4, 6, 2, 5, 8])),
    );
    // copied from the scope document
    let e1 = "t peptide bound mark\n0 0 0 0\n1 7 0 0\n2 3 1 1\n3 1 2 1\n4 4 2 0\n5 6 3 1\n6 2 4 1\n7 5 4 0\n8 8 4 0\n";
    assert_eq!(text, e1);
}

#[test]
fn empty_leaves() {
    // peptides 1 and 2 in leaf 2, of which one may be false, and 3 in leaf 4
    let text = run(
        "empty-leaves",
        Some(&file(&[0, 2, 0, 1], &[(1, 1, 0), (2, 3, 1)])),
        Some(&bytes(&[2, 1, 3])),
    );
    assert_eq!(
        text,
        "t peptide bound mark\n0 0 0 0\n1 2 1 1\n2 1 1 0\n3 3 2 1\n"
    );
    let text = run(
        "most-leaves",
        Some(&file(&all_but_one_empty(4096, 4096, 1), &[])),
        Some(&bytes(&[1])),
    );
    assert_eq!(text, "t peptide bound mark\n0 0 0 0\n1 1 1 1\n");
}

/// What it prints if family.phf, or path.u16 beside an accepted family, is empty or counts as empty.
const NO_FAMILY: &str = "refused 1\n";
const NO_PATH: &str = "t peptide bound mark\n0 0 0 0\n";

#[test]
fn missing_and_empty_files() {
    let eight = file_of(&eight_peptides());
    let path = bytes(&[1, 2]);
    assert_eq!(run("no-family", None, Some(&path)), NO_FAMILY);
    assert_eq!(run("no-path", Some(&eight), None), NO_PATH);
    assert_eq!(run("nothing", None, None), NO_FAMILY);
    assert_eq!(run("empty-family", Some(&[]), Some(&path)), NO_FAMILY);
    assert_eq!(run("empty-path", Some(&eight), Some(&[])), NO_PATH);
}

/// The program on the eight-peptide family and a path, of which `make` puts something else in the place of one file.
fn with_other(name: &str, other: &str, make: fn(&Path)) -> String {
    let eight = file_of(&eight_peptides());
    let folder = folder(name, Some(&eight), Some(&bytes(&[1, 2])));
    let place = folder.join(other);
    fs::remove_file(&place).unwrap();
    make(&place);
    quiet(Command::new(program()).current_dir(folder))
}

#[test]
fn folders_for_files() {
    let make = |place: &Path| fs::create_dir(place).unwrap();
    assert_eq!(
        with_other("folder-for-family", "family.phf", make),
        NO_FAMILY
    );
    assert_eq!(with_other("folder-for-path", "path.u16", make), NO_PATH);
}

#[test]
fn links_that_lead_nowhere() {
    let around = |place: &Path| symlink(place, place).unwrap();
    assert_eq!(with_other("family-around", "family.phf", around), NO_FAMILY);
    assert_eq!(with_other("path-around", "path.u16", around), NO_PATH);
}

#[test]
fn files_without_permission() {
    let eight = file_of(&eight_peptides());
    let folder = folder("no-permission", Some(&eight), Some(&bytes(&[1, 2])));
    let allow = |place: &Path, mode: u32| {
        fs::set_permissions(place, fs::Permissions::from_mode(mode)).unwrap();
    };
    let (family, path) = (folder.join("family.phf"), folder.join("path.u16"));
    allow(&folder, 0o755);
    allow(&family, 0o644);
    allow(&path, 0);
    let mut curve = Command::new(program());
    curve.current_dir(&folder);
    if fs::read(&path).is_ok() {
        // root reads every file, so the program runs as nobody
        curve.uid(65_534).gid(65_534);
    }
    if let Err(error) = curve.output() {
        eprintln!(
            "skipped: root reads every file, and nobody cannot run the program here: {error}"
        );
        return;
    }
    assert_eq!(quiet(&mut curve), NO_PATH);
    allow(&path, 0o644);
    allow(&family, 0);
    assert_eq!(quiet(&mut curve), NO_FAMILY);
}

/// tests/c/faults.c, compiled.
fn faults() -> &'static Path {
    static MADE: OnceLock<PathBuf> = OnceLock::new();
    MADE.get_or_init(|| {
        let source = Path::new(env!("CARGO_MANIFEST_DIR")).join("tests/c/faults.c");
        let made = Path::new(env!("CARGO_TARGET_TMPDIR")).join("faults.so");
        let mut cc = Command::new("cc");
        cc.args(["-std=c99", "-Wall", "-Wextra", "-Werror", "-O1"]);
        quiet(
            cc.args(["-fPIC", "-shared"])
                .arg(source)
                .arg("-o")
                .arg(&made),
        );
        made
    })
}

/// The program in a folder, with reads and writes that fail as tests/c/faults.c says.
fn faulty(folder: &Path, settings: &[(&str, &str)]) -> Command {
    let mut command = Command::new(program());
    command
        .current_dir(folder)
        .env("LD_PRELOAD", faults())
        .envs(settings.iter().copied());
    command
}

/// The program where the reads of a file fail once they have brought some bytes.
fn fails_after(folder: &Path, file: &str, count: usize) -> String {
    let count = count.to_string();
    quiet(&mut faulty(
        folder,
        &[("FAULT_FILE", file), ("FAULT_READ", &count)],
    ))
}

#[test]
fn reads_that_fail_part_way() {
    let eight = file_of(&eight_peptides());
    let path = bytes(&[7, 3, 1, 4, 6, 2, 5, 8]);
    let whole = run("fails", Some(&eight), Some(&path));
    let folder = folder("fails", Some(&eight), Some(&path));
    // even where the last byte was read, nothing says that it was the last
    for count in 0..=eight.len() {
        assert_eq!(fails_after(&folder, "family.phf", count), NO_FAMILY);
    }
    for count in 0..=path.len() {
        assert_eq!(fails_after(&folder, "path.u16", count), NO_PATH);
    }
    // no read fails that is not made
    assert_eq!(fails_after(&folder, "family.phf", eight.len() + 1), whole);
    assert_eq!(fails_after(&folder, "path.u16", path.len() + 1), whole);
}

#[test]
fn reads_and_writes_in_steps() {
    let (family, path) = longest_files();
    let whole = run("steps", Some(&family), Some(&path));
    let folder = folder("steps", Some(&family), Some(&path));
    for step in ["100", "4096", "57353"] {
        let text = quiet(&mut faulty(&folder, &[("FAULT_STEP", step)]));
        assert!(text == whole, "in steps of {step}");
    }
}

#[test]
fn leaves_without_a_peptide() {
    let lengths = [0, 1, 0, 0, 1, 0, 0];
    let path = bytes(&[2, 1]);
    let table = |name: &str, regions: &[(u16, u16, u16)]| {
        run(name, Some(&file(&lengths, regions)), Some(&path))
    };
    let both = "t peptide bound mark\n0 0 0 0\n1 2 1 1\n2 1 2 1\n";
    let one = "t peptide bound mark\n0 0 0 0\n1 2 1 1\n2 1 1 0\n";
    // peptide 1 is in leaf 2 and peptide 2 in leaf 5; no other region has a peptide
    assert_eq!(table("none", &[]), both);
    let beside = [(1, 1, 0), (3, 4, 0), (3, 3, 0), (6, 7, 0)];
    assert_eq!(table("beside", &beside), both);
    // both regions have both peptides, and the smaller z is once outside and once inside
    assert_eq!(table("outside", &[(1, 7, 1), (2, 5, 2)]), one);
    assert_eq!(table("inside", &[(1, 7, 2), (2, 5, 1)]), one);
}

/// The longest file that one peptide can have. It is in the middle; its own 13 regions allow it, all others forbid theirs.
#[test]
fn one_peptide_in_the_longest_family() {
    let mut family = binary_tree(&mut Random::new(52), 4096, 1, Bounds::Small);
    family.peptides = 1;
    family.lengths = all_but_one_empty(4096, 2049, 1);
    for region in &mut family.regions {
        region.z = u16::from(region.first <= 2049 && 2049 <= region.last);
    }
    let file = file_of(&family);
    assert_eq!(file.len(), 57_354);
    let text = run("one-peptide", Some(&file), Some(&bytes(&[1])));
    assert_eq!(text, "t peptide bound mark\n0 0 0 0\n1 1 1 1\n");
}

#[test]
fn refused_families() {
    let eight = file_of(&eight_peptides());
    let path = bytes(&[1, 2]);
    let refused = |name: &str, family: &[u8], number: u16| {
        assert_eq!(
            run(name, Some(family), Some(&path)),
            format!("refused {number}\n")
        );
        // before anything that is wrong with the path
        run(&format!("{name}-odd"), Some(family), Some(&[1]));
        run(&format!("{name}-repeat"), Some(family), Some(&[1, 0, 1, 0]));
    };
    refused("short", &eight[..15], 1);
    refused("torn", &eight[..40], 5);
    refused("by-level", &level_file(&eight_peptides()), 1);
    refused("peptides", &file(&[4097], &[]), 2);
    refused("leaves", &file(&all_but_one_empty(4097, 1, 1), &[]), 3);
    refused("regions", &file(&[1], &[(1, 1, 1), (1, 1, 0)]), 4);
    let mut lengths = family(&[2, 0, 1], &[]);
    lengths.peptides = 2;
    refused("lengths", &file_of(&lengths), 6);
    refused("crossing", &file(&[1; 3], &[(1, 2, 1), (2, 3, 1)]), 9);
    // they share a leaf and no peptide
    let empty = file(&[1, 0, 1], &[(1, 2, 1), (2, 3, 1)]);
    refused("crossing-empty", &empty, 9);
    refused("deep", &file_of(&chain(65, 65, 1)), 10);
    let mut long = eight.clone();
    long.extend([0; 70_000]);
    refused("long", &long, 5);
}

#[test]
fn refused_paths() {
    let eight = file_of(&eight_peptides());
    let refused = |name: &str, path: &[u8], number: u16| {
        assert_eq!(
            run(name, Some(&eight), Some(path)),
            format!("refused {number}\n")
        );
    };
    refused("odd", &[1, 0, 2], 11);
    refused("odd-and-zero", &[0, 0, 2], 11);
    refused("nine", &bytes(&[1, 2, 3, 4, 5, 6, 7, 8, 9]), 11);
    refused("zero", &bytes(&[3, 0]), 12);
    refused("over", &bytes(&[9]), 12);
    refused("high-byte", &bytes(&[257]), 12);
    refused("twice", &bytes(&[3, 4, 3]), 13);
    refused("twice-and-zero", &bytes(&[3, 3, 0]), 12);
    refused("long-path", &[1; 20_000], 11);
}

/// The longest legal family, and a path of all its peptides.
fn longest_files() -> (Vec<u8>, Vec<u8>) {
    let random = &mut Random::new(50);
    let family = file_of(&binary_tree(random, 4096, 1, Bounds::Small));
    let path = bytes(&random.order(4096));
    assert_eq!((family.len(), path.len()), (57_354, 8_192));
    (family, path)
}

#[test]
fn the_longest_files() {
    let (family, path) = longest_files();
    let text = run("longest", Some(&family), Some(&path));
    assert_eq!(text.lines().count(), 4098);
    for more in [1, 2, 3, 100, 20_000] {
        let mut longer = path.clone();
        longer.resize(path.len() + more, 0);
        let text = run("longer-path", Some(&family), Some(&longer));
        assert_eq!(text, "refused 11\n", "{more} bytes more");
        let mut longer = family.clone();
        longer.resize(family.len() + more, 0);
        let text = run("longer-family", Some(&longer), Some(&path));
        assert_eq!(text, "refused 5\n", "{more} bytes more");
    }
}

/// Reads that fail past the limits are not made, and those up to them are.
#[test]
fn the_read_limits() {
    let (mut family, mut path) = longest_files();
    let folder_of = |name: &str, family: &[u8], path: &[u8]| folder(name, Some(family), Some(path));
    path.resize(10_000, 0);
    let long_path = folder_of("path-limit", &family, &path);
    assert_eq!(fails_after(&long_path, "path.u16", 8_194), "refused 11\n");
    assert_eq!(fails_after(&long_path, "path.u16", 8_193), NO_PATH);
    family.resize(60_000, 0);
    let long_family = folder_of("family-limit", &family, &path);
    let text = fails_after(&long_family, "family.phf", 57_355);
    assert_eq!(text, "refused 5\n");
    let text = fails_after(&long_family, "family.phf", 57_354);
    assert_eq!(text, NO_FAMILY);
}

/// No table has more bytes: 4,096 lines, and in each the value of t is t.
#[test]
fn the_longest_text() {
    let mut order: Vec<u16> = (1..=4096).collect();
    order.reverse();
    let text = run(
        "longest-text",
        Some(&file(&[4096], &[])),
        Some(&bytes(&order)),
    );
    assert_eq!(text.len(), 66_340);
    assert!(text.ends_with("4096 1 4096 1\n"));
}

const NOT_WHOLE: &str = "curve: the output could not be written whole\n";

#[test]
fn output_that_cannot_be_written() {
    let full = || {
        fs::OpenOptions::new()
            .write(true)
            .open("/dev/full")
            .unwrap()
    };
    let (family, path) = longest_files();
    for (name, family) in [("full", &family[..]), ("full-refused", &family[..9])] {
        let folder = folder(name, Some(family), Some(&path));
        let mut curve = Command::new(program());
        curve.current_dir(&folder).stdout(full());
        assert_eq!(said(&mut curve), (String::new(), NOT_WHOLE.into()));
    }
}

#[test]
fn standard_output_closed() {
    let (family, path) = longest_files();
    let folder = folder("closed", Some(&family), Some(&path));
    let closed = |which: &str| {
        let mut shell = Command::new("sh");
        shell
            .current_dir(&folder)
            .arg("-c")
            .arg(format!("exec \"$0\" {which}"));
        said(shell.arg(program()).stdin(Stdio::null()))
    };
    // the files that the program opens then get the free numbers, and are closed before it writes
    assert_eq!(closed(">&-"), (String::new(), NOT_WHOLE.into()));
    assert_eq!(closed("<&- >&-"), (String::new(), NOT_WHOLE.into()));
    assert_eq!(closed(">&- 2>&-"), (String::new(), String::new()));
    let whole = expected(Some(&family), Some(&path));
    assert_eq!(closed("<&- 2>&-"), (whole, String::new()));
    assert_eq!(fs::read(folder.join("family.phf")).unwrap(), family);
    assert_eq!(fs::read(folder.join("path.u16")).unwrap(), path);
}

#[test]
fn output_that_is_cut() {
    let (family, path) = longest_files();
    let whole = run("cut", Some(&family), Some(&path));
    let folder = folder("cut", Some(&family), Some(&path));
    for count in [0, 1, 1000, whole.len() / 2, whole.len() - 1] {
        let limit = count.to_string();
        let (text, errors) = said(&mut faulty(&folder, &[("FAULT_WRITE", &limit)]));
        assert!(text == whole[..count], "cut after {count}");
        assert_eq!(errors, NOT_WHOLE);
    }
    let limit = whole.len().to_string();
    let text = quiet(&mut faulty(&folder, &[("FAULT_WRITE", &limit)]));
    assert!(text == whole);
}

#[test]
fn random_pairs() {
    cases(51, 40, |random| {
        let m = random.between(1, 300);
        let family = file_of(&random_family(random, m));
        let mut path = random.order(m);
        path.truncate(random.between(0, m));
        if random.chance(1, 4) {
            path.push(random.between(0, m + 1) as u16);
        }
        run("random", Some(&family), Some(&bytes(&path)));
    });
}

fn example(name: &str) -> String {
    let folder = Path::new(env!("CARGO_MANIFEST_DIR"))
        .join("../examples")
        .join(name);
    let family = fs::read(folder.join("family.phf")).unwrap();
    let path = fs::read(folder.join("path.u16")).unwrap();
    run(&format!("example-{name}"), Some(&family), Some(&path))
}

/// The third column of a table, without its heading.
fn bounds(table: &str) -> String {
    let bounds: Vec<&str> = table
        .lines()
        .skip(1)
        .map(|line| line.split(' ').nth(2).unwrap())
        .collect();
    bounds.join(" ")
}

#[test]
fn the_examples() {
    assert_eq!(example("refused"), "refused 9\n");
    assert_eq!(example("empty-path"), "t peptide bound mark\n0 0 0 0\n");
    assert_eq!(example("nested").lines().count(), 98);
    assert_eq!(example("eight-peptides").lines().count(), 10);
    // the published curve: 1 2 3 3 4 5 5 5 5
    assert_eq!(bounds(&example("published")), "0 1 2 3 3 4 5 5 5 5");
    // derived in its family.txt
    let unmeasured = example("unmeasured-protein");
    assert_eq!(bounds(&unmeasured), "0 1 2 2 3 3 4 4 4 4");
}
