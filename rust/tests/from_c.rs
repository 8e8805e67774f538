//! The library from outside: tests/c/eight.c and the example of include/phf.h, compiled as C and as C++ and linked with the
//! static library; the same file with the shared object; and the shared object in Python.

use phf_tests::families::eight_peptides;
use phf_tests::reference::file_of;
use std::path::{Path, PathBuf};
use std::process::Command;
use std::sync::OnceLock;

fn tests() -> PathBuf {
    Path::new(env!("CARGO_MANIFEST_DIR")).join("tests")
}

fn root() -> PathBuf {
    Path::new(env!("CARGO_MANIFEST_DIR"))
        .parent()
        .unwrap()
        .to_path_buf()
}

fn made(name: &str) -> PathBuf {
    Path::new(env!("CARGO_TARGET_TMPDIR")).join(name)
}

fn static_library() -> PathBuf {
    root().join("target/staticlib/libphf.a")
}

/// What tools/sharedlib makes and prints, called from another folder.
fn shared_library() -> &'static Path {
    static MADE: OnceLock<PathBuf> = OnceLock::new();
    MADE.get_or_init(|| {
        let mut script = Command::new(root().join("tools/sharedlib"));
        let said = succeeds(script.current_dir(env!("CARGO_TARGET_TMPDIR")));
        let library = PathBuf::from(said.trim_end());
        assert!(library.ends_with("target/sharedlib/libphf.so"));
        library
    })
}

fn succeeds(command: &mut Command) -> String {
    let output = command.output().unwrap();
    let said = String::from_utf8_lossy(&output.stdout).into_owned();
    assert!(
        output.status.success(),
        "{command:?}\n{said}{}",
        String::from_utf8_lossy(&output.stderr)
    );
    said
}

const C: [&str; 2] = ["cc", "-std=c99"];
const CPP: [&str; 4] = ["c++", "-std=c++11", "-x", "c++"];

/// Compiles a file with a compiler and its words, links it with a library, and runs it: what it prints.
fn printed(words: &[&str], source: &Path, library: &Path, name: &str) -> String {
    let program = made(name);
    succeeds(
        Command::new(words[0])
            .args(["-pedantic", "-Wall", "-Wextra", "-Werror", "-O1", "-I"])
            .arg(root().join("include"))
            .args(&words[1..])
            .arg(source)
            .args(["-x", "none"])
            .arg(library)
            .arg("-o")
            .arg(&program),
    );
    succeeds(&mut Command::new(program))
}

#[test]
fn from_c() {
    let source = tests().join("c/eight.c");
    assert_eq!(printed(&C, &source, &static_library(), "eight-c"), "ok\n");
}

#[test]
fn from_cpp() {
    let source = tests().join("c/eight.c");
    assert_eq!(
        printed(&CPP, &source, &static_library(), "eight-cpp"),
        "ok\n"
    );
}

#[test]
fn from_a_shared_object() {
    let source = tests().join("c/eight.c");
    assert_eq!(
        printed(&C, &source, shared_library(), "eight-shared"),
        "ok\n"
    );
}

/// The lines of the header between the two that name the example, without the comment's stars.
fn example() -> String {
    let header = std::fs::read_to_string(root().join("include/phf.h")).unwrap();
    let lines = header
        .lines()
        .map(|line| line.strip_prefix(" *").unwrap_or(""));
    lines
        .skip_while(|line| !line.starts_with(" EXAMPLE, for a main with <stdio.h>"))
        .skip_while(|line| !line.is_empty())
        .take_while(|line| *line != " END OF THE EXAMPLE.")
        .flat_map(|line| [line, "\n"])
        .collect()
}

#[test]
fn the_example_of_the_header() {
    let source = made("example.c");
    let program = format!(
        "#include <stdio.h>\n#include \"phf.h\"\nint main(void)\n{{\n{}    return 0;\n}}\n",
        example()
    );
    std::fs::write(&source, program).unwrap();
    // the bounds of E1 in the scope document, from t = 1 on
    let curve: String = [0, 1, 2, 2, 3, 4, 4, 4]
        .iter()
        .zip(1..)
        .map(|(bound, t)| format!("of the first {t} at most {bound} are false\n"))
        .collect();
    // selected are 1, 3, 6 and 7: 4 and 5 lie inside the band, 2 and 8 over the cut. Leaf 4, with 7 and 8, has z = 0; no other
    // region is full.
    let expected = curve + "of the selected at most 3 are false\n";
    assert_eq!(
        printed(&C, &source, &static_library(), "example-c"),
        expected
    );
    assert_eq!(
        printed(&CPP, &source, &static_library(), "example-cpp"),
        expected
    );
}

#[test]
fn from_python() {
    let eight = file_of(&eight_peptides());
    let whole = made("eight.phf");
    let torn = made("torn.phf");
    std::fs::write(&whole, &eight).unwrap();
    std::fs::write(&torn, &eight[1..]).unwrap();
    let unmeasured = root().join("examples/unmeasured-protein/family.phf");
    let said = succeeds(
        Command::new("python3")
            .arg(tests().join("python/check.py"))
            .arg(shared_library())
            .args([whole, torn, unmeasured]),
    );
    // 8 peptides in 4 leaves, with 5 regions; without its first byte a file lacks the mark; the lines of family.txt, counted
    assert_eq!(said, "0 8 4 5\n1 0 0 0\n0 9 6 7\n");
}
