//! The header as a C program uses it.

use dezghuri::{ffi, Cluster, Node, Refusal, ENOUGH};
use std::collections::BTreeSet;
use std::io::Write;
use std::path::Path;
use std::process::Command;

const HERE: &str = env!("CARGO_MANIFEST_DIR");

/// Compiles the program that calls each function, and runs it with these words; what it prints.
fn calls(compiler: &str, language: &[&str], program: &str, words: &[&str]) -> String {
    let program = Path::new(env!("CARGO_TARGET_TMPDIR")).join(program);
    let compiled = Command::new(compiler)
        .current_dir(HERE)
        .args(["-Wall", "-Wextra", "-pedantic", "-Werror", "-Iinclude"])
        .args(language)
        .args([
            "tests/c/calls.c",
            "-x",
            "none",
            "../build/libconsole.a",
            "-o",
        ])
        .arg(&program)
        .output()
        .unwrap_or_else(|_| panic!("a compiler, {compiler}, is needed"));
    let told = String::from_utf8_lossy(&compiled.stderr);
    assert!(compiled.status.success(), "{told}");
    let called = Command::new(&program).args(words).output();
    let called = called.expect("it was compiled");
    let told = String::from_utf8(called.stdout).expect("words");
    assert!(called.status.success(), "{told}");
    told
}

#[test]
fn a_c_program_calls_each_function() {
    calls("cc", &["-std=c99", "-x", "c"], "calls", &[]);
}

/// Where there is no C++ compiler this is said, past the test runner, which hides what tests print.
#[test]
fn a_cpp_program_calls_each_function() {
    if Command::new("c++").arg("--version").output().is_err() {
        let told = "c++ is missing: the header was NOT tried in C++ (in C it was)";
        writeln!(std::io::stderr(), "\n{told}").expect("it can be told");
        return;
    }
    calls("c++", &["-std=c++11", "-x", "c++"], "calls-cpp", &[]);
}

/// The number that the header gives a name.
fn defined(header: &str, name: &str) -> u32 {
    let head = format!("#define DEZGHURI_{name} ");
    let mut lines = header.lines().filter_map(|line| line.strip_prefix(&head));
    let line = lines
        .next()
        .unwrap_or_else(|| panic!("{name} is not defined"));
    let number = line.split_whitespace().next().expect("a number");
    number.parse().expect("a number")
}

#[test]
fn the_header_has_the_numbers_of_the_library() {
    let header = std::fs::read_to_string(Path::new(HERE).join("include/dezghuri.h")).unwrap();
    let lengths = [
        ("ROW_CELLS", ffi::ROW_CELLS),
        ("LAYOUT_CELLS", ffi::LAYOUT_CELLS),
        ("WIDE_ROW_CELLS", ffi::WIDE_ROW_CELLS),
        ("WIDE_CELLS", ffi::WIDE_CELLS),
        ("STEP_CELLS", ffi::STEP_CELLS),
        ("MOVES_CELLS", ffi::MOVES_CELLS),
        ("SEND", ffi::SEND as usize),
        ("DROP", ffi::DROP as usize),
        ("SCRATCH_CELLS", ffi::SCRATCH_CELLS),
        ("FIGURES_CELLS", ffi::FIGURES_CELLS),
        ("READ_CLUSTER_ANSWER", ffi::READ_CLUSTER_ANSWER),
        ("READ_LAYOUT_ANSWER", ffi::READ_LAYOUT_ANSWER),
        ("PLAN_ANSWER", ffi::PLAN_ANSWER),
        ("CHECK_ANSWER", ffi::CHECK_ANSWER),
        ("CERTIFY_ANSWER", ffi::CERTIFY_ANSWER),
        ("WORST_LOSS_ANSWER", ffi::WORST_LOSS_ANSWER),
        ("LOSS_ANSWER", ffi::LOSS_ANSWER),
        ("FIGURES_ANSWER", ffi::FIGURES_ANSWER),
        ("WRITE_LAYOUT_ANSWER", ffi::WRITE_LAYOUT_ANSWER),
        ("CHANGE_ANSWER", ffi::CHANGE_ANSWER),
        ("MOVES_ANSWER", ffi::MOVES_ANSWER),
        ("REVERSE_BYTES", ffi::REVERSE_BYTES),
        ("CLUSTER_RECORD_BYTES", ffi::CLUSTER_RECORD_BYTES),
        ("LAYOUT_RECORD_BYTES", ffi::LAYOUT_RECORD_BYTES),
        ("ENOUGH_ALLOWANCE", usize::from(ENOUGH)),
        ("MOST_CEILING", usize::from(Node::NO_CEILING)),
        ("MOST_LOST", Cluster::MOST_LOST as usize),
    ];
    for (name, length) in lengths {
        assert_eq!(defined(&header, name) as usize, length, "{name}");
    }
}

/// Each function of the header is bound in Rust and called from C, and there is no other.
#[test]
fn each_function_is_bound_and_called() {
    let read = |name: &str| std::fs::read_to_string(Path::new(HERE).join(name)).unwrap();
    let names = |text: &str, before: &str| -> BTreeSet<String> {
        let lines = text
            .lines()
            .filter_map(|line| line.trim().strip_prefix(before));
        let names = lines.filter_map(|line| line.split_once('('));
        names.map(|(name, _)| name.to_string()).collect()
    };
    let declared = names(&read("include/dezghuri.h"), "uint32_t dezghuri_");
    assert_eq!(declared.len(), 13);
    assert_eq!(declared, names(&read("src/ffi.rs"), "pub fn dezghuri_"));
    let calls = read("tests/c/calls.c");
    for name in declared {
        assert!(calls.contains(&format!("dezghuri_{name}(")), "{name}");
    }
}

/// The first lines that begin so, one after the other, behind the one that has the title.
fn listed<'a>(text: &'a str, title: &str, begin: &str) -> Vec<&'a str> {
    let lines = text.lines().skip_while(|line| !line.starts_with(title));
    let lines = lines.skip_while(|line| !line.starts_with(begin));
    lines.take_while(|line| line.starts_with(begin)).collect()
}

/// NoLayout as the header has it: NO_LAYOUT.
fn in_capitals(name: &str) -> String {
    let mut capitals = String::new();
    for letter in name.chars() {
        if letter.is_uppercase() && !capitals.is_empty() {
            capitals.push('_');
        }
        capitals.push(letter.to_ascii_uppercase());
    }
    capitals
}

/// Header, document and package have the same refusals: numbers, names and words. Those that the document tells
/// as reserved are just those that the package does not know.
#[test]
fn refusals_are_the_same_everywhere() {
    let read = |name: &str| std::fs::read_to_string(Path::new(HERE).join(name)).unwrap();
    let (header, formats) = (read("include/dezghuri.h"), read("../docs/FORMATS.md"));
    let names = listed(&header, "/* Refusals", "#define DEZGHURI_");
    let meanings = listed(&formats, "## Refusals", "|").split_off(2);
    let told = calls("cc", &["-std=c99", "-x", "c"], "texts", &["texts"]);
    let texts: Vec<&str> = told.lines().collect();
    assert_eq!((names.len(), meanings.len(), texts.len()), (22, 22, 23));
    for number in 0..22 {
        let (name, meaning) = (names[number], meanings[number]);
        assert!(name.ends_with(&format!(" {number}")), "{name}");
        assert!(meaning.starts_with(&format!("| {number} | ")), "{meaning}");
        let refusal = Refusal::from_number(number as u32);
        let is_reserved = meaning.ends_with(" (reserved) |");
        assert_eq!(refusal.is_none(), number == 0 || is_reserved, "{meaning}");
        if let Some(refusal) = refusal {
            let expected = in_capitals(&format!("{refusal:?}"));
            assert_eq!(name, format!("#define DEZGHURI_{expected} {number}"));
            assert_eq!(texts[number], refusal.to_string());
        }
    }
    assert_eq!(Refusal::from_number(22), None);
    let different: BTreeSet<&str> = texts.iter().copied().collect();
    assert_eq!(different.len(), 23, "no two have the same words");
}

#[test]
fn the_header_has_the_version_of_the_package() {
    let header = std::fs::read_to_string(Path::new(HERE).join("include/dezghuri.h")).unwrap();
    let parts =
        ["MAJOR", "MINOR", "PATCH"].map(|part| defined(&header, &format!("VERSION_{part}")));
    let version = parts.map(|part| part.to_string()).join(".");
    assert_eq!(version, env!("CARGO_PKG_VERSION"));
    let line = format!("#define DEZGHURI_VERSION \"{version}\"\n");
    assert!(header.contains(&line), "{line}");
}
