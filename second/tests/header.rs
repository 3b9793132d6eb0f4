//! The C header: it compiles as C and as C++ with every warning an error, and its codes and sizes are the second
//! program's.
use second::codes::*;
use second::questions::{BLOCK, COUNTS};
use second::reader::{MOST_CONSTRAINTS, MOST_OBJECTS};
use second::sheet::ROW;
use second::testing::drawings::largest;
use second::testing::random::Random;
use second::testing::writer;
use std::path::PathBuf;
use std::process::Command;

fn header() -> PathBuf {
    PathBuf::from(env!("CARGO_MANIFEST_DIR")).join("../include/brentivex.h")
}

fn compiles(compiler: &str, language: &[&str]) {
    let strict = ["-Wall", "-Wextra", "-Werror", "-pedantic", "-fsyntax-only"];
    let status = Command::new(compiler).args(language).args(strict).arg(header()).status();
    assert!(status.expect("the compiler runs").success());
}

#[test]
fn the_header_compiles_as_c() {
    compiles("gcc", &["-std=c99", "-x", "c"]);
}

#[test]
fn the_header_compiles_as_cpp() {
    compiles("g++", &["-x", "c++"]);
}

#[test]
fn the_header_names_every_code() {
    let wanted = [
        ("ANSWERED", ANSWERED),
        ("CUT_SHORT", CUT_SHORT),
        ("RECORD_KIND", RECORD_KIND),
        ("RECORD_LENGTH", RECORD_LENGTH),
        ("OBJECT_AFTER_CONSTRAINT", OBJECT_AFTER_CONSTRAINT),
        ("TOO_MANY", TOO_MANY),
        ("NOT_IN_TABLE", NOT_IN_TABLE),
        ("STATED_WEIGHT", STATED_WEIGHT),
        ("ENDS", ENDS),
        ("BYTES_AFTER_END", BYTES_AFTER_END),
        ("K_RANGE", K_RANGE),
        ("NO_SUCH_CONSTRAINT", NO_SUCH_CONSTRAINT),
        ("TOO_SHORT", TOO_SHORT),
        ("NONE_DENSE", NONE_DENSE),
        ("NOT_SHOWN", NOT_SHOWN),
    ];
    assert_eq!(enumeration("brentivex_code"), wanted.map(|(name, code)| (name.to_string(), code)));
}

#[test]
fn the_header_names_the_sizes() {
    let wanted = [
        ("MOST_OBJECTS", MOST_OBJECTS),
        ("MOST_CONSTRAINTS", MOST_CONSTRAINTS),
        ("MOST_BYTES", writer::bytes(&largest(&mut Random::from_seed(2))).len()),
        ("COUNTS_LEN", COUNTS),
        ("BLOCK_LEN", BLOCK),
        ("ROW_LEN", ROW),
    ];
    assert_eq!(enumeration("brentivex_size"), wanted.map(|(name, size)| (name.to_string(), size as u32)));
}

/// The names and numbers of an enumeration.
fn enumeration(name: &str) -> Vec<(String, u32)> {
    let text = std::fs::read_to_string(header()).expect("the header is there");
    let start = format!("enum {name} {{");
    let lines = text.lines().skip_while(|line| *line != start).take_while(|line| *line != "};");
    lines.filter_map(named).map(|(name, number)| (name.to_string(), number)).collect()
}

/// The name and number of a line of an enumeration.
fn named(line: &str) -> Option<(&str, u32)> {
    let (name, rest) = line.strip_prefix("    BRENTIVEX_")?.split_once(" = ")?;
    let number = rest.split([',', ' ']).next()?;
    Some((name, number.parse().ok()?))
}
