//! The sample drawings: each file of text makes the drawing beside it, whose report is the one stored, and A to L are
//! those of document 01.
use second::report;
use second::testing::samples::a_to_l;
use second::testing::{text, writer};
use std::fs;
use std::path::PathBuf;

fn examples() -> PathBuf {
    PathBuf::from(env!("CARGO_MANIFEST_DIR")).join("../examples")
}

fn stored(name: &str, ending: &str) -> Vec<u8> {
    fs::read(examples().join(format!("{name}.{ending}"))).unwrap_or_else(|fault| panic!("{name}.{ending}: {fault}"))
}

fn names() -> Vec<String> {
    let files = fs::read_dir(examples()).expect("the examples are there");
    let names = files.map(|file| file.expect("a file").file_name().into_string().expect("a plain name"));
    let mut names: Vec<String> = names.filter_map(|name| name.strip_suffix(".drawing").map(String::from)).collect();
    names.sort();
    names
}

#[test]
fn the_examples_are_a_to_l_the_bracket_and_a_refused_one() {
    let mut wanted: Vec<String> = a_to_l().iter().map(|sample| sample.name.to_string()).collect();
    wanted.extend(["bracket", "refused"].map(String::from));
    assert_eq!(names(), wanted);
}

#[test]
fn each_text_makes_the_drawing_beside_it() {
    for name in names() {
        let said = String::from_utf8(stored(&name, "txt")).expect("text");
        let drawing = text::parse(&said).unwrap_or_else(|fault| panic!("{name}: {fault}"));
        assert_eq!(writer::bytes(&drawing), stored(&name, "drawing"), "{name}");
    }
}

#[test]
fn each_drawing_has_the_report_beside_it() {
    for name in names() {
        assert_eq!(report::report(&stored(&name, "drawing")).as_bytes(), stored(&name, "report"), "{name}");
    }
}

#[test]
fn a_to_l_are_the_drawings_of_01() {
    for sample in a_to_l() {
        assert_eq!(writer::bytes(&sample.drawing), stored(sample.name, "drawing"), "{}", sample.name);
    }
}
