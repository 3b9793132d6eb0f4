//! The report program against the second program's report: every byte that it prints, on many inputs. The report
//! program reads 6,000 bytes at most and the second program all of its input, so where they agree on a longer input,
//! the first 6,000 bytes gave it the refusal of the whole.
use second::report;
use second::testing::drawings::*;
use second::testing::mutants::Source;
use second::testing::random::Random;
use second::testing::samples::{a_to_l, figures};
use second::testing::writer;
use std::collections::BTreeSet;
use std::fs;
use std::io::Write;
use std::path::PathBuf;
use std::process::{Command, Stdio};

#[test]
fn the_report_on_c_is_that_of_01() {
    let c = writer::bytes(&a_to_l()[2].drawing);
    assert_eq!(printed(&c), "objects 3 constraints 3\n0 -3 0 1\n1 -3 1 2\n2 -3 0 2\nK -3 none\n");
}

#[test]
fn each_example_is_reported_as_the_file_beside_it_says() {
    let examples = PathBuf::from(env!("CARGO_MANIFEST_DIR")).join("../examples");
    for name in a_to_l().iter().map(|sample| sample.name).chain(["bracket", "refused"]) {
        let stored = |ending| fs::read(examples.join(format!("{name}.{ending}"))).expect("the example is there");
        assert_eq!(printed(&stored("drawing")).as_bytes(), stored("report"), "{name}");
    }
}

#[test]
fn known_drawings_are_reported_as_the_second_program_does() {
    for sample in a_to_l().iter().chain(&figures()) {
        same(&writer::bytes(&sample.drawing));
    }
}

#[test]
fn random_and_large_drawings_are_reported_as_the_second_program_does() {
    let mut random = Random::from_seed(9);
    for _ in 0..400 {
        let (objects, count) = (random.within(0, 12), random.within(0, 20));
        let drawing = random_kinds(&mut random, objects, count, 3);
        same(&writer::bytes(&drawing));
    }
    for drawing in [braced_strip(63), long_chain(128, 4, true), largest(&mut random), heavy_points(&mut random)] {
        same(&writer::bytes(&drawing));
    }
}

#[test]
fn cut_inputs_are_reported_as_the_second_program_does() {
    let bytes = writer::bytes(&largest(&mut Random::from_seed(10)));
    for length in (0..60).chain(bytes.len() - 12..=bytes.len()) {
        same(&bytes[..length]);
    }
}

/// Both sides of the longest drawing and of what the report program reads: every length from 5,880 to 6,020, cut out of
/// records that go on, and lengths far above.
#[test]
fn inputs_of_every_length_near_6000_are_reported_as_the_second_program_does() {
    let longest = writer::bytes(&largest(&mut Random::from_seed(14)));
    let mut met = Codes::default();
    for behind in &behind() {
        for length in (5_880..=6_020).chain([6_100, 12_000, 65_536, 65_536 + longest.len(), 200_000]) {
            met.same(&filled(&longest, behind, length));
            met.same(&filled(&longest[..longest.len() - 4], behind, length));
            met.same(&filled(&[], behind, length));
        }
    }
    met.assert([0, 1, 2, 4, 5, 8, 9].into());
}

/// Every fault that a record can have, at the front, in the middle and in the last record that can be read, and then
/// more bytes. No input of more than 6,000 bytes ends inside the record that decides.
#[test]
fn longer_inputs_with_a_fault_anywhere_are_reported_as_the_second_program_does() {
    let mut met = Codes::default();
    let behind = behind();
    for (i, faulty) in faulty_records().iter().enumerate() {
        for (objects, constraints) in [(2, 0), (2, 1), (127, 0), (128, 0), (128, 256), (2, 511), (128, 511), (128, 512)]
        {
            for length in [6_001, 6_010, 7_000, 70_000] {
                let start = [open(objects, constraints), faulty.clone()].concat();
                met.same(&filled(&start, &behind[(i + length) % behind.len()], length));
            }
        }
    }
    met.same(&filled(&open(128, 511), &[255], 1 << 20));
    met.assert((2..=9).collect());
}

/// An end record on every place from 5,880 to 6,012 behind records, cut records or zeros, with more behind or nothing.
#[test]
fn end_records_round_byte_6000_are_reported_as_the_second_program_does() {
    let mut met = Codes::default();
    for start in [open(128, 512), open(128, 511), open(980, 0), open(2, 600)] {
        for place in 5_880..=6_012 {
            let before = filled(&start, &[0], place);
            met.same(&[before.clone(), writer::end_record()].concat());
            met.same(&[before, writer::end_record(), vec![7; 3_000]].concat());
        }
    }
    met.assert([0, 1, 2, 5, 6, 8, 9].into());
}

/// Small drawings, so none has too many records.
#[test]
fn small_drawings_with_random_bytes_behind_are_reported_as_the_second_program_does() {
    let (mut random, mut met) = (Random::from_seed(15), Codes::default());
    for _ in 0..1_500 {
        let (objects, count) = (random.within(0, 12), random.within(0, 20));
        let drawing = random_kinds(&mut random, objects, count, 3);
        let mutated = random.once_in(2);
        let bytes = if mutated { Source::of(&drawing).mutant(&mut random) } else { writer::bytes(&drawing) };
        let more = random.one_of(&[0, 0, 0, 1, 500, 6_000, 6_001, 20_000, 65_536]);
        met.same(&[bytes, random.bytes(more)].concat());
    }
    met.assert([0, 1, 2, 3, 4, 6, 7, 8, 9].into());
}

/// An input that comes byte by byte, or in pieces of which one holds the end of what is read.
#[test]
fn an_input_in_pieces_is_reported_as_the_second_program_does() {
    let longest = writer::bytes(&largest(&mut Random::from_seed(24)));
    for input in [longest.clone(), filled(&longest, &[0, 0, 3, 0], 6_003), writer::bytes(&complete_figure(6))] {
        for piece in [1, 7, 1_000, 5_999] {
            assert_eq!(printed_in_pieces(&input, piece), report::report(&input), "pieces of {piece}");
        }
    }
}

/// An output that takes nothing, and an input that cannot be read.
#[test]
fn a_failed_write_or_read_ends_the_report_with_an_error() {
    let full = fs::OpenOptions::new().write(true).open("/dev/full").expect("a device that is always full");
    let folder = fs::File::open(env!("CARGO_MANIFEST_DIR")).expect("a folder, which is no input");
    for (input, output) in [(Stdio::null(), full.into()), (folder.into(), Stdio::piped())] {
        let ended = Command::new(program()).stdin(input).stdout(output).output().expect("the program starts");
        assert_eq!(ended.status.code(), Some(1));
        assert!(ended.stdout.is_empty() && ended.stderr.starts_with(b"Error: "));
    }
}

#[test]
fn second_report_prints_the_report_of_the_second_program() {
    let longest = writer::bytes(&largest(&mut Random::from_seed(25)));
    for input in [longest.clone(), filled(&longest, &[1], 100_000)] {
        assert_eq!(run(env!("CARGO_BIN_EXE_second_report").into(), &input, input.len()), report::report(&input));
    }
}

/// The refusals met, and 0 for a report on an accepted drawing.
#[derive(Default)]
struct Codes(BTreeSet<u32>);

impl Codes {
    fn same(&mut self, input: &[u8]) {
        let refusal = same(input).strip_prefix("refused ").map(|code| code.trim_end().parse().expect("a number"));
        self.0.insert(refusal.unwrap_or(0));
    }

    fn assert(&self, wanted: BTreeSet<u32>) {
        assert_eq!(self.0, wanted, "the codes that occurred");
    }
}

/// What can stand behind the part that decides.
fn behind() -> Vec<Vec<u8>> {
    let [point, distance] = [writer::object_record(&object(POINT, 0)), distance(0, 1, 0)];
    let mut random = Random::from_seed(26);
    vec![vec![0], vec![255], writer::end_record(), point, distance, random.bytes(1_009)]
}

fn distance(first: usize, second: usize, stated: u8) -> Vec<u8> {
    writer::constraint_record(&constraint(first, second, DISTANCE, stated))
}

/// Points and distances without the end record.
fn open(points: usize, count: usize) -> Vec<u8> {
    let bytes = writer::bytes(&distances(points, &vec![(0, 1); count]));
    bytes[..bytes.len() - writer::end_record().len()].to_vec()
}

/// The start, and behind it the filler over and over up to that length.
fn filled(start: &[u8], filler: &[u8], length: usize) -> Vec<u8> {
    start.iter().chain(filler.iter().cycle()).take(length).copied().collect()
}

/// Records with each fault in turn, and the three that may be one too many or one too early.
fn faulty_records() -> Vec<Vec<u8>> {
    let point = |kind, stated| writer::object_record(&object(kind, stated));
    let heads = [(0, 2), (4, 0), (257, 2), (65_535, 6), (1, 3), (1, 258), (2, 5), (3, 1), (3, 5_000)];
    let mut records: Vec<Vec<u8>> = heads.map(|(kind, length)| writer::record(kind, &vec![1; length])).into();
    records.extend([point(0, 0), point(6, 0), point(POINT, 16), point(POINT, 255), point(POINT, 0)]);
    records.extend([distance(0, 0, 0), distance(0, 128, 0), distance(256, 1, 0), distance(0, 1, 16)]);
    records.extend([0, 2, 8].map(|kind| writer::constraint_record(&constraint(0, 1, kind, 0))));
    records.extend([distance(0, 1, 0), writer::end_record()]);
    records
}

fn same(input: &[u8]) -> String {
    let printed = printed(input);
    assert_eq!(printed, report::report(input), "{} bytes: {:?}", input.len(), &input[..input.len().min(200)]);
    printed
}

/// What the report program prints on an input.
fn printed(input: &[u8]) -> String {
    printed_in_pieces(input, input.len().max(1))
}

fn printed_in_pieces(input: &[u8], piece: usize) -> String {
    run(program(), input, piece)
}

fn program() -> PathBuf {
    PathBuf::from(env!("CARGO_MANIFEST_DIR")).join("../target/bin/report")
}

/// What a program prints on an input that comes in pieces. It may stop reading before the input ends.
fn run(program: PathBuf, input: &[u8], piece: usize) -> String {
    let mut child =
        Command::new(program).stdin(Stdio::piped()).stdout(Stdio::piped()).spawn().expect("the program starts");
    let mut stdin = child.stdin.take().expect("it has a standard input");
    let input = input.to_vec();
    let writing = std::thread::spawn(move || input.chunks(piece).all(|piece| stdin.write_all(piece).is_ok()));
    let output = child.wait_with_output().expect("the program ends");
    writing.join().expect("the input was written");
    assert!(output.status.success());
    String::from_utf8(output.stdout).expect("the report is text")
}
