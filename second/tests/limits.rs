//! Both sides of every limit that `look over` meets, each by its own name, with the numbers of document 01
//! written out.
use second::reader::Drawing;
use second::testing::drawings::{constraint, distances, largest, object, DISTANCE, POINT};
use second::testing::ffi::{self, after};
use second::testing::random::Random;
use second::testing::writer;

fn counts(objects: u16, constraints: u16) -> Vec<u8> {
    [objects.to_le_bytes(), constraints.to_le_bytes()].concat()
}

fn passes(drawing: &[u8], room: usize, objects: u16, constraints: u16) {
    let found = ffi::look_over(drawing, room, 0x5a);
    assert_eq!(found.code, 0);
    assert_eq!(found.bytes, after(room, 0x5a, &counts(objects, constraints)));
}

fn is_refused(drawing: &[u8], room: usize, code: u32) {
    let found = ffi::look_over(drawing, room, 0xc3);
    assert_eq!(found.code, code);
    assert_eq!(found.bytes, after(room, 0xc3, &[]));
}

fn points(count: usize, distances_between: usize) -> Vec<u8> {
    writer::bytes(&distances(count, &vec![(0, 1); distances_between]))
}

#[test]
fn objects_128_pass_and_129_are_refused_5() {
    passes(&points(127, 0), 4, 127, 0);
    passes(&points(128, 0), 4, 128, 0);
    is_refused(&points(129, 0), 4, 5);
}

#[test]
fn constraints_512_pass_and_513_are_refused_5() {
    passes(&points(2, 511), 4, 2, 511);
    passes(&points(2, 512), 4, 2, 512);
    is_refused(&points(2, 513), 4, 5);
}

#[test]
fn a_drawing_of_5892_bytes_passes() {
    let bytes = writer::bytes(&largest(&mut Random::from_seed(2)));
    assert_eq!(bytes.len(), 5892);
    passes(&bytes, 4, 128, 512);
}

#[test]
fn an_object_of_stated_weight_15_passes_and_16_is_refused_7() {
    let stated = |weight| writer::bytes(&Drawing { objects: vec![object(POINT, weight)], constraints: vec![] });
    passes(&stated(15), 4, 1, 0);
    is_refused(&stated(16), 4, 7);
    is_refused(&stated(255), 4, 7);
}

#[test]
fn a_constraint_of_stated_weight_15_passes_and_16_is_refused_7() {
    let stated = |weight| {
        let mut drawing = distances(2, &[]);
        drawing.constraints.push(constraint(0, 1, DISTANCE, weight));
        writer::bytes(&drawing)
    };
    passes(&stated(15), 4, 2, 1);
    is_refused(&stated(16), 4, 7);
    is_refused(&stated(255), 4, 7);
}

#[test]
fn the_last_object_is_an_end_and_the_one_after_it_is_refused_8() {
    passes(&writer::bytes(&distances(128, &[(127, 0)])), 4, 128, 1);
    is_refused(&writer::bytes(&distances(128, &[(128, 0)])), 4, 8);
    is_refused(&writer::bytes(&distances(128, &[(0, 128)])), 4, 8);
    is_refused(&writer::bytes(&distances(128, &[(256, 0)])), 4, 8);
}

#[test]
fn both_ends_the_same_are_refused_8() {
    is_refused(&writer::bytes(&distances(2, &[(1, 1)])), 4, 8);
}

#[test]
fn object_kinds_1_to_5_pass_and_0_and_6_are_refused_6() {
    let kind = |kind| writer::bytes(&Drawing { objects: vec![object(kind, 0)], constraints: vec![] });
    (1..=5).for_each(|k| passes(&kind(k), 4, 1, 0));
    is_refused(&kind(0), 4, 6);
    is_refused(&kind(6), 4, 6);
}

#[test]
fn a_buffer_of_4_bytes_passes_and_3_is_refused_12() {
    let bytes = points(3, 2);
    passes(&bytes, 4, 3, 2);
    passes(&bytes, 5, 3, 2);
    is_refused(&bytes, 3, 12);
    is_refused(&bytes, 0, 12);
}

#[test]
fn one_end_record_passes_with_counts_0_and_0() {
    passes(&[0, 0, 3, 0], 4, 0, 0);
}

#[test]
fn no_bytes_at_all_are_refused_1() {
    is_refused(&[], 4, 1);
}

#[test]
fn a_byte_after_the_end_record_is_refused_9() {
    is_refused(&[0, 0, 3, 0, 0], 4, 9);
    is_refused(&[0, 0, 3, 0, 0, 0, 3, 0], 4, 9);
}

#[test]
fn kind_9_with_length_65535_and_nothing_behind_is_refused_2() {
    is_refused(&[255, 255, 9, 0], 4, 2);
    is_refused(&[255, 255, 3, 0], 4, 3);
    is_refused(&[2, 0, 1, 0, 1], 4, 1);
}

#[test]
fn a_null_pointer_with_length_0_is_no_bytes() {
    let end = [0, 0, 3, 0];
    let mut buffer = [7; 4];
    let (no_bytes, no_room) = (std::ptr::null(), std::ptr::null_mut());
    // SAFETY: a null pointer goes with length 0; the other pointers are good for 4 bytes.
    unsafe {
        assert_eq!(ffi::c::brentivex_look_over(no_bytes, 0, buffer.as_mut_ptr(), 4), 1);
        assert_eq!(ffi::c::brentivex_look_over(no_bytes, 0, no_room, 0), 1);
        assert_eq!(ffi::c::brentivex_look_over(end.as_ptr(), 4, no_room, 0), 12);
    }
    assert_eq!(buffer, [7; 4]);
}
