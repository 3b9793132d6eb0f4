//! A drawing as bytes: each record is its body's length, its kind, its body.
use crate::reader::{Constraint, Drawing, Object};

pub fn bytes(drawing: &Drawing) -> Vec<u8> {
    records(drawing).concat()
}

/// The records of a drawing one by one, the end record last.
pub fn records(drawing: &Drawing) -> Vec<Vec<u8>> {
    let objects = drawing.objects.iter().map(object_record);
    let constraints = drawing.constraints.iter().map(constraint_record);
    objects.chain(constraints).chain([end_record()]).collect()
}

pub fn object_record(object: &Object) -> Vec<u8> {
    record(1, &[object.kind, object.stated])
}

pub fn constraint_record(constraint: &Constraint) -> Vec<u8> {
    let [first, second] = constraint.ends.map(u16::to_le_bytes);
    record(2, &[first[0], first[1], second[0], second[1], constraint.kind, constraint.stated])
}

pub fn end_record() -> Vec<u8> {
    record(3, &[])
}

pub fn record(kind: u16, body: &[u8]) -> Vec<u8> {
    let mut record = (body.len() as u16).to_le_bytes().to_vec();
    record.extend(kind.to_le_bytes());
    record.extend(body);
    record
}
