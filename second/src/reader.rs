//! The reader of drawings: records front to back, the first faulty one decides, and within one record the faults
//! are judged in the order head short, kind, length, body short, order, limit, ends, table, stated weight.
use crate::codes::*;
use crate::table::{constraint_weight, object_weight};

pub const MOST_OBJECTS: usize = 128;
pub const MOST_CONSTRAINTS: usize = 512;
pub const MOST_WEIGHT: u8 = 15;

const OBJECT: u16 = 1;
const CONSTRAINT: u16 = 2;
const END: u16 = 3;

#[derive(Clone, Copy, Debug, PartialEq)]
pub struct Object {
    pub kind: u8,
    pub stated: u8,
}

#[derive(Clone, Copy, Debug, PartialEq)]
pub struct Constraint {
    pub ends: [u16; 2],
    pub kind: u8,
    pub stated: u8,
}

#[derive(Clone, Debug, Default, PartialEq)]
pub struct Drawing {
    pub objects: Vec<Object>,
    pub constraints: Vec<Constraint>,
}

struct Record<'a> {
    kind: u16,
    body: &'a [u8],
    rest: &'a [u8],
}

/// The drawing that the bytes are, or the number of the fault that refuses them.
pub fn read(bytes: &[u8]) -> Result<Drawing, u32> {
    let mut drawing = Drawing::default();
    let mut rest = bytes;
    loop {
        let record = record(rest)?;
        match record.kind {
            OBJECT => drawing.objects.push(object(&drawing, record.body)?),
            CONSTRAINT => drawing.constraints.push(constraint(&drawing, record.body)?),
            _ if record.rest.is_empty() => return Ok(drawing),
            _ => return Err(BYTES_AFTER_END),
        }
        rest = record.rest;
    }
}

fn record(bytes: &[u8]) -> Result<Record<'_>, u32> {
    if bytes.len() < 4 {
        return Err(CUT_SHORT);
    }
    let (head, rest) = bytes.split_at(4);
    let length = number(head[0], head[1]) as usize;
    let kind = number(head[2], head[3]);
    let wanted = match kind {
        OBJECT => 2,
        CONSTRAINT => 6,
        END => 0,
        _ => return Err(RECORD_KIND),
    };
    if length != wanted {
        return Err(RECORD_LENGTH);
    }
    if rest.len() < length {
        return Err(CUT_SHORT);
    }
    let (body, rest) = rest.split_at(length);
    Ok(Record { kind, body, rest })
}

fn object(drawing: &Drawing, body: &[u8]) -> Result<Object, u32> {
    if !drawing.constraints.is_empty() {
        return Err(OBJECT_AFTER_CONSTRAINT);
    }
    if drawing.objects.len() == MOST_OBJECTS {
        return Err(TOO_MANY);
    }
    let object = Object { kind: body[0], stated: body[1] };
    if object_weight(object.kind).is_none() {
        return Err(NOT_IN_TABLE);
    }
    if object.stated > MOST_WEIGHT {
        return Err(STATED_WEIGHT);
    }
    Ok(object)
}

fn constraint(drawing: &Drawing, body: &[u8]) -> Result<Constraint, u32> {
    if drawing.constraints.len() == MOST_CONSTRAINTS {
        return Err(TOO_MANY);
    }
    let ends = [number(body[0], body[1]), number(body[2], body[3])];
    let constraint = Constraint { ends, kind: body[4], stated: body[5] };
    let named = ends.map(|end| drawing.objects.get(end as usize));
    let [Some(first), Some(second)] = named else {
        return Err(ENDS);
    };
    if ends[0] == ends[1] {
        return Err(ENDS);
    }
    if constraint_weight(constraint.kind, first.kind, second.kind).is_none() {
        return Err(NOT_IN_TABLE);
    }
    if constraint.stated > MOST_WEIGHT {
        return Err(STATED_WEIGHT);
    }
    Ok(constraint)
}

fn number(low: u8, high: u8) -> u16 {
    u16::from_le_bytes([low, high])
}
