//! The bytes of a drawing changed at random, by so little that a good part of them is still accepted.
use super::random::Random;
use super::writer;
use crate::reader::Drawing;

/// Bytes near the limits of kinds, lengths and weights.
const TELLING: [u8; 14] = [0, 1, 2, 3, 4, 5, 6, 7, 8, 15, 16, 127, 128, 255];

/// The records of a drawing, and where in its bytes kinds, ends and stated weights are.
pub struct Source {
    records: Vec<Vec<u8>>,
    fields: Vec<usize>,
}

impl Source {
    pub fn of(drawing: &Drawing) -> Source {
        let records = writer::records(drawing);
        let (mut fields, mut at) = (Vec::new(), 0);
        for record in &records {
            fields.extend([2, 4, 5, 6, 8, 9].iter().filter(|&&i| i < record.len()).map(|i| at + i));
            at += record.len();
        }
        Source { records, fields }
    }

    /// The drawing's bytes with two records exchanged, or with one to three changes.
    pub fn mutant(&self, random: &mut Random) -> Vec<u8> {
        if random.once_in(8) {
            return self.exchanged(random);
        }
        let mut bytes = self.records.concat();
        for _ in 0..random.within(1, 3) {
            self.change(random, &mut bytes);
        }
        bytes
    }

    fn exchanged(&self, random: &mut Random) -> Vec<u8> {
        let mut records: Vec<&[u8]> = self.records.iter().map(Vec::as_slice).collect();
        let (a, b) = (random.below(records.len()), random.below(records.len()));
        records.swap(a, b);
        records.concat()
    }

    /// Alters a byte, puts one in or takes one out, cuts the end off or brings it to the front, or repeats a piece.
    fn change(&self, random: &mut Random, bytes: &mut Vec<u8>) {
        let at = random.below(bytes.len() + 1);
        let field = random.one_of(&self.fields);
        match random.below(18) {
            0..=7 if field < bytes.len() => bytes[field] = random.below(5) as u8,
            8 | 9 if at < bytes.len() => bytes[at] = random.one_of(&TELLING),
            10 | 11 if at < bytes.len() => bytes[at] ^= 1 << random.below(8),
            12 => bytes.insert(at, random.byte()),
            13 if at < bytes.len() => drop(bytes.remove(at)),
            14 if random.once_in(4) => bytes.truncate(at),
            15 => bytes.rotate_left(at),
            _ => {
                let piece = bytes[at..(at + random.one_of(&[4, 6, 10])).min(bytes.len())].to_vec();
                let to = if random.once_in(2) { at } else { random.below(bytes.len() + 1) };
                bytes.splice(to..to, piece);
            }
        }
    }
}
