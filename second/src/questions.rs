//! The five questions, each with its code and the bytes it writes. The sheet question has no one answer, so of it
//! only the code is given here; `check` judges the sheet itself.
use crate::answers::{any_dense, tops};
use crate::codes::*;
use crate::net::{Net, Top};
use crate::reader::read;
use crate::sheet::{claim, ROW};

pub const COUNTS: usize = 4;
pub const BLOCK: usize = 20;

/// The code of a call and the bytes that it writes at the start of its buffer.
#[derive(Debug, PartialEq)]
pub struct Answer {
    pub code: u32,
    pub written: Vec<u8>,
}

impl Answer {
    fn of(answer: Result<Vec<u8>, u32>) -> Answer {
        match answer {
            Ok(written) => Answer { code: ANSWERED, written },
            Err(code) => Answer { code, written: Vec::new() },
        }
    }
}

pub fn look_over(drawing: &[u8], room: usize) -> Answer {
    Answer::of(read(drawing).and_then(|drawing| {
        enough(room, COUNTS)?;
        let counts = [drawing.objects.len(), drawing.constraints.len()];
        Ok(counts.iter().flat_map(|&count| (count as u16).to_le_bytes()).collect())
    }))
}

/// One drawing, read and counted once, that answers the other four questions.
pub struct Counter {
    drawing: Result<Net, u32>,
    pub tops: Vec<Top>,
}

impl Counter {
    pub fn of(drawing: &[u8]) -> Counter {
        let drawing = read(drawing).map(|drawing| Net::of(&drawing));
        let tops = drawing.as_ref().map(tops).unwrap_or_default();
        Counter { drawing, tops }
    }

    /// The net of an accepted drawing.
    pub fn net(&self) -> Option<&Net> {
        self.drawing.as_ref().ok()
    }

    pub fn one_constraint(&self, c: u32, room: usize) -> Answer {
        Answer::of(self.asked(c).and_then(|(_, c)| {
            enough(room, BLOCK)?;
            Ok(self.block(c))
        }))
    }

    pub fn any_dense(&self, k: i32, room: usize) -> Answer {
        Answer::of(self.read().and_then(|_| {
            if !(-64..=8191).contains(&k) {
                return Err(K_RANGE);
            }
            enough(room, BLOCK)?;
            any_dense(&self.tops, i64::from(k)).map(|c| self.block(c)).ok_or(NONE_DENSE)
        }))
    }

    pub fn sheet_code(&self, c: u32, room: usize) -> u32 {
        let judged = self.asked(c).and_then(|(net, _)| enough(room, ROW * net.constraints.len()));
        judged.err().unwrap_or(ANSWERED)
    }

    pub fn check(&self, c: u32, sheet: &[u8], claimed: i32) -> u32 {
        let judged = self.asked(c).and_then(|(net, c)| {
            enough(sheet.len(), ROW * net.constraints.len())?;
            let shown = claim(net, c, sheet) == Some(i64::from(claimed));
            if shown {
                Ok(())
            } else {
                Err(NOT_SHOWN)
            }
        });
        judged.err().unwrap_or(ANSWERED)
    }

    fn read(&self) -> Result<&Net, u32> {
        self.drawing.as_ref().map_err(|&fault| fault)
    }

    /// The net and the constraint with the number c.
    fn asked(&self, c: u32) -> Result<(&Net, usize), u32> {
        let net = self.read()?;
        let c = c as usize;
        if c < net.constraints.len() {
            Ok((net, c))
        } else {
            Err(NO_SUCH_CONSTRAINT)
        }
    }

    fn block(&self, c: usize) -> Vec<u8> {
        let Top { density, set } = self.tops[c];
        let mut block = (c as u16).to_le_bytes().to_vec();
        block.extend((density as i16).to_le_bytes());
        block.extend(set.to_le_bytes());
        block
    }
}

fn enough(room: usize, wanted: usize) -> Result<(), u32> {
    if room < wanted {
        Err(TOO_SHORT)
    } else {
        Ok(())
    }
}
