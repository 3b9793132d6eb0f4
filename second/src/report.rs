//! The report on a drawing, as text: both counts, a line for each constraint, and whether any set is dense at K = -3.
//! The whole input is judged, however long it is.
use crate::answers::{any_dense, tops};
use crate::net::{members, Net};
use crate::reader::read;

const K: i64 = -3;

pub fn report(input: &[u8]) -> String {
    match read(input) {
        Ok(drawing) => counted(&Net::of(&drawing)),
        Err(fault) => format!("refused {fault}\n"),
    }
}

fn counted(net: &Net) -> String {
    let tops = tops(net);
    let mut text = format!("objects {} constraints {}\n", net.objects.len(), net.constraints.len());
    for (c, top) in tops.iter().enumerate() {
        text += &format!("{c} {}", top.density);
        for member in members(top.set) {
            text += &format!(" {member}");
        }
        text += "\n";
    }
    match any_dense(&tops, K) {
        Some(c) => text + &format!("K {K} dense {c}\n"),
        None => text + &format!("K {K} none\n"),
    }
}
