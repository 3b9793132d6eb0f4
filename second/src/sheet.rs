//! Sheets: two shares of two bytes for each constraint, what makes them sound, and what they claim.
use crate::net::Net;

pub const ROW: usize = 4;

/// The claim of a sheet for c, or none where it is not sound. Bytes after the last row are ignored.
pub fn claim(net: &Net, c: usize, sheet: &[u8]) -> Option<i64> {
    let mut received = vec![0; net.objects.len()];
    let mut remainder = 0;
    for (constraint, row) in net.constraints.iter().zip(sheet.chunks_exact(ROW)) {
        let shares = [i64::from(share(row, 0)), i64::from(share(row, 1))];
        let left = constraint.weight - shares[0] - shares[1];
        if left < 0 {
            return None;
        }
        remainder += left;
        received[constraint.ends[0]] += shares[0];
        received[constraint.ends[1]] += shares[1];
    }
    let ends = net.constraints[c].ends;
    let overfull = (0..received.len()).any(|v| received[v] > net.objects[v]);
    if overfull || ends.iter().any(|&end| received[end] != 0) {
        return None;
    }
    Some(remainder - net.objects[ends[0]] - net.objects[ends[1]])
}

/// The share of the first (0) or second (1) end in a row.
pub fn share(row: &[u8], side: usize) -> u16 {
    u16::from_le_bytes([row[2 * side], row[2 * side + 1]])
}
