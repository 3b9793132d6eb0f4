//! Sheets that would be sound if shares, or what a row, an object or the whole sheet adds up to, were kept in 8 or 16
//! bits. None is.
use crate::common::asked::Asked;
use crate::common::Tally;
use second::codes::*;
use second::net::Net;
use second::reader::Drawing;
use second::sheet::{share, ROW};
use second::testing::drawings::*;
use second::testing::random::Random;
use second::testing::writer;

type Shares = Vec<[u32; 2]>;

fn shares(sheet: &[u8]) -> Shares {
    sheet.chunks_exact(ROW).map(|row| [0, 1].map(|side| share(row, side).into())).collect()
}

/// The bytes of a sheet, where every share has room in two bytes.
fn bytes(shares: &[[u32; 2]]) -> Option<Vec<u8>> {
    let wide: Option<Vec<u16>> = shares.iter().flatten().map(|&share| share.try_into().ok()).collect();
    Some(wide?.iter().flat_map(|share| share.to_le_bytes()).collect())
}

/// What each object receives.
fn received(net: &Net, shares: &[[u32; 2]]) -> Vec<u32> {
    let mut received = vec![0; net.objects.len()];
    for (constraint, row) in net.constraints.iter().zip(shares) {
        (0..2).for_each(|side| received[constraint.ends[side]] += row[side]);
    }
    received
}

fn sum(shares: &[[u32; 2]]) -> u32 {
    shares.iter().flatten().sum()
}

/// Whether the numbers are the same but for multiples of the modulus.
fn agree(found: &[u32], wanted: &[u32], modulus: u32) -> bool {
    found.iter().zip(wanted).all(|(one, other)| one % modulus == other % modulus)
}

const HUB: usize = 2;

/// Constraint 0 between objects 0 and 1; then constraints of weight 15 at the hub, 511 of them, at either end.
fn hub(weight: u8) -> Drawing {
    let mut drawing = distances(128, &[(0, 1)]);
    drawing.objects[HUB] = object(POINT, weight);
    for i in 0..511 {
        let leaf = HUB + 1 + i % 125;
        let ends = if i % 3 == 0 { (leaf, HUB) } else { (HUB, leaf) };
        drawing.constraints.push(constraint(ends.0, ends.1, DISTANCE, 15));
    }
    drawing
}

/// A sheet by which the hub receives so much from constraints of weight 15 and no other object receives anything.
fn giving(net: &Net, much: u32) -> Vec<u8> {
    let mut left = much;
    let mut rows = vec![[0; 2]; net.constraints.len()];
    for (constraint, row) in net.constraints.iter().zip(&mut rows) {
        if let Some(side) = constraint.ends.iter().position(|&end| end == HUB) {
            row[side] = left.min(15);
            left -= row[side];
        }
    }
    assert!(rows.iter().zip(&net.constraints).all(|(row, c)| i64::from(row[0] + row[1]) <= c.weight));
    assert_eq!((received(net, &rows)[HUB], sum(&rows)), (much, much));
    bytes(&rows).expect("narrow shares")
}

#[test]
fn an_object_that_receives_more_than_a_byte_holds() {
    for weight in [1, 2, 3, 14, 15] {
        let (mut tally, drawing) = (Tally::default(), writer::bytes(&hub(weight)));
        let asked = Asked::of(&drawing);
        let (all, weight) = (1 + 511 * 15 - 4, i32::from(weight));
        let near = (1..30).flat_map(|times| [-1, 0, 1, weight].map(|near| 256 * times + near));
        for much in near.filter(|much| *much <= 511 * 15).chain([0, weight - 1, weight, weight + 1, 511 * 15]) {
            let sheet = giving(asked.counter.net().expect("an accepted drawing"), much as u32);
            for claim in [all - much, all, all - much % 256, all - weight, all - (much - much % 256)] {
                let code = if much <= weight && claim == all - much { ANSWERED } else { NOT_SHOWN };
                assert_eq!(asked.check(&mut tally, 0, &sheet, claim), code, "{much} at weight {weight}");
            }
        }
        tally.assert_codes([ANSWERED, NOT_SHOWN]);
    }
}

#[test]
fn an_end_of_c_that_receives_a_multiple_of_256() {
    let (mut tally, drawing) = (Tally::default(), writer::bytes(&hub(15)));
    let asked = Asked::of(&drawing);
    let net = asked.counter.net().expect("an accepted drawing");
    assert!(net.constraints[1].ends.contains(&HUB));
    let all = 1 + 511 * 15 - 15 - 2;
    assert_eq!(asked.check(&mut tally, 1, &giving(net, 0), all), ANSWERED);
    for much in (1..30).map(|times| 256 * times).filter(|much| *much <= 511 * 15) {
        for claim in [all - much, all] {
            let code = asked.check(&mut tally, 1, &giving(net, much as u32), claim);
            assert_eq!(code, NOT_SHOWN, "{much} at an end of c");
        }
    }
}

/// A drawing with a sheet that the library accepts for c with that claim.
struct Accepted<'a> {
    asked: Asked<'a>,
    c: u32,
    shares: Shares,
    claim: i32,
}

impl Accepted<'_> {
    fn net(&self) -> &Net {
        self.asked.counter.net().expect("an accepted drawing")
    }

    /// The sheet is not shown with the accepted sheet's claim, nor with these. False where it has no bytes.
    fn refuses(&self, rows: &[[u32; 2]], claims: &[i32]) -> bool {
        let Some(sheet) = bytes(rows) else { return false };
        for &claim in [self.claim].iter().chain(claims) {
            assert_eq!(self.asked.check(&mut Tally::default(), self.c, &sheet, claim), NOT_SHOWN, "{rows:?}");
        }
        true
    }
}

/// For a few constraints of drawings with many on the same two objects: the library's sheet.
fn every_accepted(mut look: impl FnMut(&Accepted)) {
    let mut random = Random::from_seed(20);
    let mut points = random_points(&mut random, 6, 40);
    points.constraints.iter_mut().for_each(|constraint| constraint.stated = 4);
    let many = with_parallels(&mut random, complete_figure(20), 300);
    let drawings = [distances(3, &[(0, 1), (1, 2), (1, 2)]), points, many, hub(15), repeated_strip()];
    for drawing in drawings.iter().map(writer::bytes) {
        let count = Asked::of(&drawing).counter.tops.len();
        for c in [0, count / 2, count - 1] {
            let (asked, mut tally) = (Asked::of(&drawing), Tally::default());
            let claim = asked.counter.tops[c].density as i32;
            let sheet = asked.sheet(&mut tally, c as u32, ROW * count).expect("a sheet");
            assert_eq!(asked.check(&mut tally, c as u32, &sheet, claim), ANSWERED);
            look(&Accepted { asked, c: c as u32, shares: shares(&sheet), claim });
        }
    }
}

#[test]
fn a_share_with_another_high_byte_and_shares_near_65_535() {
    let mut tried = 0;
    every_accepted(|accepted| {
        let step = 1 + accepted.shares.len() / 60;
        for (row, side) in (0..accepted.shares.len()).step_by(step).flat_map(|row| [(row, 0), (row, 1)]) {
            let own = accepted.shares[row][side];
            let high = [1, 2, 3, 4, 8, 16, 32, 64, 127, 128, 254, 255].map(|high| own + 256 * high);
            for share in high.into_iter().chain(65_520..=65_535) {
                let mut rows = accepted.shares.clone();
                rows[row][side] = share;
                assert!(share > 255);
                let more = (share - own) as i32;
                tried += usize::from(accepted.refuses(&rows, &[accepted.claim - more]));
            }
        }
    });
    assert!(tried > 10_000, "{tried} tried");
}

#[test]
fn sheets_with_65_536_or_256_more_in_sum() {
    let mut tried = 0;
    every_accepted(|accepted| {
        for more in [256, 65_536, 2 * 65_536] {
            let even = |parts: &usize| *parts <= 2 * accepted.shares.len() && more as usize / parts > 0;
            for parts in (0..11).map(|power| 1 << power).filter(even) {
                let mut rows = accepted.shares.clone();
                rows.iter_mut().flatten().take(parts).for_each(|share| *share += more / parts as u32);
                assert_eq!(sum(&rows), sum(&accepted.shares) + more);
                tried += usize::from(accepted.refuses(&rows, &[accepted.claim - more as i32]));
            }
        }
    });
    assert!(tried > 250, "{tried} tried");
}

/// Of two rows on the same two objects one gets `part` at its first end and the rest at its second, the other the rest
/// and the part. So both rows, both objects and the whole agree with the accepted sheet in their low bits.
#[test]
fn sheets_that_agree_with_an_accepted_one_in_every_sum_but_for_high_bits() {
    let mut tried = [0; 2];
    every_accepted(|accepted| {
        let net = accepted.net();
        let ends = |row: usize| net.constraints[row].ends;
        let pairs = (0..accepted.shares.len()).flat_map(|a| (0..a).map(move |b| (b, a)));
        for (a, b) in pairs.filter(|&(a, b)| ends(a) == ends(b)).take(40) {
            for (i, modulus) in [256, 65_536].into_iter().enumerate() {
                for part in
                    [0, 1, 2, 15, 100, 128, 255, 256, 32_768, 65_535].into_iter().filter(|part| *part <= modulus)
                {
                    let mut rows = accepted.shares.clone();
                    rows[a] = [rows[a][0] + part, rows[a][1] + modulus - part];
                    rows[b] = [rows[b][0] + modulus - part, rows[b][1] + part];
                    assert!(agree(&received(net, &rows), &received(net, &accepted.shares), modulus));
                    let of_rows = |rows: &Shares| rows.iter().map(|row| row[0] + row[1]).collect::<Vec<u32>>();
                    assert!(agree(&of_rows(&rows), &of_rows(&accepted.shares), modulus));
                    assert_eq!(sum(&rows), sum(&accepted.shares) + 2 * modulus);
                    let lower = accepted.claim - modulus as i32;
                    tried[i] += usize::from(accepted.refuses(&rows, &[lower, lower - modulus as i32]));
                }
            }
        }
    });
    assert!(tried.iter().all(|tried| *tried > 1_000), "{tried:?} tried");
}
