//! Mending: bytes that no damage to a good panel gives. Every leaf bitfield of depth 3 with all pins and of depth 4 with some, few leaf bits alone,
//! and leaf bits of every density to the greatest depth, each behind sums that are right, nearly right or none. Good panels, damaged ones and
//! wrong lengths are mended where the other calls are tried on them.

use jolpibhar::exports;
use second::panel::{length_of, with_right_sums, Panel};
use second::requests::hex;
use second::triangles::{GREATEST_DEPTH, LEAST_DEPTH};

use crate::damage::flip;
use crate::fields::fields;
use crate::random::Random;
use crate::runs::{all_cut, bounded};
use crate::subject::Subject;
use crate::tally::{Compared, Difference, Tally};
use crate::JUNK;

// ---- what follows of a mending

const TWICE: &str = "mending twice is mending once";
const NAMED: &str = "given bytes of a right length, whatever they hold: leaf bits other than bit 0 name cuts, and nothing else";

/// What is before the leaf bits, these, and the pins: of the five equal parts of a panel's bytes three, one and one.
fn parts(bytes: &[u8]) -> [&[u8]; 3] {
    let fifth = bytes.len() / 5;
    [&bytes[..3 * fifth], &bytes[3 * fifth..4 * fifth], &bytes[4 * fifth..]]
}

/// The bytes with every bit before the leaf bits another, and leaf bit 0 too.
fn with_others(bytes: &[u8]) -> Vec<u8> {
    let before = parts(bytes)[0].len();
    let mut others = bytes.to_vec();
    others[..before].iter_mut().for_each(|byte| *byte = !*byte);
    others[before] ^= 1;
    others
}

/// The exported call on these bytes is done, with so many cuts added, and leaves those bytes.
fn comes_to(bytes: &[u8], added: u32, right: &[u8], says: &str) -> Compared {
    let mut lent = bytes.to_vec();
    let told = exports::mend(&mut lent, JUNK);
    if told == (0, added) && lent == right {
        return Ok(());
    }
    Err(Difference(format!(
        "W13 says: {says}\n  asked:   panel_mend, panel of {} bytes: {}\n  exports: answer {} with {}, leaves {}\n  right:   answer 0 with {added}, leaves {}",
        bytes.len(),
        hex(bytes),
        told.0,
        told.1,
        hex(&lent),
        hex(right)
    )))
}

/// What W13 says of a mending that is done, beside what it leaves: that is good, and mended once more it stays so; and what was before the
/// leaf bits played no part, nor did leaf bit 0.
pub fn follows(tally: &mut Tally, bytes: &[u8], added: u32, left: &[u8]) -> Compared {
    let judged = exports::judge(left);
    if judged != 0 {
        let asked = format!("panel of {} bytes: {}", bytes.len(), hex(bytes));
        return Err(Difference(format!("panel_judge answers {judged} to what is mended\n  asked: {asked}")));
    }
    tally.count("mended, judged", judged);
    comes_to(left, 0, left, TWICE)?;
    tally.count("mended again", 0);
    comes_to(&with_others(bytes), added, left, NAMED)?;
    tally.count("with other sums", 0);
    let [_, bits, pins] = parts(bytes);
    tally.mended(added, bits, pins, parts(left)[1]);
    Ok(())
}

// ---- cases

fn one(tally: &mut Tally, random: &mut Random, bytes: &[u8]) -> Compared {
    Subject::read(tally, random, bytes).mend()
}

/// Bytes with these leaf bits and pins. What is before them is right for these leaf bits, or has one bit flipped, or is random.
fn behind_any(depth: u32, bits: &[bool], pins: &[bool], random: &mut Random) -> Vec<u8> {
    let mut bytes = with_right_sums(depth, bits, pins);
    let before = parts(&bytes)[0].len();
    match random.below(3) {
        0 => {}
        1 => flip(&mut bytes, random.below(8 * before)),
        _ => bytes[..before].copy_from_slice(&random.bytes(before)),
    }
    bytes
}

/// All pins of depth 3 with every field.
fn every_field_and_pin(tally: &mut Tally, random: &mut Random) -> Compared {
    for bits in fields(3) {
        for pins in fields(3) {
            let bytes = behind_any(3, &bits, &pins, random);
            one(tally, random, &bytes)?;
        }
    }
    Ok(())
}

/// Pins for so many places: none, all, or some, many or few.
fn some_pins(places: usize, random: &mut Random) -> Vec<bool> {
    let rarely = random.pick(&[1, 2, 8, usize::MAX]);
    (0..places).map(|_| random.once_in(rarely)).collect()
}

fn every_field(tally: &mut Tally, random: &mut Random, depth: u32) -> Compared {
    for bits in fields(depth) {
        for _ in 0..2 {
            let pins = some_pins(bits.len(), random);
            let bytes = behind_any(depth, &bits, &pins, random);
            one(tally, random, &bytes)?;
        }
    }
    Ok(())
}

/// These leaf bits alone, which ask for all that is cut beside.
fn alone(tally: &mut Tally, random: &mut Random, depth: u32, places: &[usize]) -> Compared {
    let mut bits = vec![false; 1 << depth];
    places.iter().for_each(|place| bits[*place] = true);
    let pins = some_pins(bits.len(), random);
    let bytes = behind_any(depth, &bits, &pins, random);
    one(tally, random, &bytes)
}

/// Each leaf bit alone to depth 9; above the first ones, the last ones, and those that name the cuts of 1, 2, 4, 8 and so on. Then two to four
/// at random places.
fn few_bits(tally: &mut Tally, random: &mut Random, depth: u32, many: usize) -> Compared {
    let all = 1usize << depth;
    let near = if depth <= 9 { all / 2 } else { 4 };
    for place in (0..near).chain(all - near..all).chain((0..depth).map(|k| 1 << k)) {
        alone(tally, random, depth, &[place])?;
    }
    for _ in 0..many {
        let places: Vec<usize> = (0..2 + random.below(3)).map(|_| random.below(all)).collect();
        alone(tally, random, depth, &places)?;
    }
    Ok(())
}

/// So many random bytes, of whose bits about one in 2^(1 + thin) is set.
fn sparse(many: usize, thin: u32, random: &mut Random) -> Vec<u8> {
    let mut bytes = random.bytes(many);
    for _ in 0..thin {
        bytes.iter_mut().for_each(|byte| *byte &= random.next() as u8);
    }
    bytes
}

/// Random bytes whose leaf bits are as thin as that, or as thick.
fn dense_or_thin(depth: u32, thin: u32, random: &mut Random) -> Vec<u8> {
    let part = length_of(depth) / 5;
    let mut bits = sparse(part, thin, random);
    if thin <= 4 && random.once_in(2) {
        bits.iter_mut().for_each(|byte| *byte = !*byte);
    }
    let (before, pins) = (random.bytes(3 * part), random.below(4) as u32);
    [before, bits, sparse(part, pins, random)].concat()
}

/// The bytes where most is to be added and where nothing is: all zero, all one, the fresh panel and all cut.
fn ends(depth: u32, random: &mut Random) -> [Vec<u8>; 4] {
    let fresh = Panel::fresh(depth).expect("a depth in range");
    let length = length_of(depth);
    [vec![0; length], vec![0xFF; length], fresh.bytes(), all_cut(depth, random).bytes()]
}

pub fn all(tally: &mut Tally, random: &mut Random, cases: usize) -> Compared {
    every_field_and_pin(tally, random)?;
    every_field(tally, random, 4)?;
    for depth in LEAST_DEPTH..=GREATEST_DEPTH {
        let many = bounded(cases.div_ceil(8), depth);
        for bytes in ends(depth, random) {
            one(tally, random, &bytes)?;
        }
        few_bits(tally, random, depth, many)?;
        for _ in 0..many.div_ceil(4) {
            for thin in 0..=depth {
                let bytes = dense_or_thin(depth, thin, random);
                one(tally, random, &bytes)?;
            }
        }
    }
    Ok(())
}
