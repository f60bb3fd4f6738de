//! Panels that are not good, most of them by little.

use second::panel::{depth_of_length, length_of, with_right_sums, Panel};
use second::triangles::{depth, GREATEST_DEPTH, LEAST_DEPTH};

use crate::fields;
use crate::random::Random;
use crate::runs::{bounded, random_panel, with_pins};
use crate::subject::{Asked, Subject};
use crate::tally::{Compared, Tally};

pub fn flip(bytes: &mut [u8], place: usize) {
    bytes[place / 8] ^= 1 << (place % 8);
}

/// Every call on the bytes, asked about the ends of each range and a few numbers between.
fn try_some(tally: &mut Tally, random: &mut Random, bytes: &[u8]) -> Compared {
    let depth = depth_of_length(bytes.len()).unwrap_or(GREATEST_DEPTH);
    let asked = Asked::some(depth, &[], random);
    Subject::read(tally, random, bytes).every_call(&asked)
}

/// Each bit of a panel flipped, one at a time.
fn each_bit(tally: &mut Tally, random: &mut Random, panel: &Panel) -> Compared {
    let asked = Asked::all(panel.depth());
    let mut bytes = panel.bytes();
    for place in 0..8 * bytes.len() {
        flip(&mut bytes, place);
        Subject::read(tally, random, &bytes).every_call(&asked)?;
        flip(&mut bytes, place);
    }
    Ok(())
}

fn single_bits(tally: &mut Tally, random: &mut Random, cases: usize) -> Compared {
    let small = [fields::good(3), fields::good(4)].concat();
    let mut panels: Vec<Panel> = small.into_iter().map(|panel| with_pins(panel, random)).collect();
    panels.extend((0..cases.div_ceil(20)).map(|_| random_panel(5, random)));
    panels.iter().try_for_each(|panel| each_bit(tally, random, panel))
}

/// A few bits flipped anywhere.
fn flipped(depth: u32, random: &mut Random) -> Vec<u8> {
    let mut bytes = random_panel(depth, random).bytes();
    for _ in 0..=random.below(3) {
        let place = random.below(8 * bytes.len());
        flip(&mut bytes, place);
    }
    bytes
}

/// A leaf bit or two flipped, the sums made right again and no pin left without a leaf: most name cuts that break a rule.
fn other_leaf_bits(depth: u32, random: &mut Random) -> Vec<u8> {
    let panel = random_panel(depth, random);
    let (mut bits, mut pins) = (panel.leaf_bits(), panel.pin_bits());
    for _ in 0..=random.below(2) {
        let place = random.below(bits.len());
        bits[place] = !bits[place];
        pins[place] &= bits[place];
    }
    with_right_sums(depth, &bits, &pins)
}

/// A pin or two more, where no leaf is: the first place, the last or any.
fn stray_pins(depth: u32, random: &mut Random) -> Vec<u8> {
    let panel = random_panel(depth, random);
    let (bits, mut pins) = (panel.leaf_bits(), panel.pin_bits());
    let places: Vec<usize> = (0..bits.len()).filter(|place| !bits[*place]).collect();
    if let (Some(first), Some(last)) = (places.first(), places.last()) {
        for _ in 0..=random.below(2) {
            let any = random.pick(&places);
            pins[random.pick(&[*first, *last, any])] = true;
        }
    }
    with_right_sums(depth, &bits, &pins)
}

/// Random bytes for some of the pins, or for all.
fn random_pins(depth: u32, random: &mut Random) -> Vec<u8> {
    let mut bytes = random_panel(depth, random).bytes();
    let many = 1 + random.below(1 << (depth - 3));
    let start = bytes.len() - many;
    bytes[start..].copy_from_slice(&random.bytes(many));
    bytes
}

/// Pins where no leaf is, or any pins.
fn other_pins(depth: u32, random: &mut Random) -> Vec<u8> {
    if random.once_in(2) {
        stray_pins(depth, random)
    } else {
        random_pins(depth, random)
    }
}

/// In each pin byte by itself a pin where no leaf is, if it has room for one.
fn each_pin_byte(tally: &mut Tally, random: &mut Random, panel: &Panel) -> Compared {
    let (bits, pins) = (panel.leaf_bits(), panel.pin_bits());
    for start in (0..bits.len()).step_by(8) {
        let places: Vec<usize> = (start..start + 8).filter(|place| !bits[*place]).collect();
        if !places.is_empty() {
            let mut pins = pins.clone();
            pins[random.pick(&places)] = true;
            try_some(tally, random, &with_right_sums(panel.depth(), &bits, &pins))?;
        }
    }
    Ok(())
}

fn pin_bytes(tally: &mut Tally, random: &mut Random) -> Compared {
    for depth in LEAST_DEPTH..=11 {
        for _ in 0..2 {
            let panel = random_panel(depth, random);
            each_pin_byte(tally, random, &panel)?;
        }
    }
    Ok(())
}

/// Word k of a panel: where it starts, and how many bits it has.
fn word(panel_depth: u32, k: u32) -> (usize, usize) {
    let d = depth(k.max(1));
    let bits = (panel_depth - d + 1) as usize;
    ((2 << d) + k as usize * bits, bits)
}

/// Adds to word k, as far as its bits go.
fn add(bytes: &mut [u8], panel_depth: u32, k: u32, number: usize) {
    let (start, bits) = word(panel_depth, k);
    let bit = |bytes: &[u8], i: usize| usize::from(bytes[i / 8] >> (i % 8) & 1);
    let old = (0..bits).fold(0, |sum, i| sum + (bit(bytes, start + i) << i));
    let new = old.wrapping_add(number);
    for i in (0..bits).filter(|i| (old ^ new) >> i & 1 == 1) {
        flip(bytes, start + i);
    }
}

/// Word 0 holds another depth.
fn other_depth_word(depth: u32, random: &mut Random) -> Vec<u8> {
    let mut bytes = random_panel(depth, random).bytes();
    let number = if random.once_in(2) { random.pick(&[1, usize::MAX]) } else { 1 + random.below(2 << depth) };
    add(&mut bytes, depth, 0, number);
    bytes
}

/// A sum that is not right: one word alone, or with all words above it, so that only the lowest sum shows it.
fn stray_sum(depth: u32, random: &mut Random) -> Vec<u8> {
    let mut bytes = random_panel(depth, random).bytes();
    let power = 1 << random.below(depth as usize);
    let number = random.pick(&[1, 2, usize::MAX, power]);
    let mut k = 1 + random.below((1 << depth) - 1) as u32;
    let above = random.once_in(2);
    loop {
        add(&mut bytes, depth, k, number);
        k /= 2;
        if k == 0 || !above {
            return bytes;
        }
    }
}

/// Random bytes, all or behind a right start.
fn random_bytes(depth: u32, random: &mut Random) -> Vec<u8> {
    let mut bytes = random.bytes(length_of(depth));
    if random.once_in(2) {
        let good = random_panel(depth, random).bytes();
        let part = random.below(bytes.len());
        bytes[..part].copy_from_slice(&good[..part]);
    }
    bytes
}

/// Bytes of a length that no panel has: random, zeros, or a good panel cut short or drawn out.
pub fn wrong_length(length: usize, random: &mut Random) -> Vec<u8> {
    let mut bytes = match random.below(3) {
        0 => random.bytes(length),
        1 => vec![0; length],
        _ => random_panel(LEAST_DEPTH + random.below(8) as u32, random).bytes(),
    };
    bytes.resize(length, 0);
    bytes
}

/// Lengths around those that panels have, the next one too, around those that they had before there were pins, and between.
fn lengths(tally: &mut Tally, random: &mut Random, cases: usize) -> Compared {
    let right = (LEAST_DEPTH..=GREATEST_DEPTH + 1).map(length_of);
    let around = right.chain((3..=18).map(|k| 1 << k)).flat_map(|length| [length - 1, length, length + 1]);
    let between = (3..=18).map(|k| 3 << (k - 1));
    for length in (0..=70).chain(around).chain(between) {
        for _ in 0..cases.div_ceil(20) {
            let bytes = wrong_length(length, random);
            try_some(tally, random, &bytes)?;
        }
    }
    Ok(())
}

/// Each kind of damage to panels of a right length. At times one leaves a panel good.
pub const KINDS: [fn(u32, &mut Random) -> Vec<u8>; 6] =
    [flipped, other_leaf_bits, other_pins, other_depth_word, stray_sum, random_bytes];

pub fn all(tally: &mut Tally, random: &mut Random, cases: usize) -> Compared {
    single_bits(tally, random, cases)?;
    pin_bytes(tally, random)?;
    lengths(tally, random, cases)?;
    for depth in LEAST_DEPTH..=GREATEST_DEPTH {
        for kind in KINDS {
            for _ in 0..bounded(cases, depth) {
                let bytes = kind(depth, random);
                try_some(tally, random, &bytes)?;
            }
        }
    }
    Ok(())
}
