//! The values of document 01's section "Known panels" that it does not mark `[M]`, in its order, the limits of request W5, what
//! request W4 says on 01's panels of depth 3, the lengths and pins of W7, the rounds of W1, what W13 says of mending, and the corners that 01
//! and W6 give. Each is asked of the second program and of the exported calls, and both must answer what stands here: the two agreeing is
//! not enough.

use std::collections::BTreeSet;

use jolpibhar::exports;
use second::calls;
use second::panel::{with_right_sums, Panel};
use second::requests::hex;
use second::triangles::Triangle;

use crate::tally::{Compared, Difference, Tally};
use crate::JUNK;

/// A call, and what it is asked beside the panel.
#[derive(Clone, Copy, Debug)]
enum Call {
    Open(u32),
    Judge,
    Count,
    LeafAt(u32),
    NumberOf(u32),
    LeafBits,
    Pinned(u32),
    Split(u32),
    Merge(u32),
    Pin(u32),
    Unpin(u32),
    Mend,
}
use Call::*;

/// The answer's number, and the numbers handed out beside it, 0 where a call has none: a number and an ancestor, or where a part
/// starts and its size. Whether a leaf is pinned is a number too, and so are the cuts added.
type Told = (u32, [usize; 2]);

/// The second program or the exported calls.
type Side = fn(Call, &mut [u8]) -> Told;

/// What is said; the panels and the calls that it is said of, each call on each panel; what they answer.
type Known = (&'static str, &'static [&'static [u8]], &'static [Call], Told);

/// What is said; a panel and nodes of it that are no leaves; what each call that takes a node answers, and the ancestor beside it.
type NoLeaves = (&'static str, &'static [u8], &'static [u32], u32, usize);

/// Leaves of a panel, and those of them that are pinned.
type Leaves = (&'static [u32], &'static [u32]);

/// What is said; a depth, and a panel of it; the calls, and what they answer; the panel that each leaves.
type Pins = (&'static str, u32, Leaves, &'static [Call], Told, Leaves);

/// What is said; a panel, and records and what is left over behind them; the round's answer; the panel and the answers that it leaves. Each
/// answer byte holds EE before.
type Round = (&'static str, &'static [u8], &'static [&'static [u8]], u32, &'static [u8], &'static [u8]);

/// What is said; bytes of a right length; the cuts that mending them adds; the panel that it leaves.
type Mended = (&'static str, &'static [u8], usize, &'static [u8]);

// Panels of depth 3, by the bytes that 01 gives, with no pin: leaves 2, 3; leaves 4, 5, 6, 7; leaves 8, 9, 5, 6, 7; all cut.
const FRESH: &[u8] = &[0x8C, 0x24, 0x11, 0x11, 0x00];
const FOUR: &[u8] = &[0x0C, 0x49, 0x55, 0x55, 0x00];
const FIVE: &[u8] = &[0x4C, 0x4D, 0x56, 0x57, 0x00];
const ALL_CUT: &[u8] = &[0x0C, 0x92, 0xAA, 0xFF, 0x00];

// Bits 0 and 1 alone, read either way: of the whole panel, or of the leaf bits with right sums.
const BITS: &[u8] = &[0x03, 0x00, 0x00, 0x00, 0x00];
const LEAF_BITS: &[u8] = &[0x8C, 0x08, 0x02, 0x03, 0x00];

// The leaves 2, 3 and 8, 9, 5, 6, 7, each with one pin where no leaf is, and with pins on all its leaves and more.
const STRAY_PINS: &[&[u8]] = &[
    &[0x8C, 0x24, 0x11, 0x11, 0x02],
    &[0x8C, 0x24, 0x11, 0x11, 0x91],
    &[0x4C, 0x4D, 0x56, 0x57, 0x08],
    &[0x4C, 0x4D, 0x56, 0x57, 0xD7],
];

// The last is the fresh panel of depth 3 as it was before there were pins.
const LENGTHS: &[&[u8]] = &[&[], &[0; 3], &[0; 4], &[0; 16_384], &[0x8C, 0x24, 0x11, 0x11]];

// Lengths that D = 14 and D = 17 had; those beside the ones for D = 15 and D = 17, and the one that D = 18 would have. Lengths that fit
// D = 3, 15 and 17, with no good panel.
const NO_LENGTHS: &[&[u8]] =
    &[&[0; 8_192], &[0; 65_536], &[0; 20_479], &[0; 20_481], &[0; 81_919], &[0; 81_921], &[0; 163_840]];
const ZEROS: &[&[u8]] = &[&[0; 5], &[0; 20_480], &[0; 81_920]];

/// The calls that judge the panel they are lent; open is the only other one.
const JUDGING: &[Call] =
    &[Judge, Count, LeafAt(0), NumberOf(2), LeafBits, Pinned(2), Split(2), Merge(2), Pin(2), Unpin(2)];

const NODE_16: &[Call] = &[NumberOf(16), Pinned(16), Split(16), Merge(16), Pin(16), Unpin(16)];

/// Good panels, the last two with pins on all their leaves.
const GOOD: &[&[u8]] =
    &[FRESH, FOUR, FIVE, ALL_CUT, &[0x4C, 0x4D, 0x56, 0x57, 0x57], &[0x0C, 0x92, 0xAA, 0xFF, 0xFF]];

/// Depths in range; and beyond it, also such as are 3 or 17 in their lowest bits.
const OPENS: &[Call] = &[Open(3), Open(15), Open(17)];
const BEYOND: &[Call] = &[Open(18), Open(19), Open(35), Open(49), Open(259), Open(1 << 31), Open(u32::MAX)];

const KNOWN: &[Known] = &[
    ("split 8 at D = 3 where 8 is a leaf: 5", &[FIVE, ALL_CUT], &[Split(8)], (5, [0, 0])),
    ("merge 2 on a fresh panel: 6", &[FRESH], &[Merge(2)], (6, [0, 0])),
    ("all cut at D = 3, the number of leaf 15 is 7", &[ALL_CUT], &[NumberOf(15)], (0, [7, 0])),
    ("all cut at D = 3, node 16 answers 3", &[ALL_CUT], NODE_16, (3, [0, 0])),
    ("leaf number 4 of five is a leaf", &[FIVE], &[LeafAt(4)], (0, [7, 0])),
    ("leaf number 5 of five answers 8", &[FIVE], &[LeafAt(5)], (8, [0, 0])),
    ("lengths 0 and 3, and now 4 and 16,384, answer 1", LENGTHS, JUDGING, (1, [0, 0])),
    ("lengths 0 and 3, and now 4 and 16,384, answer 1", LENGTHS, OPENS, (1, [0, 0])),
    ("bits 0 and 1 alone at D = 3 answer 2", &[BITS, LEAF_BITS], JUDGING, (2, [0, 0])),
    ("refusal 1: length isn't 2^(D−1) + 2^(D−3) for a D of 3 to 17", NO_LENGTHS, JUDGING, (1, [0, 0])),
    ("refusal 1: length isn't 2^(D−1) + 2^(D−3) for a D of 3 to 17", NO_LENGTHS, OPENS, (1, [0, 0])),
    ("refusal 1: on open, also a depth out of range", NO_LENGTHS, BEYOND, (1, [0, 0])),
    ("refusal 1: on open, also a depth out of range", ZEROS, BEYOND, (1, [0, 0])),
    ("refusal 2: length fits, panel isn't good", ZEROS, JUDGING, (2, [0, 0])),
    ("a pin bit set where no leaf bit is set makes the panel not good", STRAY_PINS, JUDGING, (2, [0, 0])),
    ("mending: only refusal 1 is possible", LENGTHS, &[Mend], (1, [0, 0])),
    ("mending: only refusal 1 is possible", NO_LENGTHS, &[Mend], (1, [0, 0])),
    ("mending: a good panel comes back unchanged", GOOD, &[Mend], (0, [0, 0])),
];

/// What W4 says of nodes that are no leaves, to all calls alike that take a panel and a node.
const NO_LEAVES: &[NoLeaves] = &[
    ("4 means the node is itself cut", FOUR, &[2, 3], 4, 0),
    ("4 means the node is itself cut", FIVE, &[2, 3, 4], 4, 0),
    ("4 means the node is itself cut", ALL_CUT, &[2, 3, 4, 5, 6, 7], 4, 0),
    ("10 means an ancestor is the leaf", FRESH, &[4, 5, 8, 9, 10, 11], 10, 2),
    ("10 means an ancestor is the leaf", FRESH, &[6, 7, 12, 13, 14, 15], 10, 3),
    ("10 means an ancestor is the leaf", FOUR, &[8, 9], 10, 4),
    ("10 means an ancestor is the leaf", FIVE, &[10, 11], 10, 5),
    ("10 means an ancestor is the leaf", FIVE, &[12, 13], 10, 6),
    ("10 means an ancestor is the leaf", FIVE, &[14, 15], 10, 7),
];

/// What W5 and W7 say of panels: a depth, its length and its last node.
const DEPTHS: &[(&str, u32, usize, u32)] = &[
    ("length 5 is now D = 3", 3, 5, 15),
    ("D up to 17; its length is 2^(D−1) + 2^(D−3) bytes", 15, 20_480, 65_535),
    ("D up to 17; its length is 2^(D−1) + 2^(D−3) bytes; nodes go to 262,143", 17, 81_920, 262_143),
];

const DONE: Told = (0, [0, 0]);
const IS_PINNED: Told = (0, [1, 0]);
const TOLD: &str = "a leaf is pinned or not";
const ONE_PIN: &str = "pin and unpin set or clear the pin bit in the place of that leaf's own leaf bit, and change nothing else";
const ALREADY: &str = "pin and unpin answer 0, also where the pin is already so";
const PASSED: &str = "a cut leaf's pin passes to both children";
const FORCED: &str = "a cut leaf's pin passes to both children, also where the cut was forced";
const OTHERS: &str = "split and merge leave every other pin as it was";
const ELEVEN: &str =
    "a merge that passes 7 but would remove a pinned leaf, on either side, is refused with 11";

const TWO_LEAVES: &[u32] = &[2, 3];
const FOUR_LEAVES: &[u32] = &[4, 5, 6, 7];
const FIVE_LEAVES: &[u32] = &[8, 9, 5, 6, 7];
const SIX_LEAVES: &[u32] = &[8, 9, 5, 6, 14, 15];
const EIGHT_LEAVES: &[u32] = &[16, 17, 9, 5, 6, 14, 30, 31];
const MERGES: &[Call] = &[Merge(4), Merge(5), Merge(6), Merge(7)];

/// What W7 says of pins, on 01's panels of depth 3, and of depth 4 where a split cuts in two steps.
const PINS: &[Pins] = &[
    (ONE_PIN, 3, (FIVE_LEAVES, &[]), &[Pin(9)], DONE, (FIVE_LEAVES, &[9])),
    (ONE_PIN, 3, (FIVE_LEAVES, &[8, 7]), &[Pin(5)], DONE, (FIVE_LEAVES, &[8, 5, 7])),
    (ONE_PIN, 3, (FIVE_LEAVES, &[8, 5, 7]), &[Unpin(5)], DONE, (FIVE_LEAVES, &[8, 7])),
    (ALREADY, 3, (FIVE_LEAVES, &[9, 6]), &[Pin(9), Pin(6)], DONE, (FIVE_LEAVES, &[9, 6])),
    (ALREADY, 3, (FIVE_LEAVES, &[9, 6]), &[Unpin(8), Unpin(7)], DONE, (FIVE_LEAVES, &[9, 6])),
    (TOLD, 3, (FIVE_LEAVES, &[9, 6]), &[Pinned(9), Pinned(6)], IS_PINNED, (FIVE_LEAVES, &[9, 6])),
    (TOLD, 3, (FIVE_LEAVES, &[9, 6]), &[Pinned(8), Pinned(7)], DONE, (FIVE_LEAVES, &[9, 6])),
    (PASSED, 3, (TWO_LEAVES, &[2]), &[Split(2)], DONE, (FOUR_LEAVES, &[4, 5])),
    (FORCED, 3, (TWO_LEAVES, &[3]), &[Split(2)], DONE, (FOUR_LEAVES, &[6, 7])),
    (FORCED, 3, (TWO_LEAVES, &[2, 3]), &[Split(2), Split(3)], DONE, (FOUR_LEAVES, FOUR_LEAVES)),
    (PASSED, 4, (FIVE_LEAVES, &[8]), &[Split(8)], DONE, (EIGHT_LEAVES, &[16, 17])),
    (FORCED, 4, (FIVE_LEAVES, &[7]), &[Split(8)], DONE, (EIGHT_LEAVES, &[14, 30, 31])),
    (FORCED, 4, (FIVE_LEAVES, FIVE_LEAVES), &[Split(8)], DONE, (EIGHT_LEAVES, EIGHT_LEAVES)),
    (OTHERS, 4, (FIVE_LEAVES, &[9, 5, 6]), &[Split(8)], DONE, (EIGHT_LEAVES, &[9, 5, 6])),
    (OTHERS, 3, (FIVE_LEAVES, &[5, 6, 7]), &[Merge(8), Merge(9)], DONE, (FOUR_LEAVES, &[5, 6, 7])),
    (OTHERS, 4, (EIGHT_LEAVES, &[9, 14]), &[Merge(17), Merge(30)], DONE, (SIX_LEAVES, &[9, 14])),
    (ELEVEN, 3, (FOUR_LEAVES, &[4]), MERGES, (11, [0, 0]), (FOUR_LEAVES, &[4])),
    (ELEVEN, 3, (FOUR_LEAVES, &[5]), MERGES, (11, [0, 0]), (FOUR_LEAVES, &[5])),
    (ELEVEN, 3, (FOUR_LEAVES, &[6]), MERGES, (11, [0, 0]), (FOUR_LEAVES, &[6])),
    (ELEVEN, 3, (FOUR_LEAVES, &[7]), MERGES, (11, [0, 0]), (FOUR_LEAVES, &[7])),
    (ELEVEN, 3, (FIVE_LEAVES, &[8]), &[Merge(8), Merge(9)], (11, [0, 0]), (FIVE_LEAVES, &[8])),
    (ELEVEN, 4, (EIGHT_LEAVES, &[31]), &[Merge(16), Merge(30)], (11, [0, 0]), (EIGHT_LEAVES, &[31])),
    (ELEVEN, 3, (FIVE_LEAVES, FIVE_LEAVES), &[Merge(5), Merge(6)], (7, [0, 0]), (FIVE_LEAVES, FIVE_LEAVES)),
    (ELEVEN, 3, (TWO_LEAVES, TWO_LEAVES), &[Merge(2)], (6, [0, 0]), (TWO_LEAVES, TWO_LEAVES)),
];

const IN_ORDER: &str = "bytes and answers equal those of the single calls in order";
const NO_ANCESTOR: &str = "rounds and the program give no ancestor";
const NINE: &str = "an open, a kind above 2 or a spare byte not zero is 9 for that record";
const PAST: &str = "bytes past the last answer stay";
const SIXTEEN: &str = "fewer answer bytes than whole records (16, tested after 1 and 2): nothing is written";
const SEVENTEEN: &str = "bytes left over (17, tested last): nothing is written";
const BAD_PANEL: &str = "a bad panel: nothing is written";

// The leaves 4, 5, 6, 7 and 8, 9, 5, 6, 7, with 5 pinned.
const FOUR_PINNED: &[u8] = &[0x0C, 0x49, 0x55, 0x55, 0x04];
const FIVE_PINNED: &[u8] = &[0x4C, 0x4D, 0x56, 0x57, 0x04];

const SPLIT_2: &[u8] = &[1, 0, 0, 0, 2, 0, 0, 0];
const SPLIT_4: &[u8] = &[1, 0, 0, 0, 4, 0, 0, 0];
const SPLIT_8: &[u8] = &[1, 0, 0, 0, 8, 0, 0, 0];
const MERGE_4: &[u8] = &[2, 0, 0, 0, 4, 0, 0, 0];
const MERGE_5: &[u8] = &[2, 0, 0, 0, 5, 0, 0, 0];
const MERGE_9: &[u8] = &[2, 0, 0, 0, 9, 0, 0, 0];

/// Records that are bad in a round: an open, a pin, an unpin, kinds above; a split and a merge with a spare byte not zero.
const BAD_RECORDS: &[&[u8]] = &[
    &[0, 0, 0, 0, 3, 0, 0, 0],
    &[3, 0, 0, 0, 2, 0, 0, 0],
    &[4, 0, 0, 0, 2, 0, 0, 0],
    &[5, 0, 0, 0, 2, 0, 0, 0],
    &[0xFF, 0, 0, 0, 2, 0, 0, 0],
    &[1, 1, 0, 0, 2, 0, 0, 0],
    &[1, 0, 0x80, 0, 2, 0, 0, 0],
    &[2, 0, 0, 0xFF, 2, 0, 0, 0],
];

/// What W1 says of rounds, with W4 and W7, on 01's panels of depth 3.
const ROUNDS: &[Round] = &[
    (NO_ANCESTOR, FRESH, &[SPLIT_2, SPLIT_8, SPLIT_4], 0, FIVE, &[0, 10, 0]),
    (IN_ORDER, FRESH, &[MERGE_4, SPLIT_2, SPLIT_2, SPLIT_4], 0, FIVE, &[10, 0, 4, 0]),
    (IN_ORDER, FIVE, &[SPLIT_8, MERGE_5, MERGE_9, MERGE_5], 0, FRESH, &[5, 7, 0, 0]),
    (IN_ORDER, FRESH, &[&[2, 0, 0, 0, 2, 0, 0, 0], &[1, 0, 0, 0, 16, 0, 0, 0]], 0, FRESH, &[6, 3]),
    (IN_ORDER, FRESH, &[&[1, 0, 0, 0, 2, 1, 0, 0], &[1, 0, 0, 0, 2, 0, 0, 1]], 0, FRESH, &[3, 3]),
    (ELEVEN, FOUR_PINNED, &[MERGE_4, MERGE_5, SPLIT_4], 0, FIVE_PINNED, &[11, 11, 0]),
    (NINE, FRESH, BAD_RECORDS, 0, FRESH, &[9; 8]),
    (NINE, FRESH, &[BAD_RECORDS[0], SPLIT_2, BAD_RECORDS[1], SPLIT_4], 0, FIVE, &[9, 0, 9, 0]),
    (PAST, FRESH, &[SPLIT_2], 0, FOUR, &[0, 0xEE, 0xEE]),
    (PAST, FIVE, &[], 0, FIVE, &[0xEE]),
    (PAST, FIVE, &[], 0, FIVE, &[]),
    (SIXTEEN, FRESH, &[SPLIT_2, SPLIT_4], 16, FRESH, &[0xEE]),
    (SIXTEEN, FRESH, &[SPLIT_2], 16, FRESH, &[]),
    (SIXTEEN, FRESH, &[SPLIT_2, SPLIT_4, &[1]], 16, FRESH, &[0xEE]),
    (SEVENTEEN, FRESH, &[SPLIT_2, SPLIT_4, &[1]], 17, FRESH, &[0xEE, 0xEE]),
    (SEVENTEEN, FRESH, &[SPLIT_2, &[1, 0, 0, 0, 4, 0, 0]], 17, FRESH, &[0xEE, 0xEE]),
    (SEVENTEEN, FRESH, &[&[1, 0, 0, 0]], 17, FRESH, &[]),
    (BAD_PANEL, BITS, &[SPLIT_2], 2, BITS, &[0xEE]),
    (BAD_PANEL, LEAF_BITS, &[SPLIT_2, SPLIT_4], 2, LEAF_BITS, &[0xEE]),
    (BAD_PANEL, LEAF_BITS, &[SPLIT_2, &[1]], 2, LEAF_BITS, &[0xEE]),
    (BAD_PANEL, LEAF_BITS, &[], 2, LEAF_BITS, &[]),
    (BAD_PANEL, &[0x8C, 0x24, 0x11, 0x11], &[SPLIT_2], 1, &[0x8C, 0x24, 0x11, 0x11], &[0xEE]),
    (BAD_PANEL, &[0x8C, 0x24, 0x11, 0x11], &[SPLIT_2, &[1]], 1, &[0x8C, 0x24, 0x11, 0x11], &[]),
    (BAD_PANEL, &[], &[], 1, &[], &[]),
];

const NODE_1: &str = "mending: node 1 counts as named; the cuts added are the new leaf count less one, less the old field's set bits other than bit 0";
const SMALLEST: &str =
    "mending writes the smallest good panel whose cuts include every cut that the set leaf bits name";
const OLD_SUMS: &str = "mending: given bytes of a right length, whatever they hold";
const STAYS: &str = "mending: a pin stays where its bit is a leaf bit afterwards, others are cleared";
const NOT_PASSED: &str = "unlike a split, mending passes none on to a right child";

/// What W13 says of mending, on bytes of 01's panels of depth 3: leaf bit 1 names the cut of 4, 2 and 6 those of 2 and 3, 4 that of 1.
const MENDED: &[Mended] = &[
    (NODE_1, &[0x00; 5], 1, FRESH),
    (NODE_1, &[0x8C, 0x24, 0x11, 0x01, 0x00], 1, FRESH),
    (NODE_1, &[0x8C, 0x24, 0x11, 0x10, 0x00], 0, FRESH),
    (SMALLEST, &[0x00, 0x00, 0x00, 0x02, 0x00], 3, FIVE),
    (SMALLEST, &[0x8C, 0x24, 0x11, 0x13, 0x00], 2, FIVE),
    (SMALLEST, &[0x4C, 0x4D, 0x56, 0x53, 0x00], 1, FIVE),
    (SMALLEST, &[0x8C, 0x24, 0x11, 0x15, 0x00], 1, FOUR),
    (SMALLEST, &[0x0C, 0x49, 0x55, 0x44, 0x00], 1, FOUR),
    (SMALLEST, &[0x0C, 0x92, 0xAA, 0xAA, 0x00], 3, ALL_CUT),
    (OLD_SUMS, &[0x00, 0x00, 0x00, 0x57, 0x00], 0, FIVE),
    (OLD_SUMS, &[0xFF, 0xFF, 0xFF, 0x56, 0x00], 0, FIVE),
    (OLD_SUMS, &[0x4F, 0x4D, 0x56, 0x57, 0x00], 0, FIVE),
    (OLD_SUMS, &[0xFF, 0xFF, 0xFF, 0xFF, 0x00], 0, ALL_CUT),
    (STAYS, &[0x4C, 0x4D, 0x56, 0x57, 0xFF], 0, &[0x4C, 0x4D, 0x56, 0x57, 0x57]),
    (STAYS, &[0x4C, 0x4D, 0x56, 0x57, 0xA8], 0, FIVE),
    (STAYS, &[0x00, 0x00, 0x00, 0x02, 0xFF], 3, &[0x4C, 0x4D, 0x56, 0x57, 0x57]),
    (STAYS, &[0x00, 0x00, 0x00, 0x00, 0xFF], 1, &[0x8C, 0x24, 0x11, 0x11, 0x11]),
    (NOT_PASSED, &[0x8C, 0x24, 0x11, 0x13, 0x11], 2, &[0x4C, 0x4D, 0x56, 0x57, 0x11]),
    (NOT_PASSED, &[0x0C, 0x49, 0x55, 0x57, 0x55], 0, &[0x4C, 0x4D, 0x56, 0x57, 0x55]),
];

/// What 01 and W6 say of corners.
const CORNERS: &[(&str, u32, Triangle)] = &[
    ("node 2 is A(0,256), B(0,0), C(256,0)", 2, [[0, 256], [0, 0], [256, 0]]),
    ("node 3 is A(256,0), B(256,256), C(0,256)", 3, [[256, 0], [256, 256], [0, 256]]),
    ("node 4 is now (0,0), (128,128), (0,256)", 4, [[0, 0], [128, 128], [0, 256]]),
    ("corners of 10: (0,0), (128,0), (128,128)", 10, [[0, 0], [128, 0], [128, 128]]),
];

fn alone(answer: u32) -> Told {
    (answer, [0, 0])
}

fn with((answer, number): (u32, u32)) -> Told {
    (answer, [number as usize, 0])
}

fn with_ancestor((answer, ancestor): (u32, u32)) -> Told {
    (answer, [0, ancestor as usize])
}

fn with_both((answer, (number, ancestor)): (u32, (u32, u32))) -> Told {
    (answer, [number as usize, ancestor as usize])
}

fn with_part((answer, (start, size)): (u32, (usize, usize))) -> Told {
    (answer, [start, size])
}

fn by_second(call: Call, panel: &mut [u8]) -> Told {
    match call {
        Open(depth) => alone(calls::open(panel, depth)),
        Judge => alone(calls::judge(panel)),
        Count => with(calls::count(panel)),
        LeafAt(number) => with(calls::leaf_at(panel, number)),
        NumberOf(node) => with_both(calls::number_of(panel, node)),
        LeafBits => with_part(calls::leaf_bits(panel)),
        Pinned(node) => with_both(calls::pinned(panel, node)),
        Split(node) => with_ancestor(calls::split(panel, node)),
        Merge(node) => with_ancestor(calls::merge(panel, node)),
        Pin(node) => with_ancestor(calls::pin(panel, node)),
        Unpin(node) => with_ancestor(calls::unpin(panel, node)),
        Mend => with(calls::mend(panel)),
    }
}

fn by_exports(call: Call, panel: &mut [u8]) -> Told {
    match call {
        Open(depth) => alone(exports::open(panel, depth)),
        Judge => alone(exports::judge(panel)),
        Count => with(exports::count(panel, JUNK)),
        LeafAt(number) => with(exports::leaf(panel, number, JUNK)),
        NumberOf(node) => with_both(exports::number(panel, node, JUNK)),
        LeafBits => with_part(exports::leaf_bits(panel, JUNK)),
        Pinned(node) => with_both(exports::pinned(panel, node, JUNK)),
        Split(node) => with_ancestor(exports::split(panel, node, JUNK)),
        Merge(node) => with_ancestor(exports::merge(panel, node, JUNK)),
        Pin(node) => with_ancestor(exports::pin(panel, node, JUNK)),
        Unpin(node) => with_ancestor(exports::unpin(panel, node, JUNK)),
        Mend => with(exports::mend(panel, JUNK)),
    }
}

/// Both sides tell what is known, and leave the panel with the known bytes.
fn one(says: &str, panel: &[u8], call: Call, known: Told, after: &[u8]) -> Compared {
    let sides: [(&str, Side); 2] = [("second", by_second), ("exports", by_exports)];
    for (side, ask) in sides {
        let mut lent = panel.to_vec();
        let told = ask(call, &mut lent);
        if told != known || lent != after {
            let line = |(answer, [one, other]): Told| format!("answer {answer} with {one}, {other}");
            let bytes = if lent == after { "" } else { ", and other bytes" };
            return Err(Difference(format!(
                "01 or 02 says: {says}\n  asked: {call:?}, panel of {} bytes: {}\n  {side}: {}{bytes}\n  known: {}",
                panel.len(),
                hex(panel),
                line(told),
                line(known)
            )));
        }
    }
    Ok(())
}

fn no_leaves(tally: &mut Tally) -> Compared {
    for (says, panel, nodes, answer, ancestor) in NO_LEAVES {
        for node in *nodes {
            for call in [NumberOf, Pinned, Split, Merge, Pin, Unpin].map(|call| call(*node)) {
                one(says, panel, call, (*answer, [0, *ancestor]), panel)?;
                tally.known();
            }
        }
    }
    Ok(())
}

/// The panel of a depth with these leaves, and these of them pinned: "a leaf k of depth d sets leaf bit k·2^(D−d) − 2^D".
fn panel_of(depth: u32, (leaves, pinned): (&[u32], &[u32])) -> Vec<u8> {
    let [leaf_bits, pins] = [leaves, pinned].map(|nodes| {
        let mut bits = vec![false; 1 << depth];
        nodes.iter().for_each(|k| bits[(k << (depth - k.ilog2())) as usize - (1 << depth)] = true);
        bits
    });
    with_right_sums(depth, &leaf_bits, &pins)
}

/// An open of each depth leaves the panel whose leaf bits are those of nodes 2 and 3, with no pin; it is good, and has nodes to its last.
/// The leaf bits have the bytes before the pins.
fn depths(tally: &mut Tally) -> Compared {
    for (says, depth, length, last) in DEPTHS {
        let fresh = panel_of(*depth, (TWO_LEAVES, &[]));
        one(says, &vec![0xEE; *length], Open(*depth), DONE, &fresh)?;
        tally.known();
        let part = (0, [3 << (depth - 3), 1 << (depth - 3)]);
        let reads = [(Judge, DONE), (LeafBits, part), (NumberOf(*last), (10, [0, 3]))];
        for (call, known) in reads.into_iter().chain([(NumberOf(*last + 1), alone(3))]) {
            one(says, &fresh, call, known, &fresh)?;
            tally.known();
        }
    }
    Ok(())
}

/// In a panel that is cut down to its last node, the pin of that leaf is the last bit of all.
fn last_pins(tally: &mut Tally) -> Compared {
    for (_, depth, _, last) in DEPTHS {
        let clear = Panel::holding(*depth, &BTreeSet::from([last / 2])).bytes();
        let mut set = clear.clone();
        set[clear.len() - 1] += 0x80;
        one(ONE_PIN, &clear, Pin(*last), DONE, &set)?;
        one(ONE_PIN, &set, Pinned(*last), IS_PINNED, &set)?;
        one(ONE_PIN, &set, Unpin(*last), DONE, &clear)?;
        (0..3).for_each(|_| tally.known());
    }
    Ok(())
}

fn pins(tally: &mut Tally) -> Compared {
    assert_eq!(panel_of(3, (FIVE_LEAVES, &[])), FIVE);
    assert_eq!(panel_of(3, (FIVE_LEAVES, &[9, 7]))[3..], [0x57, 0x42]);
    assert_eq!(panel_of(4, (EIGHT_LEAVES, &[17, 14, 30, 31]))[8..], [0x02, 0xD0]);
    for (says, depth, before, calls, known, after) in PINS {
        for call in *calls {
            one(says, &panel_of(*depth, *before), *call, *known, &panel_of(*depth, *after))?;
            tally.known();
        }
    }
    Ok(())
}

/// What W13 says, on depth 3; and at depth 4 leaf bit 1 alone names the cut of 8, which the last split of 01's panel there makes.
fn mended(tally: &mut Tally) -> Compared {
    for (says, bytes, added, after) in MENDED {
        one(says, bytes, Mend, (0, [*added, 0]), after)?;
        tally.known();
    }
    for pins in [0x0000u16, 0xFFFF, 0xD117] {
        let [low, high] = pins.to_le_bytes();
        let eight = panel_of(4, (EIGHT_LEAVES, if pins == 0 { &[] } else { EIGHT_LEAVES }));
        let bytes = [0xEE, 0xEE, 0xEE, 0xEE, 0xEE, 0xEE, 0x02, 0x00, low, high];
        one(SMALLEST, &bytes, Mend, (0, [6, 0]), &eight)?;
        tally.known();
    }
    Ok(())
}

/// Both sides answer what is known of a round, and leave the known panel and answers.
fn rounds(tally: &mut Tally) -> Compared {
    type Ask = fn(&mut [u8], &[u8], &mut [u8]) -> u32;
    let sides: [(&str, Ask); 2] = [("second", calls::round), ("exports", exports::round)];
    for (says, panel, records, answer, after, answers) in ROUNDS {
        let records = records.concat();
        for (side, ask) in sides {
            let (mut lent, mut written) = (panel.to_vec(), vec![0xEE; answers.len()]);
            let told = ask(&mut lent, &records, &mut written);
            if (told, &lent[..], &written[..]) != (*answer, after, answers) {
                let line = |answer, panel, answers| {
                    format!("answer {answer}, panel {}, answers {}", hex(panel), hex(answers))
                };
                return Err(Difference(format!(
                    "02 says: {says}\n  asked: a round, panel {}, records {}\n  {side}: {}\n  known: {}",
                    hex(panel),
                    hex(&records),
                    line(told, &lent, &written),
                    line(*answer, after, answers)
                )));
            }
        }
        tally.known();
    }
    Ok(())
}

fn corners(tally: &mut Tally) -> Compared {
    for (says, node, known) in CORNERS {
        for (side, told) in [("second", calls::corners(*node)), ("exports", exports::corners(*node, JUNK))] {
            if told != (0, *known) {
                return Err(Difference(format!("01 or W6 says: {says}\n  {side}: {told:?}")));
            }
        }
        tally.known();
    }
    Ok(())
}

pub fn all(tally: &mut Tally) -> Compared {
    let leaf_bits: Vec<bool> = (0..8).map(|place| place < 2).collect();
    assert_eq!(with_right_sums(3, &leaf_bits, &[]), LEAF_BITS);
    for (says, panels, calls, known) in KNOWN {
        for panel in *panels {
            for call in *calls {
                one(says, panel, *call, *known, panel)?;
                tally.known();
            }
        }
    }
    no_leaves(tally)?;
    depths(tally)?;
    pins(tally)?;
    last_pins(tally)?;
    rounds(tally)?;
    mended(tally)?;
    corners(tally)
}
