//! The values that document 01 gives, with the limits of request W5, the refusals of W4, the corners of W6, the pins of W7 and what W13
//! says of mending, and its laws where they can be tried on every node. Those of its known panels that it does not mark `[M]` are in compare/src/known.rs, which
//! asks both programs.

use std::collections::BTreeSet;

use second::calls::*;
use second::panel::{closed, good, with_right_sums, Panel};
use second::triangles::{depth, neighbours_of, Neighbours, GREATEST_DEPTH, LAST_NODE, LEAST_DEPTH};

fn opened(depth: u32) -> Vec<u8> {
    let mut bytes = vec![0xEE; 5 << (depth - 3)];
    assert_eq!(open(&mut bytes, depth), 0);
    bytes
}

fn after(mut bytes: Vec<u8>, splits: &[u32]) -> Vec<u8> {
    for node in splits {
        assert_eq!(split(&mut bytes, *node), (0, 0), "split {node}");
    }
    bytes
}

fn leaves(bytes: &[u8]) -> Vec<u32> {
    let (answer, many) = count(bytes);
    assert_eq!(answer, 0);
    (0..many).map(|n| leaf_at(bytes, n)).map(|(answer, node)| if answer == 0 { node } else { 0 }).collect()
}

#[test]
fn panels_of_depth_3() {
    let fresh = opened(3);
    assert_eq!(fresh, [0x8C, 0x24, 0x11, 0x11, 0x00]);
    assert_eq!(leaves(&fresh), [2, 3]);
    let four = after(fresh, &[2]);
    assert_eq!(four, [0x0C, 0x49, 0x55, 0x55, 0x00]);
    assert_eq!(leaves(&four), [4, 5, 6, 7]);
    let five = after(four, &[4]);
    assert_eq!(five, [0x4C, 0x4D, 0x56, 0x57, 0x00]);
    assert_eq!(leaves(&five), [8, 9, 5, 6, 7]);
}

#[test]
fn all_cut_at_depth_3() {
    assert_eq!(after(opened(3), &[2, 4, 5, 6, 7]), [0x0C, 0x92, 0xAA, 0xFF, 0x00]);
}

#[test]
fn a_split_at_depth_4() {
    let bytes = after(opened(4), &[2, 4]);
    assert_eq!(leaves(&bytes), [8, 9, 5, 6, 7]);
    assert_eq!(leaves(&after(bytes, &[8])), [16, 17, 9, 5, 6, 14, 30, 31]);
}

#[test]
fn merges() {
    let mut four = after(opened(3), &[2]);
    let mut five = after(four.clone(), &[4]);
    assert_eq!(merge(&mut four, 5), (0, 0));
    assert_eq!(leaves(&four), [2, 3]);
    let before = five.clone();
    assert_eq!(merge(&mut five, 5), (7, 0));
    assert_eq!(five, before);
    assert_eq!(merge(&mut five, 9), (0, 0));
    assert_eq!(leaves(&five), [4, 5, 6, 7]);
}

#[test]
fn refusals() {
    let five = after(opened(3), &[2, 4]);
    assert_eq!(split(&mut five.clone(), 16), (3, 0));
    assert_eq!(merge(&mut five.clone(), 1), (3, 0));
    for spare in 0..2 {
        let mut bytes = five.clone();
        bytes[0] += 1 << spare;
        assert_eq!(judge(&bytes), 2);
    }
    for depth in [0, 2, 4, 17, 18, 35, u32::MAX] {
        let mut bytes = five.clone();
        assert_eq!(open(&mut bytes, depth), 1);
        assert_eq!(bytes, five);
    }
}

/// All calls that take a node and a panel refuse the node with this answer and this ancestor, and leave the panel.
fn refuse(bytes: &[u8], node: u32, answer: u32, ancestor: u32) {
    for call in [number_of, pinned] {
        assert_eq!(call(bytes, node), (answer, (0, ancestor)), "number of leaf or pinned {node}");
    }
    for call in [split, merge, pin, unpin] {
        let mut lent = bytes.to_vec();
        assert_eq!((call(&mut lent, node), &lent[..]), ((answer, ancestor), bytes), "a change of {node}");
    }
}

#[test]
fn cut_or_below_a_leaf() {
    let fresh = opened(3);
    (4..6).chain(8..12).for_each(|node| refuse(&fresh, node, 10, 2));
    (6..8).chain(12..16).for_each(|node| refuse(&fresh, node, 10, 3));
    let four = after(fresh, &[2]);
    (2..4).for_each(|node| refuse(&four, node, 4, 0));
    (8..16).for_each(|node| refuse(&four, node, 10, node / 2));
    let five = after(four, &[4]);
    (2..5).for_each(|node| refuse(&five, node, 4, 0));
    (10..16).for_each(|node| refuse(&five, node, 10, node / 2));
    (2..8).for_each(|node| refuse(&after(five.clone(), &[5, 6, 7]), node, 4, 0));
}

#[test]
fn ancestors_at_every_distance() {
    for depth in LEAST_DEPTH..=GREATEST_DEPTH {
        let fresh = opened(depth);
        for distance in 1..depth {
            refuse(&fresh, 2 << distance, 10, 2);
            refuse(&fresh, (4 << distance) - 1, 10, 3);
        }
        let five = after(fresh, &[2, 4]);
        for distance in 1..depth - 1 {
            refuse(&five, (6 << distance) - 1, 10, 5);
        }
    }
}

#[test]
fn depths_from_3_to_17() {
    for (depth, length) in [(3, 5), (14, 10_240), (15, 20_480), (16, 40_960), (17, 81_920)] {
        let mut bytes = vec![0; length];
        assert_eq!(judge(&bytes), 2);
        assert_eq!(open(&mut bytes, depth), 0);
        assert_eq!(leaves(&bytes), [2, 3]);
    }
    for (depth, length) in
        [(2, 2), (3, 4), (15, 16_384), (17, 81_919), (17, 81_921), (18, 163_840), (18, 81_920)]
    {
        assert_eq!(open(&mut vec![0; length], depth), 1);
    }
    for length in [0, 2, 3, 4, 8, 8_192, 16_384, 65_536, 81_919, 81_921, 163_840] {
        assert_eq!(judge(&vec![0; length]), 1);
    }
    assert_eq!(judge(&opened(3)[..4]), 1);
}

#[test]
fn nodes_to_262_143() {
    assert_eq!(neighbours(262_143), (0, Neighbours { left: 0, right: 262_142, edge: 131_072 }));
    assert_eq!(corners(262_143), (0, [[1, 255], [1, 256], [0, 256]]));
    for node in [0, 1, 262_144, u32::MAX] {
        assert_eq!(neighbours(node), (3, Neighbours::default()));
        assert_eq!(corners(node), (3, [[0; 2]; 3]));
    }
    let fresh = opened(17);
    refuse(&fresh, 262_143, 10, 3);
    refuse(&fresh, 262_144, 3, 0);
    let finest = Panel::holding(17, &BTreeSet::from([131_071])).bytes();
    assert_eq!(split(&mut finest.clone(), 262_143), (5, 0));
    assert_eq!(merge(&mut finest.clone(), 262_143), (0, 0));
}

#[test]
fn leaf_bits_fill_whole_bytes() {
    assert_eq!(leaf_bits(&opened(3)), (0, (3, 1)));
    assert_eq!(leaf_bits(&opened(14)), (0, (6144, 2048)));
    assert_eq!(leaf_bits(&opened(17)), (0, (49_152, 16_384)));
}

#[test]
fn seventeen_and_forty_eight() {
    for (depth, right) in [(3, 17), (4, 48)] {
        let places = 1u32 << depth;
        let field = |x: u64| (0..places).map(|p| x >> p & 1 == 1).collect::<Vec<bool>>();
        let fields = 0..1u64 << places;
        let good = fields.filter(|x| judge(&with_right_sums(depth, &field(*x), &[])) == 0).count();
        assert_eq!(good, right);
    }
}

/// The panel of depth 3 after these splits, with this pin byte.
fn with_pins(splits: &[u32], pins: u8) -> Vec<u8> {
    let mut bytes = after(opened(3), splits);
    bytes[4] = pins;
    bytes
}

/// The call on a panel with these splits and pins is done, and leaves the one with those.
fn done(call: fn(&mut [u8], u32) -> (u32, u32), node: u32, before: (&[u32], u8), behind: (&[u32], u8)) {
    let mut bytes = with_pins(before.0, before.1);
    assert_eq!(call(&mut bytes, node), (0, 0), "{node} of {before:?}");
    assert_eq!(bytes, with_pins(behind.0, behind.1), "{node} of {before:?}");
}

const FOUR: &[u32] = &[2];
const FIVE: &[u32] = &[2, 4];

#[test]
fn a_pin_is_one_bit() {
    for (leaf, place) in [(8, 0), (9, 1), (5, 2), (6, 4), (7, 6)] {
        let own = 1 << place;
        for others in [0x00, 0x57 - own] {
            done(pin, leaf, (FIVE, others), (FIVE, others + own));
            done(pin, leaf, (FIVE, others + own), (FIVE, others + own));
            done(unpin, leaf, (FIVE, others + own), (FIVE, others));
            done(unpin, leaf, (FIVE, others), (FIVE, others));
            assert_eq!(pinned(&with_pins(FIVE, others), leaf), (0, (0, 0)));
            assert_eq!(pinned(&with_pins(FIVE, others + own), leaf), (0, (1, 0)));
        }
    }
}

#[test]
fn a_pin_without_a_leaf_is_not_good() {
    for pins in 0..=0xFF {
        let good = pins & !0x57 == 0;
        assert_eq!(judge(&with_pins(FIVE, pins)), if good { 0 } else { 2 });
    }
}

#[test]
fn split_passes_pins_on() {
    // 2 is pinned; 3, which is cut with it; both
    done(split, 2, (&[], 0x01), (FOUR, 0x05));
    done(split, 2, (&[], 0x10), (FOUR, 0x50));
    done(split, 3, (&[], 0x11), (FOUR, 0x55));
    // of 4, 5, 6, 7 the first is cut
    done(split, 4, (FOUR, 0x01), (FIVE, 0x03));
    done(split, 4, (FOUR, 0x54), (FIVE, 0x54));
}

#[test]
fn pins_pass_through_forced_cuts() {
    let before = |leaf| {
        let mut bytes = after(opened(4), &[2, 4]);
        assert_eq!(pin(&mut bytes, leaf), (0, 0));
        Panel::read(&after(bytes, &[8])).unwrap()
    };
    for (leaf, passed) in [(8, &[16, 17][..]), (7, &[14, 30, 31]), (9, &[9]), (5, &[5]), (6, &[6])] {
        let panel = before(leaf);
        assert_eq!(panel.leaves(), [16, 17, 9, 5, 6, 14, 30, 31]);
        assert_eq!(panel.pinned(), &passed.iter().copied().collect::<BTreeSet<u32>>());
    }
    // 14, 30 and 31 have the leaf bits 12, 14 and 15
    assert_eq!(before(7).bytes()[8..], [0x00, 0xD0]);
}

#[test]
fn merge_keeps_pinned_leaves() {
    let refused = |node, splits, pins, answer| {
        let mut bytes = with_pins(splits, pins);
        assert_eq!(merge(&mut bytes, node), (answer, 0), "merge {node} with pins {pins:02X}");
        assert_eq!(bytes, with_pins(splits, pins));
    };
    for node in 4..8 {
        // one of 4, 5, 6, 7, whichever side it is on
        [0x01, 0x04, 0x10, 0x40, 0x55].into_iter().for_each(|pins| refused(node, FOUR, pins, 11));
        done(merge, node, (FOUR, 0x00), (&[], 0x00));
    }
    for node in 8..10 {
        // nothing is across from 4: the pins of 5, 6 and 7 stay, and 4 comes back without one
        [0x01, 0x02, 0x57].into_iter().for_each(|pins| refused(node, FIVE, pins, 11));
        done(merge, node, (FIVE, 0x54), (FOUR, 0x54));
    }
    refused(5, FIVE, 0x57, 7);
    refused(2, &[], 0x11, 6);
}

#[test]
fn the_last_pin_is_the_last_bit() {
    for depth in LEAST_DEPTH..=GREATEST_DEPTH {
        let mut bytes = Panel::holding(depth, &BTreeSet::from([(1 << depth) - 1])).bytes();
        let mut right = bytes.clone();
        *right.last_mut().unwrap() += 0x80;
        assert_eq!((pin(&mut bytes, (2 << depth) - 1), bytes), ((0, 0), right));
    }
}

/// Mending these bytes is done, adds so many cuts, and leaves those bytes; mending those adds nothing and leaves them.
fn mended(bytes: &[u8], added: u32, right: &[u8]) {
    let mut lent = bytes.to_vec();
    for added in [added, 0] {
        assert_eq!((mend(&mut lent), judge(&lent)), ((0, added), 0));
        assert!(lent == right, "{} bytes, the first {:02X?}", bytes.len(), &bytes[..5]);
    }
}

#[test]
fn mended_at_depth_3() {
    // nothing is named but node 1, and no leaf bit says so; with leaf bit 4 one does, and leaf bit 0 names nothing
    mended(&[0x00; 5], 1, &[0x8C, 0x24, 0x11, 0x11, 0x00]);
    mended(&[0x00, 0x00, 0x00, 0x01, 0x00], 1, &[0x8C, 0x24, 0x11, 0x11, 0x00]);
    mended(&[0x00, 0x00, 0x00, 0x10, 0x00], 0, &[0x8C, 0x24, 0x11, 0x11, 0x00]);
    // all is named, and all is pinned
    mended(&[0xFF; 5], 0, &[0x0C, 0x92, 0xAA, 0xFF, 0xFF]);
    // leaf bit 1 alone names the cut of 4, which asks for 2, and 2 for 1 and, across its long side, 3; leaf bit 7 that of 7
    mended(&[0xFF, 0xFF, 0xFF, 0x02, 0x00], 3, &[0x4C, 0x4D, 0x56, 0x57, 0x00]);
    mended(&[0x12, 0x34, 0x56, 0x80, 0x00], 3, &[0x4C, 0x69, 0x95, 0xD5, 0x00]);
    // leaf bit 2 names the cut of 2, which asks for 3; leaf bit 6 names that, and then 1 alone is not named
    mended(&[0x8C, 0x24, 0x11, 0x15, 0x00], 1, &[0x0C, 0x49, 0x55, 0x55, 0x00]);
    mended(&[0x8C, 0x24, 0x11, 0x44, 0x00], 1, &[0x0C, 0x49, 0x55, 0x55, 0x00]);
    // with all cuts there, the sums or the depth word alone were wrong
    mended(&[0x4C, 0x4D, 0x57, 0x57, 0x00], 0, &[0x4C, 0x4D, 0x56, 0x57, 0x00]);
    mended(&[0x43, 0x4D, 0x56, 0x57, 0x40], 0, &[0x4C, 0x4D, 0x56, 0x57, 0x40]);
}

#[test]
fn pins_of_what_is_mended() {
    // leaf bits 3, 5 and 7 are not set afterwards: pins go there, and stay elsewhere, also where no leaf bit was before
    mended(&[0x4C, 0x4D, 0x56, 0x57, 0xFF], 0, &[0x4C, 0x4D, 0x56, 0x57, 0x57]);
    mended(&[0x4C, 0x4D, 0x56, 0x57, 0x08], 0, &[0x4C, 0x4D, 0x56, 0x57, 0x00]);
    mended(&[0x00, 0x00, 0x00, 0x02, 0xFF], 3, &[0x4C, 0x4D, 0x56, 0x57, 0x57]);
    mended(&[0x00, 0x00, 0x00, 0x02, 0x54], 3, &[0x4C, 0x4D, 0x56, 0x57, 0x54]);
    // the leaves 2 and 3 are pinned and leaf bit 1 comes in between: 8 and 6 have these pins, and 9, 5 and 7 none
    mended(&[0x8C, 0x24, 0x11, 0x13, 0x11], 2, &[0x4C, 0x4D, 0x56, 0x57, 0x11]);
}

#[test]
fn every_field_of_depth_3_mended() {
    for (field, pins) in (0..=0xFFu8).flat_map(|field| (0..=0xFFu8).map(move |pins| (field, pins))) {
        // 4, 5, 6 and 7 have their long sides at the border and ask for 1, 2 and 3 alone; 2 and 3 for 1 and each other
        let right = if field & 0xEE == 0 { 0x11 } else { 0x55 | (field & 0xAA) };
        let added = right.count_ones() - 1 - (field & 0xFE).count_ones();
        let bits = |byte: u8| (0..8).map(|place| byte >> place & 1 == 1).collect::<Vec<bool>>();
        let panel = with_right_sums(3, &bits(right), &bits(pins & right));
        mended(&[pins, field ^ pins, !pins, field, pins], added, &panel);
    }
}

#[test]
fn mended_at_depth_4() {
    // leaf bit 1 names the cut of 8, and 15 is across from it; leaf bit 3 that of 9, and 10 is across
    let both: [(u8, &[u32]); 2] =
        [(0x02, &[16, 17, 9, 5, 6, 14, 30, 31]), (0x08, &[8, 18, 19, 20, 21, 11, 6, 7])];
    for (field, right) in both {
        let mut bytes = vec![0xEE; 10];
        (bytes[6], bytes[7]) = (field, 0x00);
        assert_eq!(mend(&mut bytes), (0, 6));
        assert_eq!(leaves(&bytes), right);
    }
}

#[test]
fn good_panels_come_back() {
    for depth in LEAST_DEPTH..=GREATEST_DEPTH {
        let all = 1u32 << depth;
        for cuts in
            [vec![1], vec![all / 2], vec![all - 1], vec![all / 3, all / 5, all / 7], (1..all).collect()]
        {
            let mut panel = Panel::holding(depth, &cuts.into_iter().collect());
            for leaf in panel.leaves().to_vec().into_iter().step_by(3) {
                panel.pin(leaf).unwrap();
            }
            mended(&panel.bytes(), 0, &panel.bytes());
        }
    }
}

#[test]
fn wrong_lengths_are_not_mended() {
    for length in [0, 1, 4, 6, 8, 9, 11, 8_192, 16_384, 65_536, 81_919, 81_921, 163_840] {
        for byte in [0x00, 0x57, 0xFF] {
            let mut bytes = vec![byte; length];
            assert_eq!((mend(&mut bytes), &bytes), ((1, 0), &vec![byte; length]));
        }
    }
}

#[test]
fn known_neighbours() {
    let is = |node, left, right, edge| assert_eq!(neighbours(node), (0, Neighbours { left, right, edge }));
    is(2, 0, 0, 3);
    is(3, 0, 0, 2);
    is(8, 9, 0, 15);
    is(10, 11, 0, 9);
    is(17, 30, 16, 18);
}

#[test]
fn shared_sides_follow_the_rules() {
    for n in 2..1 << GREATEST_DEPTH {
        let Neighbours { left, right, edge } = neighbours_of(n);
        let right_child = |x: u32| if x == 0 { 0 } else { 2 * x + 1 };
        let of_left = Neighbours { left: 2 * n + 1, right: right_child(edge), edge: right_child(right) };
        let of_right = Neighbours { left: 2 * edge, right: 2 * n, edge: 2 * left };
        assert_eq!(neighbours_of(2 * n), of_left);
        assert_eq!(neighbours_of(2 * n + 1), of_right);
    }
}

#[test]
fn known_corners() {
    assert_eq!(corners(2), (0, [[0, 256], [0, 0], [256, 0]]));
    assert_eq!(corners(3), (0, [[256, 0], [256, 256], [0, 256]]));
    assert_eq!(corners(4), (0, [[0, 0], [128, 128], [0, 256]]));
    assert_eq!(corners(10), (0, [[0, 0], [128, 0], [128, 128]]));
}

#[test]
fn areas_with_their_sign() {
    for node in 2..=LAST_NODE {
        let [a, b, c] = corners(node).1.map(|p| p.map(i64::from));
        let twice = (b[0] - a[0]) * (c[1] - a[1]) - (c[0] - a[0]) * (b[1] - a[1]);
        assert_eq!(twice, 1 << (17 - depth(node)));
    }
}

#[test]
fn first_and_last_are_the_ends_of_the_long_side() {
    for node in 2..=LAST_NODE {
        let [a, b, c] = corners(node).1.map(|p| p.map(i64::from));
        let square = |p: [i64; 2], q: [i64; 2]| (p[0] - q[0]).pow(2) + (p[1] - q[1]).pow(2);
        assert!(square(a, b) < square(a, c) && square(b, c) < square(a, c), "node {node}");
    }
}

#[test]
fn at_even_depth_a_and_c_change_places() {
    let by_matrices = |node: u32| {
        let [a, b, c] = corners(node).1;
        if depth(node) % 2 == 0 {
            [c, b, a]
        } else {
            [a, b, c]
        }
    };
    for node in 2..1 << GREATEST_DEPTH {
        let [a, b, c] = by_matrices(node);
        let m = [(a[0] + c[0]) / 2, (a[1] + c[1]) / 2];
        assert_eq!(by_matrices(2 * node), [a, m, b]);
        assert_eq!(by_matrices(2 * node + 1), [b, m, c]);
    }
}

#[test]
fn the_smallest_good_set() {
    let cuts = closed(&BTreeSet::from([8]));
    assert_eq!(cuts, BTreeSet::from([1, 2, 3, 4, 7, 8, 15]));
    assert!(good(&cuts));
    let panel = Panel::holding(4, &BTreeSet::from([8]));
    assert_eq!(panel.leaves(), [16, 17, 9, 5, 6, 14, 30, 31]);
    assert_eq!(Panel::read(&panel.bytes()), Ok(panel));
}
