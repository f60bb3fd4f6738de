//! The crate's own part: that numbers become the right types, and that a panel may stand over bytes of any owner.

use jolpibhar::{LeafNumber, Neighbours, Node, Panel, Records, Refusal, GREATEST_DEPTH};

/// The panel of depth 3 with the leaves 8, 9, 5, 6, 7.
fn five() -> Panel<Vec<u8>> {
    let mut panel = Panel::fresh(3).unwrap();
    panel.split(Node(2)).unwrap();
    panel.split(Node(4)).unwrap();
    panel
}

#[test]
fn every_refusal_of_a_call() {
    assert_eq!(Panel::fresh(18).unwrap_err(), Refusal::WrongLength);
    assert_eq!(Panel::over([0; 4]).judge(), Err(Refusal::WrongLength));
    assert_eq!(Panel::over([0; 5]).judge(), Err(Refusal::NotGood));
    assert_eq!(five().number_of(Node(16)), Err(Refusal::NoSuchNode));
    assert_eq!(Node(1).neighbours(), Err(Refusal::NoSuchNode));
    assert_eq!(Node(262_144).corners(), Err(Refusal::NoSuchNode));
    assert_eq!(five().number_of(Node(4)), Err(Refusal::IsCut));
    assert_eq!(five().number_of(Node(10)), Err(Refusal::BelowLeaf(Node(5))));
    assert_eq!(five().split(Node(8)), Err(Refusal::AtGreatestDepth));
    assert_eq!(Panel::fresh(3).unwrap().merge(Node(2)), Err(Refusal::AtDepthOne));
    assert_eq!(five().merge(Node(5)), Err(Refusal::LeavesMissing));
    let mut pinned = five();
    pinned.pin(Node(8)).unwrap();
    assert_eq!(pinned.merge(Node(9)), Err(Refusal::LeafPinned));
    assert_eq!(five().leaf_at(LeafNumber(5)), Err(Refusal::NoSuchNumber));
    assert_eq!(five().round(&[0; 8], &mut []), Err(Refusal::NoRoom));
    assert_eq!(five().round(&[0; 7], &mut []), Err(Refusal::BytesLeft));
    assert_eq!(Panel::over([0; 4]).mend(), Err(Refusal::WrongLength));
}

#[test]
fn cut_or_below_a_leaf() {
    let fresh = Panel::fresh(3).unwrap();
    for (node, leaf) in [(4, 2), (7, 3), (8, 2), (11, 2), (12, 3), (15, 3)] {
        let refused = Refusal::BelowLeaf(Node(leaf));
        assert_eq!(fresh.number_of(Node(node)), Err(refused));
        assert_eq!(fresh.clone().split(Node(node)), Err(refused));
        assert_eq!(fresh.clone().merge(Node(node)), Err(refused));
        assert_eq!(fresh.clone().pin(Node(node)), Err(refused));
        assert_eq!(fresh.clone().unpin(Node(node)), Err(refused));
        assert_eq!(fresh.is_pinned(Node(node)), Err(refused));
    }
    for node in [2, 3, 4].map(Node) {
        assert_eq!(five().number_of(node), Err(Refusal::IsCut));
        assert_eq!(five().split(node), Err(Refusal::IsCut));
        assert_eq!(five().merge(node), Err(Refusal::IsCut));
        assert_eq!(five().pin(node), Err(Refusal::IsCut));
        assert_eq!(five().unpin(node), Err(Refusal::IsCut));
        assert_eq!(five().is_pinned(node), Err(Refusal::IsCut));
    }
}

#[test]
fn pins() {
    let mut panel = Panel::fresh(3).unwrap();
    panel.pin(Node(2)).unwrap();
    panel.pin(Node(2)).unwrap();
    assert_eq!([2, 3].map(|leaf| panel.is_pinned(Node(leaf))), [Ok(true), Ok(false)]);
    panel.split(Node(3)).unwrap(); // and 2 with it
    assert_eq!([4, 5, 6, 7].map(|leaf| panel.is_pinned(Node(leaf)).unwrap()), [true, true, false, false]);
    assert_eq!(panel.bytes(), [0x0C, 0x49, 0x55, 0x55, 0x05]);
    panel.unpin(Node(4)).unwrap();
    panel.unpin(Node(4)).unwrap();
    assert_eq!(panel.merge(Node(6)), Err(Refusal::LeafPinned)); // 5 is across
    panel.unpin(Node(5)).unwrap();
    panel.merge(Node(6)).unwrap();
    assert_eq!(panel, Panel::fresh(3).unwrap());
}

#[test]
fn depths_from_3_to_17() {
    for depth in 3..=GREATEST_DEPTH {
        let panel = Panel::fresh(depth).unwrap();
        let length = (1 << (depth - 1)) + (1 << (depth - 3));
        assert_eq!((panel.bytes().len(), panel.count()), (length, Ok(2)));
    }
    assert_eq!(Panel::fresh(3).unwrap().into_bytes().len(), 5);
    assert_eq!(Panel::fresh(17).unwrap().into_bytes().len(), 81_920);
    for depth in [0, 1, 2, 18, 19, 33, u32::MAX] {
        assert_eq!(Panel::fresh(depth).unwrap_err(), Refusal::WrongLength);
    }
    let mut beyond = Panel::over(vec![0; 163_840]);
    assert_eq!(beyond.open(GREATEST_DEPTH + 1), Err(Refusal::WrongLength));
    assert_eq!(beyond.judge(), Err(Refusal::WrongLength));
}

#[test]
fn nodes_to_262_143() {
    let last = Node(262_143);
    let (left, right, edge) = (None, Some(Node(262_142)), Some(Node(131_072)));
    assert_eq!(last.neighbours(), Ok(Neighbours { left, right, edge }));
    assert_eq!(last.corners(), Ok([[1, 255], [1, 256], [0, 256]]));
    assert_eq!(Node(262_144).neighbours(), Err(Refusal::NoSuchNode));
    let fresh = Panel::fresh(17).unwrap();
    assert_eq!(fresh.number_of(last), Err(Refusal::BelowLeaf(Node(3))));
    assert_eq!(fresh.number_of(Node(262_144)), Err(Refusal::NoSuchNode));
}

#[test]
fn corners_and_the_sides_of_neighbours() {
    assert_eq!(Node(4).corners(), Ok([[0, 0], [128, 128], [0, 256]]));
    let on_border = |[p, q]: [[u32; 2]; 2]| (0..2).any(|axis| p[axis] == q[axis] && p[axis] % 256 == 0);
    for node in (2..1 << 13).map(Node) {
        let [a, b, c] = node.corners().unwrap();
        let (before, after) = if node.0.ilog2() % 2 == 0 { ([b, c], [a, b]) } else { ([a, b], [b, c]) };
        let Neighbours { left, right, edge } = node.neighbours().unwrap();
        for (other, side) in [(left, after), (right, before), (edge, [a, c])] {
            let meets = match other {
                Some(other) => side.iter().all(|end| other.corners().unwrap().contains(end)),
                None => on_border(side),
            };
            assert!(meets, "{node:?} and {other:?}");
        }
    }
}

#[test]
fn numbers_of_refusals() {
    for number in (1..=9).chain([11, 16, 17, 18]) {
        let alone = Refusal::of_answer(number, 0).unwrap();
        assert_eq!((alone.number(), Refusal::of_answer(number, 4)), (number, None));
    }
    let below = Refusal::BelowLeaf(Node(4));
    assert_eq!((below.number(), Refusal::of_answer(10, 4)), (10, Some(below)));
    for other in [(0, 0), (0, 4), (10, 0), (10, 1), (12, 0), (15, 0), (19, 0), (u32::MAX, 0)] {
        assert_eq!(Refusal::of_answer(other.0, other.1), None);
    }
    assert_eq!(Refusal::IsCut.to_string(), "the node is itself cut");
    assert_eq!(below.to_string(), "the node is below leaf 4");
}

#[test]
fn bytes_of_any_owner() {
    let mut bytes = [0xFF; 7];
    let mut lent = Panel::over(&mut bytes[1..6]);
    lent.open(3).unwrap();
    assert_eq!(lent.split(Node(4)), Err(Refusal::BelowLeaf(Node(2))));
    lent.split(Node(3)).unwrap();
    lent.pin(Node(7)).unwrap();
    assert_eq!(bytes, [0xFF, 0x0C, 0x49, 0x55, 0x55, 0x40, 0xFF]);
    let read = Panel::over(&bytes[1..6]);
    assert_eq!((read.count(), read.is_pinned(Node(7))), (Ok(4), Ok(true)));
    assert_eq!(read.into_bytes(), [0x0C, 0x49, 0x55, 0x55, 0x40]);
}

#[test]
fn leaf_bits_are_the_panels_own() {
    let panel = five();
    assert_eq!(panel.leaf_bits().unwrap().as_ptr_range(), panel.bytes()[3..4].as_ptr_range());
    assert_eq!(Panel::over([0; 10]).leaf_bits(), Err(Refusal::NotGood));
    assert_eq!(Panel::fresh(17).unwrap().leaf_bits().unwrap().len(), 16_384);
}

#[test]
fn leaves_and_numbers() {
    let panel = five();
    for (number, node) in [8, 9, 5, 6, 7].map(Node).into_iter().enumerate() {
        let number = LeafNumber(number as u32);
        assert_eq!((panel.leaf_at(number), panel.number_of(node)), (Ok(node), Ok(number)));
    }
}

/// A split (true) or a merge of each node.
fn records(asked: &[(bool, u32)]) -> Records {
    let mut records = Records::new();
    for (split, node) in asked {
        if *split {
            records.split(Node(*node));
        } else {
            records.merge(Node(*node));
        }
    }
    records
}

#[test]
fn a_round_is_its_single_calls() {
    for depth in [3, 5, 9, GREATEST_DEPTH] {
        let mut single = Panel::fresh(depth).unwrap();
        single.pin(Node(3)).unwrap();
        let mut panel = single.clone();
        // every node of the first five depths, and some that no panel has, is split, merged and split again
        let asked: Vec<(bool, u32)> =
            [true, false, true].iter().flat_map(|split| (0..70).map(|node| (*split, node))).collect();
        let records = records(&asked);
        let mut answers = vec![0xFF; records.len()];
        panel.round(records.bytes(), &mut answers).unwrap();
        for ((split, node), answer) in asked.into_iter().zip(answers) {
            let told = if split { single.split(Node(node)) } else { single.merge(Node(node)) };
            assert_eq!(u32::from(answer), told.map_or_else(Refusal::number, |()| 0), "{node} at {depth}");
        }
        assert_eq!(panel, single);
    }
}

#[test]
fn answers_past_the_last_stay() {
    let mut panel = five();
    let mut answers = [0xEE; 5];
    panel.round(records(&[(true, 5), (true, 8), (false, 16)]).bytes(), &mut answers).unwrap();
    assert_eq!(answers, [0, 5, 3, 0xEE, 0xEE]);
    panel.round(Records::new().bytes(), &mut answers).unwrap();
    panel.round(&[], &mut []).unwrap();
    assert_eq!(answers, [0, 5, 3, 0xEE, 0xEE]);
    assert_eq!(panel.count(), Ok(6));
}

#[test]
fn bad_records_of_a_round() {
    let split_5 = [1, 0, 0, 0, 5, 0, 0, 0];
    let with = |place: usize, byte| {
        let mut record = split_5;
        record[place] = byte;
        record
    };
    let bad = [(0, 0), (0, 3), (0, 4), (0, 5), (0, 0xFF), (1, 1), (2, 0x80), (3, 2)];
    let run: Vec<u8> = bad.iter().flat_map(|(place, byte)| with(*place, *byte)).chain(split_5).collect();
    let (mut panel, mut answers) = (five(), [0xEE; 9]);
    panel.round(&run[..64], &mut answers).unwrap();
    assert_eq!((panel, answers), (five(), [9, 9, 9, 9, 9, 9, 9, 9, 0xEE]));
    let mut panel = five();
    panel.round(&run, &mut answers).unwrap();
    assert_eq!((panel.count(), answers), (Ok(6), [9, 9, 9, 9, 9, 9, 9, 9, 0]));
}

/// The round is refused with this number, and neither the panel nor an answer has changed.
fn refused(panel: &[u8], records: &[u8], answers: usize, why: Refusal) {
    let (mut lent, mut written) = (Panel::over(panel.to_vec()), vec![0xEE; answers]);
    assert_eq!(lent.round(records, &mut written), Err(why));
    assert_eq!((lent.bytes(), written), (panel, vec![0xEE; answers]));
}

#[test]
fn refused_rounds_write_nothing() {
    let good = five().into_bytes();
    let records = [records(&[(true, 5), (true, 6)]).bytes(), &[1, 0, 0]].concat();
    refused(&good, &records[..16], 1, Refusal::NoRoom);
    refused(&good, &records[..16], 0, Refusal::NoRoom);
    refused(&good, &records, 1, Refusal::NoRoom);
    refused(&good, &records, 2, Refusal::BytesLeft);
    refused(&good, &records, 3, Refusal::BytesLeft);
    refused(&good, &records[..1], 0, Refusal::BytesLeft);
    for (panel, why) in [(&good[..4], Refusal::WrongLength), (&[0; 5], Refusal::NotGood)] {
        for (length, answers) in [(16, 2), (16, 1), (19, 2), (19, 1), (0, 0)] {
            refused(panel, &records[..length], answers, why);
        }
    }
}

#[test]
fn made_records() {
    assert_eq!((Records::new().len(), Records::new().is_empty(), Records::new().bytes()), (0, true, &[][..]));
    let records = records(&[(true, 2), (false, 0x0403_0201), (false, u32::MAX)]);
    assert_eq!((records.len(), records.is_empty()), (3, false));
    let bytes = [[1, 0, 0, 0, 2, 0, 0, 0], [2, 0, 0, 0, 1, 2, 3, 4], [2, 0, 0, 0, 0xFF, 0xFF, 0xFF, 0xFF]];
    assert_eq!(records.bytes(), bytes.concat());
}

/// Mending these bytes adds so many cuts and leaves those, and mending those adds nothing.
fn mended(bytes: &[u8], added: u32, right: &[u8]) {
    let mut panel = Panel::over(bytes.to_vec());
    for added in [added, 0] {
        assert_eq!((panel.mend(), panel.judge()), (Ok(added), Ok(())));
        assert!(panel.bytes() == right, "{} other bytes than are right", right.len());
    }
}

#[test]
fn mended_cards() {
    let fresh = Panel::fresh(3).unwrap().into_bytes();
    mended(&[0; 5], 1, &fresh);
    mended(&[0xFF; 5], 0, &[0x0C, 0x92, 0xAA, 0xFF, 0xFF]);
    mended(&fresh, 0, &fresh);
    // leaf bit 1 alone: 4 is cut, and what that asks for. Pins stay on leaf bits, also on new ones, and go elsewhere
    let [a, b, c, d, _] = five().into_bytes()[..] else { panic!("five bytes") };
    mended(&[0xFF, 0xFF, 0xFF, 0x02, 0xFF], 3, &[a, b, c, d, 0x57]);
    mended(&[a, b, c, d, 0x0A], 0, &[a, b, c, d, 0x02]);
    // 2 and 3 were pinned: of what they are cut into, the left ones are
    mended(&[fresh[0], fresh[1], fresh[2], 0x13, 0x11], 2, &[a, b, c, d, 0x11]);
}

#[test]
fn mended_at_every_depth() {
    for depth in 3..=GREATEST_DEPTH {
        let fresh = Panel::fresh(depth).unwrap();
        let length = fresh.bytes().len();
        mended(&vec![0; length], 1, fresh.bytes());
        let mut full = Panel::over(vec![0xFF; length]);
        assert_eq!((full.mend(), full.count()), (Ok(0), Ok(1 << depth)));
        assert_eq!(full.is_pinned(Node((2 << depth) - 1)), Ok(true));
        for length in [length - 1, length + 1] {
            let mut other = Panel::over(vec![0xFF; length]);
            assert_eq!((other.mend(), other.into_bytes()), (Err(Refusal::WrongLength), vec![0xFF; length]));
        }
    }
}
