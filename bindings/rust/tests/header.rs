//! The C header and the crate are one release: they say the same version, the same greatest depth, the same records and the same numbers.

use jolpibhar::{Node, Records, Refusal, GREATEST_DEPTH};

const HEADER: &str = include_str!("../../../include/jolpibhar.h");

/// What the header defines a name as.
fn defined(name: &str) -> &'static str {
    let define = format!("#define {name} ");
    HEADER
        .lines()
        .find_map(|line| line.strip_prefix(&define))
        .unwrap_or_else(|| panic!("no definition of {name}"))
}

#[test]
fn the_header_says_the_version() {
    let version = env!("CARGO_PKG_VERSION");
    assert_eq!(defined("JOLPIBHAR_VERSION"), format!("\"{version}\""));
    let parts = ["MAJOR", "MINOR", "PATCH"].map(|part| defined(&format!("JOLPIBHAR_VERSION_{part}")));
    assert_eq!(parts.join("."), version);
}

#[test]
fn the_header_says_the_greatest_depth() {
    assert_eq!(defined("PANEL_GREATEST_DEPTH"), GREATEST_DEPTH.to_string());
}

/// The header has this name in an enum, with this number.
fn numbered(name: &str, number: u32) {
    let line = format!("    PANEL_{name} = {number}");
    let says = |text: &str| {
        text.strip_prefix(&line).is_some_and(|rest| rest.is_empty() || rest.starts_with([',', ' ']))
    };
    assert!(HEADER.lines().any(says), "{line}");
}

#[test]
fn the_header_says_the_records() {
    let mut records = Records::new();
    records.split(Node(2)).merge(Node(5));
    let each = defined("PANEL_RECORD_BYTES").parse().unwrap();
    let kinds: Vec<u8> = records.bytes().chunks(each).map(|record| record[0]).collect();
    assert_eq!(kinds.len(), records.len());
    numbered("RECORD_SPLIT", kinds[0].into());
    numbered("RECORD_MERGE", kinds[1].into());
}

#[test]
fn the_header_says_the_numbers() {
    let names = [
        ("WRONG_LENGTH", Refusal::WrongLength),
        ("NOT_GOOD", Refusal::NotGood),
        ("NO_SUCH_NODE", Refusal::NoSuchNode),
        ("IS_CUT", Refusal::IsCut),
        ("BELOW_LEAF", Refusal::BelowLeaf(Node(2))),
        ("AT_GREATEST_DEPTH", Refusal::AtGreatestDepth),
        ("AT_DEPTH_ONE", Refusal::AtDepthOne),
        ("LEAVES_MISSING", Refusal::LeavesMissing),
        ("LEAF_PINNED", Refusal::LeafPinned),
        ("NO_SUCH_NUMBER", Refusal::NoSuchNumber),
        ("NO_ROOM", Refusal::NoRoom),
        ("BYTES_LEFT", Refusal::BytesLeft),
        ("BAD_RECORD", Refusal::BadRecord),
        ("IN_USE", Refusal::PanelInUse),
    ];
    names.into_iter().for_each(|(name, refusal)| numbered(name, refusal.number()));
}
