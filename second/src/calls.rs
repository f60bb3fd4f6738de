//! The calls on a lent panel, as the library exports them: an answer's number, and what comes with it.
//! "Beside a refusal every other number returned is 0, a returned part is empty, and all lent bytes are as before the call."
//! "the ancestor is the one number not 0 that a refusal returns"

use crate::panel::{length_of, Panel};
use crate::requests::{in_round, RECORD};
use crate::triangles::{self, Neighbours, Triangle};
use crate::{Answer, BYTES_LEFT, NO_ROOM, WRONG_LENGTH};

/// The answer's number, the value or, beside a refusal, zeros, and the ancestor.
pub fn told_with_ancestor<T: Default>(answer: Answer<T>) -> (u32, (T, u32)) {
    match answer {
        Ok(value) => (0, (value, 0)),
        Err(refusal) => (refusal.number, (T::default(), refusal.ancestor)),
    }
}

/// The same for a call that hands out no ancestor.
pub fn told<T: Default>(answer: Answer<T>) -> (u32, T) {
    let (number, (value, _)) = told_with_ancestor(answer);
    (number, value)
}

pub fn neighbours(node: u32) -> (u32, Neighbours) {
    told(triangles::neighbours(node))
}

pub fn corners(node: u32) -> (u32, Triangle) {
    told(triangles::corners(node))
}

/// Writes the panel's bytes over the lent ones, which are as many.
fn store(bytes: &mut [u8], panel: &Panel) {
    bytes.copy_from_slice(&panel.bytes());
}

fn try_open(bytes: &mut [u8], depth: u32) -> Answer<()> {
    let panel = Panel::fresh(depth)?;
    if bytes.len() != length_of(depth) {
        return Err(WRONG_LENGTH);
    }
    store(bytes, &panel);
    Ok(())
}

pub fn open(bytes: &mut [u8], depth: u32) -> u32 {
    told(try_open(bytes, depth)).0
}

pub fn judge(bytes: &[u8]) -> u32 {
    told(Panel::read(bytes).map(|_| ())).0
}

/// The number of leaves.
pub fn count(bytes: &[u8]) -> (u32, u32) {
    told(Panel::read(bytes).map(|panel| panel.leaves().len() as u32))
}

/// The node of a leaf number.
pub fn leaf_at(bytes: &[u8], number: u32) -> (u32, u32) {
    told(Panel::read(bytes).and_then(|panel| panel.leaf_at(number)))
}

/// The leaf number of a node, and the ancestor.
pub fn number_of(bytes: &[u8], node: u32) -> (u32, (u32, u32)) {
    told_with_ancestor(Panel::read(bytes).and_then(|panel| panel.number_of(node)))
}

/// Where the leaf bits start in the bytes, and how many bytes they fill.
pub fn leaf_bits(bytes: &[u8]) -> (u32, (usize, usize)) {
    told(Panel::read(bytes).map(|panel| panel.leaf_bytes()))
}

/// Whether a leaf is pinned, 0 or 1, and the ancestor.
pub fn pinned(bytes: &[u8], node: u32) -> (u32, (u32, u32)) {
    told_with_ancestor(Panel::read(bytes).and_then(|panel| panel.is_pinned(node).map(u32::from)))
}

fn change(bytes: &mut [u8], by: impl Fn(&mut Panel) -> Answer<()>) -> (u32, u32) {
    let changed = Panel::read(bytes).and_then(|mut panel| {
        by(&mut panel)?;
        store(bytes, &panel);
        Ok(())
    });
    let (number, ((), ancestor)) = told_with_ancestor(changed);
    (number, ancestor)
}

/// The ancestor is all that a call hands out that changes a panel.
pub fn split(bytes: &mut [u8], node: u32) -> (u32, u32) {
    change(bytes, |panel| panel.split(node))
}

pub fn merge(bytes: &mut [u8], node: u32) -> (u32, u32) {
    change(bytes, |panel| panel.merge(node))
}

pub fn pin(bytes: &mut [u8], node: u32) -> (u32, u32) {
    change(bytes, |panel| panel.pin(node))
}

pub fn unpin(bytes: &mut [u8], node: u32) -> (u32, u32) {
    change(bytes, |panel| panel.unpin(node))
}

/// The cuts added.
pub fn mend(bytes: &mut [u8]) -> (u32, u32) {
    let mended = Panel::mended(bytes).map(|(panel, added)| {
        store(bytes, &panel);
        added
    });
    told(mended)
}

/// "A bad panel, fewer answer bytes than whole records (16, tested after 1 and 2) or bytes left over (17, tested last): nothing is written."
fn try_round(bytes: &mut [u8], records: &[u8], answers: &mut [u8]) -> Answer<()> {
    let mut panel = Panel::read(bytes)?;
    let whole = records.chunks_exact(RECORD);
    if answers.len() < whole.len() {
        return Err(NO_ROOM);
    }
    if !whole.remainder().is_empty() {
        return Err(BYTES_LEFT);
    }
    for (record, answer) in whole.zip(answers) {
        let (number, ()) = told(in_round(&mut panel, record));
        *answer = u8::try_from(number).expect("a number of the table");
    }
    store(bytes, &panel);
    Ok(())
}

/// "one call that takes a lent run of request records and writes one answer byte a record into a second lent buffer, judging the panel
/// once. Bytes and answers equal those of the single calls in order [..]. Bytes past the last answer stay."
pub fn round(bytes: &mut [u8], records: &[u8], answers: &mut [u8]) -> u32 {
    told(try_round(bytes, records, answers)).0
}
