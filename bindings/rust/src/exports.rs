//! The exported calls as they are: numbers, lent bytes and the answer's number. Their declarations for Rust stand here and nowhere
//! else. Nothing checks them against the proved source: they are include/jolpibhar.h's.
//!
//! Each call stands behind a function that is safe to call. `before` is what the numbers hold that it is to write: who compares gives
//! junk, so that a number that is left alone shows.

mod archive {
    extern "C" {
        pub fn node_neighbours(node: u32, left: *mut u32, right: *mut u32, edge: *mut u32) -> u32;
        pub fn node_corners(
            node: u32,
            ax: *mut u32,
            ay: *mut u32,
            bx: *mut u32,
            by: *mut u32,
            cx: *mut u32,
            cy: *mut u32,
        ) -> u32;
        pub fn panel_judge(panel: *const u8, len: usize) -> u32;
        pub fn panel_count(panel: *const u8, len: usize, count: *mut u32) -> u32;
        pub fn panel_leaf(panel: *const u8, len: usize, number: u32, node: *mut u32) -> u32;
        pub fn panel_number(
            panel: *const u8,
            len: usize,
            node: u32,
            number: *mut u32,
            ancestor: *mut u32,
        ) -> u32;
        pub fn panel_leaf_bits(panel: *const u8, len: usize, start: *mut usize, size: *mut usize) -> u32;
        pub fn panel_pinned(
            panel: *const u8,
            len: usize,
            node: u32,
            pinned: *mut u32,
            ancestor: *mut u32,
        ) -> u32;
        pub fn panel_open(panel: *mut u8, len: usize, depth: u32) -> u32;
        pub fn panel_split(panel: *mut u8, len: usize, node: u32, ancestor: *mut u32) -> u32;
        pub fn panel_merge(panel: *mut u8, len: usize, node: u32, ancestor: *mut u32) -> u32;
        pub fn panel_pin(panel: *mut u8, len: usize, node: u32, ancestor: *mut u32) -> u32;
        pub fn panel_unpin(panel: *mut u8, len: usize, node: u32, ancestor: *mut u32) -> u32;
        pub fn panel_round(
            panel: *mut u8,
            len: usize,
            records: *const u8,
            records_len: usize,
            answers: *mut u8,
            answers_len: usize,
        ) -> u32;
        pub fn panel_mend(panel: *mut u8, len: usize, added: *mut u32) -> u32;
    }
}

// SAFETY of all: a slice's pointer is not null and has its length behind it, the numbers are live and each its own, and no call keeps
// a pointer. That a call takes any bytes and any number, writes nothing else and ends is proved.
//
// All are `inline`: from another crate too, what is run and measured is the call alone.

#[inline]
pub fn neighbours(node: u32, before: u32) -> (u32, [u32; 3]) {
    let [mut left, mut right, mut edge] = [before; 3];
    let answer = unsafe { archive::node_neighbours(node, &mut left, &mut right, &mut edge) };
    (answer, [left, right, edge])
}

#[inline]
pub fn corners(node: u32, before: u32) -> (u32, [[u32; 2]; 3]) {
    let [[mut ax, mut ay], [mut bx, mut by], [mut cx, mut cy]] = [[before; 2]; 3];
    let answer = unsafe { archive::node_corners(node, &mut ax, &mut ay, &mut bx, &mut by, &mut cx, &mut cy) };
    (answer, [[ax, ay], [bx, by], [cx, cy]])
}

#[inline]
pub fn judge(panel: &[u8]) -> u32 {
    unsafe { archive::panel_judge(panel.as_ptr(), panel.len()) }
}

#[inline]
pub fn count(panel: &[u8], before: u32) -> (u32, u32) {
    let mut count = before;
    let answer = unsafe { archive::panel_count(panel.as_ptr(), panel.len(), &mut count) };
    (answer, count)
}

#[inline]
pub fn leaf(panel: &[u8], number: u32, before: u32) -> (u32, u32) {
    let mut node = before;
    let answer = unsafe { archive::panel_leaf(panel.as_ptr(), panel.len(), number, &mut node) };
    (answer, node)
}

/// The answer, the leaf's number and the ancestor.
#[inline]
pub fn number(panel: &[u8], node: u32, before: u32) -> (u32, (u32, u32)) {
    let [mut number, mut ancestor] = [before; 2];
    let answer =
        unsafe { archive::panel_number(panel.as_ptr(), panel.len(), node, &mut number, &mut ancestor) };
    (answer, (number, ancestor))
}

#[inline]
pub fn leaf_bits(panel: &[u8], before: u32) -> (u32, (usize, usize)) {
    let [mut start, mut size] = [before as usize; 2];
    let answer = unsafe { archive::panel_leaf_bits(panel.as_ptr(), panel.len(), &mut start, &mut size) };
    (answer, (start, size))
}

/// The answer, whether the leaf is pinned, 0 or 1, and the ancestor.
#[inline]
pub fn pinned(panel: &[u8], node: u32, before: u32) -> (u32, (u32, u32)) {
    let [mut pinned, mut ancestor] = [before; 2];
    let answer =
        unsafe { archive::panel_pinned(panel.as_ptr(), panel.len(), node, &mut pinned, &mut ancestor) };
    (answer, (pinned, ancestor))
}

#[inline]
pub fn open(panel: &mut [u8], depth: u32) -> u32 {
    unsafe { archive::panel_open(panel.as_mut_ptr(), panel.len(), depth) }
}

/// The answer, and the ancestor.
#[inline]
pub fn split(panel: &mut [u8], node: u32, before: u32) -> (u32, u32) {
    let mut ancestor = before;
    let answer = unsafe { archive::panel_split(panel.as_mut_ptr(), panel.len(), node, &mut ancestor) };
    (answer, ancestor)
}

/// The answer, and the ancestor.
#[inline]
pub fn merge(panel: &mut [u8], node: u32, before: u32) -> (u32, u32) {
    let mut ancestor = before;
    let answer = unsafe { archive::panel_merge(panel.as_mut_ptr(), panel.len(), node, &mut ancestor) };
    (answer, ancestor)
}

/// The answer, and the ancestor.
#[inline]
pub fn pin(panel: &mut [u8], node: u32, before: u32) -> (u32, u32) {
    let mut ancestor = before;
    let answer = unsafe { archive::panel_pin(panel.as_mut_ptr(), panel.len(), node, &mut ancestor) };
    (answer, ancestor)
}

/// The answer, and the ancestor.
#[inline]
pub fn unpin(panel: &mut [u8], node: u32, before: u32) -> (u32, u32) {
    let mut ancestor = before;
    let answer = unsafe { archive::panel_unpin(panel.as_mut_ptr(), panel.len(), node, &mut ancestor) };
    (answer, ancestor)
}

#[inline]
pub fn round(panel: &mut [u8], records: &[u8], answers: &mut [u8]) -> u32 {
    unsafe {
        archive::panel_round(
            panel.as_mut_ptr(),
            panel.len(),
            records.as_ptr(),
            records.len(),
            answers.as_mut_ptr(),
            answers.len(),
        )
    }
}

/// The answer, and the cuts added.
#[inline]
pub fn mend(panel: &mut [u8], before: u32) -> (u32, u32) {
    let mut added = before;
    let answer = unsafe { archive::panel_mend(panel.as_mut_ptr(), panel.len(), &mut added) };
    (answer, added)
}
