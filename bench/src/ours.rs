//! The proved calls: the exported ones, and those of crates/measures, which trust their caller that the bytes are a good panel of that
//! depth. Nothing checks the declarations of these against the proved source.

use jolpibhar::exports;

mod raw {
    extern "C" {
        pub fn measure_all_right(bytes: *const u8, len: usize, deep: usize) -> bool;
        pub fn measure_make_sums(bytes: *mut u8, len: usize, deep: usize);
        pub fn measure_edge(node: u32) -> u32;
        pub fn measure_leaf_at(panel: *const u8, len: usize, deep: usize, number: u32) -> u32;
        pub fn measure_leaf_toward(
            panel: *const u8,
            len: usize,
            deep: usize,
            node: u32,
            number: *mut u32,
        ) -> u32;
        pub fn measure_split(panel: *mut u8, len: usize, deep: usize, node: u32) -> u32;
        pub fn measure_merge(panel: *mut u8, len: usize, deep: usize, node: u32) -> u32;
    }
}

// SAFETY of all: the pointers are to live numbers and bytes of their own, and the panels here are good ones of their depth.

pub fn all_right(panel: &[u8], deep: u32) -> bool {
    unsafe { raw::measure_all_right(panel.as_ptr(), panel.len(), deep as usize) }
}

pub fn make_sums(panel: &mut [u8], deep: u32) {
    unsafe { raw::measure_make_sums(panel.as_mut_ptr(), panel.len(), deep as usize) }
}

pub fn judge(panel: &[u8]) -> u32 {
    exports::judge(panel)
}

pub fn edge(node: u32) -> u32 {
    unsafe { raw::measure_edge(node) }
}

pub fn leaf(panel: &[u8], deep: u32, number: u32) -> u32 {
    unsafe { raw::measure_leaf_at(panel.as_ptr(), panel.len(), deep as usize, number) }
}

/// The leaf at or above a node, and its number.
pub fn leaf_toward(panel: &[u8], deep: u32, node: u32) -> (u32, u32) {
    let mut number = 0;
    let leaf =
        unsafe { raw::measure_leaf_toward(panel.as_ptr(), panel.len(), deep as usize, node, &mut number) };
    (leaf, number)
}

pub fn split(panel: &mut [u8], deep: u32, node: u32) -> u32 {
    unsafe { raw::measure_split(panel.as_mut_ptr(), panel.len(), deep as usize, node) }
}

pub fn merge(panel: &mut [u8], deep: u32, node: u32) -> u32 {
    unsafe { raw::measure_merge(panel.as_mut_ptr(), panel.len(), deep as usize, node) }
}

/// The exported call, which judges the panel first; so does the next.
pub fn call_split(panel: &mut [u8], node: u32) -> u32 {
    exports::split(panel, node, 0).0
}

pub fn call_merge(panel: &mut [u8], node: u32) -> u32 {
    exports::merge(panel, node, 0).0
}

pub fn round(panel: &mut [u8], records: &[u8], answers: &mut [u8]) -> u32 {
    exports::round(panel, records, answers)
}

pub fn neighbours(node: u32) -> [u32; 3] {
    exports::neighbours(node, 0).1
}

pub fn corners(node: u32) -> [[u32; 2]; 3] {
    exports::corners(node, 0).1
}
