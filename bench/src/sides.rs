//! The paper's algorithms in ordinary Rust and in ordinary C, under the same names.

use crate::ordinary::{self, Around, Triangle};

/// What the proved calls are measured beside.
pub trait Ordinary {
    fn sums(bytes: &mut [u8], deep: u32);
    fn leaf(bytes: &[u8], deep: u32, number: u32) -> u32;
    fn number(bytes: &[u8], deep: u32, node: u32) -> u32;
    fn neighbours(node: u32) -> Around;
    fn corners(node: u32) -> Triangle;
    fn split(bytes: &mut [u8], deep: u32, node: u32);
    fn merge(bytes: &mut [u8], deep: u32, node: u32);
    fn split_along(bytes: &mut [u8], deep: u32, node: u32);
    fn merge_along(bytes: &mut [u8], deep: u32, node: u32);
}

pub struct Rust;

impl Ordinary for Rust {
    fn sums(bytes: &mut [u8], deep: u32) {
        ordinary::ordinary_sums(bytes, deep);
    }

    fn leaf(bytes: &[u8], deep: u32, number: u32) -> u32 {
        ordinary::ordinary_leaf(bytes, deep, number)
    }

    fn number(bytes: &[u8], deep: u32, node: u32) -> u32 {
        ordinary::ordinary_number(bytes, deep, node)
    }

    fn neighbours(node: u32) -> Around {
        ordinary::ordinary_neighbours(node)
    }

    fn corners(node: u32) -> Triangle {
        ordinary::ordinary_corners(node)
    }

    fn split(bytes: &mut [u8], deep: u32, node: u32) {
        ordinary::ordinary_split(bytes, deep, node);
    }

    fn merge(bytes: &mut [u8], deep: u32, node: u32) {
        ordinary::ordinary_merge(bytes, deep, node);
    }

    fn split_along(bytes: &mut [u8], deep: u32, node: u32) {
        ordinary::ordinary_split_along(bytes, deep, node);
    }

    fn merge_along(bytes: &mut [u8], deep: u32, node: u32) {
        ordinary::ordinary_merge_along(bytes, deep, node);
    }
}

/// `bench/c/ordinary.c`, which the build compiles with `-O3`.
pub struct C;

mod raw {
    use crate::ordinary::Around;

    #[repr(C)]
    pub struct Triangle {
        pub at: [[u32; 2]; 3],
    }

    extern "C" {
        pub fn c_sums(bytes: *mut u8, deep: u32);
        pub fn c_leaf(bytes: *const u8, deep: u32, number: u32) -> u32;
        pub fn c_number(bytes: *const u8, deep: u32, node: u32) -> u32;
        pub fn c_neighbours(node: u32) -> Around;
        pub fn c_corners(node: u32) -> Triangle;
        pub fn c_split(bytes: *mut u8, deep: u32, node: u32);
        pub fn c_merge(bytes: *mut u8, deep: u32, node: u32);
        pub fn c_split_along(bytes: *mut u8, deep: u32, node: u32);
        pub fn c_merge_along(bytes: *mut u8, deep: u32, node: u32);
    }
}

// SAFETY of all: the panels are good ones of their depth with the spare bytes behind them, and the numbers are theirs.
impl Ordinary for C {
    fn sums(bytes: &mut [u8], deep: u32) {
        unsafe { raw::c_sums(bytes.as_mut_ptr(), deep) }
    }

    fn leaf(bytes: &[u8], deep: u32, number: u32) -> u32 {
        unsafe { raw::c_leaf(bytes.as_ptr(), deep, number) }
    }

    fn number(bytes: &[u8], deep: u32, node: u32) -> u32 {
        unsafe { raw::c_number(bytes.as_ptr(), deep, node) }
    }

    fn neighbours(node: u32) -> Around {
        unsafe { raw::c_neighbours(node) }
    }

    fn corners(node: u32) -> Triangle {
        unsafe { raw::c_corners(node).at }
    }

    fn split(bytes: &mut [u8], deep: u32, node: u32) {
        unsafe { raw::c_split(bytes.as_mut_ptr(), deep, node) }
    }

    fn merge(bytes: &mut [u8], deep: u32, node: u32) {
        unsafe { raw::c_merge(bytes.as_mut_ptr(), deep, node) }
    }

    fn split_along(bytes: &mut [u8], deep: u32, node: u32) {
        unsafe { raw::c_split_along(bytes.as_mut_ptr(), deep, node) }
    }

    fn merge_along(bytes: &mut [u8], deep: u32, node: u32) {
        unsafe { raw::c_merge_along(bytes.as_mut_ptr(), deep, node) }
    }
}
