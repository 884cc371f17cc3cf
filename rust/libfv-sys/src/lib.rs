// SPDX-License-Identifier: BSD-2-Clause-Patent
//! The declarations of `fv.h`, the header of libfv 2, which reads, checks, compares and rebuilds UEFI
//! firmware volumes. `fv.h` explains each of them, and has the rules for callers. The crate `libfv`
//! has safe functions over them.

#![allow(non_camel_case_types)]

use std::mem::{align_of, size_of, transmute};
use std::os::raw::{c_char, c_void};

/// The result of a call: one of `FV_OK`, `FV_FAULT_*`, `FV_OUT_OF_MEMORY`, `FV_BUFFER_TOO_SMALL`,
/// `FV_NOT_FOUND`, `FV_BAD_ARGUMENT` and `FV_BAD_GUID`, or one that a later version adds.
pub type fv_result = u32;

// Declares constants, after their type.
macro_rules! constants {
    ($($type:ty: $($name:ident = $value:expr),*;)*) => { $($(pub const $name: $type = $value;)*)* };
}

/// Returns the offset of the first byte that is not zero.
#[allow(dead_code)]
const fn first(bytes: &[u8]) -> usize {
    let mut at = 0;
    while bytes[at] == 0 {
        at += 1;
    }
    at
}

// Declares structures, and checks the size and the alignment of each, and the offsets of its fields.
macro_rules! structures {
    ($($name:ident, $size:literal, $align:literal: $($field:ident: $type:ty = $offset:literal),*;)*) => {$(
        #[repr(C)]
        #[derive(Clone, Copy, Debug, Default, PartialEq, Eq, Hash)]
        pub struct $name {
            $(pub $field: $type,)*
        }

        const _: () = {
            const ZEROS: $name = unsafe { transmute([0u8; $size]) };
            const ONES: $name = unsafe { transmute([255u8; $size]) };
            assert!(size_of::<$name>() == $size && align_of::<$name>() == $align);
            $(
                let mut it = ZEROS;
                it.$field = ONES.$field;
                assert!(first(&unsafe { transmute::<$name, [u8; $size]>(it) }) == $offset);
            )*
        };
    )*};
}

// Declares handles: structures whose fields are hidden.
macro_rules! handles {
    ($($name:ident;)*) => {$(
        #[repr(C)]
        pub struct $name {
            hidden: [u8; 0],
        }
    )*};
}

const _: () = assert!(size_of::<usize>() == 8);

include!("declared.rs");
