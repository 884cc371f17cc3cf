// SPDX-License-Identifier: BSD-2-Clause-Patent
//! Safe functions over the calls of libfv, for programs that read, check, compare or rebuild UEFI
//! firmware volumes (PI specification 1.8, volume 3).
//!
//! The calls are proved to do what `fv.h` says. This crate is not proved. It keeps the rules of
//! `fv.h` for callers, and turns the results of the calls into Rust values.
//!
//! A function is in the module that is named after its input:
//!
//! | Question | Function |
//! |---|---|
//! | Do the bytes begin with a volume? How long is it? | [`header::read`] |
//! | Which volumes does an image have, and where? | [`image::scan`] |
//! | Which volumes of an image are canonical? | [`image::check`] |
//! | What is an image with each volume canonical? | [`image::normalise`] |
//! | What is each byte of an image, and what is wrong? | [`image::survey`] |
//! | The same, also in packed sections, at every level? | [`image::open`] |
//! | Do two images mean the same, at every level? | [`image::same`] |
//! | Is a volume its own canonical image? | [`volume::is_canonical`] |
//! | What is the canonical image of a volume? | [`volume::normalise`] |
//! | What is a volume without the marks of fixed files? | [`volume::unfix`] |
//! | Which digest do all volumes of one meaning share? | [`volume::digest`] |
//! | Do two volumes mean the same? Where do they differ? | [`volume::compare`] |
//! | Where are files, pads, deleted files, free bytes? | [`volume::cells`] |
//! | What is in a volume, at every level? | [`volume::tree`] |
//! | Which digest does each of these parts have? | [`volume::tree_digests`] |
//! | What are the bytes of one of these parts? | [`volume::extract`] |
//! | How is a packed section opened? How long is it then? | [`section::way`] |
//! | What are the contents of a packed section? | [`section::open`] |
//! | What is each byte of a stream, and what is wrong? | [`sections::survey`] |
//! | What is in a stream of sections, at every level? | [`sections::tree`] |
//! | Which digest does each of these parts have? | [`sections::tree_digests`] |
//! | What are the bytes of one of these parts? | [`sections::extract`] |
//! | What is in a variable store of EDK II? | [`variables::read`] |
//! | Which signatures do signature lists have? | [`variables::signatures`] |
//! | Is a dependency expression true? | [`depex::evaluate`] |
//! | Which blocks does a hand-off list have? | [`hobs::read`] |
//!
//! The functions with the ending `_with` read a volume or a stream as [`Reading`] says: also without
//! the marks of fixed files.
//!
//! An input may be any slice, even an empty one. If it is rejected, the function returns
//! [`Error::Rejected`] with the [`Fault`]. The crate keeps no state and takes no lock, so any
//! number of threads may call at once, also over the same input. Nothing may write to an input
//! while a call reads it. Rust ensures that, except for the slice of a file that is mapped into
//! memory, since another process may write to that file. No function may be called from a signal
//! handler, nor in the child of a fork of a process with threads.
//!
//! Offsets and lengths are in bytes. Functions that return rows return the [`Vec`] to which the
//! call has written, so the rows are not copied. The README of the crate says how the library is
//! found when the crate is built.
//!
//! # Panics
//!
//! A getter panics if libfv has written a value that `fv.h` does not have, such as a kind of cell
//! that no 2.x has. No input leads to a panic.
#![deny(missing_docs)]
#![deny(unsafe_op_in_unsafe_fn)]

#[cfg(not(target_pointer_width = "64"))]
compile_error!("libfv is a library for 64-bit systems");

mod call;
mod error;
mod guid;
mod levels;
mod reading;
mod row;
mod same;
mod types;

pub mod depex;
pub mod header;
pub mod hobs;
pub mod image;
pub mod section;
pub mod sections;
pub mod variables;
pub mod volume;

pub use error::{Error, Fault, FaultKind};
pub use guid::{Guid, ParseGuidError};
pub use reading::Reading;
pub use types::{file_type, section_type};

use std::ffi::CStr;

/// Returns the version of the library as text, such as `2.0.0`.
pub fn version() -> &'static str {
    // SAFETY: the call returns the address of a text that ends with a NUL and is never freed.
    let text = unsafe { CStr::from_ptr(libfv_sys::fv_version()) };
    text.to_str().unwrap_or_default()
}

/// Returns the version of the library as a number: the first number of the version times 0x10000,
/// plus the second times 0x100, plus the third.
///
/// ```
/// assert_eq!(fv::version_number() >> 16, 2);
/// ```
pub fn version_number() -> u32 {
    // SAFETY: the call has no parameters and writes nothing.
    unsafe { libfv_sys::fv_version_number() }
}
