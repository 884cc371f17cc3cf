// SPDX-License-Identifier: BSD-2-Clause-Patent
//! Calls about a packed section, which is a compression section or a GUID-defined section.

use crate::call::{self, address, filled};
use crate::row::row;
use crate::Error;
use libfv_sys as sys;

/// The way to open a packed section, or the way that gave its contents. `fv.h` lists the GUID or the
/// CompressionType of each.
#[derive(Clone, Copy, Debug, PartialEq, Eq, Hash)]
#[non_exhaustive]
pub enum Way {
    /// The contents are in the section as they are: CompressionType 0.
    Stored,
    /// [`Way::Uefi`] or [`Way::Tiano`], of which only decoding shows which: CompressionType 1.
    /// Contents never have this way.
    Standard,
    /// The compression of the UEFI specification.
    Uefi,
    /// Tiano's form of this compression.
    Tiano,
    /// [`Way::Lzma`], maybe after four other bytes: CompressionType 2. Contents never have this way.
    Customized,
    /// LZMA.
    Lzma,
    /// LZMA of x86 code.
    LzmaX86,
    /// The contents are in the section as they are, after their CRC32.
    Crc32,
    /// The contents are in the section as they are, after a signature that is not verified.
    Signed,
    /// The contents are in the section as they are, after fields of a GUID that is not known.
    Plain,
    /// A way with this number, for which this version of the crate has no variant.
    Other(u32),
}

impl Way {
    /// Returns the way with this number.
    pub(crate) fn of(number: u32) -> Way {
        match number {
            sys::FV_WAY_STORED => Way::Stored,
            sys::FV_WAY_STANDARD => Way::Standard,
            sys::FV_WAY_UEFI => Way::Uefi,
            sys::FV_WAY_TIANO => Way::Tiano,
            sys::FV_WAY_CUSTOMIZED => Way::Customized,
            sys::FV_WAY_LZMA => Way::Lzma,
            sys::FV_WAY_LZMA_X86 => Way::LzmaX86,
            sys::FV_WAY_CRC32 => Way::Crc32,
            sys::FV_WAY_SIGNED => Way::Signed,
            sys::FV_WAY_PLAIN => Way::Plain,
            _ => Way::Other(number),
        }
    }
}

row! {
    /// What the header of a packed section says about its contents.
    Packed(fv_way), it {
        /// Returns the length of the contents that a header promises, if one does. Contents that are
        /// decoded may have another length.
        promised: Option<u64> = Some(it.0.promised).filter(|length| *length != sys::FV_NO_LENGTH),
        /// Returns the offset of the data in bytes from the first byte of the section.
        data_offset: usize = it.0.data_offset as usize,
        /// Returns the way to open the section.
        way: Way = Way::of(it.0.way),
    }
}

/// The contents of a packed section, as [`open`] returns them.
#[derive(Clone, Debug, PartialEq, Eq, Hash)]
pub struct Opened {
    contents: Vec<u8>,
    way: Way,
}

impl Opened {
    /// Returns the contents.
    pub fn contents(&self) -> &[u8] {
        &self.contents
    }

    /// Returns the way that gave the contents.
    pub fn way(&self) -> Way {
        self.way
    }

    /// Returns the contents as a vector.
    pub fn into_contents(self) -> Vec<u8> {
        self.contents
    }
}

/// Returns what the header of the packed section with which the bytes begin says about its contents.
/// Decodes nothing. Bytes after the section are not read.
///
/// ```
/// use fv::section::{way, Way};
/// // A compression section of CompressionType 0.
/// let section = [12, 0, 0, 1, 3, 0, 0, 0, 0, 7, 8, 9];
/// let head = way(&section)?;
/// assert_eq!((head.way(), head.data_offset(), head.promised()), (Way::Stored, 9, Some(3)));
/// # Ok::<(), fv::Error>(())
/// ```
///
/// # Errors
///
/// [`Error::Rejected`] with the first fault, whose kind is
/// [`OpenShort`](crate::FaultKind::OpenShort) or [`OpenWay`](crate::FaultKind::OpenWay).
pub fn way(section: &[u8]) -> Result<Packed, Error> {
    call::value(sys::fv_section_way, section).map(Packed)
}

/// The most bytes of the first buffer: this many, and this many times the bytes of the section. A
/// hostile header may promise any number.
const FIRST: usize = 1 << 20;
const EXPANSION: usize = 16;

/// Returns the number of bytes of the first buffer: what the header promises, if it is not more than
/// the section could well hold.
fn room(section: &[u8], limit: usize) -> Result<usize, Error> {
    let promised = way(section)?.promised().unwrap_or(u64::MAX);
    let most = section.len().saturating_mul(EXPANSION).saturating_add(FIRST);
    Ok(usize::try_from(promised).unwrap_or(usize::MAX).min(limit).min(most))
}

/// Returns the contents of the packed section with which the bytes begin, of at most `limit` bytes,
/// and the way that gave them. Bytes after the section are not read. No signature is verified.
///
/// The contents are often a stream of sections, for [`sections::tree`](crate::sections::tree).
///
/// ```
/// use fv::section::{open, Way};
/// let section = [12, 0, 0, 1, 3, 0, 0, 0, 0, 7, 8, 9];
/// let opened = open(&section, 100)?;
/// assert_eq!((opened.way(), opened.contents()), (Way::Stored, &[7, 8, 9][..]));
/// let error = open(&section, 2).unwrap_err();
/// assert_eq!(error.fault().unwrap().kind(), fv::FaultKind::OpenTooLong);
/// # Ok::<(), fv::Error>(())
/// ```
///
/// # Errors
///
/// [`Error::Rejected`] with the first fault, whose kind is one of the `Open..` of
/// [`FaultKind`](crate::FaultKind), or [`Error::OutOfMemory`].
pub fn open(section: &[u8], limit: usize) -> Result<Opened, Error> {
    let mut found = sys::fv_contents::default();
    // SAFETY: the section is a slice, the other pointers come from `filled` or are variables of this
    // function, and the call writes what fv.h says.
    let contents = unsafe {
        filled(room(section, limit)?, |buffer: *mut u8, room, length, fault| {
            let result = sys::fv_section_open(
                address(section),
                section.len(),
                limit,
                buffer.cast(),
                room,
                &mut found,
                fault,
            );
            *length = found.length as usize;
            result
        })
    }?;
    Ok(Opened {
        contents,
        way: Way::of(found.way),
    })
}
