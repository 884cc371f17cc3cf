// SPDX-License-Identifier: BSD-2-Clause-Patent
//! The header of a volume: [`read`].

use crate::call;
use crate::row::{guid_or_none, narrow, range, row};
use crate::{Error, Guid};
use libfv_sys as sys;
use std::ops::Range;

row! {
    /// The header of a volume, as [`read`] and [`image::scan`](crate::image::scan) return it.
    Header(fv_header), it {
        /// Returns the offset of the volume in bytes from the first byte of the input. [`read`]
        /// returns a header with offset 0.
        offset: usize = it.0.offset as usize,
        /// Returns the number of bytes of the volume, `FvLength`.
        length: usize = it.0.length as usize,
        /// Returns the offset from the volume's first byte at which its first file may begin.
        first_file: usize = it.0.first_file as usize,
        /// Returns `HeaderLength`, in bytes.
        header_length: usize = it.0.header_length as usize,
        /// Returns `Attributes` of the volume.
        attributes: u32 = it.0.attributes,
        /// Returns the version of the file system: 2 for FFS2, 3 for FFS3.
        file_system: u32 = it.0.file_system,
        /// Returns the value of an erased byte, 0 or 255.
        erased_byte: u8 = narrow(it.0.erased_byte, "erased byte"),
        /// Returns `FvName` of the extended header. Returns `None` if the volume has no extended
        /// header, or if `FvName` is 16 zeros.
        name: Option<Guid> = guid_or_none(it.0.name),
    } and {
        /// Returns the range of the volume's bytes in the input.
        range: Range<usize> = range(it.0.offset, it.0.length),
    }
}

/// Reads the header of the volume with which the bytes begin.
///
/// The function checks only the header, and takes no memory. It does not check the files of the
/// volume: [`volume::is_canonical`](crate::volume::is_canonical) and the other functions of
/// [`volume`](crate::volume) do.
///
/// ```
/// # let (volume, empty) = include!(concat!(env!("CARGO_MANIFEST_DIR"), "/tests/sample/volumes.rs"));
/// let header = fv::header::read(&volume)?;
/// assert_eq!((header.length(), header.first_file(), header.file_system()), (128, 72, 2));
/// # Ok::<(), fv::Error>(())
/// ```
///
/// # Errors
///
/// [`Error::Rejected`] with the first fault of the header: a kind from
/// [`Truncated`](crate::FaultKind::Truncated) to [`ExtHeader`](crate::FaultKind::ExtHeader).
pub fn read(bytes: &[u8]) -> Result<Header, Error> {
    call::value(sys::fv_header_read, bytes).map(Header)
}
