// SPDX-License-Identifier: BSD-2-Clause-Patent
//! Whether two images mean the same at every level.

use crate::call::address;
use crate::error::check;
use crate::row::{range, row};
use crate::Error;
use libfv_sys as sys;
use std::ops::Range;

row! {
    /// The place of a part of an image, at some level.
    PartPlace(fv_part_place), it {
        /// Returns the number of the source that the part is in. The image is source 0.
        source: usize = it.0.source as usize,
        /// Returns the offset of the part in bytes from the first byte of its source.
        offset: usize = it.0.offset as usize,
        /// Returns the number of bytes of the part.
        length: usize = it.0.length as usize,
    } and {
        /// Returns the range of the part's bytes in its source.
        range: Range<usize> = range(it.0.offset, it.0.length),
    }
}

impl PartPlace {
    /// Returns the place that a call has written, if there is one.
    fn of(raw: sys::fv_part_place) -> Option<PartPlace> {
        (raw.has_place == 1).then_some(PartPlace(raw))
    }
}

row! {
    /// Whether two images mean the same at every level, and where they first differ. [`same`] returns
    /// it. The source of a place is the source with this number of
    /// [`image::open`](crate::image::open), of the same image with the same limit.
    Sameness(fv_sameness), it {
        /// Returns whether the images mean the same.
        is_same: bool = it.0.is_same == 1,
        /// Returns the place in the first image, if the images differ and it has a part there.
        first: Option<PartPlace> = PartPlace::of(it.0.first),
        /// Returns the place in the second image, if the images differ and it has a part there.
        second: Option<PartPlace> = PartPlace::of(it.0.second),
    }
}

/// Compares what two images mean at every level: opens both as
/// [`image::open`](crate::image::open) does, each within the limit, and compares their parts in
/// order. Any bytes are accepted. Places, pads, checksums, deleted and superseded files and free
/// bytes do not count, nor does how a section is packed that is opened. A packed section that is not
/// opened counts with all its bytes.
///
/// ```
/// # let (volume, empty) = include!(concat!(env!("CARGO_MANIFEST_DIR"), "/tests/sample/volumes.rs"));
/// use fv::image;
///
/// let later = [vec![0xff; 64], volume.clone()].concat();
/// assert!(image::same(&volume, &later, usize::MAX)?.is_same());
/// let found = image::same(&volume, &empty, usize::MAX)?;
/// if let Some(place) = found.first() {
///     println!("source {}, at {}", place.source(), place.offset());
/// }
/// assert!(!found.is_same());
/// # Ok::<(), fv::Error>(())
/// ```
///
/// # Errors
///
/// [`Error::OutOfMemory`]
pub fn same(first: &[u8], second: &[u8], limit: usize) -> Result<Sameness, Error> {
    let (mut found, mut fault) = (sys::fv_sameness::default(), sys::fv_fault::default());
    // SAFETY: the inputs are slices, and the results are variables of this function.
    let result = unsafe {
        sys::fv_image_same(
            address(first),
            first.len(),
            address(second),
            second.len(),
            limit as u64,
            &mut found,
            &mut fault,
        )
    };
    check(result, fault)?;
    Ok(Sameness(found))
}
