// SPDX-License-Identifier: BSD-2-Clause-Patent
//! An image that is open at every level.

use crate::call::address;
use crate::error::check;
use crate::image::SurveyRow;
use crate::row::{kinds, range, row};
use crate::section::Way;
use crate::{Error, Fault};
use libfv_sys as sys;
use std::fmt;
use std::marker::PhantomData;
use std::ops::Range;
use std::ptr::{null_mut, NonNull};
use std::slice;

kinds! {
    /// Why a packed section is not opened.
    Reason, "reason":
    /// It has a fault.
    Fault = FV_REASON_FAULT,
    /// 8 opened sections are around it.
    Depth = FV_REASON_DEPTH,
    /// Nothing is left of the limit.
    Limit = FV_REASON_LIMIT,
}

row! {
    /// A packed section of an image, at some level: a compression section or a GUID-defined section.
    PackedSection(fv_packed), it {
        /// Returns the number of the source that the section is in.
        source: usize = it.0.source as usize,
        /// Returns the offset of the section in bytes from the first byte of its source.
        offset: usize = it.0.offset as usize,
        /// Returns the number of bytes of the section, with its header.
        length: usize = it.0.length as usize,
        /// Returns the number of opened sections around it: 0 to 8.
        depth: usize = it.0.depth as usize,
        /// Returns the way that gave its contents, if it is opened.
        way: Option<Way> = it.is_open().then(|| Way::of(it.0.way)),
        /// Returns the number of bytes of its contents, if it is opened.
        contents_length: Option<usize> = it.is_open().then_some(it.0.contents_length as usize),
        /// Returns why it is not opened.
        reason: Option<Reason> = (!it.is_open()).then(|| Reason::of(it.0.reason)),
        /// Returns its fault, if this is why it is not opened. The offset of the fault counts from
        /// the first byte of the section.
        fault: Option<Fault> = Fault::of(it.0.fault),
    } and {
        /// Returns the range of the section's bytes in its source.
        range: Range<usize> = range(it.0.offset, it.0.length),
        /// Returns whether the section is opened.
        is_open: bool = it.0.reason == 0,
    }
}

/// A source of an image: the image itself, or the contents of a packed section.
#[derive(Clone, Copy, Debug, PartialEq, Eq)]
pub struct Source<'i> {
    /// The number of the source. The image is source 0.
    pub number: usize,
    /// The number of opened sections around the bytes: 0 for the image, otherwise 1 to 8.
    pub depth: usize,
    /// The bytes.
    pub bytes: &'i [u8],
    /// The section that the bytes are the contents of, which is in an earlier source. `None` for the
    /// image.
    pub packed: Option<&'i PackedSection>,
    /// The rows of the survey of the bytes, in preorder.
    pub rows: &'i [SurveyRow],
}

/// An image that is open at every level. [`open`] returns it.
pub struct Image<'a> {
    handle: NonNull<sys::fv_image>,
    image: PhantomData<&'a [u8]>,
}

// SAFETY: the handle never changes, and any number of threads may use it at once.
unsafe impl Send for Image<'_> {}
// SAFETY: as for `Send`.
unsafe impl Sync for Image<'_> {}

/// Returns the elements that a call lends. There are none if the address is NULL.
///
/// # Safety
///
/// If the address is not NULL, this many elements are there, and do not change, as long as the
/// slice is used. They must be valid values of `T`.
unsafe fn lent<'i, T>(address: *const T, count: usize) -> &'i [T] {
    if address.is_null() {
        return &[];
    }
    // SAFETY: by the contract of this function.
    unsafe { slice::from_raw_parts(address, count) }
}

impl Image<'_> {
    /// Returns the rows of all packed sections: first those that are opened, then the others.
    fn sections(&self) -> &[PackedSection] {
        let mut count = 0;
        // SAFETY: the handle is open, and lends this many rows until it is closed. A row has the
        // layout of its structure.
        unsafe { lent(sys::fv_image_packed(self.handle.as_ptr(), &mut count).cast(), count) }
    }

    /// Returns the number of the sources: at least 1.
    pub fn count(&self) -> usize {
        // SAFETY: the handle is open.
        unsafe { sys::fv_image_source_count(self.handle.as_ptr()) }
    }

    /// Returns the source with this number, if there is one.
    pub fn source(&self, number: usize) -> Option<Source<'_>> {
        if number >= self.count() {
            return None;
        }
        let (handle, mut size, mut count) = (self.handle.as_ptr(), 0, 0);
        // SAFETY: the handle is open, and lends this many bytes and rows until it is closed. Source
        // 0 is the slice that was opened. A row has the layout of its structure.
        let (bytes, rows) = unsafe {
            let bytes = sys::fv_image_source_bytes(handle, number, &mut size);
            let rows = sys::fv_image_source_rows(handle, number, &mut count);
            (lent(bytes.cast(), size), lent(rows.cast(), count))
        };
        let packed = number.checked_sub(1).map(|it| &self.sections()[it]);
        let depth = packed.map_or(0, |it| it.depth() + 1);
        Some(Source {
            number,
            depth,
            bytes,
            packed,
            rows,
        })
    }

    /// Returns the sources: first the image, then the contents of each packed section that is
    /// opened. A section is in an earlier source than its contents are.
    pub fn sources(&self) -> impl Iterator<Item = Source<'_>> {
        (0..self.count()).filter_map(|it| self.source(it))
    }

    /// Returns the packed sections that are not opened, in the order of their sources and of the
    /// rows of these.
    pub fn closed(&self) -> &[PackedSection] {
        &self.sections()[self.count() - 1..]
    }
}

impl fmt::Debug for Image<'_> {
    fn fmt(&self, f: &mut fmt::Formatter<'_>) -> fmt::Result {
        let sources: Vec<_> = self.sources().collect();
        f.debug_struct("Image")
            .field("sources", &sources)
            .field("closed", &self.closed())
            .finish()
    }
}

impl Drop for Image<'_> {
    fn drop(&mut self) {
        // SAFETY: the handle is open, and nothing that it has lent is used any more.
        unsafe { sys::fv_image_close(self.handle.as_ptr()) }
    }
}

/// Opens an image at every level: the packed sections in it, the packed sections in their contents,
/// and so on. Any bytes are accepted. The contents of all sections together have at most `limit`
/// bytes, and at most 1,073,741,824; a section counts for at least 65,536 bytes. A section is not
/// opened either if 8 opened sections are around it, or if it has a fault.
///
/// ```
/// // A compression section of CompressionType 0, which contains a section.
/// let inner = [6, 0, 0, 0x19, 1, 2];
/// let section = [vec![15, 0, 0, 1, 6, 0, 0, 0, 0], inner.to_vec()].concat();
/// let opened = fv::image::open(&section, usize::MAX)?;
/// // It is not in a volume, so the survey of the image has no row for it.
/// assert_eq!((opened.count(), opened.closed().len()), (1, 0));
/// for source in opened.sources() {
///     println!("{} rows at depth {}", source.rows.len(), source.depth);
/// }
/// # Ok::<(), fv::Error>(())
/// ```
///
/// # Errors
///
/// [`Error::OutOfMemory`]
pub fn open(image: &[u8], limit: usize) -> Result<Image<'_>, Error> {
    let (mut handle, mut fault) = (null_mut(), sys::fv_fault::default());
    // SAFETY: the image is a slice, which is borrowed as long as the handle is open. The results are
    // variables of this function.
    let result = unsafe { sys::fv_image_open(address(image), image.len(), limit as u64, &mut handle, &mut fault) };
    check(result, fault)?;
    let handle = NonNull::new(handle).ok_or(Error::OutOfMemory)?;
    Ok(Image {
        handle,
        image: PhantomData,
    })
}
