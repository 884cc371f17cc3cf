// SPDX-License-Identifier: BSD-2-Clause-Patent
//! Calls about a stream of sections, which is what a compressed or GUID-defined section holds when
//! it is opened: sections one after another, each at a multiple of 4 from the first byte.

use crate::call;
use crate::image::SurveyRow;
use crate::volume::{Node, NodeDigest};
use crate::{Error, Reading};
use libfv_sys as sys;

/// Returns a row for each section of the stream and, in the same way, for what is in groups and
/// volumes among them.
///
/// Each row is followed by the rows of the parts that it holds. The sections of the stream have
/// depth 0 and no parent, because the stream has no row. The bytes at an offset are as stored in the
/// input, also in a nested volume, whereas [`extract`] returns them in canonical form.
///
/// ```
/// // A section of type 0x19 with the bytes 1 and 2, and a group with a section of 3 bytes.
/// let stream = [6, 0, 0, 0x19, 1, 2, 0, 0, 11, 0, 0, 3, 7, 0, 0, 0x19, 4, 5, 6];
/// let tree = fv::sections::tree(&stream)?;
/// assert_eq!(tree.iter().map(|it| it.depth()).collect::<Vec<_>>(), [0, 0, 1]);
/// assert_eq!((tree[1].parent(), tree[1].index(), tree[2].parent()), (None, 1, Some(1)));
/// assert_eq!(stream[tree[2].range()], [4, 5, 6]);
/// # Ok::<(), fv::Error>(())
/// ```
///
/// # Errors
///
/// [`Error::Rejected`] if the bytes are not a stream of sections, or [`Error::OutOfMemory`].
pub fn tree(sections: &[u8]) -> Result<Vec<Node>, Error> {
    tree_with(sections, Reading::AsIs)
}

/// Returns the rows of the stream, as [`tree`] does, read as `reading` says.
///
/// # Errors
///
/// The errors of [`tree`].
pub fn tree_with(sections: &[u8], reading: Reading) -> Result<Vec<Node>, Error> {
    call::rows_with(sys::fv_sections_tree, sections, reading)
}

/// Surveys a stream of sections, such as the contents of a packed section, and returns rows that
/// account for every byte, in preorder. Any bytes are accepted. The rows of depth 0 are sections, the
/// filler between them, and lost bytes. All else is as for [`image::survey`](crate::image::survey).
///
/// ```
/// let rows = fv::sections::survey(&[6, 0, 0, 0x19, 1, 2])?;
/// assert_eq!(rows.iter().map(|it| it.range()).collect::<Vec<_>>(), [0..6, 0..4, 4..6]);
/// # Ok::<(), fv::Error>(())
/// ```
///
/// # Errors
///
/// [`Error::OutOfMemory`]
pub fn survey(sections: &[u8]) -> Result<Vec<SurveyRow>, Error> {
    call::rows(sys::fv_sections_survey, sections)
}

/// Returns the SHA-256 digest for each row of [`tree`], in the same order. The digest of a row
/// covers the bytes that [`extract`] returns for it. A section that holds sections or a volume has
/// no digest.
///
/// # Errors
///
/// [`Error::Rejected`] if the bytes are not a stream of sections, or if a volume in the stream does
/// not fit in the canonical form ([`NoRoom`](crate::FaultKind::NoRoom),
/// [`TopAlignment`](crate::FaultKind::TopAlignment)). [`Error::OutOfMemory`] if memory runs out.
pub fn tree_digests(sections: &[u8]) -> Result<Vec<NodeDigest>, Error> {
    tree_digests_with(sections, Reading::AsIs)
}

/// Returns the SHA-256 digest for each row of [`tree_with`], in the same order, as [`tree_digests`]
/// does.
///
/// # Errors
///
/// The errors of [`tree_digests`].
pub fn tree_digests_with(sections: &[u8], reading: Reading) -> Result<Vec<NodeDigest>, Error> {
    call::rows_with(sys::fv_sections_tree_digests, sections, reading)
}

/// Returns the bytes of a row of [`tree`] in canonical form. `row` is the number of the row, counted
/// from 0.
///
/// For the row of a volume this is its canonical image. For a file these are its data in the
/// canonical image of its volume, and for a section its body: the bytes between sections are 0, and
/// a volume in the part is its own canonical image.
///
/// ```
/// let stream = [6, 0, 0, 0x19, 1, 2, 0, 0, 11, 0, 0, 3, 7, 0, 0, 0x19, 4, 5, 6];
/// assert_eq!(fv::sections::extract(&stream, 1)?, [7, 0, 0, 0x19, 4, 5, 6]);
/// assert_eq!(fv::sections::extract(&stream, 3), Err(fv::Error::NoSuchRow));
/// # Ok::<(), fv::Error>(())
/// ```
///
/// # Errors
///
/// [`Error::NoSuchRow`] if the stream has no row with this number. [`Error::Rejected`] if the bytes
/// are not a stream of sections, or if a volume in the part does not fit in the canonical form. The
/// depth of such a fault counts only groups and opened volumes inside the part.
/// [`Error::OutOfMemory`] if memory runs out.
pub fn extract(sections: &[u8], row: usize) -> Result<Vec<u8>, Error> {
    extract_with(sections, row, Reading::AsIs)
}

/// Returns the bytes of a row of [`tree_with`] in canonical form, as [`extract`] does.
///
/// # Errors
///
/// The errors of [`extract`].
pub fn extract_with(sections: &[u8], row: usize, reading: Reading) -> Result<Vec<u8>, Error> {
    call::part_with(sys::fv_sections_extract, sections, row, reading)
}
