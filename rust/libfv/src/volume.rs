// SPDX-License-Identifier: BSD-2-Clause-Patent
//! Volumes: bytes that are exactly one firmware volume.
//!
//! The *meaning* of a volume is the content of its header, files and sections, wherever they are
//! stored, and whatever pads, fillers and deleted files hold. Its *canonical image* is the one
//! image that all volumes of this meaning share.
//!
//! Only [`cells`] accepts bytes after the volume. All other functions reject them with
//! [`FaultKind::Length`](crate::FaultKind::Length).

use crate::call::{self, address};
use crate::error::check;
use crate::row::{guid_or_none, kinds, narrow, range, row};
use crate::{Error, Guid, Reading};
use libfv_sys as sys;
use std::fmt;
use std::ops::Range;

kinds! {
    /// The kind of a [`Cell`].
    CellKind, "kind of cell":
    /// A valid file, even if it is superseded.
    File = FV_CELL_FILE,
    /// A pad file.
    Pad = FV_CELL_PAD,
    /// A deleted file.
    Deleted = FV_CELL_DELETED,
    /// A file whose data or header were never finished.
    Unfinished = FV_CELL_UNFINISHED,
    /// Erased bytes up to the end of the volume.
    Free = FV_CELL_FREE,
}

row! {
    /// A cell of a volume's body, as stored: a file, a pad, a deleted file or free bytes. [`cells`]
    /// returns these rows.
    Cell(fv_cell), it {
        /// Returns the offset in bytes from the volume's first byte.
        offset: usize = it.0.offset as usize,
        /// Returns the number of bytes. It includes the filler after a deleted or unfinished file,
        /// but not the filler after a valid file or a pad.
        length: usize = it.0.length as usize,
        /// Returns the kind of the cell.
        kind: CellKind = CellKind::of(it.0.kind),
        /// Returns the number of bytes of the header of a valid file or a pad, whose data follow
        /// the header. Returns `None` for other cells.
        header_length: Option<usize> = it.has_header().then_some(it.0.header_length as usize),
        /// Returns `Type` of a valid file or a pad, and `None` for other cells. [`file_type`] has
        /// names for it.
        ///
        /// [`file_type`]: crate::file_type
        efi_type: Option<u8> = it.has_header().then(|| narrow(it.0.efi_type, "Type")),
        /// Returns `Attributes` of a valid file or a pad, and `None` for other cells.
        attributes: Option<u32> = it.has_header().then_some(it.0.attributes),
        /// Returns `Name` of a valid file or a pad, and `None` for other cells.
        name: Option<Guid> = it.has_header().then_some(Guid::from_bytes_le(it.0.name.bytes)),
    } and {
        /// Returns the range of the cell's bytes in the input.
        range: Range<usize> = range(it.0.offset, it.0.length),
    }
}

impl Cell {
    /// Returns whether the cell has the fields of a header.
    fn has_header(&self) -> bool {
        matches!(self.kind(), CellKind::File | CellKind::Pad)
    }
}

kinds! {
    /// The kind of a [`Node`].
    NodeKind, "kind of node":
    /// A volume.
    Volume = FV_NODE_VOLUME,
    /// A file.
    File = FV_NODE_FILE,
    /// A section.
    Section = FV_NODE_SECTION,
}

kinds! {
    /// The kind of contents of a [`Node`].
    Content, "content":
    /// Files: the node is a volume.
    Files = FV_CONTENT_FILES,
    /// Bytes.
    Bytes = FV_CONTENT_BYTES,
    /// Sections: the node is a group, or a file whose data are sections. There may be none.
    Sections = FV_CONTENT_SECTIONS,
    /// A volume: the node is a section.
    Volume = FV_CONTENT_VOLUME,
}

row! {
    /// A volume, a file or a section of the tree of a volume. [`tree`] returns these rows.
    Node(fv_node), it {
        /// Returns the offset in the input of the volume, of the file's data or of the section's
        /// body, as stored.
        offset: usize = it.0.offset as usize,
        /// Returns the number of these bytes; for a volume `FvLength`.
        length: usize = it.0.length as usize,
        /// Returns the number of the row that holds this one, counted from 0. Returns `None` for
        /// the first row.
        parent: Option<usize> = (it.0.parent != sys::FV_NO_PARENT).then_some(it.0.parent as usize),
        /// Returns the number of this part among the parts that its parent holds, counted from 0.
        index: usize = it.0.index as usize,
        /// Returns the number of rows around this one.
        depth: usize = it.0.depth as usize,
        /// Returns the kind of the node.
        kind: NodeKind = NodeKind::of(it.0.kind),
        /// Returns the kind of the node's contents.
        content: Content = Content::of(it.0.content),
        /// Returns `Type` of a file or a section, and `None` for a volume. [`file_type`] and
        /// [`section_type`] have names for it.
        ///
        /// [`file_type`]: crate::file_type
        /// [`section_type`]: crate::section_type
        efi_type: Option<u8> = (it.kind() != NodeKind::Volume).then(|| narrow(it.0.efi_type, "Type")),
        /// Returns `Attributes` of a volume, or `Attributes` of a file without bit 0x01. The
        /// [`header_length`](Node::header_length) of a file with this bit is 32. Returns `None` for
        /// a section.
        attributes: Option<u32> = (it.kind() != NodeKind::Section).then_some(it.0.attributes),
        /// Returns the number of bytes of the header: `HeaderLength` of a volume, 24 or 32 for a
        /// file, 4 or 8 for a section. The header of a file or a section precedes its offset.
        header_length: usize = it.0.header_length as usize,
        /// Returns `Name` of a file, or `FvName` of a volume. Returns `None` for a section, and for
        /// a volume that has no extended header or whose `FvName` is 16 zeros.
        guid: Option<Guid> = match it.kind() {
            NodeKind::Volume => guid_or_none(it.0.guid),
            NodeKind::File => Some(Guid::from_bytes_le(it.0.guid.bytes)),
            NodeKind::Section => None,
        },
        /// Returns the version of a volume's file system: 2 for FFS2, 3 for FFS3. Returns `None`
        /// for files and sections.
        file_system: Option<u32> = (it.kind() == NodeKind::Volume).then_some(it.0.file_system),
    } and {
        /// Returns the range of these bytes in the input.
        range: Range<usize> = range(it.0.offset, it.0.length),
    }
}

/// A SHA-256 digest. It is displayed as 64 hexadecimal digits.
#[derive(Clone, Copy, PartialEq, Eq, PartialOrd, Ord, Hash)]
pub struct Digest([u8; 32]);

impl Digest {
    /// Returns the bytes of the digest.
    pub const fn to_bytes(self) -> [u8; 32] {
        self.0
    }
}

impl AsRef<[u8]> for Digest {
    fn as_ref(&self) -> &[u8] {
        &self.0
    }
}

impl From<Digest> for [u8; 32] {
    fn from(digest: Digest) -> [u8; 32] {
        digest.0
    }
}

impl fmt::Display for Digest {
    fn fmt(&self, f: &mut fmt::Formatter<'_>) -> fmt::Result {
        self.0.iter().try_for_each(|byte| write!(f, "{byte:02x}"))
    }
}

impl fmt::Debug for Digest {
    fn fmt(&self, f: &mut fmt::Formatter<'_>) -> fmt::Result {
        write!(f, "Digest({self})")
    }
}

row! {
    /// The digest of a row of the tree. [`tree_digests`] returns these rows.
    NodeDigest(fv_sha256), it {
        /// Returns the digest, and `None` for a section that holds sections or a volume.
        digest: Option<Digest> = (it.0.bytes != [0; 32]).then_some(Digest(it.0.bytes)),
    }
}

/// Returns whether the volume is its own canonical image. A volume that has no canonical image,
/// because its files do not fit, is not.
///
/// ```
/// # let (volume, empty) = include!(concat!(env!("CARGO_MANIFEST_DIR"), "/tests/sample/volumes.rs"));
/// assert!(fv::volume::is_canonical(&empty)?);
/// # Ok::<(), fv::Error>(())
/// ```
///
/// # Errors
///
/// [`Error::Rejected`] if the bytes are not a volume, or [`Error::OutOfMemory`].
pub fn is_canonical(volume: &[u8]) -> Result<bool, Error> {
    call::value(sys::fv_volume_is_canonical, volume).map(|canonical| canonical == 1)
}

/// Returns the canonical image of the volume, which is as long as the volume.
///
/// The image is for comparing and archiving, and must not be flashed.
///
/// ```
/// # let (volume, empty) = include!(concat!(env!("CARGO_MANIFEST_DIR"), "/tests/sample/volumes.rs"));
/// let image = fv::volume::normalise(&volume)?;
/// assert!(fv::volume::is_canonical(&image)?);
/// assert_eq!(fv::volume::compare(&volume, &image)?, None);
/// # Ok::<(), fv::Error>(())
/// ```
///
/// # Errors
///
/// [`Error::Rejected`] if the bytes are not a volume, or if its files do not fit in the canonical
/// form ([`NoRoom`](crate::FaultKind::NoRoom), [`TopAlignment`](crate::FaultKind::TopAlignment)).
/// [`Error::OutOfMemory`] if memory runs out.
pub fn normalise(volume: &[u8]) -> Result<Vec<u8>, Error> {
    call::image(sys::fv_volume_normalise, volume)
}

/// Returns a copy of the volume in which no file is marked as fixed.
///
/// In the header of each fixed file, bit 0x04 of the attributes is cleared, and 4 is added to the
/// header checksum (modulo 256). All other bytes are as in the input, so the files of nested
/// volumes keep their marks. The functions that read the files of a volume reject a volume with
/// fixed files, but accept the copy. ([`Reading::WithoutMarks`] also takes away the marks in nested
/// volumes.) The copy must not be flashed.
///
/// ```
/// # let (mut volume, _) = include!(concat!(env!("CARGO_MANIFEST_DIR"), "/tests/sample/volumes.rs"));
/// // The header of the file at 72: its attributes are at 19, and its header checksum is at 16.
/// volume[72 + 19] |= 4;
/// volume[72 + 16] = volume[72 + 16].wrapping_sub(4);
/// let error = fv::volume::tree(&volume).unwrap_err();
/// assert_eq!(error.fault().unwrap().kind(), fv::FaultKind::Fixed);
/// let copy = fv::volume::unfix(&volume)?;
/// assert_eq!(fv::volume::tree(&copy)?.len(), 4);
/// # Ok::<(), fv::Error>(())
/// ```
///
/// # Errors
///
/// [`Error::Rejected`] with the first fault of the header or of the cells, which is never
/// [`Fixed`](crate::FaultKind::Fixed), or [`Error::OutOfMemory`].
pub fn unfix(volume: &[u8]) -> Result<Vec<u8>, Error> {
    call::image(sys::fv_volume_unfix, volume)
}

/// Returns the SHA-256 digest of the canonical image of the volume. Two volumes with the same
/// meaning have the same digest.
///
/// ```
/// # let (volume, empty) = include!(concat!(env!("CARGO_MANIFEST_DIR"), "/tests/sample/volumes.rs"));
/// let image = fv::volume::normalise(&volume)?;
/// assert_eq!(fv::volume::digest(&volume)?, fv::volume::digest(&image)?);
/// # Ok::<(), fv::Error>(())
/// ```
///
/// # Errors
///
/// The errors of [`normalise`].
pub fn digest(volume: &[u8]) -> Result<Digest, Error> {
    call::value(sys::fv_volume_digest, volume).map(|found| Digest(found.bytes))
}

/// Compares the meanings of two volumes. Returns `None` if they are the same. Otherwise returns a
/// text that begins with `different at`, and names the steps down to the first difference and its
/// kind.
///
/// ```
/// # let (volume, empty) = include!(concat!(env!("CARGO_MANIFEST_DIR"), "/tests/sample/volumes.rs"));
/// let difference = fv::volume::compare(&volume, &empty)?;
/// assert_eq!(difference.as_deref(), Some("different at file count"));
/// let error = fv::volume::compare(&volume, b"not a volume").unwrap_err();
/// assert_eq!(error.fault().unwrap().input(), 1);
/// # Ok::<(), fv::Error>(())
/// ```
///
/// # Errors
///
/// [`Error::Rejected`] if one of the inputs is not a volume. [`Fault::input`](crate::Fault::input)
/// says which. The second input is read only if the first is a volume. [`Error::OutOfMemory`] if
/// memory runs out.
pub fn compare(first: &[u8], second: &[u8]) -> Result<Option<String>, Error> {
    let mut text = [0; sys::FV_DIFFERENCE_SIZE as usize];
    let (mut fault, mut found) = (sys::fv_fault::default(), sys::fv_comparison::default());
    // SAFETY: the inputs are slices, and the results are variables of this function.
    let result = unsafe {
        sys::fv_volume_compare(
            address(first),
            first.len(),
            address(second),
            second.len(),
            text.as_mut_ptr().cast(),
            text.len(),
            &mut found,
            &mut fault,
        )
    };
    check(result, fault)?;
    let text: &[u8] = &text[..found.text_length as usize];
    Ok((found.same != 1).then(|| String::from_utf8_lossy(text).into_owned()))
}

/// Returns the cells of the volume with which the bytes begin, in order: its files, pads, deleted
/// files and free bytes.
///
/// Duplicate names, the volume top file and sections are not checked. Bytes after the volume are
/// not read.
///
/// ```
/// # let (volume, empty) = include!(concat!(env!("CARGO_MANIFEST_DIR"), "/tests/sample/volumes.rs"));
/// use fv::volume::CellKind;
///
/// let cells = fv::volume::cells(&volume)?;
/// let kinds: Vec<_> = cells.iter().map(|it| (it.kind(), it.offset())).collect();
/// assert_eq!(kinds, [(CellKind::File, 72), (CellKind::Free, 112)]);
/// # Ok::<(), fv::Error>(())
/// ```
///
/// # Errors
///
/// [`Error::Rejected`] with the first fault of the header or of the cells, or
/// [`Error::OutOfMemory`].
pub fn cells(bytes: &[u8]) -> Result<Vec<Cell>, Error> {
    call::rows(sys::fv_volume_cells, bytes)
}

/// Returns the tree of the volume: a row for the volume, for each file and each section, and in the
/// same way for each volume that a section holds.
///
/// Each row is followed by the rows of the parts that it holds. The first row is the volume itself.
/// Pads are not listed, nor is a file that is marked for update if its update is in the volume. The
/// bytes at an offset are as stored in the input, also in a nested volume, whereas [`extract`]
/// returns them as the canonical image has them.
///
/// ```
/// # let (volume, empty) = include!(concat!(env!("CARGO_MANIFEST_DIR"), "/tests/sample/volumes.rs"));
/// use fv::volume::NodeKind;
///
/// let tree = fv::volume::tree(&volume)?;
/// for node in &tree {
///     let bytes = &volume[node.range()];
///     println!("{:indent$}{:?}: {} bytes", "", node.kind(), bytes.len(), indent = node.depth());
/// }
/// let last = tree.last().unwrap();
/// assert_eq!((last.kind(), last.parent(), last.index()), (NodeKind::Section, Some(1), 1));
/// assert_eq!(volume[last.range()], [1, 2]);
/// # Ok::<(), fv::Error>(())
/// ```
///
/// # Errors
///
/// [`Error::Rejected`] if the bytes are not a volume, or [`Error::OutOfMemory`].
pub fn tree(volume: &[u8]) -> Result<Vec<Node>, Error> {
    tree_with(volume, Reading::AsIs)
}

/// Returns the tree of the volume, as [`tree`] does, read as `reading` says.
///
/// ```
/// # let (mut volume, _) = include!(concat!(env!("CARGO_MANIFEST_DIR"), "/tests/sample/volumes.rs"));
/// use fv::Reading;
/// // The header of the file at 72: its attributes are at 19, and its header checksum is at 16.
/// volume[72 + 19] |= 4;
/// volume[72 + 16] = volume[72 + 16].wrapping_sub(4);
/// let error = fv::volume::tree(&volume).unwrap_err();
/// assert_eq!(error.fault().unwrap().kind(), fv::FaultKind::Fixed);
/// assert_eq!(fv::volume::tree_with(&volume, Reading::WithoutMarks)?.len(), 4);
/// # Ok::<(), fv::Error>(())
/// ```
///
/// # Errors
///
/// The errors of [`tree`].
pub fn tree_with(volume: &[u8], reading: Reading) -> Result<Vec<Node>, Error> {
    call::rows_with(sys::fv_volume_tree_with, volume, reading)
}

/// Returns the SHA-256 digest for each row of [`tree`], in the same order.
///
/// A volume's digest covers its canonical image, a file's digest its data in that image, and the
/// digest of a section that holds bytes its body. A section that holds sections or a volume has no
/// digest. So the digest of a row covers the bytes that [`extract`] returns for it.
///
/// ```
/// # let (volume, empty) = include!(concat!(env!("CARGO_MANIFEST_DIR"), "/tests/sample/volumes.rs"));
/// let digests = fv::volume::tree_digests(&volume)?;
/// for (node, row) in fv::volume::tree(&volume)?.iter().zip(&digests) {
///     if let Some(digest) = row.digest() {
///         println!("{digest} {:?} at {}", node.kind(), node.offset());
///     }
/// }
/// assert_eq!(digests[0].digest(), Some(fv::volume::digest(&volume)?));
/// # Ok::<(), fv::Error>(())
/// ```
///
/// # Errors
///
/// The errors of [`normalise`].
pub fn tree_digests(volume: &[u8]) -> Result<Vec<NodeDigest>, Error> {
    tree_digests_with(volume, Reading::AsIs)
}

/// Returns the SHA-256 digest for each row of [`tree_with`], in the same order, as [`tree_digests`]
/// does.
///
/// # Errors
///
/// The errors of [`normalise`].
pub fn tree_digests_with(volume: &[u8], reading: Reading) -> Result<Vec<NodeDigest>, Error> {
    call::rows_with(sys::fv_volume_tree_digests_with, volume, reading)
}

/// Returns the bytes of a row of [`tree`] as the canonical image has them. `row` is the number of
/// the row, counted from 0.
///
/// For the first row this is the canonical image of the volume, and for the row of a nested volume the
/// canonical image of that volume. For a file these are its data, and for a section its body: the
/// bytes between sections are 0, and a volume in the part is its own canonical image. Plain data
/// and the body of a section that holds bytes are as they are in the input.
///
/// ```
/// # let (volume, empty) = include!(concat!(env!("CARGO_MANIFEST_DIR"), "/tests/sample/volumes.rs"));
/// assert_eq!(fv::volume::extract(&volume, 0)?, fv::volume::normalise(&volume)?);
/// assert_eq!(fv::volume::extract(&volume, 3)?, [1, 2]);
/// assert_eq!(fv::volume::extract(&volume, 4), Err(fv::Error::NoSuchRow));
/// # Ok::<(), fv::Error>(())
/// ```
///
/// # Errors
///
/// [`Error::NoSuchRow`] if the tree has no row with this number. [`Error::Rejected`] if the bytes
/// are not a volume, or if a volume in the part does not fit in the canonical form
/// ([`NoRoom`](crate::FaultKind::NoRoom), [`TopAlignment`](crate::FaultKind::TopAlignment)). The
/// depth of such a fault counts only groups and opened volumes inside the part.
/// [`Error::OutOfMemory`] if memory runs out.
pub fn extract(volume: &[u8], row: usize) -> Result<Vec<u8>, Error> {
    extract_with(volume, row, Reading::AsIs)
}

/// Returns the bytes of a row of [`tree_with`], as [`extract`] does.
///
/// # Errors
///
/// The errors of [`extract`].
pub fn extract_with(volume: &[u8], row: usize, reading: Reading) -> Result<Vec<u8>, Error> {
    call::part_with(sys::fv_volume_extract_with, volume, row, reading)
}

#[cfg(test)]
mod tests {
    use super::*;

    fn cell(kind: u32) -> Cell {
        Cell(sys::fv_cell {
            kind,
            efi_type: 7,
            header_length: 24,
            ..Default::default()
        })
    }

    fn node(kind: u32, content: u32) -> Node {
        Node(sys::fv_node {
            kind,
            content,
            parent: sys::FV_NO_PARENT,
            file_system: 3,
            ..Default::default()
        })
    }

    #[test]
    fn rows_are_equal_if_their_getters_are() {
        let (first, mut second) = (cell(1), cell(1));
        second.0.reserved = 1;
        assert_eq!(first, second);
        second.0.length = 1;
        assert_ne!(first, second);
        let text = format!("{first:?}");
        assert!(text.starts_with("Cell { offset: 0, length: 0, kind: File, "), "{text}");
    }

    #[test]
    fn values_that_are_not_in_the_header_panic() {
        use std::panic::catch_unwind;
        assert!(catch_unwind(|| cell(0).kind()).is_err());
        assert!(catch_unwind(|| cell(6).kind()).is_err());
        assert!(catch_unwind(|| node(0, 0).kind()).is_err());
        assert!(catch_unwind(|| node(4, 0).kind()).is_err());
        assert!(catch_unwind(|| node(1, 4).content()).is_err());
    }

    #[test]
    fn values_can_be_sent() {
        fn is_sent<T: Send + Sync + Unpin + 'static>() {}
        is_sent::<Cell>();
        is_sent::<Node>();
        is_sent::<NodeDigest>();
        is_sent::<Digest>();
        is_sent::<crate::header::Header>();
        is_sent::<crate::image::VolumeCheck>();
        is_sent::<crate::hobs::HobList>();
        is_sent::<Guid>();
        fn is_error<T: std::error::Error + Send + Sync + 'static>() {}
        is_error::<Error>();
        is_error::<crate::Fault>();
    }
}
