// SPDX-License-Identifier: BSD-2-Clause-Patent
//! Flash images: any bytes, in which volumes may lie.

use crate::call;
use crate::header::Header;
use crate::row::{guid_or_none, narrow, range, row};
use crate::{Error, Fault, FaultKind, Guid};
use libfv_sys as sys;
use std::ops::Range;

pub use crate::levels::{open, Image, PackedSection, Reason, Source};
pub use crate::same::{same, PartPlace, Sameness};

row! {
    /// A volume of an image, and the result of its check. [`check`] returns these rows.
    VolumeCheck(fv_volume_check), it {
        /// Returns the offset of the volume in bytes from the first byte of the image.
        offset: usize = it.0.offset as usize,
        /// Returns the number of bytes of the volume, `FvLength`.
        length: usize = it.0.length as usize,
        /// Returns the fault with which the volume is rejected, with its offset in the image.
        /// Returns `None` if the volume is accepted.
        fault: Option<Fault> = Fault::of(it.0.fault),
        /// Returns whether the volume is accepted and is its own canonical image.
        is_canonical: bool = it.0.canonical == 1,
    } and {
        /// Returns the range of the volume's bytes in the image.
        range: Range<usize> = range(it.0.offset, it.0.length),
    }
}

/// Defines [`RowKind`], with the number of `fv.h` for each variant.
macro_rules! row_kinds {
    ($($(#[$attribute:meta])* $name:ident = $number:ident,)*) => {
        /// What a row of a survey is about. Rows of the first four kinds contain other rows. All
        /// others are leaf rows.
        #[derive(Clone, Copy, Debug, PartialEq, Eq, Hash)]
        #[non_exhaustive]
        pub enum RowKind {
            $($(#[$attribute])* $name,)*
            /// A kind with this number, for which this version of the crate has no variant.
            Other(u32),
        }

        impl RowKind {
            /// Returns the kind with this number.
            fn of(number: u32) -> RowKind {
                match number {
                    $(sys::$number => RowKind::$name,)*
                    _ => RowKind::Other(number),
                }
            }
        }
    };
}

row_kinds! {
    /// A volume.
    Volume = FV_ROW_VOLUME,
    /// A file, a pad or a deleted file, with the filler after it.
    File = FV_ROW_FILE,
    /// A section.
    Section = FV_ROW_SECTION,
    /// Bytes that should be a part of a volume and cannot be read as one, with the volumes that are
    /// found among them.
    Lost = FV_ROW_LOST,
    /// The header of a volume, with its block map.
    VolumeHeader = FV_ROW_VOLUME_HEADER,
    /// The extended header of a volume.
    ExtHeader = FV_ROW_EXT_HEADER,
    /// The header of a file.
    FileHeader = FV_ROW_FILE_HEADER,
    /// The header of a section.
    SectionHeader = FV_ROW_SECTION_HEADER,
    /// Data of a file that are not read as sections.
    Data = FV_ROW_DATA,
    /// The body of a section that is not opened.
    Body = FV_ROW_BODY,
    /// The body of a compression or GUID-defined section, which a survey does not open.
    Packed = FV_ROW_PACKED,
    /// The erased bytes of a pad.
    Pad = FV_ROW_PAD,
    /// The bytes of a pad that is not erased.
    PadData = FV_ROW_PAD_DATA,
    /// The data of a file that was deleted or never finished.
    Dead = FV_ROW_DEAD,
    /// A header that was never finished.
    Stub = FV_ROW_STUB,
    /// Erased bytes where a file would begin.
    Free = FV_ROW_FREE,
    /// Bytes between two parts that no part includes.
    Filler = FV_ROW_FILLER,
    /// Bytes between the header of a volume and its extended header.
    Between = FV_ROW_BETWEEN,
    /// Bytes outside of volumes.
    Gap = FV_ROW_GAP,
    /// The contents of a volume with a file system that holds no files, such as a variable store.
    Store = FV_ROW_STORE,
    /// Bytes that should be a part of a volume and cannot be read.
    Unread = FV_ROW_UNREAD,
}

impl RowKind {
    /// Returns whether rows of this kind contain no other rows.
    pub fn is_leaf(self) -> bool {
        !matches!(self, RowKind::Volume | RowKind::File | RowKind::Section | RowKind::Lost)
    }
}

/// Returns the kinds of the faults whose bits are set.
fn kinds_in(findings: u32) -> Vec<FaultKind> {
    (0..u32::BITS)
        .filter(|it| (findings >> it) & 1 == 1)
        .map(FaultKind::of)
        .collect()
}

row! {
    /// A row of a survey. [`survey`] returns these rows.
    SurveyRow(fv_survey_row), it {
        /// Returns the offset in bytes from the first byte of the image.
        offset: usize = it.0.offset as usize,
        /// Returns the number of bytes.
        length: usize = it.0.length as usize,
        /// Returns what the row is about.
        kind: RowKind = RowKind::of(it.0.kind),
        /// Returns the number of rows around this one.
        depth: usize = it.0.depth as usize,
        /// Returns `Type` of a file or a section, and `None` for any other row. [`file_type`] and
        /// [`section_type`] have names for it.
        ///
        /// [`file_type`]: crate::file_type
        /// [`section_type`]: crate::section_type
        efi_type: Option<u8> = matches!(it.kind(), RowKind::File | RowKind::Section)
            .then(|| narrow(it.0.efi_type, "Type")),
        /// Returns whether the row is a volume that was found by its signature, as each volume of
        /// depth 0 is.
        is_found: bool = it.0.found == 1,
        /// Returns the rules that the bytes break, each by the kind of its fault, in the order of
        /// their numbers.
        findings: Vec<FaultKind> = kinds_in(it.0.findings),
        /// Returns `Name` of a file, or the GUID of the file system of a volume. Returns `None` for
        /// any other row, and for a name of zeros.
        name: Option<Guid> = guid_or_none(it.0.name),
    } and {
        /// Returns the range of the row's bytes in the image.
        range: Range<usize> = range(it.0.offset, it.0.length),
        /// Returns whether the row contains no other rows. Every byte of the image is in exactly
        /// one leaf row.
        is_leaf: bool = it.kind().is_leaf(),
    }
}

/// Surveys an image, and returns rows that account for every byte, in preorder: each row is followed
/// by the rows in it, which are one deeper. No image is rejected. Damaged volumes are read as far as
/// they can be read, and a row has a finding for each rule that its bytes break. Packed sections are
/// not opened. There are at most two rows for each byte.
///
/// ```
/// # let (volume, empty) = include!(concat!(env!("CARGO_MANIFEST_DIR"), "/tests/sample/volumes.rs"));
/// let mut image = [vec![0xff; 8], empty].concat();
/// image[8 + 50] ^= 1; // a byte of the checksum in the volume's header
/// let rows = fv::image::survey(&image)?;
/// for row in &rows {
///     println!("{:indent$}{:?} {:?}", "", row.kind(), row.range(), indent = row.depth());
/// }
/// assert_eq!(rows[1].findings(), [fv::FaultKind::HeaderSum]);
/// let leaves = rows.iter().filter(|it| it.is_leaf());
/// assert_eq!(leaves.map(|it| it.length()).sum::<usize>(), image.len());
/// # Ok::<(), fv::Error>(())
/// ```
///
/// # Errors
///
/// [`Error::OutOfMemory`]
pub fn survey(image: &[u8]) -> Result<Vec<SurveyRow>, Error> {
    call::rows(sys::fv_image_survey, image)
}

/// Finds the volumes in an image, and returns their headers in the order of their offsets.
///
/// ```
/// # let (volume, empty) = include!(concat!(env!("CARGO_MANIFEST_DIR"), "/tests/sample/volumes.rs"));
/// let image = [vec![0xff; 64], volume.clone(), volume].concat();
/// let headers = fv::image::scan(&image)?;
/// for header in &headers {
///     let volume = &image[header.range()];
///     println!("{}: {} rows", header.offset(), fv::volume::tree(volume)?.len());
/// }
/// assert_eq!(headers.iter().map(|it| it.offset()).collect::<Vec<_>>(), [64, 192]);
/// # Ok::<(), fv::Error>(())
/// ```
///
/// # Errors
///
/// [`Error::OutOfMemory`]
pub fn scan(image: &[u8]) -> Result<Vec<Header>, Error> {
    call::rows(sys::fv_image_scan, image)
}

/// Checks each volume that [`scan`] finds in an image, and returns the results in the same order. A
/// rejected volume does not stop the check of the others.
///
/// ```
/// # let (volume, empty) = include!(concat!(env!("CARGO_MANIFEST_DIR"), "/tests/sample/volumes.rs"));
/// let mut image = empty.repeat(2);
/// image[128 + 72] = 0; // a byte of the second volume that should be erased
/// let checks = fv::image::check(&image)?;
/// for check in &checks {
///     match check.fault() {
///         Some(fault) => println!("{}: {fault}", check.offset()),
///         None => println!("{}: canonical: {}", check.offset(), check.is_canonical()),
///     }
/// }
/// assert!(checks[0].is_canonical());
/// assert_eq!(checks[1].fault().unwrap().offset(), 128 + 72);
/// # Ok::<(), fv::Error>(())
/// ```
///
/// # Errors
///
/// [`Error::Rejected`] with [`Length`](crate::FaultKind::Length) if the image has more than
/// 268,435,456 bytes, or [`Error::OutOfMemory`].
pub fn check(image: &[u8]) -> Result<Vec<VolumeCheck>, Error> {
    call::rows(sys::fv_image_check, image)
}

/// Returns the image with each volume that [`scan`] finds in it replaced by its canonical image.
/// All other bytes are kept.
///
/// ```
/// # let (volume, empty) = include!(concat!(env!("CARGO_MANIFEST_DIR"), "/tests/sample/volumes.rs"));
/// let image = [&[1, 2, 3, 4, 5, 6, 7, 8], &volume[..]].concat();
/// let rebuilt = fv::image::normalise(&image)?;
/// assert_eq!(rebuilt[..8], image[..8]);
/// assert_eq!(rebuilt[8..], fv::volume::normalise(&volume)?);
/// # Ok::<(), fv::Error>(())
/// ```
///
/// # Errors
///
/// [`Error::Rejected`] with the fault of the first volume that has no canonical image, or with
/// [`Length`](crate::FaultKind::Length) if the image has more than 268,435,456 bytes. The offset of
/// the fault is its offset in the image. [`Error::OutOfMemory`] if memory runs out.
pub fn normalise(image: &[u8]) -> Result<Vec<u8>, Error> {
    call::image(sys::fv_image_normalise, image)
}
