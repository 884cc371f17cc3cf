// SPDX-License-Identifier: BSD-2-Clause-Patent
//! Why a call returned no result.

use crate::row::row;
use libfv_sys as sys;
use std::error;
use std::ffi::CStr;
use std::fmt;

/// Defines [`FaultKind`], with the result of `fv.h` for each variant.
macro_rules! fault_kinds {
    ($($(#[$attribute:meta])* $name:ident = $result:ident,)*) => {
        /// The reason why an input is rejected. `docs/FAULTS.md` in the repository explains every
        /// kind.
        ///
        /// Kinds of volumes and images have no prefix. The kinds that begin with `Depex` belong to
        /// dependency expressions, the kinds that begin with `Hob` to hand-off lists, and the kinds
        /// that begin with `Open` to sections that are opened.
        #[derive(Clone, Copy, Debug, PartialEq, Eq, Hash)]
        #[non_exhaustive]
        pub enum FaultKind {
            $($(#[$attribute])* $name,)*
            /// A fault with this result, for which this version of the crate has no variant. A
            /// later version may have one.
            Other(u32),
        }

        impl FaultKind {
            /// Returns the kind for a result of a call.
            pub(crate) fn of(result: u32) -> FaultKind {
                match result {
                    $(sys::$result => FaultKind::$name,)*
                    _ => FaultKind::Other(result),
                }
            }

            /// Returns the number that `fv.h` has for this kind, such as 1 for
            /// `FV_FAULT_TRUNCATED` and 0x201 for `FV_FAULT_DEPEX_SHORT`.
            pub fn code(self) -> u32 {
                match self {
                    $(FaultKind::$name => sys::$result,)*
                    FaultKind::Other(result) => result,
                }
            }
        }

        /// All kinds that have a name.
        #[cfg(test)]
        const KINDS: &[FaultKind] = &[$(FaultKind::$name),*];
    };
}

fault_kinds! {
    /// The bytes end before the volume does.
    Truncated = FV_FAULT_TRUNCATED,
    /// No volume begins here: its signature is missing.
    Signature = FV_FAULT_SIGNATURE,
    /// No volume of files begins here: its file system is neither FFS2 nor FFS3.
    FileSystem = FV_FAULT_FILE_SYSTEM,
    /// The header of a volume is damaged, or its revision is not 2.
    Revision = FV_FAULT_REVISION,
    /// The header of a volume is damaged: its length is wrong.
    HeaderLength = FV_FAULT_HEADER_LENGTH,
    /// The header of a volume is damaged: its checksum is wrong.
    HeaderSum = FV_FAULT_HEADER_SUM,
    /// The header of a volume is damaged: its block map is wrong.
    BlockMap = FV_FAULT_BLOCK_MAP,
    /// The length in the header is wrong, or bytes follow the volume, or there are more than 256
    /// MiB.
    Length = FV_FAULT_LENGTH,
    /// The extended header of a volume is damaged.
    ExtHeader = FV_FAULT_EXT_HEADER,
    /// The state of a file is invalid.
    FileState = FV_FAULT_FILE_STATE,
    /// The header of a file is damaged: its checksum is wrong.
    FileHeaderSum = FV_FAULT_FILE_HEADER_SUM,
    /// The size of a file is wrong.
    FileSize = FV_FAULT_FILE_SIZE,
    /// A file in an FFS2 volume has the large-file attribute.
    LargeFile = FV_FAULT_LARGE_FILE,
    /// The data of a file are damaged: the file checksum is wrong.
    FileSum = FV_FAULT_FILE_SUM,
    /// A file is marked fixed, and only volumes whose files may all be moved are read.
    /// [`volume::unfix`](crate::volume::unfix) returns a copy without these marks.
    Fixed = FV_FAULT_FIXED,
    /// The free space of a volume is not erased.
    FreeSpace = FV_FAULT_FREE_SPACE,
    /// Two files in a volume have the same name.
    DuplicateName = FV_FAULT_DUPLICATE_NAME,
    /// The volume top file is not at the end of its volume.
    TopFile = FV_FAULT_TOP_FILE,
    /// The size of a section is wrong.
    SectionSize = FV_FAULT_SECTION_SIZE,
    /// One to three bytes are left where a section would begin.
    SectionTail = FV_FAULT_SECTION_TAIL,
    /// Groups and volumes nest deeper than eight levels.
    Depth = FV_FAULT_DEPTH,
    /// The files cannot be laid out within the volume's length.
    NoRoom = FV_FAULT_NO_ROOM,
    /// The volume top file is misaligned when placed at the end of the volume.
    TopAlignment = FV_FAULT_TOP_ALIGNMENT,
    /// The GUID of an op is cut off by the end of the bytes.
    DepexShort = FV_FAULT_DEPEX_SHORT,
    /// The phase does not have this op.
    DepexOpcode = FV_FAULT_DEPEX_OPCODE,
    /// An op finds too few values, or END does not find exactly one.
    DepexStack = FV_FAULT_DEPEX_STACK,
    /// The bytes end before an END op.
    DepexNoEnd = FV_FAULT_DEPEX_NO_END,
    /// BEFORE, AFTER or SOR is not the first op, or an op other than END follows BEFORE or AFTER.
    DepexPosition = FV_FAULT_DEPEX_POSITION,
    /// A block is cut short.
    HobShort = FV_FAULT_HOB_SHORT,
    /// The length of a block is not a multiple of 8, or is below 8.
    HobLength = FV_FAULT_HOB_LENGTH,
    /// The first block is not a hand-off information table.
    HobFirst = FV_FAULT_HOB_FIRST,
    /// The length of a block is wrong for its type.
    HobShape = FV_FAULT_HOB_SHAPE,
    /// The list has no end block.
    HobNoEnd = FV_FAULT_HOB_NO_END,
    /// The section is cut short, or its data begin outside of it.
    OpenShort = FV_FAULT_OPEN_SHORT,
    /// The way to open the section is not known.
    OpenWay = FV_FAULT_OPEN_WAY,
    /// The packed data are damaged.
    OpenDamaged = FV_FAULT_OPEN_DAMAGED,
    /// The CRC32 of the contents is wrong.
    OpenSum = FV_FAULT_OPEN_SUM,
    /// The contents are longer than the limit.
    OpenTooLong = FV_FAULT_OPEN_TOO_LONG,
}

impl fmt::Display for FaultKind {
    fn fmt(&self, f: &mut fmt::Formatter<'_>) -> fmt::Result {
        f.write_str(text(self.code()))
    }
}

/// Returns the sentence with which libfv explains a result.
fn text(result: u32) -> &'static str {
    // SAFETY: the call takes any number, and returns the address of a text that ends with a NUL and
    // is never freed.
    let text = unsafe { CStr::from_ptr(sys::fv_result_text(result)) };
    text.to_str().unwrap_or_default()
}

row! {
    /// The first fault of an input, with its place.
    ///
    /// ```
    /// # let (volume, empty) = include!(concat!(env!("CARGO_MANIFEST_DIR"), "/tests/sample/volumes.rs"));
    /// let error = fv::volume::tree(&volume[..100]).unwrap_err();
    /// let fault = error.fault().unwrap();
    /// assert_eq!(fault.kind(), fv::FaultKind::Truncated);
    /// assert_eq!((fault.offset(), fault.depth(), fault.input()), (100, 0, 0));
    /// assert_eq!(fault.to_string(), "the bytes end before the volume does (fault 1) at offset 100");
    /// ```
    Fault(fv_fault), it {
        /// Returns the kind of the fault.
        kind: FaultKind = FaultKind::of(it.0.result),
        /// Returns the offset in bytes from the first byte of the input.
        offset: usize = it.0.offset as usize,
        /// Returns the number of groups and opened volumes around the fault, 0 to 8.
        depth: usize = it.0.depth as usize,
        /// Returns which input has the fault: 1 for the second input of
        /// [`volume::compare`](crate::volume::compare), otherwise 0.
        input: usize = it.0.input as usize,
    }
}

impl Fault {
    /// Returns the fault that a call has written, or `None` if it has written zeros.
    pub(crate) fn of(raw: sys::fv_fault) -> Option<Fault> {
        (raw.result != sys::FV_OK).then_some(Fault(raw))
    }
}

impl fmt::Display for Fault {
    fn fmt(&self, f: &mut fmt::Formatter<'_>) -> fmt::Result {
        if self.input() == 1 {
            f.write_str("second volume: ")?;
        }
        let code = self.0.result;
        if code < 0x100 {
            write!(f, "{} (fault {code})", self.kind())?;
        } else {
            write!(f, "{} (fault {code:#x})", self.kind())?;
        }
        write!(f, " at offset {}", self.offset())?;
        if self.depth() > 0 {
            write!(f, ", depth {}", self.depth())?;
        }
        Ok(())
    }
}

impl error::Error for Fault {}

/// The reason why a function of this crate returned no result.
#[derive(Clone, Copy, Debug, PartialEq, Eq, Hash)]
#[non_exhaustive]
pub enum Error {
    /// The input has this fault. If it has several, this is the first, in the order that
    /// `docs/FAULTS.md` in the repository defines.
    Rejected(Fault),
    /// Memory ran out, so nothing is known about the input.
    OutOfMemory,
    /// The tree of the volume has no row with the number that was passed.
    NoSuchRow,
}

impl Error {
    /// Returns the fault of the input, if the input was rejected.
    pub fn fault(&self) -> Option<Fault> {
        match self {
            Error::Rejected(fault) => Some(*fault),
            _ => None,
        }
    }
}

impl From<Fault> for Error {
    fn from(fault: Fault) -> Error {
        Error::Rejected(fault)
    }
}

impl fmt::Display for Error {
    fn fmt(&self, f: &mut fmt::Formatter<'_>) -> fmt::Result {
        match self {
            Error::Rejected(fault) => fault.fmt(f),
            Error::OutOfMemory => f.write_str(text(sys::FV_OUT_OF_MEMORY)),
            Error::NoSuchRow => f.write_str(text(sys::FV_NOT_FOUND)),
        }
    }
}

impl error::Error for Error {}

/// Returns Ok if the result of a call is 0, otherwise its error. The call has written the fault.
///
/// # Panics
///
/// If the call reports a wrong argument or a buffer that is too small. This crate passes neither.
pub(crate) fn check(result: sys::fv_result, fault: sys::fv_fault) -> Result<(), Error> {
    match result {
        sys::FV_OK => Ok(()),
        sys::FV_OUT_OF_MEMORY => Err(Error::OutOfMemory),
        sys::FV_NOT_FOUND => Err(Error::NoSuchRow),
        sys::FV_BAD_ARGUMENT | sys::FV_BUFFER_TOO_SMALL => panic!("libfv: {}", text(result)),
        _ => Err(Error::Rejected(Fault(sys::fv_fault { result, ..fault }))),
    }
}

#[cfg(test)]
mod tests {
    use super::*;

    fn raw(result: u32, offset: u64) -> sys::fv_fault {
        sys::fv_fault {
            offset,
            result,
            depth: 2,
            input: 1,
            ..Default::default()
        }
    }

    #[test]
    fn kinds_have_their_numbers() {
        let codes: Vec<u32> = KINDS.iter().map(|it| it.code()).collect();
        let wanted = (1..=23).chain(0x201..=0x205).chain(0x301..=0x305).chain(0x401..=0x405);
        assert_eq!(codes, wanted.collect::<Vec<u32>>());
        assert!(KINDS.iter().all(|it| FaultKind::of(it.code()) == *it));
        assert_eq!(FaultKind::of(0x207), FaultKind::Other(0x207));
        assert_eq!(FaultKind::Other(0x207).code(), 0x207);
    }

    #[test]
    fn results_are_errors() {
        let none = raw(0, 0);
        assert_eq!(check(0, none), Ok(()));
        assert_eq!(check(24, raw(24, 0)), Err(Error::OutOfMemory));
        assert_eq!(check(0x101, none), Err(Error::NoSuchRow));
        let error = check(19, raw(19, 96)).unwrap_err();
        let fault = error.fault().unwrap();
        assert_eq!(fault.kind(), FaultKind::SectionSize);
        assert_eq!((fault.offset(), fault.depth(), fault.input()), (96, 2, 1));
        assert_eq!(error, Error::from(fault));
        // A result that this version does not know is a fault of the input.
        let error = check(25, raw(25, 8)).unwrap_err();
        assert_eq!(error.fault().unwrap().kind(), FaultKind::Other(25));
    }

    #[test]
    #[should_panic(expected = "libfv: ")]
    fn a_wrong_argument_is_a_defect_of_this_crate() {
        let _ = check(0x102, raw(0, 0));
    }

    #[test]
    fn errors_explain_themselves() {
        let shown = |result, offset| check(result, raw(result, offset)).unwrap_err().to_string();
        assert_eq!(
            shown(19, 96),
            "second volume: the size of a section is wrong (fault 19) at offset 96, depth 2"
        );
        assert!(shown(0x302, 8).ends_with(" (fault 0x302) at offset 8, depth 2"));
        assert_eq!(shown(24, 0), "out of memory");
        assert!(!shown(0x101, 0).is_empty());
    }
}
