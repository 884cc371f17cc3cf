// SPDX-License-Identifier: BSD-2-Clause-Patent
//! GUIDs.

use libfv_sys as sys;
use std::error;
use std::fmt;
use std::str::FromStr;

/// A GUID. It is displayed as text, and parsed from text, in the form
/// `8c8ce578-8a3d-4f1c-9935-896185c32dd3`.
///
/// GUIDs are ordered by their bytes in a volume.
///
/// ```
/// let guid: fv::Guid = "8c8ce578-8a3d-4f1c-9935-896185c32dd3".parse()?;
/// assert_eq!(guid.to_bytes_le()[..4], [0x78, 0xe5, 0x8c, 0x8c]);
/// assert_eq!(guid.to_string(), "8c8ce578-8a3d-4f1c-9935-896185c32dd3");
/// # Ok::<(), fv::ParseGuidError>(())
/// ```
///
/// The crate `uuid` has functions with the same names, so `Uuid::from_bytes_le(guid.to_bytes_le())`
/// is the same GUID.
#[repr(transparent)]
#[derive(Clone, Copy, Default, PartialEq, Eq, PartialOrd, Ord, Hash)]
pub struct Guid([u8; 16]);

// The calls read a slice of GUIDs as an array of fv_guid.
const _: () = {
    use std::mem::{align_of, size_of};
    assert!(size_of::<Guid>() == size_of::<sys::fv_guid>());
    assert!(align_of::<Guid>() == align_of::<sys::fv_guid>());
};

/// The number of characters of the text of a GUID, without the NUL that the library adds.
const CHARACTERS: usize = sys::FV_GUID_TEXT_SIZE as usize - 1;

impl Guid {
    /// Makes a GUID from its bytes in a volume. The first three fields have their least significant
    /// byte first.
    pub const fn from_bytes_le(bytes: [u8; 16]) -> Guid {
        Guid(bytes)
    }

    /// Returns the bytes of the GUID in a volume. The first three fields have their least
    /// significant byte first.
    pub const fn to_bytes_le(self) -> [u8; 16] {
        self.0
    }
}

impl fmt::Display for Guid {
    fn fmt(&self, f: &mut fmt::Formatter<'_>) -> fmt::Result {
        let mut text = [0; CHARACTERS + 1];
        let guid = sys::fv_guid { bytes: self.0 };
        // SAFETY: one pointer leads to a GUID, and the other to a buffer with this many bytes.
        let result = unsafe { sys::fv_guid_text(&guid, text.as_mut_ptr().cast(), text.len()) };
        assert_eq!(result, sys::FV_OK, "libfv has a text for each GUID");
        f.write_str(&String::from_utf8_lossy(&text[..CHARACTERS]))
    }
}

impl fmt::Debug for Guid {
    fn fmt(&self, f: &mut fmt::Formatter<'_>) -> fmt::Result {
        write!(f, "Guid({self})")
    }
}

/// The error for a text that is not a GUID. A GUID has 8-4-4-4-12 hexadecimal digits of either
/// case.
#[derive(Clone, Copy, Debug, PartialEq, Eq)]
#[non_exhaustive]
pub struct ParseGuidError {}

impl fmt::Display for ParseGuidError {
    fn fmt(&self, f: &mut fmt::Formatter<'_>) -> fmt::Result {
        f.write_str("a GUID has 8-4-4-4-12 hexadecimal digits")
    }
}

impl error::Error for ParseGuidError {}

impl FromStr for Guid {
    type Err = ParseGuidError;

    fn from_str(text: &str) -> Result<Guid, ParseGuidError> {
        let mut guid = sys::fv_guid::default();
        // SAFETY: one pointer leads to this many bytes, and the other to a GUID.
        let result = unsafe { sys::fv_guid_parse(text.as_ptr().cast(), text.len(), &mut guid) };
        // The library reads up to a NUL, after which more characters may follow.
        match result {
            sys::FV_OK if text.len() == CHARACTERS => Ok(Guid(guid.bytes)),
            _ => Err(ParseGuidError {}),
        }
    }
}
