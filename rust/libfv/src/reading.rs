// SPDX-License-Identifier: BSD-2-Clause-Patent
//! How a function reads its input.

use libfv_sys as sys;

/// How a function reads a volume or a stream of sections.
#[derive(Clone, Copy, Debug, Default, PartialEq, Eq, Hash)]
#[non_exhaustive]
pub enum Reading {
    /// As it is: a file that is marked as fixed is a fault ([`Fixed`](crate::FaultKind::Fixed)).
    #[default]
    AsIs,
    /// As if no file at any depth were marked as fixed. The call makes a copy without these marks, and
    /// reads the copy. An offset in the copy is the same offset in the input. The attributes of a file
    /// are without bit 0x04. Bytes that are extracted must not be flashed.
    WithoutMarks,
}

impl Reading {
    /// Returns the flags of a call.
    pub(crate) fn flags(self) -> u32 {
        match self {
            Reading::AsIs => 0,
            Reading::WithoutMarks => sys::FV_WITHOUT_MARKS,
        }
    }
}
