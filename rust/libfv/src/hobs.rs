// SPDX-License-Identifier: BSD-2-Clause-Patent
//! Hand-off lists: [`read`].

use crate::call::{address, filled, ROOM};
use crate::row::{narrow, row};
use crate::Error;
use libfv_sys as sys;

/// EFI_HOB_TYPE_FV and EFI_HOB_TYPE_FV2.
const TYPES_WITH_VOLUME: [u32; 2] = [5, 9];

row! {
    /// A block of a hand-off list.
    Hob(fv_hob), it {
        /// Returns the address in memory of the volume that an FV or FV2 block describes. Returns
        /// `None` for other blocks.
        volume_base: Option<u64> = it.has_volume().then_some(it.0.volume_base),
        /// Returns the number of bytes of the volume that an FV or FV2 block describes. Returns
        /// `None` for other blocks.
        volume_length: Option<u64> = it.has_volume().then_some(it.0.volume_length),
        /// Returns `HobType`.
        hob_type: u16 = narrow(it.0.hob_type, "HobType"),
        /// Returns `HobLength`, the number of bytes of the block.
        hob_length: u16 = narrow(it.0.hob_length, "HobLength"),
    }
}

impl Hob {
    /// Returns whether the block describes a volume.
    fn has_volume(&self) -> bool {
        TYPES_WITH_VOLUME.contains(&self.0.hob_type)
    }
}

/// A hand-off list, as [`read`] returns it.
#[derive(Clone, Debug, PartialEq, Eq, Hash)]
pub struct HobList {
    blocks: Vec<Hob>,
    length: usize,
}

impl HobList {
    /// Returns the blocks, in order. The last one is the end block.
    pub fn blocks(&self) -> &[Hob] {
        &self.blocks
    }

    /// Returns the number of bytes of the list, its end block included.
    pub fn length(&self) -> usize {
        self.length
    }

    /// Returns the blocks as a vector.
    pub fn into_blocks(self) -> Vec<Hob> {
        self.blocks
    }
}

/// Reads the hand-off list with which the bytes begin. Bytes after its end block are not read.
///
/// ```
/// let mut bytes = vec![0; 70];
/// bytes[..4].copy_from_slice(&[1, 0, 56, 0]); // a hand-off information table
/// bytes[56..60].copy_from_slice(&[0xff, 0xff, 8, 0]); // the end of the list
/// let list = fv::hobs::read(&bytes)?;
/// assert_eq!(list.length(), 64);
/// let types: Vec<u16> = list.blocks().iter().map(|it| it.hob_type()).collect();
/// assert_eq!(types, [1, 0xffff]);
/// # Ok::<(), fv::Error>(())
/// ```
///
/// # Errors
///
/// [`Error::Rejected`] with the first fault, whose kind is one of the `Hob..` of
/// [`FaultKind`](crate::FaultKind), or [`Error::OutOfMemory`].
pub fn read(list: &[u8]) -> Result<HobList, Error> {
    let mut length = 0;
    // SAFETY: the list is a slice, the other pointers come from `filled` or are variables of this
    // function, a Hob has the layout of fv_hob, and the call writes what fv.h says.
    let blocks = unsafe {
        filled(ROOM, |buffer: *mut Hob, room, count, fault| {
            sys::fv_hobs_read(
                address(list),
                list.len(),
                buffer.cast(),
                room,
                count,
                &mut length,
                fault,
            )
        })
    }?;
    Ok(HobList { blocks, length })
}
