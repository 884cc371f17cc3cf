// SPDX-License-Identifier: BSD-2-Clause-Patent
//! The forms of calls.

use crate::error::check;
use crate::reading::Reading;
use crate::row::Row;
use crate::Error;
use libfv_sys as sys;
use std::ffi::c_void;

/// The number of rows that the first buffer has room for. If there are more, the call is repeated.
pub(crate) const ROOM: usize = 1024;

/// Returns the address of the first byte of an input.
pub(crate) fn address(input: &[u8]) -> *const c_void {
    input.as_ptr().cast()
}

/// Returns the elements that a call writes to a buffer. The call gets the address of the buffer,
/// the number of elements that it has room for, and places for the count and the fault. The first
/// buffer has room for `first` elements. If there are more, the call is repeated.
///
/// # Safety
///
/// If the call returns 0, it must have written `count` elements to the buffer. They must be valid
/// values of `T`.
pub(crate) unsafe fn filled<T>(
    first: usize,
    mut call: impl FnMut(*mut T, usize, &mut usize, &mut sys::fv_fault) -> sys::fv_result,
) -> Result<Vec<T>, Error> {
    let (mut room, mut count, mut fault) = (first, 0, sys::fv_fault::default());
    loop {
        let mut buffer = Vec::new();
        if buffer.try_reserve_exact(room).is_err() {
            return Err(Error::OutOfMemory);
        }
        let result = call(buffer.as_mut_ptr(), room, &mut count, &mut fault);
        if result == sys::FV_BUFFER_TOO_SMALL && count > room {
            room = count;
            continue;
        }
        check(result, fault)?;
        assert!(count <= room, "libfv wrote more than there is room for");
        // SAFETY: by the contract of this function, this many elements are written.
        unsafe { buffer.set_len(count) };
        buffer.shrink_to_fit();
        return Ok(buffer);
    }
}

/// A call that writes rows about an input.
type RowsCall<R> =
    unsafe extern "C" fn(*const c_void, usize, *mut R, usize, *mut usize, *mut sys::fv_fault) -> sys::fv_result;

/// Returns the rows that a call writes about an input.
pub(crate) fn rows<T: Row>(call: RowsCall<T::Raw>, input: &[u8]) -> Result<Vec<T>, Error> {
    // SAFETY: the input is a slice, the other pointers come from `filled`, a row has the layout of
    // its structure, and the call writes what fv.h says.
    unsafe {
        filled(ROOM, |buffer: *mut T, room, count, fault| {
            call(address(input), input.len(), buffer.cast(), room, count, fault)
        })
    }
}

/// A call with flags that writes rows about an input.
type RowsCallWith<R> =
    unsafe extern "C" fn(*const c_void, usize, u32, *mut R, usize, *mut usize, *mut sys::fv_fault) -> sys::fv_result;

/// Returns the rows that a call writes about an input, which it reads as it is said.
pub(crate) fn rows_with<T: Row>(call: RowsCallWith<T::Raw>, input: &[u8], reading: Reading) -> Result<Vec<T>, Error> {
    // SAFETY: as in `rows`.
    unsafe {
        filled(ROOM, |buffer: *mut T, room, count, fault| {
            call(
                address(input),
                input.len(),
                reading.flags(),
                buffer.cast(),
                room,
                count,
                fault,
            )
        })
    }
}

/// A call with flags that writes the part of a row of its input.
type PartCall = unsafe extern "C" fn(
    *const c_void,
    usize,
    u32,
    usize,
    *mut c_void,
    usize,
    *mut usize,
    *mut sys::fv_fault,
) -> sys::fv_result;

/// Returns the bytes of the part of a row, which a call writes about an input that it reads as it is
/// said.
pub(crate) fn part_with(call: PartCall, input: &[u8], row: usize, reading: Reading) -> Result<Vec<u8>, Error> {
    // No part is longer than the input. Memory that is never written to costs little.
    // SAFETY: the input is a slice, the other pointers come from `filled`, and the call writes what
    // fv.h says.
    unsafe {
        filled(input.len(), |buffer: *mut u8, room, length, fault| {
            call(
                address(input),
                input.len(),
                reading.flags(),
                row,
                buffer.cast(),
                room,
                length,
                fault,
            )
        })
    }
}

/// A call that writes one value about an input.
type ValueCall<T> = unsafe extern "C" fn(*const c_void, usize, *mut T, *mut sys::fv_fault) -> sys::fv_result;

/// Returns the value that a call writes about an input.
pub(crate) fn value<T: Default>(call: ValueCall<T>, input: &[u8]) -> Result<T, Error> {
    let (mut found, mut fault) = (T::default(), sys::fv_fault::default());
    // SAFETY: the input is a slice, and the results are variables of this function.
    let result = unsafe { call(address(input), input.len(), &mut found, &mut fault) };
    check(result, fault).map(|()| found)
}

/// A call that writes as many bytes as its input has.
type ImageCall = unsafe extern "C" fn(*const c_void, usize, *mut c_void, usize, *mut sys::fv_fault) -> sys::fv_result;

/// Returns the bytes that a call writes, which are as many as the input has.
pub(crate) fn image(call: ImageCall, input: &[u8]) -> Result<Vec<u8>, Error> {
    // SAFETY: the input is a slice, the other pointers come from `filled`, and a call that returns
    // 0 has written as many bytes as the input has.
    unsafe {
        filled(input.len(), |buffer: *mut u8, room, count, fault| {
            *count = room;
            call(address(input), input.len(), buffer.cast(), room, fault)
        })
    }
}
