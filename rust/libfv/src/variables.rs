// SPDX-License-Identifier: BSD-2-Clause-Patent
//! Variable stores of EDK II: [`read`], and the signature lists in variables: [`signatures`].

use crate::call;
use crate::row::{growing_kinds, kinds, narrow, range, row};
use crate::{Error, Guid};
use libfv_sys as sys;
use std::ops::Range;

growing_kinds! {
    /// What a row of variable stores or of signature lists is about.
    PartKind:
    /// The header of a variable store.
    StoreHeader = FV_PART_STORE_HEADER,
    /// A variable: its header, its name and its data.
    Variable = FV_PART_VARIABLE,
    /// The header of a variable that was never finished.
    Unfinished = FV_PART_UNFINISHED,
    /// The bytes from the end of a variable to the next multiple of 4.
    Filler = FV_PART_FILLER,
    /// Erased bytes, which are 0xFF.
    Free = FV_PART_FREE,
    /// The working block of the fault tolerant write driver, with its queue.
    WorkingBlock = FV_PART_WORKING_BLOCK,
    /// The header of a signature list.
    ListHeader = FV_PART_LIST_HEADER,
    /// A signature of a list, with its owner.
    Signature = FV_PART_SIGNATURE,
    /// Bytes that cannot be read.
    Unread = FV_PART_UNREAD,
}

growing_kinds! {
    /// The finding of a row of variable stores or of signature lists.
    Finding:
    /// Size of a store is not possible, so the store is read up to the end of the bytes.
    StoreSize = FV_FINDING_STORE_SIZE,
    /// EDK II does not use the store, because Format is not 0x5A or State is not 0xFE.
    StoreState = FV_FINDING_STORE_STATE,
    /// The rest of a store does not begin with StartId, and is not erased.
    StartId = FV_FINDING_START_ID,
    /// The rest of a store has no room for the variable with which it begins.
    VariableSize = FV_FINDING_VARIABLE_SIZE,
    /// WriteQueueSize of a working block is not possible.
    QueueSize = FV_FINDING_QUEUE_SIZE,
    /// The bytes are outside of stores, and are not erased.
    NoStore = FV_FINDING_NO_STORE,
    /// The sizes of a signature list are not possible, so no further list is read.
    ListSize = FV_FINDING_LIST_SIZE,
    /// The rest of a signature list has no room for a signature.
    SignatureSize = FV_FINDING_SIGNATURE_SIZE,
}

kinds! {
    /// The format of the variables of a store.
    StoreFormat, "format of a store":
    /// VARIABLE_HEADER, of 32 bytes.
    Plain = FV_STORE_PLAIN,
    /// AUTHENTICATED_VARIABLE_HEADER, of 60 bytes.
    Authenticated = FV_STORE_AUTHENTICATED,
}

kinds! {
    /// What State of a variable says.
    VariableStatus, "status of a variable":
    /// 0x3F: the variable is there.
    Added = FV_VARIABLE_ADDED,
    /// 0x3E: the variable is about to be replaced, and is there as long as no other variable with
    /// its name and vendor is added.
    Replaced = FV_VARIABLE_REPLACED,
    /// 0x3D or 0x3C: the variable was deleted.
    Deleted = FV_VARIABLE_DELETED,
    /// 0x7F: only the header was written in full.
    HeaderOnly = FV_VARIABLE_HEADER_ONLY,
    /// Any other byte.
    Other = FV_VARIABLE_OTHER,
}

/// The number of bytes of the header of an authenticated variable.
const AUTHENTICATED_HEADER: u32 = 60;

row! {
    /// A row of variable stores or of signature lists. A getter returns `None` if the part does not
    /// have the field.
    VariableRow(fv_variable_row), it {
        /// Returns the offset in bytes from the first byte of the input.
        offset: usize = it.0.offset as usize,
        /// Returns the number of bytes.
        length: usize = it.0.length as usize,
        /// Returns MonotonicCount of an authenticated variable.
        monotonic_count: Option<u64> = it.is_authenticated().then_some(it.0.monotonic_count),
        /// Returns what the row is about.
        part: PartKind = PartKind::of(it.0.part),
        /// Returns the finding of the row, if the row has one.
        finding: Option<Finding> = (it.0.finding != 0).then(|| Finding::of(it.0.finding)),
        /// Returns the format of the variables of a store.
        format: Option<StoreFormat> = it.is_store().then(|| StoreFormat::of(it.0.format)),
        /// Returns Size of a store, or SignatureListSize of a list.
        size: Option<u32> = (it.is_store() || it.is_list()).then_some(it.0.size),
        /// Returns State of a variable or of a store.
        state: Option<u8> = (it.is_store() || it.is_variable()).then(|| narrow(it.0.state, "State")),
        /// Returns what State of a variable says.
        status: Option<VariableStatus> = it.is_variable().then(|| VariableStatus::of(it.0.status)),
        /// Returns Attributes of a variable.
        attributes: Option<u32> = it.is_variable().then_some(it.0.attributes),
        /// Returns the number of bytes of the header of a variable, which the name follows.
        header_length: Option<u32> = it.is_variable().then_some(it.0.header_length),
        /// Returns NameSize of a variable. The data follow the name.
        name_size: Option<u32> = it.is_variable().then_some(it.0.name_size),
        /// Returns DataSize of a variable, or SignatureSize of a list.
        data_size: Option<u32> = (it.is_variable() || it.is_list()).then_some(it.0.data_size),
        /// Returns PubKeyIndex of an authenticated variable.
        public_key: Option<u32> = it.is_authenticated().then_some(it.0.public_key),
        /// Returns Format of a store.
        formatted: Option<u8> = it.is_store().then(|| narrow(it.0.formatted, "Format")),
        /// Returns VendorGuid of a variable, SignatureType of a list, or SignatureOwner of a
        /// signature.
        guid: Option<Guid> = it.has_guid().then_some(Guid::from_bytes_le(it.0.guid.bytes)),
        /// Returns TimeStamp of an authenticated variable, the 16 bytes of an EFI_TIME.
        time_stamp: Option<[u8; 16]> = it.is_authenticated().then_some(it.0.time_stamp),
    } and {
        /// Returns the range of the row's bytes in the input.
        range: Range<usize> = range(it.0.offset, it.0.length),
        /// Returns the range of the name of a variable in the input: UTF-16, with the zeros that end
        /// it.
        name_range: Option<Range<usize>> = it.is_variable().then(|| {
            range(it.0.offset + u64::from(it.0.header_length), it.0.name_size.into())
        }),
        /// Returns the range of the data of a variable in the input.
        data_range: Option<Range<usize>> = it.name_range().map(|name| {
            name.end..name.end + it.0.data_size as usize
        }),
    }
}

impl VariableRow {
    /// Returns whether the row is a variable.
    fn is_variable(&self) -> bool {
        self.0.part == sys::FV_PART_VARIABLE
    }

    /// Returns whether the row is an authenticated variable.
    fn is_authenticated(&self) -> bool {
        self.is_variable() && self.0.header_length == AUTHENTICATED_HEADER
    }

    /// Returns whether the row is the header of a store.
    fn is_store(&self) -> bool {
        self.0.part == sys::FV_PART_STORE_HEADER
    }

    /// Returns whether the row is the header of a signature list.
    fn is_list(&self) -> bool {
        self.0.part == sys::FV_PART_LIST_HEADER
    }

    /// Returns whether the row has a GUID.
    fn has_guid(&self) -> bool {
        self.is_variable() || self.is_list() || self.0.part == sys::FV_PART_SIGNATURE
    }
}

/// Reads bytes that may contain variable stores of EDK II, such as the body of a volume whose file
/// system is the variable store. Returns rows in the order of their offsets, which account for every
/// byte. No bytes are rejected: what cannot be read has a row with its finding.
///
/// ```
/// let rows = fv::variables::read(&[0xff, 0xff, 0])?;
/// assert_eq!(rows[0].range(), 0..3);
/// assert_eq!(rows[0].finding(), Some(fv::variables::Finding::NoStore));
/// # Ok::<(), fv::Error>(())
/// ```
///
/// # Errors
///
/// [`Error::OutOfMemory`], if there is no memory for the rows
pub fn read(bytes: &[u8]) -> Result<Vec<VariableRow>, Error> {
    call::rows(sys::fv_variables_read, bytes)
}

/// Reads bytes that should be signature lists, such as the data of the variables PK, KEK, db and
/// dbx. Returns rows in the order of their offsets, which account for every byte.
///
/// ```
/// let rows = fv::variables::signatures(&[0; 27])?;
/// assert_eq!(rows[0].finding(), Some(fv::variables::Finding::ListSize));
/// # Ok::<(), fv::Error>(())
/// ```
///
/// # Errors
///
/// [`Error::OutOfMemory`], if there is no memory for the rows
pub fn signatures(bytes: &[u8]) -> Result<Vec<VariableRow>, Error> {
    call::rows(sys::fv_signatures_read, bytes)
}
