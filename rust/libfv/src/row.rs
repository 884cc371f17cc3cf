// SPDX-License-Identifier: BSD-2-Clause-Patent
//! Rows: the structures that calls write, with getters.

use libfv_sys as sys;

/// A row, which a call of libfv writes.
///
/// # Safety
///
/// The type must have the layout of its structure of `fv.h`.
pub(crate) unsafe trait Row: Sized {
    /// The structure of `fv.h`.
    type Raw;
}

/// Defines a row over a structure of `fv.h`, with getters. The first getters decide whether two rows
/// are equal. Those after `and` only follow from them.
macro_rules! row {
    ($(#[$about:meta])* $name:ident($raw:ident), $it:ident {
        $($(#[$doc:meta])* $getter:ident: $type:ty = $value:expr,)*
    } $(and { $($(#[$also:meta])* $more:ident: $kind:ty = $follows:expr,)* })?) => {
        $(#[$about])*
        #[derive(Clone, Copy)]
        #[repr(transparent)]
        pub struct $name(libfv_sys::$raw);

        // SAFETY: the structure is its only field, and the type is transparent.
        unsafe impl crate::row::Row for $name {
            type Raw = libfv_sys::$raw;
        }

        impl $name {
            $(
                $(#[$doc])*
                pub fn $getter(&self) -> $type {
                    let $it = self;
                    $value
                }
            )*
            $($(
                $(#[$also])*
                pub fn $more(&self) -> $kind {
                    let $it = self;
                    $follows
                }
            )*)?
        }

        impl PartialEq for $name {
            fn eq(&self, other: &$name) -> bool {
                $(self.$getter() == other.$getter())&&*
            }
        }

        impl Eq for $name {}

        impl std::hash::Hash for $name {
            fn hash<H: std::hash::Hasher>(&self, state: &mut H) {
                $(self.$getter().hash(state);)*
            }
        }

        impl std::fmt::Debug for $name {
            fn fmt(&self, f: &mut std::fmt::Formatter<'_>) -> std::fmt::Result {
                f.debug_struct(stringify!($name))
                    $(.field(stringify!($getter), &self.$getter()))*
                    .finish()
            }
        }
    };
}
pub(crate) use row;

/// Defines an enumeration over constants of `fv.h`. `of` makes it from a value that a call has
/// written.
macro_rules! kinds {
    ($(#[$about:meta])* $name:ident, $what:literal:
     $($(#[$doc:meta])* $kind:ident = $constant:ident,)*) => {
        $(#[$about])*
        #[derive(Clone, Copy, Debug, PartialEq, Eq, Hash)]
        pub enum $name {
            $($(#[$doc])* $kind,)*
        }

        impl $name {
            fn of(value: u32) -> $name {
                match value {
                    $(libfv_sys::$constant => $name::$kind,)*
                    _ => crate::row::unknown($what, value),
                }
            }
        }
    };
}
pub(crate) use kinds;

/// Defines an enumeration over constants of `fv.h` that may get new members in 2.x.
macro_rules! growing_kinds {
    ($(#[$about:meta])* $name:ident: $($(#[$doc:meta])* $kind:ident = $constant:ident,)*) => {
        $(#[$about])*
        #[derive(Clone, Copy, Debug, PartialEq, Eq, Hash)]
        #[non_exhaustive]
        pub enum $name {
            $($(#[$doc])* $kind,)*
            /// A number for which this version of the crate has no variant.
            Other(u32),
        }

        impl $name {
            fn of(number: u32) -> $name {
                match number {
                    $(libfv_sys::$constant => $name::$kind,)*
                    _ => $name::Other(number),
                }
            }
        }
    };
}
pub(crate) use growing_kinds;

/// Reports a value that `fv.h` does not have. Its kinds get no new member in 2.x.
pub(crate) fn unknown(what: &str, value: u32) -> ! {
    panic!("libfv returned an unknown {what}: {value}")
}

/// Returns a field of the input that has 8 or 16 bits there.
pub(crate) fn narrow<T: TryFrom<u32>>(value: u32, what: &str) -> T {
    T::try_from(value).unwrap_or_else(|_| unknown(what, value))
}

/// Returns the bytes from an offset of the input.
pub(crate) fn range(offset: u64, length: u64) -> std::ops::Range<usize> {
    offset as usize..(offset + length) as usize
}

/// Returns a GUID, or `None` for zeros, which are written in place of a GUID.
pub(crate) fn guid_or_none(raw: sys::fv_guid) -> Option<crate::Guid> {
    (raw.bytes != [0; 16]).then_some(crate::Guid::from_bytes_le(raw.bytes))
}
