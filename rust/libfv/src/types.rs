// SPDX-License-Identifier: BSD-2-Clause-Patent
//! The modules of the types of files and sections.

/// Makes a module of constants from the constants of `fv.h`. They are bytes, as the getters of rows
/// return them.
macro_rules! types {
    ($(#[$about:meta])* $module:ident: $($name:ident = $of:ident,)*) => {
        $(#[$about])*
        pub mod $module {
            $(
                #[doc = concat!("`", stringify!($of), "` of `fv.h`.")]
                pub const $name: u8 = libfv_sys::$of as u8;
            )*
        }
    };
}

types! {
    /// The types of files, with the names of the PI specification after `EFI_FV_FILETYPE_`. A file
    /// may have any other type too.
    ///
    /// ```
    /// fn is_driver(node: &fv::volume::Node) -> bool {
    ///     node.kind() == fv::volume::NodeKind::File && node.efi_type() == Some(fv::file_type::DRIVER)
    /// }
    /// ```
    file_type:
    RAW = FV_FILE_RAW,
    FREEFORM = FV_FILE_FREEFORM,
    SECURITY_CORE = FV_FILE_SECURITY_CORE,
    PEI_CORE = FV_FILE_PEI_CORE,
    DXE_CORE = FV_FILE_DXE_CORE,
    PEIM = FV_FILE_PEIM,
    DRIVER = FV_FILE_DRIVER,
    COMBINED_PEIM_DRIVER = FV_FILE_COMBINED_PEIM_DRIVER,
    APPLICATION = FV_FILE_APPLICATION,
    MM = FV_FILE_MM,
    FIRMWARE_VOLUME_IMAGE = FV_FILE_FIRMWARE_VOLUME_IMAGE,
    COMBINED_MM_DXE = FV_FILE_COMBINED_MM_DXE,
    MM_CORE = FV_FILE_MM_CORE,
    MM_STANDALONE = FV_FILE_MM_STANDALONE,
    MM_CORE_STANDALONE = FV_FILE_MM_CORE_STANDALONE,
    FFS_PAD = FV_FILE_FFS_PAD,
}

types! {
    /// The types of sections, with the names of the PI specification after `EFI_SECTION_`. A
    /// section may have any other type too.
    section_type:
    COMPRESSION = FV_SECTION_COMPRESSION,
    GUID_DEFINED = FV_SECTION_GUID_DEFINED,
    DISPOSABLE = FV_SECTION_DISPOSABLE,
    PE32 = FV_SECTION_PE32,
    PIC = FV_SECTION_PIC,
    TE = FV_SECTION_TE,
    DXE_DEPEX = FV_SECTION_DXE_DEPEX,
    VERSION = FV_SECTION_VERSION,
    USER_INTERFACE = FV_SECTION_USER_INTERFACE,
    COMPATIBILITY16 = FV_SECTION_COMPATIBILITY16,
    FIRMWARE_VOLUME_IMAGE = FV_SECTION_FIRMWARE_VOLUME_IMAGE,
    FREEFORM_SUBTYPE_GUID = FV_SECTION_FREEFORM_SUBTYPE_GUID,
    RAW = FV_SECTION_RAW,
    PEI_DEPEX = FV_SECTION_PEI_DEPEX,
    MM_DEPEX = FV_SECTION_MM_DEPEX,
}
