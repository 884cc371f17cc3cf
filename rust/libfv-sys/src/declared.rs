// SPDX-License-Identifier: BSD-2-Clause-Patent
// Made from fv.h by libfv/generate: change fv.h, and run libfv/generate.
constants! {
    &str: FV_VERSION = "2.1.0-dev";
    u32: FV_VERSION_MAJOR = 2;
    u32: FV_VERSION_MINOR = 1;
    u32: FV_VERSION_PATCH = 0;
    u32: FV_VERSION_NUMBER = 0x020100;
    u32: FV_LENGTH_MAX = 268435456;
    u32: FV_CONTENTS_MAX = 1073741824;
    u32: FV_DIFFERENCE_SIZE = 553;
    u32: FV_GUID_TEXT_SIZE = 37;
    u64: FV_NO_PARENT = u64::MAX;
    u64: FV_NO_LENGTH = u64::MAX;
    fv_result: FV_OK = 0, FV_FAULT_TRUNCATED = 1, FV_FAULT_SIGNATURE = 2, FV_FAULT_FILE_SYSTEM = 3,
        FV_FAULT_REVISION = 4, FV_FAULT_HEADER_LENGTH = 5, FV_FAULT_HEADER_SUM = 6, FV_FAULT_BLOCK_MAP = 7,
        FV_FAULT_LENGTH = 8, FV_FAULT_EXT_HEADER = 9, FV_FAULT_FILE_STATE = 10, FV_FAULT_FILE_HEADER_SUM = 11,
        FV_FAULT_FILE_SIZE = 12, FV_FAULT_LARGE_FILE = 13, FV_FAULT_FILE_SUM = 14, FV_FAULT_FIXED = 15,
        FV_FAULT_FREE_SPACE = 16, FV_FAULT_DUPLICATE_NAME = 17, FV_FAULT_TOP_FILE = 18, FV_FAULT_SECTION_SIZE = 19,
        FV_FAULT_SECTION_TAIL = 20, FV_FAULT_DEPTH = 21, FV_FAULT_NO_ROOM = 22, FV_FAULT_TOP_ALIGNMENT = 23,
        FV_OUT_OF_MEMORY = 24, FV_BUFFER_TOO_SMALL = 0x100, FV_NOT_FOUND = 0x101, FV_BAD_ARGUMENT = 0x102,
        FV_BAD_GUID = 0x103, FV_FAULT_DEPEX_SHORT = 0x201, FV_FAULT_DEPEX_OPCODE = 0x202, FV_FAULT_DEPEX_STACK = 0x203,
        FV_FAULT_DEPEX_NO_END = 0x204, FV_FAULT_DEPEX_POSITION = 0x205, FV_FAULT_HOB_SHORT = 0x301,
        FV_FAULT_HOB_LENGTH = 0x302, FV_FAULT_HOB_FIRST = 0x303, FV_FAULT_HOB_SHAPE = 0x304,
        FV_FAULT_HOB_NO_END = 0x305, FV_FAULT_OPEN_SHORT = 0x401, FV_FAULT_OPEN_WAY = 0x402,
        FV_FAULT_OPEN_DAMAGED = 0x403, FV_FAULT_OPEN_SUM = 0x404, FV_FAULT_OPEN_TOO_LONG = 0x405;
    u32: FV_CELL_FILE = 1, FV_CELL_PAD = 2, FV_CELL_DELETED = 3, FV_CELL_UNFINISHED = 4, FV_CELL_FREE = 5;
    u32: FV_NODE_VOLUME = 1, FV_NODE_FILE = 2, FV_NODE_SECTION = 3;
    u32: FV_CONTENT_FILES = 0, FV_CONTENT_BYTES = 1, FV_CONTENT_SECTIONS = 2, FV_CONTENT_VOLUME = 3;
    u32: FV_ROW_VOLUME = 1, FV_ROW_FILE = 2, FV_ROW_SECTION = 3, FV_ROW_LOST = 4, FV_ROW_VOLUME_HEADER = 5,
        FV_ROW_EXT_HEADER = 6, FV_ROW_FILE_HEADER = 7, FV_ROW_SECTION_HEADER = 8, FV_ROW_DATA = 9, FV_ROW_BODY = 10,
        FV_ROW_PACKED = 11, FV_ROW_PAD = 12, FV_ROW_PAD_DATA = 13, FV_ROW_DEAD = 14, FV_ROW_STUB = 15, FV_ROW_FREE = 16,
        FV_ROW_FILLER = 17, FV_ROW_BETWEEN = 18, FV_ROW_GAP = 19, FV_ROW_STORE = 20, FV_ROW_UNREAD = 21;
    u32: FV_FILE_RAW = 0x01, FV_FILE_FREEFORM = 0x02, FV_FILE_SECURITY_CORE = 0x03, FV_FILE_PEI_CORE = 0x04,
        FV_FILE_DXE_CORE = 0x05, FV_FILE_PEIM = 0x06, FV_FILE_DRIVER = 0x07, FV_FILE_COMBINED_PEIM_DRIVER = 0x08,
        FV_FILE_APPLICATION = 0x09, FV_FILE_MM = 0x0A, FV_FILE_FIRMWARE_VOLUME_IMAGE = 0x0B,
        FV_FILE_COMBINED_MM_DXE = 0x0C, FV_FILE_MM_CORE = 0x0D, FV_FILE_MM_STANDALONE = 0x0E,
        FV_FILE_MM_CORE_STANDALONE = 0x0F, FV_FILE_FFS_PAD = 0xF0;
    u32: FV_SECTION_COMPRESSION = 0x01, FV_SECTION_GUID_DEFINED = 0x02, FV_SECTION_DISPOSABLE = 0x03,
        FV_SECTION_PE32 = 0x10, FV_SECTION_PIC = 0x11, FV_SECTION_TE = 0x12, FV_SECTION_DXE_DEPEX = 0x13,
        FV_SECTION_VERSION = 0x14, FV_SECTION_USER_INTERFACE = 0x15, FV_SECTION_COMPATIBILITY16 = 0x16,
        FV_SECTION_FIRMWARE_VOLUME_IMAGE = 0x17, FV_SECTION_FREEFORM_SUBTYPE_GUID = 0x18, FV_SECTION_RAW = 0x19,
        FV_SECTION_PEI_DEPEX = 0x1B, FV_SECTION_MM_DEPEX = 0x1C;
    u32: FV_PART_STORE_HEADER = 1, FV_PART_VARIABLE = 2, FV_PART_UNFINISHED = 3, FV_PART_FILLER = 4, FV_PART_FREE = 5,
        FV_PART_WORKING_BLOCK = 6, FV_PART_LIST_HEADER = 7, FV_PART_SIGNATURE = 8, FV_PART_UNREAD = 9;
    u32: FV_FINDING_STORE_SIZE = 1, FV_FINDING_STORE_STATE = 2, FV_FINDING_START_ID = 3, FV_FINDING_VARIABLE_SIZE = 4,
        FV_FINDING_QUEUE_SIZE = 5, FV_FINDING_NO_STORE = 6, FV_FINDING_LIST_SIZE = 7, FV_FINDING_SIGNATURE_SIZE = 8;
    u32: FV_STORE_PLAIN = 1, FV_STORE_AUTHENTICATED = 2;
    u32: FV_VARIABLE_ADDED = 1, FV_VARIABLE_REPLACED = 2, FV_VARIABLE_DELETED = 3, FV_VARIABLE_HEADER_ONLY = 4,
        FV_VARIABLE_OTHER = 5;
    u32: FV_PHASE_PEI = 0, FV_PHASE_DXE = 1;
    u32: FV_WITHOUT_MARKS = 1;
    u32: FV_DEPEX_FALSE = 0, FV_DEPEX_TRUE = 1, FV_DEPEX_ORDER = 2;
    u32: FV_WAY_STORED = 1, FV_WAY_STANDARD = 2, FV_WAY_UEFI = 3, FV_WAY_TIANO = 4, FV_WAY_CUSTOMIZED = 5,
        FV_WAY_LZMA = 6, FV_WAY_LZMA_X86 = 7, FV_WAY_CRC32 = 8, FV_WAY_SIGNED = 9, FV_WAY_PLAIN = 10;
    u32: FV_REASON_FAULT = 1, FV_REASON_DEPTH = 2, FV_REASON_LIMIT = 3;
}

structures! {
    fv_guid, 16, 1: bytes: [u8; 16] = 0;
    fv_sha256, 32, 1: bytes: [u8; 32] = 0;
    fv_fault, 24, 8: offset: u64 = 0, result: fv_result = 8, depth: u32 = 12, input: u32 = 16, reserved: u32 = 20;
    fv_header, 64, 8: offset: u64 = 0, length: u64 = 8, first_file: u64 = 16, header_length: u32 = 24,
        attributes: u32 = 28, file_system: u32 = 32, erased_byte: u32 = 36, name: fv_guid = 40, reserved: u64 = 56;
    fv_volume_check, 48, 8: offset: u64 = 0, length: u64 = 8, fault: fv_fault = 16, canonical: u32 = 40,
        reserved: u32 = 44;
    fv_survey_row, 56, 8: offset: u64 = 0, length: u64 = 8, kind: u32 = 16, depth: u32 = 20, efi_type: u32 = 24,
        found: u32 = 28, findings: u32 = 32, name: fv_guid = 36, reserved: u32 = 52;
    fv_variable_row, 104, 8: offset: u64 = 0, length: u64 = 8, monotonic_count: u64 = 16, part: u32 = 24,
        finding: u32 = 28, format: u32 = 32, size: u32 = 36, state: u32 = 40, status: u32 = 44, attributes: u32 = 48,
        header_length: u32 = 52, name_size: u32 = 56, data_size: u32 = 60, public_key: u32 = 64, formatted: u32 = 68,
        guid: fv_guid = 72, time_stamp: [u8; 16] = 88;
    fv_comparison, 16, 8: text_length: u64 = 0, same: u32 = 8, reserved: u32 = 12;
    fv_cell, 56, 8: offset: u64 = 0, length: u64 = 8, kind: u32 = 16, header_length: u32 = 20, efi_type: u32 = 24,
        attributes: u32 = 28, name: fv_guid = 32, reserved: u64 = 48;
    fv_node, 88, 8: offset: u64 = 0, length: u64 = 8, parent: u64 = 16, index: u64 = 24, depth: u32 = 32,
        kind: u32 = 36, content: u32 = 40, efi_type: u32 = 44, attributes: u32 = 48, header_length: u32 = 52,
        guid: fv_guid = 56, file_system: u32 = 72, reserved: [u32; 3] = 76;
    fv_hob, 32, 8: volume_base: u64 = 0, volume_length: u64 = 8, hob_type: u32 = 16, hob_length: u32 = 20,
        reserved: u64 = 24;
    fv_way, 24, 8: promised: u64 = 0, data_offset: u64 = 8, way: u32 = 16, reserved: u32 = 20;
    fv_contents, 16, 8: length: u64 = 0, way: u32 = 8, reserved: u32 = 12;
    fv_packed, 72, 8: source: u64 = 0, offset: u64 = 8, length: u64 = 16, contents_length: u64 = 24,
        fault: fv_fault = 32, depth: u32 = 56, way: u32 = 60, reason: u32 = 64, reserved: u32 = 68;
    fv_part_place, 32, 8: source: u64 = 0, offset: u64 = 8, length: u64 = 16, has_place: u32 = 24, reserved: u32 = 28;
    fv_sameness, 72, 8: first: fv_part_place = 0, second: fv_part_place = 32, is_same: u32 = 64, reserved: u32 = 68;
}

handles! {
    fv_image;
}

extern "C" {
    pub fn fv_version_number() -> u32;
    pub fn fv_version() -> *const c_char;
    pub fn fv_result_text(result: fv_result) -> *const c_char;
    pub fn fv_header_read(bytes: *const c_void, size: usize, header: *mut fv_header, fault: *mut fv_fault) -> fv_result;
    pub fn fv_image_scan(image: *const c_void, size: usize, rows: *mut fv_header, room: usize, count: *mut usize,
        fault: *mut fv_fault) -> fv_result;
    pub fn fv_image_check(image: *const c_void, size: usize, rows: *mut fv_volume_check, room: usize, count: *mut usize,
        fault: *mut fv_fault) -> fv_result;
    pub fn fv_image_normalise(image: *const c_void, size: usize, buffer: *mut c_void, buffer_size: usize,
        fault: *mut fv_fault) -> fv_result;
    pub fn fv_image_survey(image: *const c_void, size: usize, rows: *mut fv_survey_row, room: usize, count: *mut usize,
        fault: *mut fv_fault) -> fv_result;
    pub fn fv_image_open(image: *const c_void, size: usize, limit: u64, opened: *mut *mut fv_image,
        fault: *mut fv_fault) -> fv_result;
    pub fn fv_image_close(image: *mut fv_image);
    pub fn fv_image_source_count(image: *const fv_image) -> usize;
    pub fn fv_image_source_bytes(image: *const fv_image, source: usize, size: *mut usize) -> *const c_void;
    pub fn fv_image_source_rows(image: *const fv_image, source: usize, count: *mut usize) -> *const fv_survey_row;
    pub fn fv_image_packed(image: *const fv_image, count: *mut usize) -> *const fv_packed;
    pub fn fv_image_same(first: *const c_void, first_size: usize, second: *const c_void, second_size: usize, limit: u64,
        found: *mut fv_sameness, fault: *mut fv_fault) -> fv_result;
    pub fn fv_volume_is_canonical(volume: *const c_void, size: usize, canonical: *mut u32, fault: *mut fv_fault) ->
        fv_result;
    pub fn fv_volume_normalise(volume: *const c_void, size: usize, buffer: *mut c_void, buffer_size: usize,
        fault: *mut fv_fault) -> fv_result;
    pub fn fv_volume_unfix(volume: *const c_void, size: usize, buffer: *mut c_void, buffer_size: usize,
        fault: *mut fv_fault) -> fv_result;
    pub fn fv_volume_digest(volume: *const c_void, size: usize, digest: *mut fv_sha256, fault: *mut fv_fault) ->
        fv_result;
    pub fn fv_volume_compare(first: *const c_void, first_size: usize, second: *const c_void, second_size: usize,
        text: *mut c_char, text_size: usize, found: *mut fv_comparison, fault: *mut fv_fault) -> fv_result;
    pub fn fv_volume_cells(volume: *const c_void, size: usize, rows: *mut fv_cell, room: usize, count: *mut usize,
        fault: *mut fv_fault) -> fv_result;
    pub fn fv_volume_tree(volume: *const c_void, size: usize, rows: *mut fv_node, room: usize, count: *mut usize,
        fault: *mut fv_fault) -> fv_result;
    pub fn fv_volume_tree_with(volume: *const c_void, size: usize, flags: u32, rows: *mut fv_node, room: usize,
        count: *mut usize, fault: *mut fv_fault) -> fv_result;
    pub fn fv_volume_tree_digests(volume: *const c_void, size: usize, rows: *mut fv_sha256, room: usize,
        count: *mut usize, fault: *mut fv_fault) -> fv_result;
    pub fn fv_volume_tree_digests_with(volume: *const c_void, size: usize, flags: u32, rows: *mut fv_sha256,
        room: usize, count: *mut usize, fault: *mut fv_fault) -> fv_result;
    pub fn fv_volume_extract(volume: *const c_void, size: usize, row: usize, buffer: *mut c_void, buffer_size: usize,
        length: *mut usize, fault: *mut fv_fault) -> fv_result;
    pub fn fv_volume_extract_with(volume: *const c_void, size: usize, flags: u32, row: usize, buffer: *mut c_void,
        buffer_size: usize, length: *mut usize, fault: *mut fv_fault) -> fv_result;
    pub fn fv_section_way(section: *const c_void, size: usize, way: *mut fv_way, fault: *mut fv_fault) -> fv_result;
    pub fn fv_section_open(section: *const c_void, size: usize, limit: usize, buffer: *mut c_void, buffer_size: usize,
        found: *mut fv_contents, fault: *mut fv_fault) -> fv_result;
    pub fn fv_sections_survey(sections: *const c_void, size: usize, rows: *mut fv_survey_row, room: usize,
        count: *mut usize, fault: *mut fv_fault) -> fv_result;
    pub fn fv_sections_tree(sections: *const c_void, size: usize, flags: u32, rows: *mut fv_node, room: usize,
        count: *mut usize, fault: *mut fv_fault) -> fv_result;
    pub fn fv_sections_tree_digests(sections: *const c_void, size: usize, flags: u32, rows: *mut fv_sha256, room: usize,
        count: *mut usize, fault: *mut fv_fault) -> fv_result;
    pub fn fv_sections_extract(sections: *const c_void, size: usize, flags: u32, row: usize, buffer: *mut c_void,
        buffer_size: usize, length: *mut usize, fault: *mut fv_fault) -> fv_result;
    pub fn fv_variables_read(bytes: *const c_void, size: usize, rows: *mut fv_variable_row, room: usize,
        count: *mut usize, fault: *mut fv_fault) -> fv_result;
    pub fn fv_signatures_read(bytes: *const c_void, size: usize, rows: *mut fv_variable_row, room: usize,
        count: *mut usize, fault: *mut fv_fault) -> fv_result;
    pub fn fv_depex_evaluate(expression: *const c_void, size: usize, phase: u32, installed: *const fv_guid,
        installed_count: usize, value: *mut u32, fault: *mut fv_fault) -> fv_result;
    pub fn fv_hobs_read(list: *const c_void, size: usize, rows: *mut fv_hob, room: usize, count: *mut usize,
        list_length: *mut usize, fault: *mut fv_fault) -> fv_result;
    pub fn fv_guid_text(guid: *const fv_guid, text: *mut c_char, text_size: usize) -> fv_result;
    pub fn fv_guid_parse(text: *const c_char, text_size: usize, guid: *mut fv_guid) -> fv_result;
}
