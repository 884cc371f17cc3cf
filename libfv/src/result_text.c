/* SPDX-License-Identifier: BSD-2-Clause-Patent */
/* The sentences that explain the results of calls. docs/FAULTS.md has the same texts for faults. */
#include "fv.h"

/* A result and its sentence. */
struct entry {
    fv_result result;
    const char *text;
};

static const struct entry entries[] = {
    {FV_OK, "done"},
    {FV_FAULT_TRUNCATED, "the bytes end before the volume does"},
    {FV_FAULT_SIGNATURE, "no volume begins here: its signature is missing"},
    {FV_FAULT_FILE_SYSTEM, "no volume of files begins here: its file system is neither FFS2 nor FFS3"},
    {FV_FAULT_REVISION, "the header of a volume is damaged, or its revision is not 2"},
    {FV_FAULT_HEADER_LENGTH, "the header of a volume is damaged: its length is wrong"},
    {FV_FAULT_HEADER_SUM, "the header of a volume is damaged: its checksum is wrong"},
    {FV_FAULT_BLOCK_MAP, "the header of a volume is damaged: its block map is wrong"},
    {FV_FAULT_LENGTH, "the length in the header is wrong, or bytes follow the volume, or there are more than 256 MiB"},
    {FV_FAULT_EXT_HEADER, "the extended header of a volume is damaged"},
    {FV_FAULT_FILE_STATE, "the state of a file is invalid"},
    {FV_FAULT_FILE_HEADER_SUM, "the header of a file is damaged: its checksum is wrong"},
    {FV_FAULT_FILE_SIZE, "the size of a file is wrong"},
    {FV_FAULT_LARGE_FILE, "a file in an FFS2 volume has the large-file attribute"},
    {FV_FAULT_FILE_SUM, "the data of a file are damaged: the file checksum is wrong"},
    {FV_FAULT_FIXED, "a file is marked fixed, and only volumes whose files may all be moved are read"},
    {FV_FAULT_FREE_SPACE, "the free space of a volume is not erased"},
    {FV_FAULT_DUPLICATE_NAME, "two files in a volume have the same name"},
    {FV_FAULT_TOP_FILE, "the volume top file is not at the end of its volume"},
    {FV_FAULT_SECTION_SIZE, "the size of a section is wrong"},
    {FV_FAULT_SECTION_TAIL, "one to three bytes are left where a section would begin"},
    {FV_FAULT_DEPTH, "groups and volumes nest deeper than eight levels"},
    {FV_FAULT_NO_ROOM, "the files cannot be laid out within the volume's length"},
    {FV_FAULT_TOP_ALIGNMENT, "the volume top file is misaligned when placed at the end of the volume"},
    {FV_OUT_OF_MEMORY, "out of memory"},
    {FV_BUFFER_TOO_SMALL, "the buffer is too small"},
    {FV_NOT_FOUND, "the tree of the volume has no row with this number"},
    {FV_BAD_ARGUMENT, "an argument is not allowed: a null or misaligned pointer, an overlap, an unknown phase or flag"},
    {FV_BAD_GUID, "the text is not a GUID: 8-4-4-4-12 hexadecimal digits"},
    {FV_FAULT_DEPEX_SHORT, "the GUID of an op is cut short"},
    {FV_FAULT_DEPEX_OPCODE, "an op code is unknown in this phase"},
    {FV_FAULT_DEPEX_STACK, "the stack does not hold the values that an op takes"},
    {FV_FAULT_DEPEX_NO_END, "the expression has no end"},
    {FV_FAULT_DEPEX_POSITION, "an op is not allowed at this position"},
    {FV_FAULT_HOB_SHORT, "a block is cut short"},
    {FV_FAULT_HOB_LENGTH, "the length of a block is not a multiple of 8, or is below 8"},
    {FV_FAULT_HOB_FIRST, "the first block is not a hand-off information table"},
    {FV_FAULT_HOB_SHAPE, "the length of a block is wrong for its type"},
    {FV_FAULT_HOB_NO_END, "the list has no end block"},
    {FV_FAULT_OPEN_SHORT, "the section is cut short"},
    {FV_FAULT_OPEN_WAY, "the way to open the section is not known"},
    {FV_FAULT_OPEN_DAMAGED, "the packed data are damaged"},
    {FV_FAULT_OPEN_SUM, "the CRC32 of the contents is wrong"},
    {FV_FAULT_OPEN_TOO_LONG, "the contents are longer than the limit"},
};

const char *fv_result_text(fv_result result)
{
    for (size_t i = 0; i < sizeof entries / sizeof *entries; i++)
        if (entries[i].result == result) return entries[i].text;
    return "no result has this number";
}
