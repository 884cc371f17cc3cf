/* SPDX-License-Identifier: BSD-2-Clause-Patent */
#include "rows.h"

/* Makes a call with room for this many rows, and checks that it keeps no block of memory. */
static fv_result call_rows(const struct rows *rows, void *buffer, size_t room, size_t *count, fv_fault *fault)
{
    *count = UNTOUCHED_64;
    *fault = unset_fault;
    fv_result result = rows->call(rows->bytes, rows->len, buffer, room, count, fault);
    check_no_block_is_kept(rows->name);
    return result;
}

static fv_result count_rows(const struct rows *rows, size_t *count, fv_fault *fault)
{
    size_t with_room, room = rows->len / rows->size + 4;
    fv_fault usual;
    fv_result result = call_rows(rows, no_buffer(), 0, count, fault);
    if (is_counted(result)) {
        check_plain(rows->name, result, *count ? FV_BUFFER_TOO_SMALL : FV_OK, fault);
        return FV_OK;
    }
    fv_result again = call_rows(rows, new_buffer(room * rows->size, rows->alignment), room, &with_room, &usual);
    CHECK(again == result && is_same_fault(&usual, fault), "%s: %u, then %u", rows->name, result, again);
    CHECK(*count == UNTOUCHED_64 && with_room == UNTOUCHED_64, "%s has changed the count", rows->name);
    check_untouched(rows->name);
    return result;
}

/* Makes a call with this much room for `n` rows. */
static void read_rows(const struct rows *rows, size_t n, size_t room, void *into)
{
    size_t count;
    fv_fault fault;
    uint8_t *buffer = new_buffer(room * rows->size, rows->alignment);
    fv_result result = call_rows(rows, buffer, room, &count, &fault);
    check_plain(rows->name, result, room < n ? FV_BUFFER_TOO_SMALL : FV_OK, &fault);
    CHECK(count == n, "%s: %lu, then %lu", rows->name, n, count);
    check_written(result ? 0 : n * rows->size, rows->name);
    if (!result) memcpy(into, buffer, n * rows->size);
}

/* Makes the call with an allocation refused, and with room for all rows or for no row. `usual` is its result without a
 * refusal. */
static void refuse_rows(const struct rows *rows, size_t n, size_t room, fv_result usual)
{
    size_t count = UNTOUCHED_64;
    fv_fault fault, *wanted = FAULT_OR_NULL(rows->parameters, &fault);
    uint8_t *buffer = new_buffer(room * rows->size, rows->alignment);
    if (!usual && room < n) usual = FV_BUFFER_TOO_SMALL;
    refuse_allocation(rows->parameters[REFUSED + rows->which]);
    fv_result result = rows->call(rows->bytes, rows->len, buffer, room, &count, wanted);
    check_refusal(rows->name, result, usual, wanted);
    CHECK(count == (is_counted(result) ? n : UNTOUCHED_64), "%s: count %lu without memory", rows->name, count);
    if (result) check_untouched(rows->name);
}

fv_result try_rows(const struct rows *rows, void *into, size_t *count, fv_fault *fault)
{
    const uint8_t *parameters = rows->parameters;
    fv_result result = count_rows(rows, count, fault);
    bool is_read = !result && *count <= rows->most;
    if (is_read) {
        if (*count) read_rows(rows, *count, *count - 1, into);
        read_rows(rows, *count, *count + (parameters[ROW_CHOICE] & 1 ? 1 + parameters[FILE_CHOICE] % 9 : 0), into);
    }
    bool has_room = is_read && parameters[REFUSED + (rows->which + 1) % 3] & 1;
    refuse_rows(rows, result ? 0 : *count, has_room ? *count : 0, result);
    return result;
}
