/* SPDX-License-Identifier: BSD-2-Clause-Patent */
/* Checks fv_depex_evaluate: it returns the same result as an evaluator of the harness (PI specification 1.8, volume 2,
 * section 10.7, and volume 1, section 5.7; docs/FAULTS.md defines the order of the faults). */
#include "harness.h"

enum { BEFORE, AFTER, PUSH, AND, OR, NOT, TRUE, FALSE, END, SOR };
#define MOST_STACK (MOST_INPUT + 1) /* an op adds at most one value */

struct evaluation {
    const uint8_t *bytes;
    size_t len, at; /* `at` is the place of the op, or of the fault if there is a fault */
    const fv_guid *installed;
    size_t installed_count;
    size_t height;
    uint8_t stack[MOST_STACK];
    bool is_pei, is_closed; /* closed: BEFORE or AFTER was there, and END must follow */
};

static bool has_guid(uint8_t op)
{
    return op == BEFORE || op == AFTER || op == PUSH;
}

/* Returns the fault of an op, if it has a fault: the fault of the first check that fails. */
static fv_result fault_of(const struct evaluation *e, uint8_t op)
{
    bool is_known = e->is_pei ? op >= PUSH && op <= END : op <= SOR;
    if (!is_known) return FV_FAULT_DEPEX_OPCODE;
    if ((op == BEFORE || op == AFTER || op == SOR) && e->at) return FV_FAULT_DEPEX_POSITION;
    if (e->is_closed && op != END) return FV_FAULT_DEPEX_POSITION;
    if (has_guid(op) && e->len - e->at < 17) return FV_FAULT_DEPEX_SHORT;
    if ((op == AND || op == OR) && e->height < 2) return FV_FAULT_DEPEX_STACK;
    if (op == NOT && e->height < 1) return FV_FAULT_DEPEX_STACK;
    if (op == END && !e->is_closed && e->height != 1) return FV_FAULT_DEPEX_STACK;
    return FV_OK;
}

static bool is_installed(const struct evaluation *e)
{
    for (size_t i = 0; i < e->installed_count; i++)
        if (!memcmp(e->installed[i].bytes, e->bytes + e->at + 1, 16)) return true;
    return false;
}

static void apply(struct evaluation *e, uint8_t op)
{
    uint8_t *top = e->stack + e->height;
    switch (op) {
    case BEFORE:
    case AFTER: e->is_closed = true; break;
    case PUSH: *top = is_installed(e), e->height++; break;
    case AND: top[-2] &= top[-1], e->height--; break;
    case OR: top[-2] |= top[-1], e->height--; break;
    case NOT: top[-1] ^= 1; break;
    case TRUE:
    case FALSE: *top = op == TRUE, e->height++; break;
    default: break;
    }
}

/* Returns the result, with the value or the place of the fault. */
static fv_result evaluate(struct evaluation *e, uint32_t *value)
{
    uint8_t before = END;
    for (;;) {
        if (e->at >= e->len) return FV_FAULT_DEPEX_NO_END;
        uint8_t op = e->bytes[e->at];
        fv_result fault = fault_of(e, op);
        saw(__func__, before * 16u + (op > SOR ? SOR + 1 : op), fault, e->height > 4 ? 4 : e->height);
        if (fault) return fault;
        if (op == END) {
            *value = e->is_closed ? FV_DEPEX_ORDER : e->stack[0];
            return FV_OK;
        }
        apply(e, op);
        before = op;
        e->at += has_guid(op) ? 17 : 1;
    }
}

static void try_phase(struct evaluation *e, uint32_t phase, const uint8_t *parameters)
{
    uint32_t value = UNTOUCHED, expected = UNTOUCHED;
    fv_fault fault = unset_fault;
    e->at = e->height = 0;
    e->is_pei = phase == FV_PHASE_PEI;
    e->is_closed = false;
    fv_result wanted = evaluate(e, &expected);
    fv_result result = fv_depex_evaluate(e->bytes, e->len, phase, e->installed, e->installed_count, &value, &fault);
    check_no_block_is_kept("depex");
    saw(__func__, result, e->is_pei, e->at > 40 ? 40 : e->at);
    CHECK(result == wanted, "depex: %u, not %u at %zu", result, wanted, e->at);
    CHECK(value == expected, "depex: value %u, not %u", value, expected);
    check_result("depex", result, &fault, FV_FAULT_DEPEX_POSITION, e->len);
    if (result)
        CHECK(fault.offset == e->at && !fault.depth && !fault.input, "depex: fault %u at %lu, not at %zu", result,
              fault.offset, e->at);
    fv_fault *unless_null = FAULT_OR_NULL(parameters, &fault);
    value = UNTOUCHED;
    refuse_allocation(parameters[REFUSED]);
    fv_result again = fv_depex_evaluate(e->bytes, e->len, phase, e->installed, e->installed_count, &value, unless_null);
    check_refusal("depex", again, result, unless_null);
    CHECK(value == (again ? UNTOUCHED : expected), "depex has written a value without memory");
}

void try_expression(const uint8_t *bytes, size_t len, const uint8_t *parameters)
{
    static struct evaluation evaluation;
    fv_guid installed[3];
    size_t count = parameters[PAIR] & 3;
    for (size_t i = 0; i < count; i++) { /* GUIDs that the expression may push, or other GUIDs */
        size_t place = 1 + 17 * i;
        if (place + 16 <= len)
            memcpy(installed[i].bytes, bytes + place, 16);
        else
            memset(&installed[i], (int)i, 16);
    }
    evaluation.bytes = bytes;
    evaluation.len = len;
    evaluation.installed = count || parameters[FILE_CHOICE] & 4 ? installed : NULL;
    evaluation.installed_count = count;
    try_phase(&evaluation, FV_PHASE_PEI, parameters);
    try_phase(&evaluation, FV_PHASE_DXE, parameters);
}
