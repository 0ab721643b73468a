/* The rules of a plan: every entry is compared with all before it, and every closure looked for among all. */
#include "plan_model.h"
#include "../include/jibrufath.h"

const size_t entry_bytes[SECTIONS] = {2, 4, 8};

size_t get_number(const uint8_t *at, size_t bytes)
{
    size_t number = 0;
    while (bytes-- > 0)
        number = number << 8 | at[bytes];
    return number;
}

void put_number(uint8_t *at, size_t bytes, size_t number)
{
    for (size_t i = 0; i < bytes; i++)
        at[i] = (uint8_t)(number >> (8 * i));
}

static const uint8_t *entry(const struct plan *plan, int section, size_t k)
{
    return plan->file + plan->start[section] + entry_bytes[section] * k;
}

static int closure_kept(const struct plan *plan, size_t k)
{
    size_t closure = get_number(entry(plan, CLOSURES, k), 2);
    for (size_t j = 0; j < k; j++)
        if (get_number(entry(plan, CLOSURES, j), 2) >= closure)
            return 0;
    return 1;
}

static int listed(const struct plan *plan, size_t closure)
{
    for (size_t j = 0; j < plan->count[CLOSURES]; j++)
        if (get_number(entry(plan, CLOSURES, j), 2) == closure)
            return 1;
    return 0;
}

static int fibre_kept(const struct plan *plan, size_t k)
{
    size_t closure = get_number(entry(plan, FIBRES, k), 2), number = get_number(entry(plan, FIBRES, k) + 2, 2);
    for (size_t j = 0; j < k; j++) {
        size_t before = get_number(entry(plan, FIBRES, j), 2);
        if (before > closure || (before == closure && get_number(entry(plan, FIBRES, j) + 2, 2) >= number))
            return 0;
    }
    return number >= 1 && number <= 288 && listed(plan, closure);
}

static int splice_kept(const struct plan *plan, size_t k)
{
    size_t first = get_number(entry(plan, SPLICES, k), 4), second = get_number(entry(plan, SPLICES, k) + 4, 4);
    for (size_t j = 0; j < k; j++) {
        size_t one = get_number(entry(plan, SPLICES, j), 4), other = get_number(entry(plan, SPLICES, j) + 4, 4);
        if (one >= first || one == second || other == first || other == second)
            return 0;
    }
    return first < second && second < plan->count[FIBRES]
        && get_number(entry(plan, FIBRES, first), 2) == get_number(entry(plan, FIBRES, second), 2);
}

uint64_t judge_plan(struct plan *plan, const uint8_t *file, size_t len)
{
    static int (*const kept[SECTIONS])(const struct plan *, size_t) = {closure_kept, fibre_kept, splice_kept};
    size_t at = 0;
    *plan = (struct plan){.file = file};
    for (int section = 0; section < SECTIONS; section++) {
        if (len - at < 4)
            return JIBRUFATH_ENTRY | (uint64_t)at << 8;
        size_t count = get_number(file + at, 4);
        plan->start[section] = at += 4;
        for (size_t k = 0; k < count; k++, at += entry_bytes[section])
            if (len - at < entry_bytes[section] || !kept[section](plan, k))
                return JIBRUFATH_ENTRY | (uint64_t)at << 8;
        plan->count[section] = count;
    }
    return at < len ? JIBRUFATH_ENTRY | (uint64_t)at << 8 : JIBRUFATH_OK;
}
