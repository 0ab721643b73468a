/* What the harness knows of plans by itself: the rules, with each entry judged against every one before it. */
#ifndef PLAN_MODEL_H
#define PLAN_MODEL_H

#include <stddef.h>
#include <stdint.h>

/* The three sections of a plan, in their order, and the bytes of an entry in each. */
enum { CLOSURES, FIBRES, SPLICES, SECTIONS };
extern const size_t entry_bytes[SECTIONS];

/* A file that is taken for a plan: where the entries of each section begin, and how many there are. */
struct plan {
    const uint8_t *file;
    size_t start[SECTIONS], count[SECTIONS];
};

/* A number of so many bytes, low first. */
size_t get_number(const uint8_t *at, size_t bytes);
void put_number(uint8_t *at, size_t bytes, size_t number);

/* Takes a file apart, and gives the answer of its reader: OK, or 18 with the offset of what breaks a rule, is cut or is left over. */
uint64_t judge_plan(struct plan *plan, const uint8_t *file, size_t len);

#endif
