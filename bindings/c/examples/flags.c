/* What the constraints of an AIR enforce of a lookup with flags: a memory that a row reads, where column 0 is 1, or
   writes, where column 1 is. Its address is column 2. First without the constraint that no row does both, and then
   with it; and whether the constraints hold on a trace of three rows. flags.txt is what this writes. */
#include "volgwain.h"

#include <stdio.h>

/* x * (x - 1) of a cell, and of the sum of two */
#define BIT(column) \
    {VOLGWAIN_MAIN, 0, column}, {VOLGWAIN_MAIN, 0, column}, {VOLGWAIN_CONSTANT, 1, 0}, \
        {VOLGWAIN_DIFFERENCE, 0, 0}, {VOLGWAIN_PRODUCT, 0, 0}
#define SUM {VOLGWAIN_MAIN, 0, 0}, {VOLGWAIN_MAIN, 0, 1}, {VOLGWAIN_SUM, 0, 0}

static const struct volgwain_node nodes[] = {
    {VOLGWAIN_MAIN, 0, 2},                               /* the tuple of both: the address */
    {VOLGWAIN_CONSTANT, 1, 0}, {VOLGWAIN_CONSTANT, 1, 0}, /* how often each is queried */
    {VOLGWAIN_MAIN, 0, 0}, {VOLGWAIN_MAIN, 0, 1},         /* the flags */
    BIT(0), BIT(1),                                      /* the constraints */
    SUM, SUM, {VOLGWAIN_CONSTANT, 1, 0}, {VOLGWAIN_DIFFERENCE, 0, 0}, {VOLGWAIN_PRODUCT, 0, 0}};
static const struct volgwain_span tuples[] = {{0, 1}, {0, 1}};
static const uint8_t queries[] = {1, 1};
static const uint8_t names[] = {'m', 'e', 'm', 'o', 'r', 'y'};
static const struct volgwain_record memory[] = {{1, 1, 1, {0, 6}, {0, 2}, {1, 3}, {3, 5}}};
static const struct volgwain_tables tables = {nodes, 24, tuples, 2, names, 6, memory, 1};

static struct volgwain_refusal refusal;
static char text[200];

/* The part of the text that there is room for. */
static int length(void)
{
    return (int)(refusal.text_length < sizeof text ? refusal.text_length : sizeof text);
}

/* Prints what some constraints enforce, over traces of eight rows. */
static int report(const char *what, struct volgwain_span constraints)
{
    static const char *const rows[] = {"a row between", "the first row", "the last row", "the only row"};
    struct volgwain_enforced shown = {0, 0, 0, 0, 0};
    struct volgwain_bound bounds[2] = {{0, 0}, {0, 0}};
    if (volgwain_enforced(&tables, &constraints, 8, queries, 2, &shown, 1, bounds, 2, &refusal, text, sizeof text)
        != VOLGWAIN_OK)
        return 0;
    printf("%s: flags %s, weight %s\n", what, shown.flags ? "enforced" : "not shown",
        shown.weight ? "enforced" : "not shown");
    if (shown.missing == VOLGWAIN_MISSING_FLAG)
        printf("  flag %d is not shown to be 0 or 1 on %s\n", (int)shown.flag, rows[shown.rows]);
    if (shown.missing == VOLGWAIN_MISSING_EXCLUSIVE)
        printf("  it is not shown that at most one flag is 1 on %s\n", rows[shown.rows]);
    return 1;
}

int main(void)
{
    static const struct volgwain_span two = {5, 15}, three = {5, 24};
    static const uint32_t lawful[] = {1, 0, 7, 0, 1, 7, 0, 0, 0}, both[] = {1, 0, 7, 1, 1, 7, 0, 0, 0};
    struct volgwain_traces traces = {lawful, 9, 3, NULL, 0, 0, NULL, 0};
    if (!report("two constraints", two) || !report("three constraints", three)
        || volgwain_check_constraints(&tables, &three, &traces, &refusal, text, sizeof text) != VOLGWAIN_OK) {
        printf("refused: %.*s\n", length(), text);
        return 1;
    }
    printf("they hold\n");
    traces.main = both;
    if (volgwain_check_constraints(&tables, &three, &traces, &refusal, text, sizeof text)
        != VOLGWAIN_NONZERO_CONSTRAINT)
        return 1;
    printf("with both flags on row 1: %.*s\n", length(), text);
    return 0;
}
