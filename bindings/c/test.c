/* The calls of volgwain.h on small traces: their answers, each code but 14 and 23, which take billions of lookups
   or messages, memory that runs out at each request, four threads at once, and a stack of 256 KB, of 384 KB to read
   JSON, or of 1 MB to say what constraints enforce. */
#define _POSIX_C_SOURCE 200809L
#include "volgwain.h"

#include <pthread.h>
#include <stdio.h>
#include <stdlib.h>
#include <string.h>

/* 1/2 is (p + 1) / 2 and 1/4 is (3p + 1) / 4 */
#define HALF 1006632961u
#define MINUS_HALF 1006632960u
#define QUARTER 1509949441u

#define COUNT(list) (sizeof(list) / sizeof((list)[0]))

static int failures = 0;

static void check(int holds, const char *what)
{
    if (!holds) {
        printf("failed: %s\n", what);
        failures++;
    }
}

/* ---- the sizes of the structs, which the crate for Rust tests as well ---- */

#define SIZE(name, size) check(sizeof(struct volgwain_##name) == (size), "the size of " #name)

static void check_sizes(void)
{
    if (sizeof(size_t) != 8)
        return;
    SIZE(element, 16);
    SIZE(node, 16);
    SIZE(span, 16);
    SIZE(record, 80);
    SIZE(tables, 64);
    SIZE(traces, 64);
    SIZE(terminal, 20);
    SIZE(refusal, 56);
    SIZE(table_sizes, 32);
    SIZE(air, 88);
    SIZE(air_witness, 48);
    SIZE(plan_sizes, 16);
    SIZE(wide, 16);
    SIZE(counts, 88);
    SIZE(height_counts, 56);
    SIZE(grid, 40);
    SIZE(rows, 24);
    SIZE(fit, 56);
    SIZE(enforced, 24);
    SIZE(bound, 16);
}

/* ---- arrays without items, which are NULL ---- */

static const struct volgwain_tables no_tables = {NULL, 0, NULL, 0, NULL, 0, NULL, 0};
static const struct volgwain_traces no_traces = {NULL, 0, 0, NULL, 0, 0, NULL, 0};

/* The calls on one AIR that has nothing. */
static void check_null_airs(void)
{
    static const struct volgwain_element one = {{1, 0, 0, 0}};
    static const struct volgwain_plan_sizes sizes = {1, 0};
    static const uint32_t cell[] = {3};
    static const struct volgwain_traces row = {cell, 1, 1, NULL, 0, 0, NULL, 0};
    static const struct volgwain_rows rows = {0, 1, 1};
    static const struct volgwain_air_witness witness = {NULL, 0, 0, {0, {{0, 0, 0, 0}}}};
    struct volgwain_terminal terminal = {1, {{1, 0, 0, 0}}};
    struct volgwain_element sum = {{1, 0, 0, 0}};
    struct volgwain_table_sizes written = {1, 1, 1, 1};
    static const struct volgwain_span nothing = {0, 0};
    struct volgwain_fit fit = {9, 9, 9, 9, 9, 9, 9, 9};
    struct volgwain_refusal refusal;
    memset(&refusal, 0, sizeof refusal);
    check(volgwain_generate(&no_tables, &no_traces, NULL, 0, NULL, 0, &terminal, &refusal, NULL, 0)
                == VOLGWAIN_OK
            && terminal.present == 0,
        "generate with NULL");
    terminal.present = 1;
    check(volgwain_generate_by_ids(&no_tables, &no_traces, NULL, 0, &sizes, &one, &one, NULL, 0, &terminal,
              &refusal, NULL, 0)
                == VOLGWAIN_OK
            && terminal.present == 0,
        "generate_by_ids with NULL");
    check(volgwain_generate_rows(&no_tables, &row, &rows, NULL, 0, &sizes, &one, &one, NULL, 0, &sum, &refusal,
              NULL, 0)
                == VOLGWAIN_OK
            && sum.c[0] == 0,
        "generate_rows with NULL");
    check(volgwain_verify_rows(&no_tables, &row, &rows, NULL, 0, &sizes, &one, &one, &witness, &refusal, NULL,
              0)
            == VOLGWAIN_OK,
        "verify_rows with NULL");
    check(volgwain_shift(NULL, 0, 1, &one, &refusal, NULL, 0) == VOLGWAIN_OK, "shift with NULL");
    check(volgwain_verify_air(&no_tables, &no_traces, NULL, 0, &witness, &refusal, NULL, 0) == VOLGWAIN_OK,
        "verify_air with NULL");
    check(volgwain_fit_fault(&no_tables, &no_traces, &fit, &refusal, NULL, 0) == VOLGWAIN_OK
            && fit.reason == VOLGWAIN_FIT_OK && fit.preprocessed_height == 0,
        "fit_fault with NULL");
    check(volgwain_degrees(&no_tables, 0, NULL, 0, &refusal, NULL, 0) == VOLGWAIN_OK, "degrees with NULL");
    check(volgwain_enforced(&no_tables, &nothing, 1, NULL, 0, NULL, 0, NULL, 0, &refusal, NULL, 0) == VOLGWAIN_OK,
        "enforced with NULL");
    check(volgwain_check_constraints(&no_tables, &nothing, &no_traces, &refusal, NULL, 0) == VOLGWAIN_OK,
        "check_constraints with NULL");
    check(volgwain_pack(&no_tables, 3, NULL, 0, NULL, 0, NULL, 0, NULL, 0, &written, &refusal, NULL, 0)
                == VOLGWAIN_OK
            && written.nodes + written.tuples + written.names + written.records == 0,
        "pack with NULL");
    written.records = 1;
    check(volgwain_read_json("[]", 2, NULL, 0, NULL, 0, NULL, 0, NULL, 0, &written, &refusal, NULL, 0)
                == VOLGWAIN_OK
            && written.records == 0,
        "read_json into NULL");
    check(volgwain_read_json(NULL, 0, NULL, 0, NULL, 0, NULL, 0, NULL, 0, &written, &refusal, NULL, 0)
                == VOLGWAIN_BAD_TEXT
            && refusal.text_length > 0,
        "read_json of NULL");
}

/* The calls on a batch of no AIRs, and then on one AIR that has nothing. */
static void check_null_batches(void)
{
    static const struct volgwain_element one = {{1, 0, 0, 0}};
    static const struct volgwain_air_witness witness = {NULL, 0, 0, {0, {{0, 0, 0, 0}}}};
    struct volgwain_air air;
    struct volgwain_plan_sizes sizes;
    struct volgwain_counts counts;
    struct volgwain_height_counts height_counts;
    struct volgwain_grid grid;
    struct volgwain_terminal terminal;
    struct volgwain_refusal refusal;
    size_t airs, number, written;
    memset(&sizes, 0, sizeof sizes);
    memset(&counts, 0, sizeof counts);
    memset(&height_counts, 0, sizeof height_counts);
    memset(&grid, 0, sizeof grid);
    memset(&terminal, 0, sizeof terminal);
    memset(&refusal, 0, sizeof refusal);
    air.tables = no_tables;
    air.height = 0;
    air.ids = NULL;
    air.ids_length = 0;
    for (airs = 0; airs <= 1; airs++) {
        const struct volgwain_air *list = airs == 0 ? NULL : &air;
        const struct volgwain_traces *traces = airs == 0 ? NULL : &no_traces;
        check(volgwain_plan(list, airs, NULL, 0, &sizes, &refusal, NULL, 0) == VOLGWAIN_OK
                && sizes.max_message_width == 1 && sizes.num_ids == 0,
            "plan with NULL");
        check(volgwain_prove(list, airs, traces, airs, &one, &one, NULL, 0, airs == 0 ? NULL : &terminal, airs,
                  &refusal, NULL, 0)
                == VOLGWAIN_OK,
            "prove with NULL");
        check(volgwain_verify(list, airs, traces, airs, &one, &one, airs == 0 ? NULL : &witness, airs,
                  &refusal, NULL, 0)
                == VOLGWAIN_OK,
            "verify with NULL");
        check(volgwain_soundness_count(list, airs, traces, airs, &counts, &refusal, NULL, 0) == VOLGWAIN_OK,
            "soundness_count with NULL");
        check(volgwain_soundness_of_heights(list, airs, &height_counts, &refusal, NULL, 0) == VOLGWAIN_OK,
            "soundness_of_heights with NULL");
        check(volgwain_grid_count(list, airs, traces, airs, NULL, 0, NULL, 0, &grid, &refusal, NULL, 0)
                == VOLGWAIN_OK,
            "grid_count with NULL");
        check(volgwain_debug_check(airs == 0 ? NULL : &no_tables, airs, traces, airs, &refusal, NULL, 0)
                == VOLGWAIN_OK,
            "debug_check with NULL");
        number = written = 9;
        check(volgwain_bus_table(airs == 0 ? NULL : &no_tables, airs, traces, airs, 9, NULL, 0, &written,
                  &refusal, NULL, 0)
                    == VOLGWAIN_BAD_LENGTH
                && refusal.expected == 1 && written == 9,
            "bus_table into NULL");
        check(volgwain_bus_table(airs == 0 ? NULL : &no_tables, airs, traces, airs, 9, &number, 1, &written,
                  &refusal, NULL, 0)
                    == VOLGWAIN_OK
                && number == 0 && written == 1,
            "bus_table with NULL");
        number = written = 9;
        check(volgwain_mismatch(airs == 0 ? NULL : &no_tables, airs, traces, airs, 9, &number, 1, &written,
                  &refusal, NULL, 0)
                    == VOLGWAIN_OK
                && number == 0 && written == 1,
            "mismatch with NULL");
    }
}

/* ---- the number of the interface ---- */

static void check_abi(void)
{
    check(VOLGWAIN_ABI == 3 && volgwain_abi_3() == 3, "the number of the interface");
}

/* ---- memory: how many blocks are live, how many were asked for, and which requests are refused ---- */

static long live = 0;
static long asked = 0;           /* how many requests there were */
static long before_refusal = -1; /* how many requests are granted yet; -1: all */
static int refuses_all = 0;      /* whether later requests are refused too */
static int spares_others = 0;    /* whether those of one thread alone are refused: of this one */
static pthread_t refused_thread;

void *__real_malloc(size_t size);
void *__real_realloc(void *block, size_t size);
void __real_free(void *block);
void *__wrap_malloc(size_t size);
void *__wrap_realloc(void *block, size_t size);
void __wrap_free(void *block);

static int is_refused(void)
{
    __atomic_add_fetch(&asked, 1, __ATOMIC_SEQ_CST);
    if ((spares_others && !pthread_equal(pthread_self(), refused_thread)) || before_refusal < 0)
        return 0;
    if (before_refusal == 0) {
        if (!refuses_all)
            before_refusal = -1;
        return 1;
    }
    before_refusal--;
    return 0;
}

void *__wrap_malloc(size_t size)
{
    void *block = is_refused() ? NULL : __real_malloc(size);
    if (block != NULL)
        __atomic_add_fetch(&live, 1, __ATOMIC_SEQ_CST);
    return block;
}

void *__wrap_realloc(void *block, size_t size)
{
    void *moved = is_refused() ? NULL : __real_realloc(block, size);
    if (moved != NULL && block == NULL)
        __atomic_add_fetch(&live, 1, __ATOMIC_SEQ_CST);
    return moved;
}

void __wrap_free(void *block)
{
    if (block != NULL)
        __atomic_sub_fetch(&live, 1, __ATOMIC_SEQ_CST);
    __real_free(block);
}

/* ---- one AIR with a local lookup: [read] with count 1, [provide] with count -mult ---- */

struct range {
    struct volgwain_node nodes[5];
    struct volgwain_span tuples[2];
    uint8_t names[3];
    struct volgwain_record records[1];
    uint32_t main[6];
    uint32_t preprocessed[3];
    struct volgwain_element challenges[2];
    struct volgwain_tables tables;
    struct volgwain_traces traces;
    struct volgwain_element auxiliary[4];
    size_t auxiliary_length;
    struct volgwain_terminal terminal;
    struct volgwain_refusal refusal;
    char text[200];
};

static void make_range(struct range *it)
{
    static const struct range made = {
        {{VOLGWAIN_MAIN, 0, 0}, {VOLGWAIN_MAIN, 0, 1}, {VOLGWAIN_CONSTANT, 1, 0},
            {VOLGWAIN_MAIN, 0, 2}, {VOLGWAIN_NEGATION, 0, 0}},
        {{0, 1}, {1, 2}},
        {'b', 'u', 's'},
        {{0, 0, 1, {0, 3}, {0, 2}, {2, 5}, {2, 4}}},
        {3, 4, 1, 4, 3, 1},
        {7, 7, 7},
        {{{5, 0, 0, 0}}, {{2, 0, 0, 0}}},
        {0, 0, 0, 0, 0, 0, 0, 0},
        {0, 0, 0, 0, 0, 0, 0, 0},
        {{{9, 9, 9, 9}}, {{9, 9, 9, 9}}, {{9, 9, 9, 9}}, {{9, 9, 9, 9}}},
        4,
        {9, {{9, 9, 9, 9}}},
        {9, 9, 9, 9, 9, 9, 9, 9},
        ""};
    *it = made;
    it->tables.nodes = it->nodes;
    it->tables.nodes_length = 5;
    it->tables.tuples = it->tuples;
    it->tables.tuples_length = 2;
    it->tables.names = it->names;
    it->tables.names_length = 3;
    it->tables.records = it->records;
    it->tables.records_length = 1;
    it->traces.main = it->main;
    it->traces.main_length = 6;
    it->traces.main_width = 3;
    it->traces.preprocessed = it->preprocessed;
    it->traces.public_values = it->main;
}

static uint32_t generate(struct range *it)
{
    return volgwain_generate(&it->tables, &it->traces, it->challenges, COUNT(it->challenges),
        it->auxiliary, it->auxiliary_length, &it->terminal, &it->refusal, it->text, sizeof it->text);
}

static int is_base(const struct volgwain_element *x, uint32_t c0)
{
    return x->c[0] == c0 && x->c[1] == 0 && x->c[2] == 0 && x->c[3] == 0;
}

/* fractions 1/2 - 1 and 1 - 1/2, their running sum, and its end */
static int is_generated(const struct range *it)
{
    return it->refusal.code == 0 && it->refusal.text_length == 0 && is_base(&it->auxiliary[0], 0)
        && is_base(&it->auxiliary[1], MINUS_HALF) && is_base(&it->auxiliary[2], MINUS_HALF)
        && is_base(&it->auxiliary[3], HALF) && it->terminal.present == 1
        && is_base(&it->terminal.value, 0);
}

static int is_untouched(const struct range *it)
{
    struct range before;
    make_range(&before);
    return memcmp(it->auxiliary, before.auxiliary, sizeof before.auxiliary) == 0
        && memcmp(&it->terminal, &before.terminal, sizeof before.terminal) == 0;
}

/* the text is this one, with a closing zero */
static int has_text(const struct volgwain_refusal *refusal, const char *text, const char *expected)
{
    return refusal->text_length == strlen(expected)
        && memcmp(text, expected, strlen(expected) + 1) == 0;
}

/* a call is refused with these places, and has written nothing else */
static void check_refused(struct range *it, const char *what, uint32_t code, uint32_t part, size_t row,
    size_t lookup, size_t expected, size_t actual)
{
    const struct volgwain_refusal *r = &it->refusal;
    uint32_t answer = generate(it);
    check(answer == code && r->code == code && r->part == part && r->air == 0 && r->row == row
            && r->lookup == lookup && r->expected == expected && r->actual == actual,
        what);
    check(is_untouched(it), what);
    check(r->text_length > 0, what);
}

static void check_generation(void)
{
    struct range it;
    make_range(&it);
    check(generate(&it) == VOLGWAIN_OK && is_generated(&it), "the worked rows are generated");

    make_range(&it);
    it.challenges[0].c[0] = 3;
    check_refused(&it, "vanishing", VOLGWAIN_VANISHING_DENOMINATOR, 0, 0, 0, 0, 0);
    check(has_text(&it.refusal, it.text, "air 0: row 0, lookup 0: vanishing denominator"),
        "the text of a vanishing denominator");
    it.text[3] = '#';
    check(volgwain_generate(&it.tables, &it.traces, it.challenges, 2, it.auxiliary, 4, &it.terminal,
              &it.refusal, it.text, 3)
                == VOLGWAIN_VANISHING_DENOMINATOR
            && it.text[3] == '#' && it.refusal.text_length == 45,
        "a text is cut");

    make_range(&it);
    it.challenges[0].c[0] = 4;
    check_refused(&it, "vanishing at provide", VOLGWAIN_VANISHING_DENOMINATOR, 0, 0, 0, 0, 0);

    make_range(&it);
    it.nodes[4].index = 1;
    check_refused(&it, "a negation with an index", VOLGWAIN_BAD_TABLE, 1, 4, 0, 0, 0);
    make_range(&it);
    it.nodes[4].kind = 11;
    check_refused(&it, "no kind", VOLGWAIN_BAD_TABLE, 1, 4, 0, 0, 0);
    make_range(&it);
    it.nodes[0].kind = VOLGWAIN_SUM;
    check_refused(&it, "a sum of nothing", VOLGWAIN_BAD_TABLE, 1, 0, 0, 0, 0);
    make_range(&it);
    it.nodes[2].number = VOLGWAIN_MODULUS;
    check_refused(&it, "a constant past the modulus", VOLGWAIN_BAD_TABLE, 1, 2, 0, 0, 0);
    make_range(&it);
    it.records[0].multiplicities.end = 6;
    check_refused(&it, "a range past the nodes", VOLGWAIN_BAD_TABLE, 2, 0, 0, 0, 0);
    make_range(&it);
    it.records[0].tuples.start = 3;
    check_refused(&it, "a range that ends before it starts", VOLGWAIN_BAD_TABLE, 2, 0, 0, 0, 0);
    make_range(&it);
    it.records[0].kind = 2;
    check_refused(&it, "no kind of bus", VOLGWAIN_BAD_TABLE, 4, 0, 0, 0, 0);
    make_range(&it);
    it.records[0].exclusive = 2;
    check_refused(&it, "flags or none", VOLGWAIN_BAD_TABLE, 4, 0, 0, 0, 0);
    make_range(&it);
    it.records[0].kind = 1;
    check(generate(&it) == VOLGWAIN_OK && is_generated(&it), "the same on a bus");
    make_range(&it);
    it.records[0].kind = 1;
    it.names[1] = 0xff;
    check_refused(&it, "no UTF-8", VOLGWAIN_BAD_TABLE, 5, 0, 0, 0, 0);

    make_range(&it);
    it.main[4] = 4000000000u;
    check_refused(&it, "a cell past the modulus", VOLGWAIN_BAD_NUMBER, VOLGWAIN_PART_MAIN, 4, 0, 0, 0);
    make_range(&it);
    it.challenges[1].c[3] = VOLGWAIN_MODULUS;
    check_refused(
        &it, "a challenge past the modulus", VOLGWAIN_BAD_NUMBER, VOLGWAIN_PART_CHALLENGES, 1, 0, 0, 0);
    make_range(&it);
    it.traces.main_length = 5;
    check_refused(&it, "ragged", VOLGWAIN_NO_WHOLE_ROWS, VOLGWAIN_PART_MAIN, 0, 0, 0, 0);
    make_range(&it);
    it.traces.preprocessed_length = 3;
    check_refused(&it, "cells without a width", VOLGWAIN_NO_WHOLE_ROWS, VOLGWAIN_PART_PREPROCESSED, 0, 0,
        0, 0);
    make_range(&it);
    it.traces.preprocessed_length = 3;
    it.traces.preprocessed_width = 1;
    check_refused(
        &it, "three rows beside two", VOLGWAIN_OTHER_HEIGHT, VOLGWAIN_PART_PREPROCESSED, 0, 0, 0, 0);
    make_range(&it);
    it.nodes[3].index = 3;
    check_refused(&it, "a column past the trace", VOLGWAIN_DOES_NOT_FIT, 0, 0, 0, 0, 0);
    make_range(&it);
    it.nodes[3].number = 2;
    check_refused(&it, "a row past the window", VOLGWAIN_DOES_NOT_FIT, 0, 0, 0, 0, 0);
    make_range(&it);
    it.records[0].multiplicities.end = 3;
    check_refused(&it, "one multiplicity for two tuples", VOLGWAIN_DOES_NOT_FIT, 0, 0, 0, 0, 0);

    make_range(&it);
    it.records[0].exclusive = 1;
    check_refused(&it, "two flags that are set", VOLGWAIN_FLAGS_NOT_EXCLUSIVE, 0, 0, 0, 0, 0);
    make_range(&it);
    it.records[0].exclusive = 1;
    it.main[5] = 2;
    it.main[2] = 0;
    check_refused(&it, "a flag of two", VOLGWAIN_FLAG_NOT_BOOLEAN, 0, 1, 0, 0, 0);

    make_range(&it);
    it.auxiliary_length = 3;
    check_refused(&it, "room for three", VOLGWAIN_BAD_LENGTH, VOLGWAIN_PART_AUXILIARY, 0, 0, 4, 3);
    make_range(&it);
    check(volgwain_generate(&it.tables, &it.traces, it.challenges, 1, it.auxiliary, 4, &it.terminal,
              &it.refusal, it.text, 0)
                == VOLGWAIN_BAD_LENGTH
            && it.refusal.part == VOLGWAIN_PART_CHALLENGES && it.refusal.expected == 2
            && it.refusal.actual == 1 && is_untouched(&it),
        "one challenge");

    make_range(&it);
    it.tables.records_length = 0;
    it.auxiliary_length = 0;
    check(generate(&it) == VOLGWAIN_OK && it.terminal.present == 0 && is_base(&it.terminal.value, 0),
        "no lookups, no terminal");
}

/* ---- the same AIR verified under its challenges ---- */

struct verdict {
    struct range one;
    struct volgwain_element cells[4];
    struct volgwain_air_witness witness;
    size_t challenges_length;
};

/* the witness that is_generated knows */
static void make_verdict(struct verdict *it)
{
    static const uint32_t cells[4] = {0, MINUS_HALF, MINUS_HALF, HALF};
    int i;
    make_range(&it->one);
    memset(it->cells, 0, sizeof it->cells);
    for (i = 0; i < 4; i++)
        it->cells[i].c[0] = cells[i];
    memset(&it->witness, 0, sizeof it->witness);
    it->witness.auxiliary = it->cells;
    it->witness.auxiliary_length = 4;
    it->witness.width = 2;
    it->witness.terminal.present = 1;
    it->challenges_length = 2;
}

static uint32_t verify_air(struct verdict *it)
{
    struct range *one = &it->one;
    return volgwain_verify_air(&one->tables, &one->traces, one->challenges, it->challenges_length, &it->witness,
        &one->refusal, one->text, sizeof one->text);
}

static void check_verdict(struct verdict *it, const char *what, uint32_t code, uint32_t part, size_t row,
    size_t expected, size_t actual)
{
    const struct volgwain_refusal *r = &it->one.refusal;
    uint32_t answer = verify_air(it);
    check(answer == code && r->code == code && r->part == part && r->air == 0 && r->row == row
            && r->lookup == 0 && r->expected == expected && r->actual == actual && r->text_length > 0,
        what);
}

static void check_air_verification(void)
{
    static const struct volgwain_element more[3] = {{{5, 0, 0, 0}}, {{2, 0, 0, 0}}, {{1, 1, 1, 1}}};
    struct verdict it;
    make_verdict(&it);
    check(verify_air(&it) == VOLGWAIN_OK && it.one.refusal.code == 0 && it.one.refusal.text_length == 0,
        "an AIR is verified under its challenges");
    check(volgwain_verify_air(&it.one.tables, &it.one.traces, more, 3, &it.witness, &it.one.refusal, NULL, 0)
            == VOLGWAIN_OK,
        "further challenges are ignored");
    it.one.challenges[0].c[0] = 6;
    check_verdict(&it, "another alpha", VOLGWAIN_CONSTRAINT_FAILED, 0, 0, 0, 0);
    make_verdict(&it);
    it.witness.terminal.value.c[3] = 1;
    check_verdict(&it, "another terminal", VOLGWAIN_CONSTRAINT_FAILED, 0, 1, 0, 0);
    /* 4 is provided once more, so the fraction on row 0 and the terminal are less by one: each constraint is zero,
       and the sum of a batch is not looked at */
    make_verdict(&it);
    it.one.main[2] = 2;
    it.cells[1].c[0] = it.cells[2].c[0] = MINUS_HALF - 1;
    it.witness.terminal.value.c[0] = VOLGWAIN_MODULUS - 1;
    check(verify_air(&it) == VOLGWAIN_OK, "a terminal that is not zero");
    make_verdict(&it);
    it.one.tables.records_length = 0;
    check_verdict(&it, "a terminal without lookups", VOLGWAIN_TERMINAL_PRESENCE, 0, 0, 0, 1);
    it.witness.terminal.present = 0;
    check_verdict(&it, "cells without lookups", VOLGWAIN_AUXILIARY_WIDTH, 0, 0, 0, 0);
    it.witness.auxiliary_length = it.witness.width = 0;
    check(verify_air(&it) == VOLGWAIN_OK, "nothing is verified without lookups");
}

/* Each of these has what the one before it is refused for as well, which is tested later. */
static void check_refused_air(void)
{
    struct verdict it;
    make_verdict(&it);
    it.cells[3].c[2] = 1;
    check_verdict(&it, "a fraction", VOLGWAIN_CONSTRAINT_FAILED, 0, 1, 0, 0);
    check(has_text(&it.one.refusal, it.one.text, "air 0: constraint failed at row 1"), "the text of a row");
    it.cells[0].c[1] = 1;
    check_verdict(&it, "an accumulator", VOLGWAIN_CONSTRAINT_FAILED, 0, 0, 0, 0);
    it.witness.auxiliary_length = 2;
    check_verdict(&it, "one row", VOLGWAIN_AUXILIARY_HEIGHT, 0, 0, 0, 0);
    it.witness.auxiliary_length = it.witness.width = 4;
    check_verdict(&it, "width 4", VOLGWAIN_AUXILIARY_WIDTH, 0, 0, 2, 0);
    it.witness.terminal.present = 0;
    check_verdict(&it, "no terminal", VOLGWAIN_TERMINAL_PRESENCE, 0, 0, 1, 0);
    it.challenges_length = 1;
    check_verdict(&it, "one challenge", VOLGWAIN_BAD_LENGTH, VOLGWAIN_PART_CHALLENGES, 0, 2, 1);
    it.one.traces.preprocessed_length = 3;
    it.one.traces.preprocessed_width = 1;
    check_verdict(&it, "three rows", VOLGWAIN_OTHER_HEIGHT, VOLGWAIN_PART_PREPROCESSED, 0, 0, 0);
    it.one.nodes[3].index = 3;
    check_verdict(&it, "a column past the trace", VOLGWAIN_DOES_NOT_FIT, 0, 0, 0, 0);
    it.witness.terminal.present = 1;
    it.witness.terminal.value.c[2] = VOLGWAIN_MODULUS;
    check_verdict(&it, "a terminal", VOLGWAIN_BAD_NUMBER, VOLGWAIN_PART_TERMINALS, 0, 0, 0);
    it.cells[2].c[1] = VOLGWAIN_MODULUS;
    check_verdict(&it, "a cell", VOLGWAIN_BAD_NUMBER, VOLGWAIN_PART_AUXILIARY, 2, 0, 0);
    it.witness.width = 3;
    check_verdict(&it, "ragged", VOLGWAIN_NO_WHOLE_ROWS, VOLGWAIN_PART_AUXILIARY, 0, 0, 0);
    it.one.challenges[0].c[3] = VOLGWAIN_MODULUS;
    check_verdict(&it, "alpha", VOLGWAIN_BAD_NUMBER, VOLGWAIN_PART_CHALLENGES, 0, 0, 0);
    it.one.preprocessed[1] = VOLGWAIN_MODULUS;
    check_verdict(&it, "a preprocessed cell", VOLGWAIN_BAD_NUMBER, VOLGWAIN_PART_PREPROCESSED, 1, 0, 0);
    it.one.main[4] = VOLGWAIN_MODULUS;
    check_verdict(&it, "a cell of the trace", VOLGWAIN_BAD_NUMBER, VOLGWAIN_PART_MAIN, 4, 0, 0);
    it.one.traces.main_length = 5;
    check_verdict(&it, "a ragged trace", VOLGWAIN_NO_WHOLE_ROWS, VOLGWAIN_PART_MAIN, 0, 0, 0);
    it.one.records[0].kind = 2;
    check_verdict(&it, "no kind of bus", VOLGWAIN_BAD_TABLE, 4, 0, 0, 0);
}

/* ---- whether it fits its traces ---- */

static uint32_t fit_fault(struct range *it, struct volgwain_fit *fit)
{
    return volgwain_fit_fault(&it->tables, &it->traces, fit, &it->refusal, it->text, sizeof it->text);
}

static void check_fit(struct range *it, const char *what, uint32_t reason, uint32_t part, size_t lookup,
    size_t row, size_t column, size_t width)
{
    struct volgwain_fit fit;
    memset(&fit, 9, sizeof fit);
    check(fit_fault(it, &fit) == VOLGWAIN_OK && it->refusal.code == 0 && fit.reason == reason && fit.part == part
            && fit.lookup == lookup && fit.row == row && fit.column == column && fit.width == width
            && fit.height == 0 && fit.preprocessed_height == 0,
        what);
}

static void check_fits(void)
{
    struct range it;
    struct volgwain_fit fit;
    struct volgwain_record two[2];
    make_range(&it);
    check_fit(&it, "the worked rows fit", VOLGWAIN_FIT_OK, 0, 0, 0, 0, 0);
    it.nodes[3].number = 1;
    check_fit(&it, "and so does the next row", VOLGWAIN_FIT_OK, 0, 0, 0, 0, 0);
    it.nodes[3].number = 2;
    check_fit(&it, "but no other row", VOLGWAIN_FIT_MISSING, VOLGWAIN_PART_MAIN, 0, 2, 2, 3);

    /* each of these has what the one before it has as well, which is looked at later */
    make_range(&it);
    it.traces.preprocessed_length = 3;
    it.traces.preprocessed_width = 1;
    memset(&fit, 9, sizeof fit);
    check(fit_fault(&it, &fit) == VOLGWAIN_OK && fit.reason == VOLGWAIN_FIT_HEIGHTS && fit.part == 0
            && fit.lookup == 0 && fit.row == 0 && fit.column == 0 && fit.width == 0 && fit.height == 2
            && fit.preprocessed_height == 3,
        "three rows beside two");
    it.nodes[3].index = 8;
    check_fit(&it, "a multiplicity", VOLGWAIN_FIT_MISSING, VOLGWAIN_PART_MAIN, 0, 0, 8, 3);
    it.nodes[1].kind = VOLGWAIN_PUBLIC;
    it.traces.public_values_length = 1;
    check_fit(&it, "a public value", VOLGWAIN_FIT_MISSING, VOLGWAIN_PART_PUBLIC_VALUES, 0, 0, 1, 1);
    it.nodes[0].kind = VOLGWAIN_PREPROCESSED;
    it.nodes[0].number = 1;
    it.nodes[0].index = 1;
    check_fit(&it, "a preprocessed column", VOLGWAIN_FIT_MISSING, VOLGWAIN_PART_PREPROCESSED, 0, 1, 1, 1);
    two[1] = it.records[0];
    two[0] = it.records[0];
    two[0].tuples.start = two[0].tuples.end;
    two[0].multiplicities.start = two[0].multiplicities.end;
    it.tables.records = two;
    it.tables.records_length = 2;
    check_fit(&it, "the second lookup", VOLGWAIN_FIT_MISSING, VOLGWAIN_PART_PREPROCESSED, 1, 1, 1, 1);
    two[1].multiplicities.end = 3;
    check_fit(&it, "one multiplicity for two tuples", VOLGWAIN_FIT_MALFORMED, 0, 1, 0, 0, 0);

    memset(&fit, 9, sizeof fit);
    it.main[4] = VOLGWAIN_MODULUS;
    check(fit_fault(&it, &fit) == VOLGWAIN_BAD_NUMBER && it.refusal.part == VOLGWAIN_PART_MAIN
            && it.refusal.row == 4 && it.refusal.text_length > 0,
        "a cell past the modulus");
    it.traces.main_length = 5;
    check(fit_fault(&it, &fit) == VOLGWAIN_NO_WHOLE_ROWS && it.refusal.part == VOLGWAIN_PART_MAIN, "ragged");
    two[0].kind = 2;
    check(fit_fault(&it, &fit) == VOLGWAIN_BAD_TABLE && it.refusal.part == 4 && it.refusal.lookup == 0,
        "no kind of bus");
    check(fit.reason == 0x09090909 && fit.preprocessed_height == fit.lookup && fit.lookup != 0,
        "a refused fit is kept");
}

/* Over a trace without rows no constraint binds a terminal, so one that is 5 would pass. */
static void check_no_rows(void)
{
    struct range one;
    struct verdict it;
    make_range(&one);
    one.traces.main_length = 0;
    one.auxiliary_length = 0;
    check_refused(&one, "a lookup over no rows", VOLGWAIN_DOES_NOT_FIT, 0, 0, 0, 0, 0);
    check_fit(&one, "of which a fit does not tell", VOLGWAIN_FIT_OK, 0, 0, 0, 0, 0);
    one.traces.preprocessed_length = 3;
    one.traces.preprocessed_width = 1;
    check_refused(&one, "a lookup over no rows, before the heights", VOLGWAIN_DOES_NOT_FIT, 0, 0, 0, 0, 0);
    check(volgwain_generate(&one.tables, &one.traces, NULL, 0, NULL, 0, &one.terminal, &one.refusal, NULL, 0)
            == VOLGWAIN_DOES_NOT_FIT,
        "and before the number of challenges");
    one.challenges[1].c[2] = VOLGWAIN_MODULUS;
    check_refused(&one, "but after the challenges", VOLGWAIN_BAD_NUMBER, VOLGWAIN_PART_CHALLENGES, 1, 0, 0, 0);

    make_verdict(&it);
    it.one.traces.main_length = 0;
    it.witness.auxiliary_length = 0;
    it.witness.terminal.value.c[0] = 5;
    check_verdict(&it, "a terminal over no rows", VOLGWAIN_DOES_NOT_FIT, 0, 0, 0, 0);
    it.witness.terminal.value.c[0] = 0;
    check_verdict(&it, "also if it is zero", VOLGWAIN_DOES_NOT_FIT, 0, 0, 0, 0);
    it.witness.terminal.present = 0;
    it.challenges_length = 0;
    check_verdict(&it, "and before shape and challenges", VOLGWAIN_DOES_NOT_FIT, 0, 0, 0, 0);
    it.witness.terminal.value.c[0] = VOLGWAIN_MODULUS;
    it.witness.terminal.present = 1;
    check_verdict(
        &it, "but after the terminal's own number", VOLGWAIN_BAD_NUMBER, VOLGWAIN_PART_TERMINALS, 0, 0, 0);

    /* without lookups there may be none */
    make_range(&one);
    one.traces = no_traces;
    one.tables.records_length = 0;
    one.auxiliary_length = 0;
    check(generate(&one) == VOLGWAIN_OK && one.terminal.present == 0, "no lookups and no rows are generated");
    make_verdict(&it);
    it.one.traces = no_traces;
    it.one.tables.records_length = 0;
    it.witness.auxiliary_length = it.witness.width = 0;
    it.witness.terminal.present = 0;
    check(verify_air(&it) == VOLGWAIN_OK, "and verified");
}

/* ---- constraints: m, f and g are bits, and so is f + g ----

   Columns 0 to 3 are m, f, g and k. Lookup 0 sends [m] where f is set and where g is, both times as a query; lookup 1
   likewise on the first and on the last row. Lookup 2 queries [m], m times, and provides [k], k times; lookup 3 queries
   [m] as often as a constant says, which is -1. */

#define LAWS 13 /* the first node of the constraints, of which each but the last has five */

static const struct volgwain_node law_nodes[] = {
    {VOLGWAIN_MAIN, 0, 0}, {VOLGWAIN_MAIN, 0, 3},                                      /* the tuples [m] and [k] */
    {VOLGWAIN_CONSTANT, 1, 0}, {VOLGWAIN_CONSTANT, 1, 0},                              /* 1, 1 */
    {VOLGWAIN_MAIN, 0, 1}, {VOLGWAIN_MAIN, 0, 2},                                      /* f, g */
    {VOLGWAIN_FIRST_ROW, 0, 0}, {VOLGWAIN_LAST_ROW, 0, 0},
    {VOLGWAIN_MAIN, 0, 0}, {VOLGWAIN_MAIN, 0, 3}, {VOLGWAIN_NEGATION, 0, 0},           /* m, -k */
    {VOLGWAIN_CONSTANT, 2013265920, 0},                                                /* -1, over BabyBear */
    {11, 0, 0},                                                                        /* no node */
    {VOLGWAIN_MAIN, 0, 0}, {VOLGWAIN_MAIN, 0, 0}, {VOLGWAIN_CONSTANT, 1, 0}, {VOLGWAIN_DIFFERENCE, 0, 0},
    {VOLGWAIN_PRODUCT, 0, 0},                                                          /* m * (m - 1) */
    {VOLGWAIN_MAIN, 0, 1}, {VOLGWAIN_MAIN, 0, 1}, {VOLGWAIN_CONSTANT, 1, 0}, {VOLGWAIN_DIFFERENCE, 0, 0},
    {VOLGWAIN_PRODUCT, 0, 0},                                                          /* f * (f - 1) */
    {VOLGWAIN_MAIN, 0, 2}, {VOLGWAIN_MAIN, 0, 2}, {VOLGWAIN_CONSTANT, 1, 0}, {VOLGWAIN_DIFFERENCE, 0, 0},
    {VOLGWAIN_PRODUCT, 0, 0},                                                          /* g * (g - 1) */
    {VOLGWAIN_MAIN, 0, 1}, {VOLGWAIN_MAIN, 0, 2}, {VOLGWAIN_SUM, 0, 0},
    {VOLGWAIN_MAIN, 0, 1}, {VOLGWAIN_MAIN, 0, 2}, {VOLGWAIN_SUM, 0, 0},
    {VOLGWAIN_CONSTANT, 1, 0}, {VOLGWAIN_DIFFERENCE, 0, 0},
    {VOLGWAIN_PRODUCT, 0, 0}};                                                         /* (f + g) * (f + g - 1) */

struct laws {
    struct volgwain_span tuples[7];
    uint8_t queries[7];
    struct volgwain_record records[4];
    uint32_t main[12];
    uint32_t preprocessed[2];
    struct volgwain_tables tables;
    struct volgwain_span constraints;
    struct volgwain_traces traces;
    size_t height;
    size_t queries_length;
    struct volgwain_enforced shown[4];
    size_t shown_length;
    struct volgwain_bound bounds[7];
    size_t bounds_length;
    struct volgwain_refusal refusal;
    char text[200];
};

static void make_laws(struct laws *it)
{
    static const struct laws made = {
        {{0, 1}, {0, 1}, {0, 1}, {0, 1}, {0, 1}, {1, 2}, {0, 1}},
        {1, 1, 1, 1, 1, 0, 255},
        {{0, 1, 1, {0, 0}, {0, 2}, {2, 4}, {4, 6}}, {0, 1, 1, {0, 0}, {2, 4}, {2, 4}, {6, 8}},
            {0, 0, 1, {0, 0}, {4, 6}, {8, 11}, {0, 0}}, {0, 0, 1, {0, 0}, {6, 7}, {11, 12}, {0, 0}}},
        {1, 1, 0, 5, 1, 0, 1, 7, 0, 0, 0, 9},
        {1, 2},
        {NULL, 0, NULL, 0, NULL, 0, NULL, 0},
        {LAWS, COUNT(law_nodes)},
        {NULL, 12, 4, NULL, 0, 0, NULL, 0},
        3,
        7,
        {{9, 9, 9, 9, 9}, {9, 9, 9, 9, 9}, {9, 9, 9, 9, 9}, {9, 9, 9, 9, 9}},
        4,
        {{9, 9}, {9, 9}, {9, 9}, {9, 9}, {9, 9}, {9, 9}, {9, 9}},
        7,
        {9, 9, 9, 9, 9, 9, 9, 9},
        ""};
    *it = made;
    it->tables.nodes = law_nodes;
    it->tables.nodes_length = COUNT(law_nodes);
    it->tables.tuples = it->tuples;
    it->tables.tuples_length = COUNT(it->tuples);
    it->tables.records = it->records;
    it->tables.records_length = COUNT(it->records);
    it->traces.main = it->main;
    it->traces.preprocessed = it->preprocessed;
    it->traces.public_values = it->main;
}

typedef uint32_t enforcing(const struct volgwain_tables *tables, const struct volgwain_span *constraints,
    size_t height, const uint8_t *queries, size_t queries_length, struct volgwain_enforced *shown,
    size_t shown_length, struct volgwain_bound *bounds, size_t bounds_length, struct volgwain_refusal *refusal,
    char *text, size_t text_size);

static uint32_t enforce_by(struct laws *it, enforcing *call)
{
    return call(&it->tables, &it->constraints, it->height, it->queries, it->queries_length, it->shown,
        it->shown_length, it->bounds, it->bounds_length, &it->refusal, it->text, sizeof it->text);
}

static uint32_t enforce(struct laws *it)
{
    return enforce_by(it, volgwain_enforced);
}

static uint32_t check_laws(struct laws *it)
{
    return volgwain_check_constraints(
        &it->tables, &it->constraints, &it->traces, &it->refusal, it->text, sizeof it->text);
}

static int is_shown(const struct volgwain_enforced *it, uint32_t flags, uint32_t weight, uint32_t missing,
    uint32_t rows, size_t flag)
{
    return it->flags == flags && it->weight == weight && it->missing == missing && it->rows == rows
        && it->flag == flag;
}

static int is_bound(const struct volgwain_bound *it, uint32_t present, uint64_t bound)
{
    return it->present == present && it->bound == bound;
}

/* all that is shown of the four lookups from all constraints; whether -1 is one of the small numbers that have a bound
   depends on the field */
static int is_all_shown(const struct laws *it, uint32_t has_last)
{
    return it->refusal.code == 0 && is_shown(&it->shown[0], 1, 1, 0, 0, 0) && is_shown(&it->shown[1], 1, 1, 0, 0, 0)
        && is_shown(&it->shown[2], 1, 1, 0, 0, 0) && is_shown(&it->shown[3], 1, has_last, 0, 0, 0)
        && is_bound(&it->bounds[0], 1, 1) && is_bound(&it->bounds[1], 1, 1) && is_bound(&it->bounds[2], 1, 1)
        && is_bound(&it->bounds[3], 1, 1) && is_bound(&it->bounds[4], 1, 1) && is_bound(&it->bounds[5], 0, 0)
        && is_bound(&it->bounds[6], has_last, has_last);
}

static void check_enforced(void)
{
    struct laws it;
    make_laws(&it);
    check(enforce(&it) == VOLGWAIN_OK && is_all_shown(&it, 1), "all that is shown");
    make_laws(&it);
    it.height = 2;
    check(enforce(&it) == VOLGWAIN_OK && is_all_shown(&it, 1), "all that is shown over two rows");
    /* the only row is the first one and the last one */
    make_laws(&it);
    it.height = 1;
    check(enforce(&it) == VOLGWAIN_OK && is_shown(&it.shown[0], 1, 1, 0, 0, 0)
            && is_shown(&it.shown[1], 0, 0, VOLGWAIN_MISSING_EXCLUSIVE, VOLGWAIN_ROWS_ONLY, 0),
        "selectors as flags over one row");
    /* there their queries may add up to 2 */
    make_laws(&it);
    it.height = 1;
    it.records[1].weight = 2;
    check(enforce(&it) == VOLGWAIN_OK
            && is_shown(&it.shown[1], 0, 1, VOLGWAIN_MISSING_EXCLUSIVE, VOLGWAIN_ROWS_ONLY, 0),
        "flags that are not shown, and a weight that is");
    make_laws(&it);
    it.height = 0;
    check(enforce(&it) == VOLGWAIN_OK && is_shown(&it.shown[1], 1, 1, 0, 0, 0) && is_bound(&it.bounds[5], 1, 0),
        "all over no rows");
    /* without the last constraint both may be set */
    make_laws(&it);
    it.constraints.end = LAWS + 15;
    check(enforce(&it) == VOLGWAIN_OK
            && is_shown(&it.shown[0], 0, 0, VOLGWAIN_MISSING_EXCLUSIVE, VOLGWAIN_ROWS_FIRST, 0)
            && is_shown(&it.shown[1], 1, 1, 0, 0, 0) && is_shown(&it.shown[2], 1, 1, 0, 0, 0),
        "flags that are not exclusive");
    /* with m alone f is no bit, and then with m and f it is g */
    make_laws(&it);
    it.constraints.end = LAWS + 5;
    check(enforce(&it) == VOLGWAIN_OK
            && is_shown(&it.shown[0], 0, 0, VOLGWAIN_MISSING_FLAG, VOLGWAIN_ROWS_FIRST, 0),
        "a first flag that is no bit");
    it.constraints.end = LAWS + 10;
    it.height = 1;
    check(enforce(&it) == VOLGWAIN_OK
            && is_shown(&it.shown[0], 0, 0, VOLGWAIN_MISSING_FLAG, VOLGWAIN_ROWS_ONLY, 1),
        "a second flag that is no bit");
    /* no constraint of m, so none of how often it is queried */
    make_laws(&it);
    it.constraints.start = LAWS + 5;
    check(enforce(&it) == VOLGWAIN_OK && is_shown(&it.shown[2], 1, 0, 0, 0, 0) && is_bound(&it.bounds[4], 0, 0),
        "a query without a bound");
}

static void check_roles(void)
{
    struct laws it;
    /* the entry is a query as well: it has no bound */
    make_laws(&it);
    it.queries[5] = 1;
    check(enforce(&it) == VOLGWAIN_OK && is_shown(&it.shown[2], 1, 0, 0, 0, 0), "an entry as a query");
    make_laws(&it);
    it.queries[4] = 0;
    it.records[2].weight = 0;
    check(enforce(&it) == VOLGWAIN_OK && is_shown(&it.shown[2], 1, 1, 0, 0, 0), "no query, and no weight");
    make_laws(&it);
    it.records[2].weight = 0;
    it.records[3].weight = 0;
    check(enforce(&it) == VOLGWAIN_OK && is_shown(&it.shown[2], 1, 0, 0, 0, 0)
            && is_shown(&it.shown[3], 1, 0, 0, 0, 0),
        "queries past their weight");
    make_laws(&it);
    it.queries[0] = it.queries[1] = 0;
    it.records[0].weight = 0;
    check(enforce(&it) == VOLGWAIN_OK && is_shown(&it.shown[0], 1, 1, 0, 0, 0), "entries of flags");
}

static void check_unshown(struct laws *it, const char *what, uint32_t code, uint32_t part, size_t row,
    size_t expected, size_t actual)
{
    struct laws before;
    make_laws(&before);
    check(enforce(it) == code && it->refusal.code == code && it->refusal.part == part && it->refusal.row == row
            && it->refusal.expected == expected && it->refusal.actual == actual
            && memcmp(it->shown, before.shown, sizeof before.shown) == 0
            && memcmp(it->bounds, before.bounds, sizeof before.bounds) == 0,
        what);
}

static void check_refused_laws(void)
{
    struct laws it;
    make_laws(&it);
    it.records[1].exclusive = 2;
    check_unshown(&it, "a bad record with constraints", VOLGWAIN_BAD_TABLE, 4, 0, 0, 0);
    check(it.refusal.lookup == 1, "the bad record");
    make_laws(&it);
    it.records[2].multiplicities.end = 9;
    check_unshown(&it, "a malformed lookup with constraints", VOLGWAIN_MALFORMED_LOOKUP, 0, 0, 0, 0);
    check(it.refusal.lookup == 2, "the malformed lookup");
    make_laws(&it);
    it.constraints.start = LAWS - 1;
    check_unshown(&it, "a bad node of constraints", VOLGWAIN_BAD_CONSTRAINTS, 1, LAWS - 1, 0, 0);
    check(has_text(&it.refusal, it.text, "constraints: node 12 ends no expression"), "the text of bad constraints");
    make_laws(&it);
    it.constraints.end = COUNT(law_nodes) + 1;
    check_unshown(&it, "constraints past the nodes", VOLGWAIN_BAD_CONSTRAINTS, 2, 0, 0, 0);
    make_laws(&it);
    it.queries_length = 6;
    check_unshown(&it, "too few queries", VOLGWAIN_BAD_LENGTH, VOLGWAIN_PART_QUERIES, 0, 7, 6);
    check(has_text(&it.refusal, it.text, "queries: expected 7, got 6"), "the text of too few queries");
    make_laws(&it);
    it.shown_length = 3;
    check_unshown(&it, "too few answers", VOLGWAIN_BAD_LENGTH, VOLGWAIN_PART_ENFORCED, 0, 4, 3);
    make_laws(&it);
    it.bounds_length = 6;
    check_unshown(&it, "too few bounds", VOLGWAIN_BAD_LENGTH, VOLGWAIN_PART_BOUNDS, 0, 7, 6);
}

static void check_nonzero(struct laws *it, const char *what, uint32_t code, uint32_t part, size_t row,
    size_t constraint)
{
    check(check_laws(it) == code && it->refusal.code == code && it->refusal.part == part && it->refusal.row == row
            && it->refusal.lookup == constraint,
        what);
}

static void check_constraints(void)
{
    struct laws it;
    make_laws(&it);
    check_nonzero(&it, "constraints that hold", VOLGWAIN_OK, 0, 0, 0);
    /* g is set with f on row 0: their sum is 2 */
    it.main[2] = 1;
    check_nonzero(&it, "flags that are both set", VOLGWAIN_NONZERO_CONSTRAINT, 0, 0, 3);
    check(has_text(&it.refusal, it.text, "constraint 3 is not zero on row 0"), "the text of a constraint");
    it.constraints.end = LAWS + 15;
    check_nonzero(&it, "without the constraint that fails", VOLGWAIN_OK, 0, 0, 0);
    /* of f and m on row 2 it is m, and row 1 is before it */
    make_laws(&it);
    it.main[8] = 2;
    it.main[9] = 3;
    check_nonzero(&it, "the first constraint of a row", VOLGWAIN_NONZERO_CONSTRAINT, 0, 2, 0);
    it.main[6] = 4;
    check_nonzero(&it, "the first row", VOLGWAIN_NONZERO_CONSTRAINT, 0, 1, 2);
    it.traces.main_length = 0;
    check_nonzero(&it, "constraints over no rows", VOLGWAIN_OK, 0, 0, 0);
}

static void check_refused_constraints(void)
{
    struct laws it;
    make_laws(&it);
    it.records[1].exclusive = 2;
    check_nonzero(&it, "a bad record that is not read", VOLGWAIN_OK, 0, 0, 0);
    it.constraints.start = LAWS - 1;
    it.main[0] = VOLGWAIN_MODULUS;
    check_nonzero(&it, "bad constraints to be checked", VOLGWAIN_BAD_CONSTRAINTS, 1, LAWS - 1, 0);
    it.constraints.start = LAWS;
    check_nonzero(&it, "a large cell", VOLGWAIN_BAD_NUMBER, VOLGWAIN_PART_MAIN, 0, 0);
    it.traces.main_length = 11;
    check_nonzero(&it, "no whole rows", VOLGWAIN_NO_WHOLE_ROWS, VOLGWAIN_PART_MAIN, 0, 0);
    make_laws(&it);
    it.traces.main_width = 2;
    check_nonzero(&it, "a column that is not there", VOLGWAIN_DOES_NOT_FIT, 0, 0, 0);
    check(has_text(&it.refusal, it.text,
              "a constraint reads past the traces, or a row that is neither this one nor the next"),
        "the text of constraints that do not fit");
    make_laws(&it);
    it.traces.preprocessed_length = 2;
    it.traces.preprocessed_width = 1;
    check_nonzero(&it, "another height", VOLGWAIN_OTHER_HEIGHT, VOLGWAIN_PART_PREPROCESSED, 0, 0);
}

/* ---- two AIRs on a bus: keys 3 and 3, and the entries 3, used twice, and 4, never used ---- */

struct bus {
    struct volgwain_node nodes[5];
    struct volgwain_span tuples[1];
    uint8_t names[4];
    struct volgwain_record asks[1], provides[1];
    struct volgwain_air airs[2];
    uint32_t keys[2], entries[4];
    struct volgwain_traces traces[2];
    size_t traces_length;
    struct volgwain_element alpha, beta;
    struct volgwain_element auxiliary[8];
    size_t auxiliary_length;
    struct volgwain_terminal terminals[2];
    size_t terminals_length;
    struct volgwain_refusal refusal;
    char text[300];
};

static void make_bus(struct bus *it)
{
    static const struct volgwain_node nodes[5] = {{VOLGWAIN_MAIN, 0, 0}, {VOLGWAIN_CONSTANT, 1, 0},
        {VOLGWAIN_MAIN, 0, 1}, {VOLGWAIN_NEGATION, 0, 0}, {VOLGWAIN_MAIN, 0, 1}};
    static const uint32_t keys[2] = {3, 3}, entries[4] = {3, 2, 4, 0};
    static const struct volgwain_record asks = {1, 0, 1, {0, 4}, {0, 1}, {1, 2}, {0, 0}};
    static const struct volgwain_record provides = {1, 0, 0, {0, 4}, {0, 1}, {2, 4}, {0, 0}};
    int air;
    memset(it, 9, sizeof *it);
    memcpy(it->nodes, nodes, sizeof nodes);
    memcpy(it->names, "keys", 4);
    memcpy(it->keys, keys, sizeof keys);
    memcpy(it->entries, entries, sizeof entries);
    it->tuples[0].start = 0;
    it->tuples[0].end = 1;
    it->asks[0] = asks;
    it->provides[0] = provides;
    for (air = 0; air < 2; air++) {
        struct volgwain_tables *tables = &it->airs[air].tables;
        struct volgwain_traces *traces = &it->traces[air];
        tables->nodes = it->nodes;
        tables->nodes_length = 5;
        tables->tuples = it->tuples;
        tables->tuples_length = 1;
        tables->names = it->names;
        tables->names_length = 4;
        tables->records = air == 0 ? it->asks : it->provides;
        tables->records_length = 1;
        it->airs[air].height = 2;
        it->airs[air].ids = NULL;
        it->airs[air].ids_length = 0;
        traces->main = air == 0 ? it->keys : it->entries;
        traces->main_width = air == 0 ? 1 : 2;
        traces->main_length = 2 * traces->main_width;
        traces->preprocessed = it->keys;
        traces->preprocessed_length = 0;
        traces->preprocessed_width = 0;
        traces->public_values = it->keys;
        traces->public_values_length = 0;
    }
    memset(&it->alpha, 0, sizeof it->alpha);
    memset(&it->beta, 0, sizeof it->beta);
    it->alpha.c[0] = 5;
    it->beta.c[0] = 2;
    it->traces_length = 2;
    it->auxiliary_length = 8;
    it->terminals_length = 2;
}

static uint32_t prove(struct bus *it)
{
    return volgwain_prove(it->airs, 2, it->traces, it->traces_length, &it->alpha, &it->beta,
        it->auxiliary, it->auxiliary_length, it->terminals, it->terminals_length, &it->refusal, it->text,
        sizeof it->text);
}

static uint32_t verify_parts(struct bus *it, size_t parts, size_t width, size_t cells)
{
    struct volgwain_air_witness witness[2];
    int air;
    for (air = 0; air < 2; air++) {
        witness[air].auxiliary = &it->auxiliary[4 * air];
        witness[air].auxiliary_length = air == 0 ? cells : 4;
        witness[air].width = air == 0 ? width : 2;
        witness[air].terminal = it->terminals[air];
    }
    return volgwain_verify(it->airs, 2, it->traces, it->traces_length, &it->alpha, &it->beta, witness,
        parts, &it->refusal, it->text, sizeof it->text);
}

static uint32_t verify(struct bus *it)
{
    return verify_parts(it, 2, 2, 4);
}

/* The prefix of the one id is 5 + 1 * 2^1 = 7, so the denominators of 3 and 4 are 4 and 3. */
static int is_proved(const struct bus *it)
{
    const struct volgwain_element *a = it->auxiliary;
    return it->refusal.code == 0 && is_base(&a[0], 0) && is_base(&a[1], QUARTER)
        && is_base(&a[2], QUARTER) && is_base(&a[3], QUARTER) && is_base(&a[4], 0)
        && is_base(&a[5], MINUS_HALF) && is_base(&a[6], MINUS_HALF) && is_base(&a[7], 0)
        && it->terminals[0].present == 1 && is_base(&it->terminals[0].value, HALF)
        && it->terminals[1].present == 1 && is_base(&it->terminals[1].value, MINUS_HALF);
}

static int is_unproved(const struct bus *it)
{
    struct bus before;
    make_bus(&before);
    return memcmp(it->auxiliary, before.auxiliary, sizeof before.auxiliary) == 0
        && memcmp(it->terminals, before.terminals, sizeof before.terminals) == 0;
}

static void check_unproved(struct bus *it, const char *what, uint32_t code, uint32_t part, size_t air,
    size_t row, size_t lookup, size_t expected, size_t actual)
{
    const struct volgwain_refusal *r = &it->refusal;
    uint32_t answer = prove(it);
    check(answer == code && r->code == code && r->part == part && r->air == air && r->row == row
            && r->lookup == lookup && r->expected == expected && r->actual == actual,
        what);
    check(is_unproved(it), what);
    check(r->text_length > 0, what);
}

static void check_proving(void)
{
    struct bus it;
    make_bus(&it);
    check(prove(&it) == VOLGWAIN_OK && is_proved(&it), "the worked batch is proved");

    make_bus(&it);
    it.provides[0].multiplicities.end = 9;
    check_unproved(&it, "a range past the nodes", VOLGWAIN_BAD_TABLE, 2, 1, 0, 0, 0, 0);
    make_bus(&it);
    it.provides[0].multiplicities.end = it.provides[0].multiplicities.start;
    check_unproved(&it, "no multiplicity", VOLGWAIN_MALFORMED_LOOKUP, 0, 1, 0, 0, 0, 0);
    make_bus(&it);
    it.tuples[0].end = 2;
    it.airs[1].tables.tuples = &it.provides[0].multiplicities;
    check_unproved(&it, "two cells beside one", VOLGWAIN_BUS_WIDTHS, 0, 0, 0, 0, 2, 1);
    check(has_text(&it.refusal, it.text, "bus keys: tuple widths 2 and 1 differ"),
        "the text of two widths");
    make_bus(&it);
    it.asks[0].weight = VOLGWAIN_MODULUS;
    check_unproved(&it, "a weight of the modulus", VOLGWAIN_HEIGHT_BOUND, 0, 0, 0, 0, 0, 0);
    make_bus(&it);
    it.entries[2] = VOLGWAIN_MODULUS;
    check_unproved(&it, "a cell", VOLGWAIN_BAD_NUMBER, VOLGWAIN_PART_MAIN, 1, 2, 0, 0, 0);
    make_bus(&it);
    it.traces[1].main_length = 3;
    check_unproved(&it, "ragged", VOLGWAIN_NO_WHOLE_ROWS, VOLGWAIN_PART_MAIN, 1, 0, 0, 0, 0);
    make_bus(&it);
    it.alpha.c[2] = VOLGWAIN_MODULUS;
    check_unproved(&it, "alpha", VOLGWAIN_BAD_NUMBER, VOLGWAIN_PART_ALPHAS, 0, 0, 0, 0, 0);
    make_bus(&it);
    it.beta.c[3] = VOLGWAIN_MODULUS;
    check_unproved(&it, "beta", VOLGWAIN_BAD_NUMBER, VOLGWAIN_PART_BETAS, 0, 0, 0, 0, 0);
    make_bus(&it);
    it.traces_length = 1;
    check_unproved(&it, "one trace", VOLGWAIN_BAD_LENGTH, VOLGWAIN_PART_BATCH, 0, 0, 0, 2, 1);
    make_bus(&it);
    it.airs[1].height = 3;
    check_unproved(&it, "another height", VOLGWAIN_TRACE_MISMATCH, 0, 1, 0, 0, 0, 0);
    make_bus(&it);
    it.alpha.c[0] = 1;
    check_unproved(&it, "vanishing", VOLGWAIN_VANISHING_DENOMINATOR, 0, 0, 0, 0, 0, 0);
    make_bus(&it);
    it.auxiliary_length = 7;
    check_unproved(&it, "room for seven", VOLGWAIN_BAD_LENGTH, VOLGWAIN_PART_AUXILIARY, 0, 0, 0, 8, 7);
    make_bus(&it);
    it.terminals_length = 1;
    check_unproved(&it, "one terminal", VOLGWAIN_BAD_LENGTH, VOLGWAIN_PART_TERMINALS, 0, 0, 0, 2, 1);
    it.auxiliary_length = 7;
    check_unproved(&it, "cells before terminals", VOLGWAIN_BAD_LENGTH, VOLGWAIN_PART_AUXILIARY, 0, 0, 0, 8, 7);
}

/* AIR by AIR, with the prefix of the one id and beta, the same is generated */
static void check_air_by_air(void)
{
    static const struct volgwain_element challenges[2] = {{{7, 0, 0, 0}}, {{2, 0, 0, 0}}};
    struct bus it;
    int air;
    make_bus(&it);
    for (air = 0; air < 2; air++)
        check(volgwain_generate(&it.airs[air].tables, &it.traces[air], challenges, 2,
                  &it.auxiliary[4 * air], 4, &it.terminals[air], &it.refusal, it.text, sizeof it.text)
                == VOLGWAIN_OK,
            "an AIR of the batch is generated");
    check(is_proved(&it), "AIR by AIR the witness is the same");
}

static uint32_t by_ids(struct bus *it, int air, const size_t *ids, size_t ids_length,
    const struct volgwain_plan_sizes *sizes)
{
    return volgwain_generate_by_ids(&it->airs[air].tables, &it->traces[air], ids, ids_length, sizes,
        &it->alpha, &it->beta, &it->auxiliary[4 * air], it->auxiliary_length / 2, &it->terminals[air],
        &it->refusal, it->text, sizeof it->text);
}

static void check_by_ids_refused(struct bus *it, const char *what, size_t id, size_t ids_length,
    size_t width, uint32_t code, uint32_t part, size_t row, size_t expected, size_t actual)
{
    const struct volgwain_refusal *r = &it->refusal;
    struct volgwain_plan_sizes sizes = {1, 1};
    size_t ids[2];
    uint32_t answer;
    ids[0] = id;
    ids[1] = 0;
    sizes.max_message_width = width;
    answer = by_ids(it, 1, ids, ids_length, &sizes);
    check(answer == code && r->code == code && r->part == part && r->air == 0 && r->row == row
            && r->lookup == 0 && r->expected == expected && r->actual == actual && r->text_length > 0,
        what);
    check(is_unproved(it), what);
}

/* AIR by AIR under the ids and the sizes of the plan, likewise */
static void check_generation_by_ids(void)
{
    struct bus it;
    struct volgwain_plan_sizes sizes = {9, 9};
    size_t ids[2] = {9, 9};
    int air;
    make_bus(&it);
    check(volgwain_plan(it.airs, 2, ids, 2, &sizes, &it.refusal, it.text, sizeof it.text) == VOLGWAIN_OK,
        "the batch is planned");
    for (air = 0; air < 2; air++)
        check(by_ids(&it, air, &ids[air], 1, &sizes) == VOLGWAIN_OK, "an AIR is generated by its ids");
    check(is_proved(&it), "by ids the witness is the same");
    /* of id 1 the prefix is 3 + 2 * 2^1 = 7, too */
    make_bus(&it);
    sizes.num_ids = 2;
    ids[0] = ids[1] = 1;
    it.alpha.c[0] = 3;
    for (air = 0; air < 2; air++)
        check(by_ids(&it, air, &ids[air], 1, &sizes) == VOLGWAIN_OK, "an AIR is generated by id 1");
    check(is_proved(&it), "by id 1 the witness is the same");

    make_bus(&it);
    it.provides[0].multiplicities.end = 9;
    check_by_ids_refused(&it, "a range past the nodes", 0, 1, 1, VOLGWAIN_BAD_TABLE, 2, 0, 0, 0);
    make_bus(&it);
    it.traces[1].main_length = 3;
    check_by_ids_refused(&it, "ragged", 0, 1, 1, VOLGWAIN_NO_WHOLE_ROWS, VOLGWAIN_PART_MAIN, 0, 0, 0);
    make_bus(&it);
    it.entries[2] = VOLGWAIN_MODULUS;
    check_by_ids_refused(&it, "a cell", 0, 1, 1, VOLGWAIN_BAD_NUMBER, VOLGWAIN_PART_MAIN, 2, 0, 0);
    make_bus(&it);
    it.alpha.c[3] = VOLGWAIN_MODULUS;
    check_by_ids_refused(&it, "alpha", 0, 1, 1, VOLGWAIN_BAD_NUMBER, VOLGWAIN_PART_ALPHAS, 0, 0, 0);
    make_bus(&it);
    it.beta.c[1] = VOLGWAIN_MODULUS;
    check_by_ids_refused(&it, "beta", 0, 1, 1, VOLGWAIN_BAD_NUMBER, VOLGWAIN_PART_BETAS, 0, 0, 0);
    make_bus(&it);
    check_by_ids_refused(&it, "two ids", 0, 2, 1, VOLGWAIN_BAD_LENGTH, VOLGWAIN_PART_IDS, 0, 1, 2);
    make_bus(&it);
    check_by_ids_refused(&it, "width 0", 0, 1, 0, VOLGWAIN_BAD_NUMBER, VOLGWAIN_PART_SIZES, 0, 0, 0);
    make_bus(&it);
    check_by_ids_refused(&it, "id 1 of 1", 1, 1, 1, VOLGWAIN_BAD_NUMBER, VOLGWAIN_PART_IDS, 0, 0, 0);
    make_bus(&it);
    it.traces[1].main_width = 1;
    check_by_ids_refused(&it, "one column", 0, 1, 1, VOLGWAIN_DOES_NOT_FIT, 0, 0, 0, 0);
    make_bus(&it);
    it.traces[1].main_length = 0;
    check_by_ids_refused(&it, "no row", 0, 1, 1, VOLGWAIN_DOES_NOT_FIT, 0, 0, 0, 0);
    check_by_ids_refused(&it, "id 1 of 1 over no row", 1, 1, 1, VOLGWAIN_BAD_NUMBER, VOLGWAIN_PART_IDS, 0, 0, 0);
    make_bus(&it);
    it.alpha.c[0] = 1;
    check_by_ids_refused(&it, "vanishing", 0, 1, 1, VOLGWAIN_VANISHING_DENOMINATOR, 0, 0, 0, 0);
    make_bus(&it);
    it.auxiliary_length = 6;
    check_by_ids_refused(&it, "room", 0, 1, 1, VOLGWAIN_BAD_LENGTH, VOLGWAIN_PART_AUXILIARY, 0, 4, 3);
}

/* a local lookup with tuples of two widths */
static void check_tuple_widths(void)
{
    struct range one;
    struct volgwain_air air;
    make_range(&one);
    one.tuples[0].end = 2;
    air.tables = one.tables;
    air.height = 2;
    air.ids = NULL;
    air.ids_length = 0;
    check(volgwain_prove(&air, 1, &one.traces, 1, &one.challenges[0], &one.challenges[1], one.auxiliary, 4,
              &one.terminal, 1, &one.refusal, one.text, sizeof one.text)
                == VOLGWAIN_TUPLE_WIDTHS
            && one.refusal.expected == 2 && one.refusal.actual == 1 && is_untouched(&one),
        "two widths in a local lookup");
}

static void check_refused_witness(
    struct bus *it, const char *what, uint32_t answer, uint32_t code, size_t air, size_t row)
{
    const struct volgwain_refusal *r = &it->refusal;
    check(answer == code && r->code == code && r->air == air && r->row == row && r->text_length > 0, what);
}

static void check_verification(void)
{
    struct bus it;
    make_bus(&it);
    prove(&it);
    check(verify(&it) == VOLGWAIN_OK && it.refusal.code == 0, "the witness is accepted");
    check_refused_witness(&it, "one part", verify_parts(&it, 1, 2, 4), VOLGWAIN_BAD_LENGTH, 0, 0);
    check_refused_witness(&it, "width 4", verify_parts(&it, 2, 4, 4), VOLGWAIN_AUXILIARY_WIDTH, 0, 0);
    check(it.refusal.expected == 2, "the width that is expected");
    check_refused_witness(&it, "one row", verify_parts(&it, 2, 2, 2), VOLGWAIN_AUXILIARY_HEIGHT, 0, 0);
    check_refused_witness(&it, "ragged", verify_parts(&it, 2, 3, 4), VOLGWAIN_NO_WHOLE_ROWS, 0, 0);
    it.auxiliary[7].c[2] = VOLGWAIN_MODULUS;
    check_refused_witness(&it, "a cell", verify(&it), VOLGWAIN_BAD_NUMBER, 1, 3);
    it.auxiliary[7].c[2] = 1;
    check_refused_witness(&it, "a fraction", verify(&it), VOLGWAIN_CONSTRAINT_FAILED, 1, 1);
    check(has_text(&it.refusal, it.text, "air 1: constraint failed at row 1"), "the text of a row");
    it.auxiliary[7].c[2] = 0;
    it.terminals[1].value.c[1] = VOLGWAIN_MODULUS;
    check_refused_witness(&it, "a terminal", verify(&it), VOLGWAIN_BAD_NUMBER, 1, 0);
    it.terminals[1].value.c[1] = 0;
    it.terminals[0].present = 0;
    check_refused_witness(&it, "no terminal", verify(&it), VOLGWAIN_TERMINAL_PRESENCE, 0, 0);
    check(it.refusal.expected == 1 && it.refusal.actual == 0, "the presence that is expected");
    it.terminals[0].present = 1;
    check(verify(&it) == VOLGWAIN_OK, "the witness again");

    /* an entry that is used once less: each AIR satisfies its constraints, and the sum is not zero */
    make_bus(&it);
    it.entries[1] = 1;
    check(prove(&it) == VOLGWAIN_OK, "an unbalanced batch is proved");
    check_refused_witness(&it, "unbalanced", verify(&it), VOLGWAIN_TERMINAL_SUM, 0, 0);
}

/* ---- degrees, plans, counts and the debug check ---- */

static void check_degrees(void)
{
    struct range it;
    size_t degrees[2] = {9, 9};
    make_range(&it);
    /* two tuples of degree 1: 1 + (1 + 1) */
    check(volgwain_degrees(&it.tables, 0, degrees, 1, &it.refusal, it.text, sizeof it.text) == VOLGWAIN_OK
            && degrees[0] == 3 && degrees[1] == 9,
        "the degree of two tuples");
    degrees[0] = 9;
    check(volgwain_degrees(&it.tables, 0, degrees, 2, &it.refusal, it.text, sizeof it.text)
                == VOLGWAIN_BAD_LENGTH
            && it.refusal.part == VOLGWAIN_PART_DEGREES && it.refusal.expected == 1
            && it.refusal.actual == 2 && degrees[0] == 9 && degrees[1] == 9,
        "room for two degrees");
    /* a transition and a column: 1 + (t + 1), where a multiplicity of degree 1 stands over the transition alone */
    it.nodes[0].kind = VOLGWAIN_TRANSITION;
    check(volgwain_degrees(&it.tables, 0, degrees, 1, &it.refusal, it.text, sizeof it.text) == VOLGWAIN_OK
            && degrees[0] == 2,
        "a transition of degree 0");
    check(volgwain_degrees(&it.tables, 5, degrees, 1, &it.refusal, it.text, sizeof it.text) == VOLGWAIN_OK
            && degrees[0] == 7,
        "a transition of degree 5");
    check(volgwain_degrees(&it.tables, SIZE_MAX - 2, degrees, 1, &it.refusal, it.text, sizeof it.text)
                == VOLGWAIN_OK
            && degrees[0] == SIZE_MAX,
        "the greatest degree");
    check(volgwain_degrees(&it.tables, SIZE_MAX - 1, degrees, 2, &it.refusal, it.text, sizeof it.text)
                == VOLGWAIN_DEGREE_OVERFLOW
            && it.refusal.air == 0 && it.refusal.text_length > 0 && degrees[0] == SIZE_MAX && degrees[1] == 9,
        "a degree past it");
    it.records[0].multiplicities.end = 3;
    check(volgwain_degrees(&it.tables, SIZE_MAX, degrees, 1, &it.refusal, it.text, sizeof it.text)
            == VOLGWAIN_MALFORMED_LOOKUP,
        "degrees of a malformed lookup");
}

static uint32_t plan(struct bus *it, size_t *ids, size_t room, struct volgwain_plan_sizes *sizes)
{
    return volgwain_plan(it->airs, 2, ids, room, sizes, &it->refusal, it->text, sizeof it->text);
}

static void check_planning(void)
{
    struct bus it;
    struct volgwain_plan_sizes sizes = {9, 9};
    size_t ids[2] = {9, 9};
    make_bus(&it);
    check(plan(&it, ids, 1, &sizes) == VOLGWAIN_BAD_LENGTH && it.refusal.part == VOLGWAIN_PART_IDS
            && it.refusal.expected == 2 && it.refusal.actual == 1 && ids[0] == 9
            && sizes.max_message_width == 9 && sizes.num_ids == 9,
        "room for one id");
    check(plan(&it, ids, 2, &sizes) == VOLGWAIN_OK && ids[0] == 0 && ids[1] == 0
            && sizes.max_message_width == 1 && sizes.num_ids == 1,
        "the lookups of a bus share an id");
    it.provides[0].kind = 0;
    check(plan(&it, ids, 2, &sizes) == VOLGWAIN_OK && ids[0] == 0 && ids[1] == 1 && sizes.num_ids == 2,
        "a local lookup has its own");
}

/* a plan is refused because this AIR has a lookup and no row, and nothing is written */
static void check_rowless(struct bus *it, const char *what, size_t air, size_t room)
{
    const struct volgwain_refusal *r = &it->refusal;
    struct volgwain_plan_sizes sizes = {9, 9};
    size_t ids[2] = {9, 9};
    uint32_t answer = plan(it, ids, room, &sizes);
    check(answer == VOLGWAIN_DOES_NOT_FIT && r->code == answer && r->part == 0 && r->air == air && r->row == 0
            && r->lookup == 0 && r->expected == 0 && r->actual == 0 && r->text_length > 0,
        what);
    check(ids[0] == 9 && ids[1] == 9 && sizes.max_message_width == 9 && sizes.num_ids == 9, what);
}

static void check_planned_rows(void)
{
    static const size_t two[1] = {2}, three[1] = {3};
    struct bus it;
    struct volgwain_plan_sizes sizes = {9, 9};
    size_t ids[2] = {9, 9};
    make_bus(&it);
    it.airs[1].height = 0;
    check_rowless(&it, "a second AIR of height 0", 1, 2);
    check_rowless(&it, "before the room for one id", 1, 1);
    it.airs[0].height = 0;
    check_rowless(&it, "a first AIR of height 0", 0, 2);
    it.airs[0].ids = it.airs[1].ids = two;
    it.airs[0].ids_length = it.airs[1].ids_length = 1;
    check_rowless(&it, "under given ids", 0, 2);
    it.airs[1].ids = three;
    check(plan(&it, ids, 2, &sizes) == VOLGWAIN_UNLAWFUL_IDS, "after unlawful ids");
    make_bus(&it);
    it.airs[0].height = VOLGWAIN_MODULUS;
    it.airs[1].height = 0;
    check(plan(&it, ids, 2, &sizes) == VOLGWAIN_HEIGHT_BOUND && ids[0] == 9 && sizes.num_ids == 9,
        "after a height of the modulus");
    it.airs[0].height = 2;
    it.airs[1].tables.records_length = 0;
    check(plan(&it, ids, 1, &sizes) == VOLGWAIN_OK && ids[0] == 0 && sizes.num_ids == 1,
        "without lookups there may be no row");
    /* the calls over traces refuse the traces */
    make_bus(&it);
    it.airs[1].height = 0;
    it.traces[1].main_length = 0;
    check_unproved(&it, "traces without rows", VOLGWAIN_TRACE_MISMATCH, 0, 1, 0, 0, 0, 0);
    memset(it.terminals, 0, sizeof it.terminals);
    it.terminals[0].present = it.terminals[1].present = 1;
    check_refused_witness(&it, "which are not verified", verify(&it), VOLGWAIN_TRACE_MISMATCH, 1, 0);
}

/* Both AIRs with the id 2: with alpha 1 its prefix is 1 + 3 * 2^1 = 7, as that of the one id with alpha 5. */
static void give_ids(struct bus *it, const size_t *first, const size_t *second)
{
    make_bus(it);
    it->airs[0].ids = first;
    it->airs[0].ids_length = 1;
    it->airs[1].ids = second;
    it->airs[1].ids_length = 1;
    it->alpha.c[0] = 1;
}

static void check_unlawful(struct bus *it, const char *what)
{
    struct volgwain_plan_sizes sizes = {9, 9};
    size_t ids[2] = {9, 9};
    check_unproved(it, what, VOLGWAIN_UNLAWFUL_IDS, 0, 0, 0, 0, 0, 0);
    check(has_text(&it->refusal, it->text, "ids are not lawful"), "the text of unlawful ids");
    check(plan(it, ids, 2, &sizes) == VOLGWAIN_UNLAWFUL_IDS && ids[0] == 9 && sizes.num_ids == 9, what);
}

static void check_given_ids(void)
{
    static const size_t two[2] = {2, 2}, three[1] = {3}, most[1] = {SIZE_MAX}, last[1] = {VOLGWAIN_MODULUS - 1};
    struct bus it;
    struct volgwain_plan_sizes sizes = {9, 9};
    size_t ids[2] = {9, 9};
    give_ids(&it, two, two);
    check(plan(&it, ids, 2, &sizes) == VOLGWAIN_OK && ids[0] == 2 && ids[1] == 2
            && sizes.max_message_width == 1 && sizes.num_ids == 3,
        "ids that are given are those of the plan");
    check(prove(&it) == VOLGWAIN_OK && is_proved(&it), "the batch is proved under given ids");
    check(verify(&it) == VOLGWAIN_OK, "and verified");
    it.alpha.c[0] = 5;
    check(verify(&it) == VOLGWAIN_CONSTRAINT_FAILED, "not under another alpha");
    it.airs[0].ids_length = it.airs[1].ids_length = 0;
    check(verify(&it) == VOLGWAIN_OK, "which is that of the plan's own ids");

    give_ids(&it, two, three);
    check_unlawful(&it, "two ids on one bus");
    give_ids(&it, two, two);
    it.airs[1].ids_length = 0;
    check_unlawful(&it, "an AIR without ids");
    give_ids(&it, two, two);
    it.airs[0].ids_length = 2;
    check_unlawful(&it, "two ids for one lookup");
    give_ids(&it, two, two);
    it.provides[0].kind = 0;
    check_unlawful(&it, "a local lookup with the id of a bus");
    /* there is no number that it is below */
    give_ids(&it, most, most);
    check_unlawful(&it, "the greatest id");

    /* Of the greatest id of a plan, p - 1, the prefix is alpha + p * 2^1 = alpha. The prefixes up to it would be
       32 GB. */
    make_bus(&it);
    check(prove(&it) == VOLGWAIN_OK && is_proved(&it), "a batch is proved under small ids");
    it.airs[0].ids = it.airs[1].ids = last;
    it.airs[0].ids_length = it.airs[1].ids_length = 1;
    it.alpha.c[0] = 7;
    check(plan(&it, ids, 2, &sizes) == VOLGWAIN_OK && ids[0] == last[0] && ids[1] == last[0]
            && sizes.num_ids == VOLGWAIN_MODULUS,
        "the greatest id that a plan takes");
    check(verify(&it) == VOLGWAIN_OK, "a witness is verified under it");
    it.alpha.c[0] = 5;
    check(verify(&it) == VOLGWAIN_CONSTRAINT_FAILED, "but not as if it were 0");
}

static uint32_t count(struct bus *it, const struct volgwain_element *alphas, size_t alphas_length,
    struct volgwain_grid *grid)
{
    return volgwain_grid_count(it->airs, 2, it->traces, it->traces_length, alphas, alphas_length,
        &it->beta, 1, grid, &it->refusal, it->text, sizeof it->text);
}

static void check_counting(void)
{
    /* at 1 the denominator of 3 vanishes, and at 2 that of 4, which has multiplicity zero */
    static const struct volgwain_element alphas[3] = {{{5, 0, 0, 0}}, {{2, 0, 0, 0}}, {{1, 0, 0, 0}}};
    static const struct volgwain_element twice[2] = {{{5, 0, 0, 0}}, {{5, 0, 0, 0}}};
    static const struct volgwain_element large[1] = {{{5, 0, 0, VOLGWAIN_MODULUS}}};
    struct bus it;
    struct volgwain_grid grid;
    memset(&grid, 9, sizeof grid);
    make_bus(&it);
    check(count(&it, alphas, 3, &grid) == VOLGWAIN_OK && grid.accepted.low == 2
            && grid.accepted.high == 0 && grid.bounded == 0 && grid.bound.low == 0
            && grid.bound.high == 0,
        "a balanced batch is accepted unless a denominator vanishes");
    /* 2 messages, 1 of them unbalanced: at most 2 alphas at the one beta; at 2 a fraction is free */
    it.entries[1] = 1;
    check(count(&it, alphas, 3, &grid) == VOLGWAIN_OK && grid.accepted.low == 1
            && grid.accepted.high == 0 && grid.bounded == 1 && grid.bound.low == 2
            && grid.bound.high == 0,
        "an unbalanced batch is accepted at few pairs");
    check(count(&it, twice, 2, &grid) == VOLGWAIN_REPEATED_CHALLENGE && grid.accepted.low == 1,
        "an alpha twice");
    check(count(&it, large, 1, &grid) == VOLGWAIN_BAD_NUMBER
            && it.refusal.part == VOLGWAIN_PART_ALPHAS && grid.bound.low == 2,
        "an alpha past the modulus");
}

static uint32_t count_messages(struct bus *it, struct volgwain_counts *counts)
{
    return volgwain_soundness_count(it->airs, 2, it->traces, it->traces_length, counts, &it->refusal,
        it->text, sizeof it->text);
}

static int are_counts(const struct volgwain_counts *it, uint64_t messages, uint64_t unbalanced,
    uint64_t bad_betas, uint32_t bounded, uint64_t accepting_alphas, uint64_t linear_bad_betas)
{
    return it->messages.low == messages && it->messages.high == 0 && it->unbalanced.low == unbalanced
        && it->unbalanced.high == 0 && it->bad_betas.low == bad_betas && it->bad_betas.high == 0
        && it->bounded == bounded && it->accepting_alphas.low == accepting_alphas
        && it->accepting_alphas.high == 0 && it->linear_bad_betas.low == linear_bad_betas
        && it->linear_bad_betas.high == 0;
}

static void check_message_counts(void)
{
    struct bus it;
    struct volgwain_counts counts;
    memset(&counts, 9, sizeof counts);
    make_bus(&it);
    /* the messages 3 and 4, which both balance */
    check(count_messages(&it, &counts) == VOLGWAIN_OK && are_counts(&counts, 2, 0, 0, 0, 0, 0),
        "the messages of a batch that balances");
    it.keys[0] = 5;
    it.keys[1] = 6;
    /* 3, 4, 5 and 6, of which 3 is provided twice too often, and 5 and 6 never: three pairs, and two others
       beside each; 4 + 3 - 1 alphas */
    check(count_messages(&it, &counts) == VOLGWAIN_OK && are_counts(&counts, 4, 3, 3, 1, 6, 2),
        "three messages that do not balance");
    it.keys[0] = 3;
    it.keys[1] = 5;
    /* 3, 4 and 5, of which 3 is provided once too often and 5 never */
    check(count_messages(&it, &counts) == VOLGWAIN_OK && are_counts(&counts, 3, 2, 1, 1, 4, 1),
        "the messages of a batch that does not balance");
    it.provides[0].exclusive = 1;
    it.provides[0].flags.start = 2;
    it.provides[0].flags.end = 3;
    check(count_messages(&it, &counts) == VOLGWAIN_FLAG_NOT_BOOLEAN && it.refusal.air == 1
            && it.refusal.row == 0 && it.refusal.lookup == 0,
        "a flag of two");
    it.airs[0].height = 1;
    check(count_messages(&it, &counts) == VOLGWAIN_TRACE_MISMATCH && it.refusal.air == 0,
        "another height");
    it.traces_length = 1;
    check(count_messages(&it, &counts) == VOLGWAIN_BAD_LENGTH && it.refusal.part == VOLGWAIN_PART_BATCH
            && it.refusal.expected == 2 && it.refusal.actual == 1,
        "one trace");
    it.keys[0] = VOLGWAIN_MODULUS;
    check(count_messages(&it, &counts) == VOLGWAIN_BAD_NUMBER && it.refusal.part == VOLGWAIN_PART_MAIN,
        "a key past the modulus");
    it.asks[0].kind = 2;
    check(count_messages(&it, &counts) == VOLGWAIN_BAD_TABLE && it.refusal.part == 4, "no kind of bus");
    check(are_counts(&counts, 3, 2, 1, 1, 4, 1), "refused counts are kept");
}

static uint32_t count_heights(struct bus *it, struct volgwain_height_counts *counts)
{
    return volgwain_soundness_of_heights(it->airs, 2, counts, &it->refusal, it->text, sizeof it->text);
}

static int are_height_counts(const struct volgwain_height_counts *it, uint64_t most_messages,
    uint64_t bad_betas, uint32_t bounded, uint64_t accepting_alphas)
{
    return it->most_messages.low == most_messages && it->most_messages.high == 0
        && it->bad_betas.low == bad_betas && it->bad_betas.high == 0 && it->bounded == bounded
        && it->accepting_alphas.low == accepting_alphas && it->accepting_alphas.high == 0;
}

static void check_height_counts(void)
{
    struct bus it;
    struct volgwain_height_counts counts;
    struct volgwain_span two[2] = {{0, 1}, {4, 5}};
    memset(&counts, 9, sizeof counts);
    make_bus(&it);
    /* M = 2 * 1 + 2 * 1, M - 1 and 2 * M - 1 */
    check(count_heights(&it, &counts) == VOLGWAIN_OK && are_height_counts(&counts, 4, 3, 1, 7),
        "a tuple on each row");
    it.airs[0].tables.tuples = two;
    it.airs[0].tables.tuples_length = 2;
    it.asks[0].tuples.end = 2;
    it.asks[0].multiplicities.end = 3;
    it.airs[0].height = 3;
    it.airs[1].height = 1;
    /* M = 3 * 2 + 1 * 1 */
    check(count_heights(&it, &counts) == VOLGWAIN_OK && are_height_counts(&counts, 7, 6, 1, 13),
        "two tuples on each row, and an AIR of one row");
    it.asks[0].exclusive = 1;
    it.asks[0].flags = it.asks[0].multiplicities;
    /* M = 3 * 1 + 1 * 1 */
    check(count_heights(&it, &counts) == VOLGWAIN_OK && are_height_counts(&counts, 4, 3, 1, 7),
        "of two tuples with flags one on each row");
    two[0].end = 2;
    two[1].start = 1;
    two[1].end = 3;
    it.tuples[0].end = 2;
    /* 2 * (M - 1) */
    check(count_heights(&it, &counts) == VOLGWAIN_OK && are_height_counts(&counts, 4, 6, 1, 7),
        "tuples of two elements");
    if (sizeof(size_t) == 8) {
        /* M = 3 + 2^64 - 1, so 2^64 + 2; 2 * M - 2 and 2 * M - 1 */
        it.airs[1].height = SIZE_MAX;
        check(count_heights(&it, &counts) == VOLGWAIN_OK && counts.most_messages.low == 2
                && counts.most_messages.high == 1 && counts.bad_betas.low == 2
                && counts.bad_betas.high == 2 && counts.bounded == 1 && counts.accepting_alphas.low == 3
                && counts.accepting_alphas.high == 2,
            "the greatest height");
    }
    it.airs[0].height = 0;
    it.airs[1].height = 0;
    check(count_heights(&it, &counts) == VOLGWAIN_OK && are_height_counts(&counts, 0, 0, 0, 0),
        "no rows, no messages");
}

static void check_refused_heights(void)
{
    struct bus it;
    struct volgwain_height_counts counts;
    struct volgwain_span two[2] = {{0, 1}, {0, 2}};
    memset(&counts, 9, sizeof counts);
    make_bus(&it);
    count_heights(&it, &counts);
    it.airs[0].height = VOLGWAIN_MODULUS;
    check(count_heights(&it, &counts) == VOLGWAIN_HEIGHT_BOUND, "a height of the modulus");
    it.airs[0].tables.tuples = two;
    it.airs[0].tables.tuples_length = 2;
    it.asks[0].kind = 0;
    it.asks[0].tuples.end = 2;
    it.asks[0].multiplicities.end = 3;
    check(count_heights(&it, &counts) == VOLGWAIN_TUPLE_WIDTHS && it.refusal.expected == 1
            && it.refusal.actual == 2,
        "two widths in a local lookup");
    it.asks[0].kind = 1;
    check(count_heights(&it, &counts) == VOLGWAIN_BUS_WIDTHS && it.refusal.expected == 1
            && it.refusal.actual == 2,
        "two widths on a bus");
    it.provides[0].multiplicities.end = it.provides[0].multiplicities.start;
    check(count_heights(&it, &counts) == VOLGWAIN_MALFORMED_LOOKUP && it.refusal.air == 1
            && it.refusal.lookup == 0,
        "no multiplicity");
    it.asks[0].exclusive = 2;
    check(count_heights(&it, &counts) == VOLGWAIN_BAD_TABLE && it.refusal.part == 4
            && it.refusal.air == 0,
        "flags or none");
    check(are_height_counts(&counts, 4, 3, 1, 7), "refused counts of heights are kept");
}

/* ---- packing: a local lookup, and the keys of three columns on one bus ---- */

struct pack {
    struct volgwain_node nodes[6];
    struct volgwain_span tuples[4];
    uint8_t names[1];
    struct volgwain_record records[4];
    struct volgwain_tables tables;
    uint32_t main[8];
    struct volgwain_traces traces;
    struct volgwain_node packed_nodes[10];
    struct volgwain_span packed_tuples[5];
    uint8_t packed_names[4];
    struct volgwain_record packed_records[4];
    size_t lengths[4];
    struct volgwain_table_sizes sizes;
    struct volgwain_refusal refusal;
    char text[300];
};

static void make_pack(struct pack *it)
{
    static const struct volgwain_node nodes[6] = {{VOLGWAIN_MAIN, 0, 0}, {VOLGWAIN_MAIN, 0, 1},
        {VOLGWAIN_MAIN, 0, 2}, {VOLGWAIN_CONSTANT, 1, 0}, {VOLGWAIN_MAIN, 0, 3}, {VOLGWAIN_NEGATION, 0, 0}};
    static const struct volgwain_span tuples[4] = {{0, 1}, {1, 2}, {2, 3}, {0, 2}};
    static const struct volgwain_record records[4] = {{1, 0, 1, {0, 1}, {0, 1}, {3, 4}, {0, 0}},
        {0, 0, 7, {0, 0}, {0, 1}, {4, 6}, {0, 0}}, {1, 0, 2, {0, 1}, {1, 2}, {3, 4}, {0, 0}},
        {1, 0, 4, {0, 1}, {2, 3}, {3, 4}, {0, 0}}};
    static const uint32_t main[8] = {3, 4, 5, 6, 7, 8, 9, 10};
    static const size_t lengths[4] = {10, 5, 4, 4};
    memset(it, 9, sizeof *it);
    memcpy(it->nodes, nodes, sizeof nodes);
    memcpy(it->tuples, tuples, sizeof tuples);
    memcpy(it->records, records, sizeof records);
    memcpy(it->main, main, sizeof main);
    memcpy(it->lengths, lengths, sizeof lengths);
    it->names[0] = 'b';
    it->tables.nodes = it->nodes;
    it->tables.nodes_length = 6;
    it->tables.tuples = it->tuples;
    it->tables.tuples_length = 4;
    it->tables.names = it->names;
    it->tables.names_length = 1;
    it->tables.records = it->records;
    it->tables.records_length = 4;
    it->traces.main = it->main;
    it->traces.main_length = 8;
    it->traces.main_width = 4;
    it->traces.preprocessed = it->main;
    it->traces.preprocessed_length = 0;
    it->traces.preprocessed_width = 0;
    it->traces.public_values = it->main;
    it->traces.public_values_length = 0;
}

static uint32_t pack(struct pack *it, size_t max_degree)
{
    return volgwain_pack(&it->tables, max_degree, it->packed_nodes, it->lengths[0], it->packed_tuples,
        it->lengths[1], it->packed_names, it->lengths[2], it->packed_records, it->lengths[3], &it->sizes,
        &it->refusal, it->text, sizeof it->text);
}

static int is_node(const struct volgwain_node *it, uint32_t kind, uint32_t number, size_t index)
{
    return it->kind == kind && it->number == number && it->index == index;
}

static int is_span(const struct volgwain_span *it, size_t start, size_t end)
{
    return it->start == start && it->end == end;
}

static int are_sizes(const struct volgwain_table_sizes *it, size_t nodes, size_t tuples, size_t names,
    size_t records)
{
    return it->nodes == nodes && it->tuples == tuples && it->names == names && it->records == records;
}

/* Two fractions without flags have the degree 3, so within it two of the three keys share a column: first the
   local lookup of column 0 counted minus column 3, then columns 0 and 1, and then column 2. */
static int is_packed(const struct pack *it)
{
    const struct volgwain_node *n = it->packed_nodes;
    const struct volgwain_span *t = it->packed_tuples;
    const struct volgwain_record *r = it->packed_records;
    return it->refusal.code == 0 && it->refusal.text_length == 0 && are_sizes(&it->sizes, 9, 4, 2, 3)
        && is_node(&n[0], VOLGWAIN_MAIN, 0, 0) && is_node(&n[1], VOLGWAIN_MAIN, 0, 3)
        && is_node(&n[2], VOLGWAIN_NEGATION, 0, 0) && is_node(&n[3], VOLGWAIN_MAIN, 0, 0)
        && is_node(&n[4], VOLGWAIN_MAIN, 0, 1) && is_node(&n[5], VOLGWAIN_CONSTANT, 1, 0)
        && is_node(&n[6], VOLGWAIN_CONSTANT, 1, 0) && is_node(&n[7], VOLGWAIN_MAIN, 0, 2)
        && is_node(&n[8], VOLGWAIN_CONSTANT, 1, 0) && is_span(&t[0], 0, 1) && is_span(&t[1], 3, 4)
        && is_span(&t[2], 4, 5) && is_span(&t[3], 7, 8) && it->packed_names[0] == 'b'
        && it->packed_names[1] == 'b' && r[0].kind == 0 && r[0].exclusive == 0 && r[0].weight == 7
        && is_span(&r[0].tuples, 0, 1) && is_span(&r[0].multiplicities, 1, 3) && r[1].kind == 1
        && r[1].exclusive == 0 && r[1].weight == 3 && is_span(&r[1].bus, 0, 1)
        && is_span(&r[1].tuples, 1, 3) && is_span(&r[1].multiplicities, 5, 7) && r[2].kind == 1
        && r[2].exclusive == 0 && r[2].weight == 4 && is_span(&r[2].bus, 1, 2)
        && is_span(&r[2].tuples, 3, 4) && is_span(&r[2].multiplicities, 8, 9);
}

/* Whether items from an index on are as make_pack left them. */
#define IS_KEPT(array, from) \
    (memcmp(&it->array[from], &before.array[from], sizeof before.array - (from) * sizeof *before.array) == 0)

/* Whether all tables are kept from these lengths on. */
static int are_kept(const struct pack *it, size_t nodes, size_t tuples, size_t names, size_t records)
{
    struct pack before;
    make_pack(&before);
    return IS_KEPT(packed_nodes, nodes) && IS_KEPT(packed_tuples, tuples) && IS_KEPT(packed_names, names)
        && IS_KEPT(packed_records, records);
}

static int is_unpacked(const struct pack *it)
{
    struct pack before;
    make_pack(&before);
    return are_kept(it, 0, 0, 0, 0) && memcmp(&it->sizes, &before.sizes, sizeof before.sizes) == 0;
}

static void check_unpacked(struct pack *it, const char *what, uint32_t code, uint32_t part, size_t lookup,
    size_t expected, size_t actual)
{
    const struct volgwain_refusal *r = &it->refusal;
    uint32_t answer = pack(it, 3);
    check(answer == code && r->code == code && r->part == part && r->air == 0 && r->row == 0
            && r->lookup == lookup && r->expected == expected && r->actual == actual,
        what);
    check(is_unpacked(it), what);
    check(r->text_length > 0, what);
}

/* the terminal of the witness of these tables alone */
static uint32_t terminal_of(struct pack *it, const struct volgwain_tables *tables, size_t columns,
    struct volgwain_terminal *terminal)
{
    static const struct volgwain_element alpha = {{1000, 0, 0, 0}}, beta = {{2, 0, 0, 0}};
    struct volgwain_element auxiliary[10];
    struct volgwain_air air;
    memset(auxiliary, 0, sizeof auxiliary);
    air.tables = *tables;
    air.height = 2;
    air.ids = NULL;
    air.ids_length = 0;
    return volgwain_prove(&air, 1, &it->traces, 1, &alpha, &beta, auxiliary, 2 * columns, terminal, 1,
        &it->refusal, it->text, sizeof it->text);
}

static void check_packing(void)
{
    struct pack it;
    struct volgwain_tables packed;
    struct volgwain_terminal one, other;
    size_t degrees[3] = {9, 9, 9};
    size_t degree;
    make_pack(&it);
    check(pack(&it, 3) == VOLGWAIN_OK && is_packed(&it), "two of three keys share a column");
    check(are_kept(&it, 9, 4, 2, 3), "what is past the packed tables");
    packed.nodes = it.packed_nodes;
    packed.nodes_length = it.sizes.nodes;
    packed.tuples = it.packed_tuples;
    packed.tuples_length = it.sizes.tuples;
    packed.names = it.packed_names;
    packed.names_length = it.sizes.names;
    packed.records = it.packed_records;
    packed.records_length = it.sizes.records;
    check(volgwain_degrees(&packed, 0, degrees, 3, &it.refusal, it.text, sizeof it.text) == VOLGWAIN_OK
            && degrees[0] == 2 && degrees[1] == 3 && degrees[2] == 2,
        "the degrees of the packed lookups");
    memset(&one, 0, sizeof one);
    memset(&other, 0, sizeof other);
    check(terminal_of(&it, &it.tables, 5, &one) == VOLGWAIN_OK
            && terminal_of(&it, &packed, 4, &other) == VOLGWAIN_OK && one.present == 1
            && other.present == 1,
        "both are proved");
    /* ids are given in the order of lookups, and packing puts local ones first; so those on the bus alone */
    packed.records = &it.packed_records[1];
    packed.records_length = 2;
    it.records[1] = it.records[2];
    it.records[2] = it.records[3];
    it.tables.records_length = 3;
    check(terminal_of(&it, &it.tables, 4, &one) == VOLGWAIN_OK
            && terminal_of(&it, &packed, 3, &other) == VOLGWAIN_OK
            && memcmp(&one, &other, sizeof one) == 0,
        "packing keeps the terminal");

    for (degree = 0; degree < 6; degree++) {
        static const size_t lengths[4] = {9, 4, 3, 4};
        make_pack(&it);
        memcpy(it.lengths, lengths, sizeof lengths);
        check(pack(&it, degree) == VOLGWAIN_OK, "what the given records have together is room enough");
    }
    make_pack(&it);
    check(pack(&it, 2) == VOLGWAIN_OK && are_sizes(&it.sizes, 9, 4, 3, 4), "within 2 none share one");
    make_pack(&it);
    check(pack(&it, 4) == VOLGWAIN_OK && are_sizes(&it.sizes, 9, 4, 1, 2), "within 4 all do");
    make_pack(&it);
    it.tables.records_length = 0;
    it.lengths[0] = it.lengths[1] = it.lengths[2] = it.lengths[3] = 0;
    check(pack(&it, 3) == VOLGWAIN_OK && are_sizes(&it.sizes, 0, 0, 0, 0), "no lookups are packed");

    make_pack(&it);
    it.lengths[0] = 8;
    check_unpacked(&it, "room for eight nodes", VOLGWAIN_BAD_LENGTH, VOLGWAIN_PART_NODES, 0, 9, 8);
    make_pack(&it);
    it.lengths[1] = 3;
    check_unpacked(&it, "room for three tuples", VOLGWAIN_BAD_LENGTH, VOLGWAIN_PART_TUPLES, 0, 4, 3);
    make_pack(&it);
    it.lengths[2] = 1;
    check_unpacked(&it, "room for one name", VOLGWAIN_BAD_LENGTH, VOLGWAIN_PART_NAMES, 0, 2, 1);
    make_pack(&it);
    it.lengths[3] = 2;
    check_unpacked(&it, "room for two records", VOLGWAIN_BAD_LENGTH, VOLGWAIN_PART_RECORDS, 0, 3, 2);
    it.lengths[2] = 0;
    check_unpacked(&it, "names before records", VOLGWAIN_BAD_LENGTH, VOLGWAIN_PART_NAMES, 0, 2, 0);
    it.lengths[1] = 0;
    check_unpacked(&it, "tuples before names", VOLGWAIN_BAD_LENGTH, VOLGWAIN_PART_TUPLES, 0, 4, 0);
    it.lengths[0] = 0;
    check_unpacked(&it, "nodes before tuples", VOLGWAIN_BAD_LENGTH, VOLGWAIN_PART_NODES, 0, 9, 0);
    make_pack(&it);
    it.records[2].kind = 2;
    check_unpacked(&it, "no kind of bus", VOLGWAIN_BAD_TABLE, 4, 2, 0, 0);
    make_pack(&it);
    it.records[2].multiplicities.end = 3;
    check_unpacked(&it, "no multiplicity", VOLGWAIN_MALFORMED_LOOKUP, 0, 2, 0, 0);
    make_pack(&it);
    it.records[2].tuples.start = 3;
    it.records[2].tuples.end = 4;
    check_unpacked(&it, "two cells beside one", VOLGWAIN_TUPLE_WIDTHS, 0, 0, 1, 2);
    make_pack(&it);
    it.records[0].weight = UINT64_MAX;
    check_unpacked(&it, "weights past 64 bits", VOLGWAIN_WEIGHT_OVERFLOW, 0, 0, 0, 0);
}

/* ---- JSON: the worked rows' lookup, and one with all that there is ---- */

static const char range_json[] =
    "[{\"kind\":\"Local\",\"elements\":[[{\"Leaf\":{\"Variable\":{\"entry\":{\"Main\":{\"offset\":0}},"
    "\"index\":0}}}],[{\"Leaf\":{\"Variable\":{\"entry\":{\"Main\":{\"offset\":0}},\"index\":1}}}]],"
    "\"multiplicities\":[{\"Leaf\":{\"Constant\":1}},{\"Neg\":{\"Leaf\":{\"Variable\":{\"entry\":"
    "{\"Main\":{\"offset\":0}},\"index\":2}}}}],\"count_weight\":1,\"column\":0,\"flags\":null}]";

static const char whole_json[] =
    "[{\"kind\":{\"Global\":\"b\\u00e9\"},\"elements\":[[{\"Sub\":[{\"Leaf\":{\"Variable\":{\"entry\":"
    "{\"Preprocessed\":{\"offset\":1}},\"index\":3}}},{\"Mul\":[{\"Leaf\":{\"Variable\":{\"entry\":"
    "\"Public\",\"index\":4}}},{\"Leaf\":\"IsLastRow\"}]}]}]],\"multiplicities\":[{\"Add\":"
    "[{\"Leaf\":\"IsFirstRow\"},{\"Leaf\":\"IsTransition\"}]}],\"count_weight\":18446744073709551615,"
    "\"column\":0,\"flags\":[{\"Leaf\":{\"Constant\":2013265920}}]}]";

static uint32_t read_json(struct pack *it, const char *json, size_t length)
{
    return volgwain_read_json(json, length, it->packed_nodes, it->lengths[0], it->packed_tuples,
        it->lengths[1], it->packed_names, it->lengths[2], it->packed_records, it->lengths[3], &it->sizes,
        &it->refusal, it->text, sizeof it->text);
}

static int is_read(const struct pack *it)
{
    const struct volgwain_node *n = it->packed_nodes;
    const struct volgwain_record *r = it->packed_records;
    return it->refusal.code == 0 && are_sizes(&it->sizes, 9, 1, 3, 1)
        && is_node(&n[0], VOLGWAIN_PREPROCESSED, 1, 3) && is_node(&n[1], VOLGWAIN_PUBLIC, 0, 4)
        && is_node(&n[2], VOLGWAIN_LAST_ROW, 0, 0) && is_node(&n[3], VOLGWAIN_PRODUCT, 0, 0)
        && is_node(&n[4], VOLGWAIN_DIFFERENCE, 0, 0) && is_node(&n[5], VOLGWAIN_FIRST_ROW, 0, 0)
        && is_node(&n[6], VOLGWAIN_TRANSITION, 0, 0) && is_node(&n[7], VOLGWAIN_SUM, 0, 0)
        && is_node(&n[8], VOLGWAIN_CONSTANT, 2013265920u, 0) && is_span(&it->packed_tuples[0], 0, 5)
        && memcmp(it->packed_names, "b\xc3\xa9", 3) == 0 && r->kind == 1 && r->exclusive == 1
        && r->weight == UINT64_MAX && is_span(&r->bus, 0, 3) && is_span(&r->tuples, 0, 1)
        && is_span(&r->multiplicities, 5, 8) && is_span(&r->flags, 8, 9);
}

static void check_unread(struct pack *it, const char *what, const char *json, uint32_t code, uint32_t part,
    size_t lookup, size_t expected, size_t actual)
{
    const struct volgwain_refusal *r = &it->refusal;
    uint32_t answer = read_json(it, json, strlen(json));
    check(answer == code && r->code == code && r->part == part && r->air == 0 && r->row == 0
            && r->lookup == lookup && r->expected == expected && r->actual == actual,
        what);
    check(is_unpacked(it), what);
    check(r->text_length > 0, what);
}

static void check_json(void)
{
    struct pack it;
    struct range one;
    make_pack(&it);
    check(read_json(&it, range_json, strlen(range_json)) == VOLGWAIN_OK
            && are_sizes(&it.sizes, 5, 2, 0, 1),
        "the worked lookup is read");
    check(are_kept(&it, 5, 2, 0, 1), "what is past the tables that are read");
    make_range(&one);
    one.tables.nodes = it.packed_nodes;
    one.tables.tuples = it.packed_tuples;
    one.tables.records = it.packed_records;
    check(generate(&one) == VOLGWAIN_OK && is_generated(&one), "and the worked rows are generated");
    make_pack(&it);
    check(read_json(&it, whole_json, strlen(whole_json)) == VOLGWAIN_OK && is_read(&it),
        "a lookup with all that there is");
    make_pack(&it);
    check(read_json(&it, "[]", 2) == VOLGWAIN_OK && are_sizes(&it.sizes, 0, 0, 0, 0), "no lookups");

    make_pack(&it);
    check_unread(&it, "no JSON", "[{", VOLGWAIN_BAD_TEXT, 0, 0, 0, 0);
    check_unread(&it, "no lookups", "[7]", VOLGWAIN_BAD_TEXT, 0, 0, 0, 0);
    check_unread(&it, "no text", "", VOLGWAIN_BAD_TEXT, 0, 0, 0, 0);
    check_unread(&it, "no UTF-8", "[\xff]", VOLGWAIN_BAD_TEXT, 0, 0, 0, 0);
    check_unread(&it, "a tuple without a count",
        "[{\"kind\":\"Local\",\"elements\":[[]],\"multiplicities\":[],\"count_weight\":0,\"column\":0}]",
        VOLGWAIN_MALFORMED_LOOKUP, 0, 0, 0, 0);
    check_unread(&it, "another column",
        "[{\"kind\":\"Local\",\"elements\":[],\"multiplicities\":[],\"count_weight\":0,\"column\":1}]",
        VOLGWAIN_MALFORMED_LOOKUP, 0, 0, 0, 0);
    check_unread(&it, "a row past 32 bits",
        "[{\"kind\":\"Local\",\"elements\":[[]],\"multiplicities\":[{\"Leaf\":{\"Variable\":{\"entry\":"
        "{\"Main\":{\"offset\":4294967296}},\"index\":0}}}],\"count_weight\":0,\"column\":0}]",
        VOLGWAIN_BAD_TABLE, 7, 0, 0, 0);
    it.lengths[0] = 4;
    check_unread(&it, "room for four nodes", range_json, VOLGWAIN_BAD_LENGTH, VOLGWAIN_PART_NODES, 0, 5, 4);
    it.lengths[0] = 5;
    it.lengths[1] = 1;
    check_unread(&it, "room for a tuple", range_json, VOLGWAIN_BAD_LENGTH, VOLGWAIN_PART_TUPLES, 0, 2, 1);
    it.lengths[1] = 2;
    it.lengths[3] = 0;
    check_unread(
        &it, "room for no record", range_json, VOLGWAIN_BAD_LENGTH, VOLGWAIN_PART_RECORDS, 0, 1, 0);
    it.lengths[0] = 9;
    it.lengths[2] = 2;
    check_unread(&it, "room for two bytes", whole_json, VOLGWAIN_BAD_LENGTH, VOLGWAIN_PART_NAMES, 0, 3, 2);
}

static uint32_t debug_check(struct range *it, size_t traces_length)
{
    return volgwain_debug_check(
        &it->tables, 1, &it->traces, traces_length, &it->refusal, it->text, sizeof it->text);
}

static void check_debugging(void)
{
    struct range it;
    make_range(&it);
    check(debug_check(&it, 1) == VOLGWAIN_OK, "the worked rows balance");
    check(debug_check(&it, 0) == VOLGWAIN_BAD_LENGTH && it.refusal.part == VOLGWAIN_PART_BATCH
            && it.refusal.expected == 1 && it.refusal.actual == 0,
        "no traces");
    it.main[2] = 2;
    check(debug_check(&it, 1) == VOLGWAIN_MISMATCH, "the entry 4 is used once too often");
    check(has_text(&it.refusal, it.text,
              "Lookup mismatch (instance 0 local lookup 0): tuple [4] has net multiplicity 2013265920 at "
              "instance 0 lookup 0 row 0; instance 0 lookup 0 row 1"),
        "the text of a mismatch");
    it.nodes[3].index = 3;
    check(debug_check(&it, 1) == VOLGWAIN_DOES_NOT_FIT, "a column past the trace");
}

/* ---- what is found, as numbers: the two AIRs on a bus, with the keys 3 and 5 ----

   3 is sent once and provided twice, 5 is sent once, and 4 is provided no times. */

#define MINUS_ONE (VOLGWAIN_MODULUS - 1)
#define MINUS_TWO (VOLGWAIN_MODULUS - 2)
#define MOST_NUMBERS 40

struct found {
    struct bus two;
    struct volgwain_tables tables[2];
    size_t limit;
    size_t numbers[MOST_NUMBERS], numbers_length, written;
};

typedef uint32_t telling(const struct volgwain_tables *, size_t, const struct volgwain_traces *, size_t, size_t,
    size_t *, size_t, size_t *, struct volgwain_refusal *, char *, size_t);

static void make_found(struct found *it, size_t limit)
{
    int air;
    make_bus(&it->two);
    it->two.keys[1] = 5;
    for (air = 0; air < 2; air++)
        it->tables[air] = it->two.airs[air].tables;
    it->limit = limit;
    memset(it->numbers, 9, sizeof it->numbers);
    it->numbers_length = MOST_NUMBERS;
    it->written = 9;
}

static uint32_t tell(struct found *it, telling *call)
{
    struct bus *two = &it->two;
    return call(it->tables, 2, two->traces, two->traces_length, it->limit, it->numbers, it->numbers_length,
        &it->written, &two->refusal, two->text, sizeof two->text);
}

/* Whether all numbers are kept from this one on. */
static int are_numbers_kept(const struct found *it, size_t from)
{
    struct found before;
    make_found(&before, 0);
    return memcmp(&it->numbers[from], &before.numbers[from], (MOST_NUMBERS - from) * sizeof *it->numbers) == 0;
}

/* These numbers, and no others, are told; in so much room as they need, too, and not in less. */
static void check_told(struct found *it, telling *call, const char *what, const size_t *numbers, size_t count)
{
    struct volgwain_refusal *r = &it->two.refusal;
    int exact;
    for (exact = 0; exact < 2; exact++) {
        memset(it->numbers, 9, sizeof it->numbers);
        it->written = 9;
        it->numbers_length = exact ? count : MOST_NUMBERS;
        check(tell(it, call) == VOLGWAIN_OK && r->code == 0 && r->text_length == 0 && it->written == count
                && memcmp(it->numbers, numbers, count * sizeof *numbers) == 0 && are_numbers_kept(it, count),
            what);
    }
    memset(it->numbers, 9, sizeof it->numbers);
    it->written = 9;
    it->numbers_length = count - 1;
    check(tell(it, call) == VOLGWAIN_BAD_LENGTH && r->code == VOLGWAIN_BAD_LENGTH
            && r->part == VOLGWAIN_PART_NUMBERS && r->air == 0 && r->row == 0 && r->lookup == 0
            && r->expected == count && r->actual == count - 1 && it->written == 9 && are_numbers_kept(it, 0),
        what);
    check(r->text_length > 0, what);
}

static void check_tables(void)
{
    static const size_t all[] = {1, /* one group: a bus of four bytes */
        1, 4, 'k', 'e', 'y', 's', 2, 1, 2, 2, 2,
        1, 3, MINUS_ONE, 2, 2, 0, 0, 0, 1, 1, 0, 0, MINUS_TWO, /* 3, on the first rows of both AIRs */
        1, 5, 1, 1, 1, 0, 0, 1, 1};
    static const size_t one[] = {
        1, 1, 4, 'k', 'e', 'y', 's', 2, 1, 2, 2, 1, 1, 3, MINUS_ONE, 2, 1, 0, 0, 0, 1};
    static const size_t none[] = {1, 1, 4, 'k', 'e', 'y', 's', 2, 1, 2, 2, 0};
    static const size_t balanced[] = {1, 1, 4, 'k', 'e', 'y', 's', 2, 1, 1, 0, 0};
    static const size_t groups[] = {2, 0, 1, 0, 0, 1, 1, 1, 0, /* AIR 1's lookup 0, local, and then the bus */
        1, 4, 'k', 'e', 'y', 's', 2, 0, 2, 2, 0};
    struct found it;
    make_found(&it, 2);
    check_told(&it, volgwain_bus_table, "the table of a bus", all, COUNT(all));
    check(has_text(&it.two.refusal, it.two.text, "numbers: expected 34, got 33"), "the text of a short array");
    it.limit = SIZE_MAX;
    check_told(&it, volgwain_bus_table, "all of the table", all, COUNT(all));
    it.limit = 1;
    check_told(&it, volgwain_bus_table, "one tuple and one place", one, COUNT(one));
    it.limit = 0;
    check_told(&it, volgwain_bus_table, "no tuples", none, COUNT(none));
    it.two.provides[0].kind = 0;
    check_told(&it, volgwain_bus_table, "a local lookup comes first", groups, COUNT(groups));
    make_found(&it, 9);
    it.two.keys[1] = 3;
    check_told(&it, volgwain_bus_table, "a bus that balances", balanced, COUNT(balanced));
}

static void check_mismatches(void)
{
    static const size_t all[] = {
        1, 1, 4, 'k', 'e', 'y', 's', 1, 3, MINUS_ONE, 2, 2, 0, 0, 0, 1, 1, 0, 0, MINUS_TWO};
    static const size_t one[] = {1, 1, 4, 'k', 'e', 'y', 's', 1, 3, MINUS_ONE, 2, 1, 0, 0, 0, 1};
    static const size_t none[] = {1, 1, 4, 'k', 'e', 'y', 's', 1, 3, MINUS_ONE, 2, 0};
    static const size_t balanced[] = {0};
    static const size_t local[] = {1, 0, 1, 0, 1, 3, MINUS_TWO, 1, 1, 1, 0, 0, MINUS_TWO};
    static const size_t by_text[] = {1, 1, 4, 'k', 'e', 'y', 's', 1, 10, 1, 1, 1, 0, 0, 1, 1};
    struct found it;
    make_found(&it, 2);
    check_told(&it, volgwain_mismatch, "a mismatch", all, COUNT(all));
    it.limit = SIZE_MAX;
    check_told(&it, volgwain_mismatch, "all of the mismatch", all, COUNT(all));
    it.limit = 1;
    check_told(&it, volgwain_mismatch, "one place", one, COUNT(one));
    it.limit = 0;
    check_told(&it, volgwain_mismatch, "no place", none, COUNT(none));
    it.two.provides[0].kind = 0;
    it.limit = 9;
    check_told(&it, volgwain_mismatch, "a local mismatch comes first", local, COUNT(local));
    /* 10 comes before 3 and 9 by its text */
    make_found(&it, 9);
    it.two.keys[0] = 9;
    it.two.keys[1] = 10;
    check_told(&it, volgwain_mismatch, "a mismatch by its text", by_text, COUNT(by_text));
    make_found(&it, 9);
    it.two.keys[1] = 3;
    check_told(&it, volgwain_mismatch, "no mismatch", balanced, COUNT(balanced));
}

static void check_untold(struct found *it, const char *what, uint32_t code, uint32_t part, size_t air,
    size_t row, size_t expected, size_t actual)
{
    static telling *const calls[2] = {volgwain_bus_table, volgwain_mismatch};
    const struct volgwain_refusal *r = &it->two.refusal;
    int i;
    for (i = 0; i < 2; i++) {
        uint32_t answer = tell(it, calls[i]);
        check(answer == code && r->code == code && r->part == part && r->air == air && r->row == row
                && r->lookup == 0 && r->expected == expected && r->actual == actual && r->text_length > 0,
            what);
        check(it->written == 9 && are_numbers_kept(it, 0), what);
    }
}

/* Each of these has what the one before it is refused for as well, which is tested later. */
static void check_refused_findings(void)
{
    struct found it;
    make_found(&it, 2);
    it.numbers_length = 0;
    check(tell(&it, volgwain_bus_table) == VOLGWAIN_BAD_LENGTH && it.two.refusal.expected == 34, "no room");
    it.two.traces[1].preprocessed_length = 1;
    it.two.traces[1].preprocessed_width = 1;
    check_untold(&it, "one row beside two", VOLGWAIN_OTHER_HEIGHT, VOLGWAIN_PART_PREPROCESSED, 1, 0, 0, 0);
    it.two.traces[0].main_length = it.two.traces[0].main_width = 0;
    check_untold(&it, "no column", VOLGWAIN_DOES_NOT_FIT, 0, 0, 0, 0, 0);
    it.two.entries[2] = VOLGWAIN_MODULUS;
    check_untold(&it, "a cell", VOLGWAIN_BAD_NUMBER, VOLGWAIN_PART_MAIN, 1, 2, 0, 0);
    it.two.traces[1].main_length = 3;
    check_untold(&it, "ragged", VOLGWAIN_NO_WHOLE_ROWS, VOLGWAIN_PART_MAIN, 1, 0, 0, 0);
    it.two.provides[0].multiplicities.end = it.two.provides[0].multiplicities.start;
    check_untold(&it, "no multiplicity", VOLGWAIN_MALFORMED_LOOKUP, 0, 1, 0, 0, 0);
    it.two.asks[0].kind = 2;
    check_untold(&it, "no kind of bus", VOLGWAIN_BAD_TABLE, 4, 0, 0, 0, 0);
    it.two.traces_length = 1;
    check_untold(&it, "one trace", VOLGWAIN_BAD_LENGTH, VOLGWAIN_PART_BATCH, 0, 0, 2, 1);
}

/* ---- ranges of rows: three lookups that see the next row, all selectors, and both traces ----

   On a bus, column 0 and the preprocessed trace on the next row, counted by column 1; locally, column 0 once and
   the public value as the selectors say; and the preprocessed trace thrice where the flag in column 2 is set. */

#define MOST_HEIGHT 6
#define WIDTH 4

static const struct volgwain_node cut_nodes[14] = {
    {VOLGWAIN_MAIN, 1, 0}, {VOLGWAIN_PREPROCESSED, 1, 0}, {VOLGWAIN_MAIN, 0, 0}, {VOLGWAIN_PUBLIC, 0, 0},
    {VOLGWAIN_MAIN, 0, 1}, {VOLGWAIN_CONSTANT, 1, 0}, {VOLGWAIN_FIRST_ROW, 0, 0},
    {VOLGWAIN_LAST_ROW, 0, 0}, {VOLGWAIN_DIFFERENCE, 0, 0}, {VOLGWAIN_TRANSITION, 0, 0},
    {VOLGWAIN_SUM, 0, 0}, {VOLGWAIN_PREPROCESSED, 0, 0}, {VOLGWAIN_MAIN, 0, 2},
    {VOLGWAIN_CONSTANT, 3, 0}};
static const struct volgwain_span cut_tuples[4] = {{0, 2}, {2, 3}, {3, 4}, {11, 12}};
static const uint8_t cut_names[1] = {'k'};
static const struct volgwain_record cut_records[3] = {
    {1, 0, 1, {0, 1}, {0, 1}, {4, 5}, {0, 0}},
    {0, 0, 1, {0, 0}, {1, 3}, {5, 11}, {0, 0}},
    {0, 1, 1, {0, 0}, {3, 4}, {13, 14}, {12, 13}}};

struct cut {
    struct volgwain_node nodes[14];
    struct volgwain_record records[3];
    struct volgwain_air air;
    uint32_t main[3 * MOST_HEIGHT], preprocessed[MOST_HEIGHT], public_values[1];
    struct volgwain_traces traces; /* the whole trace */
    struct volgwain_element whole[WIDTH * MOST_HEIGHT];
    struct volgwain_terminal terminal;
    size_t ids[4], ids_length;
    struct volgwain_plan_sizes sizes;
    struct volgwain_element alpha, beta;
    struct volgwain_rows rows; /* a range, and what is around it */
    uint32_t main_around[3 * MOST_HEIGHT], preprocessed_around[MOST_HEIGHT];
    struct volgwain_traces around;
    struct volgwain_element auxiliary[WIDTH * MOST_HEIGHT];
    size_t auxiliary_length;
    struct volgwain_element sum;
    struct volgwain_element cells_around[WIDTH * MOST_HEIGHT];
    struct volgwain_air_witness witness;
    struct volgwain_refusal refusal;
    char text[300];
};

/* an AIR that is so high, with numbers that the plan of this AIR alone gives */
static void make_cut(struct cut *it, size_t height)
{
    static const struct volgwain_element alpha = {{5, 1, 0, 0}}, beta = {{2, 0, 3, 0}};
    size_t row;
    memset(it, 9, sizeof *it);
    memcpy(it->nodes, cut_nodes, sizeof cut_nodes);
    memcpy(it->records, cut_records, sizeof cut_records);
    it->air.tables.nodes = it->nodes;
    it->air.tables.nodes_length = COUNT(cut_nodes);
    it->air.tables.tuples = cut_tuples;
    it->air.tables.tuples_length = COUNT(cut_tuples);
    it->air.tables.names = cut_names;
    it->air.tables.names_length = 1;
    it->air.tables.records = it->records;
    it->air.tables.records_length = 3;
    it->air.height = height;
    it->air.ids = NULL;
    it->air.ids_length = 0;
    for (row = 0; row < MOST_HEIGHT; row++) {
        it->main[3 * row] = (uint32_t)(3 + row * row);
        it->main[3 * row + 1] = (uint32_t)(row + 1);
        it->main[3 * row + 2] = row % 2;
        it->preprocessed[row] = (uint32_t)(11 + 5 * row);
    }
    it->public_values[0] = 17;
    it->traces.main = it->main;
    it->traces.main_length = 3 * height;
    it->traces.main_width = 3;
    it->traces.preprocessed = it->preprocessed;
    it->traces.preprocessed_length = height;
    it->traces.preprocessed_width = 1;
    it->traces.public_values = it->public_values;
    it->traces.public_values_length = 1;
    for (row = 0; row < 3; row++)
        it->ids[row] = row;
    it->ids_length = 3;
    it->sizes.max_message_width = 2;
    it->sizes.num_ids = 3;
    it->alpha = alpha;
    it->beta = beta;
}

static uint32_t generate_whole(struct cut *it)
{
    return volgwain_generate_by_ids(&it->air.tables, &it->traces, it->ids, it->ids_length, &it->sizes,
        &it->alpha, &it->beta, it->whole, WIDTH * it->air.height, &it->terminal, &it->refusal, it->text,
        sizeof it->text);
}

static uint32_t verify_whole(struct cut *it)
{
    struct volgwain_air_witness witness;
    witness.auxiliary = it->whole;
    witness.auxiliary_length = WIDTH * it->air.height;
    witness.width = WIDTH;
    witness.terminal = it->terminal;
    return volgwain_verify(&it->air, 1, &it->traces, 1, &it->alpha, &it->beta, &witness, 1, &it->refusal,
        it->text, sizeof it->text);
}

/* one row more around a range */
static void put_around(struct cut *it, size_t *count, size_t row)
{
    memcpy(&it->main_around[3 * *count], &it->main[3 * row], 3 * sizeof *it->main);
    it->preprocessed_around[*count] = it->preprocessed[row];
    memcpy(&it->cells_around[WIDTH * *count], &it->whole[WIDTH * row], WIDTH * sizeof *it->whole);
    (*count)++;
}

/* what is around the rows from first up to end, and room for these rows */
static void take_rows(struct cut *it, size_t first, size_t end)
{
    size_t height = it->air.height;
    size_t count = 0, row;
    memset(it->main_around, 9, sizeof it->main_around);
    memset(it->preprocessed_around, 9, sizeof it->preprocessed_around);
    memset(it->cells_around, 9, sizeof it->cells_around);
    memset(it->auxiliary, 9, sizeof it->auxiliary);
    memset(&it->sum, 9, sizeof it->sum);
    if (first != 0)
        put_around(it, &count, 0);
    for (row = first; row < end; row++)
        put_around(it, &count, row);
    if (end != height)
        put_around(it, &count, end);
    it->rows.first = first;
    it->rows.end = end;
    it->rows.height = height;
    it->around.main = it->main_around;
    it->around.main_length = 3 * count;
    it->around.main_width = 3;
    it->around.preprocessed = it->preprocessed_around;
    it->around.preprocessed_length = count;
    it->around.preprocessed_width = 1;
    it->around.public_values = it->public_values;
    it->around.public_values_length = 1;
    it->auxiliary_length = WIDTH * (end - first);
    it->witness.auxiliary = it->cells_around;
    it->witness.auxiliary_length = WIDTH * count;
    it->witness.width = WIDTH;
    it->witness.terminal = it->terminal;
}

static uint32_t generate_rows(struct cut *it)
{
    return volgwain_generate_rows(&it->air.tables, &it->around, &it->rows, it->ids, it->ids_length,
        &it->sizes, &it->alpha, &it->beta, it->auxiliary, it->auxiliary_length, &it->sum, &it->refusal,
        it->text, sizeof it->text);
}

static uint32_t verify_rows(struct cut *it)
{
    return volgwain_verify_rows(&it->air.tables, &it->around, &it->rows, it->ids, it->ids_length,
        &it->sizes, &it->alpha, &it->beta, &it->witness, &it->refusal, it->text, sizeof it->text);
}

static uint32_t shift(struct cut *it, struct volgwain_element *cells, size_t length, size_t width,
    const struct volgwain_element *offset)
{
    return volgwain_shift(cells, length, width, offset, &it->refusal, it->text, sizeof it->text);
}

static int has_kept_rows(const struct cut *it)
{
    struct volgwain_element cells[WIDTH * MOST_HEIGHT], sum;
    memset(cells, 9, sizeof cells);
    memset(&sum, 9, sizeof sum);
    return memcmp(it->auxiliary, cells, sizeof cells) == 0 && memcmp(&it->sum, &sum, sizeof sum) == 0;
}

/* The end of the range that begins at a row: bit r of a cut is set where a range ends after row r. */
static size_t end_of(size_t first, size_t height, unsigned cut)
{
    while (first + 1 < height && (cut >> first & 1) == 0)
        first++;
    return first + 1;
}

/* the ranges of a cut, each generated alone, shifted, and joined: they are what is generated at once */
static void check_cut(size_t height, unsigned cut)
{
    struct volgwain_element joined[WIDTH * MOST_HEIGHT], sum = {{0, 0, 0, 0}};
    struct volgwain_terminal terminal;
    struct cut it;
    size_t first, end;
    make_cut(&it, height);
    check(generate_whole(&it) == VOLGWAIN_OK, "the trace is generated at once");
    for (first = 0; first < height; first = end) {
        end = end_of(first, height, cut);
        take_rows(&it, first, end);
        check(generate_rows(&it) == VOLGWAIN_OK && it.refusal.code == 0 && is_base(&it.auxiliary[0], 0),
            "a range is generated");
        check(shift(&it, it.auxiliary, it.auxiliary_length, WIDTH, &sum) == VOLGWAIN_OK, "and shifted");
        memcpy(&joined[WIDTH * first], it.auxiliary, it.auxiliary_length * sizeof *joined);
        check(shift(&it, &sum, 1, 1, &it.sum) == VOLGWAIN_OK, "sums are added");
        check(verify_rows(&it) == VOLGWAIN_OK && it.refusal.code == 0, "a range is accepted");
    }
    terminal.present = 1;
    terminal.value = sum;
    check(memcmp(joined, it.whole, WIDTH * height * sizeof *joined) == 0
            && memcmp(&terminal, &it.terminal, sizeof terminal) == 0,
        "the ranges of a cut join");
}

/* the first row that a check of the ranges of a cut refuses, or the height */
static size_t first_refused(struct cut *it, unsigned cut)
{
    size_t height = it->air.height;
    size_t first, end;
    for (first = 0; first < height; first = end) {
        uint32_t code;
        end = end_of(first, height, cut);
        take_rows(it, first, end);
        code = verify_rows(it);
        if (code == VOLGWAIN_CONSTRAINT_FAILED && it->refusal.air == 0 && it->refusal.row >= first
            && it->refusal.row < end)
            return it->refusal.row;
        check(code == VOLGWAIN_OK, "a range with no changed cell is accepted");
    }
    return height;
}

/* a witness in which something is changed: every cut refuses the row that the whole check refuses */
static void check_changed(struct cut *it)
{
    size_t height = it->air.height;
    unsigned cut;
    size_t row;
    check(verify_whole(it) == VOLGWAIN_CONSTRAINT_FAILED, "a changed witness is refused at once");
    row = it->refusal.row;
    for (cut = 0; cut < 1u << (height - 1); cut++)
        check(first_refused(it, cut) == row, "and in ranges, at the same row");
}

static void check_cuts(void)
{
    size_t height;
    for (height = 1; height <= MOST_HEIGHT; height++) {
        struct cut it;
        unsigned cut;
        size_t cell;
        for (cut = 0; cut < 1u << (height - 1); cut++)
            check_cut(height, cut);
        make_cut(&it, height);
        generate_whole(&it);
        check(verify_whole(&it) == VOLGWAIN_TERMINAL_SUM, "each constraint is zero");
        for (cell = 0; cell < WIDTH * height; cell++) {
            struct volgwain_element before = it.whole[cell];
            it.whole[cell].c[cell % 4] ^= 1;
            check_changed(&it);
            it.whole[cell] = before;
        }
        it.terminal.value.c[2] ^= 1;
        check_changed(&it);
        check(it.refusal.row == height - 1, "the terminal is seen on the last row");
    }
}

/* Each range of a trace of six rows, with faults on some rows: the first of them that is in the range. */
static void check_faults(const struct cut *faulty, const char *what, const size_t *rows, const uint32_t *codes,
    const size_t *lookups, size_t count)
{
    size_t first, end, i;
    for (first = 0; first < MOST_HEIGHT; first++)
        for (end = first + 1; end <= MOST_HEIGHT; end++) {
            struct cut it = *faulty;
            uint32_t code;
            it.air.tables.nodes = it.nodes;
            it.air.tables.records = it.records;
            take_rows(&it, first, end);
            code = generate_rows(&it);
            for (i = 0; i < count && (rows[i] < first || rows[i] >= end); i++)
                ;
            if (i == count) {
                check(code == VOLGWAIN_OK && is_base(&it.auxiliary[0], 0), what);
                continue;
            }
            check(code == codes[i] && it.refusal.code == code && it.refusal.air == 0
                    && it.refusal.row == rows[i] && it.refusal.lookup == lookups[i]
                    && it.refusal.text_length > 0,
                what);
            check(has_kept_rows(&it), what);
        }
}

static void check_faults_of_rows(void)
{
    static const uint32_t codes[2] = {VOLGWAIN_VANISHING_DENOMINATOR, VOLGWAIN_VANISHING_DENOMINATOR};
    static const uint32_t no_flag[1] = {VOLGWAIN_FLAG_NOT_BOOLEAN};
    static const size_t rows[2] = {1, 3}, lookups[2] = {2, 1};
    static const size_t third[1] = {2};
    struct cut it;
    size_t row;
    /* The prefixes of the ids 1 and 2 are 4 + 2 * 4 and 4 + 3 * 4: column 0 is 12 on row 3, and the preprocessed
       trace is 16 on row 1, where its flag is set. */
    make_cut(&it, MOST_HEIGHT);
    it.alpha.c[0] = 4;
    it.alpha.c[1] = 0;
    it.beta.c[2] = 0;
    check_faults(&it, "denominators that vanish", rows, codes, lookups, 2);
    for (row = 0; row < MOST_HEIGHT; row++) {
        make_cut(&it, MOST_HEIGHT);
        it.main[3 * row + 2] = 2;
        check_faults(&it, "a flag of two", &row, no_flag, third, 1);
    }
    take_rows(&it, 5, 6);
    check(generate_rows(&it) == VOLGWAIN_FLAG_NOT_BOOLEAN
            && has_text(&it.refusal, it.text, "air 0: row 5, lookup 2: exclusive flag must be boolean"),
        "the text of a fault in a range");
    /* two flags of one lookup */
    make_cut(&it, MOST_HEIGHT);
    it.records[1].exclusive = 1;
    it.nodes[2].index = 2;
    it.nodes[3].kind = VOLGWAIN_MAIN;
    it.nodes[3].index = 2;
    it.records[1].flags.start = 2;
    it.records[1].flags.end = 4;
    take_rows(&it, 2, 5);
    check(generate_rows(&it) == VOLGWAIN_FLAGS_NOT_EXCLUSIVE && it.refusal.row == 3
            && it.refusal.lookup == 1 && has_kept_rows(&it),
        "two flags in a range");
}

/* a call on a range is refused with these places, and has written nothing else */
static void check_rows_refused(struct cut *it, const char *what, uint32_t answer, uint32_t code, uint32_t part,
    size_t row, size_t expected, size_t actual)
{
    const struct volgwain_refusal *r = &it->refusal;
    check(answer == code && r->code == code && r->part == part && r->air == 0 && r->row == row
            && r->lookup == 0 && r->expected == expected && r->actual == actual && r->text_length > 0,
        what);
    check(has_kept_rows(it), what);
}

/* both calls on a range are refused so */
static void check_both_refused(struct cut *it, const char *what, uint32_t code, uint32_t part, size_t row,
    size_t expected, size_t actual)
{
    check_rows_refused(it, what, generate_rows(it), code, part, row, expected, actual);
    check_rows_refused(it, what, verify_rows(it), code, part, row, expected, actual);
}

/* the rows 2 and 3 of five, with a whole witness */
static void make_middle(struct cut *it)
{
    make_cut(it, 5);
    generate_whole(it);
    take_rows(it, 2, 4);
}

static void check_refused_rows(void)
{
    struct cut it;
    make_middle(&it);
    it.records[0].multiplicities.end = 15;
    check_both_refused(&it, "a range past the nodes", VOLGWAIN_BAD_TABLE, 2, 0, 0, 0);
    make_middle(&it);
    it.around.main_length = 11;
    check_both_refused(&it, "ragged", VOLGWAIN_NO_WHOLE_ROWS, VOLGWAIN_PART_MAIN, 0, 0, 0);
    make_middle(&it);
    it.main_around[7] = VOLGWAIN_MODULUS;
    check_both_refused(&it, "a cell", VOLGWAIN_BAD_NUMBER, VOLGWAIN_PART_MAIN, 7, 0, 0);
    make_middle(&it);
    it.preprocessed_around[3] = VOLGWAIN_MODULUS;
    check_both_refused(&it, "a preprocessed cell", VOLGWAIN_BAD_NUMBER, VOLGWAIN_PART_PREPROCESSED, 3, 0, 0);
    make_middle(&it);
    it.public_values[0] = VOLGWAIN_MODULUS;
    check_both_refused(&it, "a public value", VOLGWAIN_BAD_NUMBER, VOLGWAIN_PART_PUBLIC_VALUES, 0, 0, 0);
    make_middle(&it);
    it.alpha.c[3] = VOLGWAIN_MODULUS;
    check_both_refused(&it, "alpha", VOLGWAIN_BAD_NUMBER, VOLGWAIN_PART_ALPHAS, 0, 0, 0);
    make_middle(&it);
    it.beta.c[1] = VOLGWAIN_MODULUS;
    check_both_refused(&it, "beta", VOLGWAIN_BAD_NUMBER, VOLGWAIN_PART_BETAS, 0, 0, 0);
    make_middle(&it);
    it.ids_length = 4;
    check_both_refused(&it, "four ids", VOLGWAIN_BAD_LENGTH, VOLGWAIN_PART_IDS, 0, 3, 4);
    make_middle(&it);
    it.sizes.max_message_width = 0;
    check_both_refused(&it, "width 0", VOLGWAIN_BAD_NUMBER, VOLGWAIN_PART_SIZES, 0, 0, 0);
    make_middle(&it);
    it.ids[2] = 3;
    check_both_refused(&it, "id 3 of 3", VOLGWAIN_BAD_NUMBER, VOLGWAIN_PART_IDS, 2, 0, 0);
    make_middle(&it);
    it.nodes[4].index = 3;
    check_both_refused(&it, "a column past the trace", VOLGWAIN_DOES_NOT_FIT, 0, 0, 0, 0);
    make_middle(&it);
    it.around.preprocessed_length = 3;
    check_both_refused(
        &it, "three rows beside four", VOLGWAIN_OTHER_HEIGHT, VOLGWAIN_PART_PREPROCESSED, 0, 0, 0);
    make_middle(&it);
    it.around.main_length = 0;
    check_both_refused(&it, "no row around", VOLGWAIN_DOES_NOT_FIT, 0, 0, 0, 0);
    it.rows.end = 2;
    check_both_refused(&it, "nor any in the range", VOLGWAIN_DOES_NOT_FIT, 0, 0, 0, 0);
    it.air.tables.records_length = 0;
    it.ids_length = 0;
    it.around.preprocessed_length = 0;
    check_both_refused(&it, "nor any lookups", VOLGWAIN_BAD_NUMBER, VOLGWAIN_PART_ROWS, 0, 0, 0);
    it.rows.end = 4;
    check_both_refused(&it, "nor lookups around a range", VOLGWAIN_BAD_LENGTH, VOLGWAIN_PART_ROWS, 0, 4, 0);
    make_middle(&it);
    it.rows.end = 2;
    check_both_refused(&it, "no rows", VOLGWAIN_BAD_NUMBER, VOLGWAIN_PART_ROWS, 0, 0, 0);
    check(has_text(&it.refusal, it.text, "the range has no rows, or ends past the height"),
        "the text of a range");
    it.rows.end = 1;
    check_both_refused(&it, "a range that ends before it starts", VOLGWAIN_BAD_NUMBER, VOLGWAIN_PART_ROWS, 0, 0, 0);
    it.rows.end = 6;
    check_both_refused(&it, "past the height", VOLGWAIN_BAD_NUMBER, VOLGWAIN_PART_ROWS, 0, 0, 0);
    it.rows.end = SIZE_MAX;
    check_both_refused(&it, "far past the height", VOLGWAIN_BAD_NUMBER, VOLGWAIN_PART_ROWS, 0, 0, 0);
    it.rows.height = SIZE_MAX;
    check_both_refused(&it, "the most rows", VOLGWAIN_BAD_LENGTH, VOLGWAIN_PART_ROWS, 0, SIZE_MAX - 1, 4);
    it.rows.first = 0;
    check_both_refused(&it, "all of the most rows", VOLGWAIN_BAD_LENGTH, VOLGWAIN_PART_ROWS, 0, SIZE_MAX, 4);
    it.rows.end = 1;
    check_both_refused(&it, "the first of the most rows", VOLGWAIN_BAD_LENGTH, VOLGWAIN_PART_ROWS, 0, 2, 4);
    make_middle(&it);
    it.around.main_length -= 3;
    it.around.preprocessed_length--;
    check_both_refused(&it, "no row after", VOLGWAIN_BAD_LENGTH, VOLGWAIN_PART_ROWS, 0, 4, 3);
    check(has_text(&it.refusal, it.text, "rows: expected 4, got 3"), "the text of the rows around");
    make_middle(&it);
    it.rows.height = 4;
    check_both_refused(&it, "a row after the last one", VOLGWAIN_BAD_LENGTH, VOLGWAIN_PART_ROWS, 0, 3, 4);
    make_middle(&it);
    it.rows.first = 0;
    it.rows.end = 2;
    check_both_refused(&it, "a row before the first one", VOLGWAIN_BAD_LENGTH, VOLGWAIN_PART_ROWS, 0, 3, 4);
    make_middle(&it);
    it.auxiliary_length = 7;
    check_rows_refused(&it, "room for seven cells", generate_rows(&it), VOLGWAIN_BAD_LENGTH,
        VOLGWAIN_PART_AUXILIARY, 0, 8, 7);
    it.auxiliary_length = 9;
    check_rows_refused(&it, "room for nine cells", generate_rows(&it), VOLGWAIN_BAD_LENGTH,
        VOLGWAIN_PART_AUXILIARY, 0, 8, 9);
}

static void check_refused_witness_rows(void)
{
    struct cut it;
    make_middle(&it);
    check(verify_rows(&it) == VOLGWAIN_OK, "the rows in the middle");
    it.witness.auxiliary_length = 15;
    check_rows_refused(&it, "ragged", verify_rows(&it), VOLGWAIN_NO_WHOLE_ROWS, VOLGWAIN_PART_AUXILIARY, 0, 0, 0);
    it.witness.width = 0;
    check_rows_refused(&it, "cells without a width", verify_rows(&it), VOLGWAIN_NO_WHOLE_ROWS,
        VOLGWAIN_PART_AUXILIARY, 0, 0, 0);
    make_middle(&it);
    it.cells_around[13].c[2] = VOLGWAIN_MODULUS;
    check_rows_refused(
        &it, "a cell", verify_rows(&it), VOLGWAIN_BAD_NUMBER, VOLGWAIN_PART_AUXILIARY, 13, 0, 0);
    make_middle(&it);
    it.witness.terminal.value.c[2] = VOLGWAIN_MODULUS;
    check_rows_refused(
        &it, "a terminal", verify_rows(&it), VOLGWAIN_BAD_NUMBER, VOLGWAIN_PART_TERMINALS, 0, 0, 0);
    it.witness.terminal.present = 0;
    check_rows_refused(&it, "no terminal", verify_rows(&it), VOLGWAIN_TERMINAL_PRESENCE, 0, 0, 1, 0);
    make_middle(&it);
    it.witness.width = 2;
    check_rows_refused(&it, "width 2", verify_rows(&it), VOLGWAIN_AUXILIARY_WIDTH, 0, 0, 4, 0);
    make_middle(&it);
    it.witness.auxiliary_length = 12;
    check_rows_refused(&it, "three rows", verify_rows(&it), VOLGWAIN_AUXILIARY_HEIGHT, 0, 0, 0, 0);
    make_middle(&it);
    it.cells_around[9].c[2] ^= 1;
    check_rows_refused(&it, "a fraction", verify_rows(&it), VOLGWAIN_CONSTRAINT_FAILED, 0, 3, 0, 0);
    check(has_text(&it.refusal, it.text, "air 0: constraint failed at row 3"), "the text of a row of a range");
    /* the row after the range is seen by its accumulator alone, and row 0 not at all */
    make_middle(&it);
    it.cells_around[1].c[0] ^= 1;
    it.cells_around[13].c[0] ^= 1;
    check(verify_rows(&it) == VOLGWAIN_OK, "fractions on other rows");
    it.cells_around[12].c[0] ^= 1;
    check_rows_refused(&it, "the next row", verify_rows(&it), VOLGWAIN_CONSTRAINT_FAILED, 0, 3, 0, 0);

    make_cut(&it, 5);
    it.air.tables.records_length = 0;
    it.ids_length = 0;
    take_rows(&it, 1, 3);
    it.auxiliary_length = 0;
    check(generate_rows(&it) == VOLGWAIN_OK && is_base(&it.sum, 0), "no lookups, no cells");
    it.witness.auxiliary_length = 0;
    it.witness.width = 0;
    it.witness.terminal.present = 0;
    check(verify_rows(&it) == VOLGWAIN_OK, "and no constraints");
    it.witness.terminal.present = 1;
    memset(&it.witness.terminal.value, 0, sizeof it.witness.terminal.value);
    check(verify_rows(&it) == VOLGWAIN_TERMINAL_PRESENCE && it.refusal.expected == 0 && it.refusal.actual == 1,
        "a terminal without lookups");
}

/* The prefix of an id where beta is of the base field: alpha + (id + 1) * beta^2. */
static struct volgwain_element prefix_of(const struct volgwain_element *alpha, uint32_t beta, uint64_t id)
{
    struct volgwain_element prefix = *alpha;
    uint64_t step = (uint64_t)beta * beta % VOLGWAIN_MODULUS;
    uint64_t sum = (id + 1) % VOLGWAIN_MODULUS * step + alpha->c[0];
    prefix.c[0] = (uint32_t)(sum % VOLGWAIN_MODULUS);
    return prefix;
}

/* Under ids near 2^40, to which no table of prefixes leads, all is as under the three prefixes worked out here. */
static void check_great_ids(void)
{
    static const size_t great = (size_t)(UINT64_C(1) << 40);
    struct volgwain_element challenges[6], expected[WIDTH * MOST_HEIGHT];
    struct volgwain_terminal terminal;
    struct cut it;
    int i;
    if (sizeof(size_t) != 8)
        return;
    make_cut(&it, MOST_HEIGHT);
    it.ids[0] = great;
    it.ids[1] = 6;
    it.ids[2] = great - 5;
    it.sizes.num_ids = great + 1;
    /* alpha is not of the base field, and all else is: no denominator vanishes */
    it.beta.c[2] = 0;
    it.beta.c[0] = 1234567891;
    for (i = 0; i < 3; i++) {
        challenges[2 * i] = prefix_of(&it.alpha, it.beta.c[0], it.ids[i]);
        challenges[2 * i + 1] = it.beta;
    }
    check(volgwain_generate(&it.air.tables, &it.traces, challenges, 6, expected, WIDTH * MOST_HEIGHT, &terminal,
              &it.refusal, it.text, sizeof it.text)
            == VOLGWAIN_OK,
        "the trace is generated under prefixes");
    check(generate_whole(&it) == VOLGWAIN_OK && memcmp(it.whole, expected, sizeof expected) == 0
            && memcmp(&it.terminal, &terminal, sizeof terminal) == 0,
        "under great ids the same is generated");
    take_rows(&it, 0, MOST_HEIGHT);
    check(generate_rows(&it) == VOLGWAIN_OK && memcmp(it.auxiliary, expected, sizeof expected) == 0
            && memcmp(&it.sum, &terminal.value, sizeof it.sum) == 0,
        "and so it is as a range");
    check(verify_rows(&it) == VOLGWAIN_OK, "which is accepted");
    take_rows(&it, 2, 4);
    check(verify_rows(&it) == VOLGWAIN_OK, "as a range within it is");
    it.ids[0] -= VOLGWAIN_MODULUS;
    check(verify_rows(&it) == VOLGWAIN_OK, "an id that is less by the modulus has the same prefix");
    it.ids[0]--;
    check(verify_rows(&it) == VOLGWAIN_CONSTRAINT_FAILED && it.refusal.row == 2, "another one has not");
    it.ids[0] = great + 1;
    check_both_refused(&it, "an id past them", VOLGWAIN_BAD_NUMBER, VOLGWAIN_PART_IDS, 0, 0, 0);
}

static void check_shifts(void)
{
    static const struct volgwain_element cells[4] = {
        {{1, 2, 3, 4}}, {{5, 6, 7, 8}}, {{2013265920, 0, 0, 2013265919}}, {{9, 10, 11, 12}}};
    static const struct volgwain_element offset = {{1, 0, 10, 3}};
    static const struct volgwain_element shifted[4] = {
        {{2, 2, 13, 7}}, {{5, 6, 7, 8}}, {{0, 0, 10, 1}}, {{9, 10, 11, 12}}};
    long before = asked;
    struct cut it;
    make_cut(&it, 1);
    memcpy(it.auxiliary, cells, sizeof cells);
    check(shift(&it, it.auxiliary, 4, 2, &offset) == VOLGWAIN_OK && it.refusal.code == 0
            && memcmp(it.auxiliary, shifted, sizeof shifted) == 0 && it.auxiliary[4].c[0] == 0x09090909,
        "two rows are shifted");
    check(shift(&it, it.auxiliary, 0, 0, &offset) == VOLGWAIN_OK
            && shift(&it, it.auxiliary, 0, 3, &offset) == VOLGWAIN_OK
            && memcmp(it.auxiliary, shifted, sizeof shifted) == 0,
        "no rows are shifted");

    make_cut(&it, 1);
    it.sum = offset;
    it.sum.c[1] = VOLGWAIN_MODULUS;
    check(shift(&it, it.auxiliary, 4, 3, &it.sum) == VOLGWAIN_BAD_NUMBER
            && it.refusal.part == VOLGWAIN_PART_OFFSET && it.refusal.row == 0
            && has_text(&it.refusal, it.text, "air 0, offset: number 0 is not below the modulus"),
        "an offset past the modulus");
    memset(&it.sum, 9, sizeof it.sum);
    it.auxiliary[2].c[0] = VOLGWAIN_MODULUS;
    check(shift(&it, it.auxiliary, 4, 3, &offset) == VOLGWAIN_NO_WHOLE_ROWS
            && it.refusal.part == VOLGWAIN_PART_AUXILIARY,
        "cells that make no rows");
    check(shift(&it, it.auxiliary, 4, 0, &offset) == VOLGWAIN_NO_WHOLE_ROWS, "cells without a width");
    check(shift(&it, it.auxiliary, 4, 2, &offset) == VOLGWAIN_BAD_NUMBER
            && it.refusal.part == VOLGWAIN_PART_AUXILIARY && it.refusal.row == 2,
        "a cell past the modulus");
    memset(&it.auxiliary[2], 9, sizeof it.auxiliary[2]);
    check(has_kept_rows(&it), "refused rows are not shifted");
    check(asked == before, "a shift asks for no memory");
}

/* ---- KoalaBear: each call once, on numbers that BabyBear does not have where that can be ---- */

/* 1/2 is (p + 1) / 2, 1/4 is (3p + 1) / 4 and 1/3 is (p + 1) / 3 */
#define KOALA_HALF 1065353217u
#define KOALA_MINUS_HALF 1065353216u
#define KOALA_QUARTER 1598029825u
#define KOALA_THIRD 710235478u

/* The batch of two AIRs, with an entry that is never used and is no number of BabyBear. */
static void make_koala(struct bus *it)
{
    make_bus(it);
    it->entries[2] = VOLGWAIN_MODULUS;
}

static uint32_t prove_koala(struct bus *it)
{
    return volgwain_koala_bear_prove(it->airs, 2, it->traces, 2, &it->alpha, &it->beta, it->auxiliary, 8,
        it->terminals, 2, &it->refusal, it->text, sizeof it->text);
}

static uint32_t verify_koala(struct bus *it)
{
    struct volgwain_air_witness witness[2];
    int air;
    for (air = 0; air < 2; air++) {
        witness[air].auxiliary = &it->auxiliary[4 * air];
        witness[air].auxiliary_length = 4;
        witness[air].width = 2;
        witness[air].terminal = it->terminals[air];
    }
    return volgwain_koala_bear_verify(it->airs, 2, it->traces, 2, &it->alpha, &it->beta, witness, 2,
        &it->refusal, it->text, sizeof it->text);
}

/* The prefix is 7, as over BabyBear, so the denominator of 3 is 4. */
static int is_proved_koala(const struct bus *it)
{
    const struct volgwain_element *a = it->auxiliary;
    return it->refusal.code == 0 && is_base(&a[0], 0) && is_base(&a[1], KOALA_QUARTER)
           && is_base(&a[2], KOALA_QUARTER) && is_base(&a[3], KOALA_QUARTER) && is_base(&a[4], 0)
           && is_base(&a[5], KOALA_MINUS_HALF) && is_base(&a[6], KOALA_MINUS_HALF) && is_base(&a[7], 0)
           && it->terminals[0].present == 1 && is_base(&it->terminals[0].value, KOALA_HALF)
           && it->terminals[1].present == 1 && is_base(&it->terminals[1].value, KOALA_MINUS_HALF);
}

static int is_cube(const struct volgwain_element *x, uint32_t c3)
{
    return x->c[0] == 0 && x->c[1] == 0 && x->c[2] == 0 && x->c[3] == c3;
}

static void check_koala_proofs(void)
{
    struct bus it;
    make_koala(&it);
    check(prove_koala(&it) == VOLGWAIN_OK && is_proved_koala(&it), "a batch over KoalaBear is proved");
    check(verify_koala(&it) == VOLGWAIN_OK, "and its witness accepted");
    check(verify(&it) == VOLGWAIN_BAD_NUMBER, "which is none over BabyBear");
    it.auxiliary[7].c[2] = 1;
    check_refused_witness(
        &it, "a fraction over KoalaBear", verify_koala(&it), VOLGWAIN_CONSTRAINT_FAILED, 1, 1);
    it.entries[2] = VOLGWAIN_KOALA_BEAR_MODULUS;
    check(prove_koala(&it) == VOLGWAIN_BAD_NUMBER && it.refusal.air == 1 && it.refusal.row == 2,
        "the modulus of KoalaBear");

    make_bus(&it);
    check(prove(&it) == VOLGWAIN_OK, "the worked batch again");
    check(verify_koala(&it) == VOLGWAIN_CONSTRAINT_FAILED, "a witness of BabyBear over KoalaBear");

    /* the prefix is 3 + X, so the denominator of 3 is X, and 1/X is X^3 / 3, where it is X^3 / 11 over
     * BabyBear */
    make_koala(&it);
    it.alpha.c[0] = 3;
    it.beta.c[0] = 0;
    it.beta.c[1] = 1;
    check(prove_koala(&it) == VOLGWAIN_OK && is_cube(&it.auxiliary[1], KOALA_THIRD)
              && is_cube(&it.auxiliary[3], KOALA_THIRD) && is_cube(&it.terminals[0].value, 2 * KOALA_THIRD)
              && is_cube(&it.auxiliary[5], KOALA_THIRD - 1),
        "a denominator X over KoalaBear");
    check(verify_koala(&it) == VOLGWAIN_OK, "and its witness");
}

static void check_koala_plans(void)
{
    static const struct volgwain_element alphas[2] = {{{5, 0, 0, 0}}, {{1, 0, 0, 0}}};
    struct bus it;
    struct volgwain_plan_sizes sizes = {9, 9};
    struct volgwain_counts counts;
    struct volgwain_height_counts heights;
    struct volgwain_grid grid;
    struct volgwain_tables tables[2];
    size_t ids[2] = {9, 9};
    memset(&counts, 9, sizeof counts);
    memset(&heights, 9, sizeof heights);
    memset(&grid, 9, sizeof grid);
    make_koala(&it);
    tables[0] = it.airs[0].tables;
    tables[1] = it.airs[1].tables;
    /* twice this weight is the modulus less one */
    it.asks[0].weight = KOALA_MINUS_HALF;
    check(volgwain_koala_bear_plan(it.airs, 2, ids, 2, &sizes, &it.refusal, it.text, sizeof it.text)
                  == VOLGWAIN_OK
              && ids[0] == 0 && ids[1] == 0 && sizes.max_message_width == 1 && sizes.num_ids == 1,
        "a plan over KoalaBear");
    check(plan(&it, ids, 2, &sizes) == VOLGWAIN_HEIGHT_BOUND, "whose weights are too great for BabyBear");
    it.asks[0].weight = KOALA_HALF;
    check(volgwain_koala_bear_plan(it.airs, 2, ids, 2, &sizes, &it.refusal, it.text, sizeof it.text)
              == VOLGWAIN_HEIGHT_BOUND,
        "a weight more");
    it.asks[0].weight = 1;
    /* 3 and the entry that is never used; four rows with a message each */
    check(volgwain_koala_bear_soundness_count(
              it.airs, 2, it.traces, 2, &counts, &it.refusal, it.text, sizeof it.text)
                  == VOLGWAIN_OK
              && are_counts(&counts, 2, 0, 0, 0, 0, 0),
        "messages over KoalaBear");
    check(volgwain_koala_bear_soundness_of_heights(it.airs, 2, &heights, &it.refusal, it.text, sizeof it.text)
                  == VOLGWAIN_OK
              && are_height_counts(&heights, 4, 3, 1, 7),
        "heights over KoalaBear");
    /* at 1 the denominator of 3 vanishes */
    check(volgwain_koala_bear_grid_count(
              it.airs, 2, it.traces, 2, alphas, 2, &it.beta, 1, &grid, &it.refusal, it.text, sizeof it.text)
                  == VOLGWAIN_OK
              && grid.accepted.low == 1 && grid.accepted.high == 0 && grid.bounded == 0,
        "a grid over KoalaBear");
    check(volgwain_koala_bear_debug_check(tables, 2, it.traces, 2, &it.refusal, it.text, sizeof it.text)
              == VOLGWAIN_OK,
        "tuples that balance over KoalaBear");
}

static void check_koala_airs(void)
{
    static const struct volgwain_rows all = {0, 2, 2};
    static const struct volgwain_plan_sizes sizes = {1, 1};
    static const size_t id = 0;
    struct range one;
    struct bus it;
    struct volgwain_air_witness witness;
    static const struct volgwain_element kept = {{1, 1, 1, 1}};
    struct volgwain_element sum, cells[2] = {{{VOLGWAIN_KOALA_BEAR_MODULUS - 1, 0, 0, 5}}, {{1, 1, 1, 1}}};
    static const struct volgwain_element offset = {{2, 0, 0, VOLGWAIN_KOALA_BEAR_MODULUS - 5}};
    make_range(&one);
    check(volgwain_koala_bear_generate(&one.tables, &one.traces, one.challenges, 2, one.auxiliary, 4,
              &one.terminal, &one.refusal, one.text, sizeof one.text)
                  == VOLGWAIN_OK
              && is_base(&one.auxiliary[1], KOALA_MINUS_HALF) && is_base(&one.auxiliary[2], KOALA_MINUS_HALF)
              && is_base(&one.auxiliary[3], KOALA_HALF) && one.terminal.present == 1
              && is_base(&one.terminal.value, 0),
        "the worked rows over KoalaBear");
    make_koala(&it);
    check(volgwain_koala_bear_generate_by_ids(&it.airs[0].tables, &it.traces[0], &id, 1, &sizes, &it.alpha,
              &it.beta, it.auxiliary, 4, &it.terminals[0], &it.refusal, it.text, sizeof it.text)
                  == VOLGWAIN_OK
              && is_base(&it.auxiliary[3], KOALA_QUARTER) && is_base(&it.terminals[0].value, KOALA_HALF),
        "an AIR by ids over KoalaBear");
    witness.auxiliary = it.auxiliary;
    witness.auxiliary_length = 4;
    witness.width = 2;
    witness.terminal = it.terminals[0];
    check(volgwain_koala_bear_verify_rows(&it.airs[0].tables, &it.traces[0], &all, &id, 1, &sizes, &it.alpha,
              &it.beta, &witness, &it.refusal, it.text, sizeof it.text)
              == VOLGWAIN_OK,
        "its rows verified over KoalaBear");
    check(volgwain_koala_bear_generate_rows(&it.airs[0].tables, &it.traces[0], &all, &id, 1, &sizes,
              &it.alpha, &it.beta, it.auxiliary, 4, &sum, &it.refusal, it.text, sizeof it.text)
                  == VOLGWAIN_OK
              && is_base(&it.auxiliary[2], KOALA_QUARTER) && is_base(&sum, KOALA_HALF),
        "its rows generated over KoalaBear");
    check(volgwain_koala_bear_shift(cells, 2, 2, &offset, &it.refusal, it.text, sizeof it.text) == VOLGWAIN_OK
              && is_base(&cells[0], 1) && memcmp(&cells[1], &kept, sizeof kept) == 0,
        "a shift past the modulus of KoalaBear");
}

static void check_koala_tables(void)
{
    static const char json[] =
        "[{\"kind\":\"Local\",\"elements\":[[]],\"multiplicities\":[{\"Leaf\":{\"Constant\":"
        "2013265921}}],\"count_weight\":0,\"column\":0,\"flags\":null}]";
    static const char large[] =
        "[{\"kind\":\"Local\",\"elements\":[[]],\"multiplicities\":[{\"Leaf\":{\"Constant\":"
        "2130706433}}],\"count_weight\":0,\"column\":0,\"flags\":null}]";
    struct range one;
    struct pack it;
    size_t degree = 9;
    make_range(&one);
    one.nodes[2].number = VOLGWAIN_MODULUS;
    check(volgwain_koala_bear_degrees(&one.tables, 0, &degree, 1, &one.refusal, one.text, sizeof one.text)
                  == VOLGWAIN_OK
              && degree == 3,
        "the degree of two tuples over KoalaBear");
    check(volgwain_degrees(&one.tables, 0, &degree, 1, &one.refusal, one.text, sizeof one.text)
              == VOLGWAIN_BAD_TABLE,
        "a constant that is none over BabyBear");
    make_pack(&it);
    it.nodes[3].number = VOLGWAIN_MODULUS;
    check(volgwain_koala_bear_pack(&it.tables, 3, it.packed_nodes, 10, it.packed_tuples, 5, it.packed_names,
              4, it.packed_records, 4, &it.sizes, &it.refusal, it.text, sizeof it.text)
                  == VOLGWAIN_OK
              && are_sizes(&it.sizes, 9, 4, 2, 3)
              && is_node(&it.packed_nodes[8], VOLGWAIN_CONSTANT, VOLGWAIN_MODULUS, 0),
        "lookups packed over KoalaBear");
    make_pack(&it);
    check(volgwain_koala_bear_read_json(json, strlen(json), it.packed_nodes, 10, it.packed_tuples, 5,
              it.packed_names, 4, it.packed_records, 4, &it.sizes, &it.refusal, it.text, sizeof it.text)
                  == VOLGWAIN_OK
              && are_sizes(&it.sizes, 1, 1, 0, 1)
              && is_node(&it.packed_nodes[0], VOLGWAIN_CONSTANT, VOLGWAIN_MODULUS, 0),
        "JSON over KoalaBear");
    check(volgwain_koala_bear_read_json(large, strlen(large), it.packed_nodes, 10, it.packed_tuples, 5,
              it.packed_names, 4, it.packed_records, 4, &it.sizes, &it.refusal, it.text, sizeof it.text)
              == VOLGWAIN_BAD_TEXT,
        "JSON with the modulus of KoalaBear");
    check(read_json(&it, json, strlen(json)) == VOLGWAIN_BAD_TEXT, "JSON with the modulus of BabyBear");
}

static void check_koala_checks(void)
{
    static const uint32_t cells[4] = {0, KOALA_MINUS_HALF, KOALA_MINUS_HALF, KOALA_HALF};
    static const size_t table[] = {1, 1, 4, 'k', 'e', 'y', 's', 2, 1, 2, 2, 1,
        1, 3, VOLGWAIN_KOALA_BEAR_MODULUS - 1, 2, 1, 0, 0, 0, 1};
    static const size_t mismatch[] = {1, 1, 4, 'k', 'e', 'y', 's', 1, 3, VOLGWAIN_KOALA_BEAR_MODULUS - 1, 2, 2,
        0, 0, 0, 1, 1, 0, 0, VOLGWAIN_KOALA_BEAR_MODULUS - 2};
    /* what is half of this modulus is past half of that of BabyBear, and sent */
    static const size_t halves[] = {1, 1, 4, 'k', 'e', 'y', 's', 3, 1, 2, 2, 0};
    struct verdict it;
    struct found two;
    struct volgwain_fit fit;
    struct range *one = &it.one;
    size_t degree = 9;
    int i;
    make_verdict(&it);
    for (i = 0; i < 4; i++)
        it.cells[i].c[0] = cells[i];
    check(volgwain_koala_bear_verify_air(&one->tables, &one->traces, one->challenges, 2, &it.witness,
              &one->refusal, one->text, sizeof one->text)
              == VOLGWAIN_OK,
        "an AIR is verified under its challenges over KoalaBear");
    check_verdict(&it, "which it is not over BabyBear", VOLGWAIN_CONSTRAINT_FAILED, 0, 0, 0, 0);
    it.cells[3].c[0] = KOALA_MINUS_HALF;
    check(volgwain_koala_bear_verify_air(&one->tables, &one->traces, one->challenges, 2, &it.witness,
              &one->refusal, one->text, sizeof one->text)
                  == VOLGWAIN_CONSTRAINT_FAILED
              && one->refusal.row == 1,
        "a fraction of an AIR over KoalaBear");

    one->main[1] = one->nodes[2].number = VOLGWAIN_MODULUS;
    one->nodes[3].index = 3;
    memset(&fit, 9, sizeof fit);
    check(volgwain_koala_bear_fit_fault(
              &one->tables, &one->traces, &fit, &one->refusal, one->text, sizeof one->text)
                  == VOLGWAIN_OK
              && fit.reason == VOLGWAIN_FIT_MISSING && fit.part == VOLGWAIN_PART_MAIN && fit.column == 3
              && fit.width == 3,
        "a column past the trace over KoalaBear");
    memset(&fit, 9, sizeof fit);
    one->main[1] = VOLGWAIN_KOALA_BEAR_MODULUS;
    check(volgwain_koala_bear_fit_fault(
              &one->tables, &one->traces, &fit, &one->refusal, one->text, sizeof one->text)
                  == VOLGWAIN_BAD_NUMBER
              && fit.reason == 0x09090909,
        "no fit of the modulus of KoalaBear");
    one->nodes[0].kind = VOLGWAIN_TRANSITION;
    check(volgwain_koala_bear_degrees(
              &one->tables, 5, &degree, 1, &one->refusal, one->text, sizeof one->text)
                  == VOLGWAIN_OK
              && degree == 7,
        "a transition of degree 5 over KoalaBear");

    make_found(&two, 1);
    two.two.entries[2] = VOLGWAIN_MODULUS;
    check_told(&two, volgwain_koala_bear_bus_table, "the table of a bus over KoalaBear", table, COUNT(table));
    two.limit = 2;
    check_told(&two, volgwain_koala_bear_mismatch, "a mismatch over KoalaBear", mismatch, COUNT(mismatch));
    two.limit = 0;
    two.two.entries[2] = 5;
    two.two.entries[3] = VOLGWAIN_KOALA_BEAR_MODULUS - KOALA_MINUS_HALF;
    check_told(&two, volgwain_koala_bear_bus_table, "half of the modulus", halves, COUNT(halves));
}

/* The number that is -1 over BabyBear is -117440513 here: not small, and no power of two, so it has no bound. */
static void check_koala_laws(void)
{
    struct laws it;
    make_laws(&it);
    check(enforce_by(&it, volgwain_koala_bear_enforced) == VOLGWAIN_OK && is_all_shown(&it, 0),
        "all that is shown over KoalaBear");
    /* 2013265921 is no zero here */
    it.main[0] = VOLGWAIN_MODULUS;
    check(volgwain_koala_bear_check_constraints(&it.tables, &it.constraints, &it.traces, &it.refusal, it.text,
              sizeof it.text)
                == VOLGWAIN_NONZERO_CONSTRAINT
            && it.refusal.row == 0 && it.refusal.lookup == 0,
        "a constraint over KoalaBear");
    it.main[0] = 1;
    check(volgwain_koala_bear_check_constraints(&it.tables, &it.constraints, &it.traces, &it.refusal, it.text,
              sizeof it.text)
            == VOLGWAIN_OK,
        "constraints that hold over KoalaBear");
}

/* ---- memory that runs out ---- */

static uint32_t try_generate(void)
{
    struct range it;
    uint32_t code;
    make_range(&it);
    code = generate(&it);
    check(code == VOLGWAIN_OK ? is_generated(&it) : is_untouched(&it), "generation without memory");
    check(code == VOLGWAIN_OK || has_text(&it.refusal, it.text, "out of memory"), "its text");
    return code;
}

static uint32_t try_prove(void)
{
    struct bus it;
    uint32_t code;
    make_bus(&it);
    code = prove(&it);
    check(code == VOLGWAIN_OK ? is_proved(&it) : is_unproved(&it), "a proof without memory");
    return code;
}

static uint32_t try_verify(void)
{
    static const uint32_t cells[8] = {0, QUARTER, QUARTER, QUARTER, 0, MINUS_HALF, MINUS_HALF, 0};
    struct bus it;
    int i;
    make_bus(&it);
    memset(it.auxiliary, 0, sizeof it.auxiliary);
    memset(it.terminals, 0, sizeof it.terminals);
    for (i = 0; i < 8; i++)
        it.auxiliary[i].c[0] = cells[i];
    for (i = 0; i < 2; i++) {
        it.terminals[i].present = 1;
        it.terminals[i].value.c[0] = i == 0 ? HALF : MINUS_HALF;
    }
    return verify(&it);
}

static uint32_t try_degrees(void)
{
    struct range it;
    size_t degree = 9;
    uint32_t code;
    make_range(&it);
    code = volgwain_degrees(&it.tables, 0, &degree, 1, &it.refusal, it.text, sizeof it.text);
    check(degree == (code == VOLGWAIN_OK ? 3 : 9), "degrees without memory");
    return code;
}

static uint32_t try_plan(void)
{
    struct bus it;
    struct volgwain_plan_sizes sizes = {9, 9};
    size_t ids[2] = {9, 9};
    uint32_t code;
    make_bus(&it);
    code = plan(&it, ids, 2, &sizes);
    check(ids[1] == (code == VOLGWAIN_OK ? 0 : 9) && sizes.num_ids == (code == VOLGWAIN_OK ? 1 : 9),
        "a plan without memory");
    return code;
}

static uint32_t try_given_ids(void)
{
    static const size_t two[1] = {2};
    struct bus it;
    struct volgwain_plan_sizes sizes = {9, 9};
    size_t ids[2] = {9, 9};
    uint32_t code;
    give_ids(&it, two, two);
    code = plan(&it, ids, 2, &sizes);
    check(ids[1] == (code == VOLGWAIN_OK ? 2 : 9) && sizes.num_ids == (code == VOLGWAIN_OK ? 3 : 9),
        "a plan over given ids without memory");
    return code;
}

static uint32_t try_count(void)
{
    static const struct volgwain_element alphas[3] = {{{5, 0, 0, 0}}, {{2, 0, 0, 0}}, {{1, 0, 0, 0}}};
    struct bus it;
    struct volgwain_grid grid;
    uint32_t code;
    memset(&grid, 0, sizeof grid);
    make_bus(&it);
    code = count(&it, alphas, 3, &grid);
    check(grid.accepted.low == (code == VOLGWAIN_OK ? 2 : 0), "a count without memory");
    return code;
}

static uint32_t try_debug_check(void)
{
    struct range it;
    make_range(&it);
    return debug_check(&it, 1);
}

static uint32_t try_generate_by_ids(void)
{
    static const struct volgwain_plan_sizes sizes = {1, 1};
    static const size_t ids[1] = {0};
    struct bus it;
    uint32_t code;
    make_bus(&it);
    code = by_ids(&it, 0, ids, 1, &sizes);
    check(code == VOLGWAIN_OK ? is_base(&it.auxiliary[1], QUARTER) : is_unproved(&it),
        "generation by ids without memory");
    return code;
}

static uint32_t try_soundness_count(void)
{
    struct bus it;
    struct volgwain_counts counts;
    uint32_t code;
    memset(&counts, 0, sizeof counts);
    make_bus(&it);
    code = count_messages(&it, &counts);
    check(counts.messages.low == (code == VOLGWAIN_OK ? 2 : 0), "counts without memory");
    return code;
}

static uint32_t try_soundness_of_heights(void)
{
    struct bus it;
    struct volgwain_height_counts counts;
    uint32_t code;
    memset(&counts, 0, sizeof counts);
    make_bus(&it);
    code = count_heights(&it, &counts);
    check(counts.most_messages.low == (code == VOLGWAIN_OK ? 4 : 0), "counts by heights without memory");
    return code;
}

static uint32_t try_pack(void)
{
    struct pack it;
    uint32_t code;
    make_pack(&it);
    code = pack(&it, 3);
    check(code == VOLGWAIN_OK ? is_packed(&it) : is_unpacked(&it), "packing without memory");
    return code;
}

static uint32_t try_read_json(void)
{
    struct pack it;
    uint32_t code;
    make_pack(&it);
    code = read_json(&it, whole_json, strlen(whole_json));
    check(code == VOLGWAIN_OK ? is_read(&it) : is_unpacked(&it), "JSON without memory");
    check(code == VOLGWAIN_OK || has_text(&it.refusal, it.text, "out of memory"), "its text");
    return code;
}

static uint32_t try_generate_rows(void)
{
    struct cut it;
    uint32_t code;
    make_cut(&it, 5);
    take_rows(&it, 2, 4);
    code = generate_rows(&it);
    check(code == VOLGWAIN_OK ? is_base(&it.auxiliary[0], 0) && !has_kept_rows(&it) : has_kept_rows(&it),
        "generation of rows without memory");
    return code;
}

/* a witness of a range, made once */
static struct cut accepted;

static uint32_t try_verify_rows(void)
{
    return verify_rows(&accepted);
}

/* a mismatch, whose text needs memory */
static uint32_t try_mismatch(void)
{
    struct range it;
    uint32_t code;
    make_range(&it);
    it.main[2] = 2;
    code = debug_check(&it, 1);
    return code == VOLGWAIN_MISMATCH ? VOLGWAIN_OK : code;
}

static uint32_t try_verify_air(void)
{
    struct verdict it;
    make_verdict(&it);
    return verify_air(&it);
}

static uint32_t try_fit_fault(void)
{
    struct range it;
    struct volgwain_fit fit;
    uint32_t code;
    make_range(&it);
    memset(&fit, 9, sizeof fit);
    code = fit_fault(&it, &fit);
    check(fit.reason == (code == VOLGWAIN_OK ? VOLGWAIN_FIT_OK : 0x09090909u), "a fit without memory");
    return code;
}

static uint32_t try_enforced(void)
{
    struct laws it, before;
    uint32_t code;
    make_laws(&it);
    make_laws(&before);
    code = enforce(&it);
    check(code == VOLGWAIN_OK ? is_all_shown(&it, 1)
                              : memcmp(it.shown, before.shown, sizeof it.shown) == 0
                  && memcmp(it.bounds, before.bounds, sizeof it.bounds) == 0,
        "what is enforced without memory");
    return code;
}

static uint32_t try_check_constraints(void)
{
    struct laws it;
    make_laws(&it);
    return check_laws(&it);
}

static uint32_t try_to_tell(telling *call, size_t count)
{
    struct found it;
    uint32_t code;
    make_found(&it, 2);
    code = tell(&it, call);
    check(code == VOLGWAIN_OK ? it.written == count : it.written == 9 && are_numbers_kept(&it, 0),
        "findings without memory");
    return code;
}

static uint32_t try_bus_table(void)
{
    return try_to_tell(volgwain_bus_table, 34);
}

static uint32_t try_mismatch_numbers(void)
{
    return try_to_tell(volgwain_mismatch, 20);
}

/* Refuses each request of a call in turn, alone and with all later ones. */
static void check_memory(const char *name, uint32_t (*call)(void))
{
    int all;
    for (all = 0; all < 2; all++) {
        long requests = 0;
        int refused;
        do {
            uint32_t code;
            refuses_all = all;
            before_refusal = requests;
            code = call();
            /* A refused request leaves -1, or 0 if later ones are refused too. So may a run of exactly so many
               requests, which then counts as refused: one more follows. */
            refused = all ? before_refusal == 0 : before_refusal < 0;
            before_refusal = -1;
            check(code == VOLGWAIN_OK || (refused && code == VOLGWAIN_OUT_OF_MEMORY), "the code of refused memory");
            check(live == 0, "nothing is leaked");
            requests++;
        } while (refused && requests < 10000);
        check(requests > 5 && requests < 10000, name);
        if (all == 0)
            printf("%s: %ld requests for memory, each refused in turn\n", name, requests - 1);
    }
}

/* ---- memory of chunks: four lookups over rows of five columns ----

   One without tuples; an exclusive one of two flags, whose first flag is set on few rows of the first chunk
   and on all rows after it; one of two tuples of two elements; and one of products. */

#define CHUNK 1024
#define MOST_ROWS 3000

static const struct volgwain_node chunk_nodes[15] = {
    {VOLGWAIN_MAIN, 0, 0}, {VOLGWAIN_MAIN, 0, 1}, {VOLGWAIN_MAIN, 0, 2}, {VOLGWAIN_MAIN, 0, 3},
    {VOLGWAIN_MAIN, 0, 2}, {VOLGWAIN_CONSTANT, 1, 0}, {VOLGWAIN_CONSTANT, 1, 0}, {VOLGWAIN_MAIN, 0, 4},
    {VOLGWAIN_MAIN, 0, 4}, {VOLGWAIN_NEGATION, 0, 0}, {VOLGWAIN_MAIN, 0, 2}, {VOLGWAIN_MAIN, 0, 3},
    {VOLGWAIN_PRODUCT, 0, 0}, {VOLGWAIN_MAIN, 0, 4}, {VOLGWAIN_SUM, 0, 0}};
static const struct volgwain_span chunk_tuples[5] = {{2, 3}, {3, 4}, {2, 4}, {3, 5}, {10, 15}};
static const struct volgwain_record chunk_records[4] = {
    {0, 0, 1, {0, 0}, {0, 0}, {0, 0}, {0, 0}},
    {0, 1, 1, {0, 0}, {0, 2}, {5, 7}, {0, 2}},
    {0, 0, 1, {0, 0}, {2, 4}, {7, 10}, {0, 0}},
    {0, 0, 1, {0, 0}, {4, 5}, {10, 13}, {0, 0}}};
/* no alpha is in the base field, so no denominator vanishes */
static const struct volgwain_element chunk_challenges[8] = {
    {{5, 1, 0, 0}}, {{2, 0, 0, 0}}, {{6, 1, 0, 0}}, {{2, 0, 0, 0}}, {{7, 1, 0, 0}}, {{2, 0, 0, 0}},
    {{8, 1, 0, 0}}, {{2, 0, 0, 0}}};
static uint32_t chunk_cells[5 * MOST_ROWS];
static struct volgwain_element chunk_auxiliary[5 * MOST_ROWS];

static void make_chunks(void)
{
    size_t row;
    for (row = 0; row < MOST_ROWS; row++) {
        uint32_t *cells = &chunk_cells[5 * row];
        cells[0] = row >= CHUNK || row % 128 == 0;
        cells[1] = cells[0] == 0 && row % 2 == 1;
        cells[2] = (uint32_t)(7 * row + 1);
        cells[3] = (uint32_t)(11 * row + 2);
        cells[4] = (uint32_t)(row % 5);
    }
}

/* How many requests for memory a generation over so many rows makes. */
static long asked_for(size_t rows)
{
    struct volgwain_tables tables = {chunk_nodes, COUNT(chunk_nodes), chunk_tuples, COUNT(chunk_tuples),
        NULL, 0, chunk_records, COUNT(chunk_records)};
    struct volgwain_traces traces = {chunk_cells, 0, 5, NULL, 0, 0, NULL, 0};
    struct volgwain_terminal terminal;
    struct volgwain_refusal refusal;
    char text[200];
    long before = asked;
    traces.main_length = 5 * rows;
    check(volgwain_generate(&tables, &traces, chunk_challenges, COUNT(chunk_challenges), chunk_auxiliary,
              5 * rows, &terminal, &refusal, text, sizeof text) == VOLGWAIN_OK,
        "chunks are generated");
    return asked - before;
}

/* How many a generation of so many rows, from the first one on, makes. */
static long asked_for_rows(size_t count)
{
    static const struct volgwain_plan_sizes sizes = {2, COUNT(chunk_records)};
    static const size_t ids[COUNT(chunk_records)] = {0, 1, 2, 3};
    struct volgwain_tables tables = {chunk_nodes, COUNT(chunk_nodes), chunk_tuples, COUNT(chunk_tuples),
        NULL, 0, chunk_records, COUNT(chunk_records)};
    struct volgwain_traces around = {chunk_cells, 0, 5, NULL, 0, 0, NULL, 0};
    struct volgwain_rows rows = {0, 0, MOST_ROWS};
    struct volgwain_element sum;
    struct volgwain_refusal refusal;
    char text[200];
    long before = asked;
    rows.end = count;
    around.main_length = 5 * (count == MOST_ROWS ? count : count + 1);
    check(volgwain_generate_rows(&tables, &around, &rows, ids, COUNT(ids), &sizes, &chunk_challenges[0],
              &chunk_challenges[1], chunk_auxiliary, 5 * count, &sum, &refusal, text, sizeof text)
            == VOLGWAIN_OK,
        "chunks of a range are generated");
    return asked - before;
}

static void check_chunks(void)
{
    long one;
    make_chunks();
    one = asked_for(CHUNK);
    check(one > 0, "a chunk asks for memory");
    check(asked_for(CHUNK + 1) == one, "a chunk of one row asks for no more");
    check(asked_for(2 * CHUNK) == one, "a second chunk asks for no more");
    check(asked_for(2 * CHUNK + 1) == one, "a third one of one row asks for no more");
    check(asked_for(MOST_ROWS) == one, "a third chunk asks for no more");
    printf("chunks: %ld requests for memory, over one chunk as over three\n", one);
    one = asked_for_rows(CHUNK);
    check(one > 0 && asked_for_rows(CHUNK + 1) == one && asked_for_rows(2 * CHUNK + 1) == one
            && asked_for_rows(MOST_ROWS) == one,
        "a range of more chunks asks for no more");
}

/* ---- threads ---- */

/* the rows of the middle range, shifted, are those of the whole */
static int has_middle_rows(struct cut *it)
{
    return shift(it, it->auxiliary, it->auxiliary_length, WIDTH, &it->whole[2 * WIDTH]) == VOLGWAIN_OK
        && memcmp(it->auxiliary, &it->whole[2 * WIDTH], 2 * WIDTH * sizeof *it->whole) == 0;
}

static void *run_calls(void *unused)
{
    long wrong = 0;
    int round;
    (void)unused;
    for (round = 0; round < 200; round++) {
        struct range one;
        struct bus two;
        struct pack three;
        struct cut four;
        struct found five;
        make_range(&one);
        make_bus(&two);
        make_pack(&three);
        make_middle(&four);
        make_found(&five, 2);
        if (generate(&one) != VOLGWAIN_OK || !is_generated(&one))
            wrong++;
        if (tell(&five, volgwain_bus_table) != VOLGWAIN_OK || five.written != 34
            || tell(&five, volgwain_mismatch) != VOLGWAIN_OK || five.written != 20)
            wrong++;
        if (prove(&two) != VOLGWAIN_OK || !is_proved(&two) || verify(&two) != VOLGWAIN_OK)
            wrong++;
        if (pack(&three, 3) != VOLGWAIN_OK || !is_packed(&three)
            || read_json(&three, whole_json, strlen(whole_json)) != VOLGWAIN_OK || !is_read(&three))
            wrong++;
        if (verify_rows(&four) != VOLGWAIN_OK || generate_rows(&four) != VOLGWAIN_OK || !has_middle_rows(&four))
            wrong++;
    }
    return (void *)wrong;
}

static void check_threads(void)
{
    pthread_t threads[4];
    int i;
    for (i = 0; i < 4; i++)
        if (pthread_create(&threads[i], NULL, run_calls, NULL) != 0)
            exit(3);
    for (i = 0; i < 4; i++) {
        void *wrong = NULL;
        pthread_join(threads[i], &wrong);
        check(wrong == NULL, "four threads at once");
    }
}

/* Three threads work, while in this one each request of the calls on ranges of rows is refused in turn: they go on,
   and the refused call made again gives the same rows. */
static void check_memory_of_one_thread(void)
{
    pthread_t threads[3];
    long granted, before = live;
    int i, is_last = 0;
    refused_thread = pthread_self();
    spares_others = 1;
    refuses_all = 0;
    for (i = 0; i < 3; i++)
        if (pthread_create(&threads[i], NULL, run_calls, NULL) != 0)
            exit(3);
    for (granted = 0; !is_last; granted++) {
        struct cut it;
        uint32_t verdict, code;
        make_middle(&it);
        before_refusal = granted;
        code = generate_rows(&it);
        is_last = before_refusal >= 0;
        before_refusal = -1;
        check(code == VOLGWAIN_OK ? has_middle_rows(&it) : code == VOLGWAIN_OUT_OF_MEMORY && has_kept_rows(&it),
            "a range is generated, or refused and kept, beside other threads");
        before_refusal = granted;
        verdict = verify_rows(&it);
        check(verdict == VOLGWAIN_OK || verdict == VOLGWAIN_OUT_OF_MEMORY,
            "a range is accepted, or refused for memory, beside other threads");
        is_last = is_last && before_refusal >= 0;
        before_refusal = -1;
        check(verify_rows(&it) == VOLGWAIN_OK && generate_rows(&it) == VOLGWAIN_OK && has_middle_rows(&it),
            "and with memory it is the same");
    }
    check(granted > 5, "some requests of one thread are refused");
    for (i = 0; i < 3; i++) {
        void *wrong = NULL;
        pthread_join(threads[i], &wrong);
        check(wrong == NULL, "threads beside one that is refused memory");
    }
    spares_others = 0;
    check(live == before, "and no thread keeps memory");
}

/* ---- a small stack: the deepest expressions that are read ---- */

#define DEEPEST VOLGWAIN_MOST_DEPTH

struct deep {
    struct volgwain_node nodes[2 * DEEPEST + 2];
    size_t length;
    struct volgwain_node packed_nodes[8 * DEEPEST];
    char json[12 * DEEPEST];
};

static struct deep deep;

/* column 0 negated, so deep */
static void make_negations(size_t depth)
{
    size_t i;
    deep.length = 0;
    for (i = 0; i < depth; i++) {
        struct volgwain_node *node = &deep.nodes[deep.length++];
        node->kind = i == 0 ? VOLGWAIN_MAIN : VOLGWAIN_NEGATION;
        node->number = 0;
        node->index = 0;
    }
}

/* column 0, and zeros added to it from the right, or to which it is added last, so deep */
static void make_sums(size_t depth, int leans_left)
{
    size_t i;
    memset(deep.nodes, 0, sizeof deep.nodes);
    deep.length = 2 * depth - 1;
    for (i = 0; i < deep.length; i++) {
        int is_sum = leans_left ? i > 0 && i % 2 == 0 : i >= depth;
        int is_cell = leans_left ? i == 0 : i == depth - 1;
        deep.nodes[i].kind = is_sum ? VOLGWAIN_SUM : is_cell ? VOLGWAIN_MAIN : VOLGWAIN_CONSTANT;
    }
}

/* Every call on one lookup, [the expression] with the same multiplicity, on a trace of one row. A call that is
   not refused goes on to the next one. */
static uint32_t go_deep(struct volgwain_refusal *refusal)
{
    struct volgwain_span tuple = {0, 0};
    struct volgwain_record record = {1, 0, 0, {0, 1}, {0, 1}, {0, 0}, {0, 0}};
    struct volgwain_record records[2];
    uint32_t cell[1] = {3};
    uint8_t name[1] = {'b'}, packed_name[2];
    struct volgwain_air air;
    struct volgwain_traces traces = {NULL, 1, 1, NULL, 0, 0, NULL, 0};
    struct volgwain_element challenges[2] = {{{5, 0, 0, 0}}, {{2, 0, 0, 0}}};
    struct volgwain_element auxiliary[2] = {{{0, 0, 0, 0}}, {{0, 0, 0, 0}}};
    struct volgwain_terminal terminal = {0, {{0, 0, 0, 0}}};
    struct volgwain_air_witness witness;
    struct volgwain_plan_sizes sizes = {0, 0};
    struct volgwain_rows rows = {0, 1, 1};
    struct volgwain_element sum = {{0, 0, 0, 0}};
    struct volgwain_table_sizes table_sizes = {0, 0, 0, 0};
    struct volgwain_span packed_tuples[2] = {{0, 0}, {0, 0}};
    struct volgwain_record packed_records[2];
    struct volgwain_counts counts;
    struct volgwain_height_counts height_counts;
    struct volgwain_grid grid;
    /* under the one id the prefix is 5 + 1 * 2^1 */
    struct volgwain_element own[2] = {{{7, 0, 0, 0}}, {{2, 0, 0, 0}}};
    struct volgwain_fit fit = {0, 0, 0, 0, 0, 0, 0, 0};
    size_t id[1] = {0}, degree[1] = {0}, numbers[20] = {0}, written = 0;
    char text[1] = "";
    uint32_t code;
    memset(&counts, 0, sizeof counts);
    memset(&height_counts, 0, sizeof height_counts);
    memset(&grid, 0, sizeof grid);
    memset(packed_records, 0, sizeof packed_records);
    memset(packed_name, 0, sizeof packed_name);
    tuple.end = deep.length;
    record.multiplicities.end = deep.length;
    records[0] = records[1] = record;
    traces.main = cell;
    traces.preprocessed = cell;
    traces.public_values = cell;
    air.tables.nodes = deep.nodes;
    air.tables.nodes_length = deep.length;
    air.tables.tuples = &tuple;
    air.tables.tuples_length = 1;
    air.tables.names = name;
    air.tables.names_length = 1;
    air.tables.records = records;
    air.tables.records_length = 1;
    air.height = 1;
    air.ids = NULL;
    air.ids_length = 0;
    code = volgwain_generate(&air.tables, &traces, challenges, 2, auxiliary, 2, &terminal, refusal, text, 0);
    if (code != VOLGWAIN_OK)
        return code;
    code = volgwain_degrees(&air.tables, 1, degree, 1, refusal, text, 0);
    if (code != VOLGWAIN_OK)
        return code;
    code = volgwain_plan(&air, 1, id, 1, &sizes, refusal, text, 0);
    if (code != VOLGWAIN_OK)
        return code;
    code = volgwain_generate_by_ids(&air.tables, &traces, id, 1, &sizes, &challenges[0], &challenges[1],
        auxiliary, 2, &terminal, refusal, text, 0);
    if (code != VOLGWAIN_OK)
        return code;
    code = volgwain_generate_rows(&air.tables, &traces, &rows, id, 1, &sizes, &challenges[0], &challenges[1],
        auxiliary, 2, &sum, refusal, text, 0);
    if (code != VOLGWAIN_OK)
        return code;
    code = volgwain_shift(auxiliary, 2, 2, &sum, refusal, text, 0);
    if (code != VOLGWAIN_OK)
        return code;
    code = volgwain_soundness_count(&air, 1, &traces, 1, &counts, refusal, text, 0);
    if (code != VOLGWAIN_OK)
        return code;
    code = volgwain_soundness_of_heights(&air, 1, &height_counts, refusal, text, 0);
    if (code != VOLGWAIN_OK)
        return code;
    code = volgwain_grid_count(
        &air, 1, &traces, 1, challenges, 1, &challenges[1], 1, &grid, refusal, text, 0);
    if (code != VOLGWAIN_OK)
        return code;
    air.tables.records_length = 2;
    code = volgwain_pack(&air.tables, 3, deep.packed_nodes, 8 * DEEPEST, packed_tuples, 2, packed_name, 2,
        packed_records, 2, &table_sizes, refusal, text, 0);
    air.tables.records_length = 1;
    if (code != VOLGWAIN_OK)
        return code;
    code = volgwain_debug_check(&air.tables, 1, &traces, 1, refusal, text, 0);
    if (code != VOLGWAIN_MISMATCH)
        return code;
    code = volgwain_fit_fault(&air.tables, &traces, &fit, refusal, text, 0);
    if (code != VOLGWAIN_OK)
        return code;
    /* the expression is 3 or -3 */
    code = volgwain_check_constraints(&air.tables, &tuple, &traces, refusal, text, 0);
    if (code != VOLGWAIN_NONZERO_CONSTRAINT)
        return code;
    /* a group of three numbers and five, with a tuple of five and a place of four; and the number of groups */
    code = volgwain_bus_table(&air.tables, 1, &traces, 1, 9, numbers, 20, &written, refusal, text, 0);
    if (code != VOLGWAIN_OK || written != 18)
        return code;
    code = volgwain_mismatch(&air.tables, 1, &traces, 1, 9, numbers, 20, &written, refusal, text, 0);
    if (code != VOLGWAIN_OK || written != 13)
        return code;
    code = volgwain_prove(&air, 1, &traces, 1, &challenges[0], &challenges[1], auxiliary, 2, &terminal, 1,
        refusal, text, 0);
    if (code != VOLGWAIN_OK)
        return code;
    witness.auxiliary = auxiliary;
    witness.auxiliary_length = 2;
    witness.width = 2;
    witness.terminal = terminal;
    code = volgwain_verify_rows(&air.tables, &traces, &rows, id, 1, &sizes, &challenges[0], &challenges[1],
        &witness, refusal, text, 0);
    if (code != VOLGWAIN_OK)
        return code;
    code = volgwain_verify_air(&air.tables, &traces, own, 2, &witness, refusal, text, 0);
    if (code != VOLGWAIN_OK)
        return code;
    return volgwain_verify(&air, 1, &traces, 1, &challenges[0], &challenges[1], &witness, 1, refusal, text, 0);
}

/* a lookup whose multiplicity is a constant within so many operations, from JSON */
static uint32_t read_deep(const char *before, const char *after, size_t levels, struct volgwain_refusal *refusal)
{
    struct volgwain_span tuples[1] = {{0, 0}};
    struct volgwain_record records[1];
    struct volgwain_table_sizes sizes = {0, 0, 0, 0};
    uint8_t names[1] = {0};
    char text[1] = "";
    size_t i;
    memset(records, 0, sizeof records);
    strcpy(deep.json, "[{\"kind\":\"Local\",\"elements\":[[]],\"multiplicities\":[");
    for (i = 0; i < levels; i++)
        strcat(deep.json, before);
    strcat(deep.json, "{\"Leaf\":{\"Constant\":1}}");
    for (i = 0; i < levels; i++)
        strcat(deep.json, after);
    strcat(deep.json, "],\"count_weight\":0,\"column\":0}]");
    return volgwain_read_json(deep.json, strlen(deep.json), deep.packed_nodes, DEEPEST, tuples, 1, names, 1,
        records, 1, &sizes, refusal, text, 0);
}

static void *run_deep(void *unused)
{
    struct volgwain_refusal refusal;
    int leans_left;
    (void)unused;
    /* one message that does not balance: its terminal is not zero */
    make_negations(DEEPEST);
    check(go_deep(&refusal) == VOLGWAIN_TERMINAL_SUM, "negations 1024 deep");
    make_negations(DEEPEST + 1);
    check(go_deep(&refusal) == VOLGWAIN_BAD_TABLE && refusal.part == 1 && refusal.row == DEEPEST,
        "negations 1025 deep");
    for (leans_left = 0; leans_left < 2; leans_left++) {
        make_sums(DEEPEST, leans_left);
        check(go_deep(&refusal) == VOLGWAIN_TERMINAL_SUM, "sums 1024 deep");
        make_sums(DEEPEST + 1, leans_left);
        check(go_deep(&refusal) == VOLGWAIN_BAD_TABLE && refusal.part == 1
                && refusal.row == 2 * DEEPEST,
            "sums 1025 deep");
    }
    return NULL;
}

/* what that expression, which is 0, enforces of itself as a flag and as a multiplicity */
static uint32_t enforce_deep(struct volgwain_refusal *refusal)
{
    struct volgwain_span list = {0, 0};
    struct volgwain_record record = {0, 1, 1, {0, 0}, {0, 1}, {0, 0}, {0, 0}};
    struct volgwain_tables tables = {deep.nodes, 0, &list, 1, NULL, 0, &record, 1};
    struct volgwain_enforced shown = {9, 9, 9, 9, 9};
    struct volgwain_bound bound = {9, 9};
    uint8_t query = 1;
    uint32_t code;
    list.end = tables.nodes_length = record.multiplicities.end = record.flags.end = deep.length;
    code = volgwain_enforced(&tables, &list, 3, &query, 1, &shown, 1, &bound, 1, refusal, NULL, 0);
    check(code != VOLGWAIN_OK || (is_shown(&shown, 1, 1, 0, 0, 0) && bound.present == 1 && bound.bound <= 1),
        "what a deep constraint enforces");
    return code;
}

/* ---- a constraint of a million nodes: differences of column 0, which are zero together, and m * m - m ---- */

static struct volgwain_node large_nodes[VOLGWAIN_MOST_NODES];
static size_t large_length;

static void put_large(uint32_t kind)
{
    large_nodes[large_length].kind = kind;
    large_length++;
}

/* column 0, as a difference of so many leaves: zero for a power of two above one */
static void put_difference(size_t leaves)
{
    if (leaves == 1) {
        put_large(VOLGWAIN_MAIN);
        return;
    }
    put_difference(leaves / 2);
    put_difference(leaves / 2);
    put_large(VOLGWAIN_DIFFERENCE);
}

/* what the constraint enforces of column 0 as a flag and as a multiplicity */
static void enforce_large(struct volgwain_enforced *shown, struct volgwain_bound *bound)
{
    struct volgwain_span list = {0, 0};
    struct volgwain_record record = {0, 1, 1, {0, 0}, {0, 1}, {0, 1}, {0, 1}}; /* the first leaf */
    struct volgwain_span tuple = {0, 0};
    struct volgwain_tables tables = {large_nodes, large_length, &tuple, 1, NULL, 0, &record, 1};
    struct volgwain_refusal refusal;
    uint8_t query = 1;
    list.end = large_length;
    check(volgwain_enforced(&tables, &list, 3, &query, 1, shown, 1, bound, 1, &refusal, NULL, 0) == VOLGWAIN_OK,
        "what a constraint of a million nodes enforces");
}

static void check_large_constraint(void)
{
    struct volgwain_enforced shown = {9, 9, 9, 9, 9};
    struct volgwain_bound bound = {9, 9};
    size_t leaves, parts = 0;
    memset(large_nodes, 0, sizeof large_nodes);
    large_length = 0;
    for (leaves = VOLGWAIN_MOST_NODES / 4; leaves >= 8; leaves /= 2) {
        put_difference(leaves);
        parts++;
    }
    for (; parts > 1; parts--)
        put_large(VOLGWAIN_SUM);
    enforce_large(&shown, &bound);
    check(is_shown(&shown, 0, 0, VOLGWAIN_MISSING_FLAG, VOLGWAIN_ROWS_FIRST, 0) && is_bound(&bound, 0, 0),
        "nothing by what is always zero");
    put_large(VOLGWAIN_MAIN);
    put_large(VOLGWAIN_MAIN);
    put_large(VOLGWAIN_PRODUCT);
    put_large(VOLGWAIN_MAIN);
    put_large(VOLGWAIN_DIFFERENCE);
    put_large(VOLGWAIN_SUM);
    enforce_large(&shown, &bound);
    check(large_length > 1000000 && is_shown(&shown, 1, 1, 0, 0, 0) && is_bound(&bound, 1, 1),
        "a bit by a constraint of a million nodes");
}

static void *run_deep_constraints(void *unused)
{
    struct volgwain_refusal refusal;
    int leans_left;
    (void)unused;
    make_negations(DEEPEST);
    check(enforce_deep(&refusal) == VOLGWAIN_OK, "a constraint of negations 1024 deep");
    for (leans_left = 0; leans_left < 2; leans_left++) {
        make_sums(DEEPEST, leans_left);
        check(enforce_deep(&refusal) == VOLGWAIN_OK, "a constraint of sums 1024 deep");
    }
    return NULL;
}

static uint32_t read_negations(size_t levels, struct volgwain_refusal *refusal)
{
    return read_deep("{\"Neg\":", "}", levels, refusal);
}

static uint32_t read_sums(size_t levels, struct volgwain_refusal *refusal)
{
    return read_deep("{\"Add\":[", ",{\"Leaf\":{\"Constant\":1}}]}", levels, refusal);
}

/* The deepest text: the reader of JSON bears 127 levels. Three stand around the expression and two in its
   leaves; a negation is one, and a sum two. */
static void *run_deep_json(void *unused)
{
    struct volgwain_refusal refusal;
    (void)unused;
    check(read_negations(122, &refusal) == VOLGWAIN_OK, "JSON of 122 negations");
    check(read_negations(123, &refusal) == VOLGWAIN_BAD_TEXT, "JSON of 123 negations");
    check(read_negations(1000, &refusal) == VOLGWAIN_BAD_TEXT, "JSON of 1000 negations");
    check(read_sums(61, &refusal) == VOLGWAIN_OK, "JSON of 61 sums");
    check(read_sums(62, &refusal) == VOLGWAIN_BAD_TEXT, "JSON of 62 sums");
    return NULL;
}

static void check_stack(size_t kilobytes, void *(*run)(void *))
{
    pthread_attr_t attributes;
    pthread_t thread;
    pthread_attr_init(&attributes);
    if (pthread_attr_setstacksize(&attributes, kilobytes * 1024) != 0
        || pthread_create(&thread, &attributes, run, NULL) != 0)
        exit(3);
    pthread_join(thread, NULL);
}

int main(void)
{
    check_sizes();
    check_abi();
    check_null_airs();
    check_null_batches();
    check_generation();
    check_air_verification();
    check_refused_air();
    check_fits();
    check_no_rows();
    check_enforced();
    check_roles();
    check_refused_laws();
    check_constraints();
    check_refused_constraints();
    check_large_constraint();
    check_proving();
    check_air_by_air();
    check_generation_by_ids();
    check_tuple_widths();
    check_verification();
    check_degrees();
    check_planning();
    check_planned_rows();
    check_given_ids();
    check_counting();
    check_message_counts();
    check_height_counts();
    check_refused_heights();
    check_packing();
    check_json();
    check_debugging();
    check_tables();
    check_mismatches();
    check_refused_findings();
    check_cuts();
    check_faults_of_rows();
    check_refused_rows();
    check_refused_witness_rows();
    check_great_ids();
    check_shifts();
    check_koala_proofs();
    check_koala_plans();
    check_koala_airs();
    check_koala_tables();
    check_koala_checks();
    check_koala_laws();
    check_chunks();
    check(live == 0, "nothing is leaked");
    make_middle(&accepted);
    check_memory("generate", try_generate);
    check_memory("prove", try_prove);
    check_memory("verify", try_verify);
    check_memory("degrees", try_degrees);
    check_memory("plan", try_plan);
    check_memory("plan over given ids", try_given_ids);
    check_memory("generate_by_ids", try_generate_by_ids);
    check_memory("generate_rows", try_generate_rows);
    check_memory("verify_rows", try_verify_rows);
    check_memory("grid_count", try_count);
    check_memory("soundness_count", try_soundness_count);
    check_memory("soundness_of_heights", try_soundness_of_heights);
    check_memory("pack", try_pack);
    check_memory("read_json", try_read_json);
    check_memory("debug_check", try_debug_check);
    check_memory("debug_check of a mismatch", try_mismatch);
    check_memory("verify_air", try_verify_air);
    check_memory("fit_fault", try_fit_fault);
    check_memory("enforced", try_enforced);
    check_memory("check_constraints", try_check_constraints);
    check_memory("bus_table", try_bus_table);
    check_memory("mismatch", try_mismatch_numbers);
    check_threads();
    check_memory_of_one_thread();
    check_stack(256, run_deep);
    check_stack(384, run_deep_json);
    check_stack(1024, run_deep_constraints);
    if (failures == 0)
        printf("all calls answer as expected\n");
    return failures == 0 ? 0 : 1;
}
