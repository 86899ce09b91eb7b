/* A fuzz target over tables as they come, whatever is wrong with them. Each call has to answer a code that the
   header names, to fill the refusal alike, to stay within its arrays, and to leave them as they were where it
   refuses; and what it answers has to keep the laws at the end.

       clang -g -O1 -fsanitize=fuzzer,address -Ibindings/c bindings/c/fuzz.c liblookup_c.a liblibc_c.a

   With -DFIXED_INPUTS it is a program that runs some thousand inputs of its own. */
#include "volgwain.h"

#include <stdio.h>
#include <stdlib.h>
#include <string.h>

enum { NODES = 64, TUPLES = 16, NAMES = 8, RECORDS = 4, HEIGHT = 4, TEXT = 40, GUARD = 8 };
enum { MAIN_WIDTH = 3, PREPROCESSED_WIDTH = 2, PUBLIC_VALUES = 2, CELLS = HEIGHT * (RECORDS + 1) };
enum { NUMBERS = 4096 };

/* ---- the input ---- */

static const uint8_t *bytes;
static size_t left;

static uint8_t next(void)
{
    if (left == 0)
        return 0;
    left--;
    return *bytes++;
}

static size_t below(size_t bound)
{
    return next() % bound;
}

/* What a call reads. */
static struct {
    struct volgwain_node nodes[NODES];
    struct volgwain_span tuples[TUPLES];
    uint8_t names[NAMES];
    struct volgwain_record records[RECORDS];
    uint32_t main[HEIGHT * MAIN_WIDTH];
    uint32_t preprocessed[HEIGHT * PREPROCESSED_WIDTH];
    uint32_t public_values[PUBLIC_VALUES];
    uint8_t queries[TUPLES];
    struct volgwain_span constraints;
    struct volgwain_air air;
    struct volgwain_traces traces;
} in;

/* The challenges, which no message of an input is meant to hit. */
static const struct volgwain_element alpha = {{9, 2, 6, 5}}, beta = {{3, 1, 4, 15}};

static void add_node(uint32_t kind, uint32_t number, size_t index)
{
    struct volgwain_tables *tables = &in.air.tables;
    if (tables->nodes_length < NODES) {
        in.nodes[tables->nodes_length].kind = kind;
        in.nodes[tables->nodes_length].number = number;
        in.nodes[tables->nodes_length++].index = index;
    }
}

static void add_leaf(void)
{
    switch (below(6)) {
    case 0:
    case 1:
        add_node(VOLGWAIN_MAIN, (uint32_t)below(2), below(MAIN_WIDTH));
        break;
    case 2:
        add_node(VOLGWAIN_PREPROCESSED, (uint32_t)below(2), below(PREPROCESSED_WIDTH));
        break;
    case 3:
        add_node(VOLGWAIN_PUBLIC, 0, below(PUBLIC_VALUES));
        break;
    case 4:
        add_node((uint32_t)(VOLGWAIN_FIRST_ROW + below(3)), 0, 0);
        break;
    default:
        add_node(VOLGWAIN_CONSTANT, (uint32_t)below(3), 0);
    }
}

static void add_expression(void)
{
    size_t operation = below(6);
    add_leaf();
    if (operation < 3) {
        add_leaf();
        add_node((uint32_t)(VOLGWAIN_SUM + operation), 0, 0);
    } else if (operation == 3) {
        add_node(VOLGWAIN_NEGATION, 0, 0);
    }
}

static struct volgwain_span add_expressions(size_t count)
{
    struct volgwain_span span = {in.air.tables.nodes_length, 0};
    for (size_t i = 0; i < count; i++)
        add_expression();
    span.end = in.air.tables.nodes_length;
    return span;
}

/* A lookup as it should be, as far as there is room. */
static void add_record(void)
{
    struct volgwain_tables *tables = &in.air.tables;
    struct volgwain_record *record = &in.records[tables->records_length++];
    size_t count = below(3), width = below(3);
    record->kind = (uint32_t)below(2);
    record->exclusive = (uint32_t)below(2);
    record->weight = below(4);
    record->bus.end = below(3);
    record->tuples.start = tables->tuples_length;
    for (size_t i = 0; i < count && tables->tuples_length < TUPLES; i++)
        in.tuples[tables->tuples_length++] = add_expressions(width);
    record->tuples.end = tables->tuples_length;
    record->multiplicities = add_expressions(count);
    record->flags = add_expressions(record->exclusive ? count : 0);
}

/* Constraints that a cell is 0 or 1, or some expressions. */
static void add_constraints(void)
{
    size_t count = below(4);
    in.constraints.start = in.air.tables.nodes_length;
    for (size_t i = 0; i < count; i++) {
        uint32_t row = (uint32_t)below(2);
        size_t column = below(MAIN_WIDTH);
        if (below(4) == 0) {
            add_expression();
            continue;
        }
        add_node(VOLGWAIN_MAIN, row, column);
        add_node(VOLGWAIN_MAIN, row, column);
        add_node(VOLGWAIN_CONSTANT, 1, 0);
        add_node(VOLGWAIN_DIFFERENCE, 0, 0);
        add_node(VOLGWAIN_PRODUCT, 0, 0);
    }
    in.constraints.end = in.air.tables.nodes_length;
}

/* A number that tends to be small, or immense. */
static size_t some_number(void)
{
    size_t byte = below(20);
    return byte == 19 ? (size_t)-1 : byte == 18 ? VOLGWAIN_MODULUS : byte;
}

/* Makes one number of the tables or the traces another one. */
static void spoil(void)
{
    struct volgwain_node *node = &in.nodes[below(NODES)];
    struct volgwain_record *record = &in.records[below(RECORDS)];
    struct volgwain_span *spans[] = {&record->bus, &record->tuples, &record->multiplicities, &record->flags,
                                     &in.tuples[below(TUPLES)], &in.constraints};
    struct volgwain_span *span = spans[below(6)];
    switch (below(12)) {
    case 0:
        node->kind = (uint32_t)some_number();
        break;
    case 1:
        node->number = (uint32_t)some_number();
        break;
    case 2:
        node->index = some_number();
        break;
    case 3:
        span->start = some_number();
        break;
    case 4:
        span->end = some_number();
        break;
    case 5:
        record->kind = (uint32_t)some_number();
        break;
    case 6:
        record->exclusive = (uint32_t)some_number();
        break;
    case 7:
        record->weight = (uint64_t)some_number();
        break;
    case 8:
        in.names[below(NAMES)] = next();
        break;
    case 9:
        in.main[below(HEIGHT * MAIN_WIDTH)] = (uint32_t)some_number();
        break;
    case 10:
        in.traces.main_width = some_number();
        break;
    default:
        in.traces.preprocessed_width = some_number();
    }
}

static void read_input(const uint8_t *data, size_t size)
{
    bytes = data;
    left = size;
    memset(&in, 0, sizeof in);
    memset(in.names, 'k', sizeof in.names);
    for (size_t i = 0; i < HEIGHT * MAIN_WIDTH; i++)
        in.main[i] = (uint32_t)below(3);
    for (size_t i = 0; i < HEIGHT * PREPROCESSED_WIDTH; i++)
        in.preprocessed[i] = (uint32_t)(i % 2);
    struct volgwain_tables tables = {in.nodes, 0, in.tuples, 0, in.names, NAMES, in.records, 0};
    struct volgwain_traces traces = {in.main, HEIGHT * MAIN_WIDTH, MAIN_WIDTH,
                                     in.preprocessed, HEIGHT * PREPROCESSED_WIDTH, PREPROCESSED_WIDTH,
                                     in.public_values, PUBLIC_VALUES};
    in.air.tables = tables;
    in.air.height = HEIGHT;
    in.air.ids = NULL;
    in.air.ids_length = 0;
    in.traces = traces;
    size_t records = below(RECORDS + 1), spoilt = below(8);
    for (size_t i = 0; i < records; i++)
        add_record();
    add_constraints();
    for (size_t i = 0; i < TUPLES; i++)
        in.queries[i] = (uint8_t)(i % 3);
    for (size_t i = 4; i < spoilt; i++)
        spoil();
}

/* ---- the calls ---- */

/* What calls write, and what it was before. */
static struct outputs {
    struct volgwain_element auxiliary[CELLS];
    struct volgwain_terminal terminal;
    size_t degrees[RECORDS];
    size_t ids[RECORDS];
    struct volgwain_plan_sizes plan;
    struct volgwain_counts counts;
    struct volgwain_height_counts height_counts;
    struct volgwain_grid grid;
    struct volgwain_node nodes[NODES];
    struct volgwain_span tuples[TUPLES];
    uint8_t names[4 * NAMES];
    struct volgwain_record records[RECORDS];
    struct volgwain_table_sizes sizes;
    struct volgwain_element sum;
    struct volgwain_fit fit;
    struct volgwain_enforced enforced[RECORDS];
    struct volgwain_bound bounds[TUPLES];
    size_t numbers[NUMBERS], written;
} out, before;

static struct volgwain_refusal refusal;
static char text[TEXT + GUARD];

static void must(int holds, const char *what)
{
    if (!holds) {
        fprintf(stderr, "fuzz: %s: code %u\n", what, (unsigned)refusal.code);
        abort();
    }
}

static void begin(void)
{
    memset(&refusal, 0xa5, sizeof refusal);
    memset(text, 0x5a, sizeof text);
    before = out;
}

/* What holds of every answer. */
static uint32_t end(uint32_t code, const char *call)
{
    struct volgwain_refusal none;
    memset(&none, 0, sizeof none);
    must(code <= VOLGWAIN_NONZERO_CONSTRAINT, call);
    must(refusal.code == code, call);
    must(code != 0 || memcmp(&refusal, &none, sizeof none) == 0, call);
    must(code == 0 || memcmp(&out, &before, sizeof out) == 0, call);
    size_t written = refusal.text_length < TEXT ? refusal.text_length : TEXT;
    if (refusal.code != 0 && written < TEXT)
        must(text[written++] == 0, call);
    for (size_t i = written; i < sizeof text; i++)
        must(text[i] == 0x5a, call);
    return code;
}

#define CALL(name, ...) (begin(), end(volgwain_##name(__VA_ARGS__, &refusal, text, TEXT), #name))

static int is_one_of(uint32_t code, uint32_t one, uint32_t other)
{
    return code == 0 || code == one || code == other;
}

/* The calls on the tables alone. */
static void try_tables(void)
{
    const struct volgwain_tables *tables = &in.air.tables;
    CALL(degrees, tables, some_number(), out.degrees, tables->records_length);
    CALL(soundness_of_heights, &in.air, 1, &out.height_counts);
    size_t room = below(2) ? 0 : NODES;
    if (CALL(pack, tables, below(6), out.nodes, NODES - room / 2, out.tuples, TUPLES, out.names, sizeof out.names,
             out.records, RECORDS, &out.sizes) == 0) {
        struct volgwain_tables packed = {out.nodes, out.sizes.nodes, out.tuples, out.sizes.tuples,
                                         out.names, out.sizes.names, out.records, out.sizes.records};
        must(out.sizes.records <= tables->records_length, "packing has no more lookups");
        uint32_t code = CALL(degrees, &packed, 0, out.degrees, packed.records_length);
        must(is_one_of(code, VOLGWAIN_DEGREE_OVERFLOW, VOLGWAIN_OUT_OF_MEMORY), "packed lookups are lookups");
    }
}

/* ---- constraints ---- */

static int shown_and_held = 0; /* inputs with flags that are enforced by constraints which hold */

/* The laws of what is enforced: over no rows all is; with more constraints no less; and where the constraints hold, no
   call refuses flags that are shown to be lawful. */
static void try_constraints(void)
{
    const struct volgwain_tables *tables = &in.air.tables;
    struct volgwain_enforced none[RECORDS], all[RECORDS];
    struct volgwain_span nothing = {0, 0};
    size_t lookups = tables->records_length, bounds = tables->tuples_length;
    uint32_t held = CALL(check_constraints, tables, &in.constraints, &in.traces);
    if (CALL(enforced, tables, &nothing, HEIGHT, in.queries, bounds, out.enforced, lookups, out.bounds, bounds) != 0)
        return;
    memcpy(none, out.enforced, sizeof none);
    if (CALL(enforced, tables, &in.constraints, HEIGHT, in.queries, bounds, out.enforced, lookups, out.bounds, bounds)
        != 0)
        return;
    memcpy(all, out.enforced, sizeof all);
    for (size_t i = 0; i < lookups; i++) {
        must(all[i].flags == 1 || none[i].flags == 0, "constraints only add to what is shown");
        must((all[i].missing == 0) == (all[i].flags == 1), "something is missing where flags are not shown");
    }
    struct volgwain_element challenges[2 * RECORDS];
    for (size_t i = 0; i < 2 * RECORDS; i++)
        challenges[i] = i % 2 ? beta : alpha;
    uint32_t code = CALL(generate, tables, &in.traces, challenges, 2 * lookups, out.auxiliary,
                         lookups == 0 ? 0 : HEIGHT * (lookups + 1), &out.terminal);
    int unlawful = code == VOLGWAIN_FLAG_NOT_BOOLEAN || code == VOLGWAIN_FLAGS_NOT_EXCLUSIVE;
    must(held != 0 || !unlawful || all[refusal.lookup].flags == 0, "flags that are shown are lawful");
    for (size_t i = 0; i < lookups; i++)
        if (held == 0 && in.records[i].exclusive && all[i].flags == 1 && none[i].flags == 0) {
            shown_and_held++;
            break;
        }
    if (CALL(enforced, tables, &nothing, 0, in.queries, bounds, out.enforced, lookups, out.bounds, bounds) == 0)
        for (size_t i = 0; i < lookups; i++)
            must(out.enforced[i].flags == 1 && out.enforced[i].weight == 1, "over no rows all is shown");
}

/* ---- what is found ---- */

static const size_t *at, *past; /* of the numbers that are read */

static size_t number(void)
{
    must(at < past, "the numbers end before their layout does");
    return *at++;
}

static size_t number_below(size_t bound)
{
    size_t read = number();
    must(read < bound, "a number past its bound");
    return read;
}

static void read_name(void)
{
    if (number_below(2) == 0) {
        number_below(1);
        number_below(RECORDS);
    } else {
        for (size_t bytes = number_below(NAMES + 1); bytes > 0; bytes--)
            number_below(256);
    }
}

static void read_tuple(size_t limit)
{
    for (size_t elements = number(); elements > 0; elements--)
        number_below(VOLGWAIN_MODULUS);
    must(number_below(VOLGWAIN_MODULUS) != 0, "a net of zero");
    size_t places = number(), listed = number();
    must(places > 0 && listed == (places < limit ? places : limit), "the number of places");
    for (; listed > 0; listed--) {
        number_below(1);
        number_below(RECORDS);
        number_below(HEIGHT);
        must(number_below(VOLGWAIN_MODULUS) != 0, "a count of zero");
    }
}

/* Reads a table. Returns whether every group balances. */
static int read_table(size_t limit)
{
    int balances = 1;
    for (size_t groups = number_below(RECORDS + 1); groups > 0; groups--) {
        read_name();
        size_t sent = number(), received = number(), distinct = number(), unbalanced = number(), listed = number();
        must(distinct <= sent + received && unbalanced <= distinct, "the counts of a group");
        must(listed == (unbalanced < limit ? unbalanced : limit), "the number of tuples");
        for (; listed > 0; listed--)
            read_tuple(limit);
        balances = balances && unbalanced == 0;
    }
    return balances;
}

/* The laws of what is found: the numbers have their layout, and say whether all tuples balance. */
static void try_findings(void)
{
    const struct volgwain_tables *tables = &in.air.tables;
    uint32_t verdict = CALL(debug_check, tables, 1, &in.traces, 1);
    size_t limit = below(2) ? below(4) : (size_t)-1, room = below(40);
    uint32_t told = CALL(bus_table, tables, 1, &in.traces, 1, limit, out.numbers, room, &out.written);
    must(told == 0 || told == verdict || told == VOLGWAIN_BAD_LENGTH || told == VOLGWAIN_OUT_OF_MEMORY,
         "a table is refused as the check is");
    if (told == VOLGWAIN_BAD_LENGTH && refusal.expected <= NUMBERS) {
        must(refusal.part == VOLGWAIN_PART_NUMBERS && room < refusal.expected, "the room was too short");
        room = refusal.expected;
        told = CALL(bus_table, tables, 1, &in.traces, 1, limit, out.numbers, room, &out.written);
        must((told == 0 && out.written == room) || told == VOLGWAIN_OUT_OF_MEMORY, "the room that was asked for");
    }
    if (told == 0) {
        at = out.numbers;
        past = at + out.written;
        must(read_table(limit) == (verdict == 0), "a table balances as the check says");
        must(at == past, "a table has no more numbers");
    }
    told = CALL(mismatch, tables, 1, &in.traces, 1, limit, out.numbers, NUMBERS, &out.written);
    if (told == 0) {
        at = out.numbers;
        past = at + out.written;
        if (number_below(2) == 0) {
            must(verdict == 0, "no mismatch, as the check says");
        } else {
            must(verdict == VOLGWAIN_MISMATCH, "a mismatch, as the check says");
            read_name();
            read_tuple(limit);
        }
        must(at == past, "a mismatch has no more numbers");
    }
}

/* ---- a witness ---- */

static const uint32_t unfit[] = {0, VOLGWAIN_DOES_NOT_FIT, VOLGWAIN_DOES_NOT_FIT, VOLGWAIN_OTHER_HEIGHT};

/* The calls under challenges of the caller's own. The laws: generation refuses what does not fit; what is generated
   satisfies every constraint; no terminal is accepted over no rows. */
static void try_air(void)
{
    static struct volgwain_element auxiliary[CELLS];
    const struct volgwain_tables *tables = &in.air.tables;
    size_t cells = tables->records_length == 0 ? 0 : HEIGHT * (tables->records_length + 1);
    struct volgwain_element challenges[2 * RECORDS];
    for (size_t i = 0; i < 2 * RECORDS; i++)
        challenges[i] = i % 2 ? beta : alpha;
    int fits = CALL(fit_fault, tables, &in.traces, &out.fit) == 0;
    uint32_t code = CALL(generate, tables, &in.traces, challenges, 2 * tables->records_length, out.auxiliary, cells,
                         &out.terminal);
    if (fits && out.fit.reason != VOLGWAIN_FIT_OK)
        must(code == unfit[out.fit.reason] || code == VOLGWAIN_OUT_OF_MEMORY, "what does not fit is refused");
    else if (fits)
        must(code != VOLGWAIN_DOES_NOT_FIT && code != VOLGWAIN_OTHER_HEIGHT, "what fits is not refused for it");
    memcpy(auxiliary, out.auxiliary, sizeof auxiliary);
    struct volgwain_air_witness witness = {auxiliary, cells, cells / HEIGHT, out.terminal};
    uint32_t verdict = CALL(verify_air, tables, &in.traces, challenges, 2 * tables->records_length, &witness);
    must(code != 0 || verdict == 0 || verdict == VOLGWAIN_OUT_OF_MEMORY, "what is generated is satisfied");
    /* over no rows no constraint binds a terminal */
    struct volgwain_traces no_rows = in.traces;
    no_rows.main_length = no_rows.preprocessed_length = 0;
    witness.auxiliary_length = 0;
    witness.terminal.present = 1;
    witness.terminal.value = alpha;
    verdict = CALL(verify_air, tables, &no_rows, challenges, 2 * tables->records_length, &witness);
    must(verdict != 0, "no terminal is accepted over no rows");
}

/* The calls on tables and traces. Returns whether there is a witness. The laws: what is proved satisfies all
   constraints, and is accepted if it balances; by ids the same is generated; so it is as a range of all rows. */
static int try_traces(void)
{
    const struct volgwain_tables *tables = &in.air.tables;
    size_t cells = tables->records_length == 0 ? 0 : HEIGHT * (tables->records_length + 1);
    CALL(soundness_count, &in.air, 1, &in.traces, 1, &out.counts);
    CALL(grid_count, &in.air, 1, &in.traces, 1, &alpha, 1, &beta, 1, &out.grid);
    int balances = CALL(debug_check, tables, 1, &in.traces, 1) == 0;
    struct volgwain_rows rows = {below(HEIGHT + 1), below(HEIGHT + 1), HEIGHT};
    if (CALL(plan, &in.air, 1, out.ids, tables->records_length, &out.plan) != 0)
        return 0;
    CALL(generate_rows, tables, &in.traces, &rows, out.ids, tables->records_length, &out.plan, &alpha, &beta,
         out.auxiliary, cells, &out.sum);
    if (CALL(prove, &in.air, 1, &in.traces, 1, &alpha, &beta, out.auxiliary, cells, &out.terminal, 1) != 0)
        return 0;

    static struct volgwain_element auxiliary[CELLS];
    memcpy(auxiliary, out.auxiliary, sizeof auxiliary);
    struct volgwain_air_witness witness = {auxiliary, cells, cells / HEIGHT, out.terminal};
    uint32_t verdict = CALL(verify, &in.air, 1, &in.traces, 1, &alpha, &beta, &witness, 1);
    must(is_one_of(verdict, VOLGWAIN_TERMINAL_SUM, VOLGWAIN_OUT_OF_MEMORY), "what is proved is satisfied");
    must(verdict != VOLGWAIN_TERMINAL_SUM || !balances, "what balances is accepted");

    memset(out.auxiliary, 0, sizeof out.auxiliary);
    must(CALL(generate_by_ids, tables, &in.traces, out.ids, tables->records_length, &out.plan, &alpha, &beta,
              out.auxiliary, cells, &out.terminal) == 0, "by ids it is generated as well");
    must(memcmp(auxiliary, out.auxiliary, cells * sizeof *auxiliary) == 0, "by ids the same is generated");
    must(memcmp(&witness.terminal, &out.terminal, sizeof out.terminal) == 0, "by ids the terminal is the same");

    rows.first = 0;
    rows.end = HEIGHT;
    memset(out.auxiliary, 0, sizeof out.auxiliary);
    must(CALL(generate_rows, tables, &in.traces, &rows, out.ids, tables->records_length, &out.plan, &alpha, &beta,
              out.auxiliary, cells, &out.sum) == 0, "as a range it is generated as well");
    must(memcmp(auxiliary, out.auxiliary, cells * sizeof *auxiliary) == 0, "as a range the same is generated");
    must(CALL(verify_rows, tables, &in.traces, &rows, out.ids, tables->records_length, &out.plan, &alpha, &beta,
              &witness) == 0, "as a range it is satisfied");
    must(cells == 0 || CALL(shift, out.auxiliary, cells, cells / HEIGHT, &alpha) == 0, "its rows are shifted");
    return 1;
}

int LLVMFuzzerTestOneInput(const uint8_t *data, size_t size);

int LLVMFuzzerTestOneInput(const uint8_t *data, size_t size)
{
    memset(&out, 0xa5, sizeof out);
    CALL(read_json, (const char *)data, size, out.nodes, NODES, out.tuples, TUPLES, out.names, sizeof out.names,
         out.records, RECORDS, &out.sizes);
    read_input(data, size);
    try_tables();
    try_air();
    try_constraints();
    try_findings();
#ifdef FIXED_INPUTS
    return try_traces();
#else
    try_traces();
    return 0;
#endif
}

#ifdef FIXED_INPUTS
int main(void)
{
    uint64_t state = 1;
    int inputs = 5000, proved = 0;
    for (int i = 0; i < inputs; i++) {
        uint8_t data[160];
        for (size_t at = 0; at < sizeof data; at++) {
            /* Marsaglia's xorshift of 64 bits */
            state ^= state << 13;
            state ^= state >> 7;
            state ^= state << 17;
            data[at] = (uint8_t)(state >> 32);
        }
        proved += LLVMFuzzerTestOneInput(data, sizeof data);
    }
    must(proved > inputs / 10 && proved < inputs, "some of the inputs have a witness");
    must(shown_and_held > 0, "some have flags that are enforced by constraints which hold");
    printf("fuzz: %d inputs, of which %d have a witness\n", inputs, proved);
    return 0;
}
#endif
