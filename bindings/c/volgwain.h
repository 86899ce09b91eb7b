/* Volgwain for C: the calls of a LogUp lookup layer over BabyBear, the integers modulo
   2013265921 = 15 * 2^27 + 1, with challenges in its quartic extension, the polynomials modulo
   X^4 - 11; and each of them over KoalaBear, by a name of its own, at the end. C99 and C++17. The
   library is static: link liblookup_c.a and the kit's liblibc_c.a, which calls malloc, realloc and free.

   For every call:

   - Memory. No memory and no handle is handed over. A call reads what its const pointers point to, and
     writes into the arrays of its caller. It frees all that it allocates before it returns, and keeps no
     pointer.
   - Pointers. A pointer to an array may be NULL where the length of the array is 0. That this changes
     nothing is only tested: what is proved speaks of pointers that are not NULL. No other pointer may be
     NULL. A length counts items, and not bytes. Each array that a call writes must be initialised, and must
     not overlap any other argument; those that it reads may overlap one another.
   - Answers. A call returns 0, or the code of a refusal, and fills *refusal in both cases. GCC and clang
     warn where what it returns is not looked at. A refused call leaves all else that it would write as it
     was, but for `text`. In a call over one AIR `air` is 0, also in the text.
   - Order. Each call lists its codes from the first test to the last; code 1 may come at any point. That a
     refusal is true of the arguments, and names the first record, number, AIR or row of its kind, is
     proved. The order of the codes is only tested, but for those that one call of the library tests for.
   - Texts. `text` gets what a refusal says, in UTF-8: its first bytes, as many as there is room for, so the
     cut may split a character, and after them a zero if there is room for one. `refusal->text_length` is the
     length of the whole in bytes, without the zero, and 0 where nothing was refused; then `text` stays as it
     was. So print the lesser of text_length and the room, and no more.
   - Stack. A call needs at most 256 KB of it, one that reads JSON 384 KB, and volgwain_enforced 1 MB.
   - Threads. Calls may run at once, as long as what one of them writes no other reads or writes.
     malloc and its kin have to allow that. No call from a signal handler. */
#ifndef VOLGWAIN_H
#define VOLGWAIN_H

#include <stddef.h>
#include <stdint.h>

#ifdef __cplusplus
extern "C" {
#endif

/* ---- the interface ---- */

/* The number of the interface that this header declares. It changes with each struct, call or number here
   that changes. A library has it in the name of a call, which every program that includes this header asks
   its linker for: so an archive of another interface does not link. */
#define VOLGWAIN_ABI 3

/* Returns 3. */
uint32_t volgwain_abi_3(void);

#ifdef __GNUC__
#ifdef __has_attribute
#if __has_attribute(retain)
__attribute__((retain)) /* also where sections that nothing reads are removed */
#endif
#endif
__attribute__((used)) static uint32_t (*const volgwain_abi)(void) = volgwain_abi_3;
#endif

/* Stands before each call whose answer has to be looked at. */
#ifdef __GNUC__
#define VOLGWAIN_MUST_CHECK __attribute__((warn_unused_result))
#else
#define VOLGWAIN_MUST_CHECK
#endif

/* ---- numbers ---- */

/* Numbers of the base field are uint32_t below the modulus: of BabyBear, and of KoalaBear in its calls. */
#define VOLGWAIN_MODULUS 2013265921u
#define VOLGWAIN_KOALA_BEAR_MODULUS 2130706433u

/* The deepest expression, and the most nodes of one list of expressions, that are read. */
#define VOLGWAIN_MOST_DEPTH 1024
#define VOLGWAIN_MOST_NODES 1048576

/* An element of the extension: four numbers below the modulus, lowest power first. */
struct volgwain_element {
    uint32_t c[4];
};

/* ---- expressions ---- */

enum {
    VOLGWAIN_MAIN = 0,         /* a cell of the main trace: number is its row, 0 or 1; index its column */
    VOLGWAIN_PREPROCESSED = 1, /* a cell of the preprocessed trace, likewise */
    VOLGWAIN_PUBLIC = 2,       /* a public value: index */
    VOLGWAIN_FIRST_ROW = 3,    /* selectors: nothing else */
    VOLGWAIN_LAST_ROW = 4,
    VOLGWAIN_TRANSITION = 5,
    VOLGWAIN_CONSTANT = 6,     /* number, below the modulus */
    VOLGWAIN_SUM = 7,          /* of the two expressions before it */
    VOLGWAIN_DIFFERENCE = 8,   /* the earlier one minus the later one */
    VOLGWAIN_PRODUCT = 9,
    VOLGWAIN_NEGATION = 10     /* of the expression before it */
};

/* A node of an expression. Expressions stand in postfix order: a list of them is the nodes of the first,
   then those of the second, and so on, and an operation follows its operands. A field that a kind does
   not have is 0. So each list of expressions is written in one way. */
struct volgwain_node {
    uint32_t kind;
    uint32_t number;
    size_t index;
};

/* ---- lookups ---- */

/* A range of a table: from start up to, but not including, end. */
struct volgwain_span {
    size_t start;
    size_t end;
};

/* A lookup. A range of nodes is a whole list of expressions: those of one tuple, all multiplicities, or
   all flags. Ranges may overlap, or be the same. There is one multiplicity for each tuple and, with flags,
   one flag for each. */
struct volgwain_record {
    uint32_t kind;      /* 0 local, 1 on a bus */
    uint32_t exclusive; /* 0 without flags, 1 with flags */
    uint64_t weight;    /* the most that the queries of one row add to a count */
    struct volgwain_span bus;            /* of names, in UTF-8; not read for a local lookup */
    struct volgwain_span tuples;         /* of tuples */
    struct volgwain_span multiplicities; /* of nodes */
    struct volgwain_span flags;          /* of nodes; not read without flags */
};

/* The lookups of one AIR, in the order of their columns. */
struct volgwain_tables {
    const struct volgwain_node *nodes;
    size_t nodes_length;
    const struct volgwain_span *tuples; /* for each tuple its range of nodes */
    size_t tuples_length;
    const uint8_t *names; /* the names of buses */
    size_t names_length;
    const struct volgwain_record *records; /* the lookups */
    size_t records_length;
};

/* The traces and the public values of one AIR. A trace is its cells, row after row; a width is how many
   of them make a row. A preprocessed trace of width 0 is none. Both have the same height. */
struct volgwain_traces {
    const uint32_t *main;
    size_t main_length;
    size_t main_width;
    const uint32_t *preprocessed;
    size_t preprocessed_length;
    size_t preprocessed_width;
    const uint32_t *public_values;
    size_t public_values_length;
};

/* The terminal of an AIR, the sum of all its fractions: present is 1, and 0 if it has no lookups. */
struct volgwain_terminal {
    uint32_t present;
    struct volgwain_element value;
};

/* What a witness has for one AIR. */
struct volgwain_air_witness {
    const struct volgwain_element *auxiliary; /* the cells of the auxiliary trace, row after row */
    size_t auxiliary_length;
    size_t width;
    struct volgwain_terminal terminal;
};

/* ---- refusals ---- */

enum {
    VOLGWAIN_OK = 0,
    VOLGWAIN_OUT_OF_MEMORY = 1,
    VOLGWAIN_BAD_TABLE = 2,     /* air, lookup: the first record that is no lookup. part: 1 a node, and row
                                   is its index; 2 a range past its table; 3 a list of too many nodes; 4 a
                                   kind that is neither 0 nor 1; 5 a name that is not UTF-8. Or the first
                                   lookup that a call cannot write: a packed one, or one of a text. part: 6
                                   an expression that is too deep; 7 a row that does not fit 32 bits; 8 a
                                   list of too many nodes */
    VOLGWAIN_BAD_NUMBER = 3,    /* part, air, row: the index of a number, or of a group of four, that is not
                                   below the modulus; of an id, that is not below num_ids; of the sizes of a
                                   plan, 0: max_message_width is 0; of a range of rows, 0: it has no rows, or
                                   ends past the height */
    VOLGWAIN_BAD_LENGTH = 4,    /* part, expected, actual: the length of an array; where the call says so, it
                                   may be greater than expected. Of rows: the height of the traces around a
                                   range */
    VOLGWAIN_NO_WHOLE_ROWS = 5, /* part, air: the width of a trace does not divide its length, or is 0
                                   where there are cells */
    VOLGWAIN_DOES_NOT_FIT = 6,  /* air: a lookup has lists of different lengths, or reads past the traces, or a
                                   row that is neither this one nor the next one; volgwain_fit_fault says more.
                                   So it is with a constraint, of which no call says more.
                                   Or there are lookups and no row, in the main trace or by the height in
                                   volgwain_plan: of that it tells nothing */
    VOLGWAIN_OTHER_HEIGHT = 7,  /* part, air: the preprocessed trace is not as high as the main one */
    VOLGWAIN_VANISHING_DENOMINATOR = 8, /* air, row, lookup */
    VOLGWAIN_FLAG_NOT_BOOLEAN = 9,      /* air, row, lookup */
    VOLGWAIN_FLAGS_NOT_EXCLUSIVE = 10,  /* air, row, lookup */
    VOLGWAIN_MALFORMED_LOOKUP = 11,     /* air, lookup: lists of different lengths, or another column */
    VOLGWAIN_BUS_WIDTHS = 12,           /* expected, actual: tuples of two widths on one bus */
    VOLGWAIN_TUPLE_WIDTHS = 13,         /* expected, actual: tuples of two widths in a local lookup, or on a
                                           bus that is packed */
    VOLGWAIN_TOO_MANY_IDS = 14,         /* actual */
    VOLGWAIN_HEIGHT_BOUND = 15,         /* weights times heights reach the modulus */
    VOLGWAIN_TRACE_MISMATCH = 16,       /* air: the traces do not have the height, or do not fit */
    VOLGWAIN_TERMINAL_PRESENCE = 17,    /* air, expected, actual: 1 present, 0 absent */
    VOLGWAIN_AUXILIARY_WIDTH = 18,      /* air, expected */
    VOLGWAIN_AUXILIARY_HEIGHT = 19,     /* air */
    VOLGWAIN_CONSTRAINT_FAILED = 20,    /* air, row: the first row of the first AIR */
    VOLGWAIN_TERMINAL_SUM = 21,         /* the terminals do not sum to zero */
    VOLGWAIN_REPEATED_CHALLENGE = 22,
    VOLGWAIN_COUNT_OVERFLOW = 23,       /* a count does not fit 128 bits */
    VOLGWAIN_WEIGHT_OVERFLOW = 24,      /* air: weights that are added do not fit 64 bits */
    VOLGWAIN_DEGREE_OVERFLOW = 25,      /* air: a degree does not fit 64 bits */
    VOLGWAIN_MISMATCH = 26,             /* a tuple does not balance; the text says which, and where, and
                                           volgwain_mismatch says it in numbers */
    VOLGWAIN_BAD_TEXT = 27,             /* a text is not JSON, or not that of lookups; the text of the refusal
                                           says why, and where */
    VOLGWAIN_UNLAWFUL_IDS = 28,         /* the AIRs have ids, but not one for each lookup, or they are not
                                           shared exactly by the lookups on one bus */
    VOLGWAIN_BAD_CONSTRAINTS = 29,      /* part: what is wrong with the range of the constraints, 1, 2 or 3 as
                                           for 2; of part 1 row is the node */
    VOLGWAIN_NONZERO_CONSTRAINT = 30    /* row: the first row on which a constraint is not zero; lookup: the
                                           first such constraint there, counted from 0 */
    /* 31 stands for refusals of the library that no call here can meet; that none does is only tested */
};

/* Parts of a call, in refusal.part for the codes 3, 4, 5 and 7. */
enum {
    VOLGWAIN_PART_MAIN = 1,
    VOLGWAIN_PART_PREPROCESSED = 2,
    VOLGWAIN_PART_PUBLIC_VALUES = 3,
    VOLGWAIN_PART_CHALLENGES = 4,
    VOLGWAIN_PART_ALPHAS = 5,
    VOLGWAIN_PART_BETAS = 6,
    VOLGWAIN_PART_AUXILIARY = 7,
    VOLGWAIN_PART_TERMINALS = 8,
    VOLGWAIN_PART_BATCH = 9, /* the traces, or what a witness has, for each AIR */
    VOLGWAIN_PART_DEGREES = 10,
    VOLGWAIN_PART_IDS = 11,
    VOLGWAIN_PART_SIZES = 12,
    VOLGWAIN_PART_NODES = 13, /* the tables that a call writes */
    VOLGWAIN_PART_TUPLES = 14,
    VOLGWAIN_PART_NAMES = 15,
    VOLGWAIN_PART_RECORDS = 16,
    VOLGWAIN_PART_ROWS = 17,  /* a range of rows, or the rows around it */
    VOLGWAIN_PART_OFFSET = 18, /* what rows are shifted by */
    VOLGWAIN_PART_NUMBERS = 19, /* what volgwain_bus_table and volgwain_mismatch write */
    VOLGWAIN_PART_QUERIES = 20, /* which tuples are queries */
    VOLGWAIN_PART_ENFORCED = 21, /* what volgwain_enforced writes for each lookup */
    VOLGWAIN_PART_BOUNDS = 22    /* the bounds that it writes */
};

/* What was refused, and where: each code names the fields that it fills, and the others are 0. */
struct volgwain_refusal {
    uint32_t code;
    uint32_t part;
    size_t air;
    size_t row;
    size_t lookup;
    size_t expected;
    size_t actual;
    size_t text_length;
};

/* ---- one AIR ---- */

/* Generates the auxiliary trace of one AIR, and its terminal.

   challenges: an alpha and a beta for each lookup, in their order. Further ones are ignored, but must be
   below the modulus.
   auxiliary: exactly height * (lookups + 1) elements, row after row: the accumulator, and then the
   fraction of each lookup. Without lookups none, and the terminal is not present.

   What is generated is the plain result, and it satisfies all constraints of the lookups; that no other
   does is said of volgwain_prove. AIRs can be generated on threads of the caller's own, with challenges
   that share an alpha and a beta where lookups share a bus.

   An AIR with lookups needs a row. Over a trace without rows no constraint binds a terminal, so that a prover
   could claim any.

   Refuses, in this order: 2, 5 and 3 of a trace, 3 of the challenges, 6, 7, 4 of the challenges, the first
   of 8, 9 and 10 in the order row, lookup, and 4 of the auxiliary trace. Or 1. The answer is 6 also where there
   are lookups and the main trace has no row. */
VOLGWAIN_MUST_CHECK uint32_t volgwain_generate(const struct volgwain_tables *tables,
    const struct volgwain_traces *traces,
    const struct volgwain_element *challenges, size_t challenges_length,
    struct volgwain_element *auxiliary, size_t auxiliary_length,
    struct volgwain_terminal *terminal,
    struct volgwain_refusal *refusal, char *text, size_t text_size);

/* Whether the auxiliary trace and the terminal of one AIR, whoever made them, satisfy every constraint of its
   lookups on every row, under challenges that the caller chose.

   challenges: an alpha and a beta for each lookup, as for volgwain_generate.
   witness: what a witness has for this AIR.

   So the part of a witness can be checked that was made under challenges of its prover's own, whatever ids the
   prover has; volgwain_verify takes them from one alpha and one beta, by ids of its own. The caller sees to it
   that lookups on one bus share an alpha and a beta and others do not, and that the terminals of a batch sum to
   zero; volgwain_shift adds them up.

   A terminal that passes is the sum of all fractions. For that an AIR with lookups needs at least one row: over
   none no constraint binds its terminal, and any could be claimed. So whoever adds terminals up relies on the rows,
   and the call refuses an AIR without them.

   Returns 0 exactly if they do, over traces that fit and have a row for the lookups, unless memory runs out.
   Refuses, in this order: what volgwain_generate does up to 3 of the challenges; 5 and 3 of what the witness has; 6,
   7 and 4 of the challenges; 17, 18 and 19; and 20, at the first row on which a constraint is not zero. Or 1. The
   answer is 6 also where there are lookups and the main trace has no row. */
VOLGWAIN_MUST_CHECK uint32_t volgwain_verify_air(const struct volgwain_tables *tables,
    const struct volgwain_traces *traces,
    const struct volgwain_element *challenges, size_t challenges_length,
    const struct volgwain_air_witness *witness,
    struct volgwain_refusal *refusal, char *text, size_t text_size);

/* Reasons why lookups do not fit traces, in fit.reason. */
enum {
    VOLGWAIN_FIT_OK = 0,        /* they fit */
    VOLGWAIN_FIT_MALFORMED = 1, /* lookup: the first one with lists of different lengths */
    VOLGWAIN_FIT_MISSING = 2,   /* lookup, part, row, column, width: the first lookup that reads a cell which the
                                   traces do not have, and the first such cell: of its tuples, then of its
                                   multiplicities, and then of its flags, each from left to right */
    VOLGWAIN_FIT_HEIGHTS = 3    /* height, preprocessed_height: the preprocessed trace is not as high as the main
                                   one */
};

/* Why lookups do not fit traces. Each reason names the fields that it fills, and the others are 0. */
struct volgwain_fit {
    uint32_t reason;
    uint32_t part; /* where the cell is read: VOLGWAIN_PART_MAIN, _PREPROCESSED or _PUBLIC_VALUES */
    size_t lookup;
    size_t row;    /* 0 this row, 1 the next one; any other is a row that no lookup may read. Of a public value 0 */
    size_t column; /* the column of the cell, or the index of the public value */
    size_t width;  /* how many columns, or public values, there are */
    size_t height;
    size_t preprocessed_height;
};

/* Says why the lookups of an AIR do not fit its traces: the first of the reasons above, or that they fit. What is
   reason 1 or 2 here other calls on one AIR refuse by 6, and what is reason 3 by 7. They refuse lookups over a main
   trace without rows by 6 as well, which is no reason here: fit then tells of the columns alone.

   fit: all of it is written.

   Refuses, in this order: 2, and 5 and 3 of a trace. Or 1. */
VOLGWAIN_MUST_CHECK uint32_t volgwain_fit_fault(const struct volgwain_tables *tables,
    const struct volgwain_traces *traces,
    struct volgwain_fit *fit,
    struct volgwain_refusal *refusal, char *text, size_t text_size);

/* Gives the degree of the constraint of each lookup of an AIR.

   transition_degree: the degree of the transition selector. The other two selectors have degree 1, as cells have.
   volgwain_pack takes it as 0.
   degrees: one for each lookup.

   Refuses, in this order: 2, 11, 25 and 4 of the degrees. Or 1. */
VOLGWAIN_MUST_CHECK uint32_t volgwain_degrees(const struct volgwain_tables *tables, size_t transition_degree,
    size_t *degrees, size_t degrees_length,
    struct volgwain_refusal *refusal, char *text, size_t text_size);

/* How many items of each table a call has written, from the first on. */
struct volgwain_table_sizes {
    size_t nodes;
    size_t tuples;
    size_t names;
    size_t records;
};

/* Packs the lookups of an AIR: those on one bus share columns, as many as max_degree allows, and so the
   auxiliary trace gets narrower. Local lookups and those with flags stay as they are, and come first.
   The others follow by bus; in their order, each joins the open column of its bus if the degree of the
   joined lookup's constraint stays within max_degree, and opens a new column otherwise. No other cut of
   the lookups of a bus into consecutive columns within max_degree has fewer. Weights of joined lookups add.
   A lookup alone may have a greater degree.

   nodes, tuples, names, records: the tables of the packed lookups. Each array must be at least as long as
   what is written, and sizes says how much that is; what is past that stays as it was. As many nodes and
   tuples as the ranges of all given records have together, as many names as their buses, and as many
   records as there are suffice, which is only tested.

   The packed lookups send the same messages on every row, so they balance as those before do, and every
   terminal stays. Pack each AIR before the batch is planned; prover and verifier have to pack alike.

   Refuses, in this order: 2, 11, 13 of a bus, 24 or 25 where a lookup is joined, 2 with part 8 of a packed
   lookup, whose index `lookup` then is, and 4 of the nodes, tuples, names and records. Or 1. */
VOLGWAIN_MUST_CHECK uint32_t volgwain_pack(const struct volgwain_tables *tables, size_t max_degree,
    struct volgwain_node *nodes, size_t nodes_length,
    struct volgwain_span *tuples, size_t tuples_length,
    uint8_t *names, size_t names_length,
    struct volgwain_record *records, size_t records_length,
    struct volgwain_table_sizes *sizes,
    struct volgwain_refusal *refusal, char *text, size_t text_size);

/* Reads the lookups of an AIR from JSON, a list of lookups as serde writes them, into tables. Numbers are
   elements of the base field, and expressions nest as deep as JSON allows, some hundred levels. The JSON of
   the Rust crate p3-lookup is another one: its expressions have other nodes, and its constants may be in
   Montgomery form, which is not told from other numbers.

   nodes, tuples, names, records: the tables of the lookups that were read. Each array must be at least as
   long as what is written, and sizes says how much that is; what is past that stays as it was. There are
   never more items than json has bytes, which is only tested.

   Which lookups a text says is only tested. Refuses, in this order: 27, 11, 2 with parts 6, 7 and 8 of a
   lookup of the text, and 4 of the nodes, tuples, names and records. Or 1, also where memory runs out while
   the text is read. */
VOLGWAIN_MUST_CHECK uint32_t volgwain_read_json(const char *json, size_t json_length,
    struct volgwain_node *nodes, size_t nodes_length,
    struct volgwain_span *tuples, size_t tuples_length,
    uint8_t *names, size_t names_length,
    struct volgwain_record *records, size_t records_length,
    struct volgwain_table_sizes *sizes,
    struct volgwain_refusal *refusal, char *text, size_t text_size);

/* ---- constraints ---- */

/* The constraints of an AIR are expressions that its prover has to keep zero on each row. The calls below take them as
   a range of nodes of the tables, a whole list of expressions, like the flags of a lookup. What they say is of these
   constraints: what a prover checks and the list lacks is not seen, and what the list has and no prover checks makes
   the answers void. Selectors are 0 and 1 here; in a prover that checks constraints where they are not, a selector
   may stand in a constraint only as a factor of all of it. */

/* On which rows something is not shown, in enforced.rows. */
enum {
    VOLGWAIN_ROWS_BETWEEN = 0, /* those between the first and the last one */
    VOLGWAIN_ROWS_FIRST = 1,   /* the first one, of more than one */
    VOLGWAIN_ROWS_LAST = 2,    /* the last one, of more than one */
    VOLGWAIN_ROWS_ONLY = 3     /* the only one */
};

/* What is missing of the flags of a lookup, in enforced.missing: the first thing that is not shown, and on which
   rows. */
enum {
    VOLGWAIN_MISSING_NOTHING = 0,
    VOLGWAIN_MISSING_FLAG = 1,     /* rows, flag: that this flag is 0 or 1 */
    VOLGWAIN_MISSING_EXCLUSIVE = 2 /* rows: that at most one flag is 1 */
};

/* What constraints are shown to enforce of a lookup. A field that does not apply is 0. */
struct volgwain_enforced {
    uint32_t flags;   /* 1 if the flags are shown to be lawful, each 0 or 1 and at most one 1, as those of a lookup
                         without flags are; 0 if that is not shown */
    uint32_t weight;  /* 1 if the queries are shown to stay within the weight; 0 if that is not shown */
    uint32_t missing; /* why flags is 0 */
    uint32_t rows;
    size_t flag;
};

/* A bound of a multiplicity: it is a whole number times 1, whose absolute value is at most `bound`. */
struct volgwain_bound {
    uint32_t present; /* 1, or 0 if none is shown; then bound is 0 */
    uint64_t bound;
};

/* Says what constraints are shown to enforce of the lookups of an AIR, on each row of traces of a height, whatever else
   is in them, on which the constraints are zero. So it holds of all traces that any prover picks, on whose rows these
   constraints are zero. What is not shown may still be so: 0 never says that something is wrong.

   constraints: the range of their nodes. Any may be left out: what is shown is then shown without them.
   height: that of the traces. Over one row the first row is the last one too. Over none everything is
   shown (that is only tested; a plan refuses such an AIR with lookups).
   queries: a byte for each range in tables->tuples, 0 where its tuple is provided, and any other where it is a query. A
   lookup whose tuple is provided and one that queries it need ranges of their own.
   shown: exactly one for each lookup, in their order.
   bounds: exactly one for each multiplicity, those of the first lookup, then those of the second, and so on.

   The weight of a lookup is kept if each query has a bound, and these bounds are at most the weight: each of them, if
   the lookup has flags that are shown to be lawful, and otherwise their sum. Of a provided entry nothing is asked.
   Where `flags` of each lookup of each AIR of a batch is 1, each AIR asked at its height in the batch, the bound of
   volgwain_soundness_of_heights holds with no condition on flags, of all traces on which the constraints are zero.

   Refuses, in this order: 2, 11, 29, and 4 of the queries, of what is shown and of the bounds. Or 1. */
VOLGWAIN_MUST_CHECK uint32_t volgwain_enforced(const struct volgwain_tables *tables,
    const struct volgwain_span *constraints,
    size_t height,
    const uint8_t *queries, size_t queries_length,
    struct volgwain_enforced *shown, size_t shown_length,
    struct volgwain_bound *bounds, size_t bounds_length,
    struct volgwain_refusal *refusal, char *text, size_t text_size);

/* Whether constraints are zero on each row of traces. Of the tables it reads the nodes alone, so lookups are neither
   checked nor refused.

   constraints: the range of their nodes.

   Returns 0 exactly if they are, over traces that they fit, unless memory runs out. Over a main trace without rows they
   are. Refuses, in this order: 29, 5 and 3 of a trace, 6, 7, and 30 at the first row on which one is not zero. Or 1. */
VOLGWAIN_MUST_CHECK uint32_t volgwain_check_constraints(const struct volgwain_tables *tables,
    const struct volgwain_span *constraints,
    const struct volgwain_traces *traces,
    struct volgwain_refusal *refusal, char *text, size_t text_size);

/* ---- a batch of AIRs ---- */

/* An AIR of a batch, before its traces are seen: its lookups, the height of its traces, and an id for each
   lookup, or none.

   Where no AIR of a batch has ids, the plan gives them. Where one has, those of all AIRs are taken, so that a
   witness can be made and verified under the ids of another prover. Then each lookup needs one, lookups on one
   bus share an id, also across AIRs, and no others do; there are as many ids as the greatest of them and one.

   volgwain_prove and volgwain_grid_count make a prefix of 16 bytes for each number below that many, in use or not:
   with an id near 2^30 these are 16 GB. No other call does. So under great ids a witness is made AIR by AIR, by
   volgwain_generate_by_ids, or range by range. */
struct volgwain_air {
    struct volgwain_tables tables;
    size_t height;
    const size_t *ids;
    size_t ids_length;
};

/* The sizes of a plan: the greatest width of all tuples, at least 1, and the number of ids. */
struct volgwain_plan_sizes {
    size_t max_message_width;
    size_t num_ids;
};

/* Gives the plan of a batch, as it is known before traces are seen. Lookups on one bus share an id, also
   across AIRs, and each local lookup has its own; ids are given from 0 on, in the order of the AIRs and
   their lookups, unless the AIRs have ids. With alpha and beta a lookup of id i has the challenges
   alpha + (i + 1) * beta^max_message_width and beta.

   ids: one for each lookup, AIR by AIR.

   An AIR with lookups needs a row, since over none no constraint binds its terminal. The other calls that plan a
   batch do not look at that in the heights; those over traces refuse such an AIR by 16.

   Refuses, in this order: 2 and 11 of an AIR, 12, 13, 28, 14, 15, 6 of an AIR with lookups and the height 0, and
   4 of the ids. Or 1. */
VOLGWAIN_MUST_CHECK uint32_t volgwain_plan(const struct volgwain_air *airs, size_t airs_length,
    size_t *ids, size_t ids_length,
    struct volgwain_plan_sizes *sizes,
    struct volgwain_refusal *refusal, char *text, size_t text_size);

/* Generates the auxiliary trace of one AIR of a planned batch, and its terminal, as volgwain_generate does.

   ids: those of the AIR's lookups, in their order, as volgwain_plan gave them; sizes: those of the plan. Only the
   prefixes of these ids are made, so memory and time do not grow with the ids or with num_ids.
   auxiliary: exactly height * (lookups + 1) elements.

   With what volgwain_plan gave, the AIRs of a batch can be generated on threads of the caller's own. That
   together they are the witness of volgwain_prove is only tested.

   Refuses, in this order: 2, 5 and 3 of a trace, 3 of alpha and then beta, 4 of the ids, 3 of the sizes, 3 of
   an id, 6, 7, the first of 8, 9 and 10 in the order row, lookup, and 4 of the auxiliary trace. Or 1. The answer
   is 6 also where there are lookups and the main trace has no row. */
VOLGWAIN_MUST_CHECK uint32_t volgwain_generate_by_ids(const struct volgwain_tables *tables,
    const struct volgwain_traces *traces,
    const size_t *ids, size_t ids_length, const struct volgwain_plan_sizes *sizes,
    const struct volgwain_element *alpha, const struct volgwain_element *beta,
    struct volgwain_element *auxiliary, size_t auxiliary_length,
    struct volgwain_terminal *terminal,
    struct volgwain_refusal *refusal, char *text, size_t text_size);

/* Makes the witness of a batch: the auxiliary traces and the terminals of all AIRs.

   The AIRs make a plan: lookups on one bus share an id, each local lookup has its own, all tuples under
   one id have one width, and weights times heights stay below the modulus. alpha and beta are drawn once
   the traces are fixed.

   traces: for each AIR.
   auxiliary: the cells of all AIRs, one AIR after the other. An AIR has height * (lookups + 1) of them,
   row after row, and none without lookups.
   terminals: one for each AIR.

   The witness satisfies the constraints of all lookups, and where all flags are lawful and no denominator
   vanishes no other does. If all messages balance, the terminals sum to zero, so it is accepted.

   Refuses, in this order: 2 and 11 of an AIR, 12, 13, 28, 14, 15, 5 and 3 of traces, 3 of alpha and then beta,
   4 of the number of traces, 16, the first of 8, 9 and 10 in the order AIR, row, lookup, and 4 of the
   auxiliary traces and then the terminals. Or 1. */
VOLGWAIN_MUST_CHECK uint32_t volgwain_prove(const struct volgwain_air *airs, size_t airs_length,
    const struct volgwain_traces *traces, size_t traces_length,
    const struct volgwain_element *alpha, const struct volgwain_element *beta,
    struct volgwain_element *auxiliary, size_t auxiliary_length,
    struct volgwain_terminal *terminals, size_t terminals_length,
    struct volgwain_refusal *refusal, char *text, size_t text_size);

/* Whether a witness of a batch, whoever made it, is accepted: every constraint of every lookup holds on
   every row, and the terminals sum to zero.

   The plan, the traces and the challenges are as for volgwain_prove. witness: one for each AIR.

   Returns 0 exactly if it is accepted, unless memory runs out. Refuses, in this order: what volgwain_prove
   does up to 3 of beta; 5 and 3 of what the witness has for an AIR; 4 of the number of traces; 16; 4 of the
   number of AIRs in the witness; AIR by AIR 17, 18, 19 and 20; and 21. Or 1. */
VOLGWAIN_MUST_CHECK uint32_t volgwain_verify(const struct volgwain_air *airs, size_t airs_length,
    const struct volgwain_traces *traces, size_t traces_length,
    const struct volgwain_element *alpha, const struct volgwain_element *beta,
    const struct volgwain_air_witness *witness, size_t witness_length,
    struct volgwain_refusal *refusal, char *text, size_t text_size);

/* A number of 128 bits: high * 2^64 + low. */
struct volgwain_wide {
    uint64_t low;
    uint64_t high;
};

/* The counts of a batch. messages: how many distinct messages n there are, each an id with the values of a
   tuple, those of multiplicity zero too. unbalanced: how many k of them do not balance. bad_betas:
   W * k * (k - 1) / 2, where W is the width of the plan. bounded is 0 if all messages balance, and otherwise
   1; then accepting_alphas is n + k - 1. linear_bad_betas: W * (k - 1), or 0 if all messages balance; it is
   never above bad_betas. */
struct volgwain_counts {
    struct volgwain_wide messages;
    struct volgwain_wide unbalanced;
    struct volgwain_wide bad_betas;
    uint32_t bounded;
    struct volgwain_wide accepting_alphas;
    struct volgwain_wide linear_bad_betas;
};

/* Counts the messages of a batch. If k is above zero, then at all betas but linear_bad_betas at the most, some
   witness is accepted at no more than accepting_alphas alphas, whoever makes it. bad_betas bounds the betas at
   which two unbalanced messages have the same point; at every other beta the bound of alphas holds.

   Refuses, in this order: what volgwain_prove does up to 5 and 3 of traces, 4 of the number of traces, 16,
   9 or 10 of flags in the order AIR, row, lookup, and 23. Or 1. */
VOLGWAIN_MUST_CHECK uint32_t volgwain_soundness_count(const struct volgwain_air *airs, size_t airs_length,
    const struct volgwain_traces *traces, size_t traces_length,
    struct volgwain_counts *counts,
    struct volgwain_refusal *refusal, char *text, size_t text_size);

/* The counts of a batch by its heights. most_messages: the most messages M that there can be, the height times
   the messages of a row, over all AIRs. A row has one message for each lookup with flags, and each tuple of
   every other lookup. bad_betas: W * (M - 1), or 0 if M is 0, where W is the width of the plan. bounded is 0 if
   M is 0, so that every batch balances, and otherwise 1; then accepting_alphas is 2 * M - 1. No traces fit an
   AIR with lookups and height 0: of a batch with one nothing is said. */
struct volgwain_height_counts {
    struct volgwain_wide most_messages;
    struct volgwain_wide bad_betas;
    uint32_t bounded;
    struct volgwain_wide accepting_alphas;
};

/* Bounds the challenges of a batch before its traces are seen. Over any traces that have the heights and fit,
   with lawful flags and some message that does not balance: at all betas but bad_betas at the most, some
   witness is accepted at no more than accepting_alphas alphas, whoever makes it.

   Refuses, in this order: 2 and 11 of an AIR, 12, 13, 28, 14, 15 and 23. Or 1. */
VOLGWAIN_MUST_CHECK uint32_t volgwain_soundness_of_heights(const struct volgwain_air *airs, size_t airs_length,
    struct volgwain_height_counts *counts,
    struct volgwain_refusal *refusal, char *text, size_t text_size);

/* accepted: the exact number of pairs at which some witness is accepted, whoever makes it. bounded is 0 if
   all messages balance, and otherwise 1; then bound is at least accepted. */
struct volgwain_grid {
    struct volgwain_wide accepted;
    uint32_t bounded;
    struct volgwain_wide bound;
};

/* Counts at how many pairs of some alphas and betas a batch is accepted. With n distinct messages, k above
   zero of them unbalanced, and W the width of the plan, the bound is
   W * k * (k - 1) / 2 * alphas + (n + k - 1) * betas.

   Refuses, in this order: what volgwain_prove does up to 5 and 3 of traces, 3 of the alphas and then the
   betas, 4 of the number of traces, 16, 22, 9 or 10 of flags in the order AIR, row, lookup, and 23. Or 1. */
VOLGWAIN_MUST_CHECK uint32_t volgwain_grid_count(const struct volgwain_air *airs, size_t airs_length,
    const struct volgwain_traces *traces, size_t traces_length,
    const struct volgwain_element *alphas, size_t alphas_length,
    const struct volgwain_element *betas, size_t betas_length,
    struct volgwain_grid *grid,
    struct volgwain_refusal *refusal, char *text, size_t text_size);

/* Whether all tuples balance: those of each local lookup by itself, and those of each bus over all AIRs. A
   branch with a flag counts flag times multiplicity.

   Refuses, in this order: 4 of the number of traces, 2 and 11 of an AIR, 5 and 3 of traces, 6 and 7 of an
   AIR, and 26 at the first local lookup or bus with a tuple that does not balance. Its text names the
   tuple, by how much it does not, and each place where it is sent. Or 1. */
VOLGWAIN_MUST_CHECK uint32_t volgwain_debug_check(const struct volgwain_tables *airs, size_t airs_length,
    const struct volgwain_traces *traces, size_t traces_length,
    struct volgwain_refusal *refusal, char *text, size_t text_size);

/* What the two calls below write is a list of numbers, to be read from the first on:

       table     number of groups, then each group
       group     name, sent, received, distinct, unbalanced, number of tuples that follow, then each tuple
       mismatch  0; or 1, name, tuple
       name      0, air, lookup; or 1, number of bytes, then each byte as a number
       tuple     number of elements, then each element, net, place_count, number of places that follow, then each
                 place
       place     air, lookup, row, count

   - A group is what balances by itself: a local lookup, whose name begins with 0; or a bus with all lookups on it,
     over all AIRs, whose name begins with 1 and is in UTF-8. The local lookups come first, in the order AIR,
     lookup, and then the buses, in the order of the first lookups on them. A group is there also if it sends
     nothing.
   - A contribution is a tuple that a lookup sends on a row, with its count: the multiplicity, or flag times
     multiplicity, whatever the flag is. Contributions with count 0 are left out everywhere here.
   - sent and received: how many contributions have a count that is at most half of the modulus, and how many a
     greater one, as that of -1 is.
   - distinct: how many distinct tuples they have. unbalanced: how many of these have a net other than 0.
   - The tuples that follow are the first of those that are unbalanced, in the order of their first contributions,
     as many as limit allows.
   - net: the sum of the counts of a tuple, modulo the modulus. place_count: how many contributions it has.
   - The places that follow are the first of these, in the order AIR, lookup, row, tuple, as many as limit allows.

   Elements, net and count are numbers below the modulus. Where sent, received or place_count does not fit a
   size_t, it is SIZE_MAX. */

/* Tells of each local lookup and each bus what is sent and received, and which tuples do not balance.

   limit: how many of the tuples of a group, and of the places of a tuple, follow at most.
   numbers: a table, as above, from the start of the array on. The array must be at least as long, and what is past
   the table stays as it was.
   written: how many numbers the table has.

   How many there are is not known before. A call with too short an array is refused by 4 of the numbers, with
   the length that is needed as what was expected.

   Refuses, in this order: what volgwain_debug_check does up to 6 and 7 of an AIR, and 4 of the numbers. Or 1. */
VOLGWAIN_MUST_CHECK uint32_t volgwain_bus_table(const struct volgwain_tables *airs, size_t airs_length,
    const struct volgwain_traces *traces, size_t traces_length,
    size_t limit,
    size_t *numbers, size_t numbers_length, size_t *written,
    struct volgwain_refusal *refusal, char *text, size_t text_size);

/* Tells the mismatch that volgwain_debug_check names, or that all tuples balance. It is of the first group that has
   one: among its unbalanced tuples the one that comes first by the decimal texts of its elements, so that 10 comes
   before 9.

   limit: how many of the places of the tuple follow at most.
   numbers, written: a mismatch, as above; else as for volgwain_bus_table.

   Refuses what volgwain_bus_table does, in the same order. */
VOLGWAIN_MUST_CHECK uint32_t volgwain_mismatch(const struct volgwain_tables *airs, size_t airs_length,
    const struct volgwain_traces *traces, size_t traces_length,
    size_t limit,
    size_t *numbers, size_t numbers_length, size_t *written,
    struct volgwain_refusal *refusal, char *text, size_t text_size);

/* ---- ranges of rows ---- */

/* The rows from first up to, but not including, end of a trace that has height rows. */
struct volgwain_rows {
    size_t first;
    size_t end;
    size_t height;
};

/* Generates the rows of a range of the auxiliary trace of one AIR of a planned batch, and the sum of their
   fractions. So no call needs the whole trace, and ranges can be generated on threads of the caller's own.

   around: the rows around the range alone, in this order: row 0, unless first is 0; the rows from first up to
   end; and row end, unless end is the height. Both traces have just these rows.
   ids, sizes, alpha, beta: as for volgwain_generate_by_ids.
   auxiliary: exactly (end - first) * (lookups + 1) elements, row after row; none without lookups.
   sum: the sum of all fractions on the rows of the range; 0 without lookups.

   What is written is that of the whole trace, whatever its other rows are, but for its accumulator, which is
   zero on the row first. volgwain_shift by the sum of the sums of all ranges before makes of it what
   volgwain_generate_by_ids writes on these rows. The sum of the sums of all ranges is the terminal.

   Refuses, in this order: what volgwain_generate_by_ids does up to 7; 3 of the rows, which must have first below
   end, and end not above the height; 4 of the rows, where around has another height than there are rows around
   the range; the first of 8, 9 and 10 on the rows of the range, in the order row, lookup, where row is that of
   the whole trace; and 4 of the auxiliary trace. Or 1. The answer is 6 also where there are lookups and around has
   no row at all. */
VOLGWAIN_MUST_CHECK uint32_t volgwain_generate_rows(const struct volgwain_tables *tables,
    const struct volgwain_traces *around,
    const struct volgwain_rows *rows,
    const size_t *ids, size_t ids_length, const struct volgwain_plan_sizes *sizes,
    const struct volgwain_element *alpha, const struct volgwain_element *beta,
    struct volgwain_element *auxiliary, size_t auxiliary_length,
    struct volgwain_element *sum,
    struct volgwain_refusal *refusal, char *text, size_t text_size);

/* Adds offset to the accumulator of each row of an auxiliary trace, its first cell, in place.

   cells: rows of `width` cells each. With one cell and a width of 1 the call adds two elements.

   Refuses, in this order: 3 of the offset, 5 of the auxiliary trace, and 3 of it. It asks for no memory. */
VOLGWAIN_MUST_CHECK uint32_t volgwain_shift(struct volgwain_element *cells, size_t cells_length, size_t width,
    const struct volgwain_element *offset,
    struct volgwain_refusal *refusal, char *text, size_t text_size);

/* Whether every constraint of one AIR of a planned batch is zero on the rows of a range.

   around, rows, ids, sizes, alpha, beta: as for volgwain_generate_rows.
   witness: the cells of the auxiliary trace on the rows around the range alone, in the same order; and the
   terminal of the whole trace.

   Where ranges of one trace and one auxiliary trace cover all rows, and each is accepted with the same terminal,
   every constraint of the AIR is zero on every row of the whole trace. On an accepted range the fractions lead from
   the accumulator on its first row to that on the row after it. On row 0 the accumulator is zero, and after the last
   row of the trace the terminal stands in its place.

   The caller sees to it that height is that of the plan, and that the terminals of a batch sum to zero. Each AIR
   with lookups needs at least one row, as volgwain_plan wants it: where there is none, there is no range, and
   nothing binds the terminal.

   Returns 0 exactly if they are zero, unless memory runs out. Refuses, in this order: what
   volgwain_generate_rows does up to 4 of the rows; 5 and 3 of what the witness has; 17, 18 and 19; and 20, at
   the first row of the range on which a constraint is not zero, under its number in the whole trace. Or 1. The
   answer is 6 also where there are lookups and around has no row at all. */
VOLGWAIN_MUST_CHECK uint32_t volgwain_verify_rows(const struct volgwain_tables *tables,
    const struct volgwain_traces *around,
    const struct volgwain_rows *rows,
    const size_t *ids, size_t ids_length, const struct volgwain_plan_sizes *sizes,
    const struct volgwain_element *alpha, const struct volgwain_element *beta,
    const struct volgwain_air_witness *witness,
    struct volgwain_refusal *refusal, char *text, size_t text_size);

/* ---- KoalaBear ---- */

/* The same calls over KoalaBear, the integers modulo 2130706433 = 127 * 2^24 + 1, with challenges in the
   polynomials modulo X^4 - 3.

   Each is the call of its name without koala_bear: what is said there of arguments, answers, refusals and their
   order, and of memory, is said here. The modulus is VOLGWAIN_KOALA_BEAR_MODULUS, in tables, texts, traces,
   challenges and bounds on heights alike. What one field's calls write is not for those of the other. */
VOLGWAIN_MUST_CHECK uint32_t volgwain_koala_bear_plan(const struct volgwain_air *airs, size_t airs_length,
    size_t *ids, size_t ids_length,
    struct volgwain_plan_sizes *sizes,
    struct volgwain_refusal *refusal, char *text, size_t text_size);
VOLGWAIN_MUST_CHECK uint32_t volgwain_koala_bear_prove(const struct volgwain_air *airs, size_t airs_length,
    const struct volgwain_traces *traces, size_t traces_length,
    const struct volgwain_element *alpha, const struct volgwain_element *beta,
    struct volgwain_element *auxiliary, size_t auxiliary_length,
    struct volgwain_terminal *terminals, size_t terminals_length,
    struct volgwain_refusal *refusal, char *text, size_t text_size);
VOLGWAIN_MUST_CHECK uint32_t volgwain_koala_bear_verify(const struct volgwain_air *airs, size_t airs_length,
    const struct volgwain_traces *traces, size_t traces_length,
    const struct volgwain_element *alpha, const struct volgwain_element *beta,
    const struct volgwain_air_witness *witness, size_t witness_length,
    struct volgwain_refusal *refusal, char *text, size_t text_size);
VOLGWAIN_MUST_CHECK uint32_t volgwain_koala_bear_debug_check(const struct volgwain_tables *airs,
    size_t airs_length,
    const struct volgwain_traces *traces, size_t traces_length,
    struct volgwain_refusal *refusal, char *text, size_t text_size);
VOLGWAIN_MUST_CHECK uint32_t volgwain_koala_bear_bus_table(const struct volgwain_tables *airs,
    size_t airs_length,
    const struct volgwain_traces *traces, size_t traces_length,
    size_t limit,
    size_t *numbers, size_t numbers_length, size_t *written,
    struct volgwain_refusal *refusal, char *text, size_t text_size);
VOLGWAIN_MUST_CHECK uint32_t volgwain_koala_bear_mismatch(const struct volgwain_tables *airs,
    size_t airs_length,
    const struct volgwain_traces *traces, size_t traces_length,
    size_t limit,
    size_t *numbers, size_t numbers_length, size_t *written,
    struct volgwain_refusal *refusal, char *text, size_t text_size);
VOLGWAIN_MUST_CHECK uint32_t volgwain_koala_bear_soundness_count(const struct volgwain_air *airs,
    size_t airs_length,
    const struct volgwain_traces *traces, size_t traces_length,
    struct volgwain_counts *counts,
    struct volgwain_refusal *refusal, char *text, size_t text_size);
VOLGWAIN_MUST_CHECK uint32_t volgwain_koala_bear_soundness_of_heights(const struct volgwain_air *airs,
    size_t airs_length,
    struct volgwain_height_counts *counts,
    struct volgwain_refusal *refusal, char *text, size_t text_size);
VOLGWAIN_MUST_CHECK uint32_t volgwain_koala_bear_grid_count(const struct volgwain_air *airs, size_t airs_length,
    const struct volgwain_traces *traces, size_t traces_length,
    const struct volgwain_element *alphas, size_t alphas_length,
    const struct volgwain_element *betas, size_t betas_length,
    struct volgwain_grid *grid,
    struct volgwain_refusal *refusal, char *text, size_t text_size);
VOLGWAIN_MUST_CHECK uint32_t volgwain_koala_bear_generate(const struct volgwain_tables *tables,
    const struct volgwain_traces *traces,
    const struct volgwain_element *challenges, size_t challenges_length,
    struct volgwain_element *auxiliary, size_t auxiliary_length,
    struct volgwain_terminal *terminal,
    struct volgwain_refusal *refusal, char *text, size_t text_size);
VOLGWAIN_MUST_CHECK uint32_t volgwain_koala_bear_generate_by_ids(const struct volgwain_tables *tables,
    const struct volgwain_traces *traces,
    const size_t *ids, size_t ids_length, const struct volgwain_plan_sizes *sizes,
    const struct volgwain_element *alpha, const struct volgwain_element *beta,
    struct volgwain_element *auxiliary, size_t auxiliary_length,
    struct volgwain_terminal *terminal,
    struct volgwain_refusal *refusal, char *text, size_t text_size);
VOLGWAIN_MUST_CHECK uint32_t volgwain_koala_bear_generate_rows(const struct volgwain_tables *tables,
    const struct volgwain_traces *around,
    const struct volgwain_rows *rows,
    const size_t *ids, size_t ids_length, const struct volgwain_plan_sizes *sizes,
    const struct volgwain_element *alpha, const struct volgwain_element *beta,
    struct volgwain_element *auxiliary, size_t auxiliary_length,
    struct volgwain_element *sum,
    struct volgwain_refusal *refusal, char *text, size_t text_size);
VOLGWAIN_MUST_CHECK uint32_t volgwain_koala_bear_shift(struct volgwain_element *cells, size_t cells_length,
    size_t width,
    const struct volgwain_element *offset,
    struct volgwain_refusal *refusal, char *text, size_t text_size);
VOLGWAIN_MUST_CHECK uint32_t volgwain_koala_bear_verify_rows(const struct volgwain_tables *tables,
    const struct volgwain_traces *around,
    const struct volgwain_rows *rows,
    const size_t *ids, size_t ids_length, const struct volgwain_plan_sizes *sizes,
    const struct volgwain_element *alpha, const struct volgwain_element *beta,
    const struct volgwain_air_witness *witness,
    struct volgwain_refusal *refusal, char *text, size_t text_size);
VOLGWAIN_MUST_CHECK uint32_t volgwain_koala_bear_verify_air(const struct volgwain_tables *tables,
    const struct volgwain_traces *traces,
    const struct volgwain_element *challenges, size_t challenges_length,
    const struct volgwain_air_witness *witness,
    struct volgwain_refusal *refusal, char *text, size_t text_size);
VOLGWAIN_MUST_CHECK uint32_t volgwain_koala_bear_fit_fault(const struct volgwain_tables *tables,
    const struct volgwain_traces *traces,
    struct volgwain_fit *fit,
    struct volgwain_refusal *refusal, char *text, size_t text_size);
VOLGWAIN_MUST_CHECK uint32_t volgwain_koala_bear_degrees(const struct volgwain_tables *tables,
    size_t transition_degree,
    size_t *degrees, size_t degrees_length,
    struct volgwain_refusal *refusal, char *text, size_t text_size);
VOLGWAIN_MUST_CHECK uint32_t volgwain_koala_bear_pack(const struct volgwain_tables *tables, size_t max_degree,
    struct volgwain_node *nodes, size_t nodes_length,
    struct volgwain_span *tuples, size_t tuples_length,
    uint8_t *names, size_t names_length,
    struct volgwain_record *records, size_t records_length,
    struct volgwain_table_sizes *sizes,
    struct volgwain_refusal *refusal, char *text, size_t text_size);
VOLGWAIN_MUST_CHECK uint32_t volgwain_koala_bear_read_json(const char *json, size_t json_length,
    struct volgwain_node *nodes, size_t nodes_length,
    struct volgwain_span *tuples, size_t tuples_length,
    uint8_t *names, size_t names_length,
    struct volgwain_record *records, size_t records_length,
    struct volgwain_table_sizes *sizes,
    struct volgwain_refusal *refusal, char *text, size_t text_size);
VOLGWAIN_MUST_CHECK uint32_t volgwain_koala_bear_enforced(const struct volgwain_tables *tables,
    const struct volgwain_span *constraints,
    size_t height,
    const uint8_t *queries, size_t queries_length,
    struct volgwain_enforced *shown, size_t shown_length,
    struct volgwain_bound *bounds, size_t bounds_length,
    struct volgwain_refusal *refusal, char *text, size_t text_size);
VOLGWAIN_MUST_CHECK uint32_t volgwain_koala_bear_check_constraints(const struct volgwain_tables *tables,
    const struct volgwain_span *constraints,
    const struct volgwain_traces *traces,
    struct volgwain_refusal *refusal, char *text, size_t text_size);

#ifdef __cplusplus
}
#endif

#endif
