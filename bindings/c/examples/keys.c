/* Two AIRs on one bus: a plan, a witness, and its check. keys.txt is what this writes. */
#include <stdio.h>
#include "volgwain.h"

/* The first AIR looks up column 0 of each row. The second one provides column 0, as often as column 1 says. */
static const struct volgwain_node nodes[] = {
    {VOLGWAIN_MAIN, 0, 0}, {VOLGWAIN_CONSTANT, 1, 0},  /* a tuple, and the count 1 */
    {VOLGWAIN_MAIN, 0, 1}, {VOLGWAIN_NEGATION, 0, 0}}; /* the count minus column 1 */
static const struct volgwain_span tuples[] = {{0, 1}};
static const uint8_t names[] = {'k', 'e', 'y', 's'};
static const struct volgwain_record asks[] = {{1, 0, 1, {0, 4}, {0, 1}, {1, 2}, {0, 0}}};
static const struct volgwain_record provides[] = {{1, 0, 0, {0, 4}, {0, 1}, {2, 4}, {0, 0}}};
static const struct volgwain_air airs[] = {
    {{nodes, 4, tuples, 1, names, 4, asks, 1}, 3, NULL, 0},
    {{nodes, 4, tuples, 1, names, 4, provides, 1}, 2, NULL, 0}};

static const uint32_t keys[] = {3, 4, 3}, entries[] = {3, 2, 4, 1};
static const struct volgwain_traces traces[] = {
    {keys, 3, 1, keys, 0, 0, keys, 0}, {entries, 4, 2, entries, 0, 0, entries, 0}};
static const struct volgwain_element alpha = {{9, 2, 6, 5}}, beta = {{3, 1, 4, 15}};

/* What the calls write. */
static size_t ids[2];
static struct volgwain_plan_sizes sizes;
static struct volgwain_element cells[3 * 2 + 2 * 2];
static struct volgwain_terminal terminals[2];
static struct volgwain_refusal refusal;
static char text[200];

/* How many bytes of the text are those of the last refusal: a cut one has no closing zero. */
static int length(void)
{
    return (int)(refusal.text_length < sizeof text ? refusal.text_length : sizeof text);
}

static uint32_t verify(void)
{
    struct volgwain_air_witness witness[] = {{cells, 6, 2, terminals[0]}, {cells + 6, 4, 2, terminals[1]}};
    return volgwain_verify(airs, 2, traces, 2, &alpha, &beta, witness, 2, &refusal, text, sizeof text);
}

int main(void)
{
    if (volgwain_plan(airs, 2, ids, 2, &sizes, &refusal, text, sizeof text) != VOLGWAIN_OK
        || volgwain_prove(airs, 2, traces, 2, &alpha, &beta, cells, 10, terminals, 2, &refusal, text,
               sizeof text) != VOLGWAIN_OK
        || verify() != VOLGWAIN_OK) {
        printf("refused: %.*s\n", length(), text);
        return 1;
    }
    printf("ids %zu and %zu: accepted\n", ids[0], ids[1]);
    cells[9] = alpha;
    verify();
    printf("with another cell: code %u, %.*s\n", (unsigned)refusal.code, length(), text);
    return 0;
}
