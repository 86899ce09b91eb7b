/* What does not balance, as numbers: the key 5 is in no entry, and the entry 3 is provided once too often.
   bus_table.txt is what this writes. */
#include <stdio.h>
#include "volgwain.h"

/* The first AIR looks up column 0 of each row. The second one provides column 0, as often as column 1 says. */
static const struct volgwain_node nodes[] = {
    {VOLGWAIN_MAIN, 0, 0}, {VOLGWAIN_CONSTANT, 1, 0}, {VOLGWAIN_MAIN, 0, 1}, {VOLGWAIN_NEGATION, 0, 0}};
static const struct volgwain_span tuples[] = {{0, 1}};
static const uint8_t names[] = {'k', 'e', 'y', 's'};
static const struct volgwain_record asks[] = {{1, 0, 1, {0, 4}, {0, 1}, {1, 2}, {0, 0}}};
static const struct volgwain_record provides[] = {{1, 0, 0, {0, 4}, {0, 1}, {2, 4}, {0, 0}}};
static const struct volgwain_tables airs[] = {
    {nodes, 4, tuples, 1, names, 4, asks, 1}, {nodes, 4, tuples, 1, names, 4, provides, 1}};

static const uint32_t keys[] = {3, 4, 5}, entries[] = {3, 2, 4, 1};
static const struct volgwain_traces traces[] = {
    {keys, 3, 1, keys, 0, 0, keys, 0}, {entries, 4, 2, entries, 0, 0, entries, 0}};

static size_t numbers[100], written;
static const size_t *next = numbers; /* the number that is read next */

/* A number of the field as the whole number next to 0 that it stands for. */
static long whole(size_t number)
{
    return number > VOLGWAIN_MODULUS / 2 ? (long)number - (long)VOLGWAIN_MODULUS : (long)number;
}

static void show_name(void)
{
    size_t is_bus = *next++;
    if (!is_bus) {
        printf("AIR %zu, local lookup %zu", next[0], next[1]);
        next += 2;
        return;
    }
    for (size_t bytes = *next++; bytes > 0; bytes--)
        putchar((int)*next++);
}

static void show_tuple(void)
{
    printf("  (");
    for (size_t elements = *next++; elements > 0; elements--)
        printf(" %zu", *next++);
    printf(" ) has net %ld, of %zu:", whole(next[0]), next[1]);
    size_t places = next[2];
    for (next += 3; places > 0; places--, next += 4)
        printf(" AIR %zu lookup %zu row %zu sends it %ld times;", next[0], next[1], next[2], whole(next[3]));
    printf("\n");
}

int main(void)
{
    struct volgwain_refusal refusal;
    if (volgwain_bus_table(airs, 2, traces, 2, 4, numbers, 100, &written, &refusal, NULL, 0) != VOLGWAIN_OK)
        return 1;
    for (size_t groups = *next++; groups > 0; groups--) {
        show_name();
        printf(": %zu sent, %zu received, %zu tuples, %zu unbalanced\n", next[0], next[1], next[2], next[3]);
        size_t listed = next[4];
        for (next += 5; listed > 0; listed--)
            show_tuple();
    }
    printf("%zu numbers\n", written);
    return 0;
}
