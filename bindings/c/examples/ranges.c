/* The rows of one AIR in four ranges, each generated and checked by a thread of its own, from the rows around it
   alone. ranges.txt is what this writes. */
#include <pthread.h>
#include <stdio.h>
#include <string.h>
#include "volgwain.h"

#define HEIGHT 1000
#define PARTS 4
#define ROWS (HEIGHT / PARTS)

/* Column 0 of each row counts 1, and that of the next row minus 1. After the last row comes the first one. */
static const struct volgwain_node nodes[] = {{VOLGWAIN_MAIN, 0, 0}, {VOLGWAIN_MAIN, 1, 0},
    {VOLGWAIN_CONSTANT, 1, 0}, {VOLGWAIN_CONSTANT, VOLGWAIN_MODULUS - 1, 0}};
static const struct volgwain_span tuples[] = {{0, 1}, {1, 2}};
static const uint8_t names[] = {0};
static const struct volgwain_record records[] = {{0, 0, 1, {0, 0}, {0, 2}, {2, 4}, {0, 0}}};
static const struct volgwain_tables tables = {nodes, 4, tuples, 2, names, 0, records, 1};

/* What volgwain_plan gives for this AIR alone: one id, and the width 1. */
static const size_t ids[] = {0};
static const struct volgwain_plan_sizes sizes = {1, 1};
static const struct volgwain_element alpha = {{9, 2, 6, 5}}, beta = {{3, 1, 4, 15}};

static uint32_t column[HEIGHT];
static struct volgwain_element cells[2 * HEIGHT];
static struct volgwain_terminal terminal = {1, {{0, 0, 0, 0}}};

/* A range, what is around it, and what the calls write. */
struct part {
    struct volgwain_rows rows;
    uint32_t column[ROWS + 2];
    struct volgwain_element cells[2 * (ROWS + 2)];
    struct volgwain_element sum, before;
    uint32_t code;
    struct volgwain_refusal refusal;
    char text[200];
};
static struct part parts[PARTS];

/* Copies the rows around a range: row 0, those of the range, and the one after them. How many they are. */
static size_t copy_around(void *to, const void *whole, size_t size, const struct volgwain_rows *rows)
{
    size_t count = rows->end - rows->first, before = rows->first != 0, after = rows->end != rows->height;
    char *copy = to;
    const char *from = whole;
    memcpy(copy, from, before * size);
    memcpy(copy + before * size, from + rows->first * size, (count + after) * size);
    return before + count + after;
}

static size_t traces_around(struct part *it, struct volgwain_traces *around)
{
    size_t count = copy_around(it->column, column, sizeof column[0], &it->rows);
    struct volgwain_traces made = {NULL, 0, 1, NULL, 0, 0, NULL, 0};
    made.main = made.preprocessed = made.public_values = it->column;
    made.main_length = count;
    *around = made;
    return count;
}

static void *generate(void *part)
{
    struct part *it = part;
    struct volgwain_traces around;
    traces_around(it, &around);
    it->code = volgwain_generate_rows(&tables, &around, &it->rows, ids, 1, &sizes, &alpha, &beta,
        cells + 2 * it->rows.first, 2 * ROWS, &it->sum, &it->refusal, it->text, sizeof it->text);
    return NULL;
}

static void *shift(void *part)
{
    struct part *it = part;
    it->code = volgwain_shift(cells + 2 * it->rows.first, 2 * ROWS, 2, &it->before, &it->refusal, it->text,
        sizeof it->text);
    return NULL;
}

static void *verify(void *part)
{
    struct part *it = part;
    struct volgwain_traces around;
    struct volgwain_air_witness witness = {it->cells, 0, 2, terminal};
    witness.auxiliary_length = 2 * traces_around(it, &around);
    copy_around(it->cells, cells, 2 * sizeof cells[0], &it->rows);
    it->code = volgwain_verify_rows(&tables, &around, &it->rows, ids, 1, &sizes, &alpha, &beta, &witness,
        &it->refusal, it->text, sizeof it->text);
    return NULL;
}

/* Works on all ranges at once. Whether none was refused. */
static int on_threads(void *(*work)(void *))
{
    pthread_t threads[PARTS];
    int i, accepted = 1;
    for (i = 0; i < PARTS; i++)
        if (pthread_create(&threads[i], NULL, work, &parts[i]) != 0)
            return 0;
    for (i = 0; i < PARTS; i++) {
        pthread_join(threads[i], NULL);
        if (parts[i].code != VOLGWAIN_OK) {
            size_t length = parts[i].refusal.text_length;
            if (length > sizeof parts[i].text)
                length = sizeof parts[i].text;
            printf("rows from %zu on: code %u, %.*s\n", parts[i].rows.first, (unsigned)parts[i].code,
                (int)length, parts[i].text);
            accepted = 0;
        }
    }
    return accepted;
}

int main(void)
{
    int i;
    for (i = 0; i < HEIGHT; i++)
        column[i] = (uint32_t)(i * i);
    for (i = 0; i < PARTS; i++) {
        parts[i].rows.first = (size_t)i * ROWS;
        parts[i].rows.end = parts[i].rows.first + ROWS;
        parts[i].rows.height = HEIGHT;
    }
    if (!on_threads(generate))
        return 1;
    for (i = 0; i < PARTS; i++) {
        parts[i].before = terminal.value;
        if (volgwain_shift(&terminal.value, 1, 1, &parts[i].sum, &parts[i].refusal, parts[i].text, 0)
            != VOLGWAIN_OK)
            return 1;
    }
    if (!on_threads(shift) || !on_threads(verify))
        return 1;
    printf("%d ranges: accepted, with a terminal of %u\n", PARTS, (unsigned)terminal.value.c[0]);
    cells[2 * 777 + 1] = alpha;
    on_threads(verify);
    return 0;
}
