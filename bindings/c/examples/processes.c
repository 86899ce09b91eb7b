/* Four processes generate one trace. The parent shifts what comes through their pipes, joins it, and compares it with
   one call over the whole trace. processes.txt is what this writes. */
#define _POSIX_C_SOURCE 200809L
#include <stdio.h>
#include <string.h>
#include <unistd.h>
#include "volgwain.h"

enum { ROWS = 1001, WORKERS = 4, WIDTH = 2 };
/* Each row looks up column 0, and provides column 1 as often as column 2 says. */
static const struct volgwain_node nodes[] = {{VOLGWAIN_MAIN, 0, 0}, {VOLGWAIN_MAIN, 0, 1},
    {VOLGWAIN_CONSTANT, 1, 0}, {VOLGWAIN_MAIN, 0, 2}, {VOLGWAIN_NEGATION, 0, 0}};
static const struct volgwain_span tuples[] = {{0, 1}, {1, 2}};
static const struct volgwain_record record = {0, 0, 1, {0, 0}, {0, 2}, {2, 5}, {0, 0}};
static const struct volgwain_tables tables = {nodes, 5, tuples, 2, (const uint8_t *)"", 0, &record, 1};
static const struct volgwain_element alpha = {{9, 2, 6, 5}}, beta = {{3, 1, 4, 15}};
static const struct volgwain_plan_sizes sizes = {1, 1};
static const size_t ids[] = {0};
static uint32_t rows[ROWS][3], around[ROWS][3];
static struct volgwain_element cells[ROWS][WIDTH], plain[ROWS][WIDTH], sum, total;
static struct volgwain_refusal refusal;
static char text[1];

/* A worker gets the rows around its range, and sends its cells and their sum. */
static int work(size_t first, size_t end, FILE *to)
{
    size_t count = end - first, before = first > 0, after = end < ROWS;
    struct volgwain_rows range = {first, end, ROWS};
    struct volgwain_traces traces = {around[0], (before + count + after) * 3, 3, around[0], 0, 0, around[0], 0};
    memcpy(around, rows, sizeof rows[0]);
    memcpy(around + before, rows + first, (count + after) * sizeof rows[0]);
    return volgwain_generate_rows(&tables, &traces, &range, ids, 1, &sizes, &alpha, &beta, cells[0],
               count * WIDTH, &sum, &refusal, text, 0) == VOLGWAIN_OK
        && fwrite(cells, sizeof cells[0], count, to) == count && fwrite(&sum, sizeof sum, 1, to) == 1;
}

/* The parent shifts what comes by the sum of all that came before. */
static int join(size_t first, size_t end, FILE *from)
{
    size_t count = end - first;
    return fread(cells + first, sizeof cells[0], count, from) == count && fread(&sum, sizeof sum, 1, from) == 1
        && volgwain_shift(cells[first], count * WIDTH, WIDTH, &total, &refusal, text, 0) == VOLGWAIN_OK
        && volgwain_shift(&total, 1, 1, &sum, &refusal, text, 0) == VOLGWAIN_OK;
}

int main(void)
{
    const struct volgwain_traces whole = {rows[0], ROWS * 3, 3, rows[0], 0, 0, rows[0], 0};
    struct volgwain_terminal terminal = {0, {{0}}};
    int pipes[WORKERS][2];
    for (uint32_t row = 0; row < ROWS; row++) {
        rows[row][0] = row % 10, rows[row][1] = row, rows[row][2] = row < 10 ? 100 + (row < 1) : 0;
    }
    for (size_t worker = 0; worker < WORKERS; worker++) {
        if (pipe(pipes[worker]) != 0)
            return 1;
        if (fork() == 0) {
            FILE *to = fdopen(pipes[worker][1], "w");
            return !(work(worker * ROWS / WORKERS, (worker + 1) * ROWS / WORKERS, to) && fclose(to) == 0);
        }
        close(pipes[worker][1]);
    }
    for (size_t worker = 0; worker < WORKERS; worker++) {
        if (!join(worker * ROWS / WORKERS, (worker + 1) * ROWS / WORKERS, fdopen(pipes[worker][0], "r")))
            return 1;
    }
    if (volgwain_generate_by_ids(&tables, &whole, ids, 1, &sizes, &alpha, &beta, plain[0], ROWS * WIDTH,
            &terminal, &refusal, text, 0) != VOLGWAIN_OK)
        return 1;
    printf("the rows are %s\n", memcmp(cells, plain, sizeof cells) == 0 ? "the same" : "others");
    printf("the terminal is %s\n", memcmp(&total, &terminal.value, sizeof total) == 0 ? "the same" : "another");
    return 0;
}
