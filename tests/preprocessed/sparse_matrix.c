/* A sparse matrix of integers: each row is a list of its cells, in the order of their columns. */
#include <stdbool.h>
#include <stdlib.h>

#define ROWS    12
#define COLUMNS 20

struct cell {
    int column;
    long value;
    struct cell *right;
};

struct matrix {
    struct cell *rows[ROWS];
    unsigned used;
};

extern int __VERIFIER_nondet_int(void);
extern long __VERIFIER_nondet_long(void);

static struct matrix *matrix_new(void)
{
    return calloc(1, sizeof(struct matrix));
}

static struct cell **find(struct matrix *matrix, int row, int column)
{
    struct cell **place = &matrix->rows[row];

    while (*place && (*place)->column < column)
        place = &(*place)->right;
    return place;
}

static long get(struct matrix *matrix, int row, int column)
{
    struct cell *cell = *find(matrix, row, column);

    return cell && cell->column == column ? cell->value : 0;
}

static bool set(struct matrix *matrix, int row, int column, long value)
{
    struct cell **place = find(matrix, row, column), *cell = *place;
    bool is_there = cell && cell->column == column;

    if (value == 0) {
        if (is_there) {
            *place = cell->right;
            free(cell);
            matrix->used--;
        }
        return true;
    }
    if (!is_there) {
        cell = malloc(sizeof(struct cell));
        if (!cell)
            return false;
        cell->column = column;
        cell->right = *place;
        *place = cell;
        matrix->used++;
    }
    cell->value = value;
    return true;
}

static bool add_row(struct matrix *matrix, int to, int from, long factor)
{
    for (struct cell *cell = matrix->rows[from]; cell; cell = cell->right)
        if (!set(matrix, to, cell->column, get(matrix, to, cell->column) + factor * cell->value))
            return false;
    return true;
}

static void transposed(struct matrix *to, const struct matrix *from)
{
    for (int row = 0; row < ROWS; ++row)
        for (const struct cell *cell = from->rows[row]; cell != NULL; cell = cell->right)
            if (cell->column < ROWS && row < COLUMNS)
                set(to, cell->column, row, cell->value);
}

static void matrix_free(struct matrix *matrix)
{
    struct cell *cell, *right;

    for (int row = 0; row < ROWS; ++row)
        for (cell = matrix->rows[row]; cell; cell = right) {
            right = cell->right;
            free(cell);
        }
    free(matrix);
}

int main(void)
{
    struct matrix *one = matrix_new(), *two = matrix_new();

    if (one && two) {
        for (int i = 0; i < 30; i++) {
            int row = __VERIFIER_nondet_int(), column = __VERIFIER_nondet_int();

            if (row < 0 || row >= ROWS || column < 0 || column >= COLUMNS)
                continue;
            if (!set(one, row, column, __VERIFIER_nondet_long()))
                break;
        }
        add_row(one, 0, 1, -2);
        transposed(two, one);
    }
    if (one)
        matrix_free(one);
    if (two)
        matrix_free(two);
    return 0;
}
