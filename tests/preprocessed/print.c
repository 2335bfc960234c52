/* Prints a list of squares, and tells on standard error where memory is short. */
#include <stdio.h>
#include <stdlib.h>

struct square {
    long root;
    long value;
    struct square *next;
};

static struct square *square_of(long root, struct square *next)
{
    struct square *square = malloc(sizeof *square);

    if (!square)
        return NULL;
    square->root = root;
    square->value = root * root;
    square->next = next;
    return square;
}

static void show(const struct square *square)
{
    for (; square; square = square->next)
        printf("%ld^2 = %ld\n", square->root, square->value);
}

static void drop(struct square *square)
{
    while (square) {
        struct square *next = square->next;
        free(square);
        square = next;
    }
}

int main(void)
{
    struct square *squares = NULL;

    for (long root = 10; root > 0; --root) {
        struct square *square = square_of(root, squares);
        if (!square) {
            puts("no memory");
            drop(squares);
            return 1;
        }
        squares = square;
    }
    show(squares);
    drop(squares);
    return 0;
}
