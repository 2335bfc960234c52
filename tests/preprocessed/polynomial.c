/* Polynomials as lists of terms, from the highest exponent down, and their sums and products. */
#include <stdlib.h>

struct term {
    int factor;
    unsigned exponent;
    struct term *next;
};

typedef struct term *polynomial;

static struct term *term_new(int factor, unsigned exponent, struct term *next)
{
    struct term *term = malloc(sizeof(struct term));

    if (term == NULL)
        exit(2);
    *term = (struct term){ factor, exponent, next };
    return term;
}

static void add(polynomial *sum, int factor, unsigned exponent)
{
    while (*sum && (*sum)->exponent > exponent)
        sum = &(*sum)->next;
    if (*sum && (*sum)->exponent == exponent) {
        (*sum)->factor += factor;
        if ((*sum)->factor == 0) {
            struct term *gone = *sum;
            *sum = gone->next;
            free(gone);
        }
    } else if (factor != 0) {
        *sum = term_new(factor, exponent, *sum);
    }
}

static polynomial product(polynomial left, polynomial right)
{
    polynomial result = NULL;

    for (struct term *a = left; a; a = a->next)
        for (struct term *b = right; b; b = b->next)
            add(&result, a->factor * b->factor, a->exponent + b->exponent);
    return result;
}

static int at(polynomial terms, int x)
{
    int value = 0;

    for (; terms; terms = terms->next) {
        int power = terms->factor;

        for (unsigned i = 0; i < terms->exponent; i++)
            power *= x;
        value += power;
    }
    return value;
}

static void drop(polynomial terms)
{
    while (terms) {
        struct term *next = terms->next;
        free(terms);
        terms = next;
    }
}

int main(void)
{
    polynomial one = NULL, two = NULL, both;
    int is_right;

    add(&one, 1, 1);
    add(&one, -1, 0);
    add(&two, 1, 1);
    add(&two, 1, 0);
    both = product(one, two);
    is_right = at(both, 7) == 48;
    drop(one);
    drop(two);
    drop(both);
    return is_right ? 0 : 1;
}
