/* A scanner of sums: a state machine by `switch`, which keeps the numbers in a list. */
#include <stdbool.h>
#include <stddef.h>
#include <stdlib.h>

enum state { START, IN_NUMBER, BEHIND, FAILED };

struct number {
    unsigned long value;
    struct number *earlier;
};

struct scanner {
    enum state state;
    struct number *numbers;
};

extern char __VERIFIER_nondet_char(void);

static bool is_digit(char c)
{
    return '0' <= c && c <= '9';
}

static bool push(struct scanner *scanner, char c)
{
    struct number *number = malloc(sizeof(struct number));

    if (number == NULL)
        return false;
    number->value = (unsigned long)(c - '0');
    number->earlier = scanner->numbers;
    scanner->numbers = number;
    return true;
}

static void step(struct scanner *scanner, char c)
{
    struct number *top = scanner->numbers;

    switch (scanner->state) {
    case START:
        if (is_digit(c))
            scanner->state = push(scanner, c) ? IN_NUMBER : FAILED;
        else if (c != ' ')
            scanner->state = FAILED;
        break;
    case IN_NUMBER:
        if (is_digit(c))
            top->value = 10 * top->value + (unsigned long)(c - '0');
        else
            scanner->state = c == '+' ? START : c == ' ' ? BEHIND : FAILED;
        break;
    case BEHIND:
        if (c == '+')
            scanner->state = START;
        else if (c != ' ')
            scanner->state = FAILED;
        break;
    default:
        break;
    }
}

static unsigned long sum(struct scanner *scanner)
{
    unsigned long total = 0;

    while (scanner->numbers) {
        struct number *number = scanner->numbers;
        total += number->value;
        scanner->numbers = number->earlier;
        free(number);
    }
    return total;
}

int main(void)
{
    struct scanner scanner = { START, NULL };
    char c;

    while ((c = __VERIFIER_nondet_char()) != '\n')
        step(&scanner, c);
    return sum(&scanner) > 255;
}
