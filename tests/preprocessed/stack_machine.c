/* A machine with a stack of linked cells, which runs a program of a few operations. */
#include <stdlib.h>

enum operation { HALT, PUSH, ADD, MULTIPLY, DUPLICATE, EXCHANGE, DROP, JUMP_IF_ZERO, };

typedef struct cell {
    long value;
    struct cell *below;
} cell;

typedef struct {
    enum operation operation;
    long argument;
} instruction;

typedef struct {
    cell *top;
    unsigned depth;
    int failed;
} machine;

static const instruction program[] = {
    { PUSH, 5 },
    { PUSH, 2 },
    { EXCHANGE, 0 },
    { MULTIPLY, 0 },
    { DUPLICATE, 0 },
    { JUMP_IF_ZERO, 10 },
    { PUSH, -1 },
    { ADD, 0 },
    { PUSH, 0 },
    { JUMP_IF_ZERO, 4 },
    { DROP, 0 },
    { HALT, 0 },
};

static void push(machine *m, long value)
{
    cell *new = malloc(sizeof *new);

    if (!new) {
        m->failed = 1;
        return;
    }
    new->value = value;
    new->below = m->top;
    m->top = new;
    m->depth++;
}

static long pop(machine *m)
{
    cell *top = m->top;
    long value;

    if (!top) {
        m->failed = 1;
        return 0;
    }
    value = top->value;
    m->top = top->below;
    m->depth--;
    free(top);
    return value;
}

static unsigned step(machine *m, unsigned at)
{
    const instruction *now = &program[at];
    long a, b;

    if (now->operation == PUSH)
        push(m, now->argument);
    else if (now->operation == ADD) {
        b = pop(m), a = pop(m);
        push(m, a + b);
    } else if (now->operation == MULTIPLY) {
        b = pop(m), a = pop(m);
        push(m, a * b);
    } else if (now->operation == DUPLICATE) {
        a = pop(m);
        push(m, a);
        push(m, a);
    } else if (now->operation == EXCHANGE) {
        b = pop(m), a = pop(m);
        push(m, b);
        push(m, a);
    } else if (now->operation == DROP)
        (void)pop(m);
    else if (now->operation == JUMP_IF_ZERO && pop(m) == 0)
        return (unsigned)now->argument;
    return at + 1;
}

static void clear(machine *m)
{
    while (m->top)
        pop(m);
}

int main(void)
{
    machine m = { .top = NULL, .depth = 0, .failed = 0 };
    unsigned at = 0, steps = 0;

    while (!m.failed && program[at].operation != HALT && steps++ < 1000)
        at = step(&m, at);
    clear(&m);
    return m.failed ? EXIT_FAILURE : EXIT_SUCCESS;
}
