/* A stack whose nodes are pushed by compare and exchange, with a count in an atomic integer. */
#include <stdatomic.h>
#include <stdbool.h>
#include <stdlib.h>

struct node {
    struct node *next;
    unsigned value;
};

struct stack {
    struct node *_Atomic top;
    atomic_uint count;
};

static struct stack stack;

static bool push(struct stack *stack, unsigned value)
{
    struct node *node = malloc(sizeof *node);

    if (!node)
        return false;
    node->value = value;
    node->next = atomic_load(&stack->top);
    while (!atomic_compare_exchange_weak(&stack->top, &node->next, node))
        ;
    atomic_fetch_add(&stack->count, 1);
    return true;
}

static struct node *pop_all(struct stack *stack)
{
    struct node *node = atomic_exchange(&stack->top, NULL);

    atomic_store(&stack->count, 0);
    return node;
}

static unsigned long drop(struct node *node)
{
    unsigned long sum = 0;

    while (node) {
        struct node *next = node->next;
        sum += node->value;
        free(node);
        node = next;
    }
    return sum;
}

int main(void)
{
    unsigned long sum = 0;

    for (unsigned i = 0; i < 100; i++) {
        if (!push(&stack, i))
            break;
        if (atomic_load(&stack.count) == 10)
            sum += drop(pop_all(&stack));
    }
    sum += drop(pop_all(&stack));
    return sum > 4950;
}
