/* A stack in an array that is made anew with twice the room where it is full. */
#include <stdbool.h>
#include <stdlib.h>
#include <string.h>

struct item {
    int key;
    unsigned weight;
};

struct stack {
    struct item *items;
    size_t used, room;
};

extern int __VERIFIER_nondet_int(void);

static bool grow(struct stack *stack)
{
    size_t room = stack->room ? 2 * stack->room : 8;
    struct item *items = malloc(room * sizeof(*items));

    if (!items)
        return false;
    if (stack->used)
        memcpy(items, stack->items, stack->used * sizeof(*items));
    free(stack->items);
    stack->items = items;
    stack->room = room;
    return true;
}

static bool push(struct stack *stack, int key)
{
    if (stack->used == stack->room && !grow(stack))
        return false;
    stack->items[stack->used].key = key;
    stack->items[stack->used].weight = 1;
    stack->used++;
    return true;
}

static bool pop(struct stack *stack, int *key)
{
    if (stack->used == 0)
        return false;
    *key = stack->items[--stack->used].key;
    return true;
}

int main(void)
{
    struct stack stack = { NULL, 0, 0 };
    int key, count = 0;

    while (__VERIFIER_nondet_int()) {
        if (!push(&stack, __VERIFIER_nondet_int()))
            break;
        count++;
    }
    while (pop(&stack, &key))
        count--;
    free(stack.items);
    return count;
}
