/* A heap of linked nodes, the smallest on top, by a child on the left and a brother on the right. */
#include <stddef.h>

struct node {
    int key;
    struct node *child, *brother;
};

extern int __VERIFIER_nondet_int(void);

static struct node *meld(struct node *a, struct node *b)
{
    if (!a || !b)
        return a ? a : b;
    if (b->key < a->key) {
        struct node *other = a;
        a = b;
        b = other;
    }
    b->brother = a->child;
    a->child = b;
    return a;
}

static struct node *meld_pairs(struct node *node)
{
    struct node *next, *rest;

    if (!node || !node->brother)
        return node;
    next = node->brother;
    rest = next->brother;
    node->brother = next->brother = NULL;
    return meld(meld(node, next), meld_pairs(rest));
}

static struct node *insert(struct node *top, int key)
{
    struct node *node = (struct node *)malloc(sizeof(struct node));

    if (node == NULL)
        return top;
    node->key = abs(key);
    node->child = node->brother = NULL;
    return meld(top, node);
}

static struct node *without_top(struct node *top)
{
    struct node *rest = meld_pairs(top->child);

    free(top);
    return rest;
}

int main(void)
{
    struct node *top = NULL;
    int last = 0;

    for (int i = 0; i < 30; i++)
        top = insert(top, __VERIFIER_nondet_int());
    while (top) {
        if (top->key < last)
            return 1;
        last = top->key;
        top = without_top(top);
    }
    return 0;
}
