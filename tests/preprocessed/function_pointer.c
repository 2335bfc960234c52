/* A sorted list whose order is given by a function, with another that is called for each node. */
#include <stdlib.h>

struct node {
    int value;
    struct node *next;
};

struct list {
    struct node *first;
    int (*compare)(const struct node *, const struct node *);
};

static int ascending(const struct node *a, const struct node *b)
{
    return (a->value > b->value) - (a->value < b->value);
}

static int descending(const struct node *a, const struct node *b)
{
    return ascending(b, a);
}

static void insert(struct list *list, struct node *node)
{
    struct node **place = &list->first;

    while (*place && list->compare(*place, node) < 0)
        place = &(*place)->next;
    node->next = *place;
    *place = node;
}

static void each(struct list *list, void (*visit)(struct node *))
{
    struct node *node = list->first, *next;

    for (; node != NULL; node = next) {
        next = node->next;
        (*visit)(node);
    }
}

static void drop(struct node *node)
{
    free(node);
}

int main(int argc, char **argv)
{
    struct list list = { NULL, argc > 1 ? descending : ascending };

    for (int i = 0; i < 20; i++) {
        struct node *node = malloc(sizeof(struct node));
        if (node == NULL)
            break;
        node->value = i * 7 % 20;
        insert(&list, node);
    }
    each(&list, drop);
    return 0;
}
