/* A sorted list of intervals that do not touch; what is added is joined with its neighbours. */
#include <stdbool.h>
#include <stdlib.h>

typedef struct {
    long from, to;
} interval;

struct node {
    interval covered;
    struct node *next;
};

extern long __VERIFIER_nondet_long(void);

static bool touch(interval left, interval right)
{
    return left.from <= right.to + 1 && right.from <= left.to + 1;
}

static interval joined(interval left, interval right)
{
    interval both = left;

    if (right.from < both.from)
        both.from = right.from;
    if (right.to > both.to)
        both.to = right.to;
    return both;
}

static bool add(struct node **list, interval new)
{
    struct node *node;

    while (*list && (*list)->covered.to + 1 < new.from)
        list = &(*list)->next;
    while ((node = *list) && touch(node->covered, new)) {
        new = joined(node->covered, new);
        *list = node->next;
        free(node);
    }
    node = malloc(sizeof(struct node));
    if (!node)
        return false;
    node->covered = new;
    node->next = *list;
    *list = node;
    return true;
}

static long size_of(const struct node *node)
{
    long size = 0;

    for (; node; node = node->next)
        size += node->covered.to - node->covered.from + 1;
    return size;
}

int main(void)
{
    struct node *list = NULL, *next;
    long limit = 0;

    for (int i = 0; i < 20; i++) {
        interval new;

        new.from = __VERIFIER_nondet_long() % 1000;
        new.to = new.from + 9;
        if (!add(&list, new))
            break;
        limit += 10;
    }
    if (size_of(list) > limit)
        abort();
    for (; list; list = next) {
        next = list->next;
        free(list);
    }
    return 0;
}
