/* Sorts a linked list by merging, from the shortest runs up. */
#include <assert.h>
#include <stdlib.h>

typedef struct node *list;

struct node {
    unsigned key;
    list next;
};

extern unsigned __VERIFIER_nondet_uint(void);
extern int __VERIFIER_nondet_int(void);

static list cut(list from, unsigned count)
{
    list rest;

    while (from && --count)
        from = from->next;
    if (!from)
        return NULL;
    rest = from->next;
    from->next = NULL;
    return rest;
}

static list *merge(list left, list right, list *end)
{
    while (left && right) {
        list *smaller = right->key < left->key ? &right : &left;

        *end = *smaller;
        *smaller = (*smaller)->next;
        end = &(*end)->next;
    }
    *end = left ? left : right;
    while (*end)
        end = &(*end)->next;
    return end;
}

static list sorted(list unsorted)
{
    unsigned length, merges;

    for (length = 1;; length *= 2) {
        list result = NULL, *end = &result;

        for (merges = 0; unsorted; merges++) {
            list left = unsorted, right = cut(left, length);

            unsorted = right ? cut(right, length) : NULL;
            end = merge(left, right, end);
        }
        unsorted = result;
        if (merges <= 1)
            return result;
    }
}

static list prepend(unsigned key, list next)
{
    list node = malloc(sizeof(struct node));

    if (node) {
        node->key = key;
        node->next = next;
        return node;
    }
    while (next) {
        node = next;
        next = next->next;
        free(node);
    }
    return NULL;
}

int main(void)
{
    list all = NULL, node;

    while (__VERIFIER_nondet_int())
        all = prepend(__VERIFIER_nondet_uint(), all);
    all = sorted(all);
    while ((node = all)) {
        all = node->next;
        assert(!all || node->key <= all->key);
        free(node);
    }
    return 0;
}
