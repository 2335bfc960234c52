/* Nodes of one size are kept for their next use, on a list for each thread. */
#include <stdlib.h>

#define KEPT 32

struct node {
    struct node *next;
    void *payload;
};

static __thread struct node *cached;
static __thread unsigned int cached_count;

static struct node *node_get(void *payload)
{
    struct node *node = cached;

    if (node) {
        cached = node->next;
        cached_count--;
    } else {
        node = malloc(sizeof *node);
        if (!node)
            return NULL;
    }
    node->payload = payload;
    node->next = NULL;
    return node;
}

static void node_put(struct node *node)
{
    if (cached_count == KEPT) {
        free(node);
        return;
    }
    node->payload = NULL;
    node->next = cached;
    cached = node;
    cached_count++;
}

static void cache_drop(void)
{
    while (cached) {
        struct node *next = cached->next;
        free(cached);
        cached = next;
    }
    cached_count = 0;
}

int main(void)
{
    struct node *stack = NULL;
    int depth;

    for (depth = 0; depth < 40; depth++) {
        struct node *node = node_get(&depth);
        if (!node)
            break;
        node->next = stack;
        stack = node;
    }
    while (stack) {
        struct node *next = stack->next;
        node_put(stack);
        stack = next;
    }
    cache_drop();
    return 0;
}
